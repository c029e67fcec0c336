# unix_path 1.1.0: the calls of unix_path.h, for x86-64 Windows. Compiled from proved sources.
# tools/generate made this file. PROVED.txt has its SHA-256, and says what it was made from.
# Licensed under MIT or Apache-2.0.
	.def	unix_path.filler.trimmed_blocks_len;
	.scl	3;
	.type	32;
	.endef
	.section	.rdata,"dr"
	.p2align	4, 0x0
.Lunix_path_CPI0_0:
	.zero	16,46
.Lunix_path_CPI0_1:
	.zero	16,47
	.text
	.p2align	4
# unix_path::filler::trimmed_blocks_len
unix_path.filler.trimmed_blocks_len:
	.p2align	4
.Lunix_path_BB0_1:
	movq	%rdx, %rax
	cmpq	$17, %rdx
	jb	.Lunix_path_BB0_3
	leaq	-16(%rax), %rdx
	movdqu	-17(%rcx,%rax), %xmm0
	movdqu	-16(%rcx,%rax), %xmm1
	movdqa	.Lunix_path_CPI0_0(%rip), %xmm2
	pcmpeqb	%xmm1, %xmm2
	movdqa	.Lunix_path_CPI0_1(%rip), %xmm3
	pcmpeqb	%xmm3, %xmm1
	pcmpeqb	%xmm3, %xmm0
	pand	%xmm2, %xmm0
	por	%xmm1, %xmm0
	pmovmskb	%xmm0, %r8d
	cmpl	$65535, %r8d
	je	.Lunix_path_BB0_1
.Lunix_path_BB0_3:
	retq
	.def	path_archive.records.split;
	.scl	3;
	.type	32;
	.endef
	.p2align	4
# path_archive::records::split
path_archive.records.split:
	pushq	%r15
	pushq	%r14
	pushq	%r13
	pushq	%r12
	pushq	%rsi
	pushq	%rdi
	pushq	%rbp
	pushq	%rbx
	subq	$16, %rsp
	movb	$1, %al
	testq	%rdx, %rdx
	je	.Lunix_path_BB1_52
	movq	%r9, %rbp
	movq	%rdx, %rsi
	xorl	%edx, %edx
	xorl	%r9d, %r9d
	xorl	%edi, %edi
.Lunix_path_BB1_2:
	movq	%rdx, (%rsp)
	leaq	(%rcx,%rdi), %rbx
	movq	%rsi, %r15
	subq	%rdi, %r15
	cmpq	$15, %r15
	ja	.Lunix_path_BB1_6
	xorl	%edx, %edx
	.p2align	4
.Lunix_path_BB1_4:
	cmpb	$0, (%rbx,%rdx)
	je	.Lunix_path_BB1_12
	incq	%rdx
	cmpq	%rdx, %r15
	jne	.Lunix_path_BB1_4
	jmp	.Lunix_path_BB1_51
	.p2align	4
.Lunix_path_BB1_6:
	movq	%r15, %r10
	addq	$-16, %r10
	je	.Lunix_path_BB1_10
	xorl	%r11d, %r11d
	.p2align	4
.Lunix_path_BB1_8:
	movdqu	(%rbx,%r11), %xmm0
	pxor	%xmm1, %xmm1
	pcmpeqb	%xmm0, %xmm1
	pmovmskb	%xmm1, %eax
	orl	$65536, %eax
	rep		bsfl	%eax, %eax
	cmpw	$15, %ax
	jbe	.Lunix_path_BB1_11
	addq	$16, %r11
	cmpq	%r10, %r11
	jb	.Lunix_path_BB1_8
.Lunix_path_BB1_10:
	movdqu	(%rbx,%r10), %xmm0
	pxor	%xmm1, %xmm1
	pcmpeqb	%xmm0, %xmm1
	pmovmskb	%xmm1, %eax
	orl	$65536, %eax
	rep		bsfl	%eax, %edx
	addq	%r10, %rdx
	jmp	.Lunix_path_BB1_12
.Lunix_path_BB1_11:
	movzwl	%ax, %edx
	addq	%r11, %rdx
.Lunix_path_BB1_12:
	leaq	(%rdx,%rdi), %r14
	xorl	%r10d, %r10d
	cmpq	%r15, %rdx
	movl	$0, %r15d
	cmovbq	%r14, %r15
	jae	.Lunix_path_BB1_55
	leaq	(%rcx,%r14), %r10
	incq	%r10
	incq	%r14
	movq	%rsi, %r12
	subq	%r14, %r12
	cmpq	$15, %r12
	ja	.Lunix_path_BB1_17
	xorl	%edx, %edx
	cmpq	%r14, %rsi
	je	.Lunix_path_BB1_23
	.p2align	4
.Lunix_path_BB1_15:
	cmpb	$0, (%r10,%rdx)
	je	.Lunix_path_BB1_23
	incq	%rdx
	cmpq	%rdx, %r12
	jne	.Lunix_path_BB1_15
	jmp	.Lunix_path_BB1_51
	.p2align	4
.Lunix_path_BB1_17:
	movq	%r12, %r11
	addq	$-16, %r11
	je	.Lunix_path_BB1_21
	xorl	%r13d, %r13d
	.p2align	4
.Lunix_path_BB1_19:
	movdqu	(%r10,%r13), %xmm0
	pxor	%xmm1, %xmm1
	pcmpeqb	%xmm0, %xmm1
	pmovmskb	%xmm1, %eax
	orl	$65536, %eax
	rep		bsfl	%eax, %eax
	cmpw	$15, %ax
	jbe	.Lunix_path_BB1_22
	addq	$16, %r13
	cmpq	%r11, %r13
	jb	.Lunix_path_BB1_19
.Lunix_path_BB1_21:
	movdqu	(%r10,%r11), %xmm0
	pxor	%xmm1, %xmm1
	pcmpeqb	%xmm0, %xmm1
	pmovmskb	%xmm1, %eax
	orl	$65536, %eax
	rep		bsfl	%eax, %edx
	addq	%r11, %rdx
	jmp	.Lunix_path_BB1_23
.Lunix_path_BB1_22:
	movzwl	%ax, %edx
	addq	%r13, %rdx
	.p2align	4
.Lunix_path_BB1_23:
	leaq	(%rdx,%r14), %r13
	xorl	%r10d, %r10d
	cmpq	%r12, %rdx
	movl	$0, %r12d
	cmovbq	%r13, %r12
	jae	.Lunix_path_BB1_55
	leaq	(%rcx,%r13), %r11
	incq	%r11
	incq	%r13
	movq	%rsi, %rdx
	subq	%r13, %rdx
	cmpq	$15, %rdx
	ja	.Lunix_path_BB1_28
	xorl	%r10d, %r10d
	cmpq	%r13, %rsi
	je	.Lunix_path_BB1_35
	.p2align	4
.Lunix_path_BB1_26:
	cmpb	$0, (%r11,%r10)
	je	.Lunix_path_BB1_35
	incq	%r10
	cmpq	%r10, %rdx
	jne	.Lunix_path_BB1_26
	jmp	.Lunix_path_BB1_51
	.p2align	4
.Lunix_path_BB1_28:
	movq	%rcx, 8(%rsp)
	movq	%rbp, %rcx
	movq	%rdx, %rbp
	addq	$-16, %rbp
	je	.Lunix_path_BB1_32
	xorl	%eax, %eax
	.p2align	4
.Lunix_path_BB1_30:
	movdqu	(%r11,%rax), %xmm0
	pxor	%xmm1, %xmm1
	pcmpeqb	%xmm0, %xmm1
	pmovmskb	%xmm1, %r10d
	orl	$65536, %r10d
	rep		bsfl	%r10d, %r10d
	cmpw	$15, %r10w
	jbe	.Lunix_path_BB1_33
	addq	$16, %rax
	cmpq	%rbp, %rax
	jb	.Lunix_path_BB1_30
.Lunix_path_BB1_32:
	movdqu	(%r11,%rbp), %xmm0
	pxor	%xmm1, %xmm1
	pcmpeqb	%xmm0, %xmm1
	pmovmskb	%xmm1, %eax
	orl	$65536, %eax
	rep		bsfl	%eax, %r10d
	addq	%rbp, %r10
	jmp	.Lunix_path_BB1_34
.Lunix_path_BB1_33:
	movzwl	%r10w, %r10d
	addq	%rax, %r10
.Lunix_path_BB1_34:
	movq	%rcx, %rbp
	movq	8(%rsp), %rcx
.Lunix_path_BB1_35:
	cmpq	%rdx, %r10
	jae	.Lunix_path_BB1_51
	subq	%rdi, %r15
	movl	$4, %edi
	cmpq	$1, %r15
	jne	.Lunix_path_BB1_42
	movzbl	(%rbx), %eax
	addl	$-100, %eax
	cmpl	$8, %eax
	ja	.Lunix_path_BB1_42
	leaq	.Lunix_path_JTI1_0(%rip), %rdx
	movslq	(%rdx,%rax,4), %rax
	addq	%rdx, %rax
	jmpq	*%rax
.Lunix_path_BB1_39:
	movl	$5, %edi
	.p2align	4
.Lunix_path_BB1_42:
	xorl	%r11d, %r11d
	movq	(%rsp), %rdx
	cmpq	%rbp, %rdx
	jae	.Lunix_path_BB1_44
.Lunix_path_BB1_43:
	leaq	(%rdx,%rdx,4), %rax
	movq	%r14, (%r8,%rax,8)
	movq	%r12, 8(%r8,%rax,8)
	movq	%rdi, 16(%r8,%rax,8)
	movq	%r9, 24(%r8,%rax,8)
	movq	$0, 32(%r8,%rax,8)
.Lunix_path_BB1_44:
	addq	%r13, %r10
	leaq	1(%rdx), %rax
	testb	%r11b, %r11b
	je	.Lunix_path_BB1_48
	cmpq	%rbp, %rax
	jae	.Lunix_path_BB1_47
	incq	%r12
	leaq	(%rax,%rax,4), %rax
	movq	%r12, (%r8,%rax,8)
	movq	%r10, 8(%r8,%rax,8)
	movq	$2, 16(%r8,%rax,8)
	movq	%r9, 24(%r8,%rax,8)
	movq	$0, 32(%r8,%rax,8)
.Lunix_path_BB1_47:
	addq	$2, %rdx
	jmp	.Lunix_path_BB1_49
	.p2align	4
.Lunix_path_BB1_48:
	movq	%rax, %rdx
.Lunix_path_BB1_49:
	incq	%r10
	incq	%r9
	movq	%r10, %rdi
	cmpq	%rsi, %r10
	jb	.Lunix_path_BB1_2
	jmp	.Lunix_path_BB1_56
.Lunix_path_BB1_40:
	movl	$1, %edi
	movb	$1, %r11b
	movq	(%rsp), %rdx
	cmpq	%rbp, %rdx
	jb	.Lunix_path_BB1_43
	jmp	.Lunix_path_BB1_44
.Lunix_path_BB1_41:
	movl	$3, %edi
	xorl	%r11d, %r11d
	movq	(%rsp), %rdx
	cmpq	%rbp, %rdx
	jae	.Lunix_path_BB1_44
	jmp	.Lunix_path_BB1_43
.Lunix_path_BB1_50:
	xorl	%r11d, %r11d
	xorl	%edi, %edi
	movq	(%rsp), %rdx
	cmpq	%rbp, %rdx
	jb	.Lunix_path_BB1_43
	jmp	.Lunix_path_BB1_44
.Lunix_path_BB1_51:
	xorl	%r10d, %r10d
	xorl	%eax, %eax
	jmp	.Lunix_path_BB1_53
.Lunix_path_BB1_52:
	xorl	%r10d, %r10d
.Lunix_path_BB1_53:
	movq	%r10, %rdx
	addq	$16, %rsp
	popq	%rbx
	popq	%rbp
	popq	%rdi
	popq	%rsi
	popq	%r12
	popq	%r13
	popq	%r14
	popq	%r15
	retq
.Lunix_path_BB1_55:
	xorl	%eax, %eax
	jmp	.Lunix_path_BB1_53
.Lunix_path_BB1_56:
	movq	%rdx, %r10
	movb	$1, %al
	jmp	.Lunix_path_BB1_53
	.section	.rdata,"dr"
	.p2align	2, 0x0
.Lunix_path_JTI1_0:
	.long	.Lunix_path_BB1_39-.Lunix_path_JTI1_0
	.long	.Lunix_path_BB1_42-.Lunix_path_JTI1_0
	.long	.Lunix_path_BB1_41-.Lunix_path_JTI1_0
	.long	.Lunix_path_BB1_42-.Lunix_path_JTI1_0
	.long	.Lunix_path_BB1_40-.Lunix_path_JTI1_0
	.long	.Lunix_path_BB1_42-.Lunix_path_JTI1_0
	.long	.Lunix_path_BB1_42-.Lunix_path_JTI1_0
	.long	.Lunix_path_BB1_42-.Lunix_path_JTI1_0
	.long	.Lunix_path_BB1_50-.Lunix_path_JTI1_0
	.def	core.cmp.slices.groups_equal.i8.31.core.cmp.numbers.U8PartialEq.;
	.scl	3;
	.type	32;
	.endef
	.text
	.p2align	4
# core::cmp::slices::groups_equal::<i8,31'core::cmp::numbers::U8PartialEq{}>
core.cmp.slices.groups_equal.i8.31.core.cmp.numbers.U8PartialEq.:
	cmpq	$8, %rdx
	ja	.Lunix_path_BB2_2
	movd	-4(%rcx,%rdx), %xmm0
	movd	(%rcx), %xmm1
	punpckldq	%xmm0, %xmm1
	movd	-4(%r8,%rdx), %xmm0
	movd	(%r8), %xmm2
	punpckldq	%xmm0, %xmm2
	movq	%xmm1, %rax
	movq	%xmm2, %rcx
	cmpq	%rcx, %rax
	jmp	.Lunix_path_BB2_17
.Lunix_path_BB2_2:
	cmpq	$32, %rdx
	ja	.Lunix_path_BB2_4
	leaq	-8(%rdx), %rax
	cmpq	$8, %rax
	movl	$8, %r9d
	cmovbq	%rax, %r9
	cmpq	$16, %rax
	movl	$16, %r10d
	cmovbq	%rax, %r10
	movq	(%rcx,%r9), %xmm0
	movq	(%rcx), %xmm1
	punpcklqdq	%xmm0, %xmm1
	movq	(%rcx,%r10), %xmm0
	movq	-8(%rcx,%rdx), %xmm2
	punpcklqdq	%xmm2, %xmm0
	movq	(%r8,%r9), %xmm2
	movq	(%r8), %xmm3
	punpcklqdq	%xmm2, %xmm3
	pcmpeqb	%xmm1, %xmm3
	movq	(%r8,%r10), %xmm1
	movq	-8(%r8,%rdx), %xmm2
	punpcklqdq	%xmm2, %xmm1
	pcmpeqb	%xmm0, %xmm1
	pand	%xmm3, %xmm1
	pmovmskb	%xmm1, %eax
	jmp	.Lunix_path_BB2_16
.Lunix_path_BB2_4:
	cmpq	$65, %rdx
	jae	.Lunix_path_BB2_5
	movdqu	(%rcx), %xmm0
	movdqu	16(%rcx), %xmm1
	movdqu	(%r8), %xmm2
	pcmpeqb	%xmm0, %xmm2
	movdqu	16(%r8), %xmm0
	pcmpeqb	%xmm1, %xmm0
	movdqu	-32(%rcx,%rdx), %xmm1
	movdqu	-16(%rcx,%rdx), %xmm3
	movdqu	-32(%r8,%rdx), %xmm4
	pcmpeqb	%xmm1, %xmm4
	pand	%xmm2, %xmm4
	movdqu	-16(%r8,%rdx), %xmm1
	pcmpeqb	%xmm3, %xmm1
	pand	%xmm0, %xmm1
	pand	%xmm4, %xmm1
	pmovmskb	%xmm1, %eax
	jmp	.Lunix_path_BB2_16
.Lunix_path_BB2_5:
	xorl	%eax, %eax
	movq	%rdx, %r9
	.p2align	4
.Lunix_path_BB2_6:
	movdqu	(%rcx,%rax), %xmm0
	movdqu	16(%rcx,%rax), %xmm1
	movdqu	32(%rcx,%rax), %xmm2
	movdqu	48(%rcx,%rax), %xmm3
	movdqu	(%r8,%rax), %xmm4
	pcmpeqb	%xmm0, %xmm4
	movdqu	16(%r8,%rax), %xmm0
	pcmpeqb	%xmm1, %xmm0
	movdqu	32(%r8,%rax), %xmm1
	pcmpeqb	%xmm2, %xmm1
	pand	%xmm4, %xmm1
	movdqu	48(%r8,%rax), %xmm2
	pcmpeqb	%xmm3, %xmm2
	pand	%xmm0, %xmm2
	pand	%xmm1, %xmm2
	pmovmskb	%xmm2, %r10d
	cmpl	$65535, %r10d
	jne	.Lunix_path_BB2_8
	addq	$64, %rax
	addq	$-64, %r9
	cmpq	$63, %r9
	ja	.Lunix_path_BB2_6
.Lunix_path_BB2_8:
	cmpq	$32, %r9
	jb	.Lunix_path_BB2_15
	movq	%rdx, %r9
	subq	%rax, %r9
	.p2align	4
.Lunix_path_BB2_10:
	movdqu	(%rcx,%rax), %xmm0
	movdqu	16(%rcx,%rax), %xmm1
	movdqu	(%r8,%rax), %xmm2
	pcmpeqb	%xmm0, %xmm2
	movdqu	16(%r8,%rax), %xmm0
	pcmpeqb	%xmm1, %xmm0
	pand	%xmm2, %xmm0
	pmovmskb	%xmm0, %r10d
	xorl	$65535, %r10d
	jne	.Lunix_path_BB2_14
	addq	$32, %rax
	addq	$-32, %r9
	cmpq	$31, %r9
	ja	.Lunix_path_BB2_10
	jmp	.Lunix_path_BB2_15
.Lunix_path_BB2_14:
	movb	$1, %al
	cmpq	$31, %r9
	ja	.Lunix_path_BB2_18
.Lunix_path_BB2_15:
	movdqu	-32(%rcx,%rdx), %xmm0
	movdqu	-16(%rcx,%rdx), %xmm1
	movdqu	-32(%r8,%rdx), %xmm2
	pcmpeqb	%xmm0, %xmm2
	movdqu	-16(%r8,%rdx), %xmm0
	pcmpeqb	%xmm1, %xmm0
	pand	%xmm2, %xmm0
	pmovmskb	%xmm0, %eax
.Lunix_path_BB2_16:
	xorl	$65535, %eax
.Lunix_path_BB2_17:
	setne	%al
.Lunix_path_BB2_18:
	xorb	$1, %al
	retq
	.def	core.slice.sort.small.insertion_sort.fd4dfef4a36ac24b.;
	.scl	3;
	.type	32;
	.endef
	.p2align	4
# core::slice::sort::small::insertion_sort::<#fd4dfef4a36ac24b>
core.slice.sort.small.insertion_sort.fd4dfef4a36ac24b.:
	pushq	%r15
	pushq	%r14
	pushq	%r13
	pushq	%r12
	pushq	%rsi
	pushq	%rdi
	pushq	%rbp
	pushq	%rbx
	subq	$120, %rsp
	movq	(%r8), %rax
	movq	%rax, 40(%rsp)
	movq	%r8, 72(%rsp)
	movq	8(%r8), %rsi
	cmpq	$2, %rdx
	jb	.Lunix_path_BB3_12
	movq	%rdx, %r12
	movq	%rcx, %r13
	leaq	-40(%rcx), %rax
	movq	%rax, 56(%rsp)
	movl	$1, %edx
	movq	%r12, 48(%rsp)
	movq	%rcx, 80(%rsp)
	jmp	.Lunix_path_BB3_2
.Lunix_path_BB3_4:
	xorl	%eax, %eax
.Lunix_path_BB3_10:
	movq	%r9, (%r13,%rax)
	movq	%r14, 8(%r13,%rax)
	movq	%rdi, 16(%r13,%rax)
	movq	%rbp, 24(%r13,%rax)
	movq	%r8, 32(%r13,%rax)
.Lunix_path_BB3_11:
	incq	%rdx
	addq	$40, 56(%rsp)
	cmpq	%r12, %rdx
	je	.Lunix_path_BB3_12
.Lunix_path_BB3_2:
	movq	%rdx, 64(%rsp)
	leaq	(%rdx,%rdx,4), %rbx
	movq	(%r13,%rbx,8), %rax
	movq	8(%r13,%rbx,8), %rdx
	cmpq	%rdx, %rsi
	cmovbq	%rsi, %rdx
	cmpq	%rax, %rdx
	cmovbq	%rdx, %rax
	movq	40(%rsp), %rdi
	leaq	(%rdi,%rax), %rcx
	subq	%rax, %rdx
	callq	path_archive.slot.without_dot
	movq	%rax, %r14
	movq	%rdx, %r15
	movq	-40(%r13,%rbx,8), %rax
	movq	-32(%r13,%rbx,8), %rdx
	cmpq	%rdx, %rsi
	cmovbq	%rsi, %rdx
	cmpq	%rax, %rdx
	cmovbq	%rdx, %rax
	leaq	(%rdi,%rax), %rcx
	subq	%rax, %rdx
	callq	path_archive.slot.without_dot
	movq	%rdx, %r9
	movq	%r14, %rcx
	movq	%r15, %rdx
	movq	%rax, %r8
	callq	unix_path.compare.compare
	movq	16(%r13,%rbx,8), %rdi
	movq	24(%r13,%rbx,8), %rbp
	movq	-16(%r13,%rbx,8), %rcx
	cmpq	%rcx, %rbp
	setae	%dl
	addb	%dl, %dl
	cmpq	%rcx, %rbp
	movq	-24(%r13,%rbx,8), %rcx
	movzbl	%dl, %edx
	movl	$1, %r8d
	cmovnel	%edx, %r8d
	cmpq	%rcx, %rdi
	setae	%dl
	addb	%dl, %dl
	cmpq	%rcx, %rdi
	movzbl	%dl, %ecx
	movq	64(%rsp), %rdx
	cmovel	%r8d, %ecx
	cmpb	$1, %al
	movzbl	%al, %eax
	cmovel	%ecx, %eax
	testb	%al, %al
	jne	.Lunix_path_BB3_11
	leaq	(,%rbx,8), %rax
	addq	%r13, %rax
	movq	%rdx, %r15
	movq	(%rax), %r9
	movq	8(%rax), %r14
	movq	32(%rax), %r8
	movups	-40(%rax), %xmm0
	movups	-24(%rax), %xmm1
	movups	%xmm0, (%rax)
	movups	%xmm1, 16(%rax)
	movq	-8(%rax), %rcx
	movq	%rcx, 32(%rax)
	decq	%r15
	je	.Lunix_path_BB3_4
	movq	%r8, 104(%rsp)
	cmpq	%r14, %rsi
	movq	%r14, 88(%rsp)
	cmovbq	%rsi, %r14
	cmpq	%r9, %r14
	movq	%r9, 96(%rsp)
	movq	%r9, %rax
	cmovbq	%r14, %rax
	movq	40(%rsp), %rcx
	addq	%rax, %rcx
	movq	%rcx, 112(%rsp)
	subq	%rax, %r14
	movq	56(%rsp), %rbx
	.p2align	4
.Lunix_path_BB3_6:
	movq	112(%rsp), %rcx
	movq	%r14, %rdx
	callq	path_archive.slot.without_dot
	movq	%rax, %r12
	movq	%rdx, %r13
	movq	(%rbx), %rax
	movq	8(%rbx), %rdx
	cmpq	%rdx, %rsi
	cmovbq	%rsi, %rdx
	cmpq	%rax, %rdx
	cmovbq	%rdx, %rax
	movq	40(%rsp), %rcx
	addq	%rax, %rcx
	subq	%rax, %rdx
	callq	path_archive.slot.without_dot
	movq	%rdx, %r9
	movq	%r12, %rcx
	movq	%r13, %rdx
	movq	%rax, %r8
	callq	unix_path.compare.compare
	movq	24(%rbx), %rcx
	cmpq	%rcx, %rbp
	setae	%dl
	addb	%dl, %dl
	cmpq	%rcx, %rbp
	movq	16(%rbx), %rcx
	movzbl	%dl, %edx
	movl	$1, %r8d
	cmovnel	%edx, %r8d
	cmpq	%rcx, %rdi
	setae	%dl
	addb	%dl, %dl
	cmpq	%rcx, %rdi
	movzbl	%dl, %ecx
	cmovel	%r8d, %ecx
	cmpb	$1, %al
	movzbl	%al, %eax
	cmovel	%ecx, %eax
	testb	%al, %al
	jne	.Lunix_path_BB3_9
	decq	%r15
	movq	32(%rbx), %rax
	movq	%rax, 72(%rbx)
	movups	(%rbx), %xmm0
	movups	16(%rbx), %xmm1
	movups	%xmm1, 56(%rbx)
	movups	%xmm0, 40(%rbx)
	addq	$-40, %rbx
	testq	%r15, %r15
	jne	.Lunix_path_BB3_6
	xorl	%r15d, %r15d
.Lunix_path_BB3_9:
	movq	48(%rsp), %r12
	shlq	$3, %r15
	leaq	(%r15,%r15,4), %rax
	movq	80(%rsp), %r13
	movq	64(%rsp), %rdx
	movq	104(%rsp), %r8
	movq	96(%rsp), %r9
	movq	88(%rsp), %r14
	jmp	.Lunix_path_BB3_10
.Lunix_path_BB3_12:
	movq	72(%rsp), %rax
	movq	40(%rsp), %rcx
	movq	%rcx, (%rax)
	movq	%rsi, 8(%rax)
	addq	$120, %rsp
	popq	%rbx
	popq	%rbp
	popq	%rdi
	popq	%rsi
	popq	%r12
	popq	%r13
	popq	%r14
	popq	%r15
	retq
	.def	path_archive.slot.without_dot;
	.scl	3;
	.type	32;
	.endef
	.p2align	4
# path_archive::slot::without_dot
path_archive.slot.without_dot:
	pushq	%rsi
	pushq	%rdi
	subq	$72, %rsp
	movq	%rdx, %rdi
	movq	%rcx, %rsi
	testq	%rdx, %rdx
	je	.Lunix_path_BB4_36
	movq	%rdi, %r8
	movq	%rdi, %rax
	jmp	.Lunix_path_BB4_3
	.p2align	4
.Lunix_path_BB4_2:
	movq	%rax, %r8
	testq	%rax, %rax
	je	.Lunix_path_BB4_36
.Lunix_path_BB4_3:
	decq	%rax
	je	.Lunix_path_BB4_9
	movzbl	(%rsi,%rax), %ecx
	cmpl	$47, %ecx
	je	.Lunix_path_BB4_7
	cmpl	$46, %ecx
	jne	.Lunix_path_BB4_9
	cmpb	$47, -1(%rsi,%rax)
	jne	.Lunix_path_BB4_9
.Lunix_path_BB4_7:
	movq	%rdi, %rcx
	subq	%rax, %rcx
	cmpq	$8, %rcx
	jne	.Lunix_path_BB4_2
	movq	%rsi, %rcx
	movq	%rax, %rdx
	callq	unix_path.filler.trimmed_blocks_len
	jmp	.Lunix_path_BB4_2
.Lunix_path_BB4_9:
	xorps	%xmm0, %xmm0
	movaps	%xmm0, 48(%rsp)
	movq	$0, 64(%rsp)
	movzbl	(%rsi), %ecx
	cmpb	$46, %cl
	jne	.Lunix_path_BB4_14
	cmpq	$1, %r8
	je	.Lunix_path_BB4_13
	cmpb	$47, 1(%rsi)
	je	.Lunix_path_BB4_13
	cmpb	$47, (%rsi)
	jne	.Lunix_path_BB4_22
.Lunix_path_BB4_13:
	incq	%rsi
	decq	%r8
	movq	%r8, %rdi
	jmp	.Lunix_path_BB4_27
.Lunix_path_BB4_14:
	movw	$47, %dx
	xorl	%eax, %eax
	cmpq	%r8, %rax
	jae	.Lunix_path_BB4_23
.Lunix_path_BB4_15:
	movzbl	(%rsi,%rax), %r9d
	cmpw	$47, %r9w
	jne	.Lunix_path_BB4_17
.Lunix_path_BB4_23:
	xorl	%r9d, %r9d
	cmpw	%dx, %r9w
	jne	.Lunix_path_BB4_18
.Lunix_path_BB4_24:
	cmpb	$46, %cl
	jne	.Lunix_path_BB4_36
	jmp	.Lunix_path_BB4_25
.Lunix_path_BB4_17:
	movzwl	%r9w, %r9d
	incl	%r9d
	cmpw	%dx, %r9w
	je	.Lunix_path_BB4_24
.Lunix_path_BB4_18:
	cmpb	$46, %cl
	jne	.Lunix_path_BB4_36
	movzbl	-1(%rsi,%rax), %ecx
	cmpb	$47, %cl
	jne	.Lunix_path_BB4_20
.Lunix_path_BB4_25:
	leaq	(%rsi,%rax), %rdx
	subq	%rax, %r8
	leaq	.Lunix_path_static.5(%rip), %r9
	addq	%rax, %r9
	movl	$1, %ecx
	subq	%rax, %rcx
	movq	%rcx, 32(%rsp)
	leaq	48(%rsp), %rcx
	callq	unix_path.pair.Comparison.rest_after_cut
	cmpb	$1, 48(%rsp)
	jne	.Lunix_path_BB4_36
	movq	56(%rsp), %rsi
	movq	64(%rsp), %rdi
.Lunix_path_BB4_27:
	xorl	%r8d, %r8d
	jmp	.Lunix_path_BB4_29
	.p2align	4
.Lunix_path_BB4_28:
	addq	%rax, %r8
	cmpq	$4, %r8
	jae	.Lunix_path_BB4_34
.Lunix_path_BB4_29:
	movq	%r8, %rax
	cmpq	%rdi, %r8
	jae	.Lunix_path_BB4_35
	movzbl	(%rsi,%rax), %ecx
	movl	$1, %r8d
	cmpl	$47, %ecx
	je	.Lunix_path_BB4_28
	cmpl	$46, %ecx
	jne	.Lunix_path_BB4_35
	leaq	1(%rax), %rcx
	cmpq	%rdi, %rcx
	je	.Lunix_path_BB4_28
	movl	$2, %r8d
	cmpb	$47, (%rsi,%rcx)
	je	.Lunix_path_BB4_28
	jmp	.Lunix_path_BB4_35
.Lunix_path_BB4_20:
	cmpb	$46, %cl
	setne	%cl
	decq	%rax
	sete	%dl
	orb	%cl, %dl
	jne	.Lunix_path_BB4_36
	cmpb	$47, -1(%rsi,%rax)
	je	.Lunix_path_BB4_25
	jmp	.Lunix_path_BB4_36
.Lunix_path_BB4_22:
	movl	$1, %eax
	xorl	%edx, %edx
	cmpq	%r8, %rax
	jb	.Lunix_path_BB4_15
	jmp	.Lunix_path_BB4_23
.Lunix_path_BB4_34:
	movq	%rsi, %rcx
	movq	%rdi, %rdx
	callq	unix_path.filler.filler_end_from
.Lunix_path_BB4_35:
	addq	%rax, %rsi
	subq	%rax, %rdi
.Lunix_path_BB4_36:
	movq	%rsi, %rax
	movq	%rdi, %rdx
	addq	$72, %rsp
	popq	%rdi
	popq	%rsi
	retq
	.def	unix_path.pair.Comparison.rest_after_cut;
	.scl	3;
	.type	32;
	.endef
	.p2align	4
# unix_path::pair::Comparison::rest_after_cut
unix_path.pair.Comparison.rest_after_cut:
	pushq	%r15
	pushq	%r14
	pushq	%rsi
	pushq	%rdi
	pushq	%rbx
	subq	$32, %rsp
	movq	%r9, %r14
	movq	%r8, %rdi
	movq	%rdx, %rbx
	movq	%rcx, %rsi
	movq	112(%rsp), %r15
	jmp	.Lunix_path_BB5_3
	.p2align	4
.Lunix_path_BB5_1:
	testq	%rax, %rax
	je	.Lunix_path_BB5_56
.Lunix_path_BB5_2:
	addq	%rax, %rbx
	subq	%rax, %rdi
	addq	%rax, %r14
	subq	%rax, %r15
.Lunix_path_BB5_3:
	xorl	%r8d, %r8d
	jmp	.Lunix_path_BB5_5
	.p2align	4
.Lunix_path_BB5_4:
	addq	%rax, %r8
	cmpq	$4, %r8
	jae	.Lunix_path_BB5_10
.Lunix_path_BB5_5:
	movq	%r8, %rax
	cmpq	%rdi, %r8
	jae	.Lunix_path_BB5_11
	movzbl	(%rbx,%rax), %ecx
	movl	$1, %r8d
	cmpl	$47, %ecx
	je	.Lunix_path_BB5_4
	cmpl	$46, %ecx
	jne	.Lunix_path_BB5_11
	leaq	1(%rax), %rcx
	cmpq	%rdi, %rcx
	je	.Lunix_path_BB5_4
	movl	$2, %r8d
	cmpb	$47, (%rbx,%rcx)
	je	.Lunix_path_BB5_4
	jmp	.Lunix_path_BB5_11
.Lunix_path_BB5_10:
	movq	%rbx, %rcx
	movq	%rdi, %rdx
	callq	unix_path.filler.filler_end_from
	.p2align	4
.Lunix_path_BB5_11:
	addq	%rax, %rbx
	subq	%rax, %rdi
	xorl	%r8d, %r8d
	jmp	.Lunix_path_BB5_13
	.p2align	4
.Lunix_path_BB5_12:
	addq	%rax, %r8
	cmpq	$4, %r8
	jae	.Lunix_path_BB5_54
.Lunix_path_BB5_13:
	movq	%r8, %rax
	cmpq	%r15, %r8
	jae	.Lunix_path_BB5_18
	movzbl	(%r14,%rax), %ecx
	movl	$1, %r8d
	cmpl	$47, %ecx
	je	.Lunix_path_BB5_12
	cmpl	$46, %ecx
	jne	.Lunix_path_BB5_18
	leaq	1(%rax), %rcx
	cmpq	%r15, %rcx
	je	.Lunix_path_BB5_12
	movl	$2, %r8d
	cmpb	$47, (%r14,%rcx)
	je	.Lunix_path_BB5_12
	.p2align	4
.Lunix_path_BB5_18:
	subq	%rax, %r15
	je	.Lunix_path_BB5_55
.Lunix_path_BB5_19:
	addq	%rax, %r14
	cmpq	%rdi, %r15
	movq	%rdi, %rcx
	cmovbq	%r15, %rcx
	cmpq	$15, %rcx
	ja	.Lunix_path_BB5_25
	cmpq	$7, %rcx
	ja	.Lunix_path_BB5_34
	xorl	%eax, %eax
	testq	%rdi, %rdi
	je	.Lunix_path_BB5_36
	.p2align	4
.Lunix_path_BB5_22:
	movzbl	(%rbx,%rax), %edx
	cmpb	(%r14,%rax), %dl
	jne	.Lunix_path_BB5_36
	incq	%rax
	cmpq	%rax, %rcx
	jne	.Lunix_path_BB5_22
	movq	%rcx, %rax
	cmpq	%rdi, %rax
	jb	.Lunix_path_BB5_37
	jmp	.Lunix_path_BB5_45
	.p2align	4
.Lunix_path_BB5_25:
	movdqu	(%rbx), %xmm0
	movdqu	(%r14), %xmm1
	pcmpeqb	%xmm0, %xmm1
	pmovmskb	%xmm1, %eax
	notl	%eax
	rep		bsfl	%eax, %eax
	cmpw	$16, %ax
	jb	.Lunix_path_BB5_36
	xorl	%edx, %edx
	cmpq	$64, %rcx
	jb	.Lunix_path_BB5_30
	movq	%rcx, %rax
	.p2align	4
.Lunix_path_BB5_28:
	movdqu	(%rbx,%rdx), %xmm0
	movdqu	16(%rbx,%rdx), %xmm1
	movdqu	32(%rbx,%rdx), %xmm2
	movdqu	48(%rbx,%rdx), %xmm3
	movdqu	(%r14,%rdx), %xmm4
	pcmpeqb	%xmm0, %xmm4
	movdqu	16(%r14,%rdx), %xmm0
	pcmpeqb	%xmm1, %xmm0
	pand	%xmm4, %xmm0
	movdqu	32(%r14,%rdx), %xmm1
	pcmpeqb	%xmm2, %xmm1
	movdqu	48(%r14,%rdx), %xmm2
	pcmpeqb	%xmm3, %xmm2
	pand	%xmm1, %xmm2
	pand	%xmm0, %xmm2
	pmovmskb	%xmm2, %r8d
	cmpl	$65535, %r8d
	jne	.Lunix_path_BB5_30
	addq	$64, %rdx
	addq	$-64, %rax
	cmpq	$63, %rax
	ja	.Lunix_path_BB5_28
.Lunix_path_BB5_30:
	addq	$-16, %rcx
	cmpq	%rcx, %rdx
	jae	.Lunix_path_BB5_33
	.p2align	4
.Lunix_path_BB5_31:
	movdqu	(%rbx,%rdx), %xmm0
	movdqu	(%r14,%rdx), %xmm1
	pcmpeqb	%xmm0, %xmm1
	pmovmskb	%xmm1, %eax
	notl	%eax
	rep		bsfl	%eax, %eax
	cmpw	$15, %ax
	jbe	.Lunix_path_BB5_44
	addq	$16, %rdx
	cmpq	%rcx, %rdx
	jb	.Lunix_path_BB5_31
.Lunix_path_BB5_33:
	movdqu	(%rbx,%rcx), %xmm0
	movdqu	(%r14,%rcx), %xmm1
	pcmpeqb	%xmm0, %xmm1
	pmovmskb	%xmm1, %eax
	notl	%eax
	rep		bsfl	%eax, %eax
	addq	%rcx, %rax
	cmpq	%rdi, %rax
	jb	.Lunix_path_BB5_37
	jmp	.Lunix_path_BB5_45
	.p2align	4
.Lunix_path_BB5_34:
	movq	(%rbx), %xmm0
	movq	(%r14), %xmm1
	pcmpeqb	%xmm0, %xmm1
	pmovmskb	%xmm1, %eax
	notl	%eax
	orl	$256, %eax
	rep		bsfl	%eax, %eax
	cmpb	$8, %al
	jb	.Lunix_path_BB5_36
	movq	-8(%rbx,%rcx), %xmm0
	movq	-8(%r14,%rcx), %xmm1
	pcmpeqb	%xmm0, %xmm1
	pmovmskb	%xmm1, %eax
	notl	%eax
	orl	$256, %eax
	rep		bsfl	%eax, %eax
	addq	%rcx, %rax
	addq	$-8, %rax
	.p2align	4
.Lunix_path_BB5_36:
	cmpq	%rdi, %rax
	jae	.Lunix_path_BB5_45
.Lunix_path_BB5_37:
	movzbl	(%rbx,%rax), %ecx
	cmpw	$47, %cx
	jne	.Lunix_path_BB5_39
.Lunix_path_BB5_45:
	xorl	%ecx, %ecx
	cmpq	%r15, %rax
	jae	.Lunix_path_BB5_43
	jmp	.Lunix_path_BB5_46
	.p2align	4
.Lunix_path_BB5_39:
	cmpq	%r15, %rax
	jae	.Lunix_path_BB5_42
	cmpb	$46, %cl
	je	.Lunix_path_BB5_42
	movzbl	(%r14,%rax), %edx
	andb	$-2, %dl
	cmpb	$46, %dl
	jne	.Lunix_path_BB5_56
.Lunix_path_BB5_42:
	movzwl	%cx, %ecx
	incl	%ecx
	cmpq	%r15, %rax
	jae	.Lunix_path_BB5_43
.Lunix_path_BB5_46:
	movzbl	(%r14,%rax), %edx
	cmpw	$47, %dx
	jne	.Lunix_path_BB5_48
.Lunix_path_BB5_43:
	xorl	%edx, %edx
	cmpw	%dx, %cx
	je	.Lunix_path_BB5_1
	jmp	.Lunix_path_BB5_49
	.p2align	4
.Lunix_path_BB5_48:
	movzwl	%dx, %edx
	incl	%edx
	cmpw	%dx, %cx
	je	.Lunix_path_BB5_1
.Lunix_path_BB5_49:
	testq	%rax, %rax
	je	.Lunix_path_BB5_56
	movzbl	-1(%rbx,%rax), %edx
	cmpb	$47, %dl
	je	.Lunix_path_BB5_2
	xorl	%ecx, %ecx
	cmpb	$46, %dl
	jne	.Lunix_path_BB5_57
	movl	$0, %edx
	movl	$0, %r8d
	decq	%rax
	je	.Lunix_path_BB5_58
	cmpb	$47, -1(%rbx,%rax)
	je	.Lunix_path_BB5_2
	jmp	.Lunix_path_BB5_56
.Lunix_path_BB5_44:
	movzwl	%ax, %eax
	addq	%rdx, %rax
	cmpq	%rdi, %rax
	jb	.Lunix_path_BB5_37
	jmp	.Lunix_path_BB5_45
.Lunix_path_BB5_54:
	movq	%r14, %rcx
	movq	%r15, %rdx
	callq	unix_path.filler.filler_end_from
	subq	%rax, %r15
	jne	.Lunix_path_BB5_19
.Lunix_path_BB5_55:
	movl	$1, %ecx
	movq	%rbx, %rdx
	movq	%rdi, %r8
	jmp	.Lunix_path_BB5_58
.Lunix_path_BB5_56:
	xorl	%ecx, %ecx
.Lunix_path_BB5_57:
	xorl	%edx, %edx
	xorl	%r8d, %r8d
.Lunix_path_BB5_58:
	movq	%rcx, (%rsi)
	movq	%rdx, 8(%rsi)
	movq	%r8, 16(%rsi)
	addq	$32, %rsp
	popq	%rbx
	popq	%rdi
	popq	%rsi
	popq	%r14
	popq	%r15
	retq
	.def	unix_path.filler.filler_end_from;
	.scl	3;
	.type	32;
	.endef
	.section	.rdata,"dr"
	.p2align	4, 0x0
.Lunix_path_CPI6_0:
	.zero	16,46
.Lunix_path_CPI6_1:
	.zero	16,47
	.text
	.p2align	4
# unix_path::filler::filler_end_from
unix_path.filler.filler_end_from:
	movq	%r8, %rax
	movq	%rdx, %r8
	subq	%rax, %r8
	cmpq	$17, %r8
	jb	.Lunix_path_BB6_3
	.p2align	4
.Lunix_path_BB6_1:
	movdqu	(%rcx,%rax), %xmm0
	movdqu	1(%rcx,%rax), %xmm1
	movdqa	.Lunix_path_CPI6_0(%rip), %xmm2
	pcmpeqb	%xmm0, %xmm2
	movdqa	.Lunix_path_CPI6_1(%rip), %xmm3
	pcmpeqb	%xmm3, %xmm0
	pcmpeqb	%xmm3, %xmm1
	pand	%xmm2, %xmm1
	por	%xmm0, %xmm1
	pmovmskb	%xmm1, %r9d
	cmpl	$65535, %r9d
	jne	.Lunix_path_BB6_3
	addq	$16, %rax
	addq	$-16, %r8
	cmpq	$16, %r8
	ja	.Lunix_path_BB6_1
.Lunix_path_BB6_3:
	cmpq	%rdx, %rax
	jae	.Lunix_path_BB6_11
	leaq	-1(%rdx), %r8
	jmp	.Lunix_path_BB6_5
	.p2align	4
.Lunix_path_BB6_9:
	incq	%rax
	cmpq	%rax, %rdx
	je	.Lunix_path_BB6_10
.Lunix_path_BB6_5:
	movzbl	(%rcx,%rax), %r9d
	cmpl	$47, %r9d
	je	.Lunix_path_BB6_9
	cmpl	$46, %r9d
	jne	.Lunix_path_BB6_11
	cmpq	%rax, %r8
	je	.Lunix_path_BB6_9
	cmpb	$47, 1(%rcx,%rax)
	je	.Lunix_path_BB6_9
.Lunix_path_BB6_11:
	retq
.Lunix_path_BB6_10:
	movq	%rdx, %rax
	retq
	.def	unix_path.compare.compare;
	.scl	3;
	.type	32;
	.endef
	.p2align	4
# unix_path::compare::compare
unix_path.compare.compare:
	pushq	%rsi
	pushq	%rbx
	subq	$40, %rsp
	cmpq	%rdx, %r9
	movq	%rdx, %rax
	cmovbq	%r9, %rax
	cmpq	$15, %rax
	ja	.Lunix_path_BB7_6
	cmpq	$7, %rax
	ja	.Lunix_path_BB7_13
	testq	%rax, %rax
	je	.Lunix_path_BB7_17
	movzbl	(%rcx), %r10d
	cmpb	(%r8), %r10b
	jne	.Lunix_path_BB7_17
	cmpq	$1, %rax
	jne	.Lunix_path_BB7_76
.Lunix_path_BB7_5:
	movq	%rax, %r10
	jmp	.Lunix_path_BB7_18
.Lunix_path_BB7_6:
	leaq	-16(%rax), %r11
	xorl	%esi, %esi
	cmpq	$64, %rax
	jb	.Lunix_path_BB7_11
	.p2align	4
.Lunix_path_BB7_7:
	movdqu	(%rcx,%rsi), %xmm0
	movdqu	16(%rcx,%rsi), %xmm1
	movdqu	32(%rcx,%rsi), %xmm2
	movdqu	48(%rcx,%rsi), %xmm3
	movdqu	(%r8,%rsi), %xmm4
	pcmpeqb	%xmm0, %xmm4
	movdqu	16(%r8,%rsi), %xmm0
	pcmpeqb	%xmm1, %xmm0
	pand	%xmm4, %xmm0
	movdqu	32(%r8,%rsi), %xmm1
	pcmpeqb	%xmm2, %xmm1
	movdqu	48(%r8,%rsi), %xmm2
	pcmpeqb	%xmm3, %xmm2
	pand	%xmm1, %xmm2
	pand	%xmm0, %xmm2
	pmovmskb	%xmm2, %r10d
	cmpl	$65535, %r10d
	jne	.Lunix_path_BB7_11
	addq	$64, %rsi
	addq	$-64, %rax
	cmpq	$63, %rax
	ja	.Lunix_path_BB7_7
	jmp	.Lunix_path_BB7_11
	.p2align	4
.Lunix_path_BB7_9:
	movdqu	(%rcx,%rsi), %xmm0
	movdqu	(%r8,%rsi), %xmm1
	pcmpeqb	%xmm0, %xmm1
	pmovmskb	%xmm1, %eax
	notl	%eax
	rep		bsfl	%eax, %eax
	cmpw	$15, %ax
	jbe	.Lunix_path_BB7_15
	addq	$16, %rsi
.Lunix_path_BB7_11:
	cmpq	%r11, %rsi
	jb	.Lunix_path_BB7_9
	movdqu	(%rcx,%r11), %xmm0
	movdqu	(%r8,%r11), %xmm1
	pcmpeqb	%xmm0, %xmm1
	pmovmskb	%xmm1, %eax
	notl	%eax
	rep		bsfl	%eax, %r10d
	addq	%r11, %r10
	jmp	.Lunix_path_BB7_18
.Lunix_path_BB7_13:
	movq	(%rcx), %xmm0
	movq	(%r8), %xmm1
	pcmpeqb	%xmm0, %xmm1
	pmovmskb	%xmm1, %r10d
	notl	%r10d
	orl	$256, %r10d
	rep		bsfl	%r10d, %r10d
	cmpb	$8, %r10b
	jb	.Lunix_path_BB7_18
	movq	-8(%rcx,%rax), %xmm0
	movq	-8(%r8,%rax), %xmm1
	pcmpeqb	%xmm0, %xmm1
	pmovmskb	%xmm1, %r10d
	notl	%r10d
	orl	$256, %r10d
	rep		bsfl	%r10d, %r10d
	addq	%rax, %r10
	addq	$-8, %r10
	jmp	.Lunix_path_BB7_18
.Lunix_path_BB7_17:
	xorl	%r10d, %r10d
	jmp	.Lunix_path_BB7_18
.Lunix_path_BB7_15:
	movzwl	%ax, %r10d
	addq	%rsi, %r10
.Lunix_path_BB7_18:
	movq	%r10, %r11
	xorq	%rdx, %r11
	movq	%r10, %rsi
	xorq	%r9, %rsi
	movb	$1, %al
	orq	%r11, %rsi
	je	.Lunix_path_BB7_36
	cmpq	%rdx, %r10
	jae	.Lunix_path_BB7_22
	movzbl	(%rcx,%r10), %eax
	cmpw	$47, %ax
	jne	.Lunix_path_BB7_25
.Lunix_path_BB7_22:
	xorl	%eax, %eax
	cmpq	%r9, %r10
	jae	.Lunix_path_BB7_28
.Lunix_path_BB7_23:
	movzbl	(%r8,%r10), %r11d
	cmpw	$47, %r11w
	je	.Lunix_path_BB7_28
	movzwl	%r11w, %r11d
	incl	%r11d
	cmpw	%r11w, %ax
	je	.Lunix_path_BB7_29
.Lunix_path_BB7_31:
	testq	%r10, %r10
	je	.Lunix_path_BB7_43
	movzbl	-1(%rcx,%r10), %ebx
	cmpb	$47, %bl
	je	.Lunix_path_BB7_33
	cmpb	$46, %bl
	jne	.Lunix_path_BB7_42
	movq	%r10, %rsi
	decq	%rsi
	je	.Lunix_path_BB7_43
	cmpb	$47, -1(%rcx,%rsi)
	je	.Lunix_path_BB7_34
.Lunix_path_BB7_42:
	cmpw	%r11w, %ax
	setae	%al
	jmp	.Lunix_path_BB7_75
.Lunix_path_BB7_25:
	cmpb	$46, %al
	sete	%r11b
	cmpq	%r9, %r10
	setae	%bl
	orb	%r11b, %bl
	jne	.Lunix_path_BB7_27
	movzbl	(%r8,%r10), %r11d
	movl	%r11d, %ebx
	andb	$-2, %bl
	cmpb	$46, %bl
	jne	.Lunix_path_BB7_79
.Lunix_path_BB7_27:
	movzwl	%ax, %eax
	incl	%eax
	cmpq	%r9, %r10
	jb	.Lunix_path_BB7_23
.Lunix_path_BB7_28:
	xorl	%r11d, %r11d
	cmpw	%r11w, %ax
	jne	.Lunix_path_BB7_31
.Lunix_path_BB7_29:
	testq	%r10, %r10
	je	.Lunix_path_BB7_43
.Lunix_path_BB7_33:
	movq	%r10, %rsi
.Lunix_path_BB7_34:
	addq	%rsi, %r8
	movq	%r9, %rax
	subq	%rsi, %rax
	subq	%rsi, %rdx
	jne	.Lunix_path_BB7_37
	movq	%r8, %rcx
	movq	%rax, %rdx
	callq	unix_path.pair.rest_len
	testq	%rax, %rax
	sete	%al
.Lunix_path_BB7_36:
	addq	$40, %rsp
	popq	%rbx
	popq	%rsi
	retq
.Lunix_path_BB7_43:
	testq	%rdx, %rdx
	je	.Lunix_path_BB7_52
	movzbl	(%rcx), %eax
	cmpl	$47, %eax
	je	.Lunix_path_BB7_65
	cmpl	$46, %eax
	jne	.Lunix_path_BB7_54
	movb	$2, %al
	cmpq	$1, %rdx
	je	.Lunix_path_BB7_55
	movzbl	1(%rcx), %r11d
	cmpl	$47, %r11d
	je	.Lunix_path_BB7_55
	cmpl	$46, %r11d
	jne	.Lunix_path_BB7_54
	cmpq	$2, %rdx
	je	.Lunix_path_BB7_51
	movb	$4, %al
	cmpb	$47, 2(%rcx)
	jne	.Lunix_path_BB7_55
.Lunix_path_BB7_51:
	movb	$3, %al
	testq	%r9, %r9
	jne	.Lunix_path_BB7_56
	jmp	.Lunix_path_BB7_66
.Lunix_path_BB7_37:
	addq	%rsi, %rcx
	cmpq	%rsi, %r9
	jne	.Lunix_path_BB7_53
	callq	unix_path.pair.rest_len
	cmpq	$1, %rax
	movb	$2, %al
	sbbb	$0, %al
	addq	$40, %rsp
	popq	%rbx
	popq	%rsi
	retq
.Lunix_path_BB7_52:
	xorl	%eax, %eax
	testq	%r9, %r9
	jne	.Lunix_path_BB7_56
.Lunix_path_BB7_66:
	xorl	%r11d, %r11d
	jmp	.Lunix_path_BB7_67
.Lunix_path_BB7_53:
	movq	%rax, %r9
	addq	$40, %rsp
	popq	%rbx
	popq	%rsi
	jmp	unix_path.pair.Comparison.order_after_cut
.Lunix_path_BB7_54:
	movb	$4, %al
.Lunix_path_BB7_55:
	testq	%r9, %r9
	je	.Lunix_path_BB7_66
.Lunix_path_BB7_56:
	movzbl	(%r8), %r11d
	cmpl	$47, %r11d
	je	.Lunix_path_BB7_74
	cmpl	$46, %r11d
	jne	.Lunix_path_BB7_64
	movb	$2, %r11b
	cmpq	$1, %r9
	je	.Lunix_path_BB7_67
	movzbl	1(%r8), %esi
	cmpl	$47, %esi
	je	.Lunix_path_BB7_67
	cmpl	$46, %esi
	jne	.Lunix_path_BB7_64
	cmpq	$2, %r9
	je	.Lunix_path_BB7_63
	movb	$4, %r11b
	cmpb	$47, 2(%r8)
	jne	.Lunix_path_BB7_67
.Lunix_path_BB7_63:
	movb	$3, %r11b
	cmpb	%r11b, %al
	setae	%al
	je	.Lunix_path_BB7_68
	jmp	.Lunix_path_BB7_75
.Lunix_path_BB7_67:
	cmpb	%r11b, %al
	setae	%al
	jne	.Lunix_path_BB7_75
.Lunix_path_BB7_68:
	cmpq	%rdx, %r10
	jae	.Lunix_path_BB7_71
	movzbl	(%rcx,%r10), %eax
	cmpw	$47, %ax
	jne	.Lunix_path_BB7_80
.Lunix_path_BB7_71:
	xorl	%eax, %eax
	cmpq	%r9, %r10
	jae	.Lunix_path_BB7_81
	jmp	.Lunix_path_BB7_72
.Lunix_path_BB7_64:
	movb	$4, %r11b
	cmpb	%r11b, %al
	setae	%al
	je	.Lunix_path_BB7_68
.Lunix_path_BB7_75:
	addb	%al, %al
	addq	$40, %rsp
	popq	%rbx
	popq	%rsi
	retq
.Lunix_path_BB7_65:
	movb	$1, %al
	testq	%r9, %r9
	jne	.Lunix_path_BB7_56
	jmp	.Lunix_path_BB7_66
.Lunix_path_BB7_74:
	movb	$1, %r11b
	cmpb	%r11b, %al
	setae	%al
	je	.Lunix_path_BB7_68
	jmp	.Lunix_path_BB7_75
.Lunix_path_BB7_76:
	movzbl	1(%rcx), %r11d
	movl	$1, %r10d
	cmpb	1(%r8), %r11b
	jne	.Lunix_path_BB7_18
	cmpq	$2, %rax
	je	.Lunix_path_BB7_5
	movzbl	2(%rcx), %r11d
	movl	$2, %r10d
	cmpb	2(%r8), %r11b
	jne	.Lunix_path_BB7_18
	cmpq	$3, %rax
	je	.Lunix_path_BB7_5
	movzbl	3(%rcx), %r11d
	movl	$3, %r10d
	cmpb	3(%r8), %r11b
	jne	.Lunix_path_BB7_18
	cmpq	$4, %rax
	je	.Lunix_path_BB7_5
	movzbl	4(%rcx), %r11d
	movl	$4, %r10d
	cmpb	4(%r8), %r11b
	jne	.Lunix_path_BB7_18
	cmpq	$5, %rax
	je	.Lunix_path_BB7_5
	movzbl	5(%rcx), %r11d
	movl	$5, %r10d
	cmpb	5(%r8), %r11b
	jne	.Lunix_path_BB7_18
	cmpq	$6, %rax
	je	.Lunix_path_BB7_5
	movzbl	6(%rcx), %r10d
	cmpb	6(%r8), %r10b
	movl	$6, %r10d
	cmoveq	%rax, %r10
	jmp	.Lunix_path_BB7_18
.Lunix_path_BB7_79:
	cmpb	%r11b, %al
	setae	%cl
	addb	%cl, %cl
	cmpb	%r11b, %al
	movzbl	%cl, %ecx
	jmp	.Lunix_path_BB7_84
.Lunix_path_BB7_80:
	movzwl	%ax, %eax
	incl	%eax
	cmpq	%r9, %r10
	jae	.Lunix_path_BB7_81
.Lunix_path_BB7_72:
	movzbl	(%r8,%r10), %ecx
	cmpw	$47, %cx
	jne	.Lunix_path_BB7_82
.Lunix_path_BB7_81:
	xorl	%ecx, %ecx
	jmp	.Lunix_path_BB7_83
.Lunix_path_BB7_82:
	movzwl	%cx, %ecx
	incl	%ecx
.Lunix_path_BB7_83:
	cmpw	%cx, %ax
	setae	%dl
	addb	%dl, %dl
	cmpw	%cx, %ax
	movzbl	%dl, %ecx
.Lunix_path_BB7_84:
	movl	$1, %eax
	cmovnel	%ecx, %eax
	addq	$40, %rsp
	popq	%rbx
	popq	%rsi
	retq
	.def	unix_path.pair.rest_len;
	.scl	3;
	.type	32;
	.endef
	.p2align	4
# unix_path::pair::rest_len
unix_path.pair.rest_len:
	pushq	%rsi
	subq	$32, %rsp
	xorl	%r8d, %r8d
	jmp	.Lunix_path_BB8_1
	.p2align	4
.Lunix_path_BB8_6:
	addq	%rax, %r8
	cmpq	$4, %r8
	jae	.Lunix_path_BB8_7
.Lunix_path_BB8_1:
	movq	%r8, %rax
	cmpq	%rdx, %r8
	jae	.Lunix_path_BB8_8
	movzbl	(%rcx,%rax), %r9d
	movl	$1, %r8d
	cmpl	$47, %r9d
	je	.Lunix_path_BB8_6
	cmpl	$46, %r9d
	jne	.Lunix_path_BB8_8
	leaq	1(%rax), %r9
	cmpq	%rdx, %r9
	je	.Lunix_path_BB8_6
	movl	$2, %r8d
	cmpb	$47, (%rcx,%r9)
	je	.Lunix_path_BB8_6
	jmp	.Lunix_path_BB8_8
.Lunix_path_BB8_7:
	movq	%rdx, %rsi
	callq	unix_path.filler.filler_end_from
	movq	%rsi, %rdx
.Lunix_path_BB8_8:
	subq	%rax, %rdx
	movq	%rdx, %rax
	addq	$32, %rsp
	popq	%rsi
	retq
	.def	unix_path.pair.Comparison.order_after_cut;
	.scl	3;
	.type	32;
	.endef
	.p2align	4
# unix_path::pair::Comparison::order_after_cut
unix_path.pair.Comparison.order_after_cut:
	pushq	%r15
	pushq	%r14
	pushq	%r12
	pushq	%rsi
	pushq	%rdi
	pushq	%rbx
	subq	$40, %rsp
	movq	%r9, %rdi
	movq	%r8, %rsi
	movq	%rdx, %r14
	movq	%rcx, %rbx
	jmp	.Lunix_path_BB9_4
	.p2align	4
.Lunix_path_BB9_1:
	testq	%rcx, %rcx
	je	.Lunix_path_BB9_57
.Lunix_path_BB9_2:
	movq	%rcx, %r8
.Lunix_path_BB9_3:
	addq	%r8, %rbx
	subq	%r8, %r12
	addq	%r8, %rsi
	subq	%r8, %rdi
	movq	%r12, %r14
.Lunix_path_BB9_4:
	xorl	%r8d, %r8d
	jmp	.Lunix_path_BB9_6
	.p2align	4
.Lunix_path_BB9_5:
	addq	%r15, %r8
	cmpq	$4, %r8
	jae	.Lunix_path_BB9_11
.Lunix_path_BB9_6:
	movq	%r8, %r15
	cmpq	%r14, %r8
	jae	.Lunix_path_BB9_12
	movzbl	(%rbx,%r15), %eax
	movl	$1, %r8d
	cmpl	$47, %eax
	je	.Lunix_path_BB9_5
	cmpl	$46, %eax
	jne	.Lunix_path_BB9_12
	leaq	1(%r15), %rax
	cmpq	%r14, %rax
	je	.Lunix_path_BB9_5
	movl	$2, %r8d
	cmpb	$47, (%rbx,%rax)
	je	.Lunix_path_BB9_5
	jmp	.Lunix_path_BB9_12
.Lunix_path_BB9_11:
	movq	%rbx, %rcx
	movq	%r14, %rdx
	callq	unix_path.filler.filler_end_from
	movq	%rax, %r15
	.p2align	4
.Lunix_path_BB9_12:
	addq	%r15, %rbx
	movq	%r14, %r12
	subq	%r15, %r12
	xorl	%r8d, %r8d
	jmp	.Lunix_path_BB9_14
	.p2align	4
.Lunix_path_BB9_13:
	addq	%rax, %r8
	cmpq	$4, %r8
	jae	.Lunix_path_BB9_55
.Lunix_path_BB9_14:
	movq	%r8, %rax
	cmpq	%rdi, %r8
	jae	.Lunix_path_BB9_19
	movzbl	(%rsi,%rax), %ecx
	movl	$1, %r8d
	cmpl	$47, %ecx
	je	.Lunix_path_BB9_13
	cmpl	$46, %ecx
	jne	.Lunix_path_BB9_19
	leaq	1(%rax), %rcx
	cmpq	%rdi, %rcx
	je	.Lunix_path_BB9_13
	movl	$2, %r8d
	cmpb	$47, (%rsi,%rcx)
	je	.Lunix_path_BB9_13
	.p2align	4
.Lunix_path_BB9_19:
	subq	%rax, %rdi
	je	.Lunix_path_BB9_56
.Lunix_path_BB9_20:
	addq	%rax, %rsi
	cmpq	%r12, %rdi
	movq	%r12, %rax
	cmovbq	%rdi, %rax
	cmpq	$15, %rax
	ja	.Lunix_path_BB9_26
	cmpq	$7, %rax
	ja	.Lunix_path_BB9_35
	xorl	%ecx, %ecx
	cmpq	%r15, %r14
	je	.Lunix_path_BB9_37
	.p2align	4
.Lunix_path_BB9_23:
	movzbl	(%rbx,%rcx), %edx
	cmpb	(%rsi,%rcx), %dl
	jne	.Lunix_path_BB9_37
	incq	%rcx
	cmpq	%rcx, %rax
	jne	.Lunix_path_BB9_23
	movq	%rax, %rcx
	cmpq	%r12, %rcx
	jb	.Lunix_path_BB9_38
	jmp	.Lunix_path_BB9_46
	.p2align	4
.Lunix_path_BB9_26:
	movdqu	(%rbx), %xmm0
	movdqu	(%rsi), %xmm1
	pcmpeqb	%xmm0, %xmm1
	pmovmskb	%xmm1, %ecx
	notl	%ecx
	rep		bsfl	%ecx, %ecx
	cmpw	$16, %cx
	jb	.Lunix_path_BB9_37
	xorl	%edx, %edx
	cmpq	$64, %rax
	jb	.Lunix_path_BB9_31
	movq	%rax, %rcx
	.p2align	4
.Lunix_path_BB9_29:
	movdqu	(%rbx,%rdx), %xmm0
	movdqu	16(%rbx,%rdx), %xmm1
	movdqu	32(%rbx,%rdx), %xmm2
	movdqu	48(%rbx,%rdx), %xmm3
	movdqu	(%rsi,%rdx), %xmm4
	pcmpeqb	%xmm0, %xmm4
	movdqu	16(%rsi,%rdx), %xmm0
	pcmpeqb	%xmm1, %xmm0
	pand	%xmm4, %xmm0
	movdqu	32(%rsi,%rdx), %xmm1
	pcmpeqb	%xmm2, %xmm1
	movdqu	48(%rsi,%rdx), %xmm2
	pcmpeqb	%xmm3, %xmm2
	pand	%xmm1, %xmm2
	pand	%xmm0, %xmm2
	pmovmskb	%xmm2, %r8d
	cmpl	$65535, %r8d
	jne	.Lunix_path_BB9_31
	addq	$64, %rdx
	addq	$-64, %rcx
	cmpq	$63, %rcx
	ja	.Lunix_path_BB9_29
.Lunix_path_BB9_31:
	addq	$-16, %rax
	cmpq	%rax, %rdx
	jae	.Lunix_path_BB9_34
	.p2align	4
.Lunix_path_BB9_32:
	movdqu	(%rbx,%rdx), %xmm0
	movdqu	(%rsi,%rdx), %xmm1
	pcmpeqb	%xmm0, %xmm1
	pmovmskb	%xmm1, %ecx
	notl	%ecx
	rep		bsfl	%ecx, %ecx
	cmpw	$15, %cx
	jbe	.Lunix_path_BB9_45
	addq	$16, %rdx
	cmpq	%rax, %rdx
	jb	.Lunix_path_BB9_32
.Lunix_path_BB9_34:
	movdqu	(%rbx,%rax), %xmm0
	movdqu	(%rsi,%rax), %xmm1
	pcmpeqb	%xmm0, %xmm1
	pmovmskb	%xmm1, %ecx
	notl	%ecx
	rep		bsfl	%ecx, %ecx
	addq	%rax, %rcx
	cmpq	%r12, %rcx
	jb	.Lunix_path_BB9_38
	jmp	.Lunix_path_BB9_46
	.p2align	4
.Lunix_path_BB9_35:
	movq	(%rbx), %xmm0
	movq	(%rsi), %xmm1
	pcmpeqb	%xmm0, %xmm1
	pmovmskb	%xmm1, %ecx
	notl	%ecx
	orl	$256, %ecx
	rep		bsfl	%ecx, %ecx
	cmpb	$8, %cl
	jb	.Lunix_path_BB9_37
	movq	-8(%rbx,%rax), %xmm0
	movq	-8(%rsi,%rax), %xmm1
	pcmpeqb	%xmm0, %xmm1
	pmovmskb	%xmm1, %ecx
	notl	%ecx
	orl	$256, %ecx
	rep		bsfl	%ecx, %ecx
	addq	%rax, %rcx
	addq	$-8, %rcx
	.p2align	4
.Lunix_path_BB9_37:
	cmpq	%r12, %rcx
	jae	.Lunix_path_BB9_46
.Lunix_path_BB9_38:
	movzbl	(%rbx,%rcx), %eax
	cmpw	$47, %ax
	jne	.Lunix_path_BB9_40
.Lunix_path_BB9_46:
	xorl	%eax, %eax
	cmpq	%rdi, %rcx
	jae	.Lunix_path_BB9_44
	jmp	.Lunix_path_BB9_47
	.p2align	4
.Lunix_path_BB9_40:
	cmpq	%rdi, %rcx
	jae	.Lunix_path_BB9_43
	cmpb	$46, %al
	je	.Lunix_path_BB9_43
	movzbl	(%rsi,%rcx), %edx
	movl	%edx, %r8d
	andb	$-2, %r8b
	cmpb	$46, %r8b
	jne	.Lunix_path_BB9_87
.Lunix_path_BB9_43:
	movzwl	%ax, %eax
	incl	%eax
	cmpq	%rdi, %rcx
	jae	.Lunix_path_BB9_44
.Lunix_path_BB9_47:
	movzbl	(%rsi,%rcx), %edx
	cmpw	$47, %dx
	jne	.Lunix_path_BB9_49
.Lunix_path_BB9_44:
	xorl	%edx, %edx
	cmpw	%dx, %ax
	je	.Lunix_path_BB9_1
	jmp	.Lunix_path_BB9_50
	.p2align	4
.Lunix_path_BB9_49:
	movzwl	%dx, %edx
	incl	%edx
	cmpw	%dx, %ax
	je	.Lunix_path_BB9_1
.Lunix_path_BB9_50:
	testq	%rcx, %rcx
	je	.Lunix_path_BB9_57
	movzbl	-1(%rbx,%rcx), %r8d
	cmpb	$47, %r8b
	je	.Lunix_path_BB9_2
	cmpb	$46, %r8b
	jne	.Lunix_path_BB9_59
	movq	%rcx, %r8
	decq	%r8
	je	.Lunix_path_BB9_60
	cmpb	$47, -1(%rbx,%r8)
	je	.Lunix_path_BB9_3
	jmp	.Lunix_path_BB9_59
.Lunix_path_BB9_45:
	movzwl	%cx, %ecx
	addq	%rdx, %rcx
	cmpq	%r12, %rcx
	jb	.Lunix_path_BB9_38
	jmp	.Lunix_path_BB9_46
.Lunix_path_BB9_55:
	movq	%rsi, %rcx
	movq	%rdi, %rdx
	callq	unix_path.filler.filler_end_from
	subq	%rax, %rdi
	jne	.Lunix_path_BB9_20
.Lunix_path_BB9_56:
	cmpq	%r15, %r14
	sete	%cl
	movb	$2, %al
	subb	%cl, %al
	jmp	.Lunix_path_BB9_93
.Lunix_path_BB9_57:
	xorl	%edx, %edx
	cmpq	%r15, %r14
	jne	.Lunix_path_BB9_61
.Lunix_path_BB9_58:
	xorl	%eax, %eax
	jmp	.Lunix_path_BB9_93
.Lunix_path_BB9_59:
	cmpw	%dx, %ax
	setae	%al
	addb	%al, %al
	jmp	.Lunix_path_BB9_93
.Lunix_path_BB9_60:
	movl	$1, %edx
	cmpq	%r15, %r14
	je	.Lunix_path_BB9_58
.Lunix_path_BB9_61:
	movzbl	(%rbx), %r9d
	movb	$1, %al
	movb	$1, %r8b
	cmpl	$47, %r9d
	je	.Lunix_path_BB9_70
	cmpl	$46, %r9d
	jne	.Lunix_path_BB9_69
	movb	$2, %r8b
	cmpq	$1, %r12
	je	.Lunix_path_BB9_70
	movzbl	1(%rbx), %r9d
	cmpl	$47, %r9d
	je	.Lunix_path_BB9_70
	cmpl	$46, %r9d
	jne	.Lunix_path_BB9_69
	cmpq	$2, %r12
	je	.Lunix_path_BB9_68
	movb	$4, %r8b
	cmpb	$47, 2(%rbx)
	jne	.Lunix_path_BB9_70
.Lunix_path_BB9_68:
	movb	$3, %r8b
	jmp	.Lunix_path_BB9_70
.Lunix_path_BB9_69:
	movb	$4, %r8b
.Lunix_path_BB9_70:
	movzbl	(%rsi), %r9d
	cmpl	$47, %r9d
	je	.Lunix_path_BB9_79
	cmpl	$46, %r9d
	jne	.Lunix_path_BB9_78
	movb	$2, %al
	cmpq	$1, %rdi
	je	.Lunix_path_BB9_79
	movzbl	1(%rsi), %r9d
	cmpl	$47, %r9d
	je	.Lunix_path_BB9_79
	cmpl	$46, %r9d
	jne	.Lunix_path_BB9_78
	cmpq	$2, %rdi
	je	.Lunix_path_BB9_77
	movb	$4, %al
	cmpb	$47, 2(%rsi)
	jne	.Lunix_path_BB9_79
.Lunix_path_BB9_77:
	movb	$3, %al
	jmp	.Lunix_path_BB9_79
.Lunix_path_BB9_78:
	movb	$4, %al
.Lunix_path_BB9_79:
	cmpb	%al, %r8b
	setae	%al
	jne	.Lunix_path_BB9_83
	cmpq	%r12, %rcx
	jae	.Lunix_path_BB9_84
	movzbl	(%rbx,%rdx), %eax
	cmpw	$47, %ax
	jne	.Lunix_path_BB9_88
.Lunix_path_BB9_84:
	xorl	%eax, %eax
	cmpq	%rdi, %rdx
	jae	.Lunix_path_BB9_89
	jmp	.Lunix_path_BB9_85
.Lunix_path_BB9_83:
	addb	%al, %al
	jmp	.Lunix_path_BB9_93
.Lunix_path_BB9_87:
	cmpb	%dl, %al
	setae	%cl
	addb	%cl, %cl
	cmpb	%dl, %al
	movzbl	%cl, %ecx
	jmp	.Lunix_path_BB9_92
.Lunix_path_BB9_88:
	movzwl	%ax, %eax
	incl	%eax
	cmpq	%rdi, %rdx
	jae	.Lunix_path_BB9_89
.Lunix_path_BB9_85:
	movzbl	(%rsi,%rdx), %ecx
	cmpw	$47, %cx
	jne	.Lunix_path_BB9_90
.Lunix_path_BB9_89:
	xorl	%ecx, %ecx
	jmp	.Lunix_path_BB9_91
.Lunix_path_BB9_90:
	movzwl	%cx, %ecx
	incl	%ecx
.Lunix_path_BB9_91:
	cmpw	%cx, %ax
	setae	%dl
	addb	%dl, %dl
	cmpw	%cx, %ax
	movzbl	%dl, %ecx
.Lunix_path_BB9_92:
	movl	$1, %eax
	cmovnel	%ecx, %eax
.Lunix_path_BB9_93:
	addq	$40, %rsp
	popq	%rbx
	popq	%rdi
	popq	%rsi
	popq	%r12
	popq	%r14
	popq	%r15
	retq
	.def	core.slice.sort.unstable.quicksort.fd4dfef4a36ac24b.;
	.scl	3;
	.type	32;
	.endef
	.p2align	4
# core::slice::sort::unstable::quicksort::<#fd4dfef4a36ac24b>
core.slice.sort.unstable.quicksort.fd4dfef4a36ac24b.:
	pushq	%r15
	pushq	%r14
	pushq	%r13
	pushq	%r12
	pushq	%rsi
	pushq	%rdi
	pushq	%rbp
	pushq	%rbx
	subq	$296, %rsp
	movaps	%xmm7, 272(%rsp)
	movaps	%xmm6, 256(%rsp)
	movq	%r8, %rdi
	movq	%rdx, %rsi
	movq	%rcx, %rbx
	movq	400(%rsp), %r15
	movq	%r8, 248(%rsp)
	subq	%rdx, %rdi
	cmpq	$17, %rdi
	jb	.Lunix_path_BB10_51
	movl	%r9d, %ebp
	leaq	64(%rbx), %rax
	movq	%rax, 232(%rsp)
	leaq	104(%rbx), %rax
	movq	%rax, 224(%rsp)
	movq	%r15, 168(%rsp)
	movq	%rbx, 80(%rsp)
	jmp	.Lunix_path_BB10_2
	.p2align	4
.Lunix_path_BB10_48:
	leaq	(,%r8,8), %rax
	leaq	(%rax,%rax,4), %rax
	movups	(%rsi,%rax), %xmm0
	movups	16(%rsi,%rax), %xmm1
	movq	32(%rsi,%rax), %rcx
	movq	%rcx, 32(%rsi)
	movups	%xmm1, 16(%rsi)
	movups	%xmm0, (%rsi)
.Lunix_path_BB10_49:
	movq	112(%rsp), %rcx
	movq	%rcx, (%rsi,%rax)
	movq	152(%rsp), %rcx
	movq	%rcx, 8(%rsi,%rax)
	movq	64(%rsp), %rcx
	movq	%rcx, 16(%rsi,%rax)
	movups	%xmm6, 24(%rsi,%rax)
	movq	168(%rsp), %rax
	movq	72(%rsp), %rcx
	movq	%rcx, (%rax)
	movq	%rbx, 8(%rax)
	movq	104(%rsp), %rsi
	addq	%rsi, %r8
	movq	%rax, 32(%rsp)
	movq	80(%rsp), %rbx
	movq	%rbx, %rcx
	movq	%rsi, %rdx
	movl	%ebp, %r9d
	callq	core.slice.sort.unstable.quicksort.fd4dfef4a36ac24b.
.Lunix_path_BB10_50:
	addq	%r15, %rsi
	movq	248(%rsp), %rdi
	subq	%rsi, %rdi
	cmpq	$16, %rdi
	movq	168(%rsp), %r15
	jbe	.Lunix_path_BB10_51
.Lunix_path_BB10_2:
	testl	%ebp, %ebp
	je	.Lunix_path_BB10_3
	movq	%rdi, %rax
	shrq	$3, %rax
	movq	%rdi, %r9
	andq	$-8, %r9
	subq	%rax, %r9
	addq	%rsi, %r9
	leaq	(%rsi,%rax,4), %r8
	cmpq	$63, %rdi
	ja	.Lunix_path_BB10_10
	movq	%r15, 32(%rsp)
	movq	%rbx, %rcx
	movq	%rsi, %rdx
	callq	core.slice.sort.pivot.median_of_three.fd4dfef4a36ac24b.
	jmp	.Lunix_path_BB10_11
	.p2align	4
.Lunix_path_BB10_10:
	movq	%r15, 40(%rsp)
	movq	%rax, 32(%rsp)
	movq	%rbx, %rcx
	movq	%rsi, %rdx
	callq	core.slice.sort.pivot.median_of_medians.fd4dfef4a36ac24b.
.Lunix_path_BB10_11:
	movq	%rax, %r12
	decl	%ebp
	movl	%ebp, 52(%rsp)
	testq	%rsi, %rsi
	movq	%rsi, 104(%rsp)
	je	.Lunix_path_BB10_12
	movq	(%r15), %r13
	movq	8(%r15), %rbx
	leaq	(,%rsi,8), %rax
	leaq	(%rax,%rax,4), %r14
	movq	80(%rsp), %rax
	movq	-40(%rax,%r14), %rax
	movq	80(%rsp), %rcx
	movq	-32(%rcx,%r14), %rdx
	cmpq	%rdx, %rbx
	cmovbq	%rbx, %rdx
	cmpq	%rax, %rdx
	cmovbq	%rdx, %rax
	leaq	(%rax,%r13), %rcx
	subq	%rax, %rdx
	callq	path_archive.slot.without_dot
	movq	%rax, %rsi
	movq	%rdx, %rbp
	movq	80(%rsp), %rax
	leaq	(%r12,%r12,4), %rdx
	movq	(%rax,%rdx,8), %rax
	movq	80(%rsp), %rcx
	movq	8(%rcx,%rdx,8), %rdx
	cmpq	%rdx, %rbx
	cmovbq	%rbx, %rdx
	movq	80(%rsp), %rbx
	cmpq	%rax, %rdx
	cmovbq	%rdx, %rax
	addq	%rax, %r13
	subq	%rax, %rdx
	movq	%r13, %rcx
	callq	path_archive.slot.without_dot
	movq	%rdx, %r9
	movq	%rsi, %rcx
	movq	%rbp, %rdx
	movq	%rax, %r8
	callq	unix_path.compare.compare
	movq	-24(%rbx,%r14), %rcx
	movq	-16(%rbx,%r14), %rdx
	leaq	(%r12,%r12,4), %r10
	movq	24(%rbx,%r10,8), %r8
	cmpq	%r8, %rdx
	setae	%r9b
	addb	%r9b, %r9b
	cmpq	%r8, %rdx
	movq	16(%rbx,%r10,8), %rdx
	movzbl	%r9b, %r8d
	movl	$1, %r9d
	cmovnel	%r8d, %r9d
	cmpq	%rdx, %rcx
	setae	%r8b
	addb	%r8b, %r8b
	cmpq	%rdx, %rcx
	movzbl	%r8b, %ecx
	cmovel	%r9d, %ecx
	cmpb	$1, %al
	movzbl	%al, %eax
	cmovel	%ecx, %eax
	testb	%al, %al
	je	.Lunix_path_BB10_13
	movq	%rdi, 56(%rsp)
	leaq	(%rbx,%r14), %r10
	subq	104(%rsp), %r12
	je	.Lunix_path_BB10_33
	leaq	(%r12,%r12,4), %rax
	movq	32(%r10), %rcx
	movq	%rcx, 208(%rsp)
	movups	(%r10), %xmm0
	movups	16(%r10), %xmm1
	movaps	%xmm1, 192(%rsp)
	movaps	%xmm0, 176(%rsp)
	movq	32(%r10,%rax,8), %rcx
	movups	(%r10,%rax,8), %xmm0
	movups	16(%r10,%rax,8), %xmm1
	movups	%xmm0, (%r10)
	movups	%xmm1, 16(%r10)
	movq	%rcx, 32(%r10)
	movq	208(%rsp), %rcx
	movq	%rcx, 32(%r10,%rax,8)
	movaps	176(%rsp), %xmm0
	movaps	192(%rsp), %xmm1
	movups	%xmm1, 16(%r10,%rax,8)
	movups	%xmm0, (%r10,%rax,8)
.Lunix_path_BB10_33:
	movq	(%r15), %rcx
	movq	8(%r15), %r8
	movq	(%r10), %rax
	movq	8(%r10), %rdx
	movq	16(%r10), %r9
	movups	24(%r10), %xmm6
	movq	%r10, %rbx
	movq	24(%r10), %r10
	cmpq	%rdx, %r8
	movq	%rdx, 96(%rsp)
	movq	%r8, 88(%rsp)
	cmovbq	%r8, %rdx
	cmpq	%rax, %rdx
	movq	%rax, 152(%rsp)
	cmovbq	%rdx, %rax
	movq	%rcx, 64(%rsp)
	leaq	(%rcx,%rax), %r8
	subq	%rax, %rdx
	movq	232(%rsp), %rax
	movq	%r14, 160(%rsp)
	leaq	(%rax,%r14), %r13
	movl	$1, %r15d
	movq	%r9, 72(%rsp)
	.p2align	4
.Lunix_path_BB10_34:
	movq	%r8, %r12
	movq	%r8, %rcx
	movq	%rdx, %rsi
	movq	%r10, %rdi
	callq	path_archive.slot.without_dot
	movq	%rax, %r14
	movq	%rdx, %rbp
	movq	-24(%r13), %rax
	movq	-16(%r13), %rdx
	movq	88(%rsp), %rcx
	cmpq	%rdx, %rcx
	cmovbq	%rcx, %rdx
	cmpq	%rax, %rdx
	cmovbq	%rdx, %rax
	movq	64(%rsp), %rcx
	addq	%rax, %rcx
	subq	%rax, %rdx
	callq	path_archive.slot.without_dot
	movq	%rdx, %r9
	movq	%r14, %rcx
	movq	%rbp, %rdx
	movq	%rax, %r8
	callq	unix_path.compare.compare
	movq	%rdi, %r10
	movq	72(%rsp), %r9
	movq	(%r13), %rcx
	cmpq	%rcx, %rdi
	setae	%dl
	addb	%dl, %dl
	cmpq	%rcx, %rdi
	movq	-8(%r13), %rcx
	movzbl	%dl, %edx
	movl	$1, %r8d
	cmovnel	%edx, %r8d
	cmpq	%rcx, %r9
	setae	%dl
	addb	%dl, %dl
	cmpq	%rcx, %r9
	movzbl	%dl, %ecx
	cmovel	%r8d, %ecx
	cmpb	$1, %al
	movzbl	%al, %eax
	cmovel	%ecx, %eax
	testb	%al, %al
	je	.Lunix_path_BB10_35
	incq	%r15
	addq	$40, %r13
	cmpq	%r15, 56(%rsp)
	movq	%rsi, %rdx
	movq	%r12, %r8
	jne	.Lunix_path_BB10_34
	movq	56(%rsp), %rax
	movq	%rax, %r15
	jmp	.Lunix_path_BB10_38
	.p2align	4
.Lunix_path_BB10_12:
	xorl	%r14d, %r14d
.Lunix_path_BB10_13:
	leaq	(%rbx,%r14), %rsi
	subq	104(%rsp), %r12
	je	.Lunix_path_BB10_15
	leaq	(%r12,%r12,4), %rax
	movq	32(%rsi), %rcx
	movq	%rcx, 208(%rsp)
	movups	(%rsi), %xmm0
	movups	16(%rsi), %xmm1
	movaps	%xmm1, 192(%rsp)
	movaps	%xmm0, 176(%rsp)
	movq	32(%rsi,%rax,8), %rcx
	movups	(%rsi,%rax,8), %xmm0
	movups	16(%rsi,%rax,8), %xmm1
	movups	%xmm0, (%rsi)
	movups	%xmm1, 16(%rsi)
	movq	%rcx, 32(%rsi)
	movq	208(%rsp), %rcx
	movq	%rcx, 32(%rsi,%rax,8)
	movaps	176(%rsp), %xmm0
	movaps	192(%rsp), %xmm1
	movups	%xmm1, 16(%rsi,%rax,8)
	movups	%xmm0, (%rsi,%rax,8)
.Lunix_path_BB10_15:
	movq	(%r15), %rcx
	movq	8(%r15), %rbx
	movq	(%rsi), %rax
	movq	8(%rsi), %rdx
	movq	16(%rsi), %r8
	movq	%r8, 64(%rsp)
	movups	24(%rsi), %xmm6
	movq	24(%rsi), %r12
	cmpq	%rdx, %rbx
	movq	%rdx, 152(%rsp)
	cmovbq	%rbx, %rdx
	cmpq	%rax, %rdx
	movq	%rax, 112(%rsp)
	cmovbq	%rdx, %rax
	movq	%rcx, 72(%rsp)
	addq	%rax, %rcx
	movq	%rcx, 56(%rsp)
	subq	%rax, %rdx
	movq	%rdx, 88(%rsp)
	movq	232(%rsp), %rax
	movq	%r14, 160(%rsp)
	leaq	(%rax,%r14), %r13
	movl	$1, %r15d
	.p2align	4
.Lunix_path_BB10_16:
	movq	-24(%r13), %rax
	movq	-16(%r13), %rdx
	cmpq	%rdx, %rbx
	cmovbq	%rbx, %rdx
	cmpq	%rax, %rdx
	cmovbq	%rdx, %rax
	movq	72(%rsp), %rcx
	addq	%rax, %rcx
	subq	%rax, %rdx
	callq	path_archive.slot.without_dot
	movq	%rax, %r14
	movq	%rdx, %rbp
	movq	56(%rsp), %rcx
	movq	88(%rsp), %rdx
	callq	path_archive.slot.without_dot
	movq	%rdx, %r9
	movq	%r14, %rcx
	movq	%rbp, %rdx
	movq	%rax, %r8
	callq	unix_path.compare.compare
	movq	-8(%r13), %rcx
	movq	(%r13), %rdx
	cmpq	%r12, %rdx
	setae	%r8b
	addb	%r8b, %r8b
	cmpq	%r12, %rdx
	movzbl	%r8b, %edx
	movl	$1, %r8d
	cmovnel	%edx, %r8d
	movq	64(%rsp), %r9
	cmpq	%r9, %rcx
	setae	%dl
	addb	%dl, %dl
	cmpq	%r9, %rcx
	movzbl	%dl, %ecx
	cmovel	%r8d, %ecx
	cmpb	$1, %al
	je	.Lunix_path_BB10_18
	movzbl	%al, %ecx
.Lunix_path_BB10_18:
	testb	%cl, %cl
	jne	.Lunix_path_BB10_21
	incq	%r15
	addq	$40, %r13
	cmpq	%r15, %rdi
	jne	.Lunix_path_BB10_16
	movq	%rdi, %r15
.Lunix_path_BB10_21:
	movl	52(%rsp), %ebp
	leaq	-1(%rdi), %r8
	cmpq	%r8, %r15
	jae	.Lunix_path_BB10_28
	leaq	1(%r15), %rax
	leaq	(%rax,%rax,4), %rcx
	movq	(%rsi,%rcx,8), %rdx
	movq	%rdx, 144(%rsp)
	movq	8(%rsi,%rcx,8), %rdx
	movq	%rdx, 136(%rsp)
	movq	16(%rsi,%rcx,8), %rdx
	movq	%rdx, 96(%rsp)
	movups	24(%rsi,%rcx,8), %xmm7
	movq	24(%rsi,%rcx,8), %rcx
	movq	%rcx, 120(%rsp)
	cmpq	%r8, %rax
	movq	%r8, 128(%rsp)
	jae	.Lunix_path_BB10_27
	leaq	(%r15,%r15,4), %rax
	movq	160(%rsp), %rcx
	leaq	(%rcx,%rax,8), %r13
	addq	224(%rsp), %r13
	subq	%r15, %rdi
	addq	$-2, %rdi
	jmp	.Lunix_path_BB10_24
	.p2align	4
.Lunix_path_BB10_26:
	leaq	(%r15,%r15,4), %rax
	movq	32(%rsi,%rax,8), %rdx
	movups	(%rsi,%rax,8), %xmm0
	movups	16(%rsi,%rax,8), %xmm1
	movups	%xmm0, -64(%r13)
	movups	%xmm1, -48(%r13)
	movq	%rdx, -32(%r13)
	movups	-24(%r13), %xmm0
	movups	-8(%r13), %xmm1
	movq	8(%r13), %rdx
	movq	%rdx, 32(%rsi,%rax,8)
	movups	%xmm1, 16(%rsi,%rax,8)
	movups	%xmm0, (%rsi,%rax,8)
	cmpb	$1, %cl
	adcq	$0, %r15
	addq	$40, %r13
	decq	%rdi
	je	.Lunix_path_BB10_27
.Lunix_path_BB10_24:
	movq	-24(%r13), %rax
	movq	-16(%r13), %rdx
	cmpq	%rdx, %rbx
	cmovbq	%rbx, %rdx
	cmpq	%rax, %rdx
	cmovbq	%rdx, %rax
	movq	72(%rsp), %rcx
	addq	%rax, %rcx
	subq	%rax, %rdx
	callq	path_archive.slot.without_dot
	movq	%rax, %r14
	movq	%rdx, %rbp
	movq	56(%rsp), %rcx
	movq	88(%rsp), %rdx
	callq	path_archive.slot.without_dot
	movq	%rdx, %r9
	movq	%r14, %rcx
	movq	%rbp, %rdx
	movq	%rax, %r8
	callq	unix_path.compare.compare
	movq	(%r13), %rcx
	cmpq	%r12, %rcx
	setae	%dl
	addb	%dl, %dl
	cmpq	%r12, %rcx
	movq	-8(%r13), %rcx
	movzbl	%dl, %edx
	movl	$1, %r8d
	cmovnel	%edx, %r8d
	movq	64(%rsp), %r9
	cmpq	%r9, %rcx
	setae	%dl
	addb	%dl, %dl
	cmpq	%r9, %rcx
	movzbl	%dl, %ecx
	cmovel	%r8d, %ecx
	cmpb	$1, %al
	je	.Lunix_path_BB10_26
	movzbl	%al, %ecx
	jmp	.Lunix_path_BB10_26
	.p2align	4
.Lunix_path_BB10_27:
	movq	120(%rsp), %rcx
	cmpq	%r12, %rcx
	setae	%al
	addb	%al, %al
	cmpq	%r12, %rcx
	movzbl	%al, %eax
	movl	$1, %ecx
	cmovnel	%eax, %ecx
	movq	64(%rsp), %rdx
	movq	96(%rsp), %r8
	cmpq	%rdx, %r8
	setae	%al
	addb	%al, %al
	cmpq	%rdx, %r8
	movzbl	%al, %ebp
	cmovel	%ecx, %ebp
	movq	136(%rsp), %r13
	cmpq	%r13, %rbx
	movq	%r13, %rdx
	cmovbq	%rbx, %rdx
	movq	144(%rsp), %r12
	cmpq	%r12, %rdx
	movq	%r12, %rax
	cmovbq	%rdx, %rax
	movq	72(%rsp), %rcx
	addq	%rax, %rcx
	subq	%rax, %rdx
	callq	path_archive.slot.without_dot
	movq	%rax, %r14
	movq	%rdx, %rdi
	movq	56(%rsp), %rcx
	movq	88(%rsp), %rdx
	callq	path_archive.slot.without_dot
	movq	%rdx, %r9
	movq	%r14, %rcx
	movq	%rdi, %rdx
	movq	%rax, %r8
	callq	unix_path.compare.compare
	cmpb	$1, %al
	movzbl	%al, %eax
	cmovel	%ebp, %eax
	leaq	(%r15,%r15,4), %rcx
	movq	128(%rsp), %rdx
	leaq	(%rdx,%rdx,4), %rdx
	movq	32(%rsi,%rcx,8), %r8
	movups	(%rsi,%rcx,8), %xmm0
	movups	16(%rsi,%rcx,8), %xmm1
	movups	%xmm0, (%rsi,%rdx,8)
	movups	%xmm1, 16(%rsi,%rdx,8)
	movq	%r8, 32(%rsi,%rdx,8)
	movq	%r12, (%rsi,%rcx,8)
	movq	%r13, 8(%rsi,%rcx,8)
	movq	96(%rsp), %rdx
	movq	%rdx, 16(%rsi,%rcx,8)
	movups	%xmm7, 24(%rsi,%rcx,8)
	cmpb	$1, %al
	adcq	$0, %r15
	movl	52(%rsp), %ebp
.Lunix_path_BB10_28:
	movq	%r15, %r8
	decq	%r8
	jne	.Lunix_path_BB10_48
	xorl	%eax, %eax
	jmp	.Lunix_path_BB10_49
.Lunix_path_BB10_35:
	movq	%rsi, %rdx
	movq	%r12, %r8
	movq	56(%rsp), %rax
.Lunix_path_BB10_38:
	decq	%rax
	cmpq	%rax, %r15
	movl	52(%rsp), %ebp
	movq	%rbx, %r11
	jae	.Lunix_path_BB10_39
	movq	%rax, %rbp
	leaq	1(%r15), %rax
	leaq	(%rax,%rax,4), %rcx
	movq	(%r11,%rcx,8), %rbx
	movq	8(%r11,%rcx,8), %r14
	movq	16(%r11,%rcx,8), %r13
	movq	%r13, 128(%rsp)
	movups	24(%r11,%rcx,8), %xmm7
	movq	24(%r11,%rcx,8), %rcx
	movq	%rcx, 240(%rsp)
	movq	%rbp, 120(%rsp)
	cmpq	%rbp, %rax
	movq	%rbx, 144(%rsp)
	movq	%r14, 136(%rsp)
	movq	%r11, 112(%rsp)
	jae	.Lunix_path_BB10_43
	leaq	(%r15,%r15,4), %rax
	movq	160(%rsp), %rcx
	leaq	(%rcx,%rax,8), %r13
	addq	224(%rsp), %r13
	movq	56(%rsp), %rbx
	subq	%r15, %rbx
	addq	$-2, %rbx
	.p2align	4
.Lunix_path_BB10_42:
	movq	%r8, %rcx
	movq	%rsi, %rdx
	callq	path_archive.slot.without_dot
	movq	%rax, %r14
	movq	%rdx, %rbp
	movq	-24(%r13), %rax
	movq	-16(%r13), %rdx
	movq	88(%rsp), %rcx
	cmpq	%rdx, %rcx
	cmovbq	%rcx, %rdx
	cmpq	%rax, %rdx
	cmovbq	%rdx, %rax
	movq	64(%rsp), %rcx
	addq	%rax, %rcx
	subq	%rax, %rdx
	callq	path_archive.slot.without_dot
	movq	%rdx, %r9
	movq	%r14, %rcx
	movq	%rbp, %rdx
	movq	%rax, %r8
	callq	unix_path.compare.compare
	movq	%rdi, %r10
	movq	72(%rsp), %r9
	movq	(%r13), %rcx
	cmpq	%rcx, %rdi
	setae	%dl
	addb	%dl, %dl
	cmpq	%rcx, %rdi
	movq	-8(%r13), %rcx
	movzbl	%dl, %edx
	movl	$1, %r8d
	cmovnel	%edx, %r8d
	cmpq	%rcx, %r9
	setae	%dl
	addb	%dl, %dl
	cmpq	%rcx, %r9
	movzbl	%dl, %ecx
	cmovel	%r8d, %ecx
	movq	%r12, %r8
	cmpb	$1, %al
	movzbl	%al, %eax
	cmovel	%ecx, %eax
	leaq	(%r15,%r15,4), %rcx
	movq	112(%rsp), %r11
	movq	32(%r11,%rcx,8), %rdx
	movups	(%r11,%rcx,8), %xmm0
	movups	16(%r11,%rcx,8), %xmm1
	movups	%xmm0, -64(%r13)
	movups	%xmm1, -48(%r13)
	movq	%rdx, -32(%r13)
	movups	-24(%r13), %xmm0
	movups	-8(%r13), %xmm1
	movq	8(%r13), %rdx
	movq	%rdx, 32(%r11,%rcx,8)
	movq	%rsi, %rdx
	movups	%xmm1, 16(%r11,%rcx,8)
	movups	%xmm0, (%r11,%rcx,8)
	cmpb	$1, %al
	sbbq	$-1, %r15
	addq	$40, %r13
	decq	%rbx
	jne	.Lunix_path_BB10_42
.Lunix_path_BB10_43:
	movq	240(%rsp), %rcx
	cmpq	%rcx, %r10
	setae	%al
	addb	%al, %al
	cmpq	%rcx, %r10
	movzbl	%al, %eax
	movl	$1, %ecx
	cmovnel	%eax, %ecx
	movq	128(%rsp), %r12
	cmpq	%r12, %r9
	setae	%al
	addb	%al, %al
	cmpq	%r12, %r9
	movzbl	%al, %ebp
	cmovel	%ecx, %ebp
	movq	%r8, %rcx
	callq	path_archive.slot.without_dot
	movq	%rax, %r14
	movq	%rdx, 56(%rsp)
	movq	136(%rsp), %rbx
	movq	88(%rsp), %rdi
	cmpq	%rbx, %rdi
	movq	%rbx, %rdx
	cmovbq	%rdi, %rdx
	movq	144(%rsp), %rsi
	cmpq	%rsi, %rdx
	movq	%rsi, %rax
	cmovbq	%rdx, %rax
	movq	64(%rsp), %r13
	leaq	(%rax,%r13), %rcx
	subq	%rax, %rdx
	callq	path_archive.slot.without_dot
	movq	%rdx, %r9
	movq	%r14, %rcx
	movq	56(%rsp), %rdx
	movq	%rax, %r8
	callq	unix_path.compare.compare
	cmpb	$1, %al
	movzbl	%al, %eax
	cmovel	%ebp, %eax
	leaq	(%r15,%r15,4), %rcx
	movq	120(%rsp), %rdx
	leaq	(%rdx,%rdx,4), %rdx
	movq	112(%rsp), %r11
	movq	32(%r11,%rcx,8), %r8
	movups	(%r11,%rcx,8), %xmm0
	movups	16(%r11,%rcx,8), %xmm1
	movups	%xmm0, (%r11,%rdx,8)
	movups	%xmm1, 16(%r11,%rdx,8)
	movq	%r8, 32(%r11,%rdx,8)
	movq	%rsi, (%r11,%rcx,8)
	movq	%rbx, 8(%r11,%rcx,8)
	movq	%r12, 16(%r11,%rcx,8)
	movups	%xmm7, 24(%r11,%rcx,8)
	cmpb	$1, %al
	sbbq	$-1, %r15
	movl	52(%rsp), %ebp
	movq	%r13, %rdx
	movq	%r15, %rax
	decq	%rax
	je	.Lunix_path_BB10_45
.Lunix_path_BB10_46:
	shlq	$3, %rax
	leaq	(%rax,%rax,4), %rax
	movups	(%r11,%rax), %xmm0
	movups	16(%r11,%rax), %xmm1
	movq	32(%r11,%rax), %rcx
	movq	%rcx, 32(%r11)
	movups	%xmm1, 16(%r11)
	movups	%xmm0, (%r11)
	jmp	.Lunix_path_BB10_47
.Lunix_path_BB10_39:
	movq	64(%rsp), %rdx
	movq	88(%rsp), %rdi
	movq	%r15, %rax
	decq	%rax
	jne	.Lunix_path_BB10_46
.Lunix_path_BB10_45:
	xorl	%eax, %eax
.Lunix_path_BB10_47:
	movq	72(%rsp), %rbx
	movq	152(%rsp), %rcx
	movq	%rcx, (%r11,%rax)
	movq	96(%rsp), %rcx
	movq	%rcx, 8(%r11,%rax)
	movq	%rbx, 16(%r11,%rax)
	movups	%xmm6, 24(%r11,%rax)
	movq	168(%rsp), %rax
	movq	%rdx, (%rax)
	movq	%rdi, 8(%rax)
	movq	80(%rsp), %rbx
	movq	104(%rsp), %rsi
	jmp	.Lunix_path_BB10_50
.Lunix_path_BB10_51:
	leaq	(%rsi,%rsi,4), %rax
	leaq	(%rbx,%rax,8), %rcx
	movq	%rdi, %rdx
	movq	%r15, %r8
	movaps	256(%rsp), %xmm6
	movaps	272(%rsp), %xmm7
	addq	$296, %rsp
	popq	%rbx
	popq	%rbp
	popq	%rdi
	popq	%rsi
	popq	%r12
	popq	%r13
	popq	%r14
	popq	%r15
	jmp	core.slice.sort.small.insertion_sort.fd4dfef4a36ac24b.
.Lunix_path_BB10_3:
	shlq	$3, %rsi
	leaq	(%rsi,%rsi,4), %rsi
	addq	%rsi, %rbx
	movq	%rdi, %r14
	shrq	%r14
	decq	%r14
	.p2align	4
.Lunix_path_BB10_4:
	movq	%rbx, %rcx
	movq	%r14, %rdx
	movq	%rdi, %r8
	movq	%r15, %r9
	callq	core.slice.sort.heap.sift.fd4dfef4a36ac24b.
	addq	$-1, %r14
	jb	.Lunix_path_BB10_4
	leaq	(%rdi,%rdi,4), %rax
	leaq	(%rsi,%rax,8), %rax
	movq	80(%rsp), %rcx
	leaq	(%rcx,%rax), %rsi
	addq	$-40, %rsi
	.p2align	4
.Lunix_path_BB10_6:
	decq	%rdi
	movq	32(%rbx), %rax
	movq	%rax, 208(%rsp)
	movups	(%rbx), %xmm0
	movups	16(%rbx), %xmm1
	movaps	%xmm1, 192(%rsp)
	movaps	%xmm0, 176(%rsp)
	movq	32(%rsi), %rax
	movups	(%rsi), %xmm0
	movups	16(%rsi), %xmm1
	movups	%xmm0, (%rbx)
	movups	%xmm1, 16(%rbx)
	movq	%rax, 32(%rbx)
	movq	208(%rsp), %rax
	movq	%rax, 32(%rsi)
	movaps	176(%rsp), %xmm0
	movaps	192(%rsp), %xmm1
	movups	%xmm1, 16(%rsi)
	movups	%xmm0, (%rsi)
	movq	%rbx, %rcx
	xorl	%edx, %edx
	movq	%rdi, %r8
	movq	%r15, %r9
	callq	core.slice.sort.heap.sift.fd4dfef4a36ac24b.
	addq	$-40, %rsi
	cmpq	$1, %rdi
	ja	.Lunix_path_BB10_6
	movaps	256(%rsp), %xmm6
	movaps	272(%rsp), %xmm7
	addq	$296, %rsp
	popq	%rbx
	popq	%rbp
	popq	%rdi
	popq	%rsi
	popq	%r12
	popq	%r13
	popq	%r14
	popq	%r15
	retq
	.def	core.slice.sort.heap.sift.fd4dfef4a36ac24b.;
	.scl	3;
	.type	32;
	.endef
	.p2align	4
# core::slice::sort::heap::sift::<#fd4dfef4a36ac24b>
core.slice.sort.heap.sift.fd4dfef4a36ac24b.:
	pushq	%r15
	pushq	%r14
	pushq	%r13
	pushq	%r12
	pushq	%rsi
	pushq	%rdi
	pushq	%rbp
	pushq	%rbx
	subq	$104, %rsp
	movq	%r9, 32(%rsp)
	movq	%r8, 96(%rsp)
	shrq	%r8
	movq	%r8, 88(%rsp)
	cmpq	%r8, %rdx
	jae	.Lunix_path_BB11_26
	movq	%rdx, %rdi
	movq	%rcx, %rbx
	jmp	.Lunix_path_BB11_2
	.p2align	4
.Lunix_path_BB11_22:
	movq	32(%rax), %rdx
	movq	%rdx, 80(%rsp)
	movups	(%rax), %xmm0
	movups	16(%rax), %xmm1
	movaps	%xmm1, 64(%rsp)
	movaps	%xmm0, 48(%rsp)
	movq	32(%rcx), %rdx
	movups	(%rcx), %xmm0
	movups	16(%rcx), %xmm1
	movups	%xmm0, (%rax)
	movups	%xmm1, 16(%rax)
	movq	%rdx, 32(%rax)
	movq	80(%rsp), %rax
	movq	%rax, 32(%rcx)
	movaps	48(%rsp), %xmm0
	movaps	64(%rsp), %xmm1
	movups	%xmm1, 16(%rcx)
	movups	%xmm0, (%rcx)
.Lunix_path_BB11_25:
	cmpq	88(%rsp), %rdi
	jae	.Lunix_path_BB11_26
.Lunix_path_BB11_2:
	movq	%rdi, %rax
	leaq	1(,%rdi,2), %rdi
	movq	%rax, 40(%rsp)
	leaq	2(,%rax,2), %r14
	cmpq	96(%rsp), %r14
	je	.Lunix_path_BB11_14
	movq	32(%rsp), %rax
	movq	8(%rax), %r15
	leaq	(%rdi,%rdi,4), %rcx
	movq	8(%rbx,%rcx,8), %rax
	movq	%r15, %rdx
	cmpq	%rax, %r15
	jb	.Lunix_path_BB11_5
	movq	%rax, %rdx
.Lunix_path_BB11_5:
	movq	32(%rsp), %rax
	movq	(%rax), %r12
	leaq	(%r14,%r14,4), %rsi
	movq	(%rbx,%rcx,8), %rax
	cmpq	%rax, %rdx
	cmovbq	%rdx, %rax
	leaq	(%r12,%rax), %rcx
	subq	%rax, %rdx
	callq	path_archive.slot.without_dot
	movq	%rax, %r13
	movq	%rdx, %rbp
	movq	8(%rbx,%rsi,8), %rax
	cmpq	%rax, %r15
	jb	.Lunix_path_BB11_7
	movq	%rax, %r15
.Lunix_path_BB11_7:
	movq	(%rbx,%rsi,8), %rax
	cmpq	%rax, %r15
	cmovbq	%r15, %rax
	addq	%rax, %r12
	subq	%rax, %r15
	movq	%r12, %rcx
	movq	%r15, %rdx
	callq	path_archive.slot.without_dot
	movq	%rdx, %r9
	movq	%r13, %rcx
	movq	%rbp, %rdx
	movq	%rax, %r8
	callq	unix_path.compare.compare
	leaq	(%rdi,%rdi,4), %rdx
	movq	16(%rbx,%rdx,8), %rcx
	movq	24(%rbx,%rdx,8), %r9
	movq	24(%rbx,%rsi,8), %r10
	movq	16(%rbx,%rsi,8), %rdx
	movl	$1, %r8d
	cmpq	%r10, %r9
	setae	%r9b
	je	.Lunix_path_BB11_9
	addb	%r9b, %r9b
	movzbl	%r9b, %r8d
.Lunix_path_BB11_9:
	cmpq	%rdx, %rcx
	setae	%r9b
	addb	%r9b, %r9b
	cmpq	%rdx, %rcx
	movzbl	%r9b, %ecx
	cmovel	%r8d, %ecx
	cmpb	$1, %al
	je	.Lunix_path_BB11_11
	movzbl	%al, %ecx
.Lunix_path_BB11_11:
	testb	%cl, %cl
	je	.Lunix_path_BB11_13
	movq	%rdi, %r14
.Lunix_path_BB11_13:
	movq	%r14, %rdi
.Lunix_path_BB11_14:
	movq	32(%rsp), %rax
	movq	(%rax), %r15
	movq	8(%rax), %r12
	movq	40(%rsp), %rax
	leaq	(%rax,%rax,4), %r14
	movq	(%rbx,%r14,8), %rax
	movq	8(%rbx,%r14,8), %rcx
	movq	%r12, %rdx
	cmpq	%rcx, %r12
	jb	.Lunix_path_BB11_16
	movq	%rcx, %rdx
.Lunix_path_BB11_16:
	leaq	(%rdi,%rdi,4), %rsi
	cmpq	%rax, %rdx
	cmovbq	%rdx, %rax
	leaq	(%r15,%rax), %rcx
	subq	%rax, %rdx
	callq	path_archive.slot.without_dot
	movq	%rax, %r13
	movq	%rdx, %rbp
	movq	(%rbx,%rsi,8), %rax
	movq	8(%rbx,%rsi,8), %rcx
	cmpq	%rcx, %r12
	jb	.Lunix_path_BB11_18
	movq	%rcx, %r12
.Lunix_path_BB11_18:
	cmpq	%rax, %r12
	cmovbq	%r12, %rax
	addq	%rax, %r15
	subq	%rax, %r12
	movq	%r15, %rcx
	movq	%r12, %rdx
	callq	path_archive.slot.without_dot
	movq	%rdx, %r9
	movq	%r13, %rcx
	movq	%rbp, %rdx
	movq	%rax, %r8
	callq	unix_path.compare.compare
	movq	16(%rbx,%r14,8), %rcx
	movq	24(%rbx,%r14,8), %r9
	movq	24(%rbx,%rsi,8), %r10
	movq	16(%rbx,%rsi,8), %rdx
	movl	$1, %r8d
	cmpq	%r10, %r9
	setae	%r9b
	je	.Lunix_path_BB11_20
	addb	%r9b, %r9b
	movzbl	%r9b, %r8d
.Lunix_path_BB11_20:
	cmpq	%rdx, %rcx
	setae	%r9b
	addb	%r9b, %r9b
	cmpq	%rdx, %rcx
	movzbl	%r9b, %ecx
	cmovel	%r8d, %ecx
	cmpb	$1, %al
	movzbl	%al, %eax
	cmovel	%ecx, %eax
	testb	%al, %al
	jne	.Lunix_path_BB11_26
	leaq	(%rbx,%r14,8), %rax
	leaq	(%rbx,%rsi,8), %rcx
	cmpq	%rdi, 40(%rsp)
	jb	.Lunix_path_BB11_22
	jbe	.Lunix_path_BB11_25
	movq	32(%rcx), %rdx
	movq	%rdx, 80(%rsp)
	movups	(%rcx), %xmm0
	movups	16(%rcx), %xmm1
	movaps	%xmm1, 64(%rsp)
	movaps	%xmm0, 48(%rsp)
	movq	32(%rax), %rdx
	movups	(%rax), %xmm0
	movups	16(%rax), %xmm1
	movups	%xmm0, (%rcx)
	movups	%xmm1, 16(%rcx)
	movq	%rdx, 32(%rcx)
	movq	80(%rsp), %rcx
	movq	%rcx, 32(%rax)
	movaps	48(%rsp), %xmm0
	movaps	64(%rsp), %xmm1
	movups	%xmm1, 16(%rax)
	movups	%xmm0, (%rax)
	jmp	.Lunix_path_BB11_25
.Lunix_path_BB11_26:
	addq	$104, %rsp
	popq	%rbx
	popq	%rbp
	popq	%rdi
	popq	%rsi
	popq	%r12
	popq	%r13
	popq	%r14
	popq	%r15
	retq
	.def	core.slice.sort.pivot.median_of_three.fd4dfef4a36ac24b.;
	.scl	3;
	.type	32;
	.endef
	.p2align	4
# core::slice::sort::pivot::median_of_three::<#fd4dfef4a36ac24b>
core.slice.sort.pivot.median_of_three.fd4dfef4a36ac24b.:
	pushq	%r15
	pushq	%r14
	pushq	%r13
	pushq	%r12
	pushq	%rsi
	pushq	%rdi
	pushq	%rbp
	pushq	%rbx
	subq	$72, %rsp
	movq	%r9, 40(%rsp)
	movq	%rdx, 64(%rsp)
	movq	%rcx, %rbx
	movq	176(%rsp), %rbp
	movq	(%rbp), %r15
	movq	8(%rbp), %rsi
	leaq	(%rdx,%rdx,4), %r14
	movq	%r8, 56(%rsp)
	leaq	(,%r8,8), %rax
	leaq	(%rax,%rax,4), %rdi
	movq	(%rcx,%r14,8), %rax
	movq	8(%rcx,%r14,8), %rdx
	cmpq	%rdx, %rsi
	cmovbq	%rsi, %rdx
	cmpq	%rax, %rdx
	cmovbq	%rdx, %rax
	leaq	(%r15,%rax), %rcx
	subq	%rax, %rdx
	callq	path_archive.slot.without_dot
	movq	%rax, %r12
	movq	%rdx, %r13
	movq	(%rbx,%rdi), %rax
	movq	8(%rbx,%rdi), %rdx
	cmpq	%rdx, %rsi
	cmovbq	%rsi, %rdx
	cmpq	%rax, %rdx
	cmovbq	%rdx, %rax
	addq	%rax, %r15
	subq	%rax, %rdx
	movq	%r15, %rcx
	callq	path_archive.slot.without_dot
	movq	%rdx, %r9
	movq	%r12, %rcx
	movq	%r13, %rdx
	movq	%rax, %r8
	callq	unix_path.compare.compare
	movb	%al, 39(%rsp)
	movq	24(%rbx,%r14,8), %rax
	movq	24(%rbx,%rdi), %rcx
	cmpq	%rcx, %rax
	setae	%dl
	addb	%dl, %dl
	cmpq	%rcx, %rax
	movq	16(%rbx,%r14,8), %rax
	movq	%rdi, 48(%rsp)
	movq	16(%rbx,%rdi), %rcx
	movzbl	%dl, %edx
	movl	$1, %r8d
	cmovel	%r8d, %edx
	cmpq	%rcx, %rax
	setae	%r8b
	addb	%r8b, %r8b
	cmpq	%rcx, %rax
	movzbl	%r8b, %edi
	cmovel	%edx, %edi
	movq	(%rbp), %r15
	movq	8(%rbp), %rbp
	movq	40(%rsp), %rax
	leaq	(,%rax,8), %rax
	leaq	(%rax,%rax,4), %rsi
	movq	(%rbx,%r14,8), %rax
	movq	8(%rbx,%r14,8), %rdx
	cmpq	%rdx, %rbp
	cmovbq	%rbp, %rdx
	cmpq	%rax, %rdx
	cmovbq	%rdx, %rax
	leaq	(%r15,%rax), %rcx
	subq	%rax, %rdx
	callq	path_archive.slot.without_dot
	movq	%rax, %r12
	movq	%rdx, %r13
	movq	(%rbx,%rsi), %rax
	movq	8(%rbx,%rsi), %rdx
	cmpq	%rdx, %rbp
	cmovbq	%rbp, %rdx
	cmpq	%rax, %rdx
	cmovbq	%rdx, %rax
	addq	%rax, %r15
	subq	%rax, %rdx
	movq	%r15, %rcx
	callq	path_archive.slot.without_dot
	movq	%rdx, %r9
	movq	%r12, %rcx
	movq	%r13, %rdx
	movq	%rax, %r8
	callq	unix_path.compare.compare
	movq	16(%rbx,%r14,8), %rcx
	movq	24(%rbx,%r14,8), %rdx
	movq	24(%rbx,%rsi), %r8
	cmpq	%r8, %rdx
	setae	%r9b
	addb	%r9b, %r9b
	cmpq	%r8, %rdx
	movq	16(%rbx,%rsi), %rdx
	movzbl	%r9b, %r8d
	movl	$1, %r9d
	cmovel	%r9d, %r8d
	cmpq	%rdx, %rcx
	setae	%r9b
	addb	%r9b, %r9b
	cmpq	%rdx, %rcx
	movzbl	%r9b, %ecx
	cmovel	%r8d, %ecx
	movzbl	39(%rsp), %edx
	cmpb	$1, %dl
	movzbl	%dl, %ebp
	cmovel	%edi, %ebp
	testb	%bpl, %bpl
	sete	%dl
	cmpb	$1, %al
	movzbl	%al, %eax
	cmovel	%ecx, %eax
	testb	%al, %al
	sete	%al
	cmpb	%al, %dl
	movq	64(%rsp), %rax
	jne	.Lunix_path_BB12_2
	movq	176(%rsp), %rax
	movq	(%rax), %r14
	movq	8(%rax), %rdi
	movq	48(%rsp), %r13
	movq	(%rbx,%r13), %rax
	movq	8(%rbx,%r13), %rdx
	cmpq	%rdx, %rdi
	cmovbq	%rdi, %rdx
	cmpq	%rax, %rdx
	cmovbq	%rdx, %rax
	leaq	(%r14,%rax), %rcx
	subq	%rax, %rdx
	callq	path_archive.slot.without_dot
	movq	%rax, %r15
	movq	%rdx, %r12
	movq	(%rbx,%rsi), %rax
	movq	8(%rbx,%rsi), %rdx
	cmpq	%rdx, %rdi
	cmovbq	%rdi, %rdx
	cmpq	%rax, %rdx
	cmovbq	%rdx, %rax
	addq	%rax, %r14
	subq	%rax, %rdx
	movq	%r14, %rcx
	callq	path_archive.slot.without_dot
	movq	%rdx, %r9
	movq	%r15, %rcx
	movq	%r12, %rdx
	movq	%rax, %r8
	callq	unix_path.compare.compare
	movq	16(%rbx,%r13), %rcx
	movq	24(%rbx,%r13), %rdx
	movq	24(%rbx,%rsi), %r8
	cmpq	%r8, %rdx
	setae	%r9b
	addb	%r9b, %r9b
	cmpq	%r8, %rdx
	movzbl	%r9b, %edx
	movl	$1, %r8d
	cmovel	%r8d, %edx
	movq	16(%rbx,%rsi), %r8
	cmpq	%r8, %rcx
	setae	%r9b
	addb	%r9b, %r9b
	cmpq	%r8, %rcx
	movzbl	%r9b, %ecx
	cmovel	%edx, %ecx
	testb	%bpl, %bpl
	sete	%dl
	cmpb	$1, %al
	movzbl	%al, %eax
	cmovel	%ecx, %eax
	testb	%al, %al
	sete	%al
	xorb	%dl, %al
	movq	56(%rsp), %rax
	cmovneq	40(%rsp), %rax
.Lunix_path_BB12_2:
	addq	$72, %rsp
	popq	%rbx
	popq	%rbp
	popq	%rdi
	popq	%rsi
	popq	%r12
	popq	%r13
	popq	%r14
	popq	%r15
	retq
	.def	core.slice.sort.pivot.median_of_medians.fd4dfef4a36ac24b.;
	.scl	3;
	.type	32;
	.endef
	.p2align	4
# core::slice::sort::pivot::median_of_medians::<#fd4dfef4a36ac24b>
core.slice.sort.pivot.median_of_medians.fd4dfef4a36ac24b.:
	pushq	%r15
	pushq	%r14
	pushq	%r13
	pushq	%r12
	pushq	%rsi
	pushq	%rdi
	pushq	%rbx
	subq	$48, %rsp
	movq	152(%rsp), %r12
	movq	144(%rsp), %rsi
	cmpq	$7, %rsi
	ja	.Lunix_path_BB13_3
	movq	%r12, 32(%rsp)
	jmp	.Lunix_path_BB13_2
.Lunix_path_BB13_3:
	movq	%rsi, %r13
	shrq	$3, %r13
	leaq	(%rdx,%r13,4), %rax
	andq	$-8, %rsi
	subq	%r13, %rsi
	leaq	(%rsi,%rdx), %r10
	movq	%r12, 40(%rsp)
	movq	%r13, 32(%rsp)
	movq	%rcx, %rdi
	movq	%r8, %r14
	movq	%rax, %r8
	movq	%r9, %r15
	movq	%r10, %r9
	callq	core.slice.sort.pivot.median_of_medians.fd4dfef4a36ac24b.
	movq	%rax, %rbx
	leaq	(%r14,%r13,4), %r8
	leaq	(%rsi,%r14), %r9
	movq	%r12, 40(%rsp)
	movq	%r13, 32(%rsp)
	movq	%rdi, %rcx
	movq	%r14, %rdx
	callq	core.slice.sort.pivot.median_of_medians.fd4dfef4a36ac24b.
	movq	%rax, %r14
	leaq	(%r15,%r13,4), %r8
	addq	%r15, %rsi
	movq	%r12, 40(%rsp)
	movq	%r13, 32(%rsp)
	movq	%rdi, %rcx
	movq	%r15, %rdx
	movq	%rsi, %r9
	callq	core.slice.sort.pivot.median_of_medians.fd4dfef4a36ac24b.
	movq	%r12, 32(%rsp)
	movq	%rdi, %rcx
	movq	%rbx, %rdx
	movq	%r14, %r8
	movq	%rax, %r9
.Lunix_path_BB13_2:
	callq	core.slice.sort.pivot.median_of_three.fd4dfef4a36ac24b.
	addq	$48, %rsp
	popq	%rbx
	popq	%rdi
	popq	%rsi
	popq	%r12
	popq	%r13
	popq	%r14
	popq	%r15
	retq
	.def	core.slice.edits.mirror.24.path_archive.slot.Slot.;
	.scl	3;
	.type	32;
	.endef
	.p2align	4
# core::slice::edits::mirror::<24'path_archive::slot::Slot>
core.slice.edits.mirror.24.path_archive.slot.Slot.:
	subq	$40, %rsp
	leaq	(%r8,%r8,4), %rax
	leaq	(%rdx,%rax,8), %rax
	addq	$-40, %rax
	.p2align	4
.Lunix_path_BB14_1:
	movq	32(%rcx), %rdx
	movq	%rdx, 32(%rsp)
	movups	(%rcx), %xmm0
	movups	16(%rcx), %xmm1
	movaps	%xmm1, 16(%rsp)
	movaps	%xmm0, (%rsp)
	movq	32(%rax), %rdx
	movups	(%rax), %xmm0
	movups	16(%rax), %xmm1
	movups	%xmm0, (%rcx)
	movups	%xmm1, 16(%rcx)
	movq	%rdx, 32(%rcx)
	movq	32(%rsp), %rdx
	movq	%rdx, 32(%rax)
	movaps	(%rsp), %xmm0
	movaps	16(%rsp), %xmm1
	movups	%xmm1, 16(%rax)
	movups	%xmm0, (%rax)
	addq	$40, %rcx
	addq	$-40, %rax
	decq	%r8
	jne	.Lunix_path_BB14_1
	addq	$40, %rsp
	retq
	.def	path_archive.outlined.starts_with;
	.scl	3;
	.type	32;
	.endef
	.p2align	4
# path_archive::outlined::starts_with
path_archive.outlined.starts_with:
	pushq	%rsi
	pushq	%rbx
	subq	$72, %rsp
	testq	%r9, %r9
	je	.Lunix_path_BB15_7
	movq	%r8, %r10
	movq	%rdx, %r8
	movq	%rcx, %rdx
	pxor	%xmm0, %xmm0
	movdqa	%xmm0, 48(%rsp)
	movq	$0, 64(%rsp)
	cmpq	%r8, %r9
	movq	%r8, %rax
	cmovbq	%r9, %rax
	cmpq	$15, %rax
	ja	.Lunix_path_BB15_8
	cmpq	$7, %rax
	ja	.Lunix_path_BB15_15
	testq	%r8, %r8
	je	.Lunix_path_BB15_18
	movzbl	(%rdx), %ecx
	cmpb	(%r10), %cl
	jne	.Lunix_path_BB15_19
	cmpq	$1, %rax
	jne	.Lunix_path_BB15_46
.Lunix_path_BB15_6:
	movq	%rax, %rcx
	jmp	.Lunix_path_BB15_20
.Lunix_path_BB15_7:
	movb	$1, %al
	jmp	.Lunix_path_BB15_50
.Lunix_path_BB15_8:
	leaq	-16(%rax), %r11
	xorl	%esi, %esi
	cmpq	$64, %rax
	jb	.Lunix_path_BB15_13
	.p2align	4
.Lunix_path_BB15_9:
	movdqu	(%rdx,%rsi), %xmm0
	movdqu	16(%rdx,%rsi), %xmm1
	movdqu	32(%rdx,%rsi), %xmm2
	movdqu	48(%rdx,%rsi), %xmm3
	movdqu	(%r10,%rsi), %xmm4
	pcmpeqb	%xmm0, %xmm4
	movdqu	16(%r10,%rsi), %xmm0
	pcmpeqb	%xmm1, %xmm0
	pand	%xmm4, %xmm0
	movdqu	32(%r10,%rsi), %xmm1
	pcmpeqb	%xmm2, %xmm1
	movdqu	48(%r10,%rsi), %xmm2
	pcmpeqb	%xmm3, %xmm2
	pand	%xmm1, %xmm2
	pand	%xmm0, %xmm2
	pmovmskb	%xmm2, %ecx
	cmpl	$65535, %ecx
	jne	.Lunix_path_BB15_13
	addq	$64, %rsi
	addq	$-64, %rax
	cmpq	$63, %rax
	ja	.Lunix_path_BB15_9
	jmp	.Lunix_path_BB15_13
	.p2align	4
.Lunix_path_BB15_11:
	movdqu	(%rdx,%rsi), %xmm0
	movdqu	(%r10,%rsi), %xmm1
	pcmpeqb	%xmm0, %xmm1
	pmovmskb	%xmm1, %eax
	notl	%eax
	rep		bsfl	%eax, %eax
	cmpw	$15, %ax
	jbe	.Lunix_path_BB15_17
	addq	$16, %rsi
.Lunix_path_BB15_13:
	cmpq	%r11, %rsi
	jb	.Lunix_path_BB15_11
	movdqu	(%rdx,%r11), %xmm0
	movdqu	(%r10,%r11), %xmm1
	pcmpeqb	%xmm0, %xmm1
	pmovmskb	%xmm1, %eax
	notl	%eax
	rep		bsfl	%eax, %ecx
	addq	%r11, %rcx
	jmp	.Lunix_path_BB15_20
.Lunix_path_BB15_15:
	movq	(%rdx), %xmm0
	movq	(%r10), %xmm1
	pcmpeqb	%xmm0, %xmm1
	pmovmskb	%xmm1, %ecx
	notl	%ecx
	orl	$256, %ecx
	rep		bsfl	%ecx, %ecx
	cmpb	$8, %cl
	jb	.Lunix_path_BB15_20
	movq	-8(%rdx,%rax), %xmm0
	movq	-8(%r10,%rax), %xmm1
	pcmpeqb	%xmm0, %xmm1
	pmovmskb	%xmm1, %ecx
	notl	%ecx
	orl	$256, %ecx
	rep		bsfl	%ecx, %ecx
	addq	%rax, %rcx
	addq	$-8, %rcx
	jmp	.Lunix_path_BB15_20
.Lunix_path_BB15_17:
	movzwl	%ax, %ecx
	addq	%rsi, %rcx
	jmp	.Lunix_path_BB15_20
.Lunix_path_BB15_18:
	movb	$1, %al
	xorl	%ecx, %ecx
	cmpq	%r8, %rcx
	jb	.Lunix_path_BB15_22
	jmp	.Lunix_path_BB15_28
.Lunix_path_BB15_19:
	xorl	%ecx, %ecx
.Lunix_path_BB15_20:
	movb	$1, %al
	cmpq	%rcx, %r9
	jbe	.Lunix_path_BB15_24
	cmpq	%r8, %rcx
	jae	.Lunix_path_BB15_28
.Lunix_path_BB15_22:
	movzbl	(%rdx,%rcx), %r11d
	cmpw	$47, %r11w
	jne	.Lunix_path_BB15_31
.Lunix_path_BB15_28:
	xorl	%r11d, %r11d
	testb	%al, %al
	je	.Lunix_path_BB15_34
.Lunix_path_BB15_29:
	movzbl	(%r10,%rcx), %eax
	cmpw	$47, %ax
	je	.Lunix_path_BB15_34
	movzwl	%ax, %eax
	incl	%eax
	cmpw	%ax, %r11w
	je	.Lunix_path_BB15_35
.Lunix_path_BB15_38:
	testq	%rcx, %rcx
	je	.Lunix_path_BB15_49
	movzbl	-1(%rdx,%rcx), %eax
	cmpb	$47, %al
	je	.Lunix_path_BB15_40
	cmpb	$46, %al
	setne	%al
	decq	%rcx
	sete	%r11b
	orb	%al, %r11b
	jne	.Lunix_path_BB15_49
	cmpb	$47, -1(%rdx,%rcx)
	jne	.Lunix_path_BB15_49
	jmp	.Lunix_path_BB15_40
.Lunix_path_BB15_24:
	movb	$1, %al
	cmpq	%r8, %r9
	jae	.Lunix_path_BB15_50
	cmpb	$47, (%rdx,%r9)
	je	.Lunix_path_BB15_50
	cmpb	$47, -1(%rdx,%r9)
	je	.Lunix_path_BB15_50
	xorl	%eax, %eax
	cmpq	%r8, %rcx
	jb	.Lunix_path_BB15_22
	jmp	.Lunix_path_BB15_28
.Lunix_path_BB15_31:
	cmpb	$46, %r11b
	sete	%bl
	movl	%eax, %esi
	xorb	$1, %sil
	orb	%bl, %sil
	jne	.Lunix_path_BB15_33
	movzbl	(%r10,%rcx), %ebx
	andb	$-2, %bl
	cmpb	$46, %bl
	jne	.Lunix_path_BB15_49
.Lunix_path_BB15_33:
	movzwl	%r11w, %r11d
	incl	%r11d
	testb	%al, %al
	jne	.Lunix_path_BB15_29
.Lunix_path_BB15_34:
	xorl	%eax, %eax
	cmpw	%ax, %r11w
	jne	.Lunix_path_BB15_38
.Lunix_path_BB15_35:
	testq	%rcx, %rcx
	je	.Lunix_path_BB15_49
.Lunix_path_BB15_40:
	addq	%rcx, %rdx
	subq	%rcx, %r8
	addq	%rcx, %r10
	subq	%rcx, %r9
	movq	%r9, 32(%rsp)
	leaq	48(%rsp), %rcx
	movq	%r10, %r9
	callq	unix_path.pair.Comparison.rest_after_cut
	movzbl	48(%rsp), %eax
	jmp	.Lunix_path_BB15_50
.Lunix_path_BB15_49:
	xorl	%eax, %eax
.Lunix_path_BB15_50:
	andb	$1, %al
	addq	$72, %rsp
	popq	%rbx
	popq	%rsi
	retq
.Lunix_path_BB15_46:
	movzbl	1(%rdx), %r11d
	movl	$1, %ecx
	cmpb	1(%r10), %r11b
	jne	.Lunix_path_BB15_20
	cmpq	$2, %rax
	je	.Lunix_path_BB15_6
	movzbl	2(%rdx), %r11d
	movl	$2, %ecx
	cmpb	2(%r10), %r11b
	jne	.Lunix_path_BB15_20
	cmpq	$3, %rax
	je	.Lunix_path_BB15_6
	movzbl	3(%rdx), %r11d
	movl	$3, %ecx
	cmpb	3(%r10), %r11b
	jne	.Lunix_path_BB15_20
	cmpq	$4, %rax
	je	.Lunix_path_BB15_6
	movzbl	4(%rdx), %r11d
	movl	$4, %ecx
	cmpb	4(%r10), %r11b
	jne	.Lunix_path_BB15_20
	cmpq	$5, %rax
	je	.Lunix_path_BB15_6
	movzbl	5(%rdx), %r11d
	movl	$5, %ecx
	cmpb	5(%r10), %r11b
	jne	.Lunix_path_BB15_20
	cmpq	$6, %rax
	je	.Lunix_path_BB15_6
	movzbl	6(%rdx), %ecx
	cmpb	6(%r10), %cl
	movl	$6, %ecx
	cmoveq	%rax, %rcx
	jmp	.Lunix_path_BB15_20
	.def	path_archive.outlined.has_root_or_parent_dir;
	.scl	3;
	.type	32;
	.endef
	.section	.rdata,"dr"
	.p2align	4, 0x0
.Lunix_path_CPI16_0:
	.zero	16,208
.Lunix_path_CPI16_1:
	.zero	16,47
.Lunix_path_CPI16_2:
	.zero	16,46
.Lunix_path_CPI16_3:
	.byte	254
	.byte	254
	.byte	254
	.byte	254
	.byte	254
	.byte	254
	.byte	254
	.byte	254
	.zero	1
	.zero	1
	.zero	1
	.zero	1
	.zero	1
	.zero	1
	.zero	1
	.zero	1
.Lunix_path_CPI16_4:
	.byte	46
	.byte	46
	.byte	46
	.byte	46
	.byte	46
	.byte	46
	.byte	46
	.byte	46
	.zero	1
	.zero	1
	.zero	1
	.zero	1
	.zero	1
	.zero	1
	.zero	1
	.zero	1
.Lunix_path_CPI16_5:
	.byte	47
	.byte	47
	.byte	47
	.byte	47
	.byte	47
	.byte	47
	.byte	47
	.byte	47
	.zero	1
	.zero	1
	.zero	1
	.zero	1
	.zero	1
	.zero	1
	.zero	1
	.zero	1
	.text
	.p2align	4
# path_archive::outlined::has_root_or_parent_dir
path_archive.outlined.has_root_or_parent_dir:
	pushq	%rsi
	pushq	%rdi
	pushq	%rbx
	subq	$48, %rsp
	movdqa	%xmm6, 32(%rsp)
	testq	%rdx, %rdx
	je	.Lunix_path_BB16_6
	movq	%rcx, %rsi
	movb	$1, %bl
	cmpb	$47, (%rcx)
	je	.Lunix_path_BB16_7
	movq	%rdx, %rdi
	movzbl	(%rsi), %eax
	cmpl	$47, %eax
	je	.Lunix_path_BB16_8
	cmpl	$46, %eax
	jne	.Lunix_path_BB16_13
	cmpq	$1, %rdi
	je	.Lunix_path_BB16_8
	movzbl	1(%rsi), %eax
	cmpl	$47, %eax
	je	.Lunix_path_BB16_55
	cmpl	$46, %eax
	jne	.Lunix_path_BB16_13
	cmpq	$2, %rdi
	je	.Lunix_path_BB16_55
	cmpb	$47, 2(%rsi)
	je	.Lunix_path_BB16_55
.Lunix_path_BB16_13:
	movzbl	-1(%rsi,%rdi), %eax
	andb	$-2, %al
	cmpb	$46, %al
	je	.Lunix_path_BB16_55
	cmpq	$17, %rdi
	jae	.Lunix_path_BB16_17
.Lunix_path_BB16_15:
	cmpq	$9, %rdi
	jae	.Lunix_path_BB16_25
	xorl	%eax, %eax
	jmp	.Lunix_path_BB16_42
.Lunix_path_BB16_17:
	cmpq	$32, %rdi
	ja	.Lunix_path_BB16_27
	movdqu	(%rsi), %xmm0
	movdqu	1(%rsi), %xmm1
	pand	.Lunix_path_CPI16_0(%rip), %xmm1
	por	%xmm0, %xmm1
	pcmpeqb	.Lunix_path_CPI16_1(%rip), %xmm1
	pmovmskb	%xmm1, %eax
	testl	%eax, %eax
	jne	.Lunix_path_BB16_20
	movdqu	-17(%rsi,%rdi), %xmm0
	movdqu	-16(%rsi,%rdi), %xmm1
	pand	.Lunix_path_CPI16_0(%rip), %xmm1
	por	%xmm0, %xmm1
	pcmpeqb	.Lunix_path_CPI16_1(%rip), %xmm1
	pmovmskb	%xmm1, %eax
	testl	%eax, %eax
	je	.Lunix_path_BB16_6
.Lunix_path_BB16_20:
	cmpq	$18, %rdi
	jbe	.Lunix_path_BB16_15
	movq	%rdi, %rcx
	addq	$-19, %rcx
	jne	.Lunix_path_BB16_29
	xorl	%ecx, %ecx
	xorl	%eax, %eax
.Lunix_path_BB16_23:
	leaq	-17(%rdi), %rdx
	cmpq	%rax, %rdx
	cmovbq	%rdx, %rax
	movdqu	(%rsi,%rax), %xmm0
	movdqu	1(%rsi,%rax), %xmm1
	pand	.Lunix_path_CPI16_0(%rip), %xmm1
	por	%xmm0, %xmm1
	pcmpeqb	.Lunix_path_CPI16_1(%rip), %xmm1
	pmovmskb	%xmm1, %edx
	testl	%edx, %edx
	je	.Lunix_path_BB16_41
	movdqu	(%rsi,%rcx), %xmm0
	movdqu	1(%rsi,%rcx), %xmm1
	movdqu	2(%rsi,%rcx), %xmm2
	movdqu	3(%rsi,%rcx), %xmm3
	movdqa	.Lunix_path_CPI16_2(%rip), %xmm4
	movdqa	%xmm2, %xmm5
	pcmpeqb	%xmm4, %xmm5
	movdqa	.Lunix_path_CPI16_1(%rip), %xmm6
	pcmpeqb	%xmm6, %xmm3
	pand	%xmm5, %xmm3
	pcmpeqb	%xmm1, %xmm4
	pcmpeqb	%xmm6, %xmm2
	por	%xmm3, %xmm2
	pand	%xmm4, %xmm2
	pcmpeqb	%xmm6, %xmm0
	pcmpeqb	%xmm6, %xmm1
	por	%xmm2, %xmm1
	pand	%xmm0, %xmm1
	pmovmskb	%xmm1, %eax
	orl	$65536, %eax
	rep		bsfl	%eax, %eax
	jmp	.Lunix_path_BB16_36
.Lunix_path_BB16_25:
	movq	1(%rsi), %xmm0
	pand	.Lunix_path_CPI16_3(%rip), %xmm0
	pcmpeqb	.Lunix_path_CPI16_4(%rip), %xmm0
	movq	(%rsi), %xmm1
	pcmpeqb	.Lunix_path_CPI16_5(%rip), %xmm1
	pand	%xmm0, %xmm1
	pmovmskb	%xmm1, %eax
	orl	$256, %eax
	rep		bsfl	%eax, %eax
	cmpb	$8, %al
	jb	.Lunix_path_BB16_42
	cmpq	$17, %rdi
	movl	$17, %eax
	cmovbq	%rdi, %rax
	movq	-8(%rsi,%rax), %xmm0
	pand	.Lunix_path_CPI16_3(%rip), %xmm0
	pcmpeqb	.Lunix_path_CPI16_4(%rip), %xmm0
	movq	-9(%rsi,%rax), %xmm1
	pcmpeqb	.Lunix_path_CPI16_5(%rip), %xmm1
	pand	%xmm0, %xmm1
	pmovmskb	%xmm1, %ecx
	orl	$256, %ecx
	rep		bsfl	%ecx, %ecx
	addq	%rcx, %rax
	addq	$-9, %rax
	jmp	.Lunix_path_BB16_42
.Lunix_path_BB16_27:
	movdqa	.Lunix_path_CPI16_0(%rip), %xmm0
	movdqu	-33(%rsi,%rdi), %xmm1
	movdqu	-32(%rsi,%rdi), %xmm2
	movdqu	-17(%rsi,%rdi), %xmm3
	movdqu	-16(%rsi,%rdi), %xmm4
	pand	%xmm0, %xmm2
	por	%xmm1, %xmm2
	movdqa	.Lunix_path_CPI16_1(%rip), %xmm1
	pcmpeqb	%xmm1, %xmm2
	pand	%xmm0, %xmm4
	por	%xmm3, %xmm4
	pcmpeqb	%xmm1, %xmm4
	por	%xmm2, %xmm4
	pmovmskb	%xmm4, %eax
	testl	%eax, %eax
	je	.Lunix_path_BB16_37
	leaq	-19(%rdi), %rcx
.Lunix_path_BB16_29:
	xorl	%eax, %eax
	jmp	.Lunix_path_BB16_33
	.p2align	4
.Lunix_path_BB16_30:
	movdqu	2(%rsi,%rax), %xmm2
	movdqu	3(%rsi,%rax), %xmm3
	movdqa	.Lunix_path_CPI16_2(%rip), %xmm4
	movdqa	%xmm2, %xmm5
	pcmpeqb	%xmm4, %xmm5
	movdqa	.Lunix_path_CPI16_1(%rip), %xmm6
	pcmpeqb	%xmm6, %xmm3
	pand	%xmm5, %xmm3
	pcmpeqb	%xmm1, %xmm4
	pcmpeqb	%xmm6, %xmm2
	por	%xmm3, %xmm2
	pand	%xmm4, %xmm2
	pcmpeqb	%xmm6, %xmm0
	pcmpeqb	%xmm6, %xmm1
	por	%xmm2, %xmm1
	pand	%xmm0, %xmm1
	pmovmskb	%xmm1, %edx
	orl	$65536, %edx
	rep		bsfl	%edx, %edx
	cmpw	$15, %dx
	jbe	.Lunix_path_BB16_35
	addq	$16, %rax
.Lunix_path_BB16_32:
	cmpq	%rcx, %rax
	jae	.Lunix_path_BB16_23
.Lunix_path_BB16_33:
	movdqu	(%rsi,%rax), %xmm0
	movdqu	1(%rsi,%rax), %xmm1
	movdqa	.Lunix_path_CPI16_0(%rip), %xmm2
	pand	%xmm1, %xmm2
	por	%xmm0, %xmm2
	pcmpeqb	.Lunix_path_CPI16_1(%rip), %xmm2
	pmovmskb	%xmm2, %edx
	testl	%edx, %edx
	jne	.Lunix_path_BB16_30
	addq	$16, %rax
	cmpq	%rcx, %rax
	jb	.Lunix_path_BB16_33
	jmp	.Lunix_path_BB16_32
.Lunix_path_BB16_35:
	movzwl	%dx, %ecx
.Lunix_path_BB16_36:
	addq	%rcx, %rax
	jmp	.Lunix_path_BB16_42
.Lunix_path_BB16_37:
	movq	%rdi, %rax
	addq	$-33, %rax
	je	.Lunix_path_BB16_6
	xorl	%ecx, %ecx
.Lunix_path_BB16_39:
	movdqu	(%rsi,%rcx), %xmm2
	movdqu	1(%rsi,%rcx), %xmm3
	movdqu	16(%rsi,%rcx), %xmm4
	movdqu	17(%rsi,%rcx), %xmm5
	pand	%xmm0, %xmm3
	por	%xmm2, %xmm3
	pcmpeqb	%xmm1, %xmm3
	pand	%xmm0, %xmm5
	por	%xmm4, %xmm5
	pcmpeqb	%xmm1, %xmm5
	por	%xmm3, %xmm5
	pmovmskb	%xmm5, %edx
	testl	%edx, %edx
	jne	.Lunix_path_BB16_20
	addq	$32, %rcx
	xorl	%ebx, %ebx
	cmpq	%rax, %rcx
	jb	.Lunix_path_BB16_39
	jmp	.Lunix_path_BB16_7
.Lunix_path_BB16_41:
	addq	$16, %rax
.Lunix_path_BB16_42:
	cmpq	%rdi, %rax
	jb	.Lunix_path_BB16_48
	movq	%rax, %rcx
.Lunix_path_BB16_44:
	cmpq	%rdi, %rcx
	jne	.Lunix_path_BB16_55
.Lunix_path_BB16_6:
	xorl	%ebx, %ebx
.Lunix_path_BB16_7:
	movl	%ebx, %eax
	movaps	32(%rsp), %xmm6
	addq	$48, %rsp
	popq	%rbx
	popq	%rdi
	popq	%rsi
	retq
.Lunix_path_BB16_46:
	cmpl	$47, %edx
	je	.Lunix_path_BB16_44
.Lunix_path_BB16_47:
	xorl	%ebx, %ebx
	cmpq	%rdi, %rax
	jae	.Lunix_path_BB16_7
.Lunix_path_BB16_48:
	movq	%rax, %rcx
	incq	%rax
	cmpb	$47, (%rsi,%rcx)
	jne	.Lunix_path_BB16_47
	cmpq	%rax, %rdi
	jbe	.Lunix_path_BB16_44
	movzbl	1(%rsi,%rcx), %edx
	cmpl	$46, %edx
	jne	.Lunix_path_BB16_46
	leaq	2(%rcx), %rdx
	cmpq	%rdx, %rdi
	jbe	.Lunix_path_BB16_44
	movzbl	2(%rsi,%rcx), %edx
	cmpl	$46, %edx
	jne	.Lunix_path_BB16_46
	leaq	3(%rcx), %rdx
	cmpq	%rdx, %rdi
	jbe	.Lunix_path_BB16_44
	cmpb	$47, 3(%rsi,%rcx)
	jne	.Lunix_path_BB16_47
	jmp	.Lunix_path_BB16_44
.Lunix_path_BB16_55:
	movzbl	(%rsi), %eax
	cmpl	$47, %eax
	je	.Lunix_path_BB16_8
	cmpl	$46, %eax
	jne	.Lunix_path_BB16_60
	movb	$1, %bl
	cmpq	$1, %rdi
	je	.Lunix_path_BB16_61
	cmpb	$47, 1(%rsi)
	sete	%bl
	jmp	.Lunix_path_BB16_61
.Lunix_path_BB16_8:
	movb	$1, %bl
.Lunix_path_BB16_61:
	movq	%rdi, %rcx
	movq	%rdi, %rax
	jmp	.Lunix_path_BB16_63
	.p2align	4
.Lunix_path_BB16_62:
	movq	%rax, %rcx
	testq	%rax, %rax
	je	.Lunix_path_BB16_6
.Lunix_path_BB16_63:
	decq	%rax
	je	.Lunix_path_BB16_69
	movzbl	(%rsi,%rax), %edx
	cmpl	$47, %edx
	je	.Lunix_path_BB16_67
	cmpl	$46, %edx
	jne	.Lunix_path_BB16_69
	cmpb	$47, -1(%rsi,%rax)
	jne	.Lunix_path_BB16_69
.Lunix_path_BB16_67:
	movq	%rdi, %rcx
	subq	%rax, %rcx
	cmpq	$8, %rcx
	jne	.Lunix_path_BB16_62
	movq	%rsi, %rcx
	movq	%rax, %rdx
	callq	unix_path.filler.trimmed_blocks_len
	jmp	.Lunix_path_BB16_62
.Lunix_path_BB16_69:
	xorl	%eax, %eax
	movq	%rcx, %rdx
	movq	%rsi, %r8
	jmp	.Lunix_path_BB16_73
.Lunix_path_BB16_70:
	xorl	%r9d, %r9d
.Lunix_path_BB16_71:
	addq	%r10, %r9
.Lunix_path_BB16_72:
	addq	%r9, %rax
	leaq	(%rsi,%rax), %r8
	xorl	%ebx, %ebx
	movq	%rcx, %rdx
	subq	%rax, %rdx
	je	.Lunix_path_BB16_7
.Lunix_path_BB16_73:
	testb	$1, %bl
	je	.Lunix_path_BB16_81
	movq	%rdx, %r10
	decq	%r10
	je	.Lunix_path_BB16_103
	leaq	-1(%rdx), %r11
	addq	$-2, %rdx
	xorl	%r9d, %r9d
	jmp	.Lunix_path_BB16_77
	.p2align	4
.Lunix_path_BB16_76:
	incq	%r9
	cmpq	%r9, %r11
	je	.Lunix_path_BB16_104
.Lunix_path_BB16_77:
	movzbl	1(%r8,%r9), %edi
	cmpl	$47, %edi
	je	.Lunix_path_BB16_76
	cmpl	$46, %edi
	jne	.Lunix_path_BB16_105
	cmpq	%r9, %rdx
	je	.Lunix_path_BB16_104
	cmpb	$47, 2(%r8,%r9)
	je	.Lunix_path_BB16_76
	.p2align	4
.Lunix_path_BB16_105:
	incq	%r9
	cmpb	$47, (%r8)
	jne	.Lunix_path_BB16_72
	jmp	.Lunix_path_BB16_109
	.p2align	4
.Lunix_path_BB16_81:
	cmpq	$1, %rdx
	je	.Lunix_path_BB16_86
	cmpb	$46, (%r8)
	jne	.Lunix_path_BB16_86
	cmpb	$46, 1(%r8)
	jne	.Lunix_path_BB16_86
	movb	$1, %bl
	cmpq	$2, %rdx
	je	.Lunix_path_BB16_7
	cmpb	$47, 2(%r8)
	je	.Lunix_path_BB16_7
.Lunix_path_BB16_86:
	cmpq	$15, %rdx
	ja	.Lunix_path_BB16_91
	xorl	%r10d, %r10d
	.p2align	4
.Lunix_path_BB16_88:
	cmpb	$47, (%r8,%r10)
	je	.Lunix_path_BB16_96
	incq	%r10
	cmpq	%r10, %rdx
	jne	.Lunix_path_BB16_88
	movq	%rdx, %r10
	subq	%r10, %rdx
	jne	.Lunix_path_BB16_97
	jmp	.Lunix_path_BB16_70
	.p2align	4
.Lunix_path_BB16_91:
	movq	%rdx, %r9
	addq	$-16, %r9
	je	.Lunix_path_BB16_95
	xorl	%r11d, %r11d
	.p2align	4
.Lunix_path_BB16_93:
	movdqu	(%r8,%r11), %xmm0
	pcmpeqb	.Lunix_path_CPI16_1(%rip), %xmm0
	pmovmskb	%xmm0, %r10d
	orl	$65536, %r10d
	rep		bsfl	%r10d, %r10d
	cmpw	$15, %r10w
	jbe	.Lunix_path_BB16_107
	addq	$16, %r11
	cmpq	%r9, %r11
	jb	.Lunix_path_BB16_93
.Lunix_path_BB16_95:
	movdqu	(%r8,%r9), %xmm0
	pcmpeqb	.Lunix_path_CPI16_1(%rip), %xmm0
	pmovmskb	%xmm0, %r10d
	orl	$65536, %r10d
	rep		bsfl	%r10d, %r10d
	addq	%r9, %r10
.Lunix_path_BB16_96:
	subq	%r10, %rdx
	je	.Lunix_path_BB16_70
.Lunix_path_BB16_97:
	addq	%r10, %r8
	incq	%r8
	leaq	-1(%rdx), %r11
	xorl	%r9d, %r9d
	jmp	.Lunix_path_BB16_99
	.p2align	4
.Lunix_path_BB16_98:
	incq	%r9
	cmpq	%r9, %rdx
	je	.Lunix_path_BB16_106
.Lunix_path_BB16_99:
	movzbl	-1(%r8,%r9), %edi
	cmpl	$47, %edi
	je	.Lunix_path_BB16_98
	cmpl	$46, %edi
	jne	.Lunix_path_BB16_71
	cmpq	%r9, %r11
	je	.Lunix_path_BB16_106
	cmpb	$47, (%r8,%r9)
	je	.Lunix_path_BB16_98
	jmp	.Lunix_path_BB16_71
.Lunix_path_BB16_103:
	movl	$1, %r9d
	cmpb	$47, (%r8)
	jne	.Lunix_path_BB16_72
	jmp	.Lunix_path_BB16_109
.Lunix_path_BB16_104:
	movq	%r10, %r9
	incq	%r9
	cmpb	$47, (%r8)
	jne	.Lunix_path_BB16_72
	jmp	.Lunix_path_BB16_109
.Lunix_path_BB16_106:
	movq	%rdx, %r9
	jmp	.Lunix_path_BB16_71
.Lunix_path_BB16_107:
	movzwl	%r10w, %r10d
	addq	%r11, %r10
	subq	%r10, %rdx
	jne	.Lunix_path_BB16_97
	jmp	.Lunix_path_BB16_70
.Lunix_path_BB16_109:
	movb	$1, %bl
	jmp	.Lunix_path_BB16_7
.Lunix_path_BB16_60:
	xorl	%ebx, %ebx
	jmp	.Lunix_path_BB16_61
	.def	path_within.check.check_escape;
	.scl	3;
	.type	32;
	.endef
	.section	.rdata,"dr"
	.p2align	4, 0x0
.Lunix_path_CPI17_0:
	.zero	16,208
.Lunix_path_CPI17_1:
	.zero	16,47
.Lunix_path_CPI17_2:
	.zero	16,46
.Lunix_path_CPI17_3:
	.byte	254
	.byte	254
	.byte	254
	.byte	254
	.byte	254
	.byte	254
	.byte	254
	.byte	254
	.zero	1
	.zero	1
	.zero	1
	.zero	1
	.zero	1
	.zero	1
	.zero	1
	.zero	1
.Lunix_path_CPI17_4:
	.byte	46
	.byte	46
	.byte	46
	.byte	46
	.byte	46
	.byte	46
	.byte	46
	.byte	46
	.zero	1
	.zero	1
	.zero	1
	.zero	1
	.zero	1
	.zero	1
	.zero	1
	.zero	1
.Lunix_path_CPI17_5:
	.byte	47
	.byte	47
	.byte	47
	.byte	47
	.byte	47
	.byte	47
	.byte	47
	.byte	47
	.zero	1
	.zero	1
	.zero	1
	.zero	1
	.zero	1
	.zero	1
	.zero	1
	.zero	1
	.text
	.p2align	4
# path_within::check::check_escape
path_within.check.check_escape:
	pushq	%rsi
	pushq	%rdi
	pushq	%rbx
	subq	$64, %rsp
	movdqa	%xmm6, 48(%rsp)
	testq	%rdx, %rdx
	je	.Lunix_path_BB17_74
	movq	%rcx, %rsi
	cmpb	$47, (%rcx)
	jne	.Lunix_path_BB17_3
.Lunix_path_BB17_2:
	xorl	%eax, %eax
	jmp	.Lunix_path_BB17_75
.Lunix_path_BB17_3:
	movq	%rdx, %rdi
	movzbl	(%rsi), %ecx
	cmpl	$47, %ecx
	je	.Lunix_path_BB17_11
	cmpl	$46, %ecx
	jne	.Lunix_path_BB17_10
	cmpq	$1, %rdi
	je	.Lunix_path_BB17_11
	movzbl	1(%rsi), %eax
	cmpl	$47, %eax
	je	.Lunix_path_BB17_11
	cmpl	$46, %eax
	jne	.Lunix_path_BB17_10
	cmpq	$2, %rdi
	je	.Lunix_path_BB17_11
	cmpb	$47, 2(%rsi)
	je	.Lunix_path_BB17_11
.Lunix_path_BB17_10:
	movzbl	-1(%rsi,%rdi), %eax
	andb	$-2, %al
	cmpb	$46, %al
	jne	.Lunix_path_BB17_76
.Lunix_path_BB17_11:
	movzbl	(%rsi), %ecx
.Lunix_path_BB17_12:
	movb	$1, %bl
	cmpb	$47, %cl
	je	.Lunix_path_BB17_17
	movzbl	%cl, %eax
	cmpl	$46, %eax
	jne	.Lunix_path_BB17_16
	cmpq	$1, %rdi
	je	.Lunix_path_BB17_17
	cmpb	$47, 1(%rsi)
	sete	%bl
	jmp	.Lunix_path_BB17_17
.Lunix_path_BB17_16:
	xorl	%ebx, %ebx
.Lunix_path_BB17_17:
	movq	%rdi, %rcx
	movq	%rdi, %rax
	jmp	.Lunix_path_BB17_19
	.p2align	4
.Lunix_path_BB17_18:
	movq	%rax, %rcx
	testq	%rax, %rax
	je	.Lunix_path_BB17_74
.Lunix_path_BB17_19:
	decq	%rax
	je	.Lunix_path_BB17_25
	movzbl	(%rsi,%rax), %edx
	cmpl	$47, %edx
	je	.Lunix_path_BB17_23
	cmpl	$46, %edx
	jne	.Lunix_path_BB17_25
	cmpb	$47, -1(%rsi,%rax)
	jne	.Lunix_path_BB17_25
.Lunix_path_BB17_23:
	movq	%rdi, %rcx
	subq	%rax, %rcx
	cmpq	$8, %rcx
	jne	.Lunix_path_BB17_18
	movq	%rsi, %rcx
	movq	%rax, %rdx
	callq	unix_path.filler.trimmed_blocks_len
	jmp	.Lunix_path_BB17_18
.Lunix_path_BB17_25:
	xorl	%eax, %eax
	movq	%rcx, %r8
	movq	%rsi, %r9
	xorl	%edx, %edx
	jmp	.Lunix_path_BB17_29
.Lunix_path_BB17_26:
	xorl	%r10d, %r10d
.Lunix_path_BB17_27:
	addq	%r11, %r10
	incq	%rax
.Lunix_path_BB17_28:
	addq	%r10, %rdx
	leaq	(%rsi,%rdx), %r9
	xorl	%ebx, %ebx
	movq	%rcx, %r8
	subq	%rdx, %r8
	je	.Lunix_path_BB17_74
.Lunix_path_BB17_29:
	testb	$1, %bl
	je	.Lunix_path_BB17_37
	movq	%r8, %r11
	decq	%r11
	je	.Lunix_path_BB17_65
	leaq	-1(%r8), %rdi
	addq	$-2, %r8
	xorl	%r10d, %r10d
	jmp	.Lunix_path_BB17_33
	.p2align	4
.Lunix_path_BB17_32:
	incq	%r10
	cmpq	%r10, %rdi
	je	.Lunix_path_BB17_66
.Lunix_path_BB17_33:
	movzbl	1(%r9,%r10), %ebx
	cmpl	$47, %ebx
	je	.Lunix_path_BB17_32
	cmpl	$46, %ebx
	jne	.Lunix_path_BB17_67
	cmpq	%r10, %r8
	je	.Lunix_path_BB17_66
	cmpb	$47, 2(%r9,%r10)
	je	.Lunix_path_BB17_32
	.p2align	4
.Lunix_path_BB17_67:
	incq	%r10
	cmpb	$47, (%r9)
	jne	.Lunix_path_BB17_28
	jmp	.Lunix_path_BB17_2
	.p2align	4
.Lunix_path_BB17_37:
	cmpq	$1, %r8
	je	.Lunix_path_BB17_43
	cmpb	$46, (%r9)
	jne	.Lunix_path_BB17_43
	cmpb	$46, 1(%r9)
	jne	.Lunix_path_BB17_43
	movl	$2, %r10d
	cmpq	$2, %r8
	je	.Lunix_path_BB17_72
	cmpb	$47, 2(%r9)
	jne	.Lunix_path_BB17_43
	leaq	-2(%r8), %r11
	addq	$-3, %r8
	xorl	%r10d, %r10d
	jmp	.Lunix_path_BB17_49
	.p2align	4
.Lunix_path_BB17_43:
	cmpq	$15, %r8
	ja	.Lunix_path_BB17_53
	xorl	%r11d, %r11d
	.p2align	4
.Lunix_path_BB17_45:
	cmpb	$47, (%r9,%r11)
	je	.Lunix_path_BB17_58
	incq	%r11
	cmpq	%r11, %r8
	jne	.Lunix_path_BB17_45
	movq	%r8, %r11
	subq	%r11, %r8
	jne	.Lunix_path_BB17_59
	jmp	.Lunix_path_BB17_26
	.p2align	4
.Lunix_path_BB17_48:
	incq	%r10
	cmpq	%r10, %r11
	je	.Lunix_path_BB17_70
.Lunix_path_BB17_49:
	movzbl	2(%r9,%r10), %edi
	cmpl	$47, %edi
	je	.Lunix_path_BB17_48
	cmpl	$46, %edi
	jne	.Lunix_path_BB17_71
	cmpq	%r10, %r8
	je	.Lunix_path_BB17_70
	cmpb	$47, 3(%r9,%r10)
	je	.Lunix_path_BB17_48
	jmp	.Lunix_path_BB17_71
	.p2align	4
.Lunix_path_BB17_53:
	movq	%r8, %r10
	addq	$-16, %r10
	je	.Lunix_path_BB17_57
	xorl	%edi, %edi
	.p2align	4
.Lunix_path_BB17_55:
	movdqu	(%r9,%rdi), %xmm0
	pcmpeqb	.Lunix_path_CPI17_1(%rip), %xmm0
	pmovmskb	%xmm0, %r11d
	orl	$65536, %r11d
	rep		bsfl	%r11d, %r11d
	cmpw	$15, %r11w
	jbe	.Lunix_path_BB17_69
	addq	$16, %rdi
	cmpq	%r10, %rdi
	jb	.Lunix_path_BB17_55
.Lunix_path_BB17_57:
	movdqu	(%r9,%r10), %xmm0
	pcmpeqb	.Lunix_path_CPI17_1(%rip), %xmm0
	pmovmskb	%xmm0, %r11d
	orl	$65536, %r11d
	rep		bsfl	%r11d, %r11d
	addq	%r10, %r11
.Lunix_path_BB17_58:
	subq	%r11, %r8
	je	.Lunix_path_BB17_26
.Lunix_path_BB17_59:
	addq	%r11, %r9
	incq	%r9
	leaq	-1(%r8), %rdi
	xorl	%r10d, %r10d
	jmp	.Lunix_path_BB17_61
	.p2align	4
.Lunix_path_BB17_60:
	incq	%r10
	cmpq	%r10, %r8
	je	.Lunix_path_BB17_68
.Lunix_path_BB17_61:
	movzbl	-1(%r9,%r10), %ebx
	cmpl	$47, %ebx
	je	.Lunix_path_BB17_60
	cmpl	$46, %ebx
	jne	.Lunix_path_BB17_27
	cmpq	%r10, %rdi
	je	.Lunix_path_BB17_68
	cmpb	$47, (%r9,%r10)
	je	.Lunix_path_BB17_60
	jmp	.Lunix_path_BB17_27
.Lunix_path_BB17_65:
	movl	$1, %r10d
	cmpb	$47, (%r9)
	jne	.Lunix_path_BB17_28
	jmp	.Lunix_path_BB17_2
.Lunix_path_BB17_66:
	movq	%r11, %r10
	incq	%r10
	cmpb	$47, (%r9)
	jne	.Lunix_path_BB17_28
	jmp	.Lunix_path_BB17_2
.Lunix_path_BB17_68:
	movq	%r8, %r10
	jmp	.Lunix_path_BB17_27
.Lunix_path_BB17_69:
	movzwl	%r11w, %r11d
	addq	%rdi, %r11
	subq	%r11, %r8
	jne	.Lunix_path_BB17_59
	jmp	.Lunix_path_BB17_26
.Lunix_path_BB17_70:
	movq	%r11, %r10
.Lunix_path_BB17_71:
	addq	$2, %r10
.Lunix_path_BB17_72:
	testq	%rax, %rax
	je	.Lunix_path_BB17_2
	decq	%rax
	jmp	.Lunix_path_BB17_28
.Lunix_path_BB17_74:
	movb	$2, %al
.Lunix_path_BB17_75:
	movaps	48(%rsp), %xmm6
	addq	$64, %rsp
	popq	%rbx
	popq	%rdi
	popq	%rsi
	retq
.Lunix_path_BB17_76:
	cmpq	$17, %rdi
	jae	.Lunix_path_BB17_80
.Lunix_path_BB17_77:
	cmpq	$9, %rdi
	jae	.Lunix_path_BB17_88
	xorl	%edx, %edx
	jmp	.Lunix_path_BB17_106
.Lunix_path_BB17_80:
	cmpq	$32, %rdi
	ja	.Lunix_path_BB17_90
	movdqu	1(%rsi), %xmm0
	pand	.Lunix_path_CPI17_0(%rip), %xmm0
	movdqu	(%rsi), %xmm1
	por	%xmm1, %xmm0
	pcmpeqb	.Lunix_path_CPI17_1(%rip), %xmm0
	pmovmskb	%xmm0, %eax
	movdqa	%xmm1, 32(%rsp)
	movzbl	32(%rsp), %ecx
	testl	%eax, %eax
	jne	.Lunix_path_BB17_83
	movdqu	-17(%rsi,%rdi), %xmm0
	movdqu	-16(%rsi,%rdi), %xmm1
	pand	.Lunix_path_CPI17_0(%rip), %xmm1
	por	%xmm0, %xmm1
	pcmpeqb	.Lunix_path_CPI17_1(%rip), %xmm1
	pmovmskb	%xmm1, %eax
	testl	%eax, %eax
	je	.Lunix_path_BB17_118
.Lunix_path_BB17_83:
	cmpq	$18, %rdi
	jbe	.Lunix_path_BB17_77
	movq	%rdi, %rax
	addq	$-19, %rax
	jne	.Lunix_path_BB17_92
	xorl	%eax, %eax
	xorl	%edx, %edx
.Lunix_path_BB17_86:
	leaq	-17(%rdi), %r8
	cmpq	%rdx, %r8
	cmovbq	%r8, %rdx
	movdqu	(%rsi,%rdx), %xmm0
	movdqu	1(%rsi,%rdx), %xmm1
	pand	.Lunix_path_CPI17_0(%rip), %xmm1
	por	%xmm0, %xmm1
	pcmpeqb	.Lunix_path_CPI17_1(%rip), %xmm1
	pmovmskb	%xmm1, %r8d
	testl	%r8d, %r8d
	je	.Lunix_path_BB17_105
	movdqu	(%rsi,%rax), %xmm0
	movdqu	1(%rsi,%rax), %xmm1
	movdqu	2(%rsi,%rax), %xmm2
	movdqu	3(%rsi,%rax), %xmm3
	movdqa	.Lunix_path_CPI17_2(%rip), %xmm4
	movdqa	%xmm2, %xmm5
	pcmpeqb	%xmm4, %xmm5
	movdqa	.Lunix_path_CPI17_1(%rip), %xmm6
	pcmpeqb	%xmm6, %xmm3
	pand	%xmm5, %xmm3
	pcmpeqb	%xmm1, %xmm4
	pcmpeqb	%xmm6, %xmm2
	por	%xmm3, %xmm2
	pand	%xmm4, %xmm2
	pcmpeqb	%xmm6, %xmm0
	pcmpeqb	%xmm6, %xmm1
	por	%xmm2, %xmm1
	pand	%xmm0, %xmm1
	pmovmskb	%xmm1, %edx
	orl	$65536, %edx
	rep		bsfl	%edx, %edx
	jmp	.Lunix_path_BB17_100
.Lunix_path_BB17_88:
	movq	(%rsi), %rcx
	movq	1(%rsi), %xmm0
	pand	.Lunix_path_CPI17_3(%rip), %xmm0
	pcmpeqb	.Lunix_path_CPI17_4(%rip), %xmm0
	movq	%rcx, %xmm1
	pcmpeqb	.Lunix_path_CPI17_5(%rip), %xmm1
	pand	%xmm0, %xmm1
	pmovmskb	%xmm1, %eax
	orl	$256, %eax
	rep		bsfl	%eax, %edx
	cmpb	$8, %dl
	jb	.Lunix_path_BB17_106
	cmpq	$17, %rdi
	movl	$17, %eax
	cmovbq	%rdi, %rax
	movq	-8(%rsi,%rax), %xmm0
	pand	.Lunix_path_CPI17_3(%rip), %xmm0
	pcmpeqb	.Lunix_path_CPI17_4(%rip), %xmm0
	movq	-9(%rsi,%rax), %xmm1
	pcmpeqb	.Lunix_path_CPI17_5(%rip), %xmm1
	pand	%xmm0, %xmm1
	pmovmskb	%xmm1, %edx
	orl	$256, %edx
	rep		bsfl	%edx, %edx
	addq	%rax, %rdx
	addq	$-9, %rdx
	jmp	.Lunix_path_BB17_106
.Lunix_path_BB17_90:
	movdqa	.Lunix_path_CPI17_0(%rip), %xmm0
	movdqu	-33(%rsi,%rdi), %xmm1
	movdqu	-32(%rsi,%rdi), %xmm2
	movdqu	-17(%rsi,%rdi), %xmm3
	movdqu	-16(%rsi,%rdi), %xmm4
	pand	%xmm0, %xmm2
	por	%xmm1, %xmm2
	movdqa	.Lunix_path_CPI17_1(%rip), %xmm1
	pcmpeqb	%xmm1, %xmm2
	pand	%xmm0, %xmm4
	por	%xmm3, %xmm4
	pcmpeqb	%xmm1, %xmm4
	por	%xmm2, %xmm4
	pmovmskb	%xmm4, %eax
	testl	%eax, %eax
	je	.Lunix_path_BB17_101
	leaq	-19(%rdi), %rax
.Lunix_path_BB17_92:
	xorl	%edx, %edx
	jmp	.Lunix_path_BB17_94
	.p2align	4
.Lunix_path_BB17_93:
	cmpq	%rax, %rdx
	jae	.Lunix_path_BB17_86
.Lunix_path_BB17_94:
	movdqu	(%rsi,%rdx), %xmm0
	movdqu	1(%rsi,%rdx), %xmm1
	movdqa	.Lunix_path_CPI17_0(%rip), %xmm2
	pand	%xmm1, %xmm2
	por	%xmm0, %xmm2
	pcmpeqb	.Lunix_path_CPI17_1(%rip), %xmm2
	pmovmskb	%xmm2, %r8d
	testl	%r8d, %r8d
	je	.Lunix_path_BB17_97
	movdqu	2(%rsi,%rdx), %xmm2
	movdqu	3(%rsi,%rdx), %xmm3
	movdqa	.Lunix_path_CPI17_2(%rip), %xmm4
	movdqa	%xmm2, %xmm5
	pcmpeqb	%xmm4, %xmm5
	movdqa	.Lunix_path_CPI17_1(%rip), %xmm6
	pcmpeqb	%xmm6, %xmm3
	pand	%xmm5, %xmm3
	pcmpeqb	%xmm1, %xmm4
	pcmpeqb	%xmm6, %xmm2
	por	%xmm3, %xmm2
	pand	%xmm4, %xmm2
	pcmpeqb	%xmm6, %xmm0
	pcmpeqb	%xmm6, %xmm1
	por	%xmm2, %xmm1
	pand	%xmm0, %xmm1
	pmovmskb	%xmm1, %r8d
	orl	$65536, %r8d
	rep		bsfl	%r8d, %r8d
	cmpw	$15, %r8w
	jbe	.Lunix_path_BB17_99
	addq	$16, %rdx
	jmp	.Lunix_path_BB17_93
.Lunix_path_BB17_97:
	addq	$16, %rdx
	cmpq	%rax, %rdx
	jb	.Lunix_path_BB17_94
	jmp	.Lunix_path_BB17_93
.Lunix_path_BB17_99:
	movzwl	%r8w, %eax
.Lunix_path_BB17_100:
	addq	%rax, %rdx
	jmp	.Lunix_path_BB17_106
.Lunix_path_BB17_101:
	movq	%rdi, %rdx
	movb	$1, %al
	addq	$-33, %rdx
	je	.Lunix_path_BB17_75
	xorl	%r8d, %r8d
.Lunix_path_BB17_103:
	movdqu	(%rsi,%r8), %xmm2
	movdqu	1(%rsi,%r8), %xmm3
	movdqu	16(%rsi,%r8), %xmm4
	movdqu	17(%rsi,%r8), %xmm5
	pand	%xmm0, %xmm3
	por	%xmm2, %xmm3
	pcmpeqb	%xmm1, %xmm3
	pand	%xmm0, %xmm5
	por	%xmm4, %xmm5
	pcmpeqb	%xmm1, %xmm5
	por	%xmm3, %xmm5
	pmovmskb	%xmm5, %r9d
	testl	%r9d, %r9d
	jne	.Lunix_path_BB17_83
	addq	$32, %r8
	cmpq	%rdx, %r8
	jb	.Lunix_path_BB17_103
	jmp	.Lunix_path_BB17_75
.Lunix_path_BB17_105:
	addq	$16, %rdx
.Lunix_path_BB17_106:
	cmpq	%rdi, %rdx
	jb	.Lunix_path_BB17_111
	movq	%rdx, %r8
.Lunix_path_BB17_108:
	movb	$1, %al
	cmpq	%rdi, %r8
	jne	.Lunix_path_BB17_12
	jmp	.Lunix_path_BB17_75
.Lunix_path_BB17_109:
	cmpl	$47, %eax
	je	.Lunix_path_BB17_108
.Lunix_path_BB17_110:
	movb	$1, %al
	cmpq	%rdi, %rdx
	jae	.Lunix_path_BB17_75
.Lunix_path_BB17_111:
	movq	%rdx, %r8
	incq	%rdx
	cmpb	$47, (%rsi,%r8)
	jne	.Lunix_path_BB17_110
	cmpq	%rdx, %rdi
	jbe	.Lunix_path_BB17_108
	movzbl	1(%rsi,%r8), %eax
	cmpl	$46, %eax
	jne	.Lunix_path_BB17_109
	leaq	2(%r8), %rax
	cmpq	%rax, %rdi
	jbe	.Lunix_path_BB17_108
	movzbl	2(%rsi,%r8), %eax
	cmpl	$46, %eax
	jne	.Lunix_path_BB17_109
	leaq	3(%r8), %rax
	cmpq	%rax, %rdi
	jbe	.Lunix_path_BB17_108
	cmpb	$47, 3(%rsi,%r8)
	jne	.Lunix_path_BB17_110
	jmp	.Lunix_path_BB17_108
.Lunix_path_BB17_118:
	movb	$1, %al
	jmp	.Lunix_path_BB17_75
	.def	unix_path.path.Path.file_name;
	.scl	3;
	.type	32;
	.endef
	.section	.rdata,"dr"
	.p2align	4, 0x0
.Lunix_path_CPI18_0:
	.zero	16,47
	.text
	.p2align	4
# unix_path::path::Path::file_name
unix_path.path.Path.file_name:
	pushq	%r15
	pushq	%r14
	pushq	%r12
	pushq	%rsi
	pushq	%rdi
	pushq	%rbx
	subq	$40, %rsp
	movq	%rcx, %rsi
	testq	%r8, %r8
	je	.Lunix_path_BB18_9
	movq	%r8, %rbx
	movq	%rdx, %rdi
	movq	%r8, %r14
	movq	%rbx, %rax
	jmp	.Lunix_path_BB18_2
	.p2align	4
.Lunix_path_BB18_8:
	movq	%rax, %r14
	testq	%rax, %rax
	je	.Lunix_path_BB18_9
.Lunix_path_BB18_2:
	decq	%rax
	je	.Lunix_path_BB18_23
	movzbl	(%rdi,%rax), %ecx
	cmpl	$47, %ecx
	je	.Lunix_path_BB18_6
	cmpl	$46, %ecx
	jne	.Lunix_path_BB18_10
	cmpb	$47, -1(%rdi,%rax)
	jne	.Lunix_path_BB18_10
.Lunix_path_BB18_6:
	movq	%rbx, %rcx
	subq	%rax, %rcx
	cmpq	$8, %rcx
	jne	.Lunix_path_BB18_8
	movq	%rdi, %rcx
	movq	%rax, %rdx
	callq	unix_path.filler.trimmed_blocks_len
	jmp	.Lunix_path_BB18_8
.Lunix_path_BB18_9:
	pxor	%xmm0, %xmm0
	movdqu	%xmm0, (%rsi)
	movq	$0, 16(%rsi)
	jmp	.Lunix_path_BB18_43
.Lunix_path_BB18_23:
	movl	$1, %r14d
	xorl	%ebx, %ebx
	cmpb	$46, (%rdi)
	movl	$0, %r15d
	movl	$0, %ecx
	jne	.Lunix_path_BB18_24
	jmp	.Lunix_path_BB18_42
.Lunix_path_BB18_10:
	cmpb	$46, -1(%rdi,%r14)
	jne	.Lunix_path_BB18_24
	cmpb	$46, -2(%rdi,%r14)
	jne	.Lunix_path_BB18_24
	xorl	%ebx, %ebx
	movl	$0, %r15d
	movl	$0, %ecx
	cmpq	$2, %r14
	je	.Lunix_path_BB18_42
	cmpb	$47, -3(%rdi,%r14)
	jne	.Lunix_path_BB18_24
	addq	$-2, %r14
	movq	%r14, %rax
	jmp	.Lunix_path_BB18_15
.Lunix_path_BB18_24:
	movq	%r14, %rax
	.p2align	4
.Lunix_path_BB18_25:
	cmpq	$15, %rax
	jbe	.Lunix_path_BB18_26
	movdqu	-16(%rdi,%rax), %xmm0
	addq	$-16, %rax
	pcmpeqb	.Lunix_path_CPI18_0(%rip), %xmm0
	pmovmskb	%xmm0, %ecx
	testl	%ecx, %ecx
	je	.Lunix_path_BB18_25
	movzwl	%cx, %ecx
	bsrq	%rcx, %rcx
	xorq	$63, %rcx
	subq	%rcx, %rax
	addq	$64, %rax
	movq	%rax, %r12
	jmp	.Lunix_path_BB18_32
.Lunix_path_BB18_26:
	incq	%rax
	.p2align	4
.Lunix_path_BB18_27:
	cmpq	$1, %rax
	je	.Lunix_path_BB18_28
	leaq	-1(%rax), %r12
	cmpb	$47, -2(%rdi,%rax)
	movq	%r12, %rax
	jne	.Lunix_path_BB18_27
.Lunix_path_BB18_32:
	xorl	%ebx, %ebx
	movl	$0, %r15d
	movl	$0, %ecx
	subq	%r12, %r14
	je	.Lunix_path_BB18_42
	leaq	(%rdi,%r12), %rbx
	movq	%r12, %rax
	jmp	.Lunix_path_BB18_34
	.p2align	4
.Lunix_path_BB18_40:
	testq	%rax, %rax
	je	.Lunix_path_BB18_41
.Lunix_path_BB18_34:
	movl	$1, %r15d
	decq	%rax
	je	.Lunix_path_BB18_41
	movzbl	(%rdi,%rax), %ecx
	cmpl	$47, %ecx
	je	.Lunix_path_BB18_38
	cmpl	$46, %ecx
	jne	.Lunix_path_BB18_41
	cmpb	$47, -1(%rdi,%rax)
	jne	.Lunix_path_BB18_41
.Lunix_path_BB18_38:
	movq	%r12, %rcx
	subq	%rax, %rcx
	cmpq	$8, %rcx
	jne	.Lunix_path_BB18_40
	movq	%rdi, %rcx
	movq	%rax, %rdx
	callq	unix_path.filler.trimmed_blocks_len
	jmp	.Lunix_path_BB18_40
.Lunix_path_BB18_22:
	xorl	%ebx, %ebx
	movl	$0, %r15d
	movl	$0, %ecx
	testq	%rax, %rax
	je	.Lunix_path_BB18_42
.Lunix_path_BB18_15:
	decq	%rax
	je	.Lunix_path_BB18_16
	movzbl	(%rdi,%rax), %ecx
	cmpl	$47, %ecx
	je	.Lunix_path_BB18_20
	cmpl	$46, %ecx
	jne	.Lunix_path_BB18_16
	cmpb	$47, -1(%rdi,%rax)
	jne	.Lunix_path_BB18_16
.Lunix_path_BB18_20:
	movq	%r14, %rcx
	subq	%rax, %rcx
	cmpq	$8, %rcx
	jne	.Lunix_path_BB18_22
	movq	%rdi, %rcx
	movq	%rax, %rdx
	callq	unix_path.filler.trimmed_blocks_len
	jmp	.Lunix_path_BB18_22
.Lunix_path_BB18_28:
	movl	$1, %r15d
	movq	%rdi, %rbx
.Lunix_path_BB18_41:
	movq	%r14, %rcx
.Lunix_path_BB18_42:
	movq	%r15, (%rsi)
	movq	%rbx, 8(%rsi)
	movq	%rcx, 16(%rsi)
.Lunix_path_BB18_43:
	addq	$40, %rsp
	popq	%rbx
	popq	%rdi
	popq	%rsi
	popq	%r12
	popq	%r14
	popq	%r15
	retq
.Lunix_path_BB18_16:
	xorl	%ebx, %ebx
	xorl	%r15d, %r15d
	xorl	%ecx, %ecx
	jmp	.Lunix_path_BB18_42
	.def	unix_path.suffixes.ends_with_parts;
	.scl	3;
	.type	32;
	.endef
	.section	.rdata,"dr"
	.p2align	4, 0x0
.Lunix_path_CPI19_0:
	.zero	16,47
	.text
	.p2align	4
# unix_path::suffixes::ends_with_parts
unix_path.suffixes.ends_with_parts:
	pushq	%r15
	pushq	%r14
	pushq	%r13
	pushq	%r12
	pushq	%rsi
	pushq	%rdi
	pushq	%rbp
	pushq	%rbx
	subq	$56, %rsp
	movq	%r9, %rbx
	movq	%r8, %rsi
	movq	%rcx, %rdi
	testq	%rdx, %rdx
	je	.Lunix_path_BB19_10
	movq	%rdx, %r14
	movq	%rdx, %r15
	movq	%r14, %rax
	jmp	.Lunix_path_BB19_2
	.p2align	4
.Lunix_path_BB19_9:
	movq	%rax, %r15
	testq	%rax, %rax
	je	.Lunix_path_BB19_10
.Lunix_path_BB19_2:
	decq	%rax
	je	.Lunix_path_BB19_3
	movzbl	(%rdi,%rax), %ecx
	cmpl	$47, %ecx
	je	.Lunix_path_BB19_7
	cmpl	$46, %ecx
	jne	.Lunix_path_BB19_11
	cmpb	$47, -1(%rdi,%rax)
	jne	.Lunix_path_BB19_11
.Lunix_path_BB19_7:
	movq	%r14, %rcx
	subq	%rax, %rcx
	cmpq	$8, %rcx
	jne	.Lunix_path_BB19_9
	movq	%rdi, %rcx
	movq	%rax, %rdx
	callq	unix_path.filler.trimmed_blocks_len
	jmp	.Lunix_path_BB19_9
.Lunix_path_BB19_10:
	xorl	%r15d, %r15d
.Lunix_path_BB19_11:
	testq	%rbx, %rbx
	je	.Lunix_path_BB19_21
.Lunix_path_BB19_12:
	movq	%rbx, %r13
	movq	%rbx, %rax
	jmp	.Lunix_path_BB19_13
	.p2align	4
.Lunix_path_BB19_20:
	movq	%rax, %r13
	testq	%rax, %rax
	je	.Lunix_path_BB19_21
.Lunix_path_BB19_13:
	decq	%rax
	je	.Lunix_path_BB19_14
	movzbl	(%rsi,%rax), %ecx
	cmpl	$47, %ecx
	je	.Lunix_path_BB19_18
	cmpl	$46, %ecx
	jne	.Lunix_path_BB19_22
	cmpb	$47, -1(%rsi,%rax)
	jne	.Lunix_path_BB19_22
.Lunix_path_BB19_18:
	movq	%rbx, %rcx
	subq	%rax, %rcx
	cmpq	$8, %rcx
	jne	.Lunix_path_BB19_20
	movq	%rsi, %rcx
	movq	%rax, %rdx
	callq	unix_path.filler.trimmed_blocks_len
	jmp	.Lunix_path_BB19_20
.Lunix_path_BB19_3:
	movl	$1, %r15d
	testq	%rbx, %rbx
	jne	.Lunix_path_BB19_12
.Lunix_path_BB19_21:
	xorl	%r13d, %r13d
	jmp	.Lunix_path_BB19_22
.Lunix_path_BB19_14:
	movl	$1, %r13d
	.p2align	4
.Lunix_path_BB19_22:
	cmpq	$1, %r13
	je	.Lunix_path_BB19_25
	testq	%r13, %r13
	je	.Lunix_path_BB19_24
	cmpb	$46, -1(%rsi,%r13)
	jne	.Lunix_path_BB19_32
	cmpb	$46, -2(%rsi,%r13)
	jne	.Lunix_path_BB19_32
	movb	$2, %bpl
	xorl	%r12d, %r12d
	cmpq	$2, %r13
	jne	.Lunix_path_BB19_31
.Lunix_path_BB19_30:
	xorl	%r14d, %r14d
	jmp	.Lunix_path_BB19_63
	.p2align	4
.Lunix_path_BB19_25:
	cmpb	$46, (%rsi)
	jne	.Lunix_path_BB19_32
	movb	$1, %bpl
	xorl	%r12d, %r12d
	xorl	%r14d, %r14d
	jmp	.Lunix_path_BB19_63
.Lunix_path_BB19_31:
	cmpb	$47, -3(%rsi,%r13)
	jne	.Lunix_path_BB19_32
	addq	$-2, %r13
	movq	%r13, %rcx
	movq	%r13, %rax
	jmp	.Lunix_path_BB19_37
	.p2align	4
.Lunix_path_BB19_32:
	leaq	1(%r13), %rax
	movq	%r13, %rbx
	.p2align	4
.Lunix_path_BB19_33:
	cmpq	$15, %rbx
	jbe	.Lunix_path_BB19_46
	movdqu	-16(%rsi,%rbx), %xmm0
	pcmpeqb	.Lunix_path_CPI19_0(%rip), %xmm0
	addq	$-16, %rbx
	pmovmskb	%xmm0, %ecx
	addq	$-16, %rax
	testl	%ecx, %ecx
	je	.Lunix_path_BB19_33
	movzwl	%cx, %eax
	bsrq	%rax, %rax
	xorq	$63, %rax
	subq	%rax, %rbx
	addq	$64, %rbx
	jmp	.Lunix_path_BB19_48
	.p2align	4
.Lunix_path_BB19_46:
	cmpq	$1, %rax
	je	.Lunix_path_BB19_50
	leaq	-1(%rax), %rbx
	cmpb	$47, -2(%rsi,%rax)
	movq	%rbx, %rax
	jne	.Lunix_path_BB19_46
.Lunix_path_BB19_48:
	subq	%rbx, %r13
	je	.Lunix_path_BB19_49
	leaq	(%rsi,%rbx), %r12
	movq	%rbx, %rcx
	movq	%rbx, %rax
	jmp	.Lunix_path_BB19_53
	.p2align	4
.Lunix_path_BB19_61:
	movq	%rax, %rcx
	testq	%rax, %rax
	je	.Lunix_path_BB19_62
.Lunix_path_BB19_53:
	movb	$3, %bpl
	decq	%rax
	je	.Lunix_path_BB19_54
	movzbl	(%rsi,%rax), %edx
	cmpl	$47, %edx
	je	.Lunix_path_BB19_59
	cmpl	$46, %edx
	jne	.Lunix_path_BB19_57
	cmpb	$47, -1(%rsi,%rax)
	jne	.Lunix_path_BB19_57
.Lunix_path_BB19_59:
	movq	%rbx, %rcx
	subq	%rax, %rcx
	cmpq	$8, %rcx
	jne	.Lunix_path_BB19_61
	movq	%rsi, %rcx
	movq	%rax, %rdx
	callq	unix_path.filler.trimmed_blocks_len
	jmp	.Lunix_path_BB19_61
	.p2align	4
.Lunix_path_BB19_45:
	xorl	%r12d, %r12d
	movq	%rax, %rcx
	testq	%rax, %rax
	je	.Lunix_path_BB19_30
.Lunix_path_BB19_37:
	decq	%rax
	je	.Lunix_path_BB19_38
	movzbl	(%rsi,%rax), %edx
	cmpl	$47, %edx
	je	.Lunix_path_BB19_43
	cmpl	$46, %edx
	jne	.Lunix_path_BB19_41
	cmpb	$47, -1(%rsi,%rax)
	jne	.Lunix_path_BB19_41
.Lunix_path_BB19_43:
	movq	%r13, %rcx
	subq	%rax, %rcx
	cmpq	$8, %rcx
	jne	.Lunix_path_BB19_45
	movq	%rsi, %rcx
	movq	%rax, %rdx
	callq	unix_path.filler.trimmed_blocks_len
	jmp	.Lunix_path_BB19_45
.Lunix_path_BB19_50:
	testq	%r13, %r13
	jne	.Lunix_path_BB19_51
.Lunix_path_BB19_49:
	xorl	%r12d, %r12d
	xorl	%r14d, %r14d
	xorl	%r13d, %r13d
	xorl	%ebp, %ebp
	jmp	.Lunix_path_BB19_64
.Lunix_path_BB19_54:
	movq	%r13, %r14
	movl	$1, %r13d
	jmp	.Lunix_path_BB19_64
.Lunix_path_BB19_57:
	movq	%r13, %r14
	movq	%rcx, %r13
	jmp	.Lunix_path_BB19_64
.Lunix_path_BB19_51:
	movb	$3, %bpl
	movq	%rsi, %r12
.Lunix_path_BB19_62:
	movq	%r13, %r14
.Lunix_path_BB19_63:
	xorl	%r13d, %r13d
.Lunix_path_BB19_64:
	cmpq	$1, %r15
	movq	%r14, 48(%rsp)
	je	.Lunix_path_BB19_74
	testq	%r15, %r15
	je	.Lunix_path_BB19_120
	cmpb	$46, -1(%rdi,%r15)
	jne	.Lunix_path_BB19_70
	cmpb	$46, -2(%rdi,%r15)
	jne	.Lunix_path_BB19_70
	movb	$2, %bl
	cmpq	$2, %r15
	je	.Lunix_path_BB19_76
	cmpb	$47, -3(%rdi,%r15)
	jne	.Lunix_path_BB19_70
	addq	$-2, %r15
	movq	%r15, %rcx
	movq	%r15, %rax
	jmp	.Lunix_path_BB19_78
	.p2align	4
.Lunix_path_BB19_74:
	cmpb	$46, (%rdi)
	jne	.Lunix_path_BB19_70
	movb	$1, %bl
.Lunix_path_BB19_76:
	xorl	%ecx, %ecx
	xorl	%eax, %eax
	xorl	%r15d, %r15d
	xorl	%r14d, %r14d
	jmp	.Lunix_path_BB19_106
	.p2align	4
.Lunix_path_BB19_70:
	movq	%r12, 32(%rsp)
	leaq	1(%r15), %rax
	movq	%r15, %r12
	.p2align	4
.Lunix_path_BB19_71:
	cmpq	$15, %r12
	jbe	.Lunix_path_BB19_88
	movdqu	-16(%rdi,%r12), %xmm0
	pcmpeqb	.Lunix_path_CPI19_0(%rip), %xmm0
	addq	$-16, %r12
	pmovmskb	%xmm0, %ecx
	addq	$-16, %rax
	testl	%ecx, %ecx
	je	.Lunix_path_BB19_71
	movzwl	%cx, %eax
	bsrq	%rax, %rax
	xorq	$63, %rax
	subq	%rax, %r12
	addq	$64, %r12
	jmp	.Lunix_path_BB19_90
	.p2align	4
.Lunix_path_BB19_88:
	cmpq	$1, %rax
	je	.Lunix_path_BB19_92
	leaq	-1(%rax), %r12
	cmpb	$47, -2(%rdi,%rax)
	movq	%r12, %rax
	jne	.Lunix_path_BB19_88
.Lunix_path_BB19_90:
	subq	%r12, %r15
	je	.Lunix_path_BB19_91
	leaq	(%rdi,%r12), %rax
	movq	%rax, 40(%rsp)
	movq	%r12, %rcx
	movq	%r12, %rax
	jmp	.Lunix_path_BB19_95
	.p2align	4
.Lunix_path_BB19_103:
	movq	%rax, %rcx
	testq	%rax, %rax
	je	.Lunix_path_BB19_104
.Lunix_path_BB19_95:
	movb	$3, %bl
	movb	$1, %r14b
	decq	%rax
	je	.Lunix_path_BB19_96
	movzbl	(%rdi,%rax), %edx
	cmpl	$47, %edx
	je	.Lunix_path_BB19_101
	cmpl	$46, %edx
	jne	.Lunix_path_BB19_99
	cmpb	$47, -1(%rdi,%rax)
	jne	.Lunix_path_BB19_99
.Lunix_path_BB19_101:
	movq	%r12, %rcx
	subq	%rax, %rcx
	cmpq	$8, %rcx
	jne	.Lunix_path_BB19_103
	movq	%rdi, %rcx
	movq	%rax, %rdx
	callq	unix_path.filler.trimmed_blocks_len
	jmp	.Lunix_path_BB19_103
	.p2align	4
.Lunix_path_BB19_86:
	movq	%rax, %rcx
	testq	%rax, %rax
	je	.Lunix_path_BB19_87
.Lunix_path_BB19_78:
	decq	%rax
	je	.Lunix_path_BB19_79
	movzbl	(%rdi,%rax), %edx
	cmpl	$47, %edx
	je	.Lunix_path_BB19_84
	cmpl	$46, %edx
	jne	.Lunix_path_BB19_82
	cmpb	$47, -1(%rdi,%rax)
	jne	.Lunix_path_BB19_82
.Lunix_path_BB19_84:
	movq	%r15, %rcx
	subq	%rax, %rcx
	cmpq	$8, %rcx
	jne	.Lunix_path_BB19_86
	movq	%rdi, %rcx
	movq	%rax, %rdx
	callq	unix_path.filler.trimmed_blocks_len
	jmp	.Lunix_path_BB19_86
.Lunix_path_BB19_92:
	testq	%r15, %r15
	jne	.Lunix_path_BB19_93
.Lunix_path_BB19_91:
	xorl	%ecx, %ecx
	xorl	%eax, %eax
	xorl	%r15d, %r15d
	xorl	%r14d, %r14d
	xorl	%ebx, %ebx
	movq	32(%rsp), %r12
	jmp	.Lunix_path_BB19_106
.Lunix_path_BB19_96:
	movq	%r15, %rax
	movl	$1, %r15d
	jmp	.Lunix_path_BB19_105
.Lunix_path_BB19_99:
	movq	%r15, %rax
	movq	%rcx, %r15
	jmp	.Lunix_path_BB19_105
.Lunix_path_BB19_104:
	movq	%r15, %rax
	xorl	%r15d, %r15d
.Lunix_path_BB19_105:
	movq	32(%rsp), %r12
	movq	40(%rsp), %rcx
.Lunix_path_BB19_106:
	cmpb	%bpl, %bl
	jne	.Lunix_path_BB19_120
	testb	%r14b, %r14b
	movq	48(%rsp), %rdx
	je	.Lunix_path_BB19_22
	cmpq	%rdx, %rax
	jne	.Lunix_path_BB19_120
	cmpq	$4, %rdx
	jae	.Lunix_path_BB19_110
	testq	%rdx, %rdx
	je	.Lunix_path_BB19_22
	movzbl	(%rcx), %eax
	cmpb	(%r12), %al
	jne	.Lunix_path_BB19_114
	cmpq	$1, %rdx
	je	.Lunix_path_BB19_22
	movq	%rcx, %r8
	movzbl	1(%rcx), %ecx
	movl	$1, %eax
	cmpb	1(%r12), %cl
	jne	.Lunix_path_BB19_119
	cmpq	$2, %rdx
	je	.Lunix_path_BB19_22
	movzbl	2(%r8), %ecx
	movl	$2, %eax
	cmpb	2(%r12), %cl
	je	.Lunix_path_BB19_22
.Lunix_path_BB19_119:
	cmpq	%rdx, %rax
	jae	.Lunix_path_BB19_22
	jmp	.Lunix_path_BB19_120
	.p2align	4
.Lunix_path_BB19_110:
	movl	(%rcx), %eax
	cmpl	(%r12), %eax
	jne	.Lunix_path_BB19_120
	movq	%r12, %r8
	callq	core.cmp.slices.groups_equal.i8.31.core.cmp.numbers.U8PartialEq.
	testb	%al, %al
	jne	.Lunix_path_BB19_22
	jmp	.Lunix_path_BB19_120
.Lunix_path_BB19_114:
	xorl	%eax, %eax
	cmpq	%rdx, %rax
	jae	.Lunix_path_BB19_22
	jmp	.Lunix_path_BB19_120
.Lunix_path_BB19_93:
	movb	$3, %bl
	movb	$1, %r14b
	movq	%rdi, %rcx
	movq	%r15, %rax
	xorl	%r15d, %r15d
	movq	32(%rsp), %r12
	jmp	.Lunix_path_BB19_106
.Lunix_path_BB19_38:
	xorl	%r12d, %r12d
	movl	$1, %r13d
	xorl	%r14d, %r14d
	jmp	.Lunix_path_BB19_64
.Lunix_path_BB19_79:
	xorl	%ecx, %ecx
	movl	$1, %r15d
	xorl	%eax, %eax
	xorl	%r14d, %r14d
	jmp	.Lunix_path_BB19_106
.Lunix_path_BB19_41:
	xorl	%r12d, %r12d
	xorl	%r14d, %r14d
	movq	%rcx, %r13
	jmp	.Lunix_path_BB19_64
.Lunix_path_BB19_82:
	xorl	%eax, %eax
	movq	%rcx, %r15
	xorl	%ecx, %ecx
	xorl	%r14d, %r14d
	jmp	.Lunix_path_BB19_106
.Lunix_path_BB19_87:
	xorl	%eax, %eax
	xorl	%r15d, %r15d
	xorl	%r14d, %r14d
	xorl	%ecx, %ecx
	jmp	.Lunix_path_BB19_106
.Lunix_path_BB19_120:
	xorl	%eax, %eax
.Lunix_path_BB19_121:
	addq	$56, %rsp
	popq	%rbx
	popq	%rbp
	popq	%rdi
	popq	%rsi
	popq	%r12
	popq	%r13
	popq	%r14
	popq	%r15
	retq
.Lunix_path_BB19_24:
	movb	$1, %al
	jmp	.Lunix_path_BB19_121
	.def	path_keys.decode.path_len;
	.scl	3;
	.type	32;
	.endef
	.section	.rdata,"dr"
	.p2align	4, 0x0
.Lunix_path_CPI20_0:
	.zero	16,208
.Lunix_path_CPI20_1:
	.zero	16,47
.Lunix_path_CPI20_2:
	.byte	47
	.byte	47
	.byte	47
	.byte	47
	.byte	47
	.byte	47
	.byte	47
	.byte	47
	.zero	1
	.zero	1
	.zero	1
	.zero	1
	.zero	1
	.zero	1
	.zero	1
	.zero	1
	.text
	.p2align	4
# path_keys::decode::path_len
path_keys.decode.path_len:
	subq	$24, %rsp
	movdqa	%xmm6, (%rsp)
	cmpq	$2, %rdx
	jae	.Lunix_path_BB20_2
	xorl	%r9d, %r9d
	jmp	.Lunix_path_BB20_11
.Lunix_path_BB20_2:
	cmpb	$0, (%rcx)
	je	.Lunix_path_BB20_4
	xorl	%r9d, %r9d
	jmp	.Lunix_path_BB20_11
.Lunix_path_BB20_4:
	movzbl	1(%rcx), %eax
	cmpl	$2, %eax
	je	.Lunix_path_BB20_7
	cmpl	$1, %eax
	jne	.Lunix_path_BB20_8
	addq	$2, %rcx
	addq	$-2, %rdx
	movl	$1, %r9d
	jmp	.Lunix_path_BB20_11
.Lunix_path_BB20_7:
	addq	$2, %rcx
	addq	$-2, %rdx
	movl	$2, %r9d
	jmp	.Lunix_path_BB20_11
.Lunix_path_BB20_8:
	xorl	%r9d, %r9d
	jmp	.Lunix_path_BB20_11
	.p2align	4
.Lunix_path_BB20_9:
	movl	$2, %eax
	movl	$3, %r8d
.Lunix_path_BB20_10:
	addq	%r8, %r9
	addq	%rax, %rcx
	subq	%rax, %rdx
.Lunix_path_BB20_11:
	cmpq	$1, %rdx
	je	.Lunix_path_BB20_17
	testq	%rdx, %rdx
	je	.Lunix_path_BB20_54
	movzbl	(%rcx), %eax
	testb	%al, %al
	jne	.Lunix_path_BB20_15
	cmpb	$3, 1(%rcx)
	je	.Lunix_path_BB20_9
	.p2align	4
.Lunix_path_BB20_15:
	cmpb	$47, %al
	je	.Lunix_path_BB20_18
.Lunix_path_BB20_16:
	movzbl	%al, %r8d
	testl	%r8d, %r8d
	jne	.Lunix_path_BB20_23
	jmp	.Lunix_path_BB20_53
	.p2align	4
.Lunix_path_BB20_17:
	movzbl	(%rcx), %eax
	cmpb	$47, %al
	jne	.Lunix_path_BB20_16
.Lunix_path_BB20_18:
	cmpq	$1, %rdx
	je	.Lunix_path_BB20_52
	movzbl	1(%rcx), %r8d
	cmpl	$47, %r8d
	je	.Lunix_path_BB20_21
	testl	%r8d, %r8d
	jne	.Lunix_path_BB20_23
	jmp	.Lunix_path_BB20_55
.Lunix_path_BB20_21:
	cmpq	$3, %rdx
	jb	.Lunix_path_BB20_52
	cmpb	$0, 2(%rcx)
	je	.Lunix_path_BB20_52
.Lunix_path_BB20_23:
	cmpq	$18, %rdx
	ja	.Lunix_path_BB20_26
	cmpq	$9, %rdx
	jae	.Lunix_path_BB20_34
	xorl	%eax, %eax
	cmpq	%rdx, %rax
	jb	.Lunix_path_BB20_45
	jmp	.Lunix_path_BB20_39
	.p2align	4
.Lunix_path_BB20_26:
	movq	%rdx, %r8
	xorl	%eax, %eax
	addq	$-19, %r8
	jne	.Lunix_path_BB20_30
.Lunix_path_BB20_27:
	leaq	-17(%rdx), %r10
	cmpq	%rax, %r10
	cmovbq	%r10, %rax
	movdqu	(%rcx,%rax), %xmm0
	movdqu	1(%rcx,%rax), %xmm1
	pand	.Lunix_path_CPI20_0(%rip), %xmm1
	por	%xmm0, %xmm1
	pxor	%xmm0, %xmm0
	pcmpeqb	%xmm0, %xmm1
	pmovmskb	%xmm1, %r10d
	testl	%r10d, %r10d
	je	.Lunix_path_BB20_42
	movdqu	(%rcx,%r8), %xmm1
	movdqu	1(%rcx,%r8), %xmm2
	movdqu	2(%rcx,%r8), %xmm3
	movdqu	3(%rcx,%r8), %xmm4
	movdqa	.Lunix_path_CPI20_1(%rip), %xmm5
	movdqa	%xmm3, %xmm6
	pcmpeqb	%xmm5, %xmm6
	pcmpeqb	%xmm0, %xmm4
	pand	%xmm6, %xmm4
	pcmpeqb	%xmm2, %xmm5
	pcmpeqb	%xmm0, %xmm3
	por	%xmm4, %xmm3
	pand	%xmm5, %xmm3
	pcmpeqb	%xmm0, %xmm1
	pcmpeqb	%xmm0, %xmm2
	por	%xmm3, %xmm2
	pand	%xmm1, %xmm2
	pmovmskb	%xmm2, %eax
	orl	$65536, %eax
	rep		bsfl	%eax, %eax
	jmp	.Lunix_path_BB20_37
	.p2align	4
.Lunix_path_BB20_29:
	cmpq	%r8, %rax
	jae	.Lunix_path_BB20_27
.Lunix_path_BB20_30:
	movdqu	(%rcx,%rax), %xmm0
	movdqu	1(%rcx,%rax), %xmm1
	movdqa	.Lunix_path_CPI20_0(%rip), %xmm3
	pand	%xmm1, %xmm3
	por	%xmm0, %xmm3
	pxor	%xmm2, %xmm2
	pcmpeqb	%xmm2, %xmm3
	pmovmskb	%xmm3, %r10d
	testl	%r10d, %r10d
	je	.Lunix_path_BB20_33
	movdqu	2(%rcx,%rax), %xmm3
	movdqu	3(%rcx,%rax), %xmm4
	movdqa	.Lunix_path_CPI20_1(%rip), %xmm5
	movdqa	%xmm3, %xmm6
	pcmpeqb	%xmm5, %xmm6
	pcmpeqb	%xmm2, %xmm4
	pand	%xmm6, %xmm4
	pcmpeqb	%xmm1, %xmm5
	pcmpeqb	%xmm2, %xmm3
	por	%xmm4, %xmm3
	pand	%xmm5, %xmm3
	pcmpeqb	%xmm2, %xmm0
	pcmpeqb	%xmm2, %xmm1
	por	%xmm3, %xmm1
	pand	%xmm0, %xmm1
	pmovmskb	%xmm1, %r10d
	orl	$65536, %r10d
	rep		bsfl	%r10d, %r10d
	cmpw	$15, %r10w
	jbe	.Lunix_path_BB20_36
	addq	$16, %rax
	jmp	.Lunix_path_BB20_29
	.p2align	4
.Lunix_path_BB20_33:
	addq	$16, %rax
	cmpq	%r8, %rax
	jb	.Lunix_path_BB20_30
	jmp	.Lunix_path_BB20_29
.Lunix_path_BB20_34:
	movq	(%rcx), %xmm1
	movq	1(%rcx), %xmm2
	pxor	%xmm0, %xmm0
	movdqa	%xmm2, %xmm3
	pcmpeqb	.Lunix_path_CPI20_2(%rip), %xmm2
	pcmpeqb	%xmm0, %xmm3
	por	%xmm3, %xmm2
	pcmpeqb	%xmm0, %xmm1
	pand	%xmm2, %xmm1
	pmovmskb	%xmm1, %eax
	orl	$256, %eax
	rep		bsfl	%eax, %eax
	cmpb	$8, %al
	jb	.Lunix_path_BB20_38
	cmpq	$17, %rdx
	movl	$17, %eax
	cmovbq	%rdx, %rax
	movq	-9(%rcx,%rax), %xmm1
	movq	-8(%rcx,%rax), %xmm2
	movdqa	%xmm2, %xmm3
	pcmpeqb	.Lunix_path_CPI20_2(%rip), %xmm2
	pcmpeqb	%xmm0, %xmm3
	por	%xmm3, %xmm2
	pcmpeqb	%xmm0, %xmm1
	pand	%xmm2, %xmm1
	pmovmskb	%xmm1, %r8d
	orl	$256, %r8d
	rep		bsfl	%r8d, %r8d
	addq	%r8, %rax
	addq	$-9, %rax
	cmpq	%rdx, %rax
	jb	.Lunix_path_BB20_45
	jmp	.Lunix_path_BB20_39
.Lunix_path_BB20_36:
	movzwl	%r10w, %r8d
.Lunix_path_BB20_37:
	addq	%r8, %rax
.Lunix_path_BB20_38:
	cmpq	%rdx, %rax
	jb	.Lunix_path_BB20_45
.Lunix_path_BB20_39:
	movq	%rax, %r8
.Lunix_path_BB20_40:
	cmpq	%rdx, %r8
	je	.Lunix_path_BB20_52
	incq	%r8
	movq	%r8, %rax
	jmp	.Lunix_path_BB20_10
.Lunix_path_BB20_42:
	addq	$16, %rax
	cmpq	%rdx, %rax
	jb	.Lunix_path_BB20_45
	jmp	.Lunix_path_BB20_39
	.p2align	4
.Lunix_path_BB20_43:
	testl	%r10d, %r10d
	je	.Lunix_path_BB20_40
.Lunix_path_BB20_44:
	cmpq	%rax, %rdx
	je	.Lunix_path_BB20_52
.Lunix_path_BB20_45:
	movq	%rax, %r8
	incq	%rax
	cmpb	$0, (%rcx,%r8)
	jne	.Lunix_path_BB20_44
	cmpq	%rax, %rdx
	jbe	.Lunix_path_BB20_40
	movzbl	1(%rcx,%r8), %r10d
	cmpl	$47, %r10d
	jne	.Lunix_path_BB20_43
	leaq	2(%r8), %r10
	cmpq	%r10, %rdx
	jbe	.Lunix_path_BB20_40
	movzbl	2(%rcx,%r8), %r10d
	cmpl	$47, %r10d
	jne	.Lunix_path_BB20_43
	leaq	3(%r8), %r10
	cmpq	%r10, %rdx
	jbe	.Lunix_path_BB20_40
	cmpb	$0, 3(%rcx,%r8)
	jne	.Lunix_path_BB20_44
	jmp	.Lunix_path_BB20_40
.Lunix_path_BB20_52:
	xorl	%r8d, %r8d
	xorl	%eax, %eax
.Lunix_path_BB20_53:
	movq	%r8, %rdx
	movaps	(%rsp), %xmm6
	addq	$24, %rsp
	retq
.Lunix_path_BB20_54:
	cmpq	$2, %r9
	adcq	$-1, %r9
	movb	$1, %al
	movq	%r9, %r8
	movq	%r8, %rdx
	movaps	(%rsp), %xmm6
	addq	$24, %rsp
	retq
.Lunix_path_BB20_55:
	movl	%r8d, %eax
	movq	%r8, %rdx
	movaps	(%rsp), %xmm6
	addq	$24, %rsp
	retq
	.def	core.hash.sip.DefaultHasherHasher.write;
	.scl	3;
	.type	32;
	.endef
	.p2align	4
# core::hash::sip::DefaultHasherHasher::write
core.hash.sip.DefaultHasherHasher.write:
	pushq	%rsi
	pushq	%rdi
	pushq	%rbx
	movq	%rcx, %rax
	movq	40(%rcx), %r8
	movl	%r8d, %r9d
	negl	%r9d
	andl	$7, %r9d
	je	.Lunix_path_BB21_4
	movzbl	(%rdx), %r11d
	leal	(,%r8,8), %ecx
	shlq	%cl, %r11
	orq	32(%rax), %r11
	movq	%r11, 32(%rax)
	leaq	1(%r8), %rcx
	movq	%rcx, 40(%rax)
	testb	$7, %cl
	je	.Lunix_path_BB21_5
	movl	$1, %r10d
	cmpl	$1, %r9d
	jne	.Lunix_path_BB21_6
	jmp	.Lunix_path_BB21_3
.Lunix_path_BB21_4:
	xorl	%r10d, %r10d
	jmp	.Lunix_path_BB21_28
.Lunix_path_BB21_5:
	movq	24(%rax), %rsi
	xorq	%r11, %rsi
	movq	8(%rax), %rdi
	movq	(%rax), %r10
	addq	%rdi, %r10
	movq	16(%rax), %rbx
	rolq	$13, %rdi
	addq	%rsi, %rbx
	xorq	%r10, %rdi
	rolq	$16, %rsi
	xorq	%rbx, %rsi
	rolq	$32, %r10
	addq	%rdi, %rbx
	addq	%rsi, %r10
	rolq	$17, %rdi
	xorq	%rbx, %rdi
	movq	%rdi, 8(%rax)
	rolq	$21, %rsi
	xorq	%r10, %rsi
	movq	%rsi, 24(%rax)
	rolq	$32, %rbx
	movq	%rbx, 16(%rax)
	xorq	%r11, %r10
	movq	%r10, (%rax)
	movq	$0, 32(%rax)
	xorl	%r11d, %r11d
	movl	$1, %r10d
	cmpl	$1, %r9d
	je	.Lunix_path_BB21_3
.Lunix_path_BB21_6:
	movzbl	1(%rdx), %esi
	shll	$3, %ecx
	shlq	%cl, %rsi
	orq	%r11, %rsi
	movq	%rsi, 32(%rax)
	leaq	2(%r8), %rcx
	movq	%rcx, 40(%rax)
	testb	$7, %cl
	je	.Lunix_path_BB21_9
	movl	$2, %r10d
	cmpl	$2, %r9d
	je	.Lunix_path_BB21_3
	jmp	.Lunix_path_BB21_10
.Lunix_path_BB21_9:
	movq	24(%rax), %r11
	xorq	%rsi, %r11
	movq	8(%rax), %rdi
	movq	(%rax), %r10
	addq	%rdi, %r10
	movq	16(%rax), %rbx
	rolq	$13, %rdi
	addq	%r11, %rbx
	xorq	%r10, %rdi
	rolq	$16, %r11
	xorq	%rbx, %r11
	rolq	$32, %r10
	addq	%rdi, %rbx
	addq	%r11, %r10
	rolq	$17, %rdi
	xorq	%rbx, %rdi
	movq	%rdi, 8(%rax)
	rolq	$21, %r11
	xorq	%r10, %r11
	movq	%r11, 24(%rax)
	rolq	$32, %rbx
	movq	%rbx, 16(%rax)
	xorq	%rsi, %r10
	movq	%r10, (%rax)
	movq	$0, 32(%rax)
	xorl	%esi, %esi
	movl	$2, %r10d
	cmpl	$2, %r9d
	je	.Lunix_path_BB21_3
.Lunix_path_BB21_10:
	movzbl	2(%rdx), %r11d
	shll	$3, %ecx
	shlq	%cl, %r11
	orq	%rsi, %r11
	movq	%r11, 32(%rax)
	leaq	3(%r8), %rcx
	movq	%rcx, 40(%rax)
	testb	$7, %cl
	je	.Lunix_path_BB21_13
	movl	$3, %r10d
	cmpl	$3, %r9d
	je	.Lunix_path_BB21_3
	jmp	.Lunix_path_BB21_14
.Lunix_path_BB21_13:
	movq	24(%rax), %rsi
	xorq	%r11, %rsi
	movq	8(%rax), %rdi
	movq	(%rax), %r10
	addq	%rdi, %r10
	movq	16(%rax), %rbx
	rolq	$13, %rdi
	addq	%rsi, %rbx
	xorq	%r10, %rdi
	rolq	$16, %rsi
	xorq	%rbx, %rsi
	rolq	$32, %r10
	addq	%rdi, %rbx
	addq	%rsi, %r10
	rolq	$17, %rdi
	xorq	%rbx, %rdi
	movq	%rdi, 8(%rax)
	rolq	$21, %rsi
	xorq	%r10, %rsi
	movq	%rsi, 24(%rax)
	rolq	$32, %rbx
	movq	%rbx, 16(%rax)
	xorq	%r11, %r10
	movq	%r10, (%rax)
	movq	$0, 32(%rax)
	xorl	%r11d, %r11d
	movl	$3, %r10d
	cmpl	$3, %r9d
	je	.Lunix_path_BB21_3
.Lunix_path_BB21_14:
	movzbl	3(%rdx), %esi
	shll	$3, %ecx
	shlq	%cl, %rsi
	orq	%r11, %rsi
	movq	%rsi, 32(%rax)
	leaq	4(%r8), %rcx
	movq	%rcx, 40(%rax)
	testb	$7, %cl
	jne	.Lunix_path_BB21_16
	movq	24(%rax), %r11
	xorq	%rsi, %r11
	movq	8(%rax), %rdi
	movq	(%rax), %r10
	addq	%rdi, %r10
	movq	16(%rax), %rbx
	rolq	$13, %rdi
	addq	%r11, %rbx
	xorq	%r10, %rdi
	rolq	$16, %r11
	xorq	%rbx, %r11
	rolq	$32, %r10
	addq	%rdi, %rbx
	addq	%r11, %r10
	rolq	$17, %rdi
	xorq	%rbx, %rdi
	movq	%rdi, 8(%rax)
	rolq	$21, %r11
	xorq	%r10, %r11
	movq	%r11, 24(%rax)
	rolq	$32, %rbx
	movq	%rbx, 16(%rax)
	xorq	%rsi, %r10
	movq	%r10, (%rax)
	movq	$0, 32(%rax)
	xorl	%esi, %esi
.Lunix_path_BB21_16:
	movl	$4, %r10d
	cmpl	$4, %r9d
	je	.Lunix_path_BB21_3
	movzbl	4(%rdx), %r11d
	shll	$3, %ecx
	shlq	%cl, %r11
	orq	%rsi, %r11
	movq	%r11, 32(%rax)
	leaq	5(%r8), %rcx
	movq	%rcx, 40(%rax)
	testb	$7, %cl
	jne	.Lunix_path_BB21_20
	movq	24(%rax), %rsi
	xorq	%r11, %rsi
	movq	8(%rax), %rdi
	movq	(%rax), %r10
	addq	%rdi, %r10
	movq	16(%rax), %rbx
	rolq	$13, %rdi
	addq	%rsi, %rbx
	xorq	%r10, %rdi
	rolq	$16, %rsi
	xorq	%rbx, %rsi
	rolq	$32, %r10
	addq	%rdi, %rbx
	addq	%rsi, %r10
	rolq	$17, %rdi
	xorq	%rbx, %rdi
	movq	%rdi, 8(%rax)
	rolq	$21, %rsi
	xorq	%r10, %rsi
	movq	%rsi, 24(%rax)
	rolq	$32, %rbx
	movq	%rbx, 16(%rax)
	xorq	%r11, %r10
	movq	%r10, (%rax)
	movq	$0, 32(%rax)
	xorl	%r11d, %r11d
.Lunix_path_BB21_20:
	movl	$5, %r10d
	cmpl	$5, %r9d
	je	.Lunix_path_BB21_3
	movzbl	5(%rdx), %esi
	shll	$3, %ecx
	shlq	%cl, %rsi
	orq	%r11, %rsi
	movq	%rsi, 32(%rax)
	leaq	6(%r8), %rcx
	movq	%rcx, 40(%rax)
	testb	$7, %cl
	jne	.Lunix_path_BB21_24
	movq	24(%rax), %r11
	xorq	%rsi, %r11
	movq	8(%rax), %rdi
	movq	(%rax), %r10
	addq	%rdi, %r10
	movq	16(%rax), %rbx
	rolq	$13, %rdi
	addq	%r11, %rbx
	xorq	%r10, %rdi
	rolq	$16, %r11
	xorq	%rbx, %r11
	rolq	$32, %r10
	addq	%rdi, %rbx
	addq	%r11, %r10
	rolq	$17, %rdi
	xorq	%rbx, %rdi
	movq	%rdi, 8(%rax)
	rolq	$21, %r11
	xorq	%r10, %r11
	movq	%r11, 24(%rax)
	rolq	$32, %rbx
	movq	%rbx, 16(%rax)
	xorq	%rsi, %r10
	movq	%r10, (%rax)
	movq	$0, 32(%rax)
	xorl	%esi, %esi
.Lunix_path_BB21_24:
	movl	$6, %r10d
	cmpl	$6, %r9d
	jne	.Lunix_path_BB21_26
.Lunix_path_BB21_3:
	movq	%rcx, %r8
.Lunix_path_BB21_28:
	testb	$7, %r8b
	jne	.Lunix_path_BB21_33
	orq	32(%rax), %r9
	jne	.Lunix_path_BB21_33
	movq	24(%rax), %rcx
	movq	(%rax), %r9
	movq	8(%rax), %r11
	movq	16(%rax), %rsi
	.p2align	4
.Lunix_path_BB21_31:
	movq	%r10, %rdi
	movq	(%rdx,%r10), %r10
	xorq	%r10, %rcx
	addq	%r11, %r9
	addq	%rcx, %rsi
	rolq	$13, %r11
	rolq	$16, %rcx
	xorq	%r9, %r11
	xorq	%rsi, %rcx
	rolq	$32, %r9
	addq	%r11, %rsi
	addq	%rcx, %r9
	rolq	$17, %r11
	xorq	%rsi, %r11
	movq	%r11, 8(%rax)
	rolq	$21, %rcx
	xorq	%r9, %rcx
	movq	%rcx, 24(%rax)
	rolq	$32, %rsi
	movq	%rsi, 16(%rax)
	xorq	%r10, %r9
	movq	%r9, (%rax)
	addq	$8, %r8
	movq	%r8, 40(%rax)
	leaq	8(%rdi), %r10
	decq	%rdi
	cmpq	$-8, %rdi
	jb	.Lunix_path_BB21_31
	leaq	-8(%r10), %rcx
	cmpq	$-8, %rcx
	jb	.Lunix_path_BB21_37
.Lunix_path_BB21_33:
	movq	32(%rax), %rsi
	leaq	(,%r8,8), %r9
	incq	%r8
	jmp	.Lunix_path_BB21_35
	.p2align	4
.Lunix_path_BB21_34:
	incq	%r10
	addq	$8, %r9
	incq	%r8
	movq	%r11, %rsi
	cmpq	$8, %r10
	je	.Lunix_path_BB21_37
.Lunix_path_BB21_35:
	movzbl	(%rdx,%r10), %r11d
	movl	%r9d, %ecx
	andb	$56, %cl
	shlq	%cl, %r11
	orq	%rsi, %r11
	movq	%r11, 32(%rax)
	movq	%r8, 40(%rax)
	testb	$7, %r8b
	jne	.Lunix_path_BB21_34
	movq	24(%rax), %rsi
	xorq	%r11, %rsi
	movq	8(%rax), %rdi
	movq	(%rax), %rcx
	addq	%rdi, %rcx
	movq	16(%rax), %rbx
	rolq	$13, %rdi
	addq	%rsi, %rbx
	xorq	%rcx, %rdi
	rolq	$16, %rsi
	xorq	%rbx, %rsi
	rolq	$32, %rcx
	addq	%rdi, %rbx
	addq	%rsi, %rcx
	rolq	$17, %rdi
	xorq	%rbx, %rdi
	movq	%rdi, 8(%rax)
	rolq	$21, %rsi
	xorq	%rcx, %rsi
	movq	%rsi, 24(%rax)
	rolq	$32, %rbx
	movq	%rbx, 16(%rax)
	xorq	%r11, %rcx
	movq	%rcx, (%rax)
	movq	$0, 32(%rax)
	xorl	%r11d, %r11d
	jmp	.Lunix_path_BB21_34
.Lunix_path_BB21_37:
	popq	%rbx
	popq	%rdi
	popq	%rsi
	retq
.Lunix_path_BB21_26:
	movzbl	6(%rdx), %r11d
	shll	$3, %ecx
	shlq	%cl, %r11
	orq	%rsi, %r11
	movq	%r11, 32(%rax)
	addq	$7, %r8
	movq	%r8, 40(%rax)
	movl	$7, %r10d
	testb	$7, %r8b
	jne	.Lunix_path_BB21_28
	movq	24(%rax), %rsi
	xorq	%r11, %rsi
	movq	8(%rax), %rdi
	movq	(%rax), %rcx
	addq	%rdi, %rcx
	movq	16(%rax), %rbx
	addq	%rsi, %rbx
	rolq	$13, %rdi
	rolq	$16, %rsi
	xorq	%rcx, %rdi
	xorq	%rbx, %rsi
	rolq	$32, %rcx
	addq	%rdi, %rbx
	addq	%rsi, %rcx
	rolq	$17, %rdi
	xorq	%rbx, %rdi
	movq	%rdi, 8(%rax)
	rolq	$21, %rsi
	xorq	%rcx, %rsi
	movq	%rsi, 24(%rax)
	rolq	$32, %rbx
	movq	%rbx, 16(%rax)
	xorq	%r11, %rcx
	movq	%rcx, (%rax)
	movq	$0, 32(%rax)
	jmp	.Lunix_path_BB21_28
	.def	unix_bytes.utf8.scans.scan_by_sequence;
	.scl	3;
	.type	32;
	.endef
	.p2align	4
# unix_bytes::utf8::scans::scan_by_sequence
unix_bytes.utf8.scans.scan_by_sequence:
	pushq	%rbx
	movq	%rdx, %rax
	movq	%rdx, %r9
	subq	%r8, %r9
	je	.Lunix_path_BB22_72
	addq	%r8, %rcx
	jmp	.Lunix_path_BB22_5
.Lunix_path_BB22_67:
	rep		bsfl	%r8d, %r8d
	addq	%rdx, %r8
	.p2align	4
.Lunix_path_BB22_68:
	addq	%r8, %rcx
	subq	%r8, %r9
.Lunix_path_BB22_69:
	movq	%r9, %rdx
.Lunix_path_BB22_4:
	movq	%rdx, %r9
	testq	%rdx, %rdx
	je	.Lunix_path_BB22_72
.Lunix_path_BB22_5:
	movzbl	(%rcx), %r8d
	testb	%r8b, %r8b
	js	.Lunix_path_BB22_18
	movl	$1, %r8d
	cmpq	$8, %r9
	jb	.Lunix_path_BB22_68
	cmpb	$0, 1(%rcx)
	js	.Lunix_path_BB22_68
	cmpq	$16, %r9
	jb	.Lunix_path_BB22_33
	xorl	%edx, %edx
	cmpq	$64, %r9
	jb	.Lunix_path_BB22_13
	movq	%r9, %r8
	.p2align	4
.Lunix_path_BB22_11:
	movdqu	(%rcx,%rdx), %xmm0
	movdqu	16(%rcx,%rdx), %xmm1
	por	%xmm0, %xmm1
	movdqu	32(%rcx,%rdx), %xmm0
	movdqu	48(%rcx,%rdx), %xmm2
	por	%xmm0, %xmm2
	por	%xmm1, %xmm2
	pmovmskb	%xmm2, %r10d
	testl	%r10d, %r10d
	jne	.Lunix_path_BB22_13
	addq	$64, %rdx
	addq	$-64, %r8
	cmpq	$63, %r8
	ja	.Lunix_path_BB22_11
.Lunix_path_BB22_13:
	leaq	-16(%r9), %r10
	cmpq	%r10, %rdx
	jae	.Lunix_path_BB22_16
	.p2align	4
.Lunix_path_BB22_14:
	movdqu	(%rcx,%rdx), %xmm0
	pmovmskb	%xmm0, %r8d
	testl	%r8d, %r8d
	jne	.Lunix_path_BB22_67
	addq	$16, %rdx
	cmpq	%r10, %rdx
	jb	.Lunix_path_BB22_14
.Lunix_path_BB22_16:
	movdqu	(%rcx,%r10), %xmm0
	pmovmskb	%xmm0, %edx
	movq	%r9, %r8
	testl	%edx, %edx
	je	.Lunix_path_BB22_68
	rep		bsfl	%edx, %edx
	addq	%rdx, %r10
	movq	%r10, %r8
	jmp	.Lunix_path_BB22_68
	.p2align	4
.Lunix_path_BB22_18:
	leal	62(%r8), %edx
	cmpb	$29, %dl
	ja	.Lunix_path_BB22_28
	movl	$1, %edx
	cmpq	$1, %r9
	je	.Lunix_path_BB22_73
	cmpb	$-64, 1(%rcx)
	jge	.Lunix_path_BB22_76
	leaq	2(%rcx), %r8
	leaq	-2(%r9), %rdx
	cmpq	$2, %rdx
	jb	.Lunix_path_BB22_2
	movzbl	(%r8), %r10d
	addb	$62, %r10b
	cmpb	$29, %r10b
	ja	.Lunix_path_BB22_2
	addq	$-4, %r9
	xorl	%r11d, %r11d
	.p2align	4
.Lunix_path_BB22_24:
	movq	%r11, %r10
	movq	%r9, %rdx
	cmpb	$-65, 3(%rcx,%r11)
	jg	.Lunix_path_BB22_70
	cmpq	$1, %rdx
	jbe	.Lunix_path_BB22_27
	movzbl	4(%rcx,%r10), %ebx
	addb	$62, %bl
	leaq	-2(%rdx), %r9
	leaq	2(%r10), %r11
	cmpb	$29, %bl
	jbe	.Lunix_path_BB22_24
.Lunix_path_BB22_27:
	addq	$2, %r10
	jmp	.Lunix_path_BB22_3
.Lunix_path_BB22_28:
	movl	%r8d, %edx
	andb	$-16, %dl
	cmpb	$-32, %dl
	jne	.Lunix_path_BB22_39
	cmpq	$3, %r9
	jb	.Lunix_path_BB22_77
	movzbl	1(%rcx), %edx
	cmpl	$237, %r8d
	je	.Lunix_path_BB22_45
	cmpl	$224, %r8d
	jne	.Lunix_path_BB22_46
	movl	%edx, %r10d
	andb	$-32, %r10b
	cmpb	$-96, %r10b
	je	.Lunix_path_BB22_47
	jmp	.Lunix_path_BB22_81
.Lunix_path_BB22_2:
	xorl	%r10d, %r10d
.Lunix_path_BB22_3:
	addq	%r10, %r8
	movq	%r8, %rcx
	jmp	.Lunix_path_BB22_4
.Lunix_path_BB22_33:
	movq	(%rcx), %xmm0
	pmovmskb	%xmm0, %edx
	testb	%dl, %dl
	jne	.Lunix_path_BB22_35
	movq	-8(%rcx,%r9), %xmm0
	pmovmskb	%xmm0, %edx
	movq	%r9, %r8
	testb	%dl, %dl
	je	.Lunix_path_BB22_68
.Lunix_path_BB22_35:
	xorl	%r8d, %r8d
	.p2align	4
.Lunix_path_BB22_36:
	cmpb	$0, (%rcx,%r8)
	js	.Lunix_path_BB22_68
	incq	%r8
	cmpq	%r8, %r9
	jne	.Lunix_path_BB22_36
	movq	%r9, %r8
	jmp	.Lunix_path_BB22_68
.Lunix_path_BB22_39:
	leal	16(%r8), %edx
	cmpb	$4, %dl
	ja	.Lunix_path_BB22_75
	cmpq	$4, %r9
	jb	.Lunix_path_BB22_82
	movzbl	1(%rcx), %r10d
	cmpl	$240, %r8d
	je	.Lunix_path_BB22_49
	cmpl	$244, %r8d
	jne	.Lunix_path_BB22_50
	cmpb	$-112, %r10b
	jl	.Lunix_path_BB22_51
	jmp	.Lunix_path_BB22_102
.Lunix_path_BB22_45:
	cmpb	$-96, %dl
	jl	.Lunix_path_BB22_47
	jmp	.Lunix_path_BB22_89
.Lunix_path_BB22_46:
	cmpb	$-65, %dl
	jg	.Lunix_path_BB22_79
.Lunix_path_BB22_47:
	cmpb	$-64, 2(%rcx)
	jge	.Lunix_path_BB22_79
	addq	$3, %rcx
	addq	$-3, %r9
	jmp	.Lunix_path_BB22_69
.Lunix_path_BB22_49:
	leal	112(%r10), %edx
	cmpb	$47, %dl
	jbe	.Lunix_path_BB22_51
	jmp	.Lunix_path_BB22_88
.Lunix_path_BB22_50:
	cmpb	$-64, %r10b
	jge	.Lunix_path_BB22_85
.Lunix_path_BB22_51:
	cmpb	$-65, 2(%rcx)
	jg	.Lunix_path_BB22_85
	cmpb	$-64, 3(%rcx)
	jge	.Lunix_path_BB22_85
	addq	$4, %rcx
	addq	$-4, %r9
	je	.Lunix_path_BB22_65
	movq	%rcx, %r8
	movq	%r9, %rdx
	.p2align	4
.Lunix_path_BB22_55:
	cmpq	$4, %rdx
	jb	.Lunix_path_BB22_66
	movzbl	(%r8), %r10d
	leal	16(%r10), %r11d
	cmpb	$4, %r11b
	ja	.Lunix_path_BB22_66
	movzbl	1(%r8), %r11d
	cmpl	$240, %r10d
	je	.Lunix_path_BB22_60
	cmpl	$244, %r10d
	jne	.Lunix_path_BB22_61
	cmpb	$-112, %r11b
	jl	.Lunix_path_BB22_62
	jmp	.Lunix_path_BB22_66
	.p2align	4
.Lunix_path_BB22_60:
	addb	$112, %r11b
	cmpb	$47, %r11b
	jbe	.Lunix_path_BB22_62
	jmp	.Lunix_path_BB22_66
	.p2align	4
.Lunix_path_BB22_61:
	cmpb	$-64, %r11b
	jge	.Lunix_path_BB22_66
.Lunix_path_BB22_62:
	cmpb	$-65, 2(%r8)
	jg	.Lunix_path_BB22_66
	cmpb	$-65, 3(%r8)
	jg	.Lunix_path_BB22_66
	addq	$4, %r8
	addq	$-4, %rdx
	jne	.Lunix_path_BB22_55
.Lunix_path_BB22_65:
	xorl	%edx, %edx
.Lunix_path_BB22_66:
	subq	%rdx, %r9
	addq	%r9, %rcx
	jmp	.Lunix_path_BB22_4
.Lunix_path_BB22_70:
	addq	$2, %rdx
	jmp	.Lunix_path_BB22_3
.Lunix_path_BB22_72:
	xorl	%edx, %edx
	popq	%rbx
	retq
.Lunix_path_BB22_73:
	movl	$1, %r10d
.Lunix_path_BB22_74:
	subq	%r10, %rax
	popq	%rbx
	retq
.Lunix_path_BB22_75:
	movl	$1, %edx
	movq	%r9, %r10
	subq	%r10, %rax
	popq	%rbx
	retq
.Lunix_path_BB22_77:
	movl	$1, %r10d
	movl	$1, %edx
	cmpq	$1, %r9
	je	.Lunix_path_BB22_74
	movzbl	1(%rcx), %edx
.Lunix_path_BB22_79:
	addl	$-224, %r8d
	cmpl	$20, %r8d
	ja	.Lunix_path_BB22_96
	leaq	.Lunix_path_JTI22_2(%rip), %rcx
	movslq	(%rcx,%r8,4), %r8
	addq	%rcx, %r8
	jmpq	*%r8
.Lunix_path_BB22_81:
	andb	$-32, %dl
	cmpb	$-96, %dl
	sete	%cl
	jmp	.Lunix_path_BB22_107
.Lunix_path_BB22_82:
	cmpq	$1, %r9
	je	.Lunix_path_BB22_97
	cmpq	$3, %r9
	jne	.Lunix_path_BB22_98
	movzbl	1(%rcx), %r10d
.Lunix_path_BB22_85:
	leal	-224(%r8), %edx
	cmpl	$20, %edx
	ja	.Lunix_path_BB22_92
	leaq	.Lunix_path_JTI22_0(%rip), %r11
	movslq	(%r11,%rdx,4), %rdx
	addq	%r11, %rdx
	jmpq	*%rdx
.Lunix_path_BB22_87:
	movl	%r10d, %edx
	andb	$-32, %dl
	cmpb	$-96, %dl
	je	.Lunix_path_BB22_93
	jmp	.Lunix_path_BB22_101
.Lunix_path_BB22_88:
	leal	112(%r10), %edx
	cmpb	$47, %dl
	jbe	.Lunix_path_BB22_93
	jmp	.Lunix_path_BB22_103
.Lunix_path_BB22_89:
	cmpb	$-96, %dl
	jmp	.Lunix_path_BB22_106
.Lunix_path_BB22_90:
	cmpb	$-96, %r10b
	jl	.Lunix_path_BB22_93
	jmp	.Lunix_path_BB22_104
.Lunix_path_BB22_91:
	cmpb	$-112, %r10b
	jl	.Lunix_path_BB22_93
	jmp	.Lunix_path_BB22_102
.Lunix_path_BB22_92:
	cmpb	$-64, %r10b
	jge	.Lunix_path_BB22_99
.Lunix_path_BB22_93:
	movl	$3, %edx
	cmpb	$-64, 2(%rcx)
	jge	.Lunix_path_BB22_99
.Lunix_path_BB22_76:
	movq	%r9, %r10
	subq	%r10, %rax
	popq	%rbx
	retq
.Lunix_path_BB22_94:
	addb	$112, %dl
	cmpb	$48, %dl
	setb	%cl
	jmp	.Lunix_path_BB22_107
.Lunix_path_BB22_95:
	cmpb	$-112, %dl
	jmp	.Lunix_path_BB22_106
.Lunix_path_BB22_96:
	cmpb	$-64, %dl
	jmp	.Lunix_path_BB22_106
.Lunix_path_BB22_97:
	movq	%r9, %r10
	movq	%r9, %rdx
	subq	%r10, %rax
	popq	%rbx
	retq
.Lunix_path_BB22_98:
	movzbl	1(%rcx), %r10d
.Lunix_path_BB22_99:
	addl	$-224, %r8d
	cmpl	$20, %r8d
	ja	.Lunix_path_BB22_105
	leaq	.Lunix_path_JTI22_1(%rip), %rcx
	movslq	(%rcx,%r8,4), %rdx
	addq	%rcx, %rdx
	jmpq	*%rdx
.Lunix_path_BB22_101:
	andb	$-32, %r10b
	cmpb	$-96, %r10b
	sete	%cl
	jmp	.Lunix_path_BB22_107
.Lunix_path_BB22_102:
	cmpb	$-112, %r10b
	jmp	.Lunix_path_BB22_106
.Lunix_path_BB22_103:
	addb	$112, %r10b
	cmpb	$48, %r10b
	setb	%cl
	jmp	.Lunix_path_BB22_107
.Lunix_path_BB22_104:
	cmpb	$-96, %r10b
	jmp	.Lunix_path_BB22_106
.Lunix_path_BB22_105:
	cmpb	$-64, %r10b
.Lunix_path_BB22_106:
	setl	%cl
.Lunix_path_BB22_107:
	movzbl	%cl, %edx
	incq	%rdx
	movq	%r9, %r10
	subq	%r10, %rax
	popq	%rbx
	retq
	.section	.rdata,"dr"
	.p2align	2, 0x0
.Lunix_path_JTI22_0:
	.long	.Lunix_path_BB22_87-.Lunix_path_JTI22_0
	.long	.Lunix_path_BB22_92-.Lunix_path_JTI22_0
	.long	.Lunix_path_BB22_92-.Lunix_path_JTI22_0
	.long	.Lunix_path_BB22_92-.Lunix_path_JTI22_0
	.long	.Lunix_path_BB22_92-.Lunix_path_JTI22_0
	.long	.Lunix_path_BB22_92-.Lunix_path_JTI22_0
	.long	.Lunix_path_BB22_92-.Lunix_path_JTI22_0
	.long	.Lunix_path_BB22_92-.Lunix_path_JTI22_0
	.long	.Lunix_path_BB22_92-.Lunix_path_JTI22_0
	.long	.Lunix_path_BB22_92-.Lunix_path_JTI22_0
	.long	.Lunix_path_BB22_92-.Lunix_path_JTI22_0
	.long	.Lunix_path_BB22_92-.Lunix_path_JTI22_0
	.long	.Lunix_path_BB22_92-.Lunix_path_JTI22_0
	.long	.Lunix_path_BB22_90-.Lunix_path_JTI22_0
	.long	.Lunix_path_BB22_92-.Lunix_path_JTI22_0
	.long	.Lunix_path_BB22_92-.Lunix_path_JTI22_0
	.long	.Lunix_path_BB22_88-.Lunix_path_JTI22_0
	.long	.Lunix_path_BB22_92-.Lunix_path_JTI22_0
	.long	.Lunix_path_BB22_92-.Lunix_path_JTI22_0
	.long	.Lunix_path_BB22_92-.Lunix_path_JTI22_0
	.long	.Lunix_path_BB22_91-.Lunix_path_JTI22_0
.Lunix_path_JTI22_1:
	.long	.Lunix_path_BB22_101-.Lunix_path_JTI22_1
	.long	.Lunix_path_BB22_105-.Lunix_path_JTI22_1
	.long	.Lunix_path_BB22_105-.Lunix_path_JTI22_1
	.long	.Lunix_path_BB22_105-.Lunix_path_JTI22_1
	.long	.Lunix_path_BB22_105-.Lunix_path_JTI22_1
	.long	.Lunix_path_BB22_105-.Lunix_path_JTI22_1
	.long	.Lunix_path_BB22_105-.Lunix_path_JTI22_1
	.long	.Lunix_path_BB22_105-.Lunix_path_JTI22_1
	.long	.Lunix_path_BB22_105-.Lunix_path_JTI22_1
	.long	.Lunix_path_BB22_105-.Lunix_path_JTI22_1
	.long	.Lunix_path_BB22_105-.Lunix_path_JTI22_1
	.long	.Lunix_path_BB22_105-.Lunix_path_JTI22_1
	.long	.Lunix_path_BB22_105-.Lunix_path_JTI22_1
	.long	.Lunix_path_BB22_104-.Lunix_path_JTI22_1
	.long	.Lunix_path_BB22_105-.Lunix_path_JTI22_1
	.long	.Lunix_path_BB22_105-.Lunix_path_JTI22_1
	.long	.Lunix_path_BB22_103-.Lunix_path_JTI22_1
	.long	.Lunix_path_BB22_105-.Lunix_path_JTI22_1
	.long	.Lunix_path_BB22_105-.Lunix_path_JTI22_1
	.long	.Lunix_path_BB22_105-.Lunix_path_JTI22_1
	.long	.Lunix_path_BB22_102-.Lunix_path_JTI22_1
.Lunix_path_JTI22_2:
	.long	.Lunix_path_BB22_81-.Lunix_path_JTI22_2
	.long	.Lunix_path_BB22_96-.Lunix_path_JTI22_2
	.long	.Lunix_path_BB22_96-.Lunix_path_JTI22_2
	.long	.Lunix_path_BB22_96-.Lunix_path_JTI22_2
	.long	.Lunix_path_BB22_96-.Lunix_path_JTI22_2
	.long	.Lunix_path_BB22_96-.Lunix_path_JTI22_2
	.long	.Lunix_path_BB22_96-.Lunix_path_JTI22_2
	.long	.Lunix_path_BB22_96-.Lunix_path_JTI22_2
	.long	.Lunix_path_BB22_96-.Lunix_path_JTI22_2
	.long	.Lunix_path_BB22_96-.Lunix_path_JTI22_2
	.long	.Lunix_path_BB22_96-.Lunix_path_JTI22_2
	.long	.Lunix_path_BB22_96-.Lunix_path_JTI22_2
	.long	.Lunix_path_BB22_96-.Lunix_path_JTI22_2
	.long	.Lunix_path_BB22_89-.Lunix_path_JTI22_2
	.long	.Lunix_path_BB22_96-.Lunix_path_JTI22_2
	.long	.Lunix_path_BB22_96-.Lunix_path_JTI22_2
	.long	.Lunix_path_BB22_94-.Lunix_path_JTI22_2
	.long	.Lunix_path_BB22_96-.Lunix_path_JTI22_2
	.long	.Lunix_path_BB22_96-.Lunix_path_JTI22_2
	.long	.Lunix_path_BB22_96-.Lunix_path_JTI22_2
	.long	.Lunix_path_BB22_95-.Lunix_path_JTI22_2
	.def	unix_bytes.utf8.scans.scan_by_window;
	.scl	3;
	.type	32;
	.endef
	.p2align	4, 0x0
.Lunix_path_CPI23_0:
	.zero	16,192
.Lunix_path_CPI23_1:
	.zero	16,224
.Lunix_path_CPI23_2:
	.zero	16,240
.Lunix_path_CPI23_3:
	.zero	16,194
.Lunix_path_CPI23_4:
	.zero	16,144
.Lunix_path_CPI23_5:
	.zero	16,160
.Lunix_path_CPI23_6:
	.zero	16,244
.Lunix_path_CPI23_7:
	.zero	16,143
.Lunix_path_CPI23_8:
	.zero	16,237
.Lunix_path_CPI23_9:
	.zero	16,159
	.text
	.p2align	4
# unix_bytes::utf8::scans::scan_by_window
unix_bytes.utf8.scans.scan_by_window:
	pushq	%rsi
	subq	$32, %rsp
	movq	%r8, %rax
	cmpq	%rdx, %r8
	jb	.Lunix_path_BB23_6
	xorl	%r8d, %r8d
.Lunix_path_BB23_2:
	movq	%r8, %rdx
	addq	$32, %rsp
	popq	%rsi
	retq
.Lunix_path_BB23_3:
	rep		bsfl	%r10d, %r10d
	addq	%r8, %r10
	.p2align	4
.Lunix_path_BB23_4:
	addq	%r10, %rax
.Lunix_path_BB23_5:
	cmpq	%rdx, %rax
	jae	.Lunix_path_BB23_61
.Lunix_path_BB23_6:
	leaq	(%rcx,%rax), %r9
	movzbl	(%rcx,%rax), %r10d
	movq	%rdx, %r11
	subq	%rax, %r11
	testb	%r10b, %r10b
	js	.Lunix_path_BB23_19
	movl	$1, %r10d
	cmpq	$8, %r11
	jb	.Lunix_path_BB23_4
	cmpb	$0, 1(%r9)
	js	.Lunix_path_BB23_4
	cmpq	$16, %r11
	jb	.Lunix_path_BB23_27
	xorl	%r8d, %r8d
	cmpq	$64, %r11
	jb	.Lunix_path_BB23_14
	movq	%r11, %r10
	.p2align	4
.Lunix_path_BB23_12:
	movdqu	(%r9,%r8), %xmm0
	movdqu	16(%r9,%r8), %xmm1
	por	%xmm0, %xmm1
	movdqu	32(%r9,%r8), %xmm0
	movdqu	48(%r9,%r8), %xmm2
	por	%xmm0, %xmm2
	por	%xmm1, %xmm2
	pmovmskb	%xmm2, %esi
	testl	%esi, %esi
	jne	.Lunix_path_BB23_14
	addq	$64, %r8
	addq	$-64, %r10
	cmpq	$63, %r10
	ja	.Lunix_path_BB23_12
.Lunix_path_BB23_14:
	leaq	-16(%r11), %rsi
	cmpq	%rsi, %r8
	jae	.Lunix_path_BB23_17
	.p2align	4
.Lunix_path_BB23_15:
	movdqu	(%r9,%r8), %xmm0
	pmovmskb	%xmm0, %r10d
	testl	%r10d, %r10d
	jne	.Lunix_path_BB23_3
	addq	$16, %r8
	cmpq	%rsi, %r8
	jb	.Lunix_path_BB23_15
.Lunix_path_BB23_17:
	movdqu	(%r9,%rsi), %xmm0
	pmovmskb	%xmm0, %r8d
	movq	%r11, %r10
	testl	%r8d, %r8d
	je	.Lunix_path_BB23_4
	rep		bsfl	%r8d, %r8d
	addq	%r8, %rsi
	movq	%rsi, %r10
	jmp	.Lunix_path_BB23_4
	.p2align	4
.Lunix_path_BB23_19:
	leal	62(%r10), %r8d
	cmpb	$29, %r8b
	ja	.Lunix_path_BB23_22
	movl	$1, %r8d
	cmpq	$2, %r11
	jb	.Lunix_path_BB23_2
	movl	$2, %r11d
	cmpb	$-64, 1(%r9)
	jl	.Lunix_path_BB23_45
	jmp	.Lunix_path_BB23_2
.Lunix_path_BB23_22:
	movl	%r10d, %r8d
	andb	$-16, %r8b
	cmpb	$-32, %r8b
	jne	.Lunix_path_BB23_33
	cmpq	$3, %r11
	jb	.Lunix_path_BB23_62
	movzbl	1(%r9), %r8d
	cmpl	$237, %r10d
	je	.Lunix_path_BB23_38
	cmpl	$224, %r10d
	jne	.Lunix_path_BB23_39
	movl	%r8d, %r11d
	andb	$-32, %r11b
	cmpb	$-96, %r11b
	je	.Lunix_path_BB23_40
	jmp	.Lunix_path_BB23_66
.Lunix_path_BB23_27:
	movq	(%r9), %xmm0
	pmovmskb	%xmm0, %r8d
	testb	%r8b, %r8b
	jne	.Lunix_path_BB23_29
	movq	-8(%rcx,%rdx), %xmm0
	pmovmskb	%xmm0, %r8d
	testb	%r8b, %r8b
	je	.Lunix_path_BB23_32
.Lunix_path_BB23_29:
	xorl	%r10d, %r10d
	.p2align	4
.Lunix_path_BB23_30:
	cmpb	$0, (%r9,%r10)
	js	.Lunix_path_BB23_4
	incq	%r10
	cmpq	%r10, %r11
	jne	.Lunix_path_BB23_30
.Lunix_path_BB23_32:
	movq	%r11, %r10
	jmp	.Lunix_path_BB23_4
.Lunix_path_BB23_33:
	leal	16(%r10), %esi
	movl	$1, %r8d
	cmpb	$4, %sil
	ja	.Lunix_path_BB23_2
	cmpq	$4, %r11
	jb	.Lunix_path_BB23_67
	movzbl	1(%r9), %esi
	cmpl	$240, %r10d
	je	.Lunix_path_BB23_41
	cmpl	$244, %r10d
	jne	.Lunix_path_BB23_42
	cmpb	$-112, %sil
	jl	.Lunix_path_BB23_43
	jmp	.Lunix_path_BB23_83
.Lunix_path_BB23_38:
	cmpb	$-96, %r8b
	jl	.Lunix_path_BB23_40
	jmp	.Lunix_path_BB23_73
.Lunix_path_BB23_39:
	cmpb	$-65, %r8b
	jg	.Lunix_path_BB23_64
.Lunix_path_BB23_40:
	movl	$3, %r11d
	cmpb	$-64, 2(%r9)
	jl	.Lunix_path_BB23_45
	jmp	.Lunix_path_BB23_64
.Lunix_path_BB23_41:
	leal	112(%rsi), %r8d
	cmpb	$47, %r8b
	jbe	.Lunix_path_BB23_43
	jmp	.Lunix_path_BB23_72
.Lunix_path_BB23_42:
	cmpb	$-64, %sil
	jge	.Lunix_path_BB23_69
.Lunix_path_BB23_43:
	cmpb	$-65, 2(%r9)
	jg	.Lunix_path_BB23_69
	movl	$4, %r11d
	cmpb	$-64, 3(%r9)
	jge	.Lunix_path_BB23_69
.Lunix_path_BB23_45:
	addq	%rax, %r11
	cmpq	$3, %r11
	setb	%al
	movq	%rdx, %r8
	subq	%r11, %r8
	cmpq	$16, %r8
	setb	%r8b
	orb	%al, %r8b
	je	.Lunix_path_BB23_48
.Lunix_path_BB23_46:
	movq	%r11, %rax
	jmp	.Lunix_path_BB23_5
	.p2align	4
.Lunix_path_BB23_47:
	addq	%r11, %rax
	movq	%rdx, %r8
	subq	%rax, %r8
	movq	%rax, %r11
	cmpq	$15, %r8
	jbe	.Lunix_path_BB23_5
.Lunix_path_BB23_48:
	movdqu	(%rcx,%r11), %xmm0
	pmovmskb	%xmm0, %eax
	movdqa	%xmm0, 16(%rsp)
	testl	%eax, %eax
	je	.Lunix_path_BB23_46
	movzbl	31(%rsp), %r8d
	movdqu	-3(%rcx,%r11), %xmm2
	movdqu	-2(%rcx,%r11), %xmm3
	movdqu	-1(%rcx,%r11), %xmm1
	movdqa	.Lunix_path_CPI23_0(%rip), %xmm4
	movdqa	%xmm0, %xmm5
	pmaxub	%xmm4, %xmm5
	pcmpeqb	%xmm0, %xmm5
	pmovmskb	%xmm5, %r9d
	movdqa	.Lunix_path_CPI23_3(%rip), %xmm5
	pmaxub	%xmm0, %xmm5
	pcmpeqb	%xmm0, %xmm5
	pmovmskb	%xmm5, %r10d
	movdqa	%xmm1, (%rsp)
	cmpw	%r10w, %r9w
	jne	.Lunix_path_BB23_46
	pmaxub	%xmm1, %xmm4
	pcmpeqb	%xmm1, %xmm4
	movdqa	.Lunix_path_CPI23_1(%rip), %xmm5
	pmaxub	%xmm3, %xmm5
	pcmpeqb	%xmm3, %xmm5
	por	%xmm4, %xmm5
	movdqa	.Lunix_path_CPI23_2(%rip), %xmm3
	pmaxub	%xmm2, %xmm3
	pcmpeqb	%xmm2, %xmm3
	por	%xmm5, %xmm3
	pmovmskb	%xmm3, %r10d
	addq	%r9, %r10
	movzwl	%ax, %eax
	cmpl	%eax, %r10d
	jne	.Lunix_path_BB23_46
	movdqa	.Lunix_path_CPI23_2(%rip), %xmm2
	pcmpeqb	%xmm1, %xmm2
	movdqa	.Lunix_path_CPI23_1(%rip), %xmm3
	pcmpeqb	%xmm1, %xmm3
	movdqa	%xmm3, %xmm4
	pandn	%xmm2, %xmm4
	pand	.Lunix_path_CPI23_4(%rip), %xmm4
	pand	.Lunix_path_CPI23_5(%rip), %xmm3
	por	%xmm4, %xmm3
	pmaxub	%xmm0, %xmm3
	pcmpeqb	%xmm0, %xmm3
	pmovmskb	%xmm3, %eax
	cmpl	$65535, %eax
	jne	.Lunix_path_BB23_46
	movdqa	.Lunix_path_CPI23_6(%rip), %xmm2
	movdqa	%xmm1, %xmm3
	pcmpeqb	%xmm2, %xmm3
	movdqa	%xmm3, %xmm4
	pandn	%xmm2, %xmm4
	pand	.Lunix_path_CPI23_7(%rip), %xmm3
	por	%xmm4, %xmm3
	pcmpeqb	.Lunix_path_CPI23_8(%rip), %xmm1
	movdqa	%xmm1, %xmm2
	pandn	%xmm3, %xmm2
	pand	.Lunix_path_CPI23_9(%rip), %xmm1
	por	%xmm2, %xmm1
	pmaxub	%xmm1, %xmm0
	pcmpeqb	%xmm1, %xmm0
	pmovmskb	%xmm0, %eax
	cmpl	$65535, %eax
	jne	.Lunix_path_BB23_46
	movl	$15, %eax
	cmpb	$-65, %r8b
	ja	.Lunix_path_BB23_47
	movl	$14, %eax
	cmpb	$-33, 15(%rsp)
	ja	.Lunix_path_BB23_47
	xorl	%eax, %eax
	cmpb	$-16, 14(%rsp)
	setb	%al
	leaq	(%rax,%rax,2), %rax
	addq	$13, %rax
	jmp	.Lunix_path_BB23_47
.Lunix_path_BB23_61:
	xorl	%r8d, %r8d
	movq	%r8, %rdx
	addq	$32, %rsp
	popq	%rsi
	retq
.Lunix_path_BB23_62:
	movl	$1, %r8d
	cmpq	$2, %r11
	jne	.Lunix_path_BB23_2
	movzbl	1(%r9), %r8d
.Lunix_path_BB23_64:
	addl	$-224, %r10d
	cmpl	$20, %r10d
	ja	.Lunix_path_BB23_88
	leaq	.Lunix_path_JTI23_2(%rip), %rcx
	movslq	(%rcx,%r10,4), %rdx
	addq	%rcx, %rdx
	jmpq	*%rdx
.Lunix_path_BB23_66:
	andb	$-32, %r8b
	cmpb	$-96, %r8b
	sete	%cl
	jmp	.Lunix_path_BB23_91
.Lunix_path_BB23_67:
	cmpq	$3, %r11
	jne	.Lunix_path_BB23_78
	movzbl	1(%r9), %esi
.Lunix_path_BB23_69:
	leal	-224(%r10), %ecx
	cmpl	$20, %ecx
	ja	.Lunix_path_BB23_76
	leaq	.Lunix_path_JTI23_0(%rip), %rdx
	movslq	(%rdx,%rcx,4), %rcx
	addq	%rdx, %rcx
	jmpq	*%rcx
.Lunix_path_BB23_71:
	movl	%esi, %ecx
	andb	$-32, %cl
	cmpb	$-96, %cl
	je	.Lunix_path_BB23_77
	jmp	.Lunix_path_BB23_82
.Lunix_path_BB23_72:
	leal	112(%rsi), %ecx
	cmpb	$47, %cl
	jbe	.Lunix_path_BB23_77
	jmp	.Lunix_path_BB23_84
.Lunix_path_BB23_73:
	cmpb	$-96, %r8b
	jmp	.Lunix_path_BB23_90
.Lunix_path_BB23_74:
	cmpb	$-96, %sil
	jl	.Lunix_path_BB23_77
	jmp	.Lunix_path_BB23_85
.Lunix_path_BB23_75:
	cmpb	$-112, %sil
	jl	.Lunix_path_BB23_77
	jmp	.Lunix_path_BB23_83
.Lunix_path_BB23_76:
	cmpb	$-64, %sil
	jge	.Lunix_path_BB23_80
.Lunix_path_BB23_77:
	movl	$3, %r8d
	cmpb	$-64, 2(%r9)
	jl	.Lunix_path_BB23_2
	jmp	.Lunix_path_BB23_80
.Lunix_path_BB23_78:
	cmpq	$2, %r11
	jb	.Lunix_path_BB23_2
	movzbl	1(%r9), %esi
.Lunix_path_BB23_80:
	addl	$-224, %r10d
	cmpl	$20, %r10d
	ja	.Lunix_path_BB23_89
	leaq	.Lunix_path_JTI23_1(%rip), %rcx
	movslq	(%rcx,%r10,4), %rdx
	addq	%rcx, %rdx
	jmpq	*%rdx
.Lunix_path_BB23_82:
	andb	$-32, %sil
	cmpb	$-96, %sil
	sete	%cl
	jmp	.Lunix_path_BB23_91
.Lunix_path_BB23_83:
	cmpb	$-112, %sil
	jmp	.Lunix_path_BB23_90
.Lunix_path_BB23_84:
	addb	$112, %sil
	cmpb	$48, %sil
	setb	%cl
	jmp	.Lunix_path_BB23_91
.Lunix_path_BB23_85:
	cmpb	$-96, %sil
	jmp	.Lunix_path_BB23_90
.Lunix_path_BB23_86:
	addb	$112, %r8b
	cmpb	$48, %r8b
	setb	%cl
	jmp	.Lunix_path_BB23_91
.Lunix_path_BB23_87:
	cmpb	$-112, %r8b
	jmp	.Lunix_path_BB23_90
.Lunix_path_BB23_88:
	cmpb	$-64, %r8b
	jmp	.Lunix_path_BB23_90
.Lunix_path_BB23_89:
	cmpb	$-64, %sil
.Lunix_path_BB23_90:
	setl	%cl
.Lunix_path_BB23_91:
	movzbl	%cl, %r8d
	incq	%r8
	movq	%r8, %rdx
	addq	$32, %rsp
	popq	%rsi
	retq
	.section	.rdata,"dr"
	.p2align	2, 0x0
.Lunix_path_JTI23_0:
	.long	.Lunix_path_BB23_71-.Lunix_path_JTI23_0
	.long	.Lunix_path_BB23_76-.Lunix_path_JTI23_0
	.long	.Lunix_path_BB23_76-.Lunix_path_JTI23_0
	.long	.Lunix_path_BB23_76-.Lunix_path_JTI23_0
	.long	.Lunix_path_BB23_76-.Lunix_path_JTI23_0
	.long	.Lunix_path_BB23_76-.Lunix_path_JTI23_0
	.long	.Lunix_path_BB23_76-.Lunix_path_JTI23_0
	.long	.Lunix_path_BB23_76-.Lunix_path_JTI23_0
	.long	.Lunix_path_BB23_76-.Lunix_path_JTI23_0
	.long	.Lunix_path_BB23_76-.Lunix_path_JTI23_0
	.long	.Lunix_path_BB23_76-.Lunix_path_JTI23_0
	.long	.Lunix_path_BB23_76-.Lunix_path_JTI23_0
	.long	.Lunix_path_BB23_76-.Lunix_path_JTI23_0
	.long	.Lunix_path_BB23_74-.Lunix_path_JTI23_0
	.long	.Lunix_path_BB23_76-.Lunix_path_JTI23_0
	.long	.Lunix_path_BB23_76-.Lunix_path_JTI23_0
	.long	.Lunix_path_BB23_72-.Lunix_path_JTI23_0
	.long	.Lunix_path_BB23_76-.Lunix_path_JTI23_0
	.long	.Lunix_path_BB23_76-.Lunix_path_JTI23_0
	.long	.Lunix_path_BB23_76-.Lunix_path_JTI23_0
	.long	.Lunix_path_BB23_75-.Lunix_path_JTI23_0
.Lunix_path_JTI23_1:
	.long	.Lunix_path_BB23_82-.Lunix_path_JTI23_1
	.long	.Lunix_path_BB23_89-.Lunix_path_JTI23_1
	.long	.Lunix_path_BB23_89-.Lunix_path_JTI23_1
	.long	.Lunix_path_BB23_89-.Lunix_path_JTI23_1
	.long	.Lunix_path_BB23_89-.Lunix_path_JTI23_1
	.long	.Lunix_path_BB23_89-.Lunix_path_JTI23_1
	.long	.Lunix_path_BB23_89-.Lunix_path_JTI23_1
	.long	.Lunix_path_BB23_89-.Lunix_path_JTI23_1
	.long	.Lunix_path_BB23_89-.Lunix_path_JTI23_1
	.long	.Lunix_path_BB23_89-.Lunix_path_JTI23_1
	.long	.Lunix_path_BB23_89-.Lunix_path_JTI23_1
	.long	.Lunix_path_BB23_89-.Lunix_path_JTI23_1
	.long	.Lunix_path_BB23_89-.Lunix_path_JTI23_1
	.long	.Lunix_path_BB23_85-.Lunix_path_JTI23_1
	.long	.Lunix_path_BB23_89-.Lunix_path_JTI23_1
	.long	.Lunix_path_BB23_89-.Lunix_path_JTI23_1
	.long	.Lunix_path_BB23_84-.Lunix_path_JTI23_1
	.long	.Lunix_path_BB23_89-.Lunix_path_JTI23_1
	.long	.Lunix_path_BB23_89-.Lunix_path_JTI23_1
	.long	.Lunix_path_BB23_89-.Lunix_path_JTI23_1
	.long	.Lunix_path_BB23_83-.Lunix_path_JTI23_1
.Lunix_path_JTI23_2:
	.long	.Lunix_path_BB23_66-.Lunix_path_JTI23_2
	.long	.Lunix_path_BB23_88-.Lunix_path_JTI23_2
	.long	.Lunix_path_BB23_88-.Lunix_path_JTI23_2
	.long	.Lunix_path_BB23_88-.Lunix_path_JTI23_2
	.long	.Lunix_path_BB23_88-.Lunix_path_JTI23_2
	.long	.Lunix_path_BB23_88-.Lunix_path_JTI23_2
	.long	.Lunix_path_BB23_88-.Lunix_path_JTI23_2
	.long	.Lunix_path_BB23_88-.Lunix_path_JTI23_2
	.long	.Lunix_path_BB23_88-.Lunix_path_JTI23_2
	.long	.Lunix_path_BB23_88-.Lunix_path_JTI23_2
	.long	.Lunix_path_BB23_88-.Lunix_path_JTI23_2
	.long	.Lunix_path_BB23_88-.Lunix_path_JTI23_2
	.long	.Lunix_path_BB23_88-.Lunix_path_JTI23_2
	.long	.Lunix_path_BB23_73-.Lunix_path_JTI23_2
	.long	.Lunix_path_BB23_88-.Lunix_path_JTI23_2
	.long	.Lunix_path_BB23_88-.Lunix_path_JTI23_2
	.long	.Lunix_path_BB23_86-.Lunix_path_JTI23_2
	.long	.Lunix_path_BB23_88-.Lunix_path_JTI23_2
	.long	.Lunix_path_BB23_88-.Lunix_path_JTI23_2
	.long	.Lunix_path_BB23_88-.Lunix_path_JTI23_2
	.long	.Lunix_path_BB23_87-.Lunix_path_JTI23_2
	.def	path_keys.encode.run_len;
	.scl	3;
	.type	32;
	.endef
	.p2align	4, 0x0
.Lunix_path_CPI24_0:
	.zero	16,208
.Lunix_path_CPI24_1:
	.zero	16,47
.Lunix_path_CPI24_2:
	.zero	16,46
.Lunix_path_CPI24_3:
	.byte	254
	.byte	254
	.byte	254
	.byte	254
	.byte	254
	.byte	254
	.byte	254
	.byte	254
	.zero	1
	.zero	1
	.zero	1
	.zero	1
	.zero	1
	.zero	1
	.zero	1
	.zero	1
.Lunix_path_CPI24_4:
	.byte	46
	.byte	46
	.byte	46
	.byte	46
	.byte	46
	.byte	46
	.byte	46
	.byte	46
	.zero	1
	.zero	1
	.zero	1
	.zero	1
	.zero	1
	.zero	1
	.zero	1
	.zero	1
.Lunix_path_CPI24_5:
	.byte	47
	.byte	47
	.byte	47
	.byte	47
	.byte	47
	.byte	47
	.byte	47
	.byte	47
	.zero	1
	.zero	1
	.zero	1
	.zero	1
	.zero	1
	.zero	1
	.zero	1
	.zero	1
	.text
	.p2align	4
# path_keys::encode::run_len
path_keys.encode.run_len:
	subq	$24, %rsp
	movdqa	%xmm6, (%rsp)
	cmpq	$2, %rdx
	jb	.Lunix_path_BB24_5
	cmpb	$46, (%rcx)
	jne	.Lunix_path_BB24_5
	cmpb	$46, 1(%rcx)
	jne	.Lunix_path_BB24_5
	movl	$2, %eax
	cmpq	$2, %rdx
	je	.Lunix_path_BB24_33
	cmpb	$47, 2(%rcx)
	je	.Lunix_path_BB24_33
.Lunix_path_BB24_5:
	cmpq	$18, %rdx
	ja	.Lunix_path_BB24_10
	cmpq	$9, %rdx
	jae	.Lunix_path_BB24_8
	xorl	%r8d, %r8d
	cmpq	%rdx, %r8
	jb	.Lunix_path_BB24_23
	jmp	.Lunix_path_BB24_22
.Lunix_path_BB24_10:
	movq	%rdx, %rax
	xorl	%r8d, %r8d
	addq	$-19, %rax
	jne	.Lunix_path_BB24_11
.Lunix_path_BB24_17:
	leaq	-17(%rdx), %r9
	cmpq	%r8, %r9
	cmovbq	%r9, %r8
	movdqu	(%rcx,%r8), %xmm0
	movdqu	1(%rcx,%r8), %xmm1
	pand	.Lunix_path_CPI24_0(%rip), %xmm1
	por	%xmm0, %xmm1
	pcmpeqb	.Lunix_path_CPI24_1(%rip), %xmm1
	pmovmskb	%xmm1, %r9d
	testl	%r9d, %r9d
	je	.Lunix_path_BB24_18
	movdqu	(%rcx,%rax), %xmm0
	movdqu	1(%rcx,%rax), %xmm1
	movdqu	2(%rcx,%rax), %xmm2
	movdqu	3(%rcx,%rax), %xmm3
	movdqa	.Lunix_path_CPI24_2(%rip), %xmm4
	movdqa	%xmm2, %xmm5
	pcmpeqb	%xmm4, %xmm5
	movdqa	.Lunix_path_CPI24_1(%rip), %xmm6
	pcmpeqb	%xmm6, %xmm3
	pand	%xmm5, %xmm3
	pcmpeqb	%xmm1, %xmm4
	pcmpeqb	%xmm6, %xmm2
	por	%xmm3, %xmm2
	pand	%xmm4, %xmm2
	pcmpeqb	%xmm6, %xmm0
	pcmpeqb	%xmm6, %xmm1
	por	%xmm2, %xmm1
	pand	%xmm0, %xmm1
	pmovmskb	%xmm1, %r8d
	orl	$65536, %r8d
	rep		bsfl	%r8d, %r8d
	jmp	.Lunix_path_BB24_20
	.p2align	4
.Lunix_path_BB24_16:
	cmpq	%rax, %r8
	jae	.Lunix_path_BB24_17
.Lunix_path_BB24_11:
	movdqu	(%rcx,%r8), %xmm0
	movdqu	1(%rcx,%r8), %xmm1
	movdqa	.Lunix_path_CPI24_0(%rip), %xmm2
	pand	%xmm1, %xmm2
	por	%xmm0, %xmm2
	pcmpeqb	.Lunix_path_CPI24_1(%rip), %xmm2
	pmovmskb	%xmm2, %r9d
	testl	%r9d, %r9d
	je	.Lunix_path_BB24_12
	movdqu	2(%rcx,%r8), %xmm2
	movdqu	3(%rcx,%r8), %xmm3
	movdqa	.Lunix_path_CPI24_2(%rip), %xmm4
	movdqa	%xmm2, %xmm5
	pcmpeqb	%xmm4, %xmm5
	movdqa	.Lunix_path_CPI24_1(%rip), %xmm6
	pcmpeqb	%xmm6, %xmm3
	pand	%xmm5, %xmm3
	pcmpeqb	%xmm1, %xmm4
	pcmpeqb	%xmm6, %xmm2
	por	%xmm3, %xmm2
	pand	%xmm4, %xmm2
	pcmpeqb	%xmm6, %xmm0
	pcmpeqb	%xmm6, %xmm1
	por	%xmm2, %xmm1
	pand	%xmm0, %xmm1
	pmovmskb	%xmm1, %r9d
	orl	$65536, %r9d
	rep		bsfl	%r9d, %r9d
	cmpw	$15, %r9w
	jbe	.Lunix_path_BB24_14
	addq	$16, %r8
	jmp	.Lunix_path_BB24_16
	.p2align	4
.Lunix_path_BB24_12:
	addq	$16, %r8
	cmpq	%rax, %r8
	jb	.Lunix_path_BB24_11
	jmp	.Lunix_path_BB24_16
.Lunix_path_BB24_8:
	movq	1(%rcx), %xmm0
	pand	.Lunix_path_CPI24_3(%rip), %xmm0
	pcmpeqb	.Lunix_path_CPI24_4(%rip), %xmm0
	movq	(%rcx), %xmm1
	pcmpeqb	.Lunix_path_CPI24_5(%rip), %xmm1
	pand	%xmm0, %xmm1
	pmovmskb	%xmm1, %eax
	orl	$256, %eax
	rep		bsfl	%eax, %r8d
	cmpb	$8, %r8b
	jb	.Lunix_path_BB24_21
	cmpq	$17, %rdx
	movl	$17, %eax
	cmovbq	%rdx, %rax
	movq	-8(%rcx,%rax), %xmm0
	pand	.Lunix_path_CPI24_3(%rip), %xmm0
	pcmpeqb	.Lunix_path_CPI24_4(%rip), %xmm0
	movq	-9(%rcx,%rax), %xmm1
	pcmpeqb	.Lunix_path_CPI24_5(%rip), %xmm1
	pand	%xmm0, %xmm1
	pmovmskb	%xmm1, %r8d
	orl	$256, %r8d
	rep		bsfl	%r8d, %r8d
	addq	%rax, %r8
	addq	$-9, %r8
	cmpq	%rdx, %r8
	jb	.Lunix_path_BB24_23
	jmp	.Lunix_path_BB24_22
.Lunix_path_BB24_14:
	movzwl	%r9w, %eax
.Lunix_path_BB24_20:
	addq	%rax, %r8
.Lunix_path_BB24_21:
	cmpq	%rdx, %r8
	jb	.Lunix_path_BB24_23
.Lunix_path_BB24_22:
	movq	%r8, %rax
.Lunix_path_BB24_33:
	movaps	(%rsp), %xmm6
	addq	$24, %rsp
	retq
.Lunix_path_BB24_18:
	addq	$16, %r8
	cmpq	%rdx, %r8
	jb	.Lunix_path_BB24_23
	jmp	.Lunix_path_BB24_22
	.p2align	4
.Lunix_path_BB24_26:
	cmpl	$47, %r9d
	je	.Lunix_path_BB24_33
.Lunix_path_BB24_31:
	cmpq	%r8, %rdx
	je	.Lunix_path_BB24_32
.Lunix_path_BB24_23:
	movq	%r8, %rax
	incq	%r8
	cmpb	$47, (%rcx,%rax)
	jne	.Lunix_path_BB24_31
	cmpq	%r8, %rdx
	jbe	.Lunix_path_BB24_33
	movzbl	1(%rcx,%rax), %r9d
	cmpl	$46, %r9d
	jne	.Lunix_path_BB24_26
	leaq	2(%rax), %r9
	cmpq	%r9, %rdx
	jbe	.Lunix_path_BB24_33
	movzbl	2(%rcx,%rax), %r9d
	cmpl	$46, %r9d
	jne	.Lunix_path_BB24_26
	leaq	3(%rax), %r9
	cmpq	%r9, %rdx
	jbe	.Lunix_path_BB24_33
	cmpb	$47, 3(%rcx,%rax)
	jne	.Lunix_path_BB24_31
	jmp	.Lunix_path_BB24_33
.Lunix_path_BB24_32:
	movq	%rdx, %rax
	movaps	(%rsp), %xmm6
	addq	$24, %rsp
	retq
	.def	unix_path_c.walks.take_first;
	.scl	3;
	.type	32;
	.endef
	.section	.rdata,"dr"
	.p2align	4, 0x0
.Lunix_path_CPI25_0:
	.zero	16,47
	.text
	.p2align	4
# unix_path_c::walks::take_first
unix_path_c.walks.take_first:
	pushq	%r15
	pushq	%r14
	pushq	%r13
	pushq	%r12
	pushq	%rsi
	pushq	%rdi
	pushq	%rbp
	pushq	%rbx
	subq	$40, %rsp
	movq	%rcx, %rbx
	movq	(%r8), %r15
	movq	8(%r8), %r13
	cmpq	%r13, %rdx
	setb	%al
	subq	%r15, %r13
	setb	%cl
	sete	%dl
	orb	%al, %cl
	leaq	(%rbx,%r15), %r12
	leaq	.Lunix_path_static.0(%rip), %r14
	testb	%cl, %cl
	cmoveq	%r12, %r14
	orb	%dl, %cl
	je	.Lunix_path_BB25_2
.Lunix_path_BB25_1:
	xorl	%eax, %eax
	jmp	.Lunix_path_BB25_60
.Lunix_path_BB25_2:
	movq	%r9, %rdi
	movq	%r8, %rsi
	movzbl	(%r14), %eax
	movb	$1, %bpl
	cmpl	$47, %eax
	je	.Lunix_path_BB25_7
	cmpl	$46, %eax
	jne	.Lunix_path_BB25_6
	cmpq	$1, %r13
	je	.Lunix_path_BB25_7
	cmpb	$47, 1(%r14)
	sete	%bpl
	jmp	.Lunix_path_BB25_7
.Lunix_path_BB25_6:
	xorl	%ebp, %ebp
.Lunix_path_BB25_7:
	movq	%r13, %rcx
	movq	%r13, %rax
	jmp	.Lunix_path_BB25_9
	.p2align	4
.Lunix_path_BB25_8:
	movq	%rax, %rcx
	testq	%rax, %rax
	je	.Lunix_path_BB25_1
.Lunix_path_BB25_9:
	decq	%rax
	je	.Lunix_path_BB25_15
	movzbl	(%r14,%rax), %edx
	cmpl	$47, %edx
	je	.Lunix_path_BB25_13
	cmpl	$46, %edx
	jne	.Lunix_path_BB25_16
	cmpb	$47, -1(%r14,%rax)
	jne	.Lunix_path_BB25_16
.Lunix_path_BB25_13:
	movq	%r13, %rcx
	subq	%rax, %rcx
	cmpq	$8, %rcx
	jne	.Lunix_path_BB25_8
	movq	%r14, %rcx
	movq	%rax, %rdx
	callq	unix_path.filler.trimmed_blocks_len
	jmp	.Lunix_path_BB25_8
.Lunix_path_BB25_15:
	movl	$1, %edx
	testb	%bpl, %bpl
	jne	.Lunix_path_BB25_30
	jmp	.Lunix_path_BB25_34
.Lunix_path_BB25_16:
	testb	%bpl, %bpl
	je	.Lunix_path_BB25_24
	leaq	-1(%rcx), %r8
	leaq	(%r15,%rbx), %r9
	addq	$2, %r9
	leaq	-2(%rcx), %r10
	xorl	%edx, %edx
	jmp	.Lunix_path_BB25_19
	.p2align	4
.Lunix_path_BB25_18:
	incq	%rdx
	cmpq	%rdx, %r8
	je	.Lunix_path_BB25_28
.Lunix_path_BB25_19:
	movzbl	-1(%r9,%rdx), %r11d
	cmpl	$47, %r11d
	je	.Lunix_path_BB25_18
	cmpl	$46, %r11d
	jne	.Lunix_path_BB25_29
	cmpq	%rdx, %r10
	je	.Lunix_path_BB25_28
	cmpb	$47, (%r9,%rdx)
	je	.Lunix_path_BB25_18
	jmp	.Lunix_path_BB25_29
.Lunix_path_BB25_24:
	cmpb	$46, (%r12)
	jne	.Lunix_path_BB25_33
	cmpb	$46, 1(%r12)
	jne	.Lunix_path_BB25_33
	movl	$2, %eax
	movl	$2, %r8d
	cmpq	$2, %rcx
	jne	.Lunix_path_BB25_31
	movl	$2, %edx
	jmp	.Lunix_path_BB25_59
.Lunix_path_BB25_28:
	movq	%rax, %rdx
.Lunix_path_BB25_29:
	incq	%rdx
.Lunix_path_BB25_30:
	xorl	%r8d, %r8d
	cmpb	$47, (%r12)
	setne	%r8b
	movl	$1, %eax
	jmp	.Lunix_path_BB25_59
.Lunix_path_BB25_31:
	cmpb	$47, 2(%r12)
	jne	.Lunix_path_BB25_33
	leaq	-2(%rcx), %r9
	leaq	(%r15,%rbx), %r10
	addq	$3, %r10
	leaq	-3(%rcx), %r11
	xorl	%edx, %edx
	jmp	.Lunix_path_BB25_39
.Lunix_path_BB25_33:
	cmpq	$15, %rcx
	ja	.Lunix_path_BB25_43
.Lunix_path_BB25_34:
	xorl	%eax, %eax
	.p2align	4
.Lunix_path_BB25_35:
	cmpb	$47, (%r12,%rax)
	je	.Lunix_path_BB25_48
	incq	%rax
	cmpq	%rax, %rcx
	jne	.Lunix_path_BB25_35
	movq	%rcx, %rax
	movq	%rcx, %r8
	subq	%rax, %r8
	jne	.Lunix_path_BB25_49
.Lunix_path_BB25_57:
	xorl	%edx, %edx
	jmp	.Lunix_path_BB25_58
.Lunix_path_BB25_38:
	incq	%rdx
	cmpq	%rdx, %r9
	je	.Lunix_path_BB25_61
.Lunix_path_BB25_39:
	movzbl	-1(%r10,%rdx), %ebx
	cmpl	$47, %ebx
	je	.Lunix_path_BB25_38
	cmpl	$46, %ebx
	jne	.Lunix_path_BB25_62
	cmpq	%rdx, %r11
	je	.Lunix_path_BB25_61
	cmpb	$47, (%r10,%rdx)
	je	.Lunix_path_BB25_38
	jmp	.Lunix_path_BB25_62
.Lunix_path_BB25_43:
	movq	%rcx, %rdx
	addq	$-16, %rdx
	je	.Lunix_path_BB25_47
	xorl	%r8d, %r8d
	.p2align	4
.Lunix_path_BB25_45:
	movdqu	(%r12,%r8), %xmm0
	pcmpeqb	.Lunix_path_CPI25_0(%rip), %xmm0
	pmovmskb	%xmm0, %eax
	orl	$65536, %eax
	rep		bsfl	%eax, %eax
	cmpw	$15, %ax
	jbe	.Lunix_path_BB25_56
	addq	$16, %r8
	cmpq	%rdx, %r8
	jb	.Lunix_path_BB25_45
.Lunix_path_BB25_47:
	movdqu	(%r12,%rdx), %xmm0
	pcmpeqb	.Lunix_path_CPI25_0(%rip), %xmm0
	pmovmskb	%xmm0, %eax
	orl	$65536, %eax
	rep		bsfl	%eax, %eax
	addq	%rdx, %rax
.Lunix_path_BB25_48:
	movq	%rcx, %r8
	subq	%rax, %r8
	je	.Lunix_path_BB25_57
.Lunix_path_BB25_49:
	leaq	(%rax,%r15), %rdx
	leaq	(%rbx,%rdx), %r9
	incq	%r9
	leaq	-1(%r8), %r10
	xorl	%edx, %edx
	jmp	.Lunix_path_BB25_51
	.p2align	4
.Lunix_path_BB25_50:
	incq	%rdx
	cmpq	%rdx, %r8
	je	.Lunix_path_BB25_55
.Lunix_path_BB25_51:
	movzbl	-1(%r9,%rdx), %r11d
	cmpl	$47, %r11d
	je	.Lunix_path_BB25_50
	cmpl	$46, %r11d
	jne	.Lunix_path_BB25_58
	cmpq	%rdx, %r10
	je	.Lunix_path_BB25_55
	cmpb	$47, (%r9,%rdx)
	je	.Lunix_path_BB25_50
	jmp	.Lunix_path_BB25_58
.Lunix_path_BB25_55:
	movq	%r8, %rdx
.Lunix_path_BB25_58:
	addq	%rax, %rdx
	movl	$3, %r8d
.Lunix_path_BB25_59:
	addq	%r15, %rcx
	movq	%r15, (%rdi)
	movq	%rax, 8(%rdi)
	movl	%r8d, 16(%rdi)
	movl	$0, 20(%rdi)
	addq	%r15, %rdx
	movq	%rdx, (%rsi)
	movq	%rcx, 8(%rsi)
	movb	$1, %al
.Lunix_path_BB25_60:
	addq	$40, %rsp
	popq	%rbx
	popq	%rbp
	popq	%rdi
	popq	%rsi
	popq	%r12
	popq	%r13
	popq	%r14
	popq	%r15
	retq
.Lunix_path_BB25_56:
	movzwl	%ax, %eax
	addq	%r8, %rax
	movq	%rcx, %r8
	subq	%rax, %r8
	jne	.Lunix_path_BB25_49
	jmp	.Lunix_path_BB25_57
.Lunix_path_BB25_61:
	movq	%r9, %rdx
.Lunix_path_BB25_62:
	addq	$2, %rdx
	jmp	.Lunix_path_BB25_59
	.def	unix_path.path.Path.parent_len;
	.scl	3;
	.type	32;
	.endef
	.section	.rdata,"dr"
	.p2align	4, 0x0
.Lunix_path_CPI26_0:
	.zero	16,47
	.text
	.p2align	4
# unix_path::path::Path::parent_len
unix_path.path.Path.parent_len:
	pushq	%r14
	pushq	%rsi
	pushq	%rdi
	pushq	%rbx
	subq	$40, %rsp
	testq	%rdx, %rdx
	je	.Lunix_path_BB26_25
	movq	%rdx, %rdi
	movq	%rcx, %rsi
	movq	%rdx, %rbx
	movq	%rdi, %rax
	jmp	.Lunix_path_BB26_3
	.p2align	4
.Lunix_path_BB26_2:
	movq	%rax, %rbx
	testq	%rax, %rax
	je	.Lunix_path_BB26_25
.Lunix_path_BB26_3:
	decq	%rax
	je	.Lunix_path_BB26_9
	movzbl	(%rsi,%rax), %ecx
	cmpl	$47, %ecx
	je	.Lunix_path_BB26_7
	cmpl	$46, %ecx
	jne	.Lunix_path_BB26_12
	cmpb	$47, -1(%rsi,%rax)
	jne	.Lunix_path_BB26_12
.Lunix_path_BB26_7:
	movq	%rdi, %rcx
	subq	%rax, %rcx
	cmpq	$8, %rcx
	jne	.Lunix_path_BB26_2
	movq	%rsi, %rcx
	movq	%rax, %rdx
	callq	unix_path.filler.trimmed_blocks_len
	jmp	.Lunix_path_BB26_2
.Lunix_path_BB26_9:
	movl	$1, %ebx
	cmpb	$46, (%rsi)
	jne	.Lunix_path_BB26_17
.Lunix_path_BB26_10:
	movb	$1, %dil
.Lunix_path_BB26_11:
	xorl	%edx, %edx
	jmp	.Lunix_path_BB26_26
.Lunix_path_BB26_12:
	cmpb	$46, -1(%rsi,%rbx)
	jne	.Lunix_path_BB26_17
	cmpb	$46, -2(%rsi,%rbx)
	jne	.Lunix_path_BB26_17
	movb	$1, %dil
	cmpq	$2, %rbx
	je	.Lunix_path_BB26_11
	cmpb	$47, -3(%rsi,%rbx)
	jne	.Lunix_path_BB26_17
	addq	$-2, %rbx
	movq	%rbx, %rdx
	movq	%rbx, %rax
	jmp	.Lunix_path_BB26_28
.Lunix_path_BB26_17:
	movq	%rbx, %rax
	.p2align	4
.Lunix_path_BB26_18:
	cmpq	$15, %rax
	jbe	.Lunix_path_BB26_21
	movdqu	-16(%rsi,%rax), %xmm0
	addq	$-16, %rax
	pcmpeqb	.Lunix_path_CPI26_0(%rip), %xmm0
	pmovmskb	%xmm0, %ecx
	testl	%ecx, %ecx
	je	.Lunix_path_BB26_18
	movzwl	%cx, %ecx
	bsrq	%rcx, %rcx
	xorq	$63, %rcx
	subq	%rcx, %rax
	addq	$64, %rax
	movq	%rax, %r14
	jmp	.Lunix_path_BB26_24
.Lunix_path_BB26_21:
	incq	%rax
	.p2align	4
.Lunix_path_BB26_22:
	cmpq	$1, %rax
	je	.Lunix_path_BB26_10
	leaq	-1(%rax), %r14
	cmpb	$47, -2(%rsi,%rax)
	movq	%r14, %rax
	jne	.Lunix_path_BB26_22
.Lunix_path_BB26_24:
	cmpq	%rbx, %r14
	jne	.Lunix_path_BB26_34
.Lunix_path_BB26_25:
	xorl	%edx, %edx
	xorl	%edi, %edi
.Lunix_path_BB26_26:
	movl	%edi, %eax
	addq	$40, %rsp
	popq	%rbx
	popq	%rdi
	popq	%rsi
	popq	%r14
	retq
.Lunix_path_BB26_27:
	movq	%rax, %rdx
	testq	%rax, %rax
	je	.Lunix_path_BB26_11
.Lunix_path_BB26_28:
	decq	%rax
	je	.Lunix_path_BB26_43
	movzbl	(%rsi,%rax), %ecx
	cmpl	$47, %ecx
	je	.Lunix_path_BB26_32
	cmpl	$46, %ecx
	jne	.Lunix_path_BB26_26
	cmpb	$47, -1(%rsi,%rax)
	jne	.Lunix_path_BB26_26
.Lunix_path_BB26_32:
	movq	%rbx, %rcx
	subq	%rax, %rcx
	cmpq	$8, %rcx
	jne	.Lunix_path_BB26_27
	movq	%rsi, %rcx
	movq	%rax, %rdx
	callq	unix_path.filler.trimmed_blocks_len
	jmp	.Lunix_path_BB26_27
.Lunix_path_BB26_34:
	movq	%r14, %rdx
	movq	%r14, %rax
	jmp	.Lunix_path_BB26_36
	.p2align	4
.Lunix_path_BB26_35:
	movq	%rax, %rdx
	testq	%rax, %rax
	je	.Lunix_path_BB26_11
.Lunix_path_BB26_36:
	movb	$1, %dil
	decq	%rax
	je	.Lunix_path_BB26_43
	movzbl	(%rsi,%rax), %ecx
	cmpl	$47, %ecx
	je	.Lunix_path_BB26_40
	cmpl	$46, %ecx
	jne	.Lunix_path_BB26_26
	cmpb	$47, -1(%rsi,%rax)
	jne	.Lunix_path_BB26_26
.Lunix_path_BB26_40:
	movq	%r14, %rcx
	subq	%rax, %rcx
	cmpq	$8, %rcx
	jne	.Lunix_path_BB26_35
	movq	%rsi, %rcx
	movq	%rax, %rdx
	callq	unix_path.filler.trimmed_blocks_len
	jmp	.Lunix_path_BB26_35
.Lunix_path_BB26_43:
	movl	$1, %edx
	jmp	.Lunix_path_BB26_26
	.def	unix_path_c.walks.take_last;
	.scl	3;
	.type	32;
	.endef
	.section	.rdata,"dr"
	.p2align	4, 0x0
.Lunix_path_CPI27_0:
	.zero	16,47
	.text
	.p2align	4
# unix_path_c::walks::take_last
unix_path_c.walks.take_last:
	pushq	%r15
	pushq	%r14
	pushq	%r13
	pushq	%r12
	pushq	%rsi
	pushq	%rdi
	pushq	%rbp
	pushq	%rbx
	subq	$40, %rsp
	movq	%rcx, %r14
	movq	(%r8), %r12
	movq	8(%r8), %rbp
	cmpq	%rbp, %rdx
	setb	%al
	subq	%r12, %rbp
	setb	%cl
	sete	%dl
	orb	%al, %cl
	leaq	(%r14,%r12), %rbx
	leaq	.Lunix_path_static.0(%rip), %r15
	testb	%cl, %cl
	cmoveq	%rbx, %r15
	orb	%dl, %cl
	je	.Lunix_path_BB27_2
.Lunix_path_BB27_1:
	xorl	%eax, %eax
	jmp	.Lunix_path_BB27_47
.Lunix_path_BB27_2:
	movq	%r9, %rdi
	movq	%r8, %rsi
	movq	%rbp, %r13
	movq	%rbp, %rax
	jmp	.Lunix_path_BB27_4
	.p2align	4
.Lunix_path_BB27_3:
	movq	%rax, %r13
	testq	%rax, %rax
	je	.Lunix_path_BB27_1
.Lunix_path_BB27_4:
	decq	%rax
	je	.Lunix_path_BB27_10
	movzbl	(%r15,%rax), %ecx
	cmpl	$47, %ecx
	je	.Lunix_path_BB27_8
	cmpl	$46, %ecx
	jne	.Lunix_path_BB27_12
	cmpb	$47, -1(%r15,%rax)
	jne	.Lunix_path_BB27_12
.Lunix_path_BB27_8:
	movq	%rbp, %rcx
	subq	%rax, %rcx
	cmpq	$8, %rcx
	jne	.Lunix_path_BB27_3
	movq	%r15, %rcx
	movq	%rax, %rdx
	callq	unix_path.filler.trimmed_blocks_len
	jmp	.Lunix_path_BB27_3
.Lunix_path_BB27_10:
	cmpb	$46, (%rbx)
	jne	.Lunix_path_BB27_19
	movl	$1, %r13d
	movl	$1, %r15d
	xorl	%ecx, %ecx
	movl	$1, %ebp
	jmp	.Lunix_path_BB27_46
.Lunix_path_BB27_12:
	cmpb	$46, -1(%rbx,%r13)
	jne	.Lunix_path_BB27_19
	cmpb	$46, -2(%rbx,%r13)
	jne	.Lunix_path_BB27_19
	movl	$2, %ebp
	movl	$2, %r15d
	cmpq	$2, %r13
	jne	.Lunix_path_BB27_17
	xorl	%ecx, %ecx
	movl	$2, %r13d
	jmp	.Lunix_path_BB27_46
.Lunix_path_BB27_17:
	cmpb	$47, -3(%rbx,%r13)
	jne	.Lunix_path_BB27_19
	leaq	-2(%r13), %r14
	movq	%r14, %rcx
	movq	%r14, %rax
	jmp	.Lunix_path_BB27_30
.Lunix_path_BB27_19:
	leaq	(%r12,%r14), %rcx
	addq	$-16, %rcx
	movq	%r13, %rax
	.p2align	4
.Lunix_path_BB27_20:
	cmpq	$15, %rax
	jbe	.Lunix_path_BB27_23
	movdqu	(%rcx,%rax), %xmm0
	addq	$-16, %rax
	pcmpeqb	.Lunix_path_CPI27_0(%rip), %xmm0
	pmovmskb	%xmm0, %edx
	testl	%edx, %edx
	je	.Lunix_path_BB27_20
	movzwl	%dx, %ecx
	bsrq	%rcx, %rcx
	xorq	$63, %rcx
	subq	%rcx, %rax
	addq	$64, %rax
	movq	%rax, %r14
	jmp	.Lunix_path_BB27_26
.Lunix_path_BB27_23:
	incq	%rax
	.p2align	4
.Lunix_path_BB27_24:
	cmpq	$1, %rax
	je	.Lunix_path_BB27_44
	leaq	-1(%rax), %r14
	cmpb	$47, -2(%rbx,%rax)
	movq	%r14, %rax
	jne	.Lunix_path_BB27_24
.Lunix_path_BB27_26:
	movq	%r13, %rbp
	subq	%r14, %rbp
	jne	.Lunix_path_BB27_36
	movl	$1, %ebp
	xorl	%r15d, %r15d
.Lunix_path_BB27_28:
	xorl	%ecx, %ecx
	jmp	.Lunix_path_BB27_46
.Lunix_path_BB27_29:
	movq	%rax, %rcx
	testq	%rax, %rax
	je	.Lunix_path_BB27_28
.Lunix_path_BB27_30:
	decq	%rax
	je	.Lunix_path_BB27_45
	movzbl	(%rbx,%rax), %edx
	cmpl	$47, %edx
	je	.Lunix_path_BB27_34
	cmpl	$46, %edx
	jne	.Lunix_path_BB27_46
	cmpb	$47, -1(%rbx,%rax)
	jne	.Lunix_path_BB27_46
.Lunix_path_BB27_34:
	movq	%r14, %rcx
	subq	%rax, %rcx
	cmpq	$8, %rcx
	jne	.Lunix_path_BB27_29
	movq	%rbx, %rcx
	movq	%rax, %rdx
	callq	unix_path.filler.trimmed_blocks_len
	jmp	.Lunix_path_BB27_29
.Lunix_path_BB27_36:
	movq	%r14, %rcx
	movq	%r14, %rax
	jmp	.Lunix_path_BB27_38
	.p2align	4
.Lunix_path_BB27_37:
	movq	%rax, %rcx
	testq	%rax, %rax
	je	.Lunix_path_BB27_28
.Lunix_path_BB27_38:
	movl	$3, %r15d
	decq	%rax
	je	.Lunix_path_BB27_45
	movzbl	(%rbx,%rax), %edx
	cmpl	$47, %edx
	je	.Lunix_path_BB27_42
	cmpl	$46, %edx
	jne	.Lunix_path_BB27_46
	cmpb	$47, -1(%rbx,%rax)
	jne	.Lunix_path_BB27_46
.Lunix_path_BB27_42:
	movq	%r14, %rcx
	subq	%rax, %rcx
	cmpq	$8, %rcx
	jne	.Lunix_path_BB27_37
	movq	%rbx, %rcx
	movq	%rax, %rdx
	callq	unix_path.filler.trimmed_blocks_len
	jmp	.Lunix_path_BB27_37
.Lunix_path_BB27_44:
	movl	$3, %r15d
	xorl	%ecx, %ecx
	movq	%r13, %rbp
	jmp	.Lunix_path_BB27_46
.Lunix_path_BB27_45:
	movl	$1, %ecx
.Lunix_path_BB27_46:
	addq	%r12, %r13
	subq	%rbp, %r13
	movq	%r13, (%rdi)
	movq	%rbp, 8(%rdi)
	movl	%r15d, 16(%rdi)
	movl	$0, 20(%rdi)
	addq	(%rsi), %rcx
	movq	%rcx, 8(%rsi)
	movb	$1, %al
.Lunix_path_BB27_47:
	addq	$40, %rsp
	popq	%rbx
	popq	%rbp
	popq	%rdi
	popq	%rsi
	popq	%r12
	popq	%r13
	popq	%r14
	popq	%r15
	retq
	.def	unix_bytes.lossy.Utf8LossyChunksIterIterator.next;
	.scl	3;
	.type	32;
	.endef
	.p2align	4
# unix_bytes::lossy::Utf8LossyChunksIterIterator::next
unix_bytes.lossy.Utf8LossyChunksIterIterator.next:
	pushq	%r14
	pushq	%rsi
	pushq	%rdi
	pushq	%rbx
	subq	$40, %rsp
	movq	%rcx, %rsi
	movq	8(%rdx), %rbx
	testq	%rbx, %rbx
	je	.Lunix_path_BB28_3
	movq	%rdx, %rdi
	movq	(%rdx), %r14
	cmpq	$15, %rbx
	ja	.Lunix_path_BB28_4
.Lunix_path_BB28_2:
	movq	%r14, %rcx
	movq	%rbx, %rdx
	xorl	%r8d, %r8d
	callq	unix_bytes.utf8.scans.scan_by_sequence
	jmp	.Lunix_path_BB28_14
.Lunix_path_BB28_3:
	pxor	%xmm0, %xmm0
	movdqu	%xmm0, 16(%rsi)
	movdqu	%xmm0, (%rsi)
	movq	$0, 32(%rsi)
	jmp	.Lunix_path_BB28_15
.Lunix_path_BB28_4:
	movdqu	(%r14), %xmm0
	pmovmskb	%xmm0, %eax
	testl	%eax, %eax
	je	.Lunix_path_BB28_10
	orl	$65536, %eax
	rep		bsfl	%eax, %eax
	movq	%rbx, %rcx
	subq	%rax, %rcx
	movzbl	(%r14,%rax), %edx
	addb	$62, %dl
	cmpb	$51, %dl
	setb	%dl
	cmpq	$2, %rcx
	setae	%r8b
	andb	%dl, %r8b
	cmpb	$1, %r8b
	jne	.Lunix_path_BB28_9
	cmpb	$-65, 1(%r14,%rax)
	jg	.Lunix_path_BB28_9
	cmpq	$31, %rcx
	ja	.Lunix_path_BB28_12
	movq	%r14, %rcx
	movq	%rbx, %rdx
	movq	%rax, %r8
	callq	unix_bytes.utf8.scans.scan_by_sequence
	jmp	.Lunix_path_BB28_14
.Lunix_path_BB28_9:
	movl	$1, %edx
	jmp	.Lunix_path_BB28_14
.Lunix_path_BB28_10:
	cmpq	$31, %rbx
	jbe	.Lunix_path_BB28_2
	movq	%r14, %rcx
	movq	%rbx, %rdx
	xorl	%r8d, %r8d
	jmp	.Lunix_path_BB28_13
.Lunix_path_BB28_12:
	movq	%r14, %rcx
	movq	%rbx, %rdx
	movq	%rax, %r8
.Lunix_path_BB28_13:
	callq	unix_bytes.utf8.scans.scan_by_window
.Lunix_path_BB28_14:
	leaq	(%r14,%rax), %rcx
	leaq	(%rcx,%rdx), %r8
	subq	%rax, %rbx
	subq	%rdx, %rbx
	movq	%r8, (%rdi)
	movq	%rbx, 8(%rdi)
	movq	$1, (%rsi)
	movq	%r14, 8(%rsi)
	movq	%rax, 16(%rsi)
	movq	%rcx, 24(%rsi)
	movq	%rdx, 32(%rsi)
.Lunix_path_BB28_15:
	addq	$40, %rsp
	popq	%rbx
	popq	%rdi
	popq	%rsi
	popq	%r14
	retq
	.def	path_within.outlined.is_names_only;
	.scl	3;
	.type	32;
	.endef
	.section	.rdata,"dr"
	.p2align	4, 0x0
.Lunix_path_CPI29_0:
	.zero	16,208
.Lunix_path_CPI29_1:
	.zero	16,47
.Lunix_path_CPI29_2:
	.zero	16,46
.Lunix_path_CPI29_3:
	.byte	254
	.byte	254
	.byte	254
	.byte	254
	.byte	254
	.byte	254
	.byte	254
	.byte	254
	.zero	1
	.zero	1
	.zero	1
	.zero	1
	.zero	1
	.zero	1
	.zero	1
	.zero	1
.Lunix_path_CPI29_4:
	.byte	46
	.byte	46
	.byte	46
	.byte	46
	.byte	46
	.byte	46
	.byte	46
	.byte	46
	.zero	1
	.zero	1
	.zero	1
	.zero	1
	.zero	1
	.zero	1
	.zero	1
	.zero	1
.Lunix_path_CPI29_5:
	.byte	47
	.byte	47
	.byte	47
	.byte	47
	.byte	47
	.byte	47
	.byte	47
	.byte	47
	.zero	1
	.zero	1
	.zero	1
	.zero	1
	.zero	1
	.zero	1
	.zero	1
	.zero	1
	.text
	.p2align	4
# path_within::outlined::is_names_only
path_within.outlined.is_names_only:
	pushq	%rsi
	pushq	%rdi
	subq	$24, %rsp
	movdqa	%xmm6, (%rsp)
	testq	%rdx, %rdx
	je	.Lunix_path_BB29_3
	xorl	%r9d, %r9d
	cmpb	$47, (%rcx)
	sete	%r9b
	movq	%rdx, %r8
	subq	%r9, %r8
	je	.Lunix_path_BB29_3
	leaq	(%rcx,%r9), %r10
	movzbl	(%r10), %eax
	cmpl	$47, %eax
	je	.Lunix_path_BB29_3
	cmpl	$46, %eax
	jne	.Lunix_path_BB29_16
	cmpq	$2, %r8
	jb	.Lunix_path_BB29_3
	movzbl	1(%r10), %eax
	cmpl	$47, %eax
	je	.Lunix_path_BB29_3
	cmpl	$46, %eax
	jne	.Lunix_path_BB29_16
	cmpq	$2, %r8
	je	.Lunix_path_BB29_3
	cmpb	$47, 2(%r10)
	je	.Lunix_path_BB29_3
.Lunix_path_BB29_16:
	movzbl	-1(%rcx,%rdx), %eax
	andb	$-2, %al
	cmpb	$46, %al
	jne	.Lunix_path_BB29_18
.Lunix_path_BB29_3:
	xorl	%eax, %eax
.Lunix_path_BB29_60:
	movaps	(%rsp), %xmm6
	addq	$24, %rsp
	popq	%rdi
	popq	%rsi
	retq
.Lunix_path_BB29_18:
	cmpq	$17, %r8
	jae	.Lunix_path_BB29_21
.Lunix_path_BB29_19:
	cmpq	$9, %r8
	jae	.Lunix_path_BB29_29
	xorl	%eax, %eax
	jmp	.Lunix_path_BB29_46
.Lunix_path_BB29_21:
	cmpq	$32, %r8
	ja	.Lunix_path_BB29_31
	movdqu	(%r10), %xmm0
	movdqu	1(%r10), %xmm1
	pand	.Lunix_path_CPI29_0(%rip), %xmm1
	por	%xmm0, %xmm1
	pcmpeqb	.Lunix_path_CPI29_1(%rip), %xmm1
	pmovmskb	%xmm1, %eax
	testl	%eax, %eax
	jne	.Lunix_path_BB29_24
	movdqu	-17(%rcx,%rdx), %xmm0
	movdqu	-16(%rcx,%rdx), %xmm1
	pand	.Lunix_path_CPI29_0(%rip), %xmm1
	por	%xmm0, %xmm1
	pcmpeqb	.Lunix_path_CPI29_1(%rip), %xmm1
	pmovmskb	%xmm1, %eax
	testl	%eax, %eax
	je	.Lunix_path_BB29_61
.Lunix_path_BB29_24:
	cmpq	$18, %r8
	jbe	.Lunix_path_BB29_19
	movq	%r8, %rdx
	addq	$-19, %rdx
	jne	.Lunix_path_BB29_33
	xorl	%edx, %edx
	xorl	%eax, %eax
.Lunix_path_BB29_27:
	leaq	-17(%r8), %r11
	cmpq	%rax, %r11
	cmovbq	%r11, %rax
	movdqu	(%r10,%rax), %xmm0
	movdqu	1(%r10,%rax), %xmm1
	pand	.Lunix_path_CPI29_0(%rip), %xmm1
	por	%xmm0, %xmm1
	pcmpeqb	.Lunix_path_CPI29_1(%rip), %xmm1
	pmovmskb	%xmm1, %r11d
	testl	%r11d, %r11d
	je	.Lunix_path_BB29_45
	movdqu	(%r10,%rdx), %xmm0
	movdqu	1(%r10,%rdx), %xmm1
	movdqu	2(%r10,%rdx), %xmm2
	movdqu	3(%r10,%rdx), %xmm3
	movdqa	.Lunix_path_CPI29_2(%rip), %xmm4
	movdqa	%xmm2, %xmm5
	pcmpeqb	%xmm4, %xmm5
	movdqa	.Lunix_path_CPI29_1(%rip), %xmm6
	pcmpeqb	%xmm6, %xmm3
	pand	%xmm5, %xmm3
	pcmpeqb	%xmm1, %xmm4
	pcmpeqb	%xmm6, %xmm2
	por	%xmm3, %xmm2
	pand	%xmm4, %xmm2
	pcmpeqb	%xmm6, %xmm0
	pcmpeqb	%xmm6, %xmm1
	por	%xmm2, %xmm1
	pand	%xmm0, %xmm1
	pmovmskb	%xmm1, %eax
	orl	$65536, %eax
	rep		bsfl	%eax, %eax
	jmp	.Lunix_path_BB29_40
.Lunix_path_BB29_29:
	movq	1(%r10), %xmm0
	pand	.Lunix_path_CPI29_3(%rip), %xmm0
	pcmpeqb	.Lunix_path_CPI29_4(%rip), %xmm0
	movq	(%r10), %xmm1
	pcmpeqb	.Lunix_path_CPI29_5(%rip), %xmm1
	pand	%xmm0, %xmm1
	pmovmskb	%xmm1, %eax
	orl	$256, %eax
	rep		bsfl	%eax, %eax
	cmpb	$8, %al
	jb	.Lunix_path_BB29_46
	cmpq	$17, %r8
	movl	$17, %eax
	cmovbq	%r8, %rax
	movq	-8(%r10,%rax), %xmm0
	pand	.Lunix_path_CPI29_3(%rip), %xmm0
	pcmpeqb	.Lunix_path_CPI29_4(%rip), %xmm0
	movq	-9(%r10,%rax), %xmm1
	pcmpeqb	.Lunix_path_CPI29_5(%rip), %xmm1
	pand	%xmm0, %xmm1
	pmovmskb	%xmm1, %edx
	orl	$256, %edx
	rep		bsfl	%edx, %edx
	addq	%rdx, %rax
	addq	$-9, %rax
	jmp	.Lunix_path_BB29_46
.Lunix_path_BB29_31:
	movdqu	-33(%r10,%r8), %xmm1
	movdqu	-32(%r10,%r8), %xmm2
	movdqa	.Lunix_path_CPI29_0(%rip), %xmm0
	pand	%xmm0, %xmm2
	por	%xmm1, %xmm2
	movdqa	.Lunix_path_CPI29_1(%rip), %xmm1
	pcmpeqb	%xmm1, %xmm2
	movdqu	-17(%rcx,%rdx), %xmm3
	movdqu	-16(%rcx,%rdx), %xmm4
	pand	%xmm0, %xmm4
	por	%xmm3, %xmm4
	pcmpeqb	%xmm1, %xmm4
	por	%xmm2, %xmm4
	pmovmskb	%xmm4, %eax
	testl	%eax, %eax
	je	.Lunix_path_BB29_41
	leaq	-19(%r8), %rdx
.Lunix_path_BB29_33:
	xorl	%eax, %eax
	jmp	.Lunix_path_BB29_37
	.p2align	4
.Lunix_path_BB29_34:
	movdqu	2(%r10,%rax), %xmm2
	movdqu	3(%r10,%rax), %xmm3
	movdqa	.Lunix_path_CPI29_2(%rip), %xmm4
	movdqa	%xmm2, %xmm5
	pcmpeqb	%xmm4, %xmm5
	movdqa	.Lunix_path_CPI29_1(%rip), %xmm6
	pcmpeqb	%xmm6, %xmm3
	pand	%xmm5, %xmm3
	pcmpeqb	%xmm1, %xmm4
	pcmpeqb	%xmm6, %xmm2
	por	%xmm3, %xmm2
	pand	%xmm4, %xmm2
	pcmpeqb	%xmm6, %xmm0
	pcmpeqb	%xmm6, %xmm1
	por	%xmm2, %xmm1
	pand	%xmm0, %xmm1
	pmovmskb	%xmm1, %r11d
	orl	$65536, %r11d
	rep		bsfl	%r11d, %r11d
	cmpw	$15, %r11w
	jbe	.Lunix_path_BB29_39
	addq	$16, %rax
.Lunix_path_BB29_36:
	cmpq	%rdx, %rax
	jae	.Lunix_path_BB29_27
.Lunix_path_BB29_37:
	movdqu	(%r10,%rax), %xmm0
	movdqu	1(%r10,%rax), %xmm1
	movdqa	.Lunix_path_CPI29_0(%rip), %xmm2
	pand	%xmm1, %xmm2
	por	%xmm0, %xmm2
	pcmpeqb	.Lunix_path_CPI29_1(%rip), %xmm2
	pmovmskb	%xmm2, %r11d
	testl	%r11d, %r11d
	jne	.Lunix_path_BB29_34
	addq	$16, %rax
	cmpq	%rdx, %rax
	jb	.Lunix_path_BB29_37
	jmp	.Lunix_path_BB29_36
.Lunix_path_BB29_39:
	movzwl	%r11w, %edx
.Lunix_path_BB29_40:
	addq	%rdx, %rax
	jmp	.Lunix_path_BB29_46
.Lunix_path_BB29_41:
	movq	%r8, %rdx
	movb	$1, %al
	addq	$-33, %rdx
	je	.Lunix_path_BB29_60
	leaq	(%r9,%rcx), %r11
	addq	$17, %r11
	xorl	%esi, %esi
.Lunix_path_BB29_43:
	movdqu	-17(%r11,%rsi), %xmm2
	movdqu	-16(%r11,%rsi), %xmm3
	movdqu	-1(%r11,%rsi), %xmm4
	movdqu	(%r11,%rsi), %xmm5
	pand	%xmm0, %xmm3
	por	%xmm2, %xmm3
	pcmpeqb	%xmm1, %xmm3
	pand	%xmm0, %xmm5
	por	%xmm4, %xmm5
	pcmpeqb	%xmm1, %xmm5
	por	%xmm3, %xmm5
	pmovmskb	%xmm5, %edi
	testl	%edi, %edi
	jne	.Lunix_path_BB29_24
	addq	$32, %rsi
	cmpq	%rdx, %rsi
	jb	.Lunix_path_BB29_43
	jmp	.Lunix_path_BB29_60
.Lunix_path_BB29_45:
	addq	$16, %rax
.Lunix_path_BB29_46:
	cmpq	%r8, %rax
	jae	.Lunix_path_BB29_57
	leaq	(%r9,%rcx), %rdx
	addq	$3, %rdx
	jmp	.Lunix_path_BB29_50
.Lunix_path_BB29_48:
	cmpl	$47, %r9d
	je	.Lunix_path_BB29_59
.Lunix_path_BB29_49:
	cmpq	%r8, %rax
	jae	.Lunix_path_BB29_58
.Lunix_path_BB29_50:
	movq	%rax, %rcx
	incq	%rax
	cmpb	$47, -3(%rdx,%rcx)
	jne	.Lunix_path_BB29_49
	cmpq	%rax, %r8
	jbe	.Lunix_path_BB29_59
	movzbl	-2(%rdx,%rcx), %r9d
	cmpl	$46, %r9d
	jne	.Lunix_path_BB29_48
	leaq	2(%rcx), %r9
	cmpq	%r9, %r8
	jbe	.Lunix_path_BB29_59
	movzbl	-1(%rdx,%rcx), %r9d
	cmpl	$46, %r9d
	jne	.Lunix_path_BB29_48
	leaq	3(%rcx), %r9
	cmpq	%r9, %r8
	jbe	.Lunix_path_BB29_59
	cmpb	$47, (%rdx,%rcx)
	jne	.Lunix_path_BB29_49
	jmp	.Lunix_path_BB29_59
.Lunix_path_BB29_57:
	movq	%rax, %rcx
	jmp	.Lunix_path_BB29_59
.Lunix_path_BB29_58:
	movq	%r8, %rcx
.Lunix_path_BB29_59:
	cmpq	%r8, %rcx
	sete	%al
	jmp	.Lunix_path_BB29_60
.Lunix_path_BB29_61:
	movb	$1, %al
	jmp	.Lunix_path_BB29_60
	.def	path_within.write.Layout.resolve_names;
	.scl	3;
	.type	32;
	.endef
	.section	.rdata,"dr"
	.p2align	4, 0x0
.Lunix_path_CPI30_0:
	.zero	16,208
.Lunix_path_CPI30_1:
	.zero	16,47
.Lunix_path_CPI30_2:
	.zero	16,46
.Lunix_path_CPI30_3:
	.byte	254
	.byte	254
	.byte	254
	.byte	254
	.byte	254
	.byte	254
	.byte	254
	.byte	254
	.zero	1
	.zero	1
	.zero	1
	.zero	1
	.zero	1
	.zero	1
	.zero	1
	.zero	1
.Lunix_path_CPI30_4:
	.byte	46
	.byte	46
	.byte	46
	.byte	46
	.byte	46
	.byte	46
	.byte	46
	.byte	46
	.zero	1
	.zero	1
	.zero	1
	.zero	1
	.zero	1
	.zero	1
	.zero	1
	.zero	1
.Lunix_path_CPI30_5:
	.byte	47
	.byte	47
	.byte	47
	.byte	47
	.byte	47
	.byte	47
	.byte	47
	.byte	47
	.zero	1
	.zero	1
	.zero	1
	.zero	1
	.zero	1
	.zero	1
	.zero	1
	.zero	1
	.text
	.p2align	4
# path_within::write::Layout::resolve_names
path_within.write.Layout.resolve_names:
	pushq	%r15
	pushq	%r14
	pushq	%r12
	pushq	%rsi
	pushq	%rdi
	pushq	%rbp
	pushq	%rbx
	subq	$80, %rsp
	movdqa	%xmm6, 64(%rsp)
	movq	%r8, %rdi
	movq	%rdx, %rbx
	movq	%rcx, %rsi
	pxor	%xmm0, %xmm0
	movdqa	%xmm0, 32(%rsp)
	movq	$0, 48(%rsp)
	testq	%r8, %r8
	je	.Lunix_path_BB30_11
	movzbl	-1(%rbx,%rdi), %eax
	andb	$-2, %al
	movq	%rdi, %r14
	cmpb	$46, %al
	jne	.Lunix_path_BB30_12
	movq	%rdi, %r14
	movq	%rdi, %rax
	jmp	.Lunix_path_BB30_3
	.p2align	4
.Lunix_path_BB30_10:
	movq	%rax, %r14
	testq	%rax, %rax
	je	.Lunix_path_BB30_11
.Lunix_path_BB30_3:
	decq	%rax
	je	.Lunix_path_BB30_4
	movzbl	(%rbx,%rax), %ecx
	cmpl	$47, %ecx
	je	.Lunix_path_BB30_8
	cmpl	$46, %ecx
	jne	.Lunix_path_BB30_12
	cmpb	$47, -1(%rbx,%rax)
	jne	.Lunix_path_BB30_12
.Lunix_path_BB30_8:
	movq	%rdi, %rcx
	subq	%rax, %rcx
	cmpq	$8, %rcx
	jne	.Lunix_path_BB30_10
	movq	%rbx, %rcx
	movq	%rax, %rdx
	callq	unix_path.filler.trimmed_blocks_len
	jmp	.Lunix_path_BB30_10
.Lunix_path_BB30_11:
	xorl	%r14d, %r14d
.Lunix_path_BB30_12:
	xorl	%r8d, %r8d
	jmp	.Lunix_path_BB30_13
	.p2align	4
.Lunix_path_BB30_18:
	addq	%rax, %r8
	cmpq	$4, %r8
	jae	.Lunix_path_BB30_19
.Lunix_path_BB30_13:
	movq	%r8, %rax
	cmpq	%r14, %r8
	jae	.Lunix_path_BB30_20
	movzbl	(%rbx,%rax), %ecx
	movl	$1, %r8d
	cmpl	$47, %ecx
	je	.Lunix_path_BB30_18
	cmpl	$46, %ecx
	jne	.Lunix_path_BB30_20
	leaq	1(%rax), %rcx
	cmpq	%r14, %rcx
	je	.Lunix_path_BB30_18
	movl	$2, %r8d
	cmpb	$47, (%rbx,%rcx)
	je	.Lunix_path_BB30_18
.Lunix_path_BB30_20:
	movq	%r14, %rcx
	subq	%rax, %rcx
	je	.Lunix_path_BB30_72
.Lunix_path_BB30_21:
	leaq	(%rbx,%rax), %rdx
	xorl	%r9d, %r9d
	cmpb	$47, (%rdx)
	sete	%r9b
	movq	%rcx, %r8
	subq	%r9, %r8
	je	.Lunix_path_BB30_72
	leaq	(%rdx,%r9), %r10
	movzbl	(%r10), %r11d
	cmpl	$47, %r11d
	je	.Lunix_path_BB30_72
	cmpl	$46, %r11d
	jne	.Lunix_path_BB30_29
	cmpq	$2, %r8
	jb	.Lunix_path_BB30_72
	movzbl	1(%r10), %r11d
	cmpl	$47, %r11d
	je	.Lunix_path_BB30_72
	cmpl	$46, %r11d
	jne	.Lunix_path_BB30_29
	cmpq	$2, %r8
	je	.Lunix_path_BB30_72
	cmpb	$47, 2(%r10)
	je	.Lunix_path_BB30_72
.Lunix_path_BB30_29:
	movzbl	-1(%rbx,%r14), %r11d
	andb	$-2, %r11b
	cmpb	$46, %r11b
	je	.Lunix_path_BB30_72
	cmpq	$17, %r8
	jae	.Lunix_path_BB30_31
.Lunix_path_BB30_44:
	cmpq	$9, %r8
	jae	.Lunix_path_BB30_46
	xorl	%r11d, %r11d
	jmp	.Lunix_path_BB30_57
.Lunix_path_BB30_4:
	movl	$1, %r14d
	jmp	.Lunix_path_BB30_12
.Lunix_path_BB30_19:
	movq	%rbx, %rcx
	movq	%r14, %rdx
	callq	unix_path.filler.filler_end_from
	movq	%r14, %rcx
	subq	%rax, %rcx
	jne	.Lunix_path_BB30_21
	jmp	.Lunix_path_BB30_72
.Lunix_path_BB30_31:
	cmpq	$32, %r8
	ja	.Lunix_path_BB30_34
	movdqu	(%r10), %xmm0
	movdqu	1(%r10), %xmm1
	pand	.Lunix_path_CPI30_0(%rip), %xmm1
	por	%xmm0, %xmm1
	pcmpeqb	.Lunix_path_CPI30_1(%rip), %xmm1
	pmovmskb	%xmm1, %r11d
	testl	%r11d, %r11d
	jne	.Lunix_path_BB30_43
	movdqu	-17(%rbx,%r14), %xmm0
	movdqu	-16(%rbx,%r14), %xmm1
	pand	.Lunix_path_CPI30_0(%rip), %xmm1
	por	%xmm0, %xmm1
	pcmpeqb	.Lunix_path_CPI30_1(%rip), %xmm1
	pmovmskb	%xmm1, %r11d
	testl	%r11d, %r11d
	je	.Lunix_path_BB30_71
.Lunix_path_BB30_43:
	cmpq	$18, %r8
	jbe	.Lunix_path_BB30_44
	movq	%r8, %r15
	addq	$-19, %r15
	jne	.Lunix_path_BB30_36
	xorl	%r15d, %r15d
	xorl	%r11d, %r11d
.Lunix_path_BB30_54:
	leaq	-17(%r8), %r12
	cmpq	%r11, %r12
	cmovbq	%r12, %r11
	movdqu	(%r10,%r11), %xmm0
	movdqu	1(%r10,%r11), %xmm1
	pand	.Lunix_path_CPI30_0(%rip), %xmm1
	por	%xmm0, %xmm1
	pcmpeqb	.Lunix_path_CPI30_1(%rip), %xmm1
	pmovmskb	%xmm1, %ebp
	testl	%ebp, %ebp
	je	.Lunix_path_BB30_55
	movdqu	(%r10,%r15), %xmm0
	movdqu	1(%r10,%r15), %xmm1
	movdqu	2(%r10,%r15), %xmm2
	movdqu	3(%r10,%r15), %xmm3
	movdqa	.Lunix_path_CPI30_2(%rip), %xmm4
	movdqa	%xmm2, %xmm5
	pcmpeqb	%xmm4, %xmm5
	movdqa	.Lunix_path_CPI30_1(%rip), %xmm6
	pcmpeqb	%xmm6, %xmm3
	pand	%xmm5, %xmm3
	pcmpeqb	%xmm1, %xmm4
	pcmpeqb	%xmm6, %xmm2
	por	%xmm3, %xmm2
	pand	%xmm4, %xmm2
	pcmpeqb	%xmm6, %xmm0
	pcmpeqb	%xmm6, %xmm1
	por	%xmm2, %xmm1
	pand	%xmm0, %xmm1
	pmovmskb	%xmm1, %r10d
	orl	$65536, %r10d
	rep		bsfl	%r10d, %r11d
	addq	%r15, %r11
	jmp	.Lunix_path_BB30_57
.Lunix_path_BB30_46:
	movq	1(%r10), %xmm0
	pand	.Lunix_path_CPI30_3(%rip), %xmm0
	pcmpeqb	.Lunix_path_CPI30_4(%rip), %xmm0
	movq	(%r10), %xmm1
	pcmpeqb	.Lunix_path_CPI30_5(%rip), %xmm1
	pand	%xmm0, %xmm1
	pmovmskb	%xmm1, %r11d
	orl	$256, %r11d
	rep		bsfl	%r11d, %r11d
	cmpb	$8, %r11b
	jb	.Lunix_path_BB30_57
	cmpq	$17, %r8
	movl	$17, %r11d
	cmovbq	%r8, %r11
	movq	-8(%r10,%r11), %xmm0
	pand	.Lunix_path_CPI30_3(%rip), %xmm0
	pcmpeqb	.Lunix_path_CPI30_4(%rip), %xmm0
	movq	-9(%r10,%r11), %xmm1
	pcmpeqb	.Lunix_path_CPI30_5(%rip), %xmm1
	pand	%xmm0, %xmm1
	pmovmskb	%xmm1, %r10d
	orl	$256, %r10d
	rep		bsfl	%r10d, %r10d
	addq	%r10, %r11
	addq	$-9, %r11
	jmp	.Lunix_path_BB30_57
.Lunix_path_BB30_34:
	movdqu	-33(%r10,%r8), %xmm1
	movdqu	-32(%r10,%r8), %xmm2
	movdqa	.Lunix_path_CPI30_0(%rip), %xmm0
	pand	%xmm0, %xmm2
	por	%xmm1, %xmm2
	movdqa	.Lunix_path_CPI30_1(%rip), %xmm1
	pcmpeqb	%xmm1, %xmm2
	movdqu	-17(%rbx,%r14), %xmm3
	movdqu	-16(%rbx,%r14), %xmm4
	pand	%xmm0, %xmm4
	por	%xmm3, %xmm4
	pcmpeqb	%xmm1, %xmm4
	por	%xmm2, %xmm4
	pmovmskb	%xmm4, %r11d
	testl	%r11d, %r11d
	je	.Lunix_path_BB30_39
	leaq	-19(%r8), %r15
.Lunix_path_BB30_36:
	xorl	%r11d, %r11d
	jmp	.Lunix_path_BB30_37
	.p2align	4
.Lunix_path_BB30_50:
	movdqu	2(%r10,%r11), %xmm2
	movdqu	3(%r10,%r11), %xmm3
	movdqa	.Lunix_path_CPI30_2(%rip), %xmm4
	movdqa	%xmm2, %xmm5
	pcmpeqb	%xmm4, %xmm5
	movdqa	.Lunix_path_CPI30_1(%rip), %xmm6
	pcmpeqb	%xmm6, %xmm3
	pand	%xmm5, %xmm3
	pcmpeqb	%xmm1, %xmm4
	pcmpeqb	%xmm6, %xmm2
	por	%xmm3, %xmm2
	pand	%xmm4, %xmm2
	pcmpeqb	%xmm6, %xmm0
	pcmpeqb	%xmm6, %xmm1
	por	%xmm2, %xmm1
	pand	%xmm0, %xmm1
	pmovmskb	%xmm1, %ebp
	orl	$65536, %ebp
	rep		bsfl	%ebp, %ebp
	cmpw	$15, %bp
	jbe	.Lunix_path_BB30_51
	addq	$16, %r11
.Lunix_path_BB30_53:
	cmpq	%r15, %r11
	jae	.Lunix_path_BB30_54
.Lunix_path_BB30_37:
	movdqu	(%r10,%r11), %xmm0
	movdqu	1(%r10,%r11), %xmm1
	movdqa	.Lunix_path_CPI30_0(%rip), %xmm2
	pand	%xmm1, %xmm2
	por	%xmm0, %xmm2
	pcmpeqb	.Lunix_path_CPI30_1(%rip), %xmm2
	pmovmskb	%xmm2, %ebp
	testl	%ebp, %ebp
	jne	.Lunix_path_BB30_50
	addq	$16, %r11
	cmpq	%r15, %r11
	jb	.Lunix_path_BB30_37
	jmp	.Lunix_path_BB30_53
.Lunix_path_BB30_51:
	movzwl	%bp, %r10d
	addq	%r10, %r11
	jmp	.Lunix_path_BB30_57
.Lunix_path_BB30_39:
	movq	%r8, %r11
	addq	$-33, %r11
	je	.Lunix_path_BB30_71
	leaq	(%rax,%r9), %r15
	addq	%rbx, %r15
	addq	$17, %r15
	xorl	%r12d, %r12d
.Lunix_path_BB30_42:
	movdqu	-17(%r15,%r12), %xmm2
	movdqu	-16(%r15,%r12), %xmm3
	movdqu	-1(%r15,%r12), %xmm4
	movdqu	(%r15,%r12), %xmm5
	pand	%xmm0, %xmm3
	por	%xmm2, %xmm3
	pcmpeqb	%xmm1, %xmm3
	pand	%xmm0, %xmm5
	por	%xmm4, %xmm5
	pcmpeqb	%xmm1, %xmm5
	por	%xmm3, %xmm5
	pmovmskb	%xmm5, %ebp
	testl	%ebp, %ebp
	jne	.Lunix_path_BB30_43
	addq	$32, %r12
	cmpq	%r11, %r12
	jb	.Lunix_path_BB30_42
	jmp	.Lunix_path_BB30_71
.Lunix_path_BB30_55:
	addq	$16, %r11
.Lunix_path_BB30_57:
	cmpq	%r8, %r11
	jae	.Lunix_path_BB30_58
	addq	%r9, %rax
	subq	%rax, %r14
	leaq	(%rbx,%rax), %r9
	addq	$3, %r9
	jmp	.Lunix_path_BB30_60
.Lunix_path_BB30_63:
	cmpl	$47, %r10d
	je	.Lunix_path_BB30_70
.Lunix_path_BB30_68:
	cmpq	%r8, %r11
	jae	.Lunix_path_BB30_69
.Lunix_path_BB30_60:
	movq	%r11, %rax
	incq	%r11
	cmpb	$47, -3(%r9,%rax)
	jne	.Lunix_path_BB30_68
	cmpq	%r11, %r8
	jbe	.Lunix_path_BB30_70
	movzbl	-2(%r9,%rax), %r10d
	cmpl	$46, %r10d
	jne	.Lunix_path_BB30_63
	leaq	2(%rax), %r10
	cmpq	%r10, %r8
	jbe	.Lunix_path_BB30_70
	movzbl	-1(%r9,%rax), %r10d
	cmpl	$46, %r10d
	jne	.Lunix_path_BB30_63
	leaq	3(%rax), %r10
	cmpq	%r10, %r8
	jbe	.Lunix_path_BB30_70
	cmpb	$47, (%r9,%rax)
	jne	.Lunix_path_BB30_68
	jmp	.Lunix_path_BB30_70
.Lunix_path_BB30_58:
	movq	%r11, %rax
.Lunix_path_BB30_70:
	cmpq	%r8, %rax
	jne	.Lunix_path_BB30_72
.Lunix_path_BB30_71:
	leaq	1(%rcx), %rax
	movl	$1, %r8d
	movq	$-1, %r9
	movq	%rdx, %rbx
	movq	%rcx, %rdi
	jmp	.Lunix_path_BB30_73
.Lunix_path_BB30_69:
	movq	%r14, %rax
	cmpq	%r8, %rax
	je	.Lunix_path_BB30_71
.Lunix_path_BB30_72:
	leaq	32(%rsp), %rcx
	movq	%rbx, %rdx
	movq	%rdi, %r8
	callq	path_within.backward.count_resolved
	movq	40(%rsp), %r9
	movq	48(%rsp), %rax
	xorl	%r8d, %r8d
.Lunix_path_BB30_73:
	movq	%rbx, (%rsi)
	movq	%rdi, 8(%rsi)
	movq	%r9, 16(%rsi)
	movq	%rax, 24(%rsi)
	movq	%r8, 32(%rsi)
	movaps	64(%rsp), %xmm6
	addq	$80, %rsp
	popq	%rbx
	popq	%rbp
	popq	%rdi
	popq	%rsi
	popq	%r12
	popq	%r14
	popq	%r15
	retq
	.def	path_within.backward.count_resolved;
	.scl	3;
	.type	32;
	.endef
	.section	.rdata,"dr"
	.p2align	4, 0x0
.Lunix_path_CPI31_0:
	.zero	16,47
	.text
	.p2align	4
# path_within::backward::count_resolved
path_within.backward.count_resolved:
	pushq	%rsi
	pushq	%rdi
	pushq	%rbx
	subq	$32, %rsp
	movq	%r8, %rbx
	movq	%rdx, %rdi
	movq	%rcx, %rsi
	testq	%r8, %r8
	je	.Lunix_path_BB31_11
	movzbl	-1(%rdi,%rbx), %eax
	andb	$-2, %al
	movq	%rbx, %r8
	cmpb	$46, %al
	jne	.Lunix_path_BB31_12
	movq	%rbx, %r8
	movq	%rbx, %rax
	jmp	.Lunix_path_BB31_3
	.p2align	4
.Lunix_path_BB31_10:
	movq	%rax, %r8
	testq	%rax, %rax
	je	.Lunix_path_BB31_11
.Lunix_path_BB31_3:
	decq	%rax
	je	.Lunix_path_BB31_4
	movzbl	(%rdi,%rax), %ecx
	cmpl	$47, %ecx
	je	.Lunix_path_BB31_8
	cmpl	$46, %ecx
	jne	.Lunix_path_BB31_12
	cmpb	$47, -1(%rdi,%rax)
	jne	.Lunix_path_BB31_12
.Lunix_path_BB31_8:
	movq	%rbx, %rcx
	subq	%rax, %rcx
	cmpq	$8, %rcx
	jne	.Lunix_path_BB31_10
	movq	%rdi, %rcx
	movq	%rax, %rdx
	callq	unix_path.filler.trimmed_blocks_len
	jmp	.Lunix_path_BB31_10
.Lunix_path_BB31_11:
	xorl	%r8d, %r8d
.Lunix_path_BB31_12:
	xorl	%eax, %eax
	xorl	%ecx, %ecx
.Lunix_path_BB31_13:
	xorl	%edx, %edx
	jmp	.Lunix_path_BB31_14
.Lunix_path_BB31_29:
	incq	%rdx
	.p2align	4
.Lunix_path_BB31_30:
	testq	%r9, %r9
	je	.Lunix_path_BB31_33
.Lunix_path_BB31_14:
	movq	%r8, %r10
	incq	%r8
	movq	%r10, %r9
	.p2align	4
.Lunix_path_BB31_15:
	cmpq	$15, %r9
	jbe	.Lunix_path_BB31_18
	movdqu	-16(%rdi,%r9), %xmm0
	pcmpeqb	.Lunix_path_CPI31_0(%rip), %xmm0
	addq	$-16, %r9
	pmovmskb	%xmm0, %r11d
	addq	$-16, %r8
	testl	%r11d, %r11d
	je	.Lunix_path_BB31_15
	movzwl	%r11w, %r8d
	bsrq	%r8, %r8
	xorq	$63, %r8
	subq	%r8, %r9
	addq	$64, %r9
	jmp	.Lunix_path_BB31_21
	.p2align	4
.Lunix_path_BB31_18:
	cmpq	$1, %r8
	je	.Lunix_path_BB31_19
	leaq	-1(%r8), %r9
	cmpb	$47, -2(%rdi,%r8)
	movq	%r9, %r8
	jne	.Lunix_path_BB31_18
	jmp	.Lunix_path_BB31_21
	.p2align	4
.Lunix_path_BB31_19:
	xorl	%r9d, %r9d
.Lunix_path_BB31_21:
	cmpq	$1, %r9
	movq	%r9, %r8
	adcq	$-1, %r8
	subq	%r9, %r10
	je	.Lunix_path_BB31_30
	cmpq	$1, %r10
	jne	.Lunix_path_BB31_26
	cmpb	$46, (%rdi,%r9)
	je	.Lunix_path_BB31_30
	jmp	.Lunix_path_BB31_24
	.p2align	4
.Lunix_path_BB31_26:
	cmpq	$2, %r10
	ja	.Lunix_path_BB31_24
	cmpb	$46, (%rdi,%r9)
	jne	.Lunix_path_BB31_24
	cmpb	$46, 1(%rdi,%r9)
	je	.Lunix_path_BB31_29
	.p2align	4
.Lunix_path_BB31_24:
	testq	%rdx, %rdx
	je	.Lunix_path_BB31_31
	decq	%rdx
	jmp	.Lunix_path_BB31_30
	.p2align	4
.Lunix_path_BB31_31:
	incq	%rax
	addq	%r10, %rcx
	incq	%rcx
	testq	%r9, %r9
	jne	.Lunix_path_BB31_13
	xorl	%edx, %edx
.Lunix_path_BB31_33:
	testq	%rbx, %rbx
	je	.Lunix_path_BB31_35
	xorl	%r8d, %r8d
	cmpb	$47, (%rdi)
	cmoveq	%r8, %rdx
.Lunix_path_BB31_35:
	movq	%rdx, (%rsi)
	movq	%rax, 8(%rsi)
	movq	%rcx, 16(%rsi)
	addq	$32, %rsp
	popq	%rbx
	popq	%rdi
	popq	%rsi
	retq
.Lunix_path_BB31_4:
	movl	$1, %r8d
	jmp	.Lunix_path_BB31_12
	.def	path_within.backward.put_names_before;
	.scl	3;
	.type	32;
	.endef
	.section	.rdata,"dr"
	.p2align	4, 0x0
.Lunix_path_CPI32_0:
	.zero	16,47
	.text
	.p2align	4
# path_within::backward::put_names_before
path_within.backward.put_names_before:
	pushq	%r15
	pushq	%r14
	pushq	%r13
	pushq	%r12
	pushq	%rsi
	pushq	%rdi
	pushq	%rbp
	pushq	%rbx
	subq	$72, %rsp
	movq	%r8, %rsi
	movq	%rdx, %rbx
	movq	%rcx, %rdi
	movq	176(%rsp), %r15
	testq	%r9, %r9
	je	.Lunix_path_BB32_10
	movq	%r9, %r12
	movzbl	-1(%rsi,%r9), %eax
	andb	$-2, %al
	cmpb	$46, %al
	jne	.Lunix_path_BB32_11
	movq	%r12, %r14
	movq	%r12, %rax
	jmp	.Lunix_path_BB32_4
	.p2align	4
.Lunix_path_BB32_3:
	movq	%rax, %r14
	testq	%rax, %rax
	je	.Lunix_path_BB32_10
.Lunix_path_BB32_4:
	decq	%rax
	je	.Lunix_path_BB32_54
	movzbl	(%rsi,%rax), %ecx
	cmpl	$47, %ecx
	je	.Lunix_path_BB32_8
	cmpl	$46, %ecx
	jne	.Lunix_path_BB32_12
	cmpb	$47, -1(%rsi,%rax)
	jne	.Lunix_path_BB32_12
.Lunix_path_BB32_8:
	movq	%r12, %rcx
	subq	%rax, %rcx
	cmpq	$8, %rcx
	jne	.Lunix_path_BB32_3
	movq	%rsi, %rcx
	movq	%rax, %rdx
	callq	unix_path.filler.trimmed_blocks_len
	jmp	.Lunix_path_BB32_3
.Lunix_path_BB32_10:
	xorl	%r14d, %r14d
	testq	%r15, %r15
	jne	.Lunix_path_BB32_13
	jmp	.Lunix_path_BB32_55
.Lunix_path_BB32_11:
	movq	%r12, %r14
.Lunix_path_BB32_12:
	testq	%r15, %r15
	je	.Lunix_path_BB32_55
.Lunix_path_BB32_13:
	leaq	-1(%rdi), %r12
	leaq	15(%rdi), %r11
	xorl	%ebp, %ebp
.Lunix_path_BB32_14:
	testb	$1, %bpl
	jne	.Lunix_path_BB32_55
	xorl	%eax, %eax
	jmp	.Lunix_path_BB32_18
.Lunix_path_BB32_16:
	incq	%rax
	.p2align	4
.Lunix_path_BB32_17:
	testq	%r9, %r9
	je	.Lunix_path_BB32_55
.Lunix_path_BB32_18:
	movq	%r14, %rcx
	leaq	1(%r14), %rdx
	movq	%r14, %r9
	.p2align	4
.Lunix_path_BB32_19:
	cmpq	$15, %r9
	jbe	.Lunix_path_BB32_22
	movdqu	-16(%rsi,%r9), %xmm0
	pcmpeqb	.Lunix_path_CPI32_0(%rip), %xmm0
	addq	$-16, %r9
	pmovmskb	%xmm0, %r8d
	addq	$-16, %rdx
	testl	%r8d, %r8d
	je	.Lunix_path_BB32_19
	movzwl	%r8w, %edx
	bsrq	%rdx, %rdx
	xorq	$63, %rdx
	subq	%rdx, %r9
	addq	$64, %r9
	jmp	.Lunix_path_BB32_25
	.p2align	4
.Lunix_path_BB32_22:
	cmpq	$1, %rdx
	je	.Lunix_path_BB32_24
	leaq	-1(%rdx), %r9
	cmpb	$47, -2(%rsi,%rdx)
	movq	%r9, %rdx
	jne	.Lunix_path_BB32_22
	jmp	.Lunix_path_BB32_25
	.p2align	4
.Lunix_path_BB32_24:
	xorl	%r9d, %r9d
.Lunix_path_BB32_25:
	xorl	%edx, %edx
	testq	%r9, %r9
	setne	%dl
	sete	%bpl
	movq	%r9, %r14
	subq	%rdx, %r14
	movq	%rcx, %r8
	subq	%r9, %r8
	je	.Lunix_path_BB32_17
	leaq	(%rsi,%r9), %rdx
	cmpq	$1, %r8
	jne	.Lunix_path_BB32_28
	cmpb	$46, (%rdx)
	je	.Lunix_path_BB32_17
	jmp	.Lunix_path_BB32_31
	.p2align	4
.Lunix_path_BB32_28:
	cmpq	$2, %r8
	ja	.Lunix_path_BB32_31
	cmpb	$46, (%rdx)
	jne	.Lunix_path_BB32_31
	cmpb	$46, 1(%rdx)
	je	.Lunix_path_BB32_16
	.p2align	4
.Lunix_path_BB32_31:
	testq	%rax, %rax
	je	.Lunix_path_BB32_33
	decq	%rax
	jmp	.Lunix_path_BB32_17
	.p2align	4
.Lunix_path_BB32_33:
	movq	%r8, %rax
	notq	%rax
	addq	%rbx, %rax
	leaq	(%rdi,%rax), %r13
	movq	%r13, %r10
	subq	%rdx, %r10
	cmpq	%r8, %r10
	movq	%r13, 64(%rsp)
	jae	.Lunix_path_BB32_36
	cmpq	$4, %r8
	jb	.Lunix_path_BB32_35
	leaq	(%r12,%rbx), %rdx
	subq	%rcx, %rdx
	subq	%rsi, %rdx
	cmpq	$32, %rdx
	jae	.Lunix_path_BB32_39
.Lunix_path_BB32_35:
	xorl	%edx, %edx
.Lunix_path_BB32_48:
	addq	%r9, %rdx
	addq	%r12, %rbx
	subq	%rcx, %rbx
	.p2align	4
.Lunix_path_BB32_49:
	movzbl	(%rsi,%rdx), %r8d
	movb	%r8b, (%rbx,%rdx)
	incq	%rdx
	cmpq	%rdx, %rcx
	jne	.Lunix_path_BB32_49
	jmp	.Lunix_path_BB32_50
.Lunix_path_BB32_36:
	movq	%r13, %rcx
	movq	%rax, %rbx
	movq	%r15, 40(%rsp)
	movq	%r11, %r13
	callq	memmove
	movq	%r13, %r11
	movq	40(%rsp), %r15
	movq	%rbx, %rax
.Lunix_path_BB32_50:
	testq	%rax, %rax
	je	.Lunix_path_BB32_52
	movq	64(%rsp), %rcx
	movb	$47, -1(%rcx)
.Lunix_path_BB32_52:
	movq	%rax, %rbx
	decq	%r15
	jne	.Lunix_path_BB32_14
	jmp	.Lunix_path_BB32_56
.Lunix_path_BB32_39:
	cmpq	$32, %r8
	movq	%r12, 56(%rsp)
	movq	%r11, 48(%rsp)
	jae	.Lunix_path_BB32_41
	xorl	%edx, %edx
	jmp	.Lunix_path_BB32_45
.Lunix_path_BB32_41:
	leaq	16(%rsi), %r10
	movq	%r8, %rdx
	andq	$-32, %rdx
	addq	%r9, %r10
	leaq	(%r11,%rbx), %r12
	movq	%r9, %r11
	subq	%rcx, %r11
	addq	%r12, %r11
	xorl	%r12d, %r12d
	.p2align	4
.Lunix_path_BB32_42:
	movdqu	-16(%r10,%r12), %xmm0
	movups	(%r10,%r12), %xmm1
	movdqu	%xmm0, -16(%r11,%r12)
	movups	%xmm1, (%r11,%r12)
	addq	$32, %r12
	cmpq	%r12, %rdx
	jne	.Lunix_path_BB32_42
	cmpq	%rdx, %r8
	movq	56(%rsp), %r12
	movq	48(%rsp), %r11
	je	.Lunix_path_BB32_50
	testb	$28, %r8b
	je	.Lunix_path_BB32_48
.Lunix_path_BB32_45:
	movq	%rdi, 40(%rsp)
	movq	%rdx, %r13
	movq	%r8, %rdx
	andq	$-4, %rdx
	movq	%rdx, %r10
	subq	%r13, %r10
	leaq	(%rsi,%r13), %r11
	addq	%r9, %r11
	addq	%rbx, %r13
	addq	%r12, %r13
	movq	%r9, %r12
	subq	%rcx, %r12
	addq	%r13, %r12
	xorl	%r13d, %r13d
	.p2align	4
.Lunix_path_BB32_46:
	movl	(%r11,%r13), %edi
	movl	%edi, (%r12,%r13)
	addq	$4, %r13
	cmpq	%r13, %r10
	jne	.Lunix_path_BB32_46
	cmpq	%rdx, %r8
	movq	40(%rsp), %rdi
	movq	56(%rsp), %r12
	movq	48(%rsp), %r11
	je	.Lunix_path_BB32_50
	jmp	.Lunix_path_BB32_48
.Lunix_path_BB32_54:
	movl	$1, %r14d
	testq	%r15, %r15
	jne	.Lunix_path_BB32_13
.Lunix_path_BB32_55:
	movq	%rbx, %rax
.Lunix_path_BB32_56:
	addq	$72, %rsp
	popq	%rbx
	popq	%rbp
	popq	%rdi
	popq	%rsi
	popq	%r12
	popq	%r13
	popq	%r14
	popq	%r15
	retq
	.def	path_within.normal.is_resolved;
	.scl	3;
	.type	32;
	.endef
	.section	.rdata,"dr"
	.p2align	4, 0x0
.Lunix_path_CPI33_0:
	.zero	16,46
.Lunix_path_CPI33_1:
	.zero	16,47
	.text
	.p2align	4
# path_within::normal::is_resolved
path_within.normal.is_resolved:
	pushq	%r14
	pushq	%rsi
	pushq	%rdi
	pushq	%rbp
	pushq	%rbx
	subq	$128, %rsp
	movq	%rdx, %rsi
	movq	%rcx, %rdi
	testq	%rdx, %rdx
	je	.Lunix_path_BB33_9
	movq	%rsi, %rcx
	movq	%rsi, %rax
	jmp	.Lunix_path_BB33_3
	.p2align	4
.Lunix_path_BB33_2:
	movq	%rax, %rcx
	testq	%rax, %rax
	je	.Lunix_path_BB33_9
.Lunix_path_BB33_3:
	decq	%rax
	je	.Lunix_path_BB33_12
	movzbl	(%rdi,%rax), %edx
	cmpl	$47, %edx
	je	.Lunix_path_BB33_7
	cmpl	$46, %edx
	jne	.Lunix_path_BB33_10
	cmpb	$47, -1(%rdi,%rax)
	jne	.Lunix_path_BB33_10
.Lunix_path_BB33_7:
	movq	%rsi, %rcx
	subq	%rax, %rcx
	cmpq	$8, %rcx
	jne	.Lunix_path_BB33_2
	movq	%rdi, %rcx
	movq	%rax, %rdx
	callq	unix_path.filler.trimmed_blocks_len
	jmp	.Lunix_path_BB33_2
.Lunix_path_BB33_9:
	xorl	%ecx, %ecx
.Lunix_path_BB33_10:
	cmpq	%rsi, %rcx
	jae	.Lunix_path_BB33_13
.Lunix_path_BB33_11:
	xorl	%eax, %eax
	jmp	.Lunix_path_BB33_114
.Lunix_path_BB33_12:
	movl	$1, %ecx
	cmpq	%rsi, %rcx
	jb	.Lunix_path_BB33_11
.Lunix_path_BB33_13:
	cmpq	$2, %rcx
	jb	.Lunix_path_BB33_31
	cmpq	$18, %rcx
	jae	.Lunix_path_BB33_16
	xorl	%edx, %edx
	cmpq	%rcx, %rdx
	jb	.Lunix_path_BB33_22
	jmp	.Lunix_path_BB33_30
.Lunix_path_BB33_16:
	movq	%rcx, %rax
	addq	$-18, %rax
	je	.Lunix_path_BB33_20
	xorl	%r8d, %r8d
	.p2align	4
.Lunix_path_BB33_18:
	movdqu	(%rdi,%r8), %xmm0
	movdqu	1(%rdi,%r8), %xmm1
	movdqu	2(%rdi,%r8), %xmm2
	movdqa	.Lunix_path_CPI33_0(%rip), %xmm3
	pcmpeqb	%xmm1, %xmm3
	movdqa	.Lunix_path_CPI33_1(%rip), %xmm4
	pcmpeqb	%xmm4, %xmm2
	pand	%xmm3, %xmm2
	pcmpeqb	%xmm4, %xmm0
	pcmpeqb	%xmm4, %xmm1
	por	%xmm2, %xmm1
	pand	%xmm0, %xmm1
	pmovmskb	%xmm1, %edx
	orl	$65536, %edx
	rep		bsfl	%edx, %edx
	cmpw	$15, %dx
	jbe	.Lunix_path_BB33_21
	addq	$16, %r8
	cmpq	%rax, %r8
	jb	.Lunix_path_BB33_18
.Lunix_path_BB33_20:
	movdqu	(%rdi,%rax), %xmm0
	movdqu	1(%rdi,%rax), %xmm1
	movdqu	2(%rdi,%rax), %xmm2
	movdqa	.Lunix_path_CPI33_0(%rip), %xmm3
	pcmpeqb	%xmm1, %xmm3
	movdqa	.Lunix_path_CPI33_1(%rip), %xmm4
	pcmpeqb	%xmm4, %xmm2
	pand	%xmm3, %xmm2
	pcmpeqb	%xmm4, %xmm0
	pcmpeqb	%xmm4, %xmm1
	por	%xmm2, %xmm1
	pand	%xmm0, %xmm1
	pmovmskb	%xmm1, %edx
	orl	$65536, %edx
	rep		bsfl	%edx, %edx
	addq	%rax, %rdx
	cmpq	%rcx, %rdx
	jb	.Lunix_path_BB33_22
	jmp	.Lunix_path_BB33_30
.Lunix_path_BB33_21:
	movzwl	%dx, %edx
	addq	%r8, %rdx
	cmpq	%rcx, %rdx
	jae	.Lunix_path_BB33_30
.Lunix_path_BB33_22:
	leaq	-2(%rcx), %rax
	leaq	-1(%rcx), %r8
	jmp	.Lunix_path_BB33_25
	.p2align	4
.Lunix_path_BB33_23:
	cmpl	$47, %r9d
	je	.Lunix_path_BB33_30
.Lunix_path_BB33_24:
	incq	%rdx
	cmpq	%rdx, %rcx
	je	.Lunix_path_BB33_31
.Lunix_path_BB33_25:
	cmpb	$47, (%rdi,%rdx)
	jne	.Lunix_path_BB33_24
	cmpq	%rdx, %r8
	je	.Lunix_path_BB33_30
	movzbl	1(%rdi,%rdx), %r9d
	cmpl	$46, %r9d
	jne	.Lunix_path_BB33_23
	cmpq	%rdx, %rax
	je	.Lunix_path_BB33_30
	cmpb	$47, 2(%rdi,%rdx)
	jne	.Lunix_path_BB33_24
.Lunix_path_BB33_30:
	cmpq	%rcx, %rdx
	jne	.Lunix_path_BB33_11
.Lunix_path_BB33_31:
	testq	%rsi, %rsi
	je	.Lunix_path_BB33_46
	movzbl	(%rdi), %ebp
	movb	$1, %bl
	cmpl	$47, %ebp
	je	.Lunix_path_BB33_38
	cmpl	$46, %ebp
	jne	.Lunix_path_BB33_37
	cmpq	$1, %rsi
	je	.Lunix_path_BB33_38
	cmpb	$47, 1(%rdi)
	sete	%bl
	jmp	.Lunix_path_BB33_38
.Lunix_path_BB33_37:
	xorl	%ebx, %ebx
.Lunix_path_BB33_38:
	movq	%rsi, %rcx
	movq	%rsi, %rax
	jmp	.Lunix_path_BB33_40
	.p2align	4
.Lunix_path_BB33_39:
	movq	%rax, %rcx
	testq	%rax, %rax
	je	.Lunix_path_BB33_46
.Lunix_path_BB33_40:
	decq	%rax
	je	.Lunix_path_BB33_47
	movzbl	(%rdi,%rax), %edx
	cmpl	$47, %edx
	je	.Lunix_path_BB33_44
	cmpl	$46, %edx
	jne	.Lunix_path_BB33_49
	cmpb	$47, -1(%rdi,%rax)
	jne	.Lunix_path_BB33_49
.Lunix_path_BB33_44:
	movq	%rsi, %rcx
	subq	%rax, %rcx
	cmpq	$8, %rcx
	jne	.Lunix_path_BB33_39
	movq	%rdi, %rcx
	movq	%rax, %rdx
	callq	unix_path.filler.trimmed_blocks_len
	jmp	.Lunix_path_BB33_39
.Lunix_path_BB33_46:
	movb	$1, %al
	jmp	.Lunix_path_BB33_114
.Lunix_path_BB33_47:
	movw	$0, 36(%rsp)
	movl	$0, 32(%rsp)
	movl	$1, %edx
	testb	%bl, %bl
	je	.Lunix_path_BB33_72
	movb	$1, %r10b
	cmpb	$47, %bpl
	jne	.Lunix_path_BB33_73
	jmp	.Lunix_path_BB33_65
.Lunix_path_BB33_49:
	movw	$0, 36(%rsp)
	movl	$0, 32(%rsp)
	testb	%bl, %bl
	je	.Lunix_path_BB33_56
	leaq	-1(%rcx), %r8
	leaq	-2(%rcx), %r9
	xorl	%edx, %edx
	jmp	.Lunix_path_BB33_52
	.p2align	4
.Lunix_path_BB33_51:
	incq	%rdx
	cmpq	%rdx, %r8
	je	.Lunix_path_BB33_62
.Lunix_path_BB33_52:
	movzbl	1(%rdi,%rdx), %r10d
	cmpl	$47, %r10d
	je	.Lunix_path_BB33_51
	cmpl	$46, %r10d
	jne	.Lunix_path_BB33_63
	cmpq	%rdx, %r9
	je	.Lunix_path_BB33_62
	cmpb	$47, 2(%rdi,%rdx)
	je	.Lunix_path_BB33_51
	jmp	.Lunix_path_BB33_63
.Lunix_path_BB33_56:
	cmpb	$46, %bpl
	jne	.Lunix_path_BB33_60
	cmpb	$46, 1(%rdi)
	jne	.Lunix_path_BB33_60
	cmpq	$2, %rcx
	jne	.Lunix_path_BB33_66
	movw	$0, 44(%rsp)
	movl	$0, 40(%rsp)
	xorl	%r10d, %r10d
	jmp	.Lunix_path_BB33_74
.Lunix_path_BB33_60:
	cmpq	$16, %rcx
	jb	.Lunix_path_BB33_72
.Lunix_path_BB33_68:
	movq	%rcx, %rax
	addq	$-16, %rax
	je	.Lunix_path_BB33_72
	movl	$16, %edx
	.p2align	4
.Lunix_path_BB33_70:
	movdqu	-16(%rdi,%rdx), %xmm0
	pcmpeqb	.Lunix_path_CPI33_1(%rip), %xmm0
	pmovmskb	%xmm0, %r8d
	xorl	%r10d, %r10d
	testl	%r8d, %r8d
	jne	.Lunix_path_BB33_73
	cmpq	%rax, %rdx
	leaq	16(%rdx), %rdx
	jb	.Lunix_path_BB33_70
	jmp	.Lunix_path_BB33_73
.Lunix_path_BB33_62:
	movq	%rax, %rdx
.Lunix_path_BB33_63:
	incq	%rdx
	movb	$1, %r10b
	cmpb	$47, %bpl
	jne	.Lunix_path_BB33_73
.Lunix_path_BB33_65:
	movq	%rdi, 88(%rsp)
	movq	%rsi, 96(%rsp)
	movq	%rdx, 104(%rsp)
	movq	%rcx, 112(%rsp)
	movw	$1, 120(%rsp)
	movl	32(%rsp), %eax
	movl	%eax, 122(%rsp)
	movzwl	36(%rsp), %eax
	movw	%ax, 126(%rsp)
	leaq	88(%rsp), %rcx
	jmp	.Lunix_path_BB33_113
.Lunix_path_BB33_66:
	cmpb	$47, 2(%rdi)
	sete	%al
	cmpq	$16, %rcx
	setb	%dl
	orb	%al, %dl
	je	.Lunix_path_BB33_68
.Lunix_path_BB33_72:
	xorl	%r10d, %r10d
.Lunix_path_BB33_73:
	movzwl	36(%rsp), %eax
	movw	%ax, 44(%rsp)
	movl	32(%rsp), %eax
	movl	%eax, 40(%rsp)
.Lunix_path_BB33_74:
	leaq	3(%rdi), %r9
	xorl	%edx, %edx
	movq	%rcx, %r8
	jmp	.Lunix_path_BB33_77
	.p2align	4
.Lunix_path_BB33_75:
	xorl	%r10d, %r10d
.Lunix_path_BB33_76:
	addq	%r10, %rdx
	addq	$2, %rdx
	xorl	%r10d, %r10d
	movq	%rcx, %r8
	subq	%rdx, %r8
	je	.Lunix_path_BB33_96
.Lunix_path_BB33_77:
	movl	%r10d, %eax
	testb	$1, %r10b
	jne	.Lunix_path_BB33_96
	leaq	(%rdi,%rdx), %r10
	cmpq	$1, %r8
	je	.Lunix_path_BB33_91
	cmpb	$46, (%r10)
	jne	.Lunix_path_BB33_91
	cmpb	$46, 1(%r10)
	jne	.Lunix_path_BB33_91
	cmpq	$2, %r8
	je	.Lunix_path_BB33_75
	cmpb	$47, 2(%r10)
	jne	.Lunix_path_BB33_91
	leaq	-2(%r8), %r11
	leaq	(%r9,%rdx), %r14
	addq	$-3, %r8
	xorl	%r10d, %r10d
	jmp	.Lunix_path_BB33_85
	.p2align	4
.Lunix_path_BB33_84:
	incq	%r10
	cmpq	%r10, %r11
	je	.Lunix_path_BB33_90
.Lunix_path_BB33_85:
	movzbl	-1(%r14,%r10), %ebp
	cmpl	$47, %ebp
	je	.Lunix_path_BB33_84
	cmpl	$46, %ebp
	jne	.Lunix_path_BB33_76
	cmpq	%r10, %r8
	je	.Lunix_path_BB33_90
	cmpb	$47, (%r14,%r10)
	je	.Lunix_path_BB33_84
	jmp	.Lunix_path_BB33_76
	.p2align	4
.Lunix_path_BB33_90:
	movq	%r11, %r10
	jmp	.Lunix_path_BB33_76
.Lunix_path_BB33_91:
	cmpq	$15, %r8
	ja	.Lunix_path_BB33_97
	xorl	%eax, %eax
	.p2align	4
.Lunix_path_BB33_93:
	cmpb	$47, (%r10,%rax)
	je	.Lunix_path_BB33_102
	incq	%rax
	cmpq	%rax, %r8
	jne	.Lunix_path_BB33_93
	movq	%r8, %rax
	subq	%rax, %r8
	jne	.Lunix_path_BB33_103
.Lunix_path_BB33_111:
	xorl	%r9d, %r9d
	jmp	.Lunix_path_BB33_112
.Lunix_path_BB33_96:
	xorb	$1, %al
	jmp	.Lunix_path_BB33_114
.Lunix_path_BB33_97:
	movq	%r8, %r9
	addq	$-16, %r9
	je	.Lunix_path_BB33_101
	xorl	%r11d, %r11d
	.p2align	4
.Lunix_path_BB33_99:
	movdqu	(%r10,%r11), %xmm0
	pcmpeqb	.Lunix_path_CPI33_1(%rip), %xmm0
	pmovmskb	%xmm0, %eax
	orl	$65536, %eax
	rep		bsfl	%eax, %eax
	cmpw	$15, %ax
	jbe	.Lunix_path_BB33_110
	addq	$16, %r11
	cmpq	%r9, %r11
	jb	.Lunix_path_BB33_99
.Lunix_path_BB33_101:
	movdqu	(%r10,%r9), %xmm0
	pcmpeqb	.Lunix_path_CPI33_1(%rip), %xmm0
	pmovmskb	%xmm0, %eax
	orl	$65536, %eax
	rep		bsfl	%eax, %eax
	addq	%r9, %rax
.Lunix_path_BB33_102:
	subq	%rax, %r8
	je	.Lunix_path_BB33_111
.Lunix_path_BB33_103:
	leaq	(%rax,%rdi), %r9
	leaq	(%rdx,%r9), %r10
	incq	%r10
	leaq	-1(%r8), %r11
	xorl	%r9d, %r9d
	jmp	.Lunix_path_BB33_105
	.p2align	4
.Lunix_path_BB33_104:
	incq	%r9
	cmpq	%r9, %r8
	je	.Lunix_path_BB33_109
.Lunix_path_BB33_105:
	movzbl	-1(%r10,%r9), %ebp
	cmpl	$47, %ebp
	je	.Lunix_path_BB33_104
	cmpl	$46, %ebp
	jne	.Lunix_path_BB33_112
	cmpq	%r9, %r11
	je	.Lunix_path_BB33_109
	cmpb	$47, (%r10,%r9)
	je	.Lunix_path_BB33_104
	jmp	.Lunix_path_BB33_112
.Lunix_path_BB33_109:
	movq	%r8, %r9
.Lunix_path_BB33_112:
	addq	%rdx, %rax
	addq	%r9, %rax
	movq	%rdi, 48(%rsp)
	movq	%rsi, 56(%rsp)
	movq	%rax, 64(%rsp)
	movq	%rcx, 72(%rsp)
	movb	%bl, 80(%rsp)
	movb	$0, 81(%rsp)
	movl	40(%rsp), %eax
	movl	%eax, 82(%rsp)
	movzwl	44(%rsp), %eax
	movw	%ax, 86(%rsp)
	leaq	48(%rsp), %rcx
.Lunix_path_BB33_113:
	callq	path_within.normal.are_names
.Lunix_path_BB33_114:
	andb	$1, %al
	addq	$128, %rsp
	popq	%rbx
	popq	%rbp
	popq	%rdi
	popq	%rsi
	popq	%r14
	retq
.Lunix_path_BB33_110:
	movzwl	%ax, %eax
	addq	%r11, %rax
	subq	%rax, %r8
	jne	.Lunix_path_BB33_103
	jmp	.Lunix_path_BB33_111
	.def	path_within.normal.are_names;
	.scl	3;
	.type	32;
	.endef
	.section	.rdata,"dr"
	.p2align	4, 0x0
.Lunix_path_CPI34_0:
	.zero	16,208
.Lunix_path_CPI34_1:
	.zero	16,47
.Lunix_path_CPI34_2:
	.zero	16,46
.Lunix_path_CPI34_3:
	.byte	254
	.byte	254
	.byte	254
	.byte	254
	.byte	254
	.byte	254
	.byte	254
	.byte	254
	.zero	1
	.zero	1
	.zero	1
	.zero	1
	.zero	1
	.zero	1
	.zero	1
	.zero	1
.Lunix_path_CPI34_4:
	.byte	46
	.byte	46
	.byte	46
	.byte	46
	.byte	46
	.byte	46
	.byte	46
	.byte	46
	.zero	1
	.zero	1
	.zero	1
	.zero	1
	.zero	1
	.zero	1
	.zero	1
	.zero	1
.Lunix_path_CPI34_5:
	.byte	47
	.byte	47
	.byte	47
	.byte	47
	.byte	47
	.byte	47
	.byte	47
	.byte	47
	.zero	1
	.zero	1
	.zero	1
	.zero	1
	.zero	1
	.zero	1
	.zero	1
	.zero	1
	.text
	.p2align	4
# path_within::normal::are_names
path_within.normal.are_names:
	pushq	%r15
	pushq	%r14
	pushq	%r12
	pushq	%rsi
	pushq	%rdi
	pushq	%rbp
	pushq	%rbx
	subq	$16, %rsp
	movdqa	%xmm6, (%rsp)
	movq	16(%rcx), %r9
	movq	24(%rcx), %rdx
	movq	%rdx, %r10
	movb	$1, %al
	subq	%r9, %r10
	je	.Lunix_path_BB34_81
	movq	(%rcx), %r8
	leaq	(%r8,%r9), %r11
	xorl	%edi, %edi
	cmpb	$47, (%r11)
	movzbl	33(%rcx), %ecx
	sete	%dil
	movq	%r10, %rsi
	subq	%rdi, %rsi
	je	.Lunix_path_BB34_52
	leaq	(%r11,%rdi), %rbx
	movzbl	(%rbx), %ebp
	cmpl	$47, %ebp
	je	.Lunix_path_BB34_52
	cmpl	$46, %ebp
	jne	.Lunix_path_BB34_9
	cmpq	$2, %rsi
	jb	.Lunix_path_BB34_52
	movzbl	1(%rbx), %ebp
	cmpl	$47, %ebp
	je	.Lunix_path_BB34_52
	cmpl	$46, %ebp
	jne	.Lunix_path_BB34_9
	cmpq	$2, %rsi
	je	.Lunix_path_BB34_52
	cmpb	$47, 2(%rbx)
	je	.Lunix_path_BB34_52
.Lunix_path_BB34_9:
	movzbl	-1(%r8,%rdx), %ebp
	andb	$-2, %bpl
	cmpb	$46, %bpl
	je	.Lunix_path_BB34_52
	cmpq	$17, %rsi
	jae	.Lunix_path_BB34_13
.Lunix_path_BB34_11:
	cmpq	$9, %rsi
	jae	.Lunix_path_BB34_21
	xorl	%r14d, %r14d
	jmp	.Lunix_path_BB34_37
.Lunix_path_BB34_13:
	cmpq	$32, %rsi
	ja	.Lunix_path_BB34_23
	movdqu	(%rbx), %xmm0
	movdqu	1(%rbx), %xmm1
	pand	.Lunix_path_CPI34_0(%rip), %xmm1
	por	%xmm0, %xmm1
	pcmpeqb	.Lunix_path_CPI34_1(%rip), %xmm1
	pmovmskb	%xmm1, %ebp
	testl	%ebp, %ebp
	jne	.Lunix_path_BB34_16
	movdqu	-17(%r8,%rdx), %xmm0
	movdqu	-16(%r8,%rdx), %xmm1
	pand	.Lunix_path_CPI34_0(%rip), %xmm1
	por	%xmm0, %xmm1
	pcmpeqb	.Lunix_path_CPI34_1(%rip), %xmm1
	pmovmskb	%xmm1, %ebp
	testl	%ebp, %ebp
	je	.Lunix_path_BB34_50
.Lunix_path_BB34_16:
	cmpq	$18, %rsi
	jbe	.Lunix_path_BB34_11
	movq	%rsi, %r15
	addq	$-19, %r15
	jne	.Lunix_path_BB34_25
	xorl	%r15d, %r15d
	xorl	%r14d, %r14d
.Lunix_path_BB34_19:
	leaq	-17(%rsi), %r12
	cmpq	%r14, %r12
	cmovbq	%r12, %r14
	movdqu	(%rbx,%r14), %xmm0
	movdqu	1(%rbx,%r14), %xmm1
	pand	.Lunix_path_CPI34_0(%rip), %xmm1
	por	%xmm0, %xmm1
	pcmpeqb	.Lunix_path_CPI34_1(%rip), %xmm1
	pmovmskb	%xmm1, %ebp
	testl	%ebp, %ebp
	je	.Lunix_path_BB34_36
	movdqu	(%rbx,%r15), %xmm0
	movdqu	1(%rbx,%r15), %xmm1
	movdqu	2(%rbx,%r15), %xmm2
	movdqu	3(%rbx,%r15), %xmm3
	movdqa	.Lunix_path_CPI34_2(%rip), %xmm4
	movdqa	%xmm2, %xmm5
	pcmpeqb	%xmm4, %xmm5
	movdqa	.Lunix_path_CPI34_1(%rip), %xmm6
	pcmpeqb	%xmm6, %xmm3
	pand	%xmm5, %xmm3
	pcmpeqb	%xmm1, %xmm4
	pcmpeqb	%xmm6, %xmm2
	por	%xmm3, %xmm2
	pand	%xmm4, %xmm2
	pcmpeqb	%xmm6, %xmm0
	pcmpeqb	%xmm6, %xmm1
	por	%xmm2, %xmm1
	pand	%xmm0, %xmm1
	pmovmskb	%xmm1, %ebx
	orl	$65536, %ebx
	rep		bsfl	%ebx, %r14d
	addq	%r15, %r14
	jmp	.Lunix_path_BB34_37
.Lunix_path_BB34_21:
	movq	1(%rbx), %xmm0
	pand	.Lunix_path_CPI34_3(%rip), %xmm0
	pcmpeqb	.Lunix_path_CPI34_4(%rip), %xmm0
	movq	(%rbx), %xmm1
	pcmpeqb	.Lunix_path_CPI34_5(%rip), %xmm1
	pand	%xmm0, %xmm1
	pmovmskb	%xmm1, %ebp
	orl	$256, %ebp
	rep		bsfl	%ebp, %r14d
	cmpb	$8, %r14b
	jb	.Lunix_path_BB34_37
	cmpq	$17, %rsi
	movl	$17, %r14d
	cmovbq	%rsi, %r14
	movq	-8(%rbx,%r14), %xmm0
	pand	.Lunix_path_CPI34_3(%rip), %xmm0
	pcmpeqb	.Lunix_path_CPI34_4(%rip), %xmm0
	movq	-9(%rbx,%r14), %xmm1
	pcmpeqb	.Lunix_path_CPI34_5(%rip), %xmm1
	pand	%xmm0, %xmm1
	pmovmskb	%xmm1, %ebx
	orl	$256, %ebx
	rep		bsfl	%ebx, %ebx
	addq	%rbx, %r14
	addq	$-9, %r14
	jmp	.Lunix_path_BB34_37
.Lunix_path_BB34_23:
	movdqu	-33(%rbx,%rsi), %xmm1
	movdqu	-32(%rbx,%rsi), %xmm2
	movdqa	.Lunix_path_CPI34_0(%rip), %xmm0
	pand	%xmm0, %xmm2
	por	%xmm1, %xmm2
	movdqa	.Lunix_path_CPI34_1(%rip), %xmm1
	pcmpeqb	%xmm1, %xmm2
	movdqu	-17(%r8,%rdx), %xmm3
	movdqu	-16(%r8,%rdx), %xmm4
	pand	%xmm0, %xmm4
	por	%xmm3, %xmm4
	pcmpeqb	%xmm1, %xmm4
	por	%xmm2, %xmm4
	pmovmskb	%xmm4, %ebp
	testl	%ebp, %ebp
	je	.Lunix_path_BB34_32
	leaq	-19(%rsi), %r15
.Lunix_path_BB34_25:
	xorl	%r14d, %r14d
	jmp	.Lunix_path_BB34_29
	.p2align	4
.Lunix_path_BB34_26:
	movdqu	2(%rbx,%r14), %xmm2
	movdqu	3(%rbx,%r14), %xmm3
	movdqa	.Lunix_path_CPI34_2(%rip), %xmm4
	movdqa	%xmm2, %xmm5
	pcmpeqb	%xmm4, %xmm5
	movdqa	.Lunix_path_CPI34_1(%rip), %xmm6
	pcmpeqb	%xmm6, %xmm3
	pand	%xmm5, %xmm3
	pcmpeqb	%xmm1, %xmm4
	pcmpeqb	%xmm6, %xmm2
	por	%xmm3, %xmm2
	pand	%xmm4, %xmm2
	pcmpeqb	%xmm6, %xmm0
	pcmpeqb	%xmm6, %xmm1
	por	%xmm2, %xmm1
	pand	%xmm0, %xmm1
	pmovmskb	%xmm1, %ebp
	orl	$65536, %ebp
	rep		bsfl	%ebp, %ebp
	cmpw	$15, %bp
	jbe	.Lunix_path_BB34_31
	addq	$16, %r14
.Lunix_path_BB34_28:
	cmpq	%r15, %r14
	jae	.Lunix_path_BB34_19
.Lunix_path_BB34_29:
	movdqu	(%rbx,%r14), %xmm0
	movdqu	1(%rbx,%r14), %xmm1
	movdqa	.Lunix_path_CPI34_0(%rip), %xmm2
	pand	%xmm1, %xmm2
	por	%xmm0, %xmm2
	pcmpeqb	.Lunix_path_CPI34_1(%rip), %xmm2
	pmovmskb	%xmm2, %ebp
	testl	%ebp, %ebp
	jne	.Lunix_path_BB34_26
	addq	$16, %r14
	cmpq	%r15, %r14
	jb	.Lunix_path_BB34_29
	jmp	.Lunix_path_BB34_28
.Lunix_path_BB34_31:
	movzwl	%bp, %ebx
	addq	%rbx, %r14
	jmp	.Lunix_path_BB34_37
.Lunix_path_BB34_32:
	movq	%rsi, %r14
	addq	$-33, %r14
	je	.Lunix_path_BB34_50
	leaq	(%r9,%rdi), %r15
	addq	%r8, %r15
	addq	$17, %r15
	xorl	%r12d, %r12d
.Lunix_path_BB34_34:
	movdqu	-17(%r15,%r12), %xmm2
	movdqu	-16(%r15,%r12), %xmm3
	movdqu	-1(%r15,%r12), %xmm4
	movdqu	(%r15,%r12), %xmm5
	pand	%xmm0, %xmm3
	por	%xmm2, %xmm3
	pcmpeqb	%xmm1, %xmm3
	pand	%xmm0, %xmm5
	por	%xmm4, %xmm5
	pcmpeqb	%xmm1, %xmm5
	por	%xmm3, %xmm5
	pmovmskb	%xmm5, %ebp
	testl	%ebp, %ebp
	jne	.Lunix_path_BB34_16
	addq	$32, %r12
	cmpq	%r14, %r12
	jb	.Lunix_path_BB34_34
	jmp	.Lunix_path_BB34_50
.Lunix_path_BB34_36:
	addq	$16, %r14
.Lunix_path_BB34_37:
	cmpq	%rsi, %r14
	jae	.Lunix_path_BB34_48
	addq	%r9, %rdi
	movq	%rdx, %rbx
	subq	%rdi, %rbx
	leaq	(%r8,%rdi), %r15
	addq	$3, %r15
	jmp	.Lunix_path_BB34_41
.Lunix_path_BB34_39:
	cmpl	$47, %ebp
	je	.Lunix_path_BB34_49
.Lunix_path_BB34_40:
	cmpq	%rsi, %r14
	jae	.Lunix_path_BB34_51
.Lunix_path_BB34_41:
	movq	%r14, %rdi
	incq	%r14
	cmpb	$47, -3(%r15,%rdi)
	jne	.Lunix_path_BB34_40
	cmpq	%r14, %rsi
	jbe	.Lunix_path_BB34_49
	movzbl	-2(%r15,%rdi), %ebp
	cmpl	$46, %ebp
	jne	.Lunix_path_BB34_39
	leaq	2(%rdi), %r12
	cmpq	%r12, %rsi
	jbe	.Lunix_path_BB34_49
	movzbl	-1(%r15,%rdi), %ebp
	cmpl	$46, %ebp
	jne	.Lunix_path_BB34_39
	leaq	3(%rdi), %r12
	cmpq	%r12, %rsi
	jbe	.Lunix_path_BB34_49
	cmpb	$47, (%r15,%rdi)
	jne	.Lunix_path_BB34_40
	jmp	.Lunix_path_BB34_49
.Lunix_path_BB34_48:
	movq	%r14, %rdi
.Lunix_path_BB34_49:
	cmpq	%rsi, %rdi
	jne	.Lunix_path_BB34_52
.Lunix_path_BB34_50:
	cmpb	$47, (%r11)
	setne	%al
	jmp	.Lunix_path_BB34_81
.Lunix_path_BB34_51:
	movq	%rbx, %rdi
	cmpq	%rsi, %rdi
	je	.Lunix_path_BB34_50
.Lunix_path_BB34_52:
	leaq	1(%r8), %r11
	jmp	.Lunix_path_BB34_55
	.p2align	4
.Lunix_path_BB34_53:
	xorl	%ecx, %ecx
.Lunix_path_BB34_54:
	addq	%r9, %rsi
	addq	%rcx, %rsi
	xorl	%ecx, %ecx
	movq	%rdx, %r10
	movq	%rsi, %r9
	subq	%rsi, %r10
	je	.Lunix_path_BB34_81
.Lunix_path_BB34_55:
	testb	$1, %cl
	jne	.Lunix_path_BB34_80
	leaq	(%r8,%r9), %rcx
	cmpq	$1, %r10
	je	.Lunix_path_BB34_61
	cmpb	$46, (%rcx)
	jne	.Lunix_path_BB34_61
	cmpb	$46, 1(%rcx)
	jne	.Lunix_path_BB34_61
	cmpq	$2, %r10
	je	.Lunix_path_BB34_80
	cmpb	$47, 2(%rcx)
	je	.Lunix_path_BB34_80
.Lunix_path_BB34_61:
	cmpq	$15, %r10
	ja	.Lunix_path_BB34_66
	xorl	%esi, %esi
	.p2align	4
.Lunix_path_BB34_63:
	cmpb	$47, (%rcx,%rsi)
	je	.Lunix_path_BB34_71
	incq	%rsi
	cmpq	%rsi, %r10
	jne	.Lunix_path_BB34_63
	movq	%r10, %rsi
	subq	%rsi, %r10
	jne	.Lunix_path_BB34_72
	jmp	.Lunix_path_BB34_53
	.p2align	4
.Lunix_path_BB34_66:
	movq	%r10, %rdi
	addq	$-16, %rdi
	je	.Lunix_path_BB34_70
	xorl	%ebx, %ebx
	.p2align	4
.Lunix_path_BB34_68:
	movdqu	(%rcx,%rbx), %xmm0
	pcmpeqb	.Lunix_path_CPI34_1(%rip), %xmm0
	pmovmskb	%xmm0, %esi
	orl	$65536, %esi
	rep		bsfl	%esi, %esi
	cmpw	$15, %si
	jbe	.Lunix_path_BB34_79
	addq	$16, %rbx
	cmpq	%rdi, %rbx
	jb	.Lunix_path_BB34_68
.Lunix_path_BB34_70:
	movdqu	(%rcx,%rdi), %xmm0
	pcmpeqb	.Lunix_path_CPI34_1(%rip), %xmm0
	pmovmskb	%xmm0, %ecx
	orl	$65536, %ecx
	rep		bsfl	%ecx, %esi
	addq	%rdi, %rsi
.Lunix_path_BB34_71:
	subq	%rsi, %r10
	je	.Lunix_path_BB34_53
.Lunix_path_BB34_72:
	leaq	(%rsi,%r9), %rdi
	addq	%r11, %rdi
	leaq	-1(%r10), %rbx
	xorl	%ecx, %ecx
	jmp	.Lunix_path_BB34_74
	.p2align	4
.Lunix_path_BB34_73:
	incq	%rcx
	cmpq	%rcx, %r10
	je	.Lunix_path_BB34_78
.Lunix_path_BB34_74:
	movzbl	-1(%rdi,%rcx), %ebp
	cmpl	$47, %ebp
	je	.Lunix_path_BB34_73
	cmpl	$46, %ebp
	jne	.Lunix_path_BB34_54
	cmpq	%rcx, %rbx
	je	.Lunix_path_BB34_78
	cmpb	$47, (%rdi,%rcx)
	je	.Lunix_path_BB34_73
	jmp	.Lunix_path_BB34_54
	.p2align	4
.Lunix_path_BB34_78:
	movq	%r10, %rcx
	jmp	.Lunix_path_BB34_54
.Lunix_path_BB34_79:
	movzwl	%si, %esi
	addq	%rbx, %rsi
	subq	%rsi, %r10
	jne	.Lunix_path_BB34_72
	jmp	.Lunix_path_BB34_53
.Lunix_path_BB34_80:
	xorl	%eax, %eax
.Lunix_path_BB34_81:
	movaps	(%rsp), %xmm6
	addq	$16, %rsp
	popq	%rbx
	popq	%rbp
	popq	%rdi
	popq	%rsi
	popq	%r12
	popq	%r14
	popq	%r15
	retq
	.def	unix_path.stems.has_slash;
	.scl	3;
	.type	32;
	.endef
	.section	.rdata,"dr"
	.p2align	4, 0x0
.Lunix_path_CPI35_0:
	.zero	16,47
.Lunix_path_CPI35_1:
	.byte	47
	.byte	47
	.byte	47
	.byte	47
	.byte	47
	.byte	47
	.byte	47
	.byte	47
	.zero	1
	.zero	1
	.zero	1
	.zero	1
	.zero	1
	.zero	1
	.zero	1
	.zero	1
	.text
	.p2align	4
# unix_path::stems::has_slash
unix_path.stems.has_slash:
	cmpq	$3, %rdx
	ja	.Lunix_path_BB35_4
	testq	%rdx, %rdx
	je	.Lunix_path_BB35_2
	cmpb	$47, (%rcx)
	sete	%r8b
	movq	%rdx, %rax
	shrq	%rax
	cmpb	$47, (%rcx,%rax)
	sete	%r9b
	cmpb	$47, -1(%rcx,%rdx)
	sete	%al
	orb	%r8b, %al
	orb	%r9b, %al
	retq
.Lunix_path_BB35_4:
	cmpq	$8, %rdx
	ja	.Lunix_path_BB35_6
	movd	-4(%rcx,%rdx), %xmm0
	movd	(%rcx), %xmm1
	punpckldq	%xmm0, %xmm1
	pcmpeqb	.Lunix_path_CPI35_1(%rip), %xmm1
	pmovmskb	%xmm1, %eax
	testb	%al, %al
	jmp	.Lunix_path_BB35_21
.Lunix_path_BB35_6:
	cmpq	$32, %rdx
	ja	.Lunix_path_BB35_8
	leaq	-8(%rdx), %rax
	cmpq	$8, %rax
	movl	$8, %r8d
	cmovbq	%rax, %r8
	cmpq	$16, %rax
	movl	$16, %r9d
	cmovbq	%rax, %r9
	movq	(%rcx,%r8), %xmm0
	movq	(%rcx), %xmm1
	punpcklqdq	%xmm0, %xmm1
	movq	(%rcx,%r9), %xmm0
	movq	-8(%rcx,%rdx), %xmm2
	punpcklqdq	%xmm2, %xmm0
	movdqa	.Lunix_path_CPI35_0(%rip), %xmm2
	pcmpeqb	%xmm2, %xmm0
	pcmpeqb	%xmm2, %xmm1
	por	%xmm0, %xmm1
	jmp	.Lunix_path_BB35_20
.Lunix_path_BB35_2:
	xorl	%eax, %eax
	retq
.Lunix_path_BB35_8:
	cmpq	$65, %rdx
	jae	.Lunix_path_BB35_9
	movdqu	(%rcx), %xmm0
	movdqu	16(%rcx), %xmm1
	movdqu	-32(%rcx,%rdx), %xmm2
	movdqu	-16(%rcx,%rdx), %xmm3
	movdqa	.Lunix_path_CPI35_0(%rip), %xmm4
	pcmpeqb	%xmm4, %xmm2
	pcmpeqb	%xmm4, %xmm0
	por	%xmm2, %xmm0
	pcmpeqb	%xmm4, %xmm3
	pcmpeqb	%xmm4, %xmm1
	por	%xmm3, %xmm1
	por	%xmm0, %xmm1
	jmp	.Lunix_path_BB35_20
.Lunix_path_BB35_9:
	xorl	%eax, %eax
	movq	%rdx, %r8
	.p2align	4
.Lunix_path_BB35_10:
	movdqu	(%rcx,%rax), %xmm1
	movdqu	16(%rcx,%rax), %xmm2
	movdqu	32(%rcx,%rax), %xmm3
	movdqu	48(%rcx,%rax), %xmm4
	movdqa	.Lunix_path_CPI35_0(%rip), %xmm0
	pcmpeqb	%xmm0, %xmm3
	pcmpeqb	%xmm0, %xmm1
	por	%xmm3, %xmm1
	pcmpeqb	%xmm0, %xmm4
	pcmpeqb	%xmm0, %xmm2
	por	%xmm4, %xmm2
	por	%xmm1, %xmm2
	pmovmskb	%xmm2, %r9d
	testl	%r9d, %r9d
	jne	.Lunix_path_BB35_12
	addq	$64, %rax
	addq	$-64, %r8
	cmpq	$63, %r8
	ja	.Lunix_path_BB35_10
.Lunix_path_BB35_12:
	cmpq	$32, %r8
	jb	.Lunix_path_BB35_19
	movq	%rdx, %r8
	subq	%rax, %r8
	addq	%rcx, %rax
	.p2align	4
.Lunix_path_BB35_14:
	movdqu	(%rax), %xmm1
	movdqu	16(%rax), %xmm2
	pcmpeqb	%xmm0, %xmm2
	pcmpeqb	%xmm0, %xmm1
	por	%xmm2, %xmm1
	pmovmskb	%xmm1, %r9d
	testl	%r9d, %r9d
	jne	.Lunix_path_BB35_18
	addq	$-32, %r8
	addq	$32, %rax
	cmpq	$31, %r8
	ja	.Lunix_path_BB35_14
	jmp	.Lunix_path_BB35_19
.Lunix_path_BB35_18:
	movb	$1, %al
	cmpq	$31, %r8
	ja	.Lunix_path_BB35_22
.Lunix_path_BB35_19:
	movdqu	-32(%rcx,%rdx), %xmm1
	movdqu	-16(%rcx,%rdx), %xmm2
	pcmpeqb	%xmm0, %xmm2
	pcmpeqb	%xmm0, %xmm1
	por	%xmm2, %xmm1
.Lunix_path_BB35_20:
	pmovmskb	%xmm1, %eax
	testl	%eax, %eax
.Lunix_path_BB35_21:
	setne	%al
.Lunix_path_BB35_22:
	retq
	.def	unix_path_as_path;
	.scl	2;
	.type	32;
	.endef
	.globl	unix_path_as_path
	.p2align	4
unix_path_as_path:
	pushq	%r15
	pushq	%r14
	pushq	%rsi
	pushq	%rdi
	pushq	%rbx
	subq	$32, %rsp
	movq	%r9, %rsi
	movq	%rdx, %rdi
	xorl	%ebx, %ebx
	testq	%rcx, %rcx
	sete	%bl
	shll	$12, %ebx
	addq	%rcx, %rbx
	movq	(%r8), %r14
	movq	8(%r8), %r15
	cmpq	%r15, %rdx
	setb	%al
	subq	%r14, %r15
	setb	%cl
	leaq	.Lunix_path_static.0(%rip), %rdx
	sete	%r8b
	orb	%al, %cl
	addq	%r14, %rbx
	testb	%cl, %cl
	cmovneq	%rdx, %rbx
	orb	%r8b, %cl
	je	.Lunix_path_BB36_1
.Lunix_path_BB36_10:
	xorl	%ecx, %ecx
	jmp	.Lunix_path_BB36_11
.Lunix_path_BB36_1:
	movq	%r15, %rcx
	movq	%r15, %rax
	jmp	.Lunix_path_BB36_2
	.p2align	4
.Lunix_path_BB36_9:
	movq	%rax, %rcx
	testq	%rax, %rax
	je	.Lunix_path_BB36_10
.Lunix_path_BB36_2:
	decq	%rax
	je	.Lunix_path_BB36_3
	movzbl	(%rbx,%rax), %edx
	cmpl	$47, %edx
	je	.Lunix_path_BB36_7
	cmpl	$46, %edx
	jne	.Lunix_path_BB36_11
	cmpb	$47, -1(%rbx,%rax)
	jne	.Lunix_path_BB36_11
.Lunix_path_BB36_7:
	movq	%r15, %rcx
	subq	%rax, %rcx
	cmpq	$8, %rcx
	jne	.Lunix_path_BB36_9
	movq	%rbx, %rcx
	movq	%rax, %rdx
	callq	unix_path.filler.trimmed_blocks_len
	jmp	.Lunix_path_BB36_9
.Lunix_path_BB36_3:
	movl	$1, %ecx
.Lunix_path_BB36_11:
	cmpq	%r14, %rdi
	cmovbq	%rdi, %r14
	movq	%r14, (%rsi)
	movq	%rcx, 8(%rsi)
	addq	$32, %rsp
	popq	%rbx
	popq	%rdi
	popq	%rsi
	popq	%r14
	popq	%r15
	retq
	.def	unix_path_canonical;
	.scl	2;
	.type	32;
	.endef
	.section	.rdata,"dr"
	.p2align	4, 0x0
.Lunix_path_CPI37_0:
	.zero	16,46
.Lunix_path_CPI37_1:
	.zero	16,47
	.text
	.globl	unix_path_canonical
	.p2align	4
unix_path_canonical:
	pushq	%r15
	pushq	%r14
	pushq	%r13
	pushq	%r12
	pushq	%rsi
	pushq	%rdi
	pushq	%rbp
	pushq	%rbx
	subq	$72, %rsp
	xorl	%r13d, %r13d
	testq	%rcx, %rcx
	sete	%r13b
	shll	$12, %r13d
	movq	%rcx, 32(%rsp)
	leaq	(%rcx,%r13), %rsi
	xorl	%r12d, %r12d
	testq	%r8, %r8
	sete	%r12b
	shll	$12, %r12d
	movq	%r8, 48(%rsp)
	leaq	(%r8,%r12), %rdi
	testq	%rdx, %rdx
	je	.Lunix_path_BB37_9
	movq	%r9, %r14
	movq	%rdx, %r15
	movq	%rdx, %rbp
	movq	%r15, %rax
	jmp	.Lunix_path_BB37_3
	.p2align	4
.Lunix_path_BB37_2:
	movq	%rax, %rbp
	testq	%rax, %rax
	je	.Lunix_path_BB37_9
.Lunix_path_BB37_3:
	decq	%rax
	je	.Lunix_path_BB37_10
	movzbl	(%rsi,%rax), %ecx
	cmpl	$47, %ecx
	je	.Lunix_path_BB37_7
	cmpl	$46, %ecx
	jne	.Lunix_path_BB37_12
	cmpb	$47, -1(%rsi,%rax)
	jne	.Lunix_path_BB37_12
.Lunix_path_BB37_7:
	movq	%r15, %rcx
	subq	%rax, %rcx
	cmpq	$8, %rcx
	jne	.Lunix_path_BB37_2
	movq	%rsi, %rcx
	movq	%rax, %rdx
	callq	unix_path.filler.trimmed_blocks_len
	jmp	.Lunix_path_BB37_2
.Lunix_path_BB37_9:
	xorl	%ebp, %ebp
	xorl	%r15d, %r15d
	jmp	.Lunix_path_BB37_72
.Lunix_path_BB37_10:
	movl	$1, %r15d
	testq	%r14, %r14
	jne	.Lunix_path_BB37_69
	jmp	.Lunix_path_BB37_67
.Lunix_path_BB37_12:
	cmpq	$18, %rbp
	jae	.Lunix_path_BB37_14
	xorl	%r15d, %r15d
	cmpq	%rbp, %r15
	jb	.Lunix_path_BB37_20
	jmp	.Lunix_path_BB37_29
.Lunix_path_BB37_14:
	movq	%rbp, %rax
	addq	$-18, %rax
	je	.Lunix_path_BB37_18
	movq	32(%rsp), %rcx
	leaq	(%rcx,%r13), %rdx
	addq	$2, %rdx
	xorl	%ecx, %ecx
	.p2align	4
.Lunix_path_BB37_16:
	movdqu	-2(%rdx,%rcx), %xmm0
	movdqu	-1(%rdx,%rcx), %xmm1
	movdqu	(%rdx,%rcx), %xmm2
	movdqa	.Lunix_path_CPI37_0(%rip), %xmm3
	pcmpeqb	%xmm1, %xmm3
	movdqa	.Lunix_path_CPI37_1(%rip), %xmm4
	pcmpeqb	%xmm4, %xmm2
	pand	%xmm3, %xmm2
	pcmpeqb	%xmm4, %xmm0
	pcmpeqb	%xmm4, %xmm1
	por	%xmm2, %xmm1
	pand	%xmm0, %xmm1
	pmovmskb	%xmm1, %r8d
	orl	$65536, %r8d
	rep		bsfl	%r8d, %r8d
	cmpw	$15, %r8w
	jbe	.Lunix_path_BB37_19
	addq	$16, %rcx
	cmpq	%rax, %rcx
	jb	.Lunix_path_BB37_16
.Lunix_path_BB37_18:
	movdqu	(%rsi,%rax), %xmm0
	movdqu	1(%rsi,%rax), %xmm1
	movdqu	2(%rsi,%rax), %xmm2
	movdqa	.Lunix_path_CPI37_0(%rip), %xmm3
	pcmpeqb	%xmm1, %xmm3
	movdqa	.Lunix_path_CPI37_1(%rip), %xmm4
	pcmpeqb	%xmm4, %xmm2
	pand	%xmm3, %xmm2
	pcmpeqb	%xmm4, %xmm0
	pcmpeqb	%xmm4, %xmm1
	por	%xmm2, %xmm1
	pand	%xmm0, %xmm1
	pmovmskb	%xmm1, %ecx
	orl	$65536, %ecx
	rep		bsfl	%ecx, %r15d
	addq	%rax, %r15
	cmpq	%rbp, %r15
	jb	.Lunix_path_BB37_20
	jmp	.Lunix_path_BB37_29
.Lunix_path_BB37_19:
	movzwl	%r8w, %r15d
	addq	%rcx, %r15
	cmpq	%rbp, %r15
	jae	.Lunix_path_BB37_29
.Lunix_path_BB37_20:
	movq	32(%rsp), %rax
	addq	%r13, %rax
	addq	$2, %rax
	leaq	-2(%rbp), %rcx
	leaq	-1(%rbp), %rdx
	jmp	.Lunix_path_BB37_23
	.p2align	4
.Lunix_path_BB37_21:
	cmpl	$47, %r8d
	je	.Lunix_path_BB37_29
.Lunix_path_BB37_22:
	incq	%r15
	cmpq	%r15, %rbp
	je	.Lunix_path_BB37_28
.Lunix_path_BB37_23:
	cmpb	$47, -2(%rax,%r15)
	jne	.Lunix_path_BB37_22
	cmpq	%r15, %rdx
	je	.Lunix_path_BB37_29
	movzbl	-1(%rax,%r15), %r8d
	cmpl	$46, %r8d
	jne	.Lunix_path_BB37_21
	cmpq	%r15, %rcx
	je	.Lunix_path_BB37_29
	cmpb	$47, (%rax,%r15)
	jne	.Lunix_path_BB37_22
	jmp	.Lunix_path_BB37_29
.Lunix_path_BB37_28:
	movq	%rbp, %r15
.Lunix_path_BB37_29:
	cmpq	%rbp, %r14
	jae	.Lunix_path_BB37_69
	movq	%r15, %rax
	cmpq	%rbp, %r15
	jae	.Lunix_path_BB37_37
	movq	32(%rsp), %rax
	leaq	(%rax,%r13), %rcx
	incq	%rcx
	leaq	-1(%rbp), %rdx
	movq	%r15, %rax
	jmp	.Lunix_path_BB37_33
	.p2align	4
.Lunix_path_BB37_32:
	incq	%rax
	cmpq	%rax, %rbp
	je	.Lunix_path_BB37_67
.Lunix_path_BB37_33:
	movzbl	-1(%rcx,%rax), %r8d
	cmpl	$47, %r8d
	je	.Lunix_path_BB37_32
	cmpl	$46, %r8d
	jne	.Lunix_path_BB37_37
	cmpq	%rax, %rdx
	je	.Lunix_path_BB37_67
	cmpb	$47, (%rcx,%rax)
	je	.Lunix_path_BB37_32
.Lunix_path_BB37_37:
	cmpq	%rbp, %rax
	jae	.Lunix_path_BB37_67
	movq	32(%rsp), %rcx
	addq	%r13, %rcx
	addq	$2, %rcx
	leaq	-1(%rbp), %r9
	xorl	%ebx, %ebx
	movq	%r14, 40(%rsp)
.Lunix_path_BB37_39:
	movq	%rbp, %r8
	subq	%rax, %r8
	cmpq	$18, %r8
	jae	.Lunix_path_BB37_42
	xorl	%r10d, %r10d
	cmpq	%r8, %r10
	jb	.Lunix_path_BB37_49
.Lunix_path_BB37_41:
	addq	%r10, %rbx
	incq	%rbx
	addq	%r10, %rax
	cmpq	%rbp, %rax
	jb	.Lunix_path_BB37_60
	jmp	.Lunix_path_BB37_64
.Lunix_path_BB37_42:
	movq	%r8, %r9
	addq	$-18, %r9
	je	.Lunix_path_BB37_46
	leaq	(%rcx,%rax), %r10
	xorl	%r11d, %r11d
	.p2align	4
.Lunix_path_BB37_44:
	movdqu	-2(%r10,%r11), %xmm0
	movdqu	-1(%r10,%r11), %xmm1
	movdqu	(%r10,%r11), %xmm2
	movdqa	.Lunix_path_CPI37_0(%rip), %xmm3
	pcmpeqb	%xmm1, %xmm3
	movdqa	.Lunix_path_CPI37_1(%rip), %xmm4
	pcmpeqb	%xmm4, %xmm2
	pand	%xmm3, %xmm2
	pcmpeqb	%xmm4, %xmm0
	pcmpeqb	%xmm4, %xmm1
	por	%xmm2, %xmm1
	pand	%xmm0, %xmm1
	pmovmskb	%xmm1, %edx
	orl	$65536, %edx
	rep		bsfl	%edx, %r14d
	cmpw	$15, %r14w
	jbe	.Lunix_path_BB37_47
	addq	$16, %r11
	cmpq	%r9, %r11
	jb	.Lunix_path_BB37_44
.Lunix_path_BB37_46:
	leaq	(%rsi,%rax), %rdx
	movdqu	(%rdx,%r9), %xmm0
	movdqu	1(%rdx,%r9), %xmm1
	movdqu	2(%rdx,%r9), %xmm2
	movdqa	.Lunix_path_CPI37_0(%rip), %xmm3
	pcmpeqb	%xmm1, %xmm3
	movdqa	.Lunix_path_CPI37_1(%rip), %xmm4
	pcmpeqb	%xmm4, %xmm2
	pand	%xmm3, %xmm2
	pcmpeqb	%xmm4, %xmm0
	pcmpeqb	%xmm4, %xmm1
	por	%xmm2, %xmm1
	pand	%xmm0, %xmm1
	pmovmskb	%xmm1, %edx
	orl	$65536, %edx
	rep		bsfl	%edx, %r10d
	addq	%r9, %r10
	movq	40(%rsp), %r14
	leaq	-1(%rbp), %r9
	cmpq	%r8, %r10
	jae	.Lunix_path_BB37_41
	jmp	.Lunix_path_BB37_49
.Lunix_path_BB37_47:
	movzwl	%r14w, %r10d
	addq	%r11, %r10
	movq	40(%rsp), %r14
	leaq	-1(%rbp), %r9
	cmpq	%r8, %r10
	jae	.Lunix_path_BB37_41
.Lunix_path_BB37_49:
	leaq	(%rcx,%rax), %r9
	leaq	-2(%r8), %r11
	leaq	-1(%r8), %r14
	jmp	.Lunix_path_BB37_52
	.p2align	4
.Lunix_path_BB37_50:
	cmpl	$47, %edx
	je	.Lunix_path_BB37_58
.Lunix_path_BB37_51:
	incq	%r10
	cmpq	%r10, %r8
	je	.Lunix_path_BB37_57
.Lunix_path_BB37_52:
	cmpb	$47, -2(%r9,%r10)
	jne	.Lunix_path_BB37_51
	cmpq	%r10, %r14
	je	.Lunix_path_BB37_58
	movzbl	-1(%r9,%r10), %edx
	cmpl	$46, %edx
	jne	.Lunix_path_BB37_50
	cmpq	%r10, %r11
	je	.Lunix_path_BB37_58
	cmpb	$47, (%r9,%r10)
	jne	.Lunix_path_BB37_51
	jmp	.Lunix_path_BB37_58
.Lunix_path_BB37_57:
	movq	%r8, %r10
.Lunix_path_BB37_58:
	movq	40(%rsp), %r14
	leaq	-1(%rbp), %r9
	addq	%r10, %rbx
	incq	%rbx
	addq	%r10, %rax
	cmpq	%rbp, %rax
	jb	.Lunix_path_BB37_60
	jmp	.Lunix_path_BB37_64
	.p2align	4
.Lunix_path_BB37_59:
	incq	%rax
	cmpq	%rax, %rbp
	je	.Lunix_path_BB37_68
.Lunix_path_BB37_60:
	movzbl	-2(%rcx,%rax), %edx
	cmpl	$47, %edx
	je	.Lunix_path_BB37_59
	cmpl	$46, %edx
	jne	.Lunix_path_BB37_64
	cmpq	%rax, %r9
	je	.Lunix_path_BB37_68
	cmpb	$47, -1(%rcx,%rax)
	je	.Lunix_path_BB37_59
.Lunix_path_BB37_64:
	cmpq	%rbp, %rax
	jb	.Lunix_path_BB37_39
	jmp	.Lunix_path_BB37_68
.Lunix_path_BB37_67:
	xorl	%ebx, %ebx
.Lunix_path_BB37_68:
	addq	%r15, %rbx
	cmpq	%rbx, %r14
	jb	.Lunix_path_BB37_128
.Lunix_path_BB37_69:
	movq	%rdi, %rax
	subq	%rsi, %rax
	cmpq	%r15, %rax
	jae	.Lunix_path_BB37_72
	cmpq	$4, %r15
	jb	.Lunix_path_BB37_71
	cmpq	$32, %rax
	jae	.Lunix_path_BB37_131
.Lunix_path_BB37_71:
	xorl	%eax, %eax
.Lunix_path_BB37_140:
	movq	%r15, %rdx
	movq	%rax, %rcx
	andq	$3, %rdx
	je	.Lunix_path_BB37_143
	movq	%rax, %rcx
	.p2align	4
.Lunix_path_BB37_142:
	movzbl	(%rsi,%rcx), %r8d
	movb	%r8b, (%rdi,%rcx)
	incq	%rcx
	decq	%rdx
	jne	.Lunix_path_BB37_142
.Lunix_path_BB37_143:
	subq	%r15, %rax
	cmpq	$-4, %rax
	ja	.Lunix_path_BB37_73
	movq	32(%rsp), %rax
	addq	%r13, %rax
	addq	$3, %rax
	movq	48(%rsp), %rdx
	addq	%r12, %rdx
	addq	$3, %rdx
	.p2align	4
.Lunix_path_BB37_145:
	movzbl	-3(%rax,%rcx), %r8d
	movb	%r8b, -3(%rdx,%rcx)
	movzbl	-2(%rax,%rcx), %r8d
	movb	%r8b, -2(%rdx,%rcx)
	movzbl	-1(%rax,%rcx), %r8d
	movb	%r8b, -1(%rdx,%rcx)
	movzbl	(%rax,%rcx), %r8d
	movb	%r8b, (%rdx,%rcx)
	addq	$4, %rcx
	cmpq	%rcx, %r15
	jne	.Lunix_path_BB37_145
	jmp	.Lunix_path_BB37_73
.Lunix_path_BB37_72:
	movq	%rdi, %rcx
	movq	%rsi, %rdx
	movq	%r15, %r8
	callq	memmove
.Lunix_path_BB37_73:
	movq	%r15, %rbx
	movq	%r15, %r14
	cmpq	%rbp, %r15
	jae	.Lunix_path_BB37_80
	movq	32(%rsp), %rax
	addq	%r13, %rax
	incq	%rax
	leaq	-1(%rbp), %rcx
	movq	%rbx, %r14
	jmp	.Lunix_path_BB37_76
	.p2align	4
.Lunix_path_BB37_75:
	incq	%r14
	cmpq	%r14, %rbp
	je	.Lunix_path_BB37_128
.Lunix_path_BB37_76:
	movzbl	-1(%rax,%r14), %edx
	cmpl	$47, %edx
	je	.Lunix_path_BB37_75
	cmpl	$46, %edx
	jne	.Lunix_path_BB37_80
	cmpq	%r14, %rcx
	je	.Lunix_path_BB37_128
	cmpb	$47, (%rax,%r14)
	je	.Lunix_path_BB37_75
.Lunix_path_BB37_80:
	cmpq	%rbp, %r14
	jae	.Lunix_path_BB37_128
	movq	48(%rsp), %rax
	leaq	(%r12,%rax), %rcx
	incq	%rcx
	movq	%rcx, 40(%rsp)
	movq	32(%rsp), %rcx
	leaq	2(%r13,%rcx), %r15
	leaq	15(%r13,%rcx), %rcx
	movq	%rcx, 64(%rsp)
	leaq	16(%r12,%rax), %rcx
	movq	%rcx, 56(%rsp)
	addq	%r12, %rax
	addq	$3, %rax
	movq	%rax, 32(%rsp)
	jmp	.Lunix_path_BB37_83
	.p2align	4
.Lunix_path_BB37_82:
	movq	%r12, %r14
	cmpq	%rbp, %r12
	jae	.Lunix_path_BB37_128
.Lunix_path_BB37_83:
	movq	%rbx, %r13
	leaq	(%rsi,%r14), %rax
	movq	%rbp, %rcx
	subq	%r14, %rcx
	cmpq	$18, %rcx
	jae	.Lunix_path_BB37_85
	xorl	%r12d, %r12d
	cmpq	%rcx, %r12
	jb	.Lunix_path_BB37_91
	jmp	.Lunix_path_BB37_100
	.p2align	4
.Lunix_path_BB37_85:
	movq	%rcx, %rdx
	addq	$-18, %rdx
	je	.Lunix_path_BB37_89
	leaq	(%r15,%r14), %r9
	xorl	%r8d, %r8d
	.p2align	4
.Lunix_path_BB37_87:
	movdqu	-2(%r9,%r8), %xmm0
	movdqu	-1(%r9,%r8), %xmm1
	movdqu	(%r9,%r8), %xmm2
	movdqa	.Lunix_path_CPI37_0(%rip), %xmm3
	pcmpeqb	%xmm1, %xmm3
	movdqa	.Lunix_path_CPI37_1(%rip), %xmm4
	pcmpeqb	%xmm4, %xmm2
	pand	%xmm3, %xmm2
	pcmpeqb	%xmm4, %xmm0
	pcmpeqb	%xmm4, %xmm1
	por	%xmm2, %xmm1
	pand	%xmm0, %xmm1
	pmovmskb	%xmm1, %r10d
	orl	$65536, %r10d
	rep		bsfl	%r10d, %r10d
	cmpw	$15, %r10w
	jbe	.Lunix_path_BB37_90
	addq	$16, %r8
	cmpq	%rdx, %r8
	jb	.Lunix_path_BB37_87
.Lunix_path_BB37_89:
	movdqu	(%rax,%rdx), %xmm0
	movdqu	1(%rax,%rdx), %xmm1
	movdqu	2(%rax,%rdx), %xmm2
	movdqa	.Lunix_path_CPI37_0(%rip), %xmm3
	pcmpeqb	%xmm1, %xmm3
	movdqa	.Lunix_path_CPI37_1(%rip), %xmm4
	pcmpeqb	%xmm4, %xmm2
	pand	%xmm3, %xmm2
	pcmpeqb	%xmm4, %xmm0
	pcmpeqb	%xmm4, %xmm1
	por	%xmm2, %xmm1
	pand	%xmm0, %xmm1
	pmovmskb	%xmm1, %r8d
	orl	$65536, %r8d
	rep		bsfl	%r8d, %r12d
	addq	%rdx, %r12
	cmpq	%rcx, %r12
	jb	.Lunix_path_BB37_91
	jmp	.Lunix_path_BB37_100
.Lunix_path_BB37_90:
	movzwl	%r10w, %r12d
	addq	%r8, %r12
	cmpq	%rcx, %r12
	jae	.Lunix_path_BB37_100
	.p2align	4
.Lunix_path_BB37_91:
	leaq	(%r15,%r14), %rdx
	leaq	-2(%rcx), %r8
	leaq	-1(%rcx), %r9
	jmp	.Lunix_path_BB37_94
	.p2align	4
.Lunix_path_BB37_92:
	cmpl	$47, %r10d
	je	.Lunix_path_BB37_100
.Lunix_path_BB37_93:
	incq	%r12
	cmpq	%r12, %rcx
	je	.Lunix_path_BB37_99
.Lunix_path_BB37_94:
	cmpb	$47, -2(%rdx,%r12)
	jne	.Lunix_path_BB37_93
	cmpq	%r12, %r9
	je	.Lunix_path_BB37_100
	movzbl	-1(%rdx,%r12), %r10d
	cmpl	$46, %r10d
	jne	.Lunix_path_BB37_92
	cmpq	%r12, %r8
	je	.Lunix_path_BB37_100
	cmpb	$47, (%rdx,%r12)
	jne	.Lunix_path_BB37_93
	jmp	.Lunix_path_BB37_100
	.p2align	4
.Lunix_path_BB37_99:
	movq	%rcx, %r12
.Lunix_path_BB37_100:
	leaq	-1(%rax), %rdx
	leaq	1(%r12), %rbx
	leaq	(%rdi,%r13), %rcx
	movq	%rcx, %r8
	subq	%rdx, %r8
	cmpq	%rbx, %r8
	jae	.Lunix_path_BB37_103
	cmpq	$4, %rbx
	jb	.Lunix_path_BB37_102
	movq	40(%rsp), %r8
	addq	%r13, %r8
	subq	%rax, %r8
	cmpq	$32, %r8
	jae	.Lunix_path_BB37_106
.Lunix_path_BB37_102:
	xorl	%r8d, %r8d
.Lunix_path_BB37_115:
	movl	%r12d, %r10d
	notl	%r10d
	movq	%r8, %r9
	testb	$3, %r10b
	je	.Lunix_path_BB37_118
	leal	1(%r12), %r10d
	andl	$3, %r10d
	movq	%r8, %r9
	.p2align	4
.Lunix_path_BB37_117:
	movzbl	(%rdx,%r9), %r11d
	movb	%r11b, (%rcx,%r9)
	incq	%r9
	decq	%r10
	jne	.Lunix_path_BB37_117
.Lunix_path_BB37_118:
	movq	%r12, %rcx
	subq	%r8, %rcx
	cmpq	$3, %rcx
	jb	.Lunix_path_BB37_121
	movq	32(%rsp), %rcx
	addq	%r13, %rcx
	.p2align	4
.Lunix_path_BB37_120:
	movzbl	-1(%rax,%r9), %edx
	movb	%dl, -3(%rcx,%r9)
	movzbl	(%rax,%r9), %edx
	movb	%dl, -2(%rcx,%r9)
	movzbl	1(%rax,%r9), %edx
	movb	%dl, -1(%rcx,%r9)
	movzbl	2(%rax,%r9), %edx
	movb	%dl, (%rcx,%r9)
	addq	$4, %r9
	cmpq	%r9, %rbx
	jne	.Lunix_path_BB37_120
	jmp	.Lunix_path_BB37_121
	.p2align	4
.Lunix_path_BB37_103:
	movq	%rbx, %r8
	callq	memmove
.Lunix_path_BB37_121:
	addq	%r13, %rbx
	addq	%r14, %r12
	cmpq	%rbp, %r12
	jae	.Lunix_path_BB37_82
	leaq	-1(%rbp), %rcx
	jmp	.Lunix_path_BB37_124
	.p2align	4
.Lunix_path_BB37_123:
	incq	%r12
	cmpq	%r12, %rbp
	je	.Lunix_path_BB37_128
.Lunix_path_BB37_124:
	movzbl	-2(%r15,%r12), %eax
	cmpl	$47, %eax
	je	.Lunix_path_BB37_123
	cmpl	$46, %eax
	jne	.Lunix_path_BB37_82
	cmpq	%r12, %rcx
	je	.Lunix_path_BB37_128
	cmpb	$47, -1(%r15,%r12)
	je	.Lunix_path_BB37_123
	jmp	.Lunix_path_BB37_82
.Lunix_path_BB37_106:
	cmpq	$32, %rbx
	jae	.Lunix_path_BB37_108
	xorl	%r8d, %r8d
	jmp	.Lunix_path_BB37_112
.Lunix_path_BB37_108:
	movq	%rbx, %r8
	andq	$-32, %r8
	movq	64(%rsp), %r9
	addq	%r14, %r9
	movq	56(%rsp), %r10
	addq	%r13, %r10
	xorl	%r11d, %r11d
	.p2align	4
.Lunix_path_BB37_109:
	movdqu	-16(%r9,%r11), %xmm0
	movdqu	(%r9,%r11), %xmm1
	movdqu	%xmm0, -16(%r10,%r11)
	movdqu	%xmm1, (%r10,%r11)
	addq	$32, %r11
	cmpq	%r11, %r8
	jne	.Lunix_path_BB37_109
	cmpq	%r8, %rbx
	je	.Lunix_path_BB37_121
	testb	$28, %bl
	je	.Lunix_path_BB37_115
.Lunix_path_BB37_112:
	movq	%r8, %r9
	movq	%rbx, %r8
	andq	$-4, %r8
	.p2align	4
.Lunix_path_BB37_113:
	movl	(%rdx,%r9), %r10d
	movl	%r10d, (%rcx,%r9)
	addq	$4, %r9
	cmpq	%r9, %r8
	jne	.Lunix_path_BB37_113
	cmpq	%r8, %rbx
	je	.Lunix_path_BB37_121
	jmp	.Lunix_path_BB37_115
.Lunix_path_BB37_128:
	movq	%rbx, %rax
	addq	$72, %rsp
	popq	%rbx
	popq	%rbp
	popq	%rdi
	popq	%rsi
	popq	%r12
	popq	%r13
	popq	%r14
	popq	%r15
	retq
.Lunix_path_BB37_131:
	cmpq	$32, %r15
	jae	.Lunix_path_BB37_133
	xorl	%eax, %eax
	jmp	.Lunix_path_BB37_137
.Lunix_path_BB37_133:
	movq	%r15, %rax
	andq	$-32, %rax
	movq	32(%rsp), %rcx
	addq	%r13, %rcx
	addq	$16, %rcx
	movq	48(%rsp), %rdx
	addq	%r12, %rdx
	addq	$16, %rdx
	xorl	%r8d, %r8d
	.p2align	4
.Lunix_path_BB37_134:
	movdqu	-16(%rcx,%r8), %xmm0
	movdqu	(%rcx,%r8), %xmm1
	movdqu	%xmm0, -16(%rdx,%r8)
	movdqu	%xmm1, (%rdx,%r8)
	addq	$32, %r8
	cmpq	%r8, %rax
	jne	.Lunix_path_BB37_134
	cmpq	%rax, %r15
	je	.Lunix_path_BB37_73
	testb	$28, %r15b
	je	.Lunix_path_BB37_140
.Lunix_path_BB37_137:
	movq	%rax, %rcx
	movq	%r15, %rax
	andq	$-4, %rax
	.p2align	4
.Lunix_path_BB37_138:
	movl	(%rsi,%rcx), %edx
	movl	%edx, (%rdi,%rcx)
	addq	$4, %rcx
	cmpq	%rcx, %rax
	jne	.Lunix_path_BB37_138
	cmpq	%rax, %r15
	je	.Lunix_path_BB37_73
	jmp	.Lunix_path_BB37_140
	.def	unix_path_check_entries;
	.scl	2;
	.type	32;
	.endef
	.section	.rdata,"dr"
	.p2align	4, 0x0
.Lunix_path_CPI38_0:
	.zero	16,47
	.text
	.globl	unix_path_check_entries
	.p2align	4
unix_path_check_entries:
	pushq	%r15
	pushq	%r14
	pushq	%r13
	pushq	%r12
	pushq	%rsi
	pushq	%rdi
	pushq	%rbp
	pushq	%rbx
	subq	$184, %rsp
	movq	%r9, %r13
	movq	%r8, %r12
	xorl	%eax, %eax
	testq	%rcx, %rcx
	sete	%al
	shll	$12, %eax
	movq	%rcx, 88(%rsp)
	movq	%rax, 80(%rsp)
	addq	%rax, %rcx
	xorl	%r14d, %r14d
	testq	%r8, %r8
	sete	%r14b
	shll	$12, %r14d
	addq	%r14, %r8
	movq	%rcx, 128(%rsp)
	movq	%rdx, 96(%rsp)
	movq	%r8, 56(%rsp)
	callq	path_archive.records.split
	movl	%eax, %ecx
	movl	$2, %eax
	cmpb	$1, %cl
	jne	.Lunix_path_BB38_211
	movl	$3, %eax
	cmpq	%rdx, %r13
	jb	.Lunix_path_BB38_211
	movq	88(%rsp), %rax
	movq	80(%rsp), %rcx
	addq	%rax, %rcx
	movq	%rcx, 112(%rsp)
	movq	96(%rsp), %rsi
	movq	%rsi, 120(%rsp)
	cmpq	$20, %rdx
	movq	%rdx, 48(%rsp)
	ja	.Lunix_path_BB38_4
	leaq	112(%rsp), %r8
	leaq	(%r12,%r14), %rcx
	callq	core.slice.sort.small.insertion_sort.fd4dfef4a36ac24b.
	jmp	.Lunix_path_BB38_18
.Lunix_path_BB38_4:
	leaq	(%r12,%r14), %rbx
	movq	40(%rbx), %rax
	movq	48(%rbx), %rdx
	cmpq	%rdx, %rsi
	cmovbq	%rsi, %rdx
	cmpq	%rax, %rdx
	cmovbq	%rdx, %rax
	movq	%rcx, %rdi
	addq	%rax, %rcx
	subq	%rax, %rdx
	callq	path_archive.slot.without_dot
	movq	%rax, %r15
	movq	%rdx, %r13
	movq	(%rbx), %rax
	movq	8(%rbx), %rdx
	cmpq	%rdx, %rsi
	cmovbq	%rsi, %rdx
	cmpq	%rax, %rdx
	cmovbq	%rdx, %rax
	leaq	(%rdi,%rax), %rcx
	subq	%rax, %rdx
	callq	path_archive.slot.without_dot
	movq	%rdx, %r9
	movq	%r15, %rcx
	movq	%r13, %rdx
	movq	%rax, %r8
	callq	unix_path.compare.compare
	movq	56(%rbx), %rcx
	movq	64(%rbx), %rdx
	movq	24(%rbx), %r8
	cmpq	%r8, %rdx
	setae	%r9b
	addb	%r9b, %r9b
	cmpq	%r8, %rdx
	movq	16(%rbx), %rdx
	movzbl	%r9b, %r8d
	movl	$1, %r9d
	cmovnel	%r8d, %r9d
	cmpq	%rdx, %rcx
	setae	%r8b
	addb	%r8b, %r8b
	cmpq	%rdx, %rcx
	movzbl	%r8b, %ecx
	cmovel	%r9d, %ecx
	cmpb	$1, %al
	movzbl	%al, %eax
	cmovel	%ecx, %eax
	movl	%eax, 72(%rsp)
	leaq	(%r14,%r12), %rdi
	addq	$104, %rdi
	movl	$2, %esi
	testb	%al, %al
	je	.Lunix_path_BB38_10
	.p2align	4
.Lunix_path_BB38_5:
	movq	-24(%rdi), %rax
	movq	-16(%rdi), %rdx
	movq	96(%rsp), %rbx
	cmpq	%rdx, %rbx
	cmovbq	%rbx, %rdx
	cmpq	%rax, %rdx
	cmovbq	%rdx, %rax
	movq	88(%rsp), %rcx
	movq	80(%rsp), %r8
	leaq	(%rcx,%r8), %rbp
	leaq	(%rax,%rbp), %rcx
	subq	%rax, %rdx
	callq	path_archive.slot.without_dot
	movq	%rax, %r15
	movq	%rdx, %r13
	movq	-64(%rdi), %rax
	movq	-56(%rdi), %rdx
	cmpq	%rdx, %rbx
	cmovbq	%rbx, %rdx
	cmpq	%rax, %rdx
	cmovbq	%rdx, %rax
	leaq	(%rax,%rbp), %rcx
	subq	%rax, %rdx
	callq	path_archive.slot.without_dot
	movq	%rdx, %r9
	movq	%r15, %rcx
	movq	%r13, %rdx
	movq	%rax, %r8
	callq	unix_path.compare.compare
	movq	-8(%rdi), %rcx
	movq	(%rdi), %rdx
	movq	-40(%rdi), %r8
	cmpq	%r8, %rdx
	setae	%r9b
	addb	%r9b, %r9b
	cmpq	%r8, %rdx
	movq	-48(%rdi), %rdx
	movzbl	%r9b, %r8d
	movl	$1, %r9d
	cmovnel	%r8d, %r9d
	cmpq	%rdx, %rcx
	setae	%r8b
	addb	%r8b, %r8b
	cmpq	%rdx, %rcx
	movzbl	%r8b, %ecx
	cmovel	%r9d, %ecx
	cmpb	$1, %al
	je	.Lunix_path_BB38_7
	movzbl	%al, %ecx
.Lunix_path_BB38_7:
	testb	%cl, %cl
	movq	48(%rsp), %r11
	je	.Lunix_path_BB38_13
	incq	%rsi
	addq	$40, %rdi
	cmpq	%rsi, %r11
	jne	.Lunix_path_BB38_5
	jmp	.Lunix_path_BB38_15
	.p2align	4
.Lunix_path_BB38_9:
	incq	%rsi
	addq	$40, %rdi
	cmpq	%rsi, %r11
	je	.Lunix_path_BB38_17
.Lunix_path_BB38_10:
	movq	-24(%rdi), %rax
	movq	-16(%rdi), %rdx
	movq	96(%rsp), %rbx
	cmpq	%rdx, %rbx
	cmovbq	%rbx, %rdx
	cmpq	%rax, %rdx
	cmovbq	%rdx, %rax
	movq	88(%rsp), %rcx
	movq	80(%rsp), %r8
	leaq	(%rcx,%r8), %rbp
	leaq	(%rax,%rbp), %rcx
	subq	%rax, %rdx
	callq	path_archive.slot.without_dot
	movq	%rax, %r15
	movq	%rdx, %r13
	movq	-64(%rdi), %rax
	movq	-56(%rdi), %rdx
	cmpq	%rdx, %rbx
	cmovbq	%rbx, %rdx
	cmpq	%rax, %rdx
	cmovbq	%rdx, %rax
	leaq	(%rax,%rbp), %rcx
	subq	%rax, %rdx
	callq	path_archive.slot.without_dot
	movq	%rdx, %r9
	movq	%r15, %rcx
	movq	%r13, %rdx
	movq	%rax, %r8
	callq	unix_path.compare.compare
	movq	-8(%rdi), %rcx
	movq	(%rdi), %rdx
	movq	-40(%rdi), %r8
	cmpq	%r8, %rdx
	setae	%r9b
	addb	%r9b, %r9b
	cmpq	%r8, %rdx
	movq	-48(%rdi), %rdx
	movzbl	%r9b, %r8d
	movl	$1, %r9d
	cmovnel	%r8d, %r9d
	cmpq	%rdx, %rcx
	setae	%r8b
	addb	%r8b, %r8b
	cmpq	%rdx, %rcx
	movzbl	%r8b, %ecx
	cmovel	%r9d, %ecx
	cmpb	$1, %al
	je	.Lunix_path_BB38_12
	movzbl	%al, %ecx
.Lunix_path_BB38_12:
	testb	%cl, %cl
	movq	48(%rsp), %r11
	je	.Lunix_path_BB38_9
.Lunix_path_BB38_13:
	cmpq	%r11, %rsi
	jae	.Lunix_path_BB38_16
	bsrq	%r11, %r9
	xorl	$63, %r9d
	addl	%r9d, %r9d
	xorl	$126, %r9d
	leaq	112(%rsp), %rax
	movq	%rax, 32(%rsp)
	leaq	(%r12,%r14), %rcx
	xorl	%edx, %edx
	movq	%r11, %r8
	callq	core.slice.sort.unstable.quicksort.fd4dfef4a36ac24b.
.Lunix_path_BB38_15:
	movq	48(%rsp), %r11
	jmp	.Lunix_path_BB38_20
.Lunix_path_BB38_16:
	cmpb	$0, 72(%rsp)
	jne	.Lunix_path_BB38_19
.Lunix_path_BB38_17:
	movq	%r11, %r8
	shrq	%r8
	subq	%r8, %r11
	leaq	(%r11,%r11,4), %rax
	leaq	(%r12,%r14), %rcx
	leaq	(%rcx,%rax,8), %rdx
	callq	core.slice.edits.mirror.24.path_archive.slot.Slot.
.Lunix_path_BB38_18:
	movq	48(%rsp), %r11
.Lunix_path_BB38_19:
	testq	%r11, %r11
	je	.Lunix_path_BB38_210
.Lunix_path_BB38_20:
	leaq	(%r14,%r12), %rsi
	addq	$32, %rsi
	xorl	%eax, %eax
	xorl	%r14d, %r14d
	xorl	%edi, %edi
	movq	56(%rsp), %r9
	jmp	.Lunix_path_BB38_23
	.p2align	4
.Lunix_path_BB38_21:
	cmpq	$5, -16(%rsi)
	setb	%al
	cmovbq	%r14, %rdi
	movq	%r14, %rcx
.Lunix_path_BB38_22:
	movq	%rcx, (%rsi)
	incq	%r14
	addq	$40, %rsi
	cmpq	%r14, %r11
	je	.Lunix_path_BB38_35
.Lunix_path_BB38_23:
	cmpb	$1, %al
	jne	.Lunix_path_BB38_21
	leaq	(,%rdi,8), %rax
	leaq	(%rax,%rax,4), %rbx
	movq	8(%r9,%rbx), %rax
	movq	96(%rsp), %rcx
	movq	%rcx, %rdx
	cmpq	%rax, %rcx
	jb	.Lunix_path_BB38_26
	movq	%rax, %rdx
.Lunix_path_BB38_26:
	movq	(%r9,%rbx), %rax
	cmpq	%rax, %rdx
	cmovbq	%rdx, %rax
	movq	88(%rsp), %rcx
	movq	80(%rsp), %r8
	leaq	(%rcx,%r8), %r15
	leaq	(%r15,%rax), %rcx
	subq	%rax, %rdx
	callq	path_archive.slot.without_dot
	movq	%rax, %r12
	movq	%rdx, %r13
	movq	-32(%rsi), %rax
	movq	-24(%rsi), %rdx
	movq	96(%rsp), %rcx
	cmpq	%rdx, %rcx
	cmovbq	%rcx, %rdx
	cmpq	%rax, %rdx
	cmovbq	%rdx, %rax
	leaq	(%r15,%rax), %rcx
	subq	%rax, %rdx
	callq	path_archive.slot.without_dot
	movq	%rax, %rbp
	movq	%rdx, %r15
	movq	%rax, %rcx
	movq	%r12, %r8
	movq	%r13, %r9
	callq	path_archive.outlined.starts_with
	testb	%al, %al
	je	.Lunix_path_BB38_32
	movq	%r12, %rcx
	movq	%r13, %rdx
	movq	%rbp, %r8
	movq	%r15, %r9
	callq	path_archive.outlined.starts_with
	movq	56(%rsp), %r9
	movq	16(%r9,%rbx), %rdx
	testb	%al, %al
	je	.Lunix_path_BB38_31
	movq	-16(%rsi), %rax
	movq	%rdx, %rcx
	xorq	$1, %rcx
	xorq	$2, %rax
	orq	%rcx, %rax
	movq	%rdi, %rcx
	movq	48(%rsp), %r11
	je	.Lunix_path_BB38_30
	movq	%r14, %rcx
.Lunix_path_BB38_30:
	testq	%rdx, %rdx
	cmoveq	%rdi, %rcx
	movb	$1, %al
	jmp	.Lunix_path_BB38_22
.Lunix_path_BB38_31:
	movb	$1, %al
	cmpq	$4, %rdx
	jbe	.Lunix_path_BB38_34
	.p2align	4
.Lunix_path_BB38_32:
	cmpq	$5, -16(%rsi)
	cmovbq	%r14, %rdi
	movb	$1, %al
	movq	%r14, %rcx
.Lunix_path_BB38_33:
	movq	56(%rsp), %r9
	movq	48(%rsp), %r11
	jmp	.Lunix_path_BB38_22
.Lunix_path_BB38_34:
	movq	%rdi, %rcx
	jmp	.Lunix_path_BB38_33
.Lunix_path_BB38_35:
	movl	$0, 104(%rsp)
	movl	$0, 107(%rsp)
	movq	96(%rsp), %rax
	movq	88(%rsp), %rdx
	movq	80(%rsp), %r8
	leaq	(%rdx,%r8), %rcx
	addq	%rcx, %rax
	movq	%rax, 160(%rsp)
	leaq	-16(%r8,%rdx), %rax
	movq	%rax, 176(%rsp)
	leaq	(%r8,%rdx), %rax
	decq	%rax
	movq	%rax, 168(%rsp)
	xorl	%r10d, %r10d
	xorl	%r14d, %r14d
	xorl	%r8d, %r8d
	movq	$0, 144(%rsp)
	movq	$0, 136(%rsp)
	jmp	.Lunix_path_BB38_38
	.p2align	4
.Lunix_path_BB38_36:
	movl	64(%rsp), %edx
	movl	67(%rsp), %r8d
	movl	%r8d, 115(%rsp)
	movl	%edx, 112(%rsp)
	movl	%esi, %edx
	movq	%rdx, 144(%rsp)
	movq	%rcx, 136(%rsp)
	movq	%rax, %r10
	movq	80(%rsp), %r8
.Lunix_path_BB38_37:
	movl	112(%rsp), %eax
	movl	115(%rsp), %ecx
	movl	%ecx, 107(%rsp)
	movl	%eax, 104(%rsp)
	incq	%r14
	cmpq	%r11, %r14
	je	.Lunix_path_BB38_207
.Lunix_path_BB38_38:
	movq	%r8, 88(%rsp)
	leaq	(,%r14,8), %rax
	leaq	(%rax,%rax,4), %rdi
	movq	16(%r9,%rdi), %r15
	movb	$1, %al
	movq	%rax, 80(%rsp)
	movb	$1, %sil
	cmpq	$4, %r15
	je	.Lunix_path_BB38_54
	movq	%r10, 72(%rsp)
	movq	8(%r9,%rdi), %r12
	movq	96(%rsp), %rax
	cmpq	%r12, %rax
	movq	%r12, %rsi
	cmovbq	%rax, %rsi
	movq	(%r9,%rdi), %rbx
	cmpq	%rbx, %rsi
	cmovbq	%rsi, %rbx
	movq	128(%rsp), %rax
	leaq	(%rax,%rbx), %r13
	movq	%rsi, %rbp
	subq	%rbx, %rbp
	movq	%r13, %rcx
	movq	%rbp, %rdx
	callq	path_archive.outlined.has_root_or_parent_dir
	testb	%al, %al
	je	.Lunix_path_BB38_41
	xorl	%esi, %esi
	movq	56(%rsp), %r9
	movq	48(%rsp), %r11
	movq	72(%rsp), %r10
	jmp	.Lunix_path_BB38_54
	.p2align	4
.Lunix_path_BB38_41:
	cmpq	$15, %rbp
	ja	.Lunix_path_BB38_46
	testq	%rbp, %rbp
	movq	56(%rsp), %r9
	movq	48(%rsp), %r11
	movq	72(%rsp), %r10
	je	.Lunix_path_BB38_51
	xorl	%ecx, %ecx
	.p2align	4
.Lunix_path_BB38_44:
	cmpb	$0, (%r13,%rcx)
	je	.Lunix_path_BB38_52
	incq	%rcx
	cmpq	%rcx, %rbp
	jne	.Lunix_path_BB38_44
	jmp	.Lunix_path_BB38_60
.Lunix_path_BB38_46:
	movq	%rbp, %rax
	addq	$-16, %rax
	movq	56(%rsp), %r9
	movq	48(%rsp), %r11
	movq	72(%rsp), %r10
	je	.Lunix_path_BB38_50
	xorl	%edx, %edx
	.p2align	4
.Lunix_path_BB38_48:
	movdqu	(%r13,%rdx), %xmm0
	pxor	%xmm1, %xmm1
	pcmpeqb	%xmm0, %xmm1
	pmovmskb	%xmm1, %ecx
	orl	$65536, %ecx
	rep		bsfl	%ecx, %ecx
	cmpw	$15, %cx
	jbe	.Lunix_path_BB38_59
	addq	$16, %rdx
	cmpq	%rax, %rdx
	jb	.Lunix_path_BB38_48
.Lunix_path_BB38_50:
	movdqu	(%r13,%rax), %xmm0
	pxor	%xmm1, %xmm1
	pcmpeqb	%xmm0, %xmm1
	pmovmskb	%xmm1, %ecx
	orl	$65536, %ecx
	rep		bsfl	%ecx, %ecx
	addq	%rax, %rcx
	cmpq	%rbp, %rcx
	jb	.Lunix_path_BB38_53
	jmp	.Lunix_path_BB38_60
.Lunix_path_BB38_51:
	xorl	%ecx, %ecx
.Lunix_path_BB38_52:
	cmpq	%rbp, %rcx
	jae	.Lunix_path_BB38_60
.Lunix_path_BB38_53:
	xorl	%esi, %esi
	.p2align	4
.Lunix_path_BB38_54:
	movq	24(%r9,%rdi), %rax
	movl	$0, 67(%rsp)
	movl	$0, 64(%rsp)
	movb	$1, %dl
	movq	%rax, %rcx
.Lunix_path_BB38_55:
	movq	88(%rsp), %r8
	cmpb	$1, %r8b
	jne	.Lunix_path_BB38_36
	cmpq	%r10, %rax
	setb	%r8b
	andb	%r8b, %dl
	cmpb	$1, %dl
	jne	.Lunix_path_BB38_58
	movl	64(%rsp), %edx
	movl	67(%rsp), %r8d
	movl	%r8d, 115(%rsp)
	movl	%edx, 112(%rsp)
	movb	$1, %r8b
	movl	%esi, %edx
	movq	%rdx, 144(%rsp)
	movq	%rcx, 136(%rsp)
	movq	%rax, %r10
	jmp	.Lunix_path_BB38_37
	.p2align	4
.Lunix_path_BB38_58:
	movl	104(%rsp), %eax
	movl	107(%rsp), %ecx
	movl	%ecx, 115(%rsp)
	movl	%eax, 112(%rsp)
	movb	$1, %r8b
	jmp	.Lunix_path_BB38_37
.Lunix_path_BB38_59:
	movzwl	%cx, %ecx
	addq	%rdx, %rcx
	cmpq	%rbp, %rcx
	jb	.Lunix_path_BB38_53
.Lunix_path_BB38_60:
	cmpq	$4, %r15
	jbe	.Lunix_path_BB38_63
.Lunix_path_BB38_61:
	movq	32(%r9,%rdi), %rax
	cmpq	%r14, %rax
	jne	.Lunix_path_BB38_73
	movl	$0, 67(%rsp)
	movl	$0, 64(%rsp)
	xorl	%edx, %edx
	movq	$0, 80(%rsp)
	xorl	%eax, %eax
	xorl	%ecx, %ecx
	xorl	%esi, %esi
	jmp	.Lunix_path_BB38_55
.Lunix_path_BB38_63:
	movq	176(%rsp), %rax
	leaq	(%rax,%rsi), %rdx
	movq	168(%rsp), %rax
	addq	%rsi, %rax
	subq	%rbx, %rsi
	incq	%rsi
	movq	%rbp, %rcx
	.p2align	4
.Lunix_path_BB38_64:
	cmpq	$15, %rcx
	jbe	.Lunix_path_BB38_67
	addq	$-16, %rcx
	movdqu	(%rdx), %xmm0
	pcmpeqb	.Lunix_path_CPI38_0(%rip), %xmm0
	pmovmskb	%xmm0, %r8d
	addq	$-16, %rdx
	addq	$-16, %rsi
	addq	$-16, %rax
	testl	%r8d, %r8d
	je	.Lunix_path_BB38_64
	movzwl	%r8w, %eax
	bsrq	%rax, %rax
	xorq	$63, %rax
	subq	%rax, %rcx
	addq	$64, %rcx
	movq	%rcx, %rsi
	movq	%rbp, %rax
	subq	%rsi, %rax
	jne	.Lunix_path_BB38_70
	jmp	.Lunix_path_BB38_53
	.p2align	4
.Lunix_path_BB38_67:
	cmpq	$1, %rsi
	je	.Lunix_path_BB38_84
	decq	%rsi
	cmpb	$47, (%rax)
	leaq	-1(%rax), %rax
	jne	.Lunix_path_BB38_67
	movq	%rbp, %rax
	subq	%rsi, %rax
	jne	.Lunix_path_BB38_70
	jmp	.Lunix_path_BB38_53
.Lunix_path_BB38_73:
	shlq	$3, %rax
	leaq	(%rax,%rax,4), %rbx
	movq	(%r9,%rbx), %rax
	movq	8(%r9,%rbx), %rdx
	movq	96(%rsp), %rsi
	cmpq	%rdx, %rsi
	cmovbq	%rsi, %rdx
	cmpq	%rax, %rdx
	cmovbq	%rdx, %rax
	movq	128(%rsp), %r13
	leaq	(%rax,%r13), %rcx
	subq	%rax, %rdx
	callq	path_archive.slot.without_dot
	movq	%rax, %r15
	movq	%rdx, %r12
	movq	56(%rsp), %rax
	movq	(%rax,%rdi), %rax
	movq	56(%rsp), %rcx
	movq	8(%rcx,%rdi), %rdx
	cmpq	%rdx, %rsi
	cmovbq	%rsi, %rdx
	cmpq	%rax, %rdx
	cmovbq	%rdx, %rax
	leaq	(%rax,%r13), %rcx
	subq	%rax, %rdx
	callq	path_archive.slot.without_dot
	movq	%rdx, %r9
	movq	%r15, %rcx
	movq	%r12, %rdx
	movq	%rax, %r8
	callq	path_archive.outlined.starts_with
	movq	56(%rsp), %r9
	movb	$2, %sil
	testb	%al, %al
	je	.Lunix_path_BB38_75
	cmpq	$2, 16(%r9,%rdi)
	sete	%sil
	addb	$3, %sil
.Lunix_path_BB38_75:
	movq	24(%r9,%rdi), %rax
	movq	24(%r9,%rbx), %rcx
	movl	$0, 67(%rsp)
	movl	$0, 64(%rsp)
	movb	$1, %dl
	movb	$1, %r8b
	movq	%r8, 80(%rsp)
	movq	48(%rsp), %r11
	movq	72(%rsp), %r10
	jmp	.Lunix_path_BB38_55
.Lunix_path_BB38_84:
	xorl	%esi, %esi
	movq	%rbp, %rax
	subq	%rsi, %rax
	je	.Lunix_path_BB38_53
.Lunix_path_BB38_70:
	cmpq	$1, %rax
	jne	.Lunix_path_BB38_76
	cmpb	$46, (%r13,%rsi)
	je	.Lunix_path_BB38_53
.Lunix_path_BB38_76:
	cmpl	$0, 288(%rsp)
	je	.Lunix_path_BB38_61
	testq	%r15, %r15
	jne	.Lunix_path_BB38_61
	movq	96(%rsp), %rax
	cmpq	%r12, %rax
	jbe	.Lunix_path_BB38_86
	movq	128(%rsp), %rcx
	leaq	(%rcx,%r12), %r8
	incq	%r8
	incq	%r12
	subq	%r12, %rax
	cmpq	$15, %rax
	movq	%r8, 152(%rsp)
	ja	.Lunix_path_BB38_87
	xorl	%r12d, %r12d
	testq	%rax, %rax
	je	.Lunix_path_BB38_106
	.p2align	4
.Lunix_path_BB38_81:
	cmpb	$0, (%r8,%r12)
	je	.Lunix_path_BB38_93
	incq	%r12
	cmpq	%r12, %rax
	jne	.Lunix_path_BB38_81
	movq	%rax, %r12
	jmp	.Lunix_path_BB38_93
.Lunix_path_BB38_86:
	xorl	%r12d, %r12d
	movq	160(%rsp), %rax
	movq	%rax, 152(%rsp)
	jmp	.Lunix_path_BB38_106
.Lunix_path_BB38_87:
	addq	$-16, %rax
	je	.Lunix_path_BB38_91
	xorl	%ecx, %ecx
	.p2align	4
.Lunix_path_BB38_89:
	movdqu	(%r8,%rcx), %xmm0
	pxor	%xmm1, %xmm1
	pcmpeqb	%xmm0, %xmm1
	pmovmskb	%xmm1, %edx
	orl	$65536, %edx
	rep		bsfl	%edx, %edx
	cmpw	$15, %dx
	jbe	.Lunix_path_BB38_92
	addq	$16, %rcx
	cmpq	%rax, %rcx
	jb	.Lunix_path_BB38_89
.Lunix_path_BB38_91:
	movdqu	(%r8,%rax), %xmm0
	pxor	%xmm1, %xmm1
	pcmpeqb	%xmm0, %xmm1
	pmovmskb	%xmm1, %ecx
	orl	$65536, %ecx
	rep		bsfl	%ecx, %r12d
	addq	%rax, %r12
	jmp	.Lunix_path_BB38_93
.Lunix_path_BB38_92:
	movzwl	%dx, %r12d
	addq	%rcx, %r12
.Lunix_path_BB38_93:
	cmpq	$15, %r12
	ja	.Lunix_path_BB38_98
	testq	%r12, %r12
	je	.Lunix_path_BB38_103
	xorl	%ecx, %ecx
	.p2align	4
.Lunix_path_BB38_96:
	cmpb	$0, (%r8,%rcx)
	je	.Lunix_path_BB38_105
	incq	%rcx
	cmpq	%rcx, %r12
	jne	.Lunix_path_BB38_96
	jmp	.Lunix_path_BB38_106
.Lunix_path_BB38_98:
	movq	%r12, %rax
	addq	$-16, %rax
	je	.Lunix_path_BB38_102
	xorl	%edx, %edx
	.p2align	4
.Lunix_path_BB38_100:
	movdqu	(%r8,%rdx), %xmm0
	pxor	%xmm1, %xmm1
	pcmpeqb	%xmm0, %xmm1
	pmovmskb	%xmm1, %ecx
	orl	$65536, %ecx
	rep		bsfl	%ecx, %ecx
	cmpw	$15, %cx
	jbe	.Lunix_path_BB38_104
	addq	$16, %rdx
	cmpq	%rax, %rdx
	jb	.Lunix_path_BB38_100
.Lunix_path_BB38_102:
	movdqu	(%r8,%rax), %xmm0
	pxor	%xmm1, %xmm1
	pcmpeqb	%xmm0, %xmm1
	pmovmskb	%xmm1, %ecx
	orl	$65536, %ecx
	rep		bsfl	%ecx, %ecx
	addq	%rax, %rcx
	jmp	.Lunix_path_BB38_105
.Lunix_path_BB38_103:
	xorl	%r12d, %r12d
	jmp	.Lunix_path_BB38_106
.Lunix_path_BB38_104:
	movzwl	%cx, %ecx
	addq	%rdx, %rcx
.Lunix_path_BB38_105:
	movb	$5, %sil
	cmpq	%r12, %rcx
	jb	.Lunix_path_BB38_54
.Lunix_path_BB38_106:
	movq	%r13, %rcx
	movq	%rbp, %rdx
	callq	path_archive.slot.without_dot
	testq	%rdx, %rdx
	je	.Lunix_path_BB38_169
	movq	%rax, %r13
	movq	%rdx, %rbp
	movzbl	(%rax), %eax
	movb	$1, %sil
	cmpl	$47, %eax
	je	.Lunix_path_BB38_113
	cmpl	$46, %eax
	jne	.Lunix_path_BB38_112
	cmpq	$1, %rbp
	je	.Lunix_path_BB38_113
	cmpb	$47, 1(%r13)
	sete	%sil
	jmp	.Lunix_path_BB38_113
.Lunix_path_BB38_112:
	xorl	%esi, %esi
.Lunix_path_BB38_113:
	movq	%rbp, %rcx
	movq	%rbp, %rax
	jmp	.Lunix_path_BB38_115
	.p2align	4
.Lunix_path_BB38_114:
	movq	%rax, %rcx
	testq	%rax, %rax
	je	.Lunix_path_BB38_169
.Lunix_path_BB38_115:
	decq	%rax
	je	.Lunix_path_BB38_121
	movzbl	(%r13,%rax), %edx
	cmpl	$47, %edx
	je	.Lunix_path_BB38_119
	cmpl	$46, %edx
	jne	.Lunix_path_BB38_121
	cmpb	$47, -1(%r13,%rax)
	jne	.Lunix_path_BB38_121
.Lunix_path_BB38_119:
	movq	%rbp, %rcx
	subq	%rax, %rcx
	cmpq	$8, %rcx
	jne	.Lunix_path_BB38_114
	movq	%r13, %rcx
	movq	%rax, %rdx
	callq	unix_path.filler.trimmed_blocks_len
	jmp	.Lunix_path_BB38_114
.Lunix_path_BB38_169:
	xorl	%ebp, %ebp
	jmp	.Lunix_path_BB38_170
.Lunix_path_BB38_121:
	leaq	1(%r13), %rax
	leaq	2(%r13), %r8
	xorl	%ebp, %ebp
	movq	%rcx, %r10
	xorl	%r9d, %r9d
	jmp	.Lunix_path_BB38_125
.Lunix_path_BB38_122:
	xorl	%r11d, %r11d
.Lunix_path_BB38_123:
	addq	%rsi, %r11
.Lunix_path_BB38_124:
	addq	%r11, %r9
	incq	%rbp
	xorl	%esi, %esi
	movq	%rcx, %r10
	subq	%r9, %r10
	je	.Lunix_path_BB38_168
.Lunix_path_BB38_125:
	testb	$1, %sil
	je	.Lunix_path_BB38_133
	movq	%r10, %rsi
	decq	%rsi
	je	.Lunix_path_BB38_161
	leaq	-1(%r10), %rbx
	leaq	(%r8,%r9), %r15
	addq	$-2, %r10
	xorl	%r11d, %r11d
	jmp	.Lunix_path_BB38_129
	.p2align	4
.Lunix_path_BB38_128:
	incq	%r11
	cmpq	%r11, %rbx
	je	.Lunix_path_BB38_162
.Lunix_path_BB38_129:
	movzbl	-1(%r15,%r11), %edx
	cmpl	$47, %edx
	je	.Lunix_path_BB38_128
	cmpl	$46, %edx
	jne	.Lunix_path_BB38_163
	cmpq	%r11, %r10
	je	.Lunix_path_BB38_162
	cmpb	$47, (%r15,%r11)
	je	.Lunix_path_BB38_128
	jmp	.Lunix_path_BB38_163
	.p2align	4
.Lunix_path_BB38_133:
	leaq	(%r9,%r13), %rbx
	cmpq	$1, %r10
	je	.Lunix_path_BB38_139
	cmpb	$46, (%rbx)
	jne	.Lunix_path_BB38_139
	cmpb	$46, 1(%rbx)
	jne	.Lunix_path_BB38_139
	movl	$2, %r11d
	cmpq	$2, %r10
	je	.Lunix_path_BB38_124
	cmpb	$47, 2(%rbx)
	jne	.Lunix_path_BB38_139
	leaq	-2(%r10), %rsi
	leaq	3(%r13), %rdx
	leaq	(%rdx,%r9), %rbx
	addq	$-3, %r10
	xorl	%r11d, %r11d
	jmp	.Lunix_path_BB38_145
	.p2align	4
.Lunix_path_BB38_139:
	cmpq	$15, %r10
	ja	.Lunix_path_BB38_149
	xorl	%esi, %esi
	.p2align	4
.Lunix_path_BB38_141:
	cmpb	$47, (%rbx,%rsi)
	je	.Lunix_path_BB38_154
	incq	%rsi
	cmpq	%rsi, %r10
	jne	.Lunix_path_BB38_141
	movq	%r10, %rsi
	subq	%rsi, %r10
	jne	.Lunix_path_BB38_155
	jmp	.Lunix_path_BB38_122
	.p2align	4
.Lunix_path_BB38_144:
	incq	%r11
	cmpq	%r11, %rsi
	je	.Lunix_path_BB38_166
.Lunix_path_BB38_145:
	movzbl	-1(%rbx,%r11), %edx
	cmpl	$47, %edx
	je	.Lunix_path_BB38_144
	cmpl	$46, %edx
	jne	.Lunix_path_BB38_167
	cmpq	%r11, %r10
	je	.Lunix_path_BB38_166
	cmpb	$47, (%rbx,%r11)
	je	.Lunix_path_BB38_144
	jmp	.Lunix_path_BB38_167
	.p2align	4
.Lunix_path_BB38_149:
	movq	%r10, %r11
	addq	$-16, %r11
	je	.Lunix_path_BB38_153
	xorl	%r15d, %r15d
	.p2align	4
.Lunix_path_BB38_151:
	movdqu	(%rbx,%r15), %xmm0
	pcmpeqb	.Lunix_path_CPI38_0(%rip), %xmm0
	pmovmskb	%xmm0, %edx
	orl	$65536, %edx
	rep		bsfl	%edx, %esi
	cmpw	$15, %si
	jbe	.Lunix_path_BB38_165
	addq	$16, %r15
	cmpq	%r11, %r15
	jb	.Lunix_path_BB38_151
.Lunix_path_BB38_153:
	movdqu	(%rbx,%r11), %xmm0
	pcmpeqb	.Lunix_path_CPI38_0(%rip), %xmm0
	pmovmskb	%xmm0, %edx
	orl	$65536, %edx
	rep		bsfl	%edx, %esi
	addq	%r11, %rsi
.Lunix_path_BB38_154:
	subq	%rsi, %r10
	je	.Lunix_path_BB38_122
.Lunix_path_BB38_155:
	leaq	(%rsi,%r9), %rbx
	addq	%rax, %rbx
	leaq	-1(%r10), %r15
	xorl	%r11d, %r11d
	jmp	.Lunix_path_BB38_157
	.p2align	4
.Lunix_path_BB38_156:
	incq	%r11
	cmpq	%r11, %r10
	je	.Lunix_path_BB38_164
.Lunix_path_BB38_157:
	movzbl	-1(%rbx,%r11), %edx
	cmpl	$47, %edx
	je	.Lunix_path_BB38_156
	cmpl	$46, %edx
	jne	.Lunix_path_BB38_123
	cmpq	%r11, %r15
	je	.Lunix_path_BB38_164
	cmpb	$47, (%rbx,%r11)
	je	.Lunix_path_BB38_156
	jmp	.Lunix_path_BB38_123
.Lunix_path_BB38_161:
	movl	$1, %r11d
	jmp	.Lunix_path_BB38_124
.Lunix_path_BB38_162:
	movq	%rsi, %r11
.Lunix_path_BB38_163:
	incq	%r11
	jmp	.Lunix_path_BB38_124
.Lunix_path_BB38_164:
	movq	%r10, %r11
	jmp	.Lunix_path_BB38_123
.Lunix_path_BB38_165:
	movzwl	%si, %esi
	addq	%r15, %rsi
	subq	%rsi, %r10
	jne	.Lunix_path_BB38_155
	jmp	.Lunix_path_BB38_122
.Lunix_path_BB38_166:
	movq	%rsi, %r11
.Lunix_path_BB38_167:
	addq	$2, %r11
	jmp	.Lunix_path_BB38_124
.Lunix_path_BB38_168:
	cmpq	$1, %rbp
	adcq	$-1, %rbp
.Lunix_path_BB38_170:
	movq	152(%rsp), %rcx
	movq	%r12, %rdx
	callq	path_archive.slot.without_dot
	testq	%rdx, %rdx
	movq	56(%rsp), %r9
	movq	48(%rsp), %r11
	movq	72(%rsp), %r10
	je	.Lunix_path_BB38_61
	movq	%rax, %r15
	movq	%rdx, %r13
	movq	%rax, %r12
	movzbl	(%r15), %eax
	movb	$1, %bl
	cmpl	$47, %eax
	je	.Lunix_path_BB38_176
	cmpl	$46, %eax
	jne	.Lunix_path_BB38_175
	cmpq	$1, %r13
	je	.Lunix_path_BB38_176
	cmpb	$47, 1(%r12)
	sete	%bl
	jmp	.Lunix_path_BB38_176
.Lunix_path_BB38_175:
	xorl	%ebx, %ebx
.Lunix_path_BB38_176:
	movq	%r13, %rcx
	movq	%r13, %rax
	jmp	.Lunix_path_BB38_178
	.p2align	4
.Lunix_path_BB38_177:
	movq	%rax, %rcx
	testq	%rax, %rax
	je	.Lunix_path_BB38_61
.Lunix_path_BB38_178:
	decq	%rax
	je	.Lunix_path_BB38_184
	movzbl	(%r12,%rax), %edx
	cmpl	$47, %edx
	je	.Lunix_path_BB38_182
	cmpl	$46, %edx
	jne	.Lunix_path_BB38_184
	cmpb	$47, -1(%r12,%rax)
	jne	.Lunix_path_BB38_184
.Lunix_path_BB38_182:
	movq	%r13, %rcx
	subq	%rax, %rcx
	cmpq	$8, %rcx
	jne	.Lunix_path_BB38_177
	movq	%r12, %rcx
	movq	%rax, %rdx
	callq	unix_path.filler.trimmed_blocks_len
	movq	72(%rsp), %r10
	movq	48(%rsp), %r11
	movq	56(%rsp), %r9
	jmp	.Lunix_path_BB38_177
.Lunix_path_BB38_184:
	xorl	%eax, %eax
	movq	%rcx, %rdx
	.p2align	4
.Lunix_path_BB38_185:
	movb	$5, %sil
	testb	$1, %bl
	jne	.Lunix_path_BB38_54
	cmpq	$1, %rdx
	je	.Lunix_path_BB38_201
	cmpb	$46, (%r12)
	jne	.Lunix_path_BB38_201
	cmpb	$46, 1(%r12)
	jne	.Lunix_path_BB38_201
	movl	$2, %r8d
	cmpq	$2, %rdx
	je	.Lunix_path_BB38_199
	cmpb	$47, 2(%r12)
	jne	.Lunix_path_BB38_201
	leaq	-2(%rdx), %r9
	addq	$-3, %rdx
	xorl	%r8d, %r8d
	jmp	.Lunix_path_BB38_193
	.p2align	4
.Lunix_path_BB38_192:
	incq	%r8
	cmpq	%r8, %r9
	je	.Lunix_path_BB38_197
.Lunix_path_BB38_193:
	movzbl	2(%r12,%r8), %r10d
	cmpl	$47, %r10d
	je	.Lunix_path_BB38_192
	cmpl	$46, %r10d
	jne	.Lunix_path_BB38_198
	cmpq	%r8, %rdx
	je	.Lunix_path_BB38_197
	cmpb	$47, 3(%r12,%r8)
	je	.Lunix_path_BB38_192
	jmp	.Lunix_path_BB38_198
.Lunix_path_BB38_197:
	movq	%r9, %r8
.Lunix_path_BB38_198:
	addq	$2, %r8
	movq	56(%rsp), %r9
	movq	72(%rsp), %r10
.Lunix_path_BB38_199:
	subq	$1, %rbp
	jb	.Lunix_path_BB38_54
	addq	%r8, %rax
	leaq	(%r15,%rax), %r12
	xorl	%ebx, %ebx
	movq	%rcx, %rdx
	subq	%rax, %rdx
	jne	.Lunix_path_BB38_185
	jmp	.Lunix_path_BB38_61
.Lunix_path_BB38_201:
	cmpq	$16, %rdx
	jb	.Lunix_path_BB38_206
	movq	%rdx, %rax
	addq	$-16, %rax
	je	.Lunix_path_BB38_206
	movl	$16, %ecx
.Lunix_path_BB38_204:
	movdqu	-16(%r12,%rcx), %xmm0
	pcmpeqb	.Lunix_path_CPI38_0(%rip), %xmm0
	pmovmskb	%xmm0, %r8d
	testl	%r8d, %r8d
	jne	.Lunix_path_BB38_206
	cmpq	%rax, %rcx
	leaq	16(%rcx), %rcx
	jb	.Lunix_path_BB38_204
.Lunix_path_BB38_206:
	movq	%r12, %rcx
	callq	path_archive.outlined.has_root_or_parent_dir
	testb	%al, %al
	movq	56(%rsp), %r9
	movq	48(%rsp), %r11
	movq	72(%rsp), %r10
	jne	.Lunix_path_BB38_54
	jmp	.Lunix_path_BB38_61
.Lunix_path_BB38_207:
	testb	%r8b, %r8b
	je	.Lunix_path_BB38_210
	movzbl	144(%rsp), %eax
	movq	296(%rsp), %rcx
	movq	%r10, (%rcx)
	movq	136(%rsp), %rdx
	movq	%rdx, 8(%rcx)
	movl	%eax, 16(%rcx)
	movl	$0, 20(%rcx)
	movl	$1, %eax
	jmp	.Lunix_path_BB38_211
.Lunix_path_BB38_210:
	xorl	%eax, %eax
.Lunix_path_BB38_211:
	addq	$184, %rsp
	popq	%rbx
	popq	%rbp
	popq	%rdi
	popq	%rsi
	popq	%r12
	popq	%r13
	popq	%r14
	popq	%r15
	retq
	.def	unix_path_check_request;
	.scl	2;
	.type	32;
	.endef
	.globl	unix_path_check_request
	.p2align	4
unix_path_check_request:
	pushq	%rsi
	pushq	%rdi
	subq	$40, %rsp
	xorl	%eax, %eax
	testq	%rcx, %rcx
	sete	%r8b
	testq	%rdx, %rdx
	je	.Lunix_path_BB39_1
	movb	%r8b, %al
	shll	$12, %eax
	addq	%rax, %rcx
	movl	$1, %eax
	cmpb	$47, (%rcx)
	je	.Lunix_path_BB39_17
	movq	%rcx, %rsi
	movq	%rdx, %rdi
	callq	path_within.check.check_escape
	testb	%al, %al
	je	.Lunix_path_BB39_4
	movq	%rdi, %rdx
	cmpq	$15, %rdi
	ja	.Lunix_path_BB39_10
	xorl	%ecx, %ecx
	.p2align	4
.Lunix_path_BB39_7:
	cmpb	$0, (%rsi,%rcx)
	je	.Lunix_path_BB39_16
	incq	%rcx
	cmpq	%rcx, %rdx
	jne	.Lunix_path_BB39_7
	xorl	%eax, %eax
.Lunix_path_BB39_17:
	addq	$40, %rsp
	popq	%rdi
	popq	%rsi
	retq
.Lunix_path_BB39_1:
	xorl	%ecx, %ecx
.Lunix_path_BB39_16:
	xorl	%eax, %eax
	cmpq	%rdx, %rcx
	setb	%al
	leal	(%rax,%rax,2), %eax
	addq	$40, %rsp
	popq	%rdi
	popq	%rsi
	retq
.Lunix_path_BB39_4:
	movl	$2, %eax
	addq	$40, %rsp
	popq	%rdi
	popq	%rsi
	retq
.Lunix_path_BB39_10:
	movq	%rdx, %rax
	addq	$-16, %rax
	movq	%rsi, %rcx
	je	.Lunix_path_BB39_15
	xorl	%r8d, %r8d
	.p2align	4
.Lunix_path_BB39_12:
	movdqu	(%rcx,%r8), %xmm0
	pxor	%xmm1, %xmm1
	pcmpeqb	%xmm0, %xmm1
	pmovmskb	%xmm1, %r9d
	orl	$65536, %r9d
	rep		bsfl	%r9d, %r9d
	cmpw	$15, %r9w
	jbe	.Lunix_path_BB39_13
	addq	$16, %r8
	cmpq	%rax, %r8
	jb	.Lunix_path_BB39_12
.Lunix_path_BB39_15:
	movdqu	(%rcx,%rax), %xmm0
	pxor	%xmm1, %xmm1
	pcmpeqb	%xmm0, %xmm1
	pmovmskb	%xmm1, %ecx
	orl	$65536, %ecx
	rep		bsfl	%ecx, %ecx
	addq	%rax, %rcx
	jmp	.Lunix_path_BB39_16
.Lunix_path_BB39_13:
	movzwl	%r9w, %ecx
	addq	%r8, %rcx
	jmp	.Lunix_path_BB39_16
	.def	unix_path_common_dir;
	.scl	2;
	.type	32;
	.endef
	.section	.rdata,"dr"
	.p2align	4, 0x0
.Lunix_path_CPI40_0:
	.zero	16,47
	.text
	.globl	unix_path_common_dir
	.p2align	4
unix_path_common_dir:
	pushq	%rsi
	xorl	%eax, %eax
	testq	%rcx, %rcx
	sete	%al
	shll	$12, %eax
	leaq	(%rcx,%rax), %r10
	xorl	%r11d, %r11d
	testq	%r8, %r8
	sete	%r11b
	shll	$12, %r11d
	addq	%r8, %r11
	cmpq	%rdx, %r9
	cmovbq	%r9, %rdx
	cmpq	$15, %rdx
	ja	.Lunix_path_BB40_6
	cmpq	$7, %rdx
	ja	.Lunix_path_BB40_13
	testq	%rdx, %rdx
	je	.Lunix_path_BB40_17
	movzbl	(%r10), %r8d
	cmpb	(%r11), %r8b
	jne	.Lunix_path_BB40_17
	cmpq	$1, %rdx
	jne	.Lunix_path_BB40_27
.Lunix_path_BB40_5:
	movq	%rdx, %r8
	jmp	.Lunix_path_BB40_18
.Lunix_path_BB40_6:
	leaq	-16(%rdx), %r9
	xorl	%esi, %esi
	cmpq	$64, %rdx
	jb	.Lunix_path_BB40_11
	.p2align	4
.Lunix_path_BB40_7:
	movdqu	(%r10,%rsi), %xmm0
	movdqu	16(%r10,%rsi), %xmm1
	movdqu	32(%r10,%rsi), %xmm2
	movdqu	48(%r10,%rsi), %xmm3
	movdqu	(%r11,%rsi), %xmm4
	pcmpeqb	%xmm0, %xmm4
	movdqu	16(%r11,%rsi), %xmm0
	pcmpeqb	%xmm1, %xmm0
	pand	%xmm4, %xmm0
	movdqu	32(%r11,%rsi), %xmm1
	pcmpeqb	%xmm2, %xmm1
	movdqu	48(%r11,%rsi), %xmm2
	pcmpeqb	%xmm3, %xmm2
	pand	%xmm1, %xmm2
	pand	%xmm0, %xmm2
	pmovmskb	%xmm2, %r8d
	cmpl	$65535, %r8d
	jne	.Lunix_path_BB40_11
	addq	$64, %rsi
	addq	$-64, %rdx
	cmpq	$63, %rdx
	ja	.Lunix_path_BB40_7
	jmp	.Lunix_path_BB40_11
	.p2align	4
.Lunix_path_BB40_9:
	movdqu	(%r10,%rsi), %xmm0
	movdqu	(%r11,%rsi), %xmm1
	pcmpeqb	%xmm0, %xmm1
	pmovmskb	%xmm1, %edx
	notl	%edx
	rep		bsfl	%edx, %edx
	cmpw	$15, %dx
	jbe	.Lunix_path_BB40_15
	addq	$16, %rsi
.Lunix_path_BB40_11:
	cmpq	%r9, %rsi
	jb	.Lunix_path_BB40_9
	movdqu	(%r10,%r9), %xmm0
	movdqu	(%r11,%r9), %xmm1
	pcmpeqb	%xmm0, %xmm1
	pmovmskb	%xmm1, %edx
	notl	%edx
	rep		bsfl	%edx, %r8d
	addq	%r9, %r8
	jmp	.Lunix_path_BB40_18
.Lunix_path_BB40_13:
	movq	(%r10), %xmm0
	movq	(%r11), %xmm1
	pcmpeqb	%xmm0, %xmm1
	pmovmskb	%xmm1, %r8d
	notl	%r8d
	orl	$256, %r8d
	rep		bsfl	%r8d, %r8d
	cmpb	$8, %r8b
	jb	.Lunix_path_BB40_18
	movq	-8(%r10,%rdx), %xmm0
	movq	-8(%r11,%rdx), %xmm1
	pcmpeqb	%xmm0, %xmm1
	pmovmskb	%xmm1, %r8d
	notl	%r8d
	orl	$256, %r8d
	rep		bsfl	%r8d, %r8d
	addq	%rdx, %r8
	addq	$-8, %r8
	jmp	.Lunix_path_BB40_18
.Lunix_path_BB40_17:
	xorl	%r8d, %r8d
	jmp	.Lunix_path_BB40_18
.Lunix_path_BB40_15:
	movzwl	%dx, %r8d
	addq	%rsi, %r8
.Lunix_path_BB40_18:
	addq	%rcx, %rax
	addq	$-16, %rax
	.p2align	4
.Lunix_path_BB40_19:
	cmpq	$15, %r8
	jbe	.Lunix_path_BB40_22
	movdqu	(%rax,%r8), %xmm0
	addq	$-16, %r8
	pcmpeqb	.Lunix_path_CPI40_0(%rip), %xmm0
	pmovmskb	%xmm0, %ecx
	testl	%ecx, %ecx
	je	.Lunix_path_BB40_19
	movzwl	%cx, %eax
	bsrq	%rax, %rax
	xorq	$63, %rax
	subq	%rax, %r8
	addq	$64, %r8
	movq	%r8, %rax
	popq	%rsi
	retq
.Lunix_path_BB40_22:
	incq	%r8
	.p2align	4
.Lunix_path_BB40_23:
	cmpq	$1, %r8
	je	.Lunix_path_BB40_26
	leaq	-1(%r8), %rax
	cmpb	$47, -2(%r10,%r8)
	movq	%rax, %r8
	jne	.Lunix_path_BB40_23
	popq	%rsi
	retq
.Lunix_path_BB40_26:
	xorl	%eax, %eax
	popq	%rsi
	retq
.Lunix_path_BB40_27:
	movzbl	1(%r10), %r9d
	movl	$1, %r8d
	cmpb	1(%r11), %r9b
	jne	.Lunix_path_BB40_18
	cmpq	$2, %rdx
	je	.Lunix_path_BB40_5
	movzbl	2(%r10), %r9d
	movl	$2, %r8d
	cmpb	2(%r11), %r9b
	jne	.Lunix_path_BB40_18
	cmpq	$3, %rdx
	je	.Lunix_path_BB40_5
	movzbl	3(%r10), %r9d
	movl	$3, %r8d
	cmpb	3(%r11), %r9b
	jne	.Lunix_path_BB40_18
	cmpq	$4, %rdx
	je	.Lunix_path_BB40_5
	movzbl	4(%r10), %r9d
	movl	$4, %r8d
	cmpb	4(%r11), %r9b
	jne	.Lunix_path_BB40_18
	cmpq	$5, %rdx
	je	.Lunix_path_BB40_5
	movzbl	5(%r10), %r9d
	movl	$5, %r8d
	cmpb	5(%r11), %r9b
	jne	.Lunix_path_BB40_18
	cmpq	$6, %rdx
	je	.Lunix_path_BB40_5
	movzbl	6(%r10), %r8d
	cmpb	6(%r11), %r8b
	movl	$6, %r8d
	cmoveq	%rdx, %r8
	jmp	.Lunix_path_BB40_18
	.def	unix_path_compare;
	.scl	2;
	.type	32;
	.endef
	.globl	unix_path_compare
	.p2align	4
unix_path_compare:
	subq	$40, %rsp
	xorl	%eax, %eax
	testq	%rcx, %rcx
	sete	%al
	shll	$12, %eax
	addq	%rax, %rcx
	xorl	%eax, %eax
	testq	%r8, %r8
	sete	%al
	shll	$12, %eax
	addq	%rax, %r8
	callq	unix_path.compare.compare
	movzbl	%al, %eax
	decl	%eax
	addq	$40, %rsp
	retq
	.def	unix_path_components;
	.scl	2;
	.type	32;
	.endef
	.globl	unix_path_components
	.p2align	4
unix_path_components:
	pushq	%rsi
	pushq	%rdi
	pushq	%rbx
	subq	$32, %rsp
	movq	%r8, %rsi
	movq	%rcx, %rbx
	xorl	%eax, %eax
	testq	%rcx, %rcx
	sete	%cl
	testq	%rdx, %rdx
	je	.Lunix_path_BB42_10
	movq	%rdx, %rdi
	movb	%cl, %al
	shll	$12, %eax
	addq	%rax, %rbx
	movq	%rdx, %rcx
	movq	%rdi, %rax
	jmp	.Lunix_path_BB42_2
	.p2align	4
.Lunix_path_BB42_9:
	movq	%rax, %rcx
	testq	%rax, %rax
	je	.Lunix_path_BB42_10
.Lunix_path_BB42_2:
	decq	%rax
	je	.Lunix_path_BB42_3
	movzbl	(%rbx,%rax), %edx
	cmpl	$47, %edx
	je	.Lunix_path_BB42_7
	cmpl	$46, %edx
	jne	.Lunix_path_BB42_11
	cmpb	$47, -1(%rbx,%rax)
	jne	.Lunix_path_BB42_11
.Lunix_path_BB42_7:
	movq	%rdi, %rcx
	subq	%rax, %rcx
	cmpq	$8, %rcx
	jne	.Lunix_path_BB42_9
	movq	%rbx, %rcx
	movq	%rax, %rdx
	callq	unix_path.filler.trimmed_blocks_len
	jmp	.Lunix_path_BB42_9
.Lunix_path_BB42_10:
	xorl	%ecx, %ecx
	jmp	.Lunix_path_BB42_11
.Lunix_path_BB42_3:
	movl	$1, %ecx
.Lunix_path_BB42_11:
	movq	$0, (%rsi)
	movq	%rcx, 8(%rsi)
	addq	$32, %rsp
	popq	%rbx
	popq	%rdi
	popq	%rsi
	retq
	.def	unix_path_ends_in_slash;
	.scl	2;
	.type	32;
	.endef
	.globl	unix_path_ends_in_slash
	.p2align	4
unix_path_ends_in_slash:
	pushq	%rsi
	pushq	%rdi
	pushq	%rbx
	subq	$64, %rsp
	movq	%rdx, %rsi
	xorl	%edi, %edi
	testq	%rcx, %rcx
	sete	%dil
	shll	$12, %edi
	addq	%rcx, %rdi
	xorps	%xmm0, %xmm0
	movaps	%xmm0, 32(%rsp)
	movq	$0, 48(%rsp)
	testq	%rdx, %rdx
	je	.Lunix_path_BB43_1
	movq	%rsi, %rcx
	movq	%rsi, %rax
	jmp	.Lunix_path_BB43_3
	.p2align	4
.Lunix_path_BB43_10:
	movq	%rax, %rcx
	testq	%rax, %rax
	je	.Lunix_path_BB43_11
.Lunix_path_BB43_3:
	decq	%rax
	je	.Lunix_path_BB43_4
	movzbl	(%rdi,%rax), %edx
	cmpl	$47, %edx
	je	.Lunix_path_BB43_8
	cmpl	$46, %edx
	jne	.Lunix_path_BB43_12
	cmpb	$47, -1(%rdi,%rax)
	jne	.Lunix_path_BB43_12
.Lunix_path_BB43_8:
	movq	%rsi, %rcx
	subq	%rax, %rcx
	cmpq	$8, %rcx
	jne	.Lunix_path_BB43_10
	movq	%rdi, %rcx
	movq	%rax, %rdx
	callq	unix_path.filler.trimmed_blocks_len
	jmp	.Lunix_path_BB43_10
.Lunix_path_BB43_1:
	xorl	%ebx, %ebx
	jmp	.Lunix_path_BB43_13
.Lunix_path_BB43_4:
	movl	$1, %ecx
	jmp	.Lunix_path_BB43_12
.Lunix_path_BB43_11:
	xorl	%ecx, %ecx
.Lunix_path_BB43_12:
	cmpq	%rsi, %rcx
	setb	%bl
.Lunix_path_BB43_13:
	leaq	32(%rsp), %rcx
	movq	%rdi, %rdx
	movq	%rsi, %r8
	callq	unix_path.path.Path.file_name
	andb	32(%rsp), %bl
	movl	%ebx, %eax
	addq	$64, %rsp
	popq	%rbx
	popq	%rdi
	popq	%rsi
	retq
	.def	unix_path_ends_with;
	.scl	2;
	.type	32;
	.endef
	.globl	unix_path_ends_with
	.p2align	4
unix_path_ends_with:
	pushq	%rsi
	pushq	%rdi
	pushq	%rbx
	subq	$32, %rsp
	movq	%r8, %rax
	movq	%rcx, %r8
	xorl	%ecx, %ecx
	testq	%r8, %r8
	sete	%cl
	shll	$12, %ecx
	addq	%r8, %rcx
	xorl	%r8d, %r8d
	testq	%rax, %rax
	sete	%r8b
	shll	$12, %r8d
	addq	%rax, %r8
	testq	%rdx, %rdx
	je	.Lunix_path_BB44_1
	movzbl	-1(%rcx,%rdx), %r10d
	cmpb	$47, %r10b
	je	.Lunix_path_BB44_1
	leaq	(%rcx,%rdx), %rax
	cmpq	$1, %rdx
	je	.Lunix_path_BB44_23
	cmpb	$46, %r10b
	jne	.Lunix_path_BB44_23
	xorl	%r11d, %r11d
	testq	%r9, %r9
	je	.Lunix_path_BB44_2
	cmpb	$47, -2(%rax)
	jne	.Lunix_path_BB44_9
	jmp	.Lunix_path_BB44_2
.Lunix_path_BB44_23:
	testq	%r9, %r9
	je	.Lunix_path_BB44_1
.Lunix_path_BB44_9:
	movzbl	-1(%r8,%r9), %r10d
	cmpb	$47, %r10b
	jne	.Lunix_path_BB44_10
.Lunix_path_BB44_1:
	xorl	%r11d, %r11d
.Lunix_path_BB44_2:
	subq	%r11, %rdx
	subq	%r11, %r9
	callq	unix_path.suffixes.ends_with_parts
.Lunix_path_BB44_3:
	addq	$32, %rsp
	popq	%rbx
	popq	%rdi
	popq	%rsi
	retq
.Lunix_path_BB44_10:
	leaq	(%r8,%r9), %r11
	cmpq	$1, %r9
	je	.Lunix_path_BB44_13
	cmpb	$46, %r10b
	jne	.Lunix_path_BB44_13
	cmpb	$47, -2(%r11)
	je	.Lunix_path_BB44_1
.Lunix_path_BB44_13:
	cmpq	%rdx, %r9
	movq	%rdx, %rsi
	cmovbq	%r9, %rsi
	movq	$-1, %rdi
	xorl	%r10d, %r10d
	.p2align	4
.Lunix_path_BB44_14:
	movzbl	(%rax,%rdi), %ebx
	cmpb	$47, %bl
	je	.Lunix_path_BB44_18
	cmpb	(%r11,%rdi), %bl
	jne	.Lunix_path_BB44_18
	incq	%r10
	decq	%rdi
	cmpq	%r10, %rsi
	jne	.Lunix_path_BB44_14
	movq	%rsi, %r10
.Lunix_path_BB44_18:
	movq	%rdx, %rax
	subq	%r10, %rax
	je	.Lunix_path_BB44_20
	cmpb	$47, -1(%rcx,%rax)
	jne	.Lunix_path_BB44_22
.Lunix_path_BB44_20:
	movq	%r9, %rax
	movq	%r9, %r11
	subq	%r10, %rax
	je	.Lunix_path_BB44_2
	cmpb	$47, -1(%r8,%rax)
	movq	%r10, %r11
	je	.Lunix_path_BB44_2
.Lunix_path_BB44_22:
	xorl	%eax, %eax
	jmp	.Lunix_path_BB44_3
	.def	unix_path_entries_scratch;
	.scl	2;
	.type	32;
	.endef
	.globl	unix_path_entries_scratch
	.p2align	4
unix_path_entries_scratch:
	pushq	%rsi
	subq	$48, %rsp
	xorl	%eax, %eax
	testq	%rcx, %rcx
	sete	%al
	shll	$12, %eax
	addq	%rax, %rcx
	xorl	%esi, %esi
	leaq	40(%rsp), %r8
	xorl	%r9d, %r9d
	callq	path_archive.records.split
	testb	$1, %al
	cmovneq	%rdx, %rsi
	movq	%rsi, %rax
	addq	$48, %rsp
	popq	%rsi
	retq
	.def	unix_path_equal;
	.scl	2;
	.type	32;
	.endef
	.globl	unix_path_equal
	.p2align	4
unix_path_equal:
	pushq	%rsi
	pushq	%rdi
	pushq	%rbx
	subq	$32, %rsp
	movq	%r8, %rax
	movq	%rcx, %r8
	xorl	%ecx, %ecx
	testq	%r8, %r8
	sete	%cl
	shll	$12, %ecx
	addq	%r8, %rcx
	xorl	%r8d, %r8d
	testq	%rax, %rax
	sete	%r8b
	shll	$12, %r8d
	addq	%rax, %r8
	cmpq	%r9, %rdx
	jne	.Lunix_path_BB46_4
	testq	%rdx, %rdx
	je	.Lunix_path_BB46_3
	movzbl	-1(%rcx,%rdx), %r10d
	cmpb	-1(%r8,%rdx), %r10b
	je	.Lunix_path_BB46_3
	cmpb	$47, %r10b
	jne	.Lunix_path_BB46_7
	jmp	.Lunix_path_BB46_3
.Lunix_path_BB46_4:
	testq	%rdx, %rdx
	je	.Lunix_path_BB46_3
	movzbl	-1(%rcx,%rdx), %r10d
	cmpb	$47, %r10b
	je	.Lunix_path_BB46_3
.Lunix_path_BB46_7:
	leaq	(%rcx,%rdx), %rax
	cmpq	$1, %rdx
	je	.Lunix_path_BB46_11
	cmpb	$46, %r10b
	jne	.Lunix_path_BB46_11
	testq	%r9, %r9
	je	.Lunix_path_BB46_3
	cmpb	$47, -2(%rax)
	jne	.Lunix_path_BB46_12
	jmp	.Lunix_path_BB46_3
.Lunix_path_BB46_11:
	testq	%r9, %r9
	je	.Lunix_path_BB46_3
.Lunix_path_BB46_12:
	movzbl	-1(%r8,%r9), %r10d
	cmpb	$47, %r10b
	je	.Lunix_path_BB46_3
	leaq	(%r8,%r9), %r11
	cmpq	$1, %r9
	je	.Lunix_path_BB46_16
	cmpb	$46, %r10b
	jne	.Lunix_path_BB46_16
	cmpb	$47, -2(%r11)
	je	.Lunix_path_BB46_3
.Lunix_path_BB46_16:
	cmpq	%rdx, %r9
	movq	%rdx, %rsi
	cmovbq	%r9, %rsi
	movq	$-1, %rdi
	xorl	%r10d, %r10d
	.p2align	4
.Lunix_path_BB46_17:
	movzbl	(%rax,%rdi), %ebx
	cmpb	$47, %bl
	je	.Lunix_path_BB46_21
	cmpb	(%r11,%rdi), %bl
	jne	.Lunix_path_BB46_21
	incq	%r10
	decq	%rdi
	cmpq	%r10, %rsi
	jne	.Lunix_path_BB46_17
	movq	%rsi, %r10
.Lunix_path_BB46_21:
	movq	%rdx, %rax
	subq	%r10, %rax
	je	.Lunix_path_BB46_23
	cmpb	$47, -1(%rcx,%rax)
	jne	.Lunix_path_BB46_25
.Lunix_path_BB46_23:
	movq	%r9, %rax
	subq	%r10, %rax
	je	.Lunix_path_BB46_3
	cmpb	$47, -1(%r8,%rax)
	jne	.Lunix_path_BB46_25
.Lunix_path_BB46_3:
	callq	unix_path.compare.compare
	cmpb	$1, %al
	sete	%al
.Lunix_path_BB46_26:
	addq	$32, %rsp
	popq	%rbx
	popq	%rdi
	popq	%rsi
	retq
.Lunix_path_BB46_25:
	xorl	%eax, %eax
	jmp	.Lunix_path_BB46_26
	.def	unix_path_escapes;
	.scl	2;
	.type	32;
	.endef
	.globl	unix_path_escapes
	.p2align	4
unix_path_escapes:
	subq	$40, %rsp
	xorl	%eax, %eax
	testq	%rcx, %rcx
	sete	%al
	shll	$12, %eax
	addq	%rax, %rcx
	callq	path_within.check.check_escape
	testb	%al, %al
	sete	%al
	addq	$40, %rsp
	retq
	.def	unix_path_extension;
	.scl	2;
	.type	32;
	.endef
	.section	.rdata,"dr"
	.p2align	4, 0x0
.Lunix_path_CPI48_0:
	.zero	16,46
.Lunix_path_CPI48_1:
	.zero	16,47
	.text
	.globl	unix_path_extension
	.p2align	4
unix_path_extension:
	pushq	%r15
	pushq	%r14
	pushq	%r12
	pushq	%rsi
	pushq	%rdi
	pushq	%rbx
	subq	$40, %rsp
	xorl	%r12d, %r12d
	testq	%rcx, %rcx
	sete	%al
	testq	%rdx, %rdx
	je	.Lunix_path_BB48_9
	movq	%r8, %rsi
	movq	%rdx, %r14
	movq	%rcx, %rbx
	movb	%al, %r12b
	shll	$12, %r12d
	leaq	(%rcx,%r12), %rdi
	movq	%rdx, %r15
	movq	%r14, %rax
	jmp	.Lunix_path_BB48_3
	.p2align	4
.Lunix_path_BB48_2:
	movq	%rax, %r15
	testq	%rax, %rax
	je	.Lunix_path_BB48_9
.Lunix_path_BB48_3:
	decq	%rax
	je	.Lunix_path_BB48_10
	movzbl	(%rdi,%rax), %ecx
	cmpl	$47, %ecx
	je	.Lunix_path_BB48_7
	cmpl	$46, %ecx
	jne	.Lunix_path_BB48_18
	movzbl	-1(%rdi,%rax), %ecx
	cmpb	$47, %cl
	jne	.Lunix_path_BB48_13
.Lunix_path_BB48_7:
	movq	%r14, %rcx
	subq	%rax, %rcx
	cmpq	$8, %rcx
	jne	.Lunix_path_BB48_2
	movq	%rdi, %rcx
	movq	%rax, %rdx
	callq	unix_path.filler.trimmed_blocks_len
	jmp	.Lunix_path_BB48_2
.Lunix_path_BB48_10:
	movzbl	(%rdi), %eax
	andb	$-2, %al
	cmpb	$46, %al
	jne	.Lunix_path_BB48_18
	jmp	.Lunix_path_BB48_9
.Lunix_path_BB48_13:
	cmpb	$46, %cl
	jne	.Lunix_path_BB48_18
	cmpq	$2, %r15
	je	.Lunix_path_BB48_9
	cmpb	$47, -3(%rdi,%r15)
	je	.Lunix_path_BB48_9
.Lunix_path_BB48_18:
	movq	%r14, %rcx
	movq	%r14, %rax
	jmp	.Lunix_path_BB48_20
	.p2align	4
.Lunix_path_BB48_19:
	movq	%rax, %rcx
	testq	%rax, %rax
	je	.Lunix_path_BB48_9
.Lunix_path_BB48_20:
	decq	%rax
	je	.Lunix_path_BB48_26
	movzbl	(%rdi,%rax), %edx
	cmpl	$47, %edx
	je	.Lunix_path_BB48_24
	cmpl	$46, %edx
	jne	.Lunix_path_BB48_34
	movzbl	-1(%rdi,%rax), %edx
	cmpb	$47, %dl
	jne	.Lunix_path_BB48_29
.Lunix_path_BB48_24:
	movq	%r14, %rcx
	subq	%rax, %rcx
	cmpq	$8, %rcx
	jne	.Lunix_path_BB48_19
	movq	%rdi, %rcx
	movq	%rax, %rdx
	callq	unix_path.filler.trimmed_blocks_len
	jmp	.Lunix_path_BB48_19
.Lunix_path_BB48_26:
	movzbl	(%rdi), %eax
	andb	$-2, %al
	cmpb	$46, %al
	jne	.Lunix_path_BB48_34
	jmp	.Lunix_path_BB48_9
.Lunix_path_BB48_29:
	cmpb	$46, %dl
	jne	.Lunix_path_BB48_34
	cmpq	$2, %rcx
	je	.Lunix_path_BB48_9
	cmpb	$47, -3(%rdi,%rcx)
	je	.Lunix_path_BB48_9
.Lunix_path_BB48_34:
	leaq	(%r12,%rbx), %rax
	addq	$-16, %rax
	movq	%rcx, %rdx
	.p2align	4
.Lunix_path_BB48_35:
	cmpq	$15, %rdx
	jbe	.Lunix_path_BB48_40
	movdqu	(%rax,%rdx), %xmm0
	addq	$-16, %rdx
	movdqa	.Lunix_path_CPI48_0(%rip), %xmm1
	pcmpeqb	%xmm0, %xmm1
	pmovmskb	%xmm1, %r8d
	movl	$127, %r10d
	movl	$127, %r11d
	bsrq	%r8, %r11
	xorq	$63, %r11
	movl	$64, %r9d
	movl	$64, %r8d
	subq	%r11, %r8
	pcmpeqb	.Lunix_path_CPI48_1(%rip), %xmm0
	pmovmskb	%xmm0, %r11d
	bsrq	%r11, %r10
	xorq	$63, %r10
	subq	%r10, %r9
	cmpq	%r9, %r8
	movq	%r9, %r10
	cmovaq	%r8, %r10
	testq	%r10, %r10
	je	.Lunix_path_BB48_35
	cmpq	%r8, %r9
	cmovaq	%r9, %r8
	leaq	(%r8,%rdx), %r9
	addq	%r8, %rdx
	decq	%rdx
	testq	%rdx, %rdx
	jne	.Lunix_path_BB48_38
	jmp	.Lunix_path_BB48_9
.Lunix_path_BB48_40:
	leaq	(%r12,%rbx), %rax
	decq	%rax
	.p2align	4
.Lunix_path_BB48_41:
	testq	%rdx, %rdx
	je	.Lunix_path_BB48_9
	movzbl	(%rax,%rdx), %r8d
	decq	%rdx
	andb	$-2, %r8b
	cmpb	$46, %r8b
	jne	.Lunix_path_BB48_41
	leaq	1(%rdx), %r9
	testq	%rdx, %rdx
	je	.Lunix_path_BB48_9
.Lunix_path_BB48_38:
	cmpb	$47, (%rdi,%rdx)
	jne	.Lunix_path_BB48_46
.Lunix_path_BB48_9:
	xorl	%eax, %eax
.Lunix_path_BB48_49:
	addq	$40, %rsp
	popq	%rbx
	popq	%rdi
	popq	%rsi
	popq	%r12
	popq	%r14
	popq	%r15
	retq
.Lunix_path_BB48_46:
	xorl	%eax, %eax
	cmpq	%rcx, %rdx
	je	.Lunix_path_BB48_49
	cmpb	$47, -2(%rdi,%r9)
	je	.Lunix_path_BB48_49
	notq	%rdx
	addq	%rdx, %rcx
	subq	%rcx, %r15
	movq	%r15, (%rsi)
	movq	%rcx, 8(%rsi)
	movb	$1, %al
	jmp	.Lunix_path_BB48_49
	.def	unix_path_file_name;
	.scl	2;
	.type	32;
	.endef
	.globl	unix_path_file_name
	.p2align	4
unix_path_file_name:
	pushq	%r14
	pushq	%rsi
	pushq	%rdi
	pushq	%rbp
	pushq	%rbx
	subq	$64, %rsp
	movq	%r8, %rsi
	movq	%rdx, %rdi
	xorl	%ebx, %ebx
	testq	%rcx, %rcx
	sete	%bl
	shll	$12, %ebx
	addq	%rcx, %rbx
	xorps	%xmm0, %xmm0
	movaps	%xmm0, 32(%rsp)
	movq	$0, 48(%rsp)
	leaq	32(%rsp), %rcx
	movq	%rbx, %rdx
	movq	%rdi, %r8
	callq	unix_path.path.Path.file_name
	movzbl	32(%rsp), %ebp
	cmpb	$1, %bpl
	jne	.Lunix_path_BB49_13
	movq	48(%rsp), %r14
	testq	%rdi, %rdi
	je	.Lunix_path_BB49_11
	movq	%rdi, %rcx
	movq	%rdi, %rax
	jmp	.Lunix_path_BB49_3
	.p2align	4
.Lunix_path_BB49_10:
	movq	%rax, %rcx
	testq	%rax, %rax
	je	.Lunix_path_BB49_11
.Lunix_path_BB49_3:
	decq	%rax
	je	.Lunix_path_BB49_4
	movzbl	(%rbx,%rax), %edx
	cmpl	$47, %edx
	je	.Lunix_path_BB49_8
	cmpl	$46, %edx
	jne	.Lunix_path_BB49_12
	cmpb	$47, -1(%rbx,%rax)
	jne	.Lunix_path_BB49_12
.Lunix_path_BB49_8:
	movq	%rdi, %rcx
	subq	%rax, %rcx
	cmpq	$8, %rcx
	jne	.Lunix_path_BB49_10
	movq	%rbx, %rcx
	movq	%rax, %rdx
	callq	unix_path.filler.trimmed_blocks_len
	jmp	.Lunix_path_BB49_10
.Lunix_path_BB49_11:
	xorl	%ecx, %ecx
	jmp	.Lunix_path_BB49_12
.Lunix_path_BB49_4:
	movl	$1, %ecx
.Lunix_path_BB49_12:
	subq	%r14, %rcx
	movq	%rcx, (%rsi)
	movq	%r14, 8(%rsi)
.Lunix_path_BB49_13:
	cmpb	$1, %bpl
	sete	%al
	addq	$64, %rsp
	popq	%rbx
	popq	%rbp
	popq	%rdi
	popq	%rsi
	popq	%r14
	retq
	.def	unix_path_file_prefix;
	.scl	2;
	.type	32;
	.endef
	.section	.rdata,"dr"
	.p2align	4, 0x0
.Lunix_path_CPI50_0:
	.zero	16,46
	.text
	.globl	unix_path_file_prefix
	.p2align	4
unix_path_file_prefix:
	pushq	%r15
	pushq	%r14
	pushq	%rsi
	pushq	%rdi
	pushq	%rbx
	subq	$64, %rsp
	movq	%r8, %rsi
	movq	%rdx, %rdi
	xorl	%ebx, %ebx
	testq	%rcx, %rcx
	sete	%bl
	shll	$12, %ebx
	addq	%rcx, %rbx
	pxor	%xmm0, %xmm0
	movdqa	%xmm0, 32(%rsp)
	movq	$0, 48(%rsp)
	leaq	32(%rsp), %rcx
	movq	%rbx, %rdx
	movq	%rdi, %r8
	callq	unix_path.path.Path.file_name
	cmpb	$1, 32(%rsp)
	jne	.Lunix_path_BB50_20
	movq	48(%rsp), %r15
	testq	%rdi, %rdi
	je	.Lunix_path_BB50_11
	movq	%rdi, %r14
	movq	%rdi, %rax
	jmp	.Lunix_path_BB50_4
	.p2align	4
.Lunix_path_BB50_3:
	movq	%rax, %r14
	testq	%rax, %rax
	je	.Lunix_path_BB50_11
.Lunix_path_BB50_4:
	decq	%rax
	je	.Lunix_path_BB50_12
	movzbl	(%rbx,%rax), %ecx
	cmpl	$47, %ecx
	je	.Lunix_path_BB50_8
	cmpl	$46, %ecx
	jne	.Lunix_path_BB50_13
	cmpb	$47, -1(%rbx,%rax)
	jne	.Lunix_path_BB50_13
.Lunix_path_BB50_8:
	movq	%rdi, %rcx
	subq	%rax, %rcx
	cmpq	$8, %rcx
	jne	.Lunix_path_BB50_3
	movq	%rbx, %rcx
	movq	%rax, %rdx
	callq	unix_path.filler.trimmed_blocks_len
	jmp	.Lunix_path_BB50_3
.Lunix_path_BB50_11:
	xorl	%r14d, %r14d
	jmp	.Lunix_path_BB50_13
.Lunix_path_BB50_12:
	movl	$1, %r14d
.Lunix_path_BB50_13:
	pxor	%xmm0, %xmm0
	movdqa	%xmm0, 32(%rsp)
	movq	$0, 48(%rsp)
	leaq	32(%rsp), %rcx
	movq	%rbx, %rdx
	movq	%rdi, %r8
	callq	unix_path.path.Path.file_name
	cmpb	$1, 32(%rsp)
	jne	.Lunix_path_BB50_20
	subq	%r15, %r14
	movq	48(%rsp), %rcx
	xorl	%eax, %eax
	testq	%rcx, %rcx
	setne	%al
	movq	40(%rsp), %rdx
	addq	%rax, %rdx
	subq	%rax, %rcx
	cmpq	$15, %rcx
	ja	.Lunix_path_BB50_21
	testq	%rcx, %rcx
	je	.Lunix_path_BB50_28
	xorl	%r8d, %r8d
	.p2align	4
.Lunix_path_BB50_17:
	cmpb	$46, (%rdx,%r8)
	je	.Lunix_path_BB50_27
	incq	%r8
	cmpq	%r8, %rcx
	jne	.Lunix_path_BB50_17
	movq	%rcx, %r8
	jmp	.Lunix_path_BB50_27
.Lunix_path_BB50_20:
	xorl	%eax, %eax
	jmp	.Lunix_path_BB50_29
.Lunix_path_BB50_21:
	addq	$-16, %rcx
	je	.Lunix_path_BB50_25
	xorl	%r9d, %r9d
	.p2align	4
.Lunix_path_BB50_23:
	movdqu	(%rdx,%r9), %xmm0
	pcmpeqb	.Lunix_path_CPI50_0(%rip), %xmm0
	pmovmskb	%xmm0, %r8d
	orl	$65536, %r8d
	rep		bsfl	%r8d, %r8d
	cmpw	$15, %r8w
	jbe	.Lunix_path_BB50_26
	addq	$16, %r9
	cmpq	%rcx, %r9
	jb	.Lunix_path_BB50_23
.Lunix_path_BB50_25:
	movdqu	(%rdx,%rcx), %xmm0
	pcmpeqb	.Lunix_path_CPI50_0(%rip), %xmm0
	pmovmskb	%xmm0, %edx
	orl	$65536, %edx
	rep		bsfl	%edx, %r8d
	addq	%rcx, %r8
	jmp	.Lunix_path_BB50_27
.Lunix_path_BB50_26:
	movzwl	%r8w, %r8d
	addq	%r9, %r8
.Lunix_path_BB50_27:
	addq	%r8, %rax
.Lunix_path_BB50_28:
	movq	%r14, (%rsi)
	movq	%rax, 8(%rsi)
	movb	$1, %al
.Lunix_path_BB50_29:
	addq	$64, %rsp
	popq	%rbx
	popq	%rdi
	popq	%rsi
	popq	%r14
	popq	%r15
	retq
	.def	unix_path_file_stem;
	.scl	2;
	.type	32;
	.endef
	.section	.rdata,"dr"
	.p2align	4, 0x0
.Lunix_path_CPI51_0:
	.zero	16,46
.Lunix_path_CPI51_1:
	.zero	16,47
	.text
	.globl	unix_path_file_stem
	.p2align	4
unix_path_file_stem:
	pushq	%r15
	pushq	%r14
	pushq	%r12
	pushq	%rsi
	pushq	%rdi
	pushq	%rbp
	pushq	%rbx
	subq	$64, %rsp
	movq	%r8, %rsi
	movq	%rdx, %r14
	movq	%rcx, %rdi
	xorl	%r12d, %r12d
	testq	%rcx, %rcx
	sete	%r12b
	shll	$12, %r12d
	leaq	(%rcx,%r12), %rbx
	pxor	%xmm0, %xmm0
	movdqa	%xmm0, 32(%rsp)
	movq	$0, 48(%rsp)
	leaq	32(%rsp), %rcx
	movq	%rbx, %rdx
	movq	%r14, %r8
	callq	unix_path.path.Path.file_name
	movzbl	32(%rsp), %ebp
	cmpb	$1, %bpl
	jne	.Lunix_path_BB51_24
	movq	48(%rsp), %r15
	testq	%r14, %r14
	je	.Lunix_path_BB51_11
	movq	%r14, %rdx
	movq	%r14, %rax
	jmp	.Lunix_path_BB51_3
	.p2align	4
.Lunix_path_BB51_10:
	movq	%rax, %rdx
	testq	%rax, %rax
	je	.Lunix_path_BB51_11
.Lunix_path_BB51_3:
	decq	%rax
	je	.Lunix_path_BB51_4
	movzbl	(%rbx,%rax), %ecx
	cmpl	$47, %ecx
	je	.Lunix_path_BB51_8
	cmpl	$46, %ecx
	jne	.Lunix_path_BB51_12
	cmpb	$47, -1(%rbx,%rax)
	jne	.Lunix_path_BB51_12
.Lunix_path_BB51_8:
	movq	%r14, %rcx
	subq	%rax, %rcx
	cmpq	$8, %rcx
	jne	.Lunix_path_BB51_10
	movq	%rbx, %rcx
	movq	%rax, %rdx
	callq	unix_path.filler.trimmed_blocks_len
	jmp	.Lunix_path_BB51_10
.Lunix_path_BB51_11:
	xorl	%edx, %edx
	jmp	.Lunix_path_BB51_12
.Lunix_path_BB51_4:
	movl	$1, %edx
.Lunix_path_BB51_12:
	movq	%rdx, %rax
	subq	%r15, %rax
	leaq	(%rbx,%rax), %rcx
	addq	%rdx, %rbx
	xorl	%r8d, %r8d
	.p2align	4
.Lunix_path_BB51_13:
	leaq	(%r15,%r8), %r9
	cmpq	$15, %r9
	jbe	.Lunix_path_BB51_14
	movdqu	-16(%rbx,%r8), %xmm0
	movdqa	.Lunix_path_CPI51_0(%rip), %xmm1
	pcmpeqb	%xmm0, %xmm1
	pmovmskb	%xmm1, %r9d
	movl	$127, %r11d
	movl	$127, %r14d
	bsrq	%r9, %r14
	xorq	$63, %r14
	movl	$64, %r10d
	movl	$64, %r9d
	subq	%r14, %r9
	pcmpeqb	.Lunix_path_CPI51_1(%rip), %xmm0
	pmovmskb	%xmm0, %r14d
	bsrq	%r14, %r11
	xorq	$63, %r11
	subq	%r11, %r10
	cmpq	%r10, %r9
	movq	%r10, %r11
	cmovaq	%r9, %r11
	addq	$-16, %r8
	testq	%r11, %r11
	je	.Lunix_path_BB51_13
	cmpq	%r9, %r10
	cmovaq	%r10, %r9
	addq	%r15, %r9
	leaq	(%r9,%r8), %r10
	leaq	(%r8,%r9), %rdx
	decq	%rdx
	testq	%rdx, %rdx
	jne	.Lunix_path_BB51_21
	jmp	.Lunix_path_BB51_23
.Lunix_path_BB51_14:
	addq	%rdx, %r12
	addq	%r12, %rdi
	leaq	(%r8,%rdi), %rdx
	decq	%rdx
	negq	%r8
	.p2align	4
.Lunix_path_BB51_15:
	cmpq	%r8, %r15
	je	.Lunix_path_BB51_23
	movzbl	(%rdx), %r9d
	andb	$-2, %r9b
	incq	%r8
	decq	%rdx
	cmpb	$46, %r9b
	jne	.Lunix_path_BB51_15
	movq	%r15, %rdx
	subq	%r8, %rdx
	leaq	1(%rdx), %r10
	testq	%rdx, %rdx
	je	.Lunix_path_BB51_23
.Lunix_path_BB51_21:
	cmpb	$47, (%rcx,%rdx)
	je	.Lunix_path_BB51_23
	cmpb	$47, -2(%rcx,%r10)
	cmovneq	%rdx, %r15
.Lunix_path_BB51_23:
	movq	%rax, (%rsi)
	movq	%r15, 8(%rsi)
.Lunix_path_BB51_24:
	cmpb	$1, %bpl
	sete	%al
	addq	$64, %rsp
	popq	%rbx
	popq	%rbp
	popq	%rdi
	popq	%rsi
	popq	%r12
	popq	%r14
	popq	%r15
	retq
	.def	unix_path_from_key;
	.scl	2;
	.type	32;
	.endef
	.section	.rdata,"dr"
	.p2align	4, 0x0
.Lunix_path_CPI52_0:
	.zero	16,208
.Lunix_path_CPI52_1:
	.zero	16,47
.Lunix_path_CPI52_2:
	.byte	47
	.byte	47
	.byte	47
	.byte	47
	.byte	47
	.byte	47
	.byte	47
	.byte	47
	.zero	1
	.zero	1
	.zero	1
	.zero	1
	.zero	1
	.zero	1
	.zero	1
	.zero	1
	.text
	.globl	unix_path_from_key
	.p2align	4
unix_path_from_key:
	pushq	%r15
	pushq	%r14
	pushq	%r13
	pushq	%r12
	pushq	%rsi
	pushq	%rdi
	pushq	%rbp
	pushq	%rbx
	subq	$72, %rsp
	movdqa	%xmm6, 48(%rsp)
	movq	%r9, %r14
	movq	%r8, %rbx
	movq	%rdx, %rsi
	xorl	%edi, %edi
	testq	%rcx, %rcx
	sete	%dil
	shll	$12, %edi
	addq	%rcx, %rdi
	xorl	%r15d, %r15d
	testq	%r8, %r8
	sete	%bpl
	movq	%rdi, %rcx
	callq	path_keys.decode.path_len
	cmpb	$1, %al
	jne	.Lunix_path_BB52_4
	cmpq	%rdx, %r14
	jb	.Lunix_path_BB52_5
	movb	%bpl, %r15b
	shll	$12, %r15d
	leaq	(%rbx,%r15), %rcx
	cmpq	$2, %rsi
	jb	.Lunix_path_BB52_7
	cmpb	$0, (%rdi)
	je	.Lunix_path_BB52_74
.Lunix_path_BB52_7:
	xorl	%r8d, %r8d
.Lunix_path_BB52_8:
	leaq	1(%rdx), %r9
	leaq	(%r15,%rbx), %r10
	addq	$16, %r10
	leaq	(%r15,%rbx), %r11
	incq	%r11
	movq	%r11, 40(%rsp)
	jmp	.Lunix_path_BB52_11
	.p2align	4
.Lunix_path_BB52_9:
	incq	%rbx
	movq	%rbx, %r14
.Lunix_path_BB52_10:
	addq	%rbx, %r8
	addq	%r14, %rdi
	subq	%r14, %rsi
.Lunix_path_BB52_11:
	movq	%r9, %rbx
	subq	%r8, %rbx
	je	.Lunix_path_BB52_14
	cmpq	%rbx, %rsi
	jne	.Lunix_path_BB52_14
	leaq	-1(%rsi), %rbx
	jmp	.Lunix_path_BB52_46
	.p2align	4
.Lunix_path_BB52_14:
	cmpq	$2, %rsi
	jae	.Lunix_path_BB52_17
	testq	%rsi, %rsi
	je	.Lunix_path_BB52_5
	movzbl	(%rdi), %ebx
	jmp	.Lunix_path_BB52_21
	.p2align	4
.Lunix_path_BB52_17:
	movzbl	(%rdi), %ebx
	testb	%bl, %bl
	jne	.Lunix_path_BB52_21
	cmpb	$3, 1(%rdi)
	jne	.Lunix_path_BB52_21
	leaq	2(%r8), %r15
	movw	$11822, (%rcx,%r8)
	movl	$2, %r14d
	movl	$3, %ebx
	cmpq	%rdx, %r15
	jae	.Lunix_path_BB52_10
	movb	$47, (%rcx,%r15)
	jmp	.Lunix_path_BB52_10
	.p2align	4
.Lunix_path_BB52_21:
	cmpb	$47, %bl
	je	.Lunix_path_BB52_23
	movzbl	%bl, %ebx
	jmp	.Lunix_path_BB52_25
.Lunix_path_BB52_23:
	cmpq	$2, %rsi
	jb	.Lunix_path_BB52_5
	movzbl	1(%rdi), %ebx
	cmpl	$47, %ebx
	je	.Lunix_path_BB52_26
.Lunix_path_BB52_25:
	testl	%ebx, %ebx
	jne	.Lunix_path_BB52_28
	jmp	.Lunix_path_BB52_5
.Lunix_path_BB52_26:
	cmpq	$2, %rsi
	je	.Lunix_path_BB52_5
	cmpb	$0, 2(%rdi)
	je	.Lunix_path_BB52_5
.Lunix_path_BB52_28:
	cmpq	$18, %rsi
	ja	.Lunix_path_BB52_31
	cmpq	$9, %rsi
	jae	.Lunix_path_BB52_39
	xorl	%r14d, %r14d
	cmpq	%rsi, %r14
	jb	.Lunix_path_BB52_67
	jmp	.Lunix_path_BB52_44
.Lunix_path_BB52_31:
	movq	%rsi, %rbx
	xorl	%r14d, %r14d
	addq	$-19, %rbx
	jne	.Lunix_path_BB52_35
.Lunix_path_BB52_32:
	leaq	-17(%rsi), %r15
	cmpq	%r14, %r15
	cmovbq	%r15, %r14
	movdqu	(%rdi,%r14), %xmm0
	movdqu	1(%rdi,%r14), %xmm1
	pand	.Lunix_path_CPI52_0(%rip), %xmm1
	por	%xmm0, %xmm1
	pxor	%xmm0, %xmm0
	pcmpeqb	%xmm0, %xmm1
	pmovmskb	%xmm1, %ebp
	testl	%ebp, %ebp
	je	.Lunix_path_BB52_64
	movdqu	(%rdi,%rbx), %xmm1
	movdqu	1(%rdi,%rbx), %xmm2
	movdqu	2(%rdi,%rbx), %xmm3
	movdqu	3(%rdi,%rbx), %xmm4
	movdqa	.Lunix_path_CPI52_1(%rip), %xmm5
	movdqa	%xmm3, %xmm6
	pcmpeqb	%xmm5, %xmm6
	pcmpeqb	%xmm0, %xmm4
	pand	%xmm6, %xmm4
	pcmpeqb	%xmm2, %xmm5
	pcmpeqb	%xmm0, %xmm3
	por	%xmm4, %xmm3
	pand	%xmm5, %xmm3
	pcmpeqb	%xmm0, %xmm1
	pcmpeqb	%xmm0, %xmm2
	por	%xmm3, %xmm2
	pand	%xmm1, %xmm2
	pmovmskb	%xmm2, %ebp
	orl	$65536, %ebp
	rep		bsfl	%ebp, %r14d
	jmp	.Lunix_path_BB52_42
	.p2align	4
.Lunix_path_BB52_34:
	cmpq	%rbx, %r14
	jae	.Lunix_path_BB52_32
.Lunix_path_BB52_35:
	movdqu	(%rdi,%r14), %xmm0
	movdqu	1(%rdi,%r14), %xmm1
	movdqa	.Lunix_path_CPI52_0(%rip), %xmm3
	pand	%xmm1, %xmm3
	por	%xmm0, %xmm3
	pxor	%xmm2, %xmm2
	pcmpeqb	%xmm2, %xmm3
	pmovmskb	%xmm3, %ebp
	testl	%ebp, %ebp
	je	.Lunix_path_BB52_38
	movdqu	2(%rdi,%r14), %xmm3
	movdqu	3(%rdi,%r14), %xmm4
	movdqa	.Lunix_path_CPI52_1(%rip), %xmm5
	movdqa	%xmm3, %xmm6
	pcmpeqb	%xmm5, %xmm6
	pcmpeqb	%xmm2, %xmm4
	pand	%xmm6, %xmm4
	pcmpeqb	%xmm1, %xmm5
	pcmpeqb	%xmm2, %xmm3
	por	%xmm4, %xmm3
	pand	%xmm5, %xmm3
	pcmpeqb	%xmm2, %xmm0
	pcmpeqb	%xmm2, %xmm1
	por	%xmm3, %xmm1
	pand	%xmm0, %xmm1
	pmovmskb	%xmm1, %ebp
	orl	$65536, %ebp
	rep		bsfl	%ebp, %ebp
	cmpw	$15, %bp
	jbe	.Lunix_path_BB52_41
	addq	$16, %r14
	jmp	.Lunix_path_BB52_34
	.p2align	4
.Lunix_path_BB52_38:
	addq	$16, %r14
	cmpq	%rbx, %r14
	jb	.Lunix_path_BB52_35
	jmp	.Lunix_path_BB52_34
.Lunix_path_BB52_39:
	movq	(%rdi), %xmm1
	movq	1(%rdi), %xmm2
	pxor	%xmm0, %xmm0
	movdqa	%xmm2, %xmm3
	pcmpeqb	.Lunix_path_CPI52_2(%rip), %xmm2
	pcmpeqb	%xmm0, %xmm3
	por	%xmm3, %xmm2
	pcmpeqb	%xmm0, %xmm1
	pand	%xmm2, %xmm1
	pmovmskb	%xmm1, %ebx
	orl	$256, %ebx
	rep		bsfl	%ebx, %r14d
	cmpb	$8, %r14b
	jb	.Lunix_path_BB52_43
	cmpq	$17, %rsi
	movl	$17, %ebx
	cmovbq	%rsi, %rbx
	movq	-9(%rdi,%rbx), %xmm1
	movq	-8(%rdi,%rbx), %xmm2
	movdqa	%xmm2, %xmm3
	pcmpeqb	.Lunix_path_CPI52_2(%rip), %xmm2
	pcmpeqb	%xmm0, %xmm3
	por	%xmm3, %xmm2
	pcmpeqb	%xmm0, %xmm1
	pand	%xmm2, %xmm1
	pmovmskb	%xmm1, %ebp
	orl	$256, %ebp
	rep		bsfl	%ebp, %r14d
	addq	%rbx, %r14
	addq	$-9, %r14
	cmpq	%rsi, %r14
	jb	.Lunix_path_BB52_67
	jmp	.Lunix_path_BB52_44
.Lunix_path_BB52_41:
	movzwl	%bp, %ebx
.Lunix_path_BB52_42:
	addq	%rbx, %r14
.Lunix_path_BB52_43:
	cmpq	%rsi, %r14
	jb	.Lunix_path_BB52_67
.Lunix_path_BB52_44:
	movq	%r14, %rbx
.Lunix_path_BB52_45:
	cmpq	%rsi, %rbx
	je	.Lunix_path_BB52_5
.Lunix_path_BB52_46:
	cmpq	$15, %rbx
	ja	.Lunix_path_BB52_50
	testq	%rbx, %rbx
	je	.Lunix_path_BB52_62
	cmpq	$1, %rbx
	jne	.Lunix_path_BB52_55
	xorl	%r14d, %r14d
	jmp	.Lunix_path_BB52_58
	.p2align	4
.Lunix_path_BB52_50:
	movq	%rbx, %r14
	addq	$-16, %r14
	je	.Lunix_path_BB52_61
	leaq	-17(%rbx), %r12
	shrq	$4, %r12
	je	.Lunix_path_BB52_59
	incq	%r12
	movq	%r12, %r13
	andq	$-2, %r13
	leaq	(%r10,%r8), %rbp
	xorl	%r15d, %r15d
	.p2align	4
.Lunix_path_BB52_53:
	movdqu	(%rdi,%r15), %xmm0
	movdqa	.Lunix_path_CPI52_1(%rip), %xmm1
	movdqa	%xmm0, %xmm2
	pminub	%xmm1, %xmm2
	pcmpeqb	%xmm0, %xmm2
	paddb	%xmm0, %xmm2
	pxor	%xmm3, %xmm3
	pcmpeqb	%xmm3, %xmm0
	movdqa	%xmm0, %xmm4
	pandn	%xmm2, %xmm4
	pand	%xmm1, %xmm0
	por	%xmm4, %xmm0
	movdqu	%xmm0, -16(%rbp,%r15)
	movdqu	16(%rdi,%r15), %xmm0
	movdqa	%xmm0, %xmm2
	pminub	%xmm1, %xmm2
	pcmpeqb	%xmm0, %xmm2
	paddb	%xmm0, %xmm2
	pcmpeqb	%xmm3, %xmm0
	movdqa	%xmm0, %xmm3
	pandn	%xmm2, %xmm3
	pand	%xmm1, %xmm0
	por	%xmm3, %xmm0
	movdqu	%xmm0, (%rbp,%r15)
	addq	$32, %r15
	addq	$-2, %r13
	jne	.Lunix_path_BB52_53
	testb	$1, %r12b
	jne	.Lunix_path_BB52_60
	jmp	.Lunix_path_BB52_61
.Lunix_path_BB52_55:
	movl	%ebx, %r15d
	andl	$14, %r15d
	movq	40(%rsp), %r11
	leaq	(%r11,%r8), %r12
	xorl	%r14d, %r14d
	.p2align	4
.Lunix_path_BB52_56:
	movzbl	(%rdi,%r14), %ebp
	cmpb	$48, %bpl
	movl	%ebp, %r13d
	sbbb	$0, %r13b
	testb	%bpl, %bpl
	movzbl	%r13b, %ebp
	movl	$47, %r13d
	cmovel	%r13d, %ebp
	movb	%bpl, -1(%r12,%r14)
	movzbl	1(%rdi,%r14), %r11d
	cmpb	$48, %r11b
	movl	%r11d, %ebp
	sbbb	$0, %bpl
	testb	%r11b, %r11b
	movzbl	%bpl, %r11d
	cmovel	%r13d, %r11d
	movb	%r11b, (%r12,%r14)
	addq	$2, %r14
	cmpq	%r14, %r15
	jne	.Lunix_path_BB52_56
	testb	$1, %bl
	je	.Lunix_path_BB52_62
.Lunix_path_BB52_58:
	leaq	(%rcx,%r8), %r11
	movzbl	(%rdi,%r14), %ebp
	cmpb	$48, %bpl
	movl	%ebp, %r15d
	sbbb	$0, %r15b
	testb	%bpl, %bpl
	movzbl	%r15b, %ebp
	movl	$47, %r15d
	cmovnel	%ebp, %r15d
	movb	%r15b, (%r11,%r14)
	jmp	.Lunix_path_BB52_62
.Lunix_path_BB52_59:
	xorl	%r15d, %r15d
.Lunix_path_BB52_60:
	leaq	(%rcx,%r8), %r11
	movdqu	(%rdi,%r15), %xmm0
	movdqa	.Lunix_path_CPI52_1(%rip), %xmm1
	movdqa	%xmm0, %xmm2
	pminub	%xmm1, %xmm2
	pcmpeqb	%xmm0, %xmm2
	paddb	%xmm0, %xmm2
	pxor	%xmm3, %xmm3
	pcmpeqb	%xmm0, %xmm3
	movdqa	%xmm3, %xmm0
	pandn	%xmm2, %xmm0
	pand	%xmm1, %xmm3
	por	%xmm0, %xmm3
	movdqu	%xmm3, (%r11,%r15)
.Lunix_path_BB52_61:
	movdqu	(%rdi,%r14), %xmm0
	movdqa	.Lunix_path_CPI52_1(%rip), %xmm1
	movdqa	%xmm0, %xmm2
	pminub	%xmm1, %xmm2
	pcmpeqb	%xmm0, %xmm2
	paddb	%xmm0, %xmm2
	pxor	%xmm3, %xmm3
	pcmpeqb	%xmm0, %xmm3
	movdqa	%xmm3, %xmm0
	pandn	%xmm2, %xmm0
	pand	%xmm1, %xmm3
	por	%xmm0, %xmm3
	leaq	(%rcx,%r8), %r11
	movdqu	%xmm3, (%r14,%r11)
.Lunix_path_BB52_62:
	leaq	(%rbx,%r8), %r14
	cmpq	%rdx, %r14
	jae	.Lunix_path_BB52_9
	movb	$47, (%rcx,%r14)
	jmp	.Lunix_path_BB52_9
.Lunix_path_BB52_64:
	addq	$16, %r14
	cmpq	%rsi, %r14
	jb	.Lunix_path_BB52_67
	jmp	.Lunix_path_BB52_44
	.p2align	4
.Lunix_path_BB52_65:
	testl	%ebp, %ebp
	je	.Lunix_path_BB52_45
.Lunix_path_BB52_66:
	cmpq	%r14, %rsi
	je	.Lunix_path_BB52_5
.Lunix_path_BB52_67:
	movq	%r14, %rbx
	incq	%r14
	cmpb	$0, (%rdi,%rbx)
	jne	.Lunix_path_BB52_66
	cmpq	%r14, %rsi
	jbe	.Lunix_path_BB52_45
	movzbl	1(%rdi,%rbx), %ebp
	cmpl	$47, %ebp
	jne	.Lunix_path_BB52_65
	leaq	2(%rbx), %r15
	cmpq	%r15, %rsi
	jbe	.Lunix_path_BB52_45
	movzbl	2(%rdi,%rbx), %ebp
	cmpl	$47, %ebp
	jne	.Lunix_path_BB52_65
	leaq	3(%rbx), %r15
	cmpq	%r15, %rsi
	jbe	.Lunix_path_BB52_45
	cmpb	$0, 3(%rdi,%rbx)
	jne	.Lunix_path_BB52_66
	jmp	.Lunix_path_BB52_45
.Lunix_path_BB52_4:
	xorl	%edx, %edx
.Lunix_path_BB52_5:
	movabsq	$-9223372036854775808, %rcx
	cmpq	%rcx, %rdx
	cmovbq	%rdx, %rcx
	cmpb	$1, %al
	movq	$-5, %rax
	cmoveq	%rcx, %rax
	movaps	48(%rsp), %xmm6
	addq	$72, %rsp
	popq	%rbx
	popq	%rbp
	popq	%rdi
	popq	%rsi
	popq	%r12
	popq	%r13
	popq	%r14
	popq	%r15
	retq
.Lunix_path_BB52_74:
	movzbl	1(%rdi), %r8d
	cmpl	$2, %r8d
	je	.Lunix_path_BB52_78
	cmpl	$1, %r8d
	jne	.Lunix_path_BB52_7
	addq	$2, %rdi
	addq	$-2, %rsi
	movl	$1, %r8d
	testq	%rdx, %rdx
	je	.Lunix_path_BB52_8
	movb	$47, (%rcx)
	jmp	.Lunix_path_BB52_8
.Lunix_path_BB52_78:
	addq	$2, %rdi
	addq	$-2, %rsi
	cmpq	$2, %rdx
	jb	.Lunix_path_BB52_81
	leaq	.Lunix_path_static.9(%rip), %r8
	movq	%rcx, %r9
	subq	%r8, %r9
	cmpq	$1, %r9
	movw	$12078, (%rcx)
	movl	$2, %r8d
	jmp	.Lunix_path_BB52_8
.Lunix_path_BB52_81:
	movl	$2, %r8d
	cmpq	$1, %rdx
	jne	.Lunix_path_BB52_8
	movb	$46, (%rcx)
	jmp	.Lunix_path_BB52_8
	.def	unix_path_hash;
	.scl	2;
	.type	32;
	.endef
	.section	.rdata,"dr"
	.p2align	4, 0x0
.Lunix_path_CPI53_0:
	.zero	16,47
	.text
	.globl	unix_path_hash
	.p2align	4
unix_path_hash:
	pushq	%r15
	pushq	%r14
	pushq	%r13
	pushq	%r12
	pushq	%rsi
	pushq	%rdi
	pushq	%rbp
	pushq	%rbx
	subq	$104, %rsp
	movq	%rdx, %rbx
	movabsq	$8387220255154660723, %r15
	movabsq	$8317987319222330741, %rbp
	movabsq	$7816392313619706465, %r12
	movabsq	$7237128888997146477, %r13
	xorl	%edi, %edi
	testq	%rcx, %rcx
	sete	%al
	pxor	%xmm0, %xmm0
	movdqu	%xmm0, 64(%rsp)
	movq	%rbp, 32(%rsp)
	movq	%r13, 40(%rsp)
	movq	%r12, 48(%rsp)
	movq	%r15, 56(%rsp)
	testq	%rdx, %rdx
	je	.Lunix_path_BB53_82
	movq	%rcx, %rdx
	movb	%al, %dil
	shll	$12, %edi
	leaq	(%rcx,%rdi), %rax
	movq	%rax, 88(%rsp)
	movzbl	(%rax), %eax
	movb	$1, %sil
	cmpl	$47, %eax
	je	.Lunix_path_BB53_7
	cmpl	$46, %eax
	jne	.Lunix_path_BB53_6
	cmpq	$1, %rbx
	je	.Lunix_path_BB53_7
	leaq	(%rdx,%rdi), %rax
	cmpb	$47, 1(%rax)
	sete	%sil
	jmp	.Lunix_path_BB53_7
.Lunix_path_BB53_6:
	xorl	%esi, %esi
.Lunix_path_BB53_7:
	movq	%rbx, %r14
	movq	%rbx, %rax
	jmp	.Lunix_path_BB53_9
	.p2align	4
.Lunix_path_BB53_8:
	movq	%rax, %r14
	testq	%rax, %rax
	je	.Lunix_path_BB53_82
.Lunix_path_BB53_9:
	decq	%rax
	je	.Lunix_path_BB53_15
	leaq	(%rdx,%rdi), %rcx
	movzbl	(%rcx,%rax), %ecx
	cmpl	$47, %ecx
	je	.Lunix_path_BB53_13
	cmpl	$46, %ecx
	jne	.Lunix_path_BB53_15
	leaq	(%rdx,%rdi), %rcx
	cmpb	$47, -1(%rcx,%rax)
	jne	.Lunix_path_BB53_15
.Lunix_path_BB53_13:
	movq	%rbx, %rcx
	subq	%rax, %rcx
	cmpq	$8, %rcx
	jne	.Lunix_path_BB53_8
	leaq	(%rdx,%rdi), %rcx
	movq	%rdx, %r14
	movq	%rax, %rdx
	callq	unix_path.filler.trimmed_blocks_len
	movq	%r14, %rdx
	jmp	.Lunix_path_BB53_8
.Lunix_path_BB53_82:
	xorl	%eax, %eax
	jmp	.Lunix_path_BB53_83
.Lunix_path_BB53_15:
	leaq	(%rdi,%rdx), %rbx
	incq	%rbx
	leaq	(%rdi,%rdx), %rax
	addq	$3, %rax
	movq	%rax, 80(%rsp)
	leaq	(%rdi,%rdx), %r12
	addq	$2, %r12
	xorl	%r13d, %r13d
	movq	%r14, %rax
	jmp	.Lunix_path_BB53_20
.Lunix_path_BB53_16:
	movl	$1, %ecx
.Lunix_path_BB53_17:
	addq	%rcx, %r13
	cmpb	$47, (%rdi)
	leaq	.Lunix_path_static.8(%rip), %rax
	leaq	.Lunix_path_static.5(%rip), %rdi
	cmoveq	%rax, %rdi
.Lunix_path_BB53_18:
	movzbl	(%rdi), %eax
	orq	$12032, %rax
.Lunix_path_BB53_19:
	movq	%rax, 96(%rsp)
	leaq	32(%rsp), %rcx
	leaq	96(%rsp), %rdx
	callq	core.hash.sip.DefaultHasherHasher.write
	xorl	%esi, %esi
	movq	%r14, %rax
	subq	%r13, %rax
	je	.Lunix_path_BB53_81
.Lunix_path_BB53_20:
	movq	88(%rsp), %rcx
	leaq	(%rcx,%r13), %rdi
	testb	$1, %sil
	je	.Lunix_path_BB53_28
	movq	%rax, %rdx
	decq	%rdx
	je	.Lunix_path_BB53_16
	leaq	-1(%rax), %r8
	leaq	(%r12,%r13), %r9
	addq	$-2, %rax
	xorl	%ecx, %ecx
	jmp	.Lunix_path_BB53_24
	.p2align	4
.Lunix_path_BB53_23:
	incq	%rcx
	cmpq	%rcx, %r8
	je	.Lunix_path_BB53_56
.Lunix_path_BB53_24:
	movzbl	-1(%r9,%rcx), %r10d
	cmpl	$47, %r10d
	je	.Lunix_path_BB53_23
	cmpl	$46, %r10d
	jne	.Lunix_path_BB53_57
	cmpq	%rcx, %rax
	je	.Lunix_path_BB53_56
	cmpb	$47, (%r9,%rcx)
	je	.Lunix_path_BB53_23
	jmp	.Lunix_path_BB53_57
	.p2align	4
.Lunix_path_BB53_28:
	cmpq	$1, %rax
	je	.Lunix_path_BB53_34
	cmpb	$46, (%rdi)
	jne	.Lunix_path_BB53_34
	cmpb	$46, 1(%rdi)
	jne	.Lunix_path_BB53_34
	movl	$2, %ecx
	cmpq	$2, %rax
	je	.Lunix_path_BB53_73
	cmpb	$47, 2(%rdi)
	jne	.Lunix_path_BB53_34
	leaq	-2(%rax), %rdx
	movq	80(%rsp), %rcx
	leaq	(%rcx,%r13), %r8
	addq	$-3, %rax
	xorl	%ecx, %ecx
	jmp	.Lunix_path_BB53_40
	.p2align	4
.Lunix_path_BB53_34:
	cmpq	$15, %rax
	ja	.Lunix_path_BB53_44
	xorl	%r15d, %r15d
	.p2align	4
.Lunix_path_BB53_36:
	cmpb	$47, (%rdi,%r15)
	je	.Lunix_path_BB53_49
	incq	%r15
	cmpq	%r15, %rax
	jne	.Lunix_path_BB53_36
	movq	%rax, %r15
	subq	%r15, %rax
	jne	.Lunix_path_BB53_50
.Lunix_path_BB53_68:
	xorl	%esi, %esi
	movq	%r15, %rbp
	cmpq	$8, %r15
	jae	.Lunix_path_BB53_60
	jmp	.Lunix_path_BB53_61
	.p2align	4
.Lunix_path_BB53_39:
	incq	%rcx
	cmpq	%rcx, %rdx
	je	.Lunix_path_BB53_71
.Lunix_path_BB53_40:
	movzbl	-1(%r8,%rcx), %r9d
	cmpl	$47, %r9d
	je	.Lunix_path_BB53_39
	cmpl	$46, %r9d
	jne	.Lunix_path_BB53_72
	cmpq	%rcx, %rax
	je	.Lunix_path_BB53_71
	cmpb	$47, (%r8,%rcx)
	je	.Lunix_path_BB53_39
	jmp	.Lunix_path_BB53_72
	.p2align	4
.Lunix_path_BB53_44:
	movq	%rax, %rcx
	addq	$-16, %rcx
	je	.Lunix_path_BB53_48
	xorl	%edx, %edx
	.p2align	4
.Lunix_path_BB53_46:
	movdqu	(%rdi,%rdx), %xmm0
	pcmpeqb	.Lunix_path_CPI53_0(%rip), %xmm0
	pmovmskb	%xmm0, %r8d
	orl	$65536, %r8d
	rep		bsfl	%r8d, %r8d
	cmpw	$15, %r8w
	jbe	.Lunix_path_BB53_67
	addq	$16, %rdx
	cmpq	%rcx, %rdx
	jb	.Lunix_path_BB53_46
.Lunix_path_BB53_48:
	movdqu	(%rdi,%rcx), %xmm0
	pcmpeqb	.Lunix_path_CPI53_0(%rip), %xmm0
	pmovmskb	%xmm0, %edx
	orl	$65536, %edx
	rep		bsfl	%edx, %r15d
	addq	%rcx, %r15
.Lunix_path_BB53_49:
	subq	%r15, %rax
	je	.Lunix_path_BB53_68
.Lunix_path_BB53_50:
	leaq	(%r15,%r13), %rcx
	addq	%rbx, %rcx
	leaq	-1(%rax), %rdx
	xorl	%esi, %esi
	jmp	.Lunix_path_BB53_52
	.p2align	4
.Lunix_path_BB53_51:
	incq	%rsi
	cmpq	%rsi, %rax
	je	.Lunix_path_BB53_58
.Lunix_path_BB53_52:
	movzbl	-1(%rcx,%rsi), %r8d
	cmpl	$47, %r8d
	je	.Lunix_path_BB53_51
	cmpl	$46, %r8d
	jne	.Lunix_path_BB53_59
	cmpq	%rsi, %rdx
	je	.Lunix_path_BB53_58
	cmpb	$47, (%rcx,%rsi)
	je	.Lunix_path_BB53_51
	jmp	.Lunix_path_BB53_59
.Lunix_path_BB53_56:
	movq	%rdx, %rcx
.Lunix_path_BB53_57:
	incq	%rcx
	jmp	.Lunix_path_BB53_17
.Lunix_path_BB53_58:
	movq	%rax, %rsi
.Lunix_path_BB53_59:
	movq	%r15, %rbp
	cmpq	$8, %r15
	jb	.Lunix_path_BB53_61
	.p2align	4
.Lunix_path_BB53_60:
	leaq	32(%rsp), %rcx
	movq	%rdi, %rdx
	callq	core.hash.sip.DefaultHasherHasher.write
	addq	$8, %rdi
	addq	$-8, %rbp
	cmpq	$7, %rbp
	ja	.Lunix_path_BB53_60
.Lunix_path_BB53_61:
	addq	%r15, %r13
	addq	%rsi, %r13
	testq	%rbp, %rbp
	je	.Lunix_path_BB53_66
	cmpq	$1, %rbp
	je	.Lunix_path_BB53_18
	cmpq	$2, %rbp
	jbe	.Lunix_path_BB53_74
	cmpq	$3, %rbp
	jne	.Lunix_path_BB53_69
	movzbl	(%rdi), %eax
	movzwl	1(%rdi), %ecx
	shll	$8, %ecx
	addq	%rcx, %rax
	addq	$788529152, %rax
	jmp	.Lunix_path_BB53_19
.Lunix_path_BB53_66:
	movl	$47, %eax
	jmp	.Lunix_path_BB53_19
.Lunix_path_BB53_67:
	movzwl	%r8w, %r15d
	addq	%rdx, %r15
	subq	%r15, %rax
	jne	.Lunix_path_BB53_50
	jmp	.Lunix_path_BB53_68
.Lunix_path_BB53_69:
	cmpq	$4, %rbp
	ja	.Lunix_path_BB53_75
	movl	(%rdi), %ecx
	movabsq	$201863462912, %rax
	jmp	.Lunix_path_BB53_80
.Lunix_path_BB53_71:
	movq	%rdx, %rcx
.Lunix_path_BB53_72:
	addq	$2, %rcx
.Lunix_path_BB53_73:
	addq	%rcx, %r13
	leaq	.Lunix_path_static.10(%rip), %rdi
.Lunix_path_BB53_74:
	movzwl	(%rdi), %eax
	orq	$3080192, %rax
	jmp	.Lunix_path_BB53_19
.Lunix_path_BB53_75:
	cmpq	$7, %rbp
	je	.Lunix_path_BB53_78
	cmpq	$5, %rbp
	jne	.Lunix_path_BB53_79
	movzbl	(%rdi), %eax
	movl	1(%rdi), %ecx
	shlq	$8, %rcx
	orq	%rax, %rcx
	movabsq	$51677046505472, %rax
	jmp	.Lunix_path_BB53_80
.Lunix_path_BB53_78:
	movzwl	(%rdi), %eax
	movzbl	2(%rdi), %ecx
	movl	3(%rdi), %edx
	shlq	$24, %rdx
	shll	$16, %ecx
	orq	%rax, %rcx
	orq	%rdx, %rcx
	movabsq	$3386706919782612992, %rax
	jmp	.Lunix_path_BB53_80
.Lunix_path_BB53_79:
	movzwl	(%rdi), %eax
	movl	2(%rdi), %ecx
	shlq	$16, %rcx
	orq	%rax, %rcx
	movabsq	$13229323905400832, %rax
.Lunix_path_BB53_80:
	orq	%rcx, %rax
	jmp	.Lunix_path_BB53_19
.Lunix_path_BB53_81:
	movq	32(%rsp), %rbp
	movq	40(%rsp), %r13
	movq	48(%rsp), %r12
	movq	56(%rsp), %r15
	movq	72(%rsp), %rax
	shlq	$56, %rax
	orq	64(%rsp), %rax
.Lunix_path_BB53_83:
	xorq	%rax, %r15
	addq	%r13, %rbp
	rolq	$13, %r13
	addq	%r15, %r12
	xorq	%rbp, %r13
	rolq	$16, %r15
	xorq	%r12, %r15
	rolq	$32, %rbp
	addq	%r13, %r12
	addq	%r15, %rbp
	rolq	$17, %r13
	xorq	%r12, %r13
	rolq	$21, %r15
	rolq	$32, %r12
	xorq	%rbp, %r15
	xorq	%rax, %rbp
	xorq	$255, %r12
	addq	%r13, %rbp
	addq	%r15, %r12
	rolq	$13, %r13
	xorq	%rbp, %r13
	rolq	$16, %r15
	rolq	$32, %rbp
	xorq	%r12, %r15
	addq	%r13, %r12
	rolq	$17, %r13
	addq	%r15, %rbp
	xorq	%r12, %r13
	rolq	$21, %r15
	xorq	%rbp, %r15
	rolq	$32, %r12
	addq	%r13, %rbp
	addq	%r15, %r12
	rolq	$13, %r13
	xorq	%rbp, %r13
	rolq	$16, %r15
	rolq	$32, %rbp
	xorq	%r12, %r15
	addq	%r13, %r12
	rolq	$17, %r13
	addq	%r15, %rbp
	xorq	%r12, %r13
	rolq	$21, %r15
	xorq	%rbp, %r15
	rolq	$32, %r12
	addq	%r13, %rbp
	addq	%r15, %r12
	rolq	$13, %r13
	xorq	%rbp, %r13
	rolq	$16, %r15
	xorq	%r12, %r15
	addq	%r13, %r12
	rolq	$17, %r13
	rolq	$21, %r15
	movq	%r12, %rax
	rolq	$32, %rax
	xorq	%r13, %r15
	xorq	%r12, %rax
	xorq	%r15, %rax
	addq	$104, %rsp
	popq	%rbx
	popq	%rbp
	popq	%rdi
	popq	%rsi
	popq	%r12
	popq	%r13
	popq	%r14
	popq	%r15
	retq
	.def	unix_path_is_absolute;
	.scl	2;
	.type	32;
	.endef
	.globl	unix_path_is_absolute
	.p2align	4
unix_path_is_absolute:
	testq	%rdx, %rdx
	je	.Lunix_path_BB54_1
	xorl	%eax, %eax
	testq	%rcx, %rcx
	sete	%al
	shll	$12, %eax
	cmpb	$47, (%rcx,%rax)
	sete	%al
	retq
.Lunix_path_BB54_1:
	xorl	%eax, %eax
	retq
	.def	unix_path_is_canonical;
	.scl	2;
	.type	32;
	.endef
	.section	.rdata,"dr"
	.p2align	4, 0x0
.Lunix_path_CPI55_0:
	.zero	16,46
.Lunix_path_CPI55_1:
	.zero	16,47
	.text
	.globl	unix_path_is_canonical
	.p2align	4
unix_path_is_canonical:
	pushq	%r14
	pushq	%rsi
	pushq	%rdi
	pushq	%rbx
	subq	$40, %rsp
	movq	%rdx, %rbx
	movq	%rcx, %rsi
	xorl	%r14d, %r14d
	testq	%rcx, %rcx
	sete	%r14b
	shll	$12, %r14d
	leaq	(%rcx,%r14), %rdi
	testq	%rdx, %rdx
	je	.Lunix_path_BB55_10
	movq	%rbx, %rcx
	movq	%rbx, %rax
	jmp	.Lunix_path_BB55_2
	.p2align	4
.Lunix_path_BB55_9:
	movq	%rax, %rcx
	testq	%rax, %rax
	je	.Lunix_path_BB55_10
.Lunix_path_BB55_2:
	decq	%rax
	je	.Lunix_path_BB55_3
	movzbl	(%rdi,%rax), %edx
	cmpl	$47, %edx
	je	.Lunix_path_BB55_7
	cmpl	$46, %edx
	jne	.Lunix_path_BB55_11
	cmpb	$47, -1(%rdi,%rax)
	jne	.Lunix_path_BB55_11
.Lunix_path_BB55_7:
	movq	%rbx, %rcx
	subq	%rax, %rcx
	cmpq	$8, %rcx
	jne	.Lunix_path_BB55_9
	movq	%rdi, %rcx
	movq	%rax, %rdx
	callq	unix_path.filler.trimmed_blocks_len
	jmp	.Lunix_path_BB55_9
.Lunix_path_BB55_10:
	xorl	%ecx, %ecx
.Lunix_path_BB55_11:
	cmpq	%rbx, %rcx
	jae	.Lunix_path_BB55_13
.Lunix_path_BB55_12:
	xorl	%eax, %eax
	jmp	.Lunix_path_BB55_33
.Lunix_path_BB55_3:
	movl	$1, %ecx
	cmpq	%rbx, %rcx
	jb	.Lunix_path_BB55_12
.Lunix_path_BB55_13:
	movb	$1, %al
	cmpq	$2, %rcx
	jb	.Lunix_path_BB55_33
	cmpq	$18, %rcx
	jae	.Lunix_path_BB55_16
	xorl	%edx, %edx
	cmpq	%rcx, %rdx
	jb	.Lunix_path_BB55_23
	jmp	.Lunix_path_BB55_32
.Lunix_path_BB55_16:
	movq	%rcx, %rax
	addq	$-18, %rax
	je	.Lunix_path_BB55_21
	leaq	(%r14,%rsi), %rdx
	addq	$2, %rdx
	xorl	%r8d, %r8d
	.p2align	4
.Lunix_path_BB55_18:
	movdqu	-2(%rdx,%r8), %xmm0
	movdqu	-1(%rdx,%r8), %xmm1
	movdqu	(%rdx,%r8), %xmm2
	movdqa	.Lunix_path_CPI55_0(%rip), %xmm3
	pcmpeqb	%xmm1, %xmm3
	movdqa	.Lunix_path_CPI55_1(%rip), %xmm4
	pcmpeqb	%xmm4, %xmm2
	pand	%xmm3, %xmm2
	pcmpeqb	%xmm4, %xmm0
	pcmpeqb	%xmm4, %xmm1
	por	%xmm2, %xmm1
	pand	%xmm0, %xmm1
	pmovmskb	%xmm1, %r9d
	orl	$65536, %r9d
	rep		bsfl	%r9d, %r9d
	cmpw	$15, %r9w
	jbe	.Lunix_path_BB55_19
	addq	$16, %r8
	cmpq	%rax, %r8
	jb	.Lunix_path_BB55_18
.Lunix_path_BB55_21:
	movdqu	(%rdi,%rax), %xmm0
	movdqu	1(%rdi,%rax), %xmm1
	movdqu	2(%rdi,%rax), %xmm2
	movdqa	.Lunix_path_CPI55_0(%rip), %xmm3
	pcmpeqb	%xmm1, %xmm3
	movdqa	.Lunix_path_CPI55_1(%rip), %xmm4
	pcmpeqb	%xmm4, %xmm2
	pand	%xmm3, %xmm2
	pcmpeqb	%xmm4, %xmm0
	pcmpeqb	%xmm4, %xmm1
	por	%xmm2, %xmm1
	pand	%xmm0, %xmm1
	pmovmskb	%xmm1, %edx
	orl	$65536, %edx
	rep		bsfl	%edx, %edx
	addq	%rax, %rdx
	cmpq	%rcx, %rdx
	jb	.Lunix_path_BB55_23
	jmp	.Lunix_path_BB55_32
.Lunix_path_BB55_19:
	movzwl	%r9w, %edx
	addq	%r8, %rdx
	cmpq	%rcx, %rdx
	jae	.Lunix_path_BB55_32
.Lunix_path_BB55_23:
	leaq	(%r14,%rsi), %rax
	addq	$2, %rax
	leaq	-2(%rcx), %r8
	leaq	-1(%rcx), %r9
	jmp	.Lunix_path_BB55_24
	.p2align	4
.Lunix_path_BB55_27:
	cmpl	$47, %r10d
	je	.Lunix_path_BB55_32
.Lunix_path_BB55_30:
	incq	%rdx
	cmpq	%rdx, %rcx
	je	.Lunix_path_BB55_31
.Lunix_path_BB55_24:
	cmpb	$47, -2(%rax,%rdx)
	jne	.Lunix_path_BB55_30
	cmpq	%rdx, %r9
	je	.Lunix_path_BB55_32
	movzbl	-1(%rax,%rdx), %r10d
	cmpl	$46, %r10d
	jne	.Lunix_path_BB55_27
	cmpq	%rdx, %r8
	je	.Lunix_path_BB55_32
	cmpb	$47, (%rax,%rdx)
	jne	.Lunix_path_BB55_30
	jmp	.Lunix_path_BB55_32
.Lunix_path_BB55_31:
	movq	%rcx, %rdx
.Lunix_path_BB55_32:
	cmpq	%rcx, %rdx
	sete	%al
.Lunix_path_BB55_33:
	addq	$40, %rsp
	popq	%rbx
	popq	%rdi
	popq	%rsi
	popq	%r14
	retq
	.def	unix_path_is_utf8;
	.scl	2;
	.type	32;
	.endef
	.globl	unix_path_is_utf8
	.p2align	4
unix_path_is_utf8:
	pushq	%rsi
	subq	$32, %rsp
	movq	%rdx, %rsi
	movq	%rcx, %rax
	xorl	%ecx, %ecx
	testq	%rax, %rax
	sete	%cl
	shll	$12, %ecx
	addq	%rax, %rcx
	cmpq	$31, %rdx
	ja	.Lunix_path_BB56_2
	movq	%rsi, %rdx
	xorl	%r8d, %r8d
	callq	unix_bytes.utf8.scans.scan_by_sequence
	jmp	.Lunix_path_BB56_3
.Lunix_path_BB56_2:
	movq	%rsi, %rdx
	xorl	%r8d, %r8d
	callq	unix_bytes.utf8.scans.scan_by_window
.Lunix_path_BB56_3:
	cmpq	%rsi, %rax
	setae	%al
	addq	$32, %rsp
	popq	%rsi
	retq
	.def	unix_path_key;
	.scl	2;
	.type	32;
	.endef
	.section	.rdata,"dr"
	.p2align	4, 0x0
.Lunix_path_CPI57_0:
	.zero	16,47
.Lunix_path_CPI57_1:
	.zero	16,46
	.text
	.globl	unix_path_key
	.p2align	4
unix_path_key:
	pushq	%r15
	pushq	%r14
	pushq	%r13
	pushq	%r12
	pushq	%rsi
	pushq	%rdi
	pushq	%rbp
	pushq	%rbx
	subq	$40, %rsp
	movq	%r9, %r15
	movq	%r8, %r14
	movq	%rdx, %rsi
	xorl	%edi, %edi
	testq	%rcx, %rcx
	sete	%dil
	shll	$12, %edi
	addq	%rcx, %rdi
	xorl	%ebp, %ebp
	testq	%r8, %r8
	sete	39(%rsp)
	leaq	2(%rdx), %rbx
	cmpq	%r9, %rbx
	jbe	.Lunix_path_BB57_37
	testq	%rsi, %rsi
	je	.Lunix_path_BB57_9
	movzbl	(%rdi), %eax
	cmpl	$47, %eax
	je	.Lunix_path_BB57_6
	cmpl	$46, %eax
	jne	.Lunix_path_BB57_9
	cmpq	$1, %rsi
	je	.Lunix_path_BB57_6
	cmpb	$47, 1(%rdi)
	jne	.Lunix_path_BB57_9
.Lunix_path_BB57_6:
	movl	$2, %ebx
	jmp	.Lunix_path_BB57_10
.Lunix_path_BB57_9:
	xorl	%ebx, %ebx
.Lunix_path_BB57_10:
	xorl	%r8d, %r8d
	jmp	.Lunix_path_BB57_12
	.p2align	4
.Lunix_path_BB57_11:
	addq	%r12, %r8
	cmpq	$4, %r8
	jae	.Lunix_path_BB57_36
.Lunix_path_BB57_12:
	movq	%r8, %r12
	cmpq	%rsi, %r8
	jae	.Lunix_path_BB57_17
	movzbl	(%rdi,%r12), %eax
	movl	$1, %r8d
	cmpl	$47, %eax
	je	.Lunix_path_BB57_11
	cmpl	$46, %eax
	jne	.Lunix_path_BB57_17
	leaq	1(%r12), %rax
	cmpq	%rsi, %rax
	je	.Lunix_path_BB57_11
	movl	$2, %r8d
	cmpb	$47, (%rdi,%rax)
	je	.Lunix_path_BB57_11
.Lunix_path_BB57_17:
	movq	%rsi, %r13
	subq	%r12, %r13
	je	.Lunix_path_BB57_37
.Lunix_path_BB57_18:
	addq	%rdi, %r12
	jmp	.Lunix_path_BB57_21
.Lunix_path_BB57_19:
	movq	%r12, %rcx
	movq	%r13, %rdx
	callq	unix_path.filler.filler_end_from
	.p2align	4
.Lunix_path_BB57_20:
	addq	%rax, %r12
	subq	%rax, %r13
	je	.Lunix_path_BB57_37
.Lunix_path_BB57_21:
	movq	%r12, %rcx
	movq	%r13, %rdx
	callq	path_keys.encode.run_len
	cmpq	$1, %r13
	je	.Lunix_path_BB57_27
	cmpb	$46, (%r12)
	jne	.Lunix_path_BB57_27
	cmpb	$46, 1(%r12)
	jne	.Lunix_path_BB57_27
	cmpq	$2, %r13
	je	.Lunix_path_BB57_26
	cmpb	$47, 2(%r12)
	jne	.Lunix_path_BB57_27
.Lunix_path_BB57_26:
	movl	$2, %ecx
	jmp	.Lunix_path_BB57_28
	.p2align	4
.Lunix_path_BB57_27:
	leaq	1(%rax), %rcx
.Lunix_path_BB57_28:
	addq	%rcx, %rbx
	addq	%rax, %r12
	subq	%rax, %r13
	xorl	%r8d, %r8d
	jmp	.Lunix_path_BB57_30
	.p2align	4
.Lunix_path_BB57_29:
	addq	%rax, %r8
	cmpq	$4, %r8
	jae	.Lunix_path_BB57_19
.Lunix_path_BB57_30:
	movq	%r8, %rax
	cmpq	%r13, %r8
	jae	.Lunix_path_BB57_20
	movzbl	(%r12,%rax), %ecx
	movl	$1, %r8d
	cmpl	$47, %ecx
	je	.Lunix_path_BB57_29
	cmpl	$46, %ecx
	jne	.Lunix_path_BB57_20
	leaq	1(%rax), %rcx
	cmpq	%r13, %rcx
	je	.Lunix_path_BB57_29
	movl	$2, %r8d
	cmpb	$47, (%r12,%rcx)
	je	.Lunix_path_BB57_29
	jmp	.Lunix_path_BB57_20
.Lunix_path_BB57_36:
	movq	%rdi, %rcx
	movq	%rsi, %rdx
	callq	unix_path.filler.filler_end_from
	movq	%rax, %r12
	movq	%rsi, %r13
	subq	%r12, %r13
	jne	.Lunix_path_BB57_18
.Lunix_path_BB57_37:
	cmpq	%rbx, %r15
	jb	.Lunix_path_BB57_89
	movzbl	39(%rsp), %eax
	movb	%al, %bpl
	shll	$12, %ebp
	leaq	(%r14,%rbp), %r15
	testq	%rsi, %rsi
	je	.Lunix_path_BB57_46
	movzbl	(%rdi), %eax
	cmpl	$47, %eax
	je	.Lunix_path_BB57_43
	cmpl	$46, %eax
	jne	.Lunix_path_BB57_46
	cmpq	$1, %rsi
	je	.Lunix_path_BB57_43
	cmpb	$47, 1(%rdi)
	jne	.Lunix_path_BB57_46
.Lunix_path_BB57_43:
	xorl	%ecx, %ecx
	cmpb	$47, %al
	setne	%cl
	shll	$8, %ecx
	addl	$256, %ecx
	movw	%cx, (%r15)
	movl	$2, %ebx
	jmp	.Lunix_path_BB57_47
.Lunix_path_BB57_46:
	xorl	%ebx, %ebx
.Lunix_path_BB57_47:
	xorl	%r8d, %r8d
	jmp	.Lunix_path_BB57_49
	.p2align	4
.Lunix_path_BB57_48:
	addq	%rax, %r8
	cmpq	$4, %r8
	jae	.Lunix_path_BB57_88
.Lunix_path_BB57_49:
	movq	%r8, %rax
	cmpq	%rsi, %r8
	jae	.Lunix_path_BB57_54
	movzbl	(%rdi,%rax), %ecx
	movl	$1, %r8d
	cmpl	$47, %ecx
	je	.Lunix_path_BB57_48
	cmpl	$46, %ecx
	jne	.Lunix_path_BB57_54
	leaq	1(%rax), %rcx
	cmpq	%rsi, %rcx
	je	.Lunix_path_BB57_48
	movl	$2, %r8d
	cmpb	$47, (%rdi,%rcx)
	je	.Lunix_path_BB57_48
.Lunix_path_BB57_54:
	subq	%rax, %rsi
	je	.Lunix_path_BB57_89
.Lunix_path_BB57_55:
	addq	%rax, %rdi
	leaq	(%r14,%rbp), %r12
	addq	$16, %r12
	addq	%rbp, %r14
	incq	%r14
	jmp	.Lunix_path_BB57_58
.Lunix_path_BB57_56:
	movq	%rdi, %rcx
	movq	%rsi, %rdx
	callq	unix_path.filler.filler_end_from
	.p2align	4
.Lunix_path_BB57_57:
	addq	%rax, %rdi
	subq	%rax, %rsi
	je	.Lunix_path_BB57_89
.Lunix_path_BB57_58:
	movq	%rbx, %r13
	movq	%rdi, %rcx
	movq	%rsi, %rdx
	callq	path_keys.encode.run_len
	cmpq	$1, %rsi
	je	.Lunix_path_BB57_64
	cmpb	$46, (%rdi)
	jne	.Lunix_path_BB57_64
	cmpb	$46, 1(%rdi)
	jne	.Lunix_path_BB57_64
	cmpq	$2, %rsi
	je	.Lunix_path_BB57_63
	cmpb	$47, 2(%rdi)
	jne	.Lunix_path_BB57_64
.Lunix_path_BB57_63:
	movw	$768, (%r15,%r13)
	movl	$2, %ebx
	jmp	.Lunix_path_BB57_81
	.p2align	4
.Lunix_path_BB57_64:
	cmpq	$15, %rax
	ja	.Lunix_path_BB57_68
	testq	%rax, %rax
	je	.Lunix_path_BB57_80
	xorl	%ecx, %ecx
	cmpq	$1, %rax
	jne	.Lunix_path_BB57_73
	xorl	%edx, %edx
	jmp	.Lunix_path_BB57_76
	.p2align	4
.Lunix_path_BB57_68:
	movq	%rax, %rcx
	addq	$-16, %rcx
	je	.Lunix_path_BB57_79
	leaq	-17(%rax), %r8
	shrq	$4, %r8
	je	.Lunix_path_BB57_77
	incq	%r8
	movq	%r8, %r9
	andq	$-2, %r9
	leaq	(%r12,%r13), %r10
	xorl	%edx, %edx
	.p2align	4
.Lunix_path_BB57_71:
	movdqu	(%rdi,%rdx), %xmm0
	movdqa	.Lunix_path_CPI57_0(%rip), %xmm1
	movdqa	.Lunix_path_CPI57_1(%rip), %xmm2
	movdqa	%xmm0, %xmm3
	pminub	%xmm2, %xmm3
	pcmpeqb	%xmm0, %xmm3
	movdqa	%xmm0, %xmm4
	psubb	%xmm3, %xmm4
	pcmpeqb	%xmm1, %xmm0
	pandn	%xmm4, %xmm0
	movdqu	%xmm0, -16(%r10,%rdx)
	movdqu	16(%rdi,%rdx), %xmm0
	pminub	%xmm0, %xmm2
	pcmpeqb	%xmm0, %xmm2
	movdqa	%xmm0, %xmm3
	psubb	%xmm2, %xmm3
	pcmpeqb	%xmm1, %xmm0
	pandn	%xmm3, %xmm0
	movdqu	%xmm0, (%r10,%rdx)
	addq	$32, %rdx
	addq	$-2, %r9
	jne	.Lunix_path_BB57_71
	testb	$1, %r8b
	jne	.Lunix_path_BB57_78
	jmp	.Lunix_path_BB57_79
.Lunix_path_BB57_73:
	movl	%eax, %r8d
	andl	$14, %r8d
	leaq	(%r14,%r13), %r9
	xorl	%r10d, %r10d
	xorl	%edx, %edx
	.p2align	4
.Lunix_path_BB57_74:
	movzbl	(%rdi,%rdx), %r11d
	cmpb	$47, %r11b
	movl	%r11d, %ebx
	adcb	$0, %bl
	cmpb	$47, %r11b
	movzbl	%bl, %r11d
	cmovel	%r10d, %r11d
	movb	%r11b, -1(%r9,%rdx)
	movzbl	1(%rdi,%rdx), %r11d
	cmpb	$47, %r11b
	movl	%r11d, %ebx
	adcb	$0, %bl
	cmpb	$47, %r11b
	movzbl	%bl, %r11d
	cmovel	%r10d, %r11d
	movb	%r11b, (%r9,%rdx)
	addq	$2, %rdx
	cmpq	%rdx, %r8
	jne	.Lunix_path_BB57_74
	testb	$1, %al
	je	.Lunix_path_BB57_80
.Lunix_path_BB57_76:
	leaq	(%r15,%r13), %r8
	movzbl	(%rdi,%rdx), %r9d
	cmpb	$47, %r9b
	movl	%r9d, %r10d
	adcb	$0, %r10b
	cmpb	$47, %r9b
	movzbl	%r10b, %r9d
	cmovel	%ecx, %r9d
	movb	%r9b, (%r8,%rdx)
	jmp	.Lunix_path_BB57_80
.Lunix_path_BB57_77:
	xorl	%edx, %edx
.Lunix_path_BB57_78:
	leaq	(%r15,%r13), %r8
	movdqu	(%rdi,%rdx), %xmm0
	movdqa	.Lunix_path_CPI57_1(%rip), %xmm1
	pminub	%xmm0, %xmm1
	pcmpeqb	%xmm0, %xmm1
	movdqa	%xmm0, %xmm2
	psubb	%xmm1, %xmm2
	pcmpeqb	.Lunix_path_CPI57_0(%rip), %xmm0
	pandn	%xmm2, %xmm0
	movdqu	%xmm0, (%r8,%rdx)
.Lunix_path_BB57_79:
	movdqu	(%rdi,%rcx), %xmm0
	movdqa	.Lunix_path_CPI57_1(%rip), %xmm1
	pminub	%xmm0, %xmm1
	pcmpeqb	%xmm0, %xmm1
	movdqa	%xmm0, %xmm2
	pcmpeqb	.Lunix_path_CPI57_0(%rip), %xmm0
	psubb	%xmm1, %xmm2
	pandn	%xmm2, %xmm0
	leaq	(%r15,%r13), %rdx
	movdqu	%xmm0, (%rcx,%rdx)
.Lunix_path_BB57_80:
	leaq	(%r15,%r13), %rcx
	movb	$0, (%rax,%rcx)
	leaq	1(%rax), %rbx
.Lunix_path_BB57_81:
	addq	%r13, %rbx
	addq	%rax, %rdi
	subq	%rax, %rsi
	xorl	%r8d, %r8d
	jmp	.Lunix_path_BB57_83
	.p2align	4
.Lunix_path_BB57_82:
	addq	%rax, %r8
	cmpq	$4, %r8
	jae	.Lunix_path_BB57_56
.Lunix_path_BB57_83:
	movq	%r8, %rax
	cmpq	%rsi, %r8
	jae	.Lunix_path_BB57_57
	movzbl	(%rdi,%rax), %ecx
	movl	$1, %r8d
	cmpl	$47, %ecx
	je	.Lunix_path_BB57_82
	cmpl	$46, %ecx
	jne	.Lunix_path_BB57_57
	leaq	1(%rax), %rcx
	cmpq	%rsi, %rcx
	je	.Lunix_path_BB57_82
	movl	$2, %r8d
	cmpb	$47, (%rdi,%rcx)
	je	.Lunix_path_BB57_82
	jmp	.Lunix_path_BB57_57
.Lunix_path_BB57_88:
	movq	%rdi, %rcx
	movq	%rsi, %rdx
	callq	unix_path.filler.filler_end_from
	subq	%rax, %rsi
	jne	.Lunix_path_BB57_55
.Lunix_path_BB57_89:
	movq	%rbx, %rax
	addq	$40, %rsp
	popq	%rbx
	popq	%rbp
	popq	%rdi
	popq	%rsi
	popq	%r12
	popq	%r13
	popq	%r14
	popq	%r15
	retq
	.def	unix_path_next;
	.scl	2;
	.type	32;
	.endef
	.section	.rdata,"dr"
	.p2align	4, 0x0
.Lunix_path_CPI58_0:
	.zero	16,47
	.text
	.globl	unix_path_next
	.p2align	4
unix_path_next:
	pushq	%rsi
	pushq	%rdi
	pushq	%rbx
	subq	$32, %rsp
	movq	%rcx, %rax
	xorl	%ecx, %ecx
	testq	%rax, %rax
	sete	%cl
	shll	$12, %ecx
	addq	%rax, %rcx
	movq	(%r8), %rax
	movq	8(%r8), %r10
	cmpq	%r10, %rdx
	setb	%r11b
	subq	%rax, %r10
	setb	%bl
	leaq	.Lunix_path_static.0(%rip), %rsi
	sete	%dil
	orb	%r11b, %bl
	leaq	(%rcx,%rax), %r11
	testb	%bl, %bl
	cmovneq	%rsi, %r11
	orb	%dil, %bl
	je	.Lunix_path_BB58_2
	xorl	%eax, %eax
	jmp	.Lunix_path_BB58_47
.Lunix_path_BB58_2:
	movzbl	(%r11), %esi
	cmpl	$47, %esi
	je	.Lunix_path_BB58_46
	cmpl	$46, %esi
	jne	.Lunix_path_BB58_7
	cmpq	$1, %r10
	je	.Lunix_path_BB58_46
	cmpb	$47, 1(%r11)
	je	.Lunix_path_BB58_46
	leaq	-1(%r10), %rdi
	jmp	.Lunix_path_BB58_8
.Lunix_path_BB58_7:
	movq	%r10, %rdi
	decq	%rdi
	je	.Lunix_path_BB58_25
.Lunix_path_BB58_8:
	movzbl	(%r11,%rdi), %ebx
	cmpl	$47, %ebx
	je	.Lunix_path_BB58_46
	cmpl	$46, %ebx
	jne	.Lunix_path_BB58_11
	cmpb	$47, -1(%r11,%rdi)
	jne	.Lunix_path_BB58_11
.Lunix_path_BB58_46:
	callq	unix_path_c.walks.take_first
	jmp	.Lunix_path_BB58_47
.Lunix_path_BB58_11:
	cmpb	$46, %sil
	jne	.Lunix_path_BB58_24
	cmpb	$46, 1(%r11)
	jne	.Lunix_path_BB58_24
	movl	$2, %esi
	movl	$2, %ecx
	cmpq	$2, %r10
	jne	.Lunix_path_BB58_15
	movl	$2, %edx
	jmp	.Lunix_path_BB58_45
.Lunix_path_BB58_15:
	cmpb	$47, 2(%r11)
	jne	.Lunix_path_BB58_24
	leaq	-2(%r10), %rdi
	addq	$-3, %r10
	xorl	%edx, %edx
	jmp	.Lunix_path_BB58_17
.Lunix_path_BB58_24:
	cmpq	$15, %r10
	ja	.Lunix_path_BB58_29
.Lunix_path_BB58_25:
	xorl	%ecx, %ecx
	.p2align	4
.Lunix_path_BB58_26:
	cmpb	$47, (%r11,%rcx)
	je	.Lunix_path_BB58_35
	incq	%rcx
	cmpq	%rcx, %r10
	jne	.Lunix_path_BB58_26
	movq	%r10, %rcx
	jmp	.Lunix_path_BB58_35
.Lunix_path_BB58_21:
	incq	%rdx
	cmpq	%rdx, %rdi
	je	.Lunix_path_BB58_22
.Lunix_path_BB58_17:
	movzbl	2(%r11,%rdx), %ebx
	cmpl	$47, %ebx
	je	.Lunix_path_BB58_21
	cmpl	$46, %ebx
	jne	.Lunix_path_BB58_23
	cmpq	%rdx, %r10
	je	.Lunix_path_BB58_22
	cmpb	$47, 3(%r11,%rdx)
	je	.Lunix_path_BB58_21
	jmp	.Lunix_path_BB58_23
.Lunix_path_BB58_29:
	movq	%r10, %rdx
	addq	$-16, %rdx
	je	.Lunix_path_BB58_34
	xorl	%esi, %esi
	.p2align	4
.Lunix_path_BB58_31:
	movdqu	(%r11,%rsi), %xmm0
	pcmpeqb	.Lunix_path_CPI58_0(%rip), %xmm0
	pmovmskb	%xmm0, %ecx
	orl	$65536, %ecx
	rep		bsfl	%ecx, %ecx
	cmpw	$15, %cx
	jbe	.Lunix_path_BB58_32
	addq	$16, %rsi
	cmpq	%rdx, %rsi
	jb	.Lunix_path_BB58_31
.Lunix_path_BB58_34:
	movdqu	(%r11,%rdx), %xmm0
	pcmpeqb	.Lunix_path_CPI58_0(%rip), %xmm0
	pmovmskb	%xmm0, %ecx
	orl	$65536, %ecx
	rep		bsfl	%ecx, %ecx
	addq	%rdx, %rcx
	jmp	.Lunix_path_BB58_35
.Lunix_path_BB58_32:
	movzwl	%cx, %ecx
	addq	%rsi, %rcx
.Lunix_path_BB58_35:
	subq	%rcx, %r10
	je	.Lunix_path_BB58_36
	addq	%rcx, %r11
	incq	%r11
	leaq	-1(%r10), %rsi
	xorl	%edx, %edx
	jmp	.Lunix_path_BB58_38
	.p2align	4
.Lunix_path_BB58_42:
	incq	%rdx
	cmpq	%rdx, %r10
	je	.Lunix_path_BB58_43
.Lunix_path_BB58_38:
	movzbl	-1(%r11,%rdx), %edi
	cmpl	$47, %edi
	je	.Lunix_path_BB58_42
	cmpl	$46, %edi
	jne	.Lunix_path_BB58_44
	cmpq	%rdx, %rsi
	je	.Lunix_path_BB58_43
	cmpb	$47, (%r11,%rdx)
	je	.Lunix_path_BB58_42
	jmp	.Lunix_path_BB58_44
.Lunix_path_BB58_36:
	xorl	%edx, %edx
	jmp	.Lunix_path_BB58_44
.Lunix_path_BB58_43:
	movq	%r10, %rdx
.Lunix_path_BB58_44:
	addq	%rcx, %rdx
	movl	$3, %esi
.Lunix_path_BB58_45:
	movq	%rax, (%r9)
	movq	%rcx, 8(%r9)
	movl	%esi, 16(%r9)
	movl	$0, 20(%r9)
	addq	%rdx, (%r8)
	movb	$1, %al
.Lunix_path_BB58_47:
	addq	$32, %rsp
	popq	%rbx
	popq	%rdi
	popq	%rsi
	retq
.Lunix_path_BB58_22:
	movq	%rdi, %rdx
.Lunix_path_BB58_23:
	addq	$2, %rdx
	jmp	.Lunix_path_BB58_45
	.def	unix_path_next_ancestor;
	.scl	2;
	.type	32;
	.endef
	.globl	unix_path_next_ancestor
	.p2align	4
unix_path_next_ancestor:
	pushq	%r14
	pushq	%rsi
	pushq	%rdi
	pushq	%rbx
	subq	$40, %rsp
	movq	%rdx, %rsi
	movq	(%r8), %rbx
	cmpq	%rbx, %rdx
	jb	.Lunix_path_BB59_2
	movq	%r9, %rdi
	movq	%r8, %r14
	xorl	%eax, %eax
	testq	%rcx, %rcx
	sete	%al
	shll	$12, %eax
	addq	%rcx, %rax
	movq	%rax, %rcx
	movq	%rbx, %rdx
	callq	unix_path.path.Path.parent_len
	cmpb	$1, %al
	movq	$-1, %rax
	cmoveq	%rdx, %rax
	movq	%rax, (%r14)
	movq	$0, (%rdi)
	movq	%rbx, 8(%rdi)
.Lunix_path_BB59_2:
	cmpq	%rbx, %rsi
	setae	%al
	addq	$40, %rsp
	popq	%rbx
	popq	%rdi
	popq	%rsi
	popq	%r14
	retq
	.def	unix_path_next_back;
	.scl	2;
	.type	32;
	.endef
	.section	.rdata,"dr"
	.p2align	4, 0x0
.Lunix_path_CPI60_0:
	.zero	16,47
	.text
	.globl	unix_path_next_back
	.p2align	4
unix_path_next_back:
	pushq	%rsi
	pushq	%rdi
	pushq	%rbx
	subq	$32, %rsp
	movq	%rcx, %rax
	xorl	%ecx, %ecx
	testq	%rax, %rax
	sete	%cl
	shll	$12, %ecx
	addq	%rax, %rcx
	movq	(%r8), %r10
	movq	8(%r8), %rax
	cmpq	%rax, %rdx
	setb	%r11b
	subq	%r10, %rax
	setb	%bl
	leaq	.Lunix_path_static.0(%rip), %rsi
	sete	%dil
	orb	%r11b, %bl
	leaq	(%rcx,%r10), %r11
	testb	%bl, %bl
	cmovneq	%rsi, %r11
	orb	%dil, %bl
	je	.Lunix_path_BB60_2
	xorl	%eax, %eax
	jmp	.Lunix_path_BB60_16
.Lunix_path_BB60_2:
	movzbl	-1(%r11,%rax), %ebx
	addb	$-48, %bl
	cmpb	$-3, %bl
	ja	.Lunix_path_BB60_15
	movq	%rax, %rsi
	.p2align	4
.Lunix_path_BB60_4:
	cmpq	$15, %rsi
	jbe	.Lunix_path_BB60_5
	movdqu	-16(%r11,%rsi), %xmm0
	addq	$-16, %rsi
	pcmpeqb	.Lunix_path_CPI60_0(%rip), %xmm0
	pmovmskb	%xmm0, %edi
	testl	%edi, %edi
	je	.Lunix_path_BB60_4
	movzwl	%di, %edi
	bsrq	%rdi, %rdi
	xorq	$63, %rdi
	subq	%rdi, %rsi
	addq	$64, %rsi
	movq	%rsi, %rdi
	jmp	.Lunix_path_BB60_11
.Lunix_path_BB60_5:
	incq	%rsi
	.p2align	4
.Lunix_path_BB60_6:
	cmpq	$1, %rsi
	je	.Lunix_path_BB60_7
	leaq	-1(%rsi), %rdi
	cmpb	$47, -2(%r11,%rsi)
	movq	%rdi, %rsi
	jne	.Lunix_path_BB60_6
.Lunix_path_BB60_11:
	movl	$1, %esi
	movl	$1, %ebx
	cmpq	$2, %rdi
	jb	.Lunix_path_BB60_14
	movzbl	-2(%r11,%rdi), %r11d
	addb	$-48, %r11b
	cmpb	$-3, %r11b
	ja	.Lunix_path_BB60_15
	leaq	-1(%rdi), %rsi
	movq	%rdi, %rbx
	jmp	.Lunix_path_BB60_14
.Lunix_path_BB60_15:
	callq	unix_path_c.walks.take_last
	jmp	.Lunix_path_BB60_16
.Lunix_path_BB60_7:
	xorl	%esi, %esi
	xorl	%ebx, %ebx
.Lunix_path_BB60_14:
	addq	%rbx, %r10
	subq	%rbx, %rax
	movq	%r10, (%r9)
	movq	%rax, 8(%r9)
	movq	$3, 16(%r9)
	addq	(%r8), %rsi
	movq	%rsi, 8(%r8)
	movb	$1, %al
.Lunix_path_BB60_16:
	addq	$32, %rsp
	popq	%rbx
	popq	%rdi
	popq	%rsi
	retq
	.def	unix_path_next_chunk;
	.scl	2;
	.type	32;
	.endef
	.globl	unix_path_next_chunk
	.p2align	4
unix_path_next_chunk:
	pushq	%rsi
	pushq	%rdi
	pushq	%rbx
	subq	$96, %rsp
	movq	(%r8), %rbx
	subq	%rbx, %rdx
	jb	.Lunix_path_BB61_4
	movq	%r9, %rdi
	movq	%r8, %rsi
	xorl	%eax, %eax
	testq	%rcx, %rcx
	sete	%al
	shll	$12, %eax
	addq	%rcx, %rax
	addq	%rbx, %rax
	movq	%rax, 40(%rsp)
	movq	%rdx, 48(%rsp)
	leaq	56(%rsp), %rcx
	leaq	40(%rsp), %rdx
	callq	unix_bytes.lossy.Utf8LossyChunksIterIterator.next
	cmpb	$1, 56(%rsp)
	jne	.Lunix_path_BB61_4
	movq	72(%rsp), %rax
	movq	88(%rsp), %rcx
	movq	%rbx, (%rdi)
	movq	%rax, 8(%rdi)
	movq	%rcx, 16(%rdi)
	addq	%rbx, %rax
	addq	%rcx, %rax
	movq	%rax, (%rsi)
	movb	$1, %al
	jmp	.Lunix_path_BB61_5
.Lunix_path_BB61_4:
	xorl	%eax, %eax
.Lunix_path_BB61_5:
	addq	$96, %rsp
	popq	%rbx
	popq	%rdi
	popq	%rsi
	retq
	.def	unix_path_parent;
	.scl	2;
	.type	32;
	.endef
	.globl	unix_path_parent
	.p2align	4
unix_path_parent:
	pushq	%rsi
	subq	$32, %rsp
	movq	%r8, %rsi
	xorl	%eax, %eax
	testq	%rcx, %rcx
	sete	%al
	shll	$12, %eax
	addq	%rax, %rcx
	callq	unix_path.path.Path.parent_len
	cmpb	$1, %al
	jne	.Lunix_path_BB62_2
	movq	$0, (%rsi)
	movq	%rdx, 8(%rsi)
.Lunix_path_BB62_2:
	cmpb	$1, %al
	sete	%al
	addq	$32, %rsp
	popq	%rsi
	retq
	.def	unix_path_relative_path;
	.scl	2;
	.type	32;
	.endef
	.section	.rdata,"dr"
	.p2align	4, 0x0
.Lunix_path_CPI63_0:
	.zero	16,47
	.text
	.globl	unix_path_relative_path
	.p2align	4
unix_path_relative_path:
	pushq	%r15
	pushq	%r14
	pushq	%r13
	pushq	%r12
	pushq	%rsi
	pushq	%rdi
	pushq	%rbp
	pushq	%rbx
	subq	$248, %rsp
	movq	%r9, %r15
	movq	%rdx, %r14
	movq	352(%rsp), %r12
	xorl	%r13d, %r13d
	testq	%rcx, %rcx
	sete	%r13b
	shll	$12, %r13d
	movq	%rcx, 88(%rsp)
	leaq	(%rcx,%r13), %rdi
	xorl	%ecx, %ecx
	testq	%r8, %r8
	sete	%cl
	shll	$12, %ecx
	movq	%r8, 80(%rsp)
	movq	%rcx, 48(%rsp)
	leaq	(%r8,%rcx), %rsi
	xorl	%ebp, %ebp
	testq	%r12, %r12
	sete	%dl
	testq	%r14, %r14
	je	.Lunix_path_BB63_3
	movzbl	(%rdi), %eax
	testq	%r15, %r15
	je	.Lunix_path_BB63_6
	cmpb	$47, %al
	sete	%al
	cmpb	$47, (%rsi)
	sete	%cl
	xorb	%al, %cl
	je	.Lunix_path_BB63_5
	jmp	.Lunix_path_BB63_17
.Lunix_path_BB63_3:
	testq	%r15, %r15
	je	.Lunix_path_BB63_7
	cmpb	$47, (%rsi)
	je	.Lunix_path_BB63_17
.Lunix_path_BB63_5:
	xorl	%ebx, %ebx
	jmp	.Lunix_path_BB63_8
.Lunix_path_BB63_6:
	movb	$1, %bl
	cmpb	$47, %al
	jne	.Lunix_path_BB63_8
	jmp	.Lunix_path_BB63_17
.Lunix_path_BB63_7:
	movb	$1, %bl
.Lunix_path_BB63_8:
	movb	%dl, 63(%rsp)
	movq	%rdi, %rcx
	movq	%r14, %rdx
	callq	path_within.outlined.is_names_only
	testb	%al, %al
	je	.Lunix_path_BB63_16
	movq	%rsi, %rcx
	movq	%r15, %rdx
	callq	path_within.outlined.is_names_only
	testb	%al, %al
	je	.Lunix_path_BB63_16
	cmpq	%r14, %r15
	movq	%r14, %rax
	cmovbq	%r15, %rax
	cmpq	$15, %rax
	ja	.Lunix_path_BB63_30
	cmpq	$7, %rax
	ja	.Lunix_path_BB63_38
	testq	%rax, %rax
	je	.Lunix_path_BB63_55
	movzbl	(%rdi), %ecx
	cmpb	(%rsi), %cl
	jne	.Lunix_path_BB63_55
	cmpq	$1, %rax
	jne	.Lunix_path_BB63_359
.Lunix_path_BB63_15:
	movq	%rax, %rcx
	jmp	.Lunix_path_BB63_56
.Lunix_path_BB63_16:
	movq	%r13, 120(%rsp)
	pxor	%xmm0, %xmm0
	movdqa	%xmm0, 128(%rsp)
	movq	$0, 144(%rsp)
	movdqa	%xmm0, 176(%rsp)
	movq	$0, 192(%rsp)
	leaq	128(%rsp), %rcx
	movq	%rdi, %rdx
	movq	%r14, %r8
	callq	path_within.backward.count_resolved
	leaq	176(%rsp), %rcx
	movq	%rsi, %rdx
	movq	%r15, %r8
	callq	path_within.backward.count_resolved
	movq	176(%rsp), %r13
	subq	128(%rsp), %r13
	jae	.Lunix_path_BB63_18
.Lunix_path_BB63_17:
	movq	$-8, %rax
	jmp	.Lunix_path_BB63_457
.Lunix_path_BB63_18:
	jbe	.Lunix_path_BB63_20
	movq	184(%rsp), %rax
	movq	%rax, 96(%rsp)
	movq	192(%rsp), %r9
	addq	136(%rsp), %r13
	jmp	.Lunix_path_BB63_416
.Lunix_path_BB63_20:
	movq	136(%rsp), %r13
	movq	184(%rsp), %rbp
	testq	%r14, %r14
	je	.Lunix_path_BB63_37
	movzbl	-1(%rdi,%r14), %eax
	andb	$-2, %al
	cmpb	$46, %al
	jne	.Lunix_path_BB63_40
	movq	%r14, %r12
	movq	%r14, %rax
	jmp	.Lunix_path_BB63_24
	.p2align	4
.Lunix_path_BB63_23:
	movq	%rax, %r12
	testq	%rax, %rax
	je	.Lunix_path_BB63_37
.Lunix_path_BB63_24:
	decq	%rax
	je	.Lunix_path_BB63_45
	movzbl	(%rdi,%rax), %ecx
	cmpl	$47, %ecx
	je	.Lunix_path_BB63_28
	cmpl	$46, %ecx
	jne	.Lunix_path_BB63_41
	cmpb	$47, -1(%rdi,%rax)
	jne	.Lunix_path_BB63_41
.Lunix_path_BB63_28:
	movq	%r14, %rcx
	subq	%rax, %rcx
	cmpq	$8, %rcx
	jne	.Lunix_path_BB63_23
	movq	%rdi, %rcx
	movq	%rax, %rdx
	callq	unix_path.filler.trimmed_blocks_len
	jmp	.Lunix_path_BB63_23
.Lunix_path_BB63_30:
	leaq	-16(%rax), %rdx
	xorl	%r8d, %r8d
	cmpq	$64, %rax
	jb	.Lunix_path_BB63_35
	.p2align	4
.Lunix_path_BB63_31:
	movdqu	(%rdi,%r8), %xmm0
	movdqu	16(%rdi,%r8), %xmm1
	movdqu	32(%rdi,%r8), %xmm2
	movdqu	48(%rdi,%r8), %xmm3
	movdqu	(%rsi,%r8), %xmm4
	pcmpeqb	%xmm0, %xmm4
	movdqu	16(%rsi,%r8), %xmm0
	pcmpeqb	%xmm1, %xmm0
	pand	%xmm4, %xmm0
	movdqu	32(%rsi,%r8), %xmm1
	pcmpeqb	%xmm2, %xmm1
	movdqu	48(%rsi,%r8), %xmm2
	pcmpeqb	%xmm3, %xmm2
	pand	%xmm1, %xmm2
	pand	%xmm0, %xmm2
	pmovmskb	%xmm2, %ecx
	cmpl	$65535, %ecx
	jne	.Lunix_path_BB63_35
	addq	$64, %r8
	addq	$-64, %rax
	cmpq	$63, %rax
	ja	.Lunix_path_BB63_31
	jmp	.Lunix_path_BB63_35
	.p2align	4
.Lunix_path_BB63_33:
	movdqu	(%rdi,%r8), %xmm0
	movdqu	(%rsi,%r8), %xmm1
	pcmpeqb	%xmm0, %xmm1
	pmovmskb	%xmm1, %eax
	notl	%eax
	rep		bsfl	%eax, %eax
	cmpw	$15, %ax
	jbe	.Lunix_path_BB63_43
	addq	$16, %r8
.Lunix_path_BB63_35:
	cmpq	%rdx, %r8
	jb	.Lunix_path_BB63_33
	movdqu	(%rdi,%rdx), %xmm0
	movdqu	(%rsi,%rdx), %xmm1
	pcmpeqb	%xmm0, %xmm1
	pmovmskb	%xmm1, %eax
	notl	%eax
	rep		bsfl	%eax, %ecx
	addq	%rdx, %rcx
	jmp	.Lunix_path_BB63_56
.Lunix_path_BB63_37:
	xorl	%r12d, %r12d
	testb	%bl, %bl
	jne	.Lunix_path_BB63_42
	jmp	.Lunix_path_BB63_46
.Lunix_path_BB63_38:
	movq	(%rdi), %xmm0
	movq	(%rsi), %xmm1
	pcmpeqb	%xmm0, %xmm1
	pmovmskb	%xmm1, %ecx
	notl	%ecx
	orl	$256, %ecx
	rep		bsfl	%ecx, %ecx
	cmpb	$8, %cl
	jb	.Lunix_path_BB63_56
	movq	-8(%rdi,%rax), %xmm0
	movq	-8(%rsi,%rax), %xmm1
	pcmpeqb	%xmm0, %xmm1
	pmovmskb	%xmm1, %ecx
	notl	%ecx
	orl	$256, %ecx
	rep		bsfl	%ecx, %ecx
	addq	%rax, %rcx
	addq	$-8, %rcx
	jmp	.Lunix_path_BB63_56
.Lunix_path_BB63_40:
	movq	%r14, %r12
.Lunix_path_BB63_41:
	testb	%bl, %bl
	je	.Lunix_path_BB63_46
.Lunix_path_BB63_42:
	xorl	%r14d, %r14d
	jmp	.Lunix_path_BB63_312
.Lunix_path_BB63_55:
	xorl	%ecx, %ecx
	jmp	.Lunix_path_BB63_56
.Lunix_path_BB63_43:
	movzwl	%ax, %ecx
	addq	%r8, %rcx
.Lunix_path_BB63_56:
	movq	88(%rsp), %rax
	addq	%r13, %rax
	addq	$-16, %rax
	.p2align	4
.Lunix_path_BB63_57:
	cmpq	$15, %rcx
	jbe	.Lunix_path_BB63_60
	movdqu	(%rax,%rcx), %xmm0
	addq	$-16, %rcx
	pcmpeqb	.Lunix_path_CPI63_0(%rip), %xmm0
	pmovmskb	%xmm0, %edx
	testl	%edx, %edx
	je	.Lunix_path_BB63_57
	movzwl	%dx, %eax
	bsrq	%rax, %rax
	xorq	$63, %rax
	subq	%rax, %rcx
	addq	$64, %rcx
	movq	%rcx, %rbx
	cmpq	%rbx, %r14
	ja	.Lunix_path_BB63_65
	jmp	.Lunix_path_BB63_81
.Lunix_path_BB63_60:
	incq	%rcx
	.p2align	4
.Lunix_path_BB63_61:
	cmpq	$1, %rcx
	je	.Lunix_path_BB63_64
	leaq	-1(%rcx), %rbx
	cmpb	$47, -2(%rdi,%rcx)
	movq	%rbx, %rcx
	jne	.Lunix_path_BB63_61
	cmpq	%rbx, %r14
	ja	.Lunix_path_BB63_65
	jmp	.Lunix_path_BB63_81
.Lunix_path_BB63_64:
	xorl	%ebx, %ebx
	cmpq	%rbx, %r14
	jbe	.Lunix_path_BB63_81
.Lunix_path_BB63_65:
	movzbl	(%rdi,%rbx), %eax
	cmpl	$47, %eax
	je	.Lunix_path_BB63_81
	cmpl	$46, %eax
	jne	.Lunix_path_BB63_73
	leaq	1(%rbx), %rax
	cmpq	%rax, %r14
	jbe	.Lunix_path_BB63_81
	movzbl	(%rdi,%rax), %eax
	cmpl	$47, %eax
	je	.Lunix_path_BB63_81
	cmpl	$46, %eax
	jne	.Lunix_path_BB63_73
	leaq	2(%rbx), %rax
	cmpq	%rax, %r14
	jbe	.Lunix_path_BB63_81
	cmpq	%rbx, %r15
	jbe	.Lunix_path_BB63_81
	cmpb	$47, 2(%rdi,%rbx)
	jne	.Lunix_path_BB63_74
	jmp	.Lunix_path_BB63_81
.Lunix_path_BB63_73:
	cmpq	%rbx, %r15
	jbe	.Lunix_path_BB63_81
.Lunix_path_BB63_74:
	movzbl	(%rsi,%rbx), %eax
	cmpl	$47, %eax
	je	.Lunix_path_BB63_81
	cmpl	$46, %eax
	jne	.Lunix_path_BB63_82
	leaq	1(%rbx), %rax
	cmpq	%rax, %r15
	jbe	.Lunix_path_BB63_81
	movzbl	(%rsi,%rax), %eax
	cmpl	$47, %eax
	je	.Lunix_path_BB63_81
	cmpl	$46, %eax
	jne	.Lunix_path_BB63_82
	leaq	2(%rbx), %rax
	cmpq	%rax, %r15
	jbe	.Lunix_path_BB63_81
	cmpb	$47, (%rsi,%rax)
	jne	.Lunix_path_BB63_82
.Lunix_path_BB63_81:
	xorl	%ebx, %ebx
.Lunix_path_BB63_82:
	addq	%rbx, %rdi
	subq	%rbx, %r14
	je	.Lunix_path_BB63_87
	movzbl	(%rdi), %eax
	movl	$257, %ebp
	cmpl	$47, %eax
	je	.Lunix_path_BB63_90
	cmpl	$46, %eax
	jne	.Lunix_path_BB63_89
	cmpq	$1, %r14
	je	.Lunix_path_BB63_90
	xorl	%eax, %eax
	cmpb	$47, 1(%rdi)
	cmovneq	%rax, %rbp
	jmp	.Lunix_path_BB63_90
.Lunix_path_BB63_87:
	xorl	%ebp, %ebp
.Lunix_path_BB63_88:
	movq	$0, 112(%rsp)
	jmp	.Lunix_path_BB63_99
.Lunix_path_BB63_89:
	xorl	%ebp, %ebp
.Lunix_path_BB63_90:
	movq	%r14, %rax
	movq	%r14, 112(%rsp)
	jmp	.Lunix_path_BB63_92
	.p2align	4
.Lunix_path_BB63_91:
	movq	%rax, 112(%rsp)
	testq	%rax, %rax
	je	.Lunix_path_BB63_88
.Lunix_path_BB63_92:
	decq	%rax
	je	.Lunix_path_BB63_98
	movzbl	(%rdi,%rax), %ecx
	cmpl	$47, %ecx
	je	.Lunix_path_BB63_96
	cmpl	$46, %ecx
	jne	.Lunix_path_BB63_99
	cmpb	$47, -1(%rdi,%rax)
	jne	.Lunix_path_BB63_99
.Lunix_path_BB63_96:
	movq	%r14, %rcx
	subq	%rax, %rcx
	cmpq	$8, %rcx
	jne	.Lunix_path_BB63_91
	movq	%rdi, %rcx
	movq	%rax, %rdx
	callq	unix_path.filler.trimmed_blocks_len
	jmp	.Lunix_path_BB63_91
.Lunix_path_BB63_98:
	movl	$1, %eax
	movq	%rax, 112(%rsp)
.Lunix_path_BB63_99:
	addq	%rbx, %rsi
	subq	%rbx, %r15
	movq	%rbp, 64(%rsp)
	je	.Lunix_path_BB63_104
	movzbl	(%rsi), %eax
	cmpl	$47, %eax
	je	.Lunix_path_BB63_105
	cmpl	$46, %eax
	jne	.Lunix_path_BB63_106
	cmpq	$1, %r15
	jne	.Lunix_path_BB63_107
.Lunix_path_BB63_105:
	xorl	%r12d, %r12d
	jmp	.Lunix_path_BB63_108
.Lunix_path_BB63_104:
	movq	$0, 72(%rsp)
	movb	$1, %r12b
	jmp	.Lunix_path_BB63_118
.Lunix_path_BB63_106:
	movb	$1, %r12b
	jmp	.Lunix_path_BB63_108
.Lunix_path_BB63_107:
	cmpb	$47, 1(%rsi)
	setne	%r12b
.Lunix_path_BB63_108:
	movq	%r15, %rax
	movq	%r15, 72(%rsp)
	jmp	.Lunix_path_BB63_110
	.p2align	4
.Lunix_path_BB63_109:
	movq	%rax, 72(%rsp)
	testq	%rax, %rax
	je	.Lunix_path_BB63_117
.Lunix_path_BB63_110:
	decq	%rax
	je	.Lunix_path_BB63_116
	movzbl	(%rsi,%rax), %ecx
	cmpl	$47, %ecx
	je	.Lunix_path_BB63_114
	cmpl	$46, %ecx
	jne	.Lunix_path_BB63_118
	cmpb	$47, -1(%rsi,%rax)
	jne	.Lunix_path_BB63_118
.Lunix_path_BB63_114:
	movq	%r15, %rcx
	subq	%rax, %rcx
	cmpq	$8, %rcx
	jne	.Lunix_path_BB63_109
	movq	%rsi, %rcx
	movq	%rax, %rdx
	callq	unix_path.filler.trimmed_blocks_len
	jmp	.Lunix_path_BB63_109
.Lunix_path_BB63_116:
	movl	$1, %eax
	movq	%rax, 72(%rsp)
	jmp	.Lunix_path_BB63_118
.Lunix_path_BB63_117:
	movq	$0, 72(%rsp)
.Lunix_path_BB63_118:
	addq	%rbx, %r13
	movq	88(%rsp), %rax
	leaq	(%rax,%r13), %rcx
	addq	$2, %rcx
	movq	%rcx, 224(%rsp)
	leaq	1(%rax,%r13), %rcx
	movq	%rcx, 216(%rsp)
	movq	%r13, 120(%rsp)
	addq	%r13, %rax
	addq	$3, %rax
	movq	%rax, 200(%rsp)
	movq	48(%rsp), %rcx
	addq	%rbx, %rcx
	movq	80(%rsp), %rax
	leaq	(%rax,%rcx), %rdx
	addq	$2, %rdx
	movq	%rdx, 240(%rsp)
	leaq	1(%rax,%rcx), %rdx
	movq	%rdx, 232(%rsp)
	addq	%rcx, %rax
	addq	$3, %rax
	movq	%rax, 208(%rsp)
	xorl	%r14d, %r14d
	xorl	%r9d, %r9d
	.p2align	4
.Lunix_path_BB63_119:
	movq	%r14, %r11
	leaq	(%rdi,%r14), %r15
	movq	112(%rsp), %rbp
	subq	%r14, %rbp
	movq	%r15, 104(%rsp)
	movq	%r14, 96(%rsp)
	je	.Lunix_path_BB63_127
	testl	$256, 64(%rsp)
	jne	.Lunix_path_BB63_134
	cmpq	$1, %rbp
	je	.Lunix_path_BB63_177
	cmpb	$46, (%r15)
	jne	.Lunix_path_BB63_177
	cmpb	$46, 1(%r15)
	jne	.Lunix_path_BB63_177
	cmpq	$2, %rbp
	jne	.Lunix_path_BB63_175
	leaq	(%rsi,%r9), %rax
	movq	%rax, 48(%rsp)
	xorl	%eax, %eax
	movq	72(%rsp), %rbx
	subq	%r9, %rbx
	je	.Lunix_path_BB63_459
	leaq	2(%r11), %r14
	movb	$2, %r15b
	movq	$0, 64(%rsp)
	xorl	%r8d, %r8d
	testb	$1, %r12b
	movq	%r8, 80(%rsp)
	jne	.Lunix_path_BB63_129
	jmp	.Lunix_path_BB63_205
	.p2align	4
.Lunix_path_BB63_127:
	leaq	(%rsi,%r9), %rax
	movq	%rax, 48(%rsp)
	xorl	%r15d, %r15d
	movq	72(%rsp), %rbx
	movl	$0, %eax
	movq	%r11, %r14
	movl	$0, %r8d
	movl	$0, %r13d
	subq	%r9, %rbx
	je	.Lunix_path_BB63_260
	testb	$1, %r12b
	movq	%r8, 80(%rsp)
	je	.Lunix_path_BB63_205
.Lunix_path_BB63_129:
	cmpq	$1, %rbx
	je	.Lunix_path_BB63_148
	movq	48(%rsp), %rcx
	cmpb	$46, (%rcx)
	jne	.Lunix_path_BB63_148
	cmpb	$46, 1(%rsi,%r9)
	jne	.Lunix_path_BB63_148
	movb	$2, %r12b
	cmpq	$2, %rbx
	jne	.Lunix_path_BB63_146
	movl	$2, %r13d
	jmp	.Lunix_path_BB63_216
	.p2align	4
.Lunix_path_BB63_134:
	movq	%rbp, %rax
	decq	%rax
	je	.Lunix_path_BB63_141
	leaq	-1(%rbp), %rcx
	movq	224(%rsp), %rdx
	addq	%r11, %rdx
	leaq	-2(%rbp), %r8
	xorl	%r14d, %r14d
	jmp	.Lunix_path_BB63_137
	.p2align	4
.Lunix_path_BB63_136:
	incq	%r14
	cmpq	%r14, %rcx
	je	.Lunix_path_BB63_142
.Lunix_path_BB63_137:
	movzbl	-1(%rdx,%r14), %r10d
	cmpl	$47, %r10d
	je	.Lunix_path_BB63_136
	cmpl	$46, %r10d
	jne	.Lunix_path_BB63_143
	cmpq	%r14, %r8
	je	.Lunix_path_BB63_142
	cmpb	$47, (%rdx,%r14)
	je	.Lunix_path_BB63_136
	jmp	.Lunix_path_BB63_143
.Lunix_path_BB63_141:
	movl	$1, %r14d
	jmp	.Lunix_path_BB63_144
.Lunix_path_BB63_142:
	movq	%rax, %r14
.Lunix_path_BB63_143:
	incq	%r14
.Lunix_path_BB63_144:
	cmpb	$47, (%r15)
	setne	%r15b
.Lunix_path_BB63_145:
	xorl	%r8d, %r8d
	xorl	%eax, %eax
	jmp	.Lunix_path_BB63_203
.Lunix_path_BB63_146:
	cmpb	$47, 2(%rsi,%r9)
	jne	.Lunix_path_BB63_148
	leaq	-2(%rbx), %rdx
	movq	208(%rsp), %rcx
	leaq	(%rcx,%r9), %r8
	leaq	-3(%rbx), %r10
	xorl	%r13d, %r13d
	jmp	.Lunix_path_BB63_154
	.p2align	4
.Lunix_path_BB63_148:
	cmpq	$15, %rbx
	ja	.Lunix_path_BB63_158
	leaq	(%rsi,%r9), %rdx
	xorl	%r10d, %r10d
	.p2align	4
.Lunix_path_BB63_150:
	cmpb	$47, (%rdx,%r10)
	je	.Lunix_path_BB63_163
	incq	%r10
	cmpq	%r10, %rbx
	jne	.Lunix_path_BB63_150
	movq	%rbx, %r10
	movq	%rbx, %rdx
	subq	%r10, %rdx
	jne	.Lunix_path_BB63_164
.Lunix_path_BB63_173:
	xorl	%r13d, %r13d
	jmp	.Lunix_path_BB63_174
	.p2align	4
.Lunix_path_BB63_153:
	incq	%r13
	cmpq	%r13, %rdx
	je	.Lunix_path_BB63_238
.Lunix_path_BB63_154:
	movzbl	-1(%r8,%r13), %r11d
	cmpl	$47, %r11d
	je	.Lunix_path_BB63_153
	cmpl	$46, %r11d
	jne	.Lunix_path_BB63_239
	cmpq	%r13, %r10
	je	.Lunix_path_BB63_238
	cmpb	$47, (%r8,%r13)
	je	.Lunix_path_BB63_153
	jmp	.Lunix_path_BB63_239
.Lunix_path_BB63_158:
	movq	%rbx, %rdx
	addq	$-16, %rdx
	je	.Lunix_path_BB63_162
	leaq	(%rsi,%r9), %r10
	xorl	%r8d, %r8d
	.p2align	4
.Lunix_path_BB63_160:
	movdqu	(%r10,%r8), %xmm0
	pcmpeqb	.Lunix_path_CPI63_0(%rip), %xmm0
	pmovmskb	%xmm0, %r11d
	orl	$65536, %r11d
	rep		bsfl	%r11d, %r11d
	cmpw	$15, %r11w
	jbe	.Lunix_path_BB63_172
	addq	$16, %r8
	cmpq	%rdx, %r8
	jb	.Lunix_path_BB63_160
.Lunix_path_BB63_162:
	leaq	(%rsi,%r9), %r8
	movdqu	(%rdx,%r8), %xmm0
	pcmpeqb	.Lunix_path_CPI63_0(%rip), %xmm0
	pmovmskb	%xmm0, %r8d
	orl	$65536, %r8d
	rep		bsfl	%r8d, %r10d
	addq	%rdx, %r10
.Lunix_path_BB63_163:
	movq	%rbx, %rdx
	subq	%r10, %rdx
	je	.Lunix_path_BB63_173
.Lunix_path_BB63_164:
	movq	%r15, %rcx
	leaq	(%r10,%r9), %r8
	addq	232(%rsp), %r8
	leaq	-1(%rdx), %r11
	xorl	%r13d, %r13d
	jmp	.Lunix_path_BB63_166
	.p2align	4
.Lunix_path_BB63_165:
	incq	%r13
	cmpq	%r13, %rdx
	je	.Lunix_path_BB63_170
.Lunix_path_BB63_166:
	movzbl	-1(%r8,%r13), %r15d
	cmpl	$47, %r15d
	je	.Lunix_path_BB63_165
	cmpl	$46, %r15d
	jne	.Lunix_path_BB63_171
	cmpq	%r13, %r11
	je	.Lunix_path_BB63_170
	cmpb	$47, (%r8,%r13)
	je	.Lunix_path_BB63_165
	jmp	.Lunix_path_BB63_171
.Lunix_path_BB63_170:
	movq	%rdx, %r13
.Lunix_path_BB63_171:
	movq	%rcx, %r15
.Lunix_path_BB63_174:
	addq	%r10, %r13
	movb	$3, %r12b
	movq	48(%rsp), %rcx
	jmp	.Lunix_path_BB63_217
.Lunix_path_BB63_172:
	movzwl	%r11w, %r10d
	addq	%r8, %r10
	movq	%rbx, %rdx
	subq	%r10, %rdx
	jne	.Lunix_path_BB63_164
	jmp	.Lunix_path_BB63_173
.Lunix_path_BB63_175:
	cmpb	$47, 2(%r15)
	jne	.Lunix_path_BB63_177
	leaq	-2(%rbp), %rax
	movq	200(%rsp), %rcx
	addq	%r11, %rcx
	leaq	-3(%rbp), %rdx
	xorl	%r14d, %r14d
	jmp	.Lunix_path_BB63_183
	.p2align	4
.Lunix_path_BB63_177:
	cmpq	$15, %rbp
	ja	.Lunix_path_BB63_187
	xorl	%eax, %eax
	.p2align	4
.Lunix_path_BB63_179:
	cmpb	$47, (%r15,%rax)
	je	.Lunix_path_BB63_192
	incq	%rax
	cmpq	%rax, %rbp
	jne	.Lunix_path_BB63_179
	movq	%rbp, %rax
	movq	%rbp, %rcx
	subq	%rax, %rcx
	jne	.Lunix_path_BB63_193
.Lunix_path_BB63_201:
	xorl	%r14d, %r14d
	jmp	.Lunix_path_BB63_202
	.p2align	4
.Lunix_path_BB63_182:
	incq	%r14
	cmpq	%r14, %rax
	je	.Lunix_path_BB63_240
.Lunix_path_BB63_183:
	movzbl	-1(%rcx,%r14), %r8d
	cmpl	$47, %r8d
	je	.Lunix_path_BB63_182
	cmpl	$46, %r8d
	jne	.Lunix_path_BB63_241
	cmpq	%r14, %rdx
	je	.Lunix_path_BB63_240
	cmpb	$47, (%rcx,%r14)
	je	.Lunix_path_BB63_182
	jmp	.Lunix_path_BB63_241
.Lunix_path_BB63_187:
	movq	%rbp, %rcx
	addq	$-16, %rcx
	je	.Lunix_path_BB63_191
	xorl	%edx, %edx
	.p2align	4
.Lunix_path_BB63_189:
	movdqu	(%r15,%rdx), %xmm0
	pcmpeqb	.Lunix_path_CPI63_0(%rip), %xmm0
	pmovmskb	%xmm0, %eax
	orl	$65536, %eax
	rep		bsfl	%eax, %eax
	cmpw	$15, %ax
	jbe	.Lunix_path_BB63_200
	addq	$16, %rdx
	cmpq	%rcx, %rdx
	jb	.Lunix_path_BB63_189
.Lunix_path_BB63_191:
	movdqu	(%r15,%rcx), %xmm0
	pcmpeqb	.Lunix_path_CPI63_0(%rip), %xmm0
	pmovmskb	%xmm0, %eax
	orl	$65536, %eax
	rep		bsfl	%eax, %eax
	addq	%rcx, %rax
.Lunix_path_BB63_192:
	movq	%rbp, %rcx
	subq	%rax, %rcx
	je	.Lunix_path_BB63_201
.Lunix_path_BB63_193:
	leaq	(%rax,%r11), %rdx
	addq	216(%rsp), %rdx
	leaq	-1(%rcx), %r8
	xorl	%r14d, %r14d
	jmp	.Lunix_path_BB63_195
	.p2align	4
.Lunix_path_BB63_194:
	incq	%r14
	cmpq	%r14, %rcx
	je	.Lunix_path_BB63_199
.Lunix_path_BB63_195:
	movzbl	-1(%rdx,%r14), %r10d
	cmpl	$47, %r10d
	je	.Lunix_path_BB63_194
	cmpl	$46, %r10d
	jne	.Lunix_path_BB63_202
	cmpq	%r14, %r8
	je	.Lunix_path_BB63_199
	cmpb	$47, (%rdx,%r14)
	je	.Lunix_path_BB63_194
	jmp	.Lunix_path_BB63_202
.Lunix_path_BB63_199:
	movq	%rcx, %r14
.Lunix_path_BB63_202:
	addq	%rax, %r14
	movb	$3, %r15b
	leaq	(%rdi,%r11), %r8
.Lunix_path_BB63_203:
	leaq	(%rsi,%r9), %rcx
	movq	%rcx, 48(%rsp)
	movq	$0, 64(%rsp)
	movq	72(%rsp), %rbx
	subq	%r9, %rbx
	je	.Lunix_path_BB63_243
	addq	%r11, %r14
	testb	$1, %r12b
	movq	%r8, 80(%rsp)
	jne	.Lunix_path_BB63_129
.Lunix_path_BB63_205:
	movq	%rbx, %rdx
	decq	%rdx
	je	.Lunix_path_BB63_212
	movq	%r15, %rcx
	leaq	-1(%rbx), %r8
	movq	240(%rsp), %r10
	addq	%r9, %r10
	leaq	-2(%rbx), %r11
	xorl	%r13d, %r13d
	jmp	.Lunix_path_BB63_208
	.p2align	4
.Lunix_path_BB63_207:
	incq	%r13
	cmpq	%r13, %r8
	je	.Lunix_path_BB63_213
.Lunix_path_BB63_208:
	movzbl	-1(%r10,%r13), %r15d
	cmpl	$47, %r15d
	je	.Lunix_path_BB63_207
	cmpl	$46, %r15d
	jne	.Lunix_path_BB63_214
	cmpq	%r13, %r11
	je	.Lunix_path_BB63_213
	cmpb	$47, (%r10,%r13)
	je	.Lunix_path_BB63_207
	jmp	.Lunix_path_BB63_214
.Lunix_path_BB63_212:
	movl	$1, %r13d
	jmp	.Lunix_path_BB63_215
.Lunix_path_BB63_213:
	movq	%rdx, %r13
.Lunix_path_BB63_214:
	incq	%r13
	movq	%rcx, %r15
.Lunix_path_BB63_215:
	movq	48(%rsp), %rcx
	cmpb	$47, (%rcx)
	setne	%r12b
.Lunix_path_BB63_216:
	xorl	%ecx, %ecx
	xorl	%r10d, %r10d
.Lunix_path_BB63_217:
	testq	%rbp, %rbp
	je	.Lunix_path_BB63_258
	movl	$1, %edx
	movzbl	%r15b, %r8d
	leaq	.Lunix_path_JTI63_0(%rip), %r15
	movslq	(%r15,%r8,4), %r8
	addq	%r15, %r8
	jmpq	*%r8
.Lunix_path_BB63_219:
	leaq	.Lunix_path_static.8(%rip), %rax
	movq	%rax, 80(%rsp)
	movl	$1, %r15d
	leaq	.Lunix_path_static.8(%rip), %r8
	movzbl	%r12b, %eax
	leaq	.Lunix_path_JTI63_1(%rip), %r11
	movslq	(%r11,%rax,4), %rax
	addq	%r11, %rax
	jmpq	*%rax
	.p2align	4
.Lunix_path_BB63_220:
	movl	$2, %edx
	leaq	.Lunix_path_static.10(%rip), %rax
	movq	%rax, 80(%rsp)
	movl	$1, %r15d
	leaq	.Lunix_path_static.8(%rip), %r8
	movzbl	%r12b, %eax
	leaq	.Lunix_path_JTI63_1(%rip), %r12
	movslq	(%r12,%rax,4), %rax
	addq	%r12, %rax
	jmpq	*%rax
	.p2align	4
.Lunix_path_BB63_221:
	movl	$1, %r15d
	leaq	.Lunix_path_static.8(%rip), %r8
	movzbl	%r12b, %edx
	leaq	.Lunix_path_JTI63_1(%rip), %r12
	movslq	(%r12,%rdx,4), %r11
	addq	%r12, %r11
	movq	%rax, %rdx
	jmpq	*%r11
	.p2align	4
.Lunix_path_BB63_222:
	leaq	.Lunix_path_static.5(%rip), %rax
	movq	%rax, 80(%rsp)
	movl	$1, %r15d
	leaq	.Lunix_path_static.8(%rip), %r8
	movzbl	%r12b, %eax
	leaq	.Lunix_path_JTI63_1(%rip), %r12
	movslq	(%r12,%rax,4), %rax
	addq	%r12, %rax
	jmpq	*%rax
.Lunix_path_BB63_223:
	leaq	.Lunix_path_static.5(%rip), %r8
	jmp	.Lunix_path_BB63_226
	.p2align	4
.Lunix_path_BB63_224:
	movl	$2, %r15d
	leaq	.Lunix_path_static.10(%rip), %r8
	jmp	.Lunix_path_BB63_226
	.p2align	4
.Lunix_path_BB63_225:
	movq	%rcx, %r8
	movq	%r10, %r15
.Lunix_path_BB63_226:
	cmpq	%r15, %rdx
	jne	.Lunix_path_BB63_242
	addq	%r9, %r13
	cmpq	$4, %rdx
	movq	96(%rsp), %rax
	leaq	(%rdi,%rax), %r15
	jae	.Lunix_path_BB63_234
	movb	$1, %r12b
	movq	%r13, %r9
	testq	%rdx, %rdx
	movq	80(%rsp), %r10
	je	.Lunix_path_BB63_119
	movzbl	(%r10), %eax
	cmpb	(%r8), %al
	jne	.Lunix_path_BB63_236
	movq	%r13, %r9
	cmpq	$1, %rdx
	je	.Lunix_path_BB63_119
	movzbl	1(%r10), %ecx
	movl	$1, %eax
	cmpb	1(%r8), %cl
	jne	.Lunix_path_BB63_237
	movq	%r13, %r9
	cmpq	$2, %rdx
	je	.Lunix_path_BB63_119
	movzbl	2(%r10), %ecx
	movl	$2, %eax
	movq	%r13, %r9
	cmpb	2(%r8), %cl
	je	.Lunix_path_BB63_119
	jmp	.Lunix_path_BB63_237
	.p2align	4
.Lunix_path_BB63_234:
	movq	80(%rsp), %rcx
	movl	(%rcx), %eax
	cmpl	(%r8), %eax
	jne	.Lunix_path_BB63_244
	callq	core.cmp.slices.groups_equal.i8.31.core.cmp.numbers.U8PartialEq.
	movb	$1, %r12b
	movq	%r13, %r9
	testb	%al, %al
	jne	.Lunix_path_BB63_119
	jmp	.Lunix_path_BB63_244
.Lunix_path_BB63_236:
	xorl	%eax, %eax
.Lunix_path_BB63_237:
	movq	%r13, %r9
	cmpq	%rdx, %rax
	jae	.Lunix_path_BB63_119
	jmp	.Lunix_path_BB63_244
.Lunix_path_BB63_200:
	movzwl	%ax, %eax
	addq	%rdx, %rax
	movq	%rbp, %rcx
	subq	%rax, %rcx
	jne	.Lunix_path_BB63_193
	jmp	.Lunix_path_BB63_201
.Lunix_path_BB63_238:
	movq	%rdx, %r13
.Lunix_path_BB63_239:
	addq	$2, %r13
	jmp	.Lunix_path_BB63_216
.Lunix_path_BB63_240:
	movq	%rax, %r14
.Lunix_path_BB63_241:
	addq	$2, %r14
	movb	$2, %r15b
	jmp	.Lunix_path_BB63_145
.Lunix_path_BB63_242:
	movq	104(%rsp), %r15
	movzbl	(%r15), %eax
	movb	$1, %sil
	cmpl	$47, %eax
	jne	.Lunix_path_BB63_245
	jmp	.Lunix_path_BB63_249
.Lunix_path_BB63_243:
	xorl	%ebx, %ebx
	movq	104(%rsp), %r15
.Lunix_path_BB63_244:
	movzbl	(%r15), %eax
	movb	$1, %sil
	cmpl	$47, %eax
	je	.Lunix_path_BB63_249
.Lunix_path_BB63_245:
	cmpl	$46, %eax
	jne	.Lunix_path_BB63_248
	cmpq	$1, %rbp
	movq	96(%rsp), %r14
	je	.Lunix_path_BB63_250
	cmpb	$47, 1(%r15)
	sete	%sil
	jmp	.Lunix_path_BB63_250
.Lunix_path_BB63_248:
	xorl	%esi, %esi
.Lunix_path_BB63_249:
	movq	96(%rsp), %r14
.Lunix_path_BB63_250:
	movq	%rbp, %rcx
	movq	%rbp, %rax
	movq	120(%rsp), %rdi
	jmp	.Lunix_path_BB63_252
	.p2align	4
.Lunix_path_BB63_251:
	movq	%rax, %rcx
	testq	%rax, %rax
	je	.Lunix_path_BB63_258
.Lunix_path_BB63_252:
	decq	%rax
	je	.Lunix_path_BB63_264
	movzbl	(%r15,%rax), %edx
	cmpl	$47, %edx
	je	.Lunix_path_BB63_256
	cmpl	$46, %edx
	jne	.Lunix_path_BB63_264
	cmpb	$47, -1(%r15,%rax)
	jne	.Lunix_path_BB63_264
.Lunix_path_BB63_256:
	movq	%rbp, %rcx
	subq	%rax, %rcx
	cmpq	$8, %rcx
	jne	.Lunix_path_BB63_251
	movq	%r15, %rcx
	movq	%rax, %rdx
	callq	unix_path.filler.trimmed_blocks_len
	jmp	.Lunix_path_BB63_251
.Lunix_path_BB63_258:
	xorl	%r13d, %r13d
.Lunix_path_BB63_259:
	movq	%rbx, %r15
.Lunix_path_BB63_260:
	movq	48(%rsp), %rsi
	movq	%rsi, %rcx
	movq	%r15, %rdx
	callq	path_within.outlined.is_names_only
	pxor	%xmm0, %xmm0
	movdqa	%xmm0, 144(%rsp)
	movdqa	%xmm0, 128(%rsp)
	movq	$0, 160(%rsp)
	testb	%al, %al
	je	.Lunix_path_BB63_262
	leaq	1(%r15), %r9
	movb	$1, 160(%rsp)
	movl	$0, 161(%rsp)
	movl	$0, 164(%rsp)
	movq	$-1, 96(%rsp)
	jmp	.Lunix_path_BB63_263
.Lunix_path_BB63_262:
	leaq	128(%rsp), %rcx
	movq	%rsi, %rdx
	movq	%r15, %r8
	callq	path_within.write.Layout.resolve_names
	movq	128(%rsp), %rsi
	movq	136(%rsp), %r15
	movq	144(%rsp), %rax
	movq	%rax, 96(%rsp)
	movq	152(%rsp), %r9
.Lunix_path_BB63_263:
	movq	160(%rsp), %rax
	movq	352(%rsp), %r12
	xorl	%ebp, %ebp
	jmp	.Lunix_path_BB63_417
.Lunix_path_BB63_264:
	addq	88(%rsp), %rdi
	leaq	(%r14,%rdi), %rax
	incq	%rax
	leaq	(%r14,%rdi), %rdx
	addq	$3, %rdx
	leaq	(%r14,%rdi), %r8
	addq	$2, %r8
	xorl	%r13d, %r13d
	movq	%rcx, %r10
	xorl	%r9d, %r9d
	jmp	.Lunix_path_BB63_268
.Lunix_path_BB63_265:
	xorl	%r11d, %r11d
.Lunix_path_BB63_266:
	addq	%rsi, %r11
.Lunix_path_BB63_267:
	addq	%r11, %r9
	incq	%r13
	xorl	%esi, %esi
	movq	%rcx, %r10
	subq	%r9, %r10
	je	.Lunix_path_BB63_259
.Lunix_path_BB63_268:
	testb	$1, %sil
	je	.Lunix_path_BB63_276
	movq	%r10, %rsi
	decq	%rsi
	je	.Lunix_path_BB63_304
	leaq	-1(%r10), %rdi
	leaq	(%r8,%r9), %r14
	addq	$-2, %r10
	xorl	%r11d, %r11d
	jmp	.Lunix_path_BB63_272
	.p2align	4
.Lunix_path_BB63_271:
	incq	%r11
	cmpq	%r11, %rdi
	je	.Lunix_path_BB63_305
.Lunix_path_BB63_272:
	movzbl	-1(%r14,%r11), %ebp
	cmpl	$47, %ebp
	je	.Lunix_path_BB63_271
	cmpl	$46, %ebp
	jne	.Lunix_path_BB63_306
	cmpq	%r11, %r10
	je	.Lunix_path_BB63_305
	cmpb	$47, (%r14,%r11)
	je	.Lunix_path_BB63_271
	jmp	.Lunix_path_BB63_306
	.p2align	4
.Lunix_path_BB63_276:
	leaq	(%r15,%r9), %rdi
	cmpq	$1, %r10
	je	.Lunix_path_BB63_282
	cmpb	$46, (%rdi)
	jne	.Lunix_path_BB63_282
	cmpb	$46, 1(%rdi)
	jne	.Lunix_path_BB63_282
	movl	$2, %r11d
	cmpq	$2, %r10
	je	.Lunix_path_BB63_267
	cmpb	$47, 2(%rdi)
	jne	.Lunix_path_BB63_282
	leaq	-2(%r10), %rsi
	leaq	(%rdx,%r9), %rdi
	addq	$-3, %r10
	xorl	%r11d, %r11d
	jmp	.Lunix_path_BB63_288
	.p2align	4
.Lunix_path_BB63_282:
	cmpq	$15, %r10
	ja	.Lunix_path_BB63_292
	xorl	%esi, %esi
	.p2align	4
.Lunix_path_BB63_284:
	cmpb	$47, (%rdi,%rsi)
	je	.Lunix_path_BB63_297
	incq	%rsi
	cmpq	%rsi, %r10
	jne	.Lunix_path_BB63_284
	movq	%r10, %rsi
	subq	%rsi, %r10
	jne	.Lunix_path_BB63_298
	jmp	.Lunix_path_BB63_265
	.p2align	4
.Lunix_path_BB63_287:
	incq	%r11
	cmpq	%r11, %rsi
	je	.Lunix_path_BB63_309
.Lunix_path_BB63_288:
	movzbl	-1(%rdi,%r11), %ebp
	cmpl	$47, %ebp
	je	.Lunix_path_BB63_287
	cmpl	$46, %ebp
	jne	.Lunix_path_BB63_310
	cmpq	%r11, %r10
	je	.Lunix_path_BB63_309
	cmpb	$47, (%rdi,%r11)
	je	.Lunix_path_BB63_287
	jmp	.Lunix_path_BB63_310
	.p2align	4
.Lunix_path_BB63_292:
	movq	%r10, %r11
	addq	$-16, %r11
	je	.Lunix_path_BB63_296
	xorl	%r14d, %r14d
	.p2align	4
.Lunix_path_BB63_294:
	movdqu	(%rdi,%r14), %xmm0
	pcmpeqb	.Lunix_path_CPI63_0(%rip), %xmm0
	pmovmskb	%xmm0, %esi
	orl	$65536, %esi
	rep		bsfl	%esi, %esi
	cmpw	$15, %si
	jbe	.Lunix_path_BB63_308
	addq	$16, %r14
	cmpq	%r11, %r14
	jb	.Lunix_path_BB63_294
.Lunix_path_BB63_296:
	movdqu	(%rdi,%r11), %xmm0
	pcmpeqb	.Lunix_path_CPI63_0(%rip), %xmm0
	pmovmskb	%xmm0, %esi
	orl	$65536, %esi
	rep		bsfl	%esi, %esi
	addq	%r11, %rsi
.Lunix_path_BB63_297:
	subq	%rsi, %r10
	je	.Lunix_path_BB63_265
.Lunix_path_BB63_298:
	leaq	(%rsi,%r9), %rdi
	addq	%rax, %rdi
	leaq	-1(%r10), %r14
	xorl	%r11d, %r11d
	jmp	.Lunix_path_BB63_300
	.p2align	4
.Lunix_path_BB63_299:
	incq	%r11
	cmpq	%r11, %r10
	je	.Lunix_path_BB63_307
.Lunix_path_BB63_300:
	movzbl	-1(%rdi,%r11), %ebp
	cmpl	$47, %ebp
	je	.Lunix_path_BB63_299
	cmpl	$46, %ebp
	jne	.Lunix_path_BB63_266
	cmpq	%r11, %r14
	je	.Lunix_path_BB63_307
	cmpb	$47, (%rdi,%r11)
	je	.Lunix_path_BB63_299
	jmp	.Lunix_path_BB63_266
.Lunix_path_BB63_304:
	movl	$1, %r11d
	jmp	.Lunix_path_BB63_267
.Lunix_path_BB63_305:
	movq	%rsi, %r11
.Lunix_path_BB63_306:
	incq	%r11
	jmp	.Lunix_path_BB63_267
.Lunix_path_BB63_307:
	movq	%r10, %r11
	jmp	.Lunix_path_BB63_266
.Lunix_path_BB63_308:
	movzwl	%si, %esi
	addq	%r14, %rsi
	subq	%rsi, %r10
	jne	.Lunix_path_BB63_298
	jmp	.Lunix_path_BB63_265
.Lunix_path_BB63_309:
	movq	%rsi, %r11
.Lunix_path_BB63_310:
	addq	$2, %r11
	jmp	.Lunix_path_BB63_267
.Lunix_path_BB63_45:
	movl	$1, %r12d
	testb	%bl, %bl
	jne	.Lunix_path_BB63_42
.Lunix_path_BB63_46:
	movzbl	-1(%rsi,%r15), %eax
	andb	$-2, %al
	movq	%r15, %r14
	cmpb	$46, %al
	jne	.Lunix_path_BB63_312
	movq	%r15, %r14
	movq	%r15, %rax
	jmp	.Lunix_path_BB63_49
	.p2align	4
.Lunix_path_BB63_48:
	movq	%rax, %r14
	testq	%rax, %rax
	je	.Lunix_path_BB63_42
.Lunix_path_BB63_49:
	decq	%rax
	je	.Lunix_path_BB63_311
	movzbl	(%rsi,%rax), %ecx
	cmpl	$47, %ecx
	je	.Lunix_path_BB63_53
	cmpl	$46, %ecx
	jne	.Lunix_path_BB63_312
	cmpb	$47, -1(%rsi,%rax)
	jne	.Lunix_path_BB63_312
.Lunix_path_BB63_53:
	movq	%r15, %rcx
	subq	%rax, %rcx
	cmpq	$8, %rcx
	jne	.Lunix_path_BB63_48
	movq	%rsi, %rcx
	movq	%rax, %rdx
	callq	unix_path.filler.trimmed_blocks_len
	jmp	.Lunix_path_BB63_48
.Lunix_path_BB63_311:
	movl	$1, %r14d
.Lunix_path_BB63_312:
	movq	%r13, %rcx
	subq	%rbp, %rcx
	jbe	.Lunix_path_BB63_334
	movq	120(%rsp), %rax
	movq	88(%rsp), %rdx
	addq	%rax, %rdx
	addq	$-16, %rdx
	xorl	%eax, %eax
.Lunix_path_BB63_314:
	testb	$1, %al
	jne	.Lunix_path_BB63_362
	xorl	%r8d, %r8d
	jmp	.Lunix_path_BB63_318
.Lunix_path_BB63_316:
	incq	%r8
	.p2align	4
.Lunix_path_BB63_317:
	testq	%r9, %r9
	je	.Lunix_path_BB63_335
.Lunix_path_BB63_318:
	movq	%r12, %r10
	leaq	1(%r12), %rax
	movq	%r12, %r9
	.p2align	4
.Lunix_path_BB63_319:
	cmpq	$15, %r9
	jbe	.Lunix_path_BB63_322
	movdqu	(%rdx,%r9), %xmm0
	pcmpeqb	.Lunix_path_CPI63_0(%rip), %xmm0
	addq	$-16, %r9
	pmovmskb	%xmm0, %r11d
	addq	$-16, %rax
	testl	%r11d, %r11d
	je	.Lunix_path_BB63_319
	movzwl	%r11w, %eax
	bsrq	%rax, %rax
	xorq	$63, %rax
	subq	%rax, %r9
	addq	$64, %r9
	jmp	.Lunix_path_BB63_325
	.p2align	4
.Lunix_path_BB63_322:
	cmpq	$1, %rax
	je	.Lunix_path_BB63_324
	leaq	-1(%rax), %r9
	cmpb	$47, -2(%rdi,%rax)
	movq	%r9, %rax
	jne	.Lunix_path_BB63_322
	jmp	.Lunix_path_BB63_325
	.p2align	4
.Lunix_path_BB63_324:
	xorl	%r9d, %r9d
.Lunix_path_BB63_325:
	xorl	%r11d, %r11d
	testq	%r9, %r9
	setne	%r11b
	sete	%al
	movq	%r9, %r12
	subq	%r11, %r12
	subq	%r9, %r10
	je	.Lunix_path_BB63_317
	cmpq	$1, %r10
	jne	.Lunix_path_BB63_328
	cmpb	$46, (%rdi,%r9)
	je	.Lunix_path_BB63_317
	jmp	.Lunix_path_BB63_331
	.p2align	4
.Lunix_path_BB63_328:
	cmpq	$2, %r10
	ja	.Lunix_path_BB63_331
	cmpb	$46, (%rdi,%r9)
	jne	.Lunix_path_BB63_331
	cmpb	$46, 1(%rdi,%r9)
	je	.Lunix_path_BB63_316
	.p2align	4
.Lunix_path_BB63_331:
	testq	%r8, %r8
	je	.Lunix_path_BB63_333
	decq	%r8
	jmp	.Lunix_path_BB63_317
.Lunix_path_BB63_333:
	decq	%rcx
	jne	.Lunix_path_BB63_314
	jmp	.Lunix_path_BB63_336
.Lunix_path_BB63_334:
	xorl	%eax, %eax
	movq	%rbp, %rcx
	subq	%r13, %rcx
	ja	.Lunix_path_BB63_337
.Lunix_path_BB63_363:
	xorl	%ebx, %ebx
	xorl	%r10d, %r10d
	jmp	.Lunix_path_BB63_364
.Lunix_path_BB63_335:
	movb	$1, %al
.Lunix_path_BB63_336:
	movq	%rbp, %rcx
	subq	%r13, %rcx
	jbe	.Lunix_path_BB63_363
.Lunix_path_BB63_337:
	movq	80(%rsp), %rdx
	movq	48(%rsp), %r8
	addq	%r8, %rdx
	addq	$-16, %rdx
	xorl	%ebx, %ebx
	xorl	%r10d, %r10d
.Lunix_path_BB63_338:
	testb	$1, %bl
	jne	.Lunix_path_BB63_458
	movq	%r10, 64(%rsp)
	xorl	%r8d, %r8d
	jmp	.Lunix_path_BB63_342
.Lunix_path_BB63_340:
	incq	%r8
	.p2align	4
.Lunix_path_BB63_341:
	testq	%r9, %r9
	je	.Lunix_path_BB63_358
.Lunix_path_BB63_342:
	movq	%r14, %r10
	leaq	1(%r14), %r11
	movq	%r14, %r9
	.p2align	4
.Lunix_path_BB63_343:
	cmpq	$15, %r9
	jbe	.Lunix_path_BB63_346
	movdqu	(%rdx,%r9), %xmm0
	pcmpeqb	.Lunix_path_CPI63_0(%rip), %xmm0
	addq	$-16, %r9
	pmovmskb	%xmm0, %ebx
	addq	$-16, %r11
	testl	%ebx, %ebx
	je	.Lunix_path_BB63_343
	movzwl	%bx, %r11d
	bsrq	%r11, %r11
	xorq	$63, %r11
	subq	%r11, %r9
	addq	$64, %r9
	jmp	.Lunix_path_BB63_349
	.p2align	4
.Lunix_path_BB63_346:
	cmpq	$1, %r11
	je	.Lunix_path_BB63_348
	leaq	-1(%r11), %r9
	cmpb	$47, -2(%rsi,%r11)
	movq	%r9, %r11
	jne	.Lunix_path_BB63_346
	jmp	.Lunix_path_BB63_349
	.p2align	4
.Lunix_path_BB63_348:
	xorl	%r9d, %r9d
.Lunix_path_BB63_349:
	xorl	%r11d, %r11d
	testq	%r9, %r9
	setne	%r11b
	sete	%bl
	movq	%r9, %r14
	subq	%r11, %r14
	subq	%r9, %r10
	je	.Lunix_path_BB63_341
	cmpq	$1, %r10
	jne	.Lunix_path_BB63_352
	cmpb	$46, (%rsi,%r9)
	je	.Lunix_path_BB63_341
	jmp	.Lunix_path_BB63_355
	.p2align	4
.Lunix_path_BB63_352:
	cmpq	$2, %r10
	ja	.Lunix_path_BB63_355
	cmpb	$46, (%rsi,%r9)
	jne	.Lunix_path_BB63_355
	cmpb	$46, 1(%rsi,%r9)
	je	.Lunix_path_BB63_340
	.p2align	4
.Lunix_path_BB63_355:
	testq	%r8, %r8
	je	.Lunix_path_BB63_357
	decq	%r8
	jmp	.Lunix_path_BB63_341
.Lunix_path_BB63_357:
	movq	64(%rsp), %r8
	addq	%r8, %r10
	incq	%r10
	decq	%rcx
	jne	.Lunix_path_BB63_338
	jmp	.Lunix_path_BB63_364
.Lunix_path_BB63_358:
	movb	$1, %bl
	movq	64(%rsp), %r10
.Lunix_path_BB63_364:
	movq	%r15, 72(%rsp)
	cmpq	%r13, %rbp
	movq	%r13, %r11
	movq	%rbp, 96(%rsp)
	cmovbq	%rbp, %r11
	testb	%al, %al
	je	.Lunix_path_BB63_366
	movq	%r10, %r9
	jmp	.Lunix_path_BB63_415
.Lunix_path_BB63_366:
	movq	%rbx, 112(%rsp)
	movq	120(%rsp), %rax
	movq	88(%rsp), %rcx
	leaq	(%rcx,%rax), %rbp
	addq	$-16, %rbp
	movq	80(%rsp), %rax
	movq	48(%rsp), %rcx
	leaq	(%rax,%rcx), %r15
	addq	$-16, %r15
	addq	%rcx, %rax
	movq	%rax, 80(%rsp)
	movq	%r11, 104(%rsp)
	movq	%r11, %rax
	movq	%r10, %rcx
.Lunix_path_BB63_367:
	movq	%rcx, 88(%rsp)
	movq	%rax, 48(%rsp)
	xorl	%eax, %eax
	jmp	.Lunix_path_BB63_370
.Lunix_path_BB63_368:
	incq	%rax
	.p2align	4
.Lunix_path_BB63_369:
	testq	%rbx, %rbx
	je	.Lunix_path_BB63_414
.Lunix_path_BB63_370:
	movq	%r12, %rdx
	leaq	1(%r12), %rcx
	movq	%r12, %rbx
	.p2align	4
.Lunix_path_BB63_371:
	cmpq	$15, %rbx
	jbe	.Lunix_path_BB63_374
	movdqu	(%rbp,%rbx), %xmm0
	pcmpeqb	.Lunix_path_CPI63_0(%rip), %xmm0
	addq	$-16, %rbx
	pmovmskb	%xmm0, %r8d
	addq	$-16, %rcx
	testl	%r8d, %r8d
	je	.Lunix_path_BB63_371
	movzwl	%r8w, %ecx
	bsrq	%rcx, %rcx
	xorq	$63, %rcx
	subq	%rcx, %rbx
	addq	$64, %rbx
	jmp	.Lunix_path_BB63_377
	.p2align	4
.Lunix_path_BB63_374:
	cmpq	$1, %rcx
	je	.Lunix_path_BB63_376
	leaq	-1(%rcx), %rbx
	cmpb	$47, -2(%rdi,%rcx)
	movq	%rbx, %rcx
	jne	.Lunix_path_BB63_374
	jmp	.Lunix_path_BB63_377
	.p2align	4
.Lunix_path_BB63_376:
	xorl	%ebx, %ebx
.Lunix_path_BB63_377:
	cmpq	$1, %rbx
	movq	%rbx, %r12
	adcq	$-1, %r12
	subq	%rbx, %rdx
	je	.Lunix_path_BB63_369
	leaq	(%rdi,%rbx), %rcx
	cmpq	$1, %rdx
	jne	.Lunix_path_BB63_380
	cmpb	$46, (%rcx)
	je	.Lunix_path_BB63_369
	jmp	.Lunix_path_BB63_383
	.p2align	4
.Lunix_path_BB63_380:
	cmpq	$2, %rdx
	ja	.Lunix_path_BB63_383
	cmpb	$46, (%rcx)
	jne	.Lunix_path_BB63_383
	cmpb	$46, 1(%rcx)
	je	.Lunix_path_BB63_368
	.p2align	4
.Lunix_path_BB63_383:
	testq	%rax, %rax
	je	.Lunix_path_BB63_385
	decq	%rax
	jmp	.Lunix_path_BB63_369
.Lunix_path_BB63_385:
	testb	$1, 112(%rsp)
	jne	.Lunix_path_BB63_414
	movq	%r10, 64(%rsp)
	xorl	%r9d, %r9d
	jmp	.Lunix_path_BB63_389
.Lunix_path_BB63_387:
	incq	%r9
	.p2align	4
.Lunix_path_BB63_388:
	testq	%rax, %rax
	je	.Lunix_path_BB63_414
.Lunix_path_BB63_389:
	movq	%r14, %r10
	leaq	1(%r14), %r8
	movq	%r14, %rax
	.p2align	4
.Lunix_path_BB63_390:
	cmpq	$15, %rax
	jbe	.Lunix_path_BB63_393
	movdqu	(%r15,%rax), %xmm0
	pcmpeqb	.Lunix_path_CPI63_0(%rip), %xmm0
	addq	$-16, %rax
	pmovmskb	%xmm0, %r11d
	addq	$-16, %r8
	testl	%r11d, %r11d
	je	.Lunix_path_BB63_390
	movzwl	%r11w, %r8d
	bsrq	%r8, %r8
	xorq	$63, %r8
	subq	%r8, %rax
	addq	$64, %rax
	jmp	.Lunix_path_BB63_396
	.p2align	4
.Lunix_path_BB63_393:
	cmpq	$1, %r8
	je	.Lunix_path_BB63_395
	leaq	-1(%r8), %rax
	cmpb	$47, -2(%rsi,%r8)
	movq	%rax, %r8
	jne	.Lunix_path_BB63_393
	jmp	.Lunix_path_BB63_396
.Lunix_path_BB63_395:
	xorl	%eax, %eax
.Lunix_path_BB63_396:
	xorl	%r8d, %r8d
	testq	%rax, %rax
	setne	%r8b
	sete	%r11b
	movq	%r11, 112(%rsp)
	movq	%rax, %r14
	subq	%r8, %r14
	subq	%rax, %r10
	je	.Lunix_path_BB63_388
	leaq	(%rsi,%rax), %r8
	cmpq	$1, %r10
	jne	.Lunix_path_BB63_399
	cmpb	$46, (%r8)
	je	.Lunix_path_BB63_388
	jmp	.Lunix_path_BB63_402
.Lunix_path_BB63_399:
	cmpq	$2, %r10
	ja	.Lunix_path_BB63_402
	cmpb	$46, (%r8)
	jne	.Lunix_path_BB63_402
	cmpb	$46, 1(%r8)
	je	.Lunix_path_BB63_387
.Lunix_path_BB63_402:
	testq	%r9, %r9
	je	.Lunix_path_BB63_404
	decq	%r9
	jmp	.Lunix_path_BB63_388
.Lunix_path_BB63_404:
	movq	104(%rsp), %r11
	decq	%r11
	movq	64(%rsp), %r9
	addq	%r10, %r9
	incq	%r9
	movq	%r9, 64(%rsp)
	movq	%r11, 104(%rsp)
	cmpq	%r10, %rdx
	jne	.Lunix_path_BB63_413
	cmpq	$3, %rdx
	ja	.Lunix_path_BB63_409
	addq	80(%rsp), %rax
	xorl	%r8d, %r8d
.Lunix_path_BB63_407:
	movzbl	(%rcx,%r8), %r9d
	cmpb	(%rax,%r8), %r9b
	jne	.Lunix_path_BB63_411
	incq	%r8
	cmpq	%r8, %rdx
	jne	.Lunix_path_BB63_407
	jmp	.Lunix_path_BB63_412
.Lunix_path_BB63_409:
	movl	(%rcx), %eax
	movq	64(%rsp), %r9
	movq	104(%rsp), %r11
	cmpl	(%r8), %eax
	jne	.Lunix_path_BB63_413
	callq	core.cmp.slices.groups_equal.i8.31.core.cmp.numbers.U8PartialEq.
	movq	64(%rsp), %r9
	movq	104(%rsp), %r11
	testb	%al, %al
	jne	.Lunix_path_BB63_412
	jmp	.Lunix_path_BB63_413
.Lunix_path_BB63_411:
	movq	64(%rsp), %r9
	movq	104(%rsp), %r11
	cmpq	%rdx, %r8
	jb	.Lunix_path_BB63_413
.Lunix_path_BB63_412:
	movq	88(%rsp), %r9
	movq	48(%rsp), %r11
.Lunix_path_BB63_413:
	movq	%r11, %rax
	movq	%r9, %rcx
	testq	%rbx, %rbx
	movq	64(%rsp), %r10
	jne	.Lunix_path_BB63_367
	jmp	.Lunix_path_BB63_415
.Lunix_path_BB63_414:
	movq	88(%rsp), %r9
	movq	48(%rsp), %r11
.Lunix_path_BB63_415:
	subq	%r11, 96(%rsp)
	subq	%r11, %r13
	movq	352(%rsp), %r12
	xorl	%ebp, %ebp
	movq	72(%rsp), %r15
.Lunix_path_BB63_416:
	xorl	%eax, %eax
.Lunix_path_BB63_417:
	movzbl	63(%rsp), %ecx
	movb	%cl, %bpl
	shll	$12, %ebp
	leaq	(%r12,%rbp), %rdi
	testq	%r13, %r13
	je	.Lunix_path_BB63_419
	decq	%r13
	movabsq	$6148914691236517205, %rcx
	cmpq	%rcx, %r13
	cmovaeq	%rcx, %r13
	leaq	(,%r13,2), %rbx
	addq	%r13, %rbx
	addq	$2, %rbx
	movq	$-1, %rcx
	cmovbq	%rcx, %rbx
	addq	%r9, %rbx
	cmovbq	%rcx, %rbx
	cmpq	360(%rsp), %rbx
	jbe	.Lunix_path_BB63_421
	jmp	.Lunix_path_BB63_456
.Lunix_path_BB63_419:
	testq	%r9, %r9
	je	.Lunix_path_BB63_424
	leaq	-1(%r9), %rbx
	cmpq	360(%rsp), %rbx
	ja	.Lunix_path_BB63_456
.Lunix_path_BB63_421:
	leaq	1(%rbx), %rdx
	testb	$1, %al
	jne	.Lunix_path_BB63_425
	testq	%r9, %r9
	je	.Lunix_path_BB63_429
	movq	96(%rsp), %rax
	movq	%rax, 32(%rsp)
	movq	%rdi, %rcx
	movq	%rsi, %r8
	movq	%r15, %r9
	callq	path_within.backward.put_names_before
	movq	%rax, %r14
	cmpq	$3, %r14
	jb	.Lunix_path_BB63_456
	jmp	.Lunix_path_BB63_450
.Lunix_path_BB63_424:
	movl	$1, %edx
	xorl	%ebx, %ebx
	testb	$1, %al
	je	.Lunix_path_BB63_456
.Lunix_path_BB63_425:
	movq	%r15, %rax
	notq	%rax
	leaq	(%rdx,%rax), %r14
	movq	%r15, %r8
	leaq	(%rdi,%r14), %r15
	movq	%r15, %rcx
	subq	%rsi, %rcx
	cmpq	%r8, %rcx
	jae	.Lunix_path_BB63_428
	cmpq	$4, %r8
	movq	%r8, 72(%rsp)
	jb	.Lunix_path_BB63_427
	leaq	(%rdx,%rbp), %r10
	movq	%r8, %r9
	subq	%r10, %r9
	subq	%r12, %r9
	addq	%rsi, %r9
	cmpq	$-33, %r9
	jbe	.Lunix_path_BB63_432
.Lunix_path_BB63_427:
	xorl	%r13d, %r13d
.Lunix_path_BB63_441:
	movq	%r13, %r9
	andq	$3, %r8
	je	.Lunix_path_BB63_444
	movq	%rbp, %r9
	addq	%r13, %r9
	addq	%rdx, %r9
	addq	%r9, %rax
	addq	%r12, %rax
	xorl	%r10d, %r10d
	movq	%r13, %r9
	.p2align	4
.Lunix_path_BB63_443:
	movzbl	(%rsi,%r9), %r11d
	movb	%r11b, (%rax,%r10)
	incq	%r9
	incq	%r10
	cmpq	%r10, %r8
	jne	.Lunix_path_BB63_443
.Lunix_path_BB63_444:
	movq	72(%rsp), %r8
	subq	%r8, %r13
	cmpq	$-4, %r13
	ja	.Lunix_path_BB63_447
	movq	%r8, %rax
	subq	%r9, %rax
	leaq	(%r9,%rsi), %rcx
	addq	$3, %rcx
	addq	%r9, %rbp
	addq	%rdx, %rbp
	subq	%r8, %rbp
	addq	%rbp, %r12
	xorl	%edx, %edx
	.p2align	4
.Lunix_path_BB63_446:
	movzbl	-3(%rcx,%rdx), %r8d
	movb	%r8b, -1(%r12,%rdx)
	movzbl	-2(%rcx,%rdx), %r8d
	movb	%r8b, (%r12,%rdx)
	movzbl	-1(%rcx,%rdx), %r8d
	movb	%r8b, 1(%r12,%rdx)
	movzbl	(%rcx,%rdx), %r8d
	movb	%r8b, 2(%r12,%rdx)
	addq	$4, %rdx
	cmpq	%rdx, %rax
	jne	.Lunix_path_BB63_446
	jmp	.Lunix_path_BB63_447
.Lunix_path_BB63_428:
	movq	%r15, %rcx
	movq	%rsi, %rdx
	callq	memmove
.Lunix_path_BB63_447:
	testq	%r14, %r14
	je	.Lunix_path_BB63_456
	movb	$47, -1(%r15)
	cmpq	$3, %r14
	jb	.Lunix_path_BB63_456
	jmp	.Lunix_path_BB63_450
.Lunix_path_BB63_429:
	movq	%rdx, %r14
	cmpq	$3, %r14
	jb	.Lunix_path_BB63_456
.Lunix_path_BB63_450:
	addq	$-3, %r14
	movabsq	$-6148914691236517205, %rcx
	movq	%r14, %rax
	mulq	%rcx
	shrq	%rdx
	incq	%rdx
	jmp	.Lunix_path_BB63_452
	.p2align	4
.Lunix_path_BB63_454:
	movw	$11822, (%rax)
	testq	%r14, %r14
	je	.Lunix_path_BB63_451
.Lunix_path_BB63_455:
	movb	$47, -1(%rdi,%r14)
.Lunix_path_BB63_451:
	addq	$-3, %r14
	decq	%rdx
	je	.Lunix_path_BB63_456
.Lunix_path_BB63_452:
	leaq	(%rdi,%r14), %rax
	leaq	.Lunix_path_static.10(%rip), %rcx
	movq	%rax, %r8
	subq	%rcx, %r8
	cmpq	$1, %r8
	ja	.Lunix_path_BB63_454
	movw	$11822, (%rdi,%r14)
	testq	%r14, %r14
	jne	.Lunix_path_BB63_455
	jmp	.Lunix_path_BB63_451
.Lunix_path_BB63_456:
	movabsq	$-9223372036854775808, %rax
	cmpq	%rax, %rbx
	cmovbq	%rbx, %rax
.Lunix_path_BB63_457:
	addq	$248, %rsp
	popq	%rbx
	popq	%rbp
	popq	%rdi
	popq	%rsi
	popq	%r12
	popq	%r13
	popq	%r14
	popq	%r15
	retq
.Lunix_path_BB63_432:
	cmpq	$32, %r8
	jae	.Lunix_path_BB63_434
	xorl	%r13d, %r13d
	jmp	.Lunix_path_BB63_438
.Lunix_path_BB63_434:
	movq	%r8, %r13
	andq	$-32, %r13
	subq	%r8, %r10
	leaq	(%r10,%r12), %r8
	addq	$15, %r8
	xorl	%r9d, %r9d
	.p2align	4
.Lunix_path_BB63_435:
	movdqu	(%rsi,%r9), %xmm0
	movdqu	16(%rsi,%r9), %xmm1
	movdqu	%xmm0, -16(%r8,%r9)
	movdqu	%xmm1, (%r8,%r9)
	addq	$32, %r9
	cmpq	%r9, %r13
	jne	.Lunix_path_BB63_435
	movq	72(%rsp), %r8
	cmpq	%r13, %r8
	je	.Lunix_path_BB63_447
	testb	$28, %r8b
	je	.Lunix_path_BB63_441
.Lunix_path_BB63_438:
	movq	%r13, %rcx
	movq	%r8, %r13
	andq	$-4, %r13
	movq	%r13, %r9
	subq	%rcx, %r9
	leaq	(%rsi,%rcx), %r10
	movq	%rbp, 80(%rsp)
	addq	%rbp, %rcx
	addq	%rdx, %rcx
	addq	%rax, %rcx
	addq	%r12, %rcx
	xorl	%r11d, %r11d
	.p2align	4
.Lunix_path_BB63_439:
	movl	(%r10,%r11), %ebp
	movl	%ebp, (%rcx,%r11)
	addq	$4, %r11
	cmpq	%r11, %r9
	jne	.Lunix_path_BB63_439
	movq	72(%rsp), %r8
	cmpq	%r13, %r8
	movq	80(%rsp), %rbp
	je	.Lunix_path_BB63_447
	jmp	.Lunix_path_BB63_441
.Lunix_path_BB63_359:
	movzbl	1(%rdi), %edx
	movl	$1, %ecx
	cmpb	1(%rsi), %dl
	jne	.Lunix_path_BB63_56
	cmpq	$2, %rax
	je	.Lunix_path_BB63_15
	movzbl	2(%rdi), %edx
	movl	$2, %ecx
	cmpb	2(%rsi), %dl
	jne	.Lunix_path_BB63_56
	cmpq	$3, %rax
	je	.Lunix_path_BB63_15
	movzbl	3(%rdi), %edx
	movl	$3, %ecx
	cmpb	3(%rsi), %dl
	jne	.Lunix_path_BB63_56
	cmpq	$4, %rax
	je	.Lunix_path_BB63_15
	movzbl	4(%rdi), %edx
	movl	$4, %ecx
	cmpb	4(%rsi), %dl
	jne	.Lunix_path_BB63_56
	movq	%r13, %r9
	movq	%r15, %r8
	cmpq	$5, %rax
	jne	.Lunix_path_BB63_470
.Lunix_path_BB63_468:
	movq	%rax, %rcx
.Lunix_path_BB63_469:
	movq	%r8, %r15
	movq	%r9, %r13
	jmp	.Lunix_path_BB63_56
.Lunix_path_BB63_362:
	movb	$1, %al
	movq	%rbp, %rcx
	subq	%r13, %rcx
	ja	.Lunix_path_BB63_337
	jmp	.Lunix_path_BB63_363
.Lunix_path_BB63_458:
	movb	$1, %bl
	jmp	.Lunix_path_BB63_364
.Lunix_path_BB63_459:
	xorl	%ebx, %ebx
	movzbl	(%r15), %eax
	movb	$1, %sil
	cmpl	$47, %eax
	jne	.Lunix_path_BB63_245
	jmp	.Lunix_path_BB63_249
.Lunix_path_BB63_470:
	movzbl	5(%rdi), %edx
	movl	$5, %ecx
	cmpb	5(%rsi), %dl
	movq	%r8, %r15
	movq	%r9, %r13
	jne	.Lunix_path_BB63_56
	cmpq	$6, %rax
	je	.Lunix_path_BB63_468
	movzbl	6(%rdi), %ecx
	cmpb	6(%rsi), %cl
	movl	$6, %ecx
	cmoveq	%rax, %rcx
	jmp	.Lunix_path_BB63_469
	.section	.rdata,"dr"
	.p2align	2, 0x0
.Lunix_path_JTI63_0:
	.long	.Lunix_path_BB63_219-.Lunix_path_JTI63_0
	.long	.Lunix_path_BB63_222-.Lunix_path_JTI63_0
	.long	.Lunix_path_BB63_220-.Lunix_path_JTI63_0
	.long	.Lunix_path_BB63_221-.Lunix_path_JTI63_0
.Lunix_path_JTI63_1:
	.long	.Lunix_path_BB63_226-.Lunix_path_JTI63_1
	.long	.Lunix_path_BB63_223-.Lunix_path_JTI63_1
	.long	.Lunix_path_BB63_224-.Lunix_path_JTI63_1
	.long	.Lunix_path_BB63_225-.Lunix_path_JTI63_1
	.def	unix_path_request_is_root;
	.scl	2;
	.type	32;
	.endef
	.p2align	4, 0x0
.Lunix_path_CPI64_0:
	.zero	16,47
	.text
	.globl	unix_path_request_is_root
	.p2align	4
unix_path_request_is_root:
	pushq	%r14
	pushq	%rsi
	pushq	%rdi
	pushq	%rbx
	subq	$40, %rsp
	movq	%rcx, %rdi
	xorl	%r14d, %r14d
	testq	%rcx, %rcx
	sete	%r14b
	shll	$12, %r14d
	leaq	(%rcx,%r14), %rsi
	testq	%rdx, %rdx
	je	.Lunix_path_BB64_12
	movq	%rdx, %rbx
	movzbl	-1(%rsi,%rdx), %eax
	andb	$-2, %al
	cmpb	$46, %al
	jne	.Lunix_path_BB64_2
	movq	%rbx, %rdx
	movq	%rbx, %rax
	jmp	.Lunix_path_BB64_4
	.p2align	4
.Lunix_path_BB64_11:
	movq	%rax, %rdx
	testq	%rax, %rax
	je	.Lunix_path_BB64_12
.Lunix_path_BB64_4:
	decq	%rax
	je	.Lunix_path_BB64_5
	movzbl	(%rsi,%rax), %ecx
	cmpl	$47, %ecx
	je	.Lunix_path_BB64_9
	cmpl	$46, %ecx
	jne	.Lunix_path_BB64_13
	cmpb	$47, -1(%rsi,%rax)
	jne	.Lunix_path_BB64_13
.Lunix_path_BB64_9:
	movq	%rbx, %rcx
	subq	%rax, %rcx
	cmpq	$8, %rcx
	jne	.Lunix_path_BB64_11
	movq	%rsi, %rcx
	movq	%rax, %rdx
	callq	unix_path.filler.trimmed_blocks_len
	jmp	.Lunix_path_BB64_11
.Lunix_path_BB64_12:
	xorl	%edx, %edx
	jmp	.Lunix_path_BB64_13
.Lunix_path_BB64_2:
	movq	%rbx, %rdx
	jmp	.Lunix_path_BB64_13
.Lunix_path_BB64_5:
	movl	$1, %edx
.Lunix_path_BB64_13:
	leaq	(%r14,%rdi), %rax
	addq	$-16, %rax
	xorl	%ecx, %ecx
	jmp	.Lunix_path_BB64_14
.Lunix_path_BB64_29:
	incq	%rcx
	.p2align	4
.Lunix_path_BB64_31:
	testq	%r8, %r8
	je	.Lunix_path_BB64_32
.Lunix_path_BB64_14:
	movq	%rdx, %r9
	incq	%rdx
	movq	%r9, %r8
	.p2align	4
.Lunix_path_BB64_15:
	cmpq	$15, %r8
	jbe	.Lunix_path_BB64_18
	movdqu	(%rax,%r8), %xmm0
	pcmpeqb	.Lunix_path_CPI64_0(%rip), %xmm0
	addq	$-16, %r8
	pmovmskb	%xmm0, %r10d
	addq	$-16, %rdx
	testl	%r10d, %r10d
	je	.Lunix_path_BB64_15
	movzwl	%r10w, %edx
	bsrq	%rdx, %rdx
	xorq	$63, %rdx
	subq	%rdx, %r8
	addq	$64, %r8
	jmp	.Lunix_path_BB64_21
	.p2align	4
.Lunix_path_BB64_18:
	cmpq	$1, %rdx
	je	.Lunix_path_BB64_19
	leaq	-1(%rdx), %r8
	cmpb	$47, -2(%rsi,%rdx)
	movq	%r8, %rdx
	jne	.Lunix_path_BB64_18
	jmp	.Lunix_path_BB64_21
	.p2align	4
.Lunix_path_BB64_19:
	xorl	%r8d, %r8d
.Lunix_path_BB64_21:
	cmpq	$1, %r8
	movq	%r8, %rdx
	adcq	$-1, %rdx
	subq	%r8, %r9
	je	.Lunix_path_BB64_31
	cmpq	$1, %r9
	jne	.Lunix_path_BB64_26
	cmpb	$46, (%rsi,%r8)
	je	.Lunix_path_BB64_31
	jmp	.Lunix_path_BB64_24
	.p2align	4
.Lunix_path_BB64_26:
	cmpq	$2, %r9
	ja	.Lunix_path_BB64_24
	cmpb	$46, (%rsi,%r8)
	jne	.Lunix_path_BB64_24
	cmpb	$46, 1(%rsi,%r8)
	je	.Lunix_path_BB64_29
	.p2align	4
.Lunix_path_BB64_24:
	testq	%rcx, %rcx
	je	.Lunix_path_BB64_25
	decq	%rcx
	jmp	.Lunix_path_BB64_31
.Lunix_path_BB64_32:
	movb	$1, %al
	jmp	.Lunix_path_BB64_33
.Lunix_path_BB64_25:
	xorl	%eax, %eax
.Lunix_path_BB64_33:
	addq	$40, %rsp
	popq	%rbx
	popq	%rdi
	popq	%rsi
	popq	%r14
	retq
	.def	unix_path_resolved;
	.scl	2;
	.type	32;
	.endef
	.section	.rdata,"dr"
	.p2align	4, 0x0
.Lunix_path_CPI65_0:
	.zero	16,208
.Lunix_path_CPI65_1:
	.zero	16,47
.Lunix_path_CPI65_2:
	.zero	16,46
.Lunix_path_CPI65_3:
	.byte	254
	.byte	254
	.byte	254
	.byte	254
	.byte	254
	.byte	254
	.byte	254
	.byte	254
	.zero	1
	.zero	1
	.zero	1
	.zero	1
	.zero	1
	.zero	1
	.zero	1
	.zero	1
.Lunix_path_CPI65_4:
	.byte	46
	.byte	46
	.byte	46
	.byte	46
	.byte	46
	.byte	46
	.byte	46
	.byte	46
	.zero	1
	.zero	1
	.zero	1
	.zero	1
	.zero	1
	.zero	1
	.zero	1
	.zero	1
.Lunix_path_CPI65_5:
	.byte	47
	.byte	47
	.byte	47
	.byte	47
	.byte	47
	.byte	47
	.byte	47
	.byte	47
	.zero	1
	.zero	1
	.zero	1
	.zero	1
	.zero	1
	.zero	1
	.zero	1
	.zero	1
	.text
	.globl	unix_path_resolved
	.p2align	4
unix_path_resolved:
	pushq	%r15
	pushq	%r14
	pushq	%r13
	pushq	%r12
	pushq	%rsi
	pushq	%rdi
	pushq	%rbp
	pushq	%rbx
	subq	$136, %rsp
	movdqa	%xmm6, 112(%rsp)
	movq	%r9, %rbp
	movq	%r8, %r12
	movq	%rdx, %r14
	movq	%rcx, %r13
	xorl	%ebx, %ebx
	testq	%rcx, %rcx
	sete	%bl
	shll	$12, %ebx
	leaq	(%rcx,%rbx), %r15
	xorl	%edi, %edi
	testq	%r8, %r8
	sete	%dil
	shll	$12, %edi
	leaq	(%r8,%rdi), %rsi
	testq	%rdx, %rdx
	je	.Lunix_path_BB65_60
	movzbl	(%r15), %eax
	xorl	%edx, %edx
	cmpl	$47, %eax
	sete	%dl
	movq	%r14, %rcx
	subq	%rdx, %rcx
	je	.Lunix_path_BB65_50
	leaq	(%r15,%rdx), %r8
	movzbl	(%r8), %r9d
	cmpl	$47, %r9d
	je	.Lunix_path_BB65_50
	cmpl	$46, %r9d
	jne	.Lunix_path_BB65_9
	cmpq	$2, %rcx
	jb	.Lunix_path_BB65_50
	movzbl	1(%r8), %r9d
	cmpl	$47, %r9d
	je	.Lunix_path_BB65_50
	cmpl	$46, %r9d
	jne	.Lunix_path_BB65_9
	cmpq	$2, %rcx
	je	.Lunix_path_BB65_50
	cmpb	$47, 2(%r8)
	je	.Lunix_path_BB65_50
.Lunix_path_BB65_9:
	movzbl	-1(%r15,%r14), %r9d
	andb	$-2, %r9b
	cmpb	$46, %r9b
	je	.Lunix_path_BB65_50
	cmpq	$17, %rcx
	jae	.Lunix_path_BB65_13
.Lunix_path_BB65_11:
	cmpq	$9, %rcx
	jae	.Lunix_path_BB65_21
	xorl	%r9d, %r9d
	jmp	.Lunix_path_BB65_37
.Lunix_path_BB65_13:
	cmpq	$32, %rcx
	ja	.Lunix_path_BB65_23
	movdqu	(%r8), %xmm0
	movdqu	1(%r8), %xmm1
	pand	.Lunix_path_CPI65_0(%rip), %xmm1
	por	%xmm0, %xmm1
	pcmpeqb	.Lunix_path_CPI65_1(%rip), %xmm1
	pmovmskb	%xmm1, %r9d
	testl	%r9d, %r9d
	jne	.Lunix_path_BB65_16
	movdqu	-17(%r15,%r14), %xmm0
	movdqu	-16(%r15,%r14), %xmm1
	pand	.Lunix_path_CPI65_0(%rip), %xmm1
	por	%xmm0, %xmm1
	pcmpeqb	.Lunix_path_CPI65_1(%rip), %xmm1
	pmovmskb	%xmm1, %r9d
	testl	%r9d, %r9d
	je	.Lunix_path_BB65_61
.Lunix_path_BB65_16:
	cmpq	$18, %rcx
	jbe	.Lunix_path_BB65_11
	movq	%rcx, %r10
	addq	$-19, %r10
	jne	.Lunix_path_BB65_25
	xorl	%r10d, %r10d
	xorl	%r9d, %r9d
.Lunix_path_BB65_19:
	leaq	-17(%rcx), %r11
	cmpq	%r9, %r11
	cmovbq	%r11, %r9
	movdqu	(%r8,%r9), %xmm0
	movdqu	1(%r8,%r9), %xmm1
	pand	.Lunix_path_CPI65_0(%rip), %xmm1
	por	%xmm0, %xmm1
	pcmpeqb	.Lunix_path_CPI65_1(%rip), %xmm1
	pmovmskb	%xmm1, %r11d
	testl	%r11d, %r11d
	je	.Lunix_path_BB65_36
	movdqu	(%r8,%r10), %xmm0
	movdqu	1(%r8,%r10), %xmm1
	movdqu	2(%r8,%r10), %xmm2
	movdqu	3(%r8,%r10), %xmm3
	movdqa	.Lunix_path_CPI65_2(%rip), %xmm4
	movdqa	%xmm2, %xmm5
	pcmpeqb	%xmm4, %xmm5
	movdqa	.Lunix_path_CPI65_1(%rip), %xmm6
	pcmpeqb	%xmm6, %xmm3
	pand	%xmm5, %xmm3
	pcmpeqb	%xmm1, %xmm4
	pcmpeqb	%xmm6, %xmm2
	por	%xmm3, %xmm2
	pand	%xmm4, %xmm2
	pcmpeqb	%xmm6, %xmm0
	pcmpeqb	%xmm6, %xmm1
	por	%xmm2, %xmm1
	pand	%xmm0, %xmm1
	pmovmskb	%xmm1, %r8d
	orl	$65536, %r8d
	rep		bsfl	%r8d, %r9d
	addq	%r10, %r9
	jmp	.Lunix_path_BB65_37
.Lunix_path_BB65_21:
	movq	1(%r8), %xmm0
	pand	.Lunix_path_CPI65_3(%rip), %xmm0
	pcmpeqb	.Lunix_path_CPI65_4(%rip), %xmm0
	movq	(%r8), %xmm1
	pcmpeqb	.Lunix_path_CPI65_5(%rip), %xmm1
	pand	%xmm0, %xmm1
	pmovmskb	%xmm1, %r9d
	orl	$256, %r9d
	rep		bsfl	%r9d, %r9d
	cmpb	$8, %r9b
	jb	.Lunix_path_BB65_37
	cmpq	$17, %rcx
	movl	$17, %r9d
	cmovbq	%rcx, %r9
	movq	-8(%r8,%r9), %xmm0
	pand	.Lunix_path_CPI65_3(%rip), %xmm0
	pcmpeqb	.Lunix_path_CPI65_4(%rip), %xmm0
	movq	-9(%r8,%r9), %xmm1
	pcmpeqb	.Lunix_path_CPI65_5(%rip), %xmm1
	pand	%xmm0, %xmm1
	pmovmskb	%xmm1, %r8d
	orl	$256, %r8d
	rep		bsfl	%r8d, %r8d
	addq	%r8, %r9
	addq	$-9, %r9
	jmp	.Lunix_path_BB65_37
.Lunix_path_BB65_23:
	movdqu	-33(%r8,%rcx), %xmm1
	movdqu	-32(%r8,%rcx), %xmm2
	movdqa	.Lunix_path_CPI65_0(%rip), %xmm0
	pand	%xmm0, %xmm2
	por	%xmm1, %xmm2
	movdqa	.Lunix_path_CPI65_1(%rip), %xmm1
	pcmpeqb	%xmm1, %xmm2
	movdqu	-17(%r15,%r14), %xmm3
	movdqu	-16(%r15,%r14), %xmm4
	pand	%xmm0, %xmm4
	por	%xmm3, %xmm4
	pcmpeqb	%xmm1, %xmm4
	por	%xmm2, %xmm4
	pmovmskb	%xmm4, %r9d
	testl	%r9d, %r9d
	je	.Lunix_path_BB65_32
	leaq	-19(%rcx), %r10
.Lunix_path_BB65_25:
	xorl	%r9d, %r9d
	jmp	.Lunix_path_BB65_27
	.p2align	4
.Lunix_path_BB65_26:
	cmpq	%r10, %r9
	jae	.Lunix_path_BB65_19
.Lunix_path_BB65_27:
	movdqu	(%r8,%r9), %xmm0
	movdqu	1(%r8,%r9), %xmm1
	movdqa	.Lunix_path_CPI65_0(%rip), %xmm2
	pand	%xmm1, %xmm2
	por	%xmm0, %xmm2
	pcmpeqb	.Lunix_path_CPI65_1(%rip), %xmm2
	pmovmskb	%xmm2, %r11d
	testl	%r11d, %r11d
	je	.Lunix_path_BB65_30
	movdqu	2(%r8,%r9), %xmm2
	movdqu	3(%r8,%r9), %xmm3
	movdqa	.Lunix_path_CPI65_2(%rip), %xmm4
	movdqa	%xmm2, %xmm5
	pcmpeqb	%xmm4, %xmm5
	movdqa	.Lunix_path_CPI65_1(%rip), %xmm6
	pcmpeqb	%xmm6, %xmm3
	pand	%xmm5, %xmm3
	pcmpeqb	%xmm1, %xmm4
	pcmpeqb	%xmm6, %xmm2
	por	%xmm3, %xmm2
	pand	%xmm4, %xmm2
	pcmpeqb	%xmm6, %xmm0
	pcmpeqb	%xmm6, %xmm1
	por	%xmm2, %xmm1
	pand	%xmm0, %xmm1
	pmovmskb	%xmm1, %r11d
	orl	$65536, %r11d
	rep		bsfl	%r11d, %r11d
	cmpw	$15, %r11w
	jbe	.Lunix_path_BB65_31
	addq	$16, %r9
	jmp	.Lunix_path_BB65_26
.Lunix_path_BB65_30:
	addq	$16, %r9
	cmpq	%r10, %r9
	jb	.Lunix_path_BB65_27
	jmp	.Lunix_path_BB65_26
.Lunix_path_BB65_31:
	movzwl	%r11w, %r8d
	addq	%r8, %r9
	jmp	.Lunix_path_BB65_37
.Lunix_path_BB65_32:
	movq	%rcx, %r9
	addq	$-33, %r9
	movq	%r9, 56(%rsp)
	je	.Lunix_path_BB65_61
	leaq	(%rbx,%rdx), %r10
	addq	%r13, %r10
	addq	$17, %r10
	xorl	%r11d, %r11d
.Lunix_path_BB65_34:
	movdqu	-17(%r10,%r11), %xmm2
	movdqu	-16(%r10,%r11), %xmm3
	movdqu	-1(%r10,%r11), %xmm4
	movdqu	(%r10,%r11), %xmm5
	pand	%xmm0, %xmm3
	por	%xmm2, %xmm3
	pcmpeqb	%xmm1, %xmm3
	pand	%xmm0, %xmm5
	por	%xmm4, %xmm5
	pcmpeqb	%xmm1, %xmm5
	por	%xmm3, %xmm5
	movq	%rbp, %r9
	pmovmskb	%xmm5, %ebp
	testl	%ebp, %ebp
	movq	%r9, %rbp
	jne	.Lunix_path_BB65_16
	addq	$32, %r11
	cmpq	56(%rsp), %r11
	jb	.Lunix_path_BB65_34
	jmp	.Lunix_path_BB65_61
.Lunix_path_BB65_36:
	addq	$16, %r9
.Lunix_path_BB65_37:
	cmpq	%rcx, %r9
	jae	.Lunix_path_BB65_48
	addq	%rbx, %rdx
	leaq	(%rdx,%r13), %r8
	addq	$3, %r8
	jmp	.Lunix_path_BB65_41
.Lunix_path_BB65_39:
	cmpl	$47, %r10d
	je	.Lunix_path_BB65_49
.Lunix_path_BB65_40:
	cmpq	%rcx, %r9
	jae	.Lunix_path_BB65_61
.Lunix_path_BB65_41:
	movq	%r9, %rdx
	incq	%r9
	cmpb	$47, -3(%r8,%rdx)
	jne	.Lunix_path_BB65_40
	cmpq	%r9, %rcx
	jbe	.Lunix_path_BB65_49
	movzbl	-2(%r8,%rdx), %r10d
	cmpl	$46, %r10d
	jne	.Lunix_path_BB65_39
	leaq	2(%rdx), %r10
	cmpq	%r10, %rcx
	jbe	.Lunix_path_BB65_49
	movzbl	-1(%r8,%rdx), %r10d
	cmpl	$46, %r10d
	jne	.Lunix_path_BB65_39
	leaq	3(%rdx), %r10
	cmpq	%r10, %rcx
	jbe	.Lunix_path_BB65_49
	cmpb	$47, (%r8,%rdx)
	jne	.Lunix_path_BB65_40
	jmp	.Lunix_path_BB65_49
.Lunix_path_BB65_48:
	movq	%r9, %rdx
.Lunix_path_BB65_49:
	cmpq	%rcx, %rdx
	je	.Lunix_path_BB65_61
.Lunix_path_BB65_50:
	cmpl	$47, %eax
	je	.Lunix_path_BB65_60
	cmpl	$46, %eax
	jne	.Lunix_path_BB65_57
	cmpq	$1, %r14
	je	.Lunix_path_BB65_60
	movzbl	1(%r15), %eax
	cmpl	$47, %eax
	je	.Lunix_path_BB65_60
	cmpl	$46, %eax
	jne	.Lunix_path_BB65_57
	cmpq	$3, %r14
	jb	.Lunix_path_BB65_60
	cmpb	$47, 2(%r15)
	je	.Lunix_path_BB65_60
.Lunix_path_BB65_57:
	cmpb	$46, -1(%r15,%r14)
	jne	.Lunix_path_BB65_65
	cmpq	$1, %r14
	je	.Lunix_path_BB65_60
	cmpb	$47, -2(%r15,%r14)
	je	.Lunix_path_BB65_65
.Lunix_path_BB65_60:
	movq	%r15, %rcx
	movq	%r14, %rdx
	callq	path_within.normal.is_resolved
	testb	%al, %al
	je	.Lunix_path_BB65_65
.Lunix_path_BB65_61:
	cmpq	%rbp, %r14
	ja	.Lunix_path_BB65_125
	movq	%rsi, %rax
	subq	%r15, %rax
	cmpq	%r14, %rax
	jae	.Lunix_path_BB65_97
	cmpq	$4, %r14
	jb	.Lunix_path_BB65_64
	cmpq	$32, %rax
	jae	.Lunix_path_BB65_101
.Lunix_path_BB65_64:
	xorl	%eax, %eax
.Lunix_path_BB65_119:
	movq	%r14, %rdx
	movq	%rax, %rcx
	andq	$3, %rdx
	je	.Lunix_path_BB65_122
	movq	%rax, %rcx
	.p2align	4
.Lunix_path_BB65_121:
	movzbl	(%r15,%rcx), %r8d
	movb	%r8b, (%rsi,%rcx)
	incq	%rcx
	decq	%rdx
	jne	.Lunix_path_BB65_121
.Lunix_path_BB65_122:
	subq	%r14, %rax
	cmpq	$-4, %rax
	ja	.Lunix_path_BB65_125
	leaq	(%rbx,%r13), %rax
	addq	$3, %rax
	leaq	(%rdi,%r12), %rdx
	addq	$3, %rdx
	.p2align	4
.Lunix_path_BB65_124:
	movzbl	-3(%rax,%rcx), %r8d
	movb	%r8b, -3(%rdx,%rcx)
	movzbl	-2(%rax,%rcx), %r8d
	movb	%r8b, -2(%rdx,%rcx)
	movzbl	-1(%rax,%rcx), %r8d
	movb	%r8b, -1(%rdx,%rcx)
	movzbl	(%rax,%rcx), %r8d
	movb	%r8b, (%rdx,%rcx)
	addq	$4, %rcx
	cmpq	%rcx, %r14
	jne	.Lunix_path_BB65_124
	jmp	.Lunix_path_BB65_125
.Lunix_path_BB65_65:
	pxor	%xmm0, %xmm0
	movdqa	%xmm0, 80(%rsp)
	movq	$0, 96(%rsp)
	testq	%r14, %r14
	movq	%r13, 40(%rsp)
	je	.Lunix_path_BB65_75
	cmpb	$47, (%r15)
	sete	%al
	movq	%rax, 56(%rsp)
	movzbl	-1(%r15,%r14), %eax
	andb	$-2, %al
	movq	%r14, %r13
	cmpb	$46, %al
	jne	.Lunix_path_BB65_77
	movq	%r14, %rax
	jmp	.Lunix_path_BB65_69
	.p2align	4
.Lunix_path_BB65_68:
	movq	%rax, %r13
	testq	%rax, %rax
	je	.Lunix_path_BB65_76
.Lunix_path_BB65_69:
	decq	%rax
	je	.Lunix_path_BB65_98
	movzbl	(%r15,%rax), %ecx
	cmpl	$47, %ecx
	je	.Lunix_path_BB65_73
	cmpl	$46, %ecx
	jne	.Lunix_path_BB65_77
	cmpb	$47, -1(%r15,%rax)
	jne	.Lunix_path_BB65_77
.Lunix_path_BB65_73:
	movq	%r14, %rcx
	subq	%rax, %rcx
	cmpq	$8, %rcx
	jne	.Lunix_path_BB65_68
	movq	%r15, %rcx
	movq	%rax, %rdx
	callq	unix_path.filler.trimmed_blocks_len
	jmp	.Lunix_path_BB65_68
.Lunix_path_BB65_75:
	movq	$0, 56(%rsp)
.Lunix_path_BB65_76:
	xorl	%r13d, %r13d
.Lunix_path_BB65_77:
	xorl	%r8d, %r8d
	movq	%rbp, 64(%rsp)
	jmp	.Lunix_path_BB65_79
	.p2align	4
.Lunix_path_BB65_78:
	addq	%rax, %r8
	cmpq	$4, %r8
	jae	.Lunix_path_BB65_103
.Lunix_path_BB65_79:
	movq	%r8, %rax
	cmpq	%r13, %r8
	jae	.Lunix_path_BB65_84
	movzbl	(%r15,%rax), %ecx
	movl	$1, %r8d
	cmpl	$47, %ecx
	je	.Lunix_path_BB65_78
	cmpl	$46, %ecx
	jne	.Lunix_path_BB65_84
	leaq	1(%rax), %rcx
	cmpq	%r13, %rcx
	je	.Lunix_path_BB65_78
	movl	$2, %r8d
	cmpb	$47, (%r15,%rcx)
	je	.Lunix_path_BB65_78
.Lunix_path_BB65_84:
	movq	%r13, %r8
	subq	%rax, %r8
	je	.Lunix_path_BB65_160
.Lunix_path_BB65_85:
	leaq	(%r15,%rax), %rdx
	xorl	%r9d, %r9d
	cmpb	$47, (%rdx)
	sete	%r9b
	movq	%r8, %rcx
	subq	%r9, %rcx
	je	.Lunix_path_BB65_160
	leaq	(%rdx,%r9), %r10
	movq	%r10, 72(%rsp)
	movzbl	(%r10), %r11d
	cmpl	$47, %r11d
	je	.Lunix_path_BB65_160
	cmpl	$46, %r11d
	jne	.Lunix_path_BB65_93
	cmpq	$2, %rcx
	jb	.Lunix_path_BB65_160
	leaq	(%rdx,%r9), %r10
	movzbl	1(%r10), %r11d
	cmpl	$47, %r11d
	je	.Lunix_path_BB65_160
	cmpl	$46, %r11d
	jne	.Lunix_path_BB65_93
	cmpq	$2, %rcx
	je	.Lunix_path_BB65_160
	leaq	(%rdx,%r9), %r10
	cmpb	$47, 2(%r10)
	je	.Lunix_path_BB65_160
.Lunix_path_BB65_93:
	movzbl	-1(%r15,%r13), %r11d
	andb	$-2, %r11b
	cmpb	$46, %r11b
	je	.Lunix_path_BB65_160
	cmpq	$17, %rcx
	movq	%r12, 48(%rsp)
	jae	.Lunix_path_BB65_104
.Lunix_path_BB65_95:
	cmpq	$9, %rcx
	jae	.Lunix_path_BB65_126
	xorl	%r11d, %r11d
	jmp	.Lunix_path_BB65_143
.Lunix_path_BB65_97:
	movq	%rsi, %rcx
	movq	%r15, %rdx
	movq	%r14, %r8
	callq	memmove
.Lunix_path_BB65_125:
	movq	%r14, %r8
	jmp	.Lunix_path_BB65_213
.Lunix_path_BB65_98:
	movl	$1, %r13d
	jmp	.Lunix_path_BB65_77
.Lunix_path_BB65_101:
	cmpq	$32, %r14
	jae	.Lunix_path_BB65_112
	xorl	%eax, %eax
	jmp	.Lunix_path_BB65_116
.Lunix_path_BB65_103:
	movq	%r15, %rcx
	movq	%r13, %rdx
	callq	unix_path.filler.filler_end_from
	movq	%r13, %r8
	subq	%rax, %r8
	jne	.Lunix_path_BB65_85
	jmp	.Lunix_path_BB65_160
.Lunix_path_BB65_104:
	leaq	(%rdx,%r9), %r10
	cmpq	$32, %rcx
	ja	.Lunix_path_BB65_128
	movdqu	(%r10), %xmm0
	movdqu	1(%r10), %xmm1
	pand	.Lunix_path_CPI65_0(%rip), %xmm1
	por	%xmm0, %xmm1
	pcmpeqb	.Lunix_path_CPI65_1(%rip), %xmm1
	pmovmskb	%xmm1, %r11d
	testl	%r11d, %r11d
	jne	.Lunix_path_BB65_107
	movdqu	-17(%r15,%r13), %xmm0
	movdqu	-16(%r15,%r13), %xmm1
	pand	.Lunix_path_CPI65_0(%rip), %xmm1
	por	%xmm0, %xmm1
	pcmpeqb	.Lunix_path_CPI65_1(%rip), %xmm1
	pmovmskb	%xmm1, %r11d
	testl	%r11d, %r11d
	je	.Lunix_path_BB65_157
.Lunix_path_BB65_107:
	cmpq	$18, %rcx
	jbe	.Lunix_path_BB65_95
	movq	%rcx, %r10
	addq	$-19, %r10
	jne	.Lunix_path_BB65_130
	xorl	%r10d, %r10d
	xorl	%r11d, %r11d
	movq	72(%rsp), %rdx
.Lunix_path_BB65_110:
	leaq	-17(%rcx), %r12
	cmpq	%r11, %r12
	cmovbq	%r12, %r11
	movdqu	(%rdx,%r11), %xmm0
	movdqu	1(%rdx,%r11), %xmm1
	pand	.Lunix_path_CPI65_0(%rip), %xmm1
	por	%xmm0, %xmm1
	pcmpeqb	.Lunix_path_CPI65_1(%rip), %xmm1
	pmovmskb	%xmm1, %ebp
	testl	%ebp, %ebp
	je	.Lunix_path_BB65_141
	movq	%r10, %r12
	movdqu	(%rdx,%r10), %xmm0
	movdqu	1(%rdx,%r10), %xmm1
	movdqu	2(%rdx,%r10), %xmm2
	movdqu	3(%rdx,%r10), %xmm3
	movdqa	.Lunix_path_CPI65_2(%rip), %xmm4
	movdqa	%xmm2, %xmm5
	pcmpeqb	%xmm4, %xmm5
	movdqa	.Lunix_path_CPI65_1(%rip), %xmm6
	pcmpeqb	%xmm6, %xmm3
	pand	%xmm5, %xmm3
	pcmpeqb	%xmm1, %xmm4
	pcmpeqb	%xmm6, %xmm2
	por	%xmm3, %xmm2
	pand	%xmm4, %xmm2
	pcmpeqb	%xmm6, %xmm0
	pcmpeqb	%xmm6, %xmm1
	por	%xmm2, %xmm1
	pand	%xmm0, %xmm1
	pmovmskb	%xmm1, %r10d
	orl	$65536, %r10d
	rep		bsfl	%r10d, %r11d
	addq	%r12, %r11
	jmp	.Lunix_path_BB65_142
.Lunix_path_BB65_112:
	movq	%r14, %rax
	andq	$-32, %rax
	leaq	(%rbx,%r13), %rcx
	addq	$16, %rcx
	leaq	(%rdi,%r12), %rdx
	addq	$16, %rdx
	xorl	%r8d, %r8d
	.p2align	4
.Lunix_path_BB65_113:
	movdqu	-16(%rcx,%r8), %xmm0
	movdqu	(%rcx,%r8), %xmm1
	movdqu	%xmm0, -16(%rdx,%r8)
	movdqu	%xmm1, (%rdx,%r8)
	addq	$32, %r8
	cmpq	%r8, %rax
	jne	.Lunix_path_BB65_113
	cmpq	%rax, %r14
	je	.Lunix_path_BB65_125
	testb	$28, %r14b
	je	.Lunix_path_BB65_119
.Lunix_path_BB65_116:
	movq	%rax, %rcx
	movq	%r14, %rax
	andq	$-4, %rax
	.p2align	4
.Lunix_path_BB65_117:
	movl	(%r15,%rcx), %edx
	movl	%edx, (%rsi,%rcx)
	addq	$4, %rcx
	cmpq	%rcx, %rax
	jne	.Lunix_path_BB65_117
	cmpq	%rax, %r14
	je	.Lunix_path_BB65_125
	jmp	.Lunix_path_BB65_119
.Lunix_path_BB65_126:
	movq	72(%rsp), %rdx
	movq	1(%rdx), %xmm0
	pand	.Lunix_path_CPI65_3(%rip), %xmm0
	pcmpeqb	.Lunix_path_CPI65_4(%rip), %xmm0
	movq	(%rdx), %xmm1
	pcmpeqb	.Lunix_path_CPI65_5(%rip), %xmm1
	pand	%xmm0, %xmm1
	pmovmskb	%xmm1, %r11d
	orl	$256, %r11d
	rep		bsfl	%r11d, %r11d
	cmpb	$8, %r11b
	jb	.Lunix_path_BB65_143
	cmpq	$17, %rcx
	movl	$17, %r11d
	cmovbq	%rcx, %r11
	movq	-8(%rdx,%r11), %xmm0
	pand	.Lunix_path_CPI65_3(%rip), %xmm0
	pcmpeqb	.Lunix_path_CPI65_4(%rip), %xmm0
	movq	-9(%rdx,%r11), %xmm1
	pcmpeqb	.Lunix_path_CPI65_5(%rip), %xmm1
	pand	%xmm0, %xmm1
	pmovmskb	%xmm1, %r10d
	orl	$256, %r10d
	rep		bsfl	%r10d, %r10d
	addq	%r10, %r11
	addq	$-9, %r11
	jmp	.Lunix_path_BB65_143
.Lunix_path_BB65_128:
	movdqu	-33(%r10,%rcx), %xmm1
	movdqu	-32(%r10,%rcx), %xmm2
	movdqa	.Lunix_path_CPI65_0(%rip), %xmm0
	pand	%xmm0, %xmm2
	por	%xmm1, %xmm2
	movdqa	.Lunix_path_CPI65_1(%rip), %xmm1
	pcmpeqb	%xmm1, %xmm2
	movdqu	-17(%r15,%r13), %xmm3
	movdqu	-16(%r15,%r13), %xmm4
	pand	%xmm0, %xmm4
	por	%xmm3, %xmm4
	pcmpeqb	%xmm1, %xmm4
	por	%xmm2, %xmm4
	pmovmskb	%xmm4, %r11d
	testl	%r11d, %r11d
	je	.Lunix_path_BB65_137
	leaq	-19(%rcx), %r10
.Lunix_path_BB65_130:
	xorl	%r11d, %r11d
	movq	72(%rsp), %rdx
	jmp	.Lunix_path_BB65_134
.Lunix_path_BB65_131:
	movdqu	2(%rdx,%r11), %xmm2
	movdqu	3(%rdx,%r11), %xmm3
	movdqa	.Lunix_path_CPI65_2(%rip), %xmm4
	movdqa	%xmm2, %xmm5
	pcmpeqb	%xmm4, %xmm5
	movdqa	.Lunix_path_CPI65_1(%rip), %xmm6
	pcmpeqb	%xmm6, %xmm3
	pand	%xmm5, %xmm3
	pcmpeqb	%xmm1, %xmm4
	pcmpeqb	%xmm6, %xmm2
	por	%xmm3, %xmm2
	pand	%xmm4, %xmm2
	pcmpeqb	%xmm6, %xmm0
	pcmpeqb	%xmm6, %xmm1
	por	%xmm2, %xmm1
	pand	%xmm0, %xmm1
	pmovmskb	%xmm1, %ebp
	orl	$65536, %ebp
	rep		bsfl	%ebp, %ebp
	cmpw	$15, %bp
	jbe	.Lunix_path_BB65_136
	addq	$16, %r11
.Lunix_path_BB65_133:
	cmpq	%r10, %r11
	jae	.Lunix_path_BB65_110
.Lunix_path_BB65_134:
	movdqu	(%rdx,%r11), %xmm0
	movdqu	1(%rdx,%r11), %xmm1
	movdqa	.Lunix_path_CPI65_0(%rip), %xmm2
	pand	%xmm1, %xmm2
	por	%xmm0, %xmm2
	pcmpeqb	.Lunix_path_CPI65_1(%rip), %xmm2
	pmovmskb	%xmm2, %ebp
	testl	%ebp, %ebp
	jne	.Lunix_path_BB65_131
	addq	$16, %r11
	cmpq	%r10, %r11
	jb	.Lunix_path_BB65_134
	jmp	.Lunix_path_BB65_133
.Lunix_path_BB65_136:
	movzwl	%bp, %r10d
	addq	%r10, %r11
	jmp	.Lunix_path_BB65_143
.Lunix_path_BB65_137:
	movq	%rcx, %r10
	addq	$-33, %r10
	je	.Lunix_path_BB65_157
	leaq	(%rbx,%rax), %r11
	addq	%r9, %r11
	movq	40(%rsp), %r12
	leaq	(%r12,%r11), %rbp
	addq	$17, %rbp
	xorl	%r11d, %r11d
.Lunix_path_BB65_139:
	movdqu	-17(%rbp,%r11), %xmm2
	movdqu	-16(%rbp,%r11), %xmm3
	movdqu	-1(%rbp,%r11), %xmm4
	movdqu	(%rbp,%r11), %xmm5
	pand	%xmm0, %xmm3
	por	%xmm2, %xmm3
	pcmpeqb	%xmm1, %xmm3
	pand	%xmm0, %xmm5
	por	%xmm4, %xmm5
	pcmpeqb	%xmm1, %xmm5
	por	%xmm3, %xmm5
	pmovmskb	%xmm5, %r12d
	testl	%r12d, %r12d
	movq	48(%rsp), %r12
	jne	.Lunix_path_BB65_107
	addq	$32, %r11
	cmpq	%r10, %r11
	jb	.Lunix_path_BB65_139
	jmp	.Lunix_path_BB65_157
.Lunix_path_BB65_141:
	addq	$16, %r11
.Lunix_path_BB65_142:
	movq	48(%rsp), %r12
.Lunix_path_BB65_143:
	cmpq	%rcx, %r11
	jae	.Lunix_path_BB65_155
	leaq	(%rax,%r9), %r10
	negq	%r9
	addq	%r8, %r9
	addq	%rbx, %r10
	addq	%r11, %r10
	movq	48(%rsp), %r12
	movq	40(%rsp), %rbp
	addq	%r10, %rbp
	addq	$3, %rbp
	jmp	.Lunix_path_BB65_146
.Lunix_path_BB65_145:
	cmpl	$47, %r12d
	movq	48(%rsp), %r12
	je	.Lunix_path_BB65_156
.Lunix_path_BB65_153:
	incq	%rbp
	cmpq	%rcx, %r11
	jae	.Lunix_path_BB65_154
.Lunix_path_BB65_146:
	movq	%r11, %r10
	incq	%r11
	cmpb	$47, -3(%rbp)
	jne	.Lunix_path_BB65_153
	cmpq	%r11, %rcx
	jbe	.Lunix_path_BB65_156
	movzbl	-2(%rbp), %r12d
	cmpl	$46, %r12d
	jne	.Lunix_path_BB65_145
	leaq	2(%r10), %r12
	cmpq	%r12, %rcx
	jbe	.Lunix_path_BB65_214
	movzbl	-1(%rbp), %r12d
	cmpl	$46, %r12d
	jne	.Lunix_path_BB65_145
	leaq	3(%r10), %r12
	cmpq	%r12, %rcx
	jbe	.Lunix_path_BB65_214
	cmpb	$47, (%rbp)
	movq	48(%rsp), %r12
	jne	.Lunix_path_BB65_153
	jmp	.Lunix_path_BB65_156
.Lunix_path_BB65_155:
	movq	%r11, %r10
	jmp	.Lunix_path_BB65_156
.Lunix_path_BB65_154:
	movq	%r9, %r10
	jmp	.Lunix_path_BB65_156
.Lunix_path_BB65_214:
	movq	48(%rsp), %r12
.Lunix_path_BB65_156:
	cmpq	%rcx, %r10
	leaq	(%r15,%rax), %rdx
	jne	.Lunix_path_BB65_160
.Lunix_path_BB65_157:
	leaq	1(%r8), %rbp
	cmpb	$0, 56(%rsp)
	je	.Lunix_path_BB65_188
	cmpq	$1, %rbp
	adcq	$0, %rbp
	cmpq	64(%rsp), %rbp
	ja	.Lunix_path_BB65_212
	movq	%r8, %r14
	notq	%r14
	addq	%rbp, %r14
	leaq	(%rsi,%r14), %r15
	incq	%r15
	movq	%r15, %rcx
	subq	%rdx, %rcx
	cmpq	%r8, %rcx
	jae	.Lunix_path_BB65_208
	cmpq	$4, %r8
	jb	.Lunix_path_BB65_193
	leaq	(%rsi,%rbp), %rcx
	leaq	(%rbx,%r13), %rdx
	addq	40(%rsp), %rdx
	subq	%rdx, %rcx
	cmpq	$32, %rcx
	jae	.Lunix_path_BB65_218
.Lunix_path_BB65_193:
	xorl	%ecx, %ecx
	movq	40(%rsp), %r10
.Lunix_path_BB65_194:
	movq	%r13, %rdx
	subq	%rcx, %rdx
	subq	%rax, %rdx
	addq	%rcx, %rbx
	addq	%rax, %r10
	addq	%rbx, %r10
	addq	%rdi, %rcx
	addq	%rax, %rcx
	addq	%rbp, %rcx
	subq	%r13, %rcx
	addq	%r12, %rcx
	xorl	%eax, %eax
.Lunix_path_BB65_195:
	movzbl	(%r10,%rax), %r8d
	movb	%r8b, (%rcx,%rax)
	incq	%rax
	cmpq	%rax, %rdx
	jne	.Lunix_path_BB65_195
	jmp	.Lunix_path_BB65_209
.Lunix_path_BB65_160:
	leaq	80(%rsp), %rcx
	movq	%r15, %rdx
	movq	%r14, %r8
	callq	path_within.backward.count_resolved
	movq	88(%rsp), %rax
	movq	96(%rsp), %rdx
	cmpb	$0, 56(%rsp)
	je	.Lunix_path_BB65_163
	cmpq	$1, %rdx
	movq	%rdx, %rbp
	adcq	$0, %rbp
	cmpq	64(%rsp), %rbp
	ja	.Lunix_path_BB65_212
	testq	%rdx, %rdx
	je	.Lunix_path_BB65_180
	leaq	1(%rsi), %rcx
	movq	%rax, 32(%rsp)
	movq	%rbp, %rdx
	movq	%r15, %r8
	movq	%r14, %r9
	callq	path_within.backward.put_names_before
	movq	%rax, %r14
	cmpq	$3, %r14
	jae	.Lunix_path_BB65_181
	jmp	.Lunix_path_BB65_211
.Lunix_path_BB65_163:
	movq	80(%rsp), %rcx
	testq	%rcx, %rcx
	je	.Lunix_path_BB65_168
	decq	%rcx
	movabsq	$6148914691236517205, %r8
	cmpq	%r8, %rcx
	cmovaeq	%r8, %rcx
	leaq	(%rcx,%rcx,2), %rbp
	addq	$2, %rbp
	movq	$-1, %rcx
	cmovbq	%rcx, %rbp
	addq	%rdx, %rbp
	cmovbq	%rcx, %rbp
	cmpq	64(%rsp), %rbp
	ja	.Lunix_path_BB65_212
	leaq	1(%rbp), %r12
	testq	%rdx, %rdx
	movq	%r12, %rdx
	jne	.Lunix_path_BB65_171
	jmp	.Lunix_path_BB65_172
.Lunix_path_BB65_168:
	testq	%rdx, %rdx
	je	.Lunix_path_BB65_187
	leaq	-1(%rdx), %rbp
	movq	%rbp, %r8
	cmpq	64(%rsp), %rbp
	ja	.Lunix_path_BB65_213
.Lunix_path_BB65_171:
	movq	%rax, 32(%rsp)
	movq	%rsi, %rcx
	movq	%r15, %r8
	movq	%r14, %r9
	callq	path_within.backward.put_names_before
	movq	%rax, %r12
.Lunix_path_BB65_172:
	cmpq	$3, %r12
	jb	.Lunix_path_BB65_212
.Lunix_path_BB65_173:
	addq	$-3, %r12
	movabsq	$-6148914691236517205, %rcx
	movq	%r12, %rax
	mulq	%rcx
	shrq	%rdx
	incq	%rdx
	jmp	.Lunix_path_BB65_175
	.p2align	4
.Lunix_path_BB65_177:
	movw	$11822, (%rax)
	testq	%r12, %r12
	je	.Lunix_path_BB65_174
.Lunix_path_BB65_178:
	movb	$47, -1(%rsi,%r12)
.Lunix_path_BB65_174:
	addq	$-3, %r12
	decq	%rdx
	je	.Lunix_path_BB65_212
.Lunix_path_BB65_175:
	leaq	(%rsi,%r12), %rax
	leaq	.Lunix_path_static.10(%rip), %rcx
	movq	%rax, %r8
	subq	%rcx, %r8
	cmpq	$1, %r8
	ja	.Lunix_path_BB65_177
	movw	$11822, (%rsi,%r12)
	testq	%r12, %r12
	jne	.Lunix_path_BB65_178
	jmp	.Lunix_path_BB65_174
.Lunix_path_BB65_180:
	movq	%rbp, %r14
	cmpq	$3, %r14
	jb	.Lunix_path_BB65_211
.Lunix_path_BB65_181:
	leaq	-3(%r14), %rax
	movabsq	$-6148914691236517205, %rcx
	mulq	%rcx
	shrq	%rdx
	leaq	(%rdi,%r12), %rax
	addq	$-2, %rax
	incq	%rdx
	jmp	.Lunix_path_BB65_183
	.p2align	4
.Lunix_path_BB65_186:
	movb	$47, -1(%rax,%r14)
.Lunix_path_BB65_182:
	addq	$-3, %r14
	decq	%rdx
	je	.Lunix_path_BB65_211
.Lunix_path_BB65_183:
	leaq	(%rax,%r14), %rcx
	leaq	.Lunix_path_static.10(%rip), %r8
	movq	%rcx, %r9
	subq	%r8, %r9
	cmpq	$1, %r9
	ja	.Lunix_path_BB65_185
	movw	$11822, (%rax,%r14)
	cmpq	$3, %r14
	je	.Lunix_path_BB65_182
	jmp	.Lunix_path_BB65_186
	.p2align	4
.Lunix_path_BB65_185:
	movw	$11822, (%rcx)
	cmpq	$3, %r14
	je	.Lunix_path_BB65_182
	jmp	.Lunix_path_BB65_186
.Lunix_path_BB65_187:
	xorl	%r8d, %r8d
	jmp	.Lunix_path_BB65_213
.Lunix_path_BB65_188:
	movq	%rbp, 56(%rsp)
	testq	%rbp, %rbp
	je	.Lunix_path_BB65_196
	movq	%r8, %rbp
	cmpq	64(%rsp), %r8
	jbe	.Lunix_path_BB65_197
	jmp	.Lunix_path_BB65_213
.Lunix_path_BB65_196:
	xorl	%ebp, %ebp
.Lunix_path_BB65_197:
	movq	%rbp, %r12
	subq	%r8, %r12
	leaq	(%rsi,%r12), %r15
	movq	%r15, %rcx
	subq	%rdx, %rcx
	cmpq	%r8, %rcx
	jae	.Lunix_path_BB65_203
	movq	%r13, %rcx
	notq	%rcx
	cmpq	$4, %r8
	jb	.Lunix_path_BB65_200
	leaq	1(%r8), %r9
	cmpq	$1, %r9
	adcq	$0, %r9
	leaq	(%rbx,%r13), %r10
	addq	40(%rsp), %r10
	subq	%rsi, %r10
	subq	%r9, %r10
	cmpq	$-33, %r10
	jbe	.Lunix_path_BB65_215
.Lunix_path_BB65_200:
	xorl	%edx, %edx
	movq	48(%rsp), %r14
	movq	40(%rsp), %r11
.Lunix_path_BB65_201:
	subq	%rdx, %r13
	subq	%rax, %r13
	addq	%rdx, %rbx
	addq	%rax, %r11
	addq	%rbx, %r11
	addq	%rdx, %rdi
	addq	%rax, %rdi
	movq	56(%rsp), %rax
	cmpq	$1, %rax
	adcq	$0, %rax
	addq	%rdi, %rcx
	addq	%rax, %rcx
	addq	%rcx, %r14
	xorl	%eax, %eax
.Lunix_path_BB65_202:
	movzbl	(%r11,%rax), %ecx
	movb	%cl, (%r14,%rax)
	incq	%rax
	cmpq	%rax, %r13
	jne	.Lunix_path_BB65_202
	jmp	.Lunix_path_BB65_204
.Lunix_path_BB65_203:
	movq	%r15, %rcx
	callq	memmove
.Lunix_path_BB65_204:
	testq	%r12, %r12
	je	.Lunix_path_BB65_212
	movb	$47, -1(%r15)
	cmpq	$3, %r12
	jae	.Lunix_path_BB65_173
	jmp	.Lunix_path_BB65_212
.Lunix_path_BB65_208:
	movq	%r15, %rcx
	callq	memmove
.Lunix_path_BB65_209:
	testq	%r14, %r14
	je	.Lunix_path_BB65_211
	movb	$47, -1(%r15)
	cmpq	$3, %r14
	jae	.Lunix_path_BB65_181
.Lunix_path_BB65_211:
	movb	$47, (%rsi)
.Lunix_path_BB65_212:
	movq	%rbp, %r8
.Lunix_path_BB65_213:
	movq	%r8, %rax
	movaps	112(%rsp), %xmm6
	addq	$136, %rsp
	popq	%rbx
	popq	%rbp
	popq	%rdi
	popq	%rsi
	popq	%r12
	popq	%r13
	popq	%r14
	popq	%r15
	retq
.Lunix_path_BB65_215:
	cmpq	$32, %r8
	jae	.Lunix_path_BB65_220
	xorl	%edx, %edx
	movq	48(%rsp), %r14
	movq	40(%rsp), %r11
	jmp	.Lunix_path_BB65_224
.Lunix_path_BB65_218:
	cmpq	$32, %r8
	jae	.Lunix_path_BB65_227
	xorl	%ecx, %ecx
	movq	40(%rsp), %r10
	jmp	.Lunix_path_BB65_231
.Lunix_path_BB65_220:
	movq	%r8, %rdx
	andq	$-32, %rdx
	leaq	(%rbx,%rax), %r10
	movq	40(%rsp), %r11
	addq	%r11, %r10
	addq	$16, %r10
	addq	%rdi, %r9
	addq	%rax, %r9
	subq	%r13, %r9
	movq	48(%rsp), %r11
	addq	%r11, %r9
	addq	$15, %r9
	xorl	%r11d, %r11d
.Lunix_path_BB65_221:
	movdqu	-16(%r10,%r11), %xmm0
	movdqu	(%r10,%r11), %xmm1
	movdqu	%xmm0, -16(%r9,%r11)
	movdqu	%xmm1, (%r9,%r11)
	addq	$32, %r11
	cmpq	%r11, %rdx
	jne	.Lunix_path_BB65_221
	cmpq	%rdx, %r8
	movq	48(%rsp), %r14
	movq	40(%rsp), %r11
	je	.Lunix_path_BB65_204
	testb	$28, %r8b
	je	.Lunix_path_BB65_201
.Lunix_path_BB65_224:
	movq	%rdx, %r15
	movq	%r8, %rdx
	andq	$-4, %rdx
	movq	%rdx, %r9
	subq	%r15, %r9
	leaq	(%rbx,%rax), %r10
	addq	%r15, %r11
	addq	%r11, %r10
	leaq	(%rdi,%rax), %r11
	addq	%r15, %r11
	leaq	1(%r8), %r15
	cmpq	$1, %r15
	adcq	$0, %r15
	addq	%rcx, %r11
	addq	%r15, %r11
	addq	%r14, %r11
	xorl	%r15d, %r15d
.Lunix_path_BB65_225:
	movl	(%r10,%r15), %r14d
	movl	%r14d, (%r11,%r15)
	addq	$4, %r15
	cmpq	%r15, %r9
	jne	.Lunix_path_BB65_225
	cmpq	%rdx, %r8
	movq	48(%rsp), %r14
	movq	40(%rsp), %r11
	leaq	(%rsi,%r12), %r15
	jne	.Lunix_path_BB65_201
	jmp	.Lunix_path_BB65_204
.Lunix_path_BB65_227:
	movq	%r8, %rcx
	andq	$-32, %rcx
	leaq	(%rbx,%rax), %rdx
	movq	40(%rsp), %r9
	addq	%r9, %rdx
	addq	$16, %rdx
	leaq	(%rdi,%rax), %r9
	addq	%rbp, %r9
	subq	%r13, %r9
	addq	%r12, %r9
	addq	$16, %r9
	xorl	%r10d, %r10d
.Lunix_path_BB65_228:
	movdqu	-16(%rdx,%r10), %xmm0
	movdqu	(%rdx,%r10), %xmm1
	movdqu	%xmm0, -16(%r9,%r10)
	movdqu	%xmm1, (%r9,%r10)
	addq	$32, %r10
	cmpq	%r10, %rcx
	jne	.Lunix_path_BB65_228
	cmpq	%rcx, %r8
	movq	40(%rsp), %r10
	je	.Lunix_path_BB65_209
	testb	$28, %r8b
	je	.Lunix_path_BB65_194
.Lunix_path_BB65_231:
	movq	%rcx, %r11
	movq	%r8, %rcx
	andq	$-4, %rcx
	movq	%rcx, %rdx
	subq	%r11, %rdx
	leaq	(%rbx,%rax), %r9
	addq	%r11, %r10
	addq	%r10, %r9
	leaq	(%rdi,%rax), %r10
	addq	%r11, %r10
	movq	%rbp, 56(%rsp)
	addq	%rbp, %r10
	subq	%r13, %r10
	addq	%r12, %r10
	xorl	%r11d, %r11d
.Lunix_path_BB65_232:
	movl	(%r9,%r11), %ebp
	movl	%ebp, (%r10,%r11)
	addq	$4, %r11
	cmpq	%r11, %rdx
	jne	.Lunix_path_BB65_232
	cmpq	%rcx, %r8
	movq	40(%rsp), %r10
	movq	56(%rsp), %rbp
	jne	.Lunix_path_BB65_194
	jmp	.Lunix_path_BB65_209
	.def	unix_path_starts_with;
	.scl	2;
	.type	32;
	.endef
	.globl	unix_path_starts_with
	.p2align	4
unix_path_starts_with:
	pushq	%rsi
	pushq	%rbx
	subq	$72, %rsp
	movq	%r8, %r10
	movq	%rdx, %r8
	movq	%rcx, %rdx
	xorl	%ecx, %ecx
	testq	%rdx, %rdx
	sete	%bl
	xorl	%eax, %eax
	testq	%r10, %r10
	sete	%r11b
	testq	%r9, %r9
	je	.Lunix_path_BB66_7
	movb	%bl, %cl
	shll	$12, %ecx
	addq	%rcx, %rdx
	movb	%r11b, %al
	shll	$12, %eax
	addq	%rax, %r10
	pxor	%xmm0, %xmm0
	movdqa	%xmm0, 48(%rsp)
	movq	$0, 64(%rsp)
	cmpq	%r8, %r9
	movq	%r8, %rax
	cmovbq	%r9, %rax
	cmpq	$15, %rax
	ja	.Lunix_path_BB66_8
	cmpq	$7, %rax
	ja	.Lunix_path_BB66_15
	testq	%r8, %r8
	je	.Lunix_path_BB66_18
	movzbl	(%rdx), %ecx
	cmpb	(%r10), %cl
	jne	.Lunix_path_BB66_19
	cmpq	$1, %rax
	jne	.Lunix_path_BB66_46
.Lunix_path_BB66_6:
	movq	%rax, %rcx
	jmp	.Lunix_path_BB66_20
.Lunix_path_BB66_7:
	movb	$1, %al
	jmp	.Lunix_path_BB66_50
.Lunix_path_BB66_8:
	leaq	-16(%rax), %r11
	xorl	%esi, %esi
	cmpq	$64, %rax
	jb	.Lunix_path_BB66_13
	.p2align	4
.Lunix_path_BB66_9:
	movdqu	(%rdx,%rsi), %xmm0
	movdqu	16(%rdx,%rsi), %xmm1
	movdqu	32(%rdx,%rsi), %xmm2
	movdqu	48(%rdx,%rsi), %xmm3
	movdqu	(%r10,%rsi), %xmm4
	pcmpeqb	%xmm0, %xmm4
	movdqu	16(%r10,%rsi), %xmm0
	pcmpeqb	%xmm1, %xmm0
	pand	%xmm4, %xmm0
	movdqu	32(%r10,%rsi), %xmm1
	pcmpeqb	%xmm2, %xmm1
	movdqu	48(%r10,%rsi), %xmm2
	pcmpeqb	%xmm3, %xmm2
	pand	%xmm1, %xmm2
	pand	%xmm0, %xmm2
	pmovmskb	%xmm2, %ecx
	cmpl	$65535, %ecx
	jne	.Lunix_path_BB66_13
	addq	$64, %rsi
	addq	$-64, %rax
	cmpq	$63, %rax
	ja	.Lunix_path_BB66_9
	jmp	.Lunix_path_BB66_13
	.p2align	4
.Lunix_path_BB66_11:
	movdqu	(%rdx,%rsi), %xmm0
	movdqu	(%r10,%rsi), %xmm1
	pcmpeqb	%xmm0, %xmm1
	pmovmskb	%xmm1, %eax
	notl	%eax
	rep		bsfl	%eax, %eax
	cmpw	$15, %ax
	jbe	.Lunix_path_BB66_17
	addq	$16, %rsi
.Lunix_path_BB66_13:
	cmpq	%r11, %rsi
	jb	.Lunix_path_BB66_11
	movdqu	(%rdx,%r11), %xmm0
	movdqu	(%r10,%r11), %xmm1
	pcmpeqb	%xmm0, %xmm1
	pmovmskb	%xmm1, %eax
	notl	%eax
	rep		bsfl	%eax, %ecx
	addq	%r11, %rcx
	jmp	.Lunix_path_BB66_20
.Lunix_path_BB66_15:
	movq	(%rdx), %xmm0
	movq	(%r10), %xmm1
	pcmpeqb	%xmm0, %xmm1
	pmovmskb	%xmm1, %ecx
	notl	%ecx
	orl	$256, %ecx
	rep		bsfl	%ecx, %ecx
	cmpb	$8, %cl
	jb	.Lunix_path_BB66_20
	movq	-8(%rdx,%rax), %xmm0
	movq	-8(%r10,%rax), %xmm1
	pcmpeqb	%xmm0, %xmm1
	pmovmskb	%xmm1, %ecx
	notl	%ecx
	orl	$256, %ecx
	rep		bsfl	%ecx, %ecx
	addq	%rax, %rcx
	addq	$-8, %rcx
	jmp	.Lunix_path_BB66_20
.Lunix_path_BB66_17:
	movzwl	%ax, %ecx
	addq	%rsi, %rcx
	jmp	.Lunix_path_BB66_20
.Lunix_path_BB66_18:
	movb	$1, %al
	xorl	%ecx, %ecx
	cmpq	%r8, %rcx
	jb	.Lunix_path_BB66_22
	jmp	.Lunix_path_BB66_28
.Lunix_path_BB66_19:
	xorl	%ecx, %ecx
.Lunix_path_BB66_20:
	movb	$1, %al
	cmpq	%rcx, %r9
	jbe	.Lunix_path_BB66_24
	cmpq	%r8, %rcx
	jae	.Lunix_path_BB66_28
.Lunix_path_BB66_22:
	movzbl	(%rdx,%rcx), %r11d
	cmpw	$47, %r11w
	jne	.Lunix_path_BB66_31
.Lunix_path_BB66_28:
	xorl	%r11d, %r11d
	testb	%al, %al
	je	.Lunix_path_BB66_34
.Lunix_path_BB66_29:
	movzbl	(%r10,%rcx), %eax
	cmpw	$47, %ax
	je	.Lunix_path_BB66_34
	movzwl	%ax, %eax
	incl	%eax
	cmpw	%ax, %r11w
	je	.Lunix_path_BB66_35
.Lunix_path_BB66_38:
	testq	%rcx, %rcx
	je	.Lunix_path_BB66_49
	movzbl	-1(%rdx,%rcx), %r11d
	cmpb	$47, %r11b
	je	.Lunix_path_BB66_40
	xorl	%eax, %eax
	decq	%rcx
	je	.Lunix_path_BB66_50
	cmpb	$46, %r11b
	jne	.Lunix_path_BB66_50
	cmpb	$47, -1(%rdx,%rcx)
	jne	.Lunix_path_BB66_49
	jmp	.Lunix_path_BB66_40
.Lunix_path_BB66_24:
	movb	$1, %al
	cmpq	%r8, %r9
	jae	.Lunix_path_BB66_50
	cmpb	$47, (%rdx,%r9)
	je	.Lunix_path_BB66_50
	cmpb	$47, -1(%rdx,%r9)
	je	.Lunix_path_BB66_50
	xorl	%eax, %eax
	cmpq	%r8, %rcx
	jb	.Lunix_path_BB66_22
	jmp	.Lunix_path_BB66_28
.Lunix_path_BB66_31:
	cmpb	$46, %r11b
	sete	%bl
	movl	%eax, %esi
	xorb	$1, %sil
	orb	%bl, %sil
	jne	.Lunix_path_BB66_33
	movzbl	(%r10,%rcx), %ebx
	andb	$-2, %bl
	cmpb	$46, %bl
	jne	.Lunix_path_BB66_49
.Lunix_path_BB66_33:
	movzwl	%r11w, %r11d
	incl	%r11d
	testb	%al, %al
	jne	.Lunix_path_BB66_29
.Lunix_path_BB66_34:
	xorl	%eax, %eax
	cmpw	%ax, %r11w
	jne	.Lunix_path_BB66_38
.Lunix_path_BB66_35:
	testq	%rcx, %rcx
	je	.Lunix_path_BB66_49
.Lunix_path_BB66_40:
	addq	%rcx, %rdx
	subq	%rcx, %r8
	addq	%rcx, %r10
	subq	%rcx, %r9
	movq	%r9, 32(%rsp)
	leaq	48(%rsp), %rcx
	movq	%r10, %r9
	callq	unix_path.pair.Comparison.rest_after_cut
	movzbl	48(%rsp), %eax
	jmp	.Lunix_path_BB66_50
.Lunix_path_BB66_49:
	xorl	%eax, %eax
.Lunix_path_BB66_50:
	andb	$1, %al
	addq	$72, %rsp
	popq	%rbx
	popq	%rsi
	retq
.Lunix_path_BB66_46:
	movzbl	1(%rdx), %r11d
	movl	$1, %ecx
	cmpb	1(%r10), %r11b
	jne	.Lunix_path_BB66_20
	cmpq	$2, %rax
	je	.Lunix_path_BB66_6
	movzbl	2(%rdx), %r11d
	movl	$2, %ecx
	cmpb	2(%r10), %r11b
	jne	.Lunix_path_BB66_20
	cmpq	$3, %rax
	je	.Lunix_path_BB66_6
	movzbl	3(%rdx), %r11d
	movl	$3, %ecx
	cmpb	3(%r10), %r11b
	jne	.Lunix_path_BB66_20
	cmpq	$4, %rax
	je	.Lunix_path_BB66_6
	movzbl	4(%rdx), %r11d
	movl	$4, %ecx
	cmpb	4(%r10), %r11b
	jne	.Lunix_path_BB66_20
	cmpq	$5, %rax
	je	.Lunix_path_BB66_6
	movzbl	5(%rdx), %r11d
	movl	$5, %ecx
	cmpb	5(%r10), %r11b
	jne	.Lunix_path_BB66_20
	cmpq	$6, %rax
	je	.Lunix_path_BB66_6
	movzbl	6(%rdx), %ecx
	cmpb	6(%r10), %cl
	movl	$6, %ecx
	cmoveq	%rax, %rcx
	jmp	.Lunix_path_BB66_20
	.def	unix_path_strip_prefix;
	.scl	2;
	.type	32;
	.endef
	.globl	unix_path_strip_prefix
	.p2align	4
unix_path_strip_prefix:
	pushq	%r15
	pushq	%r14
	pushq	%r12
	pushq	%rsi
	pushq	%rdi
	pushq	%rbp
	pushq	%rbx
	subq	$80, %rsp
	movq	%r9, %rbx
	movq	%r8, %r15
	movq	%rdx, %rsi
	xorl	%edi, %edi
	testq	%rcx, %rcx
	sete	%dil
	shll	$12, %edi
	addq	%rcx, %rdi
	xorl	%r12d, %r12d
	testq	%r8, %r8
	sete	%bpl
	testq	%rdx, %rdx
	je	.Lunix_path_BB67_9
	movq	%rsi, %r14
	movq	%rsi, %rax
	jmp	.Lunix_path_BB67_3
	.p2align	4
.Lunix_path_BB67_2:
	movq	%rax, %r14
	testq	%rax, %rax
	je	.Lunix_path_BB67_9
.Lunix_path_BB67_3:
	decq	%rax
	je	.Lunix_path_BB67_24
	movzbl	(%rdi,%rax), %ecx
	cmpl	$47, %ecx
	je	.Lunix_path_BB67_7
	cmpl	$46, %ecx
	jne	.Lunix_path_BB67_10
	cmpb	$47, -1(%rdi,%rax)
	jne	.Lunix_path_BB67_10
.Lunix_path_BB67_7:
	movq	%rsi, %rcx
	subq	%rax, %rcx
	cmpq	$8, %rcx
	jne	.Lunix_path_BB67_2
	movq	%rdi, %rcx
	movq	%rax, %rdx
	callq	unix_path.filler.trimmed_blocks_len
	jmp	.Lunix_path_BB67_2
.Lunix_path_BB67_9:
	xorl	%r14d, %r14d
.Lunix_path_BB67_10:
	testq	%rbx, %rbx
	je	.Lunix_path_BB67_68
.Lunix_path_BB67_11:
	movb	%bpl, %r12b
	shll	$12, %r12d
	addq	%r12, %r15
	pxor	%xmm0, %xmm0
	movdqa	%xmm0, 48(%rsp)
	movq	$0, 64(%rsp)
	cmpq	%r14, %rbx
	movq	%r14, %rcx
	cmovbq	%rbx, %rcx
	cmpq	$15, %rcx
	ja	.Lunix_path_BB67_17
	cmpq	$7, %rcx
	ja	.Lunix_path_BB67_25
	testq	%r14, %r14
	je	.Lunix_path_BB67_28
	movzbl	(%rdi), %eax
	cmpb	(%r15), %al
	jne	.Lunix_path_BB67_29
	cmpq	$1, %rcx
	jne	.Lunix_path_BB67_63
.Lunix_path_BB67_16:
	movq	%rcx, %rax
	jmp	.Lunix_path_BB67_30
.Lunix_path_BB67_17:
	leaq	-16(%rcx), %rdx
	xorl	%r8d, %r8d
	cmpq	$64, %rcx
	jb	.Lunix_path_BB67_22
	.p2align	4
.Lunix_path_BB67_18:
	movdqu	(%rdi,%r8), %xmm0
	movdqu	16(%rdi,%r8), %xmm1
	movdqu	32(%rdi,%r8), %xmm2
	movdqu	48(%rdi,%r8), %xmm3
	movdqu	(%r15,%r8), %xmm4
	pcmpeqb	%xmm0, %xmm4
	movdqu	16(%r15,%r8), %xmm0
	pcmpeqb	%xmm1, %xmm0
	pand	%xmm4, %xmm0
	movdqu	32(%r15,%r8), %xmm1
	pcmpeqb	%xmm2, %xmm1
	movdqu	48(%r15,%r8), %xmm2
	pcmpeqb	%xmm3, %xmm2
	pand	%xmm1, %xmm2
	pand	%xmm0, %xmm2
	pmovmskb	%xmm2, %eax
	cmpl	$65535, %eax
	jne	.Lunix_path_BB67_22
	addq	$64, %r8
	addq	$-64, %rcx
	cmpq	$63, %rcx
	ja	.Lunix_path_BB67_18
	jmp	.Lunix_path_BB67_22
	.p2align	4
.Lunix_path_BB67_20:
	movdqu	(%rdi,%r8), %xmm0
	movdqu	(%r15,%r8), %xmm1
	pcmpeqb	%xmm0, %xmm1
	pmovmskb	%xmm1, %eax
	notl	%eax
	rep		bsfl	%eax, %eax
	cmpw	$15, %ax
	jbe	.Lunix_path_BB67_27
	addq	$16, %r8
.Lunix_path_BB67_22:
	cmpq	%rdx, %r8
	jb	.Lunix_path_BB67_20
	movdqu	(%rdi,%rdx), %xmm0
	movdqu	(%r15,%rdx), %xmm1
	pcmpeqb	%xmm0, %xmm1
	pmovmskb	%xmm1, %eax
	notl	%eax
	rep		bsfl	%eax, %eax
	addq	%rdx, %rax
	jmp	.Lunix_path_BB67_30
.Lunix_path_BB67_24:
	movl	$1, %r14d
	testq	%rbx, %rbx
	jne	.Lunix_path_BB67_11
	jmp	.Lunix_path_BB67_68
.Lunix_path_BB67_25:
	movq	(%rdi), %xmm0
	movq	(%r15), %xmm1
	pcmpeqb	%xmm0, %xmm1
	pmovmskb	%xmm1, %eax
	notl	%eax
	orl	$256, %eax
	rep		bsfl	%eax, %eax
	cmpb	$8, %al
	jb	.Lunix_path_BB67_30
	movq	-8(%rdi,%rcx), %xmm0
	movq	-8(%r15,%rcx), %xmm1
	pcmpeqb	%xmm0, %xmm1
	pmovmskb	%xmm1, %eax
	notl	%eax
	orl	$256, %eax
	rep		bsfl	%eax, %eax
	addq	%rcx, %rax
	addq	$-8, %rax
	jmp	.Lunix_path_BB67_30
.Lunix_path_BB67_27:
	movzwl	%ax, %eax
	addq	%r8, %rax
	jmp	.Lunix_path_BB67_30
.Lunix_path_BB67_28:
	movb	$1, %cl
	xorl	%eax, %eax
	cmpq	%r14, %rax
	jb	.Lunix_path_BB67_32
	jmp	.Lunix_path_BB67_43
.Lunix_path_BB67_29:
	xorl	%eax, %eax
.Lunix_path_BB67_30:
	movb	$1, %cl
	cmpq	%rax, %rbx
	jbe	.Lunix_path_BB67_34
	cmpq	%r14, %rax
	jae	.Lunix_path_BB67_43
.Lunix_path_BB67_32:
	movzbl	(%rdi,%rax), %edx
	cmpw	$47, %dx
	jne	.Lunix_path_BB67_38
.Lunix_path_BB67_43:
	xorl	%edx, %edx
	testb	%cl, %cl
	je	.Lunix_path_BB67_45
.Lunix_path_BB67_44:
	movzbl	(%r15,%rax), %ecx
	cmpw	$47, %cx
	je	.Lunix_path_BB67_45
	movzwl	%cx, %ecx
	incl	%ecx
	cmpw	%cx, %dx
	je	.Lunix_path_BB67_52
.Lunix_path_BB67_46:
	testq	%rax, %rax
	je	.Lunix_path_BB67_62
	movzbl	-1(%rdi,%rax), %ecx
	cmpb	$47, %cl
	je	.Lunix_path_BB67_53
	decq	%rax
	je	.Lunix_path_BB67_62
	cmpb	$46, %cl
	jne	.Lunix_path_BB67_62
	cmpb	$47, -1(%rdi,%rax)
	je	.Lunix_path_BB67_53
	jmp	.Lunix_path_BB67_62
.Lunix_path_BB67_34:
	movq	%r14, %r12
	subq	%rbx, %r12
	jbe	.Lunix_path_BB67_37
	cmpb	$47, (%rdi,%rbx)
	je	.Lunix_path_BB67_37
	cmpb	$47, -1(%rdi,%rbx)
	jne	.Lunix_path_BB67_42
.Lunix_path_BB67_37:
	addq	%rdi, %rbx
	jmp	.Lunix_path_BB67_55
.Lunix_path_BB67_38:
	cmpb	$46, %dl
	sete	%r8b
	movl	%ecx, %r9d
	xorb	$1, %r9b
	orb	%r8b, %r9b
	jne	.Lunix_path_BB67_40
	movzbl	(%r15,%rax), %r8d
	andb	$-2, %r8b
	cmpb	$46, %r8b
	jne	.Lunix_path_BB67_62
.Lunix_path_BB67_40:
	movzwl	%dx, %edx
	incl	%edx
	testb	%cl, %cl
	jne	.Lunix_path_BB67_44
.Lunix_path_BB67_45:
	xorl	%ecx, %ecx
	cmpw	%cx, %dx
	jne	.Lunix_path_BB67_46
.Lunix_path_BB67_52:
	testq	%rax, %rax
	je	.Lunix_path_BB67_62
.Lunix_path_BB67_53:
	leaq	(%rdi,%rax), %rdx
	subq	%rax, %r14
	addq	%rax, %r15
	subq	%rax, %rbx
	movq	%rbx, 32(%rsp)
	leaq	48(%rsp), %rcx
	movq	%r14, %r8
	movq	%r15, %r9
	callq	unix_path.pair.Comparison.rest_after_cut
	cmpb	$1, 48(%rsp)
	jne	.Lunix_path_BB67_62
	movq	56(%rsp), %rbx
	movq	64(%rsp), %r12
.Lunix_path_BB67_55:
	xorl	%r8d, %r8d
	jmp	.Lunix_path_BB67_57
	.p2align	4
.Lunix_path_BB67_56:
	addq	%rax, %r8
	cmpq	$4, %r8
	jae	.Lunix_path_BB67_66
.Lunix_path_BB67_57:
	movq	%r8, %rax
	cmpq	%r12, %r8
	jae	.Lunix_path_BB67_67
	movzbl	(%rbx,%rax), %ecx
	movl	$1, %r8d
	cmpl	$47, %ecx
	je	.Lunix_path_BB67_56
	cmpl	$46, %ecx
	jne	.Lunix_path_BB67_67
	leaq	1(%rax), %rcx
	cmpq	%r12, %rcx
	je	.Lunix_path_BB67_56
	movl	$2, %r8d
	cmpb	$47, (%rbx,%rcx)
	je	.Lunix_path_BB67_56
	jmp	.Lunix_path_BB67_67
.Lunix_path_BB67_62:
	xorl	%eax, %eax
	jmp	.Lunix_path_BB67_80
.Lunix_path_BB67_42:
	xorl	%ecx, %ecx
	cmpq	%r14, %rax
	jb	.Lunix_path_BB67_32
	jmp	.Lunix_path_BB67_43
.Lunix_path_BB67_63:
	movzbl	1(%rdi), %edx
	movl	$1, %eax
	cmpb	1(%r15), %dl
	jne	.Lunix_path_BB67_30
	cmpq	$2, %rcx
	je	.Lunix_path_BB67_16
	movzbl	2(%rdi), %edx
	movl	$2, %eax
	cmpb	2(%r15), %dl
	jne	.Lunix_path_BB67_30
	cmpq	$3, %rcx
	je	.Lunix_path_BB67_16
	movzbl	3(%rdi), %edx
	movl	$3, %eax
	cmpb	3(%r15), %dl
	jne	.Lunix_path_BB67_30
	cmpq	$4, %rcx
	je	.Lunix_path_BB67_16
	movzbl	4(%rdi), %edx
	movl	$4, %eax
	cmpb	4(%r15), %dl
	jne	.Lunix_path_BB67_30
	cmpq	$5, %rcx
	je	.Lunix_path_BB67_16
	movzbl	5(%rdi), %edx
	movl	$5, %eax
	cmpb	5(%r15), %dl
	jne	.Lunix_path_BB67_30
	cmpq	$6, %rcx
	je	.Lunix_path_BB67_16
	movzbl	6(%rdi), %eax
	cmpb	6(%r15), %al
	movl	$6, %eax
	cmoveq	%rcx, %rax
	jmp	.Lunix_path_BB67_30
.Lunix_path_BB67_66:
	movq	%rbx, %rcx
	movq	%r12, %rdx
	callq	unix_path.filler.filler_end_from
.Lunix_path_BB67_67:
	subq	%rax, %r12
	movq	%r12, %r14
.Lunix_path_BB67_68:
	movq	176(%rsp), %rbx
	testq	%rsi, %rsi
	je	.Lunix_path_BB67_77
	movq	%rsi, %rcx
	movq	%rsi, %rax
	jmp	.Lunix_path_BB67_71
	.p2align	4
.Lunix_path_BB67_70:
	movq	%rax, %rcx
	testq	%rax, %rax
	je	.Lunix_path_BB67_77
.Lunix_path_BB67_71:
	decq	%rax
	je	.Lunix_path_BB67_78
	movzbl	(%rdi,%rax), %edx
	cmpl	$47, %edx
	je	.Lunix_path_BB67_75
	cmpl	$46, %edx
	jne	.Lunix_path_BB67_79
	cmpb	$47, -1(%rdi,%rax)
	jne	.Lunix_path_BB67_79
.Lunix_path_BB67_75:
	movq	%rsi, %rcx
	subq	%rax, %rcx
	cmpq	$8, %rcx
	jne	.Lunix_path_BB67_70
	movq	%rdi, %rcx
	movq	%rax, %rdx
	callq	unix_path.filler.trimmed_blocks_len
	jmp	.Lunix_path_BB67_70
.Lunix_path_BB67_77:
	xorl	%ecx, %ecx
	jmp	.Lunix_path_BB67_79
.Lunix_path_BB67_78:
	movl	$1, %ecx
.Lunix_path_BB67_79:
	subq	%r14, %rcx
	movq	%rcx, (%rbx)
	movq	%r14, 8(%rbx)
	movb	$1, %al
.Lunix_path_BB67_80:
	addq	$80, %rsp
	popq	%rbx
	popq	%rbp
	popq	%rdi
	popq	%rsi
	popq	%r12
	popq	%r14
	popq	%r15
	retq
	.def	unix_path_version;
	.scl	2;
	.type	32;
	.endef
	.globl	unix_path_version
	.p2align	4
unix_path_version:
	movl	$65792, %eax
	retq
	.def	unix_path_join_beneath;
	.scl	2;
	.type	32;
	.endef
	.globl	unix_path_join_beneath
	.p2align	4
unix_path_join_beneath:
	pushq	%r15
	pushq	%r14
	pushq	%r13
	pushq	%r12
	pushq	%rsi
	pushq	%rdi
	pushq	%rbp
	pushq	%rbx
	subq	$104, %rsp
	movq	%rdx, %rsi
	movq	%rcx, %rdi
	movq	208(%rsp), %r13
	xorl	%ebp, %ebp
	testq	%rcx, %rcx
	sete	%r12b
	xorl	%ebx, %ebx
	testq	%r8, %r8
	sete	%bl
	shll	$12, %ebx
	addq	%r8, %rbx
	testq	%r13, %r13
	sete	%r15b
	testq	%r9, %r9
	je	.Lunix_path_BB69_7
	movq	$-2, %r14
	cmpb	$47, (%rbx)
	je	.Lunix_path_BB69_9
	movq	%rbx, %rcx
	movq	%r9, %rdx
	movq	%r13, %rbp
	movq	%r9, %r13
	callq	path_within.check.check_escape
	movq	%r13, %r9
	movq	%rbp, %r13
	xorl	%ebp, %ebp
	testb	%al, %al
	je	.Lunix_path_BB69_9
	cmpq	$15, %r9
	ja	.Lunix_path_BB69_16
	xorl	%edx, %edx
	.p2align	4
.Lunix_path_BB69_5:
	cmpb	$0, (%rbx,%rdx)
	je	.Lunix_path_BB69_8
	incq	%rdx
	cmpq	%rdx, %r9
	jne	.Lunix_path_BB69_5
	jmp	.Lunix_path_BB69_10
.Lunix_path_BB69_7:
	movb	$2, %al
	xorl	%edx, %edx
.Lunix_path_BB69_8:
	movq	$-4, %r14
	cmpq	%r9, %rdx
	jae	.Lunix_path_BB69_10
.Lunix_path_BB69_9:
	movq	%r14, %rax
	jmp	.Lunix_path_BB69_73
.Lunix_path_BB69_10:
	movb	%r12b, %bpl
	shll	$12, %ebp
	pxor	%xmm0, %xmm0
	movdqa	%xmm0, 80(%rsp)
	movdqa	%xmm0, 64(%rsp)
	movq	$0, 96(%rsp)
	cmpb	$1, %al
	jne	.Lunix_path_BB69_12
	leaq	1(%r9), %rcx
	movq	$-1, %rax
	movb	$1, %dl
	jmp	.Lunix_path_BB69_13
.Lunix_path_BB69_12:
	leaq	64(%rsp), %rcx
	movq	%rbx, %rdx
	movq	%r9, %r8
	callq	path_within.write.Layout.resolve_names
	movq	64(%rsp), %rbx
	movq	72(%rsp), %r9
	movq	80(%rsp), %rax
	movq	88(%rsp), %rcx
	movzbl	96(%rsp), %edx
.Lunix_path_BB69_13:
	movq	216(%rsp), %r8
	leaq	(%rdi,%rbp), %r14
	movq	%rsi, %r12
	testq	%rcx, %rcx
	je	.Lunix_path_BB69_23
	leaq	(%rcx,%rsi), %r12
	testq	%rsi, %rsi
	je	.Lunix_path_BB69_21
	xorl	%r10d, %r10d
	cmpb	$47, -1(%r14,%rsi)
	sete	%r10b
	negq	%r10
	jmp	.Lunix_path_BB69_22
.Lunix_path_BB69_16:
	movq	%r9, %rcx
	addq	$-16, %rcx
	je	.Lunix_path_BB69_20
	xorl	%r8d, %r8d
	.p2align	4
.Lunix_path_BB69_18:
	movdqu	(%rbx,%r8), %xmm0
	pxor	%xmm1, %xmm1
	pcmpeqb	%xmm0, %xmm1
	pmovmskb	%xmm1, %edx
	orl	$65536, %edx
	rep		bsfl	%edx, %edx
	cmpw	$15, %dx
	jbe	.Lunix_path_BB69_31
	addq	$16, %r8
	cmpq	%rcx, %r8
	jb	.Lunix_path_BB69_18
.Lunix_path_BB69_20:
	movdqu	(%rbx,%rcx), %xmm0
	pxor	%xmm1, %xmm1
	pcmpeqb	%xmm0, %xmm1
	pmovmskb	%xmm1, %edx
	orl	$65536, %edx
	rep		bsfl	%edx, %edx
	addq	%rcx, %rdx
	jmp	.Lunix_path_BB69_8
.Lunix_path_BB69_21:
	movq	$-1, %r10
.Lunix_path_BB69_22:
	addq	%r10, %r12
.Lunix_path_BB69_23:
	cmpq	%r8, %r12
	ja	.Lunix_path_BB69_72
	xorl	%r8d, %r8d
	movb	%r15b, %r8b
	shll	$12, %r8d
	movq	%r8, 48(%rsp)
	leaq	(%r8,%r13), %r15
	testb	$1, %dl
	je	.Lunix_path_BB69_28
	movq	%r12, %rcx
	subq	%r9, %rcx
	addq	%r15, %rcx
	movq	%rcx, %rax
	subq	%rbx, %rax
	cmpq	%r9, %rax
	movq	%rcx, 56(%rsp)
	jae	.Lunix_path_BB69_30
	cmpq	$4, %r9
	jb	.Lunix_path_BB69_27
	movq	48(%rsp), %rax
	leaq	(%rax,%r12), %r8
	leaq	(%r8,%r13), %rax
	subq	%r9, %rax
	subq	%rbx, %rax
	cmpq	$32, %rax
	jae	.Lunix_path_BB69_34
.Lunix_path_BB69_27:
	xorl	%eax, %eax
.Lunix_path_BB69_43:
	movq	%r9, %rdx
	movq	%rax, %rcx
	andq	$3, %rdx
	je	.Lunix_path_BB69_46
	movq	48(%rsp), %rcx
	leaq	(%rcx,%rax), %r8
	addq	%r12, %r8
	subq	%r9, %r8
	addq	%r13, %r8
	xorl	%r10d, %r10d
	movq	%rax, %rcx
	.p2align	4
.Lunix_path_BB69_45:
	movzbl	(%rbx,%rcx), %r11d
	movb	%r11b, (%r8,%r10)
	incq	%rcx
	incq	%r10
	cmpq	%r10, %rdx
	jne	.Lunix_path_BB69_45
.Lunix_path_BB69_46:
	subq	%r9, %rax
	cmpq	$-4, %rax
	ja	.Lunix_path_BB69_49
	movq	%r9, %rax
	subq	%rcx, %rax
	leaq	(%rcx,%rbx), %rdx
	addq	$3, %rdx
	addq	48(%rsp), %rcx
	addq	%r12, %rcx
	subq	%r9, %rcx
	addq	%r13, %rcx
	addq	$3, %rcx
	xorl	%r8d, %r8d
	.p2align	4
.Lunix_path_BB69_48:
	movzbl	-3(%rdx,%r8), %r10d
	movb	%r10b, -3(%rcx,%r8)
	movzbl	-2(%rdx,%r8), %r10d
	movb	%r10b, -2(%rcx,%r8)
	movzbl	-1(%rdx,%r8), %r10d
	movb	%r10b, -1(%rcx,%r8)
	movzbl	(%rdx,%r8), %r10d
	movb	%r10b, (%rcx,%r8)
	addq	$4, %r8
	cmpq	%r8, %rax
	jne	.Lunix_path_BB69_48
	jmp	.Lunix_path_BB69_49
.Lunix_path_BB69_28:
	testq	%rcx, %rcx
	je	.Lunix_path_BB69_51
	leaq	1(%r12), %rdx
	movq	%rax, 32(%rsp)
	movq	%r15, %rcx
	movq	%rbx, %r8
	callq	path_within.backward.put_names_before
	jmp	.Lunix_path_BB69_51
.Lunix_path_BB69_30:
	movq	%rbx, %rdx
	movq	%r9, %r8
	movq	%r9, %rbx
	callq	memmove
	movq	%rbx, %r9
.Lunix_path_BB69_49:
	cmpq	%r9, %r12
	je	.Lunix_path_BB69_51
	movq	56(%rsp), %rax
	movb	$47, -1(%rax)
.Lunix_path_BB69_51:
	movq	%r15, %rax
	subq	%r14, %rax
	cmpq	%rsi, %rax
	jae	.Lunix_path_BB69_54
	cmpq	$4, %rsi
	jb	.Lunix_path_BB69_53
	cmpq	$32, %rax
	jae	.Lunix_path_BB69_57
.Lunix_path_BB69_53:
	xorl	%eax, %eax
.Lunix_path_BB69_66:
	movq	%rsi, %rdx
	movq	%rax, %rcx
	andq	$3, %rdx
	je	.Lunix_path_BB69_69
	movq	%rax, %rcx
	.p2align	4
.Lunix_path_BB69_68:
	movzbl	(%r14,%rcx), %r8d
	movb	%r8b, (%r15,%rcx)
	incq	%rcx
	decq	%rdx
	jne	.Lunix_path_BB69_68
.Lunix_path_BB69_69:
	subq	%rsi, %rax
	cmpq	$-4, %rax
	ja	.Lunix_path_BB69_72
	leaq	(%rdi,%rbp), %rax
	addq	$3, %rax
	movq	48(%rsp), %rdx
	addq	%r13, %rdx
	addq	$3, %rdx
	.p2align	4
.Lunix_path_BB69_71:
	movzbl	-3(%rax,%rcx), %r8d
	movb	%r8b, -3(%rdx,%rcx)
	movzbl	-2(%rax,%rcx), %r8d
	movb	%r8b, -2(%rdx,%rcx)
	movzbl	-1(%rax,%rcx), %r8d
	movb	%r8b, -1(%rdx,%rcx)
	movzbl	(%rax,%rcx), %r8d
	movb	%r8b, (%rdx,%rcx)
	addq	$4, %rcx
	cmpq	%rcx, %rsi
	jne	.Lunix_path_BB69_71
	jmp	.Lunix_path_BB69_72
.Lunix_path_BB69_54:
	movq	%r15, %rcx
	movq	%r14, %rdx
	movq	%rsi, %r8
	callq	memmove
.Lunix_path_BB69_72:
	movabsq	$-9223372036854775808, %rax
	cmpq	%rax, %r12
	cmovbq	%r12, %rax
.Lunix_path_BB69_73:
	addq	$104, %rsp
	popq	%rbx
	popq	%rbp
	popq	%rdi
	popq	%rsi
	popq	%r12
	popq	%r13
	popq	%r14
	popq	%r15
	retq
.Lunix_path_BB69_31:
	movzwl	%dx, %edx
	addq	%r8, %rdx
	jmp	.Lunix_path_BB69_8
.Lunix_path_BB69_57:
	cmpq	$32, %rsi
	jae	.Lunix_path_BB69_59
	xorl	%eax, %eax
	jmp	.Lunix_path_BB69_63
.Lunix_path_BB69_34:
	cmpq	$32, %r9
	jae	.Lunix_path_BB69_36
	xorl	%eax, %eax
	jmp	.Lunix_path_BB69_40
.Lunix_path_BB69_59:
	movq	%rsi, %rax
	andq	$-32, %rax
	leaq	(%rdi,%rbp), %rcx
	addq	$16, %rcx
	movq	48(%rsp), %rdx
	addq	%r13, %rdx
	addq	$16, %rdx
	xorl	%r8d, %r8d
	.p2align	4
.Lunix_path_BB69_60:
	movdqu	-16(%rcx,%r8), %xmm0
	movdqu	(%rcx,%r8), %xmm1
	movdqu	%xmm0, -16(%rdx,%r8)
	movdqu	%xmm1, (%rdx,%r8)
	addq	$32, %r8
	cmpq	%r8, %rax
	jne	.Lunix_path_BB69_60
	cmpq	%rax, %rsi
	je	.Lunix_path_BB69_72
	testb	$28, %sil
	je	.Lunix_path_BB69_66
.Lunix_path_BB69_63:
	movq	%rax, %rcx
	movq	%rsi, %rax
	andq	$-4, %rax
	.p2align	4
.Lunix_path_BB69_64:
	movl	(%r14,%rcx), %edx
	movl	%edx, (%r15,%rcx)
	addq	$4, %rcx
	cmpq	%rcx, %rax
	jne	.Lunix_path_BB69_64
	cmpq	%rax, %rsi
	je	.Lunix_path_BB69_72
	jmp	.Lunix_path_BB69_66
.Lunix_path_BB69_36:
	movq	%r9, %rax
	andq	$-32, %rax
	subq	%r9, %r8
	leaq	(%r8,%r13), %rcx
	addq	$16, %rcx
	xorl	%edx, %edx
.Lunix_path_BB69_37:
	movdqu	(%rbx,%rdx), %xmm0
	movdqu	16(%rbx,%rdx), %xmm1
	movdqu	%xmm0, -16(%rcx,%rdx)
	movdqu	%xmm1, (%rcx,%rdx)
	addq	$32, %rdx
	cmpq	%rdx, %rax
	jne	.Lunix_path_BB69_37
	cmpq	%rax, %r9
	je	.Lunix_path_BB69_49
	testb	$28, %r9b
	je	.Lunix_path_BB69_43
.Lunix_path_BB69_40:
	movq	%rax, %rcx
	movq	%r9, %rax
	andq	$-4, %rax
	movq	%rax, %rdx
	subq	%rcx, %rdx
	leaq	(%rbx,%rcx), %r8
	addq	48(%rsp), %rcx
	addq	%r12, %rcx
	subq	%r9, %rcx
	addq	%r13, %rcx
	xorl	%r10d, %r10d
	.p2align	4
.Lunix_path_BB69_41:
	movl	(%r8,%r10), %r11d
	movl	%r11d, (%rcx,%r10)
	addq	$4, %r10
	cmpq	%r10, %rdx
	jne	.Lunix_path_BB69_41
	cmpq	%rax, %r9
	je	.Lunix_path_BB69_49
	jmp	.Lunix_path_BB69_43
	.def	unix_path_join_in_root;
	.scl	2;
	.type	32;
	.endef
	.section	.rdata,"dr"
	.p2align	4, 0x0
.Lunix_path_CPI70_0:
	.zero	16,208
.Lunix_path_CPI70_1:
	.zero	16,47
.Lunix_path_CPI70_2:
	.zero	16,46
.Lunix_path_CPI70_3:
	.byte	254
	.byte	254
	.byte	254
	.byte	254
	.byte	254
	.byte	254
	.byte	254
	.byte	254
	.zero	1
	.zero	1
	.zero	1
	.zero	1
	.zero	1
	.zero	1
	.zero	1
	.zero	1
.Lunix_path_CPI70_4:
	.byte	46
	.byte	46
	.byte	46
	.byte	46
	.byte	46
	.byte	46
	.byte	46
	.byte	46
	.zero	1
	.zero	1
	.zero	1
	.zero	1
	.zero	1
	.zero	1
	.zero	1
	.zero	1
.Lunix_path_CPI70_5:
	.byte	47
	.byte	47
	.byte	47
	.byte	47
	.byte	47
	.byte	47
	.byte	47
	.byte	47
	.zero	1
	.zero	1
	.zero	1
	.zero	1
	.zero	1
	.zero	1
	.zero	1
	.zero	1
	.text
	.globl	unix_path_join_in_root
	.p2align	4
unix_path_join_in_root:
	pushq	%r15
	pushq	%r14
	pushq	%r13
	pushq	%r12
	pushq	%rsi
	pushq	%rdi
	pushq	%rbp
	pushq	%rbx
	subq	$120, %rsp
	movdqa	%xmm6, 96(%rsp)
	movq	%rdx, %rdi
	movq	%rcx, %r12
	movq	224(%rsp), %r15
	xorl	%ebp, %ebp
	testq	%rcx, %rcx
	sete	%bl
	xorl	%eax, %eax
	testq	%r8, %r8
	sete	%al
	shll	$12, %eax
	addq	%r8, %rax
	xorl	%r13d, %r13d
	testq	%r15, %r15
	sete	%r14b
	cmpq	$15, %r9
	ja	.Lunix_path_BB70_5
	testq	%r9, %r9
	je	.Lunix_path_BB70_17
	xorl	%edx, %edx
	.p2align	4
.Lunix_path_BB70_3:
	cmpb	$0, (%rax,%rdx)
	je	.Lunix_path_BB70_10
	incq	%rdx
	cmpq	%rdx, %r9
	jne	.Lunix_path_BB70_3
	jmp	.Lunix_path_BB70_14
.Lunix_path_BB70_5:
	movq	%r9, %rcx
	addq	$-16, %rcx
	je	.Lunix_path_BB70_9
	xorl	%r8d, %r8d
	.p2align	4
.Lunix_path_BB70_7:
	movdqu	(%rax,%r8), %xmm0
	pxor	%xmm1, %xmm1
	pcmpeqb	%xmm0, %xmm1
	pmovmskb	%xmm1, %edx
	orl	$65536, %edx
	rep		bsfl	%edx, %edx
	cmpw	$15, %dx
	jbe	.Lunix_path_BB70_12
	addq	$16, %r8
	cmpq	%rcx, %r8
	jb	.Lunix_path_BB70_7
.Lunix_path_BB70_9:
	movdqu	(%rax,%rcx), %xmm0
	pxor	%xmm1, %xmm1
	pcmpeqb	%xmm0, %xmm1
	pmovmskb	%xmm1, %edx
	orl	$65536, %edx
	rep		bsfl	%edx, %edx
	addq	%rcx, %rdx
.Lunix_path_BB70_10:
	cmpq	%r9, %rdx
	jae	.Lunix_path_BB70_13
.Lunix_path_BB70_11:
	movq	$-4, %rax
	jmp	.Lunix_path_BB70_82
.Lunix_path_BB70_12:
	movzwl	%dx, %edx
	addq	%r8, %rdx
	cmpq	%r9, %rdx
	jb	.Lunix_path_BB70_11
.Lunix_path_BB70_13:
	testq	%r9, %r9
	je	.Lunix_path_BB70_17
.Lunix_path_BB70_14:
	xorl	%ecx, %ecx
	.p2align	4
.Lunix_path_BB70_15:
	movzbl	(%rax,%rcx), %r10d
	cmpb	$47, %r10b
	jne	.Lunix_path_BB70_23
	incq	%rcx
	cmpq	%r9, %rcx
	jne	.Lunix_path_BB70_15
.Lunix_path_BB70_17:
	addq	%r9, %rax
	xorl	%r8d, %r8d
	movq	%rax, %rdx
.Lunix_path_BB70_18:
	pxor	%xmm0, %xmm0
	movdqa	%xmm0, 64(%rsp)
	movdqa	%xmm0, 48(%rsp)
	movq	$0, 80(%rsp)
.Lunix_path_BB70_19:
	leaq	48(%rsp), %rcx
	callq	path_within.write.Layout.resolve_names
	movq	48(%rsp), %rdx
	movq	56(%rsp), %r8
	movq	64(%rsp), %rcx
	movq	72(%rsp), %rax
	movzbl	80(%rsp), %r9d
.Lunix_path_BB70_20:
	movq	232(%rsp), %r10
	movb	%bl, %bpl
	shll	$12, %ebp
	leaq	(%r12,%rbp), %rbx
	movq	%rdi, %rsi
	testq	%rax, %rax
	je	.Lunix_path_BB70_27
	leaq	(%rax,%rdi), %rsi
	testq	%rdi, %rdi
	je	.Lunix_path_BB70_25
	xorl	%r11d, %r11d
	cmpb	$47, -1(%rbx,%rdi)
	sete	%r11b
	negq	%r11
	jmp	.Lunix_path_BB70_26
.Lunix_path_BB70_23:
	leaq	(%rax,%rcx), %rdx
	movq	%r9, %r8
	subq	%rcx, %r8
	jne	.Lunix_path_BB70_34
	xorl	%r8d, %r8d
	jmp	.Lunix_path_BB70_18
.Lunix_path_BB70_25:
	movq	$-1, %r11
.Lunix_path_BB70_26:
	addq	%r11, %rsi
.Lunix_path_BB70_27:
	cmpq	%r10, %rsi
	ja	.Lunix_path_BB70_81
	movb	%r14b, %r13b
	shll	$12, %r13d
	leaq	(%r15,%r13), %r14
	testb	$1, %r9b
	je	.Lunix_path_BB70_32
	movq	%rsi, %r15
	subq	%r8, %r15
	addq	%r14, %r15
	movq	%r15, %rax
	subq	%rdx, %rax
	cmpq	%r8, %rax
	movq	%r12, 88(%rsp)
	jae	.Lunix_path_BB70_40
	cmpq	$4, %r8
	jb	.Lunix_path_BB70_31
	leaq	(%rsi,%r13), %rcx
	movq	224(%rsp), %rax
	addq	%rcx, %rax
	subq	%r8, %rax
	subq	%rdx, %rax
	cmpq	$32, %rax
	jae	.Lunix_path_BB70_43
.Lunix_path_BB70_31:
	xorl	%eax, %eax
.Lunix_path_BB70_52:
	movq	%r8, %r9
	movq	%rax, %rcx
	andq	$3, %r9
	je	.Lunix_path_BB70_55
	leaq	(%rax,%r13), %r10
	addq	%rsi, %r10
	subq	%r8, %r10
	addq	224(%rsp), %r10
	xorl	%r11d, %r11d
	movq	%rax, %rcx
	.p2align	4
.Lunix_path_BB70_54:
	movzbl	(%rdx,%rcx), %r12d
	movb	%r12b, (%r10,%r11)
	incq	%rcx
	incq	%r11
	cmpq	%r11, %r9
	jne	.Lunix_path_BB70_54
.Lunix_path_BB70_55:
	subq	%r8, %rax
	cmpq	$-4, %rax
	ja	.Lunix_path_BB70_58
	movq	%r8, %rax
	subq	%rcx, %rax
	addq	%rcx, %rdx
	addq	$3, %rdx
	addq	%r13, %rcx
	addq	%rsi, %rcx
	subq	%r8, %rcx
	movq	224(%rsp), %r9
	addq	%r9, %rcx
	addq	$3, %rcx
	xorl	%r9d, %r9d
	.p2align	4
.Lunix_path_BB70_57:
	movzbl	-3(%rdx,%r9), %r10d
	movb	%r10b, -3(%rcx,%r9)
	movzbl	-2(%rdx,%r9), %r10d
	movb	%r10b, -2(%rcx,%r9)
	movzbl	-1(%rdx,%r9), %r10d
	movb	%r10b, -1(%rcx,%r9)
	movzbl	(%rdx,%r9), %r10d
	movb	%r10b, (%rcx,%r9)
	addq	$4, %r9
	cmpq	%r9, %rax
	jne	.Lunix_path_BB70_57
	jmp	.Lunix_path_BB70_58
.Lunix_path_BB70_32:
	testq	%rax, %rax
	je	.Lunix_path_BB70_60
	leaq	1(%rsi), %rax
	movq	%rcx, 32(%rsp)
	movq	%r14, %rcx
	movq	%rdx, %r10
	movq	%rax, %rdx
	movq	%r8, %r9
	movq	%r10, %r8
	callq	path_within.backward.put_names_before
	jmp	.Lunix_path_BB70_60
.Lunix_path_BB70_34:
	cmpb	$46, %r10b
	jne	.Lunix_path_BB70_84
	cmpq	$2, %r8
	jb	.Lunix_path_BB70_18
	movzbl	1(%rdx), %r10d
	cmpl	$47, %r10d
	je	.Lunix_path_BB70_18
	cmpl	$46, %r10d
	jne	.Lunix_path_BB70_84
	cmpq	$2, %r8
	jne	.Lunix_path_BB70_83
	movl	$2, %r8d
	jmp	.Lunix_path_BB70_18
.Lunix_path_BB70_40:
	movq	%r15, %rcx
	movq	%r8, %r12
	callq	memmove
	movq	%r12, %r8
.Lunix_path_BB70_58:
	cmpq	%r8, %rsi
	movq	88(%rsp), %r12
	je	.Lunix_path_BB70_60
	movb	$47, -1(%r15)
.Lunix_path_BB70_60:
	movq	%r14, %rax
	subq	%rbx, %rax
	cmpq	%rdi, %rax
	jae	.Lunix_path_BB70_63
	cmpq	$4, %rdi
	jae	.Lunix_path_BB70_64
	xorl	%eax, %eax
	movq	224(%rsp), %r9
	jmp	.Lunix_path_BB70_75
.Lunix_path_BB70_63:
	movq	%r14, %rcx
	movq	%rbx, %rdx
	movq	%rdi, %r8
	callq	memmove
	jmp	.Lunix_path_BB70_81
.Lunix_path_BB70_64:
	cmpq	$32, %rax
	movq	224(%rsp), %r9
	jae	.Lunix_path_BB70_66
	xorl	%eax, %eax
	jmp	.Lunix_path_BB70_75
.Lunix_path_BB70_66:
	cmpq	$32, %rdi
	jae	.Lunix_path_BB70_68
	xorl	%eax, %eax
	jmp	.Lunix_path_BB70_72
.Lunix_path_BB70_43:
	cmpq	$32, %r8
	jae	.Lunix_path_BB70_45
	xorl	%eax, %eax
	jmp	.Lunix_path_BB70_49
.Lunix_path_BB70_68:
	movq	%rdi, %rax
	andq	$-32, %rax
	leaq	(%r12,%rbp), %rcx
	addq	$16, %rcx
	leaq	(%r9,%r13), %rdx
	addq	$16, %rdx
	xorl	%r8d, %r8d
	.p2align	4
.Lunix_path_BB70_69:
	movdqu	-16(%rcx,%r8), %xmm0
	movdqu	(%rcx,%r8), %xmm1
	movdqu	%xmm0, -16(%rdx,%r8)
	movdqu	%xmm1, (%rdx,%r8)
	addq	$32, %r8
	cmpq	%r8, %rax
	jne	.Lunix_path_BB70_69
	cmpq	%rax, %rdi
	je	.Lunix_path_BB70_81
	testb	$28, %dil
	je	.Lunix_path_BB70_75
.Lunix_path_BB70_72:
	movq	%rax, %rcx
	movq	%rdi, %rax
	andq	$-4, %rax
	.p2align	4
.Lunix_path_BB70_73:
	movl	(%rbx,%rcx), %edx
	movl	%edx, (%r14,%rcx)
	addq	$4, %rcx
	cmpq	%rcx, %rax
	jne	.Lunix_path_BB70_73
	cmpq	%rax, %rdi
	je	.Lunix_path_BB70_81
.Lunix_path_BB70_75:
	movq	%rdi, %rdx
	movq	%rax, %rcx
	andq	$3, %rdx
	je	.Lunix_path_BB70_78
	movq	%rax, %rcx
	.p2align	4
.Lunix_path_BB70_77:
	movzbl	(%rbx,%rcx), %r8d
	movb	%r8b, (%r14,%rcx)
	incq	%rcx
	decq	%rdx
	jne	.Lunix_path_BB70_77
.Lunix_path_BB70_78:
	subq	%rdi, %rax
	cmpq	$-4, %rax
	ja	.Lunix_path_BB70_81
	leaq	(%r12,%rbp), %rax
	addq	$3, %rax
	leaq	(%r9,%r13), %rdx
	addq	$3, %rdx
	.p2align	4
.Lunix_path_BB70_80:
	movzbl	-3(%rax,%rcx), %r8d
	movb	%r8b, -3(%rdx,%rcx)
	movzbl	-2(%rax,%rcx), %r8d
	movb	%r8b, -2(%rdx,%rcx)
	movzbl	-1(%rax,%rcx), %r8d
	movb	%r8b, -1(%rdx,%rcx)
	movzbl	(%rax,%rcx), %r8d
	movb	%r8b, (%rdx,%rcx)
	addq	$4, %rcx
	cmpq	%rcx, %rdi
	jne	.Lunix_path_BB70_80
.Lunix_path_BB70_81:
	movabsq	$-9223372036854775808, %rax
	cmpq	%rax, %rsi
	cmovbq	%rsi, %rax
.Lunix_path_BB70_82:
	movaps	96(%rsp), %xmm6
	addq	$120, %rsp
	popq	%rbx
	popq	%rbp
	popq	%rdi
	popq	%rsi
	popq	%r12
	popq	%r13
	popq	%r14
	popq	%r15
	retq
.Lunix_path_BB70_45:
	movq	%r8, %rax
	andq	$-32, %rax
	subq	%r8, %rcx
	movq	224(%rsp), %r9
	addq	%r9, %rcx
	addq	$16, %rcx
	xorl	%r9d, %r9d
	.p2align	4
.Lunix_path_BB70_46:
	movdqu	(%rdx,%r9), %xmm0
	movdqu	16(%rdx,%r9), %xmm1
	movdqu	%xmm0, -16(%rcx,%r9)
	movdqu	%xmm1, (%rcx,%r9)
	addq	$32, %r9
	cmpq	%r9, %rax
	jne	.Lunix_path_BB70_46
	cmpq	%rax, %r8
	je	.Lunix_path_BB70_58
	testb	$28, %r8b
	je	.Lunix_path_BB70_52
.Lunix_path_BB70_49:
	movq	%rax, %rcx
	movq	%r8, %rax
	andq	$-4, %rax
	movq	%rax, %r9
	subq	%rcx, %r9
	leaq	(%rdx,%rcx), %r10
	addq	%r13, %rcx
	addq	%rsi, %rcx
	subq	%r8, %rcx
	addq	224(%rsp), %rcx
	xorl	%r11d, %r11d
	.p2align	4
.Lunix_path_BB70_50:
	movl	(%r10,%r11), %r12d
	movl	%r12d, (%rcx,%r11)
	addq	$4, %r11
	cmpq	%r11, %r9
	jne	.Lunix_path_BB70_50
	cmpq	%rax, %r8
	je	.Lunix_path_BB70_58
	jmp	.Lunix_path_BB70_52
.Lunix_path_BB70_83:
	cmpb	$47, 2(%rdx)
	je	.Lunix_path_BB70_18
.Lunix_path_BB70_84:
	movzbl	-1(%rax,%r9), %r10d
	andb	$-2, %r10b
	cmpb	$46, %r10b
	je	.Lunix_path_BB70_18
	cmpq	$17, %r8
	jae	.Lunix_path_BB70_88
.Lunix_path_BB70_86:
	cmpq	$9, %r8
	jae	.Lunix_path_BB70_96
	xorl	%r10d, %r10d
	jmp	.Lunix_path_BB70_114
.Lunix_path_BB70_88:
	cmpq	$32, %r8
	ja	.Lunix_path_BB70_98
	movdqu	(%rdx), %xmm0
	movdqu	1(%rdx), %xmm1
	pand	.Lunix_path_CPI70_0(%rip), %xmm1
	por	%xmm0, %xmm1
	pcmpeqb	.Lunix_path_CPI70_1(%rip), %xmm1
	pmovmskb	%xmm1, %r10d
	testl	%r10d, %r10d
	jne	.Lunix_path_BB70_91
	movdqu	-17(%rax,%r9), %xmm0
	movdqu	-16(%rax,%r9), %xmm1
	pand	.Lunix_path_CPI70_0(%rip), %xmm1
	por	%xmm0, %xmm1
	pcmpeqb	.Lunix_path_CPI70_1(%rip), %xmm1
	pmovmskb	%xmm1, %r10d
	testl	%r10d, %r10d
	je	.Lunix_path_BB70_112
.Lunix_path_BB70_91:
	cmpq	$18, %r8
	movq	224(%rsp), %r15
	jbe	.Lunix_path_BB70_86
	movq	%r8, %r11
	addq	$-19, %r11
	jne	.Lunix_path_BB70_100
	xorl	%r11d, %r11d
	xorl	%r10d, %r10d
.Lunix_path_BB70_94:
	leaq	-17(%r8), %rsi
	cmpq	%r10, %rsi
	cmovbq	%rsi, %r10
	movdqu	(%rdx,%r10), %xmm0
	movdqu	1(%rdx,%r10), %xmm1
	pand	.Lunix_path_CPI70_0(%rip), %xmm1
	por	%xmm0, %xmm1
	pcmpeqb	.Lunix_path_CPI70_1(%rip), %xmm1
	pmovmskb	%xmm1, %esi
	testl	%esi, %esi
	je	.Lunix_path_BB70_113
	movdqu	(%rdx,%r11), %xmm0
	movdqu	1(%rdx,%r11), %xmm1
	movdqu	2(%rdx,%r11), %xmm2
	movdqu	3(%rdx,%r11), %xmm3
	movdqa	.Lunix_path_CPI70_2(%rip), %xmm4
	movdqa	%xmm2, %xmm5
	pcmpeqb	%xmm4, %xmm5
	movdqa	.Lunix_path_CPI70_1(%rip), %xmm6
	pcmpeqb	%xmm6, %xmm3
	pand	%xmm5, %xmm3
	pcmpeqb	%xmm1, %xmm4
	pcmpeqb	%xmm6, %xmm2
	por	%xmm3, %xmm2
	pand	%xmm4, %xmm2
	pcmpeqb	%xmm6, %xmm0
	pcmpeqb	%xmm6, %xmm1
	por	%xmm2, %xmm1
	pand	%xmm0, %xmm1
	pmovmskb	%xmm1, %r10d
	orl	$65536, %r10d
	rep		bsfl	%r10d, %r10d
	jmp	.Lunix_path_BB70_107
.Lunix_path_BB70_96:
	movq	1(%rdx), %xmm0
	pand	.Lunix_path_CPI70_3(%rip), %xmm0
	pcmpeqb	.Lunix_path_CPI70_4(%rip), %xmm0
	movq	(%rdx), %xmm1
	pcmpeqb	.Lunix_path_CPI70_5(%rip), %xmm1
	pand	%xmm0, %xmm1
	pmovmskb	%xmm1, %r10d
	orl	$256, %r10d
	rep		bsfl	%r10d, %r10d
	cmpb	$8, %r10b
	jb	.Lunix_path_BB70_114
	cmpq	$17, %r8
	movl	$17, %r10d
	cmovbq	%r8, %r10
	movq	-8(%rdx,%r10), %xmm0
	pand	.Lunix_path_CPI70_3(%rip), %xmm0
	pcmpeqb	.Lunix_path_CPI70_4(%rip), %xmm0
	movq	-9(%rdx,%r10), %xmm1
	pcmpeqb	.Lunix_path_CPI70_5(%rip), %xmm1
	pand	%xmm0, %xmm1
	pmovmskb	%xmm1, %r11d
	orl	$256, %r11d
	rep		bsfl	%r11d, %r11d
	addq	%r11, %r10
	addq	$-9, %r10
	jmp	.Lunix_path_BB70_114
.Lunix_path_BB70_98:
	movdqu	-33(%rdx,%r8), %xmm1
	movdqu	-32(%rdx,%r8), %xmm2
	movdqa	.Lunix_path_CPI70_0(%rip), %xmm0
	pand	%xmm0, %xmm2
	por	%xmm1, %xmm2
	movdqa	.Lunix_path_CPI70_1(%rip), %xmm1
	pcmpeqb	%xmm1, %xmm2
	movdqu	-17(%rax,%r9), %xmm3
	movdqu	-16(%rax,%r9), %xmm4
	pand	%xmm0, %xmm4
	por	%xmm3, %xmm4
	pcmpeqb	%xmm1, %xmm4
	por	%xmm2, %xmm4
	pmovmskb	%xmm4, %r10d
	testl	%r10d, %r10d
	je	.Lunix_path_BB70_108
	leaq	-19(%r8), %r11
.Lunix_path_BB70_100:
	xorl	%r10d, %r10d
	jmp	.Lunix_path_BB70_102
.Lunix_path_BB70_101:
	cmpq	%r11, %r10
	jae	.Lunix_path_BB70_94
.Lunix_path_BB70_102:
	movdqu	(%rdx,%r10), %xmm0
	movdqu	1(%rdx,%r10), %xmm1
	movdqa	.Lunix_path_CPI70_0(%rip), %xmm2
	pand	%xmm1, %xmm2
	por	%xmm0, %xmm2
	pcmpeqb	.Lunix_path_CPI70_1(%rip), %xmm2
	pmovmskb	%xmm2, %esi
	testl	%esi, %esi
	je	.Lunix_path_BB70_105
	movdqu	2(%rdx,%r10), %xmm2
	movdqu	3(%rdx,%r10), %xmm3
	movdqa	.Lunix_path_CPI70_2(%rip), %xmm4
	movdqa	%xmm2, %xmm5
	pcmpeqb	%xmm4, %xmm5
	movdqa	.Lunix_path_CPI70_1(%rip), %xmm6
	pcmpeqb	%xmm6, %xmm3
	pand	%xmm5, %xmm3
	pcmpeqb	%xmm1, %xmm4
	pcmpeqb	%xmm6, %xmm2
	por	%xmm3, %xmm2
	pand	%xmm4, %xmm2
	pcmpeqb	%xmm6, %xmm0
	pcmpeqb	%xmm6, %xmm1
	por	%xmm2, %xmm1
	pand	%xmm0, %xmm1
	pmovmskb	%xmm1, %esi
	orl	$65536, %esi
	rep		bsfl	%esi, %esi
	cmpw	$15, %si
	jbe	.Lunix_path_BB70_106
	addq	$16, %r10
	jmp	.Lunix_path_BB70_101
.Lunix_path_BB70_105:
	addq	$16, %r10
	cmpq	%r11, %r10
	jb	.Lunix_path_BB70_102
	jmp	.Lunix_path_BB70_101
.Lunix_path_BB70_106:
	movzwl	%si, %r11d
.Lunix_path_BB70_107:
	addq	%r11, %r10
	jmp	.Lunix_path_BB70_114
.Lunix_path_BB70_108:
	movq	%r8, %r10
	addq	$-33, %r10
	je	.Lunix_path_BB70_112
	leaq	(%rcx,%rax), %r11
	addq	$17, %r11
	xorl	%esi, %esi
.Lunix_path_BB70_110:
	movdqu	-17(%r11,%rsi), %xmm2
	movdqu	-16(%r11,%rsi), %xmm3
	movdqu	-1(%r11,%rsi), %xmm4
	movdqu	(%r11,%rsi), %xmm5
	pand	%xmm0, %xmm3
	por	%xmm2, %xmm3
	pcmpeqb	%xmm1, %xmm3
	pand	%xmm0, %xmm5
	por	%xmm4, %xmm5
	pcmpeqb	%xmm1, %xmm5
	por	%xmm3, %xmm5
	pmovmskb	%xmm5, %r15d
	testl	%r15d, %r15d
	jne	.Lunix_path_BB70_91
	addq	$32, %rsi
	cmpq	%r10, %rsi
	jb	.Lunix_path_BB70_110
.Lunix_path_BB70_112:
	movq	224(%rsp), %r15
	jmp	.Lunix_path_BB70_127
.Lunix_path_BB70_113:
	addq	$16, %r10
.Lunix_path_BB70_114:
	cmpq	%r8, %r10
	jae	.Lunix_path_BB70_125
	leaq	(%rcx,%rax), %r11
	addq	$3, %r11
	subq	%r9, %rcx
	jmp	.Lunix_path_BB70_118
.Lunix_path_BB70_116:
	cmpl	$47, %r9d
	je	.Lunix_path_BB70_126
.Lunix_path_BB70_117:
	movq	%rcx, %rax
	addq	%r10, %rax
	je	.Lunix_path_BB70_127
.Lunix_path_BB70_118:
	movq	%r10, %rax
	incq	%r10
	cmpb	$47, -3(%r11,%rax)
	jne	.Lunix_path_BB70_117
	cmpq	%r10, %r8
	jbe	.Lunix_path_BB70_126
	movzbl	-2(%r11,%rax), %r9d
	cmpl	$46, %r9d
	jne	.Lunix_path_BB70_116
	leaq	2(%rax), %r9
	cmpq	%r9, %r8
	jbe	.Lunix_path_BB70_126
	movzbl	-1(%r11,%rax), %r9d
	cmpl	$46, %r9d
	jne	.Lunix_path_BB70_116
	leaq	3(%rax), %r9
	cmpq	%r9, %r8
	jbe	.Lunix_path_BB70_126
	cmpb	$47, (%r11,%rax)
	jne	.Lunix_path_BB70_117
	jmp	.Lunix_path_BB70_126
.Lunix_path_BB70_125:
	movq	%r10, %rax
.Lunix_path_BB70_126:
	pxor	%xmm0, %xmm0
	movdqa	%xmm0, 64(%rsp)
	movdqa	%xmm0, 48(%rsp)
	movq	$0, 80(%rsp)
	cmpq	%rax, %r8
	jne	.Lunix_path_BB70_19
.Lunix_path_BB70_127:
	leaq	1(%r8), %rax
	movq	$-1, %rcx
	movb	$1, %r9b
	jmp	.Lunix_path_BB70_20
	.def	unix_path_key_range_end;
	.scl	2;
	.type	32;
	.endef
	.globl	unix_path_key_range_end
	.p2align	4
unix_path_key_range_end:
	pushq	%r15
	pushq	%r14
	pushq	%r13
	pushq	%r12
	pushq	%rsi
	pushq	%rdi
	pushq	%rbp
	pushq	%rbx
	subq	$40, %rsp
	xorl	%r12d, %r12d
	testq	%rcx, %rcx
	sete	%al
	xorl	%r13d, %r13d
	testq	%r8, %r8
	sete	%r15b
	testq	%rdx, %rdx
	je	.Lunix_path_BB71_1
	movq	%r9, %r14
	movq	%r8, %rbx
	movq	%rdx, %rsi
	movb	%al, %r12b
	shll	$12, %r12d
	movq	%rcx, %rbp
	leaq	(%rcx,%r12), %rdi
	movq	%rdi, %rcx
	callq	path_keys.decode.path_len
	movl	%eax, %ecx
	movq	$-5, %rax
	cmpb	$1, %cl
	jne	.Lunix_path_BB71_26
	leaq	-1(%rsi), %r10
	cmpq	%r14, %r10
	jae	.Lunix_path_BB71_25
	movb	%r15b, %r13b
	shll	$12, %r13d
	leaq	(%rbx,%r13), %r14
	movq	%r14, %rax
	subq	%rdi, %rax
	cmpq	%rsi, %rax
	jae	.Lunix_path_BB71_27
	cmpq	$4, %rsi
	jae	.Lunix_path_BB71_7
	xorl	%ecx, %ecx
	movq	%rbp, %rax
	jmp	.Lunix_path_BB71_18
.Lunix_path_BB71_1:
	movq	$-6, %rax
	jmp	.Lunix_path_BB71_26
.Lunix_path_BB71_27:
	movq	%r14, %rcx
	movq	%rdi, %rdx
	movq	%rsi, %r8
	movq	%r10, %rbx
	callq	memmove
	movq	%rbx, %r10
	jmp	.Lunix_path_BB71_24
.Lunix_path_BB71_7:
	cmpq	$32, %rax
	movq	%rbp, %rax
	jae	.Lunix_path_BB71_9
	xorl	%ecx, %ecx
	jmp	.Lunix_path_BB71_18
.Lunix_path_BB71_9:
	cmpq	$32, %rsi
	jae	.Lunix_path_BB71_11
	xorl	%ecx, %ecx
	jmp	.Lunix_path_BB71_15
.Lunix_path_BB71_11:
	movq	%rsi, %rcx
	andq	$-32, %rcx
	leaq	(%r12,%rax), %rdx
	addq	$16, %rdx
	leaq	(%rbx,%r13), %r8
	addq	$16, %r8
	xorl	%r9d, %r9d
	.p2align	4
.Lunix_path_BB71_12:
	movups	-16(%rdx,%r9), %xmm0
	movups	(%rdx,%r9), %xmm1
	movups	%xmm0, -16(%r8,%r9)
	movups	%xmm1, (%r8,%r9)
	addq	$32, %r9
	cmpq	%r9, %rcx
	jne	.Lunix_path_BB71_12
	cmpq	%rcx, %rsi
	je	.Lunix_path_BB71_24
	testb	$28, %sil
	je	.Lunix_path_BB71_18
.Lunix_path_BB71_15:
	movq	%rcx, %rdx
	movq	%rsi, %rcx
	andq	$-4, %rcx
	.p2align	4
.Lunix_path_BB71_16:
	movl	(%rdi,%rdx), %r8d
	movl	%r8d, (%r14,%rdx)
	addq	$4, %rdx
	cmpq	%rdx, %rcx
	jne	.Lunix_path_BB71_16
	cmpq	%rcx, %rsi
	je	.Lunix_path_BB71_24
.Lunix_path_BB71_18:
	movq	%rsi, %r8
	movq	%rcx, %rdx
	andq	$3, %r8
	je	.Lunix_path_BB71_21
	movq	%rcx, %rdx
	.p2align	4
.Lunix_path_BB71_20:
	movzbl	(%rdi,%rdx), %r9d
	movb	%r9b, (%r14,%rdx)
	incq	%rdx
	decq	%r8
	jne	.Lunix_path_BB71_20
.Lunix_path_BB71_21:
	subq	%rsi, %rcx
	cmpq	$-4, %rcx
	ja	.Lunix_path_BB71_24
	addq	%r12, %rax
	addq	$3, %rax
	leaq	(%rbx,%r13), %rcx
	addq	$3, %rcx
	.p2align	4
.Lunix_path_BB71_23:
	movzbl	-3(%rax,%rdx), %r8d
	movb	%r8b, -3(%rcx,%rdx)
	movzbl	-2(%rax,%rdx), %r8d
	movb	%r8b, -2(%rcx,%rdx)
	movzbl	-1(%rax,%rdx), %r8d
	movb	%r8b, -1(%rcx,%rdx)
	movzbl	(%rax,%rdx), %r8d
	movb	%r8b, (%rcx,%rdx)
	addq	$4, %rdx
	cmpq	%rdx, %rsi
	jne	.Lunix_path_BB71_23
.Lunix_path_BB71_24:
	movzbl	(%rdi,%r10), %eax
	incb	%al
	movb	%al, (%r14,%r10)
.Lunix_path_BB71_25:
	movq	%rsi, %rax
.Lunix_path_BB71_26:
	addq	$40, %rsp
	popq	%rbx
	popq	%rbp
	popq	%rdi
	popq	%rsi
	popq	%r12
	popq	%r13
	popq	%r14
	popq	%r15
	retq
	.def	unix_path_to_string_lossy;
	.scl	2;
	.type	32;
	.endef
	.globl	unix_path_to_string_lossy
	.p2align	4
unix_path_to_string_lossy:
	pushq	%r15
	pushq	%r14
	pushq	%r13
	pushq	%r12
	pushq	%rsi
	pushq	%rdi
	pushq	%rbp
	pushq	%rbx
	subq	$120, %rsp
	movq	%r9, %rbx
	movq	%r8, %rsi
	movq	%rdx, %rdi
	xorl	%r12d, %r12d
	testq	%rcx, %rcx
	sete	%r12b
	shll	$12, %r12d
	addq	%rcx, %r12
	xorl	%r15d, %r15d
	testq	%r8, %r8
	sete	%bpl
	movq	%r12, 40(%rsp)
	movq	%rdx, 48(%rsp)
	leaq	64(%rsp), %rcx
	leaq	40(%rsp), %rdx
	callq	unix_bytes.lossy.Utf8LossyChunksIterIterator.next
	cmpb	$1, 64(%rsp)
	jne	.Lunix_path_BB72_5
	xorl	%r14d, %r14d
	jmp	.Lunix_path_BB72_3
	.p2align	4
.Lunix_path_BB72_2:
	leaq	64(%rsp), %rcx
	leaq	40(%rsp), %rdx
	callq	unix_bytes.lossy.Utf8LossyChunksIterIterator.next
	cmpb	$1, 64(%rsp)
	jne	.Lunix_path_BB72_6
.Lunix_path_BB72_3:
	addq	80(%rsp), %r14
	movq	$-1, %rax
	cmovbq	%rax, %r14
	cmpq	$0, 96(%rsp)
	je	.Lunix_path_BB72_2
	addq	$3, %r14
	cmovbq	%rax, %r14
	jmp	.Lunix_path_BB72_2
.Lunix_path_BB72_5:
	xorl	%r14d, %r14d
	jmp	.Lunix_path_BB72_7
.Lunix_path_BB72_6:
	cmpq	%rbx, %r14
	ja	.Lunix_path_BB72_34
.Lunix_path_BB72_7:
	movq	%r12, 40(%rsp)
	movq	%rdi, 48(%rsp)
	leaq	64(%rsp), %rcx
	leaq	40(%rsp), %rdx
	callq	unix_bytes.lossy.Utf8LossyChunksIterIterator.next
	cmpb	$1, 64(%rsp)
	jne	.Lunix_path_BB72_34
	movb	%bpl, %r15b
	shll	$12, %r15d
	leaq	(%rsi,%r15), %rax
	movq	%rax, 56(%rsp)
	leaq	(%r15,%rsi), %rax
	addq	$16, %rax
	movq	%rax, 104(%rsp)
	leaq	(%r15,%rsi), %rax
	addq	$3, %rax
	movq	%rax, 112(%rsp)
	xorl	%ebp, %ebp
	jmp	.Lunix_path_BB72_11
	.p2align	4
.Lunix_path_BB72_9:
	testq	%r12, %r12
	movzbl	(%rdi), %eax
	movb	%al, (%rcx)
	cmoveq	%r11, %r13
	movzwl	1(%r13), %eax
	movw	%ax, 1(%rcx)
.Lunix_path_BB72_10:
	addq	%rsi, %rbx
	leaq	64(%rsp), %rcx
	leaq	40(%rsp), %rdx
	callq	unix_bytes.lossy.Utf8LossyChunksIterIterator.next
	cmpb	$1, 64(%rsp)
	movq	%rbx, %rbp
	jne	.Lunix_path_BB72_34
.Lunix_path_BB72_11:
	movq	72(%rsp), %rdx
	movq	80(%rsp), %rsi
	movq	96(%rsp), %r12
	xorl	%ebx, %ebx
	testq	%r12, %r12
	setne	%r15b
	leaq	.Lunix_path_static.0(%rip), %r11
	leaq	.Lunix_path_static.12(%rip), %r13
	movq	%r13, %rdi
	cmoveq	%r11, %rdi
	movq	56(%rsp), %rax
	leaq	(%rax,%rbp), %rcx
	movq	%rcx, %rax
	subq	%rdx, %rax
	cmpq	%rsi, %rax
	jae	.Lunix_path_BB72_14
	cmpq	$4, %rsi
	jb	.Lunix_path_BB72_13
	cmpq	$32, %rax
	jae	.Lunix_path_BB72_17
.Lunix_path_BB72_13:
	xorl	%eax, %eax
.Lunix_path_BB72_26:
	movq	%rsi, %r9
	movq	%rax, %r8
	andq	$3, %r9
	je	.Lunix_path_BB72_29
	movq	%rax, %r8
	.p2align	4
.Lunix_path_BB72_28:
	movzbl	(%rdx,%r8), %r10d
	movb	%r10b, (%rcx,%r8)
	incq	%r8
	decq	%r9
	jne	.Lunix_path_BB72_28
.Lunix_path_BB72_29:
	subq	%rsi, %rax
	cmpq	$-4, %rax
	ja	.Lunix_path_BB72_32
	movq	112(%rsp), %rax
	addq	%rbp, %rax
	.p2align	4
.Lunix_path_BB72_31:
	movzbl	(%rdx,%r8), %ecx
	movb	%cl, -3(%rax,%r8)
	movzbl	1(%rdx,%r8), %ecx
	movb	%cl, -2(%rax,%r8)
	movzbl	2(%rdx,%r8), %ecx
	movb	%cl, -1(%rax,%r8)
	movzbl	3(%rdx,%r8), %ecx
	movb	%cl, (%rax,%r8)
	addq	$4, %r8
	cmpq	%r8, %rsi
	jne	.Lunix_path_BB72_31
	jmp	.Lunix_path_BB72_32
	.p2align	4
.Lunix_path_BB72_14:
	movq	%rsi, %r8
	movq	%r11, %r13
	callq	memmove
	movq	%r13, %r11
	leaq	.Lunix_path_static.12(%rip), %r13
.Lunix_path_BB72_32:
	movb	%r15b, %bl
	leaq	(%rbx,%rbx,2), %rbx
	addq	%rbp, %rsi
	movq	56(%rsp), %rax
	leaq	(%rax,%rsi), %rcx
	movq	%rcx, %rax
	subq	%rdi, %rax
	cmpq	%rbx, %rax
	jb	.Lunix_path_BB72_9
	movq	%rdi, %rdx
	movq	%rbx, %r8
	callq	memcpy
	jmp	.Lunix_path_BB72_10
.Lunix_path_BB72_17:
	cmpq	$32, %rsi
	jae	.Lunix_path_BB72_19
	xorl	%eax, %eax
	jmp	.Lunix_path_BB72_23
.Lunix_path_BB72_19:
	movq	%rsi, %rax
	andq	$-32, %rax
	movq	104(%rsp), %r8
	addq	%rbp, %r8
	xorl	%r9d, %r9d
	.p2align	4
.Lunix_path_BB72_20:
	movups	(%rdx,%r9), %xmm0
	movups	16(%rdx,%r9), %xmm1
	movups	%xmm0, -16(%r8,%r9)
	movups	%xmm1, (%r8,%r9)
	addq	$32, %r9
	cmpq	%r9, %rax
	jne	.Lunix_path_BB72_20
	cmpq	%rax, %rsi
	je	.Lunix_path_BB72_32
	testb	$28, %sil
	je	.Lunix_path_BB72_26
.Lunix_path_BB72_23:
	movq	%rax, %r8
	movq	%rsi, %rax
	andq	$-4, %rax
	.p2align	4
.Lunix_path_BB72_24:
	movl	(%rdx,%r8), %r9d
	movl	%r9d, (%rcx,%r8)
	addq	$4, %r8
	cmpq	%r8, %rax
	jne	.Lunix_path_BB72_24
	cmpq	%rax, %rsi
	je	.Lunix_path_BB72_32
	jmp	.Lunix_path_BB72_26
.Lunix_path_BB72_34:
	movabsq	$-9223372036854775808, %rax
	cmpq	%rax, %r14
	cmovbq	%r14, %rax
	addq	$120, %rsp
	popq	%rbx
	popq	%rbp
	popq	%rdi
	popq	%rsi
	popq	%r12
	popq	%r13
	popq	%r14
	popq	%r15
	retq
	.def	unix_path_join;
	.scl	2;
	.type	32;
	.endef
	.globl	unix_path_join
	.p2align	4
unix_path_join:
	pushq	%r15
	pushq	%r14
	pushq	%r13
	pushq	%r12
	pushq	%rsi
	pushq	%rdi
	pushq	%rbp
	pushq	%rbx
	subq	$56, %rsp
	movq	%rdx, %rdi
	movq	%rcx, %rdx
	movq	168(%rsp), %rax
	movq	160(%rsp), %rsi
	xorl	%r11d, %r11d
	testq	%rcx, %rcx
	sete	%r10b
	xorl	%r13d, %r13d
	testq	%r8, %r8
	sete	%r13b
	shll	$12, %r13d
	leaq	(%r8,%r13), %rbx
	xorl	%ebp, %ebp
	testq	%rsi, %rsi
	sete	%cl
	testq	%r9, %r9
	je	.Lunix_path_BB73_3
	cmpb	$47, (%rbx)
	jne	.Lunix_path_BB73_3
	leaq	.Lunix_path_static.0(%rip), %rdx
	xorl	%edi, %edi
	xorl	%r14d, %r14d
	jmp	.Lunix_path_BB73_6
.Lunix_path_BB73_3:
	movb	%r10b, %r11b
	shll	$12, %r11d
	addq	%r11, %rdx
	xorl	%r14d, %r14d
	testq	%rdi, %rdi
	je	.Lunix_path_BB73_5
	cmpb	$47, -1(%rdx,%rdi)
	setne	%r10b
	movl	$47, %r11d
	cmovnel	%r11d, %r14d
	movl	%r14d, %r11d
	movl	%r10d, %r14d
	jmp	.Lunix_path_BB73_7
.Lunix_path_BB73_5:
	xorl	%edi, %edi
.Lunix_path_BB73_6:
	xorl	%r11d, %r11d
.Lunix_path_BB73_7:
	movzbl	%r14b, %r12d
	leaq	(%rdi,%r9), %r14
	addq	%r12, %r14
	cmpq	%r14, %rax
	jb	.Lunix_path_BB73_52
	movq	%r8, 40(%rsp)
	movb	%cl, %bpl
	shll	$12, %ebp
	leaq	(%rsi,%rbp), %r15
	movq	%r15, %rax
	subq	%rdx, %rax
	cmpq	%rdi, %rax
	movq	%r13, 48(%rsp)
	jae	.Lunix_path_BB73_11
	cmpq	$4, %rdi
	jb	.Lunix_path_BB73_10
	cmpq	$32, %rax
	jae	.Lunix_path_BB73_14
.Lunix_path_BB73_10:
	xorl	%eax, %eax
.Lunix_path_BB73_23:
	movq	%rdi, %r8
	movq	%rax, %rcx
	andq	$3, %r8
	je	.Lunix_path_BB73_26
	movq	%rax, %rcx
	.p2align	4
.Lunix_path_BB73_25:
	movzbl	(%rdx,%rcx), %r10d
	movb	%r10b, (%r15,%rcx)
	incq	%rcx
	decq	%r8
	jne	.Lunix_path_BB73_25
.Lunix_path_BB73_26:
	subq	%rdi, %rax
	cmpq	$-4, %rax
	ja	.Lunix_path_BB73_29
	leaq	(%rsi,%rbp), %rax
	addq	$3, %rax
	.p2align	4
.Lunix_path_BB73_28:
	movzbl	(%rdx,%rcx), %r8d
	movb	%r8b, -3(%rax,%rcx)
	movzbl	1(%rdx,%rcx), %r8d
	movb	%r8b, -2(%rax,%rcx)
	movzbl	2(%rdx,%rcx), %r8d
	movb	%r8b, -1(%rax,%rcx)
	movzbl	3(%rdx,%rcx), %r8d
	movb	%r8b, (%rax,%rcx)
	addq	$4, %rcx
	cmpq	%rcx, %rdi
	jne	.Lunix_path_BB73_28
	jmp	.Lunix_path_BB73_29
.Lunix_path_BB73_11:
	movq	%r15, %rcx
	movq	%rdi, %r8
	movq	%r9, %rsi
	movq	%r14, %r13
	movq	%rbp, %r14
	movq	%r11, %rbp
	callq	memmove
	movq	%rbp, %r11
	movq	%r14, %rbp
	movq	%r13, %r14
	movq	%rsi, %r9
	movq	160(%rsp), %rsi
.Lunix_path_BB73_29:
	testq	%r12, %r12
	je	.Lunix_path_BB73_31
	movb	%r11b, (%r15,%rdi)
.Lunix_path_BB73_31:
	movq	%r14, %rax
	subq	%r9, %rax
	addq	%rax, %r15
	movq	%r15, %rax
	subq	%rbx, %rax
	cmpq	%r9, %rax
	movq	48(%rsp), %r13
	jae	.Lunix_path_BB73_34
	cmpq	$4, %r9
	jae	.Lunix_path_BB73_35
	xorl	%eax, %eax
	movq	40(%rsp), %r15
	jmp	.Lunix_path_BB73_46
.Lunix_path_BB73_34:
	movq	%r15, %rcx
	movq	%rbx, %rdx
	movq	%r9, %r8
	callq	memmove
	jmp	.Lunix_path_BB73_52
.Lunix_path_BB73_35:
	leaq	(%rdi,%rbp), %rcx
	leaq	(%rcx,%rsi), %rax
	addq	%r12, %rax
	subq	%rbx, %rax
	cmpq	$32, %rax
	movq	40(%rsp), %r15
	jae	.Lunix_path_BB73_37
	xorl	%eax, %eax
	jmp	.Lunix_path_BB73_46
.Lunix_path_BB73_14:
	cmpq	$32, %rdi
	jae	.Lunix_path_BB73_16
	xorl	%eax, %eax
	jmp	.Lunix_path_BB73_20
.Lunix_path_BB73_37:
	cmpq	$32, %r9
	jae	.Lunix_path_BB73_39
	xorl	%eax, %eax
	jmp	.Lunix_path_BB73_43
.Lunix_path_BB73_16:
	movq	%rdi, %rax
	andq	$-32, %rax
	leaq	(%rsi,%rbp), %rcx
	addq	$16, %rcx
	xorl	%r8d, %r8d
	.p2align	4
.Lunix_path_BB73_17:
	movups	(%rdx,%r8), %xmm0
	movups	16(%rdx,%r8), %xmm1
	movups	%xmm0, -16(%rcx,%r8)
	movups	%xmm1, (%rcx,%r8)
	addq	$32, %r8
	cmpq	%r8, %rax
	jne	.Lunix_path_BB73_17
	cmpq	%rax, %rdi
	je	.Lunix_path_BB73_29
	testb	$28, %dil
	je	.Lunix_path_BB73_23
.Lunix_path_BB73_20:
	movq	%rax, %rcx
	movq	%rdi, %rax
	andq	$-4, %rax
	.p2align	4
.Lunix_path_BB73_21:
	movl	(%rdx,%rcx), %r8d
	movl	%r8d, (%r15,%rcx)
	addq	$4, %rcx
	cmpq	%rcx, %rax
	jne	.Lunix_path_BB73_21
	cmpq	%rax, %rdi
	je	.Lunix_path_BB73_29
	jmp	.Lunix_path_BB73_23
.Lunix_path_BB73_39:
	movq	%r9, %rax
	andq	$-32, %rax
	leaq	(%r15,%r13), %rdx
	addq	$16, %rdx
	leaq	(%rcx,%r12), %r8
	addq	%rsi, %r8
	addq	$16, %r8
	xorl	%r10d, %r10d
	.p2align	4
.Lunix_path_BB73_40:
	movups	-16(%rdx,%r10), %xmm0
	movups	(%rdx,%r10), %xmm1
	movups	%xmm0, -16(%r8,%r10)
	movups	%xmm1, (%r8,%r10)
	addq	$32, %r10
	cmpq	%r10, %rax
	jne	.Lunix_path_BB73_40
	cmpq	%rax, %r9
	je	.Lunix_path_BB73_52
	testb	$28, %r9b
	je	.Lunix_path_BB73_46
.Lunix_path_BB73_43:
	movq	%rax, %r10
	movq	%r9, %rax
	andq	$-4, %rax
	movq	%rax, %rdx
	subq	%r10, %rdx
	leaq	(%r10,%r13), %r8
	addq	%r15, %r8
	addq	%r10, %rcx
	addq	%r12, %rcx
	addq	%rsi, %rcx
	xorl	%r10d, %r10d
	.p2align	4
.Lunix_path_BB73_44:
	movl	(%r8,%r10), %r11d
	movl	%r11d, (%rcx,%r10)
	addq	$4, %r10
	cmpq	%r10, %rdx
	jne	.Lunix_path_BB73_44
	cmpq	%rax, %r9
	je	.Lunix_path_BB73_52
.Lunix_path_BB73_46:
	movq	%r9, %rdx
	movq	%rax, %rcx
	andq	$3, %rdx
	je	.Lunix_path_BB73_49
	leaq	(%rax,%rbp), %r8
	addq	%rdi, %r8
	addq	%r12, %r8
	addq	%rsi, %r8
	xorl	%r10d, %r10d
	movq	%rax, %rcx
	.p2align	4
.Lunix_path_BB73_48:
	movzbl	(%rbx,%rcx), %r11d
	movb	%r11b, (%r8,%r10)
	incq	%rcx
	incq	%r10
	cmpq	%r10, %rdx
	jne	.Lunix_path_BB73_48
.Lunix_path_BB73_49:
	subq	%r9, %rax
	cmpq	$-4, %rax
	ja	.Lunix_path_BB73_52
	subq	%rcx, %r9
	addq	%rcx, %r13
	leaq	(%r15,%r13), %rax
	addq	$3, %rax
	addq	%rdi, %rbp
	addq	%rcx, %rbp
	addq	%r12, %rbp
	leaq	(%rsi,%rbp), %rcx
	addq	$3, %rcx
	xorl	%edx, %edx
	.p2align	4
.Lunix_path_BB73_51:
	movzbl	-3(%rax,%rdx), %r8d
	movb	%r8b, -3(%rcx,%rdx)
	movzbl	-2(%rax,%rdx), %r8d
	movb	%r8b, -2(%rcx,%rdx)
	movzbl	-1(%rax,%rdx), %r8d
	movb	%r8b, -1(%rcx,%rdx)
	movzbl	(%rax,%rdx), %r8d
	movb	%r8b, (%rcx,%rdx)
	addq	$4, %rdx
	cmpq	%rdx, %r9
	jne	.Lunix_path_BB73_51
.Lunix_path_BB73_52:
	movq	%r14, %rax
	addq	$56, %rsp
	popq	%rbx
	popq	%rbp
	popq	%rdi
	popq	%rsi
	popq	%r12
	popq	%r13
	popq	%r14
	popq	%r15
	retq
	.def	unix_path_join_verbatim;
	.scl	2;
	.type	32;
	.endef
	.section	.rdata,"dr"
	.p2align	4, 0x0
.Lunix_path_CPI74_0:
	.zero	16,208
.Lunix_path_CPI74_1:
	.zero	16,47
.Lunix_path_CPI74_2:
	.zero	16,46
.Lunix_path_CPI74_3:
	.byte	254
	.byte	254
	.byte	254
	.byte	254
	.byte	254
	.byte	254
	.byte	254
	.byte	254
	.zero	1
	.zero	1
	.zero	1
	.zero	1
	.zero	1
	.zero	1
	.zero	1
	.zero	1
.Lunix_path_CPI74_4:
	.byte	46
	.byte	46
	.byte	46
	.byte	46
	.byte	46
	.byte	46
	.byte	46
	.byte	46
	.zero	1
	.zero	1
	.zero	1
	.zero	1
	.zero	1
	.zero	1
	.zero	1
	.zero	1
.Lunix_path_CPI74_5:
	.byte	47
	.byte	47
	.byte	47
	.byte	47
	.byte	47
	.byte	47
	.byte	47
	.byte	47
	.zero	1
	.zero	1
	.zero	1
	.zero	1
	.zero	1
	.zero	1
	.zero	1
	.zero	1
	.text
	.globl	unix_path_join_verbatim
	.p2align	4
unix_path_join_verbatim:
	pushq	%r15
	pushq	%r14
	pushq	%r13
	pushq	%r12
	pushq	%rsi
	pushq	%rdi
	pushq	%rbp
	pushq	%rbx
	subq	$88, %rsp
	movdqa	%xmm6, 64(%rsp)
	movq	%r9, %rsi
	movq	%r8, %r15
	movq	%rdx, %rdi
	xorl	%r13d, %r13d
	testq	%rcx, %rcx
	sete	%r12b
	xorl	%ebp, %ebp
	testq	%r8, %r8
	sete	%bpl
	shll	$12, %ebp
	leaq	(%r8,%rbp), %r14
	cmpq	$0, 192(%rsp)
	sete	40(%rsp)
	testq	%r9, %r9
	je	.Lunix_path_BB74_115
	movzbl	(%r14), %r10d
	movq	$-2, %rax
	cmpl	$47, %r10d
	je	.Lunix_path_BB74_165
	movq	%rcx, 48(%rsp)
	cmpl	$46, %r10d
	jne	.Lunix_path_BB74_8
	movb	$1, %bl
	cmpq	$1, %rsi
	je	.Lunix_path_BB74_64
	movzbl	1(%r14), %ecx
	cmpl	$47, %ecx
	je	.Lunix_path_BB74_64
	cmpl	$46, %ecx
	jne	.Lunix_path_BB74_8
	cmpq	$2, %rsi
	je	.Lunix_path_BB74_63
	cmpb	$47, 2(%r14)
	je	.Lunix_path_BB74_63
.Lunix_path_BB74_8:
	movzbl	-1(%r14,%rsi), %ecx
	andb	$-2, %cl
	cmpb	$46, %cl
	je	.Lunix_path_BB74_55
	cmpq	$17, %rsi
	jae	.Lunix_path_BB74_12
.Lunix_path_BB74_10:
	cmpq	$9, %rsi
	jae	.Lunix_path_BB74_20
	xorl	%ecx, %ecx
	cmpq	%rsi, %rcx
	jb	.Lunix_path_BB74_33
.Lunix_path_BB74_49:
	movq	%rcx, %rdx
.Lunix_path_BB74_50:
	cmpq	%rsi, %rdx
	jne	.Lunix_path_BB74_55
.Lunix_path_BB74_51:
	cmpq	$15, %rsi
	ja	.Lunix_path_BB74_59
	xorl	%r8d, %r8d
	movq	48(%rsp), %rcx
	.p2align	4
.Lunix_path_BB74_53:
	cmpb	$0, (%r14,%r8)
	je	.Lunix_path_BB74_114
	incq	%r8
	cmpq	%r8, %rsi
	jne	.Lunix_path_BB74_53
	jmp	.Lunix_path_BB74_115
.Lunix_path_BB74_55:
	movb	$1, %bl
	cmpl	$47, %r10d
	je	.Lunix_path_BB74_64
	cmpl	$46, %r10d
	jne	.Lunix_path_BB74_63
	cmpq	$1, %rsi
	je	.Lunix_path_BB74_64
	cmpb	$47, 1(%r14)
	sete	%bl
	jmp	.Lunix_path_BB74_64
.Lunix_path_BB74_59:
	movq	%rsi, %rax
	addq	$-16, %rax
	movq	48(%rsp), %rcx
	je	.Lunix_path_BB74_112
.Lunix_path_BB74_60:
	xorl	%edx, %edx
	.p2align	4
.Lunix_path_BB74_61:
	movdqu	(%r14,%rdx), %xmm0
	pxor	%xmm1, %xmm1
	pcmpeqb	%xmm0, %xmm1
	pmovmskb	%xmm1, %r8d
	orl	$65536, %r8d
	rep		bsfl	%r8d, %r8d
	cmpw	$15, %r8w
	jbe	.Lunix_path_BB74_125
	addq	$16, %rdx
	cmpq	%rax, %rdx
	jb	.Lunix_path_BB74_61
	jmp	.Lunix_path_BB74_113
.Lunix_path_BB74_63:
	xorl	%ebx, %ebx
.Lunix_path_BB74_64:
	movq	%rsi, %rcx
	movq	%rsi, %rax
	jmp	.Lunix_path_BB74_66
	.p2align	4
.Lunix_path_BB74_65:
	movq	%rax, %rcx
	testq	%rax, %rax
	je	.Lunix_path_BB74_51
.Lunix_path_BB74_66:
	decq	%rax
	je	.Lunix_path_BB74_72
	movzbl	(%r14,%rax), %edx
	cmpl	$47, %edx
	je	.Lunix_path_BB74_70
	cmpl	$46, %edx
	jne	.Lunix_path_BB74_72
	cmpb	$47, -1(%r14,%rax)
	jne	.Lunix_path_BB74_72
.Lunix_path_BB74_70:
	movq	%rsi, %rcx
	subq	%rax, %rcx
	cmpq	$8, %rcx
	jne	.Lunix_path_BB74_65
	movq	%r14, %rcx
	movq	%rax, %rdx
	callq	unix_path.filler.trimmed_blocks_len
	jmp	.Lunix_path_BB74_65
.Lunix_path_BB74_72:
	xorl	%eax, %eax
	movq	%rcx, %rdx
	movq	%r14, %r8
	jmp	.Lunix_path_BB74_76
.Lunix_path_BB74_73:
	xorl	%r9d, %r9d
.Lunix_path_BB74_74:
	addq	%r10, %r9
.Lunix_path_BB74_75:
	addq	%r9, %rax
	leaq	(%r14,%rax), %r8
	xorl	%ebx, %ebx
	movq	%rcx, %rdx
	subq	%rax, %rdx
	je	.Lunix_path_BB74_51
.Lunix_path_BB74_76:
	testb	$1, %bl
	je	.Lunix_path_BB74_84
	movq	%rdx, %r10
	decq	%r10
	je	.Lunix_path_BB74_106
	leaq	-1(%rdx), %r11
	addq	$-2, %rdx
	xorl	%r9d, %r9d
	jmp	.Lunix_path_BB74_80
	.p2align	4
.Lunix_path_BB74_79:
	incq	%r9
	cmpq	%r9, %r11
	je	.Lunix_path_BB74_107
.Lunix_path_BB74_80:
	movzbl	1(%r8,%r9), %ebx
	cmpl	$47, %ebx
	je	.Lunix_path_BB74_79
	cmpl	$46, %ebx
	jne	.Lunix_path_BB74_108
	cmpq	%r9, %rdx
	je	.Lunix_path_BB74_107
	cmpb	$47, 2(%r8,%r9)
	je	.Lunix_path_BB74_79
	.p2align	4
.Lunix_path_BB74_108:
	incq	%r9
	cmpb	$47, (%r8)
	jne	.Lunix_path_BB74_75
	jmp	.Lunix_path_BB74_111
	.p2align	4
.Lunix_path_BB74_84:
	cmpq	$1, %rdx
	je	.Lunix_path_BB74_89
	cmpb	$46, (%r8)
	jne	.Lunix_path_BB74_89
	cmpb	$46, 1(%r8)
	jne	.Lunix_path_BB74_89
	cmpq	$2, %rdx
	je	.Lunix_path_BB74_111
	cmpb	$47, 2(%r8)
	je	.Lunix_path_BB74_111
.Lunix_path_BB74_89:
	cmpq	$15, %rdx
	ja	.Lunix_path_BB74_94
	xorl	%r10d, %r10d
	.p2align	4
.Lunix_path_BB74_91:
	cmpb	$47, (%r8,%r10)
	je	.Lunix_path_BB74_99
	incq	%r10
	cmpq	%r10, %rdx
	jne	.Lunix_path_BB74_91
	movq	%rdx, %r10
	subq	%r10, %rdx
	jne	.Lunix_path_BB74_100
	jmp	.Lunix_path_BB74_73
	.p2align	4
.Lunix_path_BB74_94:
	movq	%rdx, %r9
	addq	$-16, %r9
	je	.Lunix_path_BB74_98
	xorl	%r11d, %r11d
	.p2align	4
.Lunix_path_BB74_96:
	movdqu	(%r8,%r11), %xmm0
	pcmpeqb	.Lunix_path_CPI74_1(%rip), %xmm0
	pmovmskb	%xmm0, %r10d
	orl	$65536, %r10d
	rep		bsfl	%r10d, %r10d
	cmpw	$15, %r10w
	jbe	.Lunix_path_BB74_110
	addq	$16, %r11
	cmpq	%r9, %r11
	jb	.Lunix_path_BB74_96
.Lunix_path_BB74_98:
	movdqu	(%r8,%r9), %xmm0
	pcmpeqb	.Lunix_path_CPI74_1(%rip), %xmm0
	pmovmskb	%xmm0, %r10d
	orl	$65536, %r10d
	rep		bsfl	%r10d, %r10d
	addq	%r9, %r10
.Lunix_path_BB74_99:
	subq	%r10, %rdx
	je	.Lunix_path_BB74_73
.Lunix_path_BB74_100:
	addq	%r10, %r8
	incq	%r8
	leaq	-1(%rdx), %r11
	xorl	%r9d, %r9d
	jmp	.Lunix_path_BB74_102
	.p2align	4
.Lunix_path_BB74_101:
	incq	%r9
	cmpq	%r9, %rdx
	je	.Lunix_path_BB74_109
.Lunix_path_BB74_102:
	movzbl	-1(%r8,%r9), %ebx
	cmpl	$47, %ebx
	je	.Lunix_path_BB74_101
	cmpl	$46, %ebx
	jne	.Lunix_path_BB74_74
	cmpq	%r9, %r11
	je	.Lunix_path_BB74_109
	cmpb	$47, (%r8,%r9)
	je	.Lunix_path_BB74_101
	jmp	.Lunix_path_BB74_74
.Lunix_path_BB74_106:
	movl	$1, %r9d
	cmpb	$47, (%r8)
	jne	.Lunix_path_BB74_75
	jmp	.Lunix_path_BB74_111
.Lunix_path_BB74_107:
	movq	%r10, %r9
	incq	%r9
	cmpb	$47, (%r8)
	jne	.Lunix_path_BB74_75
	jmp	.Lunix_path_BB74_111
.Lunix_path_BB74_109:
	movq	%rdx, %r9
	jmp	.Lunix_path_BB74_74
.Lunix_path_BB74_110:
	movzwl	%r10w, %r10d
	addq	%r11, %r10
	subq	%r10, %rdx
	jne	.Lunix_path_BB74_100
	jmp	.Lunix_path_BB74_73
.Lunix_path_BB74_111:
	movq	$-2, %rax
	jmp	.Lunix_path_BB74_165
.Lunix_path_BB74_12:
	cmpq	$32, %rsi
	ja	.Lunix_path_BB74_22
	movdqu	(%r14), %xmm0
	movdqu	1(%r14), %xmm1
	pand	.Lunix_path_CPI74_0(%rip), %xmm1
	por	%xmm0, %xmm1
	pcmpeqb	.Lunix_path_CPI74_1(%rip), %xmm1
	pmovmskb	%xmm1, %ecx
	testl	%ecx, %ecx
	jne	.Lunix_path_BB74_15
	movdqu	-17(%r14,%rsi), %xmm0
	movdqu	-16(%r14,%rsi), %xmm1
	pand	.Lunix_path_CPI74_0(%rip), %xmm1
	por	%xmm0, %xmm1
	pcmpeqb	.Lunix_path_CPI74_1(%rip), %xmm1
	pmovmskb	%xmm1, %ecx
	testl	%ecx, %ecx
	je	.Lunix_path_BB74_47
.Lunix_path_BB74_15:
	cmpq	$18, %rsi
	jbe	.Lunix_path_BB74_10
	movq	%rsi, %rdx
	addq	$-19, %rdx
	jne	.Lunix_path_BB74_24
	xorl	%edx, %edx
	xorl	%ecx, %ecx
.Lunix_path_BB74_18:
	leaq	-17(%rsi), %r8
	cmpq	%rcx, %r8
	cmovbq	%r8, %rcx
	movdqu	(%r14,%rcx), %xmm0
	movdqu	1(%r14,%rcx), %xmm1
	pand	.Lunix_path_CPI74_0(%rip), %xmm1
	por	%xmm0, %xmm1
	pcmpeqb	.Lunix_path_CPI74_1(%rip), %xmm1
	pmovmskb	%xmm1, %r8d
	testl	%r8d, %r8d
	je	.Lunix_path_BB74_48
	movdqu	(%r14,%rdx), %xmm0
	movdqu	1(%r14,%rdx), %xmm1
	movdqu	2(%r14,%rdx), %xmm2
	movdqu	3(%r14,%rdx), %xmm3
	movdqa	.Lunix_path_CPI74_2(%rip), %xmm4
	movdqa	%xmm2, %xmm5
	pcmpeqb	%xmm4, %xmm5
	movdqa	.Lunix_path_CPI74_1(%rip), %xmm6
	pcmpeqb	%xmm6, %xmm3
	pand	%xmm5, %xmm3
	pcmpeqb	%xmm1, %xmm4
	pcmpeqb	%xmm6, %xmm2
	por	%xmm3, %xmm2
	pand	%xmm4, %xmm2
	pcmpeqb	%xmm6, %xmm0
	pcmpeqb	%xmm6, %xmm1
	por	%xmm2, %xmm1
	pand	%xmm0, %xmm1
	pmovmskb	%xmm1, %ecx
	orl	$65536, %ecx
	rep		bsfl	%ecx, %ecx
	jmp	.Lunix_path_BB74_31
.Lunix_path_BB74_112:
	xorl	%eax, %eax
.Lunix_path_BB74_113:
	movdqu	(%r14,%rax), %xmm0
	pxor	%xmm1, %xmm1
	pcmpeqb	%xmm0, %xmm1
	pmovmskb	%xmm1, %edx
	orl	$65536, %edx
	rep		bsfl	%edx, %r8d
	addq	%rax, %r8
.Lunix_path_BB74_114:
	movq	$-4, %rax
	cmpq	%rsi, %r8
	jb	.Lunix_path_BB74_165
.Lunix_path_BB74_115:
	movq	200(%rsp), %rax
	movb	%r12b, %r13b
	shll	$12, %r13d
	leaq	(%rcx,%r13), %rdx
	xorl	%r11d, %r11d
	testq	%rdi, %rdi
	movq	%r15, 56(%rsp)
	movq	%rcx, %r10
	je	.Lunix_path_BB74_117
	cmpb	$47, -1(%rdx,%rdi)
	setne	%r8b
	movl	$47, %r9d
	cmovnel	%r9d, %r11d
	movl	%r11d, %ecx
	movl	%r8d, %r11d
	jmp	.Lunix_path_BB74_118
.Lunix_path_BB74_117:
	xorl	%ecx, %ecx
.Lunix_path_BB74_118:
	movzbl	%r11b, %ebx
	leaq	(%rsi,%rdi), %r15
	addq	%rbx, %r15
	cmpq	%r15, %rax
	jb	.Lunix_path_BB74_164
	movl	%ecx, 48(%rsp)
	xorl	%ecx, %ecx
	movzbl	40(%rsp), %eax
	movb	%al, %cl
	shll	$12, %ecx
	movq	192(%rsp), %rax
	movq	%rcx, 40(%rsp)
	leaq	(%rax,%rcx), %r12
	movq	%r12, %rax
	subq	%rdx, %rax
	cmpq	%rdi, %rax
	jae	.Lunix_path_BB74_122
	cmpq	$4, %rdi
	jb	.Lunix_path_BB74_121
	cmpq	$32, %rax
	jae	.Lunix_path_BB74_126
.Lunix_path_BB74_121:
	xorl	%eax, %eax
.Lunix_path_BB74_135:
	movq	%rdi, %r8
	movq	%rax, %rcx
	andq	$3, %r8
	je	.Lunix_path_BB74_138
	movq	%rax, %rcx
	.p2align	4
.Lunix_path_BB74_137:
	movzbl	(%rdx,%rcx), %r9d
	movb	%r9b, (%r12,%rcx)
	incq	%rcx
	decq	%r8
	jne	.Lunix_path_BB74_137
.Lunix_path_BB74_138:
	subq	%rdi, %rax
	cmpq	$-4, %rax
	ja	.Lunix_path_BB74_141
	leaq	(%r10,%r13), %rax
	addq	$3, %rax
	movq	192(%rsp), %rdx
	movq	40(%rsp), %r8
	addq	%r8, %rdx
	addq	$3, %rdx
	.p2align	4
.Lunix_path_BB74_140:
	movzbl	-3(%rax,%rcx), %r8d
	movb	%r8b, -3(%rdx,%rcx)
	movzbl	-2(%rax,%rcx), %r8d
	movb	%r8b, -2(%rdx,%rcx)
	movzbl	-1(%rax,%rcx), %r8d
	movb	%r8b, -1(%rdx,%rcx)
	movzbl	(%rax,%rcx), %r8d
	movb	%r8b, (%rdx,%rcx)
	addq	$4, %rcx
	cmpq	%rcx, %rdi
	jne	.Lunix_path_BB74_140
	jmp	.Lunix_path_BB74_141
.Lunix_path_BB74_122:
	movq	%r12, %rcx
	movq	%rdi, %r8
	callq	memmove
.Lunix_path_BB74_141:
	testq	%rbx, %rbx
	je	.Lunix_path_BB74_143
	movl	48(%rsp), %eax
	movb	%al, (%r12,%rdi)
.Lunix_path_BB74_143:
	movq	%r15, %rax
	subq	%rsi, %rax
	addq	%rax, %r12
	movq	%r12, %rax
	subq	%r14, %rax
	cmpq	%rsi, %rax
	jae	.Lunix_path_BB74_146
	cmpq	$4, %rsi
	jb	.Lunix_path_BB74_145
	movq	40(%rsp), %rax
	leaq	(%rax,%rdi), %rdx
	movq	192(%rsp), %rax
	addq	%rdx, %rax
	addq	%rbx, %rax
	movq	56(%rsp), %rcx
	addq	%rbp, %rcx
	subq	%rcx, %rax
	cmpq	$32, %rax
	jae	.Lunix_path_BB74_149
.Lunix_path_BB74_145:
	xorl	%eax, %eax
.Lunix_path_BB74_158:
	movq	%rsi, %rdx
	movq	%rax, %rcx
	andq	$3, %rdx
	je	.Lunix_path_BB74_161
	movq	40(%rsp), %rcx
	addq	%rax, %rcx
	leaq	(%rdi,%rbx), %r8
	addq	%rcx, %r8
	addq	192(%rsp), %r8
	xorl	%r9d, %r9d
	movq	%rax, %rcx
	.p2align	4
.Lunix_path_BB74_160:
	movzbl	(%r14,%rcx), %r10d
	movb	%r10b, (%r8,%r9)
	incq	%rcx
	incq	%r9
	cmpq	%r9, %rdx
	jne	.Lunix_path_BB74_160
.Lunix_path_BB74_161:
	subq	%rsi, %rax
	cmpq	$-4, %rax
	ja	.Lunix_path_BB74_164
	subq	%rcx, %rsi
	addq	%rcx, %rbp
	movq	56(%rsp), %rax
	addq	%rbp, %rax
	addq	$3, %rax
	movq	40(%rsp), %rdx
	addq	%rcx, %rdx
	addq	%rbx, %rdi
	addq	%rdx, %rdi
	movq	192(%rsp), %rcx
	addq	%rdi, %rcx
	addq	$3, %rcx
	xorl	%edx, %edx
	.p2align	4
.Lunix_path_BB74_163:
	movzbl	-3(%rax,%rdx), %r8d
	movb	%r8b, -3(%rcx,%rdx)
	movzbl	-2(%rax,%rdx), %r8d
	movb	%r8b, -2(%rcx,%rdx)
	movzbl	-1(%rax,%rdx), %r8d
	movb	%r8b, -1(%rcx,%rdx)
	movzbl	(%rax,%rdx), %r8d
	movb	%r8b, (%rcx,%rdx)
	addq	$4, %rdx
	cmpq	%rdx, %rsi
	jne	.Lunix_path_BB74_163
	jmp	.Lunix_path_BB74_164
.Lunix_path_BB74_146:
	movq	%r12, %rcx
	movq	%r14, %rdx
	movq	%rsi, %r8
	callq	memmove
.Lunix_path_BB74_164:
	movabsq	$-9223372036854775808, %rax
	cmpq	%rax, %r15
	cmovbq	%r15, %rax
.Lunix_path_BB74_165:
	movaps	64(%rsp), %xmm6
	addq	$88, %rsp
	popq	%rbx
	popq	%rbp
	popq	%rdi
	popq	%rsi
	popq	%r12
	popq	%r13
	popq	%r14
	popq	%r15
	retq
.Lunix_path_BB74_125:
	movzwl	%r8w, %r8d
	addq	%rdx, %r8
	movq	$-4, %rax
	cmpq	%rsi, %r8
	jae	.Lunix_path_BB74_115
	jmp	.Lunix_path_BB74_165
.Lunix_path_BB74_20:
	movq	1(%r14), %xmm0
	pand	.Lunix_path_CPI74_3(%rip), %xmm0
	pcmpeqb	.Lunix_path_CPI74_4(%rip), %xmm0
	movq	(%r14), %xmm1
	pcmpeqb	.Lunix_path_CPI74_5(%rip), %xmm1
	pand	%xmm0, %xmm1
	pmovmskb	%xmm1, %ecx
	orl	$256, %ecx
	rep		bsfl	%ecx, %ecx
	cmpb	$8, %cl
	jb	.Lunix_path_BB74_32
	cmpq	$17, %rsi
	movl	$17, %ecx
	cmovbq	%rsi, %rcx
	movq	-8(%r14,%rcx), %xmm0
	pand	.Lunix_path_CPI74_3(%rip), %xmm0
	pcmpeqb	.Lunix_path_CPI74_4(%rip), %xmm0
	movq	-9(%r14,%rcx), %xmm1
	pcmpeqb	.Lunix_path_CPI74_5(%rip), %xmm1
	pand	%xmm0, %xmm1
	pmovmskb	%xmm1, %edx
	orl	$256, %edx
	rep		bsfl	%edx, %edx
	addq	%rdx, %rcx
	addq	$-9, %rcx
	cmpq	%rsi, %rcx
	jb	.Lunix_path_BB74_33
	jmp	.Lunix_path_BB74_49
.Lunix_path_BB74_126:
	cmpq	$32, %rdi
	jae	.Lunix_path_BB74_128
	xorl	%eax, %eax
	jmp	.Lunix_path_BB74_132
.Lunix_path_BB74_149:
	cmpq	$32, %rsi
	jae	.Lunix_path_BB74_151
	xorl	%eax, %eax
	jmp	.Lunix_path_BB74_155
.Lunix_path_BB74_22:
	movdqa	.Lunix_path_CPI74_0(%rip), %xmm0
	movdqu	-33(%r14,%rsi), %xmm1
	movdqu	-32(%r14,%rsi), %xmm2
	movdqu	-17(%r14,%rsi), %xmm3
	movdqu	-16(%r14,%rsi), %xmm4
	pand	%xmm0, %xmm2
	por	%xmm1, %xmm2
	movdqa	.Lunix_path_CPI74_1(%rip), %xmm1
	pcmpeqb	%xmm1, %xmm2
	pand	%xmm0, %xmm4
	por	%xmm3, %xmm4
	pcmpeqb	%xmm1, %xmm4
	por	%xmm2, %xmm4
	pmovmskb	%xmm4, %ecx
	testl	%ecx, %ecx
	je	.Lunix_path_BB74_43
	leaq	-19(%rsi), %rdx
.Lunix_path_BB74_24:
	xorl	%ecx, %ecx
	jmp	.Lunix_path_BB74_26
	.p2align	4
.Lunix_path_BB74_25:
	cmpq	%rdx, %rcx
	jae	.Lunix_path_BB74_18
.Lunix_path_BB74_26:
	movdqu	(%r14,%rcx), %xmm0
	movdqu	1(%r14,%rcx), %xmm1
	movdqa	.Lunix_path_CPI74_0(%rip), %xmm2
	pand	%xmm1, %xmm2
	por	%xmm0, %xmm2
	pcmpeqb	.Lunix_path_CPI74_1(%rip), %xmm2
	pmovmskb	%xmm2, %r8d
	testl	%r8d, %r8d
	je	.Lunix_path_BB74_29
	movdqu	2(%r14,%rcx), %xmm2
	movdqu	3(%r14,%rcx), %xmm3
	movdqa	.Lunix_path_CPI74_2(%rip), %xmm4
	movdqa	%xmm2, %xmm5
	pcmpeqb	%xmm4, %xmm5
	movdqa	.Lunix_path_CPI74_1(%rip), %xmm6
	pcmpeqb	%xmm6, %xmm3
	pand	%xmm5, %xmm3
	pcmpeqb	%xmm1, %xmm4
	pcmpeqb	%xmm6, %xmm2
	por	%xmm3, %xmm2
	pand	%xmm4, %xmm2
	pcmpeqb	%xmm6, %xmm0
	pcmpeqb	%xmm6, %xmm1
	por	%xmm2, %xmm1
	pand	%xmm0, %xmm1
	pmovmskb	%xmm1, %r8d
	orl	$65536, %r8d
	rep		bsfl	%r8d, %r8d
	cmpw	$15, %r8w
	jbe	.Lunix_path_BB74_30
	addq	$16, %rcx
	jmp	.Lunix_path_BB74_25
	.p2align	4
.Lunix_path_BB74_29:
	addq	$16, %rcx
	cmpq	%rdx, %rcx
	jb	.Lunix_path_BB74_26
	jmp	.Lunix_path_BB74_25
.Lunix_path_BB74_128:
	movq	%rdi, %rax
	andq	$-32, %rax
	leaq	(%r10,%r13), %rcx
	addq	$16, %rcx
	movq	192(%rsp), %r8
	movq	40(%rsp), %r9
	addq	%r9, %r8
	addq	$16, %r8
	xorl	%r9d, %r9d
	.p2align	4
.Lunix_path_BB74_129:
	movdqu	-16(%rcx,%r9), %xmm0
	movdqu	(%rcx,%r9), %xmm1
	movdqu	%xmm0, -16(%r8,%r9)
	movdqu	%xmm1, (%r8,%r9)
	addq	$32, %r9
	cmpq	%r9, %rax
	jne	.Lunix_path_BB74_129
	cmpq	%rax, %rdi
	je	.Lunix_path_BB74_141
	testb	$28, %dil
	je	.Lunix_path_BB74_135
.Lunix_path_BB74_132:
	movq	%rax, %rcx
	movq	%rdi, %rax
	andq	$-4, %rax
	.p2align	4
.Lunix_path_BB74_133:
	movl	(%rdx,%rcx), %r8d
	movl	%r8d, (%r12,%rcx)
	addq	$4, %rcx
	cmpq	%rcx, %rax
	jne	.Lunix_path_BB74_133
	cmpq	%rax, %rdi
	je	.Lunix_path_BB74_141
	jmp	.Lunix_path_BB74_135
.Lunix_path_BB74_151:
	movq	%rsi, %rax
	andq	$-32, %rax
	movq	56(%rsp), %rcx
	addq	%rbp, %rcx
	addq	$16, %rcx
	addq	%rbx, %rdx
	movq	192(%rsp), %r8
	addq	%r8, %rdx
	addq	$16, %rdx
	xorl	%r8d, %r8d
	.p2align	4
.Lunix_path_BB74_152:
	movdqu	-16(%rcx,%r8), %xmm0
	movdqu	(%rcx,%r8), %xmm1
	movdqu	%xmm0, -16(%rdx,%r8)
	movdqu	%xmm1, (%rdx,%r8)
	addq	$32, %r8
	cmpq	%r8, %rax
	jne	.Lunix_path_BB74_152
	cmpq	%rax, %rsi
	je	.Lunix_path_BB74_164
	testb	$28, %sil
	je	.Lunix_path_BB74_158
.Lunix_path_BB74_155:
	movq	%rax, %rcx
	movq	%rsi, %rax
	andq	$-4, %rax
	movq	%rax, %rdx
	subq	%rcx, %rdx
	leaq	(%rcx,%rbp), %r8
	addq	56(%rsp), %r8
	addq	40(%rsp), %rcx
	addq	%rdi, %rcx
	addq	%rbx, %rcx
	addq	192(%rsp), %rcx
	xorl	%r9d, %r9d
	.p2align	4
.Lunix_path_BB74_156:
	movl	(%r8,%r9), %r10d
	movl	%r10d, (%rcx,%r9)
	addq	$4, %r9
	cmpq	%r9, %rdx
	jne	.Lunix_path_BB74_156
	cmpq	%rax, %rsi
	je	.Lunix_path_BB74_164
	jmp	.Lunix_path_BB74_158
.Lunix_path_BB74_30:
	movzwl	%r8w, %edx
.Lunix_path_BB74_31:
	addq	%rdx, %rcx
.Lunix_path_BB74_32:
	cmpq	%rsi, %rcx
	jae	.Lunix_path_BB74_49
.Lunix_path_BB74_33:
	leaq	(%r15,%rbp), %r8
	addq	$3, %r8
	jmp	.Lunix_path_BB74_36
	.p2align	4
.Lunix_path_BB74_34:
	cmpl	$47, %r9d
	je	.Lunix_path_BB74_50
.Lunix_path_BB74_35:
	cmpq	%rcx, %rsi
	je	.Lunix_path_BB74_51
.Lunix_path_BB74_36:
	movq	%rcx, %rdx
	incq	%rcx
	cmpb	$47, -3(%r8,%rdx)
	jne	.Lunix_path_BB74_35
	cmpq	%rcx, %rsi
	jbe	.Lunix_path_BB74_50
	movzbl	-2(%r8,%rdx), %r9d
	cmpl	$46, %r9d
	jne	.Lunix_path_BB74_34
	leaq	2(%rdx), %r9
	cmpq	%r9, %rsi
	jbe	.Lunix_path_BB74_50
	movzbl	-1(%r8,%rdx), %r9d
	cmpl	$46, %r9d
	jne	.Lunix_path_BB74_34
	leaq	3(%rdx), %r9
	cmpq	%r9, %rsi
	jbe	.Lunix_path_BB74_50
	cmpb	$47, (%r8,%rdx)
	jne	.Lunix_path_BB74_35
	jmp	.Lunix_path_BB74_50
.Lunix_path_BB74_43:
	movq	%rsi, %rcx
	addq	$-33, %rcx
	je	.Lunix_path_BB74_47
	leaq	(%r15,%rbp), %rdx
	addq	$17, %rdx
	xorl	%r8d, %r8d
.Lunix_path_BB74_45:
	movdqu	-17(%rdx,%r8), %xmm2
	movdqu	-16(%rdx,%r8), %xmm3
	movdqu	-1(%rdx,%r8), %xmm4
	movdqu	(%rdx,%r8), %xmm5
	pand	%xmm0, %xmm3
	por	%xmm2, %xmm3
	pcmpeqb	%xmm1, %xmm3
	pand	%xmm0, %xmm5
	por	%xmm4, %xmm5
	pcmpeqb	%xmm1, %xmm5
	por	%xmm3, %xmm5
	pmovmskb	%xmm5, %r9d
	testl	%r9d, %r9d
	jne	.Lunix_path_BB74_15
	addq	$32, %r8
	cmpq	%rcx, %r8
	jb	.Lunix_path_BB74_45
	jmp	.Lunix_path_BB74_51
.Lunix_path_BB74_47:
	leaq	-16(%rsi), %rax
	movq	48(%rsp), %rcx
	jmp	.Lunix_path_BB74_60
.Lunix_path_BB74_48:
	addq	$16, %rcx
	cmpq	%rsi, %rcx
	jb	.Lunix_path_BB74_33
	jmp	.Lunix_path_BB74_49
	.def	unix_path_with_added_extension;
	.scl	2;
	.type	32;
	.endef
	.globl	unix_path_with_added_extension
	.p2align	4
unix_path_with_added_extension:
	pushq	%r15
	pushq	%r14
	pushq	%r13
	pushq	%r12
	pushq	%rsi
	pushq	%rdi
	pushq	%rbp
	pushq	%rbx
	subq	$56, %rsp
	movq	%r9, %rsi
	movq	%rdx, %r12
	movq	%rcx, %r14
	xorl	%r13d, %r13d
	testq	%rcx, %rcx
	sete	%bl
	xorl	%edi, %edi
	testq	%r8, %r8
	sete	%dil
	shll	$12, %edi
	addq	%r8, %rdi
	cmpq	$0, 160(%rsp)
	sete	%bpl
	movq	%rdi, %rcx
	movq	%r9, %rdx
	callq	unix_path.stems.has_slash
	testb	%al, %al
	je	.Lunix_path_BB75_2
	movq	$-7, %rax
	jmp	.Lunix_path_BB75_64
.Lunix_path_BB75_2:
	movb	%bl, %r13b
	shll	$12, %r13d
	leaq	(%r14,%r13), %r15
	leaq	.Lunix_path_static.0(%rip), %rdx
	testq	%rsi, %rsi
	je	.Lunix_path_BB75_13
	testq	%r12, %r12
	je	.Lunix_path_BB75_13
	movq	%r12, %rbx
	movq	%r12, %rax
	jmp	.Lunix_path_BB75_6
	.p2align	4
.Lunix_path_BB75_5:
	movq	%rax, %rbx
	testq	%rax, %rax
	je	.Lunix_path_BB75_13
.Lunix_path_BB75_6:
	decq	%rax
	je	.Lunix_path_BB75_12
	movzbl	(%r15,%rax), %ecx
	cmpl	$47, %ecx
	je	.Lunix_path_BB75_10
	cmpl	$46, %ecx
	jne	.Lunix_path_BB75_35
	movzbl	-1(%r15,%rax), %ecx
	cmpb	$47, %cl
	jne	.Lunix_path_BB75_36
.Lunix_path_BB75_10:
	movq	%r12, %rcx
	subq	%rax, %rcx
	cmpq	$8, %rcx
	jne	.Lunix_path_BB75_5
	movq	%r15, %rcx
	movq	%rdx, %rbx
	movq	%rax, %rdx
	callq	unix_path.filler.trimmed_blocks_len
	movq	%rbx, %rdx
	jmp	.Lunix_path_BB75_5
.Lunix_path_BB75_12:
	movzbl	(%r15), %eax
	andb	$-2, %al
	cmpb	$46, %al
	jne	.Lunix_path_BB75_34
.Lunix_path_BB75_13:
	xorl	%eax, %eax
	movq	%r12, %rbx
	xorl	%r9d, %r9d
	movq	%rdx, %rdi
	xorl	%esi, %esi
.Lunix_path_BB75_14:
	movzbl	%al, %r10d
	leaq	(%rbx,%r10), %rax
	leaq	(%rsi,%rax), %r11
	cmpq	%r11, 168(%rsp)
	jb	.Lunix_path_BB75_63
	movq	%rax, 48(%rsp)
	xorl	%ecx, %ecx
	movb	%bpl, %cl
	shll	$12, %ecx
	movq	160(%rsp), %rax
	movq	%rcx, 40(%rsp)
	leaq	(%rax,%rcx), %r12
	movq	%r12, %rax
	subq	%r15, %rax
	cmpq	%rbx, %rax
	jae	.Lunix_path_BB75_25
	cmpq	$4, %rbx
	jb	.Lunix_path_BB75_18
	cmpq	$32, %rax
	jae	.Lunix_path_BB75_39
.Lunix_path_BB75_18:
	movq	%r11, %rbp
	xorl	%eax, %eax
.Lunix_path_BB75_19:
	movq	%rbx, %rdx
	movq	%rax, %rcx
	andq	$3, %rdx
	je	.Lunix_path_BB75_22
	movq	%rax, %rcx
	.p2align	4
.Lunix_path_BB75_21:
	movzbl	(%r15,%rcx), %r8d
	movb	%r8b, (%r12,%rcx)
	incq	%rcx
	decq	%rdx
	jne	.Lunix_path_BB75_21
.Lunix_path_BB75_22:
	subq	%rbx, %rax
	cmpq	$-4, %rax
	ja	.Lunix_path_BB75_26
	leaq	(%r14,%r13), %rax
	addq	$3, %rax
	movq	160(%rsp), %rdx
	movq	40(%rsp), %r8
	addq	%r8, %rdx
	addq	$3, %rdx
	.p2align	4
.Lunix_path_BB75_24:
	movzbl	-3(%rax,%rcx), %r8d
	movb	%r8b, -3(%rdx,%rcx)
	movzbl	-2(%rax,%rcx), %r8d
	movb	%r8b, -2(%rdx,%rcx)
	movzbl	-1(%rax,%rcx), %r8d
	movb	%r8b, -1(%rdx,%rcx)
	movzbl	(%rax,%rcx), %r8d
	movb	%r8b, (%rdx,%rcx)
	addq	$4, %rcx
	cmpq	%rcx, %rbx
	jne	.Lunix_path_BB75_24
	jmp	.Lunix_path_BB75_26
.Lunix_path_BB75_25:
	movq	%r11, %rbp
	movq	%r12, %rcx
	movq	%r15, %rdx
	movq	%rbx, %r8
	movq	%r10, %r14
	movq	%r9, %r15
	callq	memmove
	movq	%r15, %r9
	movq	%r14, %r10
.Lunix_path_BB75_26:
	testq	%r10, %r10
	je	.Lunix_path_BB75_28
	movb	%r9b, (%r12,%rbx)
.Lunix_path_BB75_28:
	addq	48(%rsp), %r12
	movq	%r12, %rax
	subq	%rdi, %rax
	cmpq	%rsi, %rax
	jae	.Lunix_path_BB75_31
	cmpq	$4, %rsi
	movq	%rbp, %r11
	jb	.Lunix_path_BB75_30
	movq	40(%rsp), %rax
	leaq	(%rax,%rbx), %rcx
	movq	160(%rsp), %r8
	leaq	(%rcx,%r8), %rax
	addq	%r10, %rax
	subq	%rdi, %rax
	cmpq	$32, %rax
	jae	.Lunix_path_BB75_41
.Lunix_path_BB75_30:
	xorl	%eax, %eax
.Lunix_path_BB75_57:
	movq	%r10, %r14
	movq	%rsi, %rdx
	movq	%rax, %rcx
	andq	$3, %rdx
	je	.Lunix_path_BB75_60
	movq	40(%rsp), %rcx
	addq	%rbx, %rcx
	leaq	(%rax,%r14), %r8
	addq	%rcx, %r8
	addq	160(%rsp), %r8
	xorl	%r9d, %r9d
	movq	%rax, %rcx
	.p2align	4
.Lunix_path_BB75_59:
	movzbl	(%rdi,%rcx), %r10d
	movb	%r10b, (%r8,%r9)
	incq	%rcx
	incq	%r9
	cmpq	%r9, %rdx
	jne	.Lunix_path_BB75_59
.Lunix_path_BB75_60:
	subq	%rsi, %rax
	cmpq	$-4, %rax
	ja	.Lunix_path_BB75_63
	subq	%rcx, %rsi
	leaq	(%rcx,%rdi), %rax
	addq	$3, %rax
	movq	40(%rsp), %rbp
	addq	%rbx, %rbp
	addq	%rcx, %rbp
	addq	%r14, %rbp
	movq	160(%rsp), %rcx
	addq	%rbp, %rcx
	addq	$3, %rcx
	xorl	%edx, %edx
	.p2align	4
.Lunix_path_BB75_62:
	movzbl	-3(%rax,%rdx), %r8d
	movb	%r8b, -3(%rcx,%rdx)
	movzbl	-2(%rax,%rdx), %r8d
	movb	%r8b, -2(%rcx,%rdx)
	movzbl	-1(%rax,%rdx), %r8d
	movb	%r8b, -1(%rcx,%rdx)
	movzbl	(%rax,%rdx), %r8d
	movb	%r8b, (%rcx,%rdx)
	addq	$4, %rdx
	cmpq	%rdx, %rsi
	jne	.Lunix_path_BB75_62
	jmp	.Lunix_path_BB75_63
.Lunix_path_BB75_31:
	movq	%r12, %rcx
	movq	%rdi, %rdx
	movq	%rsi, %r8
	callq	memmove
	movq	%rbp, %r11
.Lunix_path_BB75_63:
	movabsq	$-9223372036854775808, %rax
	cmpq	%rax, %r11
	cmovbq	%r11, %rax
.Lunix_path_BB75_64:
	addq	$56, %rsp
	popq	%rbx
	popq	%rbp
	popq	%rdi
	popq	%rsi
	popq	%r12
	popq	%r13
	popq	%r14
	popq	%r15
	retq
.Lunix_path_BB75_34:
	movb	$46, %r9b
	movb	$1, %al
	movl	$1, %ebx
	jmp	.Lunix_path_BB75_14
.Lunix_path_BB75_35:
	movb	$46, %r9b
	movb	$1, %al
	jmp	.Lunix_path_BB75_14
.Lunix_path_BB75_36:
	movb	$46, %r9b
	movb	$1, %al
	cmpb	$46, %cl
	jne	.Lunix_path_BB75_14
	cmpq	$2, %rbx
	je	.Lunix_path_BB75_13
	cmpb	$47, -3(%r15,%rbx)
	je	.Lunix_path_BB75_13
	jmp	.Lunix_path_BB75_14
.Lunix_path_BB75_39:
	cmpq	$32, %rbx
	jae	.Lunix_path_BB75_43
	movq	%r11, %rbp
	xorl	%eax, %eax
	jmp	.Lunix_path_BB75_47
.Lunix_path_BB75_41:
	cmpq	$32, %rsi
	jae	.Lunix_path_BB75_50
	xorl	%eax, %eax
	jmp	.Lunix_path_BB75_54
.Lunix_path_BB75_43:
	movq	%rbx, %rax
	andq	$-32, %rax
	leaq	(%r14,%r13), %rcx
	addq	$16, %rcx
	movq	160(%rsp), %rdx
	movq	40(%rsp), %r8
	addq	%r8, %rdx
	addq	$16, %rdx
	xorl	%r8d, %r8d
	.p2align	4
.Lunix_path_BB75_44:
	movups	-16(%rcx,%r8), %xmm0
	movups	(%rcx,%r8), %xmm1
	movups	%xmm0, -16(%rdx,%r8)
	movups	%xmm1, (%rdx,%r8)
	addq	$32, %r8
	cmpq	%r8, %rax
	jne	.Lunix_path_BB75_44
	movq	%r11, %rbp
	cmpq	%rax, %rbx
	je	.Lunix_path_BB75_26
	testb	$28, %bl
	je	.Lunix_path_BB75_19
.Lunix_path_BB75_47:
	movq	%rax, %rcx
	movq	%rbx, %rax
	andq	$-4, %rax
	.p2align	4
.Lunix_path_BB75_48:
	movl	(%r15,%rcx), %edx
	movl	%edx, (%r12,%rcx)
	addq	$4, %rcx
	cmpq	%rcx, %rax
	jne	.Lunix_path_BB75_48
	cmpq	%rax, %rbx
	jne	.Lunix_path_BB75_19
	jmp	.Lunix_path_BB75_26
.Lunix_path_BB75_50:
	movq	%rsi, %rax
	andq	$-32, %rax
	leaq	(%rcx,%r10), %rdx
	addq	%r8, %rdx
	addq	$16, %rdx
	xorl	%r8d, %r8d
	.p2align	4
.Lunix_path_BB75_51:
	movups	(%rdi,%r8), %xmm0
	movups	16(%rdi,%r8), %xmm1
	movups	%xmm0, -16(%rdx,%r8)
	movups	%xmm1, (%rdx,%r8)
	addq	$32, %r8
	cmpq	%r8, %rax
	jne	.Lunix_path_BB75_51
	cmpq	%rax, %rsi
	je	.Lunix_path_BB75_63
	testb	$28, %sil
	je	.Lunix_path_BB75_57
.Lunix_path_BB75_54:
	movq	%rax, %r9
	movq	%rsi, %rax
	andq	$-4, %rax
	movq	%rax, %rdx
	subq	%r9, %rdx
	leaq	(%rdi,%r9), %r8
	movq	%r10, %r14
	addq	%r10, %r9
	addq	%r9, %rcx
	addq	160(%rsp), %rcx
	xorl	%r9d, %r9d
	.p2align	4
.Lunix_path_BB75_55:
	movl	(%r8,%r9), %r10d
	movl	%r10d, (%rcx,%r9)
	addq	$4, %r9
	cmpq	%r9, %rdx
	jne	.Lunix_path_BB75_55
	cmpq	%rax, %rsi
	movq	%r14, %r10
	je	.Lunix_path_BB75_63
	jmp	.Lunix_path_BB75_57
	.def	unix_path_with_extension;
	.scl	2;
	.type	32;
	.endef
	.section	.rdata,"dr"
	.p2align	4, 0x0
.Lunix_path_CPI76_0:
	.zero	16,46
.Lunix_path_CPI76_1:
	.zero	16,47
	.text
	.globl	unix_path_with_extension
	.p2align	4
unix_path_with_extension:
	pushq	%r15
	pushq	%r14
	pushq	%r13
	pushq	%r12
	pushq	%rsi
	pushq	%rdi
	pushq	%rbp
	pushq	%rbx
	subq	$56, %rsp
	movq	%r9, %rsi
	movq	%rdx, %rbx
	movq	%rcx, %r14
	xorl	%r13d, %r13d
	testq	%rcx, %rcx
	sete	%bpl
	xorl	%edi, %edi
	testq	%r8, %r8
	sete	%dil
	shll	$12, %edi
	addq	%r8, %rdi
	cmpq	$0, 160(%rsp)
	sete	%r12b
	movq	%rdi, %rcx
	movq	%r9, %rdx
	callq	unix_path.stems.has_slash
	testb	%al, %al
	je	.Lunix_path_BB76_2
	movq	$-7, %rax
	jmp	.Lunix_path_BB76_75
.Lunix_path_BB76_2:
	movb	%bpl, %r13b
	shll	$12, %r13d
	leaq	(%r14,%r13), %r15
	testq	%rbx, %rbx
	je	.Lunix_path_BB76_12
	movq	%rbx, %rcx
	movq	%rbx, %rax
	jmp	.Lunix_path_BB76_5
	.p2align	4
.Lunix_path_BB76_4:
	movq	%rax, %rcx
	testq	%rax, %rax
	je	.Lunix_path_BB76_12
.Lunix_path_BB76_5:
	decq	%rax
	je	.Lunix_path_BB76_11
	movzbl	(%r15,%rax), %edx
	cmpl	$47, %edx
	je	.Lunix_path_BB76_9
	cmpl	$46, %edx
	jne	.Lunix_path_BB76_26
	movzbl	-1(%r15,%rax), %edx
	cmpb	$47, %dl
	jne	.Lunix_path_BB76_23
.Lunix_path_BB76_9:
	movq	%rbx, %rcx
	subq	%rax, %rcx
	cmpq	$8, %rcx
	jne	.Lunix_path_BB76_4
	movq	%r15, %rcx
	movq	%rax, %rdx
	callq	unix_path.filler.trimmed_blocks_len
	jmp	.Lunix_path_BB76_4
.Lunix_path_BB76_11:
	movzbl	(%r15), %eax
	andb	$-2, %al
	cmpb	$46, %al
	jne	.Lunix_path_BB76_26
.Lunix_path_BB76_12:
	xorl	%eax, %eax
	xorl	%ecx, %ecx
.Lunix_path_BB76_13:
	movq	168(%rsp), %rdx
	xorl	%r8d, %r8d
	cmpb	$1, %al
	jne	.Lunix_path_BB76_15
	testq	%rsi, %rsi
	movl	$46, %eax
	cmovnel	%eax, %r8d
	setne	%al
	movl	%r8d, %r9d
	movq	%rcx, %rbx
	movl	%eax, %r8d
	jmp	.Lunix_path_BB76_16
.Lunix_path_BB76_15:
	leaq	.Lunix_path_static.0(%rip), %rdi
	xorl	%r9d, %r9d
	xorl	%esi, %esi
.Lunix_path_BB76_16:
	movzbl	%r8b, %r10d
	leaq	(%rbx,%r10), %rbp
	leaq	(%rsi,%rbp), %r11
	cmpq	%r11, %rdx
	jb	.Lunix_path_BB76_74
	xorl	%ecx, %ecx
	movb	%r12b, %cl
	shll	$12, %ecx
	movq	160(%rsp), %rax
	movq	%rcx, 40(%rsp)
	leaq	(%rax,%rcx), %r12
	movq	%r12, %rax
	subq	%r15, %rax
	cmpq	%rbx, %rax
	movq	%r11, 48(%rsp)
	jae	.Lunix_path_BB76_20
	cmpq	$4, %rbx
	jb	.Lunix_path_BB76_19
	cmpq	$32, %rax
	jae	.Lunix_path_BB76_36
.Lunix_path_BB76_19:
	xorl	%eax, %eax
.Lunix_path_BB76_45:
	movq	%rbx, %rdx
	movq	%rax, %rcx
	andq	$3, %rdx
	je	.Lunix_path_BB76_48
	movq	%rax, %rcx
	.p2align	4
.Lunix_path_BB76_47:
	movzbl	(%r15,%rcx), %r8d
	movb	%r8b, (%r12,%rcx)
	incq	%rcx
	decq	%rdx
	jne	.Lunix_path_BB76_47
.Lunix_path_BB76_48:
	subq	%rbx, %rax
	cmpq	$-4, %rax
	ja	.Lunix_path_BB76_51
	leaq	(%r14,%r13), %rax
	addq	$3, %rax
	movq	160(%rsp), %rdx
	movq	40(%rsp), %r8
	addq	%r8, %rdx
	addq	$3, %rdx
	.p2align	4
.Lunix_path_BB76_50:
	movzbl	-3(%rax,%rcx), %r8d
	movb	%r8b, -3(%rdx,%rcx)
	movzbl	-2(%rax,%rcx), %r8d
	movb	%r8b, -2(%rdx,%rcx)
	movzbl	-1(%rax,%rcx), %r8d
	movb	%r8b, -1(%rdx,%rcx)
	movzbl	(%rax,%rcx), %r8d
	movb	%r8b, (%rdx,%rcx)
	addq	$4, %rcx
	cmpq	%rcx, %rbx
	jne	.Lunix_path_BB76_50
	jmp	.Lunix_path_BB76_51
.Lunix_path_BB76_20:
	movq	%r12, %rcx
	movq	%r15, %rdx
	movq	%rbx, %r8
	movq	%r10, %r14
	movq	%r9, %r15
	callq	memmove
	movq	%r15, %r9
	movq	%r14, %r10
.Lunix_path_BB76_51:
	testq	%r10, %r10
	je	.Lunix_path_BB76_53
	movb	%r9b, (%r12,%rbx)
.Lunix_path_BB76_53:
	addq	%rbp, %r12
	movq	%r12, %rax
	subq	%rdi, %rax
	cmpq	%rsi, %rax
	jae	.Lunix_path_BB76_56
	cmpq	$4, %rsi
	leaq	(%rsi,%rbp), %r11
	jb	.Lunix_path_BB76_55
	movq	40(%rsp), %rax
	leaq	(%rax,%rbx), %rcx
	movq	160(%rsp), %r8
	leaq	(%rcx,%r8), %rax
	addq	%r10, %rax
	subq	%rdi, %rax
	cmpq	$32, %rax
	jae	.Lunix_path_BB76_59
.Lunix_path_BB76_55:
	xorl	%eax, %eax
.Lunix_path_BB76_68:
	movq	%rsi, %rdx
	movq	%rax, %rcx
	andq	$3, %rdx
	je	.Lunix_path_BB76_71
	movq	40(%rsp), %rcx
	addq	%rax, %rcx
	addq	%rcx, %rbp
	addq	160(%rsp), %rbp
	xorl	%r8d, %r8d
	movq	%rax, %rcx
	.p2align	4
.Lunix_path_BB76_70:
	movzbl	(%rdi,%rcx), %r9d
	movb	%r9b, (%rbp,%r8)
	incq	%rcx
	incq	%r8
	cmpq	%r8, %rdx
	jne	.Lunix_path_BB76_70
.Lunix_path_BB76_71:
	subq	%rsi, %rax
	cmpq	$-4, %rax
	ja	.Lunix_path_BB76_74
	subq	%rcx, %rsi
	leaq	(%rcx,%rdi), %rax
	addq	$3, %rax
	movq	40(%rsp), %rdx
	addq	%rbx, %rdx
	addq	%rcx, %rdx
	addq	%r10, %rdx
	movq	160(%rsp), %rcx
	addq	%rdx, %rcx
	addq	$3, %rcx
	xorl	%edx, %edx
	.p2align	4
.Lunix_path_BB76_73:
	movzbl	-3(%rax,%rdx), %r8d
	movb	%r8b, -3(%rcx,%rdx)
	movzbl	-2(%rax,%rdx), %r8d
	movb	%r8b, -2(%rcx,%rdx)
	movzbl	-1(%rax,%rdx), %r8d
	movb	%r8b, -1(%rcx,%rdx)
	movzbl	(%rax,%rdx), %r8d
	movb	%r8b, (%rcx,%rdx)
	addq	$4, %rdx
	cmpq	%rdx, %rsi
	jne	.Lunix_path_BB76_73
	jmp	.Lunix_path_BB76_74
.Lunix_path_BB76_56:
	movq	%r12, %rcx
	movq	%rdi, %rdx
	movq	%rsi, %r8
	callq	memmove
	movq	48(%rsp), %r11
.Lunix_path_BB76_74:
	movabsq	$-9223372036854775808, %rax
	cmpq	%rax, %r11
	cmovbq	%r11, %rax
.Lunix_path_BB76_75:
	addq	$56, %rsp
	popq	%rbx
	popq	%rbp
	popq	%rdi
	popq	%rsi
	popq	%r12
	popq	%r13
	popq	%r14
	popq	%r15
	retq
.Lunix_path_BB76_23:
	cmpb	$46, %dl
	jne	.Lunix_path_BB76_26
	cmpq	$2, %rcx
	je	.Lunix_path_BB76_12
	cmpb	$47, -3(%r15,%rcx)
	je	.Lunix_path_BB76_12
.Lunix_path_BB76_26:
	movb	$1, %al
	leaq	(%r14,%r13), %r8
	addq	$-16, %r8
	movq	%rcx, %rdx
	.p2align	4
.Lunix_path_BB76_27:
	cmpq	$15, %rdx
	jbe	.Lunix_path_BB76_30
	movdqu	(%r8,%rdx), %xmm0
	addq	$-16, %rdx
	movdqa	.Lunix_path_CPI76_0(%rip), %xmm1
	pcmpeqb	%xmm0, %xmm1
	pmovmskb	%xmm1, %r9d
	movl	$127, %r11d
	movl	$127, %ebp
	bsrq	%r9, %rbp
	xorq	$63, %rbp
	movl	$64, %r10d
	movl	$64, %r9d
	subq	%rbp, %r9
	pcmpeqb	.Lunix_path_CPI76_1(%rip), %xmm0
	pmovmskb	%xmm0, %ebp
	bsrq	%rbp, %r11
	xorq	$63, %r11
	subq	%r11, %r10
	cmpq	%r10, %r9
	movq	%r10, %r11
	cmovaq	%r9, %r11
	testq	%r11, %r11
	je	.Lunix_path_BB76_27
	cmpq	%r9, %r10
	cmovaq	%r10, %r9
	leaq	(%r9,%rdx), %r8
	addq	%r9, %rdx
	decq	%rdx
	testq	%rdx, %rdx
	jne	.Lunix_path_BB76_34
	jmp	.Lunix_path_BB76_13
.Lunix_path_BB76_30:
	leaq	(%r14,%r13), %r8
	decq	%r8
	.p2align	4
.Lunix_path_BB76_31:
	testq	%rdx, %rdx
	je	.Lunix_path_BB76_13
	movzbl	(%r8,%rdx), %r9d
	decq	%rdx
	andb	$-2, %r9b
	cmpb	$46, %r9b
	jne	.Lunix_path_BB76_31
	leaq	1(%rdx), %r8
	testq	%rdx, %rdx
	je	.Lunix_path_BB76_13
.Lunix_path_BB76_34:
	cmpb	$47, (%r15,%rdx)
	je	.Lunix_path_BB76_13
	cmpb	$47, -2(%r15,%r8)
	cmovneq	%rdx, %rcx
	jmp	.Lunix_path_BB76_13
.Lunix_path_BB76_36:
	cmpq	$32, %rbx
	jae	.Lunix_path_BB76_38
	xorl	%eax, %eax
	jmp	.Lunix_path_BB76_42
.Lunix_path_BB76_59:
	cmpq	$32, %rsi
	jae	.Lunix_path_BB76_61
	xorl	%eax, %eax
	jmp	.Lunix_path_BB76_65
.Lunix_path_BB76_38:
	movq	%rbx, %rax
	andq	$-32, %rax
	leaq	(%r14,%r13), %rcx
	addq	$16, %rcx
	movq	160(%rsp), %rdx
	movq	40(%rsp), %r8
	addq	%r8, %rdx
	addq	$16, %rdx
	xorl	%r8d, %r8d
	.p2align	4
.Lunix_path_BB76_39:
	movdqu	-16(%rcx,%r8), %xmm0
	movdqu	(%rcx,%r8), %xmm1
	movdqu	%xmm0, -16(%rdx,%r8)
	movdqu	%xmm1, (%rdx,%r8)
	addq	$32, %r8
	cmpq	%r8, %rax
	jne	.Lunix_path_BB76_39
	cmpq	%rax, %rbx
	je	.Lunix_path_BB76_51
	testb	$28, %bl
	je	.Lunix_path_BB76_45
.Lunix_path_BB76_42:
	movq	%rax, %rcx
	movq	%rbx, %rax
	andq	$-4, %rax
	.p2align	4
.Lunix_path_BB76_43:
	movl	(%r15,%rcx), %edx
	movl	%edx, (%r12,%rcx)
	addq	$4, %rcx
	cmpq	%rcx, %rax
	jne	.Lunix_path_BB76_43
	cmpq	%rax, %rbx
	je	.Lunix_path_BB76_51
	jmp	.Lunix_path_BB76_45
.Lunix_path_BB76_61:
	movq	%rsi, %rax
	andq	$-32, %rax
	leaq	(%rcx,%r10), %rdx
	addq	%r8, %rdx
	addq	$16, %rdx
	xorl	%r8d, %r8d
	.p2align	4
.Lunix_path_BB76_62:
	movdqu	(%rdi,%r8), %xmm0
	movdqu	16(%rdi,%r8), %xmm1
	movdqu	%xmm0, -16(%rdx,%r8)
	movdqu	%xmm1, (%rdx,%r8)
	addq	$32, %r8
	cmpq	%r8, %rax
	jne	.Lunix_path_BB76_62
	cmpq	%rax, %rsi
	je	.Lunix_path_BB76_74
	testb	$28, %sil
	je	.Lunix_path_BB76_68
.Lunix_path_BB76_65:
	movq	%rax, %r9
	movq	%rsi, %rax
	andq	$-4, %rax
	movq	%rax, %rdx
	subq	%r9, %rdx
	leaq	(%rdi,%r9), %r8
	movq	%r10, %r14
	addq	%r10, %r9
	addq	%r9, %rcx
	addq	160(%rsp), %rcx
	xorl	%r9d, %r9d
	.p2align	4
.Lunix_path_BB76_66:
	movl	(%r8,%r9), %r10d
	movl	%r10d, (%rcx,%r9)
	addq	$4, %r9
	cmpq	%r9, %rdx
	jne	.Lunix_path_BB76_66
	cmpq	%rax, %rsi
	movq	%r14, %r10
	je	.Lunix_path_BB76_74
	jmp	.Lunix_path_BB76_68
	.def	unix_path_with_file_name;
	.scl	2;
	.type	32;
	.endef
	.section	.rdata,"dr"
	.p2align	4, 0x0
.Lunix_path_CPI77_0:
	.zero	16,47
	.text
	.globl	unix_path_with_file_name
	.p2align	4
unix_path_with_file_name:
	pushq	%r15
	pushq	%r14
	pushq	%r13
	pushq	%r12
	pushq	%rsi
	pushq	%rdi
	pushq	%rbp
	pushq	%rbx
	subq	$56, %rsp
	movq	%r9, %rsi
	movq	%r8, %r12
	xorl	%edi, %edi
	testq	%rcx, %rcx
	sete	%dil
	shll	$12, %edi
	leaq	(%rcx,%rdi), %r14
	xorl	%ebp, %ebp
	testq	%r8, %r8
	sete	%bpl
	shll	$12, %ebp
	cmpq	$0, 160(%rsp)
	sete	%r13b
	testq	%rdx, %rdx
	je	.Lunix_path_BB77_21
	movq	%rdx, %rbx
	movq	%rcx, %r15
	movq	%rdx, %rcx
	movq	%rbx, %rax
	jmp	.Lunix_path_BB77_3
	.p2align	4
.Lunix_path_BB77_2:
	movq	%rax, %rcx
	testq	%rax, %rax
	je	.Lunix_path_BB77_22
.Lunix_path_BB77_3:
	decq	%rax
	je	.Lunix_path_BB77_9
	movzbl	(%r14,%rax), %edx
	cmpl	$47, %edx
	je	.Lunix_path_BB77_7
	cmpl	$46, %edx
	jne	.Lunix_path_BB77_13
	movzbl	-1(%r14,%rax), %edx
	cmpb	$47, %dl
	jne	.Lunix_path_BB77_10
.Lunix_path_BB77_7:
	movq	%rbx, %rcx
	subq	%rax, %rcx
	cmpq	$8, %rcx
	jne	.Lunix_path_BB77_2
	movq	%r14, %rcx
	movq	%rax, %rdx
	callq	unix_path.filler.trimmed_blocks_len
	jmp	.Lunix_path_BB77_2
.Lunix_path_BB77_9:
	movzbl	(%r14), %eax
	andb	$-2, %al
	cmpb	$46, %al
	jne	.Lunix_path_BB77_13
	jmp	.Lunix_path_BB77_22
.Lunix_path_BB77_10:
	cmpb	$46, %dl
	jne	.Lunix_path_BB77_13
	cmpq	$2, %rcx
	je	.Lunix_path_BB77_22
	cmpb	$47, -3(%r14,%rcx)
	je	.Lunix_path_BB77_22
.Lunix_path_BB77_13:
	leaq	(%rdi,%r15), %rdx
	addq	$-16, %rdx
	movq	%rcx, %rax
	.p2align	4
.Lunix_path_BB77_14:
	cmpq	$15, %rax
	jbe	.Lunix_path_BB77_17
	movdqu	(%rdx,%rax), %xmm0
	addq	$-16, %rax
	pcmpeqb	.Lunix_path_CPI77_0(%rip), %xmm0
	pmovmskb	%xmm0, %r8d
	testl	%r8d, %r8d
	je	.Lunix_path_BB77_14
	movzwl	%r8w, %edx
	bsrq	%rdx, %rdx
	xorq	$63, %rdx
	subq	%rdx, %rax
	addq	$64, %rax
	movq	%rax, %rdi
	jmp	.Lunix_path_BB77_20
.Lunix_path_BB77_17:
	incq	%rax
	.p2align	4
.Lunix_path_BB77_18:
	cmpq	$1, %rax
	je	.Lunix_path_BB77_21
	leaq	-1(%rax), %rdi
	cmpb	$47, -2(%r14,%rax)
	movq	%rdi, %rax
	jne	.Lunix_path_BB77_18
.Lunix_path_BB77_20:
	cmpq	%rcx, %rdi
	jne	.Lunix_path_BB77_36
.Lunix_path_BB77_21:
	xorl	%ebx, %ebx
.Lunix_path_BB77_22:
	movq	168(%rsp), %rax
	leaq	(%r12,%rbp), %r15
	testq	%rsi, %rsi
	movq	%r12, 48(%rsp)
	je	.Lunix_path_BB77_25
	cmpb	$47, (%r15)
	jne	.Lunix_path_BB77_25
	leaq	.Lunix_path_static.0(%rip), %r14
	xorl	%ebx, %ebx
	xorl	%ecx, %ecx
	jmp	.Lunix_path_BB77_28
.Lunix_path_BB77_25:
	xorl	%ecx, %ecx
	testq	%rbx, %rbx
	je	.Lunix_path_BB77_27
	cmpb	$47, -1(%r14,%rbx)
	setne	%dl
	movl	$47, %r8d
	cmovnel	%r8d, %ecx
	movl	%ecx, %r9d
	movl	%edx, %ecx
	jmp	.Lunix_path_BB77_29
.Lunix_path_BB77_27:
	xorl	%ebx, %ebx
.Lunix_path_BB77_28:
	xorl	%r9d, %r9d
.Lunix_path_BB77_29:
	movzbl	%cl, %edi
	leaq	(%rbx,%rsi), %r12
	addq	%rdi, %r12
	cmpq	%r12, %rax
	jb	.Lunix_path_BB77_83
	xorl	%ecx, %ecx
	movb	%r13b, %cl
	shll	$12, %ecx
	movq	160(%rsp), %rax
	movq	%rcx, 40(%rsp)
	leaq	(%rax,%rcx), %r13
	movq	%r13, %rax
	subq	%r14, %rax
	cmpq	%rbx, %rax
	jae	.Lunix_path_BB77_33
	cmpq	$4, %rbx
	jb	.Lunix_path_BB77_32
	cmpq	$32, %rax
	jae	.Lunix_path_BB77_44
.Lunix_path_BB77_32:
	xorl	%eax, %eax
.Lunix_path_BB77_54:
	movq	%rbx, %rdx
	movq	%rax, %rcx
	andq	$3, %rdx
	je	.Lunix_path_BB77_57
	movq	%rax, %rcx
	.p2align	4
.Lunix_path_BB77_56:
	movzbl	(%r14,%rcx), %r8d
	movb	%r8b, (%r13,%rcx)
	incq	%rcx
	decq	%rdx
	jne	.Lunix_path_BB77_56
.Lunix_path_BB77_57:
	subq	%rbx, %rax
	cmpq	$-4, %rax
	ja	.Lunix_path_BB77_60
	movq	160(%rsp), %rax
	movq	40(%rsp), %rdx
	addq	%rdx, %rax
	addq	$3, %rax
	.p2align	4
.Lunix_path_BB77_59:
	movzbl	(%r14,%rcx), %edx
	movb	%dl, -3(%rax,%rcx)
	movzbl	1(%r14,%rcx), %edx
	movb	%dl, -2(%rax,%rcx)
	movzbl	2(%r14,%rcx), %edx
	movb	%dl, -1(%rax,%rcx)
	movzbl	3(%r14,%rcx), %edx
	movb	%dl, (%rax,%rcx)
	addq	$4, %rcx
	cmpq	%rcx, %rbx
	jne	.Lunix_path_BB77_59
	jmp	.Lunix_path_BB77_60
.Lunix_path_BB77_33:
	movq	%r13, %rcx
	movq	%r14, %rdx
	movq	%rbx, %r8
	movq	%r9, %r14
	callq	memmove
	movq	%r14, %r9
.Lunix_path_BB77_60:
	testq	%rdi, %rdi
	je	.Lunix_path_BB77_62
	movb	%r9b, (%r13,%rbx)
.Lunix_path_BB77_62:
	movq	%r12, %rax
	subq	%rsi, %rax
	addq	%rax, %r13
	movq	%r13, %rax
	subq	%r15, %rax
	cmpq	%rsi, %rax
	jae	.Lunix_path_BB77_65
	cmpq	$4, %rsi
	jb	.Lunix_path_BB77_64
	movq	40(%rsp), %rax
	leaq	(%rax,%rbx), %rcx
	movq	160(%rsp), %rax
	addq	%rcx, %rax
	addq	%rdi, %rax
	subq	%r15, %rax
	cmpq	$32, %rax
	jae	.Lunix_path_BB77_68
.Lunix_path_BB77_64:
	xorl	%eax, %eax
.Lunix_path_BB77_77:
	movq	%rsi, %rdx
	movq	%rax, %rcx
	andq	$3, %rdx
	je	.Lunix_path_BB77_80
	movq	40(%rsp), %rcx
	leaq	(%rcx,%rax), %r8
	addq	%rbx, %r8
	addq	%rdi, %r8
	addq	160(%rsp), %r8
	xorl	%r9d, %r9d
	movq	%rax, %rcx
	.p2align	4
.Lunix_path_BB77_79:
	movzbl	(%r15,%rcx), %r10d
	movb	%r10b, (%r8,%r9)
	incq	%rcx
	incq	%r9
	cmpq	%r9, %rdx
	jne	.Lunix_path_BB77_79
.Lunix_path_BB77_80:
	subq	%rsi, %rax
	cmpq	$-4, %rax
	ja	.Lunix_path_BB77_83
	subq	%rcx, %rsi
	addq	%rcx, %rbp
	movq	48(%rsp), %rax
	addq	%rbp, %rax
	addq	$3, %rax
	movq	40(%rsp), %rdx
	addq	%rbx, %rdx
	addq	%rcx, %rdx
	addq	%rdi, %rdx
	movq	160(%rsp), %rcx
	addq	%rdx, %rcx
	addq	$3, %rcx
	xorl	%edx, %edx
	.p2align	4
.Lunix_path_BB77_82:
	movzbl	-3(%rax,%rdx), %r8d
	movb	%r8b, -3(%rcx,%rdx)
	movzbl	-2(%rax,%rdx), %r8d
	movb	%r8b, -2(%rcx,%rdx)
	movzbl	-1(%rax,%rdx), %r8d
	movb	%r8b, -1(%rcx,%rdx)
	movzbl	(%rax,%rdx), %r8d
	movb	%r8b, (%rcx,%rdx)
	addq	$4, %rdx
	cmpq	%rdx, %rsi
	jne	.Lunix_path_BB77_82
	jmp	.Lunix_path_BB77_83
.Lunix_path_BB77_65:
	movq	%r13, %rcx
	movq	%r15, %rdx
	movq	%rsi, %r8
	callq	memmove
.Lunix_path_BB77_83:
	movq	%r12, %rax
	addq	$56, %rsp
	popq	%rbx
	popq	%rbp
	popq	%rdi
	popq	%rsi
	popq	%r12
	popq	%r13
	popq	%r14
	popq	%r15
	retq
.Lunix_path_BB77_36:
	movq	%rdi, %rbx
	movq	%rdi, %rax
	jmp	.Lunix_path_BB77_38
	.p2align	4
.Lunix_path_BB77_37:
	movq	%rax, %rbx
	testq	%rax, %rax
	je	.Lunix_path_BB77_21
.Lunix_path_BB77_38:
	decq	%rax
	je	.Lunix_path_BB77_46
	movzbl	(%r14,%rax), %ecx
	cmpl	$47, %ecx
	je	.Lunix_path_BB77_42
	cmpl	$46, %ecx
	jne	.Lunix_path_BB77_22
	cmpb	$47, -1(%r14,%rax)
	jne	.Lunix_path_BB77_22
.Lunix_path_BB77_42:
	movq	%rdi, %rcx
	subq	%rax, %rcx
	cmpq	$8, %rcx
	jne	.Lunix_path_BB77_37
	movq	%r14, %rcx
	movq	%rax, %rdx
	callq	unix_path.filler.trimmed_blocks_len
	jmp	.Lunix_path_BB77_37
.Lunix_path_BB77_44:
	cmpq	$32, %rbx
	jae	.Lunix_path_BB77_47
	xorl	%eax, %eax
	jmp	.Lunix_path_BB77_51
.Lunix_path_BB77_68:
	cmpq	$32, %rsi
	jae	.Lunix_path_BB77_70
	xorl	%eax, %eax
	jmp	.Lunix_path_BB77_74
.Lunix_path_BB77_46:
	movl	$1, %ebx
	jmp	.Lunix_path_BB77_22
.Lunix_path_BB77_47:
	movq	%rbx, %rax
	andq	$-32, %rax
	movq	160(%rsp), %rcx
	movq	40(%rsp), %rdx
	addq	%rdx, %rcx
	addq	$16, %rcx
	xorl	%edx, %edx
	.p2align	4
.Lunix_path_BB77_48:
	movdqu	(%r14,%rdx), %xmm0
	movups	16(%r14,%rdx), %xmm1
	movdqu	%xmm0, -16(%rcx,%rdx)
	movups	%xmm1, (%rcx,%rdx)
	addq	$32, %rdx
	cmpq	%rdx, %rax
	jne	.Lunix_path_BB77_48
	cmpq	%rax, %rbx
	je	.Lunix_path_BB77_60
	testb	$28, %bl
	je	.Lunix_path_BB77_54
.Lunix_path_BB77_51:
	movq	%rax, %rcx
	movq	%rbx, %rax
	andq	$-4, %rax
	.p2align	4
.Lunix_path_BB77_52:
	movl	(%r14,%rcx), %edx
	movl	%edx, (%r13,%rcx)
	addq	$4, %rcx
	cmpq	%rcx, %rax
	jne	.Lunix_path_BB77_52
	cmpq	%rax, %rbx
	je	.Lunix_path_BB77_60
	jmp	.Lunix_path_BB77_54
.Lunix_path_BB77_70:
	movq	%rsi, %rax
	andq	$-32, %rax
	movq	48(%rsp), %rdx
	addq	%rbp, %rdx
	addq	$16, %rdx
	leaq	(%rcx,%rdi), %r8
	movq	160(%rsp), %r9
	addq	%r9, %r8
	addq	$16, %r8
	xorl	%r9d, %r9d
	.p2align	4
.Lunix_path_BB77_71:
	movdqu	-16(%rdx,%r9), %xmm0
	movups	(%rdx,%r9), %xmm1
	movdqu	%xmm0, -16(%r8,%r9)
	movups	%xmm1, (%r8,%r9)
	addq	$32, %r9
	cmpq	%r9, %rax
	jne	.Lunix_path_BB77_71
	cmpq	%rax, %rsi
	je	.Lunix_path_BB77_83
	testb	$28, %sil
	je	.Lunix_path_BB77_77
.Lunix_path_BB77_74:
	movq	%rax, %r9
	movq	%rsi, %rax
	andq	$-4, %rax
	movq	%rax, %rdx
	subq	%r9, %rdx
	leaq	(%r9,%rbp), %r8
	addq	48(%rsp), %r8
	addq	%r9, %rcx
	addq	%rdi, %rcx
	addq	160(%rsp), %rcx
	xorl	%r9d, %r9d
	.p2align	4
.Lunix_path_BB77_75:
	movl	(%r8,%r9), %r10d
	movl	%r10d, (%rcx,%r9)
	addq	$4, %r9
	cmpq	%r9, %rdx
	jne	.Lunix_path_BB77_75
	cmpq	%rax, %rsi
	je	.Lunix_path_BB77_83
	jmp	.Lunix_path_BB77_77
	.section	.rdata,"dr"
.Lunix_path_static.0:
.Lunix_path_static.5:
	.byte	46
.Lunix_path_static.8:
	.byte	47
.Lunix_path_static.9:
	.ascii	"./"
.Lunix_path_static.10:
	.zero	2,46
.Lunix_path_static.12:
	.ascii	"\357\277\275"
