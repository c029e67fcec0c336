# unix_path 1.1.0: the program upath, except support.c, for x86-64 Linux. Compiled from proved sources.
# tools/generate made this file. PROVED.txt has its SHA-256, and says what it was made from.
# Licensed under MIT or Apache-2.0.
	.section	.text.unlikely.std_alloc.vec.Vec.grow_amortized.482225946d19deb9.,"ax",@progbits
	.p2align	4
	.type	std_alloc.vec.Vec.grow_amortized.482225946d19deb9.,@function
# std_alloc::vec::Vec::grow_amortized::<#482225946d19deb9>
std_alloc.vec.Vec.grow_amortized.482225946d19deb9.:
	movq	%rsi, %rax
	movq	8(%rdi), %rsi
	addq	%rsi, %rax
	jae	.Lunix_path_BB0_2
	xorl	%eax, %eax
	retq
.Lunix_path_BB0_2:
	pushq	%r14
	pushq	%rbx
	pushq	%rax
	cmpq	$9, %rax
	movl	$8, %ebx
	cmovaeq	%rax, %rbx
	movq	16(%rdi), %rcx
	movq	%rcx, %rdx
	shrq	$62, %rdx
	leaq	(%rcx,%rcx), %rax
	cmpq	%rax, %rbx
	cmovaq	%rbx, %rax
	testq	%rdx, %rdx
	cmoveq	%rax, %rbx
	testq	%rbx, %rbx
	js	.Lunix_path_BB0_6
	testq	%rcx, %rcx
	je	.Lunix_path_BB0_8
	movq	%rdi, %r14
	movq	(%rdi), %rdi
	movl	$1, %ecx
	movq	%rbx, %rdx
	callq	rattle_realloc@PLT
	testb	$1, %al
	je	.Lunix_path_BB0_6
.Lunix_path_BB0_9:
	movq	%rdx, (%r14)
	movq	%rbx, 16(%r14)
	movb	$1, %al
	addq	$8, %rsp
	popq	%rbx
	popq	%r14
	retq
.Lunix_path_BB0_8:
	movq	%rdi, %r14
	movl	$1, %esi
	movq	%rax, %rdi
	callq	rattle_alloc@PLT
	testb	$1, %al
	jne	.Lunix_path_BB0_9
.Lunix_path_BB0_6:
	xorl	%eax, %eax
	addq	$8, %rsp
	popq	%rbx
	popq	%r14
	retq
.Lunix_path_func_end0:
	.size	std_alloc.vec.Vec.grow_amortized.482225946d19deb9., .Lunix_path_func_end0-std_alloc.vec.Vec.grow_amortized.482225946d19deb9.
	.section	.text.unlikely.std_alloc.vec.Vec.grow_amortized.22ca91936d612ecb.,"ax",@progbits
	.p2align	4
	.type	std_alloc.vec.Vec.grow_amortized.22ca91936d612ecb.,@function
# std_alloc::vec::Vec::grow_amortized::<#22ca91936d612ecb>
std_alloc.vec.Vec.grow_amortized.22ca91936d612ecb.:
	movq	8(%rdi), %rax
	cmpq	$-1, %rax
	je	.Lunix_path_BB1_5
	pushq	%r14
	pushq	%rbx
	pushq	%rax
	movq	16(%rdi), %rcx
	cmpq	$4, %rax
	movl	$3, %ebx
	cmovaeq	%rax, %rbx
	incq	%rbx
	movq	%rcx, %rsi
	shrq	$62, %rsi
	leaq	(%rcx,%rcx), %rdx
	cmpq	%rdx, %rbx
	cmovaq	%rbx, %rdx
	testq	%rsi, %rsi
	cmoveq	%rdx, %rbx
	movabsq	$384307168202282325, %rsi
	cmpq	%rsi, %rbx
	ja	.Lunix_path_BB1_6
	testq	%rcx, %rcx
	je	.Lunix_path_BB1_8
	movq	%rdi, %r14
	movq	(%rdi), %rdi
	shlq	$3, %rax
	leaq	(%rax,%rax,2), %rsi
	leaq	(,%rbx,8), %rax
	leaq	(%rax,%rax,2), %rdx
	movl	$8, %ecx
	callq	rattle_realloc@PLT
	testb	$1, %al
	je	.Lunix_path_BB1_6
.Lunix_path_BB1_9:
	movq	%rdx, (%r14)
	movq	%rbx, 16(%r14)
	movb	$1, %al
	addq	$8, %rsp
	popq	%rbx
	popq	%r14
	retq
.Lunix_path_BB1_5:
	xorl	%eax, %eax
	retq
.Lunix_path_BB1_8:
	movq	%rdi, %r14
	shlq	$3, %rdx
	leaq	(%rdx,%rdx,2), %rdi
	movl	$8, %esi
	callq	rattle_alloc@PLT
	testb	$1, %al
	jne	.Lunix_path_BB1_9
.Lunix_path_BB1_6:
	xorl	%eax, %eax
	addq	$8, %rsp
	popq	%rbx
	popq	%r14
	retq
.Lunix_path_func_end1:
	.size	std_alloc.vec.Vec.grow_amortized.22ca91936d612ecb., .Lunix_path_func_end1-std_alloc.vec.Vec.grow_amortized.22ca91936d612ecb.
	.section	.text.unlikely.std_alloc.vec.Vec.grow_amortized.a60b1bb647f5ec87.,"ax",@progbits
	.p2align	4
	.type	std_alloc.vec.Vec.grow_amortized.a60b1bb647f5ec87.,@function
# std_alloc::vec::Vec::grow_amortized::<#a60b1bb647f5ec87>
std_alloc.vec.Vec.grow_amortized.a60b1bb647f5ec87.:
	movq	%rsi, %rax
	movq	8(%rdi), %rsi
	addq	%rsi, %rax
	jae	.Lunix_path_BB2_2
	xorl	%eax, %eax
	retq
.Lunix_path_BB2_2:
	pushq	%r14
	pushq	%rbx
	pushq	%rax
	movq	16(%rdi), %rcx
	cmpq	$5, %rax
	movl	$4, %ebx
	cmovaeq	%rax, %rbx
	movq	%rcx, %rdx
	shrq	$62, %rdx
	leaq	(%rcx,%rcx), %rax
	cmpq	%rax, %rbx
	cmovaq	%rbx, %rax
	testq	%rdx, %rdx
	cmoveq	%rax, %rbx
	movq	%rbx, %rdx
	shrq	$59, %rdx
	jne	.Lunix_path_BB2_6
	testq	%rcx, %rcx
	je	.Lunix_path_BB2_8
	movq	%rdi, %r14
	movq	(%rdi), %rdi
	shlq	$4, %rsi
	movq	%rbx, %rdx
	shlq	$4, %rdx
	movl	$8, %ecx
	callq	rattle_realloc@PLT
	testb	$1, %al
	je	.Lunix_path_BB2_6
.Lunix_path_BB2_9:
	movq	%rdx, (%r14)
	movq	%rbx, 16(%r14)
	movb	$1, %al
	addq	$8, %rsp
	popq	%rbx
	popq	%r14
	retq
.Lunix_path_BB2_8:
	movq	%rdi, %r14
	shlq	$4, %rax
	movl	$8, %esi
	movq	%rax, %rdi
	callq	rattle_alloc@PLT
	testb	$1, %al
	jne	.Lunix_path_BB2_9
.Lunix_path_BB2_6:
	xorl	%eax, %eax
	addq	$8, %rsp
	popq	%rbx
	popq	%r14
	retq
.Lunix_path_func_end2:
	.size	std_alloc.vec.Vec.grow_amortized.a60b1bb647f5ec87., .Lunix_path_func_end2-std_alloc.vec.Vec.grow_amortized.a60b1bb647f5ec87.
	.section	.rodata.cst16,"aM",@progbits,16
	.p2align	4, 0x0
.Lunix_path_CPI3_0:
	.zero	16,61
.Lunix_path_CPI3_1:
	.zero	1
	.zero	1
	.zero	1
	.zero	1
	.zero	1
	.zero	1
	.byte	115
	.byte	115
	.zero	1
	.zero	1
	.zero	1
	.zero	1
	.zero	1
	.zero	1
	.zero	1
	.zero	1
.Lunix_path_CPI3_2:
	.zero	1
	.zero	1
	.zero	1
	.zero	1
	.byte	114
	.byte	114
	.zero	1
	.zero	1
	.zero	1
	.zero	1
	.zero	1
	.zero	1
	.zero	1
	.zero	1
	.zero	1
	.zero	1
.Lunix_path_CPI3_3:
	.zero	16,10
.Lunix_path_CPI3_4:
	.zero	16,34
.Lunix_path_CPI3_5:
	.zero	16,32
.Lunix_path_CPI3_6:
	.zero	16,47
.Lunix_path_CPI3_7:
	.zero	16,44
.Lunix_path_CPI3_8:
	.zero	16,45
.Lunix_path_CPI3_9:
	.zero	16,58
	.section	.text.upath_commands.runs.run_arguments.84bfbe5ddfee3cac.,"ax",@progbits
	.p2align	4
	.type	upath_commands.runs.run_arguments.84bfbe5ddfee3cac.,@function
# upath_commands::runs::run_arguments::<#84bfbe5ddfee3cac>
upath_commands.runs.run_arguments.84bfbe5ddfee3cac.:
	pushq	%rbp
	pushq	%r15
	pushq	%r14
	pushq	%r13
	pushq	%r12
	pushq	%rbx
	movq	%rsp, %r11
	subq	$64512, %r11
.Lunix_path_BB3_1:
	subq	$3072, %rsp
	movq	$0, (%rsp)
	cmpq	%r11, %rsp
	jne	.Lunix_path_BB3_1
	subq	$2232, %rsp
	movq	%r8, 96(%rsp)
	movq	%rcx, 440(%rsp)
	movq	(%rdx), %rbp
	movq	8(%rdx), %rax
	movq	%rax, 200(%rsp)
	movq	16(%rdx), %rax
	movq	%rax, 88(%rsp)
	movq	24(%rdx), %rax
	movq	%rax, 64(%rsp)
	movq	32(%rdx), %rax
	movq	%rax, 104(%rsp)
	movq	40(%rdx), %rax
	movq	%rax, 80(%rsp)
	pxor	%xmm0, %xmm0
	movdqa	%xmm0, 768(%rsp)
	movdqa	%xmm0, 752(%rsp)
	movdqa	%xmm0, 736(%rsp)
	movdqa	%xmm0, 720(%rsp)
	movdqa	%xmm0, 704(%rsp)
	movdqa	%xmm0, 688(%rsp)
	movdqa	%xmm0, 816(%rsp)
	movdqa	%xmm0, 832(%rsp)
	movq	$0, 848(%rsp)
	movdqa	%xmm0, 656(%rsp)
	movq	$0, 672(%rsp)
	movdqa	%xmm0, 784(%rsp)
	movq	$0, 800(%rsp)
	movdqa	%xmm0, 608(%rsp)
	movdqa	%xmm0, 624(%rsp)
	movq	$0, 640(%rsp)
	movdqa	%xmm0, 464(%rsp)
	movq	$0, 480(%rsp)
	testq	%rsi, %rsi
	movq	%rbp, 40(%rsp)
	je	.Lunix_path_BB3_12
	movq	%rsi, %r12
	movq	%rdi, %r15
	movq	(%rdi), %rdi
	movq	8(%r15), %rsi
	cmpq	$4, %rsi
	jne	.Lunix_path_BB3_8
	cmpl	$1886152040, (%rdi)
	jne	.Lunix_path_BB3_8
	leaq	.Lunix_path_static.4(%rip), %rdx
	movq	%rsi, %rbx
	movl	$4, %esi
	movq	%rdi, %r14
	callq	core.cmp.slices.groups_equal.i8.31.core.cmp.numbers.U8PartialEq.
	movq	%rbx, %rsi
	movq	%r14, %rdi
	testb	%al, %al
	je	.Lunix_path_BB3_8
	cmpq	$1, %r12
	jne	.Lunix_path_BB3_144
	leaq	.Lunix_path_static.5(%rip), %r13
	xorl	%ebp, %ebp
	jmp	.Lunix_path_BB3_11
.Lunix_path_BB3_8:
	callq	upath_commands.options.request_by_word
	movzbl	%dl, %ecx
	xorl	%ebp, %ebp
	testb	$1, %al
	cmovnel	%ecx, %ebp
	cmpb	$1, %al
	jne	.Lunix_path_BB3_13
	cmpq	$1, %r12
	jne	.Lunix_path_BB3_141
	xorl	%r13d, %r13d
	testb	%bpl, %bpl
	leaq	.Lunix_path_static.5(%rip), %rax
	cmoveq	%rax, %r13
.Lunix_path_BB3_11:
	pxor	%xmm0, %xmm0
	movdqa	%xmm0, 1216(%rsp)
	movdqa	%xmm0, 1200(%rsp)
	movq	$0, 1232(%rsp)
	movdqa	%xmm0, 336(%rsp)
	movq	$0, 352(%rsp)
	xorl	%r15d, %r15d
	xorl	%r14d, %r14d
	jmp	.Lunix_path_BB3_149
.Lunix_path_BB3_12:
	movdqa	%xmm0, 880(%rsp)
	movdqa	%xmm0, 864(%rsp)
	movq	$0, 896(%rsp)
	movdqa	%xmm0, 912(%rsp)
	movq	$0, 928(%rsp)
	leaq	16(%rsp), %rax
	movq	%rax, 1200(%rsp)
	movdqu	%xmm0, 1208(%rsp)
	xorl	%r15d, %r15d
	jmp	.Lunix_path_BB3_155
.Lunix_path_BB3_13:
	pxor	%xmm0, %xmm0
	movdqa	%xmm0, 880(%rsp)
	movdqa	%xmm0, 864(%rsp)
	movq	$0, 896(%rsp)
	movdqa	%xmm0, 912(%rsp)
	movq	$0, 928(%rsp)
	leaq	16(%rsp), %rax
	movq	%rax, 1200(%rsp)
	movdqu	%xmm0, 1208(%rsp)
	leaq	-1(%r12), %rbx
	leaq	24(%r15), %r13
	xorl	%eax, %eax
	xorl	%ebp, %ebp
	xorl	%r14d, %r14d
	movq	%r12, 24(%rsp)
	movq	%r15, 72(%rsp)
	.p2align	4
.Lunix_path_BB3_14:
	movq	%r14, %rcx
	shlq	$4, %rcx
	movq	(%r15,%rcx), %rdi
	movq	8(%r15,%rcx), %rsi
	cmpb	$1, %al
	jne	.Lunix_path_BB3_17
	movq	1208(%rsp), %rax
	cmpq	%rax, 1216(%rsp)
	je	.Lunix_path_BB3_70
.Lunix_path_BB3_16:
	movq	1200(%rsp), %rcx
	leaq	(%rax,%rax,2), %rdx
	movb	$3, (%rcx,%rdx,8)
	movb	%bpl, 1(%rcx,%rdx,8)
	movq	%rdi, 8(%rcx,%rdx,8)
	movq	%rsi, 16(%rcx,%rdx,8)
	incq	%rax
	movq	%rax, 1208(%rsp)
	jmp	.Lunix_path_BB3_122
	.p2align	4
.Lunix_path_BB3_17:
	cmpq	$2, %rsi
	movq	%rdi, 8(%rsp)
	jne	.Lunix_path_BB3_20
	cmpb	$45, (%rdi)
	jne	.Lunix_path_BB3_20
	cmpb	$45, 1(%rdi)
	je	.Lunix_path_BB3_153
.Lunix_path_BB3_20:
	movq	%rsi, %r15
	callq	upath_commands.options.request_by_word
	cmpb	$1, %al
	jne	.Lunix_path_BB3_23
	movq	1208(%rsp), %rax
	cmpq	%rax, 1216(%rsp)
	je	.Lunix_path_BB3_72
.Lunix_path_BB3_22:
	movq	1200(%rsp), %rcx
	leaq	(%rax,%rax,2), %rsi
	movb	$4, (%rcx,%rsi,8)
	movb	%dl, 1(%rcx,%rsi,8)
	movq	8(%rsp), %rdi
	movq	%rdi, 8(%rcx,%rsi,8)
	movq	%r15, %r10
	movq	%r15, 16(%rcx,%rsi,8)
	jmp	.Lunix_path_BB3_112
	.p2align	4
.Lunix_path_BB3_23:
	cmpq	$2, %r15
	movq	8(%rsp), %rdi
	movq	%r15, %r10
	jae	.Lunix_path_BB3_26
.Lunix_path_BB3_24:
	movq	1208(%rsp), %rax
	cmpq	%rax, 1216(%rsp)
	je	.Lunix_path_BB3_75
.Lunix_path_BB3_25:
	movq	1200(%rsp), %rcx
	leaq	(%rax,%rax,2), %rdx
	movw	$0, (%rcx,%rdx,8)
	jmp	.Lunix_path_BB3_111
.Lunix_path_BB3_26:
	movzbl	(%rdi), %eax
	cmpb	$45, %al
	jne	.Lunix_path_BB3_34
	cmpb	$45, 1(%rdi)
	jne	.Lunix_path_BB3_34
	leaq	2(%rdi), %r8
	leaq	-2(%r10), %rbp
	cmpq	$15, %rbp
	ja	.Lunix_path_BB3_61
	testq	%rbp, %rbp
	je	.Lunix_path_BB3_109
	xorl	%r12d, %r12d
	.p2align	4
.Lunix_path_BB3_31:
	cmpb	$61, (%r8,%r12)
	je	.Lunix_path_BB3_66
	incq	%r12
	cmpq	%r12, %rbp
	jne	.Lunix_path_BB3_31
	movq	%rbp, %r12
	leaq	-2(%r12), %rax
	cmpq	$11, %rax
	jbe	.Lunix_path_BB3_67
	jmp	.Lunix_path_BB3_109
.Lunix_path_BB3_34:
	cmpb	$45, %al
	jne	.Lunix_path_BB3_24
	leaq	1(%rdi), %r12
	leaq	-1(%r10), %r15
	movq	%r10, 48(%rsp)
	jmp	.Lunix_path_BB3_40
.Lunix_path_BB3_36:
	movb	$14, %bpl
	.p2align	4
.Lunix_path_BB3_37:
	movq	1208(%rsp), %rax
	cmpq	%rax, 1216(%rsp)
	je	.Lunix_path_BB3_57
.Lunix_path_BB3_38:
	movq	1200(%rsp), %rcx
	leaq	(%rax,%rax,2), %rdx
	movb	$2, (%rcx,%rdx,8)
	movb	%bpl, 1(%rcx,%rdx,8)
	movq	%r12, 8(%rcx,%rdx,8)
	movq	$1, 16(%rcx,%rdx,8)
.Lunix_path_BB3_39:
	incq	%rax
	movq	%rax, 1208(%rsp)
	incq	%r12
	decq	%r15
	je	.Lunix_path_BB3_113
.Lunix_path_BB3_40:
	movzbl	(%r12), %eax
	addl	$-98, %eax
	cmpl	$24, %eax
	ja	.Lunix_path_BB3_43
	leaq	.Lunix_path_JTI3_0(%rip), %rcx
	movslq	(%rcx,%rax,4), %rax
	addq	%rcx, %rax
	jmpq	*%rax
.Lunix_path_BB3_42:
	movb	$4, %bpl
	jmp	.Lunix_path_BB3_37
.Lunix_path_BB3_43:
	movl	$1, %ebp
	movl	$1, %esi
	movq	%r12, %rdi
	xorl	%edx, %edx
	callq	unix_bytes.utf8.scans.scan_by_sequence
	testq	%rax, %rax
	jne	.Lunix_path_BB3_47
	cmpq	$2, %r15
	movl	$2, %ebp
	cmovbq	%r15, %rbp
	movq	%r12, %rdi
	movq	%rbp, %rsi
	xorl	%edx, %edx
	callq	unix_bytes.utf8.scans.scan_by_sequence
	cmpq	%rbp, %rax
	movl	$2, %ebp
	jae	.Lunix_path_BB3_47
	cmpq	$3, %r15
	movl	$3, %ebp
	cmovbq	%r15, %rbp
	movq	%r12, %rdi
	movq	%rbp, %rsi
	xorl	%edx, %edx
	callq	unix_bytes.utf8.scans.scan_by_sequence
	cmpq	%rbp, %rax
	movl	$3, %ebp
	jae	.Lunix_path_BB3_47
	cmpq	$4, %r15
	movl	$4, %ebp
	cmovbq	%r15, %rbp
	movq	%r12, %rdi
	movq	%rbp, %rsi
	xorl	%edx, %edx
	callq	unix_bytes.utf8.scans.scan_by_sequence
	xorl	%ecx, %ecx
	cmpq	%rbp, %rax
	setae	%cl
	leaq	(%rcx,%rcx,2), %rbp
	incq	%rbp
.Lunix_path_BB3_47:
	cmpq	%r15, %rbp
	jb	.Lunix_path_BB3_49
	movq	%r15, %rbp
.Lunix_path_BB3_49:
	movq	1208(%rsp), %rax
	cmpq	%rax, 1216(%rsp)
	movq	8(%rsp), %rdi
	movq	48(%rsp), %r10
	je	.Lunix_path_BB3_59
.Lunix_path_BB3_50:
	movq	1200(%rsp), %rcx
	leaq	(%rax,%rax,2), %rdx
	movw	$773, (%rcx,%rdx,8)
	movq	%r12, 8(%rcx,%rdx,8)
	movq	%rbp, 16(%rcx,%rdx,8)
	jmp	.Lunix_path_BB3_39
.Lunix_path_BB3_51:
	movb	$13, %bpl
	jmp	.Lunix_path_BB3_37
.Lunix_path_BB3_52:
	movb	$9, %bpl
	jmp	.Lunix_path_BB3_37
.Lunix_path_BB3_53:
	xorl	%ebp, %ebp
	jmp	.Lunix_path_BB3_37
.Lunix_path_BB3_54:
	movb	$1, %bpl
	jmp	.Lunix_path_BB3_37
.Lunix_path_BB3_55:
	movb	$2, %bpl
	jmp	.Lunix_path_BB3_37
.Lunix_path_BB3_56:
	movb	$15, %bpl
	jmp	.Lunix_path_BB3_37
.Lunix_path_BB3_57:
	leaq	1200(%rsp), %rdi
	callq	std_alloc.vec.Vec.grow_amortized.22ca91936d612ecb.
	movq	48(%rsp), %r10
	movq	8(%rsp), %rdi
	testb	%al, %al
	je	.Lunix_path_BB3_958
	movq	1208(%rsp), %rax
	jmp	.Lunix_path_BB3_38
.Lunix_path_BB3_59:
	leaq	1200(%rsp), %rdi
	callq	std_alloc.vec.Vec.grow_amortized.22ca91936d612ecb.
	movq	48(%rsp), %r10
	movq	8(%rsp), %rdi
	testb	%al, %al
	je	.Lunix_path_BB3_958
	movq	1208(%rsp), %rax
	jmp	.Lunix_path_BB3_50
.Lunix_path_BB3_61:
	movq	%r10, %rax
	addq	$-18, %rax
	je	.Lunix_path_BB3_65
	xorl	%ecx, %ecx
	.p2align	4
.Lunix_path_BB3_63:
	movdqu	(%r8,%rcx), %xmm0
	pcmpeqb	.Lunix_path_CPI3_0(%rip), %xmm0
	pmovmskb	%xmm0, %edx
	orl	$65536, %edx
	rep		bsfl	%edx, %edx
	cmpw	$15, %dx
	jbe	.Lunix_path_BB3_74
	addq	$16, %rcx
	cmpq	%rax, %rcx
	jb	.Lunix_path_BB3_63
.Lunix_path_BB3_65:
	movdqu	(%r8,%rax), %xmm0
	pcmpeqb	.Lunix_path_CPI3_0(%rip), %xmm0
	pmovmskb	%xmm0, %ecx
	orl	$65536, %ecx
	rep		bsfl	%ecx, %r12d
	addq	%rax, %r12
.Lunix_path_BB3_66:
	leaq	-2(%r12), %rax
	cmpq	$11, %rax
	ja	.Lunix_path_BB3_109
.Lunix_path_BB3_67:
	leaq	.Lunix_path_JTI3_1(%rip), %rcx
	movslq	(%rcx,%rax,4), %rax
	addq	%rcx, %rax
	jmpq	*%rax
.Lunix_path_BB3_68:
	cmpb	$111, (%r8)
	jne	.Lunix_path_BB3_109
	movb	$3, %r9b
	cmpb	$114, 3(%rdi)
	je	.Lunix_path_BB3_106
	jmp	.Lunix_path_BB3_109
.Lunix_path_BB3_70:
	movq	%rsi, 48(%rsp)
	movq	%rdi, 8(%rsp)
	leaq	1200(%rsp), %rdi
	callq	std_alloc.vec.Vec.grow_amortized.22ca91936d612ecb.
	testb	%al, %al
	je	.Lunix_path_BB3_958
	movq	1208(%rsp), %rax
	movq	8(%rsp), %rdi
	movq	48(%rsp), %rsi
	jmp	.Lunix_path_BB3_16
.Lunix_path_BB3_72:
	movl	%edx, %ebp
	leaq	1200(%rsp), %rdi
	callq	std_alloc.vec.Vec.grow_amortized.22ca91936d612ecb.
	testb	%al, %al
	je	.Lunix_path_BB3_958
	movq	1208(%rsp), %rax
	movl	%ebp, %edx
	jmp	.Lunix_path_BB3_22
.Lunix_path_BB3_74:
	movzwl	%dx, %r12d
	addq	%rcx, %r12
	leaq	-2(%r12), %rax
	cmpq	$11, %rax
	jbe	.Lunix_path_BB3_67
	jmp	.Lunix_path_BB3_109
.Lunix_path_BB3_75:
	leaq	1200(%rsp), %rdi
	movq	%r10, %r15
	callq	std_alloc.vec.Vec.grow_amortized.22ca91936d612ecb.
	movq	8(%rsp), %rdi
	testb	%al, %al
	je	.Lunix_path_BB3_958
	movq	%r15, %r10
	movq	1208(%rsp), %rax
	jmp	.Lunix_path_BB3_25
.Lunix_path_BB3_77:
	movl	(%r8), %eax
	cmpl	$1651664246, %eax
	je	.Lunix_path_BB3_103
	movd	%eax, %xmm0
	pshuflw	$85, %xmm0, %xmm1
	pcmpeqb	.Lunix_path_CPI3_2(%rip), %xmm1
	pcmpeqd	%xmm2, %xmm2
	pxor	%xmm1, %xmm2
	movzbl	(%r8), %eax
	movdqa	%xmm0, 1136(%rsp)
	pextrw	$2, %xmm2, %ecx
	testb	$1, %cl
	jne	.Lunix_path_BB3_109
	cmpb	$116, %al
	jne	.Lunix_path_BB3_109
	cmpb	$97, 1137(%rsp)
	jne	.Lunix_path_BB3_109
	cmpb	$45, 1139(%rsp)
	jne	.Lunix_path_BB3_109
	leaq	.Lunix_path_static.40(%rip), %rdx
	movq	%r10, 48(%rsp)
	movl	$8, %esi
	movq	%r8, %rdi
	movq	%r8, %r15
	callq	core.cmp.slices.groups_equal.i8.31.core.cmp.numbers.U8PartialEq.
	movq	%r15, %r8
	movq	48(%rsp), %r10
	movq	8(%rsp), %rdi
	movb	$17, %r9b
	jmp	.Lunix_path_BB3_105
.Lunix_path_BB3_83:
	movzbl	2(%rdi), %eax
	movzbl	3(%rdi), %edx
	movb	%al, 22(%rsp)
	xorb	$110, %al
	movl	%edx, %ecx
	xorb	$117, %cl
	orb	%al, %cl
	movzbl	4(%rdi), %r11d
	movl	%r11d, %eax
	xorb	$108, %al
	orb	%cl, %al
	movzbl	5(%rdi), %r15d
	movl	%r15d, %ecx
	xorb	$108, %cl
	orb	%al, %cl
	movq	%r10, 48(%rsp)
	jne	.Lunix_path_BB3_99
	movb	%dl, 21(%rsp)
	leaq	.Lunix_path_static.30(%rip), %rdx
	movl	$4, %esi
	movq	%r8, %rdi
	movq	%r8, 32(%rsp)
	movb	%r15b, 23(%rsp)
	movb	%r11b, 20(%rsp)
	callq	core.cmp.slices.groups_equal.i8.31.core.cmp.numbers.U8PartialEq.
	movzbl	20(%rsp), %r11d
	movzbl	23(%rsp), %r15d
	movzbl	21(%rsp), %edx
	movq	32(%rsp), %r8
	movq	48(%rsp), %r10
	movq	8(%rsp), %rdi
	testb	%al, %al
	je	.Lunix_path_BB3_99
	xorl	%r9d, %r9d
	jmp	.Lunix_path_BB3_106
.Lunix_path_BB3_86:
	cmpl	$1663924578, (%r8)
	jne	.Lunix_path_BB3_109
	leaq	.Lunix_path_static.41(%rip), %rdx
	movq	%r10, 48(%rsp)
	movl	$13, %esi
	movq	%r8, %rdi
	movq	%r8, %r15
	callq	core.cmp.slices.groups_equal.i8.31.core.cmp.numbers.U8PartialEq.
	movq	%r15, %r8
	movq	48(%rsp), %r10
	movq	8(%rsp), %rdi
	movb	$12, %r9b
	jmp	.Lunix_path_BB3_105
.Lunix_path_BB3_88:
	movzbl	2(%rdi), %esi
	movzbl	3(%rdi), %edx
	movl	%esi, %eax
	xorb	$113, %al
	movl	%edx, %ecx
	xorb	$117, %cl
	orb	%al, %cl
	movzbl	4(%rdi), %r15d
	movl	%r15d, %eax
	xorb	$105, %al
	orb	%cl, %al
	movzbl	5(%rdi), %r11d
	movl	%r11d, %ecx
	xorb	$101, %cl
	orb	%al, %cl
	jne	.Lunix_path_BB3_90
	movb	%dl, 22(%rsp)
	leaq	.Lunix_path_static.32(%rip), %rdx
	movq	%r10, 48(%rsp)
	movb	%sil, 21(%rsp)
	movl	$5, %esi
	movq	%r8, %rdi
	movq	%r8, 32(%rsp)
	movb	%r11b, 20(%rsp)
	callq	core.cmp.slices.groups_equal.i8.31.core.cmp.numbers.U8PartialEq.
	movzbl	20(%rsp), %r11d
	movzbl	21(%rsp), %esi
	movzbl	22(%rsp), %edx
	movq	32(%rsp), %r8
	movq	48(%rsp), %r10
	movq	8(%rsp), %rdi
	movb	$2, %r9b
	testb	%al, %al
	jne	.Lunix_path_BB3_106
.Lunix_path_BB3_90:
	xorb	$115, %sil
	xorb	$116, %dl
	orb	%sil, %dl
	xorb	$114, %r15b
	orb	%dl, %r15b
	xorb	$105, %r11b
	orb	%r15b, %r11b
	jne	.Lunix_path_BB3_109
	leaq	.Lunix_path_static.19(%rip), %rdx
	movq	%r10, 48(%rsp)
	movl	$5, %esi
	movq	%r8, %rdi
	movq	%r8, %r15
	callq	core.cmp.slices.groups_equal.i8.31.core.cmp.numbers.U8PartialEq.
	movq	%r15, %r8
	movq	48(%rsp), %r10
	movq	8(%rsp), %rdi
	movb	$11, %r9b
	jmp	.Lunix_path_BB3_105
.Lunix_path_BB3_92:
	movl	(%r8), %eax
	cmpl	$1935762802, %eax
	je	.Lunix_path_BB3_104
	movd	%eax, %xmm0
	movzbl	(%r8), %eax
	movdqa	%xmm0, 1152(%rsp)
	psllq	$24, %xmm0
	pcmpeqb	.Lunix_path_CPI3_1(%rip), %xmm0
	pcmpeqd	%xmm1, %xmm1
	pxor	%xmm0, %xmm1
	xorb	$99, %al
	movzbl	1153(%rsp), %ecx
	movzbl	1154(%rsp), %edx
	xorb	$108, %cl
	orb	%al, %cl
	xorb	$111, %dl
	orb	%cl, %dl
	setne	%al
	pextrw	$3, %xmm1, %ecx
	orb	%al, %cl
	testb	$1, %cl
	jne	.Lunix_path_BB3_109
	leaq	.Lunix_path_static.39(%rip), %rdx
	movq	%r10, 48(%rsp)
	movl	$6, %esi
	movq	%r8, %rdi
	movq	%r8, %r15
	callq	core.cmp.slices.groups_equal.i8.31.core.cmp.numbers.U8PartialEq.
	movq	%r15, %r8
	movq	48(%rsp), %r10
	movq	8(%rsp), %rdi
	movb	$16, %r9b
	jmp	.Lunix_path_BB3_105
.Lunix_path_BB3_95:
	movzbl	2(%rdi), %esi
	movzbl	3(%rdi), %edx
	movl	%esi, %eax
	xorb	$98, %al
	movl	%edx, %ecx
	xorb	$101, %cl
	orb	%al, %cl
	movzbl	4(%rdi), %r15d
	movl	%r15d, %eax
	xorb	$110, %al
	orb	%cl, %al
	movzbl	5(%rdi), %r11d
	movl	%r11d, %ecx
	xorb	$101, %cl
	orb	%al, %cl
	jne	.Lunix_path_BB3_97
	movb	%dl, 22(%rsp)
	leaq	.Lunix_path_static.34(%rip), %rdx
	movq	%r10, 48(%rsp)
	movb	%sil, 21(%rsp)
	movl	$7, %esi
	movq	%r8, %rdi
	movq	%r8, 32(%rsp)
	movb	%r11b, 20(%rsp)
	callq	core.cmp.slices.groups_equal.i8.31.core.cmp.numbers.U8PartialEq.
	movzbl	20(%rsp), %r11d
	movzbl	21(%rsp), %esi
	movzbl	22(%rsp), %edx
	movq	32(%rsp), %r8
	movq	48(%rsp), %r10
	movq	8(%rsp), %rdi
	movb	$5, %r9b
	testb	%al, %al
	jne	.Lunix_path_BB3_106
.Lunix_path_BB3_97:
	xorb	$105, %sil
	xorb	$110, %dl
	orb	%sil, %dl
	xorb	$45, %r15b
	orb	%dl, %r15b
	xorb	$114, %r11b
	orb	%r15b, %r11b
	jne	.Lunix_path_BB3_109
	leaq	.Lunix_path_static.35(%rip), %rdx
	movq	%r10, 48(%rsp)
	movl	$7, %esi
	movq	%r8, %rdi
	movq	%r8, %r15
	callq	core.cmp.slices.groups_equal.i8.31.core.cmp.numbers.U8PartialEq.
	movq	%r15, %r8
	movq	48(%rsp), %r10
	movq	8(%rsp), %rdi
	movb	$6, %r9b
	jmp	.Lunix_path_BB3_105
.Lunix_path_BB3_99:
	movzbl	22(%rsp), %eax
	xorb	$112, %al
	movl	%edx, %ecx
	xorb	$97, %cl
	orb	%al, %cl
	movl	%r11d, %eax
	xorb	$105, %al
	orb	%cl, %al
	movl	%r15d, %ecx
	xorb	$114, %cl
	orb	%al, %cl
	jne	.Lunix_path_BB3_101
	movb	%dl, 21(%rsp)
	leaq	.Lunix_path_static.31(%rip), %rdx
	movl	$4, %esi
	movq	%r8, %rdi
	movq	%r8, 32(%rsp)
	movb	%r15b, 23(%rsp)
	movb	%r11b, 20(%rsp)
	callq	core.cmp.slices.groups_equal.i8.31.core.cmp.numbers.U8PartialEq.
	movzbl	20(%rsp), %r11d
	movzbl	23(%rsp), %r15d
	movzbl	21(%rsp), %edx
	movq	32(%rsp), %r8
	movq	48(%rsp), %r10
	movq	8(%rsp), %rdi
	movb	$1, %r9b
	testb	%al, %al
	jne	.Lunix_path_BB3_106
.Lunix_path_BB3_101:
	movzbl	22(%rsp), %eax
	xorb	$102, %al
	xorb	$114, %dl
	orb	%al, %dl
	xorb	$111, %r11b
	orb	%dl, %r11b
	xorb	$109, %r15b
	orb	%r11b, %r15b
	jne	.Lunix_path_BB3_109
	leaq	.Lunix_path_static.37(%rip), %rdx
	movl	$4, %esi
	movq	%r8, %rdi
	movq	%r8, %r15
	callq	core.cmp.slices.groups_equal.i8.31.core.cmp.numbers.U8PartialEq.
	movq	%r15, %r8
	movq	48(%rsp), %r10
	movq	8(%rsp), %rdi
	movb	$8, %r9b
	jmp	.Lunix_path_BB3_105
.Lunix_path_BB3_103:
	leaq	.Lunix_path_static.36(%rip), %rdx
	movq	%r10, 48(%rsp)
	movl	$8, %esi
	movq	%r8, %rdi
	movq	%r8, %r15
	callq	core.cmp.slices.groups_equal.i8.31.core.cmp.numbers.U8PartialEq.
	movq	%r15, %r8
	movq	48(%rsp), %r10
	movq	8(%rsp), %rdi
	movb	$7, %r9b
	jmp	.Lunix_path_BB3_105
.Lunix_path_BB3_104:
	leaq	.Lunix_path_static.38(%rip), %rdx
	movq	%r10, 48(%rsp)
	movl	$6, %esi
	movq	%r8, %rdi
	movq	%r8, %r15
	callq	core.cmp.slices.groups_equal.i8.31.core.cmp.numbers.U8PartialEq.
	movq	%r15, %r8
	movq	48(%rsp), %r10
	movq	8(%rsp), %rdi
	movb	$10, %r9b
.Lunix_path_BB3_105:
	testb	%al, %al
	je	.Lunix_path_BB3_109
.Lunix_path_BB3_106:
	movq	1208(%rsp), %rax
	movq	1216(%rsp), %rcx
	cmpq	%rbp, %r12
	jne	.Lunix_path_BB3_124
	cmpq	%rax, %rcx
	je	.Lunix_path_BB3_131
.Lunix_path_BB3_108:
	movq	1200(%rsp), %rcx
	leaq	(%rax,%rax,2), %rdx
	movb	$2, (%rcx,%rdx,8)
	movb	%r9b, 1(%rcx,%rdx,8)
	jmp	.Lunix_path_BB3_111
.Lunix_path_BB3_109:
	movq	1208(%rsp), %rax
	cmpq	%rax, 1216(%rsp)
	je	.Lunix_path_BB3_127
.Lunix_path_BB3_110:
	movq	1200(%rsp), %rcx
	leaq	(%rax,%rax,2), %rdx
	movw	$517, (%rcx,%rdx,8)
.Lunix_path_BB3_111:
	movq	%rdi, 8(%rcx,%rdx,8)
	movq	%r10, 16(%rcx,%rdx,8)
.Lunix_path_BB3_112:
	incq	%rax
	movq	%rax, 1208(%rsp)
.Lunix_path_BB3_113:
	cmpq	$4, %r10
	movq	72(%rsp), %r15
	je	.Lunix_path_BB3_118
	cmpq	$6, %r10
	movq	24(%rsp), %r12
	jne	.Lunix_path_BB3_121
	cmpl	$1919298861, (%rdi)
	jne	.Lunix_path_BB3_121
	leaq	.Lunix_path_static.42(%rip), %rdx
	movl	$6, %esi
	callq	core.cmp.slices.groups_equal.i8.31.core.cmp.numbers.U8PartialEq.
	testb	%al, %al
	je	.Lunix_path_BB3_121
	movb	$1, %al
	movb	$8, %bpl
	jmp	.Lunix_path_BB3_123
.Lunix_path_BB3_118:
	cmpl	$1919888685, (%rdi)
	movq	24(%rsp), %r12
	jne	.Lunix_path_BB3_121
	leaq	.Lunix_path_static.43(%rip), %rdx
	movl	$4, %esi
	callq	core.cmp.slices.groups_equal.i8.31.core.cmp.numbers.U8PartialEq.
	testb	%al, %al
	je	.Lunix_path_BB3_121
	movb	$1, %al
	movb	$3, %bpl
	jmp	.Lunix_path_BB3_123
	.p2align	4
.Lunix_path_BB3_121:
	xorl	%ebp, %ebp
.Lunix_path_BB3_122:
	xorl	%eax, %eax
.Lunix_path_BB3_123:
	incq	%r14
	decq	%rbx
	addq	$16, %r13
	cmpq	%r12, %r14
	jne	.Lunix_path_BB3_14
	jmp	.Lunix_path_BB3_137
.Lunix_path_BB3_124:
	movzbl	%r9b, %esi
	movl	$261879, %edx
	btl	%esi, %edx
	jae	.Lunix_path_BB3_129
	cmpq	%rax, %rcx
	je	.Lunix_path_BB3_133
.Lunix_path_BB3_126:
	movq	1200(%rsp), %rcx
	leaq	(%rax,%rax,2), %rdx
	movw	$1541, (%rcx,%rdx,8)
	jmp	.Lunix_path_BB3_111
.Lunix_path_BB3_127:
	leaq	1200(%rsp), %rdi
	movq	%r10, %r15
	callq	std_alloc.vec.Vec.grow_amortized.22ca91936d612ecb.
	movq	8(%rsp), %rdi
	testb	%al, %al
	je	.Lunix_path_BB3_958
	movq	%r15, %r10
	movq	1208(%rsp), %rax
	jmp	.Lunix_path_BB3_110
.Lunix_path_BB3_129:
	cmpq	%rax, %rcx
	je	.Lunix_path_BB3_135
.Lunix_path_BB3_130:
	movq	1200(%rsp), %rcx
	leaq	(%rax,%rax,2), %rdx
	movb	$2, (%rcx,%rdx,8)
	movb	%sil, 1(%rcx,%rdx,8)
	movq	%rdi, 8(%rcx,%rdx,8)
	movq	%r10, 16(%rcx,%rdx,8)
	incq	%rax
	movq	%rax, 1208(%rsp)
	leaq	(%r8,%r12), %rdx
	incq	%rdx
	incq	%r12
	subq	%r12, %rbp
	leaq	1200(%rsp), %r8
	movl	$3, %edi
	movq	%r10, %r15
	movq	%rbp, %rcx
	callq	upath_commands.items.push_item
	movq	%r15, %r10
	movq	8(%rsp), %rdi
	testb	%al, %al
	je	.Lunix_path_BB3_113
	jmp	.Lunix_path_BB3_958
.Lunix_path_BB3_131:
	movl	%r9d, %ebp
	leaq	1200(%rsp), %rdi
	movq	%r10, %r15
	callq	std_alloc.vec.Vec.grow_amortized.22ca91936d612ecb.
	movq	8(%rsp), %rdi
	testb	%al, %al
	je	.Lunix_path_BB3_958
	movq	%r15, %r10
	movq	1208(%rsp), %rax
	movl	%ebp, %r9d
	jmp	.Lunix_path_BB3_108
.Lunix_path_BB3_133:
	leaq	1200(%rsp), %rdi
	movq	%r10, %r15
	callq	std_alloc.vec.Vec.grow_amortized.22ca91936d612ecb.
	movq	8(%rsp), %rdi
	testb	%al, %al
	je	.Lunix_path_BB3_958
	movq	%r15, %r10
	movq	1208(%rsp), %rax
	jmp	.Lunix_path_BB3_126
.Lunix_path_BB3_135:
	movl	%esi, 32(%rsp)
	movq	%r8, %r15
	leaq	1200(%rsp), %rdi
	movq	%r10, 48(%rsp)
	callq	std_alloc.vec.Vec.grow_amortized.22ca91936d612ecb.
	movq	48(%rsp), %r10
	movq	8(%rsp), %rdi
	testb	%al, %al
	je	.Lunix_path_BB3_958
	movq	1208(%rsp), %rax
	movq	%r15, %r8
	movl	32(%rsp), %esi
	jmp	.Lunix_path_BB3_130
.Lunix_path_BB3_137:
	testb	%al, %al
	je	.Lunix_path_BB3_143
	movq	1208(%rsp), %r15
	movq	1216(%rsp), %rax
	cmpb	$3, %bpl
	jne	.Lunix_path_BB3_151
	cmpq	%r15, %rax
	je	.Lunix_path_BB3_257
.Lunix_path_BB3_140:
	movq	1200(%rsp), %rax
	leaq	(%r15,%r15,2), %rcx
	movw	$1285, (%rax,%rcx,8)
	leaq	.Lunix_path_static.43(%rip), %rdx
	movq	%rdx, 8(%rax,%rcx,8)
	movq	$4, 16(%rax,%rcx,8)
	incq	%r15
	jmp	.Lunix_path_BB3_155
.Lunix_path_BB3_141:
	testb	%bpl, %bpl
	je	.Lunix_path_BB3_144
	xorl	%r13d, %r13d
	movl	%edx, %ebp
	xorl	%r14d, %r14d
	jmp	.Lunix_path_BB3_147
.Lunix_path_BB3_143:
	movq	1208(%rsp), %r15
	jmp	.Lunix_path_BB3_155
.Lunix_path_BB3_144:
	movq	16(%r15), %r13
	movq	24(%r15), %r14
	testq	%r14, %r14
	je	.Lunix_path_BB3_148
	cmpb	$45, (%r13)
	jne	.Lunix_path_BB3_148
	xorl	%ebp, %ebp
.Lunix_path_BB3_147:
	pxor	%xmm0, %xmm0
	movdqa	%xmm0, 1216(%rsp)
	movdqa	%xmm0, 1200(%rsp)
	movq	$0, 1232(%rsp)
	movdqa	%xmm0, 336(%rsp)
	movq	$0, 352(%rsp)
	xorl	%r15d, %r15d
	jmp	.Lunix_path_BB3_149
.Lunix_path_BB3_148:
	pxor	%xmm0, %xmm0
	movdqa	%xmm0, 336(%rsp)
	movq	$0, 352(%rsp)
	movq	%r13, %rdi
	movq	%r14, %rsi
	callq	upath_commands.options.command_by_name
	cmpb	$1, %al
	setne	%r15b
	pxor	%xmm0, %xmm0
	movdqa	%xmm0, 1200(%rsp)
	movdqa	%xmm0, 1216(%rsp)
	movq	$0, 1232(%rsp)
	movl	%r15d, %ebp
.Lunix_path_BB3_149:
	movq	1232(%rsp), %rax
	movq	%rax, 896(%rsp)
	movdqa	1200(%rsp), %xmm0
	movdqa	1216(%rsp), %xmm1
	movdqa	%xmm1, 880(%rsp)
	movdqa	%xmm0, 864(%rsp)
	movdqa	336(%rsp), %xmm2
	movdqa	%xmm2, 912(%rsp)
	movq	352(%rsp), %rcx
	movq	%rcx, 928(%rsp)
	movdqa	%xmm0, 816(%rsp)
	movdqa	%xmm1, 832(%rsp)
	movq	%rax, 848(%rsp)
	movdqa	%xmm2, 656(%rsp)
	movq	%rcx, 672(%rsp)
.Lunix_path_BB3_150:
	xorl	%r12d, %r12d
	xorl	%ebx, %ebx
	testb	%r15b, %r15b
	je	.Lunix_path_BB3_281
	jmp	.Lunix_path_BB3_714
.Lunix_path_BB3_151:
	cmpq	%r15, %rax
	je	.Lunix_path_BB3_259
.Lunix_path_BB3_152:
	movq	1200(%rsp), %rax
	leaq	(%r15,%r15,2), %rcx
	movw	$1285, (%rax,%rcx,8)
	leaq	.Lunix_path_static.42(%rip), %rdx
	movq	%rdx, 8(%rax,%rcx,8)
	movq	$6, 16(%rax,%rcx,8)
	incq	%r15
	jmp	.Lunix_path_BB3_155
.Lunix_path_BB3_153:
	movq	1208(%rsp), %r15
	cmpq	%r15, 1216(%rsp)
	je	.Lunix_path_BB3_956
.Lunix_path_BB3_154:
	movq	1200(%rsp), %rax
	leaq	(%r15,%r15,2), %rcx
	movw	$1, (%rax,%rcx,8)
	movq	%rdi, 8(%rax,%rcx,8)
	movq	$2, 16(%rax,%rcx,8)
	incq	%r15
	movq	%r15, 1208(%rsp)
	incq	%r14
	cmpq	%r14, %r12
	jne	.Lunix_path_BB3_161
.Lunix_path_BB3_155:
	movq	1216(%rsp), %rax
	movq	1200(%rsp), %r11
	testq	%r15, %r15
	je	.Lunix_path_BB3_164
	movq	%rax, 24(%rsp)
	leaq	25(%r11), %rbx
	movq	$-1, %rcx
	movq	%r11, 8(%rsp)
	.p2align	4
.Lunix_path_BB3_157:
	cmpb	$0, -25(%rbx)
	je	.Lunix_path_BB3_165
	addq	$24, %rbx
	leaq	(%r15,%rcx), %rax
	decq	%rax
	decq	%rcx
	cmpq	$-1, %rax
	jne	.Lunix_path_BB3_157
	movq	%r11, %rax
	movq	%r15, %rdx
	jmp	.Lunix_path_BB3_169
	.p2align	4
.Lunix_path_BB3_160:
	leaq	(%r15,%r15,2), %rcx
	movw	$0, (%rax,%rcx,8)
	movq	%r14, 8(%rax,%rcx,8)
	movq	%r12, 16(%rax,%rcx,8)
	incq	%r15
	movq	%r15, 1208(%rsp)
	addq	$16, %r13
	decq	%rbx
	je	.Lunix_path_BB3_155
.Lunix_path_BB3_161:
	movq	-8(%r13), %r14
	movq	(%r13), %r12
	cmpq	%r15, 1216(%rsp)
	jne	.Lunix_path_BB3_160
	leaq	1200(%rsp), %rdi
	callq	std_alloc.vec.Vec.grow_amortized.22ca91936d612ecb.
	testb	%al, %al
	je	.Lunix_path_BB3_958
	movq	1200(%rsp), %rax
	movq	1208(%rsp), %r15
	jmp	.Lunix_path_BB3_160
.Lunix_path_BB3_164:
	pxor	%xmm0, %xmm0
	movdqa	%xmm0, 240(%rsp)
	movdqa	%xmm0, 256(%rsp)
	movq	$0, 272(%rsp)
	movdqa	%xmm0, 208(%rsp)
	movq	$0, 224(%rsp)
	jmp	.Lunix_path_BB3_205
.Lunix_path_BB3_165:
	negq	%rcx
	movq	%r11, %rax
	movq	%r15, %rdx
	cmpq	%r15, %rcx
	jae	.Lunix_path_BB3_169
	cmpb	$4, -1(%rbx)
	movq	%r11, %rax
	movq	%r15, %rdx
	jne	.Lunix_path_BB3_169
	movq	-17(%rbx), %r13
	movq	-9(%rbx), %r14
	movq	%r13, %rdi
	movq	%r14, %rsi
	callq	upath_commands.options.command_by_name
	movb	$1, %bpl
	cmpb	$1, %al
	jne	.Lunix_path_BB3_239
	movzbl	(%rbx), %ebp
	xorl	%r15d, %r15d
	testb	%bpl, %bpl
	cmovneq	%r15, %r13
	cmovneq	%r15, %r14
	jmp	.Lunix_path_BB3_240
	.p2align	4
.Lunix_path_BB3_169:
	movzbl	(%rax), %ebp
	cmpl	$4, %ebp
	jae	.Lunix_path_BB3_243
	addq	$24, %rax
	decq	%rdx
	jne	.Lunix_path_BB3_169
	leaq	16(%rsp), %rax
	movq	%rax, 1200(%rsp)
	pxor	%xmm0, %xmm0
	movdqu	%xmm0, 1208(%rsp)
	leaq	16(%r11), %rbx
	xorl	%ebp, %ebp
	movq	%r15, %r14
	jmp	.Lunix_path_BB3_174
	.p2align	4
.Lunix_path_BB3_172:
	movq	%rbp, %rcx
	shlq	$4, %rcx
	movq	%r12, (%rax,%rcx)
	movq	%r13, 8(%rax,%rcx)
	incq	%rbp
	movq	%rbp, 1208(%rsp)
.Lunix_path_BB3_173:
	addq	$24, %rbx
	decq	%r14
	je	.Lunix_path_BB3_178
.Lunix_path_BB3_174:
	cmpb	$0, -16(%rbx)
	jne	.Lunix_path_BB3_173
	movq	-8(%rbx), %r12
	movq	(%rbx), %r13
	cmpq	%rbp, 1216(%rsp)
	jne	.Lunix_path_BB3_172
	leaq	1200(%rsp), %rdi
	movl	$1, %esi
	callq	std_alloc.vec.Vec.grow_amortized.a60b1bb647f5ec87.
	testb	%al, %al
	je	.Lunix_path_BB3_253
	movq	1200(%rsp), %rax
	movq	1208(%rsp), %rbp
	movq	8(%rsp), %r11
	jmp	.Lunix_path_BB3_172
.Lunix_path_BB3_178:
	movq	1200(%rsp), %rdi
	movq	1216(%rsp), %rbx
	pxor	%xmm0, %xmm0
	movdqa	%xmm0, 240(%rsp)
	movdqa	%xmm0, 256(%rsp)
	movq	$0, 272(%rsp)
	movdqa	%xmm0, 208(%rsp)
	movq	$0, 224(%rsp)
	testq	%rbp, %rbp
	je	.Lunix_path_BB3_203
	movq	(%rdi), %r13
	movq	8(%rdi), %r14
	leaq	-1(%rbp), %r12
	cmpq	$129, %r12
	jb	.Lunix_path_BB3_206
	leaq	64(%rdi), %rcx
	xorl	%eax, %eax
	.p2align	4
.Lunix_path_BB3_181:
	xorl	%edx, %edx
	.p2align	4
.Lunix_path_BB3_182:
	movdqu	-48(%rcx,%rdx), %xmm0
	movdqu	-32(%rcx,%rdx), %xmm1
	movdqu	-16(%rcx,%rdx), %xmm2
	movups	(%rcx,%rdx), %xmm3
	movdqu	%xmm0, -64(%rcx,%rdx)
	movdqu	%xmm1, -48(%rcx,%rdx)
	movdqu	%xmm2, -32(%rcx,%rdx)
	movups	%xmm3, -16(%rcx,%rdx)
	addq	$64, %rdx
	cmpq	$2048, %rdx
	jne	.Lunix_path_BB3_182
	subq	$-128, %rax
	movq	%r12, %rdx
	subq	%rax, %rdx
	addq	$2048, %rcx
	cmpq	$128, %rdx
	ja	.Lunix_path_BB3_181
	movq	%rdi, 72(%rsp)
	cmpq	%rax, %r12
	je	.Lunix_path_BB3_186
.Lunix_path_BB3_185:
	shlq	$4, %rax
	movq	72(%rsp), %rcx
	leaq	(%rcx,%rax), %rdi
	leaq	(%rcx,%rax), %rsi
	addq	$16, %rsi
	shlq	$4, %rdx
	callq	memmove@PLT
.Lunix_path_BB3_186:
	movq	%r13, %rdi
	movq	%r14, %rsi
	callq	upath_commands.options.command_by_name
	cmpb	$1, %al
	jne	.Lunix_path_BB3_207
	leal	-13(%rdx), %ecx
	movq	8(%rsp), %r11
	movq	%r11, %rax
	movq	%r15, %rsi
	movq	72(%rsp), %r10
	jmp	.Lunix_path_BB3_190
.Lunix_path_BB3_188:
	cmpb	$16, %dl
	jne	.Lunix_path_BB3_200
	.p2align	4
.Lunix_path_BB3_189:
	addq	$24, %rax
	decq	%rsi
	je	.Lunix_path_BB3_210
.Lunix_path_BB3_190:
	cmpb	$2, (%rax)
	jne	.Lunix_path_BB3_189
	movzbl	1(%rax), %edi
	leaq	.Lunix_path_JTI3_2(%rip), %r8
	movslq	(%r8,%rdi,4), %rdi
	addq	%r8, %rdi
	jmpq	*%rdi
.Lunix_path_BB3_192:
	cmpb	$8, %dl
	je	.Lunix_path_BB3_189
	jmp	.Lunix_path_BB3_200
.Lunix_path_BB3_193:
	cmpb	$15, %dl
	je	.Lunix_path_BB3_189
	jmp	.Lunix_path_BB3_200
.Lunix_path_BB3_194:
	cmpb	$14, %dl
	jne	.Lunix_path_BB3_189
	jmp	.Lunix_path_BB3_200
.Lunix_path_BB3_195:
	cmpb	$14, %dl
	je	.Lunix_path_BB3_189
	jmp	.Lunix_path_BB3_200
.Lunix_path_BB3_196:
	cmpb	$7, %dl
	je	.Lunix_path_BB3_189
	jmp	.Lunix_path_BB3_200
.Lunix_path_BB3_197:
	movzbl	%dl, %edi
	movl	$40960, %r8d
	btl	%edi, %r8d
	jb	.Lunix_path_BB3_189
	jmp	.Lunix_path_BB3_200
.Lunix_path_BB3_198:
	cmpb	$2, %cl
	jb	.Lunix_path_BB3_189
	jmp	.Lunix_path_BB3_200
.Lunix_path_BB3_199:
	cmpb	$10, %dl
	je	.Lunix_path_BB3_189
.Lunix_path_BB3_200:
	movq	8(%rax), %r13
	movq	16(%rax), %r14
	cmpq	$1, %r14
	sete	%bpl
	testq	%rbx, %rbx
	je	.Lunix_path_BB3_202
	movq	%r10, %rdi
	callq	rattle_dealloc@PLT
	movq	8(%rsp), %r11
.Lunix_path_BB3_202:
	orb	$2, %bpl
	pxor	%xmm0, %xmm0
	movdqa	%xmm0, 624(%rsp)
	movdqa	%xmm0, 608(%rsp)
	movq	$0, 640(%rsp)
	movdqa	%xmm0, 464(%rsp)
	movq	$0, 480(%rsp)
	movb	$1, %r15b
	xorl	%r12d, %r12d
	xorl	%ebx, %ebx
	jmp	.Lunix_path_BB3_278
.Lunix_path_BB3_203:
	testq	%rbx, %rbx
	movq	24(%rsp), %rax
	je	.Lunix_path_BB3_205
	callq	rattle_dealloc@PLT
	movq	8(%rsp), %r11
	movq	24(%rsp), %rax
.Lunix_path_BB3_205:
	pxor	%xmm0, %xmm0
	movdqa	%xmm0, 624(%rsp)
	movdqa	%xmm0, 608(%rsp)
	movq	$0, 640(%rsp)
	movdqa	%xmm0, 464(%rsp)
	movq	$0, 480(%rsp)
	leaq	.Lunix_path_static.5(%rip), %r13
	movb	$1, %r15b
	xorl	%ebp, %ebp
	xorl	%r12d, %r12d
	xorl	%r14d, %r14d
	xorl	%ebx, %ebx
	testq	%rax, %rax
	je	.Lunix_path_BB3_280
.Lunix_path_BB3_279:
	movq	%r11, %rdi
	callq	rattle_dealloc@PLT
.Lunix_path_BB3_280:
	movq	640(%rsp), %rax
	movq	%rax, 848(%rsp)
	movaps	608(%rsp), %xmm0
	movdqa	624(%rsp), %xmm1
	movdqa	%xmm1, 832(%rsp)
	movaps	%xmm0, 816(%rsp)
	movdqa	464(%rsp), %xmm0
	movdqa	%xmm0, 656(%rsp)
	movq	480(%rsp), %rax
	movq	%rax, 672(%rsp)
	testb	%r15b, %r15b
	jne	.Lunix_path_BB3_714
.Lunix_path_BB3_281:
	movb	%bpl, 688(%rsp)
	movl	%r12d, 689(%rsp)
	movq	%r12, %rax
	shrq	$48, %rax
	movb	%al, 695(%rsp)
	movq	%r12, %rax
	shrq	$32, %rax
	movw	%ax, 693(%rsp)
	movq	%r13, 696(%rsp)
	movq	%r14, 704(%rsp)
	movaps	816(%rsp), %xmm0
	movdqa	832(%rsp), %xmm1
	movups	%xmm0, 712(%rsp)
	movdqu	%xmm1, 728(%rsp)
	movq	848(%rsp), %rax
	movq	%rax, 744(%rsp)
	movq	%rbx, 752(%rsp)
	movdqa	656(%rsp), %xmm0
	movdqu	%xmm0, 760(%rsp)
	movq	672(%rsp), %rax
	movq	%rax, 776(%rsp)
	movzbl	%bpl, %eax
	leaq	.Lunix_path_JTI3_4(%rip), %rcx
	movslq	(%rcx,%rax,4), %rax
	addq	%rcx, %rax
	jmpq	*%rax
.Lunix_path_BB3_282:
	movq	80(%rsp), %rax
	testq	%rax, %rax
	movq	96(%rsp), %rbp
	je	.Lunix_path_BB3_721
	cmpq	$4, %r14
	jae	.Lunix_path_BB3_715
	testq	%r14, %r14
	movq	104(%rsp), %rbx
	jne	.Lunix_path_BB3_312
	jmp	.Lunix_path_BB3_286
	.p2align	4
.Lunix_path_BB3_285:
	addq	$32, %rbx
	decq	%rax
	je	.Lunix_path_BB3_721
.Lunix_path_BB3_286:
	cmpq	$0, 8(%rbx)
	jne	.Lunix_path_BB3_285
	jmp	.Lunix_path_BB3_720
.Lunix_path_BB3_287:
	movl	%r13d, %eax
	andb	$-2, %al
	cmpl	$1, %ebx
	movq	96(%rsp), %rbp
	jne	.Lunix_path_BB3_318
	movq	760(%rsp), %rdx
	movq	768(%rsp), %rbx
	cmpb	$16, %al
	jne	.Lunix_path_BB3_753
	testq	%rbx, %rbx
	je	.Lunix_path_BB3_854
	movabsq	$576460752303423480, %r12
	leaq	8(%r12), %rax
	cmpq	%rax, %rbx
	jae	.Lunix_path_BB3_846
	movq	%rbx, %r15
	shlq	$4, %r15
	movl	$8, %esi
	movq	%r15, %rdi
	movq	%r13, 72(%rsp)
	movq	%rdx, %r13
	callq	rattle_alloc@PLT
	movq	%rdx, %r14
	movq	%r13, %rdx
	movq	72(%rsp), %r13
	testb	$1, %al
	je	.Lunix_path_BB3_846
	movq	%r14, %rax
	subq	%rdx, %rax
	cmpq	%r15, %rax
	jae	.Lunix_path_BB3_855
	movl	%ebx, %eax
	andl	$7, %eax
	cmpq	$8, %rbx
	jae	.Lunix_path_BB3_951
	xorl	%ecx, %ecx
	jmp	.Lunix_path_BB3_954
.Lunix_path_BB3_295:
	movq	712(%rsp), %rsi
	movq	720(%rsp), %rdx
	movq	728(%rsp), %rcx
	movq	%r14, %rdi
	callq	unix_path.order.PathPartialEq.eq
	movl	%eax, %edx
	xorl	%ebx, %ebx
	movq	96(%rsp), %rbp
	jmp	.Lunix_path_BB3_736
.Lunix_path_BB3_296:
	pxor	%xmm0, %xmm0
	movdqa	%xmm0, 560(%rsp)
	movdqa	%xmm0, 544(%rsp)
	leaq	544(%rsp), %rdi
	movq	440(%rsp), %rsi
	callq	upath_commands.input.read_all.909299a5b5e629dc.
	cmpb	$0, 544(%rsp)
	movq	96(%rsp), %rbp
	je	.Lunix_path_BB3_322
	movb	$1, %bl
	movzbl	545(%rsp), %edx
	jmp	.Lunix_path_BB3_736
.Lunix_path_BB3_298:
	movq	96(%rsp), %rbp
	movq	24(%rbp), %rax
	movq	32(%rbp), %rbx
	movq	%rbx, %rcx
	subq	%rax, %rcx
	movq	64(%rsp), %r14
	cmpq	%rcx, %r14
	ja	.Lunix_path_BB3_880
.Lunix_path_BB3_299:
	leaq	24(%rbp), %rcx
	movq	%r14, %rdx
	addq	%rax, %r14
	movq	16(%rbp), %r15
	pxor	%xmm0, %xmm0
	movdqu	%xmm0, (%rcx)
	leaq	(%r15,%rax), %rdi
	movq	%rdi, %rcx
	movq	88(%rsp), %rsi
	subq	%rsi, %rcx
	cmpq	%rdx, %rcx
	jae	.Lunix_path_BB3_733
	cmpq	$4, %rdx
	jb	.Lunix_path_BB3_302
	cmpq	$32, %rcx
	jae	.Lunix_path_BB3_842
.Lunix_path_BB3_302:
	xorl	%ecx, %ecx
	movq	88(%rsp), %r9
	movq	64(%rsp), %rsi
.Lunix_path_BB3_303:
	movq	%rcx, %rdx
	andq	$3, %rsi
	je	.Lunix_path_BB3_306
	movq	%rcx, %rdx
	.p2align	4
.Lunix_path_BB3_305:
	movzbl	(%r9,%rdx), %r8d
	movb	%r8b, (%rdi,%rdx)
	incq	%rdx
	decq	%rsi
	jne	.Lunix_path_BB3_305
.Lunix_path_BB3_306:
	movq	64(%rsp), %rsi
	subq	%rsi, %rcx
	cmpq	$-4, %rcx
	ja	.Lunix_path_BB3_734
	addq	%r15, %rax
	addq	$3, %rax
	.p2align	4
.Lunix_path_BB3_308:
	movzbl	(%r9,%rdx), %ecx
	movb	%cl, -3(%rax,%rdx)
	movzbl	1(%r9,%rdx), %ecx
	movb	%cl, -2(%rax,%rdx)
	movzbl	2(%r9,%rdx), %ecx
	movb	%cl, -1(%rax,%rdx)
	movzbl	3(%r9,%rdx), %ecx
	movb	%cl, (%rax,%rdx)
	addq	$4, %rdx
	cmpq	%rdx, %rsi
	jne	.Lunix_path_BB3_308
	jmp	.Lunix_path_BB3_734
.Lunix_path_BB3_309:
	xorl	%ecx, %ecx
.Lunix_path_BB3_310:
	cmpq	%r14, %rcx
	movq	%rsi, %rax
	jae	.Lunix_path_BB3_720
.Lunix_path_BB3_311:
	addq	$32, %rbx
	decq	%rax
	je	.Lunix_path_BB3_721
.Lunix_path_BB3_312:
	cmpq	%r14, 8(%rbx)
	jne	.Lunix_path_BB3_311
	movq	%rax, %rsi
	movq	(%rbx), %rax
	movzbl	(%rax), %ecx
	cmpb	(%r13), %cl
	jne	.Lunix_path_BB3_309
	cmpq	$1, %r14
	je	.Lunix_path_BB3_720
	movzbl	1(%rax), %edx
	movl	$1, %ecx
	cmpb	1(%r13), %dl
	jne	.Lunix_path_BB3_310
	cmpq	$2, %r14
	je	.Lunix_path_BB3_720
	movzbl	2(%rax), %eax
	movl	$2, %ecx
	cmpb	2(%r13), %al
	jne	.Lunix_path_BB3_310
	jmp	.Lunix_path_BB3_720
.Lunix_path_BB3_206:
	xorl	%eax, %eax
	movq	%r12, %rdx
	movq	%rdi, 72(%rsp)
	cmpq	%rax, %r12
	jne	.Lunix_path_BB3_185
	jmp	.Lunix_path_BB3_186
.Lunix_path_BB3_207:
	testq	%rbx, %rbx
	je	.Lunix_path_BB3_209
	movq	72(%rsp), %rdi
	callq	rattle_dealloc@PLT
.Lunix_path_BB3_209:
	pxor	%xmm0, %xmm0
	movdqa	%xmm0, 624(%rsp)
	movdqa	%xmm0, 608(%rsp)
	movq	$0, 640(%rsp)
	movdqa	%xmm0, 464(%rsp)
	movq	$0, 480(%rsp)
	movb	$1, %r15b
	xorl	%r12d, %r12d
	movb	$1, %bpl
	xorl	%ebx, %ebx
	movq	24(%rsp), %rax
	movq	8(%rsp), %r11
	testq	%rax, %rax
	jne	.Lunix_path_BB3_279
	jmp	.Lunix_path_BB3_280
.Lunix_path_BB3_318:
	movq	%r13, %rbx
	shrq	$8, %rbx
	pxor	%xmm0, %xmm0
	movdqa	%xmm0, 112(%rsp)
	movdqa	%xmm0, 128(%rsp)
	movdqa	%xmm0, 544(%rsp)
	movdqa	%xmm0, 560(%rsp)
	cmpb	$16, %al
	jne	.Lunix_path_BB3_756
	leaq	112(%rsp), %rdi
	movq	440(%rsp), %rsi
	callq	upath_commands.input.read_all.909299a5b5e629dc.
	cmpb	$0, 112(%rsp)
	je	.Lunix_path_BB3_860
	movzbl	113(%rsp), %edx
.Lunix_path_BB3_321:
	movb	$1, %bl
	jmp	.Lunix_path_BB3_736
.Lunix_path_BB3_322:
	movq	%r13, %rsi
	movq	%r12, %r13
	shrq	$16, %r13
	movq	%r12, %rbp
	shrq	$24, %rbp
	leaq	697(%rsp), %rax
	movq	552(%rsp), %r15
	movq	560(%rsp), %rcx
	movq	568(%rsp), %rdx
	movq	%rdx, 8(%rsp)
	movl	(%rax), %edx
	movl	%edx, 864(%rsp)
	movzbl	4(%rax), %edx
	movb	%dl, 868(%rsp)
	pxor	%xmm0, %xmm0
	movdqa	%xmm0, 1200(%rsp)
	movdqa	%xmm0, 1216(%rsp)
	movdqa	%xmm0, 1232(%rsp)
	movdqa	%xmm0, 1248(%rsp)
	movq	$0, 160(%rsp)
	movq	$0, 165(%rsp)
	movdqa	%xmm0, 336(%rsp)
	movdqa	%xmm0, 352(%rsp)
	movdqa	%xmm0, 368(%rsp)
	movdqa	%xmm0, 384(%rsp)
	movq	$0, 496(%rsp)
	movq	$0, 501(%rsp)
	testb	$1, %sil
	je	.Lunix_path_BB3_757
	movq	%rsi, 72(%rsp)
	leaq	16(%rsp), %rbx
	movq	%rbx, 112(%rsp)
	movdqu	%xmm0, 120(%rsp)
	testq	%rcx, %rcx
	je	.Lunix_path_BB3_863
	movabsq	$1099511627775, %rax
	movq	%r13, %rdx
	andq	%rax, %rdx
	movq	%rdx, 440(%rsp)
	movl	$1, %edi
	movq	%r15, %rbx
	movq	%r15, 24(%rsp)
.Lunix_path_BB3_325:
	pxor	%xmm0, %xmm0
	movdqa	%xmm0, 304(%rsp)
	movdqa	%xmm0, 288(%rsp)
	cmpq	$15, %rcx
	movq	%rdi, 48(%rsp)
	ja	.Lunix_path_BB3_329
	xorl	%r14d, %r14d
.Lunix_path_BB3_327:
	cmpb	$34, (%rbx,%r14)
	je	.Lunix_path_BB3_335
	incq	%r14
	cmpq	%r14, %rcx
	jne	.Lunix_path_BB3_327
	jmp	.Lunix_path_BB3_847
.Lunix_path_BB3_329:
	movq	%rcx, %rax
	addq	$-16, %rax
	je	.Lunix_path_BB3_333
	xorl	%edx, %edx
.Lunix_path_BB3_331:
	movdqu	(%rbx,%rdx), %xmm0
	pcmpeqb	.Lunix_path_CPI3_4(%rip), %xmm0
	pmovmskb	%xmm0, %esi
	orl	$65536, %esi
	rep		bsfl	%esi, %esi
	cmpw	$15, %si
	jbe	.Lunix_path_BB3_334
	addq	$16, %rdx
	cmpq	%rax, %rdx
	jb	.Lunix_path_BB3_331
.Lunix_path_BB3_333:
	movdqu	(%rbx,%rax), %xmm0
	pcmpeqb	.Lunix_path_CPI3_4(%rip), %xmm0
	pmovmskb	%xmm0, %edx
	orl	$65536, %edx
	rep		bsfl	%edx, %r14d
	addq	%rax, %r14
	jmp	.Lunix_path_BB3_335
.Lunix_path_BB3_334:
	movzwl	%si, %r14d
	addq	%rdx, %r14
.Lunix_path_BB3_335:
	testq	%r14, %r14
	je	.Lunix_path_BB3_847
	cmpq	%rcx, %r14
	je	.Lunix_path_BB3_847
	movzbl	(%rbx), %eax
	movzbl	%al, %esi
	leal	-67(%rsi), %edx
	cmpl	$45, %edx
	ja	.Lunix_path_BB3_340
	leaq	.Lunix_path_JTI3_5(%rip), %rsi
	movslq	(%rsi,%rdx,4), %rdx
	addq	%rsi, %rdx
	jmpq	*%rdx
.Lunix_path_BB3_339:
	movq	$0, 64(%rsp)
	jmp	.Lunix_path_BB3_347
.Lunix_path_BB3_340:
	cmpl	$45, %esi
	jne	.Lunix_path_BB3_342
.Lunix_path_BB3_341:
	movb	$1, %al
	jmp	.Lunix_path_BB3_346
.Lunix_path_BB3_342:
	andb	$-2, %al
	cmpb	$98, %al
	jne	.Lunix_path_BB3_847
.Lunix_path_BB3_343:
	movb	$4, %al
	jmp	.Lunix_path_BB3_346
.Lunix_path_BB3_344:
	movb	$2, %al
	jmp	.Lunix_path_BB3_346
.Lunix_path_BB3_345:
	movb	$3, %al
.Lunix_path_BB3_346:
	movq	%rax, 64(%rsp)
.Lunix_path_BB3_347:
	leaq	1(%rbx), %rsi
	leaq	-1(%r14), %r9
	cmpq	$15, %r9
	ja	.Lunix_path_BB3_353
	testq	%r9, %r9
	je	.Lunix_path_BB3_847
	xorl	%edx, %edx
	leaq	-1(%r14), %r9
.Lunix_path_BB3_350:
	cmpb	$32, (%rsi,%rdx)
	je	.Lunix_path_BB3_359
	incq	%rdx
	cmpq	%rdx, %r9
	jne	.Lunix_path_BB3_350
	movq	%r9, %rdx
	jmp	.Lunix_path_BB3_359
.Lunix_path_BB3_353:
	movq	%r14, %rax
	addq	$-17, %rax
	je	.Lunix_path_BB3_357
	xorl	%edi, %edi
.Lunix_path_BB3_355:
	movdqu	(%rsi,%rdi), %xmm0
	pcmpeqb	.Lunix_path_CPI3_5(%rip), %xmm0
	pmovmskb	%xmm0, %edx
	orl	$65536, %edx
	rep		bsfl	%edx, %edx
	cmpw	$15, %dx
	jbe	.Lunix_path_BB3_358
	addq	$16, %rdi
	cmpq	%rax, %rdi
	jb	.Lunix_path_BB3_355
.Lunix_path_BB3_357:
	movdqu	(%rsi,%rax), %xmm0
	pcmpeqb	.Lunix_path_CPI3_5(%rip), %xmm0
	pmovmskb	%xmm0, %edx
	orl	$65536, %edx
	rep		bsfl	%edx, %edx
	addq	%rax, %rdx
	jmp	.Lunix_path_BB3_359
.Lunix_path_BB3_358:
	movzwl	%dx, %edx
	addq	%rdi, %rdx
.Lunix_path_BB3_359:
	leaq	1(%rdx), %r8
	movq	%r9, %rax
	subq	%r8, %rax
	xorl	%r10d, %r10d
	cmpq	%r9, %rdx
	cmovbq	%rax, %r10
	cmovaeq	%r9, %r8
	cmpq	$15, %r9
	ja	.Lunix_path_BB3_365
	testq	%r9, %r9
	je	.Lunix_path_BB3_847
	xorl	%edi, %edi
	leaq	-1(%r14), %rdx
.Lunix_path_BB3_362:
	cmpb	$32, (%rsi,%rdi)
	je	.Lunix_path_BB3_371
	incq	%rdi
	cmpq	%rdi, %rdx
	jne	.Lunix_path_BB3_362
	movq	%rdx, %rdi
	jmp	.Lunix_path_BB3_371
.Lunix_path_BB3_365:
	movq	%r14, %rdx
	addq	$-17, %rdx
	je	.Lunix_path_BB3_369
	xorl	%r9d, %r9d
.Lunix_path_BB3_367:
	movdqu	(%rsi,%r9), %xmm0
	pcmpeqb	.Lunix_path_CPI3_5(%rip), %xmm0
	pmovmskb	%xmm0, %edi
	orl	$65536, %edi
	rep		bsfl	%edi, %edi
	cmpw	$15, %di
	jbe	.Lunix_path_BB3_370
	addq	$16, %r9
	cmpq	%rdx, %r9
	jb	.Lunix_path_BB3_367
.Lunix_path_BB3_369:
	movdqu	(%rsi,%rdx), %xmm0
	pcmpeqb	.Lunix_path_CPI3_5(%rip), %xmm0
	pmovmskb	%xmm0, %edi
	orl	$65536, %edi
	rep		bsfl	%edi, %edi
	addq	%rdx, %rdi
	jmp	.Lunix_path_BB3_371
.Lunix_path_BB3_370:
	movzwl	%di, %edi
	addq	%r9, %rdi
.Lunix_path_BB3_371:
	cmpq	$9, %rdi
	jne	.Lunix_path_BB3_847
	movzbl	1(%rbx), %edx
	movl	%edx, %edi
	andb	$-33, %dil
	addb	$-83, %dil
	cmpb	$1, %dil
	jbe	.Lunix_path_BB3_376
	leal	-114(%rdx), %edi
	cmpl	$6, %edi
	ja	.Lunix_path_BB3_375
	movl	$97, %r9d
	btl	%edi, %r9d
	jb	.Lunix_path_BB3_376
.Lunix_path_BB3_375:
	cmpl	$45, %edx
	jne	.Lunix_path_BB3_847
.Lunix_path_BB3_376:
	movzbl	2(%rbx), %edx
	movl	%edx, %edi
	andb	$-33, %dil
	addb	$-83, %dil
	cmpb	$2, %dil
	jb	.Lunix_path_BB3_380
	leal	-114(%rdx), %edi
	cmpl	$6, %edi
	ja	.Lunix_path_BB3_379
	movl	$97, %r9d
	btl	%edi, %r9d
	jb	.Lunix_path_BB3_380
.Lunix_path_BB3_379:
	cmpl	$45, %edx
	jne	.Lunix_path_BB3_847
.Lunix_path_BB3_380:
	movzbl	3(%rbx), %edx
	movl	%edx, %edi
	andb	$-33, %dil
	addb	$-83, %dil
	cmpb	$2, %dil
	jb	.Lunix_path_BB3_384
	leal	-114(%rdx), %edi
	cmpl	$6, %edi
	ja	.Lunix_path_BB3_383
	movl	$97, %r9d
	btl	%edi, %r9d
	jb	.Lunix_path_BB3_384
.Lunix_path_BB3_383:
	cmpl	$45, %edx
	jne	.Lunix_path_BB3_847
.Lunix_path_BB3_384:
	movzbl	4(%rbx), %edx
	movl	%edx, %edi
	andb	$-33, %dil
	addb	$-83, %dil
	cmpb	$2, %dil
	jb	.Lunix_path_BB3_388
	leal	-114(%rdx), %edi
	cmpl	$6, %edi
	ja	.Lunix_path_BB3_387
	movl	$97, %r9d
	btl	%edi, %r9d
	jb	.Lunix_path_BB3_388
.Lunix_path_BB3_387:
	cmpl	$45, %edx
	jne	.Lunix_path_BB3_847
.Lunix_path_BB3_388:
	movzbl	5(%rbx), %edx
	movl	%edx, %edi
	andb	$-33, %dil
	addb	$-83, %dil
	cmpb	$2, %dil
	jb	.Lunix_path_BB3_392
	leal	-114(%rdx), %edi
	cmpl	$6, %edi
	ja	.Lunix_path_BB3_391
	movl	$97, %r9d
	btl	%edi, %r9d
	jb	.Lunix_path_BB3_392
.Lunix_path_BB3_391:
	cmpl	$45, %edx
	jne	.Lunix_path_BB3_847
.Lunix_path_BB3_392:
	movzbl	6(%rbx), %edx
	movl	%edx, %edi
	andb	$-33, %dil
	addb	$-83, %dil
	cmpb	$2, %dil
	jb	.Lunix_path_BB3_396
	leal	-114(%rdx), %edi
	cmpl	$6, %edi
	ja	.Lunix_path_BB3_395
	movl	$97, %r9d
	btl	%edi, %r9d
	jb	.Lunix_path_BB3_396
.Lunix_path_BB3_395:
	cmpl	$45, %edx
	jne	.Lunix_path_BB3_847
.Lunix_path_BB3_396:
	movzbl	7(%rbx), %edx
	movl	%edx, %edi
	andb	$-33, %dil
	addb	$-83, %dil
	cmpb	$2, %dil
	jb	.Lunix_path_BB3_400
	leal	-114(%rdx), %edi
	cmpl	$6, %edi
	ja	.Lunix_path_BB3_399
	movl	$97, %r9d
	btl	%edi, %r9d
	jb	.Lunix_path_BB3_400
.Lunix_path_BB3_399:
	cmpl	$45, %edx
	jne	.Lunix_path_BB3_847
.Lunix_path_BB3_400:
	movzbl	8(%rbx), %edx
	movl	%edx, %edi
	andb	$-33, %dil
	addb	$-83, %dil
	cmpb	$2, %dil
	jb	.Lunix_path_BB3_404
	leal	-114(%rdx), %edi
	cmpl	$6, %edi
	ja	.Lunix_path_BB3_403
	movl	$97, %r9d
	btl	%edi, %r9d
	jb	.Lunix_path_BB3_404
.Lunix_path_BB3_403:
	cmpl	$45, %edx
	jne	.Lunix_path_BB3_847
.Lunix_path_BB3_404:
	movzbl	9(%rbx), %edx
	movl	%edx, %edi
	andb	$-33, %dil
	addb	$-83, %dil
	cmpb	$2, %dil
	jb	.Lunix_path_BB3_408
	leal	-114(%rdx), %edi
	cmpl	$6, %edi
	ja	.Lunix_path_BB3_407
	movl	$97, %r9d
	btl	%edi, %r9d
	jb	.Lunix_path_BB3_408
.Lunix_path_BB3_407:
	cmpl	$45, %edx
	jne	.Lunix_path_BB3_847
.Lunix_path_BB3_408:
	addq	%r8, %rsi
	cmpq	$15, %r10
	ja	.Lunix_path_BB3_414
	testq	%r10, %r10
	je	.Lunix_path_BB3_847
	xorl	%r11d, %r11d
.Lunix_path_BB3_411:
	cmpb	$32, (%rsi,%r11)
	je	.Lunix_path_BB3_420
	incq	%r11
	cmpq	%r11, %r10
	jne	.Lunix_path_BB3_411
	movq	%rax, %r11
	jmp	.Lunix_path_BB3_420
.Lunix_path_BB3_414:
	movq	%r10, %rdx
	addq	$-16, %rdx
	je	.Lunix_path_BB3_418
	xorl	%edi, %edi
.Lunix_path_BB3_416:
	movdqu	(%rsi,%rdi), %xmm0
	pcmpeqb	.Lunix_path_CPI3_5(%rip), %xmm0
	pmovmskb	%xmm0, %r9d
	orl	$65536, %r9d
	rep		bsfl	%r9d, %r9d
	cmpw	$15, %r9w
	jbe	.Lunix_path_BB3_419
	addq	$16, %rdi
	cmpq	%rdx, %rdi
	jb	.Lunix_path_BB3_416
.Lunix_path_BB3_418:
	movdqu	(%rsi,%rdx), %xmm0
	pcmpeqb	.Lunix_path_CPI3_5(%rip), %xmm0
	pmovmskb	%xmm0, %edi
	orl	$65536, %edi
	rep		bsfl	%edi, %r11d
	addq	%rdx, %r11
	jmp	.Lunix_path_BB3_420
.Lunix_path_BB3_419:
	movzwl	%r9w, %r11d
	addq	%rdi, %r11
.Lunix_path_BB3_420:
	leaq	1(%r11), %rdx
	movq	%r10, %r9
	subq	%rdx, %r9
	xorl	%edi, %edi
	cmpq	%r10, %r11
	movq	%r9, 40(%rsp)
	cmovbq	%r9, %rdi
	cmovaeq	%r10, %rdx
	cmpq	$15, %r10
	ja	.Lunix_path_BB3_426
	testq	%r10, %r10
	je	.Lunix_path_BB3_847
	xorl	%r11d, %r11d
.Lunix_path_BB3_423:
	cmpb	$32, (%rsi,%r11)
	je	.Lunix_path_BB3_432
	incq	%r11
	cmpq	%r11, %r10
	jne	.Lunix_path_BB3_423
	movq	%rax, %r11
	jmp	.Lunix_path_BB3_432
.Lunix_path_BB3_426:
	addq	$-16, %r10
	je	.Lunix_path_BB3_430
	xorl	%eax, %eax
.Lunix_path_BB3_428:
	movdqu	(%rsi,%rax), %xmm0
	pcmpeqb	.Lunix_path_CPI3_5(%rip), %xmm0
	pmovmskb	%xmm0, %r9d
	orl	$65536, %r9d
	rep		bsfl	%r9d, %r9d
	cmpw	$15, %r9w
	jbe	.Lunix_path_BB3_431
	addq	$16, %rax
	cmpq	%r10, %rax
	jb	.Lunix_path_BB3_428
.Lunix_path_BB3_430:
	movdqu	(%rsi,%r10), %xmm0
	pcmpeqb	.Lunix_path_CPI3_5(%rip), %xmm0
	pmovmskb	%xmm0, %eax
	orl	$65536, %eax
	rep		bsfl	%eax, %r11d
	addq	%r10, %r11
	jmp	.Lunix_path_BB3_432
.Lunix_path_BB3_431:
	movzwl	%r9w, %r11d
	addq	%rax, %r11
.Lunix_path_BB3_432:
	cmpq	$16, %r11
	setb	%al
	jae	.Lunix_path_BB3_438
	testq	%r11, %r11
	je	.Lunix_path_BB3_847
	xorl	%r10d, %r10d
.Lunix_path_BB3_435:
	cmpb	$47, (%rsi,%r10)
	je	.Lunix_path_BB3_444
	incq	%r10
	cmpq	%r10, %r11
	jne	.Lunix_path_BB3_435
	movb	$1, %al
	movq	%r11, %r10
	jmp	.Lunix_path_BB3_445
.Lunix_path_BB3_438:
	movq	%r11, %r15
	addq	$-16, %r15
	je	.Lunix_path_BB3_442
	xorl	%r9d, %r9d
.Lunix_path_BB3_440:
	movdqu	(%rsi,%r9), %xmm0
	pcmpeqb	.Lunix_path_CPI3_6(%rip), %xmm0
	pmovmskb	%xmm0, %r10d
	orl	$65536, %r10d
	rep		bsfl	%r10d, %r10d
	cmpw	$15, %r10w
	jbe	.Lunix_path_BB3_443
	addq	$16, %r9
	cmpq	%r15, %r9
	jb	.Lunix_path_BB3_440
.Lunix_path_BB3_442:
	movdqu	(%rsi,%r15), %xmm0
	pcmpeqb	.Lunix_path_CPI3_6(%rip), %xmm0
	pmovmskb	%xmm0, %r9d
	orl	$65536, %r9d
	rep		bsfl	%r9d, %r10d
	addq	%r15, %r10
	jmp	.Lunix_path_BB3_444
.Lunix_path_BB3_443:
	movzwl	%r10w, %r10d
	addq	%r9, %r10
.Lunix_path_BB3_444:
	testq	%r10, %r10
	je	.Lunix_path_BB3_847
.Lunix_path_BB3_445:
	addq	%rsi, %rdx
	xorl	%r9d, %r9d
	.p2align	4
.Lunix_path_BB3_446:
	cmpq	%r9, %r10
	je	.Lunix_path_BB3_448
	movzbl	(%rsi,%r9), %r15d
	addb	$-48, %r15b
	incq	%r9
	cmpb	$10, %r15b
	jb	.Lunix_path_BB3_446
	jmp	.Lunix_path_BB3_847
.Lunix_path_BB3_448:
	testb	%al, %al
	je	.Lunix_path_BB3_452
	xorl	%eax, %eax
	testq	%r11, %r11
	je	.Lunix_path_BB3_458
.Lunix_path_BB3_450:
	cmpb	$47, (%rsi,%rax)
	je	.Lunix_path_BB3_458
	incq	%rax
	cmpq	%rax, %r11
	jne	.Lunix_path_BB3_450
	jmp	.Lunix_path_BB3_847
.Lunix_path_BB3_452:
	movq	%r11, %r10
	addq	$-16, %r10
	je	.Lunix_path_BB3_456
	xorl	%r9d, %r9d
.Lunix_path_BB3_454:
	movdqu	(%rsi,%r9), %xmm0
	pcmpeqb	.Lunix_path_CPI3_6(%rip), %xmm0
	pmovmskb	%xmm0, %eax
	orl	$65536, %eax
	rep		bsfl	%eax, %eax
	cmpw	$15, %ax
	jbe	.Lunix_path_BB3_457
	addq	$16, %r9
	cmpq	%r10, %r9
	jb	.Lunix_path_BB3_454
.Lunix_path_BB3_456:
	movdqu	(%rsi,%r10), %xmm0
	pcmpeqb	.Lunix_path_CPI3_6(%rip), %xmm0
	pmovmskb	%xmm0, %eax
	orl	$65536, %eax
	rep		bsfl	%eax, %eax
	addq	%r10, %rax
	jmp	.Lunix_path_BB3_458
.Lunix_path_BB3_457:
	movzwl	%ax, %eax
	addq	%r9, %rax
.Lunix_path_BB3_458:
	cmpq	%r11, %rax
	jae	.Lunix_path_BB3_847
	movq	%rax, %rsi
	notq	%rsi
	addq	%r11, %rsi
	je	.Lunix_path_BB3_847
	leaq	(%rbx,%r8), %rsi
	addq	$2, %rsi
	decq	%r11
.Lunix_path_BB3_461:
	cmpq	%rax, %r11
	je	.Lunix_path_BB3_463
	movzbl	(%rsi,%rax), %r8d
	addb	$-48, %r8b
	incq	%rax
	cmpb	$10, %r8b
	jb	.Lunix_path_BB3_461
	jmp	.Lunix_path_BB3_847
.Lunix_path_BB3_463:
	xorl	%eax, %eax
	testq	%rdi, %rdi
	je	.Lunix_path_BB3_467
.Lunix_path_BB3_464:
	cmpb	$32, (%rdx,%rax)
	jne	.Lunix_path_BB3_467
	incq	%rax
	cmpq	%rax, %rdi
	jne	.Lunix_path_BB3_464
	movq	40(%rsp), %rax
.Lunix_path_BB3_467:
	leaq	(%rdx,%rax), %rsi
	movq	%rdi, %r8
	subq	%rax, %r8
	cmpq	$15, %r8
	ja	.Lunix_path_BB3_472
	testq	%r8, %r8
	je	.Lunix_path_BB3_847
	xorl	%eax, %eax
.Lunix_path_BB3_470:
	cmpb	$32, (%rsi,%rax)
	je	.Lunix_path_BB3_478
	incq	%rax
	cmpq	%rax, %r8
	jne	.Lunix_path_BB3_470
	jmp	.Lunix_path_BB3_479
.Lunix_path_BB3_472:
	addq	$-16, %r8
	je	.Lunix_path_BB3_476
	xorl	%r9d, %r9d
.Lunix_path_BB3_474:
	movdqu	(%rsi,%r9), %xmm0
	pcmpeqb	.Lunix_path_CPI3_5(%rip), %xmm0
	pmovmskb	%xmm0, %eax
	orl	$65536, %eax
	rep		bsfl	%eax, %eax
	cmpw	$15, %ax
	jbe	.Lunix_path_BB3_477
	addq	$16, %r9
	cmpq	%r8, %r9
	jb	.Lunix_path_BB3_474
.Lunix_path_BB3_476:
	movdqu	(%rsi,%r8), %xmm0
	pcmpeqb	.Lunix_path_CPI3_5(%rip), %xmm0
	pmovmskb	%xmm0, %eax
	orl	$65536, %eax
	rep		bsfl	%eax, %eax
	addq	%r8, %rax
	jmp	.Lunix_path_BB3_478
.Lunix_path_BB3_477:
	movzwl	%ax, %eax
	addq	%r9, %rax
.Lunix_path_BB3_478:
	movq	%rax, %r8
	testq	%rax, %rax
	je	.Lunix_path_BB3_847
.Lunix_path_BB3_479:
	xorl	%eax, %eax
.Lunix_path_BB3_480:
	cmpq	%rax, %r8
	je	.Lunix_path_BB3_512
	movzbl	(%rsi,%rax), %r9d
	addb	$-48, %r9b
	incq	%rax
	cmpb	$10, %r9b
	jb	.Lunix_path_BB3_480
	cmpq	$15, %r8
	ja	.Lunix_path_BB3_487
	xorl	%eax, %eax
.Lunix_path_BB3_484:
	cmpb	$44, (%rsi,%rax)
	je	.Lunix_path_BB3_493
	incq	%rax
	cmpq	%rax, %r8
	jne	.Lunix_path_BB3_484
	movq	%r8, %rax
	jmp	.Lunix_path_BB3_494
.Lunix_path_BB3_487:
	movq	%r8, %r10
	addq	$-16, %r10
	je	.Lunix_path_BB3_491
	xorl	%r9d, %r9d
.Lunix_path_BB3_489:
	movdqu	(%rsi,%r9), %xmm0
	pcmpeqb	.Lunix_path_CPI3_7(%rip), %xmm0
	pmovmskb	%xmm0, %eax
	orl	$65536, %eax
	rep		bsfl	%eax, %eax
	cmpw	$15, %ax
	jbe	.Lunix_path_BB3_492
	addq	$16, %r9
	cmpq	%r10, %r9
	jb	.Lunix_path_BB3_489
.Lunix_path_BB3_491:
	movdqu	(%rsi,%r10), %xmm0
	pcmpeqb	.Lunix_path_CPI3_7(%rip), %xmm0
	pmovmskb	%xmm0, %eax
	orl	$65536, %eax
	rep		bsfl	%eax, %eax
	addq	%r10, %rax
	jmp	.Lunix_path_BB3_493
.Lunix_path_BB3_492:
	movzwl	%ax, %eax
	addq	%r9, %rax
.Lunix_path_BB3_493:
	testq	%rax, %rax
	je	.Lunix_path_BB3_847
.Lunix_path_BB3_494:
	xorl	%r9d, %r9d
.Lunix_path_BB3_495:
	cmpq	%r9, %rax
	je	.Lunix_path_BB3_497
	movzbl	(%rsi,%r9), %r10d
	addb	$-48, %r10b
	incq	%r9
	cmpb	$10, %r10b
	jb	.Lunix_path_BB3_495
	jmp	.Lunix_path_BB3_847
.Lunix_path_BB3_497:
	cmpq	$15, %r8
	ja	.Lunix_path_BB3_501
	xorl	%eax, %eax
.Lunix_path_BB3_499:
	cmpb	$44, (%rsi,%rax)
	je	.Lunix_path_BB3_507
	incq	%rax
	cmpq	%rax, %r8
	jne	.Lunix_path_BB3_499
	jmp	.Lunix_path_BB3_847
.Lunix_path_BB3_501:
	movq	%r8, %r10
	addq	$-16, %r10
	je	.Lunix_path_BB3_505
	xorl	%r9d, %r9d
.Lunix_path_BB3_503:
	movdqu	(%rsi,%r9), %xmm0
	pcmpeqb	.Lunix_path_CPI3_7(%rip), %xmm0
	pmovmskb	%xmm0, %eax
	orl	$65536, %eax
	rep		bsfl	%eax, %eax
	cmpw	$15, %ax
	jbe	.Lunix_path_BB3_506
	addq	$16, %r9
	cmpq	%r10, %r9
	jb	.Lunix_path_BB3_503
.Lunix_path_BB3_505:
	movdqu	(%rsi,%r10), %xmm0
	pcmpeqb	.Lunix_path_CPI3_7(%rip), %xmm0
	pmovmskb	%xmm0, %eax
	orl	$65536, %eax
	rep		bsfl	%eax, %eax
	addq	%r10, %rax
	jmp	.Lunix_path_BB3_507
.Lunix_path_BB3_506:
	movzwl	%ax, %eax
	addq	%r9, %rax
.Lunix_path_BB3_507:
	cmpq	%r8, %rax
	jae	.Lunix_path_BB3_847
	incq	%rax
	subq	%rax, %r8
	je	.Lunix_path_BB3_847
	addq	%rax, %rsi
	xorl	%eax, %eax
.Lunix_path_BB3_510:
	cmpq	%rax, %r8
	je	.Lunix_path_BB3_512
	movzbl	(%rsi,%rax), %r9d
	addb	$-48, %r9b
	incq	%rax
	cmpb	$10, %r9b
	jb	.Lunix_path_BB3_510
	jmp	.Lunix_path_BB3_847
.Lunix_path_BB3_512:
	movq	$-1, %rax
	movb	$1, %r11b
	testq	%rdi, %rdi
	je	.Lunix_path_BB3_529
	xorl	%r10d, %r10d
.Lunix_path_BB3_514:
	cmpb	$32, (%rdx,%r10)
	jne	.Lunix_path_BB3_517
	incq	%r10
	cmpq	%r10, %rdi
	jne	.Lunix_path_BB3_514
	movq	40(%rsp), %r10
.Lunix_path_BB3_517:
	leaq	(%rdx,%r10), %r9
	movq	%rdi, %rsi
	subq	%r10, %rsi
	cmpq	$15, %rsi
	ja	.Lunix_path_BB3_520
	cmpq	%r10, %rdi
	jne	.Lunix_path_BB3_525
	xorl	%r8d, %r8d
	movq	%r9, %rdx
	xorl	%edi, %edi
	jmp	.Lunix_path_BB3_538
.Lunix_path_BB3_520:
	movq	%rsi, %rax
	addq	$-16, %rax
	je	.Lunix_path_BB3_524
	xorl	%edx, %edx
.Lunix_path_BB3_522:
	movdqu	(%r9,%rdx), %xmm0
	pcmpeqb	.Lunix_path_CPI3_5(%rip), %xmm0
	pmovmskb	%xmm0, %edi
	orl	$65536, %edi
	rep		bsfl	%edi, %edi
	cmpw	$15, %di
	jbe	.Lunix_path_BB3_530
	addq	$16, %rdx
	cmpq	%rax, %rdx
	jb	.Lunix_path_BB3_522
.Lunix_path_BB3_524:
	movdqu	(%r9,%rax), %xmm0
	pcmpeqb	.Lunix_path_CPI3_5(%rip), %xmm0
	pmovmskb	%xmm0, %edx
	orl	$65536, %edx
	rep		bsfl	%edx, %r10d
	addq	%rax, %r10
	jmp	.Lunix_path_BB3_531
.Lunix_path_BB3_525:
	xorl	%r10d, %r10d
.Lunix_path_BB3_526:
	cmpb	$32, (%r9,%r10)
	je	.Lunix_path_BB3_531
	incq	%r10
	cmpq	%r10, %rsi
	jne	.Lunix_path_BB3_526
	addq	%rdi, %rdx
.Lunix_path_BB3_529:
	xorl	%r8d, %r8d
	xorl	%edi, %edi
	jmp	.Lunix_path_BB3_538
.Lunix_path_BB3_530:
	movzwl	%di, %r10d
	addq	%rdx, %r10
.Lunix_path_BB3_531:
	leaq	1(%r10), %rax
	cmpq	%rsi, %r10
	setae	%dl
	movq	%rax, %rdi
	cmovaeq	%rsi, %rdi
	addq	%rdi, %r9
	subq	%rax, %rsi
	sete	%al
	orb	%dl, %al
	je	.Lunix_path_BB3_533
	xorl	%r8d, %r8d
	movq	%r9, %rdx
	movq	%rsi, %rax
	xorl	%edi, %edi
	jmp	.Lunix_path_BB3_538
.Lunix_path_BB3_533:
	xorl	%edi, %edi
.Lunix_path_BB3_534:
	cmpb	$32, (%r9,%rdi)
	jne	.Lunix_path_BB3_537
	incq	%rdi
	cmpq	%rdi, %rsi
	jne	.Lunix_path_BB3_534
	xorl	%r11d, %r11d
	movq	%r9, %rdx
	movq	%rsi, %r8
	movq	%rsi, %rax
	movq	%rsi, %rdi
	jmp	.Lunix_path_BB3_538
.Lunix_path_BB3_537:
	xorl	%r11d, %r11d
	movq	%r9, %rdx
	movq	%rsi, %r8
	movq	%rsi, %rax
.Lunix_path_BB3_538:
	leaq	(%rdx,%rdi), %rsi
	movq	%r8, %r9
	subq	%rdi, %r9
	cmpq	$15, %r9
	ja	.Lunix_path_BB3_543
	xorl	%edi, %edi
	testq	%r9, %r9
	je	.Lunix_path_BB3_549
.Lunix_path_BB3_540:
	cmpb	$32, (%rsi,%rdi)
	je	.Lunix_path_BB3_549
	incq	%rdi
	cmpq	%rdi, %r9
	jne	.Lunix_path_BB3_540
	movq	%r9, %rdi
	jmp	.Lunix_path_BB3_549
.Lunix_path_BB3_543:
	addq	$-16, %r9
	je	.Lunix_path_BB3_547
	xorl	%r10d, %r10d
.Lunix_path_BB3_545:
	movdqu	(%rsi,%r10), %xmm0
	pcmpeqb	.Lunix_path_CPI3_5(%rip), %xmm0
	pmovmskb	%xmm0, %edi
	orl	$65536, %edi
	rep		bsfl	%edi, %edi
	cmpw	$15, %di
	jbe	.Lunix_path_BB3_548
	addq	$16, %r10
	cmpq	%r9, %r10
	jb	.Lunix_path_BB3_545
.Lunix_path_BB3_547:
	movdqu	(%rsi,%r9), %xmm0
	pcmpeqb	.Lunix_path_CPI3_5(%rip), %xmm0
	pmovmskb	%xmm0, %edi
	orl	$65536, %edi
	rep		bsfl	%edi, %edi
	addq	%r9, %rdi
	jmp	.Lunix_path_BB3_549
.Lunix_path_BB3_548:
	movzwl	%di, %edi
	addq	%r10, %rdi
.Lunix_path_BB3_549:
	xorl	%r10d, %r10d
	testb	%r11b, %r11b
	jne	.Lunix_path_BB3_553
.Lunix_path_BB3_550:
	cmpb	$32, (%rdx,%r10)
	jne	.Lunix_path_BB3_553
	incq	%r10
	cmpq	%r10, %r8
	jne	.Lunix_path_BB3_550
	movq	%rax, %r10
.Lunix_path_BB3_553:
	leaq	(%rdx,%r10), %r11
	subq	%r10, %r8
	cmpq	$15, %r8
	ja	.Lunix_path_BB3_558
	xorl	%eax, %eax
	testq	%r8, %r8
	je	.Lunix_path_BB3_564
.Lunix_path_BB3_555:
	cmpb	$32, (%r11,%rax)
	je	.Lunix_path_BB3_564
	incq	%rax
	cmpq	%rax, %r8
	jne	.Lunix_path_BB3_555
	movq	%r8, %rax
	jmp	.Lunix_path_BB3_564
.Lunix_path_BB3_558:
	movq	%r8, %r9
	addq	$-16, %r9
	je	.Lunix_path_BB3_562
	xorl	%r15d, %r15d
.Lunix_path_BB3_560:
	movdqu	(%r11,%r15), %xmm0
	pcmpeqb	.Lunix_path_CPI3_5(%rip), %xmm0
	pmovmskb	%xmm0, %eax
	orl	$65536, %eax
	rep		bsfl	%eax, %eax
	cmpw	$15, %ax
	jbe	.Lunix_path_BB3_563
	addq	$16, %r15
	cmpq	%r9, %r15
	jb	.Lunix_path_BB3_560
.Lunix_path_BB3_562:
	movdqu	(%r11,%r9), %xmm0
	pcmpeqb	.Lunix_path_CPI3_5(%rip), %xmm0
	pmovmskb	%xmm0, %eax
	orl	$65536, %eax
	rep		bsfl	%eax, %eax
	addq	%r9, %rax
	jmp	.Lunix_path_BB3_564
.Lunix_path_BB3_563:
	movzwl	%ax, %eax
	addq	%r15, %rax
.Lunix_path_BB3_564:
	leaq	1(%rax), %r9
	movq	%r8, %r11
	subq	%r9, %r8
	xorl	%r15d, %r15d
	cmpq	%r11, %rax
	movq	%r8, 200(%rsp)
	cmovbq	%r8, %r15
	movq	%r15, 40(%rsp)
	cmovbq	%r9, %r11
	leaq	(%rdx,%r10), %rax
	movq	%r11, 104(%rsp)
	addq	%r11, %rax
	movq	%rax, 88(%rsp)
	cmpq	$6, %rdi
	movl	$6, %eax
	cmovbq	%rdi, %rax
	movq	%rdi, %r9
	subq	%rax, %r9
	je	.Lunix_path_BB3_680
	movq	%rax, %r11
	xorl	%eax, %eax
.Lunix_path_BB3_566:
	cmpq	%rax, %r9
	je	.Lunix_path_BB3_573
	movzbl	(%rsi,%rax), %r15d
	addb	$-48, %r15b
	incq	%rax
	cmpb	$10, %r15b
	jb	.Lunix_path_BB3_566
	cmpq	$1, %r9
	je	.Lunix_path_BB3_680
	cmpb	$45, (%rsi)
	jne	.Lunix_path_BB3_680
	movl	$1, %eax
.Lunix_path_BB3_571:
	cmpq	%rax, %r9
	je	.Lunix_path_BB3_573
	movzbl	(%rsi,%rax), %r15d
	addb	$-48, %r15b
	incq	%rax
	cmpb	$10, %r15b
	jb	.Lunix_path_BB3_571
	jmp	.Lunix_path_BB3_680
.Lunix_path_BB3_573:
	xorl	%eax, %eax
	testq	%rdi, %rdi
	setne	%r15b
	je	.Lunix_path_BB3_847
	addq	%rsi, %r9
	cmpb	$45, (%r9)
	jne	.Lunix_path_BB3_681
	movb	%r15b, %al
	addq	%rax, %r9
	subq	%rax, %r11
	cmpq	$16, %r11
	movq	%r11, 32(%rsp)
	jae	.Lunix_path_BB3_579
	testq	%r11, %r11
	je	.Lunix_path_BB3_681
	cmpb	$45, (%r9)
	jne	.Lunix_path_BB3_583
	xorl	%eax, %eax
	jmp	.Lunix_path_BB3_593
.Lunix_path_BB3_579:
	xorl	%r15d, %r15d
.Lunix_path_BB3_580:
	movdqu	(%r9,%r15), %xmm0
	pcmpeqb	.Lunix_path_CPI3_8(%rip), %xmm0
	pmovmskb	%xmm0, %eax
	orl	$65536, %eax
	rep		bsfl	%eax, %eax
	cmpw	$15, %ax
	jbe	.Lunix_path_BB3_582
	cmpq	$-33, %r15
	leaq	16(%r15), %r15
	jb	.Lunix_path_BB3_580
	jmp	.Lunix_path_BB3_680
.Lunix_path_BB3_582:
	movzwl	%ax, %eax
	addq	%r15, %rax
	jmp	.Lunix_path_BB3_593
.Lunix_path_BB3_583:
	movq	32(%rsp), %r8
	movq	%r8, %rax
	cmpq	$1, %r8
	je	.Lunix_path_BB3_593
	movl	$1, %eax
	cmpb	$45, 1(%r9)
	je	.Lunix_path_BB3_593
	movq	32(%rsp), %r8
	movq	%r8, %rax
	cmpq	$2, %r8
	je	.Lunix_path_BB3_593
	movl	$2, %eax
	cmpb	$45, 2(%r9)
	je	.Lunix_path_BB3_593
	movq	32(%rsp), %r8
	movq	%r8, %rax
	cmpq	$3, %r8
	je	.Lunix_path_BB3_593
	movl	$3, %eax
	cmpb	$45, 3(%r9)
	je	.Lunix_path_BB3_593
	movq	32(%rsp), %r8
	movq	%r8, %rax
	cmpq	$4, %r8
	je	.Lunix_path_BB3_593
	movl	$4, %eax
	cmpb	$45, 4(%r9)
	je	.Lunix_path_BB3_593
	movq	32(%rsp), %r8
	movq	%r8, %rax
	cmpq	$5, %r8
	je	.Lunix_path_BB3_593
	cmpb	$45, 5(%r9)
	movl	$5, %eax
	cmovneq	32(%rsp), %rax
.Lunix_path_BB3_593:
	cmpq	$2, %rax
	jne	.Lunix_path_BB3_680
	movzbl	(%r9), %eax
	addb	$-48, %al
	cmpb	$9, %al
	ja	.Lunix_path_BB3_680
	movzbl	1(%r9), %eax
	addb	$-48, %al
	cmpb	$9, %al
	ja	.Lunix_path_BB3_680
	movq	%rcx, 80(%rsp)
	cmpq	$16, 32(%rsp)
	jae	.Lunix_path_BB3_601
	cmpq	$0, 32(%rsp)
	je	.Lunix_path_BB3_606
	xorl	%eax, %eax
	movq	80(%rsp), %rcx
.Lunix_path_BB3_599:
	cmpb	$45, (%r9,%rax)
	je	.Lunix_path_BB3_607
	incq	%rax
	cmpq	%rax, 32(%rsp)
	jne	.Lunix_path_BB3_599
	jmp	.Lunix_path_BB3_680
.Lunix_path_BB3_601:
	xorl	%ecx, %ecx
.Lunix_path_BB3_602:
	movdqu	(%r9,%rcx), %xmm0
	pcmpeqb	.Lunix_path_CPI3_8(%rip), %xmm0
	pmovmskb	%xmm0, %eax
	orl	$65536, %eax
	rep		bsfl	%eax, %eax
	cmpw	$15, %ax
	jbe	.Lunix_path_BB3_605
	cmpq	$-33, %rcx
	leaq	16(%rcx), %rcx
	jb	.Lunix_path_BB3_602
	movdqu	-17(%r9), %xmm0
	pcmpeqb	.Lunix_path_CPI3_8(%rip), %xmm0
	pmovmskb	%xmm0, %eax
	orl	$65536, %eax
	rep		bsfl	%eax, %eax
	addq	$-17, %rax
	jmp	.Lunix_path_BB3_607
.Lunix_path_BB3_605:
	movzwl	%ax, %eax
	addq	%rcx, %rax
	jmp	.Lunix_path_BB3_607
.Lunix_path_BB3_606:
	xorl	%eax, %eax
.Lunix_path_BB3_607:
	leaq	1(%rax), %r15
	movq	32(%rsp), %rcx
	cmpq	%rcx, %rax
	movq	%rcx, %r8
	movq	%rcx, %rax
	cmovbq	%r15, %rax
	movq	80(%rsp), %rcx
	jae	.Lunix_path_BB3_680
	subq	%r15, %r8
	cmpq	$2, %r8
	jne	.Lunix_path_BB3_680
	movzbl	(%r9,%rax), %r15d
	addb	$-48, %r15b
	cmpb	$9, %r15b
	ja	.Lunix_path_BB3_680
	movzbl	1(%r9,%rax), %eax
	addb	$-48, %al
	cmpb	$9, %al
	ja	.Lunix_path_BB3_680
	cmpq	$0, 40(%rsp)
	je	.Lunix_path_BB3_616
	xorl	%r9d, %r9d
.Lunix_path_BB3_613:
	movq	88(%rsp), %rax
	cmpb	$32, (%rax,%r9)
	jne	.Lunix_path_BB3_617
	incq	%r9
	cmpq	%r9, 40(%rsp)
	jne	.Lunix_path_BB3_613
	movq	200(%rsp), %r9
	jmp	.Lunix_path_BB3_617
.Lunix_path_BB3_616:
	xorl	%r9d, %r9d
.Lunix_path_BB3_617:
	movq	88(%rsp), %rax
	addq	%r9, %rax
	movq	%rax, 32(%rsp)
	movq	40(%rsp), %r8
	subq	%r9, %r8
	cmpq	$15, %r8
	ja	.Lunix_path_BB3_623
	testq	%r8, %r8
	movq	80(%rsp), %rcx
	je	.Lunix_path_BB3_680
	movq	104(%rsp), %rax
	leaq	(%rax,%r10), %rcx
	addq	%rdx, %rcx
	addq	%r9, %rcx
	xorl	%eax, %eax
.Lunix_path_BB3_620:
	cmpb	$32, (%rcx,%rax)
	je	.Lunix_path_BB3_629
	incq	%rax
	cmpq	%rax, %r8
	jne	.Lunix_path_BB3_620
	movq	%r8, %rax
	jmp	.Lunix_path_BB3_629
.Lunix_path_BB3_623:
	addq	$-16, %r8
	je	.Lunix_path_BB3_627
	movq	104(%rsp), %rax
	addq	%r10, %rax
	addq	%rdx, %rax
	addq	%r9, %rax
	xorl	%ecx, %ecx
.Lunix_path_BB3_625:
	movdqu	(%rax,%rcx), %xmm0
	pcmpeqb	.Lunix_path_CPI3_5(%rip), %xmm0
	pmovmskb	%xmm0, %r15d
	orl	$65536, %r15d
	rep		bsfl	%r15d, %r15d
	cmpw	$15, %r15w
	jbe	.Lunix_path_BB3_628
	addq	$16, %rcx
	cmpq	%r8, %rcx
	jb	.Lunix_path_BB3_625
.Lunix_path_BB3_627:
	movq	88(%rsp), %rax
	addq	%r9, %rax
	movdqu	(%rax,%r8), %xmm0
	pcmpeqb	.Lunix_path_CPI3_5(%rip), %xmm0
	pmovmskb	%xmm0, %eax
	orl	$65536, %eax
	rep		bsfl	%eax, %eax
	addq	%r8, %rax
	jmp	.Lunix_path_BB3_629
.Lunix_path_BB3_628:
	movzwl	%r15w, %eax
	addq	%rcx, %rax
.Lunix_path_BB3_629:
	cmpq	$15, %rax
	ja	.Lunix_path_BB3_635
	testq	%rax, %rax
	movq	80(%rsp), %rcx
	je	.Lunix_path_BB3_680
	movq	104(%rsp), %rcx
	addq	%r10, %rcx
	addq	%rdx, %rcx
	addq	%r9, %rcx
	xorl	%r15d, %r15d
.Lunix_path_BB3_632:
	cmpb	$58, (%rcx,%r15)
	je	.Lunix_path_BB3_641
	incq	%r15
	cmpq	%r15, %rax
	jne	.Lunix_path_BB3_632
	movq	%rax, %r15
	jmp	.Lunix_path_BB3_641
.Lunix_path_BB3_635:
	movq	%rax, %r8
	addq	$-16, %r8
	je	.Lunix_path_BB3_639
	movq	104(%rsp), %rcx
	leaq	(%rcx,%r10), %r11
	addq	%rdx, %r11
	addq	%r9, %r11
	xorl	%ecx, %ecx
.Lunix_path_BB3_637:
	movdqu	(%r11,%rcx), %xmm0
	pcmpeqb	.Lunix_path_CPI3_9(%rip), %xmm0
	pmovmskb	%xmm0, %r15d
	orl	$65536, %r15d
	rep		bsfl	%r15d, %r15d
	cmpw	$15, %r15w
	jbe	.Lunix_path_BB3_640
	addq	$16, %rcx
	cmpq	%r8, %rcx
	jb	.Lunix_path_BB3_637
.Lunix_path_BB3_639:
	movq	88(%rsp), %rcx
	addq	%r9, %rcx
	movdqu	(%rcx,%r8), %xmm0
	pcmpeqb	.Lunix_path_CPI3_9(%rip), %xmm0
	pmovmskb	%xmm0, %ecx
	orl	$65536, %ecx
	rep		bsfl	%ecx, %r15d
	addq	%r8, %r15
	jmp	.Lunix_path_BB3_641
.Lunix_path_BB3_640:
	movzwl	%r15w, %r15d
	addq	%rcx, %r15
.Lunix_path_BB3_641:
	cmpq	$2, %r15
	movq	80(%rsp), %rcx
	jne	.Lunix_path_BB3_680
	movq	88(%rsp), %r8
	addq	%r9, %r8
	movzbl	(%r8), %r15d
	addb	$-48, %r15b
	cmpb	$9, %r15b
	ja	.Lunix_path_BB3_680
	movq	88(%rsp), %r8
	addq	%r9, %r8
	movzbl	1(%r8), %r15d
	addb	$-48, %r15b
	cmpb	$9, %r15b
	ja	.Lunix_path_BB3_680
	cmpq	$15, %rax
	ja	.Lunix_path_BB3_649
	testq	%rax, %rax
	je	.Lunix_path_BB3_654
	movq	104(%rsp), %rcx
	addq	%r10, %rcx
	addq	%r9, %rdx
	addq	%rcx, %rdx
	xorl	%r9d, %r9d
.Lunix_path_BB3_647:
	cmpb	$58, (%rdx,%r9)
	je	.Lunix_path_BB3_656
	incq	%r9
	cmpq	%r9, %rax
	movq	80(%rsp), %rcx
	jne	.Lunix_path_BB3_647
	jmp	.Lunix_path_BB3_680
.Lunix_path_BB3_649:
	movq	%rax, %rcx
	addq	$-16, %rcx
	je	.Lunix_path_BB3_653
	movq	104(%rsp), %r8
	addq	%r10, %r8
	addq	%r9, %rdx
	addq	%r8, %rdx
	xorl	%r10d, %r10d
.Lunix_path_BB3_651:
	movdqu	(%rdx,%r10), %xmm0
	pcmpeqb	.Lunix_path_CPI3_9(%rip), %xmm0
	pmovmskb	%xmm0, %r9d
	orl	$65536, %r9d
	rep		bsfl	%r9d, %r9d
	cmpw	$15, %r9w
	jbe	.Lunix_path_BB3_655
	addq	$16, %r10
	cmpq	%rcx, %r10
	jb	.Lunix_path_BB3_651
.Lunix_path_BB3_653:
	movq	32(%rsp), %rdx
	movdqu	(%rdx,%rcx), %xmm0
	pcmpeqb	.Lunix_path_CPI3_9(%rip), %xmm0
	pmovmskb	%xmm0, %edx
	orl	$65536, %edx
	rep		bsfl	%edx, %r9d
	addq	%rcx, %r9
	jmp	.Lunix_path_BB3_656
.Lunix_path_BB3_654:
	xorl	%r9d, %r9d
	jmp	.Lunix_path_BB3_656
.Lunix_path_BB3_655:
	movzwl	%r9w, %r9d
	addq	%r10, %r9
.Lunix_path_BB3_656:
	leaq	1(%r9), %rcx
	movq	%rax, %rdx
	subq	%rcx, %rdx
	cmpq	%rax, %r9
	cmovbq	%rcx, %rax
	setae	%cl
	cmpq	$2, %rdx
	setne	%dl
	orb	%cl, %dl
	movq	80(%rsp), %rcx
	jne	.Lunix_path_BB3_680
	movq	32(%rsp), %rdx
	movzbl	(%rdx,%rax), %edx
	addb	$-48, %dl
	cmpb	$9, %dl
	ja	.Lunix_path_BB3_680
	movq	32(%rsp), %rdx
	movzbl	1(%rdx,%rax), %eax
	addb	$-48, %al
	cmpb	$9, %al
	ja	.Lunix_path_BB3_680
	cmpq	$0, 40(%rsp)
	je	.Lunix_path_BB3_696
	xorl	%ecx, %ecx
.Lunix_path_BB3_661:
	movq	88(%rsp), %rax
	cmpb	$32, (%rax,%rcx)
	jne	.Lunix_path_BB3_664
	incq	%rcx
	cmpq	%rcx, 40(%rsp)
	jne	.Lunix_path_BB3_661
	movq	200(%rsp), %rcx
.Lunix_path_BB3_664:
	movq	88(%rsp), %rax
	leaq	(%rax,%rcx), %rdx
	movq	40(%rsp), %rax
	subq	%rcx, %rax
	cmpq	$15, %rax
	ja	.Lunix_path_BB3_669
	cmpq	%rcx, 40(%rsp)
	movq	80(%rsp), %rcx
	je	.Lunix_path_BB3_696
	xorl	%r9d, %r9d
.Lunix_path_BB3_667:
	cmpb	$32, (%rdx,%r9)
	je	.Lunix_path_BB3_675
	incq	%r9
	cmpq	%r9, %rax
	movq	80(%rsp), %rcx
	jne	.Lunix_path_BB3_667
	jmp	.Lunix_path_BB3_696
.Lunix_path_BB3_669:
	movq	%rax, %rcx
	addq	$-16, %rcx
	je	.Lunix_path_BB3_673
	xorl	%r10d, %r10d
.Lunix_path_BB3_671:
	movdqu	(%rdx,%r10), %xmm0
	pcmpeqb	.Lunix_path_CPI3_5(%rip), %xmm0
	pmovmskb	%xmm0, %r9d
	orl	$65536, %r9d
	rep		bsfl	%r9d, %r9d
	cmpw	$15, %r9w
	jbe	.Lunix_path_BB3_674
	addq	$16, %r10
	cmpq	%rcx, %r10
	jb	.Lunix_path_BB3_671
.Lunix_path_BB3_673:
	movdqu	(%rdx,%rcx), %xmm0
	pcmpeqb	.Lunix_path_CPI3_5(%rip), %xmm0
	pmovmskb	%xmm0, %r9d
	orl	$65536, %r9d
	rep		bsfl	%r9d, %r9d
	addq	%rcx, %r9
	jmp	.Lunix_path_BB3_675
.Lunix_path_BB3_674:
	movzwl	%r9w, %r9d
	addq	%r10, %r9
.Lunix_path_BB3_675:
	leaq	1(%r9), %rcx
	cmpq	%rax, %r9
	movq	%rcx, %r9
	cmovaeq	%rax, %r9
	setae	%r10b
	subq	%rcx, %rax
	sete	%cl
	orb	%r10b, %cl
	movq	80(%rsp), %rcx
	jne	.Lunix_path_BB3_696
	addq	%r9, %rdx
	xorl	%r9d, %r9d
.Lunix_path_BB3_677:
	cmpb	$32, (%rdx,%r9)
	jne	.Lunix_path_BB3_679
	incq	%r9
	cmpq	%r9, %rax
	movq	80(%rsp), %rcx
	jne	.Lunix_path_BB3_677
	jmp	.Lunix_path_BB3_696
.Lunix_path_BB3_679:
	cmpq	%r9, %rax
	movq	80(%rsp), %rcx
	je	.Lunix_path_BB3_696
.Lunix_path_BB3_680:
	testq	%rdi, %rdi
	je	.Lunix_path_BB3_847
.Lunix_path_BB3_681:
	xorl	%eax, %eax
.Lunix_path_BB3_682:
	cmpq	%rax, %rdi
	je	.Lunix_path_BB3_689
	movzbl	(%rsi,%rax), %edx
	addb	$-48, %dl
	incq	%rax
	cmpb	$10, %dl
	jb	.Lunix_path_BB3_682
	cmpq	$1, %rdi
	je	.Lunix_path_BB3_847
	cmpb	$45, (%rsi)
	jne	.Lunix_path_BB3_847
	movl	$1, %eax
.Lunix_path_BB3_687:
	cmpq	%rax, %rdi
	je	.Lunix_path_BB3_689
	movzbl	(%rsi,%rax), %edx
	addb	$-48, %dl
	incq	%rax
	cmpb	$10, %dl
	jb	.Lunix_path_BB3_687
	jmp	.Lunix_path_BB3_847
.Lunix_path_BB3_689:
	cmpq	$0, 40(%rsp)
	movq	88(%rsp), %r11
	je	.Lunix_path_BB3_696
	xorl	%eax, %eax
	movq	40(%rsp), %rdx
.Lunix_path_BB3_691:
	cmpb	$32, (%r11,%rax)
	jne	.Lunix_path_BB3_694
	incq	%rax
	cmpq	%rax, %rdx
	jne	.Lunix_path_BB3_691
	movq	200(%rsp), %rax
.Lunix_path_BB3_694:
	leaq	-1(%r14), %rdx
	testq	%rdx, %rdx
	je	.Lunix_path_BB3_847
	cmpq	%rax, 40(%rsp)
	je	.Lunix_path_BB3_697
	jmp	.Lunix_path_BB3_847
.Lunix_path_BB3_696:
	leaq	-1(%r14), %rax
	testq	%rax, %rax
	je	.Lunix_path_BB3_847
.Lunix_path_BB3_697:
	cmpb	$32, -1(%rbx,%r14)
	jne	.Lunix_path_BB3_847
	movq	%rcx, 80(%rsp)
	movq	64(%rsp), %rax
	leal	(,%rax,8), %ecx
	movabsq	$478493304420, %rdx
	shrq	%cl, %rdx
	movq	120(%rsp), %r15
	movq	128(%rsp), %rcx
	cmpq	%r15, %rcx
	je	.Lunix_path_BB3_710
.Lunix_path_BB3_699:
	movq	112(%rsp), %rax
	movb	%dl, (%rax,%r15)
	incq	%r15
	movq	%r15, 120(%rsp)
	cmpq	%r15, %rcx
	movq	80(%rsp), %rdx
	je	.Lunix_path_BB3_712
.Lunix_path_BB3_700:
	leaq	(%rbx,%r14), %rsi
	incq	%rsi
	incq	%r14
	subq	%r14, %rdx
	movb	$0, (%rax,%r15)
	incq	%r15
	movq	%r15, 120(%rsp)
	leaq	288(%rsp), %rdi
	leaq	112(%rsp), %rcx
	callq	tar_listing.text.push_text
	cmpb	$0, 288(%rsp)
	jne	.Lunix_path_BB3_1021
	cmpb	$1, 296(%rsp)
	jne	.Lunix_path_BB3_847
	cmpq	%r15, 120(%rsp)
	je	.Lunix_path_BB3_847
	movq	304(%rsp), %rbx
	movq	312(%rsp), %r14
	leaq	112(%rsp), %rdi
	xorl	%esi, %esi
	callq	std_alloc.vec.Vec.push.2b9b8e146aca54c4.
	testb	%al, %al
	jne	.Lunix_path_BB3_1021
	movzbl	64(%rsp), %esi
	leaq	288(%rsp), %rdi
	leaq	112(%rsp), %r8
	movq	%rbx, %rdx
	movq	%r14, %rcx
	callq	tar_listing.entry.push_target
	cmpb	$0, 288(%rsp)
	jne	.Lunix_path_BB3_1021
	cmpb	$1, 296(%rsp)
	jne	.Lunix_path_BB3_847
	movq	304(%rsp), %rbx
	movq	312(%rsp), %r14
	leaq	112(%rsp), %rdi
	xorl	%esi, %esi
	callq	std_alloc.vec.Vec.push.2b9b8e146aca54c4.
	testb	%al, %al
	jne	.Lunix_path_BB3_1021
	testq	%r14, %r14
	je	.Lunix_path_BB3_847
	cmpb	$10, (%rbx)
	jne	.Lunix_path_BB3_847
	movq	%r14, %rcx
	incq	%rbx
	movq	48(%rsp), %rdi
	incq	%rdi
	decq	%rcx
	movq	24(%rsp), %r15
	jne	.Lunix_path_BB3_325
	jmp	.Lunix_path_BB3_1024
.Lunix_path_BB3_710:
	movq	%rdx, 40(%rsp)
	leaq	112(%rsp), %rdi
	callq	std_alloc.vec.Vec.grow_amortized.2b9b8e146aca54c4.
	testb	%al, %al
	je	.Lunix_path_BB3_1021
	movq	120(%rsp), %r15
	movq	128(%rsp), %rcx
	movq	40(%rsp), %rdx
	jmp	.Lunix_path_BB3_699
.Lunix_path_BB3_712:
	leaq	112(%rsp), %rdi
	callq	std_alloc.vec.Vec.grow_amortized.2b9b8e146aca54c4.
	testb	%al, %al
	je	.Lunix_path_BB3_1021
	movq	112(%rsp), %rax
	movq	120(%rsp), %r15
	movq	80(%rsp), %rdx
	jmp	.Lunix_path_BB3_700
.Lunix_path_BB3_210:
	movq	%rbx, 48(%rsp)
	movq	%r13, %r9
	leaq	1(%r11), %rax
	movq	%r15, %rcx
	jmp	.Lunix_path_BB3_212
	.p2align	4
.Lunix_path_BB3_211:
	addq	$24, %rax
	decq	%rcx
	je	.Lunix_path_BB3_214
.Lunix_path_BB3_212:
	cmpb	$2, -1(%rax)
	jne	.Lunix_path_BB3_211
	cmpb	$0, (%rax)
	jne	.Lunix_path_BB3_211
	jmp	.Lunix_path_BB3_266
.Lunix_path_BB3_715:
	movq	104(%rsp), %rbx
	jmp	.Lunix_path_BB3_717
	.p2align	4
.Lunix_path_BB3_716:
	addq	$32, %rbx
	decq	%rax
	je	.Lunix_path_BB3_721
.Lunix_path_BB3_717:
	cmpq	%r14, 8(%rbx)
	jne	.Lunix_path_BB3_716
	movq	(%rbx), %rdi
	movq	%rax, %r15
	movl	(%rdi), %eax
	cmpl	(%r13), %eax
	movq	%r15, %rax
	jne	.Lunix_path_BB3_716
	movq	%r14, %rsi
	movq	%r13, %rdx
	callq	core.cmp.slices.groups_equal.i8.31.core.cmp.numbers.U8PartialEq.
	testb	%al, %al
	movq	%r15, %rax
	je	.Lunix_path_BB3_716
.Lunix_path_BB3_720:
	movq	16(%rbx), %rax
	movq	%rax, 40(%rsp)
	movq	24(%rbx), %r14
	jmp	.Lunix_path_BB3_722
.Lunix_path_BB3_721:
	movq	200(%rsp), %r14
.Lunix_path_BB3_722:
	movq	24(%rbp), %rax
	movq	32(%rbp), %rbx
	movq	%rbx, %rcx
	subq	%rax, %rcx
	cmpq	%rcx, %r14
	ja	.Lunix_path_BB3_882
.Lunix_path_BB3_723:
	leaq	24(%rbp), %rcx
	movq	%r14, %rdx
	addq	%rax, %r14
	movq	16(%rbp), %r15
	pxor	%xmm0, %xmm0
	movdqu	%xmm0, (%rcx)
	leaq	(%r15,%rax), %rdi
	movq	%rdi, %rcx
	movq	40(%rsp), %rsi
	subq	%rsi, %rcx
	cmpq	%rdx, %rcx
	jae	.Lunix_path_BB3_733
	movq	%rdx, %r10
	cmpq	$4, %rdx
	jb	.Lunix_path_BB3_726
	cmpq	$32, %rcx
	jae	.Lunix_path_BB3_844
.Lunix_path_BB3_726:
	xorl	%ecx, %ecx
	movq	40(%rsp), %r9
	movq	%r10, %rsi
.Lunix_path_BB3_727:
	movq	%rcx, %rdx
	andq	$3, %rsi
	je	.Lunix_path_BB3_730
	movq	%rcx, %rdx
	.p2align	4
.Lunix_path_BB3_729:
	movzbl	(%r9,%rdx), %r8d
	movb	%r8b, (%rdi,%rdx)
	incq	%rdx
	decq	%rsi
	jne	.Lunix_path_BB3_729
.Lunix_path_BB3_730:
	subq	%r10, %rcx
	cmpq	$-4, %rcx
	ja	.Lunix_path_BB3_734
	addq	%r15, %rax
	addq	$3, %rax
	.p2align	4
.Lunix_path_BB3_732:
	movzbl	(%r9,%rdx), %ecx
	movb	%cl, -3(%rax,%rdx)
	movzbl	1(%r9,%rdx), %ecx
	movb	%cl, -2(%rax,%rdx)
	movzbl	2(%r9,%rdx), %ecx
	movb	%cl, -1(%rax,%rdx)
	movzbl	3(%r9,%rdx), %ecx
	movb	%cl, (%rax,%rdx)
	addq	$4, %rdx
	cmpq	%rdx, %r10
	jne	.Lunix_path_BB3_732
	jmp	.Lunix_path_BB3_734
.Lunix_path_BB3_733:
	callq	memmove@PLT
.Lunix_path_BB3_734:
	movq	%r15, 16(%rbp)
	movq	%r14, 24(%rbp)
	movq	%rbx, 32(%rbp)
	movb	$1, %dl
.Lunix_path_BB3_735:
	xorl	%ebx, %ebx
.Lunix_path_BB3_736:
	testb	%bl, %bl
	je	.Lunix_path_BB3_738
	movzbl	688(%rsp), %r14d
	cmpl	$2, %r14d
	jae	.Lunix_path_BB3_740
	jmp	.Lunix_path_BB3_743
.Lunix_path_BB3_738:
	movl	%edx, %ebx
	movq	%rbp, %rdi
	callq	upath_commands.output.Output.write_out.0c02296ad0e184a5.
	testb	%al, %al
	je	.Lunix_path_BB3_745
	movzbl	688(%rsp), %r14d
	cmpl	$2, %r14d
	jb	.Lunix_path_BB3_743
.Lunix_path_BB3_740:
	movl	%r14d, %eax
	addl	$-2, %eax
	cmpl	$2, %eax
	jae	.Lunix_path_BB3_742
	leaq	691(%rsp), %rax
	movb	$1, %bl
	cmpb	$0, (%rax)
	je	.Lunix_path_BB3_743
	jmp	.Lunix_path_BB3_747
.Lunix_path_BB3_742:
	leaq	699(%rsp), %rax
	movb	$1, %bl
	cmpb	$0, (%rax)
	jne	.Lunix_path_BB3_747
.Lunix_path_BB3_743:
	addq	$40, %rbp
	movb	$1, %bl
	movzbl	%dl, %eax
	leaq	.Lunix_path_JTI3_6(%rip), %rcx
	movslq	(%rcx,%rax,4), %rax
	addq	%rcx, %rax
	jmpq	*%rax
.Lunix_path_BB3_747:
	cmpb	$4, %r14b
	jne	.Lunix_path_BB3_751
.Lunix_path_BB3_748:
	cmpb	$1, 752(%rsp)
	jne	.Lunix_path_BB3_751
	cmpq	$0, 776(%rsp)
	je	.Lunix_path_BB3_751
	movq	760(%rsp), %rdi
	movl	%edx, %ebp
	callq	rattle_dealloc@PLT
	movl	%ebp, %edx
	jmp	.Lunix_path_BB3_751
.Lunix_path_BB3_745:
	movb	$1, 10(%rbp)
	movl	%ebx, %edx
	notb	%dl
	andb	$1, %dl
	xorl	%ebx, %ebx
	movzbl	688(%rsp), %r14d
	cmpb	$4, %r14b
	je	.Lunix_path_BB3_748
	jmp	.Lunix_path_BB3_751
.Lunix_path_BB3_746:
	leaq	.Lunix_path_static.106(%rip), %rsi
	movl	$21, %edx
	movq	%rbp, %rdi
	callq	upath_commands.messages.send.5821a58b74a7d609.
	movb	$3, %dl
	cmpb	$4, %r14b
	jne	.Lunix_path_BB3_751
	jmp	.Lunix_path_BB3_748
.Lunix_path_BB3_744:
	leaq	.Lunix_path_static.104(%rip), %rsi
	movl	$18, %edx
	movq	%rbp, %rdi
	callq	upath_commands.messages.send.5821a58b74a7d609.
	xorl	%edx, %edx
	cmpb	$4, %r14b
	je	.Lunix_path_BB3_748
	jmp	.Lunix_path_BB3_751
.Lunix_path_BB3_752:
	leaq	.Lunix_path_static.105(%rip), %rsi
	movl	$19, %edx
	movq	%rbp, %rdi
	callq	upath_commands.messages.send.5821a58b74a7d609.
	movb	$1, %bl
	movb	$1, %dl
	cmpb	$4, %r14b
	je	.Lunix_path_BB3_748
	jmp	.Lunix_path_BB3_751
.Lunix_path_BB3_753:
	xorl	%eax, %eax
	cmpb	$18, %r13b
	sete	%al
	movq	%rax, 1200(%rsp)
	pxor	%xmm0, %xmm0
	movdqu	%xmm0, 1208(%rsp)
	movq	$0, 1224(%rsp)
	leaq	1200(%rsp), %rsi
	leaq	696(%rsp), %rdi
	movq	%rbx, %rcx
	movq	%rbp, %r8
	callq	upath_commands.engine.answer_paths.3596f8ae3b0ff399.
	movl	%eax, %ebx
	movl	%edx, %r14d
	cmpb	$1, 1200(%rsp)
	jne	.Lunix_path_BB3_857
	cmpb	$1, 1208(%rsp)
	jne	.Lunix_path_BB3_857
	movq	1216(%rsp), %rdi
	callq	std_collections.btree.node.Node.destroy.793632148a6f265d.
	jmp	.Lunix_path_BB3_857
.Lunix_path_BB3_756:
	xorl	%eax, %eax
	cmpb	$18, %r13b
	sete	%al
	movq	%rax, 288(%rsp)
	movdqu	%xmm0, 296(%rsp)
	movq	$0, 312(%rsp)
	movdqa	%xmm0, 496(%rsp)
	xorl	%r14d, %r14d
	testb	$1, %bl
	movl	$10, %r13d
	cmovnel	%r14d, %r13d
	leaq	1200(%rsp), %rdi
	movl	$65536, %edx
	xorl	%esi, %esi
	callq	memset@PLT
	leaq	16(%rsp), %rax
	movq	%rax, 8(%rsp)
	movq	%rax, 160(%rsp)
	pxor	%xmm0, %xmm0
	movdqu	%xmm0, 168(%rsp)
	movd	%r13d, %xmm0
	punpcklbw	%xmm0, %xmm0
	pshuflw	$0, %xmm0, %xmm0
	pshufd	$68, %xmm0, %xmm2
	xorl	%r12d, %r12d
	xorl	%ebx, %ebx
	movl	%r13d, 40(%rsp)
	movdqa	%xmm2, 48(%rsp)
	jmp	.Lunix_path_BB3_761
.Lunix_path_BB3_214:
	testq	%r12, %r12
	je	.Lunix_path_BB3_228
	xorl	%eax, %eax
	jmp	.Lunix_path_BB3_219
.Lunix_path_BB3_216:
	movdqu	(%rbx,%rcx), %xmm0
	pcmpeqb	.Lunix_path_CPI3_3(%rip), %xmm0
	pmovmskb	%xmm0, %esi
	orl	$65536, %esi
	rep		bsfl	%esi, %esi
	addq	%rcx, %rsi
.Lunix_path_BB3_217:
	cmpq	%r13, %rsi
	jb	.Lunix_path_BB3_263
.Lunix_path_BB3_218:
	incq	%rax
	cmpq	%r12, %rax
	je	.Lunix_path_BB3_228
.Lunix_path_BB3_219:
	movq	%rax, %rcx
	shlq	$4, %rcx
	movq	(%r10,%rcx), %rbx
	movq	8(%r10,%rcx), %r13
	cmpq	$15, %r13
	ja	.Lunix_path_BB3_223
	xorl	%esi, %esi
	testq	%r13, %r13
	je	.Lunix_path_BB3_217
	.p2align	4
.Lunix_path_BB3_221:
	cmpb	$10, (%rbx,%rsi)
	je	.Lunix_path_BB3_217
	incq	%rsi
	cmpq	%rsi, %r13
	jne	.Lunix_path_BB3_221
	jmp	.Lunix_path_BB3_218
	.p2align	4
.Lunix_path_BB3_223:
	movq	%r13, %rcx
	addq	$-16, %rcx
	je	.Lunix_path_BB3_216
	xorl	%edi, %edi
	.p2align	4
.Lunix_path_BB3_225:
	movdqu	(%rbx,%rdi), %xmm0
	pcmpeqb	.Lunix_path_CPI3_3(%rip), %xmm0
	pmovmskb	%xmm0, %esi
	orl	$65536, %esi
	rep		bsfl	%esi, %esi
	cmpw	$15, %si
	jbe	.Lunix_path_BB3_227
	addq	$16, %rdi
	cmpq	%rcx, %rdi
	jb	.Lunix_path_BB3_225
	jmp	.Lunix_path_BB3_216
.Lunix_path_BB3_227:
	movzwl	%si, %esi
	addq	%rdi, %rsi
	jmp	.Lunix_path_BB3_217
.Lunix_path_BB3_757:
	movw	%r12w, 160(%rsp)
	movb	%r13b, 162(%rsp)
	movl	%ebp, 163(%rsp)
	movb	%sil, 167(%rsp)
	movl	(%rax), %edx
	movl	%edx, 168(%rsp)
	movzbl	4(%rax), %eax
	movb	%al, 172(%rsp)
	leaq	1200(%rsp), %r13
	leaq	160(%rsp), %rsi
	movq	%r13, %rdi
	movq	%r15, %rdx
	callq	upath_commands.archive.decide_records
	movq	1208(%rsp), %r14
	movq	1216(%rsp), %r12
	movq	1224(%rsp), %rsi
	movq	1232(%rsp), %rbx
	movq	1240(%rsp), %rdx
	movq	1248(%rsp), %rcx
	movzbl	1256(%rsp), %eax
	movl	%eax, 64(%rsp)
	movq	96(%rsp), %rbp
	cmpb	$0, (%r13)
	jne	.Lunix_path_BB3_902
	jmp	.Lunix_path_BB3_904
.Lunix_path_BB3_758:
	leaq	1200(%rsp), %rsi
.Lunix_path_BB3_759:
	movq	%r15, %rdx
	callq	memmove@PLT
.Lunix_path_BB3_760:
	movq	24(%rsp), %rax
	movq	%r14, 168(%rsp)
	movq	%r12, 176(%rsp)
	incq	%rax
	cmpq	$-1, %rax
	movq	%rax, %rbx
	je	.Lunix_path_BB3_890
.Lunix_path_BB3_761:
	movq	%rbp, %rdi
	callq	upath_commands.output.Output.write_out.0c02296ad0e184a5.
	testb	%al, %al
	jne	.Lunix_path_BB3_885
	movq	%rbx, 24(%rsp)
	leaq	496(%rsp), %rdi
	leaq	1200(%rsp), %rdx
	movq	440(%rsp), %rsi
	callq	upath_commands.input.read_some.909299a5b5e629dc.
	movq	504(%rsp), %rbx
	xorl	%r15d, %r15d
	cmpb	$0, 496(%rsp)
	cmoveq	%rbx, %r15
	jne	.Lunix_path_BB3_886
	testq	%rbx, %rbx
	je	.Lunix_path_BB3_888
	leaq	1(%rbx), %rax
	movdqa	48(%rsp), %xmm2
	.p2align	4
.Lunix_path_BB3_765:
	cmpq	$15, %rbx
	jbe	.Lunix_path_BB3_768
	movdqu	1184(%rsp,%rbx), %xmm0
	addq	$-16, %rbx
	pcmpeqb	%xmm2, %xmm0
	pmovmskb	%xmm0, %ecx
	addq	$-16, %rax
	testl	%ecx, %ecx
	je	.Lunix_path_BB3_765
	movzwl	%cx, %eax
	bsrq	%rax, %rax
	xorq	$63, %rax
	subq	%rax, %rbx
	addq	$64, %rbx
	jmp	.Lunix_path_BB3_770
	.p2align	4
.Lunix_path_BB3_768:
	cmpq	$1, %rax
	je	.Lunix_path_BB3_775
	leaq	-1(%rax), %rbx
	cmpb	%r13b, 1198(%rsp,%rax)
	movq	%rbx, %rax
	jne	.Lunix_path_BB3_768
.Lunix_path_BB3_770:
	movq	%r12, %rax
	subq	%r14, %rax
	cmpq	%rax, %rbx
	ja	.Lunix_path_BB3_813
.Lunix_path_BB3_771:
	movq	160(%rsp), %rax
	movq	%rax, 8(%rsp)
	leaq	(%rax,%r14), %rdi
	movq	%rdi, %rax
	leaq	1200(%rsp), %rcx
	subq	%rcx, %rax
	cmpq	%rbx, %rax
	jae	.Lunix_path_BB3_774
	cmpq	$4, %rbx
	jb	.Lunix_path_BB3_773
	movq	%r14, %rax
	subq	%rcx, %rax
	addq	8(%rsp), %rax
	cmpq	$32, %rax
	jae	.Lunix_path_BB3_781
.Lunix_path_BB3_773:
	xorl	%eax, %eax
.Lunix_path_BB3_792:
	movq	%rbx, %rdx
	movq	%rax, %rcx
	andq	$3, %rdx
	je	.Lunix_path_BB3_795
	movq	%rax, %rcx
	.p2align	4
.Lunix_path_BB3_794:
	movzbl	1200(%rsp,%rcx), %esi
	movb	%sil, (%rdi,%rcx)
	incq	%rcx
	decq	%rdx
	jne	.Lunix_path_BB3_794
.Lunix_path_BB3_795:
	subq	%rbx, %rax
	cmpq	$-4, %rax
	ja	.Lunix_path_BB3_798
	movq	8(%rsp), %rax
	addq	%r14, %rax
	addq	$3, %rax
	.p2align	4
.Lunix_path_BB3_797:
	movzbl	1200(%rsp,%rcx), %edx
	movb	%dl, -3(%rax,%rcx)
	movzbl	1201(%rsp,%rcx), %edx
	movb	%dl, -2(%rax,%rcx)
	movzbl	1202(%rsp,%rcx), %edx
	movb	%dl, -1(%rax,%rcx)
	movzbl	1203(%rsp,%rcx), %edx
	movb	%dl, (%rax,%rcx)
	addq	$4, %rcx
	cmpq	%rcx, %rbx
	jne	.Lunix_path_BB3_797
	jmp	.Lunix_path_BB3_798
.Lunix_path_BB3_774:
	leaq	1200(%rsp), %rsi
	movq	%rbx, %rdx
	callq	memmove@PLT
.Lunix_path_BB3_798:
	addq	%rbx, %r14
	movq	%r14, 168(%rsp)
	movq	%r12, 176(%rsp)
	pxor	%xmm0, %xmm0
	movdqa	%xmm0, 352(%rsp)
	xorl	%eax, %eax
	testb	$1, 697(%rsp)
	movdqa	%xmm0, 336(%rsp)
	movl	$10, %ecx
	cmovnel	%eax, %ecx
	leaq	336(%rsp), %rdi
	movq	8(%rsp), %rsi
	movq	%r14, %rdx
	callq	upath_commands.records.records_in
	cmpb	$0, 336(%rsp)
	jne	.Lunix_path_BB3_894
	movq	%r12, %rax
	movq	%r14, %r12
	movq	%rax, 72(%rsp)
	movq	344(%rsp), %r14
	movq	352(%rsp), %rcx
	movq	%rbp, %r8
	movq	360(%rsp), %rbp
	leaq	288(%rsp), %rsi
	leaq	696(%rsp), %rdi
	movq	%r14, %rdx
	callq	upath_commands.engine.answer_paths.3596f8ae3b0ff399.
	movl	%eax, %r13d
	movl	%edx, 64(%rsp)
	testq	%rbp, %rbp
	je	.Lunix_path_BB3_801
	movq	%r14, %rdi
	callq	rattle_dealloc@PLT
.Lunix_path_BB3_801:
	testb	%r13b, %r13b
	jne	.Lunix_path_BB3_895
	testq	%r12, %r12
	movq	96(%rsp), %rbp
	movq	72(%rsp), %r12
	je	.Lunix_path_BB3_804
	movq	$0, 168(%rsp)
.Lunix_path_BB3_804:
	subq	%rbx, %r15
	cmpq	%r12, %r15
	movl	40(%rsp), %r13d
	ja	.Lunix_path_BB3_821
	xorl	%ecx, %ecx
.Lunix_path_BB3_806:
	leaq	(%rsp,%rbx), %rsi
	addq	$1200, %rsi
	leaq	(%rcx,%r15), %r14
	movq	8(%rsp), %rax
	leaq	(%rax,%rcx), %rdi
	movq	%rdi, %rax
	subq	%rsi, %rax
	cmpq	%r15, %rax
	jae	.Lunix_path_BB3_759
	cmpq	$4, %r15
	jb	.Lunix_path_BB3_808
	leaq	1200(%rsp), %rdx
	addq	%rbx, %rdx
	movq	%rdi, %rax
	subq	%rdx, %rax
	cmpq	$32, %rax
	jae	.Lunix_path_BB3_811
.Lunix_path_BB3_808:
	xorl	%eax, %eax
	jmp	.Lunix_path_BB3_841
.Lunix_path_BB3_775:
	movq	%r12, %rax
	subq	%r14, %rax
	cmpq	%rax, %r15
	ja	.Lunix_path_BB3_838
.Lunix_path_BB3_776:
	movq	%r14, %rcx
	addq	%r15, %r14
	movq	8(%rsp), %rax
	movq	%rcx, %r8
	leaq	(%rax,%rcx), %rdi
	movq	%rdi, %rax
	leaq	1200(%rsp), %rcx
	subq	%rcx, %rax
	cmpq	%r15, %rax
	jae	.Lunix_path_BB3_758
	cmpq	$4, %r15
	jb	.Lunix_path_BB3_778
	movq	%r8, %rax
	subq	%rcx, %rax
	addq	8(%rsp), %rax
	cmpq	$32, %rax
	jae	.Lunix_path_BB3_823
.Lunix_path_BB3_778:
	xorl	%eax, %eax
.Lunix_path_BB3_832:
	movq	%r15, %rdx
	movq	%rax, %rcx
	andq	$3, %rdx
	je	.Lunix_path_BB3_835
	movq	%rax, %rcx
	.p2align	4
.Lunix_path_BB3_834:
	movzbl	1200(%rsp,%rcx), %esi
	movb	%sil, (%rdi,%rcx)
	incq	%rcx
	decq	%rdx
	jne	.Lunix_path_BB3_834
.Lunix_path_BB3_835:
	subq	%r15, %rax
	cmpq	$-4, %rax
	ja	.Lunix_path_BB3_760
	movq	8(%rsp), %rax
	addq	%r8, %rax
	addq	$3, %rax
	.p2align	4
.Lunix_path_BB3_837:
	movzbl	1200(%rsp,%rcx), %edx
	movb	%dl, -3(%rax,%rcx)
	movzbl	1201(%rsp,%rcx), %edx
	movb	%dl, -2(%rax,%rcx)
	movzbl	1202(%rsp,%rcx), %edx
	movb	%dl, -1(%rax,%rcx)
	movzbl	1203(%rsp,%rcx), %edx
	movb	%dl, (%rax,%rcx)
	addq	$4, %rcx
	cmpq	%rcx, %r15
	jne	.Lunix_path_BB3_837
	jmp	.Lunix_path_BB3_760
.Lunix_path_BB3_781:
	cmpq	$32, %rbx
	jae	.Lunix_path_BB3_785
	xorl	%eax, %eax
	jmp	.Lunix_path_BB3_789
.Lunix_path_BB3_811:
	cmpq	$32, %r15
	jae	.Lunix_path_BB3_815
	xorl	%eax, %eax
	jmp	.Lunix_path_BB3_819
.Lunix_path_BB3_785:
	movq	%rbx, %rax
	andq	$-32, %rax
	movq	8(%rsp), %rcx
	addq	%r14, %rcx
	addq	$16, %rcx
	xorl	%edx, %edx
	.p2align	4
.Lunix_path_BB3_786:
	movdqu	1200(%rsp,%rdx), %xmm0
	movdqu	1216(%rsp,%rdx), %xmm1
	movdqu	%xmm0, -16(%rcx,%rdx)
	movdqu	%xmm1, (%rcx,%rdx)
	addq	$32, %rdx
	cmpq	%rdx, %rax
	jne	.Lunix_path_BB3_786
	cmpq	%rax, %rbx
	je	.Lunix_path_BB3_798
	testb	$28, %bl
	je	.Lunix_path_BB3_792
.Lunix_path_BB3_789:
	movq	%rax, %rcx
	movq	%rbx, %rax
	andq	$-4, %rax
	.p2align	4
.Lunix_path_BB3_790:
	movl	1200(%rsp,%rcx), %edx
	movl	%edx, (%rdi,%rcx)
	addq	$4, %rcx
	cmpq	%rcx, %rax
	jne	.Lunix_path_BB3_790
	cmpq	%rax, %rbx
	je	.Lunix_path_BB3_798
	jmp	.Lunix_path_BB3_792
.Lunix_path_BB3_813:
	leaq	160(%rsp), %rdi
	movq	%rbx, %rsi
	callq	std_alloc.vec.Vec.grow_amortized.f4a78633ca2a48c6.
	testb	%al, %al
	je	.Lunix_path_BB3_1011
	movq	168(%rsp), %r14
	movq	176(%rsp), %r12
	jmp	.Lunix_path_BB3_771
.Lunix_path_BB3_815:
	movq	%r15, %rax
	andq	$-32, %rax
	leaq	1216(%rsp), %rdx
	addq	%rdx, %rbx
	movq	8(%rsp), %rdx
	addq	%rdx, %rcx
	addq	$16, %rcx
	xorl	%edx, %edx
	.p2align	4
.Lunix_path_BB3_816:
	movdqu	-16(%rbx,%rdx), %xmm0
	movdqu	(%rbx,%rdx), %xmm1
	movdqu	%xmm0, -16(%rcx,%rdx)
	movdqu	%xmm1, (%rcx,%rdx)
	addq	$32, %rdx
	cmpq	%rdx, %rax
	jne	.Lunix_path_BB3_816
	cmpq	%rax, %r15
	je	.Lunix_path_BB3_760
	testb	$28, %r15b
	je	.Lunix_path_BB3_841
.Lunix_path_BB3_819:
	movq	%rax, %rcx
	movq	%r15, %rax
	andq	$-4, %rax
	.p2align	4
.Lunix_path_BB3_820:
	movl	(%rsi,%rcx), %edx
	movl	%edx, (%rdi,%rcx)
	addq	$4, %rcx
	cmpq	%rcx, %rax
	jne	.Lunix_path_BB3_820
	jmp	.Lunix_path_BB3_840
.Lunix_path_BB3_821:
	leaq	160(%rsp), %rdi
	movq	%r15, %rsi
	callq	std_alloc.vec.Vec.grow_amortized.f4a78633ca2a48c6.
	testb	%al, %al
	je	.Lunix_path_BB3_1011
	movq	160(%rsp), %rax
	movq	%rax, 8(%rsp)
	movq	168(%rsp), %rcx
	movq	176(%rsp), %r12
	jmp	.Lunix_path_BB3_806
.Lunix_path_BB3_823:
	cmpq	$32, %r15
	jae	.Lunix_path_BB3_825
	xorl	%eax, %eax
	jmp	.Lunix_path_BB3_829
.Lunix_path_BB3_825:
	movq	%r15, %rax
	andq	$-32, %rax
	movq	8(%rsp), %rcx
	addq	%r8, %rcx
	addq	$16, %rcx
	xorl	%edx, %edx
.Lunix_path_BB3_826:
	movdqu	1200(%rsp,%rdx), %xmm0
	movdqu	1216(%rsp,%rdx), %xmm1
	movdqu	%xmm0, -16(%rcx,%rdx)
	movdqu	%xmm1, (%rcx,%rdx)
	addq	$32, %rdx
	cmpq	%rdx, %rax
	jne	.Lunix_path_BB3_826
	cmpq	%rax, %r15
	je	.Lunix_path_BB3_760
	testb	$28, %r15b
	je	.Lunix_path_BB3_832
.Lunix_path_BB3_829:
	movq	%rax, %rcx
	movq	%r15, %rax
	andq	$-4, %rax
.Lunix_path_BB3_830:
	movl	1200(%rsp,%rcx), %edx
	movl	%edx, (%rdi,%rcx)
	addq	$4, %rcx
	cmpq	%rcx, %rax
	jne	.Lunix_path_BB3_830
	cmpq	%rax, %r15
	je	.Lunix_path_BB3_760
	jmp	.Lunix_path_BB3_832
.Lunix_path_BB3_838:
	leaq	160(%rsp), %rdi
	movq	%r15, %rsi
	callq	std_alloc.vec.Vec.grow_amortized.f4a78633ca2a48c6.
	testb	%al, %al
	je	.Lunix_path_BB3_1011
	movq	160(%rsp), %rax
	movq	%rax, 8(%rsp)
	movq	168(%rsp), %r14
	movq	176(%rsp), %r12
	jmp	.Lunix_path_BB3_776
	.p2align	4
.Lunix_path_BB3_840:
	cmpq	%rax, %r15
	je	.Lunix_path_BB3_760
.Lunix_path_BB3_841:
	movzbl	(%rsi,%rax), %ecx
	movb	%cl, (%rdi,%rax)
	incq	%rax
	jmp	.Lunix_path_BB3_840
.Lunix_path_BB3_228:
	movq	%r15, %rax
	negq	%rax
	movb	$1, %cl
	xorl	%ebx, %ebx
	xorl	%r13d, %r13d
	xorl	%esi, %esi
.Lunix_path_BB3_229:
	leaq	(%rsi,%rsi,2), %rdi
	incq	%rsi
	leaq	(%r11,%rdi,8), %rdi
	jmp	.Lunix_path_BB3_231
	.p2align	4
.Lunix_path_BB3_230:
	leaq	(%rax,%rsi), %r8
	incq	%r8
	incq	%rsi
	addq	$24, %rdi
	cmpq	$1, %r8
	je	.Lunix_path_BB3_234
.Lunix_path_BB3_231:
	cmpb	$3, (%rdi)
	jne	.Lunix_path_BB3_230
	cmpb	$3, 1(%rdi)
	jne	.Lunix_path_BB3_230
	movq	8(%rdi), %rbx
	movq	16(%rdi), %r13
	xorl	%ecx, %ecx
	movq	%rax, %rdi
	addq	%rsi, %rdi
	jne	.Lunix_path_BB3_229
	jmp	.Lunix_path_BB3_235
.Lunix_path_BB3_234:
	testb	$1, %cl
	jne	.Lunix_path_BB3_266
.Lunix_path_BB3_235:
	cmpq	$15, %r13
	ja	.Lunix_path_BB3_248
	xorl	%ecx, %ecx
	testq	%r13, %r13
	je	.Lunix_path_BB3_262
.Lunix_path_BB3_237:
	cmpb	$10, (%rbx,%rcx)
	je	.Lunix_path_BB3_262
	incq	%rcx
	cmpq	%rcx, %r13
	jne	.Lunix_path_BB3_237
	jmp	.Lunix_path_BB3_266
.Lunix_path_BB3_239:
	movb	$1, %r15b
.Lunix_path_BB3_240:
	movq	24(%rsp), %rax
	testq	%rax, %rax
	movq	8(%rsp), %rdi
	je	.Lunix_path_BB3_242
	callq	rattle_dealloc@PLT
.Lunix_path_BB3_242:
	pxor	%xmm0, %xmm0
	movdqa	%xmm0, 832(%rsp)
	movdqa	%xmm0, 816(%rsp)
	movq	$0, 848(%rsp)
	movdqa	%xmm0, 656(%rsp)
	movq	$0, 672(%rsp)
	jmp	.Lunix_path_BB3_150
.Lunix_path_BB3_842:
	movq	64(%rsp), %rsi
	cmpq	$32, %rsi
	jae	.Lunix_path_BB3_866
	xorl	%ecx, %ecx
	movq	88(%rsp), %r9
	jmp	.Lunix_path_BB3_870
.Lunix_path_BB3_844:
	movq	%r10, %rsi
	cmpq	$32, %r10
	jae	.Lunix_path_BB3_873
	xorl	%ecx, %ecx
	movq	40(%rsp), %r9
	jmp	.Lunix_path_BB3_877
.Lunix_path_BB3_846:
	movb	$1, %bl
	movb	$3, %dl
	jmp	.Lunix_path_BB3_736
.Lunix_path_BB3_847:
	movq	48(%rsp), %rbx
	cmpq	$0, 128(%rsp)
	movq	96(%rsp), %rbp
	movq	24(%rsp), %r15
	je	.Lunix_path_BB3_849
	movq	112(%rsp), %rdi
	callq	rattle_dealloc@PLT
.Lunix_path_BB3_849:
	pxor	%xmm0, %xmm0
	movdqa	%xmm0, 112(%rsp)
	movdqa	%xmm0, 128(%rsp)
	movq	%rbx, 240(%rsp)
	leaq	.Lunix_path_static.80(%rip), %rax
	movq	%rax, 288(%rsp)
	movq	$12, 296(%rsp)
	leaq	240(%rsp), %rax
	movq	%rax, 304(%rsp)
	leaq	.Lunix_path_static.81(%rip), %rax
	movq	%rax, 312(%rsp)
	movq	$30, 320(%rsp)
	leaq	112(%rsp), %rdi
	leaq	288(%rsp), %rsi
	callq	std_alloc.string.String.format.7c436104ea11042b.
	cmpb	$0, 112(%rsp)
	jne	.Lunix_path_BB3_902
	movq	120(%rsp), %rdi
	testb	$1, 440(%rsp)
	je	.Lunix_path_BB3_899
	pxor	%xmm1, %xmm1
	leaq	16(%rsp), %rbx
	cmpq	$0, 136(%rsp)
	je	.Lunix_path_BB3_853
	callq	rattle_dealloc@PLT
	pxor	%xmm1, %xmm1
.Lunix_path_BB3_853:
	movq	%rbx, %rdi
	jmp	.Lunix_path_BB3_900
.Lunix_path_BB3_854:
	leaq	16(%rsp), %r14
	xorl	%r15d, %r15d
.Lunix_path_BB3_855:
	movq	%r14, %rdi
	movq	%rdx, %rsi
	movq	%r15, %rdx
	callq	memmove@PLT
.Lunix_path_BB3_856:
	movq	%r14, 336(%rsp)
	movq	%rbx, 344(%rsp)
	movq	%rbx, 352(%rsp)
	leaq	336(%rsp), %rsi
	leaq	696(%rsp), %rdi
	movq	%rbp, %rdx
	callq	upath_commands.runs.answer_gathered.3596f8ae3b0ff399.
	movl	%eax, %ebx
	movl	%edx, %r14d
.Lunix_path_BB3_857:
	testb	%bl, %bl
	je	.Lunix_path_BB3_859
	movl	%r14d, %edx
	jmp	.Lunix_path_BB3_736
.Lunix_path_BB3_859:
	xorl	%eax, %eax
	cmpb	$15, %r13b
	jmp	.Lunix_path_BB3_922
.Lunix_path_BB3_860:
	movq	120(%rsp), %r14
	movq	128(%rsp), %rdx
	movq	136(%rsp), %r15
	xorl	%eax, %eax
	testb	$1, %bl
	movl	$10, %ecx
	cmovnel	%eax, %ecx
	leaq	544(%rsp), %rdi
	movq	%r14, %rsi
	callq	upath_commands.records.records_in
	cmpb	$0, 544(%rsp)
	je	.Lunix_path_BB3_892
	movb	$3, %dl
	testq	%r15, %r15
	je	.Lunix_path_BB3_321
	movq	%r14, %rdi
	callq	rattle_dealloc@PLT
	movb	$3, %dl
	movb	$1, %bl
	jmp	.Lunix_path_BB3_736
.Lunix_path_BB3_863:
	movb	$1, %r14b
	xorl	%ecx, %ecx
.Lunix_path_BB3_864:
	movw	%r12w, 496(%rsp)
	movb	%r13b, 498(%rsp)
	movl	%ebp, 499(%rsp)
	movq	72(%rsp), %rax
	movb	%al, 503(%rsp)
	movl	864(%rsp), %eax
	movl	%eax, 504(%rsp)
	movzbl	868(%rsp), %eax
	movb	%al, 508(%rsp)
	leaq	336(%rsp), %rdi
	leaq	496(%rsp), %rsi
	movq	%rbx, %rdx
	callq	upath_commands.archive.decide_records
	testb	%r14b, %r14b
	movq	96(%rsp), %rbp
	jne	.Lunix_path_BB3_901
	movq	%rbx, %rdi
	callq	rattle_dealloc@PLT
	jmp	.Lunix_path_BB3_901
.Lunix_path_BB3_866:
	movq	%rsi, %rcx
	andq	$-32, %rcx
	leaq	(%rax,%r15), %rdx
	addq	$16, %rdx
	xorl	%esi, %esi
	movq	88(%rsp), %r9
	.p2align	4
.Lunix_path_BB3_867:
	movdqu	(%r9,%rsi), %xmm0
	movdqu	16(%r9,%rsi), %xmm1
	movdqu	%xmm0, -16(%rdx,%rsi)
	movdqu	%xmm1, (%rdx,%rsi)
	addq	$32, %rsi
	cmpq	%rsi, %rcx
	jne	.Lunix_path_BB3_867
	movq	64(%rsp), %rsi
	cmpq	%rcx, %rsi
	je	.Lunix_path_BB3_734
	testb	$28, %sil
	je	.Lunix_path_BB3_303
.Lunix_path_BB3_870:
	movq	%rcx, %rdx
	movq	%rsi, %rcx
	andq	$-4, %rcx
	.p2align	4
.Lunix_path_BB3_871:
	movl	(%r9,%rdx), %esi
	movl	%esi, (%rdi,%rdx)
	addq	$4, %rdx
	cmpq	%rdx, %rcx
	jne	.Lunix_path_BB3_871
	movq	64(%rsp), %rsi
	cmpq	%rcx, %rsi
	jne	.Lunix_path_BB3_303
	jmp	.Lunix_path_BB3_734
.Lunix_path_BB3_873:
	movq	%rsi, %rcx
	andq	$-32, %rcx
	leaq	(%rax,%r15), %rdx
	addq	$16, %rdx
	xorl	%esi, %esi
	movq	40(%rsp), %r9
	.p2align	4
.Lunix_path_BB3_874:
	movdqu	(%r9,%rsi), %xmm0
	movdqu	16(%r9,%rsi), %xmm1
	movdqu	%xmm0, -16(%rdx,%rsi)
	movdqu	%xmm1, (%rdx,%rsi)
	addq	$32, %rsi
	cmpq	%rsi, %rcx
	jne	.Lunix_path_BB3_874
	cmpq	%rcx, %r10
	je	.Lunix_path_BB3_734
	movq	%r10, %rsi
	testb	$28, %sil
	je	.Lunix_path_BB3_727
.Lunix_path_BB3_877:
	movq	%rcx, %rdx
	movq	%rsi, %rcx
	andq	$-4, %rcx
	.p2align	4
.Lunix_path_BB3_878:
	movl	(%r9,%rdx), %esi
	movl	%esi, (%rdi,%rdx)
	addq	$4, %rdx
	cmpq	%rdx, %rcx
	jne	.Lunix_path_BB3_878
	movq	%r10, %rsi
	cmpq	%rcx, %r10
	jne	.Lunix_path_BB3_727
	jmp	.Lunix_path_BB3_734
.Lunix_path_BB3_880:
	leaq	16(%rbp), %rdi
	movq	%r14, %rsi
	callq	std_alloc.vec.Vec.grow_amortized.f4a78633ca2a48c6.
	testb	%al, %al
	je	.Lunix_path_BB3_884
	movq	24(%rbp), %rax
	movq	32(%rbp), %rbx
	jmp	.Lunix_path_BB3_299
.Lunix_path_BB3_882:
	leaq	16(%rbp), %rdi
	movq	%r14, %rsi
	callq	std_alloc.vec.Vec.grow_amortized.f4a78633ca2a48c6.
	testb	%al, %al
	je	.Lunix_path_BB3_884
	movq	24(%rbp), %rax
	movq	32(%rbp), %rbx
	jmp	.Lunix_path_BB3_723
.Lunix_path_BB3_884:
	movb	$3, %dl
	movb	$1, %bl
	jmp	.Lunix_path_BB3_736
.Lunix_path_BB3_243:
	je	.Lunix_path_BB3_245
	movzbl	1(%rax), %ebp
.Lunix_path_BB3_245:
	movq	8(%rax), %r13
	movq	16(%rax), %r14
	cmpq	$0, 24(%rsp)
	je	.Lunix_path_BB3_247
	movq	%r11, %rdi
	callq	rattle_dealloc@PLT
.Lunix_path_BB3_247:
	xorl	%r12d, %r12d
.Lunix_path_BB3_714:
	movb	%bpl, 784(%rsp)
	movl	%r12d, 785(%rsp)
	movq	%r12, %rax
	shrq	$48, %rax
	movb	%al, 791(%rsp)
	shrq	$32, %r12
	movw	%r12w, 789(%rsp)
	movq	%r13, 792(%rsp)
	movq	%r14, 800(%rsp)
	leaq	784(%rsp), %rdi
	movq	96(%rsp), %rsi
	callq	upath_commands.runs.refuse.3596f8ae3b0ff399.
	movl	%eax, %ebx
	jmp	.Lunix_path_BB3_751
.Lunix_path_BB3_885:
	movq	%r12, %rax
	movl	%edx, %r12d
	jmp	.Lunix_path_BB3_887
.Lunix_path_BB3_886:
	movq	%r12, %rax
	movzbl	497(%rsp), %r12d
.Lunix_path_BB3_887:
	movb	$1, %bl
	testq	%rax, %rax
	jne	.Lunix_path_BB3_897
	jmp	.Lunix_path_BB3_916
.Lunix_path_BB3_888:
	movq	%r12, %r13
	movq	%r14, %rdx
	movq	160(%rsp), %r14
	pxor	%xmm0, %xmm0
	movdqa	%xmm0, 352(%rsp)
	xorl	%eax, %eax
	testb	$1, 697(%rsp)
	movdqa	%xmm0, 336(%rsp)
	movl	$10, %ecx
	cmovnel	%eax, %ecx
	leaq	336(%rsp), %rdi
	movq	%r14, %rsi
	callq	upath_commands.records.records_in
	cmpb	$0, 336(%rsp)
	je	.Lunix_path_BB3_911
	movb	$1, %bl
	movb	$3, %dl
	jmp	.Lunix_path_BB3_913
.Lunix_path_BB3_890:
	movb	$1, %bl
	movq	%r12, %rax
	movb	$3, %r12b
	testq	%rax, %rax
	je	.Lunix_path_BB3_916
.Lunix_path_BB3_891:
	movq	160(%rsp), %rdi
	jmp	.Lunix_path_BB3_915
.Lunix_path_BB3_248:
	movq	%r13, %rax
	addq	$-16, %rax
	je	.Lunix_path_BB3_252
	xorl	%esi, %esi
.Lunix_path_BB3_250:
	movdqu	(%rbx,%rsi), %xmm0
	pcmpeqb	.Lunix_path_CPI3_3(%rip), %xmm0
	pmovmskb	%xmm0, %ecx
	orl	$65536, %ecx
	rep		bsfl	%ecx, %ecx
	cmpw	$15, %cx
	jbe	.Lunix_path_BB3_261
	addq	$16, %rsi
	cmpq	%rax, %rsi
	jb	.Lunix_path_BB3_250
.Lunix_path_BB3_252:
	movdqu	(%rbx,%rax), %xmm0
	pcmpeqb	.Lunix_path_CPI3_3(%rip), %xmm0
	pmovmskb	%xmm0, %ecx
	orl	$65536, %ecx
	rep		bsfl	%ecx, %ecx
	addq	%rax, %rcx
	jmp	.Lunix_path_BB3_262
.Lunix_path_BB3_253:
	cmpq	$0, 1216(%rsp)
	je	.Lunix_path_BB3_255
	movq	1200(%rsp), %rdi
	callq	rattle_dealloc@PLT
.Lunix_path_BB3_255:
	cmpq	$0, 24(%rsp)
	je	.Lunix_path_BB3_961
	movq	8(%rsp), %rdi
	jmp	.Lunix_path_BB3_960
.Lunix_path_BB3_892:
	leaq	552(%rsp), %rsi
	leaq	696(%rsp), %rdi
	movq	%rbp, %rdx
	callq	upath_commands.runs.answer_gathered.3596f8ae3b0ff399.
	movl	%eax, %ebx
	movl	%edx, %r12d
	testq	%r15, %r15
	je	.Lunix_path_BB3_919
	movq	%r14, %rdi
	callq	rattle_dealloc@PLT
	jmp	.Lunix_path_BB3_919
.Lunix_path_BB3_894:
	movb	$3, %al
	movq	%r12, %rcx
	jmp	.Lunix_path_BB3_896
.Lunix_path_BB3_895:
	movq	96(%rsp), %rbp
	movl	64(%rsp), %eax
	movq	72(%rsp), %rcx
.Lunix_path_BB3_896:
	movl	%eax, %r12d
	movb	$1, %bl
	testq	%rcx, %rcx
	je	.Lunix_path_BB3_916
.Lunix_path_BB3_897:
	movq	8(%rsp), %rdi
	jmp	.Lunix_path_BB3_915
.Lunix_path_BB3_899:
	movdqa	128(%rsp), %xmm1
.Lunix_path_BB3_900:
	movb	$0, 336(%rsp)
	leaq	16(%rsp), %rax
	movq	%rax, 344(%rsp)
	pxor	%xmm0, %xmm0
	movdqa	%xmm0, 352(%rsp)
	movq	%rdi, 368(%rsp)
	movdqu	%xmm1, 376(%rsp)
	movq	$0, 392(%rsp)
.Lunix_path_BB3_901:
	movq	344(%rsp), %r14
	movq	352(%rsp), %r12
	movq	360(%rsp), %rsi
	movq	368(%rsp), %rbx
	movq	376(%rsp), %rdx
	movq	384(%rsp), %rcx
	leaq	336(%rsp), %r13
	movzbl	392(%rsp), %eax
	movl	%eax, 64(%rsp)
	cmpb	$0, (%r13)
	je	.Lunix_path_BB3_904
.Lunix_path_BB3_902:
	movb	$1, %bl
	movb	$3, %dl
	cmpq	$0, 8(%rsp)
	je	.Lunix_path_BB3_736
	movq	%r15, %rdi
	callq	rattle_dealloc@PLT
	movb	$3, %dl
	jmp	.Lunix_path_BB3_736
.Lunix_path_BB3_904:
	movq	%rsi, 96(%rsp)
	movq	%rcx, 72(%rsp)
	leaq	40(%rbp), %rdi
	movq	%rbx, %rsi
	callq	upath_commands.messages.send.5821a58b74a7d609.
	movq	24(%rbp), %rax
	movq	32(%rbp), %r13
	movq	%r13, %rcx
	subq	%rax, %rcx
	cmpq	%rcx, %r12
	ja	.Lunix_path_BB3_998
.Lunix_path_BB3_905:
	movq	%r15, 24(%rsp)
	leaq	24(%rbp), %rcx
	leaq	(%rax,%r12), %r9
	movq	16(%rbp), %r15
	pxor	%xmm0, %xmm0
	movdqu	%xmm0, (%rcx)
	leaq	(%r15,%rax), %rdi
	movq	%rdi, %rcx
	subq	%r14, %rcx
	cmpq	%r12, %rcx
	jae	.Lunix_path_BB3_908
	cmpq	$4, %r12
	jb	.Lunix_path_BB3_907
	cmpq	$32, %rcx
	jae	.Lunix_path_BB3_923
.Lunix_path_BB3_907:
	xorl	%ecx, %ecx
.Lunix_path_BB3_985:
	movq	%r12, %rsi
	movq	%rcx, %rdx
	andq	$3, %rsi
	je	.Lunix_path_BB3_988
	movq	%rcx, %rdx
.Lunix_path_BB3_987:
	movzbl	(%r14,%rdx), %r8d
	movb	%r8b, (%rdi,%rdx)
	incq	%rdx
	decq	%rsi
	jne	.Lunix_path_BB3_987
.Lunix_path_BB3_988:
	subq	%r12, %rcx
	cmpq	$-4, %rcx
	ja	.Lunix_path_BB3_991
	addq	%r15, %rax
	addq	$3, %rax
.Lunix_path_BB3_990:
	movzbl	(%r14,%rdx), %ecx
	movb	%cl, -3(%rax,%rdx)
	movzbl	1(%r14,%rdx), %ecx
	movb	%cl, -2(%rax,%rdx)
	movzbl	2(%r14,%rdx), %ecx
	movb	%cl, -1(%rax,%rdx)
	movzbl	3(%r14,%rdx), %ecx
	movb	%cl, (%rax,%rdx)
	addq	$4, %rdx
	cmpq	%rdx, %r12
	jne	.Lunix_path_BB3_990
	jmp	.Lunix_path_BB3_991
.Lunix_path_BB3_908:
	movq	%r14, %rsi
	movq	%r12, %rdx
	movq	%r9, %r12
	callq	memmove@PLT
	movq	%r12, %r9
.Lunix_path_BB3_991:
	movq	%r15, 16(%rbp)
	movq	%r9, 24(%rbp)
	movq	%r13, 32(%rbp)
	cmpq	$0, 96(%rsp)
	je	.Lunix_path_BB3_993
	movq	%r14, %rdi
	callq	rattle_dealloc@PLT
.Lunix_path_BB3_993:
	cmpq	$0, 72(%rsp)
	movq	24(%rsp), %r14
	movl	64(%rsp), %edx
	je	.Lunix_path_BB3_995
	movq	%rbx, %rdi
	movl	%edx, %ebx
	callq	rattle_dealloc@PLT
	movl	%ebx, %edx
.Lunix_path_BB3_995:
	cmpq	$0, 8(%rsp)
	je	.Lunix_path_BB3_735
	movq	%r14, %rdi
	movl	%edx, %ebx
	callq	rattle_dealloc@PLT
	movl	%ebx, %edx
	jmp	.Lunix_path_BB3_735
.Lunix_path_BB3_257:
	leaq	1200(%rsp), %rdi
	callq	std_alloc.vec.Vec.grow_amortized.22ca91936d612ecb.
	testb	%al, %al
	je	.Lunix_path_BB3_958
	movq	1208(%rsp), %r15
	jmp	.Lunix_path_BB3_140
.Lunix_path_BB3_259:
	leaq	1200(%rsp), %rdi
	callq	std_alloc.vec.Vec.grow_amortized.22ca91936d612ecb.
	testb	%al, %al
	je	.Lunix_path_BB3_958
	movq	1208(%rsp), %r15
	jmp	.Lunix_path_BB3_152
.Lunix_path_BB3_911:
	movq	344(%rsp), %r15
	movq	352(%rsp), %rcx
	movq	360(%rsp), %r12
	leaq	288(%rsp), %rsi
	leaq	696(%rsp), %rdi
	movq	%r15, %rdx
	movq	%rbp, %r8
	callq	upath_commands.engine.answer_paths.3596f8ae3b0ff399.
	movl	%eax, %ebx
	testq	%r12, %r12
	je	.Lunix_path_BB3_913
	movq	%r15, %rdi
	movl	%edx, %r15d
	callq	rattle_dealloc@PLT
	movl	%r15d, %edx
.Lunix_path_BB3_913:
	movl	%edx, %r12d
	testq	%r13, %r13
	je	.Lunix_path_BB3_916
	movq	%r14, %rdi
.Lunix_path_BB3_915:
	callq	rattle_dealloc@PLT
.Lunix_path_BB3_916:
	cmpb	$1, 288(%rsp)
	jne	.Lunix_path_BB3_919
	cmpb	$1, 296(%rsp)
	jne	.Lunix_path_BB3_919
	movq	304(%rsp), %rdi
	callq	std_collections.btree.node.Node.destroy.793632148a6f265d.
.Lunix_path_BB3_919:
	testb	%bl, %bl
	je	.Lunix_path_BB3_921
	movl	%r12d, %edx
	jmp	.Lunix_path_BB3_736
.Lunix_path_BB3_921:
	xorl	%eax, %eax
	cmpb	$15, 696(%rsp)
.Lunix_path_BB3_922:
	sete	%al
	movzbl	72(%rbp,%rax), %edx
	andb	$1, %dl
	jmp	.Lunix_path_BB3_736
.Lunix_path_BB3_923:
	cmpq	$32, %r12
	jae	.Lunix_path_BB3_978
	xorl	%ecx, %ecx
	jmp	.Lunix_path_BB3_982
.Lunix_path_BB3_261:
	movzwl	%cx, %ecx
	addq	%rsi, %rcx
.Lunix_path_BB3_262:
	cmpq	%r13, %rcx
	jae	.Lunix_path_BB3_266
.Lunix_path_BB3_263:
	cmpq	$0, 48(%rsp)
	je	.Lunix_path_BB3_265
	movq	%r10, %rdi
	callq	rattle_dealloc@PLT
	movq	8(%rsp), %r11
.Lunix_path_BB3_265:
	pxor	%xmm0, %xmm0
	movdqa	%xmm0, 624(%rsp)
	movdqa	%xmm0, 608(%rsp)
	movq	$0, 640(%rsp)
	movdqa	%xmm0, 464(%rsp)
	movq	$0, 480(%rsp)
	movb	$14, %bpl
	movb	$1, %r15b
	xorl	%r12d, %r12d
	movq	%r13, %r14
	movq	%rbx, %r13
	xorl	%ebx, %ebx
	jmp	.Lunix_path_BB3_278
.Lunix_path_BB3_266:
	xorl	%eax, %eax
	movq	%r11, %rcx
	movq	%r15, %rsi
	movq	%r9, %r13
	jmp	.Lunix_path_BB3_269
.Lunix_path_BB3_267:
	incq	%rax
.Lunix_path_BB3_268:
	addq	$24, %rcx
	decq	%rsi
	je	.Lunix_path_BB3_271
.Lunix_path_BB3_269:
	movzbl	(%rcx), %edi
	leal	-2(%rdi), %r8d
	cmpl	$4, %r8d
	jb	.Lunix_path_BB3_268
	testl	%edi, %edi
	je	.Lunix_path_BB3_267
	jmp	.Lunix_path_BB3_272
.Lunix_path_BB3_271:
	xorl	%eax, %eax
.Lunix_path_BB3_272:
	pxor	%xmm0, %xmm0
	movdqa	%xmm0, 1200(%rsp)
	movdqa	%xmm0, 1216(%rsp)
	movdqa	%xmm0, 1232(%rsp)
	movdqa	%xmm0, 1248(%rsp)
	movdqa	%xmm0, 1264(%rsp)
	movdqa	%xmm0, 1280(%rsp)
	movq	$0, 1296(%rsp)
	movdqa	%xmm0, 288(%rsp)
	movdqa	%xmm0, 304(%rsp)
	movq	$0, 320(%rsp)
	movdqa	%xmm0, 1072(%rsp)
	movq	$0, 1088(%rsp)
	movdqa	%xmm0, 128(%rsp)
	movdqa	%xmm0, 112(%rsp)
	movq	$0, 144(%rsp)
	movdqa	%xmm0, 1040(%rsp)
	movq	$0, 1056(%rsp)
	movdqa	%xmm0, 416(%rsp)
	movdqa	%xmm0, 400(%rsp)
	movdqa	%xmm0, 384(%rsp)
	movdqa	%xmm0, 368(%rsp)
	movdqa	%xmm0, 352(%rsp)
	movdqa	%xmm0, 336(%rsp)
	movq	$0, 432(%rsp)
	movdqa	%xmm0, 560(%rsp)
	movdqa	%xmm0, 544(%rsp)
	movq	$0, 576(%rsp)
	movdqa	%xmm0, 1008(%rsp)
	movq	$0, 1024(%rsp)
	movq	$0, 453(%rsp)
	movq	$0, 448(%rsp)
	movdqa	%xmm0, 176(%rsp)
	movdqa	%xmm0, 160(%rsp)
	movq	$0, 192(%rsp)
	movdqa	%xmm0, 976(%rsp)
	movq	$0, 992(%rsp)
	movdqa	%xmm0, 512(%rsp)
	movdqa	%xmm0, 496(%rsp)
	movq	$0, 528(%rsp)
	movdqa	%xmm0, 944(%rsp)
	movq	$0, 960(%rsp)
	movzbl	%dl, %esi
	leaq	.Lunix_path_JTI3_3(%rip), %rcx
	movslq	(%rcx,%rsi,4), %rdx
	addq	%rcx, %rdx
	movq	48(%rsp), %rbx
	jmpq	*%rdx
.Lunix_path_BB3_273:
	movq	%r13, 496(%rsp)
	movq	%r14, 504(%rsp)
	movq	%r11, 512(%rsp)
	movq	%r15, 520(%rsp)
	movq	%rax, 528(%rsp)
	movq	%r10, 944(%rsp)
	movq	%r12, 952(%rsp)
	movq	%rbx, 960(%rsp)
	leaq	944(%rsp), %rax
	movq	%rax, (%rsp)
	leaq	.Lunix_path_static.5(%rip), %rdx
	leaq	1200(%rsp), %rdi
	leaq	496(%rsp), %r8
	movl	$1, %r9d
.Lunix_path_BB3_274:
	xorl	%ecx, %ecx
	callq	upath_commands.arguments.each
.Lunix_path_BB3_275:
	movq	8(%rsp), %r11
	movzbl	1200(%rsp), %r15d
	movzbl	1208(%rsp), %ebp
	movq	1216(%rsp), %r13
	movq	1224(%rsp), %r14
	movzbl	1272(%rsp), %eax
	movzbl	1215(%rsp), %ecx
	shll	$16, %ecx
	movzwl	1213(%rsp), %edx
	orl	%ecx, %edx
	shlq	$32, %rdx
	movl	1209(%rsp), %r12d
	orq	%rdx, %r12
	movaps	1232(%rsp), %xmm0
	movaps	%xmm0, 240(%rsp)
	movaps	1248(%rsp), %xmm0
	movaps	%xmm0, 256(%rsp)
	movq	1264(%rsp), %rcx
	movq	%rcx, 272(%rsp)
	movdqa	1280(%rsp), %xmm0
	movdqa	%xmm0, 208(%rsp)
	movq	1296(%rsp), %rcx
.Lunix_path_BB3_276:
	movq	%rcx, 224(%rsp)
.Lunix_path_BB3_277:
	movaps	240(%rsp), %xmm0
	movdqa	256(%rsp), %xmm1
	movaps	%xmm0, 608(%rsp)
	movdqa	%xmm1, 624(%rsp)
	movq	272(%rsp), %rcx
	movq	%rcx, 640(%rsp)
	movq	224(%rsp), %rcx
	movq	%rcx, 480(%rsp)
	movdqa	208(%rsp), %xmm0
	movdqa	%xmm0, 464(%rsp)
	movzbl	%al, %ebx
.Lunix_path_BB3_278:
	movq	24(%rsp), %rax
	testq	%rax, %rax
	jne	.Lunix_path_BB3_279
	jmp	.Lunix_path_BB3_280
.Lunix_path_BB3_898:
	movq	%r13, 112(%rsp)
	movq	%r14, 120(%rsp)
	movq	%r11, 128(%rsp)
	movq	%r15, 136(%rsp)
	movq	%rax, 144(%rsp)
	movq	%r10, 1040(%rsp)
	movq	%r12, 1048(%rsp)
	movq	%rbx, 1056(%rsp)
	leaq	1200(%rsp), %rdi
	leaq	112(%rsp), %rcx
	leaq	1040(%rsp), %r8
	movl	$9, %edx
	callq	upath_commands.arguments.each_after
	jmp	.Lunix_path_BB3_275
.Lunix_path_BB3_925:
	leaq	1(%r11), %rcx
	movq	%r15, %rdx
	jmp	.Lunix_path_BB3_927
.Lunix_path_BB3_926:
	addq	$24, %rcx
	decq	%rdx
	je	.Lunix_path_BB3_962
.Lunix_path_BB3_927:
	cmpb	$2, -1(%rcx)
	jne	.Lunix_path_BB3_926
	cmpb	$5, (%rcx)
	jne	.Lunix_path_BB3_926
	movb	$1, %cl
	jmp	.Lunix_path_BB3_963
.Lunix_path_BB3_930:
	testq	%r12, %r12
	je	.Lunix_path_BB3_1008
	movq	(%r10), %r13
	movq	8(%r10), %r14
	testq	%rbx, %rbx
	je	.Lunix_path_BB3_933
	movq	%r10, %rdi
	callq	rattle_dealloc@PLT
	movq	8(%rsp), %r11
.Lunix_path_BB3_933:
	pxor	%xmm0, %xmm0
	movdqa	%xmm0, 256(%rsp)
	movdqa	%xmm0, 240(%rsp)
	movq	$0, 272(%rsp)
	movdqa	%xmm0, 208(%rsp)
	movq	$0, 224(%rsp)
	movb	$12, %bpl
	jmp	.Lunix_path_BB3_1005
.Lunix_path_BB3_934:
	leaq	1(%r11), %rcx
	movq	%r15, %rdx
	jmp	.Lunix_path_BB3_936
.Lunix_path_BB3_935:
	addq	$24, %rcx
	decq	%rdx
	je	.Lunix_path_BB3_273
.Lunix_path_BB3_936:
	cmpb	$2, -1(%rcx)
	jne	.Lunix_path_BB3_935
	cmpb	$13, (%rcx)
	jne	.Lunix_path_BB3_935
	movq	%r13, 160(%rsp)
	movq	%r14, 168(%rsp)
	movq	%r11, 176(%rsp)
	movq	%r15, 184(%rsp)
	movq	%rax, 192(%rsp)
	movq	%r10, 976(%rsp)
	movq	%r12, 984(%rsp)
	movq	%rbx, 992(%rsp)
	leaq	976(%rsp), %rax
	movq	%rax, (%rsp)
	leaq	.Lunix_path_static.5(%rip), %rdx
	leaq	1200(%rsp), %rdi
	leaq	160(%rsp), %r8
	movl	$1, %r9d
	movl	$17, %esi
	jmp	.Lunix_path_BB3_274
.Lunix_path_BB3_939:
	movdqa	%xmm0, 1184(%rsp)
	movdqa	%xmm0, 1168(%rsp)
	movdqa	%xmm0, 1104(%rsp)
	movq	$0, 1120(%rsp)
	movq	$0, 592(%rsp)
	movq	$0, 597(%rsp)
	cmpq	$2, %rbp
	ja	.Lunix_path_BB3_1006
	movl	$0, 155(%rsp)
	movl	$0, 152(%rsp)
	movb	$11, %bpl
	jmp	.Lunix_path_BB3_1017
.Lunix_path_BB3_941:
	movq	%r15, %rsi
	negq	%rsi
	movb	$1, %dil
	xorl	%ecx, %ecx
	xorl	%edx, %edx
	xorl	%r8d, %r8d
.Lunix_path_BB3_942:
	leaq	(%r8,%r8,2), %r9
	incq	%r8
	leaq	(%r11,%r9,8), %r9
	jmp	.Lunix_path_BB3_944
.Lunix_path_BB3_943:
	leaq	(%rsi,%r8), %r10
	incq	%r10
	incq	%r8
	addq	$24, %r9
	cmpq	$1, %r10
	movq	72(%rsp), %r10
	je	.Lunix_path_BB3_947
.Lunix_path_BB3_944:
	cmpb	$3, (%r9)
	jne	.Lunix_path_BB3_943
	cmpb	$8, 1(%r9)
	jne	.Lunix_path_BB3_943
	movq	8(%r9), %rdx
	movq	16(%r9), %rcx
	xorl	%edi, %edi
	movq	%rsi, %r9
	addq	%r8, %r9
	jne	.Lunix_path_BB3_942
	jmp	.Lunix_path_BB3_1000
.Lunix_path_BB3_947:
	testb	$1, %dil
	je	.Lunix_path_BB3_1000
	movb	$10, 344(%rsp)
	movl	$0, 345(%rsp)
	movl	$0, 348(%rsp)
	movq	%r13, 352(%rsp)
	movq	%r14, 360(%rsp)
	movzbl	344(%rsp), %eax
	movb	%al, 1208(%rsp)
	movl	345(%rsp), %eax
	movl	%eax, 1209(%rsp)
	movzwl	349(%rsp), %eax
	movw	%ax, 1213(%rsp)
	movzbl	351(%rsp), %eax
	movb	%al, 1215(%rsp)
	movq	352(%rsp), %rax
	movq	%rax, 1216(%rsp)
	movq	360(%rsp), %rax
	movq	%rax, 1224(%rsp)
	movq	368(%rsp), %rax
	movq	%rax, 1232(%rsp)
	movups	376(%rsp), %xmm0
	movups	392(%rsp), %xmm1
	movups	%xmm0, 1240(%rsp)
	movups	%xmm1, 1256(%rsp)
	movzbl	1208(%rsp), %ebp
	movq	1216(%rsp), %r13
	movq	1224(%rsp), %r14
	testq	%rbx, %rbx
	je	.Lunix_path_BB3_950
	movq	%r10, %rdi
	callq	rattle_dealloc@PLT
	movq	8(%rsp), %r11
.Lunix_path_BB3_950:
	xorps	%xmm0, %xmm0
	movaps	%xmm0, 256(%rsp)
	movaps	%xmm0, 240(%rsp)
	movq	$0, 272(%rsp)
	movaps	%xmm0, 208(%rsp)
	movq	$0, 224(%rsp)
	jmp	.Lunix_path_BB3_1005
.Lunix_path_BB3_951:
	andq	%rbx, %r12
	movl	$112, %esi
	xorl	%ecx, %ecx
.Lunix_path_BB3_952:
	movups	-112(%rdx,%rsi), %xmm0
	movups	%xmm0, -112(%r14,%rsi)
	movups	-96(%rdx,%rsi), %xmm0
	movups	%xmm0, -96(%r14,%rsi)
	movups	-80(%rdx,%rsi), %xmm0
	movups	%xmm0, -80(%r14,%rsi)
	movups	-64(%rdx,%rsi), %xmm0
	movups	%xmm0, -64(%r14,%rsi)
	movups	-48(%rdx,%rsi), %xmm0
	movups	%xmm0, -48(%r14,%rsi)
	movups	-32(%rdx,%rsi), %xmm0
	movups	%xmm0, -32(%r14,%rsi)
	movups	-16(%rdx,%rsi), %xmm0
	movups	%xmm0, -16(%r14,%rsi)
	movdqu	(%rdx,%rsi), %xmm0
	movdqu	%xmm0, (%r14,%rsi)
	addq	$8, %rcx
	subq	$-128, %rsi
	cmpq	%rcx, %r12
	jne	.Lunix_path_BB3_952
	testq	%rax, %rax
	je	.Lunix_path_BB3_856
.Lunix_path_BB3_954:
	shlq	$4, %rcx
	addq	%rcx, %rdx
	addq	%r14, %rcx
	shll	$4, %eax
	xorl	%esi, %esi
.Lunix_path_BB3_955:
	movdqu	(%rdx,%rsi), %xmm0
	movdqu	%xmm0, (%rcx,%rsi)
	addq	$16, %rsi
	cmpq	%rsi, %rax
	jne	.Lunix_path_BB3_955
	jmp	.Lunix_path_BB3_856
.Lunix_path_BB3_956:
	leaq	1200(%rsp), %rdi
	callq	std_alloc.vec.Vec.grow_amortized.22ca91936d612ecb.
	testb	%al, %al
	je	.Lunix_path_BB3_958
	movq	1208(%rsp), %r15
	movq	8(%rsp), %rdi
	jmp	.Lunix_path_BB3_154
.Lunix_path_BB3_958:
	cmpq	$0, 1216(%rsp)
	je	.Lunix_path_BB3_961
	movq	1200(%rsp), %rdi
.Lunix_path_BB3_960:
	callq	rattle_dealloc@PLT
.Lunix_path_BB3_961:
	movb	$4, %dl
	movb	$1, %bl
.Lunix_path_BB3_751:
	movl	%ebx, %eax
	addq	$66744, %rsp
	popq	%rbx
	popq	%r12
	popq	%r13
	popq	%r14
	popq	%r15
	popq	%rbp
	retq
.Lunix_path_BB3_962:
	xorl	%ecx, %ecx
.Lunix_path_BB3_963:
	leaq	1(%r11), %rdx
	movq	%r15, %rsi
	jmp	.Lunix_path_BB3_965
.Lunix_path_BB3_964:
	addq	$24, %rdx
	decq	%rsi
	je	.Lunix_path_BB3_968
.Lunix_path_BB3_965:
	cmpb	$2, -1(%rdx)
	jne	.Lunix_path_BB3_964
	cmpb	$6, (%rdx)
	jne	.Lunix_path_BB3_964
	movb	$1, %dl
	jmp	.Lunix_path_BB3_969
.Lunix_path_BB3_968:
	xorl	%edx, %edx
.Lunix_path_BB3_969:
	leaq	1(%r11), %rsi
	movq	%r15, %rdi
	jmp	.Lunix_path_BB3_971
.Lunix_path_BB3_970:
	addq	$24, %rsi
	decq	%rdi
	je	.Lunix_path_BB3_974
.Lunix_path_BB3_971:
	cmpb	$2, -1(%rsi)
	jne	.Lunix_path_BB3_970
	cmpb	$7, (%rsi)
	jne	.Lunix_path_BB3_970
	movb	$1, %sil
	jmp	.Lunix_path_BB3_975
.Lunix_path_BB3_974:
	xorl	%esi, %esi
.Lunix_path_BB3_975:
	testb	%cl, %cl
	je	.Lunix_path_BB3_1001
	orb	%sil, %dl
	jne	.Lunix_path_BB3_1002
.Lunix_path_BB3_977:
	movq	%r13, 288(%rsp)
	movq	%r14, 296(%rsp)
	movq	%r11, 304(%rsp)
	movq	%r15, 312(%rsp)
	movq	%rax, 320(%rsp)
	movq	%r10, 1072(%rsp)
	movq	%r12, 1080(%rsp)
	movq	%rbx, 1088(%rsp)
	leaq	1200(%rsp), %rdi
	leaq	288(%rsp), %rcx
	leaq	1072(%rsp), %r8
	movl	$8, %esi
	movl	$8, %edx
	callq	upath_commands.arguments.each_after
	jmp	.Lunix_path_BB3_275
.Lunix_path_BB3_978:
	movq	%r12, %rcx
	andq	$-32, %rcx
	leaq	(%rax,%r15), %rdx
	addq	$16, %rdx
	xorl	%esi, %esi
.Lunix_path_BB3_979:
	movdqu	(%r14,%rsi), %xmm0
	movdqu	16(%r14,%rsi), %xmm1
	movdqu	%xmm0, -16(%rdx,%rsi)
	movdqu	%xmm1, (%rdx,%rsi)
	addq	$32, %rsi
	cmpq	%rsi, %rcx
	jne	.Lunix_path_BB3_979
	cmpq	%rcx, %r12
	je	.Lunix_path_BB3_991
	testb	$28, %r12b
	je	.Lunix_path_BB3_985
.Lunix_path_BB3_982:
	movq	%rcx, %rdx
	movq	%r12, %rcx
	andq	$-4, %rcx
.Lunix_path_BB3_983:
	movl	(%r14,%rdx), %esi
	movl	%esi, (%rdi,%rdx)
	addq	$4, %rdx
	cmpq	%rdx, %rcx
	jne	.Lunix_path_BB3_983
	cmpq	%rcx, %r12
	je	.Lunix_path_BB3_991
	jmp	.Lunix_path_BB3_985
.Lunix_path_BB3_998:
	leaq	16(%rbp), %rdi
	movq	%r12, %rsi
	callq	std_alloc.vec.Vec.grow_amortized.f4a78633ca2a48c6.
	testb	%al, %al
	je	.Lunix_path_BB3_1012
	movq	24(%rbp), %rax
	movq	32(%rbp), %r13
	jmp	.Lunix_path_BB3_905
.Lunix_path_BB3_1000:
	movq	%r13, 544(%rsp)
	movq	%r14, 552(%rsp)
	movq	%r11, 560(%rsp)
	movq	%r15, 568(%rsp)
	movq	%rax, 576(%rsp)
	movq	%r10, 1008(%rsp)
	movq	%r12, 1016(%rsp)
	movq	%rbx, 1024(%rsp)
	leaq	1008(%rsp), %rax
	movq	%rax, (%rsp)
	leaq	336(%rsp), %rdi
	leaq	544(%rsp), %r8
	movl	$1, %r9d
	movl	$10, %esi
	callq	upath_commands.arguments.each
	movq	8(%rsp), %r11
	movzbl	336(%rsp), %r15d
	movzbl	344(%rsp), %ebp
	movq	352(%rsp), %r13
	movq	360(%rsp), %r14
	movzbl	408(%rsp), %eax
	movzbl	351(%rsp), %ecx
	shll	$16, %ecx
	movzwl	349(%rsp), %edx
	orl	%ecx, %edx
	shlq	$32, %rdx
	movl	345(%rsp), %r12d
	orq	%rdx, %r12
	movaps	368(%rsp), %xmm0
	movaps	%xmm0, 240(%rsp)
	movaps	384(%rsp), %xmm0
	movaps	%xmm0, 256(%rsp)
	movq	400(%rsp), %rcx
	movq	%rcx, 272(%rsp)
	movdqa	416(%rsp), %xmm0
	movdqa	%xmm0, 208(%rsp)
	movq	432(%rsp), %rcx
	jmp	.Lunix_path_BB3_276
.Lunix_path_BB3_1001:
	andb	%sil, %dl
	cmpb	$1, %dl
	jne	.Lunix_path_BB3_977
.Lunix_path_BB3_1002:
	testq	%rbx, %rbx
	je	.Lunix_path_BB3_1004
	movq	%r10, %rdi
	callq	rattle_dealloc@PLT
	movq	8(%rsp), %r11
.Lunix_path_BB3_1004:
	pxor	%xmm0, %xmm0
	movdqa	%xmm0, 256(%rsp)
	movdqa	%xmm0, 240(%rsp)
	movq	$0, 272(%rsp)
	movdqa	%xmm0, 208(%rsp)
	movq	$0, 224(%rsp)
	movb	$7, %bpl
.Lunix_path_BB3_1005:
	movb	$1, %r15b
	xorl	%r12d, %r12d
	xorl	%eax, %eax
	jmp	.Lunix_path_BB3_277
.Lunix_path_BB3_1006:
	cmpq	$2, %r12
	jne	.Lunix_path_BB3_1016
	leaq	592(%rsp), %rdi
	movq	%r11, %rsi
	movq	%r15, %rdx
	callq	upath_commands.arguments.options_of
	movq	72(%rsp), %r10
	movq	8(%rsp), %r11
	movq	(%r10), %r14
	movq	8(%r10), %rax
	movl	599(%rsp), %ecx
	movzwl	603(%rsp), %r13d
	shlq	$32, %r13
	orq	%rcx, %r13
	movl	592(%rsp), %ecx
	movl	595(%rsp), %edx
	movl	%ecx, 152(%rsp)
	movl	%edx, 155(%rsp)
	movdqu	16(%r10), %xmm0
	movdqa	%xmm0, 1184(%rsp)
	pxor	%xmm0, %xmm0
	movdqa	%xmm0, 1168(%rsp)
	movdqa	%xmm0, 1104(%rsp)
	movq	$0, 1120(%rsp)
	movb	$2, %bpl
	xorl	%r15d, %r15d
	jmp	.Lunix_path_BB3_1018
.Lunix_path_BB3_1008:
	leaq	448(%rsp), %rdi
	movq	%r11, %rsi
	movq	%r15, %rdx
	callq	upath_commands.arguments.options_of
	movl	455(%rsp), %eax
	movzwl	459(%rsp), %r13d
	shlq	$32, %r13
	orq	%rax, %r13
	testq	%rbx, %rbx
	je	.Lunix_path_BB3_1010
	movq	72(%rsp), %rdi
	callq	rattle_dealloc@PLT
.Lunix_path_BB3_1010:
	movzbl	454(%rsp), %eax
	shll	$16, %eax
	movzwl	452(%rsp), %ecx
	orl	%eax, %ecx
	shlq	$32, %rcx
	movl	448(%rsp), %r12d
	orq	%rcx, %r12
	pxor	%xmm0, %xmm0
	movdqa	%xmm0, 240(%rsp)
	movdqa	%xmm0, 256(%rsp)
	movq	$0, 272(%rsp)
	movdqa	%xmm0, 208(%rsp)
	movq	$0, 224(%rsp)
	movb	$3, %bpl
	xorl	%r15d, %r15d
	xorl	%r14d, %r14d
	xorl	%eax, %eax
	movq	8(%rsp), %r11
	jmp	.Lunix_path_BB3_277
.Lunix_path_BB3_1011:
	movb	$1, %bl
	movb	$3, %r12b
	cmpq	$0, 176(%rsp)
	jne	.Lunix_path_BB3_891
	jmp	.Lunix_path_BB3_916
.Lunix_path_BB3_1012:
	cmpq	$0, 96(%rsp)
	je	.Lunix_path_BB3_1014
	movq	%r14, %rdi
	callq	rattle_dealloc@PLT
.Lunix_path_BB3_1014:
	cmpq	$0, 72(%rsp)
	je	.Lunix_path_BB3_902
	movq	%rbx, %rdi
	callq	rattle_dealloc@PLT
	jmp	.Lunix_path_BB3_902
.Lunix_path_BB3_1016:
	movq	32(%r10), %r13
	movq	40(%r10), %r14
	movl	$0, 155(%rsp)
	movl	$0, 152(%rsp)
	movb	$12, %bpl
.Lunix_path_BB3_1017:
	movb	$1, %r15b
	xorl	%eax, %eax
.Lunix_path_BB3_1018:
	movl	152(%rsp), %ecx
	movl	155(%rsp), %edx
	movl	%edx, 1212(%rsp)
	movl	%ecx, 1209(%rsp)
	leaq	1232(%rsp), %rbx
	movq	%rax, 1232(%rsp)
	movaps	1184(%rsp), %xmm0
	movups	%xmm0, 1240(%rsp)
	movaps	1168(%rsp), %xmm0
	movups	%xmm0, 1256(%rsp)
	movaps	1104(%rsp), %xmm0
	movaps	%xmm0, 1280(%rsp)
	movq	1120(%rsp), %rax
	movq	%rax, 1296(%rsp)
	cmpq	$0, 48(%rsp)
	je	.Lunix_path_BB3_1020
	movq	%r10, %rdi
	callq	rattle_dealloc@PLT
	movq	8(%rsp), %r11
.Lunix_path_BB3_1020:
	movzbl	1215(%rsp), %eax
	shll	$16, %eax
	movzwl	1213(%rsp), %ecx
	orl	%eax, %ecx
	shlq	$32, %rcx
	movl	1209(%rsp), %r12d
	orq	%rcx, %r12
	movups	(%rbx), %xmm0
	movdqu	16(%rbx), %xmm1
	movaps	%xmm0, 240(%rsp)
	movdqa	%xmm1, 256(%rsp)
	movq	32(%rbx), %rax
	movq	%rax, 272(%rsp)
	movq	64(%rbx), %rax
	movq	%rax, 224(%rsp)
	movdqu	48(%rbx), %xmm0
	movdqa	%xmm0, 208(%rsp)
	xorl	%eax, %eax
	jmp	.Lunix_path_BB3_277
.Lunix_path_BB3_1021:
	cmpq	$0, 128(%rsp)
	je	.Lunix_path_BB3_1023
	movq	112(%rsp), %rdi
	callq	rattle_dealloc@PLT
.Lunix_path_BB3_1023:
	movq	96(%rsp), %rbp
	movq	24(%rsp), %r15
	jmp	.Lunix_path_BB3_902
.Lunix_path_BB3_1024:
	movq	112(%rsp), %rbx
	movq	120(%rsp), %rcx
	cmpq	$0, 128(%rsp)
	sete	%r14b
	jmp	.Lunix_path_BB3_864
.Lunix_path_func_end3:
	.size	upath_commands.runs.run_arguments.84bfbe5ddfee3cac., .Lunix_path_func_end3-upath_commands.runs.run_arguments.84bfbe5ddfee3cac.
	.section	.rodata.upath_commands.runs.run_arguments.84bfbe5ddfee3cac.,"a",@progbits
	.p2align	2, 0x0
.Lunix_path_JTI3_0:
	.long	.Lunix_path_BB3_42-.Lunix_path_JTI3_0
	.long	.Lunix_path_BB3_51-.Lunix_path_JTI3_0
	.long	.Lunix_path_BB3_43-.Lunix_path_JTI3_0
	.long	.Lunix_path_BB3_43-.Lunix_path_JTI3_0
	.long	.Lunix_path_BB3_43-.Lunix_path_JTI3_0
	.long	.Lunix_path_BB3_43-.Lunix_path_JTI3_0
	.long	.Lunix_path_BB3_43-.Lunix_path_JTI3_0
	.long	.Lunix_path_BB3_43-.Lunix_path_JTI3_0
	.long	.Lunix_path_BB3_43-.Lunix_path_JTI3_0
	.long	.Lunix_path_BB3_43-.Lunix_path_JTI3_0
	.long	.Lunix_path_BB3_43-.Lunix_path_JTI3_0
	.long	.Lunix_path_BB3_43-.Lunix_path_JTI3_0
	.long	.Lunix_path_BB3_43-.Lunix_path_JTI3_0
	.long	.Lunix_path_BB3_43-.Lunix_path_JTI3_0
	.long	.Lunix_path_BB3_54-.Lunix_path_JTI3_0
	.long	.Lunix_path_BB3_55-.Lunix_path_JTI3_0
	.long	.Lunix_path_BB3_56-.Lunix_path_JTI3_0
	.long	.Lunix_path_BB3_43-.Lunix_path_JTI3_0
	.long	.Lunix_path_BB3_43-.Lunix_path_JTI3_0
	.long	.Lunix_path_BB3_36-.Lunix_path_JTI3_0
	.long	.Lunix_path_BB3_52-.Lunix_path_JTI3_0
	.long	.Lunix_path_BB3_43-.Lunix_path_JTI3_0
	.long	.Lunix_path_BB3_43-.Lunix_path_JTI3_0
	.long	.Lunix_path_BB3_43-.Lunix_path_JTI3_0
	.long	.Lunix_path_BB3_53-.Lunix_path_JTI3_0
.Lunix_path_JTI3_1:
	.long	.Lunix_path_BB3_68-.Lunix_path_JTI3_1
	.long	.Lunix_path_BB3_109-.Lunix_path_JTI3_1
	.long	.Lunix_path_BB3_83-.Lunix_path_JTI3_1
	.long	.Lunix_path_BB3_88-.Lunix_path_JTI3_1
	.long	.Lunix_path_BB3_92-.Lunix_path_JTI3_1
	.long	.Lunix_path_BB3_95-.Lunix_path_JTI3_1
	.long	.Lunix_path_BB3_77-.Lunix_path_JTI3_1
	.long	.Lunix_path_BB3_109-.Lunix_path_JTI3_1
	.long	.Lunix_path_BB3_109-.Lunix_path_JTI3_1
	.long	.Lunix_path_BB3_109-.Lunix_path_JTI3_1
	.long	.Lunix_path_BB3_109-.Lunix_path_JTI3_1
	.long	.Lunix_path_BB3_86-.Lunix_path_JTI3_1
.Lunix_path_JTI3_2:
	.long	.Lunix_path_BB3_189-.Lunix_path_JTI3_2
	.long	.Lunix_path_BB3_194-.Lunix_path_JTI3_2
	.long	.Lunix_path_BB3_189-.Lunix_path_JTI3_2
	.long	.Lunix_path_BB3_194-.Lunix_path_JTI3_2
	.long	.Lunix_path_BB3_196-.Lunix_path_JTI3_2
	.long	.Lunix_path_BB3_192-.Lunix_path_JTI3_2
	.long	.Lunix_path_BB3_192-.Lunix_path_JTI3_2
	.long	.Lunix_path_BB3_192-.Lunix_path_JTI3_2
	.long	.Lunix_path_BB3_199-.Lunix_path_JTI3_2
	.long	.Lunix_path_BB3_197-.Lunix_path_JTI3_2
	.long	.Lunix_path_BB3_198-.Lunix_path_JTI3_2
	.long	.Lunix_path_BB3_193-.Lunix_path_JTI3_2
	.long	.Lunix_path_BB3_193-.Lunix_path_JTI3_2
	.long	.Lunix_path_BB3_188-.Lunix_path_JTI3_2
	.long	.Lunix_path_BB3_188-.Lunix_path_JTI3_2
	.long	.Lunix_path_BB3_188-.Lunix_path_JTI3_2
	.long	.Lunix_path_BB3_195-.Lunix_path_JTI3_2
	.long	.Lunix_path_BB3_195-.Lunix_path_JTI3_2
.Lunix_path_JTI3_3:
	.long	.Lunix_path_BB3_273-.Lunix_path_JTI3_3
	.long	.Lunix_path_BB3_273-.Lunix_path_JTI3_3
	.long	.Lunix_path_BB3_273-.Lunix_path_JTI3_3
	.long	.Lunix_path_BB3_273-.Lunix_path_JTI3_3
	.long	.Lunix_path_BB3_273-.Lunix_path_JTI3_3
	.long	.Lunix_path_BB3_273-.Lunix_path_JTI3_3
	.long	.Lunix_path_BB3_273-.Lunix_path_JTI3_3
	.long	.Lunix_path_BB3_273-.Lunix_path_JTI3_3
	.long	.Lunix_path_BB3_925-.Lunix_path_JTI3_3
	.long	.Lunix_path_BB3_898-.Lunix_path_JTI3_3
	.long	.Lunix_path_BB3_941-.Lunix_path_JTI3_3
	.long	.Lunix_path_BB3_273-.Lunix_path_JTI3_3
	.long	.Lunix_path_BB3_273-.Lunix_path_JTI3_3
	.long	.Lunix_path_BB3_273-.Lunix_path_JTI3_3
	.long	.Lunix_path_BB3_930-.Lunix_path_JTI3_3
	.long	.Lunix_path_BB3_898-.Lunix_path_JTI3_3
	.long	.Lunix_path_BB3_934-.Lunix_path_JTI3_3
	.long	.Lunix_path_BB3_273-.Lunix_path_JTI3_3
	.long	.Lunix_path_BB3_273-.Lunix_path_JTI3_3
	.long	.Lunix_path_BB3_939-.Lunix_path_JTI3_3
.Lunix_path_JTI3_4:
	.long	.Lunix_path_BB3_282-.Lunix_path_JTI3_4
	.long	.Lunix_path_BB3_298-.Lunix_path_JTI3_4
	.long	.Lunix_path_BB3_295-.Lunix_path_JTI3_4
	.long	.Lunix_path_BB3_296-.Lunix_path_JTI3_4
	.long	.Lunix_path_BB3_287-.Lunix_path_JTI3_4
.Lunix_path_JTI3_5:
	.long	.Lunix_path_BB3_341-.Lunix_path_JTI3_5
	.long	.Lunix_path_BB3_342-.Lunix_path_JTI3_5
	.long	.Lunix_path_BB3_342-.Lunix_path_JTI3_5
	.long	.Lunix_path_BB3_342-.Lunix_path_JTI3_5
	.long	.Lunix_path_BB3_342-.Lunix_path_JTI3_5
	.long	.Lunix_path_BB3_342-.Lunix_path_JTI3_5
	.long	.Lunix_path_BB3_342-.Lunix_path_JTI3_5
	.long	.Lunix_path_BB3_342-.Lunix_path_JTI3_5
	.long	.Lunix_path_BB3_342-.Lunix_path_JTI3_5
	.long	.Lunix_path_BB3_342-.Lunix_path_JTI3_5
	.long	.Lunix_path_BB3_342-.Lunix_path_JTI3_5
	.long	.Lunix_path_BB3_342-.Lunix_path_JTI3_5
	.long	.Lunix_path_BB3_342-.Lunix_path_JTI3_5
	.long	.Lunix_path_BB3_342-.Lunix_path_JTI3_5
	.long	.Lunix_path_BB3_342-.Lunix_path_JTI3_5
	.long	.Lunix_path_BB3_342-.Lunix_path_JTI3_5
	.long	.Lunix_path_BB3_342-.Lunix_path_JTI3_5
	.long	.Lunix_path_BB3_342-.Lunix_path_JTI3_5
	.long	.Lunix_path_BB3_342-.Lunix_path_JTI3_5
	.long	.Lunix_path_BB3_342-.Lunix_path_JTI3_5
	.long	.Lunix_path_BB3_342-.Lunix_path_JTI3_5
	.long	.Lunix_path_BB3_342-.Lunix_path_JTI3_5
	.long	.Lunix_path_BB3_342-.Lunix_path_JTI3_5
	.long	.Lunix_path_BB3_342-.Lunix_path_JTI3_5
	.long	.Lunix_path_BB3_342-.Lunix_path_JTI3_5
	.long	.Lunix_path_BB3_342-.Lunix_path_JTI3_5
	.long	.Lunix_path_BB3_342-.Lunix_path_JTI3_5
	.long	.Lunix_path_BB3_342-.Lunix_path_JTI3_5
	.long	.Lunix_path_BB3_342-.Lunix_path_JTI3_5
	.long	.Lunix_path_BB3_342-.Lunix_path_JTI3_5
	.long	.Lunix_path_BB3_342-.Lunix_path_JTI3_5
	.long	.Lunix_path_BB3_342-.Lunix_path_JTI3_5
	.long	.Lunix_path_BB3_342-.Lunix_path_JTI3_5
	.long	.Lunix_path_BB3_339-.Lunix_path_JTI3_5
	.long	.Lunix_path_BB3_342-.Lunix_path_JTI3_5
	.long	.Lunix_path_BB3_342-.Lunix_path_JTI3_5
	.long	.Lunix_path_BB3_342-.Lunix_path_JTI3_5
	.long	.Lunix_path_BB3_345-.Lunix_path_JTI3_5
	.long	.Lunix_path_BB3_342-.Lunix_path_JTI3_5
	.long	.Lunix_path_BB3_342-.Lunix_path_JTI3_5
	.long	.Lunix_path_BB3_342-.Lunix_path_JTI3_5
	.long	.Lunix_path_BB3_344-.Lunix_path_JTI3_5
	.long	.Lunix_path_BB3_342-.Lunix_path_JTI3_5
	.long	.Lunix_path_BB3_342-.Lunix_path_JTI3_5
	.long	.Lunix_path_BB3_342-.Lunix_path_JTI3_5
	.long	.Lunix_path_BB3_343-.Lunix_path_JTI3_5
.Lunix_path_JTI3_6:
	.long	.Lunix_path_BB3_744-.Lunix_path_JTI3_6
	.long	.Lunix_path_BB3_752-.Lunix_path_JTI3_6
	.long	.Lunix_path_BB3_747-.Lunix_path_JTI3_6
	.long	.Lunix_path_BB3_746-.Lunix_path_JTI3_6
	.long	.Lunix_path_BB3_747-.Lunix_path_JTI3_6
	.section	.text.upath_commands.options.is,"ax",@progbits
	.p2align	4
	.type	upath_commands.options.is,@function
# upath_commands::options::is
upath_commands.options.is:
	cmpq	%rcx, %rsi
	jne	.Lunix_path_BB4_7
	cmpq	$3, %rsi
	ja	.Lunix_path_BB4_8
	xorl	%eax, %eax
	.p2align	4
.Lunix_path_BB4_3:
	movzbl	(%rdi,%rax), %ecx
	cmpb	(%rdx,%rax), %cl
	jne	.Lunix_path_BB4_6
	incq	%rax
	cmpq	%rax, %rsi
	jne	.Lunix_path_BB4_3
	movq	%rsi, %rax
.Lunix_path_BB4_6:
	cmpq	%rsi, %rax
	setae	%al
	retq
.Lunix_path_BB4_8:
	movl	(%rdi), %eax
	cmpl	(%rdx), %eax
	jne	.Lunix_path_BB4_7
	pushq	%rax
	callq	core.cmp.slices.groups_equal.i8.31.core.cmp.numbers.U8PartialEq.
	addq	$8, %rsp
	retq
.Lunix_path_BB4_7:
	xorl	%eax, %eax
	retq
.Lunix_path_func_end4:
	.size	upath_commands.options.is, .Lunix_path_func_end4-upath_commands.options.is
	.section	.text.core.slice.scan.any_in_quarters.953750c03e87c3e2.,"ax",@progbits
	.p2align	4
	.type	core.slice.scan.any_in_quarters.953750c03e87c3e2.,@function
# core::slice::scan::any_in_quarters::<#953750c03e87c3e2>
core.slice.scan.any_in_quarters.953750c03e87c3e2.:
	leaq	-8(%rdx), %rax
	cmpq	$8, %rax
	movl	$8, %ecx
	cmovbq	%rax, %rcx
	cmpq	$16, %rax
	movl	$16, %r8d
	cmovbq	%rax, %r8
	movq	(%rdi,%rcx), %xmm0
	movq	(%rdi), %xmm1
	punpcklqdq	%xmm0, %xmm1
	movq	(%rdi,%r8), %xmm0
	movq	-8(%rdi,%rdx), %xmm2
	punpcklqdq	%xmm2, %xmm0
	movq	(%rsi,%rcx), %xmm2
	movq	(%rsi), %xmm3
	punpcklqdq	%xmm2, %xmm3
	pcmpeqb	%xmm1, %xmm3
	movq	(%rsi,%r8), %xmm1
	movq	-8(%rsi,%rdx), %xmm2
	punpcklqdq	%xmm2, %xmm1
	pcmpeqb	%xmm0, %xmm1
	pand	%xmm3, %xmm1
	pmovmskb	%xmm1, %eax
	xorl	$65535, %eax
	setne	%al
	retq
.Lunix_path_func_end5:
	.size	core.slice.scan.any_in_quarters.953750c03e87c3e2., .Lunix_path_func_end5-core.slice.scan.any_in_quarters.953750c03e87c3e2.
	.section	.text.core.cmp.slices.groups_equal.i8.31.core.cmp.numbers.U8PartialEq.,"ax",@progbits
	.p2align	4
	.type	core.cmp.slices.groups_equal.i8.31.core.cmp.numbers.U8PartialEq.,@function
# core::cmp::slices::groups_equal::<i8,31'core::cmp::numbers::U8PartialEq{}>
core.cmp.slices.groups_equal.i8.31.core.cmp.numbers.U8PartialEq.:
	cmpq	$8, %rsi
	ja	.Lunix_path_BB6_2
	movd	-4(%rdi,%rsi), %xmm0
	movd	(%rdi), %xmm1
	punpckldq	%xmm0, %xmm1
	movd	-4(%rdx,%rsi), %xmm0
	movd	(%rdx), %xmm2
	punpckldq	%xmm0, %xmm2
	movq	%xmm1, %rax
	movq	%xmm2, %rcx
	cmpq	%rcx, %rax
	jmp	.Lunix_path_BB6_15
.Lunix_path_BB6_2:
	cmpq	$32, %rsi
	ja	.Lunix_path_BB6_4
	pushq	%rax
	movq	%rsi, %rax
	movq	%rdx, %rsi
	movq	%rax, %rdx
	callq	core.slice.scan.any_in_quarters.953750c03e87c3e2.
	addq	$8, %rsp
	xorb	$1, %al
	retq
.Lunix_path_BB6_4:
	cmpq	$65, %rsi
	jae	.Lunix_path_BB6_5
	movdqu	(%rdi), %xmm0
	movdqu	16(%rdi), %xmm1
	movdqu	(%rdx), %xmm2
	pcmpeqb	%xmm0, %xmm2
	movdqu	16(%rdx), %xmm0
	pcmpeqb	%xmm1, %xmm0
	movdqu	-32(%rdi,%rsi), %xmm1
	movdqu	-16(%rdi,%rsi), %xmm3
	movdqu	-32(%rdx,%rsi), %xmm4
	pcmpeqb	%xmm1, %xmm4
	pand	%xmm2, %xmm4
	movdqu	-16(%rdx,%rsi), %xmm1
	pcmpeqb	%xmm3, %xmm1
	pand	%xmm0, %xmm1
	pand	%xmm4, %xmm1
	pmovmskb	%xmm1, %eax
	jmp	.Lunix_path_BB6_14
.Lunix_path_BB6_5:
	xorl	%eax, %eax
	movq	%rsi, %rcx
	.p2align	4
.Lunix_path_BB6_6:
	movdqu	(%rdi,%rax), %xmm0
	movdqu	16(%rdi,%rax), %xmm1
	movdqu	32(%rdi,%rax), %xmm2
	movdqu	48(%rdi,%rax), %xmm3
	movdqu	(%rdx,%rax), %xmm4
	pcmpeqb	%xmm0, %xmm4
	movdqu	16(%rdx,%rax), %xmm0
	pcmpeqb	%xmm1, %xmm0
	movdqu	32(%rdx,%rax), %xmm1
	pcmpeqb	%xmm2, %xmm1
	pand	%xmm4, %xmm1
	movdqu	48(%rdx,%rax), %xmm2
	pcmpeqb	%xmm3, %xmm2
	pand	%xmm0, %xmm2
	pand	%xmm1, %xmm2
	pmovmskb	%xmm2, %r8d
	cmpl	$65535, %r8d
	jne	.Lunix_path_BB6_8
	addq	$64, %rax
	addq	$-64, %rcx
	cmpq	$63, %rcx
	ja	.Lunix_path_BB6_6
.Lunix_path_BB6_8:
	cmpq	$32, %rcx
	jb	.Lunix_path_BB6_13
	movq	%rsi, %rcx
	subq	%rax, %rcx
	.p2align	4
.Lunix_path_BB6_10:
	movdqu	(%rdi,%rax), %xmm0
	movdqu	16(%rdi,%rax), %xmm1
	movdqu	(%rdx,%rax), %xmm2
	pcmpeqb	%xmm0, %xmm2
	movdqu	16(%rdx,%rax), %xmm0
	pcmpeqb	%xmm1, %xmm0
	pand	%xmm2, %xmm0
	pmovmskb	%xmm0, %r8d
	xorl	$65535, %r8d
	jne	.Lunix_path_BB6_12
	addq	$32, %rax
	addq	$-32, %rcx
	cmpq	$32, %rcx
	jae	.Lunix_path_BB6_10
	jmp	.Lunix_path_BB6_13
.Lunix_path_BB6_12:
	movb	$1, %al
	cmpq	$31, %rcx
	ja	.Lunix_path_BB6_16
.Lunix_path_BB6_13:
	movdqu	-32(%rdi,%rsi), %xmm0
	movdqu	-16(%rdi,%rsi), %xmm1
	movdqu	-32(%rdx,%rsi), %xmm2
	pcmpeqb	%xmm0, %xmm2
	movdqu	-16(%rdx,%rsi), %xmm0
	pcmpeqb	%xmm1, %xmm0
	pand	%xmm2, %xmm0
	pmovmskb	%xmm0, %eax
.Lunix_path_BB6_14:
	xorl	$65535, %eax
.Lunix_path_BB6_15:
	setne	%al
.Lunix_path_BB6_16:
	xorb	$1, %al
	retq
.Lunix_path_func_end6:
	.size	core.cmp.slices.groups_equal.i8.31.core.cmp.numbers.U8PartialEq., .Lunix_path_func_end6-core.cmp.slices.groups_equal.i8.31.core.cmp.numbers.U8PartialEq.
	.section	.text.upath_commands.options.request_by_word,"ax",@progbits
	.p2align	4
	.type	upath_commands.options.request_by_word,@function
# upath_commands::options::request_by_word
upath_commands.options.request_by_word:
	pushq	%rax
	xorl	%edx, %edx
	cmpq	$2, %rsi
	je	.Lunix_path_BB7_9
	cmpq	$9, %rsi
	je	.Lunix_path_BB7_7
	movl	$0, %eax
	cmpq	$6, %rsi
	jne	.Lunix_path_BB7_11
	cmpl	$1701326125, (%rdi)
	jne	.Lunix_path_BB7_12
	leaq	.Lunix_path_static.7(%rip), %rdx
	movl	$6, %esi
	callq	core.cmp.slices.groups_equal.i8.31.core.cmp.numbers.U8PartialEq.
	testb	%al, %al
	je	.Lunix_path_BB7_12
	movb	$1, %al
	xorl	%edx, %edx
	popq	%rcx
	retq
.Lunix_path_BB7_7:
	cmpl	$1702243629, (%rdi)
	movl	$0, %eax
	jne	.Lunix_path_BB7_11
	leaq	.Lunix_path_static.9(%rip), %rdx
	movl	$9, %esi
	callq	core.cmp.slices.groups_equal.i8.31.core.cmp.numbers.U8PartialEq.
	movl	%eax, %edx
	jmp	.Lunix_path_BB7_11
.Lunix_path_BB7_9:
	cmpb	$45, (%rdi)
	movl	$0, %eax
	jne	.Lunix_path_BB7_11
	cmpb	$104, 1(%rdi)
	sete	%al
	xorl	%edx, %edx
	popq	%rcx
	retq
.Lunix_path_BB7_11:
	popq	%rcx
	retq
.Lunix_path_BB7_12:
	xorl	%edx, %edx
	xorl	%eax, %eax
	popq	%rcx
	retq
.Lunix_path_func_end7:
	.size	upath_commands.options.request_by_word, .Lunix_path_func_end7-upath_commands.options.request_by_word
	.section	.text.upath_commands.options.command_by_name,"ax",@progbits
	.p2align	4
	.type	upath_commands.options.command_by_name,@function
# upath_commands::options::command_by_name
upath_commands.options.command_by_name:
	pushq	%rbp
	pushq	%r15
	pushq	%r14
	pushq	%r13
	pushq	%r12
	pushq	%rbx
	pushq	%rax
	movq	%rsi, %rbx
	movq	%rdi, %r14
	leaq	-4(%rsi), %rax
	cmpq	$5, %rax
	ja	.Lunix_path_BB8_7
	leaq	.Lunix_path_JTI8_0(%rip), %rcx
	movslq	(%rcx,%rax,4), %rax
	addq	%rcx, %rax
	jmpq	*%rax
.Lunix_path_BB8_26:
	movzbl	(%r14), %r15d
	movzbl	1(%r14), %ebp
	movl	%r15d, %eax
	xorb	$110, %al
	movl	%ebp, %ecx
	xorb	$97, %cl
	orb	%al, %cl
	movzbl	2(%r14), %r12d
	movl	%r12d, %eax
	xorb	$109, %al
	orb	%cl, %al
	movzbl	3(%r14), %r13d
	movl	%r13d, %ecx
	xorb	$101, %cl
	orb	%al, %cl
	jne	.Lunix_path_BB8_29
	leaq	.Lunix_path_static.14(%rip), %rdx
	movl	$4, %esi
	movq	%r14, %rdi
	callq	core.cmp.slices.groups_equal.i8.31.core.cmp.numbers.U8PartialEq.
	testb	%al, %al
	je	.Lunix_path_BB8_29
	movb	$1, %bpl
	movb	$4, %dl
	jmp	.Lunix_path_BB8_32
.Lunix_path_BB8_20:
	cmpl	$1701994864, (%r14)
	jne	.Lunix_path_BB8_7
	leaq	.Lunix_path_static.12(%rip), %rdx
	movl	$6, %esi
	movq	%r14, %rdi
	callq	core.cmp.slices.groups_equal.i8.31.core.cmp.numbers.U8PartialEq.
	testb	%al, %al
	je	.Lunix_path_BB8_7
	movb	$1, %bpl
	movb	$2, %dl
	jmp	.Lunix_path_BB8_32
.Lunix_path_BB8_2:
	cmpl	$1869504867, (%r14)
	jne	.Lunix_path_BB8_7
	leaq	.Lunix_path_static.10(%rip), %rdx
	movl	$5, %esi
	movq	%r14, %rdi
	callq	core.cmp.slices.groups_equal.i8.31.core.cmp.numbers.U8PartialEq.
	testb	%al, %al
	je	.Lunix_path_BB8_7
	movb	$1, %bpl
	xorl	%edx, %edx
	jmp	.Lunix_path_BB8_32
.Lunix_path_BB8_5:
	cmpl	$1869833586, (%r14)
	jne	.Lunix_path_BB8_7
	leaq	.Lunix_path_static.11(%rip), %rdx
	movl	$7, %esi
	movq	%r14, %rdi
	callq	core.cmp.slices.groups_equal.i8.31.core.cmp.numbers.U8PartialEq.
	movb	$1, %dl
	movb	$1, %bpl
	testb	%al, %al
	je	.Lunix_path_BB8_7
	jmp	.Lunix_path_BB8_32
.Lunix_path_BB8_23:
	cmpl	$1701015137, (%r14)
	jne	.Lunix_path_BB8_7
	leaq	.Lunix_path_static.13(%rip), %rdx
	movl	$9, %esi
	movq	%r14, %rdi
	callq	core.cmp.slices.groups_equal.i8.31.core.cmp.numbers.U8PartialEq.
	testb	%al, %al
	je	.Lunix_path_BB8_7
	movb	$1, %bpl
	movb	$3, %dl
	jmp	.Lunix_path_BB8_32
.Lunix_path_BB8_29:
	xorb	$115, %r15b
	xorb	$116, %bpl
	orb	%r15b, %bpl
	xorb	$101, %r12b
	orb	%bpl, %r12b
	xorb	$109, %r13b
	orb	%r12b, %r13b
	jne	.Lunix_path_BB8_7
	leaq	.Lunix_path_static.15(%rip), %rdx
	movl	$4, %esi
	movq	%r14, %rdi
	callq	core.cmp.slices.groups_equal.i8.31.core.cmp.numbers.U8PartialEq.
	testb	%al, %al
	je	.Lunix_path_BB8_7
	movb	$1, %bpl
	movb	$5, %dl
	jmp	.Lunix_path_BB8_32
.Lunix_path_BB8_7:
	leaq	.Lunix_path_static.16(%rip), %rdx
	movl	$3, %ecx
	movq	%r14, %rdi
	movq	%rbx, %rsi
	callq	upath_commands.options.is
	movb	$1, %bpl
	movb	$6, %dl
	testb	%al, %al
	jne	.Lunix_path_BB8_32
	leaq	.Lunix_path_static.17(%rip), %rdx
	movl	$5, %ecx
	movq	%r14, %rdi
	movq	%rbx, %rsi
	callq	upath_commands.options.is
	movb	$7, %dl
	testb	%al, %al
	jne	.Lunix_path_BB8_32
	leaq	.Lunix_path_static.18(%rip), %rdx
	movl	$4, %ecx
	movq	%r14, %rdi
	movq	%rbx, %rsi
	callq	upath_commands.options.is
	movb	$8, %dl
	testb	%al, %al
	jne	.Lunix_path_BB8_32
	leaq	.Lunix_path_static.19(%rip), %rdx
	movl	$5, %ecx
	movq	%r14, %rdi
	movq	%rbx, %rsi
	callq	upath_commands.options.is
	movb	$9, %dl
	testb	%al, %al
	jne	.Lunix_path_BB8_32
	leaq	.Lunix_path_static.20(%rip), %rdx
	movl	$8, %ecx
	movq	%r14, %rdi
	movq	%rbx, %rsi
	callq	upath_commands.options.is
	movb	$10, %dl
	testb	%al, %al
	jne	.Lunix_path_BB8_32
	leaq	.Lunix_path_static.21(%rip), %rdx
	movl	$3, %ecx
	movq	%r14, %rdi
	movq	%rbx, %rsi
	callq	upath_commands.options.is
	movb	$11, %dl
	testb	%al, %al
	jne	.Lunix_path_BB8_32
	leaq	.Lunix_path_static.22(%rip), %rdx
	movl	$5, %ecx
	movq	%r14, %rdi
	movq	%rbx, %rsi
	callq	upath_commands.options.is
	movb	$12, %dl
	testb	%al, %al
	jne	.Lunix_path_BB8_32
	leaq	.Lunix_path_static.23(%rip), %rdx
	movl	$7, %ecx
	movq	%r14, %rdi
	movq	%rbx, %rsi
	callq	upath_commands.options.is
	movb	$13, %dl
	testb	%al, %al
	jne	.Lunix_path_BB8_32
	leaq	.Lunix_path_static.24(%rip), %rdx
	movl	$7, %ecx
	movq	%r14, %rdi
	movq	%rbx, %rsi
	callq	upath_commands.options.is
	movb	$14, %dl
	testb	%al, %al
	jne	.Lunix_path_BB8_32
	leaq	.Lunix_path_static.25(%rip), %rdx
	movl	$5, %ecx
	movq	%r14, %rdi
	movq	%rbx, %rsi
	callq	upath_commands.options.is
	movb	$15, %dl
	testb	%al, %al
	jne	.Lunix_path_BB8_32
	leaq	.Lunix_path_static.26(%rip), %rdx
	movl	$4, %ecx
	movq	%r14, %rdi
	movq	%rbx, %rsi
	callq	upath_commands.options.is
	movb	$16, %dl
	testb	%al, %al
	jne	.Lunix_path_BB8_32
	leaq	.Lunix_path_static.27(%rip), %rdx
	movl	$4, %ecx
	movq	%r14, %rdi
	movq	%rbx, %rsi
	callq	upath_commands.options.is
	movb	$18, %dl
	testb	%al, %al
	jne	.Lunix_path_BB8_32
	leaq	.Lunix_path_static.28(%rip), %rdx
	movl	$5, %ecx
	movq	%r14, %rdi
	movq	%rbx, %rsi
	callq	upath_commands.options.is
	movl	%eax, %ebp
	xorl	%eax, %eax
	testb	%bpl, %bpl
	movl	$19, %edx
	cmovel	%eax, %edx
.Lunix_path_BB8_32:
	movl	%ebp, %eax
	addq	$8, %rsp
	popq	%rbx
	popq	%r12
	popq	%r13
	popq	%r14
	popq	%r15
	popq	%rbp
	retq
.Lunix_path_func_end8:
	.size	upath_commands.options.command_by_name, .Lunix_path_func_end8-upath_commands.options.command_by_name
	.section	.rodata.upath_commands.options.command_by_name,"a",@progbits
	.p2align	2, 0x0
.Lunix_path_JTI8_0:
	.long	.Lunix_path_BB8_26-.Lunix_path_JTI8_0
	.long	.Lunix_path_BB8_2-.Lunix_path_JTI8_0
	.long	.Lunix_path_BB8_20-.Lunix_path_JTI8_0
	.long	.Lunix_path_BB8_5-.Lunix_path_JTI8_0
	.long	.Lunix_path_BB8_7-.Lunix_path_JTI8_0
	.long	.Lunix_path_BB8_23-.Lunix_path_JTI8_0
	.section	.text.upath_commands.items.push_item,"ax",@progbits
	.p2align	4
	.type	upath_commands.items.push_item,@function
# upath_commands::items::push_item
upath_commands.items.push_item:
	pushq	%rbp
	pushq	%r15
	pushq	%r14
	pushq	%r12
	pushq	%rbx
	movq	8(%r8), %rax
	cmpq	%rax, 16(%r8)
	je	.Lunix_path_BB9_1
.Lunix_path_BB9_3:
	movq	(%r8), %r9
	leaq	(%rax,%rax,2), %r10
	movb	%dil, (%r9,%r10,8)
	movb	%sil, 1(%r9,%r10,8)
	movq	%rdx, 8(%r9,%r10,8)
	movq	%rcx, 16(%r9,%r10,8)
	incq	%rax
	movq	%rax, 8(%r8)
	xorl	%eax, %eax
.Lunix_path_BB9_4:
	popq	%rbx
	popq	%r12
	popq	%r14
	popq	%r15
	popq	%rbp
	retq
.Lunix_path_BB9_1:
	movl	%edi, %ebx
	movl	%esi, %ebp
	movq	%rdx, %r14
	movq	%rcx, %r15
	movq	%r8, %r12
	movq	%r8, %rdi
	callq	std_alloc.vec.Vec.grow_amortized.22ca91936d612ecb.
	movl	%eax, %ecx
	movb	$1, %al
	testb	%cl, %cl
	je	.Lunix_path_BB9_4
	movq	%r12, %r8
	movq	8(%r12), %rax
	movq	%r15, %rcx
	movq	%r14, %rdx
	movl	%ebp, %esi
	movl	%ebx, %edi
	jmp	.Lunix_path_BB9_3
.Lunix_path_func_end9:
	.size	upath_commands.items.push_item, .Lunix_path_func_end9-upath_commands.items.push_item
	.section	.text.unix_bytes.utf8.scans.scan_by_sequence,"ax",@progbits
	.p2align	4
	.type	unix_bytes.utf8.scans.scan_by_sequence,@function
# unix_bytes::utf8::scans::scan_by_sequence
unix_bytes.utf8.scans.scan_by_sequence:
	movq	%rsi, %rax
	movq	%rsi, %rcx
	subq	%rdx, %rcx
	je	.Lunix_path_BB10_71
	addq	%rdx, %rdi
	jmp	.Lunix_path_BB10_5
.Lunix_path_BB10_67:
	rep		bsfl	%esi, %esi
	addq	%rdx, %rsi
	.p2align	4
.Lunix_path_BB10_68:
	addq	%rsi, %rdi
	subq	%rsi, %rcx
.Lunix_path_BB10_69:
	movq	%rcx, %rdx
.Lunix_path_BB10_4:
	movq	%rdx, %rcx
	testq	%rdx, %rdx
	je	.Lunix_path_BB10_71
.Lunix_path_BB10_5:
	movzbl	(%rdi), %esi
	testb	%sil, %sil
	js	.Lunix_path_BB10_18
	movl	$1, %esi
	cmpq	$8, %rcx
	jb	.Lunix_path_BB10_68
	cmpb	$0, 1(%rdi)
	js	.Lunix_path_BB10_68
	cmpq	$16, %rcx
	jb	.Lunix_path_BB10_33
	xorl	%edx, %edx
	cmpq	$64, %rcx
	jb	.Lunix_path_BB10_13
	movq	%rcx, %rsi
	.p2align	4
.Lunix_path_BB10_11:
	movdqu	(%rdi,%rdx), %xmm0
	movdqu	16(%rdi,%rdx), %xmm1
	por	%xmm0, %xmm1
	movdqu	32(%rdi,%rdx), %xmm0
	movdqu	48(%rdi,%rdx), %xmm2
	por	%xmm0, %xmm2
	por	%xmm1, %xmm2
	pmovmskb	%xmm2, %r8d
	testl	%r8d, %r8d
	jne	.Lunix_path_BB10_13
	addq	$64, %rdx
	addq	$-64, %rsi
	cmpq	$63, %rsi
	ja	.Lunix_path_BB10_11
.Lunix_path_BB10_13:
	leaq	-16(%rcx), %r8
	cmpq	%r8, %rdx
	jae	.Lunix_path_BB10_16
	.p2align	4
.Lunix_path_BB10_14:
	movdqu	(%rdi,%rdx), %xmm0
	pmovmskb	%xmm0, %esi
	testl	%esi, %esi
	jne	.Lunix_path_BB10_67
	addq	$16, %rdx
	cmpq	%r8, %rdx
	jb	.Lunix_path_BB10_14
.Lunix_path_BB10_16:
	movdqu	(%rdi,%r8), %xmm0
	pmovmskb	%xmm0, %edx
	movq	%rcx, %rsi
	testl	%edx, %edx
	je	.Lunix_path_BB10_68
	rep		bsfl	%edx, %edx
	addq	%rdx, %r8
	movq	%r8, %rsi
	jmp	.Lunix_path_BB10_68
	.p2align	4
.Lunix_path_BB10_18:
	leal	62(%rsi), %edx
	cmpb	$29, %dl
	ja	.Lunix_path_BB10_28
	movl	$1, %edx
	cmpq	$1, %rcx
	je	.Lunix_path_BB10_72
	cmpb	$-64, 1(%rdi)
	jge	.Lunix_path_BB10_105
	leaq	2(%rdi), %rsi
	leaq	-2(%rcx), %rdx
	cmpq	$2, %rdx
	jb	.Lunix_path_BB10_2
	movzbl	(%rsi), %r8d
	addb	$62, %r8b
	cmpb	$29, %r8b
	ja	.Lunix_path_BB10_2
	addq	$-4, %rcx
	xorl	%r9d, %r9d
	.p2align	4
.Lunix_path_BB10_24:
	movq	%r9, %r8
	movq	%rcx, %rdx
	cmpb	$-65, 3(%rdi,%r9)
	jg	.Lunix_path_BB10_70
	cmpq	$1, %rdx
	jbe	.Lunix_path_BB10_27
	movzbl	4(%rdi,%r8), %r10d
	addb	$62, %r10b
	leaq	-2(%rdx), %rcx
	leaq	2(%r8), %r9
	cmpb	$29, %r10b
	jbe	.Lunix_path_BB10_24
.Lunix_path_BB10_27:
	addq	$2, %r8
	jmp	.Lunix_path_BB10_3
.Lunix_path_BB10_28:
	movl	%esi, %edx
	andb	$-16, %dl
	cmpb	$-32, %dl
	jne	.Lunix_path_BB10_39
	cmpq	$3, %rcx
	jb	.Lunix_path_BB10_74
	movzbl	1(%rdi), %edx
	cmpl	$237, %esi
	je	.Lunix_path_BB10_45
	cmpl	$224, %esi
	jne	.Lunix_path_BB10_46
	movl	%edx, %r8d
	andb	$-32, %r8b
	cmpb	$-96, %r8b
	je	.Lunix_path_BB10_47
	jmp	.Lunix_path_BB10_78
.Lunix_path_BB10_2:
	xorl	%r8d, %r8d
.Lunix_path_BB10_3:
	addq	%r8, %rsi
	movq	%rsi, %rdi
	jmp	.Lunix_path_BB10_4
.Lunix_path_BB10_33:
	movq	(%rdi), %xmm0
	pmovmskb	%xmm0, %edx
	testb	%dl, %dl
	jne	.Lunix_path_BB10_35
	movq	-8(%rdi,%rcx), %xmm0
	pmovmskb	%xmm0, %edx
	movq	%rcx, %rsi
	testb	%dl, %dl
	je	.Lunix_path_BB10_68
.Lunix_path_BB10_35:
	xorl	%esi, %esi
	.p2align	4
.Lunix_path_BB10_36:
	cmpb	$0, (%rdi,%rsi)
	js	.Lunix_path_BB10_68
	incq	%rsi
	cmpq	%rsi, %rcx
	jne	.Lunix_path_BB10_36
	movq	%rcx, %rsi
	jmp	.Lunix_path_BB10_68
.Lunix_path_BB10_39:
	leal	16(%rsi), %edx
	cmpb	$4, %dl
	ja	.Lunix_path_BB10_73
	cmpq	$4, %rcx
	jb	.Lunix_path_BB10_79
	movzbl	1(%rdi), %r8d
	cmpl	$240, %esi
	je	.Lunix_path_BB10_49
	cmpl	$244, %esi
	jne	.Lunix_path_BB10_50
	cmpb	$-112, %r8b
	jl	.Lunix_path_BB10_51
	jmp	.Lunix_path_BB10_99
.Lunix_path_BB10_45:
	cmpb	$-96, %dl
	jl	.Lunix_path_BB10_47
	jmp	.Lunix_path_BB10_86
.Lunix_path_BB10_46:
	cmpb	$-65, %dl
	jg	.Lunix_path_BB10_76
.Lunix_path_BB10_47:
	cmpb	$-64, 2(%rdi)
	jge	.Lunix_path_BB10_76
	addq	$3, %rdi
	addq	$-3, %rcx
	jmp	.Lunix_path_BB10_69
.Lunix_path_BB10_49:
	leal	112(%r8), %edx
	cmpb	$47, %dl
	jbe	.Lunix_path_BB10_51
	jmp	.Lunix_path_BB10_85
.Lunix_path_BB10_50:
	cmpb	$-64, %r8b
	jge	.Lunix_path_BB10_82
.Lunix_path_BB10_51:
	cmpb	$-65, 2(%rdi)
	jg	.Lunix_path_BB10_82
	cmpb	$-64, 3(%rdi)
	jge	.Lunix_path_BB10_82
	addq	$4, %rdi
	addq	$-4, %rcx
	je	.Lunix_path_BB10_65
	movq	%rdi, %rsi
	movq	%rcx, %rdx
	.p2align	4
.Lunix_path_BB10_55:
	cmpq	$4, %rdx
	jb	.Lunix_path_BB10_66
	movzbl	(%rsi), %r8d
	leal	16(%r8), %r9d
	cmpb	$4, %r9b
	ja	.Lunix_path_BB10_66
	movzbl	1(%rsi), %r9d
	cmpl	$240, %r8d
	je	.Lunix_path_BB10_60
	cmpl	$244, %r8d
	jne	.Lunix_path_BB10_61
	cmpb	$-112, %r9b
	jl	.Lunix_path_BB10_62
	jmp	.Lunix_path_BB10_66
	.p2align	4
.Lunix_path_BB10_60:
	addb	$112, %r9b
	cmpb	$47, %r9b
	jbe	.Lunix_path_BB10_62
	jmp	.Lunix_path_BB10_66
	.p2align	4
.Lunix_path_BB10_61:
	cmpb	$-64, %r9b
	jge	.Lunix_path_BB10_66
.Lunix_path_BB10_62:
	cmpb	$-65, 2(%rsi)
	jg	.Lunix_path_BB10_66
	cmpb	$-65, 3(%rsi)
	jg	.Lunix_path_BB10_66
	addq	$4, %rsi
	addq	$-4, %rdx
	jne	.Lunix_path_BB10_55
.Lunix_path_BB10_65:
	xorl	%edx, %edx
.Lunix_path_BB10_66:
	subq	%rdx, %rcx
	addq	%rcx, %rdi
	jmp	.Lunix_path_BB10_4
.Lunix_path_BB10_70:
	addq	$2, %rdx
	jmp	.Lunix_path_BB10_3
.Lunix_path_BB10_71:
	xorl	%edx, %edx
	retq
.Lunix_path_BB10_72:
	movl	$1, %r8d
	subq	%r8, %rax
	retq
.Lunix_path_BB10_73:
	movl	$1, %edx
	jmp	.Lunix_path_BB10_105
.Lunix_path_BB10_74:
	movl	$1, %r8d
	movl	$1, %edx
	cmpq	$1, %rcx
	je	.Lunix_path_BB10_106
	movzbl	1(%rdi), %edx
.Lunix_path_BB10_76:
	addl	$-224, %esi
	cmpl	$20, %esi
	ja	.Lunix_path_BB10_93
	leaq	.Lunix_path_JTI10_2(%rip), %rdi
	movslq	(%rdi,%rsi,4), %rsi
	addq	%rdi, %rsi
	jmpq	*%rsi
.Lunix_path_BB10_78:
	andb	$-32, %dl
	cmpb	$-96, %dl
	sete	%dl
	jmp	.Lunix_path_BB10_104
.Lunix_path_BB10_79:
	cmpq	$1, %rcx
	je	.Lunix_path_BB10_94
	cmpq	$3, %rcx
	jne	.Lunix_path_BB10_95
	movzbl	1(%rdi), %r8d
.Lunix_path_BB10_82:
	leal	-224(%rsi), %edx
	cmpl	$20, %edx
	ja	.Lunix_path_BB10_89
	leaq	.Lunix_path_JTI10_0(%rip), %r9
	movslq	(%r9,%rdx,4), %rdx
	addq	%r9, %rdx
	jmpq	*%rdx
.Lunix_path_BB10_84:
	movl	%r8d, %edx
	andb	$-32, %dl
	cmpb	$-96, %dl
	je	.Lunix_path_BB10_90
	jmp	.Lunix_path_BB10_98
.Lunix_path_BB10_85:
	leal	112(%r8), %edx
	cmpb	$47, %dl
	jbe	.Lunix_path_BB10_90
	jmp	.Lunix_path_BB10_100
.Lunix_path_BB10_86:
	cmpb	$-96, %dl
	jmp	.Lunix_path_BB10_103
.Lunix_path_BB10_87:
	cmpb	$-96, %r8b
	jl	.Lunix_path_BB10_90
	jmp	.Lunix_path_BB10_101
.Lunix_path_BB10_88:
	cmpb	$-112, %r8b
	jl	.Lunix_path_BB10_90
	jmp	.Lunix_path_BB10_99
.Lunix_path_BB10_89:
	cmpb	$-64, %r8b
	jge	.Lunix_path_BB10_96
.Lunix_path_BB10_90:
	movl	$3, %edx
	cmpb	$-64, 2(%rdi)
	jge	.Lunix_path_BB10_96
	jmp	.Lunix_path_BB10_105
.Lunix_path_BB10_91:
	addb	$112, %dl
	cmpb	$48, %dl
	setb	%dl
	jmp	.Lunix_path_BB10_104
.Lunix_path_BB10_92:
	cmpb	$-112, %dl
	jmp	.Lunix_path_BB10_103
.Lunix_path_BB10_93:
	cmpb	$-64, %dl
	jmp	.Lunix_path_BB10_103
.Lunix_path_BB10_94:
	movq	%rcx, %rdx
	subq	%rcx, %rax
	retq
.Lunix_path_BB10_95:
	movzbl	1(%rdi), %r8d
.Lunix_path_BB10_96:
	addl	$-224, %esi
	cmpl	$20, %esi
	ja	.Lunix_path_BB10_102
	leaq	.Lunix_path_JTI10_1(%rip), %rdx
	movslq	(%rdx,%rsi,4), %rsi
	addq	%rdx, %rsi
	jmpq	*%rsi
.Lunix_path_BB10_98:
	andb	$-32, %r8b
	cmpb	$-96, %r8b
	sete	%dl
	jmp	.Lunix_path_BB10_104
.Lunix_path_BB10_99:
	cmpb	$-112, %r8b
	jmp	.Lunix_path_BB10_103
.Lunix_path_BB10_100:
	addb	$112, %r8b
	cmpb	$48, %r8b
	setb	%dl
	jmp	.Lunix_path_BB10_104
.Lunix_path_BB10_101:
	cmpb	$-96, %r8b
	jmp	.Lunix_path_BB10_103
.Lunix_path_BB10_102:
	cmpb	$-64, %r8b
.Lunix_path_BB10_103:
	setl	%dl
.Lunix_path_BB10_104:
	movzbl	%dl, %edx
	incq	%rdx
.Lunix_path_BB10_105:
	movq	%rcx, %r8
.Lunix_path_BB10_106:
	subq	%r8, %rax
	retq
.Lunix_path_func_end10:
	.size	unix_bytes.utf8.scans.scan_by_sequence, .Lunix_path_func_end10-unix_bytes.utf8.scans.scan_by_sequence
	.section	.rodata.unix_bytes.utf8.scans.scan_by_sequence,"a",@progbits
	.p2align	2, 0x0
.Lunix_path_JTI10_0:
	.long	.Lunix_path_BB10_84-.Lunix_path_JTI10_0
	.long	.Lunix_path_BB10_89-.Lunix_path_JTI10_0
	.long	.Lunix_path_BB10_89-.Lunix_path_JTI10_0
	.long	.Lunix_path_BB10_89-.Lunix_path_JTI10_0
	.long	.Lunix_path_BB10_89-.Lunix_path_JTI10_0
	.long	.Lunix_path_BB10_89-.Lunix_path_JTI10_0
	.long	.Lunix_path_BB10_89-.Lunix_path_JTI10_0
	.long	.Lunix_path_BB10_89-.Lunix_path_JTI10_0
	.long	.Lunix_path_BB10_89-.Lunix_path_JTI10_0
	.long	.Lunix_path_BB10_89-.Lunix_path_JTI10_0
	.long	.Lunix_path_BB10_89-.Lunix_path_JTI10_0
	.long	.Lunix_path_BB10_89-.Lunix_path_JTI10_0
	.long	.Lunix_path_BB10_89-.Lunix_path_JTI10_0
	.long	.Lunix_path_BB10_87-.Lunix_path_JTI10_0
	.long	.Lunix_path_BB10_89-.Lunix_path_JTI10_0
	.long	.Lunix_path_BB10_89-.Lunix_path_JTI10_0
	.long	.Lunix_path_BB10_85-.Lunix_path_JTI10_0
	.long	.Lunix_path_BB10_89-.Lunix_path_JTI10_0
	.long	.Lunix_path_BB10_89-.Lunix_path_JTI10_0
	.long	.Lunix_path_BB10_89-.Lunix_path_JTI10_0
	.long	.Lunix_path_BB10_88-.Lunix_path_JTI10_0
.Lunix_path_JTI10_1:
	.long	.Lunix_path_BB10_98-.Lunix_path_JTI10_1
	.long	.Lunix_path_BB10_102-.Lunix_path_JTI10_1
	.long	.Lunix_path_BB10_102-.Lunix_path_JTI10_1
	.long	.Lunix_path_BB10_102-.Lunix_path_JTI10_1
	.long	.Lunix_path_BB10_102-.Lunix_path_JTI10_1
	.long	.Lunix_path_BB10_102-.Lunix_path_JTI10_1
	.long	.Lunix_path_BB10_102-.Lunix_path_JTI10_1
	.long	.Lunix_path_BB10_102-.Lunix_path_JTI10_1
	.long	.Lunix_path_BB10_102-.Lunix_path_JTI10_1
	.long	.Lunix_path_BB10_102-.Lunix_path_JTI10_1
	.long	.Lunix_path_BB10_102-.Lunix_path_JTI10_1
	.long	.Lunix_path_BB10_102-.Lunix_path_JTI10_1
	.long	.Lunix_path_BB10_102-.Lunix_path_JTI10_1
	.long	.Lunix_path_BB10_101-.Lunix_path_JTI10_1
	.long	.Lunix_path_BB10_102-.Lunix_path_JTI10_1
	.long	.Lunix_path_BB10_102-.Lunix_path_JTI10_1
	.long	.Lunix_path_BB10_100-.Lunix_path_JTI10_1
	.long	.Lunix_path_BB10_102-.Lunix_path_JTI10_1
	.long	.Lunix_path_BB10_102-.Lunix_path_JTI10_1
	.long	.Lunix_path_BB10_102-.Lunix_path_JTI10_1
	.long	.Lunix_path_BB10_99-.Lunix_path_JTI10_1
.Lunix_path_JTI10_2:
	.long	.Lunix_path_BB10_78-.Lunix_path_JTI10_2
	.long	.Lunix_path_BB10_93-.Lunix_path_JTI10_2
	.long	.Lunix_path_BB10_93-.Lunix_path_JTI10_2
	.long	.Lunix_path_BB10_93-.Lunix_path_JTI10_2
	.long	.Lunix_path_BB10_93-.Lunix_path_JTI10_2
	.long	.Lunix_path_BB10_93-.Lunix_path_JTI10_2
	.long	.Lunix_path_BB10_93-.Lunix_path_JTI10_2
	.long	.Lunix_path_BB10_93-.Lunix_path_JTI10_2
	.long	.Lunix_path_BB10_93-.Lunix_path_JTI10_2
	.long	.Lunix_path_BB10_93-.Lunix_path_JTI10_2
	.long	.Lunix_path_BB10_93-.Lunix_path_JTI10_2
	.long	.Lunix_path_BB10_93-.Lunix_path_JTI10_2
	.long	.Lunix_path_BB10_93-.Lunix_path_JTI10_2
	.long	.Lunix_path_BB10_86-.Lunix_path_JTI10_2
	.long	.Lunix_path_BB10_93-.Lunix_path_JTI10_2
	.long	.Lunix_path_BB10_93-.Lunix_path_JTI10_2
	.long	.Lunix_path_BB10_91-.Lunix_path_JTI10_2
	.long	.Lunix_path_BB10_93-.Lunix_path_JTI10_2
	.long	.Lunix_path_BB10_93-.Lunix_path_JTI10_2
	.long	.Lunix_path_BB10_93-.Lunix_path_JTI10_2
	.long	.Lunix_path_BB10_92-.Lunix_path_JTI10_2
	.section	.rodata.cst16,"aM",@progbits,16
	.p2align	4, 0x0
.Lunix_path_CPI11_0:
	.zero	16,192
.Lunix_path_CPI11_1:
	.zero	16,224
.Lunix_path_CPI11_2:
	.zero	16,240
.Lunix_path_CPI11_3:
	.zero	16,194
.Lunix_path_CPI11_4:
	.zero	16,144
.Lunix_path_CPI11_5:
	.zero	16,160
.Lunix_path_CPI11_6:
	.zero	16,244
.Lunix_path_CPI11_7:
	.zero	16,143
.Lunix_path_CPI11_8:
	.zero	16,237
.Lunix_path_CPI11_9:
	.zero	16,159
	.section	.text.unix_bytes.utf8.scans.scan_by_window,"ax",@progbits
	.p2align	4
	.type	unix_bytes.utf8.scans.scan_by_window,@function
# unix_bytes::utf8::scans::scan_by_window
unix_bytes.utf8.scans.scan_by_window:
	movq	%rdx, %rax
	cmpq	%rsi, %rdx
	jb	.Lunix_path_BB11_6
.Lunix_path_BB11_1:
	xorl	%edx, %edx
.Lunix_path_BB11_2:
	retq
.Lunix_path_BB11_3:
	rep		bsfl	%r8d, %r8d
	addq	%rdx, %r8
	.p2align	4
.Lunix_path_BB11_4:
	addq	%r8, %rax
.Lunix_path_BB11_5:
	cmpq	%rsi, %rax
	jae	.Lunix_path_BB11_1
.Lunix_path_BB11_6:
	leaq	(%rdi,%rax), %rcx
	movzbl	(%rdi,%rax), %r8d
	movq	%rsi, %r9
	subq	%rax, %r9
	testb	%r8b, %r8b
	js	.Lunix_path_BB11_19
	movl	$1, %r8d
	cmpq	$8, %r9
	jb	.Lunix_path_BB11_4
	cmpb	$0, 1(%rcx)
	js	.Lunix_path_BB11_4
	cmpq	$16, %r9
	jb	.Lunix_path_BB11_27
	xorl	%edx, %edx
	cmpq	$64, %r9
	jb	.Lunix_path_BB11_14
	movq	%r9, %r8
	.p2align	4
.Lunix_path_BB11_12:
	movdqu	(%rcx,%rdx), %xmm0
	movdqu	16(%rcx,%rdx), %xmm1
	por	%xmm0, %xmm1
	movdqu	32(%rcx,%rdx), %xmm0
	movdqu	48(%rcx,%rdx), %xmm2
	por	%xmm0, %xmm2
	por	%xmm1, %xmm2
	pmovmskb	%xmm2, %r10d
	testl	%r10d, %r10d
	jne	.Lunix_path_BB11_14
	addq	$64, %rdx
	addq	$-64, %r8
	cmpq	$63, %r8
	ja	.Lunix_path_BB11_12
.Lunix_path_BB11_14:
	leaq	-16(%r9), %r10
	cmpq	%r10, %rdx
	jae	.Lunix_path_BB11_17
	.p2align	4
.Lunix_path_BB11_15:
	movdqu	(%rcx,%rdx), %xmm0
	pmovmskb	%xmm0, %r8d
	testl	%r8d, %r8d
	jne	.Lunix_path_BB11_3
	addq	$16, %rdx
	cmpq	%r10, %rdx
	jb	.Lunix_path_BB11_15
.Lunix_path_BB11_17:
	movdqu	(%rcx,%r10), %xmm0
	pmovmskb	%xmm0, %ecx
	movq	%r9, %r8
	testl	%ecx, %ecx
	je	.Lunix_path_BB11_4
	rep		bsfl	%ecx, %ecx
	addq	%rcx, %r10
	movq	%r10, %r8
	jmp	.Lunix_path_BB11_4
	.p2align	4
.Lunix_path_BB11_19:
	leal	62(%r8), %edx
	cmpb	$29, %dl
	ja	.Lunix_path_BB11_22
	movl	$1, %edx
	cmpq	$2, %r9
	jb	.Lunix_path_BB11_2
	movl	$2, %r9d
	cmpb	$-64, 1(%rcx)
	jl	.Lunix_path_BB11_45
	jmp	.Lunix_path_BB11_2
.Lunix_path_BB11_22:
	movl	%r8d, %edx
	andb	$-16, %dl
	cmpb	$-32, %dl
	jne	.Lunix_path_BB11_33
	cmpq	$3, %r9
	jb	.Lunix_path_BB11_61
	movzbl	1(%rcx), %edx
	cmpl	$237, %r8d
	je	.Lunix_path_BB11_38
	cmpl	$224, %r8d
	jne	.Lunix_path_BB11_39
	movl	%edx, %r9d
	andb	$-32, %r9b
	cmpb	$-96, %r9b
	je	.Lunix_path_BB11_40
	jmp	.Lunix_path_BB11_65
.Lunix_path_BB11_27:
	movq	(%rcx), %xmm0
	pmovmskb	%xmm0, %edx
	testb	%dl, %dl
	jne	.Lunix_path_BB11_29
	movq	-8(%rdi,%rsi), %xmm0
	pmovmskb	%xmm0, %edx
	testb	%dl, %dl
	je	.Lunix_path_BB11_32
.Lunix_path_BB11_29:
	xorl	%r8d, %r8d
	.p2align	4
.Lunix_path_BB11_30:
	cmpb	$0, (%rcx,%r8)
	js	.Lunix_path_BB11_4
	incq	%r8
	cmpq	%r8, %r9
	jne	.Lunix_path_BB11_30
.Lunix_path_BB11_32:
	movq	%r9, %r8
	jmp	.Lunix_path_BB11_4
.Lunix_path_BB11_33:
	leal	16(%r8), %r10d
	movl	$1, %edx
	cmpb	$4, %r10b
	ja	.Lunix_path_BB11_2
	cmpq	$4, %r9
	jb	.Lunix_path_BB11_66
	movzbl	1(%rcx), %r10d
	cmpl	$240, %r8d
	je	.Lunix_path_BB11_41
	cmpl	$244, %r8d
	jne	.Lunix_path_BB11_42
	cmpb	$-112, %r10b
	jl	.Lunix_path_BB11_43
	jmp	.Lunix_path_BB11_82
.Lunix_path_BB11_38:
	cmpb	$-96, %dl
	jl	.Lunix_path_BB11_40
	jmp	.Lunix_path_BB11_72
.Lunix_path_BB11_39:
	cmpb	$-65, %dl
	jg	.Lunix_path_BB11_63
.Lunix_path_BB11_40:
	movl	$3, %r9d
	cmpb	$-64, 2(%rcx)
	jl	.Lunix_path_BB11_45
	jmp	.Lunix_path_BB11_63
.Lunix_path_BB11_41:
	leal	112(%r10), %edx
	cmpb	$47, %dl
	jbe	.Lunix_path_BB11_43
	jmp	.Lunix_path_BB11_71
.Lunix_path_BB11_42:
	cmpb	$-64, %r10b
	jge	.Lunix_path_BB11_68
.Lunix_path_BB11_43:
	cmpb	$-65, 2(%rcx)
	jg	.Lunix_path_BB11_68
	movl	$4, %r9d
	cmpb	$-64, 3(%rcx)
	jge	.Lunix_path_BB11_68
.Lunix_path_BB11_45:
	addq	%rax, %r9
	cmpq	$3, %r9
	setb	%al
	movq	%rsi, %rcx
	subq	%r9, %rcx
	cmpq	$16, %rcx
	setb	%cl
	orb	%al, %cl
	je	.Lunix_path_BB11_48
.Lunix_path_BB11_46:
	movq	%r9, %rax
	jmp	.Lunix_path_BB11_5
	.p2align	4
.Lunix_path_BB11_47:
	addq	%r9, %rax
	movq	%rsi, %rcx
	subq	%rax, %rcx
	movq	%rax, %r9
	cmpq	$15, %rcx
	jbe	.Lunix_path_BB11_5
.Lunix_path_BB11_48:
	movdqu	(%rdi,%r9), %xmm0
	pmovmskb	%xmm0, %eax
	movdqa	%xmm0, -24(%rsp)
	testl	%eax, %eax
	je	.Lunix_path_BB11_46
	movzbl	-9(%rsp), %ecx
	movdqu	-3(%rdi,%r9), %xmm2
	movdqu	-2(%rdi,%r9), %xmm3
	movdqu	-1(%rdi,%r9), %xmm1
	movdqa	.Lunix_path_CPI11_0(%rip), %xmm4
	movdqa	%xmm0, %xmm5
	pmaxub	%xmm4, %xmm5
	pcmpeqb	%xmm0, %xmm5
	pmovmskb	%xmm5, %edx
	movdqa	.Lunix_path_CPI11_3(%rip), %xmm5
	pmaxub	%xmm0, %xmm5
	pcmpeqb	%xmm0, %xmm5
	pmovmskb	%xmm5, %r8d
	movdqa	%xmm1, -40(%rsp)
	cmpw	%r8w, %dx
	jne	.Lunix_path_BB11_46
	pmaxub	%xmm1, %xmm4
	pcmpeqb	%xmm1, %xmm4
	movdqa	.Lunix_path_CPI11_1(%rip), %xmm5
	pmaxub	%xmm3, %xmm5
	pcmpeqb	%xmm3, %xmm5
	por	%xmm4, %xmm5
	movdqa	.Lunix_path_CPI11_2(%rip), %xmm3
	pmaxub	%xmm2, %xmm3
	pcmpeqb	%xmm2, %xmm3
	por	%xmm5, %xmm3
	pmovmskb	%xmm3, %r8d
	addq	%rdx, %r8
	movzwl	%ax, %eax
	cmpl	%eax, %r8d
	jne	.Lunix_path_BB11_46
	movdqa	.Lunix_path_CPI11_2(%rip), %xmm2
	pcmpeqb	%xmm1, %xmm2
	movdqa	.Lunix_path_CPI11_1(%rip), %xmm3
	pcmpeqb	%xmm1, %xmm3
	movdqa	%xmm3, %xmm4
	pandn	%xmm2, %xmm4
	pand	.Lunix_path_CPI11_4(%rip), %xmm4
	pand	.Lunix_path_CPI11_5(%rip), %xmm3
	por	%xmm4, %xmm3
	pmaxub	%xmm0, %xmm3
	pcmpeqb	%xmm0, %xmm3
	pmovmskb	%xmm3, %eax
	cmpl	$65535, %eax
	jne	.Lunix_path_BB11_46
	movdqa	.Lunix_path_CPI11_6(%rip), %xmm2
	movdqa	%xmm1, %xmm3
	pcmpeqb	%xmm2, %xmm3
	movdqa	%xmm3, %xmm4
	pandn	%xmm2, %xmm4
	pand	.Lunix_path_CPI11_7(%rip), %xmm3
	por	%xmm4, %xmm3
	pcmpeqb	.Lunix_path_CPI11_8(%rip), %xmm1
	movdqa	%xmm1, %xmm2
	pandn	%xmm3, %xmm2
	pand	.Lunix_path_CPI11_9(%rip), %xmm1
	por	%xmm2, %xmm1
	pmaxub	%xmm1, %xmm0
	pcmpeqb	%xmm1, %xmm0
	pmovmskb	%xmm0, %eax
	cmpl	$65535, %eax
	jne	.Lunix_path_BB11_46
	movl	$15, %eax
	cmpb	$-65, %cl
	ja	.Lunix_path_BB11_47
	movl	$14, %eax
	cmpb	$-33, -25(%rsp)
	ja	.Lunix_path_BB11_47
	xorl	%eax, %eax
	cmpb	$-16, -26(%rsp)
	setb	%al
	leaq	(%rax,%rax,2), %rax
	addq	$13, %rax
	jmp	.Lunix_path_BB11_47
.Lunix_path_BB11_61:
	movl	$1, %edx
	cmpq	$2, %r9
	jne	.Lunix_path_BB11_2
	movzbl	1(%rcx), %edx
.Lunix_path_BB11_63:
	addl	$-224, %r8d
	cmpl	$20, %r8d
	ja	.Lunix_path_BB11_87
	leaq	.Lunix_path_JTI11_2(%rip), %rcx
	movslq	(%rcx,%r8,4), %rsi
	addq	%rcx, %rsi
	jmpq	*%rsi
.Lunix_path_BB11_65:
	andb	$-32, %dl
	cmpb	$-96, %dl
	sete	%cl
	movzbl	%cl, %edx
	incq	%rdx
	retq
.Lunix_path_BB11_66:
	cmpq	$3, %r9
	jne	.Lunix_path_BB11_77
	movzbl	1(%rcx), %r10d
.Lunix_path_BB11_68:
	leal	-224(%r8), %edx
	cmpl	$20, %edx
	ja	.Lunix_path_BB11_75
	leaq	.Lunix_path_JTI11_0(%rip), %rsi
	movslq	(%rsi,%rdx,4), %rdx
	addq	%rsi, %rdx
	jmpq	*%rdx
.Lunix_path_BB11_70:
	movl	%r10d, %edx
	andb	$-32, %dl
	cmpb	$-96, %dl
	je	.Lunix_path_BB11_76
	jmp	.Lunix_path_BB11_81
.Lunix_path_BB11_71:
	leal	112(%r10), %edx
	cmpb	$47, %dl
	jbe	.Lunix_path_BB11_76
	jmp	.Lunix_path_BB11_83
.Lunix_path_BB11_72:
	cmpb	$-96, %dl
	setl	%cl
	movzbl	%cl, %edx
	incq	%rdx
	retq
.Lunix_path_BB11_73:
	cmpb	$-96, %r10b
	jl	.Lunix_path_BB11_76
	jmp	.Lunix_path_BB11_84
.Lunix_path_BB11_74:
	cmpb	$-112, %r10b
	jl	.Lunix_path_BB11_76
	jmp	.Lunix_path_BB11_82
.Lunix_path_BB11_75:
	cmpb	$-64, %r10b
	jge	.Lunix_path_BB11_79
.Lunix_path_BB11_76:
	movl	$3, %edx
	cmpb	$-64, 2(%rcx)
	jl	.Lunix_path_BB11_2
	jmp	.Lunix_path_BB11_79
.Lunix_path_BB11_77:
	cmpq	$2, %r9
	jb	.Lunix_path_BB11_2
	movzbl	1(%rcx), %r10d
.Lunix_path_BB11_79:
	addl	$-224, %r8d
	cmpl	$20, %r8d
	ja	.Lunix_path_BB11_88
	leaq	.Lunix_path_JTI11_1(%rip), %rcx
	movslq	(%rcx,%r8,4), %rdx
	addq	%rcx, %rdx
	jmpq	*%rdx
.Lunix_path_BB11_81:
	andb	$-32, %r10b
	cmpb	$-96, %r10b
	sete	%cl
	movzbl	%cl, %edx
	incq	%rdx
	retq
.Lunix_path_BB11_82:
	cmpb	$-112, %r10b
	setl	%cl
	movzbl	%cl, %edx
	incq	%rdx
	retq
.Lunix_path_BB11_83:
	addb	$112, %r10b
	cmpb	$48, %r10b
	setb	%cl
	movzbl	%cl, %edx
	incq	%rdx
	retq
.Lunix_path_BB11_84:
	cmpb	$-96, %r10b
	setl	%cl
	movzbl	%cl, %edx
	incq	%rdx
	retq
.Lunix_path_BB11_85:
	addb	$112, %dl
	cmpb	$48, %dl
	setb	%cl
	movzbl	%cl, %edx
	incq	%rdx
	retq
.Lunix_path_BB11_86:
	cmpb	$-112, %dl
	setl	%cl
	movzbl	%cl, %edx
	incq	%rdx
	retq
.Lunix_path_BB11_87:
	cmpb	$-64, %dl
	setl	%cl
	movzbl	%cl, %edx
	incq	%rdx
	retq
.Lunix_path_BB11_88:
	cmpb	$-64, %r10b
	setl	%cl
	movzbl	%cl, %edx
	incq	%rdx
	retq
.Lunix_path_func_end11:
	.size	unix_bytes.utf8.scans.scan_by_window, .Lunix_path_func_end11-unix_bytes.utf8.scans.scan_by_window
	.section	.rodata.unix_bytes.utf8.scans.scan_by_window,"a",@progbits
	.p2align	2, 0x0
.Lunix_path_JTI11_0:
	.long	.Lunix_path_BB11_70-.Lunix_path_JTI11_0
	.long	.Lunix_path_BB11_75-.Lunix_path_JTI11_0
	.long	.Lunix_path_BB11_75-.Lunix_path_JTI11_0
	.long	.Lunix_path_BB11_75-.Lunix_path_JTI11_0
	.long	.Lunix_path_BB11_75-.Lunix_path_JTI11_0
	.long	.Lunix_path_BB11_75-.Lunix_path_JTI11_0
	.long	.Lunix_path_BB11_75-.Lunix_path_JTI11_0
	.long	.Lunix_path_BB11_75-.Lunix_path_JTI11_0
	.long	.Lunix_path_BB11_75-.Lunix_path_JTI11_0
	.long	.Lunix_path_BB11_75-.Lunix_path_JTI11_0
	.long	.Lunix_path_BB11_75-.Lunix_path_JTI11_0
	.long	.Lunix_path_BB11_75-.Lunix_path_JTI11_0
	.long	.Lunix_path_BB11_75-.Lunix_path_JTI11_0
	.long	.Lunix_path_BB11_73-.Lunix_path_JTI11_0
	.long	.Lunix_path_BB11_75-.Lunix_path_JTI11_0
	.long	.Lunix_path_BB11_75-.Lunix_path_JTI11_0
	.long	.Lunix_path_BB11_71-.Lunix_path_JTI11_0
	.long	.Lunix_path_BB11_75-.Lunix_path_JTI11_0
	.long	.Lunix_path_BB11_75-.Lunix_path_JTI11_0
	.long	.Lunix_path_BB11_75-.Lunix_path_JTI11_0
	.long	.Lunix_path_BB11_74-.Lunix_path_JTI11_0
.Lunix_path_JTI11_1:
	.long	.Lunix_path_BB11_81-.Lunix_path_JTI11_1
	.long	.Lunix_path_BB11_88-.Lunix_path_JTI11_1
	.long	.Lunix_path_BB11_88-.Lunix_path_JTI11_1
	.long	.Lunix_path_BB11_88-.Lunix_path_JTI11_1
	.long	.Lunix_path_BB11_88-.Lunix_path_JTI11_1
	.long	.Lunix_path_BB11_88-.Lunix_path_JTI11_1
	.long	.Lunix_path_BB11_88-.Lunix_path_JTI11_1
	.long	.Lunix_path_BB11_88-.Lunix_path_JTI11_1
	.long	.Lunix_path_BB11_88-.Lunix_path_JTI11_1
	.long	.Lunix_path_BB11_88-.Lunix_path_JTI11_1
	.long	.Lunix_path_BB11_88-.Lunix_path_JTI11_1
	.long	.Lunix_path_BB11_88-.Lunix_path_JTI11_1
	.long	.Lunix_path_BB11_88-.Lunix_path_JTI11_1
	.long	.Lunix_path_BB11_84-.Lunix_path_JTI11_1
	.long	.Lunix_path_BB11_88-.Lunix_path_JTI11_1
	.long	.Lunix_path_BB11_88-.Lunix_path_JTI11_1
	.long	.Lunix_path_BB11_83-.Lunix_path_JTI11_1
	.long	.Lunix_path_BB11_88-.Lunix_path_JTI11_1
	.long	.Lunix_path_BB11_88-.Lunix_path_JTI11_1
	.long	.Lunix_path_BB11_88-.Lunix_path_JTI11_1
	.long	.Lunix_path_BB11_82-.Lunix_path_JTI11_1
.Lunix_path_JTI11_2:
	.long	.Lunix_path_BB11_65-.Lunix_path_JTI11_2
	.long	.Lunix_path_BB11_87-.Lunix_path_JTI11_2
	.long	.Lunix_path_BB11_87-.Lunix_path_JTI11_2
	.long	.Lunix_path_BB11_87-.Lunix_path_JTI11_2
	.long	.Lunix_path_BB11_87-.Lunix_path_JTI11_2
	.long	.Lunix_path_BB11_87-.Lunix_path_JTI11_2
	.long	.Lunix_path_BB11_87-.Lunix_path_JTI11_2
	.long	.Lunix_path_BB11_87-.Lunix_path_JTI11_2
	.long	.Lunix_path_BB11_87-.Lunix_path_JTI11_2
	.long	.Lunix_path_BB11_87-.Lunix_path_JTI11_2
	.long	.Lunix_path_BB11_87-.Lunix_path_JTI11_2
	.long	.Lunix_path_BB11_87-.Lunix_path_JTI11_2
	.long	.Lunix_path_BB11_87-.Lunix_path_JTI11_2
	.long	.Lunix_path_BB11_72-.Lunix_path_JTI11_2
	.long	.Lunix_path_BB11_87-.Lunix_path_JTI11_2
	.long	.Lunix_path_BB11_87-.Lunix_path_JTI11_2
	.long	.Lunix_path_BB11_85-.Lunix_path_JTI11_2
	.long	.Lunix_path_BB11_87-.Lunix_path_JTI11_2
	.long	.Lunix_path_BB11_87-.Lunix_path_JTI11_2
	.long	.Lunix_path_BB11_87-.Lunix_path_JTI11_2
	.long	.Lunix_path_BB11_86-.Lunix_path_JTI11_2
	.section	.text.upath_commands.arguments.each_after,"ax",@progbits
	.p2align	4
	.type	upath_commands.arguments.each_after,@function
# upath_commands::arguments::each_after
upath_commands.arguments.each_after:
	pushq	%rbp
	pushq	%r15
	pushq	%r14
	pushq	%r13
	pushq	%r12
	pushq	%rbx
	subq	$232, %rsp
	movq	%rdi, %rbx
	movq	(%rcx), %rbp
	movq	8(%rcx), %r15
	movq	32(%rcx), %rax
	movq	%rax, 160(%rsp)
	movups	16(%rcx), %xmm0
	movaps	%xmm0, 144(%rsp)
	movq	(%r8), %r14
	movq	8(%r8), %r12
	movq	16(%r8), %rdi
	xorps	%xmm0, %xmm0
	movaps	%xmm0, 112(%rsp)
	movaps	%xmm0, 96(%rsp)
	movaps	%xmm0, 80(%rsp)
	movaps	%xmm0, 64(%rsp)
	movaps	%xmm0, 48(%rsp)
	movaps	%xmm0, 32(%rsp)
	movq	$0, 128(%rsp)
	testq	%r12, %r12
	je	.Lunix_path_BB12_10
	movq	(%r14), %r13
	movq	8(%r14), %rcx
	decq	%r12
	cmpq	$129, %r12
	jb	.Lunix_path_BB12_2
	leaq	64(%r14), %r8
	xorl	%eax, %eax
	.p2align	4
.Lunix_path_BB12_4:
	xorl	%edx, %edx
	.p2align	4
.Lunix_path_BB12_5:
	movups	-48(%r8,%rdx), %xmm0
	movups	-32(%r8,%rdx), %xmm1
	movups	-16(%r8,%rdx), %xmm2
	movups	(%r8,%rdx), %xmm3
	movups	%xmm0, -64(%r8,%rdx)
	movups	%xmm1, -48(%r8,%rdx)
	movups	%xmm2, -32(%r8,%rdx)
	movups	%xmm3, -16(%r8,%rdx)
	addq	$64, %rdx
	cmpq	$2048, %rdx
	jne	.Lunix_path_BB12_5
	subq	$-128, %rax
	movq	%r12, %rdx
	subq	%rax, %rdx
	addq	$2048, %r8
	cmpq	$128, %rdx
	ja	.Lunix_path_BB12_4
	cmpq	%rax, %r12
	je	.Lunix_path_BB12_9
.Lunix_path_BB12_8:
	shlq	$4, %rax
	movq	%rdi, 24(%rsp)
	leaq	(%r14,%rax), %rdi
	addq	%r14, %rax
	addq	$16, %rax
	shlq	$4, %rdx
	movl	%esi, 12(%rsp)
	movq	%rax, %rsi
	movq	%rcx, 16(%rsp)
	callq	memmove@PLT
	movq	16(%rsp), %rcx
	movq	24(%rsp), %rdi
	movl	12(%rsp), %esi
.Lunix_path_BB12_9:
	movq	%rbp, 192(%rsp)
	movq	%r15, 200(%rsp)
	movaps	144(%rsp), %xmm0
	movups	%xmm0, 208(%rsp)
	movq	160(%rsp), %rax
	movq	%rax, 224(%rsp)
	movq	%r14, 168(%rsp)
	movq	%r12, 176(%rsp)
	movq	%rdi, 184(%rsp)
	leaq	168(%rsp), %rax
	movq	%rax, (%rsp)
	movzbl	%sil, %esi
	leaq	32(%rsp), %rdi
	leaq	192(%rsp), %r8
	movl	$2, %r9d
	movq	%r13, %rdx
	callq	upath_commands.arguments.each
	movzbl	32(%rsp), %eax
	movq	%rax, (%rbx)
	movups	40(%rsp), %xmm0
	movups	56(%rsp), %xmm1
	movups	72(%rsp), %xmm2
	movups	88(%rsp), %xmm3
	movups	%xmm0, 8(%rbx)
	movups	%xmm1, 24(%rbx)
	movups	%xmm2, 40(%rbx)
	movups	%xmm3, 56(%rbx)
	movzbl	104(%rsp), %eax
	movq	%rax, 72(%rbx)
	movaps	112(%rsp), %xmm0
	movups	%xmm0, 80(%rbx)
	movq	128(%rsp), %rax
	movq	%rax, 96(%rbx)
	jmp	.Lunix_path_BB12_13
.Lunix_path_BB12_10:
	movzbl	%dl, %eax
	movaps	%xmm0, 80(%rsp)
	movaps	%xmm0, 64(%rsp)
	movq	$0, 96(%rsp)
	leaq	40(%rsp), %r12
	movq	%rax, 40(%rsp)
	movq	%rbp, 48(%rsp)
	movq	%r15, 56(%rsp)
	testq	%rdi, %rdi
	je	.Lunix_path_BB12_12
	movq	%r14, %rdi
	callq	rattle_dealloc@PLT
.Lunix_path_BB12_12:
	movq	$1, (%rbx)
	movups	(%r12), %xmm0
	movups	16(%r12), %xmm1
	movups	32(%r12), %xmm2
	movups	48(%r12), %xmm3
	movups	%xmm0, 8(%rbx)
	movups	%xmm1, 24(%rbx)
	movups	%xmm2, 40(%rbx)
	movups	%xmm3, 56(%rbx)
	xorps	%xmm0, %xmm0
	movups	%xmm0, 72(%rbx)
	movups	%xmm0, 88(%rbx)
.Lunix_path_BB12_13:
	addq	$232, %rsp
	popq	%rbx
	popq	%r12
	popq	%r13
	popq	%r14
	popq	%r15
	popq	%rbp
	retq
.Lunix_path_BB12_2:
	xorl	%eax, %eax
	movq	%r12, %rdx
	cmpq	%rax, %r12
	jne	.Lunix_path_BB12_8
	jmp	.Lunix_path_BB12_9
.Lunix_path_func_end12:
	.size	upath_commands.arguments.each_after, .Lunix_path_func_end12-upath_commands.arguments.each_after
	.section	.text.upath_commands.arguments.options_of,"ax",@progbits
	.p2align	4
	.type	upath_commands.arguments.options_of,@function
# upath_commands::arguments::options_of
upath_commands.arguments.options_of:
	pushq	%rbp
	pushq	%r15
	pushq	%r14
	pushq	%r13
	pushq	%r12
	pushq	%rbx
	testq	%rdx, %rdx
	je	.Lunix_path_BB13_1
	movq	%rdx, %rbp
	leaq	1(%rsi), %rax
	movq	%rdx, %rcx
	jmp	.Lunix_path_BB13_3
	.p2align	4
.Lunix_path_BB13_6:
	addq	$24, %rax
	decq	%rcx
	je	.Lunix_path_BB13_7
.Lunix_path_BB13_3:
	cmpb	$2, -1(%rax)
	jne	.Lunix_path_BB13_6
	cmpb	$0, (%rax)
	jne	.Lunix_path_BB13_6
	movb	$1, %al
	movl	%eax, -4(%rsp)
	jmp	.Lunix_path_BB13_8
.Lunix_path_BB13_7:
	movl	$0, -4(%rsp)
.Lunix_path_BB13_8:
	leaq	1(%rsi), %rcx
	movq	%rbp, %r8
	jmp	.Lunix_path_BB13_9
	.p2align	4
.Lunix_path_BB13_12:
	addq	$24, %rcx
	decq	%r8
	je	.Lunix_path_BB13_13
.Lunix_path_BB13_9:
	cmpb	$2, -1(%rcx)
	jne	.Lunix_path_BB13_12
	cmpb	$1, (%rcx)
	jne	.Lunix_path_BB13_12
	movb	$1, %cl
	jmp	.Lunix_path_BB13_14
.Lunix_path_BB13_13:
	xorl	%ecx, %ecx
.Lunix_path_BB13_14:
	leaq	1(%rsi), %r8
	movq	%rbp, %r9
	jmp	.Lunix_path_BB13_15
	.p2align	4
.Lunix_path_BB13_18:
	addq	$24, %r8
	decq	%r9
	je	.Lunix_path_BB13_19
.Lunix_path_BB13_15:
	cmpb	$2, -1(%r8)
	jne	.Lunix_path_BB13_18
	cmpb	$2, (%r8)
	jne	.Lunix_path_BB13_18
	movb	$1, %r8b
	jmp	.Lunix_path_BB13_20
.Lunix_path_BB13_19:
	xorl	%r8d, %r8d
.Lunix_path_BB13_20:
	leaq	1(%rsi), %r9
	movq	%rbp, %r10
	jmp	.Lunix_path_BB13_21
	.p2align	4
.Lunix_path_BB13_24:
	addq	$24, %r9
	decq	%r10
	je	.Lunix_path_BB13_25
.Lunix_path_BB13_21:
	cmpb	$2, -1(%r9)
	jne	.Lunix_path_BB13_24
	cmpb	$4, (%r9)
	jne	.Lunix_path_BB13_24
	movb	$1, %r9b
	jmp	.Lunix_path_BB13_26
.Lunix_path_BB13_25:
	xorl	%r9d, %r9d
.Lunix_path_BB13_26:
	leaq	1(%rsi), %r10
	movq	%rbp, %r11
	jmp	.Lunix_path_BB13_27
	.p2align	4
.Lunix_path_BB13_30:
	addq	$24, %r10
	decq	%r11
	je	.Lunix_path_BB13_31
.Lunix_path_BB13_27:
	cmpb	$2, -1(%r10)
	jne	.Lunix_path_BB13_30
	cmpb	$5, (%r10)
	jne	.Lunix_path_BB13_30
	movb	$1, %r10b
	jmp	.Lunix_path_BB13_32
.Lunix_path_BB13_31:
	xorl	%r10d, %r10d
.Lunix_path_BB13_32:
	leaq	1(%rsi), %r11
	movq	%rbp, %rbx
	jmp	.Lunix_path_BB13_33
	.p2align	4
.Lunix_path_BB13_36:
	addq	$24, %r11
	decq	%rbx
	je	.Lunix_path_BB13_37
.Lunix_path_BB13_33:
	cmpb	$2, -1(%r11)
	jne	.Lunix_path_BB13_36
	cmpb	$6, (%r11)
	jne	.Lunix_path_BB13_36
	movb	$1, %r11b
	jmp	.Lunix_path_BB13_38
.Lunix_path_BB13_37:
	xorl	%r11d, %r11d
.Lunix_path_BB13_38:
	leaq	1(%rsi), %rbx
	movq	%rbp, %r14
	jmp	.Lunix_path_BB13_39
	.p2align	4
.Lunix_path_BB13_42:
	addq	$24, %rbx
	decq	%r14
	je	.Lunix_path_BB13_43
.Lunix_path_BB13_39:
	cmpb	$2, -1(%rbx)
	jne	.Lunix_path_BB13_42
	cmpb	$7, (%rbx)
	jne	.Lunix_path_BB13_42
	movb	$1, %bl
	testb	%r10b, %r10b
	jne	.Lunix_path_BB13_45
.Lunix_path_BB13_46:
	testb	%r11b, %r11b
	je	.Lunix_path_BB13_99
	movb	$2, %r10b
	testb	%bl, %bl
	jne	.Lunix_path_BB13_48
	jmp	.Lunix_path_BB13_49
.Lunix_path_BB13_43:
	xorl	%ebx, %ebx
	testb	%r10b, %r10b
	je	.Lunix_path_BB13_46
.Lunix_path_BB13_45:
	orb	%bl, %r11b
	movb	$1, %r10b
	je	.Lunix_path_BB13_49
.Lunix_path_BB13_48:
	xorl	%r10d, %r10d
	jmp	.Lunix_path_BB13_49
.Lunix_path_BB13_1:
	xorl	%r13d, %r13d
	xorl	%r15d, %r15d
	xorl	%eax, %eax
	xorl	%r11d, %r11d
	xorl	%r9d, %r9d
	xorl	%ecx, %ecx
	xorl	%esi, %esi
	xorl	%r8d, %r8d
	xorl	%r10d, %r10d
	xorl	%ebx, %ebx
	xorl	%r14d, %r14d
	xorl	%r12d, %r12d
	xorl	%edx, %edx
	jmp	.Lunix_path_BB13_98
.Lunix_path_BB13_99:
	xorl	%eax, %eax
	testb	%bl, %bl
	setne	%al
	leal	(%rax,%rax,2), %r10d
.Lunix_path_BB13_49:
	leaq	1(%rsi), %r11
	movq	%rbp, %rbx
	jmp	.Lunix_path_BB13_50
	.p2align	4
.Lunix_path_BB13_53:
	addq	$24, %r11
	decq	%rbx
	je	.Lunix_path_BB13_54
.Lunix_path_BB13_50:
	cmpb	$2, -1(%r11)
	jne	.Lunix_path_BB13_53
	cmpb	$9, (%r11)
	jne	.Lunix_path_BB13_53
	movb	$1, %r11b
	jmp	.Lunix_path_BB13_55
.Lunix_path_BB13_54:
	xorl	%r11d, %r11d
.Lunix_path_BB13_55:
	leaq	1(%rsi), %rbx
	movq	%rbp, %r14
	jmp	.Lunix_path_BB13_56
	.p2align	4
.Lunix_path_BB13_59:
	addq	$24, %rbx
	decq	%r14
	je	.Lunix_path_BB13_60
.Lunix_path_BB13_56:
	cmpb	$2, -1(%rbx)
	jne	.Lunix_path_BB13_59
	cmpb	$10, (%rbx)
	jne	.Lunix_path_BB13_59
	movb	$1, %bl
	jmp	.Lunix_path_BB13_61
.Lunix_path_BB13_60:
	xorl	%ebx, %ebx
.Lunix_path_BB13_61:
	leaq	1(%rsi), %r14
	movq	%rbp, %r15
	jmp	.Lunix_path_BB13_62
	.p2align	4
.Lunix_path_BB13_65:
	addq	$24, %r14
	decq	%r15
	je	.Lunix_path_BB13_66
.Lunix_path_BB13_62:
	cmpb	$2, -1(%r14)
	jne	.Lunix_path_BB13_65
	cmpb	$17, (%r14)
	jne	.Lunix_path_BB13_65
	movb	$1, %al
	jmp	.Lunix_path_BB13_67
.Lunix_path_BB13_66:
	xorl	%eax, %eax
.Lunix_path_BB13_67:
	leaq	1(%rsi), %r14
	movq	%rbp, %r15
	jmp	.Lunix_path_BB13_68
	.p2align	4
.Lunix_path_BB13_71:
	addq	$24, %r14
	decq	%r15
	je	.Lunix_path_BB13_72
.Lunix_path_BB13_68:
	cmpb	$2, -1(%r14)
	jne	.Lunix_path_BB13_71
	cmpb	$16, (%r14)
	jne	.Lunix_path_BB13_71
	movb	$1, %r14b
	jmp	.Lunix_path_BB13_73
.Lunix_path_BB13_72:
	xorl	%r14d, %r14d
.Lunix_path_BB13_73:
	leaq	1(%rsi), %r15
	movq	%rbp, %r12
	jmp	.Lunix_path_BB13_74
	.p2align	4
.Lunix_path_BB13_77:
	addq	$24, %r15
	decq	%r12
	je	.Lunix_path_BB13_78
.Lunix_path_BB13_74:
	cmpb	$2, -1(%r15)
	jne	.Lunix_path_BB13_77
	cmpb	$11, (%r15)
	jne	.Lunix_path_BB13_77
	movb	$1, %r15b
	jmp	.Lunix_path_BB13_79
.Lunix_path_BB13_78:
	xorl	%r15d, %r15d
.Lunix_path_BB13_79:
	leaq	1(%rsi), %r12
	movq	%rbp, %r13
	jmp	.Lunix_path_BB13_80
	.p2align	4
.Lunix_path_BB13_83:
	addq	$24, %r12
	decq	%r13
	je	.Lunix_path_BB13_84
.Lunix_path_BB13_80:
	cmpb	$2, -1(%r12)
	jne	.Lunix_path_BB13_83
	cmpb	$12, (%r12)
	jne	.Lunix_path_BB13_83
	movb	$1, %r12b
	jmp	.Lunix_path_BB13_85
.Lunix_path_BB13_84:
	xorl	%r12d, %r12d
.Lunix_path_BB13_85:
	leaq	1(%rsi), %r13
	movq	%rbp, %rdx
	jmp	.Lunix_path_BB13_86
	.p2align	4
.Lunix_path_BB13_89:
	addq	$24, %r13
	decq	%rdx
	je	.Lunix_path_BB13_90
.Lunix_path_BB13_86:
	cmpb	$2, -1(%r13)
	jne	.Lunix_path_BB13_89
	cmpb	$14, (%r13)
	jne	.Lunix_path_BB13_89
	movb	$1, %r13b
	jmp	.Lunix_path_BB13_91
.Lunix_path_BB13_90:
	xorl	%r13d, %r13d
.Lunix_path_BB13_91:
	incq	%rsi
	jmp	.Lunix_path_BB13_92
	.p2align	4
.Lunix_path_BB13_95:
	addq	$24, %rsi
	decq	%rbp
	je	.Lunix_path_BB13_96
.Lunix_path_BB13_92:
	cmpb	$2, -1(%rsi)
	jne	.Lunix_path_BB13_95
	cmpb	$15, (%rsi)
	jne	.Lunix_path_BB13_95
	movb	$1, %dl
	jmp	.Lunix_path_BB13_97
.Lunix_path_BB13_96:
	xorl	%edx, %edx
.Lunix_path_BB13_97:
	movl	-4(%rsp), %esi
.Lunix_path_BB13_98:
	movb	%sil, (%rdi)
	movb	%cl, 1(%rdi)
	movb	%r8b, 2(%rdi)
	movb	%r9b, 3(%rdi)
	movb	%r10b, 4(%rdi)
	movb	%r11b, 5(%rdi)
	movb	%bl, 6(%rdi)
	movb	%al, 7(%rdi)
	movb	%r14b, 8(%rdi)
	movb	%r15b, 9(%rdi)
	movb	%r12b, 10(%rdi)
	movb	%r13b, 11(%rdi)
	movb	%dl, 12(%rdi)
	popq	%rbx
	popq	%r12
	popq	%r13
	popq	%r14
	popq	%r15
	popq	%rbp
	retq
.Lunix_path_func_end13:
	.size	upath_commands.arguments.options_of, .Lunix_path_func_end13-upath_commands.arguments.options_of
	.section	.text.upath_commands.arguments.each,"ax",@progbits
	.p2align	4
	.type	upath_commands.arguments.each,@function
# upath_commands::arguments::each
upath_commands.arguments.each:
	pushq	%rbp
	pushq	%r15
	pushq	%r14
	pushq	%r13
	pushq	%r12
	pushq	%rbx
	subq	$104, %rsp
	movq	%r9, 56(%rsp)
	movq	%rcx, 48(%rsp)
	movq	%rdx, 40(%rsp)
	movl	%esi, 4(%rsp)
	movq	%rdi, %rbx
	movq	160(%rsp), %rax
	movq	16(%r8), %r14
	movq	24(%r8), %r15
	movq	32(%r8), %r13
	movq	(%rax), %rcx
	movq	%rcx, 24(%rsp)
	movq	8(%rax), %rbp
	movq	16(%rax), %rax
	movq	%rax, 32(%rsp)
	movq	$0, 13(%rsp)
	movq	$0, 8(%rsp)
	leaq	8(%rsp), %rdi
	movq	%r14, %rsi
	movq	%r15, %rdx
	callq	upath_commands.arguments.options_of
	xorps	%xmm0, %xmm0
	movaps	%xmm0, 64(%rsp)
	testq	%r15, %r15
	je	.Lunix_path_BB14_1
	cmpq	$1, %r15
	jne	.Lunix_path_BB14_4
	xorl	%eax, %eax
	xorl	%ecx, %ecx
	jmp	.Lunix_path_BB14_13
.Lunix_path_BB14_1:
	xorl	%r14d, %r14d
	jmp	.Lunix_path_BB14_17
.Lunix_path_BB14_4:
	movq	%r15, %rdx
	andq	$-2, %rdx
	xorl	%eax, %eax
	movq	%r14, %rsi
	xorl	%ecx, %ecx
	jmp	.Lunix_path_BB14_5
	.p2align	4
.Lunix_path_BB14_11:
	addq	$2, %rcx
	addq	$48, %rsi
	cmpq	%rcx, %rdx
	je	.Lunix_path_BB14_12
.Lunix_path_BB14_5:
	cmpb	$3, (%rsi)
	jne	.Lunix_path_BB14_8
	cmpb	$3, 1(%rsi)
	jne	.Lunix_path_BB14_8
	movups	8(%rsi), %xmm0
	movaps	%xmm0, 64(%rsp)
	movb	$1, %al
.Lunix_path_BB14_8:
	cmpb	$3, 24(%rsi)
	jne	.Lunix_path_BB14_11
	cmpb	$3, 25(%rsi)
	jne	.Lunix_path_BB14_11
	movups	32(%rsi), %xmm0
	movaps	%xmm0, 64(%rsp)
	movb	$1, %al
	jmp	.Lunix_path_BB14_11
.Lunix_path_BB14_12:
	testb	$1, %r15b
	je	.Lunix_path_BB14_16
.Lunix_path_BB14_13:
	leaq	(%rcx,%rcx,2), %rcx
	cmpb	$3, (%r14,%rcx,8)
	jne	.Lunix_path_BB14_16
	leaq	(%r14,%rcx,8), %rcx
	cmpb	$3, 1(%rcx)
	jne	.Lunix_path_BB14_16
	movups	8(%rcx), %xmm0
	movaps	%xmm0, 64(%rsp)
	movb	$1, %al
.Lunix_path_BB14_16:
	movzbl	%al, %r14d
.Lunix_path_BB14_17:
	movaps	64(%rsp), %xmm0
	movaps	%xmm0, 80(%rsp)
	movzbl	14(%rsp), %eax
	shll	$16, %eax
	movzwl	12(%rsp), %ecx
	orl	%eax, %ecx
	shlq	$32, %rcx
	movl	8(%rsp), %r12d
	movl	15(%rsp), %eax
	orq	%rcx, %r12
	movzwl	19(%rsp), %r15d
	shlq	$32, %r15
	orq	%rax, %r15
	testq	%rbp, %rbp
	je	.Lunix_path_BB14_23
	cmpq	%r13, 56(%rsp)
	jae	.Lunix_path_BB14_27
	movq	24(%rsp), %rdi
	movq	(%rdi), %r14
	movq	8(%rdi), %r15
	cmpq	$0, 32(%rsp)
	je	.Lunix_path_BB14_21
	callq	rattle_dealloc@PLT
.Lunix_path_BB14_21:
	movq	$1, (%rbx)
	movb	$13, 8(%rbx)
	movl	$0, 9(%rbx)
	movl	$0, 12(%rbx)
	movq	%r14, 16(%rbx)
	movq	%r15, 24(%rbx)
	xorps	%xmm0, %xmm0
	movups	%xmm0, 32(%rbx)
	movups	%xmm0, 48(%rbx)
	movups	%xmm0, 64(%rbx)
	movups	%xmm0, 80(%rbx)
	movq	$0, 96(%rbx)
	jmp	.Lunix_path_BB14_22
.Lunix_path_BB14_23:
	cmpq	56(%rsp), %r13
	jae	.Lunix_path_BB14_27
	cmpq	$0, 32(%rsp)
	je	.Lunix_path_BB14_26
	movq	24(%rsp), %rdi
	callq	rattle_dealloc@PLT
.Lunix_path_BB14_26:
	movq	$0, (%rbx)
	movb	$4, 8(%rbx)
	movl	$0, 9(%rbx)
	movl	$0, 12(%rbx)
	movl	4(%rsp), %eax
	movb	%al, 16(%rbx)
	movl	%r12d, 17(%rbx)
	movq	%r12, %rax
	shrq	$48, %rax
	movb	%al, 23(%rbx)
	shrq	$32, %r12
	movw	%r12w, 21(%rbx)
	movl	%r15d, 24(%rbx)
	shrq	$32, %r15
	movw	%r15w, 28(%rbx)
	movw	$0, 30(%rbx)
	movq	%r14, 32(%rbx)
	movaps	80(%rsp), %xmm0
	movups	%xmm0, 40(%rbx)
	movq	40(%rsp), %rax
	movq	%rax, 56(%rbx)
	movq	48(%rsp), %rax
	movq	%rax, 64(%rbx)
	xorps	%xmm0, %xmm0
	movups	%xmm0, 72(%rbx)
	movups	%xmm0, 88(%rbx)
	jmp	.Lunix_path_BB14_22
.Lunix_path_BB14_27:
	movq	$0, (%rbx)
	movb	$4, 8(%rbx)
	movl	$0, 9(%rbx)
	movl	$0, 12(%rbx)
	movl	4(%rsp), %eax
	movb	%al, 16(%rbx)
	movl	%r12d, 17(%rbx)
	movq	%r12, %rax
	shrq	$48, %rax
	movb	%al, 23(%rbx)
	shrq	$32, %r12
	movw	%r12w, 21(%rbx)
	movl	%r15d, 24(%rbx)
	shrq	$32, %r15
	movw	%r15w, 28(%rbx)
	movw	$0, 30(%rbx)
	movq	%r14, 32(%rbx)
	movaps	80(%rsp), %xmm0
	movups	%xmm0, 40(%rbx)
	movq	40(%rsp), %rax
	movq	%rax, 56(%rbx)
	movq	48(%rsp), %rax
	movq	%rax, 64(%rbx)
	movq	$1, 72(%rbx)
	movq	24(%rsp), %rax
	movq	%rax, 80(%rbx)
	movq	%rbp, 88(%rbx)
	movq	32(%rsp), %rax
	movq	%rax, 96(%rbx)
.Lunix_path_BB14_22:
	addq	$104, %rsp
	popq	%rbx
	popq	%r12
	popq	%r13
	popq	%r14
	popq	%r15
	popq	%rbp
	retq
.Lunix_path_func_end14:
	.size	upath_commands.arguments.each, .Lunix_path_func_end14-upath_commands.arguments.each
	.section	.text.unlikely.std_alloc.vec.Vec.grow_amortized.f4a78633ca2a48c6.,"ax",@progbits
	.p2align	4
	.type	std_alloc.vec.Vec.grow_amortized.f4a78633ca2a48c6.,@function
# std_alloc::vec::Vec::grow_amortized::<#f4a78633ca2a48c6>
std_alloc.vec.Vec.grow_amortized.f4a78633ca2a48c6.:
	movq	%rsi, %rax
	movq	8(%rdi), %rsi
	addq	%rsi, %rax
	jae	.Lunix_path_BB15_2
	xorl	%eax, %eax
	retq
.Lunix_path_BB15_2:
	pushq	%r14
	pushq	%rbx
	pushq	%rax
	cmpq	$9, %rax
	movl	$8, %ebx
	cmovaeq	%rax, %rbx
	movq	16(%rdi), %rcx
	movq	%rcx, %rdx
	shrq	$62, %rdx
	leaq	(%rcx,%rcx), %rax
	cmpq	%rax, %rbx
	cmovaq	%rbx, %rax
	testq	%rdx, %rdx
	cmoveq	%rax, %rbx
	testq	%rbx, %rbx
	js	.Lunix_path_BB15_6
	testq	%rcx, %rcx
	je	.Lunix_path_BB15_8
	movq	%rdi, %r14
	movq	(%rdi), %rdi
	movl	$1, %ecx
	movq	%rbx, %rdx
	callq	rattle_realloc@PLT
	testb	$1, %al
	je	.Lunix_path_BB15_6
.Lunix_path_BB15_9:
	movq	%rdx, (%r14)
	movq	%rbx, 16(%r14)
	movb	$1, %al
	addq	$8, %rsp
	popq	%rbx
	popq	%r14
	retq
.Lunix_path_BB15_8:
	movq	%rdi, %r14
	movl	$1, %esi
	movq	%rax, %rdi
	callq	rattle_alloc@PLT
	testb	$1, %al
	jne	.Lunix_path_BB15_9
.Lunix_path_BB15_6:
	xorl	%eax, %eax
	addq	$8, %rsp
	popq	%rbx
	popq	%r14
	retq
.Lunix_path_func_end15:
	.size	std_alloc.vec.Vec.grow_amortized.f4a78633ca2a48c6., .Lunix_path_func_end15-std_alloc.vec.Vec.grow_amortized.f4a78633ca2a48c6.
	.section	.text.unix_path.order.PathPartialEq.eq,"ax",@progbits
	.p2align	4
	.type	unix_path.order.PathPartialEq.eq,@function
# unix_path::order::PathPartialEq::eq
unix_path.order.PathPartialEq.eq:
	pushq	%rbx
	cmpq	%rcx, %rsi
	jne	.Lunix_path_BB16_4
	testq	%rsi, %rsi
	je	.Lunix_path_BB16_3
	movzbl	-1(%rdi,%rsi), %r8d
	cmpb	-1(%rdx,%rsi), %r8b
	je	.Lunix_path_BB16_3
	cmpb	$47, %r8b
	jne	.Lunix_path_BB16_7
	jmp	.Lunix_path_BB16_3
.Lunix_path_BB16_4:
	testq	%rsi, %rsi
	je	.Lunix_path_BB16_3
	movzbl	-1(%rdi,%rsi), %r8d
	cmpb	$47, %r8b
	je	.Lunix_path_BB16_3
.Lunix_path_BB16_7:
	leaq	(%rdi,%rsi), %rax
	cmpb	$46, %r8b
	setne	%r8b
	cmpq	$1, %rsi
	sete	%r9b
	orb	%r8b, %r9b
	je	.Lunix_path_BB16_8
	testq	%rcx, %rcx
	jne	.Lunix_path_BB16_11
	jmp	.Lunix_path_BB16_3
.Lunix_path_BB16_8:
	testq	%rcx, %rcx
	je	.Lunix_path_BB16_3
	cmpb	$47, -2(%rax)
	je	.Lunix_path_BB16_3
.Lunix_path_BB16_11:
	movzbl	-1(%rdx,%rcx), %r9d
	cmpb	$47, %r9b
	je	.Lunix_path_BB16_3
	leaq	(%rdx,%rcx), %r8
	cmpb	$46, %r9b
	setne	%r9b
	cmpq	$1, %rcx
	sete	%r10b
	orb	%r9b, %r10b
	jne	.Lunix_path_BB16_14
	cmpb	$47, -2(%r8)
	je	.Lunix_path_BB16_3
.Lunix_path_BB16_14:
	cmpq	%rsi, %rcx
	movq	%rsi, %r10
	cmovbq	%rcx, %r10
	movq	$-1, %r11
	xorl	%r9d, %r9d
	.p2align	4
.Lunix_path_BB16_15:
	movzbl	(%rax,%r11), %ebx
	cmpb	$47, %bl
	je	.Lunix_path_BB16_19
	cmpb	(%r8,%r11), %bl
	jne	.Lunix_path_BB16_19
	incq	%r9
	decq	%r11
	cmpq	%r9, %r10
	jne	.Lunix_path_BB16_15
	movq	%r10, %r9
.Lunix_path_BB16_19:
	movq	%rsi, %rax
	subq	%r9, %rax
	je	.Lunix_path_BB16_21
	cmpb	$47, -1(%rdi,%rax)
	jne	.Lunix_path_BB16_23
.Lunix_path_BB16_21:
	movq	%rcx, %rax
	subq	%r9, %rax
	je	.Lunix_path_BB16_3
	cmpb	$47, -1(%rdx,%rax)
	jne	.Lunix_path_BB16_23
.Lunix_path_BB16_3:
	callq	unix_path.compare.compare
	cmpb	$1, %al
	sete	%al
	popq	%rbx
	retq
.Lunix_path_BB16_23:
	xorl	%eax, %eax
	popq	%rbx
	retq
.Lunix_path_func_end16:
	.size	unix_path.order.PathPartialEq.eq, .Lunix_path_func_end16-unix_path.order.PathPartialEq.eq
	.section	.text.unix_path.compare.compare,"ax",@progbits
	.p2align	4
	.type	unix_path.compare.compare,@function
# unix_path::compare::compare
unix_path.compare.compare:
	pushq	%rax
	cmpq	%rsi, %rcx
	movq	%rsi, %rax
	cmovbq	%rcx, %rax
	cmpq	$15, %rax
	ja	.Lunix_path_BB17_6
	cmpq	$7, %rax
	ja	.Lunix_path_BB17_13
	testq	%rax, %rax
	je	.Lunix_path_BB17_17
	movzbl	(%rdi), %r8d
	cmpb	(%rdx), %r8b
	jne	.Lunix_path_BB17_17
	cmpq	$1, %rax
	jne	.Lunix_path_BB17_76
.Lunix_path_BB17_5:
	movq	%rax, %r8
	jmp	.Lunix_path_BB17_18
.Lunix_path_BB17_6:
	leaq	-16(%rax), %r9
	xorl	%r10d, %r10d
	cmpq	$64, %rax
	jb	.Lunix_path_BB17_11
	.p2align	4
.Lunix_path_BB17_7:
	movdqu	(%rdi,%r10), %xmm0
	movdqu	16(%rdi,%r10), %xmm1
	movdqu	32(%rdi,%r10), %xmm2
	movdqu	48(%rdi,%r10), %xmm3
	movdqu	(%rdx,%r10), %xmm4
	pcmpeqb	%xmm0, %xmm4
	movdqu	16(%rdx,%r10), %xmm0
	pcmpeqb	%xmm1, %xmm0
	pand	%xmm4, %xmm0
	movdqu	32(%rdx,%r10), %xmm1
	pcmpeqb	%xmm2, %xmm1
	movdqu	48(%rdx,%r10), %xmm2
	pcmpeqb	%xmm3, %xmm2
	pand	%xmm1, %xmm2
	pand	%xmm0, %xmm2
	pmovmskb	%xmm2, %r8d
	cmpl	$65535, %r8d
	jne	.Lunix_path_BB17_11
	addq	$64, %r10
	addq	$-64, %rax
	cmpq	$63, %rax
	ja	.Lunix_path_BB17_7
	jmp	.Lunix_path_BB17_11
	.p2align	4
.Lunix_path_BB17_9:
	movdqu	(%rdi,%r10), %xmm0
	movdqu	(%rdx,%r10), %xmm1
	pcmpeqb	%xmm0, %xmm1
	pmovmskb	%xmm1, %eax
	notl	%eax
	rep		bsfl	%eax, %eax
	cmpw	$15, %ax
	jbe	.Lunix_path_BB17_15
	addq	$16, %r10
.Lunix_path_BB17_11:
	cmpq	%r9, %r10
	jb	.Lunix_path_BB17_9
	movdqu	(%rdi,%r9), %xmm0
	movdqu	(%rdx,%r9), %xmm1
	pcmpeqb	%xmm0, %xmm1
	pmovmskb	%xmm1, %eax
	notl	%eax
	rep		bsfl	%eax, %r8d
	addq	%r9, %r8
	jmp	.Lunix_path_BB17_18
.Lunix_path_BB17_13:
	movq	(%rdi), %xmm0
	movq	(%rdx), %xmm1
	pcmpeqb	%xmm0, %xmm1
	pmovmskb	%xmm1, %r8d
	notl	%r8d
	orl	$256, %r8d
	rep		bsfl	%r8d, %r8d
	cmpb	$8, %r8b
	jb	.Lunix_path_BB17_18
	movq	-8(%rdi,%rax), %xmm0
	movq	-8(%rdx,%rax), %xmm1
	pcmpeqb	%xmm0, %xmm1
	pmovmskb	%xmm1, %r8d
	notl	%r8d
	orl	$256, %r8d
	rep		bsfl	%r8d, %r8d
	addq	%rax, %r8
	addq	$-8, %r8
	jmp	.Lunix_path_BB17_18
.Lunix_path_BB17_17:
	xorl	%r8d, %r8d
	jmp	.Lunix_path_BB17_18
.Lunix_path_BB17_15:
	movzwl	%ax, %r8d
	addq	%r10, %r8
.Lunix_path_BB17_18:
	movq	%r8, %r9
	xorq	%rsi, %r9
	movq	%r8, %r10
	xorq	%rcx, %r10
	movb	$1, %al
	orq	%r9, %r10
	jne	.Lunix_path_BB17_20
	popq	%rcx
	retq
.Lunix_path_BB17_20:
	cmpq	%rsi, %r8
	jae	.Lunix_path_BB17_23
	movzbl	(%rdi,%r8), %eax
	cmpw	$47, %ax
	jne	.Lunix_path_BB17_26
.Lunix_path_BB17_23:
	xorl	%eax, %eax
	cmpq	%rcx, %r8
	jae	.Lunix_path_BB17_29
.Lunix_path_BB17_24:
	movzbl	(%rdx,%r8), %r9d
	cmpw	$47, %r9w
	je	.Lunix_path_BB17_29
	movzwl	%r9w, %r9d
	incl	%r9d
	cmpw	%r9w, %ax
	je	.Lunix_path_BB17_30
.Lunix_path_BB17_32:
	testq	%r8, %r8
	je	.Lunix_path_BB17_43
	movzbl	-1(%rdi,%r8), %r10d
	cmpb	$47, %r10b
	je	.Lunix_path_BB17_34
	cmpb	$46, %r10b
	jne	.Lunix_path_BB17_42
	movq	%r8, %r10
	decq	%r10
	je	.Lunix_path_BB17_43
	cmpb	$47, -1(%rdi,%r10)
	je	.Lunix_path_BB17_35
.Lunix_path_BB17_42:
	cmpw	%r9w, %ax
	setae	%al
	addb	%al, %al
	popq	%rcx
	retq
.Lunix_path_BB17_26:
	cmpb	$46, %al
	sete	%r9b
	cmpq	%rcx, %r8
	setae	%r10b
	orb	%r9b, %r10b
	jne	.Lunix_path_BB17_28
	movzbl	(%rdx,%r8), %r9d
	movl	%r9d, %r10d
	andb	$-2, %r10b
	cmpb	$46, %r10b
	jne	.Lunix_path_BB17_79
.Lunix_path_BB17_28:
	movzwl	%ax, %eax
	incl	%eax
	cmpq	%rcx, %r8
	jb	.Lunix_path_BB17_24
.Lunix_path_BB17_29:
	xorl	%r9d, %r9d
	cmpw	%r9w, %ax
	jne	.Lunix_path_BB17_32
.Lunix_path_BB17_30:
	testq	%r8, %r8
	je	.Lunix_path_BB17_43
.Lunix_path_BB17_34:
	movq	%r8, %r10
.Lunix_path_BB17_35:
	addq	%r10, %rdx
	movq	%rcx, %rax
	subq	%r10, %rax
	subq	%r10, %rsi
	jne	.Lunix_path_BB17_37
	movq	%rdx, %rdi
	movq	%rax, %rsi
	callq	unix_path.pair.rest_len
	testq	%rax, %rax
	sete	%al
	popq	%rcx
	retq
.Lunix_path_BB17_43:
	testq	%rsi, %rsi
	je	.Lunix_path_BB17_52
	movzbl	(%rdi), %eax
	cmpl	$47, %eax
	je	.Lunix_path_BB17_65
	cmpl	$46, %eax
	jne	.Lunix_path_BB17_54
	movb	$2, %al
	cmpq	$1, %rsi
	je	.Lunix_path_BB17_55
	movzbl	1(%rdi), %r9d
	cmpl	$47, %r9d
	je	.Lunix_path_BB17_55
	cmpl	$46, %r9d
	jne	.Lunix_path_BB17_54
	cmpq	$2, %rsi
	je	.Lunix_path_BB17_51
	movb	$4, %al
	cmpb	$47, 2(%rdi)
	jne	.Lunix_path_BB17_55
.Lunix_path_BB17_51:
	movb	$3, %al
	testq	%rcx, %rcx
	jne	.Lunix_path_BB17_56
	jmp	.Lunix_path_BB17_66
.Lunix_path_BB17_37:
	addq	%r10, %rdi
	cmpq	%r10, %rcx
	jne	.Lunix_path_BB17_53
	callq	unix_path.pair.rest_len
	cmpq	$1, %rax
	movb	$2, %al
	sbbb	$0, %al
	popq	%rcx
	retq
.Lunix_path_BB17_52:
	xorl	%eax, %eax
	testq	%rcx, %rcx
	jne	.Lunix_path_BB17_56
.Lunix_path_BB17_66:
	xorl	%r9d, %r9d
	jmp	.Lunix_path_BB17_67
.Lunix_path_BB17_53:
	movq	%rax, %rcx
	popq	%rax
	jmp	unix_path.pair.Comparison.order_after_cut
.Lunix_path_BB17_54:
	movb	$4, %al
.Lunix_path_BB17_55:
	testq	%rcx, %rcx
	je	.Lunix_path_BB17_66
.Lunix_path_BB17_56:
	movzbl	(%rdx), %r9d
	cmpl	$47, %r9d
	je	.Lunix_path_BB17_74
	cmpl	$46, %r9d
	jne	.Lunix_path_BB17_64
	movb	$2, %r9b
	cmpq	$1, %rcx
	je	.Lunix_path_BB17_67
	movzbl	1(%rdx), %r10d
	cmpl	$47, %r10d
	je	.Lunix_path_BB17_67
	cmpl	$46, %r10d
	jne	.Lunix_path_BB17_64
	cmpq	$2, %rcx
	je	.Lunix_path_BB17_63
	movb	$4, %r9b
	cmpb	$47, 2(%rdx)
	jne	.Lunix_path_BB17_67
.Lunix_path_BB17_63:
	movb	$3, %r9b
	cmpb	%r9b, %al
	setae	%al
	je	.Lunix_path_BB17_68
	jmp	.Lunix_path_BB17_75
.Lunix_path_BB17_67:
	cmpb	%r9b, %al
	setae	%al
	jne	.Lunix_path_BB17_75
.Lunix_path_BB17_68:
	cmpq	%rsi, %r8
	jae	.Lunix_path_BB17_71
	movzbl	(%rdi,%r8), %eax
	cmpw	$47, %ax
	jne	.Lunix_path_BB17_81
.Lunix_path_BB17_71:
	xorl	%eax, %eax
	cmpq	%rcx, %r8
	jae	.Lunix_path_BB17_82
	jmp	.Lunix_path_BB17_72
.Lunix_path_BB17_64:
	movb	$4, %r9b
	cmpb	%r9b, %al
	setae	%al
	je	.Lunix_path_BB17_68
.Lunix_path_BB17_75:
	addb	%al, %al
	popq	%rcx
	retq
.Lunix_path_BB17_65:
	movb	$1, %al
	testq	%rcx, %rcx
	jne	.Lunix_path_BB17_56
	jmp	.Lunix_path_BB17_66
.Lunix_path_BB17_74:
	movb	$1, %r9b
	cmpb	%r9b, %al
	setae	%al
	je	.Lunix_path_BB17_68
	jmp	.Lunix_path_BB17_75
.Lunix_path_BB17_76:
	movzbl	1(%rdi), %r9d
	movl	$1, %r8d
	cmpb	1(%rdx), %r9b
	jne	.Lunix_path_BB17_18
	cmpq	$2, %rax
	je	.Lunix_path_BB17_5
	movzbl	2(%rdi), %r9d
	movl	$2, %r8d
	cmpb	2(%rdx), %r9b
	jne	.Lunix_path_BB17_18
	cmpq	$3, %rax
	je	.Lunix_path_BB17_5
	movzbl	3(%rdi), %r9d
	movl	$3, %r8d
	cmpb	3(%rdx), %r9b
	jne	.Lunix_path_BB17_18
	cmpq	$4, %rax
	je	.Lunix_path_BB17_5
	movzbl	4(%rdi), %r9d
	movl	$4, %r8d
	cmpb	4(%rdx), %r9b
	jne	.Lunix_path_BB17_18
	cmpq	$5, %rax
	je	.Lunix_path_BB17_5
	movzbl	5(%rdi), %r9d
	movl	$5, %r8d
	cmpb	5(%rdx), %r9b
	jne	.Lunix_path_BB17_18
	cmpq	$6, %rax
	je	.Lunix_path_BB17_5
	movzbl	6(%rdi), %r8d
	cmpb	6(%rdx), %r8b
	movl	$6, %r8d
	cmoveq	%rax, %r8
	jmp	.Lunix_path_BB17_18
.Lunix_path_BB17_79:
	cmpb	%r9b, %al
	setae	%cl
	addb	%cl, %cl
	cmpb	%r9b, %al
	movzbl	%cl, %ecx
	movl	$1, %eax
	cmovnel	%ecx, %eax
	popq	%rcx
	retq
.Lunix_path_BB17_81:
	movzwl	%ax, %eax
	incl	%eax
	cmpq	%rcx, %r8
	jae	.Lunix_path_BB17_82
.Lunix_path_BB17_72:
	movzbl	(%rdx,%r8), %ecx
	cmpw	$47, %cx
	jne	.Lunix_path_BB17_83
.Lunix_path_BB17_82:
	xorl	%ecx, %ecx
	jmp	.Lunix_path_BB17_84
.Lunix_path_BB17_83:
	movzwl	%cx, %ecx
	incl	%ecx
.Lunix_path_BB17_84:
	cmpw	%cx, %ax
	setae	%dl
	addb	%dl, %dl
	cmpw	%cx, %ax
	movzbl	%dl, %ecx
	movl	$1, %eax
	cmovnel	%ecx, %eax
	popq	%rcx
	retq
.Lunix_path_func_end17:
	.size	unix_path.compare.compare, .Lunix_path_func_end17-unix_path.compare.compare
	.section	.text.unix_path.pair.rest_len,"ax",@progbits
	.p2align	4
	.type	unix_path.pair.rest_len,@function
# unix_path::pair::rest_len
unix_path.pair.rest_len:
	xorl	%edx, %edx
	jmp	.Lunix_path_BB18_1
	.p2align	4
.Lunix_path_BB18_6:
	addq	%rax, %rdx
	cmpq	$4, %rdx
	jae	.Lunix_path_BB18_7
.Lunix_path_BB18_1:
	movq	%rdx, %rax
	cmpq	%rsi, %rdx
	jae	.Lunix_path_BB18_8
	movzbl	(%rdi,%rax), %ecx
	movl	$1, %edx
	cmpl	$47, %ecx
	je	.Lunix_path_BB18_6
	cmpl	$46, %ecx
	jne	.Lunix_path_BB18_8
	leaq	1(%rax), %rcx
	cmpq	%rsi, %rcx
	je	.Lunix_path_BB18_6
	movl	$2, %edx
	cmpb	$47, (%rdi,%rcx)
	je	.Lunix_path_BB18_6
.Lunix_path_BB18_8:
	subq	%rax, %rsi
	movq	%rsi, %rax
	retq
.Lunix_path_BB18_7:
	pushq	%rbx
	movq	%rsi, %rbx
	callq	unix_path.filler.filler_end_from
	movq	%rbx, %rsi
	popq	%rbx
	subq	%rax, %rsi
	movq	%rsi, %rax
	retq
.Lunix_path_func_end18:
	.size	unix_path.pair.rest_len, .Lunix_path_func_end18-unix_path.pair.rest_len
	.section	.rodata.cst16,"aM",@progbits,16
	.p2align	4, 0x0
.Lunix_path_CPI19_0:
	.zero	16,46
.Lunix_path_CPI19_1:
	.zero	16,47
	.section	.text.unlikely.unix_path.filler.filler_end_from,"ax",@progbits
	.p2align	4
	.type	unix_path.filler.filler_end_from,@function
# unix_path::filler::filler_end_from
unix_path.filler.filler_end_from:
	movq	%rdx, %rax
	movq	%rsi, %rcx
	subq	%rdx, %rcx
	cmpq	$17, %rcx
	jb	.Lunix_path_BB19_3
	.p2align	4
.Lunix_path_BB19_1:
	movdqu	(%rdi,%rax), %xmm0
	movdqu	1(%rdi,%rax), %xmm1
	movdqa	.Lunix_path_CPI19_0(%rip), %xmm2
	pcmpeqb	%xmm0, %xmm2
	movdqa	.Lunix_path_CPI19_1(%rip), %xmm3
	pcmpeqb	%xmm3, %xmm0
	pcmpeqb	%xmm3, %xmm1
	pand	%xmm2, %xmm1
	por	%xmm0, %xmm1
	pmovmskb	%xmm1, %edx
	cmpl	$65535, %edx
	jne	.Lunix_path_BB19_3
	addq	$16, %rax
	addq	$-16, %rcx
	cmpq	$16, %rcx
	ja	.Lunix_path_BB19_1
.Lunix_path_BB19_3:
	cmpq	%rsi, %rax
	jae	.Lunix_path_BB19_11
	leaq	-1(%rsi), %rcx
	jmp	.Lunix_path_BB19_5
	.p2align	4
.Lunix_path_BB19_9:
	incq	%rax
	cmpq	%rax, %rsi
	je	.Lunix_path_BB19_10
.Lunix_path_BB19_5:
	movzbl	(%rdi,%rax), %edx
	cmpl	$47, %edx
	je	.Lunix_path_BB19_9
	cmpl	$46, %edx
	jne	.Lunix_path_BB19_11
	cmpq	%rax, %rcx
	je	.Lunix_path_BB19_9
	cmpb	$47, 1(%rdi,%rax)
	je	.Lunix_path_BB19_9
.Lunix_path_BB19_11:
	retq
.Lunix_path_BB19_10:
	movq	%rsi, %rax
	retq
.Lunix_path_func_end19:
	.size	unix_path.filler.filler_end_from, .Lunix_path_func_end19-unix_path.filler.filler_end_from
	.section	.text.unix_path.pair.Comparison.order_after_cut,"ax",@progbits
	.p2align	4
	.type	unix_path.pair.Comparison.order_after_cut,@function
# unix_path::pair::Comparison::order_after_cut
unix_path.pair.Comparison.order_after_cut:
	pushq	%rbp
	pushq	%r15
	pushq	%r14
	pushq	%r13
	pushq	%r12
	pushq	%rbx
	pushq	%rax
	movq	%rcx, %r14
	movq	%rdx, %rbx
	movq	%rsi, %r12
	movq	%rdi, %r15
	jmp	.Lunix_path_BB20_4
	.p2align	4
.Lunix_path_BB20_1:
	testq	%rcx, %rcx
	je	.Lunix_path_BB20_57
.Lunix_path_BB20_2:
	movq	%rcx, %rsi
.Lunix_path_BB20_3:
	addq	%rsi, %r15
	subq	%rsi, %rbp
	addq	%rsi, %rbx
	subq	%rsi, %r14
	movq	%rbp, %r12
.Lunix_path_BB20_4:
	xorl	%edx, %edx
	jmp	.Lunix_path_BB20_6
	.p2align	4
.Lunix_path_BB20_5:
	addq	%r13, %rdx
	cmpq	$4, %rdx
	jae	.Lunix_path_BB20_11
.Lunix_path_BB20_6:
	movq	%rdx, %r13
	cmpq	%r12, %rdx
	jae	.Lunix_path_BB20_12
	movzbl	(%r15,%r13), %eax
	movl	$1, %edx
	cmpl	$47, %eax
	je	.Lunix_path_BB20_5
	cmpl	$46, %eax
	jne	.Lunix_path_BB20_12
	leaq	1(%r13), %rax
	cmpq	%r12, %rax
	je	.Lunix_path_BB20_5
	movl	$2, %edx
	cmpb	$47, (%r15,%rax)
	je	.Lunix_path_BB20_5
	jmp	.Lunix_path_BB20_12
.Lunix_path_BB20_11:
	movq	%r15, %rdi
	movq	%r12, %rsi
	callq	unix_path.filler.filler_end_from
	movq	%rax, %r13
	.p2align	4
.Lunix_path_BB20_12:
	addq	%r13, %r15
	movq	%r12, %rbp
	subq	%r13, %rbp
	xorl	%edx, %edx
	jmp	.Lunix_path_BB20_14
	.p2align	4
.Lunix_path_BB20_13:
	addq	%rax, %rdx
	cmpq	$4, %rdx
	jae	.Lunix_path_BB20_55
.Lunix_path_BB20_14:
	movq	%rdx, %rax
	cmpq	%r14, %rdx
	jae	.Lunix_path_BB20_19
	movzbl	(%rbx,%rax), %ecx
	movl	$1, %edx
	cmpl	$47, %ecx
	je	.Lunix_path_BB20_13
	cmpl	$46, %ecx
	jne	.Lunix_path_BB20_19
	leaq	1(%rax), %rcx
	cmpq	%r14, %rcx
	je	.Lunix_path_BB20_13
	movl	$2, %edx
	cmpb	$47, (%rbx,%rcx)
	je	.Lunix_path_BB20_13
	.p2align	4
.Lunix_path_BB20_19:
	subq	%rax, %r14
	je	.Lunix_path_BB20_56
.Lunix_path_BB20_20:
	addq	%rax, %rbx
	cmpq	%rbp, %r14
	movq	%rbp, %rax
	cmovbq	%r14, %rax
	cmpq	$15, %rax
	ja	.Lunix_path_BB20_26
	cmpq	$7, %rax
	ja	.Lunix_path_BB20_35
	xorl	%ecx, %ecx
	cmpq	%r13, %r12
	je	.Lunix_path_BB20_37
	.p2align	4
.Lunix_path_BB20_23:
	movzbl	(%r15,%rcx), %edx
	cmpb	(%rbx,%rcx), %dl
	jne	.Lunix_path_BB20_37
	incq	%rcx
	cmpq	%rcx, %rax
	jne	.Lunix_path_BB20_23
	movq	%rax, %rcx
	cmpq	%rbp, %rcx
	jb	.Lunix_path_BB20_38
	jmp	.Lunix_path_BB20_46
	.p2align	4
.Lunix_path_BB20_26:
	movdqu	(%r15), %xmm0
	movdqu	(%rbx), %xmm1
	pcmpeqb	%xmm0, %xmm1
	pmovmskb	%xmm1, %ecx
	notl	%ecx
	rep		bsfl	%ecx, %ecx
	cmpw	$16, %cx
	jb	.Lunix_path_BB20_37
	xorl	%edx, %edx
	cmpq	$64, %rax
	jb	.Lunix_path_BB20_31
	movq	%rax, %rcx
	.p2align	4
.Lunix_path_BB20_29:
	movdqu	(%r15,%rdx), %xmm0
	movdqu	16(%r15,%rdx), %xmm1
	movdqu	32(%r15,%rdx), %xmm2
	movdqu	48(%r15,%rdx), %xmm3
	movdqu	(%rbx,%rdx), %xmm4
	pcmpeqb	%xmm0, %xmm4
	movdqu	16(%rbx,%rdx), %xmm0
	pcmpeqb	%xmm1, %xmm0
	pand	%xmm4, %xmm0
	movdqu	32(%rbx,%rdx), %xmm1
	pcmpeqb	%xmm2, %xmm1
	movdqu	48(%rbx,%rdx), %xmm2
	pcmpeqb	%xmm3, %xmm2
	pand	%xmm1, %xmm2
	pand	%xmm0, %xmm2
	pmovmskb	%xmm2, %esi
	cmpl	$65535, %esi
	jne	.Lunix_path_BB20_31
	addq	$64, %rdx
	addq	$-64, %rcx
	cmpq	$63, %rcx
	ja	.Lunix_path_BB20_29
.Lunix_path_BB20_31:
	addq	$-16, %rax
	cmpq	%rax, %rdx
	jae	.Lunix_path_BB20_34
	.p2align	4
.Lunix_path_BB20_32:
	movdqu	(%r15,%rdx), %xmm0
	movdqu	(%rbx,%rdx), %xmm1
	pcmpeqb	%xmm0, %xmm1
	pmovmskb	%xmm1, %ecx
	notl	%ecx
	rep		bsfl	%ecx, %ecx
	cmpw	$15, %cx
	jbe	.Lunix_path_BB20_45
	addq	$16, %rdx
	cmpq	%rax, %rdx
	jb	.Lunix_path_BB20_32
.Lunix_path_BB20_34:
	movdqu	(%r15,%rax), %xmm0
	movdqu	(%rbx,%rax), %xmm1
	pcmpeqb	%xmm0, %xmm1
	pmovmskb	%xmm1, %ecx
	notl	%ecx
	rep		bsfl	%ecx, %ecx
	addq	%rax, %rcx
	cmpq	%rbp, %rcx
	jb	.Lunix_path_BB20_38
	jmp	.Lunix_path_BB20_46
	.p2align	4
.Lunix_path_BB20_35:
	movq	(%r15), %xmm0
	movq	(%rbx), %xmm1
	pcmpeqb	%xmm0, %xmm1
	pmovmskb	%xmm1, %ecx
	notl	%ecx
	orl	$256, %ecx
	rep		bsfl	%ecx, %ecx
	cmpb	$8, %cl
	jb	.Lunix_path_BB20_37
	movq	-8(%r15,%rax), %xmm0
	movq	-8(%rbx,%rax), %xmm1
	pcmpeqb	%xmm0, %xmm1
	pmovmskb	%xmm1, %ecx
	notl	%ecx
	orl	$256, %ecx
	rep		bsfl	%ecx, %ecx
	addq	%rax, %rcx
	addq	$-8, %rcx
	.p2align	4
.Lunix_path_BB20_37:
	cmpq	%rbp, %rcx
	jae	.Lunix_path_BB20_46
.Lunix_path_BB20_38:
	movzbl	(%r15,%rcx), %eax
	cmpw	$47, %ax
	jne	.Lunix_path_BB20_40
.Lunix_path_BB20_46:
	xorl	%eax, %eax
	cmpq	%r14, %rcx
	jae	.Lunix_path_BB20_44
	jmp	.Lunix_path_BB20_47
	.p2align	4
.Lunix_path_BB20_40:
	cmpq	%r14, %rcx
	jae	.Lunix_path_BB20_43
	cmpb	$46, %al
	je	.Lunix_path_BB20_43
	movzbl	(%rbx,%rcx), %edx
	movl	%edx, %esi
	andb	$-2, %sil
	cmpb	$46, %sil
	jne	.Lunix_path_BB20_87
.Lunix_path_BB20_43:
	movzwl	%ax, %eax
	incl	%eax
	cmpq	%r14, %rcx
	jae	.Lunix_path_BB20_44
.Lunix_path_BB20_47:
	movzbl	(%rbx,%rcx), %edx
	cmpw	$47, %dx
	jne	.Lunix_path_BB20_49
.Lunix_path_BB20_44:
	xorl	%edx, %edx
	cmpw	%dx, %ax
	je	.Lunix_path_BB20_1
	jmp	.Lunix_path_BB20_50
	.p2align	4
.Lunix_path_BB20_49:
	movzwl	%dx, %edx
	incl	%edx
	cmpw	%dx, %ax
	je	.Lunix_path_BB20_1
.Lunix_path_BB20_50:
	testq	%rcx, %rcx
	je	.Lunix_path_BB20_57
	movzbl	-1(%r15,%rcx), %esi
	cmpb	$47, %sil
	je	.Lunix_path_BB20_2
	cmpb	$46, %sil
	jne	.Lunix_path_BB20_59
	movq	%rcx, %rsi
	decq	%rsi
	je	.Lunix_path_BB20_60
	cmpb	$47, -1(%r15,%rsi)
	je	.Lunix_path_BB20_3
	jmp	.Lunix_path_BB20_59
.Lunix_path_BB20_45:
	movzwl	%cx, %ecx
	addq	%rdx, %rcx
	cmpq	%rbp, %rcx
	jb	.Lunix_path_BB20_38
	jmp	.Lunix_path_BB20_46
.Lunix_path_BB20_55:
	movq	%rbx, %rdi
	movq	%r14, %rsi
	callq	unix_path.filler.filler_end_from
	subq	%rax, %r14
	jne	.Lunix_path_BB20_20
.Lunix_path_BB20_56:
	cmpq	%r13, %r12
	sete	%cl
	movb	$2, %al
	subb	%cl, %al
	jmp	.Lunix_path_BB20_93
.Lunix_path_BB20_57:
	xorl	%edx, %edx
	cmpq	%r13, %r12
	jne	.Lunix_path_BB20_61
.Lunix_path_BB20_58:
	xorl	%eax, %eax
	jmp	.Lunix_path_BB20_93
.Lunix_path_BB20_59:
	cmpw	%dx, %ax
	setae	%al
	addb	%al, %al
	jmp	.Lunix_path_BB20_93
.Lunix_path_BB20_60:
	movl	$1, %edx
	cmpq	%r13, %r12
	je	.Lunix_path_BB20_58
.Lunix_path_BB20_61:
	movzbl	(%r15), %edi
	movb	$1, %al
	movb	$1, %sil
	cmpl	$47, %edi
	je	.Lunix_path_BB20_70
	cmpl	$46, %edi
	jne	.Lunix_path_BB20_69
	movb	$2, %sil
	cmpq	$1, %rbp
	je	.Lunix_path_BB20_70
	movzbl	1(%r15), %edi
	cmpl	$47, %edi
	je	.Lunix_path_BB20_70
	cmpl	$46, %edi
	jne	.Lunix_path_BB20_69
	cmpq	$2, %rbp
	je	.Lunix_path_BB20_68
	movb	$4, %sil
	cmpb	$47, 2(%r15)
	jne	.Lunix_path_BB20_70
.Lunix_path_BB20_68:
	movb	$3, %sil
	jmp	.Lunix_path_BB20_70
.Lunix_path_BB20_69:
	movb	$4, %sil
.Lunix_path_BB20_70:
	movzbl	(%rbx), %edi
	cmpl	$47, %edi
	je	.Lunix_path_BB20_79
	cmpl	$46, %edi
	jne	.Lunix_path_BB20_78
	movb	$2, %al
	cmpq	$1, %r14
	je	.Lunix_path_BB20_79
	movzbl	1(%rbx), %edi
	cmpl	$47, %edi
	je	.Lunix_path_BB20_79
	cmpl	$46, %edi
	jne	.Lunix_path_BB20_78
	cmpq	$2, %r14
	je	.Lunix_path_BB20_77
	movb	$4, %al
	cmpb	$47, 2(%rbx)
	jne	.Lunix_path_BB20_79
.Lunix_path_BB20_77:
	movb	$3, %al
	jmp	.Lunix_path_BB20_79
.Lunix_path_BB20_78:
	movb	$4, %al
.Lunix_path_BB20_79:
	cmpb	%al, %sil
	setae	%al
	jne	.Lunix_path_BB20_83
	cmpq	%rbp, %rcx
	jae	.Lunix_path_BB20_84
	movzbl	(%r15,%rdx), %eax
	cmpw	$47, %ax
	jne	.Lunix_path_BB20_88
.Lunix_path_BB20_84:
	xorl	%eax, %eax
	cmpq	%r14, %rdx
	jae	.Lunix_path_BB20_89
	jmp	.Lunix_path_BB20_85
.Lunix_path_BB20_83:
	addb	%al, %al
	jmp	.Lunix_path_BB20_93
.Lunix_path_BB20_87:
	cmpb	%dl, %al
	setae	%cl
	addb	%cl, %cl
	cmpb	%dl, %al
	movzbl	%cl, %ecx
	jmp	.Lunix_path_BB20_92
.Lunix_path_BB20_88:
	movzwl	%ax, %eax
	incl	%eax
	cmpq	%r14, %rdx
	jae	.Lunix_path_BB20_89
.Lunix_path_BB20_85:
	movzbl	(%rbx,%rdx), %ecx
	cmpw	$47, %cx
	jne	.Lunix_path_BB20_90
.Lunix_path_BB20_89:
	xorl	%ecx, %ecx
	jmp	.Lunix_path_BB20_91
.Lunix_path_BB20_90:
	movzwl	%cx, %ecx
	incl	%ecx
.Lunix_path_BB20_91:
	cmpw	%cx, %ax
	setae	%dl
	addb	%dl, %dl
	cmpw	%cx, %ax
	movzbl	%dl, %ecx
.Lunix_path_BB20_92:
	movl	$1, %eax
	cmovnel	%ecx, %eax
.Lunix_path_BB20_93:
	addq	$8, %rsp
	popq	%rbx
	popq	%r12
	popq	%r13
	popq	%r14
	popq	%r15
	popq	%rbp
	retq
.Lunix_path_func_end20:
	.size	unix_path.pair.Comparison.order_after_cut, .Lunix_path_func_end20-unix_path.pair.Comparison.order_after_cut
	.section	.text.upath_commands.input.read_all.909299a5b5e629dc.,"ax",@progbits
	.p2align	4
	.type	upath_commands.input.read_all.909299a5b5e629dc.,@function
# upath_commands::input::read_all::<#909299a5b5e629dc>
upath_commands.input.read_all.909299a5b5e629dc.:
	pushq	%rbp
	pushq	%r15
	pushq	%r14
	pushq	%r13
	pushq	%r12
	pushq	%rbx
	movq	%rsp, %r11
	subq	$64512, %r11
.Lunix_path_BB21_1:
	subq	$3072, %rsp
	movq	$0, (%rsp)
	cmpq	%r11, %rsp
	jne	.Lunix_path_BB21_1
	subq	$1080, %rsp
	movq	%rsi, %r14
	movq	%rdi, %r12
	xorps	%xmm0, %xmm0
	movaps	%xmm0, 32(%rsp)
	leaq	7(%rsp), %r13
	movq	%r13, 8(%rsp)
	movups	%xmm0, 16(%rsp)
	leaq	56(%rsp), %r15
	movl	$65536, %edx
	movq	%r15, %rdi
	xorl	%esi, %esi
	callq	memset@PLT
	leaq	32(%rsp), %rdi
	movq	%r14, %rsi
	movq	%r15, %rdx
	callq	upath_commands.input.read_some.909299a5b5e629dc.
	cmpb	$0, 32(%rsp)
	je	.Lunix_path_BB21_7
	movzbl	33(%rsp), %ebx
	movq	24(%rsp), %rbp
	testq	%rbp, %rbp
	je	.Lunix_path_BB21_5
.Lunix_path_BB21_4:
	movq	8(%rsp), %rdi
	callq	rattle_dealloc@PLT
.Lunix_path_BB21_5:
	movb	$1, (%r12)
	movb	%bl, 1(%r12)
	xorps	%xmm0, %xmm0
	movups	%xmm0, 8(%r12)
	movq	$0, 24(%r12)
.Lunix_path_BB21_6:
	addq	$65592, %rsp
	popq	%rbx
	popq	%r12
	popq	%r13
	popq	%r14
	popq	%r15
	popq	%rbp
	retq
.Lunix_path_BB21_7:
	movq	%r12, 48(%rsp)
	movq	40(%rsp), %r12
	jmp	.Lunix_path_BB21_10
	.p2align	4
.Lunix_path_BB21_8:
	leaq	56(%rsp), %rsi
	movq	%r12, %rdx
	callq	memmove@PLT
.Lunix_path_BB21_9:
	addq	%r12, %rbx
	movq	%rbx, 16(%rsp)
	movq	%rbp, 24(%rsp)
	leaq	32(%rsp), %rdi
	leaq	56(%rsp), %rdx
	movq	%r14, %rsi
	callq	upath_commands.input.read_some.909299a5b5e629dc.
	movq	40(%rsp), %r12
	cmpb	$0, 32(%rsp)
	jne	.Lunix_path_BB21_35
.Lunix_path_BB21_10:
	testq	%r12, %r12
	je	.Lunix_path_BB21_34
	movq	16(%rsp), %rbx
	movq	24(%rsp), %rbp
	movq	%rbp, %rax
	subq	%rbx, %rax
	cmpq	%rax, %r12
	ja	.Lunix_path_BB21_32
.Lunix_path_BB21_12:
	leaq	(%rbx,%r13), %rdi
	movq	%rdi, %rax
	subq	%r15, %rax
	cmpq	%r12, %rax
	jae	.Lunix_path_BB21_8
	cmpq	$4, %r12
	jb	.Lunix_path_BB21_14
	movq	%rbx, %rax
	subq	%r15, %rax
	addq	%r13, %rax
	cmpq	$32, %rax
	jae	.Lunix_path_BB21_17
.Lunix_path_BB21_14:
	xorl	%eax, %eax
.Lunix_path_BB21_26:
	movq	%r12, %rdx
	movq	%rax, %rcx
	andq	$3, %rdx
	je	.Lunix_path_BB21_29
	movq	%rax, %rcx
	.p2align	4
.Lunix_path_BB21_28:
	movzbl	56(%rsp,%rcx), %esi
	movb	%sil, (%rdi,%rcx)
	incq	%rcx
	decq	%rdx
	jne	.Lunix_path_BB21_28
.Lunix_path_BB21_29:
	subq	%r12, %rax
	cmpq	$-4, %rax
	ja	.Lunix_path_BB21_9
	leaq	(%rbx,%r13), %rax
	addq	$3, %rax
	.p2align	4
.Lunix_path_BB21_31:
	movzbl	56(%rsp,%rcx), %edx
	movb	%dl, -3(%rax,%rcx)
	movzbl	57(%rsp,%rcx), %edx
	movb	%dl, -2(%rax,%rcx)
	movzbl	58(%rsp,%rcx), %edx
	movb	%dl, -1(%rax,%rcx)
	movzbl	59(%rsp,%rcx), %edx
	movb	%dl, (%rax,%rcx)
	addq	$4, %rcx
	cmpq	%rcx, %r12
	jne	.Lunix_path_BB21_31
	jmp	.Lunix_path_BB21_9
.Lunix_path_BB21_17:
	cmpq	$32, %r12
	jae	.Lunix_path_BB21_19
	xorl	%eax, %eax
	jmp	.Lunix_path_BB21_23
.Lunix_path_BB21_19:
	movq	%r12, %rax
	andq	$-32, %rax
	leaq	(%rbx,%r13), %rcx
	addq	$16, %rcx
	xorl	%edx, %edx
	.p2align	4
.Lunix_path_BB21_20:
	movups	56(%rsp,%rdx), %xmm0
	movups	72(%rsp,%rdx), %xmm1
	movups	%xmm0, -16(%rcx,%rdx)
	movups	%xmm1, (%rcx,%rdx)
	addq	$32, %rdx
	cmpq	%rdx, %rax
	jne	.Lunix_path_BB21_20
	cmpq	%rax, %r12
	je	.Lunix_path_BB21_9
	testb	$28, %r12b
	je	.Lunix_path_BB21_26
.Lunix_path_BB21_23:
	movq	%rax, %rcx
	movq	%r12, %rax
	andq	$-4, %rax
	.p2align	4
.Lunix_path_BB21_24:
	movl	56(%rsp,%rcx), %edx
	movl	%edx, (%rdi,%rcx)
	addq	$4, %rcx
	cmpq	%rcx, %rax
	jne	.Lunix_path_BB21_24
	cmpq	%rax, %r12
	je	.Lunix_path_BB21_9
	jmp	.Lunix_path_BB21_26
.Lunix_path_BB21_32:
	leaq	8(%rsp), %rdi
	movq	%r12, %rsi
	callq	std_alloc.vec.Vec.grow_amortized.f4a78633ca2a48c6.
	testb	%al, %al
	je	.Lunix_path_BB21_36
	movq	8(%rsp), %r13
	movq	16(%rsp), %rbx
	movq	24(%rsp), %rbp
	jmp	.Lunix_path_BB21_12
.Lunix_path_BB21_34:
	movq	48(%rsp), %rcx
	movw	$0, (%rcx)
	movups	8(%rsp), %xmm0
	movups	%xmm0, 8(%rcx)
	movq	24(%rsp), %rax
	movq	%rax, 24(%rcx)
	jmp	.Lunix_path_BB21_6
.Lunix_path_BB21_35:
	movzbl	33(%rsp), %ebx
	movq	48(%rsp), %r12
	testq	%rbp, %rbp
	jne	.Lunix_path_BB21_4
	jmp	.Lunix_path_BB21_5
.Lunix_path_BB21_36:
	cmpq	$0, 24(%rsp)
	je	.Lunix_path_BB21_38
	movq	8(%rsp), %rdi
	callq	rattle_dealloc@PLT
.Lunix_path_BB21_38:
	movq	48(%rsp), %rax
	movw	$769, (%rax)
	xorps	%xmm0, %xmm0
	movups	%xmm0, 8(%rax)
	movq	$0, 24(%rax)
	jmp	.Lunix_path_BB21_6
.Lunix_path_func_end21:
	.size	upath_commands.input.read_all.909299a5b5e629dc., .Lunix_path_func_end21-upath_commands.input.read_all.909299a5b5e629dc.
	.section	.rodata.cst16,"aM",@progbits,16
	.p2align	4, 0x0
.Lunix_path_CPI22_0:
	.byte	0
	.byte	1
	.byte	2
	.byte	3
	.byte	4
	.byte	5
	.byte	6
	.byte	7
	.byte	8
	.byte	9
	.byte	10
	.byte	11
	.byte	12
	.byte	13
	.byte	14
	.byte	15
.Lunix_path_CPI22_1:
	.byte	16
	.byte	17
	.byte	18
	.byte	19
	.byte	20
	.byte	21
	.byte	22
	.byte	23
	.byte	24
	.byte	25
	.byte	26
	.byte	27
	.byte	28
	.byte	29
	.byte	30
	.byte	31
	.section	.text.upath_commands.input.read_some.909299a5b5e629dc.,"ax",@progbits
	.p2align	4
	.type	upath_commands.input.read_some.909299a5b5e629dc.,@function
# upath_commands::input::read_some::<#909299a5b5e629dc>
upath_commands.input.read_some.909299a5b5e629dc.:
	pushq	%r15
	pushq	%r14
	pushq	%r13
	pushq	%r12
	pushq	%rbx
	subq	$96, %rsp
	movq	%rdx, %r12
	movq	%rsi, %r14
	movq	%rdi, %rbx
	movq	$-1, %r13
	.p2align	4
.Lunix_path_BB22_1:
	movq	8192(%r14), %rax
	movq	8200(%r14), %rcx
	subq	%rax, %rcx
	jne	.Lunix_path_BB22_9
	movl	$65536, %r15d
	movl	$65536, %edx
	xorl	%edi, %edi
	movq	%r12, %rsi
	callq	read@PLT
	testq	%rax, %rax
	jns	.Lunix_path_BB22_8
	callq	rattle_errno@PLT
	movq	%rsp, %rdi
	movl	%eax, %esi
	callq	std_io.io.error.Error.from_raw_os_error
	movq	(%rsp), %rax
	shrq	$8, %rax
	movaps	.Lunix_path_CPI22_0(%rip), %xmm0
	movaps	%xmm0, (%rsp)
	movaps	.Lunix_path_CPI22_1(%rip), %xmm0
	movaps	%xmm0, 16(%rsp)
	movabsq	$2820983053732684064, %rcx
	movq	%rcx, 32(%rsp)
	movb	$40, 40(%rsp)
	cmpb	$41, %al
	jae	.Lunix_path_BB22_19
	andl	$63, %eax
	cmpb	$35, (%rsp,%rax)
	jne	.Lunix_path_BB22_19
	decq	%r13
	jne	.Lunix_path_BB22_1
	movq	8192(%r14), %rax
	movq	8200(%r14), %rcx
	subq	%rax, %rcx
	jne	.Lunix_path_BB22_12
	movl	$65536, %r15d
	movl	$65536, %edx
	xorl	%edi, %edi
	movq	%r12, %rsi
	callq	read@PLT
	testq	%rax, %rax
	js	.Lunix_path_BB22_18
.Lunix_path_BB22_8:
	cmpq	$65536, %rax
	cmovbq	%rax, %r15
	testq	%r15, %r15
	jne	.Lunix_path_BB22_54
	jmp	.Lunix_path_BB22_53
.Lunix_path_BB22_9:
	cmpq	$65536, %rcx
	movl	$65536, %r15d
	cmovbq	%rcx, %r15
	leaq	(%r14,%rax), %rsi
	movq	%r12, %rdx
	subq	%rsi, %rdx
	cmpq	%r15, %rdx
	jae	.Lunix_path_BB22_15
	cmpq	$4, %rcx
	jb	.Lunix_path_BB22_11
	cmpq	$32, %rdx
	jae	.Lunix_path_BB22_20
.Lunix_path_BB22_11:
	xorl	%ecx, %ecx
.Lunix_path_BB22_31:
	movq	%r15, %rdi
	movq	%rcx, %rdx
	andq	$3, %rdi
	je	.Lunix_path_BB22_34
	movq	%rcx, %rdx
	.p2align	4
.Lunix_path_BB22_33:
	movzbl	(%rsi,%rdx), %r8d
	movb	%r8b, (%r12,%rdx)
	incq	%rdx
	decq	%rdi
	jne	.Lunix_path_BB22_33
.Lunix_path_BB22_34:
	subq	%r15, %rcx
	cmpq	$-4, %rcx
	ja	.Lunix_path_BB22_52
	addq	%r14, %rax
	addq	$3, %rax
	.p2align	4
.Lunix_path_BB22_36:
	movzbl	-3(%rax,%rdx), %ecx
	movb	%cl, (%r12,%rdx)
	movzbl	-2(%rax,%rdx), %ecx
	movb	%cl, 1(%r12,%rdx)
	movzbl	-1(%rax,%rdx), %ecx
	movb	%cl, 2(%r12,%rdx)
	movzbl	(%rax,%rdx), %ecx
	movb	%cl, 3(%r12,%rdx)
	addq	$4, %rdx
	cmpq	%rdx, %r15
	jne	.Lunix_path_BB22_36
	jmp	.Lunix_path_BB22_52
.Lunix_path_BB22_12:
	cmpq	$65536, %rcx
	movl	$65536, %r15d
	cmovbq	%rcx, %r15
	leaq	(%r14,%rax), %rsi
	movq	%r12, %rdx
	subq	%rsi, %rdx
	cmpq	%r15, %rdx
	jae	.Lunix_path_BB22_15
	cmpq	$4, %rcx
	jb	.Lunix_path_BB22_14
	cmpq	$32, %rdx
	jae	.Lunix_path_BB22_37
.Lunix_path_BB22_14:
	xorl	%ecx, %ecx
.Lunix_path_BB22_46:
	movq	%r15, %rdi
	movq	%rcx, %rdx
	andq	$3, %rdi
	je	.Lunix_path_BB22_49
	movq	%rcx, %rdx
	.p2align	4
.Lunix_path_BB22_48:
	movzbl	(%rsi,%rdx), %r8d
	movb	%r8b, (%r12,%rdx)
	incq	%rdx
	decq	%rdi
	jne	.Lunix_path_BB22_48
.Lunix_path_BB22_49:
	subq	%r15, %rcx
	cmpq	$-4, %rcx
	ja	.Lunix_path_BB22_52
	addq	%r14, %rax
	addq	$3, %rax
	.p2align	4
.Lunix_path_BB22_51:
	movzbl	-3(%rax,%rdx), %ecx
	movb	%cl, (%r12,%rdx)
	movzbl	-2(%rax,%rdx), %ecx
	movb	%cl, 1(%r12,%rdx)
	movzbl	-1(%rax,%rdx), %ecx
	movb	%cl, 2(%r12,%rdx)
	movzbl	(%rax,%rdx), %ecx
	movb	%cl, 3(%r12,%rdx)
	addq	$4, %rdx
	cmpq	%rdx, %r15
	jne	.Lunix_path_BB22_51
	jmp	.Lunix_path_BB22_52
.Lunix_path_BB22_15:
	movq	%r12, %rdi
	movq	%r15, %rdx
	callq	memmove@PLT
.Lunix_path_BB22_52:
	movq	8192(%r14), %rax
	movq	8200(%r14), %rcx
	subq	%rax, %rcx
	cmpq	%rcx, %r15
	cmovbq	%r15, %rcx
	addq	%rax, %rcx
	movq	%rcx, 8192(%r14)
	testq	%r15, %r15
	jne	.Lunix_path_BB22_54
.Lunix_path_BB22_53:
	movb	$1, 8217(%r14)
	xorl	%r15d, %r15d
.Lunix_path_BB22_54:
	xorl	%eax, %eax
	jmp	.Lunix_path_BB22_55
.Lunix_path_BB22_18:
	callq	rattle_errno@PLT
.Lunix_path_BB22_19:
	movb	$1, 8216(%r14)
	movb	$1, %al
	xorl	%r15d, %r15d
.Lunix_path_BB22_55:
	movb	%al, (%rbx)
	movb	$0, 1(%rbx)
	movq	%r15, 8(%rbx)
	addq	$96, %rsp
	popq	%rbx
	popq	%r12
	popq	%r13
	popq	%r14
	popq	%r15
	retq
.Lunix_path_BB22_20:
	cmpq	$32, %rcx
	jae	.Lunix_path_BB22_24
	xorl	%ecx, %ecx
	jmp	.Lunix_path_BB22_28
.Lunix_path_BB22_24:
	movl	%r15d, %ecx
	andl	$131040, %ecx
	leaq	(%r14,%rax), %rdx
	addq	$16, %rdx
	xorl	%edi, %edi
	.p2align	4
.Lunix_path_BB22_25:
	movups	-16(%rdx,%rdi), %xmm0
	movups	(%rdx,%rdi), %xmm1
	movups	%xmm0, (%r12,%rdi)
	movups	%xmm1, 16(%r12,%rdi)
	addq	$32, %rdi
	cmpq	%rdi, %rcx
	jne	.Lunix_path_BB22_25
	cmpq	%rcx, %r15
	je	.Lunix_path_BB22_52
	testb	$28, %r15b
	je	.Lunix_path_BB22_31
.Lunix_path_BB22_28:
	movq	%rcx, %rdx
	movl	%r15d, %ecx
	andl	$131068, %ecx
	.p2align	4
.Lunix_path_BB22_29:
	movl	(%rsi,%rdx), %edi
	movl	%edi, (%r12,%rdx)
	addq	$4, %rdx
	cmpq	%rdx, %rcx
	jne	.Lunix_path_BB22_29
	cmpq	%rcx, %r15
	je	.Lunix_path_BB22_52
	jmp	.Lunix_path_BB22_31
.Lunix_path_BB22_37:
	cmpq	$32, %rcx
	jae	.Lunix_path_BB22_39
	xorl	%ecx, %ecx
	jmp	.Lunix_path_BB22_43
.Lunix_path_BB22_39:
	movl	%r15d, %ecx
	andl	$131040, %ecx
	leaq	(%rax,%r14), %rdx
	addq	$16, %rdx
	xorl	%edi, %edi
.Lunix_path_BB22_40:
	movups	-16(%rdx,%rdi), %xmm0
	movups	(%rdx,%rdi), %xmm1
	movups	%xmm0, (%r12,%rdi)
	movups	%xmm1, 16(%r12,%rdi)
	addq	$32, %rdi
	cmpq	%rdi, %rcx
	jne	.Lunix_path_BB22_40
	cmpq	%rcx, %r15
	je	.Lunix_path_BB22_52
	testb	$28, %r15b
	je	.Lunix_path_BB22_46
.Lunix_path_BB22_43:
	movq	%rcx, %rdx
	movl	%r15d, %ecx
	andl	$131068, %ecx
	.p2align	4
.Lunix_path_BB22_44:
	movl	(%rsi,%rdx), %edi
	movl	%edi, (%r12,%rdx)
	addq	$4, %rdx
	cmpq	%rdx, %rcx
	jne	.Lunix_path_BB22_44
	cmpq	%rcx, %r15
	je	.Lunix_path_BB22_52
	jmp	.Lunix_path_BB22_46
.Lunix_path_func_end22:
	.size	upath_commands.input.read_some.909299a5b5e629dc., .Lunix_path_func_end22-upath_commands.input.read_some.909299a5b5e629dc.
	.section	.text.std_io.io.error.Error.from_raw_os_error,"ax",@progbits
	.p2align	4
	.type	std_io.io.error.Error.from_raw_os_error,@function
# std_io::io::error::Error::from_raw_os_error
std_io.io.error.Error.from_raw_os_error:
	movb	$41, %al
	testl	%esi, %esi
	js	.Lunix_path_BB23_40
	leal	-1(%rsi), %ecx
	cmpl	$121, %ecx
	ja	.Lunix_path_BB23_40
	leaq	.Lunix_path_JTI23_0(%rip), %rdx
	movslq	(%rdx,%rcx,4), %rcx
	addq	%rdx, %rcx
	jmpq	*%rcx
.Lunix_path_BB23_3:
	movb	$1, %al
	jmp	.Lunix_path_BB23_40
.Lunix_path_BB23_24:
	movb	$36, %al
	jmp	.Lunix_path_BB23_40
.Lunix_path_BB23_36:
	movb	$4, %al
	jmp	.Lunix_path_BB23_40
.Lunix_path_BB23_33:
	movb	$7, %al
	jmp	.Lunix_path_BB23_40
.Lunix_path_BB23_39:
	movb	$26, %al
	jmp	.Lunix_path_BB23_40
.Lunix_path_BB23_37:
	movb	$39, %al
	jmp	.Lunix_path_BB23_40
.Lunix_path_BB23_28:
	movb	$9, %al
	jmp	.Lunix_path_BB23_40
.Lunix_path_BB23_27:
	movb	$8, %al
	jmp	.Lunix_path_BB23_40
.Lunix_path_BB23_22:
	movb	$30, %al
	jmp	.Lunix_path_BB23_40
.Lunix_path_BB23_18:
	movb	$25, %al
	jmp	.Lunix_path_BB23_40
.Lunix_path_BB23_20:
	movb	$32, %al
	jmp	.Lunix_path_BB23_40
.Lunix_path_BB23_23:
	movb	$33, %al
	jmp	.Lunix_path_BB23_40
.Lunix_path_BB23_34:
	movb	$22, %al
	jmp	.Lunix_path_BB23_40
.Lunix_path_BB23_11:
	movb	$31, %al
	jmp	.Lunix_path_BB23_40
.Lunix_path_BB23_15:
	movb	$29, %al
	jmp	.Lunix_path_BB23_40
.Lunix_path_BB23_26:
	movb	$18, %al
	jmp	.Lunix_path_BB23_40
.Lunix_path_BB23_29:
	movb	$10, %al
	jmp	.Lunix_path_BB23_40
.Lunix_path_BB23_9:
	movb	$28, %al
	jmp	.Lunix_path_BB23_40
.Lunix_path_BB23_12:
	movb	$14, %al
	jmp	.Lunix_path_BB23_40
.Lunix_path_BB23_10:
	movb	$12, %al
	jmp	.Lunix_path_BB23_40
.Lunix_path_BB23_30:
	movb	$5, %al
	jmp	.Lunix_path_BB23_40
.Lunix_path_BB23_32:
	movb	$3, %al
	jmp	.Lunix_path_BB23_40
.Lunix_path_BB23_4:
	xorl	%eax, %eax
	jmp	.Lunix_path_BB23_40
.Lunix_path_BB23_7:
	movb	$13, %al
	jmp	.Lunix_path_BB23_40
.Lunix_path_BB23_8:
	movb	$38, %al
	jmp	.Lunix_path_BB23_40
.Lunix_path_BB23_21:
	movb	$11, %al
	jmp	.Lunix_path_BB23_40
.Lunix_path_BB23_5:
	movb	$35, %al
	jmp	.Lunix_path_BB23_40
.Lunix_path_BB23_6:
	movb	$34, %al
	jmp	.Lunix_path_BB23_40
.Lunix_path_BB23_14:
	movb	$20, %al
	jmp	.Lunix_path_BB23_40
.Lunix_path_BB23_13:
	movb	$15, %al
	jmp	.Lunix_path_BB23_40
.Lunix_path_BB23_38:
	movb	$19, %al
	jmp	.Lunix_path_BB23_40
.Lunix_path_BB23_25:
	movb	$16, %al
	jmp	.Lunix_path_BB23_40
.Lunix_path_BB23_31:
	movb	$6, %al
	jmp	.Lunix_path_BB23_40
.Lunix_path_BB23_16:
	movb	$27, %al
	jmp	.Lunix_path_BB23_40
.Lunix_path_BB23_17:
	movb	$24, %al
	jmp	.Lunix_path_BB23_40
.Lunix_path_BB23_35:
	movb	$2, %al
	jmp	.Lunix_path_BB23_40
.Lunix_path_BB23_19:
	movb	$17, %al
.Lunix_path_BB23_40:
	movb	$0, (%rdi)
	movb	%al, 1(%rdi)
	movw	$0, 2(%rdi)
	movl	%esi, 4(%rdi)
	xorps	%xmm0, %xmm0
	movups	%xmm0, 8(%rdi)
	movups	%xmm0, 24(%rdi)
	movups	%xmm0, 40(%rdi)
	movups	%xmm0, 56(%rdi)
	movups	%xmm0, 72(%rdi)
	retq
.Lunix_path_func_end23:
	.size	std_io.io.error.Error.from_raw_os_error, .Lunix_path_func_end23-std_io.io.error.Error.from_raw_os_error
	.section	.rodata.std_io.io.error.Error.from_raw_os_error,"a",@progbits
	.p2align	2, 0x0
.Lunix_path_JTI23_0:
	.long	.Lunix_path_BB23_3-.Lunix_path_JTI23_0
	.long	.Lunix_path_BB23_4-.Lunix_path_JTI23_0
	.long	.Lunix_path_BB23_40-.Lunix_path_JTI23_0
	.long	.Lunix_path_BB23_5-.Lunix_path_JTI23_0
	.long	.Lunix_path_BB23_40-.Lunix_path_JTI23_0
	.long	.Lunix_path_BB23_40-.Lunix_path_JTI23_0
	.long	.Lunix_path_BB23_6-.Lunix_path_JTI23_0
	.long	.Lunix_path_BB23_40-.Lunix_path_JTI23_0
	.long	.Lunix_path_BB23_40-.Lunix_path_JTI23_0
	.long	.Lunix_path_BB23_40-.Lunix_path_JTI23_0
	.long	.Lunix_path_BB23_7-.Lunix_path_JTI23_0
	.long	.Lunix_path_BB23_8-.Lunix_path_JTI23_0
	.long	.Lunix_path_BB23_3-.Lunix_path_JTI23_0
	.long	.Lunix_path_BB23_40-.Lunix_path_JTI23_0
	.long	.Lunix_path_BB23_40-.Lunix_path_JTI23_0
	.long	.Lunix_path_BB23_9-.Lunix_path_JTI23_0
	.long	.Lunix_path_BB23_10-.Lunix_path_JTI23_0
	.long	.Lunix_path_BB23_11-.Lunix_path_JTI23_0
	.long	.Lunix_path_BB23_40-.Lunix_path_JTI23_0
	.long	.Lunix_path_BB23_12-.Lunix_path_JTI23_0
	.long	.Lunix_path_BB23_13-.Lunix_path_JTI23_0
	.long	.Lunix_path_BB23_14-.Lunix_path_JTI23_0
	.long	.Lunix_path_BB23_40-.Lunix_path_JTI23_0
	.long	.Lunix_path_BB23_40-.Lunix_path_JTI23_0
	.long	.Lunix_path_BB23_40-.Lunix_path_JTI23_0
	.long	.Lunix_path_BB23_15-.Lunix_path_JTI23_0
	.long	.Lunix_path_BB23_16-.Lunix_path_JTI23_0
	.long	.Lunix_path_BB23_17-.Lunix_path_JTI23_0
	.long	.Lunix_path_BB23_18-.Lunix_path_JTI23_0
	.long	.Lunix_path_BB23_19-.Lunix_path_JTI23_0
	.long	.Lunix_path_BB23_20-.Lunix_path_JTI23_0
	.long	.Lunix_path_BB23_21-.Lunix_path_JTI23_0
	.long	.Lunix_path_BB23_40-.Lunix_path_JTI23_0
	.long	.Lunix_path_BB23_40-.Lunix_path_JTI23_0
	.long	.Lunix_path_BB23_22-.Lunix_path_JTI23_0
	.long	.Lunix_path_BB23_23-.Lunix_path_JTI23_0
	.long	.Lunix_path_BB23_40-.Lunix_path_JTI23_0
	.long	.Lunix_path_BB23_24-.Lunix_path_JTI23_0
	.long	.Lunix_path_BB23_25-.Lunix_path_JTI23_0
	.long	.Lunix_path_BB23_26-.Lunix_path_JTI23_0
	.long	.Lunix_path_BB23_40-.Lunix_path_JTI23_0
	.long	.Lunix_path_BB23_40-.Lunix_path_JTI23_0
	.long	.Lunix_path_BB23_40-.Lunix_path_JTI23_0
	.long	.Lunix_path_BB23_40-.Lunix_path_JTI23_0
	.long	.Lunix_path_BB23_40-.Lunix_path_JTI23_0
	.long	.Lunix_path_BB23_40-.Lunix_path_JTI23_0
	.long	.Lunix_path_BB23_40-.Lunix_path_JTI23_0
	.long	.Lunix_path_BB23_40-.Lunix_path_JTI23_0
	.long	.Lunix_path_BB23_40-.Lunix_path_JTI23_0
	.long	.Lunix_path_BB23_40-.Lunix_path_JTI23_0
	.long	.Lunix_path_BB23_40-.Lunix_path_JTI23_0
	.long	.Lunix_path_BB23_40-.Lunix_path_JTI23_0
	.long	.Lunix_path_BB23_40-.Lunix_path_JTI23_0
	.long	.Lunix_path_BB23_40-.Lunix_path_JTI23_0
	.long	.Lunix_path_BB23_40-.Lunix_path_JTI23_0
	.long	.Lunix_path_BB23_40-.Lunix_path_JTI23_0
	.long	.Lunix_path_BB23_40-.Lunix_path_JTI23_0
	.long	.Lunix_path_BB23_40-.Lunix_path_JTI23_0
	.long	.Lunix_path_BB23_40-.Lunix_path_JTI23_0
	.long	.Lunix_path_BB23_40-.Lunix_path_JTI23_0
	.long	.Lunix_path_BB23_40-.Lunix_path_JTI23_0
	.long	.Lunix_path_BB23_40-.Lunix_path_JTI23_0
	.long	.Lunix_path_BB23_40-.Lunix_path_JTI23_0
	.long	.Lunix_path_BB23_40-.Lunix_path_JTI23_0
	.long	.Lunix_path_BB23_40-.Lunix_path_JTI23_0
	.long	.Lunix_path_BB23_40-.Lunix_path_JTI23_0
	.long	.Lunix_path_BB23_40-.Lunix_path_JTI23_0
	.long	.Lunix_path_BB23_40-.Lunix_path_JTI23_0
	.long	.Lunix_path_BB23_40-.Lunix_path_JTI23_0
	.long	.Lunix_path_BB23_40-.Lunix_path_JTI23_0
	.long	.Lunix_path_BB23_40-.Lunix_path_JTI23_0
	.long	.Lunix_path_BB23_40-.Lunix_path_JTI23_0
	.long	.Lunix_path_BB23_40-.Lunix_path_JTI23_0
	.long	.Lunix_path_BB23_40-.Lunix_path_JTI23_0
	.long	.Lunix_path_BB23_40-.Lunix_path_JTI23_0
	.long	.Lunix_path_BB23_40-.Lunix_path_JTI23_0
	.long	.Lunix_path_BB23_40-.Lunix_path_JTI23_0
	.long	.Lunix_path_BB23_40-.Lunix_path_JTI23_0
	.long	.Lunix_path_BB23_40-.Lunix_path_JTI23_0
	.long	.Lunix_path_BB23_40-.Lunix_path_JTI23_0
	.long	.Lunix_path_BB23_40-.Lunix_path_JTI23_0
	.long	.Lunix_path_BB23_40-.Lunix_path_JTI23_0
	.long	.Lunix_path_BB23_40-.Lunix_path_JTI23_0
	.long	.Lunix_path_BB23_40-.Lunix_path_JTI23_0
	.long	.Lunix_path_BB23_40-.Lunix_path_JTI23_0
	.long	.Lunix_path_BB23_40-.Lunix_path_JTI23_0
	.long	.Lunix_path_BB23_40-.Lunix_path_JTI23_0
	.long	.Lunix_path_BB23_40-.Lunix_path_JTI23_0
	.long	.Lunix_path_BB23_40-.Lunix_path_JTI23_0
	.long	.Lunix_path_BB23_40-.Lunix_path_JTI23_0
	.long	.Lunix_path_BB23_40-.Lunix_path_JTI23_0
	.long	.Lunix_path_BB23_40-.Lunix_path_JTI23_0
	.long	.Lunix_path_BB23_40-.Lunix_path_JTI23_0
	.long	.Lunix_path_BB23_40-.Lunix_path_JTI23_0
	.long	.Lunix_path_BB23_24-.Lunix_path_JTI23_0
	.long	.Lunix_path_BB23_40-.Lunix_path_JTI23_0
	.long	.Lunix_path_BB23_40-.Lunix_path_JTI23_0
	.long	.Lunix_path_BB23_27-.Lunix_path_JTI23_0
	.long	.Lunix_path_BB23_28-.Lunix_path_JTI23_0
	.long	.Lunix_path_BB23_29-.Lunix_path_JTI23_0
	.long	.Lunix_path_BB23_30-.Lunix_path_JTI23_0
	.long	.Lunix_path_BB23_40-.Lunix_path_JTI23_0
	.long	.Lunix_path_BB23_31-.Lunix_path_JTI23_0
	.long	.Lunix_path_BB23_32-.Lunix_path_JTI23_0
	.long	.Lunix_path_BB23_40-.Lunix_path_JTI23_0
	.long	.Lunix_path_BB23_40-.Lunix_path_JTI23_0
	.long	.Lunix_path_BB23_33-.Lunix_path_JTI23_0
	.long	.Lunix_path_BB23_40-.Lunix_path_JTI23_0
	.long	.Lunix_path_BB23_40-.Lunix_path_JTI23_0
	.long	.Lunix_path_BB23_34-.Lunix_path_JTI23_0
	.long	.Lunix_path_BB23_35-.Lunix_path_JTI23_0
	.long	.Lunix_path_BB23_40-.Lunix_path_JTI23_0
	.long	.Lunix_path_BB23_36-.Lunix_path_JTI23_0
	.long	.Lunix_path_BB23_40-.Lunix_path_JTI23_0
	.long	.Lunix_path_BB23_37-.Lunix_path_JTI23_0
	.long	.Lunix_path_BB23_38-.Lunix_path_JTI23_0
	.long	.Lunix_path_BB23_40-.Lunix_path_JTI23_0
	.long	.Lunix_path_BB23_40-.Lunix_path_JTI23_0
	.long	.Lunix_path_BB23_40-.Lunix_path_JTI23_0
	.long	.Lunix_path_BB23_40-.Lunix_path_JTI23_0
	.long	.Lunix_path_BB23_40-.Lunix_path_JTI23_0
	.long	.Lunix_path_BB23_39-.Lunix_path_JTI23_0
	.section	.text.tar_listing.text.push_text,"ax",@progbits
	.p2align	4
	.type	tar_listing.text.push_text,@function
# tar_listing::text::push_text
tar_listing.text.push_text:
	pushq	%r15
	pushq	%r14
	pushq	%r13
	pushq	%r12
	pushq	%rbx
	movq	%rdi, %rbx
	testq	%rdx, %rdx
	je	.Lunix_path_BB24_1
	movq	%rcx, %r14
	movq	%rdx, %r15
	movq	%rsi, %r12
	.p2align	4
.Lunix_path_BB24_3:
	leaq	1(%r12), %rcx
	leaq	-1(%r15), %rdx
	movzbl	(%r12), %r13d
	cmpb	$92, %r13b
	jne	.Lunix_path_BB24_22
	testq	%rdx, %rdx
	je	.Lunix_path_BB24_1
	movzbl	(%rcx), %r13d
	movl	%r13d, %eax
	addl	$-34, %eax
	cmpl	$84, %eax
	ja	.Lunix_path_BB24_15
	leaq	.Lunix_path_JTI24_0(%rip), %rcx
	movslq	(%rcx,%rax,4), %rax
	addq	%rcx, %rax
	jmpq	*%rax
.Lunix_path_BB24_7:
	movb	$7, %r13b
	jmp	.Lunix_path_BB24_14
	.p2align	4
.Lunix_path_BB24_22:
	cmpb	$34, %r13b
	je	.Lunix_path_BB24_31
	leal	-32(%r13), %eax
	cmpb	$94, %al
	ja	.Lunix_path_BB24_31
	movq	%rcx, %r12
	movq	%rdx, %r15
	movq	8(%r14), %rax
	cmpq	%rax, 16(%r14)
	jne	.Lunix_path_BB24_28
	jmp	.Lunix_path_BB24_26
.Lunix_path_BB24_13:
	movb	$13, %r13b
	jmp	.Lunix_path_BB24_14
.Lunix_path_BB24_9:
	movb	$9, %r13b
	jmp	.Lunix_path_BB24_14
.Lunix_path_BB24_8:
	movb	$8, %r13b
	jmp	.Lunix_path_BB24_14
.Lunix_path_BB24_12:
	movb	$12, %r13b
	jmp	.Lunix_path_BB24_14
.Lunix_path_BB24_11:
	movb	$11, %r13b
	jmp	.Lunix_path_BB24_14
.Lunix_path_BB24_10:
	movb	$10, %r13b
	.p2align	4
.Lunix_path_BB24_14:
	addq	$-2, %r15
	addq	$2, %r12
	movq	8(%r14), %rax
	cmpq	%rax, 16(%r14)
	je	.Lunix_path_BB24_26
.Lunix_path_BB24_28:
	movq	(%r14), %rcx
	movb	%r13b, (%rcx,%rax)
	incq	%rax
	movq	%rax, 8(%r14)
	testq	%r15, %r15
	jne	.Lunix_path_BB24_3
	jmp	.Lunix_path_BB24_1
.Lunix_path_BB24_15:
	cmpq	$4, %r15
	jb	.Lunix_path_BB24_1
	leal	-52(%r13), %eax
	cmpb	$-4, %al
	jb	.Lunix_path_BB24_1
	movzbl	2(%r12), %ecx
	movzbl	3(%r12), %eax
	movb	$55, %dl
	movb	$55, %sil
	subb	%cl, %sil
	subb	%al, %dl
	orb	%sil, %dl
	cmpb	$7, %dl
	ja	.Lunix_path_BB24_1
	shlb	$6, %r13b
	shlb	$3, %cl
	addb	%cl, %al
	addb	%r13b, %al
	leal	80(%rax), %r13d
	cmpb	$126, %r13b
	ja	.Lunix_path_BB24_21
	leal	73(%rax), %ecx
	cmpb	$-7, %cl
	ja	.Lunix_path_BB24_21
	addb	$48, %al
	cmpb	$-18, %al
	jb	.Lunix_path_BB24_1
.Lunix_path_BB24_21:
	addq	$-4, %r15
	addq	$4, %r12
	movq	8(%r14), %rax
	cmpq	%rax, 16(%r14)
	jne	.Lunix_path_BB24_28
.Lunix_path_BB24_26:
	movq	%r14, %rdi
	callq	std_alloc.vec.Vec.grow_amortized.2b9b8e146aca54c4.
	testb	%al, %al
	je	.Lunix_path_BB24_29
	movq	8(%r14), %rax
	jmp	.Lunix_path_BB24_28
.Lunix_path_BB24_1:
	xorl	%eax, %eax
	xorl	%esi, %esi
	xorl	%edi, %edi
.Lunix_path_BB24_33:
	movb	$0, (%rbx)
	movq	%rdi, 8(%rbx)
	movq	%rax, 16(%rbx)
	movq	%rsi, 24(%rbx)
.Lunix_path_BB24_30:
	popq	%rbx
	popq	%r12
	popq	%r13
	popq	%r14
	popq	%r15
	retq
.Lunix_path_BB24_31:
	xorl	%eax, %eax
	movl	$0, %esi
	movl	$0, %edi
	cmpb	$34, %r13b
	jne	.Lunix_path_BB24_33
	movl	$1, %edi
	movq	%rcx, %rax
	movq	%rdx, %rsi
	jmp	.Lunix_path_BB24_33
.Lunix_path_BB24_29:
	movb	$1, (%rbx)
	xorps	%xmm0, %xmm0
	movups	%xmm0, 8(%rbx)
	movq	$0, 24(%rbx)
	jmp	.Lunix_path_BB24_30
.Lunix_path_func_end24:
	.size	tar_listing.text.push_text, .Lunix_path_func_end24-tar_listing.text.push_text
	.section	.rodata.tar_listing.text.push_text,"a",@progbits
	.p2align	2, 0x0
.Lunix_path_JTI24_0:
	.long	.Lunix_path_BB24_14-.Lunix_path_JTI24_0
	.long	.Lunix_path_BB24_15-.Lunix_path_JTI24_0
	.long	.Lunix_path_BB24_15-.Lunix_path_JTI24_0
	.long	.Lunix_path_BB24_15-.Lunix_path_JTI24_0
	.long	.Lunix_path_BB24_15-.Lunix_path_JTI24_0
	.long	.Lunix_path_BB24_15-.Lunix_path_JTI24_0
	.long	.Lunix_path_BB24_15-.Lunix_path_JTI24_0
	.long	.Lunix_path_BB24_15-.Lunix_path_JTI24_0
	.long	.Lunix_path_BB24_15-.Lunix_path_JTI24_0
	.long	.Lunix_path_BB24_15-.Lunix_path_JTI24_0
	.long	.Lunix_path_BB24_15-.Lunix_path_JTI24_0
	.long	.Lunix_path_BB24_15-.Lunix_path_JTI24_0
	.long	.Lunix_path_BB24_15-.Lunix_path_JTI24_0
	.long	.Lunix_path_BB24_15-.Lunix_path_JTI24_0
	.long	.Lunix_path_BB24_15-.Lunix_path_JTI24_0
	.long	.Lunix_path_BB24_15-.Lunix_path_JTI24_0
	.long	.Lunix_path_BB24_15-.Lunix_path_JTI24_0
	.long	.Lunix_path_BB24_15-.Lunix_path_JTI24_0
	.long	.Lunix_path_BB24_15-.Lunix_path_JTI24_0
	.long	.Lunix_path_BB24_15-.Lunix_path_JTI24_0
	.long	.Lunix_path_BB24_15-.Lunix_path_JTI24_0
	.long	.Lunix_path_BB24_15-.Lunix_path_JTI24_0
	.long	.Lunix_path_BB24_15-.Lunix_path_JTI24_0
	.long	.Lunix_path_BB24_15-.Lunix_path_JTI24_0
	.long	.Lunix_path_BB24_15-.Lunix_path_JTI24_0
	.long	.Lunix_path_BB24_15-.Lunix_path_JTI24_0
	.long	.Lunix_path_BB24_15-.Lunix_path_JTI24_0
	.long	.Lunix_path_BB24_15-.Lunix_path_JTI24_0
	.long	.Lunix_path_BB24_15-.Lunix_path_JTI24_0
	.long	.Lunix_path_BB24_15-.Lunix_path_JTI24_0
	.long	.Lunix_path_BB24_15-.Lunix_path_JTI24_0
	.long	.Lunix_path_BB24_15-.Lunix_path_JTI24_0
	.long	.Lunix_path_BB24_15-.Lunix_path_JTI24_0
	.long	.Lunix_path_BB24_15-.Lunix_path_JTI24_0
	.long	.Lunix_path_BB24_15-.Lunix_path_JTI24_0
	.long	.Lunix_path_BB24_15-.Lunix_path_JTI24_0
	.long	.Lunix_path_BB24_15-.Lunix_path_JTI24_0
	.long	.Lunix_path_BB24_15-.Lunix_path_JTI24_0
	.long	.Lunix_path_BB24_15-.Lunix_path_JTI24_0
	.long	.Lunix_path_BB24_15-.Lunix_path_JTI24_0
	.long	.Lunix_path_BB24_15-.Lunix_path_JTI24_0
	.long	.Lunix_path_BB24_15-.Lunix_path_JTI24_0
	.long	.Lunix_path_BB24_15-.Lunix_path_JTI24_0
	.long	.Lunix_path_BB24_15-.Lunix_path_JTI24_0
	.long	.Lunix_path_BB24_15-.Lunix_path_JTI24_0
	.long	.Lunix_path_BB24_15-.Lunix_path_JTI24_0
	.long	.Lunix_path_BB24_15-.Lunix_path_JTI24_0
	.long	.Lunix_path_BB24_15-.Lunix_path_JTI24_0
	.long	.Lunix_path_BB24_15-.Lunix_path_JTI24_0
	.long	.Lunix_path_BB24_15-.Lunix_path_JTI24_0
	.long	.Lunix_path_BB24_15-.Lunix_path_JTI24_0
	.long	.Lunix_path_BB24_15-.Lunix_path_JTI24_0
	.long	.Lunix_path_BB24_15-.Lunix_path_JTI24_0
	.long	.Lunix_path_BB24_15-.Lunix_path_JTI24_0
	.long	.Lunix_path_BB24_15-.Lunix_path_JTI24_0
	.long	.Lunix_path_BB24_15-.Lunix_path_JTI24_0
	.long	.Lunix_path_BB24_15-.Lunix_path_JTI24_0
	.long	.Lunix_path_BB24_15-.Lunix_path_JTI24_0
	.long	.Lunix_path_BB24_14-.Lunix_path_JTI24_0
	.long	.Lunix_path_BB24_15-.Lunix_path_JTI24_0
	.long	.Lunix_path_BB24_15-.Lunix_path_JTI24_0
	.long	.Lunix_path_BB24_15-.Lunix_path_JTI24_0
	.long	.Lunix_path_BB24_15-.Lunix_path_JTI24_0
	.long	.Lunix_path_BB24_7-.Lunix_path_JTI24_0
	.long	.Lunix_path_BB24_8-.Lunix_path_JTI24_0
	.long	.Lunix_path_BB24_15-.Lunix_path_JTI24_0
	.long	.Lunix_path_BB24_15-.Lunix_path_JTI24_0
	.long	.Lunix_path_BB24_15-.Lunix_path_JTI24_0
	.long	.Lunix_path_BB24_12-.Lunix_path_JTI24_0
	.long	.Lunix_path_BB24_15-.Lunix_path_JTI24_0
	.long	.Lunix_path_BB24_15-.Lunix_path_JTI24_0
	.long	.Lunix_path_BB24_15-.Lunix_path_JTI24_0
	.long	.Lunix_path_BB24_15-.Lunix_path_JTI24_0
	.long	.Lunix_path_BB24_15-.Lunix_path_JTI24_0
	.long	.Lunix_path_BB24_15-.Lunix_path_JTI24_0
	.long	.Lunix_path_BB24_15-.Lunix_path_JTI24_0
	.long	.Lunix_path_BB24_10-.Lunix_path_JTI24_0
	.long	.Lunix_path_BB24_15-.Lunix_path_JTI24_0
	.long	.Lunix_path_BB24_15-.Lunix_path_JTI24_0
	.long	.Lunix_path_BB24_15-.Lunix_path_JTI24_0
	.long	.Lunix_path_BB24_13-.Lunix_path_JTI24_0
	.long	.Lunix_path_BB24_15-.Lunix_path_JTI24_0
	.long	.Lunix_path_BB24_9-.Lunix_path_JTI24_0
	.long	.Lunix_path_BB24_15-.Lunix_path_JTI24_0
	.long	.Lunix_path_BB24_11-.Lunix_path_JTI24_0
	.section	.text.tar_listing.entry.push_target,"ax",@progbits
	.p2align	4
	.type	tar_listing.entry.push_target,@function
# tar_listing::entry::push_target
tar_listing.entry.push_target:
	pushq	%r15
	pushq	%r14
	pushq	%r12
	pushq	%rbx
	subq	$40, %rsp
	movzbl	%sil, %eax
	leaq	.Lunix_path_JTI25_0(%rip), %rsi
	movslq	(%rsi,%rax,4), %rax
	addq	%rsi, %rax
	jmpq	*%rax
.Lunix_path_BB25_1:
	movb	$1, %al
	xorl	%esi, %esi
	jmp	.Lunix_path_BB25_15
.Lunix_path_BB25_9:
	xorps	%xmm0, %xmm0
	movaps	%xmm0, 16(%rsp)
	movaps	%xmm0, (%rsp)
	cmpq	$10, %rcx
	jae	.Lunix_path_BB25_11
	xorl	%ecx, %ecx
	xorl	%edx, %edx
	xorl	%eax, %eax
	xorl	%esi, %esi
	jmp	.Lunix_path_BB25_15
.Lunix_path_BB25_2:
	xorps	%xmm0, %xmm0
	movaps	%xmm0, 16(%rsp)
	movaps	%xmm0, (%rsp)
	xorl	%r9d, %r9d
	cmpq	$5, %rcx
	jae	.Lunix_path_BB25_4
	xorl	%r10d, %r10d
	xorl	%eax, %eax
	xorl	%esi, %esi
	jmp	.Lunix_path_BB25_8
.Lunix_path_BB25_11:
	movq	%r8, %rbx
	movq	%rcx, %r15
	movq	%rdi, %r14
	leaq	.Lunix_path_static.48(%rip), %rdi
	movq	%rdx, %rsi
	movl	$10, %edx
	movq	%rsi, %r12
	callq	core.slice.scan.any_in_quarters.953750c03e87c3e2.
	testb	%al, %al
	je	.Lunix_path_BB25_13
	xorl	%ecx, %ecx
	xorl	%edx, %edx
	xorl	%eax, %eax
	xorl	%esi, %esi
	jmp	.Lunix_path_BB25_14
.Lunix_path_BB25_4:
	cmpl	$572538413, 1(%rdx)
	movl	$0, %eax
	jne	.Lunix_path_BB25_5
	cmpb	$32, (%rdx)
	movl	$0, %r10d
	movl	$0, %esi
	jne	.Lunix_path_BB25_8
	addq	$-5, %rcx
	addq	$5, %rdx
	movq	%rsp, %rax
	movq	%rdi, %rbx
	movq	%rax, %rdi
	movq	%rdx, %rsi
	movq	%rcx, %rdx
	movq	%r8, %rcx
	callq	tar_listing.text.push_text
	movq	%rbx, %rdi
	movzbl	(%rsp), %esi
	movzbl	8(%rsp), %eax
	movq	16(%rsp), %r10
	movq	24(%rsp), %r9
	jmp	.Lunix_path_BB25_8
.Lunix_path_BB25_13:
	movq	%r15, %rdx
	addq	$-10, %rdx
	movq	%r12, %rsi
	addq	$10, %rsi
	movq	%rsp, %rdi
	movq	%rbx, %rcx
	callq	tar_listing.text.push_text
	movzbl	(%rsp), %esi
	movzbl	8(%rsp), %eax
	movq	16(%rsp), %rdx
	movq	24(%rsp), %rcx
.Lunix_path_BB25_14:
	movq	%r14, %rdi
	jmp	.Lunix_path_BB25_15
.Lunix_path_BB25_5:
	xorl	%r10d, %r10d
	movl	$0, %esi
.Lunix_path_BB25_8:
	movq	%r10, %rdx
	movq	%r9, %rcx
.Lunix_path_BB25_15:
	movzbl	%al, %eax
	movb	%sil, (%rdi)
	movq	%rax, 8(%rdi)
	movq	%rdx, 16(%rdi)
	movq	%rcx, 24(%rdi)
	addq	$40, %rsp
	popq	%rbx
	popq	%r12
	popq	%r14
	popq	%r15
	retq
.Lunix_path_func_end25:
	.size	tar_listing.entry.push_target, .Lunix_path_func_end25-tar_listing.entry.push_target
	.section	.rodata.tar_listing.entry.push_target,"a",@progbits
	.p2align	2, 0x0
.Lunix_path_JTI25_0:
	.long	.Lunix_path_BB25_1-.Lunix_path_JTI25_0
	.long	.Lunix_path_BB25_1-.Lunix_path_JTI25_0
	.long	.Lunix_path_BB25_2-.Lunix_path_JTI25_0
	.long	.Lunix_path_BB25_9-.Lunix_path_JTI25_0
	.long	.Lunix_path_BB25_1-.Lunix_path_JTI25_0
	.section	.text.std_alloc.vec.Vec.push.2b9b8e146aca54c4.,"ax",@progbits
	.p2align	4
	.type	std_alloc.vec.Vec.push.2b9b8e146aca54c4.,@function
# std_alloc::vec::Vec::push::<#2b9b8e146aca54c4>
std_alloc.vec.Vec.push.2b9b8e146aca54c4.:
	pushq	%r14
	pushq	%rbx
	pushq	%rax
	movq	8(%rdi), %rax
	cmpq	%rax, 16(%rdi)
	je	.Lunix_path_BB26_1
.Lunix_path_BB26_3:
	movq	(%rdi), %rcx
	movb	%sil, (%rcx,%rax)
	incq	%rax
	movq	%rax, 8(%rdi)
	xorl	%eax, %eax
.Lunix_path_BB26_4:
	addq	$8, %rsp
	popq	%rbx
	popq	%r14
	retq
.Lunix_path_BB26_1:
	movl	%esi, %ebx
	movq	%rdi, %r14
	callq	std_alloc.vec.Vec.grow_amortized.2b9b8e146aca54c4.
	movl	%eax, %ecx
	movb	$1, %al
	testb	%cl, %cl
	je	.Lunix_path_BB26_4
	movq	%r14, %rdi
	movq	8(%r14), %rax
	movl	%ebx, %esi
	jmp	.Lunix_path_BB26_3
.Lunix_path_func_end26:
	.size	std_alloc.vec.Vec.push.2b9b8e146aca54c4., .Lunix_path_func_end26-std_alloc.vec.Vec.push.2b9b8e146aca54c4.
	.section	.text.unlikely.std_alloc.vec.Vec.grow_amortized.2b9b8e146aca54c4.,"ax",@progbits
	.p2align	4
	.type	std_alloc.vec.Vec.grow_amortized.2b9b8e146aca54c4.,@function
# std_alloc::vec::Vec::grow_amortized::<#2b9b8e146aca54c4>
std_alloc.vec.Vec.grow_amortized.2b9b8e146aca54c4.:
	movq	8(%rdi), %rsi
	cmpq	$-1, %rsi
	je	.Lunix_path_BB27_5
	pushq	%r14
	pushq	%rbx
	pushq	%rax
	movq	16(%rdi), %rcx
	cmpq	$8, %rsi
	movl	$7, %ebx
	cmovaeq	%rsi, %rbx
	incq	%rbx
	movq	%rcx, %rdx
	shrq	$62, %rdx
	leaq	(%rcx,%rcx), %rax
	cmpq	%rax, %rbx
	cmovaq	%rbx, %rax
	testq	%rdx, %rdx
	cmoveq	%rax, %rbx
	testq	%rbx, %rbx
	js	.Lunix_path_BB27_6
	testq	%rcx, %rcx
	je	.Lunix_path_BB27_8
	movq	%rdi, %r14
	movq	(%rdi), %rdi
	movl	$1, %ecx
	movq	%rbx, %rdx
	callq	rattle_realloc@PLT
	testb	$1, %al
	je	.Lunix_path_BB27_6
.Lunix_path_BB27_9:
	movq	%rdx, (%r14)
	movq	%rbx, 16(%r14)
	movb	$1, %al
	addq	$8, %rsp
	popq	%rbx
	popq	%r14
	retq
.Lunix_path_BB27_5:
	xorl	%eax, %eax
	retq
.Lunix_path_BB27_8:
	movq	%rdi, %r14
	movl	$1, %esi
	movq	%rax, %rdi
	callq	rattle_alloc@PLT
	testb	$1, %al
	jne	.Lunix_path_BB27_9
.Lunix_path_BB27_6:
	xorl	%eax, %eax
	addq	$8, %rsp
	popq	%rbx
	popq	%r14
	retq
.Lunix_path_func_end27:
	.size	std_alloc.vec.Vec.grow_amortized.2b9b8e146aca54c4., .Lunix_path_func_end27-std_alloc.vec.Vec.grow_amortized.2b9b8e146aca54c4.
	.section	.rodata.cst16,"aM",@progbits,16
	.p2align	4, 0x0
.Lunix_path_CPI28_0:
	.quad	1
	.quad	1
.Lunix_path_CPI28_1:
	.zero	16,47
.Lunix_path_CPI28_2:
	.zero	16,10
.Lunix_path_CPI28_3:
	.byte	104
	.byte	97
	.byte	114
	.byte	100
	.byte	32
	.byte	108
	.byte	105
	.byte	110
	.byte	107
	.byte	32
	.byte	116
	.byte	111
	.byte	32
	.byte	116
	.byte	104
	.byte	101
.Lunix_path_CPI28_4:
	.byte	105
	.byte	115
	.byte	32
	.byte	97
	.byte	32
	.byte	115
	.byte	121
	.byte	109
	.byte	98
	.byte	111
	.byte	108
	.byte	105
	.byte	99
	.byte	32
	.byte	108
	.byte	105
.Lunix_path_CPI28_5:
	.byte	110
	.byte	107
	.byte	44
	.byte	32
	.byte	97
	.byte	110
	.byte	100
	.byte	32
	.byte	117
	.byte	115
	.byte	101
	.byte	100
	.byte	32
	.byte	116
	.byte	119
	.byte	105
.Lunix_path_CPI28_6:
	.byte	110
	.byte	101
	.byte	105
	.byte	116
	.byte	104
	.byte	101
	.byte	114
	.byte	32
	.byte	97
	.byte	32
	.byte	100
	.byte	105
	.byte	114
	.byte	101
	.byte	99
	.byte	116
.Lunix_path_CPI28_7:
	.byte	111
	.byte	114
	.byte	121
	.byte	44
	.byte	32
	.byte	97
	.byte	32
	.byte	102
	.byte	105
	.byte	108
	.byte	101
	.byte	32
	.byte	110
	.byte	111
	.byte	114
	.byte	32
.Lunix_path_CPI28_8:
	.byte	104
	.byte	97
	.byte	115
	.byte	32
	.byte	97
	.byte	32
	.byte	114
	.byte	111
	.byte	111
	.byte	116
	.byte	44
	.byte	32
	.byte	104
	.byte	97
	.byte	115
	.byte	32
.Lunix_path_CPI28_9:
	.byte	97
	.byte	32
	.byte	46
	.byte	46
	.byte	44
	.byte	32
	.byte	111
	.byte	114
	.byte	32
	.byte	100
	.byte	111
	.byte	101
	.byte	115
	.byte	32
	.byte	110
	.byte	111
.Lunix_path_CPI28_10:
	.byte	117
	.byte	112
	.byte	97
	.byte	116
	.byte	104
	.byte	58
	.byte	32
	.byte	110
	.byte	111
	.byte	32
	.byte	101
	.byte	110
	.byte	116
	.byte	114
	.byte	105
	.byte	101
	.section	.text.upath_commands.archive.decide_records,"ax",@progbits
	.p2align	4
	.type	upath_commands.archive.decide_records,@function
# upath_commands::archive::decide_records
upath_commands.archive.decide_records:
	pushq	%rbp
	pushq	%r15
	pushq	%r14
	pushq	%r13
	pushq	%r12
	pushq	%rbx
	subq	$360, %rsp
	movq	%rcx, %r13
	movq	%rdi, 256(%rsp)
	movq	(%rsi), %rcx
	movq	%rcx, 280(%rsp)
	shrq	$16, %rcx
	movq	%rcx, 272(%rsp)
	movzbl	8(%rsi), %eax
	movb	%al, 14(%rsp)
	movq	%rdx, %rsi
	pxor	%xmm0, %xmm0
	movdqa	%xmm0, 288(%rsp)
	movdqa	%xmm0, 160(%rsp)
	movdqa	%xmm0, 144(%rsp)
	movq	$0, 176(%rsp)
	leaq	8(%rsp), %rbx
	movq	%rbx, 208(%rsp)
	movdqu	%xmm0, 216(%rsp)
	testq	%r13, %r13
	movq	%r13, 64(%rsp)
	movq	%rdx, 80(%rsp)
	je	.Lunix_path_BB28_15
	movq	$0, 40(%rsp)
	xorl	%ecx, %ecx
	.p2align	4
.Lunix_path_BB28_2:
	leaq	144(%rsp), %rdi
	movq	%r13, %rdx
	callq	path_archive.records.record_at
	cmpb	$1, 144(%rsp)
	jne	.Lunix_path_BB28_33
	movq	152(%rsp), %rax
	movq	168(%rsp), %r14
	movq	176(%rsp), %rcx
	cmpq	$5, %rax
	movq	80(%rsp), %rsi
	ja	.Lunix_path_BB28_9
	leaq	1(%r14), %rdx
	leaq	(%rsi,%r14), %r15
	incq	%r15
	movq	%rcx, %r12
	subq	%rdx, %r12
	leaq	.Lunix_path_JTI28_0(%rip), %rdx
	movslq	(%rdx,%rax,4), %rax
	addq	%rdx, %rax
	jmpq	*%rax
.Lunix_path_BB28_5:
	movl	$2, %r13d
	jmp	.Lunix_path_BB28_11
.Lunix_path_BB28_6:
	movl	$1, %r13d
	jmp	.Lunix_path_BB28_10
.Lunix_path_BB28_7:
	movl	$3, %r13d
	jmp	.Lunix_path_BB28_11
.Lunix_path_BB28_8:
	xorl	%r15d, %r15d
	xorl	%r12d, %r12d
	xorl	%r13d, %r13d
	jmp	.Lunix_path_BB28_11
.Lunix_path_BB28_9:
	movl	$4, %r13d
.Lunix_path_BB28_10:
	xorl	%r15d, %r15d
	xorl	%r12d, %r12d
.Lunix_path_BB28_11:
	movq	40(%rsp), %rdx
	movq	160(%rsp), %rbp
	cmpq	%rdx, 224(%rsp)
	je	.Lunix_path_BB28_13
.Lunix_path_BB28_12:
	subq	%rbp, %r14
	addq	%rsi, %rbp
	leaq	(%rdx,%rdx,4), %rax
	movq	%r13, (%rbx,%rax,8)
	movq	%rbp, 8(%rbx,%rax,8)
	movq	%r14, 16(%rbx,%rax,8)
	movq	%r15, 24(%rbx,%rax,8)
	movq	%r12, 32(%rbx,%rax,8)
	incq	%rdx
	movq	%rdx, 40(%rsp)
	movq	%rdx, 216(%rsp)
	incq	%rcx
	movq	64(%rsp), %r13
	cmpq	%r13, %rcx
	jb	.Lunix_path_BB28_2
	jmp	.Lunix_path_BB28_37
.Lunix_path_BB28_13:
	movq	%rcx, 40(%rsp)
	leaq	208(%rsp), %rdi
	callq	std_alloc.vec.Vec.grow_amortized.0b81d3504bf27e25.
	testb	%al, %al
	je	.Lunix_path_BB28_413
	movq	208(%rsp), %rbx
	movq	216(%rsp), %rdx
	movq	40(%rsp), %rcx
	movq	80(%rsp), %rsi
	jmp	.Lunix_path_BB28_12
.Lunix_path_BB28_15:
	movq	%rsi, 144(%rsp)
	movq	$0, 152(%rsp)
	leaq	8(%rsp), %rdi
	movb	$1, 15(%rsp)
	movq	$0, 40(%rsp)
	movq	%rdi, 200(%rsp)
	xorl	%r9d, %r9d
	movq	$0, 264(%rsp)
.Lunix_path_BB28_16:
	leaq	144(%rsp), %rdx
	movq	%rdi, %r14
	movq	%r9, %rsi
	movq	%r9, %rbx
	callq	core.slice.sort.small.insertion_sort.fd4dfef4a36ac24b.
	movq	%rbx, %r10
	testq	%r10, %r10
	movq	%r14, %rdi
	je	.Lunix_path_BB28_459
.Lunix_path_BB28_17:
	movq	80(%rsp), %rbx
.Lunix_path_BB28_18:
	leaq	32(%rdi), %r15
	xorl	%eax, %eax
	xorl	%r12d, %r12d
	xorl	%esi, %esi
	movq	%rdi, 48(%rsp)
	movq	%r10, 112(%rsp)
	jmp	.Lunix_path_BB28_21
	.p2align	4
.Lunix_path_BB28_19:
	cmpq	$5, -16(%r15)
	setb	%al
	cmovbq	%r12, %rsi
	movq	%r12, %rcx
.Lunix_path_BB28_20:
	movq	%rcx, (%r15)
	incq	%r12
	addq	$40, %r15
	cmpq	%r12, %r10
	je	.Lunix_path_BB28_45
.Lunix_path_BB28_21:
	cmpb	$1, %al
	jne	.Lunix_path_BB28_19
	movq	%rsi, 56(%rsp)
	leaq	(,%rsi,8), %rax
	leaq	(%rax,%rax,4), %rcx
	movq	8(%rdi,%rcx), %rax
	movq	%r13, %rsi
	cmpq	%rax, %r13
	jb	.Lunix_path_BB28_24
	movq	%rax, %rsi
.Lunix_path_BB28_24:
	movq	(%rdi,%rcx), %rax
	cmpq	%rax, %rsi
	cmovbq	%rsi, %rax
	leaq	(%rbx,%rax), %rdi
	subq	%rax, %rsi
	movq	%rbx, %rbp
	movq	%rcx, 72(%rsp)
	callq	path_archive.slot.without_dot
	movq	%rax, %rbx
	movq	%rdx, %r14
	movq	-32(%r15), %rax
	movq	-24(%r15), %rsi
	cmpq	%rsi, %r13
	cmovbq	%r13, %rsi
	cmpq	%rax, %rsi
	cmovbq	%rsi, %rax
	leaq	(%rax,%rbp), %rdi
	subq	%rax, %rsi
	callq	path_archive.slot.without_dot
	movq	%rax, %rbp
	movq	%rdx, %r13
	movq	%rax, %rdi
	movq	%rdx, %rsi
	movq	%rbx, %rdx
	movq	%r14, %rcx
	callq	path_archive.outlined.starts_with
	testb	%al, %al
	je	.Lunix_path_BB28_30
	movq	%rbx, %rdi
	movq	%r14, %rsi
	movq	%rbp, %rdx
	movq	%r13, %rcx
	callq	path_archive.outlined.starts_with
	movq	48(%rsp), %rdi
	movq	72(%rsp), %rcx
	movq	16(%rdi,%rcx), %rdx
	testb	%al, %al
	je	.Lunix_path_BB28_29
	movq	-16(%r15), %rax
	movq	%rdx, %rcx
	xorq	$1, %rcx
	xorq	$2, %rax
	orq	%rcx, %rax
	movq	56(%rsp), %rsi
	movq	%rsi, %rcx
	movq	112(%rsp), %r10
	je	.Lunix_path_BB28_28
	movq	%r12, %rcx
.Lunix_path_BB28_28:
	testq	%rdx, %rdx
	cmoveq	%rsi, %rcx
	movb	$1, %al
	movq	64(%rsp), %r13
	movq	80(%rsp), %rbx
	jmp	.Lunix_path_BB28_20
.Lunix_path_BB28_29:
	movb	$1, %al
	cmpq	$4, %rdx
	jbe	.Lunix_path_BB28_32
	.p2align	4
.Lunix_path_BB28_30:
	cmpq	$5, -16(%r15)
	movq	56(%rsp), %rsi
	cmovbq	%r12, %rsi
	movb	$1, %al
	movq	%r12, %rcx
.Lunix_path_BB28_31:
	movq	64(%rsp), %r13
	movq	80(%rsp), %rbx
	movq	48(%rsp), %rdi
	movq	112(%rsp), %r10
	jmp	.Lunix_path_BB28_20
.Lunix_path_BB28_32:
	movq	56(%rsp), %rsi
	movq	%rsi, %rcx
	jmp	.Lunix_path_BB28_31
.Lunix_path_BB28_33:
	cmpq	$0, 224(%rsp)
	je	.Lunix_path_BB28_35
	movq	%rbx, %rdi
	callq	rattle_dealloc@PLT
.Lunix_path_BB28_35:
	pxor	%xmm0, %xmm0
	movdqa	%xmm0, 208(%rsp)
	movdqa	%xmm0, 224(%rsp)
	cmpq	$4, %r13
	jae	.Lunix_path_BB28_285
	xorl	%eax, %eax
	xorl	%ecx, %ecx
	movq	80(%rsp), %rsi
	jmp	.Lunix_path_BB28_468
.Lunix_path_BB28_37:
	movq	208(%rsp), %rax
	movq	%rax, 200(%rsp)
	movq	224(%rsp), %r12
	testq	%r12, %r12
	sete	15(%rsp)
	pxor	%xmm0, %xmm0
	movdqa	%xmm0, 160(%rsp)
	movdqa	%xmm0, 144(%rsp)
	movq	$0, 176(%rsp)
	xorl	%edx, %edx
	xorl	%ecx, %ecx
	.p2align	4
.Lunix_path_BB28_38:
	movq	%rdx, %rbx
	leaq	144(%rsp), %rdi
	movq	%r13, %rdx
	callq	path_archive.records.record_at
	cmpb	$1, 144(%rsp)
	jne	.Lunix_path_BB28_436
	movq	176(%rsp), %rcx
	xorl	%eax, %eax
	cmpq	$1, 152(%rsp)
	sete	%al
	leaq	(%rax,%rbx), %rdx
	incq	%rdx
	incq	%rcx
	cmpq	%r13, %rcx
	movq	80(%rsp), %rsi
	jb	.Lunix_path_BB28_38
	testq	%rdx, %rdx
	je	.Lunix_path_BB28_394
	movabsq	$230584300921369395, %rax
	cmpq	%rax, %rdx
	ja	.Lunix_path_BB28_419
	leaq	(,%rdx,8), %rax
	leaq	(%rax,%rax,4), %rdi
	movl	$8, %esi
	movq	%rdx, %rbx
	callq	rattle_alloc@PLT
	testb	$1, %al
	je	.Lunix_path_BB28_419
	movq	%rdx, %rdi
	cmpq	$1, %rbx
	movq	%rbx, 264(%rsp)
	jne	.Lunix_path_BB28_422
	xorl	%r9d, %r9d
	jmp	.Lunix_path_BB28_423
.Lunix_path_BB28_45:
	leaq	8(%rsp), %rax
	movq	%rax, 104(%rsp)
	movq	%rax, 144(%rsp)
	pxor	%xmm0, %xmm0
	movdqu	%xmm0, 152(%rsp)
	leaq	(%rbx,%r13), %rax
	movq	%rax, 312(%rsp)
	leaq	-16(%rbx), %rax
	movq	%rax, 328(%rsp)
	leaq	-1(%rbx), %rax
	movq	%rax, 320(%rsp)
	xorl	%r9d, %r9d
	xorl	%r11d, %r11d
	jmp	.Lunix_path_BB28_46
	.p2align	4
.Lunix_path_BB28_64:
	leaq	(%r9,%r9,2), %rax
	movq	104(%rsp), %rsi
	movq	%rbx, (%rsi,%rax,8)
	movq	%r14, 8(%rsi,%rax,8)
	movb	%r13b, 16(%rsi,%rax,8)
	movl	208(%rsp), %ecx
	movl	211(%rsp), %edx
	movl	%ecx, 17(%rsi,%rax,8)
	movl	%edx, 20(%rsi,%rax,8)
	incq	%r9
	movq	%r9, 152(%rsp)
	incq	%r11
	cmpq	%r10, %r11
	je	.Lunix_path_BB28_215
.Lunix_path_BB28_46:
	leaq	(,%r11,8), %rax
	leaq	(%rax,%rax,4), %r8
	movq	16(%rdi,%r8), %r15
	movb	$1, %r13b
	cmpq	$4, %r15
	je	.Lunix_path_BB28_62
	movq	%r11, 192(%rsp)
	movq	%r9, 56(%rsp)
	movq	8(%rdi,%r8), %r12
	movq	64(%rsp), %rax
	cmpq	%r12, %rax
	movq	%r12, %r13
	cmovbq	%rax, %r13
	movq	%r8, 72(%rsp)
	movq	(%rdi,%r8), %rbp
	cmpq	%rbp, %r13
	cmovbq	%r13, %rbp
	movq	80(%rsp), %rax
	leaq	(%rax,%rbp), %rbx
	movq	%r13, %r14
	subq	%rbp, %r14
	movq	%rbx, %rdi
	movq	%r14, %rsi
	callq	path_archive.outlined.has_root_or_parent_dir
	testb	%al, %al
	je	.Lunix_path_BB28_49
	xorl	%r13d, %r13d
	movq	56(%rsp), %r9
	movq	48(%rsp), %rdi
	movq	112(%rsp), %r10
	movq	192(%rsp), %r11
	movq	72(%rsp), %r8
	jmp	.Lunix_path_BB28_62
	.p2align	4
.Lunix_path_BB28_49:
	cmpq	$15, %r14
	ja	.Lunix_path_BB28_54
	testq	%r14, %r14
	movq	56(%rsp), %r9
	movq	48(%rsp), %rdi
	movq	112(%rsp), %r10
	movq	192(%rsp), %r11
	movq	72(%rsp), %r8
	je	.Lunix_path_BB28_59
	xorl	%ecx, %ecx
	.p2align	4
.Lunix_path_BB28_52:
	cmpb	$0, (%rbx,%rcx)
	je	.Lunix_path_BB28_60
	incq	%rcx
	cmpq	%rcx, %r14
	jne	.Lunix_path_BB28_52
	jmp	.Lunix_path_BB28_68
.Lunix_path_BB28_54:
	movq	%r14, %rax
	addq	$-16, %rax
	movq	56(%rsp), %r9
	movq	48(%rsp), %rdi
	movq	112(%rsp), %r10
	movq	192(%rsp), %r11
	movq	72(%rsp), %r8
	je	.Lunix_path_BB28_58
	xorl	%edx, %edx
	.p2align	4
.Lunix_path_BB28_56:
	movdqu	(%rbx,%rdx), %xmm0
	pxor	%xmm1, %xmm1
	pcmpeqb	%xmm0, %xmm1
	pmovmskb	%xmm1, %ecx
	orl	$65536, %ecx
	rep		bsfl	%ecx, %ecx
	cmpw	$15, %cx
	jbe	.Lunix_path_BB28_67
	addq	$16, %rdx
	cmpq	%rax, %rdx
	jb	.Lunix_path_BB28_56
.Lunix_path_BB28_58:
	movdqu	(%rbx,%rax), %xmm0
	pxor	%xmm1, %xmm1
	pcmpeqb	%xmm0, %xmm1
	pmovmskb	%xmm1, %ecx
	orl	$65536, %ecx
	rep		bsfl	%ecx, %ecx
	addq	%rax, %rcx
	cmpq	%r14, %rcx
	jb	.Lunix_path_BB28_61
	jmp	.Lunix_path_BB28_68
.Lunix_path_BB28_59:
	xorl	%ecx, %ecx
.Lunix_path_BB28_60:
	cmpq	%r14, %rcx
	jae	.Lunix_path_BB28_68
.Lunix_path_BB28_61:
	xorl	%r13d, %r13d
	.p2align	4
.Lunix_path_BB28_62:
	movq	24(%rdi,%r8), %rbx
	movl	$0, 123(%rsp)
	movl	$0, 120(%rsp)
	movq	%rbx, %r14
.Lunix_path_BB28_63:
	movl	120(%rsp), %eax
	movl	123(%rsp), %ecx
	movl	%ecx, 211(%rsp)
	movl	%eax, 208(%rsp)
	cmpq	%r9, 160(%rsp)
	jne	.Lunix_path_BB28_64
	movq	%r11, %r15
	leaq	144(%rsp), %rdi
	callq	std_alloc.vec.Vec.grow_amortized.22ca91936d612ecb.
	testb	%al, %al
	je	.Lunix_path_BB28_415
	movq	144(%rsp), %rax
	movq	%rax, 104(%rsp)
	movq	152(%rsp), %r9
	movq	48(%rsp), %rdi
	movq	112(%rsp), %r10
	movq	%r15, %r11
	jmp	.Lunix_path_BB28_64
.Lunix_path_BB28_67:
	movzwl	%cx, %ecx
	addq	%rdx, %rcx
	cmpq	%r14, %rcx
	jb	.Lunix_path_BB28_61
.Lunix_path_BB28_68:
	cmpq	$4, %r15
	jbe	.Lunix_path_BB28_71
.Lunix_path_BB28_69:
	movq	32(%rdi,%r8), %rax
	cmpq	%r11, %rax
	jne	.Lunix_path_BB28_81
	movl	$0, 123(%rsp)
	movl	$0, 120(%rsp)
	incq	%r11
	cmpq	%r10, %r11
	jne	.Lunix_path_BB28_46
	jmp	.Lunix_path_BB28_215
.Lunix_path_BB28_71:
	movq	328(%rsp), %rax
	leaq	(%rax,%r13), %rdx
	movq	320(%rsp), %rax
	addq	%r13, %rax
	subq	%rbp, %r13
	incq	%r13
	movq	%r14, %rcx
	.p2align	4
.Lunix_path_BB28_72:
	cmpq	$15, %rcx
	jbe	.Lunix_path_BB28_75
	addq	$-16, %rcx
	movdqu	(%rdx), %xmm0
	pcmpeqb	.Lunix_path_CPI28_1(%rip), %xmm0
	pmovmskb	%xmm0, %esi
	addq	$-16, %rdx
	addq	$-16, %r13
	addq	$-16, %rax
	testl	%esi, %esi
	je	.Lunix_path_BB28_72
	movzwl	%si, %eax
	bsrq	%rax, %rax
	xorq	$63, %rax
	subq	%rax, %rcx
	addq	$64, %rcx
	movq	%rcx, %r13
	movq	%r14, %rax
	subq	%r13, %rax
	jne	.Lunix_path_BB28_78
	jmp	.Lunix_path_BB28_61
	.p2align	4
.Lunix_path_BB28_75:
	cmpq	$1, %r13
	je	.Lunix_path_BB28_92
	decq	%r13
	cmpb	$47, (%rax)
	leaq	-1(%rax), %rax
	jne	.Lunix_path_BB28_75
	movq	%r14, %rax
	subq	%r13, %rax
	jne	.Lunix_path_BB28_78
	jmp	.Lunix_path_BB28_61
.Lunix_path_BB28_81:
	shlq	$3, %rax
	leaq	(%rax,%rax,4), %r15
	movq	(%rdi,%r15), %rax
	movq	8(%rdi,%r15), %rsi
	movq	64(%rsp), %r12
	cmpq	%rsi, %r12
	cmovbq	%r12, %rsi
	cmpq	%rax, %rsi
	cmovbq	%rsi, %rax
	movq	80(%rsp), %r13
	leaq	(%rax,%r13), %rdi
	subq	%rax, %rsi
	callq	path_archive.slot.without_dot
	movq	%rax, %rbx
	movq	%rdx, %r14
	movq	48(%rsp), %rax
	movq	72(%rsp), %rcx
	movq	(%rax,%rcx), %rax
	movq	48(%rsp), %rcx
	movq	72(%rsp), %rdx
	movq	8(%rcx,%rdx), %rsi
	cmpq	%rsi, %r12
	cmovbq	%r12, %rsi
	cmpq	%rax, %rsi
	cmovbq	%rsi, %rax
	leaq	(%rax,%r13), %rdi
	subq	%rax, %rsi
	callq	path_archive.slot.without_dot
	movq	%rdx, %rcx
	movq	%rbx, %rdi
	movq	%r14, %rsi
	movq	%rax, %rdx
	callq	path_archive.outlined.starts_with
	movq	72(%rsp), %rcx
	movq	48(%rsp), %rdi
	movb	$2, %r13b
	testb	%al, %al
	je	.Lunix_path_BB28_83
	cmpq	$2, 16(%rdi,%rcx)
	sete	%r13b
	addb	$3, %r13b
.Lunix_path_BB28_83:
	movq	24(%rdi,%rcx), %rbx
	movq	24(%rdi,%r15), %r14
	movl	$0, 123(%rsp)
	movl	$0, 120(%rsp)
	movq	56(%rsp), %r9
	movq	112(%rsp), %r10
	movq	192(%rsp), %r11
	jmp	.Lunix_path_BB28_63
.Lunix_path_BB28_92:
	xorl	%r13d, %r13d
	movq	%r14, %rax
	subq	%r13, %rax
	je	.Lunix_path_BB28_61
.Lunix_path_BB28_78:
	cmpq	$1, %rax
	jne	.Lunix_path_BB28_84
	cmpb	$46, (%rbx,%r13)
	je	.Lunix_path_BB28_61
.Lunix_path_BB28_84:
	testq	%r15, %r15
	jne	.Lunix_path_BB28_69
	testb	$1, 14(%rsp)
	je	.Lunix_path_BB28_69
	movq	64(%rsp), %rax
	cmpq	%r12, %rax
	jbe	.Lunix_path_BB28_94
	movq	80(%rsp), %rcx
	leaq	(%rcx,%r12), %r15
	incq	%r15
	incq	%r12
	subq	%r12, %rax
	cmpq	$15, %rax
	ja	.Lunix_path_BB28_95
	xorl	%r12d, %r12d
	testq	%rax, %rax
	je	.Lunix_path_BB28_114
	.p2align	4
.Lunix_path_BB28_89:
	cmpb	$0, (%r15,%r12)
	je	.Lunix_path_BB28_100
	incq	%r12
	cmpq	%r12, %rax
	jne	.Lunix_path_BB28_89
	movq	%rax, %r12
	cmpq	$15, %r12
	jbe	.Lunix_path_BB28_101
	jmp	.Lunix_path_BB28_106
.Lunix_path_BB28_94:
	xorl	%r12d, %r12d
	movq	312(%rsp), %r15
	jmp	.Lunix_path_BB28_114
.Lunix_path_BB28_95:
	addq	$-16, %rax
	je	.Lunix_path_BB28_99
	xorl	%ecx, %ecx
	.p2align	4
.Lunix_path_BB28_97:
	movdqu	(%r15,%rcx), %xmm0
	pxor	%xmm1, %xmm1
	pcmpeqb	%xmm0, %xmm1
	pmovmskb	%xmm1, %edx
	orl	$65536, %edx
	rep		bsfl	%edx, %edx
	cmpw	$15, %dx
	jbe	.Lunix_path_BB28_105
	addq	$16, %rcx
	cmpq	%rax, %rcx
	jb	.Lunix_path_BB28_97
.Lunix_path_BB28_99:
	movdqu	(%r15,%rax), %xmm0
	pxor	%xmm1, %xmm1
	pcmpeqb	%xmm0, %xmm1
	pmovmskb	%xmm1, %ecx
	orl	$65536, %ecx
	rep		bsfl	%ecx, %r12d
	addq	%rax, %r12
.Lunix_path_BB28_100:
	cmpq	$15, %r12
	ja	.Lunix_path_BB28_106
.Lunix_path_BB28_101:
	testq	%r12, %r12
	je	.Lunix_path_BB28_111
	xorl	%ecx, %ecx
	.p2align	4
.Lunix_path_BB28_103:
	cmpb	$0, (%r15,%rcx)
	je	.Lunix_path_BB28_113
	incq	%rcx
	cmpq	%rcx, %r12
	jne	.Lunix_path_BB28_103
	jmp	.Lunix_path_BB28_114
.Lunix_path_BB28_105:
	movzwl	%dx, %r12d
	addq	%rcx, %r12
	cmpq	$15, %r12
	jbe	.Lunix_path_BB28_101
.Lunix_path_BB28_106:
	movq	%r12, %rax
	addq	$-16, %rax
	je	.Lunix_path_BB28_110
	xorl	%edx, %edx
	.p2align	4
.Lunix_path_BB28_108:
	movdqu	(%r15,%rdx), %xmm0
	pxor	%xmm1, %xmm1
	pcmpeqb	%xmm0, %xmm1
	pmovmskb	%xmm1, %ecx
	orl	$65536, %ecx
	rep		bsfl	%ecx, %ecx
	cmpw	$15, %cx
	jbe	.Lunix_path_BB28_112
	addq	$16, %rdx
	cmpq	%rax, %rdx
	jb	.Lunix_path_BB28_108
.Lunix_path_BB28_110:
	movdqu	(%r15,%rax), %xmm0
	pxor	%xmm1, %xmm1
	pcmpeqb	%xmm0, %xmm1
	pmovmskb	%xmm1, %ecx
	orl	$65536, %ecx
	rep		bsfl	%ecx, %ecx
	addq	%rax, %rcx
	jmp	.Lunix_path_BB28_113
.Lunix_path_BB28_111:
	xorl	%r12d, %r12d
	jmp	.Lunix_path_BB28_114
.Lunix_path_BB28_112:
	movzwl	%cx, %ecx
	addq	%rdx, %rcx
.Lunix_path_BB28_113:
	movb	$5, %r13b
	cmpq	%r12, %rcx
	jb	.Lunix_path_BB28_62
.Lunix_path_BB28_114:
	movq	%rbx, %rdi
	movq	%r14, %rsi
	callq	path_archive.slot.without_dot
	testq	%rdx, %rdx
	je	.Lunix_path_BB28_177
	movq	%rax, %r13
	movq	%rdx, %r14
	movzbl	(%rax), %eax
	movb	$1, %bpl
	cmpl	$47, %eax
	je	.Lunix_path_BB28_121
	cmpl	$46, %eax
	jne	.Lunix_path_BB28_120
	cmpq	$1, %r14
	je	.Lunix_path_BB28_121
	cmpb	$47, 1(%r13)
	sete	%bpl
	jmp	.Lunix_path_BB28_121
.Lunix_path_BB28_120:
	xorl	%ebp, %ebp
.Lunix_path_BB28_121:
	movq	%r14, %rcx
	movq	%r14, %rax
	jmp	.Lunix_path_BB28_123
	.p2align	4
.Lunix_path_BB28_122:
	movq	%rax, %rcx
	testq	%rax, %rax
	je	.Lunix_path_BB28_177
.Lunix_path_BB28_123:
	decq	%rax
	je	.Lunix_path_BB28_129
	movzbl	(%r13,%rax), %edx
	cmpl	$47, %edx
	je	.Lunix_path_BB28_127
	cmpl	$46, %edx
	jne	.Lunix_path_BB28_129
	cmpb	$47, -1(%r13,%rax)
	jne	.Lunix_path_BB28_129
.Lunix_path_BB28_127:
	movq	%r14, %rcx
	subq	%rax, %rcx
	cmpq	$8, %rcx
	jne	.Lunix_path_BB28_122
	movq	%r13, %rdi
	movq	%rax, %rsi
	callq	unix_path.filler.trimmed_blocks_len
	jmp	.Lunix_path_BB28_122
.Lunix_path_BB28_177:
	xorl	%ebx, %ebx
	jmp	.Lunix_path_BB28_178
.Lunix_path_BB28_129:
	leaq	1(%r13), %rax
	leaq	3(%r13), %rdx
	leaq	2(%r13), %rsi
	xorl	%ebx, %ebx
	movq	%rcx, %r8
	xorl	%edi, %edi
	jmp	.Lunix_path_BB28_133
.Lunix_path_BB28_130:
	xorl	%r9d, %r9d
.Lunix_path_BB28_131:
	addq	%r10, %r9
.Lunix_path_BB28_132:
	addq	%r9, %rdi
	incq	%rbx
	xorl	%ebp, %ebp
	movq	%rcx, %r8
	subq	%rdi, %r8
	je	.Lunix_path_BB28_176
.Lunix_path_BB28_133:
	testb	$1, %bpl
	je	.Lunix_path_BB28_141
	movq	%r8, %r10
	decq	%r10
	je	.Lunix_path_BB28_169
	leaq	-1(%r8), %r11
	leaq	(%rsi,%rdi), %r14
	addq	$-2, %r8
	xorl	%r9d, %r9d
	jmp	.Lunix_path_BB28_137
	.p2align	4
.Lunix_path_BB28_136:
	incq	%r9
	cmpq	%r9, %r11
	je	.Lunix_path_BB28_170
.Lunix_path_BB28_137:
	movzbl	-1(%r14,%r9), %ebp
	cmpl	$47, %ebp
	je	.Lunix_path_BB28_136
	cmpl	$46, %ebp
	jne	.Lunix_path_BB28_171
	cmpq	%r9, %r8
	je	.Lunix_path_BB28_170
	cmpb	$47, (%r14,%r9)
	je	.Lunix_path_BB28_136
	jmp	.Lunix_path_BB28_171
	.p2align	4
.Lunix_path_BB28_141:
	leaq	(%rdi,%r13), %r11
	cmpq	$1, %r8
	je	.Lunix_path_BB28_147
	cmpb	$46, (%r11)
	jne	.Lunix_path_BB28_147
	cmpb	$46, 1(%r11)
	jne	.Lunix_path_BB28_147
	movl	$2, %r9d
	cmpq	$2, %r8
	je	.Lunix_path_BB28_132
	cmpb	$47, 2(%r11)
	jne	.Lunix_path_BB28_147
	leaq	-2(%r8), %r10
	leaq	(%rdx,%rdi), %r11
	addq	$-3, %r8
	xorl	%r9d, %r9d
	jmp	.Lunix_path_BB28_153
	.p2align	4
.Lunix_path_BB28_147:
	cmpq	$15, %r8
	ja	.Lunix_path_BB28_157
	xorl	%r10d, %r10d
	.p2align	4
.Lunix_path_BB28_149:
	cmpb	$47, (%r11,%r10)
	je	.Lunix_path_BB28_162
	incq	%r10
	cmpq	%r10, %r8
	jne	.Lunix_path_BB28_149
	movq	%r8, %r10
	subq	%r10, %r8
	jne	.Lunix_path_BB28_163
	jmp	.Lunix_path_BB28_130
	.p2align	4
.Lunix_path_BB28_152:
	incq	%r9
	cmpq	%r9, %r10
	je	.Lunix_path_BB28_174
.Lunix_path_BB28_153:
	movzbl	-1(%r11,%r9), %ebp
	cmpl	$47, %ebp
	je	.Lunix_path_BB28_152
	cmpl	$46, %ebp
	jne	.Lunix_path_BB28_175
	cmpq	%r9, %r8
	je	.Lunix_path_BB28_174
	cmpb	$47, (%r11,%r9)
	je	.Lunix_path_BB28_152
	jmp	.Lunix_path_BB28_175
	.p2align	4
.Lunix_path_BB28_157:
	movq	%r8, %r9
	addq	$-16, %r9
	je	.Lunix_path_BB28_161
	xorl	%r14d, %r14d
	.p2align	4
.Lunix_path_BB28_159:
	movdqu	(%r11,%r14), %xmm0
	pcmpeqb	.Lunix_path_CPI28_1(%rip), %xmm0
	pmovmskb	%xmm0, %r10d
	orl	$65536, %r10d
	rep		bsfl	%r10d, %r10d
	cmpw	$15, %r10w
	jbe	.Lunix_path_BB28_173
	addq	$16, %r14
	cmpq	%r9, %r14
	jb	.Lunix_path_BB28_159
.Lunix_path_BB28_161:
	movdqu	(%r11,%r9), %xmm0
	pcmpeqb	.Lunix_path_CPI28_1(%rip), %xmm0
	pmovmskb	%xmm0, %r10d
	orl	$65536, %r10d
	rep		bsfl	%r10d, %r10d
	addq	%r9, %r10
.Lunix_path_BB28_162:
	subq	%r10, %r8
	je	.Lunix_path_BB28_130
.Lunix_path_BB28_163:
	leaq	(%r10,%rdi), %r11
	addq	%rax, %r11
	leaq	-1(%r8), %r14
	xorl	%r9d, %r9d
	jmp	.Lunix_path_BB28_165
	.p2align	4
.Lunix_path_BB28_164:
	incq	%r9
	cmpq	%r9, %r8
	je	.Lunix_path_BB28_172
.Lunix_path_BB28_165:
	movzbl	-1(%r11,%r9), %ebp
	cmpl	$47, %ebp
	je	.Lunix_path_BB28_164
	cmpl	$46, %ebp
	jne	.Lunix_path_BB28_131
	cmpq	%r9, %r14
	je	.Lunix_path_BB28_172
	cmpb	$47, (%r11,%r9)
	je	.Lunix_path_BB28_164
	jmp	.Lunix_path_BB28_131
.Lunix_path_BB28_169:
	movl	$1, %r9d
	jmp	.Lunix_path_BB28_132
.Lunix_path_BB28_170:
	movq	%r10, %r9
.Lunix_path_BB28_171:
	incq	%r9
	jmp	.Lunix_path_BB28_132
.Lunix_path_BB28_172:
	movq	%r8, %r9
	jmp	.Lunix_path_BB28_131
.Lunix_path_BB28_173:
	movzwl	%r10w, %r10d
	addq	%r14, %r10
	subq	%r10, %r8
	jne	.Lunix_path_BB28_163
	jmp	.Lunix_path_BB28_130
.Lunix_path_BB28_174:
	movq	%r10, %r9
.Lunix_path_BB28_175:
	addq	$2, %r9
	jmp	.Lunix_path_BB28_132
.Lunix_path_BB28_176:
	cmpq	$1, %rbx
	adcq	$-1, %rbx
.Lunix_path_BB28_178:
	movq	%r15, %rdi
	movq	%r12, %rsi
	callq	path_archive.slot.without_dot
	testq	%rdx, %rdx
	movq	56(%rsp), %r9
	movq	48(%rsp), %rdi
	movq	112(%rsp), %r10
	movq	192(%rsp), %r11
	movq	72(%rsp), %r8
	je	.Lunix_path_BB28_69
	movq	%rax, %r15
	movq	%rdx, %r12
	movq	%rax, %r14
	movzbl	(%r15), %eax
	movb	$1, %bpl
	cmpl	$47, %eax
	je	.Lunix_path_BB28_184
	cmpl	$46, %eax
	jne	.Lunix_path_BB28_183
	cmpq	$1, %r12
	je	.Lunix_path_BB28_184
	cmpb	$47, 1(%r14)
	sete	%bpl
	jmp	.Lunix_path_BB28_184
.Lunix_path_BB28_183:
	xorl	%ebp, %ebp
.Lunix_path_BB28_184:
	movq	%r12, %rcx
	movq	%r12, %rax
	jmp	.Lunix_path_BB28_186
	.p2align	4
.Lunix_path_BB28_185:
	movq	%rax, %rcx
	testq	%rax, %rax
	je	.Lunix_path_BB28_69
.Lunix_path_BB28_186:
	decq	%rax
	je	.Lunix_path_BB28_192
	movzbl	(%r14,%rax), %edx
	cmpl	$47, %edx
	je	.Lunix_path_BB28_190
	cmpl	$46, %edx
	jne	.Lunix_path_BB28_192
	cmpb	$47, -1(%r14,%rax)
	jne	.Lunix_path_BB28_192
.Lunix_path_BB28_190:
	movq	%r12, %rcx
	subq	%rax, %rcx
	cmpq	$8, %rcx
	jne	.Lunix_path_BB28_185
	movq	%r14, %rdi
	movq	%rax, %rsi
	callq	unix_path.filler.trimmed_blocks_len
	movq	72(%rsp), %r8
	movq	192(%rsp), %r11
	movq	112(%rsp), %r10
	movq	48(%rsp), %rdi
	movq	56(%rsp), %r9
	jmp	.Lunix_path_BB28_185
.Lunix_path_BB28_192:
	xorl	%eax, %eax
	movq	%rcx, %rsi
	.p2align	4
.Lunix_path_BB28_193:
	movb	$5, %r13b
	testb	$1, %bpl
	jne	.Lunix_path_BB28_62
	cmpq	$1, %rsi
	je	.Lunix_path_BB28_209
	cmpb	$46, (%r14)
	jne	.Lunix_path_BB28_209
	cmpb	$46, 1(%r14)
	jne	.Lunix_path_BB28_209
	movl	$2, %edx
	cmpq	$2, %rsi
	je	.Lunix_path_BB28_207
	cmpb	$47, 2(%r14)
	jne	.Lunix_path_BB28_209
	leaq	-2(%rsi), %rdi
	addq	$-3, %rsi
	xorl	%edx, %edx
	jmp	.Lunix_path_BB28_201
	.p2align	4
.Lunix_path_BB28_200:
	incq	%rdx
	cmpq	%rdx, %rdi
	je	.Lunix_path_BB28_205
.Lunix_path_BB28_201:
	movzbl	2(%r14,%rdx), %r8d
	cmpl	$47, %r8d
	je	.Lunix_path_BB28_200
	cmpl	$46, %r8d
	jne	.Lunix_path_BB28_206
	cmpq	%rdx, %rsi
	je	.Lunix_path_BB28_205
	cmpb	$47, 3(%r14,%rdx)
	je	.Lunix_path_BB28_200
	jmp	.Lunix_path_BB28_206
.Lunix_path_BB28_205:
	movq	%rdi, %rdx
.Lunix_path_BB28_206:
	addq	$2, %rdx
	movq	48(%rsp), %rdi
	movq	72(%rsp), %r8
.Lunix_path_BB28_207:
	subq	$1, %rbx
	jb	.Lunix_path_BB28_62
	addq	%rdx, %rax
	leaq	(%r15,%rax), %r14
	xorl	%ebp, %ebp
	movq	%rcx, %rsi
	subq	%rax, %rsi
	jne	.Lunix_path_BB28_193
	jmp	.Lunix_path_BB28_69
.Lunix_path_BB28_209:
	cmpq	$16, %rsi
	jb	.Lunix_path_BB28_214
	movq	%rsi, %rax
	addq	$-16, %rax
	je	.Lunix_path_BB28_214
	movl	$16, %ecx
	.p2align	4
.Lunix_path_BB28_212:
	movdqu	-16(%r14,%rcx), %xmm0
	pcmpeqb	.Lunix_path_CPI28_1(%rip), %xmm0
	pmovmskb	%xmm0, %edx
	testl	%edx, %edx
	jne	.Lunix_path_BB28_214
	cmpq	%rax, %rcx
	leaq	16(%rcx), %rcx
	jb	.Lunix_path_BB28_212
.Lunix_path_BB28_214:
	movq	%r14, %rdi
	callq	path_archive.outlined.has_root_or_parent_dir
	testb	%al, %al
	movq	56(%rsp), %r9
	movq	48(%rsp), %rdi
	movq	112(%rsp), %r10
	movq	192(%rsp), %r11
	movq	72(%rsp), %r8
	jne	.Lunix_path_BB28_62
	jmp	.Lunix_path_BB28_69
.Lunix_path_BB28_215:
	movq	144(%rsp), %r12
	cmpq	$0, 160(%rsp)
	sete	%r13b
	cmpq	$0, 264(%rsp)
	movq	%r9, 56(%rsp)
	je	.Lunix_path_BB28_217
.Lunix_path_BB28_216:
	callq	rattle_dealloc@PLT
	movq	56(%rsp), %r9
.Lunix_path_BB28_217:
	pxor	%xmm0, %xmm0
	movdqa	%xmm0, 336(%rsp)
	leaq	8(%rsp), %r10
	movq	%r10, 120(%rsp)
	movdqu	%xmm0, 128(%rsp)
	movq	%r10, 16(%rsp)
	movdqu	%xmm0, 24(%rsp)
	testb	$1, 272(%rsp)
	movq	%r12, 80(%rsp)
	je	.Lunix_path_BB28_219
	xorl	%r14d, %r14d
	xorl	%ebx, %ebx
	movq	%r10, %r15
	movq	40(%rsp), %r11
	jmp	.Lunix_path_BB28_408
.Lunix_path_BB28_219:
	testq	%r9, %r9
	movq	40(%rsp), %r11
	je	.Lunix_path_BB28_392
	movb	%r13b, 14(%rsp)
	xorl	%r13d, %r13d
	testb	$1, 280(%rsp)
	movl	$10, %eax
	cmovnel	%r13d, %eax
	movl	%eax, 64(%rsp)
	xorl	%r14d, %r14d
	jmp	.Lunix_path_BB28_225
.Lunix_path_BB28_221:
	movq	%rax, %r13
	movq	80(%rsp), %r12
	.p2align	4
.Lunix_path_BB28_222:
	callq	memmove@PLT
	movq	%r13, %rax
	movq	40(%rsp), %r11
.Lunix_path_BB28_223:
	movq	%r15, 120(%rsp)
	movq	%rax, 128(%rsp)
	movq	%rbx, 136(%rsp)
	movl	64(%rsp), %ecx
	movl	%ecx, %ebp
	cmpq	%rax, %rbx
	je	.Lunix_path_BB28_260
.Lunix_path_BB28_224:
	movq	120(%rsp), %r10
	movb	%bpl, (%r10,%rax)
	incq	%rax
	movq	%rax, 128(%rsp)
	incq	%r14
	movq	%rax, %r13
	cmpq	56(%rsp), %r14
	je	.Lunix_path_BB28_288
.Lunix_path_BB28_225:
	leaq	(,%r14,8), %rax
	btq	$48, 280(%rsp)
	leaq	(%rax,%rax,2), %rax
	movq	(%r12,%rax), %r15
	jae	.Lunix_path_BB28_238
	movzbl	16(%r12,%rax), %r12d
	leal	(,%r12,8), %eax
	leaq	.Lunix_path_switch.table.upath_commands.archive.decide_records(%rip), %rcx
	movq	(%rax,%rcx), %rbx
	leaq	.Lunix_path_switch.table.upath_commands.archive.decide_records.370(%rip), %rcx
	movq	(%rax,%rcx), %rsi
	movq	136(%rsp), %rbp
	movq	%rbp, %rax
	subq	%r13, %rax
	cmpq	%rax, %rbx
	ja	.Lunix_path_BB28_266
.Lunix_path_BB28_227:
	leaq	(%r10,%r13), %rdi
	movq	%rdi, %rax
	subq	%rsi, %rax
	cmpq	%rbx, %rax
	jae	.Lunix_path_BB28_230
	cmpb	$5, %r12b
	jne	.Lunix_path_BB28_231
	xorl	%eax, %eax
	jmp	.Lunix_path_BB28_234
	.p2align	4
.Lunix_path_BB28_230:
	movq	%rbx, %rdx
	movq	%r10, %r12
	callq	memcpy@PLT
	movq	%r12, %r10
	movq	40(%rsp), %r11
	jmp	.Lunix_path_BB28_236
.Lunix_path_BB28_231:
	movq	%rbx, %rcx
	andq	$-4, %rcx
	leaq	(%r10,%r13), %rdx
	addq	$3, %rdx
	xorl	%eax, %eax
	.p2align	4
.Lunix_path_BB28_232:
	movzbl	(%rsi,%rax), %r8d
	movb	%r8b, -3(%rdx,%rax)
	movzbl	1(%rsi,%rax), %r8d
	movb	%r8b, -2(%rdx,%rax)
	movzbl	2(%rsi,%rax), %r8d
	movb	%r8b, -1(%rdx,%rax)
	movzbl	3(%rsi,%rax), %r8d
	movb	%r8b, (%rdx,%rax)
	addq	$4, %rax
	cmpq	%rax, %rcx
	jne	.Lunix_path_BB28_232
	cmpb	$2, %r12b
	jb	.Lunix_path_BB28_236
.Lunix_path_BB28_234:
	movl	%ebx, %ecx
	andl	$3, %ecx
	addq	%rax, %rsi
	addq	%rax, %rdi
	xorl	%eax, %eax
	.p2align	4
.Lunix_path_BB28_235:
	movzbl	(%rsi,%rax), %edx
	movb	%dl, (%rdi,%rax)
	incq	%rax
	cmpq	%rax, %rcx
	jne	.Lunix_path_BB28_235
.Lunix_path_BB28_236:
	addq	%rbx, %r13
	movq	%r13, 128(%rsp)
	movq	%rbp, 136(%rsp)
	cmpq	%r13, %rbp
	movq	80(%rsp), %r12
	je	.Lunix_path_BB28_268
.Lunix_path_BB28_237:
	movb	$9, (%r10,%r13)
	incq	%r13
	movq	%r13, 128(%rsp)
.Lunix_path_BB28_238:
	cmpq	%r11, %r15
	jae	.Lunix_path_BB28_244
	leaq	(%r15,%r15,4), %rax
	movq	200(%rsp), %rcx
	movq	8(%rcx,%rax,8), %rsi
	movq	16(%rcx,%rax,8), %rdx
	cmpq	$15, %rdx
	ja	.Lunix_path_BB28_246
	testq	%rdx, %rdx
	je	.Lunix_path_BB28_251
	xorl	%ecx, %ecx
	.p2align	4
.Lunix_path_BB28_242:
	cmpb	$10, (%rsi,%rcx)
	je	.Lunix_path_BB28_253
	incq	%rcx
	cmpq	%rcx, %rdx
	jne	.Lunix_path_BB28_242
	jmp	.Lunix_path_BB28_254
	.p2align	4
.Lunix_path_BB28_244:
	movq	120(%rsp), %r15
	movq	136(%rsp), %rbx
	leaq	(%r15,%r13), %rdi
	leaq	.Lunix_path_static.5(%rip), %rsi
.Lunix_path_BB28_245:
	xorl	%edx, %edx
	jmp	.Lunix_path_BB28_222
	.p2align	4
.Lunix_path_BB28_246:
	movq	%rdx, %rax
	addq	$-16, %rax
	je	.Lunix_path_BB28_250
	xorl	%edi, %edi
	.p2align	4
.Lunix_path_BB28_248:
	movdqu	(%rsi,%rdi), %xmm0
	pcmpeqb	.Lunix_path_CPI28_2(%rip), %xmm0
	pmovmskb	%xmm0, %ecx
	orl	$65536, %ecx
	rep		bsfl	%ecx, %ecx
	cmpw	$15, %cx
	jbe	.Lunix_path_BB28_252
	addq	$16, %rdi
	cmpq	%rax, %rdi
	jb	.Lunix_path_BB28_248
.Lunix_path_BB28_250:
	movdqu	(%rsi,%rax), %xmm0
	pcmpeqb	.Lunix_path_CPI28_2(%rip), %xmm0
	pmovmskb	%xmm0, %ecx
	orl	$65536, %ecx
	rep		bsfl	%ecx, %ecx
	addq	%rax, %rcx
	jmp	.Lunix_path_BB28_253
.Lunix_path_BB28_251:
	movq	120(%rsp), %r15
	movq	136(%rsp), %rbx
	leaq	(%r15,%r13), %rdi
	jmp	.Lunix_path_BB28_245
.Lunix_path_BB28_252:
	movzwl	%cx, %ecx
	addq	%rdi, %rcx
.Lunix_path_BB28_253:
	cmpq	%rdx, %rcx
	setae	%al
	orb	280(%rsp), %al
	testb	$1, %al
	je	.Lunix_path_BB28_258
.Lunix_path_BB28_254:
	movq	136(%rsp), %rbx
	movq	%rbx, %rax
	subq	%r13, %rax
	cmpq	%rax, %rdx
	ja	.Lunix_path_BB28_283
.Lunix_path_BB28_255:
	leaq	(%rdx,%r13), %rax
	movq	120(%rsp), %r15
	leaq	(%r15,%r13), %rdi
	movq	%rdi, %rcx
	subq	%rsi, %rcx
	cmpq	%rdx, %rcx
	jae	.Lunix_path_BB28_221
	cmpq	$4, %rdx
	jae	.Lunix_path_BB28_262
	xorl	%ecx, %ecx
	movq	40(%rsp), %r11
	movq	80(%rsp), %r12
	jmp	.Lunix_path_BB28_277
.Lunix_path_BB28_258:
	leaq	120(%rsp), %rax
	movq	%rsi, %rdi
	movq	%rdx, %rsi
	movq	%rax, %rdx
	callq	upath_commands.shown.push_shown
	testb	%al, %al
	jne	.Lunix_path_BB28_396
	movq	128(%rsp), %rax
	movq	136(%rsp), %rbx
	movb	$10, %bpl
	movq	40(%rsp), %r11
	movq	80(%rsp), %r12
	cmpq	%rax, %rbx
	jne	.Lunix_path_BB28_224
.Lunix_path_BB28_260:
	leaq	120(%rsp), %rdi
	movl	$1, %esi
	callq	std_alloc.vec.Vec.grow_amortized.f4a78633ca2a48c6.
	testb	%al, %al
	je	.Lunix_path_BB28_396
	movq	128(%rsp), %rax
	movq	40(%rsp), %r11
	movq	80(%rsp), %r12
	jmp	.Lunix_path_BB28_224
.Lunix_path_BB28_262:
	leaq	(%r15,%r13), %rcx
	subq	%rsi, %rcx
	cmpq	$32, %rcx
	movq	40(%rsp), %r11
	movq	80(%rsp), %r12
	jae	.Lunix_path_BB28_264
	xorl	%ecx, %ecx
	jmp	.Lunix_path_BB28_277
.Lunix_path_BB28_264:
	cmpq	$32, %rdx
	jae	.Lunix_path_BB28_270
	xorl	%ecx, %ecx
	jmp	.Lunix_path_BB28_274
.Lunix_path_BB28_266:
	movq	%rsi, 48(%rsp)
	leaq	120(%rsp), %rdi
	movq	%rbx, %rsi
	callq	std_alloc.vec.Vec.grow_amortized.f4a78633ca2a48c6.
	testb	%al, %al
	je	.Lunix_path_BB28_396
	movq	120(%rsp), %r10
	movq	128(%rsp), %r13
	movq	136(%rsp), %rbp
	movq	48(%rsp), %rsi
	movq	40(%rsp), %r11
	jmp	.Lunix_path_BB28_227
.Lunix_path_BB28_268:
	leaq	120(%rsp), %rdi
	movl	$1, %esi
	callq	std_alloc.vec.Vec.grow_amortized.f4a78633ca2a48c6.
	testb	%al, %al
	je	.Lunix_path_BB28_396
	movq	120(%rsp), %r10
	movq	128(%rsp), %r13
	movq	40(%rsp), %r11
	movq	80(%rsp), %r12
	jmp	.Lunix_path_BB28_237
.Lunix_path_BB28_270:
	movq	%rdx, %rcx
	andq	$-32, %rcx
	leaq	(%r15,%r13), %r8
	addq	$16, %r8
	xorl	%r9d, %r9d
	.p2align	4
.Lunix_path_BB28_271:
	movdqu	(%rsi,%r9), %xmm0
	movdqu	16(%rsi,%r9), %xmm1
	movdqu	%xmm0, -16(%r8,%r9)
	movdqu	%xmm1, (%r8,%r9)
	addq	$32, %r9
	cmpq	%r9, %rcx
	jne	.Lunix_path_BB28_271
	cmpq	%rcx, %rdx
	je	.Lunix_path_BB28_223
	testb	$28, %dl
	je	.Lunix_path_BB28_277
.Lunix_path_BB28_274:
	movq	%rcx, %r8
	movq	%rdx, %rcx
	andq	$-4, %rcx
	.p2align	4
.Lunix_path_BB28_275:
	movl	(%rsi,%r8), %r9d
	movl	%r9d, (%rdi,%r8)
	addq	$4, %r8
	cmpq	%r8, %rcx
	jne	.Lunix_path_BB28_275
	cmpq	%rcx, %rdx
	je	.Lunix_path_BB28_223
.Lunix_path_BB28_277:
	movq	%rdx, %r9
	movq	%rcx, %r8
	andq	$3, %r9
	je	.Lunix_path_BB28_280
	movq	%rcx, %r8
	.p2align	4
.Lunix_path_BB28_279:
	movzbl	(%rsi,%r8), %r10d
	movb	%r10b, (%rdi,%r8)
	incq	%r8
	decq	%r9
	jne	.Lunix_path_BB28_279
.Lunix_path_BB28_280:
	subq	%rdx, %rcx
	cmpq	$-4, %rcx
	ja	.Lunix_path_BB28_223
	leaq	(%r15,%r13), %rcx
	addq	$3, %rcx
	.p2align	4
.Lunix_path_BB28_282:
	movzbl	(%rsi,%r8), %edi
	movb	%dil, -3(%rcx,%r8)
	movzbl	1(%rsi,%r8), %edi
	movb	%dil, -2(%rcx,%r8)
	movzbl	2(%rsi,%r8), %edi
	movb	%dil, -1(%rcx,%r8)
	movzbl	3(%rsi,%r8), %edi
	movb	%dil, (%rcx,%r8)
	addq	$4, %r8
	cmpq	%r8, %rdx
	jne	.Lunix_path_BB28_282
	jmp	.Lunix_path_BB28_223
.Lunix_path_BB28_283:
	movq	%rsi, %r15
	leaq	120(%rsp), %rdi
	movq	%rdx, %r12
	movq	%rdx, %rsi
	callq	std_alloc.vec.Vec.grow_amortized.f4a78633ca2a48c6.
	testb	%al, %al
	je	.Lunix_path_BB28_396
	movq	128(%rsp), %r13
	movq	136(%rsp), %rbx
	movq	%r15, %rsi
	movq	%r12, %rdx
	jmp	.Lunix_path_BB28_255
.Lunix_path_BB28_285:
	movq	%r13, %rcx
	andq	$-4, %rcx
	xorl	%eax, %eax
	pxor	%xmm1, %xmm1
	movq	80(%rsp), %rsi
	.p2align	4
.Lunix_path_BB28_286:
	movzwl	(%rsi,%rax), %edx
	movd	%edx, %xmm2
	movzwl	2(%rsi,%rax), %edx
	movd	%edx, %xmm3
	pxor	%xmm4, %xmm4
	pcmpeqb	%xmm4, %xmm2
	punpcklbw	%xmm2, %xmm2
	pshuflw	$212, %xmm2, %xmm2
	pshufd	$212, %xmm2, %xmm2
	movdqa	.Lunix_path_CPI28_0(%rip), %xmm5
	pand	%xmm5, %xmm2
	paddq	%xmm2, %xmm1
	pcmpeqb	%xmm4, %xmm3
	punpcklbw	%xmm3, %xmm3
	pshuflw	$212, %xmm3, %xmm2
	pshufd	$212, %xmm2, %xmm2
	pand	%xmm5, %xmm2
	paddq	%xmm2, %xmm0
	addq	$4, %rax
	cmpq	%rax, %rcx
	jne	.Lunix_path_BB28_286
	paddq	%xmm1, %xmm0
	pshufd	$238, %xmm0, %xmm1
	paddq	%xmm0, %xmm1
	movq	%xmm1, %rax
	jmp	.Lunix_path_BB28_469
.Lunix_path_BB28_288:
	testq	%r11, %r11
	je	.Lunix_path_BB28_395
	xorl	%r13d, %r13d
	movq	%r10, 104(%rsp)
	.p2align	4
.Lunix_path_BB28_290:
	leaq	(,%r13,2), %rax
	addq	%r13, %rax
	movq	(%r12,%rax,8), %rcx
	leaq	.Lunix_path_static.5(%rip), %rsi
	movb	$4, %r9b
	xorl	%edi, %edi
	movl	$0, %edx
	movb	$4, %bl
	movq	%rsi, %r14
	movl	$0, %ebp
	cmpq	%r11, %rcx
	jae	.Lunix_path_BB28_292
	leaq	(%rcx,%rcx,4), %rcx
	movq	200(%rsp), %rdx
	movzbl	(%rdx,%rcx,8), %ebx
	movq	8(%rdx,%rcx,8), %r14
	movq	16(%rdx,%rcx,8), %rbp
	movq	24(%rdx,%rcx,8), %rdi
	movq	32(%rdx,%rcx,8), %rdx
.Lunix_path_BB28_292:
	movq	%rdx, 48(%rsp)
	movq	%rdi, 64(%rsp)
	movq	8(%r12,%rax,8), %rcx
	xorl	%edi, %edi
	movl	$0, %edx
	movl	$0, %r8d
	cmpq	%r11, %rcx
	jae	.Lunix_path_BB28_294
	leaq	(%rcx,%rcx,4), %rcx
	movq	200(%rsp), %rdx
	movzbl	(%rdx,%rcx,8), %r9d
	movq	8(%rdx,%rcx,8), %rsi
	movq	16(%rdx,%rcx,8), %r8
	movq	24(%rdx,%rcx,8), %rdi
	movq	32(%rdx,%rcx,8), %rdx
.Lunix_path_BB28_294:
	movb	%r9b, 192(%rsp)
	movq	%r8, 112(%rsp)
	movq	%rdx, 272(%rsp)
	movq	%rdi, 280(%rsp)
	movq	%rsi, 72(%rsp)
	movzbl	16(%r12,%rax,8), %r15d
	movq	24(%rsp), %rax
	movq	32(%rsp), %rcx
	movq	%rcx, %rdx
	subq	%rax, %rdx
	cmpq	$6, %rdx
	jbe	.Lunix_path_BB28_336
.Lunix_path_BB28_295:
	movq	16(%rsp), %rdx
	leaq	(%rdx,%rax), %rsi
	leaq	.Lunix_path_static.65(%rip), %rdi
	movq	%rsi, %r8
	subq	%rdi, %r8
	cmpq	$6, %r8
	ja	.Lunix_path_BB28_297
	movl	$1952542837, (%rsi)
	movw	$14952, 4(%rsi)
	movb	$32, 6(%rsi)
	jmp	.Lunix_path_BB28_298
	.p2align	4
.Lunix_path_BB28_297:
	movl	$540698740, 3(%rsi)
	movl	$1952542837, (%rsi)
.Lunix_path_BB28_298:
	addq	$7, %rax
	movq	%rdx, 16(%rsp)
	movq	%rax, 24(%rsp)
	movq	%rcx, 32(%rsp)
	leaq	16(%rsp), %rdx
	movq	%r14, %rdi
	movq	%rbp, %rsi
	callq	upath_commands.shown.push_shown
	testb	%al, %al
	jne	.Lunix_path_BB28_462
	movq	24(%rsp), %rax
	movq	32(%rsp), %rcx
	movq	%rcx, %rdx
	subq	%rax, %rdx
	cmpq	$1, %rdx
	jbe	.Lunix_path_BB28_338
.Lunix_path_BB28_300:
	movq	16(%rsp), %rdx
	leaq	(%rdx,%rax), %r8
	addq	$2, %rax
	leaq	.Lunix_path_static.66(%rip), %rsi
	movq	%r8, %r9
	subq	%rsi, %r9
	movzbl	%bl, %esi
	movl	%r15d, %edi
	cmpq	$1, %r9
	ja	.Lunix_path_BB28_302
	movw	$8250, (%r8)
	movq	%rdx, 16(%rsp)
	movq	%rax, 24(%rsp)
	movq	%rcx, 32(%rsp)
	pxor	%xmm0, %xmm0
	movdqa	%xmm0, 144(%rsp)
	movdqa	%xmm0, 160(%rsp)
	movq	$0, 176(%rsp)
	movdqa	%xmm0, 208(%rsp)
	movdqa	%xmm0, 224(%rsp)
	movq	$0, 240(%rsp)
	leaq	.Lunix_path_JTI28_1(%rip), %r8
	movslq	(%r8,%rdi,4), %rdi
	addq	%r8, %rdi
	jmpq	*%rdi
	.p2align	4
.Lunix_path_BB28_302:
	movw	$8250, (%r8)
	movq	%rdx, 16(%rsp)
	movq	%rax, 24(%rsp)
	movq	%rcx, 32(%rsp)
	pxor	%xmm0, %xmm0
	movdqa	%xmm0, 144(%rsp)
	movdqa	%xmm0, 160(%rsp)
	movq	$0, 176(%rsp)
	movdqa	%xmm0, 208(%rsp)
	movdqa	%xmm0, 224(%rsp)
	movq	$0, 240(%rsp)
	leaq	.Lunix_path_JTI28_1(%rip), %r8
	movslq	(%r8,%rdi,4), %rdi
	addq	%r8, %rdi
	jmpq	*%rdi
.Lunix_path_BB28_303:
	movq	%rsi, 144(%rsp)
	movq	%r14, 152(%rsp)
	movq	%rbp, 160(%rsp)
	movq	64(%rsp), %rax
	movq	%rax, 168(%rsp)
	movq	48(%rsp), %rax
	movq	%rax, 176(%rsp)
	leaq	144(%rsp), %rdi
	leaq	16(%rsp), %rsi
	callq	upath_commands.refused.push_or_target
	testb	%al, %al
	movq	40(%rsp), %r11
	movq	104(%rsp), %r10
	jne	.Lunix_path_BB28_462
	movq	24(%rsp), %rax
	movq	32(%rsp), %rcx
	movq	%rcx, %rdx
	subq	%rax, %rdx
	cmpq	$46, %rdx
	jbe	.Lunix_path_BB28_386
.Lunix_path_BB28_305:
	movq	16(%rsp), %rdx
	pxor	%xmm0, %xmm0
	leaq	24(%rsp), %rsi
	movdqu	%xmm0, (%rsi)
	leaq	(%rdx,%rax), %rsi
	leaq	.Lunix_path_static.67(%rip), %rdi
	movq	%rsi, %r8
	subq	%rdi, %r8
	cmpq	$46, %r8
	ja	.Lunix_path_BB28_333
	movaps	.Lunix_path_CPI28_8(%rip), %xmm0
	movups	%xmm0, (%rsi)
	movdqa	.Lunix_path_CPI28_9(%rip), %xmm0
	movdqu	%xmm0, 16(%rsi)
	movabsq	$7955925832447631476, %rdi
	movq	%rdi, 32(%rsi)
	movl	$1847615776, 40(%rsi)
	movw	$28001, 44(%rsi)
	movb	$101, 46(%rsi)
	jmp	.Lunix_path_BB28_334
.Lunix_path_BB28_307:
	movq	%rcx, %rsi
	subq	%rax, %rsi
	cmpq	$21, %rsi
	jbe	.Lunix_path_BB28_376
.Lunix_path_BB28_308:
	pxor	%xmm0, %xmm0
	leaq	24(%rsp), %rsi
	movdqu	%xmm0, (%rsi)
	leaq	(%rdx,%rax), %rsi
	leaq	.Lunix_path_static.71(%rip), %rdi
	movq	%rsi, %r8
	subq	%rdi, %r8
	cmpq	$21, %r8
	ja	.Lunix_path_BB28_323
	movdqa	.Lunix_path_CPI28_3(%rip), %xmm0
	movdqu	%xmm0, (%rsi)
	movl	$1852402720, 16(%rsi)
	movw	$8299, 20(%rsi)
	jmp	.Lunix_path_BB28_324
.Lunix_path_BB28_310:
	movq	%rsi, 208(%rsp)
	movq	%r14, 216(%rsp)
	movq	%rbp, 224(%rsp)
	movq	64(%rsp), %rax
	movq	%rax, 232(%rsp)
	movq	48(%rsp), %rax
	movq	%rax, 240(%rsp)
	leaq	208(%rsp), %rdi
	leaq	16(%rsp), %rsi
	callq	upath_commands.refused.push_or_target
	testb	%al, %al
	jne	.Lunix_path_BB28_462
	movq	24(%rsp), %rbx
	movq	32(%rsp), %r9
	movq	%r9, %rax
	subq	%rbx, %rax
	cmpq	$10, %rax
	jbe	.Lunix_path_BB28_384
.Lunix_path_BB28_312:
	movq	16(%rsp), %r15
	leaq	(%r15,%rbx), %rax
	addq	$11, %rbx
	leaq	.Lunix_path_static.69(%rip), %rcx
	movq	%rax, %rdx
	subq	%rcx, %rdx
	movabsq	$7810757020258494828, %rcx
	cmpq	$10, %rdx
	ja	.Lunix_path_BB28_331
	movq	%rcx, (%rax)
	movw	$30575, 8(%rax)
	movb	$32, 10(%rax)
	movq	%r15, 16(%rsp)
	movq	%rbx, 24(%rsp)
	movq	%r9, 32(%rsp)
	leaq	.Lunix_path_static.74(%rip), %rbp
	movl	$14, %r14d
	movb	$1, %dl
	movzbl	192(%rsp), %eax
	leaq	.Lunix_path_JTI28_2(%rip), %rcx
	movslq	(%rcx,%rax,4), %rax
	addq	%rcx, %rax
	jmpq	*%rax
.Lunix_path_BB28_314:
	movq	%rcx, %rsi
	subq	%rax, %rsi
	cmpq	$33, %rsi
	jbe	.Lunix_path_BB28_378
.Lunix_path_BB28_315:
	pxor	%xmm0, %xmm0
	leaq	24(%rsp), %rsi
	movdqu	%xmm0, (%rsi)
	leaq	(%rdx,%rax), %rsi
	leaq	.Lunix_path_static.70(%rip), %rdi
	movq	%rsi, %r8
	subq	%rdi, %r8
	cmpq	$33, %r8
	ja	.Lunix_path_BB28_325
	movaps	.Lunix_path_CPI28_4(%rip), %xmm0
	movups	%xmm0, (%rsi)
	movdqa	.Lunix_path_CPI28_5(%rip), %xmm0
	movdqu	%xmm0, 16(%rsi)
	jmp	.Lunix_path_BB28_326
.Lunix_path_BB28_317:
	movq	%rcx, %rsi
	subq	%rax, %rsi
	cmpq	$37, %rsi
	jbe	.Lunix_path_BB28_380
.Lunix_path_BB28_318:
	pxor	%xmm0, %xmm0
	leaq	24(%rsp), %rsi
	movdqu	%xmm0, (%rsi)
	leaq	(%rdx,%rax), %rsi
	leaq	.Lunix_path_static.68(%rip), %rdi
	movq	%rsi, %r8
	subq	%rdi, %r8
	cmpq	$37, %r8
	ja	.Lunix_path_BB28_327
	movaps	.Lunix_path_CPI28_6(%rip), %xmm0
	movups	%xmm0, (%rsi)
	movdqa	.Lunix_path_CPI28_7(%rip), %xmm0
	movdqu	%xmm0, 16(%rsi)
	movl	$1768693857, 32(%rsi)
	movw	$27502, 36(%rsi)
	jmp	.Lunix_path_BB28_328
.Lunix_path_BB28_320:
	movq	%rcx, %rsi
	subq	%rax, %rsi
	cmpq	$13, %rsi
	jbe	.Lunix_path_BB28_382
.Lunix_path_BB28_321:
	leaq	(%rdx,%rax), %rsi
	leaq	.Lunix_path_static.72(%rip), %rdi
	movq	%rsi, %r8
	subq	%rdi, %r8
	movabsq	$8462017904829883756, %rdi
	cmpq	$13, %r8
	ja	.Lunix_path_BB28_329
	movq	%rdi, (%rsi)
	movl	$1948265588, 8(%rsi)
	movw	$8303, 12(%rsi)
	jmp	.Lunix_path_BB28_330
.Lunix_path_BB28_323:
	movdqu	.Lunix_path_static.71(%rip), %xmm0
	movdqu	%xmm0, (%rsi)
	movabsq	$2336082230786418024, %rdi
	movq	%rdi, 14(%rsi)
.Lunix_path_BB28_324:
	movq	72(%rsp), %rdi
	movq	112(%rsp), %rsi
	addq	$22, %rax
	movq	%rdx, 16(%rsp)
	movq	%rax, 24(%rsp)
	movq	%rcx, 32(%rsp)
	leaq	16(%rsp), %rdx
	jmp	.Lunix_path_BB28_371
.Lunix_path_BB28_325:
	movups	.Lunix_path_static.70+16(%rip), %xmm0
	movups	%xmm0, 16(%rsi)
	movdqu	.Lunix_path_static.70(%rip), %xmm0
	movdqu	%xmm0, (%rsi)
.Lunix_path_BB28_326:
	movw	$25955, 32(%rsi)
	movq	40(%rsp), %r11
	movq	104(%rsp), %r10
	addq	$34, %rax
	jmp	.Lunix_path_BB28_335
.Lunix_path_BB28_327:
	movups	.Lunix_path_static.68+16(%rip), %xmm0
	movups	%xmm0, 16(%rsi)
	movdqu	.Lunix_path_static.68(%rip), %xmm0
	movdqu	%xmm0, (%rsi)
	movabsq	$7741240722617081970, %rdi
	movq	%rdi, 30(%rsi)
.Lunix_path_BB28_328:
	movq	40(%rsp), %r11
	movq	104(%rsp), %r10
	addq	$38, %rax
	jmp	.Lunix_path_BB28_335
.Lunix_path_BB28_329:
	movabsq	$2337214413162181999, %r8
	movq	%r8, 6(%rsi)
	movq	%rdi, (%rsi)
.Lunix_path_BB28_330:
	addq	$14, %rax
	movq	%rdx, 16(%rsp)
	movq	%rax, 24(%rsp)
	movq	%rcx, 32(%rsp)
	andb	$-2, %bl
	xorl	%esi, %esi
	cmpb	$2, %bl
	leaq	.Lunix_path_static.5(%rip), %rdi
	cmoveq	64(%rsp), %rdi
	cmoveq	48(%rsp), %rsi
	leaq	16(%rsp), %rdx
	jmp	.Lunix_path_BB28_371
.Lunix_path_BB28_331:
	movq	%rcx, (%rax)
	movl	$544698220, 7(%rax)
	movq	%r15, 16(%rsp)
	movq	%rbx, 24(%rsp)
	movq	%r9, 32(%rsp)
	leaq	.Lunix_path_static.74(%rip), %rbp
	movl	$14, %r14d
	movb	$1, %dl
	movzbl	192(%rsp), %eax
	leaq	.Lunix_path_JTI28_2(%rip), %rcx
	movslq	(%rcx,%rax,4), %rax
	addq	%rcx, %rax
	jmpq	*%rax
.Lunix_path_BB28_332:
	leaq	.Lunix_path_static.75(%rip), %rbp
	movl	$9, %r14d
	jmp	.Lunix_path_BB28_343
.Lunix_path_BB28_333:
	movups	.Lunix_path_static.67+31(%rip), %xmm0
	movups	%xmm0, 31(%rsi)
	movups	.Lunix_path_static.67+16(%rip), %xmm0
	movups	%xmm0, 16(%rsi)
	movdqu	.Lunix_path_static.67(%rip), %xmm0
	movdqu	%xmm0, (%rsi)
.Lunix_path_BB28_334:
	addq	$47, %rax
.Lunix_path_BB28_335:
	movq	%rdx, 16(%rsp)
	movq	%rax, 24(%rsp)
	movq	%rcx, 32(%rsp)
	jmp	.Lunix_path_BB28_372
.Lunix_path_BB28_336:
	leaq	16(%rsp), %rdi
	movl	$7, %esi
	callq	std_alloc.vec.Vec.grow_amortized.f4a78633ca2a48c6.
	testb	%al, %al
	je	.Lunix_path_BB28_462
	movq	24(%rsp), %rax
	movq	32(%rsp), %rcx
	jmp	.Lunix_path_BB28_295
.Lunix_path_BB28_338:
	leaq	16(%rsp), %rdi
	movl	$2, %esi
	callq	std_alloc.vec.Vec.grow_amortized.f4a78633ca2a48c6.
	testb	%al, %al
	je	.Lunix_path_BB28_462
	movq	24(%rsp), %rax
	movq	32(%rsp), %rcx
	jmp	.Lunix_path_BB28_300
.Lunix_path_BB28_340:
	leaq	.Lunix_path_static.78(%rip), %rbp
	movl	$10, %r14d
	jmp	.Lunix_path_BB28_343
.Lunix_path_BB28_341:
	leaq	.Lunix_path_static.76(%rip), %rbp
	movl	$18, %r14d
	xorl	%edx, %edx
	jmp	.Lunix_path_BB28_344
.Lunix_path_BB28_342:
	leaq	.Lunix_path_static.77(%rip), %rbp
.Lunix_path_BB28_343:
	movb	$1, %dl
.Lunix_path_BB28_344:
	movq	%r9, %rax
	subq	%rbx, %rax
	cmpq	%rax, %r14
	ja	.Lunix_path_BB28_388
.Lunix_path_BB28_345:
	leaq	(%r15,%rbx), %rdi
	movq	%rdi, %rax
	subq	%rbp, %rax
	cmpq	%r14, %rax
	jae	.Lunix_path_BB28_348
	cmpq	$16, %rax
	movq	112(%rsp), %rsi
	jae	.Lunix_path_BB28_349
	xorl	%eax, %eax
	jmp	.Lunix_path_BB28_358
.Lunix_path_BB28_348:
	movq	%rbp, %rsi
	movq	%r14, %rdx
	movq	%r9, %rbp
	callq	memcpy@PLT
	movq	%rbp, %r9
	movq	112(%rsp), %rsi
	jmp	.Lunix_path_BB28_364
.Lunix_path_BB28_349:
	testb	%dl, %dl
	je	.Lunix_path_BB28_351
	xorl	%eax, %eax
	jmp	.Lunix_path_BB28_355
.Lunix_path_BB28_351:
	movl	%r14d, %eax
	andl	$-16, %eax
	xorl	%ecx, %ecx
	.p2align	4
.Lunix_path_BB28_352:
	movdqu	(%rbp,%rcx), %xmm0
	movdqu	%xmm0, (%rdi,%rcx)
	addq	$16, %rcx
	cmpq	%rcx, %rax
	jne	.Lunix_path_BB28_352
	cmpl	%eax, %r14d
	je	.Lunix_path_BB28_364
	testb	$12, %r14b
	je	.Lunix_path_BB28_358
.Lunix_path_BB28_355:
	movq	%rax, %rcx
	movl	%r14d, %eax
	andl	$-4, %eax
	.p2align	4
.Lunix_path_BB28_356:
	movl	(%rbp,%rcx), %edx
	movl	%edx, (%rdi,%rcx)
	addq	$4, %rcx
	cmpq	%rcx, %rax
	jne	.Lunix_path_BB28_356
	cmpl	%eax, %r14d
	je	.Lunix_path_BB28_364
.Lunix_path_BB28_358:
	movq	%r14, %rdx
	movq	%rax, %rcx
	andq	$3, %rdx
	je	.Lunix_path_BB28_361
	movq	%rax, %rcx
	.p2align	4
.Lunix_path_BB28_360:
	movzbl	(%rbp,%rcx), %r8d
	movb	%r8b, (%rdi,%rcx)
	incq	%rcx
	decq	%rdx
	jne	.Lunix_path_BB28_360
.Lunix_path_BB28_361:
	subl	%r14d, %eax
	cmpl	$-4, %eax
	ja	.Lunix_path_BB28_364
	leaq	(%r15,%rbx), %rax
	addq	$3, %rax
	.p2align	4
.Lunix_path_BB28_363:
	movl	(%rbp,%rcx), %edx
	movl	%edx, -3(%rax,%rcx)
	addq	$4, %rcx
	cmpq	%rcx, %r14
	jne	.Lunix_path_BB28_363
.Lunix_path_BB28_364:
	addq	%r14, %rbx
	movq	%r15, 16(%rsp)
	movq	%rbx, 24(%rsp)
	movq	%r9, 32(%rsp)
	leaq	16(%rsp), %rdx
	movq	72(%rsp), %rdi
	callq	upath_commands.shown.push_shown
	testb	%al, %al
	movq	40(%rsp), %r11
	movq	104(%rsp), %r10
	jne	.Lunix_path_BB28_462
	cmpb	$3, 192(%rsp)
	jne	.Lunix_path_BB28_372
	movq	24(%rsp), %rax
	movq	32(%rsp), %rcx
	movq	%rcx, %rdx
	subq	%rax, %rdx
	cmpq	$14, %rdx
	jbe	.Lunix_path_BB28_390
.Lunix_path_BB28_367:
	movq	16(%rsp), %rdx
	leaq	(%rdx,%rax), %rsi
	leaq	.Lunix_path_static.79(%rip), %rdi
	movq	%rsi, %r8
	subq	%rdi, %r8
	movabsq	$2338340626400177952, %rdi
	cmpq	$14, %r8
	ja	.Lunix_path_BB28_369
	movq	%rdi, (%rsi)
	movl	$1735549300, 8(%rsi)
	movw	$29797, 12(%rsi)
	movb	$32, 14(%rsi)
	jmp	.Lunix_path_BB28_370
.Lunix_path_BB28_369:
	movabsq	$2338605601487156256, %r8
	movq	%r8, 7(%rsi)
	movq	%rdi, (%rsi)
.Lunix_path_BB28_370:
	addq	$15, %rax
	movq	%rdx, 16(%rsp)
	movq	%rax, 24(%rsp)
	movq	%rcx, 32(%rsp)
	leaq	16(%rsp), %rdx
	movq	280(%rsp), %rdi
	movq	272(%rsp), %rsi
	.p2align	4
.Lunix_path_BB28_371:
	callq	upath_commands.shown.push_shown
	testb	%al, %al
	movq	40(%rsp), %r11
	movq	104(%rsp), %r10
	jne	.Lunix_path_BB28_462
.Lunix_path_BB28_372:
	movq	24(%rsp), %rbx
	cmpq	%rbx, 32(%rsp)
	je	.Lunix_path_BB28_374
.Lunix_path_BB28_373:
	movq	16(%rsp), %rax
	movb	$10, (%rax,%rbx)
	incq	%rbx
	movq	%rbx, 24(%rsp)
	incq	%r13
	cmpq	56(%rsp), %r13
	jne	.Lunix_path_BB28_290
	jmp	.Lunix_path_BB28_407
.Lunix_path_BB28_374:
	leaq	16(%rsp), %rdi
	movl	$1, %esi
	callq	std_alloc.vec.Vec.grow_amortized.f4a78633ca2a48c6.
	testb	%al, %al
	je	.Lunix_path_BB28_462
	movq	24(%rsp), %rbx
	movq	40(%rsp), %r11
	movq	104(%rsp), %r10
	jmp	.Lunix_path_BB28_373
.Lunix_path_BB28_376:
	leaq	16(%rsp), %rdi
	movl	$22, %esi
	callq	std_alloc.vec.Vec.grow_amortized.f4a78633ca2a48c6.
	testb	%al, %al
	je	.Lunix_path_BB28_462
	movq	16(%rsp), %rdx
	movq	24(%rsp), %rax
	movq	32(%rsp), %rcx
	jmp	.Lunix_path_BB28_308
.Lunix_path_BB28_378:
	leaq	16(%rsp), %rdi
	movl	$34, %esi
	callq	std_alloc.vec.Vec.grow_amortized.f4a78633ca2a48c6.
	testb	%al, %al
	je	.Lunix_path_BB28_462
	movq	16(%rsp), %rdx
	movq	24(%rsp), %rax
	movq	32(%rsp), %rcx
	jmp	.Lunix_path_BB28_315
.Lunix_path_BB28_380:
	leaq	16(%rsp), %rdi
	movl	$38, %esi
	callq	std_alloc.vec.Vec.grow_amortized.f4a78633ca2a48c6.
	testb	%al, %al
	je	.Lunix_path_BB28_462
	movq	16(%rsp), %rdx
	movq	24(%rsp), %rax
	movq	32(%rsp), %rcx
	jmp	.Lunix_path_BB28_318
.Lunix_path_BB28_382:
	leaq	16(%rsp), %rdi
	movl	$14, %esi
	callq	std_alloc.vec.Vec.grow_amortized.f4a78633ca2a48c6.
	testb	%al, %al
	je	.Lunix_path_BB28_462
	movq	16(%rsp), %rdx
	movq	24(%rsp), %rax
	movq	32(%rsp), %rcx
	jmp	.Lunix_path_BB28_321
.Lunix_path_BB28_384:
	leaq	16(%rsp), %rdi
	movl	$11, %esi
	callq	std_alloc.vec.Vec.grow_amortized.f4a78633ca2a48c6.
	testb	%al, %al
	je	.Lunix_path_BB28_462
	movq	24(%rsp), %rbx
	movq	32(%rsp), %r9
	jmp	.Lunix_path_BB28_312
.Lunix_path_BB28_386:
	leaq	16(%rsp), %rdi
	movl	$47, %esi
	callq	std_alloc.vec.Vec.grow_amortized.f4a78633ca2a48c6.
	movq	104(%rsp), %r10
	movq	40(%rsp), %r11
	testb	%al, %al
	je	.Lunix_path_BB28_462
	movq	24(%rsp), %rax
	movq	32(%rsp), %rcx
	jmp	.Lunix_path_BB28_305
.Lunix_path_BB28_388:
	movl	%edx, 64(%rsp)
	leaq	16(%rsp), %rdi
	movq	%r14, %rsi
	callq	std_alloc.vec.Vec.grow_amortized.f4a78633ca2a48c6.
	testb	%al, %al
	je	.Lunix_path_BB28_462
	movq	16(%rsp), %r15
	movq	24(%rsp), %rbx
	movq	32(%rsp), %r9
	movl	64(%rsp), %edx
	jmp	.Lunix_path_BB28_345
.Lunix_path_BB28_390:
	leaq	16(%rsp), %rdi
	movl	$15, %esi
	callq	std_alloc.vec.Vec.grow_amortized.f4a78633ca2a48c6.
	testb	%al, %al
	je	.Lunix_path_BB28_462
	movq	24(%rsp), %rax
	movq	32(%rsp), %rcx
	jmp	.Lunix_path_BB28_367
.Lunix_path_BB28_392:
	leaq	8(%rsp), %r15
	xorl	%r14d, %r14d
	testq	%r11, %r11
	je	.Lunix_path_BB28_401
	xorl	%ebx, %ebx
	movq	%r15, %r10
	movq	$0, 56(%rsp)
	jmp	.Lunix_path_BB28_408
.Lunix_path_BB28_394:
	movq	%rdx, 264(%rsp)
	leaq	8(%rsp), %rdi
	xorl	%r9d, %r9d
	jmp	.Lunix_path_BB28_424
.Lunix_path_BB28_395:
	movq	24(%rsp), %r14
	movq	32(%rsp), %rax
	jmp	.Lunix_path_BB28_402
.Lunix_path_BB28_396:
	cmpq	$0, 32(%rsp)
	je	.Lunix_path_BB28_398
	movq	16(%rsp), %rdi
	callq	rattle_dealloc@PLT
.Lunix_path_BB28_398:
	cmpq	$0, 136(%rsp)
	movzbl	14(%rsp), %r13d
	je	.Lunix_path_BB28_400
	movq	120(%rsp), %rdi
	callq	rattle_dealloc@PLT
.Lunix_path_BB28_400:
	pxor	%xmm0, %xmm0
	jmp	.Lunix_path_BB28_467
.Lunix_path_BB28_401:
	movb	%r13b, 14(%rsp)
	xorl	%eax, %eax
	movq	%r15, %r10
.Lunix_path_BB28_402:
	movq	%r14, %rbx
	movq	%rax, %rcx
	subq	%r14, %rcx
	movq	%rax, %r14
	cmpq	$17, %rcx
	jbe	.Lunix_path_BB28_460
.Lunix_path_BB28_403:
	movq	16(%rsp), %r15
	pxor	%xmm0, %xmm0
	leaq	24(%rsp), %rax
	movdqu	%xmm0, (%rax)
	leaq	(%r15,%rbx), %rax
	leaq	.Lunix_path_static.64(%rip), %rcx
	movq	%rax, %rdx
	subq	%rcx, %rdx
	cmpq	$17, %rdx
	movzbl	14(%rsp), %r13d
	ja	.Lunix_path_BB28_405
	movdqa	.Lunix_path_CPI28_10(%rip), %xmm0
	jmp	.Lunix_path_BB28_406
.Lunix_path_BB28_405:
	movdqu	.Lunix_path_static.64(%rip), %xmm0
.Lunix_path_BB28_406:
	movdqu	%xmm0, (%rax)
	movw	$2675, 16(%rax)
	addq	$18, %rbx
	movq	%r15, 16(%rsp)
	xorl	%r11d, %r11d
	jmp	.Lunix_path_BB28_408
.Lunix_path_BB28_407:
	movq	16(%rsp), %r15
	movq	32(%rsp), %r14
	movl	$1, %eax
	movq	%rax, 56(%rsp)
	movl	$1, %r11d
	movzbl	14(%rsp), %r13d
.Lunix_path_BB28_408:
	leaq	128(%rsp), %rax
	testq	%r11, %r11
	setne	%cl
	cmpq	$0, 56(%rsp)
	sete	%dl
	andb	%cl, %dl
	movdqu	(%rax), %xmm0
	movdqa	%xmm0, 288(%rsp)
	movzbl	%dl, %r12d
	xorl	%ebp, %ebp
	testb	%r13b, %r13b
	jne	.Lunix_path_BB28_410
.Lunix_path_BB28_409:
	movq	80(%rsp), %rdi
	movq	%r10, %r13
	callq	rattle_dealloc@PLT
	movq	%r13, %r10
.Lunix_path_BB28_410:
	cmpb	$0, 15(%rsp)
	jne	.Lunix_path_BB28_412
	movq	200(%rsp), %rdi
	movq	%r10, %r13
	callq	rattle_dealloc@PLT
	movq	%r13, %r10
.Lunix_path_BB28_412:
	movq	256(%rsp), %rax
	movb	%bpl, (%rax)
	movq	%r10, 8(%rax)
	movdqa	288(%rsp), %xmm0
	movdqu	%xmm0, 16(%rax)
	movq	%r15, 32(%rax)
	movq	%rbx, 40(%rax)
	movq	%r14, 48(%rax)
	movq	%r12, 56(%rax)
	jmp	.Lunix_path_BB28_479
.Lunix_path_BB28_413:
	cmpq	$0, 224(%rsp)
	je	.Lunix_path_BB28_478
	movq	208(%rsp), %rdi
	jmp	.Lunix_path_BB28_477
.Lunix_path_BB28_415:
	cmpq	$0, 160(%rsp)
	je	.Lunix_path_BB28_417
	movq	144(%rsp), %rdi
	callq	rattle_dealloc@PLT
.Lunix_path_BB28_417:
	cmpq	$0, 264(%rsp)
	je	.Lunix_path_BB28_419
	movq	48(%rsp), %rdi
	callq	rattle_dealloc@PLT
	pxor	%xmm0, %xmm0
	movdqa	%xmm0, 288(%rsp)
	cmpb	$0, 15(%rsp)
	je	.Lunix_path_BB28_420
	jmp	.Lunix_path_BB28_421
.Lunix_path_BB28_419:
	movzbl	15(%rsp), %eax
	pxor	%xmm0, %xmm0
	movdqa	%xmm0, 288(%rsp)
	testb	%al, %al
	jne	.Lunix_path_BB28_421
.Lunix_path_BB28_420:
	movq	200(%rsp), %rdi
	callq	rattle_dealloc@PLT
.Lunix_path_BB28_421:
	movq	256(%rsp), %rax
	movb	$1, (%rax)
	movq	$0, 8(%rax)
	movaps	288(%rsp), %xmm0
	movups	%xmm0, 16(%rax)
	xorps	%xmm0, %xmm0
	movups	%xmm0, 32(%rax)
	movups	%xmm0, 48(%rax)
	jmp	.Lunix_path_BB28_479
.Lunix_path_BB28_422:
	leaq	-1(%rbx), %r14
	leaq	-8(,%rbx,8), %rax
	leaq	(%rax,%rax,4), %rdx
	xorl	%esi, %esi
	movq	%rdi, %rbx
	callq	memset@PLT
	movq	%r14, %r9
	movq	%rbx, %rdi
.Lunix_path_BB28_423:
	movq	80(%rsp), %rsi
	leaq	(%r9,%r9,4), %rax
	incq	%r9
	pxor	%xmm0, %xmm0
	movdqu	%xmm0, 16(%rdi,%rax,8)
	movdqu	%xmm0, (%rdi,%rax,8)
	movq	$0, 32(%rdi,%rax,8)
.Lunix_path_BB28_424:
	pxor	%xmm0, %xmm0
	movdqa	%xmm0, 160(%rsp)
	movdqa	%xmm0, 144(%rsp)
	movq	$0, 176(%rsp)
	xorl	%ebx, %ebx
	xorl	%r15d, %r15d
	xorl	%ecx, %ecx
	jmp	.Lunix_path_BB28_427
	.p2align	4
.Lunix_path_BB28_425:
	addq	$2, %rbx
.Lunix_path_BB28_426:
	incq	%rcx
	incq	%r15
	cmpq	%r13, %rcx
	movq	%r8, %rsi
	jae	.Lunix_path_BB28_442
.Lunix_path_BB28_427:
	movq	%r9, %rbp
	movq	%rdi, %r14
	leaq	144(%rsp), %rdi
	movq	%r13, %rdx
	callq	path_archive.records.record_at
	cmpb	$1, 144(%rsp)
	jne	.Lunix_path_BB28_434
	movq	152(%rsp), %rdx
	movq	168(%rsp), %rax
	movq	176(%rsp), %rcx
	movq	%rbp, %r9
	cmpq	%rbp, %rbx
	movq	%r14, %rdi
	jae	.Lunix_path_BB28_430
	movq	160(%rsp), %rsi
	leaq	(%rbx,%rbx,4), %r8
	movq	%rsi, (%rdi,%r8,8)
	movq	%rax, 8(%rdi,%r8,8)
	movq	%rdx, 16(%rdi,%r8,8)
	movq	%r15, 24(%rdi,%r8,8)
	movq	$0, 32(%rdi,%r8,8)
.Lunix_path_BB28_430:
	leaq	1(%rbx), %rsi
	cmpq	$1, %rdx
	movq	80(%rsp), %r8
	jne	.Lunix_path_BB28_433
	cmpq	%r9, %rsi
	jae	.Lunix_path_BB28_425
	incq	%rax
	leaq	(%rsi,%rsi,4), %rdx
	movq	%rax, (%rdi,%rdx,8)
	movq	%rcx, 8(%rdi,%rdx,8)
	movq	$2, 16(%rdi,%rdx,8)
	movq	%r15, 24(%rdi,%rdx,8)
	movq	$0, 32(%rdi,%rdx,8)
	jmp	.Lunix_path_BB28_425
	.p2align	4
.Lunix_path_BB28_433:
	movq	%rsi, %rbx
	jmp	.Lunix_path_BB28_426
.Lunix_path_BB28_434:
	cmpq	$0, 264(%rsp)
	movq	80(%rsp), %rsi
	je	.Lunix_path_BB28_437
	movq	%r14, %rdi
	callq	rattle_dealloc@PLT
.Lunix_path_BB28_436:
	movq	80(%rsp), %rsi
.Lunix_path_BB28_437:
	pxor	%xmm0, %xmm0
	movdqa	%xmm0, 208(%rsp)
	movdqa	%xmm0, 224(%rsp)
	cmpq	$4, %r13
	jae	.Lunix_path_BB28_439
	xorl	%eax, %eax
	xorl	%ecx, %ecx
	jmp	.Lunix_path_BB28_480
.Lunix_path_BB28_439:
	movq	%r13, %rcx
	andq	$-4, %rcx
	xorl	%eax, %eax
	pxor	%xmm1, %xmm1
	.p2align	4
.Lunix_path_BB28_440:
	movzwl	(%rsi,%rax), %edx
	movd	%edx, %xmm2
	movzwl	2(%rsi,%rax), %edx
	movd	%edx, %xmm3
	pxor	%xmm4, %xmm4
	pcmpeqb	%xmm4, %xmm2
	punpcklbw	%xmm2, %xmm2
	pshuflw	$212, %xmm2, %xmm2
	pshufd	$212, %xmm2, %xmm2
	movdqa	.Lunix_path_CPI28_0(%rip), %xmm5
	pand	%xmm5, %xmm2
	paddq	%xmm2, %xmm1
	pcmpeqb	%xmm4, %xmm3
	punpcklbw	%xmm3, %xmm3
	pshuflw	$212, %xmm3, %xmm2
	pshufd	$212, %xmm2, %xmm2
	pand	%xmm5, %xmm2
	paddq	%xmm2, %xmm0
	addq	$4, %rax
	cmpq	%rax, %rcx
	jne	.Lunix_path_BB28_440
	paddq	%xmm1, %xmm0
	pshufd	$238, %xmm0, %xmm1
	paddq	%xmm0, %xmm1
	movq	%xmm1, %rax
	jmp	.Lunix_path_BB28_481
.Lunix_path_BB28_442:
	movq	%rsi, 144(%rsp)
	movq	%r13, 152(%rsp)
	cmpq	$20, %r9
	jbe	.Lunix_path_BB28_16
	movq	40(%rdi), %rax
	movq	%rsi, %rcx
	movq	48(%rdi), %rsi
	cmpq	%rsi, %r13
	cmovbq	%r13, %rsi
	cmpq	%rax, %rsi
	cmovbq	%rsi, %rax
	leaq	(%rcx,%rax), %rdi
	subq	%rax, %rsi
	movq	%rcx, %r15
	callq	path_archive.slot.without_dot
	movq	%rax, %rbx
	movq	%rdx, %r12
	movq	(%r14), %rax
	movq	8(%r14), %rsi
	cmpq	%rsi, %r13
	cmovbq	%r13, %rsi
	cmpq	%rax, %rsi
	cmovbq	%rsi, %rax
	leaq	(%r15,%rax), %rdi
	subq	%rax, %rsi
	callq	path_archive.slot.without_dot
	movq	%rdx, %rcx
	movq	%rbx, %rdi
	movq	%r12, %rsi
	movq	%rax, %rdx
	callq	unix_path.compare.compare
	movq	56(%r14), %rcx
	movq	64(%r14), %rdx
	movq	24(%r14), %rsi
	cmpq	%rsi, %rdx
	setae	%dil
	addb	%dil, %dil
	cmpq	%rsi, %rdx
	movq	16(%r14), %rdx
	movzbl	%dil, %esi
	movl	$1, %edi
	cmovnel	%esi, %edi
	cmpq	%rdx, %rcx
	setae	%sil
	addb	%sil, %sil
	cmpq	%rdx, %rcx
	movzbl	%sil, %ecx
	cmovel	%edi, %ecx
	cmpb	$1, %al
	movzbl	%al, %eax
	cmovel	%ecx, %eax
	movl	%eax, 72(%rsp)
	leaq	104(%r14), %r12
	movl	$2, %r15d
	testb	%al, %al
	je	.Lunix_path_BB28_450
	movq	80(%rsp), %rbx
.Lunix_path_BB28_445:
	movq	-24(%r12), %rax
	movq	-16(%r12), %rsi
	movq	64(%rsp), %r13
	cmpq	%rsi, %r13
	cmovbq	%r13, %rsi
	cmpq	%rax, %rsi
	cmovbq	%rsi, %rax
	leaq	(%rbx,%rax), %rdi
	subq	%rax, %rsi
	callq	path_archive.slot.without_dot
	movq	%rax, 56(%rsp)
	movq	%rdx, 48(%rsp)
	movq	-64(%r12), %rax
	movq	-56(%r12), %rsi
	cmpq	%rsi, %r13
	cmovbq	%r13, %rsi
	cmpq	%rax, %rsi
	cmovbq	%rsi, %rax
	leaq	(%rbx,%rax), %rdi
	subq	%rax, %rsi
	callq	path_archive.slot.without_dot
	movq	%rdx, %rcx
	movq	56(%rsp), %rdi
	movq	48(%rsp), %rsi
	movq	%rax, %rdx
	callq	unix_path.compare.compare
	movq	-8(%r12), %rcx
	movq	(%r12), %rdx
	movq	-40(%r12), %rsi
	cmpq	%rsi, %rdx
	setae	%dil
	addb	%dil, %dil
	cmpq	%rsi, %rdx
	movq	-48(%r12), %rdx
	movzbl	%dil, %esi
	movl	$1, %edi
	cmovnel	%esi, %edi
	cmpq	%rdx, %rcx
	setae	%sil
	addb	%sil, %sil
	cmpq	%rdx, %rcx
	movzbl	%sil, %ecx
	cmovel	%edi, %ecx
	cmpb	$1, %al
	je	.Lunix_path_BB28_447
	movzbl	%al, %ecx
.Lunix_path_BB28_447:
	testb	%cl, %cl
	movq	%rbp, %r10
	je	.Lunix_path_BB28_453
	incq	%r15
	addq	$40, %r12
	cmpq	%r15, %r10
	movq	80(%rsp), %rbx
	jne	.Lunix_path_BB28_445
	jmp	.Lunix_path_BB28_455
.Lunix_path_BB28_449:
	incq	%r15
	addq	$40, %r12
	cmpq	%r15, %r10
	je	.Lunix_path_BB28_457
.Lunix_path_BB28_450:
	movq	-24(%r12), %rax
	movq	-16(%r12), %rsi
	movq	64(%rsp), %r13
	cmpq	%rsi, %r13
	cmovbq	%r13, %rsi
	cmpq	%rax, %rsi
	cmovbq	%rsi, %rax
	movq	80(%rsp), %rbx
	leaq	(%rbx,%rax), %rdi
	subq	%rax, %rsi
	callq	path_archive.slot.without_dot
	movq	%rax, 56(%rsp)
	movq	%rdx, 48(%rsp)
	movq	-64(%r12), %rax
	movq	-56(%r12), %rsi
	cmpq	%rsi, %r13
	cmovbq	%r13, %rsi
	cmpq	%rax, %rsi
	cmovbq	%rsi, %rax
	leaq	(%rbx,%rax), %rdi
	subq	%rax, %rsi
	callq	path_archive.slot.without_dot
	movq	%rdx, %rcx
	movq	56(%rsp), %rdi
	movq	48(%rsp), %rsi
	movq	%rax, %rdx
	callq	unix_path.compare.compare
	movq	-8(%r12), %rcx
	movq	(%r12), %rdx
	movq	-40(%r12), %rsi
	cmpq	%rsi, %rdx
	setae	%dil
	addb	%dil, %dil
	cmpq	%rsi, %rdx
	movq	-48(%r12), %rdx
	movzbl	%dil, %esi
	movl	$1, %edi
	cmovnel	%esi, %edi
	cmpq	%rdx, %rcx
	setae	%sil
	addb	%sil, %sil
	cmpq	%rdx, %rcx
	movzbl	%sil, %ecx
	cmovel	%edi, %ecx
	cmpb	$1, %al
	je	.Lunix_path_BB28_452
	movzbl	%al, %ecx
.Lunix_path_BB28_452:
	testb	%cl, %cl
	movq	%rbp, %r10
	je	.Lunix_path_BB28_449
.Lunix_path_BB28_453:
	cmpq	%r10, %r15
	jae	.Lunix_path_BB28_456
	bsrq	%r10, %rcx
	xorl	$63, %ecx
	addl	%ecx, %ecx
	xorl	$126, %ecx
	leaq	144(%rsp), %r8
	movq	%r14, %rdi
	xorl	%esi, %esi
	movq	%r10, %rdx
	callq	core.slice.sort.unstable.quicksort.fd4dfef4a36ac24b.
	movq	80(%rsp), %rbx
.Lunix_path_BB28_455:
	movq	64(%rsp), %r13
	movq	%r14, %rdi
	movq	%rbp, %r10
	jmp	.Lunix_path_BB28_18
.Lunix_path_BB28_456:
	cmpb	$0, 72(%rsp)
	jne	.Lunix_path_BB28_458
.Lunix_path_BB28_457:
	movq	%r10, %rdx
	shrq	%rdx
	subq	%rdx, %r10
	leaq	(%r10,%r10,4), %rax
	movq	%r14, %rdi
	leaq	(%r14,%rax,8), %rsi
	callq	core.slice.edits.mirror.24.path_archive.slot.Slot.
	movq	%rbp, %r10
.Lunix_path_BB28_458:
	movq	64(%rsp), %r13
	testq	%r10, %r10
	movq	%r14, %rdi
	jne	.Lunix_path_BB28_17
.Lunix_path_BB28_459:
	leaq	8(%rsp), %r12
	movb	$1, %r13b
	xorl	%r9d, %r9d
	cmpq	$0, 264(%rsp)
	movq	%r9, 56(%rsp)
	jne	.Lunix_path_BB28_216
	jmp	.Lunix_path_BB28_217
.Lunix_path_BB28_460:
	movq	%r10, 104(%rsp)
	leaq	16(%rsp), %rdi
	movl	$18, %esi
	callq	std_alloc.vec.Vec.grow_amortized.f4a78633ca2a48c6.
	testb	%al, %al
	je	.Lunix_path_BB28_462
	movq	24(%rsp), %rbx
	movq	32(%rsp), %r14
	movq	104(%rsp), %r10
	jmp	.Lunix_path_BB28_403
.Lunix_path_BB28_462:
	pxor	%xmm0, %xmm0
	movdqa	%xmm0, 336(%rsp)
	cmpq	$0, 32(%rsp)
	movzbl	14(%rsp), %r13d
	je	.Lunix_path_BB28_464
	movq	16(%rsp), %rdi
	callq	rattle_dealloc@PLT
.Lunix_path_BB28_464:
	cmpq	$0, 136(%rsp)
	je	.Lunix_path_BB28_466
	movq	104(%rsp), %rdi
	callq	rattle_dealloc@PLT
.Lunix_path_BB28_466:
	movdqa	336(%rsp), %xmm0
.Lunix_path_BB28_467:
	movdqa	%xmm0, 288(%rsp)
	movb	$1, %bpl
	xorl	%r10d, %r10d
	xorl	%r15d, %r15d
	xorl	%ebx, %ebx
	xorl	%r14d, %r14d
	xorl	%r12d, %r12d
	testb	%r13b, %r13b
	je	.Lunix_path_BB28_409
	jmp	.Lunix_path_BB28_410
.Lunix_path_BB28_468:
	cmpb	$1, (%rsi,%rcx)
	adcq	$0, %rax
	incq	%rcx
.Lunix_path_BB28_469:
	cmpq	%rcx, %r13
	jne	.Lunix_path_BB28_468
	movabsq	$-6148914691236517205, %rcx
	mulq	%rcx
	shrq	%rdx
	incq	%rdx
	movq	%rdx, 120(%rsp)
	leaq	.Lunix_path_static.54(%rip), %rax
	movq	%rax, 144(%rsp)
	movq	$14, 152(%rsp)
	leaq	120(%rsp), %rax
	movq	%rax, 160(%rsp)
	leaq	.Lunix_path_static.55(%rip), %rax
	movq	%rax, 168(%rsp)
	movq	$12, 176(%rsp)
	leaq	208(%rsp), %rdi
	leaq	144(%rsp), %rsi
	callq	std_alloc.string.String.format.7c436104ea11042b.
	cmpb	$0, 208(%rsp)
	jne	.Lunix_path_BB28_478
	movq	216(%rsp), %rdi
	testb	$1, 272(%rsp)
	je	.Lunix_path_BB28_475
	pxor	%xmm1, %xmm1
	leaq	8(%rsp), %rbx
	cmpq	$0, 232(%rsp)
	je	.Lunix_path_BB28_474
	callq	rattle_dealloc@PLT
	pxor	%xmm1, %xmm1
.Lunix_path_BB28_474:
	movq	%rbx, %rdi
	jmp	.Lunix_path_BB28_476
.Lunix_path_BB28_475:
	movdqa	224(%rsp), %xmm1
.Lunix_path_BB28_476:
	movq	256(%rsp), %rcx
	movb	$0, (%rcx)
	leaq	8(%rsp), %rax
	movq	%rax, 8(%rcx)
	pxor	%xmm0, %xmm0
	movdqu	%xmm0, 16(%rcx)
	movq	%rdi, 32(%rcx)
	jmp	.Lunix_path_BB28_493
.Lunix_path_BB28_477:
	callq	rattle_dealloc@PLT
.Lunix_path_BB28_478:
	movq	256(%rsp), %rax
	movb	$1, (%rax)
	pxor	%xmm0, %xmm0
	movdqu	%xmm0, 8(%rax)
	movdqu	%xmm0, 24(%rax)
	movdqu	%xmm0, 40(%rax)
	movq	$0, 56(%rax)
.Lunix_path_BB28_479:
	addq	$360, %rsp
	popq	%rbx
	popq	%r12
	popq	%r13
	popq	%r14
	popq	%r15
	popq	%rbp
	retq
.Lunix_path_BB28_480:
	cmpb	$1, (%rsi,%rcx)
	adcq	$0, %rax
	incq	%rcx
.Lunix_path_BB28_481:
	cmpq	%rcx, %r13
	jne	.Lunix_path_BB28_480
	movabsq	$-6148914691236517205, %rcx
	mulq	%rcx
	shrq	%rdx
	incq	%rdx
	movq	%rdx, 120(%rsp)
	leaq	.Lunix_path_static.54(%rip), %rax
	movq	%rax, 144(%rsp)
	movq	$14, 152(%rsp)
	leaq	120(%rsp), %rax
	movq	%rax, 160(%rsp)
	leaq	.Lunix_path_static.55(%rip), %rax
	movq	%rax, 168(%rsp)
	movq	$12, 176(%rsp)
	leaq	208(%rsp), %rdi
	leaq	144(%rsp), %rsi
	callq	std_alloc.string.String.format.7c436104ea11042b.
	cmpb	$0, 208(%rsp)
	je	.Lunix_path_BB28_485
	testq	%r12, %r12
	je	.Lunix_path_BB28_478
	movq	200(%rsp), %rdi
	jmp	.Lunix_path_BB28_477
.Lunix_path_BB28_485:
	movq	216(%rsp), %rbx
	testb	$1, 272(%rsp)
	je	.Lunix_path_BB28_489
	pxor	%xmm1, %xmm1
	leaq	8(%rsp), %r15
	cmpq	$0, 232(%rsp)
	je	.Lunix_path_BB28_488
	movq	%rbx, %rdi
	callq	rattle_dealloc@PLT
	pxor	%xmm1, %xmm1
.Lunix_path_BB28_488:
	movq	%r15, %rbx
	jmp	.Lunix_path_BB28_490
.Lunix_path_BB28_489:
	movdqa	224(%rsp), %xmm1
.Lunix_path_BB28_490:
	testq	%r12, %r12
	je	.Lunix_path_BB28_492
	movq	200(%rsp), %rdi
	movdqa	%xmm1, 80(%rsp)
	callq	rattle_dealloc@PLT
	movdqa	80(%rsp), %xmm1
.Lunix_path_BB28_492:
	movq	256(%rsp), %rcx
	movb	$0, (%rcx)
	leaq	8(%rsp), %rax
	movq	%rax, 8(%rcx)
	pxor	%xmm0, %xmm0
	movdqu	%xmm0, 16(%rcx)
	movq	%rbx, 32(%rcx)
.Lunix_path_BB28_493:
	movdqu	%xmm1, 40(%rcx)
	movq	$0, 56(%rcx)
	jmp	.Lunix_path_BB28_479
.Lunix_path_func_end28:
	.size	upath_commands.archive.decide_records, .Lunix_path_func_end28-upath_commands.archive.decide_records
	.section	.rodata.upath_commands.archive.decide_records,"a",@progbits
	.p2align	2, 0x0
.Lunix_path_JTI28_0:
	.long	.Lunix_path_BB28_5-.Lunix_path_JTI28_0
	.long	.Lunix_path_BB28_7-.Lunix_path_JTI28_0
	.long	.Lunix_path_BB28_9-.Lunix_path_JTI28_0
	.long	.Lunix_path_BB28_6-.Lunix_path_JTI28_0
	.long	.Lunix_path_BB28_9-.Lunix_path_JTI28_0
	.long	.Lunix_path_BB28_8-.Lunix_path_JTI28_0
.Lunix_path_JTI28_1:
	.long	.Lunix_path_BB28_303-.Lunix_path_JTI28_1
	.long	.Lunix_path_BB28_317-.Lunix_path_JTI28_1
	.long	.Lunix_path_BB28_310-.Lunix_path_JTI28_1
	.long	.Lunix_path_BB28_314-.Lunix_path_JTI28_1
	.long	.Lunix_path_BB28_307-.Lunix_path_JTI28_1
	.long	.Lunix_path_BB28_320-.Lunix_path_JTI28_1
.Lunix_path_JTI28_2:
	.long	.Lunix_path_BB28_344-.Lunix_path_JTI28_2
	.long	.Lunix_path_BB28_332-.Lunix_path_JTI28_2
	.long	.Lunix_path_BB28_341-.Lunix_path_JTI28_2
	.long	.Lunix_path_BB28_342-.Lunix_path_JTI28_2
	.long	.Lunix_path_BB28_340-.Lunix_path_JTI28_2
	.section	.text.path_archive.records.record_at,"ax",@progbits
	.p2align	4
	.type	path_archive.records.record_at,@function
# path_archive::records::record_at
path_archive.records.record_at:
	pushq	%rbp
	pushq	%r15
	pushq	%r14
	pushq	%r12
	pushq	%rbx
	leaq	(%rsi,%rcx), %rax
	movq	%rdx, %r11
	subq	%rcx, %r11
	cmpq	$15, %r11
	ja	.Lunix_path_BB29_6
	xorl	%r10d, %r10d
	cmpq	%rcx, %rdx
	je	.Lunix_path_BB29_12
	.p2align	4
.Lunix_path_BB29_2:
	cmpb	$0, (%rax,%r10)
	je	.Lunix_path_BB29_12
	incq	%r10
	cmpq	%r10, %r11
	jne	.Lunix_path_BB29_2
	jmp	.Lunix_path_BB29_4
.Lunix_path_BB29_6:
	movq	%r11, %r8
	addq	$-16, %r8
	je	.Lunix_path_BB29_11
	xorl	%r9d, %r9d
	.p2align	4
.Lunix_path_BB29_8:
	movdqu	(%rax,%r9), %xmm0
	pxor	%xmm1, %xmm1
	pcmpeqb	%xmm0, %xmm1
	pmovmskb	%xmm1, %r10d
	orl	$65536, %r10d
	rep		bsfl	%r10d, %r10d
	cmpw	$15, %r10w
	jbe	.Lunix_path_BB29_9
	addq	$16, %r9
	cmpq	%r8, %r9
	jb	.Lunix_path_BB29_8
.Lunix_path_BB29_11:
	movdqu	(%rax,%r8), %xmm0
	pxor	%xmm1, %xmm1
	pcmpeqb	%xmm0, %xmm1
	pmovmskb	%xmm1, %r9d
	orl	$65536, %r9d
	rep		bsfl	%r9d, %r10d
	addq	%r8, %r10
	jmp	.Lunix_path_BB29_12
.Lunix_path_BB29_9:
	movzwl	%r10w, %r10d
	addq	%r9, %r10
.Lunix_path_BB29_12:
	leaq	(%r10,%rcx), %r8
	xorl	%r9d, %r9d
	cmpq	%r11, %r10
	cmovbq	%r8, %r9
	jae	.Lunix_path_BB29_4
	leaq	(%rsi,%r8), %r11
	incq	%r11
	incq	%r8
	movq	%rdx, %rbx
	subq	%r8, %rbx
	cmpq	$15, %rbx
	ja	.Lunix_path_BB29_17
	xorl	%r15d, %r15d
	cmpq	%r8, %rdx
	je	.Lunix_path_BB29_23
	.p2align	4
.Lunix_path_BB29_15:
	cmpb	$0, (%r11,%r15)
	je	.Lunix_path_BB29_23
	incq	%r15
	cmpq	%r15, %rbx
	jne	.Lunix_path_BB29_15
	jmp	.Lunix_path_BB29_4
.Lunix_path_BB29_17:
	movq	%rbx, %r14
	addq	$-16, %r14
	je	.Lunix_path_BB29_22
	xorl	%r12d, %r12d
	.p2align	4
.Lunix_path_BB29_19:
	movdqu	(%r11,%r12), %xmm0
	pxor	%xmm1, %xmm1
	pcmpeqb	%xmm0, %xmm1
	pmovmskb	%xmm1, %ebp
	orl	$65536, %ebp
	rep		bsfl	%ebp, %ebp
	cmpw	$15, %bp
	jbe	.Lunix_path_BB29_20
	addq	$16, %r12
	cmpq	%r14, %r12
	jb	.Lunix_path_BB29_19
.Lunix_path_BB29_22:
	movdqu	(%r11,%r14), %xmm0
	pxor	%xmm1, %xmm1
	pcmpeqb	%xmm0, %xmm1
	pmovmskb	%xmm1, %r11d
	orl	$65536, %r11d
	rep		bsfl	%r11d, %r15d
	addq	%r14, %r15
	jmp	.Lunix_path_BB29_23
.Lunix_path_BB29_20:
	movzwl	%bp, %r15d
	addq	%r12, %r15
.Lunix_path_BB29_23:
	leaq	(%r15,%r8), %r12
	xorl	%r11d, %r11d
	cmpq	%rbx, %r15
	cmovbq	%r12, %r11
	jae	.Lunix_path_BB29_4
	leaq	1(%r12), %rbx
	movq	%rdx, %r14
	subq	%rbx, %r14
	cmpq	$15, %r14
	ja	.Lunix_path_BB29_30
	cmpq	%rbx, %rdx
	jne	.Lunix_path_BB29_27
	xorl	%r10d, %r10d
	jmp	.Lunix_path_BB29_36
.Lunix_path_BB29_30:
	movq	%r14, %rdx
	addq	$-16, %rdx
	je	.Lunix_path_BB29_35
	leaq	(%rsi,%rbx), %r10
	xorl	%r15d, %r15d
	.p2align	4
.Lunix_path_BB29_32:
	movdqu	(%r10,%r15), %xmm0
	pxor	%xmm1, %xmm1
	pcmpeqb	%xmm0, %xmm1
	pmovmskb	%xmm1, %ebp
	orl	$65536, %ebp
	rep		bsfl	%ebp, %ebp
	cmpw	$15, %bp
	jbe	.Lunix_path_BB29_33
	addq	$16, %r15
	cmpq	%rdx, %r15
	jb	.Lunix_path_BB29_32
.Lunix_path_BB29_35:
	addq	%r12, %rsi
	incq	%rsi
	movdqu	(%rsi,%rdx), %xmm0
	pxor	%xmm1, %xmm1
	pcmpeqb	%xmm0, %xmm1
	pmovmskb	%xmm1, %esi
	orl	$65536, %esi
	rep		bsfl	%esi, %r10d
	addq	%rdx, %r10
	jmp	.Lunix_path_BB29_36
.Lunix_path_BB29_27:
	subq	%r15, %rdx
	subq	%r10, %rdx
	subq	%rcx, %rdx
	addq	$-2, %rdx
	addq	%rbx, %rsi
	xorl	%r10d, %r10d
	.p2align	4
.Lunix_path_BB29_28:
	cmpb	$0, (%rsi,%r10)
	je	.Lunix_path_BB29_36
	incq	%r10
	cmpq	%r10, %rdx
	jne	.Lunix_path_BB29_28
	jmp	.Lunix_path_BB29_4
.Lunix_path_BB29_33:
	movzwl	%bp, %r10d
	addq	%r15, %r10
.Lunix_path_BB29_36:
	cmpq	%r14, %r10
	jae	.Lunix_path_BB29_4
	addq	%rbx, %r10
	subq	%rcx, %r9
	movl	$4, %ecx
	cmpq	$1, %r9
	jne	.Lunix_path_BB29_40
	movzbl	(%rax), %eax
	addb	$-100, %al
	cmpb	$8, %al
	ja	.Lunix_path_BB29_40
	movzbl	%al, %eax
	leaq	.Lunix_path_switch.table.path_archive.records.record_at(%rip), %rcx
	movq	(%rcx,%rax,8), %rcx
.Lunix_path_BB29_40:
	movq	$1, (%rdi)
	movq	%rcx, 8(%rdi)
	movq	%r8, 16(%rdi)
	movq	%r11, 24(%rdi)
	movq	%r10, 32(%rdi)
	jmp	.Lunix_path_BB29_5
.Lunix_path_BB29_4:
	pxor	%xmm0, %xmm0
	movdqu	%xmm0, 16(%rdi)
	movdqu	%xmm0, (%rdi)
	movq	$0, 32(%rdi)
.Lunix_path_BB29_5:
	popq	%rbx
	popq	%r12
	popq	%r14
	popq	%r15
	popq	%rbp
	retq
.Lunix_path_func_end29:
	.size	path_archive.records.record_at, .Lunix_path_func_end29-path_archive.records.record_at
	.section	.text.unlikely.std_alloc.vec.Vec.grow_amortized.0b81d3504bf27e25.,"ax",@progbits
	.p2align	4
	.type	std_alloc.vec.Vec.grow_amortized.0b81d3504bf27e25.,@function
# std_alloc::vec::Vec::grow_amortized::<#0b81d3504bf27e25>
std_alloc.vec.Vec.grow_amortized.0b81d3504bf27e25.:
	movq	8(%rdi), %rax
	cmpq	$-1, %rax
	je	.Lunix_path_BB30_5
	pushq	%r14
	pushq	%rbx
	pushq	%rax
	movq	16(%rdi), %rcx
	cmpq	$4, %rax
	movl	$3, %ebx
	cmovaeq	%rax, %rbx
	incq	%rbx
	movq	%rcx, %rsi
	shrq	$62, %rsi
	leaq	(%rcx,%rcx), %rdx
	cmpq	%rdx, %rbx
	cmovaq	%rbx, %rdx
	testq	%rsi, %rsi
	cmoveq	%rdx, %rbx
	movabsq	$230584300921369395, %rsi
	cmpq	%rsi, %rbx
	ja	.Lunix_path_BB30_6
	testq	%rcx, %rcx
	je	.Lunix_path_BB30_8
	movq	%rdi, %r14
	movq	(%rdi), %rdi
	shlq	$3, %rax
	leaq	(%rax,%rax,4), %rsi
	leaq	(,%rbx,8), %rax
	leaq	(%rax,%rax,4), %rdx
	movl	$8, %ecx
	callq	rattle_realloc@PLT
	testb	$1, %al
	je	.Lunix_path_BB30_6
.Lunix_path_BB30_9:
	movq	%rdx, (%r14)
	movq	%rbx, 16(%r14)
	movb	$1, %al
	addq	$8, %rsp
	popq	%rbx
	popq	%r14
	retq
.Lunix_path_BB30_5:
	xorl	%eax, %eax
	retq
.Lunix_path_BB30_8:
	movq	%rdi, %r14
	shlq	$3, %rdx
	leaq	(%rdx,%rdx,4), %rdi
	movl	$8, %esi
	callq	rattle_alloc@PLT
	testb	$1, %al
	jne	.Lunix_path_BB30_9
.Lunix_path_BB30_6:
	xorl	%eax, %eax
	addq	$8, %rsp
	popq	%rbx
	popq	%r14
	retq
.Lunix_path_func_end30:
	.size	std_alloc.vec.Vec.grow_amortized.0b81d3504bf27e25., .Lunix_path_func_end30-std_alloc.vec.Vec.grow_amortized.0b81d3504bf27e25.
	.section	.text.core.slice.sort.small.insertion_sort.fd4dfef4a36ac24b.,"ax",@progbits
	.p2align	4
	.type	core.slice.sort.small.insertion_sort.fd4dfef4a36ac24b.,@function
# core::slice::sort::small::insertion_sort::<#fd4dfef4a36ac24b>
core.slice.sort.small.insertion_sort.fd4dfef4a36ac24b.:
	pushq	%rbp
	pushq	%r15
	pushq	%r14
	pushq	%r13
	pushq	%r12
	pushq	%rbx
	subq	$104, %rsp
	movq	%rdi, 8(%rsp)
	movq	(%rdx), %rax
	movq	%rax, 24(%rsp)
	movq	%rdx, 48(%rsp)
	movq	8(%rdx), %rax
	movq	%rax, 16(%rsp)
	movq	%rsi, 80(%rsp)
	cmpq	$2, %rsi
	jb	.Lunix_path_BB31_12
	movq	8(%rsp), %rax
	addq	$-40, %rax
	movq	%rax, 32(%rsp)
	movl	$1, %edx
	jmp	.Lunix_path_BB31_2
.Lunix_path_BB31_4:
	xorl	%eax, %eax
.Lunix_path_BB31_10:
	movq	8(%rsp), %rcx
	movq	%rdi, (%rcx,%rax)
	movq	%r8, 8(%rcx,%rax)
	movq	%r13, 16(%rcx,%rax)
	movq	%r15, 24(%rcx,%rax)
	movq	%rsi, 32(%rcx,%rax)
.Lunix_path_BB31_11:
	incq	%rdx
	addq	$40, 32(%rsp)
	cmpq	80(%rsp), %rdx
	je	.Lunix_path_BB31_12
.Lunix_path_BB31_2:
	movq	%rdx, 40(%rsp)
	leaq	(%rdx,%rdx,4), %rbx
	movq	8(%rsp), %rbp
	movq	(%rbp,%rbx,8), %rax
	movq	8(%rbp,%rbx,8), %rsi
	movq	16(%rsp), %r15
	cmpq	%rsi, %r15
	cmovbq	%r15, %rsi
	cmpq	%rax, %rsi
	cmovbq	%rsi, %rax
	movq	24(%rsp), %r14
	leaq	(%r14,%rax), %rdi
	subq	%rax, %rsi
	callq	path_archive.slot.without_dot
	movq	%rax, %r12
	movq	%rdx, %r13
	movq	-40(%rbp,%rbx,8), %rax
	movq	-32(%rbp,%rbx,8), %rsi
	cmpq	%rsi, %r15
	cmovbq	%r15, %rsi
	cmpq	%rax, %rsi
	cmovbq	%rsi, %rax
	leaq	(%r14,%rax), %rdi
	subq	%rax, %rsi
	callq	path_archive.slot.without_dot
	movq	%rdx, %rcx
	movq	%r12, %rdi
	movq	%r13, %rsi
	movq	%rax, %rdx
	callq	unix_path.compare.compare
	movq	16(%rbp,%rbx,8), %r13
	movq	24(%rbp,%rbx,8), %r15
	movq	-16(%rbp,%rbx,8), %rcx
	cmpq	%rcx, %r15
	setae	%dl
	addb	%dl, %dl
	cmpq	%rcx, %r15
	movq	-24(%rbp,%rbx,8), %rcx
	movzbl	%dl, %edx
	movl	$1, %esi
	cmovnel	%edx, %esi
	cmpq	%rcx, %r13
	setae	%dl
	addb	%dl, %dl
	cmpq	%rcx, %r13
	movzbl	%dl, %ecx
	movq	40(%rsp), %rdx
	cmovel	%esi, %ecx
	cmpb	$1, %al
	movzbl	%al, %eax
	cmovel	%ecx, %eax
	testb	%al, %al
	jne	.Lunix_path_BB31_11
	movq	8(%rsp), %rax
	leaq	(%rax,%rbx,8), %rax
	movq	%rdx, %r14
	movq	(%rax), %rdi
	movq	8(%rax), %r8
	movq	32(%rax), %rsi
	movups	-40(%rax), %xmm0
	movups	-24(%rax), %xmm1
	movups	%xmm0, (%rax)
	movups	%xmm1, 16(%rax)
	movq	-8(%rax), %rcx
	movq	%rcx, 32(%rax)
	decq	%r14
	je	.Lunix_path_BB31_4
	movq	%rsi, 72(%rsp)
	movq	16(%rsp), %rax
	cmpq	%r8, %rax
	movq	%r8, 56(%rsp)
	cmovbq	%rax, %r8
	cmpq	%rdi, %r8
	movq	%rdi, 64(%rsp)
	movq	%rdi, %rax
	cmovbq	%r8, %rax
	movq	24(%rsp), %rcx
	addq	%rax, %rcx
	movq	%rcx, 88(%rsp)
	subq	%rax, %r8
	movq	%r8, 96(%rsp)
	movq	32(%rsp), %r12
	.p2align	4
.Lunix_path_BB31_6:
	movq	88(%rsp), %rdi
	movq	96(%rsp), %rsi
	callq	path_archive.slot.without_dot
	movq	%rax, %rbp
	movq	%rdx, %rbx
	movq	(%r12), %rax
	movq	8(%r12), %rsi
	movq	16(%rsp), %rcx
	cmpq	%rsi, %rcx
	cmovbq	%rcx, %rsi
	cmpq	%rax, %rsi
	cmovbq	%rsi, %rax
	movq	24(%rsp), %rcx
	leaq	(%rcx,%rax), %rdi
	subq	%rax, %rsi
	callq	path_archive.slot.without_dot
	movq	%rdx, %rcx
	movq	%rbp, %rdi
	movq	%rbx, %rsi
	movq	%rax, %rdx
	callq	unix_path.compare.compare
	movq	24(%r12), %rcx
	cmpq	%rcx, %r15
	setae	%dl
	addb	%dl, %dl
	cmpq	%rcx, %r15
	movq	16(%r12), %rcx
	movzbl	%dl, %edx
	movl	$1, %esi
	cmovnel	%edx, %esi
	cmpq	%rcx, %r13
	setae	%dl
	addb	%dl, %dl
	cmpq	%rcx, %r13
	movzbl	%dl, %ecx
	cmovel	%esi, %ecx
	cmpb	$1, %al
	movzbl	%al, %eax
	cmovel	%ecx, %eax
	testb	%al, %al
	jne	.Lunix_path_BB31_9
	decq	%r14
	movq	32(%r12), %rax
	movq	%rax, 72(%r12)
	movups	(%r12), %xmm0
	movups	16(%r12), %xmm1
	movups	%xmm1, 56(%r12)
	movups	%xmm0, 40(%r12)
	addq	$-40, %r12
	testq	%r14, %r14
	jne	.Lunix_path_BB31_6
	xorl	%r14d, %r14d
.Lunix_path_BB31_9:
	shlq	$3, %r14
	leaq	(%r14,%r14,4), %rax
	movq	40(%rsp), %rdx
	movq	72(%rsp), %rsi
	movq	64(%rsp), %rdi
	movq	56(%rsp), %r8
	jmp	.Lunix_path_BB31_10
.Lunix_path_BB31_12:
	movq	48(%rsp), %rax
	movq	24(%rsp), %rcx
	movq	%rcx, (%rax)
	movq	16(%rsp), %rcx
	movq	%rcx, 8(%rax)
	addq	$104, %rsp
	popq	%rbx
	popq	%r12
	popq	%r13
	popq	%r14
	popq	%r15
	popq	%rbp
	retq
.Lunix_path_func_end31:
	.size	core.slice.sort.small.insertion_sort.fd4dfef4a36ac24b., .Lunix_path_func_end31-core.slice.sort.small.insertion_sort.fd4dfef4a36ac24b.
	.section	.text.path_archive.slot.without_dot,"ax",@progbits
	.p2align	4
	.type	path_archive.slot.without_dot,@function
# path_archive::slot::without_dot
path_archive.slot.without_dot:
	pushq	%r14
	pushq	%rbx
	subq	$24, %rsp
	movq	%rsi, %r14
	movq	%rdi, %rbx
	testq	%rsi, %rsi
	je	.Lunix_path_BB32_36
	movq	%r14, %rdx
	movq	%r14, %rax
	jmp	.Lunix_path_BB32_3
	.p2align	4
.Lunix_path_BB32_2:
	movq	%rax, %rdx
	testq	%rax, %rax
	je	.Lunix_path_BB32_36
.Lunix_path_BB32_3:
	decq	%rax
	je	.Lunix_path_BB32_9
	movzbl	(%rbx,%rax), %ecx
	cmpl	$47, %ecx
	je	.Lunix_path_BB32_7
	cmpl	$46, %ecx
	jne	.Lunix_path_BB32_9
	cmpb	$47, -1(%rbx,%rax)
	jne	.Lunix_path_BB32_9
.Lunix_path_BB32_7:
	movq	%r14, %rcx
	subq	%rax, %rcx
	cmpq	$8, %rcx
	jne	.Lunix_path_BB32_2
	movq	%rbx, %rdi
	movq	%rax, %rsi
	callq	unix_path.filler.trimmed_blocks_len
	jmp	.Lunix_path_BB32_2
.Lunix_path_BB32_9:
	xorps	%xmm0, %xmm0
	movaps	%xmm0, (%rsp)
	movq	$0, 16(%rsp)
	movzbl	(%rbx), %ecx
	cmpb	$46, %cl
	jne	.Lunix_path_BB32_14
	cmpq	$1, %rdx
	je	.Lunix_path_BB32_13
	cmpb	$47, 1(%rbx)
	je	.Lunix_path_BB32_13
	cmpb	$47, (%rbx)
	jne	.Lunix_path_BB32_22
.Lunix_path_BB32_13:
	incq	%rbx
	decq	%rdx
	movq	%rdx, %r14
	jmp	.Lunix_path_BB32_27
.Lunix_path_BB32_14:
	movw	$47, %si
	xorl	%eax, %eax
	cmpq	%rdx, %rax
	jae	.Lunix_path_BB32_23
.Lunix_path_BB32_15:
	movzbl	(%rbx,%rax), %edi
	cmpw	$47, %di
	jne	.Lunix_path_BB32_17
.Lunix_path_BB32_23:
	xorl	%edi, %edi
	cmpw	%si, %di
	jne	.Lunix_path_BB32_18
.Lunix_path_BB32_24:
	cmpb	$46, %cl
	jne	.Lunix_path_BB32_36
	jmp	.Lunix_path_BB32_25
.Lunix_path_BB32_17:
	movzwl	%di, %edi
	incl	%edi
	cmpw	%si, %di
	je	.Lunix_path_BB32_24
.Lunix_path_BB32_18:
	cmpb	$46, %cl
	jne	.Lunix_path_BB32_36
	movzbl	-1(%rbx,%rax), %ecx
	cmpb	$47, %cl
	jne	.Lunix_path_BB32_20
.Lunix_path_BB32_25:
	leaq	(%rbx,%rax), %rsi
	subq	%rax, %rdx
	leaq	.Lunix_path_static.53(%rip), %rcx
	addq	%rax, %rcx
	movl	$1, %r8d
	subq	%rax, %r8
	movq	%rsp, %rdi
	callq	unix_path.pair.Comparison.rest_after_cut
	cmpb	$1, (%rsp)
	jne	.Lunix_path_BB32_36
	movq	8(%rsp), %rbx
	movq	16(%rsp), %r14
.Lunix_path_BB32_27:
	xorl	%edx, %edx
	jmp	.Lunix_path_BB32_29
	.p2align	4
.Lunix_path_BB32_28:
	addq	%rax, %rdx
	cmpq	$4, %rdx
	jae	.Lunix_path_BB32_34
.Lunix_path_BB32_29:
	movq	%rdx, %rax
	cmpq	%r14, %rdx
	jae	.Lunix_path_BB32_35
	movzbl	(%rbx,%rax), %ecx
	movl	$1, %edx
	cmpl	$47, %ecx
	je	.Lunix_path_BB32_28
	cmpl	$46, %ecx
	jne	.Lunix_path_BB32_35
	leaq	1(%rax), %rcx
	cmpq	%r14, %rcx
	je	.Lunix_path_BB32_28
	movl	$2, %edx
	cmpb	$47, (%rbx,%rcx)
	je	.Lunix_path_BB32_28
	jmp	.Lunix_path_BB32_35
.Lunix_path_BB32_20:
	cmpb	$46, %cl
	setne	%cl
	decq	%rax
	sete	%sil
	orb	%cl, %sil
	jne	.Lunix_path_BB32_36
	cmpb	$47, -1(%rbx,%rax)
	je	.Lunix_path_BB32_25
	jmp	.Lunix_path_BB32_36
.Lunix_path_BB32_22:
	movl	$1, %eax
	xorl	%esi, %esi
	cmpq	%rdx, %rax
	jb	.Lunix_path_BB32_15
	jmp	.Lunix_path_BB32_23
.Lunix_path_BB32_34:
	movq	%rbx, %rdi
	movq	%r14, %rsi
	callq	unix_path.filler.filler_end_from
.Lunix_path_BB32_35:
	addq	%rax, %rbx
	subq	%rax, %r14
.Lunix_path_BB32_36:
	movq	%rbx, %rax
	movq	%r14, %rdx
	addq	$24, %rsp
	popq	%rbx
	popq	%r14
	retq
.Lunix_path_func_end32:
	.size	path_archive.slot.without_dot, .Lunix_path_func_end32-path_archive.slot.without_dot
	.section	.rodata.cst16,"aM",@progbits,16
	.p2align	4, 0x0
.Lunix_path_CPI33_0:
	.zero	16,46
.Lunix_path_CPI33_1:
	.zero	16,47
	.section	.text.unix_path.filler.trimmed_blocks_len,"ax",@progbits
	.p2align	4
	.type	unix_path.filler.trimmed_blocks_len,@function
# unix_path::filler::trimmed_blocks_len
unix_path.filler.trimmed_blocks_len:
	.p2align	4
.Lunix_path_BB33_1:
	movq	%rsi, %rax
	cmpq	$17, %rsi
	jb	.Lunix_path_BB33_3
	leaq	-16(%rax), %rsi
	movdqu	-17(%rdi,%rax), %xmm0
	movdqu	-16(%rdi,%rax), %xmm1
	movdqa	.Lunix_path_CPI33_0(%rip), %xmm2
	pcmpeqb	%xmm1, %xmm2
	movdqa	.Lunix_path_CPI33_1(%rip), %xmm3
	pcmpeqb	%xmm3, %xmm1
	pcmpeqb	%xmm3, %xmm0
	pand	%xmm2, %xmm0
	por	%xmm1, %xmm0
	pmovmskb	%xmm0, %ecx
	cmpl	$65535, %ecx
	je	.Lunix_path_BB33_1
.Lunix_path_BB33_3:
	retq
.Lunix_path_func_end33:
	.size	unix_path.filler.trimmed_blocks_len, .Lunix_path_func_end33-unix_path.filler.trimmed_blocks_len
	.section	.text.unix_path.pair.Comparison.rest_after_cut,"ax",@progbits
	.p2align	4
	.type	unix_path.pair.Comparison.rest_after_cut,@function
# unix_path::pair::Comparison::rest_after_cut
unix_path.pair.Comparison.rest_after_cut:
	pushq	%r15
	pushq	%r14
	pushq	%r13
	pushq	%r12
	pushq	%rbx
	movq	%r8, %r12
	movq	%rcx, %r13
	movq	%rdx, %r14
	movq	%rsi, %r15
	movq	%rdi, %rbx
	jmp	.Lunix_path_BB34_3
	.p2align	4
.Lunix_path_BB34_1:
	testq	%rax, %rax
	je	.Lunix_path_BB34_56
.Lunix_path_BB34_2:
	addq	%rax, %r15
	subq	%rax, %r14
	addq	%rax, %r13
	subq	%rax, %r12
.Lunix_path_BB34_3:
	xorl	%edx, %edx
	jmp	.Lunix_path_BB34_5
	.p2align	4
.Lunix_path_BB34_4:
	addq	%rax, %rdx
	cmpq	$4, %rdx
	jae	.Lunix_path_BB34_10
.Lunix_path_BB34_5:
	movq	%rdx, %rax
	cmpq	%r14, %rdx
	jae	.Lunix_path_BB34_11
	movzbl	(%r15,%rax), %ecx
	movl	$1, %edx
	cmpl	$47, %ecx
	je	.Lunix_path_BB34_4
	cmpl	$46, %ecx
	jne	.Lunix_path_BB34_11
	leaq	1(%rax), %rcx
	cmpq	%r14, %rcx
	je	.Lunix_path_BB34_4
	movl	$2, %edx
	cmpb	$47, (%r15,%rcx)
	je	.Lunix_path_BB34_4
	jmp	.Lunix_path_BB34_11
.Lunix_path_BB34_10:
	movq	%r15, %rdi
	movq	%r14, %rsi
	callq	unix_path.filler.filler_end_from
	.p2align	4
.Lunix_path_BB34_11:
	addq	%rax, %r15
	subq	%rax, %r14
	xorl	%edx, %edx
	jmp	.Lunix_path_BB34_13
	.p2align	4
.Lunix_path_BB34_12:
	addq	%rax, %rdx
	cmpq	$4, %rdx
	jae	.Lunix_path_BB34_54
.Lunix_path_BB34_13:
	movq	%rdx, %rax
	cmpq	%r12, %rdx
	jae	.Lunix_path_BB34_18
	movzbl	(%r13,%rax), %ecx
	movl	$1, %edx
	cmpl	$47, %ecx
	je	.Lunix_path_BB34_12
	cmpl	$46, %ecx
	jne	.Lunix_path_BB34_18
	leaq	1(%rax), %rcx
	cmpq	%r12, %rcx
	je	.Lunix_path_BB34_12
	movl	$2, %edx
	cmpb	$47, (%r13,%rcx)
	je	.Lunix_path_BB34_12
	.p2align	4
.Lunix_path_BB34_18:
	subq	%rax, %r12
	je	.Lunix_path_BB34_55
.Lunix_path_BB34_19:
	addq	%rax, %r13
	cmpq	%r14, %r12
	movq	%r14, %rcx
	cmovbq	%r12, %rcx
	cmpq	$15, %rcx
	ja	.Lunix_path_BB34_25
	cmpq	$7, %rcx
	ja	.Lunix_path_BB34_34
	xorl	%eax, %eax
	testq	%r14, %r14
	je	.Lunix_path_BB34_36
	.p2align	4
.Lunix_path_BB34_22:
	movzbl	(%r15,%rax), %edx
	cmpb	(%r13,%rax), %dl
	jne	.Lunix_path_BB34_36
	incq	%rax
	cmpq	%rax, %rcx
	jne	.Lunix_path_BB34_22
	movq	%rcx, %rax
	cmpq	%r14, %rax
	jb	.Lunix_path_BB34_37
	jmp	.Lunix_path_BB34_45
	.p2align	4
.Lunix_path_BB34_25:
	movdqu	(%r15), %xmm0
	movdqu	(%r13), %xmm1
	pcmpeqb	%xmm0, %xmm1
	pmovmskb	%xmm1, %eax
	notl	%eax
	rep		bsfl	%eax, %eax
	cmpw	$16, %ax
	jb	.Lunix_path_BB34_36
	xorl	%edx, %edx
	cmpq	$64, %rcx
	jb	.Lunix_path_BB34_30
	movq	%rcx, %rax
	.p2align	4
.Lunix_path_BB34_28:
	movdqu	(%r15,%rdx), %xmm0
	movdqu	16(%r15,%rdx), %xmm1
	movdqu	32(%r15,%rdx), %xmm2
	movdqu	48(%r15,%rdx), %xmm3
	movdqu	(%r13,%rdx), %xmm4
	pcmpeqb	%xmm0, %xmm4
	movdqu	16(%r13,%rdx), %xmm0
	pcmpeqb	%xmm1, %xmm0
	pand	%xmm4, %xmm0
	movdqu	32(%r13,%rdx), %xmm1
	pcmpeqb	%xmm2, %xmm1
	movdqu	48(%r13,%rdx), %xmm2
	pcmpeqb	%xmm3, %xmm2
	pand	%xmm1, %xmm2
	pand	%xmm0, %xmm2
	pmovmskb	%xmm2, %esi
	cmpl	$65535, %esi
	jne	.Lunix_path_BB34_30
	addq	$64, %rdx
	addq	$-64, %rax
	cmpq	$63, %rax
	ja	.Lunix_path_BB34_28
.Lunix_path_BB34_30:
	addq	$-16, %rcx
	cmpq	%rcx, %rdx
	jae	.Lunix_path_BB34_33
	.p2align	4
.Lunix_path_BB34_31:
	movdqu	(%r15,%rdx), %xmm0
	movdqu	(%r13,%rdx), %xmm1
	pcmpeqb	%xmm0, %xmm1
	pmovmskb	%xmm1, %eax
	notl	%eax
	rep		bsfl	%eax, %eax
	cmpw	$15, %ax
	jbe	.Lunix_path_BB34_44
	addq	$16, %rdx
	cmpq	%rcx, %rdx
	jb	.Lunix_path_BB34_31
.Lunix_path_BB34_33:
	movdqu	(%r15,%rcx), %xmm0
	movdqu	(%r13,%rcx), %xmm1
	pcmpeqb	%xmm0, %xmm1
	pmovmskb	%xmm1, %eax
	notl	%eax
	rep		bsfl	%eax, %eax
	addq	%rcx, %rax
	cmpq	%r14, %rax
	jb	.Lunix_path_BB34_37
	jmp	.Lunix_path_BB34_45
	.p2align	4
.Lunix_path_BB34_34:
	movq	(%r15), %xmm0
	movq	(%r13), %xmm1
	pcmpeqb	%xmm0, %xmm1
	pmovmskb	%xmm1, %eax
	notl	%eax
	orl	$256, %eax
	rep		bsfl	%eax, %eax
	cmpb	$8, %al
	jb	.Lunix_path_BB34_36
	movq	-8(%r15,%rcx), %xmm0
	movq	-8(%r13,%rcx), %xmm1
	pcmpeqb	%xmm0, %xmm1
	pmovmskb	%xmm1, %eax
	notl	%eax
	orl	$256, %eax
	rep		bsfl	%eax, %eax
	addq	%rcx, %rax
	addq	$-8, %rax
	.p2align	4
.Lunix_path_BB34_36:
	cmpq	%r14, %rax
	jae	.Lunix_path_BB34_45
.Lunix_path_BB34_37:
	movzbl	(%r15,%rax), %ecx
	cmpw	$47, %cx
	jne	.Lunix_path_BB34_39
.Lunix_path_BB34_45:
	xorl	%ecx, %ecx
	cmpq	%r12, %rax
	jae	.Lunix_path_BB34_43
	jmp	.Lunix_path_BB34_46
	.p2align	4
.Lunix_path_BB34_39:
	cmpq	%r12, %rax
	jae	.Lunix_path_BB34_42
	cmpb	$46, %cl
	je	.Lunix_path_BB34_42
	movzbl	(%r13,%rax), %edx
	andb	$-2, %dl
	cmpb	$46, %dl
	jne	.Lunix_path_BB34_56
.Lunix_path_BB34_42:
	movzwl	%cx, %ecx
	incl	%ecx
	cmpq	%r12, %rax
	jae	.Lunix_path_BB34_43
.Lunix_path_BB34_46:
	movzbl	(%r13,%rax), %edx
	cmpw	$47, %dx
	jne	.Lunix_path_BB34_48
.Lunix_path_BB34_43:
	xorl	%edx, %edx
	cmpw	%dx, %cx
	je	.Lunix_path_BB34_1
	jmp	.Lunix_path_BB34_49
	.p2align	4
.Lunix_path_BB34_48:
	movzwl	%dx, %edx
	incl	%edx
	cmpw	%dx, %cx
	je	.Lunix_path_BB34_1
.Lunix_path_BB34_49:
	testq	%rax, %rax
	je	.Lunix_path_BB34_56
	movzbl	-1(%r15,%rax), %edx
	cmpb	$47, %dl
	je	.Lunix_path_BB34_2
	xorl	%ecx, %ecx
	cmpb	$46, %dl
	jne	.Lunix_path_BB34_57
	movl	$0, %edx
	movl	$0, %esi
	decq	%rax
	je	.Lunix_path_BB34_58
	cmpb	$47, -1(%r15,%rax)
	je	.Lunix_path_BB34_2
	jmp	.Lunix_path_BB34_56
.Lunix_path_BB34_44:
	movzwl	%ax, %eax
	addq	%rdx, %rax
	cmpq	%r14, %rax
	jb	.Lunix_path_BB34_37
	jmp	.Lunix_path_BB34_45
.Lunix_path_BB34_54:
	movq	%r13, %rdi
	movq	%r12, %rsi
	callq	unix_path.filler.filler_end_from
	subq	%rax, %r12
	jne	.Lunix_path_BB34_19
.Lunix_path_BB34_55:
	movl	$1, %ecx
	movq	%r15, %rdx
	movq	%r14, %rsi
	jmp	.Lunix_path_BB34_58
.Lunix_path_BB34_56:
	xorl	%ecx, %ecx
.Lunix_path_BB34_57:
	xorl	%edx, %edx
	xorl	%esi, %esi
.Lunix_path_BB34_58:
	movq	%rcx, (%rbx)
	movq	%rdx, 8(%rbx)
	movq	%rsi, 16(%rbx)
	popq	%rbx
	popq	%r12
	popq	%r13
	popq	%r14
	popq	%r15
	retq
.Lunix_path_func_end34:
	.size	unix_path.pair.Comparison.rest_after_cut, .Lunix_path_func_end34-unix_path.pair.Comparison.rest_after_cut
	.section	.text.core.slice.sort.unstable.quicksort.fd4dfef4a36ac24b.,"ax",@progbits
	.p2align	4
	.type	core.slice.sort.unstable.quicksort.fd4dfef4a36ac24b.,@function
# core::slice::sort::unstable::quicksort::<#fd4dfef4a36ac24b>
core.slice.sort.unstable.quicksort.fd4dfef4a36ac24b.:
	pushq	%rbp
	pushq	%r15
	pushq	%r14
	pushq	%r13
	pushq	%r12
	pushq	%rbx
	subq	$280, %rsp
	movq	%r8, %r14
	movq	%rdx, %r13
	movq	%rsi, %rbx
	movq	%rdi, %r15
	movq	%rdx, 272(%rsp)
	subq	%rsi, %r13
	cmpq	$17, %r13
	jb	.Lunix_path_BB35_54
	movl	%ecx, %ebp
	leaq	64(%r15), %rax
	movq	%rax, 200(%rsp)
	leaq	104(%r15), %rax
	movq	%rax, 192(%rsp)
	movq	%r14, 72(%rsp)
	movq	%r15, 56(%rsp)
	jmp	.Lunix_path_BB35_2
	.p2align	4
.Lunix_path_BB35_51:
	leaq	(,%rdx,8), %rax
	leaq	(%rax,%rax,4), %rax
	movups	(%rdi,%rax), %xmm0
	movups	16(%rdi,%rax), %xmm1
	movq	32(%rdi,%rax), %rcx
	movq	%rcx, 32(%rdi)
	movups	%xmm1, 16(%rdi)
	movups	%xmm0, (%rdi)
.Lunix_path_BB35_52:
	movq	136(%rsp), %rcx
	movq	%rcx, (%rdi,%rax)
	movq	128(%rsp), %rcx
	movq	%rcx, 8(%rdi,%rax)
	movq	32(%rsp), %rcx
	movq	%rcx, 16(%rdi,%rax)
	movaps	240(%rsp), %xmm0
	movups	%xmm0, 24(%rdi,%rax)
	movq	8(%rsp), %rax
	movq	%rax, (%r14)
	movq	40(%rsp), %rax
	movq	%rax, 8(%r14)
	movq	96(%rsp), %rbx
	addq	%rbx, %rdx
	movq	56(%rsp), %r15
	movq	%r15, %rdi
	movq	%rbx, %rsi
	movl	%ebp, %ecx
	movq	%r14, %r8
	callq	core.slice.sort.unstable.quicksort.fd4dfef4a36ac24b.
.Lunix_path_BB35_53:
	addq	%r13, %rbx
	movq	272(%rsp), %r13
	subq	%rbx, %r13
	cmpq	$16, %r13
	jbe	.Lunix_path_BB35_54
.Lunix_path_BB35_2:
	testl	%ebp, %ebp
	je	.Lunix_path_BB35_3
	movq	%r13, %r8
	shrq	$3, %r8
	movq	%r13, %rcx
	andq	$-8, %rcx
	subq	%r8, %rcx
	addq	%rbx, %rcx
	leaq	(%rbx,%r8,4), %rdx
	movq	%r15, %rdi
	movq	%rbx, %rsi
	cmpq	$63, %r13
	ja	.Lunix_path_BB35_10
	movq	%r14, %r8
	callq	core.slice.sort.pivot.median_of_three.fd4dfef4a36ac24b.
	jmp	.Lunix_path_BB35_11
	.p2align	4
.Lunix_path_BB35_10:
	movq	%r14, %r9
	callq	core.slice.sort.pivot.median_of_medians.fd4dfef4a36ac24b.
.Lunix_path_BB35_11:
	movq	%rax, %r12
	decl	%ebp
	movl	%ebp, 52(%rsp)
	testq	%rbx, %rbx
	movq	%r13, 16(%rsp)
	movq	%rbx, 96(%rsp)
	je	.Lunix_path_BB35_12
	movq	(%r14), %r15
	movq	8(%r14), %rbp
	leaq	(,%rbx,8), %rax
	leaq	(%rax,%rax,4), %r13
	movq	56(%rsp), %rax
	movq	-40(%rax,%r13), %rax
	movq	56(%rsp), %rcx
	movq	-32(%rcx,%r13), %rsi
	cmpq	%rsi, %rbp
	cmovbq	%rbp, %rsi
	cmpq	%rax, %rsi
	cmovbq	%rsi, %rax
	leaq	(%r15,%rax), %rdi
	subq	%rax, %rsi
	callq	path_archive.slot.without_dot
	movq	%rax, %r14
	movq	%rdx, %rbx
	movq	56(%rsp), %rax
	leaq	(%r12,%r12,4), %rdx
	movq	(%rax,%rdx,8), %rax
	movq	56(%rsp), %rcx
	movq	8(%rcx,%rdx,8), %rsi
	cmpq	%rsi, %rbp
	cmovbq	%rbp, %rsi
	movq	%r13, %rbp
	cmpq	%rax, %rsi
	cmovbq	%rsi, %rax
	addq	%rax, %r15
	subq	%rax, %rsi
	movq	%r15, %rdi
	movq	56(%rsp), %r15
	callq	path_archive.slot.without_dot
	movq	%rdx, %rcx
	movq	%r14, %rdi
	movq	%rbx, %rsi
	movq	%rax, %rdx
	callq	unix_path.compare.compare
	movq	-24(%r15,%r13), %rcx
	movq	-16(%r15,%r13), %rdx
	leaq	(%r12,%r12,4), %r8
	movq	24(%r15,%r8,8), %rsi
	cmpq	%rsi, %rdx
	setae	%dil
	addb	%dil, %dil
	cmpq	%rsi, %rdx
	movq	16(%r15,%r8,8), %rdx
	movzbl	%dil, %esi
	movl	$1, %edi
	cmovnel	%esi, %edi
	cmpq	%rdx, %rcx
	setae	%sil
	addb	%sil, %sil
	cmpq	%rdx, %rcx
	movzbl	%sil, %ecx
	cmovel	%edi, %ecx
	cmpb	$1, %al
	movzbl	%al, %eax
	cmovel	%ecx, %eax
	testb	%al, %al
	je	.Lunix_path_BB35_21
	leaq	(%r15,%rbp), %rdx
	subq	96(%rsp), %r12
	je	.Lunix_path_BB35_24
	leaq	(%r12,%r12,4), %rax
	movq	32(%rdx), %rcx
	movq	%rcx, 176(%rsp)
	movups	(%rdx), %xmm0
	movups	16(%rdx), %xmm1
	movaps	%xmm1, 160(%rsp)
	movaps	%xmm0, 144(%rsp)
	movq	32(%rdx,%rax,8), %rcx
	movups	(%rdx,%rax,8), %xmm0
	movups	16(%rdx,%rax,8), %xmm1
	movups	%xmm0, (%rdx)
	movups	%xmm1, 16(%rdx)
	movq	%rcx, 32(%rdx)
	movq	176(%rsp), %rcx
	movq	%rcx, 32(%rdx,%rax,8)
	movaps	144(%rsp), %xmm0
	movaps	160(%rsp), %xmm1
	movups	%xmm1, 16(%rdx,%rax,8)
	movups	%xmm0, (%rdx,%rax,8)
.Lunix_path_BB35_24:
	movq	72(%rsp), %rax
	movq	(%rax), %rcx
	movq	8(%rax), %rax
	movq	(%rdx), %r9
	movq	8(%rdx), %rsi
	movq	16(%rdx), %r8
	movups	24(%rdx), %xmm0
	movaps	%xmm0, 240(%rsp)
	movq	%rdx, %r15
	movq	24(%rdx), %r10
	cmpq	%rsi, %rax
	movq	%rsi, 128(%rsp)
	movq	%rax, 32(%rsp)
	cmovbq	%rax, %rsi
	cmpq	%r9, %rsi
	movq	%r9, 136(%rsp)
	movq	%r9, %rax
	cmovbq	%rsi, %rax
	movq	%rcx, 8(%rsp)
	leaq	(%rcx,%rax), %rdi
	subq	%rax, %rsi
	movq	200(%rsp), %rax
	movq	%rbp, 120(%rsp)
	addq	%rax, %rbp
	movl	$1, %r13d
	movq	%r8, 40(%rsp)
	movq	%rsi, 24(%rsp)
	movq	%r10, 80(%rsp)
	.p2align	4
.Lunix_path_BB35_25:
	movq	%rdi, %r12
	callq	path_archive.slot.without_dot
	movq	%rax, %rbx
	movq	%rdx, %r14
	movq	-24(%rbp), %rax
	movq	-16(%rbp), %rsi
	movq	32(%rsp), %rcx
	cmpq	%rsi, %rcx
	cmovbq	%rcx, %rsi
	cmpq	%rax, %rsi
	cmovbq	%rsi, %rax
	movq	8(%rsp), %rcx
	leaq	(%rcx,%rax), %rdi
	subq	%rax, %rsi
	callq	path_archive.slot.without_dot
	movq	%rdx, %rcx
	movq	%rbx, %rdi
	movq	%r14, %rsi
	movq	%rax, %rdx
	callq	unix_path.compare.compare
	movq	80(%rsp), %r10
	movq	40(%rsp), %r8
	movq	(%rbp), %rcx
	cmpq	%rcx, %r10
	setae	%dl
	addb	%dl, %dl
	cmpq	%rcx, %r10
	movq	-8(%rbp), %rcx
	movzbl	%dl, %edx
	movl	$1, %esi
	cmovnel	%edx, %esi
	cmpq	%rcx, %r8
	setae	%dl
	addb	%dl, %dl
	cmpq	%rcx, %r8
	movzbl	%dl, %ecx
	cmovel	%esi, %ecx
	cmpb	$1, %al
	movzbl	%al, %eax
	cmovel	%ecx, %eax
	testb	%al, %al
	je	.Lunix_path_BB35_26
	incq	%r13
	addq	$40, %rbp
	cmpq	%r13, 16(%rsp)
	movq	24(%rsp), %rsi
	movq	%r12, %rdi
	jne	.Lunix_path_BB35_25
	movq	16(%rsp), %rax
	movq	%rax, %r13
	jmp	.Lunix_path_BB35_29
	.p2align	4
.Lunix_path_BB35_12:
	xorl	%ebp, %ebp
	leaq	(%r15,%rbp), %rdx
	subq	%rbx, %r12
	je	.Lunix_path_BB35_15
.Lunix_path_BB35_14:
	leaq	(%r12,%r12,4), %rax
	movq	32(%rdx), %rcx
	movq	%rcx, 176(%rsp)
	movups	(%rdx), %xmm0
	movups	16(%rdx), %xmm1
	movaps	%xmm1, 160(%rsp)
	movaps	%xmm0, 144(%rsp)
	movq	32(%rdx,%rax,8), %rcx
	movups	(%rdx,%rax,8), %xmm0
	movups	16(%rdx,%rax,8), %xmm1
	movups	%xmm0, (%rdx)
	movups	%xmm1, 16(%rdx)
	movq	%rcx, 32(%rdx)
	movq	176(%rsp), %rcx
	movq	%rcx, 32(%rdx,%rax,8)
	movaps	144(%rsp), %xmm0
	movaps	160(%rsp), %xmm1
	movups	%xmm1, 16(%rdx,%rax,8)
	movups	%xmm0, (%rdx,%rax,8)
.Lunix_path_BB35_15:
	movq	(%r14), %rcx
	movq	8(%r14), %rax
	movq	(%rdx), %rsi
	movq	8(%rdx), %rdi
	movq	16(%rdx), %r8
	movq	%r8, 32(%rsp)
	movups	24(%rdx), %xmm0
	movaps	%xmm0, 240(%rsp)
	movq	%rdx, 64(%rsp)
	movq	24(%rdx), %r12
	cmpq	%rdi, %rax
	movq	%rdi, 128(%rsp)
	movq	%rax, 40(%rsp)
	cmovbq	%rax, %rdi
	cmpq	%rsi, %rdi
	movq	%rsi, 136(%rsp)
	movq	%rsi, %rax
	cmovbq	%rdi, %rax
	movq	%rcx, 8(%rsp)
	addq	%rax, %rcx
	movq	%rcx, 80(%rsp)
	subq	%rax, %rdi
	movq	%rdi, 24(%rsp)
	movq	200(%rsp), %rax
	movq	%rbp, %r15
	addq	%rax, %rbp
	movl	$1, %r13d
	.p2align	4
.Lunix_path_BB35_16:
	movq	-24(%rbp), %rax
	movq	-16(%rbp), %rsi
	movq	40(%rsp), %rcx
	cmpq	%rsi, %rcx
	cmovbq	%rcx, %rsi
	cmpq	%rax, %rsi
	cmovbq	%rsi, %rax
	movq	8(%rsp), %rcx
	leaq	(%rcx,%rax), %rdi
	subq	%rax, %rsi
	callq	path_archive.slot.without_dot
	movq	%rax, %rbx
	movq	%rdx, %r14
	movq	80(%rsp), %rdi
	movq	24(%rsp), %rsi
	callq	path_archive.slot.without_dot
	movq	%rdx, %rcx
	movq	%rbx, %rdi
	movq	%r14, %rsi
	movq	%rax, %rdx
	callq	unix_path.compare.compare
	movq	-8(%rbp), %rcx
	movq	(%rbp), %rdx
	cmpq	%r12, %rdx
	setae	%sil
	addb	%sil, %sil
	cmpq	%r12, %rdx
	movzbl	%sil, %edx
	movl	$1, %esi
	cmovnel	%edx, %esi
	movq	32(%rsp), %rdi
	cmpq	%rdi, %rcx
	setae	%dl
	addb	%dl, %dl
	cmpq	%rdi, %rcx
	movzbl	%dl, %ecx
	cmovel	%esi, %ecx
	cmpb	$1, %al
	je	.Lunix_path_BB35_18
	movzbl	%al, %ecx
.Lunix_path_BB35_18:
	testb	%cl, %cl
	jne	.Lunix_path_BB35_19
	incq	%r13
	addq	$40, %rbp
	cmpq	%r13, 16(%rsp)
	jne	.Lunix_path_BB35_16
	movq	16(%rsp), %rax
	movq	%rax, %r13
	jmp	.Lunix_path_BB35_41
	.p2align	4
.Lunix_path_BB35_19:
	movq	16(%rsp), %rax
.Lunix_path_BB35_41:
	leaq	-1(%rax), %rdi
	cmpq	%rdi, %r13
	movq	72(%rsp), %r14
	movl	52(%rsp), %ebp
	jae	.Lunix_path_BB35_42
	leaq	1(%r13), %rax
	leaq	(%rax,%rax,4), %rcx
	movq	64(%rsp), %rdx
	movq	(%rdx,%rcx,8), %rsi
	movq	%rsi, 120(%rsp)
	movq	8(%rdx,%rcx,8), %rsi
	movq	%rsi, 112(%rsp)
	movq	16(%rdx,%rcx,8), %rsi
	movq	%rsi, 88(%rsp)
	movups	24(%rdx,%rcx,8), %xmm0
	movaps	%xmm0, 224(%rsp)
	movq	24(%rdx,%rcx,8), %rcx
	movq	%rcx, 208(%rsp)
	cmpq	%rdi, %rax
	movq	%rdi, 104(%rsp)
	jae	.Lunix_path_BB35_48
	leaq	(,%r13,4), %rax
	addq	%r13, %rax
	leaq	(%r15,%rax,8), %rbp
	addq	192(%rsp), %rbp
	movq	16(%rsp), %r15
	subq	%r13, %r15
	addq	$-2, %r15
	jmp	.Lunix_path_BB35_45
	.p2align	4
.Lunix_path_BB35_47:
	leaq	(,%r13,4), %rax
	addq	%r13, %rax
	movq	64(%rsp), %rsi
	movq	32(%rsi,%rax,8), %rdx
	movups	(%rsi,%rax,8), %xmm0
	movups	16(%rsi,%rax,8), %xmm1
	movups	%xmm0, -64(%rbp)
	movups	%xmm1, -48(%rbp)
	movq	%rdx, -32(%rbp)
	movups	-24(%rbp), %xmm0
	movups	-8(%rbp), %xmm1
	movq	8(%rbp), %rdx
	movq	%rdx, 32(%rsi,%rax,8)
	movups	%xmm1, 16(%rsi,%rax,8)
	movups	%xmm0, (%rsi,%rax,8)
	cmpb	$1, %cl
	adcq	$0, %r13
	addq	$40, %rbp
	decq	%r15
	je	.Lunix_path_BB35_48
.Lunix_path_BB35_45:
	movq	-24(%rbp), %rax
	movq	-16(%rbp), %rsi
	movq	40(%rsp), %rcx
	cmpq	%rsi, %rcx
	cmovbq	%rcx, %rsi
	cmpq	%rax, %rsi
	cmovbq	%rsi, %rax
	movq	8(%rsp), %rcx
	leaq	(%rcx,%rax), %rdi
	subq	%rax, %rsi
	callq	path_archive.slot.without_dot
	movq	%rax, %rbx
	movq	%rdx, %r14
	movq	80(%rsp), %rdi
	movq	24(%rsp), %rsi
	callq	path_archive.slot.without_dot
	movq	%rdx, %rcx
	movq	%rbx, %rdi
	movq	%r14, %rsi
	movq	%rax, %rdx
	callq	unix_path.compare.compare
	movq	(%rbp), %rcx
	cmpq	%r12, %rcx
	setae	%dl
	addb	%dl, %dl
	cmpq	%r12, %rcx
	movq	-8(%rbp), %rcx
	movzbl	%dl, %edx
	movl	$1, %esi
	cmovnel	%edx, %esi
	movq	32(%rsp), %rdi
	cmpq	%rdi, %rcx
	setae	%dl
	addb	%dl, %dl
	cmpq	%rdi, %rcx
	movzbl	%dl, %ecx
	cmovel	%esi, %ecx
	cmpb	$1, %al
	je	.Lunix_path_BB35_47
	movzbl	%al, %ecx
	jmp	.Lunix_path_BB35_47
	.p2align	4
.Lunix_path_BB35_42:
	movq	64(%rsp), %rdi
	movq	%r13, %rdx
	decq	%rdx
	jne	.Lunix_path_BB35_51
	jmp	.Lunix_path_BB35_50
	.p2align	4
.Lunix_path_BB35_48:
	movq	208(%rsp), %rcx
	cmpq	%r12, %rcx
	setae	%al
	addb	%al, %al
	cmpq	%r12, %rcx
	movzbl	%al, %eax
	movl	$1, %ecx
	cmovnel	%eax, %ecx
	movq	32(%rsp), %rdx
	movq	88(%rsp), %rsi
	cmpq	%rdx, %rsi
	setae	%al
	addb	%al, %al
	cmpq	%rdx, %rsi
	movzbl	%al, %ebp
	cmovel	%ecx, %ebp
	movq	40(%rsp), %rax
	movq	112(%rsp), %r12
	cmpq	%r12, %rax
	movq	%r12, %rsi
	cmovbq	%rax, %rsi
	movq	120(%rsp), %r15
	cmpq	%r15, %rsi
	movq	%r15, %rax
	cmovbq	%rsi, %rax
	movq	8(%rsp), %rcx
	leaq	(%rcx,%rax), %rdi
	subq	%rax, %rsi
	callq	path_archive.slot.without_dot
	movq	%rax, %rbx
	movq	%rdx, %r14
	movq	80(%rsp), %rdi
	movq	24(%rsp), %rsi
	callq	path_archive.slot.without_dot
	movq	%rdx, %rcx
	movq	%rbx, %rdi
	movq	%r14, %rsi
	movq	%rax, %rdx
	callq	unix_path.compare.compare
	cmpb	$1, %al
	movzbl	%al, %eax
	cmovel	%ebp, %eax
	leaq	(%r13,%r13,4), %rcx
	movq	104(%rsp), %rdx
	leaq	(%rdx,%rdx,4), %rdx
	movq	64(%rsp), %rdi
	movq	32(%rdi,%rcx,8), %rsi
	movups	(%rdi,%rcx,8), %xmm0
	movups	16(%rdi,%rcx,8), %xmm1
	movups	%xmm0, (%rdi,%rdx,8)
	movups	%xmm1, 16(%rdi,%rdx,8)
	movq	%rsi, 32(%rdi,%rdx,8)
	movq	%r15, (%rdi,%rcx,8)
	movq	%r12, 8(%rdi,%rcx,8)
	movq	88(%rsp), %rdx
	movq	%rdx, 16(%rdi,%rcx,8)
	movaps	224(%rsp), %xmm0
	movups	%xmm0, 24(%rdi,%rcx,8)
	cmpb	$1, %al
	adcq	$0, %r13
	movq	72(%rsp), %r14
	movl	52(%rsp), %ebp
	movq	%r13, %rdx
	decq	%rdx
	jne	.Lunix_path_BB35_51
.Lunix_path_BB35_50:
	xorl	%eax, %eax
	jmp	.Lunix_path_BB35_52
	.p2align	4
.Lunix_path_BB35_21:
	movq	72(%rsp), %r14
	movq	96(%rsp), %rbx
	leaq	(%r15,%rbp), %rdx
	subq	%rbx, %r12
	jne	.Lunix_path_BB35_14
	jmp	.Lunix_path_BB35_15
.Lunix_path_BB35_26:
	movq	16(%rsp), %rax
	movq	24(%rsp), %rsi
	movq	%r12, %rdi
.Lunix_path_BB35_29:
	leaq	-1(%rax), %rbx
	cmpq	%rbx, %r13
	movq	72(%rsp), %r14
	movl	52(%rsp), %ebp
	movq	%r15, %r9
	jae	.Lunix_path_BB35_30
	leaq	1(%r13), %rax
	leaq	(%rax,%rax,4), %rcx
	movq	(%r9,%rcx,8), %rdx
	movq	8(%r9,%rcx,8), %r11
	movq	%rbx, 88(%rsp)
	movq	16(%r9,%rcx,8), %rbx
	movq	%rbx, 104(%rsp)
	movups	24(%r9,%rcx,8), %xmm0
	movq	24(%r9,%rcx,8), %rcx
	movq	%rcx, 264(%rsp)
	cmpq	88(%rsp), %rax
	movq	%rdx, 112(%rsp)
	movq	%r11, 224(%rsp)
	movaps	%xmm0, 208(%rsp)
	movq	%r9, 64(%rsp)
	jae	.Lunix_path_BB35_34
	leaq	(,%r13,4), %rax
	addq	%r13, %rax
	movq	120(%rsp), %rcx
	leaq	(%rcx,%rax,8), %rbp
	addq	192(%rsp), %rbp
	movq	16(%rsp), %r15
	subq	%r13, %r15
	addq	$-2, %r15
	.p2align	4
.Lunix_path_BB35_33:
	movq	%r12, %rdi
	callq	path_archive.slot.without_dot
	movq	%rax, %rbx
	movq	%rdx, %r14
	movq	-24(%rbp), %rax
	movq	-16(%rbp), %rsi
	movq	32(%rsp), %rcx
	cmpq	%rsi, %rcx
	cmovbq	%rcx, %rsi
	cmpq	%rax, %rsi
	cmovbq	%rsi, %rax
	movq	8(%rsp), %rcx
	leaq	(%rcx,%rax), %rdi
	subq	%rax, %rsi
	callq	path_archive.slot.without_dot
	movq	%rdx, %rcx
	movq	%rbx, %rdi
	movq	%r14, %rsi
	movq	%rax, %rdx
	callq	unix_path.compare.compare
	movq	80(%rsp), %r10
	movq	%r12, %rdi
	movq	40(%rsp), %r8
	movq	(%rbp), %rcx
	cmpq	%rcx, %r10
	setae	%dl
	addb	%dl, %dl
	cmpq	%rcx, %r10
	movq	-8(%rbp), %rcx
	movzbl	%dl, %edx
	movl	$1, %esi
	cmovnel	%edx, %esi
	cmpq	%rcx, %r8
	setae	%dl
	addb	%dl, %dl
	cmpq	%rcx, %r8
	movzbl	%dl, %ecx
	cmovel	%esi, %ecx
	cmpb	$1, %al
	movzbl	%al, %eax
	cmovel	%ecx, %eax
	leaq	(%r13,%r13,4), %rcx
	movq	64(%rsp), %r9
	movq	32(%r9,%rcx,8), %rdx
	movups	(%r9,%rcx,8), %xmm0
	movups	16(%r9,%rcx,8), %xmm1
	movups	%xmm0, -64(%rbp)
	movups	%xmm1, -48(%rbp)
	movq	%rdx, -32(%rbp)
	movups	-24(%rbp), %xmm0
	movups	-8(%rbp), %xmm1
	movq	8(%rbp), %rdx
	movq	%rdx, 32(%r9,%rcx,8)
	movq	24(%rsp), %rsi
	movups	%xmm1, 16(%r9,%rcx,8)
	movups	%xmm0, (%r9,%rcx,8)
	cmpb	$1, %al
	sbbq	$-1, %r13
	addq	$40, %rbp
	decq	%r15
	jne	.Lunix_path_BB35_33
.Lunix_path_BB35_34:
	movq	264(%rsp), %rcx
	cmpq	%rcx, %r10
	setae	%al
	addb	%al, %al
	cmpq	%rcx, %r10
	movzbl	%al, %eax
	movl	$1, %ecx
	cmovnel	%eax, %ecx
	movq	104(%rsp), %r14
	cmpq	%r14, %r8
	setae	%al
	addb	%al, %al
	cmpq	%r14, %r8
	movzbl	%al, %ebp
	cmovel	%ecx, %ebp
	callq	path_archive.slot.without_dot
	movq	%rax, 16(%rsp)
	movq	%rdx, 24(%rsp)
	movq	224(%rsp), %r12
	movq	32(%rsp), %rbx
	cmpq	%r12, %rbx
	movq	%r12, %rsi
	cmovbq	%rbx, %rsi
	movq	112(%rsp), %r15
	cmpq	%r15, %rsi
	movq	%r15, %rax
	cmovbq	%rsi, %rax
	movq	8(%rsp), %rcx
	leaq	(%rcx,%rax), %rdi
	subq	%rax, %rsi
	callq	path_archive.slot.without_dot
	movq	%rdx, %rcx
	movq	16(%rsp), %rdi
	movq	24(%rsp), %rsi
	movq	%rax, %rdx
	callq	unix_path.compare.compare
	cmpb	$1, %al
	movzbl	%al, %eax
	cmovel	%ebp, %eax
	leaq	(%r13,%r13,4), %rcx
	movq	88(%rsp), %rdx
	leaq	(%rdx,%rdx,4), %rdx
	movq	64(%rsp), %r9
	movq	32(%r9,%rcx,8), %rsi
	movups	(%r9,%rcx,8), %xmm0
	movups	16(%r9,%rcx,8), %xmm1
	movups	%xmm0, (%r9,%rdx,8)
	movups	%xmm1, 16(%r9,%rdx,8)
	movq	%rsi, 32(%r9,%rdx,8)
	movq	%r15, (%r9,%rcx,8)
	movq	%r12, 8(%r9,%rcx,8)
	movq	%r14, 16(%r9,%rcx,8)
	movaps	208(%rsp), %xmm0
	movups	%xmm0, 24(%r9,%rcx,8)
	cmpb	$1, %al
	sbbq	$-1, %r13
	movq	72(%rsp), %r14
	movl	52(%rsp), %ebp
	movq	8(%rsp), %rdx
	movq	%r13, %rax
	decq	%rax
	je	.Lunix_path_BB35_36
.Lunix_path_BB35_37:
	shlq	$3, %rax
	leaq	(%rax,%rax,4), %rax
	movups	(%r9,%rax), %xmm0
	movups	16(%r9,%rax), %xmm1
	movq	32(%r9,%rax), %rcx
	movq	%rcx, 32(%r9)
	movups	%xmm1, 16(%r9)
	movups	%xmm0, (%r9)
	jmp	.Lunix_path_BB35_38
.Lunix_path_BB35_30:
	movq	8(%rsp), %rdx
	movq	32(%rsp), %rbx
	movq	%r13, %rax
	decq	%rax
	jne	.Lunix_path_BB35_37
.Lunix_path_BB35_36:
	xorl	%eax, %eax
.Lunix_path_BB35_38:
	movq	40(%rsp), %rdi
	movq	136(%rsp), %rcx
	movq	%rcx, (%r9,%rax)
	movq	128(%rsp), %rcx
	movq	%rcx, 8(%r9,%rax)
	movq	%rdi, 16(%r9,%rax)
	movaps	240(%rsp), %xmm0
	movups	%xmm0, 24(%r9,%rax)
	movq	%rdx, (%r14)
	movq	%rbx, 8(%r14)
	movq	56(%rsp), %r15
	movq	96(%rsp), %rbx
	jmp	.Lunix_path_BB35_53
.Lunix_path_BB35_54:
	leaq	(%rbx,%rbx,4), %rax
	leaq	(%r15,%rax,8), %rdi
	movq	%r13, %rsi
	movq	%r14, %rdx
	addq	$280, %rsp
	popq	%rbx
	popq	%r12
	popq	%r13
	popq	%r14
	popq	%r15
	popq	%rbp
	jmp	core.slice.sort.small.insertion_sort.fd4dfef4a36ac24b.
.Lunix_path_BB35_3:
	shlq	$3, %rbx
	leaq	(%rbx,%rbx,4), %rbx
	addq	%rbx, %r15
	movq	%r13, %r12
	shrq	%r12
	decq	%r12
	.p2align	4
.Lunix_path_BB35_4:
	movq	%r15, %rdi
	movq	%r12, %rsi
	movq	%r13, %rdx
	movq	%r14, %rcx
	callq	core.slice.sort.heap.sift.fd4dfef4a36ac24b.
	addq	$-1, %r12
	jb	.Lunix_path_BB35_4
	leaq	(,%r13,4), %rax
	addq	%r13, %rax
	leaq	(%rbx,%rax,8), %rax
	movq	56(%rsp), %rcx
	leaq	(%rcx,%rax), %rbx
	addq	$-40, %rbx
	.p2align	4
.Lunix_path_BB35_6:
	decq	%r13
	movq	32(%r15), %rax
	movq	%rax, 176(%rsp)
	movups	(%r15), %xmm0
	movups	16(%r15), %xmm1
	movaps	%xmm1, 160(%rsp)
	movaps	%xmm0, 144(%rsp)
	movq	32(%rbx), %rax
	movups	(%rbx), %xmm0
	movups	16(%rbx), %xmm1
	movups	%xmm0, (%r15)
	movups	%xmm1, 16(%r15)
	movq	%rax, 32(%r15)
	movq	176(%rsp), %rax
	movq	%rax, 32(%rbx)
	movaps	144(%rsp), %xmm0
	movaps	160(%rsp), %xmm1
	movups	%xmm1, 16(%rbx)
	movups	%xmm0, (%rbx)
	movq	%r15, %rdi
	xorl	%esi, %esi
	movq	%r13, %rdx
	movq	%r14, %rcx
	callq	core.slice.sort.heap.sift.fd4dfef4a36ac24b.
	addq	$-40, %rbx
	cmpq	$1, %r13
	ja	.Lunix_path_BB35_6
	addq	$280, %rsp
	popq	%rbx
	popq	%r12
	popq	%r13
	popq	%r14
	popq	%r15
	popq	%rbp
	retq
.Lunix_path_func_end35:
	.size	core.slice.sort.unstable.quicksort.fd4dfef4a36ac24b., .Lunix_path_func_end35-core.slice.sort.unstable.quicksort.fd4dfef4a36ac24b.
	.section	.text.core.slice.sort.heap.sift.fd4dfef4a36ac24b.,"ax",@progbits
	.p2align	4
	.type	core.slice.sort.heap.sift.fd4dfef4a36ac24b.,@function
# core::slice::sort::heap::sift::<#fd4dfef4a36ac24b>
core.slice.sort.heap.sift.fd4dfef4a36ac24b.:
	pushq	%rbp
	pushq	%r15
	pushq	%r14
	pushq	%r13
	pushq	%r12
	pushq	%rbx
	subq	$104, %rsp
	movq	%rcx, 16(%rsp)
	movq	%rdx, 88(%rsp)
	shrq	%rdx
	movq	%rdx, 80(%rsp)
	cmpq	%rdx, %rsi
	jae	.Lunix_path_BB36_26
	movq	%rdi, %r15
	jmp	.Lunix_path_BB36_2
	.p2align	4
.Lunix_path_BB36_22:
	movq	32(%rax), %rdx
	movq	%rdx, 64(%rsp)
	movups	(%rax), %xmm0
	movups	16(%rax), %xmm1
	movaps	%xmm1, 48(%rsp)
	movaps	%xmm0, 32(%rsp)
	movq	32(%rcx), %rdx
	movups	(%rcx), %xmm0
	movups	16(%rcx), %xmm1
	movups	%xmm0, (%rax)
	movups	%xmm1, 16(%rax)
	movq	%rdx, 32(%rax)
	movq	64(%rsp), %rax
	movq	%rax, 32(%rcx)
	movaps	32(%rsp), %xmm0
	movaps	48(%rsp), %xmm1
	movups	%xmm1, 16(%rcx)
	movups	%xmm0, (%rcx)
.Lunix_path_BB36_25:
	cmpq	80(%rsp), %rsi
	jae	.Lunix_path_BB36_26
.Lunix_path_BB36_2:
	leaq	1(,%rsi,2), %rdx
	leaq	2(,%rsi,2), %r12
	cmpq	88(%rsp), %r12
	movq	%rsi, 24(%rsp)
	je	.Lunix_path_BB36_14
	movq	16(%rsp), %rax
	movq	8(%rax), %r13
	leaq	(%rdx,%rdx,4), %rcx
	movq	8(%r15,%rcx,8), %rax
	movq	%r13, %rsi
	cmpq	%rax, %r13
	jb	.Lunix_path_BB36_5
	movq	%rax, %rsi
.Lunix_path_BB36_5:
	movq	16(%rsp), %rax
	movq	(%rax), %rbp
	movq	%rcx, 8(%rsp)
	movq	(%r15,%rcx,8), %rax
	cmpq	%rax, %rsi
	cmovbq	%rsi, %rax
	leaq	(%rax,%rbp), %rdi
	subq	%rax, %rsi
	callq	path_archive.slot.without_dot
	movq	%rax, %r14
	movq	%rdx, %rbx
	leaq	(%r12,%r12,4), %rax
	movq	%rax, %rcx
	movq	8(%r15,%rax,8), %rax
	cmpq	%rax, %r13
	jb	.Lunix_path_BB36_7
	movq	%rax, %r13
.Lunix_path_BB36_7:
	movq	(%r15,%rcx,8), %rax
	cmpq	%rax, %r13
	cmovbq	%r13, %rax
	addq	%rax, %rbp
	subq	%rax, %r13
	movq	%rbp, %rdi
	movq	%r13, %rsi
	callq	path_archive.slot.without_dot
	movq	%rdx, %rcx
	movq	%r14, %rdi
	movq	%rbx, %rsi
	movq	%rax, %rdx
	callq	unix_path.compare.compare
	movq	8(%rsp), %rdx
	movq	16(%r15,%rdx,8), %rcx
	movq	24(%r15,%rdx,8), %rdi
	leaq	(%r12,%r12,4), %rdx
	movq	24(%r15,%rdx,8), %r8
	movq	16(%r15,%rdx,8), %rdx
	movl	$1, %esi
	cmpq	%r8, %rdi
	setae	%dil
	je	.Lunix_path_BB36_9
	addb	%dil, %dil
	movzbl	%dil, %esi
.Lunix_path_BB36_9:
	cmpq	%rdx, %rcx
	setae	%dil
	addb	%dil, %dil
	cmpq	%rdx, %rcx
	movzbl	%dil, %ecx
	cmovel	%esi, %ecx
	cmpb	$1, %al
	movq	24(%rsp), %rsi
	leaq	1(%rsi,%rsi), %rdx
	je	.Lunix_path_BB36_11
	movzbl	%al, %ecx
.Lunix_path_BB36_11:
	testb	%cl, %cl
	je	.Lunix_path_BB36_13
	movq	%rdx, %r12
.Lunix_path_BB36_13:
	movq	%r12, %rdx
.Lunix_path_BB36_14:
	movq	16(%rsp), %rax
	movq	(%rax), %r13
	movq	8(%rax), %rbp
	leaq	(%rsi,%rsi,4), %rcx
	movq	(%r15,%rcx,8), %rax
	movq	%rcx, 96(%rsp)
	movq	8(%r15,%rcx,8), %rcx
	movq	%rbp, %rsi
	cmpq	%rcx, %rbp
	jb	.Lunix_path_BB36_16
	movq	%rcx, %rsi
.Lunix_path_BB36_16:
	movq	%rdx, 8(%rsp)
	leaq	(%rdx,%rdx,4), %r12
	cmpq	%rax, %rsi
	cmovbq	%rsi, %rax
	leaq	(%rax,%r13), %rdi
	subq	%rax, %rsi
	callq	path_archive.slot.without_dot
	movq	%rax, %rbx
	movq	%rdx, %r14
	movq	(%r15,%r12,8), %rax
	movq	8(%r15,%r12,8), %rcx
	cmpq	%rcx, %rbp
	jb	.Lunix_path_BB36_18
	movq	%rcx, %rbp
.Lunix_path_BB36_18:
	cmpq	%rax, %rbp
	cmovbq	%rbp, %rax
	addq	%rax, %r13
	subq	%rax, %rbp
	movq	%r13, %rdi
	movq	%rbp, %rsi
	callq	path_archive.slot.without_dot
	movq	%rdx, %rcx
	movq	%rbx, %rdi
	movq	%r14, %rsi
	movq	%rax, %rdx
	callq	unix_path.compare.compare
	movq	96(%rsp), %r9
	movq	16(%r15,%r9,8), %rcx
	movq	24(%r15,%r9,8), %rdi
	movq	24(%r15,%r12,8), %r8
	movq	16(%r15,%r12,8), %rdx
	movl	$1, %esi
	cmpq	%r8, %rdi
	setae	%dil
	je	.Lunix_path_BB36_20
	addb	%dil, %dil
	movzbl	%dil, %esi
.Lunix_path_BB36_20:
	cmpq	%rdx, %rcx
	setae	%dil
	addb	%dil, %dil
	cmpq	%rdx, %rcx
	movzbl	%dil, %ecx
	cmovel	%esi, %ecx
	cmpb	$1, %al
	movzbl	%al, %eax
	cmovel	%ecx, %eax
	testb	%al, %al
	movq	8(%rsp), %rsi
	jne	.Lunix_path_BB36_26
	leaq	(%r15,%r9,8), %rax
	leaq	(%r15,%r12,8), %rcx
	cmpq	%rsi, 24(%rsp)
	jb	.Lunix_path_BB36_22
	jbe	.Lunix_path_BB36_25
	movq	32(%rcx), %rdx
	movq	%rdx, 64(%rsp)
	movups	(%rcx), %xmm0
	movups	16(%rcx), %xmm1
	movaps	%xmm1, 48(%rsp)
	movaps	%xmm0, 32(%rsp)
	movq	32(%rax), %rdx
	movups	(%rax), %xmm0
	movups	16(%rax), %xmm1
	movups	%xmm0, (%rcx)
	movups	%xmm1, 16(%rcx)
	movq	%rdx, 32(%rcx)
	movq	64(%rsp), %rcx
	movq	%rcx, 32(%rax)
	movaps	32(%rsp), %xmm0
	movaps	48(%rsp), %xmm1
	movups	%xmm1, 16(%rax)
	movups	%xmm0, (%rax)
	jmp	.Lunix_path_BB36_25
.Lunix_path_BB36_26:
	addq	$104, %rsp
	popq	%rbx
	popq	%r12
	popq	%r13
	popq	%r14
	popq	%r15
	popq	%rbp
	retq
.Lunix_path_func_end36:
	.size	core.slice.sort.heap.sift.fd4dfef4a36ac24b., .Lunix_path_func_end36-core.slice.sort.heap.sift.fd4dfef4a36ac24b.
	.section	.text.core.slice.sort.pivot.median_of_three.fd4dfef4a36ac24b.,"ax",@progbits
	.p2align	4
	.type	core.slice.sort.pivot.median_of_three.fd4dfef4a36ac24b.,@function
# core::slice::sort::pivot::median_of_three::<#fd4dfef4a36ac24b>
core.slice.sort.pivot.median_of_three.fd4dfef4a36ac24b.:
	pushq	%rbp
	pushq	%r15
	pushq	%r14
	pushq	%r13
	pushq	%r12
	pushq	%rbx
	subq	$72, %rsp
	movq	%rcx, 40(%rsp)
	movq	%rsi, 24(%rsp)
	movq	%rdi, %r15
	movq	%r8, 8(%rsp)
	movq	(%r8), %rbp
	movq	8(%r8), %r12
	leaq	(%rsi,%rsi,4), %rbx
	movq	%rdx, 56(%rsp)
	leaq	(,%rdx,8), %rax
	leaq	(%rax,%rax,4), %r13
	movq	(%rdi,%rbx,8), %rax
	movq	8(%rdi,%rbx,8), %rsi
	cmpq	%rsi, %r12
	cmovbq	%r12, %rsi
	cmpq	%rax, %rsi
	cmovbq	%rsi, %rax
	leaq	(%rax,%rbp), %rdi
	subq	%rax, %rsi
	callq	path_archive.slot.without_dot
	movq	%rax, %r14
	movq	%rdx, 16(%rsp)
	movq	(%r15,%r13), %rax
	movq	8(%r15,%r13), %rsi
	cmpq	%rsi, %r12
	cmovbq	%r12, %rsi
	cmpq	%rax, %rsi
	cmovbq	%rsi, %rax
	addq	%rax, %rbp
	subq	%rax, %rsi
	movq	%rbp, %rdi
	callq	path_archive.slot.without_dot
	movq	%rdx, %rcx
	movq	%r14, %rdi
	movq	16(%rsp), %rsi
	movq	%rax, %rdx
	callq	unix_path.compare.compare
	movb	%al, 16(%rsp)
	movq	24(%r15,%rbx,8), %rax
	movq	24(%r15,%r13), %rcx
	cmpq	%rcx, %rax
	setae	%dl
	addb	%dl, %dl
	cmpq	%rcx, %rax
	movq	16(%r15,%rbx,8), %rax
	movq	%r13, 48(%rsp)
	movq	16(%r15,%r13), %rcx
	movzbl	%dl, %edx
	movl	$1, %esi
	cmovel	%esi, %edx
	cmpq	%rcx, %rax
	setae	%sil
	addb	%sil, %sil
	cmpq	%rcx, %rax
	movzbl	%sil, %eax
	cmovel	%edx, %eax
	movl	%eax, 36(%rsp)
	movq	8(%rsp), %rax
	movq	(%rax), %r14
	movq	8(%rax), %r12
	movq	40(%rsp), %rax
	leaq	(,%rax,8), %rax
	leaq	(%rax,%rax,4), %rbp
	movq	(%r15,%rbx,8), %rax
	movq	8(%r15,%rbx,8), %rsi
	cmpq	%rsi, %r12
	cmovbq	%r12, %rsi
	cmpq	%rax, %rsi
	cmovbq	%rsi, %rax
	leaq	(%r14,%rax), %rdi
	subq	%rax, %rsi
	callq	path_archive.slot.without_dot
	movq	%rax, 64(%rsp)
	movq	%rdx, %r13
	movq	(%r15,%rbp), %rax
	movq	8(%r15,%rbp), %rsi
	cmpq	%rsi, %r12
	cmovbq	%r12, %rsi
	cmpq	%rax, %rsi
	cmovbq	%rsi, %rax
	addq	%rax, %r14
	subq	%rax, %rsi
	movq	%r14, %rdi
	callq	path_archive.slot.without_dot
	movq	%rdx, %rcx
	movq	64(%rsp), %rdi
	movq	%r13, %rsi
	movq	%rax, %rdx
	callq	unix_path.compare.compare
	movq	16(%r15,%rbx,8), %rcx
	movq	24(%r15,%rbx,8), %rdx
	movq	24(%r15,%rbp), %rsi
	cmpq	%rsi, %rdx
	setae	%dil
	addb	%dil, %dil
	cmpq	%rsi, %rdx
	movq	16(%r15,%rbp), %rdx
	movzbl	%dil, %esi
	movl	$1, %edi
	cmovel	%edi, %esi
	cmpq	%rdx, %rcx
	setae	%dil
	addb	%dil, %dil
	cmpq	%rdx, %rcx
	movzbl	%dil, %ecx
	cmovel	%esi, %ecx
	movzbl	16(%rsp), %edx
	cmpb	$1, %dl
	movzbl	%dl, %r13d
	cmovel	36(%rsp), %r13d
	testb	%r13b, %r13b
	sete	%dl
	cmpb	$1, %al
	movzbl	%al, %eax
	cmovel	%ecx, %eax
	testb	%al, %al
	sete	%al
	cmpb	%al, %dl
	movq	24(%rsp), %rax
	jne	.Lunix_path_BB37_2
	movq	8(%rsp), %rax
	movq	(%rax), %r14
	movq	8(%rax), %rbx
	movq	48(%rsp), %r12
	movq	(%r15,%r12), %rax
	movq	8(%r15,%r12), %rsi
	cmpq	%rsi, %rbx
	cmovbq	%rbx, %rsi
	cmpq	%rax, %rsi
	cmovbq	%rsi, %rax
	leaq	(%r14,%rax), %rdi
	subq	%rax, %rsi
	callq	path_archive.slot.without_dot
	movq	%rax, 8(%rsp)
	movq	%rdx, 24(%rsp)
	movq	(%r15,%rbp), %rax
	movq	8(%r15,%rbp), %rsi
	cmpq	%rsi, %rbx
	cmovbq	%rbx, %rsi
	cmpq	%rax, %rsi
	cmovbq	%rsi, %rax
	addq	%rax, %r14
	subq	%rax, %rsi
	movq	%r14, %rdi
	callq	path_archive.slot.without_dot
	movq	%rdx, %rcx
	movq	8(%rsp), %rdi
	movq	24(%rsp), %rsi
	movq	%rax, %rdx
	callq	unix_path.compare.compare
	movq	16(%r15,%r12), %rcx
	movq	24(%r15,%r12), %rdx
	movq	24(%r15,%rbp), %rsi
	cmpq	%rsi, %rdx
	setae	%dil
	addb	%dil, %dil
	cmpq	%rsi, %rdx
	movzbl	%dil, %edx
	movl	$1, %esi
	cmovel	%esi, %edx
	movq	16(%r15,%rbp), %rsi
	cmpq	%rsi, %rcx
	setae	%dil
	addb	%dil, %dil
	cmpq	%rsi, %rcx
	movzbl	%dil, %ecx
	cmovel	%edx, %ecx
	testb	%r13b, %r13b
	sete	%dl
	cmpb	$1, %al
	movzbl	%al, %eax
	cmovel	%ecx, %eax
	testb	%al, %al
	sete	%al
	xorb	%dl, %al
	movq	56(%rsp), %rax
	cmovneq	40(%rsp), %rax
.Lunix_path_BB37_2:
	addq	$72, %rsp
	popq	%rbx
	popq	%r12
	popq	%r13
	popq	%r14
	popq	%r15
	popq	%rbp
	retq
.Lunix_path_func_end37:
	.size	core.slice.sort.pivot.median_of_three.fd4dfef4a36ac24b., .Lunix_path_func_end37-core.slice.sort.pivot.median_of_three.fd4dfef4a36ac24b.
	.section	.text.core.slice.sort.pivot.median_of_medians.fd4dfef4a36ac24b.,"ax",@progbits
	.p2align	4
	.type	core.slice.sort.pivot.median_of_medians.fd4dfef4a36ac24b.,@function
# core::slice::sort::pivot::median_of_medians::<#fd4dfef4a36ac24b>
core.slice.sort.pivot.median_of_medians.fd4dfef4a36ac24b.:
	cmpq	$7, %r8
	ja	.Lunix_path_BB38_2
	movq	%r9, %r8
	jmp	core.slice.sort.pivot.median_of_three.fd4dfef4a36ac24b.
.Lunix_path_BB38_2:
	pushq	%rbp
	pushq	%r15
	pushq	%r14
	pushq	%r13
	pushq	%r12
	pushq	%rbx
	pushq	%rax
	movq	%r8, %rbx
	shrq	$3, %rbx
	leaq	(%rsi,%rbx,4), %rax
	andq	$-8, %r8
	subq	%rbx, %r8
	leaq	(%r8,%rsi), %r10
	movq	%rdi, %r14
	movq	%rdx, %r12
	movq	%rax, %rdx
	movq	%rcx, %r13
	movq	%r10, %rcx
	movq	%r8, %rbp
	movq	%rbx, %r8
	movq	%r9, %r15
	callq	core.slice.sort.pivot.median_of_medians.fd4dfef4a36ac24b.
	movq	%rax, (%rsp)
	leaq	(%r12,%rbx,4), %rdx
	leaq	(%r12,%rbp), %rcx
	movq	%r14, %rdi
	movq	%r12, %rsi
	movq	%rbx, %r8
	movq	%r15, %r9
	callq	core.slice.sort.pivot.median_of_medians.fd4dfef4a36ac24b.
	movq	%rax, %r12
	leaq	(,%rbx,4), %rdx
	addq	%r13, %rdx
	addq	%r13, %rbp
	movq	%r14, %rdi
	movq	%r13, %rsi
	movq	%rbp, %rcx
	movq	%rbx, %r8
	movq	%r15, %r9
	callq	core.slice.sort.pivot.median_of_medians.fd4dfef4a36ac24b.
	movq	%r14, %rdi
	movq	(%rsp), %rsi
	movq	%r12, %rdx
	movq	%rax, %rcx
	movq	%r15, %r8
	addq	$8, %rsp
	popq	%rbx
	popq	%r12
	popq	%r13
	popq	%r14
	popq	%r15
	popq	%rbp
	jmp	core.slice.sort.pivot.median_of_three.fd4dfef4a36ac24b.
.Lunix_path_func_end38:
	.size	core.slice.sort.pivot.median_of_medians.fd4dfef4a36ac24b., .Lunix_path_func_end38-core.slice.sort.pivot.median_of_medians.fd4dfef4a36ac24b.
	.section	.text.core.slice.edits.mirror.24.path_archive.slot.Slot.,"ax",@progbits
	.p2align	4
	.type	core.slice.edits.mirror.24.path_archive.slot.Slot.,@function
# core::slice::edits::mirror::<24'path_archive::slot::Slot>
core.slice.edits.mirror.24.path_archive.slot.Slot.:
	leaq	(%rdx,%rdx,4), %rax
	leaq	(%rsi,%rax,8), %rax
	addq	$-40, %rax
	.p2align	4
.Lunix_path_BB39_1:
	movq	32(%rdi), %rcx
	movq	%rcx, -8(%rsp)
	movups	(%rdi), %xmm0
	movups	16(%rdi), %xmm1
	movaps	%xmm1, -24(%rsp)
	movaps	%xmm0, -40(%rsp)
	movq	32(%rax), %rcx
	movups	(%rax), %xmm0
	movups	16(%rax), %xmm1
	movups	%xmm0, (%rdi)
	movups	%xmm1, 16(%rdi)
	movq	%rcx, 32(%rdi)
	movq	-8(%rsp), %rcx
	movq	%rcx, 32(%rax)
	movaps	-40(%rsp), %xmm0
	movaps	-24(%rsp), %xmm1
	movups	%xmm1, 16(%rax)
	movups	%xmm0, (%rax)
	addq	$40, %rdi
	addq	$-40, %rax
	decq	%rdx
	jne	.Lunix_path_BB39_1
	retq
.Lunix_path_func_end39:
	.size	core.slice.edits.mirror.24.path_archive.slot.Slot., .Lunix_path_func_end39-core.slice.edits.mirror.24.path_archive.slot.Slot.
	.section	.text.path_archive.outlined.starts_with,"ax",@progbits
	.p2align	4
	.type	path_archive.outlined.starts_with,@function
# path_archive::outlined::starts_with
path_archive.outlined.starts_with:
	movq	%rcx, %r8
	testq	%rcx, %rcx
	je	.Lunix_path_BB40_7
	subq	$24, %rsp
	movq	%rdx, %rcx
	movq	%rsi, %rdx
	movq	%rdi, %rsi
	pxor	%xmm0, %xmm0
	movdqa	%xmm0, (%rsp)
	movq	$0, 16(%rsp)
	cmpq	%rdx, %r8
	movq	%rdx, %rax
	cmovbq	%r8, %rax
	cmpq	$15, %rax
	ja	.Lunix_path_BB40_8
	cmpq	$7, %rax
	ja	.Lunix_path_BB40_15
	testq	%rdx, %rdx
	je	.Lunix_path_BB40_18
	movzbl	(%rsi), %edi
	cmpb	(%rcx), %dil
	jne	.Lunix_path_BB40_19
	cmpq	$1, %rax
	jne	.Lunix_path_BB40_47
.Lunix_path_BB40_6:
	movq	%rax, %rdi
	jmp	.Lunix_path_BB40_20
.Lunix_path_BB40_7:
	movb	$1, %al
	andb	$1, %al
	retq
.Lunix_path_BB40_8:
	leaq	-16(%rax), %r9
	xorl	%r10d, %r10d
	cmpq	$64, %rax
	jb	.Lunix_path_BB40_13
	.p2align	4
.Lunix_path_BB40_9:
	movdqu	(%rsi,%r10), %xmm0
	movdqu	16(%rsi,%r10), %xmm1
	movdqu	32(%rsi,%r10), %xmm2
	movdqu	48(%rsi,%r10), %xmm3
	movdqu	(%rcx,%r10), %xmm4
	pcmpeqb	%xmm0, %xmm4
	movdqu	16(%rcx,%r10), %xmm0
	pcmpeqb	%xmm1, %xmm0
	pand	%xmm4, %xmm0
	movdqu	32(%rcx,%r10), %xmm1
	pcmpeqb	%xmm2, %xmm1
	movdqu	48(%rcx,%r10), %xmm2
	pcmpeqb	%xmm3, %xmm2
	pand	%xmm1, %xmm2
	pand	%xmm0, %xmm2
	pmovmskb	%xmm2, %edi
	cmpl	$65535, %edi
	jne	.Lunix_path_BB40_13
	addq	$64, %r10
	addq	$-64, %rax
	cmpq	$63, %rax
	ja	.Lunix_path_BB40_9
	jmp	.Lunix_path_BB40_13
	.p2align	4
.Lunix_path_BB40_11:
	movdqu	(%rsi,%r10), %xmm0
	movdqu	(%rcx,%r10), %xmm1
	pcmpeqb	%xmm0, %xmm1
	pmovmskb	%xmm1, %eax
	notl	%eax
	rep		bsfl	%eax, %eax
	cmpw	$15, %ax
	jbe	.Lunix_path_BB40_17
	addq	$16, %r10
.Lunix_path_BB40_13:
	cmpq	%r9, %r10
	jb	.Lunix_path_BB40_11
	movdqu	(%rsi,%r9), %xmm0
	movdqu	(%rcx,%r9), %xmm1
	pcmpeqb	%xmm0, %xmm1
	pmovmskb	%xmm1, %eax
	notl	%eax
	rep		bsfl	%eax, %edi
	addq	%r9, %rdi
	jmp	.Lunix_path_BB40_20
.Lunix_path_BB40_15:
	movq	(%rsi), %xmm0
	movq	(%rcx), %xmm1
	pcmpeqb	%xmm0, %xmm1
	pmovmskb	%xmm1, %edi
	notl	%edi
	orl	$256, %edi
	rep		bsfl	%edi, %edi
	cmpb	$8, %dil
	jb	.Lunix_path_BB40_20
	movq	-8(%rsi,%rax), %xmm0
	movq	-8(%rcx,%rax), %xmm1
	pcmpeqb	%xmm0, %xmm1
	pmovmskb	%xmm1, %edi
	notl	%edi
	orl	$256, %edi
	rep		bsfl	%edi, %edi
	addq	%rax, %rdi
	addq	$-8, %rdi
	jmp	.Lunix_path_BB40_20
.Lunix_path_BB40_17:
	movzwl	%ax, %edi
	addq	%r10, %rdi
	jmp	.Lunix_path_BB40_20
.Lunix_path_BB40_18:
	movb	$1, %al
	xorl	%edi, %edi
	cmpq	%rdx, %rdi
	jb	.Lunix_path_BB40_22
	jmp	.Lunix_path_BB40_28
.Lunix_path_BB40_19:
	xorl	%edi, %edi
.Lunix_path_BB40_20:
	movb	$1, %al
	cmpq	%rdi, %r8
	jbe	.Lunix_path_BB40_24
	cmpq	%rdx, %rdi
	jae	.Lunix_path_BB40_28
.Lunix_path_BB40_22:
	movzbl	(%rsi,%rdi), %r9d
	cmpw	$47, %r9w
	jne	.Lunix_path_BB40_31
.Lunix_path_BB40_28:
	xorl	%r9d, %r9d
	testb	%al, %al
	je	.Lunix_path_BB40_34
.Lunix_path_BB40_29:
	movzbl	(%rcx,%rdi), %eax
	cmpw	$47, %ax
	je	.Lunix_path_BB40_34
	movzwl	%ax, %eax
	incl	%eax
	cmpw	%ax, %r9w
	je	.Lunix_path_BB40_35
.Lunix_path_BB40_39:
	testq	%rdi, %rdi
	je	.Lunix_path_BB40_50
	movzbl	-1(%rsi,%rdi), %eax
	cmpb	$47, %al
	je	.Lunix_path_BB40_41
	cmpb	$46, %al
	setne	%al
	decq	%rdi
	sete	%r9b
	orb	%al, %r9b
	jne	.Lunix_path_BB40_50
	cmpb	$47, -1(%rsi,%rdi)
	je	.Lunix_path_BB40_41
	jmp	.Lunix_path_BB40_50
.Lunix_path_BB40_24:
	movb	$1, %al
	cmpq	%rdx, %r8
	jae	.Lunix_path_BB40_37
	cmpb	$47, (%rsi,%r8)
	je	.Lunix_path_BB40_37
	cmpb	$47, -1(%rsi,%r8)
	je	.Lunix_path_BB40_37
	xorl	%eax, %eax
	cmpq	%rdx, %rdi
	jb	.Lunix_path_BB40_22
	jmp	.Lunix_path_BB40_28
.Lunix_path_BB40_31:
	cmpb	$46, %r9b
	sete	%r10b
	movl	%eax, %r11d
	xorb	$1, %r11b
	orb	%r10b, %r11b
	jne	.Lunix_path_BB40_33
	movzbl	(%rcx,%rdi), %r10d
	andb	$-2, %r10b
	cmpb	$46, %r10b
	jne	.Lunix_path_BB40_50
.Lunix_path_BB40_33:
	movzwl	%r9w, %r9d
	incl	%r9d
	testb	%al, %al
	jne	.Lunix_path_BB40_29
.Lunix_path_BB40_34:
	xorl	%eax, %eax
	cmpw	%ax, %r9w
	jne	.Lunix_path_BB40_39
.Lunix_path_BB40_35:
	testq	%rdi, %rdi
	je	.Lunix_path_BB40_36
.Lunix_path_BB40_41:
	addq	%rdi, %rsi
	subq	%rdi, %rdx
	addq	%rdi, %rcx
	subq	%rdi, %r8
	movq	%rsp, %rdi
	callq	unix_path.pair.Comparison.rest_after_cut
	movzbl	(%rsp), %eax
	addq	$24, %rsp
	andb	$1, %al
	retq
.Lunix_path_BB40_50:
	xorl	%eax, %eax
	addq	$24, %rsp
	andb	$1, %al
	retq
.Lunix_path_BB40_36:
	xorl	%eax, %eax
.Lunix_path_BB40_37:
	addq	$24, %rsp
	andb	$1, %al
	retq
.Lunix_path_BB40_47:
	movzbl	1(%rsi), %r9d
	movl	$1, %edi
	cmpb	1(%rcx), %r9b
	jne	.Lunix_path_BB40_20
	cmpq	$2, %rax
	je	.Lunix_path_BB40_6
	movzbl	2(%rsi), %r9d
	movl	$2, %edi
	cmpb	2(%rcx), %r9b
	jne	.Lunix_path_BB40_20
	cmpq	$3, %rax
	je	.Lunix_path_BB40_6
	movzbl	3(%rsi), %r9d
	movl	$3, %edi
	cmpb	3(%rcx), %r9b
	jne	.Lunix_path_BB40_20
	cmpq	$4, %rax
	je	.Lunix_path_BB40_6
	movzbl	4(%rsi), %r9d
	movl	$4, %edi
	cmpb	4(%rcx), %r9b
	jne	.Lunix_path_BB40_20
	cmpq	$5, %rax
	je	.Lunix_path_BB40_6
	movzbl	5(%rsi), %r9d
	movl	$5, %edi
	cmpb	5(%rcx), %r9b
	jne	.Lunix_path_BB40_20
	cmpq	$6, %rax
	je	.Lunix_path_BB40_6
	movzbl	6(%rsi), %edi
	cmpb	6(%rcx), %dil
	movl	$6, %edi
	cmoveq	%rax, %rdi
	jmp	.Lunix_path_BB40_20
.Lunix_path_func_end40:
	.size	path_archive.outlined.starts_with, .Lunix_path_func_end40-path_archive.outlined.starts_with
	.section	.rodata.cst16,"aM",@progbits,16
	.p2align	4, 0x0
.Lunix_path_CPI41_0:
	.zero	16,208
.Lunix_path_CPI41_1:
	.zero	16,47
.Lunix_path_CPI41_2:
	.zero	16,46
.Lunix_path_CPI41_3:
	.byte	254
	.byte	254
	.byte	254
	.byte	254
	.byte	254
	.byte	254
	.byte	254
	.byte	254
	.zero	1
	.zero	1
	.zero	1
	.zero	1
	.zero	1
	.zero	1
	.zero	1
	.zero	1
.Lunix_path_CPI41_4:
	.byte	46
	.byte	46
	.byte	46
	.byte	46
	.byte	46
	.byte	46
	.byte	46
	.byte	46
	.zero	1
	.zero	1
	.zero	1
	.zero	1
	.zero	1
	.zero	1
	.zero	1
	.zero	1
.Lunix_path_CPI41_5:
	.byte	47
	.byte	47
	.byte	47
	.byte	47
	.byte	47
	.byte	47
	.byte	47
	.byte	47
	.zero	1
	.zero	1
	.zero	1
	.zero	1
	.zero	1
	.zero	1
	.zero	1
	.zero	1
	.section	.text.path_archive.outlined.has_root_or_parent_dir,"ax",@progbits
	.p2align	4
	.type	path_archive.outlined.has_root_or_parent_dir,@function
# path_archive::outlined::has_root_or_parent_dir
path_archive.outlined.has_root_or_parent_dir:
	pushq	%rbp
	pushq	%r14
	pushq	%rbx
	testq	%rsi, %rsi
	je	.Lunix_path_BB41_6
	movq	%rdi, %rbx
	movb	$1, %bpl
	cmpb	$47, (%rdi)
	je	.Lunix_path_BB41_7
	movq	%rsi, %r14
	movzbl	(%rbx), %eax
	cmpl	$47, %eax
	je	.Lunix_path_BB41_8
	cmpl	$46, %eax
	jne	.Lunix_path_BB41_13
	cmpq	$1, %r14
	je	.Lunix_path_BB41_8
	movzbl	1(%rbx), %eax
	cmpl	$47, %eax
	je	.Lunix_path_BB41_55
	cmpl	$46, %eax
	jne	.Lunix_path_BB41_13
	cmpq	$2, %r14
	je	.Lunix_path_BB41_55
	cmpb	$47, 2(%rbx)
	je	.Lunix_path_BB41_55
.Lunix_path_BB41_13:
	movzbl	-1(%rbx,%r14), %eax
	andb	$-2, %al
	cmpb	$46, %al
	je	.Lunix_path_BB41_55
	cmpq	$17, %r14
	jae	.Lunix_path_BB41_17
.Lunix_path_BB41_15:
	cmpq	$9, %r14
	jae	.Lunix_path_BB41_25
	xorl	%eax, %eax
	jmp	.Lunix_path_BB41_42
.Lunix_path_BB41_17:
	cmpq	$32, %r14
	ja	.Lunix_path_BB41_27
	movdqu	(%rbx), %xmm0
	movdqu	1(%rbx), %xmm1
	pand	.Lunix_path_CPI41_0(%rip), %xmm1
	por	%xmm0, %xmm1
	pcmpeqb	.Lunix_path_CPI41_1(%rip), %xmm1
	pmovmskb	%xmm1, %eax
	testl	%eax, %eax
	jne	.Lunix_path_BB41_20
	movdqu	-17(%rbx,%r14), %xmm0
	movdqu	-16(%rbx,%r14), %xmm1
	pand	.Lunix_path_CPI41_0(%rip), %xmm1
	por	%xmm0, %xmm1
	pcmpeqb	.Lunix_path_CPI41_1(%rip), %xmm1
	pmovmskb	%xmm1, %eax
	testl	%eax, %eax
	je	.Lunix_path_BB41_6
.Lunix_path_BB41_20:
	cmpq	$18, %r14
	jbe	.Lunix_path_BB41_15
	movq	%r14, %rcx
	addq	$-19, %rcx
	jne	.Lunix_path_BB41_29
	xorl	%ecx, %ecx
	xorl	%eax, %eax
.Lunix_path_BB41_23:
	leaq	-17(%r14), %rdx
	cmpq	%rax, %rdx
	cmovbq	%rdx, %rax
	movdqu	(%rbx,%rax), %xmm0
	movdqu	1(%rbx,%rax), %xmm1
	pand	.Lunix_path_CPI41_0(%rip), %xmm1
	por	%xmm0, %xmm1
	pcmpeqb	.Lunix_path_CPI41_1(%rip), %xmm1
	pmovmskb	%xmm1, %edx
	testl	%edx, %edx
	je	.Lunix_path_BB41_41
	movdqu	(%rbx,%rcx), %xmm0
	movdqu	1(%rbx,%rcx), %xmm1
	movdqu	2(%rbx,%rcx), %xmm2
	movdqu	3(%rbx,%rcx), %xmm3
	movdqa	.Lunix_path_CPI41_2(%rip), %xmm4
	movdqa	%xmm2, %xmm5
	pcmpeqb	%xmm4, %xmm5
	movdqa	.Lunix_path_CPI41_1(%rip), %xmm6
	pcmpeqb	%xmm6, %xmm3
	pand	%xmm5, %xmm3
	pcmpeqb	%xmm1, %xmm4
	pcmpeqb	%xmm6, %xmm2
	por	%xmm3, %xmm2
	pand	%xmm4, %xmm2
	pcmpeqb	%xmm6, %xmm0
	pcmpeqb	%xmm6, %xmm1
	por	%xmm2, %xmm1
	pand	%xmm0, %xmm1
	pmovmskb	%xmm1, %eax
	orl	$65536, %eax
	rep		bsfl	%eax, %eax
	jmp	.Lunix_path_BB41_36
.Lunix_path_BB41_25:
	movq	1(%rbx), %xmm0
	pand	.Lunix_path_CPI41_3(%rip), %xmm0
	pcmpeqb	.Lunix_path_CPI41_4(%rip), %xmm0
	movq	(%rbx), %xmm1
	pcmpeqb	.Lunix_path_CPI41_5(%rip), %xmm1
	pand	%xmm0, %xmm1
	pmovmskb	%xmm1, %eax
	orl	$256, %eax
	rep		bsfl	%eax, %eax
	cmpb	$8, %al
	jb	.Lunix_path_BB41_42
	cmpq	$17, %r14
	movl	$17, %eax
	cmovbq	%r14, %rax
	movq	-8(%rbx,%rax), %xmm0
	pand	.Lunix_path_CPI41_3(%rip), %xmm0
	pcmpeqb	.Lunix_path_CPI41_4(%rip), %xmm0
	movq	-9(%rbx,%rax), %xmm1
	pcmpeqb	.Lunix_path_CPI41_5(%rip), %xmm1
	pand	%xmm0, %xmm1
	pmovmskb	%xmm1, %ecx
	orl	$256, %ecx
	rep		bsfl	%ecx, %ecx
	addq	%rcx, %rax
	addq	$-9, %rax
	jmp	.Lunix_path_BB41_42
.Lunix_path_BB41_27:
	movdqa	.Lunix_path_CPI41_0(%rip), %xmm0
	movdqu	-33(%rbx,%r14), %xmm1
	movdqu	-32(%rbx,%r14), %xmm2
	movdqu	-17(%rbx,%r14), %xmm3
	movdqu	-16(%rbx,%r14), %xmm4
	pand	%xmm0, %xmm2
	por	%xmm1, %xmm2
	movdqa	.Lunix_path_CPI41_1(%rip), %xmm1
	pcmpeqb	%xmm1, %xmm2
	pand	%xmm0, %xmm4
	por	%xmm3, %xmm4
	pcmpeqb	%xmm1, %xmm4
	por	%xmm2, %xmm4
	pmovmskb	%xmm4, %eax
	testl	%eax, %eax
	je	.Lunix_path_BB41_37
	leaq	-19(%r14), %rcx
.Lunix_path_BB41_29:
	xorl	%eax, %eax
	jmp	.Lunix_path_BB41_33
	.p2align	4
.Lunix_path_BB41_30:
	movdqu	2(%rbx,%rax), %xmm2
	movdqu	3(%rbx,%rax), %xmm3
	movdqa	.Lunix_path_CPI41_2(%rip), %xmm4
	movdqa	%xmm2, %xmm5
	pcmpeqb	%xmm4, %xmm5
	movdqa	.Lunix_path_CPI41_1(%rip), %xmm6
	pcmpeqb	%xmm6, %xmm3
	pand	%xmm5, %xmm3
	pcmpeqb	%xmm1, %xmm4
	pcmpeqb	%xmm6, %xmm2
	por	%xmm3, %xmm2
	pand	%xmm4, %xmm2
	pcmpeqb	%xmm6, %xmm0
	pcmpeqb	%xmm6, %xmm1
	por	%xmm2, %xmm1
	pand	%xmm0, %xmm1
	pmovmskb	%xmm1, %edx
	orl	$65536, %edx
	rep		bsfl	%edx, %edx
	cmpw	$15, %dx
	jbe	.Lunix_path_BB41_35
	addq	$16, %rax
.Lunix_path_BB41_32:
	cmpq	%rcx, %rax
	jae	.Lunix_path_BB41_23
.Lunix_path_BB41_33:
	movdqu	(%rbx,%rax), %xmm0
	movdqu	1(%rbx,%rax), %xmm1
	movdqa	.Lunix_path_CPI41_0(%rip), %xmm2
	pand	%xmm1, %xmm2
	por	%xmm0, %xmm2
	pcmpeqb	.Lunix_path_CPI41_1(%rip), %xmm2
	pmovmskb	%xmm2, %edx
	testl	%edx, %edx
	jne	.Lunix_path_BB41_30
	addq	$16, %rax
	cmpq	%rcx, %rax
	jb	.Lunix_path_BB41_33
	jmp	.Lunix_path_BB41_32
.Lunix_path_BB41_35:
	movzwl	%dx, %ecx
.Lunix_path_BB41_36:
	addq	%rcx, %rax
	jmp	.Lunix_path_BB41_42
.Lunix_path_BB41_37:
	movq	%r14, %rax
	addq	$-33, %rax
	je	.Lunix_path_BB41_6
	xorl	%ecx, %ecx
.Lunix_path_BB41_39:
	movdqu	(%rbx,%rcx), %xmm2
	movdqu	1(%rbx,%rcx), %xmm3
	movdqu	16(%rbx,%rcx), %xmm4
	movdqu	17(%rbx,%rcx), %xmm5
	pand	%xmm0, %xmm3
	por	%xmm2, %xmm3
	pcmpeqb	%xmm1, %xmm3
	pand	%xmm0, %xmm5
	por	%xmm4, %xmm5
	pcmpeqb	%xmm1, %xmm5
	por	%xmm3, %xmm5
	pmovmskb	%xmm5, %edx
	testl	%edx, %edx
	jne	.Lunix_path_BB41_20
	addq	$32, %rcx
	xorl	%ebp, %ebp
	cmpq	%rax, %rcx
	jb	.Lunix_path_BB41_39
	jmp	.Lunix_path_BB41_7
.Lunix_path_BB41_41:
	addq	$16, %rax
.Lunix_path_BB41_42:
	cmpq	%r14, %rax
	jb	.Lunix_path_BB41_48
	movq	%rax, %rcx
.Lunix_path_BB41_44:
	cmpq	%r14, %rcx
	jne	.Lunix_path_BB41_55
.Lunix_path_BB41_6:
	xorl	%ebp, %ebp
.Lunix_path_BB41_7:
	movl	%ebp, %eax
	popq	%rbx
	popq	%r14
	popq	%rbp
	retq
.Lunix_path_BB41_46:
	cmpl	$47, %edx
	je	.Lunix_path_BB41_44
.Lunix_path_BB41_47:
	xorl	%ebp, %ebp
	cmpq	%r14, %rax
	jae	.Lunix_path_BB41_7
.Lunix_path_BB41_48:
	movq	%rax, %rcx
	incq	%rax
	cmpb	$47, (%rbx,%rcx)
	jne	.Lunix_path_BB41_47
	cmpq	%rax, %r14
	jbe	.Lunix_path_BB41_44
	movzbl	1(%rbx,%rcx), %edx
	cmpl	$46, %edx
	jne	.Lunix_path_BB41_46
	leaq	2(%rcx), %rdx
	cmpq	%rdx, %r14
	jbe	.Lunix_path_BB41_44
	movzbl	2(%rbx,%rcx), %edx
	cmpl	$46, %edx
	jne	.Lunix_path_BB41_46
	leaq	3(%rcx), %rdx
	cmpq	%rdx, %r14
	jbe	.Lunix_path_BB41_44
	cmpb	$47, 3(%rbx,%rcx)
	jne	.Lunix_path_BB41_47
	jmp	.Lunix_path_BB41_44
.Lunix_path_BB41_55:
	movzbl	(%rbx), %eax
	cmpl	$47, %eax
	je	.Lunix_path_BB41_8
	cmpl	$46, %eax
	jne	.Lunix_path_BB41_60
	movb	$1, %bpl
	cmpq	$1, %r14
	je	.Lunix_path_BB41_61
	cmpb	$47, 1(%rbx)
	sete	%bpl
	jmp	.Lunix_path_BB41_61
.Lunix_path_BB41_8:
	movb	$1, %bpl
.Lunix_path_BB41_61:
	movq	%r14, %rcx
	movq	%r14, %rax
	jmp	.Lunix_path_BB41_63
	.p2align	4
.Lunix_path_BB41_62:
	movq	%rax, %rcx
	testq	%rax, %rax
	je	.Lunix_path_BB41_6
.Lunix_path_BB41_63:
	decq	%rax
	je	.Lunix_path_BB41_69
	movzbl	(%rbx,%rax), %edx
	cmpl	$47, %edx
	je	.Lunix_path_BB41_67
	cmpl	$46, %edx
	jne	.Lunix_path_BB41_69
	cmpb	$47, -1(%rbx,%rax)
	jne	.Lunix_path_BB41_69
.Lunix_path_BB41_67:
	movq	%r14, %rcx
	subq	%rax, %rcx
	cmpq	$8, %rcx
	jne	.Lunix_path_BB41_62
	movq	%rbx, %rdi
	movq	%rax, %rsi
	callq	unix_path.filler.trimmed_blocks_len
	jmp	.Lunix_path_BB41_62
.Lunix_path_BB41_69:
	xorl	%eax, %eax
	movq	%rcx, %rdx
	movq	%rbx, %rsi
	jmp	.Lunix_path_BB41_73
.Lunix_path_BB41_70:
	xorl	%edi, %edi
.Lunix_path_BB41_71:
	addq	%r8, %rdi
.Lunix_path_BB41_72:
	addq	%rdi, %rax
	leaq	(%rbx,%rax), %rsi
	xorl	%ebp, %ebp
	movq	%rcx, %rdx
	subq	%rax, %rdx
	je	.Lunix_path_BB41_7
.Lunix_path_BB41_73:
	testb	$1, %bpl
	je	.Lunix_path_BB41_81
	movq	%rdx, %r8
	decq	%r8
	je	.Lunix_path_BB41_103
	leaq	-1(%rdx), %r9
	addq	$-2, %rdx
	xorl	%edi, %edi
	jmp	.Lunix_path_BB41_77
	.p2align	4
.Lunix_path_BB41_76:
	incq	%rdi
	cmpq	%rdi, %r9
	je	.Lunix_path_BB41_104
.Lunix_path_BB41_77:
	movzbl	1(%rsi,%rdi), %r10d
	cmpl	$47, %r10d
	je	.Lunix_path_BB41_76
	cmpl	$46, %r10d
	jne	.Lunix_path_BB41_105
	cmpq	%rdi, %rdx
	je	.Lunix_path_BB41_104
	cmpb	$47, 2(%rsi,%rdi)
	je	.Lunix_path_BB41_76
	.p2align	4
.Lunix_path_BB41_105:
	incq	%rdi
	cmpb	$47, (%rsi)
	jne	.Lunix_path_BB41_72
	jmp	.Lunix_path_BB41_109
	.p2align	4
.Lunix_path_BB41_81:
	cmpq	$1, %rdx
	je	.Lunix_path_BB41_86
	cmpb	$46, (%rsi)
	jne	.Lunix_path_BB41_86
	cmpb	$46, 1(%rsi)
	jne	.Lunix_path_BB41_86
	movb	$1, %bpl
	cmpq	$2, %rdx
	je	.Lunix_path_BB41_7
	cmpb	$47, 2(%rsi)
	je	.Lunix_path_BB41_7
.Lunix_path_BB41_86:
	cmpq	$15, %rdx
	ja	.Lunix_path_BB41_91
	xorl	%r8d, %r8d
	.p2align	4
.Lunix_path_BB41_88:
	cmpb	$47, (%rsi,%r8)
	je	.Lunix_path_BB41_96
	incq	%r8
	cmpq	%r8, %rdx
	jne	.Lunix_path_BB41_88
	movq	%rdx, %r8
	subq	%r8, %rdx
	jne	.Lunix_path_BB41_97
	jmp	.Lunix_path_BB41_70
	.p2align	4
.Lunix_path_BB41_91:
	movq	%rdx, %rdi
	addq	$-16, %rdi
	je	.Lunix_path_BB41_95
	xorl	%r9d, %r9d
	.p2align	4
.Lunix_path_BB41_93:
	movdqu	(%rsi,%r9), %xmm0
	pcmpeqb	.Lunix_path_CPI41_1(%rip), %xmm0
	pmovmskb	%xmm0, %r8d
	orl	$65536, %r8d
	rep		bsfl	%r8d, %r8d
	cmpw	$15, %r8w
	jbe	.Lunix_path_BB41_107
	addq	$16, %r9
	cmpq	%rdi, %r9
	jb	.Lunix_path_BB41_93
.Lunix_path_BB41_95:
	movdqu	(%rsi,%rdi), %xmm0
	pcmpeqb	.Lunix_path_CPI41_1(%rip), %xmm0
	pmovmskb	%xmm0, %r8d
	orl	$65536, %r8d
	rep		bsfl	%r8d, %r8d
	addq	%rdi, %r8
.Lunix_path_BB41_96:
	subq	%r8, %rdx
	je	.Lunix_path_BB41_70
.Lunix_path_BB41_97:
	addq	%r8, %rsi
	incq	%rsi
	leaq	-1(%rdx), %r9
	xorl	%edi, %edi
	jmp	.Lunix_path_BB41_99
	.p2align	4
.Lunix_path_BB41_98:
	incq	%rdi
	cmpq	%rdi, %rdx
	je	.Lunix_path_BB41_106
.Lunix_path_BB41_99:
	movzbl	-1(%rsi,%rdi), %r10d
	cmpl	$47, %r10d
	je	.Lunix_path_BB41_98
	cmpl	$46, %r10d
	jne	.Lunix_path_BB41_71
	cmpq	%rdi, %r9
	je	.Lunix_path_BB41_106
	cmpb	$47, (%rsi,%rdi)
	je	.Lunix_path_BB41_98
	jmp	.Lunix_path_BB41_71
.Lunix_path_BB41_103:
	movl	$1, %edi
	cmpb	$47, (%rsi)
	jne	.Lunix_path_BB41_72
	jmp	.Lunix_path_BB41_109
.Lunix_path_BB41_104:
	movq	%r8, %rdi
	incq	%rdi
	cmpb	$47, (%rsi)
	jne	.Lunix_path_BB41_72
	jmp	.Lunix_path_BB41_109
.Lunix_path_BB41_106:
	movq	%rdx, %rdi
	jmp	.Lunix_path_BB41_71
.Lunix_path_BB41_107:
	movzwl	%r8w, %r8d
	addq	%r9, %r8
	subq	%r8, %rdx
	jne	.Lunix_path_BB41_97
	jmp	.Lunix_path_BB41_70
.Lunix_path_BB41_109:
	movb	$1, %bpl
	jmp	.Lunix_path_BB41_7
.Lunix_path_BB41_60:
	xorl	%ebp, %ebp
	jmp	.Lunix_path_BB41_61
.Lunix_path_func_end41:
	.size	path_archive.outlined.has_root_or_parent_dir, .Lunix_path_func_end41-path_archive.outlined.has_root_or_parent_dir
	.section	.text.std_alloc.string.String.format.7c436104ea11042b.,"ax",@progbits
	.p2align	4
	.type	std_alloc.string.String.format.7c436104ea11042b.,@function
# std_alloc::string::String::format::<#7c436104ea11042b>
std_alloc.string.String.format.7c436104ea11042b.:
	pushq	%rbp
	pushq	%r15
	pushq	%r14
	pushq	%r13
	pushq	%r12
	pushq	%rbx
	subq	$200, %rsp
	movq	%rsi, %rax
	movq	%rdi, 88(%rsp)
	movq	(%rsi), %rsi
	movq	8(%rax), %rdx
	movq	16(%rax), %rbx
	movq	24(%rax), %r15
	movq	32(%rax), %r14
	xorps	%xmm0, %xmm0
	movups	%xmm0, 175(%rsp)
	movaps	%xmm0, 160(%rsp)
	movups	%xmm0, 24(%rsp)
	movl	$0, 73(%rsp)
	movl	$0, 76(%rsp)
	leaq	15(%rsp), %r12
	movq	%r12, 16(%rsp)
	movl	$32, 40(%rsp)
	movq	$0, 44(%rsp)
	movl	$0, 52(%rsp)
	movq	$-1, 56(%rsp)
	movq	$0, 64(%rsp)
	movb	$0, 72(%rsp)
	movl	40(%rsp), %eax
	movl	%eax, 128(%rsp)
	movq	44(%rsp), %rax
	movq	%rax, 132(%rsp)
	movl	52(%rsp), %eax
	movl	%eax, 140(%rsp)
	movq	$-1, 144(%rsp)
	movl	$32, 40(%rsp)
	movq	$0, 44(%rsp)
	movl	$0, 52(%rsp)
	movq	24(%rsp), %rax
	movq	32(%rsp), %rbp
	movq	%rbp, %rcx
	subq	%rax, %rcx
	cmpq	%rcx, %rdx
	ja	.Lunix_path_BB42_41
.Lunix_path_BB42_1:
	leaq	(%rax,%rdx), %r13
	leaq	(%r12,%rax), %rdi
	movq	%rdi, %rcx
	subq	%rsi, %rcx
	cmpq	%rdx, %rcx
	jae	.Lunix_path_BB42_4
	cmpq	$4, %rdx
	jb	.Lunix_path_BB42_3
	cmpq	$32, %rcx
	jae	.Lunix_path_BB42_7
.Lunix_path_BB42_3:
	xorl	%ecx, %ecx
.Lunix_path_BB42_16:
	movq	%rdx, %r9
	movq	%rcx, %r8
	andq	$3, %r9
	je	.Lunix_path_BB42_19
	movq	%rcx, %r8
	.p2align	4
.Lunix_path_BB42_18:
	movzbl	(%rsi,%r8), %r10d
	movb	%r10b, (%rdi,%r8)
	incq	%r8
	decq	%r9
	jne	.Lunix_path_BB42_18
.Lunix_path_BB42_19:
	subq	%rdx, %rcx
	cmpq	$-4, %rcx
	ja	.Lunix_path_BB42_22
	addq	%r12, %rax
	addq	$3, %rax
	.p2align	4
.Lunix_path_BB42_21:
	movzbl	(%rsi,%r8), %ecx
	movb	%cl, -3(%rax,%r8)
	movzbl	1(%rsi,%r8), %ecx
	movb	%cl, -2(%rax,%r8)
	movzbl	2(%rsi,%r8), %ecx
	movb	%cl, -1(%rax,%r8)
	movzbl	3(%rsi,%r8), %ecx
	movb	%cl, (%rax,%r8)
	addq	$4, %r8
	cmpq	%r8, %rdx
	jne	.Lunix_path_BB42_21
	jmp	.Lunix_path_BB42_22
.Lunix_path_BB42_4:
	callq	memmove@PLT
.Lunix_path_BB42_22:
	movq	%r12, 16(%rsp)
	movq	%r13, 24(%rsp)
	movq	%rbp, 32(%rsp)
	movl	$32, 40(%rsp)
	leaq	44(%rsp), %rax
	movl	$0, 8(%rax)
	movq	$0, (%rax)
	movq	$-1, 56(%rsp)
	movq	(%rbx), %rsi
	xorps	%xmm0, %xmm0
	movaps	%xmm0, 96(%rsp)
	movq	$0, 112(%rsp)
	movl	$24, %ecx
	cmpq	$100, %rsi
	jb	.Lunix_path_BB42_26
	.p2align	4
.Lunix_path_BB42_23:
	movq	%rsi, %rax
	shrq	$2, %rax
	movabsq	$2951479051793528259, %rdx
	mulq	%rdx
	shrq	$2, %rdx
	imull	$100, %edx, %eax
	movl	%esi, %edi
	subl	%eax, %edi
	movzbl	%dil, %eax
	imull	$205, %eax, %edi
	shrl	$11, %edi
	leal	(%rdi,%rdi), %r8d
	leal	(%r8,%r8,4), %r8d
	subb	%r8b, %al
	orb	$48, %al
	movb	%al, 95(%rsp,%rcx)
	orb	$48, %dil
	movb	%dil, 94(%rsp,%rcx)
	addq	$-2, %rcx
	cmpq	$9999, %rsi
	movq	%rdx, %rsi
	ja	.Lunix_path_BB42_23
	cmpq	$10, %rdx
	jb	.Lunix_path_BB42_27
.Lunix_path_BB42_25:
	movzbl	%dl, %eax
	imull	$205, %eax, %eax
	shrl	$11, %eax
	leal	(%rax,%rax), %esi
	leal	(%rsi,%rsi,4), %esi
	subb	%sil, %dl
	orb	$48, %dl
	movb	%dl, 95(%rsp,%rcx)
	orb	$48, %al
	movb	%al, 94(%rsp,%rcx)
	addq	$-2, %rcx
	jmp	.Lunix_path_BB42_28
.Lunix_path_BB42_26:
	movq	%rsi, %rdx
	cmpq	$10, %rdx
	jae	.Lunix_path_BB42_25
.Lunix_path_BB42_27:
	orb	$48, %dl
	movb	%dl, 95(%rsp,%rcx)
	decq	%rcx
.Lunix_path_BB42_28:
	leaq	(%rsp,%rcx), %rsi
	addq	$96, %rsi
	movb	$45, 95(%rsp,%rcx)
	movl	$24, %edx
	subq	%rcx, %rdx
	cmpq	$0, 64(%rsp)
	jne	.Lunix_path_BB42_43
	movq	%rbp, %rax
	subq	%r13, %rax
	cmpq	%rax, %rdx
	ja	.Lunix_path_BB42_44
.Lunix_path_BB42_30:
	addq	%r13, %r12
	addq	%rdx, %r13
	movq	%r12, %rdi
	callq	memcpy@PLT
	movq	%r13, 24(%rsp)
	movq	%rbp, 32(%rsp)
.Lunix_path_BB42_31:
	leaq	40(%rsp), %rbx
	movl	$32, 40(%rsp)
	leaq	44(%rsp), %rax
	movl	$0, 8(%rax)
	movq	$0, (%rax)
	movq	$-1, 56(%rsp)
	cmpq	$0, 64(%rsp)
	jne	.Lunix_path_BB42_46
	movq	24(%rsp), %rax
	movq	32(%rsp), %r12
	movq	%r12, %rcx
	subq	%rax, %rcx
	cmpq	%rcx, %r14
	ja	.Lunix_path_BB42_63
.Lunix_path_BB42_33:
	leaq	(%rax,%r14), %r13
	movq	16(%rsp), %rcx
	leaq	(%rcx,%rax), %rdi
	movq	%rdi, %rdx
	subq	%r15, %rdx
	cmpq	%r14, %rdx
	jae	.Lunix_path_BB42_36
	cmpq	$4, %r14
	jb	.Lunix_path_BB42_35
	cmpq	$32, %rdx
	jae	.Lunix_path_BB42_39
.Lunix_path_BB42_35:
	xorl	%edx, %edx
.Lunix_path_BB42_54:
	movq	%r14, %r8
	movq	%rdx, %rsi
	andq	$3, %r8
	je	.Lunix_path_BB42_57
	movq	%rdx, %rsi
	.p2align	4
.Lunix_path_BB42_56:
	movzbl	(%r15,%rsi), %r9d
	movb	%r9b, (%rdi,%rsi)
	incq	%rsi
	decq	%r8
	jne	.Lunix_path_BB42_56
.Lunix_path_BB42_57:
	subq	%r14, %rdx
	cmpq	$-4, %rdx
	ja	.Lunix_path_BB42_60
	addq	%rcx, %rax
	addq	$3, %rax
	.p2align	4
.Lunix_path_BB42_59:
	movzbl	(%r15,%rsi), %ecx
	movb	%cl, -3(%rax,%rsi)
	movzbl	1(%r15,%rsi), %ecx
	movb	%cl, -2(%rax,%rsi)
	movzbl	2(%r15,%rsi), %ecx
	movb	%cl, -1(%rax,%rsi)
	movzbl	3(%r15,%rsi), %ecx
	movb	%cl, (%rax,%rsi)
	addq	$4, %rsi
	cmpq	%rsi, %r14
	jne	.Lunix_path_BB42_59
	jmp	.Lunix_path_BB42_60
.Lunix_path_BB42_36:
	movq	%r15, %rsi
	movq	%r14, %rdx
	callq	memmove@PLT
.Lunix_path_BB42_60:
	movq	%r13, 24(%rsp)
	movq	%r12, 32(%rsp)
	movq	144(%rsp), %rax
	movq	%rax, 16(%rbx)
	movaps	128(%rsp), %xmm0
	movups	%xmm0, (%rbx)
	movq	88(%rsp), %r14
.Lunix_path_BB42_61:
	movq	32(%rsp), %rax
	movq	%rax, 183(%rsp)
	movq	16(%rsp), %rax
	movq	%rax, 167(%rsp)
	movq	24(%rsp), %rax
	movq	%rax, 175(%rsp)
	xorl	%ebx, %ebx
.Lunix_path_BB42_62:
	movb	%bl, (%r14)
	movq	167(%rsp), %rax
	movq	%rax, 8(%r14)
	movq	175(%rsp), %rax
	movq	%rax, 16(%r14)
	movq	183(%rsp), %rax
	movq	%rax, 24(%r14)
	addq	$200, %rsp
	popq	%rbx
	popq	%r12
	popq	%r13
	popq	%r14
	popq	%r15
	popq	%rbp
	retq
.Lunix_path_BB42_7:
	cmpq	$32, %rdx
	jae	.Lunix_path_BB42_9
	xorl	%ecx, %ecx
	jmp	.Lunix_path_BB42_13
.Lunix_path_BB42_39:
	cmpq	$32, %r14
	jae	.Lunix_path_BB42_47
	xorl	%edx, %edx
	jmp	.Lunix_path_BB42_51
.Lunix_path_BB42_9:
	movq	%rdx, %rcx
	andq	$-32, %rcx
	leaq	(%rax,%r12), %r8
	addq	$16, %r8
	xorl	%r9d, %r9d
	.p2align	4
.Lunix_path_BB42_10:
	movups	(%rsi,%r9), %xmm0
	movups	16(%rsi,%r9), %xmm1
	movups	%xmm0, -16(%r8,%r9)
	movups	%xmm1, (%r8,%r9)
	addq	$32, %r9
	cmpq	%r9, %rcx
	jne	.Lunix_path_BB42_10
	cmpq	%rcx, %rdx
	je	.Lunix_path_BB42_22
	testb	$28, %dl
	je	.Lunix_path_BB42_16
.Lunix_path_BB42_13:
	movq	%rcx, %r8
	movq	%rdx, %rcx
	andq	$-4, %rcx
	.p2align	4
.Lunix_path_BB42_14:
	movl	(%rsi,%r8), %r9d
	movl	%r9d, (%rdi,%r8)
	addq	$4, %r8
	cmpq	%r8, %rcx
	jne	.Lunix_path_BB42_14
	cmpq	%rcx, %rdx
	je	.Lunix_path_BB42_22
	jmp	.Lunix_path_BB42_16
.Lunix_path_BB42_41:
	movq	%rsi, 80(%rsp)
	leaq	16(%rsp), %rdi
	movq	%rdx, %r13
	movq	%rdx, %rsi
	callq	std_alloc.vec.Vec.grow_amortized.f4a78633ca2a48c6.
	testb	%al, %al
	je	.Lunix_path_BB42_65
	movq	16(%rsp), %r12
	movq	24(%rsp), %rax
	movq	32(%rsp), %rbp
	movq	80(%rsp), %rsi
	movq	%r13, %rdx
	jmp	.Lunix_path_BB42_1
.Lunix_path_BB42_43:
	leaq	16(%rsp), %rdi
	callq	core.fmt.formatter.Formatter.write_indented.ccd77059cb37763e.
	testb	%al, %al
	jne	.Lunix_path_BB42_65
	jmp	.Lunix_path_BB42_31
.Lunix_path_BB42_44:
	movq	%rsi, 80(%rsp)
	leaq	16(%rsp), %rdi
	movq	%rdx, %rbx
	movq	%rdx, %rsi
	callq	std_alloc.vec.Vec.grow_amortized.f4a78633ca2a48c6.
	testb	%al, %al
	je	.Lunix_path_BB42_65
	movq	16(%rsp), %r12
	movq	24(%rsp), %r13
	movq	32(%rsp), %rbp
	movq	80(%rsp), %rsi
	movq	%rbx, %rdx
	jmp	.Lunix_path_BB42_30
.Lunix_path_BB42_46:
	leaq	16(%rsp), %rdi
	movq	%r15, %rsi
	movq	%r14, %rdx
	callq	core.fmt.formatter.Formatter.write_indented.ccd77059cb37763e.
	movaps	128(%rsp), %xmm0
	movups	%xmm0, (%rbx)
	movq	144(%rsp), %rcx
	movq	%rcx, 16(%rbx)
	testb	%al, %al
	movq	88(%rsp), %r14
	jne	.Lunix_path_BB42_66
	jmp	.Lunix_path_BB42_61
.Lunix_path_BB42_47:
	movq	%r14, %rdx
	andq	$-32, %rdx
	leaq	(%rax,%rcx), %rsi
	addq	$16, %rsi
	xorl	%r8d, %r8d
	.p2align	4
.Lunix_path_BB42_48:
	movups	(%r15,%r8), %xmm0
	movups	16(%r15,%r8), %xmm1
	movups	%xmm0, -16(%rsi,%r8)
	movups	%xmm1, (%rsi,%r8)
	addq	$32, %r8
	cmpq	%r8, %rdx
	jne	.Lunix_path_BB42_48
	cmpq	%rdx, %r14
	je	.Lunix_path_BB42_60
	testb	$28, %r14b
	je	.Lunix_path_BB42_54
.Lunix_path_BB42_51:
	movq	%rdx, %rsi
	movq	%r14, %rdx
	andq	$-4, %rdx
	.p2align	4
.Lunix_path_BB42_52:
	movl	(%r15,%rsi), %r8d
	movl	%r8d, (%rdi,%rsi)
	addq	$4, %rsi
	cmpq	%rsi, %rdx
	jne	.Lunix_path_BB42_52
	cmpq	%rdx, %r14
	je	.Lunix_path_BB42_60
	jmp	.Lunix_path_BB42_54
.Lunix_path_BB42_63:
	leaq	16(%rsp), %rdi
	movq	%r14, %rsi
	callq	std_alloc.vec.Vec.grow_amortized.f4a78633ca2a48c6.
	testb	%al, %al
	je	.Lunix_path_BB42_65
	movq	24(%rsp), %rax
	movq	32(%rsp), %r12
	jmp	.Lunix_path_BB42_33
.Lunix_path_BB42_65:
	movq	88(%rsp), %r14
.Lunix_path_BB42_66:
	movb	$1, %bl
	cmpq	$0, 32(%rsp)
	je	.Lunix_path_BB42_62
	movq	16(%rsp), %rdi
	callq	rattle_dealloc@PLT
	jmp	.Lunix_path_BB42_62
.Lunix_path_func_end42:
	.size	std_alloc.string.String.format.7c436104ea11042b., .Lunix_path_func_end42-std_alloc.string.String.format.7c436104ea11042b.
	.section	.text.unlikely.core.fmt.formatter.Formatter.write_indented.ccd77059cb37763e.,"ax",@progbits
	.p2align	4
	.type	core.fmt.formatter.Formatter.write_indented.ccd77059cb37763e.,@function
# core::fmt::formatter::Formatter::write_indented::<#ccd77059cb37763e>
core.fmt.formatter.Formatter.write_indented.ccd77059cb37763e.:
	pushq	%rbp
	pushq	%r15
	pushq	%r14
	pushq	%r13
	pushq	%r12
	pushq	%rbx
	pushq	%rax
	testq	%rdx, %rdx
	je	.Lunix_path_BB43_1
	movq	%rsi, %r14
	movq	%rdi, %r15
	xorl	%ecx, %ecx
	xorl	%ebp, %ebp
	movq	%rdx, (%rsp)
	jmp	.Lunix_path_BB43_3
	.p2align	4
.Lunix_path_BB43_7:
	addq	%r14, %r13
	movb	$1, 56(%r15)
	movq	%r15, %rdi
	movq	%r13, %rsi
	movq	%r12, %rdx
	callq	core.fmt.formatter.Formatter.write_raw.ccd77059cb37763e.
	movq	%rbp, %rcx
	testb	%al, %al
	movq	(%rsp), %rdx
	jne	.Lunix_path_BB43_17
.Lunix_path_BB43_8:
	cmpq	%rdx, %rbp
	je	.Lunix_path_BB43_9
.Lunix_path_BB43_3:
	movq	%rbp, %rax
	incq	%rbp
	cmpb	$10, (%r14,%rax)
	jne	.Lunix_path_BB43_8
	xorl	%r13d, %r13d
	movq	%rbp, %r12
	subq	%rcx, %r12
	cmovaeq	%rcx, %r13
	cmpq	%rax, %rcx
	movq	%rbp, %rcx
	ja	.Lunix_path_BB43_8
	cmpb	$1, 56(%r15)
	jne	.Lunix_path_BB43_7
	movq	48(%r15), %rbx
	testq	%rbx, %rbx
	je	.Lunix_path_BB43_7
	.p2align	4
.Lunix_path_BB43_14:
	leaq	.Lunix_path_static.56(%rip), %rsi
	movl	$4, %edx
	movq	%r15, %rdi
	callq	core.fmt.formatter.Formatter.write_raw.ccd77059cb37763e.
	testb	%al, %al
	jne	.Lunix_path_BB43_17
	decq	%rbx
	jne	.Lunix_path_BB43_14
	jmp	.Lunix_path_BB43_7
.Lunix_path_BB43_1:
	xorl	%eax, %eax
	jmp	.Lunix_path_BB43_18
.Lunix_path_BB43_9:
	xorl	%eax, %eax
	cmpq	%rdx, %rcx
	movq	%rcx, %r12
	cmovaq	%rax, %r12
	subq	%rcx, %rdx
	cmovbq	%rax, %rdx
	jbe	.Lunix_path_BB43_18
	movq	%rdx, %r13
	cmpb	$1, 56(%r15)
	jne	.Lunix_path_BB43_12
	movq	48(%r15), %rbx
	testq	%rbx, %rbx
	je	.Lunix_path_BB43_12
	.p2align	4
.Lunix_path_BB43_16:
	leaq	.Lunix_path_static.56(%rip), %rsi
	movl	$4, %edx
	movq	%r15, %rdi
	callq	core.fmt.formatter.Formatter.write_raw.ccd77059cb37763e.
	testb	%al, %al
	jne	.Lunix_path_BB43_17
	decq	%rbx
	jne	.Lunix_path_BB43_16
.Lunix_path_BB43_12:
	addq	%r12, %r14
	movb	$0, 56(%r15)
	movq	%r15, %rdi
	movq	%r14, %rsi
	movq	%r13, %rdx
	addq	$8, %rsp
	popq	%rbx
	popq	%r12
	popq	%r13
	popq	%r14
	popq	%r15
	popq	%rbp
	jmp	core.fmt.formatter.Formatter.write_raw.ccd77059cb37763e.
.Lunix_path_BB43_17:
	movb	$1, %al
.Lunix_path_BB43_18:
	addq	$8, %rsp
	popq	%rbx
	popq	%r12
	popq	%r13
	popq	%r14
	popq	%r15
	popq	%rbp
	retq
.Lunix_path_func_end43:
	.size	core.fmt.formatter.Formatter.write_indented.ccd77059cb37763e., .Lunix_path_func_end43-core.fmt.formatter.Formatter.write_indented.ccd77059cb37763e.
	.section	.text.core.fmt.formatter.Formatter.write_raw.ccd77059cb37763e.,"ax",@progbits
	.p2align	4
	.type	core.fmt.formatter.Formatter.write_raw.ccd77059cb37763e.,@function
# core::fmt::formatter::Formatter::write_raw::<#ccd77059cb37763e>
core.fmt.formatter.Formatter.write_raw.ccd77059cb37763e.:
	testq	%rdx, %rdx
	je	.Lunix_path_BB44_19
	xorl	%ecx, %ecx
	jmp	.Lunix_path_BB44_3
	.p2align	4
.Lunix_path_BB44_2:
	addq	%r10, %rcx
	cmpq	%rdx, %rcx
	jae	.Lunix_path_BB44_19
.Lunix_path_BB44_3:
	movzbl	(%rsi,%rcx), %r8d
	movl	$1, %r10d
	testb	%r8b, %r8b
	jns	.Lunix_path_BB44_2
	leaq	1(%rcx), %r9
	movb	$1, %al
	cmpq	%r9, %rdx
	jbe	.Lunix_path_BB44_18
	movzbl	(%rsi,%r9), %r9d
	testb	%r9b, %r9b
	jns	.Lunix_path_BB44_18
	movzbl	%r9b, %r10d
	cmpb	$-64, %r9b
	movl	$192, %r9d
	cmovbl	%r10d, %r9d
	cmpb	$-62, %r8b
	jb	.Lunix_path_BB44_18
	movl	%r9d, %r10d
	andb	$127, %r10b
	cmpb	$63, %r10b
	ja	.Lunix_path_BB44_18
	movl	$2, %r10d
	cmpb	$-32, %r8b
	jb	.Lunix_path_BB44_2
	leaq	2(%rcx), %r10
	cmpq	%r10, %rdx
	jbe	.Lunix_path_BB44_18
	cmpb	$-65, (%rsi,%r10)
	jg	.Lunix_path_BB44_18
	andl	$127, %r9d
	cmpb	$-17, %r8b
	ja	.Lunix_path_BB44_15
	movl	%r8d, %r10d
	shll	$12, %r10d
	shll	$6, %r9d
	addl	%r10d, %r9d
	addl	$-917504, %r9d
	cmpl	$2048, %r9d
	jb	.Lunix_path_BB44_18
	movl	$3, %r10d
	cmpl	$55296, %r9d
	jb	.Lunix_path_BB44_2
	cmpb	$-18, %r8b
	jae	.Lunix_path_BB44_2
	jmp	.Lunix_path_BB44_18
.Lunix_path_BB44_15:
	leaq	3(%rcx), %r10
	cmpq	%r10, %rdx
	jbe	.Lunix_path_BB44_18
	cmpb	$-65, (%rsi,%r10)
	jg	.Lunix_path_BB44_18
	shll	$18, %r8d
	shll	$12, %r9d
	addl	%r9d, %r8d
	addl	$-62980096, %r8d
	movl	$4, %r10d
	cmpl	$1048575, %r8d
	jbe	.Lunix_path_BB44_2
.Lunix_path_BB44_18:
	retq
.Lunix_path_BB44_19:
	pushq	%r15
	pushq	%r14
	pushq	%r12
	pushq	%rbx
	pushq	%rax
	movq	8(%rdi), %rcx
	movq	16(%rdi), %rbx
	movq	%rbx, %rax
	subq	%rcx, %rax
	cmpq	%rax, %rdx
	ja	.Lunix_path_BB44_43
.Lunix_path_BB44_20:
	leaq	8(%rdi), %rax
	leaq	(%rcx,%rdx), %r14
	movq	(%rdi), %r15
	xorps	%xmm0, %xmm0
	movups	%xmm0, (%rax)
	leaq	(%r15,%rcx), %rax
	movq	%rax, %r8
	subq	%rsi, %r8
	cmpq	%rdx, %r8
	jae	.Lunix_path_BB44_23
	cmpq	$4, %rdx
	jb	.Lunix_path_BB44_22
	cmpq	$32, %r8
	jae	.Lunix_path_BB44_26
.Lunix_path_BB44_22:
	xorl	%r8d, %r8d
.Lunix_path_BB44_35:
	movq	%rdx, %r10
	movq	%r8, %r9
	andq	$3, %r10
	je	.Lunix_path_BB44_38
	movq	%r8, %r9
	.p2align	4
.Lunix_path_BB44_37:
	movzbl	(%rsi,%r9), %r11d
	movb	%r11b, (%rax,%r9)
	incq	%r9
	decq	%r10
	jne	.Lunix_path_BB44_37
.Lunix_path_BB44_38:
	subq	%rdx, %r8
	cmpq	$-4, %r8
	ja	.Lunix_path_BB44_41
	leaq	(%rcx,%r15), %rax
	addq	$3, %rax
	.p2align	4
.Lunix_path_BB44_40:
	movzbl	(%rsi,%r9), %ecx
	movb	%cl, -3(%rax,%r9)
	movzbl	1(%rsi,%r9), %ecx
	movb	%cl, -2(%rax,%r9)
	movzbl	2(%rsi,%r9), %ecx
	movb	%cl, -1(%rax,%r9)
	movzbl	3(%rsi,%r9), %ecx
	movb	%cl, (%rax,%r9)
	addq	$4, %r9
	cmpq	%r9, %rdx
	jne	.Lunix_path_BB44_40
	jmp	.Lunix_path_BB44_41
.Lunix_path_BB44_23:
	movq	%rdi, %r12
	movq	%rax, %rdi
	callq	memmove@PLT
	movq	%r12, %rdi
.Lunix_path_BB44_41:
	movq	%r15, (%rdi)
	movq	%r14, 8(%rdi)
	movq	%rbx, 16(%rdi)
	xorl	%eax, %eax
.Lunix_path_BB44_42:
	addq	$8, %rsp
	popq	%rbx
	popq	%r12
	popq	%r14
	popq	%r15
	retq
.Lunix_path_BB44_26:
	cmpq	$32, %rdx
	jae	.Lunix_path_BB44_28
	xorl	%r8d, %r8d
	jmp	.Lunix_path_BB44_32
.Lunix_path_BB44_28:
	movq	%rdx, %r8
	andq	$-32, %r8
	leaq	(%rcx,%r15), %r9
	addq	$16, %r9
	xorl	%r10d, %r10d
	.p2align	4
.Lunix_path_BB44_29:
	movups	(%rsi,%r10), %xmm0
	movups	16(%rsi,%r10), %xmm1
	movups	%xmm0, -16(%r9,%r10)
	movups	%xmm1, (%r9,%r10)
	addq	$32, %r10
	cmpq	%r10, %r8
	jne	.Lunix_path_BB44_29
	cmpq	%r8, %rdx
	je	.Lunix_path_BB44_41
	testb	$28, %dl
	je	.Lunix_path_BB44_35
.Lunix_path_BB44_32:
	movq	%r8, %r9
	movq	%rdx, %r8
	andq	$-4, %r8
	.p2align	4
.Lunix_path_BB44_33:
	movl	(%rsi,%r9), %r10d
	movl	%r10d, (%rax,%r9)
	addq	$4, %r9
	cmpq	%r9, %r8
	jne	.Lunix_path_BB44_33
	cmpq	%r8, %rdx
	je	.Lunix_path_BB44_41
	jmp	.Lunix_path_BB44_35
.Lunix_path_BB44_43:
	movq	%rdi, %rbx
	movq	%rsi, %r14
	movq	%rdx, %rsi
	movq	%rdx, %r15
	callq	std_alloc.vec.Vec.grow_amortized.f4a78633ca2a48c6.
	movl	%eax, %ecx
	movb	$1, %al
	testb	%cl, %cl
	je	.Lunix_path_BB44_42
	movq	%r14, %rsi
	movq	%r15, %rdx
	movq	%rbx, %rdi
	movq	8(%rbx), %rcx
	movq	16(%rbx), %rbx
	jmp	.Lunix_path_BB44_20
.Lunix_path_func_end44:
	.size	core.fmt.formatter.Formatter.write_raw.ccd77059cb37763e., .Lunix_path_func_end44-core.fmt.formatter.Formatter.write_raw.ccd77059cb37763e.
	.section	.text.upath_commands.shown.push_shown,"ax",@progbits
	.p2align	4
	.type	upath_commands.shown.push_shown,@function
# upath_commands::shown::push_shown
upath_commands.shown.push_shown:
	pushq	%rbp
	pushq	%r15
	pushq	%r14
	pushq	%r13
	pushq	%r12
	pushq	%rbx
	subq	$40, %rsp
	testq	%rsi, %rsi
	je	.Lunix_path_BB45_52
	movq	%rdx, %rbx
	movq	%rdi, %r15
	jmp	.Lunix_path_BB45_3
	.p2align	4
.Lunix_path_BB45_2:
	addq	%rdx, %r15
	addq	%rdx, %r13
	movq	32(%rsp), %rsi
	subq	%r13, %rsi
	je	.Lunix_path_BB45_52
.Lunix_path_BB45_3:
	cmpq	$15, %rsi
	movq	%rsi, 32(%rsp)
	movq	%r15, 24(%rsp)
	ja	.Lunix_path_BB45_5
.Lunix_path_BB45_4:
	movq	%r15, %rdi
	xorl	%edx, %edx
.Lunix_path_BB45_10:
	callq	unix_bytes.utf8.scans.scan_by_sequence
	movq	%rax, 16(%rsp)
	testq	%rax, %rax
	movq	%rdx, 8(%rsp)
	jne	.Lunix_path_BB45_15
	jmp	.Lunix_path_BB45_40
	.p2align	4
.Lunix_path_BB45_5:
	movdqu	(%r15), %xmm0
	pmovmskb	%xmm0, %eax
	testl	%eax, %eax
	je	.Lunix_path_BB45_12
	orl	$65536, %eax
	rep		bsfl	%eax, %eax
	movzbl	(%r15,%rax), %ecx
	addb	$62, %cl
	cmpb	$50, %cl
	ja	.Lunix_path_BB45_11
	movq	%rsi, %rcx
	subq	%rax, %rcx
	cmpq	$2, %rcx
	jb	.Lunix_path_BB45_11
	cmpb	$-65, 1(%r15,%rax)
	jg	.Lunix_path_BB45_11
	movq	%r15, %rdi
	movq	%rax, %rdx
	cmpq	$31, %rcx
	ja	.Lunix_path_BB45_14
	jmp	.Lunix_path_BB45_10
	.p2align	4
.Lunix_path_BB45_11:
	movl	$1, %edx
	movq	%rax, 16(%rsp)
	testq	%rax, %rax
	movq	%rdx, 8(%rsp)
	jne	.Lunix_path_BB45_15
	jmp	.Lunix_path_BB45_40
.Lunix_path_BB45_12:
	cmpq	$31, %rsi
	jbe	.Lunix_path_BB45_4
	movq	%r15, %rdi
	xorl	%edx, %edx
.Lunix_path_BB45_14:
	callq	unix_bytes.utf8.scans.scan_by_window
	movq	%rax, 16(%rsp)
	testq	%rax, %rax
	movq	%rdx, 8(%rsp)
	je	.Lunix_path_BB45_40
	.p2align	4
.Lunix_path_BB45_15:
	movq	24(%rsp), %r12
	movq	16(%rsp), %rbp
	movq	%rbp, %r15
	jmp	.Lunix_path_BB45_18
	.p2align	4
.Lunix_path_BB45_16:
	movq	(%rbx), %rcx
	movb	%bpl, (%rcx,%rax)
.Lunix_path_BB45_17:
	incq	%rax
	movq	%rax, 8(%rbx)
	movq	%r13, %r12
	movq	%r15, %rbp
	testq	%r15, %r15
	je	.Lunix_path_BB45_40
.Lunix_path_BB45_18:
	leaq	1(%r12), %r13
	movzbl	(%r12), %r14d
	decq	%r15
	je	.Lunix_path_BB45_24
	cmpb	$-62, %r14b
	jne	.Lunix_path_BB45_24
	cmpb	$-97, (%r13)
	jg	.Lunix_path_BB45_32
	movl	$194, %edi
	movq	%rbx, %rsi
	callq	upath_commands.shown.push_escaped
	movb	$1, %r14b
	testb	%al, %al
	jne	.Lunix_path_BB45_53
	movzbl	(%r13), %edi
	movq	%rbx, %rsi
	callq	upath_commands.shown.push_escaped
	testb	%al, %al
	jne	.Lunix_path_BB45_53
	addq	$2, %r12
	addq	$-2, %rbp
	movq	%rbp, %r15
	movq	%r12, %r13
	movq	8(%rsp), %rdx
	movq	%r13, %r12
	movq	%r15, %rbp
	testq	%r15, %r15
	jne	.Lunix_path_BB45_18
	jmp	.Lunix_path_BB45_40
	.p2align	4
.Lunix_path_BB45_24:
	cmpb	$32, %r14b
	jb	.Lunix_path_BB45_27
	cmpb	$127, %r14b
	je	.Lunix_path_BB45_27
	movzbl	%r14b, %eax
	cmpl	$92, %eax
	jne	.Lunix_path_BB45_32
	.p2align	4
.Lunix_path_BB45_27:
	movq	8(%rbx), %rax
	movq	16(%rbx), %r9
	movq	%r9, %rcx
	subq	%rax, %rcx
	cmpq	$1, %rcx
	jbe	.Lunix_path_BB45_34
.Lunix_path_BB45_28:
	movq	(%rbx), %rcx
	leaq	(%rcx,%rax), %rsi
	leaq	.Lunix_path_static.63(%rip), %rdi
	movq	%rsi, %r8
	subq	%rdi, %r8
	cmpq	$1, %r8
	movw	$30812, (%rsi)
	addq	$2, %rax
	movq	%rcx, (%rbx)
	movq	%rax, 8(%rbx)
	movq	%r9, 16(%rbx)
	cmpq	%rax, %r9
	je	.Lunix_path_BB45_36
.Lunix_path_BB45_29:
	movl	%r14d, %esi
	shrb	$4, %sil
	orb	$48, %sil
	movb	%sil, (%rcx,%rax)
	incq	%rax
	movq	%rax, 8(%rbx)
	andb	$15, %r14b
	leal	48(%r14), %ecx
	leal	87(%r14), %esi
	cmpb	$10, %r14b
	movzbl	%cl, %ecx
	movzbl	%sil, %ebp
	cmovbl	%ecx, %ebp
	cmpq	%rax, 16(%rbx)
	jne	.Lunix_path_BB45_16
	movl	$1, %esi
	movq	%rbx, %rdi
	callq	std_alloc.vec.Vec.grow_amortized.f4a78633ca2a48c6.
	testb	%al, %al
	je	.Lunix_path_BB45_57
	movq	8(%rbx), %rax
	movq	8(%rsp), %rdx
	jmp	.Lunix_path_BB45_16
	.p2align	4
.Lunix_path_BB45_32:
	movq	8(%rbx), %rax
	cmpq	%rax, 16(%rbx)
	je	.Lunix_path_BB45_38
.Lunix_path_BB45_33:
	movq	(%rbx), %rcx
	movb	%r14b, (%rcx,%rax)
	jmp	.Lunix_path_BB45_17
.Lunix_path_BB45_34:
	movl	$2, %esi
	movq	%rbx, %rdi
	callq	std_alloc.vec.Vec.grow_amortized.f4a78633ca2a48c6.
	testb	%al, %al
	je	.Lunix_path_BB45_57
	movq	8(%rbx), %rax
	movq	16(%rbx), %r9
	movq	8(%rsp), %rdx
	jmp	.Lunix_path_BB45_28
.Lunix_path_BB45_36:
	movl	$1, %esi
	movq	%rbx, %rdi
	callq	std_alloc.vec.Vec.grow_amortized.f4a78633ca2a48c6.
	testb	%al, %al
	je	.Lunix_path_BB45_57
	movq	(%rbx), %rcx
	movq	8(%rbx), %rax
	movq	8(%rsp), %rdx
	jmp	.Lunix_path_BB45_29
.Lunix_path_BB45_38:
	movl	$1, %esi
	movq	%rbx, %rdi
	callq	std_alloc.vec.Vec.grow_amortized.f4a78633ca2a48c6.
	testb	%al, %al
	je	.Lunix_path_BB45_57
	movq	8(%rbx), %rax
	movq	8(%rsp), %rdx
	jmp	.Lunix_path_BB45_33
	.p2align	4
.Lunix_path_BB45_40:
	movq	24(%rsp), %r15
	movq	16(%rsp), %r13
	addq	%r13, %r15
	testq	%rdx, %rdx
	je	.Lunix_path_BB45_2
	movq	8(%rbx), %rax
	xorl	%r12d, %r12d
	jmp	.Lunix_path_BB45_43
	.p2align	4
.Lunix_path_BB45_42:
	movq	(%rbx), %rcx
	movb	%bpl, (%rcx,%rax)
	incq	%rax
	movq	%rax, 8(%rbx)
	incq	%r12
	cmpq	%r12, %rdx
	je	.Lunix_path_BB45_2
.Lunix_path_BB45_43:
	movzbl	(%r15,%r12), %r14d
	movq	16(%rbx), %rcx
	movq	%rcx, %rsi
	subq	%rax, %rsi
	cmpq	$1, %rsi
	jbe	.Lunix_path_BB45_48
.Lunix_path_BB45_44:
	movq	(%rbx), %r9
	leaq	(%r9,%rax), %rsi
	leaq	.Lunix_path_static.63(%rip), %rdi
	movq	%rsi, %r8
	subq	%rdi, %r8
	cmpq	$1, %r8
	movw	$30812, (%rsi)
	addq	$2, %rax
	movq	%r9, (%rbx)
	movq	%rax, 8(%rbx)
	movq	%rcx, 16(%rbx)
	movl	%r14d, %esi
	shrb	$4, %sil
	leal	48(%rsi), %edi
	addb	$87, %sil
	cmpb	$-96, %r14b
	movzbl	%dil, %edi
	movzbl	%sil, %ebp
	cmovbl	%edi, %ebp
	cmpq	%rax, %rcx
	je	.Lunix_path_BB45_50
.Lunix_path_BB45_45:
	movb	%bpl, (%r9,%rax)
	incq	%rax
	movq	%rax, 8(%rbx)
	andb	$15, %r14b
	leal	48(%r14), %ecx
	leal	87(%r14), %esi
	cmpb	$10, %r14b
	movzbl	%cl, %ecx
	movzbl	%sil, %ebp
	cmovbl	%ecx, %ebp
	cmpq	%rax, 16(%rbx)
	jne	.Lunix_path_BB45_42
	movl	$1, %esi
	movq	%rbx, %rdi
	callq	std_alloc.vec.Vec.grow_amortized.f4a78633ca2a48c6.
	testb	%al, %al
	je	.Lunix_path_BB45_57
	movq	8(%rbx), %rax
	movq	8(%rsp), %rdx
	jmp	.Lunix_path_BB45_42
.Lunix_path_BB45_48:
	movl	$2, %esi
	movq	%rbx, %rdi
	callq	std_alloc.vec.Vec.grow_amortized.f4a78633ca2a48c6.
	testb	%al, %al
	je	.Lunix_path_BB45_57
	movq	8(%rbx), %rax
	movq	16(%rbx), %rcx
	movq	8(%rsp), %rdx
	jmp	.Lunix_path_BB45_44
.Lunix_path_BB45_50:
	movl	$1, %esi
	movq	%rbx, %rdi
	callq	std_alloc.vec.Vec.grow_amortized.f4a78633ca2a48c6.
	testb	%al, %al
	je	.Lunix_path_BB45_57
	movq	(%rbx), %r9
	movq	8(%rbx), %rax
	movq	8(%rsp), %rdx
	jmp	.Lunix_path_BB45_45
.Lunix_path_BB45_52:
	xorl	%r14d, %r14d
	jmp	.Lunix_path_BB45_53
.Lunix_path_BB45_57:
	movb	$1, %r14b
.Lunix_path_BB45_53:
	movl	%r14d, %eax
	addq	$40, %rsp
	popq	%rbx
	popq	%r12
	popq	%r13
	popq	%r14
	popq	%r15
	popq	%rbp
	retq
.Lunix_path_func_end45:
	.size	upath_commands.shown.push_shown, .Lunix_path_func_end45-upath_commands.shown.push_shown
	.section	.text.upath_commands.shown.push_escaped,"ax",@progbits
	.p2align	4
	.type	upath_commands.shown.push_escaped,@function
# upath_commands::shown::push_escaped
upath_commands.shown.push_escaped:
	pushq	%r15
	pushq	%r14
	pushq	%rbx
	movq	8(%rsi), %rax
	movq	16(%rsi), %rcx
	movq	%rcx, %rdx
	subq	%rax, %rdx
	cmpq	$1, %rdx
	jbe	.Lunix_path_BB46_1
.Lunix_path_BB46_3:
	movq	(%rsi), %rdx
	leaq	(%rdx,%rax), %r8
	addq	$2, %rax
	leaq	.Lunix_path_static.63(%rip), %r9
	movq	%r8, %r10
	subq	%r9, %r10
	cmpq	$1, %r10
	movw	$30812, (%r8)
	movq	%rdx, (%rsi)
	movq	%rax, 8(%rsi)
	movq	%rcx, 16(%rsi)
	movl	%edi, %r8d
	shrb	$4, %r8b
	leal	48(%r8), %r9d
	addb	$87, %r8b
	cmpb	$-96, %dil
	movzbl	%r9b, %r9d
	movzbl	%r8b, %ebx
	cmovbl	%r9d, %ebx
	cmpq	%rax, %rcx
	je	.Lunix_path_BB46_4
.Lunix_path_BB46_6:
	movb	%bl, (%rdx,%rax)
	incq	%rax
	movq	%rax, 8(%rsi)
	andb	$15, %dil
	leal	48(%rdi), %ecx
	leal	87(%rdi), %edx
	cmpb	$10, %dil
	movzbl	%cl, %ecx
	movzbl	%dl, %ebx
	cmovbl	%ecx, %ebx
	cmpq	%rax, 16(%rsi)
	je	.Lunix_path_BB46_7
.Lunix_path_BB46_9:
	movq	(%rsi), %rcx
	movb	%bl, (%rcx,%rax)
	incq	%rax
	movq	%rax, 8(%rsi)
	xorl	%eax, %eax
.Lunix_path_BB46_10:
	popq	%rbx
	popq	%r14
	popq	%r15
	retq
.Lunix_path_BB46_1:
	movq	%rdi, %rbx
	movq	%rsi, %rdi
	movl	$2, %esi
	movq	%rdi, %r14
	callq	std_alloc.vec.Vec.grow_amortized.f4a78633ca2a48c6.
	movl	%eax, %ecx
	movb	$1, %al
	testb	%cl, %cl
	je	.Lunix_path_BB46_10
	movq	%r14, %rsi
	movq	8(%r14), %rax
	movq	16(%r14), %rcx
	movq	%rbx, %rdi
	jmp	.Lunix_path_BB46_3
.Lunix_path_BB46_4:
	movq	%rdi, %r14
	movq	%rsi, %rdi
	movl	$1, %esi
	movq	%rdi, %r15
	callq	std_alloc.vec.Vec.grow_amortized.f4a78633ca2a48c6.
	movl	%eax, %ecx
	movb	$1, %al
	testb	%cl, %cl
	je	.Lunix_path_BB46_10
	movq	%r15, %rsi
	movq	(%r15), %rdx
	movq	8(%r15), %rax
	movq	%r14, %rdi
	jmp	.Lunix_path_BB46_6
.Lunix_path_BB46_7:
	movq	%rsi, %rdi
	movl	$1, %esi
	movq	%rdi, %r14
	callq	std_alloc.vec.Vec.grow_amortized.f4a78633ca2a48c6.
	movl	%eax, %ecx
	movb	$1, %al
	testb	%cl, %cl
	je	.Lunix_path_BB46_10
	movq	%r14, %rsi
	movq	8(%r14), %rax
	jmp	.Lunix_path_BB46_9
.Lunix_path_func_end46:
	.size	upath_commands.shown.push_escaped, .Lunix_path_func_end46-upath_commands.shown.push_escaped
	.section	.rodata.cst16,"aM",@progbits,16
	.p2align	4, 0x0
.Lunix_path_CPI47_0:
	.byte	116
	.byte	104
	.byte	105
	.byte	115
	.byte	32
	.byte	112
	.byte	97
	.byte	116
	.byte	104
	.byte	32
	.byte	111
	.byte	114
	.byte	32
	.byte	116
	.byte	104
	.byte	101
	.section	.text.upath_commands.refused.push_or_target,"ax",@progbits
	.p2align	4
	.type	upath_commands.refused.push_or_target,@function
# upath_commands::refused::push_or_target
upath_commands.refused.push_or_target:
	cmpb	$3, (%rdi)
	jne	.Lunix_path_BB47_1
	pushq	%r15
	pushq	%r14
	pushq	%rbx
	movq	%rsi, %rbx
	movq	%rdi, %rax
	movq	24(%rdi), %rdi
	movq	32(%rax), %rsi
	movq	8(%rbx), %rax
	movq	16(%rbx), %rcx
	movq	%rcx, %rdx
	subq	%rax, %rdx
	cmpq	$23, %rdx
	jbe	.Lunix_path_BB47_4
.Lunix_path_BB47_6:
	leaq	8(%rbx), %r14
	movq	(%rbx), %rdx
	xorps	%xmm0, %xmm0
	movups	%xmm0, (%r14)
	leaq	(%rdx,%rax), %r8
	addq	$24, %rax
	leaq	.Lunix_path_static.73(%rip), %r9
	movq	%r8, %r10
	subq	%r9, %r10
	cmpq	$23, %r10
	ja	.Lunix_path_BB47_8
	movaps	.Lunix_path_CPI47_0(%rip), %xmm0
	jmp	.Lunix_path_BB47_9
.Lunix_path_BB47_1:
	xorl	%eax, %eax
	retq
.Lunix_path_BB47_8:
	movups	.Lunix_path_static.73(%rip), %xmm0
.Lunix_path_BB47_9:
	movups	%xmm0, (%r8)
	movabsq	$2338605601487156256, %r9
	movq	%r9, 16(%r8)
	movq	%rdx, (%rbx)
	movq	%rax, 8(%rbx)
	movq	%rcx, 16(%rbx)
	movq	%rbx, %rdx
	callq	upath_commands.shown.push_shown
	movl	%eax, %ecx
	movb	$1, %al
	testb	%cl, %cl
	jne	.Lunix_path_BB47_14
	movq	8(%rbx), %rax
	cmpq	%rax, 16(%rbx)
	je	.Lunix_path_BB47_11
.Lunix_path_BB47_13:
	movq	(%rbx), %rcx
	movb	$32, (%rcx,%rax)
	incq	%rax
	movq	%rax, 8(%rbx)
	xorl	%eax, %eax
.Lunix_path_BB47_14:
	popq	%rbx
	popq	%r14
	popq	%r15
	retq
.Lunix_path_BB47_4:
	movq	%rsi, %r14
	movq	%rdi, %r15
	movl	$24, %esi
	movq	%rbx, %rdi
	callq	std_alloc.vec.Vec.grow_amortized.f4a78633ca2a48c6.
	movl	%eax, %ecx
	movb	$1, %al
	testb	%cl, %cl
	je	.Lunix_path_BB47_14
	movq	8(%rbx), %rax
	movq	16(%rbx), %rcx
	movq	%r15, %rdi
	movq	%r14, %rsi
	jmp	.Lunix_path_BB47_6
.Lunix_path_BB47_11:
	movl	$1, %esi
	movq	%rbx, %rdi
	callq	std_alloc.vec.Vec.grow_amortized.f4a78633ca2a48c6.
	movl	%eax, %ecx
	movb	$1, %al
	testb	%cl, %cl
	je	.Lunix_path_BB47_14
	movq	(%r14), %rax
	jmp	.Lunix_path_BB47_13
.Lunix_path_func_end47:
	.size	upath_commands.refused.push_or_target, .Lunix_path_func_end47-upath_commands.refused.push_or_target
	.section	.rodata.cst16,"aM",@progbits,16
	.p2align	4, 0x0
.Lunix_path_CPI48_0:
	.byte	0
	.byte	1
	.byte	2
	.byte	3
	.byte	4
	.byte	5
	.byte	6
	.byte	7
	.byte	8
	.byte	9
	.byte	10
	.byte	11
	.byte	12
	.byte	13
	.byte	14
	.byte	15
.Lunix_path_CPI48_1:
	.byte	16
	.byte	17
	.byte	18
	.byte	19
	.byte	20
	.byte	21
	.byte	22
	.byte	23
	.byte	24
	.byte	25
	.byte	26
	.byte	27
	.byte	28
	.byte	29
	.byte	30
	.byte	31
	.section	.text.upath_commands.messages.send.5821a58b74a7d609.,"ax",@progbits
	.p2align	4
	.type	upath_commands.messages.send.5821a58b74a7d609.,@function
# upath_commands::messages::send::<#5821a58b74a7d609>
upath_commands.messages.send.5821a58b74a7d609.:
	testq	%rdx, %rdx
	je	.Lunix_path_BB48_15
	pushq	%rbp
	pushq	%r15
	pushq	%r14
	pushq	%r13
	pushq	%r12
	pushq	%rbx
	subq	$104, %rsp
	movq	%rdi, %rbx
	cmpb	$0, (%rdi)
	jne	.Lunix_path_BB48_14
	movq	%rdx, %r14
	xorl	%ebp, %ebp
	movq	%rsi, 8(%rsp)
.Lunix_path_BB48_3:
	leaq	(%rsi,%rbp), %r13
	movq	%r14, %r12
	subq	%rbp, %r12
	movb	$0, 2(%rbx)
	movq	$-1, %r15
	.p2align	4
.Lunix_path_BB48_4:
	movl	$2, %edi
	movq	%r13, %rsi
	movq	%r12, %rdx
	callq	write@PLT
	testq	%rax, %rax
	jns	.Lunix_path_BB48_9
	callq	rattle_errno@PLT
	leaq	16(%rsp), %rdi
	movl	%eax, %esi
	callq	std_io.io.error.Error.from_raw_os_error
	movq	16(%rsp), %rax
	shrq	$8, %rax
	movaps	.Lunix_path_CPI48_0(%rip), %xmm0
	movaps	%xmm0, 16(%rsp)
	movaps	.Lunix_path_CPI48_1(%rip), %xmm0
	movaps	%xmm0, 32(%rsp)
	movabsq	$2820983053732684064, %rcx
	movq	%rcx, 48(%rsp)
	movb	$40, 56(%rsp)
	cmpb	$41, %al
	jae	.Lunix_path_BB48_13
	andl	$63, %eax
	cmpb	$35, 16(%rsp,%rax)
	jne	.Lunix_path_BB48_13
	decq	%r15
	jne	.Lunix_path_BB48_4
	movl	$2, %edi
	movq	%r13, %rsi
	movq	%r12, %rdx
	callq	write@PLT
	testq	%rax, %rax
	js	.Lunix_path_BB48_12
.Lunix_path_BB48_9:
	cmpq	%r12, %rax
	cmovbq	%rax, %r12
	testq	%r12, %r12
	je	.Lunix_path_BB48_13
	addq	%r12, %rbp
	cmpq	%r14, %rbp
	movq	8(%rsp), %rsi
	jb	.Lunix_path_BB48_3
	jmp	.Lunix_path_BB48_14
.Lunix_path_BB48_12:
	callq	rattle_errno@PLT
.Lunix_path_BB48_13:
	movb	$1, (%rbx)
.Lunix_path_BB48_14:
	addq	$104, %rsp
	popq	%rbx
	popq	%r12
	popq	%r13
	popq	%r14
	popq	%r15
	popq	%rbp
.Lunix_path_BB48_15:
	retq
.Lunix_path_func_end48:
	.size	upath_commands.messages.send.5821a58b74a7d609., .Lunix_path_func_end48-upath_commands.messages.send.5821a58b74a7d609.
	.section	.text.upath_commands.runs.answer_gathered.3596f8ae3b0ff399.,"ax",@progbits
	.p2align	4
	.type	upath_commands.runs.answer_gathered.3596f8ae3b0ff399.,@function
# upath_commands::runs::answer_gathered::<#3596f8ae3b0ff399>
upath_commands.runs.answer_gathered.3596f8ae3b0ff399.:
	pushq	%rbp
	pushq	%r15
	pushq	%r14
	pushq	%r13
	pushq	%r12
	pushq	%rbx
	subq	$248, %rsp
	movq	%rdx, %rbp
	xorps	%xmm1, %xmm1
	movaps	%xmm1, 208(%rsp)
	movaps	%xmm1, 192(%rsp)
	movq	16(%rsi), %rax
	movq	%rax, 80(%rsp)
	movups	(%rsi), %xmm0
	movaps	%xmm0, 64(%rsp)
	movzbl	(%rdi), %eax
	cmpl	$16, %eax
	jae	.Lunix_path_BB49_1
.Lunix_path_BB49_114:
	movaps	%xmm1, 208(%rsp)
	movaps	%xmm1, 192(%rsp)
	movq	64(%rsp), %r14
	movq	72(%rsp), %rcx
	leaq	192(%rsp), %rsi
	movq	%r14, %rdx
	movq	%rbp, %r8
	callq	upath_commands.engine.answer_paths.3596f8ae3b0ff399.
	movl	%eax, %ebx
	movl	%edx, %ebp
	cmpb	$1, 192(%rsp)
	jne	.Lunix_path_BB49_117
	cmpb	$1, 200(%rsp)
	jne	.Lunix_path_BB49_117
	movq	208(%rsp), %rdi
	callq	std_collections.btree.node.Node.destroy.793632148a6f265d.
.Lunix_path_BB49_117:
	cmpq	$0, 80(%rsp)
	je	.Lunix_path_BB49_122
	movq	%r14, %rdi
.Lunix_path_BB49_121:
	callq	rattle_dealloc@PLT
.Lunix_path_BB49_122:
	movl	%ebx, %eax
	movl	%ebp, %edx
	addq	$248, %rsp
	popq	%rbx
	popq	%r12
	popq	%r13
	popq	%r14
	popq	%r15
	popq	%rbp
	retq
.Lunix_path_BB49_1:
	leal	-18(%rax), %ecx
	cmpl	$2, %ecx
	jb	.Lunix_path_BB49_114
	cmpl	$17, %eax
	jne	.Lunix_path_BB49_3
	movq	72(%rsp), %r13
	testq	%r13, %r13
	je	.Lunix_path_BB49_114
	movq	64(%rsp), %r12
	movzbl	13(%rdi), %eax
	testb	$1, 12(%rdi)
	je	.Lunix_path_BB49_100
	movq	%rdi, %r15
	testb	$1, %al
	je	.Lunix_path_BB49_94
	movq	%r12, %rsi
.Lunix_path_BB49_98:
	decq	%r13
	je	.Lunix_path_BB49_112
	leaq	16(%rsi), %rbx
	movq	(%rsi), %rdx
	movq	8(%rsi), %rcx
	movq	16(%rsi), %r14
	movq	24(%rsi), %rsi
	movq	%r14, %rdi
	callq	unix_path.compare.compare
	movq	%rbx, %rsi
	testb	%al, %al
	je	.Lunix_path_BB49_98
	jmp	.Lunix_path_BB49_107
.Lunix_path_BB49_3:
	movzbl	12(%rdi), %ebx
	movzbl	13(%rdi), %r15d
	movq	64(%rsp), %r8
	movq	72(%rsp), %r14
	cmpq	$20, %r14
	movq	%r8, 48(%rsp)
	ja	.Lunix_path_BB49_17
	cmpq	$2, %r14
	jb	.Lunix_path_BB49_56
	movb	%bl, 47(%rsp)
	movb	%r15b, 46(%rsp)
	movq	%rbp, 144(%rsp)
	movq	%rdi, 56(%rsp)
	movl	$1, %ebx
	movq	%r8, 168(%rsp)
	movq	%r14, 160(%rsp)
	jmp	.Lunix_path_BB49_6
.Lunix_path_BB49_8:
	xorl	%r14d, %r14d
	movq	%r13, %rdi
.Lunix_path_BB49_15:
	movq	152(%rsp), %rax
	movq	%rdi, (%r8,%r14)
	movq	%rax, 8(%r8,%r14)
.Lunix_path_BB49_16:
	incq	%rbx
	addq	$16, 168(%rsp)
	movq	160(%rsp), %r14
	cmpq	%r14, %rbx
	je	.Lunix_path_BB49_42
.Lunix_path_BB49_6:
	movq	%rbx, %r12
	shlq	$4, %r12
	leaq	-1(%rbx), %r14
	movq	%r14, %rax
	shlq	$4, %rax
	movq	(%r8,%r12), %rdi
	movq	8(%r8,%r12), %r13
	movq	(%r8,%rax), %r15
	movq	8(%r8,%rax), %rbp
	movq	%rdi, 240(%rsp)
	movq	%r13, %rsi
	movq	%r15, %rdx
	movq	%rbp, %rcx
	callq	unix_path.compare.compare
	movq	48(%rsp), %r8
	testb	%al, %al
	jne	.Lunix_path_BB49_16
	movq	%r13, 152(%rsp)
	movq	240(%rsp), %r13
	movq	%r15, (%r8,%r12)
	movq	%rbp, 8(%r8,%r12)
	testq	%r14, %r14
	je	.Lunix_path_BB49_8
	movq	168(%rsp), %r12
	movq	%r13, %rdi
	.p2align	4
.Lunix_path_BB49_10:
	movq	-16(%r12), %rbp
	movq	-8(%r12), %r15
	movq	152(%rsp), %rsi
	movq	%rbp, %rdx
	movq	%r15, %rcx
	callq	unix_path.compare.compare
	testb	%al, %al
	jne	.Lunix_path_BB49_11
	decq	%r14
	movq	%rbp, (%r12)
	movq	%r15, 8(%r12)
	addq	$-16, %r12
	testq	%r14, %r14
	movq	%r13, %rdi
	jne	.Lunix_path_BB49_10
	xorl	%r14d, %r14d
	jmp	.Lunix_path_BB49_14
.Lunix_path_BB49_11:
	movq	%r13, %rdi
.Lunix_path_BB49_14:
	shlq	$4, %r14
	movq	48(%rsp), %r8
	jmp	.Lunix_path_BB49_15
.Lunix_path_BB49_17:
	movq	%rbp, 144(%rsp)
	movq	%rdi, 56(%rsp)
	movq	%r8, %rdi
	movq	%r14, %rsi
	xorl	%edx, %edx
	callq	core.slice.sort.pivot.run_from.3c1dbacb5aad6c68.
	movl	%edx, %ebp
	cmpq	%r14, %rax
	jne	.Lunix_path_BB49_20
	movb	%bl, 47(%rsp)
	movb	%r15b, 46(%rsp)
	cmpb	$1, %bpl
	movq	48(%rsp), %r8
	jne	.Lunix_path_BB49_42
	movq	%r14, %rdx
	shrq	%rdx
	movq	%r14, %rsi
	subq	%rdx, %rsi
	shlq	$4, %rsi
	addq	%r8, %rsi
	movq	%r8, %rdi
	callq	core.slice.edits.mirror.21.unix_path.path.Path.
	jmp	.Lunix_path_BB49_41
.Lunix_path_BB49_100:
	movq	%rdi, %r15
	testb	$1, %al
	je	.Lunix_path_BB49_101
	movq	%r12, %rcx
.Lunix_path_BB49_105:
	decq	%r13
	je	.Lunix_path_BB49_112
	leaq	16(%rcx), %rbx
	movq	(%rcx), %rdi
	movq	8(%rcx), %rsi
	movq	16(%rcx), %r14
	movq	24(%rcx), %rcx
	movq	%r14, %rdx
	callq	unix_path.compare.compare
	movq	%rbx, %rcx
	testb	%al, %al
	jne	.Lunix_path_BB49_105
	jmp	.Lunix_path_BB49_107
.Lunix_path_BB49_20:
	movq	%r14, %rdi
	shlq	$4, %rdi
	js	.Lunix_path_BB49_119
	movq	%rax, %r13
	movl	$8, %esi
	callq	rattle_alloc@PLT
	xorl	%r12d, %r12d
	testb	$1, %al
	cmovneq	%rdx, %r12
	je	.Lunix_path_BB49_119
	movb	%r15b, 46(%rsp)
	movq	%rdx, 176(%rsp)
	movq	%r14, 184(%rsp)
	cmpq	$65, %r14
	setae	%cl
	movq	%r14, %rax
	shrq	%rax
	cmpq	%rax, %r13
	setae	%dl
	orb	%cl, %dl
	movb	%bl, 47(%rsp)
	jne	.Lunix_path_BB49_24
	bsrq	%r14, %rcx
	xorl	$63, %ecx
	addl	%ecx, %ecx
	xorl	$126, %ecx
	leaq	176(%rsp), %r8
	movq	48(%rsp), %rdi
	movq	%r14, %rsi
	movq	%r14, %rdx
	jmp	.Lunix_path_BB49_39
.Lunix_path_BB49_94:
	movq	%r12, %rcx
.Lunix_path_BB49_95:
	decq	%r13
	je	.Lunix_path_BB49_112
	leaq	16(%rcx), %rbx
	movq	(%rcx), %rdi
	movq	8(%rcx), %rsi
	movq	16(%rcx), %r14
	movq	24(%rcx), %rcx
	movq	%r14, %rdx
	callq	unix_path.compare.compare
	movq	%rbx, %rcx
	testb	%al, %al
	je	.Lunix_path_BB49_95
	jmp	.Lunix_path_BB49_107
.Lunix_path_BB49_101:
	movq	%r12, %rsi
.Lunix_path_BB49_102:
	decq	%r13
	je	.Lunix_path_BB49_112
	leaq	16(%rsi), %rbx
	movq	(%rsi), %rdx
	movq	8(%rsi), %rcx
	movq	16(%rsi), %r14
	movq	24(%rsi), %rsi
	movq	%r14, %rdi
	callq	unix_path.compare.compare
	movq	%rbx, %rsi
	testb	%al, %al
	jne	.Lunix_path_BB49_102
.Lunix_path_BB49_107:
	movq	8(%rbx), %rbx
	movq	$0, 72(%rsp)
	cmpq	$0, 80(%rsp)
	je	.Lunix_path_BB49_109
	xorl	%eax, %eax
.Lunix_path_BB49_111:
	movq	%rax, %rcx
	shlq	$4, %rcx
	movq	%r14, (%r12,%rcx)
	movq	%rbx, 8(%r12,%rcx)
	incq	%rax
	movq	%rax, 72(%rsp)
	jmp	.Lunix_path_BB49_113
.Lunix_path_BB49_112:
	movq	$0, 72(%rsp)
.Lunix_path_BB49_113:
	movq	%r15, %rdi
	xorps	%xmm1, %xmm1
	jmp	.Lunix_path_BB49_114
.Lunix_path_BB49_24:
	xorps	%xmm0, %xmm0
	movaps	%xmm0, 112(%rsp)
	movaps	%xmm0, 96(%rsp)
	movq	$0, 128(%rsp)
	movl	$64, %r15d
	cmpq	$4097, %r14
	movq	48(%rsp), %r10
	jb	.Lunix_path_BB49_28
	movabsq	$4294967296, %rdx
	xorl	%ecx, %ecx
.Lunix_path_BB49_26:
	movq	%rcx, %rsi
	addq	%rdx, %rcx
	shrq	%rcx
	movq	%rcx, %rdi
	imulq	%rcx, %rdi
	cmpq	%r14, %rdi
	cmovaq	%rcx, %rdx
	cmovaq	%rsi, %rcx
	leaq	1(%rcx), %rsi
	cmpq	%rdx, %rsi
	jb	.Lunix_path_BB49_26
	cmpq	$65, %rcx
	movl	$64, %r15d
	cmovaeq	%rcx, %r15
.Lunix_path_BB49_28:
	cmpq	%r15, %rax
	cmovbq	%rax, %r15
	movabsq	$4611686018427387904, %rax
	xorl	%edx, %edx
	divq	%r14
	incq	%rax
	cmpq	%r15, %r13
	movq	%r15, %r8
	cmovaq	%r13, %r8
	setae	%cl
	andb	%cl, %bpl
	cmpb	$1, %bpl
	jne	.Lunix_path_BB49_37
	cmpq	$15, %r13
	jbe	.Lunix_path_BB49_30
	movq	%r13, %rdx
	shrq	%rdx
	movq	%r13, %rsi
	subq	%rdx, %rsi
	shlq	$4, %rsi
	addq	%r10, %rsi
	movq	%r10, %rdi
	movq	%rax, %rbx
	callq	core.slice.edits.mirror.21.unix_path.path.Path.
	movq	48(%rsp), %r10
	movq	%rbx, %rax
.Lunix_path_BB49_36:
	movb	$1, %cl
	movq	%r13, %r8
.Lunix_path_BB49_37:
	leaq	176(%rsp), %rdx
	movq	%rdx, 24(%rsp)
	movq	%rax, 16(%rsp)
	movq	%r15, 8(%rsp)
	movl	$0, (%rsp)
	movzbl	%cl, %r9d
	leaq	96(%rsp), %rdi
	movq	%r10, %rsi
	movq	%r14, %rdx
	xorl	%ecx, %ecx
	callq	core.slice.sort.runs.climb.3c1dbacb5aad6c68.
	testb	$1, 104(%rsp)
	jne	.Lunix_path_BB49_40
	movq	96(%rsp), %rdx
	movl	$127, %eax
	bsrq	%rdx, %rax
	xorl	$63, %eax
	addl	%eax, %eax
	movl	$126, %ecx
	subl	%eax, %ecx
	leaq	176(%rsp), %r8
	movq	48(%rsp), %rdi
	movq	%rdx, %rsi
.Lunix_path_BB49_39:
	callq	core.slice.sort.stable.quicksort.3c1dbacb5aad6c68.
.Lunix_path_BB49_40:
	movq	%r12, %rdi
	callq	rattle_dealloc@PLT
.Lunix_path_BB49_41:
	movq	48(%rsp), %r8
.Lunix_path_BB49_42:
	cmpq	$2, %r14
	jb	.Lunix_path_BB49_43
	testb	$1, 47(%rsp)
	movq	144(%rsp), %rbp
	movzbl	46(%rsp), %r15d
	je	.Lunix_path_BB49_45
	movl	$1, %ebx
	xorl	%r13d, %r13d
	.p2align	4
.Lunix_path_BB49_47:
	movq	16(%r8,%r13), %rdi
	movq	24(%r8,%r13), %rsi
	movq	(%r8,%r13), %rdx
	movq	8(%r8,%r13), %rcx
	callq	unix_path.order.PathPartialEq.eq
	testb	%al, %al
	jne	.Lunix_path_BB49_49
	incq	%rbx
	addq	$16, %r13
	cmpq	%rbx, %r14
	movq	48(%rsp), %r8
	jne	.Lunix_path_BB49_47
.Lunix_path_BB49_45:
	movq	56(%rsp), %rdi
	xorps	%xmm1, %xmm1
	jmp	.Lunix_path_BB49_56
.Lunix_path_BB49_49:
	cmpq	%rbx, %r14
	movq	56(%rsp), %rdi
	xorps	%xmm1, %xmm1
	movq	48(%rsp), %r8
	je	.Lunix_path_BB49_56
	movq	80(%rsp), %rsi
	leaq	-1(%rbx), %rcx
	movl	$1, %eax
	cmpq	%r14, %rbx
	jae	.Lunix_path_BB49_51
	movq	%rsi, 152(%rsp)
	movb	%r15b, 46(%rsp)
	movq	%rbp, 144(%rsp)
	movq	%rdi, 56(%rsp)
	movb	$1, %al
.Lunix_path_BB49_53:
	movq	%r14, 160(%rsp)
	movl	%eax, %ebp
	movq	%rcx, %r14
	movq	16(%r8,%r13), %rdi
	movq	24(%r8,%r13), %rsi
	movq	(%r8,%r13), %r15
	movq	8(%r8,%r13), %r12
	movq	%r15, %rdx
	movq	%r12, %rcx
	callq	unix_path.order.PathPartialEq.eq
	movq	48(%rsp), %r8
	xorb	$1, %al
	movq	%r14, %rcx
	shlq	$4, %rcx
	movq	%r15, (%r8,%rcx)
	movq	%r12, 8(%r8,%rcx)
	movzbl	%bpl, %ecx
	andl	$1, %ecx
	addq	%r14, %rcx
	movq	160(%rsp), %r14
	addq	$16, %r13
	decq	%r14
	cmpq	%r14, %rbx
	jne	.Lunix_path_BB49_53
	movq	%rcx, %rdx
	shlq	$4, %rdx
	movzbl	%al, %eax
	movq	56(%rsp), %rdi
	movq	144(%rsp), %rbp
	xorps	%xmm1, %xmm1
	movzbl	46(%rsp), %r15d
	movq	152(%rsp), %rsi
	jmp	.Lunix_path_BB49_55
.Lunix_path_BB49_43:
	movq	56(%rsp), %rdi
	movq	144(%rsp), %rbp
	xorps	%xmm1, %xmm1
	movzbl	46(%rsp), %r15d
	jmp	.Lunix_path_BB49_56
.Lunix_path_BB49_51:
	movq	%r13, %rdx
.Lunix_path_BB49_55:
	addq	%rcx, %rax
	movups	(%r8,%r13), %xmm0
	movups	%xmm0, (%r8,%rdx)
	movq	%rax, 72(%rsp)
	movq	%rsi, 80(%rsp)
	movq	%rax, %r14
.Lunix_path_BB49_56:
	testb	$1, %r15b
	je	.Lunix_path_BB49_114
	cmpq	$15, %r14
	jbe	.Lunix_path_BB49_58
	movq	%r14, %rdx
	shrq	%rdx
	subq	%rdx, %r14
	shlq	$4, %r14
	addq	%r8, %r14
	movq	%rdi, %rbx
	movq	%r8, %rdi
	movq	%r14, %rsi
	callq	core.slice.edits.mirror.21.unix_path.path.Path.
	xorps	%xmm1, %xmm1
	movq	%rbx, %rdi
	jmp	.Lunix_path_BB49_114
.Lunix_path_BB49_58:
	cmpq	$2, %r14
	jb	.Lunix_path_BB49_114
	leaq	-2(%r14), %rcx
	movq	%rcx, %rax
	shrq	%rax
	movq	%r14, %rdx
	decq	%rdx
	je	.Lunix_path_BB49_61
	shlq	$4, %rdx
	movups	(%r8), %xmm0
	movaps	%xmm0, 96(%rsp)
	movups	(%r8,%rdx), %xmm0
	movups	%xmm0, (%r8)
	movaps	96(%rsp), %xmm0
	movups	%xmm0, (%r8,%rdx)
.Lunix_path_BB49_61:
	testq	%rax, %rax
	je	.Lunix_path_BB49_114
	cmpq	$1, %rcx
	jbe	.Lunix_path_BB49_63
	shlq	$4, %rcx
	movups	16(%r8), %xmm0
	movaps	%xmm0, 96(%rsp)
	movups	(%r8,%rcx), %xmm0
	movups	%xmm0, 16(%r8)
	movaps	96(%rsp), %xmm0
	movups	%xmm0, (%r8,%rcx)
	jmp	.Lunix_path_BB49_66
.Lunix_path_BB49_63:
	testq	%rcx, %rcx
	jne	.Lunix_path_BB49_66
	movups	(%r8), %xmm0
	movaps	%xmm0, 96(%rsp)
	movups	16(%r8), %xmm0
	movups	%xmm0, (%r8)
	movaps	96(%rsp), %xmm0
	movups	%xmm0, 16(%r8)
.Lunix_path_BB49_66:
	cmpq	$1, %rax
	je	.Lunix_path_BB49_114
	leaq	-3(%r14), %rcx
	cmpq	$2, %rcx
	jbe	.Lunix_path_BB49_68
	shlq	$4, %rcx
	movups	32(%r8), %xmm0
	movaps	%xmm0, 96(%rsp)
	movups	(%r8,%rcx), %xmm0
	movups	%xmm0, 32(%r8)
	movaps	96(%rsp), %xmm0
	movups	%xmm0, (%r8,%rcx)
	jmp	.Lunix_path_BB49_71
.Lunix_path_BB49_109:
	leaq	64(%rsp), %rdi
	movl	$1, %esi
	callq	std_alloc.vec.Vec.grow_amortized.a60b1bb647f5ec87.
	testb	%al, %al
	je	.Lunix_path_BB49_119
	movq	64(%rsp), %r12
	movq	72(%rsp), %rax
	jmp	.Lunix_path_BB49_111
.Lunix_path_BB49_119:
	movb	$1, %bl
	movb	$3, %bpl
	cmpq	$0, 80(%rsp)
	je	.Lunix_path_BB49_122
	movq	64(%rsp), %rdi
	jmp	.Lunix_path_BB49_121
.Lunix_path_BB49_68:
	je	.Lunix_path_BB49_71
	shlq	$4, %rcx
	movups	(%r8,%rcx), %xmm0
	movaps	%xmm0, 96(%rsp)
	movups	32(%r8), %xmm0
	movups	%xmm0, (%r8,%rcx)
	movaps	96(%rsp), %xmm0
	movups	%xmm0, 32(%r8)
.Lunix_path_BB49_71:
	cmpq	$2, %rax
	je	.Lunix_path_BB49_114
	leaq	-4(%r14), %rcx
	cmpq	$3, %rcx
	jbe	.Lunix_path_BB49_73
	shlq	$4, %rcx
	movups	48(%r8), %xmm0
	movaps	%xmm0, 96(%rsp)
	movups	(%r8,%rcx), %xmm0
	movups	%xmm0, 48(%r8)
	movaps	96(%rsp), %xmm0
	movups	%xmm0, (%r8,%rcx)
	jmp	.Lunix_path_BB49_76
.Lunix_path_BB49_30:
	leaq	-2(%r13), %rcx
	shrq	%rcx
	incq	%rcx
	movq	%r13, %rdx
	shlq	$4, %rdx
	addq	%r10, %rdx
	addq	$-16, %rdx
	movq	%r13, %rsi
	decq	%rsi
	xorl	%edi, %edi
	movq	%r10, %r8
	jmp	.Lunix_path_BB49_31
.Lunix_path_BB49_32:
	movups	(%r8), %xmm0
	movaps	%xmm0, 224(%rsp)
	movups	(%rdx), %xmm0
	movups	%xmm0, (%r8)
	movaps	224(%rsp), %xmm0
	movups	%xmm0, (%rdx)
.Lunix_path_BB49_35:
	incq	%rdi
	addq	$16, %r8
	addq	$-16, %rdx
	decq	%rsi
	cmpq	%rdi, %rcx
	je	.Lunix_path_BB49_36
.Lunix_path_BB49_31:
	cmpq	%rsi, %rdi
	jb	.Lunix_path_BB49_32
	jbe	.Lunix_path_BB49_35
	movups	(%rdx), %xmm0
	movaps	%xmm0, 224(%rsp)
	movups	(%r8), %xmm0
	movups	%xmm0, (%rdx)
	movaps	224(%rsp), %xmm0
	movups	%xmm0, (%r8)
	jmp	.Lunix_path_BB49_35
.Lunix_path_BB49_73:
	je	.Lunix_path_BB49_76
	shlq	$4, %rcx
	movups	(%r8,%rcx), %xmm0
	movaps	%xmm0, 96(%rsp)
	movups	48(%r8), %xmm0
	movups	%xmm0, (%r8,%rcx)
	movaps	96(%rsp), %xmm0
	movups	%xmm0, 48(%r8)
.Lunix_path_BB49_76:
	cmpq	$3, %rax
	je	.Lunix_path_BB49_114
	leaq	-5(%r14), %rcx
	cmpq	$4, %rcx
	jbe	.Lunix_path_BB49_78
	shlq	$4, %rcx
	movups	64(%r8), %xmm0
	movaps	%xmm0, 96(%rsp)
	movups	(%r8,%rcx), %xmm0
	movups	%xmm0, 64(%r8)
	movaps	96(%rsp), %xmm0
	movups	%xmm0, (%r8,%rcx)
	jmp	.Lunix_path_BB49_81
.Lunix_path_BB49_78:
	je	.Lunix_path_BB49_81
	shlq	$4, %rcx
	movups	(%r8,%rcx), %xmm0
	movaps	%xmm0, 96(%rsp)
	movups	64(%r8), %xmm0
	movups	%xmm0, (%r8,%rcx)
	movaps	96(%rsp), %xmm0
	movups	%xmm0, 64(%r8)
.Lunix_path_BB49_81:
	cmpq	$4, %rax
	je	.Lunix_path_BB49_114
	leaq	-6(%r14), %rcx
	cmpq	$5, %rcx
	jbe	.Lunix_path_BB49_83
	shlq	$4, %rcx
	movups	80(%r8), %xmm0
	movaps	%xmm0, 96(%rsp)
	movups	(%r8,%rcx), %xmm0
	movups	%xmm0, 80(%r8)
	movaps	96(%rsp), %xmm0
	movups	%xmm0, (%r8,%rcx)
	jmp	.Lunix_path_BB49_86
.Lunix_path_BB49_83:
	je	.Lunix_path_BB49_86
	shlq	$4, %rcx
	movups	(%r8,%rcx), %xmm0
	movaps	%xmm0, 96(%rsp)
	movups	80(%r8), %xmm0
	movups	%xmm0, (%r8,%rcx)
	movaps	96(%rsp), %xmm0
	movups	%xmm0, 80(%r8)
.Lunix_path_BB49_86:
	cmpq	$5, %rax
	je	.Lunix_path_BB49_114
	addq	$-7, %r14
	cmpq	$6, %r14
	jbe	.Lunix_path_BB49_88
	shlq	$4, %r14
	movups	96(%r8), %xmm0
	movaps	%xmm0, 96(%rsp)
	movups	(%r8,%r14), %xmm0
	movups	%xmm0, 96(%r8)
	movaps	96(%rsp), %xmm0
	movups	%xmm0, (%r8,%r14)
	jmp	.Lunix_path_BB49_114
.Lunix_path_BB49_88:
	je	.Lunix_path_BB49_114
	shlq	$4, %r14
	movups	(%r8,%r14), %xmm0
	movaps	%xmm0, 96(%rsp)
	movups	96(%r8), %xmm0
	movups	%xmm0, (%r8,%r14)
	movaps	96(%rsp), %xmm0
	movups	%xmm0, 96(%r8)
	jmp	.Lunix_path_BB49_114
.Lunix_path_func_end49:
	.size	upath_commands.runs.answer_gathered.3596f8ae3b0ff399., .Lunix_path_func_end49-upath_commands.runs.answer_gathered.3596f8ae3b0ff399.
	.section	.text.core.slice.sort.pivot.run_from.3c1dbacb5aad6c68.,"ax",@progbits
	.p2align	4
	.type	core.slice.sort.pivot.run_from.3c1dbacb5aad6c68.,@function
# core::slice::sort::pivot::run_from::<#3c1dbacb5aad6c68>
core.slice.sort.pivot.run_from.3c1dbacb5aad6c68.:
	pushq	%r15
	pushq	%r14
	pushq	%r12
	pushq	%rbx
	pushq	%rax
	movq	%rdx, %r15
	movq	%rsi, %r14
	movq	%rdi, %r12
	leaq	2(%rdx), %rbx
	shlq	$4, %r15
	movq	16(%rdi,%r15), %rdi
	movq	24(%r12,%r15), %rsi
	movq	(%r12,%r15), %rdx
	movq	8(%r12,%r15), %rcx
	callq	unix_path.compare.compare
	testb	%al, %al
	je	.Lunix_path_BB50_6
	cmpq	%r14, %rbx
	jae	.Lunix_path_BB50_12
	addq	%r12, %r15
	addq	$40, %r15
	.p2align	4
.Lunix_path_BB50_3:
	movq	-8(%r15), %rdi
	movq	(%r15), %rsi
	movq	-24(%r15), %rdx
	movq	-16(%r15), %rcx
	callq	unix_path.compare.compare
	testb	%al, %al
	je	.Lunix_path_BB50_12
	incq	%rbx
	addq	$16, %r15
	cmpq	%rbx, %r14
	jne	.Lunix_path_BB50_3
	xorl	%edx, %edx
	movq	%r14, %rbx
	jmp	.Lunix_path_BB50_14
.Lunix_path_BB50_12:
	xorl	%edx, %edx
	jmp	.Lunix_path_BB50_14
.Lunix_path_BB50_6:
	movb	$1, %dl
	cmpq	%r14, %rbx
	jae	.Lunix_path_BB50_14
	addq	%r12, %r15
	addq	$40, %r15
	.p2align	4
.Lunix_path_BB50_8:
	movq	-8(%r15), %rdi
	movq	(%r15), %rsi
	movq	-24(%r15), %rdx
	movq	-16(%r15), %rcx
	callq	unix_path.compare.compare
	testb	%al, %al
	jne	.Lunix_path_BB50_13
	incq	%rbx
	addq	$16, %r15
	cmpq	%rbx, %r14
	jne	.Lunix_path_BB50_8
	movq	%r14, %rbx
.Lunix_path_BB50_13:
	movb	$1, %dl
.Lunix_path_BB50_14:
	movq	%rbx, %rax
	addq	$8, %rsp
	popq	%rbx
	popq	%r12
	popq	%r14
	popq	%r15
	retq
.Lunix_path_func_end50:
	.size	core.slice.sort.pivot.run_from.3c1dbacb5aad6c68., .Lunix_path_func_end50-core.slice.sort.pivot.run_from.3c1dbacb5aad6c68.
	.section	.text.core.slice.edits.mirror.21.unix_path.path.Path.,"ax",@progbits
	.p2align	4
	.type	core.slice.edits.mirror.21.unix_path.path.Path.,@function
# core::slice::edits::mirror::<21'unix_path::path::Path>
core.slice.edits.mirror.21.unix_path.path.Path.:
	movq	%rdx, %rax
	shlq	$4, %rax
	addq	%rsi, %rax
	addq	$-16, %rax
	.p2align	4
.Lunix_path_BB51_1:
	movups	(%rdi), %xmm0
	movaps	%xmm0, -24(%rsp)
	movups	(%rax), %xmm0
	movups	%xmm0, (%rdi)
	movaps	-24(%rsp), %xmm0
	movups	%xmm0, (%rax)
	addq	$16, %rdi
	addq	$-16, %rax
	decq	%rdx
	jne	.Lunix_path_BB51_1
	retq
.Lunix_path_func_end51:
	.size	core.slice.edits.mirror.21.unix_path.path.Path., .Lunix_path_func_end51-core.slice.edits.mirror.21.unix_path.path.Path.
	.section	.text.core.slice.sort.stable.quicksort.3c1dbacb5aad6c68.,"ax",@progbits
	.p2align	4
	.type	core.slice.sort.stable.quicksort.3c1dbacb5aad6c68.,@function
# core::slice::sort::stable::quicksort::<#3c1dbacb5aad6c68>
core.slice.sort.stable.quicksort.3c1dbacb5aad6c68.:
	pushq	%rbp
	pushq	%r15
	pushq	%r14
	pushq	%r13
	pushq	%r12
	pushq	%rbx
	subq	$88, %rsp
	movq	%r8, 48(%rsp)
	movl	%ecx, %r15d
	movq	%rdx, %r14
	movq	%rsi, %rbx
	cmpq	$33, %rsi
	jae	.Lunix_path_BB52_1
.Lunix_path_BB52_32:
	movq	%rbx, %rsi
	movq	48(%rsp), %rdx
	addq	$88, %rsp
	popq	%rbx
	popq	%r12
	popq	%r13
	popq	%r14
	popq	%r15
	popq	%rbp
	jmp	core.slice.sort.short.sort.3c1dbacb5aad6c68.
	.p2align	4
.Lunix_path_BB52_42:
	movq	%rbx, %rdi
	movq	%rsi, %r15
	movq	%r11, %rbp
	callq	memmove@PLT
	movq	%rbp, %r11
	movq	%r15, %rsi
	movq	16(%rsp), %rdi
	movl	28(%rsp), %r15d
	movq	64(%rsp), %r9
.Lunix_path_BB52_48:
	movq	48(%rsp), %r8
	movq	%rsi, (%r8)
	movq	%r9, 8(%r8)
	decl	%r15d
	movq	%r11, %rsi
	movq	%r14, %rdx
	movl	%r15d, %ecx
	callq	core.slice.sort.stable.quicksort.3c1dbacb5aad6c68.
	movq	%r13, %r14
	movq	%rbx, %rdi
	movq	%r12, %rbx
	cmpq	$33, %r12
	jb	.Lunix_path_BB52_32
.Lunix_path_BB52_1:
	testl	%r15d, %r15d
	je	.Lunix_path_BB52_49
	movq	%rbx, %r13
	shrq	$3, %r13
	cmpq	$63, %rbx
	movq	%rbx, 40(%rsp)
	movq	%rdi, 16(%rsp)
	movl	%r15d, 28(%rsp)
	ja	.Lunix_path_BB52_6
	movq	%r13, %rax
	shlq	$6, %rax
	movq	(%rdi), %rbx
	movq	8(%rdi), %rbp
	movq	(%rdi,%rax), %rdx
	movq	8(%rdi,%rax), %rcx
	movq	%rdi, %r12
	movq	%rbx, %rdi
	movq	%rbp, %rsi
	movq	%rdx, (%rsp)
	movq	%rcx, 32(%rsp)
	callq	unix_path.compare.compare
	movl	%eax, %r15d
	testb	%al, %al
	sete	8(%rsp)
	imulq	$112, %r13, %rax
	movq	(%r12,%rax), %rcx
	movq	8(%r12,%rax), %rax
	movq	%rcx, %r12
	movq	%rbx, %rdi
	movq	%rbp, %rsi
	movq	%rax, %rbp
	movq	%rcx, %rdx
	movq	%rax, %rcx
	callq	unix_path.compare.compare
	testb	%al, %al
	sete	%al
	xorb	8(%rsp), %al
	je	.Lunix_path_BB52_5
	xorl	%ebp, %ebp
	movq	40(%rsp), %rbx
	jmp	.Lunix_path_BB52_7
	.p2align	4
.Lunix_path_BB52_6:
	leaq	(,%r13,4), %rdx
	leaq	(,%r13,8), %rcx
	subq	%r13, %rcx
	xorl	%esi, %esi
	movq	%r13, %r8
	callq	core.slice.sort.pivot.median_of_medians.3c1dbacb5aad6c68.
	movq	%rax, %rbp
	jmp	.Lunix_path_BB52_7
	.p2align	4
.Lunix_path_BB52_5:
	testb	%r15b, %r15b
	sete	%bl
	leaq	(,%r13,8), %r15
	subq	%r13, %r15
	shlq	$2, %r13
	movq	(%rsp), %rdi
	movq	32(%rsp), %rsi
	movq	%r12, %rdx
	movq	%rbp, %rcx
	callq	unix_path.compare.compare
	testb	%al, %al
	sete	%al
	xorb	%bl, %al
	cmovneq	%r15, %r13
	movq	40(%rsp), %rbx
	movq	%r13, %rbp
.Lunix_path_BB52_7:
	movq	%rbp, %rcx
	shlq	$4, %rcx
	cmpq	%rbx, %r14
	movq	%rbp, 32(%rsp)
	movq	%rcx, 72(%rsp)
	jae	.Lunix_path_BB52_8
	shlq	$4, %r14
	movq	16(%rsp), %rax
	movq	(%rax,%r14), %rdi
	movq	8(%rax,%r14), %rsi
	movq	(%rax,%rcx), %rdx
	movq	8(%rax,%rcx), %rcx
	movq	%rdx, 8(%rsp)
	movq	%rcx, (%rsp)
	callq	unix_path.compare.compare
	movq	48(%rsp), %rcx
	movq	(%rcx), %rsi
	movq	8(%rcx), %rcx
	movq	%rcx, 64(%rsp)
	testb	%al, %al
	je	.Lunix_path_BB52_12
	testq	%rbp, %rbp
	movq	%rsi, 56(%rsp)
	je	.Lunix_path_BB52_14
	movq	16(%rsp), %rax
	leaq	8(%rax), %rbx
	xorl	%r12d, %r12d
	movq	%rsi, %r15
	movq	8(%rsp), %rdi
	movq	(%rsp), %rsi
	.p2align	4
.Lunix_path_BB52_16:
	movq	-8(%rbx), %r14
	movq	(%rbx), %r13
	movq	%r14, %rdx
	movq	%r13, %rcx
	callq	unix_path.compare.compare
	movq	(%rsp), %rsi
	movq	8(%rsp), %rdi
	movq	16(%rsp), %r8
	movq	%r12, %rcx
	shlq	$4, %rcx
	movq	%r14, (%r8,%rcx)
	movq	%r13, 8(%r8,%rcx)
	movq	%r15, %rdx
	subq	%rcx, %rdx
	movups	(%r8,%rcx), %xmm0
	cmpb	$1, %al
	sbbq	$-1, %r12
	movups	%xmm0, (%rdx)
	addq	$16, %r15
	addq	$16, %rbx
	decq	%rbp
	jne	.Lunix_path_BB52_16
	jmp	.Lunix_path_BB52_17
	.p2align	4
.Lunix_path_BB52_8:
	movq	48(%rsp), %rax
	movq	(%rax), %rsi
	movq	8(%rax), %rax
	movq	%rax, 64(%rsp)
	movq	16(%rsp), %rdi
	movq	(%rdi,%rcx), %rdx
	movq	8(%rdi,%rcx), %rcx
	jmp	.Lunix_path_BB52_9
.Lunix_path_BB52_12:
	movq	16(%rsp), %rdi
	movq	8(%rsp), %rdx
	movq	(%rsp), %rcx
.Lunix_path_BB52_9:
	testq	%rbp, %rbp
	movq	%rdx, 8(%rsp)
	movq	%rcx, (%rsp)
	movq	%rsi, 56(%rsp)
	je	.Lunix_path_BB52_10
	leaq	8(%rdi), %r12
	xorl	%ebx, %ebx
	movq	%rsi, %r15
	.p2align	4
.Lunix_path_BB52_34:
	movq	-8(%r12), %r14
	movq	(%r12), %r13
	movq	%r14, %rdi
	movq	%r13, %rsi
	callq	unix_path.compare.compare
	movq	(%rsp), %rcx
	movq	8(%rsp), %rdx
	movq	16(%rsp), %rdi
	movq	%rbx, %r8
	shlq	$4, %r8
	movq	%r14, (%rdi,%r8)
	movq	%r13, 8(%rdi,%r8)
	movq	%r15, %rsi
	subq	%r8, %rsi
	movups	(%rdi,%r8), %xmm0
	cmpb	$1, %al
	adcq	$0, %rbx
	movups	%xmm0, (%rsi)
	addq	$16, %r15
	addq	$16, %r12
	decq	%rbp
	jne	.Lunix_path_BB52_34
	jmp	.Lunix_path_BB52_35
	.p2align	4
.Lunix_path_BB52_10:
	xorl	%ebx, %ebx
.Lunix_path_BB52_35:
	movq	32(%rsp), %rax
	incq	%rax
	movq	%rbx, 80(%rsp)
	movq	%rbx, %r11
	cmpq	40(%rsp), %rax
	jae	.Lunix_path_BB52_38
	movq	32(%rsp), %rbp
	notq	%rbp
	addq	40(%rsp), %rbp
	movq	56(%rsp), %rax
	movq	72(%rsp), %rsi
	leaq	(%rax,%rsi), %r15
	addq	$16, %r15
	leaq	(%rdi,%rsi), %r14
	addq	$24, %r14
	movq	80(%rsp), %r11
	.p2align	4
.Lunix_path_BB52_37:
	movq	-8(%r14), %r13
	movq	(%r14), %r12
	movq	%r13, %rdi
	movq	%r12, %rsi
	movq	%r11, %rbx
	callq	unix_path.compare.compare
	movq	%rbx, %r11
	movq	(%rsp), %rcx
	movq	8(%rsp), %rdx
	movq	16(%rsp), %rdi
	movq	%rbx, %r8
	shlq	$4, %r8
	movq	%r13, (%rdi,%r8)
	movq	%r12, 8(%rdi,%r8)
	movq	%r15, %rsi
	subq	%r8, %rsi
	movups	(%rdi,%r8), %xmm0
	cmpb	$1, %al
	adcq	$0, %r11
	movups	%xmm0, (%rsi)
	addq	$16, %r15
	addq	$16, %r14
	decq	%rbp
	jne	.Lunix_path_BB52_37
.Lunix_path_BB52_38:
	movq	32(%rsp), %r13
	subq	80(%rsp), %r13
	movq	%r13, %rax
	shlq	$4, %rax
	movq	56(%rsp), %rsi
	movq	%rdx, (%rsi,%rax)
	movq	%rcx, 8(%rsi,%rax)
	movq	40(%rsp), %r14
	movq	%r14, %r12
	subq	%r11, %r12
	movq	%r11, %rax
	shlq	$4, %rax
	leaq	(%rdi,%rax), %rbx
	movq	%r12, %rdx
	shlq	$4, %rdx
	movq	%rbx, %rcx
	subq	%rsi, %rcx
	cmpq	%rdx, %rcx
	jae	.Lunix_path_BB52_42
	cmpq	%r11, %r14
	movl	28(%rsp), %r15d
	movq	64(%rsp), %r9
	je	.Lunix_path_BB52_48
	movl	%r12d, %ecx
	andl	$7, %ecx
	movq	%r11, %rdx
	subq	%r14, %rdx
	cmpq	$-8, %rdx
	jbe	.Lunix_path_BB52_43
	xorl	%edx, %edx
	jmp	.Lunix_path_BB52_46
.Lunix_path_BB52_14:
	xorl	%r12d, %r12d
	movq	16(%rsp), %r8
	movq	8(%rsp), %rdi
	movq	(%rsp), %rsi
.Lunix_path_BB52_17:
	leaq	1(%r12), %rbp
	movq	32(%rsp), %r9
	leaq	1(%r9), %rax
	movq	40(%rsp), %rcx
	cmpq	%rcx, %rax
	jae	.Lunix_path_BB52_20
	notq	%r9
	addq	%rcx, %r9
	movq	56(%rsp), %rax
	movq	72(%rsp), %rcx
	leaq	(%rax,%rcx), %rbx
	addq	$16, %rbx
	leaq	(%r8,%rcx), %r15
	addq	$24, %r15
	.p2align	4
.Lunix_path_BB52_19:
	movq	%r9, 32(%rsp)
	movq	-8(%r15), %r14
	movq	(%r15), %r13
	movq	%r14, %rdx
	movq	%r13, %rcx
	callq	unix_path.compare.compare
	movq	(%rsp), %rsi
	movq	8(%rsp), %rdi
	movq	16(%rsp), %r8
	movq	%rbp, %rcx
	shlq	$4, %rcx
	movq	%r14, (%r8,%rcx)
	movq	%r13, 8(%r8,%rcx)
	movq	32(%rsp), %r9
	movq	%rbx, %rdx
	subq	%rcx, %rdx
	movups	(%r8,%rcx), %xmm0
	cmpb	$1, %al
	sbbq	$-1, %rbp
	movups	%xmm0, (%rdx)
	addq	$16, %rbx
	addq	$16, %r15
	decq	%r9
	jne	.Lunix_path_BB52_19
.Lunix_path_BB52_20:
	shlq	$4, %r12
	movq	%rdi, (%r8,%r12)
	movq	%rsi, 8(%r8,%r12)
	movq	40(%rsp), %r14
	movq	%r14, %r12
	subq	%rbp, %r12
	movq	%rbp, %rcx
	shlq	$4, %rcx
	leaq	(%r8,%rcx), %rbx
	movq	%r12, %rdx
	shlq	$4, %rdx
	movq	%rbx, %rax
	movq	56(%rsp), %rsi
	subq	%rsi, %rax
	cmpq	%rdx, %rax
	jae	.Lunix_path_BB52_24
	cmpq	%rbp, %r14
	movl	28(%rsp), %r15d
	je	.Lunix_path_BB52_30
	movl	%r12d, %eax
	andl	$7, %eax
	subq	%r14, %rbp
	cmpq	$-8, %rbp
	jbe	.Lunix_path_BB52_25
	xorl	%edx, %edx
	jmp	.Lunix_path_BB52_28
.Lunix_path_BB52_24:
	movq	%rbx, %rdi
	movq	%rsi, %r15
	callq	memmove@PLT
	movq	%r15, %rsi
	movl	28(%rsp), %r15d
	jmp	.Lunix_path_BB52_30
.Lunix_path_BB52_43:
	movq	%r12, %r10
	andq	$-8, %r10
	movl	$112, %r8d
	xorl	%edx, %edx
	.p2align	4
.Lunix_path_BB52_44:
	movups	-112(%rsi,%r8), %xmm0
	movups	%xmm0, -112(%rbx,%r8)
	movups	-96(%rsi,%r8), %xmm0
	movups	%xmm0, -96(%rbx,%r8)
	movups	-80(%rsi,%r8), %xmm0
	movups	%xmm0, -80(%rbx,%r8)
	movups	-64(%rsi,%r8), %xmm0
	movups	%xmm0, -64(%rbx,%r8)
	movups	-48(%rsi,%r8), %xmm0
	movups	%xmm0, -48(%rbx,%r8)
	movups	-32(%rsi,%r8), %xmm0
	movups	%xmm0, -32(%rbx,%r8)
	movups	-16(%rsi,%r8), %xmm0
	movups	%xmm0, -16(%rbx,%r8)
	movups	(%rsi,%r8), %xmm0
	movups	%xmm0, (%rbx,%r8)
	addq	$8, %rdx
	subq	$-128, %r8
	cmpq	%rdx, %r10
	jne	.Lunix_path_BB52_44
	testq	%rcx, %rcx
	je	.Lunix_path_BB52_48
.Lunix_path_BB52_46:
	shlq	$4, %rdx
	leaq	(%rsi,%rdx), %r8
	addq	%rdi, %rax
	addq	%rdx, %rax
	shll	$4, %ecx
	xorl	%edx, %edx
	.p2align	4
.Lunix_path_BB52_47:
	movups	(%r8,%rdx), %xmm0
	movups	%xmm0, (%rax,%rdx)
	addq	$16, %rdx
	cmpq	%rdx, %rcx
	jne	.Lunix_path_BB52_47
	jmp	.Lunix_path_BB52_48
.Lunix_path_BB52_25:
	movq	%r12, %r9
	andq	$-8, %r9
	movl	$112, %edi
	xorl	%edx, %edx
	.p2align	4
.Lunix_path_BB52_26:
	movups	-112(%rsi,%rdi), %xmm0
	movups	%xmm0, -112(%rbx,%rdi)
	movups	-96(%rsi,%rdi), %xmm0
	movups	%xmm0, -96(%rbx,%rdi)
	movups	-80(%rsi,%rdi), %xmm0
	movups	%xmm0, -80(%rbx,%rdi)
	movups	-64(%rsi,%rdi), %xmm0
	movups	%xmm0, -64(%rbx,%rdi)
	movups	-48(%rsi,%rdi), %xmm0
	movups	%xmm0, -48(%rbx,%rdi)
	movups	-32(%rsi,%rdi), %xmm0
	movups	%xmm0, -32(%rbx,%rdi)
	movups	-16(%rsi,%rdi), %xmm0
	movups	%xmm0, -16(%rbx,%rdi)
	movups	(%rsi,%rdi), %xmm0
	movups	%xmm0, (%rbx,%rdi)
	addq	$8, %rdx
	subq	$-128, %rdi
	cmpq	%rdx, %r9
	jne	.Lunix_path_BB52_26
	testq	%rax, %rax
	je	.Lunix_path_BB52_30
.Lunix_path_BB52_28:
	shlq	$4, %rdx
	leaq	(%rsi,%rdx), %rdi
	addq	%rcx, %r8
	addq	%rdx, %r8
	shll	$4, %eax
	xorl	%ecx, %ecx
	.p2align	4
.Lunix_path_BB52_29:
	movups	(%rdi,%rcx), %xmm0
	movups	%xmm0, (%r8,%rcx)
	addq	$16, %rcx
	cmpq	%rcx, %rax
	jne	.Lunix_path_BB52_29
.Lunix_path_BB52_30:
	movq	48(%rsp), %rax
	movq	%rsi, (%rax)
	movq	64(%rsp), %rcx
	movq	%rcx, 8(%rax)
	decl	%r15d
	movq	%rbx, %rdi
	movq	%r12, %rbx
	cmpq	$33, %r12
	jae	.Lunix_path_BB52_1
	jmp	.Lunix_path_BB52_32
.Lunix_path_BB52_49:
	movq	%rbx, %rsi
	movq	48(%rsp), %rdx
	addq	$88, %rsp
	popq	%rbx
	popq	%r12
	popq	%r13
	popq	%r14
	popq	%r15
	popq	%rbp
	jmp	core.slice.sort.stable.merge_sort.3c1dbacb5aad6c68.
.Lunix_path_func_end52:
	.size	core.slice.sort.stable.quicksort.3c1dbacb5aad6c68., .Lunix_path_func_end52-core.slice.sort.stable.quicksort.3c1dbacb5aad6c68.
	.section	.text.core.slice.sort.short.sort.3c1dbacb5aad6c68.,"ax",@progbits
	.p2align	4
	.type	core.slice.sort.short.sort.3c1dbacb5aad6c68.,@function
# core::slice::sort::short::sort::<#3c1dbacb5aad6c68>
core.slice.sort.short.sort.3c1dbacb5aad6c68.:
	cmpq	$16, %rsi
	jb	core.slice.sort.short.sort_half.3c1dbacb5aad6c68.
	pushq	%rbp
	pushq	%r15
	pushq	%r14
	pushq	%r13
	pushq	%r12
	pushq	%rbx
	subq	$104, %rsp
	movq	%rsi, %r13
	shrq	%r13
	movq	%r13, %r12
	shlq	$4, %r12
	addq	%rdi, %r12
	movq	%rsi, %rbp
	subq	%r13, %rbp
	movq	%rdi, %rbx
	movq	%rsi, %r14
	movq	%r13, %rsi
	movq	%rdx, %r15
	callq	core.slice.sort.short.sort_half.3c1dbacb5aad6c68.
	movq	%r12, %rdi
	movq	%rbp, %rsi
	movq	%r15, %rdx
	callq	core.slice.sort.short.sort_half.3c1dbacb5aad6c68.
	movq	(%r15), %rax
	movq	%rax, 88(%rsp)
	movq	%r15, 96(%rsp)
	movq	8(%r15), %rax
	movq	%rax, 32(%rsp)
	xorps	%xmm0, %xmm0
	movaps	%xmm0, 64(%rsp)
	movaps	%xmm0, 48(%rsp)
	leaq	48(%rsp), %rax
	addq	%r14, %rax
	decq	%rax
	xorl	%r12d, %r12d
	movq	%r13, %r15
	movq	%rbx, %rbp
	movq	%r13, %rbx
	movq	%r14, 40(%rsp)
	movq	%r14, %rcx
	xorl	%r14d, %r14d
	movq	%r13, 16(%rsp)
	.p2align	4
.Lunix_path_BB53_2:
	movq	%rax, (%rsp)
	movq	%rcx, 8(%rsp)
	movq	%r15, 24(%rsp)
	movq	%rbx, %r13
	movq	%r12, %r15
	movq	%rbx, %rax
	shlq	$4, %rax
	movq	%r12, %rcx
	shlq	$4, %rcx
	movq	(%rbp,%rax), %rdi
	movq	8(%rbp,%rax), %rsi
	movq	(%rbp,%rcx), %rdx
	movq	8(%rbp,%rcx), %rcx
	callq	unix_path.compare.compare
	xorl	%r12d, %r12d
	xorl	%ebx, %ebx
	testb	%al, %al
	setne	%r12b
	movl	%r15d, %eax
	cmovel	%r13d, %eax
	sete	%bl
	movb	%al, 48(%rsp,%r14)
	addq	%r13, %rbx
	movq	16(%rsp), %r13
	addq	%r15, %r12
	movq	24(%rsp), %r15
	movq	8(%rsp), %rax
	shlq	$4, %rax
	movq	%r15, %rcx
	shlq	$4, %rcx
	movq	-16(%rbp,%rax), %rdi
	movq	-8(%rbp,%rax), %rsi
	movq	-16(%rbp,%rcx), %rdx
	movq	-8(%rbp,%rcx), %rcx
	callq	unix_path.compare.compare
	xorl	%ecx, %ecx
	xorl	%edx, %edx
	testb	%al, %al
	setne	%cl
	movq	8(%rsp), %rax
	cmovel	%r15d, %eax
	sete	%dl
	decb	%al
	movq	(%rsp), %rsi
	movb	%al, (%rsi)
	movq	(%rsp), %rax
	subq	%rdx, %r15
	subq	%rcx, 8(%rsp)
	movq	8(%rsp), %rcx
	incq	%r14
	decq	%rax
	cmpq	%r14, %r13
	jne	.Lunix_path_BB53_2
	movq	%rbp, (%rsp)
	movq	40(%rsp), %r8
	testb	$1, %r8b
	je	.Lunix_path_BB53_5
	cmpq	%r15, %r12
	movl	%ebx, %eax
	cmovbl	%r12d, %eax
	movb	%al, 48(%rsp,%r13)
.Lunix_path_BB53_5:
	cmpq	%rcx, %rbx
	ja	.Lunix_path_BB53_17
	cmpq	%r15, %r12
	ja	.Lunix_path_BB53_17
	movl	%r8d, %edx
	andl	$62, %edx
	xorl	%ecx, %ecx
	movq	88(%rsp), %r14
	movq	%r14, %rax
	movq	(%rsp), %rdi
	.p2align	4
.Lunix_path_BB53_8:
	movzbl	48(%rsp,%rcx), %esi
	shll	$4, %esi
	movups	(%rdi,%rsi), %xmm0
	movups	%xmm0, (%rax)
	movzbl	49(%rsp,%rcx), %esi
	shll	$4, %esi
	movups	(%rdi,%rsi), %xmm0
	movups	%xmm0, 16(%rax)
	addq	$2, %rcx
	addq	$32, %rax
	cmpq	%rcx, %rdx
	jne	.Lunix_path_BB53_8
	testb	$1, %r8b
	movq	96(%rsp), %rbx
	je	.Lunix_path_BB53_11
	movzbl	48(%rsp,%rcx), %ecx
	shll	$4, %ecx
	movups	(%rdi,%rcx), %xmm0
	movups	%xmm0, (%rax)
.Lunix_path_BB53_11:
	movq	%r8, %rdx
	shlq	$4, %rdx
	movq	%rdi, %rax
	subq	%r14, %rax
	cmpq	%rdx, %rax
	jae	.Lunix_path_BB53_30
	movl	%r8d, %eax
	andl	$7, %eax
	andl	$56, %r8d
	leaq	112(%rdi), %rdx
	leaq	112(%r14), %rsi
	xorl	%ecx, %ecx
	.p2align	4
.Lunix_path_BB53_13:
	movups	-112(%rsi,%rcx), %xmm0
	movups	%xmm0, -112(%rdx,%rcx)
	movups	-96(%rsi,%rcx), %xmm0
	movups	%xmm0, -96(%rdx,%rcx)
	movups	-80(%rsi,%rcx), %xmm0
	movups	%xmm0, -80(%rdx,%rcx)
	movups	-64(%rsi,%rcx), %xmm0
	movups	%xmm0, -64(%rdx,%rcx)
	movups	-48(%rsi,%rcx), %xmm0
	movups	%xmm0, -48(%rdx,%rcx)
	movups	-32(%rsi,%rcx), %xmm0
	movups	%xmm0, -32(%rdx,%rcx)
	movups	-16(%rsi,%rcx), %xmm0
	movups	%xmm0, -16(%rdx,%rcx)
	movups	(%rsi,%rcx), %xmm0
	movups	%xmm0, (%rdx,%rcx)
	subq	$-128, %rcx
	addq	$-8, %r8
	jne	.Lunix_path_BB53_13
	testq	%rax, %rax
	movq	32(%rsp), %rdx
	je	.Lunix_path_BB53_16
	.p2align	4
.Lunix_path_BB53_15:
	movups	(%r14,%rcx), %xmm0
	movups	%xmm0, (%rdi,%rcx)
	addq	$16, %rcx
	decq	%rax
	jne	.Lunix_path_BB53_15
	jmp	.Lunix_path_BB53_16
.Lunix_path_BB53_17:
	movl	$1, %ebx
	movq	(%rsp), %rax
	movq	%rax, 16(%rsp)
	jmp	.Lunix_path_BB53_18
.Lunix_path_BB53_20:
	xorl	%r14d, %r14d
	movq	%r12, %rdi
.Lunix_path_BB53_27:
	movq	8(%rsp), %rcx
	movq	(%rsp), %rax
	movq	%rdi, (%rax,%r14)
	movq	%rcx, 8(%rax,%r14)
.Lunix_path_BB53_28:
	incq	%rbx
	addq	$16, 16(%rsp)
	cmpq	40(%rsp), %rbx
	je	.Lunix_path_BB53_29
.Lunix_path_BB53_18:
	movq	%rbx, %r15
	shlq	$4, %r15
	leaq	-1(%rbx), %r14
	movq	%r14, %rax
	shlq	$4, %rax
	movq	(%rsp), %rcx
	movq	(%rcx,%r15), %rdi
	movq	8(%rcx,%r15), %r12
	movq	(%rcx,%rax), %r13
	movq	8(%rcx,%rax), %rbp
	movq	%rdi, 24(%rsp)
	movq	%r12, %rsi
	movq	%r13, %rdx
	movq	%rbp, %rcx
	callq	unix_path.compare.compare
	testb	%al, %al
	jne	.Lunix_path_BB53_28
	movq	%r12, 8(%rsp)
	movq	24(%rsp), %r12
	movq	(%rsp), %rax
	movq	%r13, (%rax,%r15)
	movq	%rbp, 8(%rax,%r15)
	testq	%r14, %r14
	je	.Lunix_path_BB53_20
	movq	16(%rsp), %r15
	movq	%r12, %rdi
	.p2align	4
.Lunix_path_BB53_22:
	movq	-16(%r15), %r13
	movq	-8(%r15), %rbp
	movq	8(%rsp), %rsi
	movq	%r13, %rdx
	movq	%rbp, %rcx
	callq	unix_path.compare.compare
	testb	%al, %al
	jne	.Lunix_path_BB53_23
	decq	%r14
	movq	%r13, (%r15)
	movq	%rbp, 8(%r15)
	addq	$-16, %r15
	testq	%r14, %r14
	movq	%r12, %rdi
	jne	.Lunix_path_BB53_22
	xorl	%r14d, %r14d
	jmp	.Lunix_path_BB53_26
.Lunix_path_BB53_23:
	movq	%r12, %rdi
.Lunix_path_BB53_26:
	shlq	$4, %r14
	jmp	.Lunix_path_BB53_27
.Lunix_path_BB53_30:
	movq	%r14, %rsi
	callq	memmove@PLT
	movq	32(%rsp), %rdx
.Lunix_path_BB53_16:
	movq	%r14, (%rbx)
	movq	%rdx, 8(%rbx)
.Lunix_path_BB53_29:
	addq	$104, %rsp
	popq	%rbx
	popq	%r12
	popq	%r13
	popq	%r14
	popq	%r15
	popq	%rbp
	retq
.Lunix_path_func_end53:
	.size	core.slice.sort.short.sort.3c1dbacb5aad6c68., .Lunix_path_func_end53-core.slice.sort.short.sort.3c1dbacb5aad6c68.
	.section	.text.core.slice.sort.short.sort_half.3c1dbacb5aad6c68.,"ax",@progbits
	.p2align	4
	.type	core.slice.sort.short.sort_half.3c1dbacb5aad6c68.,@function
# core::slice::sort::short::sort_half::<#3c1dbacb5aad6c68>
core.slice.sort.short.sort_half.3c1dbacb5aad6c68.:
	pushq	%rbp
	pushq	%r15
	pushq	%r14
	pushq	%r13
	pushq	%r12
	pushq	%rbx
	subq	$136, %rsp
	movq	%rdi, %r9
	cmpq	$8, %rsi
	movq	%rsi, 48(%rsp)
	movq	%rdi, (%rsp)
	jb	.Lunix_path_BB54_9
	movq	(%rdx), %rax
	movq	%rax, 32(%rsp)
	movq	%rdx, 24(%rsp)
	movq	8(%rdx), %rax
	movq	%rax, 128(%rsp)
	movq	16(%r9), %rdi
	movq	24(%r9), %rsi
	movq	(%r9), %rdx
	movq	8(%r9), %rcx
	movq	%r9, %r13
	callq	unix_path.compare.compare
	xorl	%r14d, %r14d
	xorl	%r15d, %r15d
	testb	%al, %al
	setne	%r14b
	sete	%r15b
	movq	48(%r13), %rdi
	movq	56(%r13), %rsi
	movq	32(%r13), %rdx
	movq	40(%r13), %rcx
	callq	unix_path.compare.compare
	xorl	%ebx, %ebx
	testb	%al, %al
	sete	%bl
	leal	2(%rbx), %ebp
	xorl	$3, %ebx
	movl	%ebp, %eax
	shll	$4, %eax
	movl	%r15d, %ecx
	shll	$4, %ecx
	movq	(%r13,%rax), %rdi
	movq	8(%r13,%rax), %rsi
	movq	(%r13,%rcx), %rdx
	movq	8(%r13,%rcx), %rcx
	callq	unix_path.compare.compare
	movl	%eax, %r12d
	movl	%ebx, %eax
	shll	$4, %eax
	movl	%r14d, %ecx
	shll	$4, %ecx
	movq	(%r13,%rax), %rdi
	movq	8(%r13,%rax), %rsi
	movq	(%r13,%rcx), %rdx
	movq	8(%r13,%rcx), %rcx
	callq	unix_path.compare.compare
	movl	%r12d, %edx
	testb	%r12b, %r12b
	movl	%ebp, %ecx
	movl	%ebp, %r12d
	cmovel	%r14d, %r12d
	testb	%al, %al
	movl	%r14d, %ebp
	cmovel	%ecx, %ebp
	cmovel	%ebx, %r12d
	cmovel	%r14d, %ebx
	testb	%dl, %dl
	cmovel	%r15d, %ebp
	cmovel	%ecx, %r15d
	movl	%r12d, %eax
	shll	$4, %eax
	movl	%ebp, %ecx
	shll	$4, %ecx
	movq	(%r13,%rax), %rdi
	movq	8(%r13,%rax), %rsi
	movq	(%r13,%rcx), %rdx
	movq	8(%r13,%rcx), %rcx
	callq	unix_path.compare.compare
	shll	$4, %r15d
	testb	%al, %al
	movq	(%r13,%r15), %rax
	movq	%rax, 16(%rsp)
	movq	8(%r13,%r15), %rdx
	movq	%rdx, 40(%rsp)
	movq	32(%rsp), %rcx
	movq	%rax, (%rcx)
	movl	%ebp, %eax
	cmovel	%r12d, %eax
	cmovnel	%r12d, %ebp
	movq	%rdx, 8(%rcx)
	shll	$4, %eax
	movups	(%r13,%rax), %xmm0
	movups	%xmm0, 16(%rcx)
	shll	$4, %ebp
	movups	(%r13,%rbp), %xmm0
	movups	%xmm0, 32(%rcx)
	shll	$4, %ebx
	movq	(%r13,%rbx), %rax
	movq	%rax, 56(%rsp)
	movq	8(%r13,%rbx), %rdx
	movq	%rdx, 64(%rsp)
	movq	%rax, 48(%rcx)
	movq	%rdx, 56(%rcx)
	movq	80(%r13), %rdi
	movq	88(%r13), %rsi
	movq	64(%r13), %rdx
	movq	72(%r13), %rcx
	callq	unix_path.compare.compare
	xorl	%r15d, %r15d
	testb	%al, %al
	sete	%r15b
	movq	112(%r13), %rdi
	movq	120(%r13), %rsi
	movq	96(%r13), %rdx
	movq	104(%r13), %rcx
	callq	unix_path.compare.compare
	xorl	%ebx, %ebx
	testb	%al, %al
	sete	%bl
	leal	4(%r15), %r14d
	xorl	$5, %r15d
	leal	6(%rbx), %ebp
	xorl	$7, %ebx
	movl	%ebp, %eax
	shll	$4, %eax
	movl	%r14d, %ecx
	shll	$4, %ecx
	movq	(%r13,%rax), %rdi
	movq	8(%r13,%rax), %rsi
	movq	(%r13,%rcx), %rdx
	movq	8(%r13,%rcx), %rcx
	callq	unix_path.compare.compare
	movl	%eax, %r12d
	movl	%ebx, %eax
	shll	$4, %eax
	movl	%r15d, %ecx
	shll	$4, %ecx
	movq	(%r13,%rax), %rdi
	movq	8(%r13,%rax), %rsi
	movq	(%r13,%rcx), %rdx
	movq	8(%r13,%rcx), %rcx
	callq	unix_path.compare.compare
	movl	%r12d, %edx
	testb	%r12b, %r12b
	movl	%ebp, %ecx
	cmovel	%r15d, %ebp
	testb	%al, %al
	movl	%r15d, %r12d
	cmovel	%ecx, %r12d
	cmovel	%ebx, %ebp
	cmovel	%r15d, %ebx
	testb	%dl, %dl
	cmovel	%r14d, %r12d
	cmovel	%ecx, %r14d
	movl	%ebp, %eax
	shll	$4, %eax
	movl	%r12d, %ecx
	shll	$4, %ecx
	movq	(%r13,%rax), %rdi
	movq	8(%r13,%rax), %rsi
	movq	(%r13,%rcx), %rdx
	movq	8(%r13,%rcx), %rcx
	callq	unix_path.compare.compare
	shll	$4, %r14d
	testb	%al, %al
	movq	(%r13,%r14), %rdi
	movq	8(%r13,%r14), %rsi
	movq	32(%rsp), %r14
	movq	%rdi, 64(%r14)
	movl	%r12d, %eax
	cmovel	%ebp, %eax
	cmovnel	%ebp, %r12d
	movq	%rsi, 72(%r14)
	shll	$4, %eax
	movups	(%r13,%rax), %xmm0
	movups	%xmm0, 80(%r14)
	shll	$4, %r12d
	movups	(%r13,%r12), %xmm0
	movups	%xmm0, 96(%r14)
	shll	$4, %ebx
	movq	(%r13,%rbx), %r15
	movq	8(%r13,%rbx), %r12
	movq	%r15, 112(%r14)
	movq	%r12, 120(%r14)
	movq	16(%rsp), %rdx
	movq	40(%rsp), %rcx
	callq	unix_path.compare.compare
	xorl	%r13d, %r13d
	movb	%al, 15(%rsp)
	testb	%al, %al
	setne	%r13b
	movq	%r13, %rbx
	xorq	$5, %rbx
	movq	%r15, %rdi
	movq	%r12, %rsi
	movq	56(%rsp), %rdx
	movq	64(%rsp), %rcx
	callq	unix_path.compare.compare
	movb	%al, 13(%rsp)
	testb	%al, %al
	movl	$0, %eax
	sete	%al
	movq	%rax, 40(%rsp)
	movl	$4, %r12d
	subq	%rax, %r12
	addq	$7, %rax
	movq	%rax, 16(%rsp)
	movl	%ebx, %eax
	shll	$4, %eax
	movl	%r13d, %ecx
	shll	$4, %ecx
	movq	(%r14,%rax), %rdi
	movq	8(%r14,%rax), %rsi
	movq	(%r14,%rcx), %rdx
	movq	8(%r14,%rcx), %rcx
	callq	unix_path.compare.compare
	xorl	%ebp, %ebp
	xorl	%r15d, %r15d
	movb	%al, 12(%rsp)
	testb	%al, %al
	setne	%bpl
	sete	%r15b
	movq	%rbx, 112(%rsp)
	addq	%rbx, %r15
	movq	%r13, 96(%rsp)
	addq	%r13, %rbp
	movq	16(%rsp), %rax
	shll	$4, %eax
	movl	%r12d, %ecx
	shll	$4, %ecx
	movq	%r14, %rbx
	movq	-16(%r14,%rax), %rdi
	movq	-8(%r14,%rax), %rsi
	movq	-16(%r14,%rcx), %rdx
	movq	-8(%r14,%rcx), %rcx
	callq	unix_path.compare.compare
	xorl	%esi, %esi
	xorl	%ecx, %ecx
	movb	%al, 14(%rsp)
	testb	%al, %al
	setne	%sil
	sete	%cl
	movq	%r12, 120(%rsp)
	movq	%r12, %r13
	subq	%rcx, %r13
	negq	%rsi
	movq	40(%rsp), %rax
	addq	%rsi, %rax
	addq	$7, %rax
	movq	%rax, 40(%rsp)
	movl	%r15d, %eax
	shll	$4, %eax
	movl	%ebp, %ecx
	shll	$4, %ecx
	movq	(%r14,%rax), %rdi
	movq	8(%r14,%rax), %rsi
	movq	(%r14,%rcx), %rdx
	movq	8(%r14,%rcx), %rcx
	callq	unix_path.compare.compare
	xorl	%ecx, %ecx
	xorl	%r12d, %r12d
	movb	%al, 11(%rsp)
	testb	%al, %al
	setne	%cl
	sete	%r12b
	movq	%r15, 88(%rsp)
	addq	%r15, %r12
	movq	%rbp, 104(%rsp)
	addq	%rbp, %rcx
	movq	%rcx, %r14
	movq	%rcx, 64(%rsp)
	movq	40(%rsp), %r15
	movq	%r15, %rax
	shlq	$4, %rax
	movq	%r13, %rcx
	shlq	$4, %rcx
	movq	-16(%rbx,%rax), %rdi
	movq	-8(%rbx,%rax), %rsi
	movq	-16(%rbx,%rcx), %rdx
	movq	-8(%rbx,%rcx), %rcx
	callq	unix_path.compare.compare
	xorl	%esi, %esi
	xorl	%ecx, %ecx
	movb	%al, 10(%rsp)
	testb	%al, %al
	setne	%sil
	sete	%cl
	movq	%r13, 80(%rsp)
	movq	%r13, %rbp
	subq	%rcx, %rbp
	subq	%rsi, %r15
	movl	%r12d, %eax
	shll	$4, %eax
	movl	%r14d, %ecx
	shll	$4, %ecx
	movq	(%rbx,%rax), %rdi
	movq	8(%rbx,%rax), %rsi
	movq	(%rbx,%rcx), %rdx
	movq	8(%rbx,%rcx), %rcx
	callq	unix_path.compare.compare
	xorl	%r14d, %r14d
	xorl	%r13d, %r13d
	movb	%al, 9(%rsp)
	testb	%al, %al
	setne	56(%rsp)
	sete	%r13b
	movq	%r12, 72(%rsp)
	addl	%r12d, %r13d
	movq	%r15, %rax
	shlq	$4, %rax
	movq	%rbp, %rcx
	shlq	$4, %rcx
	movq	-16(%rbx,%rax), %rdi
	movq	-8(%rbx,%rax), %rsi
	movq	-16(%rbx,%rcx), %rdx
	movq	-8(%rbx,%rcx), %rcx
	callq	unix_path.compare.compare
	movq	64(%rsp), %r12
	xorl	%esi, %esi
	xorl	%ecx, %ecx
	testb	%al, %al
	setne	%sil
	sete	%dl
	movl	%r15d, %edi
	subl	%esi, %edi
	cmpl	%edi, %r13d
	ja	.Lunix_path_BB54_4
	movzbl	56(%rsp), %esi
	movb	%sil, %r14b
	addq	%r12, %r14
	movb	%dl, %cl
	movq	%rbp, %rdx
	subq	%rcx, %rdx
	cmpl	%edx, %r14d
	ja	.Lunix_path_BB54_4
	xorl	%ecx, %ecx
	cmpb	$0, 13(%rsp)
	setne	%cl
	xorl	%edx, %edx
	cmpb	$0, 15(%rsp)
	sete	%dl
	shll	$6, %ecx
	shll	$6, %edx
	cmpb	$0, 12(%rsp)
	movq	112(%rsp), %rsi
	cmovnel	96(%rsp), %esi
	shll	$4, %esi
	cmpb	$0, 11(%rsp)
	movq	104(%rsp), %rdi
	cmovel	88(%rsp), %edi
	shll	$4, %edi
	cmpb	$0, 9(%rsp)
	cmovel	72(%rsp), %r12d
	shll	$4, %r12d
	testb	%al, %al
	cmovel	%ebp, %r15d
	shll	$4, %r15d
	addl	$4080, %r15d
	andl	$4080, %r15d
	cmpb	$0, 10(%rsp)
	movq	40(%rsp), %r8
	cmovel	80(%rsp), %r8d
	movq	32(%rsp), %rax
	movups	(%rax,%rdx), %xmm0
	movq	%rax, %rdx
	movq	(%rsp), %r9
	movups	%xmm0, (%r9)
	movups	(%rax,%rsi), %xmm0
	movups	%xmm0, 16(%r9)
	movups	(%rax,%rdi), %xmm0
	movups	%xmm0, 32(%r9)
	movups	(%rax,%r12), %xmm0
	movups	%xmm0, 48(%r9)
	movups	(%rax,%r15), %xmm0
	shll	$4, %r8d
	addl	$4080, %r8d
	andl	$4080, %r8d
	movups	%xmm0, 64(%r9)
	movups	(%rax,%r8), %xmm0
	cmpb	$0, 14(%rsp)
	movq	16(%rsp), %rax
	cmovel	120(%rsp), %eax
	movups	%xmm0, 80(%r9)
	shll	$4, %eax
	addl	$4080, %eax
	andl	$4080, %eax
	movups	(%rdx,%rax), %xmm0
	movups	%xmm0, 96(%r9)
	movups	48(%rdx,%rcx), %xmm0
	movups	%xmm0, 112(%r9)
	movl	$8, %r13d
	jmp	.Lunix_path_BB54_8
.Lunix_path_BB54_9:
	movl	$1, %r13d
	cmpq	$4, %rsi
	jb	.Lunix_path_BB54_14
	movq	(%rdx), %rax
	movq	%rax, 16(%rsp)
	movq	%rdx, 24(%rsp)
	movq	8(%rdx), %rax
	movq	%rax, 32(%rsp)
	movq	16(%r9), %rdi
	movq	24(%r9), %rsi
	movq	(%r9), %rdx
	movq	8(%r9), %rcx
	callq	unix_path.compare.compare
	xorl	%r14d, %r14d
	xorl	%r13d, %r13d
	testb	%al, %al
	setne	%r14b
	sete	%r13b
	movq	(%rsp), %rax
	movq	48(%rax), %rdi
	movq	(%rsp), %rax
	movq	56(%rax), %rsi
	movq	(%rsp), %rax
	movq	32(%rax), %rdx
	movq	(%rsp), %rax
	movq	40(%rax), %rcx
	callq	unix_path.compare.compare
	xorl	%ebx, %ebx
	testb	%al, %al
	sete	%bl
	leal	2(%rbx), %r15d
	xorl	$3, %ebx
	movl	%r15d, %eax
	shll	$4, %eax
	movl	%r13d, %ecx
	shll	$4, %ecx
	movq	(%rsp), %rdx
	movq	(%rdx,%rax), %rdi
	movq	(%rsp), %rdx
	movq	8(%rdx,%rax), %rsi
	movq	(%rsp), %rax
	movq	(%rax,%rcx), %rdx
	movq	(%rsp), %rax
	movq	8(%rax,%rcx), %rcx
	callq	unix_path.compare.compare
	movl	%eax, %ebp
	movl	%ebx, %eax
	shll	$4, %eax
	movl	%r14d, %ecx
	shll	$4, %ecx
	movq	(%rsp), %rdx
	movq	(%rdx,%rax), %rdi
	movq	(%rsp), %rdx
	movq	8(%rdx,%rax), %rsi
	movq	(%rsp), %rax
	movq	(%rax,%rcx), %rdx
	movq	(%rsp), %rax
	movq	8(%rax,%rcx), %rcx
	callq	unix_path.compare.compare
	movl	%ebp, %ecx
	testb	%bpl, %bpl
	movl	%r15d, %r12d
	cmovel	%r14d, %r12d
	testb	%al, %al
	movl	%r14d, %ebp
	cmovel	%r15d, %ebp
	cmovel	%ebx, %r12d
	cmovel	%r14d, %ebx
	testb	%cl, %cl
	cmovel	%r13d, %ebp
	cmovel	%r15d, %r13d
	movl	%r12d, %eax
	shll	$4, %eax
	movl	%ebp, %ecx
	shll	$4, %ecx
	movq	(%rsp), %rdx
	movq	(%rdx,%rax), %rdi
	movq	(%rsp), %rdx
	movq	8(%rdx,%rax), %rsi
	movq	(%rsp), %rax
	movq	(%rax,%rcx), %rdx
	movq	(%rsp), %rax
	movq	8(%rax,%rcx), %rcx
	callq	unix_path.compare.compare
	movq	16(%rsp), %r10
	movq	(%rsp), %r9
	shll	$4, %r13d
	testb	%al, %al
	movups	(%r9,%r13), %xmm0
	movups	%xmm0, (%r10)
	movl	%ebp, %eax
	cmovel	%r12d, %eax
	cmovnel	%r12d, %ebp
	shll	$4, %eax
	movups	(%r9,%rax), %xmm0
	movups	%xmm0, 16(%r10)
	shll	$4, %ebp
	movups	(%r9,%rbp), %xmm0
	movups	%xmm0, 32(%r10)
	shll	$4, %ebx
	movups	(%r9,%rbx), %xmm0
	movups	%xmm0, 48(%r10)
	movq	%r9, %rax
	subq	%r10, %rax
	cmpq	$63, %rax
	ja	.Lunix_path_BB54_12
	leaq	16(%r9), %rax
	leaq	48(%r9), %rcx
	leaq	32(%r9), %rdx
	leaq	16(%r10), %rsi
	leaq	32(%r10), %rdi
	leaq	48(%r10), %r8
	movups	(%r10), %xmm0
	movups	%xmm0, (%r9)
	movups	(%rsi), %xmm0
	movups	%xmm0, (%rax)
	movups	(%rdi), %xmm0
	movups	%xmm0, (%rdx)
	movups	(%r8), %xmm0
	movups	%xmm0, (%rcx)
	jmp	.Lunix_path_BB54_13
.Lunix_path_BB54_4:
	movq	(%rsp), %r9
	movq	%r9, %rax
	movq	32(%rsp), %rdx
	subq	%rdx, %rax
	cmpq	$127, %rax
	ja	.Lunix_path_BB54_6
	leaq	16(%rdx), %rax
	movups	(%rdx), %xmm0
	movups	%xmm0, (%r9)
	movups	(%rax), %xmm0
	leaq	16(%r9), %rax
	movups	%xmm0, (%rax)
	leaq	32(%rdx), %rax
	movups	(%rax), %xmm0
	leaq	32(%r9), %rax
	movups	%xmm0, (%rax)
	leaq	48(%rdx), %rax
	movups	(%rax), %xmm0
	leaq	48(%r9), %rax
	movups	%xmm0, (%rax)
	leaq	64(%rdx), %rax
	movups	(%rax), %xmm0
	leaq	64(%r9), %rax
	movups	%xmm0, (%rax)
	leaq	80(%rdx), %rax
	movups	(%rax), %xmm0
	leaq	80(%r9), %rax
	movups	%xmm0, (%rax)
	leaq	96(%rdx), %rax
	movups	(%rax), %xmm0
	leaq	96(%r9), %rax
	movups	%xmm0, (%rax)
	leaq	112(%rdx), %rax
	movups	(%rax), %xmm0
	leaq	112(%r9), %rax
	movups	%xmm0, (%rax)
	jmp	.Lunix_path_BB54_7
.Lunix_path_BB54_6:
	movups	(%rdx), %xmm0
	movups	16(%rdx), %xmm1
	movups	32(%rdx), %xmm2
	movups	48(%rdx), %xmm3
	movups	64(%rdx), %xmm4
	movups	80(%rdx), %xmm5
	movups	96(%rdx), %xmm6
	movups	112(%rdx), %xmm7
	movups	%xmm7, 112(%r9)
	movups	%xmm6, 96(%r9)
	movups	%xmm5, 80(%r9)
	movups	%xmm4, 64(%r9)
	movups	%xmm3, 48(%r9)
	movups	%xmm2, 32(%r9)
	movups	%xmm1, 16(%r9)
	movups	%xmm0, (%r9)
.Lunix_path_BB54_7:
	movl	$4, %r13d
.Lunix_path_BB54_8:
	movq	48(%rsp), %rsi
	movq	24(%rsp), %rax
	movq	%rdx, (%rax)
	movq	128(%rsp), %rcx
	movq	%rcx, 8(%rax)
.Lunix_path_BB54_14:
	cmpq	%rsi, %r13
	jae	.Lunix_path_BB54_26
.Lunix_path_BB54_15:
	movl	%r13d, %eax
	shll	$4, %eax
	addq	%r9, %rax
	addq	$-8, %rax
	movq	%rax, 24(%rsp)
	jmp	.Lunix_path_BB54_16
.Lunix_path_BB54_18:
	xorl	%r14d, %r14d
.Lunix_path_BB54_24:
	movq	%r15, (%r9,%r14)
	movq	%r12, 8(%r9,%r14)
	movq	16(%rsp), %r13
.Lunix_path_BB54_25:
	incq	%r13
	addq	$16, 24(%rsp)
	cmpq	48(%rsp), %r13
	je	.Lunix_path_BB54_26
.Lunix_path_BB54_16:
	movq	%r13, %rbx
	shlq	$4, %rbx
	leaq	-1(%r13), %r14
	movq	%r14, %rax
	shlq	$4, %rax
	movq	(%r9,%rbx), %r15
	movq	8(%r9,%rbx), %r12
	movq	(%r9,%rax), %rdx
	movq	8(%r9,%rax), %rbp
	movq	%r15, %rdi
	movq	%r12, %rsi
	movq	%rdx, 32(%rsp)
	movq	%rbp, %rcx
	callq	unix_path.compare.compare
	movq	(%rsp), %r9
	testb	%al, %al
	jne	.Lunix_path_BB54_25
	movq	%r13, 16(%rsp)
	movq	32(%rsp), %rax
	movq	%rax, (%r9,%rbx)
	movq	%rbp, 8(%r9,%rbx)
	testq	%r14, %r14
	je	.Lunix_path_BB54_18
	movq	24(%rsp), %rbx
	.p2align	4
.Lunix_path_BB54_20:
	movq	-24(%rbx), %r13
	movq	-16(%rbx), %rbp
	movq	%r15, %rdi
	movq	%r12, %rsi
	movq	%r13, %rdx
	movq	%rbp, %rcx
	callq	unix_path.compare.compare
	testb	%al, %al
	jne	.Lunix_path_BB54_23
	decq	%r14
	movq	%r13, -8(%rbx)
	movq	%rbp, (%rbx)
	addq	$-16, %rbx
	testq	%r14, %r14
	jne	.Lunix_path_BB54_20
	xorl	%r14d, %r14d
.Lunix_path_BB54_23:
	shlq	$4, %r14
	movq	(%rsp), %r9
	jmp	.Lunix_path_BB54_24
.Lunix_path_BB54_12:
	movups	(%r10), %xmm0
	movups	16(%r10), %xmm1
	movups	32(%r10), %xmm2
	movups	48(%r10), %xmm3
	movups	%xmm3, 48(%r9)
	movups	%xmm2, 32(%r9)
	movups	%xmm1, 16(%r9)
	movups	%xmm0, (%r9)
.Lunix_path_BB54_13:
	movq	24(%rsp), %rax
	movq	%r10, (%rax)
	movq	32(%rsp), %rcx
	movq	%rcx, 8(%rax)
	movl	$4, %r13d
	movq	48(%rsp), %rsi
	cmpq	%rsi, %r13
	jb	.Lunix_path_BB54_15
.Lunix_path_BB54_26:
	addq	$136, %rsp
	popq	%rbx
	popq	%r12
	popq	%r13
	popq	%r14
	popq	%r15
	popq	%rbp
	retq
.Lunix_path_func_end54:
	.size	core.slice.sort.short.sort_half.3c1dbacb5aad6c68., .Lunix_path_func_end54-core.slice.sort.short.sort_half.3c1dbacb5aad6c68.
	.section	.text.core.slice.sort.stable.merge_sort.3c1dbacb5aad6c68.,"ax",@progbits
	.p2align	4
	.type	core.slice.sort.stable.merge_sort.3c1dbacb5aad6c68.,@function
# core::slice::sort::stable::merge_sort::<#3c1dbacb5aad6c68>
core.slice.sort.stable.merge_sort.3c1dbacb5aad6c68.:
	cmpq	$32, %rsi
	ja	.Lunix_path_BB55_2
	jmp	core.slice.sort.short.sort.3c1dbacb5aad6c68.
.Lunix_path_BB55_2:
	pushq	%rbp
	pushq	%r15
	pushq	%r14
	pushq	%r13
	pushq	%r12
	pushq	%rbx
	pushq	%rax
	movq	%rsi, %rbx
	shrq	%rbx
	movq	%rbx, %r14
	shlq	$4, %r14
	addq	%rdi, %r14
	movq	%rsi, %r15
	subq	%rbx, %r15
	movq	%rdi, %r12
	movq	%rsi, %r13
	movq	%rbx, %rsi
	movq	%rdx, %rbp
	callq	core.slice.sort.stable.merge_sort.3c1dbacb5aad6c68.
	movq	%r14, %rdi
	movq	%r15, %rsi
	movq	%rbp, %rdx
	callq	core.slice.sort.stable.merge_sort.3c1dbacb5aad6c68.
	movq	%r12, %rdi
	movq	%r13, %rsi
	movq	%rbx, %rdx
	movq	%rbp, %rcx
	addq	$8, %rsp
	popq	%rbx
	popq	%r12
	popq	%r13
	popq	%r14
	popq	%r15
	popq	%rbp
	jmp	core.slice.sort.merge.merge.3c1dbacb5aad6c68.
.Lunix_path_func_end55:
	.size	core.slice.sort.stable.merge_sort.3c1dbacb5aad6c68., .Lunix_path_func_end55-core.slice.sort.stable.merge_sort.3c1dbacb5aad6c68.
	.section	.text.core.slice.sort.merge.merge.3c1dbacb5aad6c68.,"ax",@progbits
	.p2align	4
	.type	core.slice.sort.merge.merge.3c1dbacb5aad6c68.,@function
# core::slice::sort::merge::merge::<#3c1dbacb5aad6c68>
core.slice.sort.merge.merge.3c1dbacb5aad6c68.:
	pushq	%rbp
	pushq	%r15
	pushq	%r14
	pushq	%r13
	pushq	%r12
	pushq	%rbx
	subq	$56, %rsp
	movq	%rcx, %r12
	movq	%rdx, %r9
	movq	%rsi, %r8
	movq	%rdi, %r15
	movq	%rsi, %rax
	shrq	$2, %rax
	cmpq	%rdx, %rax
	setbe	%cl
	movq	%rsi, %rbp
	subq	%rdx, %rbp
	cmpq	%rbp, %rax
	setbe	%al
	andb	%cl, %al
	cmpq	$4097, %rsi
	setb	%cl
	xorb	$1, %al
	orb	%al, %cl
	movq	%rdi, 24(%rsp)
	movq	%rsi, (%rsp)
	movq	%rdx, 16(%rsp)
	je	.Lunix_path_BB56_1
	cmpq	$4097, %r8
	setae	%cl
	testb	%al, %cl
	je	.Lunix_path_BB56_9
.Lunix_path_BB56_2:
	movq	%r9, %rbx
	shlq	$4, %rbx
	movq	(%r12), %r11
	movq	8(%r12), %r13
	cmpq	%rbp, %r9
	movq	%r11, 8(%rsp)
	jbe	.Lunix_path_BB56_3
	leaq	(%r15,%rbx), %rsi
	leaq	(%r11,%rbx), %r10
	movq	%rbp, %rcx
	shlq	$4, %rcx
	movq	%r10, %rax
	subq	%rsi, %rax
	cmpq	%rcx, %rax
	movq	%rcx, 32(%rsp)
	jae	.Lunix_path_BB56_70
	cmpq	%r9, %r8
	je	.Lunix_path_BB56_76
	movl	%ebp, %eax
	andl	$7, %eax
	movq	%r9, %rcx
	subq	%r8, %rcx
	cmpq	$-8, %rcx
	jbe	.Lunix_path_BB56_71
	xorl	%ecx, %ecx
	jmp	.Lunix_path_BB56_74
.Lunix_path_BB56_1:
	cmpq	$65537, %r8
	jae	.Lunix_path_BB56_2
.Lunix_path_BB56_9:
	movq	(%r12), %r13
	movq	8(%r12), %rax
	movq	%rax, 32(%rsp)
	movq	%r8, %rdx
	shlq	$4, %rdx
	movq	%r13, %rax
	subq	%r15, %rax
	cmpq	%rdx, %rax
	jae	.Lunix_path_BB56_13
	testq	%r8, %r8
	je	.Lunix_path_BB56_19
	movl	%r8d, %eax
	andl	$7, %eax
	cmpq	$8, %r8
	jae	.Lunix_path_BB56_14
	xorl	%ecx, %ecx
	jmp	.Lunix_path_BB56_17
.Lunix_path_BB56_3:
	movq	%r11, %rax
	subq	%r15, %rax
	cmpq	%rbx, %rax
	jae	.Lunix_path_BB56_45
	testq	%r9, %r9
	je	.Lunix_path_BB56_5
	movl	%r9d, %eax
	andl	$7, %eax
	cmpq	$8, %r9
	jae	.Lunix_path_BB56_46
	xorl	%ecx, %ecx
	jmp	.Lunix_path_BB56_49
.Lunix_path_BB56_13:
	movq	%r13, %rdi
	movq	%r15, %rsi
	callq	memmove@PLT
	movq	16(%rsp), %r9
	movq	(%rsp), %r8
	jmp	.Lunix_path_BB56_19
.Lunix_path_BB56_70:
	movq	%r10, %rdi
	movq	%rcx, %rdx
	movq	%r10, %r14
	callq	memmove@PLT
	movq	%r14, %r10
	movq	8(%rsp), %r11
	movq	16(%rsp), %r9
	movq	(%rsp), %r8
	jmp	.Lunix_path_BB56_76
.Lunix_path_BB56_45:
	movq	%r11, %rdi
	movq	%r15, %rsi
	movq	%rbx, %rdx
	callq	memmove@PLT
	movq	8(%rsp), %r11
	movq	16(%rsp), %r9
	movq	(%rsp), %r8
	jmp	.Lunix_path_BB56_51
.Lunix_path_BB56_14:
	movq	%r8, %rdx
	andq	$-8, %rdx
	movl	$112, %esi
	xorl	%ecx, %ecx
	.p2align	4
.Lunix_path_BB56_15:
	movups	-112(%r15,%rsi), %xmm0
	movups	%xmm0, -112(%r13,%rsi)
	movups	-96(%r15,%rsi), %xmm0
	movups	%xmm0, -96(%r13,%rsi)
	movups	-80(%r15,%rsi), %xmm0
	movups	%xmm0, -80(%r13,%rsi)
	movups	-64(%r15,%rsi), %xmm0
	movups	%xmm0, -64(%r13,%rsi)
	movups	-48(%r15,%rsi), %xmm0
	movups	%xmm0, -48(%r13,%rsi)
	movups	-32(%r15,%rsi), %xmm0
	movups	%xmm0, -32(%r13,%rsi)
	movups	-16(%r15,%rsi), %xmm0
	movups	%xmm0, -16(%r13,%rsi)
	movups	(%r15,%rsi), %xmm0
	movups	%xmm0, (%r13,%rsi)
	addq	$8, %rcx
	subq	$-128, %rsi
	cmpq	%rcx, %rdx
	jne	.Lunix_path_BB56_15
	testq	%rax, %rax
	je	.Lunix_path_BB56_19
.Lunix_path_BB56_17:
	shlq	$4, %rcx
	leaq	(%r15,%rcx), %rdx
	addq	%r13, %rcx
	shll	$4, %eax
	xorl	%esi, %esi
	.p2align	4
.Lunix_path_BB56_18:
	movups	(%rdx,%rsi), %xmm0
	movups	%xmm0, (%rcx,%rsi)
	addq	$16, %rsi
	cmpq	%rsi, %rax
	jne	.Lunix_path_BB56_18
.Lunix_path_BB56_19:
	testq	%r9, %r9
	sete	%al
	cmpq	%r8, %r9
	setae	%cl
	orb	%al, %cl
	jne	.Lunix_path_BB56_20
	movq	%r12, 40(%rsp)
	addq	$8, %r15
	xorl	%r12d, %r12d
	movq	%r9, %r11
	movq	%r8, %r10
	xorl	%ebx, %ebx
	.p2align	4
.Lunix_path_BB56_22:
	movq	%r9, 16(%rsp)
	movq	%r10, %rbp
	movq	%r11, %rax
	shlq	$4, %rax
	movq	%r12, %rcx
	shlq	$4, %rcx
	movq	(%r13,%rax), %rdi
	movq	8(%r13,%rax), %rsi
	movq	(%r13,%rcx), %rdx
	movq	%r13, %r14
	movq	8(%r13,%rcx), %rcx
	movq	%r11, %r13
	callq	unix_path.compare.compare
	movq	%r13, %r11
	xorl	%ecx, %ecx
	xorl	%edx, %edx
	movq	%r13, %rdi
	testb	%al, %al
	setne	%al
	sete	%sil
	je	.Lunix_path_BB56_24
	movq	%r12, %rdi
.Lunix_path_BB56_24:
	shlq	$4, %rdi
	movq	%r14, %r13
	movups	(%r14,%rdi), %xmm0
	movups	%xmm0, -8(%r15)
	movb	%sil, %dl
	addq	%rdx, %r11
	movb	%al, %cl
	addq	%rcx, %r12
	movq	16(%rsp), %r9
	cmpq	%r9, %r12
	movq	%rbp, %r10
	jae	.Lunix_path_BB56_29
	cmpq	%r10, %r11
	jae	.Lunix_path_BB56_29
	movq	%r11, 8(%rsp)
	movq	%r10, %rax
	shlq	$4, %rax
	shlq	$4, %r9
	movq	-16(%r13,%rax), %rdi
	movq	-8(%r13,%rax), %rsi
	movq	-16(%r13,%r9), %rdx
	movq	-8(%r13,%r9), %rcx
	callq	unix_path.compare.compare
	movq	%rbp, %r10
	movq	16(%rsp), %r9
	xorl	%ecx, %ecx
	xorl	%edx, %edx
	movq	%r9, %rdi
	testb	%al, %al
	setne	%al
	sete	%sil
	je	.Lunix_path_BB56_28
	movq	%r10, %rdi
.Lunix_path_BB56_28:
	movq	(%rsp), %r8
	decq	%r8
	shlq	$4, %rdi
	movups	-16(%r13,%rdi), %xmm0
	movq	%r8, (%rsp)
	movq	%r8, %rdi
	shlq	$4, %rdi
	movq	24(%rsp), %r8
	movups	%xmm0, (%r8,%rdi)
	movb	%sil, %dl
	subq	%rdx, %r9
	movb	%al, %cl
	subq	%rcx, %r10
	movq	8(%rsp), %r11
.Lunix_path_BB56_29:
	incq	%rbx
	cmpq	%r9, %r12
	jae	.Lunix_path_BB56_31
	addq	$16, %r15
	cmpq	%r10, %r11
	jb	.Lunix_path_BB56_22
.Lunix_path_BB56_31:
	cmpq	%r9, %r12
	cmovbq	%r12, %r11
	shlq	$4, %r11
	movq	40(%rsp), %r12
	movq	24(%rsp), %r15
	movq	(%rsp), %r8
	jmp	.Lunix_path_BB56_32
.Lunix_path_BB56_20:
	xorl	%ebx, %ebx
	xorl	%r11d, %r11d
.Lunix_path_BB56_32:
	movq	%r8, %rcx
	subq	%rbx, %rcx
	leaq	(%r11,%r13), %rsi
	movq	%rbx, %rax
	shlq	$4, %rax
	addq	%rax, %r15
	movq	%rcx, %rdx
	shlq	$4, %rdx
	movq	%r15, %rax
	subq	%rsi, %rax
	cmpq	%rdx, %rax
	jae	.Lunix_path_BB56_36
	cmpq	%rbx, %r8
	je	.Lunix_path_BB56_42
	movl	%ecx, %eax
	andl	$7, %eax
	subq	%r8, %rbx
	cmpq	$-8, %rbx
	jbe	.Lunix_path_BB56_37
	xorl	%edx, %edx
	jmp	.Lunix_path_BB56_40
.Lunix_path_BB56_36:
	movq	%r15, %rdi
	callq	memmove@PLT
	jmp	.Lunix_path_BB56_42
.Lunix_path_BB56_37:
	andq	$-8, %rcx
	movl	$112, %edi
	xorl	%edx, %edx
	.p2align	4
.Lunix_path_BB56_38:
	movups	-112(%rsi,%rdi), %xmm0
	movups	%xmm0, -112(%r15,%rdi)
	movups	-96(%rsi,%rdi), %xmm0
	movups	%xmm0, -96(%r15,%rdi)
	movups	-80(%rsi,%rdi), %xmm0
	movups	%xmm0, -80(%r15,%rdi)
	movups	-64(%rsi,%rdi), %xmm0
	movups	%xmm0, -64(%r15,%rdi)
	movups	-48(%rsi,%rdi), %xmm0
	movups	%xmm0, -48(%r15,%rdi)
	movups	-32(%rsi,%rdi), %xmm0
	movups	%xmm0, -32(%r15,%rdi)
	movups	-16(%rsi,%rdi), %xmm0
	movups	%xmm0, -16(%r15,%rdi)
	movups	(%rsi,%rdi), %xmm0
	movups	%xmm0, (%r15,%rdi)
	addq	$8, %rdx
	subq	$-128, %rdi
	cmpq	%rdx, %rcx
	jne	.Lunix_path_BB56_38
	testq	%rax, %rax
	je	.Lunix_path_BB56_42
.Lunix_path_BB56_40:
	shlq	$4, %rdx
	addq	%rdx, %r11
	addq	%r13, %r11
	addq	%rdx, %r15
	shll	$4, %eax
	xorl	%ecx, %ecx
	.p2align	4
.Lunix_path_BB56_41:
	movups	(%r11,%rcx), %xmm0
	movups	%xmm0, (%r15,%rcx)
	addq	$16, %rcx
	cmpq	%rcx, %rax
	jne	.Lunix_path_BB56_41
.Lunix_path_BB56_42:
	movq	%r13, (%r12)
	movq	32(%rsp), %rax
	movq	%rax, 8(%r12)
	jmp	.Lunix_path_BB56_95
.Lunix_path_BB56_5:
	xorl	%edx, %edx
	movq	%r11, %rsi
	jmp	.Lunix_path_BB56_6
.Lunix_path_BB56_46:
	movq	%r9, %rdx
	andq	$-8, %rdx
	movl	$112, %esi
	xorl	%ecx, %ecx
	.p2align	4
.Lunix_path_BB56_47:
	movups	-112(%r15,%rsi), %xmm0
	movups	%xmm0, -112(%r11,%rsi)
	movups	-96(%r15,%rsi), %xmm0
	movups	%xmm0, -96(%r11,%rsi)
	movups	-80(%r15,%rsi), %xmm0
	movups	%xmm0, -80(%r11,%rsi)
	movups	-64(%r15,%rsi), %xmm0
	movups	%xmm0, -64(%r11,%rsi)
	movups	-48(%r15,%rsi), %xmm0
	movups	%xmm0, -48(%r11,%rsi)
	movups	-32(%r15,%rsi), %xmm0
	movups	%xmm0, -32(%r11,%rsi)
	movups	-16(%r15,%rsi), %xmm0
	movups	%xmm0, -16(%r11,%rsi)
	movups	(%r15,%rsi), %xmm0
	movups	%xmm0, (%r11,%rsi)
	addq	$8, %rcx
	subq	$-128, %rsi
	cmpq	%rcx, %rdx
	jne	.Lunix_path_BB56_47
	testq	%rax, %rax
	je	.Lunix_path_BB56_51
.Lunix_path_BB56_49:
	shlq	$4, %rcx
	leaq	(%r15,%rcx), %rdx
	addq	%r11, %rcx
	shll	$4, %eax
	xorl	%esi, %esi
	.p2align	4
.Lunix_path_BB56_50:
	movups	(%rdx,%rsi), %xmm0
	movups	%xmm0, (%rcx,%rsi)
	addq	$16, %rsi
	cmpq	%rsi, %rax
	jne	.Lunix_path_BB56_50
.Lunix_path_BB56_51:
	testq	%r9, %r9
	sete	%al
	cmpq	%r8, %r9
	setae	%cl
	xorl	%ebx, %ebx
	xorl	%r14d, %r14d
	orb	%al, %cl
	jne	.Lunix_path_BB56_57
	movq	%r9, %r15
	.p2align	4
.Lunix_path_BB56_53:
	movq	%r15, %rax
	shlq	$4, %rax
	movq	%r14, %rcx
	shlq	$4, %rcx
	movq	24(%rsp), %rbp
	movq	(%rbp,%rax), %rdi
	movq	8(%rbp,%rax), %rsi
	movq	(%r11,%rcx), %rdx
	movq	8(%r11,%rcx), %rcx
	callq	unix_path.compare.compare
	movq	8(%rsp), %r11
	xorl	%edx, %edx
	xorl	%ecx, %ecx
	movq	%rbp, %rdi
	movq	%r15, %r8
	testb	%al, %al
	setne	%sil
	sete	%al
	je	.Lunix_path_BB56_55
	movq	%r11, %rdi
	movq	%r14, %r8
.Lunix_path_BB56_55:
	shlq	$4, %r8
	movups	(%rdi,%r8), %xmm0
	movq	24(%rsp), %rdi
	movups	%xmm0, (%rdi,%rbx)
	movb	%sil, %dl
	addq	%rdx, %r14
	addq	$16, %rbx
	movq	16(%rsp), %r9
	cmpq	%r9, %r14
	jae	.Lunix_path_BB56_57
	movb	%al, %cl
	addq	%rcx, %r15
	cmpq	(%rsp), %r15
	jb	.Lunix_path_BB56_53
.Lunix_path_BB56_57:
	movq	%r9, %rdi
	subq	%r14, %rdi
	movq	%r14, %rax
	shlq	$4, %rax
	leaq	(%r11,%rax), %rsi
	movq	24(%rsp), %r10
	leaq	(%r10,%rbx), %r15
	movq	%rdi, %rdx
	shlq	$4, %rdx
	movq	%r15, %rcx
	subq	%rsi, %rcx
	cmpq	%rdx, %rcx
	jae	.Lunix_path_BB56_6
	cmpq	%r14, %r9
	je	.Lunix_path_BB56_94
	movl	%edi, %ecx
	andl	$7, %ecx
	subq	%r9, %r14
	cmpq	$-8, %r14
	jbe	.Lunix_path_BB56_61
	xorl	%edx, %edx
	jmp	.Lunix_path_BB56_64
.Lunix_path_BB56_6:
	movq	%r15, %rdi
	jmp	.Lunix_path_BB56_7
.Lunix_path_BB56_71:
	movq	%rbp, %rdx
	andq	$-8, %rdx
	leaq	112(%rbx), %rsi
	xorl	%ecx, %ecx
	.p2align	4
.Lunix_path_BB56_72:
	movups	-112(%r15,%rsi), %xmm0
	movups	%xmm0, -112(%r11,%rsi)
	movups	-96(%r15,%rsi), %xmm0
	movups	%xmm0, -96(%r11,%rsi)
	movups	-80(%r15,%rsi), %xmm0
	movups	%xmm0, -80(%r11,%rsi)
	movups	-64(%r15,%rsi), %xmm0
	movups	%xmm0, -64(%r11,%rsi)
	movups	-48(%r15,%rsi), %xmm0
	movups	%xmm0, -48(%r11,%rsi)
	movups	-32(%r15,%rsi), %xmm0
	movups	%xmm0, -32(%r11,%rsi)
	movups	-16(%r15,%rsi), %xmm0
	movups	%xmm0, -16(%r11,%rsi)
	movups	(%r15,%rsi), %xmm0
	movups	%xmm0, (%r11,%rsi)
	addq	$8, %rcx
	subq	$-128, %rsi
	cmpq	%rcx, %rdx
	jne	.Lunix_path_BB56_72
	testq	%rax, %rax
	je	.Lunix_path_BB56_76
.Lunix_path_BB56_74:
	shlq	$4, %rcx
	addq	%rbx, %rcx
	leaq	(%r15,%rcx), %rdx
	addq	%r11, %rcx
	shll	$4, %eax
	xorl	%esi, %esi
	.p2align	4
.Lunix_path_BB56_75:
	movups	(%rdx,%rsi), %xmm0
	movups	%xmm0, (%rcx,%rsi)
	addq	$16, %rsi
	cmpq	%rsi, %rax
	jne	.Lunix_path_BB56_75
.Lunix_path_BB56_76:
	cmpq	%r8, %r9
	jae	.Lunix_path_BB56_77
	movq	%r10, 48(%rsp)
	movq	%rbx, 32(%rsp)
	movq	%r13, (%rsp)
	movq	%r12, 40(%rsp)
	movq	%r8, %rax
	shlq	$4, %rax
	addq	%rax, %r15
	addq	$-8, %r15
	movq	%r9, %r14
	.p2align	4
.Lunix_path_BB56_79:
	movq	%r8, %r13
	leaq	-1(%r8), %rbp
	movq	%rbp, %rax
	shlq	$4, %rax
	leaq	-1(%r14), %r12
	movq	%r12, %rcx
	shlq	$4, %rcx
	movq	(%r11,%rax), %rdi
	movq	8(%r11,%rax), %rsi
	movq	24(%rsp), %rbx
	movq	(%rbx,%rcx), %rdx
	movq	8(%rbx,%rcx), %rcx
	callq	unix_path.compare.compare
	movq	8(%rsp), %r11
	xorl	%edx, %edx
	xorl	%ecx, %ecx
	testb	%al, %al
	setne	%al
	sete	%sil
	je	.Lunix_path_BB56_81
	movq	%r11, %rbx
	movq	%rbp, %r12
.Lunix_path_BB56_81:
	shlq	$4, %r12
	movups	(%rbx,%r12), %xmm0
	movups	%xmm0, -8(%r15)
	movb	%sil, %cl
	movb	%al, %dl
	movq	%r13, %r8
	subq	%rdx, %r8
	subq	%rcx, %r14
	movq	16(%rsp), %r9
	je	.Lunix_path_BB56_83
	addq	$-16, %r15
	cmpq	%r9, %r8
	ja	.Lunix_path_BB56_79
.Lunix_path_BB56_83:
	movq	%r8, %rbp
	subq	%r9, %rbp
	shlq	$4, %r14
	movq	%rbp, %rdx
	shlq	$4, %rdx
	movq	40(%rsp), %r12
	movq	24(%rsp), %r15
	movq	(%rsp), %r13
	movq	32(%rsp), %rbx
	movq	48(%rsp), %r10
	jmp	.Lunix_path_BB56_84
.Lunix_path_BB56_77:
	movq	%rbx, %r14
	movq	32(%rsp), %rdx
.Lunix_path_BB56_84:
	addq	%r14, %r15
	movq	%r15, %rax
	subq	%r10, %rax
	cmpq	%rdx, %rax
	jae	.Lunix_path_BB56_88
	cmpq	%r9, %r8
	je	.Lunix_path_BB56_94
	leaq	-1(%rbp), %rcx
	movl	%ebp, %eax
	andl	$7, %eax
	cmpq	$7, %rcx
	jae	.Lunix_path_BB56_89
	xorl	%ecx, %ecx
	jmp	.Lunix_path_BB56_92
.Lunix_path_BB56_88:
	movq	%r15, %rdi
	movq	%r10, %rsi
.Lunix_path_BB56_7:
	callq	memmove@PLT
	movq	8(%rsp), %r11
.Lunix_path_BB56_94:
	movq	%r11, (%r12)
	movq	%r13, 8(%r12)
.Lunix_path_BB56_95:
	addq	$56, %rsp
	popq	%rbx
	popq	%r12
	popq	%r13
	popq	%r14
	popq	%r15
	popq	%rbp
	retq
.Lunix_path_BB56_89:
	andq	$-8, %rbp
	movl	$112, %edx
	xorl	%ecx, %ecx
	.p2align	4
.Lunix_path_BB56_90:
	movups	-112(%r10,%rdx), %xmm0
	movups	%xmm0, -112(%r15,%rdx)
	movups	-96(%r10,%rdx), %xmm0
	movups	%xmm0, -96(%r15,%rdx)
	movups	-80(%r10,%rdx), %xmm0
	movups	%xmm0, -80(%r15,%rdx)
	movups	-64(%r10,%rdx), %xmm0
	movups	%xmm0, -64(%r15,%rdx)
	movups	-48(%r10,%rdx), %xmm0
	movups	%xmm0, -48(%r15,%rdx)
	movups	-32(%r10,%rdx), %xmm0
	movups	%xmm0, -32(%r15,%rdx)
	movups	-16(%r10,%rdx), %xmm0
	movups	%xmm0, -16(%r15,%rdx)
	movups	(%r10,%rdx), %xmm0
	movups	%xmm0, (%r15,%rdx)
	addq	$8, %rcx
	subq	$-128, %rdx
	cmpq	%rcx, %rbp
	jne	.Lunix_path_BB56_90
	testq	%rax, %rax
	je	.Lunix_path_BB56_94
.Lunix_path_BB56_92:
	shlq	$4, %rcx
	addq	%rcx, %rbx
	addq	%r11, %rbx
	addq	%rcx, %r15
	shll	$4, %eax
	xorl	%ecx, %ecx
	.p2align	4
.Lunix_path_BB56_93:
	movups	(%rbx,%rcx), %xmm0
	movups	%xmm0, (%r15,%rcx)
	addq	$16, %rcx
	cmpq	%rcx, %rax
	jne	.Lunix_path_BB56_93
	jmp	.Lunix_path_BB56_94
.Lunix_path_BB56_61:
	andq	$-8, %rdi
	movl	$112, %r9d
	xorl	%edx, %edx
	.p2align	4
.Lunix_path_BB56_62:
	movups	-112(%rsi,%r9), %xmm0
	movups	%xmm0, -112(%r15,%r9)
	movups	-96(%rsi,%r9), %xmm0
	movups	%xmm0, -96(%r15,%r9)
	movups	-80(%rsi,%r9), %xmm0
	movups	%xmm0, -80(%r15,%r9)
	movups	-64(%rsi,%r9), %xmm0
	movups	%xmm0, -64(%r15,%r9)
	movups	-48(%rsi,%r9), %xmm0
	movups	%xmm0, -48(%r15,%r9)
	movups	-32(%rsi,%r9), %xmm0
	movups	%xmm0, -32(%r15,%r9)
	movups	-16(%rsi,%r9), %xmm0
	movups	%xmm0, -16(%r15,%r9)
	movups	(%rsi,%r9), %xmm0
	movups	%xmm0, (%r15,%r9)
	addq	$8, %rdx
	subq	$-128, %r9
	cmpq	%rdx, %rdi
	jne	.Lunix_path_BB56_62
	testq	%rcx, %rcx
	je	.Lunix_path_BB56_94
.Lunix_path_BB56_64:
	shlq	$4, %rdx
	addq	%rdx, %rax
	addq	%r11, %rax
	addq	%rbx, %r10
	addq	%rdx, %r10
	shll	$4, %ecx
	xorl	%edx, %edx
	.p2align	4
.Lunix_path_BB56_65:
	movups	(%rax,%rdx), %xmm0
	movups	%xmm0, (%r10,%rdx)
	addq	$16, %rdx
	cmpq	%rdx, %rcx
	jne	.Lunix_path_BB56_65
	jmp	.Lunix_path_BB56_94
.Lunix_path_func_end56:
	.size	core.slice.sort.merge.merge.3c1dbacb5aad6c68., .Lunix_path_func_end56-core.slice.sort.merge.merge.3c1dbacb5aad6c68.
	.section	.text.core.slice.sort.pivot.median_of_medians.3c1dbacb5aad6c68.,"ax",@progbits
	.p2align	4
	.type	core.slice.sort.pivot.median_of_medians.3c1dbacb5aad6c68.,@function
# core::slice::sort::pivot::median_of_medians::<#3c1dbacb5aad6c68>
core.slice.sort.pivot.median_of_medians.3c1dbacb5aad6c68.:
	pushq	%rbp
	pushq	%r15
	pushq	%r14
	pushq	%r13
	pushq	%r12
	pushq	%rbx
	subq	$40, %rsp
	movq	%rcx, %r14
	movq	%rdx, %r12
	movq	%rsi, %rbx
	movq	%rdi, %r15
	cmpq	$8, %r8
	jae	.Lunix_path_BB57_3
	movq	%rbx, %rax
	shlq	$4, %rax
	movq	%r12, %rcx
	shlq	$4, %rcx
	movq	(%r15,%rax), %r13
	movq	8(%r15,%rax), %rbp
	movq	(%r15,%rcx), %rdx
	movq	8(%r15,%rcx), %rcx
	movq	%r13, %rdi
	movq	%rbp, %rsi
	movq	%rdx, 24(%rsp)
	movq	%rcx, 16(%rsp)
	callq	unix_path.compare.compare
	movb	%al, 8(%rsp)
	testb	%al, %al
	sete	7(%rsp)
	movq	%r14, %rax
	shlq	$4, %rax
	movq	(%r15,%rax), %rcx
	movq	8(%r15,%rax), %r15
	movq	%r13, %rdi
	movq	%rcx, %r13
	movq	%rbp, %rsi
	movq	%rcx, %rdx
	movq	%r15, %rcx
	callq	unix_path.compare.compare
	testb	%al, %al
	sete	%al
	xorb	7(%rsp), %al
	jne	.Lunix_path_BB57_5
	cmpb	$0, 8(%rsp)
	sete	%bl
	movq	24(%rsp), %rdi
	movq	16(%rsp), %rsi
	movq	%r13, %rdx
	movq	%r15, %rcx
	callq	unix_path.compare.compare
	testb	%al, %al
	sete	%al
	xorb	%bl, %al
	cmovneq	%r14, %r12
	movq	%r12, %rbx
	jmp	.Lunix_path_BB57_5
.Lunix_path_BB57_3:
	movq	%r8, %r13
	shrq	$3, %r13
	leaq	(%rbx,%r13,4), %rdx
	andq	$-8, %r8
	subq	%r13, %r8
	leaq	(%r8,%rbx), %rcx
	movq	%r15, %rdi
	movq	%rbx, %rsi
	movq	%r8, %rbp
	movq	%r13, %r8
	callq	core.slice.sort.pivot.median_of_medians.3c1dbacb5aad6c68.
	movq	%rax, %rbx
	leaq	(%r12,%r13,4), %rdx
	leaq	(%r12,%rbp), %rcx
	movq	%r15, %rdi
	movq	%r12, %rsi
	movq	%r13, %r8
	callq	core.slice.sort.pivot.median_of_medians.3c1dbacb5aad6c68.
	movq	%rax, %r12
	leaq	(%r14,%r13,4), %rdx
	addq	%r14, %rbp
	movq	%r15, %rdi
	movq	%r14, %rsi
	movq	%rbp, %rcx
	movq	%r13, %r8
	callq	core.slice.sort.pivot.median_of_medians.3c1dbacb5aad6c68.
	movq	%rax, %r14
	movq	%rbx, %rax
	shlq	$4, %rax
	movq	%r12, 24(%rsp)
	shlq	$4, %r12
	movq	(%r15,%rax), %r13
	movq	8(%r15,%rax), %rbp
	movq	(%r15,%r12), %rdx
	movq	8(%r15,%r12), %rcx
	movq	%r13, %rdi
	movq	%rbp, %rsi
	movq	%rdx, 8(%rsp)
	movq	%rcx, 32(%rsp)
	callq	unix_path.compare.compare
	movl	%eax, %r12d
	testb	%al, %al
	sete	7(%rsp)
	movq	%r14, 16(%rsp)
	movq	%r14, %rax
	shlq	$4, %rax
	movq	(%r15,%rax), %r14
	movq	8(%r15,%rax), %r15
	movq	%r13, %rdi
	movq	%rbp, %rsi
	movq	%r14, %rdx
	movq	%r15, %rcx
	callq	unix_path.compare.compare
	testb	%al, %al
	sete	%al
	xorb	7(%rsp), %al
	jne	.Lunix_path_BB57_5
	testb	%r12b, %r12b
	sete	%bl
	movq	8(%rsp), %rdi
	movq	32(%rsp), %rsi
	movq	%r14, %rdx
	movq	%r15, %rcx
	callq	unix_path.compare.compare
	testb	%al, %al
	sete	%al
	xorb	%bl, %al
	movq	24(%rsp), %rbx
	cmovneq	16(%rsp), %rbx
.Lunix_path_BB57_5:
	movq	%rbx, %rax
	addq	$40, %rsp
	popq	%rbx
	popq	%r12
	popq	%r13
	popq	%r14
	popq	%r15
	popq	%rbp
	retq
.Lunix_path_func_end57:
	.size	core.slice.sort.pivot.median_of_medians.3c1dbacb5aad6c68., .Lunix_path_func_end57-core.slice.sort.pivot.median_of_medians.3c1dbacb5aad6c68.
	.section	.text.core.slice.sort.runs.climb.3c1dbacb5aad6c68.,"ax",@progbits
	.p2align	4
	.type	core.slice.sort.runs.climb.3c1dbacb5aad6c68.,@function
# core::slice::sort::runs::climb::<#3c1dbacb5aad6c68>
core.slice.sort.runs.climb.3c1dbacb5aad6c68.:
	pushq	%rbp
	pushq	%r15
	pushq	%r14
	pushq	%r13
	pushq	%r12
	pushq	%rbx
	subq	$136, %rsp
	movl	%r9d, %ebp
	movq	%r8, %r12
	movq	%rsi, %r13
	movq	$0, 120(%rsp)
	movq	%rdx, %rsi
	subq	%r8, %rsi
	jne	.Lunix_path_BB58_3
	movq	%r12, (%rdi)
	movb	%bpl, 8(%rdi)
	movl	$0, 9(%rdi)
	movl	$0, 12(%rdi)
	movq	%r12, 16(%rdi)
	movb	%bpl, 24(%rdi)
	movq	$0, 25(%rdi)
	movq	$0, 32(%rdi)
	jmp	.Lunix_path_BB58_2
.Lunix_path_BB58_3:
	movq	200(%rsp), %r10
	xorl	%r15d, %r15d
	movq	%rdx, %rax
	movl	$0, %r14d
	cmpq	%r10, %rsi
	movq	%rcx, 40(%rsp)
	movq	%rdx, 80(%rsp)
	jb	.Lunix_path_BB58_45
	movq	%rdi, %rbx
	movq	%r13, %rdi
	movq	%rdx, %rsi
	movq	%r12, %rdx
	callq	core.slice.sort.pivot.run_from.3c1dbacb5aad6c68.
	movq	200(%rsp), %r10
	movq	%rax, %rsi
	subq	%r12, %rsi
	cmpq	%r10, %rsi
	jae	.Lunix_path_BB58_6
	leaq	(%r10,%r12), %rax
	xorl	%r14d, %r14d
	jmp	.Lunix_path_BB58_7
.Lunix_path_BB58_6:
	movb	$1, %r14b
	cmpb	$1, %dl
	jne	.Lunix_path_BB58_7
	movq	%rax, 72(%rsp)
	movq	%r12, %rdi
	shlq	$4, %rdi
	addq	%r13, %rdi
	cmpq	$15, %rsi
	jbe	.Lunix_path_BB58_9
	movq	%rsi, %rdx
	shrq	%rdx
	subq	%rdx, %rsi
	shlq	$4, %rsi
	addq	%rdi, %rsi
	callq	core.slice.edits.mirror.21.unix_path.path.Path.
	movq	%rbx, %rdi
	movq	40(%rsp), %rcx
	movq	80(%rsp), %rdx
	movq	200(%rsp), %r10
	movq	72(%rsp), %rax
	jmp	.Lunix_path_BB58_45
.Lunix_path_BB58_7:
	movq	%rbx, %rdi
	movq	40(%rsp), %rcx
	movq	80(%rsp), %rdx
.Lunix_path_BB58_45:
	leaq	(%r12,%rcx), %r9
	movq	208(%rsp), %r8
	imulq	%r8, %r9
	leaq	(%rax,%r12), %rsi
	imulq	%r8, %rsi
	xorq	%r9, %rsi
	movl	$127, %r8d
	bsrq	%rsi, %r8
	xorl	$63, %r8d
	leal	1(%r8), %esi
	movq	%r12, 88(%rsp)
	movb	%bpl, 96(%rsp)
	leaq	97(%rsp), %rbx
	movl	$0, 97(%rsp)
	movl	$0, 100(%rsp)
	movq	%rax, 104(%rsp)
	movb	%r14b, 112(%rsp)
	movl	$0, 113(%rsp)
	movl	$0, 116(%rsp)
	movl	%esi, 120(%rsp)
	cmpl	%r8d, 192(%rsp)
	ja	.Lunix_path_BB58_57
	movq	%rdi, 128(%rsp)
	shlq	$4, %rcx
	addq	%r13, %rcx
	movq	%rcx, 72(%rsp)
	jmp	.Lunix_path_BB58_47
	.p2align	4
.Lunix_path_BB58_48:
	movl	%r15d, %ebp
.Lunix_path_BB58_55:
	movb	%bpl, 96(%rsp)
	movl	$0, 3(%rbx)
	movl	$0, (%rbx)
	movl	120(%rsp), %esi
	cmpl	%esi, 192(%rsp)
	movq	80(%rsp), %rdx
	movq	200(%rsp), %r10
	jae	.Lunix_path_BB58_56
.Lunix_path_BB58_47:
	movq	%r12, %r14
	movq	104(%rsp), %r8
	movl	112(%rsp), %r9d
	movq	216(%rsp), %rax
	movq	%rax, 24(%rsp)
	movq	208(%rsp), %rcx
	movq	%rcx, 16(%rsp)
	movq	%r10, 8(%rsp)
	movl	%esi, (%rsp)
	leaq	88(%rsp), %rdi
	movq	%r13, %rsi
	movq	%r12, %rcx
	callq	core.slice.sort.runs.climb.3c1dbacb5aad6c68.
	movq	88(%rsp), %r12
	movzbl	96(%rsp), %r15d
	movl	%r15d, %eax
	orb	%bpl, %al
	testb	$1, %al
	je	.Lunix_path_BB58_48
	testb	$1, %bpl
	jne	.Lunix_path_BB58_51
	movq	%r14, %rdx
	subq	40(%rsp), %rdx
	movl	$127, %eax
	bsrq	%rdx, %rax
	xorl	$63, %eax
	addl	%eax, %eax
	movl	$126, %ecx
	subl	%eax, %ecx
	movq	72(%rsp), %rdi
	movq	%rdx, %rsi
	movq	216(%rsp), %r8
	callq	core.slice.sort.stable.quicksort.3c1dbacb5aad6c68.
.Lunix_path_BB58_51:
	movq	%r14, %rbp
	shlq	$4, %rbp
	testb	$1, %r15b
	jne	.Lunix_path_BB58_53
	movq	%r13, %rdi
	addq	%rbp, %rdi
	movq	%r12, %rdx
	subq	%r14, %rdx
	movl	$127, %eax
	bsrq	%rdx, %rax
	xorl	$63, %eax
	addl	%eax, %eax
	movl	$126, %ecx
	subl	%eax, %ecx
	movq	%rdx, %rsi
	movq	216(%rsp), %r8
	callq	core.slice.sort.stable.quicksort.3c1dbacb5aad6c68.
.Lunix_path_BB58_53:
	movq	(%r13,%rbp), %rdi
	movq	8(%r13,%rbp), %rsi
	movq	-16(%r13,%rbp), %rdx
	movq	-8(%r13,%rbp), %rcx
	callq	unix_path.compare.compare
	movb	$1, %bpl
	testb	%al, %al
	jne	.Lunix_path_BB58_55
	movq	%r12, %rsi
	movq	40(%rsp), %rax
	subq	%rax, %rsi
	subq	%rax, %r14
	movq	72(%rsp), %rdi
	movq	%r14, %rdx
	movq	216(%rsp), %rcx
	callq	core.slice.sort.merge.merge.3c1dbacb5aad6c68.
	jmp	.Lunix_path_BB58_55
.Lunix_path_BB58_56:
	movq	104(%rsp), %rax
	movzbl	112(%rsp), %r14d
	movl	124(%rsp), %r15d
	movq	128(%rsp), %rdi
.Lunix_path_BB58_57:
	movq	%r12, (%rdi)
	movb	%bpl, 8(%rdi)
	movl	(%rbx), %ecx
	movl	3(%rbx), %edx
	movl	%ecx, 9(%rdi)
	movl	%edx, 12(%rdi)
	movq	%rax, 16(%rdi)
	movb	%r14b, 24(%rdi)
	movl	16(%rbx), %ecx
	movl	19(%rbx), %edx
	movl	%ecx, 25(%rdi)
	movl	%edx, 28(%rdi)
	movl	%esi, 32(%rdi)
	movl	%r15d, 36(%rdi)
.Lunix_path_BB58_2:
	addq	$136, %rsp
	popq	%rbx
	popq	%r12
	popq	%r13
	popq	%r14
	popq	%r15
	popq	%rbp
	retq
.Lunix_path_BB58_9:
	cmpq	$2, %rsi
	jb	.Lunix_path_BB58_10
	leaq	-2(%rsi), %rcx
	movq	%rcx, %r8
	shrq	%r8
	movq	%rsi, %rdx
	decq	%rdx
	je	.Lunix_path_BB58_14
	shlq	$4, %rdx
	movups	(%rdi), %xmm0
	movaps	%xmm0, 48(%rsp)
	movups	(%rdi,%rdx), %xmm0
	movups	%xmm0, (%rdi)
	movaps	48(%rsp), %xmm0
	movups	%xmm0, (%rdi,%rdx)
.Lunix_path_BB58_14:
	testq	%r8, %r8
	movq	80(%rsp), %rdx
	movq	72(%rsp), %rax
	je	.Lunix_path_BB58_44
	cmpq	$1, %rcx
	jbe	.Lunix_path_BB58_16
	shlq	$4, %rcx
	movups	16(%rdi), %xmm0
	movaps	%xmm0, 48(%rsp)
	movups	(%rdi,%rcx), %xmm0
	movups	%xmm0, 16(%rdi)
	movaps	48(%rsp), %xmm0
	movups	%xmm0, (%rdi,%rcx)
	jmp	.Lunix_path_BB58_19
.Lunix_path_BB58_10:
	movq	%rbx, %rdi
	movq	40(%rsp), %rcx
	movq	80(%rsp), %rdx
	movq	72(%rsp), %rax
	jmp	.Lunix_path_BB58_45
.Lunix_path_BB58_16:
	testq	%rcx, %rcx
	jne	.Lunix_path_BB58_19
	movups	(%rdi), %xmm0
	movaps	%xmm0, 48(%rsp)
	movups	16(%rdi), %xmm0
	movups	%xmm0, (%rdi)
	movaps	48(%rsp), %xmm0
	movups	%xmm0, 16(%rdi)
.Lunix_path_BB58_19:
	cmpq	$1, %r8
	je	.Lunix_path_BB58_44
	leaq	-3(%rsi), %rcx
	cmpq	$2, %rcx
	jbe	.Lunix_path_BB58_21
	shlq	$4, %rcx
	movups	32(%rdi), %xmm0
	movaps	%xmm0, 48(%rsp)
	movups	(%rdi,%rcx), %xmm0
	movups	%xmm0, 32(%rdi)
	movaps	48(%rsp), %xmm0
	movups	%xmm0, (%rdi,%rcx)
	jmp	.Lunix_path_BB58_24
.Lunix_path_BB58_21:
	je	.Lunix_path_BB58_24
	shlq	$4, %rcx
	movups	(%rdi,%rcx), %xmm0
	movaps	%xmm0, 48(%rsp)
	movups	32(%rdi), %xmm0
	movups	%xmm0, (%rdi,%rcx)
	movaps	48(%rsp), %xmm0
	movups	%xmm0, 32(%rdi)
.Lunix_path_BB58_24:
	cmpq	$2, %r8
	je	.Lunix_path_BB58_44
	leaq	-4(%rsi), %rcx
	cmpq	$3, %rcx
	jbe	.Lunix_path_BB58_26
	shlq	$4, %rcx
	movups	48(%rdi), %xmm0
	movaps	%xmm0, 48(%rsp)
	movups	(%rdi,%rcx), %xmm0
	movups	%xmm0, 48(%rdi)
	movaps	48(%rsp), %xmm0
	movups	%xmm0, (%rdi,%rcx)
	jmp	.Lunix_path_BB58_29
.Lunix_path_BB58_26:
	je	.Lunix_path_BB58_29
	shlq	$4, %rcx
	movups	(%rdi,%rcx), %xmm0
	movaps	%xmm0, 48(%rsp)
	movups	48(%rdi), %xmm0
	movups	%xmm0, (%rdi,%rcx)
	movaps	48(%rsp), %xmm0
	movups	%xmm0, 48(%rdi)
.Lunix_path_BB58_29:
	cmpq	$3, %r8
	je	.Lunix_path_BB58_44
	leaq	-5(%rsi), %rcx
	cmpq	$4, %rcx
	jbe	.Lunix_path_BB58_31
	shlq	$4, %rcx
	movups	64(%rdi), %xmm0
	movaps	%xmm0, 48(%rsp)
	movups	(%rdi,%rcx), %xmm0
	movups	%xmm0, 64(%rdi)
	movaps	48(%rsp), %xmm0
	movups	%xmm0, (%rdi,%rcx)
	jmp	.Lunix_path_BB58_34
.Lunix_path_BB58_31:
	je	.Lunix_path_BB58_34
	shlq	$4, %rcx
	movups	(%rdi,%rcx), %xmm0
	movaps	%xmm0, 48(%rsp)
	movups	64(%rdi), %xmm0
	movups	%xmm0, (%rdi,%rcx)
	movaps	48(%rsp), %xmm0
	movups	%xmm0, 64(%rdi)
.Lunix_path_BB58_34:
	cmpq	$4, %r8
	je	.Lunix_path_BB58_44
	leaq	-6(%rsi), %rcx
	cmpq	$5, %rcx
	jbe	.Lunix_path_BB58_36
	shlq	$4, %rcx
	movups	80(%rdi), %xmm0
	movaps	%xmm0, 48(%rsp)
	movups	(%rdi,%rcx), %xmm0
	movups	%xmm0, 80(%rdi)
	movaps	48(%rsp), %xmm0
	movups	%xmm0, (%rdi,%rcx)
	jmp	.Lunix_path_BB58_39
.Lunix_path_BB58_36:
	je	.Lunix_path_BB58_39
	shlq	$4, %rcx
	movups	(%rdi,%rcx), %xmm0
	movaps	%xmm0, 48(%rsp)
	movups	80(%rdi), %xmm0
	movups	%xmm0, (%rdi,%rcx)
	movaps	48(%rsp), %xmm0
	movups	%xmm0, 80(%rdi)
.Lunix_path_BB58_39:
	cmpq	$5, %r8
	je	.Lunix_path_BB58_44
	addq	$-7, %rsi
	cmpq	$6, %rsi
	jbe	.Lunix_path_BB58_41
	shlq	$4, %rsi
	movups	96(%rdi), %xmm0
	movaps	%xmm0, 48(%rsp)
	movups	(%rdi,%rsi), %xmm0
	movups	%xmm0, 96(%rdi)
	movaps	48(%rsp), %xmm0
	movups	%xmm0, (%rdi,%rsi)
	jmp	.Lunix_path_BB58_44
.Lunix_path_BB58_41:
	je	.Lunix_path_BB58_44
	shlq	$4, %rsi
	movups	(%rdi,%rsi), %xmm0
	movaps	%xmm0, 48(%rsp)
	movups	96(%rdi), %xmm0
	movups	%xmm0, (%rdi,%rsi)
	movaps	48(%rsp), %xmm0
	movups	%xmm0, 96(%rdi)
.Lunix_path_BB58_44:
	movq	%rbx, %rdi
	movq	40(%rsp), %rcx
	jmp	.Lunix_path_BB58_45
.Lunix_path_func_end58:
	.size	core.slice.sort.runs.climb.3c1dbacb5aad6c68., .Lunix_path_func_end58-core.slice.sort.runs.climb.3c1dbacb5aad6c68.
	.section	.rodata.cst16,"aM",@progbits,16
	.p2align	4, 0x0
.Lunix_path_CPI59_0:
	.zero	16,47
.Lunix_path_CPI59_1:
	.zero	16,208
.Lunix_path_CPI59_2:
	.zero	16,46
.Lunix_path_CPI59_3:
	.byte	254
	.byte	254
	.byte	254
	.byte	254
	.byte	254
	.byte	254
	.byte	254
	.byte	254
	.zero	1
	.zero	1
	.zero	1
	.zero	1
	.zero	1
	.zero	1
	.zero	1
	.zero	1
.Lunix_path_CPI59_4:
	.byte	46
	.byte	46
	.byte	46
	.byte	46
	.byte	46
	.byte	46
	.byte	46
	.byte	46
	.zero	1
	.zero	1
	.zero	1
	.zero	1
	.zero	1
	.zero	1
	.zero	1
	.zero	1
.Lunix_path_CPI59_5:
	.byte	47
	.byte	47
	.byte	47
	.byte	47
	.byte	47
	.byte	47
	.byte	47
	.byte	47
	.zero	1
	.zero	1
	.zero	1
	.zero	1
	.zero	1
	.zero	1
	.zero	1
	.zero	1
.Lunix_path_CPI59_6:
	.byte	110
	.byte	111
	.byte	32
	.byte	114
	.byte	101
	.byte	108
	.byte	97
	.byte	116
	.byte	105
	.byte	118
	.byte	101
	.byte	32
	.byte	112
	.byte	97
	.byte	116
	.byte	104
	.section	.text.upath_commands.engine.answer_paths.3596f8ae3b0ff399.,"ax",@progbits
	.p2align	4
	.type	upath_commands.engine.answer_paths.3596f8ae3b0ff399.,@function
# upath_commands::engine::answer_paths::<#3596f8ae3b0ff399>
upath_commands.engine.answer_paths.3596f8ae3b0ff399.:
	pushq	%rbp
	pushq	%r15
	pushq	%r14
	pushq	%r13
	pushq	%r12
	pushq	%rbx
	subq	$488, %rsp
	movq	%rdx, 424(%rsp)
	movq	%rcx, 416(%rsp)
	testq	%rcx, %rcx
	je	.Lunix_path_BB59_484
	movq	%r8, %r14
	movq	%rsi, %rbx
	movq	%rdi, %r13
	leaq	16(%rsi), %rax
	movq	%rax, 264(%rsp)
	leaq	16(%r8), %rax
	movq	%rax, 88(%rsp)
	leaq	1(%rdi), %rax
	movq	%rax, 104(%rsp)
	leaq	5(%rdi), %rax
	movq	%rax, 240(%rsp)
	leaq	40(%r8), %rax
	movq	%rax, 408(%rsp)
	leaq	48(%r8), %rax
	movq	%rax, 40(%rsp)
	leaq	56(%r8), %rax
	movq	%rax, 80(%rsp)
	xorl	%r15d, %r15d
	movq	%r8, 32(%rsp)
	movq	%rsi, 208(%rsp)
	movq	%rdi, 112(%rsp)
	jmp	.Lunix_path_BB59_5
.Lunix_path_BB59_2:
	xorl	%r10d, %r10d
.Lunix_path_BB59_3:
	movq	40(%rsp), %rax
	movq	(%rax), %rsi
	movq	408(%rsp), %rdi
	movq	%r10, %rdx
	callq	upath_commands.messages.send.5821a58b74a7d609.
.Lunix_path_BB59_4:
	incq	%r15
	cmpq	416(%rsp), %r15
	je	.Lunix_path_BB59_484
.Lunix_path_BB59_5:
	movq	%r15, %rax
	shlq	$4, %rax
	movq	424(%rsp), %rcx
	movq	(%rcx,%rax), %rdx
	movq	%rdx, 8(%rsp)
	movq	8(%rcx,%rax), %rbp
	cmpb	$0, (%rbx)
	movq	%rbp, 48(%rsp)
	je	.Lunix_path_BB59_101
	testq	%rbp, %rbp
	je	.Lunix_path_BB59_14
	movb	$1, %r12b
	movb	$3, %r13b
	js	.Lunix_path_BB59_495
	movl	$1, %esi
	movq	%rbp, %rdi
	callq	rattle_alloc@PLT
	testb	$1, %al
	movq	8(%rsp), %rsi
	je	.Lunix_path_BB59_495
	movq	%rdx, %r14
	movq	%r14, %rcx
	subq	%rsi, %rcx
	cmpq	%rbp, %rcx
	jae	.Lunix_path_BB59_15
.Lunix_path_BB59_10:
	xorl	%eax, %eax
	cmpq	$4, %rbp
	jb	.Lunix_path_BB59_23
	cmpq	$32, %rcx
	jb	.Lunix_path_BB59_23
	cmpq	$32, %rbp
	jae	.Lunix_path_BB59_16
	xorl	%eax, %eax
	jmp	.Lunix_path_BB59_20
	.p2align	4
.Lunix_path_BB59_14:
	leaq	103(%rsp), %r14
	movq	8(%rsp), %rsi
	movq	%r14, %rcx
	subq	%rsi, %rcx
	cmpq	%rbp, %rcx
	jb	.Lunix_path_BB59_10
.Lunix_path_BB59_15:
	movq	%r14, %rdi
	movq	%rbp, %rdx
	callq	memmove@PLT
	jmp	.Lunix_path_BB59_28
.Lunix_path_BB59_16:
	movq	%rbp, %rax
	andq	$-32, %rax
	xorl	%ecx, %ecx
	.p2align	4
.Lunix_path_BB59_17:
	movdqu	(%rsi,%rcx), %xmm0
	movdqu	16(%rsi,%rcx), %xmm1
	movdqu	%xmm0, (%r14,%rcx)
	movdqu	%xmm1, 16(%r14,%rcx)
	addq	$32, %rcx
	cmpq	%rcx, %rax
	jne	.Lunix_path_BB59_17
	cmpq	%rax, %rbp
	je	.Lunix_path_BB59_28
	testb	$28, %bpl
	je	.Lunix_path_BB59_23
.Lunix_path_BB59_20:
	movq	%rax, %rcx
	movq	%rbp, %rax
	andq	$-4, %rax
	.p2align	4
.Lunix_path_BB59_21:
	movl	(%rsi,%rcx), %edx
	movl	%edx, (%r14,%rcx)
	addq	$4, %rcx
	cmpq	%rcx, %rax
	jne	.Lunix_path_BB59_21
	cmpq	%rax, %rbp
	je	.Lunix_path_BB59_28
.Lunix_path_BB59_23:
	movq	%rbp, %rdx
	movq	%rax, %rcx
	andq	$3, %rdx
	je	.Lunix_path_BB59_26
	movq	%rax, %rcx
	.p2align	4
.Lunix_path_BB59_25:
	movzbl	(%rsi,%rcx), %edi
	movb	%dil, (%r14,%rcx)
	incq	%rcx
	decq	%rdx
	jne	.Lunix_path_BB59_25
.Lunix_path_BB59_26:
	subq	%rbp, %rax
	cmpq	$-4, %rax
	ja	.Lunix_path_BB59_28
	.p2align	4
.Lunix_path_BB59_27:
	movzbl	(%rsi,%rcx), %eax
	movb	%al, (%r14,%rcx)
	movzbl	1(%rsi,%rcx), %eax
	movb	%al, 1(%r14,%rcx)
	movzbl	2(%rsi,%rcx), %eax
	movb	%al, 2(%r14,%rcx)
	movzbl	3(%rsi,%rcx), %eax
	movb	%al, 3(%r14,%rcx)
	addq	$4, %rcx
	cmpq	%rcx, %rbp
	jne	.Lunix_path_BB59_27
	.p2align	4
.Lunix_path_BB59_28:
	cmpb	$1, 8(%rbx)
	movq	%r15, 24(%rsp)
	movq	%r14, 56(%rsp)
	jne	.Lunix_path_BB59_30
	leaq	16(%rbx), %rax
	movq	(%rax), %rdx
	jmp	.Lunix_path_BB59_32
	.p2align	4
.Lunix_path_BB59_30:
	movl	$368, %edi
	movl	$8, %esi
	callq	rattle_alloc@PLT
	testb	$1, %al
	je	.Lunix_path_BB59_493
	movl	$0, (%rdx)
	movzbl	8(%rbx), %eax
	movq	$1, 8(%rbx)
	movq	%rdx, 16(%rbx)
	cmpb	$1, %al
	je	.Lunix_path_BB59_496
.Lunix_path_BB59_32:
	movzwl	2(%rdx), %eax
	movl	$15, %esi
	subq	%rax, %rsi
	movq	%rax, 248(%rsp)
	movl	%eax, %r9d
	negb	%r9b
	xorl	%ecx, %ecx
	movq	%rdx, %rax
	xorl	%r8d, %r8d
	movq	%rdx, 64(%rsp)
	movq	%rdx, %rdi
	movq	%rsi, %r14
	xorl	%ebx, %ebx
	movq	%rsi, 256(%rsp)
	movq	%rax, %rbp
	movzwl	(%rax), %r12d
	testq	%r12, %r12
	je	.Lunix_path_BB59_39
.Lunix_path_BB59_33:
	movb	%r9b, 216(%rsp)
	movq	%rcx, 120(%rsp)
	movq	%r8, 72(%rsp)
	movq	%rdi, 16(%rsp)
	leaq	16(%rbp), %r15
	xorl	%r13d, %r13d
	.p2align	4
.Lunix_path_BB59_34:
	movq	-8(%r15), %rdx
	movq	(%r15), %rcx
	movq	56(%rsp), %rdi
	movq	48(%rsp), %rsi
	callq	unix_path.compare.compare
	cmpb	$2, %al
	jne	.Lunix_path_BB59_37
	incq	%r13
	addq	$24, %r15
	cmpq	%r13, %r12
	jne	.Lunix_path_BB59_34
	movq	%r12, %r13
	jmp	.Lunix_path_BB59_38
	.p2align	4
.Lunix_path_BB59_37:
	movzbl	%al, %eax
	testl	%eax, %eax
	jne	.Lunix_path_BB59_42
.Lunix_path_BB59_38:
	movq	16(%rsp), %rdi
	movq	72(%rsp), %r8
	movq	256(%rsp), %rsi
	movq	120(%rsp), %rcx
	movzbl	216(%rsp), %r9d
	jmp	.Lunix_path_BB59_40
	.p2align	4
.Lunix_path_BB59_39:
	xorl	%r13d, %r13d
.Lunix_path_BB59_40:
	shlq	$4, %rbx
	addq	%r13, %rbx
	incq	%r14
	cmpw	$0, 2(%rbp)
	je	.Lunix_path_BB59_45
	movq	368(%rbp,%r13,8), %rax
	incq	%rcx
	incb	%r9b
	movq	%r13, %r8
	movq	%rbp, %rdi
	movq	%rax, %rbp
	movzwl	(%rax), %r12d
	testq	%r12, %r12
	jne	.Lunix_path_BB59_33
	jmp	.Lunix_path_BB59_39
	.p2align	4
.Lunix_path_BB59_42:
	andl	$15, %r13d
	movq	248(%rsp), %rax
	addq	%r14, %rax
	cmpq	$15, %rax
	movq	16(%rsp), %rax
	movq	72(%rsp), %rcx
	leaq	368(%rax,%rcx,8), %rax
	movq	208(%rsp), %rbx
	leaq	16(%rbx), %rcx
	cmoveq	%rcx, %rax
	movq	(%rax), %rax
	movzwl	(%rax), %eax
	cmpl	%eax, %r13d
	movq	24(%rsp), %r15
	jae	.Lunix_path_BB59_496
	cmpq	$0, 48(%rsp)
	movq	32(%rsp), %r14
	movq	112(%rsp), %r13
	je	.Lunix_path_BB59_4
	movq	56(%rsp), %rdi
	callq	rattle_dealloc@PLT
	jmp	.Lunix_path_BB59_4
.Lunix_path_BB59_45:
	movq	%rcx, 120(%rsp)
	movabsq	$9223372036854775806, %rax
	movq	208(%rsp), %r15
	cmpq	%rax, 24(%r15)
	movq	112(%rsp), %r13
	movq	48(%rsp), %rbp
	ja	.Lunix_path_BB59_492
	movq	%r14, %rax
	subq	%rsi, %rax
	movq	%rax, 216(%rsp)
	cmpq	$1, %rax
	leaq	368(%rdi,%r8,8), %rax
	leaq	16(%r15), %rcx
	cmoveq	%rcx, %rax
	movq	(%rax), %rax
	cmpw	$14, (%rax)
	jbe	.Lunix_path_BB59_100
	movl	%r9d, %r12d
	movq	64(%rsp), %rax
	cmpw	$15, (%rax)
	movq	%rsi, %rax
	jb	.Lunix_path_BB59_51
	cmpw	$10, 248(%rsp)
	ja	.Lunix_path_BB59_492
	movq	%rdi, 16(%rsp)
	movl	$496, %edi
	movl	$8, %esi
	movq	%r8, 72(%rsp)
	callq	rattle_alloc@PLT
	movq	256(%rsp), %rsi
	movq	72(%rsp), %r8
	movq	16(%rsp), %rdi
	movq	%rdx, 64(%rsp)
	testb	$1, %al
	je	.Lunix_path_BB59_492
	movq	248(%rsp), %r9
	leal	1(%r9), %eax
	movq	64(%rsp), %rdx
	movw	%ax, 2(%rdx)
	leaq	16(%r15), %rcx
	movq	(%rcx), %rax
	movq	%rax, 368(%rdx)
	movw	$0, (%rdx)
	movq	%rdx, (%rcx)
	movl	$14, %eax
	subq	%r9, %rax
.Lunix_path_BB59_51:
	pxor	%xmm0, %xmm0
	movdqa	%xmm0, 224(%rsp)
	movq	%r14, %rcx
	subq	%rax, %rcx
	movq	%rcx, 216(%rsp)
	jbe	.Lunix_path_BB59_57
	movl	%r14d, %ecx
	subl	%eax, %ecx
	testb	$3, %cl
	je	.Lunix_path_BB59_55
	subb	%al, %r12b
	movzbl	%r12b, %ecx
	andl	$3, %ecx
	.p2align	4
.Lunix_path_BB59_54:
	movl	%ebx, %edx
	andb	$15, %dl
	movb	%dl, 223(%rsp,%r14)
	decq	%r14
	shrq	$4, %rbx
	decq	%rcx
	jne	.Lunix_path_BB59_54
.Lunix_path_BB59_55:
	movq	120(%rsp), %r12
	addq	%rsi, %r12
	subq	%rax, %r12
	cmpq	$3, %r12
	jb	.Lunix_path_BB59_57
	.p2align	4
.Lunix_path_BB59_56:
	movl	%ebx, %ecx
	andb	$15, %cl
	movb	%cl, 223(%rsp,%r14)
	movl	%ebx, %ecx
	shrb	$4, %cl
	movb	%cl, 222(%rsp,%r14)
	movl	%ebx, %ecx
	shrl	$8, %ecx
	andb	$15, %cl
	movb	%cl, 221(%rsp,%r14)
	movl	%ebx, %ecx
	shrl	$12, %ecx
	andb	$15, %cl
	movb	%cl, 220(%rsp,%r14)
	addq	$-4, %r14
	shrq	$16, %rbx
	cmpq	%r14, %rax
	jb	.Lunix_path_BB59_56
.Lunix_path_BB59_57:
	movl	$16, %ecx
	subq	%rax, %rcx
	cmpq	$2, %rcx
	jb	.Lunix_path_BB59_97
	leaq	(%rsp,%rax), %r13
	addq	$224, %r13
	leaq	16(%r15), %rsi
	jmp	.Lunix_path_BB59_62
	.p2align	4
.Lunix_path_BB59_59:
	movq	120(%rsp), %rdx
	incl	%edx
	movb	%dl, (%r13)
	addb	$-8, %al
	movb	%al, 1(%r13)
.Lunix_path_BB59_60:
	movq	72(%rsp), %rcx
.Lunix_path_BB59_61:
	movzbl	%dl, %r8d
	leaq	(%rdi,%r8,8), %rsi
	addq	$368, %rsi
	incq	%r13
	cmpq	$2, %rcx
	leaq	-1(%rcx), %rcx
	jbe	.Lunix_path_BB59_96
.Lunix_path_BB59_62:
	movzbl	(%r13), %ebx
	movl	%ebx, %edx
	movq	(%rsi), %rdi
	movq	368(%rdi,%rbx,8), %rax
	cmpw	$15, (%rax)
	jb	.Lunix_path_BB59_61
	movq	%rsi, 16(%rsp)
	movq	%rdx, 120(%rsp)
	movq	%rcx, 72(%rsp)
	movzwl	2(%rdi), %r14d
	decq	%r14
	je	.Lunix_path_BB59_65
	movl	$496, %edi
	movl	$8, %esi
	callq	rattle_alloc@PLT
	testb	$1, %al
	jne	.Lunix_path_BB59_66
	jmp	.Lunix_path_BB59_489
.Lunix_path_BB59_65:
	movl	$368, %edi
	movl	$8, %esi
	callq	rattle_alloc@PLT
	testb	$1, %al
	je	.Lunix_path_BB59_489
.Lunix_path_BB59_66:
	movq	%rdx, %r12
	movw	%r14w, 2(%rdx)
	leaq	8(%rdx), %rdi
	movq	16(%rsp), %rax
	movq	(%rax), %rax
	pxor	%xmm0, %xmm0
	movdqa	%xmm0, 432(%rsp)
	movq	$0, 448(%rsp)
	movzwl	(%rax), %edx
	xorl	%ecx, %ecx
	xorl	%esi, %esi
	cmpw	$0, 2(%rax)
	leaq	1(%rdx), %r8
	setne	%sil
	cmoveq	%rcx, %r8
	shll	$4, %esi
	leaq	368(%rax), %r15
	leaq	8(%rax), %r9
	movq	%r9, 304(%rsp)
	movq	%rdx, 312(%rsp)
	movq	$15, 320(%rsp)
	movq	%r15, 328(%rsp)
	movq	%rdx, 336(%rsp)
	movq	$15, 344(%rsp)
	movq	%r15, 352(%rsp)
	movq	%r8, 360(%rsp)
	movq	%rsi, 368(%rsp)
	movq	%rax, 376(%rsp)
	movdqa	%xmm0, 384(%rsp)
	movq	$0, 400(%rsp)
	movq	368(%rax,%rbx,8), %rax
	movdqa	%xmm0, 464(%rsp)
	movq	$0, 480(%rsp)
	movzwl	2(%rax), %r14d
	movzwl	(%rax), %r8d
	leaq	1(%r8), %rdx
	xorl	%esi, %esi
	testw	%r14w, %r14w
	setne	%sil
	cmoveq	%rcx, %rdx
	shll	$4, %esi
	leaq	368(%rax), %rcx
	leaq	8(%rax), %r9
	movq	%r9, 128(%rsp)
	movq	$15, 144(%rsp)
	movq	%rcx, 152(%rsp)
	movq	$15, 168(%rsp)
	movq	%rcx, 176(%rsp)
	movq	%rdx, 184(%rsp)
	movq	%rsi, 192(%rsp)
	movq	%rax, 200(%rsp)
	leaq	-8(%r8), %rbp
	leaq	200(%rax), %rsi
	leaq	-64(,%r8,8), %rcx
	leaq	(%rcx,%rcx,2), %rdx
	movq	%rdi, %rcx
	subq	%rsi, %rcx
	cmpq	%rdx, %rcx
	jae	.Lunix_path_BB59_70
	testq	%rbp, %rbp
	je	.Lunix_path_BB59_76
	movl	%r8d, %ecx
	andl	$7, %ecx
	addl	$-9, %r8d
	cmpw	$7, %r8w
	jae	.Lunix_path_BB59_71
	xorl	%edx, %edx
	jmp	.Lunix_path_BB59_74
	.p2align	4
.Lunix_path_BB59_70:
	callq	memmove@PLT
	jmp	.Lunix_path_BB59_76
.Lunix_path_BB59_71:
	movq	%rbp, %r8
	andq	$-8, %r8
	xorl	%edx, %edx
	xorl	%r9d, %r9d
	.p2align	4
.Lunix_path_BB59_72:
	movups	(%rsi,%r9), %xmm0
	movq	16(%rsi,%r9), %r10
	movq	%r10, 16(%rdi,%r9)
	movups	%xmm0, (%rdi,%r9)
	movups	24(%rsi,%r9), %xmm0
	movq	40(%rsi,%r9), %r10
	movq	%r10, 40(%rdi,%r9)
	movups	%xmm0, 24(%rdi,%r9)
	movups	48(%rsi,%r9), %xmm0
	movq	64(%rsi,%r9), %r10
	movq	%r10, 64(%rdi,%r9)
	movups	%xmm0, 48(%rdi,%r9)
	movups	72(%rsi,%r9), %xmm0
	movq	88(%rsi,%r9), %r10
	movq	%r10, 88(%rdi,%r9)
	movups	%xmm0, 72(%rdi,%r9)
	movups	96(%rsi,%r9), %xmm0
	movq	112(%rsi,%r9), %r10
	movq	%r10, 112(%rdi,%r9)
	movups	%xmm0, 96(%rdi,%r9)
	movups	120(%rsi,%r9), %xmm0
	movq	136(%rsi,%r9), %r10
	movq	%r10, 136(%rdi,%r9)
	movups	%xmm0, 120(%rdi,%r9)
	movups	144(%rsi,%r9), %xmm0
	movq	160(%rsi,%r9), %r10
	movq	%r10, 160(%rdi,%r9)
	movups	%xmm0, 144(%rdi,%r9)
	movdqu	168(%rsi,%r9), %xmm0
	movq	184(%rsi,%r9), %r10
	movq	%r10, 184(%rdi,%r9)
	movdqu	%xmm0, 168(%rdi,%r9)
	addq	$8, %rdx
	addq	$192, %r9
	cmpq	%rdx, %r8
	jne	.Lunix_path_BB59_72
	testq	%rcx, %rcx
	je	.Lunix_path_BB59_76
.Lunix_path_BB59_74:
	shlq	$3, %rdx
	leaq	(%rdx,%rdx,2), %rdx
	addq	%rdx, %rax
	addq	$200, %rax
	addq	%r12, %rdx
	addq	$8, %rdx
	shll	$3, %ecx
	leaq	(%rcx,%rcx,2), %rcx
	xorl	%esi, %esi
	.p2align	4
.Lunix_path_BB59_75:
	movdqu	(%rax,%rsi), %xmm0
	movq	16(%rax,%rsi), %rdi
	movq	%rdi, 16(%rdx,%rsi)
	movdqu	%xmm0, (%rdx,%rsi)
	addq	$24, %rsi
	cmpq	%rsi, %rcx
	jne	.Lunix_path_BB59_75
.Lunix_path_BB59_76:
	movq	$8, 136(%rsp)
	movq	$8, 160(%rsp)
	pxor	%xmm0, %xmm0
	movdqa	%xmm0, 272(%rsp)
	movq	$0, 288(%rsp)
	leaq	272(%rsp), %rdi
	leaq	128(%rsp), %rsi
	movl	$7, %edx
	callq	std_alloc.vec.Vec.remove.b40003dd673f1bd1.
	testw	%r14w, %r14w
	je	.Lunix_path_BB59_92
	leaq	368(%r12), %rdi
	movq	176(%rsp), %rax
	movq	184(%rsp), %r8
	leaq	64(%rax), %rsi
	leaq	-64(,%r8,8), %rdx
	movq	%rdi, %rcx
	subq	%rsi, %rcx
	cmpq	%rdx, %rcx
	jae	.Lunix_path_BB59_81
	movq	%r8, %rcx
	addq	$-8, %rcx
	je	.Lunix_path_BB59_92
	cmpq	$4, %rcx
	jb	.Lunix_path_BB59_80
	movq	%r12, %rdx
	subq	%rax, %rdx
	addq	$304, %rdx
	cmpq	$32, %rdx
	jae	.Lunix_path_BB59_84
.Lunix_path_BB59_80:
	xorl	%edx, %edx
.Lunix_path_BB59_87:
	movq	%r8, %r10
	movq	%rdx, %r9
	andq	$3, %r10
	je	.Lunix_path_BB59_90
	movq	%rdx, %r9
	.p2align	4
.Lunix_path_BB59_89:
	movq	(%rsi,%r9,8), %r11
	movq	%r11, (%rdi,%r9,8)
	incq	%r9
	decq	%r10
	jne	.Lunix_path_BB59_89
.Lunix_path_BB59_90:
	subq	%rdx, %r8
	addq	$-9, %r8
	cmpq	$3, %r8
	jb	.Lunix_path_BB59_92
	.p2align	4
.Lunix_path_BB59_91:
	movq	64(%rax,%r9,8), %rdx
	movq	%rdx, 368(%r12,%r9,8)
	movq	72(%rax,%r9,8), %rdx
	movq	%rdx, 376(%r12,%r9,8)
	movq	80(%rax,%r9,8), %rdx
	movq	%rdx, 384(%r12,%r9,8)
	movq	88(%rax,%r9,8), %rdx
	movq	%rdx, 392(%r12,%r9,8)
	addq	$4, %r9
	cmpq	%r9, %rcx
	jne	.Lunix_path_BB59_91
	jmp	.Lunix_path_BB59_92
.Lunix_path_BB59_81:
	callq	memmove@PLT
.Lunix_path_BB59_92:
	movzwl	136(%rsp), %eax
	movq	200(%rsp), %rcx
	movw	%ax, (%rcx)
	movw	%bp, (%r12)
	movq	288(%rsp), %rax
	movaps	272(%rsp), %xmm0
	movaps	%xmm0, 384(%rsp)
	movq	%rax, 400(%rsp)
	movq	%rcx, (%r15,%rbx,8)
	movq	400(%rsp), %rax
	movq	%rax, 448(%rsp)
	movdqa	384(%rsp), %xmm0
	movdqa	%xmm0, 432(%rsp)
	leaq	304(%rsp), %rdi
	leaq	432(%rsp), %rdx
	movq	%rbx, %rsi
	callq	std_alloc.vec.lodged.Vec.T.Lodged.insert_reserved.23.unix_path.buf.PathBuf.
	incq	%rbx
	movq	352(%rsp), %r14
	movq	360(%rsp), %rdx
	leal	(,%rbx,8), %r15d
	subq	%rbx, %rdx
	je	.Lunix_path_BB59_94
	leaq	(%r14,%r15), %rsi
	leaq	(%r14,%r15), %rdi
	addq	$8, %rdi
	shlq	$3, %rdx
	callq	memmove@PLT
.Lunix_path_BB59_94:
	movq	%r12, (%r14,%r15)
	movzwl	312(%rsp), %eax
	movq	376(%rsp), %rdi
	movw	%ax, (%rdi)
	movq	16(%rsp), %rax
	movq	%rdi, (%rax)
	movzbl	1(%r13), %eax
	cmpb	$7, %al
	movq	208(%rsp), %r15
	movq	48(%rsp), %rbp
	ja	.Lunix_path_BB59_59
	movzbl	(%r13), %edx
	jmp	.Lunix_path_BB59_60
.Lunix_path_BB59_84:
	movq	%rcx, %rdx
	andq	$-4, %rdx
	xorl	%r9d, %r9d
	.p2align	4
.Lunix_path_BB59_85:
	movdqu	64(%rax,%r9,8), %xmm0
	movdqu	80(%rax,%r9,8), %xmm1
	movdqu	%xmm0, 368(%r12,%r9,8)
	movdqu	%xmm1, 384(%r12,%r9,8)
	addq	$4, %r9
	cmpq	%r9, %rdx
	jne	.Lunix_path_BB59_85
	cmpq	%rdx, %rcx
	je	.Lunix_path_BB59_92
	jmp	.Lunix_path_BB59_87
.Lunix_path_BB59_96:
	leaq	16(%r15), %rax
	movq	(%rax), %rax
	movq	%rax, 64(%rsp)
	movq	112(%rsp), %r13
.Lunix_path_BB59_97:
	movq	64(%rsp), %rax
	cmpw	$0, (%rax)
	je	.Lunix_path_BB59_490
	cmpb	$1, 8(%r15)
	jne	.Lunix_path_BB59_496
	movzbl	239(%rsp), %ebx
.Lunix_path_BB59_100:
	shlq	$3, %r8
	cmpq	$1, 216(%rsp)
	leaq	368(%rdi,%r8), %r14
	leaq	16(%r15), %rax
	cmoveq	%rax, %r14
	andl	$15, %ebx
	movq	56(%rsp), %rax
	movq	%rax, 304(%rsp)
	movq	%rbp, 312(%rsp)
	movq	%rbp, 320(%rsp)
	movq	(%r14), %rax
	movzwl	(%rax), %ecx
	leaq	1(%rcx), %rdx
	xorl	%esi, %esi
	xorl	%edi, %edi
	cmpw	$0, 2(%rax)
	setne	%dil
	cmovneq	%rdx, %rsi
	shll	$4, %edi
	leaq	368(%rax), %rdx
	leaq	8(%rax), %r8
	movq	%r8, 128(%rsp)
	movq	%rcx, 136(%rsp)
	movq	$15, 144(%rsp)
	movq	%rdx, 152(%rsp)
	movq	%rcx, 160(%rsp)
	movq	$15, 168(%rsp)
	movq	%rdx, 176(%rsp)
	movq	%rsi, 184(%rsp)
	movq	%rdi, 192(%rsp)
	movq	%rax, 200(%rsp)
	leaq	128(%rsp), %rdi
	leaq	304(%rsp), %rdx
	movq	%rbx, %rsi
	callq	std_alloc.vec.lodged.Vec.T.Lodged.insert_reserved.23.unix_path.buf.PathBuf.
	movzwl	136(%rsp), %eax
	movq	200(%rsp), %rcx
	movw	%ax, (%rcx)
	movq	%rcx, (%r14)
	incq	24(%r15)
	movq	32(%rsp), %r14
	movq	24(%rsp), %r15
	.p2align	4
.Lunix_path_BB59_101:
	movzbl	(%r13), %eax
	movl	$1048439, %ecx
	btl	%eax, %ecx
	jae	.Lunix_path_BB59_126
	pxor	%xmm0, %xmm0
	movdqa	%xmm0, 128(%rsp)
	movdqa	%xmm0, 144(%rsp)
	movdqa	%xmm0, 160(%rsp)
	leaq	128(%rsp), %rdi
	movq	%r13, %rsi
	movq	8(%rsp), %rdx
	movq	%rbp, %rcx
	callq	upath_commands.task.answer_of
	cmpb	$0, 128(%rsp)
	jne	.Lunix_path_BB59_488
	cmpb	$1, 136(%rsp)
	jne	.Lunix_path_BB59_110
	movq	%r15, %r12
	movzbl	144(%rsp), %r15d
	movq	152(%rsp), %rbx
	movq	168(%rsp), %r14
	movq	160(%rsp), %rcx
	movq	104(%rsp), %rdx
	movq	(%rdx), %rax
	movq	5(%rdx), %rdx
	movq	%rax, 272(%rsp)
	movq	%rdx, 277(%rsp)
	leaq	272(%rsp), %r8
	movq	8(%rsp), %rdi
	movq	%rbp, %rsi
	movq	%rbx, %rdx
	movq	88(%rsp), %r9
	callq	upath_commands.push.push_answer
	testb	%al, %al
	jne	.Lunix_path_BB59_486
	movb	$1, %bpl
	cmpb	$13, (%r13)
	jne	.Lunix_path_BB59_107
	movzbl	6(%r13), %ebp
.Lunix_path_BB59_107:
	cmpb	$1, %r15b
	setne	%al
	testq	%r14, %r14
	sete	%cl
	orb	%al, %cl
	jne	.Lunix_path_BB59_109
	movq	%rbx, %rdi
	callq	rattle_dealloc@PLT
.Lunix_path_BB59_109:
	movq	32(%rsp), %r14
	movq	%r12, %r15
	jmp	.Lunix_path_BB59_117
.Lunix_path_BB59_110:
	movzbl	(%r13), %eax
	movzbl	%al, %ecx
	movl	$876543, %edx
	btl	%ecx, %edx
	jae	.Lunix_path_BB59_114
	cmpb	$1, 16(%r13)
	jne	.Lunix_path_BB59_114
	movq	24(%r13), %rdx
	movq	32(%r13), %rcx
	movq	104(%rsp), %rsi
	movq	(%rsi), %rax
	movq	5(%rsi), %rsi
	movq	%rsi, 309(%rsp)
	movq	%rax, 304(%rsp)
	leaq	304(%rsp), %r8
	movq	8(%rsp), %rdi
	movq	%rbp, %rsi
	movq	88(%rsp), %r9
	callq	upath_commands.push.push_answer
	testb	%al, %al
	jne	.Lunix_path_BB59_488
	movzbl	(%r13), %eax
.Lunix_path_BB59_114:
	cmpb	$13, %al
	jne	.Lunix_path_BB59_116
	movzbl	6(%r13), %ebp
	xorb	$1, %bpl
	jmp	.Lunix_path_BB59_117
.Lunix_path_BB59_116:
	xorl	%ebp, %ebp
.Lunix_path_BB59_117:
	cmpq	$65536, 24(%r14)
	jb	.Lunix_path_BB59_120
	movq	%r14, %rdi
	callq	upath_commands.output.Output.write_out.0c02296ad0e184a5.
	testb	%al, %al
	movzbl	%bpl, %eax
	movzbl	%dl, %ebp
	cmovel	%eax, %ebp
	jne	.Lunix_path_BB59_485
	andb	$1, %bpl
	movq	112(%rsp), %r13
.Lunix_path_BB59_120:
	movzbl	%bpl, %eax
	xorl	%ecx, %ecx
	cmpb	$0, 72(%r14)
	cmovnel	%eax, %ecx
	cmpb	$0, 73(%r14)
	movl	$1, %edx
	cmovel	%eax, %edx
	movb	%cl, 72(%r14)
	movb	%dl, 73(%r14)
	testb	%al, %al
	movq	208(%rsp), %rbx
	jne	.Lunix_path_BB59_4
	movq	80(%rsp), %rax
	cmpq	$0, (%rax)
	je	.Lunix_path_BB59_123
	movq	$0, (%rax)
.Lunix_path_BB59_123:
	cmpb	$0, 3(%r13)
	movq	48(%rsp), %r12
	jne	.Lunix_path_BB59_2
	movzbl	(%r13), %eax
	movb	$1, %bpl
	xorl	%r10d, %r10d
	leaq	.Lunix_path_JTI59_0(%rip), %rcx
	movslq	(%rcx,%rax,4), %rax
	addq	%rcx, %rax
	jmpq	*%rax
.Lunix_path_BB59_125:
	movq	%r15, 24(%rsp)
	movl	$12, %r8d
	leaq	.Lunix_path_static.91(%rip), %rbx
	jmp	.Lunix_path_BB59_187
.Lunix_path_BB59_126:
	cmpl	$3, %eax
	jne	.Lunix_path_BB59_131
	movq	%r15, 24(%rsp)
	movq	104(%rsp), %rcx
	movq	(%rcx), %rax
	movq	5(%rcx), %rcx
	movq	%rcx, 133(%rsp)
	movq	%rax, 128(%rsp)
	leaq	128(%rsp), %r8
	movq	8(%rsp), %rdi
	movq	%rbp, %rsi
	movq	%rdi, %rdx
	movq	%rbp, %rcx
	movq	88(%rsp), %r9
	callq	upath_commands.push.push_answer
	testb	%al, %al
	jne	.Lunix_path_BB59_488
	cmpq	$1, %rbp
	jne	.Lunix_path_BB59_146
	movq	8(%rsp), %rax
	movzbl	(%rax), %eax
	cmpb	$46, %al
	je	.Lunix_path_BB59_154
	cmpb	$47, %al
	jne	.Lunix_path_BB59_148
	jmp	.Lunix_path_BB59_154
.Lunix_path_BB59_131:
	cmpb	$1, 4(%r13)
	jne	.Lunix_path_BB59_141
	movq	%r15, 24(%rsp)
	testq	%rbp, %rbp
	je	.Lunix_path_BB59_173
	movq	%rbp, %r15
	movq	%rbp, %rax
	jmp	.Lunix_path_BB59_135
	.p2align	4
.Lunix_path_BB59_134:
	movq	%rax, %r15
	testq	%rax, %rax
	je	.Lunix_path_BB59_173
.Lunix_path_BB59_135:
	decq	%rax
	je	.Lunix_path_BB59_224
	movq	8(%rsp), %rcx
	movzbl	(%rcx,%rax), %ecx
	cmpl	$47, %ecx
	je	.Lunix_path_BB59_139
	cmpl	$46, %ecx
	jne	.Lunix_path_BB59_225
	movq	8(%rsp), %rcx
	cmpb	$47, -1(%rcx,%rax)
	jne	.Lunix_path_BB59_225
.Lunix_path_BB59_139:
	movq	%rbp, %rcx
	subq	%rax, %rcx
	cmpq	$8, %rcx
	jne	.Lunix_path_BB59_134
	movq	8(%rsp), %rdi
	movq	%rax, %rsi
	callq	unix_path.filler.trimmed_blocks_len
	jmp	.Lunix_path_BB59_134
.Lunix_path_BB59_141:
	testq	%rbp, %rbp
	je	.Lunix_path_BB59_277
	movq	8(%rsp), %rax
	movzbl	(%rax), %eax
	movb	$1, %bpl
	cmpl	$47, %eax
	je	.Lunix_path_BB59_269
	cmpl	$46, %eax
	jne	.Lunix_path_BB59_268
	cmpq	$1, 48(%rsp)
	je	.Lunix_path_BB59_269
	movq	8(%rsp), %rax
	cmpb	$47, 1(%rax)
	sete	%bpl
	jmp	.Lunix_path_BB59_269
.Lunix_path_BB59_146:
	testq	%rbp, %rbp
	je	.Lunix_path_BB59_154
	movq	8(%rsp), %rax
	movzbl	-1(%rax,%rbp), %eax
	cmpb	$47, %al
	je	.Lunix_path_BB59_154
.Lunix_path_BB59_148:
	cmpq	$1, %rbp
	je	.Lunix_path_BB59_151
	cmpb	$46, %al
	jne	.Lunix_path_BB59_151
	movq	8(%rsp), %rax
	cmpb	$47, -2(%rax,%rbp)
	je	.Lunix_path_BB59_154
.Lunix_path_BB59_151:
	movq	8(%rsp), %rax
	cmpb	$46, -1(%rax,%rbp)
	jne	.Lunix_path_BB59_155
	cmpq	$1, %rbp
	je	.Lunix_path_BB59_154
	movq	8(%rsp), %rax
	cmpb	$47, -2(%rax,%rbp)
	jne	.Lunix_path_BB59_155
.Lunix_path_BB59_154:
	leaq	.Lunix_path_static.53(%rip), %rdx
	movl	$1, %ecx
	movq	8(%rsp), %rdi
	movq	%rbp, %rsi
	callq	unix_path.compare.compare
	cmpb	$1, %al
	je	.Lunix_path_BB59_171
.Lunix_path_BB59_155:
	movq	8(%rsp), %rdi
	movq	%rbp, %rsi
	callq	unix_path.path.Path.parent_len
	cmpb	$1, %al
	jne	.Lunix_path_BB59_171
	movq	%rdx, %rbx
	movq	8(%rsp), %r12
	.p2align	4
.Lunix_path_BB59_157:
	movq	%r12, %rdi
	movq	%rbx, %rsi
	callq	unix_path.path.Path.parent_len
	movl	%eax, %r15d
	movq	%rdx, %r13
	xorl	%eax, %eax
	cmpb	$1, %r15b
	movl	$0, %r14d
	cmoveq	%r12, %r14
	cmovneq	%rax, %r13
	testq	%rbx, %rbx
	leaq	.Lunix_path_static.53(%rip), %rdx
	cmovneq	%r12, %rdx
	cmpq	$1, %rbx
	movq	%rbx, %rcx
	adcq	$0, %rcx
	leaq	128(%rsp), %r8
	movq	8(%rsp), %rdi
	movq	%rbp, %rsi
	movq	88(%rsp), %r9
	callq	upath_commands.push.push_answer
	testb	%al, %al
	jne	.Lunix_path_BB59_488
	cmpq	$1, %rbx
	jne	.Lunix_path_BB59_161
	movzbl	(%r12), %eax
	cmpb	$46, %al
	je	.Lunix_path_BB59_169
	cmpb	$47, %al
	jne	.Lunix_path_BB59_163
	jmp	.Lunix_path_BB59_169
	.p2align	4
.Lunix_path_BB59_161:
	testq	%rbx, %rbx
	je	.Lunix_path_BB59_169
	movzbl	-1(%r12,%rbx), %eax
	cmpb	$47, %al
	je	.Lunix_path_BB59_169
.Lunix_path_BB59_163:
	cmpq	$1, %rbx
	je	.Lunix_path_BB59_166
	cmpb	$46, %al
	jne	.Lunix_path_BB59_166
	cmpb	$47, -2(%r12,%rbx)
	je	.Lunix_path_BB59_169
.Lunix_path_BB59_166:
	movzbl	-1(%r12,%rbx), %eax
	xorl	%edx, %edx
	cmpb	$46, %al
	sete	%dl
	movq	%rbx, %rcx
	subq	%rdx, %rcx
	je	.Lunix_path_BB59_169
	cmpb	$46, %al
	jne	.Lunix_path_BB59_170
	cmpb	$47, -1(%r12,%rcx)
	jne	.Lunix_path_BB59_170
	.p2align	4
.Lunix_path_BB59_169:
	leaq	.Lunix_path_static.53(%rip), %rdx
	movl	$1, %ecx
	movq	%r12, %rdi
	movq	%rbx, %rsi
	callq	unix_path.compare.compare
	cmpb	$1, %al
	je	.Lunix_path_BB59_171
.Lunix_path_BB59_170:
	movq	%r13, %rbx
	movq	%r14, %r12
	cmpb	$1, %r15b
	je	.Lunix_path_BB59_157
.Lunix_path_BB59_171:
	movb	$1, %bpl
	movq	32(%rsp), %r14
	movq	112(%rsp), %r13
.Lunix_path_BB59_172:
	movq	24(%rsp), %r15
	jmp	.Lunix_path_BB59_117
.Lunix_path_BB59_173:
	xorl	%r15d, %r15d
	jmp	.Lunix_path_BB59_225
.Lunix_path_BB59_174:
	movq	240(%rsp), %rax
	movzbl	(%rax), %eax
	leaq	.Lunix_path_JTI59_1(%rip), %rcx
	movslq	(%rcx,%rax,4), %rax
	addq	%rcx, %rax
	movq	%r15, 24(%rsp)
	jmpq	*%rax
.Lunix_path_BB59_175:
	movl	$14, %r8d
	leaq	.Lunix_path_static.98(%rip), %rbx
	jmp	.Lunix_path_BB59_187
.Lunix_path_BB59_176:
	movq	40(%r13), %rbx
	movq	48(%r13), %r8
	testq	%r8, %r8
	je	.Lunix_path_BB59_330
	cmpb	$47, (%rbx)
	sete	%al
	jmp	.Lunix_path_BB59_331
.Lunix_path_BB59_178:
	movq	104(%rsp), %rax
	movzbl	(%rax), %ebx
	pxor	%xmm0, %xmm0
	movdqa	%xmm0, 144(%rsp)
	movdqa	%xmm0, 128(%rsp)
	movq	$0, 160(%rsp)
	leaq	128(%rsp), %rdi
	movq	8(%rsp), %rsi
	movq	%r12, %rdx
	callq	upath_commands.keys.unkeyed_path
	cmpb	$0, 128(%rsp)
	jne	.Lunix_path_BB59_488
	cmpb	$1, 136(%rsp)
	movq	%r15, 24(%rsp)
	jne	.Lunix_path_BB59_223
	movq	144(%rsp), %rdi
	movq	160(%rsp), %rax
	testb	%bl, %bl
	je	.Lunix_path_BB59_387
	movl	$14, %r8d
	leaq	.Lunix_path_static.98(%rip), %rbx
	testq	%rax, %rax
	je	.Lunix_path_BB59_389
	callq	rattle_dealloc@PLT
	movl	$14, %r8d
	jmp	.Lunix_path_BB59_389
.Lunix_path_BB59_183:
	movq	%r15, 24(%rsp)
	movl	$12, %r8d
	leaq	.Lunix_path_static.92(%rip), %rbx
	jmp	.Lunix_path_BB59_187
.Lunix_path_BB59_184:
	movq	%r15, 24(%rsp)
	movl	$9, %r8d
	leaq	.Lunix_path_static.90(%rip), %rbx
	jmp	.Lunix_path_BB59_188
.Lunix_path_BB59_185:
	movq	%r15, 24(%rsp)
	movl	$15, %r8d
	leaq	.Lunix_path_static.94(%rip), %rbx
	jmp	.Lunix_path_BB59_187
.Lunix_path_BB59_186:
	movq	%r15, 24(%rsp)
	movl	$27, %r8d
	leaq	.Lunix_path_static.93(%rip), %rbx
.Lunix_path_BB59_187:
	xorl	%r10d, %r10d
.Lunix_path_BB59_188:
	xorl	%r15d, %r15d
	movq	$0, 16(%rsp)
.Lunix_path_BB59_189:
	movq	%r8, 56(%rsp)
	movq	64(%r14), %rax
	movq	%rax, %rcx
	subq	%r10, %rcx
	cmpq	$6, %rcx
	jbe	.Lunix_path_BB59_217
.Lunix_path_BB59_190:
	movq	40(%rsp), %rcx
	movq	(%rcx), %rcx
	leaq	(%rcx,%r10), %rdx
	leaq	.Lunix_path_static.65(%rip), %rsi
	movq	%rdx, %rdi
	subq	%rsi, %rdi
	cmpq	$6, %rdi
	ja	.Lunix_path_BB59_192
	movl	$1952542837, (%rdx)
	movw	$14952, 4(%rdx)
	movb	$32, 6(%rdx)
	jmp	.Lunix_path_BB59_193
.Lunix_path_BB59_192:
	movl	$540698740, 3(%rdx)
	movl	$1952542837, (%rdx)
.Lunix_path_BB59_193:
	addq	$7, %r10
	movq	%rcx, 48(%r14)
	movq	%r10, 56(%r14)
	movq	%rax, 64(%r14)
	movq	8(%rsp), %rdi
	movq	%r12, %rsi
	movq	40(%rsp), %rdx
	callq	upath_commands.shown.push_shown
	movb	$1, %r12b
	movb	$3, %r13b
	testb	%al, %al
	jne	.Lunix_path_BB59_495
	movq	56(%r14), %rax
	movq	64(%r14), %r14
	movq	%r14, %rcx
	subq	%rax, %rcx
	cmpq	$1, %rcx
	jbe	.Lunix_path_BB59_221
.Lunix_path_BB59_195:
	movq	%rbp, %rdi
	movq	40(%rsp), %rcx
	movq	(%rcx), %rbp
	leaq	(%rax,%rbp), %rcx
	leaq	.Lunix_path_static.66(%rip), %rdx
	movq	%rcx, %rsi
	subq	%rdx, %rsi
	cmpq	$1, %rsi
	movw	$8250, (%rcx)
	movq	56(%rsp), %r9
	addq	$2, %rax
	movq	32(%rsp), %rcx
	movq	%rbp, 48(%rcx)
	movq	%rax, 56(%rcx)
	movq	%r14, 64(%rcx)
	movq	%r14, %rcx
	subq	%rax, %rcx
	testb	%dil, %dil
	je	.Lunix_path_BB59_200
	cmpq	%rcx, %r9
	movq	24(%rsp), %r15
	ja	.Lunix_path_BB59_366
.Lunix_path_BB59_197:
	leaq	(%rax,%r9), %r10
	pxor	%xmm0, %xmm0
	movq	80(%rsp), %rcx
	movdqu	%xmm0, (%rcx)
	leaq	(%rax,%rbp), %rdi
	movq	%rdi, %rcx
	subq	%rbx, %rcx
	cmpq	%r9, %rcx
	jae	.Lunix_path_BB59_203
	cmpq	$4, %r9
	jb	.Lunix_path_BB59_199
	cmpq	$32, %rcx
	jae	.Lunix_path_BB59_215
.Lunix_path_BB59_199:
	xorl	%ecx, %ecx
.Lunix_path_BB59_342:
	movq	%r9, %rsi
	movq	%rcx, %rdx
	andq	$3, %rsi
	je	.Lunix_path_BB59_345
	movq	%rcx, %rdx
	.p2align	4
.Lunix_path_BB59_344:
	movzbl	(%rbx,%rdx), %r8d
	movb	%r8b, (%rdi,%rdx)
	incq	%rdx
	decq	%rsi
	jne	.Lunix_path_BB59_344
.Lunix_path_BB59_345:
	subq	%r9, %rcx
	cmpq	$-4, %rcx
	ja	.Lunix_path_BB59_362
	addq	%rbp, %rax
	addq	$3, %rax
	.p2align	4
.Lunix_path_BB59_347:
	movzbl	(%rbx,%rdx), %ecx
	movb	%cl, -3(%rax,%rdx)
	movzbl	1(%rbx,%rdx), %ecx
	movb	%cl, -2(%rax,%rdx)
	movzbl	2(%rbx,%rdx), %ecx
	movb	%cl, -1(%rax,%rdx)
	movzbl	3(%rbx,%rdx), %ecx
	movb	%cl, (%rax,%rdx)
	addq	$4, %rdx
	cmpq	%rdx, %r9
	jne	.Lunix_path_BB59_347
	jmp	.Lunix_path_BB59_362
.Lunix_path_BB59_200:
	cmpq	$21, %rcx
	jbe	.Lunix_path_BB59_368
.Lunix_path_BB59_201:
	pxor	%xmm0, %xmm0
	movq	80(%rsp), %rcx
	movdqu	%xmm0, (%rcx)
	leaq	(%rax,%rbp), %rcx
	leaq	.Lunix_path_static.103(%rip), %rdx
	movq	%rcx, %rsi
	subq	%rdx, %rsi
	cmpq	$21, %rsi
	ja	.Lunix_path_BB59_204
	movdqa	.Lunix_path_CPI59_6(%rip), %xmm0
	movdqu	%xmm0, (%rcx)
	movl	$1869768224, 16(%rcx)
	movw	$8301, 20(%rcx)
	jmp	.Lunix_path_BB59_205
.Lunix_path_BB59_203:
	movq	%rbx, %rsi
	movq	%r9, %rdx
	movq	%r10, %rbx
	callq	memmove@PLT
	movq	%rbx, %r10
	jmp	.Lunix_path_BB59_362
.Lunix_path_BB59_204:
	movdqu	.Lunix_path_static.103(%rip), %xmm0
	movdqu	%xmm0, (%rcx)
	movabsq	$2336646318805510260, %rdx
	movq	%rdx, 14(%rcx)
.Lunix_path_BB59_205:
	addq	$22, %rax
	movq	32(%rsp), %rcx
	movq	%rbp, 48(%rcx)
	movq	%rax, 56(%rcx)
	movq	%r14, 64(%rcx)
	movq	%rcx, %r14
	movq	%rbx, %rdi
	movq	%r9, %rsi
	movq	40(%rsp), %rdx
	callq	upath_commands.shown.push_shown
	testb	%al, %al
	jne	.Lunix_path_BB59_495
	movq	56(%r14), %rax
	movq	64(%r14), %r14
	movq	%r14, %rcx
	subq	%rax, %rcx
	movq	16(%rsp), %rbx
	cmpq	%rcx, %rbx
	ja	.Lunix_path_BB59_385
.Lunix_path_BB59_207:
	leaq	(%rax,%rbx), %r10
	movq	40(%rsp), %rcx
	movq	(%rcx), %rbp
	pxor	%xmm0, %xmm0
	movq	80(%rsp), %rcx
	movdqu	%xmm0, (%rcx)
	leaq	(%rax,%rbp), %rdi
	movq	%rdi, %rcx
	subq	%r15, %rcx
	cmpq	%rbx, %rcx
	jae	.Lunix_path_BB59_210
	cmpl	$4, %ebx
	jb	.Lunix_path_BB59_209
	cmpq	$16, %rcx
	jae	.Lunix_path_BB59_219
.Lunix_path_BB59_209:
	xorl	%ecx, %ecx
.Lunix_path_BB59_355:
	movq	%rbx, %rsi
	movq	%rcx, %rdx
	andq	$1, %rsi
	je	.Lunix_path_BB59_358
	movq	%rcx, %rdx
	.p2align	4
.Lunix_path_BB59_357:
	movzbl	(%r15,%rdx), %r8d
	movb	%r8b, (%rdi,%rdx)
	incq	%rdx
	decq	%rsi
	jne	.Lunix_path_BB59_357
.Lunix_path_BB59_358:
	subl	%ebx, %ecx
	cmpl	$-4, %ecx
	ja	.Lunix_path_BB59_361
	addq	%rbp, %rax
	addq	$3, %rax
	.p2align	4
.Lunix_path_BB59_360:
	movzbl	(%r15,%rdx), %ecx
	movb	%cl, -3(%rax,%rdx)
	movzbl	1(%r15,%rdx), %ecx
	movb	%cl, -2(%rax,%rdx)
	movzbl	2(%r15,%rdx), %ecx
	movb	%cl, -1(%rax,%rdx)
	movzbl	3(%r15,%rdx), %ecx
	movb	%cl, (%rax,%rdx)
	addq	$4, %rdx
	cmpq	%rdx, %rbx
	jne	.Lunix_path_BB59_360
	jmp	.Lunix_path_BB59_361
.Lunix_path_BB59_210:
	movq	%r15, %rsi
	movq	%rbx, %rdx
	movq	%r10, %rbx
	callq	memmove@PLT
	movq	%rbx, %r10
.Lunix_path_BB59_361:
	movq	24(%rsp), %r15
.Lunix_path_BB59_362:
	movq	32(%rsp), %rax
	movq	%rbp, 48(%rax)
	movq	%r10, 56(%rax)
	movq	%r14, 64(%rax)
	cmpq	%r10, %r14
	movq	%rax, %r14
	je	.Lunix_path_BB59_364
.Lunix_path_BB59_363:
	movb	$10, (%rbp,%r10)
	incq	%r10
	movq	80(%rsp), %rax
	movq	%r10, (%rax)
	movq	208(%rsp), %rbx
	movq	112(%rsp), %r13
	jmp	.Lunix_path_BB59_3
.Lunix_path_BB59_215:
	cmpq	$32, %r9
	jae	.Lunix_path_BB59_335
	xorl	%ecx, %ecx
	jmp	.Lunix_path_BB59_339
.Lunix_path_BB59_217:
	movl	$7, %esi
	movq	40(%rsp), %rdi
	callq	std_alloc.vec.Vec.grow_amortized.f4a78633ca2a48c6.
	testb	%al, %al
	je	.Lunix_path_BB59_488
	movq	56(%r14), %r10
	movq	64(%r14), %rax
	jmp	.Lunix_path_BB59_190
.Lunix_path_BB59_219:
	cmpl	$16, %ebx
	jae	.Lunix_path_BB59_348
	xorl	%ecx, %ecx
	jmp	.Lunix_path_BB59_352
.Lunix_path_BB59_221:
	movl	$2, %esi
	movq	40(%rsp), %rdi
	callq	std_alloc.vec.Vec.grow_amortized.f4a78633ca2a48c6.
	testb	%al, %al
	je	.Lunix_path_BB59_495
	movq	32(%rsp), %rcx
	movq	56(%rcx), %rax
	movq	64(%rcx), %r14
	jmp	.Lunix_path_BB59_195
.Lunix_path_BB59_364:
	movl	$1, %esi
	movq	40(%rsp), %rdi
	callq	std_alloc.vec.Vec.grow_amortized.f4a78633ca2a48c6.
	testb	%al, %al
	je	.Lunix_path_BB59_495
	movq	80(%rsp), %rax
	movq	(%rax), %r10
	movq	40(%rsp), %rax
	movq	(%rax), %rbp
	jmp	.Lunix_path_BB59_363
.Lunix_path_BB59_223:
	movl	$9, %r8d
	leaq	.Lunix_path_static.102(%rip), %rbx
	jmp	.Lunix_path_BB59_389
.Lunix_path_BB59_224:
	movl	$1, %r15d
.Lunix_path_BB59_225:
	movq	104(%rsp), %rcx
	movzbl	2(%rcx), %eax
	movb	%al, 130(%rsp)
	movzwl	(%rcx), %eax
	movw	%ax, 128(%rsp)
	movb	$1, 131(%rsp)
	movq	240(%rsp), %rcx
	movzbl	8(%rcx), %eax
	leaq	132(%rsp), %rdx
	movb	%al, 8(%rdx)
	movq	(%rcx), %rax
	movq	%rax, (%rdx)
	jmp	.Lunix_path_BB59_229
	.p2align	4
.Lunix_path_BB59_226:
	movl	$1, %ecx
	leaq	.Lunix_path_static.53(%rip), %rbx
.Lunix_path_BB59_227:
	xorl	%r14d, %r14d
.Lunix_path_BB59_228:
	leaq	128(%rsp), %r8
	movq	8(%rsp), %rdi
	movq	%rbp, %rsi
	movq	%rbx, %rdx
	movq	88(%rsp), %r9
	callq	upath_commands.push.push_answer
	movq	%r14, %r15
	testb	%al, %al
	movq	32(%rsp), %r14
	jne	.Lunix_path_BB59_488
.Lunix_path_BB59_229:
	cmpq	$1, %r15
	je	.Lunix_path_BB59_235
	testq	%r15, %r15
	je	.Lunix_path_BB59_267
	movq	8(%rsp), %rdx
	cmpb	$46, -1(%rdx,%r15)
	jne	.Lunix_path_BB59_236
	cmpb	$46, -2(%rdx,%r15)
	jne	.Lunix_path_BB59_236
	movl	$2, %ecx
	leaq	.Lunix_path_static.83(%rip), %rbx
	cmpq	$2, %r15
	je	.Lunix_path_BB59_227
	cmpb	$47, -3(%rdx,%r15)
	jne	.Lunix_path_BB59_236
	addq	$-2, %r15
	movq	%r15, %r14
	movq	%r15, %rax
	jmp	.Lunix_path_BB59_259
	.p2align	4
.Lunix_path_BB59_235:
	movq	8(%rsp), %rdx
	cmpb	$46, (%rdx)
	je	.Lunix_path_BB59_226
.Lunix_path_BB59_236:
	leaq	1(%r15), %rax
	movq	%r15, %r12
	.p2align	4
.Lunix_path_BB59_237:
	cmpq	$15, %r12
	jbe	.Lunix_path_BB59_240
	movdqu	-16(%rdx,%r12), %xmm0
	pcmpeqb	.Lunix_path_CPI59_0(%rip), %xmm0
	addq	$-16, %r12
	pmovmskb	%xmm0, %ecx
	addq	$-16, %rax
	testl	%ecx, %ecx
	je	.Lunix_path_BB59_237
	movzwl	%cx, %eax
	bsrq	%rax, %rax
	xorq	$63, %rax
	subq	%rax, %r12
	addq	$64, %r12
	jmp	.Lunix_path_BB59_242
	.p2align	4
.Lunix_path_BB59_240:
	cmpq	$1, %rax
	je	.Lunix_path_BB59_252
	leaq	-1(%rax), %r12
	cmpb	$47, -2(%rdx,%rax)
	movq	%r12, %rax
	jne	.Lunix_path_BB59_240
.Lunix_path_BB59_242:
	subq	%r12, %r15
	jne	.Lunix_path_BB59_244
	movl	$1, %ecx
	leaq	.Lunix_path_static.82(%rip), %rbx
	jmp	.Lunix_path_BB59_227
	.p2align	4
.Lunix_path_BB59_258:
	movq	%rax, %r14
	testq	%rax, %rax
	je	.Lunix_path_BB59_227
.Lunix_path_BB59_259:
	decq	%rax
	je	.Lunix_path_BB59_265
	movq	8(%rsp), %rdx
	movzbl	(%rdx,%rax), %edx
	cmpl	$47, %edx
	je	.Lunix_path_BB59_263
	cmpl	$46, %edx
	jne	.Lunix_path_BB59_228
	movq	8(%rsp), %rdx
	cmpb	$47, -1(%rdx,%rax)
	jne	.Lunix_path_BB59_228
.Lunix_path_BB59_263:
	movq	%r15, %rdx
	subq	%rax, %rdx
	cmpq	$8, %rdx
	jne	.Lunix_path_BB59_258
	movq	8(%rsp), %rdi
	movq	%rax, %rsi
	callq	unix_path.filler.trimmed_blocks_len
	movl	$2, %ecx
	jmp	.Lunix_path_BB59_258
	.p2align	4
.Lunix_path_BB59_244:
	leaq	(%rdx,%r12), %rbx
	movq	%r12, %r14
	movq	%r12, %rax
	jmp	.Lunix_path_BB59_246
	.p2align	4
.Lunix_path_BB59_245:
	movq	%rax, %r14
	testq	%rax, %rax
	je	.Lunix_path_BB59_253
.Lunix_path_BB59_246:
	decq	%rax
	je	.Lunix_path_BB59_254
	movq	8(%rsp), %rcx
	movzbl	(%rcx,%rax), %ecx
	cmpl	$47, %ecx
	je	.Lunix_path_BB59_250
	cmpl	$46, %ecx
	jne	.Lunix_path_BB59_255
	movq	8(%rsp), %rcx
	cmpb	$47, -1(%rcx,%rax)
	jne	.Lunix_path_BB59_255
.Lunix_path_BB59_250:
	movq	%r12, %rcx
	subq	%rax, %rcx
	cmpq	$8, %rcx
	jne	.Lunix_path_BB59_245
	movq	8(%rsp), %rdi
	movq	%rax, %rsi
	callq	unix_path.filler.trimmed_blocks_len
	jmp	.Lunix_path_BB59_245
.Lunix_path_BB59_252:
	testq	%r15, %r15
	leaq	.Lunix_path_static.82(%rip), %rbx
	cmovneq	%rdx, %rbx
	cmpq	$1, %r15
	adcq	$0, %r15
.Lunix_path_BB59_253:
	xorl	%r14d, %r14d
	jmp	.Lunix_path_BB59_255
.Lunix_path_BB59_254:
	movl	$1, %r14d
.Lunix_path_BB59_255:
	movq	%r15, %rcx
	jmp	.Lunix_path_BB59_228
.Lunix_path_BB59_265:
	movl	$1, %r14d
	jmp	.Lunix_path_BB59_228
.Lunix_path_BB59_267:
	movb	$1, %bpl
	jmp	.Lunix_path_BB59_172
.Lunix_path_BB59_268:
	xorl	%ebp, %ebp
.Lunix_path_BB59_269:
	movq	48(%rsp), %rbx
	movq	%rbx, %rax
	jmp	.Lunix_path_BB59_271
	.p2align	4
.Lunix_path_BB59_270:
	movq	%rax, %rbx
	testq	%rax, %rax
	je	.Lunix_path_BB59_277
.Lunix_path_BB59_271:
	decq	%rax
	je	.Lunix_path_BB59_279
	movq	8(%rsp), %rcx
	movzbl	(%rcx,%rax), %ecx
	cmpl	$47, %ecx
	je	.Lunix_path_BB59_275
	cmpl	$46, %ecx
	jne	.Lunix_path_BB59_279
	movq	8(%rsp), %rcx
	cmpb	$47, -1(%rcx,%rax)
	jne	.Lunix_path_BB59_279
.Lunix_path_BB59_275:
	movq	48(%rsp), %rcx
	subq	%rax, %rcx
	cmpq	$8, %rcx
	jne	.Lunix_path_BB59_270
	movq	8(%rsp), %rdi
	movq	%rax, %rsi
	callq	unix_path.filler.trimmed_blocks_len
	jmp	.Lunix_path_BB59_270
.Lunix_path_BB59_277:
	movq	%r15, %r12
.Lunix_path_BB59_278:
	movb	$1, %bpl
	movq	%r12, %r15
	jmp	.Lunix_path_BB59_117
.Lunix_path_BB59_279:
	movq	%r15, %r12
	movq	104(%rsp), %rcx
	movzbl	2(%rcx), %eax
	movb	%al, 130(%rsp)
	movzwl	(%rcx), %eax
	movw	%ax, 128(%rsp)
	movb	$0, 131(%rsp)
	movq	240(%rsp), %rcx
	movzbl	8(%rcx), %eax
	leaq	132(%rsp), %rdx
	movb	%al, 8(%rdx)
	movq	(%rcx), %rax
	movq	%rax, (%rdx)
	xorl	%r15d, %r15d
	movq	%rbx, %rax
	movq	8(%rsp), %rdx
	.p2align	4
.Lunix_path_BB59_280:
	testb	$1, %bpl
	je	.Lunix_path_BB59_288
	movq	%rax, %r9
	movl	$1, %ecx
	movl	$1, %r14d
	decq	%r9
	movq	48(%rsp), %rsi
	je	.Lunix_path_BB59_296
	leaq	-1(%rax), %rdi
	addq	$-2, %rax
	xorl	%r14d, %r14d
	jmp	.Lunix_path_BB59_284
	.p2align	4
.Lunix_path_BB59_283:
	incq	%r14
	cmpq	%r14, %rdi
	je	.Lunix_path_BB59_294
.Lunix_path_BB59_284:
	movzbl	1(%rdx,%r14), %r8d
	cmpl	$47, %r8d
	je	.Lunix_path_BB59_283
	cmpl	$46, %r8d
	jne	.Lunix_path_BB59_295
	cmpq	%r14, %rax
	je	.Lunix_path_BB59_294
	cmpb	$47, 2(%rdx,%r14)
	je	.Lunix_path_BB59_283
	jmp	.Lunix_path_BB59_295
	.p2align	4
.Lunix_path_BB59_288:
	cmpq	$1, %rax
	movq	48(%rsp), %rsi
	je	.Lunix_path_BB59_299
	cmpb	$46, (%rdx)
	jne	.Lunix_path_BB59_299
	cmpb	$46, 1(%rdx)
	jne	.Lunix_path_BB59_299
	cmpq	$2, %rax
	jne	.Lunix_path_BB59_297
	leaq	.Lunix_path_static.83(%rip), %rdx
	leaq	128(%rsp), %r8
	movl	$2, %ecx
	movq	8(%rsp), %rdi
	movq	88(%rsp), %r9
	callq	upath_commands.push.push_answer
	testb	%al, %al
	jne	.Lunix_path_BB59_488
	addq	$2, %r15
	jmp	.Lunix_path_BB59_327
.Lunix_path_BB59_294:
	movq	%r9, %r14
.Lunix_path_BB59_295:
	incq	%r14
.Lunix_path_BB59_296:
	cmpb	$47, (%rdx)
	leaq	.Lunix_path_static.82(%rip), %rax
	leaq	.Lunix_path_static.53(%rip), %rdx
	cmoveq	%rax, %rdx
	jmp	.Lunix_path_BB59_325
.Lunix_path_BB59_297:
	cmpb	$47, 2(%rdx)
	jne	.Lunix_path_BB59_299
	leaq	-2(%rax), %rcx
	addq	$-3, %rax
	xorl	%r14d, %r14d
	jmp	.Lunix_path_BB59_305
.Lunix_path_BB59_299:
	cmpq	$15, %rax
	ja	.Lunix_path_BB59_309
	xorl	%ecx, %ecx
	.p2align	4
.Lunix_path_BB59_301:
	cmpb	$47, (%rdx,%rcx)
	je	.Lunix_path_BB59_314
	incq	%rcx
	cmpq	%rcx, %rax
	jne	.Lunix_path_BB59_301
	movq	%rax, %rcx
	subq	%rcx, %rax
	jne	.Lunix_path_BB59_315
.Lunix_path_BB59_323:
	xorl	%r14d, %r14d
	jmp	.Lunix_path_BB59_324
.Lunix_path_BB59_304:
	incq	%r14
	cmpq	%r14, %rcx
	je	.Lunix_path_BB59_328
.Lunix_path_BB59_305:
	movzbl	2(%rdx,%r14), %edi
	cmpl	$47, %edi
	je	.Lunix_path_BB59_304
	cmpl	$46, %edi
	jne	.Lunix_path_BB59_329
	cmpq	%r14, %rax
	je	.Lunix_path_BB59_328
	cmpb	$47, 3(%rdx,%r14)
	je	.Lunix_path_BB59_304
	jmp	.Lunix_path_BB59_329
.Lunix_path_BB59_309:
	movq	%rax, %r8
	addq	$-16, %r8
	je	.Lunix_path_BB59_313
	xorl	%edi, %edi
	.p2align	4
.Lunix_path_BB59_311:
	movdqu	(%rdx,%rdi), %xmm0
	pcmpeqb	.Lunix_path_CPI59_0(%rip), %xmm0
	pmovmskb	%xmm0, %ecx
	orl	$65536, %ecx
	rep		bsfl	%ecx, %ecx
	cmpw	$15, %cx
	jbe	.Lunix_path_BB59_322
	addq	$16, %rdi
	cmpq	%r8, %rdi
	jb	.Lunix_path_BB59_311
.Lunix_path_BB59_313:
	movdqu	(%rdx,%r8), %xmm0
	pcmpeqb	.Lunix_path_CPI59_0(%rip), %xmm0
	pmovmskb	%xmm0, %ecx
	orl	$65536, %ecx
	rep		bsfl	%ecx, %ecx
	addq	%r8, %rcx
.Lunix_path_BB59_314:
	subq	%rcx, %rax
	je	.Lunix_path_BB59_323
.Lunix_path_BB59_315:
	leaq	(%rdx,%rcx), %r9
	incq	%r9
	leaq	-1(%rax), %rdi
	xorl	%r14d, %r14d
	jmp	.Lunix_path_BB59_317
	.p2align	4
.Lunix_path_BB59_316:
	incq	%r14
	cmpq	%r14, %rax
	je	.Lunix_path_BB59_321
.Lunix_path_BB59_317:
	movzbl	-1(%r9,%r14), %r8d
	cmpl	$47, %r8d
	je	.Lunix_path_BB59_316
	cmpl	$46, %r8d
	jne	.Lunix_path_BB59_324
	cmpq	%r14, %rdi
	je	.Lunix_path_BB59_321
	cmpb	$47, (%r9,%r14)
	je	.Lunix_path_BB59_316
	jmp	.Lunix_path_BB59_324
.Lunix_path_BB59_321:
	movq	%rax, %r14
.Lunix_path_BB59_324:
	addq	%rcx, %r14
.Lunix_path_BB59_325:
	leaq	128(%rsp), %r8
	movq	8(%rsp), %rdi
	movq	88(%rsp), %r9
	callq	upath_commands.push.push_answer
	testb	%al, %al
	jne	.Lunix_path_BB59_488
	addq	%r14, %r15
	movq	32(%rsp), %r14
.Lunix_path_BB59_327:
	movq	8(%rsp), %rax
	leaq	(%rax,%r15), %rdx
	xorl	%ebp, %ebp
	movq	%rbx, %rax
	subq	%r15, %rax
	jne	.Lunix_path_BB59_280
	jmp	.Lunix_path_BB59_278
.Lunix_path_BB59_322:
	movzwl	%cx, %ecx
	addq	%rdi, %rcx
	subq	%rcx, %rax
	jne	.Lunix_path_BB59_315
	jmp	.Lunix_path_BB59_323
.Lunix_path_BB59_328:
	movq	%rcx, %r14
.Lunix_path_BB59_329:
	addq	$2, %r14
	movl	$2, %ecx
	leaq	.Lunix_path_static.83(%rip), %rdx
	jmp	.Lunix_path_BB59_325
.Lunix_path_BB59_330:
	xorl	%eax, %eax
.Lunix_path_BB59_331:
	testq	%r12, %r12
	movq	%r15, 24(%rsp)
	je	.Lunix_path_BB59_333
	movq	8(%rsp), %rcx
	cmpb	$47, (%rcx)
	sete	%cl
	jmp	.Lunix_path_BB59_334
.Lunix_path_BB59_333:
	xorl	%ecx, %ecx
.Lunix_path_BB59_334:
	xorb	%cl, %al
	leaq	.Lunix_path_static.99(%rip), %rcx
	leaq	.Lunix_path_static.100(%rip), %r15
	cmovneq	%rcx, %r15
	movzbl	%al, %eax
	leaq	(%rax,%rax,4), %rax
	addq	$36, %rax
	movq	%rax, 16(%rsp)
	xorl	%r10d, %r10d
	xorl	%ebp, %ebp
	jmp	.Lunix_path_BB59_189
.Lunix_path_BB59_335:
	movq	%r9, %rcx
	andq	$-32, %rcx
	leaq	(%rax,%rbp), %rdx
	addq	$16, %rdx
	xorl	%esi, %esi
	.p2align	4
.Lunix_path_BB59_336:
	movdqu	(%rbx,%rsi), %xmm0
	movdqu	16(%rbx,%rsi), %xmm1
	movdqu	%xmm0, -16(%rdx,%rsi)
	movdqu	%xmm1, (%rdx,%rsi)
	addq	$32, %rsi
	cmpq	%rsi, %rcx
	jne	.Lunix_path_BB59_336
	cmpq	%rcx, %r9
	je	.Lunix_path_BB59_362
	testb	$28, %r9b
	je	.Lunix_path_BB59_342
.Lunix_path_BB59_339:
	movq	%rcx, %rdx
	movq	%r9, %rcx
	andq	$-4, %rcx
	.p2align	4
.Lunix_path_BB59_340:
	movl	(%rbx,%rdx), %esi
	movl	%esi, (%rdi,%rdx)
	addq	$4, %rdx
	cmpq	%rdx, %rcx
	jne	.Lunix_path_BB59_340
	cmpq	%rcx, %r9
	je	.Lunix_path_BB59_362
	jmp	.Lunix_path_BB59_342
.Lunix_path_BB59_348:
	movl	%ebx, %ecx
	andl	$-32, %ecx
	leaq	(%rax,%rbp), %rdx
	addq	$8, %rdx
	xorl	%esi, %esi
	.p2align	4
.Lunix_path_BB59_349:
	movdqu	(%r15,%rsi), %xmm0
	movdqu	%xmm0, -8(%rdx,%rsi)
	addq	$16, %rsi
	cmpq	%rsi, %rcx
	jne	.Lunix_path_BB59_349
	cmpl	%ecx, %ebx
	je	.Lunix_path_BB59_361
	testb	$12, %bl
	je	.Lunix_path_BB59_355
.Lunix_path_BB59_352:
	movq	%rcx, %rdx
	movl	%ebx, %ecx
	andl	$-20, %ecx
	.p2align	4
.Lunix_path_BB59_353:
	movl	(%r15,%rdx), %esi
	movl	%esi, (%rdi,%rdx)
	addq	$4, %rdx
	cmpq	%rdx, %rcx
	jne	.Lunix_path_BB59_353
	cmpl	%ecx, %ebx
	je	.Lunix_path_BB59_361
	jmp	.Lunix_path_BB59_355
.Lunix_path_BB59_366:
	movq	40(%rsp), %rdi
	movq	%r9, %rsi
	callq	std_alloc.vec.Vec.grow_amortized.f4a78633ca2a48c6.
	testb	%al, %al
	je	.Lunix_path_BB59_495
	movq	32(%rsp), %rcx
	movq	48(%rcx), %rbp
	movq	56(%rcx), %rax
	movq	64(%rcx), %r14
	movq	56(%rsp), %r9
	jmp	.Lunix_path_BB59_197
.Lunix_path_BB59_368:
	movl	$22, %esi
	movq	40(%rsp), %rdi
	callq	std_alloc.vec.Vec.grow_amortized.f4a78633ca2a48c6.
	testb	%al, %al
	je	.Lunix_path_BB59_495
	movq	32(%rsp), %rcx
	movq	48(%rcx), %rbp
	movq	56(%rcx), %rax
	movq	64(%rcx), %r14
	movq	56(%rsp), %r9
	jmp	.Lunix_path_BB59_201
.Lunix_path_BB59_370:
	testq	%r12, %r12
	je	.Lunix_path_BB59_390
	movq	8(%rsp), %rax
	cmpb	$47, (%rax)
	jne	.Lunix_path_BB59_390
	movl	$10, %r8d
	leaq	.Lunix_path_static.95(%rip), %rbx
	jmp	.Lunix_path_BB59_187
.Lunix_path_BB59_373:
	testq	%r12, %r12
	je	.Lunix_path_BB59_175
	movq	8(%rsp), %rax
	movzbl	(%rax), %eax
	cmpl	$47, %eax
	je	.Lunix_path_BB59_392
	cmpl	$46, %eax
	jne	.Lunix_path_BB59_381
	movb	$1, %bl
	cmpq	$1, %r12
	je	.Lunix_path_BB59_435
	movq	8(%rsp), %rcx
	movzbl	1(%rcx), %ecx
	cmpl	$47, %ecx
	je	.Lunix_path_BB59_435
	cmpl	$46, %ecx
	jne	.Lunix_path_BB59_381
	cmpq	$2, %r12
	je	.Lunix_path_BB59_434
	movq	8(%rsp), %rcx
	cmpb	$47, 2(%rcx)
	je	.Lunix_path_BB59_434
.Lunix_path_BB59_381:
	movq	8(%rsp), %rcx
	movzbl	-1(%rcx,%r12), %ecx
	andb	$-2, %cl
	cmpb	$46, %cl
	je	.Lunix_path_BB59_421
	cmpq	$17, %r12
	jae	.Lunix_path_BB59_393
.Lunix_path_BB59_383:
	cmpq	$9, %r12
	jae	.Lunix_path_BB59_401
	xorl	%ecx, %ecx
	jmp	.Lunix_path_BB59_418
.Lunix_path_BB59_385:
	movq	40(%rsp), %rdi
	movq	%rbx, %rsi
	callq	std_alloc.vec.Vec.grow_amortized.f4a78633ca2a48c6.
	testb	%al, %al
	je	.Lunix_path_BB59_495
	movq	32(%rsp), %rcx
	movq	56(%rcx), %rax
	movq	64(%rcx), %r14
	jmp	.Lunix_path_BB59_207
.Lunix_path_BB59_387:
	movl	$29, %r8d
	leaq	.Lunix_path_static.101(%rip), %rbx
	testq	%rax, %rax
	je	.Lunix_path_BB59_389
	callq	rattle_dealloc@PLT
	movl	$29, %r8d
.Lunix_path_BB59_389:
	movq	80(%rsp), %rax
	movq	(%rax), %r10
	jmp	.Lunix_path_BB59_188
.Lunix_path_BB59_390:
	movq	8(%rsp), %rdi
	movq	%r12, %rsi
	callq	path_within.check.check_escape
	testb	%al, %al
	jne	.Lunix_path_BB59_175
	movl	$15, %r8d
	leaq	.Lunix_path_static.96(%rip), %rbx
	jmp	.Lunix_path_BB59_187
.Lunix_path_BB59_392:
	xorl	%r10d, %r10d
	movl	$10, %r8d
	leaq	.Lunix_path_static.95(%rip), %rbx
	jmp	.Lunix_path_BB59_188
.Lunix_path_BB59_393:
	cmpq	$32, %r12
	ja	.Lunix_path_BB59_403
	movq	8(%rsp), %rcx
	movdqu	(%rcx), %xmm0
	movdqu	1(%rcx), %xmm1
	pand	.Lunix_path_CPI59_1(%rip), %xmm1
	por	%xmm0, %xmm1
	pcmpeqb	.Lunix_path_CPI59_0(%rip), %xmm1
	pmovmskb	%xmm1, %ecx
	testl	%ecx, %ecx
	jne	.Lunix_path_BB59_396
	movq	8(%rsp), %rcx
	movdqu	-17(%rcx,%r12), %xmm0
	movdqu	-16(%rcx,%r12), %xmm1
	pand	.Lunix_path_CPI59_1(%rip), %xmm1
	por	%xmm0, %xmm1
	pcmpeqb	.Lunix_path_CPI59_0(%rip), %xmm1
	pmovmskb	%xmm1, %ecx
	testl	%ecx, %ecx
	je	.Lunix_path_BB59_175
.Lunix_path_BB59_396:
	cmpq	$18, %r12
	jbe	.Lunix_path_BB59_383
	movq	%r12, %rdx
	addq	$-19, %rdx
	jne	.Lunix_path_BB59_405
	xorl	%edx, %edx
	xorl	%ecx, %ecx
.Lunix_path_BB59_399:
	leaq	-17(%r12), %rsi
	cmpq	%rcx, %rsi
	cmovbq	%rsi, %rcx
	movq	8(%rsp), %rdi
	movdqu	(%rdi,%rcx), %xmm0
	movdqu	1(%rdi,%rcx), %xmm1
	pand	.Lunix_path_CPI59_1(%rip), %xmm1
	por	%xmm0, %xmm1
	pcmpeqb	.Lunix_path_CPI59_0(%rip), %xmm1
	pmovmskb	%xmm1, %esi
	testl	%esi, %esi
	je	.Lunix_path_BB59_417
	movdqu	(%rdi,%rdx), %xmm0
	movdqu	1(%rdi,%rdx), %xmm1
	movdqu	2(%rdi,%rdx), %xmm2
	movdqu	3(%rdi,%rdx), %xmm3
	movdqa	.Lunix_path_CPI59_2(%rip), %xmm4
	movdqa	%xmm2, %xmm5
	pcmpeqb	%xmm4, %xmm5
	movdqa	.Lunix_path_CPI59_0(%rip), %xmm6
	pcmpeqb	%xmm6, %xmm3
	pand	%xmm5, %xmm3
	pcmpeqb	%xmm1, %xmm4
	pcmpeqb	%xmm6, %xmm2
	por	%xmm3, %xmm2
	pand	%xmm4, %xmm2
	pcmpeqb	%xmm6, %xmm0
	pcmpeqb	%xmm6, %xmm1
	por	%xmm2, %xmm1
	pand	%xmm0, %xmm1
	pmovmskb	%xmm1, %ecx
	orl	$65536, %ecx
	rep		bsfl	%ecx, %ecx
	jmp	.Lunix_path_BB59_412
.Lunix_path_BB59_401:
	movq	8(%rsp), %rdx
	movq	1(%rdx), %xmm0
	pand	.Lunix_path_CPI59_3(%rip), %xmm0
	pcmpeqb	.Lunix_path_CPI59_4(%rip), %xmm0
	movq	(%rdx), %xmm1
	pcmpeqb	.Lunix_path_CPI59_5(%rip), %xmm1
	pand	%xmm0, %xmm1
	pmovmskb	%xmm1, %ecx
	orl	$256, %ecx
	rep		bsfl	%ecx, %ecx
	cmpb	$8, %cl
	jb	.Lunix_path_BB59_418
	cmpq	$17, %r12
	movl	$17, %ecx
	cmovbq	%r12, %rcx
	movq	-8(%rdx,%rcx), %xmm0
	pand	.Lunix_path_CPI59_3(%rip), %xmm0
	pcmpeqb	.Lunix_path_CPI59_4(%rip), %xmm0
	movq	-9(%rdx,%rcx), %xmm1
	pcmpeqb	.Lunix_path_CPI59_5(%rip), %xmm1
	pand	%xmm0, %xmm1
	pmovmskb	%xmm1, %edx
	orl	$256, %edx
	rep		bsfl	%edx, %edx
	addq	%rdx, %rcx
	addq	$-9, %rcx
	jmp	.Lunix_path_BB59_418
.Lunix_path_BB59_403:
	movdqa	.Lunix_path_CPI59_1(%rip), %xmm0
	movq	8(%rsp), %rcx
	movdqu	-33(%rcx,%r12), %xmm1
	movdqu	-32(%rcx,%r12), %xmm2
	movdqu	-17(%rcx,%r12), %xmm3
	movdqu	-16(%rcx,%r12), %xmm4
	pand	%xmm0, %xmm2
	por	%xmm1, %xmm2
	movdqa	.Lunix_path_CPI59_0(%rip), %xmm1
	pcmpeqb	%xmm1, %xmm2
	pand	%xmm0, %xmm4
	por	%xmm3, %xmm4
	pcmpeqb	%xmm1, %xmm4
	por	%xmm2, %xmm4
	pmovmskb	%xmm4, %ecx
	testl	%ecx, %ecx
	je	.Lunix_path_BB59_413
	leaq	-19(%r12), %rdx
.Lunix_path_BB59_405:
	xorl	%ecx, %ecx
	jmp	.Lunix_path_BB59_409
.Lunix_path_BB59_406:
	movdqu	2(%rdi,%rcx), %xmm2
	movdqu	3(%rdi,%rcx), %xmm3
	movdqa	.Lunix_path_CPI59_2(%rip), %xmm4
	movdqa	%xmm2, %xmm5
	pcmpeqb	%xmm4, %xmm5
	movdqa	.Lunix_path_CPI59_0(%rip), %xmm6
	pcmpeqb	%xmm6, %xmm3
	pand	%xmm5, %xmm3
	pcmpeqb	%xmm1, %xmm4
	pcmpeqb	%xmm6, %xmm2
	por	%xmm3, %xmm2
	pand	%xmm4, %xmm2
	pcmpeqb	%xmm6, %xmm0
	pcmpeqb	%xmm6, %xmm1
	por	%xmm2, %xmm1
	pand	%xmm0, %xmm1
	pmovmskb	%xmm1, %esi
	orl	$65536, %esi
	rep		bsfl	%esi, %esi
	cmpw	$15, %si
	jbe	.Lunix_path_BB59_411
	addq	$16, %rcx
.Lunix_path_BB59_408:
	cmpq	%rdx, %rcx
	jae	.Lunix_path_BB59_399
.Lunix_path_BB59_409:
	movq	8(%rsp), %rdi
	movdqu	(%rdi,%rcx), %xmm0
	movdqu	1(%rdi,%rcx), %xmm1
	movdqa	.Lunix_path_CPI59_1(%rip), %xmm2
	pand	%xmm1, %xmm2
	por	%xmm0, %xmm2
	pcmpeqb	.Lunix_path_CPI59_0(%rip), %xmm2
	pmovmskb	%xmm2, %esi
	testl	%esi, %esi
	jne	.Lunix_path_BB59_406
	addq	$16, %rcx
	cmpq	%rdx, %rcx
	jb	.Lunix_path_BB59_409
	jmp	.Lunix_path_BB59_408
.Lunix_path_BB59_411:
	movzwl	%si, %edx
.Lunix_path_BB59_412:
	addq	%rdx, %rcx
	jmp	.Lunix_path_BB59_418
.Lunix_path_BB59_413:
	movq	%r12, %rcx
	addq	$-33, %rcx
	je	.Lunix_path_BB59_175
	xorl	%edx, %edx
.Lunix_path_BB59_415:
	movq	8(%rsp), %rsi
	movdqu	(%rsi,%rdx), %xmm2
	movdqu	1(%rsi,%rdx), %xmm3
	movdqu	16(%rsi,%rdx), %xmm4
	movdqu	17(%rsi,%rdx), %xmm5
	pand	%xmm0, %xmm3
	por	%xmm2, %xmm3
	pcmpeqb	%xmm1, %xmm3
	pand	%xmm0, %xmm5
	por	%xmm4, %xmm5
	pcmpeqb	%xmm1, %xmm5
	por	%xmm3, %xmm5
	pmovmskb	%xmm5, %esi
	testl	%esi, %esi
	jne	.Lunix_path_BB59_396
	addq	$32, %rdx
	cmpq	%rcx, %rdx
	jb	.Lunix_path_BB59_415
	jmp	.Lunix_path_BB59_175
.Lunix_path_BB59_417:
	addq	$16, %rcx
.Lunix_path_BB59_418:
	cmpq	%r12, %rcx
	jb	.Lunix_path_BB59_427
	movq	%rcx, %rdx
.Lunix_path_BB59_420:
	cmpq	%r12, %rdx
	je	.Lunix_path_BB59_175
.Lunix_path_BB59_421:
	movb	$1, %bl
	cmpl	$47, %eax
	je	.Lunix_path_BB59_435
	cmpl	$46, %eax
	jne	.Lunix_path_BB59_434
	cmpq	$1, %r12
	je	.Lunix_path_BB59_435
	movq	8(%rsp), %rax
	cmpb	$47, 1(%rax)
	sete	%bl
	jmp	.Lunix_path_BB59_435
.Lunix_path_BB59_425:
	cmpl	$47, %esi
	je	.Lunix_path_BB59_420
.Lunix_path_BB59_426:
	cmpq	%rcx, %r12
	je	.Lunix_path_BB59_175
.Lunix_path_BB59_427:
	movq	%rcx, %rdx
	incq	%rcx
	movq	8(%rsp), %rsi
	cmpb	$47, (%rsi,%rdx)
	jne	.Lunix_path_BB59_426
	cmpq	%rcx, %r12
	jbe	.Lunix_path_BB59_420
	movq	8(%rsp), %rsi
	movzbl	1(%rsi,%rdx), %esi
	cmpl	$46, %esi
	jne	.Lunix_path_BB59_425
	leaq	2(%rdx), %rsi
	cmpq	%rsi, %r12
	jbe	.Lunix_path_BB59_420
	movq	8(%rsp), %rsi
	movzbl	2(%rsi,%rdx), %esi
	cmpl	$46, %esi
	jne	.Lunix_path_BB59_425
	leaq	3(%rdx), %rsi
	cmpq	%rsi, %r12
	jbe	.Lunix_path_BB59_420
	movq	8(%rsp), %rsi
	cmpb	$47, 3(%rsi,%rdx)
	jne	.Lunix_path_BB59_426
	jmp	.Lunix_path_BB59_420
.Lunix_path_BB59_434:
	xorl	%ebx, %ebx
.Lunix_path_BB59_435:
	movq	%r12, %rcx
	movq	%r12, %rax
	jmp	.Lunix_path_BB59_437
.Lunix_path_BB59_436:
	movq	%rax, %rcx
	testq	%rax, %rax
	je	.Lunix_path_BB59_175
.Lunix_path_BB59_437:
	decq	%rax
	je	.Lunix_path_BB59_443
	movq	8(%rsp), %rdx
	movzbl	(%rdx,%rax), %edx
	cmpl	$47, %edx
	je	.Lunix_path_BB59_441
	cmpl	$46, %edx
	jne	.Lunix_path_BB59_443
	movq	8(%rsp), %rdx
	cmpb	$47, -1(%rdx,%rax)
	jne	.Lunix_path_BB59_443
.Lunix_path_BB59_441:
	movq	%r12, %rcx
	subq	%rax, %rcx
	cmpq	$8, %rcx
	jne	.Lunix_path_BB59_436
	movq	8(%rsp), %rdi
	movq	%rax, %rsi
	callq	unix_path.filler.trimmed_blocks_len
	jmp	.Lunix_path_BB59_436
.Lunix_path_BB59_443:
	xorl	%eax, %eax
	movq	%rcx, %rdx
	movq	8(%rsp), %rsi
	jmp	.Lunix_path_BB59_447
.Lunix_path_BB59_444:
	xorl	%edi, %edi
.Lunix_path_BB59_445:
	addq	%r8, %rdi
.Lunix_path_BB59_446:
	addq	%rdi, %rax
	movq	8(%rsp), %rdx
	leaq	(%rdx,%rax), %rsi
	xorl	%ebx, %ebx
	movq	%rcx, %rdx
	subq	%rax, %rdx
	je	.Lunix_path_BB59_175
.Lunix_path_BB59_447:
	testb	$1, %bl
	je	.Lunix_path_BB59_455
	movq	%rdx, %r8
	decq	%r8
	je	.Lunix_path_BB59_470
	leaq	-1(%rdx), %r9
	addq	$-2, %rdx
	xorl	%edi, %edi
	jmp	.Lunix_path_BB59_451
.Lunix_path_BB59_450:
	incq	%rdi
	cmpq	%rdi, %r9
	je	.Lunix_path_BB59_471
.Lunix_path_BB59_451:
	movzbl	1(%rsi,%rdi), %r10d
	cmpl	$47, %r10d
	je	.Lunix_path_BB59_450
	cmpl	$46, %r10d
	jne	.Lunix_path_BB59_472
	cmpq	%rdi, %rdx
	je	.Lunix_path_BB59_471
	cmpb	$47, 2(%rsi,%rdi)
	je	.Lunix_path_BB59_450
	jmp	.Lunix_path_BB59_472
.Lunix_path_BB59_455:
	cmpq	$1, %rdx
	je	.Lunix_path_BB59_460
	cmpb	$46, (%rsi)
	jne	.Lunix_path_BB59_460
	cmpb	$46, 1(%rsi)
	jne	.Lunix_path_BB59_460
	movl	$8, %r8d
	leaq	.Lunix_path_static.97(%rip), %rbx
	cmpq	$2, %rdx
	je	.Lunix_path_BB59_187
	cmpb	$47, 2(%rsi)
	je	.Lunix_path_BB59_187
.Lunix_path_BB59_460:
	cmpq	$15, %rdx
	ja	.Lunix_path_BB59_465
	xorl	%r8d, %r8d
.Lunix_path_BB59_462:
	cmpb	$47, (%rsi,%r8)
	je	.Lunix_path_BB59_475
	incq	%r8
	cmpq	%r8, %rdx
	jne	.Lunix_path_BB59_462
	movq	%rdx, %r8
	jmp	.Lunix_path_BB59_475
.Lunix_path_BB59_465:
	movq	%rdx, %rdi
	addq	$-16, %rdi
	je	.Lunix_path_BB59_469
	xorl	%r9d, %r9d
.Lunix_path_BB59_467:
	movdqu	(%rsi,%r9), %xmm0
	pcmpeqb	.Lunix_path_CPI59_0(%rip), %xmm0
	pmovmskb	%xmm0, %r8d
	orl	$65536, %r8d
	rep		bsfl	%r8d, %r8d
	cmpw	$15, %r8w
	jbe	.Lunix_path_BB59_474
	addq	$16, %r9
	cmpq	%rdi, %r9
	jb	.Lunix_path_BB59_467
.Lunix_path_BB59_469:
	movdqu	(%rsi,%rdi), %xmm0
	pcmpeqb	.Lunix_path_CPI59_0(%rip), %xmm0
	pmovmskb	%xmm0, %r8d
	orl	$65536, %r8d
	rep		bsfl	%r8d, %r8d
	addq	%rdi, %r8
	jmp	.Lunix_path_BB59_475
.Lunix_path_BB59_470:
	movl	$1, %edi
	jmp	.Lunix_path_BB59_473
.Lunix_path_BB59_471:
	movq	%r8, %rdi
.Lunix_path_BB59_472:
	incq	%rdi
.Lunix_path_BB59_473:
	cmpb	$47, (%rsi)
	jne	.Lunix_path_BB59_446
	jmp	.Lunix_path_BB59_483
.Lunix_path_BB59_474:
	movzwl	%r8w, %r8d
	addq	%r9, %r8
.Lunix_path_BB59_475:
	subq	%r8, %rdx
	je	.Lunix_path_BB59_444
	addq	%r8, %rsi
	incq	%rsi
	leaq	-1(%rdx), %r9
	xorl	%edi, %edi
	jmp	.Lunix_path_BB59_478
.Lunix_path_BB59_477:
	incq	%rdi
	cmpq	%rdi, %rdx
	je	.Lunix_path_BB59_482
.Lunix_path_BB59_478:
	movzbl	-1(%rsi,%rdi), %r10d
	cmpl	$47, %r10d
	je	.Lunix_path_BB59_477
	cmpl	$46, %r10d
	jne	.Lunix_path_BB59_445
	cmpq	%rdi, %r9
	je	.Lunix_path_BB59_482
	cmpb	$47, (%rsi,%rdi)
	je	.Lunix_path_BB59_477
	jmp	.Lunix_path_BB59_445
.Lunix_path_BB59_482:
	movq	%rdx, %rdi
	jmp	.Lunix_path_BB59_445
.Lunix_path_BB59_483:
	movl	$8, %r8d
	leaq	.Lunix_path_static.97(%rip), %rbx
	jmp	.Lunix_path_BB59_187
.Lunix_path_BB59_484:
	xorl	%r13d, %r13d
	xorl	%r12d, %r12d
	jmp	.Lunix_path_BB59_495
.Lunix_path_BB59_485:
	movl	%edx, %r13d
	movb	$1, %r12b
	jmp	.Lunix_path_BB59_495
.Lunix_path_BB59_486:
	cmpb	$1, %r15b
	setne	%al
	testq	%r14, %r14
	sete	%cl
	orb	%al, %cl
	jne	.Lunix_path_BB59_488
	movq	%rbx, %rdi
	callq	rattle_dealloc@PLT
.Lunix_path_BB59_488:
	movb	$1, %r12b
	movb	$3, %r13b
	jmp	.Lunix_path_BB59_495
.Lunix_path_BB59_489:
	movq	264(%rsp), %rax
	movq	(%rax), %rax
	movq	%rax, 64(%rsp)
	cmpw	$0, (%rax)
	jne	.Lunix_path_BB59_492
.Lunix_path_BB59_490:
	movq	64(%rsp), %rax
	cmpw	$0, 2(%rax)
	je	.Lunix_path_BB59_492
	movq	64(%rsp), %rdi
	movq	368(%rdi), %rbx
	callq	rattle_dealloc@PLT
	movq	264(%rsp), %rax
	movq	%rbx, (%rax)
.Lunix_path_BB59_492:
	movq	56(%rsp), %r14
.Lunix_path_BB59_493:
	movb	$1, %r12b
	movb	$3, %r13b
	testq	%rbp, %rbp
	je	.Lunix_path_BB59_495
	movq	%r14, %rdi
	callq	rattle_dealloc@PLT
.Lunix_path_BB59_495:
	movl	%r12d, %eax
	movl	%r13d, %edx
	addq	$488, %rsp
	popq	%rbx
	popq	%r12
	popq	%r13
	popq	%r14
	popq	%r15
	popq	%rbp
	retq
.Lunix_path_BB59_496:
	ud2
.Lunix_path_func_end59:
	.size	upath_commands.engine.answer_paths.3596f8ae3b0ff399., .Lunix_path_func_end59-upath_commands.engine.answer_paths.3596f8ae3b0ff399.
	.section	.rodata.upath_commands.engine.answer_paths.3596f8ae3b0ff399.,"a",@progbits
	.p2align	2, 0x0
.Lunix_path_JTI59_0:
	.long	.Lunix_path_BB59_3-.Lunix_path_JTI59_0
	.long	.Lunix_path_BB59_3-.Lunix_path_JTI59_0
	.long	.Lunix_path_BB59_184-.Lunix_path_JTI59_0
	.long	.Lunix_path_BB59_3-.Lunix_path_JTI59_0
	.long	.Lunix_path_BB59_125-.Lunix_path_JTI59_0
	.long	.Lunix_path_BB59_125-.Lunix_path_JTI59_0
	.long	.Lunix_path_BB59_183-.Lunix_path_JTI59_0
	.long	.Lunix_path_BB59_3-.Lunix_path_JTI59_0
	.long	.Lunix_path_BB59_174-.Lunix_path_JTI59_0
	.long	.Lunix_path_BB59_186-.Lunix_path_JTI59_0
	.long	.Lunix_path_BB59_176-.Lunix_path_JTI59_0
	.long	.Lunix_path_BB59_3-.Lunix_path_JTI59_0
	.long	.Lunix_path_BB59_178-.Lunix_path_JTI59_0
	.long	.Lunix_path_BB59_3-.Lunix_path_JTI59_0
	.long	.Lunix_path_BB59_3-.Lunix_path_JTI59_0
	.long	.Lunix_path_BB59_3-.Lunix_path_JTI59_0
	.long	.Lunix_path_BB59_3-.Lunix_path_JTI59_0
	.long	.Lunix_path_BB59_185-.Lunix_path_JTI59_0
	.long	.Lunix_path_BB59_3-.Lunix_path_JTI59_0
	.long	.Lunix_path_BB59_3-.Lunix_path_JTI59_0
.Lunix_path_JTI59_1:
	.long	.Lunix_path_BB59_175-.Lunix_path_JTI59_1
	.long	.Lunix_path_BB59_370-.Lunix_path_JTI59_1
	.long	.Lunix_path_BB59_175-.Lunix_path_JTI59_1
	.long	.Lunix_path_BB59_373-.Lunix_path_JTI59_1
	.section	.text.unlikely.std_alloc.vec.Vec.grow_amortized.a04925db02c9ae72.,"ax",@progbits
	.p2align	4
	.type	std_alloc.vec.Vec.grow_amortized.a04925db02c9ae72.,@function
# std_alloc::vec::Vec::grow_amortized::<#a04925db02c9ae72>
std_alloc.vec.Vec.grow_amortized.a04925db02c9ae72.:
	movq	%rsi, %rax
	movq	8(%rdi), %rsi
	addq	%rsi, %rax
	jae	.Lunix_path_BB60_2
	xorl	%eax, %eax
	retq
.Lunix_path_BB60_2:
	pushq	%r14
	pushq	%rbx
	pushq	%rax
	cmpq	$9, %rax
	movl	$8, %ebx
	cmovaeq	%rax, %rbx
	movq	16(%rdi), %rcx
	movq	%rcx, %rdx
	shrq	$62, %rdx
	leaq	(%rcx,%rcx), %rax
	cmpq	%rax, %rbx
	cmovaq	%rbx, %rax
	testq	%rdx, %rdx
	cmoveq	%rax, %rbx
	testq	%rbx, %rbx
	js	.Lunix_path_BB60_6
	testq	%rcx, %rcx
	je	.Lunix_path_BB60_8
	movq	%rdi, %r14
	movq	(%rdi), %rdi
	movl	$1, %ecx
	movq	%rbx, %rdx
	callq	rattle_realloc@PLT
	testb	$1, %al
	je	.Lunix_path_BB60_6
.Lunix_path_BB60_9:
	movq	%rdx, (%r14)
	movq	%rbx, 16(%r14)
	movb	$1, %al
	addq	$8, %rsp
	popq	%rbx
	popq	%r14
	retq
.Lunix_path_BB60_8:
	movq	%rdi, %r14
	movl	$1, %esi
	movq	%rax, %rdi
	callq	rattle_alloc@PLT
	testb	$1, %al
	jne	.Lunix_path_BB60_9
.Lunix_path_BB60_6:
	xorl	%eax, %eax
	addq	$8, %rsp
	popq	%rbx
	popq	%r14
	retq
.Lunix_path_func_end60:
	.size	std_alloc.vec.Vec.grow_amortized.a04925db02c9ae72., .Lunix_path_func_end60-std_alloc.vec.Vec.grow_amortized.a04925db02c9ae72.
	.section	.text.std_alloc.vec.Vec.remove.b40003dd673f1bd1.,"ax",@progbits
	.p2align	4
	.type	std_alloc.vec.Vec.remove.b40003dd673f1bd1.,@function
# std_alloc::vec::Vec::remove::<#b40003dd673f1bd1>
std_alloc.vec.Vec.remove.b40003dd673f1bd1.:
	pushq	%r14
	pushq	%rbx
	movq	(%rsi), %rax
	movq	8(%rsi), %r11
	movq	16(%rsi), %rcx
	xorps	%xmm0, %xmm0
	movups	%xmm0, 8(%rsi)
	leaq	(,%rdx,8), %r8
	leaq	(%r8,%r8,2), %r9
	movq	16(%rax,%r9), %r8
	movq	%r8, -8(%rsp)
	movups	(%rax,%r9), %xmm0
	movaps	%xmm0, -24(%rsp)
	leaq	-1(%r11), %r8
	movq	%r8, %r10
	subq	%rdx, %r10
	cmpq	$86, %r10
	jb	.Lunix_path_BB61_5
	xorl	%ebx, %ebx
	.p2align	4
.Lunix_path_BB61_2:
	movq	40(%rax,%r9), %r14
	movq	%r14, 16(%rax,%r9)
	movups	24(%rax,%r9), %xmm0
	movups	%xmm0, (%rax,%r9)
	movups	48(%rax,%r9), %xmm0
	movups	%xmm0, 24(%rax,%r9)
	movq	64(%rax,%r9), %r14
	movq	%r14, 40(%rax,%r9)
	movups	72(%rax,%r9), %xmm0
	movups	%xmm0, 48(%rax,%r9)
	movq	88(%rax,%r9), %r14
	movq	%r14, 64(%rax,%r9)
	movups	96(%rax,%r9), %xmm0
	movups	%xmm0, 72(%rax,%r9)
	movq	112(%rax,%r9), %r14
	movq	%r14, 88(%rax,%r9)
	movq	136(%rax,%r9), %r14
	movq	%r14, 112(%rax,%r9)
	movups	120(%rax,%r9), %xmm0
	movups	%xmm0, 96(%rax,%r9)
	movq	160(%rax,%r9), %r14
	movq	%r14, 136(%rax,%r9)
	movups	144(%rax,%r9), %xmm0
	movups	%xmm0, 120(%rax,%r9)
	movq	184(%rax,%r9), %r14
	movq	%r14, 160(%rax,%r9)
	movups	168(%rax,%r9), %xmm0
	movups	%xmm0, 144(%rax,%r9)
	movq	208(%rax,%r9), %r14
	movq	%r14, 184(%rax,%r9)
	movups	192(%rax,%r9), %xmm0
	movups	%xmm0, 168(%rax,%r9)
	movq	232(%rax,%r9), %r14
	movq	%r14, 208(%rax,%r9)
	movups	216(%rax,%r9), %xmm0
	movups	%xmm0, 192(%rax,%r9)
	movq	256(%rax,%r9), %r14
	movq	%r14, 232(%rax,%r9)
	movups	240(%rax,%r9), %xmm0
	movups	%xmm0, 216(%rax,%r9)
	movq	280(%rax,%r9), %r14
	movq	%r14, 256(%rax,%r9)
	movups	264(%rax,%r9), %xmm0
	movups	%xmm0, 240(%rax,%r9)
	movq	304(%rax,%r9), %r14
	movq	%r14, 280(%rax,%r9)
	movups	288(%rax,%r9), %xmm0
	movups	%xmm0, 264(%rax,%r9)
	movq	328(%rax,%r9), %r14
	movq	%r14, 304(%rax,%r9)
	movups	312(%rax,%r9), %xmm0
	movups	%xmm0, 288(%rax,%r9)
	movq	352(%rax,%r9), %r14
	movq	%r14, 328(%rax,%r9)
	movups	336(%rax,%r9), %xmm0
	movups	%xmm0, 312(%rax,%r9)
	movq	376(%rax,%r9), %r14
	movq	%r14, 352(%rax,%r9)
	movups	360(%rax,%r9), %xmm0
	movups	%xmm0, 336(%rax,%r9)
	movq	400(%rax,%r9), %r14
	movq	%r14, 376(%rax,%r9)
	movups	384(%rax,%r9), %xmm0
	movups	%xmm0, 360(%rax,%r9)
	movq	424(%rax,%r9), %r14
	movq	%r14, 400(%rax,%r9)
	movups	408(%rax,%r9), %xmm0
	movups	%xmm0, 384(%rax,%r9)
	movq	448(%rax,%r9), %r14
	movq	%r14, 424(%rax,%r9)
	movups	432(%rax,%r9), %xmm0
	movups	%xmm0, 408(%rax,%r9)
	movq	472(%rax,%r9), %r14
	movq	%r14, 448(%rax,%r9)
	movups	456(%rax,%r9), %xmm0
	movups	%xmm0, 432(%rax,%r9)
	movq	496(%rax,%r9), %r14
	movq	%r14, 472(%rax,%r9)
	movups	480(%rax,%r9), %xmm0
	movups	%xmm0, 456(%rax,%r9)
	movq	520(%rax,%r9), %r14
	movq	%r14, 496(%rax,%r9)
	movups	504(%rax,%r9), %xmm0
	movups	%xmm0, 480(%rax,%r9)
	movq	544(%rax,%r9), %r14
	movq	%r14, 520(%rax,%r9)
	movups	528(%rax,%r9), %xmm0
	movups	%xmm0, 504(%rax,%r9)
	movq	568(%rax,%r9), %r14
	movq	%r14, 544(%rax,%r9)
	movups	552(%rax,%r9), %xmm0
	movups	%xmm0, 528(%rax,%r9)
	movq	592(%rax,%r9), %r14
	movq	%r14, 568(%rax,%r9)
	movups	576(%rax,%r9), %xmm0
	movups	%xmm0, 552(%rax,%r9)
	movq	616(%rax,%r9), %r14
	movq	%r14, 592(%rax,%r9)
	movups	600(%rax,%r9), %xmm0
	movups	%xmm0, 576(%rax,%r9)
	movq	640(%rax,%r9), %r14
	movq	%r14, 616(%rax,%r9)
	movups	624(%rax,%r9), %xmm0
	movups	%xmm0, 600(%rax,%r9)
	movq	664(%rax,%r9), %r14
	movq	%r14, 640(%rax,%r9)
	movups	648(%rax,%r9), %xmm0
	movups	%xmm0, 624(%rax,%r9)
	movq	688(%rax,%r9), %r14
	movq	%r14, 664(%rax,%r9)
	movups	672(%rax,%r9), %xmm0
	movups	%xmm0, 648(%rax,%r9)
	movq	712(%rax,%r9), %r14
	movq	%r14, 688(%rax,%r9)
	movups	696(%rax,%r9), %xmm0
	movups	%xmm0, 672(%rax,%r9)
	movq	736(%rax,%r9), %r14
	movq	%r14, 712(%rax,%r9)
	movups	720(%rax,%r9), %xmm0
	movups	%xmm0, 696(%rax,%r9)
	movq	760(%rax,%r9), %r14
	movq	%r14, 736(%rax,%r9)
	movups	744(%rax,%r9), %xmm0
	movups	%xmm0, 720(%rax,%r9)
	movq	784(%rax,%r9), %r14
	movq	%r14, 760(%rax,%r9)
	movups	768(%rax,%r9), %xmm0
	movups	%xmm0, 744(%rax,%r9)
	movq	808(%rax,%r9), %r14
	movq	%r14, 784(%rax,%r9)
	movups	792(%rax,%r9), %xmm0
	movups	%xmm0, 768(%rax,%r9)
	movq	832(%rax,%r9), %r14
	movq	%r14, 808(%rax,%r9)
	movups	816(%rax,%r9), %xmm0
	movups	%xmm0, 792(%rax,%r9)
	movq	856(%rax,%r9), %r14
	movq	%r14, 832(%rax,%r9)
	movups	840(%rax,%r9), %xmm0
	movups	%xmm0, 816(%rax,%r9)
	movq	880(%rax,%r9), %r14
	movq	%r14, 856(%rax,%r9)
	movups	864(%rax,%r9), %xmm0
	movups	%xmm0, 840(%rax,%r9)
	movq	904(%rax,%r9), %r14
	movq	%r14, 880(%rax,%r9)
	movups	888(%rax,%r9), %xmm0
	movups	%xmm0, 864(%rax,%r9)
	movq	928(%rax,%r9), %r14
	movq	%r14, 904(%rax,%r9)
	movups	912(%rax,%r9), %xmm0
	movups	%xmm0, 888(%rax,%r9)
	movq	952(%rax,%r9), %r14
	movq	%r14, 928(%rax,%r9)
	movups	936(%rax,%r9), %xmm0
	movups	%xmm0, 912(%rax,%r9)
	movq	976(%rax,%r9), %r14
	movq	%r14, 952(%rax,%r9)
	movups	960(%rax,%r9), %xmm0
	movups	%xmm0, 936(%rax,%r9)
	movq	1000(%rax,%r9), %r14
	movq	%r14, 976(%rax,%r9)
	movups	984(%rax,%r9), %xmm0
	movups	%xmm0, 960(%rax,%r9)
	movq	1024(%rax,%r9), %r14
	movq	%r14, 1000(%rax,%r9)
	movups	1008(%rax,%r9), %xmm0
	movups	%xmm0, 984(%rax,%r9)
	movq	1048(%rax,%r9), %r14
	movq	%r14, 1024(%rax,%r9)
	movups	1032(%rax,%r9), %xmm0
	movups	%xmm0, 1008(%rax,%r9)
	movq	1072(%rax,%r9), %r14
	movq	%r14, 1048(%rax,%r9)
	movups	1056(%rax,%r9), %xmm0
	movups	%xmm0, 1032(%rax,%r9)
	movq	1096(%rax,%r9), %r14
	movq	%r14, 1072(%rax,%r9)
	movups	1080(%rax,%r9), %xmm0
	movups	%xmm0, 1056(%rax,%r9)
	movq	1120(%rax,%r9), %r14
	movq	%r14, 1096(%rax,%r9)
	movups	1104(%rax,%r9), %xmm0
	movups	%xmm0, 1080(%rax,%r9)
	movq	1144(%rax,%r9), %r14
	movq	%r14, 1120(%rax,%r9)
	movups	1128(%rax,%r9), %xmm0
	movups	%xmm0, 1104(%rax,%r9)
	movq	1168(%rax,%r9), %r14
	movq	%r14, 1144(%rax,%r9)
	movups	1152(%rax,%r9), %xmm0
	movups	%xmm0, 1128(%rax,%r9)
	movq	1192(%rax,%r9), %r14
	movq	%r14, 1168(%rax,%r9)
	movups	1176(%rax,%r9), %xmm0
	movups	%xmm0, 1152(%rax,%r9)
	movq	1216(%rax,%r9), %r14
	movq	%r14, 1192(%rax,%r9)
	movups	1200(%rax,%r9), %xmm0
	movups	%xmm0, 1176(%rax,%r9)
	movq	1240(%rax,%r9), %r14
	movq	%r14, 1216(%rax,%r9)
	movups	1224(%rax,%r9), %xmm0
	movups	%xmm0, 1200(%rax,%r9)
	movq	1264(%rax,%r9), %r14
	movq	%r14, 1240(%rax,%r9)
	movups	1248(%rax,%r9), %xmm0
	movups	%xmm0, 1224(%rax,%r9)
	movq	1288(%rax,%r9), %r14
	movq	%r14, 1264(%rax,%r9)
	movups	1272(%rax,%r9), %xmm0
	movups	%xmm0, 1248(%rax,%r9)
	movq	1312(%rax,%r9), %r14
	movq	%r14, 1288(%rax,%r9)
	movups	1296(%rax,%r9), %xmm0
	movups	%xmm0, 1272(%rax,%r9)
	movq	1336(%rax,%r9), %r14
	movq	%r14, 1312(%rax,%r9)
	movups	1320(%rax,%r9), %xmm0
	movups	%xmm0, 1296(%rax,%r9)
	movq	1360(%rax,%r9), %r14
	movq	%r14, 1336(%rax,%r9)
	movups	1344(%rax,%r9), %xmm0
	movups	%xmm0, 1320(%rax,%r9)
	movq	1384(%rax,%r9), %r14
	movq	%r14, 1360(%rax,%r9)
	movups	1368(%rax,%r9), %xmm0
	movups	%xmm0, 1344(%rax,%r9)
	movq	1408(%rax,%r9), %r14
	movq	%r14, 1384(%rax,%r9)
	movups	1392(%rax,%r9), %xmm0
	movups	%xmm0, 1368(%rax,%r9)
	movq	1432(%rax,%r9), %r14
	movq	%r14, 1408(%rax,%r9)
	movups	1416(%rax,%r9), %xmm0
	movups	%xmm0, 1392(%rax,%r9)
	movq	1456(%rax,%r9), %r14
	movq	%r14, 1432(%rax,%r9)
	movups	1440(%rax,%r9), %xmm0
	movups	%xmm0, 1416(%rax,%r9)
	movq	1480(%rax,%r9), %r14
	movq	%r14, 1456(%rax,%r9)
	movups	1464(%rax,%r9), %xmm0
	movups	%xmm0, 1440(%rax,%r9)
	movq	1504(%rax,%r9), %r14
	movq	%r14, 1480(%rax,%r9)
	movups	1488(%rax,%r9), %xmm0
	movups	%xmm0, 1464(%rax,%r9)
	movq	1528(%rax,%r9), %r14
	movq	%r14, 1504(%rax,%r9)
	movups	1512(%rax,%r9), %xmm0
	movups	%xmm0, 1488(%rax,%r9)
	movq	1552(%rax,%r9), %r14
	movq	%r14, 1528(%rax,%r9)
	movups	1536(%rax,%r9), %xmm0
	movups	%xmm0, 1512(%rax,%r9)
	movq	1576(%rax,%r9), %r14
	movq	%r14, 1552(%rax,%r9)
	movups	1560(%rax,%r9), %xmm0
	movups	%xmm0, 1536(%rax,%r9)
	movq	1600(%rax,%r9), %r14
	movq	%r14, 1576(%rax,%r9)
	movups	1584(%rax,%r9), %xmm0
	movups	%xmm0, 1560(%rax,%r9)
	movq	1624(%rax,%r9), %r14
	movq	%r14, 1600(%rax,%r9)
	movups	1608(%rax,%r9), %xmm0
	movups	%xmm0, 1584(%rax,%r9)
	movq	1648(%rax,%r9), %r14
	movq	%r14, 1624(%rax,%r9)
	movups	1632(%rax,%r9), %xmm0
	movups	%xmm0, 1608(%rax,%r9)
	movq	1672(%rax,%r9), %r14
	movq	%r14, 1648(%rax,%r9)
	movups	1656(%rax,%r9), %xmm0
	movups	%xmm0, 1632(%rax,%r9)
	movq	1696(%rax,%r9), %r14
	movq	%r14, 1672(%rax,%r9)
	movups	1680(%rax,%r9), %xmm0
	movups	%xmm0, 1656(%rax,%r9)
	movq	1720(%rax,%r9), %r14
	movq	%r14, 1696(%rax,%r9)
	movups	1704(%rax,%r9), %xmm0
	movups	%xmm0, 1680(%rax,%r9)
	movq	1744(%rax,%r9), %r14
	movq	%r14, 1720(%rax,%r9)
	movups	1728(%rax,%r9), %xmm0
	movups	%xmm0, 1704(%rax,%r9)
	movq	1768(%rax,%r9), %r14
	movq	%r14, 1744(%rax,%r9)
	movups	1752(%rax,%r9), %xmm0
	movups	%xmm0, 1728(%rax,%r9)
	movq	1792(%rax,%r9), %r14
	movq	%r14, 1768(%rax,%r9)
	movups	1776(%rax,%r9), %xmm0
	movups	%xmm0, 1752(%rax,%r9)
	movq	1816(%rax,%r9), %r14
	movq	%r14, 1792(%rax,%r9)
	movups	1800(%rax,%r9), %xmm0
	movups	%xmm0, 1776(%rax,%r9)
	movq	1840(%rax,%r9), %r14
	movq	%r14, 1816(%rax,%r9)
	movups	1824(%rax,%r9), %xmm0
	movups	%xmm0, 1800(%rax,%r9)
	movq	1864(%rax,%r9), %r14
	movq	%r14, 1840(%rax,%r9)
	movups	1848(%rax,%r9), %xmm0
	movups	%xmm0, 1824(%rax,%r9)
	movq	1888(%rax,%r9), %r14
	movq	%r14, 1864(%rax,%r9)
	movups	1872(%rax,%r9), %xmm0
	movups	%xmm0, 1848(%rax,%r9)
	movq	1912(%rax,%r9), %r14
	movq	%r14, 1888(%rax,%r9)
	movups	1896(%rax,%r9), %xmm0
	movups	%xmm0, 1872(%rax,%r9)
	movq	1936(%rax,%r9), %r14
	movq	%r14, 1912(%rax,%r9)
	movups	1920(%rax,%r9), %xmm0
	movups	%xmm0, 1896(%rax,%r9)
	movq	1960(%rax,%r9), %r14
	movq	%r14, 1936(%rax,%r9)
	movups	1944(%rax,%r9), %xmm0
	movups	%xmm0, 1920(%rax,%r9)
	movq	1984(%rax,%r9), %r14
	movq	%r14, 1960(%rax,%r9)
	movups	1968(%rax,%r9), %xmm0
	movups	%xmm0, 1944(%rax,%r9)
	movq	2008(%rax,%r9), %r14
	movq	%r14, 1984(%rax,%r9)
	movups	1992(%rax,%r9), %xmm0
	movups	%xmm0, 1968(%rax,%r9)
	movq	2032(%rax,%r9), %r14
	movq	%r14, 2008(%rax,%r9)
	movups	2016(%rax,%r9), %xmm0
	movups	%xmm0, 1992(%rax,%r9)
	movq	2056(%rax,%r9), %r14
	movq	%r14, 2032(%rax,%r9)
	movups	2040(%rax,%r9), %xmm0
	movups	%xmm0, 2016(%rax,%r9)
	addq	$2040, %r9
	leaq	(%r10,%rbx), %r14
	addq	$-85, %r14
	addq	$-85, %rbx
	cmpq	$85, %r14
	ja	.Lunix_path_BB61_2
	leaq	1(%rdx), %r14
	subq	%rbx, %rdx
	cmpq	%rbx, %r14
	jne	.Lunix_path_BB61_4
	testq	%r11, %r11
	je	.Lunix_path_BB61_16
	addq	$-85, %rdx
	leaq	(%r11,%r11,2), %r9
	addq	$-86, %r11
	leaq	(%rax,%r9,8), %r9
	addq	$-24, %r9
	.p2align	4
.Lunix_path_BB61_15:
	movq	16(%r9), %r10
	movq	%r10, -8(%r9)
	movups	(%r9), %xmm0
	movups	%xmm0, -24(%r9)
	addq	$-24, %r9
	decq	%r11
	cmpq	%r11, %rdx
	jne	.Lunix_path_BB61_15
	jmp	.Lunix_path_BB61_16
.Lunix_path_BB61_4:
	addq	%rbx, %r10
.Lunix_path_BB61_5:
	cmpq	%rdx, %r8
	je	.Lunix_path_BB61_16
	leaq	-1(%r10), %r11
	movl	%r10d, %edx
	andl	$3, %edx
	cmpq	$3, %r11
	jae	.Lunix_path_BB61_8
	xorl	%r11d, %r11d
	jmp	.Lunix_path_BB61_11
.Lunix_path_BB61_8:
	andl	$124, %r10d
	leaq	(%rax,%r9), %rbx
	xorl	%r11d, %r11d
	.p2align	4
.Lunix_path_BB61_9:
	movq	40(%rbx), %r14
	movq	%r14, 16(%rbx)
	movups	24(%rbx), %xmm0
	movups	%xmm0, (%rbx)
	movups	48(%rbx), %xmm0
	movups	%xmm0, 24(%rbx)
	movq	64(%rbx), %r14
	movq	%r14, 40(%rbx)
	movups	72(%rbx), %xmm0
	movups	%xmm0, 48(%rbx)
	movq	88(%rbx), %r14
	movq	%r14, 64(%rbx)
	movups	96(%rbx), %xmm0
	movups	%xmm0, 72(%rbx)
	movq	112(%rbx), %r14
	movq	%r14, 88(%rbx)
	addq	$96, %rbx
	addq	$4, %r11
	cmpq	%r11, %r10
	jne	.Lunix_path_BB61_9
	testq	%rdx, %rdx
	je	.Lunix_path_BB61_16
.Lunix_path_BB61_11:
	leaq	(%r11,%r11,2), %r10
	leaq	(%r9,%r10,8), %r9
	addq	%rax, %r9
	shll	$3, %edx
	leaq	(%rdx,%rdx,2), %rdx
	xorl	%r10d, %r10d
	.p2align	4
.Lunix_path_BB61_12:
	movq	40(%r9,%r10), %r11
	movq	%r11, 16(%r9,%r10)
	movups	24(%r9,%r10), %xmm0
	movups	%xmm0, (%r9,%r10)
	addq	$24, %r10
	cmpq	%r10, %rdx
	jne	.Lunix_path_BB61_12
.Lunix_path_BB61_16:
	movq	%rax, (%rsi)
	movq	%r8, 8(%rsi)
	movq	%rcx, 16(%rsi)
	movq	-8(%rsp), %rax
	movq	%rax, 16(%rdi)
	movaps	-24(%rsp), %xmm0
	movups	%xmm0, (%rdi)
	popq	%rbx
	popq	%r14
	retq
.Lunix_path_func_end61:
	.size	std_alloc.vec.Vec.remove.b40003dd673f1bd1., .Lunix_path_func_end61-std_alloc.vec.Vec.remove.b40003dd673f1bd1.
	.section	.rodata.cst16,"aM",@progbits,16
	.p2align	4, 0x0
.Lunix_path_CPI62_0:
	.long	1
	.long	0
	.long	0
	.long	0
	.section	.text.std_alloc.vec.lodged.Vec.T.Lodged.insert_reserved.23.unix_path.buf.PathBuf.,"ax",@progbits
	.p2align	4
	.type	std_alloc.vec.lodged.Vec.T.Lodged.insert_reserved.23.unix_path.buf.PathBuf.,@function
# std_alloc::vec::lodged::Vec+T+Lodged::insert_reserved::<23'unix_path::buf::PathBuf>
std_alloc.vec.lodged.Vec.T.Lodged.insert_reserved.23.unix_path.buf.PathBuf.:
	pushq	%r14
	pushq	%rbx
	movq	16(%rdx), %rax
	movq	%rax, -8(%rsp)
	movups	(%rdx), %xmm0
	movaps	%xmm0, -24(%rsp)
	movq	(%rdi), %rax
	movq	8(%rdi), %rcx
	movdqu	8(%rdi), %xmm0
	xorps	%xmm1, %xmm1
	movups	%xmm1, 8(%rdi)
	movq	%rsi, %r10
	incq	%r10
	je	.Lunix_path_BB62_1
	cmpq	%rsi, %rcx
	je	.Lunix_path_BB62_27
	movq	%rcx, %rdx
	subq	%rsi, %rdx
	leaq	(%rsi,%rsi,2), %r8
	leaq	(%rax,%r8,8), %r8
	leaq	(%r10,%r10,2), %r9
	leaq	(%rax,%r9,8), %r9
	cmpq	%r10, %rcx
	jne	.Lunix_path_BB62_23
	xorl	%ecx, %ecx
	jmp	.Lunix_path_BB62_26
.Lunix_path_BB62_1:
	leaq	1(%rcx), %rdx
	cmpq	$86, %rdx
	jb	.Lunix_path_BB62_12
	xorl	%r10d, %r10d
	movq	%rax, %r9
	jmp	.Lunix_path_BB62_3
	.p2align	4
.Lunix_path_BB62_7:
	leaq	(%r8,%r8,2), %r10
	leaq	(%rax,%r10,8), %r10
	movq	-8(%r10), %r11
	movq	%r11, 16(%r10)
	movups	-24(%r10), %xmm1
	movups	%xmm1, (%r10)
	movq	-8(%r10), %r11
	movq	%r11, 40(%r10)
	movups	-24(%r10), %xmm1
	movups	%xmm1, 24(%r10)
	movq	-8(%r10), %r11
	movq	%r11, 64(%r10)
	movups	-24(%r10), %xmm1
	movups	%xmm1, 48(%r10)
	movq	-8(%r10), %r11
	movq	%r11, 88(%r10)
	movups	-24(%r10), %xmm1
	movups	%xmm1, 72(%r10)
	movq	-8(%r10), %r11
	movq	%r11, 112(%r10)
	movups	-24(%r10), %xmm1
	movups	%xmm1, 96(%r10)
	movups	-24(%r10), %xmm1
	movups	%xmm1, 120(%r10)
	movq	-8(%r10), %r11
	movq	%r11, 136(%r10)
	movups	-24(%r10), %xmm1
	movups	%xmm1, 144(%r10)
	movq	-8(%r10), %r11
	movq	%r11, 160(%r10)
	movq	-8(%r10), %r11
	movq	%r11, 184(%r10)
	movups	-24(%r10), %xmm1
	movups	%xmm1, 168(%r10)
	movups	-24(%r10), %xmm1
	movups	%xmm1, 192(%r10)
	movq	-8(%r10), %r11
	movq	%r11, 208(%r10)
	movups	-24(%r10), %xmm1
	movups	%xmm1, 216(%r10)
	movq	-8(%r10), %r11
	movq	%r11, 232(%r10)
	movq	-8(%r10), %r11
	movq	%r11, 256(%r10)
	movups	-24(%r10), %xmm1
	movups	%xmm1, 240(%r10)
	movq	-8(%r10), %r11
	movq	%r11, 280(%r10)
	movups	-24(%r10), %xmm1
	movups	%xmm1, 264(%r10)
	movups	-24(%r10), %xmm1
	movups	%xmm1, 288(%r10)
	movq	-8(%r10), %r11
	movq	%r11, 304(%r10)
	movups	-24(%r10), %xmm1
	movups	%xmm1, 312(%r10)
	movq	-8(%r10), %r11
	movq	%r11, 328(%r10)
	movups	-24(%r10), %xmm1
	movups	%xmm1, 336(%r10)
	movq	-8(%r10), %r11
	movq	%r11, 352(%r10)
	movq	-8(%r10), %r11
	movq	%r11, 376(%r10)
	movups	-24(%r10), %xmm1
	movups	%xmm1, 360(%r10)
	movups	-24(%r10), %xmm1
	movups	%xmm1, 384(%r10)
	movq	-8(%r10), %r11
	movq	%r11, 400(%r10)
	movups	-24(%r10), %xmm1
	movups	%xmm1, 408(%r10)
	movq	-8(%r10), %r11
	movq	%r11, 424(%r10)
	movups	-24(%r10), %xmm1
	movups	%xmm1, 432(%r10)
	movq	-8(%r10), %r11
	movq	%r11, 448(%r10)
	movq	-8(%r10), %r11
	movq	%r11, 472(%r10)
	movups	-24(%r10), %xmm1
	movups	%xmm1, 456(%r10)
	movups	-24(%r10), %xmm1
	movups	%xmm1, 480(%r10)
	movq	-8(%r10), %r11
	movq	%r11, 496(%r10)
	movups	-24(%r10), %xmm1
	movups	%xmm1, 504(%r10)
	movq	-8(%r10), %r11
	movq	%r11, 520(%r10)
	movups	-24(%r10), %xmm1
	movups	%xmm1, 528(%r10)
	movq	-8(%r10), %r11
	movq	%r11, 544(%r10)
	movq	-8(%r10), %r11
	movq	%r11, 568(%r10)
	movups	-24(%r10), %xmm1
	movups	%xmm1, 552(%r10)
	movups	-24(%r10), %xmm1
	movups	%xmm1, 576(%r10)
	movq	-8(%r10), %r11
	movq	%r11, 592(%r10)
	movups	-24(%r10), %xmm1
	movups	%xmm1, 600(%r10)
	movq	-8(%r10), %r11
	movq	%r11, 616(%r10)
	movups	-24(%r10), %xmm1
	movups	%xmm1, 624(%r10)
	movq	-8(%r10), %r11
	movq	%r11, 640(%r10)
	movq	-8(%r10), %r11
	movq	%r11, 664(%r10)
	movups	-24(%r10), %xmm1
	movups	%xmm1, 648(%r10)
	movups	-24(%r10), %xmm1
	movups	%xmm1, 672(%r10)
	movq	-8(%r10), %r11
	movq	%r11, 688(%r10)
	movups	-24(%r10), %xmm1
	movups	%xmm1, 696(%r10)
	movq	-8(%r10), %r11
	movq	%r11, 712(%r10)
	movups	-24(%r10), %xmm1
	movups	%xmm1, 720(%r10)
	movq	-8(%r10), %r11
	movq	%r11, 736(%r10)
	movq	-8(%r10), %r11
	movq	%r11, 760(%r10)
	movups	-24(%r10), %xmm1
	movups	%xmm1, 744(%r10)
	movups	-24(%r10), %xmm1
	movups	%xmm1, 768(%r10)
	movq	-8(%r10), %r11
	movq	%r11, 784(%r10)
	movups	-24(%r10), %xmm1
	movups	%xmm1, 792(%r10)
	movq	-8(%r10), %r11
	movq	%r11, 808(%r10)
	movups	-24(%r10), %xmm1
	movups	%xmm1, 816(%r10)
	movq	-8(%r10), %r11
	movq	%r11, 832(%r10)
	movq	-8(%r10), %r11
	movq	%r11, 856(%r10)
	movups	-24(%r10), %xmm1
	movups	%xmm1, 840(%r10)
	movups	-24(%r10), %xmm1
	movups	%xmm1, 864(%r10)
	movq	-8(%r10), %r11
	movq	%r11, 880(%r10)
	movups	-24(%r10), %xmm1
	movups	%xmm1, 888(%r10)
	movq	-8(%r10), %r11
	movq	%r11, 904(%r10)
	movups	-24(%r10), %xmm1
	movups	%xmm1, 912(%r10)
	movq	-8(%r10), %r11
	movq	%r11, 928(%r10)
	movq	-8(%r10), %r11
	movq	%r11, 952(%r10)
	movups	-24(%r10), %xmm1
	movups	%xmm1, 936(%r10)
	movups	-24(%r10), %xmm1
	movups	%xmm1, 960(%r10)
	movq	-8(%r10), %r11
	movq	%r11, 976(%r10)
	movups	-24(%r10), %xmm1
	movups	%xmm1, 984(%r10)
	movq	-8(%r10), %r11
	movq	%r11, 1000(%r10)
	movups	-24(%r10), %xmm1
	movups	%xmm1, 1008(%r10)
	movq	-8(%r10), %r11
	movq	%r11, 1024(%r10)
	movq	-8(%r10), %r11
	movq	%r11, 1048(%r10)
	movups	-24(%r10), %xmm1
	movups	%xmm1, 1032(%r10)
	movups	-24(%r10), %xmm1
	movups	%xmm1, 1056(%r10)
	movq	-8(%r10), %r11
	movq	%r11, 1072(%r10)
	movups	-24(%r10), %xmm1
	movups	%xmm1, 1080(%r10)
	movq	-8(%r10), %r11
	movq	%r11, 1096(%r10)
	movups	-24(%r10), %xmm1
	movups	%xmm1, 1104(%r10)
	movq	-8(%r10), %r11
	movq	%r11, 1120(%r10)
	movq	-8(%r10), %r11
	movq	%r11, 1144(%r10)
	movups	-24(%r10), %xmm1
	movups	%xmm1, 1128(%r10)
	movups	-24(%r10), %xmm1
	movups	%xmm1, 1152(%r10)
	movq	-8(%r10), %r11
	movq	%r11, 1168(%r10)
	movups	-24(%r10), %xmm1
	movups	%xmm1, 1176(%r10)
	movq	-8(%r10), %r11
	movq	%r11, 1192(%r10)
	movups	-24(%r10), %xmm1
	movups	%xmm1, 1200(%r10)
	movq	-8(%r10), %r11
	movq	%r11, 1216(%r10)
	movq	-8(%r10), %r11
	movq	%r11, 1240(%r10)
	movups	-24(%r10), %xmm1
	movups	%xmm1, 1224(%r10)
	movups	-24(%r10), %xmm1
	movups	%xmm1, 1248(%r10)
	movq	-8(%r10), %r11
	movq	%r11, 1264(%r10)
	movups	-24(%r10), %xmm1
	movups	%xmm1, 1272(%r10)
	movq	-8(%r10), %r11
	movq	%r11, 1288(%r10)
	movups	-24(%r10), %xmm1
	movups	%xmm1, 1296(%r10)
	movq	-8(%r10), %r11
	movq	%r11, 1312(%r10)
	movq	-8(%r10), %r11
	movq	%r11, 1336(%r10)
	movups	-24(%r10), %xmm1
	movups	%xmm1, 1320(%r10)
	movups	-24(%r10), %xmm1
	movups	%xmm1, 1344(%r10)
	movq	-8(%r10), %r11
	movq	%r11, 1360(%r10)
	movups	-24(%r10), %xmm1
	movups	%xmm1, 1368(%r10)
	movq	-8(%r10), %r11
	movq	%r11, 1384(%r10)
	movups	-24(%r10), %xmm1
	movups	%xmm1, 1392(%r10)
	movq	-8(%r10), %r11
	movq	%r11, 1408(%r10)
	movq	-8(%r10), %r11
	movq	%r11, 1432(%r10)
	movups	-24(%r10), %xmm1
	movups	%xmm1, 1416(%r10)
	movups	-24(%r10), %xmm1
	movups	%xmm1, 1440(%r10)
	movq	-8(%r10), %r11
	movq	%r11, 1456(%r10)
	movups	-24(%r10), %xmm1
	movups	%xmm1, 1464(%r10)
	movq	-8(%r10), %r11
	movq	%r11, 1480(%r10)
	movups	-24(%r10), %xmm1
	movups	%xmm1, 1488(%r10)
	movq	-8(%r10), %r11
	movq	%r11, 1504(%r10)
	movq	-8(%r10), %r11
	movq	%r11, 1528(%r10)
	movups	-24(%r10), %xmm1
	movups	%xmm1, 1512(%r10)
	movups	-24(%r10), %xmm1
	movups	%xmm1, 1536(%r10)
	movq	-8(%r10), %r11
	movq	%r11, 1552(%r10)
	movups	-24(%r10), %xmm1
	movups	%xmm1, 1560(%r10)
	movq	-8(%r10), %r11
	movq	%r11, 1576(%r10)
	movups	-24(%r10), %xmm1
	movups	%xmm1, 1584(%r10)
	movq	-8(%r10), %r11
	movq	%r11, 1600(%r10)
	movq	-8(%r10), %r11
	movq	%r11, 1624(%r10)
	movups	-24(%r10), %xmm1
	movups	%xmm1, 1608(%r10)
	movups	-24(%r10), %xmm1
	movups	%xmm1, 1632(%r10)
	movq	-8(%r10), %r11
	movq	%r11, 1648(%r10)
	movups	-24(%r10), %xmm1
	movups	%xmm1, 1656(%r10)
	movq	-8(%r10), %r11
	movq	%r11, 1672(%r10)
	movups	-24(%r10), %xmm1
	movups	%xmm1, 1680(%r10)
	movq	-8(%r10), %r11
	movq	%r11, 1696(%r10)
	movq	-8(%r10), %r11
	movq	%r11, 1720(%r10)
	movups	-24(%r10), %xmm1
	movups	%xmm1, 1704(%r10)
	movups	-24(%r10), %xmm1
	movups	%xmm1, 1728(%r10)
	movq	-8(%r10), %r11
	movq	%r11, 1744(%r10)
	movups	-24(%r10), %xmm1
	movups	%xmm1, 1752(%r10)
	movq	-8(%r10), %r11
	movq	%r11, 1768(%r10)
	movups	-24(%r10), %xmm1
	movups	%xmm1, 1776(%r10)
	movq	-8(%r10), %r11
	movq	%r11, 1792(%r10)
	movq	-8(%r10), %r11
	movq	%r11, 1816(%r10)
	movups	-24(%r10), %xmm1
	movups	%xmm1, 1800(%r10)
	movups	-24(%r10), %xmm1
	movups	%xmm1, 1824(%r10)
	movq	-8(%r10), %r11
	movq	%r11, 1840(%r10)
	movups	-24(%r10), %xmm1
	movups	%xmm1, 1848(%r10)
	movq	-8(%r10), %r11
	movq	%r11, 1864(%r10)
	movups	-24(%r10), %xmm1
	movups	%xmm1, 1872(%r10)
	movq	-8(%r10), %r11
	movq	%r11, 1888(%r10)
	movq	-8(%r10), %r11
	movq	%r11, 1912(%r10)
	movups	-24(%r10), %xmm1
	movups	%xmm1, 1896(%r10)
	movups	-24(%r10), %xmm1
	movups	%xmm1, 1920(%r10)
	movq	-8(%r10), %r11
	movq	%r11, 1936(%r10)
	movups	-24(%r10), %xmm1
	movups	%xmm1, 1944(%r10)
	movq	-8(%r10), %r11
	movq	%r11, 1960(%r10)
	movups	-24(%r10), %xmm1
	movups	%xmm1, 1968(%r10)
	movq	-8(%r10), %r11
	movq	%r11, 1984(%r10)
	movq	-8(%r10), %r11
	movq	%r11, 2008(%r10)
	movups	-24(%r10), %xmm1
	movups	%xmm1, 1992(%r10)
	movups	-24(%r10), %xmm1
	movups	%xmm1, 2016(%r10)
	movq	-8(%r10), %r11
	movq	%r11, 2032(%r10)
.Lunix_path_BB62_8:
	leaq	85(%r8), %r10
	movq	%rdx, %r11
	subq	%r10, %r11
	addq	$2040, %r9
	cmpq	$85, %r11
	jbe	.Lunix_path_BB62_9
.Lunix_path_BB62_3:
	movq	%r10, %r8
	testq	%r10, %r10
	je	.Lunix_path_BB62_7
	movl	$2016, %r10d
	.p2align	4
.Lunix_path_BB62_5:
	movq	-8(%r9,%r10), %r11
	movq	%r11, 16(%r9,%r10)
	movups	-24(%r9,%r10), %xmm1
	movups	%xmm1, (%r9,%r10)
	testq	%r10, %r10
	je	.Lunix_path_BB62_8
	movq	-32(%r9,%r10), %r11
	movq	%r11, -8(%r9,%r10)
	movups	-48(%r9,%r10), %xmm1
	movups	%xmm1, -24(%r9,%r10)
	addq	$-48, %r10
	jmp	.Lunix_path_BB62_5
.Lunix_path_BB62_12:
	testq	%rdx, %rdx
	je	.Lunix_path_BB62_27
	movl	%edx, %r8d
	andl	$3, %r8d
	cmpq	$3, %rcx
	jae	.Lunix_path_BB62_15
	xorl	%ecx, %ecx
	jmp	.Lunix_path_BB62_18
.Lunix_path_BB62_9:
	cmpq	%r10, %rdx
	je	.Lunix_path_BB62_27
	leaq	(%rcx,%rcx,2), %rdx
	subq	%r8, %rcx
	addq	$-84, %rcx
	leaq	(%rax,%rdx,8), %rdx
	.p2align	4
.Lunix_path_BB62_11:
	movq	-8(%rdx), %r8
	movq	%r8, 16(%rdx)
	movups	-24(%rdx), %xmm1
	movups	%xmm1, (%rdx)
	addq	$-24, %rdx
	decq	%rcx
	jne	.Lunix_path_BB62_11
	jmp	.Lunix_path_BB62_27
.Lunix_path_BB62_23:
	movq	%rdx, %r10
	andq	$-2, %r10
	leaq	(%rcx,%rcx,2), %rcx
	leaq	(%rax,%rcx,8), %r11
	xorl	%ecx, %ecx
	.p2align	4
.Lunix_path_BB62_24:
	movq	-8(%r11), %rbx
	movq	%rbx, 16(%r11)
	movups	-24(%r11), %xmm1
	movups	%xmm1, (%r11)
	movabsq	$2305843009213693950, %rbx
	xorq	%rcx, %rbx
	addq	%rdx, %rbx
	shlq	$3, %rbx
	leaq	(%rbx,%rbx,2), %rbx
	movq	16(%r8,%rbx), %r14
	movq	%r14, 16(%r9,%rbx)
	movups	(%r8,%rbx), %xmm1
	movups	%xmm1, (%r9,%rbx)
	addq	$2, %rcx
	addq	$-48, %r11
	cmpq	%rcx, %r10
	jne	.Lunix_path_BB62_24
	testb	$1, %dl
	je	.Lunix_path_BB62_27
.Lunix_path_BB62_26:
	notq	%rcx
	addq	%rcx, %rdx
	shlq	$3, %rdx
	leaq	(%rdx,%rdx,2), %rcx
	movq	16(%r8,%rcx), %rdx
	movq	%rdx, 16(%r9,%rcx)
	movups	(%r8,%rcx), %xmm1
	movups	%xmm1, (%r9,%rcx)
	jmp	.Lunix_path_BB62_27
.Lunix_path_BB62_15:
	andl	$124, %edx
	leaq	(,%rsi,8), %rcx
	leaq	(%rcx,%rcx,2), %r9
	xorl	%ecx, %ecx
	movq	%rax, %r10
	.p2align	4
.Lunix_path_BB62_16:
	movq	16(%r10,%r9), %r11
	movq	%r11, 16(%r10)
	movups	(%r10,%r9), %xmm1
	movups	%xmm1, (%r10)
	movq	40(%r10,%r9), %r11
	movq	%r11, 40(%r10)
	movups	24(%r10,%r9), %xmm1
	movups	%xmm1, 24(%r10)
	movq	64(%r10,%r9), %r11
	movq	%r11, 64(%r10)
	movups	48(%r10,%r9), %xmm1
	movups	%xmm1, 48(%r10)
	movups	72(%r10,%r9), %xmm1
	movups	%xmm1, 72(%r10)
	movq	88(%r10,%r9), %r11
	movq	%r11, 88(%r10)
	addq	$4, %rcx
	addq	$96, %r10
	cmpq	%rcx, %rdx
	jne	.Lunix_path_BB62_16
	testq	%r8, %r8
	je	.Lunix_path_BB62_27
.Lunix_path_BB62_18:
	shlq	$3, %rcx
	leaq	(%rcx,%rcx,2), %rcx
	leaq	(%rsi,%rsi,2), %rdx
	leaq	(%rcx,%rdx,8), %rdx
	addq	%rax, %rdx
	addq	%rax, %rcx
	shll	$3, %r8d
	leaq	(%r8,%r8,2), %r8
	xorl	%r9d, %r9d
	.p2align	4
.Lunix_path_BB62_19:
	movq	16(%rdx,%r9), %r10
	movq	%r10, 16(%rcx,%r9)
	movups	(%rdx,%r9), %xmm1
	movups	%xmm1, (%rcx,%r9)
	addq	$24, %r9
	cmpq	%r9, %r8
	jne	.Lunix_path_BB62_19
.Lunix_path_BB62_27:
	leaq	(%rsi,%rsi,2), %rcx
	movq	-8(%rsp), %rdx
	movq	%rdx, 16(%rax,%rcx,8)
	movaps	-24(%rsp), %xmm1
	movups	%xmm1, (%rax,%rcx,8)
	movq	%rax, (%rdi)
	paddq	.Lunix_path_CPI62_0(%rip), %xmm0
	movdqu	%xmm0, 8(%rdi)
	popq	%rbx
	popq	%r14
	retq
.Lunix_path_func_end62:
	.size	std_alloc.vec.lodged.Vec.T.Lodged.insert_reserved.23.unix_path.buf.PathBuf., .Lunix_path_func_end62-std_alloc.vec.lodged.Vec.T.Lodged.insert_reserved.23.unix_path.buf.PathBuf.
	.section	.text.upath_commands.push.push_answer,"ax",@progbits
	.p2align	4
	.type	upath_commands.push.push_answer,@function
# upath_commands::push::push_answer
upath_commands.push.push_answer:
	testb	$1, 2(%r8)
	je	.Lunix_path_BB63_2
	xorl	%eax, %eax
	retq
.Lunix_path_BB63_2:
	pushq	%rbp
	pushq	%r15
	pushq	%r14
	pushq	%r13
	pushq	%r12
	pushq	%rbx
	pushq	%rax
	movq	%r9, %rbx
	movzbl	(%r8), %ebp
	testb	$1, 1(%r8)
	je	.Lunix_path_BB63_31
	movq	8(%rbx), %r8
	movq	16(%rbx), %r13
	movq	%r13, %rax
	subq	%r8, %rax
	cmpq	%rax, %rsi
	ja	.Lunix_path_BB63_60
.Lunix_path_BB63_4:
	leaq	8(%rbx), %rax
	leaq	(%r8,%rsi), %r15
	movq	(%rbx), %r12
	xorps	%xmm0, %xmm0
	movups	%xmm0, (%rax)
	leaq	(%r12,%r8), %rax
	movq	%rax, %r9
	subq	%rdi, %r9
	cmpq	%rsi, %r9
	jae	.Lunix_path_BB63_7
	cmpq	$4, %rsi
	jb	.Lunix_path_BB63_6
	cmpq	$32, %r9
	jae	.Lunix_path_BB63_10
.Lunix_path_BB63_6:
	xorl	%r9d, %r9d
.Lunix_path_BB63_19:
	movl	%ebp, %r14d
	movq	%rsi, %r11
	movq	%r9, %r10
	andq	$3, %r11
	je	.Lunix_path_BB63_22
	movq	%r9, %r10
	.p2align	4
.Lunix_path_BB63_21:
	movzbl	(%rdi,%r10), %ebp
	movb	%bpl, (%rax,%r10)
	incq	%r10
	decq	%r11
	jne	.Lunix_path_BB63_21
.Lunix_path_BB63_22:
	subq	%rsi, %r9
	cmpq	$-4, %r9
	movl	%r14d, %ebp
	ja	.Lunix_path_BB63_25
	leaq	(%r8,%r12), %rax
	addq	$3, %rax
	.p2align	4
.Lunix_path_BB63_24:
	movzbl	(%rdi,%r10), %r8d
	movb	%r8b, -3(%rax,%r10)
	movzbl	1(%rdi,%r10), %r8d
	movb	%r8b, -2(%rax,%r10)
	movzbl	2(%rdi,%r10), %r8d
	movb	%r8b, -1(%rax,%r10)
	movzbl	3(%rdi,%r10), %r8d
	movb	%r8b, (%rax,%r10)
	addq	$4, %r10
	cmpq	%r10, %rsi
	jne	.Lunix_path_BB63_24
	jmp	.Lunix_path_BB63_25
.Lunix_path_BB63_7:
	movq	%rdi, %r8
	movq	%rax, %rdi
	movq	%rsi, %rax
	movq	%r8, %rsi
	movq	%rdx, %r14
	movq	%rax, %rdx
	movq	%r15, (%rsp)
	movq	%r13, %r15
	movq	%r12, %r13
	movl	%ebp, %r12d
	movq	%rcx, %rbp
	callq	memmove@PLT
	movq	%r14, %rdx
	movq	%rbp, %rcx
	movl	%r12d, %ebp
	movq	%r13, %r12
	movq	%r15, %r13
	movq	(%rsp), %r15
.Lunix_path_BB63_25:
	movq	%r12, (%rbx)
	movq	%r15, 8(%rbx)
	movq	%r13, 16(%rbx)
	testb	$1, %bpl
	je	.Lunix_path_BB63_28
	cmpq	%r15, %r13
	je	.Lunix_path_BB63_62
.Lunix_path_BB63_27:
	movb	$0, (%r12,%r15)
	jmp	.Lunix_path_BB63_30
.Lunix_path_BB63_28:
	cmpq	%r15, %r13
	je	.Lunix_path_BB63_64
.Lunix_path_BB63_29:
	movb	$9, (%r12,%r15)
.Lunix_path_BB63_30:
	incq	%r15
	leaq	8(%rbx), %rax
	movq	%r15, (%rax)
.Lunix_path_BB63_31:
	movq	8(%rbx), %rax
	movq	16(%rbx), %r15
	movq	%r15, %rsi
	subq	%rax, %rsi
	cmpq	%rsi, %rcx
	ja	.Lunix_path_BB63_56
.Lunix_path_BB63_32:
	leaq	8(%rbx), %r14
	leaq	(%rax,%rcx), %r12
	movq	(%rbx), %r13
	xorps	%xmm0, %xmm0
	movups	%xmm0, (%r14)
	leaq	(%rax,%r13), %rdi
	movq	%rdi, %rsi
	subq	%rdx, %rsi
	cmpq	%rcx, %rsi
	jae	.Lunix_path_BB63_35
	cmpq	$4, %rcx
	jb	.Lunix_path_BB63_34
	cmpq	$32, %rsi
	jae	.Lunix_path_BB63_38
.Lunix_path_BB63_34:
	xorl	%esi, %esi
.Lunix_path_BB63_47:
	movq	%rcx, %r9
	movq	%rsi, %r8
	andq	$3, %r9
	je	.Lunix_path_BB63_50
	movq	%rsi, %r8
	.p2align	4
.Lunix_path_BB63_49:
	movzbl	(%rdx,%r8), %r10d
	movb	%r10b, (%rdi,%r8)
	incq	%r8
	decq	%r9
	jne	.Lunix_path_BB63_49
.Lunix_path_BB63_50:
	subq	%rcx, %rsi
	cmpq	$-4, %rsi
	ja	.Lunix_path_BB63_53
	addq	%r13, %rax
	addq	$3, %rax
	.p2align	4
.Lunix_path_BB63_52:
	movzbl	(%rdx,%r8), %esi
	movb	%sil, -3(%rax,%r8)
	movzbl	1(%rdx,%r8), %esi
	movb	%sil, -2(%rax,%r8)
	movzbl	2(%rdx,%r8), %esi
	movb	%sil, -1(%rax,%r8)
	movzbl	3(%rdx,%r8), %esi
	movb	%sil, (%rax,%r8)
	addq	$4, %r8
	cmpq	%r8, %rcx
	jne	.Lunix_path_BB63_52
	jmp	.Lunix_path_BB63_53
.Lunix_path_BB63_35:
	movq	%rdx, %rsi
	movq	%rcx, %rdx
	callq	memmove@PLT
.Lunix_path_BB63_53:
	movq	%r13, (%rbx)
	movq	%r12, 8(%rbx)
	movq	%r15, 16(%rbx)
	xorl	%eax, %eax
	testb	$1, %bpl
	movl	$10, %ebp
	cmovnel	%eax, %ebp
	cmpq	%r12, %r15
	je	.Lunix_path_BB63_58
.Lunix_path_BB63_54:
	movb	%bpl, (%r13,%r12)
	incq	%r12
	movq	%r12, (%r14)
	xorl	%eax, %eax
.Lunix_path_BB63_55:
	addq	$8, %rsp
	popq	%rbx
	popq	%r12
	popq	%r13
	popq	%r14
	popq	%r15
	popq	%rbp
	retq
.Lunix_path_BB63_38:
	cmpq	$32, %rcx
	jae	.Lunix_path_BB63_40
	xorl	%esi, %esi
	jmp	.Lunix_path_BB63_44
.Lunix_path_BB63_10:
	cmpq	$32, %rsi
	jae	.Lunix_path_BB63_12
	xorl	%r9d, %r9d
	jmp	.Lunix_path_BB63_16
.Lunix_path_BB63_40:
	movq	%rcx, %rsi
	andq	$-32, %rsi
	leaq	(%rax,%r13), %r8
	addq	$16, %r8
	xorl	%r9d, %r9d
	.p2align	4
.Lunix_path_BB63_41:
	movups	(%rdx,%r9), %xmm0
	movups	16(%rdx,%r9), %xmm1
	movups	%xmm0, -16(%r8,%r9)
	movups	%xmm1, (%r8,%r9)
	addq	$32, %r9
	cmpq	%r9, %rsi
	jne	.Lunix_path_BB63_41
	cmpq	%rsi, %rcx
	je	.Lunix_path_BB63_53
	testb	$28, %cl
	je	.Lunix_path_BB63_47
.Lunix_path_BB63_44:
	movq	%rsi, %r8
	movq	%rcx, %rsi
	andq	$-4, %rsi
	.p2align	4
.Lunix_path_BB63_45:
	movl	(%rdx,%r8), %r9d
	movl	%r9d, (%rdi,%r8)
	addq	$4, %r8
	cmpq	%r8, %rsi
	jne	.Lunix_path_BB63_45
	cmpq	%rsi, %rcx
	je	.Lunix_path_BB63_53
	jmp	.Lunix_path_BB63_47
.Lunix_path_BB63_56:
	movq	%rdx, %r14
	movq	%rbx, %rdi
	movq	%rcx, %r12
	movq	%rcx, %rsi
	callq	std_alloc.vec.Vec.grow_amortized.f4a78633ca2a48c6.
	movl	%eax, %ecx
	movb	$1, %al
	testb	%cl, %cl
	je	.Lunix_path_BB63_55
	movq	8(%rbx), %rax
	movq	16(%rbx), %r15
	movq	%r12, %rcx
	movq	%r14, %rdx
	jmp	.Lunix_path_BB63_32
.Lunix_path_BB63_58:
	movl	$1, %esi
	movq	%rbx, %rdi
	callq	std_alloc.vec.Vec.grow_amortized.f4a78633ca2a48c6.
	movl	%eax, %ecx
	movb	$1, %al
	testb	%cl, %cl
	je	.Lunix_path_BB63_55
	movq	(%rbx), %r13
	movq	8(%rbx), %r12
	jmp	.Lunix_path_BB63_54
.Lunix_path_BB63_12:
	movq	%rsi, %r9
	andq	$-32, %r9
	leaq	(%r8,%r12), %r10
	addq	$16, %r10
	xorl	%r11d, %r11d
	.p2align	4
.Lunix_path_BB63_13:
	movups	(%rdi,%r11), %xmm0
	movups	16(%rdi,%r11), %xmm1
	movups	%xmm0, -16(%r10,%r11)
	movups	%xmm1, (%r10,%r11)
	addq	$32, %r11
	cmpq	%r11, %r9
	jne	.Lunix_path_BB63_13
	cmpq	%r9, %rsi
	je	.Lunix_path_BB63_25
	testb	$28, %sil
	je	.Lunix_path_BB63_19
.Lunix_path_BB63_16:
	movq	%r9, %r10
	movq	%rsi, %r9
	andq	$-4, %r9
	.p2align	4
.Lunix_path_BB63_17:
	movl	(%rdi,%r10), %r11d
	movl	%r11d, (%rax,%r10)
	addq	$4, %r10
	cmpq	%r10, %r9
	jne	.Lunix_path_BB63_17
	cmpq	%r9, %rsi
	je	.Lunix_path_BB63_25
	jmp	.Lunix_path_BB63_19
.Lunix_path_BB63_60:
	movq	%rdi, (%rsp)
	movq	%rdx, %r15
	movq	%rcx, %r12
	movq	%rbx, %rdi
	movq	%rsi, %r14
	callq	std_alloc.vec.Vec.grow_amortized.f4a78633ca2a48c6.
	movl	%eax, %ecx
	movb	$1, %al
	testb	%cl, %cl
	je	.Lunix_path_BB63_55
	movq	8(%rbx), %r8
	movq	16(%rbx), %r13
	movq	%r12, %rcx
	movq	%r15, %rdx
	movq	%r14, %rsi
	movq	(%rsp), %rdi
	jmp	.Lunix_path_BB63_4
.Lunix_path_BB63_62:
	movq	%rdx, (%rsp)
	movq	%rcx, %r13
	movl	$1, %esi
	movq	%rbx, %rdi
	callq	std_alloc.vec.Vec.grow_amortized.f4a78633ca2a48c6.
	movl	%eax, %ecx
	movb	$1, %al
	testb	%cl, %cl
	je	.Lunix_path_BB63_55
	movq	(%rbx), %r12
	movq	8(%rbx), %r15
	movq	%r13, %rcx
	movq	(%rsp), %rdx
	jmp	.Lunix_path_BB63_27
.Lunix_path_BB63_64:
	movq	%rdx, (%rsp)
	movq	%rcx, %r13
	movl	$1, %esi
	movq	%rbx, %rdi
	callq	std_alloc.vec.Vec.grow_amortized.f4a78633ca2a48c6.
	movl	%eax, %ecx
	movb	$1, %al
	testb	%cl, %cl
	je	.Lunix_path_BB63_55
	movq	(%rbx), %r12
	movq	8(%rbx), %r15
	movq	%r13, %rcx
	movq	(%rsp), %rdx
	jmp	.Lunix_path_BB63_29
.Lunix_path_func_end63:
	.size	upath_commands.push.push_answer, .Lunix_path_func_end63-upath_commands.push.push_answer
	.section	.rodata.cst16,"aM",@progbits,16
	.p2align	4, 0x0
.Lunix_path_CPI64_0:
	.zero	16,47
	.section	.text.unix_path.path.Path.parent_len,"ax",@progbits
	.p2align	4
	.type	unix_path.path.Path.parent_len,@function
# unix_path::path::Path::parent_len
unix_path.path.Path.parent_len:
	pushq	%r15
	pushq	%r14
	pushq	%r12
	pushq	%rbx
	pushq	%rax
	testq	%rsi, %rsi
	je	.Lunix_path_BB64_25
	movq	%rsi, %r14
	movq	%rdi, %rbx
	movq	%rsi, %r15
	movq	%r14, %rax
	jmp	.Lunix_path_BB64_3
	.p2align	4
.Lunix_path_BB64_2:
	movq	%rax, %r15
	testq	%rax, %rax
	je	.Lunix_path_BB64_25
.Lunix_path_BB64_3:
	decq	%rax
	je	.Lunix_path_BB64_9
	movzbl	(%rbx,%rax), %ecx
	cmpl	$47, %ecx
	je	.Lunix_path_BB64_7
	cmpl	$46, %ecx
	jne	.Lunix_path_BB64_12
	cmpb	$47, -1(%rbx,%rax)
	jne	.Lunix_path_BB64_12
.Lunix_path_BB64_7:
	movq	%r14, %rcx
	subq	%rax, %rcx
	cmpq	$8, %rcx
	jne	.Lunix_path_BB64_2
	movq	%rbx, %rdi
	movq	%rax, %rsi
	callq	unix_path.filler.trimmed_blocks_len
	jmp	.Lunix_path_BB64_2
.Lunix_path_BB64_9:
	movl	$1, %r15d
	cmpb	$46, (%rbx)
	jne	.Lunix_path_BB64_17
.Lunix_path_BB64_10:
	movb	$1, %r14b
.Lunix_path_BB64_11:
	xorl	%edx, %edx
	jmp	.Lunix_path_BB64_26
.Lunix_path_BB64_12:
	cmpb	$46, -1(%rbx,%r15)
	jne	.Lunix_path_BB64_17
	cmpb	$46, -2(%rbx,%r15)
	jne	.Lunix_path_BB64_17
	movb	$1, %r14b
	cmpq	$2, %r15
	je	.Lunix_path_BB64_11
	cmpb	$47, -3(%rbx,%r15)
	jne	.Lunix_path_BB64_17
	addq	$-2, %r15
	movq	%r15, %rdx
	movq	%r15, %rax
	jmp	.Lunix_path_BB64_28
.Lunix_path_BB64_17:
	movq	%r15, %rax
	.p2align	4
.Lunix_path_BB64_18:
	cmpq	$15, %rax
	jbe	.Lunix_path_BB64_21
	movdqu	-16(%rbx,%rax), %xmm0
	addq	$-16, %rax
	pcmpeqb	.Lunix_path_CPI64_0(%rip), %xmm0
	pmovmskb	%xmm0, %ecx
	testl	%ecx, %ecx
	je	.Lunix_path_BB64_18
	movzwl	%cx, %ecx
	bsrq	%rcx, %rcx
	xorq	$63, %rcx
	subq	%rcx, %rax
	addq	$64, %rax
	movq	%rax, %r12
	jmp	.Lunix_path_BB64_24
.Lunix_path_BB64_21:
	incq	%rax
	.p2align	4
.Lunix_path_BB64_22:
	cmpq	$1, %rax
	je	.Lunix_path_BB64_10
	leaq	-1(%rax), %r12
	cmpb	$47, -2(%rbx,%rax)
	movq	%r12, %rax
	jne	.Lunix_path_BB64_22
.Lunix_path_BB64_24:
	cmpq	%r15, %r12
	jne	.Lunix_path_BB64_34
.Lunix_path_BB64_25:
	xorl	%edx, %edx
	xorl	%r14d, %r14d
.Lunix_path_BB64_26:
	movl	%r14d, %eax
	addq	$8, %rsp
	popq	%rbx
	popq	%r12
	popq	%r14
	popq	%r15
	retq
.Lunix_path_BB64_27:
	movq	%rax, %rdx
	testq	%rax, %rax
	je	.Lunix_path_BB64_11
.Lunix_path_BB64_28:
	decq	%rax
	je	.Lunix_path_BB64_43
	movzbl	(%rbx,%rax), %ecx
	cmpl	$47, %ecx
	je	.Lunix_path_BB64_32
	cmpl	$46, %ecx
	jne	.Lunix_path_BB64_26
	cmpb	$47, -1(%rbx,%rax)
	jne	.Lunix_path_BB64_26
.Lunix_path_BB64_32:
	movq	%r15, %rcx
	subq	%rax, %rcx
	cmpq	$8, %rcx
	jne	.Lunix_path_BB64_27
	movq	%rbx, %rdi
	movq	%rax, %rsi
	callq	unix_path.filler.trimmed_blocks_len
	jmp	.Lunix_path_BB64_27
.Lunix_path_BB64_34:
	movq	%r12, %rdx
	movq	%r12, %rax
	jmp	.Lunix_path_BB64_36
	.p2align	4
.Lunix_path_BB64_35:
	movq	%rax, %rdx
	testq	%rax, %rax
	je	.Lunix_path_BB64_11
.Lunix_path_BB64_36:
	movb	$1, %r14b
	decq	%rax
	je	.Lunix_path_BB64_43
	movzbl	(%rbx,%rax), %ecx
	cmpl	$47, %ecx
	je	.Lunix_path_BB64_40
	cmpl	$46, %ecx
	jne	.Lunix_path_BB64_26
	cmpb	$47, -1(%rbx,%rax)
	jne	.Lunix_path_BB64_26
.Lunix_path_BB64_40:
	movq	%r12, %rcx
	subq	%rax, %rcx
	cmpq	$8, %rcx
	jne	.Lunix_path_BB64_35
	movq	%rbx, %rdi
	movq	%rax, %rsi
	callq	unix_path.filler.trimmed_blocks_len
	jmp	.Lunix_path_BB64_35
.Lunix_path_BB64_43:
	movl	$1, %edx
	jmp	.Lunix_path_BB64_26
.Lunix_path_func_end64:
	.size	unix_path.path.Path.parent_len, .Lunix_path_func_end64-unix_path.path.Path.parent_len
	.section	.rodata.cst16,"aM",@progbits,16
	.p2align	4, 0x0
.Lunix_path_CPI65_0:
	.zero	16,208
.Lunix_path_CPI65_1:
	.zero	16,47
.Lunix_path_CPI65_2:
	.zero	16,46
.Lunix_path_CPI65_3:
	.byte	254
	.byte	254
	.byte	254
	.byte	254
	.byte	254
	.byte	254
	.byte	254
	.byte	254
	.zero	1
	.zero	1
	.zero	1
	.zero	1
	.zero	1
	.zero	1
	.zero	1
	.zero	1
.Lunix_path_CPI65_4:
	.byte	46
	.byte	46
	.byte	46
	.byte	46
	.byte	46
	.byte	46
	.byte	46
	.byte	46
	.zero	1
	.zero	1
	.zero	1
	.zero	1
	.zero	1
	.zero	1
	.zero	1
	.zero	1
.Lunix_path_CPI65_5:
	.byte	47
	.byte	47
	.byte	47
	.byte	47
	.byte	47
	.byte	47
	.byte	47
	.byte	47
	.zero	1
	.zero	1
	.zero	1
	.zero	1
	.zero	1
	.zero	1
	.zero	1
	.zero	1
.Lunix_path_CPI65_6:
	.zero	16,10
	.section	.text.upath_commands.task.answer_of,"ax",@progbits
	.p2align	4
	.type	upath_commands.task.answer_of,@function
# upath_commands::task::answer_of
upath_commands.task.answer_of:
	pushq	%rbp
	pushq	%r15
	pushq	%r14
	pushq	%r13
	pushq	%r12
	pushq	%rbx
	subq	$456, %rsp
	movq	%rcx, %r15
	movq	%rdx, %r14
	pxor	%xmm0, %xmm0
	movdqa	%xmm0, 400(%rsp)
	movdqa	%xmm0, 384(%rsp)
	movdqa	%xmm0, 320(%rsp)
	movq	$0, 336(%rsp)
	movq	6(%rsi), %rbp
	movq	40(%rsi), %r12
	movq	48(%rsi), %r11
	movzbl	(%rsi), %eax
	leaq	.Lunix_path_JTI65_0(%rip), %rcx
	movslq	(%rcx,%rax,4), %rax
	addq	%rcx, %rax
	movq	%rdi, 280(%rsp)
	jmpq	*%rax
.Lunix_path_BB65_1:
	xorl	%ebx, %ebx
.Lunix_path_BB65_2:
	xorl	%edx, %edx
	xorl	%ebp, %ebp
	xorl	%r13d, %r13d
.Lunix_path_BB65_3:
	xorl	%r12d, %r12d
	jmp	.Lunix_path_BB65_1120
.Lunix_path_BB65_4:
	movdqa	%xmm0, 64(%rsp)
	movq	$0, 80(%rsp)
	leaq	64(%rsp), %rdi
	movq	%r12, %rsi
	movq	%r11, %rdx
	movq	%r14, %rcx
	movq	%r15, %r8
	callq	upath_commands.bases.rest_after
	cmpb	$1, 64(%rsp)
	jne	.Lunix_path_BB65_70
	movq	80(%rsp), %r12
	testq	%r12, %r12
	je	.Lunix_path_BB65_109
	movq	72(%rsp), %r13
	jmp	.Lunix_path_BB65_110
.Lunix_path_BB65_7:
	leaq	320(%rsp), %rdi
	movq	%r14, %rsi
	movq	%r15, %rdx
	callq	unix_path.path.Path.file_name
	xorl	%r9d, %r9d
	cmpb	$1, 320(%rsp)
	sete	%dl
	movl	$0, %r13d
	movl	$0, %r12d
	jne	.Lunix_path_BB65_9
	movq	328(%rsp), %r13
	movq	336(%rsp), %r12
.Lunix_path_BB65_9:
	xorl	%ebx, %ebx
	xorl	%ebp, %ebp
	jmp	.Lunix_path_BB65_1121
.Lunix_path_BB65_10:
	movzbl	1(%rsi), %ebx
	movdqa	%xmm0, 80(%rsp)
	movdqa	%xmm0, 64(%rsp)
	movq	$0, 96(%rsp)
	leaq	64(%rsp), %rdi
	movq	%r14, %rsi
	movq	%r15, %rdx
	callq	upath_commands.keys.unkeyed_path
	cmpb	$0, 64(%rsp)
	je	.Lunix_path_BB65_90
	movb	$1, %bl
	jmp	.Lunix_path_BB65_303
.Lunix_path_BB65_12:
	testq	%r15, %r15
	je	.Lunix_path_BB65_1
	movq	%r15, %rcx
	movq	%r15, %rax
	jmp	.Lunix_path_BB65_15
	.p2align	4
.Lunix_path_BB65_14:
	xorl	%ebx, %ebx
	movq	%rax, %rcx
	movl	$0, %edx
	movl	$0, %ebp
	movl	$0, %r13d
	movl	$0, %r12d
	movl	$0, %r9d
	testq	%rax, %rax
	je	.Lunix_path_BB65_1121
.Lunix_path_BB65_15:
	decq	%rax
	je	.Lunix_path_BB65_145
	movzbl	(%r14,%rax), %edx
	cmpl	$47, %edx
	je	.Lunix_path_BB65_19
	cmpl	$46, %edx
	jne	.Lunix_path_BB65_176
	movzbl	-1(%r14,%rax), %edx
	cmpb	$47, %dl
	jne	.Lunix_path_BB65_173
.Lunix_path_BB65_19:
	movq	%r15, %rcx
	subq	%rax, %rcx
	cmpq	$8, %rcx
	jne	.Lunix_path_BB65_14
	movq	%r14, %rdi
	movq	%rax, %rsi
	callq	unix_path.filler.trimmed_blocks_len
	jmp	.Lunix_path_BB65_14
.Lunix_path_BB65_21:
	movdqa	%xmm0, 64(%rsp)
	movdqa	%xmm0, 80(%rsp)
	movdqa	%xmm0, 96(%rsp)
	movdqa	%xmm0, 112(%rsp)
	movdqa	%xmm0, 128(%rsp)
	movdqa	%xmm0, 144(%rsp)
	movdqa	%xmm0, 240(%rsp)
	movdqa	%xmm0, 256(%rsp)
	movdqa	%xmm0, 416(%rsp)
	movdqa	%xmm0, 432(%rsp)
	cmpq	%r15, %r11
	jne	.Lunix_path_BB65_71
	cmpq	$4, %r15
	jae	.Lunix_path_BB65_112
	testq	%r15, %r15
	je	.Lunix_path_BB65_200
	movzbl	(%r12), %eax
	cmpb	(%r14), %al
	jne	.Lunix_path_BB65_194
	cmpq	$1, %r15
	je	.Lunix_path_BB65_200
	movzbl	1(%r12), %ecx
	movl	$1, %eax
	cmpb	1(%r14), %cl
	jne	.Lunix_path_BB65_195
	cmpq	$2, %r15
	je	.Lunix_path_BB65_200
	movzbl	2(%r12), %ecx
	movl	$2, %eax
	cmpb	2(%r14), %cl
	jne	.Lunix_path_BB65_195
	jmp	.Lunix_path_BB65_200
.Lunix_path_BB65_29:
	leaq	15(%rsp), %r13
	testq	%r15, %r15
	je	.Lunix_path_BB65_68
	movq	%r15, %r12
	movq	%r15, %rax
	jmp	.Lunix_path_BB65_32
	.p2align	4
.Lunix_path_BB65_31:
	movq	%rax, %r12
	testq	%rax, %rax
	je	.Lunix_path_BB65_68
.Lunix_path_BB65_32:
	decq	%rax
	je	.Lunix_path_BB65_146
	movzbl	(%r14,%rax), %ecx
	cmpl	$47, %ecx
	je	.Lunix_path_BB65_36
	cmpl	$46, %ecx
	jne	.Lunix_path_BB65_147
	cmpb	$47, -1(%r14,%rax)
	jne	.Lunix_path_BB65_147
.Lunix_path_BB65_36:
	movq	%r15, %rcx
	subq	%rax, %rcx
	cmpq	$8, %rcx
	jne	.Lunix_path_BB65_31
	movq	%r14, %rdi
	movq	%rax, %rsi
	callq	unix_path.filler.trimmed_blocks_len
	jmp	.Lunix_path_BB65_31
.Lunix_path_BB65_38:
	movq	%rdi, %r13
	leaq	384(%rsp), %rdi
	movq	%r14, %rsi
	movq	%r15, %rdx
	callq	path_within.resolved.resolved
	cmpb	$0, 384(%rsp)
	je	.Lunix_path_BB65_96
	movb	$1, (%r13)
	pxor	%xmm0, %xmm0
	movdqu	%xmm0, 8(%r13)
	movdqu	%xmm0, 24(%r13)
	movq	$0, 40(%r13)
	jmp	.Lunix_path_BB65_1122
.Lunix_path_BB65_40:
	movq	%r14, %rdi
	movq	%r15, %rsi
	callq	path_within.check.check_escape
	testb	%al, %al
	je	.Lunix_path_BB65_97
	cmpq	$15, %r15
	ja	.Lunix_path_BB65_99
	xorl	%edx, %edx
	testq	%r15, %r15
	je	.Lunix_path_BB65_183
.Lunix_path_BB65_43:
	cmpb	$0, (%r14,%rdx)
	je	.Lunix_path_BB65_183
	incq	%rdx
	cmpq	%rdx, %r15
	jne	.Lunix_path_BB65_43
	testb	$1, %bpl
	je	.Lunix_path_BB65_1
	jmp	.Lunix_path_BB65_185
.Lunix_path_BB65_46:
	cmpq	$1, %r15
	jne	.Lunix_path_BB65_75
	movzbl	(%r14), %eax
	cmpb	$46, %al
	jne	.Lunix_path_BB65_77
	jmp	.Lunix_path_BB65_78
.Lunix_path_BB65_48:
	movdqa	%xmm0, 64(%rsp)
	movq	$0, 80(%rsp)
	leaq	64(%rsp), %rdi
	movq	%r14, %rsi
	movq	%r15, %rdx
	callq	unix_path.path.Path.file_name
	cmpb	$1, 64(%rsp)
	jne	.Lunix_path_BB65_1
	movq	72(%rsp), %r13
	movq	80(%rsp), %r12
	movq	%r12, %rax
	.p2align	4
.Lunix_path_BB65_50:
	cmpq	$15, %rax
	jbe	.Lunix_path_BB65_54
	movdqu	-16(%r13,%rax), %xmm0
	addq	$-16, %rax
	movdqa	.Lunix_path_CPI65_2(%rip), %xmm1
	pcmpeqb	%xmm0, %xmm1
	pmovmskb	%xmm1, %ecx
	movl	$127, %esi
	movl	$127, %edi
	bsrq	%rcx, %rdi
	xorq	$63, %rdi
	movl	$64, %edx
	movl	$64, %ecx
	subq	%rdi, %rcx
	pcmpeqb	.Lunix_path_CPI65_1(%rip), %xmm0
	pmovmskb	%xmm0, %edi
	bsrq	%rdi, %rsi
	xorq	$63, %rsi
	subq	%rsi, %rdx
	cmpq	%rdx, %rcx
	movq	%rdx, %rsi
	cmovaq	%rcx, %rsi
	testq	%rsi, %rsi
	je	.Lunix_path_BB65_50
	cmpq	%rcx, %rdx
	cmovaq	%rdx, %rcx
	leaq	(%rcx,%rax), %rdx
	addq	%rcx, %rax
	decq	%rax
	jmp	.Lunix_path_BB65_164
.Lunix_path_BB65_53:
	movzbl	-1(%r13,%rax), %ecx
	decq	%rax
	andb	$-2, %cl
	cmpb	$46, %cl
	je	.Lunix_path_BB65_163
.Lunix_path_BB65_54:
	testq	%rax, %rax
	jne	.Lunix_path_BB65_53
	jmp	.Lunix_path_BB65_201
.Lunix_path_BB65_55:
	movzbl	5(%rsi), %eax
	movdqa	%xmm0, 240(%rsp)
	movdqa	%xmm0, 256(%rsp)
	movdqa	%xmm0, 64(%rsp)
	movdqa	%xmm0, 80(%rsp)
	movdqa	%xmm0, 96(%rsp)
	movdqa	%xmm0, 192(%rsp)
	movdqa	%xmm0, 208(%rsp)
	movdqa	%xmm0, 224(%rsp)
	leaq	.Lunix_path_JTI65_3(%rip), %rcx
	movslq	(%rcx,%rax,4), %rax
	addq	%rcx, %rax
	jmpq	*%rax
.Lunix_path_BB65_56:
	leaq	240(%rsp), %rdi
	movq	%r12, %rsi
	movq	%r11, %rdx
	movq	%r14, %rcx
	movq	%r15, %r8
	callq	unix_path.path.Path.join
	cmpb	$0, 240(%rsp)
	jne	.Lunix_path_BB65_766
	movq	248(%rsp), %r13
	movb	$1, %dl
	movdqa	256(%rsp), %xmm0
	jmp	.Lunix_path_BB65_770
.Lunix_path_BB65_58:
	movq	%rbp, %rbx
	shrq	$32, %rbx
	movdqa	%xmm0, 240(%rsp)
	movq	$0, 256(%rsp)
	movdqa	%xmm0, 64(%rsp)
	movdqa	%xmm0, 80(%rsp)
	movdqa	%xmm0, 192(%rsp)
	movdqa	%xmm0, 208(%rsp)
	btq	$40, %rbp
	jb	.Lunix_path_BB65_81
	movq	%rbx, 16(%rsp)
	leaq	64(%rsp), %rdi
	movq	%r12, %rsi
	movq	%r11, %rdx
	callq	path_within.resolved.resolved
	movb	$1, %bl
	cmpb	$0, 64(%rsp)
	jne	.Lunix_path_BB65_155
	movq	72(%rsp), %r12
	movq	80(%rsp), %rax
	movq	%rax, 48(%rsp)
	movq	88(%rsp), %r13
	leaq	192(%rsp), %rdi
	movq	%r14, %rsi
	movq	%r15, %rdx
	callq	path_within.resolved.resolved
	cmpb	$0, 192(%rsp)
	je	.Lunix_path_BB65_217
	testq	%r13, %r13
	je	.Lunix_path_BB65_155
	movq	%r12, %rdi
	callq	rattle_dealloc@PLT
	jmp	.Lunix_path_BB65_155
.Lunix_path_BB65_63:
	movb	$1, %dl
	testq	%r15, %r15
	je	.Lunix_path_BB65_98
	movq	%r15, %r12
	addq	$2, %r12
	je	.Lunix_path_BB65_139
	movb	$1, %bl
	js	.Lunix_path_BB65_2
	movl	$1, %esi
	movq	%r12, %rdi
	callq	rattle_alloc@PLT
	testb	$1, %al
	je	.Lunix_path_BB65_2
	movq	%rdx, %rdi
	xorl	%esi, %esi
	movq	%r12, %rdx
	movq	%rdi, %rbx
	callq	memset@PLT
	movq	%rbx, %r10
	jmp	.Lunix_path_BB65_140
.Lunix_path_BB65_68:
	xorl	%r12d, %r12d
.Lunix_path_BB65_69:
	movq	%r13, %rdi
	movq	%r14, %rsi
	movq	%r12, %rdx
	callq	memmove@PLT
	movq	%r12, %r9
	movb	$1, %dl
	jmp	.Lunix_path_BB65_1115
.Lunix_path_BB65_70:
	xorl	%edx, %edx
	xorl	%r13d, %r13d
	xorl	%r12d, %r12d
	jmp	.Lunix_path_BB65_111
.Lunix_path_BB65_71:
	movdqa	%xmm0, 176(%rsp)
	movdqa	%xmm0, 160(%rsp)
	testq	%r11, %r11
	je	.Lunix_path_BB65_149
	movzbl	(%r12), %ecx
	cmpb	$47, %cl
	sete	%al
	testq	%r15, %r15
	jne	.Lunix_path_BB65_197
	cmpb	$47, %cl
	je	.Lunix_path_BB65_1
	movb	$1, %bpl
	xorl	%ebx, %ebx
	jmp	.Lunix_path_BB65_204
.Lunix_path_BB65_75:
	testq	%r15, %r15
	je	.Lunix_path_BB65_78
	movzbl	-1(%r14,%r15), %eax
.Lunix_path_BB65_77:
	cmpb	$47, %al
	jne	.Lunix_path_BB65_104
.Lunix_path_BB65_78:
	leaq	.Lunix_path_static.53(%rip), %rdx
	movl	$1, %ecx
	movq	%r14, %rdi
	movq	%r15, %rsi
	callq	unix_path.compare.compare
	cmpb	$1, %al
	je	.Lunix_path_BB65_1
.Lunix_path_BB65_79:
	movq	%r14, %rdi
	movq	%r15, %rsi
	callq	unix_path.path.Path.parent_len
	cmpb	$1, %al
	jne	.Lunix_path_BB65_1
	movq	%rdx, %r12
	testq	%rdx, %rdx
	leaq	.Lunix_path_static.53(%rip), %rax
	cmoveq	%rax, %r14
	cmpq	$1, %rdx
	adcq	$0, %r12
	xorl	%ebx, %ebx
	movb	$1, %dl
	jmp	.Lunix_path_BB65_1119
.Lunix_path_BB65_81:
	leaq	240(%rsp), %rdi
	movq	%r12, %rsi
	movq	%r11, %rdx
	movq	%r14, %rcx
	movq	%r15, %r8
	callq	upath_commands.bases.rest_after
	cmpb	$0, 240(%rsp)
	je	.Lunix_path_BB65_151
	movl	%ebp, %eax
	notb	%al
	andb	%al, %bl
	testb	$1, %bl
	je	.Lunix_path_BB65_153
	movq	256(%rsp), %r13
	testq	%r13, %r13
	leaq	.Lunix_path_static.53(%rip), %r12
	cmovneq	248(%rsp), %r12
	cmpq	$1, %r13
	movq	%r13, %r15
	adcq	$0, %r15
	movb	$1, %bl
	js	.Lunix_path_BB65_155
	movl	$1, %esi
	movq	%r15, %rdi
	callq	rattle_alloc@PLT
	testb	$1, %al
	je	.Lunix_path_BB65_155
	movq	%rdx, %r14
	movq	%rdx, %rax
	subq	%r12, %rax
	cmpq	%r15, %rax
	jae	.Lunix_path_BB65_320
	xorl	%eax, %eax
	cmpq	$4, %r13
	jb	.Lunix_path_BB65_569
	movq	%r14, %rcx
	subq	%r12, %rcx
	cmpq	$32, %rcx
	jb	.Lunix_path_BB65_569
	movabsq	$9223372036854775776, %rcx
	cmpq	$32, %r13
	jae	.Lunix_path_BB65_561
	xorl	%eax, %eax
	jmp	.Lunix_path_BB65_565
.Lunix_path_BB65_90:
	cmpb	$1, 72(%rsp)
	jne	.Lunix_path_BB65_302
	movq	80(%rsp), %r13
	movq	88(%rsp), %r12
	movq	96(%rsp), %r9
	testb	$1, %bl
	je	.Lunix_path_BB65_186
	cmpq	$15, %r12
	ja	.Lunix_path_BB65_243
	xorl	%ecx, %ecx
	testq	%r12, %r12
	je	.Lunix_path_BB65_299
.Lunix_path_BB65_94:
	cmpb	$0, (%r13,%rcx)
	je	.Lunix_path_BB65_299
	incq	%rcx
	movb	$1, %dl
	xorl	%ebx, %ebx
	cmpq	%rcx, %r12
	jne	.Lunix_path_BB65_94
	jmp	.Lunix_path_BB65_304
.Lunix_path_BB65_96:
	movq	392(%rsp), %r13
	movq	400(%rsp), %r12
	movq	408(%rsp), %r9
	jmp	.Lunix_path_BB65_1114
.Lunix_path_BB65_97:
	movb	$1, %cl
	testb	$1, %bpl
	je	.Lunix_path_BB65_184
	jmp	.Lunix_path_BB65_1
.Lunix_path_BB65_98:
	leaq	15(%rsp), %r13
	xorl	%ebx, %ebx
	movb	$1, %bpl
	jmp	.Lunix_path_BB65_3
.Lunix_path_BB65_99:
	movq	%r15, %rcx
	addq	$-16, %rcx
	je	.Lunix_path_BB65_103
	xorl	%esi, %esi
.Lunix_path_BB65_101:
	movdqu	(%r14,%rsi), %xmm0
	pxor	%xmm1, %xmm1
	pcmpeqb	%xmm0, %xmm1
	pmovmskb	%xmm1, %edx
	orl	$65536, %edx
	rep		bsfl	%edx, %edx
	cmpw	$15, %dx
	jbe	.Lunix_path_BB65_182
	addq	$16, %rsi
	cmpq	%rcx, %rsi
	jb	.Lunix_path_BB65_101
.Lunix_path_BB65_103:
	movdqu	(%r14,%rcx), %xmm0
	pxor	%xmm1, %xmm1
	pcmpeqb	%xmm0, %xmm1
	pmovmskb	%xmm1, %edx
	orl	$65536, %edx
	rep		bsfl	%edx, %edx
	addq	%rcx, %rdx
	jmp	.Lunix_path_BB65_183
.Lunix_path_BB65_104:
	cmpq	$1, %r15
	sete	%cl
	cmpb	$46, %al
	setne	%al
	orb	%cl, %al
	jne	.Lunix_path_BB65_106
	cmpb	$47, -2(%r14,%r15)
	je	.Lunix_path_BB65_78
.Lunix_path_BB65_106:
	cmpb	$46, -1(%r14,%r15)
	jne	.Lunix_path_BB65_79
	cmpq	$1, %r15
	je	.Lunix_path_BB65_78
	cmpb	$47, -2(%r14,%r15)
	je	.Lunix_path_BB65_78
	jmp	.Lunix_path_BB65_79
.Lunix_path_BB65_109:
	leaq	.Lunix_path_static.53(%rip), %r13
.Lunix_path_BB65_110:
	cmpq	$1, %r12
	adcq	$0, %r12
	movb	$1, %dl
.Lunix_path_BB65_111:
	xorl	%ebx, %ebx
	jmp	.Lunix_path_BB65_202
.Lunix_path_BB65_112:
	movl	(%r12), %eax
	cmpl	(%r14), %eax
	jne	.Lunix_path_BB65_196
	movq	%r12, %rdi
	movq	%r15, %rsi
	movq	%r14, %rdx
	movq	%r11, %rbx
	callq	core.cmp.slices.groups_equal.i8.31.core.cmp.numbers.U8PartialEq.
	testb	%al, %al
	jne	.Lunix_path_BB65_200
	movq	%rbx, %r11
	pxor	%xmm0, %xmm0
	jmp	.Lunix_path_BB65_196
.Lunix_path_BB65_115:
	cmpq	$15, %r15
	ja	.Lunix_path_BB65_158
	testq	%r15, %r15
	je	.Lunix_path_BB65_260
	xorl	%ecx, %ecx
.Lunix_path_BB65_118:
	cmpb	$0, (%r14,%rcx)
	je	.Lunix_path_BB65_255
	incq	%rcx
	cmpq	%rcx, %r15
	jne	.Lunix_path_BB65_118
	jmp	.Lunix_path_BB65_257
.Lunix_path_BB65_120:
	movdqa	%xmm0, 176(%rsp)
	movdqa	%xmm0, 160(%rsp)
	testq	%r15, %r15
	je	.Lunix_path_BB65_190
	movzbl	(%r14), %eax
	cmpl	$47, %eax
	je	.Lunix_path_BB65_763
	cmpl	$46, %eax
	jne	.Lunix_path_BB65_128
	movb	$1, %bl
	cmpq	$1, %r15
	je	.Lunix_path_BB65_711
	movzbl	1(%r14), %ecx
	cmpl	$47, %ecx
	je	.Lunix_path_BB65_711
	cmpl	$46, %ecx
	jne	.Lunix_path_BB65_128
	cmpq	$2, %r15
	je	.Lunix_path_BB65_710
	cmpb	$47, 2(%r14)
	je	.Lunix_path_BB65_710
.Lunix_path_BB65_128:
	movzbl	-1(%r14,%r15), %ecx
	andb	$-2, %cl
	cmpb	$46, %cl
	je	.Lunix_path_BB65_702
	cmpq	$17, %r15
	jae	.Lunix_path_BB65_343
.Lunix_path_BB65_130:
	cmpq	$9, %r15
	jae	.Lunix_path_BB65_443
	xorl	%ecx, %ecx
	jmp	.Lunix_path_BB65_686
.Lunix_path_BB65_132:
	testq	%r15, %r15
	je	.Lunix_path_BB65_191
	cmpb	$47, (%r14)
	je	.Lunix_path_BB65_764
	movq	%r11, %rbx
	movq	%r14, %rdi
	movq	%r15, %rsi
	callq	path_within.check.check_escape
	testb	%al, %al
	je	.Lunix_path_BB65_314
	cmpq	$15, %r15
	ja	.Lunix_path_BB65_321
	xorl	%edx, %edx
	movq	%rbx, %r11
.Lunix_path_BB65_137:
	cmpb	$0, (%r14,%rdx)
	je	.Lunix_path_BB65_192
	incq	%rdx
	cmpq	%rdx, %r15
	jne	.Lunix_path_BB65_137
	jmp	.Lunix_path_BB65_193
.Lunix_path_BB65_139:
	leaq	15(%rsp), %r10
.Lunix_path_BB65_140:
	movzbl	(%r14), %eax
	cmpl	$47, %eax
	je	.Lunix_path_BB65_144
	cmpl	$46, %eax
	jne	.Lunix_path_BB65_306
	cmpq	$1, %r15
	je	.Lunix_path_BB65_144
	cmpb	$47, 1(%r14)
	jne	.Lunix_path_BB65_306
.Lunix_path_BB65_144:
	xorl	%ecx, %ecx
	cmpb	$47, %al
	setne	%cl
	shll	$8, %ecx
	addl	$256, %ecx
	movw	%cx, (%r10)
	movl	$2, %ebp
	jmp	.Lunix_path_BB65_307
.Lunix_path_BB65_145:
	movzbl	(%r14), %eax
	andb	$-2, %al
	cmpb	$46, %al
	je	.Lunix_path_BB65_1
	jmp	.Lunix_path_BB65_176
.Lunix_path_BB65_147:
	cmpq	$18, %r12
	jae	.Lunix_path_BB65_168
.Lunix_path_BB65_146:
	xorl	%r15d, %r15d
.Lunix_path_BB65_276:
	leaq	-2(%r12), %rax
	leaq	-1(%r12), %rcx
	jmp	.Lunix_path_BB65_279
.Lunix_path_BB65_277:
	cmpl	$47, %edx
	je	.Lunix_path_BB65_284
.Lunix_path_BB65_278:
	incq	%r15
	cmpq	%r15, %r12
	je	.Lunix_path_BB65_293
.Lunix_path_BB65_279:
	cmpb	$47, (%r14,%r15)
	jne	.Lunix_path_BB65_278
	cmpq	%r15, %rcx
	je	.Lunix_path_BB65_284
	movzbl	1(%r14,%r15), %edx
	cmpl	$46, %edx
	jne	.Lunix_path_BB65_277
	cmpq	%r15, %rax
	je	.Lunix_path_BB65_284
	cmpb	$47, 2(%r14,%r15)
	jne	.Lunix_path_BB65_278
	jmp	.Lunix_path_BB65_284
.Lunix_path_BB65_149:
	movb	$1, %bl
	testq	%r15, %r15
	je	.Lunix_path_BB65_203
	cmpb	$47, (%r14)
	je	.Lunix_path_BB65_1
	jmp	.Lunix_path_BB65_199
.Lunix_path_BB65_151:
	testb	$1, %bpl
	je	.Lunix_path_BB65_154
.Lunix_path_BB65_152:
	movb	$1, %dl
	xorl	%ebx, %ebx
	xorl	%ebp, %ebp
	jmp	.Lunix_path_BB65_156
.Lunix_path_BB65_153:
	testb	$1, %bpl
	je	.Lunix_path_BB65_152
.Lunix_path_BB65_154:
	xorl	%ebx, %ebx
.Lunix_path_BB65_155:
	xorl	%edx, %edx
	xorl	%ebp, %ebp
	xorl	%r14d, %r14d
	xorl	%r15d, %r15d
.Lunix_path_BB65_156:
	xorl	%r9d, %r9d
.Lunix_path_BB65_157:
	movq	%r14, %r13
	movq	%r15, %r12
	jmp	.Lunix_path_BB65_1121
.Lunix_path_BB65_306:
	xorl	%ebp, %ebp
.Lunix_path_BB65_307:
	xorl	%edx, %edx
	movq	%r10, 16(%rsp)
	jmp	.Lunix_path_BB65_309
	.p2align	4
.Lunix_path_BB65_308:
	addq	%rax, %rdx
	cmpq	$4, %rdx
	jae	.Lunix_path_BB65_352
.Lunix_path_BB65_309:
	movq	%rdx, %rax
	cmpq	%r15, %rdx
	jae	.Lunix_path_BB65_353
	movzbl	(%r14,%rax), %ecx
	movl	$1, %edx
	cmpl	$47, %ecx
	je	.Lunix_path_BB65_308
	cmpl	$46, %ecx
	jne	.Lunix_path_BB65_353
	leaq	1(%rax), %rcx
	cmpq	%r15, %rcx
	je	.Lunix_path_BB65_308
	movl	$2, %edx
	cmpb	$47, (%r14,%rcx)
	je	.Lunix_path_BB65_308
	jmp	.Lunix_path_BB65_353
.Lunix_path_BB65_158:
	movq	%r15, %rax
	addq	$-16, %rax
	je	.Lunix_path_BB65_162
	xorl	%edx, %edx
.Lunix_path_BB65_160:
	movdqu	(%r14,%rdx), %xmm0
	pxor	%xmm1, %xmm1
	pcmpeqb	%xmm0, %xmm1
	pmovmskb	%xmm1, %ecx
	orl	$65536, %ecx
	rep		bsfl	%ecx, %ecx
	cmpw	$15, %cx
	jbe	.Lunix_path_BB65_254
	addq	$16, %rdx
	cmpq	%rax, %rdx
	jb	.Lunix_path_BB65_160
.Lunix_path_BB65_162:
	movdqu	(%r14,%rax), %xmm0
	pxor	%xmm1, %xmm1
	pcmpeqb	%xmm0, %xmm1
	pmovmskb	%xmm1, %ecx
	orl	$65536, %ecx
	rep		bsfl	%ecx, %ecx
	addq	%rax, %rcx
	jmp	.Lunix_path_BB65_255
.Lunix_path_BB65_163:
	leaq	1(%rax), %rdx
.Lunix_path_BB65_164:
	testq	%rax, %rax
	je	.Lunix_path_BB65_201
	cmpb	$47, (%r13,%rax)
	je	.Lunix_path_BB65_201
	cmpb	$47, -2(%r13,%rdx)
	cmovneq	%rax, %r12
	jmp	.Lunix_path_BB65_201
.Lunix_path_BB65_168:
	movq	%r12, %rax
	addq	$-18, %rax
	je	.Lunix_path_BB65_172
	xorl	%ecx, %ecx
.Lunix_path_BB65_170:
	movdqu	(%r14,%rcx), %xmm0
	movdqu	1(%r14,%rcx), %xmm1
	movdqu	2(%r14,%rcx), %xmm2
	movdqa	.Lunix_path_CPI65_2(%rip), %xmm3
	pcmpeqb	%xmm1, %xmm3
	movdqa	.Lunix_path_CPI65_1(%rip), %xmm4
	pcmpeqb	%xmm4, %xmm2
	pand	%xmm3, %xmm2
	pcmpeqb	%xmm4, %xmm0
	pcmpeqb	%xmm4, %xmm1
	por	%xmm2, %xmm1
	pand	%xmm0, %xmm1
	pmovmskb	%xmm1, %edx
	orl	$65536, %edx
	rep		bsfl	%edx, %edx
	cmpw	$15, %dx
	jbe	.Lunix_path_BB65_274
	addq	$16, %rcx
	cmpq	%rax, %rcx
	jb	.Lunix_path_BB65_170
.Lunix_path_BB65_172:
	movdqu	(%r14,%rax), %xmm0
	movdqu	1(%r14,%rax), %xmm1
	movdqu	2(%r14,%rax), %xmm2
	movdqa	.Lunix_path_CPI65_2(%rip), %xmm3
	pcmpeqb	%xmm1, %xmm3
	movdqa	.Lunix_path_CPI65_1(%rip), %xmm4
	pcmpeqb	%xmm4, %xmm2
	pand	%xmm3, %xmm2
	pcmpeqb	%xmm4, %xmm0
	pcmpeqb	%xmm4, %xmm1
	por	%xmm2, %xmm1
	pand	%xmm0, %xmm1
	pmovmskb	%xmm1, %ecx
	orl	$65536, %ecx
	rep		bsfl	%ecx, %r15d
	addq	%rax, %r15
	jmp	.Lunix_path_BB65_275
.Lunix_path_BB65_173:
	cmpb	$46, %dl
	jne	.Lunix_path_BB65_176
	cmpq	$2, %rcx
	je	.Lunix_path_BB65_1
	cmpb	$47, -3(%r14,%rcx)
	je	.Lunix_path_BB65_1
.Lunix_path_BB65_176:
	movq	%rcx, %rax
	.p2align	4
.Lunix_path_BB65_177:
	cmpq	$15, %rax
	jbe	.Lunix_path_BB65_181
	movdqu	-16(%r14,%rax), %xmm0
	addq	$-16, %rax
	movdqa	.Lunix_path_CPI65_2(%rip), %xmm1
	pcmpeqb	%xmm0, %xmm1
	pmovmskb	%xmm1, %edx
	movl	$127, %edi
	movl	$127, %r8d
	bsrq	%rdx, %r8
	xorq	$63, %r8
	movl	$64, %edx
	movl	$64, %esi
	subq	%r8, %rsi
	pcmpeqb	.Lunix_path_CPI65_1(%rip), %xmm0
	pmovmskb	%xmm0, %r8d
	bsrq	%r8, %rdi
	xorq	$63, %rdi
	subq	%rdi, %rdx
	cmpq	%rdx, %rsi
	movq	%rdx, %rdi
	cmovaq	%rsi, %rdi
	testq	%rdi, %rdi
	je	.Lunix_path_BB65_177
	cmpq	%rsi, %rdx
	cmovaq	%rdx, %rsi
	leaq	(%rsi,%rax), %rdx
	addq	%rsi, %rax
	decq	%rax
	jmp	.Lunix_path_BB65_231
.Lunix_path_BB65_180:
	movzbl	-1(%r14,%rax), %edx
	decq	%rax
	andb	$-2, %dl
	cmpb	$46, %dl
	je	.Lunix_path_BB65_230
.Lunix_path_BB65_181:
	testq	%rax, %rax
	jne	.Lunix_path_BB65_180
	jmp	.Lunix_path_BB65_1
.Lunix_path_BB65_182:
	movzwl	%dx, %edx
	addq	%rsi, %rdx
.Lunix_path_BB65_183:
	cmpq	%r15, %rdx
	setb	%cl
	movl	%ebp, %edx
	andb	$1, %dl
	cmpb	%dl, %cl
	je	.Lunix_path_BB65_1
.Lunix_path_BB65_184:
	shrl	$8, %ebp
	andl	$1, %ebp
	andb	%cl, %bpl
	cmpb	$1, %bpl
	je	.Lunix_path_BB65_315
.Lunix_path_BB65_185:
	xorl	%ebx, %ebx
	movb	$1, %dl
	xorl	%ebp, %ebp
	movq	%r14, %r13
	movq	%r15, %r12
	jmp	.Lunix_path_BB65_1120
.Lunix_path_BB65_186:
	cmpq	$15, %r12
	ja	.Lunix_path_BB65_248
	xorl	%ecx, %ecx
	testq	%r12, %r12
	je	.Lunix_path_BB65_299
.Lunix_path_BB65_188:
	cmpb	$10, (%r13,%rcx)
	je	.Lunix_path_BB65_299
	incq	%rcx
	movb	$1, %dl
	xorl	%ebx, %ebx
	cmpq	%rcx, %r12
	jne	.Lunix_path_BB65_188
	jmp	.Lunix_path_BB65_304
.Lunix_path_BB65_190:
	xorl	%ecx, %ecx
	jmp	.Lunix_path_BB65_762
.Lunix_path_BB65_191:
	movb	$2, %al
	xorl	%edx, %edx
.Lunix_path_BB65_192:
	cmpq	%r15, %rdx
	jb	.Lunix_path_BB65_763
.Lunix_path_BB65_193:
	cmpb	$1, %al
	movq	%r14, 160(%rsp)
	movq	%r15, 168(%rsp)
	sete	176(%rsp)
	movl	$0, 177(%rsp)
	movl	$0, 180(%rsp)
	leaq	64(%rsp), %rdi
	leaq	160(%rsp), %rcx
	movq	%r12, %rsi
	movq	%r11, %rdx
	callq	upath_commands.joins.join_request
	movzbl	64(%rsp), %ebx
	movzbl	72(%rsp), %edx
	movzbl	80(%rsp), %ebp
	movq	88(%rsp), %r13
	movdqa	96(%rsp), %xmm0
	jmp	.Lunix_path_BB65_768
.Lunix_path_BB65_194:
	xorl	%eax, %eax
.Lunix_path_BB65_195:
	cmpq	%r15, %rax
	jae	.Lunix_path_BB65_200
.Lunix_path_BB65_196:
	movdqa	%xmm0, 176(%rsp)
	movdqa	%xmm0, 160(%rsp)
	cmpb	$47, (%r12)
	sete	%al
.Lunix_path_BB65_197:
	cmpb	$47, (%r14)
	sete	%cl
	cmpb	%cl, %al
	jne	.Lunix_path_BB65_1
	xorl	%ebx, %ebx
.Lunix_path_BB65_199:
	xorl	%ebp, %ebp
	jmp	.Lunix_path_BB65_204
.Lunix_path_BB65_200:
	movl	$1, %r12d
	leaq	.Lunix_path_static.53(%rip), %r13
.Lunix_path_BB65_201:
	xorl	%ebx, %ebx
	movb	$1, %dl
.Lunix_path_BB65_202:
	xorl	%ebp, %ebp
	jmp	.Lunix_path_BB65_1120
.Lunix_path_BB65_203:
	movb	$1, %bpl
.Lunix_path_BB65_204:
	movq	%r12, %rdi
	movq	%r11, 16(%rsp)
	movq	%r11, %rsi
	callq	path_within.outlined.is_names_only
	testb	%al, %al
	je	.Lunix_path_BB65_212
	movq	%r14, %rdi
	movq	%r15, %rsi
	callq	path_within.outlined.is_names_only
	testb	%al, %al
	je	.Lunix_path_BB65_212
	movq	16(%rsp), %r8
	cmpq	%r8, %r15
	movq	%r8, %rax
	cmovbq	%r15, %rax
	cmpq	$15, %rax
	ja	.Lunix_path_BB65_236
	cmpq	$7, %rax
	ja	.Lunix_path_BB65_318
	testq	%rax, %rax
	je	.Lunix_path_BB65_445
	movzbl	(%r12), %ecx
	cmpb	(%r14), %cl
	jne	.Lunix_path_BB65_446
	cmpq	$1, %rax
	jne	.Lunix_path_BB65_591
	movq	%rax, %rcx
	jmp	.Lunix_path_BB65_447
.Lunix_path_BB65_212:
	pxor	%xmm0, %xmm0
	movdqa	%xmm0, 192(%rsp)
	movq	$0, 208(%rsp)
	movdqa	%xmm0, 288(%rsp)
	movq	$0, 304(%rsp)
	leaq	192(%rsp), %rdi
	movq	%r12, %rsi
	movq	16(%rsp), %rdx
	callq	path_within.backward.count_resolved
	leaq	288(%rsp), %rdi
	movq	%r14, %rsi
	movq	%r15, %rdx
	callq	path_within.backward.count_resolved
	movq	288(%rsp), %rdx
	subq	192(%rsp), %rdx
	jb	.Lunix_path_BB65_1
	jbe	.Lunix_path_BB65_215
	movq	296(%rsp), %r10
	addq	200(%rsp), %rdx
	movq	304(%rsp), %rcx
	pxor	%xmm0, %xmm0
	movdqa	%xmm0, 160(%rsp)
	movdqa	%xmm0, 176(%rsp)
	jmp	.Lunix_path_BB65_826
.Lunix_path_BB65_215:
	movq	200(%rsp), %rax
	movq	%rax, 48(%rsp)
	movq	296(%rsp), %r10
	testb	%bl, %bl
	movq	%r10, 40(%rsp)
	je	.Lunix_path_BB65_265
.Lunix_path_BB65_216:
	xorl	%ebx, %ebx
	jmp	.Lunix_path_BB65_503
.Lunix_path_BB65_217:
	movq	%r13, 24(%rsp)
	movq	200(%rsp), %rcx
	movq	208(%rsp), %r8
	movq	216(%rsp), %rax
	movq	%rax, 32(%rsp)
	pxor	%xmm0, %xmm0
	movdqa	%xmm0, 160(%rsp)
	movq	$0, 176(%rsp)
	leaq	160(%rsp), %rdi
	movq	%r12, 40(%rsp)
	movq	%r12, %rsi
	movq	48(%rsp), %rdx
	movq	%rcx, 48(%rsp)
	callq	upath_commands.bases.rest_after
	cmpb	$1, 160(%rsp)
	jne	.Lunix_path_BB65_1221
	movq	168(%rsp), %r13
	movq	176(%rsp), %r12
	testq	%r12, %r12
	je	.Lunix_path_BB65_1148
	movzbl	(%r13), %eax
	cmpl	$47, %eax
	je	.Lunix_path_BB65_1221
	cmpl	$46, %eax
	jne	.Lunix_path_BB65_226
	movb	$1, %bl
	cmpq	$1, %r12
	je	.Lunix_path_BB65_1173
	movzbl	1(%r13), %ecx
	cmpl	$47, %ecx
	je	.Lunix_path_BB65_1173
	cmpl	$46, %ecx
	jne	.Lunix_path_BB65_226
	cmpq	$2, %r12
	je	.Lunix_path_BB65_1172
	cmpb	$47, 2(%r13)
	je	.Lunix_path_BB65_1172
.Lunix_path_BB65_226:
	movzbl	-1(%r13,%r12), %ecx
	andb	$-2, %cl
	cmpb	$46, %cl
	je	.Lunix_path_BB65_1168
	cmpq	$17, %r12
	jae	.Lunix_path_BB65_677
.Lunix_path_BB65_228:
	cmpq	$9, %r12
	jae	.Lunix_path_BB65_830
	xorl	%ecx, %ecx
	jmp	.Lunix_path_BB65_1145
.Lunix_path_BB65_230:
	leaq	1(%rax), %rdx
.Lunix_path_BB65_231:
	testq	%rax, %rax
	je	.Lunix_path_BB65_1
	cmpb	$47, (%r14,%rax)
	je	.Lunix_path_BB65_1
	xorl	%r13d, %r13d
	movl	$0, %ebx
	cmpq	%rcx, %rax
	je	.Lunix_path_BB65_342
	cmpb	$47, -2(%r14,%rdx)
	movl	$0, %edx
	movl	$0, %ebp
	movl	$0, %r12d
	movl	$0, %r9d
	je	.Lunix_path_BB65_1121
	leaq	(%r14,%rax), %r13
	incq	%r13
	incq	%rax
	subq	%rax, %rcx
	xorl	%ebx, %ebx
	movb	$1, %dl
	xorl	%ebp, %ebp
	movq	%rcx, %r12
	jmp	.Lunix_path_BB65_1120
.Lunix_path_BB65_236:
	leaq	-16(%rax), %rdx
	xorl	%esi, %esi
	cmpq	$64, %rax
	jb	.Lunix_path_BB65_241
.Lunix_path_BB65_237:
	movdqu	(%r12,%rsi), %xmm0
	movdqu	16(%r12,%rsi), %xmm1
	movdqu	32(%r12,%rsi), %xmm2
	movdqu	48(%r12,%rsi), %xmm3
	movdqu	(%r14,%rsi), %xmm4
	pcmpeqb	%xmm0, %xmm4
	movdqu	16(%r14,%rsi), %xmm0
	pcmpeqb	%xmm1, %xmm0
	pand	%xmm4, %xmm0
	movdqu	32(%r14,%rsi), %xmm1
	pcmpeqb	%xmm2, %xmm1
	movdqu	48(%r14,%rsi), %xmm2
	pcmpeqb	%xmm3, %xmm2
	pand	%xmm1, %xmm2
	pand	%xmm0, %xmm2
	pmovmskb	%xmm2, %ecx
	cmpl	$65535, %ecx
	jne	.Lunix_path_BB65_241
	addq	$64, %rsi
	addq	$-64, %rax
	cmpq	$63, %rax
	ja	.Lunix_path_BB65_237
	jmp	.Lunix_path_BB65_241
.Lunix_path_BB65_239:
	movdqu	(%r12,%rsi), %xmm0
	movdqu	(%r14,%rsi), %xmm1
	pcmpeqb	%xmm0, %xmm1
	pmovmskb	%xmm1, %eax
	notl	%eax
	rep		bsfl	%eax, %eax
	cmpw	$15, %ax
	jbe	.Lunix_path_BB65_351
	addq	$16, %rsi
.Lunix_path_BB65_241:
	cmpq	%rdx, %rsi
	jb	.Lunix_path_BB65_239
	movdqu	(%r12,%rdx), %xmm0
	movdqu	(%r14,%rdx), %xmm1
	pcmpeqb	%xmm0, %xmm1
	pmovmskb	%xmm1, %eax
	notl	%eax
	rep		bsfl	%eax, %ecx
	addq	%rdx, %rcx
	jmp	.Lunix_path_BB65_447
.Lunix_path_BB65_243:
	movq	%r12, %rax
	addq	$-16, %rax
	je	.Lunix_path_BB65_247
	xorl	%edx, %edx
.Lunix_path_BB65_245:
	movdqu	(%r13,%rdx), %xmm0
	pxor	%xmm1, %xmm1
	pcmpeqb	%xmm0, %xmm1
	pmovmskb	%xmm1, %ecx
	orl	$65536, %ecx
	rep		bsfl	%ecx, %ecx
	cmpw	$15, %cx
	jbe	.Lunix_path_BB65_298
	addq	$16, %rdx
	cmpq	%rax, %rdx
	jb	.Lunix_path_BB65_245
.Lunix_path_BB65_247:
	movdqu	(%r13,%rax), %xmm0
	pxor	%xmm1, %xmm1
	pcmpeqb	%xmm0, %xmm1
	pmovmskb	%xmm1, %ecx
	jmp	.Lunix_path_BB65_253
.Lunix_path_BB65_248:
	movq	%r12, %rax
	addq	$-16, %rax
	je	.Lunix_path_BB65_252
	xorl	%edx, %edx
.Lunix_path_BB65_250:
	movdqu	(%r13,%rdx), %xmm0
	pcmpeqb	.Lunix_path_CPI65_6(%rip), %xmm0
	pmovmskb	%xmm0, %ecx
	orl	$65536, %ecx
	rep		bsfl	%ecx, %ecx
	cmpw	$15, %cx
	jbe	.Lunix_path_BB65_298
	addq	$16, %rdx
	cmpq	%rax, %rdx
	jb	.Lunix_path_BB65_250
.Lunix_path_BB65_252:
	movdqu	(%r13,%rax), %xmm0
	pcmpeqb	.Lunix_path_CPI65_6(%rip), %xmm0
	pmovmskb	%xmm0, %ecx
.Lunix_path_BB65_253:
	orl	$65536, %ecx
	rep		bsfl	%ecx, %ecx
	addq	%rax, %rcx
	jmp	.Lunix_path_BB65_299
.Lunix_path_BB65_254:
	movzwl	%cx, %ecx
	addq	%rdx, %rcx
.Lunix_path_BB65_255:
	cmpq	%r15, %rcx
	jb	.Lunix_path_BB65_763
	testq	%r15, %r15
	je	.Lunix_path_BB65_260
.Lunix_path_BB65_257:
	xorl	%edx, %edx
.Lunix_path_BB65_258:
	movzbl	(%r14,%rdx), %esi
	cmpb	$47, %sil
	jne	.Lunix_path_BB65_263
	incq	%rdx
	cmpq	%r15, %rdx
	jne	.Lunix_path_BB65_258
.Lunix_path_BB65_260:
	addq	%r15, %r14
	xorl	%ecx, %ecx
	movq	%r14, %rax
.Lunix_path_BB65_261:
	xorl	%esi, %esi
.Lunix_path_BB65_262:
	movq	%rax, 160(%rsp)
	movq	%rcx, 168(%rsp)
	movb	%sil, 176(%rsp)
	movl	$0, 177(%rsp)
	movl	$0, 180(%rsp)
	leaq	192(%rsp), %rdi
	leaq	160(%rsp), %rcx
	movq	%r12, %rsi
	movq	%r11, %rdx
	callq	upath_commands.joins.join_request
	movzbl	192(%rsp), %ebx
	movzbl	200(%rsp), %edx
	movzbl	208(%rsp), %ebp
	movq	216(%rsp), %r13
	movdqa	224(%rsp), %xmm0
	jmp	.Lunix_path_BB65_768
.Lunix_path_BB65_263:
	leaq	(%r14,%rdx), %rax
	movq	%r15, %rcx
	subq	%rdx, %rcx
	jne	.Lunix_path_BB65_328
	xorl	%ecx, %ecx
	jmp	.Lunix_path_BB65_261
.Lunix_path_BB65_265:
	movq	16(%rsp), %rdx
	movzbl	-1(%r12,%rdx), %eax
	andb	$-2, %al
	cmpb	$46, %al
	jne	.Lunix_path_BB65_341
	movq	%rdx, %rbx
	movq	%rdx, %rax
	jmp	.Lunix_path_BB65_268
.Lunix_path_BB65_267:
	movq	%rax, %rbx
	testq	%rax, %rax
	je	.Lunix_path_BB65_216
.Lunix_path_BB65_268:
	decq	%rax
	je	.Lunix_path_BB65_502
	movzbl	(%r12,%rax), %ecx
	cmpl	$47, %ecx
	je	.Lunix_path_BB65_272
	cmpl	$46, %ecx
	jne	.Lunix_path_BB65_503
	cmpb	$47, -1(%r12,%rax)
	jne	.Lunix_path_BB65_503
.Lunix_path_BB65_272:
	movq	%rdx, %rcx
	subq	%rax, %rcx
	cmpq	$8, %rcx
	jne	.Lunix_path_BB65_267
	movq	%r12, %rdi
	movq	%rax, %rsi
	callq	unix_path.filler.trimmed_blocks_len
	movq	40(%rsp), %r10
	movq	16(%rsp), %rdx
	jmp	.Lunix_path_BB65_267
.Lunix_path_BB65_274:
	movzwl	%dx, %r15d
	addq	%rcx, %r15
.Lunix_path_BB65_275:
	cmpq	%r12, %r15
	jb	.Lunix_path_BB65_276
.Lunix_path_BB65_284:
	cmpq	$2, %r12
	jb	.Lunix_path_BB65_293
	cmpq	%r12, %r15
	je	.Lunix_path_BB65_293
	testq	%r12, %r12
	js	.Lunix_path_BB65_834
	movl	$1, %esi
	movq	%r12, %rdi
	callq	rattle_alloc@PLT
	testb	$1, %al
	je	.Lunix_path_BB65_834
	movq	%rdx, %r10
	movq	%rdx, 64(%rsp)
	movq	$0, 72(%rsp)
	movq	%r12, 80(%rsp)
	cmpq	%r12, %r15
	ja	.Lunix_path_BB65_674
	xorl	%eax, %eax
	movq	%r12, %r9
.Lunix_path_BB65_290:
	leaq	(%rax,%r15), %r11
	leaq	(%r10,%rax), %rdi
	movq	%rdi, %rcx
	subq	%r14, %rcx
	cmpq	%r15, %rcx
	jae	.Lunix_path_BB65_340
	cmpq	$4, %r15
	jb	.Lunix_path_BB65_292
	cmpq	$32, %rcx
	jae	.Lunix_path_BB65_589
.Lunix_path_BB65_292:
	xorl	%ecx, %ecx
.Lunix_path_BB65_609:
	movq	%r15, %rsi
	movq	%rcx, %rdx
	andq	$3, %rsi
	je	.Lunix_path_BB65_612
	movq	%rcx, %rdx
.Lunix_path_BB65_611:
	movzbl	(%r14,%rdx), %r8d
	movb	%r8b, (%rdi,%rdx)
	incq	%rdx
	decq	%rsi
	jne	.Lunix_path_BB65_611
.Lunix_path_BB65_612:
	subq	%r15, %rcx
	cmpq	$-4, %rcx
	ja	.Lunix_path_BB65_615
	addq	%r10, %rax
	addq	$3, %rax
.Lunix_path_BB65_614:
	movzbl	(%r14,%rdx), %ecx
	movb	%cl, -3(%rax,%rdx)
	movzbl	1(%r14,%rdx), %ecx
	movb	%cl, -2(%rax,%rdx)
	movzbl	2(%r14,%rdx), %ecx
	movb	%cl, -1(%rax,%rdx)
	movzbl	3(%r14,%rdx), %ecx
	movb	%cl, (%rax,%rdx)
	addq	$4, %rdx
	cmpq	%rdx, %r15
	jne	.Lunix_path_BB65_614
	jmp	.Lunix_path_BB65_615
.Lunix_path_BB65_293:
	testq	%r12, %r12
	js	.Lunix_path_BB65_834
	movl	$1, %esi
	movq	%r12, %rdi
	callq	rattle_alloc@PLT
	testb	$1, %al
	je	.Lunix_path_BB65_834
	movq	%rdx, %r13
	movq	%rdx, %rax
	subq	%r14, %rax
	cmpq	%r12, %rax
	jae	.Lunix_path_BB65_69
	cmpq	$4, %r12
	setb	%al
	movq	%r13, %rcx
	subq	%r14, %rcx
	cmpq	$32, %rcx
	setb	%cl
	orb	%al, %cl
	je	.Lunix_path_BB65_326
	xorl	%eax, %eax
	jmp	.Lunix_path_BB65_581
.Lunix_path_BB65_298:
	movzwl	%cx, %ecx
	addq	%rdx, %rcx
.Lunix_path_BB65_299:
	cmpq	%r12, %rcx
	jae	.Lunix_path_BB65_305
	testq	%r9, %r9
	je	.Lunix_path_BB65_302
	movq	%r13, %rdi
	callq	rattle_dealloc@PLT
.Lunix_path_BB65_302:
	xorl	%ebx, %ebx
.Lunix_path_BB65_303:
	xorl	%edx, %edx
	xorl	%r13d, %r13d
	xorl	%r12d, %r12d
	xorl	%r9d, %r9d
.Lunix_path_BB65_304:
	movl	%edx, %ebp
	jmp	.Lunix_path_BB65_1121
.Lunix_path_BB65_305:
	movb	$1, %dl
	xorl	%ebx, %ebx
	movl	%edx, %ebp
	jmp	.Lunix_path_BB65_1121
.Lunix_path_BB65_314:
	xorl	%ebx, %ebx
	xorl	%edx, %edx
	xorl	%ebp, %ebp
	xorl	%r13d, %r13d
	pxor	%xmm0, %xmm0
	jmp	.Lunix_path_BB65_768
.Lunix_path_BB65_315:
	testq	%r15, %r15
	je	.Lunix_path_BB65_334
	cmpb	$47, (%r14)
	jne	.Lunix_path_BB65_334
	leaq	.Lunix_path_static.87(%rip), %rbp
	movl	$4, %ebx
	jmp	.Lunix_path_BB65_335
.Lunix_path_BB65_318:
	movq	(%r12), %xmm0
	movq	(%r14), %xmm1
	pcmpeqb	%xmm0, %xmm1
	pmovmskb	%xmm1, %ecx
	notl	%ecx
	orl	$256, %ecx
	rep		bsfl	%ecx, %ecx
	cmpb	$8, %cl
	jb	.Lunix_path_BB65_447
	movq	-8(%r12,%rax), %xmm0
	movq	-8(%r14,%rax), %xmm1
	pcmpeqb	%xmm0, %xmm1
	pmovmskb	%xmm1, %ecx
	notl	%ecx
	orl	$256, %ecx
	rep		bsfl	%ecx, %ecx
	addq	%rax, %rcx
	addq	$-8, %rcx
	jmp	.Lunix_path_BB65_447
.Lunix_path_BB65_320:
	movq	%r14, %rdi
	movq	%r12, %rsi
	movq	%r15, %rdx
	callq	memmove@PLT
	movb	$1, %dl
	xorl	%ebx, %ebx
	jmp	.Lunix_path_BB65_575
.Lunix_path_BB65_321:
	movq	%r15, %rcx
	addq	$-16, %rcx
	movq	%rbx, %r11
	je	.Lunix_path_BB65_325
	xorl	%esi, %esi
.Lunix_path_BB65_323:
	movdqu	(%r14,%rsi), %xmm0
	pxor	%xmm1, %xmm1
	pcmpeqb	%xmm0, %xmm1
	pmovmskb	%xmm1, %edx
	orl	$65536, %edx
	rep		bsfl	%edx, %edx
	cmpw	$15, %dx
	jbe	.Lunix_path_BB65_495
	addq	$16, %rsi
	cmpq	%rcx, %rsi
	jb	.Lunix_path_BB65_323
.Lunix_path_BB65_325:
	movdqu	(%r14,%rcx), %xmm0
	pxor	%xmm1, %xmm1
	pcmpeqb	%xmm0, %xmm1
	pmovmskb	%xmm1, %edx
	orl	$65536, %edx
	rep		bsfl	%edx, %edx
	addq	%rcx, %rdx
	jmp	.Lunix_path_BB65_192
.Lunix_path_BB65_326:
	movabsq	$9223372036854775776, %rcx
	cmpq	$32, %r12
	jae	.Lunix_path_BB65_437
	xorl	%eax, %eax
	jmp	.Lunix_path_BB65_577
.Lunix_path_BB65_328:
	cmpb	$46, %sil
	jne	.Lunix_path_BB65_848
	cmpq	$2, %rcx
	jb	.Lunix_path_BB65_261
	movzbl	1(%rax), %esi
	cmpl	$47, %esi
	je	.Lunix_path_BB65_261
	cmpl	$46, %esi
	jne	.Lunix_path_BB65_848
	cmpq	$2, %rcx
	jne	.Lunix_path_BB65_846
	movl	$2, %ecx
	jmp	.Lunix_path_BB65_261
.Lunix_path_BB65_334:
	xorl	%ecx, %ecx
	testb	%al, %al
	sete	%cl
	leaq	.Lunix_path_static.23(%rip), %rax
	leaq	.Lunix_path_static.88(%rip), %rbp
	cmoveq	%rax, %rbp
	leaq	3(,%rcx,4), %rbx
.Lunix_path_BB65_335:
	leaq	15(%rsp), %rax
	movq	%rax, 64(%rsp)
	pxor	%xmm0, %xmm0
	movdqu	%xmm0, 72(%rsp)
	leaq	64(%rsp), %rdi
	movq	%rbx, %rsi
	callq	std_alloc.vec.Vec.grow_amortized.f4a78633ca2a48c6.
	testb	%al, %al
	je	.Lunix_path_BB65_889
	movq	64(%rsp), %r13
	movq	72(%rsp), %r12
	movq	80(%rsp), %r9
	leaq	(%r12,%r13), %rdi
	addq	%rbx, %r12
	movq	%rdi, %rax
	subq	%rbp, %rax
	cmpq	%rbx, %rax
	jae	.Lunix_path_BB65_496
	movzwl	(%rbp), %eax
	movw	%ax, (%rdi)
	movzbl	2(%rbp), %eax
	movb	%al, 2(%rdi)
	cmpl	$3, %ebx
	je	.Lunix_path_BB65_497
	movzbl	3(%rbp), %eax
	movb	%al, 3(%rdi)
	cmpl	$4, %ebx
	je	.Lunix_path_BB65_497
	movzwl	4(%rbp), %eax
	movw	%ax, 4(%rdi)
	movzbl	6(%rbp), %eax
	movb	%al, 6(%rdi)
	jmp	.Lunix_path_BB65_497
.Lunix_path_BB65_340:
	movq	%r14, %rsi
	movq	%r15, %rdx
	movq	%r9, %rbx
	movq	%r10, %r13
	movq	%r11, %rbp
	callq	memmove@PLT
	movq	%rbp, %r11
	movq	%r13, %r10
	movq	%rbx, %r9
.Lunix_path_BB65_615:
	movq	%r11, 72(%rsp)
	movq	%r9, 80(%rsp)
	cmpq	%r12, %r15
	jae	.Lunix_path_BB65_622
	leaq	-1(%r12), %rax
	jmp	.Lunix_path_BB65_618
.Lunix_path_BB65_617:
	incq	%r15
	cmpq	%r15, %r12
	je	.Lunix_path_BB65_623
.Lunix_path_BB65_618:
	movzbl	(%r14,%r15), %ecx
	cmpl	$47, %ecx
	je	.Lunix_path_BB65_617
	cmpl	$46, %ecx
	jne	.Lunix_path_BB65_622
	cmpq	%r15, %rax
	je	.Lunix_path_BB65_623
	cmpb	$47, 1(%r14,%r15)
	je	.Lunix_path_BB65_617
.Lunix_path_BB65_622:
	cmpq	%r12, %r15
	jb	.Lunix_path_BB65_625
.Lunix_path_BB65_623:
	movq	64(%rsp), %r13
	movq	%r11, %r12
	movb	$1, %dl
	jmp	.Lunix_path_BB65_1115
.Lunix_path_BB65_624:
	movq	%r13, %r15
	cmpq	%r12, %r13
	jae	.Lunix_path_BB65_623
.Lunix_path_BB65_625:
	leaq	(%r14,%r15), %rbp
	movq	%r12, %rax
	subq	%r15, %rax
	cmpq	$18, %rax
	jae	.Lunix_path_BB65_627
	xorl	%r13d, %r13d
	jmp	.Lunix_path_BB65_633
.Lunix_path_BB65_627:
	movq	%rax, %rcx
	addq	$-18, %rcx
	je	.Lunix_path_BB65_631
	leaq	2(%r14), %rdx
	leaq	(%rdx,%r15), %rsi
	xorl	%edx, %edx
.Lunix_path_BB65_629:
	movdqu	-2(%rsi,%rdx), %xmm0
	movdqu	-1(%rsi,%rdx), %xmm1
	movdqu	(%rsi,%rdx), %xmm2
	movdqa	.Lunix_path_CPI65_2(%rip), %xmm3
	pcmpeqb	%xmm1, %xmm3
	movdqa	.Lunix_path_CPI65_1(%rip), %xmm4
	pcmpeqb	%xmm4, %xmm2
	pand	%xmm3, %xmm2
	pcmpeqb	%xmm4, %xmm0
	pcmpeqb	%xmm4, %xmm1
	por	%xmm2, %xmm1
	pand	%xmm0, %xmm1
	pmovmskb	%xmm1, %edi
	orl	$65536, %edi
	rep		bsfl	%edi, %edi
	cmpw	$15, %di
	jbe	.Lunix_path_BB65_632
	addq	$16, %rdx
	cmpq	%rcx, %rdx
	jb	.Lunix_path_BB65_629
.Lunix_path_BB65_631:
	movdqu	(%rbp,%rcx), %xmm0
	movdqu	1(%rbp,%rcx), %xmm1
	movdqu	2(%rbp,%rcx), %xmm2
	movdqa	.Lunix_path_CPI65_2(%rip), %xmm3
	pcmpeqb	%xmm1, %xmm3
	movdqa	.Lunix_path_CPI65_1(%rip), %xmm4
	pcmpeqb	%xmm4, %xmm2
	pand	%xmm3, %xmm2
	pcmpeqb	%xmm4, %xmm0
	pcmpeqb	%xmm4, %xmm1
	por	%xmm2, %xmm1
	pand	%xmm0, %xmm1
	pmovmskb	%xmm1, %edx
	orl	$65536, %edx
	rep		bsfl	%edx, %r13d
	addq	%rcx, %r13
	jmp	.Lunix_path_BB65_633
.Lunix_path_BB65_632:
	movzwl	%di, %r13d
	addq	%rdx, %r13
.Lunix_path_BB65_633:
	cmpq	%rax, %r13
	jae	.Lunix_path_BB65_643
	leaq	2(%r14), %rcx
	addq	%r15, %rcx
	leaq	-2(%rax), %rdx
	leaq	-1(%rax), %rsi
	jmp	.Lunix_path_BB65_637
.Lunix_path_BB65_635:
	cmpl	$47, %edi
	je	.Lunix_path_BB65_643
.Lunix_path_BB65_636:
	incq	%r13
	cmpq	%r13, %rax
	je	.Lunix_path_BB65_642
.Lunix_path_BB65_637:
	cmpb	$47, -2(%rcx,%r13)
	jne	.Lunix_path_BB65_636
	cmpq	%r13, %rsi
	je	.Lunix_path_BB65_643
	movzbl	-1(%rcx,%r13), %edi
	cmpl	$46, %edi
	jne	.Lunix_path_BB65_635
	cmpq	%r13, %rdx
	je	.Lunix_path_BB65_643
	cmpb	$47, (%rcx,%r13)
	jne	.Lunix_path_BB65_636
	jmp	.Lunix_path_BB65_643
.Lunix_path_BB65_642:
	movq	%rax, %r13
.Lunix_path_BB65_643:
	leaq	1(%r13), %rdx
	movq	%r9, %rax
	subq	%r11, %rax
	cmpq	%rax, %rdx
	ja	.Lunix_path_BB65_672
.Lunix_path_BB65_644:
	leaq	-1(%rbp), %rsi
	leaq	(%r10,%r11), %rdi
	movq	%rdi, %rax
	subq	%rsi, %rax
	cmpq	%rdx, %rax
	jae	.Lunix_path_BB65_647
	cmpq	$4, %rdx
	jb	.Lunix_path_BB65_646
	movq	%r11, %rax
	subq	%r14, %rax
	addq	%r10, %rax
	subq	%r15, %rax
	incq	%rax
	cmpq	$32, %rax
	jae	.Lunix_path_BB65_650
.Lunix_path_BB65_646:
	xorl	%eax, %eax
.Lunix_path_BB65_659:
	movq	%rdx, %rbx
	movl	%r13d, %edx
	notl	%edx
	movq	%rax, %rcx
	testb	$3, %dl
	je	.Lunix_path_BB65_662
	leal	1(%r13), %edx
	andl	$3, %edx
	movq	%rax, %rcx
.Lunix_path_BB65_661:
	movzbl	(%rsi,%rcx), %r8d
	movb	%r8b, (%rdi,%rcx)
	incq	%rcx
	decq	%rdx
	jne	.Lunix_path_BB65_661
.Lunix_path_BB65_662:
	movq	%r13, %rdx
	subq	%rax, %rdx
	cmpq	$3, %rdx
	movq	%rbx, %rdx
	jb	.Lunix_path_BB65_665
	leaq	(%r10,%r11), %rax
	addq	$3, %rax
.Lunix_path_BB65_664:
	movzbl	-1(%rbp,%rcx), %esi
	movb	%sil, -3(%rax,%rcx)
	movzbl	(%rbp,%rcx), %esi
	movb	%sil, -2(%rax,%rcx)
	movzbl	1(%rbp,%rcx), %esi
	movb	%sil, -1(%rax,%rcx)
	movzbl	2(%rbp,%rcx), %esi
	movb	%sil, (%rax,%rcx)
	addq	$4, %rcx
	cmpq	%rcx, %rdx
	jne	.Lunix_path_BB65_664
	jmp	.Lunix_path_BB65_665
.Lunix_path_BB65_647:
	movq	%r9, 48(%rsp)
	movq	%r10, %rbx
	movq	%r11, 16(%rsp)
	movq	%rdx, %rbp
	callq	memmove@PLT
	movq	%rbp, %rdx
	movq	16(%rsp), %r11
	movq	%rbx, %r10
	movq	48(%rsp), %r9
.Lunix_path_BB65_665:
	addq	%rdx, %r11
	movq	%r11, 72(%rsp)
	movq	%r9, 80(%rsp)
	addq	%r15, %r13
	cmpq	%r12, %r13
	jae	.Lunix_path_BB65_624
	leaq	-1(%r12), %rcx
	jmp	.Lunix_path_BB65_668
.Lunix_path_BB65_667:
	incq	%r13
	cmpq	%r13, %r12
	je	.Lunix_path_BB65_623
.Lunix_path_BB65_668:
	movzbl	(%r14,%r13), %eax
	cmpl	$47, %eax
	je	.Lunix_path_BB65_667
	cmpl	$46, %eax
	jne	.Lunix_path_BB65_624
	cmpq	%r13, %rcx
	je	.Lunix_path_BB65_623
	cmpb	$47, 1(%r14,%r13)
	je	.Lunix_path_BB65_667
	jmp	.Lunix_path_BB65_624
.Lunix_path_BB65_650:
	cmpq	$32, %rdx
	jae	.Lunix_path_BB65_652
	xorl	%eax, %eax
	jmp	.Lunix_path_BB65_656
.Lunix_path_BB65_652:
	movq	%rdx, %rbx
	movq	%rdx, %rax
	andq	$-32, %rax
	leaq	15(%r14), %rcx
	addq	%r15, %rcx
	leaq	(%r10,%r11), %rdx
	addq	$16, %rdx
	xorl	%r8d, %r8d
.Lunix_path_BB65_653:
	movdqu	-16(%rcx,%r8), %xmm0
	movdqu	(%rcx,%r8), %xmm1
	movdqu	%xmm0, -16(%rdx,%r8)
	movdqu	%xmm1, (%rdx,%r8)
	addq	$32, %r8
	cmpq	%r8, %rax
	jne	.Lunix_path_BB65_653
	movq	%rbx, %rdx
	cmpq	%rax, %rbx
	je	.Lunix_path_BB65_665
	testb	$28, %dl
	je	.Lunix_path_BB65_659
.Lunix_path_BB65_656:
	movq	%rax, %rcx
	movq	%rdx, %rax
	andq	$-4, %rax
.Lunix_path_BB65_657:
	movl	(%rsi,%rcx), %r8d
	movl	%r8d, (%rdi,%rcx)
	addq	$4, %rcx
	cmpq	%rcx, %rax
	jne	.Lunix_path_BB65_657
	cmpq	%rax, %rdx
	je	.Lunix_path_BB65_665
	jmp	.Lunix_path_BB65_659
.Lunix_path_BB65_672:
	leaq	64(%rsp), %rdi
	movq	%rdx, %rbx
	movq	%rdx, %rsi
	callq	std_alloc.vec.Vec.grow_amortized.a04925db02c9ae72.
	testb	%al, %al
	je	.Lunix_path_BB65_832
	movq	64(%rsp), %r10
	movq	72(%rsp), %r11
	movq	80(%rsp), %r9
	movq	%rbx, %rdx
	jmp	.Lunix_path_BB65_644
.Lunix_path_BB65_341:
	movq	%rdx, %rbx
	jmp	.Lunix_path_BB65_503
.Lunix_path_BB65_342:
	movl	$0, %edx
	movl	$0, %ebp
	jmp	.Lunix_path_BB65_3
.Lunix_path_BB65_343:
	cmpq	$32, %r15
	ja	.Lunix_path_BB65_487
	movdqu	(%r14), %xmm0
	movdqu	1(%r14), %xmm1
	pand	.Lunix_path_CPI65_0(%rip), %xmm1
	por	%xmm0, %xmm1
	pcmpeqb	.Lunix_path_CPI65_1(%rip), %xmm1
	pmovmskb	%xmm1, %ecx
	testl	%ecx, %ecx
	jne	.Lunix_path_BB65_346
	movdqu	-17(%r14,%r15), %xmm0
	movdqu	-16(%r14,%r15), %xmm1
	pand	.Lunix_path_CPI65_0(%rip), %xmm1
	por	%xmm0, %xmm1
	pcmpeqb	.Lunix_path_CPI65_1(%rip), %xmm1
	pmovmskb	%xmm1, %ecx
	testl	%ecx, %ecx
	je	.Lunix_path_BB65_676
.Lunix_path_BB65_346:
	cmpq	$18, %r15
	jbe	.Lunix_path_BB65_130
	movq	%r15, %rdx
	addq	$-19, %rdx
	jne	.Lunix_path_BB65_489
	xorl	%edx, %edx
	xorl	%ecx, %ecx
.Lunix_path_BB65_349:
	leaq	-17(%r15), %rsi
	cmpq	%rcx, %rsi
	cmovbq	%rsi, %rcx
	movdqu	(%r14,%rcx), %xmm0
	movdqu	1(%r14,%rcx), %xmm1
	pand	.Lunix_path_CPI65_0(%rip), %xmm1
	por	%xmm0, %xmm1
	pcmpeqb	.Lunix_path_CPI65_1(%rip), %xmm1
	pmovmskb	%xmm1, %esi
	testl	%esi, %esi
	je	.Lunix_path_BB65_685
	movdqu	(%r14,%rdx), %xmm0
	movdqu	1(%r14,%rdx), %xmm1
	movdqu	2(%r14,%rdx), %xmm2
	movdqu	3(%r14,%rdx), %xmm3
	movdqa	.Lunix_path_CPI65_2(%rip), %xmm4
	movdqa	%xmm2, %xmm5
	pcmpeqb	%xmm4, %xmm5
	movdqa	.Lunix_path_CPI65_1(%rip), %xmm6
	pcmpeqb	%xmm6, %xmm3
	pand	%xmm5, %xmm3
	pcmpeqb	%xmm1, %xmm4
	pcmpeqb	%xmm6, %xmm2
	por	%xmm3, %xmm2
	pand	%xmm4, %xmm2
	pcmpeqb	%xmm6, %xmm0
	pcmpeqb	%xmm6, %xmm1
	por	%xmm2, %xmm1
	pand	%xmm0, %xmm1
	pmovmskb	%xmm1, %ecx
	orl	$65536, %ecx
	rep		bsfl	%ecx, %ecx
	jmp	.Lunix_path_BB65_595
.Lunix_path_BB65_351:
	movzwl	%ax, %ecx
	addq	%rsi, %rcx
	jmp	.Lunix_path_BB65_447
.Lunix_path_BB65_352:
	movq	%r14, %rdi
	movq	%r15, %rsi
	callq	unix_path.filler.filler_end_from
	movq	16(%rsp), %r10
.Lunix_path_BB65_353:
	subq	%rax, %r15
	je	.Lunix_path_BB65_420
	addq	%rax, %r14
	leaq	16(%r10), %rbx
	leaq	1(%r10), %rax
	movq	%rax, 48(%rsp)
	jmp	.Lunix_path_BB65_357
.Lunix_path_BB65_355:
	movq	%r14, %rdi
	movq	%r15, %rsi
	callq	unix_path.filler.filler_end_from
	movq	16(%rsp), %r10
	.p2align	4
.Lunix_path_BB65_356:
	addq	%rax, %r14
	subq	%rax, %r15
	je	.Lunix_path_BB65_420
.Lunix_path_BB65_357:
	movq	%rbp, %rax
	movzbl	(%r14), %ecx
	cmpq	$2, %r15
	jb	.Lunix_path_BB65_362
	cmpb	$46, %cl
	jne	.Lunix_path_BB65_362
	cmpb	$46, 1(%r14)
	jne	.Lunix_path_BB65_362
	movl	$2, %edx
	cmpq	$2, %r15
	je	.Lunix_path_BB65_390
	cmpb	$47, 2(%r14)
	je	.Lunix_path_BB65_390
	.p2align	4
.Lunix_path_BB65_362:
	cmpq	$18, %r15
	ja	.Lunix_path_BB65_365
	cmpq	$9, %r15
	jae	.Lunix_path_BB65_373
	xorl	%esi, %esi
	cmpq	%r15, %rsi
	jb	.Lunix_path_BB65_382
	jmp	.Lunix_path_BB65_378
.Lunix_path_BB65_365:
	movq	%r15, %rdx
	xorl	%esi, %esi
	addq	$-19, %rdx
	jne	.Lunix_path_BB65_369
.Lunix_path_BB65_366:
	leaq	-17(%r15), %rdi
	cmpq	%rsi, %rdi
	cmovbq	%rdi, %rsi
	movdqu	(%r14,%rsi), %xmm0
	movdqu	1(%r14,%rsi), %xmm1
	pand	.Lunix_path_CPI65_0(%rip), %xmm1
	por	%xmm0, %xmm1
	pcmpeqb	.Lunix_path_CPI65_1(%rip), %xmm1
	pmovmskb	%xmm1, %edi
	testl	%edi, %edi
	je	.Lunix_path_BB65_379
	movdqu	(%r14,%rdx), %xmm0
	movdqu	1(%r14,%rdx), %xmm1
	movdqu	2(%r14,%rdx), %xmm2
	movdqu	3(%r14,%rdx), %xmm3
	movdqa	.Lunix_path_CPI65_2(%rip), %xmm4
	movdqa	%xmm2, %xmm5
	pcmpeqb	%xmm4, %xmm5
	movdqa	.Lunix_path_CPI65_1(%rip), %xmm6
	pcmpeqb	%xmm6, %xmm3
	pand	%xmm5, %xmm3
	pcmpeqb	%xmm1, %xmm4
	pcmpeqb	%xmm6, %xmm2
	por	%xmm3, %xmm2
	pand	%xmm4, %xmm2
	pcmpeqb	%xmm6, %xmm0
	pcmpeqb	%xmm6, %xmm1
	por	%xmm2, %xmm1
	pand	%xmm0, %xmm1
	pmovmskb	%xmm1, %esi
	orl	$65536, %esi
	rep		bsfl	%esi, %esi
	jmp	.Lunix_path_BB65_376
	.p2align	4
.Lunix_path_BB65_368:
	cmpq	%rdx, %rsi
	jae	.Lunix_path_BB65_366
.Lunix_path_BB65_369:
	movdqu	(%r14,%rsi), %xmm0
	movdqu	1(%r14,%rsi), %xmm1
	movdqa	.Lunix_path_CPI65_0(%rip), %xmm2
	pand	%xmm1, %xmm2
	por	%xmm0, %xmm2
	pcmpeqb	.Lunix_path_CPI65_1(%rip), %xmm2
	pmovmskb	%xmm2, %edi
	testl	%edi, %edi
	je	.Lunix_path_BB65_372
	movdqu	2(%r14,%rsi), %xmm2
	movdqu	3(%r14,%rsi), %xmm3
	movdqa	.Lunix_path_CPI65_2(%rip), %xmm4
	movdqa	%xmm2, %xmm5
	pcmpeqb	%xmm4, %xmm5
	movdqa	.Lunix_path_CPI65_1(%rip), %xmm6
	pcmpeqb	%xmm6, %xmm3
	pand	%xmm5, %xmm3
	pcmpeqb	%xmm1, %xmm4
	pcmpeqb	%xmm6, %xmm2
	por	%xmm3, %xmm2
	pand	%xmm4, %xmm2
	pcmpeqb	%xmm6, %xmm0
	pcmpeqb	%xmm6, %xmm1
	por	%xmm2, %xmm1
	pand	%xmm0, %xmm1
	pmovmskb	%xmm1, %edi
	orl	$65536, %edi
	rep		bsfl	%edi, %edi
	cmpw	$15, %di
	jbe	.Lunix_path_BB65_375
	addq	$16, %rsi
	jmp	.Lunix_path_BB65_368
	.p2align	4
.Lunix_path_BB65_372:
	addq	$16, %rsi
	cmpq	%rdx, %rsi
	jb	.Lunix_path_BB65_369
	jmp	.Lunix_path_BB65_368
.Lunix_path_BB65_373:
	movq	1(%r14), %xmm0
	pand	.Lunix_path_CPI65_3(%rip), %xmm0
	pcmpeqb	.Lunix_path_CPI65_4(%rip), %xmm0
	movq	(%r14), %xmm1
	pcmpeqb	.Lunix_path_CPI65_5(%rip), %xmm1
	pand	%xmm0, %xmm1
	pmovmskb	%xmm1, %edx
	orl	$256, %edx
	rep		bsfl	%edx, %esi
	cmpb	$8, %sil
	jb	.Lunix_path_BB65_377
	cmpq	$17, %r15
	movl	$17, %edx
	cmovbq	%r15, %rdx
	movq	-8(%r14,%rdx), %xmm0
	pand	.Lunix_path_CPI65_3(%rip), %xmm0
	pcmpeqb	.Lunix_path_CPI65_4(%rip), %xmm0
	movq	-9(%r14,%rdx), %xmm1
	pcmpeqb	.Lunix_path_CPI65_5(%rip), %xmm1
	pand	%xmm0, %xmm1
	pmovmskb	%xmm1, %esi
	orl	$256, %esi
	rep		bsfl	%esi, %esi
	addq	%rdx, %rsi
	addq	$-9, %rsi
	cmpq	%r15, %rsi
	jb	.Lunix_path_BB65_382
	jmp	.Lunix_path_BB65_378
.Lunix_path_BB65_375:
	movzwl	%di, %edx
.Lunix_path_BB65_376:
	addq	%rdx, %rsi
.Lunix_path_BB65_377:
	cmpq	%r15, %rsi
	jb	.Lunix_path_BB65_382
.Lunix_path_BB65_378:
	movq	%rsi, %rdx
	jmp	.Lunix_path_BB65_390
.Lunix_path_BB65_379:
	addq	$16, %rsi
	cmpq	%r15, %rsi
	jb	.Lunix_path_BB65_382
	jmp	.Lunix_path_BB65_378
	.p2align	4
.Lunix_path_BB65_380:
	cmpl	$47, %edi
	je	.Lunix_path_BB65_390
.Lunix_path_BB65_381:
	cmpq	%rsi, %r15
	je	.Lunix_path_BB65_389
.Lunix_path_BB65_382:
	movq	%rsi, %rdx
	incq	%rsi
	cmpb	$47, (%r14,%rdx)
	jne	.Lunix_path_BB65_381
	cmpq	%rsi, %r15
	jbe	.Lunix_path_BB65_390
	movzbl	1(%r14,%rdx), %edi
	cmpl	$46, %edi
	jne	.Lunix_path_BB65_380
	leaq	2(%rdx), %rdi
	cmpq	%rdi, %r15
	jbe	.Lunix_path_BB65_390
	movzbl	2(%r14,%rdx), %edi
	cmpl	$46, %edi
	jne	.Lunix_path_BB65_380
	leaq	3(%rdx), %rdi
	cmpq	%rdi, %r15
	jbe	.Lunix_path_BB65_390
	cmpb	$47, 3(%r14,%rdx)
	jne	.Lunix_path_BB65_381
	jmp	.Lunix_path_BB65_390
.Lunix_path_BB65_389:
	movq	%r15, %rdx
	.p2align	4
.Lunix_path_BB65_390:
	cmpq	$1, %r15
	je	.Lunix_path_BB65_396
	cmpb	$46, %cl
	jne	.Lunix_path_BB65_396
	cmpb	$46, 1(%r14)
	jne	.Lunix_path_BB65_396
	cmpq	$2, %r15
	je	.Lunix_path_BB65_395
	cmpb	$47, 2(%r14)
	jne	.Lunix_path_BB65_396
.Lunix_path_BB65_395:
	movw	$768, (%r10,%rax)
	movl	$2, %ebp
	jmp	.Lunix_path_BB65_413
	.p2align	4
.Lunix_path_BB65_396:
	cmpq	$15, %rdx
	ja	.Lunix_path_BB65_400
	testq	%rdx, %rdx
	je	.Lunix_path_BB65_412
	xorl	%ecx, %ecx
	cmpq	$1, %rdx
	jne	.Lunix_path_BB65_405
	xorl	%esi, %esi
	jmp	.Lunix_path_BB65_408
.Lunix_path_BB65_400:
	movq	%rdx, %rcx
	addq	$-16, %rcx
	je	.Lunix_path_BB65_411
	leaq	-17(%rdx), %rdi
	shrq	$4, %rdi
	je	.Lunix_path_BB65_409
	incq	%rdi
	movq	%rdi, %r8
	andq	$-2, %r8
	leaq	(%rbx,%rax), %r9
	xorl	%esi, %esi
	.p2align	4
.Lunix_path_BB65_403:
	movdqu	(%r14,%rsi), %xmm0
	movdqa	.Lunix_path_CPI65_1(%rip), %xmm1
	movdqa	.Lunix_path_CPI65_2(%rip), %xmm2
	movdqa	%xmm0, %xmm3
	pminub	%xmm2, %xmm3
	pcmpeqb	%xmm0, %xmm3
	movdqa	%xmm0, %xmm4
	psubb	%xmm3, %xmm4
	pcmpeqb	%xmm1, %xmm0
	pandn	%xmm4, %xmm0
	movdqu	%xmm0, -16(%r9,%rsi)
	movdqu	16(%r14,%rsi), %xmm0
	pminub	%xmm0, %xmm2
	pcmpeqb	%xmm0, %xmm2
	movdqa	%xmm0, %xmm3
	psubb	%xmm2, %xmm3
	pcmpeqb	%xmm1, %xmm0
	pandn	%xmm3, %xmm0
	movdqu	%xmm0, (%r9,%rsi)
	addq	$32, %rsi
	addq	$-2, %r8
	jne	.Lunix_path_BB65_403
	testb	$1, %dil
	jne	.Lunix_path_BB65_410
	jmp	.Lunix_path_BB65_411
.Lunix_path_BB65_405:
	movl	%edx, %edi
	andl	$14, %edi
	movq	48(%rsp), %rsi
	leaq	(%rsi,%rax), %r8
	xorl	%r9d, %r9d
	xorl	%esi, %esi
	.p2align	4
.Lunix_path_BB65_406:
	movzbl	(%r14,%rsi), %r10d
	cmpb	$47, %r10b
	movl	%r10d, %r11d
	adcb	$0, %r11b
	cmpb	$47, %r10b
	movzbl	%r11b, %r10d
	cmovel	%r9d, %r10d
	movb	%r10b, -1(%r8,%rsi)
	movzbl	1(%r14,%rsi), %r10d
	cmpb	$47, %r10b
	movl	%r10d, %r11d
	adcb	$0, %r11b
	cmpb	$47, %r10b
	movzbl	%r11b, %r10d
	cmovel	%r9d, %r10d
	movb	%r10b, (%r8,%rsi)
	addq	$2, %rsi
	cmpq	%rsi, %rdi
	jne	.Lunix_path_BB65_406
	testb	$1, %dl
	movq	16(%rsp), %r10
	je	.Lunix_path_BB65_412
.Lunix_path_BB65_408:
	leaq	(%r10,%rax), %rdi
	movzbl	(%r14,%rsi), %r8d
	cmpb	$47, %r8b
	movl	%r8d, %r9d
	adcb	$0, %r9b
	cmpb	$47, %r8b
	movzbl	%r9b, %r8d
	cmovel	%ecx, %r8d
	movb	%r8b, (%rdi,%rsi)
	jmp	.Lunix_path_BB65_412
.Lunix_path_BB65_409:
	xorl	%esi, %esi
.Lunix_path_BB65_410:
	leaq	(%r10,%rax), %rdi
	movdqu	(%r14,%rsi), %xmm0
	movdqa	.Lunix_path_CPI65_2(%rip), %xmm1
	pminub	%xmm0, %xmm1
	pcmpeqb	%xmm0, %xmm1
	movdqa	%xmm0, %xmm2
	psubb	%xmm1, %xmm2
	pcmpeqb	.Lunix_path_CPI65_1(%rip), %xmm0
	pandn	%xmm2, %xmm0
	movdqu	%xmm0, (%rdi,%rsi)
.Lunix_path_BB65_411:
	movdqu	(%r14,%rcx), %xmm0
	movdqa	.Lunix_path_CPI65_2(%rip), %xmm1
	pminub	%xmm0, %xmm1
	pcmpeqb	%xmm0, %xmm1
	movdqa	%xmm0, %xmm2
	pcmpeqb	.Lunix_path_CPI65_1(%rip), %xmm0
	psubb	%xmm1, %xmm2
	pandn	%xmm2, %xmm0
	leaq	(%r10,%rax), %rsi
	movdqu	%xmm0, (%rcx,%rsi)
.Lunix_path_BB65_412:
	leaq	(%r10,%rax), %rcx
	movb	$0, (%rdx,%rcx)
	leaq	1(%rdx), %rbp
.Lunix_path_BB65_413:
	addq	%rax, %rbp
	addq	%rdx, %r14
	subq	%rdx, %r15
	xorl	%edx, %edx
	jmp	.Lunix_path_BB65_415
	.p2align	4
.Lunix_path_BB65_414:
	addq	%rax, %rdx
	cmpq	$4, %rdx
	jae	.Lunix_path_BB65_355
.Lunix_path_BB65_415:
	movq	%rdx, %rax
	cmpq	%r15, %rdx
	jae	.Lunix_path_BB65_356
	movzbl	(%r14,%rax), %ecx
	movl	$1, %edx
	cmpl	$47, %ecx
	je	.Lunix_path_BB65_414
	cmpl	$46, %ecx
	jne	.Lunix_path_BB65_356
	leaq	1(%rax), %rcx
	cmpq	%r15, %rcx
	je	.Lunix_path_BB65_414
	movl	$2, %edx
	cmpb	$47, (%r14,%rcx)
	je	.Lunix_path_BB65_414
	jmp	.Lunix_path_BB65_356
.Lunix_path_BB65_420:
	cmpq	%rbp, %r12
	movq	%r12, %r15
	cmovbq	%r12, %rbp
	leaq	15(%rsp), %r13
	movq	%r13, 64(%rsp)
	pxor	%xmm0, %xmm0
	movdqu	%xmm0, 72(%rsp)
	testq	%rbp, %rbp
	je	.Lunix_path_BB65_430
	xorl	%r12d, %r12d
	xorl	%ebx, %ebx
	jmp	.Lunix_path_BB65_423
	.p2align	4
.Lunix_path_BB65_422:
	movq	64(%rsp), %r13
	movb	%r14b, (%r13,%r12)
	incq	%r12
	movq	%r12, 72(%rsp)
	incq	%rbx
	cmpq	%rbx, %rbp
	je	.Lunix_path_BB65_429
.Lunix_path_BB65_423:
	movzbl	(%r10,%rbx), %eax
	movl	%eax, %ecx
	shrb	$4, %cl
	leal	48(%rcx), %edx
	addb	$87, %cl
	cmpb	$-96, %al
	movzbl	%dl, %eax
	movzbl	%cl, %r14d
	cmovbl	%eax, %r14d
	cmpq	%r12, 80(%rsp)
	je	.Lunix_path_BB65_427
.Lunix_path_BB65_424:
	movb	%r14b, (%r13,%r12)
	incq	%r12
	movq	%r12, 72(%rsp)
	movzbl	(%r10,%rbx), %eax
	andb	$15, %al
	leal	48(%rax), %ecx
	leal	87(%rax), %edx
	cmpb	$10, %al
	movzbl	%cl, %eax
	movzbl	%dl, %r14d
	cmovbl	%eax, %r14d
	cmpq	%r12, 80(%rsp)
	jne	.Lunix_path_BB65_422
	leaq	64(%rsp), %rdi
	movl	$1, %esi
	callq	std_alloc.vec.Vec.grow_amortized.f4a78633ca2a48c6.
	testb	%al, %al
	je	.Lunix_path_BB65_434
	movq	72(%rsp), %r12
	movq	16(%rsp), %r10
	jmp	.Lunix_path_BB65_422
.Lunix_path_BB65_427:
	leaq	64(%rsp), %rdi
	movl	$1, %esi
	callq	std_alloc.vec.Vec.grow_amortized.f4a78633ca2a48c6.
	testb	%al, %al
	je	.Lunix_path_BB65_434
	movq	64(%rsp), %r13
	movq	72(%rsp), %r12
	movq	16(%rsp), %r10
	jmp	.Lunix_path_BB65_424
.Lunix_path_BB65_429:
	movq	80(%rsp), %r9
	jmp	.Lunix_path_BB65_431
.Lunix_path_BB65_430:
	xorl	%r9d, %r9d
	xorl	%r12d, %r12d
.Lunix_path_BB65_431:
	testq	%r15, %r15
	je	.Lunix_path_BB65_433
	movq	%r10, %rdi
	movq	%r9, %rbx
	callq	rattle_dealloc@PLT
	movq	%rbx, %r9
.Lunix_path_BB65_433:
	xorl	%ebx, %ebx
	movb	$1, %bpl
	movb	$1, %dl
	jmp	.Lunix_path_BB65_1121
.Lunix_path_BB65_434:
	cmpq	$0, 80(%rsp)
	je	.Lunix_path_BB65_436
	movq	64(%rsp), %rdi
	callq	rattle_dealloc@PLT
.Lunix_path_BB65_436:
	movq	16(%rsp), %rdi
	callq	rattle_dealloc@PLT
	movb	$1, %bl
	jmp	.Lunix_path_BB65_2
.Lunix_path_BB65_437:
	movq	%r12, %rax
	andq	%rcx, %rax
	xorl	%edx, %edx
.Lunix_path_BB65_438:
	movdqu	(%r14,%rdx), %xmm0
	movdqu	16(%r14,%rdx), %xmm1
	movdqu	%xmm0, (%r13,%rdx)
	movdqu	%xmm1, 16(%r13,%rdx)
	addq	$32, %rdx
	cmpq	%rdx, %rax
	jne	.Lunix_path_BB65_438
	cmpq	%rax, %r12
	je	.Lunix_path_BB65_585
	testb	$28, %r12b
	je	.Lunix_path_BB65_581
.Lunix_path_BB65_577:
	movq	%rax, %rdx
	addq	$28, %rcx
	movq	%rcx, %rax
	andq	%r12, %rax
.Lunix_path_BB65_578:
	movl	(%r14,%rdx), %ecx
	movl	%ecx, (%r13,%rdx)
	addq	$4, %rdx
	cmpq	%rdx, %rax
	jne	.Lunix_path_BB65_578
	cmpq	%rax, %r12
	je	.Lunix_path_BB65_585
.Lunix_path_BB65_581:
	movq	%r12, %rdx
	movq	%rax, %rcx
	andq	$3, %rdx
	je	.Lunix_path_BB65_584
	movq	%rax, %rcx
.Lunix_path_BB65_583:
	movzbl	(%r14,%rcx), %esi
	movb	%sil, (%r13,%rcx)
	incq	%rcx
	decq	%rdx
	jne	.Lunix_path_BB65_583
.Lunix_path_BB65_584:
	subq	%r12, %rax
	cmpq	$-4, %rax
	ja	.Lunix_path_BB65_585
.Lunix_path_BB65_586:
	movzbl	(%r14,%rcx), %eax
	movb	%al, (%r13,%rcx)
	movzbl	1(%r14,%rcx), %eax
	movb	%al, 1(%r13,%rcx)
	movzbl	2(%r14,%rcx), %eax
	movb	%al, 2(%r13,%rcx)
	movzbl	3(%r14,%rcx), %eax
	movb	%al, 3(%r13,%rcx)
	addq	$4, %rcx
	cmpq	%rcx, %r12
	jne	.Lunix_path_BB65_586
.Lunix_path_BB65_585:
	movq	%r12, %r9
	movb	$1, %dl
	jmp	.Lunix_path_BB65_1115
.Lunix_path_BB65_443:
	movq	1(%r14), %xmm0
	pand	.Lunix_path_CPI65_3(%rip), %xmm0
	pcmpeqb	.Lunix_path_CPI65_4(%rip), %xmm0
	movq	(%r14), %xmm1
	pcmpeqb	.Lunix_path_CPI65_5(%rip), %xmm1
	pand	%xmm0, %xmm1
	pmovmskb	%xmm1, %ecx
	orl	$256, %ecx
	rep		bsfl	%ecx, %ecx
	cmpb	$8, %cl
	jb	.Lunix_path_BB65_686
	cmpq	$17, %r15
	movl	$17, %ecx
	cmovbq	%r15, %rcx
	movq	-8(%r14,%rcx), %xmm0
	pand	.Lunix_path_CPI65_3(%rip), %xmm0
	pcmpeqb	.Lunix_path_CPI65_4(%rip), %xmm0
	movq	-9(%r14,%rcx), %xmm1
	pcmpeqb	.Lunix_path_CPI65_5(%rip), %xmm1
	pand	%xmm0, %xmm1
	pmovmskb	%xmm1, %edx
	orl	$256, %edx
	rep		bsfl	%edx, %edx
	addq	%rdx, %rcx
	addq	$-9, %rcx
	jmp	.Lunix_path_BB65_686
.Lunix_path_BB65_445:
	xorl	%ecx, %ecx
	jmp	.Lunix_path_BB65_447
.Lunix_path_BB65_446:
	xorl	%ecx, %ecx
.Lunix_path_BB65_447:
	cmpq	$15, %rcx
	jbe	.Lunix_path_BB65_450
	movdqu	-16(%r12,%rcx), %xmm0
	addq	$-16, %rcx
	pcmpeqb	.Lunix_path_CPI65_1(%rip), %xmm0
	pmovmskb	%xmm0, %eax
	testl	%eax, %eax
	je	.Lunix_path_BB65_447
	movzwl	%ax, %eax
	bsrq	%rax, %rax
	xorq	$63, %rax
	subq	%rax, %rcx
	addq	$64, %rcx
	movq	%rcx, %r13
	jmp	.Lunix_path_BB65_454
.Lunix_path_BB65_450:
	incq	%rcx
.Lunix_path_BB65_451:
	cmpq	$1, %rcx
	je	.Lunix_path_BB65_453
	leaq	-1(%rcx), %r13
	cmpb	$47, -2(%r12,%rcx)
	movq	%r13, %rcx
	jne	.Lunix_path_BB65_451
	jmp	.Lunix_path_BB65_454
.Lunix_path_BB65_453:
	xorl	%r13d, %r13d
.Lunix_path_BB65_454:
	cmpq	%r13, %r8
	jbe	.Lunix_path_BB65_471
	movzbl	(%r12,%r13), %eax
	cmpl	$47, %eax
	je	.Lunix_path_BB65_471
	cmpl	$46, %eax
	jne	.Lunix_path_BB65_463
	leaq	1(%r13), %rax
	cmpq	%rax, %r8
	jbe	.Lunix_path_BB65_471
	movzbl	(%r12,%rax), %eax
	cmpl	$47, %eax
	je	.Lunix_path_BB65_471
	cmpl	$46, %eax
	jne	.Lunix_path_BB65_463
	leaq	2(%r13), %rax
	cmpq	%rax, %r8
	jbe	.Lunix_path_BB65_471
	cmpq	%r13, %r15
	jbe	.Lunix_path_BB65_471
	cmpb	$47, 2(%r12,%r13)
	jne	.Lunix_path_BB65_464
	jmp	.Lunix_path_BB65_471
.Lunix_path_BB65_463:
	cmpq	%r13, %r15
	jbe	.Lunix_path_BB65_471
.Lunix_path_BB65_464:
	movzbl	(%r14,%r13), %eax
	cmpl	$47, %eax
	je	.Lunix_path_BB65_471
	cmpl	$46, %eax
	jne	.Lunix_path_BB65_472
	leaq	1(%r13), %rax
	cmpq	%rax, %r15
	jbe	.Lunix_path_BB65_471
	movzbl	(%r14,%rax), %eax
	cmpl	$47, %eax
	je	.Lunix_path_BB65_471
	cmpl	$46, %eax
	jne	.Lunix_path_BB65_897
	leaq	2(%r13), %rax
	cmpq	%rax, %r15
	movq	16(%rsp), %r8
	jbe	.Lunix_path_BB65_471
	cmpb	$47, (%r14,%rax)
	jne	.Lunix_path_BB65_472
.Lunix_path_BB65_471:
	xorl	%r13d, %r13d
.Lunix_path_BB65_472:
	leaq	(%r12,%r13), %rbp
	subq	%r13, %r8
	je	.Lunix_path_BB65_898
.Lunix_path_BB65_473:
	movzbl	(%rbp), %eax
	movl	$257, %ecx
	movq	%rcx, 32(%rsp)
	cmpl	$47, %eax
	je	.Lunix_path_BB65_478
	cmpl	$46, %eax
	jne	.Lunix_path_BB65_477
	cmpq	$1, %r8
	je	.Lunix_path_BB65_478
	xorl	%eax, %eax
	cmpb	$47, 1(%rbp)
	cmovneq	%rax, %rcx
	movq	%rcx, 32(%rsp)
	jmp	.Lunix_path_BB65_478
.Lunix_path_BB65_477:
	movq	$0, 32(%rsp)
.Lunix_path_BB65_478:
	movq	%r8, %rax
	movq	%r8, 40(%rsp)
	jmp	.Lunix_path_BB65_480
.Lunix_path_BB65_479:
	movq	%rax, 40(%rsp)
	testq	%rax, %rax
	je	.Lunix_path_BB65_899
.Lunix_path_BB65_480:
	decq	%rax
	je	.Lunix_path_BB65_486
	movzbl	(%rbp,%rax), %ecx
	cmpl	$47, %ecx
	je	.Lunix_path_BB65_484
	cmpl	$46, %ecx
	jne	.Lunix_path_BB65_900
	cmpb	$47, -1(%rbp,%rax)
	jne	.Lunix_path_BB65_900
.Lunix_path_BB65_484:
	movq	%r8, %rcx
	subq	%rax, %rcx
	cmpq	$8, %rcx
	jne	.Lunix_path_BB65_479
	movq	%rbp, %rdi
	movq	%rax, %rsi
	movq	%r8, %rbx
	callq	unix_path.filler.trimmed_blocks_len
	movq	%rbx, %r8
	jmp	.Lunix_path_BB65_479
.Lunix_path_BB65_486:
	movl	$1, %eax
	movq	%rax, 40(%rsp)
	jmp	.Lunix_path_BB65_900
.Lunix_path_BB65_487:
	movdqa	.Lunix_path_CPI65_0(%rip), %xmm0
	movdqu	-33(%r14,%r15), %xmm1
	movdqu	-32(%r14,%r15), %xmm2
	movdqu	-17(%r14,%r15), %xmm3
	movdqu	-16(%r14,%r15), %xmm4
	pand	%xmm0, %xmm2
	por	%xmm1, %xmm2
	movdqa	.Lunix_path_CPI65_1(%rip), %xmm1
	pcmpeqb	%xmm1, %xmm2
	pand	%xmm0, %xmm4
	por	%xmm3, %xmm4
	pcmpeqb	%xmm1, %xmm4
	por	%xmm2, %xmm4
	pmovmskb	%xmm4, %ecx
	testl	%ecx, %ecx
	je	.Lunix_path_BB65_598
	leaq	-19(%r15), %rdx
.Lunix_path_BB65_489:
	xorl	%ecx, %ecx
	jmp	.Lunix_path_BB65_491
.Lunix_path_BB65_490:
	cmpq	%rdx, %rcx
	jae	.Lunix_path_BB65_349
.Lunix_path_BB65_491:
	movdqu	(%r14,%rcx), %xmm0
	movdqu	1(%r14,%rcx), %xmm1
	movdqa	.Lunix_path_CPI65_0(%rip), %xmm2
	pand	%xmm1, %xmm2
	por	%xmm0, %xmm2
	pcmpeqb	.Lunix_path_CPI65_1(%rip), %xmm2
	pmovmskb	%xmm2, %esi
	testl	%esi, %esi
	je	.Lunix_path_BB65_494
	movdqu	2(%r14,%rcx), %xmm2
	movdqu	3(%r14,%rcx), %xmm3
	movdqa	.Lunix_path_CPI65_2(%rip), %xmm4
	movdqa	%xmm2, %xmm5
	pcmpeqb	%xmm4, %xmm5
	movdqa	.Lunix_path_CPI65_1(%rip), %xmm6
	pcmpeqb	%xmm6, %xmm3
	pand	%xmm5, %xmm3
	pcmpeqb	%xmm1, %xmm4
	pcmpeqb	%xmm6, %xmm2
	por	%xmm3, %xmm2
	pand	%xmm4, %xmm2
	pcmpeqb	%xmm6, %xmm0
	pcmpeqb	%xmm6, %xmm1
	por	%xmm2, %xmm1
	pand	%xmm0, %xmm1
	pmovmskb	%xmm1, %esi
	orl	$65536, %esi
	rep		bsfl	%esi, %esi
	cmpw	$15, %si
	jbe	.Lunix_path_BB65_594
	addq	$16, %rcx
	jmp	.Lunix_path_BB65_490
.Lunix_path_BB65_494:
	addq	$16, %rcx
	cmpq	%rdx, %rcx
	jb	.Lunix_path_BB65_491
	jmp	.Lunix_path_BB65_490
.Lunix_path_BB65_495:
	movzwl	%dx, %edx
	addq	%rsi, %rdx
	jmp	.Lunix_path_BB65_192
.Lunix_path_BB65_496:
	movq	%rbp, %rsi
	movq	%rbx, %rdx
	movq	%r9, %rbx
	callq	memcpy@PLT
	movq	%rbx, %r9
.Lunix_path_BB65_497:
	movq	%r12, 72(%rsp)
	cmpq	%r12, %r9
	je	.Lunix_path_BB65_885
.Lunix_path_BB65_498:
	movb	$9, (%r13,%r12)
	incq	%r12
	movq	%r12, 72(%rsp)
	movq	%r9, %rax
	subq	%r12, %rax
	cmpq	%rax, %r15
	ja	.Lunix_path_BB65_887
.Lunix_path_BB65_499:
	leaq	(%r12,%r13), %rdi
	movq	%rdi, %rax
	subq	%r14, %rax
	cmpq	%r15, %rax
	jae	.Lunix_path_BB65_560
	cmpq	$4, %r15
	jb	.Lunix_path_BB65_501
	cmpq	$32, %rax
	jae	.Lunix_path_BB65_828
.Lunix_path_BB65_501:
	xorl	%eax, %eax
.Lunix_path_BB65_878:
	movq	%r15, %rdx
	movq	%rax, %rcx
	andq	$3, %rdx
	je	.Lunix_path_BB65_881
	movq	%rax, %rcx
.Lunix_path_BB65_880:
	movzbl	(%r14,%rcx), %esi
	movb	%sil, (%rdi,%rcx)
	incq	%rcx
	decq	%rdx
	jne	.Lunix_path_BB65_880
.Lunix_path_BB65_881:
	subq	%r15, %rax
	cmpq	$-4, %rax
	ja	.Lunix_path_BB65_884
	leaq	(%r12,%r13), %rax
	addq	$3, %rax
.Lunix_path_BB65_883:
	movzbl	(%r14,%rcx), %edx
	movb	%dl, -3(%rax,%rcx)
	movzbl	1(%r14,%rcx), %edx
	movb	%dl, -2(%rax,%rcx)
	movzbl	2(%r14,%rcx), %edx
	movb	%dl, -1(%rax,%rcx)
	movzbl	3(%r14,%rcx), %edx
	movb	%dl, (%rax,%rcx)
	addq	$4, %rcx
	cmpq	%rcx, %r15
	jne	.Lunix_path_BB65_883
	jmp	.Lunix_path_BB65_884
.Lunix_path_BB65_502:
	movl	$1, %ebx
.Lunix_path_BB65_503:
	testb	%bpl, %bpl
	je	.Lunix_path_BB65_505
.Lunix_path_BB65_504:
	xorl	%ebp, %ebp
	jmp	.Lunix_path_BB65_515
.Lunix_path_BB65_505:
	movzbl	-1(%r14,%r15), %eax
	andb	$-2, %al
	movq	%r15, %rbp
	cmpb	$46, %al
	jne	.Lunix_path_BB65_515
	movq	%r15, %rbp
	movq	%r15, %rax
	jmp	.Lunix_path_BB65_508
.Lunix_path_BB65_507:
	movq	%rax, %rbp
	testq	%rax, %rax
	je	.Lunix_path_BB65_504
.Lunix_path_BB65_508:
	decq	%rax
	je	.Lunix_path_BB65_514
	movzbl	(%r14,%rax), %ecx
	cmpl	$47, %ecx
	je	.Lunix_path_BB65_512
	cmpl	$46, %ecx
	jne	.Lunix_path_BB65_515
	cmpb	$47, -1(%r14,%rax)
	jne	.Lunix_path_BB65_515
.Lunix_path_BB65_512:
	movq	%r15, %rcx
	subq	%rax, %rcx
	cmpq	$8, %rcx
	jne	.Lunix_path_BB65_507
	movq	%r14, %rdi
	movq	%rax, %rsi
	callq	unix_path.filler.trimmed_blocks_len
	movq	40(%rsp), %r10
	jmp	.Lunix_path_BB65_507
.Lunix_path_BB65_514:
	movl	$1, %ebp
.Lunix_path_BB65_515:
	movq	48(%rsp), %rcx
	xorl	%eax, %eax
	subq	%r10, %rcx
	jbe	.Lunix_path_BB65_537
.Lunix_path_BB65_516:
	testb	$1, %al
	jne	.Lunix_path_BB65_772
	xorl	%edx, %edx
	jmp	.Lunix_path_BB65_520
.Lunix_path_BB65_518:
	incq	%rdx
.Lunix_path_BB65_519:
	testq	%rsi, %rsi
	je	.Lunix_path_BB65_536
.Lunix_path_BB65_520:
	movq	%rbx, %rdi
	leaq	1(%rbx), %rax
	movq	%rbx, %rsi
	.p2align	4
.Lunix_path_BB65_521:
	cmpq	$15, %rsi
	jbe	.Lunix_path_BB65_524
	movdqu	-16(%r12,%rsi), %xmm0
	pcmpeqb	.Lunix_path_CPI65_1(%rip), %xmm0
	addq	$-16, %rsi
	pmovmskb	%xmm0, %r8d
	addq	$-16, %rax
	testl	%r8d, %r8d
	je	.Lunix_path_BB65_521
	movzwl	%r8w, %eax
	bsrq	%rax, %rax
	xorq	$63, %rax
	subq	%rax, %rsi
	addq	$64, %rsi
	jmp	.Lunix_path_BB65_527
	.p2align	4
.Lunix_path_BB65_524:
	cmpq	$1, %rax
	je	.Lunix_path_BB65_526
	leaq	-1(%rax), %rsi
	cmpb	$47, -2(%r12,%rax)
	movq	%rsi, %rax
	jne	.Lunix_path_BB65_524
	jmp	.Lunix_path_BB65_527
.Lunix_path_BB65_526:
	xorl	%esi, %esi
.Lunix_path_BB65_527:
	xorl	%r8d, %r8d
	testq	%rsi, %rsi
	setne	%r8b
	sete	%al
	movq	%rsi, %rbx
	subq	%r8, %rbx
	subq	%rsi, %rdi
	je	.Lunix_path_BB65_519
	cmpq	$1, %rdi
	jne	.Lunix_path_BB65_530
	cmpb	$46, (%r12,%rsi)
	je	.Lunix_path_BB65_519
	jmp	.Lunix_path_BB65_533
.Lunix_path_BB65_530:
	cmpq	$2, %rdi
	ja	.Lunix_path_BB65_533
	cmpb	$46, (%r12,%rsi)
	jne	.Lunix_path_BB65_533
	cmpb	$46, 1(%r12,%rsi)
	je	.Lunix_path_BB65_518
.Lunix_path_BB65_533:
	testq	%rdx, %rdx
	je	.Lunix_path_BB65_535
	decq	%rdx
	jmp	.Lunix_path_BB65_519
.Lunix_path_BB65_535:
	decq	%rcx
	jne	.Lunix_path_BB65_516
	jmp	.Lunix_path_BB65_537
.Lunix_path_BB65_536:
	movb	$1, %al
.Lunix_path_BB65_537:
	movq	%r10, %rcx
	subq	48(%rsp), %rcx
	jbe	.Lunix_path_BB65_773
.Lunix_path_BB65_538:
	xorl	%r9d, %r9d
	xorl	%r11d, %r11d
.Lunix_path_BB65_539:
	testb	$1, %r9b
	jne	.Lunix_path_BB65_827
	xorl	%edx, %edx
	jmp	.Lunix_path_BB65_543
.Lunix_path_BB65_541:
	incq	%rdx
.Lunix_path_BB65_542:
	testq	%rsi, %rsi
	je	.Lunix_path_BB65_827
.Lunix_path_BB65_543:
	movq	%rbp, %rdi
	leaq	1(%rbp), %r8
	movq	%rbp, %rsi
	.p2align	4
.Lunix_path_BB65_544:
	cmpq	$15, %rsi
	jbe	.Lunix_path_BB65_547
	movdqu	-16(%r14,%rsi), %xmm0
	pcmpeqb	.Lunix_path_CPI65_1(%rip), %xmm0
	addq	$-16, %rsi
	pmovmskb	%xmm0, %r9d
	addq	$-16, %r8
	testl	%r9d, %r9d
	je	.Lunix_path_BB65_544
	movzwl	%r9w, %r8d
	bsrq	%r8, %r8
	xorq	$63, %r8
	subq	%r8, %rsi
	addq	$64, %rsi
	jmp	.Lunix_path_BB65_550
	.p2align	4
.Lunix_path_BB65_547:
	cmpq	$1, %r8
	je	.Lunix_path_BB65_549
	leaq	-1(%r8), %rsi
	cmpb	$47, -2(%r14,%r8)
	movq	%rsi, %r8
	jne	.Lunix_path_BB65_547
	jmp	.Lunix_path_BB65_550
.Lunix_path_BB65_549:
	xorl	%esi, %esi
.Lunix_path_BB65_550:
	xorl	%r8d, %r8d
	testq	%rsi, %rsi
	setne	%r8b
	sete	%r9b
	movq	%rsi, %rbp
	subq	%r8, %rbp
	subq	%rsi, %rdi
	je	.Lunix_path_BB65_542
	cmpq	$1, %rdi
	jne	.Lunix_path_BB65_553
	cmpb	$46, (%r14,%rsi)
	je	.Lunix_path_BB65_542
	jmp	.Lunix_path_BB65_556
.Lunix_path_BB65_553:
	cmpq	$2, %rdi
	ja	.Lunix_path_BB65_556
	cmpb	$46, (%r14,%rsi)
	jne	.Lunix_path_BB65_556
	cmpb	$46, 1(%r14,%rsi)
	je	.Lunix_path_BB65_541
.Lunix_path_BB65_556:
	testq	%rdx, %rdx
	je	.Lunix_path_BB65_558
	decq	%rdx
	jmp	.Lunix_path_BB65_542
.Lunix_path_BB65_558:
	addq	%rdi, %r11
	incq	%r11
	decq	%rcx
	jne	.Lunix_path_BB65_539
	jmp	.Lunix_path_BB65_774
.Lunix_path_BB65_827:
	movb	$1, %r9b
	jmp	.Lunix_path_BB65_774
.Lunix_path_BB65_560:
	movq	%r14, %rsi
	movq	%r15, %rdx
	movq	%r9, %rbx
	callq	memmove@PLT
	movq	%rbx, %r9
.Lunix_path_BB65_884:
	addq	%r15, %r12
	movb	$1, %dl
	jmp	.Lunix_path_BB65_1115
.Lunix_path_BB65_561:
	movq	%r15, %rax
	andq	%rcx, %rax
	xorl	%edx, %edx
.Lunix_path_BB65_562:
	movdqu	(%r12,%rdx), %xmm0
	movdqu	16(%r12,%rdx), %xmm1
	movdqu	%xmm0, (%r14,%rdx)
	movdqu	%xmm1, 16(%r14,%rdx)
	addq	$32, %rdx
	cmpq	%rdx, %rax
	jne	.Lunix_path_BB65_562
	cmpq	%rax, %r13
	je	.Lunix_path_BB65_568
	testb	$28, %r15b
	je	.Lunix_path_BB65_569
.Lunix_path_BB65_565:
	movq	%rax, %rdx
	addq	$28, %rcx
	movq	%rcx, %rax
	andq	%r15, %rax
.Lunix_path_BB65_566:
	movl	(%r12,%rdx), %ecx
	movl	%ecx, (%r14,%rdx)
	addq	$4, %rdx
	cmpq	%rdx, %rax
	jne	.Lunix_path_BB65_566
	cmpq	%rax, %r13
	jne	.Lunix_path_BB65_569
.Lunix_path_BB65_568:
	movb	$1, %dl
	xorl	%ebx, %ebx
	jmp	.Lunix_path_BB65_575
.Lunix_path_BB65_569:
	movq	%r15, %rdx
	movq	%rax, %rcx
	andq	$3, %rdx
	je	.Lunix_path_BB65_572
	movq	%rax, %rcx
.Lunix_path_BB65_571:
	movzbl	(%r12,%rcx), %esi
	movb	%sil, (%r14,%rcx)
	incq	%rcx
	decq	%rdx
	jne	.Lunix_path_BB65_571
.Lunix_path_BB65_572:
	subq	%r15, %rax
	movb	$1, %dl
	cmpq	$-4, %rax
	jbe	.Lunix_path_BB65_574
	xorl	%ebx, %ebx
	jmp	.Lunix_path_BB65_575
.Lunix_path_BB65_574:
	movzbl	(%r12,%rcx), %eax
	movb	%al, (%r14,%rcx)
	movzbl	1(%r12,%rcx), %eax
	movb	%al, 1(%r14,%rcx)
	movzbl	2(%r12,%rcx), %eax
	movb	%al, 2(%r14,%rcx)
	movzbl	3(%r12,%rcx), %eax
	movb	%al, 3(%r14,%rcx)
	addq	$4, %rcx
	xorl	%ebx, %ebx
	cmpq	%rcx, %r13
	jne	.Lunix_path_BB65_574
.Lunix_path_BB65_575:
	movb	$1, %bpl
	movq	%r15, %r9
	jmp	.Lunix_path_BB65_157
.Lunix_path_BB65_589:
	cmpq	$32, %r15
	jae	.Lunix_path_BB65_602
	xorl	%ecx, %ecx
	jmp	.Lunix_path_BB65_606
.Lunix_path_BB65_591:
	movzbl	1(%r12), %edx
	movl	$1, %ecx
	cmpb	1(%r14), %dl
	jne	.Lunix_path_BB65_447
	cmpq	$2, %rax
	jne	.Lunix_path_BB65_843
	movq	%rax, %rcx
	jmp	.Lunix_path_BB65_447
.Lunix_path_BB65_594:
	movzwl	%si, %edx
.Lunix_path_BB65_595:
	addq	%rdx, %rcx
	jmp	.Lunix_path_BB65_686
.Lunix_path_BB65_598:
	movq	%r15, %rcx
	addq	$-33, %rcx
	je	.Lunix_path_BB65_676
	xorl	%edx, %edx
.Lunix_path_BB65_600:
	movdqu	(%r14,%rdx), %xmm2
	movdqu	1(%r14,%rdx), %xmm3
	movdqu	16(%r14,%rdx), %xmm4
	movdqu	17(%r14,%rdx), %xmm5
	pand	%xmm0, %xmm3
	por	%xmm2, %xmm3
	pcmpeqb	%xmm1, %xmm3
	pand	%xmm0, %xmm5
	por	%xmm4, %xmm5
	pcmpeqb	%xmm1, %xmm5
	por	%xmm3, %xmm5
	pmovmskb	%xmm5, %esi
	testl	%esi, %esi
	jne	.Lunix_path_BB65_346
	addq	$32, %rdx
	cmpq	%rcx, %rdx
	jb	.Lunix_path_BB65_600
	jmp	.Lunix_path_BB65_689
.Lunix_path_BB65_602:
	movq	%r15, %rcx
	andq	$-32, %rcx
	leaq	(%rax,%r10), %rdx
	addq	$16, %rdx
	xorl	%esi, %esi
.Lunix_path_BB65_603:
	movdqu	(%r14,%rsi), %xmm0
	movdqu	16(%r14,%rsi), %xmm1
	movdqu	%xmm0, -16(%rdx,%rsi)
	movdqu	%xmm1, (%rdx,%rsi)
	addq	$32, %rsi
	cmpq	%rsi, %rcx
	jne	.Lunix_path_BB65_603
	cmpq	%rcx, %r15
	je	.Lunix_path_BB65_615
	testb	$28, %r15b
	je	.Lunix_path_BB65_609
.Lunix_path_BB65_606:
	movq	%rcx, %rdx
	movq	%r15, %rcx
	andq	$-4, %rcx
.Lunix_path_BB65_607:
	movl	(%r14,%rdx), %esi
	movl	%esi, (%rdi,%rdx)
	addq	$4, %rdx
	cmpq	%rdx, %rcx
	jne	.Lunix_path_BB65_607
	cmpq	%rcx, %r15
	je	.Lunix_path_BB65_615
	jmp	.Lunix_path_BB65_609
.Lunix_path_BB65_674:
	leaq	64(%rsp), %rdi
	movq	%r15, %rsi
	callq	std_alloc.vec.Vec.grow_amortized.a04925db02c9ae72.
	testb	%al, %al
	je	.Lunix_path_BB65_832
	movq	64(%rsp), %r10
	movq	72(%rsp), %rax
	movq	80(%rsp), %r9
	jmp	.Lunix_path_BB65_290
.Lunix_path_BB65_676:
	leaq	-16(%r15), %rax
	jmp	.Lunix_path_BB65_707
.Lunix_path_BB65_677:
	cmpq	$32, %r12
	ja	.Lunix_path_BB65_835
	movdqu	(%r13), %xmm0
	movdqu	1(%r13), %xmm1
	pand	.Lunix_path_CPI65_0(%rip), %xmm1
	por	%xmm0, %xmm1
	pcmpeqb	.Lunix_path_CPI65_1(%rip), %xmm1
	pmovmskb	%xmm1, %ecx
	testl	%ecx, %ecx
	jne	.Lunix_path_BB65_680
	movdqu	-17(%r13,%r12), %xmm0
	movdqu	-16(%r13,%r12), %xmm1
	pand	.Lunix_path_CPI65_0(%rip), %xmm1
	por	%xmm0, %xmm1
	pcmpeqb	.Lunix_path_CPI65_1(%rip), %xmm1
	pmovmskb	%xmm1, %ecx
	testl	%ecx, %ecx
	je	.Lunix_path_BB65_1148
.Lunix_path_BB65_680:
	cmpq	$18, %r12
	jbe	.Lunix_path_BB65_228
	movq	%r12, %rdx
	addq	$-19, %rdx
	jne	.Lunix_path_BB65_837
	xorl	%edx, %edx
	xorl	%ecx, %ecx
.Lunix_path_BB65_683:
	leaq	-17(%r12), %rsi
	cmpq	%rcx, %rsi
	cmovbq	%rsi, %rcx
	movdqu	(%r13,%rcx), %xmm0
	movdqu	1(%r13,%rcx), %xmm1
	pand	.Lunix_path_CPI65_0(%rip), %xmm1
	por	%xmm0, %xmm1
	pcmpeqb	.Lunix_path_CPI65_1(%rip), %xmm1
	pmovmskb	%xmm1, %esi
	testl	%esi, %esi
	je	.Lunix_path_BB65_1144
	movdqu	(%r13,%rdx), %xmm0
	movdqu	1(%r13,%rdx), %xmm1
	movdqu	2(%r13,%rdx), %xmm2
	movdqu	3(%r13,%rdx), %xmm3
	movdqa	.Lunix_path_CPI65_2(%rip), %xmm4
	movdqa	%xmm2, %xmm5
	pcmpeqb	%xmm4, %xmm5
	movdqa	.Lunix_path_CPI65_1(%rip), %xmm6
	pcmpeqb	%xmm6, %xmm3
	pand	%xmm5, %xmm3
	pcmpeqb	%xmm1, %xmm4
	pcmpeqb	%xmm6, %xmm2
	por	%xmm3, %xmm2
	pand	%xmm4, %xmm2
	pcmpeqb	%xmm6, %xmm0
	pcmpeqb	%xmm6, %xmm1
	por	%xmm2, %xmm1
	pand	%xmm0, %xmm1
	pmovmskb	%xmm1, %ecx
	orl	$65536, %ecx
	rep		bsfl	%ecx, %ecx
	jmp	.Lunix_path_BB65_1139
.Lunix_path_BB65_685:
	addq	$16, %rcx
.Lunix_path_BB65_686:
	cmpq	%r15, %rcx
	jb	.Lunix_path_BB65_695
	movq	%rcx, %rdx
.Lunix_path_BB65_688:
	cmpq	%r15, %rdx
	jne	.Lunix_path_BB65_702
.Lunix_path_BB65_689:
	cmpq	$15, %r15
	ja	.Lunix_path_BB65_706
	xorl	%ecx, %ecx
.Lunix_path_BB65_691:
	cmpb	$0, (%r14,%rcx)
	je	.Lunix_path_BB65_762
	incq	%rcx
	cmpq	%rcx, %r15
	jne	.Lunix_path_BB65_691
	jmp	.Lunix_path_BB65_765
.Lunix_path_BB65_693:
	cmpl	$47, %esi
	je	.Lunix_path_BB65_688
.Lunix_path_BB65_694:
	cmpq	%rcx, %r15
	je	.Lunix_path_BB65_689
.Lunix_path_BB65_695:
	movq	%rcx, %rdx
	incq	%rcx
	cmpb	$47, (%r14,%rdx)
	jne	.Lunix_path_BB65_694
	cmpq	%rcx, %r15
	jbe	.Lunix_path_BB65_688
	movzbl	1(%r14,%rdx), %esi
	cmpl	$46, %esi
	jne	.Lunix_path_BB65_693
	leaq	2(%rdx), %rsi
	cmpq	%rsi, %r15
	jbe	.Lunix_path_BB65_688
	movzbl	2(%r14,%rdx), %esi
	cmpl	$46, %esi
	jne	.Lunix_path_BB65_693
	leaq	3(%rdx), %rsi
	cmpq	%rsi, %r15
	jbe	.Lunix_path_BB65_688
	cmpb	$47, 3(%r14,%rdx)
	jne	.Lunix_path_BB65_694
	jmp	.Lunix_path_BB65_688
.Lunix_path_BB65_702:
	movb	$1, %bl
	cmpl	$47, %eax
	je	.Lunix_path_BB65_711
	cmpl	$46, %eax
	jne	.Lunix_path_BB65_710
	cmpq	$1, %r15
	je	.Lunix_path_BB65_711
	cmpb	$47, 1(%r14)
	sete	%bl
	jmp	.Lunix_path_BB65_711
.Lunix_path_BB65_706:
	movq	%r15, %rax
	addq	$-16, %rax
	je	.Lunix_path_BB65_759
.Lunix_path_BB65_707:
	xorl	%edx, %edx
.Lunix_path_BB65_708:
	movdqu	(%r14,%rdx), %xmm0
	pxor	%xmm1, %xmm1
	pcmpeqb	%xmm0, %xmm1
	pmovmskb	%xmm1, %ecx
	orl	$65536, %ecx
	rep		bsfl	%ecx, %ecx
	cmpw	$15, %cx
	jbe	.Lunix_path_BB65_761
	addq	$16, %rdx
	cmpq	%rax, %rdx
	jb	.Lunix_path_BB65_708
	jmp	.Lunix_path_BB65_760
.Lunix_path_BB65_710:
	xorl	%ebx, %ebx
.Lunix_path_BB65_711:
	movq	%r15, %rcx
	movq	%r15, %rax
	jmp	.Lunix_path_BB65_713
.Lunix_path_BB65_712:
	movq	%rax, %rcx
	testq	%rax, %rax
	je	.Lunix_path_BB65_689
.Lunix_path_BB65_713:
	decq	%rax
	je	.Lunix_path_BB65_719
	movzbl	(%r14,%rax), %edx
	cmpl	$47, %edx
	je	.Lunix_path_BB65_717
	cmpl	$46, %edx
	jne	.Lunix_path_BB65_719
	cmpb	$47, -1(%r14,%rax)
	jne	.Lunix_path_BB65_719
.Lunix_path_BB65_717:
	movq	%r15, %rcx
	subq	%rax, %rcx
	cmpq	$8, %rcx
	jne	.Lunix_path_BB65_712
	movq	%r14, %rdi
	movq	%rax, %rsi
	movq	%r11, %rbp
	callq	unix_path.filler.trimmed_blocks_len
	movq	%rbp, %r11
	jmp	.Lunix_path_BB65_712
.Lunix_path_BB65_719:
	xorl	%eax, %eax
	movq	%rcx, %rdx
	movq	%r14, %rsi
	jmp	.Lunix_path_BB65_723
.Lunix_path_BB65_720:
	xorl	%edi, %edi
.Lunix_path_BB65_721:
	addq	%r8, %rdi
.Lunix_path_BB65_722:
	addq	%rdi, %rax
	leaq	(%r14,%rax), %rsi
	xorl	%ebx, %ebx
	movq	%rcx, %rdx
	subq	%rax, %rdx
	je	.Lunix_path_BB65_689
.Lunix_path_BB65_723:
	testb	$1, %bl
	je	.Lunix_path_BB65_731
	movq	%rdx, %r8
	decq	%r8
	je	.Lunix_path_BB65_746
	leaq	-1(%rdx), %r9
	addq	$-2, %rdx
	xorl	%edi, %edi
	jmp	.Lunix_path_BB65_727
	.p2align	4
.Lunix_path_BB65_726:
	incq	%rdi
	cmpq	%rdi, %r9
	je	.Lunix_path_BB65_747
.Lunix_path_BB65_727:
	movzbl	1(%rsi,%rdi), %r10d
	cmpl	$47, %r10d
	je	.Lunix_path_BB65_726
	cmpl	$46, %r10d
	jne	.Lunix_path_BB65_748
	cmpq	%rdi, %rdx
	je	.Lunix_path_BB65_747
	cmpb	$47, 2(%rsi,%rdi)
	je	.Lunix_path_BB65_726
	jmp	.Lunix_path_BB65_748
.Lunix_path_BB65_731:
	cmpq	$1, %rdx
	je	.Lunix_path_BB65_736
	cmpb	$46, (%rsi)
	jne	.Lunix_path_BB65_736
	cmpb	$46, 1(%rsi)
	jne	.Lunix_path_BB65_736
	cmpq	$2, %rdx
	je	.Lunix_path_BB65_763
	cmpb	$47, 2(%rsi)
	je	.Lunix_path_BB65_763
.Lunix_path_BB65_736:
	cmpq	$15, %rdx
	ja	.Lunix_path_BB65_741
	xorl	%r8d, %r8d
	.p2align	4
.Lunix_path_BB65_738:
	cmpb	$47, (%rsi,%r8)
	je	.Lunix_path_BB65_751
	incq	%r8
	cmpq	%r8, %rdx
	jne	.Lunix_path_BB65_738
	movq	%rdx, %r8
	jmp	.Lunix_path_BB65_751
.Lunix_path_BB65_741:
	movq	%rdx, %rdi
	addq	$-16, %rdi
	je	.Lunix_path_BB65_745
	xorl	%r9d, %r9d
.Lunix_path_BB65_743:
	movdqu	(%rsi,%r9), %xmm0
	pcmpeqb	.Lunix_path_CPI65_1(%rip), %xmm0
	pmovmskb	%xmm0, %r8d
	orl	$65536, %r8d
	rep		bsfl	%r8d, %r8d
	cmpw	$15, %r8w
	jbe	.Lunix_path_BB65_750
	addq	$16, %r9
	cmpq	%rdi, %r9
	jb	.Lunix_path_BB65_743
.Lunix_path_BB65_745:
	movdqu	(%rsi,%rdi), %xmm0
	pcmpeqb	.Lunix_path_CPI65_1(%rip), %xmm0
	pmovmskb	%xmm0, %r8d
	orl	$65536, %r8d
	rep		bsfl	%r8d, %r8d
	addq	%rdi, %r8
	jmp	.Lunix_path_BB65_751
.Lunix_path_BB65_746:
	movl	$1, %edi
	jmp	.Lunix_path_BB65_749
.Lunix_path_BB65_747:
	movq	%r8, %rdi
.Lunix_path_BB65_748:
	incq	%rdi
.Lunix_path_BB65_749:
	cmpb	$47, (%rsi)
	jne	.Lunix_path_BB65_722
	jmp	.Lunix_path_BB65_763
.Lunix_path_BB65_750:
	movzwl	%r8w, %r8d
	addq	%r9, %r8
.Lunix_path_BB65_751:
	subq	%r8, %rdx
	je	.Lunix_path_BB65_720
	addq	%r8, %rsi
	incq	%rsi
	leaq	-1(%rdx), %r9
	xorl	%edi, %edi
	jmp	.Lunix_path_BB65_754
	.p2align	4
.Lunix_path_BB65_753:
	incq	%rdi
	cmpq	%rdi, %rdx
	je	.Lunix_path_BB65_758
.Lunix_path_BB65_754:
	movzbl	-1(%rsi,%rdi), %r10d
	cmpl	$47, %r10d
	je	.Lunix_path_BB65_753
	cmpl	$46, %r10d
	jne	.Lunix_path_BB65_721
	cmpq	%rdi, %r9
	je	.Lunix_path_BB65_758
	cmpb	$47, (%rsi,%rdi)
	je	.Lunix_path_BB65_753
	jmp	.Lunix_path_BB65_721
.Lunix_path_BB65_758:
	movq	%rdx, %rdi
	jmp	.Lunix_path_BB65_721
.Lunix_path_BB65_759:
	xorl	%eax, %eax
.Lunix_path_BB65_760:
	movdqu	(%r14,%rax), %xmm0
	pxor	%xmm1, %xmm1
	pcmpeqb	%xmm0, %xmm1
	pmovmskb	%xmm1, %ecx
	orl	$65536, %ecx
	rep		bsfl	%ecx, %ecx
	addq	%rax, %rcx
	jmp	.Lunix_path_BB65_762
.Lunix_path_BB65_761:
	movzwl	%cx, %ecx
	addq	%rdx, %rcx
.Lunix_path_BB65_762:
	cmpq	%r15, %rcx
	jae	.Lunix_path_BB65_765
.Lunix_path_BB65_763:
	pxor	%xmm0, %xmm0
.Lunix_path_BB65_764:
	xorl	%ebx, %ebx
	jmp	.Lunix_path_BB65_767
.Lunix_path_BB65_765:
	leaq	160(%rsp), %rdi
	movq	%r12, %rsi
	movq	%r11, %rdx
	movq	%r14, %rcx
	movq	%r15, %r8
	callq	unix_path.path.Path.join
	cmpb	$0, 160(%rsp)
	je	.Lunix_path_BB65_769
.Lunix_path_BB65_766:
	pxor	%xmm0, %xmm0
	movb	$1, %bl
.Lunix_path_BB65_767:
	xorl	%edx, %edx
	xorl	%ebp, %ebp
	xorl	%r13d, %r13d
.Lunix_path_BB65_768:
	movq	%xmm0, %r12
	pshufd	$238, %xmm0, %xmm0
	movq	%xmm0, %r9
	jmp	.Lunix_path_BB65_1121
.Lunix_path_BB65_769:
	movq	168(%rsp), %r13
	movdqa	176(%rsp), %xmm0
	movb	$1, %dl
.Lunix_path_BB65_770:
	xorl	%ebx, %ebx
	movb	$1, %bpl
	jmp	.Lunix_path_BB65_768
.Lunix_path_BB65_772:
	movb	$1, %al
	movq	%r10, %rcx
	subq	48(%rsp), %rcx
	ja	.Lunix_path_BB65_538
.Lunix_path_BB65_773:
	xorl	%r9d, %r9d
	xorl	%r11d, %r11d
.Lunix_path_BB65_774:
	movq	48(%rsp), %r8
	cmpq	%r8, %r10
	cmovbq	%r10, %r8
	testb	%al, %al
	je	.Lunix_path_BB65_776
	movq	%r11, %rcx
	movq	%r8, %r9
	jmp	.Lunix_path_BB65_825
.Lunix_path_BB65_776:
	movq	%r9, 16(%rsp)
	movq	%r8, 24(%rsp)
	movq	%r11, 32(%rsp)
.Lunix_path_BB65_777:
	xorl	%eax, %eax
	movq	16(%rsp), %r9
	jmp	.Lunix_path_BB65_780
.Lunix_path_BB65_778:
	incq	%rax
.Lunix_path_BB65_779:
	testq	%r13, %r13
	je	.Lunix_path_BB65_824
.Lunix_path_BB65_780:
	movq	%rbx, %rsi
	leaq	1(%rbx), %rcx
	movq	%rbx, %r13
	.p2align	4
.Lunix_path_BB65_781:
	cmpq	$15, %r13
	jbe	.Lunix_path_BB65_784
	movdqu	-16(%r12,%r13), %xmm0
	pcmpeqb	.Lunix_path_CPI65_1(%rip), %xmm0
	addq	$-16, %r13
	pmovmskb	%xmm0, %edx
	addq	$-16, %rcx
	testl	%edx, %edx
	je	.Lunix_path_BB65_781
	movzwl	%dx, %ecx
	bsrq	%rcx, %rcx
	xorq	$63, %rcx
	subq	%rcx, %r13
	addq	$64, %r13
	jmp	.Lunix_path_BB65_787
	.p2align	4
.Lunix_path_BB65_784:
	cmpq	$1, %rcx
	je	.Lunix_path_BB65_786
	leaq	-1(%rcx), %r13
	cmpb	$47, -2(%r12,%rcx)
	movq	%r13, %rcx
	jne	.Lunix_path_BB65_784
	jmp	.Lunix_path_BB65_787
.Lunix_path_BB65_786:
	xorl	%r13d, %r13d
.Lunix_path_BB65_787:
	cmpq	$1, %r13
	movq	%r13, %rbx
	adcq	$-1, %rbx
	subq	%r13, %rsi
	je	.Lunix_path_BB65_779
	leaq	(%r12,%r13), %rdi
	cmpq	$1, %rsi
	jne	.Lunix_path_BB65_790
	cmpb	$46, (%rdi)
	je	.Lunix_path_BB65_779
	jmp	.Lunix_path_BB65_793
.Lunix_path_BB65_790:
	cmpq	$2, %rsi
	ja	.Lunix_path_BB65_793
	cmpb	$46, (%rdi)
	jne	.Lunix_path_BB65_793
	cmpb	$46, 1(%rdi)
	je	.Lunix_path_BB65_778
.Lunix_path_BB65_793:
	testq	%rax, %rax
	je	.Lunix_path_BB65_795
	decq	%rax
	jmp	.Lunix_path_BB65_779
.Lunix_path_BB65_795:
	movq	%r8, 56(%rsp)
	testb	$1, %r9b
	jne	.Lunix_path_BB65_824
	xorl	%eax, %eax
	jmp	.Lunix_path_BB65_799
.Lunix_path_BB65_797:
	incq	%rax
.Lunix_path_BB65_798:
	testq	%rcx, %rcx
	je	.Lunix_path_BB65_824
.Lunix_path_BB65_799:
	movq	%rbp, %r8
	leaq	1(%rbp), %rdx
	movq	%rbp, %rcx
	.p2align	4
.Lunix_path_BB65_800:
	cmpq	$15, %rcx
	jbe	.Lunix_path_BB65_803
	movdqu	-16(%r14,%rcx), %xmm0
	pcmpeqb	.Lunix_path_CPI65_1(%rip), %xmm0
	addq	$-16, %rcx
	pmovmskb	%xmm0, %r9d
	addq	$-16, %rdx
	testl	%r9d, %r9d
	je	.Lunix_path_BB65_800
	movzwl	%r9w, %edx
	bsrq	%rdx, %rdx
	xorq	$63, %rdx
	subq	%rdx, %rcx
	addq	$64, %rcx
	jmp	.Lunix_path_BB65_806
.Lunix_path_BB65_803:
	cmpq	$1, %rdx
	je	.Lunix_path_BB65_805
	leaq	-1(%rdx), %rcx
	cmpb	$47, -2(%r14,%rdx)
	movq	%rcx, %rdx
	jne	.Lunix_path_BB65_803
	jmp	.Lunix_path_BB65_806
.Lunix_path_BB65_805:
	xorl	%ecx, %ecx
.Lunix_path_BB65_806:
	xorl	%edx, %edx
	testq	%rcx, %rcx
	setne	%dl
	sete	%r9b
	movq	%rcx, %rbp
	subq	%rdx, %rbp
	subq	%rcx, %r8
	je	.Lunix_path_BB65_798
	leaq	(%r14,%rcx), %rdx
	cmpq	$1, %r8
	jne	.Lunix_path_BB65_809
	cmpb	$46, (%rdx)
	je	.Lunix_path_BB65_798
	jmp	.Lunix_path_BB65_812
.Lunix_path_BB65_809:
	cmpq	$2, %r8
	ja	.Lunix_path_BB65_812
	cmpb	$46, (%rdx)
	jne	.Lunix_path_BB65_812
	cmpb	$46, 1(%rdx)
	je	.Lunix_path_BB65_797
.Lunix_path_BB65_812:
	testq	%rax, %rax
	je	.Lunix_path_BB65_814
	decq	%rax
	jmp	.Lunix_path_BB65_798
.Lunix_path_BB65_814:
	movq	%r9, 16(%rsp)
	movq	56(%rsp), %r9
	decq	%r9
	addq	%r8, %r11
	incq	%r11
	movq	%r11, %rcx
	movq	%r9, 56(%rsp)
	cmpq	%r8, %rsi
	jne	.Lunix_path_BB65_823
	cmpq	$3, %rsi
	ja	.Lunix_path_BB65_819
	xorl	%eax, %eax
.Lunix_path_BB65_817:
	movzbl	(%rdi,%rax), %ecx
	cmpb	(%rdx,%rax), %cl
	jne	.Lunix_path_BB65_821
	incq	%rax
	cmpq	%rax, %rsi
	jne	.Lunix_path_BB65_817
	jmp	.Lunix_path_BB65_822
.Lunix_path_BB65_819:
	movl	(%rdi), %eax
	movq	%r11, %rcx
	movq	56(%rsp), %r9
	cmpl	(%rdx), %eax
	jne	.Lunix_path_BB65_823
	movq	%r11, 272(%rsp)
	callq	core.cmp.slices.groups_equal.i8.31.core.cmp.numbers.U8PartialEq.
	movq	272(%rsp), %r11
	movq	40(%rsp), %r10
	movq	%r11, %rcx
	movq	56(%rsp), %r9
	testb	%al, %al
	jne	.Lunix_path_BB65_822
	jmp	.Lunix_path_BB65_823
.Lunix_path_BB65_821:
	movq	%r11, %rcx
	movq	56(%rsp), %r9
	cmpq	%rsi, %rax
	jb	.Lunix_path_BB65_823
.Lunix_path_BB65_822:
	movq	32(%rsp), %rcx
	movq	24(%rsp), %r9
.Lunix_path_BB65_823:
	movq	%r9, 24(%rsp)
	movq	%rcx, 32(%rsp)
	testq	%r13, %r13
	movq	56(%rsp), %r8
	jne	.Lunix_path_BB65_777
	jmp	.Lunix_path_BB65_825
.Lunix_path_BB65_824:
	movq	32(%rsp), %rcx
	movq	24(%rsp), %r9
.Lunix_path_BB65_825:
	subq	%r9, %r10
	movq	48(%rsp), %rdx
	subq	%r9, %rdx
	pxor	%xmm0, %xmm0
	movdqa	%xmm0, 176(%rsp)
	movdqa	%xmm0, 160(%rsp)
.Lunix_path_BB65_826:
	movdqa	160(%rsp), %xmm0
	movdqa	176(%rsp), %xmm1
	movdqa	%xmm0, 240(%rsp)
	movdqa	%xmm1, 256(%rsp)
	xorl	%eax, %eax
	jmp	.Lunix_path_BB65_1111
.Lunix_path_BB65_828:
	movq	%r9, %rsi
	cmpq	$32, %r15
	jae	.Lunix_path_BB65_871
	xorl	%eax, %eax
	jmp	.Lunix_path_BB65_875
.Lunix_path_BB65_830:
	movq	1(%r13), %xmm0
	pand	.Lunix_path_CPI65_3(%rip), %xmm0
	pcmpeqb	.Lunix_path_CPI65_4(%rip), %xmm0
	movq	(%r13), %xmm1
	pcmpeqb	.Lunix_path_CPI65_5(%rip), %xmm1
	pand	%xmm0, %xmm1
	pmovmskb	%xmm1, %ecx
	orl	$256, %ecx
	rep		bsfl	%ecx, %ecx
	cmpb	$8, %cl
	jb	.Lunix_path_BB65_1145
	cmpq	$17, %r12
	movl	$17, %ecx
	cmovbq	%r12, %rcx
	movq	-8(%r13,%rcx), %xmm0
	pand	.Lunix_path_CPI65_3(%rip), %xmm0
	pcmpeqb	.Lunix_path_CPI65_4(%rip), %xmm0
	movq	-9(%r13,%rcx), %xmm1
	pcmpeqb	.Lunix_path_CPI65_5(%rip), %xmm1
	pand	%xmm0, %xmm1
	pmovmskb	%xmm1, %edx
	orl	$256, %edx
	rep		bsfl	%edx, %edx
	addq	%rdx, %rcx
	addq	$-9, %rcx
	jmp	.Lunix_path_BB65_1145
.Lunix_path_BB65_832:
	cmpq	$0, 80(%rsp)
	je	.Lunix_path_BB65_834
	movq	64(%rsp), %rdi
	callq	rattle_dealloc@PLT
.Lunix_path_BB65_834:
	movq	280(%rsp), %rax
	movb	$1, (%rax)
	pxor	%xmm0, %xmm0
	movdqu	%xmm0, 8(%rax)
	movdqu	%xmm0, 24(%rax)
	movq	$0, 40(%rax)
	jmp	.Lunix_path_BB65_1122
.Lunix_path_BB65_835:
	movdqa	.Lunix_path_CPI65_0(%rip), %xmm0
	movdqu	-33(%r13,%r12), %xmm1
	movdqu	-32(%r13,%r12), %xmm2
	movdqu	-17(%r13,%r12), %xmm3
	movdqu	-16(%r13,%r12), %xmm4
	pand	%xmm0, %xmm2
	por	%xmm1, %xmm2
	movdqa	.Lunix_path_CPI65_1(%rip), %xmm1
	pcmpeqb	%xmm1, %xmm2
	pand	%xmm0, %xmm4
	por	%xmm3, %xmm4
	pcmpeqb	%xmm1, %xmm4
	por	%xmm2, %xmm4
	pmovmskb	%xmm4, %ecx
	testl	%ecx, %ecx
	je	.Lunix_path_BB65_1140
	leaq	-19(%r12), %rdx
.Lunix_path_BB65_837:
	xorl	%ecx, %ecx
	jmp	.Lunix_path_BB65_839
.Lunix_path_BB65_838:
	cmpq	%rdx, %rcx
	jae	.Lunix_path_BB65_683
.Lunix_path_BB65_839:
	movdqu	(%r13,%rcx), %xmm0
	movdqu	1(%r13,%rcx), %xmm1
	movdqa	.Lunix_path_CPI65_0(%rip), %xmm2
	pand	%xmm1, %xmm2
	por	%xmm0, %xmm2
	pcmpeqb	.Lunix_path_CPI65_1(%rip), %xmm2
	pmovmskb	%xmm2, %esi
	testl	%esi, %esi
	je	.Lunix_path_BB65_842
	movdqu	2(%r13,%rcx), %xmm2
	movdqu	3(%r13,%rcx), %xmm3
	movdqa	.Lunix_path_CPI65_2(%rip), %xmm4
	movdqa	%xmm2, %xmm5
	pcmpeqb	%xmm4, %xmm5
	movdqa	.Lunix_path_CPI65_1(%rip), %xmm6
	pcmpeqb	%xmm6, %xmm3
	pand	%xmm5, %xmm3
	pcmpeqb	%xmm1, %xmm4
	pcmpeqb	%xmm6, %xmm2
	por	%xmm3, %xmm2
	pand	%xmm4, %xmm2
	pcmpeqb	%xmm6, %xmm0
	pcmpeqb	%xmm6, %xmm1
	por	%xmm2, %xmm1
	pand	%xmm0, %xmm1
	pmovmskb	%xmm1, %esi
	orl	$65536, %esi
	rep		bsfl	%esi, %esi
	cmpw	$15, %si
	jbe	.Lunix_path_BB65_1138
	addq	$16, %rcx
	jmp	.Lunix_path_BB65_838
.Lunix_path_BB65_842:
	addq	$16, %rcx
	cmpq	%rdx, %rcx
	jb	.Lunix_path_BB65_839
	jmp	.Lunix_path_BB65_838
.Lunix_path_BB65_843:
	movzbl	2(%r12), %edx
	movl	$2, %ecx
	cmpb	2(%r14), %dl
	jne	.Lunix_path_BB65_447
	cmpq	$3, %rax
	jne	.Lunix_path_BB65_1244
.Lunix_path_BB65_845:
	movq	%rax, %rcx
	movq	16(%rsp), %r8
	jmp	.Lunix_path_BB65_447
.Lunix_path_BB65_846:
	cmpb	$47, 2(%rax)
	je	.Lunix_path_BB65_261
.Lunix_path_BB65_848:
	movzbl	-1(%r14,%r15), %esi
	andb	$-2, %sil
	cmpb	$46, %sil
	je	.Lunix_path_BB65_261
	cmpq	$17, %rcx
	jae	.Lunix_path_BB65_853
.Lunix_path_BB65_851:
	cmpq	$9, %rcx
	jae	.Lunix_path_BB65_861
	xorl	%esi, %esi
	jmp	.Lunix_path_BB65_1124
.Lunix_path_BB65_853:
	cmpq	$32, %rcx
	ja	.Lunix_path_BB65_863
	movdqu	(%rax), %xmm0
	movdqu	1(%rax), %xmm1
	pand	.Lunix_path_CPI65_0(%rip), %xmm1
	por	%xmm0, %xmm1
	pcmpeqb	.Lunix_path_CPI65_1(%rip), %xmm1
	pmovmskb	%xmm1, %esi
	testl	%esi, %esi
	jne	.Lunix_path_BB65_856
	movdqu	-17(%r14,%r15), %xmm0
	movdqu	-16(%r14,%r15), %xmm1
	pand	.Lunix_path_CPI65_0(%rip), %xmm1
	por	%xmm0, %xmm1
	pcmpeqb	.Lunix_path_CPI65_1(%rip), %xmm1
	pmovmskb	%xmm1, %esi
	testl	%esi, %esi
	je	.Lunix_path_BB65_1251
.Lunix_path_BB65_856:
	cmpq	$18, %rcx
	jbe	.Lunix_path_BB65_851
	movq	%rcx, %rdi
	addq	$-19, %rdi
	jne	.Lunix_path_BB65_865
	xorl	%edi, %edi
	xorl	%esi, %esi
.Lunix_path_BB65_859:
	leaq	-17(%rcx), %r8
	cmpq	%rsi, %r8
	cmovbq	%r8, %rsi
	movdqu	(%rax,%rsi), %xmm0
	movdqu	1(%rax,%rsi), %xmm1
	pand	.Lunix_path_CPI65_0(%rip), %xmm1
	por	%xmm0, %xmm1
	pcmpeqb	.Lunix_path_CPI65_1(%rip), %xmm1
	pmovmskb	%xmm1, %r8d
	testl	%r8d, %r8d
	je	.Lunix_path_BB65_1123
	movdqu	(%rax,%rdi), %xmm0
	movdqu	1(%rax,%rdi), %xmm1
	movdqu	2(%rax,%rdi), %xmm2
	movdqu	3(%rax,%rdi), %xmm3
	movdqa	.Lunix_path_CPI65_2(%rip), %xmm4
	movdqa	%xmm2, %xmm5
	pcmpeqb	%xmm4, %xmm5
	movdqa	.Lunix_path_CPI65_1(%rip), %xmm6
	pcmpeqb	%xmm6, %xmm3
	pand	%xmm5, %xmm3
	pcmpeqb	%xmm1, %xmm4
	pcmpeqb	%xmm6, %xmm2
	por	%xmm3, %xmm2
	pand	%xmm4, %xmm2
	pcmpeqb	%xmm6, %xmm0
	pcmpeqb	%xmm6, %xmm1
	por	%xmm2, %xmm1
	pand	%xmm0, %xmm1
	pmovmskb	%xmm1, %esi
	orl	$65536, %esi
	rep		bsfl	%esi, %esi
	jmp	.Lunix_path_BB65_892
.Lunix_path_BB65_861:
	movq	1(%rax), %xmm0
	pand	.Lunix_path_CPI65_3(%rip), %xmm0
	pcmpeqb	.Lunix_path_CPI65_4(%rip), %xmm0
	movq	(%rax), %xmm1
	pcmpeqb	.Lunix_path_CPI65_5(%rip), %xmm1
	pand	%xmm0, %xmm1
	pmovmskb	%xmm1, %esi
	orl	$256, %esi
	rep		bsfl	%esi, %esi
	cmpb	$8, %sil
	jb	.Lunix_path_BB65_1124
	cmpq	$17, %rcx
	movl	$17, %esi
	cmovbq	%rcx, %rsi
	movq	-8(%rax,%rsi), %xmm0
	pand	.Lunix_path_CPI65_3(%rip), %xmm0
	pcmpeqb	.Lunix_path_CPI65_4(%rip), %xmm0
	movq	-9(%rax,%rsi), %xmm1
	pcmpeqb	.Lunix_path_CPI65_5(%rip), %xmm1
	pand	%xmm0, %xmm1
	pmovmskb	%xmm1, %edi
	orl	$256, %edi
	rep		bsfl	%edi, %edi
	addq	%rdi, %rsi
	addq	$-9, %rsi
	jmp	.Lunix_path_BB65_1124
.Lunix_path_BB65_863:
	movdqu	-33(%rax,%rcx), %xmm1
	movdqu	-32(%rax,%rcx), %xmm2
	movdqa	.Lunix_path_CPI65_0(%rip), %xmm0
	pand	%xmm0, %xmm2
	por	%xmm1, %xmm2
	movdqa	.Lunix_path_CPI65_1(%rip), %xmm1
	pcmpeqb	%xmm1, %xmm2
	movdqu	-17(%r14,%r15), %xmm3
	movdqu	-16(%r14,%r15), %xmm4
	pand	%xmm0, %xmm4
	por	%xmm3, %xmm4
	pcmpeqb	%xmm1, %xmm4
	por	%xmm2, %xmm4
	pmovmskb	%xmm4, %esi
	testl	%esi, %esi
	je	.Lunix_path_BB65_893
	leaq	-19(%rcx), %rdi
.Lunix_path_BB65_865:
	xorl	%esi, %esi
	jmp	.Lunix_path_BB65_867
.Lunix_path_BB65_866:
	cmpq	%rdi, %rsi
	jae	.Lunix_path_BB65_859
.Lunix_path_BB65_867:
	movdqu	(%rax,%rsi), %xmm0
	movdqu	1(%rax,%rsi), %xmm1
	movdqa	.Lunix_path_CPI65_0(%rip), %xmm2
	pand	%xmm1, %xmm2
	por	%xmm0, %xmm2
	pcmpeqb	.Lunix_path_CPI65_1(%rip), %xmm2
	pmovmskb	%xmm2, %r8d
	testl	%r8d, %r8d
	je	.Lunix_path_BB65_870
	movdqu	2(%rax,%rsi), %xmm2
	movdqu	3(%rax,%rsi), %xmm3
	movdqa	.Lunix_path_CPI65_2(%rip), %xmm4
	movdqa	%xmm2, %xmm5
	pcmpeqb	%xmm4, %xmm5
	movdqa	.Lunix_path_CPI65_1(%rip), %xmm6
	pcmpeqb	%xmm6, %xmm3
	pand	%xmm5, %xmm3
	pcmpeqb	%xmm1, %xmm4
	pcmpeqb	%xmm6, %xmm2
	por	%xmm3, %xmm2
	pand	%xmm4, %xmm2
	pcmpeqb	%xmm6, %xmm0
	pcmpeqb	%xmm6, %xmm1
	por	%xmm2, %xmm1
	pand	%xmm0, %xmm1
	pmovmskb	%xmm1, %r8d
	orl	$65536, %r8d
	rep		bsfl	%r8d, %r8d
	cmpw	$15, %r8w
	jbe	.Lunix_path_BB65_891
	addq	$16, %rsi
	jmp	.Lunix_path_BB65_866
.Lunix_path_BB65_870:
	addq	$16, %rsi
	cmpq	%rdi, %rsi
	jb	.Lunix_path_BB65_867
	jmp	.Lunix_path_BB65_866
.Lunix_path_BB65_871:
	movq	%r15, %rax
	andq	$-32, %rax
	leaq	(%r12,%r13), %rcx
	addq	$16, %rcx
	xorl	%edx, %edx
.Lunix_path_BB65_872:
	movdqu	(%r14,%rdx), %xmm0
	movdqu	16(%r14,%rdx), %xmm1
	movdqu	%xmm0, -16(%rcx,%rdx)
	movdqu	%xmm1, (%rcx,%rdx)
	addq	$32, %rdx
	cmpq	%rdx, %rax
	jne	.Lunix_path_BB65_872
	cmpq	%rax, %r15
	movq	%rsi, %r9
	je	.Lunix_path_BB65_884
	testb	$28, %r15b
	je	.Lunix_path_BB65_878
.Lunix_path_BB65_875:
	movq	%rax, %rcx
	movq	%r15, %rax
	andq	$-4, %rax
.Lunix_path_BB65_876:
	movl	(%r14,%rcx), %edx
	movl	%edx, (%rdi,%rcx)
	addq	$4, %rcx
	cmpq	%rcx, %rax
	jne	.Lunix_path_BB65_876
	cmpq	%rax, %r15
	movq	%rsi, %r9
	je	.Lunix_path_BB65_884
	jmp	.Lunix_path_BB65_878
.Lunix_path_BB65_885:
	leaq	64(%rsp), %rdi
	movl	$1, %esi
	callq	std_alloc.vec.Vec.grow_amortized.f4a78633ca2a48c6.
	testb	%al, %al
	je	.Lunix_path_BB65_889
	movq	64(%rsp), %r13
	movq	72(%rsp), %r12
	movq	80(%rsp), %r9
	jmp	.Lunix_path_BB65_498
.Lunix_path_BB65_887:
	leaq	64(%rsp), %rdi
	movq	%r15, %rsi
	callq	std_alloc.vec.Vec.grow_amortized.f4a78633ca2a48c6.
	testb	%al, %al
	je	.Lunix_path_BB65_889
	movq	64(%rsp), %r13
	movq	72(%rsp), %r12
	movq	80(%rsp), %r9
	jmp	.Lunix_path_BB65_499
.Lunix_path_BB65_889:
	cmpq	$0, 80(%rsp)
	je	.Lunix_path_BB65_1112
	movq	64(%rsp), %rdi
	callq	rattle_dealloc@PLT
	movb	$1, %bl
	jmp	.Lunix_path_BB65_2
.Lunix_path_BB65_891:
	movzwl	%r8w, %edi
.Lunix_path_BB65_892:
	addq	%rdi, %rsi
	jmp	.Lunix_path_BB65_1124
.Lunix_path_BB65_893:
	movq	%rcx, %rdi
	movb	$1, %sil
	addq	$-33, %rdi
	je	.Lunix_path_BB65_1252
	leaq	(%r14,%rdx), %r8
	addq	$17, %r8
	xorl	%r9d, %r9d
.Lunix_path_BB65_895:
	movdqu	-17(%r8,%r9), %xmm2
	movdqu	-16(%r8,%r9), %xmm3
	movdqu	-1(%r8,%r9), %xmm4
	movdqu	(%r8,%r9), %xmm5
	pand	%xmm0, %xmm3
	por	%xmm2, %xmm3
	pcmpeqb	%xmm1, %xmm3
	pand	%xmm0, %xmm5
	por	%xmm4, %xmm5
	pcmpeqb	%xmm1, %xmm5
	por	%xmm3, %xmm5
	pmovmskb	%xmm5, %r10d
	testl	%r10d, %r10d
	jne	.Lunix_path_BB65_856
	addq	$32, %r9
	cmpq	%rdi, %r9
	jb	.Lunix_path_BB65_895
	jmp	.Lunix_path_BB65_262
.Lunix_path_BB65_897:
	movq	16(%rsp), %r8
	leaq	(%r12,%r13), %rbp
	subq	%r13, %r8
	jne	.Lunix_path_BB65_473
.Lunix_path_BB65_898:
	movq	$0, 32(%rsp)
.Lunix_path_BB65_899:
	movq	$0, 40(%rsp)
.Lunix_path_BB65_900:
	leaq	(%r14,%r13), %rbx
	subq	%r13, %r15
	movq	%rbp, 16(%rsp)
	movq	%rbx, 56(%rsp)
	je	.Lunix_path_BB65_905
	movzbl	(%rbx), %eax
	cmpl	$47, %eax
	je	.Lunix_path_BB65_906
	cmpl	$46, %eax
	jne	.Lunix_path_BB65_907
	cmpq	$1, %r15
	jne	.Lunix_path_BB65_908
.Lunix_path_BB65_906:
	xorl	%r8d, %r8d
	jmp	.Lunix_path_BB65_909
.Lunix_path_BB65_905:
	movq	$0, 24(%rsp)
	movb	$1, %r8b
	jmp	.Lunix_path_BB65_919
.Lunix_path_BB65_907:
	movb	$1, %r8b
	jmp	.Lunix_path_BB65_909
.Lunix_path_BB65_908:
	cmpb	$47, 1(%rbx)
	setne	%r8b
.Lunix_path_BB65_909:
	movq	%r15, %rax
	movq	%r15, 24(%rsp)
	jmp	.Lunix_path_BB65_911
.Lunix_path_BB65_910:
	movq	%rax, 24(%rsp)
	testq	%rax, %rax
	je	.Lunix_path_BB65_918
.Lunix_path_BB65_911:
	decq	%rax
	je	.Lunix_path_BB65_917
	movzbl	(%rbx,%rax), %ecx
	cmpl	$47, %ecx
	je	.Lunix_path_BB65_915
	cmpl	$46, %ecx
	jne	.Lunix_path_BB65_919
	cmpb	$47, -1(%rbx,%rax)
	jne	.Lunix_path_BB65_919
.Lunix_path_BB65_915:
	movq	%r15, %rcx
	subq	%rax, %rcx
	cmpq	$8, %rcx
	jne	.Lunix_path_BB65_910
	movq	%rbx, %rdi
	movq	%rax, %rsi
	movl	%r8d, %ebp
	callq	unix_path.filler.trimmed_blocks_len
	movl	%ebp, %r8d
	jmp	.Lunix_path_BB65_910
.Lunix_path_BB65_917:
	movl	$1, %eax
	movq	%rax, 24(%rsp)
	jmp	.Lunix_path_BB65_919
.Lunix_path_BB65_918:
	movq	$0, 24(%rsp)
.Lunix_path_BB65_919:
	leaq	(%r12,%r13), %rax
	addq	$2, %rax
	movq	%rax, 368(%rsp)
	leaq	1(%r12,%r13), %rax
	movq	%rax, 360(%rsp)
	leaq	3(%r12,%r13), %rax
	movq	%rax, 344(%rsp)
	leaq	2(%r14,%r13), %rax
	movq	%rax, 272(%rsp)
	leaq	1(%r14,%r13), %rax
	movq	%rax, 376(%rsp)
	leaq	(%r14,%r13), %rax
	addq	$3, %rax
	movq	%rax, 352(%rsp)
	xorl	%r12d, %r12d
	xorl	%ecx, %ecx
.Lunix_path_BB65_920:
	movq	%r12, %rbp
	movq	16(%rsp), %r10
	leaq	(%r10,%r12), %r9
	movq	40(%rsp), %rbx
	subq	%r12, %rbx
	movq	%r12, 48(%rsp)
	je	.Lunix_path_BB65_928
	testl	$256, 32(%rsp)
	movq	56(%rsp), %r11
	jne	.Lunix_path_BB65_929
	cmpq	$1, %rbx
	je	.Lunix_path_BB65_943
	cmpb	$46, (%r9)
	jne	.Lunix_path_BB65_943
	cmpb	$46, 1(%r9)
	jne	.Lunix_path_BB65_943
	cmpq	$2, %rbx
	jne	.Lunix_path_BB65_941
	leaq	(%r11,%rcx), %r14
	xorl	%eax, %eax
	movq	24(%rsp), %r13
	subq	%rcx, %r13
	je	.Lunix_path_BB65_1044
	leaq	2(%rbp), %r12
	movb	$2, %r15b
	movq	$0, 32(%rsp)
	xorl	%edi, %edi
	jmp	.Lunix_path_BB65_972
.Lunix_path_BB65_928:
	movq	56(%rsp), %r11
	leaq	(%r11,%rcx), %r14
	xorl	%r15d, %r15d
	movq	24(%rsp), %r13
	movl	$0, %eax
	movq	%rbp, %r12
	movl	$0, %edi
	movl	$0, %edx
	subq	%rcx, %r13
	jne	.Lunix_path_BB65_972
	jmp	.Lunix_path_BB65_1107
.Lunix_path_BB65_929:
	movq	%rbx, %rax
	decq	%rax
	je	.Lunix_path_BB65_936
	movl	%r8d, %r14d
	leaq	-1(%rbx), %rdx
	movq	368(%rsp), %rsi
	addq	%rbp, %rsi
	leaq	-2(%rbx), %rdi
	xorl	%r12d, %r12d
	jmp	.Lunix_path_BB65_932
.Lunix_path_BB65_931:
	incq	%r12
	cmpq	%r12, %rdx
	je	.Lunix_path_BB65_937
.Lunix_path_BB65_932:
	movzbl	-1(%rsi,%r12), %r8d
	cmpl	$47, %r8d
	je	.Lunix_path_BB65_931
	cmpl	$46, %r8d
	jne	.Lunix_path_BB65_938
	cmpq	%r12, %rdi
	je	.Lunix_path_BB65_937
	cmpb	$47, (%rsi,%r12)
	je	.Lunix_path_BB65_931
	jmp	.Lunix_path_BB65_938
.Lunix_path_BB65_936:
	movl	$1, %r12d
	jmp	.Lunix_path_BB65_939
.Lunix_path_BB65_937:
	movq	%rax, %r12
.Lunix_path_BB65_938:
	incq	%r12
	movl	%r14d, %r8d
.Lunix_path_BB65_939:
	cmpb	$47, (%r9)
	setne	%r15b
.Lunix_path_BB65_940:
	xorl	%edi, %edi
	xorl	%eax, %eax
	jmp	.Lunix_path_BB65_970
.Lunix_path_BB65_941:
	cmpb	$47, 2(%r9)
	jne	.Lunix_path_BB65_943
	leaq	-2(%rbx), %rax
	movq	344(%rsp), %rdx
	addq	%rbp, %rdx
	leaq	-3(%rbx), %rsi
	xorl	%r12d, %r12d
	jmp	.Lunix_path_BB65_949
.Lunix_path_BB65_943:
	cmpq	$15, %rbx
	ja	.Lunix_path_BB65_953
	xorl	%eax, %eax
.Lunix_path_BB65_945:
	cmpb	$47, (%r9,%rax)
	je	.Lunix_path_BB65_959
	incq	%rax
	cmpq	%rax, %rbx
	jne	.Lunix_path_BB65_945
	movq	%rbx, %rax
	jmp	.Lunix_path_BB65_959
.Lunix_path_BB65_948:
	incq	%r12
	cmpq	%r12, %rax
	je	.Lunix_path_BB65_1041
.Lunix_path_BB65_949:
	movzbl	-1(%rdx,%r12), %edi
	cmpl	$47, %edi
	je	.Lunix_path_BB65_948
	cmpl	$46, %edi
	jne	.Lunix_path_BB65_1042
	cmpq	%r12, %rsi
	je	.Lunix_path_BB65_1041
	cmpb	$47, (%rdx,%r12)
	je	.Lunix_path_BB65_948
	jmp	.Lunix_path_BB65_1042
.Lunix_path_BB65_953:
	movq	%rbx, %rdx
	addq	$-16, %rdx
	je	.Lunix_path_BB65_957
	xorl	%esi, %esi
.Lunix_path_BB65_955:
	movdqu	(%r9,%rsi), %xmm0
	pcmpeqb	.Lunix_path_CPI65_1(%rip), %xmm0
	pmovmskb	%xmm0, %eax
	orl	$65536, %eax
	rep		bsfl	%eax, %eax
	cmpw	$15, %ax
	jbe	.Lunix_path_BB65_958
	addq	$16, %rsi
	cmpq	%rdx, %rsi
	jb	.Lunix_path_BB65_955
.Lunix_path_BB65_957:
	movdqu	(%r9,%rdx), %xmm0
	pcmpeqb	.Lunix_path_CPI65_1(%rip), %xmm0
	pmovmskb	%xmm0, %eax
	orl	$65536, %eax
	rep		bsfl	%eax, %eax
	addq	%rdx, %rax
	jmp	.Lunix_path_BB65_959
.Lunix_path_BB65_958:
	movzwl	%ax, %eax
	addq	%rsi, %rax
.Lunix_path_BB65_959:
	movq	%rbx, %rdx
	subq	%rax, %rdx
	je	.Lunix_path_BB65_966
	movl	%r8d, %r9d
	leaq	(%rax,%rbp), %rsi
	addq	360(%rsp), %rsi
	leaq	-1(%rdx), %rdi
	xorl	%r12d, %r12d
	jmp	.Lunix_path_BB65_962
.Lunix_path_BB65_961:
	incq	%r12
	cmpq	%r12, %rdx
	je	.Lunix_path_BB65_967
.Lunix_path_BB65_962:
	movzbl	-1(%rsi,%r12), %r8d
	cmpl	$47, %r8d
	je	.Lunix_path_BB65_961
	cmpl	$46, %r8d
	jne	.Lunix_path_BB65_968
	cmpq	%r12, %rdi
	je	.Lunix_path_BB65_967
	cmpb	$47, (%rsi,%r12)
	je	.Lunix_path_BB65_961
	jmp	.Lunix_path_BB65_968
.Lunix_path_BB65_966:
	xorl	%r12d, %r12d
	jmp	.Lunix_path_BB65_969
.Lunix_path_BB65_967:
	movq	%rdx, %r12
.Lunix_path_BB65_968:
	movl	%r9d, %r8d
.Lunix_path_BB65_969:
	addq	%rax, %r12
	movb	$3, %r15b
	leaq	(%r10,%rbp), %rdi
.Lunix_path_BB65_970:
	leaq	(%r11,%rcx), %r14
	movq	$0, 32(%rsp)
	movq	24(%rsp), %r13
	subq	%rcx, %r13
	je	.Lunix_path_BB65_1044
	addq	%rbp, %r12
.Lunix_path_BB65_972:
	testb	$1, %r8b
	je	.Lunix_path_BB65_978
	cmpq	$1, %r13
	je	.Lunix_path_BB65_992
	cmpb	$46, (%r14)
	jne	.Lunix_path_BB65_992
	cmpb	$46, 1(%r11,%rcx)
	jne	.Lunix_path_BB65_992
	movb	$2, %r10b
	cmpq	$2, %r13
	jne	.Lunix_path_BB65_990
	movl	$2, %ebp
	jmp	.Lunix_path_BB65_989
.Lunix_path_BB65_978:
	movq	%r13, %rdx
	decq	%rdx
	je	.Lunix_path_BB65_985
	leaq	-1(%r13), %rsi
	movq	272(%rsp), %r8
	addq	%rcx, %r8
	leaq	-2(%r13), %r9
	xorl	%ebp, %ebp
	jmp	.Lunix_path_BB65_981
.Lunix_path_BB65_980:
	incq	%rbp
	cmpq	%rbp, %rsi
	je	.Lunix_path_BB65_986
.Lunix_path_BB65_981:
	movzbl	-1(%r8,%rbp), %r10d
	cmpl	$47, %r10d
	je	.Lunix_path_BB65_980
	cmpl	$46, %r10d
	jne	.Lunix_path_BB65_987
	cmpq	%rbp, %r9
	je	.Lunix_path_BB65_986
	cmpb	$47, (%r8,%rbp)
	je	.Lunix_path_BB65_980
	jmp	.Lunix_path_BB65_987
.Lunix_path_BB65_985:
	movl	$1, %ebp
	jmp	.Lunix_path_BB65_988
.Lunix_path_BB65_986:
	movq	%rdx, %rbp
.Lunix_path_BB65_987:
	incq	%rbp
.Lunix_path_BB65_988:
	cmpb	$47, (%r14)
	setne	%r10b
.Lunix_path_BB65_989:
	xorl	%r9d, %r9d
	xorl	%r8d, %r8d
	jmp	.Lunix_path_BB65_1018
.Lunix_path_BB65_990:
	cmpb	$47, 2(%r11,%rcx)
	jne	.Lunix_path_BB65_992
	leaq	-2(%r13), %rdx
	movq	352(%rsp), %rsi
	addq	%rcx, %rsi
	leaq	-3(%r13), %r8
	xorl	%ebp, %ebp
	jmp	.Lunix_path_BB65_998
.Lunix_path_BB65_992:
	cmpq	$15, %r13
	ja	.Lunix_path_BB65_1002
	leaq	(%r11,%rcx), %rdx
	xorl	%r8d, %r8d
.Lunix_path_BB65_994:
	cmpb	$47, (%rdx,%r8)
	je	.Lunix_path_BB65_1008
	incq	%r8
	cmpq	%r8, %r13
	jne	.Lunix_path_BB65_994
	movq	%r13, %r8
	jmp	.Lunix_path_BB65_1008
.Lunix_path_BB65_997:
	incq	%rbp
	cmpq	%rbp, %rdx
	je	.Lunix_path_BB65_1039
.Lunix_path_BB65_998:
	movzbl	-1(%rsi,%rbp), %r9d
	cmpl	$47, %r9d
	je	.Lunix_path_BB65_997
	cmpl	$46, %r9d
	jne	.Lunix_path_BB65_1040
	cmpq	%rbp, %r8
	je	.Lunix_path_BB65_1039
	cmpb	$47, (%rsi,%rbp)
	je	.Lunix_path_BB65_997
	jmp	.Lunix_path_BB65_1040
.Lunix_path_BB65_1002:
	movq	%r13, %rdx
	addq	$-16, %rdx
	je	.Lunix_path_BB65_1006
	leaq	(%r11,%rcx), %r8
	xorl	%esi, %esi
.Lunix_path_BB65_1004:
	movdqu	(%r8,%rsi), %xmm0
	pcmpeqb	.Lunix_path_CPI65_1(%rip), %xmm0
	pmovmskb	%xmm0, %r9d
	orl	$65536, %r9d
	rep		bsfl	%r9d, %r9d
	cmpw	$15, %r9w
	jbe	.Lunix_path_BB65_1007
	addq	$16, %rsi
	cmpq	%rdx, %rsi
	jb	.Lunix_path_BB65_1004
.Lunix_path_BB65_1006:
	leaq	(%r11,%rcx), %rsi
	movdqu	(%rdx,%rsi), %xmm0
	pcmpeqb	.Lunix_path_CPI65_1(%rip), %xmm0
	pmovmskb	%xmm0, %esi
	orl	$65536, %esi
	rep		bsfl	%esi, %r8d
	addq	%rdx, %r8
	jmp	.Lunix_path_BB65_1008
.Lunix_path_BB65_1007:
	movzwl	%r9w, %r8d
	addq	%rsi, %r8
.Lunix_path_BB65_1008:
	movq	%r13, %rdx
	subq	%r8, %rdx
	je	.Lunix_path_BB65_1015
	leaq	(%r8,%rcx), %rsi
	addq	376(%rsp), %rsi
	leaq	-1(%rdx), %r9
	xorl	%ebp, %ebp
	jmp	.Lunix_path_BB65_1011
.Lunix_path_BB65_1010:
	incq	%rbp
	cmpq	%rbp, %rdx
	je	.Lunix_path_BB65_1016
.Lunix_path_BB65_1011:
	movzbl	-1(%rsi,%rbp), %r10d
	cmpl	$47, %r10d
	je	.Lunix_path_BB65_1010
	cmpl	$46, %r10d
	jne	.Lunix_path_BB65_1017
	cmpq	%rbp, %r9
	je	.Lunix_path_BB65_1016
	cmpb	$47, (%rsi,%rbp)
	je	.Lunix_path_BB65_1010
	jmp	.Lunix_path_BB65_1017
.Lunix_path_BB65_1015:
	xorl	%ebp, %ebp
	jmp	.Lunix_path_BB65_1017
.Lunix_path_BB65_1016:
	movq	%rdx, %rbp
.Lunix_path_BB65_1017:
	addq	%r8, %rbp
	movb	$3, %r10b
	movq	%r14, %r9
.Lunix_path_BB65_1018:
	testq	%rbx, %rbx
	je	.Lunix_path_BB65_1058
	movl	$1, %esi
	movzbl	%r15b, %edx
	leaq	.Lunix_path_JTI65_1(%rip), %r11
	movslq	(%r11,%rdx,4), %rdx
	addq	%r11, %rdx
	jmpq	*%rdx
.Lunix_path_BB65_1020:
	leaq	.Lunix_path_static.82(%rip), %rdi
	movl	$1, %r11d
	leaq	.Lunix_path_static.82(%rip), %rdx
	movzbl	%r10b, %eax
	leaq	.Lunix_path_JTI65_2(%rip), %r10
	movslq	(%r10,%rax,4), %rax
	addq	%r10, %rax
	jmpq	*%rax
.Lunix_path_BB65_1021:
	movl	$2, %esi
	leaq	.Lunix_path_static.83(%rip), %rdi
	movl	$1, %r11d
	leaq	.Lunix_path_static.82(%rip), %rdx
	movzbl	%r10b, %eax
	leaq	.Lunix_path_JTI65_2(%rip), %r10
	movslq	(%r10,%rax,4), %rax
	addq	%r10, %rax
	jmpq	*%rax
.Lunix_path_BB65_1022:
	movl	$1, %r11d
	leaq	.Lunix_path_static.82(%rip), %rdx
	movzbl	%r10b, %esi
	leaq	.Lunix_path_JTI65_2(%rip), %r10
	movslq	(%r10,%rsi,4), %r15
	addq	%r10, %r15
	movq	%rax, %rsi
	jmpq	*%r15
.Lunix_path_BB65_1023:
	leaq	.Lunix_path_static.53(%rip), %rdi
	movl	$1, %r11d
	leaq	.Lunix_path_static.82(%rip), %rdx
	movzbl	%r10b, %eax
	leaq	.Lunix_path_JTI65_2(%rip), %r10
	movslq	(%r10,%rax,4), %rax
	addq	%r10, %rax
	jmpq	*%rax
.Lunix_path_BB65_1024:
	leaq	.Lunix_path_static.53(%rip), %rdx
	jmp	.Lunix_path_BB65_1027
.Lunix_path_BB65_1025:
	movl	$2, %r11d
	leaq	.Lunix_path_static.83(%rip), %rdx
	jmp	.Lunix_path_BB65_1027
.Lunix_path_BB65_1026:
	movq	%r9, %rdx
	movq	%r8, %r11
.Lunix_path_BB65_1027:
	cmpq	%r11, %rsi
	jne	.Lunix_path_BB65_1043
	addq	%rcx, %rbp
	cmpq	$4, %rsi
	movq	16(%rsp), %rax
	movq	48(%rsp), %rcx
	leaq	(%rax,%rcx), %r15
	jae	.Lunix_path_BB65_1035
	movb	$1, %r8b
	movq	%rbp, %rcx
	testq	%rsi, %rsi
	je	.Lunix_path_BB65_920
	movzbl	(%rdi), %eax
	cmpb	(%rdx), %al
	jne	.Lunix_path_BB65_1037
	movq	%rbp, %rcx
	cmpq	$1, %rsi
	je	.Lunix_path_BB65_920
	movzbl	1(%rdi), %ecx
	movl	$1, %eax
	cmpb	1(%rdx), %cl
	jne	.Lunix_path_BB65_1038
	movq	%rbp, %rcx
	cmpq	$2, %rsi
	je	.Lunix_path_BB65_920
	movzbl	2(%rdi), %edi
	movl	$2, %eax
	movq	%rbp, %rcx
	cmpb	2(%rdx), %dil
	je	.Lunix_path_BB65_920
	jmp	.Lunix_path_BB65_1038
.Lunix_path_BB65_1035:
	movl	(%rdi), %eax
	cmpl	(%rdx), %eax
	jne	.Lunix_path_BB65_1045
	callq	core.cmp.slices.groups_equal.i8.31.core.cmp.numbers.U8PartialEq.
	movb	$1, %r8b
	movq	%rbp, %rcx
	testb	%al, %al
	jne	.Lunix_path_BB65_920
	jmp	.Lunix_path_BB65_1045
.Lunix_path_BB65_1037:
	xorl	%eax, %eax
.Lunix_path_BB65_1038:
	movq	%rbp, %rcx
	cmpq	%rsi, %rax
	jae	.Lunix_path_BB65_920
	jmp	.Lunix_path_BB65_1045
.Lunix_path_BB65_1039:
	movq	%rdx, %rbp
.Lunix_path_BB65_1040:
	addq	$2, %rbp
	jmp	.Lunix_path_BB65_989
.Lunix_path_BB65_1041:
	movq	%rax, %r12
.Lunix_path_BB65_1042:
	addq	$2, %r12
	movb	$2, %r15b
	jmp	.Lunix_path_BB65_940
.Lunix_path_BB65_1043:
	movq	16(%rsp), %rax
	movq	48(%rsp), %rcx
	leaq	(%rax,%rcx), %r15
	jmp	.Lunix_path_BB65_1045
.Lunix_path_BB65_1044:
	xorl	%r13d, %r13d
	leaq	(%r10,%rbp), %r15
.Lunix_path_BB65_1045:
	movzbl	(%r15), %eax
	movb	$1, %bpl
	cmpl	$47, %eax
	je	.Lunix_path_BB65_1050
	cmpl	$46, %eax
	jne	.Lunix_path_BB65_1049
	cmpq	$1, %rbx
	je	.Lunix_path_BB65_1050
	cmpb	$47, 1(%r15)
	sete	%bpl
	jmp	.Lunix_path_BB65_1050
.Lunix_path_BB65_1049:
	xorl	%ebp, %ebp
.Lunix_path_BB65_1050:
	movq	%rbx, %rcx
	movq	%rbx, %rax
	jmp	.Lunix_path_BB65_1052
.Lunix_path_BB65_1051:
	movq	%rax, %rcx
	testq	%rax, %rax
	je	.Lunix_path_BB65_1058
.Lunix_path_BB65_1052:
	decq	%rax
	je	.Lunix_path_BB65_1059
	movzbl	(%r15,%rax), %edx
	cmpl	$47, %edx
	je	.Lunix_path_BB65_1056
	cmpl	$46, %edx
	jne	.Lunix_path_BB65_1059
	cmpb	$47, -1(%r15,%rax)
	jne	.Lunix_path_BB65_1059
.Lunix_path_BB65_1056:
	movq	%rbx, %rcx
	subq	%rax, %rcx
	cmpq	$8, %rcx
	jne	.Lunix_path_BB65_1051
	movq	%r15, %rdi
	movq	%rax, %rsi
	callq	unix_path.filler.trimmed_blocks_len
	jmp	.Lunix_path_BB65_1051
.Lunix_path_BB65_1058:
	xorl	%edx, %edx
	movq	%r13, %r15
	jmp	.Lunix_path_BB65_1107
.Lunix_path_BB65_1059:
	movq	16(%rsp), %rsi
	movq	48(%rsp), %rdi
	leaq	(%rdi,%rsi), %rax
	incq	%rax
	leaq	(%rdi,%rsi), %rdx
	addq	$3, %rdx
	addq	%rdi, %rsi
	addq	$2, %rsi
	xorl	%r12d, %r12d
	movq	%rcx, %r8
	xorl	%edi, %edi
	jmp	.Lunix_path_BB65_1063
.Lunix_path_BB65_1060:
	xorl	%r9d, %r9d
.Lunix_path_BB65_1061:
	addq	%r10, %r9
.Lunix_path_BB65_1062:
	addq	%r9, %rdi
	incq	%r12
	xorl	%ebp, %ebp
	movq	%rcx, %r8
	subq	%rdi, %r8
	je	.Lunix_path_BB65_1106
.Lunix_path_BB65_1063:
	testb	$1, %bpl
	je	.Lunix_path_BB65_1071
	movq	%r8, %r10
	decq	%r10
	je	.Lunix_path_BB65_1092
	leaq	-1(%r8), %r11
	leaq	(%rsi,%rdi), %rbx
	addq	$-2, %r8
	xorl	%r9d, %r9d
	jmp	.Lunix_path_BB65_1067
	.p2align	4
.Lunix_path_BB65_1066:
	incq	%r9
	cmpq	%r9, %r11
	je	.Lunix_path_BB65_1093
.Lunix_path_BB65_1067:
	movzbl	-1(%rbx,%r9), %ebp
	cmpl	$47, %ebp
	je	.Lunix_path_BB65_1066
	cmpl	$46, %ebp
	jne	.Lunix_path_BB65_1094
	cmpq	%r9, %r8
	je	.Lunix_path_BB65_1093
	cmpb	$47, (%rbx,%r9)
	je	.Lunix_path_BB65_1066
	jmp	.Lunix_path_BB65_1094
.Lunix_path_BB65_1071:
	leaq	(%r15,%rdi), %r11
	cmpq	$1, %r8
	je	.Lunix_path_BB65_1077
	cmpb	$46, (%r11)
	jne	.Lunix_path_BB65_1077
	cmpb	$46, 1(%r11)
	jne	.Lunix_path_BB65_1077
	movl	$2, %r9d
	cmpq	$2, %r8
	je	.Lunix_path_BB65_1062
	cmpb	$47, 2(%r11)
	jne	.Lunix_path_BB65_1077
	leaq	-2(%r8), %r10
	leaq	(%rdx,%rdi), %r11
	addq	$-3, %r8
	xorl	%r9d, %r9d
	jmp	.Lunix_path_BB65_1083
.Lunix_path_BB65_1077:
	cmpq	$15, %r8
	ja	.Lunix_path_BB65_1087
	xorl	%r10d, %r10d
	.p2align	4
.Lunix_path_BB65_1079:
	cmpb	$47, (%r11,%r10)
	je	.Lunix_path_BB65_1096
	incq	%r10
	cmpq	%r10, %r8
	jne	.Lunix_path_BB65_1079
	movq	%r8, %r10
	jmp	.Lunix_path_BB65_1096
.Lunix_path_BB65_1082:
	incq	%r9
	cmpq	%r9, %r10
	je	.Lunix_path_BB65_1104
.Lunix_path_BB65_1083:
	movzbl	-1(%r11,%r9), %ebx
	cmpl	$47, %ebx
	je	.Lunix_path_BB65_1082
	cmpl	$46, %ebx
	jne	.Lunix_path_BB65_1105
	cmpq	%r9, %r8
	je	.Lunix_path_BB65_1104
	cmpb	$47, (%r11,%r9)
	je	.Lunix_path_BB65_1082
	jmp	.Lunix_path_BB65_1105
.Lunix_path_BB65_1087:
	movq	%r8, %r9
	addq	$-16, %r9
	je	.Lunix_path_BB65_1091
	xorl	%ebx, %ebx
.Lunix_path_BB65_1089:
	movdqu	(%r11,%rbx), %xmm0
	pcmpeqb	.Lunix_path_CPI65_1(%rip), %xmm0
	pmovmskb	%xmm0, %r10d
	orl	$65536, %r10d
	rep		bsfl	%r10d, %r10d
	cmpw	$15, %r10w
	jbe	.Lunix_path_BB65_1095
	addq	$16, %rbx
	cmpq	%r9, %rbx
	jb	.Lunix_path_BB65_1089
.Lunix_path_BB65_1091:
	movdqu	(%r11,%r9), %xmm0
	pcmpeqb	.Lunix_path_CPI65_1(%rip), %xmm0
	pmovmskb	%xmm0, %r10d
	orl	$65536, %r10d
	rep		bsfl	%r10d, %r10d
	addq	%r9, %r10
	jmp	.Lunix_path_BB65_1096
.Lunix_path_BB65_1092:
	movl	$1, %r9d
	jmp	.Lunix_path_BB65_1062
.Lunix_path_BB65_1093:
	movq	%r10, %r9
.Lunix_path_BB65_1094:
	incq	%r9
	jmp	.Lunix_path_BB65_1062
.Lunix_path_BB65_1095:
	movzwl	%r10w, %r10d
	addq	%rbx, %r10
.Lunix_path_BB65_1096:
	subq	%r10, %r8
	je	.Lunix_path_BB65_1060
	leaq	(%r10,%rdi), %r11
	addq	%rax, %r11
	leaq	-1(%r8), %rbx
	xorl	%r9d, %r9d
	jmp	.Lunix_path_BB65_1099
	.p2align	4
.Lunix_path_BB65_1098:
	incq	%r9
	cmpq	%r9, %r8
	je	.Lunix_path_BB65_1103
.Lunix_path_BB65_1099:
	movzbl	-1(%r11,%r9), %ebp
	cmpl	$47, %ebp
	je	.Lunix_path_BB65_1098
	cmpl	$46, %ebp
	jne	.Lunix_path_BB65_1061
	cmpq	%r9, %rbx
	je	.Lunix_path_BB65_1103
	cmpb	$47, (%r11,%r9)
	je	.Lunix_path_BB65_1098
	jmp	.Lunix_path_BB65_1061
.Lunix_path_BB65_1103:
	movq	%r8, %r9
	jmp	.Lunix_path_BB65_1061
.Lunix_path_BB65_1104:
	movq	%r10, %r9
.Lunix_path_BB65_1105:
	addq	$2, %r9
	jmp	.Lunix_path_BB65_1062
.Lunix_path_BB65_1106:
	movq	%r13, %r15
	movq	%r12, %rdx
.Lunix_path_BB65_1107:
	movq	%rdx, %rbx
	movq	%r14, %rdi
	movq	%r15, %rsi
	callq	path_within.outlined.is_names_only
	pxor	%xmm0, %xmm0
	movdqa	%xmm0, 208(%rsp)
	movdqa	%xmm0, 192(%rsp)
	movq	$0, 224(%rsp)
	testb	%al, %al
	je	.Lunix_path_BB65_1109
	leaq	1(%r15), %rcx
	movb	$1, 224(%rsp)
	movl	$0, 225(%rsp)
	movl	$0, 228(%rsp)
	movq	$-1, %r10
	jmp	.Lunix_path_BB65_1110
.Lunix_path_BB65_1109:
	leaq	192(%rsp), %rdi
	movq	%r14, %rsi
	movq	%r15, %rdx
	callq	path_within.write.Layout.resolve_names
	movq	192(%rsp), %r14
	movq	200(%rsp), %r15
	movq	208(%rsp), %r10
	movq	216(%rsp), %rcx
.Lunix_path_BB65_1110:
	movq	224(%rsp), %rax
	movq	%rbx, %rdx
	pxor	%xmm0, %xmm0
	movdqa	%xmm0, 240(%rsp)
	movdqa	%xmm0, 256(%rsp)
.Lunix_path_BB65_1111:
	movq	$0, 64(%rsp)
	movq	%rdx, 72(%rsp)
	movq	%r14, 80(%rsp)
	movq	%r15, 88(%rsp)
	movq	%r10, 96(%rsp)
	movq	%rcx, 104(%rsp)
	movq	%rax, 112(%rsp)
	leaq	.Lunix_path_static.5(%rip), %rax
	movq	%rax, 120(%rsp)
	movdqa	240(%rsp), %xmm0
	movdqa	256(%rsp), %xmm1
	movdqa	%xmm0, 128(%rsp)
	movdqa	%xmm1, 144(%rsp)
	leaq	416(%rsp), %rdi
	leaq	64(%rsp), %rsi
	callq	path_within.write.Layout.to_path_buf
	cmpb	$0, 416(%rsp)
	je	.Lunix_path_BB65_1113
.Lunix_path_BB65_1112:
	movb	$1, %bl
	jmp	.Lunix_path_BB65_2
.Lunix_path_BB65_1113:
	movq	424(%rsp), %r13
	movq	432(%rsp), %r12
	movq	440(%rsp), %r9
.Lunix_path_BB65_1114:
	movb	$1, %dl
	testq	%r12, %r12
	je	.Lunix_path_BB65_1116
.Lunix_path_BB65_1115:
	xorl	%ebx, %ebx
	movb	$1, %bpl
	jmp	.Lunix_path_BB65_1121
.Lunix_path_BB65_1116:
	movl	$1, %r12d
	leaq	.Lunix_path_static.53(%rip), %r14
	testq	%r9, %r9
	je	.Lunix_path_BB65_1118
	movq	%r13, %rdi
	callq	rattle_dealloc@PLT
	movb	$1, %dl
.Lunix_path_BB65_1118:
	xorl	%ebx, %ebx
.Lunix_path_BB65_1119:
	xorl	%ebp, %ebp
	movq	%r14, %r13
.Lunix_path_BB65_1120:
	xorl	%r9d, %r9d
.Lunix_path_BB65_1121:
	movzbl	%dl, %eax
	movzbl	%bpl, %ecx
	movq	280(%rsp), %rdx
	movb	%bl, (%rdx)
	movq	%rax, 8(%rdx)
	movq	%rcx, 16(%rdx)
	movq	%r13, 24(%rdx)
	movq	%r12, 32(%rdx)
	movq	%r9, 40(%rdx)
.Lunix_path_BB65_1122:
	addq	$456, %rsp
	popq	%rbx
	popq	%r12
	popq	%r13
	popq	%r14
	popq	%r15
	popq	%rbp
	retq
.Lunix_path_BB65_1123:
	addq	$16, %rsi
.Lunix_path_BB65_1124:
	cmpq	%rcx, %rsi
	jae	.Lunix_path_BB65_1135
	leaq	(%r14,%rdx), %r8
	addq	$3, %r8
	subq	%r15, %rdx
	jmp	.Lunix_path_BB65_1128
.Lunix_path_BB65_1126:
	cmpl	$47, %r9d
	je	.Lunix_path_BB65_1137
.Lunix_path_BB65_1127:
	movq	%rdx, %rdi
	addq	%rsi, %rdi
	je	.Lunix_path_BB65_1136
.Lunix_path_BB65_1128:
	movq	%rsi, %rdi
	incq	%rsi
	cmpb	$47, -3(%r8,%rdi)
	jne	.Lunix_path_BB65_1127
	cmpq	%rsi, %rcx
	jbe	.Lunix_path_BB65_1137
	movzbl	-2(%r8,%rdi), %r9d
	cmpl	$46, %r9d
	jne	.Lunix_path_BB65_1126
	leaq	2(%rdi), %r9
	cmpq	%r9, %rcx
	jbe	.Lunix_path_BB65_1137
	movzbl	-1(%r8,%rdi), %r9d
	cmpl	$46, %r9d
	jne	.Lunix_path_BB65_1126
	leaq	3(%rdi), %r9
	cmpq	%r9, %rcx
	jbe	.Lunix_path_BB65_1137
	cmpb	$47, (%r8,%rdi)
	jne	.Lunix_path_BB65_1127
	jmp	.Lunix_path_BB65_1137
.Lunix_path_BB65_1135:
	movq	%rsi, %rdi
	jmp	.Lunix_path_BB65_1137
.Lunix_path_BB65_1136:
	movq	%rcx, %rdi
.Lunix_path_BB65_1137:
	cmpq	%rdi, %rcx
	sete	%sil
	jmp	.Lunix_path_BB65_262
.Lunix_path_BB65_1138:
	movzwl	%si, %edx
.Lunix_path_BB65_1139:
	addq	%rdx, %rcx
	jmp	.Lunix_path_BB65_1145
.Lunix_path_BB65_1140:
	movq	%r12, %rcx
	addq	$-33, %rcx
	je	.Lunix_path_BB65_1148
	xorl	%edx, %edx
.Lunix_path_BB65_1142:
	movdqu	(%r13,%rdx), %xmm2
	movdqu	1(%r13,%rdx), %xmm3
	movdqu	16(%r13,%rdx), %xmm4
	movdqu	17(%r13,%rdx), %xmm5
	pand	%xmm0, %xmm3
	por	%xmm2, %xmm3
	pcmpeqb	%xmm1, %xmm3
	pand	%xmm0, %xmm5
	por	%xmm4, %xmm5
	pcmpeqb	%xmm1, %xmm5
	por	%xmm3, %xmm5
	pmovmskb	%xmm5, %esi
	testl	%esi, %esi
	jne	.Lunix_path_BB65_680
	addq	$32, %rdx
	cmpq	%rcx, %rdx
	jb	.Lunix_path_BB65_1142
	jmp	.Lunix_path_BB65_1148
.Lunix_path_BB65_1144:
	addq	$16, %rcx
.Lunix_path_BB65_1145:
	cmpq	%r12, %rcx
	jb	.Lunix_path_BB65_1160
	movq	%rcx, %rdx
.Lunix_path_BB65_1147:
	cmpq	%r12, %rdx
	jne	.Lunix_path_BB65_1168
.Lunix_path_BB65_1148:
	movl	%ebp, %eax
	notb	%al
	movq	16(%rsp), %rcx
	andb	%al, %cl
	testb	$1, %cl
	je	.Lunix_path_BB65_1156
	testq	%r12, %r12
	leaq	.Lunix_path_static.53(%rip), %rax
	cmoveq	%rax, %r13
	cmpq	$1, %r12
	movq	%r12, %r15
	adcq	$0, %r15
	movb	$1, %bl
	js	.Lunix_path_BB65_1167
	movl	$1, %esi
	movq	%r15, %rdi
	callq	rattle_alloc@PLT
	testb	$1, %al
	je	.Lunix_path_BB65_1167
	movq	%rdx, %r14
	movq	%rdx, %rax
	subq	%r13, %rax
	cmpq	%r15, %rax
	jae	.Lunix_path_BB65_1227
	xorl	%eax, %eax
	cmpq	$4, %r12
	jb	.Lunix_path_BB65_1236
	movq	%r14, %rcx
	subq	%r13, %rcx
	cmpq	$32, %rcx
	jb	.Lunix_path_BB65_1236
	movabsq	$9223372036854775776, %rcx
	cmpq	$32, %r12
	jae	.Lunix_path_BB65_1228
	xorl	%eax, %eax
	jmp	.Lunix_path_BB65_1232
.Lunix_path_BB65_1156:
	testb	$1, %bpl
	movq	32(%rsp), %rcx
	jne	.Lunix_path_BB65_1222
.Lunix_path_BB65_1157:
	movb	$1, %dl
	xorl	%ebx, %ebx
	xorl	%ebp, %ebp
	jmp	.Lunix_path_BB65_1223
.Lunix_path_BB65_1158:
	cmpl	$47, %esi
	je	.Lunix_path_BB65_1147
.Lunix_path_BB65_1159:
	cmpq	%rcx, %r12
	je	.Lunix_path_BB65_1148
.Lunix_path_BB65_1160:
	movq	%rcx, %rdx
	incq	%rcx
	cmpb	$47, (%r13,%rdx)
	jne	.Lunix_path_BB65_1159
	cmpq	%rcx, %r12
	jbe	.Lunix_path_BB65_1147
	movzbl	1(%r13,%rdx), %esi
	cmpl	$46, %esi
	jne	.Lunix_path_BB65_1158
	leaq	2(%rdx), %rsi
	cmpq	%rsi, %r12
	jbe	.Lunix_path_BB65_1147
	movzbl	2(%r13,%rdx), %esi
	cmpl	$46, %esi
	jne	.Lunix_path_BB65_1158
	leaq	3(%rdx), %rsi
	cmpq	%rsi, %r12
	jbe	.Lunix_path_BB65_1147
	cmpb	$47, 3(%r13,%rdx)
	jne	.Lunix_path_BB65_1159
	jmp	.Lunix_path_BB65_1147
.Lunix_path_BB65_1167:
	xorl	%edx, %edx
	xorl	%ebp, %ebp
	xorl	%r14d, %r14d
	xorl	%r15d, %r15d
	xorl	%r9d, %r9d
	jmp	.Lunix_path_BB65_1243
.Lunix_path_BB65_1168:
	movb	$1, %bl
	cmpl	$47, %eax
	je	.Lunix_path_BB65_1173
	cmpl	$46, %eax
	jne	.Lunix_path_BB65_1172
	cmpq	$1, %r12
	je	.Lunix_path_BB65_1173
	cmpb	$47, 1(%r13)
	sete	%bl
	jmp	.Lunix_path_BB65_1173
.Lunix_path_BB65_1172:
	xorl	%ebx, %ebx
.Lunix_path_BB65_1173:
	movq	%r12, %rcx
	movq	%r12, %rax
	jmp	.Lunix_path_BB65_1175
.Lunix_path_BB65_1174:
	movq	%rax, %rcx
	testq	%rax, %rax
	je	.Lunix_path_BB65_1148
.Lunix_path_BB65_1175:
	decq	%rax
	je	.Lunix_path_BB65_1181
	movzbl	(%r13,%rax), %edx
	cmpl	$47, %edx
	je	.Lunix_path_BB65_1179
	cmpl	$46, %edx
	jne	.Lunix_path_BB65_1181
	cmpb	$47, -1(%r13,%rax)
	jne	.Lunix_path_BB65_1181
.Lunix_path_BB65_1179:
	movq	%r12, %rcx
	subq	%rax, %rcx
	cmpq	$8, %rcx
	jne	.Lunix_path_BB65_1174
	movq	%r13, %rdi
	movq	%rax, %rsi
	callq	unix_path.filler.trimmed_blocks_len
	jmp	.Lunix_path_BB65_1174
.Lunix_path_BB65_1181:
	xorl	%eax, %eax
	movq	%rcx, %rdx
	movq	%r13, %rsi
	jmp	.Lunix_path_BB65_1185
.Lunix_path_BB65_1182:
	xorl	%edi, %edi
.Lunix_path_BB65_1183:
	addq	%r8, %rdi
.Lunix_path_BB65_1184:
	addq	%rdi, %rax
	leaq	(%rax,%r13), %rsi
	xorl	%ebx, %ebx
	movq	%rcx, %rdx
	subq	%rax, %rdx
	je	.Lunix_path_BB65_1148
.Lunix_path_BB65_1185:
	testb	$1, %bl
	je	.Lunix_path_BB65_1193
	movq	%rdx, %r8
	decq	%r8
	je	.Lunix_path_BB65_1208
	leaq	-1(%rdx), %r9
	addq	$-2, %rdx
	xorl	%edi, %edi
	jmp	.Lunix_path_BB65_1189
.Lunix_path_BB65_1188:
	incq	%rdi
	cmpq	%rdi, %r9
	je	.Lunix_path_BB65_1209
.Lunix_path_BB65_1189:
	movzbl	1(%rsi,%rdi), %r10d
	cmpl	$47, %r10d
	je	.Lunix_path_BB65_1188
	cmpl	$46, %r10d
	jne	.Lunix_path_BB65_1210
	cmpq	%rdi, %rdx
	je	.Lunix_path_BB65_1209
	cmpb	$47, 2(%rsi,%rdi)
	je	.Lunix_path_BB65_1188
	jmp	.Lunix_path_BB65_1210
.Lunix_path_BB65_1193:
	cmpq	$1, %rdx
	je	.Lunix_path_BB65_1198
	cmpb	$46, (%rsi)
	jne	.Lunix_path_BB65_1198
	cmpb	$46, 1(%rsi)
	jne	.Lunix_path_BB65_1198
	cmpq	$2, %rdx
	je	.Lunix_path_BB65_1221
	cmpb	$47, 2(%rsi)
	je	.Lunix_path_BB65_1221
.Lunix_path_BB65_1198:
	cmpq	$15, %rdx
	ja	.Lunix_path_BB65_1203
	xorl	%r8d, %r8d
.Lunix_path_BB65_1200:
	cmpb	$47, (%rsi,%r8)
	je	.Lunix_path_BB65_1213
	incq	%r8
	cmpq	%r8, %rdx
	jne	.Lunix_path_BB65_1200
	movq	%rdx, %r8
	jmp	.Lunix_path_BB65_1213
.Lunix_path_BB65_1203:
	movq	%rdx, %rdi
	addq	$-16, %rdi
	je	.Lunix_path_BB65_1207
	xorl	%r9d, %r9d
.Lunix_path_BB65_1205:
	movdqu	(%rsi,%r9), %xmm0
	pcmpeqb	.Lunix_path_CPI65_1(%rip), %xmm0
	pmovmskb	%xmm0, %r8d
	orl	$65536, %r8d
	rep		bsfl	%r8d, %r8d
	cmpw	$15, %r8w
	jbe	.Lunix_path_BB65_1212
	addq	$16, %r9
	cmpq	%rdi, %r9
	jb	.Lunix_path_BB65_1205
.Lunix_path_BB65_1207:
	movdqu	(%rsi,%rdi), %xmm0
	pcmpeqb	.Lunix_path_CPI65_1(%rip), %xmm0
	pmovmskb	%xmm0, %r8d
	orl	$65536, %r8d
	rep		bsfl	%r8d, %r8d
	addq	%rdi, %r8
	jmp	.Lunix_path_BB65_1213
.Lunix_path_BB65_1208:
	movl	$1, %edi
	jmp	.Lunix_path_BB65_1211
.Lunix_path_BB65_1209:
	movq	%r8, %rdi
.Lunix_path_BB65_1210:
	incq	%rdi
.Lunix_path_BB65_1211:
	cmpb	$47, (%rsi)
	jne	.Lunix_path_BB65_1184
	jmp	.Lunix_path_BB65_1221
.Lunix_path_BB65_1212:
	movzwl	%r8w, %r8d
	addq	%r9, %r8
.Lunix_path_BB65_1213:
	subq	%r8, %rdx
	je	.Lunix_path_BB65_1182
	addq	%r8, %rsi
	incq	%rsi
	leaq	-1(%rdx), %r9
	xorl	%edi, %edi
	jmp	.Lunix_path_BB65_1216
.Lunix_path_BB65_1215:
	incq	%rdi
	cmpq	%rdi, %rdx
	je	.Lunix_path_BB65_1220
.Lunix_path_BB65_1216:
	movzbl	-1(%rsi,%rdi), %r10d
	cmpl	$47, %r10d
	je	.Lunix_path_BB65_1215
	cmpl	$46, %r10d
	jne	.Lunix_path_BB65_1183
	cmpq	%rdi, %r9
	je	.Lunix_path_BB65_1220
	cmpb	$47, (%rsi,%rdi)
	je	.Lunix_path_BB65_1215
	jmp	.Lunix_path_BB65_1183
.Lunix_path_BB65_1220:
	movq	%rdx, %rdi
	jmp	.Lunix_path_BB65_1183
.Lunix_path_BB65_1221:
	testb	$1, %bpl
	movq	32(%rsp), %rcx
	jne	.Lunix_path_BB65_1157
.Lunix_path_BB65_1222:
	xorl	%ebx, %ebx
	xorl	%edx, %edx
	xorl	%ebp, %ebp
	xorl	%r14d, %r14d
	xorl	%r15d, %r15d
.Lunix_path_BB65_1223:
	xorl	%r9d, %r9d
	movq	40(%rsp), %rdi
	movq	24(%rsp), %rax
	testq	%rcx, %rcx
	je	.Lunix_path_BB65_1225
.Lunix_path_BB65_1224:
	movq	48(%rsp), %rdi
	movq	%rdx, %r12
	movq	%r9, %r13
	callq	rattle_dealloc@PLT
	movq	%r13, %r9
	movq	%r12, %rdx
	movq	24(%rsp), %rax
	movq	40(%rsp), %rdi
.Lunix_path_BB65_1225:
	testq	%rax, %rax
	je	.Lunix_path_BB65_157
	movq	%rdx, %r12
	movq	%r9, %r13
	callq	rattle_dealloc@PLT
	movq	%r13, %r9
	movq	%r12, %rdx
	jmp	.Lunix_path_BB65_157
.Lunix_path_BB65_1227:
	movq	%r14, %rdi
	movq	%r13, %rsi
	movq	%r15, %rdx
	callq	memmove@PLT
	movb	$1, %dl
	xorl	%ebx, %ebx
	jmp	.Lunix_path_BB65_1242
.Lunix_path_BB65_1228:
	movq	%r15, %rax
	andq	%rcx, %rax
	xorl	%edx, %edx
.Lunix_path_BB65_1229:
	movdqu	(%r13,%rdx), %xmm0
	movdqu	16(%r13,%rdx), %xmm1
	movdqu	%xmm0, (%r14,%rdx)
	movdqu	%xmm1, 16(%r14,%rdx)
	addq	$32, %rdx
	cmpq	%rdx, %rax
	jne	.Lunix_path_BB65_1229
	cmpq	%rax, %r12
	je	.Lunix_path_BB65_1235
	testb	$28, %r15b
	je	.Lunix_path_BB65_1236
.Lunix_path_BB65_1232:
	movq	%rax, %rdx
	addq	$28, %rcx
	movq	%rcx, %rax
	andq	%r15, %rax
.Lunix_path_BB65_1233:
	movl	(%r13,%rdx), %ecx
	movl	%ecx, (%r14,%rdx)
	addq	$4, %rdx
	cmpq	%rdx, %rax
	jne	.Lunix_path_BB65_1233
	cmpq	%rax, %r12
	jne	.Lunix_path_BB65_1236
.Lunix_path_BB65_1235:
	movb	$1, %dl
	xorl	%ebx, %ebx
	jmp	.Lunix_path_BB65_1242
.Lunix_path_BB65_1236:
	movq	%r15, %rdx
	movq	%rax, %rcx
	andq	$3, %rdx
	je	.Lunix_path_BB65_1239
	movq	%rax, %rcx
.Lunix_path_BB65_1238:
	movzbl	(%r13,%rcx), %esi
	movb	%sil, (%r14,%rcx)
	incq	%rcx
	decq	%rdx
	jne	.Lunix_path_BB65_1238
.Lunix_path_BB65_1239:
	subq	%r15, %rax
	movb	$1, %dl
	cmpq	$-4, %rax
	jbe	.Lunix_path_BB65_1241
	xorl	%ebx, %ebx
	jmp	.Lunix_path_BB65_1242
.Lunix_path_BB65_1241:
	movzbl	(%r13,%rcx), %eax
	movb	%al, (%r14,%rcx)
	movzbl	1(%r13,%rcx), %eax
	movb	%al, 1(%r14,%rcx)
	movzbl	2(%r13,%rcx), %eax
	movb	%al, 2(%r14,%rcx)
	movzbl	3(%r13,%rcx), %eax
	movb	%al, 3(%r14,%rcx)
	addq	$4, %rcx
	xorl	%ebx, %ebx
	cmpq	%rcx, %r12
	jne	.Lunix_path_BB65_1241
.Lunix_path_BB65_1242:
	movb	$1, %bpl
	movq	%r15, %r9
.Lunix_path_BB65_1243:
	movq	40(%rsp), %rdi
	movq	24(%rsp), %rax
	movq	32(%rsp), %rcx
	testq	%rcx, %rcx
	jne	.Lunix_path_BB65_1224
	jmp	.Lunix_path_BB65_1225
.Lunix_path_BB65_1244:
	movzbl	3(%r12), %edx
	movl	$3, %ecx
	cmpb	3(%r14), %dl
	movq	16(%rsp), %r8
	jne	.Lunix_path_BB65_447
	cmpq	$4, %rax
	je	.Lunix_path_BB65_845
	movzbl	4(%r12), %edx
	movl	$4, %ecx
	cmpb	4(%r14), %dl
	movq	16(%rsp), %r8
	jne	.Lunix_path_BB65_447
	cmpq	$5, %rax
	je	.Lunix_path_BB65_845
	movzbl	5(%r12), %edx
	movl	$5, %ecx
	cmpb	5(%r14), %dl
	movq	16(%rsp), %r8
	jne	.Lunix_path_BB65_447
	cmpq	$6, %rax
	je	.Lunix_path_BB65_845
	movzbl	6(%r12), %ecx
	cmpb	6(%r14), %cl
	movl	$6, %ecx
	cmoveq	%rax, %rcx
	movq	16(%rsp), %r8
	jmp	.Lunix_path_BB65_447
.Lunix_path_BB65_1251:
	movb	$1, %sil
	jmp	.Lunix_path_BB65_262
.Lunix_path_BB65_1252:
	movl	$33, %ecx
	jmp	.Lunix_path_BB65_262
.Lunix_path_func_end65:
	.size	upath_commands.task.answer_of, .Lunix_path_func_end65-upath_commands.task.answer_of
	.section	.rodata.upath_commands.task.answer_of,"a",@progbits
	.p2align	2, 0x0
.Lunix_path_JTI65_0:
	.long	.Lunix_path_BB65_29-.Lunix_path_JTI65_0
	.long	.Lunix_path_BB65_38-.Lunix_path_JTI65_0
	.long	.Lunix_path_BB65_46-.Lunix_path_JTI65_0
	.long	.Lunix_path_BB65_1-.Lunix_path_JTI65_0
	.long	.Lunix_path_BB65_7-.Lunix_path_JTI65_0
	.long	.Lunix_path_BB65_48-.Lunix_path_JTI65_0
	.long	.Lunix_path_BB65_12-.Lunix_path_JTI65_0
	.long	.Lunix_path_BB65_1-.Lunix_path_JTI65_0
	.long	.Lunix_path_BB65_55-.Lunix_path_JTI65_0
	.long	.Lunix_path_BB65_4-.Lunix_path_JTI65_0
	.long	.Lunix_path_BB65_21-.Lunix_path_JTI65_0
	.long	.Lunix_path_BB65_63-.Lunix_path_JTI65_0
	.long	.Lunix_path_BB65_10-.Lunix_path_JTI65_0
	.long	.Lunix_path_BB65_40-.Lunix_path_JTI65_0
	.long	.Lunix_path_BB65_1-.Lunix_path_JTI65_0
	.long	.Lunix_path_BB65_58-.Lunix_path_JTI65_0
	.long	.Lunix_path_BB65_185-.Lunix_path_JTI65_0
	.long	.Lunix_path_BB65_1-.Lunix_path_JTI65_0
	.long	.Lunix_path_BB65_185-.Lunix_path_JTI65_0
	.long	.Lunix_path_BB65_1-.Lunix_path_JTI65_0
.Lunix_path_JTI65_1:
	.long	.Lunix_path_BB65_1020-.Lunix_path_JTI65_1
	.long	.Lunix_path_BB65_1023-.Lunix_path_JTI65_1
	.long	.Lunix_path_BB65_1021-.Lunix_path_JTI65_1
	.long	.Lunix_path_BB65_1022-.Lunix_path_JTI65_1
.Lunix_path_JTI65_2:
	.long	.Lunix_path_BB65_1027-.Lunix_path_JTI65_2
	.long	.Lunix_path_BB65_1024-.Lunix_path_JTI65_2
	.long	.Lunix_path_BB65_1025-.Lunix_path_JTI65_2
	.long	.Lunix_path_BB65_1026-.Lunix_path_JTI65_2
.Lunix_path_JTI65_3:
	.long	.Lunix_path_BB65_56-.Lunix_path_JTI65_3
	.long	.Lunix_path_BB65_132-.Lunix_path_JTI65_3
	.long	.Lunix_path_BB65_115-.Lunix_path_JTI65_3
	.long	.Lunix_path_BB65_120-.Lunix_path_JTI65_3
	.section	.rodata.cst16,"aM",@progbits,16
	.p2align	4, 0x0
.Lunix_path_CPI66_0:
	.zero	16,208
.Lunix_path_CPI66_1:
	.zero	16,47
.Lunix_path_CPI66_2:
	.zero	16,46
.Lunix_path_CPI66_3:
	.byte	254
	.byte	254
	.byte	254
	.byte	254
	.byte	254
	.byte	254
	.byte	254
	.byte	254
	.zero	1
	.zero	1
	.zero	1
	.zero	1
	.zero	1
	.zero	1
	.zero	1
	.zero	1
.Lunix_path_CPI66_4:
	.byte	46
	.byte	46
	.byte	46
	.byte	46
	.byte	46
	.byte	46
	.byte	46
	.byte	46
	.zero	1
	.zero	1
	.zero	1
	.zero	1
	.zero	1
	.zero	1
	.zero	1
	.zero	1
.Lunix_path_CPI66_5:
	.byte	47
	.byte	47
	.byte	47
	.byte	47
	.byte	47
	.byte	47
	.byte	47
	.byte	47
	.zero	1
	.zero	1
	.zero	1
	.zero	1
	.zero	1
	.zero	1
	.zero	1
	.zero	1
	.section	.text.path_within.resolved.resolved,"ax",@progbits
	.p2align	4
	.type	path_within.resolved.resolved,@function
# path_within::resolved::resolved
path_within.resolved.resolved:
	pushq	%rbp
	pushq	%r15
	pushq	%r14
	pushq	%r12
	pushq	%rbx
	subq	$48, %rsp
	movq	%rdx, %r14
	movq	%rsi, %r15
	movq	%rdi, %rbx
	pxor	%xmm0, %xmm0
	movdqa	%xmm0, 32(%rsp)
	movdqa	%xmm0, 16(%rsp)
	testq	%rdx, %rdx
	je	.Lunix_path_BB66_57
	movzbl	(%r15), %eax
	xorl	%edx, %edx
	cmpl	$47, %eax
	sete	%dl
	movq	%r14, %rcx
	subq	%rdx, %rcx
	je	.Lunix_path_BB66_47
	leaq	(%r15,%rdx), %rsi
	movzbl	(%rsi), %edi
	cmpl	$47, %edi
	je	.Lunix_path_BB66_47
	cmpl	$46, %edi
	jne	.Lunix_path_BB66_9
	cmpq	$2, %rcx
	jb	.Lunix_path_BB66_47
	movzbl	1(%rsi), %edi
	cmpl	$47, %edi
	je	.Lunix_path_BB66_47
	cmpl	$46, %edi
	jne	.Lunix_path_BB66_9
	cmpq	$2, %rcx
	je	.Lunix_path_BB66_47
	cmpb	$47, 2(%rsi)
	je	.Lunix_path_BB66_47
.Lunix_path_BB66_9:
	movzbl	-1(%r15,%r14), %edi
	andb	$-2, %dil
	cmpb	$46, %dil
	je	.Lunix_path_BB66_47
	cmpq	$17, %rcx
	jae	.Lunix_path_BB66_11
.Lunix_path_BB66_26:
	cmpq	$9, %rcx
	jae	.Lunix_path_BB66_28
	xorl	%edi, %edi
	jmp	.Lunix_path_BB66_39
.Lunix_path_BB66_11:
	cmpq	$32, %rcx
	ja	.Lunix_path_BB66_16
	movdqu	(%rsi), %xmm0
	movdqu	1(%rsi), %xmm1
	pand	.Lunix_path_CPI66_0(%rip), %xmm1
	por	%xmm0, %xmm1
	pcmpeqb	.Lunix_path_CPI66_1(%rip), %xmm1
	pmovmskb	%xmm1, %edi
	testl	%edi, %edi
	jne	.Lunix_path_BB66_25
	movdqu	-17(%r15,%r14), %xmm0
	movdqu	-16(%r15,%r14), %xmm1
	pand	.Lunix_path_CPI66_0(%rip), %xmm1
	por	%xmm0, %xmm1
	pcmpeqb	.Lunix_path_CPI66_1(%rip), %xmm1
	pmovmskb	%xmm1, %edi
	testl	%edi, %edi
	je	.Lunix_path_BB66_14
.Lunix_path_BB66_25:
	cmpq	$18, %rcx
	jbe	.Lunix_path_BB66_26
	movq	%rcx, %r8
	addq	$-19, %r8
	jne	.Lunix_path_BB66_18
	xorl	%r8d, %r8d
	xorl	%edi, %edi
.Lunix_path_BB66_36:
	leaq	-17(%rcx), %r9
	cmpq	%rdi, %r9
	cmovbq	%r9, %rdi
	movdqu	(%rsi,%rdi), %xmm0
	movdqu	1(%rsi,%rdi), %xmm1
	pand	.Lunix_path_CPI66_0(%rip), %xmm1
	por	%xmm0, %xmm1
	pcmpeqb	.Lunix_path_CPI66_1(%rip), %xmm1
	pmovmskb	%xmm1, %r9d
	testl	%r9d, %r9d
	je	.Lunix_path_BB66_37
	movdqu	(%rsi,%r8), %xmm0
	movdqu	1(%rsi,%r8), %xmm1
	movdqu	2(%rsi,%r8), %xmm2
	movdqu	3(%rsi,%r8), %xmm3
	movdqa	.Lunix_path_CPI66_2(%rip), %xmm4
	movdqa	%xmm2, %xmm5
	pcmpeqb	%xmm4, %xmm5
	movdqa	.Lunix_path_CPI66_1(%rip), %xmm6
	pcmpeqb	%xmm6, %xmm3
	pand	%xmm5, %xmm3
	pcmpeqb	%xmm1, %xmm4
	pcmpeqb	%xmm6, %xmm2
	por	%xmm3, %xmm2
	pand	%xmm4, %xmm2
	pcmpeqb	%xmm6, %xmm0
	pcmpeqb	%xmm6, %xmm1
	por	%xmm2, %xmm1
	pand	%xmm0, %xmm1
	pmovmskb	%xmm1, %esi
	orl	$65536, %esi
	rep		bsfl	%esi, %edi
	addq	%r8, %rdi
	jmp	.Lunix_path_BB66_39
.Lunix_path_BB66_28:
	movq	1(%rsi), %xmm0
	pand	.Lunix_path_CPI66_3(%rip), %xmm0
	pcmpeqb	.Lunix_path_CPI66_4(%rip), %xmm0
	movq	(%rsi), %xmm1
	pcmpeqb	.Lunix_path_CPI66_5(%rip), %xmm1
	pand	%xmm0, %xmm1
	pmovmskb	%xmm1, %edi
	orl	$256, %edi
	rep		bsfl	%edi, %edi
	cmpb	$8, %dil
	jb	.Lunix_path_BB66_39
	cmpq	$17, %rcx
	movl	$17, %edi
	cmovbq	%rcx, %rdi
	movq	-8(%rsi,%rdi), %xmm0
	pand	.Lunix_path_CPI66_3(%rip), %xmm0
	pcmpeqb	.Lunix_path_CPI66_4(%rip), %xmm0
	movq	-9(%rsi,%rdi), %xmm1
	pcmpeqb	.Lunix_path_CPI66_5(%rip), %xmm1
	pand	%xmm0, %xmm1
	pmovmskb	%xmm1, %esi
	orl	$256, %esi
	rep		bsfl	%esi, %esi
	addq	%rsi, %rdi
	addq	$-9, %rdi
	jmp	.Lunix_path_BB66_39
.Lunix_path_BB66_16:
	movdqu	-33(%rsi,%rcx), %xmm1
	movdqu	-32(%rsi,%rcx), %xmm2
	movdqa	.Lunix_path_CPI66_0(%rip), %xmm0
	pand	%xmm0, %xmm2
	por	%xmm1, %xmm2
	movdqa	.Lunix_path_CPI66_1(%rip), %xmm1
	pcmpeqb	%xmm1, %xmm2
	movdqu	-17(%r15,%r14), %xmm3
	movdqu	-16(%r15,%r14), %xmm4
	pand	%xmm0, %xmm4
	por	%xmm3, %xmm4
	pcmpeqb	%xmm1, %xmm4
	por	%xmm2, %xmm4
	pmovmskb	%xmm4, %edi
	testl	%edi, %edi
	je	.Lunix_path_BB66_21
	leaq	-19(%rcx), %r8
.Lunix_path_BB66_18:
	xorl	%edi, %edi
	jmp	.Lunix_path_BB66_19
	.p2align	4
.Lunix_path_BB66_35:
	cmpq	%r8, %rdi
	jae	.Lunix_path_BB66_36
.Lunix_path_BB66_19:
	movdqu	(%rsi,%rdi), %xmm0
	movdqu	1(%rsi,%rdi), %xmm1
	movdqa	.Lunix_path_CPI66_0(%rip), %xmm2
	pand	%xmm1, %xmm2
	por	%xmm0, %xmm2
	pcmpeqb	.Lunix_path_CPI66_1(%rip), %xmm2
	pmovmskb	%xmm2, %r9d
	testl	%r9d, %r9d
	je	.Lunix_path_BB66_20
	movdqu	2(%rsi,%rdi), %xmm2
	movdqu	3(%rsi,%rdi), %xmm3
	movdqa	.Lunix_path_CPI66_2(%rip), %xmm4
	movdqa	%xmm2, %xmm5
	pcmpeqb	%xmm4, %xmm5
	movdqa	.Lunix_path_CPI66_1(%rip), %xmm6
	pcmpeqb	%xmm6, %xmm3
	pand	%xmm5, %xmm3
	pcmpeqb	%xmm1, %xmm4
	pcmpeqb	%xmm6, %xmm2
	por	%xmm3, %xmm2
	pand	%xmm4, %xmm2
	pcmpeqb	%xmm6, %xmm0
	pcmpeqb	%xmm6, %xmm1
	por	%xmm2, %xmm1
	pand	%xmm0, %xmm1
	pmovmskb	%xmm1, %r9d
	orl	$65536, %r9d
	rep		bsfl	%r9d, %r9d
	cmpw	$15, %r9w
	jbe	.Lunix_path_BB66_33
	addq	$16, %rdi
	jmp	.Lunix_path_BB66_35
.Lunix_path_BB66_20:
	addq	$16, %rdi
	cmpq	%r8, %rdi
	jb	.Lunix_path_BB66_19
	jmp	.Lunix_path_BB66_35
.Lunix_path_BB66_33:
	movzwl	%r9w, %esi
	addq	%rsi, %rdi
	jmp	.Lunix_path_BB66_39
.Lunix_path_BB66_21:
	movq	%rcx, %rdi
	addq	$-33, %rdi
	je	.Lunix_path_BB66_14
	leaq	(%rdx,%r15), %r8
	addq	$17, %r8
	xorl	%r9d, %r9d
.Lunix_path_BB66_24:
	movdqu	-17(%r8,%r9), %xmm2
	movdqu	-16(%r8,%r9), %xmm3
	movdqu	-1(%r8,%r9), %xmm4
	movdqu	(%r8,%r9), %xmm5
	pand	%xmm0, %xmm3
	por	%xmm2, %xmm3
	pcmpeqb	%xmm1, %xmm3
	pand	%xmm0, %xmm5
	por	%xmm4, %xmm5
	pcmpeqb	%xmm1, %xmm5
	por	%xmm3, %xmm5
	pmovmskb	%xmm5, %r10d
	testl	%r10d, %r10d
	jne	.Lunix_path_BB66_25
	addq	$32, %r9
	cmpq	%rdi, %r9
	jb	.Lunix_path_BB66_24
	jmp	.Lunix_path_BB66_64
.Lunix_path_BB66_37:
	addq	$16, %rdi
.Lunix_path_BB66_39:
	cmpq	%rcx, %rdi
	jae	.Lunix_path_BB66_40
	leaq	(%rdx,%r15), %rsi
	addq	$3, %rsi
	jmp	.Lunix_path_BB66_42
.Lunix_path_BB66_45:
	cmpl	$47, %r8d
	je	.Lunix_path_BB66_46
.Lunix_path_BB66_63:
	cmpq	%rcx, %rdi
	jae	.Lunix_path_BB66_64
.Lunix_path_BB66_42:
	movq	%rdi, %rdx
	incq	%rdi
	cmpb	$47, -3(%rsi,%rdx)
	jne	.Lunix_path_BB66_63
	cmpq	%rdi, %rcx
	jbe	.Lunix_path_BB66_46
	movzbl	-2(%rsi,%rdx), %r8d
	cmpl	$46, %r8d
	jne	.Lunix_path_BB66_45
	leaq	2(%rdx), %r8
	cmpq	%r8, %rcx
	jbe	.Lunix_path_BB66_46
	movzbl	-1(%rsi,%rdx), %r8d
	cmpl	$46, %r8d
	jne	.Lunix_path_BB66_45
	leaq	3(%rdx), %r8
	cmpq	%r8, %rcx
	jbe	.Lunix_path_BB66_46
	cmpb	$47, (%rsi,%rdx)
	jne	.Lunix_path_BB66_63
	jmp	.Lunix_path_BB66_46
.Lunix_path_BB66_40:
	movq	%rdi, %rdx
.Lunix_path_BB66_46:
	cmpq	%rcx, %rdx
	je	.Lunix_path_BB66_64
.Lunix_path_BB66_47:
	cmpl	$47, %eax
	je	.Lunix_path_BB66_57
	cmpl	$46, %eax
	jne	.Lunix_path_BB66_54
	cmpq	$1, %r14
	je	.Lunix_path_BB66_57
	movzbl	1(%r15), %eax
	cmpl	$47, %eax
	je	.Lunix_path_BB66_57
	cmpl	$46, %eax
	jne	.Lunix_path_BB66_54
	cmpq	$3, %r14
	jb	.Lunix_path_BB66_57
	cmpb	$47, 2(%r15)
	je	.Lunix_path_BB66_57
.Lunix_path_BB66_54:
	cmpb	$46, -1(%r15,%r14)
	jne	.Lunix_path_BB66_58
	cmpq	$1, %r14
	je	.Lunix_path_BB66_57
	cmpb	$47, -2(%r15,%r14)
	je	.Lunix_path_BB66_58
.Lunix_path_BB66_57:
	movq	%r15, %rdi
	movq	%r14, %rsi
	callq	path_within.normal.is_resolved
	testb	%al, %al
	je	.Lunix_path_BB66_58
.Lunix_path_BB66_64:
	testq	%r14, %r14
	je	.Lunix_path_BB66_65
.Lunix_path_BB66_14:
	movb	$1, %bpl
	testq	%r14, %r14
	js	.Lunix_path_BB66_15
	movl	$1, %esi
	movq	%r14, %rdi
	callq	rattle_alloc@PLT
	xorl	%r12d, %r12d
	movl	$0, %ecx
	testb	$1, %al
	je	.Lunix_path_BB66_86
	movq	%rdx, %r12
	movq	%r12, %rcx
	subq	%r15, %rcx
	cmpq	%r14, %rcx
	jb	.Lunix_path_BB66_69
.Lunix_path_BB66_88:
	movq	%r12, %rdi
	movq	%r15, %rsi
	movq	%r14, %rdx
	callq	memmove@PLT
	jmp	.Lunix_path_BB66_85
.Lunix_path_BB66_58:
	leaq	16(%rsp), %rdi
	movq	%r15, %rsi
	movq	%r14, %rdx
	callq	path_within.resolved.resolve_to_path_buf
	movzbl	16(%rsp), %eax
	movb	%al, (%rbx)
	movdqu	24(%rsp), %xmm0
	movdqu	%xmm0, 8(%rbx)
	jmp	.Lunix_path_BB66_87
.Lunix_path_BB66_65:
	leaq	15(%rsp), %r12
	movq	%r12, %rcx
	subq	%r15, %rcx
	cmpq	%r14, %rcx
	jae	.Lunix_path_BB66_88
.Lunix_path_BB66_69:
	xorl	%eax, %eax
	cmpq	$4, %r14
	jb	.Lunix_path_BB66_80
	cmpq	$32, %rcx
	jb	.Lunix_path_BB66_80
	cmpq	$32, %r14
	jae	.Lunix_path_BB66_73
	xorl	%eax, %eax
	jmp	.Lunix_path_BB66_77
.Lunix_path_BB66_15:
	xorl	%r12d, %r12d
	xorl	%ecx, %ecx
	jmp	.Lunix_path_BB66_86
.Lunix_path_BB66_73:
	movq	%r14, %rax
	andq	$-32, %rax
	xorl	%ecx, %ecx
	.p2align	4
.Lunix_path_BB66_74:
	movdqu	(%r15,%rcx), %xmm0
	movdqu	16(%r15,%rcx), %xmm1
	movdqu	%xmm0, (%r12,%rcx)
	movdqu	%xmm1, 16(%r12,%rcx)
	addq	$32, %rcx
	cmpq	%rcx, %rax
	jne	.Lunix_path_BB66_74
	cmpq	%rax, %r14
	je	.Lunix_path_BB66_85
	testb	$28, %r14b
	je	.Lunix_path_BB66_80
.Lunix_path_BB66_77:
	movq	%rax, %rcx
	movq	%r14, %rax
	andq	$-4, %rax
	.p2align	4
.Lunix_path_BB66_78:
	movl	(%r15,%rcx), %edx
	movl	%edx, (%r12,%rcx)
	addq	$4, %rcx
	cmpq	%rcx, %rax
	jne	.Lunix_path_BB66_78
	cmpq	%rax, %r14
	je	.Lunix_path_BB66_85
.Lunix_path_BB66_80:
	movq	%r14, %rdx
	movq	%rax, %rcx
	andq	$3, %rdx
	je	.Lunix_path_BB66_83
	movq	%rax, %rcx
	.p2align	4
.Lunix_path_BB66_82:
	movzbl	(%r15,%rcx), %esi
	movb	%sil, (%r12,%rcx)
	incq	%rcx
	decq	%rdx
	jne	.Lunix_path_BB66_82
.Lunix_path_BB66_83:
	subq	%r14, %rax
	cmpq	$-4, %rax
	ja	.Lunix_path_BB66_85
	.p2align	4
.Lunix_path_BB66_84:
	movzbl	(%r15,%rcx), %eax
	movb	%al, (%r12,%rcx)
	movzbl	1(%r15,%rcx), %eax
	movb	%al, 1(%r12,%rcx)
	movzbl	2(%r15,%rcx), %eax
	movb	%al, 2(%r12,%rcx)
	movzbl	3(%r15,%rcx), %eax
	movb	%al, 3(%r12,%rcx)
	addq	$4, %rcx
	cmpq	%rcx, %r14
	jne	.Lunix_path_BB66_84
.Lunix_path_BB66_85:
	xorl	%ebp, %ebp
	movq	%r14, %rcx
.Lunix_path_BB66_86:
	movq	%r12, 24(%rsp)
	movq	%rcx, 32(%rsp)
	movq	%rcx, 40(%rsp)
	movb	%bpl, (%rbx)
	movq	24(%rsp), %rax
	movq	%rax, 8(%rbx)
	movq	32(%rsp), %rax
	movq	%rax, 16(%rbx)
.Lunix_path_BB66_87:
	movq	40(%rsp), %rax
	movq	%rax, 24(%rbx)
	addq	$48, %rsp
	popq	%rbx
	popq	%r12
	popq	%r14
	popq	%r15
	popq	%rbp
	retq
.Lunix_path_func_end66:
	.size	path_within.resolved.resolved, .Lunix_path_func_end66-path_within.resolved.resolved
	.section	.rodata.cst16,"aM",@progbits,16
	.p2align	4, 0x0
.Lunix_path_CPI67_0:
	.zero	16,46
.Lunix_path_CPI67_1:
	.zero	16,47
	.section	.text.path_within.normal.is_resolved,"ax",@progbits
	.p2align	4
	.type	path_within.normal.is_resolved,@function
# path_within::normal::is_resolved
path_within.normal.is_resolved:
	pushq	%rbp
	pushq	%r15
	pushq	%r14
	pushq	%rbx
	subq	$104, %rsp
	movq	%rsi, %rbx
	movq	%rdi, %r14
	testq	%rsi, %rsi
	je	.Lunix_path_BB67_9
	movq	%rbx, %rcx
	movq	%rbx, %rax
	jmp	.Lunix_path_BB67_3
	.p2align	4
.Lunix_path_BB67_2:
	movq	%rax, %rcx
	testq	%rax, %rax
	je	.Lunix_path_BB67_9
.Lunix_path_BB67_3:
	decq	%rax
	je	.Lunix_path_BB67_12
	movzbl	(%r14,%rax), %edx
	cmpl	$47, %edx
	je	.Lunix_path_BB67_7
	cmpl	$46, %edx
	jne	.Lunix_path_BB67_10
	cmpb	$47, -1(%r14,%rax)
	jne	.Lunix_path_BB67_10
.Lunix_path_BB67_7:
	movq	%rbx, %rcx
	subq	%rax, %rcx
	cmpq	$8, %rcx
	jne	.Lunix_path_BB67_2
	movq	%r14, %rdi
	movq	%rax, %rsi
	callq	unix_path.filler.trimmed_blocks_len
	jmp	.Lunix_path_BB67_2
.Lunix_path_BB67_9:
	xorl	%ecx, %ecx
.Lunix_path_BB67_10:
	cmpq	%rbx, %rcx
	jae	.Lunix_path_BB67_13
.Lunix_path_BB67_11:
	xorl	%eax, %eax
	jmp	.Lunix_path_BB67_114
.Lunix_path_BB67_12:
	movl	$1, %ecx
	cmpq	%rbx, %rcx
	jb	.Lunix_path_BB67_11
.Lunix_path_BB67_13:
	cmpq	$2, %rcx
	jb	.Lunix_path_BB67_31
	cmpq	$18, %rcx
	jae	.Lunix_path_BB67_16
	xorl	%edx, %edx
	cmpq	%rcx, %rdx
	jb	.Lunix_path_BB67_22
	jmp	.Lunix_path_BB67_30
.Lunix_path_BB67_16:
	movq	%rcx, %rax
	addq	$-18, %rax
	je	.Lunix_path_BB67_20
	xorl	%esi, %esi
	.p2align	4
.Lunix_path_BB67_18:
	movdqu	(%r14,%rsi), %xmm0
	movdqu	1(%r14,%rsi), %xmm1
	movdqu	2(%r14,%rsi), %xmm2
	movdqa	.Lunix_path_CPI67_0(%rip), %xmm3
	pcmpeqb	%xmm1, %xmm3
	movdqa	.Lunix_path_CPI67_1(%rip), %xmm4
	pcmpeqb	%xmm4, %xmm2
	pand	%xmm3, %xmm2
	pcmpeqb	%xmm4, %xmm0
	pcmpeqb	%xmm4, %xmm1
	por	%xmm2, %xmm1
	pand	%xmm0, %xmm1
	pmovmskb	%xmm1, %edx
	orl	$65536, %edx
	rep		bsfl	%edx, %edx
	cmpw	$15, %dx
	jbe	.Lunix_path_BB67_21
	addq	$16, %rsi
	cmpq	%rax, %rsi
	jb	.Lunix_path_BB67_18
.Lunix_path_BB67_20:
	movdqu	(%r14,%rax), %xmm0
	movdqu	1(%r14,%rax), %xmm1
	movdqu	2(%r14,%rax), %xmm2
	movdqa	.Lunix_path_CPI67_0(%rip), %xmm3
	pcmpeqb	%xmm1, %xmm3
	movdqa	.Lunix_path_CPI67_1(%rip), %xmm4
	pcmpeqb	%xmm4, %xmm2
	pand	%xmm3, %xmm2
	pcmpeqb	%xmm4, %xmm0
	pcmpeqb	%xmm4, %xmm1
	por	%xmm2, %xmm1
	pand	%xmm0, %xmm1
	pmovmskb	%xmm1, %edx
	orl	$65536, %edx
	rep		bsfl	%edx, %edx
	addq	%rax, %rdx
	cmpq	%rcx, %rdx
	jb	.Lunix_path_BB67_22
	jmp	.Lunix_path_BB67_30
.Lunix_path_BB67_21:
	movzwl	%dx, %edx
	addq	%rsi, %rdx
	cmpq	%rcx, %rdx
	jae	.Lunix_path_BB67_30
.Lunix_path_BB67_22:
	leaq	-2(%rcx), %rax
	leaq	-1(%rcx), %rsi
	jmp	.Lunix_path_BB67_25
	.p2align	4
.Lunix_path_BB67_23:
	cmpl	$47, %edi
	je	.Lunix_path_BB67_30
.Lunix_path_BB67_24:
	incq	%rdx
	cmpq	%rdx, %rcx
	je	.Lunix_path_BB67_31
.Lunix_path_BB67_25:
	cmpb	$47, (%r14,%rdx)
	jne	.Lunix_path_BB67_24
	cmpq	%rdx, %rsi
	je	.Lunix_path_BB67_30
	movzbl	1(%r14,%rdx), %edi
	cmpl	$46, %edi
	jne	.Lunix_path_BB67_23
	cmpq	%rdx, %rax
	je	.Lunix_path_BB67_30
	cmpb	$47, 2(%r14,%rdx)
	jne	.Lunix_path_BB67_24
.Lunix_path_BB67_30:
	cmpq	%rcx, %rdx
	jne	.Lunix_path_BB67_11
.Lunix_path_BB67_31:
	testq	%rbx, %rbx
	je	.Lunix_path_BB67_46
	movzbl	(%r14), %r15d
	movb	$1, %bpl
	cmpl	$47, %r15d
	je	.Lunix_path_BB67_38
	cmpl	$46, %r15d
	jne	.Lunix_path_BB67_37
	cmpq	$1, %rbx
	je	.Lunix_path_BB67_38
	cmpb	$47, 1(%r14)
	sete	%bpl
	jmp	.Lunix_path_BB67_38
.Lunix_path_BB67_37:
	xorl	%ebp, %ebp
.Lunix_path_BB67_38:
	movq	%rbx, %rcx
	movq	%rbx, %rax
	jmp	.Lunix_path_BB67_40
	.p2align	4
.Lunix_path_BB67_39:
	movq	%rax, %rcx
	testq	%rax, %rax
	je	.Lunix_path_BB67_46
.Lunix_path_BB67_40:
	decq	%rax
	je	.Lunix_path_BB67_47
	movzbl	(%r14,%rax), %edx
	cmpl	$47, %edx
	je	.Lunix_path_BB67_44
	cmpl	$46, %edx
	jne	.Lunix_path_BB67_49
	cmpb	$47, -1(%r14,%rax)
	jne	.Lunix_path_BB67_49
.Lunix_path_BB67_44:
	movq	%rbx, %rcx
	subq	%rax, %rcx
	cmpq	$8, %rcx
	jne	.Lunix_path_BB67_39
	movq	%r14, %rdi
	movq	%rax, %rsi
	callq	unix_path.filler.trimmed_blocks_len
	jmp	.Lunix_path_BB67_39
.Lunix_path_BB67_46:
	movb	$1, %al
	jmp	.Lunix_path_BB67_114
.Lunix_path_BB67_47:
	movw	$0, 12(%rsp)
	movl	$0, 8(%rsp)
	movl	$1, %edx
	testb	%bpl, %bpl
	je	.Lunix_path_BB67_72
	movb	$1, %r8b
	cmpb	$47, %r15b
	jne	.Lunix_path_BB67_73
	jmp	.Lunix_path_BB67_65
.Lunix_path_BB67_49:
	movw	$0, 12(%rsp)
	movl	$0, 8(%rsp)
	testb	%bpl, %bpl
	je	.Lunix_path_BB67_56
	leaq	-1(%rcx), %rsi
	leaq	-2(%rcx), %rdi
	xorl	%edx, %edx
	jmp	.Lunix_path_BB67_52
	.p2align	4
.Lunix_path_BB67_51:
	incq	%rdx
	cmpq	%rdx, %rsi
	je	.Lunix_path_BB67_62
.Lunix_path_BB67_52:
	movzbl	1(%r14,%rdx), %r8d
	cmpl	$47, %r8d
	je	.Lunix_path_BB67_51
	cmpl	$46, %r8d
	jne	.Lunix_path_BB67_63
	cmpq	%rdx, %rdi
	je	.Lunix_path_BB67_62
	cmpb	$47, 2(%r14,%rdx)
	je	.Lunix_path_BB67_51
	jmp	.Lunix_path_BB67_63
.Lunix_path_BB67_56:
	cmpb	$46, %r15b
	jne	.Lunix_path_BB67_60
	cmpb	$46, 1(%r14)
	jne	.Lunix_path_BB67_60
	cmpq	$2, %rcx
	jne	.Lunix_path_BB67_66
	movw	$0, 20(%rsp)
	movl	$0, 16(%rsp)
	xorl	%r8d, %r8d
	jmp	.Lunix_path_BB67_74
.Lunix_path_BB67_60:
	cmpq	$16, %rcx
	jb	.Lunix_path_BB67_72
.Lunix_path_BB67_68:
	movq	%rcx, %rax
	addq	$-16, %rax
	je	.Lunix_path_BB67_72
	movl	$16, %edx
	.p2align	4
.Lunix_path_BB67_70:
	movdqu	-16(%r14,%rdx), %xmm0
	pcmpeqb	.Lunix_path_CPI67_1(%rip), %xmm0
	pmovmskb	%xmm0, %esi
	xorl	%r8d, %r8d
	testl	%esi, %esi
	jne	.Lunix_path_BB67_73
	cmpq	%rax, %rdx
	leaq	16(%rdx), %rdx
	jb	.Lunix_path_BB67_70
	jmp	.Lunix_path_BB67_73
.Lunix_path_BB67_62:
	movq	%rax, %rdx
.Lunix_path_BB67_63:
	incq	%rdx
	movb	$1, %r8b
	cmpb	$47, %r15b
	jne	.Lunix_path_BB67_73
.Lunix_path_BB67_65:
	movq	%r14, 64(%rsp)
	movq	%rbx, 72(%rsp)
	movq	%rdx, 80(%rsp)
	movq	%rcx, 88(%rsp)
	movw	$1, 96(%rsp)
	movl	8(%rsp), %eax
	movl	%eax, 98(%rsp)
	movzwl	12(%rsp), %eax
	movw	%ax, 102(%rsp)
	leaq	64(%rsp), %rdi
	jmp	.Lunix_path_BB67_113
.Lunix_path_BB67_66:
	cmpb	$47, 2(%r14)
	sete	%al
	cmpq	$16, %rcx
	setb	%dl
	orb	%al, %dl
	je	.Lunix_path_BB67_68
.Lunix_path_BB67_72:
	xorl	%r8d, %r8d
.Lunix_path_BB67_73:
	movzwl	12(%rsp), %eax
	movw	%ax, 20(%rsp)
	movl	8(%rsp), %eax
	movl	%eax, 16(%rsp)
.Lunix_path_BB67_74:
	leaq	3(%r14), %rdi
	xorl	%edx, %edx
	movq	%rcx, %rsi
	jmp	.Lunix_path_BB67_77
	.p2align	4
.Lunix_path_BB67_75:
	xorl	%r8d, %r8d
.Lunix_path_BB67_76:
	addq	%r8, %rdx
	addq	$2, %rdx
	xorl	%r8d, %r8d
	movq	%rcx, %rsi
	subq	%rdx, %rsi
	je	.Lunix_path_BB67_96
.Lunix_path_BB67_77:
	movl	%r8d, %eax
	testb	$1, %r8b
	jne	.Lunix_path_BB67_96
	leaq	(%r14,%rdx), %r8
	cmpq	$1, %rsi
	je	.Lunix_path_BB67_91
	cmpb	$46, (%r8)
	jne	.Lunix_path_BB67_91
	cmpb	$46, 1(%r8)
	jne	.Lunix_path_BB67_91
	cmpq	$2, %rsi
	je	.Lunix_path_BB67_75
	cmpb	$47, 2(%r8)
	jne	.Lunix_path_BB67_91
	leaq	-2(%rsi), %r9
	leaq	(%rdi,%rdx), %r10
	addq	$-3, %rsi
	xorl	%r8d, %r8d
	jmp	.Lunix_path_BB67_85
	.p2align	4
.Lunix_path_BB67_84:
	incq	%r8
	cmpq	%r8, %r9
	je	.Lunix_path_BB67_90
.Lunix_path_BB67_85:
	movzbl	-1(%r10,%r8), %r11d
	cmpl	$47, %r11d
	je	.Lunix_path_BB67_84
	cmpl	$46, %r11d
	jne	.Lunix_path_BB67_76
	cmpq	%r8, %rsi
	je	.Lunix_path_BB67_90
	cmpb	$47, (%r10,%r8)
	je	.Lunix_path_BB67_84
	jmp	.Lunix_path_BB67_76
	.p2align	4
.Lunix_path_BB67_90:
	movq	%r9, %r8
	jmp	.Lunix_path_BB67_76
.Lunix_path_BB67_91:
	cmpq	$15, %rsi
	ja	.Lunix_path_BB67_97
	xorl	%eax, %eax
	.p2align	4
.Lunix_path_BB67_93:
	cmpb	$47, (%r8,%rax)
	je	.Lunix_path_BB67_102
	incq	%rax
	cmpq	%rax, %rsi
	jne	.Lunix_path_BB67_93
	movq	%rsi, %rax
	subq	%rax, %rsi
	jne	.Lunix_path_BB67_103
.Lunix_path_BB67_111:
	xorl	%edi, %edi
	jmp	.Lunix_path_BB67_112
.Lunix_path_BB67_96:
	xorb	$1, %al
	jmp	.Lunix_path_BB67_114
.Lunix_path_BB67_97:
	movq	%rsi, %rdi
	addq	$-16, %rdi
	je	.Lunix_path_BB67_101
	xorl	%r9d, %r9d
	.p2align	4
.Lunix_path_BB67_99:
	movdqu	(%r8,%r9), %xmm0
	pcmpeqb	.Lunix_path_CPI67_1(%rip), %xmm0
	pmovmskb	%xmm0, %eax
	orl	$65536, %eax
	rep		bsfl	%eax, %eax
	cmpw	$15, %ax
	jbe	.Lunix_path_BB67_110
	addq	$16, %r9
	cmpq	%rdi, %r9
	jb	.Lunix_path_BB67_99
.Lunix_path_BB67_101:
	movdqu	(%r8,%rdi), %xmm0
	pcmpeqb	.Lunix_path_CPI67_1(%rip), %xmm0
	pmovmskb	%xmm0, %eax
	orl	$65536, %eax
	rep		bsfl	%eax, %eax
	addq	%rdi, %rax
.Lunix_path_BB67_102:
	subq	%rax, %rsi
	je	.Lunix_path_BB67_111
.Lunix_path_BB67_103:
	leaq	(%rax,%r14), %rdi
	leaq	(%rdx,%rdi), %r8
	incq	%r8
	leaq	-1(%rsi), %r9
	xorl	%edi, %edi
	jmp	.Lunix_path_BB67_105
	.p2align	4
.Lunix_path_BB67_104:
	incq	%rdi
	cmpq	%rdi, %rsi
	je	.Lunix_path_BB67_109
.Lunix_path_BB67_105:
	movzbl	-1(%r8,%rdi), %r10d
	cmpl	$47, %r10d
	je	.Lunix_path_BB67_104
	cmpl	$46, %r10d
	jne	.Lunix_path_BB67_112
	cmpq	%rdi, %r9
	je	.Lunix_path_BB67_109
	cmpb	$47, (%r8,%rdi)
	je	.Lunix_path_BB67_104
	jmp	.Lunix_path_BB67_112
.Lunix_path_BB67_109:
	movq	%rsi, %rdi
.Lunix_path_BB67_112:
	addq	%rdx, %rax
	addq	%rdi, %rax
	movq	%r14, 24(%rsp)
	movq	%rbx, 32(%rsp)
	movq	%rax, 40(%rsp)
	movq	%rcx, 48(%rsp)
	movb	%bpl, 56(%rsp)
	movb	$0, 57(%rsp)
	movl	16(%rsp), %eax
	movl	%eax, 58(%rsp)
	movzwl	20(%rsp), %eax
	movw	%ax, 62(%rsp)
	leaq	24(%rsp), %rdi
.Lunix_path_BB67_113:
	callq	path_within.normal.are_names
.Lunix_path_BB67_114:
	andb	$1, %al
	addq	$104, %rsp
	popq	%rbx
	popq	%r14
	popq	%r15
	popq	%rbp
	retq
.Lunix_path_BB67_110:
	movzwl	%ax, %eax
	addq	%r9, %rax
	subq	%rax, %rsi
	jne	.Lunix_path_BB67_103
	jmp	.Lunix_path_BB67_111
.Lunix_path_func_end67:
	.size	path_within.normal.is_resolved, .Lunix_path_func_end67-path_within.normal.is_resolved
	.section	.rodata.cst16,"aM",@progbits,16
	.p2align	4, 0x0
.Lunix_path_CPI68_0:
	.zero	16,208
.Lunix_path_CPI68_1:
	.zero	16,47
.Lunix_path_CPI68_2:
	.zero	16,46
.Lunix_path_CPI68_3:
	.byte	254
	.byte	254
	.byte	254
	.byte	254
	.byte	254
	.byte	254
	.byte	254
	.byte	254
	.zero	1
	.zero	1
	.zero	1
	.zero	1
	.zero	1
	.zero	1
	.zero	1
	.zero	1
.Lunix_path_CPI68_4:
	.byte	46
	.byte	46
	.byte	46
	.byte	46
	.byte	46
	.byte	46
	.byte	46
	.byte	46
	.zero	1
	.zero	1
	.zero	1
	.zero	1
	.zero	1
	.zero	1
	.zero	1
	.zero	1
.Lunix_path_CPI68_5:
	.byte	47
	.byte	47
	.byte	47
	.byte	47
	.byte	47
	.byte	47
	.byte	47
	.byte	47
	.zero	1
	.zero	1
	.zero	1
	.zero	1
	.zero	1
	.zero	1
	.zero	1
	.zero	1
	.section	.text.path_within.normal.are_names,"ax",@progbits
	.p2align	4
	.type	path_within.normal.are_names,@function
# path_within::normal::are_names
path_within.normal.are_names:
	movq	16(%rdi), %rsi
	movq	24(%rdi), %rcx
	movq	%rcx, %r8
	movb	$1, %al
	subq	%rsi, %r8
	je	.Lunix_path_BB68_82
	pushq	%rbp
	pushq	%r15
	pushq	%r14
	pushq	%r12
	pushq	%rbx
	movq	(%rdi), %rdx
	leaq	(%rdx,%rsi), %r9
	xorl	%r11d, %r11d
	cmpb	$47, (%r9)
	movzbl	33(%rdi), %edi
	sete	%r11b
	movq	%r8, %r10
	subq	%r11, %r10
	je	.Lunix_path_BB68_52
	leaq	(%r9,%r11), %rbx
	movzbl	(%rbx), %ebp
	cmpl	$47, %ebp
	je	.Lunix_path_BB68_52
	cmpl	$46, %ebp
	jne	.Lunix_path_BB68_9
	cmpq	$2, %r10
	jb	.Lunix_path_BB68_52
	movzbl	1(%rbx), %ebp
	cmpl	$47, %ebp
	je	.Lunix_path_BB68_52
	cmpl	$46, %ebp
	jne	.Lunix_path_BB68_9
	cmpq	$2, %r10
	je	.Lunix_path_BB68_52
	cmpb	$47, 2(%rbx)
	je	.Lunix_path_BB68_52
.Lunix_path_BB68_9:
	movzbl	-1(%rdx,%rcx), %ebp
	andb	$-2, %bpl
	cmpb	$46, %bpl
	je	.Lunix_path_BB68_52
	cmpq	$17, %r10
	jae	.Lunix_path_BB68_13
.Lunix_path_BB68_11:
	cmpq	$9, %r10
	jae	.Lunix_path_BB68_21
	xorl	%r14d, %r14d
	jmp	.Lunix_path_BB68_37
.Lunix_path_BB68_13:
	cmpq	$32, %r10
	ja	.Lunix_path_BB68_23
	movdqu	(%rbx), %xmm0
	movdqu	1(%rbx), %xmm1
	pand	.Lunix_path_CPI68_0(%rip), %xmm1
	por	%xmm0, %xmm1
	pcmpeqb	.Lunix_path_CPI68_1(%rip), %xmm1
	pmovmskb	%xmm1, %ebp
	testl	%ebp, %ebp
	jne	.Lunix_path_BB68_16
	movdqu	-17(%rdx,%rcx), %xmm0
	movdqu	-16(%rdx,%rcx), %xmm1
	pand	.Lunix_path_CPI68_0(%rip), %xmm1
	por	%xmm0, %xmm1
	pcmpeqb	.Lunix_path_CPI68_1(%rip), %xmm1
	pmovmskb	%xmm1, %ebp
	testl	%ebp, %ebp
	je	.Lunix_path_BB68_50
.Lunix_path_BB68_16:
	cmpq	$18, %r10
	jbe	.Lunix_path_BB68_11
	movq	%r10, %r15
	addq	$-19, %r15
	jne	.Lunix_path_BB68_25
	xorl	%r15d, %r15d
	xorl	%r14d, %r14d
.Lunix_path_BB68_19:
	leaq	-17(%r10), %r12
	cmpq	%r14, %r12
	cmovbq	%r12, %r14
	movdqu	(%rbx,%r14), %xmm0
	movdqu	1(%rbx,%r14), %xmm1
	pand	.Lunix_path_CPI68_0(%rip), %xmm1
	por	%xmm0, %xmm1
	pcmpeqb	.Lunix_path_CPI68_1(%rip), %xmm1
	pmovmskb	%xmm1, %ebp
	testl	%ebp, %ebp
	je	.Lunix_path_BB68_36
	movdqu	(%rbx,%r15), %xmm0
	movdqu	1(%rbx,%r15), %xmm1
	movdqu	2(%rbx,%r15), %xmm2
	movdqu	3(%rbx,%r15), %xmm3
	movdqa	.Lunix_path_CPI68_2(%rip), %xmm4
	movdqa	%xmm2, %xmm5
	pcmpeqb	%xmm4, %xmm5
	movdqa	.Lunix_path_CPI68_1(%rip), %xmm6
	pcmpeqb	%xmm6, %xmm3
	pand	%xmm5, %xmm3
	pcmpeqb	%xmm1, %xmm4
	pcmpeqb	%xmm6, %xmm2
	por	%xmm3, %xmm2
	pand	%xmm4, %xmm2
	pcmpeqb	%xmm6, %xmm0
	pcmpeqb	%xmm6, %xmm1
	por	%xmm2, %xmm1
	pand	%xmm0, %xmm1
	pmovmskb	%xmm1, %ebx
	orl	$65536, %ebx
	rep		bsfl	%ebx, %r14d
	addq	%r15, %r14
	jmp	.Lunix_path_BB68_37
.Lunix_path_BB68_21:
	movq	1(%rbx), %xmm0
	pand	.Lunix_path_CPI68_3(%rip), %xmm0
	pcmpeqb	.Lunix_path_CPI68_4(%rip), %xmm0
	movq	(%rbx), %xmm1
	pcmpeqb	.Lunix_path_CPI68_5(%rip), %xmm1
	pand	%xmm0, %xmm1
	pmovmskb	%xmm1, %ebp
	orl	$256, %ebp
	rep		bsfl	%ebp, %r14d
	cmpb	$8, %r14b
	jb	.Lunix_path_BB68_37
	cmpq	$17, %r10
	movl	$17, %r14d
	cmovbq	%r10, %r14
	movq	-8(%rbx,%r14), %xmm0
	pand	.Lunix_path_CPI68_3(%rip), %xmm0
	pcmpeqb	.Lunix_path_CPI68_4(%rip), %xmm0
	movq	-9(%rbx,%r14), %xmm1
	pcmpeqb	.Lunix_path_CPI68_5(%rip), %xmm1
	pand	%xmm0, %xmm1
	pmovmskb	%xmm1, %ebx
	orl	$256, %ebx
	rep		bsfl	%ebx, %ebx
	addq	%rbx, %r14
	addq	$-9, %r14
	jmp	.Lunix_path_BB68_37
.Lunix_path_BB68_23:
	movdqu	-33(%rbx,%r10), %xmm1
	movdqu	-32(%rbx,%r10), %xmm2
	movdqa	.Lunix_path_CPI68_0(%rip), %xmm0
	pand	%xmm0, %xmm2
	por	%xmm1, %xmm2
	movdqa	.Lunix_path_CPI68_1(%rip), %xmm1
	pcmpeqb	%xmm1, %xmm2
	movdqu	-17(%rdx,%rcx), %xmm3
	movdqu	-16(%rdx,%rcx), %xmm4
	pand	%xmm0, %xmm4
	por	%xmm3, %xmm4
	pcmpeqb	%xmm1, %xmm4
	por	%xmm2, %xmm4
	pmovmskb	%xmm4, %ebp
	testl	%ebp, %ebp
	je	.Lunix_path_BB68_32
	leaq	-19(%r10), %r15
.Lunix_path_BB68_25:
	xorl	%r14d, %r14d
	jmp	.Lunix_path_BB68_29
	.p2align	4
.Lunix_path_BB68_26:
	movdqu	2(%rbx,%r14), %xmm2
	movdqu	3(%rbx,%r14), %xmm3
	movdqa	.Lunix_path_CPI68_2(%rip), %xmm4
	movdqa	%xmm2, %xmm5
	pcmpeqb	%xmm4, %xmm5
	movdqa	.Lunix_path_CPI68_1(%rip), %xmm6
	pcmpeqb	%xmm6, %xmm3
	pand	%xmm5, %xmm3
	pcmpeqb	%xmm1, %xmm4
	pcmpeqb	%xmm6, %xmm2
	por	%xmm3, %xmm2
	pand	%xmm4, %xmm2
	pcmpeqb	%xmm6, %xmm0
	pcmpeqb	%xmm6, %xmm1
	por	%xmm2, %xmm1
	pand	%xmm0, %xmm1
	pmovmskb	%xmm1, %ebp
	orl	$65536, %ebp
	rep		bsfl	%ebp, %ebp
	cmpw	$15, %bp
	jbe	.Lunix_path_BB68_31
	addq	$16, %r14
.Lunix_path_BB68_28:
	cmpq	%r15, %r14
	jae	.Lunix_path_BB68_19
.Lunix_path_BB68_29:
	movdqu	(%rbx,%r14), %xmm0
	movdqu	1(%rbx,%r14), %xmm1
	movdqa	.Lunix_path_CPI68_0(%rip), %xmm2
	pand	%xmm1, %xmm2
	por	%xmm0, %xmm2
	pcmpeqb	.Lunix_path_CPI68_1(%rip), %xmm2
	pmovmskb	%xmm2, %ebp
	testl	%ebp, %ebp
	jne	.Lunix_path_BB68_26
	addq	$16, %r14
	cmpq	%r15, %r14
	jb	.Lunix_path_BB68_29
	jmp	.Lunix_path_BB68_28
.Lunix_path_BB68_31:
	movzwl	%bp, %ebx
	addq	%rbx, %r14
	jmp	.Lunix_path_BB68_37
.Lunix_path_BB68_32:
	movq	%r10, %r14
	addq	$-33, %r14
	je	.Lunix_path_BB68_50
	leaq	(%rsi,%r11), %r15
	addq	%rdx, %r15
	addq	$17, %r15
	xorl	%r12d, %r12d
.Lunix_path_BB68_34:
	movdqu	-17(%r15,%r12), %xmm2
	movdqu	-16(%r15,%r12), %xmm3
	movdqu	-1(%r15,%r12), %xmm4
	movdqu	(%r15,%r12), %xmm5
	pand	%xmm0, %xmm3
	por	%xmm2, %xmm3
	pcmpeqb	%xmm1, %xmm3
	pand	%xmm0, %xmm5
	por	%xmm4, %xmm5
	pcmpeqb	%xmm1, %xmm5
	por	%xmm3, %xmm5
	pmovmskb	%xmm5, %ebp
	testl	%ebp, %ebp
	jne	.Lunix_path_BB68_16
	addq	$32, %r12
	cmpq	%r14, %r12
	jb	.Lunix_path_BB68_34
	jmp	.Lunix_path_BB68_50
.Lunix_path_BB68_36:
	addq	$16, %r14
.Lunix_path_BB68_37:
	cmpq	%r10, %r14
	jae	.Lunix_path_BB68_48
	addq	%rsi, %r11
	movq	%rcx, %rbx
	subq	%r11, %rbx
	leaq	(%rdx,%r11), %r15
	addq	$3, %r15
	jmp	.Lunix_path_BB68_41
.Lunix_path_BB68_39:
	cmpl	$47, %ebp
	je	.Lunix_path_BB68_49
.Lunix_path_BB68_40:
	cmpq	%r10, %r14
	jae	.Lunix_path_BB68_51
.Lunix_path_BB68_41:
	movq	%r14, %r11
	incq	%r14
	cmpb	$47, -3(%r15,%r11)
	jne	.Lunix_path_BB68_40
	cmpq	%r14, %r10
	jbe	.Lunix_path_BB68_49
	movzbl	-2(%r15,%r11), %ebp
	cmpl	$46, %ebp
	jne	.Lunix_path_BB68_39
	leaq	2(%r11), %r12
	cmpq	%r12, %r10
	jbe	.Lunix_path_BB68_49
	movzbl	-1(%r15,%r11), %ebp
	cmpl	$46, %ebp
	jne	.Lunix_path_BB68_39
	leaq	3(%r11), %r12
	cmpq	%r12, %r10
	jbe	.Lunix_path_BB68_49
	cmpb	$47, (%r15,%r11)
	jne	.Lunix_path_BB68_40
	jmp	.Lunix_path_BB68_49
.Lunix_path_BB68_48:
	movq	%r14, %r11
.Lunix_path_BB68_49:
	cmpq	%r10, %r11
	jne	.Lunix_path_BB68_52
.Lunix_path_BB68_50:
	cmpb	$47, (%r9)
	setne	%al
	jmp	.Lunix_path_BB68_81
.Lunix_path_BB68_51:
	movq	%rbx, %r11
	cmpq	%r10, %r11
	je	.Lunix_path_BB68_50
.Lunix_path_BB68_52:
	leaq	1(%rdx), %r9
	jmp	.Lunix_path_BB68_55
	.p2align	4
.Lunix_path_BB68_53:
	xorl	%edi, %edi
.Lunix_path_BB68_54:
	addq	%rsi, %r10
	addq	%rdi, %r10
	xorl	%edi, %edi
	movq	%rcx, %r8
	movq	%r10, %rsi
	subq	%r10, %r8
	je	.Lunix_path_BB68_81
.Lunix_path_BB68_55:
	testb	$1, %dil
	jne	.Lunix_path_BB68_80
	leaq	(%rdx,%rsi), %rdi
	cmpq	$1, %r8
	je	.Lunix_path_BB68_61
	cmpb	$46, (%rdi)
	jne	.Lunix_path_BB68_61
	cmpb	$46, 1(%rdi)
	jne	.Lunix_path_BB68_61
	cmpq	$2, %r8
	je	.Lunix_path_BB68_80
	cmpb	$47, 2(%rdi)
	je	.Lunix_path_BB68_80
.Lunix_path_BB68_61:
	cmpq	$15, %r8
	ja	.Lunix_path_BB68_66
	xorl	%r10d, %r10d
	.p2align	4
.Lunix_path_BB68_63:
	cmpb	$47, (%rdi,%r10)
	je	.Lunix_path_BB68_71
	incq	%r10
	cmpq	%r10, %r8
	jne	.Lunix_path_BB68_63
	movq	%r8, %r10
	subq	%r10, %r8
	jne	.Lunix_path_BB68_72
	jmp	.Lunix_path_BB68_53
	.p2align	4
.Lunix_path_BB68_66:
	movq	%r8, %r11
	addq	$-16, %r11
	je	.Lunix_path_BB68_70
	xorl	%ebx, %ebx
	.p2align	4
.Lunix_path_BB68_68:
	movdqu	(%rdi,%rbx), %xmm0
	pcmpeqb	.Lunix_path_CPI68_1(%rip), %xmm0
	pmovmskb	%xmm0, %r10d
	orl	$65536, %r10d
	rep		bsfl	%r10d, %r10d
	cmpw	$15, %r10w
	jbe	.Lunix_path_BB68_79
	addq	$16, %rbx
	cmpq	%r11, %rbx
	jb	.Lunix_path_BB68_68
.Lunix_path_BB68_70:
	movdqu	(%rdi,%r11), %xmm0
	pcmpeqb	.Lunix_path_CPI68_1(%rip), %xmm0
	pmovmskb	%xmm0, %edi
	orl	$65536, %edi
	rep		bsfl	%edi, %r10d
	addq	%r11, %r10
.Lunix_path_BB68_71:
	subq	%r10, %r8
	je	.Lunix_path_BB68_53
.Lunix_path_BB68_72:
	leaq	(%r10,%rsi), %r11
	addq	%r9, %r11
	leaq	-1(%r8), %rbx
	xorl	%edi, %edi
	jmp	.Lunix_path_BB68_74
	.p2align	4
.Lunix_path_BB68_73:
	incq	%rdi
	cmpq	%rdi, %r8
	je	.Lunix_path_BB68_78
.Lunix_path_BB68_74:
	movzbl	-1(%r11,%rdi), %ebp
	cmpl	$47, %ebp
	je	.Lunix_path_BB68_73
	cmpl	$46, %ebp
	jne	.Lunix_path_BB68_54
	cmpq	%rdi, %rbx
	je	.Lunix_path_BB68_78
	cmpb	$47, (%r11,%rdi)
	je	.Lunix_path_BB68_73
	jmp	.Lunix_path_BB68_54
	.p2align	4
.Lunix_path_BB68_78:
	movq	%r8, %rdi
	jmp	.Lunix_path_BB68_54
.Lunix_path_BB68_79:
	movzwl	%r10w, %r10d
	addq	%rbx, %r10
	subq	%r10, %r8
	jne	.Lunix_path_BB68_72
	jmp	.Lunix_path_BB68_53
.Lunix_path_BB68_80:
	xorl	%eax, %eax
.Lunix_path_BB68_81:
	popq	%rbx
	popq	%r12
	popq	%r14
	popq	%r15
	popq	%rbp
.Lunix_path_BB68_82:
	retq
.Lunix_path_func_end68:
	.size	path_within.normal.are_names, .Lunix_path_func_end68-path_within.normal.are_names
	.section	.rodata.cst16,"aM",@progbits,16
	.p2align	4, 0x0
.Lunix_path_CPI69_0:
	.zero	16,208
.Lunix_path_CPI69_1:
	.zero	16,47
.Lunix_path_CPI69_2:
	.zero	16,46
.Lunix_path_CPI69_3:
	.byte	254
	.byte	254
	.byte	254
	.byte	254
	.byte	254
	.byte	254
	.byte	254
	.byte	254
	.zero	1
	.zero	1
	.zero	1
	.zero	1
	.zero	1
	.zero	1
	.zero	1
	.zero	1
.Lunix_path_CPI69_4:
	.byte	46
	.byte	46
	.byte	46
	.byte	46
	.byte	46
	.byte	46
	.byte	46
	.byte	46
	.zero	1
	.zero	1
	.zero	1
	.zero	1
	.zero	1
	.zero	1
	.zero	1
	.zero	1
.Lunix_path_CPI69_5:
	.byte	47
	.byte	47
	.byte	47
	.byte	47
	.byte	47
	.byte	47
	.byte	47
	.byte	47
	.zero	1
	.zero	1
	.zero	1
	.zero	1
	.zero	1
	.zero	1
	.zero	1
	.zero	1
	.section	.text.path_within.resolved.resolve_to_path_buf,"ax",@progbits
	.p2align	4
	.type	path_within.resolved.resolve_to_path_buf,@function
# path_within::resolved::resolve_to_path_buf
path_within.resolved.resolve_to_path_buf:
	pushq	%rbp
	pushq	%r15
	pushq	%r14
	pushq	%r13
	pushq	%r12
	pushq	%rbx
	subq	$216, %rsp
	movq	%rdx, %r14
	movq	%rsi, %r15
	movq	%rdi, %rbx
	pxor	%xmm0, %xmm0
	movdqa	%xmm0, 192(%rsp)
	movdqa	%xmm0, 176(%rsp)
	movl	$0, 8(%rsp)
	movl	$0, 11(%rsp)
	movdqa	%xmm0, 16(%rsp)
	movdqa	%xmm0, 32(%rsp)
	movdqa	%xmm0, 80(%rsp)
	movdqa	%xmm0, 96(%rsp)
	movdqa	%xmm0, 112(%rsp)
	movdqa	%xmm0, 128(%rsp)
	movdqa	%xmm0, 144(%rsp)
	movdqa	%xmm0, 160(%rsp)
	movdqa	%xmm0, 48(%rsp)
	movq	$0, 64(%rsp)
	testq	%rdx, %rdx
	je	.Lunix_path_BB69_1
	cmpb	$47, (%r15)
	sete	%r13b
	movzbl	-1(%r15,%r14), %eax
	andb	$-2, %al
	movq	%r14, %r12
	cmpb	$46, %al
	jne	.Lunix_path_BB69_13
	movq	%r14, %rax
	jmp	.Lunix_path_BB69_4
	.p2align	4
.Lunix_path_BB69_11:
	movq	%rax, %r12
	testq	%rax, %rax
	je	.Lunix_path_BB69_12
.Lunix_path_BB69_4:
	decq	%rax
	je	.Lunix_path_BB69_5
	movzbl	(%r15,%rax), %ecx
	cmpl	$47, %ecx
	je	.Lunix_path_BB69_9
	cmpl	$46, %ecx
	jne	.Lunix_path_BB69_13
	cmpb	$47, -1(%r15,%rax)
	jne	.Lunix_path_BB69_13
.Lunix_path_BB69_9:
	movq	%r14, %rcx
	subq	%rax, %rcx
	cmpq	$8, %rcx
	jne	.Lunix_path_BB69_11
	movq	%r15, %rdi
	movq	%rax, %rsi
	callq	unix_path.filler.trimmed_blocks_len
	jmp	.Lunix_path_BB69_11
.Lunix_path_BB69_1:
	xorl	%r13d, %r13d
.Lunix_path_BB69_12:
	xorl	%r12d, %r12d
.Lunix_path_BB69_13:
	xorl	%edx, %edx
	jmp	.Lunix_path_BB69_14
	.p2align	4
.Lunix_path_BB69_19:
	addq	%rax, %rdx
	cmpq	$4, %rdx
	jae	.Lunix_path_BB69_20
.Lunix_path_BB69_14:
	movq	%rdx, %rax
	cmpq	%r12, %rdx
	jae	.Lunix_path_BB69_21
	movzbl	(%r15,%rax), %ecx
	movl	$1, %edx
	cmpl	$47, %ecx
	je	.Lunix_path_BB69_19
	cmpl	$46, %ecx
	jne	.Lunix_path_BB69_21
	leaq	1(%rax), %rcx
	cmpq	%r12, %rcx
	je	.Lunix_path_BB69_19
	movl	$2, %edx
	cmpb	$47, (%r15,%rcx)
	je	.Lunix_path_BB69_19
.Lunix_path_BB69_21:
	movq	%r12, %rcx
	subq	%rax, %rcx
	je	.Lunix_path_BB69_73
.Lunix_path_BB69_22:
	leaq	(%r15,%rax), %rdx
	xorl	%edi, %edi
	cmpb	$47, (%rdx)
	sete	%dil
	movq	%rcx, %rsi
	subq	%rdi, %rsi
	je	.Lunix_path_BB69_73
	leaq	(%rdx,%rdi), %r8
	movzbl	(%r8), %r9d
	cmpl	$47, %r9d
	je	.Lunix_path_BB69_73
	cmpl	$46, %r9d
	jne	.Lunix_path_BB69_30
	cmpq	$2, %rsi
	jb	.Lunix_path_BB69_73
	movzbl	1(%r8), %r9d
	cmpl	$47, %r9d
	je	.Lunix_path_BB69_73
	cmpl	$46, %r9d
	jne	.Lunix_path_BB69_30
	cmpq	$2, %rsi
	je	.Lunix_path_BB69_73
	cmpb	$47, 2(%r8)
	je	.Lunix_path_BB69_73
.Lunix_path_BB69_30:
	movzbl	-1(%r15,%r12), %r9d
	andb	$-2, %r9b
	cmpb	$46, %r9b
	je	.Lunix_path_BB69_73
	cmpq	$17, %rsi
	jae	.Lunix_path_BB69_32
.Lunix_path_BB69_45:
	cmpq	$9, %rsi
	jae	.Lunix_path_BB69_47
	xorl	%r9d, %r9d
	jmp	.Lunix_path_BB69_58
.Lunix_path_BB69_5:
	movl	$1, %r12d
	jmp	.Lunix_path_BB69_13
.Lunix_path_BB69_20:
	movq	%r15, %rdi
	movq	%r12, %rsi
	callq	unix_path.filler.filler_end_from
	movq	%r12, %rcx
	subq	%rax, %rcx
	jne	.Lunix_path_BB69_22
	jmp	.Lunix_path_BB69_73
.Lunix_path_BB69_32:
	cmpq	$32, %rsi
	ja	.Lunix_path_BB69_35
	movdqu	(%r8), %xmm0
	movdqu	1(%r8), %xmm1
	pand	.Lunix_path_CPI69_0(%rip), %xmm1
	por	%xmm0, %xmm1
	pcmpeqb	.Lunix_path_CPI69_1(%rip), %xmm1
	pmovmskb	%xmm1, %r9d
	testl	%r9d, %r9d
	jne	.Lunix_path_BB69_44
	movdqu	-17(%r15,%r12), %xmm0
	movdqu	-16(%r15,%r12), %xmm1
	pand	.Lunix_path_CPI69_0(%rip), %xmm1
	por	%xmm0, %xmm1
	pcmpeqb	.Lunix_path_CPI69_1(%rip), %xmm1
	pmovmskb	%xmm1, %r9d
	testl	%r9d, %r9d
	je	.Lunix_path_BB69_72
.Lunix_path_BB69_44:
	cmpq	$18, %rsi
	jbe	.Lunix_path_BB69_45
	movq	%rsi, %r10
	addq	$-19, %r10
	jne	.Lunix_path_BB69_37
	xorl	%r10d, %r10d
	xorl	%r9d, %r9d
.Lunix_path_BB69_55:
	leaq	-17(%rsi), %r11
	cmpq	%r9, %r11
	cmovbq	%r11, %r9
	movdqu	(%r8,%r9), %xmm0
	movdqu	1(%r8,%r9), %xmm1
	pand	.Lunix_path_CPI69_0(%rip), %xmm1
	por	%xmm0, %xmm1
	pcmpeqb	.Lunix_path_CPI69_1(%rip), %xmm1
	pmovmskb	%xmm1, %r11d
	testl	%r11d, %r11d
	je	.Lunix_path_BB69_56
	movdqu	(%r8,%r10), %xmm0
	movdqu	1(%r8,%r10), %xmm1
	movdqu	2(%r8,%r10), %xmm2
	movdqu	3(%r8,%r10), %xmm3
	movdqa	.Lunix_path_CPI69_2(%rip), %xmm4
	movdqa	%xmm2, %xmm5
	pcmpeqb	%xmm4, %xmm5
	movdqa	.Lunix_path_CPI69_1(%rip), %xmm6
	pcmpeqb	%xmm6, %xmm3
	pand	%xmm5, %xmm3
	pcmpeqb	%xmm1, %xmm4
	pcmpeqb	%xmm6, %xmm2
	por	%xmm3, %xmm2
	pand	%xmm4, %xmm2
	pcmpeqb	%xmm6, %xmm0
	pcmpeqb	%xmm6, %xmm1
	por	%xmm2, %xmm1
	pand	%xmm0, %xmm1
	pmovmskb	%xmm1, %r8d
	orl	$65536, %r8d
	rep		bsfl	%r8d, %r9d
	addq	%r10, %r9
	jmp	.Lunix_path_BB69_58
.Lunix_path_BB69_47:
	movq	1(%r8), %xmm0
	pand	.Lunix_path_CPI69_3(%rip), %xmm0
	pcmpeqb	.Lunix_path_CPI69_4(%rip), %xmm0
	movq	(%r8), %xmm1
	pcmpeqb	.Lunix_path_CPI69_5(%rip), %xmm1
	pand	%xmm0, %xmm1
	pmovmskb	%xmm1, %r9d
	orl	$256, %r9d
	rep		bsfl	%r9d, %r9d
	cmpb	$8, %r9b
	jb	.Lunix_path_BB69_58
	cmpq	$17, %rsi
	movl	$17, %r9d
	cmovbq	%rsi, %r9
	movq	-8(%r8,%r9), %xmm0
	pand	.Lunix_path_CPI69_3(%rip), %xmm0
	pcmpeqb	.Lunix_path_CPI69_4(%rip), %xmm0
	movq	-9(%r8,%r9), %xmm1
	pcmpeqb	.Lunix_path_CPI69_5(%rip), %xmm1
	pand	%xmm0, %xmm1
	pmovmskb	%xmm1, %r8d
	orl	$256, %r8d
	rep		bsfl	%r8d, %r8d
	addq	%r8, %r9
	addq	$-9, %r9
	jmp	.Lunix_path_BB69_58
.Lunix_path_BB69_35:
	movdqu	-33(%r8,%rsi), %xmm1
	movdqu	-32(%r8,%rsi), %xmm2
	movdqa	.Lunix_path_CPI69_0(%rip), %xmm0
	pand	%xmm0, %xmm2
	por	%xmm1, %xmm2
	movdqa	.Lunix_path_CPI69_1(%rip), %xmm1
	pcmpeqb	%xmm1, %xmm2
	movdqu	-17(%r15,%r12), %xmm3
	movdqu	-16(%r15,%r12), %xmm4
	pand	%xmm0, %xmm4
	por	%xmm3, %xmm4
	pcmpeqb	%xmm1, %xmm4
	por	%xmm2, %xmm4
	pmovmskb	%xmm4, %r9d
	testl	%r9d, %r9d
	je	.Lunix_path_BB69_40
	leaq	-19(%rsi), %r10
.Lunix_path_BB69_37:
	xorl	%r9d, %r9d
	jmp	.Lunix_path_BB69_38
	.p2align	4
.Lunix_path_BB69_51:
	movdqu	2(%r8,%r9), %xmm2
	movdqu	3(%r8,%r9), %xmm3
	movdqa	.Lunix_path_CPI69_2(%rip), %xmm4
	movdqa	%xmm2, %xmm5
	pcmpeqb	%xmm4, %xmm5
	movdqa	.Lunix_path_CPI69_1(%rip), %xmm6
	pcmpeqb	%xmm6, %xmm3
	pand	%xmm5, %xmm3
	pcmpeqb	%xmm1, %xmm4
	pcmpeqb	%xmm6, %xmm2
	por	%xmm3, %xmm2
	pand	%xmm4, %xmm2
	pcmpeqb	%xmm6, %xmm0
	pcmpeqb	%xmm6, %xmm1
	por	%xmm2, %xmm1
	pand	%xmm0, %xmm1
	pmovmskb	%xmm1, %r11d
	orl	$65536, %r11d
	rep		bsfl	%r11d, %r11d
	cmpw	$15, %r11w
	jbe	.Lunix_path_BB69_52
	addq	$16, %r9
.Lunix_path_BB69_54:
	cmpq	%r10, %r9
	jae	.Lunix_path_BB69_55
.Lunix_path_BB69_38:
	movdqu	(%r8,%r9), %xmm0
	movdqu	1(%r8,%r9), %xmm1
	movdqa	.Lunix_path_CPI69_0(%rip), %xmm2
	pand	%xmm1, %xmm2
	por	%xmm0, %xmm2
	pcmpeqb	.Lunix_path_CPI69_1(%rip), %xmm2
	pmovmskb	%xmm2, %r11d
	testl	%r11d, %r11d
	jne	.Lunix_path_BB69_51
	addq	$16, %r9
	cmpq	%r10, %r9
	jb	.Lunix_path_BB69_38
	jmp	.Lunix_path_BB69_54
.Lunix_path_BB69_52:
	movzwl	%r11w, %r8d
	addq	%r8, %r9
	jmp	.Lunix_path_BB69_58
.Lunix_path_BB69_40:
	movq	%rsi, %r9
	addq	$-33, %r9
	je	.Lunix_path_BB69_72
	leaq	(%rax,%rdi), %r10
	addq	%r15, %r10
	addq	$17, %r10
	xorl	%r11d, %r11d
.Lunix_path_BB69_43:
	movdqu	-17(%r10,%r11), %xmm2
	movdqu	-16(%r10,%r11), %xmm3
	movdqu	-1(%r10,%r11), %xmm4
	movdqu	(%r10,%r11), %xmm5
	pand	%xmm0, %xmm3
	por	%xmm2, %xmm3
	pcmpeqb	%xmm1, %xmm3
	pand	%xmm0, %xmm5
	por	%xmm4, %xmm5
	pcmpeqb	%xmm1, %xmm5
	por	%xmm3, %xmm5
	pmovmskb	%xmm5, %ebp
	testl	%ebp, %ebp
	jne	.Lunix_path_BB69_44
	addq	$32, %r11
	cmpq	%r9, %r11
	jb	.Lunix_path_BB69_43
	jmp	.Lunix_path_BB69_72
.Lunix_path_BB69_56:
	addq	$16, %r9
.Lunix_path_BB69_58:
	cmpq	%rsi, %r9
	jae	.Lunix_path_BB69_59
	addq	%rdi, %rax
	subq	%rax, %r12
	leaq	(%r15,%rax), %rdi
	addq	$3, %rdi
	jmp	.Lunix_path_BB69_61
.Lunix_path_BB69_64:
	cmpl	$47, %r8d
	je	.Lunix_path_BB69_71
.Lunix_path_BB69_69:
	cmpq	%rsi, %r9
	jae	.Lunix_path_BB69_70
.Lunix_path_BB69_61:
	movq	%r9, %rax
	incq	%r9
	cmpb	$47, -3(%rdi,%rax)
	jne	.Lunix_path_BB69_69
	cmpq	%r9, %rsi
	jbe	.Lunix_path_BB69_71
	movzbl	-2(%rdi,%rax), %r8d
	cmpl	$46, %r8d
	jne	.Lunix_path_BB69_64
	leaq	2(%rax), %r8
	cmpq	%r8, %rsi
	jbe	.Lunix_path_BB69_71
	movzbl	-1(%rdi,%rax), %r8d
	cmpl	$46, %r8d
	jne	.Lunix_path_BB69_64
	leaq	3(%rax), %r8
	cmpq	%r8, %rsi
	jbe	.Lunix_path_BB69_71
	cmpb	$47, (%rdi,%rax)
	jne	.Lunix_path_BB69_69
	jmp	.Lunix_path_BB69_71
.Lunix_path_BB69_59:
	movq	%r9, %rax
.Lunix_path_BB69_71:
	cmpq	%rsi, %rax
	jne	.Lunix_path_BB69_73
.Lunix_path_BB69_72:
	leaq	1(%rcx), %rax
	movl	$0, 11(%rsp)
	movl	$0, 8(%rsp)
	pxor	%xmm0, %xmm0
	movdqa	%xmm0, 16(%rsp)
	movdqa	%xmm0, 32(%rsp)
	movl	$1, %r8d
	movq	$-1, %rsi
	xorl	%edi, %edi
	movq	%rdx, %r15
	movq	%rcx, %r14
	jmp	.Lunix_path_BB69_74
.Lunix_path_BB69_70:
	movq	%r12, %rax
	cmpq	%rsi, %rax
	je	.Lunix_path_BB69_72
.Lunix_path_BB69_73:
	leaq	48(%rsp), %rdi
	movq	%r15, %rsi
	movq	%r14, %rdx
	callq	path_within.backward.count_resolved
	movq	48(%rsp), %rdi
	movq	56(%rsp), %rsi
	movq	64(%rsp), %rax
	movl	$0, 8(%rsp)
	movl	$0, 11(%rsp)
	pxor	%xmm0, %xmm0
	movdqa	%xmm0, 16(%rsp)
	movdqa	%xmm0, 32(%rsp)
	xorl	%r8d, %r8d
.Lunix_path_BB69_74:
	movb	%r13b, 80(%rsp)
	movl	8(%rsp), %ecx
	movl	11(%rsp), %edx
	movl	%ecx, 81(%rsp)
	movl	%edx, 84(%rsp)
	movq	%rdi, 88(%rsp)
	movq	%r15, 96(%rsp)
	movq	%r14, 104(%rsp)
	movq	%rsi, 112(%rsp)
	movq	%rax, 120(%rsp)
	movq	%r8, 128(%rsp)
	leaq	.Lunix_path_static.5(%rip), %rax
	movq	%rax, 136(%rsp)
	movaps	16(%rsp), %xmm0
	movaps	32(%rsp), %xmm1
	movaps	%xmm0, 144(%rsp)
	movaps	%xmm1, 160(%rsp)
	leaq	176(%rsp), %rdi
	leaq	80(%rsp), %rsi
	callq	path_within.write.Layout.to_path_buf
	movzbl	176(%rsp), %eax
	movb	%al, (%rbx)
	movups	184(%rsp), %xmm0
	movups	%xmm0, 8(%rbx)
	movq	200(%rsp), %rax
	movq	%rax, 24(%rbx)
	addq	$216, %rsp
	popq	%rbx
	popq	%r12
	popq	%r13
	popq	%r14
	popq	%r15
	popq	%rbp
	retq
.Lunix_path_func_end69:
	.size	path_within.resolved.resolve_to_path_buf, .Lunix_path_func_end69-path_within.resolved.resolve_to_path_buf
	.section	.rodata.cst16,"aM",@progbits,16
	.p2align	4, 0x0
.Lunix_path_CPI70_0:
	.zero	16,47
	.section	.text.path_within.backward.count_resolved,"ax",@progbits
	.p2align	4
	.type	path_within.backward.count_resolved,@function
# path_within::backward::count_resolved
path_within.backward.count_resolved:
	pushq	%r15
	pushq	%r14
	pushq	%rbx
	movq	%rdx, %r15
	movq	%rsi, %r14
	movq	%rdi, %rbx
	testq	%rdx, %rdx
	je	.Lunix_path_BB70_11
	movzbl	-1(%r14,%r15), %eax
	andb	$-2, %al
	movq	%r15, %rsi
	cmpb	$46, %al
	jne	.Lunix_path_BB70_12
	movq	%r15, %rsi
	movq	%r15, %rax
	jmp	.Lunix_path_BB70_3
	.p2align	4
.Lunix_path_BB70_10:
	movq	%rax, %rsi
	testq	%rax, %rax
	je	.Lunix_path_BB70_11
.Lunix_path_BB70_3:
	decq	%rax
	je	.Lunix_path_BB70_4
	movzbl	(%r14,%rax), %ecx
	cmpl	$47, %ecx
	je	.Lunix_path_BB70_8
	cmpl	$46, %ecx
	jne	.Lunix_path_BB70_12
	cmpb	$47, -1(%r14,%rax)
	jne	.Lunix_path_BB70_12
.Lunix_path_BB70_8:
	movq	%r15, %rcx
	subq	%rax, %rcx
	cmpq	$8, %rcx
	jne	.Lunix_path_BB70_10
	movq	%r14, %rdi
	movq	%rax, %rsi
	callq	unix_path.filler.trimmed_blocks_len
	jmp	.Lunix_path_BB70_10
.Lunix_path_BB70_11:
	xorl	%esi, %esi
.Lunix_path_BB70_12:
	xorl	%eax, %eax
	xorl	%ecx, %ecx
.Lunix_path_BB70_13:
	xorl	%edx, %edx
	jmp	.Lunix_path_BB70_14
.Lunix_path_BB70_29:
	incq	%rdx
	.p2align	4
.Lunix_path_BB70_30:
	testq	%rdi, %rdi
	je	.Lunix_path_BB70_33
.Lunix_path_BB70_14:
	movq	%rsi, %r8
	incq	%rsi
	movq	%r8, %rdi
	.p2align	4
.Lunix_path_BB70_15:
	cmpq	$15, %rdi
	jbe	.Lunix_path_BB70_18
	movdqu	-16(%r14,%rdi), %xmm0
	pcmpeqb	.Lunix_path_CPI70_0(%rip), %xmm0
	addq	$-16, %rdi
	pmovmskb	%xmm0, %r9d
	addq	$-16, %rsi
	testl	%r9d, %r9d
	je	.Lunix_path_BB70_15
	movzwl	%r9w, %esi
	bsrq	%rsi, %rsi
	xorq	$63, %rsi
	subq	%rsi, %rdi
	addq	$64, %rdi
	jmp	.Lunix_path_BB70_21
	.p2align	4
.Lunix_path_BB70_18:
	cmpq	$1, %rsi
	je	.Lunix_path_BB70_19
	leaq	-1(%rsi), %rdi
	cmpb	$47, -2(%r14,%rsi)
	movq	%rdi, %rsi
	jne	.Lunix_path_BB70_18
	jmp	.Lunix_path_BB70_21
	.p2align	4
.Lunix_path_BB70_19:
	xorl	%edi, %edi
.Lunix_path_BB70_21:
	cmpq	$1, %rdi
	movq	%rdi, %rsi
	adcq	$-1, %rsi
	subq	%rdi, %r8
	je	.Lunix_path_BB70_30
	cmpq	$1, %r8
	jne	.Lunix_path_BB70_26
	cmpb	$46, (%r14,%rdi)
	je	.Lunix_path_BB70_30
	jmp	.Lunix_path_BB70_24
	.p2align	4
.Lunix_path_BB70_26:
	cmpq	$2, %r8
	ja	.Lunix_path_BB70_24
	cmpb	$46, (%r14,%rdi)
	jne	.Lunix_path_BB70_24
	cmpb	$46, 1(%r14,%rdi)
	je	.Lunix_path_BB70_29
	.p2align	4
.Lunix_path_BB70_24:
	testq	%rdx, %rdx
	je	.Lunix_path_BB70_31
	decq	%rdx
	jmp	.Lunix_path_BB70_30
	.p2align	4
.Lunix_path_BB70_31:
	incq	%rax
	addq	%r8, %rcx
	incq	%rcx
	testq	%rdi, %rdi
	jne	.Lunix_path_BB70_13
	xorl	%edx, %edx
.Lunix_path_BB70_33:
	testq	%r15, %r15
	je	.Lunix_path_BB70_35
	xorl	%esi, %esi
	cmpb	$47, (%r14)
	cmoveq	%rsi, %rdx
.Lunix_path_BB70_35:
	movq	%rdx, (%rbx)
	movq	%rax, 8(%rbx)
	movq	%rcx, 16(%rbx)
	popq	%rbx
	popq	%r14
	popq	%r15
	retq
.Lunix_path_BB70_4:
	movl	$1, %esi
	jmp	.Lunix_path_BB70_12
.Lunix_path_func_end70:
	.size	path_within.backward.count_resolved, .Lunix_path_func_end70-path_within.backward.count_resolved
	.section	.text.path_within.write.Layout.to_path_buf,"ax",@progbits
	.p2align	4
	.type	path_within.write.Layout.to_path_buf,@function
# path_within::write::Layout::to_path_buf
path_within.write.Layout.to_path_buf:
	pushq	%rbp
	pushq	%r15
	pushq	%r14
	pushq	%r13
	pushq	%r12
	pushq	%rbx
	subq	$24, %rsp
	movq	%rsi, %rbp
	movq	%rdi, %rbx
	movq	40(%rsi), %rcx
	movq	80(%rsi), %rax
	cmpb	$1, (%rsi)
	jne	.Lunix_path_BB71_2
	addq	%rcx, %rax
	movq	$-1, %r14
	cmovaeq	%rax, %r14
	cmpq	$1, %r14
	adcq	$0, %r14
	jmp	.Lunix_path_BB71_6
.Lunix_path_BB71_2:
	movq	8(%rbp), %rdx
	testq	%rdx, %rdx
	je	.Lunix_path_BB71_4
	decq	%rdx
	movabsq	$6148914691236517205, %rsi
	cmpq	%rsi, %rdx
	cmovaeq	%rsi, %rdx
	leaq	(%rdx,%rdx,2), %rdx
	addq	$2, %rdx
	movq	$-1, %rsi
	cmovbq	%rsi, %rdx
	addq	%rdx, %rcx
	cmovbq	%rsi, %rcx
	addq	%rcx, %rax
	cmovbq	%rsi, %rax
	movq	%rax, %r14
.Lunix_path_BB71_6:
	testq	%r14, %r14
	js	.Lunix_path_BB71_10
	movl	$1, %esi
	movq	%r14, %rdi
	callq	rattle_alloc@PLT
	testb	$1, %al
	je	.Lunix_path_BB71_10
	movq	%rdx, %r15
	cmpq	$2, %r14
	jb	.Lunix_path_BB71_11
	leaq	-1(%r14), %r13
	movq	%r15, %rdi
	xorl	%esi, %esi
	movq	%r13, %rdx
	callq	memset@PLT
	jmp	.Lunix_path_BB71_12
.Lunix_path_BB71_10:
	movb	$1, (%rbx)
	xorps	%xmm0, %xmm0
	movups	%xmm0, 8(%rbx)
	movq	$0, 24(%rbx)
	jmp	.Lunix_path_BB71_139
.Lunix_path_BB71_4:
	testq	%rcx, %rcx
	je	.Lunix_path_BB71_25
	decq	%rcx
	addq	%rcx, %rax
	movq	$-1, %r14
	cmovaeq	%rax, %r14
	testq	%r14, %r14
	jne	.Lunix_path_BB71_6
	jmp	.Lunix_path_BB71_26
.Lunix_path_BB71_11:
	xorl	%r13d, %r13d
.Lunix_path_BB71_12:
	movb	$0, (%r15,%r13)
	leaq	1(%r13), %r9
	movzbl	88(%rbp), %eax
	cmpb	$1, (%rbp)
	jne	.Lunix_path_BB71_17
	leaq	1(%r15), %r12
	testb	%al, %al
	je	.Lunix_path_BB71_21
	movq	56(%rbp), %rsi
	movq	64(%rbp), %rdx
	subq	%rdx, %r13
	leaq	(%r12,%r13), %rdi
	movq	%rdi, %rax
	subq	%rsi, %rax
	cmpq	%rdx, %rax
	jae	.Lunix_path_BB71_27
	cmpq	$4, %rdx
	jb	.Lunix_path_BB71_16
	leaq	(%r15,%r9), %rax
	subq	%rdx, %rax
	subq	%rsi, %rax
	cmpq	$32, %rax
	jae	.Lunix_path_BB71_33
.Lunix_path_BB71_16:
	xorl	%eax, %eax
.Lunix_path_BB71_44:
	movq	%rdx, %r10
	movq	%rax, %rcx
	andq	$3, %r10
	je	.Lunix_path_BB71_47
	movq	%rax, %rcx
	.p2align	4
.Lunix_path_BB71_46:
	movzbl	(%rsi,%rcx), %r8d
	movb	%r8b, (%rdi,%rcx)
	incq	%rcx
	decq	%r10
	jne	.Lunix_path_BB71_46
.Lunix_path_BB71_47:
	subq	%rdx, %rax
	cmpq	$-4, %rax
	ja	.Lunix_path_BB71_50
	movq	%r9, %rax
	subq	%rdx, %rax
	addq	%r15, %rax
	addq	$3, %rax
	.p2align	4
.Lunix_path_BB71_49:
	movzbl	(%rsi,%rcx), %r8d
	movb	%r8b, -3(%rax,%rcx)
	movzbl	1(%rsi,%rcx), %r8d
	movb	%r8b, -2(%rax,%rcx)
	movzbl	2(%rsi,%rcx), %r8d
	movb	%r8b, -1(%rax,%rcx)
	movzbl	3(%rsi,%rcx), %r8d
	movb	%r8b, (%rax,%rcx)
	addq	$4, %rcx
	cmpq	%rcx, %rdx
	jne	.Lunix_path_BB71_49
	jmp	.Lunix_path_BB71_50
.Lunix_path_BB71_17:
	addq	$2, %r13
	testb	%al, %al
	je	.Lunix_path_BB71_23
	movq	56(%rbp), %rsi
	movq	64(%rbp), %rdx
	movq	%rdx, %rax
	notq	%rax
	addq	%rax, %r13
	leaq	(%r15,%r13), %r12
	movq	%r12, %rax
	subq	%rsi, %rax
	cmpq	%rdx, %rax
	jae	.Lunix_path_BB71_28
	cmpq	$4, %rdx
	jb	.Lunix_path_BB71_20
	leaq	(%r15,%r9), %rax
	subq	%rdx, %rax
	subq	%rsi, %rax
	cmpq	$32, %rax
	jae	.Lunix_path_BB71_35
.Lunix_path_BB71_20:
	xorl	%eax, %eax
.Lunix_path_BB71_72:
	movq	%rdx, %rdi
	movq	%rax, %rcx
	andq	$3, %rdi
	je	.Lunix_path_BB71_75
	movq	%rax, %rcx
	.p2align	4
.Lunix_path_BB71_74:
	movzbl	(%rsi,%rcx), %r8d
	movb	%r8b, (%r12,%rcx)
	incq	%rcx
	decq	%rdi
	jne	.Lunix_path_BB71_74
.Lunix_path_BB71_75:
	subq	%rdx, %rax
	cmpq	$-4, %rax
	ja	.Lunix_path_BB71_78
	movq	%r9, %rax
	subq	%rdx, %rax
	addq	%r15, %rax
	addq	$3, %rax
	.p2align	4
.Lunix_path_BB71_77:
	movzbl	(%rsi,%rcx), %edi
	movb	%dil, -3(%rax,%rcx)
	movzbl	1(%rsi,%rcx), %edi
	movb	%dil, -2(%rax,%rcx)
	movzbl	2(%rsi,%rcx), %edi
	movb	%dil, -1(%rax,%rcx)
	movzbl	3(%rsi,%rcx), %edi
	movb	%dil, (%rax,%rcx)
	addq	$4, %rcx
	cmpq	%rcx, %rdx
	jne	.Lunix_path_BB71_77
	jmp	.Lunix_path_BB71_78
.Lunix_path_BB71_21:
	cmpq	$0, 80(%rbp)
	movq	%r9, %r13
	je	.Lunix_path_BB71_52
	movq	56(%rbp), %rdx
	movq	64(%rbp), %rcx
	movq	72(%rbp), %r8
	movq	%r12, %rdi
	movq	%r9, %rsi
	movq	%r9, %r13
	callq	path_within.backward.put_names_before
	movq	%r13, %r9
	movq	%rax, %r13
	cmpb	$1, 48(%rbp)
	je	.Lunix_path_BB71_53
.Lunix_path_BB71_58:
	cmpq	$0, 40(%rbp)
	je	.Lunix_path_BB71_60
	movq	16(%rbp), %rdx
	movq	24(%rbp), %rcx
	movq	32(%rbp), %r8
	movq	%r12, %rdi
	movq	%r13, %rsi
	movq	%r9, %r12
	callq	path_within.backward.put_names_before
	movq	%r12, %r9
	movq	%rax, %rbp
	cmpq	$3, %rbp
	jb	.Lunix_path_BB71_115
	jmp	.Lunix_path_BB71_109
.Lunix_path_BB71_23:
	cmpq	$0, 80(%rbp)
	je	.Lunix_path_BB71_80
	movq	56(%rbp), %rdx
	movq	64(%rbp), %rcx
	movq	72(%rbp), %r8
	movq	%r15, %rdi
	movq	%r13, %rsi
	movq	%r9, %r12
	callq	path_within.backward.put_names_before
	movq	%r12, %r9
	movq	%rax, %r13
	cmpb	$1, 48(%rbp)
	je	.Lunix_path_BB71_81
.Lunix_path_BB71_86:
	cmpq	$0, 40(%rbp)
	je	.Lunix_path_BB71_88
	movq	16(%rbp), %rdx
	movq	24(%rbp), %rcx
	movq	32(%rbp), %r8
	movq	%r15, %rdi
	movq	%r13, %rsi
	movq	%r9, %r12
	callq	path_within.backward.put_names_before
	movq	%r12, %r9
	movq	%rax, %r12
	cmpq	$3, %r12
	jb	.Lunix_path_BB71_138
	jmp	.Lunix_path_BB71_132
.Lunix_path_BB71_25:
	cmpq	$1, %rax
	adcq	$-1, %rax
	movq	%rax, %r14
	testq	%r14, %r14
	jne	.Lunix_path_BB71_6
.Lunix_path_BB71_26:
	movb	$0, (%rbx)
	leaq	15(%rsp), %rax
	movq	%rax, 8(%rbx)
	xorps	%xmm0, %xmm0
	movups	%xmm0, 16(%rbx)
	jmp	.Lunix_path_BB71_139
.Lunix_path_BB71_27:
	movq	%r9, 16(%rsp)
	callq	memmove@PLT
	leaq	(%r12,%r13), %rdi
	movq	16(%rsp), %r9
.Lunix_path_BB71_50:
	testq	%r13, %r13
	je	.Lunix_path_BB71_57
	movb	$47, -1(%rdi)
.Lunix_path_BB71_52:
	cmpb	$1, 48(%rbp)
	jne	.Lunix_path_BB71_58
.Lunix_path_BB71_53:
	movq	16(%rbp), %rsi
	movq	24(%rbp), %rdx
	movq	%rdx, %rbp
	notq	%rbp
	addq	%r13, %rbp
	addq	%rbp, %r12
	movq	%r12, %rax
	subq	%rsi, %rax
	cmpq	%rdx, %rax
	jae	.Lunix_path_BB71_56
	cmpq	$4, %rdx
	jb	.Lunix_path_BB71_55
	leaq	(%r15,%r13), %rax
	subq	%rdx, %rax
	subq	%rsi, %rax
	cmpq	$32, %rax
	jae	.Lunix_path_BB71_63
.Lunix_path_BB71_55:
	xorl	%eax, %eax
.Lunix_path_BB71_100:
	movq	%rdx, %rdi
	movq	%rax, %rcx
	andq	$3, %rdi
	je	.Lunix_path_BB71_103
	movq	%rax, %rcx
	.p2align	4
.Lunix_path_BB71_102:
	movzbl	(%rsi,%rcx), %r8d
	movb	%r8b, (%r12,%rcx)
	incq	%rcx
	decq	%rdi
	jne	.Lunix_path_BB71_102
.Lunix_path_BB71_103:
	subq	%rdx, %rax
	cmpq	$-4, %rax
	ja	.Lunix_path_BB71_106
	subq	%rdx, %r13
	leaq	(%r15,%r13), %rax
	addq	$3, %rax
	.p2align	4
.Lunix_path_BB71_105:
	movzbl	(%rsi,%rcx), %edi
	movb	%dil, -3(%rax,%rcx)
	movzbl	1(%rsi,%rcx), %edi
	movb	%dil, -2(%rax,%rcx)
	movzbl	2(%rsi,%rcx), %edi
	movb	%dil, -1(%rax,%rcx)
	movzbl	3(%rsi,%rcx), %edi
	movb	%dil, (%rax,%rcx)
	addq	$4, %rcx
	cmpq	%rcx, %rdx
	jne	.Lunix_path_BB71_105
	jmp	.Lunix_path_BB71_106
.Lunix_path_BB71_28:
	movq	%r12, %rdi
	movq	%r9, 16(%rsp)
	callq	memmove@PLT
	movq	16(%rsp), %r9
.Lunix_path_BB71_78:
	testq	%r13, %r13
	je	.Lunix_path_BB71_85
	movb	$47, -1(%r12)
.Lunix_path_BB71_80:
	cmpb	$1, 48(%rbp)
	jne	.Lunix_path_BB71_86
.Lunix_path_BB71_81:
	movq	16(%rbp), %rsi
	movq	24(%rbp), %rdx
	movq	%rdx, %r12
	notq	%r12
	addq	%r13, %r12
	leaq	(%r15,%r12), %rbp
	movq	%rbp, %rax
	subq	%rsi, %rax
	cmpq	%rdx, %rax
	jae	.Lunix_path_BB71_84
	cmpq	$4, %rdx
	jb	.Lunix_path_BB71_83
	movq	%rdx, %rcx
	subq	%r13, %rcx
	subq	%r15, %rcx
	addq	%rsi, %rcx
	cmpq	$-33, %rcx
	jbe	.Lunix_path_BB71_91
.Lunix_path_BB71_83:
	xorl	%eax, %eax
.Lunix_path_BB71_123:
	movq	%rdx, %rdi
	movq	%rax, %rcx
	andq	$3, %rdi
	je	.Lunix_path_BB71_126
	movq	%rax, %rcx
	.p2align	4
.Lunix_path_BB71_125:
	movzbl	(%rsi,%rcx), %r8d
	movb	%r8b, (%rbp,%rcx)
	incq	%rcx
	decq	%rdi
	jne	.Lunix_path_BB71_125
.Lunix_path_BB71_126:
	subq	%rdx, %rax
	cmpq	$-4, %rax
	ja	.Lunix_path_BB71_129
	subq	%rdx, %r13
	addq	%r15, %r13
	.p2align	4
.Lunix_path_BB71_128:
	movzbl	(%rsi,%rcx), %eax
	movb	%al, -1(%r13,%rcx)
	movzbl	1(%rsi,%rcx), %eax
	movb	%al, (%r13,%rcx)
	movzbl	2(%rsi,%rcx), %eax
	movb	%al, 1(%r13,%rcx)
	movzbl	3(%rsi,%rcx), %eax
	movb	%al, 2(%r13,%rcx)
	addq	$4, %rcx
	cmpq	%rcx, %rdx
	jne	.Lunix_path_BB71_128
	jmp	.Lunix_path_BB71_129
.Lunix_path_BB71_56:
	movq	%r12, %rdi
	movq	%r9, %r13
	callq	memmove@PLT
	movq	%r13, %r9
.Lunix_path_BB71_106:
	testq	%rbp, %rbp
	je	.Lunix_path_BB71_115
	movb	$47, -1(%r12)
	cmpq	$3, %rbp
	jb	.Lunix_path_BB71_115
	jmp	.Lunix_path_BB71_109
.Lunix_path_BB71_84:
	movq	%rbp, %rdi
	movq	%r9, %r13
	callq	memmove@PLT
	movq	%r13, %r9
.Lunix_path_BB71_129:
	testq	%r12, %r12
	je	.Lunix_path_BB71_138
	movb	$47, -1(%rbp)
	cmpq	$3, %r12
	jb	.Lunix_path_BB71_138
	jmp	.Lunix_path_BB71_132
.Lunix_path_BB71_60:
	movq	%r13, %rbp
	cmpq	$3, %rbp
	jb	.Lunix_path_BB71_115
.Lunix_path_BB71_109:
	leaq	-3(%rbp), %rax
	movabsq	$-6148914691236517205, %rcx
	mulq	%rcx
	shrq	%rdx
	leaq	-2(%r15), %rax
	incq	%rdx
	jmp	.Lunix_path_BB71_111
	.p2align	4
.Lunix_path_BB71_114:
	movb	$47, -1(%rax,%rbp)
.Lunix_path_BB71_110:
	addq	$-3, %rbp
	decq	%rdx
	je	.Lunix_path_BB71_115
.Lunix_path_BB71_111:
	leaq	(%rax,%rbp), %rcx
	leaq	.Lunix_path_static.83(%rip), %rsi
	movq	%rcx, %rdi
	subq	%rsi, %rdi
	cmpq	$1, %rdi
	ja	.Lunix_path_BB71_113
	movw	$11822, (%rax,%rbp)
	cmpq	$3, %rbp
	je	.Lunix_path_BB71_110
	jmp	.Lunix_path_BB71_114
	.p2align	4
.Lunix_path_BB71_113:
	movw	$11822, (%rcx)
	cmpq	$3, %rbp
	je	.Lunix_path_BB71_110
	jmp	.Lunix_path_BB71_114
.Lunix_path_BB71_115:
	movb	$47, (%r15)
.Lunix_path_BB71_138:
	movb	$0, (%rbx)
	movq	%r15, 8(%rbx)
	movq	%r9, 16(%rbx)
	movq	%r14, 24(%rbx)
.Lunix_path_BB71_139:
	addq	$24, %rsp
	popq	%rbx
	popq	%r12
	popq	%r13
	popq	%r14
	popq	%r15
	popq	%rbp
	retq
.Lunix_path_BB71_88:
	movq	%r13, %r12
	cmpq	$3, %r12
	jb	.Lunix_path_BB71_138
.Lunix_path_BB71_132:
	addq	$-3, %r12
	movabsq	$-6148914691236517205, %rcx
	movq	%r12, %rax
	mulq	%rcx
	shrq	%rdx
	incq	%rdx
	jmp	.Lunix_path_BB71_134
	.p2align	4
.Lunix_path_BB71_136:
	movw	$11822, (%rax)
	testq	%r12, %r12
	je	.Lunix_path_BB71_133
.Lunix_path_BB71_137:
	movb	$47, -1(%r15,%r12)
.Lunix_path_BB71_133:
	addq	$-3, %r12
	decq	%rdx
	je	.Lunix_path_BB71_138
.Lunix_path_BB71_134:
	leaq	(%r15,%r12), %rax
	leaq	.Lunix_path_static.83(%rip), %rcx
	movq	%rax, %rsi
	subq	%rcx, %rsi
	cmpq	$1, %rsi
	ja	.Lunix_path_BB71_136
	movw	$11822, (%r15,%r12)
	testq	%r12, %r12
	jne	.Lunix_path_BB71_137
	jmp	.Lunix_path_BB71_133
.Lunix_path_BB71_57:
	xorl	%r13d, %r13d
	cmpb	$1, 48(%rbp)
	je	.Lunix_path_BB71_53
	jmp	.Lunix_path_BB71_58
.Lunix_path_BB71_85:
	xorl	%r13d, %r13d
	cmpb	$1, 48(%rbp)
	je	.Lunix_path_BB71_81
	jmp	.Lunix_path_BB71_86
.Lunix_path_BB71_33:
	cmpq	$32, %rdx
	jae	.Lunix_path_BB71_37
	xorl	%eax, %eax
	jmp	.Lunix_path_BB71_41
.Lunix_path_BB71_35:
	cmpq	$32, %rdx
	jae	.Lunix_path_BB71_65
	xorl	%eax, %eax
	jmp	.Lunix_path_BB71_69
.Lunix_path_BB71_63:
	cmpq	$32, %rdx
	jae	.Lunix_path_BB71_93
	xorl	%eax, %eax
	jmp	.Lunix_path_BB71_97
.Lunix_path_BB71_91:
	cmpq	$32, %rdx
	jae	.Lunix_path_BB71_116
	xorl	%eax, %eax
	jmp	.Lunix_path_BB71_120
.Lunix_path_BB71_37:
	movq	%rdx, %rax
	andq	$-32, %rax
	movq	%r9, %rcx
	subq	%rdx, %rcx
	addq	%r15, %rcx
	addq	$16, %rcx
	xorl	%r8d, %r8d
.Lunix_path_BB71_38:
	movups	(%rsi,%r8), %xmm0
	movups	16(%rsi,%r8), %xmm1
	movups	%xmm0, -16(%rcx,%r8)
	movups	%xmm1, (%rcx,%r8)
	addq	$32, %r8
	cmpq	%r8, %rax
	jne	.Lunix_path_BB71_38
	cmpq	%rax, %rdx
	je	.Lunix_path_BB71_50
	testb	$28, %dl
	je	.Lunix_path_BB71_44
.Lunix_path_BB71_41:
	movq	%rax, %rcx
	movq	%rdx, %rax
	andq	$-4, %rax
	.p2align	4
.Lunix_path_BB71_42:
	movl	(%rsi,%rcx), %r8d
	movl	%r8d, (%rdi,%rcx)
	addq	$4, %rcx
	cmpq	%rcx, %rax
	jne	.Lunix_path_BB71_42
	cmpq	%rax, %rdx
	je	.Lunix_path_BB71_50
	jmp	.Lunix_path_BB71_44
.Lunix_path_BB71_65:
	movq	%rdx, %rax
	andq	$-32, %rax
	movq	%r9, %rcx
	subq	%rdx, %rcx
	addq	%r15, %rcx
	addq	$16, %rcx
	xorl	%edi, %edi
.Lunix_path_BB71_66:
	movups	(%rsi,%rdi), %xmm0
	movups	16(%rsi,%rdi), %xmm1
	movups	%xmm0, -16(%rcx,%rdi)
	movups	%xmm1, (%rcx,%rdi)
	addq	$32, %rdi
	cmpq	%rdi, %rax
	jne	.Lunix_path_BB71_66
	cmpq	%rax, %rdx
	je	.Lunix_path_BB71_78
	testb	$28, %dl
	je	.Lunix_path_BB71_72
.Lunix_path_BB71_69:
	movq	%rax, %rcx
	movq	%rdx, %rax
	andq	$-4, %rax
	.p2align	4
.Lunix_path_BB71_70:
	movl	(%rsi,%rcx), %edi
	movl	%edi, (%r12,%rcx)
	addq	$4, %rcx
	cmpq	%rcx, %rax
	jne	.Lunix_path_BB71_70
	cmpq	%rax, %rdx
	je	.Lunix_path_BB71_78
	jmp	.Lunix_path_BB71_72
.Lunix_path_BB71_93:
	movq	%rdx, %rax
	andq	$-32, %rax
	movq	%r13, %rcx
	subq	%rdx, %rcx
	addq	%r15, %rcx
	addq	$16, %rcx
	xorl	%edi, %edi
.Lunix_path_BB71_94:
	movups	(%rsi,%rdi), %xmm0
	movups	16(%rsi,%rdi), %xmm1
	movups	%xmm0, -16(%rcx,%rdi)
	movups	%xmm1, (%rcx,%rdi)
	addq	$32, %rdi
	cmpq	%rdi, %rax
	jne	.Lunix_path_BB71_94
	cmpq	%rax, %rdx
	je	.Lunix_path_BB71_106
	testb	$28, %dl
	je	.Lunix_path_BB71_100
.Lunix_path_BB71_97:
	movq	%rax, %rcx
	movq	%rdx, %rax
	andq	$-4, %rax
	.p2align	4
.Lunix_path_BB71_98:
	movl	(%rsi,%rcx), %edi
	movl	%edi, (%r12,%rcx)
	addq	$4, %rcx
	cmpq	%rcx, %rax
	jne	.Lunix_path_BB71_98
	cmpq	%rax, %rdx
	je	.Lunix_path_BB71_106
	jmp	.Lunix_path_BB71_100
.Lunix_path_BB71_116:
	movq	%rdx, %rax
	andq	$-32, %rax
	movq	%r13, %rcx
	subq	%rdx, %rcx
	addq	%r15, %rcx
	addq	$15, %rcx
	xorl	%edi, %edi
.Lunix_path_BB71_117:
	movups	(%rsi,%rdi), %xmm0
	movups	16(%rsi,%rdi), %xmm1
	movups	%xmm0, -16(%rcx,%rdi)
	movups	%xmm1, (%rcx,%rdi)
	addq	$32, %rdi
	cmpq	%rdi, %rax
	jne	.Lunix_path_BB71_117
	cmpq	%rax, %rdx
	je	.Lunix_path_BB71_129
	testb	$28, %dl
	je	.Lunix_path_BB71_123
.Lunix_path_BB71_120:
	movq	%rax, %rcx
	movq	%rdx, %rax
	andq	$-4, %rax
	.p2align	4
.Lunix_path_BB71_121:
	movl	(%rsi,%rcx), %edi
	movl	%edi, (%rbp,%rcx)
	addq	$4, %rcx
	cmpq	%rcx, %rax
	jne	.Lunix_path_BB71_121
	cmpq	%rax, %rdx
	je	.Lunix_path_BB71_129
	jmp	.Lunix_path_BB71_123
.Lunix_path_func_end71:
	.size	path_within.write.Layout.to_path_buf, .Lunix_path_func_end71-path_within.write.Layout.to_path_buf
	.section	.rodata.cst16,"aM",@progbits,16
	.p2align	4, 0x0
.Lunix_path_CPI72_0:
	.zero	16,47
	.section	.text.path_within.backward.put_names_before,"ax",@progbits
	.p2align	4
	.type	path_within.backward.put_names_before,@function
# path_within::backward::put_names_before
path_within.backward.put_names_before:
	pushq	%rbp
	pushq	%r15
	pushq	%r14
	pushq	%r13
	pushq	%r12
	pushq	%rbx
	subq	$40, %rsp
	movq	%r8, %rbx
	movq	%rdx, %r14
	movq	%rsi, %r12
	movq	%rdi, %r15
	testq	%rcx, %rcx
	je	.Lunix_path_BB72_10
	movq	%rcx, %rbp
	movzbl	-1(%r14,%rcx), %eax
	andb	$-2, %al
	cmpb	$46, %al
	jne	.Lunix_path_BB72_11
	movq	%rbp, %r13
	movq	%rbp, %rax
	jmp	.Lunix_path_BB72_4
	.p2align	4
.Lunix_path_BB72_3:
	movq	%rax, %r13
	testq	%rax, %rax
	je	.Lunix_path_BB72_10
.Lunix_path_BB72_4:
	decq	%rax
	je	.Lunix_path_BB72_54
	movzbl	(%r14,%rax), %ecx
	cmpl	$47, %ecx
	je	.Lunix_path_BB72_8
	cmpl	$46, %ecx
	jne	.Lunix_path_BB72_12
	cmpb	$47, -1(%r14,%rax)
	jne	.Lunix_path_BB72_12
.Lunix_path_BB72_8:
	movq	%rbp, %rcx
	subq	%rax, %rcx
	cmpq	$8, %rcx
	jne	.Lunix_path_BB72_3
	movq	%r14, %rdi
	movq	%rax, %rsi
	callq	unix_path.filler.trimmed_blocks_len
	jmp	.Lunix_path_BB72_3
.Lunix_path_BB72_10:
	xorl	%r13d, %r13d
	testq	%rbx, %rbx
	jne	.Lunix_path_BB72_13
	jmp	.Lunix_path_BB72_55
.Lunix_path_BB72_11:
	movq	%rbp, %r13
.Lunix_path_BB72_12:
	testq	%rbx, %rbx
	je	.Lunix_path_BB72_55
.Lunix_path_BB72_13:
	leaq	-1(%r15), %r10
	leaq	15(%r15), %r9
	xorl	%ebp, %ebp
.Lunix_path_BB72_14:
	testb	$1, %bpl
	jne	.Lunix_path_BB72_55
	xorl	%eax, %eax
	jmp	.Lunix_path_BB72_18
.Lunix_path_BB72_16:
	incq	%rax
	.p2align	4
.Lunix_path_BB72_17:
	testq	%rdi, %rdi
	je	.Lunix_path_BB72_55
.Lunix_path_BB72_18:
	movq	%r13, %rcx
	leaq	1(%r13), %rdx
	movq	%r13, %rdi
	.p2align	4
.Lunix_path_BB72_19:
	cmpq	$15, %rdi
	jbe	.Lunix_path_BB72_22
	movdqu	-16(%r14,%rdi), %xmm0
	pcmpeqb	.Lunix_path_CPI72_0(%rip), %xmm0
	addq	$-16, %rdi
	pmovmskb	%xmm0, %esi
	addq	$-16, %rdx
	testl	%esi, %esi
	je	.Lunix_path_BB72_19
	movzwl	%si, %edx
	bsrq	%rdx, %rdx
	xorq	$63, %rdx
	subq	%rdx, %rdi
	addq	$64, %rdi
	jmp	.Lunix_path_BB72_25
	.p2align	4
.Lunix_path_BB72_22:
	cmpq	$1, %rdx
	je	.Lunix_path_BB72_24
	leaq	-1(%rdx), %rdi
	cmpb	$47, -2(%r14,%rdx)
	movq	%rdi, %rdx
	jne	.Lunix_path_BB72_22
	jmp	.Lunix_path_BB72_25
	.p2align	4
.Lunix_path_BB72_24:
	xorl	%edi, %edi
.Lunix_path_BB72_25:
	xorl	%edx, %edx
	testq	%rdi, %rdi
	setne	%dl
	sete	%bpl
	movq	%rdi, %r13
	subq	%rdx, %r13
	movq	%rcx, %rdx
	subq	%rdi, %rdx
	je	.Lunix_path_BB72_17
	leaq	(%r14,%rdi), %rsi
	cmpq	$1, %rdx
	jne	.Lunix_path_BB72_28
	cmpb	$46, (%rsi)
	je	.Lunix_path_BB72_17
	jmp	.Lunix_path_BB72_31
	.p2align	4
.Lunix_path_BB72_28:
	cmpq	$2, %rdx
	ja	.Lunix_path_BB72_31
	cmpb	$46, (%rsi)
	jne	.Lunix_path_BB72_31
	cmpb	$46, 1(%rsi)
	je	.Lunix_path_BB72_16
	.p2align	4
.Lunix_path_BB72_31:
	testq	%rax, %rax
	je	.Lunix_path_BB72_33
	decq	%rax
	jmp	.Lunix_path_BB72_17
	.p2align	4
.Lunix_path_BB72_33:
	movq	%rdx, %rax
	notq	%rax
	addq	%r12, %rax
	leaq	(%r15,%rax), %r11
	movq	%r11, %r8
	subq	%rsi, %r8
	cmpq	%rdx, %r8
	movq	%r11, 32(%rsp)
	jae	.Lunix_path_BB72_36
	cmpq	$4, %rdx
	jb	.Lunix_path_BB72_35
	leaq	(%r10,%r12), %rsi
	subq	%rcx, %rsi
	subq	%r14, %rsi
	cmpq	$32, %rsi
	jae	.Lunix_path_BB72_39
.Lunix_path_BB72_35:
	xorl	%esi, %esi
.Lunix_path_BB72_48:
	addq	%rdi, %rsi
	addq	%r10, %r12
	subq	%rcx, %r12
	.p2align	4
.Lunix_path_BB72_49:
	movzbl	(%r14,%rsi), %edx
	movb	%dl, (%r12,%rsi)
	incq	%rsi
	cmpq	%rsi, %rcx
	jne	.Lunix_path_BB72_49
	jmp	.Lunix_path_BB72_50
.Lunix_path_BB72_36:
	movq	%r11, %rdi
	movq	%rax, %r12
	movq	%rbx, 24(%rsp)
	movq	%r15, 8(%rsp)
	movq	%r10, %r15
	movq	%r9, (%rsp)
	callq	memmove@PLT
	movq	(%rsp), %r9
	movq	%r15, %r10
	movq	8(%rsp), %r15
	movq	24(%rsp), %rbx
	movq	%r12, %rax
.Lunix_path_BB72_50:
	testq	%rax, %rax
	je	.Lunix_path_BB72_52
	movq	32(%rsp), %rcx
	movb	$47, -1(%rcx)
.Lunix_path_BB72_52:
	movq	%rax, %r12
	decq	%rbx
	jne	.Lunix_path_BB72_14
	jmp	.Lunix_path_BB72_56
.Lunix_path_BB72_39:
	cmpq	$32, %rdx
	movq	%r10, 16(%rsp)
	jae	.Lunix_path_BB72_41
	xorl	%esi, %esi
	jmp	.Lunix_path_BB72_45
.Lunix_path_BB72_41:
	movq	%rdx, %rsi
	andq	$-32, %rsi
	leaq	16(%r14), %r8
	addq	%rdi, %r8
	movq	%r9, %r11
	leaq	(%r9,%r12), %r10
	movq	%rdi, %r9
	subq	%rcx, %r9
	addq	%r10, %r9
	xorl	%r10d, %r10d
	.p2align	4
.Lunix_path_BB72_42:
	movdqu	-16(%r8,%r10), %xmm0
	movups	(%r8,%r10), %xmm1
	movdqu	%xmm0, -16(%r9,%r10)
	movups	%xmm1, (%r9,%r10)
	addq	$32, %r10
	cmpq	%r10, %rsi
	jne	.Lunix_path_BB72_42
	cmpq	%rsi, %rdx
	movq	16(%rsp), %r10
	movq	%r11, %r9
	je	.Lunix_path_BB72_50
	testb	$28, %dl
	je	.Lunix_path_BB72_48
.Lunix_path_BB72_45:
	movq	%r9, (%rsp)
	movq	%r15, 8(%rsp)
	movq	%rsi, %r11
	movq	%rdx, %rsi
	andq	$-4, %rsi
	movq	%rsi, %r8
	subq	%r11, %r8
	leaq	(%r14,%r11), %r9
	addq	%rdi, %r9
	addq	%r12, %r11
	addq	%r10, %r11
	movq	%rdi, %r10
	subq	%rcx, %r10
	addq	%r11, %r10
	xorl	%r11d, %r11d
	.p2align	4
.Lunix_path_BB72_46:
	movl	(%r9,%r11), %r15d
	movl	%r15d, (%r10,%r11)
	addq	$4, %r11
	cmpq	%r11, %r8
	jne	.Lunix_path_BB72_46
	cmpq	%rsi, %rdx
	movq	8(%rsp), %r15
	movq	16(%rsp), %r10
	movq	(%rsp), %r9
	je	.Lunix_path_BB72_50
	jmp	.Lunix_path_BB72_48
.Lunix_path_BB72_54:
	movl	$1, %r13d
	testq	%rbx, %rbx
	jne	.Lunix_path_BB72_13
.Lunix_path_BB72_55:
	movq	%r12, %rax
.Lunix_path_BB72_56:
	addq	$40, %rsp
	popq	%rbx
	popq	%r12
	popq	%r13
	popq	%r14
	popq	%r15
	popq	%rbp
	retq
.Lunix_path_func_end72:
	.size	path_within.backward.put_names_before, .Lunix_path_func_end72-path_within.backward.put_names_before
	.section	.rodata.cst16,"aM",@progbits,16
	.p2align	4, 0x0
.Lunix_path_CPI73_0:
	.zero	16,47
	.section	.text.unix_path.path.Path.file_name,"ax",@progbits
	.p2align	4
	.type	unix_path.path.Path.file_name,@function
# unix_path::path::Path::file_name
unix_path.path.Path.file_name:
	pushq	%rbp
	pushq	%r15
	pushq	%r14
	pushq	%r13
	pushq	%r12
	pushq	%rbx
	pushq	%rax
	movq	%rdi, %rbx
	testq	%rdx, %rdx
	je	.Lunix_path_BB73_9
	movq	%rdx, %r15
	movq	%rsi, %r14
	movq	%rdx, %r12
	movq	%r15, %rax
	jmp	.Lunix_path_BB73_2
	.p2align	4
.Lunix_path_BB73_8:
	movq	%rax, %r12
	testq	%rax, %rax
	je	.Lunix_path_BB73_9
.Lunix_path_BB73_2:
	decq	%rax
	je	.Lunix_path_BB73_23
	movzbl	(%r14,%rax), %ecx
	cmpl	$47, %ecx
	je	.Lunix_path_BB73_6
	cmpl	$46, %ecx
	jne	.Lunix_path_BB73_10
	cmpb	$47, -1(%r14,%rax)
	jne	.Lunix_path_BB73_10
.Lunix_path_BB73_6:
	movq	%r15, %rcx
	subq	%rax, %rcx
	cmpq	$8, %rcx
	jne	.Lunix_path_BB73_8
	movq	%r14, %rdi
	movq	%rax, %rsi
	callq	unix_path.filler.trimmed_blocks_len
	jmp	.Lunix_path_BB73_8
.Lunix_path_BB73_9:
	pxor	%xmm0, %xmm0
	movdqu	%xmm0, (%rbx)
	movq	$0, 16(%rbx)
	jmp	.Lunix_path_BB73_43
.Lunix_path_BB73_23:
	movl	$1, %r12d
	xorl	%r15d, %r15d
	cmpb	$46, (%r14)
	movl	$0, %r13d
	movl	$0, %ecx
	jne	.Lunix_path_BB73_24
	jmp	.Lunix_path_BB73_42
.Lunix_path_BB73_10:
	cmpb	$46, -1(%r14,%r12)
	jne	.Lunix_path_BB73_24
	cmpb	$46, -2(%r14,%r12)
	jne	.Lunix_path_BB73_24
	xorl	%r15d, %r15d
	movl	$0, %r13d
	movl	$0, %ecx
	cmpq	$2, %r12
	je	.Lunix_path_BB73_42
	cmpb	$47, -3(%r14,%r12)
	jne	.Lunix_path_BB73_24
	addq	$-2, %r12
	movq	%r12, %rax
	jmp	.Lunix_path_BB73_15
.Lunix_path_BB73_24:
	movq	%r12, %rax
	.p2align	4
.Lunix_path_BB73_25:
	cmpq	$15, %rax
	jbe	.Lunix_path_BB73_26
	movdqu	-16(%r14,%rax), %xmm0
	addq	$-16, %rax
	pcmpeqb	.Lunix_path_CPI73_0(%rip), %xmm0
	pmovmskb	%xmm0, %ecx
	testl	%ecx, %ecx
	je	.Lunix_path_BB73_25
	movzwl	%cx, %ecx
	bsrq	%rcx, %rcx
	xorq	$63, %rcx
	subq	%rcx, %rax
	addq	$64, %rax
	movq	%rax, %rbp
	jmp	.Lunix_path_BB73_32
.Lunix_path_BB73_26:
	incq	%rax
	.p2align	4
.Lunix_path_BB73_27:
	cmpq	$1, %rax
	je	.Lunix_path_BB73_28
	leaq	-1(%rax), %rbp
	cmpb	$47, -2(%r14,%rax)
	movq	%rbp, %rax
	jne	.Lunix_path_BB73_27
.Lunix_path_BB73_32:
	xorl	%r15d, %r15d
	movl	$0, %r13d
	movl	$0, %ecx
	subq	%rbp, %r12
	je	.Lunix_path_BB73_42
	leaq	(%r14,%rbp), %r15
	movq	%rbp, %rax
	jmp	.Lunix_path_BB73_34
	.p2align	4
.Lunix_path_BB73_40:
	testq	%rax, %rax
	je	.Lunix_path_BB73_41
.Lunix_path_BB73_34:
	movl	$1, %r13d
	decq	%rax
	je	.Lunix_path_BB73_41
	movzbl	(%r14,%rax), %ecx
	cmpl	$47, %ecx
	je	.Lunix_path_BB73_38
	cmpl	$46, %ecx
	jne	.Lunix_path_BB73_41
	cmpb	$47, -1(%r14,%rax)
	jne	.Lunix_path_BB73_41
.Lunix_path_BB73_38:
	movq	%rbp, %rcx
	subq	%rax, %rcx
	cmpq	$8, %rcx
	jne	.Lunix_path_BB73_40
	movq	%r14, %rdi
	movq	%rax, %rsi
	callq	unix_path.filler.trimmed_blocks_len
	jmp	.Lunix_path_BB73_40
.Lunix_path_BB73_22:
	xorl	%r15d, %r15d
	movl	$0, %r13d
	movl	$0, %ecx
	testq	%rax, %rax
	je	.Lunix_path_BB73_42
.Lunix_path_BB73_15:
	decq	%rax
	je	.Lunix_path_BB73_16
	movzbl	(%r14,%rax), %ecx
	cmpl	$47, %ecx
	je	.Lunix_path_BB73_20
	cmpl	$46, %ecx
	jne	.Lunix_path_BB73_16
	cmpb	$47, -1(%r14,%rax)
	jne	.Lunix_path_BB73_16
.Lunix_path_BB73_20:
	movq	%r12, %rcx
	subq	%rax, %rcx
	cmpq	$8, %rcx
	jne	.Lunix_path_BB73_22
	movq	%r14, %rdi
	movq	%rax, %rsi
	callq	unix_path.filler.trimmed_blocks_len
	jmp	.Lunix_path_BB73_22
.Lunix_path_BB73_28:
	movl	$1, %r13d
	movq	%r14, %r15
.Lunix_path_BB73_41:
	movq	%r12, %rcx
.Lunix_path_BB73_42:
	movq	%r13, (%rbx)
	movq	%r15, 8(%rbx)
	movq	%rcx, 16(%rbx)
.Lunix_path_BB73_43:
	addq	$8, %rsp
	popq	%rbx
	popq	%r12
	popq	%r13
	popq	%r14
	popq	%r15
	popq	%rbp
	retq
.Lunix_path_BB73_16:
	xorl	%r15d, %r15d
	xorl	%r13d, %r13d
	xorl	%ecx, %ecx
	jmp	.Lunix_path_BB73_42
.Lunix_path_func_end73:
	.size	unix_path.path.Path.file_name, .Lunix_path_func_end73-unix_path.path.Path.file_name
	.section	.text.unix_path.path.Path.join,"ax",@progbits
	.p2align	4
	.type	unix_path.path.Path.join,@function
# unix_path::path::Path::join
unix_path.path.Path.join:
	pushq	%rbp
	pushq	%r15
	pushq	%r14
	pushq	%r13
	pushq	%r12
	pushq	%rbx
	subq	$88, %rsp
	movq	%r8, %r12
	movq	%rcx, %r15
	xorps	%xmm0, %xmm0
	movups	%xmm0, 63(%rsp)
	movaps	%xmm0, 48(%rsp)
	testq	%r8, %r8
	je	.Lunix_path_BB74_3
	xorl	%r13d, %r13d
	cmpb	$47, (%r15)
	movl	$0, %ebx
	movl	$0, %r11d
	je	.Lunix_path_BB74_5
	testq	%rdx, %rdx
	jne	.Lunix_path_BB74_4
.Lunix_path_BB74_5:
	movzbl	%r11b, %r14d
	leaq	(%r12,%r13), %rax
	addq	%rax, %r14
	je	.Lunix_path_BB74_11
.Lunix_path_BB74_6:
	js	.Lunix_path_BB74_9
	movq	%rsi, 32(%rsp)
	movl	$1, %esi
	movq	%r12, 80(%rsp)
	movq	%rbx, %r12
	movq	%rdi, %rbx
	movq	%r14, %rdi
	movq	%r11, %rbp
	callq	rattle_alloc@PLT
	movq	%rbx, %rdi
	movq	%r12, %rbx
	movq	80(%rsp), %r12
	movq	32(%rsp), %rsi
	testb	$1, %al
	je	.Lunix_path_BB74_9
	movq	%rbp, %r11
	jmp	.Lunix_path_BB74_12
.Lunix_path_BB74_9:
	xorps	%xmm0, %xmm0
	movups	%xmm0, 55(%rsp)
	movq	$0, 71(%rsp)
	movb	$1, %al
	jmp	.Lunix_path_BB74_64
.Lunix_path_BB74_3:
	testq	%rdx, %rdx
	je	.Lunix_path_BB74_10
.Lunix_path_BB74_4:
	xorl	%eax, %eax
	cmpb	$47, -1(%rsi,%rdx)
	setne	%r11b
	movl	$47, %ebx
	cmovel	%eax, %ebx
	movq	%rdx, %r13
	movzbl	%r11b, %r14d
	leaq	(%r12,%r13), %rax
	addq	%rax, %r14
	jne	.Lunix_path_BB74_6
.Lunix_path_BB74_11:
	leaq	31(%rsp), %rdx
.Lunix_path_BB74_12:
	movq	%rdi, 40(%rsp)
	movq	%rdx, (%rsp)
	movq	$0, 8(%rsp)
	movq	%r14, 16(%rsp)
	cmpq	%r14, %r13
	ja	.Lunix_path_BB74_47
	xorl	%eax, %eax
.Lunix_path_BB74_14:
	leaq	(%rax,%r13), %rbp
	leaq	(%rdx,%rax), %rdi
	movq	%rdi, %rcx
	subq	%rsi, %rcx
	cmpq	%r13, %rcx
	jae	.Lunix_path_BB74_17
	cmpq	$4, %r13
	jb	.Lunix_path_BB74_16
	cmpq	$32, %rcx
	jae	.Lunix_path_BB74_20
.Lunix_path_BB74_16:
	xorl	%ecx, %ecx
.Lunix_path_BB74_29:
	movq	%r13, %r9
	movq	%rcx, %r8
	andq	$3, %r9
	je	.Lunix_path_BB74_32
	movq	%rcx, %r8
	.p2align	4
.Lunix_path_BB74_31:
	movzbl	(%rsi,%r8), %r10d
	movb	%r10b, (%rdi,%r8)
	incq	%r8
	decq	%r9
	jne	.Lunix_path_BB74_31
.Lunix_path_BB74_32:
	subq	%r13, %rcx
	cmpq	$-4, %rcx
	ja	.Lunix_path_BB74_35
	addq	%rdx, %rax
	addq	$3, %rax
	.p2align	4
.Lunix_path_BB74_34:
	movzbl	(%rsi,%r8), %ecx
	movb	%cl, -3(%rax,%r8)
	movzbl	1(%rsi,%r8), %ecx
	movb	%cl, -2(%rax,%r8)
	movzbl	2(%rsi,%r8), %ecx
	movb	%cl, -1(%rax,%r8)
	movzbl	3(%rsi,%r8), %ecx
	movb	%cl, (%rax,%r8)
	addq	$4, %r8
	cmpq	%r8, %r13
	jne	.Lunix_path_BB74_34
	jmp	.Lunix_path_BB74_35
.Lunix_path_BB74_17:
	movq	%r13, %rdx
	movq	%r11, %r13
	callq	memmove@PLT
	movq	%r13, %r11
.Lunix_path_BB74_35:
	movq	%rbp, 8(%rsp)
	movq	%r14, 16(%rsp)
	testb	%r11b, %r11b
	je	.Lunix_path_BB74_38
	cmpq	%rbp, %r14
	je	.Lunix_path_BB74_67
.Lunix_path_BB74_37:
	movq	(%rsp), %rax
	movb	%bl, (%rax,%rbp)
	incq	%rbp
	movq	%rbp, 8(%rsp)
	movq	%r14, 16(%rsp)
.Lunix_path_BB74_38:
	movq	%r14, %rax
	subq	%rbp, %rax
	cmpq	%rax, %r12
	ja	.Lunix_path_BB74_65
.Lunix_path_BB74_39:
	leaq	(%r12,%rbp), %rbx
	movq	(%rsp), %rax
	leaq	(%rax,%rbp), %rdi
	movq	%rdi, %rcx
	subq	%r15, %rcx
	cmpq	%r12, %rcx
	jae	.Lunix_path_BB74_42
	cmpq	$4, %r12
	jb	.Lunix_path_BB74_41
	cmpq	$32, %rcx
	jae	.Lunix_path_BB74_45
.Lunix_path_BB74_41:
	xorl	%ecx, %ecx
.Lunix_path_BB74_56:
	movq	%r12, %rsi
	movq	%rcx, %rdx
	andq	$3, %rsi
	je	.Lunix_path_BB74_59
	movq	%rcx, %rdx
	.p2align	4
.Lunix_path_BB74_58:
	movzbl	(%r15,%rdx), %r8d
	movb	%r8b, (%rdi,%rdx)
	incq	%rdx
	decq	%rsi
	jne	.Lunix_path_BB74_58
.Lunix_path_BB74_59:
	subq	%r12, %rcx
	cmpq	$-4, %rcx
	ja	.Lunix_path_BB74_62
	addq	%rbp, %rax
	addq	$3, %rax
	.p2align	4
.Lunix_path_BB74_61:
	movzbl	(%r15,%rdx), %ecx
	movb	%cl, -3(%rax,%rdx)
	movzbl	1(%r15,%rdx), %ecx
	movb	%cl, -2(%rax,%rdx)
	movzbl	2(%r15,%rdx), %ecx
	movb	%cl, -1(%rax,%rdx)
	movzbl	3(%r15,%rdx), %ecx
	movb	%cl, (%rax,%rdx)
	addq	$4, %rdx
	cmpq	%rdx, %r12
	jne	.Lunix_path_BB74_61
	jmp	.Lunix_path_BB74_62
.Lunix_path_BB74_42:
	movq	%r15, %rsi
	movq	%r12, %rdx
	callq	memmove@PLT
.Lunix_path_BB74_62:
	movq	%rbx, 8(%rsp)
	movq	%r14, 16(%rsp)
	movq	%r14, 71(%rsp)
	movq	(%rsp), %rax
	movq	%rax, 55(%rsp)
	movq	8(%rsp), %rax
	movq	%rax, 63(%rsp)
	xorl	%eax, %eax
.Lunix_path_BB74_63:
	movq	40(%rsp), %rdi
.Lunix_path_BB74_64:
	movb	%al, (%rdi)
	movq	55(%rsp), %rax
	movq	%rax, 8(%rdi)
	movq	63(%rsp), %rax
	movq	%rax, 16(%rdi)
	movq	71(%rsp), %rax
	movq	%rax, 24(%rdi)
	addq	$88, %rsp
	popq	%rbx
	popq	%r12
	popq	%r13
	popq	%r14
	popq	%r15
	popq	%rbp
	retq
.Lunix_path_BB74_10:
	xorl	%r13d, %r13d
	xorl	%r11d, %r11d
	xorl	%ebx, %ebx
	movzbl	%r11b, %r14d
	leaq	(%r12,%r13), %rax
	addq	%rax, %r14
	jne	.Lunix_path_BB74_6
	jmp	.Lunix_path_BB74_11
.Lunix_path_BB74_20:
	cmpq	$32, %r13
	jae	.Lunix_path_BB74_22
	xorl	%ecx, %ecx
	jmp	.Lunix_path_BB74_26
.Lunix_path_BB74_45:
	cmpq	$32, %r12
	jae	.Lunix_path_BB74_49
	xorl	%ecx, %ecx
	jmp	.Lunix_path_BB74_53
.Lunix_path_BB74_22:
	movq	%r13, %rcx
	andq	$-32, %rcx
	leaq	(%rax,%rdx), %r8
	addq	$16, %r8
	xorl	%r9d, %r9d
	.p2align	4
.Lunix_path_BB74_23:
	movups	(%rsi,%r9), %xmm0
	movups	16(%rsi,%r9), %xmm1
	movups	%xmm0, -16(%r8,%r9)
	movups	%xmm1, (%r8,%r9)
	addq	$32, %r9
	cmpq	%r9, %rcx
	jne	.Lunix_path_BB74_23
	cmpq	%rcx, %r13
	je	.Lunix_path_BB74_35
	testb	$28, %r13b
	je	.Lunix_path_BB74_29
.Lunix_path_BB74_26:
	movq	%rcx, %r8
	movq	%r13, %rcx
	andq	$-4, %rcx
	.p2align	4
.Lunix_path_BB74_27:
	movl	(%rsi,%r8), %r9d
	movl	%r9d, (%rdi,%r8)
	addq	$4, %r8
	cmpq	%r8, %rcx
	jne	.Lunix_path_BB74_27
	cmpq	%rcx, %r13
	je	.Lunix_path_BB74_35
	jmp	.Lunix_path_BB74_29
.Lunix_path_BB74_47:
	movq	%r11, 32(%rsp)
	movq	%rsi, %rbp
	movq	%rsp, %rdi
	movq	%r13, %rsi
	callq	std_alloc.vec.Vec.grow_amortized.a04925db02c9ae72.
	testb	%al, %al
	je	.Lunix_path_BB74_69
	movq	(%rsp), %rdx
	movq	8(%rsp), %rax
	movq	16(%rsp), %r14
	movq	%rbp, %rsi
	movq	32(%rsp), %r11
	jmp	.Lunix_path_BB74_14
.Lunix_path_BB74_49:
	movq	%r12, %rcx
	andq	$-32, %rcx
	leaq	(%rax,%rbp), %rdx
	addq	$16, %rdx
	xorl	%esi, %esi
	.p2align	4
.Lunix_path_BB74_50:
	movups	(%r15,%rsi), %xmm0
	movups	16(%r15,%rsi), %xmm1
	movups	%xmm0, -16(%rdx,%rsi)
	movups	%xmm1, (%rdx,%rsi)
	addq	$32, %rsi
	cmpq	%rsi, %rcx
	jne	.Lunix_path_BB74_50
	cmpq	%rcx, %r12
	je	.Lunix_path_BB74_62
	testb	$28, %r12b
	je	.Lunix_path_BB74_56
.Lunix_path_BB74_53:
	movq	%rcx, %rdx
	movq	%r12, %rcx
	andq	$-4, %rcx
	.p2align	4
.Lunix_path_BB74_54:
	movl	(%r15,%rdx), %esi
	movl	%esi, (%rdi,%rdx)
	addq	$4, %rdx
	cmpq	%rdx, %rcx
	jne	.Lunix_path_BB74_54
	cmpq	%rcx, %r12
	je	.Lunix_path_BB74_62
	jmp	.Lunix_path_BB74_56
.Lunix_path_BB74_65:
	movq	%rsp, %rdi
	movq	%r12, %rsi
	callq	std_alloc.vec.Vec.grow_amortized.a04925db02c9ae72.
	testb	%al, %al
	je	.Lunix_path_BB74_69
	movq	8(%rsp), %rbp
	movq	16(%rsp), %r14
	jmp	.Lunix_path_BB74_39
.Lunix_path_BB74_67:
	movq	%rsp, %rdi
	movl	$1, %esi
	callq	std_alloc.vec.Vec.grow_amortized.a04925db02c9ae72.
	testb	%al, %al
	je	.Lunix_path_BB74_69
	movq	8(%rsp), %rbp
	movq	16(%rsp), %r14
	jmp	.Lunix_path_BB74_37
.Lunix_path_BB74_69:
	cmpq	$0, 16(%rsp)
	je	.Lunix_path_BB74_71
	movq	(%rsp), %rdi
	callq	rattle_dealloc@PLT
.Lunix_path_BB74_71:
	xorps	%xmm0, %xmm0
	movups	%xmm0, 55(%rsp)
	movq	$0, 71(%rsp)
	movb	$1, %al
	jmp	.Lunix_path_BB74_63
.Lunix_path_func_end74:
	.size	unix_path.path.Path.join, .Lunix_path_func_end74-unix_path.path.Path.join
	.section	.rodata.cst16,"aM",@progbits,16
	.p2align	4, 0x0
.Lunix_path_CPI75_0:
	.zero	16,208
.Lunix_path_CPI75_1:
	.zero	16,47
.Lunix_path_CPI75_2:
	.zero	16,46
.Lunix_path_CPI75_3:
	.byte	254
	.byte	254
	.byte	254
	.byte	254
	.byte	254
	.byte	254
	.byte	254
	.byte	254
	.zero	1
	.zero	1
	.zero	1
	.zero	1
	.zero	1
	.zero	1
	.zero	1
	.zero	1
.Lunix_path_CPI75_4:
	.byte	46
	.byte	46
	.byte	46
	.byte	46
	.byte	46
	.byte	46
	.byte	46
	.byte	46
	.zero	1
	.zero	1
	.zero	1
	.zero	1
	.zero	1
	.zero	1
	.zero	1
	.zero	1
.Lunix_path_CPI75_5:
	.byte	47
	.byte	47
	.byte	47
	.byte	47
	.byte	47
	.byte	47
	.byte	47
	.byte	47
	.zero	1
	.zero	1
	.zero	1
	.zero	1
	.zero	1
	.zero	1
	.zero	1
	.zero	1
	.section	.text.path_within.check.check_escape,"ax",@progbits
	.p2align	4
	.type	path_within.check.check_escape,@function
# path_within::check::check_escape
path_within.check.check_escape:
	testq	%rsi, %rsi
	je	.Lunix_path_BB75_3
	pushq	%rbp
	pushq	%r14
	pushq	%rbx
	subq	$16, %rsp
	movq	%rdi, %rbx
	cmpb	$47, (%rdi)
	jne	.Lunix_path_BB75_4
.Lunix_path_BB75_2:
	xorl	%eax, %eax
	jmp	.Lunix_path_BB75_109
.Lunix_path_BB75_3:
	movb	$2, %al
	retq
.Lunix_path_BB75_4:
	movq	%rsi, %r14
	movzbl	(%rbx), %ecx
	cmpl	$47, %ecx
	je	.Lunix_path_BB75_12
	cmpl	$46, %ecx
	jne	.Lunix_path_BB75_11
	cmpq	$1, %r14
	je	.Lunix_path_BB75_12
	movzbl	1(%rbx), %eax
	cmpl	$47, %eax
	je	.Lunix_path_BB75_12
	cmpl	$46, %eax
	jne	.Lunix_path_BB75_11
	cmpq	$2, %r14
	je	.Lunix_path_BB75_12
	cmpb	$47, 2(%rbx)
	je	.Lunix_path_BB75_12
.Lunix_path_BB75_11:
	movzbl	-1(%rbx,%r14), %eax
	andb	$-2, %al
	cmpb	$46, %al
	jne	.Lunix_path_BB75_76
.Lunix_path_BB75_12:
	movzbl	(%rbx), %ecx
.Lunix_path_BB75_13:
	movb	$1, %bpl
	cmpb	$47, %cl
	je	.Lunix_path_BB75_18
	movzbl	%cl, %eax
	cmpl	$46, %eax
	jne	.Lunix_path_BB75_17
	cmpq	$1, %r14
	je	.Lunix_path_BB75_18
	cmpb	$47, 1(%rbx)
	sete	%bpl
	jmp	.Lunix_path_BB75_18
.Lunix_path_BB75_17:
	xorl	%ebp, %ebp
.Lunix_path_BB75_18:
	movq	%r14, %rcx
	movq	%r14, %rax
	jmp	.Lunix_path_BB75_20
	.p2align	4
.Lunix_path_BB75_19:
	movq	%rax, %rcx
	testq	%rax, %rax
	je	.Lunix_path_BB75_75
.Lunix_path_BB75_20:
	decq	%rax
	je	.Lunix_path_BB75_26
	movzbl	(%rbx,%rax), %edx
	cmpl	$47, %edx
	je	.Lunix_path_BB75_24
	cmpl	$46, %edx
	jne	.Lunix_path_BB75_26
	cmpb	$47, -1(%rbx,%rax)
	jne	.Lunix_path_BB75_26
.Lunix_path_BB75_24:
	movq	%r14, %rcx
	subq	%rax, %rcx
	cmpq	$8, %rcx
	jne	.Lunix_path_BB75_19
	movq	%rbx, %rdi
	movq	%rax, %rsi
	callq	unix_path.filler.trimmed_blocks_len
	jmp	.Lunix_path_BB75_19
.Lunix_path_BB75_26:
	xorl	%eax, %eax
	movq	%rcx, %rsi
	movq	%rbx, %rdi
	xorl	%edx, %edx
	jmp	.Lunix_path_BB75_30
.Lunix_path_BB75_27:
	xorl	%r8d, %r8d
.Lunix_path_BB75_28:
	addq	%r9, %r8
	incq	%rax
.Lunix_path_BB75_29:
	addq	%r8, %rdx
	leaq	(%rbx,%rdx), %rdi
	xorl	%ebp, %ebp
	movq	%rcx, %rsi
	subq	%rdx, %rsi
	je	.Lunix_path_BB75_75
.Lunix_path_BB75_30:
	testb	$1, %bpl
	je	.Lunix_path_BB75_38
	movq	%rsi, %r9
	decq	%r9
	je	.Lunix_path_BB75_66
	leaq	-1(%rsi), %r10
	addq	$-2, %rsi
	xorl	%r8d, %r8d
	jmp	.Lunix_path_BB75_34
	.p2align	4
.Lunix_path_BB75_33:
	incq	%r8
	cmpq	%r8, %r10
	je	.Lunix_path_BB75_67
.Lunix_path_BB75_34:
	movzbl	1(%rdi,%r8), %r11d
	cmpl	$47, %r11d
	je	.Lunix_path_BB75_33
	cmpl	$46, %r11d
	jne	.Lunix_path_BB75_68
	cmpq	%r8, %rsi
	je	.Lunix_path_BB75_67
	cmpb	$47, 2(%rdi,%r8)
	je	.Lunix_path_BB75_33
	.p2align	4
.Lunix_path_BB75_68:
	incq	%r8
	cmpb	$47, (%rdi)
	jne	.Lunix_path_BB75_29
	jmp	.Lunix_path_BB75_2
	.p2align	4
.Lunix_path_BB75_38:
	cmpq	$1, %rsi
	je	.Lunix_path_BB75_44
	cmpb	$46, (%rdi)
	jne	.Lunix_path_BB75_44
	cmpb	$46, 1(%rdi)
	jne	.Lunix_path_BB75_44
	movl	$2, %r8d
	cmpq	$2, %rsi
	je	.Lunix_path_BB75_73
	cmpb	$47, 2(%rdi)
	jne	.Lunix_path_BB75_44
	leaq	-2(%rsi), %r9
	addq	$-3, %rsi
	xorl	%r8d, %r8d
	jmp	.Lunix_path_BB75_50
	.p2align	4
.Lunix_path_BB75_44:
	cmpq	$15, %rsi
	ja	.Lunix_path_BB75_54
	xorl	%r9d, %r9d
	.p2align	4
.Lunix_path_BB75_46:
	cmpb	$47, (%rdi,%r9)
	je	.Lunix_path_BB75_59
	incq	%r9
	cmpq	%r9, %rsi
	jne	.Lunix_path_BB75_46
	movq	%rsi, %r9
	subq	%r9, %rsi
	jne	.Lunix_path_BB75_60
	jmp	.Lunix_path_BB75_27
	.p2align	4
.Lunix_path_BB75_49:
	incq	%r8
	cmpq	%r8, %r9
	je	.Lunix_path_BB75_71
.Lunix_path_BB75_50:
	movzbl	2(%rdi,%r8), %r10d
	cmpl	$47, %r10d
	je	.Lunix_path_BB75_49
	cmpl	$46, %r10d
	jne	.Lunix_path_BB75_72
	cmpq	%r8, %rsi
	je	.Lunix_path_BB75_71
	cmpb	$47, 3(%rdi,%r8)
	je	.Lunix_path_BB75_49
	jmp	.Lunix_path_BB75_72
	.p2align	4
.Lunix_path_BB75_54:
	movq	%rsi, %r8
	addq	$-16, %r8
	je	.Lunix_path_BB75_58
	xorl	%r10d, %r10d
	.p2align	4
.Lunix_path_BB75_56:
	movdqu	(%rdi,%r10), %xmm0
	pcmpeqb	.Lunix_path_CPI75_1(%rip), %xmm0
	pmovmskb	%xmm0, %r9d
	orl	$65536, %r9d
	rep		bsfl	%r9d, %r9d
	cmpw	$15, %r9w
	jbe	.Lunix_path_BB75_70
	addq	$16, %r10
	cmpq	%r8, %r10
	jb	.Lunix_path_BB75_56
.Lunix_path_BB75_58:
	movdqu	(%rdi,%r8), %xmm0
	pcmpeqb	.Lunix_path_CPI75_1(%rip), %xmm0
	pmovmskb	%xmm0, %r9d
	orl	$65536, %r9d
	rep		bsfl	%r9d, %r9d
	addq	%r8, %r9
.Lunix_path_BB75_59:
	subq	%r9, %rsi
	je	.Lunix_path_BB75_27
.Lunix_path_BB75_60:
	addq	%r9, %rdi
	incq	%rdi
	leaq	-1(%rsi), %r10
	xorl	%r8d, %r8d
	jmp	.Lunix_path_BB75_62
	.p2align	4
.Lunix_path_BB75_61:
	incq	%r8
	cmpq	%r8, %rsi
	je	.Lunix_path_BB75_69
.Lunix_path_BB75_62:
	movzbl	-1(%rdi,%r8), %r11d
	cmpl	$47, %r11d
	je	.Lunix_path_BB75_61
	cmpl	$46, %r11d
	jne	.Lunix_path_BB75_28
	cmpq	%r8, %r10
	je	.Lunix_path_BB75_69
	cmpb	$47, (%rdi,%r8)
	je	.Lunix_path_BB75_61
	jmp	.Lunix_path_BB75_28
.Lunix_path_BB75_66:
	movl	$1, %r8d
	cmpb	$47, (%rdi)
	jne	.Lunix_path_BB75_29
	jmp	.Lunix_path_BB75_2
.Lunix_path_BB75_67:
	movq	%r9, %r8
	incq	%r8
	cmpb	$47, (%rdi)
	jne	.Lunix_path_BB75_29
	jmp	.Lunix_path_BB75_2
.Lunix_path_BB75_69:
	movq	%rsi, %r8
	jmp	.Lunix_path_BB75_28
.Lunix_path_BB75_70:
	movzwl	%r9w, %r9d
	addq	%r10, %r9
	subq	%r9, %rsi
	jne	.Lunix_path_BB75_60
	jmp	.Lunix_path_BB75_27
.Lunix_path_BB75_71:
	movq	%r9, %r8
.Lunix_path_BB75_72:
	addq	$2, %r8
.Lunix_path_BB75_73:
	testq	%rax, %rax
	je	.Lunix_path_BB75_2
	decq	%rax
	jmp	.Lunix_path_BB75_29
.Lunix_path_BB75_75:
	movb	$2, %al
.Lunix_path_BB75_109:
	addq	$16, %rsp
	popq	%rbx
	popq	%r14
	popq	%rbp
	retq
.Lunix_path_BB75_76:
	cmpq	$17, %r14
	jae	.Lunix_path_BB75_80
.Lunix_path_BB75_77:
	cmpq	$9, %r14
	jae	.Lunix_path_BB75_88
	xorl	%edx, %edx
	jmp	.Lunix_path_BB75_106
.Lunix_path_BB75_80:
	cmpq	$32, %r14
	ja	.Lunix_path_BB75_90
	movdqu	1(%rbx), %xmm0
	pand	.Lunix_path_CPI75_0(%rip), %xmm0
	movdqu	(%rbx), %xmm1
	por	%xmm1, %xmm0
	pcmpeqb	.Lunix_path_CPI75_1(%rip), %xmm0
	pmovmskb	%xmm0, %eax
	movdqa	%xmm1, (%rsp)
	movzbl	(%rsp), %ecx
	testl	%eax, %eax
	jne	.Lunix_path_BB75_83
	movdqu	-17(%rbx,%r14), %xmm0
	movdqu	-16(%rbx,%r14), %xmm1
	pand	.Lunix_path_CPI75_0(%rip), %xmm1
	por	%xmm0, %xmm1
	pcmpeqb	.Lunix_path_CPI75_1(%rip), %xmm1
	pmovmskb	%xmm1, %eax
	testl	%eax, %eax
	je	.Lunix_path_BB75_119
.Lunix_path_BB75_83:
	cmpq	$18, %r14
	jbe	.Lunix_path_BB75_77
	movq	%r14, %rax
	addq	$-19, %rax
	jne	.Lunix_path_BB75_92
	xorl	%eax, %eax
	xorl	%edx, %edx
.Lunix_path_BB75_86:
	leaq	-17(%r14), %rsi
	cmpq	%rdx, %rsi
	cmovbq	%rsi, %rdx
	movdqu	(%rbx,%rdx), %xmm0
	movdqu	1(%rbx,%rdx), %xmm1
	pand	.Lunix_path_CPI75_0(%rip), %xmm1
	por	%xmm0, %xmm1
	pcmpeqb	.Lunix_path_CPI75_1(%rip), %xmm1
	pmovmskb	%xmm1, %esi
	testl	%esi, %esi
	je	.Lunix_path_BB75_105
	movdqu	(%rbx,%rax), %xmm0
	movdqu	1(%rbx,%rax), %xmm1
	movdqu	2(%rbx,%rax), %xmm2
	movdqu	3(%rbx,%rax), %xmm3
	movdqa	.Lunix_path_CPI75_2(%rip), %xmm4
	movdqa	%xmm2, %xmm5
	pcmpeqb	%xmm4, %xmm5
	movdqa	.Lunix_path_CPI75_1(%rip), %xmm6
	pcmpeqb	%xmm6, %xmm3
	pand	%xmm5, %xmm3
	pcmpeqb	%xmm1, %xmm4
	pcmpeqb	%xmm6, %xmm2
	por	%xmm3, %xmm2
	pand	%xmm4, %xmm2
	pcmpeqb	%xmm6, %xmm0
	pcmpeqb	%xmm6, %xmm1
	por	%xmm2, %xmm1
	pand	%xmm0, %xmm1
	pmovmskb	%xmm1, %edx
	orl	$65536, %edx
	rep		bsfl	%edx, %edx
	jmp	.Lunix_path_BB75_100
.Lunix_path_BB75_88:
	movq	(%rbx), %rcx
	movq	1(%rbx), %xmm0
	pand	.Lunix_path_CPI75_3(%rip), %xmm0
	pcmpeqb	.Lunix_path_CPI75_4(%rip), %xmm0
	movq	%rcx, %xmm1
	pcmpeqb	.Lunix_path_CPI75_5(%rip), %xmm1
	pand	%xmm0, %xmm1
	pmovmskb	%xmm1, %eax
	orl	$256, %eax
	rep		bsfl	%eax, %edx
	cmpb	$8, %dl
	jb	.Lunix_path_BB75_106
	cmpq	$17, %r14
	movl	$17, %eax
	cmovbq	%r14, %rax
	movq	-8(%rbx,%rax), %xmm0
	pand	.Lunix_path_CPI75_3(%rip), %xmm0
	pcmpeqb	.Lunix_path_CPI75_4(%rip), %xmm0
	movq	-9(%rbx,%rax), %xmm1
	pcmpeqb	.Lunix_path_CPI75_5(%rip), %xmm1
	pand	%xmm0, %xmm1
	pmovmskb	%xmm1, %edx
	orl	$256, %edx
	rep		bsfl	%edx, %edx
	addq	%rax, %rdx
	addq	$-9, %rdx
	jmp	.Lunix_path_BB75_106
.Lunix_path_BB75_90:
	movdqa	.Lunix_path_CPI75_0(%rip), %xmm0
	movdqu	-33(%rbx,%r14), %xmm1
	movdqu	-32(%rbx,%r14), %xmm2
	movdqu	-17(%rbx,%r14), %xmm3
	movdqu	-16(%rbx,%r14), %xmm4
	pand	%xmm0, %xmm2
	por	%xmm1, %xmm2
	movdqa	.Lunix_path_CPI75_1(%rip), %xmm1
	pcmpeqb	%xmm1, %xmm2
	pand	%xmm0, %xmm4
	por	%xmm3, %xmm4
	pcmpeqb	%xmm1, %xmm4
	por	%xmm2, %xmm4
	pmovmskb	%xmm4, %eax
	testl	%eax, %eax
	je	.Lunix_path_BB75_101
	leaq	-19(%r14), %rax
.Lunix_path_BB75_92:
	xorl	%edx, %edx
	jmp	.Lunix_path_BB75_94
	.p2align	4
.Lunix_path_BB75_93:
	cmpq	%rax, %rdx
	jae	.Lunix_path_BB75_86
.Lunix_path_BB75_94:
	movdqu	(%rbx,%rdx), %xmm0
	movdqu	1(%rbx,%rdx), %xmm1
	movdqa	.Lunix_path_CPI75_0(%rip), %xmm2
	pand	%xmm1, %xmm2
	por	%xmm0, %xmm2
	pcmpeqb	.Lunix_path_CPI75_1(%rip), %xmm2
	pmovmskb	%xmm2, %esi
	testl	%esi, %esi
	je	.Lunix_path_BB75_97
	movdqu	2(%rbx,%rdx), %xmm2
	movdqu	3(%rbx,%rdx), %xmm3
	movdqa	.Lunix_path_CPI75_2(%rip), %xmm4
	movdqa	%xmm2, %xmm5
	pcmpeqb	%xmm4, %xmm5
	movdqa	.Lunix_path_CPI75_1(%rip), %xmm6
	pcmpeqb	%xmm6, %xmm3
	pand	%xmm5, %xmm3
	pcmpeqb	%xmm1, %xmm4
	pcmpeqb	%xmm6, %xmm2
	por	%xmm3, %xmm2
	pand	%xmm4, %xmm2
	pcmpeqb	%xmm6, %xmm0
	pcmpeqb	%xmm6, %xmm1
	por	%xmm2, %xmm1
	pand	%xmm0, %xmm1
	pmovmskb	%xmm1, %esi
	orl	$65536, %esi
	rep		bsfl	%esi, %esi
	cmpw	$15, %si
	jbe	.Lunix_path_BB75_99
	addq	$16, %rdx
	jmp	.Lunix_path_BB75_93
.Lunix_path_BB75_97:
	addq	$16, %rdx
	cmpq	%rax, %rdx
	jb	.Lunix_path_BB75_94
	jmp	.Lunix_path_BB75_93
.Lunix_path_BB75_99:
	movzwl	%si, %eax
.Lunix_path_BB75_100:
	addq	%rax, %rdx
	jmp	.Lunix_path_BB75_106
.Lunix_path_BB75_101:
	movq	%r14, %rdx
	movb	$1, %al
	addq	$-33, %rdx
	je	.Lunix_path_BB75_109
	xorl	%esi, %esi
.Lunix_path_BB75_103:
	movdqu	(%rbx,%rsi), %xmm2
	movdqu	1(%rbx,%rsi), %xmm3
	movdqu	16(%rbx,%rsi), %xmm4
	movdqu	17(%rbx,%rsi), %xmm5
	pand	%xmm0, %xmm3
	por	%xmm2, %xmm3
	pcmpeqb	%xmm1, %xmm3
	pand	%xmm0, %xmm5
	por	%xmm4, %xmm5
	pcmpeqb	%xmm1, %xmm5
	por	%xmm3, %xmm5
	pmovmskb	%xmm5, %edi
	testl	%edi, %edi
	jne	.Lunix_path_BB75_83
	addq	$32, %rsi
	cmpq	%rdx, %rsi
	jb	.Lunix_path_BB75_103
	jmp	.Lunix_path_BB75_109
.Lunix_path_BB75_105:
	addq	$16, %rdx
.Lunix_path_BB75_106:
	cmpq	%r14, %rdx
	jb	.Lunix_path_BB75_112
	movq	%rdx, %rsi
.Lunix_path_BB75_108:
	movb	$1, %al
	cmpq	%r14, %rsi
	jne	.Lunix_path_BB75_13
	jmp	.Lunix_path_BB75_109
.Lunix_path_BB75_110:
	cmpl	$47, %eax
	je	.Lunix_path_BB75_108
.Lunix_path_BB75_111:
	movb	$1, %al
	cmpq	%r14, %rdx
	jae	.Lunix_path_BB75_109
.Lunix_path_BB75_112:
	movq	%rdx, %rsi
	incq	%rdx
	cmpb	$47, (%rbx,%rsi)
	jne	.Lunix_path_BB75_111
	cmpq	%rdx, %r14
	jbe	.Lunix_path_BB75_108
	movzbl	1(%rbx,%rsi), %eax
	cmpl	$46, %eax
	jne	.Lunix_path_BB75_110
	leaq	2(%rsi), %rax
	cmpq	%rax, %r14
	jbe	.Lunix_path_BB75_108
	movzbl	2(%rbx,%rsi), %eax
	cmpl	$46, %eax
	jne	.Lunix_path_BB75_110
	leaq	3(%rsi), %rax
	cmpq	%rax, %r14
	jbe	.Lunix_path_BB75_108
	cmpb	$47, 3(%rbx,%rsi)
	jne	.Lunix_path_BB75_111
	jmp	.Lunix_path_BB75_108
.Lunix_path_BB75_119:
	movb	$1, %al
	jmp	.Lunix_path_BB75_109
.Lunix_path_func_end75:
	.size	path_within.check.check_escape, .Lunix_path_func_end75-path_within.check.check_escape
	.section	.text.upath_commands.joins.join_request,"ax",@progbits
	.p2align	4
	.type	upath_commands.joins.join_request,@function
# upath_commands::joins::join_request
upath_commands.joins.join_request:
	pushq	%rbp
	pushq	%r15
	pushq	%r14
	pushq	%r13
	pushq	%r12
	pushq	%rbx
	subq	$72, %rsp
	movq	%rdx, %r14
	movq	%rdi, %r13
	movq	(%rcx), %r12
	movq	8(%rcx), %rbx
	movq	16(%rcx), %rbp
	testq	%rdx, %rdx
	je	.Lunix_path_BB76_5
	js	.Lunix_path_BB76_4
	movq	%rsi, %r15
	movl	$1, %esi
	movq	%r14, %rdi
	callq	rattle_alloc@PLT
	testb	$1, %al
	je	.Lunix_path_BB76_4
	movq	%r15, %rsi
	movq	%rdx, %r15
	jmp	.Lunix_path_BB76_6
.Lunix_path_BB76_4:
	movb	$1, (%r13)
	xorps	%xmm0, %xmm0
	movups	%xmm0, 8(%r13)
	movups	%xmm0, 24(%r13)
	movq	$0, 40(%r13)
	jmp	.Lunix_path_BB76_183
.Lunix_path_BB76_5:
	leaq	7(%rsp), %r15
.Lunix_path_BB76_6:
	movq	%r15, %rcx
	subq	%rsi, %rcx
	cmpq	%r14, %rcx
	movq	%r13, 24(%rsp)
	jae	.Lunix_path_BB76_11
	xorl	%eax, %eax
	cmpq	$4, %r14
	jb	.Lunix_path_BB76_12
	cmpq	$32, %rcx
	movq	%rbx, %r9
	jb	.Lunix_path_BB76_20
	cmpq	$32, %r14
	jae	.Lunix_path_BB76_13
	xorl	%eax, %eax
	jmp	.Lunix_path_BB76_17
.Lunix_path_BB76_11:
	movq	%r15, %rdi
	movq	%r14, %rdx
	callq	memmove@PLT
	movq	%rbx, %r9
	jmp	.Lunix_path_BB76_25
.Lunix_path_BB76_12:
	movq	%rbx, %r9
	jmp	.Lunix_path_BB76_20
.Lunix_path_BB76_13:
	movq	%r14, %rax
	andq	$-32, %rax
	xorl	%ecx, %ecx
	.p2align	4
.Lunix_path_BB76_14:
	movups	(%rsi,%rcx), %xmm0
	movups	16(%rsi,%rcx), %xmm1
	movups	%xmm0, (%r15,%rcx)
	movups	%xmm1, 16(%r15,%rcx)
	addq	$32, %rcx
	cmpq	%rcx, %rax
	jne	.Lunix_path_BB76_14
	cmpq	%rax, %r14
	je	.Lunix_path_BB76_25
	testb	$28, %r14b
	je	.Lunix_path_BB76_20
.Lunix_path_BB76_17:
	movq	%rax, %rcx
	movq	%r14, %rax
	andq	$-4, %rax
	.p2align	4
.Lunix_path_BB76_18:
	movl	(%rsi,%rcx), %edx
	movl	%edx, (%r15,%rcx)
	addq	$4, %rcx
	cmpq	%rcx, %rax
	jne	.Lunix_path_BB76_18
	cmpq	%rax, %r14
	je	.Lunix_path_BB76_25
.Lunix_path_BB76_20:
	movq	%r14, %rdx
	movq	%rax, %rcx
	andq	$3, %rdx
	je	.Lunix_path_BB76_23
	movq	%rax, %rcx
	.p2align	4
.Lunix_path_BB76_22:
	movzbl	(%rsi,%rcx), %edi
	movb	%dil, (%r15,%rcx)
	incq	%rcx
	decq	%rdx
	jne	.Lunix_path_BB76_22
.Lunix_path_BB76_23:
	subq	%r14, %rax
	cmpq	$-4, %rax
	ja	.Lunix_path_BB76_25
	.p2align	4
.Lunix_path_BB76_24:
	movzbl	(%rsi,%rcx), %eax
	movb	%al, (%r15,%rcx)
	movzbl	1(%rsi,%rcx), %eax
	movb	%al, 1(%r15,%rcx)
	movzbl	2(%rsi,%rcx), %eax
	movb	%al, 2(%r15,%rcx)
	movzbl	3(%rsi,%rcx), %eax
	movb	%al, 3(%r15,%rcx)
	addq	$4, %rcx
	cmpq	%rcx, %r14
	jne	.Lunix_path_BB76_24
.Lunix_path_BB76_25:
	leaq	(%r14,%r9), %rax
	incq	%rax
	movq	%rax, 8(%rsp)
	je	.Lunix_path_BB76_34
	js	.Lunix_path_BB76_31
	movl	$1, %esi
	movq	8(%rsp), %rdi
	callq	rattle_alloc@PLT
	testb	$1, %al
	je	.Lunix_path_BB76_31
	movq	%rbx, %r9
	movq	%rdx, %r13
	testb	$1, %bpl
	jne	.Lunix_path_BB76_35
.Lunix_path_BB76_29:
	movq	8(%rsp), %rbp
	cmpq	%r14, %rbp
	jae	.Lunix_path_BB76_37
	xorl	%eax, %eax
	jmp	.Lunix_path_BB76_64
.Lunix_path_BB76_31:
	testq	%r14, %r14
	je	.Lunix_path_BB76_33
	movq	%r15, %rdi
	callq	rattle_dealloc@PLT
.Lunix_path_BB76_33:
	movq	24(%rsp), %rax
	movb	$1, (%rax)
	xorps	%xmm0, %xmm0
	movups	%xmm0, 8(%rax)
	movups	%xmm0, 24(%rax)
	movq	$0, 40(%rax)
	jmp	.Lunix_path_BB76_183
.Lunix_path_BB76_34:
	leaq	7(%rsp), %r13
	testb	$1, %bpl
	je	.Lunix_path_BB76_29
.Lunix_path_BB76_35:
	movq	8(%rsp), %rbp
	cmpq	%r14, %rbp
	jae	.Lunix_path_BB76_42
	xorl	%eax, %eax
	jmp	.Lunix_path_BB76_90
.Lunix_path_BB76_37:
	movq	%r13, %rax
	subq	%r15, %rax
	cmpq	%r14, %rax
	jae	.Lunix_path_BB76_47
	xorl	%ecx, %ecx
	cmpq	$4, %r14
	jb	.Lunix_path_BB76_58
	cmpq	$32, %rax
	jb	.Lunix_path_BB76_58
	cmpq	$32, %r14
	jae	.Lunix_path_BB76_51
	xorl	%ecx, %ecx
	jmp	.Lunix_path_BB76_55
.Lunix_path_BB76_42:
	movq	%r13, %rax
	subq	%r15, %rax
	cmpq	%r14, %rax
	jae	.Lunix_path_BB76_49
	xorl	%ecx, %ecx
	cmpq	$4, %r14
	jb	.Lunix_path_BB76_84
	cmpq	$32, %rax
	jb	.Lunix_path_BB76_84
	cmpq	$32, %r14
	jae	.Lunix_path_BB76_77
	xorl	%ecx, %ecx
	jmp	.Lunix_path_BB76_81
.Lunix_path_BB76_47:
	movq	%r13, %rdi
	movq	%r15, %rsi
	movq	%r14, %rdx
	callq	memmove@PLT
	movq	%rbx, %r9
	movq	%r14, %rax
	testq	%r14, %r14
	jne	.Lunix_path_BB76_64
	xorl	%eax, %eax
	jmp	.Lunix_path_BB76_67
.Lunix_path_BB76_49:
	movq	%r13, %rdi
	movq	%r15, %rsi
	movq	%r14, %rdx
	callq	memmove@PLT
	movq	%rbx, %r9
	movq	%r14, %rax
	testq	%r14, %r14
	jne	.Lunix_path_BB76_90
	xorl	%eax, %eax
	jmp	.Lunix_path_BB76_93
.Lunix_path_BB76_51:
	movq	%r14, %rcx
	andq	$-32, %rcx
	xorl	%eax, %eax
	.p2align	4
.Lunix_path_BB76_52:
	movups	(%r15,%rax), %xmm0
	movups	16(%r15,%rax), %xmm1
	movups	%xmm0, (%r13,%rax)
	movups	%xmm1, 16(%r13,%rax)
	addq	$32, %rax
	cmpq	%rax, %rcx
	jne	.Lunix_path_BB76_52
	movq	%r14, %rax
	cmpq	%rcx, %r14
	je	.Lunix_path_BB76_64
	testb	$28, %r14b
	je	.Lunix_path_BB76_58
.Lunix_path_BB76_55:
	movq	%rcx, %rax
	movq	%r14, %rcx
	andq	$-4, %rcx
	.p2align	4
.Lunix_path_BB76_56:
	movl	(%r15,%rax), %edx
	movl	%edx, (%r13,%rax)
	addq	$4, %rax
	cmpq	%rax, %rcx
	jne	.Lunix_path_BB76_56
	movq	%r14, %rax
	cmpq	%rcx, %r14
	je	.Lunix_path_BB76_64
.Lunix_path_BB76_58:
	movq	%r14, %rax
	movq	%rcx, %rdx
	andq	$3, %rax
	je	.Lunix_path_BB76_61
	movq	%rcx, %rdx
	.p2align	4
.Lunix_path_BB76_60:
	movzbl	(%r15,%rdx), %esi
	movb	%sil, (%r13,%rdx)
	incq	%rdx
	decq	%rax
	jne	.Lunix_path_BB76_60
.Lunix_path_BB76_61:
	subq	%r14, %rcx
	movq	%r14, %rax
	cmpq	$-4, %rcx
	ja	.Lunix_path_BB76_64
	.p2align	4
.Lunix_path_BB76_62:
	movzbl	(%r15,%rdx), %eax
	movb	%al, (%r13,%rdx)
	movzbl	1(%r15,%rdx), %eax
	movb	%al, 1(%r13,%rdx)
	movzbl	2(%r15,%rdx), %eax
	movb	%al, 2(%r13,%rdx)
	movzbl	3(%r15,%rdx), %eax
	movb	%al, 3(%r13,%rdx)
	addq	$4, %rdx
	cmpq	%rdx, %r14
	jne	.Lunix_path_BB76_62
	movq	%r14, %rax
.Lunix_path_BB76_64:
	cmpq	%rax, %rbp
	je	.Lunix_path_BB76_67
	cmpb	$47, -1(%r15,%r14)
	je	.Lunix_path_BB76_67
	movb	$47, (%r13,%rax)
	incq	%rax
.Lunix_path_BB76_67:
	movq	%rbp, %rcx
	subq	%rax, %rcx
	cmpq	%r9, %rcx
	jae	.Lunix_path_BB76_69
	movq	%rax, 16(%rsp)
	jmp	.Lunix_path_BB76_116
.Lunix_path_BB76_69:
	leaq	(%rax,%r9), %rcx
	movq	%rcx, 16(%rsp)
	leaq	(%rax,%r13), %rdi
	movq	%rdi, %rcx
	subq	%r12, %rcx
	cmpq	%r9, %rcx
	jae	.Lunix_path_BB76_72
	cmpq	$4, %r9
	jb	.Lunix_path_BB76_71
	cmpq	$32, %rcx
	jae	.Lunix_path_BB76_75
.Lunix_path_BB76_71:
	xorl	%ecx, %ecx
.Lunix_path_BB76_110:
	movq	%r9, %rsi
	movq	%rcx, %rdx
	andq	$3, %rsi
	je	.Lunix_path_BB76_113
	movq	%rcx, %rdx
	.p2align	4
.Lunix_path_BB76_112:
	movzbl	(%r12,%rdx), %r8d
	movb	%r8b, (%rdi,%rdx)
	incq	%rdx
	decq	%rsi
	jne	.Lunix_path_BB76_112
.Lunix_path_BB76_113:
	subq	%r9, %rcx
	cmpq	$-4, %rcx
	ja	.Lunix_path_BB76_116
	addq	%r13, %rax
	addq	$3, %rax
	.p2align	4
.Lunix_path_BB76_115:
	movzbl	(%r12,%rdx), %ecx
	movb	%cl, -3(%rax,%rdx)
	movzbl	1(%r12,%rdx), %ecx
	movb	%cl, -2(%rax,%rdx)
	movzbl	2(%r12,%rdx), %ecx
	movb	%cl, -1(%rax,%rdx)
	movzbl	3(%r12,%rdx), %ecx
	movb	%cl, (%rax,%rdx)
	addq	$4, %rdx
	cmpq	%rdx, %r9
	jne	.Lunix_path_BB76_115
	jmp	.Lunix_path_BB76_116
.Lunix_path_BB76_72:
	movq	%r12, %rsi
	movq	%r9, %rdx
	callq	memmove@PLT
	movq	%rbx, %r9
.Lunix_path_BB76_116:
	xorps	%xmm0, %xmm0
	movaps	%xmm0, 48(%rsp)
	movaps	%xmm0, 32(%rsp)
	movq	$0, 64(%rsp)
	leaq	32(%rsp), %rdi
	movq	%r12, %rsi
	movq	%r9, %rdx
	callq	path_within.write.Layout.resolve_names
	movq	56(%rsp), %rax
	movq	%r14, %rbx
	testq	%rax, %rax
	movq	16(%rsp), %rdi
	je	.Lunix_path_BB76_121
	leaq	(%rax,%r14), %rbx
	testq	%r14, %r14
	je	.Lunix_path_BB76_119
	xorl	%ecx, %ecx
	cmpb	$47, -1(%r15,%r14)
	sete	%cl
	negq	%rcx
	jmp	.Lunix_path_BB76_120
.Lunix_path_BB76_119:
	movq	$-1, %rcx
.Lunix_path_BB76_120:
	addq	%rcx, %rbx
.Lunix_path_BB76_121:
	cmpq	%rdi, %rbx
	ja	.Lunix_path_BB76_179
	movq	32(%rsp), %rdx
	movq	40(%rsp), %r12
	cmpb	$1, 64(%rsp)
	jne	.Lunix_path_BB76_126
	movq	%rbx, %rax
	subq	%r12, %rax
	leaq	(%rax,%r13), %rbp
	movq	%rbp, %rcx
	subq	%rdx, %rcx
	cmpq	%r12, %rcx
	jae	.Lunix_path_BB76_128
	cmpq	$4, %r12
	jb	.Lunix_path_BB76_125
	leaq	(%rbx,%r13), %rcx
	subq	%r12, %rcx
	subq	%rdx, %rcx
	cmpq	$32, %rcx
	jae	.Lunix_path_BB76_144
.Lunix_path_BB76_125:
	xorl	%ecx, %ecx
.Lunix_path_BB76_153:
	movq	%r12, %rdi
	movq	%rcx, %rsi
	andq	$3, %rdi
	je	.Lunix_path_BB76_156
	movq	%rcx, %rsi
	.p2align	4
.Lunix_path_BB76_155:
	movzbl	(%rdx,%rsi), %r8d
	movb	%r8b, (%rbp,%rsi)
	incq	%rsi
	decq	%rdi
	jne	.Lunix_path_BB76_155
.Lunix_path_BB76_156:
	subq	%r12, %rcx
	cmpq	$-4, %rcx
	ja	.Lunix_path_BB76_159
	addq	%r13, %rax
	addq	$3, %rax
	.p2align	4
.Lunix_path_BB76_158:
	movzbl	(%rdx,%rsi), %ecx
	movb	%cl, -3(%rax,%rsi)
	movzbl	1(%rdx,%rsi), %ecx
	movb	%cl, -2(%rax,%rsi)
	movzbl	2(%rdx,%rsi), %ecx
	movb	%cl, -1(%rax,%rsi)
	movzbl	3(%rdx,%rsi), %ecx
	movb	%cl, (%rax,%rsi)
	addq	$4, %rsi
	cmpq	%rsi, %r12
	jne	.Lunix_path_BB76_158
	jmp	.Lunix_path_BB76_159
.Lunix_path_BB76_126:
	testq	%rax, %rax
	je	.Lunix_path_BB76_161
	movq	48(%rsp), %r8
	leaq	1(%rbx), %rsi
	movq	%r13, %rdi
	movq	%r12, %rcx
	callq	path_within.backward.put_names_before
	jmp	.Lunix_path_BB76_161
.Lunix_path_BB76_128:
	movq	%rbp, %rdi
	movq	%rdx, %rsi
	movq	%r12, %rdx
	callq	memmove@PLT
.Lunix_path_BB76_159:
	cmpq	%r12, %rbx
	je	.Lunix_path_BB76_161
	movb	$47, -1(%rbp)
.Lunix_path_BB76_161:
	movq	%r13, %rcx
	subq	%r15, %rcx
	cmpq	%r14, %rcx
	jae	.Lunix_path_BB76_166
	xorl	%eax, %eax
	cmpq	$4, %r14
	movq	8(%rsp), %rbp
	movq	16(%rsp), %rdi
	jb	.Lunix_path_BB76_174
	cmpq	$32, %rcx
	jb	.Lunix_path_BB76_174
	cmpq	$32, %r14
	jae	.Lunix_path_BB76_167
	xorl	%eax, %eax
	jmp	.Lunix_path_BB76_171
.Lunix_path_BB76_166:
	movq	%r13, %rdi
	movq	%r15, %rsi
	movq	%r14, %rdx
	callq	memmove@PLT
	movq	8(%rsp), %rbp
	movq	16(%rsp), %rdi
	jmp	.Lunix_path_BB76_179
.Lunix_path_BB76_75:
	cmpq	$32, %r9
	jae	.Lunix_path_BB76_103
	xorl	%ecx, %ecx
	jmp	.Lunix_path_BB76_107
.Lunix_path_BB76_77:
	movq	%r14, %rcx
	andq	$-32, %rcx
	xorl	%eax, %eax
	.p2align	4
.Lunix_path_BB76_78:
	movups	(%r15,%rax), %xmm0
	movups	16(%r15,%rax), %xmm1
	movups	%xmm0, (%r13,%rax)
	movups	%xmm1, 16(%r13,%rax)
	addq	$32, %rax
	cmpq	%rax, %rcx
	jne	.Lunix_path_BB76_78
	movq	%r14, %rax
	cmpq	%rcx, %r14
	je	.Lunix_path_BB76_90
	testb	$28, %r14b
	je	.Lunix_path_BB76_84
.Lunix_path_BB76_81:
	movq	%rcx, %rax
	movq	%r14, %rcx
	andq	$-4, %rcx
	.p2align	4
.Lunix_path_BB76_82:
	movl	(%r15,%rax), %edx
	movl	%edx, (%r13,%rax)
	addq	$4, %rax
	cmpq	%rax, %rcx
	jne	.Lunix_path_BB76_82
	movq	%r14, %rax
	cmpq	%rcx, %r14
	je	.Lunix_path_BB76_90
.Lunix_path_BB76_84:
	movq	%r14, %rax
	movq	%rcx, %rdx
	andq	$3, %rax
	je	.Lunix_path_BB76_87
	movq	%rcx, %rdx
	.p2align	4
.Lunix_path_BB76_86:
	movzbl	(%r15,%rdx), %esi
	movb	%sil, (%r13,%rdx)
	incq	%rdx
	decq	%rax
	jne	.Lunix_path_BB76_86
.Lunix_path_BB76_87:
	subq	%r14, %rcx
	movq	%r14, %rax
	cmpq	$-4, %rcx
	ja	.Lunix_path_BB76_90
	.p2align	4
.Lunix_path_BB76_88:
	movzbl	(%r15,%rdx), %eax
	movb	%al, (%r13,%rdx)
	movzbl	1(%r15,%rdx), %eax
	movb	%al, 1(%r13,%rdx)
	movzbl	2(%r15,%rdx), %eax
	movb	%al, 2(%r13,%rdx)
	movzbl	3(%r15,%rdx), %eax
	movb	%al, 3(%r13,%rdx)
	addq	$4, %rdx
	cmpq	%rdx, %r14
	jne	.Lunix_path_BB76_88
	movq	%r14, %rax
.Lunix_path_BB76_90:
	cmpq	%rax, %rbp
	je	.Lunix_path_BB76_93
	cmpb	$47, -1(%r15,%r14)
	je	.Lunix_path_BB76_93
	movb	$47, (%r13,%rax)
	incq	%rax
.Lunix_path_BB76_93:
	movq	%rbp, %rcx
	subq	%rax, %rcx
	cmpq	%r9, %rcx
	jae	.Lunix_path_BB76_95
	movq	%rax, %rbx
	jmp	.Lunix_path_BB76_180
.Lunix_path_BB76_95:
	leaq	(%rax,%r9), %rbx
	leaq	(%rax,%r13), %rdi
	movq	%rdi, %rcx
	subq	%r12, %rcx
	cmpq	%r9, %rcx
	jae	.Lunix_path_BB76_98
	cmpq	$4, %r9
	jb	.Lunix_path_BB76_97
	cmpq	$32, %rcx
	jae	.Lunix_path_BB76_101
.Lunix_path_BB76_97:
	xorl	%ecx, %ecx
.Lunix_path_BB76_138:
	movq	%r9, %rsi
	movq	%rcx, %rdx
	andq	$3, %rsi
	je	.Lunix_path_BB76_141
	movq	%rcx, %rdx
	.p2align	4
.Lunix_path_BB76_140:
	movzbl	(%r12,%rdx), %r8d
	movb	%r8b, (%rdi,%rdx)
	incq	%rdx
	decq	%rsi
	jne	.Lunix_path_BB76_140
.Lunix_path_BB76_141:
	subq	%r9, %rcx
	cmpq	$-4, %rcx
	ja	.Lunix_path_BB76_180
	addq	%r13, %rax
	addq	$3, %rax
	.p2align	4
.Lunix_path_BB76_143:
	movzbl	(%r12,%rdx), %ecx
	movb	%cl, -3(%rax,%rdx)
	movzbl	1(%r12,%rdx), %ecx
	movb	%cl, -2(%rax,%rdx)
	movzbl	2(%r12,%rdx), %ecx
	movb	%cl, -1(%rax,%rdx)
	movzbl	3(%r12,%rdx), %ecx
	movb	%cl, (%rax,%rdx)
	addq	$4, %rdx
	cmpq	%rdx, %r9
	jne	.Lunix_path_BB76_143
	jmp	.Lunix_path_BB76_180
.Lunix_path_BB76_98:
	movq	%r12, %rsi
	movq	%r9, %rdx
	callq	memmove@PLT
	jmp	.Lunix_path_BB76_180
.Lunix_path_BB76_101:
	cmpq	$32, %r9
	jae	.Lunix_path_BB76_131
	xorl	%ecx, %ecx
	jmp	.Lunix_path_BB76_135
.Lunix_path_BB76_167:
	movq	%r14, %rax
	andq	$-32, %rax
	xorl	%ecx, %ecx
	.p2align	4
.Lunix_path_BB76_168:
	movups	(%r15,%rcx), %xmm0
	movups	16(%r15,%rcx), %xmm1
	movups	%xmm0, (%r13,%rcx)
	movups	%xmm1, 16(%r13,%rcx)
	addq	$32, %rcx
	cmpq	%rcx, %rax
	jne	.Lunix_path_BB76_168
	cmpq	%rax, %r14
	je	.Lunix_path_BB76_179
	testb	$28, %r14b
	je	.Lunix_path_BB76_174
.Lunix_path_BB76_171:
	movq	%rax, %rcx
	movq	%r14, %rax
	andq	$-4, %rax
	.p2align	4
.Lunix_path_BB76_172:
	movl	(%r15,%rcx), %edx
	movl	%edx, (%r13,%rcx)
	addq	$4, %rcx
	cmpq	%rcx, %rax
	jne	.Lunix_path_BB76_172
	cmpq	%rax, %r14
	je	.Lunix_path_BB76_179
.Lunix_path_BB76_174:
	movq	%r14, %rdx
	movq	%rax, %rcx
	andq	$3, %rdx
	je	.Lunix_path_BB76_177
	movq	%rax, %rcx
	.p2align	4
.Lunix_path_BB76_176:
	movzbl	(%r15,%rcx), %esi
	movb	%sil, (%r13,%rcx)
	incq	%rcx
	decq	%rdx
	jne	.Lunix_path_BB76_176
.Lunix_path_BB76_177:
	subq	%r14, %rax
	cmpq	$-4, %rax
	ja	.Lunix_path_BB76_179
	.p2align	4
.Lunix_path_BB76_178:
	movzbl	(%r15,%rcx), %eax
	movb	%al, (%r13,%rcx)
	movzbl	1(%r15,%rcx), %eax
	movb	%al, 1(%r13,%rcx)
	movzbl	2(%r15,%rcx), %eax
	movb	%al, 2(%r13,%rcx)
	movzbl	3(%r15,%rcx), %eax
	movb	%al, 3(%r13,%rcx)
	addq	$4, %rcx
	cmpq	%rcx, %r14
	jne	.Lunix_path_BB76_178
.Lunix_path_BB76_179:
	cmpq	%rbx, %rdi
	cmovbq	%rdi, %rbx
.Lunix_path_BB76_180:
	testq	%r14, %r14
	je	.Lunix_path_BB76_182
	movq	%r15, %rdi
	callq	rattle_dealloc@PLT
.Lunix_path_BB76_182:
	movq	24(%rsp), %rax
	movb	$0, (%rax)
	movq	$1, 8(%rax)
	movq	$1, 16(%rax)
	movq	%r13, 24(%rax)
	movq	%rbx, 32(%rax)
	movq	%rbp, 40(%rax)
.Lunix_path_BB76_183:
	addq	$72, %rsp
	popq	%rbx
	popq	%r12
	popq	%r13
	popq	%r14
	popq	%r15
	popq	%rbp
	retq
.Lunix_path_BB76_144:
	cmpq	$32, %r12
	jae	.Lunix_path_BB76_146
	xorl	%ecx, %ecx
	jmp	.Lunix_path_BB76_150
.Lunix_path_BB76_103:
	movq	%r9, %rcx
	andq	$-32, %rcx
	leaq	(%rax,%r13), %rdx
	addq	$16, %rdx
	xorl	%esi, %esi
.Lunix_path_BB76_104:
	movups	(%r12,%rsi), %xmm0
	movups	16(%r12,%rsi), %xmm1
	movups	%xmm0, -16(%rdx,%rsi)
	movups	%xmm1, (%rdx,%rsi)
	addq	$32, %rsi
	cmpq	%rsi, %rcx
	jne	.Lunix_path_BB76_104
	cmpq	%rcx, %r9
	je	.Lunix_path_BB76_116
	testb	$28, %r9b
	je	.Lunix_path_BB76_110
.Lunix_path_BB76_107:
	movq	%rcx, %rdx
	movq	%r9, %rcx
	andq	$-4, %rcx
	.p2align	4
.Lunix_path_BB76_108:
	movl	(%r12,%rdx), %esi
	movl	%esi, (%rdi,%rdx)
	addq	$4, %rdx
	cmpq	%rdx, %rcx
	jne	.Lunix_path_BB76_108
	cmpq	%rcx, %r9
	je	.Lunix_path_BB76_116
	jmp	.Lunix_path_BB76_110
.Lunix_path_BB76_131:
	movq	%r9, %rcx
	andq	$-32, %rcx
	leaq	(%rax,%r13), %rdx
	addq	$16, %rdx
	xorl	%esi, %esi
.Lunix_path_BB76_132:
	movups	(%r12,%rsi), %xmm0
	movups	16(%r12,%rsi), %xmm1
	movups	%xmm0, -16(%rdx,%rsi)
	movups	%xmm1, (%rdx,%rsi)
	addq	$32, %rsi
	cmpq	%rsi, %rcx
	jne	.Lunix_path_BB76_132
	cmpq	%rcx, %r9
	je	.Lunix_path_BB76_180
	testb	$28, %r9b
	je	.Lunix_path_BB76_138
.Lunix_path_BB76_135:
	movq	%rcx, %rdx
	movq	%r9, %rcx
	andq	$-4, %rcx
	.p2align	4
.Lunix_path_BB76_136:
	movl	(%r12,%rdx), %esi
	movl	%esi, (%rdi,%rdx)
	addq	$4, %rdx
	cmpq	%rdx, %rcx
	jne	.Lunix_path_BB76_136
	cmpq	%rcx, %r9
	je	.Lunix_path_BB76_180
	jmp	.Lunix_path_BB76_138
.Lunix_path_BB76_146:
	movq	%r12, %rcx
	andq	$-32, %rcx
	leaq	(%rax,%r13), %rsi
	addq	$16, %rsi
	xorl	%edi, %edi
.Lunix_path_BB76_147:
	movups	(%rdx,%rdi), %xmm0
	movups	16(%rdx,%rdi), %xmm1
	movups	%xmm0, -16(%rsi,%rdi)
	movups	%xmm1, (%rsi,%rdi)
	addq	$32, %rdi
	cmpq	%rdi, %rcx
	jne	.Lunix_path_BB76_147
	cmpq	%rcx, %r12
	je	.Lunix_path_BB76_159
	testb	$28, %r12b
	je	.Lunix_path_BB76_153
.Lunix_path_BB76_150:
	movq	%rcx, %rsi
	movq	%r12, %rcx
	andq	$-4, %rcx
.Lunix_path_BB76_151:
	movl	(%rdx,%rsi), %edi
	movl	%edi, (%rbp,%rsi)
	addq	$4, %rsi
	cmpq	%rsi, %rcx
	jne	.Lunix_path_BB76_151
	cmpq	%rcx, %r12
	je	.Lunix_path_BB76_159
	jmp	.Lunix_path_BB76_153
.Lunix_path_func_end76:
	.size	upath_commands.joins.join_request, .Lunix_path_func_end76-upath_commands.joins.join_request
	.section	.rodata.cst16,"aM",@progbits,16
	.p2align	4, 0x0
.Lunix_path_CPI77_0:
	.zero	16,208
.Lunix_path_CPI77_1:
	.zero	16,47
.Lunix_path_CPI77_2:
	.zero	16,46
.Lunix_path_CPI77_3:
	.byte	254
	.byte	254
	.byte	254
	.byte	254
	.byte	254
	.byte	254
	.byte	254
	.byte	254
	.zero	1
	.zero	1
	.zero	1
	.zero	1
	.zero	1
	.zero	1
	.zero	1
	.zero	1
.Lunix_path_CPI77_4:
	.byte	46
	.byte	46
	.byte	46
	.byte	46
	.byte	46
	.byte	46
	.byte	46
	.byte	46
	.zero	1
	.zero	1
	.zero	1
	.zero	1
	.zero	1
	.zero	1
	.zero	1
	.zero	1
.Lunix_path_CPI77_5:
	.byte	47
	.byte	47
	.byte	47
	.byte	47
	.byte	47
	.byte	47
	.byte	47
	.byte	47
	.zero	1
	.zero	1
	.zero	1
	.zero	1
	.zero	1
	.zero	1
	.zero	1
	.zero	1
	.section	.text.path_within.write.Layout.resolve_names,"ax",@progbits
	.p2align	4
	.type	path_within.write.Layout.resolve_names,@function
# path_within::write::Layout::resolve_names
path_within.write.Layout.resolve_names:
	pushq	%rbp
	pushq	%r15
	pushq	%r14
	pushq	%r12
	pushq	%rbx
	subq	$32, %rsp
	movq	%rdx, %r14
	movq	%rsi, %r15
	movq	%rdi, %rbx
	pxor	%xmm0, %xmm0
	movdqa	%xmm0, (%rsp)
	movq	$0, 16(%rsp)
	testq	%rdx, %rdx
	je	.Lunix_path_BB77_11
	movzbl	-1(%r15,%r14), %eax
	andb	$-2, %al
	movq	%r14, %r12
	cmpb	$46, %al
	jne	.Lunix_path_BB77_12
	movq	%r14, %r12
	movq	%r14, %rax
	jmp	.Lunix_path_BB77_3
	.p2align	4
.Lunix_path_BB77_10:
	movq	%rax, %r12
	testq	%rax, %rax
	je	.Lunix_path_BB77_11
.Lunix_path_BB77_3:
	decq	%rax
	je	.Lunix_path_BB77_4
	movzbl	(%r15,%rax), %ecx
	cmpl	$47, %ecx
	je	.Lunix_path_BB77_8
	cmpl	$46, %ecx
	jne	.Lunix_path_BB77_12
	cmpb	$47, -1(%r15,%rax)
	jne	.Lunix_path_BB77_12
.Lunix_path_BB77_8:
	movq	%r14, %rcx
	subq	%rax, %rcx
	cmpq	$8, %rcx
	jne	.Lunix_path_BB77_10
	movq	%r15, %rdi
	movq	%rax, %rsi
	callq	unix_path.filler.trimmed_blocks_len
	jmp	.Lunix_path_BB77_10
.Lunix_path_BB77_11:
	xorl	%r12d, %r12d
.Lunix_path_BB77_12:
	xorl	%edx, %edx
	jmp	.Lunix_path_BB77_13
	.p2align	4
.Lunix_path_BB77_18:
	addq	%rax, %rdx
	cmpq	$4, %rdx
	jae	.Lunix_path_BB77_19
.Lunix_path_BB77_13:
	movq	%rdx, %rax
	cmpq	%r12, %rdx
	jae	.Lunix_path_BB77_20
	movzbl	(%r15,%rax), %ecx
	movl	$1, %edx
	cmpl	$47, %ecx
	je	.Lunix_path_BB77_18
	cmpl	$46, %ecx
	jne	.Lunix_path_BB77_20
	leaq	1(%rax), %rcx
	cmpq	%r12, %rcx
	je	.Lunix_path_BB77_18
	movl	$2, %edx
	cmpb	$47, (%r15,%rcx)
	je	.Lunix_path_BB77_18
.Lunix_path_BB77_20:
	movq	%r12, %rcx
	subq	%rax, %rcx
	je	.Lunix_path_BB77_72
.Lunix_path_BB77_21:
	leaq	(%r15,%rax), %rdx
	xorl	%edi, %edi
	cmpb	$47, (%rdx)
	sete	%dil
	movq	%rcx, %rsi
	subq	%rdi, %rsi
	je	.Lunix_path_BB77_72
	leaq	(%rdx,%rdi), %r8
	movzbl	(%r8), %r9d
	cmpl	$47, %r9d
	je	.Lunix_path_BB77_72
	cmpl	$46, %r9d
	jne	.Lunix_path_BB77_29
	cmpq	$2, %rsi
	jb	.Lunix_path_BB77_72
	movzbl	1(%r8), %r9d
	cmpl	$47, %r9d
	je	.Lunix_path_BB77_72
	cmpl	$46, %r9d
	jne	.Lunix_path_BB77_29
	cmpq	$2, %rsi
	je	.Lunix_path_BB77_72
	cmpb	$47, 2(%r8)
	je	.Lunix_path_BB77_72
.Lunix_path_BB77_29:
	movzbl	-1(%r15,%r12), %r9d
	andb	$-2, %r9b
	cmpb	$46, %r9b
	je	.Lunix_path_BB77_72
	cmpq	$17, %rsi
	jae	.Lunix_path_BB77_31
.Lunix_path_BB77_44:
	cmpq	$9, %rsi
	jae	.Lunix_path_BB77_46
	xorl	%r9d, %r9d
	jmp	.Lunix_path_BB77_57
.Lunix_path_BB77_4:
	movl	$1, %r12d
	jmp	.Lunix_path_BB77_12
.Lunix_path_BB77_19:
	movq	%r15, %rdi
	movq	%r12, %rsi
	callq	unix_path.filler.filler_end_from
	movq	%r12, %rcx
	subq	%rax, %rcx
	jne	.Lunix_path_BB77_21
	jmp	.Lunix_path_BB77_72
.Lunix_path_BB77_31:
	cmpq	$32, %rsi
	ja	.Lunix_path_BB77_34
	movdqu	(%r8), %xmm0
	movdqu	1(%r8), %xmm1
	pand	.Lunix_path_CPI77_0(%rip), %xmm1
	por	%xmm0, %xmm1
	pcmpeqb	.Lunix_path_CPI77_1(%rip), %xmm1
	pmovmskb	%xmm1, %r9d
	testl	%r9d, %r9d
	jne	.Lunix_path_BB77_43
	movdqu	-17(%r15,%r12), %xmm0
	movdqu	-16(%r15,%r12), %xmm1
	pand	.Lunix_path_CPI77_0(%rip), %xmm1
	por	%xmm0, %xmm1
	pcmpeqb	.Lunix_path_CPI77_1(%rip), %xmm1
	pmovmskb	%xmm1, %r9d
	testl	%r9d, %r9d
	je	.Lunix_path_BB77_71
.Lunix_path_BB77_43:
	cmpq	$18, %rsi
	jbe	.Lunix_path_BB77_44
	movq	%rsi, %r10
	addq	$-19, %r10
	jne	.Lunix_path_BB77_36
	xorl	%r10d, %r10d
	xorl	%r9d, %r9d
.Lunix_path_BB77_54:
	leaq	-17(%rsi), %r11
	cmpq	%r9, %r11
	cmovbq	%r11, %r9
	movdqu	(%r8,%r9), %xmm0
	movdqu	1(%r8,%r9), %xmm1
	pand	.Lunix_path_CPI77_0(%rip), %xmm1
	por	%xmm0, %xmm1
	pcmpeqb	.Lunix_path_CPI77_1(%rip), %xmm1
	pmovmskb	%xmm1, %r11d
	testl	%r11d, %r11d
	je	.Lunix_path_BB77_55
	movdqu	(%r8,%r10), %xmm0
	movdqu	1(%r8,%r10), %xmm1
	movdqu	2(%r8,%r10), %xmm2
	movdqu	3(%r8,%r10), %xmm3
	movdqa	.Lunix_path_CPI77_2(%rip), %xmm4
	movdqa	%xmm2, %xmm5
	pcmpeqb	%xmm4, %xmm5
	movdqa	.Lunix_path_CPI77_1(%rip), %xmm6
	pcmpeqb	%xmm6, %xmm3
	pand	%xmm5, %xmm3
	pcmpeqb	%xmm1, %xmm4
	pcmpeqb	%xmm6, %xmm2
	por	%xmm3, %xmm2
	pand	%xmm4, %xmm2
	pcmpeqb	%xmm6, %xmm0
	pcmpeqb	%xmm6, %xmm1
	por	%xmm2, %xmm1
	pand	%xmm0, %xmm1
	pmovmskb	%xmm1, %r8d
	orl	$65536, %r8d
	rep		bsfl	%r8d, %r9d
	addq	%r10, %r9
	jmp	.Lunix_path_BB77_57
.Lunix_path_BB77_46:
	movq	1(%r8), %xmm0
	pand	.Lunix_path_CPI77_3(%rip), %xmm0
	pcmpeqb	.Lunix_path_CPI77_4(%rip), %xmm0
	movq	(%r8), %xmm1
	pcmpeqb	.Lunix_path_CPI77_5(%rip), %xmm1
	pand	%xmm0, %xmm1
	pmovmskb	%xmm1, %r9d
	orl	$256, %r9d
	rep		bsfl	%r9d, %r9d
	cmpb	$8, %r9b
	jb	.Lunix_path_BB77_57
	cmpq	$17, %rsi
	movl	$17, %r9d
	cmovbq	%rsi, %r9
	movq	-8(%r8,%r9), %xmm0
	pand	.Lunix_path_CPI77_3(%rip), %xmm0
	pcmpeqb	.Lunix_path_CPI77_4(%rip), %xmm0
	movq	-9(%r8,%r9), %xmm1
	pcmpeqb	.Lunix_path_CPI77_5(%rip), %xmm1
	pand	%xmm0, %xmm1
	pmovmskb	%xmm1, %r8d
	orl	$256, %r8d
	rep		bsfl	%r8d, %r8d
	addq	%r8, %r9
	addq	$-9, %r9
	jmp	.Lunix_path_BB77_57
.Lunix_path_BB77_34:
	movdqu	-33(%r8,%rsi), %xmm1
	movdqu	-32(%r8,%rsi), %xmm2
	movdqa	.Lunix_path_CPI77_0(%rip), %xmm0
	pand	%xmm0, %xmm2
	por	%xmm1, %xmm2
	movdqa	.Lunix_path_CPI77_1(%rip), %xmm1
	pcmpeqb	%xmm1, %xmm2
	movdqu	-17(%r15,%r12), %xmm3
	movdqu	-16(%r15,%r12), %xmm4
	pand	%xmm0, %xmm4
	por	%xmm3, %xmm4
	pcmpeqb	%xmm1, %xmm4
	por	%xmm2, %xmm4
	pmovmskb	%xmm4, %r9d
	testl	%r9d, %r9d
	je	.Lunix_path_BB77_39
	leaq	-19(%rsi), %r10
.Lunix_path_BB77_36:
	xorl	%r9d, %r9d
	jmp	.Lunix_path_BB77_37
	.p2align	4
.Lunix_path_BB77_50:
	movdqu	2(%r8,%r9), %xmm2
	movdqu	3(%r8,%r9), %xmm3
	movdqa	.Lunix_path_CPI77_2(%rip), %xmm4
	movdqa	%xmm2, %xmm5
	pcmpeqb	%xmm4, %xmm5
	movdqa	.Lunix_path_CPI77_1(%rip), %xmm6
	pcmpeqb	%xmm6, %xmm3
	pand	%xmm5, %xmm3
	pcmpeqb	%xmm1, %xmm4
	pcmpeqb	%xmm6, %xmm2
	por	%xmm3, %xmm2
	pand	%xmm4, %xmm2
	pcmpeqb	%xmm6, %xmm0
	pcmpeqb	%xmm6, %xmm1
	por	%xmm2, %xmm1
	pand	%xmm0, %xmm1
	pmovmskb	%xmm1, %r11d
	orl	$65536, %r11d
	rep		bsfl	%r11d, %r11d
	cmpw	$15, %r11w
	jbe	.Lunix_path_BB77_51
	addq	$16, %r9
.Lunix_path_BB77_53:
	cmpq	%r10, %r9
	jae	.Lunix_path_BB77_54
.Lunix_path_BB77_37:
	movdqu	(%r8,%r9), %xmm0
	movdqu	1(%r8,%r9), %xmm1
	movdqa	.Lunix_path_CPI77_0(%rip), %xmm2
	pand	%xmm1, %xmm2
	por	%xmm0, %xmm2
	pcmpeqb	.Lunix_path_CPI77_1(%rip), %xmm2
	pmovmskb	%xmm2, %r11d
	testl	%r11d, %r11d
	jne	.Lunix_path_BB77_50
	addq	$16, %r9
	cmpq	%r10, %r9
	jb	.Lunix_path_BB77_37
	jmp	.Lunix_path_BB77_53
.Lunix_path_BB77_51:
	movzwl	%r11w, %r8d
	addq	%r8, %r9
	jmp	.Lunix_path_BB77_57
.Lunix_path_BB77_39:
	movq	%rsi, %r9
	addq	$-33, %r9
	je	.Lunix_path_BB77_71
	leaq	(%rax,%rdi), %r10
	addq	%r15, %r10
	addq	$17, %r10
	xorl	%r11d, %r11d
.Lunix_path_BB77_42:
	movdqu	-17(%r10,%r11), %xmm2
	movdqu	-16(%r10,%r11), %xmm3
	movdqu	-1(%r10,%r11), %xmm4
	movdqu	(%r10,%r11), %xmm5
	pand	%xmm0, %xmm3
	por	%xmm2, %xmm3
	pcmpeqb	%xmm1, %xmm3
	pand	%xmm0, %xmm5
	por	%xmm4, %xmm5
	pcmpeqb	%xmm1, %xmm5
	por	%xmm3, %xmm5
	pmovmskb	%xmm5, %ebp
	testl	%ebp, %ebp
	jne	.Lunix_path_BB77_43
	addq	$32, %r11
	cmpq	%r9, %r11
	jb	.Lunix_path_BB77_42
	jmp	.Lunix_path_BB77_71
.Lunix_path_BB77_55:
	addq	$16, %r9
.Lunix_path_BB77_57:
	cmpq	%rsi, %r9
	jae	.Lunix_path_BB77_58
	addq	%rdi, %rax
	subq	%rax, %r12
	leaq	(%r15,%rax), %rdi
	addq	$3, %rdi
	jmp	.Lunix_path_BB77_60
.Lunix_path_BB77_63:
	cmpl	$47, %r8d
	je	.Lunix_path_BB77_70
.Lunix_path_BB77_68:
	cmpq	%rsi, %r9
	jae	.Lunix_path_BB77_69
.Lunix_path_BB77_60:
	movq	%r9, %rax
	incq	%r9
	cmpb	$47, -3(%rdi,%rax)
	jne	.Lunix_path_BB77_68
	cmpq	%r9, %rsi
	jbe	.Lunix_path_BB77_70
	movzbl	-2(%rdi,%rax), %r8d
	cmpl	$46, %r8d
	jne	.Lunix_path_BB77_63
	leaq	2(%rax), %r8
	cmpq	%r8, %rsi
	jbe	.Lunix_path_BB77_70
	movzbl	-1(%rdi,%rax), %r8d
	cmpl	$46, %r8d
	jne	.Lunix_path_BB77_63
	leaq	3(%rax), %r8
	cmpq	%r8, %rsi
	jbe	.Lunix_path_BB77_70
	cmpb	$47, (%rdi,%rax)
	jne	.Lunix_path_BB77_68
	jmp	.Lunix_path_BB77_70
.Lunix_path_BB77_58:
	movq	%r9, %rax
.Lunix_path_BB77_70:
	cmpq	%rsi, %rax
	jne	.Lunix_path_BB77_72
.Lunix_path_BB77_71:
	leaq	1(%rcx), %rax
	movl	$1, %esi
	movq	$-1, %rdi
	movq	%rdx, %r15
	movq	%rcx, %r14
	jmp	.Lunix_path_BB77_73
.Lunix_path_BB77_69:
	movq	%r12, %rax
	cmpq	%rsi, %rax
	je	.Lunix_path_BB77_71
.Lunix_path_BB77_72:
	movq	%rsp, %rdi
	movq	%r15, %rsi
	movq	%r14, %rdx
	callq	path_within.backward.count_resolved
	movq	8(%rsp), %rdi
	movq	16(%rsp), %rax
	xorl	%esi, %esi
.Lunix_path_BB77_73:
	movq	%r15, (%rbx)
	movq	%r14, 8(%rbx)
	movq	%rdi, 16(%rbx)
	movq	%rax, 24(%rbx)
	movq	%rsi, 32(%rbx)
	addq	$32, %rsp
	popq	%rbx
	popq	%r12
	popq	%r14
	popq	%r15
	popq	%rbp
	retq
.Lunix_path_func_end77:
	.size	path_within.write.Layout.resolve_names, .Lunix_path_func_end77-path_within.write.Layout.resolve_names
	.section	.text.upath_commands.bases.rest_after,"ax",@progbits
	.p2align	4
	.type	upath_commands.bases.rest_after,@function
# upath_commands::bases::rest_after
upath_commands.bases.rest_after:
	pushq	%r15
	pushq	%r14
	pushq	%r13
	pushq	%r12
	pushq	%rbx
	subq	$32, %rsp
	movq	%rcx, %r14
	movq	%rdx, %r15
	movq	%rsi, %r12
	movq	%rdi, %rbx
	testq	%r8, %r8
	je	.Lunix_path_BB78_9
	movq	%r8, %r13
	movq	%r8, %rdx
	movq	%r13, %rax
	jmp	.Lunix_path_BB78_3
	.p2align	4
.Lunix_path_BB78_2:
	movq	%rax, %rdx
	testq	%rax, %rax
	je	.Lunix_path_BB78_9
.Lunix_path_BB78_3:
	decq	%rax
	je	.Lunix_path_BB78_24
	movzbl	(%r14,%rax), %ecx
	cmpl	$47, %ecx
	je	.Lunix_path_BB78_7
	cmpl	$46, %ecx
	jne	.Lunix_path_BB78_10
	cmpb	$47, -1(%r14,%rax)
	jne	.Lunix_path_BB78_10
.Lunix_path_BB78_7:
	movq	%r13, %rcx
	subq	%rax, %rcx
	cmpq	$8, %rcx
	jne	.Lunix_path_BB78_2
	movq	%r14, %rdi
	movq	%rax, %rsi
	callq	unix_path.filler.trimmed_blocks_len
	jmp	.Lunix_path_BB78_2
.Lunix_path_BB78_9:
	xorl	%edx, %edx
.Lunix_path_BB78_10:
	movl	$1, %eax
	testq	%r15, %r15
	je	.Lunix_path_BB78_67
.Lunix_path_BB78_11:
	pxor	%xmm0, %xmm0
	movdqa	%xmm0, (%rsp)
	movq	$0, 16(%rsp)
	cmpq	%rdx, %r15
	movq	%rdx, %rcx
	cmovbq	%r15, %rcx
	cmpq	$15, %rcx
	ja	.Lunix_path_BB78_17
	cmpq	$7, %rcx
	ja	.Lunix_path_BB78_25
	testq	%rdx, %rdx
	je	.Lunix_path_BB78_28
	movzbl	(%r14), %eax
	cmpb	(%r12), %al
	jne	.Lunix_path_BB78_29
	cmpq	$1, %rcx
	jne	.Lunix_path_BB78_62
.Lunix_path_BB78_16:
	movq	%rcx, %rax
	jmp	.Lunix_path_BB78_30
.Lunix_path_BB78_17:
	leaq	-16(%rcx), %rsi
	xorl	%edi, %edi
	cmpq	$64, %rcx
	jb	.Lunix_path_BB78_22
	.p2align	4
.Lunix_path_BB78_18:
	movdqu	(%r14,%rdi), %xmm0
	movdqu	16(%r14,%rdi), %xmm1
	movdqu	32(%r14,%rdi), %xmm2
	movdqu	48(%r14,%rdi), %xmm3
	movdqu	(%r12,%rdi), %xmm4
	pcmpeqb	%xmm0, %xmm4
	movdqu	16(%r12,%rdi), %xmm0
	pcmpeqb	%xmm1, %xmm0
	pand	%xmm4, %xmm0
	movdqu	32(%r12,%rdi), %xmm1
	pcmpeqb	%xmm2, %xmm1
	movdqu	48(%r12,%rdi), %xmm2
	pcmpeqb	%xmm3, %xmm2
	pand	%xmm1, %xmm2
	pand	%xmm0, %xmm2
	pmovmskb	%xmm2, %eax
	cmpl	$65535, %eax
	jne	.Lunix_path_BB78_22
	addq	$64, %rdi
	addq	$-64, %rcx
	cmpq	$63, %rcx
	ja	.Lunix_path_BB78_18
	jmp	.Lunix_path_BB78_22
	.p2align	4
.Lunix_path_BB78_20:
	movdqu	(%r14,%rdi), %xmm0
	movdqu	(%r12,%rdi), %xmm1
	pcmpeqb	%xmm0, %xmm1
	pmovmskb	%xmm1, %eax
	notl	%eax
	rep		bsfl	%eax, %eax
	cmpw	$15, %ax
	jbe	.Lunix_path_BB78_27
	addq	$16, %rdi
.Lunix_path_BB78_22:
	cmpq	%rsi, %rdi
	jb	.Lunix_path_BB78_20
	movdqu	(%r14,%rsi), %xmm0
	movdqu	(%r12,%rsi), %xmm1
	pcmpeqb	%xmm0, %xmm1
	pmovmskb	%xmm1, %eax
	notl	%eax
	rep		bsfl	%eax, %eax
	addq	%rsi, %rax
	jmp	.Lunix_path_BB78_30
.Lunix_path_BB78_24:
	movl	$1, %edx
	movl	$1, %eax
	testq	%r15, %r15
	jne	.Lunix_path_BB78_11
	jmp	.Lunix_path_BB78_67
.Lunix_path_BB78_25:
	movq	(%r14), %xmm0
	movq	(%r12), %xmm1
	pcmpeqb	%xmm0, %xmm1
	pmovmskb	%xmm1, %eax
	notl	%eax
	orl	$256, %eax
	rep		bsfl	%eax, %eax
	cmpb	$8, %al
	jb	.Lunix_path_BB78_30
	movq	-8(%r14,%rcx), %xmm0
	movq	-8(%r12,%rcx), %xmm1
	pcmpeqb	%xmm0, %xmm1
	pmovmskb	%xmm1, %eax
	notl	%eax
	orl	$256, %eax
	rep		bsfl	%eax, %eax
	addq	%rcx, %rax
	addq	$-8, %rax
	jmp	.Lunix_path_BB78_30
.Lunix_path_BB78_27:
	movzwl	%ax, %eax
	addq	%rdi, %rax
	jmp	.Lunix_path_BB78_30
.Lunix_path_BB78_28:
	movb	$1, %cl
	xorl	%eax, %eax
	cmpq	%rdx, %rax
	jb	.Lunix_path_BB78_32
	jmp	.Lunix_path_BB78_43
.Lunix_path_BB78_29:
	xorl	%eax, %eax
.Lunix_path_BB78_30:
	movb	$1, %cl
	cmpq	%rax, %r15
	jbe	.Lunix_path_BB78_34
	cmpq	%rdx, %rax
	jae	.Lunix_path_BB78_43
.Lunix_path_BB78_32:
	movzbl	(%r14,%rax), %esi
	cmpw	$47, %si
	jne	.Lunix_path_BB78_38
.Lunix_path_BB78_43:
	xorl	%esi, %esi
	testb	%cl, %cl
	je	.Lunix_path_BB78_45
.Lunix_path_BB78_44:
	movzbl	(%r12,%rax), %ecx
	cmpw	$47, %cx
	je	.Lunix_path_BB78_45
	movzwl	%cx, %ecx
	incl	%ecx
	cmpw	%cx, %si
	je	.Lunix_path_BB78_52
.Lunix_path_BB78_46:
	testq	%rax, %rax
	je	.Lunix_path_BB78_50
	movzbl	-1(%r14,%rax), %ecx
	cmpb	$47, %cl
	je	.Lunix_path_BB78_53
	cmpb	$46, %cl
	setne	%cl
	decq	%rax
	sete	%sil
	orb	%cl, %sil
	jne	.Lunix_path_BB78_50
	cmpb	$47, -1(%r14,%rax)
	je	.Lunix_path_BB78_53
	jmp	.Lunix_path_BB78_50
.Lunix_path_BB78_34:
	movq	%rdx, %r13
	subq	%r15, %r13
	jbe	.Lunix_path_BB78_37
	cmpb	$47, (%r14,%r15)
	je	.Lunix_path_BB78_37
	cmpb	$47, -1(%r14,%r15)
	jne	.Lunix_path_BB78_42
.Lunix_path_BB78_37:
	addq	%r15, %r14
	jmp	.Lunix_path_BB78_55
.Lunix_path_BB78_38:
	cmpb	$46, %sil
	sete	%dil
	movl	%ecx, %r8d
	xorb	$1, %r8b
	orb	%dil, %r8b
	jne	.Lunix_path_BB78_40
	movzbl	(%r12,%rax), %edi
	andb	$-2, %dil
	cmpb	$46, %dil
	jne	.Lunix_path_BB78_50
.Lunix_path_BB78_40:
	movzwl	%si, %esi
	incl	%esi
	testb	%cl, %cl
	jne	.Lunix_path_BB78_44
.Lunix_path_BB78_45:
	xorl	%ecx, %ecx
	cmpw	%cx, %si
	jne	.Lunix_path_BB78_46
.Lunix_path_BB78_52:
	testq	%rax, %rax
	je	.Lunix_path_BB78_50
.Lunix_path_BB78_53:
	addq	%rax, %r14
	subq	%rax, %rdx
	addq	%rax, %r12
	subq	%rax, %r15
	movq	%rsp, %rdi
	movq	%r14, %rsi
	movq	%r12, %rcx
	movq	%r15, %r8
	callq	unix_path.pair.Comparison.rest_after_cut
	xorl	%r14d, %r14d
	cmpb	$1, (%rsp)
	movl	$0, %edx
	movl	$0, %eax
	jne	.Lunix_path_BB78_67
	movq	8(%rsp), %r14
	movq	16(%rsp), %r13
.Lunix_path_BB78_55:
	xorl	%edx, %edx
	jmp	.Lunix_path_BB78_57
	.p2align	4
.Lunix_path_BB78_56:
	addq	%rax, %rdx
	cmpq	$4, %rdx
	jae	.Lunix_path_BB78_65
.Lunix_path_BB78_57:
	movq	%rdx, %rax
	cmpq	%r13, %rdx
	jae	.Lunix_path_BB78_66
	movzbl	(%r14,%rax), %ecx
	movl	$1, %edx
	cmpl	$47, %ecx
	je	.Lunix_path_BB78_56
	cmpl	$46, %ecx
	jne	.Lunix_path_BB78_66
	leaq	1(%rax), %rcx
	cmpq	%r13, %rcx
	je	.Lunix_path_BB78_56
	movl	$2, %edx
	cmpb	$47, (%r14,%rcx)
	je	.Lunix_path_BB78_56
	jmp	.Lunix_path_BB78_66
.Lunix_path_BB78_50:
	xorl	%r14d, %r14d
	xorl	%edx, %edx
	xorl	%eax, %eax
	jmp	.Lunix_path_BB78_67
.Lunix_path_BB78_42:
	xorl	%ecx, %ecx
	cmpq	%rdx, %rax
	jb	.Lunix_path_BB78_32
	jmp	.Lunix_path_BB78_43
.Lunix_path_BB78_62:
	movzbl	1(%r14), %esi
	movl	$1, %eax
	cmpb	1(%r12), %sil
	jne	.Lunix_path_BB78_30
	cmpq	$2, %rcx
	je	.Lunix_path_BB78_16
	movzbl	2(%r14), %esi
	movl	$2, %eax
	cmpb	2(%r12), %sil
	jne	.Lunix_path_BB78_30
	cmpq	$3, %rcx
	je	.Lunix_path_BB78_16
	movzbl	3(%r14), %esi
	movl	$3, %eax
	cmpb	3(%r12), %sil
	jne	.Lunix_path_BB78_30
	cmpq	$4, %rcx
	je	.Lunix_path_BB78_16
	movzbl	4(%r14), %esi
	movl	$4, %eax
	cmpb	4(%r12), %sil
	jne	.Lunix_path_BB78_30
	cmpq	$5, %rcx
	je	.Lunix_path_BB78_16
	movzbl	5(%r14), %esi
	movl	$5, %eax
	cmpb	5(%r12), %sil
	jne	.Lunix_path_BB78_30
	cmpq	$6, %rcx
	je	.Lunix_path_BB78_16
	movzbl	6(%r14), %eax
	cmpb	6(%r12), %al
	movl	$6, %eax
	cmoveq	%rcx, %rax
	jmp	.Lunix_path_BB78_30
.Lunix_path_BB78_65:
	movq	%r14, %rdi
	movq	%r13, %rsi
	callq	unix_path.filler.filler_end_from
.Lunix_path_BB78_66:
	addq	%rax, %r14
	subq	%rax, %r13
	movq	%r13, %rdx
	movl	$1, %eax
.Lunix_path_BB78_67:
	movq	%rax, (%rbx)
	movq	%r14, 8(%rbx)
	movq	%rdx, 16(%rbx)
	addq	$32, %rsp
	popq	%rbx
	popq	%r12
	popq	%r13
	popq	%r14
	popq	%r15
	retq
.Lunix_path_func_end78:
	.size	upath_commands.bases.rest_after, .Lunix_path_func_end78-upath_commands.bases.rest_after
	.section	.rodata.cst16,"aM",@progbits,16
	.p2align	4, 0x0
.Lunix_path_CPI79_0:
	.zero	16,208
.Lunix_path_CPI79_1:
	.zero	16,47
.Lunix_path_CPI79_2:
	.zero	16,46
.Lunix_path_CPI79_3:
	.byte	254
	.byte	254
	.byte	254
	.byte	254
	.byte	254
	.byte	254
	.byte	254
	.byte	254
	.zero	1
	.zero	1
	.zero	1
	.zero	1
	.zero	1
	.zero	1
	.zero	1
	.zero	1
.Lunix_path_CPI79_4:
	.byte	46
	.byte	46
	.byte	46
	.byte	46
	.byte	46
	.byte	46
	.byte	46
	.byte	46
	.zero	1
	.zero	1
	.zero	1
	.zero	1
	.zero	1
	.zero	1
	.zero	1
	.zero	1
.Lunix_path_CPI79_5:
	.byte	47
	.byte	47
	.byte	47
	.byte	47
	.byte	47
	.byte	47
	.byte	47
	.byte	47
	.zero	1
	.zero	1
	.zero	1
	.zero	1
	.zero	1
	.zero	1
	.zero	1
	.zero	1
	.section	.text.path_within.outlined.is_names_only,"ax",@progbits
	.p2align	4
	.type	path_within.outlined.is_names_only,@function
# path_within::outlined::is_names_only
path_within.outlined.is_names_only:
	testq	%rsi, %rsi
	je	.Lunix_path_BB79_3
	xorl	%edx, %edx
	cmpb	$47, (%rdi)
	sete	%dl
	movq	%rsi, %rcx
	subq	%rdx, %rcx
	je	.Lunix_path_BB79_3
	leaq	(%rdi,%rdx), %r8
	movzbl	(%r8), %eax
	cmpl	$47, %eax
	je	.Lunix_path_BB79_3
	cmpl	$46, %eax
	jne	.Lunix_path_BB79_16
	cmpq	$2, %rcx
	jb	.Lunix_path_BB79_3
	movzbl	1(%r8), %eax
	cmpl	$47, %eax
	je	.Lunix_path_BB79_3
	cmpl	$46, %eax
	jne	.Lunix_path_BB79_16
	cmpq	$2, %rcx
	je	.Lunix_path_BB79_3
	cmpb	$47, 2(%r8)
	je	.Lunix_path_BB79_3
.Lunix_path_BB79_16:
	movzbl	-1(%rdi,%rsi), %eax
	andb	$-2, %al
	cmpb	$46, %al
	jne	.Lunix_path_BB79_18
.Lunix_path_BB79_3:
	xorl	%eax, %eax
	retq
.Lunix_path_BB79_18:
	cmpq	$17, %rcx
	jae	.Lunix_path_BB79_21
.Lunix_path_BB79_19:
	cmpq	$9, %rcx
	jae	.Lunix_path_BB79_29
	xorl	%eax, %eax
	jmp	.Lunix_path_BB79_46
.Lunix_path_BB79_21:
	cmpq	$32, %rcx
	ja	.Lunix_path_BB79_31
	movdqu	(%r8), %xmm0
	movdqu	1(%r8), %xmm1
	pand	.Lunix_path_CPI79_0(%rip), %xmm1
	por	%xmm0, %xmm1
	pcmpeqb	.Lunix_path_CPI79_1(%rip), %xmm1
	pmovmskb	%xmm1, %eax
	testl	%eax, %eax
	jne	.Lunix_path_BB79_24
	movdqu	-17(%rdi,%rsi), %xmm0
	movdqu	-16(%rdi,%rsi), %xmm1
	pand	.Lunix_path_CPI79_0(%rip), %xmm1
	por	%xmm0, %xmm1
	pcmpeqb	.Lunix_path_CPI79_1(%rip), %xmm1
	pmovmskb	%xmm1, %eax
	testl	%eax, %eax
	je	.Lunix_path_BB79_61
.Lunix_path_BB79_24:
	cmpq	$18, %rcx
	jbe	.Lunix_path_BB79_19
	movq	%rcx, %rsi
	addq	$-19, %rsi
	jne	.Lunix_path_BB79_33
	xorl	%esi, %esi
	xorl	%eax, %eax
.Lunix_path_BB79_27:
	leaq	-17(%rcx), %r9
	cmpq	%rax, %r9
	cmovbq	%r9, %rax
	movdqu	(%r8,%rax), %xmm0
	movdqu	1(%r8,%rax), %xmm1
	pand	.Lunix_path_CPI79_0(%rip), %xmm1
	por	%xmm0, %xmm1
	pcmpeqb	.Lunix_path_CPI79_1(%rip), %xmm1
	pmovmskb	%xmm1, %r9d
	testl	%r9d, %r9d
	je	.Lunix_path_BB79_45
	movdqu	(%r8,%rsi), %xmm0
	movdqu	1(%r8,%rsi), %xmm1
	movdqu	2(%r8,%rsi), %xmm2
	movdqu	3(%r8,%rsi), %xmm3
	movdqa	.Lunix_path_CPI79_2(%rip), %xmm4
	movdqa	%xmm2, %xmm5
	pcmpeqb	%xmm4, %xmm5
	movdqa	.Lunix_path_CPI79_1(%rip), %xmm6
	pcmpeqb	%xmm6, %xmm3
	pand	%xmm5, %xmm3
	pcmpeqb	%xmm1, %xmm4
	pcmpeqb	%xmm6, %xmm2
	por	%xmm3, %xmm2
	pand	%xmm4, %xmm2
	pcmpeqb	%xmm6, %xmm0
	pcmpeqb	%xmm6, %xmm1
	por	%xmm2, %xmm1
	pand	%xmm0, %xmm1
	pmovmskb	%xmm1, %eax
	orl	$65536, %eax
	rep		bsfl	%eax, %eax
	jmp	.Lunix_path_BB79_40
.Lunix_path_BB79_29:
	movq	1(%r8), %xmm0
	pand	.Lunix_path_CPI79_3(%rip), %xmm0
	pcmpeqb	.Lunix_path_CPI79_4(%rip), %xmm0
	movq	(%r8), %xmm1
	pcmpeqb	.Lunix_path_CPI79_5(%rip), %xmm1
	pand	%xmm0, %xmm1
	pmovmskb	%xmm1, %eax
	orl	$256, %eax
	rep		bsfl	%eax, %eax
	cmpb	$8, %al
	jb	.Lunix_path_BB79_46
	cmpq	$17, %rcx
	movl	$17, %eax
	cmovbq	%rcx, %rax
	movq	-8(%r8,%rax), %xmm0
	pand	.Lunix_path_CPI79_3(%rip), %xmm0
	pcmpeqb	.Lunix_path_CPI79_4(%rip), %xmm0
	movq	-9(%r8,%rax), %xmm1
	pcmpeqb	.Lunix_path_CPI79_5(%rip), %xmm1
	pand	%xmm0, %xmm1
	pmovmskb	%xmm1, %esi
	orl	$256, %esi
	rep		bsfl	%esi, %esi
	addq	%rsi, %rax
	addq	$-9, %rax
	jmp	.Lunix_path_BB79_46
.Lunix_path_BB79_31:
	movdqu	-33(%r8,%rcx), %xmm1
	movdqu	-32(%r8,%rcx), %xmm2
	movdqa	.Lunix_path_CPI79_0(%rip), %xmm0
	pand	%xmm0, %xmm2
	por	%xmm1, %xmm2
	movdqa	.Lunix_path_CPI79_1(%rip), %xmm1
	pcmpeqb	%xmm1, %xmm2
	movdqu	-17(%rdi,%rsi), %xmm3
	movdqu	-16(%rdi,%rsi), %xmm4
	pand	%xmm0, %xmm4
	por	%xmm3, %xmm4
	pcmpeqb	%xmm1, %xmm4
	por	%xmm2, %xmm4
	pmovmskb	%xmm4, %eax
	testl	%eax, %eax
	je	.Lunix_path_BB79_41
	leaq	-19(%rcx), %rsi
.Lunix_path_BB79_33:
	xorl	%eax, %eax
	jmp	.Lunix_path_BB79_37
	.p2align	4
.Lunix_path_BB79_34:
	movdqu	2(%r8,%rax), %xmm2
	movdqu	3(%r8,%rax), %xmm3
	movdqa	.Lunix_path_CPI79_2(%rip), %xmm4
	movdqa	%xmm2, %xmm5
	pcmpeqb	%xmm4, %xmm5
	movdqa	.Lunix_path_CPI79_1(%rip), %xmm6
	pcmpeqb	%xmm6, %xmm3
	pand	%xmm5, %xmm3
	pcmpeqb	%xmm1, %xmm4
	pcmpeqb	%xmm6, %xmm2
	por	%xmm3, %xmm2
	pand	%xmm4, %xmm2
	pcmpeqb	%xmm6, %xmm0
	pcmpeqb	%xmm6, %xmm1
	por	%xmm2, %xmm1
	pand	%xmm0, %xmm1
	pmovmskb	%xmm1, %r9d
	orl	$65536, %r9d
	rep		bsfl	%r9d, %r9d
	cmpw	$15, %r9w
	jbe	.Lunix_path_BB79_39
	addq	$16, %rax
.Lunix_path_BB79_36:
	cmpq	%rsi, %rax
	jae	.Lunix_path_BB79_27
.Lunix_path_BB79_37:
	movdqu	(%r8,%rax), %xmm0
	movdqu	1(%r8,%rax), %xmm1
	movdqa	.Lunix_path_CPI79_0(%rip), %xmm2
	pand	%xmm1, %xmm2
	por	%xmm0, %xmm2
	pcmpeqb	.Lunix_path_CPI79_1(%rip), %xmm2
	pmovmskb	%xmm2, %r9d
	testl	%r9d, %r9d
	jne	.Lunix_path_BB79_34
	addq	$16, %rax
	cmpq	%rsi, %rax
	jb	.Lunix_path_BB79_37
	jmp	.Lunix_path_BB79_36
.Lunix_path_BB79_39:
	movzwl	%r9w, %esi
.Lunix_path_BB79_40:
	addq	%rsi, %rax
	jmp	.Lunix_path_BB79_46
.Lunix_path_BB79_41:
	movq	%rcx, %rsi
	movb	$1, %al
	addq	$-33, %rsi
	je	.Lunix_path_BB79_60
	leaq	(%rdx,%rdi), %r9
	addq	$17, %r9
	xorl	%r10d, %r10d
.Lunix_path_BB79_43:
	movdqu	-17(%r9,%r10), %xmm2
	movdqu	-16(%r9,%r10), %xmm3
	movdqu	-1(%r9,%r10), %xmm4
	movdqu	(%r9,%r10), %xmm5
	pand	%xmm0, %xmm3
	por	%xmm2, %xmm3
	pcmpeqb	%xmm1, %xmm3
	pand	%xmm0, %xmm5
	por	%xmm4, %xmm5
	pcmpeqb	%xmm1, %xmm5
	por	%xmm3, %xmm5
	pmovmskb	%xmm5, %r11d
	testl	%r11d, %r11d
	jne	.Lunix_path_BB79_24
	addq	$32, %r10
	cmpq	%rsi, %r10
	jb	.Lunix_path_BB79_43
	jmp	.Lunix_path_BB79_60
.Lunix_path_BB79_45:
	addq	$16, %rax
.Lunix_path_BB79_46:
	cmpq	%rcx, %rax
	jae	.Lunix_path_BB79_57
	leaq	(%rdx,%rdi), %rsi
	addq	$3, %rsi
	jmp	.Lunix_path_BB79_50
.Lunix_path_BB79_48:
	cmpl	$47, %edi
	je	.Lunix_path_BB79_59
.Lunix_path_BB79_49:
	cmpq	%rcx, %rax
	jae	.Lunix_path_BB79_58
.Lunix_path_BB79_50:
	movq	%rax, %rdx
	incq	%rax
	cmpb	$47, -3(%rsi,%rdx)
	jne	.Lunix_path_BB79_49
	cmpq	%rax, %rcx
	jbe	.Lunix_path_BB79_59
	movzbl	-2(%rsi,%rdx), %edi
	cmpl	$46, %edi
	jne	.Lunix_path_BB79_48
	leaq	2(%rdx), %rdi
	cmpq	%rdi, %rcx
	jbe	.Lunix_path_BB79_59
	movzbl	-1(%rsi,%rdx), %edi
	cmpl	$46, %edi
	jne	.Lunix_path_BB79_48
	leaq	3(%rdx), %rdi
	cmpq	%rdi, %rcx
	jbe	.Lunix_path_BB79_59
	cmpb	$47, (%rsi,%rdx)
	jne	.Lunix_path_BB79_49
	jmp	.Lunix_path_BB79_59
.Lunix_path_BB79_57:
	movq	%rax, %rdx
	jmp	.Lunix_path_BB79_59
.Lunix_path_BB79_58:
	movq	%rcx, %rdx
.Lunix_path_BB79_59:
	cmpq	%rcx, %rdx
	sete	%al
.Lunix_path_BB79_60:
	retq
.Lunix_path_BB79_61:
	movb	$1, %al
	retq
.Lunix_path_func_end79:
	.size	path_within.outlined.is_names_only, .Lunix_path_func_end79-path_within.outlined.is_names_only
	.section	.rodata.cst16,"aM",@progbits,16
	.p2align	4, 0x0
.Lunix_path_CPI80_0:
	.zero	16,208
.Lunix_path_CPI80_1:
	.zero	16,47
.Lunix_path_CPI80_2:
	.byte	47
	.byte	47
	.byte	47
	.byte	47
	.byte	47
	.byte	47
	.byte	47
	.byte	47
	.zero	1
	.zero	1
	.zero	1
	.zero	1
	.zero	1
	.zero	1
	.zero	1
	.zero	1
	.section	.text.upath_commands.keys.unkeyed_path,"ax",@progbits
	.p2align	4
	.type	upath_commands.keys.unkeyed_path,@function
# upath_commands::keys::unkeyed_path
upath_commands.keys.unkeyed_path:
	pushq	%rbp
	pushq	%r15
	pushq	%r14
	pushq	%r13
	pushq	%r12
	pushq	%rbx
	subq	$56, %rsp
	movq	%rdi, %rbx
	leaq	15(%rsp), %rcx
	movq	%rcx, 16(%rsp)
	pxor	%xmm0, %xmm0
	movdqu	%xmm0, 24(%rsp)
	cmpq	$2, %rdx
	jae	.Lunix_path_BB80_1
	testq	%rdx, %rdx
	jne	.Lunix_path_BB80_23
	movq	16(%rsp), %rdi
	movq	32(%rsp), %rbp
	movb	$1, %r15b
	xorl	%r13d, %r13d
	xorl	%eax, %eax
.Lunix_path_BB80_38:
	movq	%rdi, %rcx
	xorl	%r14d, %r14d
	jmp	.Lunix_path_BB80_44
.Lunix_path_BB80_1:
	xorl	%r13d, %r13d
	.p2align	4
.Lunix_path_BB80_2:
	movzbl	(%rsi), %edi
	xorl	%ebp, %ebp
	movl	$0, %eax
	cmpb	$48, %dil
	jb	.Lunix_path_BB80_10
	cmpb	$57, %dil
	ja	.Lunix_path_BB80_6
	addb	$-48, %dil
.Lunix_path_BB80_5:
	movb	$1, %al
	movl	%edi, %ebp
	jmp	.Lunix_path_BB80_10
	.p2align	4
.Lunix_path_BB80_6:
	xorl	%ebp, %ebp
	cmpb	$65, %dil
	jb	.Lunix_path_BB80_10
	cmpb	$70, %dil
	ja	.Lunix_path_BB80_9
	addb	$-55, %dil
	jmp	.Lunix_path_BB80_5
.Lunix_path_BB80_9:
	leal	-97(%rdi), %eax
	addb	$-87, %dil
	xorl	%r8d, %r8d
	cmpb	$6, %al
	setb	%al
	movzbl	%dil, %ebp
	cmovael	%r8d, %ebp
	.p2align	4
.Lunix_path_BB80_10:
	movzbl	1(%rsi), %r14d
	cmpb	$48, %r14b
	jb	.Lunix_path_BB80_23
	cmpb	$57, %r14b
	ja	.Lunix_path_BB80_13
	addb	$-48, %r14b
	movb	$1, %dil
	andb	%dil, %al
	cmpb	$1, %al
	je	.Lunix_path_BB80_18
	jmp	.Lunix_path_BB80_23
	.p2align	4
.Lunix_path_BB80_13:
	cmpb	$65, %r14b
	jb	.Lunix_path_BB80_23
	cmpb	$70, %r14b
	ja	.Lunix_path_BB80_16
	addb	$-55, %r14b
	movb	$1, %dil
	andb	%dil, %al
	cmpb	$1, %al
	je	.Lunix_path_BB80_18
	jmp	.Lunix_path_BB80_23
	.p2align	4
.Lunix_path_BB80_16:
	leal	-97(%r14), %edi
	addb	$-87, %r14b
	xorl	%r8d, %r8d
	cmpb	$6, %dil
	setb	%dil
	movzbl	%r14b, %r14d
	cmovael	%r8d, %r14d
	andb	%dil, %al
	cmpb	$1, %al
	jne	.Lunix_path_BB80_23
.Lunix_path_BB80_18:
	movq	%r13, %rax
	cmpq	%r13, 32(%rsp)
	je	.Lunix_path_BB80_19
.Lunix_path_BB80_21:
	addq	$-2, %rdx
	shlb	$4, %bpl
	addb	%bpl, %r14b
	movb	%r14b, (%rcx,%rax)
	leaq	1(%rax), %r13
	movq	%r13, 24(%rsp)
	addq	$2, %rsi
	cmpq	$2, %rdx
	jae	.Lunix_path_BB80_2
	jmp	.Lunix_path_BB80_22
.Lunix_path_BB80_19:
	movq	%rsi, %r15
	movq	%rdx, %r12
	leaq	16(%rsp), %rdi
	movl	$1, %esi
	callq	std_alloc.vec.Vec.grow_amortized.f4a78633ca2a48c6.
	testb	%al, %al
	je	.Lunix_path_BB80_27
	movq	16(%rsp), %rcx
	movq	24(%rsp), %rax
	movq	%r12, %rdx
	movq	%r15, %rsi
	jmp	.Lunix_path_BB80_21
.Lunix_path_BB80_22:
	testq	%rdx, %rdx
	je	.Lunix_path_BB80_34
.Lunix_path_BB80_23:
	cmpq	$0, 32(%rsp)
	je	.Lunix_path_BB80_26
	movq	16(%rsp), %rdi
	jmp	.Lunix_path_BB80_25
.Lunix_path_BB80_34:
	movq	16(%rsp), %rdi
	movq	32(%rsp), %rbp
	cmpq	$2, %r13
	jae	.Lunix_path_BB80_36
	movb	$1, %r15b
	xorl	%r14d, %r14d
	movq	%r13, %rax
	movq	%rdi, %rcx
	jmp	.Lunix_path_BB80_44
.Lunix_path_BB80_36:
	cmpb	$0, (%rdi)
	je	.Lunix_path_BB80_39
.Lunix_path_BB80_37:
	xorl	%r15d, %r15d
	movq	%r13, %rax
	jmp	.Lunix_path_BB80_38
.Lunix_path_BB80_39:
	movzbl	1(%rdi), %ecx
	cmpl	$2, %ecx
	je	.Lunix_path_BB80_42
	cmpl	$1, %ecx
	jne	.Lunix_path_BB80_37
	leaq	2(%rdi), %rcx
	decq	%rax
	movl	$1, %r14d
	jmp	.Lunix_path_BB80_43
.Lunix_path_BB80_27:
	cmpq	$0, 32(%rsp)
	je	.Lunix_path_BB80_30
	movq	16(%rsp), %rdi
	jmp	.Lunix_path_BB80_29
.Lunix_path_BB80_42:
	leaq	2(%rdi), %rcx
	decq	%rax
	movl	$2, %r14d
.Lunix_path_BB80_43:
	xorl	%r15d, %r15d
	jmp	.Lunix_path_BB80_44
	.p2align	4
.Lunix_path_BB80_48:
	movl	$2, %edx
	movl	$3, %esi
.Lunix_path_BB80_82:
	addq	%rsi, %r14
	addq	%rdx, %rcx
	subq	%rdx, %rax
.Lunix_path_BB80_44:
	cmpq	$1, %rax
	je	.Lunix_path_BB80_49
	testq	%rax, %rax
	je	.Lunix_path_BB80_88
	movzbl	(%rcx), %edx
	testb	%dl, %dl
	jne	.Lunix_path_BB80_50
	cmpb	$3, 1(%rcx)
	je	.Lunix_path_BB80_48
	.p2align	4
.Lunix_path_BB80_50:
	cmpb	$47, %dl
	je	.Lunix_path_BB80_52
.Lunix_path_BB80_51:
	movzbl	%dl, %edx
	jmp	.Lunix_path_BB80_54
	.p2align	4
.Lunix_path_BB80_49:
	movzbl	(%rcx), %edx
	cmpb	$47, %dl
	jne	.Lunix_path_BB80_51
.Lunix_path_BB80_52:
	cmpq	$1, %rax
	je	.Lunix_path_BB80_55
	movzbl	1(%rcx), %edx
	cmpl	$47, %edx
	je	.Lunix_path_BB80_56
.Lunix_path_BB80_54:
	testl	%edx, %edx
	jne	.Lunix_path_BB80_58
	jmp	.Lunix_path_BB80_55
.Lunix_path_BB80_56:
	cmpq	$3, %rax
	jb	.Lunix_path_BB80_55
	cmpb	$0, 2(%rcx)
	je	.Lunix_path_BB80_55
.Lunix_path_BB80_58:
	cmpq	$18, %rax
	ja	.Lunix_path_BB80_63
	cmpq	$9, %rax
	jae	.Lunix_path_BB80_61
	xorl	%edx, %edx
	cmpq	%rax, %rdx
	jb	.Lunix_path_BB80_76
	jmp	.Lunix_path_BB80_75
	.p2align	4
.Lunix_path_BB80_63:
	movq	%rax, %rsi
	xorl	%edx, %edx
	addq	$-19, %rsi
	jne	.Lunix_path_BB80_64
.Lunix_path_BB80_70:
	leaq	-17(%rax), %r8
	cmpq	%rdx, %r8
	cmovbq	%r8, %rdx
	movdqu	(%rcx,%rdx), %xmm0
	movdqu	1(%rcx,%rdx), %xmm1
	pand	.Lunix_path_CPI80_0(%rip), %xmm1
	por	%xmm0, %xmm1
	pxor	%xmm0, %xmm0
	pcmpeqb	%xmm0, %xmm1
	pmovmskb	%xmm1, %r8d
	testl	%r8d, %r8d
	je	.Lunix_path_BB80_71
	movdqu	(%rcx,%rsi), %xmm1
	movdqu	1(%rcx,%rsi), %xmm2
	movdqu	2(%rcx,%rsi), %xmm3
	movdqu	3(%rcx,%rsi), %xmm4
	movdqa	.Lunix_path_CPI80_1(%rip), %xmm5
	movdqa	%xmm3, %xmm6
	pcmpeqb	%xmm5, %xmm6
	pcmpeqb	%xmm0, %xmm4
	pand	%xmm6, %xmm4
	pcmpeqb	%xmm2, %xmm5
	pcmpeqb	%xmm0, %xmm3
	por	%xmm4, %xmm3
	pand	%xmm5, %xmm3
	pcmpeqb	%xmm0, %xmm1
	pcmpeqb	%xmm0, %xmm2
	por	%xmm3, %xmm2
	pand	%xmm1, %xmm2
	pmovmskb	%xmm2, %edx
	orl	$65536, %edx
	rep		bsfl	%edx, %edx
	jmp	.Lunix_path_BB80_73
	.p2align	4
.Lunix_path_BB80_69:
	cmpq	%rsi, %rdx
	jae	.Lunix_path_BB80_70
.Lunix_path_BB80_64:
	movdqu	(%rcx,%rdx), %xmm0
	movdqu	1(%rcx,%rdx), %xmm1
	movdqa	.Lunix_path_CPI80_0(%rip), %xmm3
	pand	%xmm1, %xmm3
	por	%xmm0, %xmm3
	pxor	%xmm2, %xmm2
	pcmpeqb	%xmm2, %xmm3
	pmovmskb	%xmm3, %r8d
	testl	%r8d, %r8d
	je	.Lunix_path_BB80_65
	movdqu	2(%rcx,%rdx), %xmm3
	movdqu	3(%rcx,%rdx), %xmm4
	movdqa	.Lunix_path_CPI80_1(%rip), %xmm5
	movdqa	%xmm3, %xmm6
	pcmpeqb	%xmm5, %xmm6
	pcmpeqb	%xmm2, %xmm4
	pand	%xmm6, %xmm4
	pcmpeqb	%xmm1, %xmm5
	pcmpeqb	%xmm2, %xmm3
	por	%xmm4, %xmm3
	pand	%xmm5, %xmm3
	pcmpeqb	%xmm2, %xmm0
	pcmpeqb	%xmm2, %xmm1
	por	%xmm3, %xmm1
	pand	%xmm0, %xmm1
	pmovmskb	%xmm1, %r8d
	orl	$65536, %r8d
	rep		bsfl	%r8d, %r8d
	cmpw	$15, %r8w
	jbe	.Lunix_path_BB80_67
	addq	$16, %rdx
	jmp	.Lunix_path_BB80_69
	.p2align	4
.Lunix_path_BB80_65:
	addq	$16, %rdx
	cmpq	%rsi, %rdx
	jb	.Lunix_path_BB80_64
	jmp	.Lunix_path_BB80_69
.Lunix_path_BB80_61:
	movq	(%rcx), %xmm1
	movq	1(%rcx), %xmm2
	pxor	%xmm0, %xmm0
	movdqa	%xmm2, %xmm3
	pcmpeqb	.Lunix_path_CPI80_2(%rip), %xmm2
	pcmpeqb	%xmm0, %xmm3
	por	%xmm3, %xmm2
	pcmpeqb	%xmm0, %xmm1
	pand	%xmm2, %xmm1
	pmovmskb	%xmm1, %edx
	orl	$256, %edx
	rep		bsfl	%edx, %edx
	cmpb	$8, %dl
	jb	.Lunix_path_BB80_74
	cmpq	$17, %rax
	movl	$17, %edx
	cmovbq	%rax, %rdx
	movq	-9(%rcx,%rdx), %xmm1
	movq	-8(%rcx,%rdx), %xmm2
	movdqa	%xmm2, %xmm3
	pcmpeqb	.Lunix_path_CPI80_2(%rip), %xmm2
	pcmpeqb	%xmm0, %xmm3
	por	%xmm3, %xmm2
	pcmpeqb	%xmm0, %xmm1
	pand	%xmm2, %xmm1
	pmovmskb	%xmm1, %esi
	orl	$256, %esi
	rep		bsfl	%esi, %esi
	addq	%rsi, %rdx
	addq	$-9, %rdx
	cmpq	%rax, %rdx
	jb	.Lunix_path_BB80_76
	jmp	.Lunix_path_BB80_75
.Lunix_path_BB80_67:
	movzwl	%r8w, %esi
.Lunix_path_BB80_73:
	addq	%rsi, %rdx
.Lunix_path_BB80_74:
	cmpq	%rax, %rdx
	jb	.Lunix_path_BB80_76
.Lunix_path_BB80_75:
	movq	%rdx, %rsi
.Lunix_path_BB80_80:
	cmpq	%rax, %rsi
	je	.Lunix_path_BB80_55
	incq	%rsi
	movq	%rsi, %rdx
	jmp	.Lunix_path_BB80_82
.Lunix_path_BB80_71:
	addq	$16, %rdx
	cmpq	%rax, %rdx
	jb	.Lunix_path_BB80_76
	jmp	.Lunix_path_BB80_75
	.p2align	4
.Lunix_path_BB80_79:
	testl	%r8d, %r8d
	je	.Lunix_path_BB80_80
.Lunix_path_BB80_87:
	cmpq	%rdx, %rax
	je	.Lunix_path_BB80_55
.Lunix_path_BB80_76:
	movq	%rdx, %rsi
	incq	%rdx
	cmpb	$0, (%rcx,%rsi)
	jne	.Lunix_path_BB80_87
	cmpq	%rdx, %rax
	jbe	.Lunix_path_BB80_80
	movzbl	1(%rcx,%rsi), %r8d
	cmpl	$47, %r8d
	jne	.Lunix_path_BB80_79
	leaq	2(%rsi), %r8
	cmpq	%r8, %rax
	jbe	.Lunix_path_BB80_80
	movzbl	2(%rcx,%rsi), %r8d
	cmpl	$47, %r8d
	jne	.Lunix_path_BB80_79
	leaq	3(%rsi), %r8
	cmpq	%r8, %rax
	jbe	.Lunix_path_BB80_80
	cmpb	$0, 3(%rcx,%rsi)
	jne	.Lunix_path_BB80_87
	jmp	.Lunix_path_BB80_80
.Lunix_path_BB80_55:
	testq	%rbp, %rbp
	je	.Lunix_path_BB80_26
.Lunix_path_BB80_25:
	callq	rattle_dealloc@PLT
.Lunix_path_BB80_26:
	movb	$0, (%rbx)
.Lunix_path_BB80_31:
	pxor	%xmm0, %xmm0
	movdqu	%xmm0, 8(%rbx)
	movdqu	%xmm0, 24(%rbx)
.Lunix_path_BB80_127:
	addq	$56, %rsp
	popq	%rbx
	popq	%r12
	popq	%r13
	popq	%r14
	popq	%r15
	popq	%rbp
	retq
.Lunix_path_BB80_88:
	xorl	%eax, %eax
	cmpq	$2, %r14
	setae	%al
	subq	%rax, %r14
	je	.Lunix_path_BB80_89
	movq	%rdi, 40(%rsp)
	js	.Lunix_path_BB80_173
	movl	$1, %esi
	movq	%r14, %rdi
	callq	rattle_alloc@PLT
	testb	$1, %al
	je	.Lunix_path_BB80_173
	movq	%rdx, %r12
	movq	%rdx, %rdi
	xorl	%esi, %esi
	movq	%r14, %rdx
	callq	memset@PLT
	movq	40(%rsp), %rdi
	jmp	.Lunix_path_BB80_93
.Lunix_path_BB80_173:
	testq	%rbp, %rbp
	je	.Lunix_path_BB80_30
	movq	40(%rsp), %rdi
.Lunix_path_BB80_29:
	callq	rattle_dealloc@PLT
.Lunix_path_BB80_30:
	movb	$1, (%rbx)
	jmp	.Lunix_path_BB80_31
.Lunix_path_BB80_89:
	leaq	15(%rsp), %r12
.Lunix_path_BB80_93:
	testb	%r15b, %r15b
	jne	.Lunix_path_BB80_94
	cmpb	$0, (%rdi)
	je	.Lunix_path_BB80_96
.Lunix_path_BB80_94:
	xorl	%ecx, %ecx
	movq	%rdi, %rax
.Lunix_path_BB80_104:
	leaq	1(%r14), %rdx
	leaq	16(%r12), %rsi
	movq	%rsi, 40(%rsp)
	leaq	1(%r12), %rsi
	movq	%rsi, 48(%rsp)
	jmp	.Lunix_path_BB80_105
.Lunix_path_BB80_171:
	incq	%r9
	movq	%r9, %r8
.Lunix_path_BB80_172:
	addq	%r9, %rcx
	addq	%r8, %rax
	subq	%r8, %r13
.Lunix_path_BB80_105:
	movq	%rdx, %r8
	subq	%rcx, %r8
	je	.Lunix_path_BB80_112
	cmpq	%r8, %r13
	jne	.Lunix_path_BB80_112
	leaq	-1(%r13), %r9
	jmp	.Lunix_path_BB80_108
.Lunix_path_BB80_112:
	cmpq	$2, %r13
	jae	.Lunix_path_BB80_113
	testq	%r13, %r13
	je	.Lunix_path_BB80_124
	movzbl	(%rax), %r8d
	jmp	.Lunix_path_BB80_119
.Lunix_path_BB80_113:
	movzbl	(%rax), %r8d
	testb	%r8b, %r8b
	jne	.Lunix_path_BB80_119
	cmpb	$3, 1(%rax)
	jne	.Lunix_path_BB80_119
	leaq	2(%rcx), %r10
	movw	$11822, (%r12,%rcx)
	movl	$2, %r8d
	movl	$3, %r9d
	cmpq	%r14, %r10
	jae	.Lunix_path_BB80_172
	movb	$47, (%r12,%r10)
	jmp	.Lunix_path_BB80_172
.Lunix_path_BB80_119:
	cmpb	$47, %r8b
	je	.Lunix_path_BB80_121
	movzbl	%r8b, %r8d
	jmp	.Lunix_path_BB80_123
.Lunix_path_BB80_121:
	cmpq	$2, %r13
	jb	.Lunix_path_BB80_124
	movzbl	1(%rax), %r8d
	cmpl	$47, %r8d
	je	.Lunix_path_BB80_128
.Lunix_path_BB80_123:
	testl	%r8d, %r8d
	jne	.Lunix_path_BB80_130
	jmp	.Lunix_path_BB80_124
.Lunix_path_BB80_128:
	cmpq	$2, %r13
	je	.Lunix_path_BB80_124
	cmpb	$0, 2(%rax)
	je	.Lunix_path_BB80_124
.Lunix_path_BB80_130:
	cmpq	$18, %r13
	ja	.Lunix_path_BB80_135
	cmpq	$9, %r13
	jae	.Lunix_path_BB80_133
	xorl	%r10d, %r10d
	jmp	.Lunix_path_BB80_145
.Lunix_path_BB80_135:
	movq	%r13, %r9
	xorl	%r10d, %r10d
	addq	$-19, %r9
	jne	.Lunix_path_BB80_136
.Lunix_path_BB80_142:
	leaq	-17(%r13), %r8
	cmpq	%r10, %r8
	cmovbq	%r8, %r10
	movdqu	(%rax,%r10), %xmm0
	movdqu	1(%rax,%r10), %xmm1
	pand	.Lunix_path_CPI80_0(%rip), %xmm1
	por	%xmm0, %xmm1
	pxor	%xmm0, %xmm0
	pcmpeqb	%xmm0, %xmm1
	pmovmskb	%xmm1, %r8d
	testl	%r8d, %r8d
	je	.Lunix_path_BB80_143
	movdqu	(%rax,%r9), %xmm1
	movdqu	1(%rax,%r9), %xmm2
	movdqu	2(%rax,%r9), %xmm3
	movdqu	3(%rax,%r9), %xmm4
	movdqa	.Lunix_path_CPI80_1(%rip), %xmm5
	movdqa	%xmm3, %xmm6
	pcmpeqb	%xmm5, %xmm6
	pcmpeqb	%xmm0, %xmm4
	pand	%xmm6, %xmm4
	pcmpeqb	%xmm2, %xmm5
	pcmpeqb	%xmm0, %xmm3
	por	%xmm4, %xmm3
	pand	%xmm5, %xmm3
	pcmpeqb	%xmm0, %xmm1
	pcmpeqb	%xmm0, %xmm2
	por	%xmm3, %xmm2
	pand	%xmm1, %xmm2
	pmovmskb	%xmm2, %r8d
	orl	$65536, %r8d
	rep		bsfl	%r8d, %r10d
	addq	%r9, %r10
	jmp	.Lunix_path_BB80_145
.Lunix_path_BB80_138:
	movdqu	2(%rax,%r10), %xmm3
	movdqu	3(%rax,%r10), %xmm4
	movdqa	.Lunix_path_CPI80_1(%rip), %xmm5
	movdqa	%xmm3, %xmm6
	pcmpeqb	%xmm5, %xmm6
	pcmpeqb	%xmm2, %xmm4
	pand	%xmm6, %xmm4
	pcmpeqb	%xmm1, %xmm5
	pcmpeqb	%xmm2, %xmm3
	por	%xmm4, %xmm3
	pand	%xmm5, %xmm3
	pcmpeqb	%xmm2, %xmm0
	pcmpeqb	%xmm2, %xmm1
	por	%xmm3, %xmm1
	pand	%xmm0, %xmm1
	pmovmskb	%xmm1, %r8d
	orl	$65536, %r8d
	rep		bsfl	%r8d, %r8d
	cmpw	$15, %r8w
	jbe	.Lunix_path_BB80_139
	addq	$16, %r10
.Lunix_path_BB80_141:
	cmpq	%r9, %r10
	jae	.Lunix_path_BB80_142
.Lunix_path_BB80_136:
	movdqu	(%rax,%r10), %xmm0
	movdqu	1(%rax,%r10), %xmm1
	movdqa	.Lunix_path_CPI80_0(%rip), %xmm3
	pand	%xmm1, %xmm3
	por	%xmm0, %xmm3
	pxor	%xmm2, %xmm2
	pcmpeqb	%xmm2, %xmm3
	pmovmskb	%xmm3, %r8d
	testl	%r8d, %r8d
	jne	.Lunix_path_BB80_138
	addq	$16, %r10
	cmpq	%r9, %r10
	jb	.Lunix_path_BB80_136
	jmp	.Lunix_path_BB80_141
.Lunix_path_BB80_133:
	movq	(%rax), %xmm1
	movq	1(%rax), %xmm2
	pxor	%xmm0, %xmm0
	movdqa	%xmm2, %xmm3
	pcmpeqb	.Lunix_path_CPI80_2(%rip), %xmm2
	pcmpeqb	%xmm0, %xmm3
	por	%xmm3, %xmm2
	pcmpeqb	%xmm0, %xmm1
	pand	%xmm2, %xmm1
	pmovmskb	%xmm1, %r8d
	orl	$256, %r8d
	rep		bsfl	%r8d, %r10d
	cmpb	$8, %r10b
	jb	.Lunix_path_BB80_145
	cmpq	$17, %r13
	movl	$17, %r8d
	cmovbq	%r13, %r8
	movq	-9(%rax,%r8), %xmm1
	movq	-8(%rax,%r8), %xmm2
	movdqa	%xmm2, %xmm3
	pcmpeqb	.Lunix_path_CPI80_2(%rip), %xmm2
	pcmpeqb	%xmm0, %xmm3
	por	%xmm3, %xmm2
	pcmpeqb	%xmm0, %xmm1
	pand	%xmm2, %xmm1
	pmovmskb	%xmm1, %r9d
	orl	$256, %r9d
	rep		bsfl	%r9d, %r9d
	leaq	(%r8,%r9), %r10
	addq	$-9, %r10
	jmp	.Lunix_path_BB80_145
.Lunix_path_BB80_139:
	movzwl	%r8w, %r8d
	addq	%r8, %r10
	jmp	.Lunix_path_BB80_145
.Lunix_path_BB80_143:
	addq	$16, %r10
.Lunix_path_BB80_145:
	cmpq	%r13, %r10
	jb	.Lunix_path_BB80_147
	movq	%r10, %r9
.Lunix_path_BB80_151:
	cmpq	%r13, %r9
	je	.Lunix_path_BB80_124
.Lunix_path_BB80_108:
	cmpq	$15, %r9
	ja	.Lunix_path_BB80_161
	testq	%r9, %r9
	je	.Lunix_path_BB80_169
	cmpq	$1, %r9
	jne	.Lunix_path_BB80_157
	xorl	%r10d, %r10d
	jmp	.Lunix_path_BB80_160
.Lunix_path_BB80_150:
	testl	%r8d, %r8d
	je	.Lunix_path_BB80_151
.Lunix_path_BB80_156:
	cmpq	%r10, %r13
	je	.Lunix_path_BB80_124
.Lunix_path_BB80_147:
	movq	%r10, %r9
	incq	%r10
	cmpb	$0, (%rax,%r9)
	jne	.Lunix_path_BB80_156
	cmpq	%r10, %r13
	jbe	.Lunix_path_BB80_151
	movzbl	1(%rax,%r9), %r8d
	cmpl	$47, %r8d
	jne	.Lunix_path_BB80_150
	leaq	2(%r9), %r8
	cmpq	%r8, %r13
	jbe	.Lunix_path_BB80_151
	movzbl	2(%rax,%r9), %r8d
	cmpl	$47, %r8d
	jne	.Lunix_path_BB80_150
	leaq	3(%r9), %r8
	cmpq	%r8, %r13
	jbe	.Lunix_path_BB80_151
	cmpb	$0, 3(%rax,%r9)
	jne	.Lunix_path_BB80_156
	jmp	.Lunix_path_BB80_151
.Lunix_path_BB80_161:
	movq	%r9, %r10
	addq	$-16, %r10
	je	.Lunix_path_BB80_168
	leaq	-17(%r9), %r15
	shrq	$4, %r15
	je	.Lunix_path_BB80_163
	movq	%r12, %rsi
	incq	%r15
	movq	%r15, %r12
	andq	$-2, %r12
	movq	40(%rsp), %r8
	addq	%rcx, %r8
	xorl	%r11d, %r11d
	.p2align	4
.Lunix_path_BB80_165:
	movdqu	(%rax,%r11), %xmm0
	movdqa	.Lunix_path_CPI80_1(%rip), %xmm1
	movdqa	%xmm0, %xmm2
	pminub	%xmm1, %xmm2
	pcmpeqb	%xmm0, %xmm2
	paddb	%xmm0, %xmm2
	pxor	%xmm3, %xmm3
	pcmpeqb	%xmm3, %xmm0
	movdqa	%xmm0, %xmm4
	pandn	%xmm2, %xmm4
	pand	%xmm1, %xmm0
	por	%xmm4, %xmm0
	movdqu	%xmm0, -16(%r8,%r11)
	movdqu	16(%rax,%r11), %xmm0
	movdqa	%xmm0, %xmm2
	pminub	%xmm1, %xmm2
	pcmpeqb	%xmm0, %xmm2
	paddb	%xmm0, %xmm2
	pcmpeqb	%xmm3, %xmm0
	movdqa	%xmm0, %xmm3
	pandn	%xmm2, %xmm3
	pand	%xmm1, %xmm0
	por	%xmm3, %xmm0
	movdqu	%xmm0, (%r8,%r11)
	addq	$32, %r11
	addq	$-2, %r12
	jne	.Lunix_path_BB80_165
	testb	$1, %r15b
	movq	%rsi, %r12
	jne	.Lunix_path_BB80_167
	jmp	.Lunix_path_BB80_168
.Lunix_path_BB80_157:
	movq	%r12, %rdx
	movl	%r9d, %r8d
	andl	$14, %r8d
	movq	48(%rsp), %rsi
	leaq	(%rsi,%rcx), %r11
	xorl	%r10d, %r10d
	.p2align	4
.Lunix_path_BB80_158:
	movzbl	(%rax,%r10), %r15d
	cmpb	$48, %r15b
	movl	%r15d, %r12d
	sbbb	$0, %r12b
	testb	%r15b, %r15b
	movzbl	%r12b, %r15d
	movl	$47, %r12d
	cmovel	%r12d, %r15d
	movb	%r15b, -1(%r11,%r10)
	movzbl	1(%rax,%r10), %esi
	cmpb	$48, %sil
	movl	%esi, %r15d
	sbbb	$0, %r15b
	testb	%sil, %sil
	movzbl	%r15b, %esi
	cmovel	%r12d, %esi
	movb	%sil, (%r11,%r10)
	addq	$2, %r10
	cmpq	%r10, %r8
	jne	.Lunix_path_BB80_158
	testb	$1, %r9b
	movq	%rdx, %r12
	leaq	1(%r14), %rdx
	je	.Lunix_path_BB80_169
.Lunix_path_BB80_160:
	leaq	(%r12,%rcx), %rsi
	movzbl	(%rax,%r10), %r8d
	cmpb	$48, %r8b
	movl	%r8d, %r11d
	sbbb	$0, %r11b
	testb	%r8b, %r8b
	movzbl	%r11b, %r8d
	movl	$47, %r11d
	cmovnel	%r8d, %r11d
	movb	%r11b, (%rsi,%r10)
	jmp	.Lunix_path_BB80_169
.Lunix_path_BB80_163:
	xorl	%r11d, %r11d
.Lunix_path_BB80_167:
	leaq	(%r12,%rcx), %rsi
	movdqu	(%rax,%r11), %xmm0
	movdqa	.Lunix_path_CPI80_1(%rip), %xmm1
	movdqa	%xmm0, %xmm2
	pminub	%xmm1, %xmm2
	pcmpeqb	%xmm0, %xmm2
	paddb	%xmm0, %xmm2
	pxor	%xmm3, %xmm3
	pcmpeqb	%xmm0, %xmm3
	movdqa	%xmm3, %xmm0
	pandn	%xmm2, %xmm0
	pand	%xmm1, %xmm3
	por	%xmm0, %xmm3
	movdqu	%xmm3, (%rsi,%r11)
.Lunix_path_BB80_168:
	movdqu	(%rax,%r10), %xmm0
	movdqa	.Lunix_path_CPI80_1(%rip), %xmm1
	movdqa	%xmm0, %xmm2
	pminub	%xmm1, %xmm2
	pcmpeqb	%xmm0, %xmm2
	paddb	%xmm0, %xmm2
	pxor	%xmm3, %xmm3
	pcmpeqb	%xmm0, %xmm3
	movdqa	%xmm3, %xmm0
	pandn	%xmm2, %xmm0
	pand	%xmm1, %xmm3
	por	%xmm0, %xmm3
	leaq	(%r12,%rcx), %rsi
	movdqu	%xmm3, (%r10,%rsi)
.Lunix_path_BB80_169:
	leaq	(%r9,%rcx), %r8
	cmpq	%r14, %r8
	jae	.Lunix_path_BB80_171
	movb	$47, (%r12,%r8)
	jmp	.Lunix_path_BB80_171
.Lunix_path_BB80_124:
	testq	%rbp, %rbp
	je	.Lunix_path_BB80_126
	callq	rattle_dealloc@PLT
.Lunix_path_BB80_126:
	movb	$0, (%rbx)
	movq	$1, 8(%rbx)
	movq	%r12, 16(%rbx)
	movq	%r14, 24(%rbx)
	movq	%r14, 32(%rbx)
	jmp	.Lunix_path_BB80_127
.Lunix_path_BB80_96:
	movzbl	1(%rdi), %eax
	cmpl	$2, %eax
	je	.Lunix_path_BB80_100
	cmpl	$1, %eax
	jne	.Lunix_path_BB80_94
	leaq	2(%rdi), %rax
	addq	$-2, %r13
	movl	$1, %ecx
	testq	%r14, %r14
	je	.Lunix_path_BB80_104
	movb	$47, (%r12)
	jmp	.Lunix_path_BB80_104
.Lunix_path_BB80_100:
	leaq	2(%rdi), %rax
	addq	$-2, %r13
	cmpq	$2, %r14
	jb	.Lunix_path_BB80_102
	leaq	.Lunix_path_static.86(%rip), %rcx
	movq	%r12, %rdx
	subq	%rcx, %rdx
	cmpq	$1, %rdx
	movw	$12078, (%r12)
	movl	$2, %ecx
	jmp	.Lunix_path_BB80_104
.Lunix_path_BB80_102:
	movl	$2, %ecx
	cmpq	$1, %r14
	jne	.Lunix_path_BB80_104
	movb	$46, (%r12)
	jmp	.Lunix_path_BB80_104
.Lunix_path_func_end80:
	.size	upath_commands.keys.unkeyed_path, .Lunix_path_func_end80-upath_commands.keys.unkeyed_path
	.section	.rodata.cst16,"aM",@progbits,16
	.p2align	4, 0x0
.Lunix_path_CPI81_0:
	.byte	0
	.byte	1
	.byte	2
	.byte	3
	.byte	4
	.byte	5
	.byte	6
	.byte	7
	.byte	8
	.byte	9
	.byte	10
	.byte	11
	.byte	12
	.byte	13
	.byte	14
	.byte	15
.Lunix_path_CPI81_1:
	.byte	16
	.byte	17
	.byte	18
	.byte	19
	.byte	20
	.byte	21
	.byte	22
	.byte	23
	.byte	24
	.byte	25
	.byte	26
	.byte	27
	.byte	28
	.byte	29
	.byte	30
	.byte	31
	.section	.text.upath_commands.output.Output.write_out.0c02296ad0e184a5.,"ax",@progbits
	.p2align	4
	.type	upath_commands.output.Output.write_out.0c02296ad0e184a5.,@function
# upath_commands::output::Output::write_out::<#0c02296ad0e184a5>
upath_commands.output.Output.write_out.0c02296ad0e184a5.:
	pushq	%rbp
	pushq	%r15
	pushq	%r14
	pushq	%r13
	pushq	%r12
	pushq	%rbx
	subq	$104, %rsp
	movq	24(%rdi), %r12
	testq	%r12, %r12
	je	.Lunix_path_BB81_1
	movq	16(%rdi), %rax
	xorl	%ebp, %ebp
	movq	%rdi, (%rsp)
	movq	%rax, 8(%rsp)
.Lunix_path_BB81_3:
	leaq	(%rax,%rbp), %r15
	movq	%r12, %r14
	subq	%rbp, %r14
	movb	$0, 10(%rdi)
	movq	$-1, %rbx
	.p2align	4
.Lunix_path_BB81_5:
	movl	$1, %edi
	movq	%r15, %rsi
	movq	%r14, %rdx
	callq	write@PLT
	movabsq	$2820983053732684064, %r13
	testq	%rax, %rax
	jns	.Lunix_path_BB81_9
	callq	rattle_errno@PLT
	leaq	16(%rsp), %rdi
	movl	%eax, %esi
	callq	std_io.io.error.Error.from_raw_os_error
	movq	16(%rsp), %rax
	shrq	$8, %rax
	movaps	.Lunix_path_CPI81_0(%rip), %xmm0
	movaps	%xmm0, 16(%rsp)
	movaps	.Lunix_path_CPI81_1(%rip), %xmm0
	movaps	%xmm0, 32(%rsp)
	movq	%r13, 48(%rsp)
	movb	$40, 56(%rsp)
	cmpb	$41, %al
	jae	.Lunix_path_BB81_14
	movl	%eax, %ecx
	andl	$63, %ecx
	cmpb	$35, 16(%rsp,%rcx)
	jne	.Lunix_path_BB81_14
	decq	%rbx
	jne	.Lunix_path_BB81_5
	movl	$1, %edi
	movq	%r15, %rsi
	movq	%r14, %rdx
	callq	write@PLT
	testq	%rax, %rax
	js	.Lunix_path_BB81_13
.Lunix_path_BB81_9:
	cmpq	%r14, %rax
	cmovbq	%rax, %r14
	testq	%r14, %r14
	movq	(%rsp), %rdi
	je	.Lunix_path_BB81_10
	addq	%r14, %rbp
	cmpq	%r12, %rbp
	movq	8(%rsp), %rax
	jb	.Lunix_path_BB81_3
	cmpq	$0, 24(%rdi)
	je	.Lunix_path_BB81_1
	movq	$0, 24(%rdi)
.Lunix_path_BB81_1:
	xorl	%eax, %eax
	xorl	%edx, %edx
	jmp	.Lunix_path_BB81_19
.Lunix_path_BB81_10:
	movb	$1, 8(%rdi)
	movb	$23, %al
	jmp	.Lunix_path_BB81_11
.Lunix_path_BB81_13:
	callq	rattle_errno@PLT
	leaq	16(%rsp), %rdi
	movl	%eax, %esi
	callq	std_io.io.error.Error.from_raw_os_error
	movzbl	17(%rsp), %eax
.Lunix_path_BB81_14:
	movq	(%rsp), %rcx
	movb	$1, 8(%rcx)
.Lunix_path_BB81_11:
	movaps	.Lunix_path_CPI81_0(%rip), %xmm0
	movaps	%xmm0, 16(%rsp)
	movaps	.Lunix_path_CPI81_1(%rip), %xmm0
	movaps	%xmm0, 32(%rsp)
	movq	%r13, 48(%rsp)
	movb	$40, 56(%rsp)
	cmpb	$41, %al
	jae	.Lunix_path_BB81_12
	movzbl	%al, %eax
	cmpb	$11, 16(%rsp,%rax)
	sete	%dl
	incb	%dl
	movb	$1, %al
	jmp	.Lunix_path_BB81_19
.Lunix_path_BB81_12:
	movb	$1, %al
	movb	$1, %dl
.Lunix_path_BB81_19:
	addq	$104, %rsp
	popq	%rbx
	popq	%r12
	popq	%r13
	popq	%r14
	popq	%r15
	popq	%rbp
	retq
.Lunix_path_func_end81:
	.size	upath_commands.output.Output.write_out.0c02296ad0e184a5., .Lunix_path_func_end81-upath_commands.output.Output.write_out.0c02296ad0e184a5.
	.section	.text.std_collections.btree.node.Node.destroy.793632148a6f265d.,"ax",@progbits
	.p2align	4
	.type	std_collections.btree.node.Node.destroy.793632148a6f265d.,@function
# std_collections::btree::node::Node::destroy::<#793632148a6f265d>
std_collections.btree.node.Node.destroy.793632148a6f265d.:
	pushq	%r15
	pushq	%r14
	pushq	%rbx
	subq	$112, %rsp
	movq	%rdi, %rbx
	movzwl	(%rdi), %r14d
	movzwl	2(%rdi), %ecx
	xorl	%edx, %edx
	testw	%cx, %cx
	setne	%dl
	leaq	1(%r14), %rsi
	shll	$4, %edx
	leaq	368(%rdi), %rax
	addq	$8, %rdi
	xorl	%r8d, %r8d
	testw	%cx, %cx
	cmovneq	%rsi, %r8
	movq	%rdi, 32(%rsp)
	movq	%r14, 40(%rsp)
	movq	$15, 48(%rsp)
	movq	%rax, 56(%rsp)
	movq	%r14, 64(%rsp)
	movq	$15, 72(%rsp)
	movq	%rax, 80(%rsp)
	movq	%r8, 88(%rsp)
	movq	%rdx, 96(%rsp)
	movq	%rbx, 104(%rsp)
	je	.Lunix_path_BB82_4
	testq	%r14, %r14
	jne	.Lunix_path_BB82_2
	movq	(%rax), %rbx
	cmpq	$257, %r14
	jb	.Lunix_path_BB82_56
.Lunix_path_BB82_57:
	leaq	56(%rax), %rsi
	xorl	%ecx, %ecx
	.p2align	4
.Lunix_path_BB82_58:
	xorl	%edx, %edx
	.p2align	4
.Lunix_path_BB82_59:
	movups	-48(%rsi,%rdx,8), %xmm0
	movups	-32(%rsi,%rdx,8), %xmm1
	movups	-16(%rsi,%rdx,8), %xmm2
	movups	(%rsi,%rdx,8), %xmm3
	movups	%xmm0, -56(%rsi,%rdx,8)
	movups	%xmm1, -40(%rsi,%rdx,8)
	movups	%xmm2, -24(%rsi,%rdx,8)
	movups	%xmm3, -8(%rsi,%rdx,8)
	addq	$8, %rdx
	cmpq	$256, %rdx
	jne	.Lunix_path_BB82_59
	addq	$256, %rcx
	movq	%r14, %rdx
	subq	%rcx, %rdx
	addq	$2048, %rsi
	cmpq	$256, %rdx
	ja	.Lunix_path_BB82_58
	cmpq	%rcx, %r14
	je	.Lunix_path_BB82_63
.Lunix_path_BB82_62:
	leaq	(%rax,%rcx,8), %rdi
	leaq	(%rax,%rcx,8), %rsi
	addq	$8, %rsi
	shlq	$3, %rdx
	callq	memmove@PLT
.Lunix_path_BB82_63:
	movq	%rbx, %rdi
	callq	std_collections.btree.node.Node.destroy.793632148a6f265d.
	movq	104(%rsp), %rdi
	jmp	.Lunix_path_BB82_44
	.p2align	4
.Lunix_path_BB82_53:
	cmpq	$0, 40(%rsp)
	je	.Lunix_path_BB82_54
.Lunix_path_BB82_2:
	movq	80(%rsp), %rax
	movq	88(%rsp), %r14
	movq	(%rax), %rbx
	decq	%r14
	cmpq	$257, %r14
	jb	.Lunix_path_BB82_3
	leaq	56(%rax), %rsi
	xorl	%ecx, %ecx
	.p2align	4
.Lunix_path_BB82_46:
	xorl	%edx, %edx
	.p2align	4
.Lunix_path_BB82_47:
	movups	-48(%rsi,%rdx,8), %xmm0
	movups	-32(%rsi,%rdx,8), %xmm1
	movups	-16(%rsi,%rdx,8), %xmm2
	movups	(%rsi,%rdx,8), %xmm3
	movups	%xmm0, -56(%rsi,%rdx,8)
	movups	%xmm1, -40(%rsi,%rdx,8)
	movups	%xmm2, -24(%rsi,%rdx,8)
	movups	%xmm3, -8(%rsi,%rdx,8)
	addq	$8, %rdx
	cmpq	$256, %rdx
	jne	.Lunix_path_BB82_47
	addq	$256, %rcx
	movq	%r14, %rdx
	subq	%rcx, %rdx
	addq	$2048, %rsi
	cmpq	$256, %rdx
	ja	.Lunix_path_BB82_46
	movq	96(%rsp), %r15
	cmpq	%rcx, %r14
	je	.Lunix_path_BB82_51
.Lunix_path_BB82_50:
	leaq	(%rax,%rcx,8), %rdi
	leaq	(%rax,%rcx,8), %rsi
	addq	$8, %rsi
	shlq	$3, %rdx
	callq	memmove@PLT
.Lunix_path_BB82_51:
	movq	%r14, 88(%rsp)
	movq	%r15, 96(%rsp)
	movq	%rbx, %rdi
	callq	std_collections.btree.node.Node.destroy.793632148a6f265d.
	xorps	%xmm0, %xmm0
	movaps	%xmm0, (%rsp)
	movq	$0, 16(%rsp)
	movq	%rsp, %rdi
	leaq	32(%rsp), %rsi
	xorl	%edx, %edx
	callq	std_alloc.vec.Vec.remove.b40003dd673f1bd1.
	decq	64(%rsp)
	cmpq	$0, 16(%rsp)
	je	.Lunix_path_BB82_53
	movq	(%rsp), %rdi
	callq	rattle_dealloc@PLT
	jmp	.Lunix_path_BB82_53
	.p2align	4
.Lunix_path_BB82_3:
	xorl	%ecx, %ecx
	movq	%r14, %rdx
	movq	96(%rsp), %r15
	cmpq	%rcx, %r14
	jne	.Lunix_path_BB82_50
	jmp	.Lunix_path_BB82_51
.Lunix_path_BB82_54:
	movq	80(%rsp), %rax
	movq	88(%rsp), %r14
	decq	%r14
	movq	(%rax), %rbx
	cmpq	$257, %r14
	jae	.Lunix_path_BB82_57
.Lunix_path_BB82_56:
	xorl	%ecx, %ecx
	movq	%r14, %rdx
	cmpq	%rcx, %r14
	jne	.Lunix_path_BB82_62
	jmp	.Lunix_path_BB82_63
.Lunix_path_BB82_4:
	cmpw	$15, %r14w
	jbe	.Lunix_path_BB82_5
	movl	%r14d, %edx
	shrl	%edx
	movq	%r14, %rax
	subq	%rdx, %rax
	leaq	(%rax,%rax,2), %rax
	leaq	(%rdi,%rax,8), %rsi
	callq	core.slice.edits.mirror.23.unix_path.buf.PathBuf.
	jmp	.Lunix_path_BB82_39
.Lunix_path_BB82_5:
	cmpw	$2, %r14w
	jb	.Lunix_path_BB82_38
	leaq	-2(%r14), %rcx
	movq	%rcx, %rax
	shrq	%rax
	movq	%r14, %rdx
	decq	%rdx
	je	.Lunix_path_BB82_8
	leaq	(%rdx,%rdx,2), %rdx
	movq	16(%rdi), %rsi
	movq	%rsi, 16(%rsp)
	movups	(%rdi), %xmm0
	movaps	%xmm0, (%rsp)
	movq	16(%rdi,%rdx,8), %rsi
	movups	(%rdi,%rdx,8), %xmm0
	movups	%xmm0, (%rdi)
	movq	%rsi, 16(%rdi)
	movq	16(%rsp), %rsi
	movq	%rsi, 16(%rdi,%rdx,8)
	movaps	(%rsp), %xmm0
	movups	%xmm0, (%rdi,%rdx,8)
.Lunix_path_BB82_8:
	testq	%rax, %rax
	je	.Lunix_path_BB82_38
	cmpq	$1, %rcx
	jbe	.Lunix_path_BB82_10
	leaq	(%rcx,%rcx,2), %rcx
	movq	48(%rbx), %rdx
	movq	%rdx, 16(%rsp)
	movups	32(%rbx), %xmm0
	movaps	%xmm0, (%rsp)
	movq	16(%rdi,%rcx,8), %rdx
	movups	(%rdi,%rcx,8), %xmm0
	movups	%xmm0, 32(%rbx)
	movq	%rdx, 48(%rbx)
	movq	16(%rsp), %rdx
	movq	%rdx, 16(%rdi,%rcx,8)
	movaps	(%rsp), %xmm0
	movups	%xmm0, (%rdi,%rcx,8)
	jmp	.Lunix_path_BB82_13
.Lunix_path_BB82_10:
	testq	%rcx, %rcx
	jne	.Lunix_path_BB82_13
	leaq	(%rcx,%rcx,2), %rcx
	movq	16(%rdi,%rcx,8), %rdx
	movq	%rdx, 16(%rsp)
	movups	(%rdi,%rcx,8), %xmm0
	movaps	%xmm0, (%rsp)
	movq	48(%rbx), %rdx
	movups	32(%rbx), %xmm0
	movups	%xmm0, (%rdi,%rcx,8)
	movq	%rdx, 16(%rdi,%rcx,8)
	movq	16(%rsp), %rcx
	movq	%rcx, 48(%rbx)
	movaps	(%rsp), %xmm0
	movups	%xmm0, 32(%rbx)
.Lunix_path_BB82_13:
	cmpq	$1, %rax
	je	.Lunix_path_BB82_38
	leaq	-3(%r14), %rcx
	cmpq	$2, %rcx
	jbe	.Lunix_path_BB82_15
	leaq	(%rcx,%rcx,2), %rcx
	movq	72(%rbx), %rdx
	movq	%rdx, 16(%rsp)
	movups	56(%rbx), %xmm0
	movaps	%xmm0, (%rsp)
	movq	16(%rdi,%rcx,8), %rdx
	movups	(%rdi,%rcx,8), %xmm0
	movups	%xmm0, 56(%rbx)
	movq	%rdx, 72(%rbx)
	movq	16(%rsp), %rdx
	movq	%rdx, 16(%rdi,%rcx,8)
	movaps	(%rsp), %xmm0
	movups	%xmm0, (%rdi,%rcx,8)
	jmp	.Lunix_path_BB82_18
.Lunix_path_BB82_15:
	cmpl	$2, %ecx
	je	.Lunix_path_BB82_18
	leaq	(%rcx,%rcx,2), %rcx
	movq	16(%rdi,%rcx,8), %rdx
	movq	%rdx, 16(%rsp)
	movups	(%rdi,%rcx,8), %xmm0
	movaps	%xmm0, (%rsp)
	movq	72(%rbx), %rdx
	movups	56(%rbx), %xmm0
	movups	%xmm0, (%rdi,%rcx,8)
	movq	%rdx, 16(%rdi,%rcx,8)
	movq	16(%rsp), %rcx
	movq	%rcx, 72(%rbx)
	movaps	(%rsp), %xmm0
	movups	%xmm0, 56(%rbx)
.Lunix_path_BB82_18:
	cmpq	$2, %rax
	je	.Lunix_path_BB82_38
	leaq	-4(%r14), %rcx
	cmpq	$3, %rcx
	jbe	.Lunix_path_BB82_20
	leaq	(%rcx,%rcx,2), %rcx
	movq	96(%rbx), %rdx
	movq	%rdx, 16(%rsp)
	movups	80(%rbx), %xmm0
	movaps	%xmm0, (%rsp)
	movq	16(%rdi,%rcx,8), %rdx
	movups	(%rdi,%rcx,8), %xmm0
	movups	%xmm0, 80(%rbx)
	movq	%rdx, 96(%rbx)
	movq	16(%rsp), %rdx
	movq	%rdx, 16(%rdi,%rcx,8)
	movaps	(%rsp), %xmm0
	movups	%xmm0, (%rdi,%rcx,8)
	jmp	.Lunix_path_BB82_23
.Lunix_path_BB82_20:
	cmpl	$3, %ecx
	je	.Lunix_path_BB82_23
	leaq	(%rcx,%rcx,2), %rcx
	movq	16(%rdi,%rcx,8), %rdx
	movq	%rdx, 16(%rsp)
	movups	(%rdi,%rcx,8), %xmm0
	movaps	%xmm0, (%rsp)
	movq	96(%rbx), %rdx
	movups	80(%rbx), %xmm0
	movups	%xmm0, (%rdi,%rcx,8)
	movq	%rdx, 16(%rdi,%rcx,8)
	movq	16(%rsp), %rcx
	movq	%rcx, 96(%rbx)
	movaps	(%rsp), %xmm0
	movups	%xmm0, 80(%rbx)
.Lunix_path_BB82_23:
	cmpq	$3, %rax
	je	.Lunix_path_BB82_38
	leaq	-5(%r14), %rcx
	cmpq	$4, %rcx
	jbe	.Lunix_path_BB82_25
	leaq	(%rcx,%rcx,2), %rcx
	movq	120(%rbx), %rdx
	movq	%rdx, 16(%rsp)
	movups	104(%rbx), %xmm0
	movaps	%xmm0, (%rsp)
	movq	16(%rdi,%rcx,8), %rdx
	movups	(%rdi,%rcx,8), %xmm0
	movups	%xmm0, 104(%rbx)
	movq	%rdx, 120(%rbx)
	movq	16(%rsp), %rdx
	movq	%rdx, 16(%rdi,%rcx,8)
	movaps	(%rsp), %xmm0
	movups	%xmm0, (%rdi,%rcx,8)
	jmp	.Lunix_path_BB82_28
.Lunix_path_BB82_25:
	cmpl	$4, %ecx
	je	.Lunix_path_BB82_28
	leaq	(%rcx,%rcx,2), %rcx
	movq	16(%rdi,%rcx,8), %rdx
	movq	%rdx, 16(%rsp)
	movups	(%rdi,%rcx,8), %xmm0
	movaps	%xmm0, (%rsp)
	movq	120(%rbx), %rdx
	movups	104(%rbx), %xmm0
	movups	%xmm0, (%rdi,%rcx,8)
	movq	%rdx, 16(%rdi,%rcx,8)
	movq	16(%rsp), %rcx
	movq	%rcx, 120(%rbx)
	movaps	(%rsp), %xmm0
	movups	%xmm0, 104(%rbx)
.Lunix_path_BB82_28:
	cmpq	$4, %rax
	je	.Lunix_path_BB82_38
	leaq	-6(%r14), %rcx
	cmpq	$5, %rcx
	jbe	.Lunix_path_BB82_30
	leaq	(%rcx,%rcx,2), %rcx
	movq	144(%rbx), %rdx
	movq	%rdx, 16(%rsp)
	movups	128(%rbx), %xmm0
	movaps	%xmm0, (%rsp)
	movq	16(%rdi,%rcx,8), %rdx
	movups	(%rdi,%rcx,8), %xmm0
	movups	%xmm0, 128(%rbx)
	movq	%rdx, 144(%rbx)
	movq	16(%rsp), %rdx
	movq	%rdx, 16(%rdi,%rcx,8)
	movaps	(%rsp), %xmm0
	movups	%xmm0, (%rdi,%rcx,8)
	jmp	.Lunix_path_BB82_33
.Lunix_path_BB82_30:
	cmpl	$5, %ecx
	je	.Lunix_path_BB82_33
	leaq	(%rcx,%rcx,2), %rcx
	movq	16(%rdi,%rcx,8), %rdx
	movq	%rdx, 16(%rsp)
	movups	(%rdi,%rcx,8), %xmm0
	movaps	%xmm0, (%rsp)
	movq	144(%rbx), %rdx
	movups	128(%rbx), %xmm0
	movups	%xmm0, (%rdi,%rcx,8)
	movq	%rdx, 16(%rdi,%rcx,8)
	movq	16(%rsp), %rcx
	movq	%rcx, 144(%rbx)
	movaps	(%rsp), %xmm0
	movups	%xmm0, 128(%rbx)
.Lunix_path_BB82_33:
	cmpq	$5, %rax
	je	.Lunix_path_BB82_38
	leaq	-7(%r14), %rax
	cmpq	$6, %rax
	jbe	.Lunix_path_BB82_35
	leaq	(%rax,%rax,2), %rax
	movq	168(%rbx), %rcx
	movq	%rcx, 16(%rsp)
	movups	152(%rbx), %xmm0
	movaps	%xmm0, (%rsp)
	movq	16(%rdi,%rax,8), %rcx
	movups	(%rdi,%rax,8), %xmm0
	movups	%xmm0, 152(%rbx)
	movq	%rcx, 168(%rbx)
	movq	16(%rsp), %rcx
	movq	%rcx, 16(%rdi,%rax,8)
	movaps	(%rsp), %xmm0
	movups	%xmm0, (%rdi,%rax,8)
	jmp	.Lunix_path_BB82_38
.Lunix_path_BB82_35:
	cmpl	$6, %eax
	je	.Lunix_path_BB82_38
	leaq	(%rax,%rax,2), %rax
	movq	16(%rdi,%rax,8), %rcx
	movq	%rcx, 16(%rsp)
	movups	(%rdi,%rax,8), %xmm0
	movaps	%xmm0, (%rsp)
	movq	168(%rbx), %rcx
	movups	152(%rbx), %xmm0
	movups	%xmm0, (%rdi,%rax,8)
	movq	%rcx, 16(%rdi,%rax,8)
	movq	16(%rsp), %rax
	movq	%rax, 168(%rbx)
	movaps	(%rsp), %xmm0
	movups	%xmm0, 152(%rbx)
.Lunix_path_BB82_38:
	testq	%r14, %r14
	je	.Lunix_path_BB82_43
.Lunix_path_BB82_39:
	leaq	(%r14,%r14,2), %rax
	leaq	(%rbx,%rax,8), %r15
	jmp	.Lunix_path_BB82_40
	.p2align	4
.Lunix_path_BB82_42:
	decq	%r14
	addq	$-24, %r15
	testq	%r14, %r14
	je	.Lunix_path_BB82_43
.Lunix_path_BB82_40:
	cmpq	$0, (%r15)
	je	.Lunix_path_BB82_42
	movq	-16(%r15), %rdi
	callq	rattle_dealloc@PLT
	jmp	.Lunix_path_BB82_42
.Lunix_path_BB82_43:
	movq	%rbx, %rdi
.Lunix_path_BB82_44:
	addq	$112, %rsp
	popq	%rbx
	popq	%r14
	popq	%r15
	jmp	rattle_dealloc@PLT
.Lunix_path_func_end82:
	.size	std_collections.btree.node.Node.destroy.793632148a6f265d., .Lunix_path_func_end82-std_collections.btree.node.Node.destroy.793632148a6f265d.
	.section	.text.core.slice.edits.mirror.23.unix_path.buf.PathBuf.,"ax",@progbits
	.p2align	4
	.type	core.slice.edits.mirror.23.unix_path.buf.PathBuf.,@function
# core::slice::edits::mirror::<23'unix_path::buf::PathBuf>
core.slice.edits.mirror.23.unix_path.buf.PathBuf.:
	leaq	(%rdx,%rdx,2), %rax
	leaq	(%rsi,%rax,8), %rax
	addq	$-24, %rax
	.p2align	4
.Lunix_path_BB83_1:
	movq	16(%rdi), %rcx
	movq	%rcx, -8(%rsp)
	movups	(%rdi), %xmm0
	movaps	%xmm0, -24(%rsp)
	movq	16(%rax), %rcx
	movups	(%rax), %xmm0
	movups	%xmm0, (%rdi)
	movq	%rcx, 16(%rdi)
	movq	-8(%rsp), %rcx
	movq	%rcx, 16(%rax)
	movaps	-24(%rsp), %xmm0
	movups	%xmm0, (%rax)
	addq	$24, %rdi
	addq	$-24, %rax
	decq	%rdx
	jne	.Lunix_path_BB83_1
	retq
.Lunix_path_func_end83:
	.size	core.slice.edits.mirror.23.unix_path.buf.PathBuf., .Lunix_path_func_end83-core.slice.edits.mirror.23.unix_path.buf.PathBuf.
	.section	.text.upath_commands.records.records_in,"ax",@progbits
	.p2align	4
	.type	upath_commands.records.records_in,@function
# upath_commands::records::records_in
upath_commands.records.records_in:
	pushq	%rbp
	pushq	%r15
	pushq	%r14
	pushq	%r13
	pushq	%r12
	pushq	%rbx
	subq	$72, %rsp
	movq	%rdi, 40(%rsp)
	leaq	8(%rsp), %rax
	movq	%rax, 16(%rsp)
	pxor	%xmm0, %xmm0
	movdqu	%xmm0, 24(%rsp)
	testq	%rdx, %rdx
	je	.Lunix_path_BB84_17
	movl	%ecx, %ebp
	movq	%rdx, %r14
	movq	%rsi, %r15
	movzbl	%bpl, %ecx
	movd	%ecx, %xmm0
	punpcklbw	%xmm0, %xmm0
	pshuflw	$0, %xmm0, %xmm0
	pshufd	$68, %xmm0, %xmm1
	xorl	%r12d, %r12d
	movdqa	%xmm1, 48(%rsp)
	jmp	.Lunix_path_BB84_2
	.p2align	4
.Lunix_path_BB84_12:
	movdqu	(%r13,%rcx), %xmm0
	pcmpeqb	%xmm1, %xmm0
	pmovmskb	%xmm0, %edx
	orl	$65536, %edx
	rep		bsfl	%edx, %ebx
	addq	%rcx, %rbx
.Lunix_path_BB84_13:
	movq	24(%rsp), %rcx
	cmpq	%rcx, 32(%rsp)
	je	.Lunix_path_BB84_14
.Lunix_path_BB84_16:
	movq	%rcx, %rdx
	shlq	$4, %rdx
	movq	%r13, (%rax,%rdx)
	movq	%rbx, 8(%rax,%rdx)
	incq	%rcx
	movq	%rcx, 24(%rsp)
	leaq	(%rbx,%r12), %rcx
	cmpq	%r14, %rcx
	adcq	%rbx, %r12
	cmpq	%r14, %r12
	jae	.Lunix_path_BB84_17
.Lunix_path_BB84_2:
	leaq	(%r15,%r12), %r13
	movq	%r14, %rcx
	subq	%r12, %rcx
	cmpq	$15, %rcx
	ja	.Lunix_path_BB84_7
	xorl	%ebx, %ebx
	.p2align	4
.Lunix_path_BB84_4:
	cmpb	%bpl, (%r13,%rbx)
	je	.Lunix_path_BB84_13
	incq	%rbx
	cmpq	%rbx, %rcx
	jne	.Lunix_path_BB84_4
	movq	%rcx, %rbx
	jmp	.Lunix_path_BB84_13
	.p2align	4
.Lunix_path_BB84_7:
	addq	$-16, %rcx
	je	.Lunix_path_BB84_12
	xorl	%edx, %edx
	.p2align	4
.Lunix_path_BB84_9:
	movdqu	(%r13,%rdx), %xmm0
	pcmpeqb	%xmm1, %xmm0
	pmovmskb	%xmm0, %esi
	orl	$65536, %esi
	rep		bsfl	%esi, %esi
	cmpw	$15, %si
	jbe	.Lunix_path_BB84_10
	addq	$16, %rdx
	cmpq	%rcx, %rdx
	jb	.Lunix_path_BB84_9
	jmp	.Lunix_path_BB84_12
.Lunix_path_BB84_10:
	movzwl	%si, %ebx
	addq	%rdx, %rbx
	jmp	.Lunix_path_BB84_13
.Lunix_path_BB84_14:
	leaq	16(%rsp), %rdi
	movl	$1, %esi
	callq	std_alloc.vec.Vec.grow_amortized.a60b1bb647f5ec87.
	testb	%al, %al
	je	.Lunix_path_BB84_18
	movq	16(%rsp), %rax
	movq	24(%rsp), %rcx
	movdqa	48(%rsp), %xmm1
	jmp	.Lunix_path_BB84_16
.Lunix_path_BB84_17:
	movq	40(%rsp), %rcx
	movb	$0, (%rcx)
	movq	16(%rsp), %rax
	movq	%rax, 8(%rcx)
	movq	24(%rsp), %rax
	movq	%rax, 16(%rcx)
	movq	32(%rsp), %rax
	movq	%rax, 24(%rcx)
.Lunix_path_BB84_21:
	addq	$72, %rsp
	popq	%rbx
	popq	%r12
	popq	%r13
	popq	%r14
	popq	%r15
	popq	%rbp
	retq
.Lunix_path_BB84_18:
	cmpq	$0, 32(%rsp)
	je	.Lunix_path_BB84_20
	movq	16(%rsp), %rdi
	callq	rattle_dealloc@PLT
.Lunix_path_BB84_20:
	movq	40(%rsp), %rax
	movb	$1, (%rax)
	pxor	%xmm0, %xmm0
	movdqu	%xmm0, 8(%rax)
	movq	$0, 24(%rax)
	jmp	.Lunix_path_BB84_21
.Lunix_path_func_end84:
	.size	upath_commands.records.records_in, .Lunix_path_func_end84-upath_commands.records.records_in
	.section	.rodata.cst16,"aM",@progbits,16
	.p2align	4, 0x0
.Lunix_path_CPI85_0:
	.byte	10
	.byte	84
	.byte	114
	.byte	121
	.byte	32
	.byte	39
	.byte	117
	.byte	112
	.byte	97
	.byte	116
	.byte	104
	.byte	32
	.byte	45
	.byte	45
	.byte	104
	.byte	101
	.section	.text.unlikely.upath_commands.runs.refuse.3596f8ae3b0ff399.,"ax",@progbits
	.p2align	4
	.type	upath_commands.runs.refuse.3596f8ae3b0ff399.,@function
# upath_commands::runs::refuse::<#3596f8ae3b0ff399>
upath_commands.runs.refuse.3596f8ae3b0ff399.:
	pushq	%rbp
	pushq	%r15
	pushq	%r14
	pushq	%r13
	pushq	%r12
	pushq	%rbx
	subq	$40, %rsp
	movq	%rsi, %rbx
	movzbl	(%rdi), %ebp
	movq	8(%rdi), %r15
	movq	16(%rdi), %r12
	addq	$40, %rbx
	xorps	%xmm0, %xmm0
	movups	%xmm0, 16(%rsp)
	leaq	39(%rsp), %rax
	movq	%rax, 8(%rsp)
	leaq	8(%rsp), %rdi
	movl	$7, %esi
	callq	std_alloc.vec.Vec.grow_amortized.f4a78633ca2a48c6.
	testb	%al, %al
	je	.Lunix_path_BB85_6
	movq	8(%rsp), %r14
	movq	16(%rsp), %rax
	leaq	(%r14,%rax), %rcx
	addq	$7, %rax
	leaq	.Lunix_path_static.65(%rip), %rdx
	movq	%rcx, %rsi
	subq	%rdx, %rsi
	cmpq	$6, %rsi
	ja	.Lunix_path_BB85_3
	movl	$1952542837, (%rcx)
	movw	$14952, 4(%rcx)
	movb	$32, 6(%rcx)
	jmp	.Lunix_path_BB85_4
.Lunix_path_BB85_3:
	movl	$540698740, 3(%rcx)
	movl	$1952542837, (%rcx)
.Lunix_path_BB85_4:
	movq	24(%rsp), %r13
	movq	%rax, 16(%rsp)
	leal	-4(%rbp), %ecx
	cmpl	$11, %ecx
	jae	.Lunix_path_BB85_12
.Lunix_path_BB85_5:
	leaq	8(%rsp), %rdx
	movq	%r15, %rdi
	movq	%r12, %rsi
	callq	upath_commands.shown.push_shown
	testb	%al, %al
	je	.Lunix_path_BB85_9
.Lunix_path_BB85_6:
	cmpq	$0, 24(%rsp)
	je	.Lunix_path_BB85_8
	movq	8(%rsp), %rdi
	callq	rattle_dealloc@PLT
.Lunix_path_BB85_8:
	leaq	.Lunix_path_static.106(%rip), %rsi
	movl	$21, %edx
	movq	%rbx, %rdi
	callq	upath_commands.messages.send.5821a58b74a7d609.
	movb	$3, %dl
	movb	$1, %al
	jmp	.Lunix_path_BB85_59
.Lunix_path_BB85_9:
	movq	16(%rsp), %rax
	movq	24(%rsp), %r13
	movq	%r13, %rcx
	subq	%rax, %rcx
	cmpq	$1, %rcx
	jbe	.Lunix_path_BB85_65
.Lunix_path_BB85_10:
	movq	8(%rsp), %r14
	leaq	(%r14,%rax), %rcx
	addq	$2, %rax
	leaq	.Lunix_path_static.66(%rip), %rdx
	movq	%rcx, %rdi
	subq	%rdx, %rdi
	leaq	.Lunix_path_static.109(%rip), %rsi
	cmpq	$1, %rdi
	ja	.Lunix_path_BB85_15
	movw	$8250, (%rcx)
	movq	%rax, 16(%rsp)
	movq	%r13, 24(%rsp)
	movl	$15, %edx
	movb	$1, %r12b
	decl	%ebp
	leaq	.Lunix_path_JTI85_0(%rip), %rcx
	movslq	(%rcx,%rbp,4), %rdi
	addq	%rcx, %rdi
	jmpq	*%rdi
.Lunix_path_BB85_12:
	leal	-1(%rbp), %ecx
	cmpl	$2, %ecx
	jb	.Lunix_path_BB85_5
	testl	%ebp, %ebp
	jne	.Lunix_path_BB85_17
	leaq	.Lunix_path_static.108(%rip), %rsi
	movl	$18, %edx
	jmp	.Lunix_path_BB85_31
.Lunix_path_BB85_15:
	movw	$8250, (%rcx)
	movq	%rax, 16(%rsp)
	movq	%r13, 24(%rsp)
	movl	$15, %edx
	movb	$1, %r12b
	decl	%ebp
	leaq	.Lunix_path_JTI85_0(%rip), %rcx
	movslq	(%rcx,%rbp,4), %rdi
	addq	%rcx, %rdi
	jmpq	*%rdi
.Lunix_path_BB85_16:
	leaq	.Lunix_path_static.110(%rip), %rsi
	jmp	.Lunix_path_BB85_26
.Lunix_path_BB85_17:
	cmpq	%rax, %r13
	je	.Lunix_path_BB85_67
.Lunix_path_BB85_18:
	movb	$45, (%r14,%rax)
	incq	%rax
	movq	%rax, 16(%rsp)
	jmp	.Lunix_path_BB85_5
.Lunix_path_BB85_19:
	leaq	.Lunix_path_static.119(%rip), %rsi
	movl	$20, %edx
	jmp	.Lunix_path_BB85_31
.Lunix_path_BB85_20:
	leaq	.Lunix_path_static.112(%rip), %rsi
	movl	$20, %edx
	jmp	.Lunix_path_BB85_31
.Lunix_path_BB85_21:
	leaq	.Lunix_path_static.120(%rip), %rsi
	jmp	.Lunix_path_BB85_27
.Lunix_path_BB85_22:
	leaq	.Lunix_path_static.117(%rip), %rsi
	movl	$21, %edx
	jmp	.Lunix_path_BB85_31
.Lunix_path_BB85_23:
	leaq	.Lunix_path_static.111(%rip), %rsi
	movl	$48, %edx
	jmp	.Lunix_path_BB85_31
.Lunix_path_BB85_24:
	leaq	.Lunix_path_static.115(%rip), %rsi
	jmp	.Lunix_path_BB85_27
.Lunix_path_BB85_25:
	leaq	.Lunix_path_static.113(%rip), %rsi
.Lunix_path_BB85_26:
	movl	$14, %edx
	jmp	.Lunix_path_BB85_27
.Lunix_path_BB85_28:
	leaq	.Lunix_path_static.101(%rip), %rsi
	movl	$29, %edx
	jmp	.Lunix_path_BB85_31
.Lunix_path_BB85_29:
	leaq	.Lunix_path_static.114(%rip), %rsi
	movl	$55, %edx
	jmp	.Lunix_path_BB85_31
.Lunix_path_BB85_30:
	leaq	.Lunix_path_static.118(%rip), %rsi
	movl	$17, %edx
.Lunix_path_BB85_31:
	xorl	%r12d, %r12d
.Lunix_path_BB85_32:
	movq	%r13, %rcx
	subq	%rax, %rcx
	cmpq	%rcx, %rdx
	jbe	.Lunix_path_BB85_33
	jmp	.Lunix_path_BB85_61
.Lunix_path_BB85_60:
	leaq	.Lunix_path_static.116(%rip), %rsi
.Lunix_path_BB85_27:
	movb	$1, %r12b
	movq	%r13, %rcx
	subq	%rax, %rcx
	cmpq	%rcx, %rdx
	ja	.Lunix_path_BB85_61
.Lunix_path_BB85_33:
	leaq	(%rax,%rdx), %r15
	leaq	(%r14,%rax), %rdi
	movq	%rdi, %rcx
	subq	%rsi, %rcx
	cmpq	%rdx, %rcx
	jae	.Lunix_path_BB85_36
	cmpq	$16, %rcx
	jae	.Lunix_path_BB85_37
	xorl	%ecx, %ecx
	jmp	.Lunix_path_BB85_46
.Lunix_path_BB85_36:
	callq	memmove@PLT
	jmp	.Lunix_path_BB85_52
.Lunix_path_BB85_37:
	testb	%r12b, %r12b
	je	.Lunix_path_BB85_39
	xorl	%ecx, %ecx
	jmp	.Lunix_path_BB85_43
.Lunix_path_BB85_39:
	movl	%edx, %ecx
	andl	$-16, %ecx
	xorl	%r8d, %r8d
	.p2align	4
.Lunix_path_BB85_40:
	movups	(%rsi,%r8), %xmm0
	movups	%xmm0, (%rdi,%r8)
	addq	$16, %r8
	cmpq	%r8, %rcx
	jne	.Lunix_path_BB85_40
	cmpl	%ecx, %edx
	je	.Lunix_path_BB85_52
	testb	$12, %dl
	je	.Lunix_path_BB85_46
.Lunix_path_BB85_43:
	movq	%rcx, %r8
	movl	%edx, %ecx
	andl	$-4, %ecx
	.p2align	4
.Lunix_path_BB85_44:
	movl	(%rsi,%r8), %r9d
	movl	%r9d, (%rdi,%r8)
	addq	$4, %r8
	cmpq	%r8, %rcx
	jne	.Lunix_path_BB85_44
	cmpl	%ecx, %edx
	je	.Lunix_path_BB85_52
.Lunix_path_BB85_46:
	movq	%rdx, %r9
	movq	%rcx, %r8
	andq	$3, %r9
	je	.Lunix_path_BB85_49
	movq	%rcx, %r8
	.p2align	4
.Lunix_path_BB85_48:
	movzbl	(%rsi,%r8), %r10d
	movb	%r10b, (%rdi,%r8)
	incq	%r8
	decq	%r9
	jne	.Lunix_path_BB85_48
.Lunix_path_BB85_49:
	subl	%edx, %ecx
	cmpl	$-4, %ecx
	ja	.Lunix_path_BB85_52
	addq	%r14, %rax
	addq	$3, %rax
	.p2align	4
.Lunix_path_BB85_51:
	movzbl	(%rsi,%r8), %ecx
	movb	%cl, -3(%rax,%r8)
	movzbl	1(%rsi,%r8), %ecx
	movb	%cl, -2(%rax,%r8)
	movzbl	2(%rsi,%r8), %ecx
	movb	%cl, -1(%rax,%r8)
	movzbl	3(%rsi,%r8), %ecx
	movb	%cl, (%rax,%r8)
	addq	$4, %r8
	cmpq	%r8, %rdx
	jne	.Lunix_path_BB85_51
.Lunix_path_BB85_52:
	movq	%r14, 8(%rsp)
	movq	%r15, 16(%rsp)
	movq	%r13, 24(%rsp)
	movq	%r13, %rax
	subq	%r15, %rax
	cmpq	$20, %rax
	jbe	.Lunix_path_BB85_63
.Lunix_path_BB85_53:
	leaq	16(%rsp), %rax
	xorps	%xmm0, %xmm0
	movups	%xmm0, (%rax)
	leaq	(%r14,%r15), %rax
	addq	$21, %r15
	leaq	.Lunix_path_static.107(%rip), %rcx
	movq	%rax, %rdx
	subq	%rcx, %rdx
	cmpq	$20, %rdx
	ja	.Lunix_path_BB85_55
	movaps	.Lunix_path_CPI85_0(%rip), %xmm0
	movups	%xmm0, (%rax)
	movl	$774336620, 16(%rax)
	movb	$10, 20(%rax)
	jmp	.Lunix_path_BB85_56
.Lunix_path_BB85_55:
	movups	.Lunix_path_static.107(%rip), %xmm0
	movups	%xmm0, (%rax)
	movabsq	$733567153116375085, %rcx
	movq	%rcx, 13(%rax)
.Lunix_path_BB85_56:
	movq	%r14, 8(%rsp)
	movq	%r15, 16(%rsp)
	movq	%r13, 24(%rsp)
	movq	%rbx, %rdi
	movq	%r14, %rsi
	movq	%r15, %rdx
	callq	upath_commands.messages.send.5821a58b74a7d609.
	cmpq	$0, 24(%rsp)
	je	.Lunix_path_BB85_58
	movq	%r14, %rdi
	callq	rattle_dealloc@PLT
.Lunix_path_BB85_58:
	movb	$2, %dl
	xorl	%eax, %eax
.Lunix_path_BB85_59:
	addq	$40, %rsp
	popq	%rbx
	popq	%r12
	popq	%r13
	popq	%r14
	popq	%r15
	popq	%rbp
	retq
.Lunix_path_BB85_61:
	movq	%rsi, %r15
	leaq	8(%rsp), %rdi
	movq	%rdx, %rbp
	movq	%rdx, %rsi
	callq	std_alloc.vec.Vec.grow_amortized.f4a78633ca2a48c6.
	testb	%al, %al
	je	.Lunix_path_BB85_6
	movq	8(%rsp), %r14
	movq	16(%rsp), %rax
	movq	24(%rsp), %r13
	movq	%r15, %rsi
	movq	%rbp, %rdx
	jmp	.Lunix_path_BB85_33
.Lunix_path_BB85_63:
	leaq	8(%rsp), %rdi
	movl	$21, %esi
	callq	std_alloc.vec.Vec.grow_amortized.f4a78633ca2a48c6.
	testb	%al, %al
	je	.Lunix_path_BB85_6
	movq	8(%rsp), %r14
	movq	16(%rsp), %r15
	movq	24(%rsp), %r13
	jmp	.Lunix_path_BB85_53
.Lunix_path_BB85_65:
	leaq	8(%rsp), %rdi
	movl	$2, %esi
	callq	std_alloc.vec.Vec.grow_amortized.f4a78633ca2a48c6.
	testb	%al, %al
	je	.Lunix_path_BB85_6
	movq	16(%rsp), %rax
	movq	24(%rsp), %r13
	jmp	.Lunix_path_BB85_10
.Lunix_path_BB85_67:
	leaq	8(%rsp), %rdi
	movl	$1, %esi
	callq	std_alloc.vec.Vec.grow_amortized.f4a78633ca2a48c6.
	testb	%al, %al
	je	.Lunix_path_BB85_6
	movq	8(%rsp), %r14
	movq	16(%rsp), %rax
	jmp	.Lunix_path_BB85_18
.Lunix_path_func_end85:
	.size	upath_commands.runs.refuse.3596f8ae3b0ff399., .Lunix_path_func_end85-upath_commands.runs.refuse.3596f8ae3b0ff399.
	.section	.rodata.unlikely.upath_commands.runs.refuse.3596f8ae3b0ff399.,"a",@progbits
	.p2align	2, 0x0
.Lunix_path_JTI85_0:
	.long	.Lunix_path_BB85_32-.Lunix_path_JTI85_0
	.long	.Lunix_path_BB85_16-.Lunix_path_JTI85_0
	.long	.Lunix_path_BB85_16-.Lunix_path_JTI85_0
	.long	.Lunix_path_BB85_23-.Lunix_path_JTI85_0
	.long	.Lunix_path_BB85_20-.Lunix_path_JTI85_0
	.long	.Lunix_path_BB85_25-.Lunix_path_JTI85_0
	.long	.Lunix_path_BB85_29-.Lunix_path_JTI85_0
	.long	.Lunix_path_BB85_24-.Lunix_path_JTI85_0
	.long	.Lunix_path_BB85_60-.Lunix_path_JTI85_0
	.long	.Lunix_path_BB85_22-.Lunix_path_JTI85_0
	.long	.Lunix_path_BB85_30-.Lunix_path_JTI85_0
	.long	.Lunix_path_BB85_19-.Lunix_path_JTI85_0
	.long	.Lunix_path_BB85_21-.Lunix_path_JTI85_0
	.long	.Lunix_path_BB85_28-.Lunix_path_JTI85_0
	.section	.rodata.cst16,"aM",@progbits,16
	.p2align	4, 0x0
.Lunix_path_CPI86_0:
	.zero	16,46
.Lunix_path_CPI86_1:
	.quad	8458358670138239095
	.quad	3327647951695996518
.Lunix_path_CPI86_2:
	.quad	8367798494427701606
	.quad	2334399978102268015
.Lunix_path_CPI86_3:
	.byte	2
	.byte	23
	.byte	28
	.byte	0
	.zero	1
	.zero	1
	.zero	1
	.zero	1
	.zero	1
	.zero	1
	.zero	1
	.zero	1
	.zero	1
	.zero	1
	.zero	1
	.zero	1
.Lunix_path_CPI86_4:
	.byte	0
	.byte	35
	.byte	0
	.byte	0
	.zero	1
	.zero	1
	.zero	1
	.zero	1
	.zero	1
	.zero	1
	.zero	1
	.zero	1
	.zero	1
	.zero	1
	.zero	1
	.zero	1
.Lunix_path_CPI86_5:
	.byte	0
	.byte	35
	.byte	0
	.byte	0
	.byte	0
	.byte	0
	.byte	0
	.byte	0
	.byte	0
	.byte	0
	.byte	0
	.byte	0
	.byte	0
	.byte	0
	.byte	0
	.byte	0
.Lunix_path_CPI86_6:
	.byte	2
	.byte	23
	.byte	28
	.byte	0
	.byte	0
	.byte	0
	.byte	0
	.byte	0
	.byte	0
	.byte	0
	.byte	0
	.byte	0
	.byte	0
	.byte	0
	.byte	0
	.byte	0
	.section	.text.std_io.io.buffer.Buffer.flush,"ax",@progbits
	.p2align	4
	.type	std_io.io.buffer.Buffer.flush,@function
# std_io::io::buffer::Buffer::flush
std_io.io.buffer.Buffer.flush:
	pushq	%rbp
	pushq	%r15
	pushq	%r14
	pushq	%r13
	pushq	%r12
	pushq	%rbx
	subq	$136, %rsp
	movq	1032(%rdi), %r15
	movq	$0, 1032(%rdi)
	cmpq	$1025, %r15
	jae	.Lunix_path_BB86_15
	movq	%rdi, %rbx
	movl	(%rdi), %ebp
	movq	$-64, %r12
	xorl	%r13d, %r13d
	jmp	.Lunix_path_BB86_4
	.p2align	4
.Lunix_path_BB86_2:
	callq	rattle_errno@PLT
	cmpl	$4, %eax
	jne	.Lunix_path_BB86_13
	incq	%r12
	cmpq	%r12, %r15
	je	.Lunix_path_BB86_8
.Lunix_path_BB86_4:
	movq	%r15, %r14
	subq	%r13, %r14
	jbe	.Lunix_path_BB86_10
	leaq	4(%rbx), %rax
	leaq	(%rax,%r13), %rsi
	movl	%ebp, %edi
	movq	%r14, %rdx
	callq	write@PLT
	testq	%rax, %rax
	js	.Lunix_path_BB86_2
	je	.Lunix_path_BB86_11
	cmpq	%r14, %rax
	cmovbq	%rax, %r14
	addq	%r14, %r13
	incq	%r12
	cmpq	%r12, %r15
	jne	.Lunix_path_BB86_4
.Lunix_path_BB86_8:
	cmpq	%r13, %r15
	jbe	.Lunix_path_BB86_10
	xorps	%xmm0, %xmm0
	movaps	%xmm0, 32(%rsp)
	movaps	%xmm0, 16(%rsp)
	movaps	%xmm0, (%rsp)
	movss	.Lunix_path_CPI86_5(%rip), %xmm1
	movl	$4, %eax
	xorps	%xmm2, %xmm2
	jmp	.Lunix_path_BB86_14
.Lunix_path_BB86_10:
	movb	$1, %al
	jmp	.Lunix_path_BB86_16
.Lunix_path_BB86_11:
	movaps	.Lunix_path_CPI86_0(%rip), %xmm0
	movaps	%xmm0, 32(%rsp)
	movaps	%xmm0, 16(%rsp)
	movaps	%xmm0, (%rsp)
	movaps	.Lunix_path_CPI86_1(%rip), %xmm2
	movaps	.Lunix_path_CPI86_2(%rip), %xmm0
	movss	.Lunix_path_CPI86_6(%rip), %xmm1
	xorl	%eax, %eax
	jmp	.Lunix_path_BB86_14
.Lunix_path_BB86_13:
	leaq	48(%rsp), %rdi
	movl	%eax, %esi
	callq	std_io.io.error.Error.from_raw_os_error
	movsd	48(%rsp), %xmm1
	movl	52(%rsp), %eax
	movups	56(%rsp), %xmm0
	movups	72(%rsp), %xmm2
	movups	88(%rsp), %xmm3
	movaps	%xmm3, (%rsp)
	movups	104(%rsp), %xmm3
	movaps	%xmm3, 16(%rsp)
	movups	120(%rsp), %xmm3
	movaps	%xmm3, 32(%rsp)
.Lunix_path_BB86_14:
	movq	$1, 1040(%rbx)
	movss	%xmm1, 1048(%rbx)
	movl	%eax, 1052(%rbx)
	movups	%xmm0, 1056(%rbx)
	movups	%xmm2, 1072(%rbx)
	movaps	(%rsp), %xmm0
	movaps	16(%rsp), %xmm1
	movaps	32(%rsp), %xmm2
	movups	%xmm0, 1088(%rbx)
	movups	%xmm1, 1104(%rbx)
	movups	%xmm2, 1120(%rbx)
.Lunix_path_BB86_15:
	xorl	%eax, %eax
.Lunix_path_BB86_16:
	addq	$136, %rsp
	popq	%rbx
	popq	%r12
	popq	%r13
	popq	%r14
	popq	%r15
	popq	%rbp
	retq
.Lunix_path_func_end86:
	.size	std_io.io.buffer.Buffer.flush, .Lunix_path_func_end86-std_io.io.buffer.Buffer.flush
	.section	.rodata.cst16,"aM",@progbits,16
	.p2align	4, 0x0
.Lunix_path_CPI87_0:
	.byte	117
	.byte	112
	.byte	97
	.byte	116
	.byte	104
	.byte	58
	.byte	32
	.byte	111
	.byte	117
	.byte	116
	.byte	32
	.byte	111
	.byte	102
	.byte	32
	.byte	109
	.byte	101
	.section	.text.main,"ax",@progbits
	.globl	program_main
	.p2align	4
	.type	program_main,@function
program_main:
	pushq	%rbp
	pushq	%r15
	pushq	%r14
	pushq	%r13
	pushq	%r12
	pushq	%rbx
	subq	$3072, %rsp
	movq	$0, (%rsp)
	subq	$3072, %rsp
	movq	$0, (%rsp)
	subq	$2232, %rsp
	movl	$1, %r14d
	movl	$1, %esi
	movl	$13, %edi
	callq	__sysv_signal@PLT
	movq	%rsp, %r15
	movq	%r15, 8(%rsp)
	xorps	%xmm0, %xmm0
	movups	%xmm0, 16(%rsp)
	leaq	160(%rsp), %rax
.Lunix_path_BB87_1:
	movq	%r15, 152(%rsp)
	movups	%xmm0, (%rax)
	xorl	%edi, %edi
	xorl	%ebx, %ebx
	.p2align	4
.Lunix_path_BB87_2:
	movl	$256, %r12d
	movl	%ebx, %ecx
	shlq	%cl, %r12
	movq	%r12, %rdx
	subq	%rdi, %rdx
	jbe	.Lunix_path_BB87_3
	movq	168(%rsp), %r13
	movq	%r13, %rax
	subq	%rdi, %rax
	cmpq	%rax, %rdx
	ja	.Lunix_path_BB87_7
	leaq	(%rdi,%rdx), %r12
	movq	152(%rsp), %r15
	cmpq	%r12, %rdi
	jae	.Lunix_path_BB87_11
.Lunix_path_BB87_10:
	addq	%r15, %rdi
	xorl	%esi, %esi
	callq	memset@PLT
.Lunix_path_BB87_11:
	movq	%r12, 160(%rsp)
	movq	%r13, 168(%rsp)
	jmp	.Lunix_path_BB87_12
	.p2align	4
.Lunix_path_BB87_3:
	jae	.Lunix_path_BB87_4
	movq	%r12, 160(%rsp)
	jmp	.Lunix_path_BB87_12
	.p2align	4
.Lunix_path_BB87_4:
	movq	160(%rsp), %r12
.Lunix_path_BB87_12:
	movq	%r14, %rdi
	movq	%r15, %rsi
	movq	%r12, %rdx
	callq	rattle_arg@PLT
	movq	%rax, %r13
	movl	$22, %eax
	cmpq	$-1, %r13
	je	.Lunix_path_BB87_14
	movl	$36, %eax
.Lunix_path_BB87_14:
	xorl	%edi, %edi
	testq	%r13, %r13
	cmovsl	%eax, %edi
	callq	rattle_set_errno@PLT
	callq	rattle_errno@PLT
	cmpl	$36, %eax
	jne	.Lunix_path_BB87_15
	incq	%rbx
	movq	%r12, %rdi
	cmpq	$32, %rbx
	jne	.Lunix_path_BB87_2
	jmp	.Lunix_path_BB87_25
.Lunix_path_BB87_7:
	leaq	152(%rsp), %rdi
	movq	%rdx, %r15
	movq	%rdx, %rsi
	callq	std_alloc.vec.Vec.grow_amortized.482225946d19deb9.
	testb	%al, %al
	je	.Lunix_path_BB87_25
	movq	160(%rsp), %rdi
	movq	168(%rsp), %r13
	movq	%r15, %rdx
	leaq	(%rdi,%rdx), %r12
	movq	152(%rsp), %r15
	cmpq	%r12, %rdi
	jb	.Lunix_path_BB87_10
	jmp	.Lunix_path_BB87_11
	.p2align	4
.Lunix_path_BB87_15:
	testl	%eax, %eax
	xorps	%xmm0, %xmm0
	jne	.Lunix_path_BB87_32
	cmpq	%r12, %r13
	movq	%r12, %rax
	cmovbq	%r13, %rax
	xorl	%ebp, %ebp
	testq	%r13, %r13
	cmovgq	%rax, %rbp
	cmpq	%rbp, %r12
	ja	.Lunix_path_BB87_18
	movq	160(%rsp), %rbp
.Lunix_path_BB87_18:
	movq	152(%rsp), %r15
	movq	168(%rsp), %rbx
	movq	16(%rsp), %r12
	cmpq	%r12, 24(%rsp)
	je	.Lunix_path_BB87_19
.Lunix_path_BB87_21:
	movq	8(%rsp), %rcx
	leaq	(%r12,%r12,2), %rax
	movq	%r15, (%rcx,%rax,8)
	movq	%rbp, 8(%rcx,%rax,8)
	movq	%rbx, 16(%rcx,%rax,8)
	incq	%r12
	movq	%r12, 16(%rsp)
	incq	%r14
	cmpq	$-1, %r14
	movq	%rsp, %r15
	leaq	160(%rsp), %rax
	jne	.Lunix_path_BB87_1
	jmp	.Lunix_path_BB87_22
.Lunix_path_BB87_19:
	leaq	8(%rsp), %rdi
	callq	std_alloc.vec.Vec.grow_amortized.22ca91936d612ecb.
	testb	%al, %al
	je	.Lunix_path_BB87_35
	movq	16(%rsp), %r12
	xorps	%xmm0, %xmm0
	jmp	.Lunix_path_BB87_21
.Lunix_path_BB87_32:
	cmpq	$0, 168(%rsp)
	je	.Lunix_path_BB87_34
	movq	%r15, %rdi
	callq	rattle_dealloc@PLT
.Lunix_path_BB87_34:
	movq	8(%rsp), %rcx
	movq	16(%rsp), %r12
.Lunix_path_BB87_22:
	movq	24(%rsp), %rax
	movq	%rax, 88(%rsp)
	movq	%rsp, %rbx
	movq	%rbx, 152(%rsp)
	xorps	%xmm0, %xmm0
	movups	%xmm0, 160(%rsp)
	testq	%r12, %r12
	movq	%rcx, 96(%rsp)
	je	.Lunix_path_BB87_23
	leaq	8(%rcx), %r13
	movq	%rsp, %rax
	xorl	%r15d, %r15d
	movq	%r12, %rbp
	jmp	.Lunix_path_BB87_45
.Lunix_path_BB87_47:
	movq	152(%rsp), %rax
	movq	160(%rsp), %r15
	.p2align	4
.Lunix_path_BB87_48:
	movq	%r15, %rcx
	shlq	$4, %rcx
	movq	%r14, (%rax,%rcx)
	movq	%rbx, 8(%rax,%rcx)
	incq	%r15
	movq	%r15, 160(%rsp)
	addq	$24, %r13
	decq	%rbp
	je	.Lunix_path_BB87_49
.Lunix_path_BB87_45:
	movq	-8(%r13), %r14
	movq	(%r13), %rbx
	cmpq	%r15, 168(%rsp)
	jne	.Lunix_path_BB87_48
	leaq	152(%rsp), %rdi
	movl	$1, %esi
	callq	std_alloc.vec.Vec.grow_amortized.a60b1bb647f5ec87.
	testb	%al, %al
	jne	.Lunix_path_BB87_47
	cmpq	$0, 168(%rsp)
	je	.Lunix_path_BB87_60
	movq	152(%rsp), %rdi
	callq	rattle_dealloc@PLT
.Lunix_path_BB87_60:
	movb	$1, %r15b
	movb	$4, %bpl
	movq	96(%rsp), %r14
	movq	88(%rsp), %r13
	testq	%r12, %r12
	jne	.Lunix_path_BB87_62
	jmp	.Lunix_path_BB87_66
.Lunix_path_BB87_25:
	cmpq	$0, 168(%rsp)
	je	.Lunix_path_BB87_27
	movq	152(%rsp), %rdi
	callq	rattle_dealloc@PLT
.Lunix_path_BB87_27:
	movq	8(%rsp), %rbx
	movq	16(%rsp), %r15
	movq	24(%rsp), %r14
	testq	%r15, %r15
	je	.Lunix_path_BB87_42
	leaq	16(%rbx), %r12
	jmp	.Lunix_path_BB87_29
	.p2align	4
.Lunix_path_BB87_31:
	addq	$24, %r12
	decq	%r15
	je	.Lunix_path_BB87_42
.Lunix_path_BB87_29:
	cmpq	$0, (%r12)
	je	.Lunix_path_BB87_31
	movq	-16(%r12), %rdi
	callq	rattle_dealloc@PLT
	jmp	.Lunix_path_BB87_31
.Lunix_path_BB87_49:
	movq	152(%rsp), %r14
	cmpq	$0, 168(%rsp)
	sete	7(%rsp)
	movq	%rsp, %rbx
	jmp	.Lunix_path_BB87_50
.Lunix_path_BB87_23:
	movb	$1, 7(%rsp)
	xorl	%r15d, %r15d
	movq	%rbx, %r14
.Lunix_path_BB87_50:
	xorl	%edi, %edi
	xorl	%esi, %esi
	movl	$1, %edx
	callq	lseek@PLT
	movq	%rax, %r13
	leaq	152(%rsp), %rbp
	movl	$8208, %edx
	movq	%rbp, %rdi
	xorl	%esi, %esi
	callq	memset@PLT
	testq	%r13, %r13
	setns	8360(%rsp)
	movq	$0, 8361(%rsp)
	movq	$0, 8368(%rsp)
	movq	%rbx, 8(%rsp)
	movq	$0, 16(%rsp)
	movq	%rbx, 24(%rsp)
	xorps	%xmm0, %xmm0
	movups	%xmm0, 32(%rsp)
	movq	$0, 48(%rsp)
	movq	%rbx, 56(%rsp)
	movups	%xmm0, 64(%rsp)
	movb	$1, 80(%rsp)
	movl	$0, 81(%rsp)
	movl	$0, 84(%rsp)
	leaq	.Lunix_path_static.1(%rip), %rax
	movq	%rax, 104(%rsp)
	movq	$3244, 112(%rsp)
	leaq	.Lunix_path_static.2(%rip), %rax
	movq	%rax, 120(%rsp)
	movq	$345, 128(%rsp)
	leaq	.Lunix_path_static.3(%rip), %rax
	movq	%rax, 136(%rsp)
	movq	$19, 144(%rsp)
	leaq	104(%rsp), %rdx
	leaq	8(%rsp), %r8
	movq	%r14, %rdi
	movq	%r15, %rsi
	movq	%rbp, %rcx
	callq	upath_commands.runs.run_arguments.84bfbe5ddfee3cac.
	movl	%eax, %r15d
	movl	%edx, %ebp
	cmpq	$0, 40(%rsp)
	je	.Lunix_path_BB87_52
	movq	24(%rsp), %rdi
	callq	rattle_dealloc@PLT
.Lunix_path_BB87_52:
	movq	%r14, %rbx
	cmpq	$0, 72(%rsp)
	je	.Lunix_path_BB87_54
	movq	56(%rsp), %rdi
	callq	rattle_dealloc@PLT
.Lunix_path_BB87_54:
	movq	8344(%rsp), %rsi
	subq	8352(%rsp), %rsi
	movq	96(%rsp), %r14
	movq	88(%rsp), %r13
	jne	.Lunix_path_BB87_55
	cmpb	$0, 7(%rsp)
	je	.Lunix_path_BB87_57
.Lunix_path_BB87_61:
	testq	%r12, %r12
	jne	.Lunix_path_BB87_62
	jmp	.Lunix_path_BB87_66
.Lunix_path_BB87_55:
	xorl	%edi, %edi
	movl	$1, %edx
	callq	lseek@PLT
	cmpb	$0, 7(%rsp)
	jne	.Lunix_path_BB87_61
.Lunix_path_BB87_57:
	movq	%rbx, %rdi
	callq	rattle_dealloc@PLT
	testq	%r12, %r12
	je	.Lunix_path_BB87_66
.Lunix_path_BB87_62:
	leaq	16(%r14), %rbx
	jmp	.Lunix_path_BB87_63
	.p2align	4
.Lunix_path_BB87_65:
	addq	$24, %rbx
	decq	%r12
	je	.Lunix_path_BB87_66
.Lunix_path_BB87_63:
	cmpq	$0, (%rbx)
	je	.Lunix_path_BB87_65
	movq	-16(%rbx), %rdi
	callq	rattle_dealloc@PLT
	jmp	.Lunix_path_BB87_65
.Lunix_path_BB87_66:
	testq	%r13, %r13
	je	.Lunix_path_BB87_68
	movq	%r14, %rdi
	callq	rattle_dealloc@PLT
.Lunix_path_BB87_68:
	testb	%r15b, %r15b
	je	.Lunix_path_BB87_71
	cmpb	$4, %bpl
	movb	$3, %bpl
	je	.Lunix_path_BB87_70
	jmp	.Lunix_path_BB87_71
.Lunix_path_BB87_35:
	testq	%rbx, %rbx
	je	.Lunix_path_BB87_37
	movq	%r15, %rdi
	callq	rattle_dealloc@PLT
.Lunix_path_BB87_37:
	movq	8(%rsp), %rbx
	movq	16(%rsp), %r15
	movq	24(%rsp), %r14
	testq	%r15, %r15
	je	.Lunix_path_BB87_42
	leaq	16(%rbx), %r12
	jmp	.Lunix_path_BB87_39
.Lunix_path_BB87_41:
	addq	$24, %r12
	decq	%r15
	je	.Lunix_path_BB87_42
.Lunix_path_BB87_39:
	cmpq	$0, (%r12)
	je	.Lunix_path_BB87_41
	movq	-16(%r12), %rdi
	callq	rattle_dealloc@PLT
	jmp	.Lunix_path_BB87_41
.Lunix_path_BB87_42:
	testq	%r14, %r14
	je	.Lunix_path_BB87_70
	movq	%rbx, %rdi
	callq	rattle_dealloc@PLT
.Lunix_path_BB87_70:
	leaq	177(%rsp), %rdi
	movl	$1007, %edx
	xorl	%esi, %esi
	callq	memset@PLT
	movl	$2, 152(%rsp)
	movaps	.Lunix_path_CPI87_0(%rip), %xmm0
	movups	%xmm0, 156(%rsp)
	movl	$2037542765, 172(%rsp)
	movb	$10, 176(%rsp)
	movq	$21, 1184(%rsp)
	xorps	%xmm0, %xmm0
	movups	%xmm0, 1192(%rsp)
	movups	%xmm0, 1208(%rsp)
	movups	%xmm0, 1224(%rsp)
	movups	%xmm0, 1240(%rsp)
	movups	%xmm0, 1256(%rsp)
	movups	%xmm0, 1272(%rsp)
	leaq	152(%rsp), %rdi
	callq	std_io.io.buffer.Buffer.flush
	movb	$3, %bpl
.Lunix_path_BB87_71:
	movzbl	%bpl, %eax
	addq	$8376, %rsp
	popq	%rbx
	popq	%r12
	popq	%r13
	popq	%r14
	popq	%r15
	popq	%rbp
	retq
.Lunix_path_func_end87:
	.size	program_main, .Lunix_path_func_end87-program_main
	.type	.Lunix_path_static.1,@object
	.section	.rodata..Lstatic.1,"a",@progbits
.Lunix_path_static.1:
	.ascii	"Usage: upath COMMAND [OPTION]... [--] [PATH]...\n\nApplies COMMAND to each PATH and prints the result. Without a PATH, reads paths\nfrom standard input, one per line. Purely lexical: no file is accessed, and no\nsymbolic link is followed.\n\nCommands:\n  canon                the shortest path with the same components\n  resolve              the path with each `..` resolved and without `.`\n  parent               the path without its last component\n  ancestors            the path, its parent, the parent of that, and so on\n  name                 the file name: the last component, if it is a name\n  stem                 the file name without its extension\n  ext                  the part of the file name after its last dot\n  parts                the components, each as a record\n  join ROOT            ROOT joined with the path; if untrusted, use --beneath\n  strip BASE           what follows BASE, for a path that starts with it\n  relative --from=DIR  the relative path from DIR\n  key                  the key in hexadecimal: keys sort as their paths do\n  unkey                the path, in canonical form, of a key in hexadecimal\n  escapes              the paths that leave the directory they are joined to\n  archive              the entries by which an archive could write outside\n  under BASE           the paths at BASE or below it, unchanged\n  sort                 the paths in path order, component by component\n  uniq                 each path once: the first of equal paths, unchanged\n  equal A B            nothing: the exit status says whether A and B are equal\n\nOptions:\n  -z, --null     end the records of input and output with NUL, not newline. A\n                 path with a newline needs it\n  -p, --pair     print the path, a tab (with -z a NUL) and then the result\n  -q, --quiet    print nothing, except for wrong usage\n      --or=TEXT  print TEXT for a path without a result\n  -h, --help     print this help, or just after COMMAND the help on it\n      --version  print the version\n\n`--` ends the options. After COMMAND and its ROOT or BASE, it also means that\nonly the arguments after it are paths: if there are none, nothing is read (but\nby archive). Write it before each variable, whose value may begin with a dash.\n\nExit status:\n  0  every path has a result. escapes: no path escapes. under: a path is\n     printed. archive: every entry is accepted. equal: they are equal. sort -c:\n     the paths are in order\n  1  a path has no result or is refused. escapes, under, sort -c, archive,\n     equal: otherwise\n  2  wrong usage; nothing was read or written\n  3  a read, a write or an allocation failed\n\nExamples:\n  whether GNU tar may extract what it listed (see `upath archive --help`):\n    upath archive --tar-list < list\n  paths in order, each once (./a and a are two):\n    find . -print0 | upath sort -zu\n  the canonical form of each argument:\n    upath canon -z -- \"$@\"\n  a path for a request from outside, or a message:\n    upath join --beneath /srv -- \"$request\"\n  whether a path is at /srv or below it:\n    if upath under -qz /srv -- \"$path\"; then echo yes; fi\n  a link in bin to lib/tool:\n    ln -s -- \"$(upath relative --from=bin lib/tool)\" bin/tool\n\n`upath COMMAND --help` shows the options of a command, and an example.\n"
	.size	.Lunix_path_static.1, 3244
	.type	.Lunix_path_static.2,@object
	.section	.rodata..Lstatic.2,"a",@progbits
.Lunix_path_static.2:
	.ascii	"upath 1.1.0\nProved with rattle-kit-13b logic dac8208d650f15bf and rattle-kit-13f logic\ndac8208d650f15bf.\n\nProved, for readers and writers whose bytes are known: what is written and the\nexit status are those of the definitions in crates/upath_commands/specs. Of\nstandard streams no contract can state the bytes, but which calls of theirs\nfailed.\n"
	.size	.Lunix_path_static.2, 345
	.type	.Lunix_path_static.3,@object
	.section	.data.rel.ro..Lstatic.3,"aw",@progbits
	.p2align	3, 0x0
.Lunix_path_static.3:
	.quad	.Lunix_path_static.3+6954
	.asciz	"\005\000\000\000\000\000\000"
	.quad	.Lunix_path_static.3+6760
	.asciz	"\302\000\000\000\000\000\000"
	.quad	.Lunix_path_static.3+6753
	.asciz	"\007\000\000\000\000\000\000"
	.quad	.Lunix_path_static.3+6522
	.asciz	"\347\000\000\000\000\000\000"
	.quad	.Lunix_path_static.3+6516
	.asciz	"\006\000\000\000\000\000\000"
	.quad	.Lunix_path_static.3+6311
	.asciz	"\315\000\000\000\000\000\000"
	.quad	.Lunix_path_static.3+6302
	.asciz	"\t\000\000\000\000\000\000"
	.quad	.Lunix_path_static.3+6078
	.asciz	"\340\000\000\000\000\000\000"
	.quad	.Lunix_path_static.3+6074
	.asciz	"\004\000\000\000\000\000\000"
	.quad	.Lunix_path_static.3+5865
	.asciz	"\321\000\000\000\000\000\000"
	.quad	.Lunix_path_static.3+5861
	.asciz	"\004\000\000\000\000\000\000"
	.quad	.Lunix_path_static.3+5672
	.asciz	"\275\000\000\000\000\000\000"
	.quad	.Lunix_path_static.3+5669
	.asciz	"\003\000\000\000\000\000\000"
	.quad	.Lunix_path_static.3+5476
	.asciz	"\301\000\000\000\000\000\000"
	.quad	.Lunix_path_static.3+5471
	.asciz	"\005\000\000\000\000\000\000"
	.quad	.Lunix_path_static.3+5228
	.asciz	"\363\000\000\000\000\000\000"
	.quad	.Lunix_path_static.3+5224
	.asciz	"\004\000\000\000\000\000\000"
	.quad	.Lunix_path_static.3+4722
	.asciz	"\366\001\000\000\000\000\000"
	.quad	.Lunix_path_static.3+4717
	.asciz	"\005\000\000\000\000\000\000"
	.quad	.Lunix_path_static.3+4493
	.asciz	"\340\000\000\000\000\000\000"
	.quad	.Lunix_path_static.3+4485
	.asciz	"\b\000\000\000\000\000\000"
	.quad	.Lunix_path_static.3+4194
	.asciz	"#\001\000\000\000\000\000"
	.quad	.Lunix_path_static.3+4191
	.asciz	"\003\000\000\000\000\000\000"
	.quad	.Lunix_path_static.3+3974
	.asciz	"\331\000\000\000\000\000\000"
	.quad	.Lunix_path_static.3+3969
	.asciz	"\005\000\000\000\000\000\000"
	.quad	.Lunix_path_static.3+3748
	.asciz	"\335\000\000\000\000\000\000"
	.quad	.Lunix_path_static.3+3741
	.asciz	"\007\000\000\000\000\000\000"
	.quad	.Lunix_path_static.3+3365
	.asciz	"x\001\000\000\000\000\000"
	.quad	.Lunix_path_static.3+3358
	.asciz	"\007\000\000\000\000\000\000"
	.quad	.Lunix_path_static.3+1910
	.asciz	"\250\005\000\000\000\000\000"
	.quad	.Lunix_path_static.3+1905
	.asciz	"\005\000\000\000\000\000\000"
	.quad	.Lunix_path_static.3+1466
	.asciz	"\267\001\000\000\000\000\000"
	.quad	.Lunix_path_static.3+1462
	.asciz	"\004\000\000\000\000\000\000"
	.quad	.Lunix_path_static.3+1055
	.asciz	"\227\001\000\000\000\000\000"
	.quad	.Lunix_path_static.3+1051
	.asciz	"\004\000\000\000\000\000\000"
	.quad	.Lunix_path_static.3+829
	.asciz	"\336\000\000\000\000\000\000"
	.quad	.Lunix_path_static.3+824
	.asciz	"\005\000\000\000\000\000\000"
	.quad	.Lunix_path_static.3+608
	.asciz	"\330\000\000\000\000\000\000\000Usage: upath equal [OPTION]... [--] A B\n\nPrints nothing: the exit status says whether A and B are equal.\n\nExample:\n  $ upath equal a//b/. a/b && echo equal\n  equal\n\n`upath --help` shows the options of every command.\nequalUsage: upath uniq [OPTION]... [--] [PATH]...\n\nPrints each path once: the first of equal paths, unchanged.\n\nExample:\n  $ printf 'a//b\\nc\\na/b/.\\n' | upath uniq\n  a//b\n  c\n\n`upath --help` shows the options of every command.\nuniqUsage: upath sort [-c] [-u] [-r] [OPTION]... [--] [PATH]...\n\nPrints the paths in path order, component by component.\n\n  -c  print no path; the exit status says whether the paths are in order\n  -u  print each path once: the first of equal paths\n  -r  print from the last to the first\n\nExample:\n  $ printf 'a.b\\na/c\\na//b\\n' | upath sort\n  a//b\n  a/c\n  a.b\n\n`upath --help` shows the options of every command.\nsortUsage: upath under [-v] [--strip] [--by-components] [OPTION]... BASE [--]\n    [PATH]...\n\nPrints the paths at BASE or below it, unchanged.\n\n  -v                   print the other paths: those that are not\n      --strip          print what follows BASE\n      --by-components  compare components, and resolve no `..`\n\nExample:\n  $ printf '/srv/a\\n/srv/../etc\\n' | upath under /srv\n  /srv/a\n\n`upath --help` shows the options of every command.\nunderUsage: upath archive [--tar-list] [--closed] [--reason] [OPTION]...\n\nPrints the entries by which an archive could write outside.\n\n      --tar-list  read what GNU tar prints with LC_ALL=C and -tvP --numeric-\n                  owner --quoting-style=c\n      --closed    print symbolic links that lead out, too\n      --reason    print a reason and a tab before each path: `name`, `kind`,\n                  `below`, `twice`, `target` or `out`\n\nWithout --tar-list, reads three fields for each entry, with a NUL after each\nfield: the kind (d for a directory, f for a file, l for a symbolic link, h for a\nhard link; others are refused), the path, and the target of a link or nothing.\n\nExit status 0: GNU tar may extract these entries into a new, empty directory;\nnothing outside is created, changed or removed. With --closed so may programs\nthat follow a symbolic link which they have just made, such as unzip and 7z, and\nafterwards no path leads out of the directory. 1: an entry was refused, there is\nnone, or the input is malformed: do not extract.\n\nList with the program that extracts, to a file and not to a pipe. If it gets\noptions that change names, such as --strip-components, list with these and, for\nGNU tar, with --show-transformed-names.\n\nExample:\n  $ printf 'l\\0x\\0/etc\\0f\\0x/new\\0\\0' | upath archive\n  upath: x/new: lies below the symbolic link x\n  x/new\n\n`upath --help` shows the options of every command, but archive has no -p and no\n--or.\narchiveUsage: upath escapes [-v] [--reason] [OPTION]... [--] [PATH]...\n\nPrints the paths that leave the directory they are joined to.\n\n  -v            print the other paths: those that stay\n      --reason  print `root`, `escapes` or `nul` and a tab before each path\n\nExample:\n  $ printf 'a/../b\\n../etc\\n' | upath escapes\n  ../etc\n\n`upath --help` shows the options of every command.\nescapesUsage: upath unkey [OPTION]... [--] [PATH]...\n\nPrints the path, in canonical form, of a key in hexadecimal.\n\nExample:\n  $ upath unkey 0001612f6200 61006200\n  /a.b\n  a/b\n\n`upath --help` shows the options of every command.\nunkeyUsage: upath key [OPTION]... [--] [PATH]...\n\nPrints the key in hexadecimal: keys sort as their paths do.\n\nExample:\n  $ upath key /a.b a//b\n  0001612f6200\n  61006200\n\n`upath --help` shows the options of every command.\nkeyUsage: upath relative --from=DIR [OPTION]... [--] [PATH]...\n\nPrints the relative path from DIR.\n\n      --from=DIR  the directory where the relative path starts\n\nExample:\n  $ upath relative --from=/usr/bin /usr/lib/libc.so\n  ../lib/libc.so\n\n`upath --help` shows the options of every command.\nrelativeUsage: upath strip [OPTION]... BASE [--] [PATH]...\n\nPrints what follows BASE, for a path that starts with it.\n\nExample:\n  $ upath strip /usr /usr/lib/libc.so\n  lib/libc.so\n\n`upath --help` shows the options of every command.\nstripUsage: upath join [--beneath | --in-root | --verbatim] [OPTION]... ROOT [--]\n    [PATH]...\n\nPrints ROOT joined with the path; if untrusted, use --beneath.\n\n      --beneath   refuse a path that leaves ROOT, as an entry of an archive may\n      --in-root   treat ROOT as the root directory, for example of a URL's path\n      --verbatim  refuse a leading slash and any `..`: ROOT may contain links\n\nExample:\n  $ upath join --beneath /srv a/../b\n  /srv/b\n\n`upath --help` shows the options of every command.\njoinUsage: upath parts [-b] [OPTION]... [--] [PATH]...\n\nPrints the components, each as a record.\n\n  -b  from the last component to the first\n\nExample:\n  $ upath parts -b /usr/lib\n  lib\n  usr\n  /\n\n`upath --help` shows the options of every command.\npartsUsage: upath ext [OPTION]... [--] [PATH]...\n\nPrints the part of the file name after its last dot.\n\nExample:\n  $ upath ext /srv/x.tar.gz\n  gz\n\n`upath --help` shows the options of every command.\nextUsage: upath stem [OPTION]... [--] [PATH]...\n\nPrints the file name without its extension.\n\nExample:\n  $ upath stem /srv/x.tar.gz\n  x.tar\n\n`upath --help` shows the options of every command.\nstemUsage: upath name [OPTION]... [--] [PATH]...\n\nPrints the file name: the last component, if it is a name.\n\nExample:\n  $ upath name /usr/lib/libc.so\n  libc.so\n\n`upath --help` shows the options of every command.\nnameUsage: upath ancestors [OPTION]... [--] [PATH]...\n\nPrints the path, its parent, the parent of that, and so on.\n\nExample:\n  $ upath ancestors /usr/lib\n  /usr/lib\n  /usr\n  /\n\n`upath --help` shows the options of every command.\nancestorsUsage: upath parent [OPTION]... [--] [PATH]...\n\nPrints the path without its last component.\n\nExample:\n  $ upath parent /usr/lib/libc.so a\n  /usr/lib\n  .\n\n`upath --help` shows the options of every command.\nparentUsage: upath resolve [OPTION]... [--] [PATH]...\n\nPrints the path with each `..` resolved and without `.`.\n\nExample:\n  $ upath resolve /srv/../etc a/../../b a/..\n  /etc\n  ../b\n  .\n\n`upath --help` shows the options of every command.\nresolveUsage: upath canon [OPTION]... [--] [PATH]...\n\nPrints the shortest path with the same components.\n\nExample:\n  $ upath canon .//a/./b/\n  ./a/b\n\n`upath --help` shows the options of every command.\ncanon"
	.size	.Lunix_path_static.3, 6960
	.type	.Lunix_path_static.4,@object
	.section	.rodata.cst4,"aM",@progbits,4
.Lunix_path_static.4:
	.ascii	"help"
	.size	.Lunix_path_static.4, 4
	.type	.Lunix_path_static.5,@object
	.section	.rodata..Lstatic.5,"a",@progbits
.Lunix_path_static.5:
	.size	.Lunix_path_static.5, 0
	.type	.Lunix_path_static.7,@object
	.section	.rodata..Lstatic.7,"a",@progbits
.Lunix_path_static.7:
	.ascii	"--help"
	.size	.Lunix_path_static.7, 6
	.type	.Lunix_path_static.9,@object
	.section	.rodata..Lstatic.9,"a",@progbits
.Lunix_path_static.9:
	.ascii	"--version"
	.size	.Lunix_path_static.9, 9
	.type	.Lunix_path_static.10,@object
	.section	.rodata..Lstatic.10,"a",@progbits
.Lunix_path_static.10:
	.ascii	"canon"
	.size	.Lunix_path_static.10, 5
	.type	.Lunix_path_static.11,@object
	.section	.rodata..Lstatic.11,"a",@progbits
.Lunix_path_static.11:
	.ascii	"resolve"
	.size	.Lunix_path_static.11, 7
	.type	.Lunix_path_static.12,@object
	.section	.rodata..Lstatic.12,"a",@progbits
.Lunix_path_static.12:
	.ascii	"parent"
	.size	.Lunix_path_static.12, 6
	.type	.Lunix_path_static.13,@object
	.section	.rodata..Lstatic.13,"a",@progbits
.Lunix_path_static.13:
	.ascii	"ancestors"
	.size	.Lunix_path_static.13, 9
	.type	.Lunix_path_static.14,@object
	.section	.rodata.cst4,"aM",@progbits,4
.Lunix_path_static.14:
	.ascii	"name"
	.size	.Lunix_path_static.14, 4
	.type	.Lunix_path_static.15,@object
.Lunix_path_static.15:
	.ascii	"stem"
	.size	.Lunix_path_static.15, 4
	.type	.Lunix_path_static.16,@object
	.section	.rodata..Lstatic.16,"a",@progbits
.Lunix_path_static.16:
	.ascii	"ext"
	.size	.Lunix_path_static.16, 3
	.type	.Lunix_path_static.17,@object
	.section	.rodata..Lstatic.17,"a",@progbits
.Lunix_path_static.17:
	.ascii	"parts"
	.size	.Lunix_path_static.17, 5
	.type	.Lunix_path_static.18,@object
	.section	.rodata.cst4,"aM",@progbits,4
.Lunix_path_static.18:
	.ascii	"join"
	.size	.Lunix_path_static.18, 4
	.type	.Lunix_path_static.19,@object
	.section	.rodata..Lstatic.19,"a",@progbits
.Lunix_path_static.19:
	.ascii	"strip"
	.size	.Lunix_path_static.19, 5
	.type	.Lunix_path_static.20,@object
	.section	.rodata.cst8,"aM",@progbits,8
.Lunix_path_static.20:
	.ascii	"relative"
	.size	.Lunix_path_static.20, 8
	.type	.Lunix_path_static.21,@object
	.section	.rodata..Lstatic.21,"a",@progbits
.Lunix_path_static.21:
	.ascii	"key"
	.size	.Lunix_path_static.21, 3
	.type	.Lunix_path_static.22,@object
	.section	.rodata..Lstatic.22,"a",@progbits
.Lunix_path_static.22:
	.ascii	"unkey"
	.size	.Lunix_path_static.22, 5
	.type	.Lunix_path_static.23,@object
	.section	.rodata..Lstatic.23,"a",@progbits
.Lunix_path_static.23:
	.ascii	"escapes"
	.size	.Lunix_path_static.23, 7
	.type	.Lunix_path_static.24,@object
	.section	.rodata..Lstatic.24,"a",@progbits
.Lunix_path_static.24:
	.ascii	"archive"
	.size	.Lunix_path_static.24, 7
	.type	.Lunix_path_static.25,@object
	.section	.rodata..Lstatic.25,"a",@progbits
.Lunix_path_static.25:
	.ascii	"under"
	.size	.Lunix_path_static.25, 5
	.type	.Lunix_path_static.26,@object
	.section	.rodata.cst4,"aM",@progbits,4
.Lunix_path_static.26:
	.ascii	"sort"
	.size	.Lunix_path_static.26, 4
	.type	.Lunix_path_static.27,@object
.Lunix_path_static.27:
	.ascii	"uniq"
	.size	.Lunix_path_static.27, 4
	.type	.Lunix_path_static.28,@object
	.section	.rodata..Lstatic.28,"a",@progbits
.Lunix_path_static.28:
	.ascii	"equal"
	.size	.Lunix_path_static.28, 5
	.type	.Lunix_path_static.30,@object
	.section	.rodata.cst4,"aM",@progbits,4
.Lunix_path_static.30:
	.ascii	"null"
	.size	.Lunix_path_static.30, 4
	.type	.Lunix_path_static.31,@object
.Lunix_path_static.31:
	.ascii	"pair"
	.size	.Lunix_path_static.31, 4
	.type	.Lunix_path_static.32,@object
	.section	.rodata..Lstatic.32,"a",@progbits
.Lunix_path_static.32:
	.ascii	"quiet"
	.size	.Lunix_path_static.32, 5
	.type	.Lunix_path_static.34,@object
	.section	.rodata..Lstatic.34,"a",@progbits
.Lunix_path_static.34:
	.ascii	"beneath"
	.size	.Lunix_path_static.34, 7
	.type	.Lunix_path_static.35,@object
	.section	.rodata..Lstatic.35,"a",@progbits
.Lunix_path_static.35:
	.ascii	"in-root"
	.size	.Lunix_path_static.35, 7
	.type	.Lunix_path_static.36,@object
	.section	.rodata.cst8,"aM",@progbits,8
.Lunix_path_static.36:
	.ascii	"verbatim"
	.size	.Lunix_path_static.36, 8
	.type	.Lunix_path_static.37,@object
	.section	.rodata.cst4,"aM",@progbits,4
.Lunix_path_static.37:
	.ascii	"from"
	.size	.Lunix_path_static.37, 4
	.type	.Lunix_path_static.38,@object
	.section	.rodata..Lstatic.38,"a",@progbits
.Lunix_path_static.38:
	.ascii	"reason"
	.size	.Lunix_path_static.38, 6
	.type	.Lunix_path_static.39,@object
	.section	.rodata..Lstatic.39,"a",@progbits
.Lunix_path_static.39:
	.ascii	"closed"
	.size	.Lunix_path_static.39, 6
	.type	.Lunix_path_static.40,@object
	.section	.rodata.cst8,"aM",@progbits,8
.Lunix_path_static.40:
	.ascii	"tar-list"
	.size	.Lunix_path_static.40, 8
	.type	.Lunix_path_static.41,@object
	.section	.rodata..Lstatic.41,"a",@progbits
.Lunix_path_static.41:
	.ascii	"by-components"
	.size	.Lunix_path_static.41, 13
	.type	.Lunix_path_static.42,@object
	.section	.rodata..Lstatic.42,"a",@progbits
.Lunix_path_static.42:
	.ascii	"--from"
	.size	.Lunix_path_static.42, 6
	.type	.Lunix_path_static.43,@object
	.section	.rodata.cst4,"aM",@progbits,4
.Lunix_path_static.43:
	.ascii	"--or"
	.size	.Lunix_path_static.43, 4
	.type	.Lunix_path_static.48,@object
	.section	.rodata..Lstatic.48,"a",@progbits
.Lunix_path_static.48:
	.ascii	" link to \""
	.size	.Lunix_path_static.48, 10
	.type	.Lunix_path_static.53,@object
	.section	.rodata..Lstatic.53,"a",@progbits
.Lunix_path_static.53:
	.byte	46
	.size	.Lunix_path_static.53, 1
	.type	.Lunix_path_static.54,@object
	.section	.rodata..Lstatic.54,"a",@progbits
.Lunix_path_static.54:
	.ascii	"upath: record "
	.size	.Lunix_path_static.54, 14
	.type	.Lunix_path_static.55,@object
	.section	.rodata..Lstatic.55,"a",@progbits
.Lunix_path_static.55:
	.ascii	" is cut off\n"
	.size	.Lunix_path_static.55, 12
	.type	.Lunix_path_static.56,@object
	.section	.rodata.cst4,"aM",@progbits,4
.Lunix_path_static.56:
	.zero	4,32
	.size	.Lunix_path_static.56, 4
	.type	.Lunix_path_static.58,@object
.Lunix_path_static.58:
	.ascii	"kind"
	.size	.Lunix_path_static.58, 4
	.type	.Lunix_path_static.59,@object
	.section	.rodata..Lstatic.59,"a",@progbits
.Lunix_path_static.59:
	.ascii	"below"
	.size	.Lunix_path_static.59, 5
	.type	.Lunix_path_static.60,@object
	.section	.rodata..Lstatic.60,"a",@progbits
.Lunix_path_static.60:
	.ascii	"twice"
	.size	.Lunix_path_static.60, 5
	.type	.Lunix_path_static.61,@object
	.section	.rodata..Lstatic.61,"a",@progbits
.Lunix_path_static.61:
	.ascii	"target"
	.size	.Lunix_path_static.61, 6
	.type	.Lunix_path_static.62,@object
	.section	.rodata..Lstatic.62,"a",@progbits
.Lunix_path_static.62:
	.ascii	"out"
	.size	.Lunix_path_static.62, 3
	.type	.Lunix_path_static.63,@object
	.section	.rodata..Lstatic.63,"a",@progbits
.Lunix_path_static.63:
	.ascii	"\\x"
	.size	.Lunix_path_static.63, 2
	.type	.Lunix_path_static.64,@object
	.section	.rodata..Lstatic.64,"a",@progbits
.Lunix_path_static.64:
	.ascii	"upath: no entries\n"
	.size	.Lunix_path_static.64, 18
	.type	.Lunix_path_static.65,@object
	.section	.rodata..Lstatic.65,"a",@progbits
.Lunix_path_static.65:
	.ascii	"upath: "
	.size	.Lunix_path_static.65, 7
	.type	.Lunix_path_static.66,@object
	.section	.rodata..Lstatic.66,"a",@progbits
.Lunix_path_static.66:
	.ascii	": "
	.size	.Lunix_path_static.66, 2
	.type	.Lunix_path_static.67,@object
	.section	.rodata..Lstatic.67,"a",@progbits
.Lunix_path_static.67:
	.ascii	"has a root, has a .., or does not end in a name"
	.size	.Lunix_path_static.67, 47
	.type	.Lunix_path_static.68,@object
	.section	.rodata..Lstatic.68,"a",@progbits
.Lunix_path_static.68:
	.ascii	"neither a directory, a file nor a link"
	.size	.Lunix_path_static.68, 38
	.type	.Lunix_path_static.69,@object
	.section	.rodata..Lstatic.69,"a",@progbits
.Lunix_path_static.69:
	.ascii	"lies below "
	.size	.Lunix_path_static.69, 11
	.type	.Lunix_path_static.70,@object
	.section	.rodata..Lstatic.70,"a",@progbits
.Lunix_path_static.70:
	.ascii	"is a symbolic link, and used twice"
	.size	.Lunix_path_static.70, 34
	.type	.Lunix_path_static.71,@object
	.section	.rodata..Lstatic.71,"a",@progbits
.Lunix_path_static.71:
	.ascii	"hard link to the link "
	.size	.Lunix_path_static.71, 22
	.type	.Lunix_path_static.72,@object
	.section	.rodata..Lstatic.72,"a",@progbits
.Lunix_path_static.72:
	.ascii	"leads out, to "
	.size	.Lunix_path_static.72, 14
	.type	.Lunix_path_static.73,@object
	.section	.rodata..Lstatic.73,"a",@progbits
.Lunix_path_static.73:
	.ascii	"this path or the target "
	.size	.Lunix_path_static.73, 24
	.type	.Lunix_path_static.74,@object
	.section	.rodata..Lstatic.74,"a",@progbits
.Lunix_path_static.74:
	.ascii	"the directory "
	.size	.Lunix_path_static.74, 14
	.type	.Lunix_path_static.75,@object
	.section	.rodata..Lstatic.75,"a",@progbits
.Lunix_path_static.75:
	.ascii	"the file "
	.size	.Lunix_path_static.75, 9
	.type	.Lunix_path_static.76,@object
	.section	.rodata..Lstatic.76,"a",@progbits
.Lunix_path_static.76:
	.ascii	"the symbolic link "
	.size	.Lunix_path_static.76, 18
	.type	.Lunix_path_static.77,@object
	.section	.rodata..Lstatic.77,"a",@progbits
.Lunix_path_static.77:
	.ascii	"the hard link "
	.size	.Lunix_path_static.77, 14
	.type	.Lunix_path_static.78,@object
	.section	.rodata..Lstatic.78,"a",@progbits
.Lunix_path_static.78:
	.ascii	"the entry "
	.size	.Lunix_path_static.78, 10
	.type	.Lunix_path_static.79,@object
	.section	.rodata..Lstatic.79,"a",@progbits
.Lunix_path_static.79:
	.ascii	" or its target "
	.size	.Lunix_path_static.79, 15
	.type	.Lunix_path_static.80,@object
	.section	.rodata..Lstatic.80,"a",@progbits
.Lunix_path_static.80:
	.ascii	"upath: line "
	.size	.Lunix_path_static.80, 12
	.type	.Lunix_path_static.81,@object
	.section	.rodata..Lstatic.81,"a",@progbits
.Lunix_path_static.81:
	.ascii	": not a line of tar's listing\n"
	.size	.Lunix_path_static.81, 30
	.type	.Lunix_path_static.82,@object
	.section	.rodata..Lstatic.82,"a",@progbits
.Lunix_path_static.82:
	.byte	47
	.size	.Lunix_path_static.82, 1
	.type	.Lunix_path_static.83,@object
	.section	.rodata..Lstatic.83,"a",@progbits
.Lunix_path_static.83:
	.zero	2,46
	.size	.Lunix_path_static.83, 2
	.type	.Lunix_path_static.86,@object
	.section	.rodata..Lstatic.86,"a",@progbits
.Lunix_path_static.86:
	.ascii	"./"
	.size	.Lunix_path_static.86, 2
	.type	.Lunix_path_static.87,@object
	.section	.rodata.cst4,"aM",@progbits,4
.Lunix_path_static.87:
	.ascii	"root"
	.size	.Lunix_path_static.87, 4
	.type	.Lunix_path_static.88,@object
	.section	.rodata..Lstatic.88,"a",@progbits
.Lunix_path_static.88:
	.ascii	"nul"
	.size	.Lunix_path_static.88, 3
	.type	.Lunix_path_static.90,@object
	.section	.rodata..Lstatic.90,"a",@progbits
.Lunix_path_static.90:
	.ascii	"no parent"
	.size	.Lunix_path_static.90, 9
	.type	.Lunix_path_static.91,@object
	.section	.rodata..Lstatic.91,"a",@progbits
.Lunix_path_static.91:
	.ascii	"no file name"
	.size	.Lunix_path_static.91, 12
	.type	.Lunix_path_static.92,@object
	.section	.rodata..Lstatic.92,"a",@progbits
.Lunix_path_static.92:
	.ascii	"no extension"
	.size	.Lunix_path_static.92, 12
	.type	.Lunix_path_static.93,@object
	.section	.rodata..Lstatic.93,"a",@progbits
.Lunix_path_static.93:
	.ascii	"doesn't start with the base"
	.size	.Lunix_path_static.93, 27
	.type	.Lunix_path_static.94,@object
	.section	.rodata..Lstatic.94,"a",@progbits
.Lunix_path_static.94:
	.ascii	"is out of order"
	.size	.Lunix_path_static.94, 15
	.type	.Lunix_path_static.95,@object
	.section	.rodata..Lstatic.95,"a",@progbits
.Lunix_path_static.95:
	.ascii	"has a root"
	.size	.Lunix_path_static.95, 10
	.type	.Lunix_path_static.96,@object
	.section	.rodata..Lstatic.96,"a",@progbits
.Lunix_path_static.96:
	.ascii	"leaves its root"
	.size	.Lunix_path_static.96, 15
	.type	.Lunix_path_static.97,@object
	.section	.rodata.cst8,"aM",@progbits,8
.Lunix_path_static.97:
	.ascii	"has a .."
	.size	.Lunix_path_static.97, 8
	.type	.Lunix_path_static.98,@object
	.section	.rodata..Lstatic.98,"a",@progbits
.Lunix_path_static.98:
	.ascii	"has a NUL byte"
	.size	.Lunix_path_static.98, 14
	.type	.Lunix_path_static.99,@object
	.section	.rodata..Lstatic.99,"a",@progbits
.Lunix_path_static.99:
	.ascii	", as only one of them has a leading slash"
	.size	.Lunix_path_static.99, 41
	.type	.Lunix_path_static.100,@object
	.section	.rodata..Lstatic.100,"a",@progbits
.Lunix_path_static.100:
	.ascii	", which has a .. that the path lacks"
	.size	.Lunix_path_static.100, 36
	.type	.Lunix_path_static.101,@object
	.section	.rodata..Lstatic.101,"a",@progbits
.Lunix_path_static.101:
	.ascii	"has a newline, which needs -z"
	.size	.Lunix_path_static.101, 29
	.type	.Lunix_path_static.102,@object
	.section	.rodata..Lstatic.102,"a",@progbits
.Lunix_path_static.102:
	.ascii	"not a key"
	.size	.Lunix_path_static.102, 9
	.type	.Lunix_path_static.103,@object
	.section	.rodata..Lstatic.103,"a",@progbits
.Lunix_path_static.103:
	.ascii	"no relative path from "
	.size	.Lunix_path_static.103, 22
	.type	.Lunix_path_static.104,@object
	.section	.rodata..Lstatic.104,"a",@progbits
.Lunix_path_static.104:
	.ascii	"upath: read error\n"
	.size	.Lunix_path_static.104, 18
	.type	.Lunix_path_static.105,@object
	.section	.rodata..Lstatic.105,"a",@progbits
.Lunix_path_static.105:
	.ascii	"upath: write error\n"
	.size	.Lunix_path_static.105, 19
	.type	.Lunix_path_static.106,@object
	.section	.rodata..Lstatic.106,"a",@progbits
.Lunix_path_static.106:
	.ascii	"upath: out of memory\n"
	.size	.Lunix_path_static.106, 21
	.type	.Lunix_path_static.107,@object
	.section	.rodata..Lstatic.107,"a",@progbits
.Lunix_path_static.107:
	.ascii	"\nTry 'upath --help'.\n"
	.size	.Lunix_path_static.107, 21
	.type	.Lunix_path_static.108,@object
	.section	.rodata..Lstatic.108,"a",@progbits
.Lunix_path_static.108:
	.ascii	"COMMAND is missing"
	.size	.Lunix_path_static.108, 18
	.type	.Lunix_path_static.109,@object
	.section	.rodata..Lstatic.109,"a",@progbits
.Lunix_path_static.109:
	.ascii	"unknown command"
	.size	.Lunix_path_static.109, 15
	.type	.Lunix_path_static.110,@object
	.section	.rodata..Lstatic.110,"a",@progbits
.Lunix_path_static.110:
	.ascii	"unknown option"
	.size	.Lunix_path_static.110, 14
	.type	.Lunix_path_static.111,@object
	.section	.rodata..Lstatic.111,"a",@progbits
.Lunix_path_static.111:
	.ascii	"must be the first argument or follow the command"
	.size	.Lunix_path_static.111, 48
	.type	.Lunix_path_static.112,@object
	.section	.rodata..Lstatic.112,"a",@progbits
.Lunix_path_static.112:
	.ascii	"its value is missing"
	.size	.Lunix_path_static.112, 20
	.type	.Lunix_path_static.113,@object
	.section	.rodata..Lstatic.113,"a",@progbits
.Lunix_path_static.113:
	.ascii	"takes no value"
	.size	.Lunix_path_static.113, 14
	.type	.Lunix_path_static.114,@object
	.section	.rodata..Lstatic.114,"a",@progbits
.Lunix_path_static.114:
	.ascii	"--beneath, --in-root and --verbatim exclude one another"
	.size	.Lunix_path_static.114, 55
	.type	.Lunix_path_static.115,@object
	.section	.rodata..Lstatic.115,"a",@progbits
.Lunix_path_static.115:
	.ascii	"ROOT is missing"
	.size	.Lunix_path_static.115, 15
	.type	.Lunix_path_static.116,@object
	.section	.rodata..Lstatic.116,"a",@progbits
.Lunix_path_static.116:
	.ascii	"BASE is missing"
	.size	.Lunix_path_static.116, 15
	.type	.Lunix_path_static.117,@object
	.section	.rodata..Lstatic.117,"a",@progbits
.Lunix_path_static.117:
	.ascii	"--from=DIR is missing"
	.size	.Lunix_path_static.117, 21
	.type	.Lunix_path_static.118,@object
	.section	.rodata..Lstatic.118,"a",@progbits
.Lunix_path_static.118:
	.ascii	"A or B is missing"
	.size	.Lunix_path_static.118, 17
	.type	.Lunix_path_static.119,@object
	.section	.rodata..Lstatic.119,"a",@progbits
.Lunix_path_static.119:
	.ascii	"one operand too many"
	.size	.Lunix_path_static.119, 20
	.type	.Lunix_path_static.120,@object
	.section	.rodata..Lstatic.120,"a",@progbits
.Lunix_path_static.120:
	.ascii	"comes before --"
	.size	.Lunix_path_static.120, 15
	.type	.Lunix_path_switch.table.upath_commands.archive.decide_records,@object
	.section	.rodata.Lswitch.table.upath_commands.archive.decide_records,"a",@progbits
	.p2align	3, 0x0
.Lunix_path_switch.table.upath_commands.archive.decide_records:
	.quad	4
	.quad	4
	.quad	5
	.quad	5
	.quad	6
	.quad	3
	.size	.Lunix_path_switch.table.upath_commands.archive.decide_records, 48
	.type	.Lunix_path_switch.table.upath_commands.archive.decide_records.370,@object
	.section	.data.rel.ro.Lswitch.table.upath_commands.archive.decide_records.370,"aw",@progbits
	.p2align	3, 0x0
.Lunix_path_switch.table.upath_commands.archive.decide_records.370:
	.quad	.Lunix_path_static.14
	.quad	.Lunix_path_static.58
	.quad	.Lunix_path_static.59
	.quad	.Lunix_path_static.60
	.quad	.Lunix_path_static.61
	.quad	.Lunix_path_static.62
	.size	.Lunix_path_switch.table.upath_commands.archive.decide_records.370, 48
	.type	.Lunix_path_switch.table.path_archive.records.record_at,@object
	.section	.rodata.Lswitch.table.path_archive.records.record_at,"a",@progbits
	.p2align	3, 0x0
.Lunix_path_switch.table.path_archive.records.record_at:
	.quad	5
	.quad	4
	.quad	3
	.quad	4
	.quad	1
	.quad	4
	.quad	4
	.quad	4
	.quad	0
	.size	.Lunix_path_switch.table.path_archive.records.record_at, 72
	.section	.note.GNU-stack,"",@progbits
