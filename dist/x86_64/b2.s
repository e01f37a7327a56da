/* Made by tools/dist.sh from the proved crate b2. dist/README.md says how. */
	vj_function	b2..main.start_1_x86
	pushq	%rbp
	pushq	%r15
	pushq	%r14
	pushq	%r13
	pushq	%r12
	pushq	%rbx
	subq	$984, %rsp
	movb	$0, 7(%rsp)
	movb	$0, 6(%rsp)
	movb	$0, 5(%rsp)
	movq	%rsp, %rax
	movq	%rax, 8(%rsp)
	movq	%rax, 472(%rsp)
	pxor	%xmm0, %xmm0
	movdqu	%xmm0, 480(%rsp)
	xorl	%ebx, %ebx
	movq	$0, 16(%rsp)
1:
	movl	$256, %r12d
	movl	$64, %r14d
	jmp	3f
	.p2align	4
2:
	movq	%r12, %rax
	addq	%r12, %rax
	movq	$-1, %r12
	cmovaeq	%rax, %r12
	decl	%r14d
	je	52f
3:
	movq	%rsp, %r15
	movq	%r15, 40(%rsp)
	pxor	%xmm0, %xmm0
	leaq	48(%rsp), %rax
	movdqu	%xmm0, (%rax)
	testq	%r12, %r12
	jne	6f
	xorl	%r13d, %r13d
4:
	movq	16(%rsp), %rdi
	movq	%r15, %rsi
	movq	%r13, %rdx
	vj_call	rattle_arg
	movq	%rax, %rbp
	movl	$22, %eax
	cmpq	$-1, %rbp
	je	5f
	movl	$36, %eax
5:
	xorl	%edi, %edi
	testq	%rbp, %rbp
	cmovsl	%eax, %edi
	vj_call	rattle_set_errno
	vj_call	rattle_errno
	cmpl	$36, %eax
	jne	7f
	cmpq	$0, 56(%rsp)
	je	2b
	movq	%r15, %rdi
	vj_call	rattle_dealloc
	jmp	2b
6:
	leaq	40(%rsp), %rdi
	movq	%r12, %rsi
	callq	std_alloc..vec..Vec..grow_amortized..3378b08034dc46b4_1_x86
	testb	%al, %al
	je	51f
	movq	40(%rsp), %r15
	movq	48(%rsp), %rdi
	leaq	(%rdi,%r12), %r13
	cmpq	%r13, %rdi
	jae	4b
	addq	%r15, %rdi
	xorl	%esi, %esi
	movq	%r12, %rdx
	vj_c_call	memset
	jmp	4b
	.p2align	4
7:
	testl	%eax, %eax
	jne	26f
	cmpq	%r13, %rbp
	cmovbq	%rbp, %r13
	xorl	%r12d, %r12d
	testq	%rbp, %rbp
	cmovgq	%r13, %r12
	movq	56(%rsp), %r13
	testq	%r12, %r12
	je	23f
	movabsq	$-9187201950435737472, %rbp
	leaq	-8(%r12), %r14
	xorl	%ecx, %ecx
	jmp	11f
8:
	movl	$1, %edx
9:
	addq	%rcx, %rdx
10:
	movq	%rdx, %rcx
	cmpq	%r12, %rdx
	jae	23f
11:
	movzbl	(%r15,%rcx), %eax
	movq	%r12, %rsi
	subq	%rcx, %rsi
	cmpq	$2, %rsi
	jb	12f
	testb	%al, %al
	js	12f
	cmpb	$0, 1(%r15,%rcx)
	js	8b
	movq	%r15, 40(%rsp)
	movq	%r12, 48(%rsp)
	cmpq	$7, %rsi
	ja	13f
	cmpb	$0, (%r15,%rcx)
	js	15f
	leaq	1(%rcx), %rdx
	cmpq	%r12, %rdx
	je	23f
	cmpb	$0, (%r15,%rdx)
	js	10b
	leaq	2(%rcx), %rdx
	cmpq	%r12, %rdx
	je	23f
	cmpb	$0, (%r15,%rdx)
	js	10b
	leaq	3(%rcx), %rdx
	cmpq	%r12, %rdx
	je	23f
	cmpb	$0, (%r15,%rdx)
	js	10b
	leaq	4(%rcx), %rdx
	cmpq	%r12, %rdx
	je	23f
	cmpb	$0, (%r15,%rdx)
	js	10b
	leaq	5(%rcx), %rdx
	cmpq	%r12, %rdx
	je	23f
	cmpb	$0, (%r15,%rdx)
	js	10b
	addq	$6, %rcx
	cmpq	%r12, %rcx
	je	23f
	cmpb	$0, (%r15,%rcx)
	movq	%rcx, %rdx
	js	10b
	jmp	23f
	.p2align	4
12:
	movl	$1, %edx
	testb	%al, %al
	jns	9b
	cmpb	$-62, %al
	jb	47f
	movzbl	%al, %eax
	cmpb	$-33, %al
	ja	14f
	cmpq	$2, %rsi
	jb	47f
	movl	$2, %edx
	cmpb	$-65, 1(%r15,%rcx)
	jle	9b
	jmp	47f
13:
	movq	(%r15,%rcx), %rax
	andq	%rbp, %rax
	je	16f
	rep		bsfq	%rax, %rax
	shrl	$3, %eax
	addq	%rcx, %rax
	addq	$8, %rcx
	movq	%rax, %rdx
	cmpq	%rcx, %rax
	jb	10b
	movq	%r12, %rcx
	subq	%rax, %rcx
	cmpq	$32, %rcx
	jae	17f
	jmp	18f
14:
	cmpb	$-17, %al
	ja	22f
	cmpq	$3, %rsi
	jb	47f
	movzbl	1(%r15,%rcx), %edx
	cmpb	$-65, %dl
	jg	47f
	cmpb	$-65, 2(%r15,%rcx)
	jg	47f
	shll	$6, %eax
	leal	(%rax,%rdx), %esi
	addl	$-14464, %esi
	cmpl	$32, %esi
	jb	47f
	xorl	%eax, %eax
	cmpl	$896, %esi
	setae	%dil
	movl	$3, %edx
	cmpl	$864, %esi
	jb	9b
	movb	%dil, %al
	leaq	(%rax,%rax,2), %rdx
	testq	%rdx, %rdx
	jne	9b
	jmp	47f
15:
	movq	%rcx, %rdx
	jmp	10b
16:
	addq	$8, %rcx
	movq	%rcx, %rax
	movq	%r12, %rcx
	subq	%rax, %rcx
	cmpq	$32, %rcx
	jb	18f
	.p2align	4
17:
	movdqu	(%r15,%rax), %xmm0
	movdqu	16(%r15,%rax), %xmm1
	por	%xmm0, %xmm1
	pshufd	$238, %xmm1, %xmm0
	por	%xmm1, %xmm0
	movq	%xmm0, %rcx
	testq	%rbp, %rcx
	jne	18f
	addq	$32, %rax
	leaq	40(%rsp), %rdi
	movq	%rax, %rsi
	movq	%r12, %rdx
	callq	core..slice..words..skip_far..52f9edcae2f82f51_1_x86
	movq	%r12, %rcx
	subq	%rax, %rcx
	cmpq	$31, %rcx
	ja	17b
18:
	movq	%r12, %rcx
	subq	%rax, %rcx
	jmp	20f
	.p2align	4
19:
	rep		bsfq	%rdx, %rdx
	shrl	$3, %edx
	addq	%rax, %rdx
	addq	$8, %rax
	addq	$-8, %rcx
	cmpq	%rax, %rdx
	jb	10b
20:
	cmpq	$9, %rcx
	jb	21f
	movq	(%r15,%rax), %rdx
	andq	%rbp, %rdx
	jne	19b
	leaq	8(%rax), %rdx
	addq	$8, %rax
	addq	$-8, %rcx
	cmpq	%rax, %rdx
	jae	20b
	jmp	10b
21:
	movq	(%r15,%r14), %rax
	andq	%rbp, %rax
	je	23f
	rep		bsfq	%rax, %rdx
	shrl	$3, %edx
	addq	%r14, %rdx
	jmp	10b
22:
	cmpq	$4, %rsi
	jb	47f
	movzbl	1(%r15,%rcx), %edx
	cmpb	$-65, %dl
	jg	47f
	cmpb	$-65, 2(%r15,%rcx)
	jg	47f
	cmpb	$-65, 3(%r15,%rcx)
	jg	47f
	shll	$6, %eax
	leal	(%rax,%rdx), %esi
	addl	$-15488, %esi
	xorl	%edx, %edx
	cmpl	$272, %esi
	setb	%al
	cmpl	$16, %esi
	jb	47f
	movb	%al, %dl
	shll	$2, %edx
	testq	%rdx, %rdx
	jne	9b
	jmp	47f
	.p2align	4
23:
	cmpq	%rbx, 488(%rsp)
	je	25f
24:
	leaq	(%rbx,%rbx,2), %rax
	movq	8(%rsp), %rcx
	movq	%r15, (%rcx,%rax,8)
	movq	%r12, 8(%rcx,%rax,8)
	movq	%r13, 16(%rcx,%rax,8)
	incq	%rbx
	movq	%rbx, 480(%rsp)
	movq	16(%rsp), %rcx
	incq	%rcx
	movq	%rcx, 16(%rsp)
	cmpq	$-1, %rcx
	jne	1b
	jmp	27f
25:
	leaq	472(%rsp), %rdi
	movl	$1, %esi
	callq	std_alloc..vec..Vec..grow_amortized..ab4c418570ac94f8_1_x86
	testb	%al, %al
	je	63f
	movq	472(%rsp), %rax
	movq	%rax, 8(%rsp)
	movq	480(%rsp), %rbx
	jmp	24b
26:
	cmpq	$0, 56(%rsp)
	je	27f
	movq	%r15, %rdi
	vj_call	rattle_dealloc
27:
	movq	472(%rsp), %r10
	movq	488(%rsp), %rax
	movq	%rax, 32(%rsp)
	movq	%rsp, %r14
	movq	%r14, 40(%rsp)
	leaq	24(%r10), %r11
	xorl	%ecx, %ecx
	xorl	%r15d, %r15d
	xorl	%r13d, %r13d
	xorl	%eax, %eax
	movq	%r11, 8(%rsp)
28:
	testq	%r15, %r15
	movq	%rcx, %rbp
	cmoveq	%r15, %rbp
	testb	$1, %al
	movq	%rcx, 16(%rsp)
	je	29f
	movq	%rbx, %rsi
	movq	%r13, %r12
	testq	%rsi, %rsi
	jne	31f
	jmp	41f
	.p2align	4
29:
	testq	%rbx, %rbx
	je	41f
	leaq	1(%r13), %r12
	decq	%rbx
	shlq	$3, %r13
	leaq	(,%r13,2), %rax
	addq	%r13, %rax
	cmpq	$0, 16(%r10,%rax)
	je	30f
	movq	(%r10,%rax), %rdi
	movq	%r10, %r13
	vj_call	rattle_dealloc
	movq	8(%rsp), %r11
	movq	%r13, %r10
30:
	movq	%rbx, %rsi
	testq	%rsi, %rsi
	je	41f
31:
	leaq	-1(%rsi), %rbx
	leaq	(,%r12,8), %rax
	leaq	(%rax,%rax,2), %r9
	leaq	(%r10,%r9), %rax
	cmpq	%rbp, %r15
	jne	32f
	incq	%r12
	movq	%r12, %r13
	jmp	35f
	.p2align	4
32:
	leaq	(%r15,%r15,2), %rdx
	movdqu	(%rax), %xmm0
	movq	16(%rax), %rax
	movq	%rax, 16(%r14,%rdx,8)
	movdqu	%xmm0, (%r14,%rdx,8)
	leaq	1(%r15), %rcx
	testq	%rbx, %rbx
	je	62f
	leaq	(%r14,%rdx,8), %rdx
	addq	$24, %rdx
	subq	%rbp, %rcx
	addq	%r11, %r9
	leaq	-1(%rsi), %r8
	xorl	%edi, %edi
	movq	%r9, %rax
	.p2align	4
33:
	movq	%rcx, %r9
	addq	%rdi, %r9
	je	34f
	movdqu	(%rax), %xmm0
	movq	16(%rax), %r9
	movq	%r9, 16(%rdx)
	movdqu	%xmm0, (%rdx)
	addq	$24, %rdx
	incq	%rdi
	addq	$24, %rax
	cmpq	%rdi, %r8
	jne	33b
	jmp	40f
	.p2align	4
34:
	leaq	(%r12,%rdi), %r13
	addq	$2, %r13
	subq	%rdi, %rsi
	leaq	-1(%rsi), %rcx
	addq	$-2, %rsi
	movq	%rsi, %rbx
	movq	%rcx, %rsi
35:
	movq	(%rax), %r15
	movq	16(%rax), %r14
	movdqu	8(%rax), %xmm0
	movq	%rbp, 48(%rsp)
	movq	16(%rsp), %rcx
	movq	%rcx, 56(%rsp)
	movq	%rcx, %rax
	subq	%rbp, %rax
	cmpq	%rax, %rsi
	ja	37f
36:
	movq	40(%rsp), %r14
	leaq	(,%rbp,2), %rax
	addq	%rbp, %rax
	movq	%r15, (%r14,%rax,8)
	movdqu	%xmm0, 8(%r14,%rax,8)
	incq	%rbp
	movq	%rbp, 48(%rsp)
	movb	$1, %al
	movq	%rbp, %r15
	jmp	28b
37:
	movdqa	%xmm0, 16(%rsp)
	movq	%r10, %r12
	leaq	40(%rsp), %rdi
	callq	std_alloc..vec..Vec..grow_amortized..ab4c418570ac94f8_1_x86
	movq	48(%rsp), %rbp
	movq	56(%rsp), %rcx
	movq	%rcx, %rdx
	cmpq	%rbp, %rcx
	setne	%cl
	orb	%al, %cl
	je	39f
	movq	%r12, %r10
	movq	%rdx, %rcx
38:
	movq	8(%rsp), %r11
	movdqa	16(%rsp), %xmm0
	jmp	36b
39:
	leaq	40(%rsp), %rdi
	movl	$1, %esi
	callq	std_alloc..vec..Vec..grow_amortized..ab4c418570ac94f8_1_x86
	testb	%al, %al
	je	67f
	movq	48(%rsp), %rbp
	movq	56(%rsp), %rcx
	movq	%r12, %r10
	jmp	38b
40:
	addq	%rdi, %r15
	incq	%r15
41:
	cmpq	$0, 32(%rsp)
	je	43f
42:
	movq	%r10, %rdi
	vj_call	rattle_dealloc
43:
	leaq	7(%rsp), %rdx
	leaq	6(%rsp), %rcx
	leaq	5(%rsp), %r8
	movq	%r14, %rdi
	movq	%r15, %rsi
	callq	b2_commands..dispatch..run_with_notes..8eebea7bb24a6da2_1_x86
	movl	%eax, %ebx
	testq	%r15, %r15
	je	46f
	leaq	16(%r14), %r12
	jmp	45f
	.p2align	4
44:
	addq	$24, %r12
	decq	%r15
	je	46f
45:
	cmpq	$0, (%r12)
	je	44b
	movq	-16(%r12), %rdi
	vj_call	rattle_dealloc
	jmp	44b
46:
	cmpq	$0, 16(%rsp)
	je	61f
	movq	%r14, %rdi
	vj_call	rattle_dealloc
	jmp	61f
47:
	testq	%r13, %r13
	je	48f
	movq	%r15, %rdi
	vj_call	rattle_dealloc
48:
	movq	488(%rsp), %r14
	testq	%rbx, %rbx
	je	55f
	movq	8(%rsp), %rax
	leaq	16(%rax), %r15
	jmp	50f
	.p2align	4
49:
	addq	$24, %r15
	decq	%rbx
	je	55f
50:
	cmpq	$0, (%r15)
	je	49b
	movq	-16(%r15), %rdi
	vj_call	rattle_dealloc
	jmp	49b
51:
	cmpq	$0, 56(%rsp)
	je	52f
	movq	40(%rsp), %rdi
	vj_call	rattle_dealloc
52:
	movq	488(%rsp), %r14
	testq	%rbx, %rbx
	je	55f
	movq	8(%rsp), %rax
	leaq	16(%rax), %r15
	jmp	54f
	.p2align	4
53:
	addq	$24, %r15
	decq	%rbx
	je	55f
54:
	cmpq	$0, (%r15)
	je	53b
	movq	-16(%r15), %rdi
	vj_call	rattle_dealloc
	jmp	53b
55:
	testq	%r14, %r14
	je	57f
	movq	8(%rsp), %rdi
56:
	vj_call	rattle_dealloc
57:
	leaq	481(%rsp), %rdi
	xorl	%r14d, %r14d
	movl	$411, %edx
	xorl	%esi, %esi
	vj_c_call	memset
	movabsq	$8245929725128634222, %rax
	movq	%rax, 472(%rsp)
	movb	$121, 480(%rsp)
	movl	$540684898, 40(%rsp)
	leaq	44(%rsp), %rdi
	leaq	472(%rsp), %rsi
	movl	$420, %edx
	vj_c_call	memcpy
	movb	$10, 53(%rsp)
	movq	$14, 464(%rsp)
	.p2align	4
58:
	leaq	(%rsp,%r14), %rsi
	addq	$40, %rsi
	movl	$14, %ebx
	subq	%r14, %rbx
	movl	$1, %edi
	movq	%rbx, %rdx
	vj_system_call	write, b2_write
	testq	%rax, %rax
	js	59f
	cmpq	%rbx, %rax
	cmovbq	%rax, %rbx
	testq	%rbx, %rbx
	je	60f
	addq	%rbx, %r14
	cmpq	$14, %r14
	jb	58b
	jmp	60f
59:
	leaq	896(%rsp), %rdi
	callq	std_io..io..error..last_error_1_x86
60:
	movb	$1, %bl
61:
	movzbl	%bl, %eax
	addq	$984, %rsp
	popq	%rbx
	popq	%r12
	popq	%r13
	popq	%r14
	popq	%r15
	popq	%rbp
	retq
62:
	movq	%rcx, %r15
	cmpq	$0, 32(%rsp)
	jne	42b
	jmp	43b
63:
	testq	%r13, %r13
	je	64f
	movq	%r15, %rdi
	vj_call	rattle_dealloc
64:
	movq	472(%rsp), %rbx
	movq	480(%rsp), %r15
	movq	488(%rsp), %r14
	testq	%r15, %r15
	je	75f
	leaq	16(%rbx), %r12
	jmp	66f
65:
	addq	$24, %r12
	decq	%r15
	je	75f
66:
	cmpq	$0, (%r12)
	je	65b
	movq	-16(%r12), %rdi
	vj_call	rattle_dealloc
	jmp	65b
67:
	testq	%r14, %r14
	je	68f
	movq	%r15, %rdi
	vj_call	rattle_dealloc
68:
	testq	%rbx, %rbx
	je	71f
	leaq	(%rbx,%r13), %rax
	cmpq	%rax, %r13
	jae	71f
	leaq	(,%r13,2), %rax
	addq	%r13, %rax
	leaq	(%r12,%rax,8), %r14
	addq	$16, %r14
	jmp	70f
69:
	addq	$24, %r14
	decq	%rbx
	je	71f
70:
	cmpq	$0, (%r14)
	je	69b
	movq	-16(%r14), %rdi
	vj_call	rattle_dealloc
	jmp	69b
71:
	cmpq	$0, 32(%rsp)
	je	72f
	movq	%r12, %rdi
	vj_call	rattle_dealloc
72:
	movq	40(%rsp), %rbx
	movq	48(%rsp), %r15
	movq	56(%rsp), %r14
	testq	%r15, %r15
	je	75f
	leaq	16(%rbx), %r12
	jmp	74f
73:
	addq	$24, %r12
	decq	%r15
	je	75f
74:
	cmpq	$0, (%r12)
	je	73b
	movq	-16(%r12), %rdi
	vj_call	rattle_dealloc
	jmp	73b
75:
	testq	%r14, %r14
	je	57b
	movq	%rbx, %rdi
	jmp	56b
	vj_end	b2..main.start_1_x86

	vj_cold	std_alloc..vec..Vec..grow_amortized..3378b08034dc46b4_1_x86
	movq	%rsi, %rax
	movq	8(%rdi), %rsi
	addq	%rsi, %rax
	jae	1f
	xorl	%eax, %eax
	retq
1:
	pushq	%r14
	pushq	%rbx
	pushq	%rax
	cmpq	$9, %rax
	movl	$8, %ebx
	cmovaeq	%rax, %rbx
	movq	16(%rdi), %rcx
	movq	%rcx, %rdx
	shrq	$62, %rdx
	leaq	(%rcx,%rcx), %rax
	cmpq	%rax, %rbx
	cmovaq	%rbx, %rax
	testq	%rdx, %rdx
	cmoveq	%rax, %rbx
	testq	%rbx, %rbx
	js	4f
	testq	%rcx, %rcx
	je	3f
	movq	%rdi, %r14
	movq	(%rdi), %rdi
	movl	$1, %ecx
	movq	%rbx, %rdx
	vj_call	rattle_realloc
	testb	$1, %al
	je	4f
2:
	movq	%rdx, (%r14)
	movq	%rbx, 16(%r14)
	movb	$1, %al
	addq	$8, %rsp
	popq	%rbx
	popq	%r14
	retq
3:
	movq	%rdi, %r14
	movl	$1, %esi
	movq	%rax, %rdi
	vj_call	rattle_alloc
	testb	$1, %al
	jne	2b
4:
	xorl	%eax, %eax
	addq	$8, %rsp
	popq	%rbx
	popq	%r14
	retq
	vj_end	std_alloc..vec..Vec..grow_amortized..3378b08034dc46b4_1_x86

	vj_constants	16
	.p2align	4, 0x0
.L1_x86_CPI2_0:
	.zero	16,128
	vj_function	core..slice..words..skip_far..52f9edcae2f82f51_1_x86
	movq	%rsi, %rax
	subq	%rsi, %rdx
	cmpq	$64, %rdx
	jb	2f
	movq	(%rdi), %rcx
	.p2align	4
1:
	movdqu	(%rcx,%rax), %xmm0
	movdqu	16(%rcx,%rax), %xmm1
	movdqu	32(%rcx,%rax), %xmm2
	por	%xmm0, %xmm2
	movdqu	48(%rcx,%rax), %xmm0
	por	%xmm1, %xmm0
	por	%xmm2, %xmm0
	ptest	.L1_x86_CPI2_0(%rip), %xmm0
	jne	2f
	addq	$64, %rax
	addq	$-64, %rdx
	cmpq	$63, %rdx
	ja	1b
2:
	retq
	vj_end	core..slice..words..skip_far..52f9edcae2f82f51_1_x86

	vj_cold	std_alloc..vec..Vec..grow_amortized..ab4c418570ac94f8_1_x86
	movq	8(%rdi), %rax
	addq	%rax, %rsi
	jae	1f
	xorl	%eax, %eax
	retq
1:
	pushq	%r14
	pushq	%rbx
	pushq	%rax
	movq	16(%rdi), %rcx
	cmpq	$5, %rsi
	movl	$4, %ebx
	cmovaeq	%rsi, %rbx
	movq	%rcx, %rsi
	shrq	$62, %rsi
	leaq	(%rcx,%rcx), %rdx
	cmpq	%rdx, %rbx
	cmovaq	%rbx, %rdx
	testq	%rsi, %rsi
	cmoveq	%rdx, %rbx
	movabsq	$384307168202282325, %rsi
	cmpq	%rsi, %rbx
	ja	4f
	testq	%rcx, %rcx
	je	3f
	movq	%rdi, %r14
	movq	(%rdi), %rdi
	shlq	$3, %rax
	leaq	(%rax,%rax,2), %rsi
	leaq	(,%rbx,8), %rax
	leaq	(%rax,%rax,2), %rdx
	movl	$8, %ecx
	vj_call	rattle_realloc
	testb	$1, %al
	je	4f
2:
	movq	%rdx, (%r14)
	movq	%rbx, 16(%r14)
	movb	$1, %al
	addq	$8, %rsp
	popq	%rbx
	popq	%r14
	retq
3:
	movq	%rdi, %r14
	shlq	$3, %rdx
	leaq	(%rdx,%rdx,2), %rdi
	movl	$8, %esi
	vj_call	rattle_alloc
	testb	$1, %al
	jne	2b
4:
	xorl	%eax, %eax
	addq	$8, %rsp
	popq	%rbx
	popq	%r14
	retq
	vj_end	std_alloc..vec..Vec..grow_amortized..ab4c418570ac94f8_1_x86

	vj_constants	16
	.p2align	4, 0x0
.L1_x86_CPI4_0:
	.byte	0
	.byte	0
	.byte	0
	.byte	0
	.byte	0
	.byte	0
	.byte	0
	.byte	0
	.byte	16
	.byte	0
	.byte	0
	.byte	0
	.byte	0
	.byte	0
	.byte	0
	.byte	0
.L1_x86_CPI4_1:
	.quad	1
	.quad	32
.L1_x86_CPI4_2:
	.quad	1
	.quad	16
.L1_x86_CPI4_3:
	.byte	0
	.byte	0
	.byte	0
	.byte	0
	.byte	0
	.byte	0
	.byte	0
	.byte	0
	.byte	64
	.byte	0
	.byte	0
	.byte	0
	.byte	0
	.byte	0
	.byte	0
	.byte	0
.L1_x86_CPI4_4:
	.byte	0
	.byte	0
	.byte	0
	.byte	0
	.byte	0
	.byte	0
	.byte	0
	.byte	0
	.byte	32
	.byte	0
	.byte	0
	.byte	0
	.byte	0
	.byte	0
	.byte	0
	.byte	0
.L1_x86_CPI4_5:
	.quad	1
	.quad	1
.L1_x86_CPI4_6:
	.quad	1
	.quad	0
.L1_x86_CPI4_7:
	.byte	0
	.byte	0
	.byte	0
	.byte	0
	.byte	0
	.byte	0
	.byte	0
	.byte	0
	.byte	1
	.byte	0
	.byte	0
	.byte	0
	.byte	0
	.byte	0
	.byte	0
	.byte	0
.L1_x86_CPI4_8:
	.quad	7640891576956012808
	.quad	-4942790177534073029
.L1_x86_CPI4_9:
	.quad	4354685564936845355
	.quad	-6534734903238641935
.L1_x86_CPI4_10:
	.long	128
	.long	128
	.long	64
	.long	0
.L1_x86_CPI4_11:
	.short	32
	.short	257
	.short	0
	.short	0
	.zero	2
	.zero	2
	.zero	2
	.zero	2
.L1_x86_CPI4_12:
	.long	1779033703
	.long	3144134277
	.long	1013904242
	.long	2773480762
.L1_x86_CPI4_13:
	.long	1359893119
	.long	2600822924
	.long	528734635
	.long	1541459225
.L1_x86_CPI4_14:
	.quad	5840696475078001361
	.quad	-7276294671716946913
.L1_x86_CPI4_15:
	.quad	2270897969802886507
	.quad	6620516959819538809
.L1_x86_CPI4_16:
	.short	64
	.short	257
	.short	0
	.short	0
	.zero	2
	.zero	2
	.zero	2
	.zero	2
.L1_x86_CPI4_17:
	.short	64
	.short	512
	.zero	2
	.zero	2
	.zero	2
	.zero	2
	.zero	2
	.zero	2
.L1_x86_CPI4_18:
	.quad	4354685564936828971
	.quad	-6534734903238641935
.L1_x86_CPI4_20:
	.short	64
	.short	512
	.short	0
	.short	0
	.short	0
	.short	0
	.short	0
	.short	0
.L1_x86_CPI4_21:
	.short	32
	.short	257
	.short	0
	.short	0
	.short	0
	.short	0
	.short	0
	.short	0
.L1_x86_CPI4_22:
	.short	64
	.short	257
	.short	0
	.short	0
	.short	0
	.short	0
	.short	0
	.short	0
	vj_constants	4
	.p2align	2, 0x0
.L1_x86_CPI4_19:
	.long	1
	vj_function	b2_commands..dispatch..run_with_notes..8eebea7bb24a6da2_1_x86
	pushq	%rbp
	movq	%rsp, %rbp
	pushq	%r15
	pushq	%r14
	pushq	%r13
	pushq	%r12
	pushq	%rbx
	andq	$-32, %rsp
	subq	$3040, %rsp
	movq	$0, (%rsp)
	subq	$3072, %rsp
	movq	$0, (%rsp)
	subq	$3072, %rsp
	movq	$0, (%rsp)
	subq	$3072, %rsp
	movq	$0, (%rsp)
	subq	$3072, %rsp
	movq	$0, (%rsp)
	subq	$1952, %rsp
	movq	%r8, %r13
	pxor	%xmm0, %xmm0
	movdqa	%xmm0, 4256(%rsp)
	movdqa	%xmm0, 4240(%rsp)
	movdqa	%xmm0, 4224(%rsp)
	movdqa	%xmm0, 4208(%rsp)
	movdqa	%xmm0, 4192(%rsp)
	movdqa	%xmm0, 4176(%rsp)
	movdqa	%xmm0, 4720(%rsp)
	movdqa	%xmm0, 4736(%rsp)
	movdqa	%xmm0, 4752(%rsp)
	movdqa	%xmm0, 4768(%rsp)
	movdqa	%xmm0, 4784(%rsp)
	movdqa	%xmm0, 4800(%rsp)
	movq	$0, 4816(%rsp)
	movdqa	%xmm0, 4832(%rsp)
	movq	$0, 4848(%rsp)
	movl	$0, 40(%rsp)
	movl	$0, 43(%rsp)
	movdqa	%xmm0, 4960(%rsp)
	movdqa	%xmm0, 4976(%rsp)
	movdqa	%xmm0, 4992(%rsp)
	movdqa	%xmm0, 5008(%rsp)
	movdqa	%xmm0, 5024(%rsp)
	movdqa	%xmm0, 5040(%rsp)
	movdqa	%xmm0, 5056(%rsp)
	movdqa	%xmm0, 5072(%rsp)
	movq	$0, 5088(%rsp)
	movdqa	%xmm0, 1920(%rsp)
	movdqa	%xmm0, 1936(%rsp)
	movdqa	%xmm0, 1952(%rsp)
	movdqa	%xmm0, 1968(%rsp)
	movdqa	%xmm0, 1984(%rsp)
	movdqa	%xmm0, 2000(%rsp)
	movdqa	%xmm0, 2016(%rsp)
	movdqa	%xmm0, 2832(%rsp)
	movdqa	%xmm0, 2816(%rsp)
	movdqa	%xmm0, 2800(%rsp)
	movdqa	%xmm0, 2784(%rsp)
	movdqa	%xmm0, 2768(%rsp)
	movdqa	%xmm0, 1120(%rsp)
	movdqa	%xmm0, 1136(%rsp)
	movdqa	%xmm0, 1152(%rsp)
	movdqa	%xmm0, 1168(%rsp)
	movdqa	%xmm0, 1184(%rsp)
	movdqa	%xmm0, 1200(%rsp)
	movdqa	%xmm0, 1216(%rsp)
	movdqa	%xmm0, 288(%rsp)
	movdqa	%xmm0, 304(%rsp)
	movdqa	%xmm0, 320(%rsp)
	movdqa	%xmm0, 336(%rsp)
	movdqa	%xmm0, 352(%rsp)
	movdqa	%xmm0, 13152(%rsp)
	movdqa	%xmm0, 13168(%rsp)
	movdqa	%xmm0, 13184(%rsp)
	movdqa	%xmm0, 13200(%rsp)
	movdqa	%xmm0, 13216(%rsp)
	movdqa	%xmm0, 13232(%rsp)
	movdqa	%xmm0, 13248(%rsp)
	movdqa	%xmm0, 13264(%rsp)
	movdqa	%xmm0, 3568(%rsp)
	movdqa	%xmm0, 3552(%rsp)
	movdqa	%xmm0, 3536(%rsp)
	movdqa	%xmm0, 3520(%rsp)
	movdqa	%xmm0, 3504(%rsp)
	movdqa	%xmm0, 3488(%rsp)
	movdqa	%xmm0, 3472(%rsp)
	movdqa	%xmm0, 3456(%rsp)
	movdqa	%xmm0, 3184(%rsp)
	movdqa	%xmm0, 3168(%rsp)
	movdqa	%xmm0, 3152(%rsp)
	movdqa	%xmm0, 3136(%rsp)
	movdqa	%xmm0, 3120(%rsp)
	movdqa	%xmm0, 3104(%rsp)
	movq	$0, 3200(%rsp)
	testq	%rsi, %rsi
	je	2f
	movq	%rsi, %r11
	movq	%rdi, %r14
	movq	%r13, 24(%rsp)
	movq	%rdx, 112(%rsp)
	movq	%rcx, 8(%rsp)
	leaq	-1(%rsi), %r15
	movq	(%rdi), %r12
	movq	8(%rdi), %r13
	leaq	-3(%r13), %rax
	cmpq	$4, %rax
	ja	9f
	leaq	24(%r14), %rdx
	leaq	.L1_x86_JTI4_0(%rip), %rsi
	movslq	(%rsi,%rax,4), %rax
	addq	%rsi, %rax
	notrack	jmpq	*%rax
1:
	movzbl	(%r12), %eax
	movzbl	1(%r12), %esi
	shll	$16, %eax
	shll	$8, %esi
	orl	%eax, %esi
	movzbl	2(%r12), %eax
	orq	%rsi, %rax
	cmpq	$7566701, %rax
	je	15f
	cmpl	$7892838, %eax
	jne	9f
	movdqa	%xmm0, 704(%rsp)
	movdqa	%xmm0, 688(%rsp)
	movdqa	%xmm0, 672(%rsp)
	movdqa	%xmm0, 656(%rsp)
	movdqa	%xmm0, 640(%rsp)
	movdqa	%xmm0, 624(%rsp)
	movq	$0, 720(%rsp)
	testq	%r15, %r15
	je	30f
	cmpq	$2, 32(%r14)
	movq	24(%rsp), %r13
	jne	56f
	movq	(%rdx), %rax
	movzbl	(%rax), %edx
	movzbl	1(%rax), %esi
	shll	$16, %edx
	movl	%esi, %eax
	shll	$8, %eax
	orl	%edx, %eax
	orl	%esi, %eax
	cmpl	$7889506, %eax
	je	51f
	cmpl	$7893875, %eax
	jne	56f
	movl	$1, %r12d
	movl	$65534, %eax
	jmp	52f
2:
	movl	$0, 43(%rsp)
	movl	$0, 40(%rsp)
	xorl	%edi, %edi
	xorl	%esi, %esi
	movq	%rcx, %rdx
	callq	b2_commands..fault..Fault..report..c1844c1740294036_1_x86
	movb	$1, %r15b
	cmpb	$2, %al
	jne	221f
	movl	$25, %ebx
	leaq	.L1_x86_static.47(%rip), %r15
	jmp	215f
3:
	movl	(%r12), %eax
	movl	3(%r12), %ecx
	shlq	$32, %rcx
	orq	%rax, %rcx
	movabsq	$8319104461657368951, %rax
	cmpq	%rax, %rcx
	jne	9f
	pxor	%xmm5, %xmm5
	testq	%r15, %r15
	je	148f
	movq	24(%r14), %rax
	movq	32(%r14), %rcx
	cmpq	$4, %rcx
	je	32f
	cmpq	$2, %rcx
	movq	24(%rsp), %r13
	jne	73f
	movzbl	(%rax), %ecx
	movzbl	1(%rax), %edx
	shll	$16, %ecx
	movl	%edx, %eax
	shll	$8, %eax
	orl	%ecx, %eax
	orl	%edx, %eax
	cmpq	$7548975, %rax
	jg	49f
	cmpl	$6434864, %eax
	je	62f
	cmpl	$6436920, %eax
	movq	8(%rsp), %rdx
	jne	149f
	movaps	.L1_x86_CPI4_7(%rip), %xmm1
	movl	$1, %edi
	xorl	%ebx, %ebx
	jmp	70f
4:
	movl	(%r12), %eax
	movl	1(%r12), %esi
	shlq	$32, %rsi
	orq	%rax, %rsi
	movb	$2, %bl
	movabsq	$8318260062529614963, %rax
	cmpq	%rax, %rsi
	jne	9f
	jmp	8f
5:
	movl	(%r12), %esi
	movl	2(%r12), %eax
	shlq	$32, %rax
	orq	%rsi, %rax
	movabsq	$8315182447979488619, %rsi
	cmpq	%rsi, %rax
	jg	7f
	movabsq	$7311146985198871908, %rdx
	cmpq	%rdx, %rax
	je	20f
	movabsq	$8100961328785009965, %rcx
	cmpq	%rcx, %rax
	je	10f
	jmp	9f
6:
	movl	(%r12), %ecx
	movq	%rcx, %rax
	shlq	$32, %rax
	orq	%rcx, %rax
	movabsq	$8390047168184938354, %rcx
	cmpq	%rcx, %rax
	je	18f
	movabsq	$7306371814721417844, %rcx
	cmpq	%rcx, %rax
	jne	9f
	leaq	1920(%rsp), %rdi
	xorl	%esi, %esi
	movq	%r15, %rcx
	callq	b2_commands..tree_arguments..Root..from_words_1_x86
	movq	1928(%rsp), %r11
	movq	1936(%rsp), %r9
	cmpb	$0, 1920(%rsp)
	jne	19f
	movq	%r11, 48(%rsp)
	movq	%r11, 4976(%rsp)
	movq	%r9, 4984(%rsp)
	movups	1944(%rsp), %xmm0
	movups	1960(%rsp), %xmm1
	movdqu	1976(%rsp), %xmm2
	movups	1992(%rsp), %xmm3
	movaps	%xmm0, 4992(%rsp)
	movaps	%xmm1, 5008(%rsp)
	movdqa	%xmm2, 5024(%rsp)
	movaps	%xmm3, 5040(%rsp)
	movdqu	2008(%rsp), %xmm0
	movdqa	%xmm0, 5056(%rsp)
	movq	2024(%rsp), %rax
	movq	%rax, 5072(%rsp)
	pxor	%xmm7, %xmm7
	movdqu	%xmm7, 5080(%rsp)
	movq	4992(%rsp), %r10
	movq	5000(%rsp), %r11
	movzbl	5008(%rsp), %eax
	movq	%rax, 128(%rsp)
	movzbl	5015(%rsp), %eax
	shll	$16, %eax
	movzwl	5013(%rsp), %ecx
	orl	%eax, %ecx
	shlq	$32, %rcx
	movl	5009(%rsp), %eax
	orq	%rcx, %rax
	movq	%rax, 96(%rsp)
	movdqu	5016(%rsp), %xmm5
	movzbl	5032(%rsp), %eax
	movq	%rax, 80(%rsp)
	movzbl	5039(%rsp), %eax
	shll	$16, %eax
	movzwl	5037(%rsp), %ecx
	orl	%eax, %ecx
	shlq	$32, %rcx
	movl	5033(%rsp), %eax
	orq	%rcx, %rax
	movq	%rax, 144(%rsp)
	movq	5040(%rsp), %r15
	movdqu	5048(%rsp), %xmm6
	movzbl	5064(%rsp), %r14d
	movl	2017(%rsp), %eax
	movl	2020(%rsp), %ecx
	movl	%ecx, 43(%rsp)
	movl	%eax, 40(%rsp)
	movb	$2, %al
	xorl	%ebx, %ebx
	movq	5072(%rsp), %rdx
	movzbl	%al, %eax
	leaq	.L1_x86_JTI4_2(%rip), %rcx
	movslq	(%rcx,%rax,4), %rax
	addq	%rcx, %rax
	xorl	%r13d, %r13d
	xorl	%r12d, %r12d
	notrack	jmpq	*%rax
7:
	movabsq	$8315182447979488620, %rsi
	cmpq	%rsi, %rax
	je	24f
	movb	$1, %bl
	movabsq	$8390322045907526515, %rsi
	cmpq	%rsi, %rax
	jne	9f
8:
	testq	%r15, %r15
	jne	16f
	jmp	17f
9:
	leaq	.L1_x86_static.13(%rip), %rdx
	movl	$2, %ecx
	movq	%r12, %rdi
	movq	%r13, %rsi
	callq	core..lang..str_eq_1_x86
	testb	%al, %al
	jne	10f
	leaq	.L1_x86_static.14(%rip), %rdx
	movl	$4, %ecx
	movq	%r12, %rdi
	movq	%r13, %rsi
	callq	core..lang..str_eq_1_x86
	testb	%al, %al
	je	14f
10:
	movb	$6, 3456(%rsp)
	leaq	4960(%rsp), %rdi
	leaq	3456(%rsp), %rsi
11:
	movq	%r15, %rdx
	callq	b2_commands..task..Task..require_no_more_words_1_x86
	movzbl	4960(%rsp), %eax
	movq	4968(%rsp), %xmm0
	movq	4976(%rsp), %rsi
	movq	4984(%rsp), %r9
	movq	4992(%rsp), %r10
	movq	5000(%rsp), %r11
	movzbl	5008(%rsp), %r8d
	movzbl	5015(%rsp), %ecx
	shll	$16, %ecx
	movzwl	5013(%rsp), %edx
	orl	%ecx, %edx
	shlq	$32, %rdx
	movl	5009(%rsp), %edi
	orq	%rdx, %rdi
	movdqu	5016(%rsp), %xmm5
	movzbl	5032(%rsp), %r13d
	movzbl	5039(%rsp), %ecx
	shll	$16, %ecx
	movzwl	5037(%rsp), %edx
	orl	%ecx, %edx
	shlq	$32, %rdx
	movl	5033(%rsp), %ebx
	orq	%rdx, %rbx
	movq	5040(%rsp), %r15
	movdqu	5048(%rsp), %xmm6
	movzbl	5064(%rsp), %r12d
	movl	5065(%rsp), %ecx
	movl	%ecx, 40(%rsp)
	movl	5068(%rsp), %ecx
	movl	%ecx, 43(%rsp)
	movq	5072(%rsp), %rdx
	movdqu	5080(%rsp), %xmm7
	movd	%xmm0, %ecx
	testb	%al, %al
	je	12f
	movzbl	%cl, %edi
	movq	8(%rsp), %rdx
	callq	b2_commands..fault..Fault..report..c1844c1740294036_1_x86
	movb	$1, %r15b
	cmpb	$2, %al
	movq	24(%rsp), %r13
	je	204f
	jmp	221f
12:
	movq	%r12, %r14
	movq	%rsi, 48(%rsp)
	movq	%rbx, 144(%rsp)
	movq	%r8, 128(%rsp)
	movq	%rdi, 96(%rsp)
	movq	%r13, 80(%rsp)
	pextrb	$1, %xmm0, %ebx
	pextrb	$2, %xmm0, %r13d
	pextrb	$3, %xmm0, %r12d
	movzbl	%cl, %eax
	leaq	.L1_x86_JTI4_2(%rip), %rcx
	movslq	(%rcx,%rax,4), %rax
	addq	%rcx, %rax
	notrack	jmpq	*%rax
13:
	movdqa	%xmm5, 176(%rsp)
	movdqa	%xmm6, 160(%rsp)
	movq	%r12, 24(%rsp)
	movq	48(%rsp), %rax
	movq	%rax, 4176(%rsp)
	movq	%r9, 4184(%rsp)
	movq	%r10, 4192(%rsp)
	movq	%r11, 4200(%rsp)
	movq	128(%rsp), %rax
	movb	%al, 4208(%rsp)
	movq	96(%rsp), %rcx
	movl	%ecx, 4209(%rsp)
	movq	%rcx, %rax
	shrq	$48, %rax
	movb	%al, 4215(%rsp)
	shrq	$32, %rcx
	movw	%cx, 4213(%rsp)
	movdqu	%xmm5, 4216(%rsp)
	movq	80(%rsp), %rax
	movb	%al, 4232(%rsp)
	movq	144(%rsp), %rcx
	movl	%ecx, 4233(%rsp)
	movq	%rcx, %rax
	shrq	$48, %rax
	movb	%al, 4239(%rsp)
	shrq	$32, %rcx
	movw	%cx, 4237(%rsp)
	movq	%r15, 4240(%rsp)
	movdqu	%xmm6, 4248(%rsp)
	movb	%r14b, 4264(%rsp)
	movl	40(%rsp), %eax
	movl	43(%rsp), %ecx
	movl	%eax, 4265(%rsp)
	movl	%ecx, 4268(%rsp)
	leaq	3456(%rsp), %rdi
	movl	$360, %edx
	xorl	%esi, %esi
	movq	%r10, %r14
	movq	%r9, %r12
	vj_c_call	memset
	leaq	1920(%rsp), %rdi
	movl	$360, %edx
	xorl	%esi, %esi
	vj_c_call	memset
	cmpb	$2, %bl
	je	36f
	movzbl	%bl, %eax
	movzbl	%r13b, %esi
	movzbl	24(%rsp), %r14d
	cmpl	$1, %eax
	jne	37f
	leaq	1920(%rsp), %rdi
	leaq	4176(%rsp), %rcx
	movl	%r14d, %edx
	callq	b2_commands..digests..start_1_x86
	movzbl	1928(%rsp), %ebx
	movq	1936(%rsp), %r12
	cmpb	$0, 1920(%rsp)
	jne	38f
	movb	%bl, 96(%rsp)
	movzbl	%bl, %eax
	movq	%rax, 80(%rsp)
	leaq	1944(%rsp), %rbx
	testb	%r13b, %r13b
	je	105f
	xorl	%r14d, %r14d
	cmpb	$0, 24(%rsp)
	setne	%r14b
	shll	$4, %r14d
	addq	$16, %r14
	jmp	106f
14:
	leaq	.L1_x86_static.15(%rip), %rdx
	movl	$9, %ecx
	movq	%r12, %rdi
	movq	%r13, %rsi
	callq	core..lang..str_eq_1_x86
	testb	%al, %al
	je	17f
	movb	$7, 13152(%rsp)
	leaq	4960(%rsp), %rdi
	leaq	13152(%rsp), %rsi
	jmp	11b
15:
	xorl	%ebx, %ebx
	testq	%r15, %r15
	je	17f
16:
	cmpq	$4, 32(%r14)
	movq	24(%rsp), %r13
	jne	29f
	movq	(%rdx), %rax
	movl	(%rax), %edx
	movq	%rdx, %rax
	shlq	$32, %rax
	orq	%rdx, %rax
	movabsq	$3906083722225857138, %rdx
	cmpq	%rdx, %rax
	jle	28f
	movabsq	$3906083722225857139, %rdx
	cmpq	%rdx, %rax
	je	40f
	movabsq	$4049353312878866786, %rdx
	cmpq	%rdx, %rax
	je	41f
	movabsq	$4049353385893310835, %rdx
	cmpq	%rdx, %rax
	jne	29f
	movb	$1, %r13b
	xorl	%r12d, %r12d
	jmp	44f
17:
	movl	$0, 43(%rsp)
	movl	$0, 40(%rsp)
	xorl	%r11d, %r11d
	xorl	%r9d, %r9d
	jmp	45f
18:
	leaq	1120(%rsp), %rdi
	movl	$1, %esi
	movq	%r15, %rcx
	callq	b2_commands..tree_arguments..Root..from_words_1_x86
	movq	1128(%rsp), %r11
	movq	1136(%rsp), %r9
	cmpb	$0, 1120(%rsp)
	je	31f
19:
	leaq	4984(%rsp), %rax
	movq	%r9, 4976(%rsp)
	pxor	%xmm0, %xmm0
	movdqu	%xmm0, 96(%rax)
	movdqu	%xmm0, 80(%rax)
	movdqu	%xmm0, 64(%rax)
	movdqu	%xmm0, 48(%rax)
	movdqu	%xmm0, 32(%rax)
	movdqu	%xmm0, 16(%rax)
	movdqu	%xmm0, (%rax)
	movl	$0, 43(%rsp)
	movl	$0, 40(%rsp)
	jmp	45f
20:
	testq	%r15, %r15
	je	33f
	movq	32(%r14), %rax
	leaq	-1(%rax), %rdx
	cmpq	$9, %rdx
	movq	24(%rsp), %r13
	ja	23f
	movq	24(%r14), %rdx
	cmpq	$2, %rax
	jb	21f
	cmpb	$48, (%rdx)
	je	23f
21:
	xorl	%r8d, %r8d
	xorl	%esi, %esi
22:
	movzbl	(%rdx,%rsi), %edi
	addb	$-48, %dil
	cmpb	$9, %dil
	ja	23f
	leaq	(%r8,%r8,4), %r8
	movzbl	%dil, %edi
	leaq	(%rdi,%r8,2), %r8
	incq	%rsi
	cmpq	%rsi, %rax
	jne	22b
	movabsq	$-4294967295, %rax
	leaq	(%r8,%rax), %rdx
	incq	%rax
	cmpq	%rax, %rdx
	setb	%al
	cmpq	$1, %r15
	sete	%dl
	orb	%al, %dl
	jne	23f
	addq	$-3, %r11
	je	185f
	cmpq	$3, 80(%r14)
	jne	23f
	movq	72(%r14), %rax
	movzbl	(%rax), %edx
	movzbl	1(%rax), %esi
	shll	$16, %edx
	shll	$8, %esi
	orl	%edx, %esi
	movzbl	2(%rax), %eax
	orl	%esi, %eax
	xorl	%ecx, %ecx
	cmpl	$7496055, %eax
	sete	%cl
	cmpq	%rcx, %r11
	je	186f
23:
	xorl	%r11d, %r11d
	movq	8(%rsp), %rdx
	jmp	35f
24:
	movdqa	%xmm0, 704(%rsp)
	movdqa	%xmm0, 688(%rsp)
	movdqa	%xmm0, 672(%rsp)
	movdqa	%xmm0, 656(%rsp)
	movdqa	%xmm0, 640(%rsp)
	movdqa	%xmm0, 624(%rsp)
	movq	$0, 720(%rsp)
	testq	%r15, %r15
	je	198f
	movq	32(%r14), %rax
	leaq	-1(%rax), %rdx
	cmpq	$9, %rdx
	movq	24(%rsp), %r13
	ja	27f
	movq	24(%r14), %rdx
	cmpq	$2, %rax
	jb	25f
	cmpb	$48, (%rdx)
	je	27f
25:
	xorl	%esi, %esi
	xorl	%edi, %edi
26:
	movzbl	(%rdx,%rdi), %r8d
	addb	$-48, %r8b
	cmpb	$9, %r8b
	ja	27f
	leaq	(%rsi,%rsi,4), %rsi
	movzbl	%r8b, %r8d
	leaq	(%r8,%rsi,2), %rsi
	incq	%rdi
	cmpq	%rdi, %rax
	jne	26b
	testq	%rsi, %rsi
	je	27f
	movq	%rsi, %rax
	shrq	$32, %rax
	movabsq	$4294967296, %rcx
	cmpq	%rcx, %rsi
	cmovbq	%rsi, %rcx
	testq	%rax, %rax
	jne	27f
	cmpq	$1, %r15
	jne	194f
27:
	pxor	%xmm0, %xmm0
	movdqa	%xmm0, 2832(%rsp)
	movdqa	%xmm0, 2816(%rsp)
	movdqa	%xmm0, 2800(%rsp)
	movdqa	%xmm0, 2784(%rsp)
	movdqa	%xmm0, 2768(%rsp)
	jmp	57f
28:
	movabsq	$3616730671620371810, %rdx
	cmpq	%rdx, %rax
	je	42f
	movabsq	$3906083649211413090, %rdx
	cmpq	%rdx, %rax
	jne	29f
	movb	$1, %r12b
	jmp	43f
29:
	movl	$0, 43(%rsp)
	movl	$0, 40(%rsp)
	xorl	%r11d, %r11d
	xorl	%r9d, %r9d
	jmp	202f
30:
	movdqa	%xmm0, 352(%rsp)
	movdqa	%xmm0, 336(%rsp)
	movdqa	%xmm0, 320(%rsp)
	movdqa	%xmm0, 304(%rsp)
	movdqa	%xmm0, 288(%rsp)
	jmp	199f
31:
	movq	%r11, 48(%rsp)
	movq	%r11, 4976(%rsp)
	movq	%r9, 4984(%rsp)
	movups	1144(%rsp), %xmm0
	movups	1160(%rsp), %xmm1
	movdqu	1176(%rsp), %xmm2
	movups	1192(%rsp), %xmm3
	movaps	%xmm0, 4992(%rsp)
	movaps	%xmm1, 5008(%rsp)
	movdqa	%xmm2, 5024(%rsp)
	movaps	%xmm3, 5040(%rsp)
	movdqu	1208(%rsp), %xmm0
	movdqa	%xmm0, 5056(%rsp)
	movq	1224(%rsp), %rax
	movq	%rax, 5072(%rsp)
	pxor	%xmm7, %xmm7
	movdqu	%xmm7, 5080(%rsp)
	movq	4992(%rsp), %r10
	movq	5000(%rsp), %r11
	movzbl	5008(%rsp), %eax
	movq	%rax, 128(%rsp)
	movzbl	5015(%rsp), %eax
	shll	$16, %eax
	movzwl	5013(%rsp), %ecx
	orl	%eax, %ecx
	shlq	$32, %rcx
	movl	5009(%rsp), %eax
	orq	%rcx, %rax
	movq	%rax, 96(%rsp)
	movdqu	5016(%rsp), %xmm5
	movzbl	5032(%rsp), %eax
	movq	%rax, 80(%rsp)
	movzbl	5039(%rsp), %eax
	shll	$16, %eax
	movzwl	5037(%rsp), %ecx
	orl	%eax, %ecx
	shlq	$32, %rcx
	movl	5033(%rsp), %eax
	orq	%rcx, %rax
	movq	%rax, 144(%rsp)
	movq	5040(%rsp), %r15
	movdqu	5048(%rsp), %xmm6
	movzbl	5064(%rsp), %r14d
	movl	1217(%rsp), %eax
	movl	1220(%rsp), %ecx
	movl	%ecx, 43(%rsp)
	movl	%eax, 40(%rsp)
	movb	$2, %al
	xorl	%ebx, %ebx
	movq	5072(%rsp), %rdx
	movzbl	%al, %eax
	leaq	.L1_x86_JTI4_2(%rip), %rcx
	movslq	(%rcx,%rax,4), %rax
	addq	%rcx, %rax
	xorl	%r13d, %r13d
	xorl	%r12d, %r12d
	notrack	jmpq	*%rax
32:
	movl	(%rax), %ecx
	movq	%rcx, %rax
	shlq	$32, %rax
	orq	%rcx, %rax
	movabsq	$3906083722225857138, %rcx
	cmpq	%rcx, %rax
	jle	50f
	movabsq	$3906083722225857139, %rcx
	cmpq	%rcx, %rax
	movq	24(%rsp), %r13
	je	65f
	movl	$16, %edi
	movabsq	$4049353312878866786, %rcx
	cmpq	%rcx, %rax
	je	66f
	movabsq	$4049353385893310835, %rcx
	cmpq	%rcx, %rax
	jne	73f
	movaps	.L1_x86_CPI4_2(%rip), %xmm1
	movl	$1, %ebx
	jmp	69f
33:
	xorl	%r11d, %r11d
34:
	movq	8(%rsp), %rdx
	movq	24(%rsp), %r13
35:
	movl	$0, 43(%rsp)
	movl	$0, 40(%rsp)
	xorl	%r9d, %r9d
	jmp	203f
36:
	movq	%r15, %rbx
	movq	%r12, 32(%rsp)
	movdqa	176(%rsp), %xmm0
	movq	%xmm0, %r11
	pextrq	$1, %xmm0, %rdx
	movdqa	160(%rsp), %xmm0
	movq	%xmm0, %r10
	pextrq	$1, %xmm0, %r9
	testb	%r13b, %r13b
	movq	%rdx, 80(%rsp)
	je	59f
	pxor	%xmm0, %xmm0
	movdqa	%xmm0, 640(%rsp)
	movdqa	%xmm0, 624(%rsp)
	cmpb	$1, 128(%rsp)
	setne	%al
	cmpq	$9, %rdx
	setb	%sil
	orb	%al, %sil
	movq	%rbx, %r15
	cmpb	$1, %r15b
	setne	%cl
	cmpq	$9, %r9
	setb	%dl
	leaq	-1(%r14), %rbx
	cmpq	$32, %rbx
	setb	%al
	movl	$2, %r13d
	movb	$1, %dil
	xorl	%r12d, %r12d
	cmpb	$1, %sil
	jne	347f
	orb	%dl, %cl
	je	347f
	movq	48(%rsp), %rcx
	movl	%ecx, %r13d
	xorb	$1, %r13b
	orb	%r13b, %al
	testb	$1, %al
	je	64f
	movq	%r11, 160(%rsp)
	movq	%r10, 144(%rsp)
	movq	%r9, 96(%rsp)
	leaq	624(%rsp), %rdi
	movq	112(%rsp), %rsi
	callq	b2_commands..input..read_all..d6f7c226d1d4af0a_1_x86
	movq	632(%rsp), %rdi
	movq	640(%rsp), %r12
	cmpb	$0, 624(%rsp)
	jne	60f
	cmpq	$32, %rbx
	setb	%al
	xorl	%edx, %edx
	movq	128(%rsp), %rsi
	cmpb	$1, %sil
	movq	80(%rsp), %r11
	cmovneq	%rdx, %r11
	cmpb	$1, %r15b
	movq	96(%rsp), %r10
	cmovneq	%rdx, %r10
	cmpq	$-64, %r12
	setb	%cl
	testb	$1, 48(%rsp)
	cmoveq	%rdx, %r14
	movq	648(%rsp), %r9
	movq	32(%rsp), %r8
	cmoveq	%rdx, %r8
	cmpq	$8, %r11
	ja	226f
	cmpq	$8, %r10
	ja	226f
	andb	%al, %cl
	orb	%cl, %r13b
	testb	$1, %r13b
	je	226f
	movq	%r11, %rdx
	movq	%r9, 96(%rsp)
	movq	%rdi, 80(%rsp)
	movq	%r8, 32(%rsp)
	cmpb	$0, 24(%rsp)
	setne	72(%rsp)
	cmpb	$1, %r15b
	leaq	.L1_x86_static.0(%rip), %rax
	movq	144(%rsp), %r15
	cmovneq	%rax, %r15
	cmpb	$1, %sil
	movq	160(%rsp), %rsi
	cmovneq	%rax, %rsi
	movq	%r14, %r13
	movl	%r14d, %eax
	shll	$8, %eax
	movzwl	%ax, %ebx
	pxor	%xmm0, %xmm0
	movdqa	%xmm0, 4960(%rsp)
	orl	$16842752, %ebx
	leaq	4960(%rsp), %rdi
	movq	%r10, %r14
	vj_c_call	memcpy
	leaq	4968(%rsp), %rdi
	movq	%r15, %rsi
	movq	%r14, %rdx
	vj_c_call	memcpy
	leaq	64(%r12), %rcx
	testb	$1, 48(%rsp)
	movl	$16842752, %eax
	cmovnel	%ebx, %eax
	movq	%rax, 128(%rsp)
	cmoveq	%r12, %rcx
	cmpq	$1, %rcx
	movq	%rcx, 24(%rsp)
	movq	%rcx, %rbx
	adcq	$-1, %rbx
	movabsq	$7378697629483820607, %rax
	cmpq	%rax, %rbx
	ja	541f
	movl	4960(%rsp), %eax
	movq	%rax, 104(%rsp)
	movl	4964(%rsp), %eax
	movq	%rax, 176(%rsp)
	movl	4968(%rsp), %eax
	movq	%rax, 160(%rsp)
	movl	4972(%rsp), %eax
	movq	%rax, 144(%rsp)
	shrq	$6, %rbx
	leaq	1(%rbx), %r14
	movq	%r14, %rax
	shlq	$4, %rax
	leaq	(%rax,%rax,4), %rdi
	movl	$8, %esi
	vj_call	rattle_alloc
	testb	$1, %al
	je	541f
	movq	%rdx, %r15
	movq	%rdx, 1120(%rsp)
	movq	%r14, 1136(%rsp)
	testb	$1, 48(%rsp)
	movq	%r12, 112(%rsp)
	je	351f
	pxor	%xmm0, %xmm0
	movdqa	%xmm0, 5008(%rsp)
	movdqa	%xmm0, 4992(%rsp)
	movdqa	%xmm0, 4976(%rsp)
	movdqa	%xmm0, 4960(%rsp)
	leaq	4960(%rsp), %rdi
	movq	32(%rsp), %rsi
	movq	%r13, %rdx
	jmp	352f
37:
	leaq	3456(%rsp), %rdi
	leaq	4176(%rsp), %rcx
	movl	%r14d, %edx
	callq	b2_commands..digests..start_1_x86
	movzbl	3464(%rsp), %ebx
	movq	3472(%rsp), %r12
	cmpb	$0, 3456(%rsp)
	je	61f
38:
	movq	8(%rsp), %rdx
	movl	%ebx, %r13d
39:
	movzbl	%r13b, %edi
	movq	%r12, %rsi
	callq	b2_commands..fault..Fault..report..c1844c1740294036_1_x86
	movl	%eax, %r15d
	jmp	549f
40:
	movb	$1, %r13b
	movb	$1, %r12b
	jmp	44f
41:
	xorl	%r13d, %r13d
	xorl	%r12d, %r12d
	jmp	44f
42:
	movb	$2, %r12b
43:
	xorl	%r13d, %r13d
44:
	leaq	48(%r14), %rdx
	addq	$-2, %r11
	leaq	3104(%rsp), %rdi
	movl	$1, %esi
	movq	%r11, %rcx
	callq	b2_commands..arguments..Options..from_words_1_x86
	movq	3112(%rsp), %r11
	movq	3120(%rsp), %r9
	cmpb	$0, 3104(%rsp)
	je	46f
	movq	%r9, 4976(%rsp)
	movl	$0, 40(%rsp)
	movl	$0, 43(%rsp)
45:
	movq	8(%rsp), %rdx
	movq	24(%rsp), %r13
	jmp	203f
46:
	movq	%r11, 48(%rsp)
	movq	%r11, 4976(%rsp)
	movq	%r9, 4984(%rsp)
	movups	3128(%rsp), %xmm0
	movups	3144(%rsp), %xmm1
	movdqu	3160(%rsp), %xmm2
	movups	3176(%rsp), %xmm3
	movaps	%xmm0, 4992(%rsp)
	movaps	%xmm1, 5008(%rsp)
	movdqa	%xmm2, 5024(%rsp)
	movaps	%xmm3, 5040(%rsp)
	movdqu	3192(%rsp), %xmm0
	movdqa	%xmm0, 5056(%rsp)
	pxor	%xmm7, %xmm7
	movdqa	%xmm7, 5072(%rsp)
	movq	$0, 5088(%rsp)
	movq	4992(%rsp), %r10
	movq	5000(%rsp), %r11
	movzbl	5008(%rsp), %eax
	movq	%rax, 128(%rsp)
	movzbl	5015(%rsp), %eax
	shll	$16, %eax
	movzwl	5013(%rsp), %ecx
	orl	%eax, %ecx
	shlq	$32, %rcx
	movl	5009(%rsp), %eax
	orq	%rcx, %rax
	movq	%rax, 96(%rsp)
	movdqu	5016(%rsp), %xmm5
	movzbl	5032(%rsp), %eax
	movq	%rax, 80(%rsp)
	movzbl	5039(%rsp), %eax
	shll	$16, %eax
	movzwl	5037(%rsp), %ecx
	orl	%eax, %ecx
	shlq	$32, %rcx
	movl	5033(%rsp), %eax
	orq	%rcx, %rax
	movq	%rax, 144(%rsp)
	movq	5040(%rsp), %r15
	movdqu	5048(%rsp), %xmm6
	movzbl	5064(%rsp), %r14d
	movl	3201(%rsp), %eax
	movl	3204(%rsp), %ecx
	movl	%ecx, 43(%rsp)
	movl	%eax, 40(%rsp)
	xorl	%edx, %edx
	movzbl	%dl, %eax
	leaq	.L1_x86_JTI4_2(%rip), %rcx
	movslq	(%rcx,%rax,4), %rax
	addq	%rcx, %rax
	notrack	jmpq	*%rax
47:
	movq	%xmm5, %r14
	pextrq	$1, %xmm5, %rcx
	cmpb	$0, 48(%rsp)
	movq	%r9, 32(%rsp)
	movq	%rcx, 104(%rsp)
	movq	%r14, 176(%rsp)
	pxor	%xmm0, %xmm0
	je	48f
	movdqa	%xmm0, 3456(%rsp)
	movdqa	%xmm0, 3472(%rsp)
	movdqa	%xmm0, 3488(%rsp)
	movdqa	%xmm0, 3504(%rsp)
	movdqa	%xmm0, 3520(%rsp)
	movdqa	%xmm0, 3536(%rsp)
	movdqa	%xmm0, 3552(%rsp)
	movdqa	%xmm0, 1920(%rsp)
	movdqa	%xmm0, 1936(%rsp)
	movdqa	%xmm0, 1952(%rsp)
	movdqa	%xmm0, 1968(%rsp)
	movdqa	%xmm0, 1984(%rsp)
	movdqa	%xmm0, 2000(%rsp)
	movdqa	%xmm0, 2016(%rsp)
	movdqa	%xmm0, 2720(%rsp)
	movdqa	%xmm0, 2704(%rsp)
	movdqa	%xmm0, 2688(%rsp)
	movdqa	%xmm0, 2672(%rsp)
	movw	$0, 444(%rsp)
	movl	$0, 440(%rsp)
	movdqa	%xmm0, 2656(%rsp)
	movdqa	%xmm0, 2640(%rsp)
	movdqa	%xmm0, 2624(%rsp)
	movdqa	%xmm0, 2608(%rsp)
	movw	$0, 436(%rsp)
	movl	$0, 432(%rsp)
	movdqa	%xmm0, 2320(%rsp)
	movq	$0, 2336(%rsp)
	movdqa	%xmm0, 2288(%rsp)
	movq	$0, 2304(%rsp)
	leaq	.L1_x86_static.0(%rip), %rax
	movq	%rax, 1120(%rsp)
	movq	$0, 1128(%rsp)
	movq	%rax, 1136(%rsp)
	movdqu	%xmm0, 1160(%rsp)
	movdqu	%xmm0, 1144(%rsp)
	movw	$257, 1176(%rsp)
	movdqu	%xmm0, 1192(%rsp)
	movdqu	%xmm0, 1178(%rsp)
	movq	%r10, 1208(%rsp)
	movq	%rax, 624(%rsp)
	movq	$0, 632(%rsp)
	movq	%rax, 640(%rsp)
	movdqu	%xmm0, 664(%rsp)
	movdqu	%xmm0, 648(%rsp)
	movw	$257, 680(%rsp)
	movdqu	%xmm0, 696(%rsp)
	movdqu	%xmm0, 682(%rsp)
	movq	%r14, 712(%rsp)
	pextrq	$1, %xmm5, 720(%rsp)
	movq	%r11, 1216(%rsp)
	movdqa	%xmm0, 4032(%rsp)
	movdqa	%xmm0, 4048(%rsp)
	movdqa	%xmm0, 4064(%rsp)
	movdqa	%xmm0, 4080(%rsp)
	movl	$0, 216(%rsp)
	movw	$0, 220(%rsp)
	movdqa	%xmm0, 3920(%rsp)
	movdqa	%xmm0, 3936(%rsp)
	movdqa	%xmm0, 3952(%rsp)
	movdqa	%xmm0, 3968(%rsp)
	movl	$0, 208(%rsp)
	movw	$0, 212(%rsp)
	movdqa	%xmm0, 4960(%rsp)
	movdqa	%xmm0, 4976(%rsp)
	movdqa	%xmm0, 4992(%rsp)
	movdqa	%xmm0, 5008(%rsp)
	movdqa	%xmm0, 5024(%rsp)
	movdqa	%xmm0, 5040(%rsp)
	movdqa	%xmm0, 5056(%rsp)
	movdqa	%xmm0, 13152(%rsp)
	movdqa	%xmm0, 13168(%rsp)
	movdqa	%xmm0, 13184(%rsp)
	movdqa	%xmm0, 13200(%rsp)
	movdqa	%xmm0, 13216(%rsp)
	movdqa	%xmm0, 13232(%rsp)
	movdqa	%xmm0, 13248(%rsp)
	movdqa	%xmm0, 1040(%rsp)
	movdqa	%xmm0, 1024(%rsp)
	movdqa	%xmm0, 1008(%rsp)
	movdqa	%xmm0, 992(%rsp)
	movw	$0, 204(%rsp)
	movl	$0, 200(%rsp)
	movdqa	%xmm0, 1712(%rsp)
	movdqa	%xmm0, 1696(%rsp)
	movdqa	%xmm0, 1680(%rsp)
	movdqa	%xmm0, 1664(%rsp)
	movw	$0, 196(%rsp)
	movl	$0, 192(%rsp)
	movdqa	%xmm0, 4320(%rsp)
	movdqa	%xmm0, 4304(%rsp)
	movdqa	%xmm0, 4288(%rsp)
	movdqa	%xmm0, 4272(%rsp)
	movw	$0, 236(%rsp)
	movl	$0, 232(%rsp)
	movdqa	%xmm0, 4448(%rsp)
	movdqa	%xmm0, 4432(%rsp)
	movdqa	%xmm0, 4416(%rsp)
	movdqa	%xmm0, 4400(%rsp)
	movw	$0, 228(%rsp)
	movl	$0, 224(%rsp)
	cmpq	%rcx, %r11
	jne	79f
	cmpq	$4, %r11
	jae	58f
	testq	%r11, %r11
	je	93f
	movzbl	(%r10), %eax
	cmpb	(%r14), %al
	jne	77f
	cmpq	$1, %r11
	je	93f
	movzbl	1(%r10), %ecx
	movl	$1, %eax
	cmpb	1(%r14), %cl
	jne	78f
	cmpq	$2, %r11
	je	93f
	movzbl	2(%r10), %ecx
	movl	$2, %eax
	cmpb	2(%r14), %cl
	je	93f
	jmp	78f
48:
	movdqa	%xmm0, 3456(%rsp)
	movdqa	%xmm0, 3472(%rsp)
	movdqa	%xmm0, 3488(%rsp)
	movdqa	%xmm0, 3504(%rsp)
	movdqa	%xmm0, 3520(%rsp)
	movdqa	%xmm0, 3536(%rsp)
	movdqa	%xmm0, 3552(%rsp)
	movdqa	%xmm0, 3568(%rsp)
	movdqa	%xmm0, 3584(%rsp)
	movdqa	%xmm0, 3600(%rsp)
	movdqa	%xmm0, 3616(%rsp)
	movdqa	%xmm0, 3632(%rsp)
	movdqa	%xmm0, 3648(%rsp)
	movdqa	%xmm0, 2112(%rsp)
	movdqa	%xmm0, 2096(%rsp)
	movdqa	%xmm0, 2080(%rsp)
	movdqa	%xmm0, 2064(%rsp)
	movdqa	%xmm0, 2048(%rsp)
	movdqa	%xmm0, 2032(%rsp)
	movdqa	%xmm0, 2016(%rsp)
	movdqa	%xmm0, 2000(%rsp)
	movdqa	%xmm0, 1984(%rsp)
	movdqa	%xmm0, 1968(%rsp)
	movdqa	%xmm0, 1952(%rsp)
	movdqa	%xmm0, 1936(%rsp)
	movdqa	%xmm0, 1920(%rsp)
	movdqa	%xmm0, 4384(%rsp)
	movdqa	%xmm0, 4368(%rsp)
	movdqa	%xmm0, 4352(%rsp)
	movdqa	%xmm0, 4336(%rsp)
	movdqa	%xmm0, 4320(%rsp)
	movdqa	%xmm0, 4304(%rsp)
	movdqa	%xmm0, 4288(%rsp)
	movdqa	%xmm0, 4272(%rsp)
	movw	$0, 236(%rsp)
	movl	$0, 232(%rsp)
	movdqa	%xmm0, 4512(%rsp)
	movdqa	%xmm0, 4496(%rsp)
	movdqa	%xmm0, 4480(%rsp)
	movdqa	%xmm0, 4464(%rsp)
	movdqa	%xmm0, 4448(%rsp)
	movdqa	%xmm0, 4432(%rsp)
	movdqa	%xmm0, 4416(%rsp)
	movdqa	%xmm0, 4400(%rsp)
	movw	$0, 228(%rsp)
	movl	$0, 224(%rsp)
	movdqa	%xmm0, 4560(%rsp)
	movq	$0, 4576(%rsp)
	movdqa	%xmm0, 4528(%rsp)
	movq	$0, 4544(%rsp)
	leaq	.L1_x86_static.0(%rip), %rax
	movq	%rax, 4032(%rsp)
	movq	$0, 4040(%rsp)
	movq	%rax, 4048(%rsp)
	movdqu	%xmm0, 4072(%rsp)
	movdqu	%xmm0, 4056(%rsp)
	movw	$257, 4088(%rsp)
	movdqu	%xmm0, 4104(%rsp)
	movdqu	%xmm0, 4090(%rsp)
	movq	%r10, 4120(%rsp)
	movq	%rax, 3920(%rsp)
	movq	$0, 3928(%rsp)
	movq	%rax, 3936(%rsp)
	movdqu	%xmm0, 3960(%rsp)
	movdqu	%xmm0, 3944(%rsp)
	movw	$257, 3976(%rsp)
	movdqu	%xmm0, 3992(%rsp)
	movdqu	%xmm0, 3978(%rsp)
	movq	%r14, 4008(%rsp)
	pextrq	$1, %xmm5, 4016(%rsp)
	movq	%r11, 4128(%rsp)
	movdqa	%xmm0, 992(%rsp)
	movdqa	%xmm0, 1008(%rsp)
	movdqa	%xmm0, 1024(%rsp)
	movdqa	%xmm0, 1040(%rsp)
	movdqa	%xmm0, 1056(%rsp)
	movdqa	%xmm0, 1072(%rsp)
	movdqa	%xmm0, 1088(%rsp)
	movdqa	%xmm0, 1104(%rsp)
	movl	$0, 200(%rsp)
	movw	$0, 204(%rsp)
	movdqa	%xmm0, 1664(%rsp)
	movdqa	%xmm0, 1680(%rsp)
	movdqa	%xmm0, 1696(%rsp)
	movdqa	%xmm0, 1712(%rsp)
	movdqa	%xmm0, 1728(%rsp)
	movdqa	%xmm0, 1744(%rsp)
	movdqa	%xmm0, 1760(%rsp)
	movdqa	%xmm0, 1776(%rsp)
	movw	$0, 196(%rsp)
	movl	$0, 192(%rsp)
	movdqa	%xmm0, 4960(%rsp)
	movdqa	%xmm0, 4976(%rsp)
	movdqa	%xmm0, 4992(%rsp)
	movdqa	%xmm0, 5008(%rsp)
	movdqa	%xmm0, 5024(%rsp)
	movdqa	%xmm0, 5040(%rsp)
	movdqa	%xmm0, 5056(%rsp)
	movdqa	%xmm0, 5072(%rsp)
	movdqa	%xmm0, 5088(%rsp)
	movdqa	%xmm0, 5104(%rsp)
	movdqa	%xmm0, 5120(%rsp)
	movdqa	%xmm0, 5136(%rsp)
	movdqa	%xmm0, 5152(%rsp)
	movdqa	%xmm0, 13152(%rsp)
	movdqa	%xmm0, 13168(%rsp)
	movdqa	%xmm0, 13184(%rsp)
	movdqa	%xmm0, 13200(%rsp)
	movdqa	%xmm0, 13216(%rsp)
	movdqa	%xmm0, 13232(%rsp)
	movdqa	%xmm0, 13248(%rsp)
	movdqa	%xmm0, 13264(%rsp)
	movdqa	%xmm0, 13280(%rsp)
	movdqa	%xmm0, 13296(%rsp)
	movdqa	%xmm0, 13312(%rsp)
	movdqa	%xmm0, 13328(%rsp)
	movdqa	%xmm0, 13344(%rsp)
	movdqa	%xmm0, 2592(%rsp)
	movdqa	%xmm0, 2576(%rsp)
	movdqa	%xmm0, 2560(%rsp)
	movdqa	%xmm0, 2544(%rsp)
	movdqa	%xmm0, 2528(%rsp)
	movdqa	%xmm0, 2512(%rsp)
	movdqa	%xmm0, 2496(%rsp)
	movdqa	%xmm0, 2480(%rsp)
	movl	$0, 248(%rsp)
	movw	$0, 252(%rsp)
	movdqa	%xmm0, 1792(%rsp)
	movdqa	%xmm0, 1808(%rsp)
	movdqa	%xmm0, 1824(%rsp)
	movdqa	%xmm0, 1840(%rsp)
	movdqa	%xmm0, 1856(%rsp)
	movdqa	%xmm0, 1872(%rsp)
	movdqa	%xmm0, 1888(%rsp)
	movdqa	%xmm0, 1904(%rsp)
	movw	$0, 244(%rsp)
	movl	$0, 240(%rsp)
	cmpq	%rcx, %r11
	jne	156f
	cmpq	$4, %r11
	jae	74f
	testq	%r11, %r11
	je	160f
	movzbl	(%r10), %eax
	cmpb	(%r14), %al
	jne	154f
	cmpq	$1, %r11
	je	160f
	movzbl	1(%r10), %ecx
	movl	$1, %eax
	cmpb	1(%r14), %cl
	jne	155f
	cmpq	$2, %r11
	je	160f
	movzbl	2(%r10), %ecx
	movl	$2, %eax
	cmpb	2(%r14), %cl
	je	160f
	jmp	155f
49:
	cmpl	$7548976, %eax
	je	63f
	cmpl	$7551032, %eax
	movq	8(%rsp), %rdx
	jne	149f
	movaps	.L1_x86_CPI4_5(%rip), %xmm1
	movl	$1, %ebx
	movl	$1, %edi
	jmp	70f
50:
	movabsq	$3616730671620371810, %rcx
	cmpq	%rcx, %rax
	movq	24(%rsp), %r13
	je	67f
	movabsq	$3906083649211413090, %rcx
	cmpq	%rcx, %rax
	jne	73f
	movaps	.L1_x86_CPI4_4(%rip), %xmm1
	movl	$32, %edi
	jmp	68f
51:
	movl	$4294967294, %eax
	xorl	%r12d, %r12d
52:
	cmpq	$1, %r15
	je	56f
	movq	56(%r14), %rsi
	leaq	-1(%rsi), %rdx
	cmpq	$9, %rdx
	ja	55f
	movq	48(%r14), %rdi
	cmpq	$2, %rsi
	jb	53f
	cmpb	$48, (%rdi)
	je	55f
53:
	leaq	72(%r14), %rdx
	addq	$-3, %r11
	xorl	%ecx, %ecx
	xorl	%r8d, %r8d
54:
	movzbl	(%rdi,%r8), %r9d
	addb	$-48, %r9b
	cmpb	$9, %r9b
	ja	55f
	leaq	(%rcx,%rcx,4), %r10
	movzbl	%r9b, %r9d
	leaq	(%r9,%r10,2), %rcx
	incq	%r8
	cmpq	%r8, %rsi
	jne	54b
	leaq	-1(%rcx), %rsi
	cmpq	%rax, %rsi
	jae	55f
	movq	%rcx, %r15
	testq	%r11, %r11
	je	253f
	cmpq	$3, 80(%r14)
	jne	255f
	movq	(%rdx), %rax
	movzbl	(%rax), %esi
	movzbl	1(%rax), %edi
	shll	$16, %esi
	shll	$8, %edi
	orl	%esi, %edi
	movl	%edi, %esi
	movzbl	2(%rax), %eax
	orq	%rsi, %rax
	xorl	%ebx, %ebx
	cmpq	$7496055, %rax
	sete	%bl
	subq	%rbx, %r11
	leaq	24(%rdx), %rsi
	cmpl	$7496055, %eax
	cmoveq	%rsi, %rdx
	jmp	256f
55:
	pxor	%xmm0, %xmm0
56:
	movdqa	%xmm0, 352(%rsp)
	movdqa	%xmm0, 336(%rsp)
	movdqa	%xmm0, 320(%rsp)
	movdqa	%xmm0, 304(%rsp)
	movdqa	%xmm0, 288(%rsp)
57:
	xorl	%r11d, %r11d
	xorl	%r9d, %r9d
	jmp	201f
58:
	movl	(%r10), %eax
	cmpl	(%r14), %eax
	movq	%r10, 72(%rsp)
	jne	76f
	movq	%r10, %rdi
	movq	%r11, %rsi
	movq	%r14, %rdx
	movq	%r11, %rbx
	callq	core..cmp..slices..groups_equal..i8.31.core..cmp..numbers..U8PartialEq_1_x86
	movq	32(%rsp), %r9
	movq	72(%rsp), %r10
	testb	%al, %al
	je	80f
	jmp	93f
59:
	movzbl	24(%rsp), %eax
	leaq	.L1_x86_switch.table.b2_commands..dispatch..run_with_notes..8eebea7bb24a6da2.204_1_x86(%rip), %rcx
	movl	(%rcx,%rax,4), %r8d
	pxor	%xmm0, %xmm0
	movdqa	%xmm0, 624(%rsp)
	movdqa	%xmm0, 640(%rsp)
	movdqa	%xmm0, 656(%rsp)
	movdqa	%xmm0, 672(%rsp)
	movdqa	%xmm0, 688(%rsp)
	movq	$0, 704(%rsp)
	movdqa	%xmm0, 3104(%rsp)
	movdqa	%xmm0, 3120(%rsp)
	cmpb	$1, 128(%rsp)
	setne	%al
	cmpq	$17, %rdx
	setb	%sil
	orb	%al, %sil
	movq	%rbx, %rax
	cmpb	$1, %al
	setne	%cl
	cmpq	$17, %r9
	setb	%dl
	leaq	-1(%r14), %r13
	cmpq	$64, %r13
	setb	%al
	movb	$1, %dil
	xorl	%r12d, %r12d
	cmpb	$1, %sil
	jne	64f
	orb	%dl, %cl
	je	64f
	movq	48(%rsp), %rcx
	movl	%ecx, %r15d
	xorb	$1, %r15b
	orb	%r15b, %al
	testb	$1, %al
	je	64f
	movq	%r11, 160(%rsp)
	movq	%r10, 144(%rsp)
	movq	%r9, 96(%rsp)
	movl	%r8d, 72(%rsp)
	leaq	3104(%rsp), %rdi
	movq	112(%rsp), %rsi
	callq	b2_commands..input..read_all..d6f7c226d1d4af0a_1_x86
	movq	3112(%rsp), %rdi
	movq	3120(%rsp), %r12
	cmpb	$0, 3104(%rsp)
	je	193f
60:
	movq	%rdi, %r13
	jmp	547f
61:
	movzbl	%bl, %eax
	leaq	3480(%rsp), %rsi
	testb	%r13b, %r13b
	je	132f
	xorl	%r13d, %r13d
	cmpb	$0, 24(%rsp)
	setne	%r13b
	shll	$4, %r13d
	addq	$16, %r13
	jmp	133f
62:
	xorl	%ebx, %ebx
	xorl	%edi, %edi
	xorps	%xmm1, %xmm1
	jmp	69f
63:
	movss	.L1_x86_CPI4_19(%rip), %xmm1
	movl	$1, %ebx
	xorl	%edi, %edi
	jmp	69f
64:
	movq	8(%rsp), %rdx
	movl	$2, %r13d
	testb	%dil, %dil
	jne	39b
	jmp	548f
65:
	movaps	.L1_x86_CPI4_1(%rip), %xmm1
	movl	$32, %edi
	movl	$1, %ebx
	jmp	69f
66:
	movaps	.L1_x86_CPI4_0(%rip), %xmm1
	jmp	68f
67:
	movaps	.L1_x86_CPI4_3(%rip), %xmm1
	movl	$64, %edi
68:
	xorl	%ebx, %ebx
69:
	movq	8(%rsp), %rdx
70:
	cmpq	$1, %r15
	je	149f
	movq	%rdx, %rax
	movq	48(%r14), %rsi
	movq	56(%r14), %rdx
	movdqa	%xmm0, 640(%rsp)
	movdqa	%xmm0, 624(%rsp)
	cmpq	$1, %rdx
	je	71f
	testq	%rdx, %rdx
	jne	72f
	movd	.L1_x86_CPI4_19(%rip), %xmm5
	movq	%rax, %rdx
	jmp	149f
71:
	cmpb	$45, (%rsi)
	jne	72f
	cmpq	$2, %r15
	movq	%rax, %rdx
	je	149f
	movaps	%xmm1, 80(%rsp)
	movq	%rbx, 48(%rsp)
	movq	%rdi, 32(%rsp)
	leaq	16(%rsp), %rbx
	movq	$0, 128(%rsp)
	xorl	%r13d, %r13d
	jmp	147f
72:
	movaps	%xmm1, 80(%rsp)
	movq	%rdi, 32(%rsp)
	leaq	624(%rsp), %rdi
	callq	b2_commands..arguments..bytes_of_1_x86
	movdqu	632(%rsp), %xmm5
	cmpb	$0, 624(%rsp)
	je	75f
73:
	movq	8(%rsp), %rdx
	jmp	149f
74:
	movl	(%r10), %eax
	cmpl	(%r14), %eax
	movq	%r10, 72(%rsp)
	movq	%r11, 24(%rsp)
	jne	157f
	movq	%r10, %rdi
	movq	%r11, %rsi
	movq	%r14, %rdx
	callq	core..cmp..slices..groups_equal..i8.31.core..cmp..numbers..U8PartialEq_1_x86
	movq	32(%rsp), %r9
	movq	72(%rsp), %r10
	testb	%al, %al
	je	157f
	jmp	160f
75:
	movq	648(%rsp), %rax
	movq	%xmm5, %rdi
	cmpq	$2, %r15
	jne	146f
	pxor	%xmm5, %xmm5
	testq	%rax, %rax
	je	73b
	vj_call	rattle_dealloc
	pxor	%xmm5, %xmm5
	movq	8(%rsp), %rdx
	jmp	149f
76:
	movq	%r11, %rbx
	jmp	80f
77:
	xorl	%eax, %eax
78:
	cmpq	%r11, %rax
	jae	93f
79:
	movq	%r11, %rbx
	movq	%r10, 72(%rsp)
80:
	leaq	4960(%rsp), %rdi
	leaq	1120(%rsp), %rsi
	movq	%r9, %rdx
	callq	blake2_transcript..collision..blake2s..last_step_1_x86
	movaps	4960(%rsp), %xmm0
	movaps	4976(%rsp), %xmm1
	movaps	4992(%rsp), %xmm2
	movaps	5008(%rsp), %xmm3
	movaps	%xmm1, 4576(%rsp)
	movaps	%xmm0, 4560(%rsp)
	movaps	%xmm2, 288(%rsp)
	movaps	%xmm3, 304(%rsp)
	movaps	5024(%rsp), %xmm0
	movaps	%xmm0, 320(%rsp)
	movaps	5040(%rsp), %xmm0
	movaps	%xmm0, 336(%rsp)
	movaps	5056(%rsp), %xmm0
	movaps	%xmm0, 352(%rsp)
	leaq	13152(%rsp), %rdi
	leaq	624(%rsp), %rsi
	movq	32(%rsp), %rdx
	callq	blake2_transcript..collision..blake2s..last_step_1_x86
	movaps	13152(%rsp), %xmm0
	movaps	13168(%rsp), %xmm1
	movdqa	13184(%rsp), %xmm2
	movaps	13200(%rsp), %xmm3
	movaps	%xmm1, 4544(%rsp)
	movaps	%xmm0, 4528(%rsp)
	movdqa	%xmm2, 1472(%rsp)
	movaps	%xmm3, 1488(%rsp)
	movaps	13216(%rsp), %xmm0
	movaps	%xmm0, 1504(%rsp)
	movaps	13232(%rsp), %xmm0
	movaps	%xmm0, 1520(%rsp)
	movaps	13248(%rsp), %xmm0
	movaps	%xmm0, 1536(%rsp)
	movaps	4960(%rsp), %xmm0
	movaps	4976(%rsp), %xmm1
	movaps	%xmm1, 3120(%rsp)
	movaps	%xmm0, 3104(%rsp)
	movq	352(%rsp), %rdx
	movzbl	361(%rsp), %r8d
	movl	360(%rsp), %ecx
	leaq	3104(%rsp), %rdi
	leaq	288(%rsp), %rsi
	vj_call	blake2_compress..compress..blake2s..compress_1_x86
	movaps	3104(%rsp), %xmm0
	movaps	3120(%rsp), %xmm1
	movaps	%xmm0, 2768(%rsp)
	movaps	%xmm1, 2784(%rsp)
	movaps	13152(%rsp), %xmm0
	movaps	13168(%rsp), %xmm1
	movaps	%xmm1, 3120(%rsp)
	movaps	%xmm0, 3104(%rsp)
	movq	1536(%rsp), %rdx
	movzbl	1545(%rsp), %r8d
	movl	1544(%rsp), %ecx
	leaq	3104(%rsp), %rdi
	leaq	1472(%rsp), %rsi
	vj_call	blake2_compress..compress..blake2s..compress_1_x86
	movq	32(%rsp), %rsi
	movdqa	3104(%rsp), %xmm0
	movaps	3120(%rsp), %xmm1
	movdqa	%xmm0, 464(%rsp)
	movaps	%xmm1, 480(%rsp)
	cmpq	$4, %rsi
	jae	82f
	testq	%rsi, %rsi
	je	83f
	xorl	%eax, %eax
81:
	movzbl	2768(%rsp,%rax), %ecx
	cmpb	464(%rsp,%rax), %cl
	jne	96f
	incq	%rax
	cmpq	%rax, %rsi
	jne	81b
	jmp	83f
82:
	movd	%xmm0, %eax
	cmpl	%eax, 2768(%rsp)
	jne	97f
	leaq	2768(%rsp), %rdi
	leaq	464(%rsp), %rdx
	callq	core..cmp..slices..groups_equal..i8.31.core..cmp..numbers..U8PartialEq_1_x86
	testb	%al, %al
	je	97f
83:
	leaq	4560(%rsp), %rdi
	leaq	288(%rsp), %rsi
	leaq	4528(%rsp), %rdx
	leaq	1472(%rsp), %rcx
	callq	blake2_transcript..collision..blake2s..same_step_1_x86
	testb	%al, %al
	je	94f
	xorps	%xmm1, %xmm1
	movaps	%xmm1, 2352(%rsp)
	movaps	%xmm1, 2368(%rsp)
	movaps	%xmm1, 2384(%rsp)
	movaps	%xmm1, 2400(%rsp)
	movl	$0, 248(%rsp)
	movw	$0, 252(%rsp)
	movaps	%xmm1, 2480(%rsp)
	movaps	%xmm1, 2496(%rsp)
	movaps	%xmm1, 2512(%rsp)
	movaps	%xmm1, 2528(%rsp)
	movl	$0, 240(%rsp)
	movw	$0, 244(%rsp)
	movaps	%xmm1, 3104(%rsp)
	movaps	%xmm1, 3120(%rsp)
	movaps	%xmm1, 3136(%rsp)
	movaps	%xmm1, 3152(%rsp)
	movaps	%xmm1, 3168(%rsp)
	movaps	%xmm1, 2768(%rsp)
	movaps	%xmm1, 2784(%rsp)
	movaps	%xmm1, 2800(%rsp)
	movaps	%xmm1, 2816(%rsp)
	movaps	%xmm1, 2832(%rsp)
	movaps	%xmm1, 1840(%rsp)
	movaps	%xmm1, 1824(%rsp)
	movaps	%xmm1, 1808(%rsp)
	movaps	%xmm1, 1792(%rsp)
	movaps	%xmm1, 4912(%rsp)
	pxor	%xmm0, %xmm0
	movdqa	%xmm0, 448(%rsp)
	movaps	%xmm1, 4896(%rsp)
	movzbl	1152(%rsp), %edx
	movq	1168(%rsp), %rax
	movq	%rax, 4888(%rsp)
	shll	$8, %eax
	movl	1176(%rsp), %ecx
	shll	$16, %ecx
	movq	%rbx, %rdi
	leaq	64(%rbx), %r8
	xorl	%r15d, %r15d
	movb	%dl, 256(%rsp)
	testb	%dl, %dl
	movzwl	%ax, %edx
	cmovel	%r15d, %edx
	cmoveq	%rbx, %r8
	movzbl	32(%rsp), %eax
	orl	%ecx, %edx
	orl	%eax, %edx
	movd	%edx, %xmm1
	pinsrd	$1, 1180(%rsp), %xmm1
	movq	1184(%rsp), %xmm0
	punpcklqdq	%xmm0, %xmm1
	pinsrw	$7, 1192(%rsp), %xmm1
	movdqa	.L1_x86_CPI4_12(%rip), %xmm0
	pxor	%xmm0, %xmm1
	movdqa	%xmm1, 4592(%rsp)
	movaps	.L1_x86_CPI4_13(%rip), %xmm1
	movzbl	656(%rsp), %esi
	movq	672(%rsp), %rdx
	movl	680(%rsp), %ecx
	movq	%rdx, 4880(%rsp)
	shll	$8, %edx
	shll	$16, %ecx
	movb	%sil, 272(%rsp)
	testb	%sil, %sil
	movzwl	%dx, %edx
	cmovel	%r15d, %edx
	movq	104(%rsp), %rsi
	leaq	64(%rsi), %r9
	cmoveq	%rsi, %r9
	orl	%ecx, %edx
	orl	%eax, %edx
	movd	%edx, %xmm2
	pinsrd	$1, 684(%rsp), %xmm2
	movq	688(%rsp), %xmm3
	punpcklqdq	%xmm3, %xmm2
	pinsrw	$7, 696(%rsp), %xmm2
	movaps	%xmm1, 4608(%rsp)
	pxor	%xmm0, %xmm2
	movdqa	%xmm2, 4656(%rsp)
	movaps	%xmm1, 4672(%rsp)
	cmpq	$1, %r8
	movzbl	1200(%rsp), %eax
	movb	%al, 976(%rsp)
	movq	%r8, 416(%rsp)
	adcq	$-1, %r8
	shrq	$6, %r8
	cmpq	$1, %r9
	movq	%r9, 592(%rsp)
	adcq	$-1, %r9
	shrq	$6, %r9
	movzbl	704(%rsp), %eax
	movb	%al, 2752(%rsp)
	movq	1160(%rsp), %rax
	movq	%rax, 4872(%rsp)
	negq	%r9
	movq	%r9, 264(%rsp)
	movq	%r8, %rax
	negq	%rax
	movq	%rax, 2736(%rsp)
	notq	%r8
	movq	%r8, 1648(%rsp)
	pxor	%xmm0, %xmm0
	movdqa	%xmm0, 1600(%rsp)
	movdqa	%xmm0, 1632(%rsp)
	movdqa	%xmm0, 1616(%rsp)
	movq	664(%rsp), %rax
	movq	%rax, 4864(%rsp)
	xorl	%ebx, %ebx
	movq	$0, 4136(%rsp)
	xorl	%r14d, %r14d
	movq	$0, 4168(%rsp)
	movq	$0, 608(%rsp)
	movq	$0, 616(%rsp)
	movq	$0, 4144(%rsp)
	movq	$0, 4152(%rsp)
	movq	$0, 4160(%rsp)
	movq	72(%rsp), %r10
	jmp	85f
84:
	movaps	4592(%rsp), %xmm0
	movaps	4608(%rsp), %xmm1
	movaps	%xmm1, 480(%rsp)
	movaps	%xmm0, 464(%rsp)
	xorl	%ecx, %ecx
	movb	%dl, %cl
	movzbl	%r15b, %r8d
	leaq	464(%rsp), %rdi
	leaq	3104(%rsp), %rsi
	movq	%r13, %rdx
	vj_call	blake2_compress..compress..blake2s..compress_1_x86
	movaps	464(%rsp), %xmm0
	movaps	480(%rsp), %xmm1
	movaps	%xmm1, 4912(%rsp)
	movaps	%xmm0, 4896(%rsp)
	movaps	%xmm0, 4592(%rsp)
	movaps	%xmm1, 4608(%rsp)
	movaps	4656(%rsp), %xmm0
	movaps	4672(%rsp), %xmm1
	movaps	%xmm1, 480(%rsp)
	movaps	%xmm0, 464(%rsp)
	movq	2832(%rsp), %rdx
	movzbl	2841(%rsp), %r8d
	movl	2840(%rsp), %ecx
	leaq	464(%rsp), %rdi
	leaq	2768(%rsp), %rsi
	vj_call	blake2_compress..compress..blake2s..compress_1_x86
	movdqa	464(%rsp), %xmm0
	movaps	480(%rsp), %xmm1
	movaps	%xmm1, 4912(%rsp)
	movdqa	%xmm0, 4896(%rsp)
	movdqa	%xmm0, 4656(%rsp)
	movaps	%xmm1, 4672(%rsp)
	movq	48(%rsp), %r14
	incq	%r14
	movq	112(%rsp), %r15
	addq	$64, %r15
	movq	24(%rsp), %rdi
	addq	$-64, %rdi
	decq	%rbx
	cmpq	%rbx, 1648(%rsp)
	movq	72(%rsp), %r10
	je	95f
85:
	cmpb	$0, 256(%rsp)
	movq	%rdi, 24(%rsp)
	movq	%r15, 112(%rsp)
	movq	%r14, 48(%rsp)
	je	86f
	testq	%rbx, %rbx
	je	87f
	leaq	(%r10,%r15), %rsi
	addq	$-64, %rsi
	leaq	64(%rdi), %rax
	cmpq	$64, %rax
	movl	$64, %edx
	cmovbq	%rax, %rdx
	pxor	%xmm0, %xmm0
	movdqa	%xmm0, 512(%rsp)
	movdqa	%xmm0, 496(%rsp)
	movdqa	%xmm0, 480(%rsp)
	movdqa	%xmm0, 464(%rsp)
	leaq	464(%rsp), %rdi
	vj_c_call	memcpy
	movq	%r15, %r14
	jmp	88f
86:
	shlq	$6, %r14
	leaq	(%r10,%r15), %rsi
	cmpq	$64, %rdi
	movl	$64, %edx
	cmovbq	%rdi, %rdx
	pxor	%xmm0, %xmm0
	movdqa	%xmm0, 512(%rsp)
	movdqa	%xmm0, 496(%rsp)
	movdqa	%xmm0, 480(%rsp)
	movdqa	%xmm0, 464(%rsp)
	leaq	464(%rsp), %rdi
	vj_c_call	memcpy
	jmp	88f
87:
	pxor	%xmm0, %xmm0
	movdqa	%xmm0, 512(%rsp)
	movdqa	%xmm0, 496(%rsp)
	movdqa	%xmm0, 480(%rsp)
	movdqa	%xmm0, 464(%rsp)
	leaq	464(%rsp), %rdi
	movq	4872(%rsp), %rsi
	movq	4888(%rsp), %rdx
	vj_c_call	memcpy
	xorl	%r14d, %r14d
88:
	leaq	64(%r14), %r12
	xorl	%eax, %eax
	cmpq	%rbx, 2736(%rsp)
	movq	%r12, %r13
	cmoveq	416(%rsp), %r13
	sete	%cl
	movzbl	976(%rsp), %r15d
	cmovnel	%eax, %r15d
	sete	3176(%rsp)
	movaps	464(%rsp), %xmm0
	movaps	480(%rsp), %xmm1
	movaps	496(%rsp), %xmm2
	movaps	512(%rsp), %xmm3
	movaps	%xmm3, 1840(%rsp)
	movaps	%xmm2, 1824(%rsp)
	movaps	%xmm1, 1808(%rsp)
	movaps	%xmm0, 1792(%rsp)
	movaps	%xmm0, 3104(%rsp)
	movaps	%xmm1, 3120(%rsp)
	movaps	%xmm2, 3136(%rsp)
	movaps	%xmm3, 3152(%rsp)
	movq	%r13, 3168(%rsp)
	movb	%r15b, 3177(%rsp)
	leaq	3178(%rsp), %rax
	movw	$0, 4(%rax)
	movl	$0, (%rax)
	cmpb	$0, 272(%rsp)
	movb	%cl, 160(%rsp)
	je	89f
	testq	%rbx, %rbx
	je	91f
	movq	176(%rsp), %rax
	leaq	(%rax,%r14), %rsi
	addq	$-64, %rsi
	addq	$-64, %r14
	jmp	90f
89:
	movq	176(%rsp), %rax
	leaq	(%rax,%r14), %rsi
90:
	movq	104(%rsp), %rax
	subq	%r14, %rax
	cmpq	$64, %rax
	movl	$64, %edx
	cmovbq	%rax, %rdx
	xorps	%xmm0, %xmm0
	movaps	%xmm0, 512(%rsp)
	movaps	%xmm0, 496(%rsp)
	movaps	%xmm0, 480(%rsp)
	movaps	%xmm0, 464(%rsp)
	leaq	464(%rsp), %rdi
	jmp	92f
91:
	xorps	%xmm0, %xmm0
	movaps	%xmm0, 512(%rsp)
	movaps	%xmm0, 496(%rsp)
	movaps	%xmm0, 480(%rsp)
	movaps	%xmm0, 464(%rsp)
	leaq	464(%rsp), %rdi
	movq	4864(%rsp), %rsi
	movq	4880(%rsp), %rdx
92:
	vj_c_call	memcpy
	xorl	%eax, %eax
	cmpq	%rbx, 264(%rsp)
	cmoveq	592(%rsp), %r12
	movzbl	2752(%rsp), %r14d
	cmovnel	%eax, %r14d
	sete	32(%rsp)
	movaps	464(%rsp), %xmm0
	movaps	480(%rsp), %xmm1
	movdqa	496(%rsp), %xmm2
	movdqa	512(%rsp), %xmm3
	movdqa	%xmm3, 1840(%rsp)
	movdqa	%xmm2, 1824(%rsp)
	movaps	%xmm1, 1808(%rsp)
	movaps	%xmm0, 2768(%rsp)
	movaps	%xmm1, 2784(%rsp)
	movdqa	%xmm2, 2800(%rsp)
	movdqa	%xmm3, 2816(%rsp)
	movq	%r12, 2832(%rsp)
	sete	2840(%rsp)
	movaps	%xmm0, 1792(%rsp)
	movb	%r14b, 2841(%rsp)
	leaq	2842(%rsp), %rax
	movw	$0, 4(%rax)
	movl	$0, (%rax)
	leaq	4592(%rsp), %rdi
	leaq	3104(%rsp), %rsi
	leaq	4656(%rsp), %rdx
	leaq	2768(%rsp), %rcx
	callq	blake2_transcript..collision..blake2s..same_step_1_x86
	testb	%al, %al
	movzbl	160(%rsp), %edx
	jne	84b
	movaps	4592(%rsp), %xmm0
	movaps	%xmm0, 448(%rsp)
	movaps	4608(%rsp), %xmm0
	movaps	%xmm0, 1600(%rsp)
	movaps	4656(%rsp), %xmm0
	movaps	%xmm0, 1632(%rsp)
	movaps	4672(%rsp), %xmm0
	movaps	%xmm0, 1616(%rsp)
	movaps	3104(%rsp), %xmm0
	movaps	3120(%rsp), %xmm1
	movaps	3136(%rsp), %xmm2
	movaps	3152(%rsp), %xmm3
	movaps	%xmm0, 2352(%rsp)
	movaps	%xmm1, 2368(%rsp)
	movaps	%xmm2, 2384(%rsp)
	movaps	%xmm3, 2400(%rsp)
	movl	$0, 248(%rsp)
	movw	$0, 252(%rsp)
	movaps	1792(%rsp), %xmm0
	movaps	1808(%rsp), %xmm1
	movdqa	1824(%rsp), %xmm2
	movdqa	1840(%rsp), %xmm3
	movaps	%xmm0, 2480(%rsp)
	movaps	%xmm1, 2496(%rsp)
	movdqa	%xmm2, 2512(%rsp)
	movdqa	%xmm3, 2528(%rsp)
	movw	$0, 244(%rsp)
	movl	$0, 240(%rsp)
	movb	$1, %al
	movq	%rax, 4136(%rsp)
	movq	%r13, 4160(%rsp)
	movl	%edx, %eax
	movq	%rax, 4152(%rsp)
	movl	%r15d, %eax
	movq	%rax, 4144(%rsp)
	movq	%r12, 616(%rsp)
	movzbl	32(%rsp), %eax
	movq	%rax, 608(%rsp)
	movl	%r14d, %eax
	movq	%rax, 4168(%rsp)
	jmp	84b
93:
	xorps	%xmm1, %xmm1
	movaps	%xmm1, 4080(%rsp)
	movaps	%xmm1, 4064(%rsp)
	movaps	%xmm1, 4048(%rsp)
	movaps	%xmm1, 4032(%rsp)
	movl	$0, 216(%rsp)
	movw	$0, 220(%rsp)
	movaps	%xmm1, 3920(%rsp)
	movaps	%xmm1, 3936(%rsp)
	movaps	%xmm1, 3952(%rsp)
	pxor	%xmm0, %xmm0
	movdqa	%xmm0, 448(%rsp)
	movaps	%xmm1, 3968(%rsp)
	movl	$0, 208(%rsp)
	movw	$0, 212(%rsp)
	xorl	%eax, %eax
	xorl	%r8d, %r8d
	xorl	%r9d, %r9d
	xorl	%r11d, %r11d
	xorl	%edx, %edx
	xorl	%esi, %esi
	xorl	%edi, %edi
	movdqa	%xmm0, 1600(%rsp)
	movdqa	%xmm0, 1632(%rsp)
	movdqa	%xmm0, 1616(%rsp)
	jmp	99f
94:
	movaps	4560(%rsp), %xmm0
	movaps	%xmm0, 448(%rsp)
	movaps	4576(%rsp), %xmm0
	movaps	%xmm0, 1600(%rsp)
	movq	352(%rsp), %r8
	movzbl	360(%rsp), %r9d
	movzbl	361(%rsp), %r11d
	movaps	4528(%rsp), %xmm0
	movaps	%xmm0, 1632(%rsp)
	movaps	4544(%rsp), %xmm0
	movaps	%xmm0, 1616(%rsp)
	movq	1536(%rsp), %rdx
	movzbl	1544(%rsp), %esi
	movzbl	1545(%rsp), %edi
	movaps	288(%rsp), %xmm0
	movaps	304(%rsp), %xmm1
	movaps	320(%rsp), %xmm2
	movaps	336(%rsp), %xmm3
	movaps	%xmm0, 4032(%rsp)
	movaps	%xmm1, 4048(%rsp)
	movaps	%xmm2, 4064(%rsp)
	movaps	%xmm3, 4080(%rsp)
	movw	$0, 220(%rsp)
	movl	$0, 216(%rsp)
	movdqa	1472(%rsp), %xmm0
	movaps	1488(%rsp), %xmm1
	movdqa	1504(%rsp), %xmm2
	movaps	1520(%rsp), %xmm3
	movaps	%xmm3, 3968(%rsp)
	movdqa	%xmm2, 3952(%rsp)
	movaps	%xmm1, 3936(%rsp)
	movdqa	%xmm0, 3920(%rsp)
	movw	$0, 212(%rsp)
	movl	$0, 208(%rsp)
	movb	$1, %al
	jmp	98f
95:
	movaps	2352(%rsp), %xmm0
	movaps	2368(%rsp), %xmm1
	movaps	2384(%rsp), %xmm2
	movaps	2400(%rsp), %xmm3
	movaps	%xmm3, 4320(%rsp)
	movaps	%xmm2, 4304(%rsp)
	movaps	%xmm1, 4288(%rsp)
	movaps	%xmm0, 4272(%rsp)
	movl	248(%rsp), %eax
	movl	%eax, 232(%rsp)
	movzwl	252(%rsp), %eax
	movw	%ax, 236(%rsp)
	movaps	2480(%rsp), %xmm0
	movaps	2496(%rsp), %xmm1
	movaps	2512(%rsp), %xmm2
	movaps	2528(%rsp), %xmm3
	movaps	%xmm0, 4400(%rsp)
	movaps	%xmm1, 4416(%rsp)
	movaps	%xmm2, 4432(%rsp)
	movaps	%xmm3, 4448(%rsp)
	movzwl	244(%rsp), %eax
	movw	%ax, 228(%rsp)
	movl	240(%rsp), %eax
	movl	%eax, 224(%rsp)
	movaps	4272(%rsp), %xmm0
	movaps	4288(%rsp), %xmm1
	movaps	4304(%rsp), %xmm2
	movaps	4320(%rsp), %xmm3
	movaps	%xmm0, 4032(%rsp)
	movaps	%xmm1, 4048(%rsp)
	movaps	%xmm2, 4064(%rsp)
	movaps	%xmm3, 4080(%rsp)
	movzwl	236(%rsp), %eax
	movw	%ax, 220(%rsp)
	movl	232(%rsp), %eax
	movl	%eax, 216(%rsp)
	movdqa	4400(%rsp), %xmm0
	movaps	4416(%rsp), %xmm1
	movdqa	4432(%rsp), %xmm2
	movaps	4448(%rsp), %xmm3
	movaps	%xmm3, 3968(%rsp)
	movdqa	%xmm2, 3952(%rsp)
	movaps	%xmm1, 3936(%rsp)
	movdqa	%xmm0, 3920(%rsp)
	movzwl	228(%rsp), %eax
	movw	%ax, 212(%rsp)
	movl	224(%rsp), %eax
	movl	%eax, 208(%rsp)
	cmpb	$0, 4136(%rsp)
	setne	%al
	movq	144(%rsp), %r13
	movq	616(%rsp), %rdx
	movq	608(%rsp), %rsi
	movq	4168(%rsp), %rdi
	movq	4160(%rsp), %r8
	movq	4152(%rsp), %r9
	movq	4144(%rsp), %r11
	jmp	100f
96:
	cmpq	%rsi, %rax
	jae	83b
97:
	movaps	992(%rsp), %xmm0
	movaps	1008(%rsp), %xmm1
	movaps	1024(%rsp), %xmm2
	movaps	1040(%rsp), %xmm3
	movaps	%xmm3, 4080(%rsp)
	movaps	%xmm2, 4064(%rsp)
	movaps	%xmm1, 4048(%rsp)
	movaps	%xmm0, 4032(%rsp)
	movl	200(%rsp), %eax
	movl	%eax, 216(%rsp)
	movzwl	204(%rsp), %eax
	movw	%ax, 220(%rsp)
	movaps	1664(%rsp), %xmm0
	movaps	1680(%rsp), %xmm1
	movaps	1696(%rsp), %xmm2
	movaps	1712(%rsp), %xmm3
	movaps	%xmm0, 3920(%rsp)
	movaps	%xmm1, 3936(%rsp)
	movaps	%xmm2, 3952(%rsp)
	movaps	%xmm3, 3968(%rsp)
	movzwl	196(%rsp), %eax
	movw	%ax, 212(%rsp)
	movl	192(%rsp), %eax
	movl	%eax, 208(%rsp)
	xorps	%xmm0, %xmm0
	movaps	%xmm0, 448(%rsp)
	xorl	%eax, %eax
	xorl	%r8d, %r8d
	xorl	%r9d, %r9d
	xorl	%r11d, %r11d
	xorl	%edx, %edx
	xorl	%esi, %esi
	xorl	%edi, %edi
	movaps	%xmm0, 1600(%rsp)
	movaps	%xmm0, 1632(%rsp)
	movaps	%xmm0, 1616(%rsp)
98:
	movq	72(%rsp), %r10
99:
	movq	144(%rsp), %r13
100:
	movq	%r10, %r12
	movaps	4032(%rsp), %xmm0
	movaps	4048(%rsp), %xmm1
	movaps	4064(%rsp), %xmm2
	movaps	4080(%rsp), %xmm3
	movaps	%xmm0, 2672(%rsp)
	movaps	%xmm1, 2688(%rsp)
	movaps	%xmm2, 2704(%rsp)
	movaps	%xmm3, 2720(%rsp)
	movzwl	220(%rsp), %ecx
	movw	%cx, 444(%rsp)
	movl	216(%rsp), %ecx
	movl	%ecx, 440(%rsp)
	movdqa	3920(%rsp), %xmm0
	movaps	3936(%rsp), %xmm1
	movdqa	3952(%rsp), %xmm2
	movaps	3968(%rsp), %xmm3
	movaps	%xmm3, 2656(%rsp)
	movdqa	%xmm2, 2640(%rsp)
	movaps	%xmm1, 2624(%rsp)
	movdqa	%xmm0, 2608(%rsp)
	movzwl	212(%rsp), %ecx
	movw	%cx, 436(%rsp)
	movl	208(%rsp), %ecx
	movl	%ecx, 432(%rsp)
	testb	%al, %al
	je	102f
	movaps	448(%rsp), %xmm0
	movaps	%xmm0, 3456(%rsp)
	movaps	1600(%rsp), %xmm0
	movaps	%xmm0, 3472(%rsp)
	movaps	2672(%rsp), %xmm0
	movaps	2688(%rsp), %xmm1
	movaps	2704(%rsp), %xmm2
	movaps	2720(%rsp), %xmm3
	movaps	%xmm0, 3488(%rsp)
	movaps	%xmm1, 3504(%rsp)
	movaps	%xmm2, 3520(%rsp)
	movaps	%xmm3, 3536(%rsp)
	movq	%r8, 3552(%rsp)
	movb	%r9b, 3560(%rsp)
	movb	%r11b, 3561(%rsp)
	movl	440(%rsp), %eax
	movl	%eax, 3562(%rsp)
	movzwl	444(%rsp), %eax
	movw	%ax, 3566(%rsp)
	movaps	1632(%rsp), %xmm0
	movaps	%xmm0, 1920(%rsp)
	movaps	1616(%rsp), %xmm0
	movaps	%xmm0, 1936(%rsp)
	movdqa	2608(%rsp), %xmm0
	movaps	2624(%rsp), %xmm1
	movdqa	2640(%rsp), %xmm2
	movaps	2656(%rsp), %xmm3
	movaps	%xmm3, 2000(%rsp)
	movdqa	%xmm2, 1984(%rsp)
	movaps	%xmm1, 1968(%rsp)
	movdqa	%xmm0, 1952(%rsp)
	movq	%rdx, 2016(%rsp)
	movb	%sil, 2024(%rsp)
	movb	%dil, 2025(%rsp)
	movl	432(%rsp), %eax
	movl	%eax, 2026(%rsp)
	movzwl	436(%rsp), %eax
	movw	%ax, 2030(%rsp)
	leaq	2288(%rsp), %rdi
	leaq	3456(%rsp), %rsi
	movq	8(%rsp), %rbx
	movq	%rbx, %rdx
	callq	b2_commands..witness..print_blake2s..c1844c1740294036_1_x86
	cmpb	$0, 2288(%rsp)
	je	104f
	movq	2304(%rsp), %rsi
	movb	$1, %al
	movzbl	2296(%rsp), %ecx
	movq	80(%rsp), %rbx
	testb	%al, %al
	jne	176f
101:
	xorl	%r15d, %r15d
	jmp	177f
102:
	xorl	%ebx, %ebx
103:
	leaq	.L1_x86_static.45(%rip), %rsi
	addq	%rbx, %rsi
	movl	$5, %r14d
	subq	%rbx, %r14
	movl	$1, %edi
	movq	%r14, %rdx
	vj_system_call	write, b2_write
	testq	%rax, %rax
	js	173f
	cmpq	%r14, %rax
	cmovbq	%rax, %r14
	testq	%r14, %r14
	je	174f
	addq	%r14, %rbx
	cmpq	$4, %rbx
	jbe	103b
	jmp	172f
104:
	leaq	2320(%rsp), %rdi
	leaq	1920(%rsp), %rsi
	movq	%rbx, %rdx
	callq	b2_commands..witness..print_blake2s..c1844c1740294036_1_x86
	movzbl	2320(%rsp), %eax
	movzbl	2328(%rsp), %ecx
	movq	2336(%rsp), %rsi
	movq	80(%rsp), %rbx
	testb	%al, %al
	jne	176f
	jmp	101b
105:
	leaq	.L1_x86_switch.table.b2_commands..digests..start_1_x86(%rip), %rax
	movq	(%rax,%r14,8), %r14
106:
	leaq	2768(%rsp), %rdi
	movl	$336, %edx
	movq	%rbx, %rsi
	vj_c_call	memcpy
	pxor	%xmm0, %xmm0
	movdqa	%xmm0, 2352(%rsp)
	movdqa	%xmm0, 2368(%rsp)
	movdqa	%xmm0, 4272(%rsp)
	movq	$0, 4288(%rsp)
	movdqa	%xmm0, 4400(%rsp)
	movq	$0, 4416(%rsp)
	leaq	2352(%rsp), %rdi
	movq	112(%rsp), %rsi
	callq	b2_commands..input..read_all..d6f7c226d1d4af0a_1_x86
	movq	2360(%rsp), %r15
	movq	2368(%rsp), %rax
	cmpb	$0, 2352(%rsp)
	je	107f
	movq	%rax, %r12
	movq	80(%rsp), %rax
	movq	%rax, 4960(%rsp)
	leaq	4968(%rsp), %r14
	leaq	4976(%rsp), %rdi
	movl	$336, %edx
	movq	%rbx, %rsi
	vj_c_call	memcpy
	cmpb	$0, 96(%rsp)
	je	152f
	pxor	%xmm0, %xmm0
	movdqu	%xmm0, 160(%r14)
	movdqu	%xmm0, 144(%r14)
	movdqu	%xmm0, 128(%r14)
	movdqu	%xmm0, 112(%r14)
	movdqu	%xmm0, 96(%r14)
	movdqu	%xmm0, 80(%r14)
	movdqu	%xmm0, 64(%r14)
	movdqu	%xmm0, 48(%r14)
	movdqu	%xmm0, 32(%r14)
	movdqu	%xmm0, 16(%r14)
	movdqu	%xmm0, (%r14)
	leaq	5048(%rsp), %rdi
	callq	blake2_digest..wiping..settle..64_1_x86
	leaq	5112(%rsp), %rdi
	callq	blake2_digest..wiping..settle..32_1_x86
	jmp	153f
107:
	movq	2376(%rsp), %rcx
	movq	%rcx, 24(%rsp)
	pxor	%xmm0, %xmm0
	movdqu	%xmm0, 13160(%rsp)
	leaq	16(%rsp), %r9
	movq	%r9, 13152(%rsp)
	movq	%rax, 112(%rsp)
	testq	%rax, %rax
	movq	%r15, 128(%rsp)
	je	227f
	movq	%r14, 160(%rsp)
	movq	%r9, %r10
	shrq	$8, %r10
	xorl	%r14d, %r14d
	movq	%r9, %r11
	xorl	%r13d, %r13d
108:
	movq	%r13, %r8
	movq	112(%rsp), %rsi
	movq	%r15, %rax
	incq	%r15
	xorl	%ecx, %ecx
109:
	cmpb	$10, -1(%r15)
	je	110f
	incq	%rcx
	incq	%r15
	cmpq	%rcx, %rsi
	jne	109b
	leaq	.L1_x86_static.0(%rip), %r15
	movq	$0, 112(%rsp)
	jmp	111f
110:
	movq	%rcx, %rdx
	notq	%rdx
	addq	%rsi, %rdx
	movq	%rdx, 112(%rsp)
	movq	%rcx, %rsi
111:
	leaq	1(%r14), %r13
	movb	$3, %cl
	movq	%rcx, 48(%rsp)
	testq	%rsi, %rsi
	je	302f
	movl	$1, %ecx
	xorl	%edi, %edi
	movq	%rsi, %rdx
112:
	cmpb	$32, (%rax,%rdi)
	je	113f
	decq	%rdx
	incq	%rdi
	incq	%rcx
	cmpq	%rdi, %rsi
	jne	112b
	jmp	302f
113:
	cmpq	$1, %rdi
	movq	%r8, 72(%rsp)
	jne	115f
	cmpb	$117, (%rax)
	jne	115f
	movq	%r11, 32(%rsp)
	movq	%r10, 104(%rsp)
	movq	%r13, 144(%rsp)
	leaq	-1(%rsi), %r8
	cmpq	%rdi, %r8
	je	301f
	leaq	(%rax,%rdi), %r8
	addq	$2, %r8
	movq	%rdi, %r10
	subq	%rsi, %r10
	incq	%r10
	xorl	%r9d, %r9d
114:
	cmpb	$32, -1(%r8,%r9)
	je	119f
	incq	%r9
	movq	%r10, %rsi
	addq	%r9, %rsi
	jne	114b
	jmp	301f
115:
	movq	%rsi, %rdx
	subq	%rdi, %rdx
	addq	$-2, %rdx
	cmpq	$8, %rdx
	ja	302f
	movq	%rdi, %rdx
	notq	%rdx
	addq	%rsi, %rdx
	cmpq	$2, %rdx
	jb	116f
	cmpb	$48, 1(%rax,%rdi)
	je	302f
116:
	xorl	%ebx, %ebx
117:
	movzbl	(%rax,%rcx), %edx
	addb	$-48, %dl
	cmpb	$9, %dl
	ja	302f
	leaq	(%rbx,%rbx,4), %r8
	movzbl	%dl, %edx
	leaq	(%rdx,%r8,2), %rbx
	incq	%rcx
	cmpq	%rcx, %rsi
	jne	117b
	movq	%r13, 144(%rsp)
	cmpq	$1, %rdi
	jne	301f
	movzbl	(%rax), %eax
	addl	$-99, %eax
	cmpl	$15, %eax
	ja	301f
	pxor	%xmm0, %xmm0
	movb	$1, %cl
	movq	%rcx, 176(%rsp)
	leaq	.L1_x86_JTI4_3(%rip), %rcx
	movslq	(%rcx,%rax,4), %rax
	addq	%rcx, %rax
	notrack	jmpq	*%rax
118:
	movl	$1, %edx
	jmp	125f
119:
	leaq	-1(%r9), %rsi
	cmpq	$8, %rsi
	ja	301f
	cmpq	$2, %r9
	jb	120f
	cmpb	$48, 1(%rax,%rdi)
	je	301f
120:
	addq	%rax, %rdi
	leaq	(%r9,%rdi), %rsi
	addq	$2, %rsi
	subq	%r9, %rdx
	addq	$-2, %rdx
	addq	%rax, %rcx
	xorl	%ebx, %ebx
	xorl	%eax, %eax
121:
	movzbl	(%rcx,%rax), %edi
	addb	$-48, %dil
	cmpb	$9, %dil
	ja	301f
	leaq	(%rbx,%rbx,4), %r10
	movzbl	%dil, %edi
	leaq	(%rdi,%r10,2), %rbx
	incq	%rax
	cmpq	%rax, %r9
	jne	121b
	pxor	%xmm0, %xmm0
	movdqa	%xmm0, 4976(%rsp)
	movdqa	%xmm0, 4960(%rsp)
	cmpq	$1, %rdx
	je	128f
	testq	%rdx, %rdx
	jne	129f
	jmp	301f
122:
	movl	$2, %edx
	jmp	125f
123:
	movl	$4, %edx
	jmp	125f
124:
	movl	$3, %edx
125:
	xorl	%eax, %eax
	xorl	%r13d, %r13d
126:
	movq	72(%rsp), %rcx
	movzbl	%cl, %ecx
	orq	%rax, %rcx
	orq	%r13, %rcx
	cmpq	%r14, 13168(%rsp)
	je	131f
127:
	leaq	(%r14,%r14,4), %rax
	movq	%rdx, (%r11,%rax,8)
	movq	%rbx, 8(%r11,%rax,8)
	movq	%rcx, 16(%r11,%rax,8)
	movdqu	%xmm0, 24(%r11,%rax,8)
	movq	144(%rsp), %r14
	movq	%r14, 13160(%rsp)
	cmpq	$0, 112(%rsp)
	jne	108b
	jmp	535f
128:
	cmpb	$45, (%r8,%r9)
	jne	129f
	movq	104(%rsp), %r13
	leaq	16(%rsp), %rax
	jmp	130f
129:
	leaq	4960(%rsp), %rdi
	callq	b2_commands..arguments..bytes_of_1_x86
	movzbl	4968(%rsp), %eax
	cmpb	$0, 4960(%rsp)
	jne	554f
	movzbl	4975(%rsp), %ecx
	shll	$16, %ecx
	movzwl	4973(%rsp), %edx
	orl	%ecx, %edx
	shlq	$32, %rdx
	movl	4969(%rsp), %r13d
	orq	%rdx, %r13
	movdqa	4976(%rsp), %xmm0
130:
	movzbl	%al, %eax
	shlq	$8, %r13
	movq	$0, 176(%rsp)
	xorl	%edx, %edx
	leaq	16(%rsp), %r9
	movq	104(%rsp), %r10
	movq	32(%rsp), %r11
	jmp	126b
131:
	movq	%rcx, 72(%rsp)
	movq	%rdx, 32(%rsp)
	movdqa	%xmm0, 48(%rsp)
	movq	%r10, 104(%rsp)
	leaq	13152(%rsp), %rdi
	callq	std_alloc..vec..Vec..grow_amortized..791ee7faf1d0b0c8_1_x86
	testb	%al, %al
	je	560f
	movq	13152(%rsp), %r11
	movq	13160(%rsp), %r14
	leaq	1(%r14), %rax
	movq	%rax, 144(%rsp)
	leaq	16(%rsp), %r9
	movq	104(%rsp), %r10
	movdqa	48(%rsp), %xmm0
	movq	32(%rsp), %rdx
	movq	72(%rsp), %rcx
	jmp	127b
132:
	leaq	.L1_x86_switch.table.b2_commands..digests..start_1_x86(%rip), %rcx
	movq	(%rcx,%r14,8), %r13
133:
	pxor	%xmm0, %xmm0
	movdqa	%xmm0, 3152(%rsp)
	movdqa	%xmm0, 3136(%rsp)
	movdqa	%xmm0, 3120(%rsp)
	movdqa	%xmm0, 3104(%rsp)
	movq	%rax, 1120(%rsp)
	movq	%r12, 1128(%rsp)
	leaq	1136(%rsp), %rdi
	movl	$336, %edx
	vj_c_call	memcpy
	leaq	4960(%rsp), %rdi
	movl	$4096, %edx
	xorl	%esi, %esi
	vj_c_call	memset
	testb	%bl, %bl
	je	134f
	movzwl	1200(%rsp), %r14d
	addq	1192(%rsp), %r14
	jmp	135f
134:
	movl	1264(%rsp), %r14d
	addq	1256(%rsp), %r14
135:
	leaq	1128(%rsp), %rbx
	leaq	4960(%rsp), %rsi
	movl	$4096, %edx
	xorl	%edi, %edi
	vj_system_call	read, b2_read
	testq	%rax, %rax
	js	145f
	notq	%r14
	jmp	139f
136:
	leaq	4960(%rsp), %rsi
137:
	movq	%rbx, %rdi
	callq	blake2_state..blake2s..State..absorb_blocks_1_x86
138:
	leaq	4960(%rsp), %rsi
	movl	$4096, %edx
	xorl	%edi, %edi
	vj_system_call	read, b2_read
	testq	%rax, %rax
	js	145f
139:
	cmpq	$4096, %rax
	movl	$4096, %edx
	cmovbq	%rax, %rdx
	testq	%rax, %rax
	je	180f
	subq	%rdx, %r14
	jb	181f
	cmpb	$0, 1120(%rsp)
	je	140f
	cmpq	$1, %rax
	jne	136b
	movzwl	1200(%rsp), %eax
	cmpq	$64, %rax
	jae	142f
	movzbl	4960(%rsp), %ecx
	movb	%cl, 1208(%rsp,%rax)
	incl	%eax
	movw	%ax, 1200(%rsp)
	jmp	138b
140:
	cmpq	$1, %rax
	jne	141f
	movl	1264(%rsp), %eax
	cmpq	$128, %rax
	jae	143f
	movzbl	4960(%rsp), %ecx
	movb	%cl, 1280(%rsp,%rax)
	incl	%eax
	movl	%eax, 1264(%rsp)
	jmp	138b
141:
	leaq	4960(%rsp), %rsi
	jmp	144f
142:
	leaq	4960(%rsp), %rsi
	movl	$1, %edx
	jmp	137b
143:
	leaq	4960(%rsp), %rsi
	movl	$1, %edx
144:
	movq	%rbx, %rdi
	callq	blake2_state..blake2b..State..absorb_blocks_1_x86
	jmp	138b
145:
	leaq	13152(%rsp), %rdi
	callq	std_io..io..error..last_error_1_x86
	movq	112(%rsp), %rax
	movb	$1, (%rax)
	movb	$7, %r13b
	jmp	182f
146:
	movq	%rbx, 48(%rsp)
	movq	%rax, 128(%rsp)
	movq	%rdi, %rbx
	pextrq	$1, %xmm5, %r13
147:
	movq	72(%r14), %rsi
	movq	80(%r14), %rdx
	leaq	1472(%rsp), %rdi
	callq	b2_commands..arguments..message_of_1_x86
	movdqu	1480(%rsp), %xmm5
	cmpb	$0, 1472(%rsp)
	je	151f
	cmpq	$0, 128(%rsp)
	je	148f
	movq	%rbx, %rdi
	movdqa	%xmm5, 176(%rsp)
	vj_call	rattle_dealloc
	movdqa	176(%rsp), %xmm5
148:
	movq	8(%rsp), %rdx
	movq	24(%rsp), %r13
149:
	movd	%xmm5, %r11d
	pextrq	$1, %xmm5, %r9
150:
	movq	%r9, 4976(%rsp)
	movl	$0, 40(%rsp)
	movl	$0, 43(%rsp)
	jmp	203f
151:
	movq	1496(%rsp), %rax
	cmpq	$3, %r15
	movq	%rbx, %r10
	jne	239f
	movdqa	80(%rsp), %xmm0
	movdqa	%xmm0, 4976(%rsp)
	movq	%r10, 4992(%rsp)
	movq	%r13, %r11
	movq	%r13, 5000(%rsp)
	movq	128(%rsp), %rcx
	movq	%rcx, 5008(%rsp)
	shrq	$8, %rcx
	movq	%rcx, 96(%rsp)
	movq	%rax, 80(%rsp)
	shrq	$8, %rax
	movq	%rax, 144(%rsp)
	movl	$0, 40(%rsp)
	movl	$0, 43(%rsp)
	pxor	%xmm6, %xmm6
	movb	$1, %al
	xorl	%r15d, %r15d
	movzbl	%al, %eax
	leaq	.L1_x86_JTI4_2(%rip), %rcx
	movslq	(%rcx,%rax,4), %rax
	addq	%rcx, %rax
	xorl	%r14d, %r14d
	xorl	%ebx, %ebx
	xorl	%r13d, %r13d
	xorl	%r12d, %r12d
	xorl	%edx, %edx
	pxor	%xmm7, %xmm7
	movq	32(%rsp), %r9
	notrack	jmpq	*%rax
152:
	movl	$344, %edx
	movq	%r14, %rdi
	xorl	%esi, %esi
	vj_c_call	memset
	leaq	5120(%rsp), %rdi
	callq	blake2_digest..wiping..settle..128_1_x86
	leaq	5248(%rsp), %rdi
	callq	blake2_digest..wiping..settle..64_1_x86
153:
	movb	$1, %dil
	movl	%r15d, %r13d
	movq	8(%rsp), %rdx
	testb	%dil, %dil
	jne	39b
	jmp	548f
154:
	xorl	%eax, %eax
155:
	cmpq	%r11, %rax
	jae	160f
156:
	movq	%r11, 24(%rsp)
	movq	%r10, 72(%rsp)
157:
	leaq	4960(%rsp), %r13
	leaq	4032(%rsp), %rsi
	movq	%r13, %rdi
	movq	%r9, %rdx
	callq	blake2_transcript..collision..blake2b..last_step_1_x86
	movaps	4960(%rsp), %xmm0
	movaps	4976(%rsp), %xmm1
	movaps	4992(%rsp), %xmm2
	movaps	5008(%rsp), %xmm3
	movaps	%xmm3, 4704(%rsp)
	movaps	%xmm2, 4688(%rsp)
	movaps	%xmm1, 4672(%rsp)
	movaps	%xmm0, 4656(%rsp)
	leaq	5024(%rsp), %rsi
	leaq	3104(%rsp), %r12
	movl	$144, %edx
	movq	%r12, %rdi
	vj_c_call	memcpy
	leaq	13152(%rsp), %r15
	leaq	3920(%rsp), %rsi
	movq	%r15, %rdi
	movq	32(%rsp), %rdx
	callq	blake2_transcript..collision..blake2b..last_step_1_x86
	movaps	13152(%rsp), %xmm0
	movaps	13168(%rsp), %xmm1
	movaps	13184(%rsp), %xmm2
	movaps	13200(%rsp), %xmm3
	movaps	%xmm3, 4944(%rsp)
	movaps	%xmm2, 4928(%rsp)
	movaps	%xmm1, 4912(%rsp)
	movaps	%xmm0, 4896(%rsp)
	leaq	13216(%rsp), %rsi
	leaq	2768(%rsp), %rbx
	movl	$144, %edx
	movq	%rbx, %rdi
	vj_c_call	memcpy
	leaq	288(%rsp), %r14
	movq	%r14, %rdi
	movq	%r13, %rsi
	movq	%r12, %rdx
	callq	blake2_transcript..collision..blake2b..bytes_after_1_x86
	movups	288(%rsp), %xmm0
	movups	304(%rsp), %xmm1
	movups	320(%rsp), %xmm2
	movups	336(%rsp), %xmm3
	movaps	%xmm3, 1168(%rsp)
	movaps	%xmm2, 1152(%rsp)
	movaps	%xmm1, 1136(%rsp)
	movaps	%xmm0, 1120(%rsp)
	movq	%r14, %rdi
	movq	%r15, %rsi
	movq	%rbx, %rdx
	callq	blake2_transcript..collision..blake2b..bytes_after_1_x86
	movq	32(%rsp), %rsi
	movdqu	288(%rsp), %xmm0
	movups	304(%rsp), %xmm1
	movdqu	320(%rsp), %xmm2
	movups	336(%rsp), %xmm3
	movaps	%xmm3, 672(%rsp)
	movdqa	%xmm2, 656(%rsp)
	movaps	%xmm1, 640(%rsp)
	movdqa	%xmm0, 624(%rsp)
	cmpq	$4, %rsi
	jae	159f
	testq	%rsi, %rsi
	je	161f
	xorl	%eax, %eax
	movq	104(%rsp), %rbx
158:
	movzbl	1120(%rsp,%rax), %ecx
	cmpb	624(%rsp,%rax), %cl
	jne	162f
	incq	%rax
	cmpq	%rax, %rsi
	jne	158b
	jmp	164f
159:
	movl	1120(%rsp), %eax
	cmpl	624(%rsp), %eax
	jne	163f
	leaq	1120(%rsp), %rdi
	leaq	624(%rsp), %rdx
	callq	core..cmp..slices..groups_equal..i8.31.core..cmp..numbers..U8PartialEq_1_x86
	testb	%al, %al
	movq	104(%rsp), %rbx
	je	163f
	jmp	164f
160:
	xorps	%xmm4, %xmm4
	movaps	%xmm4, 1104(%rsp)
	movaps	%xmm4, 1088(%rsp)
	movaps	%xmm4, 1072(%rsp)
	movaps	%xmm4, 1056(%rsp)
	movaps	%xmm4, 1040(%rsp)
	movaps	%xmm4, 1024(%rsp)
	movaps	%xmm4, 1008(%rsp)
	movaps	%xmm4, 992(%rsp)
	movl	$0, 200(%rsp)
	movw	$0, 204(%rsp)
	movaps	%xmm4, 1664(%rsp)
	movaps	%xmm4, 1680(%rsp)
	movaps	%xmm4, 1696(%rsp)
	movaps	%xmm4, 1712(%rsp)
	movaps	%xmm4, 1728(%rsp)
	movaps	%xmm4, 1744(%rsp)
	movaps	%xmm4, 1760(%rsp)
	movaps	%xmm4, 1776(%rsp)
	movw	$0, 196(%rsp)
	movl	$0, 192(%rsp)
	xorl	%edx, %edx
	xorl	%r11d, %r11d
	xorl	%r9d, %r9d
	xorl	%ecx, %ecx
	xorl	%r8d, %r8d
	xorl	%edi, %edi
	xorl	%eax, %eax
	pxor	%xmm7, %xmm7
	pxor	%xmm9, %xmm9
	xorps	%xmm11, %xmm11
	pxor	%xmm5, %xmm5
	pxor	%xmm6, %xmm6
	pxor	%xmm8, %xmm8
	xorps	%xmm10, %xmm10
	jmp	169f
161:
	movq	104(%rsp), %rbx
	jmp	164f
162:
	cmpq	%rsi, %rax
	jae	164f
163:
	xorps	%xmm4, %xmm4
	movaps	%xmm4, 1104(%rsp)
	movaps	%xmm4, 1088(%rsp)
	movaps	%xmm4, 1072(%rsp)
	movaps	%xmm4, 1056(%rsp)
	movaps	%xmm4, 1040(%rsp)
	movaps	%xmm4, 1024(%rsp)
	movaps	%xmm4, 1008(%rsp)
	movaps	%xmm4, 992(%rsp)
	movl	$0, 200(%rsp)
	movw	$0, 204(%rsp)
	movaps	%xmm4, 1664(%rsp)
	movaps	%xmm4, 1680(%rsp)
	movaps	%xmm4, 1696(%rsp)
	movaps	%xmm4, 1712(%rsp)
	movaps	%xmm4, 1728(%rsp)
	movaps	%xmm4, 1744(%rsp)
	movaps	%xmm4, 1760(%rsp)
	movaps	%xmm4, 1776(%rsp)
	movw	$0, 196(%rsp)
	movl	$0, 192(%rsp)
	xorl	%edx, %edx
	xorl	%r11d, %r11d
	xorl	%r9d, %r9d
	xorl	%ecx, %ecx
	xorl	%r8d, %r8d
	xorl	%edi, %edi
	xorl	%eax, %eax
	pxor	%xmm7, %xmm7
	xorps	%xmm9, %xmm9
	xorps	%xmm11, %xmm11
	pxor	%xmm5, %xmm5
	pxor	%xmm6, %xmm6
	xorps	%xmm8, %xmm8
	xorps	%xmm10, %xmm10
	movq	72(%rsp), %r10
	jmp	169f
164:
	leaq	4656(%rsp), %rdi
	leaq	3104(%rsp), %rsi
	leaq	4896(%rsp), %rdx
	leaq	2768(%rsp), %rcx
	callq	blake2_transcript..collision..blake2b..same_step_1_x86
	testb	%al, %al
	je	167f
	pxor	%xmm0, %xmm0
	movdqa	%xmm0, 1472(%rsp)
	movdqa	%xmm0, 1488(%rsp)
	movdqa	%xmm0, 1504(%rsp)
	movdqa	%xmm0, 1520(%rsp)
	movdqa	%xmm0, 1536(%rsp)
	movdqa	%xmm0, 1552(%rsp)
	movdqa	%xmm0, 1568(%rsp)
	movdqa	%xmm0, 1584(%rsp)
	movl	$0, 2320(%rsp)
	movw	$0, 2324(%rsp)
	movdqa	%xmm0, 464(%rsp)
	movdqa	%xmm0, 480(%rsp)
	movdqa	%xmm0, 496(%rsp)
	movdqa	%xmm0, 512(%rsp)
	movdqa	%xmm0, 528(%rsp)
	movdqa	%xmm0, 544(%rsp)
	movdqa	%xmm0, 560(%rsp)
	movdqa	%xmm0, 576(%rsp)
	movw	$0, 2292(%rsp)
	movl	$0, 2288(%rsp)
	movdqa	%xmm0, 4592(%rsp)
	movdqa	%xmm0, 4608(%rsp)
	movdqa	%xmm0, 4624(%rsp)
	movdqa	%xmm0, 4640(%rsp)
	movl	4088(%rsp), %eax
	shll	$16, %eax
	movzbl	32(%rsp), %ecx
	orl	%ecx, %eax
	movd	%eax, %xmm0
	movdqa	.L1_x86_CPI4_8(%rip), %xmm1
	pxor	%xmm1, %xmm0
	movaps	.L1_x86_CPI4_9(%rip), %xmm2
	movaps	%xmm2, 2688(%rsp)
	movdqa	%xmm0, 2672(%rsp)
	movaps	.L1_x86_CPI4_14(%rip), %xmm0
	movaps	%xmm0, 2704(%rsp)
	movaps	.L1_x86_CPI4_15(%rip), %xmm3
	movaps	%xmm3, 2720(%rsp)
	movl	3976(%rsp), %eax
	shll	$16, %eax
	orl	%ecx, %eax
	movd	%eax, %xmm4
	pxor	%xmm1, %xmm4
	movaps	%xmm2, 2624(%rsp)
	movdqa	%xmm4, 2608(%rsp)
	movaps	%xmm0, 2640(%rsp)
	movaps	%xmm3, 2656(%rsp)
	movq	24(%rsp), %r13
	cmpq	$1, %r13
	movq	%r13, %rax
	adcq	$-1, %rax
	shrq	$7, %rax
	cmpq	$1, %rbx
	movq	%rbx, %rcx
	adcq	$-1, %rcx
	shrq	$7, %rcx
	movq	%rcx, 256(%rsp)
	movq	%rax, 32(%rsp)
	incq	%rax
	movq	%rax, 416(%rsp)
	movl	$128, %r12d
	movq	$0, 592(%rsp)
	movq	%r13, %rax
	movq	%rbx, %r13
	movq	$0, 608(%rsp)
	xorl	%r14d, %r14d
	movq	$0, 264(%rsp)
	movq	$0, 1600(%rsp)
	xorps	%xmm0, %xmm0
	movaps	%xmm0, 272(%rsp)
	movaps	%xmm0, 2752(%rsp)
	movaps	%xmm0, 448(%rsp)
	movaps	%xmm0, 1616(%rsp)
	movaps	%xmm0, 976(%rsp)
	movaps	%xmm0, 1648(%rsp)
	movaps	%xmm0, 2736(%rsp)
	movaps	%xmm0, 1632(%rsp)
	movq	$0, 616(%rsp)
	movq	72(%rsp), %r10
	jmp	166f
165:
	movaps	2672(%rsp), %xmm0
	movaps	2688(%rsp), %xmm1
	movaps	2704(%rsp), %xmm2
	movaps	2720(%rsp), %xmm3
	movaps	%xmm3, 336(%rsp)
	movaps	%xmm2, 320(%rsp)
	movaps	%xmm1, 304(%rsp)
	movaps	%xmm0, 288(%rsp)
	xorl	%ecx, %ecx
	movb	%dl, %cl
	leaq	288(%rsp), %rdi
	leaq	1120(%rsp), %rsi
	movq	%rbx, %rdx
	xorl	%r8d, %r8d
	vj_call	blake2_compress..compress..blake2b..compress_1_x86
	movaps	288(%rsp), %xmm0
	movaps	304(%rsp), %xmm1
	movaps	320(%rsp), %xmm2
	movaps	336(%rsp), %xmm3
	movaps	%xmm3, 4640(%rsp)
	movaps	%xmm2, 4624(%rsp)
	movaps	%xmm1, 4608(%rsp)
	movaps	%xmm0, 4592(%rsp)
	movaps	%xmm0, 2672(%rsp)
	movaps	%xmm1, 2688(%rsp)
	movaps	%xmm2, 2704(%rsp)
	movaps	%xmm3, 2720(%rsp)
	movaps	2608(%rsp), %xmm0
	movaps	2624(%rsp), %xmm1
	movaps	2640(%rsp), %xmm2
	movaps	2656(%rsp), %xmm3
	movaps	%xmm3, 336(%rsp)
	movaps	%xmm2, 320(%rsp)
	movaps	%xmm1, 304(%rsp)
	movaps	%xmm0, 288(%rsp)
	movq	752(%rsp), %rdx
	movzbl	761(%rsp), %r8d
	movl	760(%rsp), %ecx
	leaq	288(%rsp), %rdi
	leaq	624(%rsp), %rsi
	vj_call	blake2_compress..compress..blake2b..compress_1_x86
	movaps	288(%rsp), %xmm0
	movdqa	304(%rsp), %xmm1
	movaps	320(%rsp), %xmm2
	movaps	336(%rsp), %xmm3
	movaps	%xmm3, 4640(%rsp)
	movaps	%xmm2, 4624(%rsp)
	movdqa	%xmm1, 4608(%rsp)
	movaps	%xmm0, 4592(%rsp)
	movaps	%xmm0, 2608(%rsp)
	movdqa	%xmm1, 2624(%rsp)
	movaps	%xmm2, 2640(%rsp)
	movaps	%xmm3, 2656(%rsp)
	incq	%r14
	addq	$-128, %r13
	subq	$-128, %r12
	movq	112(%rsp), %rax
	addq	$-128, %rax
	cmpq	%r14, 416(%rsp)
	movq	72(%rsp), %r10
	je	168f
166:
	leaq	(%r10,%r12), %rsi
	addq	$-128, %rsi
	cmpq	$128, %rax
	movl	$128, %edx
	movq	%rax, 112(%rsp)
	cmovbq	%rax, %rdx
	xorps	%xmm0, %xmm0
	movaps	%xmm0, 400(%rsp)
	movaps	%xmm0, 384(%rsp)
	movaps	%xmm0, 368(%rsp)
	movaps	%xmm0, 352(%rsp)
	movaps	%xmm0, 336(%rsp)
	movaps	%xmm0, 320(%rsp)
	movaps	%xmm0, 304(%rsp)
	movaps	%xmm0, 288(%rsp)
	leaq	288(%rsp), %rdi
	vj_c_call	memcpy
	cmpq	%r14, 32(%rsp)
	movq	%r12, %rbx
	cmoveq	24(%rsp), %rbx
	sete	48(%rsp)
	movaps	400(%rsp), %xmm0
	movaps	%xmm0, 2464(%rsp)
	movaps	384(%rsp), %xmm1
	movaps	%xmm1, 2448(%rsp)
	movaps	368(%rsp), %xmm2
	movaps	%xmm2, 2432(%rsp)
	movaps	352(%rsp), %xmm3
	movaps	%xmm3, 2416(%rsp)
	movaps	288(%rsp), %xmm4
	movaps	304(%rsp), %xmm5
	movaps	320(%rsp), %xmm6
	movaps	336(%rsp), %xmm7
	movaps	%xmm7, 2400(%rsp)
	movaps	%xmm6, 2384(%rsp)
	movaps	%xmm5, 2368(%rsp)
	movaps	%xmm4, 1120(%rsp)
	movaps	%xmm5, 1136(%rsp)
	movaps	%xmm6, 1152(%rsp)
	movaps	%xmm7, 1168(%rsp)
	movaps	%xmm3, 1184(%rsp)
	movaps	%xmm2, 1200(%rsp)
	movaps	%xmm1, 1216(%rsp)
	movaps	%xmm0, 1232(%rsp)
	movq	%rbx, 1248(%rsp)
	sete	1256(%rsp)
	movaps	%xmm4, 2352(%rsp)
	leaq	1257(%rsp), %rax
	movl	$0, 3(%rax)
	movl	$0, (%rax)
	movq	176(%rsp), %rax
	leaq	(%rax,%r12), %rsi
	addq	$-128, %rsi
	cmpq	$128, %r13
	movl	$128, %edx
	cmovbq	%r13, %rdx
	xorps	%xmm0, %xmm0
	movaps	%xmm0, 400(%rsp)
	movaps	%xmm0, 384(%rsp)
	movaps	%xmm0, 368(%rsp)
	movaps	%xmm0, 352(%rsp)
	movaps	%xmm0, 336(%rsp)
	movaps	%xmm0, 320(%rsp)
	movaps	%xmm0, 304(%rsp)
	movaps	%xmm0, 288(%rsp)
	leaq	288(%rsp), %rdi
	vj_c_call	memcpy
	cmpq	%r14, 256(%rsp)
	sete	160(%rsp)
	movq	%r12, %r15
	cmoveq	104(%rsp), %r15
	movaps	400(%rsp), %xmm0
	movaps	%xmm0, 2464(%rsp)
	movaps	384(%rsp), %xmm1
	movaps	%xmm1, 2448(%rsp)
	movaps	368(%rsp), %xmm2
	movaps	%xmm2, 2432(%rsp)
	movaps	352(%rsp), %xmm3
	movaps	%xmm3, 2416(%rsp)
	movdqa	288(%rsp), %xmm4
	movdqa	304(%rsp), %xmm5
	movdqa	320(%rsp), %xmm6
	movdqa	336(%rsp), %xmm7
	movdqa	%xmm7, 2400(%rsp)
	movdqa	%xmm6, 2384(%rsp)
	movdqa	%xmm4, 624(%rsp)
	movdqa	%xmm5, 640(%rsp)
	movdqa	%xmm6, 656(%rsp)
	movdqa	%xmm7, 672(%rsp)
	movaps	%xmm3, 688(%rsp)
	movaps	%xmm2, 704(%rsp)
	movaps	%xmm1, 720(%rsp)
	movaps	%xmm0, 736(%rsp)
	movq	%r15, 752(%rsp)
	sete	760(%rsp)
	movdqa	%xmm5, 2368(%rsp)
	movdqa	%xmm4, 2352(%rsp)
	leaq	761(%rsp), %rax
	movl	$0, 3(%rax)
	movl	$0, (%rax)
	leaq	2672(%rsp), %rdi
	leaq	1120(%rsp), %rsi
	leaq	2608(%rsp), %rdx
	leaq	624(%rsp), %rcx
	callq	blake2_transcript..collision..blake2b..same_step_1_x86
	movzbl	48(%rsp), %edx
	testb	%al, %al
	jne	165b
	movaps	2672(%rsp), %xmm0
	movaps	%xmm0, 272(%rsp)
	movaps	2688(%rsp), %xmm0
	movaps	%xmm0, 2752(%rsp)
	movaps	2704(%rsp), %xmm0
	movaps	%xmm0, 448(%rsp)
	movaps	2720(%rsp), %xmm0
	movaps	%xmm0, 1616(%rsp)
	movaps	2608(%rsp), %xmm0
	movaps	%xmm0, 976(%rsp)
	movaps	2624(%rsp), %xmm0
	movaps	%xmm0, 1648(%rsp)
	movaps	2640(%rsp), %xmm0
	movaps	%xmm0, 2736(%rsp)
	movaps	2656(%rsp), %xmm0
	movaps	%xmm0, 1632(%rsp)
	movaps	1120(%rsp), %xmm0
	movaps	1136(%rsp), %xmm1
	movaps	1152(%rsp), %xmm2
	movaps	1168(%rsp), %xmm3
	movaps	%xmm0, 1472(%rsp)
	movaps	%xmm1, 1488(%rsp)
	movaps	%xmm2, 1504(%rsp)
	movaps	%xmm3, 1520(%rsp)
	movaps	1184(%rsp), %xmm0
	movaps	%xmm0, 1536(%rsp)
	movaps	1200(%rsp), %xmm0
	movaps	%xmm0, 1552(%rsp)
	movaps	1216(%rsp), %xmm0
	movaps	%xmm0, 1568(%rsp)
	movaps	1232(%rsp), %xmm0
	movaps	%xmm0, 1584(%rsp)
	movw	$0, 2324(%rsp)
	movl	$0, 2320(%rsp)
	movaps	2464(%rsp), %xmm0
	movaps	%xmm0, 576(%rsp)
	movaps	2448(%rsp), %xmm0
	movaps	%xmm0, 560(%rsp)
	movaps	2432(%rsp), %xmm0
	movaps	%xmm0, 544(%rsp)
	movaps	2416(%rsp), %xmm0
	movaps	%xmm0, 528(%rsp)
	movaps	2352(%rsp), %xmm0
	movaps	2368(%rsp), %xmm1
	movaps	2384(%rsp), %xmm2
	movaps	2400(%rsp), %xmm3
	movaps	%xmm3, 512(%rsp)
	movaps	%xmm2, 496(%rsp)
	movaps	%xmm1, 480(%rsp)
	movaps	%xmm0, 464(%rsp)
	movw	$0, 2292(%rsp)
	movl	$0, 2288(%rsp)
	movb	$1, %al
	movq	%rax, 608(%rsp)
	movq	%rbx, 616(%rsp)
	movl	%edx, %eax
	movq	%rax, 1600(%rsp)
	movq	%r15, 264(%rsp)
	movzbl	160(%rsp), %eax
	movq	%rax, 592(%rsp)
	jmp	165b
167:
	movaps	4656(%rsp), %xmm4
	movdqa	4672(%rsp), %xmm7
	movdqa	4688(%rsp), %xmm9
	movaps	4704(%rsp), %xmm11
	movq	3232(%rsp), %r11
	movzbl	3240(%rsp), %r9d
	movzbl	3241(%rsp), %ecx
	movdqa	4896(%rsp), %xmm5
	movdqa	4912(%rsp), %xmm6
	movdqa	4928(%rsp), %xmm8
	movaps	4944(%rsp), %xmm10
	movq	2896(%rsp), %r8
	movzbl	2904(%rsp), %edi
	movzbl	2905(%rsp), %eax
	movups	3104(%rsp), %xmm0
	movups	3120(%rsp), %xmm1
	movups	3136(%rsp), %xmm2
	movups	3152(%rsp), %xmm3
	movaps	%xmm0, 992(%rsp)
	movaps	%xmm1, 1008(%rsp)
	movaps	%xmm2, 1024(%rsp)
	movaps	%xmm3, 1040(%rsp)
	movups	3168(%rsp), %xmm0
	movaps	%xmm0, 1056(%rsp)
	movups	3184(%rsp), %xmm0
	movaps	%xmm0, 1072(%rsp)
	movups	3200(%rsp), %xmm0
	movaps	%xmm0, 1088(%rsp)
	movups	3216(%rsp), %xmm0
	movaps	%xmm0, 1104(%rsp)
	movw	$0, 204(%rsp)
	movl	$0, 200(%rsp)
	movups	2880(%rsp), %xmm0
	movaps	%xmm0, 1776(%rsp)
	movups	2864(%rsp), %xmm0
	movaps	%xmm0, 1760(%rsp)
	movups	2848(%rsp), %xmm0
	movaps	%xmm0, 1744(%rsp)
	movups	2832(%rsp), %xmm0
	movaps	%xmm0, 1728(%rsp)
	movdqu	2768(%rsp), %xmm0
	movups	2784(%rsp), %xmm1
	movdqu	2800(%rsp), %xmm2
	movups	2816(%rsp), %xmm3
	movaps	%xmm3, 1712(%rsp)
	movdqa	%xmm2, 1696(%rsp)
	movaps	%xmm1, 1680(%rsp)
	movdqa	%xmm0, 1664(%rsp)
	movw	$0, 196(%rsp)
	movl	$0, 192(%rsp)
	movb	$1, %dl
	movq	72(%rsp), %r10
	jmp	169f
168:
	movaps	1584(%rsp), %xmm0
	movaps	%xmm0, 2592(%rsp)
	movaps	1568(%rsp), %xmm0
	movaps	%xmm0, 2576(%rsp)
	movaps	1552(%rsp), %xmm0
	movaps	%xmm0, 2560(%rsp)
	movaps	1536(%rsp), %xmm0
	movaps	%xmm0, 2544(%rsp)
	movaps	1472(%rsp), %xmm0
	movaps	1488(%rsp), %xmm1
	movaps	1504(%rsp), %xmm2
	movaps	1520(%rsp), %xmm3
	movaps	%xmm3, 2528(%rsp)
	movaps	%xmm2, 2512(%rsp)
	movaps	%xmm1, 2496(%rsp)
	movaps	%xmm0, 2480(%rsp)
	movl	2320(%rsp), %eax
	movl	%eax, 248(%rsp)
	movzwl	2324(%rsp), %eax
	movw	%ax, 252(%rsp)
	movaps	576(%rsp), %xmm0
	movaps	%xmm0, 1904(%rsp)
	movaps	560(%rsp), %xmm0
	movaps	%xmm0, 1888(%rsp)
	movaps	544(%rsp), %xmm0
	movaps	%xmm0, 1872(%rsp)
	movaps	528(%rsp), %xmm0
	movaps	%xmm0, 1856(%rsp)
	movaps	464(%rsp), %xmm0
	movaps	480(%rsp), %xmm1
	movaps	496(%rsp), %xmm2
	movaps	512(%rsp), %xmm3
	movaps	%xmm3, 1840(%rsp)
	movaps	%xmm2, 1824(%rsp)
	movaps	%xmm1, 1808(%rsp)
	movaps	%xmm0, 1792(%rsp)
	movl	2288(%rsp), %eax
	movl	%eax, 240(%rsp)
	movzwl	2292(%rsp), %eax
	movw	%ax, 244(%rsp)
	movaps	2592(%rsp), %xmm0
	movaps	%xmm0, 1104(%rsp)
	movaps	2576(%rsp), %xmm0
	movaps	%xmm0, 1088(%rsp)
	movaps	2560(%rsp), %xmm0
	movaps	%xmm0, 1072(%rsp)
	movaps	2544(%rsp), %xmm0
	movaps	%xmm0, 1056(%rsp)
	movaps	2480(%rsp), %xmm0
	movaps	2496(%rsp), %xmm1
	movaps	2512(%rsp), %xmm2
	movaps	2528(%rsp), %xmm3
	movaps	%xmm3, 1040(%rsp)
	movaps	%xmm2, 1024(%rsp)
	movaps	%xmm1, 1008(%rsp)
	movaps	%xmm0, 992(%rsp)
	movzwl	252(%rsp), %eax
	movw	%ax, 204(%rsp)
	movl	248(%rsp), %eax
	movl	%eax, 200(%rsp)
	movaps	1904(%rsp), %xmm0
	movaps	%xmm0, 1776(%rsp)
	movaps	1888(%rsp), %xmm0
	movaps	%xmm0, 1760(%rsp)
	movaps	1872(%rsp), %xmm0
	movaps	%xmm0, 1744(%rsp)
	movaps	1856(%rsp), %xmm0
	movaps	%xmm0, 1728(%rsp)
	movdqa	1792(%rsp), %xmm0
	movaps	1808(%rsp), %xmm1
	movdqa	1824(%rsp), %xmm2
	movaps	1840(%rsp), %xmm3
	movaps	%xmm3, 1712(%rsp)
	movdqa	%xmm2, 1696(%rsp)
	movaps	%xmm1, 1680(%rsp)
	movdqa	%xmm0, 1664(%rsp)
	movzwl	244(%rsp), %eax
	movw	%ax, 196(%rsp)
	movl	240(%rsp), %eax
	movl	%eax, 192(%rsp)
	cmpb	$0, 608(%rsp)
	setne	%dl
	xorl	%ecx, %ecx
	xorl	%eax, %eax
	movaps	272(%rsp), %xmm4
	movq	592(%rsp), %rdi
	movdqa	976(%rsp), %xmm5
	movdqa	1648(%rsp), %xmm6
	movq	264(%rsp), %r8
	movdqa	2752(%rsp), %xmm7
	movdqa	2736(%rsp), %xmm8
	movdqa	448(%rsp), %xmm9
	movaps	1632(%rsp), %xmm10
	movaps	1616(%rsp), %xmm11
	movq	1600(%rsp), %r9
	movq	616(%rsp), %r11
169:
	movq	%r10, %r12
	movaps	992(%rsp), %xmm0
	movaps	1008(%rsp), %xmm1
	movaps	1024(%rsp), %xmm2
	movaps	1040(%rsp), %xmm3
	movaps	%xmm0, 4272(%rsp)
	movaps	%xmm1, 4288(%rsp)
	movaps	%xmm2, 4304(%rsp)
	movaps	%xmm3, 4320(%rsp)
	movaps	1056(%rsp), %xmm0
	movaps	%xmm0, 4336(%rsp)
	movaps	1072(%rsp), %xmm0
	movaps	%xmm0, 4352(%rsp)
	movaps	1088(%rsp), %xmm0
	movaps	%xmm0, 4368(%rsp)
	movaps	1104(%rsp), %xmm0
	movaps	%xmm0, 4384(%rsp)
	movzwl	204(%rsp), %esi
	movw	%si, 236(%rsp)
	movl	200(%rsp), %esi
	movl	%esi, 232(%rsp)
	movaps	1664(%rsp), %xmm0
	movaps	1680(%rsp), %xmm1
	movdqa	1696(%rsp), %xmm2
	movaps	1712(%rsp), %xmm3
	movaps	%xmm0, 4400(%rsp)
	movaps	%xmm1, 4416(%rsp)
	movdqa	%xmm2, 4432(%rsp)
	movaps	%xmm3, 4448(%rsp)
	movaps	1728(%rsp), %xmm0
	movaps	%xmm0, 4464(%rsp)
	movaps	1744(%rsp), %xmm0
	movaps	%xmm0, 4480(%rsp)
	movaps	1760(%rsp), %xmm0
	movaps	%xmm0, 4496(%rsp)
	movdqa	1776(%rsp), %xmm0
	movdqa	%xmm0, 4512(%rsp)
	movzwl	196(%rsp), %esi
	movw	%si, 228(%rsp)
	movl	192(%rsp), %esi
	movl	%esi, 224(%rsp)
	testb	%dl, %dl
	movq	144(%rsp), %r13
	je	170f
	movaps	%xmm4, 3456(%rsp)
	movdqa	%xmm7, 3472(%rsp)
	movdqa	%xmm9, 3488(%rsp)
	movaps	%xmm11, 3504(%rsp)
	movaps	4272(%rsp), %xmm0
	movaps	4288(%rsp), %xmm1
	movaps	4304(%rsp), %xmm2
	movaps	4320(%rsp), %xmm3
	movaps	%xmm0, 3520(%rsp)
	movaps	%xmm1, 3536(%rsp)
	movaps	%xmm2, 3552(%rsp)
	movaps	%xmm3, 3568(%rsp)
	movaps	4336(%rsp), %xmm0
	movaps	%xmm0, 3584(%rsp)
	movaps	4352(%rsp), %xmm0
	movaps	%xmm0, 3600(%rsp)
	movaps	4368(%rsp), %xmm0
	movaps	%xmm0, 3616(%rsp)
	movaps	4384(%rsp), %xmm0
	movaps	%xmm0, 3632(%rsp)
	movq	%r11, 3648(%rsp)
	movb	%r9b, 3656(%rsp)
	movb	%cl, 3657(%rsp)
	movl	232(%rsp), %ecx
	movl	%ecx, 3658(%rsp)
	movzwl	236(%rsp), %ecx
	movw	%cx, 3662(%rsp)
	movdqa	%xmm5, 1920(%rsp)
	movdqa	%xmm6, 1936(%rsp)
	movdqa	%xmm8, 1952(%rsp)
	movaps	%xmm10, 1968(%rsp)
	movaps	4400(%rsp), %xmm0
	movaps	4416(%rsp), %xmm1
	movdqa	4432(%rsp), %xmm2
	movaps	4448(%rsp), %xmm3
	movaps	%xmm0, 1984(%rsp)
	movaps	%xmm1, 2000(%rsp)
	movdqa	%xmm2, 2016(%rsp)
	movaps	%xmm3, 2032(%rsp)
	movaps	4464(%rsp), %xmm0
	movaps	%xmm0, 2048(%rsp)
	movaps	4480(%rsp), %xmm0
	movaps	%xmm0, 2064(%rsp)
	movaps	4496(%rsp), %xmm0
	movaps	%xmm0, 2080(%rsp)
	movdqa	4512(%rsp), %xmm0
	movdqa	%xmm0, 2096(%rsp)
	movq	%r8, 2112(%rsp)
	movb	%dil, 2120(%rsp)
	movb	%al, 2121(%rsp)
	movl	224(%rsp), %eax
	movl	%eax, 2122(%rsp)
	movzwl	228(%rsp), %eax
	movw	%ax, 2126(%rsp)
	leaq	4528(%rsp), %rdi
	leaq	3456(%rsp), %rsi
	movq	8(%rsp), %rbx
	movq	%rbx, %rdx
	callq	b2_commands..witness..print_blake2b..c1844c1740294036_1_x86
	cmpb	$0, 4528(%rsp)
	je	179f
	movq	4544(%rsp), %rsi
	movb	$1, %al
	movzbl	4536(%rsp), %ecx
	movq	80(%rsp), %rbx
	testb	%al, %al
	jne	176f
	jmp	101b
170:
	xorl	%ebx, %ebx
171:
	leaq	.L1_x86_static.45(%rip), %rsi
	addq	%rbx, %rsi
	movl	$5, %r14d
	subq	%rbx, %r14
	movl	$1, %edi
	movq	%r14, %rdx
	vj_system_call	write, b2_write
	testq	%rax, %rax
	js	173f
	cmpq	%r14, %rax
	cmovbq	%rax, %r14
	testq	%r14, %r14
	je	174f
	addq	%r14, %rbx
	cmpq	$4, %rbx
	jbe	171b
172:
	xorl	%eax, %eax
	jmp	175f
173:
	leaq	4960(%rsp), %rdi
	callq	std_io..io..error..last_error_1_x86
174:
	movq	8(%rsp), %rax
	movb	$1, (%rax)
	movb	$1, %al
175:
	xorl	%ecx, %ecx
	testb	%al, %al
	setne	%cl
	leal	(%rcx,%rcx,8), %ecx
	xorl	%esi, %esi
	movq	80(%rsp), %rbx
	testb	%al, %al
	je	101b
176:
	movzbl	%cl, %edi
	movq	8(%rsp), %rdx
	callq	b2_commands..fault..Fault..report..c1844c1740294036_1_x86
	movl	%eax, %r15d
177:
	movq	%r12, %rdi
	movzbl	128(%rsp), %eax
	movq	96(%rsp), %rcx
	orq	%rax, %rcx
	shlq	$8, %rcx
	movq	176(%rsp), %r14
	je	178f
	vj_call	rattle_dealloc
178:
	movzbl	%bl, %eax
	orq	%rax, %r13
	shlq	$8, %r13
	je	221f
	movq	%r14, %rdi
	vj_call	rattle_dealloc
	jmp	221f
179:
	leaq	4560(%rsp), %rdi
	leaq	1920(%rsp), %rsi
	movq	%rbx, %rdx
	callq	b2_commands..witness..print_blake2b..c1844c1740294036_1_x86
	movzbl	4560(%rsp), %eax
	movzbl	4568(%rsp), %ecx
	movq	4576(%rsp), %rsi
	movq	80(%rsp), %rbx
	testb	%al, %al
	jne	176b
	jmp	101b
180:
	movzbl	1120(%rsp), %r15d
	leaq	13160(%rsp), %r14
	movl	$344, %edx
	movq	%r14, %rdi
	movq	%rbx, %rsi
	vj_c_call	memcpy
	movq	%r15, 13152(%rsp)
	leaq	624(%rsp), %rdi
	leaq	13152(%rsp), %rsi
	callq	blake2_state..runs..Run..padded_1_x86
	leaq	4968(%rsp), %rbx
	movl	$344, %edx
	movq	%rbx, %rdi
	movq	%r14, %rsi
	vj_c_call	memcpy
	movq	%r15, 4960(%rsp)
	testq	%r15, %r15
	je	243f
	pxor	%xmm0, %xmm0
	movdqu	%xmm0, 160(%rbx)
	movdqu	%xmm0, 144(%rbx)
	movdqu	%xmm0, 128(%rbx)
	movdqu	%xmm0, 112(%rbx)
	movdqu	%xmm0, 96(%rbx)
	movdqu	%xmm0, 80(%rbx)
	movdqu	%xmm0, 64(%rbx)
	movdqu	%xmm0, 48(%rbx)
	movdqu	%xmm0, 32(%rbx)
	movdqu	%xmm0, 16(%rbx)
	movdqu	%xmm0, (%rbx)
	leaq	5048(%rsp), %rdi
	callq	blake2_digest..wiping..settle..64_1_x86
	leaq	5112(%rsp), %rdi
	callq	blake2_digest..wiping..settle..32_1_x86
	jmp	244f
181:
	movb	$6, %r13b
182:
	movzbl	1120(%rsp), %r15d
	movq	%r15, 4960(%rsp)
	leaq	4968(%rsp), %r14
	movl	$344, %edx
	movq	%r14, %rdi
	movq	%rbx, %rsi
	vj_c_call	memcpy
	testq	%r15, %r15
	je	183f
	pxor	%xmm0, %xmm0
	movdqu	%xmm0, 160(%r14)
	movdqu	%xmm0, 144(%r14)
	movdqu	%xmm0, 128(%r14)
	movdqu	%xmm0, 112(%r14)
	movdqu	%xmm0, 96(%r14)
	movdqu	%xmm0, 80(%r14)
	movdqu	%xmm0, 64(%r14)
	movdqu	%xmm0, 48(%r14)
	movdqu	%xmm0, 32(%r14)
	movdqu	%xmm0, 16(%r14)
	movdqu	%xmm0, (%r14)
	leaq	5048(%rsp), %rdi
	callq	blake2_digest..wiping..settle..64_1_x86
	leaq	5112(%rsp), %rdi
	callq	blake2_digest..wiping..settle..32_1_x86
	jmp	184f
183:
	movl	$344, %edx
	movq	%r14, %rdi
	xorl	%esi, %esi
	vj_c_call	memset
	leaq	5120(%rsp), %rdi
	callq	blake2_digest..wiping..settle..128_1_x86
	leaq	5248(%rsp), %rdi
	callq	blake2_digest..wiping..settle..64_1_x86
184:
	movb	$1, %dil
	jmp	252f
185:
	xorl	%ecx, %ecx
186:
	movq	48(%r14), %rsi
	movq	56(%r14), %r15
	leaq	16(%rsp), %rdx
	movq	%rdx, 624(%rsp)
	pxor	%xmm0, %xmm0
	movdqu	%xmm0, 632(%rsp)
	testq	%r15, %r15
	jne	359f
	xorl	%r11d, %r11d
	xorl	%eax, %eax
187:
	movq	%rcx, 128(%rsp)
	leaq	(%rax,%r15), %r10
	leaq	(%rdx,%rax), %rdi
	movq	%rdi, %rcx
	subq	%rsi, %rcx
	cmpq	%r15, %rcx
	movq	%r8, 48(%rsp)
	movq	%rdx, %r13
	jae	232f
	cmpq	$4, %r15
	jb	188f
	cmpq	$32, %rcx
	jae	300f
188:
	xorl	%ecx, %ecx
189:
	movq	%r15, %r8
	movq	%rcx, %rdx
	andq	$3, %r8
	je	191f
	movq	%rcx, %rdx
190:
	movzbl	(%rsi,%rdx), %r9d
	movb	%r9b, (%rdi,%rdx)
	incq	%rdx
	decq	%r8
	jne	190b
191:
	subq	%r15, %rcx
	cmpq	$-4, %rcx
	ja	233f
	addq	%r13, %rax
	addq	$3, %rax
192:
	movzbl	(%rsi,%rdx), %ecx
	movb	%cl, -3(%rax,%rdx)
	movzbl	1(%rsi,%rdx), %ecx
	movb	%cl, -2(%rax,%rdx)
	movzbl	2(%rsi,%rdx), %ecx
	movb	%cl, -1(%rax,%rdx)
	movzbl	3(%rsi,%rdx), %ecx
	movb	%cl, (%rax,%rdx)
	addq	$4, %rdx
	cmpq	%rdx, %r15
	jne	192b
	jmp	233f
193:
	cmpq	$64, %r13
	setb	%al
	xorl	%edx, %edx
	movq	128(%rsp), %r13
	cmpb	$1, %r13b
	movq	80(%rsp), %r11
	cmovneq	%rdx, %r11
	cmpb	$1, %bl
	movq	96(%rsp), %r10
	cmovneq	%rdx, %r10
	movq	%r12, %rcx
	subq	$-128, %rcx
	movq	%rcx, %r9
	setb	%cl
	testb	$1, 48(%rsp)
	cmoveq	%rdx, %r14
	movq	3128(%rsp), %r8
	movq	32(%rsp), %rsi
	cmoveq	%rdx, %rsi
	cmpq	$16, %r11
	ja	242f
	cmpq	$16, %r10
	ja	242f
	andb	%al, %cl
	orb	%cl, %r15b
	testb	$1, %r15b
	je	242f
	movq	%r11, %rdx
	movq	%r8, 80(%rsp)
	movq	%rdi, 24(%rsp)
	movq	%rsi, 32(%rsp)
	cmpb	$1, %bl
	leaq	.L1_x86_static.0(%rip), %rax
	movq	144(%rsp), %r15
	cmovneq	%rax, %r15
	cmpb	$1, %r13b
	movq	160(%rsp), %rsi
	cmovneq	%rax, %rsi
	pxor	%xmm0, %xmm0
	movdqu	%xmm0, 1135(%rsp)
	movdqa	%xmm0, 1120(%rsp)
	movq	%r14, %r13
	movl	%r14d, %eax
	shll	$8, %eax
	movzwl	%ax, %eax
	movdqa	%xmm0, 4960(%rsp)
	orl	$16842752, %eax
	testb	$1, 48(%rsp)
	movl	$16842752, %ecx
	cmovnel	%eax, %ecx
	movl	%ecx, 96(%rsp)
	movdqa	%xmm0, 4976(%rsp)
	movq	%r9, %rbx
	cmoveq	%r12, %rbx
	leaq	4960(%rsp), %rdi
	movq	%r10, %r14
	vj_c_call	memcpy
	leaq	4976(%rsp), %rdi
	movq	%r15, %rsi
	movq	%r14, %rdx
	vj_c_call	memcpy
	cmpq	$1, %rbx
	movq	%rbx, 112(%rsp)
	adcq	$-1, %rbx
	movabsq	$8198552921648689535, %rax
	cmpq	%rax, %rbx
	ja	544f
	movaps	4960(%rsp), %xmm0
	movaps	%xmm0, 144(%rsp)
	movdqa	4976(%rsp), %xmm0
	movdqa	%xmm0, 160(%rsp)
	shrq	$7, %rbx
	movq	%rbx, 128(%rsp)
	leaq	1(%rbx), %r14
	movq	%r14, %rax
	shlq	$4, %rax
	leaq	(%rax,%rax,8), %rdi
	movl	$8, %esi
	vj_call	rattle_alloc
	testb	$1, %al
	je	544f
	movq	%rdx, %r15
	movq	%r12, %rbx
	movq	%rdx, 2768(%rsp)
	movq	%r14, 2784(%rsp)
	testb	$1, 48(%rsp)
	je	376f
	pxor	%xmm0, %xmm0
	movdqa	%xmm0, 5072(%rsp)
	movdqa	%xmm0, 5056(%rsp)
	movdqa	%xmm0, 5040(%rsp)
	movdqa	%xmm0, 5024(%rsp)
	movdqa	%xmm0, 5008(%rsp)
	movdqa	%xmm0, 4992(%rsp)
	movdqa	%xmm0, 4976(%rsp)
	movdqa	%xmm0, 4960(%rsp)
	leaq	4960(%rsp), %rdi
	movq	32(%rsp), %rsi
	movq	%r13, %rdx
	jmp	377f
194:
	movq	%rcx, 48(%rsp)
	movq	56(%r14), %rax
	leaq	-1(%rax), %rdx
	cmpq	$17, %rdx
	ja	197f
	movq	48(%r14), %rdx
	cmpq	$2, %rax
	jb	195f
	cmpb	$48, (%rdx)
	je	197f
195:
	xorl	%r13d, %r13d
	xorl	%esi, %esi
196:
	movzbl	(%rdx,%rsi), %edi
	addb	$-48, %dil
	cmpb	$9, %dil
	ja	197f
	leaq	(,%r13,4), %r8
	addq	%r13, %r8
	movzbl	%dil, %edi
	leaq	(%rdi,%r8,2), %r13
	incq	%rsi
	cmpq	%rsi, %rax
	jne	196b
	cmpq	$2, %r15
	je	197f
	cmpq	$4, 80(%r14)
	jne	197f
	movq	72(%r14), %rax
	movl	(%rax), %edx
	movq	%rdx, %rax
	shlq	$32, %rax
	orq	%rdx, %rax
	movabsq	$7310027660819853165, %rdx
	cmpq	%rdx, %rax
	je	450f
	movb	$1, %bl
	movabsq	$8391157649159446892, %rdx
	cmpq	%rdx, %rax
	je	451f
197:
	pxor	%xmm0, %xmm0
198:
	movdqa	%xmm0, 2832(%rsp)
	movdqa	%xmm0, 2816(%rsp)
	movdqa	%xmm0, 2800(%rsp)
	movdqa	%xmm0, 2784(%rsp)
	movdqa	%xmm0, 2768(%rsp)
199:
	xorl	%r11d, %r11d
	xorl	%r9d, %r9d
200:
	movq	24(%rsp), %r13
201:
	movq	%r9, 4976(%rsp)
	movl	$0, 40(%rsp)
	movl	$0, 43(%rsp)
202:
	movq	8(%rsp), %rdx
203:
	movzbl	%r11b, %edi
	movq	%r9, %rsi
	callq	b2_commands..fault..Fault..report..c1844c1740294036_1_x86
	movb	$1, %r15b
	cmpb	$2, %al
	jne	221f
204:
	movq	8(%r14), %rcx
	addq	$-2, %rcx
	cmpq	$7, %rcx
	ja	214f
	movq	(%r14), %rax
	leaq	.L1_x86_JTI4_1(%rip), %rdx
	movslq	(%rdx,%rcx,4), %rcx
	addq	%rdx, %rcx
	notrack	jmpq	*%rcx
205:
	movzbl	(%rax), %ecx
	movzbl	1(%rax), %eax
	shll	$16, %ecx
	movl	%eax, %edx
	shll	$8, %edx
	orl	%ecx, %edx
	orl	%eax, %edx
	cmpl	$2975848, %edx
	je	212f
	jmp	214f
206:
	movl	(%rax), %ecx
	movl	3(%rax), %eax
	shlq	$32, %rax
	orq	%rcx, %rax
	movabsq	$8319104461657368951, %rcx
	cmpq	%rcx, %rax
	jne	214f
	movl	$39, %ebx
	leaq	.L1_x86_static.51(%rip), %r15
	jmp	215f
207:
	movzbl	(%rax), %ecx
	movzbl	1(%rax), %edx
	shll	$16, %ecx
	shll	$8, %edx
	orl	%ecx, %edx
	movzbl	2(%rax), %eax
	orq	%rdx, %rax
	cmpq	$7566701, %rax
	je	222f
	cmpl	$7892838, %eax
	jne	214f
	movl	$87, %ebx
	leaq	.L1_x86_static.55(%rip), %r15
	jmp	215f
208:
	movabsq	$8028074745930329389, %rcx
	xorq	(%rax), %rcx
	movabsq	$7957695011148363309, %rdx
	xorq	1(%rax), %rdx
	orq	%rcx, %rdx
	leaq	.L1_x86_static.57(%rip), %rax
	leaq	.L1_x86_static.58(%rip), %r15
	cmoveq	%rax, %r15
	movl	$20, %eax
	movl	$40, %ebx
	cmoveq	%rax, %rbx
	jmp	215f
209:
	movl	(%rax), %ecx
	movq	%rcx, %rax
	shlq	$32, %rax
	orq	%rcx, %rax
	movl	$70, %ebx
	movabsq	$7306371814721417844, %rcx
	cmpq	%rcx, %rax
	je	223f
	movabsq	$8100961328969835880, %rcx
	cmpq	%rcx, %rax
	je	212f
	movabsq	$8390047168184938354, %rcx
	cmpq	%rcx, %rax
	jne	214f
	leaq	.L1_x86_static.54(%rip), %r15
	jmp	215f
210:
	movl	(%rax), %ecx
	movl	1(%rax), %eax
	shlq	$32, %rax
	orq	%rcx, %rax
	movabsq	$8318260062529614963, %rcx
	cmpq	%rcx, %rax
	jne	214f
	movl	$76, %ebx
	leaq	.L1_x86_static.50(%rip), %r15
	jmp	215f
211:
	movl	(%rax), %ecx
	movl	2(%rax), %eax
	shlq	$32, %rax
	orq	%rcx, %rax
	movabsq	$8315182447979488619, %rcx
	cmpq	%rcx, %rax
	jg	213f
	movabsq	$7311146985198871908, %rcx
	cmpq	%rcx, %rax
	je	224f
	movabsq	$8100961328785009965, %rcx
	cmpq	%rcx, %rax
	jne	214f
212:
	movl	$17, %ebx
	leaq	.L1_x86_static.59(%rip), %r15
	jmp	215f
213:
	movabsq	$8315182447979488620, %rcx
	cmpq	%rcx, %rax
	je	225f
	movabsq	$8390322045907526515, %rcx
	cmpq	%rcx, %rax
	jne	214f
	movl	$77, %ebx
	leaq	.L1_x86_static.49(%rip), %r15
	jmp	215f
214:
	movl	$40, %ebx
	leaq	.L1_x86_static.58(%rip), %r15
215:
	xorl	%r12d, %r12d
	.p2align	4
216:
	leaq	(%r15,%r12), %rsi
	movq	%rbx, %r14
	subq	%r12, %r14
	movl	$2, %edi
	movq	%r14, %rdx
	vj_system_call	write, b2_write
	testq	%rax, %rax
	js	218f
	cmpq	%r14, %rax
	cmovbq	%rax, %r14
	testq	%r14, %r14
	je	219f
	addq	%r14, %r12
	cmpq	%rbx, %r12
	jb	216b
	xorl	%ebx, %ebx
	.p2align	4
217:
	leaq	.L1_x86_static.46(%rip), %rsi
	addq	%rbx, %rsi
	movl	$38, %r14d
	subq	%rbx, %r14
	movl	$2, %edi
	movq	%r14, %rdx
	vj_system_call	write, b2_write
	testq	%rax, %rax
	js	218f
	cmpq	%r14, %rax
	cmovbq	%rax, %r14
	testq	%r14, %r14
	je	219f
	addq	%r14, %rbx
	cmpq	$37, %rbx
	jbe	217b
	jmp	220f
218:
	leaq	4960(%rsp), %rdi
	callq	std_io..io..error..last_error_1_x86
219:
	movb	$1, (%r13)
220:
	movb	$2, %r15b
221:
	movl	%r15d, %eax
	leaq	-40(%rbp), %rsp
	popq	%rbx
	popq	%r12
	popq	%r13
	popq	%r14
	popq	%r15
	popq	%rbp
	retq
222:
	movl	$74, %ebx
	leaq	.L1_x86_static.48(%rip), %r15
	jmp	215b
223:
	leaq	.L1_x86_static.52(%rip), %r15
	jmp	215b
224:
	movl	$38, %ebx
	leaq	.L1_x86_static.56(%rip), %r15
	jmp	215b
225:
	movl	$83, %ebx
	leaq	.L1_x86_static.53(%rip), %r15
	jmp	215b
226:
	movl	$6, %r13d
	testq	%r9, %r9
	jne	545f
	jmp	546f
227:
	leaq	16(%rsp), %rbx
	movb	$1, %al
	movl	%eax, 32(%rsp)
	xorl	%eax, %eax
	movq	$0, 176(%rsp)
	movb	$1, 96(%rsp)
	movq	%rbx, 72(%rsp)
	movq	$0, 48(%rsp)
228:
	movq	%rax, 144(%rsp)
	pxor	%xmm0, %xmm0
	movdqa	%xmm0, 1664(%rsp)
	movq	$0, 1680(%rsp)
	leaq	16(%rsp), %r15
	movq	%r15, 1792(%rsp)
	movdqu	%xmm0, 1800(%rsp)
	movq	%r12, 13168(%rsp)
	leaq	13176(%rsp), %rdi
	leaq	2768(%rsp), %rsi
	movl	$336, %edx
	vj_c_call	memcpy
	movq	$1, 13152(%rsp)
	movq	80(%rsp), %rax
	movq	%rax, 13160(%rsp)
	leaq	1664(%rsp), %rdi
	leaq	1792(%rsp), %rsi
	leaq	13152(%rsp), %rdx
	callq	blake2_replay..calls..push..08bf280249c874f5_1_x86
	cmpb	$0, 1664(%rsp)
	movq	%rbx, 256(%rsp)
	je	254f
	movq	1680(%rsp), %rax
	movq	%rax, 112(%rsp)
	movzbl	1672(%rsp), %eax
	movl	%eax, 80(%rsp)
	movq	1792(%rsp), %rax
	movq	%rax, 48(%rsp)
	movq	1800(%rsp), %r12
	movq	1808(%rsp), %rax
	movq	%rax, 160(%rsp)
	testq	%r12, %r12
	je	339f
	leaq	4968(%rsp), %r15
	leaq	5112(%rsp), %r13
	movq	48(%rsp), %rax
	leaq	16(%rax), %r14
	jmp	231f
229:
	pxor	%xmm0, %xmm0
	movdqu	%xmm0, 160(%r15)
	movdqu	%xmm0, 144(%r15)
	movdqu	%xmm0, 128(%r15)
	movdqu	%xmm0, 112(%r15)
	movdqu	%xmm0, 96(%r15)
	movdqu	%xmm0, 80(%r15)
	movdqu	%xmm0, 64(%r15)
	movdqu	%xmm0, 48(%r15)
	movdqu	%xmm0, 32(%r15)
	movdqu	%xmm0, 16(%r15)
	movdqu	%xmm0, (%r15)
	leaq	5048(%rsp), %rdi
	callq	blake2_digest..wiping..settle..64_1_x86
	movq	%r13, %rdi
	callq	blake2_digest..wiping..settle..32_1_x86
230:
	addq	$360, %r14
	decq	%r12
	je	339f
231:
	cmpb	$0, -16(%r14)
	je	230b
	movzbl	-8(%r14), %ebx
	movq	%rbx, 4960(%rsp)
	movl	$344, %edx
	movq	%r15, %rdi
	movq	%r14, %rsi
	vj_c_call	memcpy
	testq	%rbx, %rbx
	jne	229b
	movl	$344, %edx
	movq	%r15, %rdi
	xorl	%esi, %esi
	vj_c_call	memset
	leaq	5120(%rsp), %rdi
	callq	blake2_digest..wiping..settle..128_1_x86
	leaq	5248(%rsp), %rdi
	callq	blake2_digest..wiping..settle..64_1_x86
	jmp	230b
232:
	movq	%r15, %rdx
	movq	%r10, %rbx
	movq	%r11, %r14
	vj_c_call	memmove
	movq	%r14, %r11
	movq	%rbx, %r10
233:
	movq	48(%rsp), %rax
	movq	%rax, 4976(%rsp)
	movq	%r13, %r9
	movq	%r13, 4984(%rsp)
	movq	%r10, 4992(%rsp)
	movq	%r11, 5000(%rsp)
	movq	128(%rsp), %rax
	movb	%al, 5008(%rsp)
	pxor	%xmm0, %xmm0
	movdqu	%xmm0, 5009(%rsp)
	movdqu	%xmm0, 5025(%rsp)
	movdqu	%xmm0, 5041(%rsp)
	movdqu	%xmm0, 5057(%rsp)
	movdqu	%xmm0, 5073(%rsp)
	movq	$0, 5088(%rsp)
	movl	$0, 40(%rsp)
	movl	$0, 43(%rsp)
	pxor	%xmm6, %xmm6
	movb	$5, %al
	movq	$0, 144(%rsp)
	movzbl	%al, %eax
	leaq	.L1_x86_JTI4_2(%rip), %rcx
	movslq	(%rcx,%rax,4), %rax
	addq	%rcx, %rax
	pxor	%xmm5, %xmm5
	movq	$0, 96(%rsp)
	movq	$0, 80(%rsp)
	xorl	%r15d, %r15d
	xorl	%r14d, %r14d
	xorl	%ebx, %ebx
	xorl	%r13d, %r13d
	xorl	%r12d, %r12d
	xorl	%edx, %edx
	pxor	%xmm7, %xmm7
	notrack	jmpq	*%rax
234:
	movq	48(%rsp), %rax
	movq	%rax, 4720(%rsp)
	movq	%rdx, %rsi
	movq	%r14, %rdx
	movq	%r9, %r12
	movq	%r9, 4728(%rsp)
	movq	%r10, %r14
	movq	%r10, 4736(%rsp)
	movq	%r11, 4744(%rsp)
	movq	128(%rsp), %rax
	movb	%al, 4752(%rsp)
	movq	96(%rsp), %rcx
	movl	%ecx, 4753(%rsp)
	movq	%rcx, %rax
	shrq	$48, %rax
	movb	%al, 4759(%rsp)
	shrq	$32, %rcx
	movw	%cx, 4757(%rsp)
	movdqa	%xmm5, 176(%rsp)
	movdqu	%xmm5, 4760(%rsp)
	movq	80(%rsp), %rax
	movb	%al, 4776(%rsp)
	movq	144(%rsp), %rcx
	movl	%ecx, 4777(%rsp)
	movq	%rcx, %rax
	shrq	$48, %rax
	movb	%al, 4783(%rsp)
	shrq	$32, %rcx
	movw	%cx, 4781(%rsp)
	movq	%r15, 104(%rsp)
	movq	%r15, 4784(%rsp)
	movdqa	%xmm6, 160(%rsp)
	movdqu	%xmm6, 4792(%rsp)
	movb	%dl, 4808(%rsp)
	movl	40(%rsp), %eax
	movl	43(%rsp), %ecx
	movl	%eax, 4809(%rsp)
	movl	%ecx, 4812(%rsp)
	movq	%rsi, %r13
	movq	%rsi, 4816(%rsp)
	leaq	4832(%rsp), %rdi
	leaq	4720(%rsp), %rsi
	movq	112(%rsp), %rdx
	movq	8(%rsp), %rbx
	movq	%rbx, %rcx
	callq	b2_commands..tree..tree..c4a7301ddbaa7a35_1_x86
	cmpb	$0, 4832(%rsp)
	je	235f
	movq	4848(%rsp), %rsi
	movl	4840(%rsp), %edi
	movq	%rbx, %rdx
	callq	b2_commands..fault..Fault..report..c1844c1740294036_1_x86
	movl	%eax, %r15d
	jmp	236f
235:
	xorl	%r15d, %r15d
236:
	cmpb	$1, %r12b
	jne	237f
	cmpq	$0, 4752(%rsp)
	je	237f
	movq	%r14, %rdi
	vj_call	rattle_dealloc
237:
	movdqa	176(%rsp), %xmm0
	movd	%xmm0, %eax
	cmpb	$1, %al
	jne	238f
	cmpq	$0, 104(%rsp)
	je	238f
	pextrq	$1, %xmm0, %rdi
	vj_call	rattle_dealloc
238:
	movdqa	160(%rsp), %xmm0
	movd	%xmm0, %eax
	cmpb	$1, %al
	jne	221b
	testq	%r13, %r13
	je	221b
	pextrq	$1, %xmm0, %rdi
	vj_call	rattle_dealloc
	jmp	221b
239:
	testq	%rax, %rax
	je	240f
	movq	%xmm5, %rdi
	vj_call	rattle_dealloc
	movq	%rbx, %r10
240:
	cmpq	$0, 128(%rsp)
	movq	24(%rsp), %r13
	je	241f
	movq	%r10, %rdi
	vj_call	rattle_dealloc
241:
	xorl	%r9d, %r9d
	xorl	%r11d, %r11d
	movq	8(%rsp), %rdx
	jmp	150b
242:
	movl	$6, %r13d
	testq	%r8, %r8
	jne	545f
	jmp	546f
243:
	movl	$344, %edx
	movq	%rbx, %rdi
	xorl	%esi, %esi
	vj_c_call	memset
	leaq	5120(%rsp), %rdi
	callq	blake2_digest..wiping..settle..128_1_x86
	leaq	5248(%rsp), %rdi
	callq	blake2_digest..wiping..settle..64_1_x86
244:
	movdqu	624(%rsp), %xmm0
	movups	640(%rsp), %xmm1
	movdqu	656(%rsp), %xmm2
	movups	672(%rsp), %xmm3
	movdqa	%xmm0, 3104(%rsp)
	movaps	%xmm1, 3120(%rsp)
	movdqa	%xmm2, 3136(%rsp)
	movaps	%xmm3, 3152(%rsp)
	leaq	4960(%rsp), %rdi
	xorl	%ebx, %ebx
	movl	$424, %edx
	xorl	%esi, %esi
	vj_c_call	memset
	cmpq	$1, %r13
	je	246f
	movq	%r13, %rax
	andq	$-2, %rax
	xorl	%ebx, %ebx
245:
	movzbl	3104(%rsp,%rbx), %ecx
	movl	%ecx, %edx
	shrl	$4, %edx
	leaq	.L1_x86_static.37(%rip), %rsi
	movzbl	(%rdx,%rsi), %edx
	movb	%dl, 4960(%rsp,%rbx,2)
	andl	$15, %ecx
	movzbl	(%rcx,%rsi), %ecx
	movb	%cl, 4961(%rsp,%rbx,2)
	movzbl	3105(%rsp,%rbx), %ecx
	movl	%ecx, %edx
	shrl	$4, %edx
	movzbl	(%rdx,%rsi), %edx
	movb	%dl, 4962(%rsp,%rbx,2)
	andl	$15, %ecx
	movzbl	(%rcx,%rsi), %ecx
	movb	%cl, 4963(%rsp,%rbx,2)
	addq	$2, %rbx
	cmpq	%rbx, %rax
	jne	245b
	testb	$1, %r13b
	je	247f
246:
	movzbl	3104(%rsp,%rbx), %eax
	movl	%eax, %ecx
	shrl	$4, %ecx
	leaq	.L1_x86_static.37(%rip), %rdx
	movzbl	(%rcx,%rdx), %ecx
	movb	%cl, 4960(%rsp,%rbx,2)
	andl	$15, %eax
	movzbl	(%rax,%rdx), %eax
	movb	%al, 4961(%rsp,%rbx,2)
247:
	leaq	(,%r13,2), %r14
	movb	$10, 4960(%rsp,%r13,2)
	leaq	1(,%r13,2), %r15
	movq	%r15, 5384(%rsp)
	xorl	%r12d, %r12d
248:
	leaq	(%rsp,%r12), %rsi
	addq	$4960, %rsi
	movq	%r15, %rbx
	subq	%r12, %rbx
	movl	$1, %edi
	movq	%rbx, %rdx
	vj_system_call	write, b2_write
	testq	%rax, %rax
	js	249f
	cmpq	%rbx, %rax
	cmovbq	%rax, %rbx
	testq	%rbx, %rbx
	je	250f
	addq	%rbx, %r12
	cmpq	%r14, %r12
	jbe	248b
	xorl	%edi, %edi
	jmp	251f
249:
	leaq	13152(%rsp), %rdi
	callq	std_io..io..error..last_error_1_x86
250:
	movq	8(%rsp), %rax
	movb	$1, (%rax)
	movb	$1, %dil
251:
	xorl	%eax, %eax
	testb	%dil, %dil
	setne	%al
	leal	(%rax,%rax,8), %r13d
252:
	movq	8(%rsp), %rdx
	xorl	%r12d, %r12d
	testb	%dil, %dil
	jne	39b
	jmp	548f
253:
	xorl	%ebx, %ebx
	xorl	%r11d, %r11d
	jmp	256f
254:
	movq	%r14, 160(%rsp)
	movq	%r15, 104(%rsp)
	movq	%r15, 992(%rsp)
	pxor	%xmm0, %xmm0
	movdqu	%xmm0, 1000(%rsp)
	movq	48(%rsp), %r14
	testq	%r14, %r14
	je	332f
	leaq	16(%rsp), %rax
	movq	%rax, 104(%rsp)
	leaq	24(%rbx), %r13
	xorl	%ebx, %ebx
	xorl	%r12d, %r12d
	jmp	312f
255:
	xorl	%ebx, %ebx
256:
	leaq	624(%rsp), %rdi
	movl	$1, %esi
	movq	%r11, %rcx
	callq	b2_commands..arguments..Options..from_words_1_x86
	movq	632(%rsp), %r11
	movq	640(%rsp), %rax
	movq	%rax, 128(%rsp)
	cmpb	$0, 624(%rsp)
	je	257f
	pxor	%xmm0, %xmm0
	movdqa	%xmm0, 352(%rsp)
	movdqa	%xmm0, 336(%rsp)
	movdqa	%xmm0, 320(%rsp)
	movdqa	%xmm0, 304(%rsp)
	movdqa	%xmm0, 288(%rsp)
	movq	128(%rsp), %r9
	jmp	201b
257:
	movups	712(%rsp), %xmm0
	movaps	%xmm0, 352(%rsp)
	movups	648(%rsp), %xmm0
	movups	664(%rsp), %xmm1
	movups	680(%rsp), %xmm2
	movups	696(%rsp), %xmm3
	movaps	%xmm3, 336(%rsp)
	movaps	%xmm2, 320(%rsp)
	movaps	%xmm1, 304(%rsp)
	movaps	%xmm0, 288(%rsp)
	movq	%r12, 48(%rsp)
	movq	%r12, 4976(%rsp)
	movq	%r15, %r9
	movq	%r15, 4984(%rsp)
	movb	%bl, 4992(%rsp)
	movl	$0, 4993(%rsp)
	movl	$0, 4996(%rsp)
	movq	%r11, 5000(%rsp)
	movq	128(%rsp), %rax
	movq	%rax, 5008(%rsp)
	movaps	352(%rsp), %xmm0
	movups	%xmm0, 5080(%rsp)
	movdqa	288(%rsp), %xmm0
	movaps	304(%rsp), %xmm1
	movdqa	320(%rsp), %xmm2
	movaps	336(%rsp), %xmm3
	movups	%xmm3, 5064(%rsp)
	movdqu	%xmm2, 5048(%rsp)
	movups	%xmm1, 5032(%rsp)
	movdqu	%xmm0, 5016(%rsp)
	movq	4992(%rsp), %r10
	shrq	$8, %rax
	movq	%rax, 96(%rsp)
	movdqu	5016(%rsp), %xmm5
	movzbl	5032(%rsp), %eax
	movq	%rax, 80(%rsp)
	movzbl	5039(%rsp), %eax
	shll	$16, %eax
	movzwl	5037(%rsp), %ecx
	orl	%eax, %ecx
	shlq	$32, %rcx
	movl	5033(%rsp), %eax
	orq	%rcx, %rax
	movq	%rax, 144(%rsp)
	movq	5040(%rsp), %r15
	movdqu	5048(%rsp), %xmm6
	movzbl	5064(%rsp), %r14d
	movl	337(%rsp), %eax
	movl	340(%rsp), %ecx
	movl	%ecx, 43(%rsp)
	movl	%eax, 40(%rsp)
	movq	5072(%rsp), %rdx
	movb	$4, %al
	xorl	%ebx, %ebx
	movdqu	5080(%rsp), %xmm7
	movzbl	%al, %eax
	leaq	.L1_x86_JTI4_2(%rip), %rcx
	movslq	(%rcx,%rax,4), %rax
	addq	%rcx, %rax
	xorl	%r13d, %r13d
	xorl	%r12d, %r12d
	notrack	jmpq	*%rax
258:
	pxor	%xmm0, %xmm0
	movdqa	%xmm0, 2784(%rsp)
	movdqa	%xmm0, 2768(%rsp)
	movq	%xmm6, %rbx
	movb	$2, %r13b
	cmpb	$1, 80(%rsp)
	movq	%r11, 24(%rsp)
	movdqa	%xmm5, 176(%rsp)
	movq	%r15, 104(%rsp)
	movdqa	%xmm6, 160(%rsp)
	movq	%rdx, 256(%rsp)
	movdqa	%xmm7, 144(%rsp)
	jne	259f
	cmpq	$16, %rbx
	ja	260f
259:
	movq	%xmm7, %r12
	cmpb	$1, %r14b
	jne	266f
	cmpq	$16, %r12
	jbe	266f
260:
	xorl	%r15d, %r15d
261:
	movq	8(%rsp), %rdx
	movq	80(%rsp), %rbx
262:
	movzbl	%r13b, %edi
	movq	%r15, %rsi
	callq	b2_commands..fault..Fault..report..c1844c1740294036_1_x86
	movl	%eax, %r15d
263:
	cmpb	$1, 24(%rsp)
	movdqa	176(%rsp), %xmm0
	jne	264f
	pextrq	$1, %xmm0, %rax
	testq	%rax, %rax
	je	264f
	movzbl	128(%rsp), %eax
	movq	96(%rsp), %rdi
	shlq	$8, %rdi
	orq	%rax, %rdi
	vj_call	rattle_dealloc
264:
	cmpb	$1, %bl
	movdqa	160(%rsp), %xmm0
	jne	265f
	pextrq	$1, %xmm0, %rax
	testq	%rax, %rax
	je	265f
	movq	104(%rsp), %rdi
	vj_call	rattle_dealloc
265:
	cmpb	$1, %r14b
	movq	256(%rsp), %rdi
	movdqa	144(%rsp), %xmm0
	je	516f
	jmp	221b
266:
	movq	%r9, 32(%rsp)
	movq	%r10, 72(%rsp)
	leaq	2768(%rsp), %rdi
	movq	112(%rsp), %rsi
	callq	b2_commands..input..read_all..d6f7c226d1d4af0a_1_x86
	movq	2776(%rsp), %rdi
	movq	2784(%rsp), %r15
	cmpb	$0, 2768(%rsp)
	je	267f
	movl	%edi, %r13d
	jmp	261b
267:
	movq	2792(%rsp), %r11
	movq	48(%rsp), %rax
	movl	%eax, %r10d
	testq	%r15, %r15
	setne	%sil
	movq	32(%rsp), %r9
	testq	%r9, %r9
	sete	%cl
	movb	$1, %dl
	movq	72(%rsp), %r8
	testb	$1, %r8b
	jne	270f
	testl	%eax, %eax
	je	575f
	movq	%r15, %rax
	shrq	$32, %rax
	je	268f
	movq	%r15, %rax
	xorl	%edx, %edx
	divq	%r10
	jmp	269f
268:
	movl	%r15d, %eax
	xorl	%edx, %edx
	divl	%r10d
269:
	testq	%rdx, %rdx
	sete	%dl
270:
	movq	%r10, 272(%rsp)
	movabsq	$288230376151711743, %rax
	leaq	1(%rax), %r10
	movb	$2, %r13b
	cmpq	%r10, %r15
	jae	449f
	andb	%r8b, %cl
	orb	%sil, %cl
	andb	%dl, %cl
	je	449f
	cmpl	$0, 48(%rsp)
	movq	272(%rsp), %rsi
	je	575f
	subq	%r15, %rax
	movabsq	$288230371856744448, %rcx
	testq	%rcx, %rax
	je	271f
	xorl	%edx, %edx
	divq	%rsi
	jmp	272f
271:
	xorl	%edx, %edx
	divl	%esi
272:
	cmpq	%r9, %rax
	jb	449f
	movq	%r11, 448(%rsp)
	movq	%rdi, 264(%rsp)
	xorl	%eax, %eax
	cmpb	$1, 80(%rsp)
	leaq	.L1_x86_static.0(%rip), %r13
	movq	%r13, %rsi
	cmoveq	104(%rsp), %rsi
	cmovneq	%rax, %rbx
	cmpb	$1, %r14b
	cmoveq	256(%rsp), %r13
	cmovneq	%rax, %r12
	pxor	%xmm0, %xmm0
	movdqa	%xmm0, 13152(%rsp)
	leaq	13152(%rsp), %rdi
	movq	%rbx, %rdx
	vj_c_call	memcpy
	pxor	%xmm0, %xmm0
	movdqa	%xmm0, 4960(%rsp)
	leaq	4960(%rsp), %rdi
	movq	%r13, %rsi
	movq	%r12, %rdx
	vj_c_call	memcpy
	movaps	13152(%rsp), %xmm0
	movaps	%xmm0, 3104(%rsp)
	movdqa	4960(%rsp), %xmm0
	movdqu	%xmm0, 3128(%rsp)
	movq	%rbx, 3120(%rsp)
	movq	%r12, 3144(%rsp)
	movq	48(%rsp), %r13
	movl	%r13d, 3152(%rsp)
	movl	$0, 3156(%rsp)
	leaq	4960(%rsp), %rdi
	movl	$512, %edx
	xorl	%esi, %esi
	vj_c_call	memset
	pxor	%xmm0, %xmm0
	movdqa	%xmm0, 624(%rsp)
	movdqa	%xmm0, 640(%rsp)
	movdqa	%xmm0, 656(%rsp)
	movdqa	%xmm0, 672(%rsp)
	movq	%r15, %rax
	shrq	$32, %rax
	je	273f
	movq	%r15, %rax
	xorl	%edx, %edx
	movq	272(%rsp), %r8
	divq	%r8
	movq	%rax, %r9
	jmp	274f
273:
	movl	%r15d, %eax
	xorl	%edx, %edx
	movq	272(%rsp), %r8
	divl	%r8d
	movl	%eax, %r9d
274:
	xorl	%eax, %eax
	testq	%rdx, %rdx
	setne	%al
	leaq	(%r9,%rax), %rcx
	cmpq	$1, %rcx
	adcq	%rax, %r9
	shlq	$6, %r9
	testq	%r9, %r9
	movq	32(%rsp), %rsi
	movq	264(%rsp), %rdi
	je	275f
	movq	%r13, 48(%rsp)
	js	448f
	movl	$1, %esi
	movq	%r9, %rdi
	movq	%r9, %r13
	vj_call	rattle_alloc
	movq	264(%rsp), %rdi
	testb	$1, %al
	je	448f
	movq	%r13, %r9
	movq	32(%rsp), %rsi
	movq	272(%rsp), %r8
	movq	48(%rsp), %r13
	jmp	276f
275:
	leaq	16(%rsp), %rdx
276:
	movq	%r12, 112(%rsp)
	movq	%rdx, 288(%rsp)
	movq	$0, 296(%rsp)
	movq	%r9, 304(%rsp)
	cmpq	%r8, %r15
	movq	%r14, 416(%rsp)
	jbe	290f
	movq	%r9, %r12
	leaq	(,%r8,4), %rax
	movq	%rax, 592(%rsp)
	leaq	-1(%r8), %rcx
	movq	%rcx, %rax
	shrq	$7, %rax
	movq	%rax, 1648(%rsp)
	andq	$-128, %rcx
	movq	%rcx, 2752(%rsp)
	subq	%rcx, %r8
	movq	%r8, 2736(%rsp)
	xorl	%r13d, %r13d
	movq	%rdi, %r14
	jmp	279f
277:
	leaq	4960(%rsp), %rsi
	movq	%r14, %rdx
	movq	%r8, %r12
	vj_c_call	memmove
	movq	%r12, %r8
	movq	32(%rsp), %rsi
	movq	272(%rsp), %rdi
278:
	addq	%r14, %r13
	movq	%r13, 296(%rsp)
	movq	%r8, %r12
	movq	%r8, 304(%rsp)
	addq	%rbx, %rsi
	imulq	%rdi, %rbx
	movq	112(%rsp), %r14
	addq	%rbx, %r14
	subq	%rbx, %r15
	cmpq	%rdi, %r15
	jbe	291f
279:
	movq	%rsi, 32(%rsp)
	leaq	4960(%rsp), %rdi
	movl	$512, %edx
	xorl	%esi, %esi
	vj_c_call	memset
	cmpq	%r15, 592(%rsp)
	movq	%r14, 112(%rsp)
	jae	280f
	leaq	3104(%rsp), %rdi
	leaq	4960(%rsp), %r8
	movq	32(%rsp), %rsi
	movq	%r14, %rdx
	movq	%r15, %rcx
	vj_call	blake2_tree..nodes..Nodes..hash_next_1_x86
	movq	%rax, %rbx
	movq	%r12, %r8
	jmp	284f
280:
	movq	3120(%rsp), %rdx
	movss	.L1_x86_CPI4_20(%rip), %xmm0
	unpcklps	3152(%rsp), %xmm0
	movaps	%xmm0, 976(%rsp)
	movq	3144(%rsp), %rbx
	xorps	%xmm0, %xmm0
	movaps	%xmm0, 13168(%rsp)
	movaps	%xmm0, 13152(%rsp)
	leaq	13152(%rsp), %rdi
	leaq	3104(%rsp), %rsi
	vj_c_call	memcpy
	leaq	13168(%rsp), %rdi
	leaq	3128(%rsp), %rsi
	movq	%rbx, %rdx
	vj_c_call	memcpy
	movsd	32(%rsp), %xmm0
	movaps	976(%rsp), %xmm3
	movlhps	%xmm0, %xmm3
	movdqa	13152(%rsp), %xmm0
	movaps	13168(%rsp), %xmm1
	xorps	.L1_x86_CPI4_8(%rip), %xmm3
	pxor	.L1_x86_CPI4_14(%rip), %xmm0
	movdqa	.L1_x86_CPI4_18(%rip), %xmm2
	xorps	.L1_x86_CPI4_15(%rip), %xmm1
	movdqu	%xmm2, 3472(%rsp)
	movups	%xmm3, 3456(%rsp)
	movups	%xmm1, 3504(%rsp)
	movdqu	%xmm0, 3488(%rsp)
	movdqu	%xmm2, 3536(%rsp)
	movups	%xmm3, 3520(%rsp)
	movups	%xmm1, 3568(%rsp)
	movdqu	%xmm0, 3552(%rsp)
	leaq	3584(%rsp), %rax
	pxor	%xmm0, %xmm0
	movdqu	%xmm0, 128(%rax)
	movdqu	%xmm0, 112(%rax)
	movdqu	%xmm0, 96(%rax)
	movdqu	%xmm0, 80(%rax)
	movdqu	%xmm0, 64(%rax)
	movdqu	%xmm0, 48(%rax)
	movdqu	%xmm0, 32(%rax)
	movdqu	%xmm0, 16(%rax)
	movdqu	%xmm0, (%rax)
	movq	$0, 144(%rax)
	movq	%r14, %rbx
	movq	1648(%rsp), %r14
	cmpl	$129, 48(%rsp)
	jb	282f
281:
	movq	3584(%rsp), %rdx
	subq	$-128, %rdx
	movq	%rdx, 3584(%rsp)
	leaq	3456(%rsp), %rdi
	movq	%rbx, %rsi
	xorl	%ecx, %ecx
	xorl	%r8d, %r8d
	vj_call	blake2_compress..compress..blake2b..compress_1_x86
	subq	$-128, %rbx
	decq	%r14
	jne	281b
	movq	2752(%rsp), %rax
	movq	112(%rsp), %rcx
	leaq	(%rcx,%rax), %rsi
	pxor	%xmm0, %xmm0
	leaq	3600(%rsp), %rdi
	movdqu	%xmm0, 112(%rdi)
	movdqu	%xmm0, 96(%rdi)
	movdqu	%xmm0, 80(%rdi)
	movdqu	%xmm0, 64(%rdi)
	movdqu	%xmm0, 48(%rdi)
	movdqu	%xmm0, 32(%rdi)
	movdqu	%xmm0, 16(%rdi)
	movdqu	%xmm0, (%rdi)
	movq	2736(%rsp), %rbx
	jmp	283f
282:
	leaq	3600(%rsp), %rdi
	movq	112(%rsp), %rsi
	movq	272(%rsp), %rbx
283:
	movq	%rbx, %rdx
	vj_c_call	memcpy
	movq	%rbx, 3728(%rsp)
	leaq	13152(%rsp), %rbx
	leaq	3456(%rsp), %rsi
	movl	$280, %edx
	movq	%rbx, %rdi
	vj_c_call	memcpy
	movq	13424(%rsp), %rdx
	movq	13280(%rsp), %r14
	addq	%rdx, %r14
	movq	%r14, 13280(%rsp)
	pxor	%xmm0, %xmm0
	movdqa	%xmm0, 1920(%rsp)
	movdqa	%xmm0, 1936(%rsp)
	movdqa	%xmm0, 1952(%rsp)
	movdqa	%xmm0, 1968(%rsp)
	movdqa	%xmm0, 1984(%rsp)
	movdqa	%xmm0, 2000(%rsp)
	movdqa	%xmm0, 2016(%rsp)
	movdqa	%xmm0, 2032(%rsp)
	leaq	1920(%rsp), %rdi
	leaq	13296(%rsp), %r13
	movq	%r13, %rsi
	vj_c_call	memcpy
	pxor	%xmm0, %xmm0
	movdqu	%xmm0, (%r13)
	movdqu	%xmm0, 16(%r13)
	movdqu	%xmm0, 32(%r13)
	movdqu	%xmm0, 48(%r13)
	movdqu	%xmm0, 64(%r13)
	movdqu	%xmm0, 80(%r13)
	movdqu	%xmm0, 96(%r13)
	movdqu	%xmm0, 112(%r13)
	movq	$0, 128(%r13)
	movaps	1920(%rsp), %xmm0
	movaps	1936(%rsp), %xmm1
	movaps	1952(%rsp), %xmm2
	movaps	1968(%rsp), %xmm3
	movaps	%xmm0, 1120(%rsp)
	movaps	%xmm1, 1136(%rsp)
	movaps	%xmm2, 1152(%rsp)
	movaps	%xmm3, 1168(%rsp)
	movaps	1984(%rsp), %xmm0
	movaps	%xmm0, 1184(%rsp)
	movaps	2000(%rsp), %xmm0
	movaps	%xmm0, 1200(%rsp)
	movaps	2016(%rsp), %xmm0
	movaps	%xmm0, 1216(%rsp)
	movaps	2032(%rsp), %xmm0
	movaps	%xmm0, 1232(%rsp)
	movl	13288(%rsp), %r8d
	leaq	1120(%rsp), %rsi
	movq	%rbx, %rdi
	movq	%r14, %rdx
	movl	$1, %ecx
	vj_call	blake2_compress..compress..blake2b..compress_1_x86
	movdqu	13152(%rsp), %xmm0
	movups	13168(%rsp), %xmm1
	movdqu	13184(%rsp), %xmm2
	movups	13200(%rsp), %xmm3
	movdqa	%xmm0, 4960(%rsp)
	movaps	%xmm1, 4976(%rsp)
	movdqa	%xmm2, 4992(%rsp)
	movaps	%xmm3, 5008(%rsp)
	movq	296(%rsp), %r13
	movq	304(%rsp), %r8
	movl	$1, %ebx
284:
	movq	%rbx, %r14
	shlq	$6, %r14
	movq	%r8, %rax
	subq	%r13, %rax
	cmpq	%rax, %r14
	leaq	4960(%rsp), %rdx
	ja	289f
285:
	movq	288(%rsp), %rax
	leaq	(%rax,%r13), %rdi
	movq	%rdi, %rcx
	subq	%rdx, %rcx
	cmpq	%r14, %rcx
	jae	277b
	movq	%r13, %rcx
	subq	%rdx, %rcx
	addq	%rax, %rcx
	cmpq	$32, %rcx
	jae	287f
	addq	%r13, %rax
	addq	$3, %rax
	xorl	%ecx, %ecx
	movq	32(%rsp), %rsi
	movq	272(%rsp), %rdi
286:
	movzbl	4960(%rsp,%rcx), %edx
	movb	%dl, -3(%rax,%rcx)
	movzbl	4961(%rsp,%rcx), %edx
	movb	%dl, -2(%rax,%rcx)
	movzbl	4962(%rsp,%rcx), %edx
	movb	%dl, -1(%rax,%rcx)
	movzbl	4963(%rsp,%rcx), %edx
	movb	%dl, (%rax,%rcx)
	addq	$4, %rcx
	cmpq	%rcx, %r14
	jne	286b
	jmp	278b
287:
	addq	%r13, %rax
	addq	$16, %rax
	xorl	%ecx, %ecx
	movq	32(%rsp), %rsi
	movq	272(%rsp), %rdi
288:
	movdqa	4960(%rsp,%rcx), %xmm0
	movaps	4976(%rsp,%rcx), %xmm1
	movdqu	%xmm0, -16(%rax,%rcx)
	movups	%xmm1, (%rax,%rcx)
	addq	$32, %rcx
	cmpq	%rcx, %r14
	jne	288b
	jmp	278b
289:
	leaq	288(%rsp), %rdi
	movq	%r14, %rsi
	callq	std_alloc..vec..Vec..grow_amortized..3378b08034dc46b4_1_x86
	testb	%al, %al
	je	447f
	movq	296(%rsp), %r13
	movq	304(%rsp), %r8
	leaq	4960(%rsp), %rdx
	jmp	285b
290:
	movd	%r13d, %xmm0
	movq	%rdi, %r14
	jmp	292f
291:
	movdqa	3152(%rsp), %xmm0
	movq	3120(%rsp), %rbx
	movq	3144(%rsp), %rax
	movq	%rax, 112(%rsp)
292:
	xorps	%xmm1, %xmm1
	movaps	%xmm1, 13168(%rsp)
	movaps	%xmm1, 13152(%rsp)
	movd	.L1_x86_CPI4_20(%rip), %xmm1
	punpckldq	%xmm0, %xmm1
	movq	%rsi, %xmm0
	punpcklqdq	%xmm0, %xmm1
	movdqa	%xmm1, 48(%rsp)
	leaq	13152(%rsp), %rdi
	leaq	3104(%rsp), %rsi
	movq	%rbx, %rdx
	vj_c_call	memcpy
	leaq	13168(%rsp), %rdi
	leaq	3128(%rsp), %rsi
	movq	112(%rsp), %rdx
	vj_c_call	memcpy
	movaps	13152(%rsp), %xmm0
	movaps	13168(%rsp), %xmm1
	movaps	48(%rsp), %xmm3
	xorps	.L1_x86_CPI4_8(%rip), %xmm3
	movaps	.L1_x86_CPI4_18(%rip), %xmm2
	xorps	.L1_x86_CPI4_14(%rip), %xmm0
	xorps	.L1_x86_CPI4_15(%rip), %xmm1
	movups	%xmm2, 3472(%rsp)
	movups	%xmm3, 3456(%rsp)
	movups	%xmm1, 3504(%rsp)
	movups	%xmm0, 3488(%rsp)
	movups	%xmm2, 3536(%rsp)
	movups	%xmm3, 3520(%rsp)
	movups	%xmm1, 3568(%rsp)
	movups	%xmm0, 3552(%rsp)
	xorps	%xmm0, %xmm0
	movups	%xmm0, 3584(%rsp)
	movups	%xmm0, 3600(%rsp)
	movups	%xmm0, 3616(%rsp)
	movups	%xmm0, 3632(%rsp)
	movups	%xmm0, 3648(%rsp)
	movups	%xmm0, 3664(%rsp)
	movups	%xmm0, 3680(%rsp)
	movups	%xmm0, 3696(%rsp)
	movups	%xmm0, 3712(%rsp)
	movq	$0, 3728(%rsp)
	movq	72(%rsp), %rax
	movb	%al, 3592(%rsp)
	cmpq	$128, %r15
	jbe	294f
	movq	%r14, %rbx
	leaq	-1(%r15), %r14
	movq	%r14, %r12
	shrq	$7, %r12
	movq	%rbx, %r13
293:
	movq	3584(%rsp), %rdx
	subq	$-128, %rdx
	movq	%rdx, 3584(%rsp)
	leaq	3456(%rsp), %rdi
	movq	%rbx, %rsi
	xorl	%ecx, %ecx
	xorl	%r8d, %r8d
	vj_call	blake2_compress..compress..blake2b..compress_1_x86
	subq	$-128, %rbx
	decq	%r12
	jne	293b
	andq	$-128, %r14
	leaq	(%r14,%r13), %rsi
	movq	%r15, %rbx
	subq	%r14, %rbx
	xorps	%xmm0, %xmm0
	leaq	3600(%rsp), %rdi
	movups	%xmm0, 112(%rdi)
	movups	%xmm0, 96(%rdi)
	movups	%xmm0, 80(%rdi)
	movups	%xmm0, 64(%rdi)
	movups	%xmm0, 48(%rdi)
	movups	%xmm0, 32(%rdi)
	movups	%xmm0, 16(%rdi)
	movups	%xmm0, (%rdi)
	movq	%rdi, %rax
	subq	%rsi, %rax
	cmpq	%rbx, %rax
	jae	306f
	cmpq	$4, %rbx
	jae	371f
	xorl	%eax, %eax
	jmp	431f
294:
	leaq	3600(%rsp), %rdi
	movq	%rdi, %rax
	subq	%r14, %rax
	cmpq	%r15, %rax
	jae	307f
	cmpq	$4, %r15
	jb	295f
	leaq	3456(%rsp), %rax
	subq	%r14, %rax
	addq	$144, %rax
	cmpq	$32, %rax
	jae	405f
295:
	xorl	%eax, %eax
296:
	movq	%r15, %rdx
	movq	%rax, %rcx
	andq	$3, %rdx
	je	298f
	movq	%rax, %rcx
297:
	movzbl	(%r14,%rcx), %esi
	movb	%sil, 3600(%rsp,%rcx)
	incq	%rcx
	decq	%rdx
	jne	297b
298:
	subq	%r15, %rax
	cmpq	$-4, %rax
	ja	433f
299:
	movzbl	(%r14,%rcx), %eax
	movb	%al, 3600(%rsp,%rcx)
	movzbl	1(%r14,%rcx), %eax
	movb	%al, 3601(%rsp,%rcx)
	movzbl	2(%r14,%rcx), %eax
	movb	%al, 3602(%rsp,%rcx)
	movzbl	3(%r14,%rcx), %eax
	movb	%al, 3603(%rsp,%rcx)
	addq	$4, %rcx
	cmpq	%rcx, %r15
	jne	299b
	jmp	433f
300:
	movq	%r11, %rbx
	movq	%r10, %r9
	cmpq	$32, %r15
	jae	355f
	xorl	%ecx, %ecx
	jmp	357f
301:
	leaq	1(%r14), %r13
302:
	movq	13152(%rsp), %rbx
	movq	13168(%rsp), %r15
	testq	%r14, %r14
	je	555f
303:
	leaq	32(%rbx), %r12
	jmp	305f
304:
	addq	$40, %r12
	decq	%r14
	je	555f
305:
	cmpb	$0, -32(%r12)
	jne	304b
	cmpq	$0, (%r12)
	je	304b
	movq	-16(%r12), %rdi
	vj_call	rattle_dealloc
	jmp	304b
306:
	movq	%rbx, %rdx
	vj_c_call	memmove
	jmp	432f
307:
	movq	%r14, %rsi
	movq	%r15, %rdx
	vj_c_call	memcpy
	jmp	433f
308:
	movups	80(%r15), %xmm0
	movups	96(%r15), %xmm1
	movdqu	112(%r15), %xmm2
	movups	128(%r15), %xmm3
	movups	%xmm3, 48(%rax)
	movdqu	%xmm2, 32(%rax)
	movups	%xmm1, 16(%rax)
	movups	%xmm0, (%rax)
	movq	$0, 144(%r15)
	movl	156(%r15), %eax
	movl	%eax, 152(%r15)
	xorps	%xmm0, %xmm0
	movups	%xmm0, 232(%r15)
	movups	%xmm0, 248(%r15)
	movups	%xmm0, 264(%r15)
	movups	%xmm0, 280(%r15)
	movups	296(%r15), %xmm0
	movups	%xmm0, 168(%r15)
	movups	312(%r15), %xmm0
	movups	%xmm0, 184(%r15)
	movups	328(%r15), %xmm0
	movups	%xmm0, 200(%r15)
	movdqu	344(%r15), %xmm0
	movdqu	%xmm0, 216(%r15)
	cmpq	%rbx, 1008(%rsp)
	je	315f
309:
	movq	%rbx, %rax
	shlq	$6, %rax
	movdqu	288(%rsp), %xmm0
	movups	304(%rsp), %xmm1
	movdqu	320(%rsp), %xmm2
	movups	336(%rsp), %xmm3
310:
	movq	104(%rsp), %rcx
	movups	%xmm3, 48(%rcx,%rax)
	movdqu	%xmm2, 32(%rcx,%rax)
	movups	%xmm1, 16(%rcx,%rax)
	movdqu	%xmm0, (%rcx,%rax)
	incq	%rbx
	movq	%rbx, 1000(%rsp)
311:
	incq	%r12
	addq	$32, %r13
	cmpq	%r12, %r14
	je	380f
312:
	pxor	%xmm0, %xmm0
	movdqa	%xmm0, 2480(%rsp)
	movq	$0, 2496(%rsp)
	movq	$0, 5120(%rsp)
	movq	-16(%r13), %rax
	cmpq	%rax, 1800(%rsp)
	jbe	333f
	movq	1792(%rsp), %r15
	imulq	$360, %rax, %rax
	cmpb	$1, (%r15,%rax)
	jne	333f
	addq	%rax, %r15
	leaq	8(%r15), %rax
	movzbl	-24(%r13), %ecx
	leaq	.L1_x86_JTI4_4(%rip), %rdx
	movslq	(%rdx,%rcx,4), %rcx
	addq	%rdx, %rcx
	notrack	jmpq	*%rcx
313:
	movq	-8(%r13), %rsi
	movq	(%r13), %rdx
	cmpb	$0, (%rax)
	movq	%r12, 112(%rsp)
	je	323f
	movzwl	88(%r15), %eax
	movq	80(%r15), %rcx
	addq	%rax, %rcx
	addq	%rdx, %rcx
	jb	533f
	leaq	16(%r15), %rdi
	cmpq	$1, %rdx
	jne	326f
	cmpw	$64, %ax
	jae	327f
	movzbl	(%rsi), %ecx
	movb	%cl, 96(%r15,%rax)
	incl	%eax
	movw	%ax, 88(%r15)
	jmp	330f
314:
	leaq	288(%rsp), %rdi
	movq	%rax, %rsi
	callq	blake2_state..runs..Run..padded_1_x86
	leaq	16(%r15), %rax
	cmpb	$0, 8(%r15)
	je	308b
	movups	48(%r15), %xmm0
	movups	64(%r15), %xmm1
	movups	%xmm1, 16(%rax)
	movups	%xmm0, (%rax)
	movq	$0, 80(%r15)
	movzwl	90(%r15), %eax
	movw	%ax, 88(%r15)
	xorps	%xmm0, %xmm0
	movups	%xmm0, 128(%r15)
	movups	%xmm0, 144(%r15)
	movups	160(%r15), %xmm0
	movups	%xmm0, 96(%r15)
	movdqu	176(%r15), %xmm0
	movdqu	%xmm0, 112(%r15)
	cmpq	%rbx, 1008(%rsp)
	jne	309b
315:
	leaq	992(%rsp), %rdi
	callq	std_alloc..vec..Vec..grow_amortized..cc873f31dc2b008d_1_x86
	testb	%al, %al
	je	553f
	movq	992(%rsp), %rax
	movq	%rax, 104(%rsp)
	movq	1000(%rsp), %rbx
	movq	48(%rsp), %r14
	jmp	309b
316:
	leaq	16(%r15), %rax
	cmpb	$0, 8(%r15)
	je	319f
	movups	48(%r15), %xmm0
	movups	64(%r15), %xmm1
	movups	%xmm1, 16(%rax)
	movups	%xmm0, (%rax)
	movq	$0, 80(%r15)
	movzwl	90(%r15), %eax
	movw	%ax, 88(%r15)
	xorps	%xmm0, %xmm0
	movups	%xmm0, 128(%r15)
	movups	%xmm0, 144(%r15)
	movups	160(%r15), %xmm0
	movups	%xmm0, 96(%r15)
	movdqu	176(%r15), %xmm0
	movdqu	%xmm0, 112(%r15)
	jmp	311b
317:
	movq	%rbx, 80(%rsp)
	movzbl	8(%r15), %r14d
	leaq	16(%r15), %rsi
	leaq	3104(%rsp), %rbx
	movl	$344, %edx
	movq	%rbx, %rdi
	vj_c_call	memcpy
	movl	$360, %edx
	movq	%r15, %rdi
	xorl	%esi, %esi
	vj_c_call	memset
	movl	$344, %edx
	leaq	632(%rsp), %rdi
	movq	%rbx, %rsi
	vj_c_call	memcpy
	movq	%r14, 624(%rsp)
	leaq	1472(%rsp), %rdi
	leaq	624(%rsp), %rsi
	callq	blake2_state..runs..Run..padded_1_x86
	movl	$344, %edx
	leaq	1128(%rsp), %r15
	movq	%r15, %rdi
	movq	%rbx, %rsi
	vj_c_call	memcpy
	movq	%r14, 1120(%rsp)
	testq	%r14, %r14
	je	320f
	pxor	%xmm0, %xmm0
	movdqu	%xmm0, 160(%r15)
	movdqu	%xmm0, 144(%r15)
	movdqu	%xmm0, 128(%r15)
	movdqu	%xmm0, 112(%r15)
	movdqu	%xmm0, 96(%r15)
	movdqu	%xmm0, 80(%r15)
	movdqu	%xmm0, 64(%r15)
	movdqu	%xmm0, 48(%r15)
	movdqu	%xmm0, 32(%r15)
	movdqu	%xmm0, 16(%r15)
	movdqu	%xmm0, (%r15)
	leaq	1208(%rsp), %rdi
	callq	blake2_digest..wiping..settle..64_1_x86
	leaq	1272(%rsp), %rdi
	callq	blake2_digest..wiping..settle..32_1_x86
	jmp	321f
318:
	movq	%rbx, 80(%rsp)
	movq	%r12, 112(%rsp)
	movdqa	%xmm0, 1296(%rsp)
	movdqa	%xmm0, 1280(%rsp)
	movdqa	%xmm0, 1264(%rsp)
	movdqa	%xmm0, 1248(%rsp)
	movdqa	%xmm0, 1232(%rsp)
	movdqa	%xmm0, 1216(%rsp)
	movdqa	%xmm0, 1200(%rsp)
	movdqa	%xmm0, 1184(%rsp)
	movdqa	%xmm0, 1168(%rsp)
	movdqa	%xmm0, 1152(%rsp)
	movdqa	%xmm0, 1136(%rsp)
	movdqa	%xmm0, 1120(%rsp)
	movzbl	8(%r15), %r12d
	leaq	16(%r15), %rax
	testq	%r12, %r12
	leaq	1128(%rsp), %rcx
	je	324f
	movq	80(%r15), %rbx
	movq	144(%r15), %r14
	movsd	88(%r15), %xmm1
	movaps	%xmm1, 416(%rsp)
	movups	152(%r15), %xmm1
	movaps	%xmm1, 272(%rsp)
	movups	(%rax), %xmm1
	movups	16(%rax), %xmm2
	movaps	%xmm2, 480(%rsp)
	movaps	%xmm1, 464(%rsp)
	movups	48(%r15), %xmm1
	movups	64(%r15), %xmm2
	leaq	496(%rsp), %rax
	movups	%xmm2, 16(%rax)
	movups	%xmm1, (%rax)
	movups	96(%r15), %xmm1
	movups	112(%r15), %xmm2
	movups	128(%r15), %xmm3
	movaps	%xmm2, 640(%rsp)
	movaps	%xmm3, 656(%rsp)
	movaps	%xmm1, 624(%rsp)
	movups	168(%r15), %xmm1
	movaps	%xmm1, 1120(%rsp)
	movq	184(%r15), %rax
	movq	%rax, 1136(%rsp)
	movdqu	%xmm0, 160(%rcx)
	movdqu	%xmm0, 144(%rcx)
	movdqu	%xmm0, 128(%rcx)
	movdqu	%xmm0, 112(%rcx)
	movdqu	%xmm0, 96(%rcx)
	movdqu	%xmm0, 80(%rcx)
	movdqu	%xmm0, 64(%rcx)
	movdqu	%xmm0, 48(%rcx)
	movdqu	%xmm0, 32(%rcx)
	movdqu	%xmm0, 16(%rcx)
	movq	$0, 176(%rcx)
	jmp	325f
319:
	movups	80(%r15), %xmm0
	movups	96(%r15), %xmm1
	movdqu	112(%r15), %xmm2
	movups	128(%r15), %xmm3
	movups	%xmm3, 48(%rax)
	movdqu	%xmm2, 32(%rax)
	movups	%xmm1, 16(%rax)
	movups	%xmm0, (%rax)
	movq	$0, 144(%r15)
	movl	156(%r15), %eax
	movl	%eax, 152(%r15)
	xorps	%xmm0, %xmm0
	movups	%xmm0, 232(%r15)
	movups	%xmm0, 248(%r15)
	movups	%xmm0, 264(%r15)
	movups	%xmm0, 280(%r15)
	movups	296(%r15), %xmm0
	movups	%xmm0, 168(%r15)
	movups	312(%r15), %xmm0
	movups	%xmm0, 184(%r15)
	movups	328(%r15), %xmm0
	movups	%xmm0, 200(%r15)
	movdqu	344(%r15), %xmm0
	movdqu	%xmm0, 216(%r15)
	jmp	311b
320:
	movl	$344, %edx
	movq	%r15, %rdi
	xorl	%esi, %esi
	vj_c_call	memset
	leaq	1280(%rsp), %rdi
	callq	blake2_digest..wiping..settle..128_1_x86
	leaq	1408(%rsp), %rdi
	callq	blake2_digest..wiping..settle..64_1_x86
321:
	movq	48(%rsp), %r14
	movq	80(%rsp), %rbx
	cmpq	%rbx, 1008(%rsp)
	je	331f
322:
	movq	%rbx, %rax
	shlq	$6, %rax
	movdqu	1472(%rsp), %xmm0
	movups	1488(%rsp), %xmm1
	movdqu	1504(%rsp), %xmm2
	movups	1520(%rsp), %xmm3
	jmp	310b
323:
	movl	152(%r15), %eax
	movq	144(%r15), %rcx
	addq	%rax, %rcx
	addq	%rdx, %rcx
	jb	533f
	leaq	16(%r15), %rdi
	cmpq	$1, %rdx
	jne	329f
	cmpl	$128, %eax
	jae	328f
	movzbl	(%rsi), %ecx
	movb	%cl, 168(%r15,%rax)
	incl	%eax
	movl	%eax, 152(%r15)
	jmp	330f
324:
	movq	80(%r15), %rbx
	movq	144(%r15), %r14
	movsd	88(%r15), %xmm0
	movaps	%xmm0, 416(%rsp)
	movups	152(%r15), %xmm0
	movaps	%xmm0, 272(%rsp)
	movups	(%rax), %xmm0
	movups	16(%rax), %xmm1
	movups	32(%rax), %xmm2
	movups	48(%rax), %xmm3
	movaps	%xmm3, 512(%rsp)
	movaps	%xmm2, 496(%rsp)
	movaps	%xmm1, 480(%rsp)
	movaps	%xmm0, 464(%rsp)
	movups	96(%r15), %xmm0
	movups	112(%r15), %xmm1
	movups	128(%r15), %xmm2
	movaps	%xmm2, 656(%rsp)
	movaps	%xmm1, 640(%rsp)
	movaps	%xmm0, 624(%rsp)
	movups	168(%r15), %xmm0
	movups	184(%r15), %xmm1
	movups	200(%r15), %xmm2
	movups	216(%r15), %xmm3
	movaps	%xmm0, 1120(%rsp)
	movaps	%xmm1, 1136(%rsp)
	movaps	%xmm2, 1152(%rsp)
	movaps	%xmm3, 1168(%rsp)
	movups	232(%r15), %xmm0
	movaps	%xmm0, 1184(%rsp)
	movups	248(%r15), %xmm0
	movaps	%xmm0, 1200(%rsp)
	movups	264(%r15), %xmm0
	movaps	%xmm0, 1216(%rsp)
	movups	280(%r15), %xmm0
	movaps	%xmm0, 1232(%rsp)
	movdqu	296(%r15), %xmm0
	movups	312(%r15), %xmm1
	movups	328(%r15), %xmm2
	movups	344(%r15), %xmm3
	movups	%xmm3, 168(%rcx)
	movups	%xmm2, 152(%rcx)
	movups	%xmm1, 136(%rcx)
	movdqu	%xmm0, 120(%rcx)
325:
	movaps	624(%rsp), %xmm0
	movaps	640(%rsp), %xmm1
	movaps	656(%rsp), %xmm2
	leaq	4976(%rsp), %r15
	movups	%xmm2, 112(%r15)
	movups	%xmm1, 96(%r15)
	movups	%xmm0, 80(%r15)
	leaq	1120(%rsp), %rsi
	movl	$192, %edx
	leaq	5128(%rsp), %rdi
	vj_c_call	memcpy
	movq	$1, 4960(%rsp)
	movq	%r12, 4968(%rsp)
	movaps	464(%rsp), %xmm0
	movaps	480(%rsp), %xmm1
	movdqa	496(%rsp), %xmm2
	movaps	512(%rsp), %xmm3
	movups	%xmm3, 48(%r15)
	movdqu	%xmm2, 32(%r15)
	movups	%xmm1, 16(%r15)
	movups	%xmm0, (%r15)
	movq	%rbx, 5040(%rsp)
	movaps	416(%rsp), %xmm0
	movlps	%xmm0, 5048(%rsp)
	movq	%r14, 5104(%rsp)
	movdqa	272(%rsp), %xmm0
	movdqu	%xmm0, 5112(%rsp)
	leaq	2480(%rsp), %rdi
	leaq	1792(%rsp), %rsi
	leaq	4960(%rsp), %rdx
	callq	blake2_replay..calls..push..08bf280249c874f5_1_x86
	cmpb	$0, 2480(%rsp)
	movq	112(%rsp), %r12
	movq	48(%rsp), %r14
	movq	80(%rsp), %rbx
	je	311b
	jmp	534f
326:
	callq	blake2_state..blake2s..State..absorb_blocks_1_x86
	jmp	330f
327:
	movl	$1, %edx
	callq	blake2_state..blake2s..State..absorb_blocks_1_x86
	jmp	330f
328:
	movl	$1, %edx
329:
	callq	blake2_state..blake2b..State..absorb_blocks_1_x86
330:
	movq	112(%rsp), %r12
	movq	48(%rsp), %r14
	jmp	311b
331:
	leaq	992(%rsp), %rdi
	callq	std_alloc..vec..Vec..grow_amortized..cc873f31dc2b008d_1_x86
	testb	%al, %al
	je	553f
	movq	992(%rsp), %rax
	movq	%rax, 104(%rsp)
	movq	1000(%rsp), %rbx
	movq	48(%rsp), %r14
	jmp	322b
332:
	movb	$1, 48(%rsp)
	movq	$0, 80(%rsp)
	jmp	381f
333:
	movq	%r12, 112(%rsp)
	movl	$0, 80(%rsp)
334:
	cmpq	$0, 1008(%rsp)
	je	335f
	movq	992(%rsp), %rdi
	vj_call	rattle_dealloc
335:
	movq	1792(%rsp), %rax
	movq	%rax, 48(%rsp)
	movq	1800(%rsp), %r12
	movq	1808(%rsp), %rax
	movq	%rax, 160(%rsp)
	testq	%r12, %r12
	je	339f
	leaq	4968(%rsp), %r15
	leaq	5112(%rsp), %r13
	movq	48(%rsp), %rax
	leaq	16(%rax), %r14
	jmp	338f
336:
	pxor	%xmm0, %xmm0
	movdqu	%xmm0, 160(%r15)
	movdqu	%xmm0, 144(%r15)
	movdqu	%xmm0, 128(%r15)
	movdqu	%xmm0, 112(%r15)
	movdqu	%xmm0, 96(%r15)
	movdqu	%xmm0, 80(%r15)
	movdqu	%xmm0, 64(%r15)
	movdqu	%xmm0, 48(%r15)
	movdqu	%xmm0, 32(%r15)
	movdqu	%xmm0, 16(%r15)
	movdqu	%xmm0, (%r15)
	leaq	5048(%rsp), %rdi
	callq	blake2_digest..wiping..settle..64_1_x86
	movq	%r13, %rdi
	callq	blake2_digest..wiping..settle..32_1_x86
337:
	addq	$360, %r14
	decq	%r12
	je	339f
338:
	cmpb	$0, -16(%r14)
	je	337b
	movzbl	-8(%r14), %ebx
	movq	%rbx, 4960(%rsp)
	movl	$344, %edx
	movq	%r15, %rdi
	movq	%r14, %rsi
	vj_c_call	memcpy
	testq	%rbx, %rbx
	jne	336b
	movl	$344, %edx
	movq	%r15, %rdi
	xorl	%esi, %esi
	vj_c_call	memset
	leaq	5120(%rsp), %rdi
	callq	blake2_digest..wiping..settle..128_1_x86
	leaq	5248(%rsp), %rdi
	callq	blake2_digest..wiping..settle..64_1_x86
	jmp	337b
339:
	cmpq	$0, 160(%rsp)
	je	340f
	movq	48(%rsp), %rdi
	vj_call	rattle_dealloc
340:
	movl	80(%rsp), %eax
	cmpb	$2, %al
	je	341f
	movzbl	%al, %eax
	cmpl	$1, %eax
	jne	342f
	movq	112(%rsp), %r12
	incq	%r12
	movb	$5, %r14b
	jmp	343f
341:
	movb	$8, %r14b
	xorl	%r12d, %r12d
	jmp	343f
342:
	movq	112(%rsp), %r12
	incq	%r12
	movb	$4, %r14b
343:
	movq	24(%rsp), %r15
	movq	144(%rsp), %r13
	movzbl	96(%rsp), %eax
	movl	32(%rsp), %ebx
	testb	%al, %al
	jne	344f
	movq	256(%rsp), %rdi
	vj_call	rattle_dealloc
344:
	testb	%bl, %bl
	je	348f
345:
	cmpq	$0, 176(%rsp)
	je	346f
	movq	72(%rsp), %rdi
	vj_call	rattle_dealloc
346:
	movb	$1, %dil
	testq	%r15, %r15
	movq	%r14, %r13
	je	347f
	movq	128(%rsp), %rdi
	vj_call	rattle_dealloc
	movb	$1, %dil
347:
	movq	8(%rsp), %rdx
	testb	%dil, %dil
	jne	39b
	jmp	548f
348:
	movq	72(%rsp), %rax
	leaq	32(%rax), %rbx
	jmp	350f
349:
	addq	$40, %rbx
	decq	%r13
	je	345b
350:
	cmpb	$0, -32(%rbx)
	jne	349b
	cmpq	$0, (%rbx)
	je	349b
	movq	-16(%rbx), %rdi
	vj_call	rattle_dealloc
	jmp	349b
351:
	cmpq	$64, %r12
	movl	$64, %edx
	cmovbq	%r12, %rdx
	pxor	%xmm0, %xmm0
	movdqa	%xmm0, 5008(%rsp)
	movdqa	%xmm0, 4992(%rsp)
	movdqa	%xmm0, 4976(%rsp)
	movdqa	%xmm0, 4960(%rsp)
	leaq	4960(%rsp), %rdi
	movq	80(%rsp), %rsi
352:
	vj_c_call	memcpy
	movq	24(%rsp), %rcx
	cmpq	$65, %rcx
	movl	$64, %eax
	cmovbq	%rcx, %rax
	movdqa	4960(%rsp), %xmm0
	movaps	4976(%rsp), %xmm1
	movdqa	4992(%rsp), %xmm2
	movaps	5008(%rsp), %xmm3
	movaps	%xmm3, 13200(%rsp)
	movdqa	%xmm2, 13184(%rsp)
	movaps	%xmm1, 13168(%rsp)
	movdqa	%xmm0, 13152(%rsp)
	movups	%xmm3, 48(%r15)
	movdqu	%xmm2, 32(%r15)
	movups	%xmm1, 16(%r15)
	movdqu	%xmm0, (%r15)
	movq	%rax, 64(%r15)
	setb	72(%r15)
	movl	$0, 73(%r15)
	movl	$0, 76(%r15)
	movq	$1, 1128(%rsp)
	testq	%rbx, %rbx
	je	360f
	testb	$1, 48(%rsp)
	je	373f
	movl	$1, %r14d
	movl	$128, %r13d
	movq	112(%rsp), %r12
	movq	80(%rsp), %rax
	jmp	354f
353:
	leaq	(%r14,%r14,4), %rax
	shlq	$4, %rax
	movdqa	13152(%rsp), %xmm0
	movaps	13168(%rsp), %xmm1
	movdqa	13184(%rsp), %xmm2
	movaps	13200(%rsp), %xmm3
	movups	%xmm3, 48(%r15,%rax)
	movdqu	%xmm2, 32(%r15,%rax)
	movups	%xmm1, 16(%r15,%rax)
	movdqu	%xmm0, (%r15,%rax)
	movq	%r12, 64(%r15,%rax)
	movb	%cl, 72(%r15,%rax)
	movb	$0, 73(%r15,%rax)
	movl	4960(%rsp), %ecx
	movl	%ecx, 74(%r15,%rax)
	movzwl	4964(%rsp), %ecx
	movw	%cx, 78(%r15,%rax)
	incq	%r14
	movq	%r14, 1128(%rsp)
	addq	$64, %r13
	addq	$-64, %rdx
	decq	%rbx
	movq	%rdx, %r12
	movq	80(%rsp), %rax
	je	361f
354:
	leaq	(%rax,%r13), %rsi
	addq	$-128, %rsi
	cmpq	$64, %r12
	movl	$64, %edx
	cmovbq	%r12, %rdx
	pxor	%xmm0, %xmm0
	movdqa	%xmm0, 5008(%rsp)
	movdqa	%xmm0, 4992(%rsp)
	movdqa	%xmm0, 4976(%rsp)
	movdqa	%xmm0, 4960(%rsp)
	leaq	4960(%rsp), %rdi
	vj_c_call	memcpy
	cmpq	$1, %rbx
	sete	%cl
	movq	%r12, %rdx
	movq	%r13, %r12
	cmoveq	24(%rsp), %r12
	movdqa	4960(%rsp), %xmm0
	movaps	4976(%rsp), %xmm1
	movdqa	4992(%rsp), %xmm2
	movaps	5008(%rsp), %xmm3
	movdqa	%xmm0, 13152(%rsp)
	movaps	%xmm1, 13168(%rsp)
	movdqa	%xmm2, 13184(%rsp)
	movaps	%xmm3, 13200(%rsp)
	movw	$0, 4964(%rsp)
	movl	$0, 4960(%rsp)
	cmpq	%r14, 1136(%rsp)
	jne	353b
	movb	%cl, 48(%rsp)
	movq	%rdx, 112(%rsp)
	leaq	1120(%rsp), %rdi
	callq	std_alloc..vec..Vec..grow_amortized..6c60784b9e596c8b_1_x86
	testb	%al, %al
	je	540f
	movq	1120(%rsp), %r15
	movq	1128(%rsp), %r14
	movq	112(%rsp), %rdx
	movzbl	48(%rsp), %ecx
	jmp	353b
355:
	movq	%r15, %rcx
	andq	$-32, %rcx
	leaq	(%rax,%r13), %rdx
	addq	$16, %rdx
	xorl	%r8d, %r8d
356:
	movdqu	(%rsi,%r8), %xmm0
	movups	16(%rsi,%r8), %xmm1
	movdqu	%xmm0, -16(%rdx,%r8)
	movups	%xmm1, (%rdx,%r8)
	addq	$32, %r8
	cmpq	%r8, %rcx
	jne	356b
	cmpq	%rcx, %r15
	movq	%r9, %r10
	movq	%rbx, %r11
	je	233b
	testb	$28, %r15b
	je	189b
357:
	movq	%rcx, %rdx
	movq	%r15, %rcx
	andq	$-4, %rcx
358:
	movl	(%rsi,%rdx), %r8d
	movl	%r8d, (%rdi,%rdx)
	addq	$4, %rdx
	cmpq	%rdx, %rcx
	jne	358b
	cmpq	%rcx, %r15
	movq	%r9, %r10
	movq	%rbx, %r11
	je	233b
	jmp	189b
359:
	movq	%r8, %r12
	movq	%rcx, %r13
	movq	%rsi, %rbx
	leaq	624(%rsp), %rdi
	movq	%r15, %rsi
	callq	std_alloc..vec..Vec..grow_amortized..3378b08034dc46b4_1_x86
	testb	%al, %al
	je	389f
	movq	624(%rsp), %rdx
	movq	632(%rsp), %rax
	movq	640(%rsp), %r11
	movq	%rbx, %rsi
	movq	%r13, %rcx
	movq	%r12, %r8
	jmp	187b
360:
	movl	$1, %r14d
361:
	movq	%r14, 48(%rsp)
	xorl	%eax, %eax
	movzbl	72(%rsp), %ecx
	movb	%cl, %al
	shll	$4, %eax
	movq	128(%rsp), %rcx
	leal	(%rax,%rcx), %r14d
	addl	$16, %r14d
	movq	1120(%rsp), %rax
	movq	%rax, 24(%rsp)
	movq	1136(%rsp), %rax
	movq	%rax, 112(%rsp)
	leaq	13226(%rsp), %rdi
	xorl	%ebx, %ebx
	movl	$350, %edx
	xorl	%esi, %esi
	vj_c_call	memset
	movl	$825237623, 13152(%rsp)
	bswapl	%r14d
	movl	%r14d, %edx
	shrl	$8, %edx
	movl	%r14d, %esi
	shrl	$16, %esi
	movl	%r14d, %ecx
	shrl	$24, %ecx
	movl	%r14d, %edi
	shrl	$12, %edi
	andl	$15, %edi
	leaq	.L1_x86_static.37(%rip), %rax
	movzbl	(%rdi,%rax), %edi
	movb	%dil, 13156(%rsp)
	andl	$15, %edx
	movzbl	(%rdx,%rax), %edx
	movb	%dl, 13157(%rsp)
	movl	%r14d, %edx
	shrl	$20, %edx
	andl	$15, %edx
	movzbl	(%rdx,%rax), %edx
	movb	%dl, 13158(%rsp)
	andl	$15, %esi
	movzbl	(%rsi,%rax), %edx
	movb	%dl, 13159(%rsp)
	shrl	$28, %r14d
	movzbl	(%r14,%rax), %edx
	movb	%dl, 13160(%rsp)
	andl	$15, %ecx
	movzbl	(%rcx,%rax), %ecx
	movb	%cl, 13161(%rsp)
	movb	$32, 13162(%rsp)
	movabsq	$3472328296227680304, %rdi
	movq	%rdi, 13163(%rsp)
	movb	$32, 13171(%rsp)
	movq	%rdi, 13172(%rsp)
	movb	$32, 13180(%rsp)
	movq	104(%rsp), %r8
	bswapl	%r8d
	movl	%r8d, %esi
	shrl	$8, %esi
	movl	%r8d, %edx
	shrl	$16, %edx
	movl	%r8d, %ecx
	shrl	$24, %ecx
	movq	%rdi, 13181(%rsp)
	movb	$32, 13189(%rsp)
	movzbl	%r8b, %edi
	shrl	$4, %edi
	movzbl	(%rdi,%rax), %edi
	movb	%dil, 13190(%rsp)
	movl	%r8d, %edi
	andl	$15, %edi
	movzbl	(%rdi,%rax), %edi
	movb	%dil, 13191(%rsp)
	movl	%r8d, %edi
	shrl	$12, %edi
	andl	$15, %edi
	movzbl	(%rdi,%rax), %edi
	movb	%dil, 13192(%rsp)
	andl	$15, %esi
	movzbl	(%rsi,%rax), %esi
	movb	%sil, 13193(%rsp)
	movl	%r8d, %esi
	shrl	$20, %esi
	andl	$15, %esi
	movzbl	(%rsi,%rax), %esi
	movb	%sil, 13194(%rsp)
	andl	$15, %edx
	movzbl	(%rdx,%rax), %edx
	movb	%dl, 13195(%rsp)
	shrl	$28, %r8d
	movzbl	(%r8,%rax), %edx
	movb	%dl, 13196(%rsp)
	andl	$15, %ecx
	movzbl	(%rcx,%rax), %ecx
	movb	%cl, 13197(%rsp)
	movq	176(%rsp), %r8
	bswapl	%r8d
	movl	%r8d, %esi
	shrl	$8, %esi
	movl	%r8d, %edx
	shrl	$16, %edx
	movl	%r8d, %ecx
	shrl	$24, %ecx
	movb	$32, 13198(%rsp)
	movzbl	%r8b, %edi
	shrl	$4, %edi
	movzbl	(%rdi,%rax), %edi
	movb	%dil, 13199(%rsp)
	movl	%r8d, %edi
	andl	$15, %edi
	movzbl	(%rdi,%rax), %edi
	movb	%dil, 13200(%rsp)
	movl	%r8d, %edi
	shrl	$12, %edi
	andl	$15, %edi
	movzbl	(%rdi,%rax), %edi
	movb	%dil, 13201(%rsp)
	andl	$15, %esi
	movzbl	(%rsi,%rax), %esi
	movb	%sil, 13202(%rsp)
	movl	%r8d, %esi
	shrl	$20, %esi
	andl	$15, %esi
	movzbl	(%rsi,%rax), %esi
	movb	%sil, 13203(%rsp)
	andl	$15, %edx
	movzbl	(%rdx,%rax), %edx
	movb	%dl, 13204(%rsp)
	shrl	$28, %r8d
	movzbl	(%r8,%rax), %edx
	movb	%dl, 13205(%rsp)
	andl	$15, %ecx
	movzbl	(%rcx,%rax), %ecx
	movb	%cl, 13206(%rsp)
	movq	160(%rsp), %r8
	bswapl	%r8d
	movl	%r8d, %esi
	shrl	$8, %esi
	movl	%r8d, %edx
	shrl	$16, %edx
	movl	%r8d, %ecx
	shrl	$24, %ecx
	movb	$32, 13207(%rsp)
	movzbl	%r8b, %edi
	shrl	$4, %edi
	movzbl	(%rdi,%rax), %edi
	movb	%dil, 13208(%rsp)
	movl	%r8d, %edi
	andl	$15, %edi
	movzbl	(%rdi,%rax), %edi
	movb	%dil, 13209(%rsp)
	movl	%r8d, %edi
	shrl	$12, %edi
	andl	$15, %edi
	movzbl	(%rdi,%rax), %edi
	movb	%dil, 13210(%rsp)
	andl	$15, %esi
	movzbl	(%rsi,%rax), %esi
	movb	%sil, 13211(%rsp)
	movl	%r8d, %esi
	shrl	$20, %esi
	andl	$15, %esi
	movzbl	(%rsi,%rax), %esi
	movb	%sil, 13212(%rsp)
	andl	$15, %edx
	movzbl	(%rdx,%rax), %edx
	movb	%dl, 13213(%rsp)
	shrl	$28, %r8d
	movzbl	(%r8,%rax), %edx
	movb	%dl, 13214(%rsp)
	andl	$15, %ecx
	movzbl	(%rcx,%rax), %ecx
	movb	%cl, 13215(%rsp)
	movq	144(%rsp), %r8
	bswapl	%r8d
	movl	%r8d, %esi
	shrl	$8, %esi
	movl	%r8d, %edx
	shrl	$16, %edx
	movl	%r8d, %ecx
	shrl	$24, %ecx
	movb	$32, 13216(%rsp)
	movzbl	%r8b, %edi
	shrl	$4, %edi
	movzbl	(%rdi,%rax), %edi
	movb	%dil, 13217(%rsp)
	movl	%r8d, %edi
	andl	$15, %edi
	movzbl	(%rdi,%rax), %edi
	movb	%dil, 13218(%rsp)
	movl	%r8d, %edi
	shrl	$12, %edi
	andl	$15, %edi
	movzbl	(%rdi,%rax), %edi
	movb	%dil, 13219(%rsp)
	andl	$15, %esi
	movzbl	(%rsi,%rax), %esi
	movb	%sil, 13220(%rsp)
	movl	%r8d, %esi
	shrl	$20, %esi
	andl	$15, %esi
	movzbl	(%rsi,%rax), %esi
	movb	%sil, 13221(%rsp)
	andl	$15, %edx
	movzbl	(%rdx,%rax), %edx
	movb	%dl, 13222(%rsp)
	shrl	$28, %r8d
	movzbl	(%r8,%rax), %edx
	movb	%dl, 13223(%rsp)
	andl	$15, %ecx
	movzbl	(%rcx,%rax), %eax
	movb	%al, 13224(%rsp)
	movb	$10, 13225(%rsp)
	movq	$74, 13576(%rsp)
362:
	leaq	(%rsp,%rbx), %rsi
	addq	$13152, %rsi
	movl	$74, %r14d
	subq	%rbx, %r14
	movl	$1, %edi
	movq	%r14, %rdx
	vj_system_call	write, b2_write
	testq	%rax, %rax
	js	372f
	cmpq	%r14, %rax
	cmovbq	%rax, %r14
	testq	%r14, %r14
	je	419f
	addq	%r14, %rbx
	cmpq	$73, %rbx
	jbe	362b
	cmpq	$0, 48(%rsp)
	je	408f
	leaq	4962(%rsp), %r14
	xorl	%ebx, %ebx
	jmp	364f
363:
	incq	%rbx
	xorl	%r15d, %r15d
	movl	$0, %r13d
	cmpq	48(%rsp), %rbx
	je	420f
364:
	leaq	(%rbx,%rbx,4), %r15
	shlq	$4, %r15
	movl	$422, %edx
	movq	%r14, %rdi
	xorl	%esi, %esi
	vj_c_call	memset
	movb	$101, 4960(%rsp)
	movq	$1, 5384(%rsp)
	movq	24(%rsp), %rax
	movq	64(%rax,%r15), %rcx
	movb	$32, 4961(%rsp)
	pxor	%xmm0, %xmm0
	movdqa	%xmm0, 1120(%rsp)
	movl	$0, 1136(%rsp)
	movl	$19, %r13d
	cmpq	$10, %rcx
	jb	366f
365:
	movabsq	$-3689348814741910323, %rdx
	movq	%rcx, %rax
	mulq	%rdx
	shrq	$3, %rdx
	leal	(%rdx,%rdx), %eax
	leal	(%rax,%rax,4), %eax
	movl	%ecx, %esi
	subl	%eax, %esi
	orb	$48, %sil
	movb	%sil, 1120(%rsp,%r13)
	decq	%r13
	cmpq	$99, %rcx
	movq	%rdx, %rcx
	ja	365b
	jmp	367f
366:
	movq	%rcx, %rdx
367:
	addq	24(%rsp), %r15
	orb	$48, %dl
	leaq	(%rsp,%r13), %rsi
	addq	$1120, %rsi
	movb	%dl, 1120(%rsp,%r13)
	movl	$20, %edx
	subq	%r13, %rdx
	movq	%r14, %rdi
	vj_c_call	memcpy
	leaq	4960(%rsp), %rax
	subq	%r13, %rax
	addq	$22, %rax
	cmpb	$1, 72(%r15)
	jne	368f
	leaq	.L1_x86_static.42(%rip), %rcx
	movq	%rax, %rdx
	subq	%rcx, %rdx
	cmpq	$1, %rdx
	movw	$12576, (%rax)
	jmp	369f
368:
	leaq	.L1_x86_static.43(%rip), %rcx
	movq	%rax, %rdx
	subq	%rcx, %rdx
	cmpq	$1, %rdx
	movw	$12320, (%rax)
369:
	movl	$24, %eax
	subq	%r13, %rax
	movq	%rax, 5384(%rsp)
	leaq	4960(%rsp), %rdi
	movl	$64, %edx
	movq	%r15, %rsi
	callq	b2_commands..print..Line..add_block_1_x86
	movq	5384(%rsp), %r12
	movb	$10, 4960(%rsp,%r12)
	incq	%r12
	movq	%r12, 5384(%rsp)
	je	363b
	xorl	%r13d, %r13d
370:
	leaq	(%rsp,%r13), %rsi
	addq	$4960, %rsi
	movq	%r12, %r15
	subq	%r13, %r15
	movl	$1, %edi
	movq	%r15, %rdx
	vj_system_call	write, b2_write
	testq	%rax, %rax
	js	417f
	cmpq	%r15, %rax
	cmovbq	%rax, %r15
	testq	%r15, %r15
	je	419f
	addq	%r15, %r13
	cmpq	%r12, %r13
	jb	370b
	jmp	363b
371:
	movq	%rsi, %rax
	negq	%rax
	addq	%rsp, %rax
	addq	$3600, %rax
	cmpq	$32, %rax
	jae	406f
	xorl	%eax, %eax
	jmp	431f
372:
	leaq	4960(%rsp), %rdi
	jmp	418f
373:
	movq	112(%rsp), %r12
	addq	$-64, %r12
	movl	$1, %r14d
	movl	$128, %r13d
	movq	80(%rsp), %rax
	jmp	375f
374:
	leaq	(%r14,%r14,4), %rax
	shlq	$4, %rax
	movdqa	13152(%rsp), %xmm0
	movaps	13168(%rsp), %xmm1
	movdqa	13184(%rsp), %xmm2
	movaps	13200(%rsp), %xmm3
	movups	%xmm3, 48(%r15,%rax)
	movdqu	%xmm2, 32(%r15,%rax)
	movups	%xmm1, 16(%r15,%rax)
	movdqu	%xmm0, (%r15,%rax)
	movq	%r12, 64(%r15,%rax)
	movb	%cl, 72(%r15,%rax)
	movb	$0, 73(%r15,%rax)
	movl	4960(%rsp), %ecx
	movl	%ecx, 74(%r15,%rax)
	movzwl	4964(%rsp), %ecx
	movw	%cx, 78(%r15,%rax)
	incq	%r14
	movq	%r14, 1128(%rsp)
	addq	$64, %r13
	addq	$-64, %rdx
	decq	%rbx
	movq	%rdx, %r12
	movq	80(%rsp), %rax
	je	361b
375:
	leaq	(%rax,%r13), %rsi
	addq	$-64, %rsi
	cmpq	$64, %r12
	movl	$64, %edx
	cmovbq	%r12, %rdx
	pxor	%xmm0, %xmm0
	movdqa	%xmm0, 5008(%rsp)
	movdqa	%xmm0, 4992(%rsp)
	movdqa	%xmm0, 4976(%rsp)
	movdqa	%xmm0, 4960(%rsp)
	leaq	4960(%rsp), %rdi
	vj_c_call	memcpy
	cmpq	$1, %rbx
	sete	%cl
	movq	%r12, %rdx
	movq	%r13, %r12
	cmoveq	24(%rsp), %r12
	movaps	4960(%rsp), %xmm0
	movaps	4976(%rsp), %xmm1
	movaps	4992(%rsp), %xmm2
	movaps	5008(%rsp), %xmm3
	movaps	%xmm0, 13152(%rsp)
	movaps	%xmm1, 13168(%rsp)
	movaps	%xmm2, 13184(%rsp)
	movaps	%xmm3, 13200(%rsp)
	movw	$0, 4964(%rsp)
	movl	$0, 4960(%rsp)
	cmpq	%r14, 1136(%rsp)
	jne	374b
	movb	%cl, 48(%rsp)
	movq	%rdx, 112(%rsp)
	leaq	1120(%rsp), %rdi
	callq	std_alloc..vec..Vec..grow_amortized..6c60784b9e596c8b_1_x86
	testb	%al, %al
	je	540f
	movq	1120(%rsp), %r15
	movq	1128(%rsp), %r14
	movq	112(%rsp), %rdx
	movzbl	48(%rsp), %ecx
	jmp	374b
376:
	cmpq	$128, %rbx
	movl	$128, %edx
	cmovbq	%rbx, %rdx
	pxor	%xmm0, %xmm0
	movdqa	%xmm0, 5072(%rsp)
	movdqa	%xmm0, 5056(%rsp)
	movdqa	%xmm0, 5040(%rsp)
	movdqa	%xmm0, 5024(%rsp)
	movdqa	%xmm0, 5008(%rsp)
	movdqa	%xmm0, 4992(%rsp)
	movdqa	%xmm0, 4976(%rsp)
	movdqa	%xmm0, 4960(%rsp)
	leaq	4960(%rsp), %rdi
	movq	24(%rsp), %rsi
377:
	vj_c_call	memcpy
	movq	112(%rsp), %rcx
	cmpq	$129, %rcx
	movl	$128, %eax
	cmovbq	%rcx, %rax
	movaps	5072(%rsp), %xmm0
	movaps	%xmm0, 13264(%rsp)
	movaps	5056(%rsp), %xmm0
	movaps	%xmm0, 13248(%rsp)
	movaps	5040(%rsp), %xmm1
	movaps	%xmm1, 13232(%rsp)
	movdqa	5024(%rsp), %xmm2
	movdqa	%xmm2, 13216(%rsp)
	movaps	4960(%rsp), %xmm3
	movaps	4976(%rsp), %xmm4
	movdqa	4992(%rsp), %xmm5
	movdqa	5008(%rsp), %xmm6
	movdqa	%xmm6, 13200(%rsp)
	movdqa	%xmm5, 13184(%rsp)
	movaps	%xmm4, 13168(%rsp)
	movaps	%xmm3, 13152(%rsp)
	movups	%xmm0, 96(%r15)
	movups	%xmm1, 80(%r15)
	movdqu	%xmm2, 64(%r15)
	movdqu	%xmm6, 48(%r15)
	movdqu	%xmm5, 32(%r15)
	movups	%xmm4, 16(%r15)
	movups	%xmm3, (%r15)
	movdqa	13264(%rsp), %xmm0
	movdqu	%xmm0, 112(%r15)
	movq	%rax, 128(%r15)
	setb	136(%r15)
	movl	$0, 137(%r15)
	movl	$0, 140(%r15)
	movq	$1, 2776(%rsp)
	cmpq	$0, 128(%rsp)
	je	394f
	testb	$1, 48(%rsp)
	je	391f
	movl	$1, %r12d
	movl	$256, %r14d
	movq	24(%rsp), %rax
	movq	128(%rsp), %r13
	jmp	379f
378:
	leaq	(%r12,%r12,8), %rax
	shlq	$4, %rax
	movdqa	13152(%rsp), %xmm0
	movaps	13168(%rsp), %xmm1
	movdqa	13184(%rsp), %xmm2
	movaps	13200(%rsp), %xmm3
	movaps	13216(%rsp), %xmm4
	movdqa	13232(%rsp), %xmm5
	movdqa	13248(%rsp), %xmm6
	movdqa	13264(%rsp), %xmm7
	movdqu	%xmm7, 112(%r15,%rax)
	movdqu	%xmm6, 96(%r15,%rax)
	movdqu	%xmm5, 80(%r15,%rax)
	movups	%xmm4, 64(%r15,%rax)
	movups	%xmm3, 48(%r15,%rax)
	movdqu	%xmm2, 32(%r15,%rax)
	movups	%xmm1, 16(%r15,%rax)
	movdqu	%xmm0, (%r15,%rax)
	movq	%rdx, 128(%r15,%rax)
	movb	%cl, 136(%r15,%rax)
	movb	$0, 137(%r15,%rax)
	movl	4960(%rsp), %ecx
	movl	%ecx, 138(%r15,%rax)
	movzwl	4964(%rsp), %ecx
	movw	%cx, 142(%r15,%rax)
	incq	%r12
	movq	%r12, 2776(%rsp)
	subq	$-128, %r14
	addq	$-128, %rbx
	decq	%r13
	movq	24(%rsp), %rax
	je	394f
379:
	leaq	(%rax,%r14), %rsi
	addq	$-256, %rsi
	cmpq	$128, %rbx
	movl	$128, %edx
	cmovbq	%rbx, %rdx
	pxor	%xmm0, %xmm0
	movdqa	%xmm0, 5072(%rsp)
	movdqa	%xmm0, 5056(%rsp)
	movdqa	%xmm0, 5040(%rsp)
	movdqa	%xmm0, 5024(%rsp)
	movdqa	%xmm0, 5008(%rsp)
	movdqa	%xmm0, 4992(%rsp)
	movdqa	%xmm0, 4976(%rsp)
	movdqa	%xmm0, 4960(%rsp)
	leaq	4960(%rsp), %rdi
	vj_c_call	memcpy
	cmpq	$1, %r13
	sete	%cl
	movq	%r14, %rdx
	cmoveq	112(%rsp), %rdx
	movaps	4960(%rsp), %xmm0
	movaps	4976(%rsp), %xmm1
	movdqa	4992(%rsp), %xmm2
	movaps	5008(%rsp), %xmm3
	movaps	%xmm0, 13152(%rsp)
	movaps	%xmm1, 13168(%rsp)
	movdqa	%xmm2, 13184(%rsp)
	movaps	%xmm3, 13200(%rsp)
	movaps	5024(%rsp), %xmm0
	movaps	%xmm0, 13216(%rsp)
	movaps	5040(%rsp), %xmm0
	movaps	%xmm0, 13232(%rsp)
	movaps	5056(%rsp), %xmm0
	movaps	%xmm0, 13248(%rsp)
	movdqa	5072(%rsp), %xmm0
	movdqa	%xmm0, 13264(%rsp)
	movw	$0, 4964(%rsp)
	movl	$0, 4960(%rsp)
	cmpq	%r12, 2784(%rsp)
	jne	378b
	movq	%rdx, 48(%rsp)
	movb	%cl, 128(%rsp)
	leaq	2768(%rsp), %rdi
	callq	std_alloc..vec..Vec..grow_amortized..ccf18ec6ff387d97_1_x86
	testb	%al, %al
	je	543f
	movq	2768(%rsp), %r15
	movq	2776(%rsp), %r12
	movzbl	128(%rsp), %ecx
	movq	48(%rsp), %rdx
	jmp	378b
380:
	movq	%rbx, 80(%rsp)
	cmpq	$0, 1008(%rsp)
	sete	48(%rsp)
381:
	movq	1792(%rsp), %rax
	movq	%rax, 112(%rsp)
	movq	1800(%rsp), %r14
	movq	1808(%rsp), %rax
	movq	%rax, 32(%rsp)
	testq	%r14, %r14
	je	385f
	leaq	4968(%rsp), %r15
	leaq	5112(%rsp), %rbx
	movq	112(%rsp), %rax
	leaq	16(%rax), %r13
	jmp	384f
382:
	pxor	%xmm0, %xmm0
	movdqu	%xmm0, 160(%r15)
	movdqu	%xmm0, 144(%r15)
	movdqu	%xmm0, 128(%r15)
	movdqu	%xmm0, 112(%r15)
	movdqu	%xmm0, 96(%r15)
	movdqu	%xmm0, 80(%r15)
	movdqu	%xmm0, 64(%r15)
	movdqu	%xmm0, 48(%r15)
	movdqu	%xmm0, 32(%r15)
	movdqu	%xmm0, 16(%r15)
	movdqu	%xmm0, (%r15)
	leaq	5048(%rsp), %rdi
	callq	blake2_digest..wiping..settle..64_1_x86
	movq	%rbx, %rdi
	callq	blake2_digest..wiping..settle..32_1_x86
383:
	addq	$360, %r13
	decq	%r14
	je	385f
384:
	cmpb	$0, -16(%r13)
	je	383b
	movzbl	-8(%r13), %r12d
	movq	%r12, 4960(%rsp)
	movl	$344, %edx
	movq	%r15, %rdi
	movq	%r13, %rsi
	vj_c_call	memcpy
	testq	%r12, %r12
	jne	382b
	movl	$344, %edx
	movq	%r15, %rdi
	xorl	%esi, %esi
	vj_c_call	memset
	leaq	5120(%rsp), %rdi
	callq	blake2_digest..wiping..settle..128_1_x86
	leaq	5248(%rsp), %rdi
	callq	blake2_digest..wiping..settle..64_1_x86
	jmp	383b
385:
	cmpq	$0, 32(%rsp)
	je	386f
	movq	112(%rsp), %rdi
	vj_call	rattle_dealloc
386:
	leaq	4272(%rsp), %rdi
	movq	104(%rsp), %rsi
	movq	80(%rsp), %rdx
	movq	160(%rsp), %rcx
	movq	8(%rsp), %r8
	callq	b2_commands..script..print_lines..c1844c1740294036_1_x86
	movzbl	4272(%rsp), %ebx
	movzbl	4280(%rsp), %r13d
	movq	4288(%rsp), %r12
	cmpb	$0, 48(%rsp)
	jne	387f
	movq	104(%rsp), %rdi
	vj_call	rattle_dealloc
387:
	cmpb	$0, 96(%rsp)
	jne	388f
	movq	256(%rsp), %rdi
	vj_call	rattle_dealloc
388:
	movq	72(%rsp), %rax
	movq	%rax, 4400(%rsp)
	movq	144(%rsp), %rax
	movq	%rax, 4408(%rsp)
	movq	176(%rsp), %rax
	movq	%rax, 4416(%rsp)
	leaq	4400(%rsp), %rdi
	callq	std_alloc..vec..Vec..drop..3aab827fbd83c4c4_1_x86
	cmpq	$0, 24(%rsp)
	je	416f
	movq	128(%rsp), %rdi
	vj_call	rattle_dealloc
	jmp	416f
389:
	cmpq	$0, 640(%rsp)
	je	390f
	movq	624(%rsp), %rdi
	vj_call	rattle_dealloc
390:
	movb	$8, %r11b
	jmp	34b
391:
	addq	$-128, %rbx
	movl	$1, %r12d
	movl	$256, %r14d
	movq	24(%rsp), %rax
	movq	128(%rsp), %r13
	jmp	393f
392:
	leaq	(%r12,%r12,8), %rax
	shlq	$4, %rax
	movdqa	13152(%rsp), %xmm0
	movaps	13168(%rsp), %xmm1
	movdqa	13184(%rsp), %xmm2
	movaps	13200(%rsp), %xmm3
	movaps	13216(%rsp), %xmm4
	movdqa	13232(%rsp), %xmm5
	movdqa	13248(%rsp), %xmm6
	movdqa	13264(%rsp), %xmm7
	movdqu	%xmm7, 112(%r15,%rax)
	movdqu	%xmm6, 96(%r15,%rax)
	movdqu	%xmm5, 80(%r15,%rax)
	movups	%xmm4, 64(%r15,%rax)
	movups	%xmm3, 48(%r15,%rax)
	movdqu	%xmm2, 32(%r15,%rax)
	movups	%xmm1, 16(%r15,%rax)
	movdqu	%xmm0, (%r15,%rax)
	movq	%rdx, 128(%r15,%rax)
	movb	%cl, 136(%r15,%rax)
	movb	$0, 137(%r15,%rax)
	movl	4960(%rsp), %ecx
	movl	%ecx, 138(%r15,%rax)
	movzwl	4964(%rsp), %ecx
	movw	%cx, 142(%r15,%rax)
	incq	%r12
	movq	%r12, 2776(%rsp)
	subq	$-128, %r14
	addq	$-128, %rbx
	decq	%r13
	movq	24(%rsp), %rax
	je	394f
393:
	leaq	(%rax,%r14), %rsi
	addq	$-128, %rsi
	cmpq	$128, %rbx
	movl	$128, %edx
	cmovbq	%rbx, %rdx
	pxor	%xmm0, %xmm0
	movdqa	%xmm0, 5072(%rsp)
	movdqa	%xmm0, 5056(%rsp)
	movdqa	%xmm0, 5040(%rsp)
	movdqa	%xmm0, 5024(%rsp)
	movdqa	%xmm0, 5008(%rsp)
	movdqa	%xmm0, 4992(%rsp)
	movdqa	%xmm0, 4976(%rsp)
	movdqa	%xmm0, 4960(%rsp)
	leaq	4960(%rsp), %rdi
	vj_c_call	memcpy
	cmpq	$1, %r13
	sete	%cl
	movq	%r14, %rdx
	cmoveq	112(%rsp), %rdx
	movaps	4960(%rsp), %xmm0
	movaps	4976(%rsp), %xmm1
	movaps	4992(%rsp), %xmm2
	movaps	5008(%rsp), %xmm3
	movaps	%xmm0, 13152(%rsp)
	movaps	%xmm1, 13168(%rsp)
	movaps	%xmm2, 13184(%rsp)
	movaps	%xmm3, 13200(%rsp)
	movaps	5024(%rsp), %xmm0
	movaps	%xmm0, 13216(%rsp)
	movaps	5040(%rsp), %xmm0
	movaps	%xmm0, 13232(%rsp)
	movaps	5056(%rsp), %xmm0
	movaps	%xmm0, 13248(%rsp)
	movaps	5072(%rsp), %xmm0
	movaps	%xmm0, 13264(%rsp)
	movw	$0, 4964(%rsp)
	movl	$0, 4960(%rsp)
	cmpq	%r12, 2784(%rsp)
	jne	392b
	movq	%rdx, 48(%rsp)
	movb	%cl, 128(%rsp)
	leaq	2768(%rsp), %rdi
	callq	std_alloc..vec..Vec..grow_amortized..ccf18ec6ff387d97_1_x86
	testb	%al, %al
	je	543f
	movq	2768(%rsp), %r15
	movq	2776(%rsp), %r12
	movzbl	128(%rsp), %ecx
	movq	48(%rsp), %rdx
	jmp	392b
394:
	movl	96(%rsp), %eax
	orl	72(%rsp), %eax
	movd	%eax, %xmm0
	movq	2784(%rsp), %rax
	movq	2768(%rsp), %rcx
	movq	%rcx, 688(%rsp)
	movq	2776(%rsp), %rcx
	movq	%rcx, 696(%rsp)
	movq	%rax, 704(%rsp)
	xorps	%xmm1, %xmm1
	movdqa	%xmm0, 624(%rsp)
	movaps	%xmm1, 640(%rsp)
	movaps	144(%rsp), %xmm0
	movaps	%xmm0, 656(%rsp)
	movdqa	160(%rsp), %xmm0
	movdqa	%xmm0, 672(%rsp)
	leaq	13153(%rsp), %rdi
	movl	$423, %edx
	xorl	%esi, %esi
	vj_c_call	memset
	movb	$119, 13152(%rsp)
	movq	$1, 13576(%rsp)
	leaq	13152(%rsp), %rdi
	leaq	624(%rsp), %rsi
	callq	b2_commands..print..Line..add_words_of_64_1_x86
	movq	13576(%rsp), %r14
	movb	$10, 13152(%rsp,%r14)
	incq	%r14
	movq	%r14, 13576(%rsp)
	je	396f
	xorl	%r15d, %r15d
395:
	leaq	(%rsp,%r15), %rsi
	addq	$13152, %rsi
	movq	%r14, %rbx
	subq	%r15, %rbx
	movl	$1, %edi
	movq	%rbx, %rdx
	vj_system_call	write, b2_write
	testq	%rax, %rax
	js	410f
	cmpq	%rbx, %rax
	cmovbq	%rax, %rbx
	testq	%rbx, %rbx
	je	412f
	addq	%rbx, %r15
	cmpq	%r14, %r15
	jb	395b
396:
	movq	696(%rsp), %rax
	movq	%rax, 112(%rsp)
	testq	%rax, %rax
	je	407f
	movq	688(%rsp), %r12
	xorl	%r13d, %r13d
	jmp	398f
397:
	incq	%r13
	cmpq	112(%rsp), %r13
	je	407f
398:
	leaq	(,%r13,8), %r14
	addq	%r13, %r14
	shlq	$4, %r14
	movl	$422, %edx
	leaq	4962(%rsp), %rdi
	xorl	%esi, %esi
	vj_c_call	memset
	movb	$101, 4960(%rsp)
	movq	$1, 5384(%rsp)
	movq	128(%r12,%r14), %rcx
	movb	$32, 4961(%rsp)
	pxor	%xmm0, %xmm0
	movdqa	%xmm0, 1120(%rsp)
	movl	$0, 1136(%rsp)
	movl	$19, %ebx
	cmpq	$10, %rcx
	jb	400f
399:
	movabsq	$-3689348814741910323, %rdx
	movq	%rcx, %rax
	mulq	%rdx
	shrq	$3, %rdx
	leal	(%rdx,%rdx), %eax
	leal	(%rax,%rax,4), %eax
	movl	%ecx, %esi
	subl	%eax, %esi
	orb	$48, %sil
	movb	%sil, 1120(%rsp,%rbx)
	decq	%rbx
	cmpq	$99, %rcx
	movq	%rdx, %rcx
	ja	399b
	jmp	401f
400:
	movq	%rcx, %rdx
401:
	addq	%r12, %r14
	orb	$48, %dl
	leaq	(%rsp,%rbx), %rsi
	addq	$1120, %rsi
	movb	%dl, 1120(%rsp,%rbx)
	movl	$20, %edx
	subq	%rbx, %rdx
	leaq	4962(%rsp), %rdi
	vj_c_call	memcpy
	leaq	4960(%rsp), %rax
	subq	%rbx, %rax
	addq	$22, %rax
	cmpb	$1, 136(%r14)
	jne	402f
	leaq	.L1_x86_static.42(%rip), %rcx
	movq	%rax, %rdx
	subq	%rcx, %rdx
	cmpq	$1, %rdx
	movw	$12576, (%rax)
	jmp	403f
402:
	leaq	.L1_x86_static.43(%rip), %rcx
	movq	%rax, %rdx
	subq	%rcx, %rdx
	cmpq	$1, %rdx
	movw	$12320, (%rax)
403:
	movl	$24, %eax
	subq	%rbx, %rax
	movq	%rax, 5384(%rsp)
	leaq	4960(%rsp), %rdi
	movl	$128, %edx
	movq	%r14, %rsi
	callq	b2_commands..print..Line..add_block_1_x86
	movq	5384(%rsp), %rbx
	movb	$10, 4960(%rsp,%rbx)
	incq	%rbx
	movq	%rbx, 5384(%rsp)
	je	397b
	xorl	%r15d, %r15d
404:
	leaq	(%rsp,%r15), %rsi
	addq	$4960, %rsi
	movq	%rbx, %r14
	subq	%r15, %r14
	movl	$1, %edi
	movq	%r14, %rdx
	vj_system_call	write, b2_write
	testq	%rax, %rax
	js	409f
	cmpq	%r14, %rax
	cmovbq	%rax, %r14
	testq	%r14, %r14
	je	412f
	addq	%r14, %r15
	cmpq	%rbx, %r15
	jb	404b
	jmp	397b
405:
	cmpq	$32, %r15
	jae	423f
	xorl	%eax, %eax
	jmp	425f
406:
	cmpq	$32, %rbx
	jae	427f
	xorl	%eax, %eax
	jmp	429f
407:
	xorl	%ebx, %ebx
	xorl	%r13d, %r13d
	jmp	413f
408:
	xorl	%r15d, %r15d
	xorl	%r13d, %r13d
	jmp	420f
409:
	leaq	1120(%rsp), %rdi
	jmp	411f
410:
	leaq	4960(%rsp), %rdi
411:
	callq	std_io..io..error..last_error_1_x86
412:
	movq	8(%rsp), %rax
	movb	$1, (%rax)
	movl	$9, %r13d
	movb	$1, %bl
413:
	cmpq	$0, 704(%rsp)
	je	414f
	movq	688(%rsp), %rdi
	vj_call	rattle_dealloc
414:
	cmpq	$0, 80(%rsp)
	je	415f
	movq	24(%rsp), %rdi
	vj_call	rattle_dealloc
415:
	xorl	%r12d, %r12d
416:
	movq	8(%rsp), %rdx
	movq	%rbx, %rdi
	testb	%dil, %dil
	jne	39b
	jmp	548f
417:
	leaq	1120(%rsp), %rdi
418:
	callq	std_io..io..error..last_error_1_x86
419:
	movq	8(%rsp), %rax
	movb	$1, (%rax)
	movl	$9, %r13d
	movb	$1, %r15b
420:
	cmpq	$0, 112(%rsp)
	je	421f
	movq	24(%rsp), %rdi
	vj_call	rattle_dealloc
421:
	cmpq	$0, 96(%rsp)
	je	422f
	movq	80(%rsp), %rdi
	vj_call	rattle_dealloc
422:
	xorl	%r12d, %r12d
	movq	8(%rsp), %rdx
	movq	%r15, %rdi
	testb	%dil, %dil
	jne	39b
	jmp	548f
423:
	movl	%r15d, %eax
	andl	$224, %eax
	xorl	%ecx, %ecx
	movq	%r14, %rdx
424:
	movups	(%rdx,%rcx), %xmm0
	movups	16(%rdx,%rcx), %xmm1
	movups	%xmm0, 3600(%rsp,%rcx)
	movups	%xmm1, 3616(%rsp,%rcx)
	addq	$32, %rcx
	cmpq	%rcx, %rax
	jne	424b
	cmpq	%rax, %r15
	je	433f
	testb	$28, %r15b
	je	296b
425:
	movq	%rax, %rcx
	movl	%r15d, %eax
	andl	$252, %eax
	movq	%r14, %rsi
426:
	movl	(%rsi,%rcx), %edx
	movl	%edx, 3600(%rsp,%rcx)
	addq	$4, %rcx
	cmpq	%rcx, %rax
	jne	426b
	cmpq	%rax, %r15
	je	433f
	jmp	296b
427:
	movl	%r15d, %ecx
	andl	$31, %ecx
	movq	%rbx, %rax
	subq	%rcx, %rax
	movq	%r15, %rdx
	andq	$-32, %rdx
	subq	%r14, %rdx
	leaq	(%r14,%r13), %rdi
	addq	$16, %rdi
	xorl	%r8d, %r8d
428:
	movups	-16(%rdi,%r8), %xmm0
	movups	(%rdi,%r8), %xmm1
	movups	%xmm0, 3600(%rsp,%r8)
	movups	%xmm1, 3616(%rsp,%r8)
	addq	$32, %r8
	cmpq	%r8, %rdx
	jne	428b
	testq	%rcx, %rcx
	je	432f
	cmpl	$4, %ecx
	jb	431f
429:
	movq	%rax, %rcx
	andl	$3, %r15d
	movq	%rbx, %rax
	subq	%r15, %rax
430:
	movl	(%rsi,%rcx), %edx
	movl	%edx, 3600(%rsp,%rcx)
	addq	$4, %rcx
	cmpq	%rcx, %rax
	jne	430b
	testq	%r15, %r15
	je	432f
431:
	movzbl	(%rsi,%rax), %ecx
	movb	%cl, 3600(%rsp,%rax)
	incq	%rax
	cmpq	%rax, %rbx
	jne	431b
432:
	movq	%rbx, %r15
433:
	movq	%r15, 3728(%rsp)
	leaq	13152(%rsp), %rbx
	leaq	3456(%rsp), %rsi
	movl	$280, %edx
	movq	%rbx, %rdi
	vj_c_call	memcpy
	leaq	13296(%rsp), %rsi
	movq	13424(%rsp), %rdx
	movq	13280(%rsp), %r14
	addq	%rdx, %r14
	movq	%r14, 13280(%rsp)
	xorps	%xmm0, %xmm0
	movaps	%xmm0, 1920(%rsp)
	movaps	%xmm0, 1936(%rsp)
	movaps	%xmm0, 1952(%rsp)
	movaps	%xmm0, 1968(%rsp)
	movaps	%xmm0, 1984(%rsp)
	movaps	%xmm0, 2000(%rsp)
	movaps	%xmm0, 2016(%rsp)
	movaps	%xmm0, 2032(%rsp)
	leaq	1920(%rsp), %rdi
	vj_c_call	memcpy
	xorps	%xmm0, %xmm0
	movups	%xmm0, 13296(%rsp)
	movups	%xmm0, 13312(%rsp)
	movups	%xmm0, 13328(%rsp)
	movups	%xmm0, 13344(%rsp)
	movups	%xmm0, 13360(%rsp)
	movups	%xmm0, 13376(%rsp)
	movups	%xmm0, 13392(%rsp)
	movups	%xmm0, 13408(%rsp)
	movq	$0, 13424(%rsp)
	movaps	1920(%rsp), %xmm0
	movaps	1936(%rsp), %xmm1
	movaps	1952(%rsp), %xmm2
	movaps	1968(%rsp), %xmm3
	movaps	%xmm0, 1120(%rsp)
	movaps	%xmm1, 1136(%rsp)
	movaps	%xmm2, 1152(%rsp)
	movaps	%xmm3, 1168(%rsp)
	movaps	1984(%rsp), %xmm0
	movaps	%xmm0, 1184(%rsp)
	movaps	2000(%rsp), %xmm0
	movaps	%xmm0, 1200(%rsp)
	movaps	2016(%rsp), %xmm0
	movaps	%xmm0, 1216(%rsp)
	movaps	2032(%rsp), %xmm0
	movaps	%xmm0, 1232(%rsp)
	movl	13288(%rsp), %r8d
	leaq	1120(%rsp), %rsi
	movq	%rbx, %rdi
	movq	%r14, %rdx
	movl	$1, %ecx
	vj_call	blake2_compress..compress..blake2b..compress_1_x86
	movdqu	13152(%rsp), %xmm0
	movups	13168(%rsp), %xmm1
	movdqu	13184(%rsp), %xmm2
	movups	13200(%rsp), %xmm3
	movdqa	%xmm0, 624(%rsp)
	movaps	%xmm1, 640(%rsp)
	movdqa	%xmm2, 656(%rsp)
	movaps	%xmm3, 672(%rsp)
	movq	296(%rsp), %r12
	movq	304(%rsp), %rsi
	movq	%rsi, %rax
	subq	%r12, %rax
	cmpq	$63, %rax
	jbe	446f
434:
	movq	288(%rsp), %rdi
	leaq	(%rdi,%r12), %rax
	addq	$64, %r12
	leaq	624(%rsp), %rcx
	movq	%rax, %rdx
	subq	%rcx, %rdx
	cmpq	$63, %rdx
	ja	435f
	movzbl	624(%rsp), %ecx
	movb	%cl, (%rax)
	movzbl	625(%rsp), %ecx
	movb	%cl, 1(%rax)
	movzbl	626(%rsp), %ecx
	movb	%cl, 2(%rax)
	movzbl	627(%rsp), %ecx
	movb	%cl, 3(%rax)
	movzbl	628(%rsp), %ecx
	movb	%cl, 4(%rax)
	movzbl	629(%rsp), %ecx
	movb	%cl, 5(%rax)
	movzbl	630(%rsp), %ecx
	movb	%cl, 6(%rax)
	movzbl	631(%rsp), %ecx
	movb	%cl, 7(%rax)
	movzbl	632(%rsp), %ecx
	movb	%cl, 8(%rax)
	movzbl	633(%rsp), %ecx
	movb	%cl, 9(%rax)
	movzbl	634(%rsp), %ecx
	movb	%cl, 10(%rax)
	movzbl	635(%rsp), %ecx
	movb	%cl, 11(%rax)
	movzbl	636(%rsp), %ecx
	movb	%cl, 12(%rax)
	movzbl	637(%rsp), %ecx
	movb	%cl, 13(%rax)
	movzbl	638(%rsp), %ecx
	movb	%cl, 14(%rax)
	movzbl	639(%rsp), %ecx
	movb	%cl, 15(%rax)
	movzbl	640(%rsp), %ecx
	movb	%cl, 16(%rax)
	movzbl	641(%rsp), %ecx
	movb	%cl, 17(%rax)
	movzbl	642(%rsp), %ecx
	movb	%cl, 18(%rax)
	movzbl	643(%rsp), %ecx
	movb	%cl, 19(%rax)
	movzbl	644(%rsp), %ecx
	movb	%cl, 20(%rax)
	movzbl	645(%rsp), %ecx
	movb	%cl, 21(%rax)
	movzbl	646(%rsp), %ecx
	movb	%cl, 22(%rax)
	movzbl	647(%rsp), %ecx
	movb	%cl, 23(%rax)
	movzbl	648(%rsp), %ecx
	movb	%cl, 24(%rax)
	movzbl	649(%rsp), %ecx
	movb	%cl, 25(%rax)
	movzbl	650(%rsp), %ecx
	movb	%cl, 26(%rax)
	movzbl	651(%rsp), %ecx
	movb	%cl, 27(%rax)
	movzbl	652(%rsp), %ecx
	movb	%cl, 28(%rax)
	movzbl	653(%rsp), %ecx
	movb	%cl, 29(%rax)
	movzbl	654(%rsp), %ecx
	movb	%cl, 30(%rax)
	movzbl	655(%rsp), %ecx
	movb	%cl, 31(%rax)
	movzbl	656(%rsp), %ecx
	movb	%cl, 32(%rax)
	movzbl	657(%rsp), %ecx
	movb	%cl, 33(%rax)
	movzbl	658(%rsp), %ecx
	movb	%cl, 34(%rax)
	movzbl	659(%rsp), %ecx
	movb	%cl, 35(%rax)
	movzbl	660(%rsp), %ecx
	movb	%cl, 36(%rax)
	movzbl	661(%rsp), %ecx
	movb	%cl, 37(%rax)
	movzbl	662(%rsp), %ecx
	movb	%cl, 38(%rax)
	movzbl	663(%rsp), %ecx
	movb	%cl, 39(%rax)
	movzbl	664(%rsp), %ecx
	movb	%cl, 40(%rax)
	movzbl	665(%rsp), %ecx
	movb	%cl, 41(%rax)
	movzbl	666(%rsp), %ecx
	movb	%cl, 42(%rax)
	movzbl	667(%rsp), %ecx
	movb	%cl, 43(%rax)
	movzbl	668(%rsp), %ecx
	movb	%cl, 44(%rax)
	movzbl	669(%rsp), %ecx
	movb	%cl, 45(%rax)
	movzbl	670(%rsp), %ecx
	movb	%cl, 46(%rax)
	movzbl	671(%rsp), %ecx
	movb	%cl, 47(%rax)
	movzbl	672(%rsp), %ecx
	movb	%cl, 48(%rax)
	movzbl	673(%rsp), %ecx
	movb	%cl, 49(%rax)
	movzbl	674(%rsp), %ecx
	movb	%cl, 50(%rax)
	movzbl	675(%rsp), %ecx
	movb	%cl, 51(%rax)
	movzbl	676(%rsp), %ecx
	movb	%cl, 52(%rax)
	movzbl	677(%rsp), %ecx
	movb	%cl, 53(%rax)
	movzbl	678(%rsp), %ecx
	movb	%cl, 54(%rax)
	movzbl	679(%rsp), %ecx
	movb	%cl, 55(%rax)
	movzbl	680(%rsp), %ecx
	movb	%cl, 56(%rax)
	movzbl	681(%rsp), %ecx
	movb	%cl, 57(%rax)
	movzbl	682(%rsp), %ecx
	movb	%cl, 58(%rax)
	movzbl	683(%rsp), %ecx
	movb	%cl, 59(%rax)
	movzbl	684(%rsp), %ecx
	movb	%cl, 60(%rax)
	movzbl	685(%rsp), %ecx
	movb	%cl, 61(%rax)
	movzbl	686(%rsp), %ecx
	movb	%cl, 62(%rax)
	movzbl	687(%rsp), %ecx
	movb	%cl, 63(%rax)
	movq	288(%rsp), %rdi
	jmp	436f
435:
	movdqa	624(%rsp), %xmm0
	movaps	640(%rsp), %xmm1
	movdqa	656(%rsp), %xmm2
	movaps	672(%rsp), %xmm3
	movups	%xmm3, 48(%rax)
	movdqu	%xmm2, 32(%rax)
	movups	%xmm1, 16(%rax)
	movdqu	%xmm0, (%rax)
436:
	shrq	$6, %r12
	je	440f
	movq	%rsi, 112(%rsp)
	xorl	%r15d, %r15d
	movq	%rdi, 48(%rsp)
	movq	%rdi, %rbx
437:
	leaq	4960(%rsp), %rdi
	movl	$424, %edx
	xorl	%esi, %esi
	vj_c_call	memset
	movl	$1, %eax
438:
	movzbl	-1(%rbx,%rax), %ecx
	movl	%ecx, %edx
	shrl	$4, %edx
	leaq	.L1_x86_static.37(%rip), %rsi
	movzbl	(%rdx,%rsi), %edx
	movb	%dl, 4958(%rsp,%rax,2)
	andl	$15, %ecx
	movzbl	(%rcx,%rsi), %ecx
	movb	%cl, 4959(%rsp,%rax,2)
	movzbl	(%rbx,%rax), %ecx
	movl	%ecx, %edx
	shrl	$4, %edx
	movzbl	(%rdx,%rsi), %edx
	movb	%dl, 4960(%rsp,%rax,2)
	andl	$15, %ecx
	movzbl	(%rcx,%rsi), %ecx
	movb	%cl, 4961(%rsp,%rax,2)
	addq	$2, %rax
	cmpq	$65, %rax
	jne	438b
	movb	$10, 5088(%rsp)
	movq	$129, 5384(%rsp)
	xorl	%r13d, %r13d
439:
	leaq	(%rsp,%r13), %rsi
	addq	$4960, %rsi
	movl	$129, %r14d
	subq	%r13, %r14
	movl	$1, %edi
	movq	%r14, %rdx
	vj_system_call	write, b2_write
	testq	%rax, %rax
	js	441f
	cmpq	%r14, %rax
	cmovbq	%rax, %r14
	testq	%r14, %r14
	je	442f
	addq	%r14, %r13
	cmpq	$128, %r13
	jbe	439b
	incq	%r15
	addq	$64, %rbx
	xorl	%r13d, %r13d
	cmpq	%r12, %r15
	jne	437b
	movq	8(%rsp), %rdx
	movq	448(%rsp), %rax
	movq	112(%rsp), %rsi
	movq	48(%rsp), %rdi
	movb	$1, %r12b
	jmp	443f
440:
	xorl	%r13d, %r13d
	movq	8(%rsp), %rdx
	movq	448(%rsp), %rax
	movb	$1, %r12b
	jmp	443f
441:
	leaq	13152(%rsp), %rdi
	callq	std_io..io..error..last_error_1_x86
442:
	movq	8(%rsp), %rdx
	movb	$1, (%rdx)
	movb	$9, %r13b
	xorl	%r12d, %r12d
	movq	448(%rsp), %rax
	movq	112(%rsp), %rsi
	movq	48(%rsp), %rdi
443:
	testq	%rsi, %rsi
	movq	80(%rsp), %rbx
	movq	416(%rsp), %r14
	je	444f
	vj_call	rattle_dealloc
	movq	448(%rsp), %rax
	movq	8(%rsp), %rdx
444:
	testq	%rax, %rax
	movq	264(%rsp), %rdi
	je	445f
	vj_call	rattle_dealloc
	movq	8(%rsp), %rdx
445:
	xorl	%r15d, %r15d
	testb	%r12b, %r12b
	je	262b
	jmp	263b
446:
	leaq	288(%rsp), %rdi
	movl	$64, %esi
	callq	std_alloc..vec..Vec..grow_amortized..3378b08034dc46b4_1_x86
	testb	%al, %al
	je	447f
	movq	296(%rsp), %r12
	movq	304(%rsp), %rsi
	jmp	434b
447:
	cmpq	$0, 304(%rsp)
	movq	416(%rsp), %r14
	movq	264(%rsp), %rdi
	je	448f
	movq	288(%rsp), %rdi
	vj_call	rattle_dealloc
	movq	264(%rsp), %rdi
448:
	movb	$8, %r13b
	movq	448(%rsp), %r11
449:
	testq	%r11, %r11
	je	260b
	vj_call	rattle_dealloc
	jmp	260b
450:
	xorl	%ebx, %ebx
451:
	leaq	96(%r14), %rdx
	addq	$-4, %r11
	leaq	624(%rsp), %rdi
	xorl	%esi, %esi
	movq	%r11, %rcx
	callq	b2_commands..arguments..Options..from_words_1_x86
	movq	632(%rsp), %r11
	movq	640(%rsp), %rax
	movq	%rax, 128(%rsp)
	cmpb	$0, 624(%rsp)
	je	452f
	pxor	%xmm0, %xmm0
	movdqa	%xmm0, 2832(%rsp)
	movdqa	%xmm0, 2816(%rsp)
	movdqa	%xmm0, 2800(%rsp)
	movdqa	%xmm0, 2784(%rsp)
	movdqa	%xmm0, 2768(%rsp)
	movq	128(%rsp), %r9
	jmp	200b
452:
	movups	712(%rsp), %xmm0
	movaps	%xmm0, 2832(%rsp)
	movups	648(%rsp), %xmm0
	movups	664(%rsp), %xmm1
	movups	680(%rsp), %xmm2
	movups	696(%rsp), %xmm3
	movaps	%xmm3, 2816(%rsp)
	movaps	%xmm2, 2800(%rsp)
	movaps	%xmm1, 2784(%rsp)
	movaps	%xmm0, 2768(%rsp)
	movq	48(%rsp), %rax
	movq	%rax, 4976(%rsp)
	movq	%r13, %r9
	movq	%r13, 4984(%rsp)
	movb	%bl, 4992(%rsp)
	movl	$0, 4993(%rsp)
	movl	$0, 4996(%rsp)
	movq	%r11, 5000(%rsp)
	movq	128(%rsp), %rax
	movq	%rax, 5008(%rsp)
	movaps	2832(%rsp), %xmm0
	movups	%xmm0, 5080(%rsp)
	movdqa	2768(%rsp), %xmm0
	movaps	2784(%rsp), %xmm1
	movdqa	2800(%rsp), %xmm2
	movaps	2816(%rsp), %xmm3
	movups	%xmm3, 5064(%rsp)
	movdqu	%xmm2, 5048(%rsp)
	movups	%xmm1, 5032(%rsp)
	movdqu	%xmm0, 5016(%rsp)
	movq	4992(%rsp), %r10
	shrq	$8, %rax
	movq	%rax, 96(%rsp)
	movdqu	5016(%rsp), %xmm5
	movzbl	5032(%rsp), %eax
	movq	%rax, 80(%rsp)
	movzbl	5039(%rsp), %eax
	shll	$16, %eax
	movzwl	5037(%rsp), %ecx
	orl	%eax, %ecx
	shlq	$32, %rcx
	movl	5033(%rsp), %eax
	orq	%rcx, %rax
	movq	%rax, 144(%rsp)
	movq	5040(%rsp), %r15
	movdqu	5048(%rsp), %xmm6
	movzbl	5064(%rsp), %r14d
	movl	2817(%rsp), %eax
	movl	2820(%rsp), %ecx
	movl	%ecx, 43(%rsp)
	movl	%eax, 40(%rsp)
	movq	5072(%rsp), %rdx
	movb	$3, %al
	xorl	%ebx, %ebx
	movdqu	5080(%rsp), %xmm7
	movzbl	%al, %eax
	leaq	.L1_x86_JTI4_2(%rip), %rcx
	movslq	(%rcx,%rax,4), %rax
	addq	%rcx, %rax
	xorl	%r13d, %r13d
	xorl	%r12d, %r12d
	notrack	jmpq	*%rax
453:
	movzbl	128(%rsp), %eax
	movq	96(%rsp), %rcx
	shlq	$8, %rcx
	orq	%rax, %rcx
	cmpb	$0, 48(%rsp)
	movq	%r11, 24(%rsp)
	movdqa	%xmm6, 160(%rsp)
	movq	%rdx, 256(%rsp)
	movdqa	%xmm7, 144(%rsp)
	movq	%rcx, 96(%rsp)
	movq	%r15, 104(%rsp)
	je	463f
	xorps	%xmm4, %xmm4
	movaps	%xmm4, 3456(%rsp)
	movaps	%xmm4, 3472(%rsp)
	movaps	%xmm4, 3488(%rsp)
	movaps	%xmm4, 3504(%rsp)
	movaps	%xmm4, 3520(%rsp)
	movaps	%xmm4, 3536(%rsp)
	movaps	%xmm4, 3552(%rsp)
	movaps	%xmm4, 3568(%rsp)
	movaps	%xmm4, 3584(%rsp)
	movaps	%xmm4, 3600(%rsp)
	movaps	%xmm4, 3616(%rsp)
	movaps	%xmm4, 3632(%rsp)
	movaps	%xmm4, 3648(%rsp)
	movaps	%xmm4, 3664(%rsp)
	movaps	%xmm4, 3680(%rsp)
	movq	$0, 3696(%rsp)
	movaps	%xmm4, 672(%rsp)
	movaps	%xmm4, 656(%rsp)
	movaps	%xmm4, 640(%rsp)
	movaps	%xmm4, 624(%rsp)
	movaps	%xmm4, 1472(%rsp)
	movaps	%xmm4, 1488(%rsp)
	movaps	%xmm4, 464(%rsp)
	movaps	%xmm4, 480(%rsp)
	movaps	%xmm4, 992(%rsp)
	movaps	%xmm4, 1920(%rsp)
	movaps	%xmm4, 1936(%rsp)
	movaps	%xmm4, 1952(%rsp)
	movaps	%xmm4, 1968(%rsp)
	movaps	%xmm4, 1984(%rsp)
	movaps	%xmm4, 2000(%rsp)
	movaps	%xmm4, 2016(%rsp)
	movaps	%xmm4, 2032(%rsp)
	movaps	%xmm4, 2048(%rsp)
	movaps	%xmm4, 2064(%rsp)
	movaps	%xmm4, 2080(%rsp)
	movaps	%xmm4, 2096(%rsp)
	movaps	%xmm4, 2112(%rsp)
	movaps	%xmm4, 2128(%rsp)
	movaps	%xmm4, 2144(%rsp)
	movq	$0, 2160(%rsp)
	movaps	%xmm4, 13152(%rsp)
	movaps	%xmm4, 13168(%rsp)
	movaps	%xmm4, 13184(%rsp)
	movaps	%xmm4, 13200(%rsp)
	movaps	%xmm4, 2768(%rsp)
	movaps	%xmm4, 2784(%rsp)
	movaps	%xmm4, 288(%rsp)
	movaps	%xmm4, 304(%rsp)
	movaps	%xmm4, 1792(%rsp)
	leaq	.L1_x86_static.0(%rip), %rbx
	cmpb	$1, %r11b
	movq	%r14, %r12
	jne	466f
	movq	%xmm5, %r15
	movq	96(%rsp), %rdi
	testq	%r15, %r15
	jne	467f
	movaps	%xmm4, 3152(%rsp)
	movaps	%xmm4, 3136(%rsp)
	movaps	%xmm4, 3120(%rsp)
	movaps	%xmm4, 3104(%rsp)
	movaps	%xmm4, 2352(%rsp)
	movaps	%xmm4, 2368(%rsp)
	movaps	%xmm4, 2480(%rsp)
	movaps	%xmm4, 2496(%rsp)
	movaps	%xmm4, 1664(%rsp)
	movl	$2, %eax
	xorl	%r13d, %r13d
	xorl	%esi, %esi
	xorl	%r15d, %r15d
	xorl	%edi, %edi
	xorl	%r8d, %r8d
	xorl	%ecx, %ecx
	xorl	%edx, %edx
	pxor	%xmm8, %xmm8
	jmp	479f
454:
	xorl	%r14d, %r14d
455:
	leaq	.L1_x86_static.2(%rip), %rsi
	addq	%r14, %rsi
	movl	$20, %ebx
	subq	%r14, %rbx
	movl	$1, %edi
	movq	%rbx, %rdx
	vj_system_call	write, b2_write
	testq	%rax, %rax
	js	461f
	cmpq	%rbx, %rax
	cmovbq	%rax, %rbx
	testq	%rbx, %rbx
	je	462f
	addq	%rbx, %r14
	xorl	%r15d, %r15d
	cmpq	$19, %r14
	jbe	455b
	jmp	221b
456:
	movq	%r11, 24(%rsp)
	movq	%r9, %r13
	movq	%r10, %r15
	pxor	%xmm0, %xmm0
	movdqa	%xmm0, 3504(%rsp)
	movdqa	%xmm0, 3488(%rsp)
	movdqa	%xmm0, 3472(%rsp)
	movdqa	%xmm0, 3456(%rsp)
	movb	$0, 3520(%rsp)
	xorl	%ebx, %ebx
457:
	leaq	(%rsp,%rbx), %rsi
	addq	$3456, %rsi
	movl	$65, %r14d
	subq	%rbx, %r14
	xorl	%edi, %edi
	movq	%r14, %rdx
	vj_system_call	read, b2_read
	testq	%rax, %rax
	js	464f
	cmpq	%r14, %rax
	cmovbq	%rax, %r14
	testq	%r14, %r14
	je	458f
	addq	%r14, %rbx
	cmpq	$64, %rbx
	jbe	457b
458:
	leaq	-65(%rbx), %rcx
	movb	$2, %al
	cmpq	$-64, %rcx
	jb	465f
	pxor	%xmm0, %xmm0
	movdqa	%xmm0, 1120(%rsp)
	movq	$0, 1136(%rsp)
	movq	48(%rsp), %r14
	leaq	-1(%r14), %rax
	movl	$4294967295, %ecx
	cmpq	%rcx, %rax
	jae	575f
	movl	%ebx, %eax
	shll	$8, %eax
	orl	$16842816, %eax
	movd	%eax, %xmm0
	pmovzxdq	%xmm0, %xmm1
	movq	%r14, %xmm0
	psllq	$32, %xmm0
	punpcklqdq	%xmm0, %xmm1
	pxor	.L1_x86_CPI4_8(%rip), %xmm1
	movdqa	%xmm1, 112(%rsp)
	movl	$64, %eax
	subq	%rbx, %rax
	xorl	%edx, %edx
	cmpq	$64, %rbx
	cmovbq	%rax, %rdx
	leaq	(%rsp,%rbx), %rdi
	addq	$1920, %rdi
	xorl	%esi, %esi
	vj_c_call	memset
	leaq	1920(%rsp), %rdi
	leaq	3456(%rsp), %rsi
	movq	%rbx, %rdx
	vj_c_call	memcpy
	xorps	%xmm4, %xmm4
	movaps	%xmm4, 13216(%rsp)
	movaps	%xmm4, 13232(%rsp)
	movaps	%xmm4, 13248(%rsp)
	movaps	%xmm4, 13264(%rsp)
	movups	1920(%rsp), %xmm0
	movups	1936(%rsp), %xmm1
	movups	1952(%rsp), %xmm2
	movups	1968(%rsp), %xmm3
	movaps	%xmm0, 13152(%rsp)
	movaps	%xmm1, 13168(%rsp)
	movaps	%xmm2, 13184(%rsp)
	movaps	%xmm3, 13200(%rsp)
	movaps	112(%rsp), %xmm1
	movaps	%xmm1, 4960(%rsp)
	movaps	.L1_x86_CPI4_9(%rip), %xmm0
	movaps	%xmm0, 4976(%rsp)
	movabsq	$5840696475078001361, %rax
	movq	%rax, 4992(%rsp)
	movabsq	$-7276294671716946913, %rcx
	movq	%rcx, 5000(%rsp)
	movabsq	$2270897969802886507, %rdx
	movq	%rdx, 5008(%rsp)
	movabsq	$6620516959819538809, %rsi
	movq	%rsi, 5016(%rsp)
	movaps	%xmm1, 5024(%rsp)
	movaps	%xmm0, 5040(%rsp)
	movq	%rax, 5056(%rsp)
	movq	%rcx, 5064(%rsp)
	movq	%rdx, 5072(%rsp)
	movq	%rsi, 5080(%rsp)
	movq	$0, 5088(%rsp)
	movaps	.L1_x86_CPI4_10(%rip), %xmm0
	movups	%xmm0, 5096(%rsp)
	movaps	13264(%rsp), %xmm0
	movups	%xmm0, 5224(%rsp)
	movaps	13248(%rsp), %xmm0
	movups	%xmm0, 5208(%rsp)
	movaps	13232(%rsp), %xmm0
	movups	%xmm0, 5192(%rsp)
	movaps	13216(%rsp), %xmm0
	movups	%xmm0, 5176(%rsp)
	movaps	13152(%rsp), %xmm0
	movaps	13168(%rsp), %xmm1
	movaps	13184(%rsp), %xmm2
	movaps	13200(%rsp), %xmm3
	movups	%xmm3, 5160(%rsp)
	movups	%xmm2, 5144(%rsp)
	movups	%xmm1, 5128(%rsp)
	movups	%xmm0, 5112(%rsp)
	movdqu	1920(%rsp), %xmm0
	movups	1936(%rsp), %xmm1
	movdqu	1952(%rsp), %xmm2
	movups	1968(%rsp), %xmm3
	movdqu	%xmm0, 5240(%rsp)
	movups	%xmm1, 5256(%rsp)
	movdqu	%xmm2, 5272(%rsp)
	movups	%xmm3, 5288(%rsp)
	movups	%xmm4, 5384(%rsp)
	movups	%xmm4, 5368(%rsp)
	movups	%xmm4, 5352(%rsp)
	movups	%xmm4, 5336(%rsp)
	movups	%xmm4, 5320(%rsp)
	movups	%xmm4, 5304(%rsp)
	movq	%r14, 5400(%rsp)
	movaps	%xmm4, 5408(%rsp)
	cmpq	$1, %r15
	jne	471f
	leaq	4960(%rsp), %rdi
	movl	$1, %edx
	jmp	472f
459:
	xorl	%r14d, %r14d
460:
	leaq	.L1_x86_static.1(%rip), %rsi
	addq	%r14, %rsi
	movl	$1630, %ebx
	subq	%r14, %rbx
	movl	$1, %edi
	movq	%rbx, %rdx
	vj_system_call	write, b2_write
	testq	%rax, %rax
	js	461f
	cmpq	%rbx, %rax
	cmovbq	%rax, %rbx
	testq	%rbx, %rbx
	je	462f
	addq	%rbx, %r14
	xorl	%r15d, %r15d
	cmpq	$1629, %r14
	jbe	460b
	jmp	221b
461:
	leaq	4960(%rsp), %rdi
	callq	std_io..io..error..last_error_1_x86
462:
	movq	8(%rsp), %rdx
	movb	$1, (%rdx)
	movl	$9, %edi
	xorl	%esi, %esi
	callq	b2_commands..fault..Fault..report..c1844c1740294036_1_x86
	movl	%eax, %r15d
	jmp	221b
463:
	movdqa	%xmm5, 176(%rsp)
	movq	%r9, 32(%rsp)
	movq	%r10, 72(%rsp)
	pxor	%xmm0, %xmm0
	movdqa	%xmm0, 1664(%rsp)
	movq	$0, 1680(%rsp)
	leaq	13152(%rsp), %rdi
	xorl	%r13d, %r13d
	movl	$464, %edx
	xorl	%esi, %esi
	vj_c_call	memset
	pxor	%xmm0, %xmm0
	movdqa	%xmm0, 1120(%rsp)
	movdqa	%xmm0, 1136(%rsp)
	movdqa	%xmm0, 1152(%rsp)
	movdqa	%xmm0, 1168(%rsp)
	movdqa	%xmm0, 1184(%rsp)
	movdqa	%xmm0, 1200(%rsp)
	movdqa	%xmm0, 1216(%rsp)
	movdqa	%xmm0, 1232(%rsp)
	movdqa	%xmm0, 2480(%rsp)
	movdqa	%xmm0, 2496(%rsp)
	movdqa	%xmm0, 2512(%rsp)
	movdqa	%xmm0, 2528(%rsp)
	movdqa	%xmm0, 288(%rsp)
	movdqa	%xmm0, 304(%rsp)
	movdqa	%xmm0, 320(%rsp)
	movdqa	%xmm0, 336(%rsp)
	movdqa	%xmm0, 352(%rsp)
	movdqa	%xmm0, 368(%rsp)
	movdqa	%xmm0, 4032(%rsp)
	leaq	3456(%rsp), %rdi
	movl	$464, %edx
	xorl	%esi, %esi
	vj_c_call	memset
	pxor	%xmm8, %xmm8
	movq	24(%rsp), %r11
	movdqa	%xmm8, 1920(%rsp)
	movdqa	%xmm8, 1936(%rsp)
	movdqa	%xmm8, 1952(%rsp)
	movdqa	%xmm8, 1968(%rsp)
	movdqa	%xmm8, 1984(%rsp)
	movdqa	%xmm8, 2000(%rsp)
	movdqa	%xmm8, 2016(%rsp)
	movdqa	%xmm8, 2032(%rsp)
	movdqa	%xmm8, 2352(%rsp)
	movdqa	%xmm8, 2368(%rsp)
	movdqa	%xmm8, 2384(%rsp)
	movdqa	%xmm8, 2400(%rsp)
	movdqa	%xmm8, 2768(%rsp)
	movdqa	%xmm8, 2784(%rsp)
	movdqa	%xmm8, 2800(%rsp)
	movdqa	%xmm8, 2816(%rsp)
	movdqa	%xmm8, 2832(%rsp)
	movdqa	%xmm8, 2848(%rsp)
	movdqa	%xmm8, 4400(%rsp)
	leaq	.L1_x86_static.0(%rip), %rbx
	cmpb	$1, %r11b
	movq	%r14, %r12
	jne	469f
	movdqa	176(%rsp), %xmm5
	movq	%xmm5, %r15
	movq	96(%rsp), %r8
	testq	%r15, %r15
	movq	32(%rsp), %rdi
	movdqa	160(%rsp), %xmm6
	movq	256(%rsp), %rcx
	movdqa	144(%rsp), %xmm7
	jne	470f
	movdqa	%xmm8, 736(%rsp)
	movdqa	%xmm8, 720(%rsp)
	movdqa	%xmm8, 704(%rsp)
	movdqa	%xmm8, 688(%rsp)
	movdqa	%xmm8, 672(%rsp)
	movdqa	%xmm8, 656(%rsp)
	movdqa	%xmm8, 640(%rsp)
	movdqa	%xmm8, 624(%rsp)
	movdqa	%xmm8, 1792(%rsp)
	movdqa	%xmm8, 1808(%rsp)
	movdqa	%xmm8, 1824(%rsp)
	movdqa	%xmm8, 1840(%rsp)
	movdqa	%xmm8, 1472(%rsp)
	movdqa	%xmm8, 1488(%rsp)
	movdqa	%xmm8, 1504(%rsp)
	movdqa	%xmm8, 1520(%rsp)
	movdqa	%xmm8, 1536(%rsp)
	movdqa	%xmm8, 1552(%rsp)
	movdqa	%xmm8, 3920(%rsp)
	xorl	%r13d, %r13d
	movl	$2, %eax
	movq	$0, 128(%rsp)
	xorl	%edx, %edx
	xorl	%ecx, %ecx
	xorps	%xmm10, %xmm10
	xorps	%xmm11, %xmm11
	pxor	%xmm9, %xmm9
	jmp	494f
464:
	leaq	4960(%rsp), %rdi
	callq	std_io..io..error..last_error_1_x86
	movq	112(%rsp), %rax
	movb	$1, (%rax)
	movb	$7, %al
465:
	xorl	%esi, %esi
	jmp	473f
466:
	xorl	%r15d, %r15d
	movq	%rbx, %rdi
467:
	xorl	%r8d, %r8d
	cmpb	$1, 80(%rsp)
	movq	%rbx, %rsi
	cmoveq	104(%rsp), %rsi
	movq	%r12, %rax
	movq	%xmm6, %r12
	cmovneq	%r8, %r12
	movq	%rax, 416(%rsp)
	cmpb	$1, %al
	cmoveq	%rdx, %rbx
	movq	%xmm7, %r14
	cmovneq	%r8, %r14
	leaq	-1(%r9), %rax
	cmpq	$65535, %rax
	setb	%al
	cmpq	$33, %r15
	setb	%cl
	andb	%al, %cl
	cmpq	$9, %r12
	setb	%al
	andb	%cl, %al
	cmpq	$9, %r14
	setb	%r13b
	andb	%al, %r13b
	cmpb	$1, %r13b
	jne	468f
	movdqa	%xmm5, 176(%rsp)
	movq	%r10, 72(%rsp)
	movq	%r9, 32(%rsp)
	shlq	$32, %r9
	movq	%r9, %xmm0
	testq	%r15, %r15
	movq	%rsi, 272(%rsp)
	pxor	%xmm2, %xmm2
	je	476f
	movdqa	%xmm2, 4960(%rsp)
	movl	%r15d, %eax
	shll	$8, %eax
	orl	$16842784, %eax
	movd	%eax, %xmm1
	pmovzxdq	%xmm1, %xmm1
	punpcklqdq	%xmm0, %xmm1
	pblendw	$128, %xmm2, %xmm1
	movdqa	%xmm1, 128(%rsp)
	movq	%rdi, 592(%rsp)
	leaq	4960(%rsp), %rdi
	movq	%r12, %rdx
	vj_c_call	memcpy
	leaq	4968(%rsp), %rdi
	movq	%rbx, %rsi
	movq	%r14, %rdx
	vj_c_call	memcpy
	movaps	4960(%rsp), %xmm0
	movaps	%xmm0, 48(%rsp)
	movl	$32, %eax
	subq	%r15, %rax
	xorl	%edx, %edx
	cmpq	$32, %r15
	cmovbq	%rax, %rdx
	leaq	(%rsp,%r15), %rdi
	addq	$1120, %rdi
	xorl	%esi, %esi
	vj_c_call	memset
	leaq	1120(%rsp), %rdi
	movq	592(%rsp), %rsi
	movq	%r15, %rdx
	vj_c_call	memcpy
	movaps	48(%rsp), %xmm2
	xorps	%xmm0, %xmm0
	movaps	%xmm0, 4992(%rsp)
	movaps	%xmm0, 5008(%rsp)
	movdqu	1120(%rsp), %xmm0
	movdqu	1136(%rsp), %xmm1
	movdqa	%xmm0, 4960(%rsp)
	movdqa	%xmm1, 4976(%rsp)
	movw	$64, %r15w
	jmp	477f
468:
	movl	$2, %eax
	xorl	%r15d, %r15d
	xorl	%edi, %edi
	xorl	%ecx, %ecx
	xorl	%edx, %edx
	xorl	%esi, %esi
	pxor	%xmm8, %xmm8
	jmp	478f
469:
	movq	%rbx, %r8
	xorl	%r15d, %r15d
	movq	32(%rsp), %rdi
	movdqa	176(%rsp), %xmm5
	movdqa	160(%rsp), %xmm6
	movq	256(%rsp), %rcx
	movdqa	144(%rsp), %xmm7
470:
	cmpb	$1, 80(%rsp)
	movq	%rbx, %rsi
	cmoveq	104(%rsp), %rsi
	movq	%r12, %rax
	movq	%xmm6, %r12
	cmovneq	%r13, %r12
	movq	%rax, 416(%rsp)
	cmpb	$1, %al
	cmoveq	%rcx, %rbx
	movq	%xmm7, %r14
	movl	$0, %eax
	movq	%rax, 128(%rsp)
	cmovneq	%r13, %r14
	leaq	-1(%rdi), %rax
	movl	$4294967295, %ecx
	cmpq	%rcx, %rax
	setb	%al
	cmpq	$65, %r15
	setb	%cl
	andb	%al, %cl
	cmpq	$17, %r12
	setb	%al
	andb	%cl, %al
	cmpq	$17, %r14
	setb	%r13b
	andb	%al, %r13b
	movl	$2, %eax
	movl	$0, %edx
	movl	$0, %ecx
	xorps	%xmm10, %xmm10
	xorps	%xmm11, %xmm11
	pxor	%xmm9, %xmm9
	cmpb	$1, %r13b
	jne	493f
	movq	%rdi, %xmm0
	psllq	$32, %xmm0
	xorps	%xmm1, %xmm1
	testq	%r15, %r15
	je	491f
	movaps	%xmm1, 4976(%rsp)
	movaps	%xmm1, 4960(%rsp)
	movl	%r15d, %eax
	shll	$8, %eax
	orl	$16842816, %eax
	movd	%eax, %xmm1
	pmovzxdq	%xmm1, %xmm1
	punpcklqdq	%xmm0, %xmm1
	movdqa	%xmm1, 48(%rsp)
	leaq	4960(%rsp), %rdi
	movq	%r12, %rdx
	movq	%rsi, 1648(%rsp)
	movq	%r8, 128(%rsp)
	vj_c_call	memcpy
	leaq	4976(%rsp), %rdi
	movq	%rbx, %rsi
	movq	%r14, %rdx
	vj_c_call	memcpy
	movaps	4960(%rsp), %xmm0
	movaps	4976(%rsp), %xmm1
	movaps	48(%rsp), %xmm2
	xorps	.L1_x86_CPI4_8(%rip), %xmm2
	movaps	%xmm2, 48(%rsp)
	xorps	.L1_x86_CPI4_14(%rip), %xmm0
	movaps	%xmm0, 592(%rsp)
	xorps	.L1_x86_CPI4_15(%rip), %xmm1
	movaps	%xmm1, 976(%rsp)
	movaps	.L1_x86_CPI4_9(%rip), %xmm0
	movaps	%xmm0, 272(%rsp)
	movl	$64, %eax
	subq	%r15, %rax
	xorl	%edx, %edx
	cmpq	$64, %r15
	cmovbq	%rax, %rdx
	leaq	(%rsp,%r15), %rdi
	addq	$464, %rdi
	xorl	%esi, %esi
	vj_c_call	memset
	leaq	464(%rsp), %rdi
	movq	128(%rsp), %rsi
	movq	%r15, %rdx
	movq	1648(%rsp), %r15
	vj_c_call	memcpy
	xorps	%xmm0, %xmm0
	movaps	%xmm0, 5024(%rsp)
	movaps	%xmm0, 5040(%rsp)
	movaps	%xmm0, 5056(%rsp)
	movaps	%xmm0, 5072(%rsp)
	movups	464(%rsp), %xmm0
	movups	480(%rsp), %xmm1
	movups	496(%rsp), %xmm2
	movups	512(%rsp), %xmm3
	movaps	%xmm0, 4960(%rsp)
	movaps	%xmm1, 4976(%rsp)
	movaps	%xmm2, 4992(%rsp)
	movaps	%xmm3, 5008(%rsp)
	movl	$128, %eax
	movq	%rax, 128(%rsp)
	jmp	492f
471:
	movq	%r15, %rdx
	leaq	4960(%rsp), %rdi
472:
	movq	%r13, %rsi
	callq	blake2_state..blake2b..State..absorb_blocks_1_x86
	movq	128(%rsp), %rax
	movzbl	%al, %ecx
	leaq	1120(%rsp), %rdi
	leaq	4960(%rsp), %rsi
	movq	48(%rsp), %rdx
	movq	8(%rsp), %r8
	callq	b2_commands..outputs..blake2xb..print_next..c1844c1740294036_1_x86
	cmpb	$0, 1120(%rsp)
	je	475f
	movzbl	1128(%rsp), %eax
	movq	1136(%rsp), %rsi
473:
	movzbl	%al, %edi
	movq	8(%rsp), %rdx
	callq	b2_commands..fault..Fault..report..c1844c1740294036_1_x86
	movl	%eax, %r15d
	cmpq	$0, 24(%rsp)
	je	221b
474:
	movq	%r13, %rdi
	vj_call	rattle_dealloc
	jmp	221b
475:
	xorl	%r15d, %r15d
	cmpq	$0, 24(%rsp)
	jne	474b
	jmp	221b
476:
	movdqa	%xmm2, 4960(%rsp)
	movd	.L1_x86_CPI4_21(%rip), %xmm1
	punpcklqdq	%xmm0, %xmm1
	pblendw	$128, %xmm2, %xmm1
	movdqa	%xmm1, 128(%rsp)
	leaq	4960(%rsp), %rdi
	movq	%r12, %rdx
	vj_c_call	memcpy
	leaq	4968(%rsp), %rdi
	movq	%rbx, %rsi
	movq	%r14, %rdx
	vj_c_call	memcpy
	movaps	4960(%rsp), %xmm2
	pxor	%xmm0, %xmm0
	movdqa	%xmm0, 4960(%rsp)
	movdqa	%xmm0, 4976(%rsp)
	movdqa	%xmm0, 4992(%rsp)
	movdqa	%xmm0, 5008(%rsp)
	movdqa	%xmm0, 1120(%rsp)
	movdqa	%xmm0, 1136(%rsp)
	xorl	%r15d, %r15d
477:
	movaps	128(%rsp), %xmm0
	xorps	.L1_x86_CPI4_12(%rip), %xmm0
	movaps	%xmm0, 128(%rsp)
	xorps	.L1_x86_CPI4_13(%rip), %xmm2
	movaps	%xmm2, 48(%rsp)
	movq	$0, 3104(%rsp)
	leaq	3104(%rsp), %rdi
	movq	272(%rsp), %rsi
	movq	%r12, %rdx
	vj_c_call	memcpy
	movq	3104(%rsp), %r12
	movq	$0, 3104(%rsp)
	leaq	3104(%rsp), %rdi
	movq	%rbx, %rsi
	movq	%r14, %rdx
	vj_c_call	memcpy
	movq	%r12, %r8
	movaps	48(%rsp), %xmm4
	movq	3104(%rsp), %rcx
	movdqa	128(%rsp), %xmm8
	movq	%xmm8, %rax
	pextrq	$1, %xmm8, %rsi
	movaps	4960(%rsp), %xmm0
	movaps	4976(%rsp), %xmm1
	movdqa	4992(%rsp), %xmm2
	movaps	5008(%rsp), %xmm3
	movaps	%xmm0, 13152(%rsp)
	movaps	%xmm1, 13168(%rsp)
	movdqa	%xmm2, 13184(%rsp)
	movaps	%xmm3, 13200(%rsp)
	movdqa	1120(%rsp), %xmm0
	movaps	1136(%rsp), %xmm1
	movdqa	%xmm0, 2768(%rsp)
	movaps	%xmm1, 2784(%rsp)
	pxor	%xmm0, %xmm0
	movdqa	%xmm0, 288(%rsp)
	movdqa	%xmm0, 304(%rsp)
	movdqa	%xmm0, 1792(%rsp)
	movw	$32, %di
	movq	32(%rsp), %r9
	movq	%r9, %rdx
	movq	72(%rsp), %r10
	movq	24(%rsp), %r11
	movdqa	176(%rsp), %xmm5
	movdqa	160(%rsp), %xmm6
	movdqa	144(%rsp), %xmm7
478:
	movaps	13152(%rsp), %xmm0
	movaps	13168(%rsp), %xmm1
	movdqa	13184(%rsp), %xmm2
	movaps	13200(%rsp), %xmm3
	movaps	%xmm3, 3152(%rsp)
	movdqa	%xmm2, 3136(%rsp)
	movaps	%xmm1, 3120(%rsp)
	movaps	%xmm0, 3104(%rsp)
	movaps	2768(%rsp), %xmm0
	movaps	2784(%rsp), %xmm1
	movaps	%xmm0, 2352(%rsp)
	movaps	%xmm1, 2368(%rsp)
	movaps	288(%rsp), %xmm0
	movaps	304(%rsp), %xmm1
	movaps	%xmm0, 2480(%rsp)
	movaps	%xmm1, 2496(%rsp)
	movdqa	1792(%rsp), %xmm0
	movdqa	%xmm0, 1664(%rsp)
	movq	416(%rsp), %r12
479:
	pxor	%xmm0, %xmm0
	movdqa	%xmm0, 4960(%rsp)
	movdqa	%xmm0, 4976(%rsp)
	movdqa	%xmm0, 4992(%rsp)
	movdqa	%xmm0, 5008(%rsp)
	movdqa	%xmm0, 13152(%rsp)
	movdqa	%xmm0, 13168(%rsp)
	movdqa	%xmm0, 1120(%rsp)
	movdqa	%xmm0, 1136(%rsp)
	movdqa	%xmm0, 2768(%rsp)
	testb	%r13b, %r13b
	je	480f
	movaps	3104(%rsp), %xmm0
	movaps	3120(%rsp), %xmm1
	movdqa	3136(%rsp), %xmm2
	movaps	3152(%rsp), %xmm3
	movaps	%xmm3, 5008(%rsp)
	movdqa	%xmm2, 4992(%rsp)
	movaps	%xmm1, 4976(%rsp)
	movaps	%xmm0, 4960(%rsp)
	movaps	2352(%rsp), %xmm0
	movaps	2368(%rsp), %xmm1
	movaps	%xmm0, 13152(%rsp)
	movaps	%xmm1, 13168(%rsp)
	movaps	2480(%rsp), %xmm0
	movaps	2496(%rsp), %xmm1
	movaps	%xmm0, 1120(%rsp)
	movaps	%xmm1, 1136(%rsp)
	movdqa	1664(%rsp), %xmm0
	movdqa	%xmm0, 2768(%rsp)
	jmp	481f
480:
	movzbl	%al, %eax
	xorl	%r15d, %r15d
	xorl	%edi, %edi
	xorl	%r8d, %r8d
	xorl	%ecx, %ecx
	xorl	%edx, %edx
	xorps	%xmm4, %xmm4
	pxor	%xmm8, %xmm8
481:
	movaps	4960(%rsp), %xmm0
	movaps	4976(%rsp), %xmm1
	movdqa	4992(%rsp), %xmm2
	movaps	5008(%rsp), %xmm3
	movaps	%xmm3, 672(%rsp)
	movdqa	%xmm2, 656(%rsp)
	movaps	%xmm1, 640(%rsp)
	movaps	%xmm0, 624(%rsp)
	movaps	13152(%rsp), %xmm0
	movaps	13168(%rsp), %xmm1
	movaps	%xmm0, 1472(%rsp)
	movaps	%xmm1, 1488(%rsp)
	movaps	1120(%rsp), %xmm0
	movaps	1136(%rsp), %xmm1
	movaps	%xmm0, 464(%rsp)
	movaps	%xmm1, 480(%rsp)
	movdqa	2768(%rsp), %xmm0
	movdqa	%xmm0, 992(%rsp)
	testb	%r13b, %r13b
	je	503f
	movdqa	%xmm5, 176(%rsp)
	movq	%r9, %r14
	movq	%r10, %r13
	movq	%rax, 3456(%rsp)
	movq	%rsi, 3464(%rsp)
	movaps	%xmm4, 3472(%rsp)
	movdqa	%xmm8, 3488(%rsp)
	movaps	%xmm4, 3504(%rsp)
	movq	$0, 3520(%rsp)
	movw	%r15w, 3528(%rsp)
	movw	%r15w, 3530(%rsp)
	movw	%di, 3532(%rsp)
	movw	$0, 3534(%rsp)
	movaps	624(%rsp), %xmm0
	movaps	640(%rsp), %xmm1
	movdqa	656(%rsp), %xmm2
	movaps	672(%rsp), %xmm3
	movaps	%xmm0, 3536(%rsp)
	movaps	%xmm1, 3552(%rsp)
	movdqa	%xmm2, 3568(%rsp)
	movaps	%xmm3, 3584(%rsp)
	movaps	1472(%rsp), %xmm0
	movaps	1488(%rsp), %xmm1
	movaps	%xmm1, 3616(%rsp)
	movaps	%xmm0, 3600(%rsp)
	movaps	464(%rsp), %xmm0
	movaps	480(%rsp), %xmm1
	movaps	%xmm0, 3632(%rsp)
	movaps	%xmm1, 3648(%rsp)
	movq	%r8, 3664(%rsp)
	movq	%rcx, 3672(%rsp)
	movq	%rdx, 3680(%rsp)
	movdqa	992(%rsp), %xmm0
	movdqu	%xmm0, 3688(%rsp)
	leaq	4960(%rsp), %rbx
	movl	$4096, %edx
	movq	%rbx, %rdi
	xorl	%esi, %esi
	vj_c_call	memset
	movl	$4096, %edx
	xorl	%edi, %edi
	movq	%rbx, %rsi
	vj_system_call	read, b2_read
	testq	%rax, %rax
	js	487f
	movzwl	%r15w, %ecx
	notl	%ecx
	movslq	%ecx, %rbx
	jmp	485f
482:
	leaq	3456(%rsp), %rdi
	leaq	4960(%rsp), %rsi
483:
	callq	blake2_state..blake2s..State..absorb_blocks_1_x86
484:
	leaq	4960(%rsp), %rsi
	movl	$4096, %edx
	xorl	%edi, %edi
	vj_system_call	read, b2_read
	testq	%rax, %rax
	js	487f
485:
	cmpq	$4096, %rax
	movl	$4096, %edx
	cmovbq	%rax, %rdx
	testq	%rax, %rax
	je	488f
	subq	%rdx, %rbx
	jb	507f
	cmpq	$1, %rax
	jne	482b
	movzwl	3528(%rsp), %eax
	cmpq	$64, %rax
	jae	486f
	movzbl	4960(%rsp), %ecx
	movb	%cl, 3536(%rsp,%rax)
	incl	%eax
	movw	%ax, 3528(%rsp)
	jmp	484b
486:
	leaq	3456(%rsp), %rdi
	leaq	4960(%rsp), %rsi
	movl	$1, %edx
	jmp	483b
487:
	leaq	13152(%rsp), %rdi
	jmp	506f
488:
	leaq	1920(%rsp), %rdi
	leaq	3456(%rsp), %rsi
	movl	$248, %edx
	vj_c_call	memcpy
	testq	%r14, %r14
	je	524f
	testb	$1, %r13b
	je	518f
489:
	cmpq	$4096, %r14
	movl	$4096, %ebx
	movq	%r14, 32(%rsp)
	cmovbq	%r14, %rbx
	leaq	13152(%rsp), %r14
	xorl	%r15d, %r15d
	movl	$4096, %edx
	movq	%r14, %rdi
	xorl	%esi, %esi
	vj_c_call	memset
	leaq	1920(%rsp), %rdi
	movq	%r14, %rsi
	movq	%rbx, %rdx
	vj_call	blake2_xof..blake2xs..State..squeeze_1_x86
490:
	leaq	(%rsp,%r15), %rsi
	addq	$13152, %rsi
	movq	%rbx, %r14
	subq	%r15, %r14
	movl	$1, %edi
	movq	%r14, %rdx
	vj_system_call	write, b2_write
	testq	%rax, %rax
	js	526f
	cmpq	%r14, %rax
	cmovbq	%rax, %r14
	testq	%r14, %r14
	je	527f
	addq	%r14, %r15
	cmpq	%rbx, %r15
	jb	490b
	movq	32(%rsp), %r14
	subq	%rbx, %r14
	jne	489b
	jmp	524f
491:
	movaps	%xmm1, 4976(%rsp)
	movaps	%xmm1, 4960(%rsp)
	movd	.L1_x86_CPI4_22(%rip), %xmm1
	punpcklqdq	%xmm0, %xmm1
	movdqa	%xmm1, 48(%rsp)
	leaq	4960(%rsp), %rdi
	movq	%r12, %rdx
	movq	%rsi, %r15
	vj_c_call	memcpy
	leaq	4976(%rsp), %rdi
	movq	%rbx, %rsi
	movq	%r14, %rdx
	vj_c_call	memcpy
	movaps	4960(%rsp), %xmm0
	movaps	4976(%rsp), %xmm1
	movaps	48(%rsp), %xmm2
	xorps	.L1_x86_CPI4_8(%rip), %xmm2
	movaps	%xmm2, 48(%rsp)
	xorps	.L1_x86_CPI4_14(%rip), %xmm0
	movaps	%xmm0, 592(%rsp)
	movaps	.L1_x86_CPI4_9(%rip), %xmm0
	movaps	%xmm0, 272(%rsp)
	xorps	.L1_x86_CPI4_15(%rip), %xmm1
	movaps	%xmm1, 976(%rsp)
	xorps	%xmm0, %xmm0
	movaps	%xmm0, 4960(%rsp)
	movaps	%xmm0, 4976(%rsp)
	movaps	%xmm0, 4992(%rsp)
	movaps	%xmm0, 5008(%rsp)
	movaps	%xmm0, 5024(%rsp)
	movaps	%xmm0, 5040(%rsp)
	movaps	%xmm0, 5056(%rsp)
	movaps	%xmm0, 5072(%rsp)
	movaps	%xmm0, 464(%rsp)
	movaps	%xmm0, 480(%rsp)
	movaps	%xmm0, 496(%rsp)
	movaps	%xmm0, 512(%rsp)
	movq	$0, 128(%rsp)
492:
	xorps	%xmm0, %xmm0
	movaps	%xmm0, 4272(%rsp)
	leaq	4272(%rsp), %rdi
	movq	%r15, %rsi
	movq	%r12, %rdx
	vj_c_call	memcpy
	movaps	4272(%rsp), %xmm0
	movaps	%xmm0, 992(%rsp)
	xorps	%xmm0, %xmm0
	movaps	%xmm0, 3104(%rsp)
	leaq	3104(%rsp), %rdi
	movq	%rbx, %rsi
	movq	%r14, %rdx
	vj_c_call	memcpy
	movaps	3104(%rsp), %xmm0
	movaps	%xmm0, 4272(%rsp)
	xorps	%xmm1, %xmm1
	movaps	%xmm1, 3104(%rsp)
	movaps	%xmm1, 3120(%rsp)
	movaps	%xmm1, 3136(%rsp)
	movaps	%xmm1, 3152(%rsp)
	xorps	%xmm4, %xmm4
	movaps	992(%rsp), %xmm1
	movaps	%xmm1, 3168(%rsp)
	movaps	%xmm0, 3184(%rsp)
	movaps	5072(%rsp), %xmm0
	movaps	%xmm0, 2032(%rsp)
	movaps	5056(%rsp), %xmm0
	movaps	%xmm0, 2016(%rsp)
	movaps	5040(%rsp), %xmm0
	movaps	%xmm0, 2000(%rsp)
	movaps	5024(%rsp), %xmm0
	movaps	%xmm0, 1984(%rsp)
	movaps	4960(%rsp), %xmm0
	movaps	4976(%rsp), %xmm1
	movaps	4992(%rsp), %xmm2
	movaps	5008(%rsp), %xmm3
	movaps	%xmm3, 1968(%rsp)
	movaps	%xmm2, 1952(%rsp)
	movaps	%xmm1, 1936(%rsp)
	movaps	%xmm0, 1920(%rsp)
	movaps	464(%rsp), %xmm0
	movaps	480(%rsp), %xmm1
	movaps	496(%rsp), %xmm2
	movaps	512(%rsp), %xmm3
	movaps	%xmm3, 2400(%rsp)
	movaps	%xmm2, 2384(%rsp)
	movaps	%xmm1, 2368(%rsp)
	movaps	%xmm0, 2352(%rsp)
	movaps	3184(%rsp), %xmm0
	movaps	%xmm0, 2848(%rsp)
	movaps	3168(%rsp), %xmm0
	movaps	%xmm0, 2832(%rsp)
	movdqa	3104(%rsp), %xmm0
	movaps	3120(%rsp), %xmm1
	movdqa	3136(%rsp), %xmm2
	movaps	3152(%rsp), %xmm3
	movaps	%xmm3, 2816(%rsp)
	movdqa	%xmm2, 2800(%rsp)
	movaps	%xmm1, 2784(%rsp)
	movdqa	%xmm0, 2768(%rsp)
	movaps	%xmm4, 4400(%rsp)
	movdqa	48(%rsp), %xmm9
	movq	%xmm9, %rax
	movl	$64, %edx
	movq	32(%rsp), %rdi
	movq	%rdi, %rcx
	movq	24(%rsp), %r11
	movdqa	176(%rsp), %xmm5
	movdqa	160(%rsp), %xmm6
	movdqa	144(%rsp), %xmm7
	movdqa	272(%rsp), %xmm8
	movaps	592(%rsp), %xmm10
	movaps	976(%rsp), %xmm11
493:
	movaps	2032(%rsp), %xmm0
	movaps	%xmm0, 736(%rsp)
	movaps	2016(%rsp), %xmm0
	movaps	%xmm0, 720(%rsp)
	movaps	2000(%rsp), %xmm0
	movaps	%xmm0, 704(%rsp)
	movaps	1984(%rsp), %xmm0
	movaps	%xmm0, 688(%rsp)
	movaps	1920(%rsp), %xmm0
	movaps	1936(%rsp), %xmm1
	movaps	1952(%rsp), %xmm2
	movaps	1968(%rsp), %xmm3
	movaps	%xmm3, 672(%rsp)
	movaps	%xmm2, 656(%rsp)
	movaps	%xmm1, 640(%rsp)
	movaps	%xmm0, 624(%rsp)
	movaps	2352(%rsp), %xmm0
	movaps	2368(%rsp), %xmm1
	movaps	2384(%rsp), %xmm2
	movaps	2400(%rsp), %xmm3
	movaps	%xmm0, 1792(%rsp)
	movaps	%xmm1, 1808(%rsp)
	movaps	%xmm2, 1824(%rsp)
	movaps	%xmm3, 1840(%rsp)
	movaps	2848(%rsp), %xmm0
	movaps	%xmm0, 1552(%rsp)
	movaps	2832(%rsp), %xmm0
	movaps	%xmm0, 1536(%rsp)
	movaps	2768(%rsp), %xmm0
	movaps	2784(%rsp), %xmm1
	movdqa	2800(%rsp), %xmm2
	movaps	2816(%rsp), %xmm3
	movaps	%xmm3, 1520(%rsp)
	movdqa	%xmm2, 1504(%rsp)
	movaps	%xmm1, 1488(%rsp)
	movaps	%xmm0, 1472(%rsp)
	movdqa	4400(%rsp), %xmm0
	movdqa	%xmm0, 3920(%rsp)
	movq	416(%rsp), %r12
494:
	pxor	%xmm0, %xmm0
	movdqa	%xmm0, 4960(%rsp)
	movdqa	%xmm0, 4976(%rsp)
	movdqa	%xmm0, 4992(%rsp)
	movdqa	%xmm0, 5008(%rsp)
	movdqa	%xmm0, 5024(%rsp)
	movdqa	%xmm0, 5040(%rsp)
	movdqa	%xmm0, 5056(%rsp)
	movdqa	%xmm0, 5072(%rsp)
	movdqa	%xmm0, 3104(%rsp)
	movdqa	%xmm0, 3120(%rsp)
	movdqa	%xmm0, 3136(%rsp)
	movdqa	%xmm0, 3152(%rsp)
	movdqa	%xmm0, 1920(%rsp)
	movdqa	%xmm0, 1936(%rsp)
	movdqa	%xmm0, 1952(%rsp)
	movdqa	%xmm0, 1968(%rsp)
	movdqa	%xmm0, 1984(%rsp)
	movdqa	%xmm0, 2000(%rsp)
	movdqa	%xmm0, 2768(%rsp)
	testb	%r13b, %r13b
	je	495f
	movaps	736(%rsp), %xmm0
	movaps	%xmm0, 5072(%rsp)
	movaps	720(%rsp), %xmm0
	movaps	%xmm0, 5056(%rsp)
	movaps	704(%rsp), %xmm0
	movaps	%xmm0, 5040(%rsp)
	movaps	688(%rsp), %xmm0
	movaps	%xmm0, 5024(%rsp)
	movaps	624(%rsp), %xmm0
	movaps	640(%rsp), %xmm1
	movaps	656(%rsp), %xmm2
	movaps	672(%rsp), %xmm3
	movaps	%xmm3, 5008(%rsp)
	movaps	%xmm2, 4992(%rsp)
	movaps	%xmm1, 4976(%rsp)
	movaps	%xmm0, 4960(%rsp)
	movaps	1792(%rsp), %xmm0
	movaps	1808(%rsp), %xmm1
	movaps	1824(%rsp), %xmm2
	movaps	1840(%rsp), %xmm3
	movaps	%xmm0, 3104(%rsp)
	movaps	%xmm1, 3120(%rsp)
	movaps	%xmm2, 3136(%rsp)
	movaps	%xmm3, 3152(%rsp)
	movaps	1552(%rsp), %xmm0
	movaps	%xmm0, 2000(%rsp)
	movaps	1536(%rsp), %xmm0
	movaps	%xmm0, 1984(%rsp)
	movaps	1472(%rsp), %xmm0
	movaps	1488(%rsp), %xmm1
	movdqa	1504(%rsp), %xmm2
	movaps	1520(%rsp), %xmm3
	movaps	%xmm3, 1968(%rsp)
	movdqa	%xmm2, 1952(%rsp)
	movaps	%xmm1, 1936(%rsp)
	movaps	%xmm0, 1920(%rsp)
	movaps	3920(%rsp), %xmm0
	movaps	%xmm0, 2768(%rsp)
	movdqa	%xmm9, %xmm0
	jmp	496f
495:
	movzbl	%al, %eax
	movq	$0, 128(%rsp)
	xorl	%edx, %edx
	xorl	%ecx, %ecx
	pxor	%xmm8, %xmm8
	xorps	%xmm10, %xmm10
	xorps	%xmm11, %xmm11
496:
	movaps	5072(%rsp), %xmm1
	movaps	%xmm1, 1232(%rsp)
	movaps	5056(%rsp), %xmm1
	movaps	%xmm1, 1216(%rsp)
	movaps	5040(%rsp), %xmm1
	movaps	%xmm1, 1200(%rsp)
	movaps	5024(%rsp), %xmm1
	movaps	%xmm1, 1184(%rsp)
	movaps	4960(%rsp), %xmm1
	movaps	4976(%rsp), %xmm2
	movaps	4992(%rsp), %xmm3
	movaps	5008(%rsp), %xmm4
	movaps	%xmm4, 1168(%rsp)
	movaps	%xmm3, 1152(%rsp)
	movaps	%xmm2, 1136(%rsp)
	movaps	%xmm1, 1120(%rsp)
	movaps	3104(%rsp), %xmm1
	movaps	3120(%rsp), %xmm2
	movaps	3136(%rsp), %xmm3
	movaps	3152(%rsp), %xmm4
	movaps	%xmm1, 2480(%rsp)
	movaps	%xmm2, 2496(%rsp)
	movaps	%xmm3, 2512(%rsp)
	movaps	%xmm4, 2528(%rsp)
	movaps	2000(%rsp), %xmm1
	movaps	%xmm1, 368(%rsp)
	movaps	1984(%rsp), %xmm1
	movaps	%xmm1, 352(%rsp)
	movaps	1920(%rsp), %xmm1
	movdqa	1936(%rsp), %xmm2
	movaps	1952(%rsp), %xmm3
	movaps	1968(%rsp), %xmm4
	movaps	%xmm4, 336(%rsp)
	movaps	%xmm3, 320(%rsp)
	movdqa	%xmm2, 304(%rsp)
	movaps	%xmm1, 288(%rsp)
	movaps	2768(%rsp), %xmm1
	movaps	%xmm1, 4032(%rsp)
	testb	%r13b, %r13b
	je	502f
	movdqa	%xmm5, 176(%rsp)
	movq	%rdi, %r14
	movq	%rax, 13152(%rsp)
	pextrq	$1, %xmm9, 13160(%rsp)
	movdqu	%xmm8, 13168(%rsp)
	movups	%xmm10, 13184(%rsp)
	movups	%xmm11, 13200(%rsp)
	movdqu	%xmm0, 13216(%rsp)
	movdqu	%xmm8, 13232(%rsp)
	movups	%xmm10, 13248(%rsp)
	movups	%xmm11, 13264(%rsp)
	movq	$0, 13280(%rsp)
	movq	128(%rsp), %r15
	movl	%r15d, 13288(%rsp)
	movl	%r15d, 13292(%rsp)
	movl	%edx, 13296(%rsp)
	movl	$0, 13300(%rsp)
	movaps	1120(%rsp), %xmm0
	movaps	1136(%rsp), %xmm1
	movaps	1152(%rsp), %xmm2
	movaps	1168(%rsp), %xmm3
	movups	%xmm0, 13304(%rsp)
	movups	%xmm1, 13320(%rsp)
	movups	%xmm2, 13336(%rsp)
	movups	%xmm3, 13352(%rsp)
	movaps	1184(%rsp), %xmm0
	movups	%xmm0, 13368(%rsp)
	movaps	1200(%rsp), %xmm0
	movups	%xmm0, 13384(%rsp)
	movaps	1216(%rsp), %xmm0
	movups	%xmm0, 13400(%rsp)
	movaps	1232(%rsp), %xmm0
	movups	%xmm0, 13416(%rsp)
	movaps	2480(%rsp), %xmm0
	movaps	2496(%rsp), %xmm1
	movaps	2512(%rsp), %xmm2
	movaps	2528(%rsp), %xmm3
	movups	%xmm3, 13480(%rsp)
	movups	%xmm2, 13464(%rsp)
	movups	%xmm1, 13448(%rsp)
	movups	%xmm0, 13432(%rsp)
	movaps	288(%rsp), %xmm0
	movaps	304(%rsp), %xmm1
	movdqa	320(%rsp), %xmm2
	movaps	336(%rsp), %xmm3
	movups	%xmm0, 13496(%rsp)
	movups	%xmm1, 13512(%rsp)
	movdqu	%xmm2, 13528(%rsp)
	movups	%xmm3, 13544(%rsp)
	movaps	352(%rsp), %xmm0
	movups	%xmm0, 13560(%rsp)
	movaps	368(%rsp), %xmm0
	movups	%xmm0, 13576(%rsp)
	movq	%rcx, 13592(%rsp)
	movdqa	4032(%rsp), %xmm0
	movdqu	%xmm0, 13600(%rsp)
	leaq	4960(%rsp), %rbx
	movl	$4096, %edx
	movq	%rbx, %rdi
	xorl	%esi, %esi
	vj_c_call	memset
	movl	$4096, %edx
	xorl	%edi, %edi
	movq	%rbx, %rsi
	vj_system_call	read, b2_read
	testq	%rax, %rax
	js	505f
	notl	%r15d
	movslq	%r15d, %rbx
	jmp	500f
497:
	leaq	13152(%rsp), %rdi
	leaq	4960(%rsp), %rsi
498:
	callq	blake2_state..blake2b..State..absorb_blocks_1_x86
499:
	leaq	4960(%rsp), %rsi
	movl	$4096, %edx
	xorl	%edi, %edi
	vj_system_call	read, b2_read
	testq	%rax, %rax
	js	505f
500:
	cmpq	$4096, %rax
	movl	$4096, %edx
	cmovbq	%rax, %rdx
	testq	%rax, %rax
	je	517f
	subq	%rdx, %rbx
	jb	507f
	cmpq	$1, %rax
	jne	497b
	movl	13288(%rsp), %eax
	cmpq	$128, %rax
	jae	501f
	movzbl	4960(%rsp), %ecx
	movb	%cl, 13304(%rsp,%rax)
	incl	%eax
	movl	%eax, 13288(%rsp)
	jmp	499b
501:
	leaq	13152(%rsp), %rdi
	leaq	4960(%rsp), %rsi
	movl	$1, %edx
	jmp	498b
502:
	pextrq	$1, %xmm9, %rsi
503:
	movb	$1, %cl
	movq	80(%rsp), %rbx
	movdqa	%xmm7, 144(%rsp)
	movdqa	%xmm6, 160(%rsp)
	testb	%cl, %cl
	je	512f
504:
	movzbl	%al, %edi
	movq	8(%rsp), %rdx
	movdqa	%xmm5, 176(%rsp)
	callq	b2_commands..fault..Fault..report..c1844c1740294036_1_x86
	movdqa	176(%rsp), %xmm5
	movq	24(%rsp), %r11
	movl	%eax, %r15d
	jmp	513f
505:
	leaq	1920(%rsp), %rdi
506:
	callq	std_io..io..error..last_error_1_x86
	movq	112(%rsp), %rax
	movb	$1, (%rax)
	movb	$7, %al
	jmp	508f
507:
	movb	$6, %al
508:
	movb	$1, %cl
509:
	xorl	%esi, %esi
510:
	movq	80(%rsp), %rbx
	movq	24(%rsp), %r11
	movdqa	176(%rsp), %xmm5
	movdqa	160(%rsp), %xmm6
511:
	movdqa	144(%rsp), %xmm7
	movdqa	%xmm7, 144(%rsp)
	movdqa	%xmm6, 160(%rsp)
	testb	%cl, %cl
	jne	504b
512:
	xorl	%r15d, %r15d
513:
	cmpb	$1, %r11b
	jne	514f
	pextrq	$1, %xmm5, %rax
	testq	%rax, %rax
	je	514f
	movq	96(%rsp), %rdi
	vj_call	rattle_dealloc
514:
	cmpb	$1, %bl
	movdqa	160(%rsp), %xmm0
	jne	515f
	pextrq	$1, %xmm0, %rax
	testq	%rax, %rax
	je	515f
	movq	104(%rsp), %rdi
	vj_call	rattle_dealloc
515:
	cmpb	$1, %r12b
	movq	256(%rsp), %rdi
	movdqa	144(%rsp), %xmm0
	jne	221b
516:
	pextrq	$1, %xmm0, %rax
	testq	%rax, %rax
	je	221b
	vj_call	rattle_dealloc
	jmp	221b
517:
	leaq	3456(%rsp), %rbx
	leaq	13152(%rsp), %rsi
	movl	$464, %edx
	movq	%rbx, %rdi
	vj_c_call	memcpy
	movzbl	72(%rsp), %ecx
	andl	$1, %ecx
	leaq	1664(%rsp), %rdi
	movq	%rbx, %rsi
	movq	%r14, %rdx
	movq	8(%rsp), %r8
	callq	b2_commands..outputs..blake2xb..print_next..c1844c1740294036_1_x86
	movzbl	1664(%rsp), %ecx
	movzbl	1672(%rsp), %eax
	movq	1680(%rsp), %rsi
	jmp	510b
518:
	movq	%r12, 416(%rsp)
519:
	movq	%r14, 32(%rsp)
	cmpq	$4096, %r14
	movl	$4096, %ebx
	cmovbq	%r14, %rbx
	leaq	13152(%rsp), %r14
	xorl	%r15d, %r15d
	movl	$4096, %edx
	movq	%r14, %rdi
	xorl	%esi, %esi
	vj_c_call	memset
	leaq	4960(%rsp), %rdi
	movl	$8192, %edx
	xorl	%esi, %esi
	vj_c_call	memset
	leaq	1920(%rsp), %rdi
	movq	%r14, %rsi
	movq	%rbx, %rdx
	vj_call	blake2_xof..blake2xs..State..squeeze_1_x86
	cmpq	$1, 32(%rsp)
	je	521f
	movl	%ebx, %eax
	andl	$8190, %eax
	xorl	%r15d, %r15d
520:
	movzbl	13152(%rsp,%r15), %ecx
	movl	%ecx, %edx
	shrl	$4, %edx
	leaq	.L1_x86_static.37(%rip), %rsi
	movzbl	(%rdx,%rsi), %edx
	movb	%dl, 4960(%rsp,%r15,2)
	andl	$15, %ecx
	movzbl	(%rcx,%rsi), %ecx
	movb	%cl, 4961(%rsp,%r15,2)
	movzbl	13153(%rsp,%r15), %ecx
	movl	%ecx, %edx
	shrl	$4, %edx
	movzbl	(%rdx,%rsi), %edx
	movb	%dl, 4962(%rsp,%r15,2)
	andl	$15, %ecx
	movzbl	(%rcx,%rsi), %ecx
	movb	%cl, 4963(%rsp,%r15,2)
	addq	$2, %r15
	cmpq	%r15, %rax
	jne	520b
	testb	$1, %bl
	je	522f
521:
	movzbl	13152(%rsp,%r15), %eax
	movl	%eax, %ecx
	shrl	$4, %ecx
	leaq	.L1_x86_static.37(%rip), %rdx
	movzbl	(%rcx,%rdx), %ecx
	movb	%cl, 4960(%rsp,%r15,2)
	andl	$15, %eax
	movzbl	(%rax,%rdx), %eax
	movb	%al, 4961(%rsp,%r15,2)
522:
	leaq	(%rbx,%rbx), %r15
	xorl	%r12d, %r12d
523:
	leaq	(%rsp,%r12), %rsi
	addq	$4960, %rsi
	movq	%r15, %r14
	subq	%r12, %r14
	movl	$1, %edi
	movq	%r14, %rdx
	vj_system_call	write, b2_write
	testq	%rax, %rax
	js	528f
	cmpq	%r14, %rax
	cmovbq	%rax, %r14
	testq	%r14, %r14
	je	529f
	addq	%r14, %r12
	cmpq	%r15, %r12
	jb	523b
	movq	32(%rsp), %r14
	subq	%rbx, %r14
	movq	416(%rsp), %r12
	jne	519b
524:
	testb	$1, %r13b
	je	525f
	xorl	%ecx, %ecx
	xorl	%eax, %eax
	jmp	509b
525:
	leaq	.L1_x86_static.38(%rip), %rsi
	movl	$1, %edx
	movl	$1, %edi
	vj_system_call	write, b2_write
	testq	%rax, %rax
	movq	80(%rsp), %rbx
	js	530f
	je	531f
	xorl	%ecx, %ecx
	jmp	532f
526:
	leaq	1120(%rsp), %rdi
	callq	std_io..io..error..last_error_1_x86
527:
	movq	8(%rsp), %rax
	movb	$1, (%rax)
	movb	$9, %al
	jmp	508b
528:
	leaq	1120(%rsp), %rdi
	callq	std_io..io..error..last_error_1_x86
529:
	movq	8(%rsp), %rax
	movb	$1, (%rax)
	movb	$9, %al
	movb	$1, %cl
	xorl	%esi, %esi
	movq	80(%rsp), %rbx
	movq	24(%rsp), %r11
	movdqa	176(%rsp), %xmm5
	movdqa	160(%rsp), %xmm6
	movq	416(%rsp), %r12
	jmp	511b
530:
	leaq	4960(%rsp), %rdi
	callq	std_io..io..error..last_error_1_x86
531:
	movq	8(%rsp), %rax
	movb	$1, (%rax)
	movb	$1, %cl
532:
	movq	24(%rsp), %r11
	movdqa	176(%rsp), %xmm5
	movdqa	160(%rsp), %xmm6
	movdqa	144(%rsp), %xmm7
	xorl	%eax, %eax
	testb	%cl, %cl
	setne	%al
	leal	(%rax,%rax,8), %eax
	xorl	%esi, %esi
	movdqa	%xmm7, 144(%rsp)
	movdqa	%xmm6, 160(%rsp)
	testb	%cl, %cl
	jne	504b
	jmp	512b
533:
	movb	$1, %al
	movl	%eax, 80(%rsp)
	jmp	334b
534:
	movzbl	2488(%rsp), %eax
	movl	%eax, 80(%rsp)
	movq	2496(%rsp), %rax
	movq	%rax, 112(%rsp)
	jmp	334b
535:
	movq	13152(%rsp), %rax
	movq	%rax, 72(%rsp)
	movq	13168(%rsp), %rax
	movq	%rax, 176(%rsp)
	leaq	16(%rsp), %rax
	movq	%rax, 4960(%rsp)
	pxor	%xmm0, %xmm0
	movdqu	%xmm0, 4968(%rsp)
	testq	%r14, %r14
	je	552f
	movq	72(%rsp), %rax
	leaq	24(%rax), %rbx
	leaq	16(%rsp), %rax
	movq	$0, 48(%rsp)
	movq	144(%rsp), %r14
	jmp	538f
536:
	movq	-16(%rbx), %r13
	movq	48(%rsp), %rdx
	cmpq	%rdx, 4976(%rsp)
	je	539f
537:
	movq	%rdx, %rcx
	shlq	$5, %rcx
	movq	%r15, (%rax,%rcx)
	movq	%r13, 8(%rax,%rcx)
	movq	112(%rsp), %rsi
	movq	%rsi, 16(%rax,%rcx)
	movq	104(%rsp), %rsi
	movq	%rsi, 24(%rax,%rcx)
	incq	%rdx
	movq	%rdx, 48(%rsp)
	movq	%rdx, 4968(%rsp)
	addq	$40, %rbx
	decq	%r14
	je	542f
538:
	movzbl	-24(%rbx), %r15d
	movq	$0, 112(%rsp)
	movl	$0, %ecx
	movq	%rcx, 104(%rsp)
	testq	%r15, %r15
	jne	536b
	movq	-8(%rbx), %rcx
	movq	%rcx, 112(%rsp)
	movq	(%rbx), %rcx
	movq	%rcx, 104(%rsp)
	jmp	536b
539:
	leaq	4960(%rsp), %rdi
	callq	std_alloc..vec..Vec..grow_amortized..99a3d98a3388100f_1_x86
	testb	%al, %al
	je	565f
	movq	4960(%rsp), %rax
	movq	4968(%rsp), %rdx
	jmp	537b
540:
	cmpq	$0, 1136(%rsp)
	je	541f
	movq	1120(%rsp), %rdi
	vj_call	rattle_dealloc
541:
	movl	$8, %r13d
	cmpq	$0, 96(%rsp)
	je	546f
	movq	80(%rsp), %rdi
	jmp	545f
542:
	movq	4960(%rsp), %rbx
	cmpq	$0, 4976(%rsp)
	sete	96(%rsp)
	movl	$0, 32(%rsp)
	movq	144(%rsp), %rax
	movq	160(%rsp), %r14
	jmp	228b
543:
	cmpq	$0, 2784(%rsp)
	je	544f
	movq	2768(%rsp), %rdi
	vj_call	rattle_dealloc
544:
	movl	$8, %r13d
	cmpq	$0, 80(%rsp)
	je	546f
	movq	24(%rsp), %rdi
545:
	vj_call	rattle_dealloc
546:
	xorl	%r12d, %r12d
547:
	movq	8(%rsp), %rdx
	movb	$1, %dil
	testb	%dil, %dil
	jne	39b
548:
	xorl	%r15d, %r15d
549:
	cmpb	$1, 4176(%rsp)
	jne	550f
	cmpq	$0, 4200(%rsp)
	je	550f
	movq	4184(%rsp), %rdi
	vj_call	rattle_dealloc
550:
	cmpb	$1, 4208(%rsp)
	jne	551f
	cmpq	$0, 4232(%rsp)
	je	551f
	movq	4216(%rsp), %rdi
	vj_call	rattle_dealloc
551:
	cmpb	$1, 4240(%rsp)
	jne	221b
	cmpq	$0, 4264(%rsp)
	je	221b
	movq	4248(%rsp), %rdi
	vj_call	rattle_dealloc
	jmp	221b
552:
	movq	%rax, %rbx
	movb	$1, %al
	movl	%eax, 32(%rsp)
	xorl	%eax, %eax
	movb	$1, 96(%rsp)
	movq	$0, 48(%rsp)
	movq	160(%rsp), %r14
	jmp	228b
553:
	movb	$2, %al
	movl	%eax, 80(%rsp)
	movq	$0, 112(%rsp)
	jmp	334b
554:
	xorl	%ecx, %ecx
	xorl	%edx, %edx
	cmpb	$8, %al
	leaq	1(%r14), %r13
	cmoveq	%rcx, %r13
	sete	%dl
	leal	3(%rdx,%rdx,4), %eax
	movq	%rax, 48(%rsp)
	movq	13152(%rsp), %rbx
	movq	13168(%rsp), %r15
	testq	%r14, %r14
	jne	303b
555:
	testq	%r15, %r15
	je	556f
	movq	%rbx, %rdi
	vj_call	rattle_dealloc
556:
	movq	128(%rsp), %rdi
	movq	24(%rsp), %rax
	testq	%rax, %rax
	je	557f
	vj_call	rattle_dealloc
557:
	movq	80(%rsp), %rax
	movq	%rax, 4960(%rsp)
	leaq	4968(%rsp), %rbx
	leaq	4976(%rsp), %rdi
	leaq	2768(%rsp), %rsi
	movl	$336, %edx
	vj_c_call	memcpy
	cmpb	$0, 96(%rsp)
	je	558f
	pxor	%xmm0, %xmm0
	movdqu	%xmm0, 160(%rbx)
	movdqu	%xmm0, 144(%rbx)
	movdqu	%xmm0, 128(%rbx)
	movdqu	%xmm0, 112(%rbx)
	movdqu	%xmm0, 96(%rbx)
	movdqu	%xmm0, 80(%rbx)
	movdqu	%xmm0, 64(%rbx)
	movdqu	%xmm0, 48(%rbx)
	movdqu	%xmm0, 32(%rbx)
	movdqu	%xmm0, 16(%rbx)
	movdqu	%xmm0, (%rbx)
	leaq	5048(%rsp), %rdi
	callq	blake2_digest..wiping..settle..64_1_x86
	leaq	5112(%rsp), %rdi
	callq	blake2_digest..wiping..settle..32_1_x86
	jmp	559f
558:
	movl	$344, %edx
	movq	%rbx, %rdi
	xorl	%esi, %esi
	vj_c_call	memset
	leaq	5120(%rsp), %rdi
	callq	blake2_digest..wiping..settle..128_1_x86
	leaq	5248(%rsp), %rdi
	callq	blake2_digest..wiping..settle..64_1_x86
559:
	movb	$1, %dil
	movq	%r13, %r12
	movq	8(%rsp), %rdx
	movq	48(%rsp), %r13
	testb	%dil, %dil
	jne	39b
	jmp	548b
560:
	movdqa	48(%rsp), %xmm0
	pextrq	$1, %xmm0, %rax
	testq	%rax, %rax
	sete	%al
	movq	176(%rsp), %rcx
	orb	%al, %cl
	jne	561f
	movq	72(%rsp), %rdi
	vj_call	rattle_dealloc
561:
	movq	13152(%rsp), %rbx
	movq	13160(%rsp), %r15
	movq	13168(%rsp), %r14
	testq	%r15, %r15
	je	564f
	leaq	32(%rbx), %r12
	jmp	563f
562:
	addq	$40, %r12
	decq	%r15
	je	564f
563:
	cmpb	$0, -32(%r12)
	jne	562b
	cmpq	$0, (%r12)
	je	562b
	movq	-16(%r12), %rdi
	vj_call	rattle_dealloc
	jmp	562b
564:
	movb	$8, %al
	movq	%rax, 48(%rsp)
	testq	%r14, %r14
	je	572f
	movq	%rbx, %rdi
	vj_call	rattle_dealloc
	xorl	%r13d, %r13d
	jmp	556b
565:
	cmpq	$0, 4976(%rsp)
	je	566f
	movq	4960(%rsp), %rdi
	vj_call	rattle_dealloc
566:
	movq	72(%rsp), %rbx
	addq	$32, %rbx
	jmp	568f
567:
	addq	$40, %rbx
	decq	144(%rsp)
	je	569f
568:
	cmpb	$0, -32(%rbx)
	jne	567b
	cmpq	$0, (%rbx)
	je	567b
	movq	-16(%rbx), %rdi
	vj_call	rattle_dealloc
	jmp	567b
569:
	cmpq	$0, 176(%rsp)
	je	570f
	movq	72(%rsp), %rdi
	vj_call	rattle_dealloc
570:
	cmpq	$0, 24(%rsp)
	je	571f
	movq	128(%rsp), %rdi
	vj_call	rattle_dealloc
571:
	movq	80(%rsp), %rax
	movq	%rax, 4960(%rsp)
	leaq	4968(%rsp), %rbx
	leaq	4976(%rsp), %rdi
	leaq	2768(%rsp), %rsi
	movl	$336, %edx
	vj_c_call	memcpy
	cmpb	$0, 96(%rsp)
	je	573f
	pxor	%xmm0, %xmm0
	movdqu	%xmm0, 160(%rbx)
	movdqu	%xmm0, 144(%rbx)
	movdqu	%xmm0, 128(%rbx)
	movdqu	%xmm0, 112(%rbx)
	movdqu	%xmm0, 96(%rbx)
	movdqu	%xmm0, 80(%rbx)
	movdqu	%xmm0, 64(%rbx)
	movdqu	%xmm0, 48(%rbx)
	movdqu	%xmm0, 32(%rbx)
	movdqu	%xmm0, 16(%rbx)
	movdqu	%xmm0, (%rbx)
	leaq	5048(%rsp), %rdi
	callq	blake2_digest..wiping..settle..64_1_x86
	leaq	5112(%rsp), %rdi
	callq	blake2_digest..wiping..settle..32_1_x86
	jmp	574f
572:
	xorl	%r13d, %r13d
	jmp	556b
573:
	movl	$344, %edx
	movq	%rbx, %rdi
	xorl	%esi, %esi
	vj_c_call	memset
	leaq	5120(%rsp), %rdi
	callq	blake2_digest..wiping..settle..128_1_x86
	leaq	5248(%rsp), %rdi
	callq	blake2_digest..wiping..settle..64_1_x86
574:
	movb	$8, %r13b
	movb	$1, %dil
	xorl	%r12d, %r12d
	movq	8(%rsp), %rdx
	testb	%dil, %dil
	jne	39b
	jmp	548b
575:
	ud2
	vj_end	b2_commands..dispatch..run_with_notes..8eebea7bb24a6da2_1_x86

	vj_data	b2_commands..dispatch..run_with_notes..8eebea7bb24a6da2_1_x86
	.p2align	2, 0x0
.L1_x86_JTI4_0:
	.long	1b-.L1_x86_JTI4_0
	.long	6b-.L1_x86_JTI4_0
	.long	4b-.L1_x86_JTI4_0
	.long	5b-.L1_x86_JTI4_0
	.long	3b-.L1_x86_JTI4_0
.L1_x86_JTI4_1:
	.long	205b-.L1_x86_JTI4_1
	.long	207b-.L1_x86_JTI4_1
	.long	209b-.L1_x86_JTI4_1
	.long	210b-.L1_x86_JTI4_1
	.long	211b-.L1_x86_JTI4_1
	.long	206b-.L1_x86_JTI4_1
	.long	214b-.L1_x86_JTI4_1
	.long	208b-.L1_x86_JTI4_1
.L1_x86_JTI4_2:
	.long	13b-.L1_x86_JTI4_2
	.long	47b-.L1_x86_JTI4_2
	.long	234b-.L1_x86_JTI4_2
	.long	258b-.L1_x86_JTI4_2
	.long	453b-.L1_x86_JTI4_2
	.long	456b-.L1_x86_JTI4_2
	.long	459b-.L1_x86_JTI4_2
	.long	454b-.L1_x86_JTI4_2
.L1_x86_JTI4_3:
	.long	118b-.L1_x86_JTI4_3
	.long	123b-.L1_x86_JTI4_3
	.long	301b-.L1_x86_JTI4_3
	.long	124b-.L1_x86_JTI4_3
	.long	301b-.L1_x86_JTI4_3
	.long	301b-.L1_x86_JTI4_3
	.long	301b-.L1_x86_JTI4_3
	.long	301b-.L1_x86_JTI4_3
	.long	301b-.L1_x86_JTI4_3
	.long	301b-.L1_x86_JTI4_3
	.long	301b-.L1_x86_JTI4_3
	.long	301b-.L1_x86_JTI4_3
	.long	301b-.L1_x86_JTI4_3
	.long	301b-.L1_x86_JTI4_3
	.long	301b-.L1_x86_JTI4_3
	.long	122b-.L1_x86_JTI4_3
.L1_x86_JTI4_4:
	.long	313b-.L1_x86_JTI4_4
	.long	318b-.L1_x86_JTI4_4
	.long	316b-.L1_x86_JTI4_4
	.long	317b-.L1_x86_JTI4_4
	.long	314b-.L1_x86_JTI4_4

	vj_function	b2_commands..arguments..message_of_1_x86
	pushq	%rbx
	subq	$48, %rsp
	movq	%rdi, %rbx
	xorps	%xmm0, %xmm0
	movaps	%xmm0, 32(%rsp)
	movaps	%xmm0, 16(%rsp)
	cmpq	$1, %rdx
	je	1f
	testq	%rdx, %rdx
	jne	2f
	movq	$1, 24(%rsp)
	movl	$1, %eax
	jmp	3f
1:
	cmpb	$45, (%rsi)
	jne	2f
	leaq	15(%rsp), %rax
	movq	%rax, 24(%rsp)
	movaps	%xmm0, 32(%rsp)
	xorl	%eax, %eax
	jmp	3f
2:
	leaq	16(%rsp), %rdi
	callq	b2_commands..arguments..bytes_of_1_x86
	movzbl	16(%rsp), %eax
3:
	movq	%rax, (%rbx)
	movq	24(%rsp), %rax
	movq	%rax, 8(%rbx)
	movq	32(%rsp), %rax
	movq	%rax, 16(%rbx)
	movq	40(%rsp), %rax
	movq	%rax, 24(%rbx)
	addq	$48, %rsp
	popq	%rbx
	retq
	vj_end	b2_commands..arguments..message_of_1_x86

	vj_function	b2_commands..arguments..bytes_of_1_x86
	pushq	%r15
	pushq	%r14
	pushq	%r13
	pushq	%r12
	pushq	%rbx
	subq	$16, %rsp
	testb	$1, %dl
	jne	1f
	testq	%rdx, %rdx
	je	2f
	movq	%rsi, %r12
	movq	%rdi, %r15
	movq	%rdx, %r13
	movq	%rdx, %rbx
	shrq	%rbx
	movl	$1, %r14d
	movl	$1, %esi
	movq	%rbx, %rdi
	vj_call	rattle_alloc
	testb	$1, %al
	je	4f
	cmpq	$2, %r13
	jne	5f
	xorl	%r14d, %r14d
	jmp	6f
1:
	movl	$1, %r14d
	xorl	%ebx, %ebx
	movl	$1, %edx
	jmp	16f
2:
	leaq	15(%rsp), %rdx
	xorl	%ebx, %ebx
3:
	xorl	%r14d, %r14d
	jmp	16f
4:
	movl	$8, %edx
	xorl	%ebx, %ebx
	jmp	15f
5:
	leaq	-1(%rbx), %r14
	movq	%rdx, %rdi
	xorl	%esi, %esi
	movq	%rdx, %r13
	movq	%r14, %rdx
	vj_c_call	memset
	movq	%r13, %rdx
6:
	movq	%r12, %rax
	movb	$0, (%rdx,%r14)
	incq	%r14
	cmpq	%r14, %rbx
	jne	14f
	xorl	%ecx, %ecx
	jmp	9f
	.p2align	4
7:
	addb	$-48, %dil
8:
	shlb	$4, %sil
	addb	%dil, %sil
	movb	%sil, (%rdx,%rcx)
	incq	%rcx
	cmpq	%rcx, %r14
	je	17f
9:
	movzbl	(%rax,%rcx,2), %esi
	cmpb	$48, %sil
	jb	14f
	movzbl	1(%rax,%rcx,2), %edi
	cmpb	$57, %sil
	ja	10f
	addb	$-48, %sil
	jmp	12f
	.p2align	4
10:
	cmpb	$65, %sil
	jb	14f
	cmpb	$70, %sil
	ja	11f
	addb	$-55, %sil
	jmp	12f
11:
	leal	-97(%rsi), %r8d
	cmpb	$5, %r8b
	ja	14f
	addb	$-87, %sil
12:
	cmpb	$48, %dil
	jb	14f
	cmpb	$57, %dil
	jbe	7b
	cmpb	$65, %dil
	jb	14f
	cmpb	$70, %dil
	ja	13f
	addb	$-55, %dil
	jmp	8b
13:
	leal	-97(%rdi), %r8d
	cmpb	$5, %r8b
	ja	14f
	addb	$-87, %dil
	jmp	8b
14:
	movq	%rdx, %rdi
	vj_call	rattle_dealloc
	movl	$1, %r14d
	xorl	%ebx, %ebx
	movl	$1, %edx
15:
	movq	%r15, %rdi
16:
	movq	%r14, (%rdi)
	movq	%rdx, 8(%rdi)
	movq	%rbx, 16(%rdi)
	movq	%rbx, 24(%rdi)
	addq	$16, %rsp
	popq	%rbx
	popq	%r12
	popq	%r13
	popq	%r14
	popq	%r15
	retq
17:
	movq	%r15, %rdi
	jmp	3b
	vj_end	b2_commands..arguments..bytes_of_1_x86

	vj_function	b2_commands..tree_arguments..Root..from_words_1_x86
	pushq	%rbp
	pushq	%r15
	pushq	%r14
	pushq	%rbx
	subq	$104, %rsp
	xorps	%xmm0, %xmm0
	movaps	%xmm0, 80(%rsp)
	movaps	%xmm0, 64(%rsp)
	movaps	%xmm0, 48(%rsp)
	movaps	%xmm0, 32(%rsp)
	movaps	%xmm0, 16(%rsp)
	movaps	%xmm0, (%rsp)
	movq	$0, 96(%rsp)
	testq	%rcx, %rcx
	je	3f
	cmpq	$4, 8(%rdx)
	jne	3f
	movq	(%rdx), %rax
	movl	(%rax), %r8d
	movq	%r8, %rax
	shlq	$32, %rax
	orq	%r8, %rax
	movabsq	$3906083722225857138, %r8
	cmpq	%r8, %rax
	jle	1f
	movabsq	$3906083722225857139, %r8
	cmpq	%r8, %rax
	je	3f
	movabsq	$4049353312878866786, %r8
	cmpq	%r8, %rax
	je	2f
	movabsq	$4049353385893310835, %rcx
	cmpq	%rcx, %rax
	jmp	3f
1:
	movabsq	$3616730671620371810, %r8
	cmpq	%r8, %rax
	je	6f
	movabsq	$3906083649211413090, %r8
	cmpq	%r8, %rax
	jne	3f
	movl	$256, %ebx
	cmpq	$1, %rcx
	je	3f
	jmp	7f
2:
	xorl	%ebx, %ebx
	cmpq	$1, %rcx
	jne	7f
3:
	movq	$1, (%rdi)
4:
	movups	%xmm0, 8(%rdi)
	movups	%xmm0, 24(%rdi)
	movups	%xmm0, 40(%rdi)
	movups	%xmm0, 56(%rdi)
	movups	%xmm0, 72(%rdi)
	movups	%xmm0, 88(%rdi)
	movq	$0, 104(%rdi)
5:
	addq	$104, %rsp
	popq	%rbx
	popq	%r14
	popq	%r15
	popq	%rbp
	retq
6:
	movl	$512, %ebx
	cmpq	$1, %rcx
	je	3b
7:
	movq	32(%rdx), %rax
	leaq	-1(%rax), %r8
	cmpq	$9, %r8
	ja	10f
	movq	24(%rdx), %r8
	cmpq	$2, %rax
	jb	8f
	cmpb	$48, (%r8)
	je	10f
8:
	addq	$48, %rdx
	addq	$-2, %rcx
	xorl	%r9d, %r9d
	xorl	%r10d, %r10d
	.p2align	4
9:
	movzbl	(%r8,%r10), %r11d
	addb	$-48, %r11b
	cmpb	$9, %r11b
	ja	10f
	leaq	(%r9,%r9,4), %r9
	movzbl	%r11b, %r11d
	leaq	(%r11,%r9,2), %r9
	incq	%r10
	cmpq	%r10, %rax
	jne	9b
	testq	%r9, %r9
	je	10f
	movq	%r9, %rax
	shrq	$32, %rax
	movabsq	$4294967296, %r14
	cmpq	%r14, %r9
	cmovbq	%r9, %r14
	testq	%rax, %rax
	jne	10f
	movl	%esi, %ebp
	movq	%rdi, %r15
	movq	%rsp, %rdi
	xorl	%esi, %esi
	callq	b2_commands..arguments..Options..from_words_1_x86
	movq	8(%rsp), %rcx
	movq	16(%rsp), %rax
	cmpb	$0, (%rsp)
	je	11f
	movzbl	%cl, %ecx
	movq	$1, (%r15)
	movq	%rcx, 8(%r15)
	movq	%rax, 16(%r15)
	xorps	%xmm0, %xmm0
	movups	%xmm0, 24(%r15)
	movups	%xmm0, 40(%r15)
	movups	%xmm0, 56(%r15)
	movups	%xmm0, 72(%r15)
	movups	%xmm0, 88(%r15)
	movq	$0, 104(%r15)
	jmp	5b
10:
	movq	$1, (%rdi)
	xorps	%xmm0, %xmm0
	jmp	4b
11:
	movzbl	%bpl, %edx
	orq	%rdx, %rbx
	movq	$0, (%r15)
	shlq	$32, %r14
	orq	%rbx, %r14
	movq	%r14, 8(%r15)
	movq	%rcx, 16(%r15)
	movq	%rax, 24(%r15)
	movups	24(%rsp), %xmm0
	movups	40(%rsp), %xmm1
	movups	56(%rsp), %xmm2
	movups	72(%rsp), %xmm3
	movups	%xmm0, 32(%r15)
	movups	%xmm1, 48(%r15)
	movups	%xmm2, 64(%r15)
	movups	%xmm3, 80(%r15)
	movups	88(%rsp), %xmm0
	movups	%xmm0, 96(%r15)
	jmp	5b
	vj_end	b2_commands..tree_arguments..Root..from_words_1_x86

	vj_function	core..lang..str_eq_1_x86
	cmpq	%rcx, %rsi
	jne	1f
	cmpq	$7, %rsi
	ja	2f
	cmpq	$4, %rsi
	jb	3f
	movl	(%rdi), %ecx
	movl	-4(%rdi,%rsi), %eax
	shlq	$32, %rax
	orq	%rcx, %rax
	bswapq	%rax
	movl	(%rdx), %edi
	movl	-4(%rdx,%rsi), %ecx
	shlq	$32, %rcx
	orq	%rdi, %rcx
	bswapq	%rcx
	cmpq	%rcx, %rax
	sete	%al
	retq
1:
	xorl	%eax, %eax
	retq
2:
	movq	(%rdi), %rax
	xorq	(%rdx), %rax
	movq	-8(%rdi,%rsi), %rcx
	xorq	-8(%rdx,%rsi), %rcx
	orq	%rax, %rcx
	sete	%al
	retq
3:
	movzbl	(%rdi), %eax
	movzbl	1(%rdi), %ecx
	shll	$16, %eax
	shll	$8, %ecx
	orl	%eax, %ecx
	movzbl	-1(%rdi,%rsi), %eax
	orq	%rcx, %rax
	movzbl	(%rdx), %ecx
	movzbl	1(%rdx), %edi
	shll	$16, %ecx
	shll	$8, %edi
	orl	%ecx, %edi
	movzbl	-1(%rdx,%rsi), %ecx
	orq	%rdi, %rcx
	cmpq	%rcx, %rax
	sete	%al
	retq
	vj_end	core..lang..str_eq_1_x86

	vj_function	b2_commands..task..Task..require_no_more_words_1_x86
	pushq	%rbp
	pushq	%r15
	pushq	%r14
	pushq	%r13
	pushq	%r12
	pushq	%rbx
	subq	$104, %rsp
	movq	%rdi, %rbx
	movzbl	(%rsi), %r12d
	movq	8(%rsi), %r13
	movq	16(%rsi), %rcx
	movq	24(%rsi), %rax
	movq	%rax, 16(%rsp)
	movq	32(%rsi), %rax
	movq	%rax, (%rsp)
	movq	40(%rsi), %r11
	movq	48(%rsi), %r9
	movq	56(%rsi), %rax
	movq	%rax, 88(%rsp)
	movq	64(%rsi), %r15
	movq	72(%rsi), %r14
	movq	80(%rsi), %r10
	movq	88(%rsi), %rdi
	movq	96(%rsi), %r8
	movq	104(%rsi), %rax
	movq	%rax, 8(%rsp)
	movq	120(%rsi), %rbp
	testq	%rdx, %rdx
	je	4f
	movq	(%rsp), %rsi
	movq	%rcx, %rdx
	movl	$1, %eax
	movq	%rax, 96(%rsp)
	movl	%r12d, %eax
	leaq	.L1_x86_JTI9_0(%rip), %rcx
	movslq	(%rcx,%rax,4), %rax
	addq	%rcx, %rax
	notrack	jmpq	*%rax
1:
	movq	%r14, %r12
	cmpb	$1, %sil
	setne	%al
	cmpq	$0, 88(%rsp)
	sete	%cl
	orb	%al, %cl
	jne	2f
	movq	%rdi, %r13
	movq	%r11, %rdi
	movq	%r8, %r14
	vj_call	rattle_dealloc
	movq	%r13, %rdi
	movq	%r14, %r8
2:
	cmpb	$1, %r15b
	setne	%al
	testq	%rdi, %rdi
	sete	%cl
	orb	%al, %cl
	movq	8(%rsp), %r14
	jne	3f
	movq	%r12, %rdi
	movq	%r8, %r15
	vj_call	rattle_dealloc
	movq	%r15, %r8
3:
	cmpb	$1, %r8b
	setne	%al
	testq	%rbp, %rbp
	sete	%cl
	orb	%al, %cl
	jne	15f
	movq	%r14, %rdi
	jmp	14f
4:
	movq	%rcx, 64(%rsp)
	shrq	$8, %rcx
	movq	(%rsp), %rdx
	shrq	$8, %rdx
	movq	%rdi, 40(%rsp)
	movq	%r8, %rdi
	movq	%r11, %r8
	shrq	$8, %r8
	movq	%r9, 56(%rsp)
	shrq	$8, %r9
	movq	%r10, %rax
	movq	%r15, %r10
	shrq	$8, %r10
	movq	%r11, 48(%rsp)
	movq	%r14, %r11
	shrq	$8, %r11
	movq	%rbp, 80(%rsp)
	movq	%rax, %rbp
	movq	%rax, 32(%rsp)
	shrq	$8, %rbp
	movq	%rdi, %rax
	shrq	$8, %rax
	movq	%r14, 24(%rsp)
	movzbl	3(%rsi), %r14d
	shll	$24, %r14d
	orl	%r12d, %r14d
	movzbl	2(%rsi), %r12d
	shll	$16, %r12d
	orl	%r12d, %r14d
	movq	112(%rsi), %r12
	movq	%r12, 72(%rsp)
	movzbl	1(%rsi), %esi
	shll	$8, %esi
	orl	%esi, %r14d
	movq	$0, 96(%rsp)
	movq	88(%rsp), %r12
	jmp	16f
5:
	cmpb	$1, %dl
	setne	%al
	testq	%r11, %r11
	sete	%cl
	orb	%al, %cl
	jne	6f
	movq	%rdi, %r12
	movq	16(%rsp), %rdi
	movq	%r9, %r15
	movq	%r10, %r13
	vj_call	rattle_dealloc
	movq	%r13, %r10
	movq	%r12, %rdi
	movq	%r15, %r9
6:
	cmpb	$1, %r9b
	setne	%al
	testq	%r14, %r14
	sete	%cl
	orb	%al, %cl
	movq	8(%rsp), %r14
	movq	88(%rsp), %rax
	jne	7f
	movq	%rdi, %r15
	movq	%rax, %rdi
	movq	%r10, %r12
	vj_call	rattle_dealloc
	movq	%r12, %r10
	movq	%r15, %rdi
7:
	cmpb	$1, %r10b
	setne	%al
	testq	%r14, %r14
	sete	%cl
	orb	%al, %cl
	je	14f
	jmp	15f
8:
	testq	%rsi, %rsi
	je	15f
	movq	%rdx, %rdi
	jmp	14f
9:
	cmpb	$1, %r13b
	setne	%al
	testq	%rsi, %rsi
	sete	%cl
	orb	%al, %cl
	jne	10f
	movq	%rdx, %rdi
	movq	%r9, %r12
	movq	%r8, (%rsp)
	movq	%r10, %r13
	movq	%r11, %rbp
	vj_call	rattle_dealloc
	movq	%rbp, %r11
	movq	%r13, %r10
	movq	(%rsp), %r8
	movq	%r12, %r9
10:
	cmpb	$1, %r11b
	setne	%al
	testq	%r15, %r15
	sete	%cl
	orb	%al, %cl
	jne	11f
	movq	%r9, %rdi
	movq	%r8, %r15
	movq	%r10, %r12
	vj_call	rattle_dealloc
	movq	%r12, %r10
	movq	%r15, %r8
11:
	cmpb	$1, %r14b
	setne	%al
	testq	%r8, %r8
	sete	%cl
	orb	%al, %cl
	jne	15f
	movq	%r10, %rdi
	jmp	14f
12:
	testq	%r11, %r11
	movq	16(%rsp), %rdi
	je	13f
	movq	%r9, %r14
	vj_call	rattle_dealloc
	movq	%r14, %r9
13:
	testq	%r15, %r15
	je	15f
	movq	%r9, %rdi
14:
	vj_call	rattle_dealloc
15:
	xorl	%ecx, %ecx
	xorl	%edx, %edx
	xorl	%r8d, %r8d
	xorl	%r9d, %r9d
	xorl	%r10d, %r10d
	xorl	%r11d, %r11d
	xorl	%ebp, %ebp
	xorl	%eax, %eax
	movq	$0, 8(%rsp)
	movq	$0, 72(%rsp)
	movq	$0, 80(%rsp)
	movq	$0, 64(%rsp)
	movq	$0, 16(%rsp)
	movq	$0, (%rsp)
	movq	$0, 48(%rsp)
	movq	$0, 56(%rsp)
	xorl	%r12d, %r12d
	xorl	%r15d, %r15d
	movq	$0, 24(%rsp)
	movq	$0, 32(%rsp)
	movq	$0, 40(%rsp)
	xorl	%edi, %edi
	xorl	%r14d, %r14d
	xorl	%r13d, %r13d
16:
	movq	96(%rsp), %rsi
	movq	%rsi, (%rbx)
	movl	%r14d, 8(%rbx)
	movq	%r13, 16(%rbx)
	movq	64(%rsp), %rsi
	movb	%sil, 24(%rbx)
	movq	%rcx, %rsi
	shrq	$48, %rsi
	movb	%sil, 31(%rbx)
	movl	%ecx, 25(%rbx)
	shrq	$32, %rcx
	movw	%cx, 29(%rbx)
	movq	16(%rsp), %rcx
	movq	%rcx, 32(%rbx)
	movq	(%rsp), %rcx
	movb	%cl, 40(%rbx)
	movq	%rdx, %rcx
	shrq	$48, %rcx
	movb	%cl, 47(%rbx)
	movl	%edx, 41(%rbx)
	shrq	$32, %rdx
	movw	%dx, 45(%rbx)
	movq	48(%rsp), %rcx
	movb	%cl, 48(%rbx)
	movq	%r8, %rcx
	shrq	$48, %rcx
	movb	%cl, 55(%rbx)
	movl	%r8d, 49(%rbx)
	shrq	$32, %r8
	movw	%r8w, 53(%rbx)
	movq	56(%rsp), %rcx
	movb	%cl, 56(%rbx)
	movq	%r9, %rcx
	shrq	$48, %rcx
	movb	%cl, 63(%rbx)
	movl	%r9d, 57(%rbx)
	shrq	$32, %r9
	movw	%r9w, 61(%rbx)
	movq	%r12, 64(%rbx)
	movb	%r15b, 72(%rbx)
	movq	%r10, %rcx
	shrq	$48, %rcx
	movb	%cl, 79(%rbx)
	movl	%r10d, 73(%rbx)
	shrq	$32, %r10
	movw	%r10w, 77(%rbx)
	movq	24(%rsp), %rcx
	movb	%cl, 80(%rbx)
	movq	%r11, %rcx
	shrq	$48, %rcx
	movb	%cl, 87(%rbx)
	movl	%r11d, 81(%rbx)
	shrq	$32, %r11
	movw	%r11w, 85(%rbx)
	movq	32(%rsp), %rcx
	movb	%cl, 88(%rbx)
	movq	%rbp, %rcx
	shrq	$48, %rcx
	movb	%cl, 95(%rbx)
	movl	%ebp, 89(%rbx)
	shrq	$32, %rbp
	movw	%bp, 93(%rbx)
	movq	40(%rsp), %rcx
	movq	%rcx, 96(%rbx)
	movb	%dil, 104(%rbx)
	movq	%rax, %rcx
	shrq	$48, %rcx
	movb	%cl, 111(%rbx)
	movl	%eax, 105(%rbx)
	shrq	$32, %rax
	movw	%ax, 109(%rbx)
	movq	8(%rsp), %rax
	movq	%rax, 112(%rbx)
	movq	72(%rsp), %rax
	movq	%rax, 120(%rbx)
	movq	80(%rsp), %rax
	movq	%rax, 128(%rbx)
	addq	$104, %rsp
	popq	%rbx
	popq	%r12
	popq	%r13
	popq	%r14
	popq	%r15
	popq	%rbp
	retq
	vj_end	b2_commands..task..Task..require_no_more_words_1_x86

	vj_data	b2_commands..task..Task..require_no_more_words_1_x86
	.p2align	2, 0x0
.L1_x86_JTI9_0:
	.long	9b-.L1_x86_JTI9_0
	.long	12b-.L1_x86_JTI9_0
	.long	5b-.L1_x86_JTI9_0
	.long	1b-.L1_x86_JTI9_0
	.long	1b-.L1_x86_JTI9_0
	.long	8b-.L1_x86_JTI9_0
	.long	15b-.L1_x86_JTI9_0
	.long	15b-.L1_x86_JTI9_0

	vj_constants	16
	.p2align	4, 0x0
.L1_x86_CPI10_0:
	.zero	16,127
.L1_x86_CPI10_1:
	.zero	8
	.quad	4412750543122677053
.L1_x86_CPI10_2:
	.zero	16,61
.L1_x86_CPI10_3:
	.zero	8
	.quad	9187201950435737471
	vj_function	b2_commands..arguments..Options..from_words_1_x86
	pushq	%rbp
	pushq	%r15
	pushq	%r14
	pushq	%r13
	pushq	%r12
	pushq	%rbx
	subq	$280, %rsp
	movq	%rdx, 168(%rsp)
	movl	%esi, 156(%rsp)
	movq	%rcx, 160(%rsp)
	testq	%rcx, %rcx
	je	1f
	movq	%rdi, 40(%rsp)
	movabsq	$-9187201950435737472, %r13
	movabsq	$9187201950435737471, %r15
	movabsq	$4412750543122677053, %r12
	movq	$0, 16(%rsp)
	xorl	%ebx, %ebx
	movq	$0, 144(%rsp)
	movq	$0, 8(%rsp)
	movq	$0, 56(%rsp)
	movq	$0, 24(%rsp)
	movq	$0, 120(%rsp)
	movq	$0, 136(%rsp)
	movq	$0, 88(%rsp)
	movq	$0, 128(%rsp)
	movq	$0, 64(%rsp)
	movq	$0, 72(%rsp)
	movq	$0, 80(%rsp)
	jmp	6f
1:
	xorl	%eax, %eax
	xorl	%r11d, %r11d
	xorl	%r14d, %r14d
	xorl	%ebx, %ebx
	xorl	%ecx, %ecx
	xorl	%r10d, %r10d
	xorl	%r15d, %r15d
	xorl	%r9d, %r9d
	xorl	%edx, %edx
	xorl	%r8d, %r8d
	xorl	%r12d, %r12d
	xorl	%esi, %esi
2:
	movq	$0, (%rdi)
	movq	%rax, 8(%rdi)
	movq	%r11, 16(%rdi)
	movq	%r14, 24(%rdi)
	movq	%rbx, 32(%rdi)
	movq	%rcx, 40(%rdi)
	movq	%r10, 48(%rdi)
	movq	%r15, 56(%rdi)
	movq	%r9, 64(%rdi)
	movq	%rdx, 72(%rdi)
	movq	%r8, 80(%rdi)
	movq	%r12, 88(%rdi)
	movq	%rsi, 96(%rdi)
	jmp	36f
3:
	movq	%r12, %rsi
	movq	%r15, %rdx
	vj_c_call	memmove
	movq	32(%rsp), %rbx
4:
	addq	%r15, %r14
	movq	%r14, 144(%rsp)
	movb	$1, %al
	movq	%rax, 56(%rsp)
	.p2align	4
5:
	incq	%rbx
	cmpq	160(%rsp), %rbx
	movabsq	$9187201950435737471, %r15
	movabsq	$4412750543122677053, %r12
	je	38f
6:
	leaq	(%rbx,%rbx,2), %rax
	movq	168(%rsp), %rcx
	movq	(%rcx,%rax,8), %rbp
	movq	8(%rcx,%rax,8), %r14
	pxor	%xmm0, %xmm0
	movdqa	%xmm0, 240(%rsp)
	movdqa	%xmm0, 256(%rsp)
	movdqa	%xmm0, 208(%rsp)
	movdqa	%xmm0, 224(%rsp)
	movdqa	%xmm0, 176(%rsp)
	movdqa	%xmm0, 192(%rsp)
	movq	%rbp, 96(%rsp)
	movq	%r14, 104(%rsp)
	movb	$61, 112(%rsp)
	leaq	113(%rsp), %rax
	movl	$0, 3(%rax)
	movl	$0, (%rax)
	cmpq	$7, %r14
	movq	%rbx, 32(%rsp)
	ja	7f
	testq	%r14, %r14
	je	37f
	cmpb	$61, (%rbp)
	jne	14f
	xorl	%ebx, %ebx
	jmp	16f
	.p2align	4
7:
	movq	(%rbp), %rcx
	movq	%rcx, %rax
	andq	%r15, %rax
	xorq	%r12, %rax
	addq	%r15, %rax
	orq	%rcx, %rax
	andq	%r13, %rax
	cmpq	%r13, %rax
	jne	13f
	movl	$8, %eax
	cmpq	$40, %r14
	jb	9f
	.p2align	4
8:
	movdqu	(%rbp,%rax), %xmm0
	movdqu	16(%rbp,%rax), %xmm1
	movdqa	.L1_x86_CPI10_0(%rip), %xmm2
	movdqa	%xmm0, %xmm3
	pand	%xmm2, %xmm3
	movdqa	.L1_x86_CPI10_1(%rip), %xmm4
	pxor	.L1_x86_CPI10_2(%rip), %xmm1
	pxor	%xmm0, %xmm4
	movq	%r12, %xmm5
	pxor	%xmm5, %xmm3
	pslldq	$8, %xmm5
	pxor	%xmm0, %xmm5
	movdqa	%xmm1, %xmm0
	pand	.L1_x86_CPI10_3(%rip), %xmm4
	pand	%xmm2, %xmm0
	pblendw	$15, %xmm3, %xmm4
	paddq	%xmm2, %xmm4
	por	%xmm5, %xmm4
	paddq	%xmm2, %xmm0
	por	%xmm1, %xmm0
	pand	%xmm4, %xmm0
	pshufd	$238, %xmm0, %xmm1
	pand	%xmm0, %xmm1
	movq	%xmm1, %rcx
	notq	%rcx
	testq	%rcx, %r13
	jne	9f
	addq	$32, %rax
	leaq	96(%rsp), %rdi
	movq	%rax, %rsi
	movq	%r14, %rdx
	callq	core..slice..words..skip_far..d9bf6fcacf29a880_1_x86
	movq	%r14, %rcx
	subq	%rax, %rcx
	cmpq	$31, %rcx
	ja	8b
9:
	movq	%r14, %rcx
	subq	%rax, %rcx
	jmp	12f
	.p2align	4
10:
	xorq	%r13, %rdx
	rep		bsfq	%rdx, %rbx
	shrl	$3, %ebx
	addq	%rax, %rbx
11:
	addq	$8, %rax
	addq	$-8, %rcx
	cmpq	%rax, %rbx
	jb	16f
12:
	cmpq	$9, %rcx
	jb	15f
	movq	(%rbp,%rax), %rsi
	movq	%rsi, %rdx
	andq	%r15, %rdx
	xorq	%r12, %rdx
	addq	%r15, %rdx
	orq	%rsi, %rdx
	andq	%r13, %rdx
	cmpq	%r13, %rdx
	jne	10b
	leaq	8(%rax), %rbx
	jmp	11b
	.p2align	4
13:
	xorq	%r13, %rax
	rep		bsfq	%rax, %rbx
	shrl	$3, %ebx
	jmp	16f
	.p2align	4
14:
	cmpq	$1, %r14
	je	37f
	movl	$1, %ebx
	cmpb	$61, 1(%rbp)
	je	16f
	cmpq	$2, %r14
	je	37f
	movl	$2, %ebx
	cmpb	$61, 2(%rbp)
	je	16f
	cmpq	$3, %r14
	je	37f
	movl	$3, %ebx
	cmpb	$61, 3(%rbp)
	je	16f
	cmpq	$4, %r14
	je	37f
	movl	$4, %ebx
	cmpb	$61, 4(%rbp)
	je	16f
	cmpq	$5, %r14
	je	37f
	movl	$5, %ebx
	cmpb	$61, 5(%rbp)
	je	16f
	cmpq	$6, %r14
	je	37f
	movl	$6, %ebx
	cmpb	$61, 6(%rbp)
	je	16f
	jmp	37f
15:
	movq	-8(%rbp,%r14), %rcx
	movq	%rcx, %rax
	andq	%r15, %rax
	xorq	%r12, %rax
	addq	%r15, %rax
	orq	%rcx, %rax
	andq	%r13, %rax
	cmpq	%r13, %rax
	je	37f
	leaq	-8(%r14), %rcx
	xorq	%r13, %rax
	rep		bsfq	%rax, %rbx
	shrl	$3, %ebx
	addq	%rcx, %rbx
	.p2align	4
16:
	xorl	%eax, %eax
	cmpq	%r14, %rbx
	jae	29f
	leaq	-3(%rbx), %rcx
	cmpq	$9, %rcx
	ja	29f
	leaq	1(%rbx), %rdx
	leaq	(%rbx,%rbp), %r12
	incq	%r12
	movq	%r14, %r15
	subq	%rdx, %r15
	leaq	.L1_x86_JTI10_0(%rip), %rsi
	movslq	(%rsi,%rcx,4), %rdi
	addq	%rsi, %rdi
	xorl	%ecx, %ecx
	notrack	jmpq	*%rdi
17:
	xorl	%eax, %eax
	cmpb	$0, 156(%rsp)
	je	29f
	movzbl	(%rbp), %ecx
	movzbl	1(%rbp), %edx
	shll	$16, %ecx
	shll	$8, %edx
	orl	%ecx, %edx
	movzbl	2(%rbp), %esi
	orq	%rdx, %rsi
	movl	$0, %ecx
	cmpl	$7038329, %esi
	jne	30f
	cmpb	$1, 80(%rsp)
	je	40f
	leaq	240(%rsp), %rdi
	movq	%r12, %rsi
	movq	%r15, %rdx
	callq	b2_commands..arguments..bytes_of_1_x86
	movq	248(%rsp), %rax
	movq	%rax, 72(%rsp)
	movq	256(%rsp), %rax
	movq	%rax, 64(%rsp)
	cmpb	$0, 240(%rsp)
	jne	41f
	movb	$1, %al
	movq	%rax, 80(%rsp)
	movq	264(%rsp), %rax
	movq	%rax, 128(%rsp)
	movq	32(%rsp), %rbx
	jmp	5b
	.p2align	4
18:
	movl	(%rbp), %eax
	movq	%rax, %rcx
	shlq	$32, %rcx
	orq	%rax, %rcx
	xorl	%eax, %eax
	movabsq	$8389187354386784627, %rdx
	cmpq	%rdx, %rcx
	jne	29f
	movl	$0, %ecx
	cmpb	$1, 88(%rsp)
	je	30f
	leaq	208(%rsp), %rdi
	movq	%r12, %rsi
	movq	%r15, %rdx
	callq	b2_commands..arguments..bytes_of_1_x86
	movq	216(%rsp), %rax
	movq	224(%rsp), %rcx
	movq	%rcx, 120(%rsp)
	cmpb	$0, 208(%rsp)
	jne	39f
	movb	$1, %cl
	movq	%rcx, 88(%rsp)
	movq	232(%rsp), %rcx
	movq	%rcx, 24(%rsp)
	movq	%rax, 136(%rsp)
	movq	32(%rsp), %rbx
	jmp	5b
	.p2align	4
19:
	xorl	%eax, %eax
	movabsq	$3270016229404992880, %rcx
	cmpq	%rcx, (%rbp)
	jne	29f
	movabsq	$8392569455256890991, %rcx
	cmpq	%rcx, 4(%rbp)
	jne	29f
	cmpb	$1, 56(%rsp)
	je	29f
	movl	$0, %ecx
	cmpq	%rdx, %r14
	je	30f
	leaq	55(%rsp), %rax
	movq	%rax, 96(%rsp)
	pxor	%xmm0, %xmm0
	leaq	113(%rsp), %rax
	movdqu	%xmm0, -9(%rax)
	leaq	96(%rsp), %rdi
	movq	%r15, %rsi
	callq	std_alloc..vec..Vec..grow_amortized..3378b08034dc46b4_1_x86
	testb	%al, %al
	je	42f
	movq	96(%rsp), %rcx
	movq	104(%rsp), %r14
	movq	112(%rsp), %rax
	movq	%rax, 16(%rsp)
	movq	%rcx, 8(%rsp)
	leaq	(%rcx,%r14), %rdi
	movq	%rdi, %rax
	subq	%r12, %rax
	cmpq	%r15, %rax
	jae	3b
	cmpq	$4, %r15
	jb	20f
	leaq	(%rbx,%rbp), %rax
	notq	%rax
	addq	%rdi, %rax
	cmpq	$32, %rax
	jae	22f
20:
	xorl	%eax, %eax
	movq	32(%rsp), %rbx
	jmp	28f
	.p2align	4
21:
	movl	(%rbp), %eax
	movl	3(%rbp), %ecx
	shlq	$32, %rcx
	orq	%rax, %rcx
	xorl	%eax, %eax
	movabsq	$7020671410765981040, %rdx
	cmpq	%rdx, %rcx
	jne	29f
	movl	$0, %ecx
	cmpb	$1, 56(%rsp)
	je	30f
	leaq	176(%rsp), %rdi
	movq	%r12, %rsi
	movq	%r15, %rdx
	callq	b2_commands..arguments..bytes_of_1_x86
	movq	184(%rsp), %rax
	movq	192(%rsp), %rcx
	cmpb	$0, 176(%rsp)
	jne	30f
	movq	%rcx, 144(%rsp)
	movb	$1, %cl
	movq	%rcx, 56(%rsp)
	movq	200(%rsp), %rcx
	movq	%rcx, 16(%rsp)
	movq	%rax, 8(%rsp)
	movq	32(%rsp), %rbx
	jmp	5b
22:
	cmpq	$32, %r15
	jae	23f
	xorl	%eax, %eax
	movq	32(%rsp), %rbx
	jmp	25f
23:
	movq	%r15, %rax
	andq	$-32, %rax
	leaq	(%rbx,%rbp), %rcx
	addq	$17, %rcx
	movq	8(%rsp), %rdx
	addq	%r14, %rdx
	addq	$16, %rdx
	xorl	%esi, %esi
	.p2align	4
24:
	movdqu	-16(%rcx,%rsi), %xmm0
	movdqu	(%rcx,%rsi), %xmm1
	movdqu	%xmm0, -16(%rdx,%rsi)
	movdqu	%xmm1, (%rdx,%rsi)
	addq	$32, %rsi
	cmpq	%rsi, %rax
	jne	24b
	cmpq	%rax, %r15
	movq	32(%rsp), %rbx
	je	4b
	testb	$28, %r15b
	je	28f
25:
	movq	%rax, %rcx
	movq	%r15, %rax
	andq	$-4, %rax
	.p2align	4
26:
	movl	(%r12,%rcx), %edx
	movl	%edx, (%rdi,%rcx)
	addq	$4, %rcx
	cmpq	%rcx, %rax
	jne	26b
	.p2align	4
27:
	cmpq	%rax, %r15
	je	4b
28:
	movzbl	(%r12,%rax), %ecx
	movb	%cl, (%rdi,%rax)
	incq	%rax
	jmp	27b
29:
	xorl	%ecx, %ecx
30:
	movzbl	%al, %ebx
31:
	movq	40(%rsp), %r14
	movq	16(%rsp), %r15
	movq	8(%rsp), %r12
	movq	24(%rsp), %r13
	movq	%rcx, 64(%rsp)
	cmpb	$1, 80(%rsp)
	jne	33f
	cmpq	$0, 128(%rsp)
	je	33f
32:
	movq	72(%rsp), %rdi
	vj_call	rattle_dealloc
33:
	cmpb	$1, 88(%rsp)
	jne	34f
	testq	%r13, %r13
	je	34f
	movq	136(%rsp), %rdi
	vj_call	rattle_dealloc
34:
	cmpb	$1, 56(%rsp)
	jne	35f
	testq	%r15, %r15
	je	35f
	movq	%r12, %rdi
	vj_call	rattle_dealloc
35:
	movq	$1, (%r14)
	movq	%rbx, 8(%r14)
	movq	64(%rsp), %rax
	movq	%rax, 16(%r14)
	pxor	%xmm0, %xmm0
	movdqu	%xmm0, 24(%r14)
	movdqu	%xmm0, 40(%r14)
	movdqu	%xmm0, 56(%r14)
	movdqu	%xmm0, 72(%r14)
	movdqu	%xmm0, 88(%r14)
36:
	addq	$280, %rsp
	popq	%rbx
	popq	%r12
	popq	%r13
	popq	%r14
	popq	%r15
	popq	%rbp
	retq
37:
	xorl	%ebx, %ebx
	xorl	%ecx, %ecx
	jmp	31b
38:
	movzbl	80(%rsp), %eax
	movzbl	88(%rsp), %ecx
	movzbl	56(%rsp), %edx
	movq	40(%rsp), %rdi
	movq	16(%rsp), %rsi
	movq	8(%rsp), %r8
	movq	24(%rsp), %r9
	movq	136(%rsp), %r10
	movq	72(%rsp), %r11
	movq	128(%rsp), %rbx
	movq	64(%rsp), %r14
	movq	120(%rsp), %r15
	movq	144(%rsp), %r12
	jmp	2b
39:
	movq	120(%rsp), %rcx
	jmp	30b
40:
	xorl	%ebx, %ebx
	movq	$0, 64(%rsp)
	movq	40(%rsp), %r14
	movq	16(%rsp), %r15
	movq	8(%rsp), %r12
	movq	24(%rsp), %r13
	cmpq	$0, 128(%rsp)
	jne	32b
	jmp	33b
41:
	movzbl	72(%rsp), %ebx
	movq	40(%rsp), %r14
	movq	16(%rsp), %r15
	movq	8(%rsp), %r12
	movq	24(%rsp), %r13
	jmp	33b
42:
	cmpq	$0, 112(%rsp)
	je	43f
	movq	96(%rsp), %rdi
	vj_call	rattle_dealloc
43:
	movl	$8, %ebx
	xorl	%ecx, %ecx
	jmp	31b
	vj_end	b2_commands..arguments..Options..from_words_1_x86

	vj_data	b2_commands..arguments..Options..from_words_1_x86
	.p2align	2, 0x0
.L1_x86_JTI10_0:
	.long	17b-.L1_x86_JTI10_0
	.long	18b-.L1_x86_JTI10_0
	.long	30b-.L1_x86_JTI10_0
	.long	30b-.L1_x86_JTI10_0
	.long	21b-.L1_x86_JTI10_0
	.long	30b-.L1_x86_JTI10_0
	.long	30b-.L1_x86_JTI10_0
	.long	30b-.L1_x86_JTI10_0
	.long	30b-.L1_x86_JTI10_0
	.long	19b-.L1_x86_JTI10_0

	vj_constants	16
	.p2align	4, 0x0
.L1_x86_CPI11_0:
	.zero	16,127
	vj_function	core..slice..words..skip_far..d9bf6fcacf29a880_1_x86
	movq	%rsi, %rax
	subq	%rsi, %rdx
	cmpq	$64, %rdx
	jb	2f
	movabsq	$-9187201950435737472, %rcx
	movq	(%rdi), %rsi
	movzbl	16(%rdi), %edi
	movabsq	$72340172838076673, %r8
	imulq	%rdi, %r8
	movq	%r8, %xmm0
	pshufd	$68, %xmm0, %xmm0
	.p2align	4
1:
	movdqu	(%rsi,%rax), %xmm2
	movdqu	16(%rsi,%rax), %xmm3
	movdqu	32(%rsi,%rax), %xmm1
	movdqu	48(%rsi,%rax), %xmm4
	pxor	%xmm0, %xmm1
	pxor	%xmm0, %xmm2
	pxor	%xmm0, %xmm4
	pxor	%xmm0, %xmm3
	movdqa	.L1_x86_CPI11_0(%rip), %xmm5
	movdqa	%xmm3, %xmm6
	pand	%xmm5, %xmm6
	movdqa	%xmm4, %xmm7
	pand	%xmm5, %xmm7
	movdqa	%xmm2, %xmm8
	pand	%xmm5, %xmm8
	movdqa	%xmm1, %xmm9
	pand	%xmm5, %xmm9
	paddq	%xmm5, %xmm9
	paddq	%xmm5, %xmm8
	paddq	%xmm5, %xmm7
	paddq	%xmm5, %xmm6
	por	%xmm3, %xmm6
	por	%xmm4, %xmm7
	pand	%xmm6, %xmm7
	por	%xmm2, %xmm8
	por	%xmm1, %xmm9
	pand	%xmm8, %xmm9
	pand	%xmm7, %xmm9
	pshufd	$238, %xmm9, %xmm1
	pand	%xmm9, %xmm1
	movq	%xmm1, %rdi
	notq	%rdi
	testq	%rdi, %rcx
	jne	2f
	addq	$64, %rax
	addq	$-64, %rdx
	cmpq	$63, %rdx
	ja	1b
2:
	retq
	vj_end	core..slice..words..skip_far..d9bf6fcacf29a880_1_x86

	vj_function	std_io..io..error..last_error_1_x86
	pushq	%rbx
	movq	%rdi, %rbx
	vj_call	rattle_errno
	movl	%eax, %ecx
	movb	$41, %dl
	testl	%eax, %eax
	js	38f
	decl	%eax
	cmpl	$121, %eax
	ja	38f
	leaq	.L1_x86_JTI12_0(%rip), %rsi
	movslq	(%rsi,%rax,4), %rax
	addq	%rsi, %rax
	notrack	jmpq	*%rax
1:
	movb	$1, %dl
	jmp	38f
2:
	movb	$36, %dl
	jmp	38f
3:
	movb	$4, %dl
	jmp	38f
4:
	movb	$7, %dl
	jmp	38f
5:
	movb	$26, %dl
	jmp	38f
6:
	movb	$39, %dl
	jmp	38f
7:
	movb	$9, %dl
	jmp	38f
8:
	movb	$8, %dl
	jmp	38f
9:
	movb	$30, %dl
	jmp	38f
10:
	movb	$25, %dl
	jmp	38f
11:
	movb	$32, %dl
	jmp	38f
12:
	movb	$33, %dl
	jmp	38f
13:
	movb	$22, %dl
	jmp	38f
14:
	movb	$31, %dl
	jmp	38f
15:
	movb	$29, %dl
	jmp	38f
16:
	movb	$18, %dl
	jmp	38f
17:
	movb	$10, %dl
	jmp	38f
18:
	movb	$28, %dl
	jmp	38f
19:
	movb	$14, %dl
	jmp	38f
20:
	movb	$12, %dl
	jmp	38f
21:
	movb	$5, %dl
	jmp	38f
22:
	movb	$3, %dl
	jmp	38f
23:
	xorl	%edx, %edx
	jmp	38f
24:
	movb	$13, %dl
	jmp	38f
25:
	movb	$38, %dl
	jmp	38f
26:
	movb	$11, %dl
	jmp	38f
27:
	movb	$35, %dl
	jmp	38f
28:
	movb	$34, %dl
	jmp	38f
29:
	movb	$20, %dl
	jmp	38f
30:
	movb	$15, %dl
	jmp	38f
31:
	movb	$19, %dl
	jmp	38f
32:
	movb	$16, %dl
	jmp	38f
33:
	movb	$6, %dl
	jmp	38f
34:
	movb	$27, %dl
	jmp	38f
35:
	movb	$24, %dl
	jmp	38f
36:
	movb	$2, %dl
	jmp	38f
37:
	movb	$17, %dl
38:
	movb	$0, (%rbx)
	movb	%dl, 1(%rbx)
	movw	$0, 2(%rbx)
	movl	%ecx, 4(%rbx)
	xorps	%xmm0, %xmm0
	movups	%xmm0, 8(%rbx)
	movups	%xmm0, 24(%rbx)
	movups	%xmm0, 40(%rbx)
	movups	%xmm0, 56(%rbx)
	movups	%xmm0, 72(%rbx)
	popq	%rbx
	retq
	vj_end	std_io..io..error..last_error_1_x86

	vj_data	std_io..io..error..last_error_1_x86
	.p2align	2, 0x0
.L1_x86_JTI12_0:
	.long	1b-.L1_x86_JTI12_0
	.long	23b-.L1_x86_JTI12_0
	.long	38b-.L1_x86_JTI12_0
	.long	27b-.L1_x86_JTI12_0
	.long	38b-.L1_x86_JTI12_0
	.long	38b-.L1_x86_JTI12_0
	.long	28b-.L1_x86_JTI12_0
	.long	38b-.L1_x86_JTI12_0
	.long	38b-.L1_x86_JTI12_0
	.long	38b-.L1_x86_JTI12_0
	.long	24b-.L1_x86_JTI12_0
	.long	25b-.L1_x86_JTI12_0
	.long	1b-.L1_x86_JTI12_0
	.long	38b-.L1_x86_JTI12_0
	.long	38b-.L1_x86_JTI12_0
	.long	18b-.L1_x86_JTI12_0
	.long	20b-.L1_x86_JTI12_0
	.long	14b-.L1_x86_JTI12_0
	.long	38b-.L1_x86_JTI12_0
	.long	19b-.L1_x86_JTI12_0
	.long	30b-.L1_x86_JTI12_0
	.long	29b-.L1_x86_JTI12_0
	.long	38b-.L1_x86_JTI12_0
	.long	38b-.L1_x86_JTI12_0
	.long	38b-.L1_x86_JTI12_0
	.long	15b-.L1_x86_JTI12_0
	.long	34b-.L1_x86_JTI12_0
	.long	35b-.L1_x86_JTI12_0
	.long	10b-.L1_x86_JTI12_0
	.long	37b-.L1_x86_JTI12_0
	.long	11b-.L1_x86_JTI12_0
	.long	26b-.L1_x86_JTI12_0
	.long	38b-.L1_x86_JTI12_0
	.long	38b-.L1_x86_JTI12_0
	.long	9b-.L1_x86_JTI12_0
	.long	12b-.L1_x86_JTI12_0
	.long	38b-.L1_x86_JTI12_0
	.long	2b-.L1_x86_JTI12_0
	.long	32b-.L1_x86_JTI12_0
	.long	16b-.L1_x86_JTI12_0
	.long	38b-.L1_x86_JTI12_0
	.long	38b-.L1_x86_JTI12_0
	.long	38b-.L1_x86_JTI12_0
	.long	38b-.L1_x86_JTI12_0
	.long	38b-.L1_x86_JTI12_0
	.long	38b-.L1_x86_JTI12_0
	.long	38b-.L1_x86_JTI12_0
	.long	38b-.L1_x86_JTI12_0
	.long	38b-.L1_x86_JTI12_0
	.long	38b-.L1_x86_JTI12_0
	.long	38b-.L1_x86_JTI12_0
	.long	38b-.L1_x86_JTI12_0
	.long	38b-.L1_x86_JTI12_0
	.long	38b-.L1_x86_JTI12_0
	.long	38b-.L1_x86_JTI12_0
	.long	38b-.L1_x86_JTI12_0
	.long	38b-.L1_x86_JTI12_0
	.long	38b-.L1_x86_JTI12_0
	.long	38b-.L1_x86_JTI12_0
	.long	38b-.L1_x86_JTI12_0
	.long	38b-.L1_x86_JTI12_0
	.long	38b-.L1_x86_JTI12_0
	.long	38b-.L1_x86_JTI12_0
	.long	38b-.L1_x86_JTI12_0
	.long	38b-.L1_x86_JTI12_0
	.long	38b-.L1_x86_JTI12_0
	.long	38b-.L1_x86_JTI12_0
	.long	38b-.L1_x86_JTI12_0
	.long	38b-.L1_x86_JTI12_0
	.long	38b-.L1_x86_JTI12_0
	.long	38b-.L1_x86_JTI12_0
	.long	38b-.L1_x86_JTI12_0
	.long	38b-.L1_x86_JTI12_0
	.long	38b-.L1_x86_JTI12_0
	.long	38b-.L1_x86_JTI12_0
	.long	38b-.L1_x86_JTI12_0
	.long	38b-.L1_x86_JTI12_0
	.long	38b-.L1_x86_JTI12_0
	.long	38b-.L1_x86_JTI12_0
	.long	38b-.L1_x86_JTI12_0
	.long	38b-.L1_x86_JTI12_0
	.long	38b-.L1_x86_JTI12_0
	.long	38b-.L1_x86_JTI12_0
	.long	38b-.L1_x86_JTI12_0
	.long	38b-.L1_x86_JTI12_0
	.long	38b-.L1_x86_JTI12_0
	.long	38b-.L1_x86_JTI12_0
	.long	38b-.L1_x86_JTI12_0
	.long	38b-.L1_x86_JTI12_0
	.long	38b-.L1_x86_JTI12_0
	.long	38b-.L1_x86_JTI12_0
	.long	38b-.L1_x86_JTI12_0
	.long	38b-.L1_x86_JTI12_0
	.long	38b-.L1_x86_JTI12_0
	.long	2b-.L1_x86_JTI12_0
	.long	38b-.L1_x86_JTI12_0
	.long	38b-.L1_x86_JTI12_0
	.long	8b-.L1_x86_JTI12_0
	.long	7b-.L1_x86_JTI12_0
	.long	17b-.L1_x86_JTI12_0
	.long	21b-.L1_x86_JTI12_0
	.long	38b-.L1_x86_JTI12_0
	.long	33b-.L1_x86_JTI12_0
	.long	22b-.L1_x86_JTI12_0
	.long	38b-.L1_x86_JTI12_0
	.long	38b-.L1_x86_JTI12_0
	.long	4b-.L1_x86_JTI12_0
	.long	38b-.L1_x86_JTI12_0
	.long	38b-.L1_x86_JTI12_0
	.long	13b-.L1_x86_JTI12_0
	.long	36b-.L1_x86_JTI12_0
	.long	38b-.L1_x86_JTI12_0
	.long	3b-.L1_x86_JTI12_0
	.long	38b-.L1_x86_JTI12_0
	.long	6b-.L1_x86_JTI12_0
	.long	31b-.L1_x86_JTI12_0
	.long	38b-.L1_x86_JTI12_0
	.long	38b-.L1_x86_JTI12_0
	.long	38b-.L1_x86_JTI12_0
	.long	38b-.L1_x86_JTI12_0
	.long	38b-.L1_x86_JTI12_0
	.long	5b-.L1_x86_JTI12_0

	vj_function	blake2_state..blake2b..State..absorb_blocks_1_x86
	pushq	%r15
	pushq	%r14
	pushq	%rbx
	subq	$144, %rsp
	movq	%rdx, %r14
	movq	%rsi, %rdx
	movq	%rdi, %rbx
	movl	136(%rdi), %r15d
	movl	$128, %eax
	subq	%r15, %rax
	cmpq	%rax, %r14
	jbe	1f
	movq	128(%rbx), %rax
	movups	(%rbx), %xmm0
	movups	16(%rbx), %xmm1
	movups	32(%rbx), %xmm2
	movups	48(%rbx), %xmm3
	movups	80(%rbx), %xmm4
	movups	64(%rbx), %xmm5
	movups	112(%rbx), %xmm6
	movups	96(%rbx), %xmm7
	xorl	%ecx, %ecx
	cmpl	$0, 148(%rbx)
	setne	%cl
	movaps	%xmm0, (%rsp)
	movaps	%xmm1, 16(%rsp)
	movaps	%xmm2, 32(%rsp)
	movaps	%xmm3, 48(%rsp)
	movaps	%xmm5, 64(%rsp)
	movaps	%xmm4, 80(%rsp)
	movaps	%xmm7, 96(%rsp)
	movaps	%xmm6, 112(%rsp)
	movq	%rax, 128(%rsp)
	movq	%rcx, 136(%rsp)
	leaq	152(%rbx), %rdi
	movq	%rsp, %r8
	movq	%r15, %rsi
	movq	%r14, %rcx
	callq	blake2_digest..buffer..digest_into..33c1e97afcdf8a5d_1_x86
	movl	%eax, 136(%rbx)
	movaps	(%rsp), %xmm0
	movups	%xmm0, (%rbx)
	movaps	16(%rsp), %xmm0
	movups	%xmm0, 16(%rbx)
	movaps	32(%rsp), %xmm0
	movups	%xmm0, 32(%rbx)
	movaps	48(%rsp), %xmm0
	movups	%xmm0, 48(%rbx)
	movq	128(%rsp), %rax
	movq	%rax, 128(%rbx)
	jmp	9f
1:
	leaq	(%rbx,%r15), %rdi
	addq	$152, %rdi
	movq	%rdi, %rax
	subq	%rdx, %rax
	cmpq	%r14, %rax
	jae	7f
	cmpq	$4, %r14
	jb	2f
	leaq	(%rbx,%r15), %rax
	subq	%rdx, %rax
	addq	$152, %rax
	cmpq	$32, %rax
	jae	10f
2:
	xorl	%eax, %eax
3:
	movq	%r14, %rsi
	movq	%rax, %rcx
	andq	$3, %rsi
	je	5f
	movq	%rax, %rcx
	.p2align	4
4:
	movzbl	(%rdx,%rcx), %r8d
	movb	%r8b, (%rdi,%rcx)
	incq	%rcx
	decq	%rsi
	jne	4b
5:
	subq	%r14, %rax
	cmpq	$-4, %rax
	ja	8f
	leaq	(%r15,%rbx), %rax
	addq	$155, %rax
	.p2align	4
6:
	movzbl	(%rdx,%rcx), %esi
	movb	%sil, -3(%rax,%rcx)
	movzbl	1(%rdx,%rcx), %esi
	movb	%sil, -2(%rax,%rcx)
	movzbl	2(%rdx,%rcx), %esi
	movb	%sil, -1(%rax,%rcx)
	movzbl	3(%rdx,%rcx), %esi
	movb	%sil, (%rax,%rcx)
	addq	$4, %rcx
	cmpq	%rcx, %r14
	jne	6b
	jmp	8f
7:
	movq	%rdx, %rsi
	movq	%r14, %rdx
	vj_c_call	memmove
8:
	addl	%r15d, %r14d
	movl	%r14d, 136(%rbx)
9:
	addq	$144, %rsp
	popq	%rbx
	popq	%r14
	popq	%r15
	retq
10:
	cmpq	$32, %r14
	jae	11f
	xorl	%eax, %eax
	jmp	13f
11:
	movq	%r14, %rax
	andq	$-32, %rax
	leaq	(%r15,%rbx), %rcx
	addq	$168, %rcx
	xorl	%esi, %esi
	.p2align	4
12:
	movups	(%rdx,%rsi), %xmm0
	movups	16(%rdx,%rsi), %xmm1
	movups	%xmm0, -16(%rcx,%rsi)
	movups	%xmm1, (%rcx,%rsi)
	addq	$32, %rsi
	cmpq	%rsi, %rax
	jne	12b
	cmpq	%rax, %r14
	je	8b
	testb	$28, %r14b
	je	3b
13:
	movq	%rax, %rcx
	movq	%r14, %rax
	andq	$-4, %rax
	.p2align	4
14:
	movl	(%rdx,%rcx), %esi
	movl	%esi, (%rdi,%rcx)
	addq	$4, %rcx
	cmpq	%rcx, %rax
	jne	14b
	cmpq	%rax, %r14
	je	8b
	jmp	3b
	vj_end	blake2_state..blake2b..State..absorb_blocks_1_x86

	vj_function	blake2_digest..buffer..digest_into..33c1e97afcdf8a5d_1_x86
	pushq	%rbp
	pushq	%r15
	pushq	%r14
	pushq	%r13
	pushq	%r12
	pushq	%rbx
	pushq	%rax
	movq	%rcx, %r15
	movq	%rdx, %r14
	movq	%rdi, %rbx
	movl	$128, %r13d
	subq	%rsi, %r13
	movq	%rcx, %rbp
	subq	%r13, %rbp
	jbe	2f
	movq	%r8, %r12
	testq	%rsi, %rsi
	je	10f
	leaq	(%rbx,%rsi), %rdi
	movq	%rdi, %rax
	subq	%r14, %rax
	cmpq	%r13, %rax
	jae	11f
	cmpq	$4, %r13
	jb	1f
	cmpq	$32, %rax
	jae	13f
1:
	xorl	%eax, %eax
	jmp	22f
2:
	leaq	(%rbx,%rsi), %rdi
	movq	%rdi, %rax
	subq	%r14, %rax
	cmpq	%r15, %rax
	jae	8f
	cmpq	$4, %r15
	jb	3f
	cmpq	$32, %rax
	jae	12f
3:
	xorl	%eax, %eax
4:
	movq	%r15, %rdx
	movq	%rax, %rcx
	andq	$3, %rdx
	je	6f
	movq	%rax, %rcx
	.p2align	4
5:
	movzbl	(%r14,%rcx), %r8d
	movb	%r8b, (%rdi,%rcx)
	incq	%rcx
	decq	%rdx
	jne	5b
6:
	subq	%r15, %rax
	cmpq	$-4, %rax
	ja	9f
	leaq	(%rsi,%rbx), %rax
	addq	$3, %rax
	.p2align	4
7:
	movzbl	(%r14,%rcx), %edx
	movb	%dl, -3(%rax,%rcx)
	movzbl	1(%r14,%rcx), %edx
	movb	%dl, -2(%rax,%rcx)
	movzbl	2(%r14,%rcx), %edx
	movb	%dl, -1(%rax,%rcx)
	movzbl	3(%r14,%rcx), %edx
	movb	%dl, (%rax,%rcx)
	addq	$4, %rcx
	cmpq	%rcx, %r15
	jne	7b
	jmp	9f
8:
	movq	%rsi, %rbx
	movq	%r14, %rsi
	movq	%r15, %rdx
	vj_c_call	memmove
	movq	%rbx, %rsi
9:
	addq	%rsi, %r15
	jmp	36f
10:
	movq	%r15, %rbp
	jmp	25f
11:
	movq	%r14, %rsi
	movq	%r13, %rdx
	vj_c_call	memmove
	jmp	24f
12:
	cmpq	$32, %r15
	jae	14f
	xorl	%eax, %eax
	jmp	16f
13:
	cmpq	$32, %r13
	jae	18f
	xorl	%eax, %eax
	jmp	20f
14:
	movq	%r15, %rax
	andq	$-32, %rax
	leaq	(%rsi,%rbx), %rcx
	addq	$16, %rcx
	xorl	%edx, %edx
	.p2align	4
15:
	movups	(%r14,%rdx), %xmm0
	movups	16(%r14,%rdx), %xmm1
	movups	%xmm0, -16(%rcx,%rdx)
	movups	%xmm1, (%rcx,%rdx)
	addq	$32, %rdx
	cmpq	%rdx, %rax
	jne	15b
	cmpq	%rax, %r15
	je	9b
	testb	$28, %r15b
	je	4b
16:
	movq	%rax, %rcx
	movq	%r15, %rax
	andq	$-4, %rax
	.p2align	4
17:
	movl	(%r14,%rcx), %edx
	movl	%edx, (%rdi,%rcx)
	addq	$4, %rcx
	cmpq	%rcx, %rax
	jne	17b
	cmpq	%rax, %r15
	je	9b
	jmp	4b
18:
	movq	%r13, %rax
	andq	$-32, %rax
	leaq	(%rsi,%rbx), %rcx
	addq	$16, %rcx
	xorl	%edx, %edx
	.p2align	4
19:
	movups	(%r14,%rdx), %xmm0
	movups	16(%r14,%rdx), %xmm1
	movups	%xmm0, -16(%rcx,%rdx)
	movups	%xmm1, (%rcx,%rdx)
	addq	$32, %rdx
	cmpq	%rdx, %rax
	jne	19b
	cmpq	%rax, %r13
	je	24f
	testb	$28, %r13b
	je	22f
20:
	movq	%rax, %rcx
	movq	%r13, %rax
	andq	$-4, %rax
	.p2align	4
21:
	movl	(%r14,%rcx), %edx
	movl	%edx, (%rdi,%rcx)
	addq	$4, %rcx
	cmpq	%rcx, %rax
	jne	21b
	jmp	23f
22:
	movzbl	(%r14,%rax), %ecx
	movb	%cl, (%rdi,%rax)
	incq	%rax
23:
	cmpq	%rax, %r13
	jne	22b
24:
	addq	%r13, %r14
	movq	128(%r12), %rdx
	subq	$-128, %rdx
	movq	%rdx, 128(%r12)
	movq	%r12, %rdi
	movq	%rbx, %rsi
	xorl	%ecx, %ecx
	xorl	%r8d, %r8d
	vj_call	blake2_compress..compress..blake2b..compress_1_x86
25:
	cmpq	$1, %rbp
	movq	%rbp, (%rsp)
	movq	%rbp, %r13
	adcq	$-1, %r13
	movq	%r13, %rbp
	andq	$-128, %rbp
	shrq	$7, %r13
	je	27f
	movq	%r14, %r15
	.p2align	4
26:
	movq	128(%r12), %rdx
	subq	$-128, %rdx
	movq	%rdx, 128(%r12)
	movq	%r12, %rdi
	movq	%r15, %rsi
	xorl	%ecx, %ecx
	xorl	%r8d, %r8d
	vj_call	blake2_compress..compress..blake2b..compress_1_x86
	subq	$-128, %r15
	decq	%r13
	jne	26b
27:
	leaq	(%r14,%rbp), %rsi
	movq	(%rsp), %r15
	subq	%rbp, %r15
	xorps	%xmm0, %xmm0
	movups	%xmm0, 112(%rbx)
	movups	%xmm0, 96(%rbx)
	movups	%xmm0, 80(%rbx)
	movups	%xmm0, 64(%rbx)
	movups	%xmm0, 48(%rbx)
	movups	%xmm0, 32(%rbx)
	movups	%xmm0, 16(%rbx)
	movups	%xmm0, (%rbx)
	movq	%rbx, %rax
	subq	%rsi, %rax
	cmpq	%r15, %rax
	jae	28f
	cmpq	$4, %r15
	jae	29f
	xorl	%eax, %eax
	jmp	35f
28:
	movq	%rbx, %rdi
	movq	%r15, %rdx
	vj_c_call	memmove
	jmp	36f
29:
	cmpq	$32, %rax
	jae	30f
	xorl	%eax, %eax
	jmp	35f
30:
	cmpq	$32, %r15
	jae	31f
	xorl	%eax, %eax
	jmp	33f
31:
	movq	(%rsp), %rdx
	movl	%edx, %ecx
	andl	$31, %ecx
	movq	%r15, %rax
	subq	%rcx, %rax
	andq	$-32, %rdx
	subq	%rbp, %rdx
	leaq	(%r14,%rbp), %rdi
	addq	$16, %rdi
	xorl	%r8d, %r8d
	.p2align	4
32:
	movups	-16(%rdi,%r8), %xmm0
	movups	(%rdi,%r8), %xmm1
	movups	%xmm0, (%rbx,%r8)
	movups	%xmm1, 16(%rbx,%r8)
	addq	$32, %r8
	cmpq	%r8, %rdx
	jne	32b
	testq	%rcx, %rcx
	je	36f
	cmpl	$4, %ecx
	jb	35f
33:
	movq	%rax, %rcx
	movq	(%rsp), %rdi
	andl	$3, %edi
	movq	%r15, %rax
	subq	%rdi, %rax
	.p2align	4
34:
	movl	(%rsi,%rcx), %edx
	movl	%edx, (%rbx,%rcx)
	addq	$4, %rcx
	cmpq	%rcx, %rax
	jne	34b
	testq	%rdi, %rdi
	je	36f
	.p2align	4
35:
	movzbl	(%rsi,%rax), %ecx
	movb	%cl, (%rbx,%rax)
	incq	%rax
	cmpq	%rax, %r15
	jne	35b
36:
	movq	%r15, %rax
	addq	$8, %rsp
	popq	%rbx
	popq	%r12
	popq	%r13
	popq	%r14
	popq	%r15
	popq	%rbp
	retq
	vj_end	blake2_digest..buffer..digest_into..33c1e97afcdf8a5d_1_x86

	vj_function	blake2_state..blake2s..State..absorb_blocks_1_x86
	pushq	%rbp
	pushq	%r15
	pushq	%r14
	pushq	%r13
	pushq	%r12
	pushq	%rbx
	subq	$104, %rsp
	movq	%rsi, %r14
	movq	%rdi, %rbx
	movzwl	72(%rdi), %r13d
	movl	$64, %r12d
	subq	%r13, %r12
	movq	%rdx, %rbp
	subq	%r12, %rbp
	jbe	1f
	movq	64(%rbx), %r8
	movups	(%rbx), %xmm0
	movups	16(%rbx), %xmm1
	movups	32(%rbx), %xmm2
	movups	48(%rbx), %xmm3
	xorl	%eax, %eax
	cmpw	$0, 78(%rbx)
	setne	%al
	movaps	%xmm0, 16(%rsp)
	movaps	%xmm1, 32(%rsp)
	movaps	%xmm2, 48(%rsp)
	movaps	%xmm3, 64(%rsp)
	movq	%r8, 80(%rsp)
	movq	%rax, 88(%rsp)
	leaq	80(%rbx), %r15
	testq	%r13, %r13
	je	9f
	leaq	(%r15,%r13), %rdi
	movq	%rdi, %rax
	subq	%r14, %rax
	cmpq	%r12, %rax
	jae	10f
	cmpl	$4, %r12d
	jae	11f
	xorl	%eax, %eax
	jmp	22f
1:
	leaq	(%rbx,%r13), %rdi
	addq	$80, %rdi
	movq	%rdi, %rax
	subq	%r14, %rax
	cmpq	%rdx, %rax
	jae	7f
	cmpq	$4, %rdx
	jb	2f
	leaq	(%rbx,%r13), %rax
	subq	%r14, %rax
	addq	$80, %rax
	cmpq	$32, %rax
	jae	12f
2:
	xorl	%eax, %eax
3:
	movq	%rdx, %rsi
	movq	%rax, %rcx
	andq	$3, %rsi
	je	5f
	movq	%rax, %rcx
	.p2align	4
4:
	movzbl	(%r14,%rcx), %r8d
	movb	%r8b, (%rdi,%rcx)
	incq	%rcx
	decq	%rsi
	jne	4b
5:
	subq	%rdx, %rax
	cmpq	$-4, %rax
	ja	8f
	leaq	(%rbx,%r13), %rax
	addq	$83, %rax
	.p2align	4
6:
	movzbl	(%r14,%rcx), %esi
	movb	%sil, -3(%rax,%rcx)
	movzbl	1(%r14,%rcx), %esi
	movb	%sil, -2(%rax,%rcx)
	movzbl	2(%r14,%rcx), %esi
	movb	%sil, -1(%rax,%rcx)
	movzbl	3(%r14,%rcx), %esi
	movb	%sil, (%rax,%rcx)
	addq	$4, %rcx
	cmpq	%rcx, %rdx
	jne	6b
	jmp	8f
7:
	movq	%r14, %rsi
	movq	%rdx, %r14
	vj_c_call	memmove
	movq	%r14, %rdx
8:
	addl	%r13d, %edx
	movw	%dx, 72(%rbx)
	jmp	36f
9:
	movq	%rdx, %rbp
	jmp	24f
10:
	movq	%r14, %rsi
	movq	%r12, %rdx
	movq	%r8, %r13
	vj_c_call	memmove
	movq	%r13, %r8
	jmp	23f
11:
	leaq	(%rbx,%r13), %rax
	subq	%r14, %rax
	addq	$80, %rax
	cmpq	$32, %rax
	jae	13f
	xorl	%eax, %eax
	jmp	22f
12:
	cmpq	$32, %rdx
	jae	14f
	xorl	%eax, %eax
	jmp	16f
13:
	cmpl	$32, %r12d
	jae	18f
	xorl	%eax, %eax
	jmp	20f
14:
	movq	%rdx, %rax
	andq	$-32, %rax
	leaq	(%rbx,%r13), %rcx
	addq	$96, %rcx
	xorl	%esi, %esi
	.p2align	4
15:
	movups	(%r14,%rsi), %xmm0
	movups	16(%r14,%rsi), %xmm1
	movups	%xmm0, -16(%rcx,%rsi)
	movups	%xmm1, (%rcx,%rsi)
	addq	$32, %rsi
	cmpq	%rsi, %rax
	jne	15b
	cmpq	%rax, %rdx
	je	8b
	testb	$28, %dl
	je	3b
16:
	movq	%rax, %rcx
	movq	%rdx, %rax
	andq	$-4, %rax
	.p2align	4
17:
	movl	(%r14,%rcx), %esi
	movl	%esi, (%rdi,%rcx)
	addq	$4, %rcx
	cmpq	%rcx, %rax
	jne	17b
	cmpq	%rax, %rdx
	je	8b
	jmp	3b
18:
	movq	%r12, %rax
	andq	$-32, %rax
	leaq	(%rbx,%r13), %rcx
	addq	$96, %rcx
	xorl	%edx, %edx
	.p2align	4
19:
	movups	(%r14,%rdx), %xmm0
	movups	16(%r14,%rdx), %xmm1
	movups	%xmm0, -16(%rcx,%rdx)
	movups	%xmm1, (%rcx,%rdx)
	addq	$32, %rdx
	cmpq	%rdx, %rax
	jne	19b
	cmpl	%eax, %r12d
	je	23f
	testb	$28, %r12b
	je	22f
20:
	movq	%rax, %rcx
	movq	%r12, %rax
	andq	$-4, %rax
	.p2align	4
21:
	movl	(%r14,%rcx), %edx
	movl	%edx, (%rdi,%rcx)
	addq	$4, %rcx
	cmpq	%rcx, %rax
	jne	21b
	cmpl	%eax, %r12d
	je	23f
	.p2align	4
22:
	movzbl	(%r14,%rax), %ecx
	movb	%cl, (%rdi,%rax)
	incq	%rax
	cmpq	%rax, %r12
	jne	22b
23:
	addq	%r12, %r14
	addq	$64, %r8
	movq	%r8, 80(%rsp)
	leaq	16(%rsp), %rdi
	movq	%r15, %rsi
	movq	%r8, %rdx
	xorl	%ecx, %ecx
	xorl	%r8d, %r8d
	vj_call	blake2_compress..compress..blake2s..compress_1_x86
24:
	cmpq	$1, %rbp
	movq	%rbp, 8(%rsp)
	movq	%rbp, %r13
	adcq	$-1, %r13
	movq	%r13, %rbp
	andq	$-64, %rbp
	shrq	$6, %r13
	je	26f
	movq	%r14, %r12
	.p2align	4
25:
	movq	80(%rsp), %rdx
	addq	$64, %rdx
	movq	%rdx, 80(%rsp)
	leaq	16(%rsp), %rdi
	movq	%r12, %rsi
	xorl	%ecx, %ecx
	xorl	%r8d, %r8d
	vj_call	blake2_compress..compress..blake2s..compress_1_x86
	addq	$64, %r12
	decq	%r13
	jne	25b
26:
	leaq	(%r14,%rbp), %rsi
	movq	8(%rsp), %r12
	subq	%rbp, %r12
	xorps	%xmm0, %xmm0
	movups	%xmm0, 48(%r15)
	movups	%xmm0, 32(%r15)
	movups	%xmm0, 16(%r15)
	movups	%xmm0, (%r15)
	movq	%r15, %rax
	subq	%rsi, %rax
	cmpq	%r12, %rax
	jae	27f
	cmpq	$4, %r12
	jae	28f
	xorl	%eax, %eax
	jmp	34f
27:
	movq	%r15, %rdi
	movq	%r12, %rdx
	vj_c_call	memmove
	jmp	35f
28:
	movq	%rbx, %rax
	subq	%rsi, %rax
	addq	$80, %rax
	cmpq	$32, %rax
	jae	29f
	xorl	%eax, %eax
	jmp	34f
29:
	cmpq	$32, %r12
	jae	30f
	xorl	%eax, %eax
	jmp	32f
30:
	movq	8(%rsp), %rdx
	movl	%edx, %ecx
	andl	$31, %ecx
	movq	%r12, %rax
	subq	%rcx, %rax
	andq	$-32, %rdx
	subq	%rbp, %rdx
	leaq	(%r14,%rbp), %rdi
	addq	$16, %rdi
	xorl	%r8d, %r8d
	.p2align	4
31:
	movups	-16(%rdi,%r8), %xmm0
	movups	(%rdi,%r8), %xmm1
	movups	%xmm0, 80(%rbx,%r8)
	movups	%xmm1, 96(%rbx,%r8)
	addq	$32, %r8
	cmpq	%r8, %rdx
	jne	31b
	testq	%rcx, %rcx
	je	35f
	cmpl	$4, %ecx
	jb	34f
32:
	movq	%rax, %rcx
	movq	8(%rsp), %rdi
	andl	$3, %edi
	movq	%r12, %rax
	subq	%rdi, %rax
	.p2align	4
33:
	movl	(%rsi,%rcx), %edx
	movl	%edx, (%r15,%rcx)
	addq	$4, %rcx
	cmpq	%rcx, %rax
	jne	33b
	testq	%rdi, %rdi
	je	35f
	.p2align	4
34:
	movzbl	(%rsi,%rax), %ecx
	movb	%cl, (%r15,%rax)
	incq	%rax
	cmpq	%rax, %r12
	jne	34b
35:
	movw	%r12w, 72(%rbx)
	movaps	16(%rsp), %xmm0
	movups	%xmm0, (%rbx)
	movaps	32(%rsp), %xmm0
	movups	%xmm0, 16(%rbx)
	movq	80(%rsp), %rax
	movq	%rax, 64(%rbx)
36:
	addq	$104, %rsp
	popq	%rbx
	popq	%r12
	popq	%r13
	popq	%r14
	popq	%r15
	popq	%rbp
	retq
	vj_end	blake2_state..blake2s..State..absorb_blocks_1_x86

	vj_function	blake2_digest..wiping..settle..128_1_x86
	movdqu	(%rdi), %xmm0
	movdqu	16(%rdi), %xmm1
	movdqu	32(%rdi), %xmm2
	por	%xmm0, %xmm2
	movdqu	48(%rdi), %xmm0
	por	%xmm1, %xmm0
	movdqu	64(%rdi), %xmm1
	movdqu	80(%rdi), %xmm3
	movdqu	96(%rdi), %xmm4
	por	%xmm1, %xmm4
	por	%xmm2, %xmm4
	movdqu	112(%rdi), %xmm1
	por	%xmm3, %xmm1
	por	%xmm0, %xmm1
	por	%xmm4, %xmm1
	ptest	%xmm1, %xmm1
	je	1f
	pause
1:
	retq
	vj_end	blake2_digest..wiping..settle..128_1_x86

	vj_function	blake2_digest..wiping..settle..64_1_x86
	movdqu	(%rdi), %xmm0
	movdqu	16(%rdi), %xmm1
	movdqu	32(%rdi), %xmm2
	por	%xmm0, %xmm2
	movdqu	48(%rdi), %xmm0
	por	%xmm1, %xmm0
	por	%xmm2, %xmm0
	ptest	%xmm0, %xmm0
	je	1f
	pause
1:
	retq
	vj_end	blake2_digest..wiping..settle..64_1_x86

	vj_function	blake2_digest..wiping..settle..32_1_x86
	movdqu	(%rdi), %xmm0
	movdqu	16(%rdi), %xmm1
	por	%xmm0, %xmm1
	ptest	%xmm1, %xmm1
	je	1f
	pause
1:
	retq
	vj_end	blake2_digest..wiping..settle..32_1_x86

	vj_function	blake2_state..runs..Run..padded_1_x86
	pushq	%r15
	pushq	%r14
	pushq	%rbx
	subq	$448, %rsp
	movq	%rsi, %r14
	movq	%rdi, %rbx
	xorps	%xmm0, %xmm0
	movaps	%xmm0, 304(%rsp)
	movaps	%xmm0, 288(%rsp)
	movaps	%xmm0, 272(%rsp)
	movaps	%xmm0, 256(%rsp)
	cmpb	$0, (%rsi)
	je	1f
	movups	8(%r14), %xmm1
	movups	24(%r14), %xmm2
	movaps	%xmm1, (%rsp)
	movaps	%xmm2, 16(%rsp)
	movzwl	80(%r14), %r15d
	leaq	88(%r14), %rsi
	movaps	%xmm0, 112(%rsp)
	movaps	%xmm0, 96(%rsp)
	movaps	%xmm0, 80(%rsp)
	movaps	%xmm0, 64(%rsp)
	leaq	64(%rsp), %rdi
	movq	%r15, %rdx
	vj_c_call	memcpy
	movaps	64(%rsp), %xmm0
	movaps	80(%rsp), %xmm1
	movaps	96(%rsp), %xmm2
	movaps	112(%rsp), %xmm3
	movaps	%xmm0, 320(%rsp)
	movaps	%xmm1, 336(%rsp)
	movaps	%xmm2, 352(%rsp)
	movaps	%xmm3, 368(%rsp)
	xorl	%r8d, %r8d
	cmpw	$0, 86(%r14)
	setne	%r8b
	addq	72(%r14), %r15
	movq	%rsp, %rdi
	leaq	320(%rsp), %rsi
	movq	%r15, %rdx
	movl	$1, %ecx
	vj_call	blake2_compress..compress..blake2s..compress_1_x86
	movaps	(%rsp), %xmm0
	movaps	16(%rsp), %xmm1
	movaps	%xmm0, 192(%rsp)
	movaps	%xmm1, 208(%rsp)
	movzwl	84(%r14), %edx
	jmp	2f
1:
	movaps	%xmm0, 240(%rsp)
	movaps	%xmm0, 224(%rsp)
	movaps	%xmm0, 208(%rsp)
	movaps	%xmm0, 192(%rsp)
	movups	8(%r14), %xmm1
	movups	24(%r14), %xmm2
	movups	40(%r14), %xmm3
	movups	56(%r14), %xmm4
	movups	%xmm1, (%rsp)
	movups	%xmm2, 16(%rsp)
	movups	%xmm4, 48(%rsp)
	movups	%xmm3, 32(%rsp)
	movl	144(%r14), %r15d
	leaq	160(%r14), %rsi
	movaps	%xmm0, 176(%rsp)
	movaps	%xmm0, 160(%rsp)
	movaps	%xmm0, 144(%rsp)
	movaps	%xmm0, 128(%rsp)
	movaps	%xmm0, 112(%rsp)
	movaps	%xmm0, 96(%rsp)
	movaps	%xmm0, 80(%rsp)
	movaps	%xmm0, 64(%rsp)
	leaq	64(%rsp), %rdi
	movq	%r15, %rdx
	vj_c_call	memcpy
	movaps	64(%rsp), %xmm0
	movaps	80(%rsp), %xmm1
	movaps	96(%rsp), %xmm2
	movaps	112(%rsp), %xmm3
	movaps	%xmm0, 320(%rsp)
	movaps	%xmm1, 336(%rsp)
	movaps	%xmm2, 352(%rsp)
	movaps	%xmm3, 368(%rsp)
	movaps	128(%rsp), %xmm0
	movaps	%xmm0, 384(%rsp)
	movaps	144(%rsp), %xmm0
	movaps	%xmm0, 400(%rsp)
	movaps	160(%rsp), %xmm0
	movaps	%xmm0, 416(%rsp)
	movaps	176(%rsp), %xmm0
	movaps	%xmm0, 432(%rsp)
	xorl	%r8d, %r8d
	cmpl	$0, 156(%r14)
	setne	%r8b
	addq	136(%r14), %r15
	movq	%rsp, %rdi
	leaq	320(%rsp), %rsi
	movq	%r15, %rdx
	movl	$1, %ecx
	vj_call	blake2_compress..compress..blake2b..compress_1_x86
	movups	(%rsp), %xmm0
	movups	16(%rsp), %xmm1
	movups	32(%rsp), %xmm2
	movups	48(%rsp), %xmm3
	movaps	%xmm0, 192(%rsp)
	movaps	%xmm1, 208(%rsp)
	movaps	%xmm2, 224(%rsp)
	movaps	%xmm3, 240(%rsp)
	movl	152(%r14), %edx
2:
	leaq	256(%rsp), %rdi
	leaq	192(%rsp), %rsi
	vj_c_call	memcpy
	movaps	256(%rsp), %xmm0
	movaps	272(%rsp), %xmm1
	movaps	288(%rsp), %xmm2
	movaps	304(%rsp), %xmm3
	movups	%xmm3, 48(%rbx)
	movups	%xmm2, 32(%rbx)
	movups	%xmm1, 16(%rbx)
	movups	%xmm0, (%rbx)
	addq	$448, %rsp
	popq	%rbx
	popq	%r14
	popq	%r15
	retq
	vj_end	blake2_state..runs..Run..padded_1_x86

	vj_constants	16
	.p2align	4, 0x0
.L1_x86_CPI20_0:
	.long	1779033703
	.long	3144134277
	.long	1013904242
	.long	2773480762
.L1_x86_CPI20_1:
	.long	2600822924
	.long	1541459225
	.zero	4
	.zero	4
.L1_x86_CPI20_2:
	.long	1359893119
	.long	528734635
	.zero	4
	.zero	4
.L1_x86_CPI20_3:
	.quad	7640891576956012808
	.quad	-4942790177534073029
.L1_x86_CPI20_4:
	.quad	4354685564936845355
	.quad	-6534734903238641935
.L1_x86_CPI20_5:
	.quad	5840696475078001361
	.quad	-7276294671716946913
.L1_x86_CPI20_6:
	.quad	2270897969802886507
	.quad	6620516959819538809
	vj_function	b2_commands..digests..start_1_x86
	pushq	%rbp
	movq	%rsp, %rbp
	pushq	%r15
	pushq	%r14
	pushq	%r13
	pushq	%r12
	pushq	%rbx
	andq	$-32, %rsp
	subq	$1280, %rsp
	movl	%esi, %eax
	movq	%rdi, %rbx
	xorps	%xmm0, %xmm0
	movaps	%xmm0, 1232(%rsp)
	movaps	%xmm0, 1216(%rsp)
	movaps	%xmm0, 1200(%rsp)
	movaps	%xmm0, 1184(%rsp)
	movaps	%xmm0, 1168(%rsp)
	movaps	%xmm0, 1152(%rsp)
	movaps	%xmm0, 1136(%rsp)
	movaps	%xmm0, 1120(%rsp)
	movaps	%xmm0, 1104(%rsp)
	movaps	%xmm0, 1088(%rsp)
	movaps	%xmm0, 1072(%rsp)
	movaps	%xmm0, 1056(%rsp)
	movaps	%xmm0, 864(%rsp)
	movaps	%xmm0, 880(%rsp)
	movaps	%xmm0, 896(%rsp)
	movaps	%xmm0, 912(%rsp)
	movaps	%xmm0, 928(%rsp)
	movaps	%xmm0, 944(%rsp)
	movaps	%xmm0, 960(%rsp)
	movaps	%xmm0, 976(%rsp)
	movaps	%xmm0, 992(%rsp)
	movaps	%xmm0, 1008(%rsp)
	movaps	%xmm0, 1024(%rsp)
	movaps	%xmm0, 1040(%rsp)
	movzbl	(%rcx), %esi
	cmpb	$1, %sil
	jne	1f
	cmpq	$0, 16(%rcx)
	je	12f
1:
	testb	%al, %al
	je	5f
	xorl	%r15d, %r15d
	testb	%dl, %dl
	setne	%r15b
	shll	$4, %r15d
	addq	$16, %r15
	leaq	.L1_x86_static.0(%rip), %r12
	cmpb	$1, %sil
	jne	6f
2:
	movq	8(%rcx), %r8
	movq	16(%rcx), %r14
	cmpb	$1, 32(%rcx)
	je	7f
3:
	xorl	%edx, %edx
	movq	%r12, %rsi
	cmpb	$1, 64(%rcx)
	je	8f
4:
	xorl	%r13d, %r13d
	jmp	9f
5:
	movzbl	%dl, %edx
	leaq	.L1_x86_switch.table.b2_commands..digests..start_1_x86(%rip), %rdi
	movq	(%rdi,%rdx,8), %r15
	leaq	.L1_x86_static.0(%rip), %r12
	cmpb	$1, %sil
	je	2b
6:
	xorl	%r14d, %r14d
	movq	%r12, %r8
	cmpb	$1, 32(%rcx)
	jne	3b
7:
	movq	40(%rcx), %rsi
	movq	48(%rcx), %rdx
	cmpb	$1, 64(%rcx)
	jne	4b
8:
	movq	72(%rcx), %r12
	movq	80(%rcx), %r13
9:
	movaps	%xmm0, 848(%rsp)
	movaps	%xmm0, 832(%rsp)
	movaps	%xmm0, 816(%rsp)
	movaps	%xmm0, 800(%rsp)
	movaps	%xmm0, 784(%rsp)
	movaps	%xmm0, 768(%rsp)
	movaps	%xmm0, 752(%rsp)
	movaps	%xmm0, 736(%rsp)
	movaps	%xmm0, 720(%rsp)
	movaps	%xmm0, 704(%rsp)
	movaps	%xmm0, 688(%rsp)
	movaps	%xmm0, 672(%rsp)
	testb	%al, %al
	je	10f
	movaps	%xmm0, 496(%rsp)
	movq	$0, 512(%rsp)
	movaps	%xmm0, 128(%rsp)
	movaps	%xmm0, 144(%rsp)
	movaps	%xmm0, 160(%rsp)
	movaps	%xmm0, 176(%rsp)
	movaps	%xmm0, 192(%rsp)
	movaps	%xmm0, 208(%rsp)
	movaps	%xmm0, 224(%rsp)
	movaps	%xmm0, 240(%rsp)
	movaps	%xmm0, 256(%rsp)
	movaps	%xmm0, 272(%rsp)
	movq	$0, 288(%rsp)
	leaq	-33(%r15), %rax
	cmpq	$-32, %rax
	setb	%al
	cmpq	$33, %r14
	setae	%cl
	cmpq	$9, %rdx
	setae	%dil
	orb	%cl, %dil
	cmpq	$9, %r13
	setae	%cl
	orb	%dil, %cl
	orb	%al, %cl
	je	11f
	movaps	%xmm0, 96(%rsp)
	movq	$0, 48(%rsp)
	movb	$1, %al
	movl	%eax, 64(%rsp)
	movq	$0, 40(%rsp)
	movq	$0, 56(%rsp)
	xorl	%r14d, %r14d
	xorl	%r15d, %r15d
	movq	$0, 32(%rsp)
	movaps	%xmm0, (%rsp)
	movaps	%xmm0, 448(%rsp)
	movaps	%xmm0, 16(%rsp)
	movaps	%xmm0, 560(%rsp)
	movaps	%xmm0, 80(%rsp)
	jmp	15f
10:
	pxor	%xmm7, %xmm7
	movdqa	%xmm7, 304(%rsp)
	movdqa	%xmm7, 320(%rsp)
	movdqa	%xmm7, 336(%rsp)
	movdqa	%xmm7, 352(%rsp)
	movdqa	%xmm7, 368(%rsp)
	movdqa	%xmm7, 384(%rsp)
	movdqa	%xmm7, 400(%rsp)
	movdqa	%xmm7, 416(%rsp)
	movdqa	%xmm7, 608(%rsp)
	movdqa	%xmm7, 624(%rsp)
	movdqa	%xmm7, 640(%rsp)
	movdqa	%xmm7, 656(%rsp)
	cmpq	$65, %r14
	setae	%al
	cmpq	$17, %rdx
	setae	%cl
	orb	%al, %cl
	cmpq	$17, %r13
	setae	%al
	movq	$0, 56(%rsp)
	movb	$1, %dil
	orb	%cl, %al
	movl	$0, %eax
	movl	$0, %ecx
	pxor	%xmm4, %xmm4
	pxor	%xmm5, %xmm5
	pxor	%xmm6, %xmm6
	jne	18f
	testq	%r14, %r14
	je	16f
	movaps	%xmm0, 144(%rsp)
	movaps	%xmm0, 128(%rsp)
	movl	%r14d, %eax
	shll	$8, %eax
	addl	%r15d, %eax
	addl	$16842752, %eax
	movd	%eax, %xmm0
	movdqa	%xmm0, (%rsp)
	leaq	128(%rsp), %rdi
	movq	%r8, 16(%rsp)
	vj_c_call	memcpy
	leaq	144(%rsp), %rdi
	movq	%r12, %rsi
	movq	%r13, %rdx
	vj_c_call	memcpy
	movaps	128(%rsp), %xmm1
	movaps	144(%rsp), %xmm2
	movaps	(%rsp), %xmm0
	xorps	.L1_x86_CPI20_3(%rip), %xmm0
	movaps	%xmm0, (%rsp)
	xorps	.L1_x86_CPI20_5(%rip), %xmm1
	movaps	%xmm1, 80(%rsp)
	xorps	.L1_x86_CPI20_6(%rip), %xmm2
	movaps	%xmm2, 432(%rsp)
	movl	$64, %eax
	subq	%r14, %rax
	xorl	%edx, %edx
	cmpq	$64, %r14
	cmovbq	%rax, %rdx
	leaq	(%rsp,%r14), %rdi
	addq	$496, %rdi
	xorl	%esi, %esi
	vj_c_call	memset
	leaq	496(%rsp), %rdi
	movq	16(%rsp), %rsi
	movq	%r14, %rdx
	vj_c_call	memcpy
	movdqa	(%rsp), %xmm7
	movdqa	432(%rsp), %xmm6
	movdqa	80(%rsp), %xmm5
	movdqa	.L1_x86_CPI20_4(%rip), %xmm4
	xorps	%xmm0, %xmm0
	movaps	%xmm0, 192(%rsp)
	movaps	%xmm0, 208(%rsp)
	movaps	%xmm0, 224(%rsp)
	movaps	%xmm0, 240(%rsp)
	movdqu	496(%rsp), %xmm0
	movups	512(%rsp), %xmm1
	movups	528(%rsp), %xmm2
	movups	544(%rsp), %xmm3
	movdqa	%xmm0, 128(%rsp)
	movaps	%xmm1, 144(%rsp)
	movaps	%xmm2, 160(%rsp)
	movaps	%xmm3, 176(%rsp)
	movl	$128, %eax
	jmp	17f
11:
	movq	$0, 48(%rsp)
	testq	%r14, %r14
	je	13f
	movaps	%xmm0, 304(%rsp)
	movl	%r14d, %eax
	shll	$8, %eax
	addl	%r15d, %eax
	addl	$16842752, %eax
	movd	%eax, %xmm0
	movdqa	%xmm0, (%rsp)
	leaq	304(%rsp), %rdi
	movq	%r8, 16(%rsp)
	vj_c_call	memcpy
	leaq	312(%rsp), %rdi
	movq	%r12, %rsi
	movq	%r13, %rdx
	vj_c_call	memcpy
	movaps	(%rsp), %xmm0
	xorps	.L1_x86_CPI20_0(%rip), %xmm0
	movaps	%xmm0, (%rsp)
	movaps	304(%rsp), %xmm0
	movaps	%xmm0, 64(%rsp)
	movl	$32, %eax
	subq	%r14, %rax
	xorl	%edx, %edx
	cmpq	$32, %r14
	cmovbq	%rax, %rdx
	leaq	(%rsp,%r14), %rdi
	addq	$304, %rdi
	xorl	%esi, %esi
	vj_c_call	memset
	leaq	304(%rsp), %rdi
	movq	16(%rsp), %rsi
	movq	%r14, %rdx
	vj_c_call	memcpy
	movaps	304(%rsp), %xmm1
	movdqa	320(%rsp), %xmm0
	movq	304(%rsp), %rcx
	movq	%rcx, %rax
	shrq	$32, %rax
	movdqa	(%rsp), %xmm3
	pshufd	$237, %xmm3, %xmm2
	movdqa	%xmm2, 96(%rsp)
	pshufd	$232, %xmm3, %xmm2
	movdqa	64(%rsp), %xmm3
	pshufd	$237, %xmm3, %xmm4
	pxor	.L1_x86_CPI20_1(%rip), %xmm4
	pshufd	$232, %xmm3, %xmm3
	pxor	.L1_x86_CPI20_2(%rip), %xmm3
	movw	$64, %r14w
	jmp	14f
12:
	movq	$1, (%rbx)
	movq	$2, 8(%rbx)
	addq	$16, %rbx
	movl	$344, %edx
	movq	%rbx, %rdi
	xorl	%esi, %esi
	vj_c_call	memset
	jmp	22f
13:
	movaps	%xmm0, 304(%rsp)
	movl	%r15d, %eax
	orl	$16842752, %eax
	movd	%eax, %xmm0
	movdqa	%xmm0, (%rsp)
	leaq	304(%rsp), %rdi
	vj_c_call	memcpy
	leaq	312(%rsp), %rdi
	movq	%r12, %rsi
	movq	%r13, %rdx
	vj_c_call	memcpy
	xorps	%xmm1, %xmm1
	movdqa	304(%rsp), %xmm0
	movdqa	(%rsp), %xmm3
	pxor	.L1_x86_CPI20_0(%rip), %xmm3
	movaps	%xmm1, 304(%rsp)
	movaps	%xmm1, 320(%rsp)
	pshufd	$237, %xmm3, %xmm2
	movdqa	%xmm2, 96(%rsp)
	pshufd	$237, %xmm0, %xmm4
	pxor	.L1_x86_CPI20_1(%rip), %xmm4
	pshufd	$232, %xmm3, %xmm2
	pshufd	$232, %xmm0, %xmm3
	pxor	.L1_x86_CPI20_2(%rip), %xmm3
	xorl	%eax, %eax
	xorl	%ecx, %ecx
	xorl	%r14d, %r14d
	pxor	%xmm0, %xmm0
14:
	movdqa	%xmm4, 448(%rsp)
	movdqa	%xmm3, 16(%rsp)
	movdqa	%xmm2, (%rsp)
	movq	%rcx, 40(%rsp)
	movdqa	%xmm0, 80(%rsp)
	movaps	%xmm1, 560(%rsp)
	movq	%rax, 56(%rsp)
	movq	328(%rsp), %rax
	movq	%rax, 512(%rsp)
	movups	312(%rsp), %xmm0
	movaps	%xmm0, 496(%rsp)
	xorps	%xmm0, %xmm0
	movaps	%xmm0, 128(%rsp)
	movaps	%xmm0, 144(%rsp)
	movaps	%xmm0, 160(%rsp)
	movaps	%xmm0, 176(%rsp)
	movaps	%xmm0, 192(%rsp)
	movaps	%xmm0, 208(%rsp)
	movaps	%xmm0, 224(%rsp)
	movaps	%xmm0, 240(%rsp)
	movaps	%xmm0, 256(%rsp)
	movaps	%xmm0, 272(%rsp)
	movq	$0, 288(%rsp)
	movl	$1, %eax
	movq	%rax, 32(%rsp)
	movl	$0, 64(%rsp)
15:
	movq	512(%rsp), %rax
	movq	%rax, 688(%rsp)
	movaps	496(%rsp), %xmm0
	movaps	%xmm0, 672(%rsp)
	leaq	696(%rsp), %rdi
	leaq	128(%rsp), %rsi
	movl	$168, %edx
	vj_c_call	memcpy
	xorps	%xmm0, %xmm0
	movaps	%xmm0, 432(%rsp)
	xorl	%r13d, %r13d
	movq	%r14, 120(%rsp)
	xorl	%r12d, %r12d
	movaps	96(%rsp), %xmm0
	movaps	%xmm0, 592(%rsp)
	movaps	(%rsp), %xmm0
	movaps	%xmm0, 480(%rsp)
	movaps	448(%rsp), %xmm0
	movaps	%xmm0, 576(%rsp)
	movaps	16(%rsp), %xmm0
	movaps	%xmm0, 464(%rsp)
	jmp	19f
16:
	movaps	%xmm0, 144(%rsp)
	movaps	%xmm0, 128(%rsp)
	movl	%r15d, %eax
	orl	$16842752, %eax
	movd	%eax, %xmm0
	movdqa	%xmm0, (%rsp)
	leaq	128(%rsp), %rdi
	vj_c_call	memcpy
	leaq	144(%rsp), %rdi
	movq	%r12, %rsi
	movq	%r13, %rdx
	vj_c_call	memcpy
	movdqa	(%rsp), %xmm7
	movdqa	128(%rsp), %xmm5
	movdqa	144(%rsp), %xmm6
	pxor	.L1_x86_CPI20_3(%rip), %xmm7
	pxor	.L1_x86_CPI20_5(%rip), %xmm5
	movdqa	.L1_x86_CPI20_4(%rip), %xmm4
	pxor	.L1_x86_CPI20_6(%rip), %xmm6
	pxor	%xmm0, %xmm0
	movdqa	%xmm0, 128(%rsp)
	movdqa	%xmm0, 144(%rsp)
	movdqa	%xmm0, 160(%rsp)
	movdqa	%xmm0, 176(%rsp)
	movdqa	%xmm0, 192(%rsp)
	movdqa	%xmm0, 208(%rsp)
	movdqa	%xmm0, 224(%rsp)
	movdqa	%xmm0, 240(%rsp)
	movdqa	%xmm0, 496(%rsp)
	movdqa	%xmm0, 512(%rsp)
	movdqa	%xmm0, 528(%rsp)
	movdqa	%xmm0, 544(%rsp)
	xorl	%eax, %eax
17:
	movaps	240(%rsp), %xmm0
	movaps	%xmm0, 416(%rsp)
	movaps	224(%rsp), %xmm0
	movaps	%xmm0, 400(%rsp)
	movaps	208(%rsp), %xmm0
	movaps	%xmm0, 384(%rsp)
	movaps	192(%rsp), %xmm0
	movaps	%xmm0, 368(%rsp)
	movaps	128(%rsp), %xmm0
	movaps	144(%rsp), %xmm1
	movaps	160(%rsp), %xmm2
	movaps	176(%rsp), %xmm3
	movaps	%xmm3, 352(%rsp)
	movaps	%xmm2, 336(%rsp)
	movaps	%xmm1, 320(%rsp)
	movaps	%xmm0, 304(%rsp)
	movaps	496(%rsp), %xmm0
	movaps	512(%rsp), %xmm1
	movaps	528(%rsp), %xmm2
	movaps	544(%rsp), %xmm3
	movaps	%xmm0, 608(%rsp)
	movaps	%xmm1, 624(%rsp)
	movaps	%xmm2, 640(%rsp)
	movaps	%xmm3, 656(%rsp)
	xorl	%edi, %edi
	movl	%r15d, %ecx
18:
	movl	%edi, 64(%rsp)
	movq	%rcx, 40(%rsp)
	movq	%rax, 48(%rsp)
	pextrq	$1, %xmm7, %rax
	movdqa	%xmm7, %xmm0
	psrlq	$32, %xmm0
	pshufd	$232, %xmm7, %xmm1
	movdqa	%xmm1, (%rsp)
	movq	%rax, %r15
	shrq	$32, %r15
	pshufd	$232, %xmm0, %xmm0
	movdqa	%xmm0, 96(%rsp)
	movdqa	%xmm4, %xmm0
	psrlq	$32, %xmm0
	movdqa	%xmm4, 560(%rsp)
	pshufd	$232, %xmm4, %xmm1
	movdqa	%xmm1, 16(%rsp)
	pshufd	$232, %xmm0, %xmm0
	movdqa	%xmm0, 448(%rsp)
	movdqa	%xmm5, %xmm0
	psrlq	$32, %xmm0
	movdqa	%xmm5, 80(%rsp)
	pshufd	$232, %xmm5, %xmm1
	movdqa	%xmm1, 480(%rsp)
	pshufd	$232, %xmm0, %xmm0
	movdqa	%xmm0, 592(%rsp)
	movdqa	%xmm6, %xmm0
	psrlq	$32, %xmm0
	movdqa	%xmm6, 432(%rsp)
	pshufd	$232, %xmm6, %xmm1
	movdqa	%xmm1, 464(%rsp)
	pshufd	$232, %xmm0, %xmm0
	movdqa	%xmm0, 576(%rsp)
	pextrw	$5, %xmm7, %r14d
	movabsq	$-281474976710656, %r12
	movq	%rax, 120(%rsp)
	andq	%rax, %r12
	movaps	416(%rsp), %xmm0
	movaps	%xmm0, 784(%rsp)
	movaps	400(%rsp), %xmm0
	movaps	%xmm0, 768(%rsp)
	movaps	384(%rsp), %xmm0
	movaps	%xmm0, 752(%rsp)
	movaps	368(%rsp), %xmm0
	movaps	%xmm0, 736(%rsp)
	movaps	304(%rsp), %xmm0
	movaps	320(%rsp), %xmm1
	movaps	336(%rsp), %xmm2
	movaps	352(%rsp), %xmm3
	movaps	%xmm3, 720(%rsp)
	movaps	%xmm2, 704(%rsp)
	movaps	%xmm1, 688(%rsp)
	movaps	%xmm0, 672(%rsp)
	movaps	608(%rsp), %xmm0
	movaps	624(%rsp), %xmm1
	movdqa	640(%rsp), %xmm2
	movdqa	656(%rsp), %xmm3
	movaps	%xmm0, 800(%rsp)
	movaps	%xmm1, 816(%rsp)
	movdqa	%xmm2, 832(%rsp)
	movdqa	%xmm3, 848(%rsp)
	movq	%xmm7, %r13
	movl	$0, %eax
	movq	%rax, 32(%rsp)
19:
	leaq	1056(%rsp), %rdi
	leaq	672(%rsp), %rsi
	movl	$192, %edx
	vj_c_call	memcpy
	movl	64(%rsp), %eax
	testb	%al, %al
	je	20f
	pxor	%xmm3, %xmm3
	movl	$2, %edi
	xorl	%r13d, %r13d
	xorl	%r14d, %r14d
	xorl	%edx, %edx
	xorl	%esi, %esi
	xorl	%ecx, %ecx
	pxor	%xmm4, %xmm4
	pxor	%xmm5, %xmm5
	pxor	%xmm6, %xmm6
	xorps	%xmm0, %xmm0
	xorps	%xmm1, %xmm1
	pxor	%xmm2, %xmm2
	jmp	21f
20:
	movzwl	%r15w, %eax
	shlq	$32, %rax
	shll	$16, %r14d
	orq	%r14, %r12
	movzwl	120(%rsp), %r14d
	orq	%r12, %r14
	orq	%rax, %r14
	movaps	464(%rsp), %xmm0
	unpcklps	576(%rsp), %xmm0
	movaps	%xmm0, 464(%rsp)
	movaps	480(%rsp), %xmm0
	unpcklps	592(%rsp), %xmm0
	movaps	%xmm0, 480(%rsp)
	movaps	16(%rsp), %xmm0
	unpcklps	448(%rsp), %xmm0
	movaps	%xmm0, 16(%rsp)
	movaps	(%rsp), %xmm0
	unpcklps	96(%rsp), %xmm0
	movaps	%xmm0, (%rsp)
	leaq	864(%rsp), %rdi
	leaq	1056(%rsp), %rsi
	movl	$192, %edx
	vj_c_call	memcpy
	movdqa	464(%rsp), %xmm6
	movdqa	480(%rsp), %xmm5
	movdqa	16(%rsp), %xmm4
	movl	64(%rsp), %eax
	movdqa	(%rsp), %xmm3
	movq	56(%rsp), %rcx
	movq	48(%rsp), %rdx
	movaps	560(%rsp), %xmm0
	movaps	80(%rsp), %xmm1
	movq	40(%rsp), %rsi
	movdqa	432(%rsp), %xmm2
	movq	32(%rsp), %rdi
21:
	movzbl	%al, %eax
	movq	%rax, (%rbx)
	movq	%rdi, 8(%rbx)
	movdqu	%xmm3, 16(%rbx)
	movdqu	%xmm4, 32(%rbx)
	movdqu	%xmm5, 48(%rbx)
	movdqu	%xmm6, 64(%rbx)
	movq	%r13, 80(%rbx)
	movq	%r14, 88(%rbx)
	movups	%xmm0, 96(%rbx)
	movups	%xmm1, 112(%rbx)
	movdqu	%xmm2, 128(%rbx)
	movq	$0, 144(%rbx)
	movl	%edx, 152(%rbx)
	movl	%edx, 156(%rbx)
	movl	%esi, 160(%rbx)
	movl	%ecx, 164(%rbx)
	addq	$168, %rbx
	leaq	864(%rsp), %rsi
	movl	$192, %edx
	movq	%rbx, %rdi
	vj_c_call	memcpy
22:
	leaq	-40(%rbp), %rsp
	popq	%rbx
	popq	%r12
	popq	%r13
	popq	%r14
	popq	%r15
	popq	%rbp
	retq
	vj_end	b2_commands..digests..start_1_x86

	vj_function	b2_commands..input..read_all..d6f7c226d1d4af0a_1_x86
	pushq	%rbp
	pushq	%r15
	pushq	%r14
	pushq	%r13
	pushq	%r12
	pushq	%rbx
	subq	$3072, %rsp
	movq	$0, (%rsp)
	subq	$1160, %rsp
	movq	%rsi, 40(%rsp)
	movq	%rdi, %rbx
	xorps	%xmm0, %xmm0
	movups	%xmm0, 24(%rsp)
	leaq	15(%rsp), %rbp
	movq	%rbp, 16(%rsp)
	leaq	136(%rsp), %r15
	movl	$4096, %edx
	movq	%r15, %rdi
	xorl	%esi, %esi
	vj_c_call	memset
1:
	xorl	%r12d, %r12d
	.p2align	4
2:
	leaq	(%rsp,%r12), %rsi
	addq	$136, %rsi
	movl	$4096, %r13d
	subq	%r12, %r13
	xorl	%edi, %edi
	movq	%r13, %rdx
	vj_system_call	read, b2_read
	testq	%rax, %rax
	js	18f
	je	3f
	cmpq	%r13, %rax
	cmovbq	%rax, %r13
	addq	%r13, %r12
	cmpq	$4095, %r12
	jbe	2b
3:
	movq	24(%rsp), %r13
	movq	32(%rsp), %r14
	movq	%r14, %rax
	subq	%r13, %rax
	cmpq	%rax, %r12
	ja	17f
4:
	movq	%rbp, %rdi
	addq	%r13, %rdi
	movq	%rdi, %rax
	subq	%r15, %rax
	cmpq	%r12, %rax
	jae	10f
	cmpq	$4, %r12
	jb	5f
	movq	%r13, %rax
	subq	%r15, %rax
	addq	%rbp, %rax
	cmpq	$32, %rax
	jae	12f
5:
	xorl	%eax, %eax
6:
	movq	%r12, %rdx
	movq	%rax, %rcx
	andq	$3, %rdx
	je	8f
	movq	%rax, %rcx
	.p2align	4
7:
	movzbl	136(%rsp,%rcx), %esi
	movb	%sil, (%rdi,%rcx)
	incq	%rcx
	decq	%rdx
	jne	7b
8:
	subq	%r12, %rax
	cmpq	$-4, %rax
	ja	11f
	leaq	3(,%r13), %rax
	addq	%rbp, %rax
	.p2align	4
9:
	movzbl	136(%rsp,%rcx), %edx
	movb	%dl, -3(%rax,%rcx)
	movzbl	137(%rsp,%rcx), %edx
	movb	%dl, -2(%rax,%rcx)
	movzbl	138(%rsp,%rcx), %edx
	movb	%dl, -1(%rax,%rcx)
	movzbl	139(%rsp,%rcx), %edx
	movb	%dl, (%rax,%rcx)
	addq	$4, %rcx
	cmpq	%rcx, %r12
	jne	9b
	jmp	11f
	.p2align	4
10:
	leaq	136(%rsp), %rsi
	movq	%r12, %rdx
	vj_c_call	memmove
11:
	addq	%r12, %r13
	movq	%r13, 24(%rsp)
	movq	%r14, 32(%rsp)
	cmpq	$4096, %r12
	jae	1b
	jmp	22f
12:
	cmpq	$32, %r12
	jae	13f
	xorl	%eax, %eax
	jmp	15f
13:
	movq	%r12, %rax
	andq	$-32, %rax
	leaq	16(,%r13), %rcx
	addq	%rbp, %rcx
	xorl	%edx, %edx
	.p2align	4
14:
	movups	136(%rsp,%rdx), %xmm0
	movups	152(%rsp,%rdx), %xmm1
	movups	%xmm0, -16(%rcx,%rdx)
	movups	%xmm1, (%rcx,%rdx)
	addq	$32, %rdx
	cmpq	%rdx, %rax
	jne	14b
	cmpq	%rax, %r12
	je	11b
	testb	$28, %r12b
	je	6b
15:
	movq	%rax, %rcx
	movq	%r12, %rax
	andq	$-4, %rax
	.p2align	4
16:
	movl	136(%rsp,%rcx), %edx
	movl	%edx, (%rdi,%rcx)
	addq	$4, %rcx
	cmpq	%rcx, %rax
	jne	16b
	cmpq	%rax, %r12
	je	11b
	jmp	6b
17:
	leaq	16(%rsp), %rdi
	movq	%r12, %rsi
	callq	std_alloc..vec..Vec..grow_amortized..3378b08034dc46b4_1_x86
	testb	%al, %al
	je	23f
	movq	16(%rsp), %rbp
	movq	24(%rsp), %r13
	movq	32(%rsp), %r14
	jmp	4b
18:
	leaq	48(%rsp), %rdi
	callq	std_io..io..error..last_error_1_x86
	movq	40(%rsp), %rax
	movb	$1, (%rax)
	cmpq	$0, 32(%rsp)
	je	19f
	movq	16(%rsp), %rdi
	vj_call	rattle_dealloc
19:
	movq	$1, (%rbx)
	movq	$7, 8(%rbx)
20:
	xorps	%xmm0, %xmm0
	movups	%xmm0, 16(%rbx)
21:
	addq	$4232, %rsp
	popq	%rbx
	popq	%r12
	popq	%r13
	popq	%r14
	popq	%r15
	popq	%rbp
	retq
22:
	movq	16(%rsp), %rax
	movq	$0, (%rbx)
	movq	%rax, 8(%rbx)
	movq	%r13, 16(%rbx)
	movq	%r14, 24(%rbx)
	jmp	21b
23:
	cmpq	$0, 32(%rsp)
	je	24f
	movq	16(%rsp), %rdi
	vj_call	rattle_dealloc
24:
	movq	$1, (%rbx)
	movq	$8, 8(%rbx)
	jmp	20b
	vj_end	b2_commands..input..read_all..d6f7c226d1d4af0a_1_x86

	vj_cold	std_alloc..vec..Vec..grow_amortized..791ee7faf1d0b0c8_1_x86
	movq	8(%rdi), %rax
	cmpq	$-1, %rax
	je	2f
	pushq	%r14
	pushq	%rbx
	pushq	%rax
	movq	16(%rdi), %rcx
	cmpq	$4, %rax
	movl	$3, %ebx
	cmovaeq	%rax, %rbx
	incq	%rbx
	movq	%rcx, %rsi
	shrq	$62, %rsi
	leaq	(%rcx,%rcx), %rdx
	cmpq	%rdx, %rbx
	cmovaq	%rbx, %rdx
	testq	%rsi, %rsi
	cmoveq	%rdx, %rbx
	movabsq	$230584300921369395, %rsi
	cmpq	%rsi, %rbx
	ja	4f
	testq	%rcx, %rcx
	je	3f
	movq	%rdi, %r14
	movq	(%rdi), %rdi
	shlq	$3, %rax
	leaq	(%rax,%rax,4), %rsi
	leaq	(,%rbx,8), %rax
	leaq	(%rax,%rax,4), %rdx
	movl	$8, %ecx
	vj_call	rattle_realloc
	testb	$1, %al
	je	4f
1:
	movq	%rdx, (%r14)
	movq	%rbx, 16(%r14)
	movb	$1, %al
	addq	$8, %rsp
	popq	%rbx
	popq	%r14
	retq
2:
	xorl	%eax, %eax
	retq
3:
	movq	%rdi, %r14
	shlq	$3, %rdx
	leaq	(%rdx,%rdx,4), %rdi
	movl	$8, %esi
	vj_call	rattle_alloc
	testb	$1, %al
	jne	1b
4:
	xorl	%eax, %eax
	addq	$8, %rsp
	popq	%rbx
	popq	%r14
	retq
	vj_end	std_alloc..vec..Vec..grow_amortized..791ee7faf1d0b0c8_1_x86

	vj_cold	std_alloc..vec..Vec..grow_amortized..99a3d98a3388100f_1_x86
	movq	8(%rdi), %rsi
	cmpq	$-1, %rsi
	je	2f
	pushq	%r14
	pushq	%rbx
	pushq	%rax
	movq	16(%rdi), %rcx
	cmpq	$4, %rsi
	movl	$3, %ebx
	cmovaeq	%rsi, %rbx
	incq	%rbx
	movq	%rcx, %rdx
	shrq	$62, %rdx
	leaq	(%rcx,%rcx), %rax
	cmpq	%rax, %rbx
	cmovaq	%rbx, %rax
	testq	%rdx, %rdx
	cmoveq	%rax, %rbx
	movq	%rbx, %rdx
	shrq	$58, %rdx
	jne	4f
	testq	%rcx, %rcx
	je	3f
	movq	%rdi, %r14
	movq	(%rdi), %rdi
	shlq	$5, %rsi
	movq	%rbx, %rdx
	shlq	$5, %rdx
	movl	$8, %ecx
	vj_call	rattle_realloc
	testb	$1, %al
	je	4f
1:
	movq	%rdx, (%r14)
	movq	%rbx, 16(%r14)
	movb	$1, %al
	addq	$8, %rsp
	popq	%rbx
	popq	%r14
	retq
2:
	xorl	%eax, %eax
	retq
3:
	movq	%rdi, %r14
	shlq	$5, %rax
	movl	$8, %esi
	movq	%rax, %rdi
	vj_call	rattle_alloc
	testb	$1, %al
	jne	1b
4:
	xorl	%eax, %eax
	addq	$8, %rsp
	popq	%rbx
	popq	%r14
	retq
	vj_end	std_alloc..vec..Vec..grow_amortized..99a3d98a3388100f_1_x86

	vj_function	blake2_replay..calls..push..08bf280249c874f5_1_x86
	pushq	%rbp
	pushq	%r15
	pushq	%r14
	pushq	%r13
	pushq	%r12
	pushq	%rbx
	subq	$696, %rsp
	movq	%rsi, %r14
	movq	%rdi, %rbx
	movzbl	(%rdx), %ebp
	movzbl	8(%rdx), %r13d
	leaq	16(%rdx), %rsi
	movq	%rsp, %rdi
	movl	$344, %edx
	vj_c_call	memcpy
	movq	8(%r14), %r15
	cmpq	%r15, 16(%r14)
	je	3f
1:
	movq	(%r14), %rax
	imulq	$360, %r15, %rcx
	movq	%rbp, (%rax,%rcx)
	movq	%r13, 8(%rax,%rcx)
	leaq	(%rax,%rcx), %rdi
	addq	$16, %rdi
	movq	%rsp, %rsi
	movl	$344, %edx
	vj_c_call	memcpy
	incq	%r15
	movq	%r15, 8(%r14)
	xorl	%r15d, %r15d
	xorl	%r12d, %r12d
2:
	movb	%r12b, (%rbx)
	movq	%r15, 8(%rbx)
	movq	$0, 16(%rbx)
	addq	$696, %rsp
	popq	%rbx
	popq	%r12
	popq	%r13
	popq	%r14
	popq	%r15
	popq	%rbp
	retq
3:
	movq	%r14, %rdi
	callq	std_alloc..vec..Vec..grow_amortized..20c14b22e78258ad_1_x86
	testb	%al, %al
	je	4f
	movq	8(%r14), %r15
	jmp	1b
4:
	leaq	352(%rsp), %rdi
	movq	%rsp, %rsi
	movl	$344, %edx
	vj_c_call	memcpy
	movb	$1, %r12b
	movl	$2, %r15d
	testq	%rbp, %rbp
	je	2b
	movq	%r13, (%rsp)
	leaq	8(%rsp), %r14
	leaq	352(%rsp), %rsi
	movl	$344, %edx
	movq	%r14, %rdi
	vj_c_call	memcpy
	testq	%r13, %r13
	je	5f
	xorps	%xmm0, %xmm0
	movups	%xmm0, 160(%r14)
	movups	%xmm0, 144(%r14)
	movups	%xmm0, 128(%r14)
	movups	%xmm0, 112(%r14)
	movups	%xmm0, 96(%r14)
	movups	%xmm0, 80(%r14)
	movups	%xmm0, 64(%r14)
	movups	%xmm0, 48(%r14)
	movups	%xmm0, 32(%r14)
	movups	%xmm0, 16(%r14)
	movups	%xmm0, (%r14)
	leaq	88(%rsp), %rdi
	callq	blake2_digest..wiping..settle..64_1_x86
	leaq	152(%rsp), %rdi
	callq	blake2_digest..wiping..settle..32_1_x86
	jmp	2b
5:
	movl	$344, %edx
	movq	%r14, %rdi
	xorl	%esi, %esi
	vj_c_call	memset
	leaq	160(%rsp), %rdi
	callq	blake2_digest..wiping..settle..128_1_x86
	leaq	288(%rsp), %rdi
	callq	blake2_digest..wiping..settle..64_1_x86
	jmp	2b
	vj_end	blake2_replay..calls..push..08bf280249c874f5_1_x86

	vj_cold	std_alloc..vec..Vec..grow_amortized..20c14b22e78258ad_1_x86
	movq	8(%rdi), %rax
	cmpq	$-1, %rax
	je	2f
	pushq	%r14
	pushq	%rbx
	pushq	%rax
	movq	16(%rdi), %rcx
	cmpq	$4, %rax
	movl	$3, %ebx
	cmovaeq	%rax, %rbx
	incq	%rbx
	movq	%rcx, %rsi
	shrq	$62, %rsi
	leaq	(%rcx,%rcx), %rdx
	cmpq	%rdx, %rbx
	cmovaq	%rbx, %rdx
	testq	%rsi, %rsi
	cmoveq	%rdx, %rbx
	movabsq	$25620477880152155, %rsi
	cmpq	%rsi, %rbx
	ja	4f
	testq	%rcx, %rcx
	je	3f
	movq	%rdi, %r14
	movq	(%rdi), %rdi
	imulq	$360, %rax, %rsi
	imulq	$360, %rbx, %rdx
	movl	$8, %ecx
	vj_call	rattle_realloc
	testb	$1, %al
	je	4f
1:
	movq	%rdx, (%r14)
	movq	%rbx, 16(%r14)
	movb	$1, %al
	addq	$8, %rsp
	popq	%rbx
	popq	%r14
	retq
2:
	xorl	%eax, %eax
	retq
3:
	movq	%rdi, %r14
	imulq	$360, %rdx, %rdi
	movl	$8, %esi
	vj_call	rattle_alloc
	testb	$1, %al
	jne	1b
4:
	xorl	%eax, %eax
	addq	$8, %rsp
	popq	%rbx
	popq	%r14
	retq
	vj_end	std_alloc..vec..Vec..grow_amortized..20c14b22e78258ad_1_x86

	vj_cold	std_alloc..vec..Vec..grow_amortized..cc873f31dc2b008d_1_x86
	movq	8(%rdi), %rsi
	cmpq	$-1, %rsi
	je	2f
	pushq	%r14
	pushq	%rbx
	pushq	%rax
	movq	16(%rdi), %rcx
	cmpq	$4, %rsi
	movl	$3, %ebx
	cmovaeq	%rsi, %rbx
	incq	%rbx
	movq	%rcx, %rdx
	shrq	$62, %rdx
	leaq	(%rcx,%rcx), %rax
	cmpq	%rax, %rbx
	cmovaq	%rbx, %rax
	testq	%rdx, %rdx
	cmoveq	%rax, %rbx
	movq	%rbx, %rdx
	shrq	$57, %rdx
	jne	4f
	testq	%rcx, %rcx
	je	3f
	movq	%rdi, %r14
	movq	(%rdi), %rdi
	shlq	$6, %rsi
	movq	%rbx, %rdx
	shlq	$6, %rdx
	movl	$1, %ecx
	vj_call	rattle_realloc
	testb	$1, %al
	je	4f
1:
	movq	%rdx, (%r14)
	movq	%rbx, 16(%r14)
	movb	$1, %al
	addq	$8, %rsp
	popq	%rbx
	popq	%r14
	retq
2:
	xorl	%eax, %eax
	retq
3:
	movq	%rdi, %r14
	shlq	$6, %rax
	movl	$1, %esi
	movq	%rax, %rdi
	vj_call	rattle_alloc
	testb	$1, %al
	jne	1b
4:
	xorl	%eax, %eax
	addq	$8, %rsp
	popq	%rbx
	popq	%r14
	retq
	vj_end	std_alloc..vec..Vec..grow_amortized..cc873f31dc2b008d_1_x86

	vj_function	b2_commands..script..print_lines..c1844c1740294036_1_x86
	pushq	%rbp
	pushq	%r15
	pushq	%r14
	pushq	%r13
	pushq	%r12
	pushq	%rbx
	subq	$568, %rsp
	movq	%r8, 40(%rsp)
	testq	%rdx, %rdx
	je	5f
	movq	%rcx, %rbx
	movq	%rsi, %r13
	leaq	(%rcx,%rcx), %r14
	leaq	1(,%rcx,2), %r12
	movl	%ebx, %r15d
	andl	$126, %r15d
	incq	%r13
	xorl	%eax, %eax
	movq	%rdi, 8(%rsp)
	movq	%rcx, 24(%rsp)
	movq	%rdx, 16(%rsp)
1:
	movq	%rax, 32(%rsp)
	leaq	48(%rsp), %rdi
	xorl	%ebp, %ebp
	movl	$424, %edx
	xorl	%esi, %esi
	vj_c_call	memset
	.p2align	4
2:
	movzbl	-1(%r13,%rbp), %ecx
	movl	%ecx, %edx
	shrl	$4, %edx
	leaq	.L1_x86_static.37(%rip), %rax
	movzbl	(%rdx,%rax), %edx
	movb	%dl, 48(%rsp,%rbp,2)
	andl	$15, %ecx
	movzbl	(%rcx,%rax), %ecx
	movb	%cl, 49(%rsp,%rbp,2)
	movzbl	(%r13,%rbp), %ecx
	movl	%ecx, %edx
	shrl	$4, %edx
	movzbl	(%rdx,%rax), %edx
	movb	%dl, 50(%rsp,%rbp,2)
	andl	$15, %ecx
	movzbl	(%rcx,%rax), %ecx
	movb	%cl, 51(%rsp,%rbp,2)
	addq	$2, %rbp
	cmpq	%rbp, %r15
	jne	2b
	testb	$1, %bl
	je	3f
	movzbl	-1(%r13,%rbp), %ecx
	movl	%ecx, %edx
	shrl	$4, %edx
	movzbl	(%rdx,%rax), %edx
	movb	%dl, 48(%rsp,%rbp,2)
	andl	$15, %ecx
	movzbl	(%rcx,%rax), %eax
	movb	%al, 49(%rsp,%rbp,2)
3:
	movb	$10, 48(%rsp,%r14)
	movq	%r12, 472(%rsp)
	xorl	%ebx, %ebx
	.p2align	4
4:
	leaq	(%rsp,%rbx), %rsi
	addq	$48, %rsi
	movq	%r12, %rbp
	subq	%rbx, %rbp
	movl	$1, %edi
	movq	%rbp, %rdx
	vj_system_call	write, b2_write
	testq	%rax, %rax
	js	6f
	cmpq	%rbp, %rax
	cmovbq	%rax, %rbp
	testq	%rbp, %rbp
	je	7f
	addq	%rbp, %rbx
	cmpq	%r14, %rbx
	jbe	4b
	movq	32(%rsp), %rax
	incq	%rax
	addq	$64, %r13
	movq	16(%rsp), %rdx
	cmpq	%rdx, %rax
	movq	8(%rsp), %rdi
	movq	24(%rsp), %rbx
	jne	1b
5:
	movb	$0, (%rdi)
	xorps	%xmm0, %xmm0
	movups	%xmm0, 8(%rdi)
	jmp	8f
6:
	leaq	480(%rsp), %rdi
	callq	std_io..io..error..last_error_1_x86
7:
	movq	40(%rsp), %rax
	movb	$1, (%rax)
	movq	8(%rsp), %rax
	movb	$1, (%rax)
	movq	$9, 8(%rax)
	movq	$0, 16(%rax)
8:
	addq	$568, %rsp
	popq	%rbx
	popq	%r12
	popq	%r13
	popq	%r14
	popq	%r15
	popq	%rbp
	retq
	vj_end	b2_commands..script..print_lines..c1844c1740294036_1_x86

	vj_function	std_alloc..vec..Vec..drop..3aab827fbd83c4c4_1_x86
	pushq	%r15
	pushq	%r14
	pushq	%r12
	pushq	%rbx
	pushq	%rax
	movq	(%rdi), %rbx
	movq	8(%rdi), %r15
	movq	16(%rdi), %r14
	testq	%r15, %r15
	je	3f
	leaq	32(%rbx), %r12
	jmp	2f
	.p2align	4
1:
	addq	$40, %r12
	decq	%r15
	je	3f
2:
	cmpb	$0, -32(%r12)
	jne	1b
	cmpq	$0, (%r12)
	je	1b
	movq	-16(%r12), %rdi
	vj_call	rattle_dealloc
	jmp	1b
3:
	testq	%r14, %r14
	je	4f
	movq	%rbx, %rdi
	addq	$8, %rsp
	popq	%rbx
	popq	%r12
	popq	%r14
	popq	%r15
	vj_jump	rattle_dealloc
4:
	addq	$8, %rsp
	popq	%rbx
	popq	%r12
	popq	%r14
	popq	%r15
	retq
	vj_end	std_alloc..vec..Vec..drop..3aab827fbd83c4c4_1_x86

	vj_cold	std_alloc..vec..Vec..grow_amortized..ccf18ec6ff387d97_1_x86
	movq	8(%rdi), %rax
	cmpq	$-1, %rax
	je	2f
	pushq	%r14
	pushq	%rbx
	pushq	%rax
	movq	16(%rdi), %rcx
	cmpq	$4, %rax
	movl	$3, %ebx
	cmovaeq	%rax, %rbx
	incq	%rbx
	movq	%rcx, %rsi
	shrq	$62, %rsi
	leaq	(%rcx,%rcx), %rdx
	cmpq	%rdx, %rbx
	cmovaq	%rbx, %rdx
	testq	%rsi, %rsi
	cmoveq	%rdx, %rbx
	movabsq	$64051194700380387, %rsi
	cmpq	%rsi, %rbx
	ja	4f
	testq	%rcx, %rcx
	je	3f
	movq	%rdi, %r14
	movq	(%rdi), %rdi
	shlq	$4, %rax
	leaq	(%rax,%rax,8), %rsi
	movq	%rbx, %rax
	shlq	$4, %rax
	leaq	(%rax,%rax,8), %rdx
	movl	$8, %ecx
	vj_call	rattle_realloc
	testb	$1, %al
	je	4f
1:
	movq	%rdx, (%r14)
	movq	%rbx, 16(%r14)
	movb	$1, %al
	addq	$8, %rsp
	popq	%rbx
	popq	%r14
	retq
2:
	xorl	%eax, %eax
	retq
3:
	movq	%rdi, %r14
	shlq	$4, %rdx
	leaq	(%rdx,%rdx,8), %rdi
	movl	$8, %esi
	vj_call	rattle_alloc
	testb	$1, %al
	jne	1b
4:
	xorl	%eax, %eax
	addq	$8, %rsp
	popq	%rbx
	popq	%r14
	retq
	vj_end	std_alloc..vec..Vec..grow_amortized..ccf18ec6ff387d97_1_x86

	vj_function	b2_commands..print..Line..add_words_of_64_1_x86
	pushq	%rbp
	pushq	%r15
	pushq	%r14
	pushq	%r13
	pushq	%r12
	pushq	%rbx
	movq	424(%rdi), %rax
	addq	$17, %rax
	xorl	%ecx, %ecx
	.p2align	4
1:
	movq	(%rsi,%rcx,8), %rdx
	bswapq	%rdx
	movl	%edx, %r12d
	shrl	$8, %r12d
	movl	%edx, %r15d
	shrl	$16, %r15d
	movl	%edx, %r14d
	shrl	$24, %r14d
	movq	%rdx, %rbx
	shrq	$32, %rbx
	movq	%rdx, %r11
	shrq	$40, %r11
	movq	%rdx, %r10
	shrq	$48, %r10
	movq	%rdx, %r8
	shrq	$56, %r8
	movb	$32, -17(%rdi,%rax)
	movl	%edx, %r13d
	shrl	$4, %r13d
	andl	$15, %r13d
	leaq	.L1_x86_static.37(%rip), %r9
	movzbl	(%r13,%r9), %ebp
	movb	%bpl, -16(%rdi,%rax)
	movl	%edx, %r13d
	andl	$15, %r13d
	movzbl	(%r13,%r9), %ebp
	movb	%bpl, -15(%rdi,%rax)
	movl	%edx, %r13d
	shrl	$12, %r13d
	andl	$15, %r13d
	movzbl	(%r13,%r9), %ebp
	movb	%bpl, -14(%rdi,%rax)
	andl	$15, %r12d
	movzbl	(%r12,%r9), %ebp
	movb	%bpl, -13(%rdi,%rax)
	movl	%edx, %r12d
	shrl	$20, %r12d
	andl	$15, %r12d
	movzbl	(%r12,%r9), %ebp
	movb	%bpl, -12(%rdi,%rax)
	andl	$15, %r15d
	movzbl	(%r15,%r9), %ebp
	movb	%bpl, -11(%rdi,%rax)
	movl	%edx, %r15d
	shrl	$28, %r15d
	movzbl	(%r15,%r9), %ebp
	movb	%bpl, -10(%rdi,%rax)
	andl	$15, %r14d
	movzbl	(%r14,%r9), %ebp
	movb	%bpl, -9(%rdi,%rax)
	movq	%rdx, %r14
	shrq	$36, %r14
	andl	$15, %r14d
	movzbl	(%r14,%r9), %ebp
	movb	%bpl, -8(%rdi,%rax)
	andl	$15, %ebx
	movzbl	(%rbx,%r9), %ebx
	movb	%bl, -7(%rdi,%rax)
	movq	%rdx, %rbx
	shrq	$44, %rbx
	andl	$15, %ebx
	movzbl	(%rbx,%r9), %ebx
	movb	%bl, -6(%rdi,%rax)
	andl	$15, %r11d
	movzbl	(%r11,%r9), %r11d
	movb	%r11b, -5(%rdi,%rax)
	movq	%rdx, %r11
	shrq	$52, %r11
	andl	$15, %r11d
	movzbl	(%r11,%r9), %r11d
	movb	%r11b, -4(%rdi,%rax)
	andl	$15, %r10d
	movzbl	(%r10,%r9), %r10d
	movb	%r10b, -3(%rdi,%rax)
	shrq	$60, %rdx
	movzbl	(%rdx,%r9), %edx
	movb	%dl, -2(%rdi,%rax)
	andl	$15, %r8d
	movzbl	(%r8,%r9), %edx
	movb	%dl, -1(%rdi,%rax)
	movq	%rax, 424(%rdi)
	incq	%rcx
	addq	$17, %rax
	cmpq	$8, %rcx
	jne	1b
	popq	%rbx
	popq	%r12
	popq	%r13
	popq	%r14
	popq	%r15
	popq	%rbp
	retq
	vj_end	b2_commands..print..Line..add_words_of_64_1_x86

	vj_function	b2_commands..print..Line..add_block_1_x86
	pushq	%rbx
	movq	424(%rdi), %rcx
	movb	$32, (%rdi,%rcx)
	leaq	1(%rcx), %rax
	movq	%rax, 424(%rdi)
	addq	%rdi, %rcx
	incq	%rcx
	movl	%edx, %r10d
	andl	$254, %r10d
	xorl	%r8d, %r8d
	.p2align	4
1:
	movzbl	(%rsi,%r8), %r11d
	movl	%r11d, %ebx
	shrl	$4, %ebx
	leaq	.L1_x86_static.37(%rip), %r9
	movzbl	(%rbx,%r9), %ebx
	movb	%bl, (%rcx,%r8,2)
	andl	$15, %r11d
	movzbl	(%r11,%r9), %r11d
	movb	%r11b, 1(%rcx,%r8,2)
	movzbl	1(%rsi,%r8), %r11d
	movl	%r11d, %ebx
	shrl	$4, %ebx
	movzbl	(%rbx,%r9), %ebx
	movb	%bl, 2(%rcx,%r8,2)
	andl	$15, %r11d
	movzbl	(%r11,%r9), %r11d
	movb	%r11b, 3(%rcx,%r8,2)
	addq	$2, %r8
	cmpq	%r8, %r10
	jne	1b
	testb	$1, %dl
	je	2f
	movzbl	(%rsi,%r8), %esi
	movl	%esi, %r10d
	shrl	$4, %r10d
	movzbl	(%r10,%r9), %r10d
	movb	%r10b, (%rcx,%r8,2)
	andl	$15, %esi
	movzbl	(%rsi,%r9), %esi
	movb	%sil, 1(%rcx,%r8,2)
2:
	leaq	(%rax,%rdx,2), %rax
	movq	%rax, 424(%rdi)
	popq	%rbx
	retq
	vj_end	b2_commands..print..Line..add_block_1_x86

	vj_cold	std_alloc..vec..Vec..grow_amortized..6c60784b9e596c8b_1_x86
	movq	8(%rdi), %rax
	cmpq	$-1, %rax
	je	2f
	pushq	%r14
	pushq	%rbx
	pushq	%rax
	movq	16(%rdi), %rcx
	cmpq	$4, %rax
	movl	$3, %ebx
	cmovaeq	%rax, %rbx
	incq	%rbx
	movq	%rcx, %rsi
	shrq	$62, %rsi
	leaq	(%rcx,%rcx), %rdx
	cmpq	%rdx, %rbx
	cmovaq	%rbx, %rdx
	testq	%rsi, %rsi
	cmoveq	%rdx, %rbx
	movabsq	$115292150460684697, %rsi
	cmpq	%rsi, %rbx
	ja	4f
	testq	%rcx, %rcx
	je	3f
	movq	%rdi, %r14
	movq	(%rdi), %rdi
	shlq	$4, %rax
	leaq	(%rax,%rax,4), %rsi
	movq	%rbx, %rax
	shlq	$4, %rax
	leaq	(%rax,%rax,4), %rdx
	movl	$8, %ecx
	vj_call	rattle_realloc
	testb	$1, %al
	je	4f
1:
	movq	%rdx, (%r14)
	movq	%rbx, 16(%r14)
	movb	$1, %al
	addq	$8, %rsp
	popq	%rbx
	popq	%r14
	retq
2:
	xorl	%eax, %eax
	retq
3:
	movq	%rdi, %r14
	shlq	$4, %rdx
	leaq	(%rdx,%rdx,4), %rdi
	movl	$8, %esi
	vj_call	rattle_alloc
	testb	$1, %al
	jne	1b
4:
	xorl	%eax, %eax
	addq	$8, %rsp
	popq	%rbx
	popq	%r14
	retq
	vj_end	std_alloc..vec..Vec..grow_amortized..6c60784b9e596c8b_1_x86

	vj_function	core..cmp..slices..groups_equal..i8.31.core..cmp..numbers..U8PartialEq_1_x86
	cmpq	$8, %rsi
	ja	1f
	movd	(%rdi), %xmm0
	pinsrd	$1, -4(%rdi,%rsi), %xmm0
	movd	(%rdx), %xmm1
	pinsrd	$1, -4(%rdx,%rsi), %xmm1
	movq	%xmm0, %rax
	movq	%xmm1, %rcx
	cmpq	%rcx, %rax
	jmp	9f
1:
	cmpq	$32, %rsi
	ja	2f
	leaq	-8(%rsi), %rax
	cmpq	$8, %rax
	movl	$8, %ecx
	cmovbq	%rax, %rcx
	cmpq	$16, %rax
	movl	$16, %r8d
	cmovbq	%rax, %r8
	movq	(%rdi,%rcx), %xmm0
	movq	(%rdi), %xmm1
	punpcklqdq	%xmm0, %xmm1
	movq	(%rdi,%r8), %xmm0
	movq	-8(%rdi,%rsi), %xmm2
	punpcklqdq	%xmm2, %xmm0
	movq	(%rdx,%rcx), %xmm2
	movq	(%rdx), %xmm3
	punpcklqdq	%xmm2, %xmm3
	pxor	%xmm1, %xmm3
	movq	(%rdx,%r8), %xmm1
	movq	-8(%rdx,%rsi), %xmm2
	punpcklqdq	%xmm2, %xmm1
	pxor	%xmm0, %xmm1
	por	%xmm3, %xmm1
	ptest	%xmm1, %xmm1
	jmp	9f
2:
	cmpq	$65, %rsi
	jae	3f
	movdqu	(%rdi), %xmm0
	movdqu	16(%rdi), %xmm1
	movdqu	(%rdx), %xmm2
	pxor	%xmm0, %xmm2
	movdqu	16(%rdx), %xmm0
	pxor	%xmm1, %xmm0
	movdqu	-32(%rdi,%rsi), %xmm1
	movdqu	-16(%rdi,%rsi), %xmm3
	movdqu	-32(%rdx,%rsi), %xmm4
	pxor	%xmm1, %xmm4
	por	%xmm2, %xmm4
	movdqu	-16(%rdx,%rsi), %xmm1
	pxor	%xmm3, %xmm1
	por	%xmm0, %xmm1
	por	%xmm4, %xmm1
	ptest	%xmm1, %xmm1
	jmp	9f
3:
	xorl	%eax, %eax
	movq	%rsi, %rcx
	.p2align	4
4:
	movdqu	(%rdi,%rax), %xmm0
	movdqu	16(%rdi,%rax), %xmm1
	movdqu	32(%rdi,%rax), %xmm2
	movdqu	48(%rdi,%rax), %xmm3
	movdqu	(%rdx,%rax), %xmm4
	pcmpeqb	%xmm0, %xmm4
	movdqu	16(%rdx,%rax), %xmm0
	pcmpeqb	%xmm1, %xmm0
	movdqu	32(%rdx,%rax), %xmm1
	pcmpeqb	%xmm2, %xmm1
	pand	%xmm4, %xmm1
	movdqu	48(%rdx,%rax), %xmm2
	pcmpeqb	%xmm3, %xmm2
	pand	%xmm0, %xmm2
	pand	%xmm1, %xmm2
	pmovmskb	%xmm2, %r8d
	cmpl	$65535, %r8d
	jne	5f
	addq	$64, %rax
	addq	$-64, %rcx
	cmpq	$63, %rcx
	ja	4b
5:
	cmpq	$32, %rcx
	jb	8f
	movq	%rsi, %rcx
	subq	%rax, %rcx
	.p2align	4
6:
	movdqu	(%rdi,%rax), %xmm0
	movdqu	16(%rdi,%rax), %xmm1
	movdqu	(%rdx,%rax), %xmm2
	pxor	%xmm0, %xmm2
	movdqu	16(%rdx,%rax), %xmm0
	pxor	%xmm1, %xmm0
	por	%xmm2, %xmm0
	ptest	%xmm0, %xmm0
	jne	7f
	addq	$32, %rax
	addq	$-32, %rcx
	cmpq	$31, %rcx
	ja	6b
	jmp	8f
7:
	movb	$1, %al
	cmpq	$31, %rcx
	ja	10f
8:
	movdqu	-32(%rdi,%rsi), %xmm0
	movdqu	-16(%rdi,%rsi), %xmm1
	movdqu	-32(%rdx,%rsi), %xmm2
	pxor	%xmm0, %xmm2
	movdqu	-16(%rdx,%rsi), %xmm0
	pxor	%xmm1, %xmm0
	por	%xmm2, %xmm0
	ptest	%xmm0, %xmm0
9:
	setne	%al
10:
	xorb	$1, %al
	retq
	vj_end	core..cmp..slices..groups_equal..i8.31.core..cmp..numbers..U8PartialEq_1_x86

	vj_constants	16
	.p2align	4, 0x0
.L1_x86_CPI34_0:
	.quad	7640891576956012808
	.quad	-4942790177534073029
.L1_x86_CPI34_1:
	.quad	4354685564936845355
	.quad	-6534734903238641935
.L1_x86_CPI34_2:
	.quad	2270897969802886507
	.quad	6620516959819538809
.L1_x86_CPI34_3:
	.quad	5840696475078001361
	.quad	-7276294671716946913
	vj_function	blake2_transcript..collision..blake2b..last_step_1_x86
	pushq	%rbp
	movq	%rsp, %rbp
	pushq	%r15
	pushq	%r14
	pushq	%r13
	pushq	%r12
	pushq	%rbx
	andq	$-32, %rsp
	subq	$672, %rsp
	movq	%rsi, %r14
	xorps	%xmm0, %xmm0
	movaps	%xmm0, 368(%rsp)
	movaps	%xmm0, 352(%rsp)
	movaps	%xmm0, 336(%rsp)
	movaps	%xmm0, 320(%rsp)
	movaps	%xmm0, 304(%rsp)
	movaps	%xmm0, 288(%rsp)
	movaps	%xmm0, 272(%rsp)
	movaps	%xmm0, 256(%rsp)
	movaps	%xmm0, 240(%rsp)
	movaps	%xmm0, 384(%rsp)
	movaps	%xmm0, 400(%rsp)
	movaps	%xmm0, 416(%rsp)
	movaps	%xmm0, 432(%rsp)
	movaps	%xmm0, 448(%rsp)
	movaps	%xmm0, 464(%rsp)
	movaps	%xmm0, 480(%rsp)
	movaps	%xmm0, 496(%rsp)
	movzbl	32(%rsi), %r13d
	movq	96(%rsi), %rbx
	leaq	128(%rbx), %rax
	testb	%r13b, %r13b
	movq	%rax, 224(%rsp)
	cmoveq	%rbx, %rax
	cmpq	$1, %rax
	adcq	$-1, %rax
	movq	%rdi, 232(%rsp)
	movq	%rax, %rcx
	shrq	$7, %rcx
	movq	%rcx, 184(%rsp)
	testb	%r13b, %r13b
	movq	%rax, 176(%rsp)
	je	1f
	movl	48(%r14), %eax
	shll	$8, %eax
	movzwl	%ax, %ecx
	jmp	2f
1:
	xorl	%ecx, %ecx
2:
	movq	(%r14), %rsi
	movq	8(%r14), %rax
	movq	16(%r14), %r15
	movq	24(%r14), %r12
	movzwl	56(%r14), %edi
	shll	$16, %edi
	orl	%ecx, %edi
	movzwl	72(%r14), %ecx
	movzbl	%dl, %edx
	orl	%edi, %edx
	movd	%edx, %xmm2
	pinsrd	$1, 60(%r14), %xmm2
	movq	64(%r14), %xmm1
	punpcklqdq	%xmm1, %xmm2
	movdqa	%xmm2, 160(%rsp)
	movaps	%xmm0, 16(%rsp)
	movaps	%xmm0, (%rsp)
	movd	%ecx, %xmm0
	movdqa	%xmm0, 144(%rsp)
	movq	%rsp, %rdi
	movq	%rax, %rdx
	vj_c_call	memcpy
	leaq	16(%rsp), %rdi
	movq	%r15, %rsi
	movq	%r12, %rdx
	vj_c_call	memcpy
	movaps	16(%rsp), %xmm0
	movaps	160(%rsp), %xmm1
	xorps	.L1_x86_CPI34_0(%rip), %xmm1
	movaps	%xmm1, 160(%rsp)
	movaps	144(%rsp), %xmm1
	xorps	.L1_x86_CPI34_1(%rip), %xmm1
	movaps	%xmm1, 144(%rsp)
	xorps	.L1_x86_CPI34_2(%rip), %xmm0
	movaps	%xmm0, 208(%rsp)
	movaps	(%rsp), %xmm0
	xorps	.L1_x86_CPI34_3(%rip), %xmm0
	movaps	%xmm0, 192(%rsp)
	movq	184(%rsp), %rax
	testq	%rax, %rax
	movq	%r14, 136(%rsp)
	je	3f
	testb	%r13b, %r13b
	je	4f
	movq	40(%r14), %rsi
	movq	48(%r14), %rdx
	jmp	5f
3:
	testb	%r13b, %r13b
	leaq	128(%rbx), %r15
	cmoveq	%rbx, %r15
	cmpq	$1, %r15
	adcq	$-1, %r15
	shrq	$7, %r15
	cmpq	%r15, %rax
	sete	%r14b
	testb	%r13b, %r13b
	movq	176(%rsp), %r12
	je	15f
	movq	136(%rsp), %r13
	movq	40(%r13), %rsi
	movq	48(%r13), %rdx
	xorps	%xmm0, %xmm0
	movaps	%xmm0, 112(%rsp)
	movaps	%xmm0, 96(%rsp)
	movaps	%xmm0, 80(%rsp)
	movaps	%xmm0, 64(%rsp)
	movaps	%xmm0, 48(%rsp)
	movaps	%xmm0, 32(%rsp)
	movaps	%xmm0, 16(%rsp)
	movaps	%xmm0, (%rsp)
	movq	%rsp, %rdi
	movq	%rax, %rbx
	vj_c_call	memcpy
	movq	224(%rsp), %rdx
	cmpq	%r15, %rbx
	je	7f
	jmp	16f
4:
	movq	88(%r14), %rsi
	cmpq	$128, %rbx
	movl	$128, %edx
	cmovbq	%rbx, %rdx
5:
	xorps	%xmm0, %xmm0
	movaps	%xmm0, 112(%rsp)
	movaps	%xmm0, 96(%rsp)
	movaps	%xmm0, 80(%rsp)
	movaps	%xmm0, 64(%rsp)
	movaps	%xmm0, 48(%rsp)
	movaps	%xmm0, 32(%rsp)
	movaps	%xmm0, 16(%rsp)
	movaps	%xmm0, (%rsp)
	movq	%rsp, %rdi
	vj_c_call	memcpy
	movaps	112(%rsp), %xmm0
	movaps	%xmm0, 624(%rsp)
	movaps	96(%rsp), %xmm1
	movaps	%xmm1, 608(%rsp)
	movdqa	80(%rsp), %xmm2
	movdqa	%xmm2, 592(%rsp)
	movaps	64(%rsp), %xmm3
	movaps	%xmm3, 576(%rsp)
	movaps	(%rsp), %xmm4
	movaps	16(%rsp), %xmm5
	movaps	32(%rsp), %xmm6
	movaps	48(%rsp), %xmm7
	movaps	%xmm7, 560(%rsp)
	movaps	%xmm6, 544(%rsp)
	movaps	%xmm5, 528(%rsp)
	movaps	%xmm4, 512(%rsp)
	movaps	%xmm4, 240(%rsp)
	movaps	%xmm5, 256(%rsp)
	movaps	%xmm6, 272(%rsp)
	movaps	%xmm7, 288(%rsp)
	movaps	%xmm3, 304(%rsp)
	movdqa	%xmm2, 320(%rsp)
	movaps	%xmm1, 336(%rsp)
	movaps	%xmm0, 352(%rsp)
	movq	$128, 368(%rsp)
	movq	$0, 376(%rsp)
	movaps	144(%rsp), %xmm0
	movups	%xmm0, 16(%rsp)
	movaps	160(%rsp), %xmm0
	movups	%xmm0, (%rsp)
	movaps	208(%rsp), %xmm0
	movups	%xmm0, 48(%rsp)
	movaps	192(%rsp), %xmm0
	movups	%xmm0, 32(%rsp)
	movq	%rsp, %rdi
	leaq	240(%rsp), %rsi
	movl	$128, %edx
	xorl	%ecx, %ecx
	xorl	%r8d, %r8d
	vj_call	blake2_compress..compress..blake2b..compress_1_x86
	movups	(%rsp), %xmm0
	movaps	%xmm0, 160(%rsp)
	movups	16(%rsp), %xmm0
	movaps	%xmm0, 144(%rsp)
	movups	32(%rsp), %xmm0
	movaps	%xmm0, 192(%rsp)
	movups	48(%rsp), %xmm0
	movaps	%xmm0, 208(%rsp)
	movq	184(%rsp), %rcx
	cmpq	$1, %rcx
	jne	8f
6:
	movq	136(%rsp), %r13
	movq	96(%r13), %rbx
	leaq	128(%rbx), %rdx
	movzbl	32(%r13), %eax
	testb	%al, %al
	movq	%rdx, %r15
	cmoveq	%rbx, %r15
	cmpq	$1, %r15
	adcq	$-1, %r15
	shrq	$7, %r15
	cmpq	%r15, %rcx
	sete	%r14b
	testb	%al, %al
	je	14f
	movq	176(%rsp), %r12
	movq	%r12, %rsi
	andq	$-128, %rsi
	addq	$-128, %rsi
	subq	%rsi, %rbx
	addq	88(%r13), %rsi
	cmpq	$128, %rbx
	movq	%rdx, %r14
	movl	$128, %edx
	cmovbq	%rbx, %rdx
	xorps	%xmm0, %xmm0
	movaps	%xmm0, 112(%rsp)
	movaps	%xmm0, 96(%rsp)
	movaps	%xmm0, 80(%rsp)
	movaps	%xmm0, 64(%rsp)
	movaps	%xmm0, 48(%rsp)
	movaps	%xmm0, 32(%rsp)
	movaps	%xmm0, 16(%rsp)
	movaps	%xmm0, (%rsp)
	movq	%rsp, %rdi
	movq	%rcx, %rbx
	vj_c_call	memcpy
	movq	%r14, %rdx
	cmpq	%r15, %rbx
	jne	16f
7:
	movzbl	80(%r13), %ecx
	movb	$1, %al
	movq	%rdx, %r12
	jmp	17f
8:
	movl	$1, %r12d
	movl	$256, %r14d
	xorl	%ebx, %ebx
	jmp	11f
	.p2align	4
9:
	movq	136(%rsp), %rax
	movzbl	80(%rax), %eax
10:
	xorl	%ecx, %ecx
	cmpq	%r15, %r12
	sete	%cl
	movaps	112(%rsp), %xmm0
	movaps	%xmm0, 624(%rsp)
	movaps	96(%rsp), %xmm1
	movaps	%xmm1, 608(%rsp)
	movdqa	80(%rsp), %xmm2
	movdqa	%xmm2, 592(%rsp)
	movaps	64(%rsp), %xmm3
	movaps	%xmm3, 576(%rsp)
	movaps	(%rsp), %xmm4
	movaps	16(%rsp), %xmm5
	movaps	32(%rsp), %xmm6
	movaps	48(%rsp), %xmm7
	movaps	%xmm7, 560(%rsp)
	movaps	%xmm6, 544(%rsp)
	movaps	%xmm5, 528(%rsp)
	movaps	%xmm4, 240(%rsp)
	movaps	%xmm5, 256(%rsp)
	movaps	%xmm6, 272(%rsp)
	movaps	%xmm7, 288(%rsp)
	movaps	%xmm3, 304(%rsp)
	movdqa	%xmm2, 320(%rsp)
	movaps	%xmm1, 336(%rsp)
	movaps	%xmm0, 352(%rsp)
	movq	%r13, 368(%rsp)
	sete	376(%rsp)
	movaps	%xmm4, 512(%rsp)
	movb	%al, 377(%rsp)
	leaq	378(%rsp), %rdx
	movw	$0, 4(%rdx)
	movl	$0, (%rdx)
	movaps	144(%rsp), %xmm0
	movups	%xmm0, 16(%rsp)
	movaps	160(%rsp), %xmm0
	movups	%xmm0, (%rsp)
	movaps	208(%rsp), %xmm0
	movups	%xmm0, 48(%rsp)
	movaps	192(%rsp), %xmm0
	movups	%xmm0, 32(%rsp)
	movzbl	%al, %r8d
	movq	%rsp, %rdi
	leaq	240(%rsp), %rsi
	movq	%r13, %rdx
	vj_call	blake2_compress..compress..blake2b..compress_1_x86
	movups	(%rsp), %xmm0
	movaps	%xmm0, 160(%rsp)
	movups	16(%rsp), %xmm0
	movaps	%xmm0, 144(%rsp)
	movups	32(%rsp), %xmm0
	movaps	%xmm0, 192(%rsp)
	movups	48(%rsp), %xmm0
	movaps	%xmm0, 208(%rsp)
	incq	%r12
	subq	$-128, %r14
	addq	$-128, %rbx
	movq	184(%rsp), %rcx
	cmpq	%r12, %rcx
	je	6b
11:
	movq	136(%rsp), %rdx
	movq	88(%rdx), %rcx
	movq	96(%rdx), %rax
	movzbl	32(%rdx), %edx
	leaq	128(%rax), %r13
	testb	%dl, %dl
	cmoveq	%rax, %r13
	cmpq	$1, %r13
	movq	%r13, %r15
	adcq	$-1, %r15
	testb	%dl, %dl
	je	12f
	leaq	(%rcx,%r14), %rsi
	addq	$-256, %rsi
	addq	%rbx, %rax
	jmp	13f
	.p2align	4
12:
	leaq	(%rcx,%r14), %rsi
	addq	$-128, %rsi
	addq	%rbx, %rax
	addq	$-128, %rax
13:
	cmpq	$128, %rax
	movl	$128, %edx
	cmovbq	%rax, %rdx
	xorps	%xmm0, %xmm0
	movaps	%xmm0, 112(%rsp)
	movaps	%xmm0, 96(%rsp)
	movaps	%xmm0, 80(%rsp)
	movaps	%xmm0, 64(%rsp)
	movaps	%xmm0, 48(%rsp)
	movaps	%xmm0, 32(%rsp)
	movaps	%xmm0, 16(%rsp)
	movaps	%xmm0, (%rsp)
	movq	%rsp, %rdi
	vj_c_call	memcpy
	shrq	$7, %r15
	cmpq	%r15, %r12
	je	9b
	xorl	%eax, %eax
	movq	%r14, %r13
	jmp	10b
14:
	movq	176(%rsp), %r12
15:
	movq	%r12, %rsi
	andq	$-128, %rsi
	movq	%rbx, %rax
	subq	%rsi, %rax
	movq	136(%rsp), %r13
	addq	88(%r13), %rsi
	cmpq	$128, %rax
	movl	$128, %edx
	cmovbq	%rax, %rdx
	xorps	%xmm0, %xmm0
	movaps	%xmm0, 112(%rsp)
	movaps	%xmm0, 96(%rsp)
	movaps	%xmm0, 80(%rsp)
	movaps	%xmm0, 64(%rsp)
	movaps	%xmm0, 48(%rsp)
	movaps	%xmm0, 32(%rsp)
	movaps	%xmm0, 16(%rsp)
	movaps	%xmm0, (%rsp)
	movq	%rsp, %rdi
	vj_c_call	memcpy
	movq	%rbx, %rdx
	testb	%r14b, %r14b
	jne	7b
16:
	andq	$-128, %r12
	subq	$-128, %r12
	xorl	%eax, %eax
	xorl	%ecx, %ecx
17:
	movaps	112(%rsp), %xmm0
	movaps	%xmm0, 496(%rsp)
	movaps	96(%rsp), %xmm0
	movaps	%xmm0, 480(%rsp)
	movaps	80(%rsp), %xmm0
	movaps	%xmm0, 464(%rsp)
	movaps	64(%rsp), %xmm0
	movaps	%xmm0, 448(%rsp)
	movaps	(%rsp), %xmm0
	movaps	16(%rsp), %xmm1
	movaps	32(%rsp), %xmm2
	movaps	48(%rsp), %xmm3
	movaps	%xmm3, 432(%rsp)
	movaps	%xmm2, 416(%rsp)
	movaps	%xmm1, 400(%rsp)
	movaps	%xmm0, 384(%rsp)
	movq	232(%rsp), %rdx
	movaps	144(%rsp), %xmm0
	movups	%xmm0, 16(%rdx)
	movaps	160(%rsp), %xmm0
	movups	%xmm0, (%rdx)
	movaps	208(%rsp), %xmm0
	movups	%xmm0, 48(%rdx)
	movaps	192(%rsp), %xmm0
	movups	%xmm0, 32(%rdx)
	movaps	384(%rsp), %xmm0
	movaps	400(%rsp), %xmm1
	movaps	416(%rsp), %xmm2
	movaps	432(%rsp), %xmm3
	movups	%xmm0, 64(%rdx)
	movups	%xmm1, 80(%rdx)
	movups	%xmm2, 96(%rdx)
	movups	%xmm3, 112(%rdx)
	movaps	448(%rsp), %xmm0
	movups	%xmm0, 128(%rdx)
	movaps	464(%rsp), %xmm0
	movups	%xmm0, 144(%rdx)
	movaps	480(%rsp), %xmm0
	movups	%xmm0, 160(%rdx)
	movaps	496(%rsp), %xmm0
	movups	%xmm0, 176(%rdx)
	movq	%r12, 192(%rdx)
	movb	%al, 200(%rdx)
	movb	%cl, 201(%rdx)
	movl	$0, 202(%rdx)
	movw	$0, 206(%rdx)
	leaq	-40(%rbp), %rsp
	popq	%rbx
	popq	%r12
	popq	%r13
	popq	%r14
	popq	%r15
	popq	%rbp
	retq
	vj_end	blake2_transcript..collision..blake2b..last_step_1_x86

	vj_function	blake2_transcript..collision..blake2b..bytes_after_1_x86
	pushq	%rbx
	subq	$64, %rsp
	movq	%rdi, %rbx
	movups	(%rsi), %xmm0
	movups	16(%rsi), %xmm1
	movups	32(%rsi), %xmm2
	movups	48(%rsi), %xmm3
	movaps	%xmm3, 48(%rsp)
	movaps	%xmm2, 32(%rsp)
	movaps	%xmm1, 16(%rsp)
	movaps	%xmm0, (%rsp)
	movq	128(%rdx), %rax
	movzbl	137(%rdx), %r8d
	movzbl	136(%rdx), %ecx
	movq	%rsp, %rdi
	movq	%rdx, %rsi
	movq	%rax, %rdx
	vj_call	blake2_compress..compress..blake2b..compress_1_x86
	movaps	(%rsp), %xmm0
	movaps	16(%rsp), %xmm1
	movaps	32(%rsp), %xmm2
	movaps	48(%rsp), %xmm3
	movups	%xmm0, (%rbx)
	movups	%xmm1, 16(%rbx)
	movups	%xmm2, 32(%rbx)
	movups	%xmm3, 48(%rbx)
	addq	$64, %rsp
	popq	%rbx
	retq
	vj_end	blake2_transcript..collision..blake2b..bytes_after_1_x86

	vj_function	blake2_transcript..collision..blake2b..same_step_1_x86
	movdqu	(%rdi), %xmm0
	movdqu	16(%rdi), %xmm1
	movdqu	32(%rdi), %xmm2
	movdqu	48(%rdi), %xmm3
	movdqu	(%rdx), %xmm4
	pcmpeqq	%xmm0, %xmm4
	movdqu	16(%rdx), %xmm0
	pcmpeqq	%xmm1, %xmm0
	packssdw	%xmm0, %xmm4
	movdqu	32(%rdx), %xmm0
	pcmpeqq	%xmm2, %xmm0
	movdqu	48(%rdx), %xmm1
	pcmpeqq	%xmm3, %xmm1
	packssdw	%xmm1, %xmm0
	packssdw	%xmm0, %xmm4
	packsswb	%xmm4, %xmm4
	pmovmskb	%xmm4, %eax
	cmpb	$-1, %al
	jne	3f
	movq	128(%rsi), %rax
	cmpq	128(%rcx), %rax
	jne	3f
	movzbl	136(%rsi), %eax
	cmpb	136(%rcx), %al
	jne	3f
	movzbl	137(%rsi), %eax
	cmpb	137(%rcx), %al
	jne	3f
	movdqu	(%rsi), %xmm0
	movdqu	16(%rsi), %xmm1
	movdqu	32(%rsi), %xmm2
	movdqu	48(%rsi), %xmm3
	movdqu	(%rcx), %xmm4
	pcmpeqb	%xmm0, %xmm4
	movdqu	16(%rcx), %xmm0
	pcmpeqb	%xmm1, %xmm0
	movdqu	32(%rcx), %xmm1
	pcmpeqb	%xmm2, %xmm1
	pand	%xmm4, %xmm1
	movdqu	48(%rcx), %xmm2
	pcmpeqb	%xmm3, %xmm2
	pand	%xmm0, %xmm2
	pand	%xmm1, %xmm2
	pmovmskb	%xmm2, %eax
	xorl	$65535, %eax
	je	1f
	xorl	%edx, %edx
	jmp	2f
1:
	movdqu	64(%rsi), %xmm0
	movdqu	80(%rsi), %xmm1
	movdqu	96(%rsi), %xmm2
	movdqu	112(%rsi), %xmm3
	movdqu	64(%rcx), %xmm4
	pcmpeqb	%xmm0, %xmm4
	movdqu	80(%rcx), %xmm0
	pcmpeqb	%xmm1, %xmm0
	movdqu	96(%rcx), %xmm1
	pcmpeqb	%xmm2, %xmm1
	pand	%xmm4, %xmm1
	movdqu	112(%rcx), %xmm2
	pcmpeqb	%xmm3, %xmm2
	pand	%xmm0, %xmm2
	pand	%xmm1, %xmm2
	pmovmskb	%xmm2, %edi
	movl	$64, %edx
	cmpl	$65535, %edi
	je	5f
2:
	movdqu	(%rsi,%rdx), %xmm0
	movdqu	16(%rsi,%rdx), %xmm1
	movdqu	(%rcx,%rdx), %xmm2
	pxor	%xmm0, %xmm2
	movdqu	16(%rcx,%rdx), %xmm0
	pxor	%xmm1, %xmm0
	por	%xmm2, %xmm0
	ptest	%xmm0, %xmm0
	jne	3f
	movdqu	32(%rsi,%rdx), %xmm0
	movdqu	48(%rsi,%rdx), %xmm1
	movdqu	32(%rcx,%rdx), %xmm2
	pxor	%xmm0, %xmm2
	movdqu	48(%rcx,%rdx), %xmm0
	pxor	%xmm1, %xmm0
	por	%xmm2, %xmm0
	ptest	%xmm0, %xmm0
	je	4f
3:
	xorl	%eax, %eax
	retq
4:
	movq	%rdx, %rdi
	orq	$32, %rdi
	cmpl	$64, %edi
	ja	5f
	movdqu	64(%rsi,%rdx), %xmm0
	movdqu	80(%rsi,%rdx), %xmm1
	movdqu	64(%rcx,%rdx), %xmm2
	pxor	%xmm0, %xmm2
	movdqu	80(%rcx,%rdx), %xmm0
	pxor	%xmm1, %xmm0
	por	%xmm2, %xmm0
	ptest	%xmm0, %xmm0
	jne	3b
	testw	%ax, %ax
	je	5f
	movdqu	96(%rsi,%rdx), %xmm0
	movdqu	112(%rsi,%rdx), %xmm1
	movdqu	96(%rcx,%rdx), %xmm2
	pxor	%xmm0, %xmm2
	movdqu	112(%rcx,%rdx), %xmm0
	pxor	%xmm1, %xmm0
	por	%xmm2, %xmm0
	ptest	%xmm0, %xmm0
	jne	3b
5:
	movdqu	96(%rsi), %xmm0
	movdqu	112(%rsi), %xmm1
	movdqu	96(%rcx), %xmm2
	pxor	%xmm0, %xmm2
	movdqu	112(%rcx), %xmm0
	pxor	%xmm1, %xmm0
	por	%xmm2, %xmm0
	ptest	%xmm0, %xmm0
	sete	%al
	retq
	vj_end	blake2_transcript..collision..blake2b..same_step_1_x86

	vj_function	b2_commands..witness..print_blake2b..c1844c1740294036_1_x86
	pushq	%r15
	pushq	%r14
	pushq	%r13
	pushq	%r12
	pushq	%rbx
	subq	$528, %rsp
	movq	%rdx, %r14
	movq	%rsi, %r15
	movq	%rdi, %rbx
	leaq	97(%rsp), %rdi
	movl	$423, %edx
	xorl	%esi, %esi
	vj_c_call	memset
	movb	$115, 96(%rsp)
	movq	$1, 520(%rsp)
	leaq	96(%rsp), %rdi
	movq	%r15, %rsi
	callq	b2_commands..print..Line..add_words_of_64_1_x86
	movq	192(%r15), %rcx
	movq	520(%rsp), %r13
	movb	$32, 96(%rsp,%r13)
	xorps	%xmm0, %xmm0
	movaps	%xmm0, (%rsp)
	movl	$0, 16(%rsp)
	movl	$19, %edi
	cmpq	$10, %rcx
	jb	2f
	.p2align	4
1:
	movabsq	$-3689348814741910323, %rdx
	movq	%rcx, %rax
	mulq	%rdx
	shrq	$3, %rdx
	leal	(%rdx,%rdx), %eax
	leal	(%rax,%rax,4), %eax
	movl	%ecx, %esi
	subl	%eax, %esi
	orb	$48, %sil
	movb	%sil, (%rsp,%rdi)
	decq	%rdi
	cmpq	$99, %rcx
	movq	%rdx, %rcx
	ja	1b
	jmp	3f
2:
	movq	%rcx, %rdx
3:
	orb	$48, %dl
	leaq	(%rsp,%rdi), %rsi
	movb	%dl, (%rsp,%rdi)
	movl	$20, %r12d
	subq	%rdi, %r12
	leaq	(%rsp,%r13), %rdi
	addq	$97, %rdi
	movq	%r12, %rdx
	vj_c_call	memcpy
	leaq	(%r12,%r13), %rax
	incq	%rax
	leaq	(%rsp,%rax), %rcx
	addq	$96, %rcx
	cmpb	$1, 200(%r15)
	jne	4f
	leaq	.L1_x86_static.42(%rip), %rdx
	movq	%rcx, %rsi
	subq	%rdx, %rsi
	cmpq	$1, %rsi
	movw	$12576, (%rcx)
	jmp	5f
4:
	leaq	.L1_x86_static.43(%rip), %rdx
	movq	%rcx, %rsi
	subq	%rdx, %rsi
	cmpq	$1, %rsi
	movw	$12320, (%rcx)
5:
	addq	$2, %rax
	movq	%rax, 520(%rsp)
	addq	$64, %r15
	leaq	96(%rsp), %rdi
	movl	$128, %edx
	movq	%r15, %rsi
	callq	b2_commands..print..Line..add_block_1_x86
	movq	520(%rsp), %r12
	movb	$10, 96(%rsp,%r12)
	incq	%r12
	movq	%r12, 520(%rsp)
	je	7f
	xorl	%r13d, %r13d
	.p2align	4
6:
	leaq	(%rsp,%r13), %rsi
	addq	$96, %rsi
	movq	%r12, %r15
	subq	%r13, %r15
	movl	$1, %edi
	movq	%r15, %rdx
	vj_system_call	write, b2_write
	testq	%rax, %rax
	js	8f
	cmpq	%r15, %rax
	cmovbq	%rax, %r15
	testq	%r15, %r15
	je	9f
	addq	%r15, %r13
	cmpq	%r12, %r13
	jb	6b
7:
	xorl	%eax, %eax
	jmp	10f
8:
	movq	%rsp, %rdi
	callq	std_io..io..error..last_error_1_x86
9:
	movb	$1, (%r14)
	movb	$1, %al
10:
	movb	%al, (%rbx)
	movzbl	%al, %eax
	leaq	(%rax,%rax,8), %rax
	movq	%rax, 8(%rbx)
	movq	$0, 16(%rbx)
	addq	$528, %rsp
	popq	%rbx
	popq	%r12
	popq	%r13
	popq	%r14
	popq	%r15
	retq
	vj_end	b2_commands..witness..print_blake2b..c1844c1740294036_1_x86

	vj_constants	16
	.p2align	4, 0x0
.L1_x86_CPI38_0:
	.long	1779033703
	.long	3144134277
	.long	1013904242
	.long	2773480762
.L1_x86_CPI38_1:
	.long	1359893119
	.long	2600822924
	.long	528734635
	.long	1541459225
	vj_function	blake2_transcript..collision..blake2s..last_step_1_x86
	pushq	%rbp
	pushq	%r15
	pushq	%r14
	pushq	%r13
	pushq	%r12
	pushq	%rbx
	subq	$344, %rsp
	movq	%rsi, %r14
	xorps	%xmm0, %xmm0
	movaps	%xmm0, 176(%rsp)
	movaps	%xmm0, 160(%rsp)
	movaps	%xmm0, 144(%rsp)
	movaps	%xmm0, 128(%rsp)
	movaps	%xmm0, 112(%rsp)
	movaps	%xmm0, 208(%rsp)
	movaps	%xmm0, 224(%rsp)
	movaps	%xmm0, 240(%rsp)
	movaps	%xmm0, 256(%rsp)
	movzbl	32(%rsi), %ebx
	movq	96(%rsi), %r13
	leaq	64(%r13), %rax
	testb	%bl, %bl
	movq	%rax, 72(%rsp)
	cmoveq	%r13, %rax
	cmpq	$1, %rax
	adcq	$-1, %rax
	movq	%rdi, 200(%rsp)
	movq	%rax, %rbp
	shrq	$6, %rbp
	testb	%bl, %bl
	movq	%rax, 64(%rsp)
	je	1f
	movl	48(%r14), %eax
	shll	$8, %eax
	movzwl	%ax, %ecx
	jmp	2f
1:
	xorl	%ecx, %ecx
2:
	movq	(%r14), %rsi
	movq	8(%r14), %rax
	movq	16(%r14), %r15
	movq	24(%r14), %r12
	movzwl	56(%r14), %edi
	shll	$16, %edi
	orl	%ecx, %edi
	movzbl	%dl, %ecx
	orl	%edi, %ecx
	movd	%ecx, %xmm2
	pinsrd	$1, 60(%r14), %xmm2
	movq	64(%r14), %xmm1
	punpcklqdq	%xmm1, %xmm2
	pinsrw	$7, 72(%r14), %xmm2
	movdqa	%xmm2, 80(%rsp)
	movaps	%xmm0, (%rsp)
	movq	%rsp, %rdi
	movq	%rax, %rdx
	vj_c_call	memcpy
	leaq	8(%rsp), %rdi
	movq	%r15, %rsi
	movq	%r12, %rdx
	vj_c_call	memcpy
	movaps	80(%rsp), %xmm0
	xorps	.L1_x86_CPI38_0(%rip), %xmm0
	movaps	%xmm0, 80(%rsp)
	movaps	(%rsp), %xmm0
	xorps	.L1_x86_CPI38_1(%rip), %xmm0
	movaps	%xmm0, 96(%rsp)
	testq	%rbp, %rbp
	je	3f
	testb	%bl, %bl
	je	4f
	movq	40(%r14), %rsi
	movq	48(%r14), %rdx
	jmp	5f
3:
	testb	%bl, %bl
	leaq	64(%r13), %r15
	cmoveq	%r13, %r15
	cmpq	$1, %r15
	adcq	$-1, %r15
	shrq	$6, %r15
	cmpq	%r15, %rbp
	movq	%rbp, %r12
	sete	%bpl
	testb	%bl, %bl
	je	8f
	movq	40(%r14), %rsi
	movq	48(%r14), %rdx
	xorps	%xmm0, %xmm0
	movaps	%xmm0, 48(%rsp)
	movaps	%xmm0, 32(%rsp)
	movaps	%xmm0, 16(%rsp)
	movaps	%xmm0, (%rsp)
	movq	%rsp, %rdi
	vj_c_call	memcpy
	movq	72(%rsp), %r13
	cmpq	%r15, %r12
	movq	64(%rsp), %r15
	je	7f
	jmp	9f
4:
	movq	88(%r14), %rsi
	cmpq	$64, %r13
	movl	$64, %edx
	cmovbq	%r13, %rdx
5:
	xorps	%xmm0, %xmm0
	movaps	%xmm0, 48(%rsp)
	movaps	%xmm0, 32(%rsp)
	movaps	%xmm0, 16(%rsp)
	movaps	%xmm0, (%rsp)
	movq	%rsp, %rdi
	vj_c_call	memcpy
	movaps	(%rsp), %xmm0
	movdqa	16(%rsp), %xmm1
	movdqa	32(%rsp), %xmm2
	movaps	48(%rsp), %xmm3
	movaps	%xmm3, 320(%rsp)
	movdqa	%xmm2, 304(%rsp)
	movdqa	%xmm1, 288(%rsp)
	movaps	%xmm0, 272(%rsp)
	movaps	%xmm0, 112(%rsp)
	movdqa	%xmm1, 128(%rsp)
	movdqa	%xmm2, 144(%rsp)
	movaps	%xmm3, 160(%rsp)
	movq	$64, 176(%rsp)
	movq	$0, 184(%rsp)
	movaps	80(%rsp), %xmm0
	movaps	%xmm0, (%rsp)
	movaps	96(%rsp), %xmm0
	movaps	%xmm0, 16(%rsp)
	movq	%rsp, %rdi
	leaq	112(%rsp), %rsi
	movl	$64, %edx
	xorl	%ecx, %ecx
	xorl	%r8d, %r8d
	vj_call	blake2_compress..compress..blake2s..compress_1_x86
	movaps	(%rsp), %xmm0
	movaps	%xmm0, 80(%rsp)
	movaps	16(%rsp), %xmm0
	movaps	%xmm0, 96(%rsp)
	movq	%rbp, 72(%rsp)
	cmpq	$1, %rbp
	jne	11f
6:
	movq	96(%r14), %r13
	leaq	64(%r13), %rcx
	movzbl	32(%r14), %eax
	testb	%al, %al
	movq	%rcx, %rbx
	cmoveq	%r13, %rbx
	cmpq	$1, %rbx
	adcq	$-1, %rbx
	shrq	$6, %rbx
	movq	72(%rsp), %r12
	cmpq	%rbx, %r12
	sete	%bpl
	testb	%al, %al
	je	8f
	movq	64(%rsp), %r15
	movq	%r15, %rsi
	andq	$-64, %rsi
	addq	$-64, %rsi
	subq	%rsi, %r13
	addq	88(%r14), %rsi
	cmpq	$64, %r13
	movq	%rcx, %rbp
	movl	$64, %edx
	cmovbq	%r13, %rdx
	xorps	%xmm0, %xmm0
	movaps	%xmm0, 48(%rsp)
	movaps	%xmm0, 32(%rsp)
	movaps	%xmm0, 16(%rsp)
	movaps	%xmm0, (%rsp)
	movq	%rsp, %rdi
	vj_c_call	memcpy
	movq	%rbp, %r13
	cmpq	%rbx, %r12
	jne	9f
7:
	movzbl	80(%r14), %ecx
	movb	$1, %al
	movq	%r13, %r15
	jmp	10f
8:
	movq	64(%rsp), %r15
	movq	%r15, %rsi
	andq	$-64, %rsi
	movq	%r13, %rax
	subq	%rsi, %rax
	addq	88(%r14), %rsi
	cmpq	$64, %rax
	movl	$64, %edx
	cmovbq	%rax, %rdx
	xorps	%xmm0, %xmm0
	movaps	%xmm0, 48(%rsp)
	movaps	%xmm0, 32(%rsp)
	movaps	%xmm0, 16(%rsp)
	movaps	%xmm0, (%rsp)
	movq	%rsp, %rdi
	vj_c_call	memcpy
	testb	%bpl, %bpl
	jne	7b
9:
	andq	$-64, %r15
	addq	$64, %r15
	xorl	%eax, %eax
	xorl	%ecx, %ecx
10:
	movaps	(%rsp), %xmm0
	movaps	16(%rsp), %xmm1
	movaps	32(%rsp), %xmm2
	movaps	48(%rsp), %xmm3
	movaps	%xmm3, 256(%rsp)
	movaps	%xmm2, 240(%rsp)
	movaps	%xmm1, 224(%rsp)
	movaps	%xmm0, 208(%rsp)
	movq	200(%rsp), %rdx
	movaps	80(%rsp), %xmm0
	movups	%xmm0, (%rdx)
	movaps	96(%rsp), %xmm0
	movups	%xmm0, 16(%rdx)
	movaps	208(%rsp), %xmm0
	movaps	224(%rsp), %xmm1
	movaps	240(%rsp), %xmm2
	movaps	256(%rsp), %xmm3
	movups	%xmm0, 32(%rdx)
	movups	%xmm1, 48(%rdx)
	movups	%xmm2, 64(%rdx)
	movups	%xmm3, 80(%rdx)
	movq	%r15, 96(%rdx)
	movb	%al, 104(%rdx)
	movb	%cl, 105(%rdx)
	movl	$0, 106(%rdx)
	movw	$0, 110(%rdx)
	addq	$344, %rsp
	popq	%rbx
	popq	%r12
	popq	%r13
	popq	%r14
	popq	%r15
	popq	%rbp
	retq
11:
	movl	$1, %r13d
	movl	$128, %r12d
	xorl	%ebp, %ebp
	jmp	14f
	.p2align	4
12:
	movzbl	80(%r14), %eax
13:
	xorl	%ecx, %ecx
	cmpq	%r15, %r13
	sete	%cl
	movaps	(%rsp), %xmm0
	movdqa	16(%rsp), %xmm1
	movdqa	32(%rsp), %xmm2
	movaps	48(%rsp), %xmm3
	movaps	%xmm3, 320(%rsp)
	movdqa	%xmm2, 304(%rsp)
	movdqa	%xmm1, 288(%rsp)
	movaps	%xmm0, 272(%rsp)
	movaps	%xmm0, 112(%rsp)
	movdqa	%xmm1, 128(%rsp)
	movdqa	%xmm2, 144(%rsp)
	movaps	%xmm3, 160(%rsp)
	movq	%rbx, 176(%rsp)
	sete	184(%rsp)
	movb	%al, 185(%rsp)
	leaq	186(%rsp), %rdx
	movw	$0, 4(%rdx)
	movl	$0, (%rdx)
	movaps	80(%rsp), %xmm0
	movaps	%xmm0, (%rsp)
	movaps	96(%rsp), %xmm0
	movaps	%xmm0, 16(%rsp)
	movzbl	%al, %r8d
	movq	%rsp, %rdi
	leaq	112(%rsp), %rsi
	movq	%rbx, %rdx
	vj_call	blake2_compress..compress..blake2s..compress_1_x86
	movaps	(%rsp), %xmm0
	movaps	%xmm0, 80(%rsp)
	movaps	16(%rsp), %xmm0
	movaps	%xmm0, 96(%rsp)
	incq	%r13
	addq	$64, %r12
	addq	$-64, %rbp
	cmpq	%r13, 72(%rsp)
	je	6b
14:
	movq	88(%r14), %rcx
	movq	96(%r14), %rax
	movzbl	32(%r14), %edx
	leaq	64(%rax), %rbx
	testb	%dl, %dl
	cmoveq	%rax, %rbx
	cmpq	$1, %rbx
	movq	%rbx, %r15
	adcq	$-1, %r15
	testb	%dl, %dl
	je	15f
	leaq	(%rcx,%r12), %rsi
	addq	$-128, %rsi
	addq	%rbp, %rax
	jmp	16f
	.p2align	4
15:
	leaq	(%rcx,%r12), %rsi
	addq	$-64, %rsi
	addq	%rbp, %rax
	addq	$-64, %rax
16:
	cmpq	$64, %rax
	movl	$64, %edx
	cmovbq	%rax, %rdx
	xorps	%xmm0, %xmm0
	movaps	%xmm0, 48(%rsp)
	movaps	%xmm0, 32(%rsp)
	movaps	%xmm0, 16(%rsp)
	movaps	%xmm0, (%rsp)
	movq	%rsp, %rdi
	vj_c_call	memcpy
	shrq	$6, %r15
	cmpq	%r15, %r13
	je	12b
	xorl	%eax, %eax
	movq	%r12, %rbx
	jmp	13b
	vj_end	blake2_transcript..collision..blake2s..last_step_1_x86

	vj_function	blake2_transcript..collision..blake2s..same_step_1_x86
	movdqu	(%rdi), %xmm0
	movdqu	16(%rdi), %xmm1
	movdqu	(%rdx), %xmm2
	pxor	%xmm0, %xmm2
	movdqu	16(%rdx), %xmm0
	pxor	%xmm1, %xmm0
	por	%xmm2, %xmm0
	ptest	%xmm0, %xmm0
	jne	1f
	movq	64(%rsi), %rax
	cmpq	64(%rcx), %rax
	jne	1f
	movzbl	72(%rsi), %eax
	cmpb	72(%rcx), %al
	jne	1f
	movzbl	73(%rsi), %eax
	cmpb	73(%rcx), %al
	jne	1f
	movdqu	(%rsi), %xmm0
	movdqu	16(%rsi), %xmm1
	movdqu	32(%rsi), %xmm2
	movdqu	48(%rsi), %xmm3
	movdqu	(%rcx), %xmm4
	pxor	%xmm0, %xmm4
	movdqu	16(%rcx), %xmm0
	pxor	%xmm1, %xmm0
	movdqu	32(%rcx), %xmm1
	pxor	%xmm2, %xmm1
	por	%xmm4, %xmm1
	movdqu	48(%rcx), %xmm2
	pxor	%xmm3, %xmm2
	por	%xmm0, %xmm2
	por	%xmm1, %xmm2
	ptest	%xmm2, %xmm2
	sete	%al
	retq
1:
	xorl	%eax, %eax
	retq
	vj_end	blake2_transcript..collision..blake2s..same_step_1_x86

	vj_function	b2_commands..witness..print_blake2s..c1844c1740294036_1_x86
	pushq	%r15
	pushq	%r14
	pushq	%r13
	pushq	%r12
	pushq	%rbx
	subq	$528, %rsp
	movq	%rdx, %r14
	movq	%rsi, %r15
	movq	%rdi, %rbx
	leaq	74(%rsp), %rdi
	movl	$350, %edx
	xorl	%esi, %esi
	vj_c_call	memset
	movb	$115, (%rsp)
	movl	(%r15), %ecx
	bswapl	%ecx
	movl	%ecx, %edi
	shrl	$8, %edi
	movl	%ecx, %esi
	shrl	$16, %esi
	movl	%ecx, %edx
	shrl	$24, %edx
	movb	$32, 1(%rsp)
	movzbl	%cl, %r8d
	shrl	$4, %r8d
	leaq	.L1_x86_static.37(%rip), %rax
	movzbl	(%r8,%rax), %r8d
	movb	%r8b, 2(%rsp)
	movl	%ecx, %r8d
	andl	$15, %r8d
	movzbl	(%r8,%rax), %r8d
	movb	%r8b, 3(%rsp)
	movl	%ecx, %r8d
	shrl	$12, %r8d
	andl	$15, %r8d
	movzbl	(%r8,%rax), %r8d
	movb	%r8b, 4(%rsp)
	andl	$15, %edi
	movzbl	(%rdi,%rax), %edi
	movb	%dil, 5(%rsp)
	movl	%ecx, %edi
	shrl	$20, %edi
	andl	$15, %edi
	movzbl	(%rdi,%rax), %edi
	movb	%dil, 6(%rsp)
	andl	$15, %esi
	movzbl	(%rsi,%rax), %esi
	movb	%sil, 7(%rsp)
	shrl	$28, %ecx
	movzbl	(%rcx,%rax), %ecx
	movb	%cl, 8(%rsp)
	andl	$15, %edx
	movzbl	(%rdx,%rax), %ecx
	movb	%cl, 9(%rsp)
	movl	4(%r15), %ecx
	bswapl	%ecx
	movl	%ecx, %edi
	shrl	$8, %edi
	movl	%ecx, %esi
	shrl	$16, %esi
	movl	%ecx, %edx
	shrl	$24, %edx
	movb	$32, 10(%rsp)
	movzbl	%cl, %r8d
	shrl	$4, %r8d
	movzbl	(%r8,%rax), %r8d
	movb	%r8b, 11(%rsp)
	movl	%ecx, %r8d
	andl	$15, %r8d
	movzbl	(%r8,%rax), %r8d
	movb	%r8b, 12(%rsp)
	movl	%ecx, %r8d
	shrl	$12, %r8d
	andl	$15, %r8d
	movzbl	(%r8,%rax), %r8d
	movb	%r8b, 13(%rsp)
	andl	$15, %edi
	movzbl	(%rdi,%rax), %edi
	movb	%dil, 14(%rsp)
	movl	%ecx, %edi
	shrl	$20, %edi
	andl	$15, %edi
	movzbl	(%rdi,%rax), %edi
	movb	%dil, 15(%rsp)
	andl	$15, %esi
	movzbl	(%rsi,%rax), %esi
	movb	%sil, 16(%rsp)
	shrl	$28, %ecx
	movzbl	(%rcx,%rax), %ecx
	movb	%cl, 17(%rsp)
	andl	$15, %edx
	movzbl	(%rdx,%rax), %ecx
	movb	%cl, 18(%rsp)
	movl	8(%r15), %ecx
	bswapl	%ecx
	movl	%ecx, %edi
	shrl	$8, %edi
	movl	%ecx, %esi
	shrl	$16, %esi
	movl	%ecx, %edx
	shrl	$24, %edx
	movb	$32, 19(%rsp)
	movzbl	%cl, %r8d
	shrl	$4, %r8d
	movzbl	(%r8,%rax), %r8d
	movb	%r8b, 20(%rsp)
	movl	%ecx, %r8d
	andl	$15, %r8d
	movzbl	(%r8,%rax), %r8d
	movb	%r8b, 21(%rsp)
	movl	%ecx, %r8d
	shrl	$12, %r8d
	andl	$15, %r8d
	movzbl	(%r8,%rax), %r8d
	movb	%r8b, 22(%rsp)
	andl	$15, %edi
	movzbl	(%rdi,%rax), %edi
	movb	%dil, 23(%rsp)
	movl	%ecx, %edi
	shrl	$20, %edi
	andl	$15, %edi
	movzbl	(%rdi,%rax), %edi
	movb	%dil, 24(%rsp)
	andl	$15, %esi
	movzbl	(%rsi,%rax), %esi
	movb	%sil, 25(%rsp)
	shrl	$28, %ecx
	movzbl	(%rcx,%rax), %ecx
	movb	%cl, 26(%rsp)
	andl	$15, %edx
	movzbl	(%rdx,%rax), %ecx
	movb	%cl, 27(%rsp)
	movl	12(%r15), %ecx
	bswapl	%ecx
	movl	%ecx, %edi
	shrl	$8, %edi
	movl	%ecx, %esi
	shrl	$16, %esi
	movl	%ecx, %edx
	shrl	$24, %edx
	movb	$32, 28(%rsp)
	movzbl	%cl, %r8d
	shrl	$4, %r8d
	movzbl	(%r8,%rax), %r8d
	movb	%r8b, 29(%rsp)
	movl	%ecx, %r8d
	andl	$15, %r8d
	movzbl	(%r8,%rax), %r8d
	movb	%r8b, 30(%rsp)
	movl	%ecx, %r8d
	shrl	$12, %r8d
	andl	$15, %r8d
	movzbl	(%r8,%rax), %r8d
	movb	%r8b, 31(%rsp)
	andl	$15, %edi
	movzbl	(%rdi,%rax), %edi
	movb	%dil, 32(%rsp)
	movl	%ecx, %edi
	shrl	$20, %edi
	andl	$15, %edi
	movzbl	(%rdi,%rax), %edi
	movb	%dil, 33(%rsp)
	andl	$15, %esi
	movzbl	(%rsi,%rax), %esi
	movb	%sil, 34(%rsp)
	shrl	$28, %ecx
	movzbl	(%rcx,%rax), %ecx
	movb	%cl, 35(%rsp)
	andl	$15, %edx
	movzbl	(%rdx,%rax), %ecx
	movb	%cl, 36(%rsp)
	movl	16(%r15), %ecx
	bswapl	%ecx
	movl	%ecx, %edi
	shrl	$8, %edi
	movl	%ecx, %esi
	shrl	$16, %esi
	movl	%ecx, %edx
	shrl	$24, %edx
	movb	$32, 37(%rsp)
	movzbl	%cl, %r8d
	shrl	$4, %r8d
	movzbl	(%r8,%rax), %r8d
	movb	%r8b, 38(%rsp)
	movl	%ecx, %r8d
	andl	$15, %r8d
	movzbl	(%r8,%rax), %r8d
	movb	%r8b, 39(%rsp)
	movl	%ecx, %r8d
	shrl	$12, %r8d
	andl	$15, %r8d
	movzbl	(%r8,%rax), %r8d
	movb	%r8b, 40(%rsp)
	andl	$15, %edi
	movzbl	(%rdi,%rax), %edi
	movb	%dil, 41(%rsp)
	movl	%ecx, %edi
	shrl	$20, %edi
	andl	$15, %edi
	movzbl	(%rdi,%rax), %edi
	movb	%dil, 42(%rsp)
	andl	$15, %esi
	movzbl	(%rsi,%rax), %esi
	movb	%sil, 43(%rsp)
	shrl	$28, %ecx
	movzbl	(%rcx,%rax), %ecx
	movb	%cl, 44(%rsp)
	andl	$15, %edx
	movzbl	(%rdx,%rax), %ecx
	movb	%cl, 45(%rsp)
	movl	20(%r15), %ecx
	bswapl	%ecx
	movl	%ecx, %edi
	shrl	$8, %edi
	movl	%ecx, %esi
	shrl	$16, %esi
	movl	%ecx, %edx
	shrl	$24, %edx
	movb	$32, 46(%rsp)
	movzbl	%cl, %r8d
	shrl	$4, %r8d
	movzbl	(%r8,%rax), %r8d
	movb	%r8b, 47(%rsp)
	movl	%ecx, %r8d
	andl	$15, %r8d
	movzbl	(%r8,%rax), %r8d
	movb	%r8b, 48(%rsp)
	movl	%ecx, %r8d
	shrl	$12, %r8d
	andl	$15, %r8d
	movzbl	(%r8,%rax), %r8d
	movb	%r8b, 49(%rsp)
	andl	$15, %edi
	movzbl	(%rdi,%rax), %edi
	movb	%dil, 50(%rsp)
	movl	%ecx, %edi
	shrl	$20, %edi
	andl	$15, %edi
	movzbl	(%rdi,%rax), %edi
	movb	%dil, 51(%rsp)
	andl	$15, %esi
	movzbl	(%rsi,%rax), %esi
	movb	%sil, 52(%rsp)
	shrl	$28, %ecx
	movzbl	(%rcx,%rax), %ecx
	movb	%cl, 53(%rsp)
	andl	$15, %edx
	movzbl	(%rdx,%rax), %ecx
	movb	%cl, 54(%rsp)
	movl	24(%r15), %ecx
	bswapl	%ecx
	movl	%ecx, %edi
	shrl	$8, %edi
	movl	%ecx, %esi
	shrl	$16, %esi
	movl	%ecx, %edx
	shrl	$24, %edx
	movb	$32, 55(%rsp)
	movzbl	%cl, %r8d
	shrl	$4, %r8d
	movzbl	(%r8,%rax), %r8d
	movb	%r8b, 56(%rsp)
	movl	%ecx, %r8d
	andl	$15, %r8d
	movzbl	(%r8,%rax), %r8d
	movb	%r8b, 57(%rsp)
	movl	%ecx, %r8d
	shrl	$12, %r8d
	andl	$15, %r8d
	movzbl	(%r8,%rax), %r8d
	movb	%r8b, 58(%rsp)
	andl	$15, %edi
	movzbl	(%rdi,%rax), %edi
	movb	%dil, 59(%rsp)
	movl	%ecx, %edi
	shrl	$20, %edi
	andl	$15, %edi
	movzbl	(%rdi,%rax), %edi
	movb	%dil, 60(%rsp)
	andl	$15, %esi
	movzbl	(%rsi,%rax), %esi
	movb	%sil, 61(%rsp)
	shrl	$28, %ecx
	movzbl	(%rcx,%rax), %ecx
	movb	%cl, 62(%rsp)
	andl	$15, %edx
	movzbl	(%rdx,%rax), %ecx
	movb	%cl, 63(%rsp)
	movl	28(%r15), %ecx
	bswapl	%ecx
	movl	%ecx, %edi
	shrl	$8, %edi
	movl	%ecx, %esi
	shrl	$16, %esi
	movl	%ecx, %edx
	shrl	$24, %edx
	movb	$32, 64(%rsp)
	movzbl	%cl, %r8d
	shrl	$4, %r8d
	movzbl	(%r8,%rax), %r8d
	movb	%r8b, 65(%rsp)
	movl	%ecx, %r8d
	andl	$15, %r8d
	movzbl	(%r8,%rax), %r8d
	movb	%r8b, 66(%rsp)
	movl	%ecx, %r8d
	shrl	$12, %r8d
	andl	$15, %r8d
	movzbl	(%r8,%rax), %r8d
	movb	%r8b, 67(%rsp)
	andl	$15, %edi
	movzbl	(%rdi,%rax), %edi
	movb	%dil, 68(%rsp)
	movl	%ecx, %edi
	shrl	$20, %edi
	andl	$15, %edi
	movzbl	(%rdi,%rax), %edi
	movb	%dil, 69(%rsp)
	andl	$15, %esi
	movzbl	(%rsi,%rax), %esi
	movb	%sil, 70(%rsp)
	shrl	$28, %ecx
	movzbl	(%rcx,%rax), %ecx
	movb	%cl, 71(%rsp)
	andl	$15, %edx
	movzbl	(%rdx,%rax), %eax
	movb	%al, 72(%rsp)
	movq	$73, 424(%rsp)
	movq	96(%r15), %rcx
	movb	$32, 73(%rsp)
	xorps	%xmm0, %xmm0
	movaps	%xmm0, 432(%rsp)
	movl	$0, 448(%rsp)
	movl	$19, %r12d
	cmpq	$10, %rcx
	jb	2f
	.p2align	4
1:
	movabsq	$-3689348814741910323, %rdx
	movq	%rcx, %rax
	mulq	%rdx
	shrq	$3, %rdx
	leal	(%rdx,%rdx), %eax
	leal	(%rax,%rax,4), %eax
	movl	%ecx, %esi
	subl	%eax, %esi
	orb	$48, %sil
	movb	%sil, 432(%rsp,%r12)
	decq	%r12
	cmpq	$99, %rcx
	movq	%rdx, %rcx
	ja	1b
	jmp	3f
2:
	movq	%rcx, %rdx
3:
	orb	$48, %dl
	leaq	(%rsp,%r12), %rsi
	addq	$432, %rsi
	movb	%dl, 432(%rsp,%r12)
	movl	$20, %edx
	subq	%r12, %rdx
	leaq	74(%rsp), %rdi
	vj_c_call	memcpy
	movq	%rsp, %rax
	subq	%r12, %rax
	addq	$94, %rax
	cmpb	$1, 104(%r15)
	jne	4f
	leaq	.L1_x86_static.42(%rip), %rcx
	movq	%rax, %rdx
	subq	%rcx, %rdx
	cmpq	$1, %rdx
	movw	$12576, (%rax)
	jmp	5f
4:
	leaq	.L1_x86_static.43(%rip), %rcx
	movq	%rax, %rdx
	subq	%rcx, %rdx
	cmpq	$1, %rdx
	movw	$12320, (%rax)
5:
	movl	$96, %eax
	subq	%r12, %rax
	movq	%rax, 424(%rsp)
	addq	$32, %r15
	movq	%rsp, %rdi
	movl	$64, %edx
	movq	%r15, %rsi
	callq	b2_commands..print..Line..add_block_1_x86
	movq	424(%rsp), %r12
	movb	$10, (%rsp,%r12)
	incq	%r12
	movq	%r12, 424(%rsp)
	je	7f
	xorl	%r13d, %r13d
	.p2align	4
6:
	leaq	(%rsp,%r13), %rsi
	movq	%r12, %r15
	subq	%r13, %r15
	movl	$1, %edi
	movq	%r15, %rdx
	vj_system_call	write, b2_write
	testq	%rax, %rax
	js	8f
	cmpq	%r15, %rax
	cmovbq	%rax, %r15
	testq	%r15, %r15
	je	9f
	addq	%r15, %r13
	cmpq	%r12, %r13
	jb	6b
7:
	xorl	%eax, %eax
	jmp	10f
8:
	leaq	432(%rsp), %rdi
	callq	std_io..io..error..last_error_1_x86
9:
	movb	$1, (%r14)
	movb	$1, %al
10:
	movb	%al, (%rbx)
	movzbl	%al, %eax
	leaq	(%rax,%rax,8), %rax
	movq	%rax, 8(%rbx)
	movq	$0, 16(%rbx)
	addq	$528, %rsp
	popq	%rbx
	popq	%r12
	popq	%r13
	popq	%r14
	popq	%r15
	retq
	vj_end	b2_commands..witness..print_blake2s..c1844c1740294036_1_x86

	vj_constants	16
	.p2align	4, 0x0
.L1_x86_CPI41_0:
	.short	64
	.short	512
	.zero	2
	.zero	2
	.zero	2
	.zero	2
	.zero	2
	.zero	2
.L1_x86_CPI41_1:
	.quad	7640891576956012808
	.quad	-4942790177534073029
.L1_x86_CPI41_2:
	.quad	4354685564936828970
	.quad	-6534734903238641935
.L1_x86_CPI41_3:
	.quad	5840696475078001361
	.quad	-7276294671716946913
.L1_x86_CPI41_4:
	.quad	2270897969802886507
	.quad	6620516959819538809
.L1_x86_CPI41_5:
	.short	32
	.short	512
	.zero	2
	.zero	2
	.zero	2
	.zero	2
	.zero	2
	.zero	2
.L1_x86_CPI41_6:
	.short	16
	.short	512
	.zero	2
	.zero	2
	.zero	2
	.zero	2
	.zero	2
	.zero	2
.L1_x86_CPI41_7:
	.quad	4354685564936828971
	.quad	-6534734903238641935
.L1_x86_CPI41_8:
	.short	32
	.short	512
	.short	0
	.short	0
	.short	0
	.short	0
	.short	0
	.short	0
.L1_x86_CPI41_9:
	.short	64
	.short	512
	.short	0
	.short	0
	.short	0
	.short	0
	.short	0
	.short	0
.L1_x86_CPI41_10:
	.short	16
	.short	512
	.short	0
	.short	0
	.short	0
	.short	0
	.short	0
	.short	0
	vj_function	b2_commands..tree..tree..c4a7301ddbaa7a35_1_x86
	pushq	%rbp
	movq	%rsp, %rbp
	pushq	%r15
	pushq	%r14
	pushq	%r13
	pushq	%r12
	pushq	%rbx
	andq	$-32, %rsp
	subq	$2144, %rsp
	cmpb	$0, (%rsi)
	je	2f
	movl	4(%rsi), %r8d
	movzbl	1(%rsi), %eax
	xorps	%xmm0, %xmm0
	cmpl	$2, %eax
	je	4f
	cmpl	$1, %eax
	jne	6f
	movaps	%xmm0, 1040(%rsp)
	movaps	%xmm0, 1056(%rsp)
	movaps	%xmm0, 1152(%rsp)
	movaps	%xmm0, 1168(%rsp)
	movaps	%xmm0, 1120(%rsp)
	movaps	%xmm0, 1136(%rsp)
	leaq	.L1_x86_static.0(%rip), %r14
	cmpb	$1, 40(%rsi)
	jne	12f
	movq	48(%rsi), %r12
	movq	56(%rsi), %r15
	cmpb	$1, 72(%rsi)
	je	13f
1:
	xorl	%r13d, %r13d
	jmp	14f
2:
	movzbl	1(%rsi), %eax
	movl	4(%rsi), %r13d
	cmpl	$2, %eax
	movq	%rcx, 88(%rsp)
	movq	%rdx, 2072(%rsp)
	movq	%rdi, 40(%rsp)
	je	8f
	cmpl	$1, %eax
	jne	10f
	leaq	416(%rsp), %rdi
	xorl	%ebx, %ebx
	movl	$624, %edx
	movq	%rsi, %r14
	xorl	%esi, %esi
	vj_c_call	memset
	movq	%r14, %rax
	xorps	%xmm0, %xmm0
	movaps	%xmm0, 1152(%rsp)
	movaps	%xmm0, 1168(%rsp)
	leaq	.L1_x86_static.0(%rip), %r15
	cmpb	$1, 40(%r14)
	jne	25f
	movq	48(%rax), %rdx
	movq	56(%rax), %rbx
	cmpb	$1, 72(%rax)
	movq	40(%rsp), %rdi
	je	26f
3:
	xorl	%r14d, %r14d
	jmp	27f
4:
	movaps	%xmm0, 288(%rsp)
	movaps	%xmm0, 304(%rsp)
	movaps	%xmm0, 320(%rsp)
	movaps	%xmm0, 336(%rsp)
	movaps	%xmm0, 1152(%rsp)
	movaps	%xmm0, 1168(%rsp)
	movaps	%xmm0, 1120(%rsp)
	movaps	%xmm0, 1136(%rsp)
	leaq	.L1_x86_static.0(%rip), %r14
	cmpb	$1, 40(%rsi)
	jne	16f
	movq	48(%rsi), %r12
	movq	56(%rsi), %r15
	cmpb	$1, 72(%rsi)
	je	17f
5:
	xorl	%r13d, %r13d
	jmp	18f
6:
	movaps	%xmm0, 1120(%rsp)
	movq	$0, 1136(%rsp)
	movaps	%xmm0, 2096(%rsp)
	movaps	%xmm0, 1040(%rsp)
	movaps	%xmm0, 1056(%rsp)
	movaps	%xmm0, 1152(%rsp)
	movaps	%xmm0, 1168(%rsp)
	leaq	.L1_x86_static.0(%rip), %r14
	cmpb	$1, 40(%rsi)
	jne	20f
	movq	48(%rsi), %r12
	movq	56(%rsi), %r13
	cmpb	$1, 72(%rsi)
	je	21f
7:
	xorl	%r15d, %r15d
	jmp	22f
8:
	leaq	416(%rsp), %rdi
	xorl	%ebx, %ebx
	movl	$624, %edx
	movq	%rsi, %r14
	xorl	%esi, %esi
	vj_c_call	memset
	movq	%r14, %rax
	xorps	%xmm0, %xmm0
	movaps	%xmm0, 1152(%rsp)
	movaps	%xmm0, 1168(%rsp)
	movaps	%xmm0, 1184(%rsp)
	movaps	%xmm0, 1200(%rsp)
	leaq	.L1_x86_static.0(%rip), %r15
	cmpb	$1, 40(%r14)
	jne	80f
	movq	48(%rax), %rdx
	movq	56(%rax), %rbx
	cmpb	$1, 72(%rax)
	movq	40(%rsp), %rdi
	je	81f
9:
	xorl	%r14d, %r14d
	jmp	82f
10:
	movq	%rsi, %r14
	xorps	%xmm0, %xmm0
	movaps	%xmm0, 1152(%rsp)
	movq	$0, 1168(%rsp)
	leaq	416(%rsp), %rdi
	xorl	%ebx, %ebx
	movl	$624, %edx
	xorl	%esi, %esi
	vj_c_call	memset
	xorps	%xmm0, %xmm0
	movaps	%xmm0, 1120(%rsp)
	leaq	.L1_x86_static.0(%rip), %r15
	movq	%r14, %rax
	cmpb	$1, 40(%r14)
	jne	135f
	movq	48(%rax), %rdx
	movq	56(%rax), %rbx
	cmpb	$1, 72(%rax)
	movq	40(%rsp), %rdi
	je	136f
11:
	xorl	%r14d, %r14d
	jmp	137f
12:
	xorl	%r15d, %r15d
	movq	%r14, %r12
	cmpb	$1, 72(%rsi)
	jne	1b
13:
	movq	80(%rsi), %r14
	movq	88(%rsi), %r13
14:
	cmpq	$17, %r15
	setae	%al
	cmpq	$17, %r13
	setae	%sil
	orb	%al, %sil
	movb	$1, %sil
	jne	138f
	movl	%r8d, 16(%rsp)
	movq	%rdi, 40(%rsp)
	movq	%rcx, 88(%rsp)
	leaq	1152(%rsp), %rdi
	movq	%rdx, %rsi
	callq	b2_commands..input..read_all..d6f7c226d1d4af0a_1_x86
	movq	1160(%rsp), %rcx
	movq	1168(%rsp), %rbx
	cmpb	$0, 1152(%rsp)
	jne	23f
	movq	1176(%rsp), %rax
	movq	%rax, 96(%rsp)
	leaq	1120(%rsp), %rdi
	movq	%rcx, 64(%rsp)
	movq	%rcx, %rsi
	movq	%rbx, %rdx
	callq	b2_commands..leaf_lines..digests_of_1_x86
	movq	1128(%rsp), %rcx
	movq	1136(%rsp), %rbx
	cmpb	$0, 1120(%rsp)
	jne	196f
	movq	%rcx, 48(%rsp)
	movq	1144(%rsp), %rax
	movq	%rax, 112(%rsp)
	xorps	%xmm0, %xmm0
	movaps	%xmm0, 2032(%rsp)
	leaq	2032(%rsp), %rdi
	movq	%r12, %rsi
	movq	%r15, %rdx
	vj_c_call	memcpy
	xorps	%xmm0, %xmm0
	movaps	%xmm0, 2048(%rsp)
	leaq	2048(%rsp), %rdi
	movq	%r14, %rsi
	movq	%r13, %rdx
	vj_c_call	memcpy
	movaps	2032(%rsp), %xmm0
	movaps	%xmm0, 288(%rsp)
	movq	%r15, 304(%rsp)
	leaq	312(%rsp), %r14
	movaps	2048(%rsp), %xmm0
	movups	%xmm0, 312(%rsp)
	movq	%r13, 328(%rsp)
	movl	16(%rsp), %eax
	movl	%eax, 336(%rsp)
	movl	$0, 340(%rsp)
	xorps	%xmm0, %xmm0
	movaps	%xmm0, 432(%rsp)
	movaps	%xmm0, 416(%rsp)
	movd	%eax, %xmm0
	movd	.L1_x86_CPI41_8(%rip), %xmm1
	punpckldq	%xmm0, %xmm1
	movq	%xmm1, %xmm0
	movdqa	%xmm0, 16(%rsp)
	leaq	416(%rsp), %rdi
	leaq	288(%rsp), %rsi
	movq	%r15, %rdx
	vj_c_call	memcpy
	leaq	432(%rsp), %rdi
	movq	%r14, %rsi
	movq	%r13, %rdx
	vj_c_call	memcpy
	movaps	416(%rsp), %xmm0
	movaps	432(%rsp), %xmm1
	movaps	16(%rsp), %xmm3
	xorps	.L1_x86_CPI41_1(%rip), %xmm3
	xorps	.L1_x86_CPI41_3(%rip), %xmm0
	movaps	.L1_x86_CPI41_2(%rip), %xmm2
	xorps	.L1_x86_CPI41_4(%rip), %xmm1
	movups	%xmm2, 1520(%rsp)
	movups	%xmm3, 1504(%rsp)
	movups	%xmm1, 1552(%rsp)
	movups	%xmm0, 1536(%rsp)
	movups	%xmm2, 1584(%rsp)
	movups	%xmm3, 1568(%rsp)
	movups	%xmm1, 1616(%rsp)
	movups	%xmm0, 1600(%rsp)
	xorps	%xmm0, %xmm0
	movups	%xmm0, 1632(%rsp)
	movups	%xmm0, 1648(%rsp)
	movups	%xmm0, 1664(%rsp)
	movups	%xmm0, 1680(%rsp)
	movups	%xmm0, 1696(%rsp)
	movups	%xmm0, 1712(%rsp)
	movups	%xmm0, 1728(%rsp)
	movups	%xmm0, 1744(%rsp)
	movups	%xmm0, 1760(%rsp)
	movq	$0, 1776(%rsp)
	movb	$1, 1640(%rsp)
	leaq	1648(%rsp), %r14
	cmpq	$128, %rbx
	jbe	214f
	leaq	-1(%rbx), %r12
	movq	%r12, %r13
	shrq	$7, %r13
	movq	48(%rsp), %r15
	.p2align	4
15:
	movq	1632(%rsp), %rdx
	subq	$-128, %rdx
	movq	%rdx, 1632(%rsp)
	leaq	1504(%rsp), %rdi
	movq	%r15, %rsi
	xorl	%ecx, %ecx
	xorl	%r8d, %r8d
	vj_call	blake2_compress..compress..blake2b..compress_1_x86
	subq	$-128, %r15
	decq	%r13
	jne	15b
	andq	$-128, %r12
	movq	48(%rsp), %rax
	leaq	(%rax,%r12), %rsi
	subq	%r12, %rbx
	xorps	%xmm0, %xmm0
	movups	%xmm0, 112(%r14)
	movups	%xmm0, 96(%r14)
	movups	%xmm0, 80(%r14)
	movups	%xmm0, 64(%r14)
	movups	%xmm0, 48(%r14)
	movups	%xmm0, 32(%r14)
	movups	%xmm0, 16(%r14)
	movups	%xmm0, (%r14)
	movq	%r14, %rdi
	jmp	215f
16:
	xorl	%r15d, %r15d
	movq	%r14, %r12
	cmpb	$1, 72(%rsi)
	jne	5b
17:
	movq	80(%rsi), %r14
	movq	88(%rsi), %r13
18:
	cmpq	$17, %r15
	setae	%al
	cmpq	$17, %r13
	setae	%sil
	orb	%al, %sil
	movb	$1, %sil
	jne	138f
	movl	%r8d, 16(%rsp)
	movq	%rdi, 40(%rsp)
	movq	%rcx, 88(%rsp)
	leaq	1152(%rsp), %rdi
	movq	%rdx, %rsi
	callq	b2_commands..input..read_all..d6f7c226d1d4af0a_1_x86
	movq	1160(%rsp), %rcx
	movq	1168(%rsp), %rbx
	cmpb	$0, 1152(%rsp)
	jne	23f
	movq	1176(%rsp), %rax
	movq	%rax, 96(%rsp)
	leaq	1120(%rsp), %rdi
	movq	%rcx, 64(%rsp)
	movq	%rcx, %rsi
	movq	%rbx, %rdx
	callq	b2_commands..leaf_lines..digests_of_1_x86
	movq	1128(%rsp), %rcx
	movq	1136(%rsp), %rbx
	cmpb	$0, 1120(%rsp)
	jne	196f
	movq	%rcx, 48(%rsp)
	movq	1144(%rsp), %rax
	movq	%rax, 112(%rsp)
	xorps	%xmm0, %xmm0
	movaps	%xmm0, 2032(%rsp)
	leaq	2032(%rsp), %rdi
	movq	%r12, %rsi
	movq	%r15, %rdx
	vj_c_call	memcpy
	xorps	%xmm0, %xmm0
	movaps	%xmm0, 2048(%rsp)
	leaq	2048(%rsp), %rdi
	movq	%r14, %rsi
	movq	%r13, %rdx
	vj_c_call	memcpy
	movaps	2032(%rsp), %xmm0
	movaps	%xmm0, 1040(%rsp)
	movq	%r15, 1056(%rsp)
	leaq	1064(%rsp), %r14
	movaps	2048(%rsp), %xmm0
	movups	%xmm0, 1064(%rsp)
	movq	%r13, 1080(%rsp)
	movl	16(%rsp), %eax
	movl	%eax, 1088(%rsp)
	movl	$0, 1092(%rsp)
	xorps	%xmm0, %xmm0
	movaps	%xmm0, 432(%rsp)
	movaps	%xmm0, 416(%rsp)
	movd	%eax, %xmm0
	movd	.L1_x86_CPI41_9(%rip), %xmm1
	punpckldq	%xmm0, %xmm1
	movq	%xmm1, %xmm0
	movdqa	%xmm0, 16(%rsp)
	leaq	416(%rsp), %rdi
	leaq	1040(%rsp), %rsi
	movq	%r15, %rdx
	vj_c_call	memcpy
	leaq	432(%rsp), %rdi
	movq	%r14, %rsi
	movq	%r13, %rdx
	vj_c_call	memcpy
	movaps	416(%rsp), %xmm0
	movaps	432(%rsp), %xmm1
	movaps	16(%rsp), %xmm3
	xorps	.L1_x86_CPI41_1(%rip), %xmm3
	xorps	.L1_x86_CPI41_3(%rip), %xmm0
	movaps	.L1_x86_CPI41_2(%rip), %xmm2
	xorps	.L1_x86_CPI41_4(%rip), %xmm1
	movups	%xmm2, 1520(%rsp)
	movups	%xmm3, 1504(%rsp)
	movups	%xmm1, 1552(%rsp)
	movups	%xmm0, 1536(%rsp)
	movups	%xmm2, 1584(%rsp)
	movups	%xmm3, 1568(%rsp)
	movups	%xmm1, 1616(%rsp)
	movups	%xmm0, 1600(%rsp)
	xorps	%xmm0, %xmm0
	movups	%xmm0, 1632(%rsp)
	movups	%xmm0, 1648(%rsp)
	movups	%xmm0, 1664(%rsp)
	movups	%xmm0, 1680(%rsp)
	movups	%xmm0, 1696(%rsp)
	movups	%xmm0, 1712(%rsp)
	movups	%xmm0, 1728(%rsp)
	movups	%xmm0, 1744(%rsp)
	movups	%xmm0, 1760(%rsp)
	movq	$0, 1776(%rsp)
	movb	$1, 1640(%rsp)
	leaq	1648(%rsp), %r14
	cmpq	$128, %rbx
	jbe	218f
	leaq	-1(%rbx), %r12
	movq	%r12, %r13
	shrq	$7, %r13
	movq	48(%rsp), %r15
	.p2align	4
19:
	movq	1632(%rsp), %rdx
	subq	$-128, %rdx
	movq	%rdx, 1632(%rsp)
	leaq	1504(%rsp), %rdi
	movq	%r15, %rsi
	xorl	%ecx, %ecx
	xorl	%r8d, %r8d
	vj_call	blake2_compress..compress..blake2b..compress_1_x86
	subq	$-128, %r15
	decq	%r13
	jne	19b
	andq	$-128, %r12
	movq	48(%rsp), %rax
	leaq	(%rax,%r12), %rsi
	subq	%r12, %rbx
	xorps	%xmm0, %xmm0
	movups	%xmm0, 112(%r14)
	movups	%xmm0, 96(%r14)
	movups	%xmm0, 80(%r14)
	movups	%xmm0, 64(%r14)
	movups	%xmm0, 48(%r14)
	movups	%xmm0, 32(%r14)
	movups	%xmm0, 16(%r14)
	movups	%xmm0, (%r14)
	movq	%r14, %rdi
	jmp	219f
20:
	xorl	%r13d, %r13d
	movq	%r14, %r12
	cmpb	$1, 72(%rsi)
	jne	7b
21:
	movq	80(%rsi), %r14
	movq	88(%rsi), %r15
22:
	cmpq	$17, %r13
	setae	%al
	cmpq	$17, %r15
	setae	%sil
	orb	%al, %sil
	movb	$1, %sil
	jne	138f
	movl	%r8d, 16(%rsp)
	movq	%rdi, 40(%rsp)
	movq	%rcx, 88(%rsp)
	leaq	1040(%rsp), %rdi
	movq	%rdx, %rsi
	callq	b2_commands..input..read_all..d6f7c226d1d4af0a_1_x86
	movq	1048(%rsp), %rcx
	movq	1056(%rsp), %rbx
	cmpb	$0, 1040(%rsp)
	je	195f
23:
24:
	movq	40(%rsp), %rdi
	movb	$1, %sil
	jmp	140f
25:
	movq	%r15, %rdx
	cmpb	$1, 72(%rax)
	movq	40(%rsp), %rdi
	jne	3b
26:
	movq	80(%rax), %r15
	movq	88(%rax), %r14
27:
	cmpq	$17, %rbx
	setae	%al
	cmpq	$17, %r14
	setae	%cl
	orb	%al, %cl
	movb	$2, %cl
	movb	$1, %sil
	jne	139f
	testl	%r13d, %r13d
	je	235f
	movq	%rdx, 16(%rsp)
	movl	$65536, %eax
	xorl	%edx, %edx
	divl	%r13d
	shrl	$2, %eax
	cmpl	$5, %eax
	movl	$4, %ecx
	cmovael	%eax, %ecx
	leal	1(,%rcx,4), %r12d
	imulq	%r13, %r12
	cmpq	$16777217, %r12
	jb	28f
	movl	$65536, %r12d
	cmpl	$3355443, %r13d
	ja	28f
	movl	$16777216, %eax
	xorl	%edx, %edx
	divl	%r13d
	movl	%eax, %r12d
	decq	%r12
	andq	$-4, %r12
	incq	%r12
	imulq	%r13, %r12
28:
	movl	$1, %esi
	movq	%r12, %rdi
	vj_call	rattle_alloc
	movb	$8, %cl
	testb	$1, %al
	je	194f
	movq	%rdx, %rsi
	leaq	-1(%r12), %rdx
	movq	%rsi, %rdi
	movq	%r15, 48(%rsp)
	movq	%rsi, %r15
	movq	%rsi, 136(%rsp)
	xorl	%esi, %esi
	vj_c_call	memset
	movb	$0, -1(%r15,%r12)
	xorps	%xmm0, %xmm0
	movaps	%xmm0, 288(%rsp)
	leaq	288(%rsp), %rdi
	movq	16(%rsp), %rsi
	movq	%rbx, %rdx
	vj_c_call	memcpy
	xorps	%xmm0, %xmm0
	movaps	%xmm0, 144(%rsp)
	leaq	144(%rsp), %rdi
	movq	48(%rsp), %rsi
	movq	%r14, %rdx
	vj_c_call	memcpy
	movaps	288(%rsp), %xmm0
	movaps	%xmm0, 1504(%rsp)
	movq	%rbx, 1520(%rsp)
	leaq	1528(%rsp), %r15
	movaps	144(%rsp), %xmm0
	movups	%xmm0, 1528(%rsp)
	movq	%r14, 1544(%rsp)
	movl	%r13d, 1552(%rsp)
	movl	$0, 1556(%rsp)
	xorps	%xmm0, %xmm0
	movaps	%xmm0, 1232(%rsp)
	movaps	%xmm0, 1216(%rsp)
	movd	%r13d, %xmm1
	movdqa	%xmm1, 64(%rsp)
	movd	.L1_x86_CPI41_9(%rip), %xmm0
	punpckldq	%xmm1, %xmm0
	movq	%xmm0, %xmm0
	movdqa	%xmm0, 16(%rsp)
	leaq	1216(%rsp), %rdi
	leaq	1504(%rsp), %rsi
	movq	%rbx, %rdx
	vj_c_call	memcpy
	leaq	1232(%rsp), %rdi
	movq	%r15, %rsi
	movq	%r14, %rdx
	vj_c_call	memcpy
	movaps	1216(%rsp), %xmm1
	xorps	.L1_x86_CPI41_3(%rip), %xmm1
	movaps	%xmm1, 48(%rsp)
	movaps	1232(%rsp), %xmm1
	xorps	.L1_x86_CPI41_4(%rip), %xmm1
	movaps	%xmm1, 96(%rsp)
	movaps	16(%rsp), %xmm0
	xorps	.L1_x86_CPI41_1(%rip), %xmm0
	movaps	%xmm0, 16(%rsp)
	xorps	%xmm0, %xmm0
	movaps	%xmm0, 1232(%rsp)
	movaps	%xmm0, 1216(%rsp)
	movd	.L1_x86_CPI41_8(%rip), %xmm0
	punpckldq	64(%rsp), %xmm0
	movq	%xmm0, %xmm0
	movdqa	%xmm0, 64(%rsp)
	leaq	1216(%rsp), %rdi
	leaq	1504(%rsp), %rsi
	movq	%rbx, %rdx
	vj_c_call	memcpy
	leaq	1232(%rsp), %rdi
	movq	%r15, %rsi
	movq	%r14, %rdx
	vj_c_call	memcpy
	xorl	%r8d, %r8d
	movaps	.L1_x86_CPI41_3(%rip), %xmm2
	xorps	1216(%rsp), %xmm2
	movaps	.L1_x86_CPI41_4(%rip), %xmm3
	xorps	1232(%rsp), %xmm3
	movaps	64(%rsp), %xmm4
	xorps	.L1_x86_CPI41_1(%rip), %xmm4
	movaps	.L1_x86_CPI41_2(%rip), %xmm0
	movaps	288(%rsp), %xmm1
	movaps	%xmm1, 416(%rsp)
	movaps	144(%rsp), %xmm1
	movups	%xmm1, 440(%rsp)
	movq	%rbx, 432(%rsp)
	movq	%r14, 456(%rsp)
	movl	%r13d, 464(%rsp)
	movl	$0, 468(%rsp)
	movq	$0, 472(%rsp)
	leaq	480(%rsp), %r13
	movaps	.L1_x86_CPI41_7(%rip), %xmm7
	movaps	%xmm7, 496(%rsp)
	movaps	16(%rsp), %xmm1
	movaps	%xmm1, 480(%rsp)
	movaps	96(%rsp), %xmm6
	movaps	%xmm6, 528(%rsp)
	movaps	48(%rsp), %xmm5
	movaps	%xmm5, 512(%rsp)
	movaps	%xmm7, 560(%rsp)
	movaps	%xmm1, 544(%rsp)
	movaps	%xmm6, 592(%rsp)
	movaps	%xmm5, 576(%rsp)
	xorps	%xmm1, %xmm1
	movaps	%xmm1, 736(%rsp)
	movaps	%xmm1, 720(%rsp)
	movaps	%xmm1, 704(%rsp)
	movaps	%xmm1, 688(%rsp)
	movaps	%xmm1, 672(%rsp)
	movaps	%xmm1, 656(%rsp)
	movaps	%xmm1, 640(%rsp)
	movaps	%xmm1, 624(%rsp)
	movaps	%xmm1, 608(%rsp)
	movq	$0, 752(%rsp)
	movups	%xmm0, 776(%rsp)
	movups	%xmm4, 760(%rsp)
	movups	%xmm3, 808(%rsp)
	movups	%xmm2, 792(%rsp)
	movups	%xmm0, 840(%rsp)
	movups	%xmm4, 824(%rsp)
	movups	%xmm3, 872(%rsp)
	movups	%xmm2, 856(%rsp)
	movups	%xmm1, 1016(%rsp)
	movups	%xmm1, 1000(%rsp)
	movups	%xmm1, 984(%rsp)
	movups	%xmm1, 968(%rsp)
	movups	%xmm1, 952(%rsp)
	movups	%xmm1, 936(%rsp)
	movups	%xmm1, 920(%rsp)
	movups	%xmm1, 904(%rsp)
	movups	%xmm1, 888(%rsp)
	movq	$0, 1032(%rsp)
	movq	136(%rsp), %r14
	movq	%r12, 1112(%rsp)
	jmp	31f
29:
	movq	%r8, %r15
	movq	%r14, %r9
30:
	leaq	624(%rsp), %rdi
	movq	%rbx, %rsi
	movq	%r9, %rdx
	movq	%r15, %rcx
	movq	%r13, %r8
	callq	blake2_digest..buffer..digest_into..33c1e97afcdf8a5d_1_x86
	movq	%rax, 752(%rsp)
	movq	1112(%rsp), %r12
	cmpq	%r12, 280(%rsp)
	movl	$0, %r8d
	movq	136(%rsp), %r14
	jb	206f
31:
	leaq	(%r14,%r8), %rsi
	movq	%r12, %rbx
	movq	%r8, %r15
	subq	%r8, %rbx
	xorl	%edi, %edi
	movq	%rbx, %rdx
	vj_system_call	read, b2_read
	testq	%rax, %rax
	js	198f
	cmpq	%rbx, %rax
	cmovbq	%rax, %rbx
	movq	%r15, %r8
	testq	%rbx, %rbx
	je	32f
	addq	%rbx, %r8
	cmpq	%r12, %r8
	jb	31b
32:
	movq	472(%rsp), %r10
	movl	464(%rsp), %ecx
	movq	%r10, %rsi
	imulq	%rcx, %rsi
	movq	608(%rsp), %rax
	movq	752(%rsp), %rbx
	leaq	(%rbx,%rax), %r9
	addq	%r9, %rsi
	movabsq	$288230376151711743, %rdi
	subq	%rsi, %rdi
	incq	%rdi
	cmpq	%r8, %rdi
	jbe	199f
	movq	%rcx, %rdx
	subq	%r9, %rdx
	cmpq	%r8, %rdx
	movq	%r8, 280(%rsp)
	jae	29b
	movq	%r10, 16(%rsp)
	movq	%r14, %r9
	movq	%r8, %r15
	leaq	760(%rsp), %r12
	jmp	36f
	.p2align	4
33:
	movaps	288(%rsp), %xmm0
	movaps	304(%rsp), %xmm1
	movaps	320(%rsp), %xmm2
	movaps	336(%rsp), %xmm3
	leaq	904(%rsp), %rax
	movups	%xmm3, 48(%rax,%rbx)
	movups	%xmm2, 32(%rax,%rbx)
	movups	%xmm1, 16(%rax,%rbx)
	movups	%xmm0, (%rax,%rbx)
	addq	$64, %rbx
34:
	movq	64(%rsp), %r9
	movq	%rbx, 1032(%rsp)
	movq	472(%rsp), %rax
	incq	%rax
	movq	%rax, 16(%rsp)
	movq	%rax, 472(%rsp)
	movl	464(%rsp), %r14d
	movq	608(%rsp), %rax
	movq	752(%rsp), %rbx
	movq	96(%rsp), %r15
	movq	48(%rsp), %rcx
35:
	subq	%rcx, %r15
	addq	%rcx, %r9
	movl	%r14d, %ecx
	movq	%rcx, %rdx
	subq	%rax, %rdx
	subq	%rbx, %rdx
	cmpq	%r15, %rdx
	jae	30b
36:
	addq	%rbx, %rax
	movq	%r15, 96(%rsp)
	movq	%r9, 64(%rsp)
	jne	40f
	shlq	$2, %rcx
	cmpq	%r15, %rcx
	jae	40f
	leaq	1504(%rsp), %r14
	movl	$512, %edx
	movq	%r14, %rdi
	xorl	%esi, %esi
	movq	%r9, %rbx
	vj_c_call	memset
	leaq	416(%rsp), %rdi
	movq	16(%rsp), %rsi
	movq	%rbx, %rdx
	movq	%r15, %rcx
	movq	%r14, 112(%rsp)
	movq	%r14, %r8
	vj_call	blake2_tree..nodes..Nodes..hash_next_1_x86
	movq	%rax, %r14
	movl	464(%rsp), %eax
	movq	%rax, 48(%rsp)
	movq	%r14, 16(%rsp)
	shlq	$6, %r14
	movq	1032(%rsp), %r13
	movl	$128, %edx
	subq	%r13, %rdx
	movq	%r14, %rbx
	subq	%rdx, %rbx
	leaq	904(%rsp), %r15
	jbe	49f
	testq	%r13, %r13
	je	37f
	leaq	(%rsp,%rdx), %rax
	addq	$1504, %rax
	movq	%rax, 112(%rsp)
	addq	%r15, %r13
	leaq	1504(%rsp), %rsi
	movq	%r13, %rdi
	vj_c_call	memcpy
	movq	888(%rsp), %rdx
	subq	$-128, %rdx
	movq	%rdx, 888(%rsp)
	movq	%r12, %rdi
	movq	%r15, %rsi
	xorl	%ecx, %ecx
	xorl	%r8d, %r8d
	vj_call	blake2_compress..compress..blake2b..compress_1_x86
	movq	%rbx, %r14
37:
	cmpq	$1, %r14
	movq	%r14, %r15
	adcq	$-1, %r15
	movq	%r15, %rbx
	shrq	$7, %rbx
	je	39f
	movq	112(%rsp), %r13
	.p2align	4
38:
	movq	888(%rsp), %rdx
	subq	$-128, %rdx
	movq	%rdx, 888(%rsp)
	movq	%r12, %rdi
	movq	%r13, %rsi
	xorl	%ecx, %ecx
	xorl	%r8d, %r8d
	vj_call	blake2_compress..compress..blake2b..compress_1_x86
	subq	$-128, %r13
	decq	%rbx
	jne	38b
39:
	andq	$-128, %r15
	movq	112(%rsp), %rsi
	addq	%r15, %rsi
	subq	%r15, %r14
	xorps	%xmm0, %xmm0
	leaq	904(%rsp), %rdi
	movups	%xmm0, 112(%rdi)
	movups	%xmm0, 96(%rdi)
	movups	%xmm0, 80(%rdi)
	movups	%xmm0, 64(%rdi)
	movups	%xmm0, 48(%rdi)
	movups	%xmm0, 32(%rdi)
	movups	%xmm0, 16(%rdi)
	movups	%xmm0, (%rdi)
	movq	%r14, %rdx
	vj_c_call	memcpy
	jmp	50f
	.p2align	4
40:
	movl	$128, %r14d
	subq	%rbx, %r14
	movq	%rdx, %r13
	subq	%r14, %r13
	movq	%rdx, 48(%rsp)
	jbe	42f
	movq	%r9, %r15
	testq	%rbx, %rbx
	je	66f
	leaq	624(%rsp), %r15
	leaq	(%r15,%rbx), %rdi
	movq	%rdi, %rax
	subq	%r9, %rax
	cmpq	%r14, %rax
	jae	52f
	cmpq	$4, %r14
	jb	41f
	cmpq	$32, %rax
	jae	54f
41:
	xorl	%eax, %eax
	jmp	63f
	.p2align	4
42:
	leaq	624(%rsp), %rax
	leaq	(%rax,%rbx), %rdi
	movq	%rdi, %rax
	subq	%r9, %rax
	cmpq	%rdx, %rax
	jae	51f
	cmpq	$4, %rdx
	leaq	480(%rsp), %r13
	jb	43f
	cmpq	$32, %rax
	jae	53f
43:
	xorl	%eax, %eax
44:
	movq	%rdx, %r8
	movq	%rax, %rcx
	andq	$3, %r8
	je	46f
	movq	%rax, %rcx
	.p2align	4
45:
	movzbl	(%r9,%rcx), %esi
	movb	%sil, (%rdi,%rcx)
	incq	%rcx
	decq	%r8
	jne	45b
46:
	subq	%rdx, %rax
	cmpq	$-4, %rax
	ja	48f
	leaq	627(%rsp), %rax
	addq	%rbx, %rax
	.p2align	4
47:
	movzbl	(%r9,%rcx), %esi
	movb	%sil, -3(%rax,%rcx)
	movzbl	1(%r9,%rcx), %esi
	movb	%sil, -2(%rax,%rcx)
	movzbl	2(%r9,%rcx), %esi
	movb	%sil, -1(%rax,%rcx)
	movzbl	3(%r9,%rcx), %esi
	movb	%sil, (%rax,%rcx)
	addq	$4, %rcx
	cmpq	%rcx, %rdx
	jne	47b
48:
	addq	%rdx, %rbx
	jmp	77f
	.p2align	4
49:
	leaq	(%r15,%r13), %rdi
	leaq	1504(%rsp), %rsi
	movq	%r14, %rdx
	vj_c_call	memcpy
	addq	%r13, %r14
50:
	movq	48(%rsp), %r13
	movq	16(%rsp), %rcx
	imulq	%rcx, %r13
	movq	%r14, 1032(%rsp)
	movabsq	$288230376151711743, %rax
	andq	%rax, %rcx
	addq	472(%rsp), %rcx
	movq	%rcx, 472(%rsp)
	movq	432(%rsp), %rdx
	movq	456(%rsp), %rbx
	movd	.L1_x86_CPI41_9(%rip), %xmm1
	punpckldq	464(%rsp), %xmm1
	movl	464(%rsp), %r14d
	xorps	%xmm0, %xmm0
	movaps	%xmm0, 1232(%rsp)
	movaps	%xmm0, 1216(%rsp)
	movq	%rcx, 16(%rsp)
	movq	%rcx, %xmm0
	punpcklqdq	%xmm0, %xmm1
	movdqa	%xmm1, 48(%rsp)
	leaq	1216(%rsp), %rdi
	leaq	416(%rsp), %rsi
	vj_c_call	memcpy
	leaq	1232(%rsp), %rdi
	leaq	440(%rsp), %r15
	movq	%r15, %rsi
	movq	%rbx, %rdx
	vj_c_call	memcpy
	movq	%r13, %rcx
	movaps	1216(%rsp), %xmm0
	movaps	1232(%rsp), %xmm1
	movaps	48(%rsp), %xmm3
	xorps	.L1_x86_CPI41_1(%rip), %xmm3
	xorps	.L1_x86_CPI41_3(%rip), %xmm0
	xorps	.L1_x86_CPI41_4(%rip), %xmm1
	movaps	.L1_x86_CPI41_7(%rip), %xmm2
	movaps	%xmm2, 496(%rsp)
	movaps	%xmm3, 480(%rsp)
	movaps	%xmm1, 528(%rsp)
	movaps	%xmm0, 512(%rsp)
	movaps	%xmm2, 560(%rsp)
	movaps	%xmm3, 544(%rsp)
	movaps	%xmm1, 592(%rsp)
	movaps	%xmm0, 576(%rsp)
	xorps	%xmm0, %xmm0
	movups	%xmm0, 296(%r15)
	movups	%xmm0, 280(%r15)
	movups	%xmm0, 264(%r15)
	movups	%xmm0, 248(%r15)
	movups	%xmm0, 232(%r15)
	movups	%xmm0, 216(%r15)
	movups	%xmm0, 200(%r15)
	movups	%xmm0, 184(%r15)
	movups	%xmm0, 168(%r15)
	movq	$0, 312(%r15)
	xorl	%ebx, %ebx
	xorl	%eax, %eax
	leaq	480(%rsp), %r13
	movq	96(%rsp), %r15
	movq	64(%rsp), %r9
	jmp	35b
51:
	movq	%r9, %rsi
	vj_c_call	memmove
	movq	48(%rsp), %rdx
	leaq	480(%rsp), %r13
	addq	%rdx, %rbx
	jmp	77f
52:
	movq	%r9, %rsi
	movq	%r14, %rdx
	movq	%r9, %rbx
	vj_c_call	memmove
	movq	%rbx, %r9
	jmp	65f
53:
	cmpq	$32, %rdx
	jae	55f
	xorl	%eax, %eax
	jmp	57f
54:
	cmpq	$32, %r14
	jae	59f
	xorl	%eax, %eax
	jmp	61f
55:
	movq	%rdx, %rax
	andq	$-32, %rax
	leaq	640(%rsp), %rcx
	addq	%rbx, %rcx
	xorl	%esi, %esi
	.p2align	4
56:
	movups	(%r9,%rsi), %xmm0
	movups	16(%r9,%rsi), %xmm1
	movups	%xmm0, -16(%rcx,%rsi)
	movups	%xmm1, (%rcx,%rsi)
	addq	$32, %rsi
	cmpq	%rsi, %rax
	jne	56b
	cmpq	%rax, %rdx
	je	48b
	testb	$28, %dl
	je	44b
57:
	movq	%rax, %rcx
	movq	%rdx, %rax
	andq	$-4, %rax
	.p2align	4
58:
	movl	(%r9,%rcx), %esi
	movl	%esi, (%rdi,%rcx)
	addq	$4, %rcx
	cmpq	%rcx, %rax
	jne	58b
	cmpq	%rax, %rdx
	je	48b
	jmp	44b
59:
	movq	%r14, %rax
	andq	$-32, %rax
	leaq	640(%rsp), %rcx
	addq	%rcx, %rbx
	xorl	%ecx, %ecx
	.p2align	4
60:
	movups	(%r9,%rcx), %xmm0
	movups	16(%r9,%rcx), %xmm1
	movups	%xmm0, -16(%rbx,%rcx)
	movups	%xmm1, (%rbx,%rcx)
	addq	$32, %rcx
	cmpq	%rcx, %rax
	jne	60b
	cmpq	%rax, %r14
	je	65f
	testb	$28, %r14b
	je	63f
61:
	movq	%rax, %rcx
	movq	%r14, %rax
	andq	$-4, %rax
	.p2align	4
62:
	movl	(%r9,%rcx), %edx
	movl	%edx, (%rdi,%rcx)
	addq	$4, %rcx
	cmpq	%rcx, %rax
	jne	62b
	jmp	64f
	.p2align	4
63:
	movzbl	(%r9,%rax), %ecx
	movb	%cl, (%rdi,%rax)
	incq	%rax
64:
	cmpq	%rax, %r14
	jne	63b
65:
	addq	%r9, %r14
	movq	608(%rsp), %rdx
	subq	$-128, %rdx
	movq	%rdx, 608(%rsp)
	leaq	480(%rsp), %rdi
	movq	%r15, %rsi
	xorl	%ecx, %ecx
	xorl	%r8d, %r8d
	vj_call	blake2_compress..compress..blake2b..compress_1_x86
	movq	%r13, %rdx
	movq	%r14, %r15
66:
	cmpq	$1, %rdx
	movq	%rdx, 16(%rsp)
	movq	%rdx, %r14
	adcq	$-1, %r14
	movq	%r14, %r12
	shrq	$7, %r12
	leaq	480(%rsp), %r13
	je	68f
	movq	%r15, %rbx
	.p2align	4
67:
	movq	608(%rsp), %rdx
	subq	$-128, %rdx
	movq	%rdx, 608(%rsp)
	movq	%r13, %rdi
	movq	%rbx, %rsi
	xorl	%ecx, %ecx
	xorl	%r8d, %r8d
	vj_call	blake2_compress..compress..blake2b..compress_1_x86
	subq	$-128, %rbx
	decq	%r12
	jne	67b
68:
	andq	$-128, %r14
	leaq	(%r15,%r14), %rsi
	movq	16(%rsp), %r9
	movq	%r9, %rbx
	subq	%r14, %rbx
	xorps	%xmm0, %xmm0
	leaq	624(%rsp), %rdi
	movups	%xmm0, 112(%rdi)
	movups	%xmm0, 96(%rdi)
	movups	%xmm0, 80(%rdi)
	movups	%xmm0, 64(%rdi)
	movups	%xmm0, 48(%rdi)
	movups	%xmm0, 32(%rdi)
	movups	%xmm0, 16(%rdi)
	movups	%xmm0, (%rdi)
	movq	%rdi, %rax
	subq	%rsi, %rax
	cmpq	%rbx, %rax
	jae	69f
	cmpq	$4, %rbx
	leaq	760(%rsp), %r12
	jae	70f
	xorl	%eax, %eax
	jmp	76f
69:
	movq	%rbx, %rdx
	vj_c_call	memmove
	leaq	760(%rsp), %r12
	jmp	77f
70:
	cmpq	$32, %rax
	jae	71f
	xorl	%eax, %eax
	jmp	76f
71:
	cmpq	$32, %rbx
	jae	72f
	xorl	%eax, %eax
	jmp	74f
72:
	movl	%r9d, %ecx
	andl	$31, %ecx
	movq	%rbx, %rax
	subq	%rcx, %rax
	movq	%r9, %rdx
	andq	$-32, %rdx
	subq	%r14, %rdx
	leaq	(%r15,%r14), %rdi
	addq	$16, %rdi
	xorl	%r8d, %r8d
	.p2align	4
73:
	movups	-16(%rdi,%r8), %xmm0
	movups	(%rdi,%r8), %xmm1
	movups	%xmm0, 624(%rsp,%r8)
	movups	%xmm1, 640(%rsp,%r8)
	addq	$32, %r8
	cmpq	%r8, %rdx
	jne	73b
	testq	%rcx, %rcx
	je	77f
	cmpl	$4, %ecx
	jb	76f
74:
	movq	%rax, %rcx
	andl	$3, %r9d
	movq	%rbx, %rax
	subq	%r9, %rax
	.p2align	4
75:
	movl	(%rsi,%rcx), %edx
	movl	%edx, 624(%rsp,%rcx)
	addq	$4, %rcx
	cmpq	%rcx, %rax
	jne	75b
	testq	%r9, %r9
	je	77f
	.p2align	4
76:
	movzbl	(%rsi,%rax), %ecx
	movb	%cl, 624(%rsp,%rax)
	incq	%rax
	cmpq	%rax, %rbx
	jne	76b
77:
	movq	%rbx, 752(%rsp)
	xorps	%xmm1, %xmm1
	movaps	%xmm1, 336(%rsp)
	movaps	%xmm1, 320(%rsp)
	movaps	%xmm1, 304(%rsp)
	movaps	%xmm1, 288(%rsp)
	movq	472(%rsp), %rax
	incq	%rax
	movq	432(%rsp), %rdx
	movq	456(%rsp), %rbx
	movd	.L1_x86_CPI41_9(%rip), %xmm2
	punpckldq	464(%rsp), %xmm2
	movaps	%xmm1, 1520(%rsp)
	movaps	%xmm1, 1504(%rsp)
	movq	%rax, %xmm0
	punpcklqdq	%xmm0, %xmm2
	movdqa	%xmm2, 16(%rsp)
	leaq	1504(%rsp), %rdi
	leaq	416(%rsp), %rsi
	vj_c_call	memcpy
	leaq	1520(%rsp), %rdi
	leaq	440(%rsp), %r14
	movq	%r14, %rsi
	movq	%rbx, %rdx
	vj_c_call	memcpy
	movaps	1504(%rsp), %xmm1
	movaps	1520(%rsp), %xmm2
	movaps	16(%rsp), %xmm0
	xorps	.L1_x86_CPI41_1(%rip), %xmm0
	movaps	%xmm0, 16(%rsp)
	xorps	.L1_x86_CPI41_3(%rip), %xmm1
	movaps	%xmm1, 112(%rsp)
	xorps	.L1_x86_CPI41_4(%rip), %xmm2
	movaps	%xmm2, 2080(%rsp)
	leaq	1504(%rsp), %rbx
	movl	$280, %edx
	movq	%rbx, %rdi
	movq	%r13, %rsi
	vj_c_call	memcpy
	movaps	.L1_x86_CPI41_7(%rip), %xmm0
	movaps	%xmm0, 496(%rsp)
	movaps	16(%rsp), %xmm1
	movaps	%xmm1, 480(%rsp)
	movaps	2080(%rsp), %xmm3
	movaps	%xmm3, 528(%rsp)
	movaps	112(%rsp), %xmm2
	movaps	%xmm2, 512(%rsp)
	movaps	%xmm0, 560(%rsp)
	movaps	%xmm1, 544(%rsp)
	movaps	%xmm3, 592(%rsp)
	movaps	%xmm2, 576(%rsp)
	xorps	%xmm0, %xmm0
	movups	%xmm0, 168(%r14)
	movups	%xmm0, 184(%r14)
	movups	%xmm0, 200(%r14)
	movups	%xmm0, 216(%r14)
	movups	%xmm0, 232(%r14)
	movups	%xmm0, 248(%r14)
	movups	%xmm0, 264(%r14)
	movups	%xmm0, 280(%r14)
	movups	%xmm0, 296(%r14)
	movq	$0, 312(%r14)
	movq	1776(%rsp), %rdx
	movq	1632(%rsp), %r14
	addq	%rdx, %r14
	movq	%r14, 1632(%rsp)
	movaps	%xmm0, 1216(%rsp)
	movaps	%xmm0, 1232(%rsp)
	movaps	%xmm0, 1248(%rsp)
	movaps	%xmm0, 1264(%rsp)
	movaps	%xmm0, 1280(%rsp)
	movaps	%xmm0, 1296(%rsp)
	movaps	%xmm0, 1312(%rsp)
	movaps	%xmm0, 1328(%rsp)
	leaq	1216(%rsp), %rdi
	leaq	1648(%rsp), %r15
	movq	%r15, %rsi
	vj_c_call	memcpy
	xorps	%xmm0, %xmm0
	movups	%xmm0, (%r15)
	movups	%xmm0, 16(%r15)
	movups	%xmm0, 32(%r15)
	movups	%xmm0, 48(%r15)
	movups	%xmm0, 64(%r15)
	movups	%xmm0, 80(%r15)
	movups	%xmm0, 96(%r15)
	movups	%xmm0, 112(%r15)
	movq	$0, 128(%r15)
	movaps	1216(%rsp), %xmm0
	movaps	1232(%rsp), %xmm1
	movaps	1248(%rsp), %xmm2
	movaps	1264(%rsp), %xmm3
	movaps	%xmm0, 144(%rsp)
	movaps	%xmm1, 160(%rsp)
	movaps	%xmm2, 176(%rsp)
	movaps	%xmm3, 192(%rsp)
	movaps	1280(%rsp), %xmm0
	movaps	%xmm0, 208(%rsp)
	movaps	1296(%rsp), %xmm0
	movaps	%xmm0, 224(%rsp)
	movaps	1312(%rsp), %xmm0
	movaps	%xmm0, 240(%rsp)
	movaps	1328(%rsp), %xmm0
	movaps	%xmm0, 256(%rsp)
	movl	1640(%rsp), %r8d
	leaq	144(%rsp), %rsi
	movq	%rbx, %rdi
	movq	%r14, %rdx
	movl	$1, %ecx
	vj_call	blake2_compress..compress..blake2b..compress_1_x86
	movups	1504(%rsp), %xmm0
	movups	1520(%rsp), %xmm1
	movups	1536(%rsp), %xmm2
	movups	1552(%rsp), %xmm3
	movaps	%xmm0, 288(%rsp)
	movaps	%xmm1, 304(%rsp)
	movaps	%xmm2, 320(%rsp)
	movaps	%xmm3, 336(%rsp)
	movq	1032(%rsp), %rbx
	movl	$128, %edx
	subq	%rbx, %rdx
	cmpq	$64, %rdx
	jae	33b
	testq	%rbx, %rbx
	leaq	904(%rsp), %r15
	je	78f
	leaq	(%rsp,%rdx), %r14
	addq	$288, %r14
	leaq	(%r15,%rbx), %rdi
	addq	$-64, %rbx
	leaq	288(%rsp), %rsi
	vj_c_call	memcpy
	movq	888(%rsp), %rdx
	subq	$-128, %rdx
	movq	%rdx, 888(%rsp)
	movq	%r12, %rdi
	movq	%r15, %rsi
	xorl	%ecx, %ecx
	xorl	%r8d, %r8d
	vj_call	blake2_compress..compress..blake2b..compress_1_x86
	jmp	79f
78:
	movl	$64, %ebx
	leaq	288(%rsp), %r14
79:
	leaq	-1(%rbx), %rax
	andq	$-128, %rax
	addq	%rax, %r14
	subq	%rax, %rbx
	xorps	%xmm0, %xmm0
	movups	%xmm0, 112(%r15)
	movups	%xmm0, 96(%r15)
	movups	%xmm0, 80(%r15)
	movups	%xmm0, 64(%r15)
	movups	%xmm0, 48(%r15)
	movups	%xmm0, 32(%r15)
	movups	%xmm0, 16(%r15)
	movups	%xmm0, (%r15)
	movq	%r15, %rdi
	movq	%r14, %rsi
	movq	%rbx, %rdx
	vj_c_call	memcpy
	jmp	34b
80:
	movq	%r15, %rdx
	cmpb	$1, 72(%rax)
	movq	40(%rsp), %rdi
	jne	9b
81:
	movq	80(%rax), %r15
	movq	88(%rax), %r14
82:
	cmpq	$17, %rbx
	setae	%al
	cmpq	$17, %r14
	setae	%cl
	orb	%al, %cl
	movb	$2, %cl
	movb	$1, %sil
	jne	139f
	testl	%r13d, %r13d
	je	235f
	movq	%rdx, 16(%rsp)
	movl	$65536, %eax
	xorl	%edx, %edx
	divl	%r13d
	shrl	$2, %eax
	cmpl	$5, %eax
	movl	$4, %ecx
	cmovael	%eax, %ecx
	leal	1(,%rcx,4), %r12d
	imulq	%r13, %r12
	cmpq	$16777217, %r12
	jb	83f
	movl	$65536, %r12d
	cmpl	$3355443, %r13d
	ja	83f
	movl	$16777216, %eax
	xorl	%edx, %edx
	divl	%r13d
	movl	%eax, %r12d
	decq	%r12
	andq	$-4, %r12
	incq	%r12
	imulq	%r13, %r12
83:
	movl	$1, %esi
	movq	%r12, %rdi
	vj_call	rattle_alloc
	movb	$8, %cl
	testb	$1, %al
	je	194f
	movq	%rdx, %rsi
	leaq	-1(%r12), %rdx
	movq	%rsi, %rdi
	movq	%r15, 48(%rsp)
	movq	%rsi, %r15
	movq	%rsi, 136(%rsp)
	xorl	%esi, %esi
	vj_c_call	memset
	movb	$0, -1(%r15,%r12)
	xorps	%xmm0, %xmm0
	movaps	%xmm0, 288(%rsp)
	leaq	288(%rsp), %rdi
	movq	16(%rsp), %rsi
	movq	%rbx, %rdx
	vj_c_call	memcpy
	xorps	%xmm0, %xmm0
	movaps	%xmm0, 144(%rsp)
	leaq	144(%rsp), %rdi
	movq	48(%rsp), %rsi
	movq	%r14, %rdx
	vj_c_call	memcpy
	movaps	288(%rsp), %xmm0
	movaps	%xmm0, 1504(%rsp)
	movq	%rbx, 1520(%rsp)
	leaq	1528(%rsp), %r15
	movaps	144(%rsp), %xmm0
	movups	%xmm0, 1528(%rsp)
	movq	%r14, 1544(%rsp)
	movl	%r13d, 1552(%rsp)
	movl	$0, 1556(%rsp)
	xorps	%xmm0, %xmm0
	movaps	%xmm0, 1232(%rsp)
	movaps	%xmm0, 1216(%rsp)
	movd	%r13d, %xmm0
	movd	.L1_x86_CPI41_9(%rip), %xmm1
	punpckldq	%xmm0, %xmm1
	movq	%xmm1, %xmm0
	movdqa	%xmm0, 16(%rsp)
	leaq	1216(%rsp), %rdi
	leaq	1504(%rsp), %rsi
	movq	%rbx, %rdx
	vj_c_call	memcpy
	leaq	1232(%rsp), %rdi
	movq	%r15, %rsi
	movq	%r14, %rdx
	vj_c_call	memcpy
	movaps	1216(%rsp), %xmm1
	xorps	.L1_x86_CPI41_3(%rip), %xmm1
	movaps	%xmm1, 48(%rsp)
	movaps	1232(%rsp), %xmm2
	movaps	16(%rsp), %xmm1
	xorps	.L1_x86_CPI41_1(%rip), %xmm1
	movaps	%xmm1, 16(%rsp)
	xorps	.L1_x86_CPI41_4(%rip), %xmm2
	movaps	%xmm2, 96(%rsp)
	pxor	%xmm0, %xmm0
	movdqa	%xmm0, 1232(%rsp)
	movdqa	%xmm0, 1216(%rsp)
	leaq	1216(%rsp), %rdi
	leaq	1504(%rsp), %rsi
	movq	%rbx, %rdx
	vj_c_call	memcpy
	leaq	1232(%rsp), %rdi
	movq	%r15, %rsi
	movq	%r14, %rdx
	vj_c_call	memcpy
	xorl	%r8d, %r8d
	movaps	.L1_x86_CPI41_3(%rip), %xmm3
	xorps	1216(%rsp), %xmm3
	movaps	.L1_x86_CPI41_4(%rip), %xmm4
	xorps	1232(%rsp), %xmm4
	movaps	.L1_x86_CPI41_2(%rip), %xmm0
	movaps	288(%rsp), %xmm1
	movaps	%xmm1, 416(%rsp)
	movaps	144(%rsp), %xmm1
	movups	%xmm1, 440(%rsp)
	movq	%rbx, 432(%rsp)
	movq	%r14, 456(%rsp)
	movl	%r13d, 464(%rsp)
	movl	$0, 468(%rsp)
	movq	$0, 472(%rsp)
	leaq	480(%rsp), %r13
	movaps	.L1_x86_CPI41_7(%rip), %xmm2
	movaps	%xmm2, 496(%rsp)
	movaps	16(%rsp), %xmm1
	movaps	%xmm1, 480(%rsp)
	movaps	96(%rsp), %xmm6
	movaps	%xmm6, 528(%rsp)
	movaps	48(%rsp), %xmm5
	movaps	%xmm5, 512(%rsp)
	movaps	%xmm2, 560(%rsp)
	movaps	%xmm1, 544(%rsp)
	movaps	%xmm1, %xmm2
	movaps	%xmm6, 592(%rsp)
	movaps	%xmm5, 576(%rsp)
	xorps	%xmm1, %xmm1
	movaps	%xmm1, 736(%rsp)
	movaps	%xmm1, 720(%rsp)
	movaps	%xmm1, 704(%rsp)
	movaps	%xmm1, 688(%rsp)
	movaps	%xmm1, 672(%rsp)
	movaps	%xmm1, 656(%rsp)
	movaps	%xmm1, 640(%rsp)
	movaps	%xmm1, 624(%rsp)
	movaps	%xmm1, 608(%rsp)
	movq	$0, 752(%rsp)
	movups	%xmm0, 776(%rsp)
	movups	%xmm2, 760(%rsp)
	movups	%xmm4, 808(%rsp)
	movups	%xmm3, 792(%rsp)
	movups	%xmm0, 840(%rsp)
	movups	%xmm2, 824(%rsp)
	movups	%xmm4, 872(%rsp)
	movups	%xmm3, 856(%rsp)
	movups	%xmm1, 1016(%rsp)
	movups	%xmm1, 1000(%rsp)
	movups	%xmm1, 984(%rsp)
	movups	%xmm1, 968(%rsp)
	movups	%xmm1, 952(%rsp)
	movups	%xmm1, 936(%rsp)
	movups	%xmm1, 920(%rsp)
	movups	%xmm1, 904(%rsp)
	movups	%xmm1, 888(%rsp)
	movq	$0, 1032(%rsp)
	movq	136(%rsp), %r14
	movq	%r12, 1112(%rsp)
	jmp	86f
84:
	movq	%r8, %r15
	movq	%r14, %r9
85:
	leaq	624(%rsp), %rdi
	movq	%rbx, %rsi
	movq	%r9, %rdx
	movq	%r15, %rcx
	movq	%r13, %r8
	callq	blake2_digest..buffer..digest_into..33c1e97afcdf8a5d_1_x86
	movq	%rax, 752(%rsp)
	movq	1112(%rsp), %r12
	cmpq	%r12, 280(%rsp)
	movl	$0, %r8d
	movq	136(%rsp), %r14
	jb	209f
86:
	leaq	(%r14,%r8), %rsi
	movq	%r12, %rbx
	movq	%r8, %r15
	subq	%r8, %rbx
	xorl	%edi, %edi
	movq	%rbx, %rdx
	vj_system_call	read, b2_read
	testq	%rax, %rax
	js	198f
	cmpq	%rbx, %rax
	cmovbq	%rax, %rbx
	movq	%r15, %r8
	testq	%rbx, %rbx
	je	87f
	addq	%rbx, %r8
	cmpq	%r12, %r8
	jb	86b
87:
	movq	472(%rsp), %r10
	movl	464(%rsp), %ecx
	movq	%r10, %rsi
	imulq	%rcx, %rsi
	movq	608(%rsp), %rax
	movq	752(%rsp), %rbx
	leaq	(%rbx,%rax), %r9
	addq	%r9, %rsi
	movabsq	$288230376151711743, %rdi
	subq	%rsi, %rdi
	incq	%rdi
	cmpq	%r8, %rdi
	jbe	199f
	movq	%rcx, %rdx
	subq	%r9, %rdx
	cmpq	%r8, %rdx
	movq	%r8, 280(%rsp)
	jae	84b
	movq	%r10, 16(%rsp)
	movq	%r14, %r9
	movq	%r8, %r15
	leaq	760(%rsp), %r12
	jmp	91f
	.p2align	4
88:
	movaps	288(%rsp), %xmm0
	movaps	304(%rsp), %xmm1
	movaps	320(%rsp), %xmm2
	movaps	336(%rsp), %xmm3
	leaq	904(%rsp), %rax
	movups	%xmm3, 48(%rax,%rbx)
	movups	%xmm2, 32(%rax,%rbx)
	movups	%xmm1, 16(%rax,%rbx)
	movups	%xmm0, (%rax,%rbx)
	addq	$64, %rbx
89:
	movq	64(%rsp), %r9
	movq	%rbx, 1032(%rsp)
	movq	472(%rsp), %rax
	incq	%rax
	movq	%rax, 16(%rsp)
	movq	%rax, 472(%rsp)
	movl	464(%rsp), %r14d
	movq	608(%rsp), %rax
	movq	752(%rsp), %rbx
	movq	96(%rsp), %r15
	movq	48(%rsp), %rcx
90:
	subq	%rcx, %r15
	addq	%rcx, %r9
	movl	%r14d, %ecx
	movq	%rcx, %rdx
	subq	%rax, %rdx
	subq	%rbx, %rdx
	cmpq	%r15, %rdx
	jae	85b
91:
	addq	%rbx, %rax
	movq	%r15, 96(%rsp)
	movq	%r9, 64(%rsp)
	jne	95f
	shlq	$2, %rcx
	cmpq	%r15, %rcx
	jae	95f
	leaq	1504(%rsp), %r14
	movl	$512, %edx
	movq	%r14, %rdi
	xorl	%esi, %esi
	movq	%r9, %rbx
	vj_c_call	memset
	leaq	416(%rsp), %rdi
	movq	16(%rsp), %rsi
	movq	%rbx, %rdx
	movq	%r15, %rcx
	movq	%r14, 112(%rsp)
	movq	%r14, %r8
	vj_call	blake2_tree..nodes..Nodes..hash_next_1_x86
	movq	%rax, %r14
	movl	464(%rsp), %eax
	movq	%rax, 48(%rsp)
	movq	%r14, 16(%rsp)
	shlq	$6, %r14
	movq	1032(%rsp), %r13
	movl	$128, %edx
	subq	%r13, %rdx
	movq	%r14, %rbx
	subq	%rdx, %rbx
	leaq	904(%rsp), %r15
	jbe	104f
	testq	%r13, %r13
	je	92f
	leaq	(%rsp,%rdx), %rax
	addq	$1504, %rax
	movq	%rax, 112(%rsp)
	addq	%r15, %r13
	leaq	1504(%rsp), %rsi
	movq	%r13, %rdi
	vj_c_call	memcpy
	movq	888(%rsp), %rdx
	subq	$-128, %rdx
	movq	%rdx, 888(%rsp)
	movq	%r12, %rdi
	movq	%r15, %rsi
	xorl	%ecx, %ecx
	xorl	%r8d, %r8d
	vj_call	blake2_compress..compress..blake2b..compress_1_x86
	movq	%rbx, %r14
92:
	cmpq	$1, %r14
	movq	%r14, %r15
	adcq	$-1, %r15
	movq	%r15, %rbx
	shrq	$7, %rbx
	je	94f
	movq	112(%rsp), %r13
	.p2align	4
93:
	movq	888(%rsp), %rdx
	subq	$-128, %rdx
	movq	%rdx, 888(%rsp)
	movq	%r12, %rdi
	movq	%r13, %rsi
	xorl	%ecx, %ecx
	xorl	%r8d, %r8d
	vj_call	blake2_compress..compress..blake2b..compress_1_x86
	subq	$-128, %r13
	decq	%rbx
	jne	93b
94:
	andq	$-128, %r15
	movq	112(%rsp), %rsi
	addq	%r15, %rsi
	subq	%r15, %r14
	xorps	%xmm0, %xmm0
	leaq	904(%rsp), %rdi
	movups	%xmm0, 112(%rdi)
	movups	%xmm0, 96(%rdi)
	movups	%xmm0, 80(%rdi)
	movups	%xmm0, 64(%rdi)
	movups	%xmm0, 48(%rdi)
	movups	%xmm0, 32(%rdi)
	movups	%xmm0, 16(%rdi)
	movups	%xmm0, (%rdi)
	movq	%r14, %rdx
	vj_c_call	memcpy
	jmp	105f
	.p2align	4
95:
	movl	$128, %r14d
	subq	%rbx, %r14
	movq	%rdx, %r13
	subq	%r14, %r13
	movq	%rdx, 48(%rsp)
	jbe	97f
	movq	%r9, %r15
	testq	%rbx, %rbx
	je	121f
	leaq	624(%rsp), %r15
	leaq	(%r15,%rbx), %rdi
	movq	%rdi, %rax
	subq	%r9, %rax
	cmpq	%r14, %rax
	jae	107f
	cmpq	$4, %r14
	jb	96f
	cmpq	$32, %rax
	jae	109f
96:
	xorl	%eax, %eax
	jmp	118f
	.p2align	4
97:
	leaq	624(%rsp), %rax
	leaq	(%rax,%rbx), %rdi
	movq	%rdi, %rax
	subq	%r9, %rax
	cmpq	%rdx, %rax
	jae	106f
	cmpq	$4, %rdx
	leaq	480(%rsp), %r13
	jb	98f
	cmpq	$32, %rax
	jae	108f
98:
	xorl	%eax, %eax
99:
	movq	%rdx, %r8
	movq	%rax, %rcx
	andq	$3, %r8
	je	101f
	movq	%rax, %rcx
	.p2align	4
100:
	movzbl	(%r9,%rcx), %esi
	movb	%sil, (%rdi,%rcx)
	incq	%rcx
	decq	%r8
	jne	100b
101:
	subq	%rdx, %rax
	cmpq	$-4, %rax
	ja	103f
	leaq	627(%rsp), %rax
	addq	%rbx, %rax
	.p2align	4
102:
	movzbl	(%r9,%rcx), %esi
	movb	%sil, -3(%rax,%rcx)
	movzbl	1(%r9,%rcx), %esi
	movb	%sil, -2(%rax,%rcx)
	movzbl	2(%r9,%rcx), %esi
	movb	%sil, -1(%rax,%rcx)
	movzbl	3(%r9,%rcx), %esi
	movb	%sil, (%rax,%rcx)
	addq	$4, %rcx
	cmpq	%rcx, %rdx
	jne	102b
103:
	addq	%rdx, %rbx
	jmp	132f
	.p2align	4
104:
	leaq	(%r15,%r13), %rdi
	leaq	1504(%rsp), %rsi
	movq	%r14, %rdx
	vj_c_call	memcpy
	addq	%r13, %r14
105:
	movq	48(%rsp), %r13
	movq	16(%rsp), %rcx
	imulq	%rcx, %r13
	movq	%r14, 1032(%rsp)
	movabsq	$288230376151711743, %rax
	andq	%rax, %rcx
	addq	472(%rsp), %rcx
	movq	%rcx, 472(%rsp)
	movq	432(%rsp), %rdx
	movq	456(%rsp), %rbx
	movd	.L1_x86_CPI41_9(%rip), %xmm1
	punpckldq	464(%rsp), %xmm1
	movl	464(%rsp), %r14d
	xorps	%xmm0, %xmm0
	movaps	%xmm0, 1232(%rsp)
	movaps	%xmm0, 1216(%rsp)
	movq	%rcx, 16(%rsp)
	movq	%rcx, %xmm0
	punpcklqdq	%xmm0, %xmm1
	movdqa	%xmm1, 48(%rsp)
	leaq	1216(%rsp), %rdi
	leaq	416(%rsp), %rsi
	vj_c_call	memcpy
	leaq	1232(%rsp), %rdi
	leaq	440(%rsp), %r15
	movq	%r15, %rsi
	movq	%rbx, %rdx
	vj_c_call	memcpy
	movq	%r13, %rcx
	movaps	1216(%rsp), %xmm0
	movaps	1232(%rsp), %xmm1
	movaps	48(%rsp), %xmm3
	xorps	.L1_x86_CPI41_1(%rip), %xmm3
	xorps	.L1_x86_CPI41_3(%rip), %xmm0
	xorps	.L1_x86_CPI41_4(%rip), %xmm1
	movaps	.L1_x86_CPI41_7(%rip), %xmm2
	movaps	%xmm2, 496(%rsp)
	movaps	%xmm3, 480(%rsp)
	movaps	%xmm1, 528(%rsp)
	movaps	%xmm0, 512(%rsp)
	movaps	%xmm2, 560(%rsp)
	movaps	%xmm3, 544(%rsp)
	movaps	%xmm1, 592(%rsp)
	movaps	%xmm0, 576(%rsp)
	xorps	%xmm0, %xmm0
	movups	%xmm0, 296(%r15)
	movups	%xmm0, 280(%r15)
	movups	%xmm0, 264(%r15)
	movups	%xmm0, 248(%r15)
	movups	%xmm0, 232(%r15)
	movups	%xmm0, 216(%r15)
	movups	%xmm0, 200(%r15)
	movups	%xmm0, 184(%r15)
	movups	%xmm0, 168(%r15)
	movq	$0, 312(%r15)
	xorl	%ebx, %ebx
	xorl	%eax, %eax
	leaq	480(%rsp), %r13
	movq	96(%rsp), %r15
	movq	64(%rsp), %r9
	jmp	90b
106:
	movq	%r9, %rsi
	vj_c_call	memmove
	movq	48(%rsp), %rdx
	leaq	480(%rsp), %r13
	addq	%rdx, %rbx
	jmp	132f
107:
	movq	%r9, %rsi
	movq	%r14, %rdx
	movq	%r9, %rbx
	vj_c_call	memmove
	movq	%rbx, %r9
	jmp	120f
108:
	cmpq	$32, %rdx
	jae	110f
	xorl	%eax, %eax
	jmp	112f
109:
	cmpq	$32, %r14
	jae	114f
	xorl	%eax, %eax
	jmp	116f
110:
	movq	%rdx, %rax
	andq	$-32, %rax
	leaq	640(%rsp), %rcx
	addq	%rbx, %rcx
	xorl	%esi, %esi
	.p2align	4
111:
	movups	(%r9,%rsi), %xmm0
	movups	16(%r9,%rsi), %xmm1
	movups	%xmm0, -16(%rcx,%rsi)
	movups	%xmm1, (%rcx,%rsi)
	addq	$32, %rsi
	cmpq	%rsi, %rax
	jne	111b
	cmpq	%rax, %rdx
	je	103b
	testb	$28, %dl
	je	99b
112:
	movq	%rax, %rcx
	movq	%rdx, %rax
	andq	$-4, %rax
	.p2align	4
113:
	movl	(%r9,%rcx), %esi
	movl	%esi, (%rdi,%rcx)
	addq	$4, %rcx
	cmpq	%rcx, %rax
	jne	113b
	cmpq	%rax, %rdx
	je	103b
	jmp	99b
114:
	movq	%r14, %rax
	andq	$-32, %rax
	leaq	640(%rsp), %rcx
	addq	%rcx, %rbx
	xorl	%ecx, %ecx
	.p2align	4
115:
	movups	(%r9,%rcx), %xmm0
	movups	16(%r9,%rcx), %xmm1
	movups	%xmm0, -16(%rbx,%rcx)
	movups	%xmm1, (%rbx,%rcx)
	addq	$32, %rcx
	cmpq	%rcx, %rax
	jne	115b
	cmpq	%rax, %r14
	je	120f
	testb	$28, %r14b
	je	118f
116:
	movq	%rax, %rcx
	movq	%r14, %rax
	andq	$-4, %rax
	.p2align	4
117:
	movl	(%r9,%rcx), %edx
	movl	%edx, (%rdi,%rcx)
	addq	$4, %rcx
	cmpq	%rcx, %rax
	jne	117b
	jmp	119f
	.p2align	4
118:
	movzbl	(%r9,%rax), %ecx
	movb	%cl, (%rdi,%rax)
	incq	%rax
119:
	cmpq	%rax, %r14
	jne	118b
120:
	addq	%r9, %r14
	movq	608(%rsp), %rdx
	subq	$-128, %rdx
	movq	%rdx, 608(%rsp)
	leaq	480(%rsp), %rdi
	movq	%r15, %rsi
	xorl	%ecx, %ecx
	xorl	%r8d, %r8d
	vj_call	blake2_compress..compress..blake2b..compress_1_x86
	movq	%r13, %rdx
	movq	%r14, %r15
121:
	cmpq	$1, %rdx
	movq	%rdx, 16(%rsp)
	movq	%rdx, %r14
	adcq	$-1, %r14
	movq	%r14, %r12
	shrq	$7, %r12
	leaq	480(%rsp), %r13
	je	123f
	movq	%r15, %rbx
	.p2align	4
122:
	movq	608(%rsp), %rdx
	subq	$-128, %rdx
	movq	%rdx, 608(%rsp)
	movq	%r13, %rdi
	movq	%rbx, %rsi
	xorl	%ecx, %ecx
	xorl	%r8d, %r8d
	vj_call	blake2_compress..compress..blake2b..compress_1_x86
	subq	$-128, %rbx
	decq	%r12
	jne	122b
123:
	andq	$-128, %r14
	leaq	(%r15,%r14), %rsi
	movq	16(%rsp), %r9
	movq	%r9, %rbx
	subq	%r14, %rbx
	xorps	%xmm0, %xmm0
	leaq	624(%rsp), %rdi
	movups	%xmm0, 112(%rdi)
	movups	%xmm0, 96(%rdi)
	movups	%xmm0, 80(%rdi)
	movups	%xmm0, 64(%rdi)
	movups	%xmm0, 48(%rdi)
	movups	%xmm0, 32(%rdi)
	movups	%xmm0, 16(%rdi)
	movups	%xmm0, (%rdi)
	movq	%rdi, %rax
	subq	%rsi, %rax
	cmpq	%rbx, %rax
	jae	124f
	cmpq	$4, %rbx
	leaq	760(%rsp), %r12
	jae	125f
	xorl	%eax, %eax
	jmp	131f
124:
	movq	%rbx, %rdx
	vj_c_call	memmove
	leaq	760(%rsp), %r12
	jmp	132f
125:
	cmpq	$32, %rax
	jae	126f
	xorl	%eax, %eax
	jmp	131f
126:
	cmpq	$32, %rbx
	jae	127f
	xorl	%eax, %eax
	jmp	129f
127:
	movl	%r9d, %ecx
	andl	$31, %ecx
	movq	%rbx, %rax
	subq	%rcx, %rax
	movq	%r9, %rdx
	andq	$-32, %rdx
	subq	%r14, %rdx
	leaq	(%r15,%r14), %rdi
	addq	$16, %rdi
	xorl	%r8d, %r8d
	.p2align	4
128:
	movups	-16(%rdi,%r8), %xmm0
	movups	(%rdi,%r8), %xmm1
	movups	%xmm0, 624(%rsp,%r8)
	movups	%xmm1, 640(%rsp,%r8)
	addq	$32, %r8
	cmpq	%r8, %rdx
	jne	128b
	testq	%rcx, %rcx
	je	132f
	cmpl	$4, %ecx
	jb	131f
129:
	movq	%rax, %rcx
	andl	$3, %r9d
	movq	%rbx, %rax
	subq	%r9, %rax
	.p2align	4
130:
	movl	(%rsi,%rcx), %edx
	movl	%edx, 624(%rsp,%rcx)
	addq	$4, %rcx
	cmpq	%rcx, %rax
	jne	130b
	testq	%r9, %r9
	je	132f
	.p2align	4
131:
	movzbl	(%rsi,%rax), %ecx
	movb	%cl, 624(%rsp,%rax)
	incq	%rax
	cmpq	%rax, %rbx
	jne	131b
132:
	movq	%rbx, 752(%rsp)
	xorps	%xmm1, %xmm1
	movaps	%xmm1, 336(%rsp)
	movaps	%xmm1, 320(%rsp)
	movaps	%xmm1, 304(%rsp)
	movaps	%xmm1, 288(%rsp)
	movq	472(%rsp), %rax
	incq	%rax
	movq	432(%rsp), %rdx
	movq	456(%rsp), %rbx
	movd	.L1_x86_CPI41_9(%rip), %xmm2
	punpckldq	464(%rsp), %xmm2
	movaps	%xmm1, 1520(%rsp)
	movaps	%xmm1, 1504(%rsp)
	movq	%rax, %xmm0
	punpcklqdq	%xmm0, %xmm2
	movdqa	%xmm2, 16(%rsp)
	leaq	1504(%rsp), %rdi
	leaq	416(%rsp), %rsi
	vj_c_call	memcpy
	leaq	1520(%rsp), %rdi
	leaq	440(%rsp), %r14
	movq	%r14, %rsi
	movq	%rbx, %rdx
	vj_c_call	memcpy
	movaps	1504(%rsp), %xmm1
	movaps	1520(%rsp), %xmm2
	movaps	16(%rsp), %xmm0
	xorps	.L1_x86_CPI41_1(%rip), %xmm0
	movaps	%xmm0, 16(%rsp)
	xorps	.L1_x86_CPI41_3(%rip), %xmm1
	movaps	%xmm1, 112(%rsp)
	xorps	.L1_x86_CPI41_4(%rip), %xmm2
	movaps	%xmm2, 2080(%rsp)
	leaq	1504(%rsp), %rbx
	movl	$280, %edx
	movq	%rbx, %rdi
	movq	%r13, %rsi
	vj_c_call	memcpy
	movaps	.L1_x86_CPI41_7(%rip), %xmm0
	movaps	%xmm0, 496(%rsp)
	movaps	16(%rsp), %xmm1
	movaps	%xmm1, 480(%rsp)
	movaps	2080(%rsp), %xmm3
	movaps	%xmm3, 528(%rsp)
	movaps	112(%rsp), %xmm2
	movaps	%xmm2, 512(%rsp)
	movaps	%xmm0, 560(%rsp)
	movaps	%xmm1, 544(%rsp)
	movaps	%xmm3, 592(%rsp)
	movaps	%xmm2, 576(%rsp)
	xorps	%xmm0, %xmm0
	movups	%xmm0, 168(%r14)
	movups	%xmm0, 184(%r14)
	movups	%xmm0, 200(%r14)
	movups	%xmm0, 216(%r14)
	movups	%xmm0, 232(%r14)
	movups	%xmm0, 248(%r14)
	movups	%xmm0, 264(%r14)
	movups	%xmm0, 280(%r14)
	movups	%xmm0, 296(%r14)
	movq	$0, 312(%r14)
	movq	1776(%rsp), %rdx
	movq	1632(%rsp), %r14
	addq	%rdx, %r14
	movq	%r14, 1632(%rsp)
	movaps	%xmm0, 1216(%rsp)
	movaps	%xmm0, 1232(%rsp)
	movaps	%xmm0, 1248(%rsp)
	movaps	%xmm0, 1264(%rsp)
	movaps	%xmm0, 1280(%rsp)
	movaps	%xmm0, 1296(%rsp)
	movaps	%xmm0, 1312(%rsp)
	movaps	%xmm0, 1328(%rsp)
	leaq	1216(%rsp), %rdi
	leaq	1648(%rsp), %r15
	movq	%r15, %rsi
	vj_c_call	memcpy
	xorps	%xmm0, %xmm0
	movups	%xmm0, (%r15)
	movups	%xmm0, 16(%r15)
	movups	%xmm0, 32(%r15)
	movups	%xmm0, 48(%r15)
	movups	%xmm0, 64(%r15)
	movups	%xmm0, 80(%r15)
	movups	%xmm0, 96(%r15)
	movups	%xmm0, 112(%r15)
	movq	$0, 128(%r15)
	movaps	1216(%rsp), %xmm0
	movaps	1232(%rsp), %xmm1
	movaps	1248(%rsp), %xmm2
	movaps	1264(%rsp), %xmm3
	movaps	%xmm0, 144(%rsp)
	movaps	%xmm1, 160(%rsp)
	movaps	%xmm2, 176(%rsp)
	movaps	%xmm3, 192(%rsp)
	movaps	1280(%rsp), %xmm0
	movaps	%xmm0, 208(%rsp)
	movaps	1296(%rsp), %xmm0
	movaps	%xmm0, 224(%rsp)
	movaps	1312(%rsp), %xmm0
	movaps	%xmm0, 240(%rsp)
	movaps	1328(%rsp), %xmm0
	movaps	%xmm0, 256(%rsp)
	movl	1640(%rsp), %r8d
	leaq	144(%rsp), %rsi
	movq	%rbx, %rdi
	movq	%r14, %rdx
	movl	$1, %ecx
	vj_call	blake2_compress..compress..blake2b..compress_1_x86
	movups	1504(%rsp), %xmm0
	movups	1520(%rsp), %xmm1
	movups	1536(%rsp), %xmm2
	movups	1552(%rsp), %xmm3
	movaps	%xmm0, 288(%rsp)
	movaps	%xmm1, 304(%rsp)
	movaps	%xmm2, 320(%rsp)
	movaps	%xmm3, 336(%rsp)
	movq	1032(%rsp), %rbx
	movl	$128, %edx
	subq	%rbx, %rdx
	cmpq	$64, %rdx
	jae	88b
	testq	%rbx, %rbx
	leaq	904(%rsp), %r15
	je	133f
	leaq	(%rsp,%rdx), %r14
	addq	$288, %r14
	leaq	(%r15,%rbx), %rdi
	addq	$-64, %rbx
	leaq	288(%rsp), %rsi
	vj_c_call	memcpy
	movq	888(%rsp), %rdx
	subq	$-128, %rdx
	movq	%rdx, 888(%rsp)
	movq	%r12, %rdi
	movq	%r15, %rsi
	xorl	%ecx, %ecx
	xorl	%r8d, %r8d
	vj_call	blake2_compress..compress..blake2b..compress_1_x86
	jmp	134f
133:
	movl	$64, %ebx
	leaq	288(%rsp), %r14
134:
	leaq	-1(%rbx), %rax
	andq	$-128, %rax
	addq	%rax, %r14
	subq	%rax, %rbx
	xorps	%xmm0, %xmm0
	movups	%xmm0, 112(%r15)
	movups	%xmm0, 96(%r15)
	movups	%xmm0, 80(%r15)
	movups	%xmm0, 64(%r15)
	movups	%xmm0, 48(%r15)
	movups	%xmm0, 32(%r15)
	movups	%xmm0, 16(%r15)
	movups	%xmm0, (%r15)
	movq	%r15, %rdi
	movq	%r14, %rsi
	movq	%rbx, %rdx
	vj_c_call	memcpy
	jmp	89b
135:
	movq	%r15, %rdx
	cmpb	$1, 72(%rax)
	movq	40(%rsp), %rdi
	jne	11b
136:
	movq	80(%rax), %r15
	movq	88(%rax), %r14
137:
	cmpq	$17, %rbx
	setae	%al
	cmpq	$17, %r14
	setae	%cl
	orb	%al, %cl
	movb	$1, %sil
	je	141f
138:
	movb	$2, %cl
139:
	xorl	%ebx, %ebx
140:
	movzbl	%cl, %eax
	movb	%sil, (%rdi)
	movq	%rax, 8(%rdi)
	movq	%rbx, 16(%rdi)
	leaq	-40(%rbp), %rsp
	popq	%rbx
	popq	%r12
	popq	%r13
	popq	%r14
	popq	%r15
	popq	%rbp
	retq
141:
	testl	%r13d, %r13d
	je	235f
	movq	%rdx, 16(%rsp)
	movl	$65536, %eax
	xorl	%edx, %edx
	divl	%r13d
	shrl	$2, %eax
	cmpl	$5, %eax
	movl	$4, %ecx
	cmovael	%eax, %ecx
	leal	1(,%rcx,4), %r12d
	imulq	%r13, %r12
	cmpq	$16777217, %r12
	jb	142f
	movl	$65536, %r12d
	cmpl	$3355443, %r13d
	ja	142f
	movl	$16777216, %eax
	xorl	%edx, %edx
	divl	%r13d
	movl	%eax, %r12d
	decq	%r12
	andq	$-4, %r12
	incq	%r12
	imulq	%r13, %r12
142:
	movl	$1, %esi
	movq	%r12, %rdi
	vj_call	rattle_alloc
	testb	$1, %al
	je	197f
	movq	%rdx, %rcx
	movq	%r12, 136(%rsp)
	leaq	-1(%r12), %rdx
	movq	%rcx, %rdi
	movq	%r15, 48(%rsp)
	movq	%rcx, %r15
	movq	%rcx, 280(%rsp)
	xorl	%esi, %esi
	vj_c_call	memset
	movb	$0, -1(%r15,%r12)
	xorps	%xmm0, %xmm0
	movaps	%xmm0, 288(%rsp)
	leaq	288(%rsp), %rdi
	movq	16(%rsp), %rsi
	movq	%rbx, %rdx
	vj_c_call	memcpy
	xorps	%xmm0, %xmm0
	movaps	%xmm0, 144(%rsp)
	leaq	144(%rsp), %rdi
	movq	48(%rsp), %rsi
	movq	%r14, %rdx
	vj_c_call	memcpy
	movaps	288(%rsp), %xmm0
	movaps	%xmm0, 1504(%rsp)
	movq	%rbx, 1520(%rsp)
	leaq	1528(%rsp), %r15
	movaps	144(%rsp), %xmm0
	movups	%xmm0, 1528(%rsp)
	movq	%r14, 1544(%rsp)
	movl	%r13d, 1552(%rsp)
	movl	$0, 1556(%rsp)
	xorps	%xmm0, %xmm0
	movaps	%xmm0, 1232(%rsp)
	movaps	%xmm0, 1216(%rsp)
	movd	%r13d, %xmm1
	movdqa	%xmm1, 64(%rsp)
	movd	.L1_x86_CPI41_9(%rip), %xmm0
	punpckldq	%xmm1, %xmm0
	movq	%xmm0, %xmm0
	movdqa	%xmm0, 16(%rsp)
	leaq	1216(%rsp), %rdi
	leaq	1504(%rsp), %r12
	movq	%r12, %rsi
	movq	%rbx, %rdx
	vj_c_call	memcpy
	leaq	1232(%rsp), %rdi
	movq	%r15, %rsi
	movq	%r14, %rdx
	vj_c_call	memcpy
	movaps	1216(%rsp), %xmm1
	xorps	.L1_x86_CPI41_3(%rip), %xmm1
	movaps	%xmm1, 48(%rsp)
	movaps	1232(%rsp), %xmm1
	xorps	.L1_x86_CPI41_4(%rip), %xmm1
	movaps	%xmm1, 96(%rsp)
	movaps	16(%rsp), %xmm0
	xorps	.L1_x86_CPI41_1(%rip), %xmm0
	movaps	%xmm0, 16(%rsp)
	xorps	%xmm0, %xmm0
	movaps	%xmm0, 1232(%rsp)
	movaps	%xmm0, 1216(%rsp)
	movd	.L1_x86_CPI41_10(%rip), %xmm0
	punpckldq	64(%rsp), %xmm0
	movq	%xmm0, %xmm0
	movdqa	%xmm0, 64(%rsp)
	leaq	1216(%rsp), %rdi
	movq	%r12, %rsi
	movq	%rbx, %rdx
	vj_c_call	memcpy
	leaq	1232(%rsp), %rdi
	movq	%r15, %rsi
	movq	%r14, %rdx
	vj_c_call	memcpy
	xorl	%r15d, %r15d
	movaps	.L1_x86_CPI41_3(%rip), %xmm2
	xorps	1216(%rsp), %xmm2
	movaps	.L1_x86_CPI41_4(%rip), %xmm3
	xorps	1232(%rsp), %xmm3
	movaps	64(%rsp), %xmm4
	xorps	.L1_x86_CPI41_1(%rip), %xmm4
	movaps	.L1_x86_CPI41_2(%rip), %xmm0
	movaps	288(%rsp), %xmm1
	movaps	%xmm1, 416(%rsp)
	movaps	144(%rsp), %xmm1
	movups	%xmm1, 440(%rsp)
	movq	%rbx, 432(%rsp)
	movq	%r14, 456(%rsp)
	movl	%r13d, 464(%rsp)
	movl	$0, 468(%rsp)
	movq	$0, 472(%rsp)
	movaps	.L1_x86_CPI41_7(%rip), %xmm7
	movaps	%xmm7, 496(%rsp)
	movaps	16(%rsp), %xmm1
	movaps	%xmm1, 480(%rsp)
	movaps	96(%rsp), %xmm6
	movaps	%xmm6, 528(%rsp)
	movaps	48(%rsp), %xmm5
	movaps	%xmm5, 512(%rsp)
	movaps	%xmm7, 560(%rsp)
	movaps	%xmm1, 544(%rsp)
	movaps	%xmm6, 592(%rsp)
	movaps	%xmm5, 576(%rsp)
	xorps	%xmm1, %xmm1
	movaps	%xmm1, 736(%rsp)
	movaps	%xmm1, 720(%rsp)
	movaps	%xmm1, 704(%rsp)
	movaps	%xmm1, 688(%rsp)
	movaps	%xmm1, 672(%rsp)
	movaps	%xmm1, 656(%rsp)
	movaps	%xmm1, 640(%rsp)
	movaps	%xmm1, 624(%rsp)
	movaps	%xmm1, 608(%rsp)
	movq	$0, 752(%rsp)
	movups	%xmm0, 776(%rsp)
	movups	%xmm4, 760(%rsp)
	movups	%xmm3, 808(%rsp)
	movups	%xmm2, 792(%rsp)
	movups	%xmm0, 840(%rsp)
	movups	%xmm4, 824(%rsp)
	movups	%xmm3, 872(%rsp)
	movups	%xmm2, 856(%rsp)
	movups	%xmm1, 1016(%rsp)
	movups	%xmm1, 1000(%rsp)
	movups	%xmm1, 984(%rsp)
	movups	%xmm1, 968(%rsp)
	movups	%xmm1, 952(%rsp)
	movups	%xmm1, 936(%rsp)
	movups	%xmm1, 920(%rsp)
	movups	%xmm1, 904(%rsp)
	movups	%xmm1, 888(%rsp)
	movq	$0, 1032(%rsp)
	movq	280(%rsp), %r12
	movq	136(%rsp), %rbx
	jmp	145f
143:
	movq	280(%rsp), %r9
144:
	leaq	624(%rsp), %rdi
	movq	%rbx, %rsi
	movq	%r9, %rdx
	movq	%r15, %rcx
	leaq	480(%rsp), %r8
	callq	blake2_digest..buffer..digest_into..33c1e97afcdf8a5d_1_x86
	movq	%rax, 752(%rsp)
	movq	136(%rsp), %rbx
	cmpq	%rbx, 1112(%rsp)
	movl	$0, %r15d
	movq	280(%rsp), %r12
	jb	213f
145:
	leaq	(%r12,%r15), %rsi
	movq	%r15, %r14
	subq	%r15, %rbx
	xorl	%edi, %edi
	movq	%rbx, %rdx
	vj_system_call	read, b2_read
	testq	%rax, %rax
	js	203f
	cmpq	%rbx, %rax
	cmovbq	%rax, %rbx
	movq	%r14, %r15
	testq	%rbx, %rbx
	je	146f
	addq	%rbx, %r15
	movq	136(%rsp), %rbx
	cmpq	%rbx, %r15
	jb	145b
146:
	movq	472(%rsp), %r10
	movl	464(%rsp), %ecx
	movq	%r10, %rsi
	imulq	%rcx, %rsi
	movq	608(%rsp), %rax
	movq	752(%rsp), %rbx
	leaq	(%rbx,%rax), %r9
	addq	%r9, %rsi
	movabsq	$288230376151711743, %rdi
	subq	%rsi, %rdi
	incq	%rdi
	cmpq	%r15, %rdi
	jbe	204f
	movq	%rcx, %rdx
	subq	%r9, %rdx
	cmpq	%r15, %rdx
	movq	%r15, 1112(%rsp)
	jae	143b
	movq	%r10, 16(%rsp)
	movq	280(%rsp), %r9
	leaq	904(%rsp), %r12
	jmp	150f
	.p2align	4
147:
	movaps	288(%rsp), %xmm0
	movaps	304(%rsp), %xmm1
	movaps	320(%rsp), %xmm2
	movaps	336(%rsp), %xmm3
	leaq	904(%rsp), %r12
	movups	%xmm3, 48(%r12,%rbx)
	movups	%xmm2, 32(%r12,%rbx)
	movups	%xmm1, 16(%r12,%rbx)
	movups	%xmm0, (%r12,%rbx)
	addq	$64, %rbx
148:
	movq	48(%rsp), %r15
	movq	96(%rsp), %r9
	movq	%rbx, 1032(%rsp)
	movq	472(%rsp), %rax
	incq	%rax
	movq	%rax, 16(%rsp)
	movq	%rax, 472(%rsp)
	movl	464(%rsp), %r14d
	movq	608(%rsp), %rax
	movq	752(%rsp), %rbx
	movq	64(%rsp), %r13
149:
	subq	%r13, %r15
	addq	%r13, %r9
	movl	%r14d, %ecx
	movq	%rcx, %rdx
	subq	%rax, %rdx
	subq	%rbx, %rdx
	cmpq	%r15, %rdx
	jae	144b
150:
	addq	%rbx, %rax
	movq	%r15, 48(%rsp)
	movq	%r9, 96(%rsp)
	jne	154f
	shlq	$2, %rcx
	cmpq	%r15, %rcx
	jae	154f
	leaq	1504(%rsp), %r13
	movl	$512, %edx
	movq	%r13, %rdi
	xorl	%esi, %esi
	movq	%r9, %rbx
	vj_c_call	memset
	leaq	416(%rsp), %rdi
	movq	16(%rsp), %rsi
	movq	%rbx, %rdx
	movq	%r15, %rcx
	movq	%r13, %r8
	vj_call	blake2_tree..nodes..Nodes..hash_next_1_x86
	movq	%rax, %r15
	movl	464(%rsp), %eax
	movq	%rax, 64(%rsp)
	movq	%r15, 16(%rsp)
	shlq	$6, %r15
	movq	1032(%rsp), %r14
	movl	$128, %edx
	subq	%r14, %rdx
	movq	%r15, %rbx
	subq	%rdx, %rbx
	jbe	163f
	movq	%r13, 112(%rsp)
	testq	%r14, %r14
	leaq	760(%rsp), %r13
	je	151f
	leaq	(%rsp,%rdx), %rax
	addq	$1504, %rax
	movq	%rax, 112(%rsp)
	addq	%r12, %r14
	leaq	1504(%rsp), %rsi
	movq	%r14, %rdi
	vj_c_call	memcpy
	movq	888(%rsp), %rdx
	subq	$-128, %rdx
	movq	%rdx, 888(%rsp)
	movq	%r13, %rdi
	movq	%r12, %rsi
	xorl	%ecx, %ecx
	xorl	%r8d, %r8d
	vj_call	blake2_compress..compress..blake2b..compress_1_x86
	movq	%rbx, %r15
151:
	cmpq	$1, %r15
	movq	%r13, %r12
	movq	%r15, %r13
	adcq	$-1, %r13
	movq	%r13, %rbx
	shrq	$7, %rbx
	je	153f
	movq	112(%rsp), %r14
	.p2align	4
152:
	movq	888(%rsp), %rdx
	subq	$-128, %rdx
	movq	%rdx, 888(%rsp)
	movq	%r12, %rdi
	movq	%r14, %rsi
	xorl	%ecx, %ecx
	xorl	%r8d, %r8d
	vj_call	blake2_compress..compress..blake2b..compress_1_x86
	subq	$-128, %r14
	decq	%rbx
	jne	152b
153:
	andq	$-128, %r13
	movq	112(%rsp), %rsi
	addq	%r13, %rsi
	subq	%r13, %r15
	xorps	%xmm0, %xmm0
	leaq	904(%rsp), %r12
	movups	%xmm0, 112(%r12)
	movups	%xmm0, 96(%r12)
	movups	%xmm0, 80(%r12)
	movups	%xmm0, 64(%r12)
	movups	%xmm0, 48(%r12)
	movups	%xmm0, 32(%r12)
	movups	%xmm0, 16(%r12)
	movups	%xmm0, (%r12)
	movq	%r12, %rdi
	movq	%r15, %rdx
	vj_c_call	memcpy
	jmp	164f
	.p2align	4
154:
	movl	$128, %r15d
	subq	%rbx, %r15
	movq	%rdx, %r12
	subq	%r15, %r12
	movq	%rdx, 64(%rsp)
	jbe	156f
	movq	%rdx, %rcx
	movq	%r9, %r14
	testq	%rbx, %rbx
	je	180f
	leaq	624(%rsp), %r14
	leaq	(%r14,%rbx), %rdi
	movq	%rdi, %rax
	subq	%r9, %rax
	cmpq	%r15, %rax
	jae	166f
	cmpq	$4, %r15
	jb	155f
	cmpq	$32, %rax
	jae	168f
155:
	xorl	%eax, %eax
	jmp	177f
	.p2align	4
156:
	leaq	624(%rsp), %rax
	leaq	(%rax,%rbx), %rdi
	movq	%rdi, %rax
	subq	%r9, %rax
	cmpq	%rdx, %rax
	jae	165f
	cmpq	$4, %rdx
	leaq	480(%rsp), %r12
	jb	157f
	cmpq	$32, %rax
	jae	167f
157:
	xorl	%eax, %eax
158:
	movq	%rdx, %r8
	movq	%rax, %rcx
	andq	$3, %r8
	je	160f
	movq	%rax, %rcx
	.p2align	4
159:
	movzbl	(%r9,%rcx), %esi
	movb	%sil, (%rdi,%rcx)
	incq	%rcx
	decq	%r8
	jne	159b
160:
	subq	%rdx, %rax
	cmpq	$-4, %rax
	ja	162f
	leaq	627(%rsp), %rax
	addq	%rbx, %rax
	.p2align	4
161:
	movzbl	(%r9,%rcx), %esi
	movb	%sil, -3(%rax,%rcx)
	movzbl	1(%r9,%rcx), %esi
	movb	%sil, -2(%rax,%rcx)
	movzbl	2(%r9,%rcx), %esi
	movb	%sil, -1(%rax,%rcx)
	movzbl	3(%r9,%rcx), %esi
	movb	%sil, (%rax,%rcx)
	addq	$4, %rcx
	cmpq	%rcx, %rdx
	jne	161b
162:
	addq	%rdx, %rbx
	jmp	191f
	.p2align	4
163:
	leaq	(%r12,%r14), %rdi
	leaq	1504(%rsp), %rsi
	movq	%r15, %rdx
	vj_c_call	memcpy
	addq	%r14, %r15
164:
	movabsq	$288230376151711743, %rax
	movq	64(%rsp), %r13
	movq	16(%rsp), %rcx
	imulq	%rcx, %r13
	movq	%r15, 1032(%rsp)
	andq	%rax, %rcx
	addq	472(%rsp), %rcx
	movq	%rcx, 472(%rsp)
	movq	432(%rsp), %rdx
	movq	456(%rsp), %rbx
	movd	.L1_x86_CPI41_9(%rip), %xmm1
	punpckldq	464(%rsp), %xmm1
	movl	464(%rsp), %r14d
	xorps	%xmm0, %xmm0
	movaps	%xmm0, 1232(%rsp)
	movaps	%xmm0, 1216(%rsp)
	movq	%rcx, 16(%rsp)
	movq	%rcx, %xmm0
	punpcklqdq	%xmm0, %xmm1
	movdqa	%xmm1, 64(%rsp)
	leaq	1216(%rsp), %rdi
	leaq	416(%rsp), %rsi
	vj_c_call	memcpy
	leaq	1232(%rsp), %rdi
	leaq	440(%rsp), %r15
	movq	%r15, %rsi
	movq	%rbx, %rdx
	vj_c_call	memcpy
	movaps	1216(%rsp), %xmm0
	movaps	1232(%rsp), %xmm1
	movaps	64(%rsp), %xmm3
	xorps	.L1_x86_CPI41_1(%rip), %xmm3
	xorps	.L1_x86_CPI41_3(%rip), %xmm0
	xorps	.L1_x86_CPI41_4(%rip), %xmm1
	movaps	.L1_x86_CPI41_7(%rip), %xmm2
	movaps	%xmm2, 496(%rsp)
	movaps	%xmm3, 480(%rsp)
	movaps	%xmm1, 528(%rsp)
	movaps	%xmm0, 512(%rsp)
	movaps	%xmm2, 560(%rsp)
	movaps	%xmm3, 544(%rsp)
	movaps	%xmm1, 592(%rsp)
	movaps	%xmm0, 576(%rsp)
	xorps	%xmm0, %xmm0
	movups	%xmm0, 296(%r15)
	movups	%xmm0, 280(%r15)
	movups	%xmm0, 264(%r15)
	movups	%xmm0, 248(%r15)
	movups	%xmm0, 232(%r15)
	movups	%xmm0, 216(%r15)
	movups	%xmm0, 200(%r15)
	movups	%xmm0, 184(%r15)
	movups	%xmm0, 168(%r15)
	movq	$0, 312(%r15)
	xorl	%ebx, %ebx
	xorl	%eax, %eax
	movq	48(%rsp), %r15
	movq	96(%rsp), %r9
	jmp	149b
165:
	movq	%r9, %rsi
	movq	%rdx, %r15
	vj_c_call	memmove
	leaq	480(%rsp), %r12
	addq	%r15, %rbx
	jmp	191f
166:
	movq	%r9, %rsi
	movq	%r15, %rdx
	movq	%r9, %rbx
	vj_c_call	memmove
	movq	%rbx, %r9
	jmp	179f
167:
	cmpq	$32, %rdx
	jae	169f
	xorl	%eax, %eax
	jmp	171f
168:
	cmpq	$32, %r15
	jae	173f
	xorl	%eax, %eax
	jmp	175f
169:
	movq	%rdx, %rax
	andq	$-32, %rax
	leaq	640(%rsp), %rcx
	addq	%rbx, %rcx
	xorl	%esi, %esi
	.p2align	4
170:
	movups	(%r9,%rsi), %xmm0
	movups	16(%r9,%rsi), %xmm1
	movups	%xmm0, -16(%rcx,%rsi)
	movups	%xmm1, (%rcx,%rsi)
	addq	$32, %rsi
	cmpq	%rsi, %rax
	jne	170b
	cmpq	%rax, %rdx
	je	162b
	testb	$28, %dl
	je	158b
171:
	movq	%rax, %rcx
	movq	%rdx, %rax
	andq	$-4, %rax
	.p2align	4
172:
	movl	(%r9,%rcx), %esi
	movl	%esi, (%rdi,%rcx)
	addq	$4, %rcx
	cmpq	%rcx, %rax
	jne	172b
	cmpq	%rax, %rdx
	je	162b
	jmp	158b
173:
	movq	%r15, %rax
	andq	$-32, %rax
	leaq	640(%rsp), %rcx
	addq	%rcx, %rbx
	xorl	%ecx, %ecx
	.p2align	4
174:
	movups	(%r9,%rcx), %xmm0
	movups	16(%r9,%rcx), %xmm1
	movups	%xmm0, -16(%rbx,%rcx)
	movups	%xmm1, (%rbx,%rcx)
	addq	$32, %rcx
	cmpq	%rcx, %rax
	jne	174b
	cmpq	%rax, %r15
	je	179f
	testb	$28, %r15b
	je	177f
175:
	movq	%rax, %rcx
	movq	%r15, %rax
	andq	$-4, %rax
	.p2align	4
176:
	movl	(%r9,%rcx), %edx
	movl	%edx, (%rdi,%rcx)
	addq	$4, %rcx
	cmpq	%rcx, %rax
	jne	176b
	jmp	178f
	.p2align	4
177:
	movzbl	(%r9,%rax), %ecx
	movb	%cl, (%rdi,%rax)
	incq	%rax
178:
	cmpq	%rax, %r15
	jne	177b
179:
	addq	%r9, %r15
	movq	608(%rsp), %rdx
	subq	$-128, %rdx
	movq	%rdx, 608(%rsp)
	leaq	480(%rsp), %rdi
	movq	%r14, %rsi
	xorl	%ecx, %ecx
	xorl	%r8d, %r8d
	vj_call	blake2_compress..compress..blake2b..compress_1_x86
	movq	%r12, %rcx
	movq	%r15, %r14
180:
	cmpq	$1, %rcx
	movq	%rcx, 16(%rsp)
	movq	%rcx, %r15
	adcq	$-1, %r15
	movq	%r15, %r12
	shrq	$7, %r12
	leaq	480(%rsp), %r13
	je	182f
	movq	%r14, %rbx
	.p2align	4
181:
	movq	608(%rsp), %rdx
	subq	$-128, %rdx
	movq	%rdx, 608(%rsp)
	movq	%r13, %rdi
	movq	%rbx, %rsi
	xorl	%ecx, %ecx
	xorl	%r8d, %r8d
	vj_call	blake2_compress..compress..blake2b..compress_1_x86
	subq	$-128, %rbx
	decq	%r12
	jne	181b
182:
	andq	$-128, %r15
	leaq	(%r14,%r15), %rsi
	movq	16(%rsp), %r9
	movq	%r9, %rbx
	subq	%r15, %rbx
	xorps	%xmm0, %xmm0
	leaq	624(%rsp), %rdi
	movups	%xmm0, 112(%rdi)
	movups	%xmm0, 96(%rdi)
	movups	%xmm0, 80(%rdi)
	movups	%xmm0, 64(%rdi)
	movups	%xmm0, 48(%rdi)
	movups	%xmm0, 32(%rdi)
	movups	%xmm0, 16(%rdi)
	movups	%xmm0, (%rdi)
	movq	%rdi, %rax
	subq	%rsi, %rax
	cmpq	%rbx, %rax
	jae	183f
	cmpq	$4, %rbx
	jae	184f
	xorl	%eax, %eax
	leaq	480(%rsp), %r12
	jmp	190f
183:
	movq	%rbx, %rdx
	vj_c_call	memmove
	leaq	480(%rsp), %r12
	jmp	191f
184:
	cmpq	$32, %rax
	leaq	480(%rsp), %r12
	jae	185f
	xorl	%eax, %eax
	jmp	190f
185:
	cmpq	$32, %rbx
	jae	186f
	xorl	%eax, %eax
	jmp	188f
186:
	movl	%r9d, %ecx
	andl	$31, %ecx
	movq	%rbx, %rax
	subq	%rcx, %rax
	movq	%r9, %rdx
	andq	$-32, %rdx
	subq	%r15, %rdx
	leaq	(%r14,%r15), %rdi
	addq	$16, %rdi
	xorl	%r8d, %r8d
	.p2align	4
187:
	movups	-16(%rdi,%r8), %xmm0
	movups	(%rdi,%r8), %xmm1
	movups	%xmm0, 624(%rsp,%r8)
	movups	%xmm1, 640(%rsp,%r8)
	addq	$32, %r8
	cmpq	%r8, %rdx
	jne	187b
	testq	%rcx, %rcx
	je	191f
	cmpl	$4, %ecx
	jb	190f
188:
	movq	%rax, %rcx
	andl	$3, %r9d
	movq	%rbx, %rax
	subq	%r9, %rax
	.p2align	4
189:
	movl	(%rsi,%rcx), %edx
	movl	%edx, 624(%rsp,%rcx)
	addq	$4, %rcx
	cmpq	%rcx, %rax
	jne	189b
	testq	%r9, %r9
	je	191f
	.p2align	4
190:
	movzbl	(%rsi,%rax), %ecx
	movb	%cl, 624(%rsp,%rax)
	incq	%rax
	cmpq	%rax, %rbx
	jne	190b
191:
	movq	%rbx, 752(%rsp)
	xorps	%xmm1, %xmm1
	movaps	%xmm1, 336(%rsp)
	movaps	%xmm1, 320(%rsp)
	movaps	%xmm1, 304(%rsp)
	movaps	%xmm1, 288(%rsp)
	movq	472(%rsp), %rax
	incq	%rax
	movq	432(%rsp), %rdx
	movq	456(%rsp), %rbx
	movd	.L1_x86_CPI41_9(%rip), %xmm2
	punpckldq	464(%rsp), %xmm2
	movaps	%xmm1, 1520(%rsp)
	movaps	%xmm1, 1504(%rsp)
	movq	%rax, %xmm0
	punpcklqdq	%xmm0, %xmm2
	movdqa	%xmm2, 16(%rsp)
	leaq	1504(%rsp), %rdi
	leaq	416(%rsp), %rsi
	vj_c_call	memcpy
	leaq	1520(%rsp), %rdi
	leaq	440(%rsp), %r14
	movq	%r14, %rsi
	movq	%rbx, %rdx
	vj_c_call	memcpy
	movaps	1504(%rsp), %xmm1
	movaps	1520(%rsp), %xmm2
	movaps	16(%rsp), %xmm0
	xorps	.L1_x86_CPI41_1(%rip), %xmm0
	movaps	%xmm0, 16(%rsp)
	xorps	.L1_x86_CPI41_3(%rip), %xmm1
	movaps	%xmm1, 112(%rsp)
	xorps	.L1_x86_CPI41_4(%rip), %xmm2
	movaps	%xmm2, 2080(%rsp)
	leaq	1504(%rsp), %rbx
	movl	$280, %edx
	movq	%rbx, %rdi
	movq	%r12, %rsi
	vj_c_call	memcpy
	movaps	.L1_x86_CPI41_7(%rip), %xmm0
	movaps	%xmm0, 496(%rsp)
	movaps	16(%rsp), %xmm1
	movaps	%xmm1, 480(%rsp)
	movaps	2080(%rsp), %xmm3
	movaps	%xmm3, 528(%rsp)
	movaps	112(%rsp), %xmm2
	movaps	%xmm2, 512(%rsp)
	movaps	%xmm0, 560(%rsp)
	movaps	%xmm1, 544(%rsp)
	movaps	%xmm3, 592(%rsp)
	movaps	%xmm2, 576(%rsp)
	xorps	%xmm0, %xmm0
	movups	%xmm0, 168(%r14)
	movups	%xmm0, 184(%r14)
	movups	%xmm0, 200(%r14)
	movups	%xmm0, 216(%r14)
	movups	%xmm0, 232(%r14)
	movups	%xmm0, 248(%r14)
	movups	%xmm0, 264(%r14)
	movups	%xmm0, 280(%r14)
	movups	%xmm0, 296(%r14)
	movq	$0, 312(%r14)
	movq	1776(%rsp), %rdx
	movq	1632(%rsp), %r15
	addq	%rdx, %r15
	movq	%r15, 1632(%rsp)
	movaps	%xmm0, 1216(%rsp)
	movaps	%xmm0, 1232(%rsp)
	movaps	%xmm0, 1248(%rsp)
	movaps	%xmm0, 1264(%rsp)
	movaps	%xmm0, 1280(%rsp)
	movaps	%xmm0, 1296(%rsp)
	movaps	%xmm0, 1312(%rsp)
	movaps	%xmm0, 1328(%rsp)
	leaq	1216(%rsp), %rdi
	leaq	1648(%rsp), %r14
	movq	%r14, %rsi
	vj_c_call	memcpy
	xorps	%xmm0, %xmm0
	movups	%xmm0, (%r14)
	movups	%xmm0, 16(%r14)
	movups	%xmm0, 32(%r14)
	movups	%xmm0, 48(%r14)
	movups	%xmm0, 64(%r14)
	movups	%xmm0, 80(%r14)
	movups	%xmm0, 96(%r14)
	movups	%xmm0, 112(%r14)
	movq	$0, 128(%r14)
	movaps	1216(%rsp), %xmm0
	movaps	1232(%rsp), %xmm1
	movaps	1248(%rsp), %xmm2
	movaps	1264(%rsp), %xmm3
	movaps	%xmm0, 144(%rsp)
	movaps	%xmm1, 160(%rsp)
	movaps	%xmm2, 176(%rsp)
	movaps	%xmm3, 192(%rsp)
	movaps	1280(%rsp), %xmm0
	movaps	%xmm0, 208(%rsp)
	movaps	1296(%rsp), %xmm0
	movaps	%xmm0, 224(%rsp)
	movaps	1312(%rsp), %xmm0
	movaps	%xmm0, 240(%rsp)
	movaps	1328(%rsp), %xmm0
	movaps	%xmm0, 256(%rsp)
	movl	1640(%rsp), %r8d
	leaq	144(%rsp), %rsi
	movq	%rbx, %rdi
	movq	%r15, %rdx
	movl	$1, %ecx
	vj_call	blake2_compress..compress..blake2b..compress_1_x86
	movups	1504(%rsp), %xmm0
	movups	1520(%rsp), %xmm1
	movups	1536(%rsp), %xmm2
	movups	1552(%rsp), %xmm3
	movaps	%xmm0, 288(%rsp)
	movaps	%xmm1, 304(%rsp)
	movaps	%xmm2, 320(%rsp)
	movaps	%xmm3, 336(%rsp)
	movq	1032(%rsp), %rbx
	movl	$128, %edx
	subq	%rbx, %rdx
	cmpq	$64, %rdx
	jae	147b
	testq	%rbx, %rbx
	leaq	904(%rsp), %r12
	je	192f
	leaq	(%rsp,%rdx), %r15
	addq	$288, %r15
	leaq	(%r12,%rbx), %rdi
	addq	$-64, %rbx
	leaq	288(%rsp), %rsi
	vj_c_call	memcpy
	movq	888(%rsp), %rdx
	subq	$-128, %rdx
	movq	%rdx, 888(%rsp)
	leaq	760(%rsp), %rdi
	movq	%r12, %rsi
	xorl	%ecx, %ecx
	xorl	%r8d, %r8d
	vj_call	blake2_compress..compress..blake2b..compress_1_x86
	jmp	193f
192:
	movl	$64, %ebx
	leaq	288(%rsp), %r15
193:
	leaq	-1(%rbx), %rax
	andq	$-128, %rax
	addq	%rax, %r15
	subq	%rax, %rbx
	xorps	%xmm0, %xmm0
	movups	%xmm0, 112(%r12)
	movups	%xmm0, 96(%r12)
	movups	%xmm0, 80(%r12)
	movups	%xmm0, 64(%r12)
	movups	%xmm0, 48(%r12)
	movups	%xmm0, 32(%r12)
	movups	%xmm0, 16(%r12)
	movups	%xmm0, (%r12)
	movq	%r12, %rdi
	movq	%r15, %rsi
	movq	%rbx, %rdx
	vj_c_call	memcpy
	jmp	148b
194:
	movq	40(%rsp), %rdi
	movb	$1, %sil
	jmp	139b
195:
	movq	1064(%rsp), %rax
	movq	%rax, 96(%rsp)
	leaq	1152(%rsp), %rdi
	movq	%rcx, 64(%rsp)
	movq	%rcx, %rsi
	movq	%rbx, %rdx
	callq	b2_commands..leaf_lines..digests_of_1_x86
	movq	1160(%rsp), %rcx
	movq	1168(%rsp), %rbx
	cmpb	$0, 1152(%rsp)
	je	201f
196:
	cmpq	$0, 96(%rsp)
	je	24b
	movq	64(%rsp), %rdi
	movq	%rcx, %r14
	vj_call	rattle_dealloc
	movq	%r14, %rcx
	jmp	24b
197:
	movb	$8, %cl
	xorl	%ebx, %ebx
	jmp	24b
198:
	leaq	1504(%rsp), %rdi
	callq	std_io..io..error..last_error_1_x86
	movq	2072(%rsp), %rax
	movb	$1, (%rax)
	movb	$7, %bl
	jmp	200f
199:
	movb	$6, %bl
200:
	movq	%r14, %rdi
	vj_call	rattle_dealloc
	movq	40(%rsp), %rdi
	movb	$1, %sil
	movq	%rbx, %rcx
	jmp	139b
201:
	movq	%rcx, 48(%rsp)
	movq	1176(%rsp), %rax
	movq	%rax, 112(%rsp)
	xorps	%xmm0, %xmm0
	movaps	%xmm0, 2032(%rsp)
	leaq	2032(%rsp), %rdi
	movq	%r12, %rsi
	movq	%r13, %rdx
	vj_c_call	memcpy
	xorps	%xmm0, %xmm0
	movaps	%xmm0, 2048(%rsp)
	leaq	2048(%rsp), %rdi
	movq	%r14, %rsi
	movq	%r15, %rdx
	vj_c_call	memcpy
	movaps	2032(%rsp), %xmm0
	movaps	%xmm0, 288(%rsp)
	movq	%r13, 304(%rsp)
	leaq	312(%rsp), %r14
	movaps	2048(%rsp), %xmm0
	movups	%xmm0, 312(%rsp)
	movq	%r15, 328(%rsp)
	movl	16(%rsp), %eax
	movl	%eax, 336(%rsp)
	movl	$0, 340(%rsp)
	xorps	%xmm0, %xmm0
	movaps	%xmm0, 432(%rsp)
	movaps	%xmm0, 416(%rsp)
	movd	%eax, %xmm0
	movd	.L1_x86_CPI41_10(%rip), %xmm1
	punpckldq	%xmm0, %xmm1
	movq	%xmm1, %xmm0
	movdqa	%xmm0, 16(%rsp)
	leaq	416(%rsp), %rdi
	leaq	288(%rsp), %rsi
	movq	%r13, %rdx
	vj_c_call	memcpy
	leaq	432(%rsp), %rdi
	movq	%r14, %rsi
	movq	%r15, %rdx
	vj_c_call	memcpy
	movaps	416(%rsp), %xmm0
	movaps	432(%rsp), %xmm1
	movaps	16(%rsp), %xmm3
	xorps	.L1_x86_CPI41_1(%rip), %xmm3
	xorps	.L1_x86_CPI41_3(%rip), %xmm0
	movaps	.L1_x86_CPI41_2(%rip), %xmm2
	xorps	.L1_x86_CPI41_4(%rip), %xmm1
	movups	%xmm2, 1520(%rsp)
	movups	%xmm3, 1504(%rsp)
	movups	%xmm1, 1552(%rsp)
	movups	%xmm0, 1536(%rsp)
	movups	%xmm2, 1584(%rsp)
	movups	%xmm3, 1568(%rsp)
	movups	%xmm1, 1616(%rsp)
	movups	%xmm0, 1600(%rsp)
	xorps	%xmm0, %xmm0
	movups	%xmm0, 1632(%rsp)
	movups	%xmm0, 1648(%rsp)
	movups	%xmm0, 1664(%rsp)
	movups	%xmm0, 1680(%rsp)
	movups	%xmm0, 1696(%rsp)
	movups	%xmm0, 1712(%rsp)
	movups	%xmm0, 1728(%rsp)
	movups	%xmm0, 1744(%rsp)
	movups	%xmm0, 1760(%rsp)
	movq	$0, 1776(%rsp)
	movb	$1, 1640(%rsp)
	leaq	1648(%rsp), %r14
	cmpq	$128, %rbx
	jbe	228f
	leaq	-1(%rbx), %r12
	movq	%r12, %r13
	shrq	$7, %r13
	movq	48(%rsp), %r15
	.p2align	4
202:
	movq	1632(%rsp), %rdx
	subq	$-128, %rdx
	movq	%rdx, 1632(%rsp)
	leaq	1504(%rsp), %rdi
	movq	%r15, %rsi
	xorl	%ecx, %ecx
	xorl	%r8d, %r8d
	vj_call	blake2_compress..compress..blake2b..compress_1_x86
	subq	$-128, %r15
	decq	%r13
	jne	202b
	andq	$-128, %r12
	movq	48(%rsp), %rax
	leaq	(%rax,%r12), %rsi
	subq	%r12, %rbx
	xorps	%xmm0, %xmm0
	movups	%xmm0, 112(%r14)
	movups	%xmm0, 96(%r14)
	movups	%xmm0, 80(%r14)
	movups	%xmm0, 64(%r14)
	movups	%xmm0, 48(%r14)
	movups	%xmm0, 32(%r14)
	movups	%xmm0, 16(%r14)
	movups	%xmm0, (%r14)
	movq	%r14, %rdi
	jmp	229f
203:
	leaq	1504(%rsp), %rdi
	callq	std_io..io..error..last_error_1_x86
	movq	2072(%rsp), %rax
	movb	$1, (%rax)
	movb	$7, %r14b
	jmp	205f
204:
	movb	$6, %r14b
	movq	280(%rsp), %r12
205:
	movq	%r12, %rdi
	vj_call	rattle_dealloc
	xorl	%ebx, %ebx
	movq	40(%rsp), %rdi
	movb	$1, %sil
	movq	%r14, %rcx
	jmp	140b
206:
	xorps	%xmm0, %xmm0
	movaps	%xmm0, 1088(%rsp)
	movaps	%xmm0, 1072(%rsp)
	movaps	%xmm0, 1056(%rsp)
	movaps	%xmm0, 1040(%rsp)
	leaq	1504(%rsp), %r14
	movl	$136, %edx
	movq	%r14, %rdi
	movq	%r13, %rsi
	vj_c_call	memcpy
	leaq	1641(%rsp), %rdi
	leaq	617(%rsp), %rsi
	movl	$143, %edx
	vj_c_call	memcpy
	leaq	1216(%rsp), %rbx
	movl	$280, %edx
	movq	%rbx, %rdi
	leaq	760(%rsp), %rsi
	vj_c_call	memcpy
	movb	$1, 1640(%rsp)
	leaq	1648(%rsp), %rsi
	movq	1776(%rsp), %rdx
	movq	1632(%rsp), %r15
	addq	%rdx, %r15
	movq	%r15, 1632(%rsp)
	xorps	%xmm0, %xmm0
	movaps	%xmm0, 144(%rsp)
	movaps	%xmm0, 160(%rsp)
	movaps	%xmm0, 176(%rsp)
	movaps	%xmm0, 192(%rsp)
	movaps	%xmm0, 208(%rsp)
	movaps	%xmm0, 224(%rsp)
	movaps	%xmm0, 240(%rsp)
	movaps	%xmm0, 256(%rsp)
	leaq	144(%rsp), %rdi
	vj_c_call	memcpy
	xorps	%xmm0, %xmm0
	movups	%xmm0, 1648(%rsp)
	movups	%xmm0, 1664(%rsp)
	movups	%xmm0, 1680(%rsp)
	movups	%xmm0, 1696(%rsp)
	movups	%xmm0, 1712(%rsp)
	movups	%xmm0, 1728(%rsp)
	movups	%xmm0, 1744(%rsp)
	movups	%xmm0, 1760(%rsp)
	movq	$0, 1776(%rsp)
	movaps	144(%rsp), %xmm0
	movaps	160(%rsp), %xmm1
	movaps	176(%rsp), %xmm2
	movaps	192(%rsp), %xmm3
	movaps	%xmm0, 288(%rsp)
	movaps	%xmm1, 304(%rsp)
	movaps	%xmm2, 320(%rsp)
	movaps	%xmm3, 336(%rsp)
	movaps	208(%rsp), %xmm0
	movaps	%xmm0, 352(%rsp)
	movaps	224(%rsp), %xmm0
	movaps	%xmm0, 368(%rsp)
	movaps	240(%rsp), %xmm0
	movaps	%xmm0, 384(%rsp)
	movaps	256(%rsp), %xmm0
	movaps	%xmm0, 400(%rsp)
	leaq	288(%rsp), %rsi
	movq	%r14, %rdi
	movq	%r15, %rdx
	movl	$1, %ecx
	movl	$1, %r8d
	vj_call	blake2_compress..compress..blake2b..compress_1_x86
	movups	1504(%rsp), %xmm0
	movups	1520(%rsp), %xmm1
	movups	1536(%rsp), %xmm2
	movups	1552(%rsp), %xmm3
	movaps	%xmm0, 1040(%rsp)
	movaps	%xmm1, 1056(%rsp)
	movaps	%xmm2, 1072(%rsp)
	movaps	%xmm3, 1088(%rsp)
	leaq	1360(%rsp), %rdi
	movq	1488(%rsp), %rsi
	leaq	1040(%rsp), %rdx
	movl	$64, %ecx
	movq	%rbx, %r8
	callq	blake2_digest..buffer..digest_into..33c1e97afcdf8a5d_1_x86
	movq	%rax, 1488(%rsp)
	movb	$1, 1352(%rsp)
	leaq	1504(%rsp), %r14
	movl	$280, %edx
	movq	%r14, %rdi
	movq	%rbx, %rsi
	vj_c_call	memcpy
	leaq	1648(%rsp), %rsi
	movq	1776(%rsp), %rdx
	movq	1632(%rsp), %rbx
	addq	%rdx, %rbx
	movq	%rbx, 1632(%rsp)
	xorps	%xmm0, %xmm0
	movaps	%xmm0, 144(%rsp)
	movaps	%xmm0, 160(%rsp)
	movaps	%xmm0, 176(%rsp)
	movaps	%xmm0, 192(%rsp)
	movaps	%xmm0, 208(%rsp)
	movaps	%xmm0, 224(%rsp)
	movaps	%xmm0, 240(%rsp)
	movaps	%xmm0, 256(%rsp)
	leaq	144(%rsp), %rdi
	vj_c_call	memcpy
	xorps	%xmm0, %xmm0
	movups	%xmm0, 1648(%rsp)
	movups	%xmm0, 1664(%rsp)
	movups	%xmm0, 1680(%rsp)
	movups	%xmm0, 1696(%rsp)
	movups	%xmm0, 1712(%rsp)
	movups	%xmm0, 1728(%rsp)
	movups	%xmm0, 1744(%rsp)
	movups	%xmm0, 1760(%rsp)
	movq	$0, 1776(%rsp)
	movaps	144(%rsp), %xmm0
	movaps	160(%rsp), %xmm1
	movaps	176(%rsp), %xmm2
	movaps	192(%rsp), %xmm3
	movaps	%xmm0, 288(%rsp)
	movaps	%xmm1, 304(%rsp)
	movaps	%xmm2, 320(%rsp)
	movaps	%xmm3, 336(%rsp)
	movaps	208(%rsp), %xmm0
	movaps	%xmm0, 352(%rsp)
	movaps	224(%rsp), %xmm0
	movaps	%xmm0, 368(%rsp)
	movaps	240(%rsp), %xmm0
	movaps	%xmm0, 384(%rsp)
	movaps	256(%rsp), %xmm0
	movaps	%xmm0, 400(%rsp)
	movl	1640(%rsp), %r8d
	leaq	288(%rsp), %rsi
	movq	%r14, %rdi
	movq	%rbx, %rdx
	movl	$1, %ecx
	vj_call	blake2_compress..compress..blake2b..compress_1_x86
	movups	1504(%rsp), %xmm0
	movups	1520(%rsp), %xmm1
	movaps	%xmm0, 1152(%rsp)
	movaps	%xmm1, 1168(%rsp)
	leaq	1504(%rsp), %rdi
	movl	$424, %edx
	xorl	%esi, %esi
	vj_c_call	memset
	movl	$1, %eax
	.p2align	4
207:
	movzbl	1151(%rsp,%rax), %ecx
	movl	%ecx, %edx
	shrl	$4, %edx
	leaq	.L1_x86_static.37(%rip), %rsi
	movzbl	(%rdx,%rsi), %edx
	movb	%dl, 1502(%rsp,%rax,2)
	andl	$15, %ecx
	movzbl	(%rcx,%rsi), %ecx
	movb	%cl, 1503(%rsp,%rax,2)
	movzbl	1152(%rsp,%rax), %ecx
	movl	%ecx, %edx
	shrl	$4, %edx
	movzbl	(%rdx,%rsi), %edx
	movb	%dl, 1504(%rsp,%rax,2)
	andl	$15, %ecx
	movzbl	(%rcx,%rsi), %ecx
	movb	%cl, 1505(%rsp,%rax,2)
	addq	$2, %rax
	cmpq	$33, %rax
	jne	207b
	movb	$10, 1568(%rsp)
	movq	$65, 1928(%rsp)
	xorl	%r14d, %r14d
208:
	leaq	(%rsp,%r14), %rsi
	addq	$1504, %rsi
	movl	$65, %ebx
	subq	%r14, %rbx
	movl	$1, %edi
	movq	%rbx, %rdx
	vj_system_call	write, b2_write
	testq	%rax, %rax
	js	232f
	cmpq	%rbx, %rax
	cmovbq	%rax, %rbx
	testq	%rbx, %rbx
	je	233f
	addq	%rbx, %r14
	cmpq	$64, %r14
	jbe	208b
	jmp	212f
209:
	xorps	%xmm0, %xmm0
	movaps	%xmm0, 1088(%rsp)
	movaps	%xmm0, 1072(%rsp)
	movaps	%xmm0, 1056(%rsp)
	movaps	%xmm0, 1040(%rsp)
	leaq	1504(%rsp), %r14
	movl	$136, %edx
	movq	%r14, %rdi
	movq	%r13, %rsi
	vj_c_call	memcpy
	leaq	1641(%rsp), %rdi
	leaq	617(%rsp), %rsi
	movl	$143, %edx
	vj_c_call	memcpy
	leaq	1216(%rsp), %rbx
	movl	$280, %edx
	movq	%rbx, %rdi
	leaq	760(%rsp), %rsi
	vj_c_call	memcpy
	movb	$1, 1640(%rsp)
	leaq	1648(%rsp), %rsi
	movq	1776(%rsp), %rdx
	movq	1632(%rsp), %r15
	addq	%rdx, %r15
	movq	%r15, 1632(%rsp)
	xorps	%xmm0, %xmm0
	movaps	%xmm0, 144(%rsp)
	movaps	%xmm0, 160(%rsp)
	movaps	%xmm0, 176(%rsp)
	movaps	%xmm0, 192(%rsp)
	movaps	%xmm0, 208(%rsp)
	movaps	%xmm0, 224(%rsp)
	movaps	%xmm0, 240(%rsp)
	movaps	%xmm0, 256(%rsp)
	leaq	144(%rsp), %rdi
	vj_c_call	memcpy
	xorps	%xmm0, %xmm0
	movups	%xmm0, 1648(%rsp)
	movups	%xmm0, 1664(%rsp)
	movups	%xmm0, 1680(%rsp)
	movups	%xmm0, 1696(%rsp)
	movups	%xmm0, 1712(%rsp)
	movups	%xmm0, 1728(%rsp)
	movups	%xmm0, 1744(%rsp)
	movups	%xmm0, 1760(%rsp)
	movq	$0, 1776(%rsp)
	movaps	144(%rsp), %xmm0
	movaps	160(%rsp), %xmm1
	movaps	176(%rsp), %xmm2
	movaps	192(%rsp), %xmm3
	movaps	%xmm0, 288(%rsp)
	movaps	%xmm1, 304(%rsp)
	movaps	%xmm2, 320(%rsp)
	movaps	%xmm3, 336(%rsp)
	movaps	208(%rsp), %xmm0
	movaps	%xmm0, 352(%rsp)
	movaps	224(%rsp), %xmm0
	movaps	%xmm0, 368(%rsp)
	movaps	240(%rsp), %xmm0
	movaps	%xmm0, 384(%rsp)
	movaps	256(%rsp), %xmm0
	movaps	%xmm0, 400(%rsp)
	leaq	288(%rsp), %rsi
	movq	%r14, %rdi
	movq	%r15, %rdx
	movl	$1, %ecx
	movl	$1, %r8d
	vj_call	blake2_compress..compress..blake2b..compress_1_x86
	movups	1504(%rsp), %xmm0
	movups	1520(%rsp), %xmm1
	movups	1536(%rsp), %xmm2
	movups	1552(%rsp), %xmm3
	movaps	%xmm0, 1040(%rsp)
	movaps	%xmm1, 1056(%rsp)
	movaps	%xmm2, 1072(%rsp)
	movaps	%xmm3, 1088(%rsp)
	leaq	1360(%rsp), %rdi
	movq	1488(%rsp), %rsi
	leaq	1040(%rsp), %rdx
	movl	$64, %ecx
	movq	%rbx, %r8
	callq	blake2_digest..buffer..digest_into..33c1e97afcdf8a5d_1_x86
	movq	%rax, 1488(%rsp)
	movb	$1, 1352(%rsp)
	leaq	1504(%rsp), %r14
	movl	$280, %edx
	movq	%r14, %rdi
	movq	%rbx, %rsi
	vj_c_call	memcpy
	leaq	1648(%rsp), %rsi
	movq	1776(%rsp), %rdx
	movq	1632(%rsp), %rbx
	addq	%rdx, %rbx
	movq	%rbx, 1632(%rsp)
	xorps	%xmm0, %xmm0
	movaps	%xmm0, 144(%rsp)
	movaps	%xmm0, 160(%rsp)
	movaps	%xmm0, 176(%rsp)
	movaps	%xmm0, 192(%rsp)
	movaps	%xmm0, 208(%rsp)
	movaps	%xmm0, 224(%rsp)
	movaps	%xmm0, 240(%rsp)
	movaps	%xmm0, 256(%rsp)
	leaq	144(%rsp), %rdi
	vj_c_call	memcpy
	xorps	%xmm0, %xmm0
	movups	%xmm0, 1648(%rsp)
	movups	%xmm0, 1664(%rsp)
	movups	%xmm0, 1680(%rsp)
	movups	%xmm0, 1696(%rsp)
	movups	%xmm0, 1712(%rsp)
	movups	%xmm0, 1728(%rsp)
	movups	%xmm0, 1744(%rsp)
	movups	%xmm0, 1760(%rsp)
	movq	$0, 1776(%rsp)
	movaps	144(%rsp), %xmm0
	movaps	160(%rsp), %xmm1
	movaps	176(%rsp), %xmm2
	movaps	192(%rsp), %xmm3
	movaps	%xmm0, 288(%rsp)
	movaps	%xmm1, 304(%rsp)
	movaps	%xmm2, 320(%rsp)
	movaps	%xmm3, 336(%rsp)
	movaps	208(%rsp), %xmm0
	movaps	%xmm0, 352(%rsp)
	movaps	224(%rsp), %xmm0
	movaps	%xmm0, 368(%rsp)
	movaps	240(%rsp), %xmm0
	movaps	%xmm0, 384(%rsp)
	movaps	256(%rsp), %xmm0
	movaps	%xmm0, 400(%rsp)
	movl	1640(%rsp), %r8d
	leaq	288(%rsp), %rsi
	movq	%r14, %rdi
	movq	%rbx, %rdx
	movl	$1, %ecx
	vj_call	blake2_compress..compress..blake2b..compress_1_x86
	movups	1504(%rsp), %xmm0
	movups	1520(%rsp), %xmm1
	movups	1536(%rsp), %xmm2
	movups	1552(%rsp), %xmm3
	movaps	%xmm0, 1152(%rsp)
	movaps	%xmm1, 1168(%rsp)
	movaps	%xmm2, 1184(%rsp)
	movaps	%xmm3, 1200(%rsp)
	leaq	1504(%rsp), %rdi
	movl	$424, %edx
	xorl	%esi, %esi
	vj_c_call	memset
	movl	$1, %eax
	.p2align	4
210:
	movzbl	1151(%rsp,%rax), %ecx
	movl	%ecx, %edx
	shrl	$4, %edx
	leaq	.L1_x86_static.37(%rip), %rsi
	movzbl	(%rdx,%rsi), %edx
	movb	%dl, 1502(%rsp,%rax,2)
	andl	$15, %ecx
	movzbl	(%rcx,%rsi), %ecx
	movb	%cl, 1503(%rsp,%rax,2)
	movzbl	1152(%rsp,%rax), %ecx
	movl	%ecx, %edx
	shrl	$4, %edx
	movzbl	(%rdx,%rsi), %edx
	movb	%dl, 1504(%rsp,%rax,2)
	andl	$15, %ecx
	movzbl	(%rcx,%rsi), %ecx
	movb	%cl, 1505(%rsp,%rax,2)
	addq	$2, %rax
	cmpq	$65, %rax
	jne	210b
	movb	$10, 1632(%rsp)
	movq	$129, 1928(%rsp)
	xorl	%r14d, %r14d
211:
	leaq	(%rsp,%r14), %rsi
	addq	$1504, %rsi
	movl	$129, %ebx
	subq	%r14, %rbx
	movl	$1, %edi
	movq	%rbx, %rdx
	vj_system_call	write, b2_write
	testq	%rax, %rax
	js	232f
	cmpq	%rbx, %rax
	cmovbq	%rax, %rbx
	testq	%rbx, %rbx
	je	233f
	addq	%rbx, %r14
	cmpq	$128, %r14
	jbe	211b
212:
	xorl	%ebx, %ebx
	jmp	234f
213:
	xorps	%xmm0, %xmm0
	movaps	%xmm0, 1088(%rsp)
	movaps	%xmm0, 1072(%rsp)
	movaps	%xmm0, 1056(%rsp)
	movaps	%xmm0, 1040(%rsp)
	leaq	1504(%rsp), %r14
	movl	$136, %edx
	movq	%r14, %rdi
	leaq	480(%rsp), %rsi
	vj_c_call	memcpy
	leaq	1641(%rsp), %rdi
	leaq	617(%rsp), %rsi
	movl	$143, %edx
	vj_c_call	memcpy
	leaq	1216(%rsp), %rbx
	movl	$280, %edx
	movq	%rbx, %rdi
	leaq	760(%rsp), %rsi
	vj_c_call	memcpy
	movb	$1, 1640(%rsp)
	leaq	1648(%rsp), %rsi
	movq	1776(%rsp), %rdx
	movq	1632(%rsp), %r15
	addq	%rdx, %r15
	movq	%r15, 1632(%rsp)
	xorps	%xmm0, %xmm0
	movaps	%xmm0, 144(%rsp)
	movaps	%xmm0, 160(%rsp)
	movaps	%xmm0, 176(%rsp)
	movaps	%xmm0, 192(%rsp)
	movaps	%xmm0, 208(%rsp)
	movaps	%xmm0, 224(%rsp)
	movaps	%xmm0, 240(%rsp)
	movaps	%xmm0, 256(%rsp)
	leaq	144(%rsp), %rdi
	vj_c_call	memcpy
	xorps	%xmm0, %xmm0
	movups	%xmm0, 1648(%rsp)
	movups	%xmm0, 1664(%rsp)
	movups	%xmm0, 1680(%rsp)
	movups	%xmm0, 1696(%rsp)
	movups	%xmm0, 1712(%rsp)
	movups	%xmm0, 1728(%rsp)
	movups	%xmm0, 1744(%rsp)
	movups	%xmm0, 1760(%rsp)
	movq	$0, 1776(%rsp)
	movaps	144(%rsp), %xmm0
	movaps	160(%rsp), %xmm1
	movaps	176(%rsp), %xmm2
	movaps	192(%rsp), %xmm3
	movaps	%xmm0, 288(%rsp)
	movaps	%xmm1, 304(%rsp)
	movaps	%xmm2, 320(%rsp)
	movaps	%xmm3, 336(%rsp)
	movaps	208(%rsp), %xmm0
	movaps	%xmm0, 352(%rsp)
	movaps	224(%rsp), %xmm0
	movaps	%xmm0, 368(%rsp)
	movaps	240(%rsp), %xmm0
	movaps	%xmm0, 384(%rsp)
	movaps	256(%rsp), %xmm0
	movaps	%xmm0, 400(%rsp)
	leaq	288(%rsp), %rsi
	movq	%r14, %rdi
	movq	%r15, %rdx
	movl	$1, %ecx
	movl	$1, %r8d
	vj_call	blake2_compress..compress..blake2b..compress_1_x86
	movups	1504(%rsp), %xmm0
	movups	1520(%rsp), %xmm1
	movups	1536(%rsp), %xmm2
	movups	1552(%rsp), %xmm3
	movaps	%xmm0, 1040(%rsp)
	movaps	%xmm1, 1056(%rsp)
	movaps	%xmm2, 1072(%rsp)
	movaps	%xmm3, 1088(%rsp)
	leaq	1360(%rsp), %rdi
	movq	1488(%rsp), %rsi
	leaq	1040(%rsp), %rdx
	movl	$64, %ecx
	movq	%rbx, %r8
	callq	blake2_digest..buffer..digest_into..33c1e97afcdf8a5d_1_x86
	movq	%rax, 1488(%rsp)
	movb	$1, 1352(%rsp)
	leaq	1504(%rsp), %r14
	movl	$280, %edx
	movq	%r14, %rdi
	movq	%rbx, %rsi
	vj_c_call	memcpy
	leaq	1648(%rsp), %rsi
	movq	1776(%rsp), %rdx
	movq	1632(%rsp), %rbx
	addq	%rdx, %rbx
	movq	%rbx, 1632(%rsp)
	xorps	%xmm0, %xmm0
	movaps	%xmm0, 144(%rsp)
	movaps	%xmm0, 160(%rsp)
	movaps	%xmm0, 176(%rsp)
	movaps	%xmm0, 192(%rsp)
	movaps	%xmm0, 208(%rsp)
	movaps	%xmm0, 224(%rsp)
	movaps	%xmm0, 240(%rsp)
	movaps	%xmm0, 256(%rsp)
	leaq	144(%rsp), %rdi
	vj_c_call	memcpy
	xorps	%xmm0, %xmm0
	movaps	%xmm0, 1648(%rsp)
	movaps	%xmm0, 1664(%rsp)
	movaps	%xmm0, 1680(%rsp)
	movaps	%xmm0, 1696(%rsp)
	movaps	%xmm0, 1712(%rsp)
	movaps	%xmm0, 1728(%rsp)
	movaps	%xmm0, 1744(%rsp)
	movaps	%xmm0, 1760(%rsp)
	movq	$0, 1776(%rsp)
	movaps	144(%rsp), %xmm0
	movaps	160(%rsp), %xmm1
	movaps	176(%rsp), %xmm2
	movaps	192(%rsp), %xmm3
	movaps	%xmm0, 288(%rsp)
	movaps	%xmm1, 304(%rsp)
	movaps	%xmm2, 320(%rsp)
	movaps	%xmm3, 336(%rsp)
	movaps	208(%rsp), %xmm0
	movaps	%xmm0, 352(%rsp)
	movaps	224(%rsp), %xmm0
	movaps	%xmm0, 368(%rsp)
	movaps	240(%rsp), %xmm0
	movaps	%xmm0, 384(%rsp)
	movaps	256(%rsp), %xmm0
	movaps	%xmm0, 400(%rsp)
	movl	1640(%rsp), %r8d
	leaq	288(%rsp), %rsi
	movq	%r14, %rdi
	movq	%rbx, %rdx
	movl	$1, %ecx
	vj_call	blake2_compress..compress..blake2b..compress_1_x86
	movaps	1504(%rsp), %xmm0
	movaps	%xmm0, 1120(%rsp)
	leaq	1152(%rsp), %rdi
	leaq	1120(%rsp), %rsi
	movq	88(%rsp), %rdx
	callq	b2_commands..print..print_digest..004958335f60c8e6_1_x86
	movq	%r12, %rdi
	vj_call	rattle_dealloc
	movzbl	1152(%rsp), %esi
	movzbl	1160(%rsp), %ecx
	movq	1168(%rsp), %rbx
	movq	40(%rsp), %rdi
	jmp	140b
214:
	movq	%r14, %rdi
	movq	48(%rsp), %rsi
215:
	movq	%rbx, %rdx
	vj_c_call	memcpy
	movq	%rbx, 1776(%rsp)
	leaq	416(%rsp), %rbx
	leaq	1504(%rsp), %rsi
	movl	$280, %edx
	movq	%rbx, %rdi
	vj_c_call	memcpy
	leaq	560(%rsp), %rsi
	movq	688(%rsp), %rdx
	movq	544(%rsp), %r14
	addq	%rdx, %r14
	movq	%r14, 544(%rsp)
	xorps	%xmm0, %xmm0
	movaps	%xmm0, 1216(%rsp)
	movaps	%xmm0, 1232(%rsp)
	movaps	%xmm0, 1248(%rsp)
	movaps	%xmm0, 1264(%rsp)
	movaps	%xmm0, 1280(%rsp)
	movaps	%xmm0, 1296(%rsp)
	movaps	%xmm0, 1312(%rsp)
	movaps	%xmm0, 1328(%rsp)
	leaq	1216(%rsp), %rdi
	vj_c_call	memcpy
	xorps	%xmm0, %xmm0
	movups	%xmm0, 560(%rsp)
	movups	%xmm0, 576(%rsp)
	movups	%xmm0, 592(%rsp)
	movups	%xmm0, 608(%rsp)
	movups	%xmm0, 624(%rsp)
	movups	%xmm0, 640(%rsp)
	movups	%xmm0, 656(%rsp)
	movups	%xmm0, 672(%rsp)
	movq	$0, 688(%rsp)
	movaps	1216(%rsp), %xmm0
	movaps	1232(%rsp), %xmm1
	movaps	1248(%rsp), %xmm2
	movaps	1264(%rsp), %xmm3
	movaps	%xmm0, 144(%rsp)
	movaps	%xmm1, 160(%rsp)
	movaps	%xmm2, 176(%rsp)
	movaps	%xmm3, 192(%rsp)
	movaps	1280(%rsp), %xmm0
	movaps	%xmm0, 208(%rsp)
	movaps	1296(%rsp), %xmm0
	movaps	%xmm0, 224(%rsp)
	movaps	1312(%rsp), %xmm0
	movaps	%xmm0, 240(%rsp)
	movaps	1328(%rsp), %xmm0
	movaps	%xmm0, 256(%rsp)
	movl	552(%rsp), %r8d
	leaq	144(%rsp), %rsi
	movq	%rbx, %rdi
	movq	%r14, %rdx
	movl	$1, %ecx
	vj_call	blake2_compress..compress..blake2b..compress_1_x86
	movups	416(%rsp), %xmm0
	movups	432(%rsp), %xmm1
	movaps	%xmm0, 1040(%rsp)
	movaps	%xmm1, 1056(%rsp)
	leaq	416(%rsp), %rdi
	movl	$424, %edx
	xorl	%esi, %esi
	vj_c_call	memset
	movl	$1, %eax
	.p2align	4
216:
	movzbl	1039(%rsp,%rax), %ecx
	movl	%ecx, %edx
	shrl	$4, %edx
	leaq	.L1_x86_static.37(%rip), %rsi
	movzbl	(%rdx,%rsi), %edx
	movb	%dl, 414(%rsp,%rax,2)
	andl	$15, %ecx
	movzbl	(%rcx,%rsi), %ecx
	movb	%cl, 415(%rsp,%rax,2)
	movzbl	1040(%rsp,%rax), %ecx
	movl	%ecx, %edx
	shrl	$4, %edx
	movzbl	(%rdx,%rsi), %edx
	movb	%dl, 416(%rsp,%rax,2)
	andl	$15, %ecx
	movzbl	(%rcx,%rsi), %ecx
	movb	%cl, 417(%rsp,%rax,2)
	addq	$2, %rax
	cmpq	$33, %rax
	jne	216b
	movb	$10, 480(%rsp)
	movq	$65, 840(%rsp)
	xorl	%r14d, %r14d
217:
	leaq	(%rsp,%r14), %rsi
	addq	$416, %rsi
	movl	$65, %ebx
	subq	%r14, %rbx
	movl	$1, %edi
	movq	%rbx, %rdx
	vj_system_call	write, b2_write
	testq	%rax, %rax
	js	223f
	cmpq	%rbx, %rax
	cmovbq	%rax, %rbx
	testq	%rbx, %rbx
	je	224f
	addq	%rbx, %r14
	cmpq	$64, %r14
	jbe	217b
	jmp	222f
218:
	movq	%r14, %rdi
	movq	48(%rsp), %rsi
219:
	movq	%rbx, %rdx
	vj_c_call	memcpy
	movq	%rbx, 1776(%rsp)
	leaq	416(%rsp), %rbx
	leaq	1504(%rsp), %rsi
	movl	$280, %edx
	movq	%rbx, %rdi
	vj_c_call	memcpy
	leaq	560(%rsp), %rsi
	movq	688(%rsp), %rdx
	movq	544(%rsp), %r14
	addq	%rdx, %r14
	movq	%r14, 544(%rsp)
	xorps	%xmm0, %xmm0
	movaps	%xmm0, 1216(%rsp)
	movaps	%xmm0, 1232(%rsp)
	movaps	%xmm0, 1248(%rsp)
	movaps	%xmm0, 1264(%rsp)
	movaps	%xmm0, 1280(%rsp)
	movaps	%xmm0, 1296(%rsp)
	movaps	%xmm0, 1312(%rsp)
	movaps	%xmm0, 1328(%rsp)
	leaq	1216(%rsp), %rdi
	vj_c_call	memcpy
	xorps	%xmm0, %xmm0
	movups	%xmm0, 560(%rsp)
	movups	%xmm0, 576(%rsp)
	movups	%xmm0, 592(%rsp)
	movups	%xmm0, 608(%rsp)
	movups	%xmm0, 624(%rsp)
	movups	%xmm0, 640(%rsp)
	movups	%xmm0, 656(%rsp)
	movups	%xmm0, 672(%rsp)
	movq	$0, 688(%rsp)
	movaps	1216(%rsp), %xmm0
	movaps	1232(%rsp), %xmm1
	movaps	1248(%rsp), %xmm2
	movaps	1264(%rsp), %xmm3
	movaps	%xmm0, 144(%rsp)
	movaps	%xmm1, 160(%rsp)
	movaps	%xmm2, 176(%rsp)
	movaps	%xmm3, 192(%rsp)
	movaps	1280(%rsp), %xmm0
	movaps	%xmm0, 208(%rsp)
	movaps	1296(%rsp), %xmm0
	movaps	%xmm0, 224(%rsp)
	movaps	1312(%rsp), %xmm0
	movaps	%xmm0, 240(%rsp)
	movaps	1328(%rsp), %xmm0
	movaps	%xmm0, 256(%rsp)
	movl	552(%rsp), %r8d
	leaq	144(%rsp), %rsi
	movq	%rbx, %rdi
	movq	%r14, %rdx
	movl	$1, %ecx
	vj_call	blake2_compress..compress..blake2b..compress_1_x86
	movups	416(%rsp), %xmm0
	movups	432(%rsp), %xmm1
	movups	448(%rsp), %xmm2
	movups	464(%rsp), %xmm3
	movaps	%xmm0, 288(%rsp)
	movaps	%xmm1, 304(%rsp)
	movaps	%xmm2, 320(%rsp)
	movaps	%xmm3, 336(%rsp)
	leaq	416(%rsp), %rdi
	movl	$424, %edx
	xorl	%esi, %esi
	vj_c_call	memset
	movl	$1, %eax
	.p2align	4
220:
	movzbl	287(%rsp,%rax), %ecx
	movl	%ecx, %edx
	shrl	$4, %edx
	leaq	.L1_x86_static.37(%rip), %rsi
	movzbl	(%rdx,%rsi), %edx
	movb	%dl, 414(%rsp,%rax,2)
	andl	$15, %ecx
	movzbl	(%rcx,%rsi), %ecx
	movb	%cl, 415(%rsp,%rax,2)
	movzbl	288(%rsp,%rax), %ecx
	movl	%ecx, %edx
	shrl	$4, %edx
	movzbl	(%rdx,%rsi), %edx
	movb	%dl, 416(%rsp,%rax,2)
	andl	$15, %ecx
	movzbl	(%rcx,%rsi), %ecx
	movb	%cl, 417(%rsp,%rax,2)
	addq	$2, %rax
	cmpq	$65, %rax
	jne	220b
	movb	$10, 544(%rsp)
	movq	$129, 840(%rsp)
	xorl	%r14d, %r14d
221:
	leaq	(%rsp,%r14), %rsi
	addq	$416, %rsi
	movl	$129, %ebx
	subq	%r14, %rbx
	movl	$1, %edi
	movq	%rbx, %rdx
	vj_system_call	write, b2_write
	testq	%rax, %rax
	js	223f
	cmpq	%rbx, %rax
	cmovbq	%rax, %rbx
	testq	%rbx, %rbx
	je	224f
	addq	%rbx, %r14
	cmpq	$128, %r14
	jbe	221b
222:
	xorl	%esi, %esi
	jmp	225f
223:
	leaq	1504(%rsp), %rdi
	callq	std_io..io..error..last_error_1_x86
224:
	movq	88(%rsp), %rax
	movb	$1, (%rax)
	movb	$1, %sil
225:
	cmpq	$0, 112(%rsp)
	movq	48(%rsp), %rdi
	movq	96(%rsp), %r14
	je	226f
	movl	%esi, %ebx
	vj_call	rattle_dealloc
	movl	%ebx, %esi
226:
	testq	%r14, %r14
	je	227f
	movq	64(%rsp), %rdi
	movl	%esi, %ebx
	vj_call	rattle_dealloc
	movl	%ebx, %esi
227:
	xorl	%eax, %eax
	testb	%sil, %sil
	setne	%al
	leal	(%rax,%rax,8), %ecx
	xorl	%ebx, %ebx
	movq	40(%rsp), %rdi
	jmp	140b
228:
	movq	%r14, %rdi
	movq	48(%rsp), %rsi
229:
	movq	%rbx, %rdx
	vj_c_call	memcpy
	movq	%rbx, 1776(%rsp)
	leaq	416(%rsp), %rbx
	leaq	1504(%rsp), %rsi
	movl	$280, %edx
	movq	%rbx, %rdi
	vj_c_call	memcpy
	leaq	560(%rsp), %rsi
	movq	688(%rsp), %rdx
	movq	544(%rsp), %r14
	addq	%rdx, %r14
	movq	%r14, 544(%rsp)
	xorps	%xmm0, %xmm0
	movaps	%xmm0, 1216(%rsp)
	movaps	%xmm0, 1232(%rsp)
	movaps	%xmm0, 1248(%rsp)
	movaps	%xmm0, 1264(%rsp)
	movaps	%xmm0, 1280(%rsp)
	movaps	%xmm0, 1296(%rsp)
	movaps	%xmm0, 1312(%rsp)
	movaps	%xmm0, 1328(%rsp)
	leaq	1216(%rsp), %rdi
	vj_c_call	memcpy
	xorps	%xmm0, %xmm0
	movaps	%xmm0, 560(%rsp)
	movaps	%xmm0, 576(%rsp)
	movaps	%xmm0, 592(%rsp)
	movaps	%xmm0, 608(%rsp)
	movaps	%xmm0, 624(%rsp)
	movaps	%xmm0, 640(%rsp)
	movaps	%xmm0, 656(%rsp)
	movaps	%xmm0, 672(%rsp)
	movq	$0, 688(%rsp)
	movaps	1216(%rsp), %xmm0
	movaps	1232(%rsp), %xmm1
	movaps	1248(%rsp), %xmm2
	movaps	1264(%rsp), %xmm3
	movaps	%xmm0, 144(%rsp)
	movaps	%xmm1, 160(%rsp)
	movaps	%xmm2, 176(%rsp)
	movaps	%xmm3, 192(%rsp)
	movaps	1280(%rsp), %xmm0
	movaps	%xmm0, 208(%rsp)
	movaps	1296(%rsp), %xmm0
	movaps	%xmm0, 224(%rsp)
	movaps	1312(%rsp), %xmm0
	movaps	%xmm0, 240(%rsp)
	movaps	1328(%rsp), %xmm0
	movaps	%xmm0, 256(%rsp)
	movl	552(%rsp), %r8d
	leaq	144(%rsp), %rsi
	movq	%rbx, %rdi
	movq	%r14, %rdx
	movl	$1, %ecx
	vj_call	blake2_compress..compress..blake2b..compress_1_x86
	movaps	416(%rsp), %xmm0
	movaps	%xmm0, 2096(%rsp)
	leaq	1120(%rsp), %rdi
	leaq	2096(%rsp), %rsi
	movq	88(%rsp), %rdx
	callq	b2_commands..print..print_digest..004958335f60c8e6_1_x86
	cmpq	$0, 112(%rsp)
	movq	96(%rsp), %rbx
	je	230f
	movq	48(%rsp), %rdi
	vj_call	rattle_dealloc
230:
	testq	%rbx, %rbx
	je	231f
	movq	64(%rsp), %rdi
	vj_call	rattle_dealloc
231:
	movzbl	1120(%rsp), %esi
	movzbl	1128(%rsp), %ecx
	movq	1136(%rsp), %rbx
	movq	40(%rsp), %rdi
	jmp	140b
232:
	leaq	1216(%rsp), %rdi
	callq	std_io..io..error..last_error_1_x86
233:
	movq	88(%rsp), %rax
	movb	$1, (%rax)
	movb	$1, %bl
234:
	movq	136(%rsp), %rdi
	vj_call	rattle_dealloc
	xorl	%eax, %eax
	testb	%bl, %bl
	setne	%al
	leal	(%rax,%rax,8), %ecx
	movq	40(%rsp), %rdi
	movl	%ebx, %esi
	jmp	139b
235:
	ud2
	vj_end	b2_commands..tree..tree..c4a7301ddbaa7a35_1_x86

	vj_function	b2_commands..print..print_digest..004958335f60c8e6_1_x86
	pushq	%r15
	pushq	%r14
	pushq	%r12
	pushq	%rbx
	subq	$520, %rsp
	movq	%rdx, %r14
	movq	%rsi, %r15
	movq	%rdi, %rbx
	leaq	32(%rsp), %rdi
	xorl	%r12d, %r12d
	movl	$392, %edx
	xorl	%esi, %esi
	vj_c_call	memset
	movzbl	(%r15), %ecx
	movl	%ecx, %edx
	shrl	$4, %edx
	leaq	.L1_x86_static.37(%rip), %rax
	movzbl	(%rdx,%rax), %edx
	movb	%dl, (%rsp)
	andl	$15, %ecx
	movzbl	(%rcx,%rax), %ecx
	movb	%cl, 1(%rsp)
	movzbl	1(%r15), %ecx
	movl	%ecx, %edx
	shrl	$4, %edx
	movzbl	(%rdx,%rax), %edx
	movb	%dl, 2(%rsp)
	andl	$15, %ecx
	movzbl	(%rcx,%rax), %ecx
	movb	%cl, 3(%rsp)
	movzbl	2(%r15), %ecx
	movl	%ecx, %edx
	shrl	$4, %edx
	movzbl	(%rdx,%rax), %edx
	movb	%dl, 4(%rsp)
	andl	$15, %ecx
	movzbl	(%rcx,%rax), %ecx
	movb	%cl, 5(%rsp)
	movzbl	3(%r15), %ecx
	movl	%ecx, %edx
	shrl	$4, %edx
	movzbl	(%rdx,%rax), %edx
	movb	%dl, 6(%rsp)
	andl	$15, %ecx
	movzbl	(%rcx,%rax), %ecx
	movb	%cl, 7(%rsp)
	movzbl	4(%r15), %ecx
	movl	%ecx, %edx
	shrl	$4, %edx
	movzbl	(%rdx,%rax), %edx
	movb	%dl, 8(%rsp)
	andl	$15, %ecx
	movzbl	(%rcx,%rax), %ecx
	movb	%cl, 9(%rsp)
	movzbl	5(%r15), %ecx
	movl	%ecx, %edx
	shrl	$4, %edx
	movzbl	(%rdx,%rax), %edx
	movb	%dl, 10(%rsp)
	andl	$15, %ecx
	movzbl	(%rcx,%rax), %ecx
	movb	%cl, 11(%rsp)
	movzbl	6(%r15), %ecx
	movl	%ecx, %edx
	shrl	$4, %edx
	movzbl	(%rdx,%rax), %edx
	movb	%dl, 12(%rsp)
	andl	$15, %ecx
	movzbl	(%rcx,%rax), %ecx
	movb	%cl, 13(%rsp)
	movzbl	7(%r15), %ecx
	movl	%ecx, %edx
	shrl	$4, %edx
	movzbl	(%rdx,%rax), %edx
	movb	%dl, 14(%rsp)
	andl	$15, %ecx
	movzbl	(%rcx,%rax), %ecx
	movb	%cl, 15(%rsp)
	movzbl	8(%r15), %ecx
	movl	%ecx, %edx
	shrl	$4, %edx
	movzbl	(%rdx,%rax), %edx
	movb	%dl, 16(%rsp)
	andl	$15, %ecx
	movzbl	(%rcx,%rax), %ecx
	movb	%cl, 17(%rsp)
	movzbl	9(%r15), %ecx
	movl	%ecx, %edx
	shrl	$4, %edx
	movzbl	(%rdx,%rax), %edx
	movb	%dl, 18(%rsp)
	andl	$15, %ecx
	movzbl	(%rcx,%rax), %ecx
	movb	%cl, 19(%rsp)
	movzbl	10(%r15), %ecx
	movl	%ecx, %edx
	shrl	$4, %edx
	movzbl	(%rdx,%rax), %edx
	movb	%dl, 20(%rsp)
	andl	$15, %ecx
	movzbl	(%rcx,%rax), %ecx
	movb	%cl, 21(%rsp)
	movzbl	11(%r15), %ecx
	movl	%ecx, %edx
	shrl	$4, %edx
	movzbl	(%rdx,%rax), %edx
	movb	%dl, 22(%rsp)
	andl	$15, %ecx
	movzbl	(%rcx,%rax), %ecx
	movb	%cl, 23(%rsp)
	movzbl	12(%r15), %ecx
	movl	%ecx, %edx
	shrl	$4, %edx
	movzbl	(%rdx,%rax), %edx
	movb	%dl, 24(%rsp)
	andl	$15, %ecx
	movzbl	(%rcx,%rax), %ecx
	movb	%cl, 25(%rsp)
	movzbl	13(%r15), %ecx
	movl	%ecx, %edx
	shrl	$4, %edx
	movzbl	(%rdx,%rax), %edx
	movb	%dl, 26(%rsp)
	andl	$15, %ecx
	movzbl	(%rcx,%rax), %ecx
	movb	%cl, 27(%rsp)
	movzbl	14(%r15), %ecx
	movl	%ecx, %edx
	shrl	$4, %edx
	movzbl	(%rdx,%rax), %edx
	movb	%dl, 28(%rsp)
	andl	$15, %ecx
	movzbl	(%rcx,%rax), %ecx
	movb	%cl, 29(%rsp)
	movzbl	15(%r15), %ecx
	movl	%ecx, %edx
	shrl	$4, %edx
	movzbl	(%rdx,%rax), %edx
	movb	%dl, 30(%rsp)
	andl	$15, %ecx
	movzbl	(%rcx,%rax), %eax
	movb	%al, 31(%rsp)
	movb	$10, 32(%rsp)
	movq	$33, 424(%rsp)
	.p2align	4
1:
	leaq	(%rsp,%r12), %rsi
	movl	$33, %r15d
	subq	%r12, %r15
	movl	$1, %edi
	movq	%r15, %rdx
	vj_system_call	write, b2_write
	testq	%rax, %rax
	js	2f
	cmpq	%r15, %rax
	cmovbq	%rax, %r15
	testq	%r15, %r15
	je	3f
	addq	%r15, %r12
	cmpq	$32, %r12
	jbe	1b
	xorl	%eax, %eax
	jmp	4f
2:
	leaq	432(%rsp), %rdi
	callq	std_io..io..error..last_error_1_x86
3:
	movb	$1, (%r14)
	movb	$1, %al
4:
	movb	%al, (%rbx)
	movzbl	%al, %eax
	leaq	(%rax,%rax,8), %rax
	movq	%rax, 8(%rbx)
	movq	$0, 16(%rbx)
	addq	$520, %rsp
	popq	%rbx
	popq	%r12
	popq	%r14
	popq	%r15
	retq
	vj_end	b2_commands..print..print_digest..004958335f60c8e6_1_x86

	vj_function	b2_commands..leaf_lines..digests_of_1_x86
	pushq	%rbp
	pushq	%r15
	pushq	%r14
	pushq	%r13
	pushq	%r12
	pushq	%rbx
	subq	$280, %rsp
	movq	%rdi, %rbx
	xorps	%xmm0, %xmm0
	movaps	%xmm0, 96(%rsp)
	movaps	%xmm0, 80(%rsp)
	movaps	%xmm0, 64(%rsp)
	movaps	%xmm0, 48(%rsp)
	movl	$0, 8(%rsp)
	movl	$0, 11(%rsp)
	movaps	%xmm0, 112(%rsp)
	movaps	%xmm0, 128(%rsp)
	movups	%xmm0, 137(%rsp)
	testq	%rdx, %rdx
	je	17f
	movq	%rdx, %r15
	movq	%rsi, %r14
	leaq	7(%rsp), %rdi
	movq	%rdi, 24(%rsp)
	movups	%xmm0, 32(%rsp)
	leaq	231(%rsp), %r12
	leaq	71(%rsp), %r13
	.p2align	4
1:
	movq	%r15, %rsi
	movq	%r14, %rdx
	incq	%rdx
	xorl	%eax, %eax
	movq	%rdx, %r14
	.p2align	4
2:
	cmpb	$10, -1(%r14)
	je	3f
	incq	%rax
	incq	%r14
	cmpq	%rax, %rsi
	jne	2b
	leaq	.L1_x86_static.0(%rip), %r14
	xorl	%r15d, %r15d
	jmp	4f
	.p2align	4
3:
	movq	%rax, %r15
	notq	%r15
	addq	%rsi, %r15
	movq	%rax, %rsi
4:
	movq	32(%rsp), %rax
	movq	%rax, %rbp
	shrq	$6, %rbp
	incq	%rbp
	movl	$0, 16(%rsp)
	movl	$0, 19(%rsp)
	xorps	%xmm0, %xmm0
	movaps	%xmm0, 160(%rsp)
	movaps	%xmm0, 176(%rsp)
	movaps	%xmm0, 192(%rsp)
	movaps	%xmm0, 208(%rsp)
	movaps	%xmm0, 224(%rsp)
	movaps	%xmm0, 240(%rsp)
	movaps	%xmm0, 256(%rsp)
	movl	$3, %ecx
	cmpq	$128, %rsi
	jne	12f
	xorl	%esi, %esi
	jmp	7f
	.p2align	4
5:
	addb	$-48, %r9b
6:
	shlb	$4, %r8b
	addb	%r9b, %r8b
	movb	%r8b, 208(%rsp,%rsi)
	incq	%rsi
	cmpq	$64, %rsi
	je	15f
7:
	movzbl	-1(%rdx,%rsi,2), %r8d
	cmpb	$48, %r8b
	jb	12f
	movzbl	(%rdx,%rsi,2), %r9d
	cmpb	$57, %r8b
	ja	8f
	addb	$-48, %r8b
	cmpb	$48, %r9b
	jae	10f
	jmp	12f
	.p2align	4
8:
	cmpb	$65, %r8b
	jb	12f
	cmpb	$70, %r8b
	ja	9f
	addb	$-55, %r8b
	cmpb	$48, %r9b
	jae	10f
	jmp	12f
	.p2align	4
9:
	leal	-97(%r8), %r10d
	cmpb	$5, %r10b
	ja	12f
	addb	$-87, %r8b
	cmpb	$48, %r9b
	jb	12f
10:
	cmpb	$57, %r9b
	jbe	5b
	cmpb	$65, %r9b
	jb	12f
	cmpb	$70, %r9b
	ja	11f
	addb	$-55, %r9b
	jmp	6b
	.p2align	4
11:
	leal	-97(%r9), %r10d
	cmpb	$5, %r10b
	ja	12f
	addb	$-87, %r9b
	jmp	6b
	.p2align	4
12:
	xorl	%edx, %edx
13:
	movl	16(%rsp), %esi
	movl	19(%rsp), %r8d
	movl	%r8d, 11(%rsp)
	movl	%esi, 8(%rsp)
	movaps	160(%rsp), %xmm0
	movaps	176(%rsp), %xmm1
	movaps	%xmm0, 112(%rsp)
	movaps	%xmm1, 128(%rsp)
	movups	185(%rsp), %xmm0
	movups	%xmm0, 137(%rsp)
	testb	%dl, %dl
	je	18f
	movl	8(%rsp), %edx
	movl	11(%rsp), %esi
	movl	%esi, 51(%rsp)
	movl	%edx, 48(%rsp)
	movq	%rcx, 55(%rsp)
	movq	%rbp, 63(%rsp)
	movups	137(%rsp), %xmm0
	movups	%xmm0, 25(%r13)
	movaps	112(%rsp), %xmm0
	movaps	128(%rsp), %xmm1
	movups	%xmm1, 16(%r13)
	movups	%xmm0, (%r13)
	movq	40(%rsp), %rcx
	movq	%rcx, %rdx
	subq	%rax, %rdx
	cmpq	$63, %rdx
	jbe	16f
14:
	leaq	(%rdi,%rax), %rdx
	leaq	48(%rsp), %rsi
	movq	%rdx, %r8
	subq	%rsi, %r8
	cmpq	$63, %r8
	movaps	48(%rsp), %xmm0
	movaps	64(%rsp), %xmm1
	movaps	80(%rsp), %xmm2
	movaps	96(%rsp), %xmm3
	movups	%xmm3, 48(%rdx)
	movups	%xmm2, 32(%rdx)
	movups	%xmm1, 16(%rdx)
	movups	%xmm0, (%rdx)
	addq	$64, %rax
	movq	%rax, 32(%rsp)
	movq	%rcx, 40(%rsp)
	testq	%r15, %r15
	jne	1b
	jmp	21f
15:
	movq	215(%rsp), %rcx
	movq	223(%rsp), %rbp
	movl	208(%rsp), %edx
	movl	211(%rsp), %esi
	movl	%edx, 16(%rsp)
	movl	%esi, 19(%rsp)
	movups	(%r12), %xmm0
	movups	16(%r12), %xmm1
	movups	25(%r12), %xmm2
	movaps	%xmm0, 160(%rsp)
	movaps	%xmm1, 176(%rsp)
	movups	%xmm2, 185(%rsp)
	movb	$1, %dl
	jmp	13b
16:
	leaq	24(%rsp), %rdi
	movl	$64, %esi
	callq	std_alloc..vec..Vec..grow_amortized..3378b08034dc46b4_1_x86
	testb	%al, %al
	je	23f
	movq	24(%rsp), %rdi
	movq	32(%rsp), %rax
	movq	40(%rsp), %rcx
	jmp	14b
17:
	movq	$1, (%rbx)
	movq	$3, 8(%rbx)
	movq	$1, 16(%rbx)
	jmp	20f
18:
	movzbl	%cl, %r14d
	cmpq	$0, 40(%rsp)
	je	19f
	vj_call	rattle_dealloc
19:
	movq	$1, (%rbx)
	movq	%r14, 8(%rbx)
	movq	%rbp, 16(%rbx)
20:
	movq	$0, 24(%rbx)
	jmp	22f
21:
	movq	$0, (%rbx)
	movq	%rdi, 8(%rbx)
	movq	%rax, 16(%rbx)
	movq	%rcx, 24(%rbx)
22:
	addq	$280, %rsp
	popq	%rbx
	popq	%r12
	popq	%r13
	popq	%r14
	popq	%r15
	popq	%rbp
	retq
23:
	cmpq	$0, 40(%rsp)
	je	24f
	movq	24(%rsp), %rdi
	vj_call	rattle_dealloc
24:
	movq	$1, (%rbx)
	movq	$8, 8(%rbx)
	xorps	%xmm0, %xmm0
	movups	%xmm0, 16(%rbx)
	jmp	22b
	vj_end	b2_commands..leaf_lines..digests_of_1_x86

	vj_function	b2_commands..outputs..blake2xb..print_next..c1844c1740294036_1_x86
	pushq	%rbp
	pushq	%r15
	pushq	%r14
	pushq	%r13
	pushq	%r12
	pushq	%rbx
	subq	$3072, %rsp
	movq	$0, (%rsp)
	subq	$3072, %rsp
	movq	$0, (%rsp)
	subq	$3072, %rsp
	movq	$0, (%rsp)
	subq	$3072, %rsp
	movq	$0, (%rsp)
	subq	$120, %rsp
	movq	%r8, %rbp
	movq	%rsi, 24(%rsp)
	movq	%rdi, %rbx
	testq	%rdx, %rdx
	je	9f
	movq	%rdx, %r15
	testb	%cl, %cl
	movl	%ecx, 12(%rsp)
	je	3f
1:
	cmpq	$4096, %r15
	movl	$4096, %r14d
	cmovbq	%r15, %r14
	leaq	120(%rsp), %r13
	xorl	%r12d, %r12d
	movl	$4096, %edx
	movq	%r13, %rdi
	xorl	%esi, %esi
	vj_c_call	memset
	movq	24(%rsp), %rdi
	movq	%r13, %rsi
	movq	%r14, %rdx
	vj_call	blake2_xof..blake2xb..State..squeeze_1_x86
	.p2align	4
2:
	leaq	(%rsp,%r12), %rsi
	addq	$120, %rsi
	movq	%r14, %r13
	subq	%r12, %r13
	movl	$1, %edi
	movq	%r13, %rdx
	vj_system_call	write, b2_write
	testq	%rax, %rax
	js	11f
	cmpq	%r13, %rax
	cmovbq	%rax, %r13
	testq	%r13, %r13
	je	12f
	addq	%r13, %r12
	cmpq	%r14, %r12
	jb	2b
	subq	%r14, %r15
	movl	12(%rsp), %ecx
	jne	1b
	jmp	9f
3:
	movq	%rbp, 16(%rsp)
4:
	cmpq	$4096, %r15
	movl	$4096, %r13d
	cmovbq	%r15, %r13
	leaq	120(%rsp), %r14
	xorl	%r12d, %r12d
	movl	$4096, %edx
	movq	%r14, %rdi
	xorl	%esi, %esi
	vj_c_call	memset
	leaq	4216(%rsp), %rdi
	movl	$8192, %edx
	xorl	%esi, %esi
	vj_c_call	memset
	movq	24(%rsp), %rdi
	movq	%r14, %rsi
	movq	%r13, %rdx
	vj_call	blake2_xof..blake2xb..State..squeeze_1_x86
	cmpq	$1, %r15
	je	6f
	movl	%r13d, %eax
	andl	$8190, %eax
	xorl	%r12d, %r12d
	.p2align	4
5:
	movzbl	120(%rsp,%r12), %ecx
	movl	%ecx, %edx
	shrl	$4, %edx
	leaq	.L1_x86_static.37(%rip), %rsi
	movzbl	(%rdx,%rsi), %edx
	movb	%dl, 4216(%rsp,%r12,2)
	andl	$15, %ecx
	movzbl	(%rcx,%rsi), %ecx
	movb	%cl, 4217(%rsp,%r12,2)
	movzbl	121(%rsp,%r12), %ecx
	movl	%ecx, %edx
	shrl	$4, %edx
	movzbl	(%rdx,%rsi), %edx
	movb	%dl, 4218(%rsp,%r12,2)
	andl	$15, %ecx
	movzbl	(%rcx,%rsi), %ecx
	movb	%cl, 4219(%rsp,%r12,2)
	addq	$2, %r12
	cmpq	%r12, %rax
	jne	5b
	testb	$1, %r13b
	je	7f
6:
	movzbl	120(%rsp,%r12), %eax
	movl	%eax, %ecx
	shrl	$4, %ecx
	leaq	.L1_x86_static.37(%rip), %rdx
	movzbl	(%rcx,%rdx), %ecx
	movb	%cl, 4216(%rsp,%r12,2)
	andl	$15, %eax
	movzbl	(%rax,%rdx), %eax
	movb	%al, 4217(%rsp,%r12,2)
7:
	leaq	(,%r13,2), %r12
	xorl	%ebp, %ebp
	.p2align	4
8:
	leaq	(%rsp,%rbp), %rsi
	addq	$4216, %rsi
	movq	%r12, %r14
	subq	%rbp, %r14
	movl	$1, %edi
	movq	%r14, %rdx
	vj_system_call	write, b2_write
	testq	%rax, %rax
	js	13f
	cmpq	%r14, %rax
	cmovbq	%rax, %r14
	testq	%r14, %r14
	je	14f
	addq	%r14, %rbp
	cmpq	%r12, %rbp
	jb	8b
	subq	%r13, %r15
	movq	16(%rsp), %rbp
	movl	12(%rsp), %ecx
	jne	4b
9:
	testb	%cl, %cl
	je	10f
	movb	$0, (%rbx)
	xorps	%xmm0, %xmm0
	movups	%xmm0, 8(%rbx)
	jmp	20f
10:
	leaq	.L1_x86_static.38(%rip), %rsi
	movl	$1, %edx
	movl	$1, %edi
	vj_system_call	write, b2_write
	testq	%rax, %rax
	js	16f
	je	17f
	xorl	%eax, %eax
	jmp	18f
11:
	leaq	32(%rsp), %rdi
	callq	std_io..io..error..last_error_1_x86
12:
	movb	$1, (%rbp)
	jmp	15f
13:
	leaq	32(%rsp), %rdi
	callq	std_io..io..error..last_error_1_x86
14:
	movq	16(%rsp), %rax
	movb	$1, (%rax)
15:
	movb	$1, (%rbx)
	movq	$9, 8(%rbx)
	jmp	19f
16:
	leaq	4216(%rsp), %rdi
	callq	std_io..io..error..last_error_1_x86
17:
	movb	$1, (%rbp)
	movb	$1, %al
18:
	movb	%al, (%rbx)
	movzbl	%al, %eax
	leaq	(%rax,%rax,8), %rax
	movq	%rax, 8(%rbx)
19:
	movq	$0, 16(%rbx)
20:
	addq	$12408, %rsp
	popq	%rbx
	popq	%r12
	popq	%r13
	popq	%r14
	popq	%r15
	popq	%rbp
	retq
	vj_end	b2_commands..outputs..blake2xb..print_next..c1844c1740294036_1_x86

	vj_function	b2_commands..fault..Fault..report..c1844c1740294036_1_x86
	pushq	%r15
	pushq	%r14
	pushq	%r13
	pushq	%r12
	pushq	%rbx
	subq	$1328, %rsp
	movl	%edi, %ebx
	movb	$1, %al
	cmpb	$9, %bl
	je	9f
	movq	%rsi, %r14
	movq	%rdx, %r12
	leaq	36(%rsp), %r15
	movl	$420, %edx
	movq	%r15, %rdi
	xorl	%esi, %esi
	vj_c_call	memset
	movl	$540684898, 32(%rsp)
	leal	-3(%rbx), %eax
	movl	$4, %r13d
	cmpb	$2, %al
	ja	4f
	movb	$32, 4(%r15)
	movl	$1701734764, (%r15)
	xorps	%xmm0, %xmm0
	movaps	%xmm0, (%rsp)
	movl	$0, 16(%rsp)
	movl	$19, %r15d
	cmpq	$10, %r14
	jb	2f
	.p2align	4
1:
	movabsq	$-3689348814741910323, %rcx
	movq	%r14, %rax
	mulq	%rcx
	shrq	$3, %rdx
	leal	(%rdx,%rdx), %eax
	leal	(%rax,%rax,4), %eax
	movl	%r14d, %ecx
	subl	%eax, %ecx
	orb	$48, %cl
	movb	%cl, (%rsp,%r15)
	decq	%r15
	cmpq	$99, %r14
	movq	%rdx, %r14
	ja	1b
	jmp	3f
2:
	movq	%r14, %rdx
3:
	orb	$48, %dl
	leaq	(%rsp,%r15), %rsi
	movb	%dl, (%rsp,%r15)
	movl	$20, %edx
	subq	%r15, %rdx
	leaq	41(%rsp), %rdi
	vj_c_call	memcpy
	leaq	32(%rsp), %rax
	subq	%r15, %rax
	movw	$8250, 29(%rax)
	movl	$31, %r13d
	subq	%r15, %r13
4:
	leaq	.L1_x86_switch.table.b2_commands..fault..Fault..report..c1844c1740294036_1_x86(%rip), %rax
	movzbl	%bl, %ecx
	movq	(%rax,%rcx,8), %r14
	leaq	.L1_x86_switch.table.b2_commands..fault..Fault..report..c1844c1740294036.205.rel_1_x86(%rip), %rax
	movslq	(%rax,%rcx,4), %rsi
	addq	%rax, %rsi
	leaq	(%rsp,%r13), %rdi
	addq	$32, %rdi
	movq	%r14, %rdx
	vj_c_call	memcpy
	addq	%r13, %r14
	movq	%r14, 456(%rsp)
	leaq	896(%rsp), %r14
	leaq	32(%rsp), %rsi
	movl	$432, %edx
	movq	%r14, %rdi
	vj_c_call	memcpy
	leaq	464(%rsp), %rdi
	movl	$432, %edx
	movq	%r14, %rsi
	vj_c_call	memcpy
	movq	888(%rsp), %r15
	movb	$10, 464(%rsp,%r15)
	incq	%r15
	movq	%r15, 888(%rsp)
	je	6f
	xorl	%r13d, %r13d
	.p2align	4
5:
	leaq	(%rsp,%r13), %rsi
	addq	$464, %rsi
	movq	%r15, %r14
	subq	%r13, %r14
	movl	$1, %edi
	movq	%r14, %rdx
	vj_system_call	write, b2_write
	testq	%rax, %rax
	js	7f
	cmpq	%r14, %rax
	cmovbq	%rax, %r14
	testq	%r14, %r14
	je	8f
	addq	%r14, %r13
	cmpq	%r15, %r13
	jb	5b
6:
	xorl	%eax, %eax
	cmpb	$7, %bl
	adcb	$1, %al
	jmp	9f
7:
	leaq	32(%rsp), %rdi
	callq	std_io..io..error..last_error_1_x86
8:
	movb	$1, (%r12)
	movb	$1, %al
9:
	addq	$1328, %rsp
	popq	%rbx
	popq	%r12
	popq	%r13
	popq	%r14
	popq	%r15
	retq
	vj_end	b2_commands..fault..Fault..report..c1844c1740294036_1_x86

	vj_constants	16
	.p2align	4, 0x0
.L1_x86_CPI46_0:
	.byte	116
	.byte	104
	.byte	105
	.byte	115
	.byte	32
	.byte	109
	.byte	97
	.byte	99
	.byte	104
	.byte	105
	.byte	110
	.byte	101
	.byte	32
	.byte	108
	.byte	97
	.byte	99
.L1_x86_CPI46_1:
	.byte	107
	.byte	115
	.byte	32
	.byte	97
	.byte	32
	.byte	102
	.byte	101
	.byte	97
	.byte	116
	.byte	117
	.byte	114
	.byte	101
	.byte	32
	.byte	111
	.byte	102
	.byte	32
.L1_x86_CPI46_2:
	.byte	120
	.byte	56
	.byte	54
	.byte	45
	.byte	54
	.byte	52
	.byte	45
	.byte	118
	.byte	50
	.byte	44
	.byte	32
	.byte	119
	.byte	104
	.byte	105
	.byte	99
	.byte	104
.L1_x86_CPI46_3:
	.byte	32
	.byte	116
	.byte	104
	.byte	105
	.byte	115
	.byte	32
	.byte	112
	.byte	114
	.byte	111
	.byte	103
	.byte	114
	.byte	97
	.byte	109
	.byte	32
	.byte	119
	.byte	97
.L1_x86_CPI46_4:
	.byte	115
	.byte	32
	.byte	98
	.byte	117
	.byte	105
	.byte	108
	.byte	116
	.byte	32
	.byte	102
	.byte	111
	.byte	114
	.byte	58
	.byte	32
	.byte	114
	.byte	117
	.byte	110
.L1_x86_CPI46_5:
	.byte	32
	.byte	105
	.byte	116
	.byte	32
	.byte	111
	.byte	110
	.byte	32
	.byte	97
	.byte	110
	.byte	111
	.byte	116
	.byte	104
	.byte	101
	.byte	114
	.byte	32
	.byte	109
.L1_x86_CPI46_6:
	.byte	97
	.byte	99
	.byte	104
	.byte	105
	.byte	110
	.byte	101
	.byte	44
	.byte	32
	.byte	111
	.byte	114
	.byte	32
	.byte	98
	.byte	117
	.byte	105
	.byte	108
	.byte	100
.L1_x86_CPI46_7:
	.byte	32
	.byte	105
	.byte	116
	.byte	32
	.byte	119
	.byte	105
	.byte	116
	.byte	104
	.byte	32
	.byte	45
	.byte	45
	.byte	99
	.byte	112
	.byte	117
	.byte	32
	.byte	120
	vj_export	main_1_x86
	pushq	%rbp
	movq	%rsp, %rbp
	pushq	%rbx
	pushq	%rax
	movl	$1, %esi
	movl	$13, %edi
	vj_system_call	__sysv_signal, b2_signal
	xorl	%edi, %edi
	vj_call	__x86_get_cpuid_feature_leaf
	movl	24(%rax), %ebx
	movl	$2, %edi
	vj_call	__x86_get_cpuid_feature_leaf
	notl	%ebx
	testl	$9970177, %ebx
	jne	1f
	movl	24(%rax), %eax
	andl	$1, %eax
	je	1f
	leaq	-8(%rbp), %rsp
	popq	%rbx
	popq	%rbp
	jmp	b2..main.start_1_x86
1:
	movq	%rsp, %rsi
	subq	$144, %rsi
	cmpq	%rsp, %rsi
	jge	3f
2:
	xorq	$0, (%rsp)
	subq	$3072, %rsp
	cmpq	%rsp, %rsi
	jl	2b
3:
	movq	%rsi, %rsp
	movaps	.L1_x86_CPI46_0(%rip), %xmm0
	movaps	%xmm0, (%rsi)
	movaps	.L1_x86_CPI46_1(%rip), %xmm0
	movaps	%xmm0, 16(%rsi)
	movaps	.L1_x86_CPI46_2(%rip), %xmm0
	movaps	%xmm0, 32(%rsi)
	movaps	.L1_x86_CPI46_3(%rip), %xmm0
	movaps	%xmm0, 48(%rsi)
	movaps	.L1_x86_CPI46_4(%rip), %xmm0
	movaps	%xmm0, 64(%rsi)
	movaps	.L1_x86_CPI46_5(%rip), %xmm0
	movaps	%xmm0, 80(%rsi)
	movaps	.L1_x86_CPI46_6(%rip), %xmm0
	movaps	%xmm0, 96(%rsi)
	movaps	.L1_x86_CPI46_7(%rip), %xmm0
	movaps	%xmm0, 112(%rsi)
	movl	$908932664, 128(%rsi)
	movw	$2612, 132(%rsi)
	movl	$134, %edx
	movl	$2, %edi
	vj_system_call	__write, b2_write
	movl	$127, %eax
	leaq	-8(%rbp), %rsp
	popq	%rbx
	popq	%rbp
	retq
	vj_end	main_1_x86

	vj_data	static.0_1_x86
.L1_x86_static.0:

	vj_data	static.1_1_x86
.L1_x86_static.1:
	.ascii	"Usage: b2 COMMAND ARGUMENT..\nPrint BLAKE2 digests of standard input in hexadecimal, and what they are made of.\n\n  sum KIND [OPTION]..               the digest\n  script KIND [OPTION]..            the digests of the calls in its lines\n  steps KIND [OPTION]..             the transcript: the words and blocks that are compressed\n  witness KIND MESSAGE MESSAGE      a pair of steps of two messages with equal digests\n  tree KIND LEAF [SALT]..           the root of a tree with leaves of LEAF bytes\n  leaves LEAF FIRST END [SALT]..    the digests of the leaves of a part of a file\n  root KIND LEAF [SALT]..           the root over the digests of all leaves, which it reads\n  xof KIND LENGTH [raw] [OPTION]..  LENGTH bytes of output of BLAKE2X\n  derive LENGTH CONTEXT [raw]       a key of LENGTH bytes for a context, from the key that is read\n  --help (or -h, help)              this help\n  --version                         the version\n\nKIND is b128, b256, b512, s128 or s256: the family, and the bits of the digest. witness accepts\nb0, b8, s0 and s8 too, tree and root only those of BLAKE2b, and xof has xb and xs.\nOPTION is key=HEX, or a SALT: salt=HEX, persona=HEX or persona-text=TEXT.\nMESSAGE is HEX, or - for no bytes.\nraw prints the bytes instead of digits, such as a key for b2sum --key-file.\nFIRST is the index of the part's first leaf, from 0. END is last if the file ends with the part,\nand more if it does not.\n\nOther users of the machine can see a key on the command line.\nThe status is 0 for success, 1 if a read, a write or an allocation fails, and 2 for wrong\narguments or input. Errors are printed on standard output.\n"

	vj_data	static.2_1_x86
.L1_x86_static.2:
	.ascii	"b2 (Vulfsjor) 0.1.0\n"

	vj_data	static.13_1_x86
.L1_x86_static.13:
	.ascii	"-h"

	vj_constants	4
.L1_x86_static.14:
	.ascii	"help"

	vj_data	static.15_1_x86
.L1_x86_static.15:
	.ascii	"--version"

	vj_constants	16
.L1_x86_static.37:
	.ascii	"0123456789abcdef"

	vj_data	static.38_1_x86
.L1_x86_static.38:
	.byte	10

	vj_data	static.42_1_x86
.L1_x86_static.42:
	.ascii	" 1"

	vj_data	static.43_1_x86
.L1_x86_static.43:
	.ascii	" 0"

	vj_data	static.45_1_x86
.L1_x86_static.45:
	.ascii	"none\n"

	vj_data	static.46_1_x86
.L1_x86_static.46:
	.ascii	"Try 'b2 --help' for more information.\n"

	vj_data	static.47_1_x86
.L1_x86_static.47:
	.ascii	"b2: a command is missing\n"

	vj_data	static.48_1_x86
.L1_x86_static.48:
	.ascii	"usage: b2 sum KIND [key=HEX] [salt=HEX] [persona=HEX | persona-text=TEXT]\n"

	vj_data	static.49_1_x86
.L1_x86_static.49:
	.ascii	"usage: b2 script KIND [key=HEX] [salt=HEX] [persona=HEX | persona-text=TEXT]\n"

	vj_data	static.50_1_x86
.L1_x86_static.50:
	.ascii	"usage: b2 steps KIND [key=HEX] [salt=HEX] [persona=HEX | persona-text=TEXT]\n"

	vj_data	static.51_1_x86
.L1_x86_static.51:
	.ascii	"usage: b2 witness KIND MESSAGE MESSAGE\n"

	vj_data	static.52_1_x86
.L1_x86_static.52:
	.ascii	"usage: b2 tree KIND LEAF [salt=HEX] [persona=HEX | persona-text=TEXT]\n"

	vj_data	static.53_1_x86
.L1_x86_static.53:
	.ascii	"usage: b2 leaves LEAF FIRST more|last [salt=HEX] [persona=HEX | persona-text=TEXT]\n"

	vj_data	static.54_1_x86
.L1_x86_static.54:
	.ascii	"usage: b2 root KIND LEAF [salt=HEX] [persona=HEX | persona-text=TEXT]\n"

	vj_data	static.55_1_x86
.L1_x86_static.55:
	.ascii	"usage: b2 xof KIND LENGTH [raw] [key=HEX] [salt=HEX] [persona=HEX | persona-text=TEXT]\n"

	vj_data	static.56_1_x86
.L1_x86_static.56:
	.ascii	"usage: b2 derive LENGTH CONTEXT [raw]\n"

	vj_data	static.57_1_x86
.L1_x86_static.57:
	.ascii	"usage: b2 --version\n"

	vj_data	static.58_1_x86
.L1_x86_static.58:
	.ascii	"b2: the first argument is not a command\n"

	vj_data	static.59_1_x86
.L1_x86_static.59:
	.ascii	"usage: b2 --help\n"

	vj_data	static.62_1_x86
.L1_x86_static.62:
	.ascii	"line "

	vj_data	static.64_1_x86
.L1_x86_static.64:
	.ascii	"wrong words"

	vj_data	static.65_1_x86
.L1_x86_static.65:
	.ascii	"wrong hex"

	vj_data	static.66_1_x86
.L1_x86_static.66:
	.ascii	"wrong length"

	vj_data	static.67_1_x86
.L1_x86_static.67:
	.ascii	"wrong line"

	vj_data	static.68_1_x86
.L1_x86_static.68:
	.ascii	"no such slot"

	vj_constants	8
.L1_x86_static.69:
	.ascii	"too long"

	vj_data	static.70_1_x86
.L1_x86_static.70:
	.ascii	"read failed"

	vj_data	static.71_1_x86
.L1_x86_static.71:
	.ascii	"no memory"

	vj_data	Lswitch.table.b2_commands..dispatch..run_with_notes..8eebea7bb24a6da2.204_1_x86
	.p2align	2, 0x0
.L1_x86_switch.table.b2_commands..dispatch..run_with_notes..8eebea7bb24a6da2.204_1_x86:
	.long	16
	.long	32
	.long	64

	vj_data	Lswitch.table.b2_commands..digests..start_1_x86
	.p2align	3, 0x0
.L1_x86_switch.table.b2_commands..digests..start_1_x86:
	.quad	16
	.quad	32
	.quad	64

	vj_data	Lswitch.table.b2_commands..fault..Fault..report..c1844c1740294036_1_x86
	.p2align	3, 0x0
.L1_x86_switch.table.b2_commands..fault..Fault..report..c1844c1740294036_1_x86:
	.quad	11
	.quad	9
	.quad	12
	.quad	10
	.quad	12
	.quad	8
	.quad	8
	.quad	11
	.quad	9

	vj_data	Lswitch.table.b2_commands..fault..Fault..report..c1844c1740294036.205.rel_1_x86
	.p2align	2, 0x0
.L1_x86_switch.table.b2_commands..fault..Fault..report..c1844c1740294036.205.rel_1_x86:
	.long	.L1_x86_static.64-.L1_x86_switch.table.b2_commands..fault..Fault..report..c1844c1740294036.205.rel_1_x86
	.long	.L1_x86_static.65-.L1_x86_switch.table.b2_commands..fault..Fault..report..c1844c1740294036.205.rel_1_x86
	.long	.L1_x86_static.66-.L1_x86_switch.table.b2_commands..fault..Fault..report..c1844c1740294036.205.rel_1_x86
	.long	.L1_x86_static.67-.L1_x86_switch.table.b2_commands..fault..Fault..report..c1844c1740294036.205.rel_1_x86
	.long	.L1_x86_static.68-.L1_x86_switch.table.b2_commands..fault..Fault..report..c1844c1740294036.205.rel_1_x86
	.long	.L1_x86_static.69-.L1_x86_switch.table.b2_commands..fault..Fault..report..c1844c1740294036.205.rel_1_x86
	.long	.L1_x86_static.69-.L1_x86_switch.table.b2_commands..fault..Fault..report..c1844c1740294036.205.rel_1_x86
	.long	.L1_x86_static.70-.L1_x86_switch.table.b2_commands..fault..Fault..report..c1844c1740294036.205.rel_1_x86
	.long	.L1_x86_static.71-.L1_x86_switch.table.b2_commands..fault..Fault..report..c1844c1740294036.205.rel_1_x86

	vj_choose	blake2_compress..compress..blake2b..compress_1_x86, blake2_compress..compress..blake2b..compress_1_v2, blake2_compress..compress..blake2b..compress_1_v3, blake2_compress..compress..blake2b..compress_1_v4
	vj_choose	blake2_compress..compress..blake2s..compress_1_x86, blake2_compress..compress..blake2s..compress_1_v2, blake2_compress..compress..blake2s..compress_1_v3, blake2_compress..compress..blake2s..compress_1_v4
	vj_choose	blake2_tree..nodes..Nodes..hash_next_1_x86, blake2_tree..nodes..Nodes..hash_next_1_v2, blake2_tree..nodes..Nodes..hash_next_1_v3, blake2_tree..nodes..Nodes..hash_next_1_v4
	vj_choose	blake2_xof..blake2xb..State..squeeze_1_x86, blake2_xof..blake2xb..State..squeeze_1_v2, blake2_xof..blake2xb..State..squeeze_1_v3, blake2_xof..blake2xb..State..squeeze_1_v4
	vj_choose	blake2_xof..blake2xs..State..squeeze_1_x86, blake2_xof..blake2xs..State..squeeze_1_v2, blake2_xof..blake2xs..State..squeeze_1_v3, blake2_xof..blake2xs..State..squeeze_1_v4
