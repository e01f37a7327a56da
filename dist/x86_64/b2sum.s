/* Made by tools/dist.sh from the proved crate b2sum. dist/README.md says how. */
	vj_function	b2sum..main.start_1_x86
	pushq	%rbp
	pushq	%r15
	pushq	%r14
	pushq	%r13
	pushq	%r12
	pushq	%rbx
	subq	$1096, %rsp
	movw	$0, 36(%rsp)
	movb	$0, 38(%rsp)
	xorps	%xmm0, %xmm0
	movaps	%xmm0, 528(%rsp)
	movaps	%xmm0, 544(%rsp)
	movaps	%xmm0, 560(%rsp)
	movaps	%xmm0, 576(%rsp)
	movaps	%xmm0, 592(%rsp)
	movaps	%xmm0, 608(%rsp)
	movaps	%xmm0, 416(%rsp)
	movaps	%xmm0, 432(%rsp)
	movaps	%xmm0, 448(%rsp)
	movaps	%xmm0, 464(%rsp)
	movaps	%xmm0, 480(%rsp)
	movq	$0, 496(%rsp)
	movaps	%xmm0, 384(%rsp)
	movaps	%xmm0, 368(%rsp)
	movaps	%xmm0, 352(%rsp)
	movaps	%xmm0, 336(%rsp)
	movaps	%xmm0, 320(%rsp)
	movq	$0, 400(%rsp)
	movaps	%xmm0, 512(%rsp)
	leaq	688(%rsp), %rdi
	movl	$384, %edx
	xorl	%esi, %esi
	vj_c_call	memset
	xorps	%xmm0, %xmm0
	movaps	%xmm0, 288(%rsp)
	movaps	%xmm0, 304(%rsp)
	movaps	%xmm0, 96(%rsp)
	movaps	%xmm0, 80(%rsp)
	movq	$0, 112(%rsp)
	leaq	80(%rsp), %rdi
	xorl	%esi, %esi
	callq	b2sum..argument..53019e254910033c_1_x86
	cmpb	$0, 80(%rsp)
	je	4f
1:
	xorl	%r14d, %r14d
	.p2align	4
2:
	leaq	.L1_x86_static.0(%rip), %rsi
	addq	%r14, %rsi
	movl	$5, %ebx
	subq	%r14, %rbx
	movl	$2, %edi
	movq	%rbx, %rdx
	vj_system_call	write, b2_write
	testq	%rax, %rax
	js	7f
	cmpq	%rbx, %rax
	cmovbq	%rax, %rbx
	movb	$1, %bpl
	testq	%rbx, %rbx
	je	80f
	addq	%rbx, %r14
	cmpq	$5, %r14
	jb	2b
	xorl	%r14d, %r14d
	.p2align	4
3:
	leaq	.L1_x86_static.259(%rip), %rsi
	addq	%r14, %rsi
	movl	$19, %ebx
	subq	%r14, %rbx
	movl	$2, %edi
	movq	%rbx, %rdx
	vj_system_call	write, b2_write
	testq	%rax, %rax
	js	9f
	cmpq	%rbx, %rax
	cmovbq	%rax, %rbx
	testq	%rbx, %rbx
	je	80f
	addq	%rbx, %r14
	cmpq	$19, %r14
	jb	3b
	jmp	80f
4:
	cmpb	$1, 88(%rsp)
	jne	8f
	movq	96(%rsp), %r15
	movq	104(%rsp), %rdx
	movq	112(%rsp), %rbx
	leaq	(%r15,%rdx), %rax
	negq	%rdx
	xorl	%esi, %esi
	.p2align	4
5:
	movq	%rsi, %rcx
	cmpq	%rsi, %rdx
	je	6f
	leaq	-1(%rcx), %rsi
	cmpb	$47, -1(%rax,%rcx)
	jne	5b
6:
	addq	%rcx, %rax
	negq	%rcx
	leaq	.L1_x86_static.0(%rip), %r12
	cmovbq	%rax, %r12
	movl	$5, %r14d
	cmovbq	%rcx, %r14
	testq	%r14, %r14
	js	10f
	movl	$1, %esi
	movq	%r14, %rdi
	vj_call	rattle_alloc
	testb	$1, %al
	je	10f
	movq	%rdx, %rdi
	movq	%rdx, %rax
	subq	%r12, %rax
	cmpq	%r14, %rax
	jae	44f
	xorl	%eax, %eax
	cmpq	$4, %r14
	jb	59f
	movq	%rdi, %rcx
	subq	%r12, %rcx
	cmpq	$32, %rcx
	jb	59f
	movabsq	$9223372036854775776, %rcx
	cmpq	$32, %r14
	jae	54f
	xorl	%eax, %eax
	jmp	56f
7:
	leaq	80(%rsp), %rdi
	callq	std_io..io..error..last_error_1_x86
	movb	$1, %bpl
	jmp	80f
8:
	movl	$5, %edi
	movl	$1, %esi
	vj_call	rattle_alloc
	testb	$1, %al
	je	1b
	movq	%rdx, %r12
	leaq	.L1_x86_static.0(%rip), %rax
	movq	%rdx, %rcx
	subq	%rax, %rcx
	cmpq	$4, %rcx
	ja	13f
	movl	$1970483810, (%r12)
	movb	$109, 4(%r12)
	jmp	14f
9:
	leaq	80(%rsp), %rdi
	callq	std_io..io..error..last_error_1_x86
	jmp	80f
10:
	xorl	%r13d, %r13d
	xorl	%ebp, %ebp
	xorl	%r14d, %r14d
11:
	testq	%rbx, %rbx
	je	12f
	movq	%r15, %rdi
	vj_call	rattle_dealloc
12:
	testb	%r13b, %r13b
	je	1b
	movl	$1, %edi
	movl	$1, %esi
	vj_call	rattle_alloc
	testb	$1, %al
	je	16f
	movq	%rdx, %rbx
	movq	%rbp, %r12
	jmp	15f
13:
	movb	$109, 4(%r12)
	movl	$1970483810, (%r12)
14:
	movl	$1, %edi
	movl	$1, %esi
	vj_call	rattle_alloc
	movl	$5, %r14d
	testb	$1, %al
	je	17f
	movq	%rdx, %rbx
15:
	movq	%r12, 48(%rsp)
	movb	$45, (%rbx)
	movl	$65536, %edi
	movl	$1, %esi
	vj_call	rattle_alloc
	movq	%rax, 64(%rsp)
	testb	$1, %al
	je	19f
	movq	%rdx, %rdi
	movl	$1, %eax
	movq	%rax, 184(%rsp)
	movl	$65536, %eax
	movq	%rax, 40(%rsp)
	movq	%rbx, 72(%rsp)
	movl	$65536, %edx
	movq	%rdi, 56(%rsp)
	xorl	%esi, %esi
	vj_c_call	memset
	movw	$0, 36(%rsp)
	movb	$0, 38(%rsp)
	xorps	%xmm0, %xmm0
	movaps	%xmm0, 528(%rsp)
	movaps	%xmm0, 544(%rsp)
	movaps	%xmm0, 560(%rsp)
	movaps	%xmm0, 576(%rsp)
	movaps	%xmm0, 592(%rsp)
	movaps	%xmm0, 608(%rsp)
	movaps	%xmm0, 416(%rsp)
	movaps	%xmm0, 432(%rsp)
	movaps	%xmm0, 448(%rsp)
	movaps	%xmm0, 464(%rsp)
	movaps	%xmm0, 480(%rsp)
	movq	$0, 496(%rsp)
	movaps	%xmm0, 320(%rsp)
	movaps	%xmm0, 336(%rsp)
	movaps	%xmm0, 352(%rsp)
	movaps	%xmm0, 368(%rsp)
	movaps	%xmm0, 384(%rsp)
	movq	$0, 400(%rsp)
	movaps	%xmm0, 512(%rsp)
	leaq	32(%rsp), %rax
	movq	%rax, 176(%rsp)
	movb	$1, %al
	movq	%rax, 168(%rsp)
	jmp	20f
16:
	testq	%r14, %r14
	movq	%rbp, %r12
	je	46f
17:
	xorl	%ebx, %ebx
	.p2align	4
18:
	leaq	(%r12,%rbx), %rsi
	movq	%r14, %r15
	subq	%rbx, %r15
	movl	$2, %edi
	movq	%r15, %rdx
	vj_system_call	write, b2_write
	testq	%rax, %rax
	js	45f
	cmpq	%r15, %rax
	cmovbq	%rax, %r15
	testq	%r15, %r15
	je	51f
	addq	%r15, %rbx
	cmpq	%r14, %rbx
	jb	18b
	xorl	%ebx, %ebx
	jmp	47f
19:
	movq	%rbx, %rdi
	vj_call	rattle_dealloc
	movb	$0, 38(%rsp)
	movw	$0, 36(%rsp)
	xorps	%xmm0, %xmm0
	movaps	%xmm0, 528(%rsp)
	movaps	%xmm0, 544(%rsp)
	movaps	%xmm0, 560(%rsp)
	movaps	%xmm0, 576(%rsp)
	movaps	%xmm0, 592(%rsp)
	movaps	%xmm0, 608(%rsp)
	movaps	%xmm0, 416(%rsp)
	movaps	%xmm0, 432(%rsp)
	movaps	%xmm0, 448(%rsp)
	movaps	%xmm0, 464(%rsp)
	movaps	%xmm0, 480(%rsp)
	movq	$0, 496(%rsp)
	movaps	%xmm0, 320(%rsp)
	movaps	%xmm0, 336(%rsp)
	movaps	%xmm0, 352(%rsp)
	movaps	%xmm0, 368(%rsp)
	movaps	%xmm0, 384(%rsp)
	movq	$0, 400(%rsp)
	movaps	%xmm0, 512(%rsp)
	movq	$0, 168(%rsp)
	movq	$0, 72(%rsp)
	movq	$0, 184(%rsp)
	movq	$0, 56(%rsp)
	movq	$0, 40(%rsp)
	movq	$0, 176(%rsp)
20:
	movaps	%xmm0, 96(%rsp)
	movaps	%xmm0, 80(%rsp)
	movq	$0, 112(%rsp)
	leaq	32(%rsp), %r13
	movq	%r13, 192(%rsp)
	movups	%xmm0, 200(%rsp)
	movl	$1, %r12d
	xorl	%r15d, %r15d
	.p2align	4
21:
	leaq	80(%rsp), %rdi
	movq	%r12, %rsi
	callq	b2sum..argument..53019e254910033c_1_x86
	cmpb	$0, 80(%rsp)
	jne	24f
	cmpb	$1, 88(%rsp)
	movq	208(%rsp), %rbx
	jne	31f
	movq	96(%rsp), %rbp
	movups	104(%rsp), %xmm0
	cmpq	%r15, %rbx
	je	23f
22:
	leaq	(%r15,%r15,2), %rax
	movq	%rbp, (%r13,%rax,8)
	movups	%xmm0, 8(%r13,%rax,8)
	incq	%r15
	movq	%r15, 200(%rsp)
	incq	%r12
	cmpq	$-1, %r12
	jne	21b
	jmp	30f
23:
	movaps	%xmm0, 1072(%rsp)
	movq	112(%rsp), %rbx
	leaq	192(%rsp), %rdi
	callq	std_alloc..vec..Vec..grow_amortized..1e3479f4918bcb88_1_x86
	testb	%al, %al
	je	81f
	movq	192(%rsp), %r13
	movq	200(%rsp), %r15
	movaps	1072(%rsp), %xmm0
	jmp	22b
24:
	movq	208(%rsp), %rbx
	testq	%r15, %r15
	je	27f
	leaq	16(%r13), %r12
	jmp	26f
	.p2align	4
25:
	addq	$24, %r12
	decq	%r15
	je	27f
26:
	cmpq	$0, (%r12)
	je	25b
	movq	-16(%r12), %rdi
	vj_call	rattle_dealloc
	jmp	25b
27:
	testq	%rbx, %rbx
	je	29f
	movq	%r13, %rdi
28:
	vj_call	rattle_dealloc
29:
	movb	$1, %bpl
	xorl	%r15d, %r15d
	movq	$0, 40(%rsp)
	xorl	%r13d, %r13d
	testq	%r14, %r14
	jne	33f
	jmp	35f
30:
	movq	208(%rsp), %rbx
31:
	movq	192(%rsp), %r12
	testq	%rbx, %rbx
	sete	%bpl
	movb	$1, %r13b
	testb	$1, 64(%rsp)
	je	32f
	movq	168(%rsp), %rax
	movb	%al, 688(%rsp)
	movzwl	36(%rsp), %eax
	movw	%ax, 689(%rsp)
	movzbl	38(%rsp), %eax
	movb	%al, 691(%rsp)
	movl	$0, 692(%rsp)
	movq	72(%rsp), %rax
	movq	%rax, 696(%rsp)
	movq	184(%rsp), %rax
	movq	%rax, 704(%rsp)
	movq	%rax, 712(%rsp)
	movaps	528(%rsp), %xmm0
	movaps	544(%rsp), %xmm1
	movaps	560(%rsp), %xmm2
	movaps	576(%rsp), %xmm3
	movups	%xmm0, 720(%rsp)
	movups	%xmm1, 736(%rsp)
	movups	%xmm2, 752(%rsp)
	movups	%xmm3, 768(%rsp)
	movaps	592(%rsp), %xmm0
	movups	%xmm0, 784(%rsp)
	movaps	608(%rsp), %xmm0
	movups	%xmm0, 800(%rsp)
	movq	$0, 816(%rsp)
	movaps	416(%rsp), %xmm0
	movaps	432(%rsp), %xmm1
	movaps	448(%rsp), %xmm2
	movaps	464(%rsp), %xmm3
	movups	%xmm0, 824(%rsp)
	movups	%xmm1, 840(%rsp)
	movups	%xmm2, 856(%rsp)
	movups	%xmm3, 872(%rsp)
	movaps	480(%rsp), %xmm0
	movups	%xmm0, 888(%rsp)
	movq	496(%rsp), %rax
	movq	%rax, 904(%rsp)
	movq	$0, 912(%rsp)
	movaps	320(%rsp), %xmm0
	movaps	336(%rsp), %xmm1
	movaps	352(%rsp), %xmm2
	movaps	368(%rsp), %xmm3
	movups	%xmm0, 920(%rsp)
	movups	%xmm1, 936(%rsp)
	movups	%xmm2, 952(%rsp)
	movups	%xmm3, 968(%rsp)
	movaps	384(%rsp), %xmm0
	movups	%xmm0, 984(%rsp)
	movq	400(%rsp), %rax
	movq	%rax, 1000(%rsp)
	movq	56(%rsp), %rax
	movq	%rax, 1008(%rsp)
	movq	40(%rsp), %rax
	movq	%rax, 1016(%rsp)
	movq	%rax, 1024(%rsp)
	movq	176(%rsp), %rax
	movq	%rax, 1032(%rsp)
	xorps	%xmm0, %xmm0
	movups	%xmm0, 1040(%rsp)
	movaps	512(%rsp), %xmm0
	movups	%xmm0, 1056(%rsp)
	movq	48(%rsp), %r13
	movq	%r13, 288(%rsp)
	movq	%r14, 296(%rsp)
	movq	%r14, 304(%rsp)
	leaq	32(%rsp), %rax
	movq	%rax, 312(%rsp)
	leaq	288(%rsp), %rdi
	leaq	688(%rsp), %rsi
	movq	%r12, %rdx
	movq	%r15, %rcx
	callq	b2sum_commands..program..run_words..82a450bcca081e63_1_x86
	movl	%edx, %ebp
	testb	%al, %al
	je	52f
	movq	%r12, 40(%rsp)
	leaq	912(%rsp), %r12
	cmpb	$1, %bpl
	jne	53f
	cmpb	$1, 816(%rsp)
	jne	63f
	movzbl	824(%rsp), %ecx
	movzbl	825(%rsp), %eax
	movups	826(%rsp), %xmm0
	movaps	%xmm0, 192(%rsp)
	movups	842(%rsp), %xmm0
	movaps	%xmm0, 208(%rsp)
	movups	858(%rsp), %xmm0
	movaps	%xmm0, 224(%rsp)
	movups	874(%rsp), %xmm0
	movaps	%xmm0, 240(%rsp)
	movups	890(%rsp), %xmm0
	movaps	%xmm0, 256(%rsp)
	movq	904(%rsp), %rdx
	movq	%rdx, 270(%rsp)
	jmp	64f
32:
	movq	%r12, 40(%rsp)
	testq	%r14, %r14
	je	35f
33:
	xorl	%ebx, %ebx
	.p2align	4
34:
	movq	48(%rsp), %rax
	leaq	(%rax,%rbx), %rsi
	movq	%r14, %r12
	subq	%rbx, %r12
	movl	$2, %edi
	movq	%r12, %rdx
	vj_system_call	write, b2_write
	testq	%rax, %rax
	js	37f
	cmpq	%r12, %rax
	cmovbq	%rax, %r12
	testq	%r12, %r12
	je	38f
	addq	%r12, %rbx
	cmpq	%r14, %rbx
	jb	34b
35:
	xorl	%ebx, %ebx
	.p2align	4
36:
	leaq	.L1_x86_static.259(%rip), %rsi
	addq	%rbx, %rsi
	movl	$19, %r12d
	subq	%rbx, %r12
	movl	$2, %edi
	movq	%r12, %rdx
	vj_system_call	write, b2_write
	testq	%rax, %rax
	js	37f
	cmpq	%r12, %rax
	cmovbq	%rax, %r12
	testq	%r12, %r12
	je	38f
	addq	%r12, %rbx
	cmpq	$19, %rbx
	jb	36b
	jmp	38f
37:
	leaq	80(%rsp), %rdi
	callq	std_io..io..error..last_error_1_x86
38:
	testb	$1, 64(%rsp)
	je	39f
	movq	72(%rsp), %rdi
	vj_call	rattle_dealloc
	movq	56(%rsp), %rdi
	vj_call	rattle_dealloc
39:
	testb	%r13b, %r13b
	movq	48(%rsp), %r12
	je	43f
	testq	%r15, %r15
	je	42f
	movq	40(%rsp), %rax
	leaq	16(%rax), %rbx
	jmp	41f
	.p2align	4
40:
	addq	$24, %rbx
	decq	%r15
	je	42f
41:
	cmpq	$0, (%rbx)
	je	40b
	movq	-16(%rbx), %rdi
	vj_call	rattle_dealloc
	jmp	40b
42:
	testb	%bpl, %bpl
	jne	43f
	movq	40(%rsp), %rdi
	vj_call	rattle_dealloc
43:
	movb	$1, %bpl
	testq	%r14, %r14
	je	80f
	movq	%r12, %rdi
	jmp	79f
44:
	movq	%rdi, %rbp
	movq	%r12, %rsi
	movq	%r14, %rdx
	vj_c_call	memmove
	movb	$1, %r13b
	jmp	11b
45:
	leaq	80(%rsp), %rdi
	callq	std_io..io..error..last_error_1_x86
	jmp	51f
46:
	movb	$1, %bl
47:
	xorl	%r15d, %r15d
	.p2align	4
48:
	leaq	.L1_x86_static.259(%rip), %rsi
	addq	%r15, %rsi
	movl	$19, %r14d
	subq	%r15, %r14
	movl	$2, %edi
	movq	%r14, %rdx
	vj_system_call	write, b2_write
	testq	%rax, %rax
	js	49f
	cmpq	%r14, %rax
	cmovbq	%rax, %r14
	testq	%r14, %r14
	je	50f
	addq	%r14, %r15
	cmpq	$19, %r15
	jb	48b
	jmp	50f
49:
	leaq	80(%rsp), %rdi
	callq	std_io..io..error..last_error_1_x86
50:
	movb	$1, %bpl
	testb	%bl, %bl
	jne	80f
51:
	movq	%r12, %rdi
	vj_call	rattle_dealloc
	movb	$1, %bpl
	jmp	80f
52:
	notb	%bpl
	andb	$1, %bpl
	jmp	70f
53:
	leaq	.L1_x86_static.259(%rip), %rcx
	movl	$19, %r8d
	movq	%r13, %rdi
	movq	%r14, %rsi
	jmp	68f
54:
	movq	%r14, %rax
	andq	%rcx, %rax
	xorl	%edx, %edx
	.p2align	4
55:
	movups	(%r12,%rdx), %xmm0
	movups	16(%r12,%rdx), %xmm1
	movups	%xmm0, (%rdi,%rdx)
	movups	%xmm1, 16(%rdi,%rdx)
	addq	$32, %rdx
	cmpq	%rdx, %rax
	jne	55b
	cmpq	%rax, %r14
	je	58f
	testb	$28, %r14b
	je	59f
56:
	movq	%rax, %rdx
	addq	$28, %rcx
	movq	%rcx, %rax
	andq	%r14, %rax
	.p2align	4
57:
	movl	(%r12,%rdx), %ecx
	movl	%ecx, (%rdi,%rdx)
	addq	$4, %rdx
	cmpq	%rdx, %rax
	jne	57b
	cmpq	%rax, %r14
	jne	59f
58:
	movq	%rdi, %rbp
	movb	$1, %r13b
	jmp	11b
59:
	movq	%r14, %rdx
	movq	%rax, %rcx
	andq	$3, %rdx
	je	61f
	movq	%rax, %rcx
	.p2align	4
60:
	movzbl	(%r12,%rcx), %esi
	movb	%sil, (%rdi,%rcx)
	incq	%rcx
	decq	%rdx
	jne	60b
61:
	subq	%r14, %rax
	movq	%rdi, %rbp
	movb	$1, %r13b
	cmpq	$-4, %rax
	ja	11b
	.p2align	4
62:
	movzbl	(%r12,%rcx), %eax
	movb	%al, (%rbp,%rcx)
	movzbl	1(%r12,%rcx), %eax
	movb	%al, 1(%rbp,%rcx)
	movzbl	2(%r12,%rcx), %eax
	movb	%al, 2(%rbp,%rcx)
	movzbl	3(%r12,%rcx), %eax
	movb	%al, 3(%rbp,%rcx)
	addq	$4, %rcx
	cmpq	%rcx, %r14
	jne	62b
	jmp	11b
63:
	xorps	%xmm0, %xmm0
	movaps	%xmm0, 256(%rsp)
	movaps	%xmm0, 240(%rsp)
	movaps	%xmm0, 224(%rsp)
	movaps	%xmm0, 208(%rsp)
	movaps	%xmm0, 192(%rsp)
	movq	$0, 270(%rsp)
	movb	$40, %al
	movb	$1, %cl
64:
	movb	%cl, 80(%rsp)
	movb	%al, 81(%rsp)
	movaps	192(%rsp), %xmm0
	movaps	208(%rsp), %xmm1
	movaps	224(%rsp), %xmm2
	movaps	240(%rsp), %xmm3
	movups	%xmm0, 82(%rsp)
	movups	%xmm1, 98(%rsp)
	movups	%xmm2, 114(%rsp)
	movups	%xmm3, 130(%rsp)
	movaps	256(%rsp), %xmm0
	movups	%xmm0, 146(%rsp)
	movq	270(%rsp), %rax
	movq	%rax, 160(%rsp)
	xorps	%xmm0, %xmm0
	movaps	%xmm0, 656(%rsp)
	movaps	%xmm0, 672(%rsp)
	movaps	%xmm0, 624(%rsp)
	movaps	%xmm0, 640(%rsp)
	leaq	624(%rsp), %rdi
	leaq	80(%rsp), %rsi
	callq	b2sum..disk..SystemDisk..reason_of..997c1e2eeb9618f7_1_x86
	cmpb	$0, 624(%rsp)
	je	65f
	movq	%r14, %rsi
	movq	%r13, %rdi
	jmp	67f
65:
	movq	%r13, %rsi
	movq	632(%rsp), %r13
	movq	640(%rsp), %rax
	movq	648(%rsp), %rbp
	leaq	.L1_x86_static.1(%rip), %rcx
	movq	%rcx, 8(%rsp)
	movq	%rax, (%rsp)
	movq	$0, 16(%rsp)
	leaq	.L1_x86_static.258(%rip), %rcx
	leaq	656(%rsp), %rdi
	movl	$13, %r8d
	movq	%r14, %rdx
	movq	%r13, %r9
	callq	b2sum_commands..messages..line_of_1_x86
	testq	%rbp, %rbp
	je	66f
	movq	%r13, %rdi
	vj_call	rattle_dealloc
66:
	cmpb	$0, 656(%rsp)
	je	86f
	movq	288(%rsp), %rdi
	movq	296(%rsp), %rsi
	movq	48(%rsp), %r13
67:
	leaq	.L1_x86_static.257(%rip), %rcx
	movl	$14, %r8d
68:
	movq	%r12, %rdx
	callq	b2sum_commands..messages..tell_named..068f3e307c5390f2_1_x86
	movb	$1, %bpl
69:
	movq	40(%rsp), %r12
70:
	testq	%r14, %r14
	je	71f
	movq	%r13, %rdi
	vj_call	rattle_dealloc
71:
	testq	%r15, %r15
	je	74f
	leaq	16(%r12), %r14
	jmp	73f
	.p2align	4
72:
	addq	$24, %r14
	decq	%r15
	je	74f
73:
	cmpq	$0, (%r14)
	je	72b
	movq	-16(%r14), %rdi
	vj_call	rattle_dealloc
	jmp	72b
74:
	testq	%rbx, %rbx
	je	75f
	movq	%r12, %rdi
	vj_call	rattle_dealloc
75:
	movq	696(%rsp), %rbx
	movq	712(%rsp), %r14
	cmpb	$0, 688(%rsp)
	jne	76f
	movl	692(%rsp), %edi
	vj_call	b2sum_close
76:
	testq	%r14, %r14
	je	77f
	movq	%rbx, %rdi
	vj_call	rattle_dealloc
77:
	cmpq	$0, 1024(%rsp)
	je	78f
	movq	1008(%rsp), %rdi
	vj_call	rattle_dealloc
78:
	cmpq	$0, 1048(%rsp)
	je	80f
	movq	1032(%rsp), %rdi
79:
	vj_call	rattle_dealloc
80:
	movzbl	%bpl, %eax
	addq	$1096, %rsp
	popq	%rbx
	popq	%r12
	popq	%r13
	popq	%r14
	popq	%r15
	popq	%rbp
	retq
81:
	testq	%rbx, %rbx
	je	82f
	movq	%rbp, %rdi
	vj_call	rattle_dealloc
82:
	movq	192(%rsp), %r15
	movq	200(%rsp), %r12
	movq	208(%rsp), %rbx
	testq	%r12, %r12
	je	85f
	leaq	16(%r15), %r13
	jmp	84f
83:
	addq	$24, %r13
	decq	%r12
	je	85f
84:
	cmpq	$0, (%r13)
	je	83b
	movq	-16(%r13), %rdi
	vj_call	rattle_dealloc
	jmp	83b
85:
	testq	%rbx, %rbx
	je	29b
	movq	%r15, %rdi
	jmp	28b
86:
	movq	664(%rsp), %rax
	movq	%rax, 64(%rsp)
	movq	672(%rsp), %rbp
	movq	680(%rsp), %rax
	movq	%rax, 56(%rsp)
	testq	%rbp, %rbp
	je	90f
	testb	$1, 912(%rsp)
	jne	90f
	xorl	%r12d, %r12d
87:
	movq	64(%rsp), %rax
	leaq	(%rax,%r12), %rsi
	movq	%rbp, %r13
	subq	%r12, %r13
	movl	$2, %edi
	movq	%r13, %rdx
	vj_system_call	write, b2_write
	testq	%rax, %rax
	js	88f
	cmpq	%r13, %rax
	cmovbq	%rax, %r13
	testq	%r13, %r13
	je	89f
	addq	%r13, %r12
	cmpq	%rbp, %r12
	jb	87b
	jmp	90f
88:
	leaq	80(%rsp), %rdi
	callq	std_io..io..error..last_error_1_x86
	movq	80(%rsp), %rax
	movups	88(%rsp), %xmm0
	movups	%xmm0, 928(%rsp)
	movups	104(%rsp), %xmm0
	movups	%xmm0, 944(%rsp)
	movups	120(%rsp), %xmm0
	movups	%xmm0, 960(%rsp)
	movups	136(%rsp), %xmm0
	movups	%xmm0, 976(%rsp)
	movups	152(%rsp), %xmm0
	movups	%xmm0, 992(%rsp)
	movq	$1, 912(%rsp)
	movq	%rax, 920(%rsp)
	jmp	90f
89:
	movq	$1, 912(%rsp)
	movw	$5889, 920(%rsp)
	xorps	%xmm0, %xmm0
	movups	%xmm0, 922(%rsp)
	movups	%xmm0, 938(%rsp)
	movups	%xmm0, 954(%rsp)
	movups	%xmm0, 970(%rsp)
	movups	%xmm0, 986(%rsp)
	movq	$0, 1000(%rsp)
90:
	movb	$1, %bpl
	cmpq	$0, 56(%rsp)
	je	91f
	movq	64(%rsp), %rdi
	vj_call	rattle_dealloc
91:
	movq	48(%rsp), %r13
	jmp	69b
	vj_end	b2sum..main.start_1_x86

	vj_function	b2sum..argument..53019e254910033c_1_x86
	pushq	%rbp
	pushq	%r15
	pushq	%r14
	pushq	%r13
	pushq	%r12
	pushq	%rbx
	subq	$40, %rsp
	movq	%rsi, %r12
	movq	%rdi, 8(%rsp)
	movl	$256, %r14d
	movl	$55, %ebp
	.p2align	4
1:
	movl	$1, %esi
	movq	%r14, %rdi
	vj_call	rattle_alloc
	testb	$1, %al
	je	2f
	movq	%rdx, %r15
	leaq	-1(%r14), %rdx
	xorl	%ebx, %ebx
	movq	%r15, %rdi
	xorl	%esi, %esi
	vj_c_call	memset
	movb	$0, -1(%r15,%r14)
	movq	%r12, %rdi
	movq	%r15, %rsi
	movq	%r14, %rdx
	vj_call	rattle_arg
	movq	%rax, %r13
	cmpq	$-1, %rax
	movl	$22, %eax
	movl	$36, %edi
	cmovel	%eax, %edi
	testq	%r13, %r13
	cmovnsl	%ebx, %edi
	vj_call	rattle_set_errno
	vj_call	rattle_errno
	cmpl	$36, %eax
	jne	3f
	addq	%r14, %r14
	movq	%r15, %rdi
	vj_call	rattle_dealloc
	decl	%ebp
	jne	1b
2:
	movq	8(%rsp), %rax
	movb	$1, (%rax)
	jmp	11f
3:
	testl	%eax, %eax
	jne	10f
	cmpq	%r14, %r13
	cmovbq	%r13, %r14
	xorl	%r12d, %r12d
	testq	%r13, %r13
	cmovleq	%r12, %r14
	leaq	7(%rsp), %rax
	movq	%rax, 16(%rsp)
	xorps	%xmm0, %xmm0
	movups	%xmm0, 24(%rsp)
	movl	$0, %ecx
	testq	%r14, %r14
	jne	20f
4:
	leaq	(%rcx,%r14), %r13
	leaq	(%rax,%rcx), %rdi
	movq	%rdi, %rdx
	subq	%r15, %rdx
	cmpq	%r14, %rdx
	jae	12f
	cmpq	$4, %r14
	jb	5f
	cmpq	$32, %rdx
	jae	15f
5:
	xorl	%edx, %edx
6:
	movq	%r14, %r8
	movq	%rdx, %rsi
	andq	$3, %r8
	je	8f
	movq	%rdx, %rsi
	.p2align	4
7:
	movzbl	(%r15,%rsi), %r9d
	movb	%r9b, (%rdi,%rsi)
	incq	%rsi
	decq	%r8
	jne	7b
8:
	subq	%r14, %rdx
	cmpq	$-4, %rdx
	ja	13f
	addq	%rcx, %rax
	addq	$3, %rax
	.p2align	4
9:
	movzbl	(%r15,%rsi), %ecx
	movb	%cl, -3(%rax,%rsi)
	movzbl	1(%r15,%rsi), %ecx
	movb	%cl, -2(%rax,%rsi)
	movzbl	2(%r15,%rsi), %ecx
	movb	%cl, -1(%rax,%rsi)
	movzbl	3(%r15,%rsi), %ecx
	movb	%cl, (%rax,%rsi)
	addq	$4, %rsi
	cmpq	%rsi, %r14
	jne	9b
	jmp	13f
10:
	movq	%r15, %rdi
	vj_call	rattle_dealloc
	movq	8(%rsp), %rax
	movb	$0, (%rax)
11:
	xorps	%xmm0, %xmm0
	movups	%xmm0, 8(%rax)
	movups	%xmm0, 24(%rax)
	jmp	14f
12:
	movq	%r15, %rsi
	movq	%r14, %rdx
	vj_c_call	memmove
13:
	movq	%r13, 24(%rsp)
	movq	%r12, 32(%rsp)
	movq	%r15, %rdi
	vj_call	rattle_dealloc
	movq	8(%rsp), %rcx
	movb	$0, (%rcx)
	movq	$1, 8(%rcx)
	movups	16(%rsp), %xmm0
	movups	%xmm0, 16(%rcx)
	movq	32(%rsp), %rax
	movq	%rax, 32(%rcx)
14:
	addq	$40, %rsp
	popq	%rbx
	popq	%r12
	popq	%r13
	popq	%r14
	popq	%r15
	popq	%rbp
	retq
15:
	cmpq	$32, %r14
	jae	16f
	xorl	%edx, %edx
	jmp	18f
16:
	movq	%r14, %rdx
	andq	$-32, %rdx
	leaq	(%rcx,%rax), %rsi
	addq	$16, %rsi
	xorl	%r8d, %r8d
	.p2align	4
17:
	movups	(%r15,%r8), %xmm0
	movups	16(%r15,%r8), %xmm1
	movups	%xmm0, -16(%rsi,%r8)
	movups	%xmm1, (%rsi,%r8)
	addq	$32, %r8
	cmpq	%r8, %rdx
	jne	17b
	cmpq	%rdx, %r14
	je	13b
	testb	$28, %r14b
	je	6b
18:
	movq	%rdx, %rsi
	movq	%r14, %rdx
	andq	$-4, %rdx
	.p2align	4
19:
	movl	(%r15,%rsi), %r8d
	movl	%r8d, (%rdi,%rsi)
	addq	$4, %rsi
	cmpq	%rsi, %rdx
	jne	19b
	cmpq	%rdx, %r14
	je	13b
	jmp	6b
20:
	leaq	16(%rsp), %rdi
	movq	%r14, %rsi
	callq	std_alloc..vec..Vec..grow_amortized..01eec35b572d02af_1_x86
	testb	%al, %al
	je	21f
	movq	16(%rsp), %rax
	movq	24(%rsp), %rcx
	movq	32(%rsp), %r12
	jmp	4b
21:
	cmpq	$0, 32(%rsp)
	je	22f
	movq	16(%rsp), %rdi
	vj_call	rattle_dealloc
22:
	movq	%r15, %rdi
	vj_call	rattle_dealloc
	jmp	2b
	vj_end	b2sum..argument..53019e254910033c_1_x86

	vj_function	b2sum..b2sum.disk.Opened.Destruct..drop..635567e538566947_1_x86
	pushq	%r14
	pushq	%rbx
	pushq	%rax
	movq	8(%rdi), %rbx
	movq	24(%rdi), %r14
	cmpb	$0, (%rdi)
	je	2f
	testq	%r14, %r14
	je	3f
1:
	movq	%rbx, %rdi
	addq	$8, %rsp
	popq	%rbx
	popq	%r14
	vj_jump	rattle_dealloc
2:
	movl	4(%rdi), %edi
	vj_call	b2sum_close
	testq	%r14, %r14
	jne	1b
3:
	addq	$8, %rsp
	popq	%rbx
	popq	%r14
	retq
	vj_end	b2sum..b2sum.disk.Opened.Destruct..drop..635567e538566947_1_x86

	vj_cold	std_alloc..vec..Vec..grow_amortized..1e3479f4918bcb88_1_x86
	movq	8(%rdi), %rax
	cmpq	$-1, %rax
	je	2f
	pushq	%r14
	pushq	%rbx
	pushq	%rax
	movq	16(%rdi), %rcx
	cmpq	$4, %rax
	movl	$3, %ebx
	cmovaeq	%rax, %rbx
	incq	%rbx
	movq	%rcx, %rsi
	shrq	$62, %rsi
	leaq	(%rcx,%rcx), %rdx
	cmpq	%rdx, %rbx
	cmovaq	%rbx, %rdx
	testq	%rsi, %rsi
	cmoveq	%rdx, %rbx
	movabsq	$384307168202282325, %rsi
	cmpq	%rsi, %rbx
	ja	4f
	testq	%rcx, %rcx
	je	3f
	movq	%rdi, %r14
	movq	(%rdi), %rdi
	shlq	$3, %rax
	leaq	(%rax,%rax,2), %rsi
	leaq	(,%rbx,8), %rax
	leaq	(%rax,%rax,2), %rdx
	movl	$8, %ecx
	vj_call	rattle_realloc
	testb	$1, %al
	je	4f
1:
	movq	%rdx, (%r14)
	movq	%rbx, 16(%r14)
	movb	$1, %al
	addq	$8, %rsp
	popq	%rbx
	popq	%r14
	retq
2:
	xorl	%eax, %eax
	retq
3:
	movq	%rdi, %r14
	shlq	$3, %rdx
	leaq	(%rdx,%rdx,2), %rdi
	movl	$8, %esi
	vj_call	rattle_alloc
	testb	$1, %al
	jne	1b
4:
	xorl	%eax, %eax
	addq	$8, %rsp
	popq	%rbx
	popq	%r14
	retq
	vj_end	std_alloc..vec..Vec..grow_amortized..1e3479f4918bcb88_1_x86

	vj_constants	16
	.p2align	4, 0x0
.L1_x86_CPI4_0:
	.short	32896
	.short	32896
	.short	0
	.short	0
	.short	32896
	.short	32896
	.short	0
	.short	0
.L1_x86_CPI4_1:
	.byte	1
	.byte	1
	.byte	1
	.byte	1
	.zero	1
	.zero	1
	.zero	1
	.zero	1
	.zero	1
	.zero	1
	.zero	1
	.zero	1
	.zero	1
	.zero	1
	.zero	1
	.zero	1
	vj_function	b2sum_commands..program..run_words..82a450bcca081e63_1_x86
	pushq	%rbp
	pushq	%r15
	pushq	%r14
	pushq	%r13
	pushq	%r12
	pushq	%rbx
	subq	$1480, %rsp
	movq	%rdx, 144(%rsp)
	movq	%rsi, 112(%rsp)
	movq	%rdi, 208(%rsp)
	movl	$0, 563(%rsp)
	movl	$0, 560(%rsp)
	movl	$0, 1171(%rsp)
	movl	$0, 1168(%rsp)
	pxor	%xmm0, %xmm0
	movdqa	%xmm0, 736(%rsp)
	movdqa	%xmm0, 752(%rsp)
	leaq	24(%rsp), %r12
	movq	%r12, 768(%rsp)
	movdqu	%xmm0, 776(%rsp)
	movdqu	%xmm0, 792(%rsp)
	movdqu	%xmm0, 808(%rsp)
	movdqu	%xmm0, 824(%rsp)
	movdqu	%xmm0, 840(%rsp)
	movq	$0, 856(%rsp)
	movq	%r12, 864(%rsp)
	movdqu	%xmm0, 872(%rsp)
	movq	%r12, 888(%rsp)
	movdqa	%xmm0, 896(%rsp)
	movq	%r12, 912(%rsp)
	movdqu	%xmm0, 920(%rsp)
	movq	%r12, 936(%rsp)
	movdqa	%xmm0, 944(%rsp)
	movdqa	%xmm0, 960(%rsp)
	movdqa	%xmm0, 976(%rsp)
	movdqa	%xmm0, 992(%rsp)
	movq	$0, 1008(%rsp)
	movq	%r12, 1200(%rsp)
	movdqu	%xmm0, 1208(%rsp)
	movq	%rcx, 40(%rsp)
	testq	%rcx, %rcx
	je	91f
	xorl	%r15d, %r15d
	xorl	%ecx, %ecx
	xorl	%edx, %edx
	xorl	%r14d, %r14d
	.p2align	4
1:
	leaq	(%r14,%r14,2), %rax
	movq	144(%rsp), %rsi
	movq	(%rsi,%rax,8), %r13
	movq	8(%rsi,%rax,8), %rbx
	pxor	%xmm0, %xmm0
	movdqa	%xmm0, 1312(%rsp)
	movdqa	%xmm0, 1296(%rsp)
	movdqa	%xmm0, 1280(%rsp)
	movdqa	%xmm0, 1264(%rsp)
	cmpb	$2, %cl
	je	2f
	movzbl	%cl, %eax
	cmpl	$1, %eax
	jne	4f
	movzbl	%dl, %edx
	leaq	1264(%rsp), %rdi
	leaq	736(%rsp), %rsi
	movq	%r13, %rcx
	movq	%rbx, %r8
	callq	b2sum_commands..options..take_value_1_x86
	cmpb	$0, 1264(%rsp)
	je	49f
	jmp	106f
	.p2align	4
2:
	testq	%rbx, %rbx
	je	7f
	js	126f
	movl	$1, %esi
	movq	%rbx, %rdi
	vj_call	rattle_alloc
	testb	$1, %al
	je	125f
	movq	%rdx, %rbp
	movq	%rbp, %rcx
	subq	%r13, %rcx
	cmpq	%rbx, %rcx
	jae	8f
3:
	xorl	%eax, %eax
	cmpq	$4, %rbx
	jb	24f
	cmpq	$32, %rcx
	jb	24f
	cmpq	$32, %rbx
	jae	20f
	xorl	%eax, %eax
	jmp	22f
	.p2align	4
4:
	cmpq	$2, %rbx
	jne	5f
	cmpb	$45, (%r13)
	jne	37f
	movb	$2, %cl
	cmpb	$45, 1(%r13)
	jne	12f
	jmp	50f
5:
	jae	9f
	testq	%rbx, %rbx
	jne	37f
	leaq	24(%rsp), %rbp
	movb	$1, %r12b
	movq	%rbp, %rcx
	subq	%r13, %rcx
	cmpq	%rbx, %rcx
	jb	38f
6:
	movq	%rbp, %rdi
	movq	%r13, %rsi
	movq	%rbx, %rdx
	vj_c_call	memmove
	jmp	47f
7:
	leaq	24(%rsp), %rbp
	movq	%rbp, %rcx
	subq	%r13, %rcx
	cmpq	%rbx, %rcx
	jb	3b
8:
	movq	%rbp, %rdi
	movq	%r13, %rsi
	movq	%rbx, %rdx
	vj_c_call	memmove
	jmp	28f
9:
	movzbl	(%r13), %eax
	cmpb	$45, %al
	jne	11f
	cmpb	$45, 1(%r13)
	jne	11f
	leaq	2(%r13), %rcx
	leaq	-2(%rbx), %r8
	movdqa	%xmm0, 1024(%rsp)
	movdqa	%xmm0, 1040(%rsp)
	movdqa	%xmm0, 1056(%rsp)
	movdqa	%xmm0, 1072(%rsp)
	movdqa	%xmm0, 576(%rsp)
	movdqa	%xmm0, 592(%rsp)
	movdqa	%xmm0, 608(%rsp)
	movdqa	%xmm0, 624(%rsp)
	addq	$3, %r13
	xorl	%ebp, %ebp
	.p2align	4
10:
	cmpb	$61, -1(%r13)
	je	32f
	incq	%rbp
	incq	%r13
	cmpq	%rbp, %r8
	jne	10b
	leaq	1024(%rsp), %rdi
	movq	%rcx, %rsi
	movq	%r8, %rdx
	callq	b2sum_commands..options..long_flag_1_x86
	cmpb	$0, 1024(%rsp)
	je	59f
	movzbl	1032(%rsp), %r13d
	movzbl	1040(%rsp), %r11d
	movzbl	1043(%rsp), %eax
	shll	$16, %eax
	movzwl	1041(%rsp), %ebp
	orl	%eax, %ebp
	movzbl	1044(%rsp), %ebx
	movzbl	1047(%rsp), %eax
	shll	$16, %eax
	movzwl	1045(%rsp), %r8d
	orl	%eax, %r8d
	movsd	1048(%rsp), %xmm0
	movaps	%xmm0, 80(%rsp)
	movq	1056(%rsp), %r9
	movq	1064(%rsp), %r10
	movb	$1, %al
	movdqa	1072(%rsp), %xmm0
	jmp	33f
11:
	cmpb	$45, %al
	jne	36f
12:
	movdqa	%xmm0, 1024(%rsp)
	movdqa	%xmm0, 1040(%rsp)
	addq	$-2, %rbx
	addq	$2, %r13
	jmp	15f
13:
	movw	$1, 993(%rsp)
	.p2align	4
14:
	incq	%r13
	addq	$-1, %rbx
	jae	30f
15:
	movzbl	-1(%r13), %esi
	movl	%esi, %eax
	addl	$-97, %eax
	cmpl	$25, %eax
	ja	54f
	leaq	.L1_x86_JTI4_1(%rip), %rcx
	movslq	(%rcx,%rax,4), %rax
	addq	%rcx, %rax
	notrack	jmpq	*%rax
16:
	movw	$257, 993(%rsp)
	jmp	14b
17:
	movb	$1, 998(%rsp)
	jmp	14b
18:
	movb	$1, 992(%rsp)
	jmp	14b
19:
	movb	$1, 996(%rsp)
	jmp	14b
20:
	movq	%rbx, %rax
	andq	$-32, %rax
	xorl	%ecx, %ecx
	.p2align	4
21:
	movdqu	(%r13,%rcx), %xmm0
	movdqu	16(%r13,%rcx), %xmm1
	movdqu	%xmm0, (%rbp,%rcx)
	movdqu	%xmm1, 16(%rbp,%rcx)
	addq	$32, %rcx
	cmpq	%rcx, %rax
	jne	21b
	cmpq	%rax, %rbx
	je	28f
	testb	$28, %bl
	je	24f
22:
	movq	%rax, %rcx
	movq	%rbx, %rax
	andq	$-4, %rax
	.p2align	4
23:
	movl	(%r13,%rcx), %edx
	movl	%edx, (%rbp,%rcx)
	addq	$4, %rcx
	cmpq	%rcx, %rax
	jne	23b
	cmpq	%rax, %rbx
	je	28f
24:
	movq	%rbx, %rdx
	movq	%rax, %rcx
	andq	$3, %rdx
	je	26f
	movq	%rax, %rcx
	.p2align	4
25:
	movzbl	(%r13,%rcx), %esi
	movb	%sil, (%rbp,%rcx)
	incq	%rcx
	decq	%rdx
	jne	25b
26:
	subq	%rbx, %rax
	cmpq	$-4, %rax
	ja	28f
	.p2align	4
27:
	movzbl	(%r13,%rcx), %eax
	movb	%al, (%rbp,%rcx)
	movzbl	1(%r13,%rcx), %eax
	movb	%al, 1(%rbp,%rcx)
	movzbl	2(%r13,%rcx), %eax
	movb	%al, 2(%rbp,%rcx)
	movzbl	3(%r13,%rcx), %eax
	movb	%al, 3(%rbp,%rcx)
	addq	$4, %rcx
	cmpq	%rcx, %rbx
	jne	27b
	.p2align	4
28:
	cmpq	%r15, 1216(%rsp)
	je	51f
29:
	leaq	(%r15,%r15,2), %rax
	movq	%rbp, (%r12,%rax,8)
	movq	%rbx, 8(%r12,%rax,8)
	movq	%rbx, 16(%r12,%rax,8)
	incq	%r15
	movq	%r15, 1208(%rsp)
	movb	$2, %cl
	jmp	50f
30:
	xorl	%ebp, %ebp
	pxor	%xmm0, %xmm0
	movdqa	%xmm0, 48(%rsp)
	movdqa	%xmm0, 80(%rsp)
	xorl	%r8d, %r8d
	xorl	%r11d, %r11d
	xorl	%ebx, %ebx
	xorl	%r9d, %r9d
	xorl	%r10d, %r10d
	xorl	%eax, %eax
	xorl	%ecx, %ecx
	xorl	%edx, %edx
	xorl	%esi, %esi
	xorl	%r13d, %r13d
	movl	%ecx, %edi
	testb	%al, %al
	jne	165f
	.p2align	4
31:
	incq	%r14
	cmpq	40(%rsp), %r14
	jne	1b
	jmp	89f
32:
	leaq	576(%rsp), %rdi
	movq	%rcx, %rsi
	movq	%rbp, %rdx
	callq	b2sum_commands..options..long_flag_1_x86
	cmpb	$0, 576(%rsp)
	je	57f
	movzbl	584(%rsp), %r13d
	movzbl	592(%rsp), %r11d
	movzbl	595(%rsp), %eax
	shll	$16, %eax
	movzwl	593(%rsp), %ebp
	orl	%eax, %ebp
	movzbl	596(%rsp), %ebx
	movzbl	599(%rsp), %eax
	shll	$16, %eax
	movzwl	597(%rsp), %r8d
	orl	%eax, %r8d
	movsd	600(%rsp), %xmm0
	movaps	%xmm0, 80(%rsp)
	movq	608(%rsp), %r9
	movq	616(%rsp), %r10
	movb	$1, %al
	movdqa	624(%rsp), %xmm0
33:
	movdqa	%xmm0, 48(%rsp)
34:
	xorl	%ecx, %ecx
	xorl	%edx, %edx
35:
	xorl	%edi, %edi
	xorl	%esi, %esi
	testb	%al, %al
	je	31b
	jmp	165f
36:
	testq	%rbx, %rbx
	js	163f
37:
	movl	$1, %esi
	movq	%rbx, %rdi
	vj_call	rattle_alloc
	testb	$1, %al
	je	163f
	movq	%rdx, %rbp
	xorl	%r12d, %r12d
	movq	%rbp, %rcx
	subq	%r13, %rcx
	cmpq	%rbx, %rcx
	jae	6b
38:
	xorl	%eax, %eax
	cmpq	$4, %rbx
	jb	43f
	cmpq	$32, %rcx
	jb	43f
	cmpq	$32, %rbx
	jae	39f
	xorl	%eax, %eax
	jmp	41f
39:
	movq	%rbx, %rax
	andq	$-32, %rax
	xorl	%ecx, %ecx
	.p2align	4
40:
	movdqu	(%r13,%rcx), %xmm0
	movdqu	16(%r13,%rcx), %xmm1
	movdqu	%xmm0, (%rbp,%rcx)
	movdqu	%xmm1, 16(%rbp,%rcx)
	addq	$32, %rcx
	cmpq	%rcx, %rax
	jne	40b
	cmpq	%rax, %rbx
	je	47f
	testb	$28, %bl
	je	43f
41:
	movq	%rax, %rcx
	movq	%rbx, %rax
	andq	$-4, %rax
	.p2align	4
42:
	movl	(%r13,%rcx), %edx
	movl	%edx, (%rbp,%rcx)
	addq	$4, %rcx
	cmpq	%rcx, %rax
	jne	42b
	cmpq	%rax, %rbx
	je	47f
43:
	movq	%rbx, %rdx
	movq	%rax, %rcx
	andq	$3, %rdx
	je	45f
	movq	%rax, %rcx
	.p2align	4
44:
	movzbl	(%r13,%rcx), %esi
	movb	%sil, (%rbp,%rcx)
	incq	%rcx
	decq	%rdx
	jne	44b
45:
	subq	%rbx, %rax
	cmpq	$-4, %rax
	ja	47f
	.p2align	4
46:
	movzbl	(%r13,%rcx), %eax
	movb	%al, (%rbp,%rcx)
	movzbl	1(%r13,%rcx), %eax
	movb	%al, 1(%rbp,%rcx)
	movzbl	2(%r13,%rcx), %eax
	movb	%al, 2(%rbp,%rcx)
	movzbl	3(%r13,%rcx), %eax
	movb	%al, 3(%rbp,%rcx)
	addq	$4, %rcx
	cmpq	%rcx, %rbx
	jne	46b
47:
	cmpq	%r15, 1216(%rsp)
	je	52f
48:
	movq	1200(%rsp), %r12
	leaq	(%r15,%r15,2), %rax
	movq	%rbp, (%r12,%rax,8)
	movq	%rbx, 8(%r12,%rax,8)
	movq	%rbx, 16(%r12,%rax,8)
	incq	%r15
	movq	%r15, 1208(%rsp)
49:
	xorl	%ecx, %ecx
50:
	xorl	%esi, %esi
	xorl	%edi, %edi
	xorl	%edx, %edx
	incq	%r14
	cmpq	40(%rsp), %r14
	jne	1b
	jmp	89f
51:
	leaq	1200(%rsp), %rdi
	movl	$1, %esi
	callq	std_alloc..vec..Vec..grow_amortized..bb23d2d2a8e2d2e5_1_x86
	testb	%al, %al
	je	159f
	movq	1200(%rsp), %r12
	movq	1208(%rsp), %r15
	jmp	29b
52:
	leaq	1200(%rsp), %rdi
	movl	$1, %esi
	callq	std_alloc..vec..Vec..grow_amortized..bb23d2d2a8e2d2e5_1_x86
	testb	%al, %al
	je	162f
	movq	1208(%rsp), %r15
	jmp	48b
53:
	movb	$1, %dl
	jmp	56f
54:
	movb	%sil, 384(%rsp)
	movq	$1, (%rsp)
	leaq	.L1_x86_static.41(%rip), %rsi
	leaq	.L1_x86_static.5(%rip), %r9
	leaq	1024(%rsp), %rdi
	leaq	384(%rsp), %rcx
	movl	$19, %edx
	movl	$1, %r8d
	callq	b2sum_commands..options..joined_1_x86
	movb	$1, %al
	cmpb	$0, 1024(%rsp)
	je	64f
	pxor	%xmm0, %xmm0
	movdqa	%xmm0, 48(%rsp)
	movdqa	%xmm0, 80(%rsp)
	movb	$4, %r13b
	xorl	%ebp, %ebp
	xorl	%r8d, %r8d
	xorl	%r11d, %r11d
	xorl	%ebx, %ebx
	xorl	%r9d, %r9d
	jmp	65f
55:
	xorl	%edx, %edx
56:
	pxor	%xmm1, %xmm1
	movdqa	%xmm1, 432(%rsp)
	movdqa	%xmm1, 416(%rsp)
	movdqa	%xmm1, 400(%rsp)
	pxor	%xmm0, %xmm0
	movdqa	%xmm0, 80(%rsp)
	movdqa	%xmm1, 384(%rsp)
	testq	%rbx, %rbx
	je	61f
	movzbl	%dl, %edx
	leaq	384(%rsp), %rdi
	leaq	736(%rsp), %rsi
	movq	%r13, %rcx
	movq	%rbx, %r8
	callq	b2sum_commands..options..take_value_1_x86
	cmpb	$0, 384(%rsp)
	je	62f
	movzbl	392(%rsp), %r13d
	movzbl	400(%rsp), %r11d
	movzbl	403(%rsp), %eax
	shll	$16, %eax
	movzwl	401(%rsp), %ebp
	orl	%eax, %ebp
	movzbl	404(%rsp), %ebx
	movzbl	407(%rsp), %eax
	shll	$16, %eax
	movzwl	405(%rsp), %r8d
	orl	%eax, %r8d
	movsd	408(%rsp), %xmm0
	movaps	%xmm0, 80(%rsp)
	movq	416(%rsp), %r9
	movq	424(%rsp), %r10
	movb	$1, %al
	movdqa	432(%rsp), %xmm0
	movdqa	%xmm0, 48(%rsp)
	jmp	66f
57:
	subq	%rbp, %rbx
	addq	$-3, %rbx
	movzbl	577(%rsp), %edx
	pxor	%xmm0, %xmm0
	movdqa	%xmm0, 672(%rsp)
	movdqa	%xmm0, 688(%rsp)
	movdqa	%xmm0, 384(%rsp)
	movdqa	%xmm0, 400(%rsp)
	movdqa	%xmm0, 416(%rsp)
	movdqa	%xmm0, 432(%rsp)
	movl	$1073658880, %eax
	btl	%edx, %eax
	jae	63f
	addb	$-10, %dl
	leaq	.L1_x86_switch.table.b2sum_commands..program..run_words..82a450bcca081e63_1_x86(%rip), %rax
	movzbl	%dl, %ecx
	movq	(%rax,%rcx,8), %r8
	leaq	.L1_x86_switch.table.b2sum_commands..program..run_words..82a450bcca081e63.394.rel_1_x86(%rip), %rax
	movslq	(%rax,%rcx,4), %rcx
	addq	%rax, %rcx
	movq	$27, (%rsp)
	leaq	.L1_x86_static.37(%rip), %rsi
	leaq	.L1_x86_static.40(%rip), %r9
	leaq	672(%rsp), %rdi
	movl	$10, %edx
	callq	b2sum_commands..options..joined_1_x86
	movb	$1, %al
	cmpb	$0, 672(%rsp)
	je	67f
	pxor	%xmm0, %xmm0
	movdqa	%xmm0, 48(%rsp)
	movdqa	%xmm0, 80(%rsp)
	movb	$4, %r13b
58:
	xorl	%ebp, %ebp
	xorl	%r8d, %r8d
	xorl	%r11d, %r11d
	xorl	%ebx, %ebx
	xorl	%r9d, %r9d
	xorl	%r10d, %r10d
	jmp	34b
59:
	movzbl	1025(%rsp), %edx
	movzbl	%dl, %esi
	pxor	%xmm0, %xmm0
	movdqa	%xmm0, 48(%rsp)
	movdqa	%xmm0, 80(%rsp)
	movb	$1, %cl
	xorl	%ebp, %ebp
	xorl	%r10d, %r10d
	xorl	%r9d, %r9d
	xorl	%r11d, %r11d
	movl	$1073658880, %eax
	btl	%esi, %eax
	movl	$0, %r8d
	movl	$0, %ebx
	movl	$0, %eax
	movl	$0, %r13d
	jae	35b
	xorl	%ebp, %ebp
	addl	$-10, %esi
	leaq	.L1_x86_JTI4_0(%rip), %rax
	movslq	(%rax,%rsi,4), %rcx
	addq	%rax, %rcx
	notrack	jmpq	*%rcx
60:
	movdqa	%xmm0, 48(%rsp)
	movdqa	%xmm0, 80(%rsp)
	jmp	88f
61:
	movb	$1, %cl
	xorl	%r8d, %r8d
	xorl	%ebp, %ebp
	xorl	%r11d, %r11d
	xorl	%ebx, %ebx
	xorl	%r9d, %r9d
	xorl	%r10d, %r10d
	xorl	%eax, %eax
	xorl	%r13d, %r13d
	movdqa	%xmm0, 48(%rsp)
	movl	%ecx, %edi
	testb	%al, %al
	je	31b
	jmp	165f
62:
	xorl	%r8d, %r8d
	xorl	%ebp, %ebp
	xorl	%r11d, %r11d
	xorl	%ebx, %ebx
	xorl	%r9d, %r9d
	xorl	%r10d, %r10d
	xorl	%eax, %eax
	xorl	%ecx, %ecx
	xorl	%edx, %edx
	xorl	%esi, %esi
	xorl	%r13d, %r13d
	pxor	%xmm0, %xmm0
	movdqa	%xmm0, 48(%rsp)
	movl	%ecx, %edi
	testb	%al, %al
	je	31b
	jmp	165f
63:
	leaq	384(%rsp), %rdi
	leaq	736(%rsp), %rsi
	movq	%r13, %rcx
	movq	%rbx, %r8
	callq	b2sum_commands..options..take_value_1_x86
	cmpb	$0, 384(%rsp)
	je	68f
	movzbl	392(%rsp), %r13d
	movzbl	400(%rsp), %r11d
	movzbl	403(%rsp), %eax
	shll	$16, %eax
	movzwl	401(%rsp), %ebp
	orl	%eax, %ebp
	movzbl	404(%rsp), %ebx
	movzbl	407(%rsp), %eax
	shll	$16, %eax
	movzwl	405(%rsp), %r8d
	orl	%eax, %r8d
	movsd	408(%rsp), %xmm0
	movaps	%xmm0, 80(%rsp)
	movq	416(%rsp), %r9
	movq	424(%rsp), %r10
	movb	$1, %al
	movdqa	432(%rsp), %xmm0
	jmp	33b
64:
	movzbl	1032(%rsp), %r11d
	movzbl	1036(%rsp), %ebx
	movzbl	1035(%rsp), %ecx
	shll	$16, %ecx
	movzwl	1033(%rsp), %ebp
	orl	%ecx, %ebp
	movzbl	1039(%rsp), %ecx
	shll	$16, %ecx
	movzwl	1037(%rsp), %r8d
	orl	%ecx, %r8d
	movq	1040(%rsp), %xmm0
	movdqa	%xmm0, 80(%rsp)
	pxor	%xmm0, %xmm0
	movdqa	%xmm0, 48(%rsp)
	movb	$2, %r13b
	movq	1048(%rsp), %r9
65:
	xorl	%r10d, %r10d
66:
	xorl	%ecx, %ecx
	xorl	%edx, %edx
	xorl	%esi, %esi
	movl	%ecx, %edi
	testb	%al, %al
	je	31b
	jmp	165f
67:
	movzbl	680(%rsp), %r11d
	movzbl	684(%rsp), %ebx
	movzbl	683(%rsp), %ecx
	shll	$16, %ecx
	movzwl	681(%rsp), %ebp
	orl	%ecx, %ebp
	movzbl	687(%rsp), %ecx
	shll	$16, %ecx
	movzwl	685(%rsp), %r8d
	orl	%ecx, %r8d
	movq	688(%rsp), %xmm0
	movdqa	%xmm0, 80(%rsp)
	pxor	%xmm0, %xmm0
	movdqa	%xmm0, 48(%rsp)
	movb	$2, %r13b
	movq	696(%rsp), %r9
	xorl	%r10d, %r10d
	jmp	34b
68:
	pxor	%xmm0, %xmm0
	movdqa	%xmm0, 48(%rsp)
	movdqa	%xmm0, 80(%rsp)
	xorl	%ebp, %ebp
	xorl	%r8d, %r8d
	xorl	%r11d, %r11d
	xorl	%ebx, %ebx
	xorl	%r9d, %r9d
	xorl	%r10d, %r10d
	xorl	%eax, %eax
	xorl	%r13d, %r13d
	jmp	34b
69:
	movb	$1, 999(%rsp)
	jmp	87f
70:
	movb	$3, 998(%rsp)
	jmp	87f
71:
	movb	$1, 997(%rsp)
	jmp	87f
72:
	movb	$1, 1013(%rsp)
	jmp	87f
73:
	movb	$1, 992(%rsp)
	jmp	87f
74:
	movb	$1, 1010(%rsp)
	jmp	87f
75:
	movb	$1, 998(%rsp)
	jmp	87f
76:
	movb	$2, 998(%rsp)
	jmp	87f
77:
	movw	$1, 993(%rsp)
	jmp	87f
78:
	movb	$1, 1011(%rsp)
	jmp	87f
79:
	movb	$1, 1008(%rsp)
	jmp	87f
80:
	movb	$1, 1009(%rsp)
	jmp	87f
81:
	movb	$1, 1012(%rsp)
82:
	movb	$1, 995(%rsp)
83:
	movw	$257, 993(%rsp)
	jmp	87f
84:
	movb	$1, %bpl
85:
	movl	%ebp, %r13d
	movdqa	%xmm0, 48(%rsp)
	movdqa	%xmm0, 80(%rsp)
	movb	$1, %al
	jmp	58b
86:
	movb	$1, 996(%rsp)
87:
	movdqa	%xmm0, 48(%rsp)
	movdqa	%xmm0, 80(%rsp)
	xorl	%ebp, %ebp
88:
	xorl	%r8d, %r8d
	xorl	%r11d, %r11d
	xorl	%ebx, %ebx
	xorl	%r9d, %r9d
	xorl	%r10d, %r10d
	xorl	%eax, %eax
	xorl	%ecx, %ecx
	xorl	%edx, %edx
	xorl	%r13d, %r13d
	jmp	35b
89:
	cmpb	$1, %cl
	jne	90f
	pxor	%xmm0, %xmm0
	movdqa	%xmm0, 384(%rsp)
	movdqa	%xmm0, 400(%rsp)
	testb	%dil, %dil
	je	107f
	movb	%sil, 1024(%rsp)
	movq	$1, (%rsp)
	leaq	.L1_x86_static.63(%rip), %rsi
	leaq	.L1_x86_static.5(%rip), %r9
	leaq	384(%rsp), %rdi
	leaq	1024(%rsp), %rcx
	movl	$32, %edx
	movl	$1, %r8d
	jmp	108f
90:
	movq	944(%rsp), %r12
	testq	%r15, %r15
	jne	93f
	testq	%r12, %r12
	je	91f
	testb	$1, 992(%rsp)
	jne	91f
	xorl	%r15d, %r15d
	jmp	93f
91:
	movl	$1, %edi
	movl	$1, %esi
	vj_call	rattle_alloc
	testb	$1, %al
	je	94f
	movb	$45, (%rdx)
	cmpq	$0, 1216(%rsp)
	je	152f
	xorl	%r15d, %r15d
92:
	movq	1200(%rsp), %rax
	leaq	(%r15,%r15,2), %rcx
	movq	%rdx, (%rax,%rcx,8)
	movq	$1, 8(%rax,%rcx,8)
	movq	$1, 16(%rax,%rcx,8)
	incq	%r15
	movq	944(%rsp), %r12
93:
	movq	736(%rsp), %rsi
	movzbl	744(%rsp), %eax
	movb	%al, 1368(%rsp)
	movzbl	748(%rsp), %eax
	movb	%al, 176(%rsp)
	movl	752(%rsp), %eax
	movl	%eax, 48(%rsp)
	movq	760(%rsp), %rax
	movq	768(%rsp), %r13
	movq	776(%rsp), %r8
	movq	784(%rsp), %rcx
	movq	%rcx, 312(%rsp)
	movzbl	792(%rsp), %ecx
	movq	%rcx, 80(%rsp)
	movq	800(%rsp), %rcx
	movq	%rcx, 136(%rsp)
	movq	808(%rsp), %rcx
	movq	%rcx, 272(%rsp)
	movzbl	824(%rsp), %r10d
	movzbl	992(%rsp), %ebp
	movzbl	994(%rsp), %ecx
	movb	%cl, 256(%rsp)
	movzbl	995(%rsp), %ecx
	movb	%cl, 284(%rsp)
	movzbl	1000(%rsp), %ecx
	movb	%cl, 191(%rsp)
	movzbl	1009(%rsp), %ecx
	movb	%cl, 168(%rsp)
	movzbl	1010(%rsp), %r11d
	movzbl	1012(%rsp), %ecx
	movq	%rsi, %rbx
	shrq	$32, %rbx
	pxor	%xmm0, %xmm0
	movdqa	%xmm0, 576(%rsp)
	movdqa	%xmm0, 592(%rsp)
	movdqa	%xmm0, 1264(%rsp)
	movdqa	%xmm0, 1280(%rsp)
	movzbl	1013(%rsp), %r9d
	movq	816(%rsp), %rdx
	movq	%rdx, 40(%rsp)
	movzbl	825(%rsp), %edx
	movq	%rdx, 128(%rsp)
	movzbl	832(%rsp), %edx
	movq	%rdx, 120(%rsp)
	movq	840(%rsp), %rdx
	movq	%rdx, 232(%rsp)
	movq	848(%rsp), %rdx
	movq	%rdx, 568(%rsp)
	movq	856(%rsp), %rdx
	movq	%rdx, 216(%rsp)
	movq	864(%rsp), %rdx
	movq	%rdx, 248(%rsp)
	movq	872(%rsp), %rdx
	movq	%rdx, 360(%rsp)
	movq	880(%rsp), %rdx
	movq	%rdx, 336(%rsp)
	movq	888(%rsp), %rdx
	movq	%rdx, 192(%rsp)
	movq	896(%rsp), %rdx
	movq	%rdx, 264(%rsp)
	movq	904(%rsp), %rdx
	movq	%rdx, 240(%rsp)
	movq	912(%rsp), %rdx
	movq	%rdx, 304(%rsp)
	movq	920(%rsp), %rdx
	movq	%rdx, 1360(%rsp)
	movq	928(%rsp), %rdx
	movq	%rdx, 288(%rsp)
	movq	936(%rsp), %rdx
	movq	%rdx, 64(%rsp)
	movq	952(%rsp), %rdx
	movq	%rdx, 224(%rsp)
	movzbl	960(%rsp), %edx
	movq	%rdx, 96(%rsp)
	movq	968(%rsp), %r14
	movq	976(%rsp), %rdx
	movq	%rdx, 352(%rsp)
	movq	984(%rsp), %rdx
	movq	%rdx, 200(%rsp)
	movzbl	993(%rsp), %edi
	movzbl	996(%rsp), %edx
	movq	%rdx, 368(%rsp)
	movzbl	997(%rsp), %edx
	movq	%rdx, 296(%rsp)
	movzbl	998(%rsp), %edx
	movl	%edx, 328(%rsp)
	movzbl	999(%rsp), %edx
	movl	%edx, 1248(%rsp)
	movl	1004(%rsp), %edx
	movl	%edx, 1404(%rsp)
	movzbl	1008(%rsp), %edx
	movq	%rdx, 144(%rsp)
	movzbl	1011(%rsp), %edx
	movq	%rdx, 320(%rsp)
	movdqa	%xmm0, 736(%rsp)
	movdqa	%xmm0, 752(%rsp)
	movdqa	%xmm0, 384(%rsp)
	movdqa	%xmm0, 400(%rsp)
	movdqa	%xmm0, 1024(%rsp)
	movdqa	%xmm0, 1040(%rsp)
	movq	1200(%rsp), %rdx
	movq	%rdx, 72(%rsp)
	movq	1216(%rsp), %rdx
	movq	%rdx, 376(%rsp)
	movq	%rsi, 32(%rsp)
	movzbl	%sil, %edx
	leaq	.L1_x86_switch.table.b2sum_commands..program..run_words..82a450bcca081e63.397_1_x86(%rip), %rsi
	cmpq	(%rsi,%rdx,8), %rax
	movq	%r13, 1192(%rsp)
	jbe	105f
	movq	$0, (%rsp)
	leaq	.L1_x86_static.61(%rip), %rsi
	leaq	.L1_x86_static.1(%rip), %r9
	leaq	736(%rsp), %rdi
	movl	$16, %edx
	movq	%r13, %rcx
	callq	b2sum_commands..options..joined_1_x86
	movl	$4, %eax
	movq	%rax, 176(%rsp)
	cmpb	$0, 736(%rsp)
	je	127f
	xorl	%edx, %edx
	movq	$0, 168(%rsp)
	movq	$0, 256(%rsp)
	movq	$0, 128(%rsp)
	xorl	%eax, %eax
	pxor	%xmm0, %xmm0
	movq	72(%rsp), %r13
	movq	64(%rsp), %rbp
	jmp	130f
94:
	movq	1200(%rsp), %rbx
	movq	1216(%rsp), %r14
95:
	testq	%r14, %r14
	je	96f
	movq	%rbx, %rdi
	vj_call	rattle_dealloc
96:
	cmpq	$0, 784(%rsp)
	je	97f
	movq	768(%rsp), %rdi
	vj_call	rattle_dealloc
97:
	cmpb	$1, 792(%rsp)
	jne	98f
	cmpq	$0, 816(%rsp)
	je	98f
	movq	800(%rsp), %rdi
	vj_call	rattle_dealloc
98:
	cmpb	$1, 832(%rsp)
	jne	99f
	cmpq	$0, 856(%rsp)
	je	99f
	movq	840(%rsp), %rdi
	vj_call	rattle_dealloc
99:
	cmpq	$0, 880(%rsp)
	je	100f
	movq	864(%rsp), %rdi
	vj_call	rattle_dealloc
100:
	cmpq	$0, 904(%rsp)
	je	101f
	movq	888(%rsp), %rdi
	vj_call	rattle_dealloc
101:
	cmpq	$0, 928(%rsp)
	je	102f
	movq	912(%rsp), %rdi
	vj_call	rattle_dealloc
102:
	movq	936(%rsp), %rbx
	movq	944(%rsp), %r15
	movq	952(%rsp), %r14
	testq	%r15, %r15
	je	121f
	leaq	16(%rbx), %r12
	jmp	104f
	.p2align	4
103:
	addq	$24, %r12
	decq	%r15
	je	121f
104:
	cmpq	$0, (%r12)
	je	103b
	movq	-16(%r12), %rdi
	vj_call	rattle_dealloc
	jmp	103b
105:
	cmpb	$1, %cl
	movq	%r14, 104(%rsp)
	jne	192f
	testb	$1, %bpl
	je	147f
	leaq	.L1_x86_static.74(%rip), %rsi
	movl	$57, %edx
	jmp	203f
106:
	movzbl	1272(%rsp), %r13d
	movzbl	1280(%rsp), %r11d
	movzbl	1283(%rsp), %eax
	shll	$16, %eax
	movzwl	1281(%rsp), %ebp
	orl	%eax, %ebp
	movzbl	1284(%rsp), %ebx
	movzbl	1287(%rsp), %eax
	shll	$16, %eax
	movzwl	1285(%rsp), %r8d
	orl	%eax, %r8d
	movsd	1288(%rsp), %xmm0
	movaps	%xmm0, 80(%rsp)
	movq	1296(%rsp), %r9
	movq	1304(%rsp), %r10
	movdqa	1312(%rsp), %xmm0
	movdqa	%xmm0, 48(%rsp)
	jmp	165f
107:
	leaq	.L1_x86_switch.table.b2sum_commands..program..run_words..82a450bcca081e63.395_1_x86(%rip), %rax
	movzbl	%dl, %ecx
	movq	(%rax,%rcx,8), %r8
	leaq	.L1_x86_switch.table.b2sum_commands..program..run_words..82a450bcca081e63.396.rel_1_x86(%rip), %rax
	movslq	(%rax,%rcx,4), %rcx
	addq	%rax, %rcx
	movq	$22, (%rsp)
	leaq	.L1_x86_static.37(%rip), %rsi
	leaq	.L1_x86_static.64(%rip), %r9
	leaq	384(%rsp), %rdi
	movl	$10, %edx
108:
	callq	b2sum_commands..options..joined_1_x86
	cmpb	$0, 384(%rsp)
	movq	1200(%rsp), %rbx
	movq	1216(%rsp), %r14
	je	131f
	testq	%r15, %r15
	je	111f
	leaq	16(%rbx), %r12
	jmp	110f
	.p2align	4
109:
	addq	$24, %r12
	decq	%r15
	je	111f
110:
	cmpq	$0, (%r12)
	je	109b
	movq	-16(%r12), %rdi
	vj_call	rattle_dealloc
	jmp	109b
111:
	testq	%r14, %r14
	je	112f
	movq	%rbx, %rdi
	vj_call	rattle_dealloc
112:
	cmpq	$0, 784(%rsp)
	je	113f
	movq	768(%rsp), %rdi
	vj_call	rattle_dealloc
113:
	cmpb	$1, 792(%rsp)
	jne	114f
	cmpq	$0, 816(%rsp)
	je	114f
	movq	800(%rsp), %rdi
	vj_call	rattle_dealloc
114:
	cmpb	$1, 832(%rsp)
	jne	115f
	cmpq	$0, 856(%rsp)
	je	115f
	movq	840(%rsp), %rdi
	vj_call	rattle_dealloc
115:
	cmpq	$0, 880(%rsp)
	je	116f
	movq	864(%rsp), %rdi
	vj_call	rattle_dealloc
116:
	cmpq	$0, 904(%rsp)
	je	117f
	movq	888(%rsp), %rdi
	vj_call	rattle_dealloc
117:
	cmpq	$0, 928(%rsp)
	je	118f
	movq	912(%rsp), %rdi
	vj_call	rattle_dealloc
118:
	movq	936(%rsp), %rbx
	movq	944(%rsp), %r15
	movq	952(%rsp), %r14
	testq	%r15, %r15
	je	121f
	leaq	16(%rbx), %r12
	jmp	120f
	.p2align	4
119:
	addq	$24, %r12
	decq	%r15
	je	121f
120:
	cmpq	$0, (%r12)
	je	119b
	movq	-16(%r12), %rdi
	vj_call	rattle_dealloc
	jmp	119b
121:
	testq	%r14, %r14
	je	122f
	movq	%rbx, %rdi
	vj_call	rattle_dealloc
122:
	xorl	%ebp, %ebp
	cmpb	$1, 960(%rsp)
	pxor	%xmm0, %xmm0
	movdqa	%xmm0, 48(%rsp)
	movdqa	%xmm0, 80(%rsp)
	movb	$4, %al
	jne	123f
	movq	%rax, 144(%rsp)
	cmpq	$0, 984(%rsp)
	je	124f
	movq	968(%rsp), %rdi
	vj_call	rattle_dealloc
	pxor	%xmm0, %xmm0
	movdqa	%xmm0, 48(%rsp)
	movdqa	%xmm0, 80(%rsp)
	xorl	%ebp, %ebp
	jmp	124f
123:
	movq	%rax, 144(%rsp)
124:
	xorl	%r13d, %r13d
	xorl	%ebx, %ebx
	xorl	%ecx, %ecx
	movq	$0, 40(%rsp)
	movq	$0, 32(%rsp)
	jmp	182f
125:
	pxor	%xmm0, %xmm0
126:
	movdqa	%xmm0, 48(%rsp)
	movdqa	%xmm0, 80(%rsp)
	xorl	%ebp, %ebp
	xorl	%r8d, %r8d
	xorl	%r11d, %r11d
	xorl	%ebx, %ebx
	xorl	%r9d, %r9d
	xorl	%r10d, %r10d
	movb	$4, %r13b
	jmp	165f
127:
	movq	%r14, 104(%rsp)
	movq	744(%rsp), %rax
	movq	%rax, 48(%rsp)
	movq	760(%rsp), %r14
	movdqa	752(%rsp), %xmm0
	movdqa	%xmm0, 144(%rsp)
	movq	32(%rsp), %r13
	movzbl	%r13b, %esi
	leaq	384(%rsp), %rdi
	movl	%ebx, %edx
	callq	b2sum_lines..entry..Algorithm..tag_1_x86
	cmpb	$0, 384(%rsp)
	je	148f
	testq	%r14, %r14
	movq	72(%rsp), %r13
	movq	64(%rsp), %rbp
	je	129f
128:
	movq	48(%rsp), %rdi
	vj_call	rattle_dealloc
129:
	xorl	%edx, %edx
	movq	$0, 168(%rsp)
	movq	$0, 256(%rsp)
	movq	$0, 128(%rsp)
	xorl	%eax, %eax
	pxor	%xmm0, %xmm0
	movq	104(%rsp), %r14
130:
	movq	%rdx, 32(%rsp)
	movq	%rax, 48(%rsp)
	testq	%r15, %r15
	movdqa	%xmm0, 144(%rsp)
	jne	210f
	jmp	213f
131:
	movzbl	392(%rsp), %eax
	movl	%eax, 64(%rsp)
	movzbl	396(%rsp), %eax
	movq	%rax, 72(%rsp)
	movzbl	395(%rsp), %r13d
	movzwl	393(%rsp), %ebp
	movzbl	399(%rsp), %eax
	movl	%eax, 144(%rsp)
	movzwl	397(%rsp), %eax
	movq	%rax, 48(%rsp)
	movq	400(%rsp), %xmm0
	movdqa	%xmm0, 80(%rsp)
	movq	408(%rsp), %rax
	movq	%rax, 40(%rsp)
	testq	%r15, %r15
	je	134f
	leaq	16(%rbx), %r12
	jmp	133f
	.p2align	4
132:
	addq	$24, %r12
	decq	%r15
	je	134f
133:
	cmpq	$0, (%r12)
	je	132b
	movq	-16(%r12), %rdi
	vj_call	rattle_dealloc
	jmp	132b
134:
	testq	%r14, %r14
	je	135f
	movq	%rbx, %rdi
	vj_call	rattle_dealloc
135:
	cmpq	$0, 784(%rsp)
	je	136f
	movq	768(%rsp), %rdi
	vj_call	rattle_dealloc
136:
	cmpb	$1, 792(%rsp)
	jne	137f
	cmpq	$0, 816(%rsp)
	je	137f
	movq	800(%rsp), %rdi
	vj_call	rattle_dealloc
137:
	cmpb	$1, 832(%rsp)
	jne	138f
	cmpq	$0, 856(%rsp)
	je	138f
	movq	840(%rsp), %rdi
	vj_call	rattle_dealloc
138:
	cmpq	$0, 880(%rsp)
	je	139f
	movq	864(%rsp), %rdi
	vj_call	rattle_dealloc
139:
	cmpq	$0, 904(%rsp)
	je	140f
	movq	888(%rsp), %rdi
	vj_call	rattle_dealloc
140:
	cmpq	$0, 928(%rsp)
	je	141f
	movq	912(%rsp), %rdi
	vj_call	rattle_dealloc
141:
	movq	936(%rsp), %rbx
	movq	944(%rsp), %r15
	movq	952(%rsp), %r14
	testq	%r15, %r15
	je	144f
	leaq	16(%rbx), %r12
	jmp	143f
	.p2align	4
142:
	addq	$24, %r12
	decq	%r15
	je	144f
143:
	cmpq	$0, (%r12)
	je	142b
	movq	-16(%r12), %rdi
	vj_call	rattle_dealloc
	jmp	142b
144:
	shll	$16, %r13d
	movl	144(%rsp), %r15d
	shll	$16, %r15d
	testq	%r14, %r14
	je	145f
	movq	%rbx, %rdi
	vj_call	rattle_dealloc
145:
	orl	%r13d, %ebp
	movq	48(%rsp), %r13
	orl	%r15d, %r13d
	cmpb	$1, 960(%rsp)
	pxor	%xmm0, %xmm0
	movdqa	%xmm0, 48(%rsp)
	movb	$2, %al
	movq	%rax, 144(%rsp)
	jne	151f
	cmpq	$0, 984(%rsp)
	movl	64(%rsp), %ebx
	je	146f
	movq	968(%rsp), %rdi
	vj_call	rattle_dealloc
146:
	movq	$0, 32(%rsp)
	jmp	181f
147:
	movl	$41, %edx
	testb	$1, 176(%rsp)
	je	150f
	leaq	.L1_x86_static.75(%rip), %rsi
	jmp	203f
148:
	movq	392(%rsp), %rbx
	movq	400(%rsp), %r8
	movq	408(%rsp), %rbp
	movzbl	%r13b, %eax
	leaq	.L1_x86_switch.table.b2sum_commands..program..run_words..82a450bcca081e63.398.rel_1_x86(%rip), %rcx
	movslq	(%rcx,%rax,4), %r9
	addq	%rcx, %r9
	movq	$13, (%rsp)
	leaq	.L1_x86_static.67(%rip), %rsi
	leaq	1024(%rsp), %rdi
	movl	$27, %edx
	movq	%rbx, %rcx
	callq	b2sum_commands..options..joined_1_x86
	cmpb	$0, 1024(%rsp)
	je	154f
	testq	%rbp, %rbp
	movq	72(%rsp), %r13
	je	149f
	movq	%rbx, %rdi
	vj_call	rattle_dealloc
149:
	testq	%r14, %r14
	movq	64(%rsp), %rbp
	jne	128b
	jmp	129b
150:
	testb	$1, 368(%rsp)
	je	153f
	leaq	.L1_x86_static.76(%rip), %rsi
	jmp	203f
151:
	movq	$0, 32(%rsp)
	jmp	180f
152:
	movq	%rdx, %rbx
	leaq	1200(%rsp), %rdi
	movl	$1, %esi
	callq	std_alloc..vec..Vec..grow_amortized..bb23d2d2a8e2d2e5_1_x86
	testb	%al, %al
	je	156f
	movq	1208(%rsp), %r15
	movq	%rbx, %rdx
	jmp	92b
153:
	movzbl	168(%rsp), %edx
	orb	%r11b, %dl
	testb	$1, %dl
	je	161f
	leaq	.L1_x86_static.77(%rip), %rsi
	movl	$55, %edx
	jmp	203f
154:
	testq	%rbp, %rbp
	movq	72(%rsp), %r13
	je	155f
	movq	%rbx, %rdi
	vj_call	rattle_dealloc
155:
	movq	1032(%rsp), %rdx
	movq	1040(%rsp), %rax
	movq	%rax, 168(%rsp)
	movzbl	1048(%rsp), %eax
	movq	%rax, 128(%rsp)
	movzbl	1055(%rsp), %eax
	shll	$16, %eax
	movzwl	1053(%rsp), %ecx
	orl	%eax, %ecx
	shlq	$32, %rcx
	movl	1049(%rsp), %eax
	orq	%rcx, %rax
	movq	%rax, 256(%rsp)
	movl	$3, %eax
	movq	%rax, 176(%rsp)
	movq	48(%rsp), %rax
	movq	104(%rsp), %r14
	movq	64(%rsp), %rbp
	movdqa	144(%rsp), %xmm0
	jmp	130b
156:
	movq	%rbx, %rdi
	vj_call	rattle_dealloc
	movq	1200(%rsp), %rbx
	movq	1208(%rsp), %r15
	movq	1216(%rsp), %r14
	testq	%r15, %r15
	je	95b
	leaq	16(%rbx), %r12
	jmp	158f
157:
	addq	$24, %r12
	decq	%r15
	je	95b
158:
	cmpq	$0, (%r12)
	je	157b
	movq	-16(%r12), %rdi
	vj_call	rattle_dealloc
	jmp	157b
159:
	movb	$4, %r13b
	testq	%rbx, %rbx
	je	160f
	movq	%rbp, %rdi
	vj_call	rattle_dealloc
160:
	pxor	%xmm0, %xmm0
	movdqa	%xmm0, 48(%rsp)
	movdqa	%xmm0, 80(%rsp)
	jmp	164f
161:
	movl	%edi, %edx
	xorb	$1, %dl
	orb	256(%rsp), %dl
	jne	191f
	leaq	.L1_x86_static.79(%rip), %rsi
	movl	$35, %edx
	jmp	203f
162:
	testb	%r12b, %r12b
	jne	163f
	movq	%rbp, %rdi
	vj_call	rattle_dealloc
163:
	pxor	%xmm0, %xmm0
	movdqa	%xmm0, 48(%rsp)
	movdqa	%xmm0, 80(%rsp)
	movb	$4, %r13b
164:
	xorl	%ebp, %ebp
	xorl	%r8d, %r8d
	xorl	%r11d, %r11d
	xorl	%ebx, %ebx
	xorl	%r9d, %r9d
	xorl	%r10d, %r10d
165:
	movq	%r13, 144(%rsp)
	movq	%rbx, 72(%rsp)
	movl	%r11d, 64(%rsp)
	movq	%r10, 32(%rsp)
	movq	%r9, 40(%rsp)
	movq	%r8, %r13
	movq	1200(%rsp), %rbx
	movq	1208(%rsp), %r15
	movq	1216(%rsp), %r14
	testq	%r15, %r15
	je	168f
	leaq	16(%rbx), %r12
	jmp	167f
	.p2align	4
166:
	addq	$24, %r12
	decq	%r15
	je	168f
167:
	cmpq	$0, (%r12)
	je	166b
	movq	-16(%r12), %rdi
	vj_call	rattle_dealloc
	jmp	166b
168:
	testq	%r14, %r14
	je	169f
	movq	%rbx, %rdi
	vj_call	rattle_dealloc
169:
	cmpq	$0, 784(%rsp)
	je	170f
	movq	768(%rsp), %rdi
	vj_call	rattle_dealloc
170:
	cmpb	$1, 792(%rsp)
	jne	171f
	cmpq	$0, 816(%rsp)
	je	171f
	movq	800(%rsp), %rdi
	vj_call	rattle_dealloc
171:
	cmpb	$1, 832(%rsp)
	jne	172f
	cmpq	$0, 856(%rsp)
	je	172f
	movq	840(%rsp), %rdi
	vj_call	rattle_dealloc
172:
	cmpq	$0, 880(%rsp)
	je	173f
	movq	864(%rsp), %rdi
	vj_call	rattle_dealloc
173:
	cmpq	$0, 904(%rsp)
	je	174f
	movq	888(%rsp), %rdi
	vj_call	rattle_dealloc
174:
	cmpq	$0, 928(%rsp)
	je	175f
	movq	912(%rsp), %rdi
	vj_call	rattle_dealloc
175:
	movq	936(%rsp), %rbx
	movq	944(%rsp), %r15
	movq	952(%rsp), %r14
	testq	%r15, %r15
	je	178f
	leaq	16(%rbx), %r12
	jmp	177f
	.p2align	4
176:
	addq	$24, %r12
	decq	%r15
	je	178f
177:
	cmpq	$0, (%r12)
	je	176b
	movq	-16(%r12), %rdi
	vj_call	rattle_dealloc
	jmp	176b
178:
	testq	%r14, %r14
	je	179f
	movq	%rbx, %rdi
	vj_call	rattle_dealloc
179:
	cmpb	$1, 960(%rsp)
	jne	180f
	cmpq	$0, 984(%rsp)
	movl	64(%rsp), %ebx
	je	181f
	movq	968(%rsp), %rdi
	vj_call	rattle_dealloc
	jmp	181f
180:
	movl	64(%rsp), %ebx
181:
	movq	72(%rsp), %rcx
182:
	movzbl	%bl, %eax
	shll	$8, %ebp
	orq	%rax, %rbp
	movzbl	%cl, %eax
	shlq	$32, %rax
	orq	%rbp, %rax
	shlq	$40, %r13
	orq	%rax, %r13
	movdqa	80(%rsp), %xmm0
	pextrd	$1, %xmm0, %eax
	shlq	$32, %rax
	movd	%xmm0, %edx
	movzbl	%dl, %ebx
	andl	$-256, %edx
	orq	%rax, %rdx
	orq	%rdx, %rbx
	movdqa	48(%rsp), %xmm0
	pextrq	$1, %xmm0, %rax
	movl	%eax, %edx
	shrq	$8, %rax
	movl	$0, 560(%rsp)
	movl	$0, 563(%rsp)
	movq	%xmm0, %r15
	shlq	$8, %rax
	movzbl	%dl, %r12d
	orq	%rax, %r12
	pxor	%xmm0, %xmm0
	movdqa	%xmm0, 1280(%rsp)
	movdqa	%xmm0, 1264(%rsp)
	movb	$1, %bpl
	xorl	%r14d, %r14d
	movzbl	144(%rsp), %eax
	leaq	.L1_x86_JTI4_3(%rip), %rdx
	movslq	(%rdx,%rax,4), %rax
	addq	%rdx, %rax
	notrack	jmpq	*%rax
183:
	movq	208(%rsp), %rax
	movq	(%rax), %rcx
	movq	8(%rax), %r8
	movq	$2827, (%rsp)
	leaq	.L1_x86_static.252(%rip), %rsi
	leaq	.L1_x86_static.253(%rip), %r9
	leaq	1264(%rsp), %rdi
	movl	$7, %edx
	callq	b2sum_commands..options..joined_1_x86
	cmpb	$0, 1264(%rsp)
	je	184f
	movb	$1, %bpl
	jmp	238f
184:
	movq	1272(%rsp), %rbx
	movq	1288(%rsp), %r15
	movq	112(%rsp), %rax
	testb	$1, 128(%rax)
	je	186f
185:
	movb	$1, %r14b
	testq	%r15, %r15
	je	231f
	movq	%rbx, %rdi
	vj_call	rattle_dealloc
	movb	$1, %bpl
	jmp	239f
186:
	movq	1280(%rsp), %r12
	testq	%r12, %r12
	je	188f
	xorl	%r13d, %r13d
	.p2align	4
187:
	leaq	(%rbx,%r13), %rsi
	movq	%r12, %r14
	subq	%r13, %r14
	movl	$1, %edi
	movq	%r14, %rdx
	vj_system_call	write, b2_write
	testq	%rax, %rax
	js	189f
	cmpq	%r14, %rax
	cmovbq	%rax, %r14
	testq	%r14, %r14
	je	190f
	addq	%r14, %r13
	cmpq	%r12, %r13
	jb	187b
188:
	movb	$1, %r14b
	testq	%r15, %r15
	je	242f
	movq	%rbx, %rdi
	vj_call	rattle_dealloc
	xorl	%ebp, %ebp
	jmp	239f
189:
	leaq	736(%rsp), %rdi
	callq	std_io..io..error..last_error_1_x86
	movq	736(%rsp), %rax
	movups	744(%rsp), %xmm0
	movaps	%xmm0, 384(%rsp)
	movups	760(%rsp), %xmm0
	movaps	%xmm0, 400(%rsp)
	movups	776(%rsp), %xmm0
	movaps	%xmm0, 416(%rsp)
	movups	792(%rsp), %xmm0
	movaps	%xmm0, 432(%rsp)
	movups	808(%rsp), %xmm0
	movaps	%xmm0, 448(%rsp)
	movq	112(%rsp), %rcx
	movq	$1, 128(%rcx)
	movq	%rax, 136(%rcx)
	movaps	384(%rsp), %xmm0
	movdqa	400(%rsp), %xmm1
	movdqa	416(%rsp), %xmm2
	movdqa	432(%rsp), %xmm3
	movups	%xmm0, 144(%rcx)
	movdqu	%xmm1, 160(%rcx)
	movdqu	%xmm2, 176(%rcx)
	movdqu	%xmm3, 192(%rcx)
	movdqa	448(%rsp), %xmm0
	movdqu	%xmm0, 208(%rcx)
	jmp	185b
190:
	movq	112(%rsp), %rax
	movq	$1, 128(%rax)
	movw	$5889, 136(%rax)
	pxor	%xmm0, %xmm0
	movdqu	%xmm0, 138(%rax)
	movdqu	%xmm0, 154(%rax)
	movdqu	%xmm0, 170(%rax)
	movdqu	%xmm0, 186(%rax)
	movdqu	%xmm0, 202(%rax)
	movq	$0, 216(%rax)
	jmp	185b
191:
	cmpb	$1, 80(%rsp)
	jne	202f
192:
	cmpb	$1, %r9b
	jne	193f
	cmpb	$1, %bpl
	jne	194f
	cmpb	$1, 80(%rsp)
	jne	196f
193:
	testq	%r12, %r12
	je	198f
	testb	$1, 96(%rsp)
	je	195f
	leaq	.L1_x86_static.83(%rip), %rsi
	movl	$48, %edx
	jmp	203f
194:
	leaq	.L1_x86_static.81(%rip), %rsi
	movl	$63, %edx
	jmp	203f
195:
	testb	$1, %bpl
	je	197f
	cmpb	$1, %r9b
	je	198f
	leaq	.L1_x86_static.85(%rip), %rsi
	movl	$62, %edx
	jmp	203f
196:
	leaq	.L1_x86_static.82(%rip), %rsi
	movl	$36, %edx
	jmp	203f
197:
	testb	$1, %r11b
	je	198f
	leaq	.L1_x86_static.84(%rip), %rsi
	movl	$45, %edx
	jmp	203f
198:
	movq	80(%rsp), %r8
	cmpb	$1, %r8b
	setne	%dl
	testb	%dl, 120(%rsp)
	je	199f
	leaq	.L1_x86_static.73(%rip), %rsi
	movl	$40, %edx
	movl	%r8d, %r14d
	jmp	204f
199:
	cmpb	$1, 96(%rsp)
	jne	647f
	testb	$1, %r9b
	je	200f
	leaq	.L1_x86_static.86(%rip), %rsi
	movl	$45, %edx
	jmp	203f
200:
	movl	1248(%rsp), %edx
	orb	296(%rsp), %dl
	testb	$1, %dl
	movq	80(%rsp), %r14
	je	201f
	leaq	.L1_x86_static.87(%rip), %rsi
	movl	$66, %edx
	jmp	651f
201:
	movzbl	32(%rsp), %edx
	leaq	.L1_x86_switch.table.b2sum_lines..writes..push_body_1_x86(%rip), %rsi
	movq	(%rsi,%rdx,8), %r8
	leaq	.L1_x86_static.88(%rip), %rsi
	movl	$59, %edx
	cmpq	352(%rsp), %r8
	jb	651f
	testq	%rax, %rax
	je	646f
	movq	352(%rsp), %r8
	leaq	(,%r8,8), %r8
	cmpq	%rax, %r8
	jne	203f
	jmp	647f
202:
	leaq	.L1_x86_static.80(%rip), %rsi
	movl	$34, %edx
203:
	movq	80(%rsp), %rax
	movl	%eax, %r14d
204:
	movq	$0, (%rsp)
	leaq	.L1_x86_static.1(%rip), %rcx
	leaq	576(%rsp), %rdi
	xorl	%r8d, %r8d
	movq	%rcx, %r9
	callq	b2sum_commands..options..joined_1_x86
	cmpb	$0, 576(%rsp)
	je	206f
	movq	$0, 256(%rsp)
	pxor	%xmm0, %xmm0
	movl	$4, %eax
	movq	%rax, 176(%rsp)
	movl	%r14d, %eax
	movq	%rax, 80(%rsp)
205:
	movq	$0, 32(%rsp)
	movq	$0, 168(%rsp)
	movq	$0, 128(%rsp)
	movq	$0, 48(%rsp)
	jmp	209f
206:
	movq	584(%rsp), %rax
	movq	%rax, 48(%rsp)
	movl	$2, %eax
	movq	%rax, 176(%rsp)
	movdqa	592(%rsp), %xmm0
	movq	$0, 32(%rsp)
	movl	%r14d, %eax
	movq	%rax, 80(%rsp)
207:
	movq	$0, 168(%rsp)
	movq	$0, 256(%rsp)
208:
	movq	$0, 128(%rsp)
209:
	movq	72(%rsp), %r13
	movq	104(%rsp), %r14
	movq	64(%rsp), %rbp
	testq	%r15, %r15
	movdqa	%xmm0, 144(%rsp)
	je	213f
210:
	leaq	16(%r13), %rbx
	jmp	212f
	.p2align	4
211:
	addq	$24, %rbx
	decq	%r15
	je	213f
212:
	cmpq	$0, (%rbx)
	je	211b
	movq	-16(%rbx), %rdi
	vj_call	rattle_dealloc
	movdqa	144(%rsp), %xmm0
	jmp	211b
213:
	cmpq	$0, 376(%rsp)
	je	214f
	movq	%r13, %rdi
	vj_call	rattle_dealloc
	movdqa	144(%rsp), %xmm0
214:
	cmpq	$0, 312(%rsp)
	je	215f
	movq	1192(%rsp), %rdi
	vj_call	rattle_dealloc
	movdqa	144(%rsp), %xmm0
215:
	cmpb	$1, 80(%rsp)
	setne	%al
	cmpq	$0, 40(%rsp)
	sete	%cl
	orb	%al, %cl
	movq	136(%rsp), %rdi
	jne	216f
	vj_call	rattle_dealloc
	movdqa	144(%rsp), %xmm0
216:
	cmpb	$1, 120(%rsp)
	setne	%al
	cmpq	$0, 216(%rsp)
	sete	%cl
	orb	%al, %cl
	jne	217f
	movq	232(%rsp), %rdi
	vj_call	rattle_dealloc
	movdqa	144(%rsp), %xmm0
217:
	cmpq	$0, 336(%rsp)
	je	218f
	movq	248(%rsp), %rdi
	vj_call	rattle_dealloc
	movdqa	144(%rsp), %xmm0
218:
	cmpq	$0, 240(%rsp)
	je	219f
	movq	192(%rsp), %rdi
	vj_call	rattle_dealloc
	movdqa	144(%rsp), %xmm0
219:
	cmpq	$0, 288(%rsp)
	je	220f
	movq	304(%rsp), %rdi
	vj_call	rattle_dealloc
	movdqa	144(%rsp), %xmm0
220:
	testq	%r12, %r12
	je	223f
	leaq	16(%rbp), %rbx
	jmp	222f
	.p2align	4
221:
	addq	$24, %rbx
	decq	%r12
	je	223f
222:
	cmpq	$0, (%rbx)
	je	221b
	movq	-16(%rbx), %rdi
	vj_call	rattle_dealloc
	movdqa	144(%rsp), %xmm0
	jmp	221b
223:
	cmpq	$0, 224(%rsp)
	je	224f
	movq	%rbp, %rdi
	vj_call	rattle_dealloc
	movdqa	144(%rsp), %xmm0
224:
	pextrq	$1, %xmm0, 40(%rsp)
	cmpb	$1, 96(%rsp)
	setne	%al
	cmpq	$0, 200(%rsp)
	sete	%cl
	orb	%al, %cl
	jne	225f
	movq	%r14, %rdi
	vj_call	rattle_dealloc
	movdqa	144(%rsp), %xmm0
225:
	movq	%xmm0, %rbp
	pextrb	$1, %xmm0, %r14d
	movq	%rbp, %rcx
	andq	$-65536, %rcx
	movl	$0, 1171(%rsp)
	movl	$0, 1168(%rsp)
	movb	$1, 312(%rsp)
	xorl	%eax, %eax
	xorl	%edi, %edi
	movq	$0, 232(%rsp)
	xorl	%r8d, %r8d
	xorl	%esi, %esi
	movq	$0, 1368(%rsp)
	movq	$0, 248(%rsp)
	xorl	%r9d, %r9d
	movq	$0, 336(%rsp)
	movq	$0, 192(%rsp)
	movq	$0, 264(%rsp)
	movq	$0, 240(%rsp)
	movq	$0, 64(%rsp)
	xorl	%r12d, %r12d
	movq	$0, 224(%rsp)
	movq	$0, 96(%rsp)
	movq	$0, 104(%rsp)
	xorl	%r10d, %r10d
	movq	$0, 200(%rsp)
	movq	$0, 1392(%rsp)
	movq	$0, 1440(%rsp)
	movl	$0, 1260(%rsp)
	movq	$0, 80(%rsp)
	movq	$0, 1384(%rsp)
	movq	$0, 1376(%rsp)
	xorl	%r11d, %r11d
	movq	$0, 296(%rsp)
	movl	$0, 328(%rsp)
	movq	$0, 320(%rsp)
	movq	$0, 1248(%rsp)
	movq	$0, 1432(%rsp)
	movl	$0, 284(%rsp)
	movq	$0, 144(%rsp)
	xorl	%r13d, %r13d
	xorl	%r15d, %r15d
	movq	$0, 376(%rsp)
	movq	$0, 1448(%rsp)
	movq	$0, 136(%rsp)
	movq	$0, 272(%rsp)
226:
	movzbl	%r14b, %edx
	shll	$8, %edx
	movzbl	%bpl, %ebx
	orq	%rcx, %rbx
	orq	%rdx, %rbx
	movl	1168(%rsp), %ecx
	movl	1171(%rsp), %edx
	movl	%edx, 563(%rsp)
	movl	%ecx, 560(%rsp)
	testb	%al, %al
	je	229f
	pxor	%xmm0, %xmm0
	movdqa	%xmm0, 736(%rsp)
	movdqa	%xmm0, 752(%rsp)
	movdqa	%xmm0, 768(%rsp)
	movdqa	%xmm0, 784(%rsp)
	movdqa	%xmm0, 800(%rsp)
	movdqa	%xmm0, 816(%rsp)
	movdqa	%xmm0, 832(%rsp)
	movdqa	%xmm0, 848(%rsp)
	movdqa	%xmm0, 864(%rsp)
	movdqa	%xmm0, 880(%rsp)
	movdqa	%xmm0, 896(%rsp)
	movdqa	%xmm0, 912(%rsp)
	movdqa	%xmm0, 928(%rsp)
	movdqa	%xmm0, 944(%rsp)
	movl	$0, 1160(%rsp)
	movl	$0, 1163(%rsp)
	testb	$1, 144(%rsp)
	movq	%rsi, 216(%rsp)
	movq	%rdi, 120(%rsp)
	movq	%r8, 568(%rsp)
	movq	%r9, 360(%rsp)
	movq	%r10, 352(%rsp)
	movq	%r11, 368(%rsp)
	je	227f
	vj_call	b2sum..disk..show_progress_1_x86
	movq	368(%rsp), %r11
	movq	352(%rsp), %r10
	movq	360(%rsp), %r9
	movq	568(%rsp), %r8
	movq	120(%rsp), %rdi
	movq	216(%rsp), %rsi
227:
	cmpb	$0, 1448(%rsp)
	movq	%r13, 72(%rsp)
	movq	64(%rsp), %rbp
	je	243f
	movl	$64, %r14d
	testb	$1, %dil
	jne	228f
	movzbl	176(%rsp), %eax
	leaq	.L1_x86_switch.table.b2sum_lines..writes..push_body_1_x86(%rip), %rcx
	movq	(%rcx,%rax,8), %r14
228:
	vj_call	b2sum..disk..hide_memory_1_x86
	pxor	%xmm0, %xmm0
	movdqa	%xmm0, 576(%rsp)
	movdqa	%xmm0, 592(%rsp)
	movq	$0, 608(%rsp)
	movdqa	%xmm0, 384(%rsp)
	movdqa	%xmm0, 400(%rsp)
	movdqa	%xmm0, 416(%rsp)
	movdqa	%xmm0, 432(%rsp)
	movdqa	%xmm0, 448(%rsp)
	movdqa	%xmm0, 464(%rsp)
	movdqa	%xmm0, 480(%rsp)
	movdqa	%xmm0, 496(%rsp)
	movq	$0, 512(%rsp)
	movdqa	%xmm0, 1264(%rsp)
	movdqa	%xmm0, 1280(%rsp)
	movq	$0, 1296(%rsp)
	movq	112(%rsp), %rax
	addq	$224, %rax
	movq	%rax, 32(%rsp)
	movq	272(%rsp), %rbp
	cmpq	$1, %rbp
	movq	136(%rsp), %r13
	jne	439f
	cmpb	$45, (%r13)
	jne	439f
	movq	32(%rsp), %rax
	movq	%rax, 8(%rsp)
	movq	%r14, (%rsp)
	movzbl	128(%rsp), %r9d
	leaq	576(%rsp), %rbp
	movl	$1, %r8d
	movq	%rbp, %rdi
	movq	208(%rsp), %rsi
	movq	112(%rsp), %rdx
	movq	%r13, %rcx
	callq	b2sum_commands..key..read_key_from..fab5d8e6f6068f4d_1_x86
	movzbl	577(%rsp), %r14d
	movzbl	584(%rsp), %r13d
	movq	592(%rsp), %rax
	movq	600(%rsp), %rdx
	movq	608(%rsp), %rcx
	jmp	471f
229:
	movq	256(%rsp), %rax
	shlq	$8, %rax
	movzbl	128(%rsp), %r12d
	orq	%rax, %r12
	pxor	%xmm0, %xmm0
	movdqa	%xmm0, 1280(%rsp)
	movdqa	%xmm0, 1264(%rsp)
	movb	$1, %bpl
	xorl	%r14d, %r14d
	movzbl	176(%rsp), %eax
	leaq	.L1_x86_JTI4_3(%rip), %rcx
	movslq	(%rcx,%rax,4), %rax
	addq	%rcx, %rax
	movq	48(%rsp), %r13
	movq	168(%rsp), %r15
	notrack	jmpq	*%rax
230:
	movb	$1, %r14b
	movq	112(%rsp), %r12
	testb	$1, 128(%r12)
	je	240f
231:
	movb	$1, %bpl
	jmp	239f
232:
	movdqa	%xmm0, 1024(%rsp)
	movdqa	%xmm0, 1040(%rsp)
	movdqa	%xmm0, 576(%rsp)
	movdqa	%xmm0, 592(%rsp)
	movq	208(%rsp), %rax
	movq	(%rax), %rsi
	movq	8(%rax), %rdx
	leaq	.L1_x86_static.1(%rip), %r14
	movq	%r14, 8(%rsp)
	movq	$0, 16(%rsp)
	movq	$0, (%rsp)
	leaq	1024(%rsp), %rdi
	movq	%r13, 48(%rsp)
	movq	%r13, %rcx
	movq	%rbx, %r8
	movq	%r14, %r9
	callq	b2sum_commands..messages..line_of_1_x86
	cmpb	$0, 1024(%rsp)
	movq	40(%rsp), %rbx
	je	435f
233:
	testq	%r12, %r12
	je	234f
	movq	32(%rsp), %rdi
	vj_call	rattle_dealloc
234:
	movb	$1, %bpl
	testq	%rbx, %rbx
	movq	48(%rsp), %rdi
	jne	237f
	jmp	238f
235:
	movq	208(%rsp), %rax
	movq	(%rax), %r14
	movq	8(%rax), %r15
	movdqa	%xmm0, 1024(%rsp)
	movdqa	%xmm0, 1040(%rsp)
	movdqa	%xmm0, 576(%rsp)
	movdqa	%xmm0, 592(%rsp)
	leaq	.L1_x86_static.1(%rip), %r9
	movq	%r9, 8(%rsp)
	movq	$0, 16(%rsp)
	movq	$0, (%rsp)
	leaq	1024(%rsp), %rdi
	movq	%r14, %rsi
	movq	%r15, %rdx
	movq	%r13, 48(%rsp)
	movq	%r13, %rcx
	movq	%rbx, %r8
	callq	b2sum_commands..messages..line_of_1_x86
	cmpb	$0, 1024(%rsp)
	movq	40(%rsp), %rbx
	je	437f
236:
	movb	$1, %bpl
	testq	%rbx, %rbx
	je	238f
	movq	48(%rsp), %rdi
237:
	vj_call	rattle_dealloc
238:
	xorl	%r14d, %r14d
239:
	movl	%ebp, %eax
	movl	%r14d, %edx
	addq	$1480, %rsp
	popq	%rbx
	popq	%r12
	popq	%r13
	popq	%r14
	popq	%r15
	popq	%rbp
	retq
240:
	xorl	%r15d, %r15d
	.p2align	4
241:
	leaq	.L1_x86_static.254(%rip), %rsi
	addq	%r15, %rsi
	movl	$23, %ebx
	subq	%r15, %rbx
	movl	$1, %edi
	movq	%rbx, %rdx
	vj_system_call	write, b2_write
	testq	%rax, %rax
	js	443f
	cmpq	%rbx, %rax
	cmovbq	%rax, %rbx
	testq	%rbx, %rbx
	je	444f
	addq	%rbx, %r15
	cmpq	$23, %r15
	jb	241b
242:
	xorl	%ebp, %ebp
	jmp	239b
243:
	movl	560(%rsp), %eax
	movl	563(%rsp), %ecx
	movl	%ecx, 1163(%rsp)
	movl	%eax, 1160(%rsp)
	movq	40(%rsp), %rdx
	movq	168(%rsp), %r13
	movq	104(%rsp), %r14
244:
	movq	176(%rsp), %rax
	movq	%rax, 736(%rsp)
	movq	48(%rsp), %rcx
	movq	%rcx, 744(%rsp)
	movq	%rbx, 752(%rsp)
	movq	%rdx, 288(%rsp)
	movq	%rdx, 760(%rsp)
	movq	32(%rsp), %rax
	movq	%rax, 768(%rsp)
	movq	%r13, 304(%rsp)
	movq	%r13, 776(%rsp)
	movq	128(%rsp), %rax
	movb	%al, 784(%rsp)
	movq	256(%rsp), %rdx
	movq	%rdx, %rax
	shrq	$48, %rax
	movb	%al, 791(%rsp)
	movl	%edx, 785(%rsp)
	shrq	$32, %rdx
	movw	%dx, 789(%rsp)
	movb	%dil, 792(%rsp)
	movb	$0, 799(%rsp)
	movw	$0, 797(%rsp)
	movl	$0, 793(%rsp)
	movq	232(%rsp), %rax
	movq	%rax, 800(%rsp)
	movq	%r8, 808(%rsp)
	movq	%rsi, 816(%rsp)
	movq	1368(%rsp), %rdx
	movq	%rdx, 824(%rsp)
	movq	248(%rsp), %rax
	movq	%rax, 832(%rsp)
	movq	%r9, 840(%rsp)
	movq	336(%rsp), %rax
	movq	%rax, 848(%rsp)
	movq	192(%rsp), %rax
	movq	%rax, 856(%rsp)
	movq	264(%rsp), %rax
	movq	%rax, 864(%rsp)
	movq	240(%rsp), %rax
	movq	%rax, 872(%rsp)
	movq	%rbp, 880(%rsp)
	movq	%r12, 888(%rsp)
	movq	224(%rsp), %rax
	movq	%rax, 896(%rsp)
	movq	96(%rsp), %rax
	movb	%al, 904(%rsp)
	movb	$0, 911(%rsp)
	movw	$0, 909(%rsp)
	movl	$0, 905(%rsp)
	movq	%r14, %r13
	movq	%r14, 912(%rsp)
	movq	%r10, 920(%rsp)
	movq	200(%rsp), %rax
	movq	%rax, 928(%rsp)
	movq	1392(%rsp), %rax
	movb	%al, 936(%rsp)
	movq	1440(%rsp), %rax
	movb	%al, 937(%rsp)
	movl	1260(%rsp), %eax
	movb	%al, 938(%rsp)
	movq	80(%rsp), %rax
	movb	%al, 939(%rsp)
	movq	1384(%rsp), %rax
	movb	%al, 940(%rsp)
	movq	1376(%rsp), %rax
	movb	%al, 941(%rsp)
	movb	%r11b, 942(%rsp)
	movq	296(%rsp), %rax
	movb	%al, 943(%rsp)
	movl	328(%rsp), %eax
	movb	%al, 944(%rsp)
	movq	320(%rsp), %rax
	movb	%al, 945(%rsp)
	movq	1248(%rsp), %rax
	movb	%al, 946(%rsp)
	movq	1432(%rsp), %rax
	movb	%al, 947(%rsp)
	movl	284(%rsp), %eax
	movl	%eax, 948(%rsp)
	movq	144(%rsp), %rax
	movb	%al, 952(%rsp)
	movl	1163(%rsp), %eax
	movl	%eax, 956(%rsp)
	movl	1160(%rsp), %eax
	movl	%eax, 953(%rsp)
	testl	$256, %edx
	je	245f
	cmpq	$15, %rcx
	ja	245f
	movq	112(%rsp), %rax
	leaq	224(%rax), %rdx
	movq	208(%rsp), %rax
	movq	(%rax), %rdi
	movq	8(%rax), %rsi
	leaq	.L1_x86_static.179(%rip), %rcx
	movl	$46, %r8d
	callq	b2sum_commands..messages..tell_named..068f3e307c5390f2_1_x86
245:
	cmpb	$4, 176(%rsp)
	movl	$1048576, %eax
	movl	$65536, %ebx
	cmoveq	%rax, %rbx
	movq	112(%rsp), %rax
	cmpq	%rbx, 328(%rax)
	jae	246f
	movl	$1, %esi
	movq	%rbx, %rdi
	vj_call	rattle_alloc
	testb	$1, %al
	je	456f
	leaq	-1(%rbx), %rax
	movq	%rdx, %rdi
	xorl	%esi, %esi
	movq	%rdx, %r14
	movq	%rax, %rdx
	vj_c_call	memset
	movb	$0, -1(%r14,%rbx)
	movq	112(%rsp), %rax
	movq	320(%rax), %rdi
	movq	%r14, 320(%rax)
	movq	%rbx, 328(%rax)
	cmpq	$0, 336(%rax)
	movq	%rbx, 336(%rax)
	je	246f
	vj_call	rattle_dealloc
246:
	cmpb	$1, 936(%rsp)
	jne	440f
	testq	%r15, %r15
	movq	112(%rsp), %rax
	movq	72(%rsp), %r13
	je	498f
	leaq	369(%rax), %rcx
	movq	%rcx, 240(%rsp)
	leaq	392(%rsp), %rbp
	addq	$224, %rax
	movq	%rax, 200(%rsp)
	movb	$1, %r12b
	xorl	%ecx, %ecx
	.p2align	4
247:
	leaq	(%rcx,%rcx,2), %rax
	movq	(%r13,%rax,8), %r9
	movq	8(%r13,%rax,8), %r14
	cmpb	$1, 904(%rsp)
	movq	%r9, 144(%rsp)
	jne	249f
	movq	%r14, 80(%rsp)
	movq	912(%rsp), %r14
	movq	920(%rsp), %r13
	pxor	%xmm0, %xmm0
	movdqa	%xmm0, 1024(%rsp)
	movdqa	%xmm0, 1040(%rsp)
	movdqa	%xmm0, 1056(%rsp)
	movdqa	%xmm0, 1072(%rsp)
	movdqa	%xmm0, 576(%rsp)
	movdqa	%xmm0, 592(%rsp)
	movdqa	%xmm0, 608(%rsp)
	movq	$0, 624(%rsp)
	leaq	24(%rsp), %rbx
	movq	%rbx, 384(%rsp)
	movdqu	%xmm0, 16(%rbp)
	movdqu	%xmm0, (%rbp)
	movq	$0, 32(%rbp)
	movq	$1, 432(%rsp)
	movq	$65536, 440(%rsp)
	movq	$0, 448(%rsp)
	movq	%rbx, 456(%rsp)
	movdqu	%xmm0, 72(%rbp)
	movzbl	736(%rsp), %eax
	movl	%eax, 48(%rsp)
	movl	740(%rsp), %eax
	movl	%eax, 64(%rsp)
	testq	%r13, %r13
	je	248f
	movb	$1, %bl
	js	252f
	movq	%rcx, %rbp
	movl	$1, %esi
	movq	%r13, %rdi
	vj_call	rattle_alloc
	testb	$1, %al
	je	254f
	movq	%rdx, %rbx
	movq	%rbp, %rcx
	movq	144(%rsp), %r9
248:
	movq	%rcx, 40(%rsp)
	movq	%rbx, %rcx
	subq	%r14, %rcx
	cmpq	%r13, %rcx
	jae	251f
	xorl	%eax, %eax
	cmpq	$4, %r13
	jb	267f
	cmpq	$32, %rcx
	jb	267f
	cmpq	$32, %r13
	jae	263f
	xorl	%eax, %eax
	jmp	265f
249:
	cmpb	$1, 947(%rsp)
	jne	250f
	pxor	%xmm0, %xmm0
	movdqa	%xmm0, 656(%rsp)
	movdqa	%xmm0, 640(%rsp)
	movdqa	%xmm0, 624(%rsp)
	movdqa	%xmm0, 608(%rsp)
	movdqa	%xmm0, 592(%rsp)
	movdqa	%xmm0, 576(%rsp)
	testq	%r14, %r14
	je	255f
	movb	$1, %bl
	js	253f
	movq	%rcx, 40(%rsp)
	movl	$1, %esi
	movq	%r14, %rdi
	vj_call	rattle_alloc
	testb	$1, %al
	je	261f
	movq	%rdx, %rbx
	movq	144(%rsp), %r9
	jmp	256f
250:
	testq	%r14, %r14
	je	257f
	movb	$1, %bl
	js	253f
	movq	%rcx, 40(%rsp)
	movb	%r12b, 96(%rsp)
	movl	$1, %esi
	movq	%r14, %rdi
	vj_call	rattle_alloc
	testb	$1, %al
	je	262f
	movq	%rdx, %rbx
	movq	144(%rsp), %r9
	jmp	258f
251:
	movq	%rbx, %rdi
	movq	%r14, %rsi
	movq	%r13, %rdx
	vj_c_call	memmove
	movq	144(%rsp), %r9
	jmp	271f
252:
	xorl	%r14d, %r14d
	movq	72(%rsp), %r13
	jmp	390f
253:
	xorl	%r14d, %r14d
	jmp	390f
254:
	xorl	%r14d, %r14d
	movq	72(%rsp), %r13
	movq	%rbp, %rcx
	leaq	392(%rsp), %rbp
	movb	$1, %bl
	jmp	390f
255:
	movq	%rcx, 40(%rsp)
	leaq	24(%rsp), %rbx
256:
	movq	%rbx, %rcx
	subq	%r9, %rcx
	cmpq	%r14, %rcx
	jae	259f
	xorl	%eax, %eax
	cmpq	$4, %r14
	jb	296f
	cmpq	$32, %rcx
	jb	296f
	cmpq	$32, %r14
	jae	292f
	xorl	%eax, %eax
	jmp	294f
257:
	movq	%rcx, 40(%rsp)
	movb	%r12b, 96(%rsp)
	leaq	24(%rsp), %rbx
258:
	movq	%rbx, %rcx
	subq	%r9, %rcx
	cmpq	%r14, %rcx
	jae	260f
	xorl	%eax, %eax
	cmpq	$4, %r14
	jb	317f
	cmpq	$32, %rcx
	jb	317f
	cmpq	$32, %r14
	jae	313f
	xorl	%eax, %eax
	jmp	315f
259:
	movq	%rbx, %rdi
	movq	%r9, %rsi
	movq	%r14, %rdx
	vj_c_call	memmove
	movq	144(%rsp), %r9
	jmp	300f
260:
	movq	%rbx, %rdi
	movq	%r9, %rsi
	movq	%r14, %rdx
	vj_c_call	memmove
	jmp	321f
261:
	xorl	%r14d, %r14d
	jmp	274f
262:
	xorl	%r14d, %r14d
	movzbl	96(%rsp), %r12d
	jmp	274f
263:
	movq	%r13, %rax
	andq	$-32, %rax
	xorl	%ecx, %ecx
	.p2align	4
264:
	movdqu	(%r14,%rcx), %xmm0
	movdqu	16(%r14,%rcx), %xmm1
	movdqu	%xmm0, (%rbx,%rcx)
	movdqu	%xmm1, 16(%rbx,%rcx)
	addq	$32, %rcx
	cmpq	%rcx, %rax
	jne	264b
	cmpq	%rax, %r13
	je	271f
	testb	$28, %r13b
	je	267f
265:
	movq	%rax, %rcx
	movq	%r13, %rax
	andq	$-4, %rax
	.p2align	4
266:
	movl	(%r14,%rcx), %edx
	movl	%edx, (%rbx,%rcx)
	addq	$4, %rcx
	cmpq	%rcx, %rax
	jne	266b
	cmpq	%rax, %r13
	je	271f
267:
	movq	%r13, %rdx
	movq	%rax, %rcx
	andq	$3, %rdx
	je	269f
	movq	%rax, %rcx
	.p2align	4
268:
	movzbl	(%r14,%rcx), %esi
	movb	%sil, (%rbx,%rcx)
	incq	%rcx
	decq	%rdx
	jne	268b
269:
	subq	%r13, %rax
	cmpq	$-4, %rax
	ja	271f
	.p2align	4
270:
	movzbl	(%r14,%rcx), %eax
	movb	%al, (%rbx,%rcx)
	movzbl	1(%r14,%rcx), %eax
	movb	%al, 1(%rbx,%rcx)
	movzbl	2(%r14,%rcx), %eax
	movb	%al, 2(%rbx,%rcx)
	movzbl	3(%r14,%rcx), %eax
	movb	%al, 3(%rbx,%rcx)
	addq	$4, %rcx
	cmpq	%rcx, %r13
	jne	270b
271:
	movq	80(%rsp), %r14
	testq	%r14, %r14
	je	275f
	js	272f
	movl	$1, %esi
	movq	%r14, %rdi
	vj_call	rattle_alloc
	movq	144(%rsp), %r9
	testb	$1, %al
	je	272f
	movq	%rdx, %rbp
	jmp	276f
272:
	testq	%r13, %r13
	je	273f
	movq	%rbx, %rdi
	vj_call	rattle_dealloc
273:
	xorl	%r14d, %r14d
	movq	72(%rsp), %r13
	leaq	392(%rsp), %rbp
274:
	movq	40(%rsp), %rcx
	movb	$1, %bl
	jmp	390f
275:
	leaq	24(%rsp), %rbp
276:
	movq	%rbp, %rcx
	subq	%r9, %rcx
	cmpq	%r14, %rcx
	jae	277f
	xorl	%eax, %eax
	cmpq	$4, %r14
	jb	282f
	cmpq	$32, %rcx
	jb	282f
	cmpq	$32, %r14
	jae	278f
	xorl	%eax, %eax
	jmp	280f
277:
	movq	%rbp, %rdi
	movq	%r9, %rsi
	movq	%r14, %rdx
	vj_c_call	memmove
	jmp	286f
278:
	movq	%r14, %rax
	andq	$-32, %rax
	xorl	%ecx, %ecx
	.p2align	4
279:
	movdqu	(%r9,%rcx), %xmm0
	movdqu	16(%r9,%rcx), %xmm1
	movdqu	%xmm0, (%rbp,%rcx)
	movdqu	%xmm1, 16(%rbp,%rcx)
	addq	$32, %rcx
	cmpq	%rcx, %rax
	jne	279b
	cmpq	%rax, %r14
	je	286f
	testb	$28, %r14b
	je	282f
280:
	movq	%rax, %rcx
	movq	%r14, %rax
	andq	$-4, %rax
	.p2align	4
281:
	movl	(%r9,%rcx), %edx
	movl	%edx, (%rbp,%rcx)
	addq	$4, %rcx
	cmpq	%rcx, %rax
	jne	281b
	cmpq	%rax, %r14
	je	286f
282:
	movq	%r14, %rdx
	movq	%rax, %rcx
	andq	$3, %rdx
	je	284f
	movq	%rax, %rcx
	.p2align	4
283:
	movzbl	(%r9,%rcx), %esi
	movb	%sil, (%rbp,%rcx)
	incq	%rcx
	decq	%rdx
	jne	283b
284:
	subq	%r14, %rax
	cmpq	$-4, %rax
	ja	286f
	.p2align	4
285:
	movzbl	(%r9,%rcx), %eax
	movb	%al, (%rbp,%rcx)
	movzbl	1(%r9,%rcx), %eax
	movb	%al, 1(%rbp,%rcx)
	movzbl	2(%r9,%rcx), %eax
	movb	%al, 2(%rbp,%rcx)
	movzbl	3(%r9,%rcx), %eax
	movb	%al, 3(%rbp,%rcx)
	addq	$4, %rcx
	cmpq	%rcx, %r14
	jne	285b
286:
	movzbl	938(%rsp), %eax
	movl	48(%rsp), %ecx
	movl	%ecx, 1024(%rsp)
	movl	64(%rsp), %ecx
	movl	%ecx, 1028(%rsp)
	movq	%rbx, 1032(%rsp)
	movq	%r13, 1040(%rsp)
	movq	%r13, 1048(%rsp)
	movq	%rbp, 1056(%rsp)
	movq	%r14, 1064(%rsp)
	movq	%r14, 1072(%rsp)
	movb	%al, 1080(%rsp)
	leaq	939(%rsp), %rcx
	movzbl	2(%rcx), %eax
	leaq	1081(%rsp), %rdx
	movb	%al, 2(%rdx)
	movzwl	(%rcx), %eax
	movw	%ax, (%rdx)
	movl	$0, 1084(%rsp)
	leaq	576(%rsp), %rdi
	leaq	736(%rsp), %rdx
	leaq	384(%rsp), %r8
	leaq	1024(%rsp), %r9
	movq	208(%rsp), %rsi
	movq	112(%rsp), %rcx
	callq	b2sum_commands..check..check_entry..82a450bcca081e63_1_x86
	cmpb	$0, 576(%rsp)
	je	288f
	movzbl	577(%rsp), %r14d
	testq	%r13, %r13
	je	287f
	movq	%rbx, %rdi
	vj_call	rattle_dealloc
287:
	movb	$1, %bl
	cmpq	$0, 80(%rsp)
	movq	72(%rsp), %r13
	je	291f
	movq	%rbp, %rdi
	vj_call	rattle_dealloc
	jmp	291f
288:
	cmpb	$0, 584(%rsp)
	sete	%r14b
	testq	%r13, %r13
	je	289f
	movq	%rbx, %rdi
	vj_call	rattle_dealloc
289:
	cmpq	$0, 80(%rsp)
	movq	72(%rsp), %r13
	je	290f
	movq	%rbp, %rdi
	vj_call	rattle_dealloc
290:
	xorl	%ebx, %ebx
291:
	leaq	392(%rsp), %rbp
	jmp	392f
292:
	movq	%r14, %rax
	andq	$-32, %rax
	xorl	%ecx, %ecx
293:
	movdqu	(%r9,%rcx), %xmm0
	movdqu	16(%r9,%rcx), %xmm1
	movdqu	%xmm0, (%rbx,%rcx)
	movdqu	%xmm1, 16(%rbx,%rcx)
	addq	$32, %rcx
	cmpq	%rcx, %rax
	jne	293b
	cmpq	%rax, %r14
	je	300f
	testb	$28, %r14b
	je	296f
294:
	movq	%rax, %rcx
	movq	%r14, %rax
	andq	$-4, %rax
	.p2align	4
295:
	movl	(%r9,%rcx), %edx
	movl	%edx, (%rbx,%rcx)
	addq	$4, %rcx
	cmpq	%rcx, %rax
	jne	295b
	cmpq	%rax, %r14
	je	300f
296:
	movq	%r14, %rdx
	movq	%rax, %rcx
	andq	$3, %rdx
	je	298f
	movq	%rax, %rcx
	.p2align	4
297:
	movzbl	(%r9,%rcx), %esi
	movb	%sil, (%rbx,%rcx)
	incq	%rcx
	decq	%rdx
	jne	297b
298:
	subq	%r14, %rax
	cmpq	$-4, %rax
	ja	300f
	.p2align	4
299:
	movzbl	(%r9,%rcx), %eax
	movb	%al, (%rbx,%rcx)
	movzbl	1(%r9,%rcx), %eax
	movb	%al, 1(%rbx,%rcx)
	movzbl	2(%r9,%rcx), %eax
	movb	%al, 2(%rbx,%rcx)
	movzbl	3(%r9,%rcx), %eax
	movb	%al, 3(%rbx,%rcx)
	addq	$4, %rcx
	cmpq	%rcx, %r14
	jne	299b
300:
	movzbl	825(%rsp), %eax
	movq	112(%rsp), %rcx
	movq	344(%rcx), %rdi
	movq	%rbx, 344(%rcx)
	movq	%r14, 352(%rcx)
	cmpq	$0, 360(%rcx)
	movq	%r14, 360(%rcx)
	movb	%al, 368(%rcx)
	movq	240(%rsp), %rax
	movq	$0, 7(%rax)
	movq	$0, (%rax)
	je	301f
	vj_call	rattle_dealloc
	movq	144(%rsp), %r9
301:
	pxor	%xmm0, %xmm0
	movdqa	%xmm0, 1264(%rsp)
	movdqa	%xmm0, 1280(%rsp)
	movq	$0, 1296(%rsp)
	movdqa	%xmm0, 384(%rsp)
	movdqa	%xmm0, 400(%rsp)
	movdqa	%xmm0, 416(%rsp)
	movdqa	%xmm0, 432(%rsp)
	movdqa	%xmm0, 448(%rsp)
	movdqa	%xmm0, 464(%rsp)
	movdqa	%xmm0, 480(%rsp)
	movdqa	%xmm0, 496(%rsp)
	movq	$0, 512(%rsp)
	movdqa	%xmm0, 672(%rsp)
	movdqa	%xmm0, 688(%rsp)
	movq	$0, 704(%rsp)
	cmpq	$1, %r14
	jne	302f
	cmpb	$45, (%r9)
	jne	302f
	movq	%r14, %rbp
	leaq	1264(%rsp), %rbx
	movl	$1, %r8d
	movq	%rbx, %rdi
	movq	208(%rsp), %rsi
	movq	112(%rsp), %rdx
	movq	%r9, %rcx
	movq	200(%rsp), %r9
	callq	b2sum_commands..sealed_checks..read_list_from..fab5d8e6f6068f4d_1_x86
	movzbl	1265(%rsp), %r14d
	movzbl	1272(%rsp), %eax
	movq	1280(%rsp), %rdx
	movq	1288(%rsp), %r9
	movq	1296(%rsp), %rsi
	jmp	307f
302:
	leaq	384(%rsp), %rdi
	movq	%r9, %rsi
	movq	%r14, %rdx
	movq	%r9, %rbx
	callq	b2sum..disk..SystemDisk..open..997c1e2eeb9618f7_1_x86
	cmpb	$0, 384(%rsp)
	je	303f
	movq	208(%rsp), %rdi
	movq	%rbp, %rsi
	movq	200(%rsp), %rdx
	movq	%rbx, %rcx
	movq	%r14, %r8
	callq	b2sum_commands..messages..warn_of_file..fab5d8e6f6068f4d_1_x86
	testb	%al, %al
	je	305f
	movb	$1, %bl
	xorl	%r14d, %r14d
	jmp	392f
303:
	movups	112(%rbp), %xmm0
	movaps	%xmm0, 1136(%rsp)
	movups	96(%rbp), %xmm0
	movaps	%xmm0, 1120(%rsp)
	movups	80(%rbp), %xmm0
	movaps	%xmm0, 1104(%rsp)
	movups	64(%rbp), %xmm0
	movaps	%xmm0, 1088(%rsp)
	movdqu	(%rbp), %xmm0
	movdqu	16(%rbp), %xmm1
	movdqu	32(%rbp), %xmm2
	movdqu	48(%rbp), %xmm3
	movdqa	%xmm3, 1072(%rsp)
	movdqa	%xmm2, 1056(%rsp)
	movdqa	%xmm1, 1040(%rsp)
	movdqa	%xmm0, 1024(%rsp)
	leaq	672(%rsp), %rdi
	leaq	1024(%rsp), %rdx
	movq	208(%rsp), %rsi
	movq	%rbx, %rcx
	movq	%r14, %rbp
	movq	%r14, %r8
	movq	200(%rsp), %r9
	callq	b2sum_commands..sealed_checks..read_list_from..fab5d8e6f6068f4d_1_x86
	movq	1032(%rsp), %rbx
	movq	1048(%rsp), %r14
	cmpb	$0, 1024(%rsp)
	jne	304f
	movl	1028(%rsp), %edi
	vj_call	b2sum_close
304:
	testq	%r14, %r14
	je	306f
	movq	%rbx, %rdi
	vj_call	rattle_dealloc
	jmp	306f
305:
	movq	%r14, %rbp
	movb	$0, 672(%rsp)
	pxor	%xmm0, %xmm0
	leaq	680(%rsp), %rax
	movdqu	%xmm0, 16(%rax)
	movdqu	%xmm0, (%rax)
306:
	movzbl	673(%rsp), %r14d
	movzbl	680(%rsp), %eax
	movq	688(%rsp), %rdx
	movq	696(%rsp), %r9
	leaq	672(%rsp), %rbx
	movq	704(%rsp), %rsi
307:
	cmpb	$0, (%rbx)
	movb	$1, %bl
	movq	40(%rsp), %rcx
	je	308f
	leaq	392(%rsp), %rbp
	jmp	390f
308:
	cmpb	$1, %al
	jne	312f
	movq	%rsi, 32(%rsp)
	movb	%r12b, 96(%rsp)
	pxor	%xmm0, %xmm0
	movdqa	%xmm0, 400(%rsp)
	movdqa	%xmm0, 384(%rsp)
	cmpq	$1, %r9
	movl	$1, %r8d
	cmovbq	%r9, %r8
	leaq	(%rdx,%r9), %rax
	movq	%r9, %rsi
	subq	%r8, %rsi
	negq	%r8
	leaq	(%rdx,%rsi), %rdi
	addq	$16, %rdi
	addq	%rdx, %rsi
309:
	movq	%r8, %r13
	movq	%rdi, %r14
	movq	%rsi, %rbx
	movq	%r9, %rcx
	addq	%r8, %rcx
	je	310f
	leaq	-1(%r13), %r8
	leaq	-1(%r14), %rdi
	leaq	-1(%rbx), %rsi
	cmpb	$10, -1(%rax,%r13)
	jne	309b
310:
	movq	%r9, 120(%rsp)
	leaq	384(%rsp), %rdi
	leaq	736(%rsp), %rsi
	movq	%rdx, 136(%rsp)
	callq	b2sum_commands..seals..seal_line..d6b15712839574eb_1_x86
	cmpb	$0, 384(%rsp)
	je	347f
	movzbl	385(%rsp), %r14d
	cmpq	$0, 32(%rsp)
	je	311f
	movq	136(%rsp), %rdi
	vj_call	rattle_dealloc
311:
	movq	72(%rsp), %r13
	movzbl	96(%rsp), %r12d
	movq	40(%rsp), %rcx
	leaq	392(%rsp), %rbp
	movb	$1, %bl
	jmp	390f
312:
	xorl	%r14d, %r14d
	xorl	%ebx, %ebx
	leaq	392(%rsp), %rbp
	jmp	390f
313:
	movq	%r14, %rax
	andq	$-32, %rax
	xorl	%ecx, %ecx
314:
	movdqu	(%r9,%rcx), %xmm0
	movdqu	16(%r9,%rcx), %xmm1
	movdqu	%xmm0, (%rbx,%rcx)
	movdqu	%xmm1, 16(%rbx,%rcx)
	addq	$32, %rcx
	cmpq	%rcx, %rax
	jne	314b
	cmpq	%rax, %r14
	je	321f
	testb	$28, %r14b
	je	317f
315:
	movq	%rax, %rcx
	movq	%r14, %rax
	andq	$-4, %rax
	.p2align	4
316:
	movl	(%r9,%rcx), %edx
	movl	%edx, (%rbx,%rcx)
	addq	$4, %rcx
	cmpq	%rcx, %rax
	jne	316b
	cmpq	%rax, %r14
	je	321f
317:
	movq	%r14, %rdx
	movq	%rax, %rcx
	andq	$3, %rdx
	je	319f
	movq	%rax, %rcx
	.p2align	4
318:
	movzbl	(%r9,%rcx), %esi
	movb	%sil, (%rbx,%rcx)
	incq	%rcx
	decq	%rdx
	jne	318b
319:
	subq	%r14, %rax
	cmpq	$-4, %rax
	ja	321f
	.p2align	4
320:
	movzbl	(%r9,%rcx), %eax
	movb	%al, (%rbx,%rcx)
	movzbl	1(%r9,%rcx), %eax
	movb	%al, 1(%rbx,%rcx)
	movzbl	2(%r9,%rcx), %eax
	movb	%al, 2(%rbx,%rcx)
	movzbl	3(%r9,%rcx), %eax
	movb	%al, 3(%rbx,%rcx)
	addq	$4, %rcx
	cmpq	%rcx, %r14
	jne	320b
321:
	movzbl	825(%rsp), %eax
	movq	112(%rsp), %rcx
	movq	344(%rcx), %rdi
	movq	%rbx, 344(%rcx)
	movq	%r14, 352(%rcx)
	cmpq	$0, 360(%rcx)
	movq	%r14, 360(%rcx)
	movb	%al, 368(%rcx)
	movq	240(%rsp), %rax
	movq	$0, 7(%rax)
	movq	$0, (%rax)
	je	322f
	vj_call	rattle_dealloc
322:
	pxor	%xmm0, %xmm0
	movdqa	%xmm0, 496(%rsp)
	movdqa	%xmm0, 480(%rsp)
	movdqa	%xmm0, 464(%rsp)
	movdqa	%xmm0, 448(%rsp)
	movdqa	%xmm0, 432(%rsp)
	movdqa	%xmm0, 416(%rsp)
	movdqa	%xmm0, 400(%rsp)
	movdqa	%xmm0, 384(%rsp)
	movq	$0, 512(%rsp)
	movl	$65536, %edi
	movl	$1, %esi
	vj_call	rattle_alloc
	testb	$1, %al
	je	324f
	movq	%rdx, %rbx
	movl	$65536, %edx
	movq	%rbx, %rdi
	xorl	%esi, %esi
	vj_c_call	memset
	cmpq	$1, %r14
	movq	144(%rsp), %r12
	jne	323f
	cmpb	$45, (%r12)
	jne	323f
	pxor	%xmm0, %xmm0
	movdqa	%xmm0, 1136(%rsp)
	movdqa	%xmm0, 1120(%rsp)
	movdqa	%xmm0, 1104(%rsp)
	movdqa	%xmm0, 1088(%rsp)
	movdqa	%xmm0, 1072(%rsp)
	movdqa	%xmm0, 1056(%rsp)
	movdqa	%xmm0, 1040(%rsp)
	movdqa	%xmm0, 1024(%rsp)
	movdqa	%xmm0, 1408(%rsp)
	xorl	%edx, %edx
	jmp	327f
323:
	leaq	384(%rsp), %rdi
	movq	%r12, %rsi
	movq	%r14, %rdx
	callq	b2sum..disk..SystemDisk..open..997c1e2eeb9618f7_1_x86
	cmpb	$0, 384(%rsp)
	je	326f
	movq	208(%rsp), %rdi
	movq	%rbp, %rsi
	movq	200(%rsp), %rdx
	movq	%r12, %rcx
	movq	%r14, %r8
	callq	b2sum_commands..messages..warn_of_file..fab5d8e6f6068f4d_1_x86
	movl	%eax, %ebp
	movq	%rbx, %rdi
	vj_call	rattle_dealloc
	testb	%bpl, %bpl
	leaq	392(%rsp), %rbp
	je	432f
324:
	movb	$1, %bl
325:
	xorl	%r14d, %r14d
	jmp	391f
326:
	movups	112(%rbp), %xmm0
	movaps	%xmm0, 1136(%rsp)
	movups	96(%rbp), %xmm0
	movaps	%xmm0, 1120(%rsp)
	movups	80(%rbp), %xmm0
	movaps	%xmm0, 1104(%rsp)
	movups	64(%rbp), %xmm0
	movaps	%xmm0, 1088(%rsp)
	movdqu	(%rbp), %xmm0
	movdqu	16(%rbp), %xmm1
	movdqu	32(%rbp), %xmm2
	movdqu	48(%rbp), %xmm3
	movdqa	%xmm3, 1072(%rsp)
	movdqa	%xmm2, 1056(%rsp)
	movdqa	%xmm1, 1040(%rsp)
	movdqa	%xmm0, 1024(%rsp)
	pxor	%xmm0, %xmm0
	movdqa	%xmm0, 1408(%rsp)
	movb	$1, %dl
327:
	movzbl	%dl, %eax
	pxor	%xmm4, %xmm4
	movdqa	%xmm4, 1344(%rsp)
	movdqa	%xmm4, 1328(%rsp)
	movdqa	%xmm4, 1312(%rsp)
	movdqa	%xmm4, 1296(%rsp)
	movdqa	%xmm4, 1280(%rsp)
	movdqa	%xmm4, 1264(%rsp)
	movq	%rax, 384(%rsp)
	movaps	1136(%rsp), %xmm0
	movups	%xmm0, 112(%rbp)
	movaps	1120(%rsp), %xmm0
	movups	%xmm0, 96(%rbp)
	movaps	1104(%rsp), %xmm0
	movups	%xmm0, 80(%rbp)
	movaps	1088(%rsp), %xmm0
	movups	%xmm0, 64(%rbp)
	movaps	1024(%rsp), %xmm0
	movdqa	1040(%rsp), %xmm1
	movdqa	1056(%rsp), %xmm2
	movdqa	1072(%rsp), %xmm3
	movdqu	%xmm3, 48(%rbp)
	movdqu	%xmm2, 32(%rbp)
	movdqu	%xmm1, 16(%rbp)
	movups	%xmm0, (%rbp)
	movq	%rbx, 520(%rsp)
	movq	$65536, 528(%rsp)
	movq	$65536, 536(%rsp)
	movdqa	1408(%rsp), %xmm0
	movdqu	%xmm0, 152(%rbp)
	movdqa	%xmm4, 704(%rsp)
	movdqa	%xmm4, 688(%rsp)
	movdqa	%xmm4, 672(%rsp)
	movq	$0, 720(%rsp)
	leaq	24(%rsp), %rax
	movq	%rax, 1168(%rsp)
	leaq	1176(%rsp), %rcx
	movdqu	%xmm4, (%rcx)
	movq	%rax, 576(%rsp)
	leaq	584(%rsp), %rcx
	movdqu	%xmm4, 16(%rcx)
	movdqu	%xmm4, (%rcx)
	movq	$0, 32(%rcx)
	movq	$1, 624(%rsp)
	movq	$65536, 632(%rsp)
	movq	$0, 640(%rsp)
	movq	%rax, 648(%rsp)
	pxor	%xmm0, %xmm0
	movdqa	%xmm0, 336(%rsp)
	movdqu	%xmm4, 72(%rcx)
	movq	$0, 136(%rsp)
	movq	$-1, %rbx
	movq	$0, 272(%rsp)
	movl	$0, 192(%rsp)
	movl	$0, 320(%rsp)
	movl	$0, 328(%rsp)
	movq	$0, 264(%rsp)
	movq	$0, 296(%rsp)
	movq	$0, 248(%rsp)
	movq	$0, 216(%rsp)
	movq	$0, 128(%rsp)
	movq	$0, 232(%rsp)
	movq	$0, 104(%rsp)
	movq	$0, 120(%rsp)
	movq	%r14, 80(%rsp)
328:
	cmpb	$1, %dl
	jne	329f
	leaq	1168(%rsp), %rdx
	leaq	520(%rsp), %rdi
	movq	%rbp, %rsi
	jmp	330f
329:
	leaq	1168(%rsp), %rdx
	leaq	520(%rsp), %rdi
	movq	112(%rsp), %rsi
330:
	callq	b2sum_commands..line_reader..LineReader..read_line..5254a3ddd78d1e3f_1_x86
	testb	%al, %al
	jne	340f
	testb	%dl, %dl
	setne	%al
	movq	1176(%rsp), %r14
	testq	%r14, %r14
	sete	%cl
	testb	%cl, %al
	jne	346f
	movb	%dl, 32(%rsp)
	movq	%rbx, 48(%rsp)
	movq	1168(%rsp), %rbx
	movq	112(%rsp), %r12
	movzbl	368(%r12), %eax
	movq	$0, 1232(%rsp)
	movq	544(%rsp), %rcx
	movq	552(%rsp), %rdx
	movq	520(%rsp), %rsi
	addq	%rcx, %rsi
	subq	%rcx, %rdx
	movzbl	384(%rsp), %ecx
	xorl	%ebp, %ebp
	movl	%ecx, 64(%rsp)
	cmpb	$1, %cl
	setne	%bpl
	movq	%rbx, 1200(%rsp)
	movq	%r14, 1208(%rsp)
	movq	%rsi, 1216(%rsp)
	movq	%rdx, 1224(%rsp)
	movb	%al, 1232(%rsp)
	setne	1233(%rsp)
	leaq	736(%rsp), %r13
	leaq	1200(%rsp), %rsi
	leaq	576(%rsp), %rdx
	movq	%r13, %rdi
	callq	b2sum_commands..listed_ahead..go_on_in_list..432d41b752d14b0e_1_x86
	movq	%r14, 8(%rsp)
	movq	%rbx, 224(%rsp)
	movq	%rbx, (%rsp)
	leaq	672(%rsp), %rdi
	movq	208(%rsp), %rsi
	movq	%r13, %rdx
	movq	%r12, %rcx
	leaq	576(%rsp), %r8
	movl	%ebp, %r9d
	callq	b2sum_commands..check..check_line..82a450bcca081e63_1_x86
	cmpb	$0, 672(%rsp)
	jne	348f
	movzbl	680(%rsp), %eax
	leaq	.L1_x86_JTI4_4(%rip), %rcx
	movslq	(%rcx,%rax,4), %rax
	addq	%rcx, %rax
	notrack	jmpq	*%rax
331:
	movq	120(%rsp), %rax
	incq	%rax
	movq	$-1, %rcx
	cmovneq	%rax, %rcx
	movq	%rcx, 120(%rsp)
	jmp	337f
332:
	movq	128(%rsp), %rax
	incq	%rax
	movq	$-1, %rcx
	cmovneq	%rax, %rcx
	movq	%rcx, 128(%rsp)
	jmp	337f
333:
	movq	104(%rsp), %rax
	incq	%rax
	movq	$-1, %rcx
	cmovneq	%rax, %rcx
	movq	%rcx, 104(%rsp)
	jmp	337f
334:
	movq	232(%rsp), %rax
	incq	%rax
	movq	$-1, %rcx
	cmovneq	%rax, %rcx
	movq	%rcx, 232(%rsp)
	jmp	337f
335:
	movq	216(%rsp), %rax
	incq	%rax
	movq	$-1, %rcx
	cmovneq	%rax, %rcx
	movq	%rcx, 216(%rsp)
	jmp	337f
336:
	movq	248(%rsp), %rax
	incq	%rax
	movq	$-1, %rcx
	cmovneq	%rax, %rcx
	movq	%rcx, 248(%rsp)
	movdqa	336(%rsp), %xmm0
	psllw	$7, %xmm0
	pand	.L1_x86_CPI4_0(%rip), %xmm0
	movq	688(%rsp), %rdx
	movdqa	.L1_x86_CPI4_1(%rip), %xmm2
	movdqa	688(%rsp), %xmm1
	pand	%xmm2, %xmm1
	movq	%rdx, %rax
	shrq	$32, %rax
	shrq	$40, %rdx
	andb	$1, %al
	testb	$1, 296(%rsp)
	movzbl	%al, %ecx
	movl	$1, %eax
	cmovnel	%eax, %ecx
	pblendvb	%xmm0, %xmm2, %xmm1
	andb	$1, %dl
	testb	$1, 264(%rsp)
	movzbl	%dl, %edx
	cmovnel	%eax, %edx
	cmpb	$1, 328(%rsp)
	movl	696(%rsp), %esi
	cmovel	%eax, %esi
	movl	%esi, 328(%rsp)
	movl	320(%rsp), %esi
	movzbl	%sil, %esi
	cmovnel	700(%rsp), %esi
	movl	%esi, 320(%rsp)
	movl	192(%rsp), %esi
	cmovnel	704(%rsp), %esi
	movl	%esi, 192(%rsp)
	cmpb	$1, 272(%rsp)
	cmovnel	712(%rsp), %eax
	movq	136(%rsp), %rsi
	cmovneq	720(%rsp), %rsi
	movq	%rsi, 136(%rsp)
	movq	%rcx, 296(%rsp)
	movl	%edx, %ecx
	movq	%rcx, 264(%rsp)
	movq	%rax, 272(%rsp)
	movdqa	%xmm1, 336(%rsp)
337:
	leaq	392(%rsp), %rbp
	movq	48(%rsp), %rbx
	movl	64(%rsp), %edx
	movzbl	32(%rsp), %eax
	testb	%al, %al
	jne	354f
	decq	%rbx
	jne	328b
	movq	576(%rsp), %r14
	movq	584(%rsp), %r12
	movq	592(%rsp), %rbx
	testq	%r12, %r12
	je	355f
	leaq	16(%r14), %r13
	jmp	339f
338:
	addq	$104, %r13
	decq	%r12
	je	355f
339:
	cmpq	$0, (%r13)
	je	338b
	movq	-16(%r13), %rdi
	vj_call	rattle_dealloc
	jmp	338b
340:
	movq	576(%rsp), %rbx
	movq	584(%rsp), %r12
	movq	592(%rsp), %r14
	testq	%r12, %r12
	je	343f
	leaq	16(%rbx), %r13
	jmp	342f
341:
	addq	$104, %r13
	decq	%r12
	je	343f
342:
	cmpq	$0, (%r13)
	je	341b
	movq	-16(%r13), %rdi
	vj_call	rattle_dealloc
	jmp	341b
343:
	testq	%r14, %r14
	je	344f
	movq	%rbx, %rdi
	vj_call	rattle_dealloc
344:
	cmpq	$0, 664(%rsp)
	movq	72(%rsp), %r13
	je	345f
	movq	648(%rsp), %rdi
	vj_call	rattle_dealloc
345:
	cmpq	$0, 1184(%rsp)
	je	359f
	movq	1168(%rsp), %rdi
	jmp	358f
346:
	cmpb	$2, %dl
	jne	363f
	pxor	%xmm0, %xmm0
	movdqa	%xmm0, 336(%rsp)
	movq	$0, 120(%rsp)
	movq	$0, 104(%rsp)
	movq	$0, 232(%rsp)
	movq	$0, 128(%rsp)
	movq	$0, 216(%rsp)
	movq	$0, 248(%rsp)
	movq	$0, 296(%rsp)
	movq	$0, 264(%rsp)
	movl	$0, 64(%rsp)
	movl	$0, 48(%rsp)
	movl	$0, 192(%rsp)
	xorl	%r12d, %r12d
	movq	$0, 136(%rsp)
	movq	$0, 32(%rsp)
	jmp	364f
347:
	movq	392(%rsp), %rdi
	movq	400(%rsp), %rax
	movq	%rax, %rcx
	addq	%r13, %rcx
	je	382f
	xorl	%ebx, %ebx
	movq	72(%rsp), %r13
	movq	%rbp, %r12
	leaq	392(%rsp), %rbp
	movq	120(%rsp), %r11
	jmp	396f
348:
	movzbl	673(%rsp), %r14d
	movq	576(%rsp), %r12
	movq	584(%rsp), %r13
	movq	592(%rsp), %rbx
	testq	%r13, %r13
	je	351f
	leaq	16(%r12), %rbp
	jmp	350f
349:
	addq	$104, %rbp
	decq	%r13
	je	351f
350:
	cmpq	$0, (%rbp)
	je	349b
	movq	-16(%rbp), %rdi
	vj_call	rattle_dealloc
	jmp	349b
351:
	testq	%rbx, %rbx
	je	352f
	movq	%r12, %rdi
	vj_call	rattle_dealloc
352:
	cmpq	$0, 664(%rsp)
	movq	72(%rsp), %r13
	leaq	392(%rsp), %rbp
	je	353f
	movq	648(%rsp), %rdi
	vj_call	rattle_dealloc
353:
	cmpq	$0, 1184(%rsp)
	je	360f
	movq	224(%rsp), %rdi
	vj_call	rattle_dealloc
	jmp	360f
354:
	cmpb	$2, %al
	jne	370f
	pxor	%xmm0, %xmm0
	movdqa	%xmm0, 336(%rsp)
	movq	$0, 120(%rsp)
	movq	$0, 104(%rsp)
	movq	$0, 232(%rsp)
	movq	$0, 128(%rsp)
	movq	$0, 216(%rsp)
	movq	$0, 248(%rsp)
	movq	$0, 296(%rsp)
	movq	$0, 264(%rsp)
	movl	$0, 64(%rsp)
	movl	$0, 48(%rsp)
	movl	$0, 192(%rsp)
	xorl	%r12d, %r12d
	movq	$0, 136(%rsp)
	movq	$0, 32(%rsp)
	jmp	371f
355:
	testq	%rbx, %rbx
	je	356f
	movq	%r14, %rdi
	vj_call	rattle_dealloc
356:
	cmpq	$0, 664(%rsp)
	je	357f
	movq	648(%rsp), %rdi
	vj_call	rattle_dealloc
357:
	cmpq	$0, 1184(%rsp)
	movq	72(%rsp), %r13
	je	359f
	movq	224(%rsp), %rdi
358:
	vj_call	rattle_dealloc
359:
	xorl	%r14d, %r14d
360:
	cmpb	$1, 384(%rsp)
	jne	362f
	movq	400(%rsp), %rbx
	movq	416(%rsp), %r12
	cmpb	$0, 392(%rsp)
	jne	361f
	movl	396(%rsp), %edi
	vj_call	b2sum_close
361:
	testq	%r12, %r12
	je	362f
	movq	%rbx, %rdi
	vj_call	rattle_dealloc
362:
	movb	$1, %bl
	jmp	380f
363:
	movzbl	272(%rsp), %r12d
	movzbl	320(%rsp), %eax
	movl	%eax, 48(%rsp)
	movzbl	328(%rsp), %eax
	movl	%eax, 64(%rsp)
	movl	$1, %eax
	movq	%rax, 32(%rsp)
364:
	movq	576(%rsp), %rbx
	movq	584(%rsp), %r13
	movq	592(%rsp), %r14
	testq	%r13, %r13
	je	367f
	leaq	16(%rbx), %rbp
	jmp	366f
365:
	addq	$104, %rbp
	decq	%r13
	je	367f
366:
	cmpq	$0, (%rbp)
	je	365b
	movq	-16(%rbp), %rdi
	vj_call	rattle_dealloc
	jmp	365b
367:
	testq	%r14, %r14
	je	368f
	movq	%rbx, %rdi
	vj_call	rattle_dealloc
368:
	cmpq	$0, 664(%rsp)
	movq	72(%rsp), %r13
	movq	80(%rsp), %rbx
	je	369f
	movq	648(%rsp), %rdi
	vj_call	rattle_dealloc
369:
	cmpq	$0, 1184(%rsp)
	je	378f
	movq	1168(%rsp), %rdi
	jmp	377f
370:
	movzbl	272(%rsp), %r12d
	movzbl	320(%rsp), %eax
	movl	%eax, 48(%rsp)
	movzbl	328(%rsp), %eax
	movl	%eax, 64(%rsp)
	movl	$1, %eax
	movq	%rax, 32(%rsp)
371:
	movq	576(%rsp), %r14
	movq	584(%rsp), %r13
	movq	592(%rsp), %rbx
	testq	%r13, %r13
	je	374f
	leaq	16(%r14), %rbp
	jmp	373f
372:
	addq	$104, %rbp
	decq	%r13
	je	374f
373:
	cmpq	$0, (%rbp)
	je	372b
	movq	-16(%rbp), %rdi
	vj_call	rattle_dealloc
	jmp	372b
374:
	testq	%rbx, %rbx
	movq	72(%rsp), %r13
	je	375f
	movq	%r14, %rdi
	vj_call	rattle_dealloc
375:
	cmpq	$0, 664(%rsp)
	je	376f
	movq	648(%rsp), %rdi
	vj_call	rattle_dealloc
376:
	cmpq	$0, 1184(%rsp)
	movq	80(%rsp), %rbx
	je	378f
	movq	224(%rsp), %rdi
377:
	vj_call	rattle_dealloc
378:
	leaq	392(%rsp), %rbp
	movq	32(%rsp), %rax
	movq	%rax, 1264(%rsp)
	movq	120(%rsp), %rax
	movq	%rax, 1272(%rsp)
	movq	104(%rsp), %rax
	movq	%rax, 1280(%rsp)
	movq	232(%rsp), %rax
	movq	%rax, 1288(%rsp)
	movq	128(%rsp), %rax
	movq	%rax, 1296(%rsp)
	movq	216(%rsp), %rax
	movq	%rax, 1304(%rsp)
	movq	248(%rsp), %rax
	movq	%rax, 1312(%rsp)
	movdqa	336(%rsp), %xmm0
	movd	%xmm0, 1320(%rsp)
	movq	296(%rsp), %rax
	movb	%al, 1324(%rsp)
	movq	264(%rsp), %rax
	movb	%al, 1325(%rsp)
	movw	$0, 1326(%rsp)
	movl	64(%rsp), %eax
	movl	%eax, 1328(%rsp)
	movl	48(%rsp), %eax
	movl	%eax, 1332(%rsp)
	movl	192(%rsp), %eax
	movl	%eax, 1336(%rsp)
	movl	$0, 1340(%rsp)
	movq	%r12, 1344(%rsp)
	movq	136(%rsp), %rax
	movq	%rax, 1352(%rsp)
	leaq	736(%rsp), %rsi
	leaq	1264(%rsp), %r9
	movq	208(%rsp), %rdi
	movq	200(%rsp), %rdx
	movq	144(%rsp), %rcx
	movq	%rbx, %r8
	callq	b2sum_commands..check..end_manifest..068f3e307c5390f2_1_x86
	movl	%eax, %ebx
	movl	%edx, %r14d
	cmpb	$1, 384(%rsp)
	jne	380f
	movq	400(%rsp), %rdi
	movq	416(%rsp), %r12
	cmpb	$0, 392(%rsp)
	jne	379f
	movq	%rdi, 144(%rsp)
	movl	396(%rsp), %edi
	vj_call	b2sum_close
	movq	144(%rsp), %rdi
379:
	testq	%r12, %r12
	je	380f
	vj_call	rattle_dealloc
380:
	cmpq	$0, 536(%rsp)
	je	391f
	movq	520(%rsp), %rdi
381:
	vj_call	rattle_dealloc
	jmp	391f
382:
	testq	%r13, %r13
	movq	120(%rsp), %r11
	je	383f
	cmpq	$4, %rax
	jae	384f
	xorl	%edx, %edx
	xorl	%ecx, %ecx
	movq	72(%rsp), %r13
	movq	%rbp, %r12
	leaq	392(%rsp), %rbp
	jmp	393f
383:
	movb	$1, %bl
	movq	72(%rsp), %r13
	movq	%rbp, %r12
	leaq	392(%rsp), %rbp
	jmp	396f
384:
	cmpq	$32, %rax
	jae	385f
	xorl	%ecx, %ecx
	xorl	%edx, %edx
	movq	72(%rsp), %r13
	movq	%rbp, %r12
	leaq	392(%rsp), %rbp
	jmp	388f
385:
	movq	%rax, %rcx
	andq	$-32, %rcx
	pxor	%xmm0, %xmm0
	xorl	%edx, %edx
	pxor	%xmm1, %xmm1
386:
	movdqu	-16(%r14), %xmm2
	movdqu	(%r14), %xmm3
	movdqu	(%rdi,%rdx), %xmm4
	pxor	%xmm2, %xmm4
	por	%xmm4, %xmm1
	movdqu	16(%rdi,%rdx), %xmm2
	pxor	%xmm3, %xmm2
	por	%xmm2, %xmm0
	addq	$32, %rdx
	addq	$32, %r14
	cmpq	%rdx, %rcx
	jne	386b
	por	%xmm1, %xmm0
	pshufd	$238, %xmm0, %xmm1
	por	%xmm0, %xmm1
	pshufd	$85, %xmm1, %xmm0
	por	%xmm1, %xmm0
	movdqa	%xmm0, %xmm1
	psrld	$16, %xmm1
	por	%xmm0, %xmm1
	movdqa	%xmm1, %xmm0
	psrlw	$8, %xmm0
	por	%xmm1, %xmm0
	movd	%xmm0, %edx
	cmpq	%rcx, %rax
	movq	72(%rsp), %r13
	movq	%rbp, %r12
	jne	387f
	leaq	392(%rsp), %rbp
	jmp	395f
387:
	testb	$28, %al
	leaq	392(%rsp), %rbp
	je	393f
388:
	movq	%rcx, %rsi
	movq	%rax, %rcx
	andq	$-4, %rcx
	movzbl	%dl, %edx
	movd	%edx, %xmm0
	leaq	(%rbx,%rsi), %rdx
	movq	%rcx, %r8
	subq	%rsi, %r8
	addq	%rdi, %rsi
	xorl	%r9d, %r9d
389:
	movl	(%rsi,%r9), %r10d
	xorl	(%rdx,%r9), %r10d
	movd	%r10d, %xmm1
	por	%xmm1, %xmm0
	addq	$4, %r9
	cmpq	%r9, %r8
	jne	389b
	movdqa	%xmm0, %xmm1
	psrld	$16, %xmm1
	por	%xmm0, %xmm1
	movdqa	%xmm1, %xmm0
	psrlw	$8, %xmm0
	por	%xmm1, %xmm0
	movd	%xmm0, %edx
	jmp	394f
	.p2align	4
390:
	testb	%bl, %bl
	jne	520f
	andb	%r14b, %r12b
	incq	%rcx
	cmpq	%r15, %rcx
	jne	247b
	jmp	521f
391:
	movzbl	96(%rsp), %r12d
392:
	movq	40(%rsp), %rcx
	jmp	390b
393:
	movzbl	(%rdi,%rcx), %esi
	xorb	(%rbx,%rcx), %sil
	orb	%sil, %dl
	incq	%rcx
394:
	cmpq	%rcx, %rax
	jne	393b
395:
	testb	%dl, %dl
	sete	%bl
396:
	cmpq	$0, 408(%rsp)
	je	397f
	vj_call	rattle_dealloc
	movq	120(%rsp), %r11
397:
	testb	%bl, %bl
	je	413f
	movq	$0, 192(%rsp)
	movl	$0, %edx
	cmpq	$1, %r12
	movq	144(%rsp), %rax
	movq	136(%rsp), %rcx
	jne	398f
	cmpb	$45, (%rax)
	sete	%dl
398:
	movq	112(%rsp), %rax
	movzbl	368(%rax), %eax
	movb	%al, 288(%rsp)
	pxor	%xmm1, %xmm1
	movdqa	%xmm1, 1264(%rsp)
	movdqa	%xmm1, 1280(%rsp)
	movq	$0, 1296(%rsp)
	movdqa	%xmm1, 1024(%rsp)
	movdqa	%xmm1, 1040(%rsp)
	movdqa	%xmm1, 1056(%rsp)
	movq	$0, 1072(%rsp)
	leaq	24(%rsp), %rax
	movq	%rax, 384(%rsp)
	movdqu	%xmm1, 16(%rbp)
	movdqu	%xmm1, (%rbp)
	movq	$0, 32(%rbp)
	movq	$1, 432(%rsp)
	movq	$65536, 440(%rsp)
	movq	$0, 448(%rsp)
	movq	%rax, 456(%rsp)
	movdqu	%xmm1, 72(%rbp)
	movzbl	%dl, %eax
	movl	%eax, 224(%rsp)
	testq	%r11, %r11
	je	414f
	movq	$0, 248(%rsp)
	movq	%rcx, %r13
	movq	%r11, %rbx
	movq	$0, 312(%rsp)
	movq	$0, 192(%rsp)
	movl	$0, 176(%rsp)
	movl	$0, 272(%rsp)
	movq	$0, 328(%rsp)
	movq	$0, 320(%rsp)
	movq	$0, 216(%rsp)
	movq	$0, 128(%rsp)
	movq	$0, 232(%rsp)
	movq	$0, 104(%rsp)
	movq	$0, 264(%rsp)
	movq	$0, 296(%rsp)
	movq	%r12, 80(%rsp)
	movq	%rdx, 336(%rsp)
	jmp	401f
399:
	movq	104(%rsp), %rax
	incq	%rax
	movq	$-1, %rcx
	cmovneq	%rax, %rcx
	movq	%rcx, 104(%rsp)
400:
	movdqa	48(%rsp), %xmm1
	movq	336(%rsp), %rdx
	movq	64(%rsp), %rbx
	testq	%rbx, %rbx
	je	410f
401:
	movq	%r13, %rbp
	incq	%r13
	xorl	%eax, %eax
	movdqa	%xmm1, 48(%rsp)
	.p2align	4
402:
	cmpb	$10, -1(%r13)
	je	403f
	incq	%rax
	incq	%r13
	cmpq	%rax, %rbx
	jne	402b
	leaq	.L1_x86_static.1(%rip), %r13
	xorl	%ecx, %ecx
	jmp	404f
403:
	movq	%rax, %rcx
	notq	%rcx
	addq	%rbx, %rcx
	movq	%rax, %rbx
404:
	movq	112(%rsp), %r12
	movzbl	368(%r12), %eax
	movq	%rbp, 1264(%rsp)
	movq	%rbx, 1272(%rsp)
	movq	%r13, 1280(%rsp)
	movq	%rcx, 64(%rsp)
	movq	%rcx, 1288(%rsp)
	movb	%al, 1296(%rsp)
	movb	%dl, 1297(%rsp)
	leaq	736(%rsp), %rdi
	leaq	1264(%rsp), %rsi
	leaq	384(%rsp), %r14
	movq	%r14, %rdx
	callq	b2sum_commands..listed_ahead..go_on_in_list..432d41b752d14b0e_1_x86
	movq	%rbx, 8(%rsp)
	movq	%rbp, (%rsp)
	leaq	1024(%rsp), %rdi
	movq	208(%rsp), %rsi
	leaq	736(%rsp), %rdx
	movq	%r12, %rcx
	movq	%r14, %r8
	movl	224(%rsp), %r9d
	callq	b2sum_commands..check..check_line..82a450bcca081e63_1_x86
	cmpb	$0, 1024(%rsp)
	jne	418f
	movzbl	1032(%rsp), %eax
	leaq	.L1_x86_JTI4_5(%rip), %rcx
	movslq	(%rcx,%rax,4), %rax
	addq	%rcx, %rax
	movq	80(%rsp), %r12
	notrack	jmpq	*%rax
405:
	movq	296(%rsp), %rax
	incq	%rax
	movq	$-1, %rcx
	cmovneq	%rax, %rcx
	movq	%rcx, 296(%rsp)
	jmp	400b
406:
	movq	232(%rsp), %rax
	incq	%rax
	movq	$-1, %rcx
	cmovneq	%rax, %rcx
	movq	%rcx, 232(%rsp)
	jmp	400b
407:
	movq	264(%rsp), %rax
	incq	%rax
	movq	$-1, %rcx
	cmovneq	%rax, %rcx
	movq	%rcx, 264(%rsp)
	jmp	400b
408:
	movq	128(%rsp), %rax
	incq	%rax
	movq	$-1, %rcx
	cmovneq	%rax, %rcx
	movq	%rcx, 128(%rsp)
	jmp	400b
409:
	movq	216(%rsp), %rax
	incq	%rax
	movq	$-1, %rcx
	cmovneq	%rax, %rcx
	movq	%rcx, 216(%rsp)
	movdqa	48(%rsp), %xmm0
	psllw	$7, %xmm0
	pand	.L1_x86_CPI4_0(%rip), %xmm0
	movq	1040(%rsp), %rdx
	movdqa	.L1_x86_CPI4_1(%rip), %xmm2
	movdqa	1040(%rsp), %xmm1
	pand	%xmm2, %xmm1
	movq	%rdx, %rax
	shrq	$32, %rax
	shrq	$40, %rdx
	andb	$1, %al
	testb	$1, 320(%rsp)
	movzbl	%al, %ecx
	movl	$1, %eax
	cmovnel	%eax, %ecx
	pblendvb	%xmm0, %xmm2, %xmm1
	andb	$1, %dl
	testb	$1, 328(%rsp)
	movzbl	%dl, %edx
	cmovnel	%eax, %edx
	cmpb	$1, 272(%rsp)
	movl	1048(%rsp), %esi
	cmovel	%eax, %esi
	movl	%esi, 272(%rsp)
	movl	176(%rsp), %esi
	movzbl	%sil, %esi
	cmovnel	1052(%rsp), %esi
	movl	%esi, 176(%rsp)
	movq	192(%rsp), %rsi
	cmovnel	1056(%rsp), %esi
	movq	%rsi, 192(%rsp)
	cmpb	$1, 312(%rsp)
	cmovnel	1064(%rsp), %eax
	movq	248(%rsp), %rsi
	cmovneq	1072(%rsp), %rsi
	movq	%rsi, 248(%rsp)
	movq	%rcx, 320(%rsp)
	movl	%edx, %ecx
	movq	%rcx, 328(%rsp)
	movq	%rax, 312(%rsp)
	movq	336(%rsp), %rdx
	movq	64(%rsp), %rbx
	testq	%rbx, %rbx
	jne	401b
410:
	movq	384(%rsp), %rbx
	movq	392(%rsp), %r13
	movq	400(%rsp), %r14
	testq	%r13, %r13
	movdqa	%xmm1, 48(%rsp)
	je	424f
	leaq	16(%rbx), %rbp
	jmp	412f
411:
	addq	$104, %rbp
	decq	%r13
	je	424f
412:
	cmpq	$0, (%rbp)
	je	411b
	movq	-16(%rbp), %rdi
	vj_call	rattle_dealloc
	movdqa	48(%rsp), %xmm1
	jmp	411b
413:
	pxor	%xmm0, %xmm0
	movdqa	%xmm0, 400(%rsp)
	movdqa	%xmm0, 384(%rsp)
	leaq	384(%rsp), %rdi
	movq	144(%rsp), %rsi
	movq	%r12, %rdx
	callq	b2sum_commands..quoting..quoted_name_1_x86
	cmpb	$0, 384(%rsp)
	movb	$1, %bl
	je	415f
	cmpq	$0, 32(%rsp)
	jne	417f
	jmp	325b
414:
	movq	$0, 296(%rsp)
	movq	$0, 264(%rsp)
	movq	$0, 104(%rsp)
	movq	$0, 232(%rsp)
	movq	$0, 128(%rsp)
	movq	$0, 216(%rsp)
	movq	$0, 320(%rsp)
	movq	$0, 328(%rsp)
	xorl	%eax, %eax
	xorl	%ecx, %ecx
	xorl	%edx, %edx
	movq	$0, 248(%rsp)
	jmp	426f
415:
	movq	392(%rsp), %rbx
	movq	400(%rsp), %r8
	movq	208(%rsp), %rax
	movq	(%rax), %rdi
	movq	8(%rax), %rsi
	movq	408(%rsp), %r14
	leaq	.L1_x86_static.195(%rip), %rax
	movq	%rax, 8(%rsp)
	movq	$22, 16(%rsp)
	movq	$2, (%rsp)
	leaq	.L1_x86_static.123(%rip), %r9
	movq	200(%rsp), %rdx
	movq	%rbx, %rcx
	callq	b2sum_commands..messages..warn..068f3e307c5390f2_1_x86
	movl	%eax, %ebp
	testq	%r14, %r14
	je	416f
	movq	%rbx, %rdi
	vj_call	rattle_dealloc
416:
	testb	%bpl, %bpl
	movb	$1, %bl
	movq	136(%rsp), %rdi
	movq	32(%rsp), %rax
	je	431f
	testq	%rax, %rax
	leaq	392(%rsp), %rbp
	je	325b
417:
	movq	136(%rsp), %rdi
	vj_call	rattle_dealloc
	jmp	325b
418:
	movzbl	1025(%rsp), %r14d
	movq	384(%rsp), %rbx
	movq	392(%rsp), %r13
	movq	400(%rsp), %r12
	testq	%r13, %r13
	movq	32(%rsp), %rax
	je	421f
	leaq	16(%rbx), %rbp
	jmp	420f
419:
	addq	$104, %rbp
	decq	%r13
	je	421f
420:
	cmpq	$0, (%rbp)
	je	419b
	movq	-16(%rbp), %rdi
	vj_call	rattle_dealloc
	movq	32(%rsp), %rax
	jmp	419b
421:
	testq	%r12, %r12
	je	422f
	movq	%rbx, %rdi
	vj_call	rattle_dealloc
	movq	32(%rsp), %rax
422:
	cmpq	$0, 472(%rsp)
	movq	72(%rsp), %r13
	leaq	392(%rsp), %rbp
	je	423f
	movq	456(%rsp), %rdi
	vj_call	rattle_dealloc
	movq	32(%rsp), %rax
423:
	testq	%rax, %rax
	movb	$1, %bl
	movq	136(%rsp), %rdi
	jne	381b
	jmp	391b
424:
	testq	%r14, %r14
	je	425f
	movq	%rbx, %rdi
	vj_call	rattle_dealloc
	movdqa	48(%rsp), %xmm1
425:
	movq	72(%rsp), %r13
	movl	272(%rsp), %eax
	movl	176(%rsp), %ecx
	movq	312(%rsp), %rdx
426:
	movzbl	%dl, %ebx
	movzbl	%cl, %ebp
	movzbl	%al, %r14d
	cmpq	$0, 472(%rsp)
	je	427f
	movq	456(%rsp), %rdi
	movdqa	%xmm1, 48(%rsp)
	vj_call	rattle_dealloc
	movdqa	48(%rsp), %xmm1
427:
	movq	$1, 576(%rsp)
	movq	296(%rsp), %rax
	movq	%rax, 584(%rsp)
	movq	264(%rsp), %rax
	movq	%rax, 592(%rsp)
	movq	104(%rsp), %rax
	movq	%rax, 600(%rsp)
	movq	232(%rsp), %rax
	movq	%rax, 608(%rsp)
	movq	128(%rsp), %rax
	movq	%rax, 616(%rsp)
	movq	216(%rsp), %rax
	movq	%rax, 624(%rsp)
	movd	%xmm1, 632(%rsp)
	movq	320(%rsp), %rax
	movb	%al, 636(%rsp)
	movq	328(%rsp), %rax
	movb	%al, 637(%rsp)
	movw	$0, 638(%rsp)
	movl	%r14d, 640(%rsp)
	movl	%ebp, 644(%rsp)
	movq	192(%rsp), %rax
	movl	%eax, 648(%rsp)
	movl	$0, 652(%rsp)
	movq	%rbx, 656(%rsp)
	movq	248(%rsp), %rax
	movq	%rax, 664(%rsp)
	leaq	736(%rsp), %rsi
	leaq	576(%rsp), %r9
	movq	208(%rsp), %rdi
	movq	200(%rsp), %rdx
	movq	144(%rsp), %rcx
	movq	%r12, %r8
	callq	b2sum_commands..check..end_manifest..068f3e307c5390f2_1_x86
	movl	%edx, %r14d
	testb	%al, %al
	je	428f
	cmpq	$0, 32(%rsp)
	leaq	392(%rsp), %rbp
	je	430f
	movq	136(%rsp), %rdi
	vj_call	rattle_dealloc
	jmp	430f
428:
	movq	120(%rsp), %rax
	movq	%rax, (%rsp)
	movzbl	288(%rsp), %ecx
	leaq	736(%rsp), %rsi
	movq	208(%rsp), %rdi
	movq	112(%rsp), %rdx
	movl	224(%rsp), %r8d
	movq	136(%rsp), %r9
	callq	b2sum_commands..folder_checks..has_all..82a450bcca081e63_1_x86
	movl	%edx, %ebx
	testb	%al, %al
	leaq	392(%rsp), %rbp
	je	434f
	cmpq	$0, 32(%rsp)
	je	429f
	movq	136(%rsp), %rdi
	vj_call	rattle_dealloc
429:
	movl	%ebx, %r14d
430:
	movzbl	96(%rsp), %r12d
	jmp	274b
431:
	testq	%rax, %rax
	leaq	392(%rsp), %rbp
	je	432f
	vj_call	rattle_dealloc
	xorl	%r14d, %r14d
	xorl	%ebx, %ebx
	jmp	391b
432:
	xorl	%r14d, %r14d
433:
	xorl	%ebx, %ebx
	jmp	391b
434:
	andb	$1, %r14b
	andb	%bl, %r14b
	cmpq	$0, 32(%rsp)
	je	433b
	movq	136(%rsp), %rdi
	vj_call	rattle_dealloc
	xorl	%ebx, %ebx
	jmp	391b
435:
	movq	1048(%rsp), %rax
	movq	%rax, 688(%rsp)
	movdqu	1032(%rsp), %xmm0
	movdqa	%xmm0, 672(%rsp)
	testq	%r15, %r15
	je	445f
	movq	208(%rsp), %rax
	movq	(%rax), %rsi
	movq	8(%rax), %rdx
	movq	%r14, 8(%rsp)
	movq	$0, 16(%rsp)
	movq	$0, (%rsp)
	leaq	576(%rsp), %rdi
	movq	32(%rsp), %rcx
	movq	%r15, %r8
	movq	%r14, %r9
	callq	b2sum_commands..messages..line_of_1_x86
	cmpb	$0, 576(%rsp)
	je	490f
	cmpq	$0, 688(%rsp)
	je	233b
436:
	movq	672(%rsp), %rdi
	vj_call	rattle_dealloc
	jmp	233b
437:
	movq	1048(%rsp), %rax
	movq	%rax, 688(%rsp)
	movdqu	1032(%rsp), %xmm0
	movdqa	%xmm0, 672(%rsp)
	movq	$31, (%rsp)
	leaq	.L1_x86_static.256(%rip), %rsi
	leaq	.L1_x86_static.255(%rip), %r9
	leaq	576(%rsp), %rdi
	movl	$5, %edx
	movq	%r14, %rcx
	movq	%r15, %r8
	callq	b2sum_commands..options..joined_1_x86
	cmpb	$0, 576(%rsp)
	je	447f
	cmpq	$0, 688(%rsp)
	je	236b
438:
	movq	672(%rsp), %rdi
	vj_call	rattle_dealloc
	jmp	236b
439:
	leaq	384(%rsp), %rdi
	movq	%r13, %rsi
	movq	%rbp, %rdx
	callq	b2sum..disk..SystemDisk..open..997c1e2eeb9618f7_1_x86
	cmpb	$0, 384(%rsp)
	leaq	392(%rsp), %rsi
	je	454f
	movq	208(%rsp), %rdi
	movq	32(%rsp), %rdx
	movq	%r13, %rcx
	movq	%rbp, %r8
	callq	b2sum_commands..messages..warn_of_file..fab5d8e6f6068f4d_1_x86
	testb	%al, %al
	je	469f
	xorl	%r14d, %r14d
	movq	64(%rsp), %rbp
	jmp	472f
440:
	movq	888(%rsp), %r8
	testq	%r8, %r8
	movq	112(%rsp), %rbx
	movq	208(%rsp), %r12
	movq	72(%rsp), %r13
	je	499f
	pxor	%xmm0, %xmm0
	movdqa	%xmm0, 384(%rsp)
	movdqa	%xmm0, 400(%rsp)
	movdqa	%xmm0, 416(%rsp)
	movdqa	%xmm0, 432(%rsp)
	movdqa	%xmm0, 448(%rsp)
	movq	$0, 464(%rsp)
	movdqa	%xmm0, 1264(%rsp)
	movq	$0, 1280(%rsp)
	movdqa	%xmm0, 672(%rsp)
	movq	$0, 688(%rsp)
	movdqa	%xmm0, 1200(%rsp)
	movq	$0, 1216(%rsp)
	movdqa	%xmm0, 1168(%rsp)
	movq	$0, 1184(%rsp)
	movdqa	%xmm0, 1408(%rsp)
	movq	$0, 1424(%rsp)
	movdqa	%xmm0, 1456(%rsp)
	movq	$0, 1472(%rsp)
	movq	%r13, 576(%rsp)
	movq	%r15, 584(%rsp)
	movq	376(%rsp), %rax
	movq	%rax, 592(%rsp)
	movq	880(%rsp), %rcx
	leaq	384(%rsp), %rdi
	movq	%r12, %rsi
	movq	%rbx, %rdx
	callq	b2sum_commands..folders..walk..82a450bcca081e63_1_x86
	cmpb	$0, 384(%rsp)
	je	536f
	movzbl	385(%rsp), %r14d
	testq	%r15, %r15
	je	497f
	leaq	16(%r13), %rbx
	jmp	442f
	.p2align	4
441:
	addq	$24, %rbx
	decq	%r15
	je	497f
442:
	cmpq	$0, (%rbx)
	je	441b
	movq	-16(%rbx), %rdi
	vj_call	rattle_dealloc
	jmp	441b
443:
	leaq	736(%rsp), %rdi
	callq	std_io..io..error..last_error_1_x86
	movq	736(%rsp), %rax
	movups	744(%rsp), %xmm0
	movaps	%xmm0, 384(%rsp)
	movups	760(%rsp), %xmm0
	movaps	%xmm0, 400(%rsp)
	movups	776(%rsp), %xmm0
	movaps	%xmm0, 416(%rsp)
	movups	792(%rsp), %xmm0
	movaps	%xmm0, 432(%rsp)
	movups	808(%rsp), %xmm0
	movaps	%xmm0, 448(%rsp)
	movq	$1, 128(%r12)
	movq	%rax, 136(%r12)
	movaps	384(%rsp), %xmm0
	movdqa	400(%rsp), %xmm1
	movdqa	416(%rsp), %xmm2
	movdqa	432(%rsp), %xmm3
	movups	%xmm0, 144(%r12)
	movdqu	%xmm1, 160(%r12)
	movdqu	%xmm2, 176(%r12)
	movdqu	%xmm3, 192(%r12)
	movdqa	448(%rsp), %xmm0
	movdqu	%xmm0, 208(%r12)
	movb	$1, %bpl
	jmp	239b
444:
	movq	$1, 128(%r12)
	movw	$5889, 136(%r12)
	pxor	%xmm0, %xmm0
	movdqu	%xmm0, 138(%r12)
	movdqu	%xmm0, 154(%r12)
	movdqu	%xmm0, 170(%r12)
	movdqu	%xmm0, 186(%r12)
	movdqu	%xmm0, 202(%r12)
	movq	$0, 216(%r12)
	movb	$1, %bpl
	jmp	239b
445:
	movq	672(%rsp), %rbx
	movq	680(%rsp), %r15
	testq	%r15, %r15
	je	548f
	movq	112(%rsp), %rax
	testb	$1, 224(%rax)
	jne	548f
	xorl	%r13d, %r13d
446:
	leaq	(%rbx,%r13), %rsi
	movq	%r15, %r14
	subq	%r13, %r14
	movl	$2, %edi
	movq	%r14, %rdx
	vj_system_call	write, b2_write
	testq	%rax, %rax
	js	545f
	cmpq	%r14, %rax
	cmovbq	%rax, %r14
	testq	%r14, %r14
	je	547f
	addq	%r14, %r13
	cmpq	%r15, %r13
	jb	446b
	jmp	548f
447:
	movq	584(%rsp), %r14
	movq	592(%rsp), %r15
	movq	600(%rsp), %r8
	movq	680(%rsp), %r13
	movq	688(%rsp), %r12
	movq	%r12, %rax
	subq	%r13, %rax
	cmpq	%rax, %r15
	ja	584f
448:
	movq	672(%rsp), %rbx
	leaq	(%rbx,%r13), %rdi
	movq	%rdi, %rax
	subq	%r14, %rax
	cmpq	%r15, %rax
	jae	502f
	cmpq	$4, %r15
	jb	449f
	cmpq	$32, %rax
	jae	574f
449:
	xorl	%eax, %eax
450:
	movq	%r15, %rdx
	movq	%rax, %rcx
	andq	$3, %rdx
	je	452f
	movq	%rax, %rcx
451:
	movzbl	(%r14,%rcx), %esi
	movb	%sil, (%rdi,%rcx)
	incq	%rcx
	decq	%rdx
	jne	451b
452:
	subq	%r15, %rax
	cmpq	$-4, %rax
	ja	503f
	leaq	(%rbx,%r13), %rax
	addq	$3, %rax
453:
	movzbl	(%r14,%rcx), %edx
	movb	%dl, -3(%rax,%rcx)
	movzbl	1(%r14,%rcx), %edx
	movb	%dl, -2(%rax,%rcx)
	movzbl	2(%r14,%rcx), %edx
	movb	%dl, -1(%rax,%rcx)
	movzbl	3(%r14,%rcx), %edx
	movb	%dl, (%rax,%rcx)
	addq	$4, %rcx
	cmpq	%rcx, %r15
	jne	453b
	jmp	503f
454:
	movups	112(%rsi), %xmm0
	movaps	%xmm0, 1136(%rsp)
	movups	96(%rsi), %xmm0
	movaps	%xmm0, 1120(%rsp)
	movups	80(%rsi), %xmm0
	movaps	%xmm0, 1104(%rsp)
	movups	64(%rsi), %xmm0
	movaps	%xmm0, 1088(%rsp)
	movdqu	(%rsi), %xmm0
	movdqu	16(%rsi), %xmm1
	movdqu	32(%rsi), %xmm2
	movdqu	48(%rsi), %xmm3
	movdqa	%xmm3, 1072(%rsp)
	movdqa	%xmm2, 1056(%rsp)
	movdqa	%xmm1, 1040(%rsp)
	movdqa	%xmm0, 1024(%rsp)
	movq	32(%rsp), %rax
	movq	%rax, 8(%rsp)
	movq	%r14, (%rsp)
	movzbl	128(%rsp), %r9d
	leaq	1264(%rsp), %rdi
	leaq	1024(%rsp), %rdx
	movq	208(%rsp), %rsi
	movq	%r13, %rcx
	movq	%rbp, %r8
	callq	b2sum_commands..key..read_key_from..fab5d8e6f6068f4d_1_x86
	movq	1032(%rsp), %r14
	movq	1048(%rsp), %r13
	cmpb	$0, 1024(%rsp)
	jne	455f
	movl	1028(%rsp), %edi
	vj_call	b2sum_close
455:
	testq	%r13, %r13
	je	470f
	movq	%r14, %rdi
	vj_call	rattle_dealloc
	jmp	470f
456:
	cmpq	$0, 304(%rsp)
	je	457f
	movq	288(%rsp), %rdi
	vj_call	rattle_dealloc
457:
	cmpb	$1, 120(%rsp)
	setne	%al
	cmpq	$0, 216(%rsp)
	sete	%cl
	orb	%al, %cl
	jne	458f
	movq	232(%rsp), %rdi
	vj_call	rattle_dealloc
458:
	cmpq	$0, 336(%rsp)
	movq	72(%rsp), %r14
	je	459f
	movq	248(%rsp), %rdi
	vj_call	rattle_dealloc
459:
	cmpq	$0, 240(%rsp)
	movq	64(%rsp), %rbp
	je	460f
	movq	192(%rsp), %rdi
	vj_call	rattle_dealloc
460:
	testq	%r12, %r12
	je	463f
	leaq	16(%rbp), %rbx
	jmp	462f
	.p2align	4
461:
	addq	$24, %rbx
	decq	%r12
	je	463f
462:
	cmpq	$0, (%rbx)
	je	461b
	movq	-16(%rbx), %rdi
	vj_call	rattle_dealloc
	jmp	461b
463:
	cmpq	$0, 224(%rsp)
	je	464f
	movq	%rbp, %rdi
	vj_call	rattle_dealloc
464:
	cmpb	$1, 96(%rsp)
	setne	%al
	cmpq	$0, 200(%rsp)
	sete	%cl
	orb	%al, %cl
	jne	465f
	movq	%r13, %rdi
	vj_call	rattle_dealloc
465:
	testq	%r15, %r15
	je	468f
	leaq	16(%r14), %rbx
	jmp	467f
	.p2align	4
466:
	addq	$24, %rbx
	decq	%r15
	je	468f
467:
	cmpq	$0, (%rbx)
	je	466b
	movq	-16(%rbx), %rdi
	vj_call	rattle_dealloc
	jmp	466b
468:
	movb	$1, %bpl
	cmpq	$0, 376(%rsp)
	je	238b
	movq	%r14, %rdi
	jmp	237b
469:
	movb	$0, 1264(%rsp)
	pxor	%xmm0, %xmm0
	movdqu	%xmm0, 1272(%rsp)
	movdqu	%xmm0, 1288(%rsp)
470:
	movzbl	1265(%rsp), %r14d
	movzbl	1272(%rsp), %r13d
	movq	1280(%rsp), %rax
	movq	1288(%rsp), %rdx
	leaq	1264(%rsp), %rbp
	movq	1296(%rsp), %rcx
471:
	movq	%rcx, 304(%rsp)
	cmpb	$0, (%rbp)
	movq	64(%rsp), %rbp
	je	486f
472:
	cmpb	$0, 312(%rsp)
	jne	473f
	movq	136(%rsp), %rdi
	vj_call	rattle_dealloc
473:
	cmpq	$0, 168(%rsp)
	movq	72(%rsp), %r13
	je	474f
	movq	40(%rsp), %rdi
	vj_call	rattle_dealloc
474:
	cmpb	$1, 120(%rsp)
	setne	%al
	cmpq	$0, 216(%rsp)
	sete	%cl
	orb	%al, %cl
	jne	475f
	movq	232(%rsp), %rdi
	vj_call	rattle_dealloc
475:
	cmpq	$0, 336(%rsp)
	je	476f
	movq	248(%rsp), %rdi
	vj_call	rattle_dealloc
476:
	cmpq	$0, 240(%rsp)
	je	477f
	movq	192(%rsp), %rdi
	vj_call	rattle_dealloc
477:
	testq	%r12, %r12
	je	480f
	leaq	16(%rbp), %rbx
	jmp	479f
	.p2align	4
478:
	addq	$24, %rbx
	decq	%r12
	je	480f
479:
	cmpq	$0, (%rbx)
	je	478b
	movq	-16(%rbx), %rdi
	vj_call	rattle_dealloc
	jmp	478b
480:
	cmpq	$0, 224(%rsp)
	je	481f
	movq	%rbp, %rdi
	vj_call	rattle_dealloc
481:
	cmpb	$1, 96(%rsp)
	setne	%al
	cmpq	$0, 200(%rsp)
	sete	%cl
	orb	%al, %cl
	jne	482f
	movq	104(%rsp), %rdi
	vj_call	rattle_dealloc
482:
	testq	%r15, %r15
	je	643f
483:
	leaq	16(%r13), %rbx
	jmp	485f
	.p2align	4
484:
	addq	$24, %rbx
	decq	%r15
	je	643f
485:
	cmpq	$0, (%rbx)
	je	484b
	movq	-16(%rbx), %rdi
	vj_call	rattle_dealloc
	jmp	484b
486:
	movq	%rdx, 1192(%rsp)
	movq	%rax, 288(%rsp)
	callq	blake2_digest..wiping..scrub_stack..4096_1_x86
	cmpb	$1, %r13b
	jne	506f
	cmpq	$0, 1192(%rsp)
	movq	72(%rsp), %r13
	movq	104(%rsp), %r14
	movq	120(%rsp), %rdi
	movq	568(%rsp), %r8
	movq	360(%rsp), %r9
	movq	352(%rsp), %r10
	movq	368(%rsp), %r11
	je	625f
	testb	$1, 128(%rsp)
	jne	625f
	movq	288(%rsp), %rax
	movq	1192(%rsp), %rcx
	cmpb	$10, -1(%rax,%rcx)
	movq	%rcx, %rax
	jne	487f
	movq	1192(%rsp), %rax
	decq	%rax
	je	625f
487:
	xorl	%ecx, %ecx
	jmp	489f
488:
	incq	%rcx
	cmpq	%rcx, %rax
	je	579f
489:
	movq	288(%rsp), %rdx
	movzbl	(%rdx,%rcx), %edx
	cmpb	$48, %dl
	jb	625f
	cmpb	$58, %dl
	jb	488b
	cmpb	$65, %dl
	jb	625f
	cmpb	$71, %dl
	setae	%sil
	addb	$-97, %dl
	cmpb	$6, %dl
	setae	%dl
	testb	%dl, %sil
	je	488b
	jmp	625f
490:
	movq	584(%rsp), %r14
	movq	592(%rsp), %r15
	movq	600(%rsp), %r8
	movq	680(%rsp), %rbp
	movq	688(%rsp), %r13
	movq	%r13, %rax
	subq	%rbp, %rax
	cmpq	%rax, %r15
	ja	590f
491:
	movq	672(%rsp), %rbx
	leaq	(%rbx,%rbp), %rdi
	movq	%rdi, %rax
	subq	%r14, %rax
	cmpq	%r15, %rax
	jae	541f
	cmpq	$4, %r15
	jb	492f
	cmpq	$32, %rax
	jae	578f
492:
	xorl	%eax, %eax
493:
	movq	%r15, %rdx
	movq	%rax, %rcx
	andq	$3, %rdx
	je	495f
	movq	%rax, %rcx
494:
	movzbl	(%r14,%rcx), %esi
	movb	%sil, (%rdi,%rcx)
	incq	%rcx
	decq	%rdx
	jne	494b
495:
	subq	%r15, %rax
	cmpq	$-4, %rax
	ja	542f
	leaq	(%rbx,%rbp), %rax
	addq	$3, %rax
496:
	movzbl	(%r14,%rcx), %edx
	movb	%dl, -3(%rax,%rcx)
	movzbl	1(%r14,%rcx), %edx
	movb	%dl, -2(%rax,%rcx)
	movzbl	2(%r14,%rcx), %edx
	movb	%dl, -1(%rax,%rcx)
	movzbl	3(%r14,%rcx), %edx
	movb	%dl, (%rax,%rcx)
	addq	$4, %rcx
	cmpq	%rcx, %r15
	jne	496b
	jmp	542f
497:
	movb	$1, %bpl
	jmp	525f
498:
	movb	$1, %r14b
	xorl	%ebp, %ebp
	jmp	525f
499:
	leaq	736(%rsp), %rsi
	movq	%r12, %rdi
	movq	%rbx, %rdx
	movq	%r13, %rcx
	movq	%r15, %r8
	callq	b2sum_commands..seals..print_list..82a450bcca081e63_1_x86
	movl	%eax, %ebp
	movl	%edx, %r14d
	testq	%r15, %r15
	je	525f
	leaq	16(%r13), %rbx
	jmp	501f
	.p2align	4
500:
	addq	$24, %rbx
	decq	%r15
	je	525f
501:
	cmpq	$0, (%rbx)
	je	500b
	movq	-16(%rbx), %rdi
	vj_call	rattle_dealloc
	jmp	500b
502:
	movq	%r14, %rsi
	movq	%r15, %rdx
	movq	%r8, %rbp
	vj_c_call	memmove
	movq	%rbp, %r8
503:
	addq	%r15, %r13
	testq	%r8, %r8
	je	504f
	movq	%r14, %rdi
	vj_call	rattle_dealloc
504:
	testq	%r13, %r13
	je	553f
	movq	112(%rsp), %rax
	testb	$1, 224(%rax)
	jne	553f
	xorl	%r15d, %r15d
505:
	leaq	(%rbx,%r15), %rsi
	movq	%r13, %r14
	subq	%r15, %r14
	movl	$2, %edi
	movq	%r14, %rdx
	vj_system_call	write, b2_write
	testq	%rax, %rax
	js	546f
	cmpq	%r14, %rax
	cmovbq	%rax, %r14
	testq	%r14, %r14
	je	552f
	addq	%r14, %r15
	cmpq	%r13, %r15
	jb	505b
	jmp	553f
506:
	cmpb	$0, 312(%rsp)
	movq	72(%rsp), %r14
	jne	507f
	movq	136(%rsp), %rdi
	vj_call	rattle_dealloc
507:
	cmpq	$0, 168(%rsp)
	movq	40(%rsp), %rdi
	je	508f
	vj_call	rattle_dealloc
508:
	cmpb	$1, 120(%rsp)
	setne	%al
	cmpq	$0, 216(%rsp)
	sete	%cl
	orb	%al, %cl
	jne	509f
	movq	232(%rsp), %rdi
	vj_call	rattle_dealloc
509:
	cmpq	$0, 336(%rsp)
	je	510f
	movq	248(%rsp), %rdi
	vj_call	rattle_dealloc
510:
	cmpq	$0, 240(%rsp)
	je	511f
	movq	192(%rsp), %rdi
	vj_call	rattle_dealloc
511:
	testq	%r12, %r12
	je	514f
	leaq	16(%rbp), %rbx
	jmp	513f
	.p2align	4
512:
	addq	$24, %rbx
	decq	%r12
	je	514f
513:
	cmpq	$0, (%rbx)
	je	512b
	movq	-16(%rbx), %rdi
	vj_call	rattle_dealloc
	jmp	512b
514:
	cmpq	$0, 224(%rsp)
	je	515f
	movq	%rbp, %rdi
	vj_call	rattle_dealloc
515:
	cmpb	$1, 96(%rsp)
	setne	%al
	cmpq	$0, 200(%rsp)
	sete	%cl
	orb	%al, %cl
	jne	516f
	movq	104(%rsp), %rdi
	vj_call	rattle_dealloc
516:
	testq	%r15, %r15
	je	519f
	leaq	16(%r14), %rbx
	jmp	518f
	.p2align	4
517:
	addq	$24, %rbx
	decq	%r15
	je	519f
518:
	cmpq	$0, (%rbx)
	je	517b
	movq	-16(%rbx), %rdi
	vj_call	rattle_dealloc
	jmp	517b
519:
	cmpq	$0, 376(%rsp)
	je	556f
	movq	%r14, %rdi
	jmp	555f
520:
	movb	$1, %bpl
	jmp	522f
521:
	andb	$1, %r12b
	xorl	%ebp, %ebp
	movl	%r12d, %r14d
522:
	leaq	16(%r13), %rbx
	jmp	524f
	.p2align	4
523:
	addq	$24, %rbx
	decq	%r15
	je	525f
524:
	cmpq	$0, (%rbx)
	je	523b
	movq	-16(%rbx), %rdi
	vj_call	rattle_dealloc
	jmp	523b
525:
	cmpq	$0, 376(%rsp)
	je	527f
526:
	movq	%r13, %rdi
	vj_call	rattle_dealloc
527:
	cmpq	$0, 776(%rsp)
	je	528f
	movq	760(%rsp), %rdi
	vj_call	rattle_dealloc
528:
	cmpb	$1, 792(%rsp)
	jne	529f
	cmpq	$0, 816(%rsp)
	je	529f
	movq	800(%rsp), %rdi
	vj_call	rattle_dealloc
529:
	cmpq	$0, 848(%rsp)
	je	530f
	movq	832(%rsp), %rdi
	vj_call	rattle_dealloc
530:
	cmpq	$0, 872(%rsp)
	je	531f
	movq	856(%rsp), %rdi
	vj_call	rattle_dealloc
531:
	movq	880(%rsp), %rbx
	movq	888(%rsp), %r12
	movq	896(%rsp), %r15
	testq	%r12, %r12
	je	534f
	leaq	16(%rbx), %r13
	jmp	533f
	.p2align	4
532:
	addq	$24, %r13
	decq	%r12
	je	534f
533:
	cmpq	$0, (%r13)
	je	532b
	movq	-16(%r13), %rdi
	vj_call	rattle_dealloc
	jmp	532b
534:
	testq	%r15, %r15
	je	535f
	movq	%rbx, %rdi
	vj_call	rattle_dealloc
535:
	cmpb	$1, 904(%rsp)
	jne	239b
	cmpq	$0, 928(%rsp)
	je	239b
	movq	912(%rsp), %rdi
	vj_call	rattle_dealloc
	jmp	239b
536:
	movq	392(%rsp), %rax
	movq	%rax, 32(%rsp)
	movq	400(%rsp), %rax
	movq	%rax, 144(%rsp)
	movq	408(%rsp), %rax
	movq	%rax, 224(%rsp)
	movq	416(%rsp), %rax
	movq	%rax, 96(%rsp)
	movq	424(%rsp), %rax
	movq	%rax, 48(%rsp)
	movq	432(%rsp), %rax
	movq	%rax, 200(%rsp)
	movq	440(%rsp), %rax
	movq	%rax, 80(%rsp)
	movq	448(%rsp), %rcx
	movq	456(%rsp), %rax
	movq	%rax, 240(%rsp)
	movzbl	464(%rsp), %eax
	movb	%al, 336(%rsp)
	movq	%rcx, 64(%rsp)
	testq	%rcx, %rcx
	je	539f
	leaq	224(%rbx), %rax
	movq	%rax, 40(%rsp)
	movq	80(%rsp), %rax
	leaq	8(%rax), %rbp
	movq	64(%rsp), %r14
537:
	movq	-8(%rbp), %rsi
	movq	(%rbp), %rdx
	pxor	%xmm0, %xmm0
	movdqa	%xmm0, 1040(%rsp)
	movdqa	%xmm0, 1024(%rsp)
	leaq	1024(%rsp), %rdi
	callq	b2sum_commands..quoting..quoted_name_1_x86
	cmpb	$0, 1024(%rsp)
	jne	557f
	movq	1032(%rsp), %rbx
	movq	1040(%rsp), %r8
	movq	(%r12), %rdi
	movq	8(%r12), %rsi
	movq	1048(%rsp), %r12
	leaq	.L1_x86_static.251(%rip), %rax
	movq	%rax, 8(%rsp)
	movq	$21, 16(%rsp)
	movq	$2, (%rsp)
	leaq	.L1_x86_static.123(%rip), %r9
	movq	40(%rsp), %rdx
	movq	%rbx, %rcx
	callq	b2sum_commands..messages..warn..068f3e307c5390f2_1_x86
	movl	%eax, %r13d
	testq	%r12, %r12
	je	538f
	movq	%rbx, %rdi
	vj_call	rattle_dealloc
538:
	testb	%r13b, %r13b
	movq	112(%rsp), %rbx
	movq	72(%rsp), %r13
	jne	557f
	addq	$24, %rbp
	decq	%r14
	movq	208(%rsp), %r12
	jne	537b
539:
	movq	376(%rsp), %rax
	subq	%r15, %rax
	movq	48(%rsp), %rsi
	cmpq	%rax, %rsi
	ja	655f
	testq	%rsi, %rsi
	movq	96(%rsp), %rbp
	movzbl	336(%rsp), %r14d
	je	598f
540:
	leaq	(,%r15,8), %rax
	leaq	(%rax,%rax,2), %rdi
	addq	%r13, %rdi
	leaq	(,%rsi,8), %rax
	leaq	(%rax,%rax,2), %rdx
	movq	%rdi, %rax
	subq	%rbp, %rax
	cmpq	%rdx, %rax
	jae	585f
	leaq	-1(%rsi), %rcx
	movl	%esi, %eax
	andl	$7, %eax
	cmpq	$7, %rcx
	jae	593f
	xorl	%ecx, %ecx
	jmp	595f
541:
	movq	%r14, %rsi
	movq	%r15, %rdx
	movq	%rbx, 144(%rsp)
	movq	%r13, %rbx
	movq	%r8, %r13
	vj_c_call	memmove
	movq	%r13, %r8
	movq	%rbx, %r13
	movq	144(%rsp), %rbx
542:
	addq	%r15, %rbp
	testq	%r8, %r8
	je	543f
	movq	%r14, %rdi
	vj_call	rattle_dealloc
543:
	testq	%rbp, %rbp
	je	577f
	movq	112(%rsp), %rax
	testb	$1, 224(%rax)
	jne	577f
	xorl	%r15d, %r15d
544:
	leaq	(%rbx,%r15), %rsi
	movq	%rbp, %r14
	subq	%r15, %r14
	movl	$2, %edi
	movq	%r14, %rdx
	vj_system_call	write, b2_write
	testq	%rax, %rax
	js	575f
	cmpq	%r14, %rax
	cmovbq	%rax, %r14
	testq	%r14, %r14
	je	576f
	addq	%r14, %r15
	cmpq	%rbp, %r15
	jb	544b
	jmp	577f
545:
	leaq	736(%rsp), %rdi
	callq	std_io..io..error..last_error_1_x86
	movq	736(%rsp), %rax
	movups	744(%rsp), %xmm0
	movaps	%xmm0, 384(%rsp)
	movups	760(%rsp), %xmm0
	movaps	%xmm0, 400(%rsp)
	movups	776(%rsp), %xmm0
	movaps	%xmm0, 416(%rsp)
	movups	792(%rsp), %xmm0
	movaps	%xmm0, 432(%rsp)
	movups	808(%rsp), %xmm0
	movaps	%xmm0, 448(%rsp)
	movq	112(%rsp), %rcx
	movq	$1, 224(%rcx)
	movq	%rax, 232(%rcx)
	movaps	384(%rsp), %xmm0
	movdqa	400(%rsp), %xmm1
	movdqa	416(%rsp), %xmm2
	movdqa	432(%rsp), %xmm3
	movups	%xmm0, 240(%rcx)
	movdqu	%xmm1, 256(%rcx)
	movdqu	%xmm2, 272(%rcx)
	movdqu	%xmm3, 288(%rcx)
	movdqa	448(%rsp), %xmm0
	movdqu	%xmm0, 304(%rcx)
	jmp	548f
546:
	leaq	736(%rsp), %rdi
	callq	std_io..io..error..last_error_1_x86
	movq	736(%rsp), %rax
	movups	744(%rsp), %xmm0
	movaps	%xmm0, 384(%rsp)
	movups	760(%rsp), %xmm0
	movaps	%xmm0, 400(%rsp)
	movups	776(%rsp), %xmm0
	movaps	%xmm0, 416(%rsp)
	movups	792(%rsp), %xmm0
	movaps	%xmm0, 432(%rsp)
	movups	808(%rsp), %xmm0
	movaps	%xmm0, 448(%rsp)
	movq	112(%rsp), %rcx
	movq	$1, 224(%rcx)
	movq	%rax, 232(%rcx)
	movaps	384(%rsp), %xmm0
	movdqa	400(%rsp), %xmm1
	movdqa	416(%rsp), %xmm2
	movdqa	432(%rsp), %xmm3
	movups	%xmm0, 240(%rcx)
	movdqu	%xmm1, 256(%rcx)
	movdqu	%xmm2, 272(%rcx)
	movdqu	%xmm3, 288(%rcx)
	movdqa	448(%rsp), %xmm0
	movdqu	%xmm0, 304(%rcx)
	jmp	553f
547:
	movq	112(%rsp), %rax
	movq	$1, 224(%rax)
	movw	$5889, 232(%rax)
	pxor	%xmm0, %xmm0
	movdqu	%xmm0, 234(%rax)
	movdqu	%xmm0, 250(%rax)
	movdqu	%xmm0, 266(%rax)
	movdqu	%xmm0, 282(%rax)
	movdqu	%xmm0, 298(%rax)
	movq	$0, 312(%rax)
548:
	cmpq	$0, 688(%rsp)
	je	550f
549:
	movq	%rbx, %rdi
	vj_call	rattle_dealloc
550:
	movq	48(%rsp), %rbx
	movq	40(%rsp), %r14
	testq	%r12, %r12
	je	551f
	movq	32(%rsp), %rdi
	vj_call	rattle_dealloc
551:
	testq	%r14, %r14
	je	556f
	movq	%rbx, %rdi
	jmp	555f
552:
	movq	112(%rsp), %rax
	movq	$1, 224(%rax)
	movw	$5889, 232(%rax)
	pxor	%xmm0, %xmm0
	movdqu	%xmm0, 234(%rax)
	movdqu	%xmm0, 250(%rax)
	movdqu	%xmm0, 266(%rax)
	movdqu	%xmm0, 282(%rax)
	movdqu	%xmm0, 298(%rax)
	movq	$0, 312(%rax)
553:
	testq	%r12, %r12
	je	554f
	movq	%rbx, %rdi
	vj_call	rattle_dealloc
554:
	cmpq	$0, 40(%rsp)
	je	556f
	movq	48(%rsp), %rdi
555:
	vj_call	rattle_dealloc
556:
	xorl	%r14d, %r14d
	xorl	%ebp, %ebp
	jmp	239b
557:
	movq	144(%rsp), %rbp
	testq	%rbp, %rbp
	movq	64(%rsp), %r14
	movq	96(%rsp), %r12
	je	560f
	movq	32(%rsp), %rax
	leaq	16(%rax), %rbx
	jmp	559f
558:
	addq	$24, %rbx
	decq	%rbp
	je	560f
559:
	cmpq	$0, (%rbx)
	je	558b
	movq	-16(%rbx), %rdi
	vj_call	rattle_dealloc
	jmp	558b
560:
	cmpq	$0, 224(%rsp)
	je	561f
	movq	32(%rsp), %rdi
	vj_call	rattle_dealloc
561:
	movq	48(%rsp), %rbp
	testq	%rbp, %rbp
	je	564f
	leaq	16(%r12), %rbx
	jmp	563f
562:
	addq	$24, %rbx
	decq	%rbp
	je	564f
563:
	cmpq	$0, (%rbx)
	je	562b
	movq	-16(%rbx), %rdi
	vj_call	rattle_dealloc
	jmp	562b
564:
	cmpq	$0, 200(%rsp)
	je	565f
	movq	%r12, %rdi
	vj_call	rattle_dealloc
565:
	movq	80(%rsp), %rax
	leaq	16(%rax), %rbx
	jmp	567f
566:
	addq	$24, %rbx
	decq	%r14
	je	568f
567:
	cmpq	$0, (%rbx)
	je	566b
	movq	-16(%rbx), %rdi
	vj_call	rattle_dealloc
	jmp	566b
568:
	cmpq	$0, 240(%rsp)
	je	569f
	movq	80(%rsp), %rdi
	vj_call	rattle_dealloc
569:
	testq	%r15, %r15
	je	572f
	leaq	16(%r13), %rbx
	jmp	571f
570:
	addq	$24, %rbx
	decq	%r15
	je	572f
571:
	cmpq	$0, (%rbx)
	je	570b
	movq	-16(%rbx), %rdi
	vj_call	rattle_dealloc
	jmp	570b
572:
	movb	$1, %bpl
	cmpq	$0, 376(%rsp)
	je	678f
	movq	%r13, %rdi
573:
	vj_call	rattle_dealloc
	xorl	%r14d, %r14d
	jmp	527b
574:
	cmpq	$32, %r15
	jae	580f
	xorl	%eax, %eax
	jmp	582f
575:
	leaq	736(%rsp), %rdi
	callq	std_io..io..error..last_error_1_x86
	movq	736(%rsp), %rax
	movups	744(%rsp), %xmm0
	movaps	%xmm0, 384(%rsp)
	movups	760(%rsp), %xmm0
	movaps	%xmm0, 400(%rsp)
	movups	776(%rsp), %xmm0
	movaps	%xmm0, 416(%rsp)
	movups	792(%rsp), %xmm0
	movaps	%xmm0, 432(%rsp)
	movups	808(%rsp), %xmm0
	movaps	%xmm0, 448(%rsp)
	movq	112(%rsp), %rcx
	movq	$1, 224(%rcx)
	movq	%rax, 232(%rcx)
	movaps	384(%rsp), %xmm0
	movdqa	400(%rsp), %xmm1
	movdqa	416(%rsp), %xmm2
	movdqa	432(%rsp), %xmm3
	movups	%xmm0, 240(%rcx)
	movdqu	%xmm1, 256(%rcx)
	movdqu	%xmm2, 272(%rcx)
	movdqu	%xmm3, 288(%rcx)
	movdqa	448(%rsp), %xmm0
	movdqu	%xmm0, 304(%rcx)
	jmp	577f
576:
	movq	112(%rsp), %rax
	movq	$1, 224(%rax)
	movw	$5889, 232(%rax)
	pxor	%xmm0, %xmm0
	movdqu	%xmm0, 234(%rax)
	movdqu	%xmm0, 250(%rax)
	movdqu	%xmm0, 266(%rax)
	movdqu	%xmm0, 282(%rax)
	movdqu	%xmm0, 298(%rax)
	movq	$0, 312(%rax)
577:
	testq	%r13, %r13
	jne	549b
	jmp	550b
578:
	cmpq	$32, %r15
	jae	586f
	xorl	%eax, %eax
	jmp	588f
579:
	pxor	%xmm0, %xmm0
	movdqa	%xmm0, 400(%rsp)
	movdqa	%xmm0, 384(%rsp)
	leaq	384(%rsp), %rdi
	movq	136(%rsp), %rsi
	movq	272(%rsp), %rdx
	callq	b2sum_commands..quoting..quoted_name_1_x86
	cmpb	$0, 384(%rsp)
	je	614f
	movq	120(%rsp), %rdi
	jmp	616f
580:
	movq	%r15, %rax
	andq	$-32, %rax
	leaq	(%rbx,%r13), %rcx
	addq	$16, %rcx
	xorl	%edx, %edx
581:
	movdqu	(%r14,%rdx), %xmm0
	movdqu	16(%r14,%rdx), %xmm1
	movdqu	%xmm0, -16(%rcx,%rdx)
	movdqu	%xmm1, (%rcx,%rdx)
	addq	$32, %rdx
	cmpq	%rdx, %rax
	jne	581b
	cmpq	%rax, %r15
	je	503b
	testb	$28, %r15b
	je	450b
582:
	movq	%rax, %rcx
	movq	%r15, %rax
	andq	$-4, %rax
583:
	movl	(%r14,%rcx), %edx
	movl	%edx, (%rdi,%rcx)
	addq	$4, %rcx
	cmpq	%rcx, %rax
	jne	583b
	cmpq	%rax, %r15
	je	503b
	jmp	450b
584:
	movq	%r8, %rbx
	leaq	672(%rsp), %rdi
	movq	%r15, %rsi
	callq	std_alloc..vec..Vec..grow_amortized..01eec35b572d02af_1_x86
	testb	%al, %al
	je	591f
	movq	680(%rsp), %r13
	movq	688(%rsp), %r12
	movq	%rbx, %r8
	jmp	448b
585:
	movq	%rbp, %rsi
	vj_c_call	memmove
	jmp	597f
586:
	movq	%r15, %rax
	andq	$-32, %rax
	leaq	(%rbx,%rbp), %rcx
	addq	$16, %rcx
	xorl	%edx, %edx
587:
	movdqu	(%r14,%rdx), %xmm0
	movdqu	16(%r14,%rdx), %xmm1
	movdqu	%xmm0, -16(%rcx,%rdx)
	movdqu	%xmm1, (%rcx,%rdx)
	addq	$32, %rdx
	cmpq	%rdx, %rax
	jne	587b
	cmpq	%rax, %r15
	je	542b
	testb	$28, %r15b
	je	493b
588:
	movq	%rax, %rcx
	movq	%r15, %rax
	andq	$-4, %rax
589:
	movl	(%r14,%rcx), %edx
	movl	%edx, (%rdi,%rcx)
	addq	$4, %rcx
	cmpq	%rcx, %rax
	jne	589b
	cmpq	%rax, %r15
	je	542b
	jmp	493b
590:
	movq	%r8, %rbx
	leaq	672(%rsp), %rdi
	movq	%r15, %rsi
	callq	std_alloc..vec..Vec..grow_amortized..01eec35b572d02af_1_x86
	testb	%al, %al
	je	644f
	movq	680(%rsp), %rbp
	movq	688(%rsp), %r13
	movq	%rbx, %r8
	jmp	491b
591:
	testq	%rbx, %rbx
	je	592f
	movq	%r14, %rdi
	vj_call	rattle_dealloc
592:
	cmpq	$0, 688(%rsp)
	movq	40(%rsp), %rbx
	jne	438b
	jmp	236b
593:
	movq	%rsi, %rdx
	andq	$-8, %rdx
	movl	$168, %esi
	xorl	%ecx, %ecx
594:
	movups	-168(%rbp,%rsi), %xmm0
	movq	-152(%rbp,%rsi), %r8
	movq	%r8, -152(%rdi,%rsi)
	movups	%xmm0, -168(%rdi,%rsi)
	movups	-144(%rbp,%rsi), %xmm0
	movq	-128(%rbp,%rsi), %r8
	movq	%r8, -128(%rdi,%rsi)
	movups	%xmm0, -144(%rdi,%rsi)
	movups	-120(%rbp,%rsi), %xmm0
	movq	-104(%rbp,%rsi), %r8
	movq	%r8, -104(%rdi,%rsi)
	movups	%xmm0, -120(%rdi,%rsi)
	movups	-96(%rbp,%rsi), %xmm0
	movq	-80(%rbp,%rsi), %r8
	movq	%r8, -80(%rdi,%rsi)
	movups	%xmm0, -96(%rdi,%rsi)
	movups	-72(%rbp,%rsi), %xmm0
	movq	-56(%rbp,%rsi), %r8
	movq	%r8, -56(%rdi,%rsi)
	movups	%xmm0, -72(%rdi,%rsi)
	movups	-48(%rbp,%rsi), %xmm0
	movq	-32(%rbp,%rsi), %r8
	movq	%r8, -32(%rdi,%rsi)
	movups	%xmm0, -48(%rdi,%rsi)
	movups	-24(%rbp,%rsi), %xmm0
	movq	-8(%rbp,%rsi), %r8
	movq	%r8, -8(%rdi,%rsi)
	movups	%xmm0, -24(%rdi,%rsi)
	movdqu	(%rbp,%rsi), %xmm0
	movq	16(%rbp,%rsi), %r8
	movq	%r8, 16(%rdi,%rsi)
	movdqu	%xmm0, (%rdi,%rsi)
	addq	$8, %rcx
	addq	$192, %rsi
	cmpq	%rcx, %rdx
	jne	594b
	testq	%rax, %rax
	je	597f
595:
	shlq	$3, %rcx
	leaq	(%rcx,%rcx,2), %rdx
	leaq	(%rdx,%rbp), %rcx
	addq	%rdx, %rdi
	shll	$3, %eax
	leaq	(%rax,%rax,2), %rax
	xorl	%edx, %edx
596:
	movdqu	(%rcx,%rdx), %xmm0
	movq	16(%rcx,%rdx), %rsi
	movq	%rsi, 16(%rdi,%rdx)
	movdqu	%xmm0, (%rdi,%rdx)
	addq	$24, %rdx
	cmpq	%rdx, %rax
	jne	596b
597:
	addq	48(%rsp), %r15
	movq	%r15, 584(%rsp)
598:
	testb	$1, %r14b
	je	601f
	leaq	736(%rsp), %rsi
	movq	%r12, %rdi
	movq	%rbx, %rdx
	movq	%r13, %rcx
	movq	%r15, %r8
	callq	b2sum_commands..seals..print_list..82a450bcca081e63_1_x86
	movl	%eax, %ebp
	movl	%edx, %r14d
	cmpq	$0, 144(%rsp)
	movq	64(%rsp), %r12
	je	603f
	movq	32(%rsp), %rax
	leaq	16(%rax), %rbx
	jmp	600f
599:
	addq	$24, %rbx
	decq	144(%rsp)
	je	603f
600:
	cmpq	$0, (%rbx)
	je	599b
	movq	-16(%rbx), %rdi
	vj_call	rattle_dealloc
	jmp	599b
601:
	pxor	%xmm0, %xmm0
	movdqu	%xmm0, 1032(%rsp)
	leaq	24(%rsp), %rax
	movq	%rax, 1024(%rsp)
	leaq	736(%rsp), %rsi
	leaq	1024(%rsp), %r9
	movq	%r12, %rdi
	movq	%rbx, %rdx
	movq	%r13, %rcx
	movq	%r15, %r8
	callq	b2sum_commands..sums..print_lines..82a450bcca081e63_1_x86
	movl	%eax, %ebx
	movl	%edx, %r14d
	cmpq	$0, 1040(%rsp)
	je	602f
	movq	1024(%rsp), %rdi
	vj_call	rattle_dealloc
602:
	testb	%bl, %bl
	movq	64(%rsp), %rbx
	je	613f
	movq	32(%rsp), %rax
	movq	%rax, 1264(%rsp)
	movq	144(%rsp), %rax
	movq	%rax, 1272(%rsp)
	movq	224(%rsp), %rax
	movq	%rax, 1280(%rsp)
	leaq	1264(%rsp), %rdi
	callq	std_alloc..vec..Vec..drop..3374fb78d704bdda_1_x86
	movq	%rbp, 672(%rsp)
	movq	$0, 680(%rsp)
	movq	200(%rsp), %rax
	movq	%rax, 688(%rsp)
	leaq	672(%rsp), %rdi
	callq	std_alloc..vec..Vec..drop..3374fb78d704bdda_1_x86
	movq	80(%rsp), %rax
	movq	%rax, 1200(%rsp)
	movq	%rbx, 1208(%rsp)
	movq	240(%rsp), %rax
	movq	%rax, 1216(%rsp)
	leaq	1200(%rsp), %rdi
	callq	std_alloc..vec..Vec..drop..3374fb78d704bdda_1_x86
	leaq	576(%rsp), %rdi
	callq	std_alloc..vec..Vec..drop..3374fb78d704bdda_1_x86
	movb	$1, %bpl
	jmp	527b
603:
	cmpq	$0, 224(%rsp)
	je	604f
	movq	32(%rsp), %rdi
	vj_call	rattle_dealloc
604:
	cmpq	$0, 200(%rsp)
	je	605f
	movq	96(%rsp), %rdi
	vj_call	rattle_dealloc
605:
	testq	%r12, %r12
	je	608f
	movq	80(%rsp), %rax
	leaq	16(%rax), %rbx
	jmp	607f
606:
	addq	$24, %rbx
	decq	%r12
	je	608f
607:
	cmpq	$0, (%rbx)
	je	606b
	movq	-16(%rbx), %rdi
	vj_call	rattle_dealloc
	jmp	606b
608:
	cmpq	$0, 240(%rsp)
	je	609f
	movq	80(%rsp), %rdi
	vj_call	rattle_dealloc
609:
	movq	592(%rsp), %rbx
	testq	%r15, %r15
	je	612f
	leaq	16(%r13), %r12
	jmp	611f
610:
	addq	$24, %r12
	decq	%r15
	je	612f
611:
	cmpq	$0, (%r12)
	je	610b
	movq	-16(%r12), %rdi
	vj_call	rattle_dealloc
	jmp	610b
612:
	testq	%rbx, %rbx
	jne	526b
	jmp	527b
613:
	movq	32(%rsp), %rax
	movq	%rax, 1168(%rsp)
	movq	144(%rsp), %rax
	movq	%rax, 1176(%rsp)
	movq	224(%rsp), %rax
	movq	%rax, 1184(%rsp)
	leaq	1168(%rsp), %rdi
	callq	std_alloc..vec..Vec..drop..3374fb78d704bdda_1_x86
	movq	%rbp, 1408(%rsp)
	movq	$0, 1416(%rsp)
	movq	200(%rsp), %rax
	movq	%rax, 1424(%rsp)
	leaq	1408(%rsp), %rdi
	callq	std_alloc..vec..Vec..drop..3374fb78d704bdda_1_x86
	movq	80(%rsp), %rax
	movq	%rax, 1456(%rsp)
	movq	%rbx, 1464(%rsp)
	movq	240(%rsp), %rax
	movq	%rax, 1472(%rsp)
	leaq	1456(%rsp), %rdi
	callq	std_alloc..vec..Vec..drop..3374fb78d704bdda_1_x86
	leaq	576(%rsp), %rdi
	callq	std_alloc..vec..Vec..drop..3374fb78d704bdda_1_x86
	xorl	%r14d, %r14d
	xorl	%ebp, %ebp
	jmp	527b
614:
	movq	392(%rsp), %r14
	movq	400(%rsp), %rax
	movq	208(%rsp), %rcx
	movq	(%rcx), %rdi
	movq	8(%rcx), %rsi
	movq	408(%rsp), %r13
	leaq	.L1_x86_static.175(%rip), %rcx
	movq	%rcx, 8(%rsp)
	movq	%rax, (%rsp)
	movq	$64, 16(%rsp)
	leaq	.L1_x86_static.176(%rip), %rcx
	movl	$9, %r8d
	movq	32(%rsp), %rdx
	movq	%r14, %r9
	callq	b2sum_commands..messages..warn..068f3e307c5390f2_1_x86
	movl	%eax, %ebp
	testq	%r13, %r13
	je	615f
	movq	%r14, %rdi
	vj_call	rattle_dealloc
615:
	testb	%bpl, %bpl
	movq	72(%rsp), %r13
	movq	104(%rsp), %r14
	movq	64(%rsp), %rbp
	movq	120(%rsp), %rdi
	movq	568(%rsp), %r8
	movq	360(%rsp), %r9
	movq	352(%rsp), %r10
	movq	368(%rsp), %r11
	je	625f
616:
	cmpq	$0, 304(%rsp)
	je	617f
	movq	288(%rsp), %rdi
	vj_call	rattle_dealloc
	movq	120(%rsp), %rdi
617:
	cmpb	$0, 312(%rsp)
	jne	618f
	movq	136(%rsp), %rdi
	vj_call	rattle_dealloc
	movq	120(%rsp), %rdi
618:
	cmpq	$0, 168(%rsp)
	je	619f
	movq	40(%rsp), %rdi
	vj_call	rattle_dealloc
	movq	120(%rsp), %rdi
619:
	cmpb	$1, %dil
	setne	%al
	cmpq	$0, 216(%rsp)
	sete	%cl
	orb	%al, %cl
	jne	620f
	movq	232(%rsp), %rdi
	vj_call	rattle_dealloc
620:
	cmpq	$0, 336(%rsp)
	je	621f
	movq	248(%rsp), %rdi
	vj_call	rattle_dealloc
621:
	cmpq	$0, 240(%rsp)
	je	622f
	movq	192(%rsp), %rdi
	vj_call	rattle_dealloc
622:
	testq	%r12, %r12
	je	640f
	leaq	16(%rbp), %rbx
	jmp	624f
623:
	addq	$24, %rbx
	decq	%r12
	je	640f
624:
	cmpq	$0, (%rbx)
	je	623b
	movq	-16(%rbx), %rdi
	vj_call	rattle_dealloc
	jmp	623b
625:
	cmpb	$1, %dil
	jne	627f
	movzbl	176(%rsp), %eax
	leaq	.L1_x86_switch.table.b2sum_lines..writes..push_body_1_x86(%rip), %rcx
	movq	(%rcx,%rax,8), %r14
	movl	$1, %esi
	movq	%r14, %rdi
	vj_call	rattle_alloc
	testb	$1, %al
	je	631f
	movq	%rdx, %rcx
	leaq	-1(%r14), %rdx
	movq	%rcx, %r13
	movq	%rcx, %rdi
	xorl	%esi, %esi
	vj_c_call	memset
	movb	$0, -1(%r13,%r14)
	movq	288(%rsp), %rdi
	movq	1192(%rsp), %rsi
	movq	232(%rsp), %rdx
	movq	568(%rsp), %rcx
	movq	%r13, 272(%rsp)
	movq	%r13, %r8
	movq	%r14, %r9
	callq	b2sum..hashes..derive_key_1_x86
	callq	blake2_digest..wiping..scrub_stack..8192_1_x86
	cmpq	$0, 304(%rsp)
	movq	%r14, 32(%rsp)
	je	626f
	movq	288(%rsp), %rdi
	vj_call	rattle_dealloc
626:
	movq	272(%rsp), %rdx
	movq	%r14, 304(%rsp)
	movq	104(%rsp), %r13
	movq	120(%rsp), %rdi
	movq	568(%rsp), %r8
	movq	360(%rsp), %r9
	movq	352(%rsp), %r10
	movq	368(%rsp), %r11
	jmp	628f
627:
	movq	%r14, %r13
	movq	1192(%rsp), %rax
	movq	%rax, 32(%rsp)
	movq	288(%rsp), %rdx
628:
	cmpq	$0, 168(%rsp)
	je	629f
	movq	40(%rsp), %rdi
	movq	%rdx, %r14
	vj_call	rattle_dealloc
	movq	%r14, %rdx
	movq	368(%rsp), %r11
	movq	352(%rsp), %r10
	movq	360(%rsp), %r9
	movq	568(%rsp), %r8
	movq	120(%rsp), %rdi
629:
	cmpb	$0, 312(%rsp)
	jne	630f
	movq	136(%rsp), %rdi
	movq	%rdx, %r14
	vj_call	rattle_dealloc
	movq	%r14, %rdx
	movq	368(%rsp), %r11
	movq	352(%rsp), %r10
	movq	360(%rsp), %r9
	movq	568(%rsp), %r8
	movq	120(%rsp), %rdi
630:
	movl	560(%rsp), %eax
	movl	563(%rsp), %ecx
	movl	%ecx, 1163(%rsp)
	movl	%eax, 1160(%rsp)
	movq	216(%rsp), %rsi
	movq	%r13, %r14
	movq	304(%rsp), %r13
	jmp	244b
631:
	cmpq	$0, 304(%rsp)
	je	632f
	movq	288(%rsp), %rdi
	vj_call	rattle_dealloc
632:
	cmpb	$0, 312(%rsp)
	movq	104(%rsp), %r14
	jne	633f
	movq	136(%rsp), %rdi
	vj_call	rattle_dealloc
633:
	cmpq	$0, 168(%rsp)
	je	634f
	movq	40(%rsp), %rdi
	vj_call	rattle_dealloc
634:
	cmpq	$0, 216(%rsp)
	je	635f
	movq	232(%rsp), %rdi
	vj_call	rattle_dealloc
635:
	cmpq	$0, 336(%rsp)
	je	636f
	movq	248(%rsp), %rdi
	vj_call	rattle_dealloc
636:
	cmpq	$0, 240(%rsp)
	je	637f
	movq	192(%rsp), %rdi
	vj_call	rattle_dealloc
637:
	testq	%r12, %r12
	je	640f
	leaq	16(%rbp), %rbx
	jmp	639f
638:
	addq	$24, %rbx
	decq	%r12
	je	640f
639:
	cmpq	$0, (%rbx)
	je	638b
	movq	-16(%rbx), %rdi
	vj_call	rattle_dealloc
	jmp	638b
640:
	cmpq	$0, 224(%rsp)
	je	641f
	movq	%rbp, %rdi
	vj_call	rattle_dealloc
641:
	cmpb	$1, 96(%rsp)
	setne	%al
	cmpq	$0, 200(%rsp)
	sete	%cl
	orb	%al, %cl
	jne	642f
	movq	%r14, %rdi
	vj_call	rattle_dealloc
642:
	xorl	%r14d, %r14d
	testq	%r15, %r15
	jne	483b
643:
	movb	$1, %bpl
	cmpq	$0, 376(%rsp)
	je	239b
	movq	%r13, %rdi
	vj_call	rattle_dealloc
	jmp	239b
644:
	testq	%rbx, %rbx
	je	645f
	movq	%r14, %rdi
	vj_call	rattle_dealloc
645:
	cmpq	$0, 688(%rsp)
	movq	40(%rsp), %rbx
	jne	436b
	jmp	233b
646:
	cmpb	$1, %r14b
	sete	%r13b
	cmpq	%r8, 352(%rsp)
	setne	%r8b
	movb	$1, %r14b
	testb	%r8b, %r13b
	jne	204b
647:
	cmpb	$1, 284(%rsp)
	movq	80(%rsp), %r14
	jne	649f
	movl	%edi, %edx
	xorb	$1, %dl
	orb	256(%rsp), %dl
	jne	648f
	leaq	.L1_x86_static.89(%rip), %rsi
	movl	$34, %edx
	jmp	651f
648:
	movzbl	168(%rsp), %edx
	orb	%r11b, %dl
	testb	$1, %dl
	je	649f
	leaq	.L1_x86_static.90(%rip), %rsi
	movl	$43, %edx
	jmp	651f
649:
	cmpq	$0, 264(%rsp)
	je	650f
	cmpq	$0, 1360(%rsp)
	je	650f
	leaq	.L1_x86_static.91(%rip), %rsi
	movl	$65, %edx
	jmp	651f
650:
	andb	128(%rsp), %r10b
	testb	$1, %r10b
	je	652f
	leaq	.L1_x86_static.92(%rip), %rsi
	movl	$64, %edx
651:
	jmp	204b
652:
	cmpb	$1, 176(%rsp)
	jne	653f
	movq	32(%rsp), %rdx
	addl	$-4, %edx
	cmpb	$-4, %dl
	ja	654f
	testb	$1, %r14b
	je	656f
	leaq	.L1_x86_static.94(%rip), %rsi
	movl	$45, %edx
	movb	$1, %r14b
	jmp	204b
653:
	cmpb	$1, 191(%rsp)
	jne	657f
	testb	$1, %bpl
	jne	658f
	leaq	.L1_x86_static.96(%rip), %rsi
	movl	$51, %edx
	jmp	651b
654:
	leaq	.L1_x86_static.93(%rip), %rsi
	movl	$39, %edx
	jmp	651b
655:
	leaq	576(%rsp), %rdi
	callq	std_alloc..vec..Vec..grow_amortized..bb23d2d2a8e2d2e5_1_x86
	testb	%al, %al
	movq	96(%rsp), %rbp
	je	662f
	movq	576(%rsp), %r13
	movq	584(%rsp), %r15
	movq	48(%rsp), %rsi
	movzbl	336(%rsp), %r14d
	jmp	540b
656:
	movl	%edi, %edx
	xorb	$1, %dl
	orb	256(%rsp), %dl
	jne	657f
	movb	$1, %dil
	xorl	%r14d, %r14d
	testb	$1, %bpl
	jne	659f
	leaq	.L1_x86_static.95(%rip), %rsi
	movl	$35, %edx
	jmp	204b
657:
	cmpb	$1, %bpl
	jne	660f
658:
659:
	leaq	.L1_x86_static.97(%rip), %rdx
	leaq	.L1_x86_static.98(%rip), %rsi
	movq	368(%rsp), %r8
	testb	$1, %r8b
	cmovneq	%rdx, %rsi
	movl	%r8d, %edx
	orb	284(%rsp), %dl
	je	661f
	movzbl	%r8b, %eax
	leaq	(%rax,%rax,2), %rdx
	addq	$56, %rdx
	jmp	204b
660:
	testb	$1, 296(%rsp)
	je	679f
	leaq	.L1_x86_static.102(%rip), %rsi
	movl	$71, %edx
	jmp	651b
661:
	testb	$1, %dil
	je	681f
	leaq	.L1_x86_static.99(%rip), %rsi
	movl	$72, %edx
	jmp	204b
662:
	cmpq	$0, 144(%rsp)
	movq	64(%rsp), %r14
	je	665f
	movq	32(%rsp), %rax
	leaq	16(%rax), %rbx
	jmp	664f
663:
	addq	$24, %rbx
	decq	144(%rsp)
	je	665f
664:
	cmpq	$0, (%rbx)
	je	663b
	movq	-16(%rbx), %rdi
	vj_call	rattle_dealloc
	jmp	663b
665:
	cmpq	$0, 224(%rsp)
	je	666f
	movq	32(%rsp), %rdi
	vj_call	rattle_dealloc
666:
	leaq	16(%rbp), %rbx
	jmp	668f
667:
	addq	$24, %rbx
	decq	48(%rsp)
	je	669f
668:
	cmpq	$0, (%rbx)
	je	667b
	movq	-16(%rbx), %rdi
	vj_call	rattle_dealloc
	jmp	667b
669:
	cmpq	$0, 200(%rsp)
	je	670f
	movq	%rbp, %rdi
	vj_call	rattle_dealloc
670:
	testq	%r14, %r14
	je	673f
	movq	80(%rsp), %rax
	leaq	16(%rax), %rbx
	jmp	672f
671:
	addq	$24, %rbx
	decq	%r14
	je	673f
672:
	cmpq	$0, (%rbx)
	je	671b
	movq	-16(%rbx), %rdi
	vj_call	rattle_dealloc
	jmp	671b
673:
	cmpq	$0, 240(%rsp)
	je	674f
	movq	80(%rsp), %rdi
	vj_call	rattle_dealloc
674:
	movq	576(%rsp), %rbx
	movq	584(%rsp), %r15
	movq	592(%rsp), %r14
	testq	%r15, %r15
	je	677f
	leaq	16(%rbx), %r12
	jmp	676f
675:
	addq	$24, %r12
	decq	%r15
	je	677f
676:
	cmpq	$0, (%r12)
	je	675b
	movq	-16(%r12), %rdi
	vj_call	rattle_dealloc
	jmp	675b
677:
	movb	$1, %bpl
	testq	%r14, %r14
	je	678f
	movq	%rbx, %rdi
	jmp	573b
678:
	xorl	%r14d, %r14d
	jmp	527b
679:
	movzbl	328(%rsp), %esi
	movl	$63, %edx
	movl	%esi, %esi
	leaq	.L1_x86_JTI4_2(%rip), %r8
	movslq	(%r8,%rsi,4), %rsi
	addq	%r8, %rsi
	notrack	jmpq	*%rsi
680:
	testb	$1, 1248(%rsp)
	je	687f
	leaq	.L1_x86_static.106(%rip), %rsi
	jmp	203b
681:
	movzbl	168(%rsp), %edx
	orb	%r11b, %dl
	testb	$1, %dl
	je	682f
	leaq	.L1_x86_static.100(%rip), %rsi
	movl	$73, %edx
	jmp	204b
682:
	movq	320(%rsp), %rdx
	andb	%r14b, %dl
	movb	$1, %sil
	movq	%rsi, 1392(%rsp)
	testb	$1, %dl
	je	686f
	leaq	.L1_x86_static.101(%rip), %rsi
	movl	$88, %edx
	movb	$1, %r14b
	jmp	204b
683:
	leaq	.L1_x86_static.105(%rip), %rsi
	movl	$62, %edx
	jmp	651b
684:
	leaq	.L1_x86_static.103(%rip), %rsi
	jmp	651b
685:
	leaq	.L1_x86_static.104(%rip), %rsi
	movl	$61, %edx
	jmp	651b
686:
	xorl	%edi, %edi
	movl	%r14d, %edx
	movq	%rdx, 80(%rsp)
	jmp	689f
687:
	movl	$0, 328(%rsp)
	movl	$0, 1248(%rsp)
	testb	$1, 320(%rsp)
	je	688f
	leaq	.L1_x86_static.107(%rip), %rsi
	movl	$69, %edx
	jmp	203b
688:
	movq	$0, 296(%rsp)
	movq	$0, 1392(%rsp)
689:
	movdqa	%xmm0, 752(%rsp)
	movdqa	%xmm0, 736(%rsp)
	movzbl	32(%rsp), %edx
	leaq	.L1_x86_switch.table.b2sum_commands..program..run_words..82a450bcca081e63.400_1_x86(%rip), %rsi
	movq	(%rsi,%rdx,8), %rdx
	cmpq	360(%rsp), %rdx
	jae	690f
	movq	$0, (%rsp)
	leaq	.L1_x86_static.108(%rip), %rsi
	leaq	.L1_x86_static.1(%rip), %rcx
	leaq	736(%rsp), %rdi
	movl	$66, %edx
	jmp	691f
690:
	cmpq	264(%rsp), %rdx
	setb	%sil
	cmpq	1360(%rsp), %rdx
	setb	%dl
	orb	%sil, %dl
	cmpb	$1, %dl
	jne	695f
	movq	$0, (%rsp)
	leaq	.L1_x86_static.109(%rip), %rsi
	leaq	.L1_x86_static.1(%rip), %rcx
	leaq	736(%rsp), %rdi
	movl	$77, %edx
691:
	xorl	%r8d, %r8d
	movq	%rcx, %r9
	callq	b2sum_commands..options..joined_1_x86
	movq	$0, 256(%rsp)
	xorl	%eax, %eax
	cmpb	$0, 736(%rsp)
	setne	%cl
	movl	$0, %edx
	movq	%rdx, 48(%rsp)
	jne	692f
	movq	744(%rsp), %rdx
	movq	%rdx, 48(%rsp)
692:
	movb	%cl, %al
	je	693f
	pxor	%xmm0, %xmm0
	jmp	694f
693:
	movdqa	752(%rsp), %xmm0
694:
	leaq	2(,%rax,2), %rax
	movq	%rax, 176(%rsp)
	movq	$0, 32(%rsp)
	movq	$0, 168(%rsp)
	jmp	208b
695:
	cmpq	$1, %r15
	setne	%dl
	testb	%r11b, %dl
	je	697f
	movl	$31, %edx
	leaq	.L1_x86_static.110(%rip), %rsi
696:
	movq	$0, (%rsp)
	leaq	.L1_x86_static.1(%rip), %rcx
	movq	$0, 256(%rsp)
	leaq	1264(%rsp), %rdi
	xorl	%r8d, %r8d
	movq	%rcx, %r9
	callq	b2sum_commands..options..joined_1_x86
	cmpb	$0, 1264(%rsp)
	je	705f
	pxor	%xmm0, %xmm0
	movl	$4, %eax
	movq	%rax, 176(%rsp)
	jmp	205b
697:
	cmpb	$1, 80(%rsp)
	sete	%sil
	cmpq	$1, 272(%rsp)
	sete	%dl
	movq	%rsi, 1448(%rsp)
	andb	%sil, %dl
	cmpb	$1, %dl
	jne	700f
	testq	%r15, %r15
	je	700f
	movq	136(%rsp), %rsi
	cmpb	$45, (%rsi)
	jne	700f
	movq	72(%rsp), %rsi
	addq	$8, %rsi
	movq	%r15, %r8
	jmp	699f
698:
	addq	$24, %rsi
	decq	%r8
	je	700f
699:
	cmpq	$1, (%rsi)
	jne	698b
	movq	-8(%rsi), %r10
	cmpb	$45, (%r10)
	jne	698b
	movl	$51, %edx
	leaq	.L1_x86_static.111(%rip), %rsi
	jmp	696b
700:
	movzbl	176(%rsp), %r14d
	cmpb	$1, %r14b
	cmovel	48(%rsp), %ebx
	movzbl	32(%rsp), %esi
	leaq	.L1_x86_switch.table.b2sum_lines..writes..push_body_1_x86(%rip), %r8
	movq	(%r8,%rsi,8), %rsi
	movq	%rax, %r8
	shrq	$3, %r8
	cmpq	%r8, %rsi
	cmovbq	%rsi, %r8
	movq	80(%rsp), %r10
	andb	$1, %r10b
	testq	%rax, %rax
	cmoveq	%rsi, %r8
	movq	%r8, 48(%rsp)
	movq	%r10, 80(%rsp)
	movzbl	%r10b, %r13d
	movl	$1, %ebp
	cmovel	%r13d, %ebp
	movl	$1, %eax
	movl	%r14d, %esi
	andb	$1, %sil
	movzbl	%sil, %r14d
	testb	$1, 1368(%rsp)
	cmovnel	%eax, %r14d
	testb	%dl, %dl
	je	701f
	xorl	%edx, %edx
	movq	136(%rsp), %rax
	cmpb	$45, (%rax)
	sete	%dl
	movq	%rdx, 1368(%rsp)
	jmp	702f
701:
	movq	$0, 1368(%rsp)
702:
	movq	264(%rsp), %rax
	orq	1360(%rsp), %rax
	setne	%sil
	cmpq	$0, 360(%rsp)
	setne	%al
	movq	%rax, 1384(%rsp)
	movzbl	168(%rsp), %eax
	andb	$1, %al
	movzbl	%al, %eax
	testb	$1, %r11b
	movl	$2, %edx
	cmovel	%eax, %edx
	movq	%rdx, 1440(%rsp)
	movzbl	284(%rsp), %edx
	orb	176(%rsp), %dl
	movl	$0, 284(%rsp)
	movb	%sil, 168(%rsp)
	movl	%esi, %eax
	movq	%rax, 1376(%rsp)
	movl	$0, 1260(%rsp)
	testb	$1, %dl
	jne	703f
	cmpb	$1, 256(%rsp)
	movb	$2, %al
	sbbb	$0, %al
	cmpb	$1, %dil
	movzbl	%al, %eax
	movl	$1, %edx
	cmovel	%eax, %edx
	movl	%edx, 1260(%rsp)
	movq	$0, 80(%rsp)
	movq	$0, 1384(%rsp)
	movq	$0, 1376(%rsp)
703:
	testb	$1, 1248(%rsp)
	movl	$1, %eax
	movl	%r13d, %edx
	cmovnel	%eax, %edx
	movq	%rdx, 1248(%rsp)
	movzbl	%r9b, %edx
	testb	$1, %cl
	cmovnel	%eax, %edx
	movq	%rdx, 1432(%rsp)
	cmpb	$1, 191(%rsp)
	movl	284(%rsp), %eax
	cmovel	1404(%rsp), %eax
	movl	%eax, 284(%rsp)
	cmpq	$0, 1360(%rsp)
	je	706f
	cmpq	$0, 240(%rsp)
	je	704f
	movq	192(%rsp), %rdi
	vj_call	rattle_dealloc
704:
	movq	304(%rsp), %rax
	movq	%rax, 192(%rsp)
	movq	1360(%rsp), %rax
	movq	%rax, 264(%rsp)
	movq	288(%rsp), %rax
	movq	%rax, 240(%rsp)
	jmp	707f
705:
	movq	1272(%rsp), %rax
	movq	%rax, 48(%rsp)
	movl	$2, %eax
	movq	%rax, 176(%rsp)
	movdqa	1280(%rsp), %xmm0
	movq	$0, 32(%rsp)
	jmp	207b
706:
	cmpq	$0, 288(%rsp)
	je	707f
	movq	304(%rsp), %rdi
	vj_call	rattle_dealloc
707:
	cmpq	$0, 312(%rsp)
	je	708f
	movq	1192(%rsp), %rdi
	vj_call	rattle_dealloc
708:
	xorl	%eax, %eax
	movq	360(%rsp), %r9
	testq	%r9, %r9
	setne	%al
	shlq	$32, %rbx
	cmpb	$1, 176(%rsp)
	movzbl	32(%rsp), %ecx
	movl	$4, %edx
	cmovneq	%rcx, %rdx
	orq	%rbx, %rdx
	movq	%rdx, 176(%rsp)
	movl	$0, 1171(%rsp)
	movl	$0, 1168(%rsp)
	xorl	%ecx, %ecx
	movzbl	168(%rsp), %edx
	movb	%dl, %cl
	shll	$24, %ecx
	shll	$16, %eax
	orl	%ecx, %eax
	shll	$8, %r13d
	orl	%eax, %r13d
	addq	%r13, 1368(%rsp)
	cmpq	$0, 40(%rsp)
	sete	312(%rsp)
	leaq	24(%rsp), %rax
	movq	%rax, 40(%rsp)
	movb	$1, %al
	movq	$0, 32(%rsp)
	movq	$0, 168(%rsp)
	movq	$0, 256(%rsp)
	xorl	%ecx, %ecx
	movq	72(%rsp), %r13
	movq	216(%rsp), %rsi
	movq	120(%rsp), %rdi
	movq	568(%rsp), %r8
	movq	352(%rsp), %r10
	movq	368(%rsp), %r11
	jmp	226b
	vj_end	b2sum_commands..program..run_words..82a450bcca081e63_1_x86

	vj_data	b2sum_commands..program..run_words..82a450bcca081e63_1_x86
	.p2align	2, 0x0
.L1_x86_JTI4_0:
	.long	79b-.L1_x86_JTI4_0
	.long	80b-.L1_x86_JTI4_0
	.long	74b-.L1_x86_JTI4_0
	.long	78b-.L1_x86_JTI4_0
	.long	60b-.L1_x86_JTI4_0
	.long	73b-.L1_x86_JTI4_0
	.long	60b-.L1_x86_JTI4_0
	.long	71b-.L1_x86_JTI4_0
	.long	76b-.L1_x86_JTI4_0
	.long	70b-.L1_x86_JTI4_0
	.long	75b-.L1_x86_JTI4_0
	.long	69b-.L1_x86_JTI4_0
	.long	82b-.L1_x86_JTI4_0
	.long	81b-.L1_x86_JTI4_0
	.long	72b-.L1_x86_JTI4_0
	.long	86b-.L1_x86_JTI4_0
	.long	83b-.L1_x86_JTI4_0
	.long	77b-.L1_x86_JTI4_0
	.long	85b-.L1_x86_JTI4_0
	.long	84b-.L1_x86_JTI4_0
.L1_x86_JTI4_1:
	.long	55b-.L1_x86_JTI4_1
	.long	16b-.L1_x86_JTI4_1
	.long	18b-.L1_x86_JTI4_1
	.long	54b-.L1_x86_JTI4_1
	.long	54b-.L1_x86_JTI4_1
	.long	54b-.L1_x86_JTI4_1
	.long	54b-.L1_x86_JTI4_1
	.long	54b-.L1_x86_JTI4_1
	.long	54b-.L1_x86_JTI4_1
	.long	54b-.L1_x86_JTI4_1
	.long	54b-.L1_x86_JTI4_1
	.long	53b-.L1_x86_JTI4_1
	.long	54b-.L1_x86_JTI4_1
	.long	54b-.L1_x86_JTI4_1
	.long	54b-.L1_x86_JTI4_1
	.long	54b-.L1_x86_JTI4_1
	.long	54b-.L1_x86_JTI4_1
	.long	54b-.L1_x86_JTI4_1
	.long	54b-.L1_x86_JTI4_1
	.long	13b-.L1_x86_JTI4_1
	.long	54b-.L1_x86_JTI4_1
	.long	54b-.L1_x86_JTI4_1
	.long	17b-.L1_x86_JTI4_1
	.long	54b-.L1_x86_JTI4_1
	.long	54b-.L1_x86_JTI4_1
	.long	19b-.L1_x86_JTI4_1
.L1_x86_JTI4_2:
	.long	680b-.L1_x86_JTI4_2
	.long	685b-.L1_x86_JTI4_2
	.long	683b-.L1_x86_JTI4_2
	.long	684b-.L1_x86_JTI4_2
.L1_x86_JTI4_3:
	.long	183b-.L1_x86_JTI4_3
	.long	230b-.L1_x86_JTI4_3
	.long	235b-.L1_x86_JTI4_3
	.long	232b-.L1_x86_JTI4_3
	.long	239b-.L1_x86_JTI4_3
.L1_x86_JTI4_4:
	.long	331b-.L1_x86_JTI4_4
	.long	333b-.L1_x86_JTI4_4
	.long	334b-.L1_x86_JTI4_4
	.long	332b-.L1_x86_JTI4_4
	.long	335b-.L1_x86_JTI4_4
	.long	336b-.L1_x86_JTI4_4
	.long	337b-.L1_x86_JTI4_4
.L1_x86_JTI4_5:
	.long	405b-.L1_x86_JTI4_5
	.long	407b-.L1_x86_JTI4_5
	.long	399b-.L1_x86_JTI4_5
	.long	406b-.L1_x86_JTI4_5
	.long	408b-.L1_x86_JTI4_5
	.long	409b-.L1_x86_JTI4_5
	.long	400b-.L1_x86_JTI4_5

	vj_function	core..cmp..slices..parts_equal..i8.31.core..cmp..numbers..U8PartialEq_1_x86
	cmpq	%rcx, %rsi
	jne	1f
	cmpq	$3, %rsi
	ja	2f
	testq	%rsi, %rsi
	je	6f
	movzbl	(%rdi), %eax
	xorb	(%rdx), %al
	movq	%rsi, %rcx
	shrq	%rcx
	movzbl	(%rdi,%rcx), %r8d
	xorb	(%rdx,%rcx), %r8b
	orb	%al, %r8b
	movzbl	-1(%rdi,%rsi), %eax
	xorb	-1(%rdx,%rsi), %al
	orb	%r8b, %al
	jmp	3f
1:
	xorl	%eax, %eax
	retq
2:
	cmpq	$8, %rsi
	ja	5f
	movd	(%rdi), %xmm0
	pinsrd	$1, -4(%rdi,%rsi), %xmm0
	movd	(%rdx), %xmm1
	pinsrd	$1, -4(%rdx,%rsi), %xmm1
	movq	%xmm0, %rax
	movq	%xmm1, %rcx
	cmpq	%rcx, %rax
3:
	setne	%al
4:
	xorb	$1, %al
	retq
5:
	cmpq	$32, %rsi
	ja	7f
	pushq	%rax
	movq	%rsi, %rax
	movq	%rdx, %rsi
	movq	%rax, %rdx
	callq	core..slice..scan..any_in_quarters..953750c03e87c3e2_1_x86
	addq	$8, %rsp
	xorb	$1, %al
	retq
6:
	xorl	%eax, %eax
	xorb	$1, %al
	retq
7:
	cmpq	$65, %rsi
	jae	8f
	movdqu	(%rdi), %xmm0
	movdqu	16(%rdi), %xmm1
	movdqu	(%rdx), %xmm2
	pxor	%xmm0, %xmm2
	movdqu	16(%rdx), %xmm0
	pxor	%xmm1, %xmm0
	movdqu	-32(%rdi,%rsi), %xmm1
	movdqu	-16(%rdi,%rsi), %xmm3
	movdqu	-32(%rdx,%rsi), %xmm4
	pxor	%xmm1, %xmm4
	por	%xmm2, %xmm4
	movdqu	-16(%rdx,%rsi), %xmm1
	pxor	%xmm3, %xmm1
	por	%xmm0, %xmm1
	por	%xmm4, %xmm1
	ptest	%xmm1, %xmm1
	jmp	3b
8:
	xorl	%eax, %eax
	movq	%rsi, %rcx
	.p2align	4
9:
	movdqu	(%rdi,%rax), %xmm0
	movdqu	16(%rdi,%rax), %xmm1
	movdqu	32(%rdi,%rax), %xmm2
	movdqu	48(%rdi,%rax), %xmm3
	movdqu	(%rdx,%rax), %xmm4
	pcmpeqb	%xmm0, %xmm4
	movdqu	16(%rdx,%rax), %xmm0
	pcmpeqb	%xmm1, %xmm0
	movdqu	32(%rdx,%rax), %xmm1
	pcmpeqb	%xmm2, %xmm1
	pand	%xmm4, %xmm1
	movdqu	48(%rdx,%rax), %xmm2
	pcmpeqb	%xmm3, %xmm2
	pand	%xmm0, %xmm2
	pand	%xmm1, %xmm2
	pmovmskb	%xmm2, %r8d
	cmpl	$65535, %r8d
	jne	10f
	addq	$64, %rax
	addq	$-64, %rcx
	cmpq	$63, %rcx
	ja	9b
10:
	cmpq	$32, %rcx
	jb	13f
	movq	%rsi, %rcx
	subq	%rax, %rcx
	.p2align	4
11:
	movdqu	(%rdi,%rax), %xmm0
	movdqu	16(%rdi,%rax), %xmm1
	movdqu	(%rdx,%rax), %xmm2
	pxor	%xmm0, %xmm2
	movdqu	16(%rdx,%rax), %xmm0
	pxor	%xmm1, %xmm0
	por	%xmm2, %xmm0
	ptest	%xmm0, %xmm0
	jne	12f
	addq	$32, %rax
	addq	$-32, %rcx
	cmpq	$32, %rcx
	jae	11b
	jmp	13f
12:
	movb	$1, %al
	cmpq	$31, %rcx
	ja	4b
13:
	movdqu	-32(%rdi,%rsi), %xmm0
	movdqu	-16(%rdi,%rsi), %xmm1
	movdqu	-32(%rdx,%rsi), %xmm2
	pxor	%xmm0, %xmm2
	movdqu	-16(%rdx,%rsi), %xmm0
	pxor	%xmm1, %xmm0
	por	%xmm2, %xmm0
	ptest	%xmm0, %xmm0
	jmp	3b
	vj_end	core..cmp..slices..parts_equal..i8.31.core..cmp..numbers..U8PartialEq_1_x86

	vj_function	core..slice..scan..any_in_quarters..953750c03e87c3e2_1_x86
	leaq	-8(%rdx), %rax
	cmpq	$8, %rax
	movl	$8, %ecx
	cmovbq	%rax, %rcx
	cmpq	$16, %rax
	movl	$16, %r8d
	cmovbq	%rax, %r8
	movq	(%rdi,%rcx), %xmm0
	movq	(%rdi), %xmm1
	punpcklqdq	%xmm0, %xmm1
	movq	(%rdi,%r8), %xmm0
	movq	-8(%rdi,%rdx), %xmm2
	punpcklqdq	%xmm2, %xmm0
	movq	(%rsi,%rcx), %xmm2
	movq	(%rsi), %xmm3
	punpcklqdq	%xmm2, %xmm3
	pxor	%xmm1, %xmm3
	movq	(%rsi,%r8), %xmm1
	movq	-8(%rsi,%rdx), %xmm2
	punpcklqdq	%xmm2, %xmm1
	pxor	%xmm0, %xmm1
	por	%xmm3, %xmm1
	ptest	%xmm1, %xmm1
	setne	%al
	retq
	vj_end	core..slice..scan..any_in_quarters..953750c03e87c3e2_1_x86

	vj_function	core..cmp..slices..groups_equal..i8.31.core..cmp..numbers..U8PartialEq_1_x86
	cmpq	$8, %rsi
	ja	3f
	movd	(%rdi), %xmm0
	pinsrd	$1, -4(%rdi,%rsi), %xmm0
	movd	(%rdx), %xmm1
	pinsrd	$1, -4(%rdx,%rsi), %xmm1
	movq	%xmm0, %rax
	movq	%xmm1, %rcx
	cmpq	%rcx, %rax
1:
	setne	%al
2:
	xorb	$1, %al
	retq
3:
	cmpq	$32, %rsi
	ja	4f
	pushq	%rax
	movq	%rsi, %rax
	movq	%rdx, %rsi
	movq	%rax, %rdx
	callq	core..slice..scan..any_in_quarters..953750c03e87c3e2_1_x86
	addq	$8, %rsp
	xorb	$1, %al
	retq
4:
	cmpq	$65, %rsi
	jae	5f
	movdqu	(%rdi), %xmm0
	movdqu	16(%rdi), %xmm1
	movdqu	(%rdx), %xmm2
	pxor	%xmm0, %xmm2
	movdqu	16(%rdx), %xmm0
	pxor	%xmm1, %xmm0
	movdqu	-32(%rdi,%rsi), %xmm1
	movdqu	-16(%rdi,%rsi), %xmm3
	movdqu	-32(%rdx,%rsi), %xmm4
	pxor	%xmm1, %xmm4
	por	%xmm2, %xmm4
	movdqu	-16(%rdx,%rsi), %xmm1
	pxor	%xmm3, %xmm1
	por	%xmm0, %xmm1
	por	%xmm4, %xmm1
	ptest	%xmm1, %xmm1
	jmp	1b
5:
	xorl	%eax, %eax
	movq	%rsi, %rcx
	.p2align	4
6:
	movdqu	(%rdi,%rax), %xmm0
	movdqu	16(%rdi,%rax), %xmm1
	movdqu	32(%rdi,%rax), %xmm2
	movdqu	48(%rdi,%rax), %xmm3
	movdqu	(%rdx,%rax), %xmm4
	pcmpeqb	%xmm0, %xmm4
	movdqu	16(%rdx,%rax), %xmm0
	pcmpeqb	%xmm1, %xmm0
	movdqu	32(%rdx,%rax), %xmm1
	pcmpeqb	%xmm2, %xmm1
	pand	%xmm4, %xmm1
	movdqu	48(%rdx,%rax), %xmm2
	pcmpeqb	%xmm3, %xmm2
	pand	%xmm0, %xmm2
	pand	%xmm1, %xmm2
	pmovmskb	%xmm2, %r8d
	cmpl	$65535, %r8d
	jne	7f
	addq	$64, %rax
	addq	$-64, %rcx
	cmpq	$63, %rcx
	ja	6b
7:
	cmpq	$32, %rcx
	jb	10f
	movq	%rsi, %rcx
	subq	%rax, %rcx
	.p2align	4
8:
	movdqu	(%rdi,%rax), %xmm0
	movdqu	16(%rdi,%rax), %xmm1
	movdqu	(%rdx,%rax), %xmm2
	pxor	%xmm0, %xmm2
	movdqu	16(%rdx,%rax), %xmm0
	pxor	%xmm1, %xmm0
	por	%xmm2, %xmm0
	ptest	%xmm0, %xmm0
	jne	9f
	addq	$32, %rax
	addq	$-32, %rcx
	cmpq	$32, %rcx
	jae	8b
	jmp	10f
9:
	movb	$1, %al
	cmpq	$31, %rcx
	ja	2b
10:
	movdqu	-32(%rdi,%rsi), %xmm0
	movdqu	-16(%rdi,%rsi), %xmm1
	movdqu	-32(%rdx,%rsi), %xmm2
	pxor	%xmm0, %xmm2
	movdqu	-16(%rdx,%rsi), %xmm0
	pxor	%xmm1, %xmm0
	por	%xmm2, %xmm0
	ptest	%xmm0, %xmm0
	jmp	1b
	vj_end	core..cmp..slices..groups_equal..i8.31.core..cmp..numbers..U8PartialEq_1_x86

	vj_function	b2sum_commands..options..long_flag_1_x86
	pushq	%rbp
	pushq	%r15
	pushq	%r14
	pushq	%r13
	pushq	%r12
	pushq	%rbx
	subq	$184, %rsp
	movq	%r8, 8(%rsp)
	movq	%rcx, 40(%rsp)
	movq	%rdx, %r14
	movq	%rsi, %r15
	movq	%rdi, %rbx
	xorps	%xmm0, %xmm0
	movaps	%xmm0, 80(%rsp)
	movaps	%xmm0, 64(%rsp)
	movaps	%xmm0, 128(%rsp)
	movq	$0, 144(%rsp)
	movl	$30, %r12d
	leaq	.L1_x86_static.6(%rip), %r13
	jmp	3f
1:
	cmpq	%r14, %rax
	jae	39f
	.p2align	4
2:
	incq	%r13
	decq	%r12
	je	41f
3:
	movzbl	(%r13), %ebp
	movl	$9, %eax
	movzbl	%bpl, %ecx
	leaq	.L1_x86_JTI8_0(%rip), %rdx
	movslq	(%rdx,%rcx,4), %rcx
	addq	%rdx, %rcx
	notrack	jmpq	*%rcx
4:
	leaq	.L1_x86_static.7(%rip), %rdi
	xorl	%ecx, %ecx
	cmpq	%r14, %rax
	jne	2b
	jmp	36f
5:
	leaq	.L1_x86_static.34(%rip), %rdi
	movl	$4, %eax
	xorl	%ecx, %ecx
	cmpq	%r14, %rax
	jne	2b
	jmp	36f
6:
	leaq	.L1_x86_static.23(%rip), %rdi
	movl	$6, %eax
	xorl	%ecx, %ecx
	cmpq	%r14, %rax
	jne	2b
	jmp	36f
7:
	leaq	.L1_x86_static.21(%rip), %rdi
	xorl	%ecx, %ecx
	cmpq	%r14, %rax
	jne	2b
	jmp	36f
8:
	leaq	.L1_x86_static.18(%rip), %rdi
	movl	$8, %eax
	xorl	%ecx, %ecx
	cmpq	%r14, %rax
	jne	2b
	jmp	36f
9:
	leaq	.L1_x86_static.11(%rip), %rdi
	movl	$10, %eax
	xorl	%ecx, %ecx
	cmpq	%r14, %rax
	jne	2b
	jmp	36f
10:
	leaq	.L1_x86_static.19(%rip), %rdi
	jmp	29f
11:
	leaq	.L1_x86_static.16(%rip), %rdi
	jmp	34f
12:
	leaq	.L1_x86_static.32(%rip), %rdi
	movl	$4, %eax
	xorl	%ecx, %ecx
	cmpq	%r14, %rax
	jne	2b
	jmp	36f
13:
	leaq	.L1_x86_static.31(%rip), %rdi
	movl	$6, %eax
	xorl	%ecx, %ecx
	cmpq	%r14, %rax
	jne	2b
	jmp	36f
14:
	leaq	.L1_x86_static.9(%rip), %rdi
	movl	$8, %eax
	xorl	%ecx, %ecx
	cmpq	%r14, %rax
	jne	2b
	jmp	36f
15:
	leaq	.L1_x86_static.22(%rip), %rdi
	movl	$5, %eax
	xorl	%ecx, %ecx
	cmpq	%r14, %rax
	jne	2b
	jmp	36f
16:
	leaq	.L1_x86_static.10(%rip), %rdi
	movl	$12, %eax
	xorl	%ecx, %ecx
	cmpq	%r14, %rax
	jne	2b
	jmp	36f
17:
	leaq	.L1_x86_static.14(%rip), %rdi
	movl	$4, %eax
	xorl	%ecx, %ecx
	cmpq	%r14, %rax
	jne	2b
	jmp	36f
18:
	leaq	.L1_x86_static.8(%rip), %rdi
	movl	$6, %eax
	xorl	%ecx, %ecx
	cmpq	%r14, %rax
	jne	2b
	jmp	36f
19:
	leaq	.L1_x86_static.24(%rip), %rdi
	movl	$14, %eax
	xorl	%ecx, %ecx
	cmpq	%r14, %rax
	jne	2b
	jmp	36f
20:
	leaq	.L1_x86_static.27(%rip), %rdi
	movl	$4, %eax
	xorl	%ecx, %ecx
	cmpq	%r14, %rax
	jne	2b
	jmp	36f
21:
	leaq	.L1_x86_static.12(%rip), %rdi
	movl	$8, %eax
	xorl	%ecx, %ecx
	cmpq	%r14, %rax
	jne	2b
	jmp	36f
22:
	leaq	.L1_x86_static.28(%rip), %rdi
	movl	$6, %eax
	xorl	%ecx, %ecx
	cmpq	%r14, %rax
	jne	2b
	jmp	36f
23:
	leaq	.L1_x86_static.20(%rip), %rdi
	movl	$12, %eax
	xorl	%ecx, %ecx
	cmpq	%r14, %rax
	jne	2b
	jmp	36f
24:
	leaq	.L1_x86_static.13(%rip), %rdi
	movl	$13, %eax
	xorl	%ecx, %ecx
	cmpq	%r14, %rax
	jne	2b
	jmp	36f
25:
	leaq	.L1_x86_static.25(%rip), %rdi
	movl	$5, %eax
	xorl	%ecx, %ecx
	cmpq	%r14, %rax
	jne	2b
	jmp	36f
26:
	leaq	.L1_x86_static.17(%rip), %rdi
	movl	$8, %eax
	xorl	%ecx, %ecx
	cmpq	%r14, %rax
	jne	2b
	jmp	36f
27:
	leaq	.L1_x86_static.15(%rip), %rdi
	movl	$4, %eax
	xorl	%ecx, %ecx
	cmpq	%r14, %rax
	jne	2b
	jmp	36f
28:
	leaq	.L1_x86_static.29(%rip), %rdi
29:
	movl	$3, %eax
	movb	$1, %cl
	cmpq	%r14, %rax
	jne	2b
	jmp	36f
30:
	leaq	.L1_x86_static.26(%rip), %rdi
	movl	$6, %eax
	xorl	%ecx, %ecx
	cmpq	%r14, %rax
	jne	2b
	jmp	36f
31:
	leaq	.L1_x86_static.30(%rip), %rdi
	movl	$4, %eax
	xorl	%ecx, %ecx
	cmpq	%r14, %rax
	jne	2b
	jmp	36f
32:
	leaq	.L1_x86_static.35(%rip), %rdi
	movl	$4, %eax
	xorl	%ecx, %ecx
	cmpq	%r14, %rax
	jne	2b
	jmp	36f
33:
	leaq	.L1_x86_static.36(%rip), %rdi
34:
	movl	$7, %eax
	xorl	%ecx, %ecx
	cmpq	%r14, %rax
	jne	2b
	jmp	36f
35:
	leaq	.L1_x86_static.33(%rip), %rdi
	movl	$6, %eax
	xorl	%ecx, %ecx
	cmpq	%r14, %rax
	jne	2b
	.p2align	4
36:
	testb	%cl, %cl
	je	38f
	xorl	%eax, %eax
	.p2align	4
37:
	movzbl	(%rdi,%rax), %ecx
	cmpb	(%r15,%rax), %cl
	jne	1b
	incq	%rax
	cmpq	%rax, %r14
	jne	37b
	jmp	39f
	.p2align	4
38:
	movl	(%rdi), %eax
	cmpl	(%r15), %eax
	jne	2b
	movq	%r14, %rsi
	movq	%r15, %rdx
	callq	core..cmp..slices..groups_equal..i8.31.core..cmp..numbers..U8PartialEq_1_x86
	testb	%al, %al
	je	2b
39:
	movb	$1, %al
	cmpb	$1, %al
	jne	42f
40:
	movb	$0, (%rbx)
	movb	%bpl, 1(%rbx)
	xorps	%xmm0, %xmm0
	movups	%xmm0, 8(%rbx)
	movups	%xmm0, 24(%rbx)
	movups	%xmm0, 40(%rbx)
	movq	$0, 56(%rbx)
	jmp	68f
41:
	xorl	%eax, %eax
	xorl	%ebp, %ebp
	cmpb	$1, %al
	je	40b
42:
	movq	%rbx, 48(%rsp)
	leaq	.L1_x86_static.6(%rip), %rbx
	movl	$30, %eax
	xorl	%r12d, %r12d
43:
	incq	%rbx
	movl	$1, %ebp
	subq	%rax, %rbp
	jmp	45f
	.p2align	4
44:
	incq	%rbx
	incq	%rbp
	cmpq	$1, %rbp
	je	46f
45:
	movzbl	-1(%rbx), %eax
	leaq	.L1_x86_switch.table.b2sum_commands..options..long_flag.409_1_x86(%rip), %r13
	cmpq	%r14, (%r13,%rax,8)
	jb	44b
	leaq	.L1_x86_switch.table.b2sum_commands..options..long_flag.410_1_x86(%rip), %rcx
	movq	(%rcx,%rax,8), %rdx
	movq	%r15, %rdi
	movq	%r14, %rsi
	movq	%r14, %rcx
	callq	core..cmp..slices..parts_equal..i8.31.core..cmp..numbers..U8PartialEq_1_x86
	testb	%al, %al
	je	44b
	incq	%r12
	negq	%rbp
	movq	%rbp, %rax
	jb	43b
46:
	movq	%r12, 56(%rsp)
	xorl	%r12d, %r12d
	jmp	48f
	.p2align	4
47:
	incq	%r12
	cmpq	$30, %r12
	je	49f
48:
	leaq	.L1_x86_static.6(%rip), %rax
	movzbl	(%r12,%rax), %ebp
	cmpq	%r14, (%r13,%rbp,8)
	jb	47b
	leaq	.L1_x86_switch.table.b2sum_commands..options..long_flag.410_1_x86(%rip), %rbx
	movq	(%rbx,%rbp,8), %rdx
	movq	%r15, %rdi
	movq	%r14, %rsi
	movq	%r14, %rcx
	callq	core..cmp..slices..parts_equal..i8.31.core..cmp..numbers..U8PartialEq_1_x86
	testb	%al, %al
	je	47b
	cmpq	$1, 56(%rsp)
	jne	51f
	movq	48(%rsp), %rax
	movb	$0, (%rax)
	movb	%bpl, 1(%rax)
	xorps	%xmm0, %xmm0
	movups	%xmm0, 8(%rax)
	movups	%xmm0, 24(%rax)
	movups	%xmm0, 40(%rax)
	movq	$0, 56(%rax)
	jmp	68f
49:
	movq	$1, (%rsp)
	leaq	.L1_x86_static.4(%rip), %rsi
	leaq	.L1_x86_static.5(%rip), %r9
	leaq	64(%rsp), %rdi
	movl	$23, %edx
	movq	40(%rsp), %rcx
	movq	8(%rsp), %r8
	callq	b2sum_commands..options..joined_1_x86
	movq	48(%rsp), %rdx
	leaq	16(%rdx), %rax
	cmpb	$0, 64(%rsp)
	movw	$1, (%rdx)
	je	50f
	movq	$4, 8(%rdx)
	xorps	%xmm0, %xmm0
	movups	%xmm0, 32(%rax)
	movups	%xmm0, 16(%rax)
	movups	%xmm0, (%rax)
	jmp	68f
50:
	movq	$2, 8(%rdx)
	movq	88(%rsp), %rcx
	movq	%rcx, 16(%rax)
	movups	72(%rsp), %xmm0
	movups	%xmm0, (%rax)
	xorps	%xmm0, %xmm0
	movups	%xmm0, 40(%rdx)
	movq	$0, 56(%rdx)
	jmp	68f
51:
	xorps	%xmm0, %xmm0
	movaps	%xmm0, 112(%rsp)
	movaps	%xmm0, 96(%rsp)
	movq	$30, (%rsp)
	leaq	.L1_x86_static.37(%rip), %rsi
	leaq	.L1_x86_static.38(%rip), %r9
	leaq	96(%rsp), %rdi
	movl	$10, %edx
	movq	40(%rsp), %rcx
	movq	8(%rsp), %r8
	callq	b2sum_commands..options..joined_1_x86
	cmpb	$0, 96(%rsp)
	je	53f
52:
	movq	48(%rsp), %rax
	movw	$1, (%rax)
	movq	$4, 8(%rax)
	xorps	%xmm0, %xmm0
	movups	%xmm0, 16(%rax)
	movups	%xmm0, 32(%rax)
	movups	%xmm0, 48(%rax)
	jmp	68f
53:
	movq	120(%rsp), %rax
	movq	%rax, 32(%rsp)
	movups	104(%rsp), %xmm0
	movaps	%xmm0, 16(%rsp)
	xorl	%r12d, %r12d
	leaq	.L1_x86_static.6(%rip), %rbp
	jmp	58f
54:
	movq	%rcx, %rdx
	movq	%r9, 56(%rsp)
	movq	%r10, %rbp
	movq	%r8, 8(%rsp)
	vj_c_call	memmove
	movq	8(%rsp), %r8
	movq	%rbp, %r10
	movq	56(%rsp), %r9
	leaq	.L1_x86_static.6(%rip), %rbp
55:
	addq	40(%rsp), %r9
	movq	%r9, 24(%rsp)
	movq	%r10, 32(%rsp)
	cmpq	%r9, %r10
	je	66f
56:
	movb	$39, (%r8,%r9)
	incq	%r9
	movq	%r9, 24(%rsp)
	movq	%r10, 32(%rsp)
57:
	incq	%r12
	cmpq	$30, %r12
	je	67f
58:
	movzbl	(%r12,%rbp), %eax
	cmpq	%r14, (%r13,%rax,8)
	jb	57b
	movq	(%rbx,%rax,8), %rdx
	movq	%r15, %rdi
	movq	%r14, %rsi
	movq	%r14, %rcx
	movq	%rax, 8(%rsp)
	callq	core..cmp..slices..parts_equal..i8.31.core..cmp..numbers..U8PartialEq_1_x86
	movq	8(%rsp), %r11
	testb	%al, %al
	je	57b
	movq	24(%rsp), %r9
	movq	32(%rsp), %r10
	movq	%r10, %rax
	subq	%r9, %rax
	cmpq	$3, %rax
	jbe	64f
59:
	movq	16(%rsp), %r8
	movl	$757933856, (%r8,%r9)
	addq	$4, %r9
	movq	%r9, 24(%rsp)
	movq	%r10, 32(%rsp)
	movq	(%r13,%r11,8), %rcx
	movq	(%rbx,%r11,8), %rsi
	movq	%r10, %rax
	subq	%r9, %rax
	cmpq	%rax, %rcx
	movq	%rcx, 40(%rsp)
	ja	65f
60:
	leaq	(%r8,%r9), %rdi
	movq	%rdi, %rax
	subq	%rsi, %rax
	cmpq	%rcx, %rax
	jae	54b
	xorl	%eax, %eax
	cmpq	$7, %r12
	je	62f
	cmpq	$22, %r12
	je	62f
	movq	40(%rsp), %rcx
	andq	$-4, %rcx
	movq	%r8, 8(%rsp)
	leaq	(%r8,%r9), %rdx
	addq	$3, %rdx
	xorl	%eax, %eax
	.p2align	4
61:
	movzbl	(%rsi,%rax), %r8d
	movb	%r8b, -3(%rdx,%rax)
	movzbl	1(%rsi,%rax), %r8d
	movb	%r8b, -2(%rdx,%rax)
	movzbl	2(%rsi,%rax), %r8d
	movb	%r8b, -1(%rdx,%rax)
	movzbl	3(%rsi,%rax), %r8d
	movb	%r8b, (%rdx,%rax)
	addq	$4, %rax
	cmpq	%rax, %rcx
	jne	61b
	movl	$445656492, %ecx
	btq	%r11, %rcx
	movq	8(%rsp), %r8
	jb	55b
62:
	movq	40(%rsp), %rcx
	andl	$3, %ecx
	addq	%rax, %rsi
	addq	%rax, %rdi
	xorl	%eax, %eax
	.p2align	4
63:
	movzbl	(%rsi,%rax), %edx
	movb	%dl, (%rdi,%rax)
	incq	%rax
	cmpq	%rax, %rcx
	jne	63b
	jmp	55b
64:
	leaq	16(%rsp), %rdi
	movl	$4, %esi
	callq	std_alloc..vec..Vec..grow_amortized..01eec35b572d02af_1_x86
	testb	%al, %al
	je	69f
	movq	24(%rsp), %r9
	movq	32(%rsp), %r10
	movq	8(%rsp), %r11
	jmp	59b
65:
	movq	%rsi, %rbp
	leaq	16(%rsp), %rdi
	movq	%rcx, %rsi
	callq	std_alloc..vec..Vec..grow_amortized..01eec35b572d02af_1_x86
	testb	%al, %al
	je	69f
	movq	16(%rsp), %r8
	movq	24(%rsp), %r9
	movq	32(%rsp), %r10
	movq	%rbp, %rsi
	leaq	.L1_x86_static.6(%rip), %rbp
	movq	8(%rsp), %r11
	movq	40(%rsp), %rcx
	jmp	60b
66:
	leaq	16(%rsp), %rdi
	movl	$1, %esi
	callq	std_alloc..vec..Vec..grow_amortized..01eec35b572d02af_1_x86
	testb	%al, %al
	je	69f
	movq	16(%rsp), %r8
	movq	24(%rsp), %r9
	movq	32(%rsp), %r10
	jmp	56b
67:
	movq	32(%rsp), %rax
	movq	%rax, 176(%rsp)
	movaps	16(%rsp), %xmm0
	movaps	%xmm0, 160(%rsp)
	movq	48(%rsp), %rcx
	movw	$1, (%rcx)
	movq	$2, 8(%rcx)
	movaps	160(%rsp), %xmm0
	movups	%xmm0, 16(%rcx)
	movq	176(%rsp), %rax
	movq	%rax, 32(%rcx)
	movaps	128(%rsp), %xmm0
	movups	%xmm0, 40(%rcx)
	movq	144(%rsp), %rax
	movq	%rax, 56(%rcx)
68:
	addq	$184, %rsp
	popq	%rbx
	popq	%r12
	popq	%r13
	popq	%r14
	popq	%r15
	popq	%rbp
	retq
69:
	cmpq	$0, 32(%rsp)
	je	52b
	movq	16(%rsp), %rdi
	vj_call	rattle_dealloc
	jmp	52b
	vj_end	b2sum_commands..options..long_flag_1_x86

	vj_data	b2sum_commands..options..long_flag_1_x86
	.p2align	2, 0x0
.L1_x86_JTI8_0:
	.long	4b-.L1_x86_JTI8_0
	.long	18b-.L1_x86_JTI8_0
	.long	14b-.L1_x86_JTI8_0
	.long	16b-.L1_x86_JTI8_0
	.long	9b-.L1_x86_JTI8_0
	.long	21b-.L1_x86_JTI8_0
	.long	24b-.L1_x86_JTI8_0
	.long	17b-.L1_x86_JTI8_0
	.long	27b-.L1_x86_JTI8_0
	.long	11b-.L1_x86_JTI8_0
	.long	26b-.L1_x86_JTI8_0
	.long	8b-.L1_x86_JTI8_0
	.long	10b-.L1_x86_JTI8_0
	.long	23b-.L1_x86_JTI8_0
	.long	7b-.L1_x86_JTI8_0
	.long	15b-.L1_x86_JTI8_0
	.long	6b-.L1_x86_JTI8_0
	.long	19b-.L1_x86_JTI8_0
	.long	25b-.L1_x86_JTI8_0
	.long	30b-.L1_x86_JTI8_0
	.long	20b-.L1_x86_JTI8_0
	.long	22b-.L1_x86_JTI8_0
	.long	28b-.L1_x86_JTI8_0
	.long	31b-.L1_x86_JTI8_0
	.long	13b-.L1_x86_JTI8_0
	.long	12b-.L1_x86_JTI8_0
	.long	35b-.L1_x86_JTI8_0
	.long	5b-.L1_x86_JTI8_0
	.long	32b-.L1_x86_JTI8_0
	.long	33b-.L1_x86_JTI8_0

	vj_function	b2sum_commands..options..joined_1_x86
	pushq	%rbp
	pushq	%r15
	pushq	%r14
	pushq	%r13
	pushq	%r12
	pushq	%rbx
	subq	$40, %rsp
	movq	%r9, %r14
	movq	%r8, %r15
	movq	%rcx, %r12
	leaq	31(%rsp), %r10
	movq	%r10, (%rsp)
	xorps	%xmm0, %xmm0
	movups	%xmm0, 8(%rsp)
	testq	%rdx, %rdx
	movq	%rdi, 32(%rsp)
	jne	37f
	xorl	%r11d, %r11d
	xorl	%eax, %eax
1:
	leaq	(%rax,%rdx), %rbp
	leaq	(%r10,%rax), %rdi
	movq	%rdi, %rcx
	subq	%rsi, %rcx
	cmpq	%rdx, %rcx
	jae	7f
	cmpq	$4, %rdx
	jb	2f
	cmpq	$32, %rcx
	jae	26f
2:
	xorl	%ecx, %ecx
3:
	movq	%r10, %rbx
	movq	%rdx, %r9
	movq	%rcx, %r8
	andq	$3, %r9
	je	5f
	movq	%rcx, %r8
	.p2align	4
4:
	movzbl	(%rsi,%r8), %r10d
	movb	%r10b, (%rdi,%r8)
	incq	%r8
	decq	%r9
	jne	4b
5:
	subq	%rdx, %rcx
	cmpq	$-4, %rcx
	movq	%rbx, %r10
	ja	8f
	addq	%r10, %rax
	addq	$3, %rax
	.p2align	4
6:
	movzbl	(%rsi,%r8), %ecx
	movb	%cl, -3(%rax,%r8)
	movzbl	1(%rsi,%r8), %ecx
	movb	%cl, -2(%rax,%r8)
	movzbl	2(%rsi,%r8), %ecx
	movb	%cl, -1(%rax,%r8)
	movzbl	3(%rsi,%r8), %ecx
	movb	%cl, (%rax,%r8)
	addq	$4, %r8
	cmpq	%r8, %rdx
	jne	6b
	jmp	8f
7:
	movq	%r11, %rbx
	movq	%r10, %r13
	vj_c_call	memmove
	movq	%r13, %r10
	movq	%rbx, %r11
8:
	movq	%rbp, 8(%rsp)
	movq	%r11, 16(%rsp)
	movq	%r11, %rax
	subq	%rbp, %rax
	cmpq	%rax, %r15
	ja	42f
9:
	movq	96(%rsp), %r13
	leaq	(%r15,%rbp), %rbx
	leaq	(%r10,%rbp), %rdi
	movq	%rdi, %rax
	subq	%r12, %rax
	cmpq	%r15, %rax
	jae	15f
	cmpq	$4, %r15
	jb	10f
	cmpq	$32, %rax
	jae	27f
10:
	xorl	%eax, %eax
11:
	movq	%r15, %rdx
	movq	%rax, %rcx
	andq	$3, %rdx
	je	13f
	movq	%rax, %rcx
	.p2align	4
12:
	movzbl	(%r12,%rcx), %esi
	movb	%sil, (%rdi,%rcx)
	incq	%rcx
	decq	%rdx
	jne	12b
13:
	subq	%r15, %rax
	cmpq	$-4, %rax
	ja	16f
	leaq	(%r10,%rbp), %rax
	addq	$3, %rax
	.p2align	4
14:
	movzbl	(%r12,%rcx), %edx
	movb	%dl, -3(%rax,%rcx)
	movzbl	1(%r12,%rcx), %edx
	movb	%dl, -2(%rax,%rcx)
	movzbl	2(%r12,%rcx), %edx
	movb	%dl, -1(%rax,%rcx)
	movzbl	3(%r12,%rcx), %edx
	movb	%dl, (%rax,%rcx)
	addq	$4, %rcx
	cmpq	%rcx, %r15
	jne	14b
	jmp	16f
15:
	movq	%r12, %rsi
	movq	%r15, %rdx
	movq	%r11, %r15
	vj_c_call	memmove
	movq	%r15, %r11
16:
	movq	%rbx, 8(%rsp)
	movq	%r11, 16(%rsp)
	movq	%r11, %rax
	subq	%rbx, %rax
	cmpq	%rax, %r13
	movq	32(%rsp), %r12
	ja	43f
17:
	leaq	(%rbx,%r13), %r15
	movq	(%rsp), %rax
	leaq	(%rax,%rbx), %rdi
	movq	%rdi, %rcx
	subq	%r14, %rcx
	cmpq	%r13, %rcx
	jae	23f
	cmpq	$4, %r13
	jb	18f
	cmpq	$32, %rcx
	jae	28f
18:
	xorl	%ecx, %ecx
19:
	movq	%r13, %rsi
	movq	%rcx, %rdx
	andq	$3, %rsi
	je	21f
	movq	%rcx, %rdx
	.p2align	4
20:
	movzbl	(%r14,%rdx), %r8d
	movb	%r8b, (%rdi,%rdx)
	incq	%rdx
	decq	%rsi
	jne	20b
21:
	subq	%r13, %rcx
	cmpq	$-4, %rcx
	ja	24f
	addq	%rbx, %rax
	addq	$3, %rax
	.p2align	4
22:
	movzbl	(%r14,%rdx), %ecx
	movb	%cl, -3(%rax,%rdx)
	movzbl	1(%r14,%rdx), %ecx
	movb	%cl, -2(%rax,%rdx)
	movzbl	2(%r14,%rdx), %ecx
	movb	%cl, -1(%rax,%rdx)
	movzbl	3(%r14,%rdx), %ecx
	movb	%cl, (%rax,%rdx)
	addq	$4, %rdx
	cmpq	%rdx, %r13
	jne	22b
	jmp	24f
23:
	movq	%r14, %rsi
	movq	%r13, %rdx
	movq	%r11, %rbx
	vj_c_call	memmove
	movq	%rbx, %r11
24:
	movq	%r15, 8(%rsp)
	movq	%r11, 16(%rsp)
	movb	$0, (%r12)
	movq	(%rsp), %rax
	movq	%rax, 8(%r12)
	movq	8(%rsp), %rax
	movq	%rax, 16(%r12)
	movq	16(%rsp), %rax
	movq	%rax, 24(%r12)
25:
	addq	$40, %rsp
	popq	%rbx
	popq	%r12
	popq	%r13
	popq	%r14
	popq	%r15
	popq	%rbp
	retq
26:
	cmpq	$32, %rdx
	jae	29f
	xorl	%ecx, %ecx
	jmp	31f
27:
	cmpq	$32, %r15
	jae	33f
	xorl	%eax, %eax
	jmp	35f
28:
	cmpq	$32, %r13
	jae	38f
	xorl	%ecx, %ecx
	jmp	40f
29:
	movq	%rdx, %rcx
	andq	$-32, %rcx
	leaq	(%rax,%r10), %r8
	addq	$16, %r8
	xorl	%r9d, %r9d
	.p2align	4
30:
	movups	(%rsi,%r9), %xmm0
	movups	16(%rsi,%r9), %xmm1
	movups	%xmm0, -16(%r8,%r9)
	movups	%xmm1, (%r8,%r9)
	addq	$32, %r9
	cmpq	%r9, %rcx
	jne	30b
	cmpq	%rcx, %rdx
	je	8b
	testb	$28, %dl
	je	3b
31:
	movq	%rcx, %r8
	movq	%rdx, %rcx
	andq	$-4, %rcx
	.p2align	4
32:
	movl	(%rsi,%r8), %r9d
	movl	%r9d, (%rdi,%r8)
	addq	$4, %r8
	cmpq	%r8, %rcx
	jne	32b
	cmpq	%rcx, %rdx
	je	8b
	jmp	3b
33:
	movq	%r15, %rax
	andq	$-32, %rax
	leaq	(%r10,%rbp), %rcx
	addq	$16, %rcx
	xorl	%edx, %edx
	.p2align	4
34:
	movups	(%r12,%rdx), %xmm0
	movups	16(%r12,%rdx), %xmm1
	movups	%xmm0, -16(%rcx,%rdx)
	movups	%xmm1, (%rcx,%rdx)
	addq	$32, %rdx
	cmpq	%rdx, %rax
	jne	34b
	cmpq	%rax, %r15
	je	16b
	testb	$28, %r15b
	je	11b
35:
	movq	%rax, %rcx
	movq	%r15, %rax
	andq	$-4, %rax
	.p2align	4
36:
	movl	(%r12,%rcx), %edx
	movl	%edx, (%rdi,%rcx)
	addq	$4, %rcx
	cmpq	%rcx, %rax
	jne	36b
	cmpq	%rax, %r15
	je	16b
	jmp	11b
37:
	movq	%rdi, %rbp
	movq	%rsi, %rbx
	movq	%rsp, %rdi
	movq	%rdx, %r13
	movq	%rdx, %rsi
	callq	std_alloc..vec..Vec..grow_amortized..01eec35b572d02af_1_x86
	testb	%al, %al
	je	44f
	movq	(%rsp), %r10
	movq	8(%rsp), %rax
	movq	16(%rsp), %r11
	movq	%r13, %rdx
	movq	%rbx, %rsi
	jmp	1b
38:
	movq	%r13, %rcx
	andq	$-32, %rcx
	leaq	(%rbx,%rax), %rdx
	addq	$16, %rdx
	xorl	%esi, %esi
	.p2align	4
39:
	movups	(%r14,%rsi), %xmm0
	movups	16(%r14,%rsi), %xmm1
	movups	%xmm0, -16(%rdx,%rsi)
	movups	%xmm1, (%rdx,%rsi)
	addq	$32, %rsi
	cmpq	%rsi, %rcx
	jne	39b
	cmpq	%rcx, %r13
	je	24b
	testb	$28, %r13b
	je	19b
40:
	movq	%rcx, %rdx
	movq	%r13, %rcx
	andq	$-4, %rcx
	.p2align	4
41:
	movl	(%r14,%rdx), %esi
	movl	%esi, (%rdi,%rdx)
	addq	$4, %rdx
	cmpq	%rdx, %rcx
	jne	41b
	cmpq	%rcx, %r13
	je	24b
	jmp	19b
42:
	movq	%rsp, %rdi
	movq	%r15, %rsi
	callq	std_alloc..vec..Vec..grow_amortized..01eec35b572d02af_1_x86
	testb	%al, %al
	je	46f
	movq	(%rsp), %r10
	movq	8(%rsp), %rbp
	movq	16(%rsp), %r11
	jmp	9b
43:
	movq	%rsp, %rdi
	movq	%r13, %rsi
	callq	std_alloc..vec..Vec..grow_amortized..01eec35b572d02af_1_x86
	testb	%al, %al
	je	48f
	movq	8(%rsp), %rbx
	movq	16(%rsp), %r11
	jmp	17b
44:
	cmpq	$0, 16(%rsp)
	je	45f
	movq	(%rsp), %rdi
	vj_call	rattle_dealloc
45:
	movb	$1, (%rbp)
	xorps	%xmm0, %xmm0
	movups	%xmm0, 8(%rbp)
	movq	$0, 24(%rbp)
	jmp	25b
46:
	cmpq	$0, 16(%rsp)
	movq	32(%rsp), %rbx
	je	47f
	movq	(%rsp), %rdi
	vj_call	rattle_dealloc
47:
	movb	$1, (%rbx)
	xorps	%xmm0, %xmm0
	movups	%xmm0, 8(%rbx)
	movq	$0, 24(%rbx)
	jmp	25b
48:
	cmpq	$0, 16(%rsp)
	je	49f
	movq	(%rsp), %rdi
	vj_call	rattle_dealloc
49:
	movb	$1, (%r12)
	xorps	%xmm0, %xmm0
	movups	%xmm0, 8(%r12)
	movq	$0, 24(%r12)
	jmp	25b
	vj_end	b2sum_commands..options..joined_1_x86

	vj_function	b2sum_commands..options..take_value_1_x86
	pushq	%rbp
	pushq	%r15
	pushq	%r14
	pushq	%r13
	pushq	%r12
	pushq	%rbx
	subq	$568, %rsp
	movq	%rdi, %rbx
	xorps	%xmm2, %xmm2
	movaps	%xmm2, 544(%rsp)
	movaps	%xmm2, 208(%rsp)
	movaps	%xmm2, 256(%rsp)
	movaps	%xmm2, 192(%rsp)
	movaps	%xmm2, 480(%rsp)
	movaps	%xmm2, 496(%rsp)
	movaps	%xmm2, 512(%rsp)
	movaps	%xmm2, 528(%rsp)
	movaps	%xmm2, 240(%rsp)
	movaps	%xmm2, 416(%rsp)
	movaps	%xmm2, 432(%rsp)
	movaps	%xmm2, 448(%rsp)
	movaps	%xmm2, 464(%rsp)
	movaps	%xmm2, 384(%rsp)
	movaps	%xmm2, 368(%rsp)
	movaps	%xmm2, 176(%rsp)
	movaps	%xmm2, 336(%rsp)
	movaps	%xmm2, 352(%rsp)
	movzbl	%dl, %eax
	leaq	.L1_x86_JTI10_0(%rip), %rdx
	movslq	(%rdx,%rax,4), %rax
	addq	%rdx, %rax
	notrack	jmpq	*%rax
1:
	movb	$0, (%rbx)
	movups	%xmm2, 8(%rbx)
	movups	%xmm2, 24(%rbx)
	movq	$0, 40(%rbx)
	movaps	544(%rsp), %xmm0
2:
	movups	%xmm0, 48(%rbx)
	addq	$568, %rsp
	popq	%rbx
	popq	%r12
	popq	%r13
	popq	%r14
	popq	%r15
	popq	%rbp
	retq
3:
	movq	%rsi, %r14
	leaq	.L1_x86_static.44(%rip), %rsi
	leaq	416(%rsp), %rdi
	movl	$14, %edx
	callq	b2sum_commands..values..bytes_of_1_x86
	movq	424(%rsp), %rax
	cmpb	$0, 416(%rsp)
	je	29f
	movaps	448(%rsp), %xmm0
	movzbl	%al, %eax
	movb	$1, (%rbx)
	movq	%rax, 8(%rbx)
	movaps	432(%rsp), %xmm1
	movups	%xmm1, 16(%rbx)
	movups	%xmm0, 32(%rbx)
	movaps	464(%rsp), %xmm0
	jmp	2b
4:
	testq	%r8, %r8
	je	30f
	js	27f
	movq	%rsi, %r14
	movl	$1, %esi
	movq	%r8, %rdi
	movq	%r8, %r15
	movq	%rcx, %r12
	vj_call	rattle_alloc
	xorps	%xmm2, %xmm2
	testb	$1, %al
	je	27f
	movq	%r12, %rsi
	movq	%r15, %rcx
	movq	%rdx, %rax
	subq	%r12, %rax
	cmpq	%r15, %rax
	jae	64f
	movq	%r14, %r8
	cmpq	$4, %rcx
	setb	%al
	movq	%rdx, %rdi
	subq	%rsi, %rdi
	cmpq	$32, %rdi
	setb	%dil
	orb	%al, %dil
	je	96f
	xorl	%eax, %eax
	jmp	103f
5:
	testq	%r8, %r8
	je	32f
	js	125f
	movq	%rsi, %r14
	movl	$1, %esi
	movq	%r8, %rdi
	movq	%r8, %r15
	movq	%rcx, %r12
	vj_call	rattle_alloc
	xorps	%xmm2, %xmm2
	testb	$1, %al
	je	125f
	movq	%r12, %rcx
	movq	%r14, %rsi
	movq	%r15, %r8
	movq	%rdx, %r14
	jmp	33f
6:
	testq	%r8, %r8
	je	34f
	js	125f
	movq	%rsi, %r14
	movl	$1, %esi
	movq	%r8, %rdi
	movq	%r8, %r15
	movq	%rcx, %r12
	vj_call	rattle_alloc
	testb	$1, %al
	je	125f
	movq	%r12, %rcx
	movq	%r14, %rsi
	movq	%r15, %r8
	movq	%rdx, %r14
	jmp	35f
7:
	movaps	%xmm2, 16(%rsp)
	movaps	%xmm2, 32(%rsp)
	movaps	%xmm2, 112(%rsp)
	movaps	%xmm2, 128(%rsp)
	cmpq	$7, %r8
	je	43f
	cmpq	$8, %r8
	jne	46f
	cmpl	$1801546850, (%rcx)
	jne	46f
	leaq	.L1_x86_static.47(%rip), %rdx
	movq	%rsi, %r14
	movl	$8, %esi
	movq	%rcx, %rdi
	movq	%r8, %r15
	movq	%rcx, %r12
	callq	core..cmp..slices..groups_equal..i8.31.core..cmp..numbers..U8PartialEq_1_x86
	xorps	%xmm2, %xmm2
	movq	%r14, %rdx
	movl	$2, %esi
	testb	%al, %al
	jne	45f
	movq	%r12, %rdi
	leaq	.L1_x86_static.48(%rip), %rdx
	movl	$8, %esi
	callq	core..cmp..slices..groups_equal..i8.31.core..cmp..numbers..U8PartialEq_1_x86
	xorps	%xmm2, %xmm2
	movq	%r12, %rcx
	movq	%r14, %rdx
	movq	%r15, %r8
	movl	$3, %esi
	jmp	44f
8:
	testq	%r8, %r8
	je	36f
	js	28f
	movq	%rsi, %r14
	movl	$1, %esi
	movq	%r8, %rdi
	movq	%r8, %r15
	movq	%rcx, %r12
	vj_call	rattle_alloc
	xorps	%xmm2, %xmm2
	testb	$1, %al
	je	28f
	movq	%r12, %rsi
	movq	%r15, %rcx
	movq	%rdx, %rax
	subq	%r12, %rax
	cmpq	%r15, %rax
	jae	65f
	movq	%r14, %r8
	cmpq	$4, %rcx
	setb	%al
	movq	%rdx, %rdi
	subq	%rsi, %rdi
	cmpq	$32, %rdi
	setb	%dil
	orb	%al, %dil
	je	97f
	xorl	%eax, %eax
	jmp	112f
9:
	movaps	%xmm2, 112(%rsp)
	movaps	%xmm2, 128(%rsp)
	movaps	%xmm2, 272(%rsp)
	movaps	%xmm2, 288(%rsp)
	leaq	.L1_x86_static.1(%rip), %r14
	testq	%r8, %r8
	je	12f
	xorl	%edi, %edi
	jmp	11f
	.p2align	4
10:
	incq	%rdi
	cmpq	%rdi, %r8
	je	12f
11:
	movzbl	(%rcx,%rdi), %eax
	movzbl	%al, %edx
	leal	-9(%rdx), %r9d
	cmpl	$5, %r9d
	jb	10b
	cmpl	$32, %edx
	je	10b
	cmpq	%rdi, %r8
	je	12f
	xorl	%r9d, %r9d
	cmpb	$43, %al
	sete	%r9b
	movq	%r8, %rdx
	subq	%r9, %rdx
	cmpq	%rdi, %rdx
	jne	118f
12:
	xorl	%r12d, %r12d
13:
	leaq	112(%rsp), %rdi
	movq	%rcx, %rsi
	movq	%r8, %rdx
	callq	b2sum_commands..quoting..quoted_value_1_x86
	cmpb	$0, 112(%rsp)
	je	42f
14:
	xorps	%xmm0, %xmm0
	movaps	%xmm0, 176(%rsp)
	xorps	%xmm1, %xmm1
	movl	$4, %r14d
	xorl	%r12d, %r12d
	xorl	%r13d, %r13d
15:
	movb	$1, (%rbx)
	movq	%r14, 8(%rbx)
	movups	%xmm1, 16(%rbx)
	movq	%r13, 32(%rbx)
	movq	%r12, 40(%rbx)
	movaps	176(%rsp), %xmm0
	jmp	2b
16:
	movq	%rsi, %r14
	leaq	.L1_x86_static.43(%rip), %rsi
	leaq	480(%rsp), %rdi
	movl	$25, %edx
	callq	b2sum_commands..values..bytes_of_1_x86
	movq	488(%rsp), %rax
	cmpb	$0, 480(%rsp)
	je	38f
	movaps	512(%rsp), %xmm0
	movzbl	%al, %eax
	movb	$1, (%rbx)
	movq	%rax, 8(%rbx)
	movaps	496(%rsp), %xmm1
	movups	%xmm1, 16(%rbx)
	movups	%xmm0, 32(%rbx)
	movaps	528(%rsp), %xmm0
	jmp	2b
17:
	testq	%r8, %r8
	je	39f
	js	125f
	movq	%rsi, %r14
	movl	$1, %esi
	movq	%r8, %rdi
	movq	%r8, %r15
	movq	%rcx, %r12
	vj_call	rattle_alloc
	xorps	%xmm2, %xmm2
	testb	$1, %al
	je	125f
	movq	%r12, %rcx
	movq	%r14, %rsi
	movq	%r15, %r8
	movq	%rdx, %r14
	jmp	40f
18:
	movaps	%xmm2, 80(%rsp)
	movaps	%xmm2, 96(%rsp)
	testq	%r8, %r8
	je	41f
	movq	%rsi, %r13
	leaq	80(%rsp), %rdi
	movq	%rcx, %r15
	movq	%rcx, %rsi
	movq	%r8, %r14
	movq	%r8, %rdx
	callq	hex..decode..1a9ba769f0efa4a8_1_x86
	cmpb	$0, 80(%rsp)
	je	53f
	cmpb	$3, 88(%rsp)
	jne	55f
	xorps	%xmm1, %xmm1
	movaps	%xmm1, 400(%rsp)
	movb	$4, %bpl
	xorl	%eax, %eax
	xorl	%r14d, %r14d
	jmp	56f
19:
	testq	%r8, %r8
	je	22f
	xorl	%edi, %edi
	jmp	21f
	.p2align	4
20:
	incq	%rdi
	cmpq	%rdi, %r8
	je	22f
21:
	movzbl	(%rcx,%rdi), %eax
	movzbl	%al, %edx
	leal	-9(%rdx), %r9d
	cmpl	$5, %r9d
	jb	20b
	cmpl	$32, %edx
	je	20b
	cmpq	%rdi, %r8
	je	22f
	xorl	%r9d, %r9d
	cmpb	$43, %al
	sete	%r9b
	movq	%r8, %rdx
	subq	%r9, %rdx
	cmpq	%rdi, %rdx
	jne	120f
22:
	movq	$32, (%rsp)
	leaq	.L1_x86_static.57(%rip), %rsi
	leaq	.L1_x86_static.56(%rip), %r9
	leaq	16(%rsp), %rdi
	movl	$21, %edx
	callq	b2sum_commands..values..wrong_value_1_x86
	movzbl	16(%rsp), %eax
	movups	24(%rsp), %xmm0
	movups	40(%rsp), %xmm1
	movups	56(%rsp), %xmm2
	movaps	%xmm2, 384(%rsp)
	movb	$1, (%rbx)
	movq	%rax, 8(%rbx)
	movups	%xmm0, 16(%rbx)
	movups	%xmm1, 32(%rbx)
	movaps	384(%rsp), %xmm0
	jmp	2b
23:
	testq	%r8, %r8
	je	26f
	xorl	%edi, %edi
	jmp	25f
	.p2align	4
24:
	incq	%rdi
	cmpq	%rdi, %r8
	je	26f
25:
	movzbl	(%rcx,%rdi), %eax
	movzbl	%al, %edx
	leal	-9(%rdx), %r9d
	cmpl	$5, %r9d
	jb	24b
	cmpl	$32, %edx
	je	24b
	cmpq	%rdi, %r8
	je	26f
	xorl	%r9d, %r9d
	cmpb	$43, %al
	sete	%r9b
	movq	%r8, %rdx
	subq	%r9, %rdx
	cmpq	%rdi, %rdx
	jne	122f
26:
	movq	$61, (%rsp)
	leaq	.L1_x86_static.60(%rip), %rsi
	leaq	.L1_x86_static.59(%rip), %r9
	leaq	16(%rsp), %rdi
	movl	$27, %edx
	callq	b2sum_commands..values..wrong_value_1_x86
	movzbl	16(%rsp), %eax
	movups	24(%rsp), %xmm0
	movups	40(%rsp), %xmm1
	movups	56(%rsp), %xmm2
	movaps	%xmm2, 368(%rsp)
	movb	$1, (%rbx)
	movq	%rax, 8(%rbx)
	movups	%xmm0, 16(%rbx)
	movups	%xmm1, 32(%rbx)
	movaps	368(%rsp), %xmm0
	jmp	2b
27:
	xorps	%xmm0, %xmm0
	movaps	%xmm0, 240(%rsp)
	movl	$4, %eax
	xorl	%ecx, %ecx
	xorl	%edx, %edx
	jmp	31f
28:
	xorps	%xmm0, %xmm0
	movaps	%xmm0, 256(%rsp)
	movl	$4, %eax
	xorl	%ecx, %ecx
	xorl	%edx, %edx
	jmp	37f
29:
	movq	128(%r14), %rdi
	movq	%rax, 128(%r14)
	movaps	432(%rsp), %xmm0
	cmpq	$0, 144(%r14)
	movups	%xmm0, 136(%r14)
	xorps	%xmm2, %xmm2
	jne	117f
	jmp	1b
30:
	movq	$22, (%rsp)
	leaq	.L1_x86_static.43(%rip), %rsi
	leaq	.L1_x86_static.54(%rip), %r9
	leaq	16(%rsp), %rdi
	movl	$25, %edx
	xorl	%r8d, %r8d
	callq	b2sum_commands..values..wrong_value_1_x86
	movzbl	16(%rsp), %eax
	movups	24(%rsp), %xmm0
	movq	40(%rsp), %rdx
	movq	48(%rsp), %rcx
	movups	56(%rsp), %xmm1
	movaps	%xmm1, 240(%rsp)
31:
	movb	$1, (%rbx)
	movq	%rax, 8(%rbx)
	movups	%xmm0, 16(%rbx)
	movq	%rdx, 32(%rbx)
	movq	%rcx, 40(%rbx)
	movaps	240(%rsp), %xmm0
	jmp	2b
32:
	leaq	15(%rsp), %r14
33:
	movq	%r14, %rdx
	subq	%rcx, %rdx
	cmpq	%r8, %rdx
	jae	49f
	xorl	%eax, %eax
	cmpq	$4, %r8
	jb	70f
	cmpq	$32, %rdx
	jb	70f
	cmpq	$32, %r8
	jae	66f
	xorl	%eax, %eax
	jmp	68f
34:
	leaq	15(%rsp), %r14
35:
	movq	%r14, %rdx
	subq	%rcx, %rdx
	cmpq	%r8, %rdx
	jae	50f
	xorl	%eax, %eax
	cmpq	$4, %r8
	jb	80f
	cmpq	$32, %rdx
	jb	80f
	cmpq	$32, %r8
	jae	76f
	xorl	%eax, %eax
	jmp	78f
36:
	movq	$22, (%rsp)
	leaq	.L1_x86_static.42(%rip), %rsi
	leaq	.L1_x86_static.54(%rip), %r9
	leaq	16(%rsp), %rdi
	movl	$17, %edx
	xorl	%r8d, %r8d
	callq	b2sum_commands..values..wrong_value_1_x86
	movzbl	16(%rsp), %eax
	movups	24(%rsp), %xmm0
	movq	40(%rsp), %rdx
	movq	48(%rsp), %rcx
	movups	56(%rsp), %xmm1
	movaps	%xmm1, 256(%rsp)
37:
	movb	$1, (%rbx)
	movq	%rax, 8(%rbx)
	movups	%xmm0, 16(%rbx)
	movq	%rdx, 32(%rbx)
	movq	%rcx, 40(%rbx)
	movaps	256(%rsp), %xmm0
	jmp	2b
38:
	movq	152(%r14), %rdi
	movq	%rax, 152(%r14)
	movaps	496(%rsp), %xmm0
	cmpq	$0, 168(%r14)
	movups	%xmm0, 160(%r14)
	xorps	%xmm2, %xmm2
	jne	117f
	jmp	1b
39:
	leaq	15(%rsp), %r14
40:
	movq	%r14, %rdx
	subq	%rcx, %rdx
	cmpq	%r8, %rdx
	jae	51f
	xorl	%eax, %eax
	cmpq	$4, %r8
	jb	90f
	cmpq	$32, %rdx
	jb	90f
	cmpq	$32, %r8
	jae	86f
	xorl	%eax, %eax
	jmp	88f
41:
	movq	$23, (%rsp)
	leaq	.L1_x86_static.50(%rip), %rsi
	leaq	.L1_x86_static.51(%rip), %r9
	leaq	16(%rsp), %rdi
	movl	$16, %edx
	xorl	%r8d, %r8d
	callq	b2sum_commands..values..wrong_value_1_x86
	movzbl	16(%rsp), %ebp
	movups	24(%rsp), %xmm1
	movq	40(%rsp), %r14
	movq	48(%rsp), %rax
	movups	56(%rsp), %xmm0
	jmp	57f
42:
	movq	120(%rsp), %r15
	movq	128(%rsp), %r8
	movq	136(%rsp), %rbp
	movq	%r12, (%rsp)
	leaq	.L1_x86_static.61(%rip), %rsi
	leaq	272(%rsp), %rdi
	movl	$16, %edx
	movq	%r15, %rcx
	movq	%r14, %r9
	callq	b2sum_commands..options..joined_1_x86
	cmpb	$0, 272(%rsp)
	je	58f
	testq	%rbp, %rbp
	je	14b
	movq	%r15, %rdi
	vj_call	rattle_dealloc
	jmp	14b
43:
	cmpl	$1801546850, (%rcx)
	jne	46f
	leaq	.L1_x86_static.45(%rip), %rdx
	movq	%rsi, %r14
	movl	$7, %esi
	movq	%rcx, %rdi
	movq	%r8, %r15
	movq	%rcx, %r12
	callq	core..cmp..slices..groups_equal..i8.31.core..cmp..numbers..U8PartialEq_1_x86
	xorps	%xmm2, %xmm2
	movq	%r14, %rdx
	xorl	%esi, %esi
	testb	%al, %al
	jne	45f
	movq	%r12, %rdi
	leaq	.L1_x86_static.46(%rip), %rdx
	movl	$7, %esi
	callq	core..cmp..slices..groups_equal..i8.31.core..cmp..numbers..U8PartialEq_1_x86
	xorps	%xmm2, %xmm2
	movq	%r12, %rcx
	movq	%r14, %rdx
	movq	%r15, %r8
	movl	$1, %esi
44:
	testb	%al, %al
	je	46f
45:
	movl	%esi, (%rdx)
	movl	$0, 4(%rdx)
	movb	$1, 8(%rdx)
	jmp	1b
46:
	leaq	16(%rsp), %rdi
	movq	%rcx, %rsi
	movq	%r8, %rdx
	callq	b2sum_commands..quoting..quoted_value_1_x86
	cmpb	$0, 16(%rsp)
	je	52f
47:
	xorps	%xmm0, %xmm0
	movaps	%xmm0, 208(%rsp)
	movl	$4, %ecx
	xorl	%eax, %eax
48:
	movb	$1, (%rbx)
	movq	%rcx, 8(%rbx)
	movups	%xmm0, 16(%rbx)
	movq	%rax, 32(%rbx)
	movq	$0, 40(%rbx)
	movaps	208(%rsp), %xmm0
	jmp	2b
49:
	movq	%r14, %rdi
	movq	%rsi, %r15
	movq	%rcx, %rsi
	movq	%r8, %rdx
	movq	%r8, %r12
	vj_c_call	memmove
	xorps	%xmm2, %xmm2
	movq	%r15, %rsi
	movq	%r12, %r8
	jmp	74f
50:
	movq	%r14, %rdi
	movq	%rsi, %r15
	movq	%rcx, %rsi
	movq	%r8, %rdx
	movq	%r8, %r12
	vj_c_call	memmove
	movq	%r15, %rsi
	movq	%r12, %r8
	jmp	84f
51:
	movq	%r14, %rdi
	movq	%rsi, %r15
	movq	%rcx, %rsi
	movq	%r8, %rdx
	movq	%r8, %r12
	vj_c_call	memmove
	xorps	%xmm2, %xmm2
	movq	%r15, %rsi
	movq	%r12, %r8
	jmp	94f
52:
	movq	24(%rsp), %r14
	movq	32(%rsp), %r8
	movq	40(%rsp), %r15
	movq	$0, (%rsp)
	leaq	.L1_x86_static.49(%rip), %rsi
	leaq	.L1_x86_static.1(%rip), %r9
	leaq	112(%rsp), %rdi
	movl	$19, %edx
	movq	%r14, %rcx
	callq	b2sum_commands..options..joined_1_x86
	cmpb	$0, 112(%rsp)
	je	62f
	testq	%r15, %r15
	je	47b
	movq	%r14, %rdi
	vj_call	rattle_dealloc
	jmp	47b
53:
	movq	88(%rsp), %r8
	movq	96(%rsp), %rcx
	movq	104(%rsp), %r12
	cmpq	$65, %rcx
	jb	60f
	movq	%r8, %r13
	movq	$29, (%rsp)
	leaq	.L1_x86_static.50(%rip), %rsi
	leaq	.L1_x86_static.52(%rip), %r9
	leaq	112(%rsp), %rdi
	movl	$16, %edx
	movq	%r15, %rcx
	movq	%r14, %r8
	callq	b2sum_commands..values..wrong_value_1_x86
	movzbl	112(%rsp), %ebp
	movups	120(%rsp), %xmm1
	movq	136(%rsp), %r14
	testq	%r12, %r12
	je	54f
	movq	%r13, %rdi
	movaps	%xmm1, 224(%rsp)
	vj_call	rattle_dealloc
	movaps	224(%rsp), %xmm1
54:
	movq	144(%rsp), %rax
	movups	152(%rsp), %xmm0
	jmp	57f
55:
	movq	$54, (%rsp)
	leaq	.L1_x86_static.50(%rip), %rsi
	leaq	.L1_x86_static.53(%rip), %r9
	leaq	272(%rsp), %rdi
	movl	$16, %edx
	movq	%r15, %rcx
	movq	%r14, %r8
	callq	b2sum_commands..values..wrong_value_1_x86
	movzbl	272(%rsp), %ebp
	movups	280(%rsp), %xmm1
	movq	296(%rsp), %r14
	movq	304(%rsp), %rax
	movups	312(%rsp), %xmm0
	movaps	%xmm0, 400(%rsp)
56:
	movaps	400(%rsp), %xmm0
57:
	movaps	%xmm0, 192(%rsp)
	movzbl	%bpl, %ecx
	movb	$1, (%rbx)
	movq	%rcx, 8(%rbx)
	movups	%xmm1, 16(%rbx)
	movq	%r14, 32(%rbx)
	movq	%rax, 40(%rbx)
	movaps	192(%rsp), %xmm0
	jmp	2b
58:
	movups	280(%rsp), %xmm1
	movq	296(%rsp), %r13
	xorps	%xmm0, %xmm0
	movaps	%xmm0, 80(%rsp)
	movl	$3, %r14d
	leaq	15(%rsp), %r12
	testq	%rbp, %rbp
	je	59f
	movq	%r15, %rdi
	movaps	%xmm1, 224(%rsp)
	vj_call	rattle_dealloc
	movaps	224(%rsp), %xmm1
59:
	movaps	80(%rsp), %xmm0
	movaps	%xmm0, 176(%rsp)
	jmp	15b
60:
	movq	%r13, %rax
	movzbl	224(%r13), %esi
	movq	232(%r13), %rdi
	movq	248(%r13), %rdx
	movq	$1, 224(%r13)
	movq	%r8, 232(%r13)
	movq	%rcx, 240(%r13)
	movq	%r12, 248(%r13)
	cmpb	$1, %sil
	jne	61f
	testq	%rdx, %rdx
	je	61f
	vj_call	rattle_dealloc
	movq	%r13, %rax
61:
	movb	$1, 256(%rax)
	xorps	%xmm2, %xmm2
	jmp	1b
62:
	testq	%r15, %r15
	je	63f
	movq	%r14, %rdi
	vj_call	rattle_dealloc
63:
	movups	120(%rsp), %xmm0
	movq	136(%rsp), %rax
	xorps	%xmm1, %xmm1
	movaps	%xmm1, 208(%rsp)
	movl	$2, %ecx
	jmp	48b
64:
	movq	%rdx, %rdi
	movq	%rdx, %r12
	movq	%rcx, %rdx
	vj_c_call	memmove
	xorps	%xmm2, %xmm2
	movq	%r12, %rdx
	movq	%r14, %r8
	movq	%r15, %rcx
	jmp	107f
65:
	movq	%rdx, %rdi
	movq	%rdx, %r12
	movq	%rcx, %rdx
	vj_c_call	memmove
	xorps	%xmm2, %xmm2
	movq	%r12, %rdx
	movq	%r14, %r8
	movq	%r15, %rcx
	jmp	116f
66:
	movq	%r8, %rax
	andq	$-32, %rax
	xorl	%edx, %edx
67:
	movups	(%rcx,%rdx), %xmm0
	movups	16(%rcx,%rdx), %xmm1
	movups	%xmm0, (%r14,%rdx)
	movups	%xmm1, 16(%r14,%rdx)
	addq	$32, %rdx
	cmpq	%rdx, %rax
	jne	67b
	cmpq	%rax, %r8
	je	74f
	testb	$28, %r8b
	je	70f
68:
	movq	%rax, %rdx
	movq	%r8, %rax
	andq	$-4, %rax
69:
	movl	(%rcx,%rdx), %edi
	movl	%edi, (%r14,%rdx)
	addq	$4, %rdx
	cmpq	%rdx, %rax
	jne	69b
	cmpq	%rax, %r8
	je	74f
70:
	movq	%r8, %rdi
	movq	%rax, %rdx
	andq	$3, %rdi
	je	72f
	movq	%rax, %rdx
71:
	movzbl	(%rcx,%rdx), %r9d
	movb	%r9b, (%r14,%rdx)
	incq	%rdx
	decq	%rdi
	jne	71b
72:
	subq	%r8, %rax
	cmpq	$-4, %rax
	ja	74f
73:
	movzbl	(%rcx,%rdx), %eax
	movb	%al, (%r14,%rdx)
	movzbl	1(%rcx,%rdx), %eax
	movb	%al, 1(%r14,%rdx)
	movzbl	2(%rcx,%rdx), %eax
	movb	%al, 2(%r14,%rdx)
	movzbl	3(%rcx,%rdx), %eax
	movb	%al, 3(%r14,%rdx)
	addq	$4, %rdx
	cmpq	%rdx, %r8
	jne	73b
74:
	movzbl	56(%rsi), %ecx
	movq	64(%rsi), %rdi
	movq	80(%rsi), %rax
	movq	$1, 56(%rsi)
	movq	%r14, 64(%rsi)
	movq	%r8, 72(%rsi)
	movq	%r8, 80(%rsi)
	cmpb	$1, %cl
	jne	75f
	testq	%rax, %rax
	je	75f
	movq	%rsi, %r14
	vj_call	rattle_dealloc
	xorps	%xmm2, %xmm2
	movq	%r14, %rsi
75:
	movb	$1, 88(%rsi)
	jmp	1b
76:
	movq	%r8, %rax
	andq	$-32, %rax
	xorl	%edx, %edx
77:
	movups	(%rcx,%rdx), %xmm0
	movups	16(%rcx,%rdx), %xmm1
	movups	%xmm0, (%r14,%rdx)
	movups	%xmm1, 16(%r14,%rdx)
	addq	$32, %rdx
	cmpq	%rdx, %rax
	jne	77b
	cmpq	%rax, %r8
	je	84f
	testb	$28, %r8b
	je	80f
78:
	movq	%rax, %rdx
	movq	%r8, %rax
	andq	$-4, %rax
79:
	movl	(%rcx,%rdx), %edi
	movl	%edi, (%r14,%rdx)
	addq	$4, %rdx
	cmpq	%rdx, %rax
	jne	79b
	cmpq	%rax, %r8
	je	84f
80:
	movq	%r8, %rdi
	movq	%rax, %rdx
	andq	$3, %rdi
	je	82f
	movq	%rax, %rdx
81:
	movzbl	(%rcx,%rdx), %r9d
	movb	%r9b, (%r14,%rdx)
	incq	%rdx
	decq	%rdi
	jne	81b
82:
	subq	%r8, %rax
	cmpq	$-4, %rax
	ja	84f
83:
	movzbl	(%rcx,%rdx), %eax
	movb	%al, (%r14,%rdx)
	movzbl	1(%rcx,%rdx), %eax
	movb	%al, 1(%r14,%rdx)
	movzbl	2(%rcx,%rdx), %eax
	movb	%al, 2(%r14,%rdx)
	movzbl	3(%rcx,%rdx), %eax
	movb	%al, 3(%r14,%rdx)
	addq	$4, %rdx
	cmpq	%rdx, %r8
	jne	83b
84:
	movzbl	56(%rsi), %ecx
	movq	64(%rsi), %rdi
	movq	80(%rsi), %rax
	movq	$1, 56(%rsi)
	movq	%r14, 64(%rsi)
	movq	%r8, 72(%rsi)
	movq	%r8, 80(%rsi)
	cmpb	$1, %cl
	jne	85f
	testq	%rax, %rax
	je	85f
	movq	%rsi, %r14
	vj_call	rattle_dealloc
	movq	%r14, %rsi
85:
	movb	$1, 89(%rsi)
	xorps	%xmm2, %xmm2
	jmp	1b
86:
	movq	%r8, %rax
	andq	$-32, %rax
	xorl	%edx, %edx
87:
	movups	(%rcx,%rdx), %xmm0
	movups	16(%rcx,%rdx), %xmm1
	movups	%xmm0, (%r14,%rdx)
	movups	%xmm1, 16(%r14,%rdx)
	addq	$32, %rdx
	cmpq	%rdx, %rax
	jne	87b
	cmpq	%rax, %r8
	je	94f
	testb	$28, %r8b
	je	90f
88:
	movq	%rax, %rdx
	movq	%r8, %rax
	andq	$-4, %rax
89:
	movl	(%rcx,%rdx), %edi
	movl	%edi, (%r14,%rdx)
	addq	$4, %rdx
	cmpq	%rdx, %rax
	jne	89b
	cmpq	%rax, %r8
	je	94f
90:
	movq	%r8, %rdi
	movq	%rax, %rdx
	andq	$3, %rdi
	je	92f
	movq	%rax, %rdx
91:
	movzbl	(%rcx,%rdx), %r9d
	movb	%r9b, (%r14,%rdx)
	incq	%rdx
	decq	%rdi
	jne	91b
92:
	subq	%r8, %rax
	cmpq	$-4, %rax
	ja	94f
93:
	movzbl	(%rcx,%rdx), %eax
	movb	%al, (%r14,%rdx)
	movzbl	1(%rcx,%rdx), %eax
	movb	%al, 1(%r14,%rdx)
	movzbl	2(%rcx,%rdx), %eax
	movb	%al, 2(%r14,%rdx)
	movzbl	3(%rcx,%rdx), %eax
	movb	%al, 3(%r14,%rdx)
	addq	$4, %rdx
	cmpq	%rdx, %r8
	jne	93b
94:
	movq	208(%rsi), %rax
	cmpq	%rax, 216(%rsi)
	je	98f
95:
	movq	200(%rsi), %rcx
	leaq	(%rax,%rax,2), %rdx
	movq	%r14, (%rcx,%rdx,8)
	movq	%r8, 8(%rcx,%rdx,8)
	movq	%r8, 16(%rcx,%rdx,8)
	incq	%rax
	movq	%rax, 208(%rsi)
	jmp	1b
96:
	movabsq	$9223372036854775776, %rdi
	cmpq	$32, %rcx
	jae	99f
	xorl	%eax, %eax
	jmp	101f
97:
	movabsq	$9223372036854775776, %rdi
	cmpq	$32, %rcx
	jae	108f
	xorl	%eax, %eax
	jmp	110f
98:
	movq	%r8, %r15
	movq	%rsi, %r12
	leaq	200(%rsi), %rdi
	movl	$1, %esi
	callq	std_alloc..vec..Vec..grow_amortized..bb23d2d2a8e2d2e5_1_x86
	testb	%al, %al
	je	124f
	movq	%r12, %rsi
	movq	208(%r12), %rax
	movq	%r15, %r8
	xorps	%xmm2, %xmm2
	jmp	95b
99:
	movq	%rcx, %rax
	andq	%rdi, %rax
	xorl	%r9d, %r9d
100:
	movups	(%rsi,%r9), %xmm0
	movups	16(%rsi,%r9), %xmm1
	movups	%xmm0, (%rdx,%r9)
	movups	%xmm1, 16(%rdx,%r9)
	addq	$32, %r9
	cmpq	%r9, %rax
	jne	100b
	cmpq	%rax, %rcx
	je	107f
	testb	$28, %cl
	je	103f
101:
	movq	%rax, %r9
	addq	$28, %rdi
	movq	%rdi, %rax
	andq	%rcx, %rax
102:
	movl	(%rsi,%r9), %edi
	movl	%edi, (%rdx,%r9)
	addq	$4, %r9
	cmpq	%r9, %rax
	jne	102b
	cmpq	%rax, %rcx
	je	107f
103:
	movq	%rcx, %r9
	movq	%rax, %rdi
	andq	$3, %r9
	je	105f
	movq	%rax, %rdi
104:
	movzbl	(%rsi,%rdi), %r10d
	movb	%r10b, (%rdx,%rdi)
	incq	%rdi
	decq	%r9
	jne	104b
105:
	subq	%rcx, %rax
	cmpq	$-4, %rax
	ja	107f
106:
	movzbl	(%rsi,%rdi), %eax
	movb	%al, (%rdx,%rdi)
	movzbl	1(%rsi,%rdi), %eax
	movb	%al, 1(%rdx,%rdi)
	movzbl	2(%rsi,%rdi), %eax
	movb	%al, 2(%rdx,%rdi)
	movzbl	3(%rsi,%rdi), %eax
	movb	%al, 3(%rdx,%rdi)
	addq	$4, %rdi
	cmpq	%rdi, %rcx
	jne	106b
107:
	movq	176(%r8), %rdi
	movq	%rdx, 176(%r8)
	movq	%rcx, 184(%r8)
	cmpq	$0, 192(%r8)
	movq	%rcx, 192(%r8)
	jne	117f
	jmp	1b
108:
	movq	%rcx, %rax
	andq	%rdi, %rax
	xorl	%r9d, %r9d
109:
	movups	(%rsi,%r9), %xmm0
	movups	16(%rsi,%r9), %xmm1
	movups	%xmm0, (%rdx,%r9)
	movups	%xmm1, 16(%rdx,%r9)
	addq	$32, %r9
	cmpq	%r9, %rax
	jne	109b
	cmpq	%rax, %rcx
	je	116f
	testb	$28, %cl
	je	112f
110:
	movq	%rax, %r9
	addq	$28, %rdi
	movq	%rdi, %rax
	andq	%rcx, %rax
111:
	movl	(%rsi,%r9), %edi
	movl	%edi, (%rdx,%r9)
	addq	$4, %r9
	cmpq	%r9, %rax
	jne	111b
	cmpq	%rax, %rcx
	je	116f
112:
	movq	%rcx, %r9
	movq	%rax, %rdi
	andq	$3, %r9
	je	114f
	movq	%rax, %rdi
113:
	movzbl	(%rsi,%rdi), %r10d
	movb	%r10b, (%rdx,%rdi)
	incq	%rdi
	decq	%r9
	jne	113b
114:
	subq	%rcx, %rax
	cmpq	$-4, %rax
	ja	116f
115:
	movzbl	(%rsi,%rdi), %eax
	movb	%al, (%rdx,%rdi)
	movzbl	1(%rsi,%rdi), %eax
	movb	%al, 1(%rdx,%rdi)
	movzbl	2(%rsi,%rdi), %eax
	movb	%al, 2(%rdx,%rdi)
	movzbl	3(%rsi,%rdi), %eax
	movb	%al, 3(%rdx,%rdi)
	addq	$4, %rdi
	cmpq	%rdi, %rcx
	jne	115b
116:
	movzbl	96(%r8), %esi
	movq	104(%r8), %rdi
	movq	120(%r8), %rax
	movq	$1, 96(%r8)
	movq	%rdx, 104(%r8)
	movq	%rcx, 112(%r8)
	movq	%rcx, 120(%r8)
	cmpb	$1, %sil
	jne	1b
	testq	%rax, %rax
	je	1b
117:
	vj_call	rattle_dealloc
	xorps	%xmm2, %xmm2
	jmp	1b
118:
	xorl	%edx, %edx
	cmpb	$43, %al
	sete	%dl
	movq	%r8, %r11
	subq	%rdx, %r11
	addq	%rcx, %r9
	xorl	%r10d, %r10d
	xorl	%r15d, %r15d
119:
	movzbl	(%r9,%rdi), %eax
	leal	-58(%rax), %edx
	cmpb	$-10, %dl
	jb	12b
	addb	$-48, %al
	movzbl	%al, %eax
	leaq	(%r10,%r10,4), %rdx
	leaq	(%rax,%rdx,2), %r12
	notq	%rax
	movabsq	$-3689348814741910323, %rdx
	mulq	%rdx
	shrq	$3, %rdx
	cmpq	%r10, %rdx
	cmovaeq	%r12, %r10
	setb	%al
	orb	%al, %r15b
	incq	%rdi
	cmpq	%rdi, %r11
	jne	119b
	testb	$1, %r15b
	je	126f
	movl	$39, %r12d
	leaq	.L1_x86_static.58(%rip), %r14
	jmp	13b
120:
	xorl	%edx, %edx
	cmpb	$43, %al
	sete	%dl
	movq	%r8, %r14
	subq	%rdx, %r14
	addq	%rcx, %r9
	xorl	%r10d, %r10d
	xorl	%r11d, %r11d
121:
	movzbl	(%r9,%rdi), %eax
	leal	-58(%rax), %edx
	cmpb	$-10, %dl
	jb	22b
	addb	$-48, %al
	movzbl	%al, %eax
	leaq	(%r10,%r10,4), %rdx
	leaq	(%rax,%rdx,2), %r15
	notq	%rax
	movabsq	$-3689348814741910323, %rdx
	mulq	%rdx
	shrq	$3, %rdx
	cmpq	%r10, %rdx
	cmovaeq	%r15, %r10
	setb	%al
	orb	%al, %r11b
	incq	%rdi
	cmpq	%rdi, %r14
	jne	121b
	movabsq	$-4294967296, %rax
	leaq	(%r10,%rax), %rdx
	incq	%rax
	cmpq	%rax, %rdx
	setb	%al
	orb	%al, %r11b
	testb	$1, %r11b
	jne	22b
	movl	$1, 12(%rsi)
	movl	%r10d, 16(%rsi)
	jmp	1b
122:
	xorl	%edx, %edx
	cmpb	$43, %al
	sete	%dl
	movq	%r8, %r11
	subq	%rdx, %r11
	addq	%rcx, %r9
	xorl	%r10d, %r10d
	xorl	%r14d, %r14d
123:
	movzbl	(%r9,%rdi), %eax
	leal	-58(%rax), %edx
	cmpb	$-10, %dl
	jb	26b
	addb	$-48, %al
	movzbl	%al, %eax
	leaq	(%r10,%r10,4), %rdx
	leaq	(%rax,%rdx,2), %r15
	notq	%rax
	movabsq	$-3689348814741910323, %rdx
	mulq	%rdx
	shrq	$3, %rdx
	cmpq	%r10, %rdx
	cmovaeq	%r15, %r10
	setb	%al
	orb	%al, %r14b
	incq	%rdi
	cmpq	%rdi, %r11
	jne	123b
	movq	%r10, %rax
	shrq	$32, %rax
	setne	%al
	orb	%al, %r14b
	testb	$1, %r14b
	jne	26b
	movl	$1, 264(%rsi)
	movl	%r10d, 268(%rsi)
	jmp	1b
124:
	testq	%r15, %r15
	je	125f
	movq	%r14, %rdi
	vj_call	rattle_dealloc
125:
	movb	$1, (%rbx)
	movq	$4, 8(%rbx)
	xorps	%xmm0, %xmm0
	movups	%xmm0, 16(%rbx)
	movups	%xmm0, 32(%rbx)
	jmp	2b
126:
	testb	$7, %r10b
	je	127f
	movq	$29, (%rsp)
	leaq	.L1_x86_static.61(%rip), %rsi
	leaq	.L1_x86_static.62(%rip), %r9
	leaq	16(%rsp), %rdi
	movl	$16, %edx
	callq	b2sum_commands..values..wrong_value_1_x86
	movzbl	16(%rsp), %r14d
	movups	24(%rsp), %xmm1
	movq	40(%rsp), %r13
	movq	48(%rsp), %r12
	movups	56(%rsp), %xmm0
	movaps	%xmm0, 80(%rsp)
	jmp	59b
127:
	movq	%rsi, %r14
	movq	%r10, 24(%rsi)
	leaq	336(%rsp), %rdi
	movq	%rcx, %rsi
	movq	%r8, %rdx
	callq	b2sum_commands..quoting..quoted_value_1_x86
	cmpb	$0, 336(%rsp)
	jne	125b
	movq	32(%r14), %rdi
	movups	344(%rsp), %xmm0
	movups	%xmm0, 32(%r14)
	movq	360(%rsp), %rax
	cmpq	$0, 48(%r14)
	movq	%rax, 48(%r14)
	xorps	%xmm2, %xmm2
	jne	117b
	jmp	1b
	vj_end	b2sum_commands..options..take_value_1_x86

	vj_data	b2sum_commands..options..take_value_1_x86
	.p2align	2, 0x0
.L1_x86_JTI10_0:
	.long	7b-.L1_x86_JTI10_0
	.long	9b-.L1_x86_JTI10_0
	.long	5b-.L1_x86_JTI10_0
	.long	6b-.L1_x86_JTI10_0
	.long	8b-.L1_x86_JTI10_0
	.long	16b-.L1_x86_JTI10_0
	.long	4b-.L1_x86_JTI10_0
	.long	3b-.L1_x86_JTI10_0
	.long	19b-.L1_x86_JTI10_0
	.long	23b-.L1_x86_JTI10_0
	.long	1b-.L1_x86_JTI10_0
	.long	1b-.L1_x86_JTI10_0
	.long	1b-.L1_x86_JTI10_0
	.long	1b-.L1_x86_JTI10_0
	.long	17b-.L1_x86_JTI10_0
	.long	1b-.L1_x86_JTI10_0
	.long	18b-.L1_x86_JTI10_0
	.long	1b-.L1_x86_JTI10_0
	.long	1b-.L1_x86_JTI10_0
	.long	1b-.L1_x86_JTI10_0
	.long	1b-.L1_x86_JTI10_0
	.long	1b-.L1_x86_JTI10_0
	.long	1b-.L1_x86_JTI10_0
	.long	1b-.L1_x86_JTI10_0
	.long	1b-.L1_x86_JTI10_0
	.long	1b-.L1_x86_JTI10_0
	.long	1b-.L1_x86_JTI10_0
	.long	1b-.L1_x86_JTI10_0
	.long	1b-.L1_x86_JTI10_0
	.long	1b-.L1_x86_JTI10_0

	vj_function	hex..decode..1a9ba769f0efa4a8_1_x86
	pushq	%r15
	pushq	%r14
	pushq	%r13
	pushq	%r12
	pushq	%rbx
	subq	$16, %rsp
	testb	$1, %dl
	jne	1f
	testq	%rdx, %rdx
	je	2f
	movq	%rsi, %r12
	movq	%rdi, %r15
	movq	%rdx, %r14
	movq	%rdx, %rbx
	shrq	%rbx
	movl	$1, %esi
	movq	%rbx, %rdi
	vj_call	rattle_alloc
	testb	$1, %al
	je	4f
	cmpq	$2, %r14
	jne	5f
	xorl	%r14d, %r14d
	jmp	6f
1:
	movq	$1, (%rdi)
	movq	$1, 8(%rdi)
	xorps	%xmm0, %xmm0
	movups	%xmm0, 16(%rdi)
	jmp	19f
2:
	leaq	15(%rsp), %rdx
	xorl	%ebx, %ebx
3:
	movq	$0, (%rdi)
	movq	%rdx, 8(%rdi)
	movq	%rbx, 16(%rdi)
	movq	%rbx, 24(%rdi)
	jmp	19f
4:
	movq	$1, (%r15)
	movq	$3, 8(%r15)
	xorps	%xmm0, %xmm0
	movups	%xmm0, 16(%r15)
	jmp	19f
5:
	leaq	-1(%rbx), %r14
	movq	%rdx, %rdi
	xorl	%esi, %esi
	movq	%rdx, %r13
	movq	%r14, %rdx
	vj_c_call	memset
	movq	%r13, %rdx
6:
	movq	%r12, %rax
	movb	$0, (%rdx,%r14)
	incq	%r14
	cmpq	%r14, %rbx
	jne	14f
	xorl	%r12d, %r12d
	xorl	%esi, %esi
	movq	%r15, %rdi
	jmp	9f
	.p2align	4
7:
	addb	$-48, %r8b
8:
	shlb	$4, %cl
	addb	%r8b, %cl
	movb	%cl, (%rdx,%rsi)
	incq	%rsi
	addq	$-2, %r12
	cmpq	%rsi, %r14
	je	3b
9:
	movzbl	(%rax,%rsi,2), %ecx
	cmpb	$48, %cl
	jb	15f
	movzbl	1(%rax,%rsi,2), %r8d
	cmpb	$57, %cl
	ja	10f
	addb	$-48, %cl
	jmp	12f
	.p2align	4
10:
	cmpb	$65, %cl
	jb	15f
	cmpb	$70, %cl
	ja	11f
	addb	$-55, %cl
	jmp	12f
11:
	leal	-97(%rcx), %r9d
	cmpb	$5, %r9b
	ja	15f
	addb	$-87, %cl
12:
	cmpb	$48, %r8b
	jb	16f
	cmpb	$57, %r8b
	jbe	7b
	cmpb	$65, %r8b
	jb	16f
	cmpb	$70, %r8b
	ja	13f
	addb	$-55, %r8b
	jmp	8b
13:
	leal	-97(%r8), %r9d
	cmpb	$5, %r9b
	ja	16f
	addb	$-87, %r8b
	jmp	8b
14:
	movl	$2, %ebx
	xorl	%r12d, %r12d
	jmp	18f
15:
	negq	%r12
	jmp	17f
16:
	movl	$1, %eax
	subq	%r12, %rax
	movl	%r8d, %ecx
	movq	%rax, %r12
17:
	movzbl	%cl, %ebx
	shlq	$32, %rbx
18:
	movq	%rdx, %rdi
	vj_call	rattle_dealloc
	movq	$1, (%r15)
	movq	%rbx, 8(%r15)
	movq	%r12, 16(%r15)
	movq	$0, 24(%r15)
19:
	addq	$16, %rsp
	popq	%rbx
	popq	%r12
	popq	%r13
	popq	%r14
	popq	%r15
	retq
	vj_end	hex..decode..1a9ba769f0efa4a8_1_x86

	vj_function	b2sum_commands..values..wrong_value_1_x86
	pushq	%rbp
	pushq	%r15
	pushq	%r14
	pushq	%r13
	pushq	%r12
	pushq	%rbx
	subq	$136, %rsp
	movq	%r9, %r15
	movq	%rdx, %r12
	movq	%rsi, %r13
	movq	%rdi, %rbx
	xorps	%xmm0, %xmm0
	movaps	%xmm0, 64(%rsp)
	movaps	%xmm0, 48(%rsp)
	movaps	%xmm0, 16(%rsp)
	movaps	%xmm0, 32(%rsp)
	movaps	%xmm0, 80(%rsp)
	movaps	%xmm0, 96(%rsp)
	leaq	48(%rsp), %rdi
	movq	%rcx, %rsi
	movq	%r8, %rdx
	callq	b2sum_commands..quoting..quoted_value_1_x86
	cmpb	$0, 48(%rsp)
	jne	2f
	movq	56(%rsp), %r14
	movq	64(%rsp), %r8
	movq	72(%rsp), %rbp
	movq	$0, (%rsp)
	leaq	.L1_x86_static.1(%rip), %r9
	leaq	16(%rsp), %rdi
	movq	%r13, %rsi
	movq	%r12, %rdx
	movq	%r14, %rcx
	callq	b2sum_commands..options..joined_1_x86
	cmpb	$0, 16(%rsp)
	je	4f
1:
	testq	%rbp, %rbp
	je	2f
	movq	%r14, %rdi
	vj_call	rattle_dealloc
2:
	movq	$4, (%rbx)
	xorps	%xmm0, %xmm0
	movups	%xmm0, 8(%rbx)
	movups	%xmm0, 24(%rbx)
	movups	%xmm0, 40(%rbx)
3:
	addq	$136, %rsp
	popq	%rbx
	popq	%r12
	popq	%r13
	popq	%r14
	popq	%r15
	popq	%rbp
	retq
4:
	movq	192(%rsp), %rdx
	movq	24(%rsp), %r12
	movq	40(%rsp), %r13
	movaps	32(%rsp), %xmm0
	movaps	%xmm0, 112(%rsp)
	movq	$0, (%rsp)
	leaq	.L1_x86_static.1(%rip), %rcx
	leaq	80(%rsp), %rdi
	movq	%r15, %rsi
	xorl	%r8d, %r8d
	movq	%rcx, %r9
	callq	b2sum_commands..options..joined_1_x86
	cmpb	$0, 80(%rsp)
	je	5f
	testq	%r13, %r13
	je	1b
	movq	%r12, %rdi
	vj_call	rattle_dealloc
	jmp	1b
5:
	leaq	88(%rsp), %r15
	testq	%rbp, %rbp
	je	6f
	movq	%r14, %rdi
	vj_call	rattle_dealloc
6:
	movq	$3, (%rbx)
	movq	%r12, 8(%rbx)
	movaps	112(%rsp), %xmm0
	movups	%xmm0, 16(%rbx)
	movups	(%r15), %xmm0
	movups	%xmm0, 32(%rbx)
	movq	16(%r15), %rax
	movq	%rax, 48(%rbx)
	jmp	3b
	vj_end	b2sum_commands..values..wrong_value_1_x86

	vj_function	b2sum_commands..values..bytes_of_1_x86
	pushq	%rbp
	pushq	%r15
	pushq	%r14
	pushq	%r13
	pushq	%r12
	pushq	%rbx
	subq	$264, %rsp
	movq	%rdi, %rbx
	xorps	%xmm0, %xmm0
	movaps	%xmm0, 80(%rsp)
	movaps	%xmm0, 64(%rsp)
	movaps	%xmm0, 16(%rsp)
	movq	$0, 32(%rsp)
	testq	%r8, %r8
	je	2f
	movq	%r8, %r15
	movq	%rsi, %rbp
	movq	%rdx, %r13
	leaq	64(%rsp), %rdi
	movq	%rcx, %r12
	movq	%rcx, %rsi
	movq	%r8, %rdx
	callq	hex..decode..1a9ba769f0efa4a8_1_x86
	movzbl	64(%rsp), %r8d
	testq	%r8, %r8
	je	3f
	cmpb	$3, 72(%rsp)
	jne	7f
	pxor	%xmm1, %xmm1
	movdqa	%xmm1, 16(%rsp)
	movq	$0, 32(%rsp)
	movl	$4, %r14d
1:
	xorl	%eax, %eax
	jmp	8f
2:
	movq	$23, (%rsp)
	leaq	.L1_x86_static.51(%rip), %r9
	leaq	152(%rsp), %rdi
	xorl	%r8d, %r8d
	callq	b2sum_commands..values..wrong_value_1_x86
	movzbl	152(%rsp), %eax
	movq	176(%rsp), %rcx
	movq	$1, (%rbx)
	movq	%rax, 8(%rbx)
	movups	160(%rsp), %xmm0
	movups	%xmm0, 16(%rbx)
	movq	%rcx, 32(%rbx)
	movups	184(%rsp), %xmm0
	movups	%xmm0, 40(%rbx)
	movq	200(%rsp), %rax
	jmp	9f
3:
	movq	72(%rsp), %r14
	movq	80(%rsp), %rax
	movdqa	80(%rsp), %xmm1
	testq	%rax, %rax
	movq	%r12, %rcx
	movq	%rbp, %rsi
	je	5f
	xorl	%edi, %edi
	.p2align	4
4:
	cmpb	$0, (%r14,%rdi)
	jne	1b
	incq	%rdi
	cmpq	%rdi, %rax
	jne	4b
5:
	movq	$41, (%rsp)
	leaq	.L1_x86_static.55(%rip), %r9
	leaq	208(%rsp), %r12
	movq	%r12, %rdi
	movq	%r13, %rdx
	movq	%r15, %r8
	movdqa	%xmm1, 48(%rsp)
	callq	b2sum_commands..values..wrong_value_1_x86
	movzbl	208(%rsp), %r15d
	movups	216(%rsp), %xmm0
	movq	232(%rsp), %r13
	movdqa	48(%rsp), %xmm1
	pextrq	$1, %xmm1, %rax
	testq	%rax, %rax
	je	6f
	movq	%r14, %rdi
	movaps	%xmm0, 48(%rsp)
	vj_call	rattle_dealloc
	movaps	48(%rsp), %xmm0
6:
	movq	$1, (%rbx)
	movq	%r15, 8(%rbx)
	movups	%xmm0, 16(%rbx)
	movq	%r13, 32(%rbx)
	movups	32(%r12), %xmm0
	movups	%xmm0, 40(%rbx)
	movq	48(%r12), %rax
	jmp	9f
7:
	movq	%rbp, %rsi
	movq	$54, (%rsp)
	leaq	.L1_x86_static.53(%rip), %r9
	leaq	96(%rsp), %rdi
	movq	%r13, %rdx
	movq	%r12, %rcx
	movq	%r8, %r14
	movq	%r15, %r8
	callq	b2sum_commands..values..wrong_value_1_x86
	movq	%r14, %r8
	movzbl	96(%rsp), %r14d
	movdqu	104(%rsp), %xmm1
	movq	120(%rsp), %rax
	movups	128(%rsp), %xmm0
	movaps	%xmm0, 16(%rsp)
	movq	144(%rsp), %rcx
	movq	%rcx, 32(%rsp)
8:
	movq	%r8, (%rbx)
	movq	%r14, 8(%rbx)
	movdqu	%xmm1, 16(%rbx)
	movq	%rax, 32(%rbx)
	movaps	16(%rsp), %xmm0
	movups	%xmm0, 40(%rbx)
	movq	32(%rsp), %rax
9:
	movq	%rax, 56(%rbx)
	addq	$264, %rsp
	popq	%rbx
	popq	%r12
	popq	%r13
	popq	%r14
	popq	%r15
	popq	%rbp
	retq
	vj_end	b2sum_commands..values..bytes_of_1_x86

	vj_function	b2sum_commands..quoting..quoted_value_1_x86
	pushq	%r15
	pushq	%r14
	pushq	%r13
	pushq	%r12
	pushq	%rbx
	subq	$32, %rsp
	movq	%rdx, %r14
	movq	%rsi, %r15
	movq	%rdi, %rbx
	leaq	31(%rsp), %rax
	movq	%rax, (%rsp)
	xorps	%xmm0, %xmm0
	movups	%xmm0, 8(%rsp)
	movq	%rsp, %rdi
	movl	$1, %esi
	callq	std_alloc..vec..Vec..grow_amortized..01eec35b572d02af_1_x86
	testb	%al, %al
	je	17f
	movq	(%rsp), %rcx
	movq	8(%rsp), %rax
	movb	$39, (%rcx,%rax)
	incq	%rax
	movq	%rax, 8(%rsp)
	testq	%r14, %r14
	je	14f
	xorl	%r12d, %r12d
	jmp	5f
1:
	movq	(%rsp), %rdx
	movq	8(%rsp), %rax
	.p2align	4
2:
	movb	%r13b, (%rdx,%rax)
3:
	incq	%rax
	movq	%rax, 8(%rsp)
4:
	incq	%r12
	cmpq	%r12, %r14
	je	13f
5:
	movzbl	(%r15,%r12), %r13d
	cmpl	$92, %r13d
	je	6f
	cmpl	$39, %r13d
	jne	8f
6:
	movq	8(%rsp), %rax
	movq	16(%rsp), %rcx
	cmpq	%rax, %rcx
	je	11f
7:
	movq	(%rsp), %rdx
	movb	$92, (%rdx,%rax)
	incq	%rax
	movq	%rax, 8(%rsp)
	cmpq	%rax, %rcx
	jne	2b
	movq	%rsp, %rdi
	movl	$1, %esi
	callq	std_alloc..vec..Vec..grow_amortized..01eec35b572d02af_1_x86
	testb	%al, %al
	jne	1b
	jmp	17f
	.p2align	4
8:
	leal	-32(%r13), %eax
	cmpb	$94, %al
	ja	10f
	movq	8(%rsp), %rax
	cmpq	%rax, 16(%rsp)
	je	12f
9:
	movq	(%rsp), %rcx
	movb	%r13b, (%rcx,%rax)
	jmp	3b
10:
	movzbl	%r13b, %esi
	movq	%rsp, %rdi
	callq	b2sum_commands..quoting..push_escape_1_x86
	testb	%al, %al
	je	4b
	jmp	17f
11:
	movq	%rsp, %rdi
	movl	$1, %esi
	callq	std_alloc..vec..Vec..grow_amortized..01eec35b572d02af_1_x86
	testb	%al, %al
	je	17f
	movq	8(%rsp), %rax
	movq	16(%rsp), %rcx
	jmp	7b
12:
	movq	%rsp, %rdi
	movl	$1, %esi
	callq	std_alloc..vec..Vec..grow_amortized..01eec35b572d02af_1_x86
	testb	%al, %al
	je	17f
	movq	8(%rsp), %rax
	jmp	9b
13:
	movq	8(%rsp), %rax
14:
	cmpq	%rax, 16(%rsp)
	je	16f
15:
	movq	(%rsp), %rcx
	movb	$39, (%rcx,%rax)
	incq	%rax
	movq	%rax, 8(%rsp)
	movb	$0, (%rbx)
	movq	(%rsp), %rax
	movq	%rax, 8(%rbx)
	movq	8(%rsp), %rax
	movq	%rax, 16(%rbx)
	movq	16(%rsp), %rax
	movq	%rax, 24(%rbx)
	jmp	19f
16:
	movq	%rsp, %rdi
	movl	$1, %esi
	callq	std_alloc..vec..Vec..grow_amortized..01eec35b572d02af_1_x86
	testb	%al, %al
	je	17f
	movq	8(%rsp), %rax
	jmp	15b
17:
	cmpq	$0, 16(%rsp)
	je	18f
	movq	(%rsp), %rdi
	vj_call	rattle_dealloc
18:
	movb	$1, (%rbx)
	xorps	%xmm0, %xmm0
	movups	%xmm0, 8(%rbx)
	movq	$0, 24(%rbx)
19:
	addq	$32, %rsp
	popq	%rbx
	popq	%r12
	popq	%r13
	popq	%r14
	popq	%r15
	retq
	vj_end	b2sum_commands..quoting..quoted_value_1_x86

	vj_function	b2sum_commands..quoting..push_escape_1_x86
	pushq	%rbp
	pushq	%r14
	pushq	%rbx
	movq	8(%rdi), %rax
	cmpq	%rax, 16(%rdi)
	je	20f
1:
	movq	(%rdi), %rcx
	movb	$92, (%rcx,%rax)
	incq	%rax
	movq	%rax, 8(%rdi)
	movzbl	%sil, %ecx
	addl	$-7, %ecx
	cmpl	$6, %ecx
	ja	10f
	leaq	.L1_x86_JTI15_0(%rip), %rdx
	movslq	(%rdx,%rcx,4), %rcx
	addq	%rdx, %rcx
	notrack	jmpq	*%rcx
2:
	cmpq	%rax, 16(%rdi)
	je	26f
3:
	movq	(%rdi), %rcx
	movb	$97, (%rcx,%rax)
	jmp	19f
4:
	cmpq	%rax, 16(%rdi)
	je	22f
5:
	movq	(%rdi), %rcx
	movb	$118, (%rcx,%rax)
	jmp	19f
6:
	cmpq	%rax, 16(%rdi)
	je	23f
7:
	movq	(%rdi), %rcx
	movb	$116, (%rcx,%rax)
	jmp	19f
8:
	cmpq	%rax, 16(%rdi)
	je	24f
9:
	movq	(%rdi), %rcx
	movb	$110, (%rcx,%rax)
	jmp	19f
10:
	cmpq	%rax, 16(%rdi)
	je	25f
11:
	movl	%esi, %ecx
	shrb	$6, %cl
	orb	$48, %cl
	movq	(%rdi), %rdx
	movb	%cl, (%rdx,%rax)
	incq	%rax
	movq	%rax, 8(%rdi)
	movl	%esi, %ebp
	movl	%esi, %eax
	shrb	$3, %al
	andb	$7, %al
	orb	$48, %al
	movzbl	%al, %esi
	movq	%rdi, %rbx
	callq	std_alloc..vec..Vec..push..a891bc11159506cb_1_x86
	movl	%eax, %ecx
	movb	$1, %al
	testb	%cl, %cl
	je	21f
12:
	popq	%rbx
	popq	%r14
	popq	%rbp
	retq
13:
	cmpq	%rax, 16(%rdi)
	je	27f
14:
	movq	(%rdi), %rcx
	movb	$98, (%rcx,%rax)
	jmp	19f
15:
	cmpq	%rax, 16(%rdi)
	je	28f
16:
	movq	(%rdi), %rcx
	movb	$102, (%rcx,%rax)
	jmp	19f
17:
	cmpq	%rax, 16(%rdi)
	je	29f
18:
	movq	(%rdi), %rcx
	movb	$114, (%rcx,%rax)
19:
	incq	%rax
	movq	%rax, 8(%rdi)
	xorl	%eax, %eax
	popq	%rbx
	popq	%r14
	popq	%rbp
	retq
20:
	movl	%esi, %ebx
	movl	$1, %esi
	movq	%rdi, %r14
	callq	std_alloc..vec..Vec..grow_amortized..01eec35b572d02af_1_x86
	movl	%eax, %ecx
	movb	$1, %al
	testb	%cl, %cl
	je	12b
	movq	%r14, %rdi
	movq	8(%r14), %rax
	movl	%ebx, %esi
	jmp	1b
21:
	andb	$7, %bpl
	orb	$48, %bpl
	movzbl	%bpl, %esi
	movq	%rbx, %rdi
	callq	std_alloc..vec..Vec..push..a891bc11159506cb_1_x86
	testb	%al, %al
	setne	%al
	popq	%rbx
	popq	%r14
	popq	%rbp
	retq
22:
	movl	$1, %esi
	movq	%rdi, %rbx
	callq	std_alloc..vec..Vec..grow_amortized..01eec35b572d02af_1_x86
	movl	%eax, %ecx
	movb	$1, %al
	testb	%cl, %cl
	je	12b
	movq	%rbx, %rdi
	movq	8(%rbx), %rax
	jmp	5b
23:
	movl	$1, %esi
	movq	%rdi, %rbx
	callq	std_alloc..vec..Vec..grow_amortized..01eec35b572d02af_1_x86
	movl	%eax, %ecx
	movb	$1, %al
	testb	%cl, %cl
	je	12b
	movq	%rbx, %rdi
	movq	8(%rbx), %rax
	jmp	7b
24:
	movl	$1, %esi
	movq	%rdi, %rbx
	callq	std_alloc..vec..Vec..grow_amortized..01eec35b572d02af_1_x86
	movl	%eax, %ecx
	movb	$1, %al
	testb	%cl, %cl
	je	12b
	movq	%rbx, %rdi
	movq	8(%rbx), %rax
	jmp	9b
25:
	movl	%esi, %ebx
	movl	$1, %esi
	movq	%rdi, %r14
	callq	std_alloc..vec..Vec..grow_amortized..01eec35b572d02af_1_x86
	movl	%eax, %ecx
	movb	$1, %al
	testb	%cl, %cl
	je	12b
	movq	%r14, %rdi
	movq	8(%r14), %rax
	movl	%ebx, %esi
	jmp	11b
26:
	movl	$1, %esi
	movq	%rdi, %rbx
	callq	std_alloc..vec..Vec..grow_amortized..01eec35b572d02af_1_x86
	movl	%eax, %ecx
	movb	$1, %al
	testb	%cl, %cl
	je	12b
	movq	%rbx, %rdi
	movq	8(%rbx), %rax
	jmp	3b
27:
	movl	$1, %esi
	movq	%rdi, %rbx
	callq	std_alloc..vec..Vec..grow_amortized..01eec35b572d02af_1_x86
	movl	%eax, %ecx
	movb	$1, %al
	testb	%cl, %cl
	je	12b
	movq	%rbx, %rdi
	movq	8(%rbx), %rax
	jmp	14b
28:
	movl	$1, %esi
	movq	%rdi, %rbx
	callq	std_alloc..vec..Vec..grow_amortized..01eec35b572d02af_1_x86
	movl	%eax, %ecx
	movb	$1, %al
	testb	%cl, %cl
	je	12b
	movq	%rbx, %rdi
	movq	8(%rbx), %rax
	jmp	16b
29:
	movl	$1, %esi
	movq	%rdi, %rbx
	callq	std_alloc..vec..Vec..grow_amortized..01eec35b572d02af_1_x86
	movl	%eax, %ecx
	movb	$1, %al
	testb	%cl, %cl
	je	12b
	movq	%rbx, %rdi
	movq	8(%rbx), %rax
	jmp	18b
	vj_end	b2sum_commands..quoting..push_escape_1_x86

	vj_data	b2sum_commands..quoting..push_escape_1_x86
	.p2align	2, 0x0
.L1_x86_JTI15_0:
	.long	2b-.L1_x86_JTI15_0
	.long	13b-.L1_x86_JTI15_0
	.long	6b-.L1_x86_JTI15_0
	.long	8b-.L1_x86_JTI15_0
	.long	4b-.L1_x86_JTI15_0
	.long	15b-.L1_x86_JTI15_0
	.long	17b-.L1_x86_JTI15_0

	vj_function	std_alloc..vec..Vec..push..a891bc11159506cb_1_x86
	pushq	%r14
	pushq	%rbx
	pushq	%rax
	movq	8(%rdi), %rax
	cmpq	%rax, 16(%rdi)
	je	3f
1:
	movq	(%rdi), %rcx
	movb	%sil, (%rcx,%rax)
	incq	%rax
	movq	%rax, 8(%rdi)
	xorl	%eax, %eax
2:
	addq	$8, %rsp
	popq	%rbx
	popq	%r14
	retq
3:
	movl	%esi, %ebx
	movl	$1, %esi
	movq	%rdi, %r14
	callq	std_alloc..vec..Vec..grow_amortized..01eec35b572d02af_1_x86
	movl	%eax, %ecx
	movb	$1, %al
	testb	%cl, %cl
	je	2b
	movq	%r14, %rdi
	movq	8(%r14), %rax
	movl	%ebx, %esi
	jmp	1b
	vj_end	std_alloc..vec..Vec..push..a891bc11159506cb_1_x86

	vj_cold	std_alloc..vec..Vec..grow_amortized..bb23d2d2a8e2d2e5_1_x86
	movq	8(%rdi), %rax
	addq	%rax, %rsi
	jae	1f
	xorl	%eax, %eax
	retq
1:
	pushq	%r14
	pushq	%rbx
	pushq	%rax
	movq	16(%rdi), %rcx
	cmpq	$5, %rsi
	movl	$4, %ebx
	cmovaeq	%rsi, %rbx
	movq	%rcx, %rsi
	shrq	$62, %rsi
	leaq	(%rcx,%rcx), %rdx
	cmpq	%rdx, %rbx
	cmovaq	%rbx, %rdx
	testq	%rsi, %rsi
	cmoveq	%rdx, %rbx
	movabsq	$384307168202282325, %rsi
	cmpq	%rsi, %rbx
	ja	4f
	testq	%rcx, %rcx
	je	3f
	movq	%rdi, %r14
	movq	(%rdi), %rdi
	shlq	$3, %rax
	leaq	(%rax,%rax,2), %rsi
	leaq	(,%rbx,8), %rax
	leaq	(%rax,%rax,2), %rdx
	movl	$8, %ecx
	vj_call	rattle_realloc
	testb	$1, %al
	je	4f
2:
	movq	%rdx, (%r14)
	movq	%rbx, 16(%r14)
	movb	$1, %al
	addq	$8, %rsp
	popq	%rbx
	popq	%r14
	retq
3:
	movq	%rdi, %r14
	shlq	$3, %rdx
	leaq	(%rdx,%rdx,2), %rdi
	movl	$8, %esi
	vj_call	rattle_alloc
	testb	$1, %al
	jne	2b
4:
	xorl	%eax, %eax
	addq	$8, %rsp
	popq	%rbx
	popq	%r14
	retq
	vj_end	std_alloc..vec..Vec..grow_amortized..bb23d2d2a8e2d2e5_1_x86

	vj_function	std_alloc..vec..Vec..drop..3374fb78d704bdda_1_x86
	pushq	%r15
	pushq	%r14
	pushq	%r12
	pushq	%rbx
	pushq	%rax
	movq	(%rdi), %rbx
	movq	8(%rdi), %r15
	movq	16(%rdi), %r14
	testq	%r15, %r15
	je	3f
	leaq	16(%rbx), %r12
	jmp	2f
	.p2align	4
1:
	addq	$24, %r12
	decq	%r15
	je	3f
2:
	cmpq	$0, (%r12)
	je	1b
	movq	-16(%r12), %rdi
	vj_call	rattle_dealloc
	jmp	1b
3:
	testq	%r14, %r14
	je	4f
	movq	%rbx, %rdi
	addq	$8, %rsp
	popq	%rbx
	popq	%r12
	popq	%r14
	popq	%r15
	vj_jump	rattle_dealloc
4:
	addq	$8, %rsp
	popq	%rbx
	popq	%r12
	popq	%r14
	popq	%r15
	retq
	vj_end	std_alloc..vec..Vec..drop..3374fb78d704bdda_1_x86

	vj_function	b2sum_lines..entry..Algorithm..tag_1_x86
	pushq	%rbp
	pushq	%r15
	pushq	%r14
	pushq	%r13
	pushq	%r12
	pushq	%rbx
	subq	$56, %rsp
	movq	%rdi, %rbx
	leaq	31(%rsp), %rax
	movq	%rax, (%rsp)
	xorps	%xmm0, %xmm0
	movups	%xmm0, 8(%rsp)
	movzbl	%sil, %eax
	leaq	.L1_x86_JTI19_0(%rip), %rcx
	movslq	(%rcx,%rax,4), %rax
	addq	%rcx, %rax
	notrack	jmpq	*%rax
1:
	movq	%rsp, %rdi
	movl	$7, %esi
	callq	std_alloc..vec..Vec..grow_amortized..01eec35b572d02af_1_x86
	movq	16(%rsp), %rcx
	testb	%al, %al
	je	7f
	movq	(%rsp), %rax
	movq	8(%rsp), %rdx
	leaq	(%rax,%rdx), %rsi
	addq	$7, %rdx
	leaq	.L1_x86_static.68(%rip), %rdi
	movq	%rsi, %r8
	subq	%rdi, %r8
	cmpq	$6, %r8
	ja	17f
	movl	$1262570562, (%rsi)
	movw	$12869, 4(%rsi)
	movb	$98, 6(%rsi)
	jmp	20f
2:
	movl	%edx, %ebp
	movq	%rsp, %rdi
	movl	$13, %esi
	callq	std_alloc..vec..Vec..grow_amortized..01eec35b572d02af_1_x86
	movq	16(%rsp), %r14
	testb	%al, %al
	je	10f
	movq	(%rsp), %rdi
	movq	8(%rsp), %r15
	leaq	(%rdi,%r15), %rax
	addq	$13, %r15
	leaq	.L1_x86_static.72(%rip), %rcx
	movq	%rax, %rdx
	subq	%rcx, %rdx
	cmpq	$12, %rdx
	ja	11f
	movabsq	$3270231552621104194, %rcx
	movq	%rcx, (%rax)
	movl	$1701147252, 8(%rax)
	movb	$45, 12(%rax)
	jmp	12f
3:
	movq	%rsp, %rdi
	movl	$8, %esi
	callq	std_alloc..vec..Vec..grow_amortized..01eec35b572d02af_1_x86
	movq	16(%rsp), %rcx
	testb	%al, %al
	je	7f
	movq	(%rsp), %rax
	movq	8(%rsp), %rdx
	movabsq	$8098090353162275906, %rsi
	jmp	5f
4:
	movq	%rsp, %rdi
	movl	$8, %esi
	callq	std_alloc..vec..Vec..grow_amortized..01eec35b572d02af_1_x86
	movq	16(%rsp), %rcx
	testb	%al, %al
	je	7f
	movq	(%rsp), %rax
	movq	8(%rsp), %rdx
	movabsq	$8102875427766357058, %rsi
5:
	movq	%rsi, (%rax,%rdx)
	addq	$8, %rdx
	jmp	21f
6:
	movq	%rsp, %rdi
	movl	$7, %esi
	callq	std_alloc..vec..Vec..grow_amortized..01eec35b572d02af_1_x86
	movq	16(%rsp), %rcx
	testb	%al, %al
	je	7f
	movq	(%rsp), %rax
	movq	8(%rsp), %rdx
	leaq	(%rax,%rdx), %rsi
	addq	$7, %rdx
	leaq	.L1_x86_static.69(%rip), %rdi
	movq	%rsi, %r8
	subq	%rdi, %r8
	cmpq	$6, %r8
	ja	18f
	movl	$1262570562, (%rsi)
	movw	$12869, 4(%rsi)
	movb	$115, 6(%rsi)
	jmp	20f
7:
	testq	%rcx, %rcx
	je	9f
8:
	movq	(%rsp), %rdi
	vj_call	rattle_dealloc
9:
	movb	$1, (%rbx)
	xorps	%xmm0, %xmm0
	movups	%xmm0, 8(%rbx)
	movq	$0, 24(%rbx)
	jmp	23f
10:
	testq	%r14, %r14
	jne	8b
	jmp	9b
11:
	movabsq	$3271132246604341810, %rcx
	movq	%rcx, 5(%rax)
	movabsq	$3270231552621104194, %rcx
	movq	%rcx, (%rax)
12:
	movq	%r15, 8(%rsp)
	movq	%r14, 16(%rsp)
	movl	%ebp, %eax
	xorps	%xmm0, %xmm0
	movaps	%xmm0, 32(%rsp)
	movl	$0, 48(%rsp)
	movl	$19, %r12d
	cmpl	$10, %ebp
	jb	14f
	.p2align	4
13:
	movl	%eax, %edx
	movl	$3435973837, %ecx
	imulq	%rdx, %rcx
	shrq	$35, %rcx
	leal	(%rcx,%rcx), %edx
	leal	(%rdx,%rdx,4), %edx
	movl	%eax, %esi
	subl	%edx, %esi
	orb	$48, %sil
	movb	%sil, 32(%rsp,%r12)
	decq	%r12
	cmpq	$99, %rax
	movq	%rcx, %rax
	ja	13b
	jmp	15f
14:
	movq	%rax, %rcx
15:
	orb	$48, %cl
	movb	%cl, 32(%rsp,%r12)
	movl	$20, %edx
	subq	%r12, %rdx
	movq	%r14, %rax
	subq	%r15, %rax
	cmpq	%rax, %rdx
	ja	24f
16:
	leaq	(%rsp,%r12), %rsi
	addq	$32, %rsi
	addq	%r15, %rdi
	addq	%rdx, %r15
	vj_c_call	memcpy
	movq	%r15, 8(%rsp)
	movq	%r14, 16(%rsp)
	jmp	22f
17:
	movl	$1647461707, 3(%rsi)
	jmp	19f
18:
	movl	$1932674379, 3(%rsi)
19:
	movl	$1262570562, (%rsi)
20:
	movq	%rax, (%rsp)
21:
	movq	%rdx, 8(%rsp)
	movq	%rcx, 16(%rsp)
22:
	movb	$0, (%rbx)
	movq	(%rsp), %rax
	movq	%rax, 8(%rbx)
	movq	8(%rsp), %rax
	movq	%rax, 16(%rbx)
	movq	16(%rsp), %rax
	movq	%rax, 24(%rbx)
23:
	addq	$56, %rsp
	popq	%rbx
	popq	%r12
	popq	%r13
	popq	%r14
	popq	%r15
	popq	%rbp
	retq
24:
	movq	%rsp, %rdi
	movq	%rdx, %r13
	movq	%rdx, %rsi
	callq	std_alloc..vec..Vec..grow_amortized..01eec35b572d02af_1_x86
	testb	%al, %al
	je	25f
	movq	(%rsp), %rdi
	movq	8(%rsp), %r15
	movq	16(%rsp), %r14
	movq	%r13, %rdx
	jmp	16b
25:
	cmpq	$0, 16(%rsp)
	jne	8b
	jmp	9b
	vj_end	b2sum_lines..entry..Algorithm..tag_1_x86

	vj_data	b2sum_lines..entry..Algorithm..tag_1_x86
	.p2align	2, 0x0
.L1_x86_JTI19_0:
	.long	1b-.L1_x86_JTI19_0
	.long	6b-.L1_x86_JTI19_0
	.long	3b-.L1_x86_JTI19_0
	.long	4b-.L1_x86_JTI19_0
	.long	2b-.L1_x86_JTI19_0

	vj_function	std_alloc..vec..Vec..extend_from_slice..0473daec321ef212_1_x86
	pushq	%r15
	pushq	%r14
	pushq	%r12
	pushq	%rbx
	pushq	%rax
	movq	%rdi, %rbx
	movq	8(%rdi), %rax
	movq	16(%rdi), %r14
	movq	%r14, %rcx
	subq	%rax, %rcx
	cmpq	%rcx, %rdx
	ja	15f
1:
	leaq	8(%rbx), %rcx
	leaq	(%rax,%rdx), %r15
	movq	(%rbx), %r12
	xorps	%xmm0, %xmm0
	movups	%xmm0, (%rcx)
	leaq	(%r12,%rax), %rdi
	movq	%rdi, %rcx
	subq	%rsi, %rcx
	cmpq	%rdx, %rcx
	jae	7f
	cmpq	$4, %rdx
	jb	2f
	cmpq	$32, %rcx
	jae	10f
2:
	xorl	%ecx, %ecx
3:
	movq	%rdx, %r9
	movq	%rcx, %r8
	andq	$3, %r9
	je	5f
	movq	%rcx, %r8
	.p2align	4
4:
	movzbl	(%rsi,%r8), %r10d
	movb	%r10b, (%rdi,%r8)
	incq	%r8
	decq	%r9
	jne	4b
5:
	subq	%rdx, %rcx
	cmpq	$-4, %rcx
	ja	8f
	addq	%r12, %rax
	addq	$3, %rax
	.p2align	4
6:
	movzbl	(%rsi,%r8), %ecx
	movb	%cl, -3(%rax,%r8)
	movzbl	1(%rsi,%r8), %ecx
	movb	%cl, -2(%rax,%r8)
	movzbl	2(%rsi,%r8), %ecx
	movb	%cl, -1(%rax,%r8)
	movzbl	3(%rsi,%r8), %ecx
	movb	%cl, (%rax,%r8)
	addq	$4, %r8
	cmpq	%r8, %rdx
	jne	6b
	jmp	8f
7:
	vj_c_call	memmove
8:
	movq	%r12, (%rbx)
	movq	%r15, 8(%rbx)
	movq	%r14, 16(%rbx)
	xorl	%eax, %eax
9:
	addq	$8, %rsp
	popq	%rbx
	popq	%r12
	popq	%r14
	popq	%r15
	retq
10:
	cmpq	$32, %rdx
	jae	11f
	xorl	%ecx, %ecx
	jmp	13f
11:
	movq	%rdx, %rcx
	andq	$-32, %rcx
	leaq	(%rax,%r12), %r8
	addq	$16, %r8
	xorl	%r9d, %r9d
	.p2align	4
12:
	movups	(%rsi,%r9), %xmm0
	movups	16(%rsi,%r9), %xmm1
	movups	%xmm0, -16(%r8,%r9)
	movups	%xmm1, (%r8,%r9)
	addq	$32, %r9
	cmpq	%r9, %rcx
	jne	12b
	cmpq	%rcx, %rdx
	je	8b
	testb	$28, %dl
	je	3b
13:
	movq	%rcx, %r8
	movq	%rdx, %rcx
	andq	$-4, %rcx
	.p2align	4
14:
	movl	(%rsi,%r8), %r9d
	movl	%r9d, (%rdi,%r8)
	addq	$4, %r8
	cmpq	%r8, %rcx
	jne	14b
	cmpq	%rcx, %rdx
	je	8b
	jmp	3b
15:
	movq	%rsi, %r15
	movq	%rbx, %rdi
	movq	%rdx, %r12
	movq	%rdx, %rsi
	callq	std_alloc..vec..Vec..grow_amortized..01eec35b572d02af_1_x86
	movl	%eax, %ecx
	movb	$1, %al
	testb	%cl, %cl
	je	9b
	movq	8(%rbx), %rax
	movq	16(%rbx), %r14
	movq	%r12, %rdx
	movq	%r15, %rsi
	jmp	1b
	vj_end	std_alloc..vec..Vec..extend_from_slice..0473daec321ef212_1_x86

	vj_cold	std_alloc..vec..Vec..grow_amortized..01eec35b572d02af_1_x86
	movq	%rsi, %rax
	movq	8(%rdi), %rsi
	addq	%rsi, %rax
	jae	1f
	xorl	%eax, %eax
	retq
1:
	pushq	%r14
	pushq	%rbx
	pushq	%rax
	cmpq	$9, %rax
	movl	$8, %ebx
	cmovaeq	%rax, %rbx
	movq	16(%rdi), %rcx
	movq	%rcx, %rdx
	shrq	$62, %rdx
	leaq	(%rcx,%rcx), %rax
	cmpq	%rax, %rbx
	cmovaq	%rbx, %rax
	testq	%rdx, %rdx
	cmoveq	%rax, %rbx
	testq	%rbx, %rbx
	js	4f
	testq	%rcx, %rcx
	je	3f
	movq	%rdi, %r14
	movq	(%rdi), %rdi
	movl	$1, %ecx
	movq	%rbx, %rdx
	vj_call	rattle_realloc
	testb	$1, %al
	je	4f
2:
	movq	%rdx, (%r14)
	movq	%rbx, 16(%r14)
	movb	$1, %al
	addq	$8, %rsp
	popq	%rbx
	popq	%r14
	retq
3:
	movq	%rdi, %r14
	movl	$1, %esi
	movq	%rax, %rdi
	vj_call	rattle_alloc
	testb	$1, %al
	jne	2b
4:
	xorl	%eax, %eax
	addq	$8, %rsp
	popq	%rbx
	popq	%r14
	retq
	vj_end	std_alloc..vec..Vec..grow_amortized..01eec35b572d02af_1_x86

	vj_export	b2sum..disk..show_progress..proved_1_x86
	retq
	vj_end	b2sum..disk..show_progress..proved_1_x86

	vj_export	b2sum..disk..hide_memory..proved_1_x86
	retq
	vj_end	b2sum..disk..hide_memory..proved_1_x86

	vj_function	b2sum..disk..SystemDisk..open..997c1e2eeb9618f7_1_x86
	pushq	%rbp
	pushq	%r15
	pushq	%r14
	pushq	%r13
	pushq	%r12
	pushq	%rbx
	subq	$344, %rsp
	movq	%rdx, %r14
	movq	%rsi, %rbp
	movq	%rdi, %rbx
	xorps	%xmm0, %xmm0
	movaps	%xmm0, 144(%rsp)
	movaps	%xmm0, 128(%rsp)
	leaq	128(%rsp), %rdi
	callq	b2sum..disk..text_of_1_x86
	cmpb	$0, 128(%rsp)
	je	3f
1:
	movq	$1, (%rbx)
	movw	$9729, 8(%rbx)
	xorps	%xmm0, %xmm0
	movups	%xmm0, 10(%rbx)
	movups	%xmm0, 26(%rbx)
	movups	%xmm0, 42(%rbx)
	movups	%xmm0, 58(%rbx)
	movups	%xmm0, 74(%rbx)
	movups	%xmm0, 90(%rbx)
	movups	%xmm0, 106(%rbx)
2:
	movups	%xmm0, 120(%rbx)
	addq	$344, %rsp
	popq	%rbx
	popq	%r12
	popq	%r13
	popq	%r14
	popq	%r15
	popq	%rbp
	retq
3:
	movq	136(%rsp), %r15
	movq	144(%rsp), %r13
	movq	152(%rsp), %rcx
	testq	%r14, %r14
	je	6f
	js	5f
	movl	$1, %esi
	movq	%r14, %rdi
	movq	%rcx, 16(%rsp)
	vj_call	rattle_alloc
	movq	16(%rsp), %rcx
	testb	$1, %al
	je	5f
	movq	%rdx, %r12
	movq	%r12, %rcx
	subq	%rbp, %rcx
	cmpq	%r14, %rcx
	jb	7f
4:
	movq	%r12, %rdi
	movq	%rbp, %rsi
	movq	%r14, %rdx
	vj_c_call	memmove
	jmp	16f
5:
	testq	%rcx, %rcx
	je	1b
	movq	%r15, %rdi
	vj_call	rattle_dealloc
	jmp	1b
6:
	movq	%rcx, 16(%rsp)
	leaq	15(%rsp), %r12
	movq	%r12, %rcx
	subq	%rbp, %rcx
	cmpq	%r14, %rcx
	jae	4b
7:
	xorl	%eax, %eax
	cmpq	$4, %r14
	jb	12f
	cmpq	$32, %rcx
	jb	12f
	cmpq	$32, %r14
	jae	8f
	xorl	%eax, %eax
	jmp	10f
8:
	movq	%r14, %rax
	andq	$-32, %rax
	xorl	%ecx, %ecx
	.p2align	4
9:
	movups	(%rbp,%rcx), %xmm0
	movups	16(%rbp,%rcx), %xmm1
	movups	%xmm0, (%r12,%rcx)
	movups	%xmm1, 16(%r12,%rcx)
	addq	$32, %rcx
	cmpq	%rcx, %rax
	jne	9b
	cmpq	%rax, %r14
	je	16f
	testb	$28, %r14b
	je	12f
10:
	movq	%rax, %rcx
	movq	%r14, %rax
	andq	$-4, %rax
	.p2align	4
11:
	movl	(%rbp,%rcx), %edx
	movl	%edx, (%r12,%rcx)
	addq	$4, %rcx
	cmpq	%rcx, %rax
	jne	11b
	cmpq	%rax, %r14
	je	16f
12:
	movq	%r14, %rdx
	movq	%rax, %rcx
	andq	$3, %rdx
	je	14f
	movq	%rax, %rcx
	.p2align	4
13:
	movzbl	(%rbp,%rcx), %esi
	movb	%sil, (%r12,%rcx)
	incq	%rcx
	decq	%rdx
	jne	13b
14:
	subq	%r14, %rax
	cmpq	$-4, %rax
	ja	16f
	.p2align	4
15:
	movzbl	(%rbp,%rcx), %eax
	movb	%al, (%r12,%rcx)
	movzbl	1(%rbp,%rcx), %eax
	movb	%al, 1(%r12,%rcx)
	movzbl	2(%rbp,%rcx), %eax
	movb	%al, 2(%r12,%rcx)
	movzbl	3(%rbp,%rcx), %eax
	movb	%al, 3(%r12,%rcx)
	addq	$4, %rcx
	cmpq	%rcx, %r14
	jne	15b
16:
	xorps	%xmm0, %xmm0
	movaps	%xmm0, 112(%rsp)
	movaps	%xmm0, 96(%rsp)
	movaps	%xmm0, 80(%rsp)
	movaps	%xmm0, 64(%rsp)
	movaps	%xmm0, 48(%rsp)
	movaps	%xmm0, 32(%rsp)
	leaq	32(%rsp), %rdi
	movq	%r15, 24(%rsp)
	movq	%r15, %rsi
	movq	%r13, %rdx
	callq	std..fs..File..open..40609fae31b31c25_1_x86
	movl	36(%rsp), %ebp
	movzbl	40(%rsp), %ecx
	movzbl	41(%rsp), %r13d
	movzwl	42(%rsp), %r15d
	movl	44(%rsp), %edx
	movq	48(%rsp), %rsi
	movups	56(%rsp), %xmm1
	movups	72(%rsp), %xmm0
	movaps	%xmm0, 256(%rsp)
	movups	88(%rsp), %xmm0
	movaps	%xmm0, 272(%rsp)
	movups	104(%rsp), %xmm0
	movaps	%xmm0, 288(%rsp)
	movq	120(%rsp), %rax
	movq	%rax, 304(%rsp)
	cmpb	$0, 32(%rsp)
	je	19f
	movaps	%xmm1, 320(%rsp)
	movq	304(%rsp), %rax
	movq	%rax, 80(%rsp)
	xorps	%xmm0, %xmm0
	movups	%xmm0, 88(%rsp)
	movups	%xmm0, 104(%rsp)
	movq	$0, 120(%rsp)
	movq	80(%rsp), %rax
	movq	%rax, 208(%rsp)
	movq	88(%rsp), %rax
	movq	%rax, 216(%rsp)
	movq	112(%rsp), %rax
	movq	%rax, 240(%rsp)
	movq	120(%rsp), %rax
	movq	%rax, 248(%rsp)
	movaps	256(%rsp), %xmm0
	movaps	272(%rsp), %xmm1
	movaps	288(%rsp), %xmm2
	movaps	%xmm0, 160(%rsp)
	movaps	%xmm1, 176(%rsp)
	movaps	%xmm2, 192(%rsp)
	movaps	96(%rsp), %xmm0
	movaps	%xmm0, 224(%rsp)
	testq	%r14, %r14
	je	17f
	movq	%r12, %rdi
	movl	%ecx, %ebp
	movl	%edx, %r14d
	movq	%rsi, %r12
	vj_call	rattle_dealloc
	movq	%r12, %rsi
	movl	%r14d, %edx
	movl	%ebp, %ecx
17:
	cmpq	$0, 16(%rsp)
	je	18f
	movq	24(%rsp), %rdi
	movl	%ecx, %ebp
	movl	%edx, %r14d
	movq	%rsi, %r12
	vj_call	rattle_dealloc
	movq	%r12, %rsi
	movl	%r14d, %edx
	movl	%ebp, %ecx
18:
	movq	$1, (%rbx)
	movb	%cl, 8(%rbx)
	movb	%r13b, 9(%rbx)
	movw	%r15w, 10(%rbx)
	movl	%edx, 12(%rbx)
	movq	%rsi, 16(%rbx)
	movaps	320(%rsp), %xmm0
	movups	%xmm0, 24(%rbx)
	movaps	160(%rsp), %xmm0
	movaps	176(%rsp), %xmm1
	movaps	192(%rsp), %xmm2
	movaps	208(%rsp), %xmm3
	movups	%xmm0, 40(%rbx)
	movups	%xmm1, 56(%rbx)
	movups	%xmm2, 72(%rbx)
	movups	%xmm3, 88(%rbx)
	movaps	224(%rsp), %xmm0
	movups	%xmm0, 104(%rbx)
	movaps	240(%rsp), %xmm0
	jmp	2b
19:
	cmpq	$0, 16(%rsp)
	je	20f
	movq	24(%rsp), %rdi
	vj_call	rattle_dealloc
20:
	movl	$0, 8(%rbx)
	movq	$0, (%rbx)
	movl	%ebp, 12(%rbx)
	movq	%r12, 16(%rbx)
	movq	%r14, 24(%rbx)
	movq	%r14, 32(%rbx)
	xorps	%xmm0, %xmm0
	movups	%xmm0, 40(%rbx)
	movups	%xmm0, 56(%rbx)
	movups	%xmm0, 72(%rbx)
	movups	%xmm0, 88(%rbx)
	movups	%xmm0, 104(%rbx)
	jmp	2b
	vj_end	b2sum..disk..SystemDisk..open..997c1e2eeb9618f7_1_x86

	vj_function	b2sum..disk..text_of_1_x86
	pushq	%rbp
	pushq	%r15
	pushq	%r14
	pushq	%r12
	pushq	%rbx
	subq	$128, %rsp
	movq	%rdx, %r14
	movq	%rsi, %r15
	movq	%rdi, %rbx
	xorps	%xmm0, %xmm0
	movups	%xmm0, 47(%rsp)
	movaps	%xmm0, 32(%rsp)
	movaps	%xmm0, 96(%rsp)
	movq	$0, 112(%rsp)
	leaq	.L1_x86_static.113(%rip), %rdx
	movq	%rsi, %rdi
	movq	%r14, %rsi
	callq	core..slice..reads..slice.T..contains..i8.31.core..cmp..numbers..U8PartialEq_1_x86
	testb	%al, %al
	je	5f
	leaq	7(%rsp), %rax
	movq	%rax, 8(%rsp)
	xorps	%xmm0, %xmm0
	movups	%xmm0, 16(%rsp)
	testq	%r14, %r14
	je	10f
	xorl	%r12d, %r12d
	jmp	2f
	.p2align	4
1:
	leaq	8(%rsp), %rdi
	callq	std_alloc..string..add_wide..d0dbed8b188a1729_1_x86
	testb	%al, %al
	jne	18f
	incq	%r12
	cmpq	%r12, %r14
	je	10f
2:
	movzbl	(%r15,%r12), %eax
	leal	1113856(%rax), %esi
	testb	%al, %al
	cmovnsl	%eax, %esi
	cmpl	$127, %esi
	ja	1b
	movq	16(%rsp), %rax
	cmpq	%rax, 24(%rsp)
	je	4f
3:
	movq	8(%rsp), %rcx
	movb	%sil, (%rcx,%rax)
	incq	%rax
	movq	%rax, 16(%rsp)
	incq	%r12
	cmpq	%r12, %r14
	jne	2b
	jmp	10f
4:
	movl	%esi, %ebp
	leaq	8(%rsp), %rdi
	movl	$1, %esi
	callq	std_alloc..vec..Vec..grow_amortized..01eec35b572d02af_1_x86
	testb	%al, %al
	je	18f
	movq	16(%rsp), %rax
	movl	%ebp, %esi
	jmp	3b
5:
	leaq	96(%rsp), %rdi
	movq	%r15, %rsi
	movq	%r14, %rdx
	callq	core..str..utf8..from_utf8_1_x86
	cmpb	$0, 96(%rsp)
	je	11f
	leaq	7(%rsp), %rax
	movq	%rax, 8(%rsp)
	xorps	%xmm0, %xmm0
	movups	%xmm0, 16(%rsp)
	testq	%r14, %r14
	je	10f
	xorl	%r12d, %r12d
	jmp	7f
	.p2align	4
6:
	leaq	8(%rsp), %rdi
	callq	std_alloc..string..add_wide..d0dbed8b188a1729_1_x86
	testb	%al, %al
	jne	18f
	incq	%r12
	cmpq	%r12, %r14
	je	10f
7:
	movzbl	(%r15,%r12), %eax
	leal	1113856(%rax), %esi
	testb	%al, %al
	cmovnsl	%eax, %esi
	cmpl	$127, %esi
	ja	6b
	movq	16(%rsp), %rax
	cmpq	%rax, 24(%rsp)
	je	9f
8:
	movq	8(%rsp), %rcx
	movb	%sil, (%rcx,%rax)
	incq	%rax
	movq	%rax, 16(%rsp)
	incq	%r12
	cmpq	%r12, %r14
	jne	7b
	jmp	10f
9:
	movl	%esi, %ebp
	leaq	8(%rsp), %rdi
	movl	$1, %esi
	callq	std_alloc..vec..Vec..grow_amortized..01eec35b572d02af_1_x86
	testb	%al, %al
	je	18f
	movq	16(%rsp), %rax
	movl	%ebp, %esi
	jmp	8b
10:
	movq	24(%rsp), %rax
	movq	%rax, 55(%rsp)
	movq	8(%rsp), %rax
	movq	%rax, 39(%rsp)
	movq	16(%rsp), %rax
	movq	%rax, 47(%rsp)
	xorl	%eax, %eax
	jmp	20f
11:
	movq	104(%rsp), %rsi
	movq	112(%rsp), %rdx
	leaq	7(%rsp), %rax
	movq	%rax, 72(%rsp)
	xorps	%xmm0, %xmm0
	movups	%xmm0, 80(%rsp)
	testq	%rdx, %rdx
	jne	30f
	xorl	%r14d, %r14d
	xorl	%ecx, %ecx
12:
	leaq	(%rcx,%rdx), %r15
	leaq	(%rax,%rcx), %rdi
	movq	%rdi, %r8
	subq	%rsi, %r8
	cmpq	%rdx, %r8
	jae	23f
	cmpq	$4, %rdx
	jb	13f
	cmpq	$32, %r8
	jae	25f
13:
	xorl	%r8d, %r8d
14:
	movq	%rdx, %r10
	movq	%r8, %r9
	andq	$3, %r10
	je	16f
	movq	%r8, %r9
	.p2align	4
15:
	movzbl	(%rsi,%r9), %r11d
	movb	%r11b, (%rdi,%r9)
	incq	%r9
	decq	%r10
	jne	15b
16:
	subq	%rdx, %r8
	cmpq	$-4, %r8
	ja	24f
	addq	%rcx, %rax
	addq	$3, %rax
	.p2align	4
17:
	movzbl	(%rsi,%r9), %ecx
	movb	%cl, -3(%rax,%r9)
	movzbl	1(%rsi,%r9), %ecx
	movb	%cl, -2(%rax,%r9)
	movzbl	2(%rsi,%r9), %ecx
	movb	%cl, -1(%rax,%r9)
	movzbl	3(%rsi,%r9), %ecx
	movb	%cl, (%rax,%r9)
	addq	$4, %r9
	cmpq	%r9, %rdx
	jne	17b
	jmp	24f
18:
	cmpq	$0, 24(%rsp)
	je	19f
	movq	8(%rsp), %rdi
	vj_call	rattle_dealloc
19:
	xorps	%xmm0, %xmm0
	movups	%xmm0, 39(%rsp)
	movq	$0, 55(%rsp)
	movb	$1, %al
20:
	movb	%al, (%rbx)
	movq	39(%rsp), %rax
	movq	%rax, 8(%rbx)
	movq	47(%rsp), %rax
	movq	%rax, 16(%rbx)
	movq	55(%rsp), %rax
21:
	movq	%rax, 24(%rbx)
22:
	addq	$128, %rsp
	popq	%rbx
	popq	%r12
	popq	%r14
	popq	%r15
	popq	%rbp
	retq
23:
	vj_c_call	memmove
24:
	movq	%r15, 80(%rsp)
	movq	%r14, 88(%rsp)
	movb	$0, (%rbx)
	movq	72(%rsp), %rax
	movq	%rax, 8(%rbx)
	movq	80(%rsp), %rax
	movq	%rax, 16(%rbx)
	movq	88(%rsp), %rax
	jmp	21b
25:
	cmpq	$32, %rdx
	jae	26f
	xorl	%r8d, %r8d
	jmp	28f
26:
	movq	%rdx, %r8
	andq	$-32, %r8
	leaq	(%rcx,%rax), %r9
	addq	$16, %r9
	xorl	%r10d, %r10d
	.p2align	4
27:
	movups	(%rsi,%r10), %xmm0
	movups	16(%rsi,%r10), %xmm1
	movups	%xmm0, -16(%r9,%r10)
	movups	%xmm1, (%r9,%r10)
	addq	$32, %r10
	cmpq	%r10, %r8
	jne	27b
	cmpq	%r8, %rdx
	je	24b
	testb	$28, %dl
	je	14b
28:
	movq	%r8, %r9
	movq	%rdx, %r8
	andq	$-4, %r8
	.p2align	4
29:
	movl	(%rsi,%r9), %r10d
	movl	%r10d, (%rdi,%r9)
	addq	$4, %r9
	cmpq	%r9, %r8
	jne	29b
	cmpq	%r8, %rdx
	je	24b
	jmp	14b
30:
	movq	%rsi, %r15
	leaq	72(%rsp), %rdi
	movq	%rdx, %r12
	movq	%rdx, %rsi
	callq	std_alloc..vec..Vec..grow_amortized..01eec35b572d02af_1_x86
	testb	%al, %al
	je	31f
	movq	72(%rsp), %rax
	movq	80(%rsp), %rcx
	movq	88(%rsp), %r14
	movq	%r15, %rsi
	movq	%r12, %rdx
	jmp	12b
31:
	cmpq	$0, 88(%rsp)
	je	32f
	movq	72(%rsp), %rdi
	vj_call	rattle_dealloc
32:
	movb	$1, (%rbx)
	xorps	%xmm0, %xmm0
	movups	%xmm0, 8(%rbx)
	movq	$0, 24(%rbx)
	jmp	22b
	vj_end	b2sum..disk..text_of_1_x86

	vj_function	core..slice..reads..slice.T..contains..i8.31.core..cmp..numbers..U8PartialEq_1_x86
	cmpq	$3, %rsi
	ja	2f
	testq	%rsi, %rsi
	je	4f
	movzbl	(%rdx), %eax
	cmpb	%al, (%rdi)
	sete	%cl
	movq	%rsi, %rdx
	shrq	%rdx
	cmpb	%al, (%rdi,%rdx)
	sete	%dl
	cmpb	%al, -1(%rdi,%rsi)
	sete	%al
	orb	%cl, %al
	orb	%dl, %al
1:
	retq
2:
	cmpq	$8, %rsi
	ja	3f
	movd	(%rdi), %xmm0
	pinsrd	$1, -4(%rdi,%rsi), %xmm0
	movzbl	(%rdx), %eax
	movd	%eax, %xmm1
	punpcklbw	%xmm1, %xmm1
	pshuflw	$0, %xmm1, %xmm1
	pcmpeqb	%xmm0, %xmm1
	pmovmskb	%xmm1, %eax
	testb	%al, %al
	setne	%al
	retq
3:
	cmpq	$32, %rsi
	ja	5f
	leaq	-8(%rsi), %rax
	cmpq	$8, %rax
	movl	$8, %ecx
	cmovbq	%rax, %rcx
	cmpq	$16, %rax
	movl	$16, %r8d
	cmovbq	%rax, %r8
	movq	(%rdi,%rcx), %xmm0
	movq	(%rdi), %xmm1
	punpcklqdq	%xmm0, %xmm1
	movq	(%rdi,%r8), %xmm0
	movq	-8(%rdi,%rsi), %xmm2
	punpcklqdq	%xmm2, %xmm0
	movzbl	(%rdx), %eax
	movd	%eax, %xmm2
	pxor	%xmm3, %xmm3
	pshufb	%xmm3, %xmm2
	pcmpeqb	%xmm2, %xmm0
	pcmpeqb	%xmm1, %xmm2
	por	%xmm0, %xmm2
	pmovmskb	%xmm2, %eax
	testl	%eax, %eax
	setne	%al
	retq
4:
	xorl	%eax, %eax
	retq
5:
	movzbl	(%rdx), %eax
	cmpq	$65, %rsi
	jae	6f
	movdqu	(%rdi), %xmm0
	movdqu	16(%rdi), %xmm1
	movdqu	-32(%rdi,%rsi), %xmm2
	movdqu	-16(%rdi,%rsi), %xmm3
	movzbl	%al, %eax
	movd	%eax, %xmm4
	pxor	%xmm5, %xmm5
	pshufb	%xmm5, %xmm4
	pcmpeqb	%xmm4, %xmm2
	pcmpeqb	%xmm4, %xmm3
	pcmpeqb	%xmm4, %xmm0
	por	%xmm2, %xmm0
	pcmpeqb	%xmm1, %xmm4
	por	%xmm3, %xmm4
	por	%xmm0, %xmm4
	pmovmskb	%xmm4, %eax
	testl	%eax, %eax
	setne	%al
	retq
6:
	movzbl	%al, %eax
	movd	%eax, %xmm0
	pxor	%xmm1, %xmm1
	pshufb	%xmm1, %xmm0
	xorl	%eax, %eax
	movq	%rsi, %rcx
	.p2align	4
7:
	movdqu	(%rdi,%rax), %xmm1
	movdqu	16(%rdi,%rax), %xmm2
	movdqu	32(%rdi,%rax), %xmm3
	movdqu	48(%rdi,%rax), %xmm4
	pcmpeqb	%xmm0, %xmm2
	pcmpeqb	%xmm0, %xmm4
	por	%xmm2, %xmm4
	pcmpeqb	%xmm0, %xmm1
	pcmpeqb	%xmm0, %xmm3
	por	%xmm1, %xmm3
	por	%xmm4, %xmm3
	pmovmskb	%xmm3, %r8d
	testl	%r8d, %r8d
	jne	8f
	addq	$64, %rax
	addq	$-64, %rcx
	cmpq	$63, %rcx
	ja	7b
8:
	cmpq	$32, %rcx
	jb	11f
	movzbl	(%rdx), %ecx
	movd	%ecx, %xmm0
	pxor	%xmm1, %xmm1
	pshufb	%xmm1, %xmm0
	movq	%rsi, %rcx
	subq	%rax, %rcx
	addq	%rdi, %rax
	.p2align	4
9:
	movdqu	(%rax), %xmm1
	movdqu	16(%rax), %xmm2
	pcmpeqb	%xmm0, %xmm2
	pcmpeqb	%xmm0, %xmm1
	por	%xmm2, %xmm1
	pmovmskb	%xmm1, %r8d
	testl	%r8d, %r8d
	jne	10f
	addq	$-32, %rcx
	addq	$32, %rax
	cmpq	$32, %rcx
	jae	9b
	jmp	11f
10:
	movb	$1, %al
	cmpq	$31, %rcx
	ja	1b
11:
	movdqu	-32(%rdi,%rsi), %xmm0
	movdqu	-16(%rdi,%rsi), %xmm1
	movzbl	(%rdx), %eax
	movd	%eax, %xmm2
	pxor	%xmm3, %xmm3
	pshufb	%xmm3, %xmm2
	pcmpeqb	%xmm2, %xmm1
	pcmpeqb	%xmm0, %xmm2
	por	%xmm1, %xmm2
	pmovmskb	%xmm2, %eax
	testl	%eax, %eax
	setne	%al
	retq
	vj_end	core..slice..reads..slice.T..contains..i8.31.core..cmp..numbers..U8PartialEq_1_x86

	vj_function	core..str..utf8..from_utf8_1_x86
	pushq	%r15
	pushq	%r14
	pushq	%r13
	pushq	%r12
	pushq	%rbx
	subq	$16, %rsp
	movq	%rdx, %r15
	movq	%rsi, %r14
	movq	%rdi, %rbx
	testq	%rdx, %rdx
	je	21f
	movabsq	$-9187201950435737472, %r12
	leaq	-8(%r15), %r13
	xorl	%ecx, %ecx
	jmp	4f
1:
	movl	$1, %edi
2:
	addq	%rcx, %rdi
3:
	movq	%rdi, %rcx
	cmpq	%r15, %rdi
	jae	21f
4:
	movzbl	(%r14,%rcx), %esi
	testb	%sil, %sil
	sets	%dl
	movq	%r15, %rax
	subq	%rcx, %rax
	cmpq	$2, %rax
	setb	%dil
	orb	%dl, %dil
	jne	5f
	cmpb	$0, 1(%r14,%rcx)
	js	1b
	movq	%r14, (%rsp)
	movq	%r15, 8(%rsp)
	cmpq	$7, %rax
	ja	6f
	cmpb	$0, (%r14,%rcx)
	js	8f
	leaq	1(%rcx), %rdi
	cmpq	%r15, %rdi
	je	21f
	cmpb	$0, (%r14,%rdi)
	js	3b
	leaq	2(%rcx), %rdi
	cmpq	%r15, %rdi
	je	21f
	cmpb	$0, (%r14,%rdi)
	js	3b
	leaq	3(%rcx), %rdi
	cmpq	%r15, %rdi
	je	21f
	cmpb	$0, (%r14,%rdi)
	js	3b
	leaq	4(%rcx), %rdi
	cmpq	%r15, %rdi
	je	21f
	cmpb	$0, (%r14,%rdi)
	js	3b
	leaq	5(%rcx), %rdi
	cmpq	%r15, %rdi
	je	21f
	cmpb	$0, (%r14,%rdi)
	js	3b
	addq	$6, %rcx
	cmpq	%r15, %rcx
	je	21f
	cmpb	$0, (%r14,%rcx)
	movq	%rcx, %rdi
	js	3b
	jmp	21f
	.p2align	4
5:
	movl	$1, %edi
	testb	%sil, %sil
	jns	2b
	movl	$257, %edx
	cmpb	$-62, %sil
	jb	20f
	cmpb	$-33, %sil
	ja	7f
	cmpq	$2, %rax
	jb	19f
	movzbl	1(%r14,%rcx), %r8d
	movl	$2, %edi
	cmpb	$-65, %r8b
	jle	2b
	jmp	18f
6:
	movq	(%r14,%rcx), %rax
	andq	%r12, %rax
	je	9f
	rep		bsfq	%rax, %rax
	shrl	$3, %eax
	addq	%rcx, %rax
	addq	$8, %rcx
	movq	%rax, %rdi
	cmpq	%rcx, %rax
	jb	3b
	movq	%r15, %rcx
	subq	%rax, %rcx
	cmpq	$32, %rcx
	jae	10f
	jmp	11f
7:
	cmpb	$-17, %sil
	ja	15f
	cmpq	$3, %rax
	jb	17f
	movzbl	1(%r14,%rcx), %r8d
	cmpb	$-65, %r8b
	jg	18f
	cmpb	$-65, 2(%r14,%rcx)
	jg	18f
	movzbl	%r8b, %edi
	movl	%esi, %r9d
	shll	$6, %r9d
	addl	%edi, %r9d
	addl	$-14464, %r9d
	cmpl	$32, %r9d
	jb	18f
	xorl	%r8d, %r8d
	cmpl	$896, %r9d
	setae	%r10b
	movl	$3, %edi
	cmpl	$864, %r9d
	jb	2b
	movb	%r10b, %r8b
	leaq	(%r8,%r8,2), %rdi
	testq	%rdi, %rdi
	jne	2b
	jmp	16f
8:
	movq	%rcx, %rdi
	jmp	3b
9:
	addq	$8, %rcx
	movq	%rcx, %rax
	movq	%r15, %rcx
	subq	%rax, %rcx
	cmpq	$32, %rcx
	jb	11f
	.p2align	4
10:
	movdqu	(%r14,%rax), %xmm0
	movdqu	16(%r14,%rax), %xmm1
	por	%xmm0, %xmm1
	pshufd	$238, %xmm1, %xmm0
	por	%xmm1, %xmm0
	movq	%xmm0, %rcx
	testq	%r12, %rcx
	jne	11f
	addq	$32, %rax
	movq	%rsp, %rdi
	movq	%rax, %rsi
	movq	%r15, %rdx
	callq	core..slice..words..skip_far..52f9edcae2f82f51_1_x86
	movq	%r15, %rcx
	subq	%rax, %rcx
	cmpq	$31, %rcx
	ja	10b
11:
	movq	%r15, %rcx
	subq	%rax, %rcx
	jmp	13f
	.p2align	4
12:
	rep		bsfq	%rdx, %rdi
	shrl	$3, %edi
	addq	%rax, %rdi
	addq	$8, %rax
	addq	$-8, %rcx
	cmpq	%rax, %rdi
	jb	3b
13:
	cmpq	$9, %rcx
	jb	14f
	movq	(%r14,%rax), %rdx
	andq	%r12, %rdx
	jne	12b
	leaq	8(%rax), %rdi
	addq	$8, %rax
	addq	$-8, %rcx
	cmpq	%rax, %rdi
	jae	13b
	jmp	3b
14:
	movq	(%r14,%r13), %rax
	andq	%r12, %rax
	je	21f
	rep		bsfq	%rax, %rdi
	shrl	$3, %edi
	addq	%r13, %rdi
	jmp	3b
15:
	cmpq	$4, %rax
	jb	16f
	movzbl	1(%r14,%rcx), %edi
	cmpb	$-65, %dil
	jg	16f
	cmpb	$-65, 2(%r14,%rcx)
	jg	16f
	cmpb	$-65, 3(%r14,%rcx)
	jg	16f
	movl	%esi, %r8d
	shll	$6, %r8d
	leal	(%r8,%rdi), %r9d
	addl	$-15488, %r9d
	xorl	%edi, %edi
	cmpl	$272, %r9d
	setb	%r8b
	cmpl	$16, %r9d
	jb	16f
	movb	%r8b, %dil
	shll	$2, %edi
	testq	%rdi, %rdi
	jne	2b
16:
	cmpb	$-12, %sil
	ja	20f
17:
	cmpq	$2, %rax
	jb	19f
	movzbl	1(%r14,%rcx), %r8d
18:
	cmpl	$240, %esi
	sete	%dil
	shlb	$4, %dil
	orb	$-128, %dil
	cmpl	$224, %esi
	movzbl	%dil, %edi
	movl	$160, %r9d
	cmovnel	%edi, %r9d
	cmpl	$244, %esi
	movl	$143, %edi
	movl	$191, %r10d
	cmovel	%edi, %r10d
	cmpl	$237, %esi
	movl	$159, %esi
	cmovnel	%r10d, %esi
	cmpb	%r8b, %r9b
	ja	20f
	cmpb	%sil, %r8b
	ja	20f
	cmpq	$2, %rax
	jne	23f
19:
	xorl	%edx, %edx
20:
	movq	$1, (%rbx)
	movq	%rcx, 8(%rbx)
	movq	%rdx, 16(%rbx)
	jmp	22f
21:
	movq	$0, (%rbx)
	movq	%r14, 8(%rbx)
	movq	%r15, 16(%rbx)
22:
	addq	$16, %rsp
	popq	%rbx
	popq	%r12
	popq	%r13
	popq	%r14
	popq	%r15
	retq
23:
	movl	$513, %edx
	cmpb	$-65, 2(%r14,%rcx)
	jg	20b
	xorl	%esi, %esi
	cmpq	$4, %rax
	movl	$769, %edx
	cmovbq	%rsi, %rdx
	jmp	20b
	vj_end	core..str..utf8..from_utf8_1_x86

	vj_constants	16
	.p2align	4, 0x0
.L1_x86_CPI28_0:
	.zero	16,128
	vj_function	core..slice..words..skip_far..52f9edcae2f82f51_1_x86
	movq	%rsi, %rax
	subq	%rsi, %rdx
	cmpq	$64, %rdx
	jb	2f
	movq	(%rdi), %rcx
	.p2align	4
1:
	movdqu	(%rcx,%rax), %xmm0
	movdqu	16(%rcx,%rax), %xmm1
	movdqu	32(%rcx,%rax), %xmm2
	por	%xmm0, %xmm2
	movdqu	48(%rcx,%rax), %xmm0
	por	%xmm1, %xmm0
	por	%xmm2, %xmm0
	ptest	.L1_x86_CPI28_0(%rip), %xmm0
	jne	2f
	addq	$64, %rax
	addq	$-64, %rdx
	cmpq	$63, %rdx
	ja	1b
2:
	retq
	vj_end	core..slice..words..skip_far..52f9edcae2f82f51_1_x86

	vj_constants	16
	.p2align	4, 0x0
.L1_x86_CPI29_0:
	.byte	255
	.byte	63
	.byte	63
	.byte	63
	.zero	1
	.zero	1
	.zero	1
	.zero	1
	.zero	1
	.zero	1
	.zero	1
	.zero	1
	.zero	1
	.zero	1
	.zero	1
	.zero	1
.L1_x86_CPI29_1:
	.byte	240
	.byte	128
	.byte	128
	.byte	128
	.zero	1
	.zero	1
	.zero	1
	.zero	1
	.zero	1
	.zero	1
	.zero	1
	.zero	1
	.zero	1
	.zero	1
	.zero	1
	.zero	1
	vj_function	std_alloc..string..add_wide..d0dbed8b188a1729_1_x86
	pushq	%r14
	pushq	%rbx
	pushq	%rax
	cmpl	$2047, %esi
	ja	2f
	movq	8(%rdi), %rax
	movq	16(%rdi), %rcx
	movq	%rcx, %rdx
	subq	%rax, %rdx
	cmpq	$1, %rdx
	jbe	9f
1:
	movq	(%rdi), %rdx
	movl	%esi, %r8d
	shrl	$6, %r8d
	andl	$63, %esi
	shll	$8, %esi
	orl	%esi, %r8d
	orl	$32960, %r8d
	movw	%r8w, (%rdx,%rax)
	addq	$2, %rax
	jmp	6f
2:
	cmpl	$65535, %esi
	ja	4f
	movq	8(%rdi), %rcx
	movq	16(%rdi), %rax
	movq	%rax, %rdx
	subq	%rcx, %rdx
	cmpq	$2, %rdx
	jbe	10f
3:
	movl	%esi, %edx
	shrl	$12, %edx
	orb	$-32, %dl
	movl	%esi, %r8d
	shrl	$6, %r8d
	andb	$63, %r8b
	orb	$-128, %r8b
	andb	$63, %sil
	orb	$-128, %sil
	leaq	3(%rcx), %r9
	movq	(%rdi), %r10
	movb	%dl, (%r10,%rcx)
	movb	%r8b, 1(%r10,%rcx)
	movb	%sil, 2(%r10,%rcx)
	movq	%r10, (%rdi)
	movq	%r9, 8(%rdi)
	movq	%rax, 16(%rdi)
	jmp	7f
4:
	movq	8(%rdi), %rax
	movq	16(%rdi), %rcx
	movq	%rcx, %rdx
	subq	%rax, %rdx
	cmpq	$3, %rdx
	jbe	11f
5:
	movl	%esi, %edx
	shrl	$6, %edx
	movl	%esi, %r8d
	shrl	$12, %r8d
	movd	%esi, %xmm0
	psrld	$18, %xmm0
	pinsrb	$1, %r8d, %xmm0
	pinsrb	$2, %edx, %xmm0
	pinsrb	$3, %esi, %xmm0
	pand	.L1_x86_CPI29_0(%rip), %xmm0
	paddb	.L1_x86_CPI29_1(%rip), %xmm0
	movq	(%rdi), %rdx
	movd	%xmm0, (%rdx,%rax)
	addq	$4, %rax
6:
	movq	%rdx, (%rdi)
	movq	%rax, 8(%rdi)
	movq	%rcx, 16(%rdi)
7:
	xorl	%eax, %eax
8:
	addq	$8, %rsp
	popq	%rbx
	popq	%r14
	retq
9:
	movl	%esi, %ebx
	movl	$2, %esi
	movq	%rdi, %r14
	callq	std_alloc..vec..Vec..grow_amortized..01eec35b572d02af_1_x86
	movl	%eax, %ecx
	movb	$1, %al
	testb	%cl, %cl
	je	8b
	movq	%r14, %rdi
	movq	8(%r14), %rax
	movq	16(%r14), %rcx
	movl	%ebx, %esi
	jmp	1b
10:
	movl	%esi, %ebx
	movl	$3, %esi
	movq	%rdi, %r14
	callq	std_alloc..vec..Vec..grow_amortized..01eec35b572d02af_1_x86
	movl	%eax, %ecx
	movb	$1, %al
	testb	%cl, %cl
	je	8b
	movq	%r14, %rdi
	movq	8(%r14), %rcx
	movq	16(%r14), %rax
	movl	%ebx, %esi
	jmp	3b
11:
	movl	%esi, %ebx
	movl	$4, %esi
	movq	%rdi, %r14
	callq	std_alloc..vec..Vec..grow_amortized..01eec35b572d02af_1_x86
	movl	%eax, %ecx
	movb	$1, %al
	testb	%cl, %cl
	je	8b
	movq	%r14, %rdi
	movq	8(%r14), %rax
	movq	16(%r14), %rcx
	movl	%ebx, %esi
	jmp	5b
	vj_end	std_alloc..string..add_wide..d0dbed8b188a1729_1_x86

	vj_constants	16
	.p2align	4, 0x0
.L1_x86_CPI30_0:
	.byte	0
	.byte	1
	.byte	2
	.byte	3
	.byte	4
	.byte	5
	.byte	6
	.byte	7
	.byte	8
	.byte	9
	.byte	10
	.byte	11
	.byte	12
	.byte	13
	.byte	14
	.byte	15
.L1_x86_CPI30_1:
	.byte	16
	.byte	17
	.byte	18
	.byte	19
	.byte	20
	.byte	21
	.byte	22
	.byte	23
	.byte	24
	.byte	25
	.byte	26
	.byte	27
	.byte	28
	.byte	29
	.byte	30
	.byte	31
	vj_function	std..fs..File..open..40609fae31b31c25_1_x86
	pushq	%rbp
	pushq	%r15
	pushq	%r14
	pushq	%r13
	pushq	%r12
	pushq	%rbx
	subq	$3072, %rsp
	movq	$0, (%rsp)
	subq	$3072, %rsp
	movq	$0, (%rsp)
	subq	$2232, %rsp
	movq	%rdx, %r14
	movq	%rsi, %r15
	movq	%rdi, %rbx
	testq	%rdx, %rdx
	je	3f
	xorl	%eax, %eax
	.p2align	4
1:
	cmpb	$0, (%r15,%rax)
	je	2f
	incq	%rax
	cmpq	%rax, %r14
	jne	1b
	jmp	3f
2:
	cmpq	%r14, %rax
	jae	3f
	leaq	.L1_x86_static.114(%rip), %rcx
	leaq	176(%rsp), %rdi
	movl	$42, %r8d
	movl	$42, %r9d
	movl	$2, %esi
	movl	$20, %edx
	callq	std_io..io..error..Error..from_bytes_1_x86
	movq	176(%rsp), %rcx
	movq	184(%rsp), %rdx
	movq	256(%rsp), %rax
	movq	%rax, 4336(%rsp)
	movups	240(%rsp), %xmm0
	movaps	%xmm0, 4320(%rsp)
	movups	224(%rsp), %xmm1
	movaps	%xmm1, 4304(%rsp)
	movups	208(%rsp), %xmm2
	movaps	%xmm2, 4288(%rsp)
	movups	192(%rsp), %xmm3
	movaps	%xmm3, 4272(%rsp)
	movl	%ecx, %esi
	shrl	$8, %esi
	movq	%rcx, %rdi
	shrq	$16, %rdi
	movaps	%xmm3, (%rsp)
	movaps	%xmm2, 16(%rsp)
	movaps	%xmm1, 32(%rsp)
	movaps	%xmm0, 48(%rsp)
	movq	%rax, 64(%rsp)
	xorl	%eax, %eax
	movl	$1, %ebp
	jmp	17f
3:
	xorps	%xmm0, %xmm0
	movaps	%xmm0, (%rsp)
	movaps	%xmm0, 16(%rsp)
	movaps	%xmm0, 32(%rsp)
	movaps	%xmm0, 48(%rsp)
	movaps	%xmm0, 64(%rsp)
	movq	$0, 80(%rsp)
	movq	$-1, %r13
	.p2align	4
4:
	subq	$1, %r13
	jb	14f
	cmpq	$4096, %r14
	jb	6f
	movl	$36, %edi
5:
	vj_call	rattle_set_errno
	jmp	12f
	.p2align	4
6:
	testq	%r14, %r14
	je	8f
	xorl	%eax, %eax
	.p2align	4
7:
	cmpb	$0, (%r15,%rax)
	je	9f
	incq	%rax
	cmpq	%rax, %r14
	jne	7b
	jmp	10f
8:
	leaq	176(%rsp), %rdi
	movl	$4095, %edx
	xorl	%esi, %esi
	vj_c_call	memset
	jmp	11f
9:
	cmpq	%r14, %rax
	jae	10f
	movl	$22, %edi
	jmp	5b
	.p2align	4
10:
	leaq	176(%rsp), %rdi
	movl	$4095, %edx
	xorl	%esi, %esi
	vj_c_call	memset
	leaq	176(%rsp), %rdi
	movq	%r15, %rsi
	movq	%r14, %rdx
	vj_c_call	memcpy
11:
	movb	$0, 4271(%rsp)
	leaq	4272(%rsp), %r12
	leaq	176(%rsp), %rsi
	movl	$4096, %edx
	movq	%r12, %rdi
	vj_c_call	memcpy
	xorl	%ebp, %ebp
	movq	%r12, %rdi
	movl	$524544, %esi
	xorl	%eax, %eax
	vj_call	b2sum_open
	testl	%eax, %eax
	jns	18f
12:
	movq	%rsp, %rdi
	callq	std_io..io..error..last_error_1_x86
	movzbl	(%rsp), %ecx
	movzbl	1(%rsp), %esi
	movaps	.L1_x86_CPI30_0(%rip), %xmm0
	movaps	%xmm0, 176(%rsp)
	movaps	.L1_x86_CPI30_1(%rip), %xmm0
	movaps	%xmm0, 192(%rsp)
	movabsq	$2820983053732684064, %rax
	movq	%rax, 208(%rsp)
	movb	$40, 216(%rsp)
	cmpq	$41, %rsi
	jae	13f
	cmpb	$35, 176(%rsp,%rsi)
	je	4b
13:
	movl	2(%rsp), %eax
	movzwl	6(%rsp), %edi
	shlq	$32, %rdi
	orq	%rax, %rdi
	movq	8(%rsp), %rdx
	movaps	16(%rsp), %xmm0
	movaps	%xmm0, 176(%rsp)
	movaps	32(%rsp), %xmm0
	movaps	%xmm0, 192(%rsp)
	movaps	48(%rsp), %xmm0
	movaps	%xmm0, 208(%rsp)
	movaps	64(%rsp), %xmm0
	movaps	%xmm0, 224(%rsp)
	movq	80(%rsp), %rax
	jmp	15f
14:
	leaq	.L1_x86_static.118(%rip), %rcx
	leaq	176(%rsp), %rdi
	movl	$43, %r8d
	movl	$43, %r9d
	movl	$2, %esi
	movl	$22, %edx
	callq	std_io..io..error..Error..from_bytes_1_x86
	movzbl	176(%rsp), %ecx
	movzbl	177(%rsp), %esi
	movl	178(%rsp), %eax
	movzwl	182(%rsp), %edi
	shlq	$32, %rdi
	orq	%rax, %rdi
	movq	184(%rsp), %rdx
	movq	256(%rsp), %rax
	movq	%rax, 4336(%rsp)
	movups	240(%rsp), %xmm0
	movaps	%xmm0, 4320(%rsp)
	movups	224(%rsp), %xmm1
	movaps	%xmm1, 4304(%rsp)
	movups	208(%rsp), %xmm2
	movaps	%xmm2, 4288(%rsp)
	movups	192(%rsp), %xmm3
	movaps	%xmm3, 4272(%rsp)
	movaps	%xmm3, 176(%rsp)
	movaps	%xmm2, 192(%rsp)
	movaps	%xmm1, 208(%rsp)
	movaps	%xmm0, 224(%rsp)
15:
	movq	%rax, 240(%rsp)
	xorl	%eax, %eax
	movl	$1, %ebp
16:
	movaps	176(%rsp), %xmm0
	movaps	192(%rsp), %xmm1
	movaps	208(%rsp), %xmm2
	movaps	224(%rsp), %xmm3
	movaps	%xmm0, (%rsp)
	movaps	%xmm1, 16(%rsp)
	movaps	%xmm2, 32(%rsp)
	movaps	%xmm3, 48(%rsp)
	movq	240(%rsp), %r8
	movq	%r8, 64(%rsp)
17:
	shlq	$16, %rdi
	movzbl	%sil, %esi
	shll	$8, %esi
	orq	%rdi, %rsi
	movzbl	%cl, %ecx
	orq	%rsi, %rcx
	movaps	(%rsp), %xmm0
	movaps	16(%rsp), %xmm1
	movaps	32(%rsp), %xmm2
	movaps	48(%rsp), %xmm3
	movaps	%xmm2, 208(%rsp)
	movaps	%xmm3, 224(%rsp)
	movq	64(%rsp), %rsi
	movaps	%xmm0, 96(%rsp)
	movaps	%xmm1, 112(%rsp)
	movaps	%xmm2, 128(%rsp)
	movaps	%xmm3, 144(%rsp)
	movq	%rsi, 160(%rsp)
	movl	%ebp, (%rbx)
	movl	%eax, 4(%rbx)
	movq	%rcx, 8(%rbx)
	movq	%rdx, 16(%rbx)
	movaps	96(%rsp), %xmm0
	movaps	112(%rsp), %xmm1
	movaps	128(%rsp), %xmm2
	movaps	144(%rsp), %xmm3
	movups	%xmm0, 24(%rbx)
	movups	%xmm1, 40(%rbx)
	movups	%xmm2, 56(%rbx)
	movups	%xmm3, 72(%rbx)
	movq	160(%rsp), %rax
	movq	%rax, 88(%rbx)
	addq	$8376, %rsp
	popq	%rbx
	popq	%r12
	popq	%r13
	popq	%r14
	popq	%r15
	popq	%rbp
	retq
18:
	xorps	%xmm0, %xmm0
	movaps	%xmm0, 224(%rsp)
	movaps	%xmm0, 208(%rsp)
	movaps	%xmm0, 192(%rsp)
	movaps	%xmm0, 176(%rsp)
	movq	$0, 240(%rsp)
	xorl	%edi, %edi
	xorl	%edx, %edx
	xorl	%ecx, %ecx
	xorl	%esi, %esi
	jmp	16b
	vj_end	std..fs..File..open..40609fae31b31c25_1_x86

	vj_function	std_io..io..error..Error..from_bytes_1_x86
	pushq	%rbp
	pushq	%r15
	pushq	%r14
	pushq	%r13
	pushq	%r12
	pushq	%rbx
	subq	$536, %rsp
	movq	%r9, 528(%rsp)
	movl	%edx, 492(%rsp)
	movl	%esi, 488(%rsp)
	movq	%rdi, 520(%rsp)
	movabsq	$3314649325744685056, %r13
	movabsq	$12947848928690176, %rsi
	movabsq	$50577534877696, %r11
	movabsq	$197568495616, %r14
	movl	$3014656, %eax
	movq	%rax, 496(%rsp)
	movb	$46, 351(%rsp)
	movl	$11776, %eax
	movq	%rax, 504(%rsp)
	movl	$771751936, %eax
	movq	%rax, 512(%rsp)
	testq	%r8, %r8
	movq	%rcx, 64(%rsp)
	je	1f
	movzbl	(%rcx), %eax
	movb	%al, 350(%rsp)
	cmpq	$1, %r8
	movq	%r8, %r14
	jne	3f
	movq	%r13, 24(%rsp)
	movq	%r11, 32(%rsp)
	movl	$771751936, %eax
	movq	%rax, 40(%rsp)
	movl	$11776, %eax
	movq	%rax, 48(%rsp)
	movq	%r13, 56(%rsp)
	movq	%r11, 72(%rsp)
	movl	$771751936, %eax
	movq	%rax, 88(%rsp)
	movl	$11776, %eax
	movq	%rax, 104(%rsp)
	movq	%r13, 112(%rsp)
	movq	%r11, 128(%rsp)
	movl	$771751936, %eax
	movq	%rax, 144(%rsp)
	movb	$46, 23(%rsp)
	movb	$46, 7(%rsp)
	movb	$46, 6(%rsp)
	movb	$46, 5(%rsp)
	movb	$46, 4(%rsp)
	movb	$46, 3(%rsp)
	movb	$46, 2(%rsp)
	movb	$46, 1(%rsp)
	movl	$11776, %eax
	movq	%rax, 160(%rsp)
	movq	%r13, 168(%rsp)
	movq	%r11, 184(%rsp)
	movl	$771751936, %r12d
	movq	%rax, 208(%rsp)
	movq	%r13, 216(%rsp)
	movq	%r11, 232(%rsp)
	movl	$771751936, %r15d
	movq	%rax, 256(%rsp)
	movq	%r13, 264(%rsp)
	movq	%r11, 280(%rsp)
	movl	$771751936, %eax
	movq	%rax, 296(%rsp)
	movl	$11776, %eax
	movq	%rax, 312(%rsp)
	movq	%r13, 320(%rsp)
	movq	%r11, 336(%rsp)
	movl	$771751936, %eax
	movq	%rax, 360(%rsp)
	movl	$11776, %eax
	movq	%rax, 376(%rsp)
	movq	%r13, 384(%rsp)
	movq	%r11, 400(%rsp)
	movl	$771751936, %eax
	movq	%rax, 416(%rsp)
	movl	$11776, %eax
	movq	%rax, 432(%rsp)
	movq	%r13, 440(%rsp)
	movq	%r11, 456(%rsp)
	movl	$771751936, %eax
	movq	%rax, 472(%rsp)
	movl	$11776, %ebx
	jmp	5f
1:
	movq	%r13, 24(%rsp)
	movq	%r11, 32(%rsp)
	movq	%rax, 40(%rsp)
	movl	$11776, %eax
	movq	%rax, 48(%rsp)
	movq	%r13, 56(%rsp)
	movq	%r11, 72(%rsp)
	movl	$771751936, %eax
	movq	%rax, 88(%rsp)
	movl	$11776, %eax
	movq	%rax, 104(%rsp)
	movq	%r13, 112(%rsp)
	movq	%r11, 128(%rsp)
	movl	$771751936, %eax
	movq	%rax, 144(%rsp)
	movb	$46, 350(%rsp)
	movb	$46, 23(%rsp)
	movb	$46, 7(%rsp)
	movb	$46, 6(%rsp)
	movb	$46, 5(%rsp)
	movb	$46, 4(%rsp)
	movb	$46, 3(%rsp)
	movb	$46, 2(%rsp)
	movb	$46, 1(%rsp)
	movl	$11776, %eax
	movq	%rax, 160(%rsp)
	movq	%r13, 168(%rsp)
	movq	%r11, 184(%rsp)
	movl	$771751936, %r12d
	movq	%rax, 208(%rsp)
	movq	%r13, 216(%rsp)
	movq	%r11, 232(%rsp)
	movl	$771751936, %r15d
	movq	%rax, 256(%rsp)
	movq	%r13, 264(%rsp)
	movq	%r11, 280(%rsp)
	movl	$771751936, %eax
	movq	%rax, 296(%rsp)
	movl	$11776, %eax
	movq	%rax, 312(%rsp)
	movq	%r13, 320(%rsp)
	movq	%r11, 336(%rsp)
	movl	$771751936, %eax
	movq	%rax, 360(%rsp)
	movl	$11776, %eax
	movq	%rax, 376(%rsp)
	movq	%r13, 384(%rsp)
	movq	%r11, 400(%rsp)
	movl	$771751936, %eax
	movq	%rax, 416(%rsp)
	movl	$11776, %eax
	movq	%rax, 432(%rsp)
	movq	%r13, 440(%rsp)
	movq	%r11, 456(%rsp)
	movl	$771751936, %eax
	movq	%rax, 472(%rsp)
	movl	$3014656, %eax
	movq	%rax, 480(%rsp)
	movq	%r14, 464(%rsp)
	movq	%rsi, 448(%rsp)
	movq	%rax, 424(%rsp)
	movq	%r14, 408(%rsp)
	movq	%rsi, 392(%rsp)
	movq	%rax, 368(%rsp)
	movq	%r14, 352(%rsp)
	movq	%rsi, 328(%rsp)
	movq	%rax, 304(%rsp)
	movq	%r14, 288(%rsp)
	movq	%rsi, 272(%rsp)
	movq	%rax, 248(%rsp)
	movq	%r14, 240(%rsp)
	movq	%rsi, 224(%rsp)
	movq	%rax, 200(%rsp)
	movq	%r14, 192(%rsp)
	movq	%rsi, 176(%rsp)
	movq	%rax, 152(%rsp)
	movq	%r14, 136(%rsp)
	movq	%rsi, 120(%rsp)
	movq	%rax, 96(%rsp)
	movq	%r14, 80(%rsp)
	movq	%rsi, %rdi
	movl	$3014656, %r9d
	movq	%r14, %rdx
	movq	%rsi, %r10
	movq	%r14, %rcx
	movq	%r8, %r14
	movl	$11776, %ebx
	cmpq	$78, %r14
	jae	10f
2:
	movq	%rcx, %r8
	movq	%r11, %rcx
	jmp	12f
3:
	movzbl	1(%rcx), %ebx
	shll	$8, %ebx
	cmpq	$3, %r14
	jb	4f
	movzbl	2(%rcx), %eax
	shll	$16, %eax
	movq	%rax, 480(%rsp)
	cmpq	$3, %r14
	jne	13f
	movq	%r13, 24(%rsp)
	movq	%r11, 32(%rsp)
	movl	$771751936, %eax
	movq	%rax, 40(%rsp)
	movl	$11776, %eax
	movq	%rax, 48(%rsp)
	movq	%r13, 56(%rsp)
	movq	%r11, 72(%rsp)
	movl	$771751936, %eax
	movq	%rax, 88(%rsp)
	movl	$11776, %eax
	movq	%rax, 104(%rsp)
	movq	%r13, 112(%rsp)
	movq	%r11, 128(%rsp)
	movl	$771751936, %eax
	movq	%rax, 144(%rsp)
	movb	$46, 23(%rsp)
	movb	$46, 7(%rsp)
	movb	$46, 6(%rsp)
	movb	$46, 5(%rsp)
	movb	$46, 4(%rsp)
	movb	$46, 3(%rsp)
	movb	$46, 2(%rsp)
	movb	$46, 1(%rsp)
	movl	$11776, %eax
	movq	%rax, 160(%rsp)
	movq	%r13, 168(%rsp)
	movq	%r11, 184(%rsp)
	movl	$771751936, %r12d
	movq	%rax, 208(%rsp)
	movq	%r13, 216(%rsp)
	movq	%r11, 232(%rsp)
	movl	$771751936, %r15d
	movq	%rax, 256(%rsp)
	movq	%r13, 264(%rsp)
	movq	%r11, 280(%rsp)
	movl	$771751936, %eax
	movq	%rax, 296(%rsp)
	movl	$11776, %eax
	movq	%rax, 312(%rsp)
	movq	%r13, 320(%rsp)
	movq	%r11, 336(%rsp)
	movl	$771751936, %eax
	movq	%rax, 360(%rsp)
	movl	$11776, %eax
	movq	%rax, 376(%rsp)
	movq	%r13, 384(%rsp)
	movq	%r11, 400(%rsp)
	movl	$771751936, %eax
	movq	%rax, 416(%rsp)
	movl	$11776, %eax
	movq	%rax, 432(%rsp)
	movq	%r13, 440(%rsp)
	movq	%r11, 456(%rsp)
	movl	$771751936, %eax
	movq	%rax, 472(%rsp)
	jmp	15f
4:
	movq	%r13, 24(%rsp)
	movq	%r11, 32(%rsp)
	movl	$771751936, %eax
	movq	%rax, 40(%rsp)
	movl	$11776, %eax
	movq	%rax, 48(%rsp)
	movq	%r13, 56(%rsp)
	movq	%r11, 72(%rsp)
	movl	$771751936, %eax
	movq	%rax, 88(%rsp)
	movl	$11776, %eax
	movq	%rax, 104(%rsp)
	movq	%r13, 112(%rsp)
	movq	%r11, 128(%rsp)
	movl	$771751936, %eax
	movq	%rax, 144(%rsp)
	movb	$46, 23(%rsp)
	movb	$46, 7(%rsp)
	movb	$46, 6(%rsp)
	movb	$46, 5(%rsp)
	movb	$46, 4(%rsp)
	movb	$46, 3(%rsp)
	movb	$46, 2(%rsp)
	movb	$46, 1(%rsp)
	movl	$11776, %eax
	movq	%rax, 160(%rsp)
	movq	%r13, 168(%rsp)
	movq	%r11, 184(%rsp)
	movl	$771751936, %r12d
	movq	%rax, 208(%rsp)
	movq	%r13, 216(%rsp)
	movq	%r11, 232(%rsp)
	movl	$771751936, %r15d
	movq	%rax, 256(%rsp)
	movq	%r13, 264(%rsp)
	movq	%r11, 280(%rsp)
	movl	$771751936, %eax
	movq	%rax, 296(%rsp)
	movl	$11776, %eax
	movq	%rax, 312(%rsp)
	movq	%r13, 320(%rsp)
	movq	%r11, 336(%rsp)
	movl	$771751936, %eax
	movq	%rax, 360(%rsp)
	movl	$11776, %eax
	movq	%rax, 376(%rsp)
	movq	%r13, 384(%rsp)
	movq	%r11, 400(%rsp)
	movl	$771751936, %eax
	movq	%rax, 416(%rsp)
	movl	$11776, %eax
	movq	%rax, 432(%rsp)
	movq	%r13, 440(%rsp)
	movq	%r11, 456(%rsp)
	movl	$771751936, %eax
	movq	%rax, 472(%rsp)
5:
	movl	$3014656, %eax
	movq	%rax, 480(%rsp)
	movabsq	$197568495616, %rcx
	movq	%rcx, 464(%rsp)
	movq	%rsi, 448(%rsp)
6:
	movq	%rax, 424(%rsp)
7:
	movq	%rcx, 408(%rsp)
	movq	%rsi, 392(%rsp)
8:
	movq	%rax, 368(%rsp)
9:
	movq	%rcx, 352(%rsp)
	movq	%rsi, 328(%rsp)
	movq	%rax, 304(%rsp)
	movq	%rcx, 288(%rsp)
	movq	%rsi, 272(%rsp)
	movq	%rax, 248(%rsp)
	movq	%rcx, 240(%rsp)
	movq	%rsi, 224(%rsp)
	movq	%rax, 200(%rsp)
	movq	%rcx, 192(%rsp)
	movq	%rsi, 176(%rsp)
	movq	%rax, 152(%rsp)
	movq	%rcx, 136(%rsp)
	movq	%rsi, 120(%rsp)
	movq	%rax, 96(%rsp)
	movq	%rcx, 80(%rsp)
	movq	%rsi, %rdi
	movl	$3014656, %r9d
	movq	%rcx, %rdx
	movq	%rsi, %r10
	cmpq	$78, %r14
	jb	2b
10:
	movq	64(%rsp), %rax
	movzbl	77(%rax), %ebp
	shlq	$40, %rbp
	movq	%rcx, %r8
	cmpq	$78, %r14
	jne	11f
	movq	%rbp, %rcx
	jmp	12f
11:
	movzbl	78(%rax), %esi
	shlq	$48, %rsi
	movq	%rbp, %rcx
	cmpq	$80, %r14
	jb	12f
	movzbl	79(%rax), %r13d
	shlq	$56, %r13
12:
	orq	%r13, %rsi
	movq	48(%rsp), %r14
	orq	%r9, %r14
	movzbl	1(%rsp), %eax
	orq	%rax, %r14
	movq	40(%rsp), %rax
	orq	%rdx, %rax
	orq	32(%rsp), %rax
	orq	%r14, %rax
	movq	%r10, %rbp
	orq	24(%rsp), %rbp
	orq	%rax, %rbp
	movq	104(%rsp), %rdx
	orq	96(%rsp), %rdx
	movzbl	2(%rsp), %eax
	orq	%rax, %rdx
	movq	88(%rsp), %rax
	orq	80(%rsp), %rax
	orq	72(%rsp), %rax
	orq	%rdx, %rax
	movq	%rdi, %r9
	orq	56(%rsp), %r9
	orq	%rax, %r9
	movq	160(%rsp), %rdx
	orq	152(%rsp), %rdx
	movzbl	3(%rsp), %eax
	orq	%rax, %rdx
	movq	144(%rsp), %rax
	orq	136(%rsp), %rax
	orq	128(%rsp), %rax
	orq	%rdx, %rax
	movq	120(%rsp), %rdi
	orq	112(%rsp), %rdi
	orq	%rax, %rdi
	movq	208(%rsp), %rdx
	orq	200(%rsp), %rdx
	movzbl	4(%rsp), %eax
	orq	%rax, %rdx
	orq	192(%rsp), %r12
	orq	184(%rsp), %r12
	orq	%rdx, %r12
	movq	176(%rsp), %r10
	orq	168(%rsp), %r10
	orq	%r12, %r10
	movq	256(%rsp), %rdx
	orq	248(%rsp), %rdx
	movzbl	5(%rsp), %eax
	orq	%rax, %rdx
	orq	240(%rsp), %r15
	orq	232(%rsp), %r15
	orq	%rdx, %r15
	movq	%rsi, %r12
	movq	224(%rsp), %rsi
	orq	216(%rsp), %rsi
	orq	%r15, %rsi
	movq	312(%rsp), %rdx
	orq	304(%rsp), %rdx
	movzbl	6(%rsp), %eax
	orq	%rax, %rdx
	movq	296(%rsp), %rax
	orq	288(%rsp), %rax
	orq	280(%rsp), %rax
	orq	%rdx, %rax
	movq	272(%rsp), %r11
	orq	264(%rsp), %r11
	orq	%rax, %r11
	movq	376(%rsp), %rdx
	orq	368(%rsp), %rdx
	movzbl	7(%rsp), %eax
	orq	%rax, %rdx
	movq	360(%rsp), %rax
	orq	352(%rsp), %rax
	orq	336(%rsp), %rax
	orq	%rdx, %rax
	movq	328(%rsp), %r13
	orq	320(%rsp), %r13
	orq	%rax, %r13
	movq	432(%rsp), %rdx
	orq	424(%rsp), %rdx
	movzbl	23(%rsp), %eax
	orq	%rax, %rdx
	movq	416(%rsp), %rax
	orq	408(%rsp), %rax
	orq	400(%rsp), %rax
	orq	%rdx, %rax
	movq	392(%rsp), %r15
	orq	384(%rsp), %r15
	orq	%rax, %r15
	orq	480(%rsp), %rbx
	movzbl	350(%rsp), %eax
	orq	%rax, %rbx
	movq	472(%rsp), %rax
	orq	464(%rsp), %rax
	orq	456(%rsp), %rax
	orq	%rbx, %rax
	movq	448(%rsp), %rdx
	orq	440(%rsp), %rdx
	orq	%rax, %rdx
	movq	504(%rsp), %r14
	orq	496(%rsp), %r14
	movzbl	351(%rsp), %eax
	orq	%rax, %r14
	movq	512(%rsp), %rbx
	orq	%r8, %rbx
	orq	%rcx, %rbx
	orq	%r14, %rbx
	orq	%r12, %rbx
	movl	488(%rsp), %eax
	movq	520(%rsp), %rcx
	movb	%al, (%rcx)
	movl	492(%rsp), %eax
	movb	%al, 1(%rcx)
	movq	528(%rsp), %rax
	movb	%al, 2(%rcx)
	movb	$0, 3(%rcx)
	movl	$0, 4(%rcx)
	movq	%rdx, 8(%rcx)
	movq	%r15, 16(%rcx)
	movq	%r13, 24(%rcx)
	movq	%r11, 32(%rcx)
	movq	%rsi, 40(%rcx)
	movq	%r10, 48(%rcx)
	movq	%rdi, 56(%rcx)
	movq	%r9, 64(%rcx)
	movq	%rbp, 72(%rcx)
	movq	%rbx, 80(%rcx)
	addq	$536, %rsp
	popq	%rbx
	popq	%r12
	popq	%r13
	popq	%r14
	popq	%r15
	popq	%rbp
	retq
13:
	movzbl	3(%rcx), %eax
	shll	$24, %eax
	movq	%rax, 472(%rsp)
	cmpq	$5, %r14
	jb	14f
	movzbl	4(%rcx), %eax
	shlq	$32, %rax
	movq	%rax, 464(%rsp)
	cmpq	$5, %r14
	jne	16f
	movq	%r13, 24(%rsp)
	movq	%r11, 32(%rsp)
	movl	$771751936, %eax
	movq	%rax, 40(%rsp)
	movl	$11776, %eax
	movq	%rax, 48(%rsp)
	movq	%r13, 56(%rsp)
	movq	%r11, 72(%rsp)
	movl	$771751936, %eax
	movq	%rax, 88(%rsp)
	movl	$11776, %eax
	movq	%rax, 104(%rsp)
	movq	%r13, 112(%rsp)
	movq	%r11, 128(%rsp)
	movl	$771751936, %eax
	movq	%rax, 144(%rsp)
	movb	$46, 23(%rsp)
	movb	$46, 7(%rsp)
	movb	$46, 6(%rsp)
	movb	$46, 5(%rsp)
	movb	$46, 4(%rsp)
	movb	$46, 3(%rsp)
	movb	$46, 2(%rsp)
	movb	$46, 1(%rsp)
	movl	$11776, %eax
	movq	%rax, 160(%rsp)
	movq	%r13, 168(%rsp)
	movq	%r11, 184(%rsp)
	movl	$771751936, %r12d
	movq	%rax, 208(%rsp)
	movq	%r13, 216(%rsp)
	movq	%r11, 232(%rsp)
	movl	$771751936, %r15d
	movq	%rax, 256(%rsp)
	movq	%r13, 264(%rsp)
	movq	%r11, 280(%rsp)
	movl	$771751936, %eax
	movq	%rax, 296(%rsp)
	movl	$11776, %eax
	movq	%rax, 312(%rsp)
	movq	%r13, 320(%rsp)
	movq	%r11, 336(%rsp)
	movl	$771751936, %eax
	movq	%rax, 360(%rsp)
	movl	$11776, %eax
	movq	%rax, 376(%rsp)
	movq	%r13, 384(%rsp)
	movq	%r11, 400(%rsp)
	movl	$771751936, %eax
	movq	%rax, 416(%rsp)
	movl	$11776, %eax
	movq	%rax, 432(%rsp)
	movq	%r13, 440(%rsp)
	movq	%r11, 456(%rsp)
	jmp	18f
14:
	movq	%r13, 24(%rsp)
	movq	%r11, 32(%rsp)
	movl	$771751936, %eax
	movq	%rax, 40(%rsp)
	movl	$11776, %eax
	movq	%rax, 48(%rsp)
	movq	%r13, 56(%rsp)
	movq	%r11, 72(%rsp)
	movl	$771751936, %eax
	movq	%rax, 88(%rsp)
	movl	$11776, %eax
	movq	%rax, 104(%rsp)
	movq	%r13, 112(%rsp)
	movq	%r11, 128(%rsp)
	movl	$771751936, %eax
	movq	%rax, 144(%rsp)
	movb	$46, 23(%rsp)
	movb	$46, 7(%rsp)
	movb	$46, 6(%rsp)
	movb	$46, 5(%rsp)
	movb	$46, 4(%rsp)
	movb	$46, 3(%rsp)
	movb	$46, 2(%rsp)
	movb	$46, 1(%rsp)
	movl	$11776, %eax
	movq	%rax, 160(%rsp)
	movq	%r13, 168(%rsp)
	movq	%r11, 184(%rsp)
	movl	$771751936, %r12d
	movq	%rax, 208(%rsp)
	movq	%r13, 216(%rsp)
	movq	%r11, 232(%rsp)
	movl	$771751936, %r15d
	movq	%rax, 256(%rsp)
	movq	%r13, 264(%rsp)
	movq	%r11, 280(%rsp)
	movl	$771751936, %eax
	movq	%rax, 296(%rsp)
	movl	$11776, %eax
	movq	%rax, 312(%rsp)
	movq	%r13, 320(%rsp)
	movq	%r11, 336(%rsp)
	movl	$771751936, %eax
	movq	%rax, 360(%rsp)
	movl	$11776, %eax
	movq	%rax, 376(%rsp)
	movq	%r13, 384(%rsp)
	movq	%r11, 400(%rsp)
	movl	$771751936, %eax
	movq	%rax, 416(%rsp)
	movl	$11776, %eax
	movq	%rax, 432(%rsp)
	movq	%r13, 440(%rsp)
	movq	%r11, 456(%rsp)
15:
	movabsq	$197568495616, %rcx
	movq	%rcx, 464(%rsp)
	movq	%rsi, 448(%rsp)
	movl	$3014656, %eax
	jmp	6b
16:
	movzbl	5(%rcx), %eax
	shlq	$40, %rax
	movq	%rax, 456(%rsp)
	cmpq	$7, %r14
	jb	17f
	movzbl	6(%rcx), %eax
	shlq	$48, %rax
	movq	%rax, 448(%rsp)
	cmpq	$7, %r14
	jne	20f
	movq	%r13, 24(%rsp)
	movq	%r11, 32(%rsp)
	movl	$771751936, %eax
	movq	%rax, 40(%rsp)
	movl	$11776, %eax
	movq	%rax, 48(%rsp)
	movq	%r13, 56(%rsp)
	movq	%r11, 72(%rsp)
	movl	$771751936, %eax
	movq	%rax, 88(%rsp)
	movl	$11776, %eax
	movq	%rax, 104(%rsp)
	movq	%r13, 112(%rsp)
	movq	%r11, 128(%rsp)
	movl	$771751936, %eax
	movq	%rax, 144(%rsp)
	movb	$46, 23(%rsp)
	movb	$46, 7(%rsp)
	movb	$46, 6(%rsp)
	movb	$46, 5(%rsp)
	movb	$46, 4(%rsp)
	movb	$46, 3(%rsp)
	movb	$46, 2(%rsp)
	movb	$46, 1(%rsp)
	movl	$11776, %eax
	movq	%rax, 160(%rsp)
	movq	%r13, 168(%rsp)
	movq	%r11, 184(%rsp)
	movl	$771751936, %r12d
	movq	%rax, 208(%rsp)
	movq	%r13, 216(%rsp)
	movq	%r11, 232(%rsp)
	movl	$771751936, %r15d
	movq	%rax, 256(%rsp)
	movq	%r13, 264(%rsp)
	movq	%r11, 280(%rsp)
	movl	$771751936, %eax
	movq	%rax, 296(%rsp)
	movl	$11776, %eax
	movq	%rax, 312(%rsp)
	movq	%r13, 320(%rsp)
	movq	%r11, 336(%rsp)
	movl	$771751936, %eax
	movq	%rax, 360(%rsp)
	movl	$11776, %eax
	movq	%rax, 376(%rsp)
	movq	%r13, 384(%rsp)
	movq	%r11, 400(%rsp)
	movl	$771751936, %eax
	movq	%rax, 416(%rsp)
	movl	$11776, %eax
	movq	%rax, 432(%rsp)
	movq	%r13, 440(%rsp)
	jmp	19f
17:
	movq	%r13, 24(%rsp)
	movq	%r11, 32(%rsp)
	movl	$771751936, %eax
	movq	%rax, 40(%rsp)
	movl	$11776, %eax
	movq	%rax, 48(%rsp)
	movq	%r13, 56(%rsp)
	movq	%r11, 72(%rsp)
	movl	$771751936, %eax
	movq	%rax, 88(%rsp)
	movl	$11776, %eax
	movq	%rax, 104(%rsp)
	movq	%r13, 112(%rsp)
	movq	%r11, 128(%rsp)
	movl	$771751936, %eax
	movq	%rax, 144(%rsp)
	movb	$46, 23(%rsp)
	movb	$46, 7(%rsp)
	movb	$46, 6(%rsp)
	movb	$46, 5(%rsp)
	movb	$46, 4(%rsp)
	movb	$46, 3(%rsp)
	movb	$46, 2(%rsp)
	movb	$46, 1(%rsp)
	movl	$11776, %eax
	movq	%rax, 160(%rsp)
	movq	%r13, 168(%rsp)
	movq	%r11, 184(%rsp)
	movl	$771751936, %r12d
	movq	%rax, 208(%rsp)
	movq	%r13, 216(%rsp)
	movq	%r11, 232(%rsp)
	movl	$771751936, %r15d
	movq	%rax, 256(%rsp)
	movq	%r13, 264(%rsp)
	movq	%r11, 280(%rsp)
	movl	$771751936, %eax
	movq	%rax, 296(%rsp)
	movl	$11776, %eax
	movq	%rax, 312(%rsp)
	movq	%r13, 320(%rsp)
	movq	%r11, 336(%rsp)
	movl	$771751936, %eax
	movq	%rax, 360(%rsp)
	movl	$11776, %eax
	movq	%rax, 376(%rsp)
	movq	%r13, 384(%rsp)
	movq	%r11, 400(%rsp)
	movl	$771751936, %eax
	movq	%rax, 416(%rsp)
	movl	$11776, %eax
	movq	%rax, 432(%rsp)
	movq	%r13, 440(%rsp)
18:
	movq	%rsi, 448(%rsp)
19:
	movl	$3014656, %eax
	movq	%rax, 424(%rsp)
	movabsq	$197568495616, %rcx
	jmp	7b
20:
	movzbl	7(%rcx), %eax
	shlq	$56, %rax
	movq	%rax, 440(%rsp)
	cmpq	$9, %r14
	jb	21f
	movzbl	8(%rcx), %eax
	movb	%al, 23(%rsp)
	jne	23f
	movq	%r13, 24(%rsp)
	movq	%r11, 32(%rsp)
	movl	$771751936, %eax
	movq	%rax, 40(%rsp)
	movl	$11776, %eax
	movq	%rax, 48(%rsp)
	movq	%r13, 56(%rsp)
	movq	%r11, 72(%rsp)
	movl	$771751936, %eax
	movq	%rax, 88(%rsp)
	movl	$11776, %eax
	movq	%rax, 104(%rsp)
	movq	%r13, 112(%rsp)
	movq	%r11, 128(%rsp)
	movl	$771751936, %eax
	movq	%rax, 144(%rsp)
	movl	$11776, %eax
	movq	%rax, 160(%rsp)
	movb	$46, 7(%rsp)
	movb	$46, 6(%rsp)
	movb	$46, 5(%rsp)
	movb	$46, 4(%rsp)
	movb	$46, 3(%rsp)
	movb	$46, 2(%rsp)
	movb	$46, 1(%rsp)
	jmp	22f
21:
	movq	%r13, 24(%rsp)
	movq	%r11, 32(%rsp)
	movl	$771751936, %eax
	movq	%rax, 40(%rsp)
	movl	$11776, %eax
	movq	%rax, 48(%rsp)
	movq	%r13, 56(%rsp)
	movq	%r11, 72(%rsp)
	movl	$771751936, %eax
	movq	%rax, 88(%rsp)
	movl	$11776, %eax
	movq	%rax, 104(%rsp)
	movq	%r13, 112(%rsp)
	movq	%r11, 128(%rsp)
	movl	$771751936, %eax
	movq	%rax, 144(%rsp)
	movb	$46, 23(%rsp)
	movb	$46, 7(%rsp)
	movb	$46, 6(%rsp)
	movb	$46, 5(%rsp)
	movb	$46, 4(%rsp)
	movb	$46, 3(%rsp)
	movb	$46, 2(%rsp)
	movb	$46, 1(%rsp)
	movl	$11776, %eax
	movq	%rax, 160(%rsp)
22:
	movq	%r13, 168(%rsp)
	movq	%r11, 184(%rsp)
	movl	$771751936, %r12d
	movq	%rax, 208(%rsp)
	movq	%r13, 216(%rsp)
	movq	%r11, 232(%rsp)
	movl	$771751936, %r15d
	movq	%rax, 256(%rsp)
	movq	%r13, 264(%rsp)
	movq	%r11, 280(%rsp)
	movl	$771751936, %eax
	movq	%rax, 296(%rsp)
	movl	$11776, %eax
	movq	%rax, 312(%rsp)
	movq	%r13, 320(%rsp)
	movq	%r11, 336(%rsp)
	movl	$771751936, %eax
	movq	%rax, 360(%rsp)
	movl	$11776, %eax
	movq	%rax, 376(%rsp)
	movq	%r13, 384(%rsp)
	movq	%r11, 400(%rsp)
	movl	$771751936, %eax
	movq	%rax, 416(%rsp)
	movl	$11776, %eax
	movq	%rax, 432(%rsp)
	jmp	19b
23:
	movzbl	9(%rcx), %eax
	shll	$8, %eax
	movq	%rax, 432(%rsp)
	cmpq	$11, %r14
	jb	24f
	movzbl	10(%rcx), %eax
	shll	$16, %eax
	movq	%rax, 424(%rsp)
	cmpq	$11, %r14
	jne	25f
	movq	%r13, 24(%rsp)
	movq	%r11, 32(%rsp)
	movl	$771751936, %eax
	movq	%rax, 40(%rsp)
	movl	$11776, %eax
	movq	%rax, 48(%rsp)
	movq	%r13, 56(%rsp)
	movq	%r11, 72(%rsp)
	movl	$771751936, %eax
	movq	%rax, 88(%rsp)
	movl	$11776, %eax
	movq	%rax, 104(%rsp)
	movq	%r13, 112(%rsp)
	movq	%r11, 128(%rsp)
	movl	$771751936, %eax
	movq	%rax, 144(%rsp)
	movl	$11776, %eax
	movq	%rax, 160(%rsp)
	movb	$46, 7(%rsp)
	movb	$46, 6(%rsp)
	movb	$46, 5(%rsp)
	movb	$46, 4(%rsp)
	movb	$46, 3(%rsp)
	movb	$46, 2(%rsp)
	movb	$46, 1(%rsp)
	movq	%r13, 168(%rsp)
	movq	%r11, 184(%rsp)
	movl	$771751936, %r12d
	movq	%rax, 208(%rsp)
	movq	%r13, 216(%rsp)
	movq	%r11, 232(%rsp)
	movl	$771751936, %r15d
	movq	%rax, 256(%rsp)
	movq	%r13, 264(%rsp)
	movq	%r11, 280(%rsp)
	movl	$771751936, %eax
	movq	%rax, 296(%rsp)
	movl	$11776, %eax
	movq	%rax, 312(%rsp)
	movq	%r13, 320(%rsp)
	movq	%r11, 336(%rsp)
	movl	$771751936, %eax
	movq	%rax, 360(%rsp)
	movl	$11776, %eax
	movq	%rax, 376(%rsp)
	movq	%r13, 384(%rsp)
	movq	%r11, 400(%rsp)
	movl	$771751936, %eax
	movq	%rax, 416(%rsp)
	jmp	27f
24:
	movq	%r13, 24(%rsp)
	movq	%r11, 32(%rsp)
	movl	$771751936, %eax
	movq	%rax, 40(%rsp)
	movl	$11776, %eax
	movq	%rax, 48(%rsp)
	movq	%r13, 56(%rsp)
	movq	%r11, 72(%rsp)
	movl	$771751936, %eax
	movq	%rax, 88(%rsp)
	movl	$11776, %eax
	movq	%rax, 104(%rsp)
	movq	%r13, 112(%rsp)
	movq	%r11, 128(%rsp)
	movl	$771751936, %eax
	movq	%rax, 144(%rsp)
	movl	$11776, %eax
	movq	%rax, 160(%rsp)
	movb	$46, 7(%rsp)
	movb	$46, 6(%rsp)
	movb	$46, 5(%rsp)
	movb	$46, 4(%rsp)
	movb	$46, 3(%rsp)
	movb	$46, 2(%rsp)
	movb	$46, 1(%rsp)
	movq	%r13, 168(%rsp)
	movq	%r11, 184(%rsp)
	movl	$771751936, %r12d
	movq	%rax, 208(%rsp)
	movq	%r13, 216(%rsp)
	movq	%r11, 232(%rsp)
	movl	$771751936, %r15d
	movq	%rax, 256(%rsp)
	movq	%r13, 264(%rsp)
	movq	%r11, 280(%rsp)
	movl	$771751936, %eax
	movq	%rax, 296(%rsp)
	movl	$11776, %eax
	movq	%rax, 312(%rsp)
	movq	%r13, 320(%rsp)
	movq	%r11, 336(%rsp)
	movl	$771751936, %eax
	movq	%rax, 360(%rsp)
	movl	$11776, %eax
	movq	%rax, 376(%rsp)
	movq	%r13, 384(%rsp)
	movq	%r11, 400(%rsp)
	movl	$771751936, %eax
	movq	%rax, 416(%rsp)
	jmp	19b
25:
	movzbl	11(%rcx), %eax
	shll	$24, %eax
	movq	%rax, 416(%rsp)
	cmpq	$13, %r14
	jb	26f
	movzbl	12(%rcx), %eax
	shlq	$32, %rax
	movq	%rax, 408(%rsp)
	cmpq	$13, %r14
	jne	28f
	movq	%r13, 24(%rsp)
	movq	%r11, 32(%rsp)
	movl	$771751936, %eax
	movq	%rax, 40(%rsp)
	movl	$11776, %eax
	movq	%rax, 48(%rsp)
	movq	%r13, 56(%rsp)
	movq	%r11, 72(%rsp)
	movl	$771751936, %eax
	movq	%rax, 88(%rsp)
	movl	$11776, %eax
	movq	%rax, 104(%rsp)
	movq	%r13, 112(%rsp)
	movq	%r11, 128(%rsp)
	movl	$771751936, %eax
	movq	%rax, 144(%rsp)
	movl	$11776, %eax
	movq	%rax, 160(%rsp)
	movb	$46, 7(%rsp)
	movb	$46, 6(%rsp)
	movb	$46, 5(%rsp)
	movb	$46, 4(%rsp)
	movb	$46, 3(%rsp)
	movb	$46, 2(%rsp)
	movb	$46, 1(%rsp)
	movq	%r13, 168(%rsp)
	movq	%r11, 184(%rsp)
	movl	$771751936, %r12d
	movq	%rax, 208(%rsp)
	movq	%r13, 216(%rsp)
	movq	%r11, 232(%rsp)
	movl	$771751936, %r15d
	movq	%rax, 256(%rsp)
	movq	%r13, 264(%rsp)
	movq	%r11, 280(%rsp)
	movl	$771751936, %eax
	movq	%rax, 296(%rsp)
	movl	$11776, %eax
	movq	%rax, 312(%rsp)
	movq	%r13, 320(%rsp)
	movq	%r11, 336(%rsp)
	movl	$771751936, %eax
	movq	%rax, 360(%rsp)
	movl	$11776, %eax
	movq	%rax, 376(%rsp)
	movq	%r13, 384(%rsp)
	movq	%r11, 400(%rsp)
	jmp	30f
26:
	movq	%r13, 24(%rsp)
	movq	%r11, 32(%rsp)
	movl	$771751936, %eax
	movq	%rax, 40(%rsp)
	movl	$11776, %eax
	movq	%rax, 48(%rsp)
	movq	%r13, 56(%rsp)
	movq	%r11, 72(%rsp)
	movl	$771751936, %eax
	movq	%rax, 88(%rsp)
	movl	$11776, %eax
	movq	%rax, 104(%rsp)
	movq	%r13, 112(%rsp)
	movq	%r11, 128(%rsp)
	movl	$771751936, %eax
	movq	%rax, 144(%rsp)
	movl	$11776, %eax
	movq	%rax, 160(%rsp)
	movb	$46, 7(%rsp)
	movb	$46, 6(%rsp)
	movb	$46, 5(%rsp)
	movb	$46, 4(%rsp)
	movb	$46, 3(%rsp)
	movb	$46, 2(%rsp)
	movb	$46, 1(%rsp)
	movq	%r13, 168(%rsp)
	movq	%r11, 184(%rsp)
	movl	$771751936, %r12d
	movq	%rax, 208(%rsp)
	movq	%r13, 216(%rsp)
	movq	%r11, 232(%rsp)
	movl	$771751936, %r15d
	movq	%rax, 256(%rsp)
	movq	%r13, 264(%rsp)
	movq	%r11, 280(%rsp)
	movl	$771751936, %eax
	movq	%rax, 296(%rsp)
	movl	$11776, %eax
	movq	%rax, 312(%rsp)
	movq	%r13, 320(%rsp)
	movq	%r11, 336(%rsp)
	movl	$771751936, %eax
	movq	%rax, 360(%rsp)
	movl	$11776, %eax
	movq	%rax, 376(%rsp)
	movq	%r13, 384(%rsp)
	movq	%r11, 400(%rsp)
27:
	movabsq	$197568495616, %rcx
	movq	%rcx, 408(%rsp)
	movq	%rsi, 392(%rsp)
	movl	$3014656, %eax
	jmp	8b
28:
	movzbl	13(%rcx), %eax
	shlq	$40, %rax
	movq	%rax, 400(%rsp)
	cmpq	$15, %r14
	jb	29f
	movq	64(%rsp), %rax
	movzbl	14(%rax), %eax
	shlq	$48, %rax
	movq	%rax, 392(%rsp)
	movq	%r14, 8(%rsp)
	cmpq	$15, %r14
	jne	31f
	movq	%r13, 24(%rsp)
	movq	%r11, 32(%rsp)
	movl	$771751936, %eax
	movq	%rax, 40(%rsp)
	movl	$11776, %eax
	movq	%rax, 48(%rsp)
	movq	%r13, 56(%rsp)
	movq	%r11, 72(%rsp)
	movl	$771751936, %eax
	movq	%rax, 88(%rsp)
	movl	$11776, %eax
	movq	%rax, 104(%rsp)
	movq	%r13, 112(%rsp)
	movq	%r11, 128(%rsp)
	movl	$771751936, %eax
	movq	%rax, 144(%rsp)
	movl	$11776, %eax
	movq	%rax, 160(%rsp)
	movb	$46, 7(%rsp)
	movb	$46, 6(%rsp)
	movb	$46, 5(%rsp)
	movb	$46, 4(%rsp)
	movb	$46, 3(%rsp)
	movb	$46, 2(%rsp)
	movb	$46, 1(%rsp)
	movq	%r13, 168(%rsp)
	movq	%r11, 184(%rsp)
	movl	$771751936, %r12d
	movq	%rax, 208(%rsp)
	movq	%r13, 216(%rsp)
	movq	%r11, 232(%rsp)
	movl	$771751936, %r15d
	movq	%rax, 256(%rsp)
	movq	%r13, 264(%rsp)
	movq	%r11, 280(%rsp)
	movl	$771751936, %eax
	movq	%rax, 296(%rsp)
	movl	$11776, %eax
	movq	%rax, 312(%rsp)
	movq	%r13, 320(%rsp)
	movq	%r11, 336(%rsp)
	movl	$771751936, %eax
	movq	%rax, 360(%rsp)
	movl	$11776, %eax
	movq	%rax, 376(%rsp)
	movq	%r13, 384(%rsp)
	jmp	34f
29:
	movq	%r13, 24(%rsp)
	movq	%r11, 32(%rsp)
	movl	$771751936, %eax
	movq	%rax, 40(%rsp)
	movl	$11776, %eax
	movq	%rax, 48(%rsp)
	movq	%r13, 56(%rsp)
	movq	%r11, 72(%rsp)
	movl	$771751936, %eax
	movq	%rax, 88(%rsp)
	movl	$11776, %eax
	movq	%rax, 104(%rsp)
	movq	%r13, 112(%rsp)
	movq	%r11, 128(%rsp)
	movl	$771751936, %eax
	movq	%rax, 144(%rsp)
	movl	$11776, %eax
	movq	%rax, 160(%rsp)
	movb	$46, 7(%rsp)
	movb	$46, 6(%rsp)
	movb	$46, 5(%rsp)
	movb	$46, 4(%rsp)
	movb	$46, 3(%rsp)
	movb	$46, 2(%rsp)
	movb	$46, 1(%rsp)
	movq	%r13, 168(%rsp)
	movq	%r11, 184(%rsp)
	movl	$771751936, %r12d
	movq	%rax, 208(%rsp)
	movq	%r13, 216(%rsp)
	movq	%r11, 232(%rsp)
	movl	$771751936, %r15d
	movq	%rax, 256(%rsp)
	movq	%r13, 264(%rsp)
	movq	%r11, 280(%rsp)
	movl	$771751936, %eax
	movq	%rax, 296(%rsp)
	movl	$11776, %eax
	movq	%rax, 312(%rsp)
	movq	%r13, 320(%rsp)
	movq	%r11, 336(%rsp)
	movl	$771751936, %eax
	movq	%rax, 360(%rsp)
	movl	$11776, %eax
	movq	%rax, 376(%rsp)
	movq	%r13, 384(%rsp)
30:
	movq	%rsi, 392(%rsp)
	movl	$3014656, %eax
	movq	%rax, 368(%rsp)
	movabsq	$197568495616, %rcx
	jmp	9b
31:
	movq	64(%rsp), %rax
	movzbl	15(%rax), %eax
	shlq	$56, %rax
	movq	%rax, 384(%rsp)
	cmpq	$17, 8(%rsp)
	jb	32f
	movq	64(%rsp), %rax
	movzbl	16(%rax), %eax
	movb	%al, 7(%rsp)
	jne	50f
	movq	%r13, 24(%rsp)
	movq	%r11, 32(%rsp)
	movl	$771751936, %eax
	movq	%rax, 40(%rsp)
	movl	$11776, %eax
	movq	%rax, 48(%rsp)
	movq	%r13, 56(%rsp)
	movq	%r11, 72(%rsp)
	movl	$771751936, %eax
	movq	%rax, 88(%rsp)
	movl	$11776, %eax
	movq	%rax, 104(%rsp)
	movq	%r13, 112(%rsp)
	movq	%r11, 128(%rsp)
	movl	$771751936, %eax
	movq	%rax, 144(%rsp)
	movl	$11776, %eax
	movq	%rax, 160(%rsp)
	jmp	33f
32:
	movq	%r13, 24(%rsp)
	movq	%r11, 32(%rsp)
	movl	$771751936, %eax
	movq	%rax, 40(%rsp)
	movl	$11776, %eax
	movq	%rax, 48(%rsp)
	movq	%r13, 56(%rsp)
	movq	%r11, 72(%rsp)
	movl	$771751936, %eax
	movq	%rax, 88(%rsp)
	movl	$11776, %eax
	movq	%rax, 104(%rsp)
	movq	%r13, 112(%rsp)
	movq	%r11, 128(%rsp)
	movl	$771751936, %eax
	movq	%rax, 144(%rsp)
	movl	$11776, %eax
	movq	%rax, 160(%rsp)
	movb	$46, 7(%rsp)
33:
	movb	$46, 6(%rsp)
	movb	$46, 5(%rsp)
	movb	$46, 4(%rsp)
	movb	$46, 3(%rsp)
	movb	$46, 2(%rsp)
	movb	$46, 1(%rsp)
	movq	%r13, 168(%rsp)
	movq	%r11, 184(%rsp)
	movl	$771751936, %r12d
	movq	%rax, 208(%rsp)
	movq	%r13, 216(%rsp)
	movq	%r11, 232(%rsp)
	movl	$771751936, %r15d
	movq	%rax, 256(%rsp)
	movq	%r13, 264(%rsp)
	movq	%r11, 280(%rsp)
	movl	$771751936, %eax
	movq	%rax, 296(%rsp)
	movl	$11776, %eax
	movq	%rax, 312(%rsp)
	movq	%r13, 320(%rsp)
	movq	%r11, 336(%rsp)
	movl	$771751936, %eax
	movq	%rax, 360(%rsp)
	movl	$11776, %eax
	movq	%rax, 376(%rsp)
34:
	movl	$3014656, %eax
	movq	%rax, 368(%rsp)
	movabsq	$197568495616, %rcx
	movq	%rcx, 352(%rsp)
	movq	%rsi, 328(%rsp)
35:
	movq	%rax, 304(%rsp)
36:
	movq	%rcx, 288(%rsp)
	movq	%rsi, 272(%rsp)
37:
	movq	%rax, 248(%rsp)
38:
	movq	%rcx, 240(%rsp)
	movq	%rsi, 224(%rsp)
39:
	movq	%rax, 200(%rsp)
40:
	movq	%rcx, 192(%rsp)
	movq	%rsi, 176(%rsp)
41:
	movq	%rax, 152(%rsp)
42:
	movq	%rcx, 136(%rsp)
43:
	movq	%rsi, 120(%rsp)
44:
	movq	%rax, 96(%rsp)
45:
	movq	%rcx, 80(%rsp)
46:
	movq	%rsi, %rdi
47:
	movl	$3014656, %r9d
48:
	movq	%rcx, %rdx
	movq	%rsi, %r10
49:
	movq	8(%rsp), %r14
	cmpq	$78, %r14
	jae	10b
	jmp	2b
50:
	movq	64(%rsp), %rax
	movzbl	17(%rax), %eax
	shll	$8, %eax
	movq	%rax, 376(%rsp)
	cmpq	$19, 8(%rsp)
	jb	51f
	movq	64(%rsp), %rax
	movzbl	18(%rax), %eax
	shll	$16, %eax
	movq	%rax, 368(%rsp)
	cmpq	$19, 8(%rsp)
	jne	52f
	movq	%r13, 24(%rsp)
	movq	%r11, 32(%rsp)
	movl	$771751936, %eax
	movq	%rax, 40(%rsp)
	movl	$11776, %eax
	movq	%rax, 48(%rsp)
	movq	%r13, 56(%rsp)
	movq	%r11, 72(%rsp)
	movl	$771751936, %eax
	movq	%rax, 88(%rsp)
	movl	$11776, %eax
	movq	%rax, 104(%rsp)
	movq	%r13, 112(%rsp)
	movq	%r11, 128(%rsp)
	movl	$771751936, %eax
	movq	%rax, 144(%rsp)
	movl	$11776, %eax
	movq	%rax, 160(%rsp)
	movb	$46, 6(%rsp)
	movb	$46, 5(%rsp)
	movb	$46, 4(%rsp)
	movb	$46, 3(%rsp)
	movb	$46, 2(%rsp)
	movb	$46, 1(%rsp)
	movq	%r13, 168(%rsp)
	movq	%r11, 184(%rsp)
	movl	$771751936, %r12d
	movq	%rax, 208(%rsp)
	movq	%r13, 216(%rsp)
	movq	%r11, 232(%rsp)
	movl	$771751936, %r15d
	movq	%rax, 256(%rsp)
	movq	%r13, 264(%rsp)
	movq	%r11, 280(%rsp)
	movl	$771751936, %eax
	movq	%rax, 296(%rsp)
	movl	$11776, %eax
	movq	%rax, 312(%rsp)
	movq	%r13, 320(%rsp)
	movq	%r11, 336(%rsp)
	movl	$771751936, %eax
	movq	%rax, 360(%rsp)
	jmp	54f
51:
	movq	%r13, 24(%rsp)
	movq	%r11, 32(%rsp)
	movl	$771751936, %eax
	movq	%rax, 40(%rsp)
	movl	$11776, %eax
	movq	%rax, 48(%rsp)
	movq	%r13, 56(%rsp)
	movq	%r11, 72(%rsp)
	movl	$771751936, %eax
	movq	%rax, 88(%rsp)
	movl	$11776, %eax
	movq	%rax, 104(%rsp)
	movq	%r13, 112(%rsp)
	movq	%r11, 128(%rsp)
	movl	$771751936, %eax
	movq	%rax, 144(%rsp)
	movl	$11776, %eax
	movq	%rax, 160(%rsp)
	movb	$46, 6(%rsp)
	movb	$46, 5(%rsp)
	movb	$46, 4(%rsp)
	movb	$46, 3(%rsp)
	movb	$46, 2(%rsp)
	movb	$46, 1(%rsp)
	movq	%r13, 168(%rsp)
	movq	%r11, 184(%rsp)
	movl	$771751936, %r12d
	movq	%rax, 208(%rsp)
	movq	%r13, 216(%rsp)
	movq	%r11, 232(%rsp)
	movl	$771751936, %r15d
	movq	%rax, 256(%rsp)
	movq	%r13, 264(%rsp)
	movq	%r11, 280(%rsp)
	movl	$771751936, %eax
	movq	%rax, 296(%rsp)
	movl	$11776, %eax
	movq	%rax, 312(%rsp)
	movq	%r13, 320(%rsp)
	movq	%r11, 336(%rsp)
	movl	$771751936, %eax
	movq	%rax, 360(%rsp)
	jmp	34b
52:
	movq	64(%rsp), %rax
	movzbl	19(%rax), %eax
	shll	$24, %eax
	movq	%rax, 360(%rsp)
	cmpq	$21, 8(%rsp)
	jb	53f
	movq	64(%rsp), %rax
	movzbl	20(%rax), %eax
	shlq	$32, %rax
	movq	%rax, 352(%rsp)
	cmpq	$21, 8(%rsp)
	jne	55f
	movq	%r13, 24(%rsp)
	movq	%r11, 32(%rsp)
	movl	$771751936, %eax
	movq	%rax, 40(%rsp)
	movl	$11776, %eax
	movq	%rax, 48(%rsp)
	movq	%r13, 56(%rsp)
	movq	%r11, 72(%rsp)
	movl	$771751936, %eax
	movq	%rax, 88(%rsp)
	movl	$11776, %eax
	movq	%rax, 104(%rsp)
	movq	%r13, 112(%rsp)
	movq	%r11, 128(%rsp)
	movl	$771751936, %eax
	movq	%rax, 144(%rsp)
	movl	$11776, %eax
	movq	%rax, 160(%rsp)
	movb	$46, 6(%rsp)
	movb	$46, 5(%rsp)
	movb	$46, 4(%rsp)
	movb	$46, 3(%rsp)
	movb	$46, 2(%rsp)
	movb	$46, 1(%rsp)
	movq	%r13, 168(%rsp)
	movq	%r11, 184(%rsp)
	movl	$771751936, %r12d
	movq	%rax, 208(%rsp)
	movq	%r13, 216(%rsp)
	movq	%r11, 232(%rsp)
	movl	$771751936, %r15d
	movq	%rax, 256(%rsp)
	movq	%r13, 264(%rsp)
	movq	%r11, 280(%rsp)
	movl	$771751936, %eax
	movq	%rax, 296(%rsp)
	movl	$11776, %eax
	movq	%rax, 312(%rsp)
	movq	%r13, 320(%rsp)
	movq	%r11, 336(%rsp)
	jmp	57f
53:
	movq	%r13, 24(%rsp)
	movq	%r11, 32(%rsp)
	movl	$771751936, %eax
	movq	%rax, 40(%rsp)
	movl	$11776, %eax
	movq	%rax, 48(%rsp)
	movq	%r13, 56(%rsp)
	movq	%r11, 72(%rsp)
	movl	$771751936, %eax
	movq	%rax, 88(%rsp)
	movl	$11776, %eax
	movq	%rax, 104(%rsp)
	movq	%r13, 112(%rsp)
	movq	%r11, 128(%rsp)
	movl	$771751936, %eax
	movq	%rax, 144(%rsp)
	movl	$11776, %eax
	movq	%rax, 160(%rsp)
	movb	$46, 6(%rsp)
	movb	$46, 5(%rsp)
	movb	$46, 4(%rsp)
	movb	$46, 3(%rsp)
	movb	$46, 2(%rsp)
	movb	$46, 1(%rsp)
	movq	%r13, 168(%rsp)
	movq	%r11, 184(%rsp)
	movl	$771751936, %r12d
	movq	%rax, 208(%rsp)
	movq	%r13, 216(%rsp)
	movq	%r11, 232(%rsp)
	movl	$771751936, %r15d
	movq	%rax, 256(%rsp)
	movq	%r13, 264(%rsp)
	movq	%r11, 280(%rsp)
	movl	$771751936, %eax
	movq	%rax, 296(%rsp)
	movl	$11776, %eax
	movq	%rax, 312(%rsp)
	movq	%r13, 320(%rsp)
	movq	%r11, 336(%rsp)
54:
	movabsq	$197568495616, %rcx
	movq	%rcx, 352(%rsp)
	movq	%rsi, 328(%rsp)
	movl	$3014656, %eax
	jmp	35b
55:
	movq	64(%rsp), %rax
	movzbl	21(%rax), %eax
	shlq	$40, %rax
	movq	%rax, 336(%rsp)
	cmpq	$23, 8(%rsp)
	jb	56f
	movq	64(%rsp), %rax
	movzbl	22(%rax), %eax
	shlq	$48, %rax
	movq	%rax, 328(%rsp)
	cmpq	$23, 8(%rsp)
	jne	59f
	movq	%r13, 24(%rsp)
	movq	%r11, 32(%rsp)
	movl	$771751936, %eax
	movq	%rax, 40(%rsp)
	movl	$11776, %eax
	movq	%rax, 48(%rsp)
	movq	%r13, 56(%rsp)
	movq	%r11, 72(%rsp)
	movl	$771751936, %eax
	movq	%rax, 88(%rsp)
	movl	$11776, %eax
	movq	%rax, 104(%rsp)
	movq	%r13, 112(%rsp)
	movq	%r11, 128(%rsp)
	movl	$771751936, %eax
	movq	%rax, 144(%rsp)
	movl	$11776, %eax
	movq	%rax, 160(%rsp)
	movb	$46, 6(%rsp)
	movb	$46, 5(%rsp)
	movb	$46, 4(%rsp)
	movb	$46, 3(%rsp)
	movb	$46, 2(%rsp)
	movb	$46, 1(%rsp)
	movq	%r13, 168(%rsp)
	movq	%r11, 184(%rsp)
	movl	$771751936, %r12d
	movq	%rax, 208(%rsp)
	movq	%r13, 216(%rsp)
	movq	%r11, 232(%rsp)
	movl	$771751936, %r15d
	movq	%rax, 256(%rsp)
	movq	%r13, 264(%rsp)
	movq	%r11, 280(%rsp)
	movl	$771751936, %eax
	movq	%rax, 296(%rsp)
	movl	$11776, %eax
	movq	%rax, 312(%rsp)
	movq	%r13, 320(%rsp)
	jmp	58f
56:
	movq	%r13, 24(%rsp)
	movq	%r11, 32(%rsp)
	movl	$771751936, %eax
	movq	%rax, 40(%rsp)
	movl	$11776, %eax
	movq	%rax, 48(%rsp)
	movq	%r13, 56(%rsp)
	movq	%r11, 72(%rsp)
	movl	$771751936, %eax
	movq	%rax, 88(%rsp)
	movl	$11776, %eax
	movq	%rax, 104(%rsp)
	movq	%r13, 112(%rsp)
	movq	%r11, 128(%rsp)
	movl	$771751936, %eax
	movq	%rax, 144(%rsp)
	movl	$11776, %eax
	movq	%rax, 160(%rsp)
	movb	$46, 6(%rsp)
	movb	$46, 5(%rsp)
	movb	$46, 4(%rsp)
	movb	$46, 3(%rsp)
	movb	$46, 2(%rsp)
	movb	$46, 1(%rsp)
	movq	%r13, 168(%rsp)
	movq	%r11, 184(%rsp)
	movl	$771751936, %r12d
	movq	%rax, 208(%rsp)
	movq	%r13, 216(%rsp)
	movq	%r11, 232(%rsp)
	movl	$771751936, %r15d
	movq	%rax, 256(%rsp)
	movq	%r13, 264(%rsp)
	movq	%r11, 280(%rsp)
	movl	$771751936, %eax
	movq	%rax, 296(%rsp)
	movl	$11776, %eax
	movq	%rax, 312(%rsp)
	movq	%r13, 320(%rsp)
57:
	movq	%rsi, 328(%rsp)
58:
	movl	$3014656, %eax
	movq	%rax, 304(%rsp)
	movabsq	$197568495616, %rcx
	jmp	36b
59:
	movq	64(%rsp), %rax
	movzbl	23(%rax), %eax
	shlq	$56, %rax
	movq	%rax, 320(%rsp)
	cmpq	$25, 8(%rsp)
	jb	60f
	movq	64(%rsp), %rax
	movzbl	24(%rax), %eax
	movb	%al, 6(%rsp)
	jne	62f
	movq	%r13, 24(%rsp)
	movq	%r11, 32(%rsp)
	movl	$771751936, %eax
	movq	%rax, 40(%rsp)
	movl	$11776, %eax
	movq	%rax, 48(%rsp)
	movq	%r13, 56(%rsp)
	movq	%r11, 72(%rsp)
	movl	$771751936, %eax
	movq	%rax, 88(%rsp)
	movl	$11776, %eax
	movq	%rax, 104(%rsp)
	movq	%r13, 112(%rsp)
	movq	%r11, 128(%rsp)
	movl	$771751936, %eax
	movq	%rax, 144(%rsp)
	movl	$11776, %eax
	movq	%rax, 160(%rsp)
	movq	%r13, 168(%rsp)
	movb	$46, 5(%rsp)
	movb	$46, 4(%rsp)
	movb	$46, 3(%rsp)
	movb	$46, 2(%rsp)
	movb	$46, 1(%rsp)
	jmp	61f
60:
	movq	%r13, 24(%rsp)
	movq	%r11, 32(%rsp)
	movl	$771751936, %eax
	movq	%rax, 40(%rsp)
	movl	$11776, %eax
	movq	%rax, 48(%rsp)
	movq	%r13, 56(%rsp)
	movq	%r11, 72(%rsp)
	movl	$771751936, %eax
	movq	%rax, 88(%rsp)
	movl	$11776, %eax
	movq	%rax, 104(%rsp)
	movq	%r13, 112(%rsp)
	movq	%r11, 128(%rsp)
	movl	$771751936, %eax
	movq	%rax, 144(%rsp)
	movl	$11776, %eax
	movq	%rax, 160(%rsp)
	movb	$46, 6(%rsp)
	movb	$46, 5(%rsp)
	movb	$46, 4(%rsp)
	movb	$46, 3(%rsp)
	movb	$46, 2(%rsp)
	movb	$46, 1(%rsp)
	movq	%r13, 168(%rsp)
61:
	movq	%r11, 184(%rsp)
	movl	$771751936, %r12d
	movq	%rax, 208(%rsp)
	movq	%r13, 216(%rsp)
	movq	%r11, 232(%rsp)
	movl	$771751936, %r15d
	movq	%rax, 256(%rsp)
	movq	%r13, 264(%rsp)
	movq	%r11, 280(%rsp)
	movl	$771751936, %eax
	movq	%rax, 296(%rsp)
	movl	$11776, %eax
	movq	%rax, 312(%rsp)
	jmp	58b
62:
	movq	64(%rsp), %rax
	movzbl	25(%rax), %eax
	shll	$8, %eax
	movq	%rax, 312(%rsp)
	cmpq	$27, 8(%rsp)
	jb	63f
	movq	64(%rsp), %rax
	movzbl	26(%rax), %eax
	shll	$16, %eax
	movq	%rax, 304(%rsp)
	cmpq	$27, 8(%rsp)
	jne	64f
	movq	%r13, 24(%rsp)
	movq	%r11, 32(%rsp)
	movl	$771751936, %eax
	movq	%rax, 40(%rsp)
	movl	$11776, %eax
	movq	%rax, 48(%rsp)
	movq	%r13, 56(%rsp)
	movq	%r11, 72(%rsp)
	movl	$771751936, %eax
	movq	%rax, 88(%rsp)
	movl	$11776, %eax
	movq	%rax, 104(%rsp)
	movq	%r13, 112(%rsp)
	movq	%r11, 128(%rsp)
	movl	$771751936, %eax
	movq	%rax, 144(%rsp)
	movl	$11776, %eax
	movq	%rax, 160(%rsp)
	movq	%r13, 168(%rsp)
	movb	$46, 5(%rsp)
	movb	$46, 4(%rsp)
	movb	$46, 3(%rsp)
	movb	$46, 2(%rsp)
	movb	$46, 1(%rsp)
	movq	%r11, 184(%rsp)
	movl	$771751936, %r12d
	movq	%rax, 208(%rsp)
	movq	%r13, 216(%rsp)
	movq	%r11, 232(%rsp)
	movl	$771751936, %r15d
	movq	%rax, 256(%rsp)
	movq	%r13, 264(%rsp)
	movq	%r11, 280(%rsp)
	movl	$771751936, %eax
	movq	%rax, 296(%rsp)
	jmp	66f
63:
	movq	%r13, 24(%rsp)
	movq	%r11, 32(%rsp)
	movl	$771751936, %eax
	movq	%rax, 40(%rsp)
	movl	$11776, %eax
	movq	%rax, 48(%rsp)
	movq	%r13, 56(%rsp)
	movq	%r11, 72(%rsp)
	movl	$771751936, %eax
	movq	%rax, 88(%rsp)
	movl	$11776, %eax
	movq	%rax, 104(%rsp)
	movq	%r13, 112(%rsp)
	movq	%r11, 128(%rsp)
	movl	$771751936, %eax
	movq	%rax, 144(%rsp)
	movl	$11776, %eax
	movq	%rax, 160(%rsp)
	movq	%r13, 168(%rsp)
	movb	$46, 5(%rsp)
	movb	$46, 4(%rsp)
	movb	$46, 3(%rsp)
	movb	$46, 2(%rsp)
	movb	$46, 1(%rsp)
	movq	%r11, 184(%rsp)
	movl	$771751936, %r12d
	movq	%rax, 208(%rsp)
	movq	%r13, 216(%rsp)
	movq	%r11, 232(%rsp)
	movl	$771751936, %r15d
	movq	%rax, 256(%rsp)
	movq	%r13, 264(%rsp)
	movq	%r11, 280(%rsp)
	movl	$771751936, %eax
	movq	%rax, 296(%rsp)
	jmp	58b
64:
	movq	64(%rsp), %rax
	movzbl	27(%rax), %eax
	shll	$24, %eax
	movq	%rax, 296(%rsp)
	cmpq	$29, 8(%rsp)
	jb	65f
	movq	64(%rsp), %rax
	movzbl	28(%rax), %eax
	shlq	$32, %rax
	movq	%rax, 288(%rsp)
	cmpq	$29, 8(%rsp)
	jne	67f
	movq	%r13, 24(%rsp)
	movq	%r11, 32(%rsp)
	movl	$771751936, %eax
	movq	%rax, 40(%rsp)
	movl	$11776, %eax
	movq	%rax, 48(%rsp)
	movq	%r13, 56(%rsp)
	movq	%r11, 72(%rsp)
	movl	$771751936, %eax
	movq	%rax, 88(%rsp)
	movl	$11776, %eax
	movq	%rax, 104(%rsp)
	movq	%r13, 112(%rsp)
	movq	%r11, 128(%rsp)
	movl	$771751936, %eax
	movq	%rax, 144(%rsp)
	movl	$11776, %eax
	movq	%rax, 160(%rsp)
	movq	%r13, 168(%rsp)
	movb	$46, 5(%rsp)
	movb	$46, 4(%rsp)
	movb	$46, 3(%rsp)
	movb	$46, 2(%rsp)
	movb	$46, 1(%rsp)
	movq	%r11, 184(%rsp)
	movl	$771751936, %r12d
	movq	%rax, 208(%rsp)
	movq	%r13, 216(%rsp)
	movq	%r11, 232(%rsp)
	movl	$771751936, %r15d
	movq	%rax, 256(%rsp)
	movq	%r13, 264(%rsp)
	movq	%r11, 280(%rsp)
	jmp	69f
65:
	movq	%r13, 24(%rsp)
	movq	%r11, 32(%rsp)
	movl	$771751936, %eax
	movq	%rax, 40(%rsp)
	movl	$11776, %eax
	movq	%rax, 48(%rsp)
	movq	%r13, 56(%rsp)
	movq	%r11, 72(%rsp)
	movl	$771751936, %eax
	movq	%rax, 88(%rsp)
	movl	$11776, %eax
	movq	%rax, 104(%rsp)
	movq	%r13, 112(%rsp)
	movq	%r11, 128(%rsp)
	movl	$771751936, %eax
	movq	%rax, 144(%rsp)
	movl	$11776, %eax
	movq	%rax, 160(%rsp)
	movq	%r13, 168(%rsp)
	movb	$46, 5(%rsp)
	movb	$46, 4(%rsp)
	movb	$46, 3(%rsp)
	movb	$46, 2(%rsp)
	movb	$46, 1(%rsp)
	movq	%r11, 184(%rsp)
	movl	$771751936, %r12d
	movq	%rax, 208(%rsp)
	movq	%r13, 216(%rsp)
	movq	%r11, 232(%rsp)
	movl	$771751936, %r15d
	movq	%rax, 256(%rsp)
	movq	%r13, 264(%rsp)
	movq	%r11, 280(%rsp)
66:
	movabsq	$197568495616, %rcx
	movq	%rcx, 288(%rsp)
	movq	%rsi, 272(%rsp)
	movl	$3014656, %eax
	jmp	37b
67:
	movq	64(%rsp), %rax
	movzbl	29(%rax), %eax
	shlq	$40, %rax
	movq	%rax, 280(%rsp)
	cmpq	$31, 8(%rsp)
	jb	68f
	movq	64(%rsp), %rax
	movzbl	30(%rax), %eax
	shlq	$48, %rax
	movq	%rax, 272(%rsp)
	cmpq	$31, 8(%rsp)
	jne	71f
	movq	%r13, 24(%rsp)
	movq	%r11, 32(%rsp)
	movl	$771751936, %eax
	movq	%rax, 40(%rsp)
	movl	$11776, %eax
	movq	%rax, 48(%rsp)
	movq	%r13, 56(%rsp)
	movq	%r11, 72(%rsp)
	movl	$771751936, %eax
	movq	%rax, 88(%rsp)
	movl	$11776, %eax
	movq	%rax, 104(%rsp)
	movq	%r13, 112(%rsp)
	movq	%r11, 128(%rsp)
	movl	$771751936, %eax
	movq	%rax, 144(%rsp)
	movl	$11776, %eax
	movq	%rax, 160(%rsp)
	movq	%r13, 168(%rsp)
	movb	$46, 5(%rsp)
	movb	$46, 4(%rsp)
	movb	$46, 3(%rsp)
	movb	$46, 2(%rsp)
	movb	$46, 1(%rsp)
	movq	%r11, 184(%rsp)
	movl	$771751936, %r12d
	movq	%rax, 208(%rsp)
	movq	%r13, 216(%rsp)
	movq	%r11, 232(%rsp)
	movl	$771751936, %r15d
	movq	%rax, 256(%rsp)
	movq	%r13, 264(%rsp)
	jmp	70f
68:
	movq	%r13, 24(%rsp)
	movq	%r11, 32(%rsp)
	movl	$771751936, %eax
	movq	%rax, 40(%rsp)
	movl	$11776, %eax
	movq	%rax, 48(%rsp)
	movq	%r13, 56(%rsp)
	movq	%r11, 72(%rsp)
	movl	$771751936, %eax
	movq	%rax, 88(%rsp)
	movl	$11776, %eax
	movq	%rax, 104(%rsp)
	movq	%r13, 112(%rsp)
	movq	%r11, 128(%rsp)
	movl	$771751936, %eax
	movq	%rax, 144(%rsp)
	movl	$11776, %eax
	movq	%rax, 160(%rsp)
	movq	%r13, 168(%rsp)
	movb	$46, 5(%rsp)
	movb	$46, 4(%rsp)
	movb	$46, 3(%rsp)
	movb	$46, 2(%rsp)
	movb	$46, 1(%rsp)
	movq	%r11, 184(%rsp)
	movl	$771751936, %r12d
	movq	%rax, 208(%rsp)
	movq	%r13, 216(%rsp)
	movq	%r11, 232(%rsp)
	movl	$771751936, %r15d
	movq	%rax, 256(%rsp)
	movq	%r13, 264(%rsp)
69:
	movq	%rsi, 272(%rsp)
70:
	movl	$3014656, %eax
	movq	%rax, 248(%rsp)
	movabsq	$197568495616, %rcx
	jmp	38b
71:
	movq	64(%rsp), %rax
	movzbl	31(%rax), %eax
	shlq	$56, %rax
	movq	%rax, 264(%rsp)
	cmpq	$33, 8(%rsp)
	jb	72f
	movq	64(%rsp), %rax
	movzbl	32(%rax), %eax
	movb	%al, 5(%rsp)
	jne	74f
	movq	%r13, 24(%rsp)
	movq	%r11, 32(%rsp)
	movl	$771751936, %eax
	movq	%rax, 40(%rsp)
	movl	$11776, %eax
	movq	%rax, 48(%rsp)
	movq	%r13, 56(%rsp)
	movq	%r11, 72(%rsp)
	movl	$771751936, %eax
	movq	%rax, 88(%rsp)
	movl	$11776, %eax
	movq	%rax, 104(%rsp)
	movq	%r13, 112(%rsp)
	movq	%r11, 128(%rsp)
	movl	$771751936, %eax
	movq	%rax, 144(%rsp)
	movl	$11776, %eax
	movq	%rax, 160(%rsp)
	movq	%r13, 168(%rsp)
	jmp	73f
72:
	movq	%r13, 24(%rsp)
	movq	%r11, 32(%rsp)
	movl	$771751936, %eax
	movq	%rax, 40(%rsp)
	movl	$11776, %eax
	movq	%rax, 48(%rsp)
	movq	%r13, 56(%rsp)
	movq	%r11, 72(%rsp)
	movl	$771751936, %eax
	movq	%rax, 88(%rsp)
	movl	$11776, %eax
	movq	%rax, 104(%rsp)
	movq	%r13, 112(%rsp)
	movq	%r11, 128(%rsp)
	movl	$771751936, %eax
	movq	%rax, 144(%rsp)
	movl	$11776, %eax
	movq	%rax, 160(%rsp)
	movq	%r13, 168(%rsp)
	movb	$46, 5(%rsp)
73:
	movb	$46, 4(%rsp)
	movb	$46, 3(%rsp)
	movb	$46, 2(%rsp)
	movb	$46, 1(%rsp)
	movq	%r11, 184(%rsp)
	movl	$771751936, %r12d
	movq	%rax, 208(%rsp)
	movq	%r13, 216(%rsp)
	movq	%r11, 232(%rsp)
	movl	$771751936, %r15d
	movq	%rax, 256(%rsp)
	jmp	70b
74:
	movq	64(%rsp), %rax
	movzbl	33(%rax), %eax
	shll	$8, %eax
	movq	%rax, 256(%rsp)
	cmpq	$35, 8(%rsp)
	jb	75f
	movq	64(%rsp), %rax
	movzbl	34(%rax), %eax
	shll	$16, %eax
	movq	%rax, 248(%rsp)
	cmpq	$35, 8(%rsp)
	jne	76f
	movq	%r13, 24(%rsp)
	movq	%r11, 32(%rsp)
	movl	$771751936, %eax
	movq	%rax, 40(%rsp)
	movl	$11776, %eax
	movq	%rax, 48(%rsp)
	movq	%r13, 56(%rsp)
	movq	%r11, 72(%rsp)
	movl	$771751936, %eax
	movq	%rax, 88(%rsp)
	movl	$11776, %eax
	movq	%rax, 104(%rsp)
	movq	%r13, 112(%rsp)
	movq	%r11, 128(%rsp)
	movl	$771751936, %eax
	movq	%rax, 144(%rsp)
	movl	$11776, %eax
	movq	%rax, 160(%rsp)
	movq	%r13, 168(%rsp)
	movb	$46, 4(%rsp)
	movb	$46, 3(%rsp)
	movb	$46, 2(%rsp)
	movb	$46, 1(%rsp)
	movq	%r11, 184(%rsp)
	movl	$771751936, %r12d
	movq	%rax, 208(%rsp)
	movq	%r13, 216(%rsp)
	movq	%r11, 232(%rsp)
	movl	$771751936, %r15d
	jmp	78f
75:
	movq	%r13, 24(%rsp)
	movq	%r11, 32(%rsp)
	movl	$771751936, %eax
	movq	%rax, 40(%rsp)
	movl	$11776, %eax
	movq	%rax, 48(%rsp)
	movq	%r13, 56(%rsp)
	movq	%r11, 72(%rsp)
	movl	$771751936, %eax
	movq	%rax, 88(%rsp)
	movl	$11776, %eax
	movq	%rax, 104(%rsp)
	movq	%r13, 112(%rsp)
	movq	%r11, 128(%rsp)
	movl	$771751936, %eax
	movq	%rax, 144(%rsp)
	movl	$11776, %eax
	movq	%rax, 160(%rsp)
	movq	%r13, 168(%rsp)
	movb	$46, 4(%rsp)
	movb	$46, 3(%rsp)
	movb	$46, 2(%rsp)
	movb	$46, 1(%rsp)
	movq	%r11, 184(%rsp)
	movl	$771751936, %r12d
	movq	%rax, 208(%rsp)
	movq	%r13, 216(%rsp)
	movq	%r11, 232(%rsp)
	movl	$771751936, %r15d
	jmp	70b
76:
	movq	64(%rsp), %rax
	movzbl	35(%rax), %r15d
	shll	$24, %r15d
	cmpq	$37, 8(%rsp)
	jb	77f
	movq	64(%rsp), %rax
	movzbl	36(%rax), %eax
	shlq	$32, %rax
	movq	%rax, 240(%rsp)
	cmpq	$37, 8(%rsp)
	jne	79f
	movq	%r13, 24(%rsp)
	movq	%r11, 32(%rsp)
	movl	$771751936, %eax
	movq	%rax, 40(%rsp)
	movl	$11776, %eax
	movq	%rax, 48(%rsp)
	movq	%r13, 56(%rsp)
	movq	%r11, 72(%rsp)
	movl	$771751936, %eax
	movq	%rax, 88(%rsp)
	movl	$11776, %eax
	movq	%rax, 104(%rsp)
	movq	%r13, 112(%rsp)
	movq	%r11, 128(%rsp)
	movl	$771751936, %eax
	movq	%rax, 144(%rsp)
	movl	$11776, %eax
	movq	%rax, 160(%rsp)
	movq	%r13, 168(%rsp)
	movb	$46, 4(%rsp)
	movb	$46, 3(%rsp)
	movb	$46, 2(%rsp)
	movb	$46, 1(%rsp)
	movq	%r11, 184(%rsp)
	movl	$771751936, %r12d
	movq	%rax, 208(%rsp)
	movq	%r13, 216(%rsp)
	movq	%r11, 232(%rsp)
	jmp	81f
77:
	movq	%r13, 24(%rsp)
	movq	%r11, 32(%rsp)
	movl	$771751936, %eax
	movq	%rax, 40(%rsp)
	movl	$11776, %eax
	movq	%rax, 48(%rsp)
	movq	%r13, 56(%rsp)
	movq	%r11, 72(%rsp)
	movl	$771751936, %eax
	movq	%rax, 88(%rsp)
	movl	$11776, %eax
	movq	%rax, 104(%rsp)
	movq	%r13, 112(%rsp)
	movq	%r11, 128(%rsp)
	movl	$771751936, %eax
	movq	%rax, 144(%rsp)
	movl	$11776, %eax
	movq	%rax, 160(%rsp)
	movq	%r13, 168(%rsp)
	movb	$46, 4(%rsp)
	movb	$46, 3(%rsp)
	movb	$46, 2(%rsp)
	movb	$46, 1(%rsp)
	movq	%r11, 184(%rsp)
	movl	$771751936, %r12d
	movq	%rax, 208(%rsp)
	movq	%r13, 216(%rsp)
	movq	%r11, 232(%rsp)
78:
	movabsq	$197568495616, %rcx
	movq	%rcx, 240(%rsp)
	movq	%rsi, 224(%rsp)
	movl	$3014656, %eax
	jmp	39b
79:
	movq	64(%rsp), %rax
	movzbl	37(%rax), %eax
	shlq	$40, %rax
	movq	%rax, 232(%rsp)
	cmpq	$39, 8(%rsp)
	jb	80f
	movq	64(%rsp), %rax
	movzbl	38(%rax), %eax
	shlq	$48, %rax
	movq	%rax, 224(%rsp)
	cmpq	$39, 8(%rsp)
	jne	83f
	movq	%r13, 24(%rsp)
	movq	%r11, 32(%rsp)
	movl	$771751936, %eax
	movq	%rax, 40(%rsp)
	movl	$11776, %eax
	movq	%rax, 48(%rsp)
	movq	%r13, 56(%rsp)
	movq	%r11, 72(%rsp)
	movl	$771751936, %eax
	movq	%rax, 88(%rsp)
	movl	$11776, %eax
	movq	%rax, 104(%rsp)
	movq	%r13, 112(%rsp)
	movq	%r11, 128(%rsp)
	movl	$771751936, %eax
	movq	%rax, 144(%rsp)
	movl	$11776, %eax
	movq	%rax, 160(%rsp)
	movq	%r13, 168(%rsp)
	movb	$46, 4(%rsp)
	movb	$46, 3(%rsp)
	movb	$46, 2(%rsp)
	movb	$46, 1(%rsp)
	movq	%r11, 184(%rsp)
	movl	$771751936, %r12d
	movq	%rax, 208(%rsp)
	movq	%r13, 216(%rsp)
	jmp	82f
80:
	movq	%r13, 24(%rsp)
	movq	%r11, 32(%rsp)
	movl	$771751936, %eax
	movq	%rax, 40(%rsp)
	movl	$11776, %eax
	movq	%rax, 48(%rsp)
	movq	%r13, 56(%rsp)
	movq	%r11, 72(%rsp)
	movl	$771751936, %eax
	movq	%rax, 88(%rsp)
	movl	$11776, %eax
	movq	%rax, 104(%rsp)
	movq	%r13, 112(%rsp)
	movq	%r11, 128(%rsp)
	movl	$771751936, %eax
	movq	%rax, 144(%rsp)
	movl	$11776, %eax
	movq	%rax, 160(%rsp)
	movq	%r13, 168(%rsp)
	movb	$46, 4(%rsp)
	movb	$46, 3(%rsp)
	movb	$46, 2(%rsp)
	movb	$46, 1(%rsp)
	movq	%r11, 184(%rsp)
	movl	$771751936, %r12d
	movq	%rax, 208(%rsp)
	movq	%r13, 216(%rsp)
81:
	movq	%rsi, 224(%rsp)
82:
	movl	$3014656, %eax
	movq	%rax, 200(%rsp)
	movabsq	$197568495616, %rcx
	jmp	40b
83:
	movq	64(%rsp), %rax
	movzbl	39(%rax), %eax
	shlq	$56, %rax
	movq	%rax, 216(%rsp)
	cmpq	$41, 8(%rsp)
	jb	84f
	movq	64(%rsp), %rax
	movzbl	40(%rax), %eax
	movb	%al, 4(%rsp)
	jne	86f
	movq	%r13, 24(%rsp)
	movq	%r11, 32(%rsp)
	movl	$771751936, %eax
	movq	%rax, 40(%rsp)
	movl	$11776, %eax
	movq	%rax, 48(%rsp)
	movq	%r13, 56(%rsp)
	movq	%r11, 72(%rsp)
	movl	$771751936, %eax
	movq	%rax, 88(%rsp)
	movl	$11776, %eax
	movq	%rax, 104(%rsp)
	movq	%r13, 112(%rsp)
	movq	%r11, 128(%rsp)
	movl	$771751936, %eax
	movq	%rax, 144(%rsp)
	movl	$11776, %eax
	movq	%rax, 160(%rsp)
	movq	%r13, 168(%rsp)
	movq	%r11, 184(%rsp)
	movb	$46, 3(%rsp)
	movb	$46, 2(%rsp)
	movb	$46, 1(%rsp)
	jmp	85f
84:
	movq	%r13, 24(%rsp)
	movq	%r11, 32(%rsp)
	movl	$771751936, %eax
	movq	%rax, 40(%rsp)
	movl	$11776, %eax
	movq	%rax, 48(%rsp)
	movq	%r13, 56(%rsp)
	movq	%r11, 72(%rsp)
	movl	$771751936, %eax
	movq	%rax, 88(%rsp)
	movl	$11776, %eax
	movq	%rax, 104(%rsp)
	movq	%r13, 112(%rsp)
	movq	%r11, 128(%rsp)
	movl	$771751936, %eax
	movq	%rax, 144(%rsp)
	movl	$11776, %eax
	movq	%rax, 160(%rsp)
	movq	%r13, 168(%rsp)
	movb	$46, 4(%rsp)
	movb	$46, 3(%rsp)
	movb	$46, 2(%rsp)
	movb	$46, 1(%rsp)
	movq	%r11, 184(%rsp)
85:
	movl	$771751936, %r12d
	movq	%rax, 208(%rsp)
	jmp	82b
86:
	movq	64(%rsp), %rax
	movzbl	41(%rax), %eax
	shll	$8, %eax
	movq	%rax, 208(%rsp)
	cmpq	$43, 8(%rsp)
	jb	87f
	movq	64(%rsp), %rax
	movzbl	42(%rax), %eax
	shll	$16, %eax
	movq	%rax, 200(%rsp)
	cmpq	$43, 8(%rsp)
	jne	88f
	movq	%r13, 24(%rsp)
	movq	%r11, 32(%rsp)
	movl	$771751936, %eax
	movq	%rax, 40(%rsp)
	movl	$11776, %eax
	movq	%rax, 48(%rsp)
	movq	%r13, 56(%rsp)
	movq	%r11, 72(%rsp)
	movl	$771751936, %eax
	movq	%rax, 88(%rsp)
	movl	$11776, %eax
	movq	%rax, 104(%rsp)
	movq	%r13, 112(%rsp)
	movq	%r11, 128(%rsp)
	movl	$771751936, %eax
	movq	%rax, 144(%rsp)
	movl	$11776, %eax
	movq	%rax, 160(%rsp)
	movq	%r13, 168(%rsp)
	movq	%r11, 184(%rsp)
	movb	$46, 3(%rsp)
	movb	$46, 2(%rsp)
	movb	$46, 1(%rsp)
	movl	$771751936, %r12d
	jmp	90f
87:
	movq	%r13, 24(%rsp)
	movq	%r11, 32(%rsp)
	movl	$771751936, %eax
	movq	%rax, 40(%rsp)
	movl	$11776, %eax
	movq	%rax, 48(%rsp)
	movq	%r13, 56(%rsp)
	movq	%r11, 72(%rsp)
	movl	$771751936, %eax
	movq	%rax, 88(%rsp)
	movl	$11776, %eax
	movq	%rax, 104(%rsp)
	movq	%r13, 112(%rsp)
	movq	%r11, 128(%rsp)
	movl	$771751936, %eax
	movq	%rax, 144(%rsp)
	movl	$11776, %eax
	movq	%rax, 160(%rsp)
	movq	%r13, 168(%rsp)
	movq	%r11, 184(%rsp)
	movb	$46, 3(%rsp)
	movb	$46, 2(%rsp)
	movb	$46, 1(%rsp)
	movl	$771751936, %r12d
	jmp	82b
88:
	movq	64(%rsp), %rax
	movzbl	43(%rax), %r12d
	shll	$24, %r12d
	cmpq	$45, 8(%rsp)
	jb	89f
	movq	64(%rsp), %rax
	movzbl	44(%rax), %eax
	shlq	$32, %rax
	movq	%rax, 192(%rsp)
	cmpq	$45, 8(%rsp)
	jne	91f
	movq	%r13, 24(%rsp)
	movq	%r11, 32(%rsp)
	movl	$771751936, %eax
	movq	%rax, 40(%rsp)
	movl	$11776, %eax
	movq	%rax, 48(%rsp)
	movq	%r13, 56(%rsp)
	movq	%r11, 72(%rsp)
	movl	$771751936, %eax
	movq	%rax, 88(%rsp)
	movl	$11776, %eax
	movq	%rax, 104(%rsp)
	movq	%r13, 112(%rsp)
	movq	%r11, 128(%rsp)
	movl	$771751936, %eax
	movq	%rax, 144(%rsp)
	movl	$11776, %eax
	movq	%rax, 160(%rsp)
	movq	%r13, 168(%rsp)
	movq	%r11, 184(%rsp)
	movb	$46, 3(%rsp)
	movb	$46, 2(%rsp)
	movb	$46, 1(%rsp)
	movq	%rsi, 176(%rsp)
	jmp	93f
89:
	movq	%r13, 24(%rsp)
	movq	%r11, 32(%rsp)
	movl	$771751936, %eax
	movq	%rax, 40(%rsp)
	movl	$11776, %eax
	movq	%rax, 48(%rsp)
	movq	%r13, 56(%rsp)
	movq	%r11, 72(%rsp)
	movl	$771751936, %eax
	movq	%rax, 88(%rsp)
	movl	$11776, %eax
	movq	%rax, 104(%rsp)
	movq	%r13, 112(%rsp)
	movq	%r11, 128(%rsp)
	movl	$771751936, %eax
	movq	%rax, 144(%rsp)
	movl	$11776, %eax
	movq	%rax, 160(%rsp)
	movq	%r13, 168(%rsp)
	movq	%r11, 184(%rsp)
	movb	$46, 3(%rsp)
	movb	$46, 2(%rsp)
	movb	$46, 1(%rsp)
90:
	movabsq	$197568495616, %rcx
	movq	%rcx, 192(%rsp)
	movq	%rsi, 176(%rsp)
	movl	$3014656, %eax
	jmp	41b
91:
	movq	64(%rsp), %rax
	movzbl	45(%rax), %eax
	shlq	$40, %rax
	movq	%rax, 184(%rsp)
	cmpq	$47, 8(%rsp)
	jb	92f
	movq	64(%rsp), %rax
	movzbl	46(%rax), %eax
	shlq	$48, %rax
	movq	%rax, 176(%rsp)
	cmpq	$47, 8(%rsp)
	jne	95f
	movq	%r13, 24(%rsp)
	movq	%r11, 32(%rsp)
	movl	$771751936, %eax
	movq	%rax, 40(%rsp)
	movl	$11776, %eax
	movq	%rax, 48(%rsp)
	movq	%r13, 56(%rsp)
	movq	%r11, 72(%rsp)
	movl	$771751936, %eax
	movq	%rax, 88(%rsp)
	movl	$11776, %eax
	movq	%rax, 104(%rsp)
	movq	%r13, 112(%rsp)
	movq	%r11, 128(%rsp)
	movl	$771751936, %eax
	movq	%rax, 144(%rsp)
	movl	$11776, %eax
	movq	%rax, 160(%rsp)
	movq	%r13, 168(%rsp)
	movb	$46, 3(%rsp)
	movl	$3014656, %eax
	movq	%rax, 152(%rsp)
	movb	$46, 2(%rsp)
	movb	$46, 1(%rsp)
	jmp	94f
92:
	movq	%r13, 24(%rsp)
	movq	%r11, 32(%rsp)
	movl	$771751936, %eax
	movq	%rax, 40(%rsp)
	movl	$11776, %eax
	movq	%rax, 48(%rsp)
	movq	%r13, 56(%rsp)
	movq	%r11, 72(%rsp)
	movl	$771751936, %eax
	movq	%rax, 88(%rsp)
	movl	$11776, %eax
	movq	%rax, 104(%rsp)
	movq	%r13, 112(%rsp)
	movq	%r11, 128(%rsp)
	movl	$771751936, %eax
	movq	%rax, 144(%rsp)
	movl	$11776, %eax
	movq	%rax, 160(%rsp)
	movq	%r13, 168(%rsp)
	movq	%rsi, 176(%rsp)
	movb	$46, 3(%rsp)
	movb	$46, 2(%rsp)
	movb	$46, 1(%rsp)
93:
	movl	$3014656, %eax
	movq	%rax, 152(%rsp)
94:
	movabsq	$197568495616, %rcx
	jmp	42b
95:
	movq	64(%rsp), %rax
	movzbl	47(%rax), %eax
	shlq	$56, %rax
	movq	%rax, 168(%rsp)
	cmpq	$49, 8(%rsp)
	jb	96f
	movq	64(%rsp), %rax
	movzbl	48(%rax), %eax
	movb	%al, 3(%rsp)
	jne	98f
	movq	%r13, 24(%rsp)
	movq	%r11, 32(%rsp)
	movl	$771751936, %eax
	movq	%rax, 40(%rsp)
	movl	$11776, %eax
	movq	%rax, 48(%rsp)
	movq	%r13, 56(%rsp)
	movq	%r11, 72(%rsp)
	movl	$771751936, %eax
	movq	%rax, 88(%rsp)
	movl	$11776, %eax
	movq	%rax, 104(%rsp)
	movq	%r13, 112(%rsp)
	movq	%r11, 128(%rsp)
	movl	$771751936, %eax
	movq	%rax, 144(%rsp)
	movl	$11776, %eax
	movq	%rax, 160(%rsp)
	jmp	97f
96:
	movq	%r13, 24(%rsp)
	movq	%r11, 32(%rsp)
	movl	$771751936, %eax
	movq	%rax, 40(%rsp)
	movl	$11776, %eax
	movq	%rax, 48(%rsp)
	movq	%r13, 56(%rsp)
	movq	%r11, 72(%rsp)
	movl	$771751936, %eax
	movq	%rax, 88(%rsp)
	movl	$11776, %eax
	movq	%rax, 104(%rsp)
	movq	%r13, 112(%rsp)
	movq	%r11, 128(%rsp)
	movl	$771751936, %eax
	movq	%rax, 144(%rsp)
	movl	$11776, %eax
	movq	%rax, 160(%rsp)
	movb	$46, 3(%rsp)
97:
	movl	$3014656, %eax
	movq	%rax, 152(%rsp)
	movabsq	$197568495616, %rcx
	movq	%rcx, 136(%rsp)
	movb	$46, 2(%rsp)
	movb	$46, 1(%rsp)
	jmp	43b
98:
	movq	64(%rsp), %rax
	movzbl	49(%rax), %eax
	shll	$8, %eax
	movq	%rax, 160(%rsp)
	cmpq	$51, 8(%rsp)
	jb	99f
	movq	64(%rsp), %rax
	movzbl	50(%rax), %eax
	shll	$16, %eax
	movq	%rax, 152(%rsp)
	cmpq	$51, 8(%rsp)
	jne	100f
	movq	%r13, 24(%rsp)
	movq	%r11, 32(%rsp)
	movl	$771751936, %eax
	movq	%rax, 40(%rsp)
	movl	$11776, %eax
	movq	%rax, 48(%rsp)
	movq	%r13, 56(%rsp)
	movq	%r11, 72(%rsp)
	movl	$771751936, %eax
	movq	%rax, 88(%rsp)
	movl	$11776, %eax
	movq	%rax, 104(%rsp)
	movq	%r13, 112(%rsp)
	movq	%r11, 128(%rsp)
	movl	$771751936, %eax
	movq	%rax, 144(%rsp)
	movabsq	$197568495616, %rcx
	movq	%rcx, 136(%rsp)
	movq	%rsi, 120(%rsp)
	movb	$46, 2(%rsp)
	movl	$3014656, %eax
	movq	%rax, 96(%rsp)
	movb	$46, 1(%rsp)
	jmp	45b
99:
	movq	%r13, 24(%rsp)
	movq	%r11, 32(%rsp)
	movl	$771751936, %eax
	movq	%rax, 40(%rsp)
	movl	$11776, %eax
	movq	%rax, 48(%rsp)
	movq	%r13, 56(%rsp)
	movq	%r11, 72(%rsp)
	movl	$771751936, %eax
	movq	%rax, 88(%rsp)
	movl	$11776, %eax
	movq	%rax, 104(%rsp)
	movq	%r13, 112(%rsp)
	movq	%r11, 128(%rsp)
	movl	$771751936, %eax
	movq	%rax, 144(%rsp)
	movl	$3014656, %eax
	movq	%rax, 152(%rsp)
	movabsq	$197568495616, %rcx
	movq	%rcx, 136(%rsp)
	movq	%rsi, 120(%rsp)
	movb	$46, 2(%rsp)
	movb	$46, 1(%rsp)
	jmp	44b
100:
	movq	64(%rsp), %rax
	movzbl	51(%rax), %eax
	shll	$24, %eax
	movq	%rax, 144(%rsp)
	cmpq	$53, 8(%rsp)
	jb	101f
	movq	64(%rsp), %rax
	movzbl	52(%rax), %eax
	shlq	$32, %rax
	movq	%rax, 136(%rsp)
	cmpq	$53, 8(%rsp)
	jne	102f
	movq	%r13, 24(%rsp)
	movq	%r11, 32(%rsp)
	movl	$771751936, %eax
	movq	%rax, 40(%rsp)
	movl	$11776, %eax
	movq	%rax, 48(%rsp)
	movq	%r13, 56(%rsp)
	movq	%r11, 72(%rsp)
	movl	$771751936, %eax
	movq	%rax, 88(%rsp)
	movl	$11776, %eax
	movq	%rax, 104(%rsp)
	movq	%r13, 112(%rsp)
	movq	%r11, 128(%rsp)
	jmp	104f
101:
	movq	%r13, 24(%rsp)
	movq	%r11, 32(%rsp)
	movl	$771751936, %eax
	movq	%rax, 40(%rsp)
	movl	$11776, %eax
	movq	%rax, 48(%rsp)
	movq	%r13, 56(%rsp)
	movq	%r11, 72(%rsp)
	movl	$771751936, %eax
	movq	%rax, 88(%rsp)
	movl	$11776, %eax
	movq	%rax, 104(%rsp)
	movq	%r13, 112(%rsp)
	movq	%r11, 128(%rsp)
	movabsq	$197568495616, %rcx
	movq	%rcx, 136(%rsp)
	movq	%rsi, 120(%rsp)
	movb	$46, 2(%rsp)
	movl	$3014656, %eax
	movq	%rax, 96(%rsp)
	movq	%rcx, 80(%rsp)
	movb	$46, 1(%rsp)
	jmp	46b
102:
	movq	64(%rsp), %rax
	movzbl	53(%rax), %eax
	shlq	$40, %rax
	movq	%rax, 128(%rsp)
	cmpq	$55, 8(%rsp)
	jb	103f
	movq	64(%rsp), %rax
	movzbl	54(%rax), %eax
	shlq	$48, %rax
	movq	%rax, 120(%rsp)
	cmpq	$55, 8(%rsp)
	jne	105f
	movq	%r13, 24(%rsp)
	movq	%r11, 32(%rsp)
	movl	$771751936, %eax
	movq	%rax, 40(%rsp)
	movl	$11776, %eax
	movq	%rax, 48(%rsp)
	movq	%r13, 56(%rsp)
	movq	%r11, 72(%rsp)
	movl	$771751936, %eax
	movq	%rax, 88(%rsp)
	movl	$11776, %eax
	movq	%rax, 104(%rsp)
	movq	%r13, 112(%rsp)
	jmp	107f
103:
	movq	%r13, 24(%rsp)
	movq	%r11, 32(%rsp)
	movl	$771751936, %eax
	movq	%rax, 40(%rsp)
	movl	$11776, %eax
	movq	%rax, 48(%rsp)
	movq	%r13, 56(%rsp)
	movq	%r11, 72(%rsp)
	movl	$771751936, %eax
	movq	%rax, 88(%rsp)
	movl	$11776, %eax
	movq	%rax, 104(%rsp)
	movq	%r13, 112(%rsp)
104:
	movq	%rsi, 120(%rsp)
	jmp	107f
105:
	movq	64(%rsp), %rax
	movzbl	55(%rax), %eax
	shlq	$56, %rax
	movq	%rax, 112(%rsp)
	cmpq	$57, 8(%rsp)
	jb	106f
	movq	64(%rsp), %rax
	movzbl	56(%rax), %eax
	movb	%al, 2(%rsp)
	jne	108f
	movq	%r13, 24(%rsp)
	movq	%r11, 32(%rsp)
	movl	$771751936, %eax
	movq	%rax, 40(%rsp)
	movl	$11776, %eax
	movq	%rax, 48(%rsp)
	movq	%r13, 56(%rsp)
	movq	%r11, 72(%rsp)
	movl	$771751936, %eax
	movq	%rax, 88(%rsp)
	movl	$11776, %eax
	movq	%rax, 104(%rsp)
	jmp	110f
106:
	movq	%r13, 24(%rsp)
	movq	%r11, 32(%rsp)
	movl	$771751936, %eax
	movq	%rax, 40(%rsp)
	movl	$11776, %eax
	movq	%rax, 48(%rsp)
	movq	%r13, 56(%rsp)
	movq	%r11, 72(%rsp)
	movl	$771751936, %eax
	movq	%rax, 88(%rsp)
	movl	$11776, %eax
	movq	%rax, 104(%rsp)
107:
	movb	$46, 2(%rsp)
	jmp	110f
108:
	movq	64(%rsp), %rax
	movzbl	57(%rax), %eax
	shll	$8, %eax
	movq	%rax, 104(%rsp)
	cmpq	$59, 8(%rsp)
	jb	109f
	movq	64(%rsp), %rax
	movzbl	58(%rax), %eax
	shll	$16, %eax
	movq	%rax, 96(%rsp)
	cmpq	$59, 8(%rsp)
	jne	111f
	movq	%r13, 24(%rsp)
	movq	%r11, 32(%rsp)
	movl	$771751936, %eax
	movq	%rax, 40(%rsp)
	movl	$11776, %eax
	movq	%rax, 48(%rsp)
	movq	%r13, 56(%rsp)
	movq	%r11, 72(%rsp)
	movl	$771751936, %eax
	movq	%rax, 88(%rsp)
	jmp	113f
109:
	movq	%r13, 24(%rsp)
	movq	%r11, 32(%rsp)
	movl	$771751936, %eax
	movq	%rax, 40(%rsp)
	movl	$11776, %eax
	movq	%rax, 48(%rsp)
	movq	%r13, 56(%rsp)
	movq	%r11, 72(%rsp)
	movl	$771751936, %eax
	movq	%rax, 88(%rsp)
110:
	movl	$3014656, %eax
	movq	%rax, 96(%rsp)
	jmp	113f
111:
	movq	64(%rsp), %rax
	movzbl	59(%rax), %eax
	shll	$24, %eax
	movq	%rax, 88(%rsp)
	cmpq	$61, 8(%rsp)
	jb	112f
	movq	64(%rsp), %rax
	movzbl	60(%rax), %eax
	shlq	$32, %rax
	movq	%rax, 80(%rsp)
	cmpq	$61, 8(%rsp)
	jne	114f
	movq	%r13, 24(%rsp)
	movq	%r11, 32(%rsp)
	movl	$771751936, %eax
	movq	%rax, 40(%rsp)
	movl	$11776, %eax
	movq	%rax, 48(%rsp)
	movq	%r13, 56(%rsp)
	movq	%r11, 72(%rsp)
	jmp	116f
112:
	movq	%r13, 24(%rsp)
	movq	%r11, 32(%rsp)
	movl	$771751936, %eax
	movq	%rax, 40(%rsp)
	movl	$11776, %eax
	movq	%rax, 48(%rsp)
	movq	%r13, 56(%rsp)
	movq	%r11, 72(%rsp)
113:
	movabsq	$197568495616, %rcx
	movq	%rcx, 80(%rsp)
	movq	%rsi, %rdi
	movb	$46, 1(%rsp)
	jmp	47b
114:
	movq	64(%rsp), %rax
	movzbl	61(%rax), %eax
	shlq	$40, %rax
	movq	%rax, 72(%rsp)
	cmpq	$63, 8(%rsp)
	jb	115f
	movq	64(%rsp), %rax
	movzbl	62(%rax), %edi
	shlq	$48, %rdi
	cmpq	$63, 8(%rsp)
	jne	117f
	movq	%r13, 24(%rsp)
	movq	%r11, 32(%rsp)
	movl	$771751936, %eax
	movq	%rax, 40(%rsp)
	movl	$11776, %eax
	movq	%rax, 48(%rsp)
	movq	%r13, 56(%rsp)
	jmp	119f
115:
	movq	%r13, 24(%rsp)
	movq	%r11, 32(%rsp)
	movl	$771751936, %eax
	movq	%rax, 40(%rsp)
	movl	$11776, %eax
	movq	%rax, 48(%rsp)
	movq	%r13, 56(%rsp)
116:
	movq	%rsi, %rdi
	jmp	119f
117:
	movq	64(%rsp), %rax
	movzbl	63(%rax), %eax
	shlq	$56, %rax
	movq	%rax, 56(%rsp)
	cmpq	$65, 8(%rsp)
	jb	118f
	movq	64(%rsp), %rax
	movzbl	64(%rax), %eax
	movb	%al, 1(%rsp)
	jne	120f
	movq	%r13, 24(%rsp)
	movq	%r11, 32(%rsp)
	movl	$771751936, %eax
	movq	%rax, 40(%rsp)
	movl	$11776, %eax
	movq	%rax, 48(%rsp)
	jmp	122f
118:
	movq	%r13, 24(%rsp)
	movq	%r11, 32(%rsp)
	movl	$771751936, %eax
	movq	%rax, 40(%rsp)
	movl	$11776, %eax
	movq	%rax, 48(%rsp)
119:
	movb	$46, 1(%rsp)
	jmp	122f
120:
	movq	64(%rsp), %rax
	movzbl	65(%rax), %eax
	shll	$8, %eax
	movq	%rax, 48(%rsp)
	cmpq	$67, 8(%rsp)
	jb	121f
	movq	64(%rsp), %rax
	movzbl	66(%rax), %r9d
	shll	$16, %r9d
	cmpq	$67, 8(%rsp)
	jne	123f
	movq	%r13, 24(%rsp)
	movq	%r11, 32(%rsp)
	movl	$771751936, %eax
	movq	%rax, 40(%rsp)
	movabsq	$197568495616, %rcx
	jmp	48b
121:
	movq	%r13, 24(%rsp)
	movq	%r11, 32(%rsp)
	movl	$771751936, %eax
	movq	%rax, 40(%rsp)
122:
	movl	$3014656, %r9d
	movabsq	$197568495616, %rcx
	jmp	48b
123:
	movq	64(%rsp), %rax
	movzbl	67(%rax), %eax
	shll	$24, %eax
	movq	%rax, 40(%rsp)
	cmpq	$69, 8(%rsp)
	jb	124f
	movq	64(%rsp), %rax
	movzbl	68(%rax), %edx
	shlq	$32, %rdx
	cmpq	$69, 8(%rsp)
	jne	125f
	movq	%r13, 24(%rsp)
	movq	%r11, 32(%rsp)
	movq	%rsi, %r10
	movabsq	$197568495616, %rcx
	jmp	49b
124:
	movq	%r13, 24(%rsp)
	movq	%r11, 32(%rsp)
	movabsq	$197568495616, %rcx
	jmp	48b
125:
	movq	64(%rsp), %rax
	movzbl	69(%rax), %eax
	shlq	$40, %rax
	movq	%rax, 32(%rsp)
	cmpq	$71, 8(%rsp)
	jb	126f
	movq	64(%rsp), %rax
	movzbl	70(%rax), %r10d
	shlq	$48, %r10
	cmpq	$71, 8(%rsp)
	jne	127f
	movq	%r13, 24(%rsp)
	movabsq	$197568495616, %rcx
	jmp	49b
126:
	movq	%r13, 24(%rsp)
	movq	%rsi, %r10
	movabsq	$197568495616, %rcx
	jmp	49b
127:
	movq	64(%rsp), %rax
	movzbl	71(%rax), %eax
	shlq	$56, %rax
	movq	%rax, 24(%rsp)
	cmpq	$73, 8(%rsp)
	jb	128f
	movq	64(%rsp), %rax
	movzbl	72(%rax), %eax
	movb	%al, 351(%rsp)
	je	128f
	movq	64(%rsp), %rax
	movzbl	73(%rax), %eax
	shll	$8, %eax
	movq	%rax, 504(%rsp)
	cmpq	$75, 8(%rsp)
	jb	128f
	movq	64(%rsp), %rax
	movzbl	74(%rax), %eax
	shll	$16, %eax
	movq	%rax, 496(%rsp)
	cmpq	$75, 8(%rsp)
	je	128f
	movq	64(%rsp), %rax
	movzbl	75(%rax), %eax
	shll	$24, %eax
	movq	%rax, 512(%rsp)
	cmpq	$77, 8(%rsp)
	jb	128f
	movq	64(%rsp), %rax
	movzbl	76(%rax), %ecx
	shlq	$32, %rcx
	jmp	49b
128:
	movabsq	$197568495616, %rcx
	jmp	49b
	vj_end	std_io..io..error..Error..from_bytes_1_x86

	vj_function	std_io..io..error..last_error_1_x86
	pushq	%rbx
	movq	%rdi, %rbx
	vj_call	rattle_errno
	movl	%eax, %ecx
	movb	$41, %dl
	testl	%eax, %eax
	js	38f
	decl	%eax
	cmpl	$121, %eax
	ja	38f
	leaq	.L1_x86_JTI32_0(%rip), %rsi
	movslq	(%rsi,%rax,4), %rax
	addq	%rsi, %rax
	notrack	jmpq	*%rax
1:
	movb	$1, %dl
	jmp	38f
2:
	movb	$36, %dl
	jmp	38f
3:
	movb	$4, %dl
	jmp	38f
4:
	movb	$7, %dl
	jmp	38f
5:
	movb	$26, %dl
	jmp	38f
6:
	movb	$39, %dl
	jmp	38f
7:
	movb	$9, %dl
	jmp	38f
8:
	movb	$8, %dl
	jmp	38f
9:
	movb	$30, %dl
	jmp	38f
10:
	movb	$25, %dl
	jmp	38f
11:
	movb	$32, %dl
	jmp	38f
12:
	movb	$33, %dl
	jmp	38f
13:
	movb	$22, %dl
	jmp	38f
14:
	movb	$31, %dl
	jmp	38f
15:
	movb	$29, %dl
	jmp	38f
16:
	movb	$18, %dl
	jmp	38f
17:
	movb	$10, %dl
	jmp	38f
18:
	movb	$28, %dl
	jmp	38f
19:
	movb	$14, %dl
	jmp	38f
20:
	movb	$12, %dl
	jmp	38f
21:
	movb	$5, %dl
	jmp	38f
22:
	movb	$3, %dl
	jmp	38f
23:
	xorl	%edx, %edx
	jmp	38f
24:
	movb	$13, %dl
	jmp	38f
25:
	movb	$38, %dl
	jmp	38f
26:
	movb	$11, %dl
	jmp	38f
27:
	movb	$35, %dl
	jmp	38f
28:
	movb	$34, %dl
	jmp	38f
29:
	movb	$20, %dl
	jmp	38f
30:
	movb	$15, %dl
	jmp	38f
31:
	movb	$19, %dl
	jmp	38f
32:
	movb	$16, %dl
	jmp	38f
33:
	movb	$6, %dl
	jmp	38f
34:
	movb	$27, %dl
	jmp	38f
35:
	movb	$24, %dl
	jmp	38f
36:
	movb	$2, %dl
	jmp	38f
37:
	movb	$17, %dl
38:
	movb	$0, (%rbx)
	movb	%dl, 1(%rbx)
	movw	$0, 2(%rbx)
	movl	%ecx, 4(%rbx)
	xorps	%xmm0, %xmm0
	movups	%xmm0, 8(%rbx)
	movups	%xmm0, 24(%rbx)
	movups	%xmm0, 40(%rbx)
	movups	%xmm0, 56(%rbx)
	movups	%xmm0, 72(%rbx)
	popq	%rbx
	retq
	vj_end	std_io..io..error..last_error_1_x86

	vj_data	std_io..io..error..last_error_1_x86
	.p2align	2, 0x0
.L1_x86_JTI32_0:
	.long	1b-.L1_x86_JTI32_0
	.long	23b-.L1_x86_JTI32_0
	.long	38b-.L1_x86_JTI32_0
	.long	27b-.L1_x86_JTI32_0
	.long	38b-.L1_x86_JTI32_0
	.long	38b-.L1_x86_JTI32_0
	.long	28b-.L1_x86_JTI32_0
	.long	38b-.L1_x86_JTI32_0
	.long	38b-.L1_x86_JTI32_0
	.long	38b-.L1_x86_JTI32_0
	.long	24b-.L1_x86_JTI32_0
	.long	25b-.L1_x86_JTI32_0
	.long	1b-.L1_x86_JTI32_0
	.long	38b-.L1_x86_JTI32_0
	.long	38b-.L1_x86_JTI32_0
	.long	18b-.L1_x86_JTI32_0
	.long	20b-.L1_x86_JTI32_0
	.long	14b-.L1_x86_JTI32_0
	.long	38b-.L1_x86_JTI32_0
	.long	19b-.L1_x86_JTI32_0
	.long	30b-.L1_x86_JTI32_0
	.long	29b-.L1_x86_JTI32_0
	.long	38b-.L1_x86_JTI32_0
	.long	38b-.L1_x86_JTI32_0
	.long	38b-.L1_x86_JTI32_0
	.long	15b-.L1_x86_JTI32_0
	.long	34b-.L1_x86_JTI32_0
	.long	35b-.L1_x86_JTI32_0
	.long	10b-.L1_x86_JTI32_0
	.long	37b-.L1_x86_JTI32_0
	.long	11b-.L1_x86_JTI32_0
	.long	26b-.L1_x86_JTI32_0
	.long	38b-.L1_x86_JTI32_0
	.long	38b-.L1_x86_JTI32_0
	.long	9b-.L1_x86_JTI32_0
	.long	12b-.L1_x86_JTI32_0
	.long	38b-.L1_x86_JTI32_0
	.long	2b-.L1_x86_JTI32_0
	.long	32b-.L1_x86_JTI32_0
	.long	16b-.L1_x86_JTI32_0
	.long	38b-.L1_x86_JTI32_0
	.long	38b-.L1_x86_JTI32_0
	.long	38b-.L1_x86_JTI32_0
	.long	38b-.L1_x86_JTI32_0
	.long	38b-.L1_x86_JTI32_0
	.long	38b-.L1_x86_JTI32_0
	.long	38b-.L1_x86_JTI32_0
	.long	38b-.L1_x86_JTI32_0
	.long	38b-.L1_x86_JTI32_0
	.long	38b-.L1_x86_JTI32_0
	.long	38b-.L1_x86_JTI32_0
	.long	38b-.L1_x86_JTI32_0
	.long	38b-.L1_x86_JTI32_0
	.long	38b-.L1_x86_JTI32_0
	.long	38b-.L1_x86_JTI32_0
	.long	38b-.L1_x86_JTI32_0
	.long	38b-.L1_x86_JTI32_0
	.long	38b-.L1_x86_JTI32_0
	.long	38b-.L1_x86_JTI32_0
	.long	38b-.L1_x86_JTI32_0
	.long	38b-.L1_x86_JTI32_0
	.long	38b-.L1_x86_JTI32_0
	.long	38b-.L1_x86_JTI32_0
	.long	38b-.L1_x86_JTI32_0
	.long	38b-.L1_x86_JTI32_0
	.long	38b-.L1_x86_JTI32_0
	.long	38b-.L1_x86_JTI32_0
	.long	38b-.L1_x86_JTI32_0
	.long	38b-.L1_x86_JTI32_0
	.long	38b-.L1_x86_JTI32_0
	.long	38b-.L1_x86_JTI32_0
	.long	38b-.L1_x86_JTI32_0
	.long	38b-.L1_x86_JTI32_0
	.long	38b-.L1_x86_JTI32_0
	.long	38b-.L1_x86_JTI32_0
	.long	38b-.L1_x86_JTI32_0
	.long	38b-.L1_x86_JTI32_0
	.long	38b-.L1_x86_JTI32_0
	.long	38b-.L1_x86_JTI32_0
	.long	38b-.L1_x86_JTI32_0
	.long	38b-.L1_x86_JTI32_0
	.long	38b-.L1_x86_JTI32_0
	.long	38b-.L1_x86_JTI32_0
	.long	38b-.L1_x86_JTI32_0
	.long	38b-.L1_x86_JTI32_0
	.long	38b-.L1_x86_JTI32_0
	.long	38b-.L1_x86_JTI32_0
	.long	38b-.L1_x86_JTI32_0
	.long	38b-.L1_x86_JTI32_0
	.long	38b-.L1_x86_JTI32_0
	.long	38b-.L1_x86_JTI32_0
	.long	38b-.L1_x86_JTI32_0
	.long	38b-.L1_x86_JTI32_0
	.long	38b-.L1_x86_JTI32_0
	.long	2b-.L1_x86_JTI32_0
	.long	38b-.L1_x86_JTI32_0
	.long	38b-.L1_x86_JTI32_0
	.long	8b-.L1_x86_JTI32_0
	.long	7b-.L1_x86_JTI32_0
	.long	17b-.L1_x86_JTI32_0
	.long	21b-.L1_x86_JTI32_0
	.long	38b-.L1_x86_JTI32_0
	.long	33b-.L1_x86_JTI32_0
	.long	22b-.L1_x86_JTI32_0
	.long	38b-.L1_x86_JTI32_0
	.long	38b-.L1_x86_JTI32_0
	.long	4b-.L1_x86_JTI32_0
	.long	38b-.L1_x86_JTI32_0
	.long	38b-.L1_x86_JTI32_0
	.long	13b-.L1_x86_JTI32_0
	.long	36b-.L1_x86_JTI32_0
	.long	38b-.L1_x86_JTI32_0
	.long	3b-.L1_x86_JTI32_0
	.long	38b-.L1_x86_JTI32_0
	.long	6b-.L1_x86_JTI32_0
	.long	31b-.L1_x86_JTI32_0
	.long	38b-.L1_x86_JTI32_0
	.long	38b-.L1_x86_JTI32_0
	.long	38b-.L1_x86_JTI32_0
	.long	38b-.L1_x86_JTI32_0
	.long	38b-.L1_x86_JTI32_0
	.long	5b-.L1_x86_JTI32_0

	vj_function	b2sum_commands..key..read_key_from..fab5d8e6f6068f4d_1_x86
	pushq	%rbp
	pushq	%r15
	pushq	%r14
	pushq	%r13
	pushq	%r12
	pushq	%rbx
	subq	$376, %rsp
	movl	%r9d, %ebx
	movq	%r8, 24(%rsp)
	movq	%rcx, %r15
	movq	%rdx, %r14
	movq	%rsi, %r13
	movq	%rdi, %rbp
	movq	432(%rsp), %rax
	xorps	%xmm0, %xmm0
	movaps	%xmm0, 64(%rsp)
	movaps	%xmm0, 48(%rsp)
	movq	$0, 80(%rsp)
	movaps	%xmm0, 96(%rsp)
	movaps	%xmm0, 112(%rsp)
	movq	$0, 128(%rsp)
	leaq	1(,%rax,2), %r12
	testb	$1, %bl
	cmoveq	%rax, %r12
	leaq	48(%rsp), %rdi
	movq	%rdx, %rsi
	movq	%r12, %rdx
	callq	b2sum_commands..key..read_bytes..5254a3ddd78d1e3f_1_x86
	cmpb	$0, 48(%rsp)
	je	3f
	movzbl	49(%rsp), %eax
1:
	movb	$1, (%rbp)
	movb	%al, 1(%rbp)
2:
	xorps	%xmm0, %xmm0
	movups	%xmm0, 8(%rbp)
	movups	%xmm0, 24(%rbp)
	jmp	18f
3:
	movq	%r15, 40(%rsp)
	movq	%r13, 32(%rsp)
	movq	440(%rsp), %r13
	cmpb	$1, 56(%rsp)
	jne	7f
	movq	64(%rsp), %r15
	movq	72(%rsp), %rax
	movq	80(%rsp), %r14
	cmpq	%rax, %r12
	jae	8f
	xorps	%xmm0, %xmm0
	movaps	%xmm0, 160(%rsp)
	movaps	%xmm0, 144(%rsp)
	leaq	144(%rsp), %rdi
	movq	40(%rsp), %rsi
	movq	24(%rsp), %rdx
	callq	b2sum_commands..quoting..quoted_name_1_x86
	cmpb	$0, 144(%rsp)
	jne	5f
	movq	%r15, 24(%rsp)
	cmpq	$64, 432(%rsp)
	leaq	.L1_x86_static.119(%rip), %rax
	leaq	.L1_x86_static.120(%rip), %rcx
	cmoveq	%rax, %rcx
	leaq	.L1_x86_static.121(%rip), %rax
	leaq	.L1_x86_static.122(%rip), %rdx
	cmoveq	%rax, %rdx
	movl	$56, %eax
	movl	$78, %esi
	cmoveq	%rax, %rsi
	movl	$23, %eax
	movl	$46, %r9d
	cmoveq	%rax, %r9
	testb	$1, %bl
	cmovneq	%rcx, %rdx
	cmovneq	%rsi, %r9
	movq	152(%rsp), %r15
	movq	160(%rsp), %r8
	movq	32(%rsp), %rax
	movq	(%rax), %rdi
	movq	8(%rax), %rsi
	movq	168(%rsp), %r12
	movq	%r9, 16(%rsp)
	movq	%rdx, 8(%rsp)
	movq	$2, (%rsp)
	leaq	.L1_x86_static.123(%rip), %r9
	movq	%r13, %rdx
	movq	%r15, %rcx
	callq	b2sum_commands..messages..warn..068f3e307c5390f2_1_x86
	movl	%eax, %ebx
	testq	%r12, %r12
	je	4f
	movq	%r15, %rdi
	vj_call	rattle_dealloc
4:
	testb	%bl, %bl
	movq	24(%rsp), %r15
	je	13f
5:
	testq	%r14, %r14
	je	6f
	movq	%r15, %rdi
	vj_call	rattle_dealloc
6:
	movw	$1, (%rbp)
	jmp	2b
7:
	cmpb	$1, 32(%r14)
	movq	24(%rsp), %r8
	movq	40(%rsp), %rcx
	jne	9f
	movzbl	40(%r14), %esi
	movzbl	41(%r14), %eax
	movq	120(%r14), %rdx
	movq	%rdx, 254(%rsp)
	movups	106(%r14), %xmm0
	movaps	%xmm0, 240(%rsp)
	movups	90(%r14), %xmm0
	movaps	%xmm0, 224(%rsp)
	movups	74(%r14), %xmm0
	movaps	%xmm0, 208(%rsp)
	movups	58(%r14), %xmm0
	movaps	%xmm0, 192(%rsp)
	movups	42(%r14), %xmm0
	movaps	%xmm0, 176(%rsp)
	jmp	10f
8:
	movq	%r15, 264(%rsp)
	movq	%rax, 272(%rsp)
	movq	%r14, 280(%rsp)
	movzbl	%bl, %esi
	leaq	96(%rsp), %rdi
	leaq	264(%rsp), %rcx
	movq	432(%rsp), %r14
	movq	%r14, %rdx
	callq	b2sum_commands..key..key_of_file_bytes_1_x86
	cmpb	$0, 96(%rsp)
	je	12f
	movzbl	97(%rsp), %eax
	jmp	1b
9:
	xorps	%xmm0, %xmm0
	movaps	%xmm0, 240(%rsp)
	movaps	%xmm0, 224(%rsp)
	movaps	%xmm0, 208(%rsp)
	movaps	%xmm0, 192(%rsp)
	movaps	%xmm0, 176(%rsp)
	movq	$0, 254(%rsp)
	movb	$40, %al
	movb	$1, %sil
10:
	movq	32(%rsp), %rdi
	movb	%sil, 288(%rsp)
	movb	%al, 289(%rsp)
	movaps	176(%rsp), %xmm0
	movaps	192(%rsp), %xmm1
	movaps	208(%rsp), %xmm2
	movaps	224(%rsp), %xmm3
	movups	%xmm0, 290(%rsp)
	movups	%xmm1, 306(%rsp)
	movups	%xmm2, 322(%rsp)
	movups	%xmm3, 338(%rsp)
	movaps	240(%rsp), %xmm0
	movups	%xmm0, 354(%rsp)
	movq	254(%rsp), %rax
	movq	%rax, 368(%rsp)
	leaq	288(%rsp), %rsi
	movq	%r13, %rdx
	callq	b2sum_commands..messages..warn_of_file..fab5d8e6f6068f4d_1_x86
	leaq	8(%rbp), %rcx
	testb	%al, %al
	je	16f
11:
	movw	$1, (%rbp)
	jmp	17f
12:
	cmpb	$1, 104(%rsp)
	jne	15f
	movw	$0, (%rbp)
	movq	$1, 8(%rbp)
	movaps	112(%rsp), %xmm0
	movups	%xmm0, 16(%rbp)
	movq	128(%rsp), %rax
	movq	%rax, 32(%rbp)
	jmp	18f
13:
	testq	%r14, %r14
	je	14f
	movq	%r15, %rdi
	vj_call	rattle_dealloc
14:
	movw	$0, (%rbp)
	jmp	2b
15:
	cmpq	$64, %r14
	movl	$56, %eax
	movl	$78, %ecx
	cmoveq	%rax, %rcx
	leaq	.L1_x86_static.119(%rip), %rax
	leaq	.L1_x86_static.120(%rip), %rdx
	cmoveq	%rax, %rdx
	movl	$23, %eax
	movl	$46, %r9d
	cmoveq	%rax, %r9
	leaq	.L1_x86_static.121(%rip), %rax
	leaq	.L1_x86_static.122(%rip), %r8
	cmoveq	%rax, %r8
	testb	$1, %bl
	cmovneq	%rcx, %r9
	cmovneq	%rdx, %r8
	movq	32(%rsp), %rdi
	movq	%r13, %rsi
	movq	40(%rsp), %rdx
	movq	24(%rsp), %rcx
	callq	b2sum_commands..messages..warn_of_name..068f3e307c5390f2_1_x86
	leaq	8(%rbp), %rcx
	testb	%al, %al
	jne	11b
16:
	movw	$0, (%rbp)
17:
	xorps	%xmm0, %xmm0
	movups	%xmm0, 16(%rcx)
	movups	%xmm0, (%rcx)
18:
	addq	$376, %rsp
	popq	%rbx
	popq	%r12
	popq	%r13
	popq	%r14
	popq	%r15
	popq	%rbp
	retq
	vj_end	b2sum_commands..key..read_key_from..fab5d8e6f6068f4d_1_x86

	vj_function	b2sum_commands..key..read_bytes..5254a3ddd78d1e3f_1_x86
	pushq	%rbp
	pushq	%r15
	pushq	%r14
	pushq	%r13
	pushq	%r12
	pushq	%rbx
	subq	$184, %rsp
	movq	%rdx, %rbp
	movq	%rsi, 72(%rsp)
	movq	%rdi, %rbx
	xorps	%xmm0, %xmm0
	movaps	%xmm0, 48(%rsp)
	movq	$0, 64(%rsp)
	movaps	%xmm0, 160(%rsp)
	movq	$0, 176(%rsp)
	movl	$1, %esi
	movq	%rdx, %rdi
	vj_call	rattle_alloc
	testb	$1, %al
	je	16f
	movq	%rbx, 8(%rsp)
	movq	%rdx, %r14
	movq	%rdx, 24(%rsp)
	movq	$0, 32(%rsp)
	movq	%rbp, 40(%rsp)
	xorps	%xmm0, %xmm0
	movaps	%xmm0, 80(%rsp)
	movaps	%xmm0, 96(%rsp)
	movaps	%xmm0, 112(%rsp)
	movaps	%xmm0, 128(%rsp)
	movb	$0, 144(%rsp)
	xorl	%r15d, %r15d
	movq	%rbp, 16(%rsp)
	xorl	%ebx, %ebx
	.p2align	4
1:
	leaq	80(%rsp), %r12
	movl	$65, %edx
	movq	72(%rsp), %rdi
	movq	%r12, %rsi
	callq	b2sum..disk..OpenedOpenFile..read..ec2583f154d97a77_1_x86
	testb	%al, %al
	jne	17f
	movq	%rdx, %r13
	testq	%rdx, %rdx
	je	19f
	movq	16(%rsp), %rax
	subq	%r15, %rax
	cmpq	%rax, %r13
	movq	%r14, %rcx
	ja	15f
2:
	leaq	(%rcx,%r15), %rdi
	movq	%rdi, %rax
	subq	%r12, %rax
	cmpq	%r13, %rax
	jae	8f
	cmpq	$4, %r13
	jb	3f
	movq	%r15, %rax
	subq	%r12, %rax
	addq	%rcx, %rax
	cmpq	$32, %rax
	jae	10f
3:
	movq	%rcx, %r14
	xorl	%eax, %eax
4:
	movq	%r13, %rdx
	movq	%rax, %rcx
	andq	$3, %rdx
	je	6f
	movq	%rax, %rcx
	.p2align	4
5:
	movzbl	80(%rsp,%rcx), %esi
	movb	%sil, (%rdi,%rcx)
	incq	%rcx
	decq	%rdx
	jne	5b
6:
	subq	%r13, %rax
	cmpq	$-4, %rax
	ja	9f
	leaq	(%r14,%r15), %rax
	addq	$3, %rax
	.p2align	4
7:
	movzbl	80(%rsp,%rcx), %edx
	movb	%dl, -3(%rax,%rcx)
	movzbl	81(%rsp,%rcx), %edx
	movb	%dl, -2(%rax,%rcx)
	movzbl	82(%rsp,%rcx), %edx
	movb	%dl, -1(%rax,%rcx)
	movzbl	83(%rsp,%rcx), %edx
	movb	%dl, (%rax,%rcx)
	addq	$4, %rcx
	cmpq	%rcx, %r13
	jne	7b
	jmp	9f
	.p2align	4
8:
	movq	%rcx, %r14
	leaq	80(%rsp), %rsi
	movq	%r13, %rdx
	vj_c_call	memmove
9:
	addq	%r13, %r15
	movq	%r15, 32(%rsp)
	movq	16(%rsp), %rax
	movq	%rax, 40(%rsp)
	cmpq	%r15, %rbp
	jb	20f
	incq	%rbx
	cmpq	$-1, %rbx
	jne	1b
	jmp	22f
10:
	cmpq	$32, %r13
	jae	11f
	movq	%rcx, %r14
	xorl	%eax, %eax
	jmp	13f
11:
	movq	%r13, %rax
	andq	$-32, %rax
	movq	%rcx, %r14
	addq	%r15, %rcx
	addq	$16, %rcx
	xorl	%edx, %edx
	.p2align	4
12:
	movups	80(%rsp,%rdx), %xmm0
	movups	96(%rsp,%rdx), %xmm1
	movups	%xmm0, -16(%rcx,%rdx)
	movups	%xmm1, (%rcx,%rdx)
	addq	$32, %rdx
	cmpq	%rdx, %rax
	jne	12b
	cmpq	%rax, %r13
	je	9b
	testb	$28, %r13b
	je	4b
13:
	movq	%rax, %rcx
	movq	%r13, %rax
	andq	$-4, %rax
	.p2align	4
14:
	movl	80(%rsp,%rcx), %edx
	movl	%edx, (%rdi,%rcx)
	addq	$4, %rcx
	cmpq	%rcx, %rax
	jne	14b
	cmpq	%rax, %r13
	jne	4b
	jmp	9b
15:
	leaq	24(%rsp), %rdi
	movq	%r13, %rsi
	callq	std_alloc..vec..Vec..grow_amortized..01eec35b572d02af_1_x86
	testb	%al, %al
	je	27f
	movq	24(%rsp), %rcx
	movq	32(%rsp), %r15
	movq	40(%rsp), %rax
	movq	%rax, 16(%rsp)
	jmp	2b
16:
	movw	$1, (%rbx)
	xorps	%xmm0, %xmm0
	movups	%xmm0, 8(%rbx)
	movups	%xmm0, 24(%rbx)
	jmp	26f
17:
	movq	176(%rsp), %rax
	movq	%rax, 64(%rsp)
	movaps	160(%rsp), %xmm0
	movaps	%xmm0, 48(%rsp)
	cmpq	$0, 16(%rsp)
	je	18f
	movq	%r14, %rdi
	vj_call	rattle_dealloc
18:
	movq	8(%rsp), %rcx
	movw	$0, (%rcx)
	jmp	24f
19:
	movq	8(%rsp), %rcx
	movw	$0, (%rcx)
	movq	$1, 8(%rcx)
	movups	24(%rsp), %xmm0
	movups	%xmm0, 16(%rcx)
	jmp	21f
20:
	movq	8(%rsp), %rcx
	movw	$0, (%rcx)
	movq	$1, 8(%rcx)
	movq	24(%rsp), %rax
	movq	%rax, 16(%rcx)
	movq	32(%rsp), %rax
	movq	%rax, 24(%rcx)
21:
	movq	40(%rsp), %rax
	jmp	25f
22:
	cmpq	$0, 16(%rsp)
	je	23f
	movq	24(%rsp), %rdi
	vj_call	rattle_dealloc
23:
	movq	8(%rsp), %rcx
	movw	$1, (%rcx)
24:
	movq	$0, 8(%rcx)
	movaps	48(%rsp), %xmm0
	movups	%xmm0, 16(%rcx)
	movq	64(%rsp), %rax
25:
	movq	%rax, 32(%rcx)
26:
	addq	$184, %rsp
	popq	%rbx
	popq	%r12
	popq	%r13
	popq	%r14
	popq	%r15
	popq	%rbp
	retq
27:
	cmpq	$0, 40(%rsp)
	je	28f
	movq	24(%rsp), %rdi
	vj_call	rattle_dealloc
28:
	movq	8(%rsp), %rax
	movw	$1, (%rax)
	xorps	%xmm0, %xmm0
	movups	%xmm0, 8(%rax)
	movups	%xmm0, 24(%rax)
	jmp	26b
	vj_end	b2sum_commands..key..read_bytes..5254a3ddd78d1e3f_1_x86

	vj_function	b2sum..disk..OpenedOpenFile..read..ec2583f154d97a77_1_x86
	pushq	%r14
	pushq	%rbx
	subq	$328, %rsp
	movq	%rdx, %r14
	movq	%rdi, %rbx
	cmpb	$0, (%rdi)
	je	1f
	xorl	%edi, %edi
	movq	%r14, %rdx
	vj_call	b2sum_read
	xorps	%xmm0, %xmm0
	movaps	%xmm0, 160(%rsp)
	movaps	%xmm0, 176(%rsp)
	movaps	%xmm0, 192(%rsp)
	movaps	%xmm0, 208(%rsp)
	movaps	%xmm0, 224(%rsp)
	testq	%rax, %rax
	js	2f
	cmpq	%r14, %rax
	cmovbq	%rax, %r14
	xorl	%eax, %eax
	jmp	3f
1:
	movl	4(%rbx), %edi
	movq	%r14, %rdx
	vj_call	b2sum_read
	xorps	%xmm0, %xmm0
	movaps	%xmm0, 80(%rsp)
	movaps	%xmm0, 96(%rsp)
	movaps	%xmm0, 112(%rsp)
	movaps	%xmm0, 128(%rsp)
	movaps	%xmm0, 144(%rsp)
	testq	%rax, %rax
	js	6f
	cmpq	%r14, %rax
	cmovbq	%rax, %r14
	xorl	%eax, %eax
	jmp	7f
2:
	leaq	240(%rsp), %rdi
	callq	std_io..io..error..last_error_1_x86
	movq	240(%rsp), %r14
	movups	248(%rsp), %xmm0
	movaps	%xmm0, 160(%rsp)
	movups	264(%rsp), %xmm0
	movaps	%xmm0, 176(%rsp)
	movups	280(%rsp), %xmm0
	movaps	%xmm0, 192(%rsp)
	movups	296(%rsp), %xmm0
	movaps	%xmm0, 208(%rsp)
	movups	312(%rsp), %xmm0
	movaps	%xmm0, 224(%rsp)
	movb	$1, %al
3:
	movaps	160(%rsp), %xmm0
	movaps	176(%rsp), %xmm1
	movaps	192(%rsp), %xmm2
	movaps	208(%rsp), %xmm3
	movaps	%xmm0, (%rsp)
	movaps	%xmm1, 16(%rsp)
	movaps	%xmm2, 32(%rsp)
	movaps	%xmm3, 48(%rsp)
	movaps	224(%rsp), %xmm0
	movaps	%xmm0, 64(%rsp)
	testb	%al, %al
	je	5f
4:
	movq	$1, 32(%rbx)
	movq	%r14, 40(%rbx)
	movaps	(%rsp), %xmm0
	movaps	16(%rsp), %xmm1
	movaps	32(%rsp), %xmm2
	movaps	48(%rsp), %xmm3
	movups	%xmm0, 48(%rbx)
	movups	%xmm1, 64(%rbx)
	movups	%xmm2, 80(%rbx)
	movups	%xmm3, 96(%rbx)
	movaps	64(%rsp), %xmm0
	movups	%xmm0, 112(%rbx)
	xorl	%r14d, %r14d
5:
	movq	%r14, %rdx
	addq	$328, %rsp
	popq	%rbx
	popq	%r14
	retq
6:
	leaq	240(%rsp), %rdi
	callq	std_io..io..error..last_error_1_x86
	movq	240(%rsp), %r14
	movups	248(%rsp), %xmm0
	movaps	%xmm0, 80(%rsp)
	movups	264(%rsp), %xmm0
	movaps	%xmm0, 96(%rsp)
	movups	280(%rsp), %xmm0
	movaps	%xmm0, 112(%rsp)
	movups	296(%rsp), %xmm0
	movaps	%xmm0, 128(%rsp)
	movups	312(%rsp), %xmm0
	movaps	%xmm0, 144(%rsp)
	movb	$1, %al
7:
	movaps	80(%rsp), %xmm0
	movaps	96(%rsp), %xmm1
	movaps	112(%rsp), %xmm2
	movaps	128(%rsp), %xmm3
	movaps	%xmm0, (%rsp)
	movaps	%xmm1, 16(%rsp)
	movaps	%xmm2, 32(%rsp)
	movaps	%xmm3, 48(%rsp)
	movaps	144(%rsp), %xmm0
	movaps	%xmm0, 64(%rsp)
	testb	%al, %al
	jne	4b
	jmp	5b
	vj_end	b2sum..disk..OpenedOpenFile..read..ec2583f154d97a77_1_x86

	vj_function	b2sum_commands..key..key_of_file_bytes_1_x86
	pushq	%rbp
	pushq	%r15
	pushq	%r14
	pushq	%r13
	pushq	%r12
	pushq	%rbx
	subq	$40, %rsp
	movq	%rdi, %rbx
	movq	(%rcx), %r14
	movq	8(%rcx), %rax
	movq	16(%rcx), %r12
	xorps	%xmm0, %xmm0
	movaps	%xmm0, 16(%rsp)
	movaps	%xmm0, (%rsp)
	testb	$1, %sil
	je	1f
	movq	%rdx, %r15
	testq	%rax, %rax
	je	4f
	leaq	-1(%rax), %rdx
	cmpb	$10, -1(%r14,%rax)
	cmovneq	%rax, %rdx
	jmp	5f
1:
	leaq	-1(%rax), %rsi
	movl	$1, %ecx
	cmpq	%rdx, %rsi
	jb	3f
	testq	%r12, %r12
	je	2f
	movq	%r14, %rdi
	vj_call	rattle_dealloc
2:
	xorl	%r14d, %r14d
	xorl	%eax, %eax
	xorl	%r12d, %r12d
	xorl	%ecx, %ecx
3:
	movw	$0, (%rbx)
	movq	%rcx, 8(%rbx)
	movq	%r14, 16(%rbx)
	movq	%rax, 24(%rbx)
	movq	%r12, 32(%rbx)
	jmp	14f
4:
	xorl	%edx, %edx
5:
	movq	%rsp, %rdi
	movq	%r14, %rsi
	callq	hex..decode..1a9ba769f0efa4a8_1_x86
	cmpb	$0, (%rsp)
	je	7f
	cmpb	$3, 8(%rsp)
	jne	11f
	testq	%r12, %r12
	je	6f
	movq	%r14, %rdi
	vj_call	rattle_dealloc
6:
	movw	$1, (%rbx)
	jmp	13f
7:
	movq	8(%rsp), %rdi
	movq	16(%rsp), %r13
	movq	24(%rsp), %rbp
	leaq	-1(%r13), %rax
	movl	$1, %ecx
	cmpq	%r15, %rax
	jb	9f
	testq	%rbp, %rbp
	je	8f
	vj_call	rattle_dealloc
8:
	xorl	%edi, %edi
	xorl	%r13d, %r13d
	xorl	%ebp, %ebp
	xorl	%ecx, %ecx
9:
	testq	%r12, %r12
	je	10f
	movq	%rdi, %r15
	movq	%r14, %rdi
	movq	%rcx, %r14
	vj_call	rattle_dealloc
	movq	%r14, %rcx
	movq	%r15, %rdi
10:
	movw	$0, (%rbx)
	movq	%rcx, 8(%rbx)
	movq	%rdi, 16(%rbx)
	movq	%r13, 24(%rbx)
	movq	%rbp, 32(%rbx)
	jmp	14f
11:
	testq	%r12, %r12
	je	12f
	movq	%r14, %rdi
	vj_call	rattle_dealloc
12:
	movw	$0, (%rbx)
13:
	xorps	%xmm0, %xmm0
	movups	%xmm0, 8(%rbx)
	movups	%xmm0, 24(%rbx)
14:
	addq	$40, %rsp
	popq	%rbx
	popq	%r12
	popq	%r13
	popq	%r14
	popq	%r15
	popq	%rbp
	retq
	vj_end	b2sum_commands..key..key_of_file_bytes_1_x86

	vj_function	b2sum_commands..messages..warn_of_name..068f3e307c5390f2_1_x86
	pushq	%r15
	pushq	%r14
	pushq	%r13
	pushq	%r12
	pushq	%rbx
	subq	$64, %rsp
	movq	%r9, %r15
	movq	%r8, %r14
	movq	%rsi, %rbx
	movq	%rdi, %r13
	xorps	%xmm0, %xmm0
	movaps	%xmm0, 48(%rsp)
	movaps	%xmm0, 32(%rsp)
	leaq	32(%rsp), %rdi
	movq	%rdx, %rsi
	movq	%rcx, %rdx
	callq	b2sum_commands..quoting..quoted_name_1_x86
	movb	$1, %al
	cmpb	$0, 32(%rsp)
	jne	1f
	movq	40(%rsp), %r12
	movq	48(%rsp), %r8
	movq	(%r13), %rdi
	movq	8(%r13), %rsi
	movq	56(%rsp), %r13
	movq	%r15, 16(%rsp)
	movq	%r14, 8(%rsp)
	movq	$2, (%rsp)
	leaq	.L1_x86_static.123(%rip), %r9
	movq	%rbx, %rdx
	movq	%r12, %rcx
	callq	b2sum_commands..messages..warn..068f3e307c5390f2_1_x86
	testq	%r13, %r13
	je	1f
	movq	%r12, %rdi
	movl	%eax, %ebx
	vj_call	rattle_dealloc
	movl	%ebx, %eax
1:
	addq	$64, %rsp
	popq	%rbx
	popq	%r12
	popq	%r13
	popq	%r14
	popq	%r15
	retq
	vj_end	b2sum_commands..messages..warn_of_name..068f3e307c5390f2_1_x86

	vj_function	b2sum_commands..quoting..quoted_name_1_x86
	pushq	%rbp
	pushq	%r15
	pushq	%r14
	pushq	%r13
	pushq	%r12
	pushq	%rbx
	subq	$56, %rsp
	movq	%rdx, %r14
	movq	%rsi, %r15
	movq	%rdi, %rbx
	leaq	47(%rsp), %rax
	movq	%rax, 16(%rsp)
	xorps	%xmm0, %xmm0
	movups	%xmm0, 24(%rsp)
	testq	%rdx, %rdx
	je	6f
	movq	%rax, 48(%rsp)
	movq	%rbx, %r12
	movzbl	(%r15), %r13d
	cmpl	$35, %r13d
	je	1f
	cmpl	$126, %r13d
	jne	15f
1:
	leaq	.L1_x86_static.5(%rip), %rdx
	movq	%r15, %rdi
	movq	%r14, %rsi
	callq	core..slice..reads..slice.T..contains..i8.31.core..cmp..numbers..U8PartialEq_1_x86
	testb	%al, %al
	movq	%r12, %rbx
	je	30f
2:
	cmpl	$35, %r13d
	je	3f
	cmpl	$126, %r13d
	jne	29f
3:
	cmpq	$1, %r14
	je	7f
	movl	$1, %r12d
	jmp	5f
	.p2align	4
4:
	incq	%r12
	cmpq	%r12, %r14
	je	7f
5:
	movzbl	(%r15,%r12), %eax
	movb	%al, 15(%rsp)
	leal	-48(%rax), %ecx
	cmpb	$10, %cl
	jb	4b
	andb	$-33, %al
	addb	$-65, %al
	cmpb	$25, %al
	jbe	4b
	leaq	.L1_x86_static.125(%rip), %rdi
	leaq	15(%rsp), %rdx
	movl	$11, %esi
	callq	core..slice..reads..slice.T..contains..i8.31.core..cmp..numbers..U8PartialEq_1_x86
	testb	%al, %al
	jne	4b
	jmp	30f
6:
	leaq	.L1_x86_static.5(%rip), %rdx
	movq	%r15, %rdi
	xorl	%esi, %esi
	callq	core..slice..reads..slice.T..contains..i8.31.core..cmp..numbers..U8PartialEq_1_x86
	testb	%al, %al
	je	30f
7:
	movq	24(%rsp), %rax
	movq	32(%rsp), %r13
	cmpq	%rax, %r13
	je	62f
	leaq	47(%rsp), %r12
8:
	movb	$34, (%r12,%rax)
	incq	%rax
	movq	%rax, 24(%rsp)
	movq	%r13, %rcx
	subq	%rax, %rcx
	cmpq	%rcx, %r14
	ja	63f
9:
	leaq	(%rax,%r14), %rbp
	leaq	(%r12,%rax), %rdi
	movq	%rdi, %rcx
	subq	%r15, %rcx
	cmpq	%r14, %rcx
	jae	17f
	cmpq	$4, %r14
	jb	10f
	cmpq	$32, %rcx
	jae	53f
10:
	xorl	%ecx, %ecx
11:
	movq	%r14, %rsi
	movq	%rcx, %rdx
	andq	$3, %rsi
	je	13f
	movq	%rcx, %rdx
	.p2align	4
12:
	movzbl	(%r15,%rdx), %r8d
	movb	%r8b, (%rdi,%rdx)
	incq	%rdx
	decq	%rsi
	jne	12b
13:
	subq	%r14, %rcx
	cmpq	$-4, %rcx
	ja	18f
	addq	%r12, %rax
	addq	$3, %rax
	.p2align	4
14:
	movzbl	(%r15,%rdx), %ecx
	movb	%cl, -3(%rax,%rdx)
	movzbl	1(%r15,%rdx), %ecx
	movb	%cl, -2(%rax,%rdx)
	movzbl	2(%r15,%rdx), %ecx
	movb	%cl, -1(%rax,%rdx)
	movzbl	3(%r15,%rdx), %ecx
	movb	%cl, (%rax,%rdx)
	addq	$4, %rdx
	cmpq	%rdx, %r14
	jne	14b
	jmp	18f
15:
	cmpq	$1, %r14
	jne	20f
	cmpl	$123, %r13d
	je	1b
	cmpl	$125, %r13d
	je	1b
	movb	%r13b, 15(%rsp)
	leaq	.L1_x86_static.124(%rip), %rdi
	leaq	15(%rsp), %rdx
	movl	$20, %esi
	callq	core..slice..reads..slice.T..contains..i8.31.core..cmp..numbers..U8PartialEq_1_x86
	leal	-127(%r13), %ecx
	cmpb	$-95, %cl
	jb	16f
	testb	%al, %al
	je	22f
16:
	leaq	.L1_x86_static.5(%rip), %rdx
	movl	$1, %esi
	movq	%r15, %rdi
	callq	core..slice..reads..slice.T..contains..i8.31.core..cmp..numbers..U8PartialEq_1_x86
	testb	%al, %al
	movq	%r12, %rbx
	jne	2b
	jmp	30f
17:
	movq	%r15, %rsi
	movq	%r14, %rdx
	vj_c_call	memmove
18:
	movq	%r12, 16(%rsp)
	movq	%rbp, 24(%rsp)
	movq	%r13, 32(%rsp)
	cmpq	%rbp, %r13
	je	64f
19:
	movb	$34, (%r12,%rbp)
	incq	%rbp
	movq	%rbp, 24(%rsp)
	jmp	51f
20:
	xorl	%ebp, %ebp
	.p2align	4
21:
	movzbl	(%r15,%rbp), %ebx
	movb	%bl, 15(%rsp)
	leaq	.L1_x86_static.124(%rip), %rdi
	leaq	15(%rsp), %rdx
	movl	$20, %esi
	callq	core..slice..reads..slice.T..contains..i8.31.core..cmp..numbers..U8PartialEq_1_x86
	addb	$-127, %bl
	cmpb	$-95, %bl
	jb	1b
	testb	%al, %al
	jne	1b
	incq	%rbp
	cmpq	%rbp, %r14
	jne	21b
22:
	movq	24(%rsp), %rax
	movq	32(%rsp), %r13
	movq	%r13, %rcx
	subq	%rax, %rcx
	cmpq	%rcx, %r14
	movq	%r12, %rbx
	ja	70f
23:
	leaq	(%rax,%r14), %rbp
	movq	48(%rsp), %r12
	leaq	(%r12,%rax), %rdi
	movq	%rdi, %rcx
	subq	%r15, %rcx
	cmpq	%r14, %rcx
	jae	54f
	cmpq	$4, %r14
	jb	24f
	cmpq	$32, %rcx
	jae	65f
24:
	xorl	%ecx, %ecx
25:
	movq	%r14, %rsi
	movq	%rcx, %rdx
	andq	$3, %rsi
	je	27f
	movq	%rcx, %rdx
	.p2align	4
26:
	movzbl	(%r15,%rdx), %r8d
	movb	%r8b, (%rdi,%rdx)
	incq	%rdx
	decq	%rsi
	jne	26b
27:
	subq	%r14, %rcx
	cmpq	$-4, %rcx
	ja	55f
	addq	%r12, %rax
	addq	$3, %rax
	.p2align	4
28:
	movzbl	(%r15,%rdx), %ecx
	movb	%cl, -3(%rax,%rdx)
	movzbl	1(%r15,%rdx), %ecx
	movb	%cl, -2(%rax,%rdx)
	movzbl	2(%r15,%rdx), %ecx
	movb	%cl, -1(%rax,%rdx)
	movzbl	3(%r15,%rdx), %ecx
	movb	%cl, (%rax,%rdx)
	addq	$4, %rdx
	cmpq	%rdx, %r14
	jne	28b
	jmp	55f
29:
	movb	%r13b, 15(%rsp)
	leal	-48(%r13), %eax
	cmpb	$10, %al
	jb	3b
	andb	$-33, %r13b
	addb	$-65, %r13b
	cmpb	$25, %r13b
	jbe	3b
	leaq	.L1_x86_static.125(%rip), %rdi
	leaq	15(%rsp), %rdx
	movl	$11, %esi
	callq	core..slice..reads..slice.T..contains..i8.31.core..cmp..numbers..U8PartialEq_1_x86
	testb	%al, %al
	jne	3b
30:
	movq	24(%rsp), %rcx
	cmpq	%rcx, 32(%rsp)
	je	56f
	leaq	47(%rsp), %rdx
31:
	leaq	1(%rcx), %rax
	movb	$39, (%rdx,%rcx)
	movq	%rax, 24(%rsp)
	testq	%r14, %r14
	je	49f
	xorl	%edx, %edx
	xorl	%r12d, %r12d
	jmp	36f
32:
	movb	$39, 2(%rsi)
	movw	$9255, (%rsi)
33:
	addq	$3, %rax
	movq	%rdx, 16(%rsp)
	movq	%rax, 24(%rsp)
	movq	%rcx, 32(%rsp)
34:
	movzbl	%r13b, %esi
	leaq	16(%rsp), %rdi
	callq	b2sum_commands..quoting..push_escape_1_x86
	testb	%al, %al
	jne	71f
35:
	movzbl	(%r15,%r12), %eax
	addb	$-127, %al
	cmpb	$-95, %al
	setb	%dl
	incq	%r12
	cmpq	%r12, %r14
	je	48f
36:
	movzbl	(%r15,%r12), %r13d
	cmpb	$39, %r13b
	jne	38f
	movq	24(%rsp), %rax
	movq	32(%rsp), %rcx
	movq	%rcx, %rdx
	subq	%rax, %rdx
	cmpq	$3, %rdx
	jbe	44f
37:
	movq	16(%rsp), %rdx
	movl	$656890919, (%rdx,%rax)
	addq	$4, %rax
	movq	%rdx, 16(%rsp)
	movq	%rax, 24(%rsp)
	movq	%rcx, 32(%rsp)
	jmp	35b
	.p2align	4
38:
	leal	-32(%r13), %eax
	cmpb	$94, %al
	ja	42f
	movq	24(%rsp), %rax
	movq	32(%rsp), %rcx
	testb	$1, %dl
	je	40f
	movq	%rcx, %rdx
	subq	%rax, %rdx
	cmpq	$1, %rdx
	jbe	46f
39:
	movq	16(%rsp), %rdx
	movw	$10023, (%rdx,%rax)
	addq	$2, %rax
	movq	%rdx, 16(%rsp)
	movq	%rax, 24(%rsp)
	movq	%rcx, 32(%rsp)
40:
	cmpq	%rax, %rcx
	je	45f
41:
	movq	16(%rsp), %rcx
	movb	%r13b, (%rcx,%rax)
	incq	%rax
	movq	%rax, 24(%rsp)
	jmp	35b
	.p2align	4
42:
	testb	$1, %dl
	jne	34b
	movq	24(%rsp), %rax
	movq	32(%rsp), %rcx
	movq	%rcx, %rdx
	subq	%rax, %rdx
	cmpq	$2, %rdx
	jbe	47f
43:
	movq	16(%rsp), %rdx
	leaq	(%rdx,%rax), %rsi
	leaq	.L1_x86_static.128(%rip), %rdi
	movq	%rsi, %r8
	subq	%rdi, %r8
	cmpq	$2, %r8
	ja	32b
	movw	$9255, (%rsi)
	movb	$39, 2(%rsi)
	jmp	33b
44:
	leaq	16(%rsp), %rdi
	movl	$4, %esi
	callq	std_alloc..vec..Vec..grow_amortized..01eec35b572d02af_1_x86
	testb	%al, %al
	je	71f
	movq	24(%rsp), %rax
	movq	32(%rsp), %rcx
	jmp	37b
45:
	leaq	16(%rsp), %rdi
	movl	$1, %esi
	callq	std_alloc..vec..Vec..grow_amortized..01eec35b572d02af_1_x86
	testb	%al, %al
	je	71f
	movq	24(%rsp), %rax
	jmp	41b
46:
	leaq	16(%rsp), %rdi
	movl	$2, %esi
	callq	std_alloc..vec..Vec..grow_amortized..01eec35b572d02af_1_x86
	testb	%al, %al
	je	71f
	movq	24(%rsp), %rax
	movq	32(%rsp), %rcx
	jmp	39b
47:
	leaq	16(%rsp), %rdi
	movl	$3, %esi
	callq	std_alloc..vec..Vec..grow_amortized..01eec35b572d02af_1_x86
	testb	%al, %al
	je	71f
	movq	24(%rsp), %rax
	movq	32(%rsp), %rcx
	jmp	43b
48:
	movq	24(%rsp), %rax
49:
	cmpq	%rax, 32(%rsp)
	je	57f
50:
	movq	16(%rsp), %rcx
	movb	$39, (%rcx,%rax)
	incq	%rax
	movq	%rax, 24(%rsp)
51:
	movb	$0, (%rbx)
	movq	16(%rsp), %rax
	movq	%rax, 8(%rbx)
	movq	24(%rsp), %rax
	movq	%rax, 16(%rbx)
	movq	32(%rsp), %rax
	movq	%rax, 24(%rbx)
52:
	addq	$56, %rsp
	popq	%rbx
	popq	%r12
	popq	%r13
	popq	%r14
	popq	%r15
	popq	%rbp
	retq
53:
	cmpq	$32, %r14
	jae	58f
	xorl	%ecx, %ecx
	jmp	60f
54:
	movq	%r15, %rsi
	movq	%r14, %rdx
	vj_c_call	memmove
55:
	movq	%r12, 16(%rsp)
	movq	%rbp, 24(%rsp)
	movq	%r13, 32(%rsp)
	jmp	51b
56:
	leaq	16(%rsp), %rdi
	movl	$1, %esi
	callq	std_alloc..vec..Vec..grow_amortized..01eec35b572d02af_1_x86
	testb	%al, %al
	je	71f
	movq	16(%rsp), %rdx
	movq	24(%rsp), %rcx
	jmp	31b
57:
	leaq	16(%rsp), %rdi
	movl	$1, %esi
	callq	std_alloc..vec..Vec..grow_amortized..01eec35b572d02af_1_x86
	testb	%al, %al
	je	71f
	movq	24(%rsp), %rax
	jmp	50b
58:
	movq	%r14, %rcx
	andq	$-32, %rcx
	leaq	(%rax,%r12), %rdx
	addq	$16, %rdx
	xorl	%esi, %esi
	.p2align	4
59:
	movups	(%r15,%rsi), %xmm0
	movups	16(%r15,%rsi), %xmm1
	movups	%xmm0, -16(%rdx,%rsi)
	movups	%xmm1, (%rdx,%rsi)
	addq	$32, %rsi
	cmpq	%rsi, %rcx
	jne	59b
	cmpq	%rcx, %r14
	je	18b
	testb	$28, %r14b
	je	11b
60:
	movq	%rcx, %rdx
	movq	%r14, %rcx
	andq	$-4, %rcx
	.p2align	4
61:
	movl	(%r15,%rdx), %esi
	movl	%esi, (%rdi,%rdx)
	addq	$4, %rdx
	cmpq	%rdx, %rcx
	jne	61b
	cmpq	%rcx, %r14
	je	18b
	jmp	11b
62:
	leaq	16(%rsp), %rdi
	movl	$1, %esi
	callq	std_alloc..vec..Vec..grow_amortized..01eec35b572d02af_1_x86
	testb	%al, %al
	je	71f
	movq	16(%rsp), %r12
	movq	24(%rsp), %rax
	movq	32(%rsp), %r13
	jmp	8b
63:
	leaq	16(%rsp), %rdi
	movq	%r14, %rsi
	callq	std_alloc..vec..Vec..grow_amortized..01eec35b572d02af_1_x86
	testb	%al, %al
	je	71f
	movq	16(%rsp), %r12
	movq	24(%rsp), %rax
	movq	32(%rsp), %r13
	jmp	9b
64:
	leaq	16(%rsp), %rdi
	movl	$1, %esi
	callq	std_alloc..vec..Vec..grow_amortized..01eec35b572d02af_1_x86
	testb	%al, %al
	je	71f
	movq	16(%rsp), %r12
	movq	24(%rsp), %rbp
	jmp	19b
65:
	cmpq	$32, %r14
	jae	66f
	xorl	%ecx, %ecx
	jmp	68f
66:
	movq	%r14, %rcx
	andq	$-32, %rcx
	leaq	(%rax,%r12), %rdx
	addq	$16, %rdx
	xorl	%esi, %esi
67:
	movups	(%r15,%rsi), %xmm0
	movups	16(%r15,%rsi), %xmm1
	movups	%xmm0, -16(%rdx,%rsi)
	movups	%xmm1, (%rdx,%rsi)
	addq	$32, %rsi
	cmpq	%rsi, %rcx
	jne	67b
	cmpq	%rcx, %r14
	je	55b
	testb	$28, %r14b
	je	25b
68:
	movq	%rcx, %rdx
	movq	%r14, %rcx
	andq	$-4, %rcx
69:
	movl	(%r15,%rdx), %esi
	movl	%esi, (%rdi,%rdx)
	addq	$4, %rdx
	cmpq	%rdx, %rcx
	jne	69b
	cmpq	%rcx, %r14
	je	55b
	jmp	25b
70:
	leaq	16(%rsp), %rdi
	movq	%r14, %rsi
	callq	std_alloc..vec..Vec..grow_amortized..01eec35b572d02af_1_x86
	testb	%al, %al
	je	71f
	movq	16(%rsp), %rax
	movq	%rax, 48(%rsp)
	movq	24(%rsp), %rax
	movq	32(%rsp), %r13
	jmp	23b
71:
	cmpq	$0, 32(%rsp)
	je	72f
	movq	16(%rsp), %rdi
	vj_call	rattle_dealloc
72:
	movb	$1, (%rbx)
	xorps	%xmm0, %xmm0
	movups	%xmm0, 8(%rbx)
	movq	$0, 24(%rbx)
	jmp	52b
	vj_end	b2sum_commands..quoting..quoted_name_1_x86

	vj_function	b2sum_commands..messages..warn..068f3e307c5390f2_1_x86
	pushq	%rbp
	pushq	%r15
	pushq	%r14
	pushq	%r13
	pushq	%r12
	pushq	%rbx
	subq	$232, %rsp
	movq	%rdx, %rbx
	movq	%rsi, %rdx
	movq	%rdi, %rsi
	movaps	288(%rsp), %xmm0
	movq	304(%rsp), %rax
	xorps	%xmm1, %xmm1
	movaps	%xmm1, 48(%rsp)
	movaps	%xmm1, 32(%rsp)
	movq	%rax, 16(%rsp)
	movups	%xmm0, (%rsp)
	leaq	32(%rsp), %rdi
	callq	b2sum_commands..messages..line_of_1_x86
	movzbl	32(%rsp), %ebp
	testb	%bpl, %bpl
	jne	5f
	movq	40(%rsp), %r14
	movq	48(%rsp), %r13
	movq	56(%rsp), %rax
	movq	%rax, 24(%rsp)
	testq	%r13, %r13
	je	3f
	testb	$1, (%rbx)
	jne	3f
	xorl	%r12d, %r12d
	.p2align	4
1:
	leaq	(%r14,%r12), %rsi
	movq	%r13, %r15
	subq	%r12, %r15
	movl	$2, %edi
	movq	%r15, %rdx
	vj_system_call	write, b2_write
	testq	%rax, %rax
	js	2f
	cmpq	%r15, %rax
	cmovbq	%rax, %r15
	testq	%r15, %r15
	je	6f
	addq	%r15, %r12
	cmpq	%r13, %r12
	jb	1b
	jmp	3f
2:
	leaq	144(%rsp), %rdi
	callq	std_io..io..error..last_error_1_x86
	movq	144(%rsp), %rax
	movups	152(%rsp), %xmm0
	movaps	%xmm0, 64(%rsp)
	movups	168(%rsp), %xmm0
	movaps	%xmm0, 80(%rsp)
	movups	184(%rsp), %xmm0
	movaps	%xmm0, 96(%rsp)
	movups	200(%rsp), %xmm0
	movaps	%xmm0, 112(%rsp)
	movups	216(%rsp), %xmm0
	movaps	%xmm0, 128(%rsp)
	movq	$1, (%rbx)
	movq	%rax, 8(%rbx)
	movaps	64(%rsp), %xmm0
	movaps	80(%rsp), %xmm1
	movaps	96(%rsp), %xmm2
	movaps	112(%rsp), %xmm3
	movups	%xmm0, 16(%rbx)
	movups	%xmm1, 32(%rbx)
	movups	%xmm2, 48(%rbx)
	movups	%xmm3, 64(%rbx)
	movaps	128(%rsp), %xmm0
	movups	%xmm0, 80(%rbx)
3:
	cmpq	$0, 24(%rsp)
	je	5f
4:
	movq	%r14, %rdi
	vj_call	rattle_dealloc
5:
	movl	%ebp, %eax
	addq	$232, %rsp
	popq	%rbx
	popq	%r12
	popq	%r13
	popq	%r14
	popq	%r15
	popq	%rbp
	retq
6:
	movq	$1, (%rbx)
	movw	$5889, 8(%rbx)
	xorps	%xmm0, %xmm0
	movups	%xmm0, 10(%rbx)
	movups	%xmm0, 26(%rbx)
	movups	%xmm0, 42(%rbx)
	movups	%xmm0, 58(%rbx)
	movups	%xmm0, 74(%rbx)
	movq	$0, 88(%rbx)
	cmpq	$0, 24(%rsp)
	jne	4b
	jmp	5b
	vj_end	b2sum_commands..messages..warn..068f3e307c5390f2_1_x86

	vj_function	b2sum_commands..messages..line_of_1_x86
	pushq	%rbp
	pushq	%r15
	pushq	%r14
	pushq	%r13
	pushq	%r12
	pushq	%rbx
	subq	$40, %rsp
	movq	%r9, %r14
	movq	%r8, %r15
	movq	%rcx, %r12
	movq	%rdi, %rbp
	leaq	39(%rsp), %r13
	movq	%r13, (%rsp)
	xorps	%xmm0, %xmm0
	movups	%xmm0, 8(%rsp)
	testq	%rdx, %rdx
	jne	39f
	xorl	%r11d, %r11d
	xorl	%eax, %eax
1:
	leaq	(%rax,%rdx), %rbx
	leaq	(%rax,%r13), %rdi
	movq	%rdi, %rcx
	subq	%rsi, %rcx
	cmpq	%rdx, %rcx
	jae	7f
	cmpq	$4, %rdx
	jb	2f
	cmpq	$32, %rcx
	jae	32f
2:
	xorl	%ecx, %ecx
3:
	movq	%rdx, %r9
	movq	%rcx, %r8
	andq	$3, %r9
	je	5f
	movq	%rcx, %r8
	.p2align	4
4:
	movzbl	(%rsi,%r8), %r10d
	movb	%r10b, (%rdi,%r8)
	incq	%r8
	decq	%r9
	jne	4b
5:
	subq	%rdx, %rcx
	cmpq	$-4, %rcx
	ja	8f
	addq	%r13, %rax
	addq	$3, %rax
	.p2align	4
6:
	movzbl	(%rsi,%r8), %ecx
	movb	%cl, -3(%rax,%r8)
	movzbl	1(%rsi,%r8), %ecx
	movb	%cl, -2(%rax,%r8)
	movzbl	2(%rsi,%r8), %ecx
	movb	%cl, -1(%rax,%r8)
	movzbl	3(%rsi,%r8), %ecx
	movb	%cl, (%rax,%r8)
	addq	$4, %r8
	cmpq	%r8, %rdx
	jne	6b
	jmp	8f
7:
	movq	%r13, 24(%rsp)
	movq	%rbx, %r13
	movq	%r15, %rbx
	movq	%rbp, %r15
	movq	%r11, %rbp
	vj_c_call	memmove
	movq	%rbp, %r11
	movq	%r15, %rbp
	movq	%rbx, %r15
	movq	%r13, %rbx
	movq	24(%rsp), %r13
8:
	movq	%rbx, 8(%rsp)
	movq	%r11, 16(%rsp)
	movq	%r11, %rax
	subq	%rbx, %rax
	cmpq	$1, %rax
	jbe	44f
9:
	addq	%rbx, %r13
	addq	$2, %rbx
	leaq	.L1_x86_static.123(%rip), %rax
	movq	%r13, %rcx
	subq	%rax, %rcx
	cmpq	$1, %rcx
	movw	$8250, (%r13)
	movq	%rbx, 8(%rsp)
	movq	%r11, 16(%rsp)
	movq	%r11, %rax
	subq	%rbx, %rax
	cmpq	%rax, %r15
	ja	49f
10:
	movq	%rbp, 24(%rsp)
	movq	96(%rsp), %r13
	leaq	(%rbx,%r15), %rbp
	movq	(%rsp), %r8
	leaq	(%r8,%rbx), %rdi
	movq	%rdi, %rax
	subq	%r12, %rax
	cmpq	%r15, %rax
	jae	16f
	cmpq	$4, %r15
	jb	11f
	cmpq	$32, %rax
	jae	33f
11:
	xorl	%eax, %eax
12:
	movq	%r15, %rdx
	movq	%rax, %rcx
	andq	$3, %rdx
	je	14f
	movq	%rax, %rcx
	.p2align	4
13:
	movzbl	(%r12,%rcx), %esi
	movb	%sil, (%rdi,%rcx)
	incq	%rcx
	decq	%rdx
	jne	13b
14:
	subq	%r15, %rax
	cmpq	$-4, %rax
	ja	17f
	leaq	(%rbx,%r8), %rax
	addq	$3, %rax
	.p2align	4
15:
	movzbl	(%r12,%rcx), %edx
	movb	%dl, -3(%rax,%rcx)
	movzbl	1(%r12,%rcx), %edx
	movb	%dl, -2(%rax,%rcx)
	movzbl	2(%r12,%rcx), %edx
	movb	%dl, -1(%rax,%rcx)
	movzbl	3(%r12,%rcx), %edx
	movb	%dl, (%rax,%rcx)
	addq	$4, %rcx
	cmpq	%rcx, %r15
	jne	15b
	jmp	17f
16:
	movq	%r12, %rsi
	movq	%r15, %rdx
	movq	%r11, %rbx
	movq	%r8, %r15
	vj_c_call	memmove
	movq	%r15, %r8
	movq	%rbx, %r11
17:
	movq	%rbp, 8(%rsp)
	movq	%r11, 16(%rsp)
	movq	%r11, %rax
	subq	%rbp, %rax
	cmpq	%rax, %r13
	ja	52f
18:
	movq	112(%rsp), %r15
	movq	104(%rsp), %r12
	movq	%rbp, %rbx
	addq	%r13, %rbx
	leaq	(%r8,%rbp), %rdi
	movq	%rdi, %rax
	subq	%r14, %rax
	cmpq	%r13, %rax
	jae	24f
	cmpq	$4, %r13
	jb	19f
	cmpq	$32, %rax
	jae	34f
19:
	xorl	%eax, %eax
20:
	movq	%r13, %rdx
	movq	%rax, %rcx
	andq	$3, %rdx
	je	22f
	movq	%rax, %rcx
	.p2align	4
21:
	movzbl	(%r14,%rcx), %esi
	movb	%sil, (%rdi,%rcx)
	incq	%rcx
	decq	%rdx
	jne	21b
22:
	subq	%r13, %rax
	cmpq	$-4, %rax
	ja	25f
	leaq	(%r8,%rbp), %rax
	addq	$3, %rax
	.p2align	4
23:
	movzbl	(%r14,%rcx), %edx
	movb	%dl, -3(%rax,%rcx)
	movzbl	1(%r14,%rcx), %edx
	movb	%dl, -2(%rax,%rcx)
	movzbl	2(%r14,%rcx), %edx
	movb	%dl, -1(%rax,%rcx)
	movzbl	3(%r14,%rcx), %edx
	movb	%dl, (%rax,%rcx)
	addq	$4, %rcx
	cmpq	%rcx, %r13
	jne	23b
	jmp	25f
24:
	movq	%r14, %rsi
	movq	%r13, %rdx
	movq	%r11, %r14
	vj_c_call	memmove
	movq	%r14, %r11
25:
	movq	%rbx, 8(%rsp)
	movq	%r11, 16(%rsp)
	movq	%rsp, %rdi
	movq	%r12, %rsi
	movq	%r15, %rdx
	callq	std_alloc..vec..Vec..extend_from_slice..0473daec321ef212_1_x86
	testb	%al, %al
	je	29f
	cmpq	$0, 16(%rsp)
	movq	24(%rsp), %rbx
	je	27f
26:
	movq	(%rsp), %rdi
	vj_call	rattle_dealloc
27:
	movb	$1, (%rbx)
	xorps	%xmm0, %xmm0
	movups	%xmm0, 8(%rbx)
	movq	$0, 24(%rbx)
28:
	addq	$40, %rsp
	popq	%rbx
	popq	%r12
	popq	%r13
	popq	%r14
	popq	%r15
	popq	%rbp
	retq
29:
	movq	%rsp, %rdi
	movl	$10, %esi
	callq	std_alloc..vec..Vec..push..a891bc11159506cb_1_x86
	testb	%al, %al
	movq	24(%rsp), %rbx
	je	31f
30:
	cmpq	$0, 16(%rsp)
	jne	26b
	jmp	27b
31:
	movb	$0, (%rbx)
	movups	(%rsp), %xmm0
	movups	%xmm0, 8(%rbx)
	movq	16(%rsp), %rax
	movq	%rax, 24(%rbx)
	jmp	28b
32:
	cmpq	$32, %rdx
	jae	35f
	xorl	%ecx, %ecx
	jmp	37f
33:
	cmpq	$32, %r15
	jae	40f
	xorl	%eax, %eax
	jmp	42f
34:
	cmpq	$32, %r13
	jae	45f
	xorl	%eax, %eax
	jmp	47f
35:
	movq	%rdx, %rcx
	andq	$-32, %rcx
	leaq	(%rax,%r13), %r8
	addq	$16, %r8
	xorl	%r9d, %r9d
	.p2align	4
36:
	movups	(%rsi,%r9), %xmm0
	movups	16(%rsi,%r9), %xmm1
	movups	%xmm0, -16(%r8,%r9)
	movups	%xmm1, (%r8,%r9)
	addq	$32, %r9
	cmpq	%r9, %rcx
	jne	36b
	cmpq	%rcx, %rdx
	je	8b
	testb	$28, %dl
	je	3b
37:
	movq	%rcx, %r8
	movq	%rdx, %rcx
	andq	$-4, %rcx
	.p2align	4
38:
	movl	(%rsi,%r8), %r9d
	movl	%r9d, (%rdi,%r8)
	addq	$4, %r8
	cmpq	%r8, %rcx
	jne	38b
	cmpq	%rcx, %rdx
	je	8b
	jmp	3b
39:
	movq	%rbp, %rbx
	movq	%rsi, 24(%rsp)
	movq	%rsp, %rdi
	movq	%rdx, %rbp
	movq	%rdx, %rsi
	callq	std_alloc..vec..Vec..grow_amortized..01eec35b572d02af_1_x86
	testb	%al, %al
	je	30b
	movq	(%rsp), %r13
	movq	8(%rsp), %rax
	movq	16(%rsp), %r11
	movq	%rbp, %rdx
	movq	24(%rsp), %rsi
	movq	%rbx, %rbp
	jmp	1b
40:
	movq	%r15, %rax
	andq	$-32, %rax
	leaq	(%rbx,%r8), %rcx
	addq	$16, %rcx
	xorl	%edx, %edx
	.p2align	4
41:
	movups	(%r12,%rdx), %xmm0
	movups	16(%r12,%rdx), %xmm1
	movups	%xmm0, -16(%rcx,%rdx)
	movups	%xmm1, (%rcx,%rdx)
	addq	$32, %rdx
	cmpq	%rdx, %rax
	jne	41b
	cmpq	%rax, %r15
	je	17b
	testb	$28, %r15b
	je	12b
42:
	movq	%rax, %rcx
	movq	%r15, %rax
	andq	$-4, %rax
	.p2align	4
43:
	movl	(%r12,%rcx), %edx
	movl	%edx, (%rdi,%rcx)
	addq	$4, %rcx
	cmpq	%rcx, %rax
	jne	43b
	cmpq	%rax, %r15
	je	17b
	jmp	12b
44:
	movq	%rsp, %rdi
	movl	$2, %esi
	callq	std_alloc..vec..Vec..grow_amortized..01eec35b572d02af_1_x86
	testb	%al, %al
	je	50f
	movq	(%rsp), %r13
	movq	8(%rsp), %rbx
	movq	16(%rsp), %r11
	jmp	9b
45:
	movq	%r13, %rax
	andq	$-32, %rax
	leaq	(%r8,%rbp), %rcx
	addq	$16, %rcx
	xorl	%edx, %edx
	.p2align	4
46:
	movups	(%r14,%rdx), %xmm0
	movups	16(%r14,%rdx), %xmm1
	movups	%xmm0, -16(%rcx,%rdx)
	movups	%xmm1, (%rcx,%rdx)
	addq	$32, %rdx
	cmpq	%rdx, %rax
	jne	46b
	cmpq	%rax, %r13
	je	25b
	testb	$28, %r13b
	je	20b
47:
	movq	%rax, %rcx
	movq	%r13, %rax
	andq	$-4, %rax
	.p2align	4
48:
	movl	(%r14,%rcx), %edx
	movl	%edx, (%rdi,%rcx)
	addq	$4, %rcx
	cmpq	%rcx, %rax
	jne	48b
	cmpq	%rax, %r13
	je	25b
	jmp	20b
49:
	movq	%rsp, %rdi
	movq	%r15, %rsi
	callq	std_alloc..vec..Vec..grow_amortized..01eec35b572d02af_1_x86
	testb	%al, %al
	je	50f
	movq	8(%rsp), %rbx
	movq	16(%rsp), %r11
	jmp	10b
50:
	cmpq	$0, 16(%rsp)
	je	51f
	movq	(%rsp), %rdi
	vj_call	rattle_dealloc
51:
	movb	$1, (%rbp)
	xorps	%xmm0, %xmm0
	movups	%xmm0, 8(%rbp)
	movq	$0, 24(%rbp)
	jmp	28b
52:
	movq	%rsp, %rdi
	movq	%r13, %rsi
	callq	std_alloc..vec..Vec..grow_amortized..01eec35b572d02af_1_x86
	testb	%al, %al
	je	53f
	movq	(%rsp), %r8
	movq	8(%rsp), %rbp
	movq	16(%rsp), %r11
	jmp	18b
53:
	cmpq	$0, 16(%rsp)
	je	54f
	movq	(%rsp), %rdi
	vj_call	rattle_dealloc
54:
	movq	24(%rsp), %rax
	movb	$1, (%rax)
	xorps	%xmm0, %xmm0
	movups	%xmm0, 8(%rax)
	movq	$0, 24(%rax)
	jmp	28b
	vj_end	b2sum_commands..messages..line_of_1_x86

	vj_function	b2sum_commands..messages..warn_of_file..fab5d8e6f6068f4d_1_x86
	pushq	%rbp
	pushq	%r15
	pushq	%r14
	pushq	%r13
	pushq	%r12
	pushq	%rbx
	subq	$184, %rsp
	movq	%r8, %r12
	movq	%rcx, %r13
	movq	%rdx, %rbx
	movq	%rdi, %r15
	movq	80(%rsi), %rax
	movq	%rax, 176(%rsp)
	movups	64(%rsi), %xmm0
	movaps	%xmm0, 160(%rsp)
	movups	(%rsi), %xmm0
	movups	16(%rsi), %xmm1
	movups	32(%rsi), %xmm2
	movups	48(%rsi), %xmm3
	movaps	%xmm3, 144(%rsp)
	movaps	%xmm2, 128(%rsp)
	movaps	%xmm1, 112(%rsp)
	movaps	%xmm0, 96(%rsp)
	xorps	%xmm0, %xmm0
	movaps	%xmm0, 32(%rsp)
	movaps	%xmm0, 48(%rsp)
	leaq	32(%rsp), %rdi
	leaq	96(%rsp), %rsi
	callq	b2sum..disk..SystemDisk..reason_of..997c1e2eeb9618f7_1_x86
	movb	$1, %al
	cmpb	$0, 32(%rsp)
	jne	2f
	movq	40(%rsp), %rax
	movq	%rax, 24(%rsp)
	movq	48(%rsp), %r14
	movq	56(%rsp), %rbp
	xorps	%xmm0, %xmm0
	movaps	%xmm0, 80(%rsp)
	movaps	%xmm0, 64(%rsp)
	leaq	64(%rsp), %rdi
	movq	%r13, %rsi
	movq	%r12, %rdx
	callq	b2sum_commands..quoting..quoted_name_1_x86
	movb	$1, %al
	cmpb	$0, 64(%rsp)
	jne	1f
	movq	72(%rsp), %r12
	movq	80(%rsp), %r8
	movq	(%r15), %rdi
	movq	8(%r15), %rsi
	movq	88(%rsp), %r15
	movq	%r14, 16(%rsp)
	movq	24(%rsp), %rax
	movq	%rax, 8(%rsp)
	movq	$2, (%rsp)
	leaq	.L1_x86_static.123(%rip), %r9
	movq	%rbx, %rdx
	movq	%r12, %rcx
	callq	b2sum_commands..messages..warn..068f3e307c5390f2_1_x86
	testq	%r15, %r15
	je	1f
	movq	%r12, %rdi
	movl	%eax, %ebx
	vj_call	rattle_dealloc
	movl	%ebx, %eax
1:
	testq	%rbp, %rbp
	je	2f
	movq	24(%rsp), %rdi
	movl	%eax, %ebx
	vj_call	rattle_dealloc
	movl	%ebx, %eax
2:
	addq	$184, %rsp
	popq	%rbx
	popq	%r12
	popq	%r13
	popq	%r14
	popq	%r15
	popq	%rbp
	retq
	vj_end	b2sum_commands..messages..warn_of_file..fab5d8e6f6068f4d_1_x86

	vj_constants	16
	.p2align	4, 0x0
.L1_x86_CPI42_0:
	.byte	16
	.byte	15
	.byte	14
	.byte	13
	.byte	12
	.byte	11
	.byte	10
	.byte	9
	.byte	8
	.byte	7
	.byte	6
	.byte	5
	.byte	4
	.byte	3
	.byte	2
	.byte	1
.L1_x86_CPI42_1:
	.byte	0
	.byte	1
	.byte	2
	.byte	3
	.byte	4
	.byte	5
	.byte	6
	.byte	7
	.byte	8
	.byte	9
	.byte	10
	.byte	11
	.byte	12
	.byte	13
	.byte	14
	.byte	15
.L1_x86_CPI42_2:
	.byte	16
	.byte	17
	.byte	18
	.byte	19
	.byte	20
	.byte	21
	.byte	22
	.byte	23
	.byte	24
	.byte	25
	.byte	26
	.byte	27
	.byte	28
	.byte	29
	.byte	30
	.byte	31
.L1_x86_CPI42_3:
	.byte	117
	.byte	110
	.byte	99
	.byte	97
	.byte	116
	.byte	101
	.byte	103
	.byte	111
	.byte	114
	.byte	105
	.byte	122
	.byte	101
	.byte	100
	.byte	32
	.byte	101
	.byte	114
.L1_x86_CPI42_4:
	.byte	117
	.byte	110
	.byte	101
	.byte	120
	.byte	112
	.byte	101
	.byte	99
	.byte	116
	.byte	101
	.byte	100
	.byte	32
	.byte	101
	.byte	110
	.byte	100
	.byte	32
	.byte	111
.L1_x86_CPI42_5:
	.byte	111
	.byte	112
	.byte	101
	.byte	114
	.byte	97
	.byte	116
	.byte	105
	.byte	111
	.byte	110
	.byte	32
	.byte	105
	.byte	110
	.byte	116
	.byte	101
	.byte	114
	.byte	114
.L1_x86_CPI42_6:
	.byte	97
	.byte	114
	.byte	103
	.byte	117
	.byte	109
	.byte	101
	.byte	110
	.byte	116
	.byte	32
	.byte	108
	.byte	105
	.byte	115
	.byte	116
	.byte	32
	.byte	116
	.byte	111
.L1_x86_CPI42_7:
	.byte	105
	.byte	110
	.byte	118
	.byte	97
	.byte	108
	.byte	105
	.byte	100
	.byte	32
	.byte	102
	.byte	105
	.byte	108
	.byte	101
	.byte	110
	.byte	97
	.byte	109
	.byte	101
.L1_x86_CPI42_8:
	.byte	99
	.byte	114
	.byte	111
	.byte	115
	.byte	115
	.byte	45
	.byte	100
	.byte	101
	.byte	118
	.byte	105
	.byte	99
	.byte	101
	.byte	32
	.byte	108
	.byte	105
	.byte	110
.L1_x86_CPI42_9:
	.byte	101
	.byte	120
	.byte	101
	.byte	99
	.byte	117
	.byte	116
	.byte	97
	.byte	98
	.byte	108
	.byte	101
	.byte	32
	.byte	102
	.byte	105
	.byte	108
	.byte	101
	.byte	32
.L1_x86_CPI42_10:
	.byte	115
	.byte	101
	.byte	101
	.byte	107
	.byte	32
	.byte	111
	.byte	110
	.byte	32
	.byte	117
	.byte	110
	.byte	115
	.byte	101
	.byte	101
	.byte	107
	.byte	97
	.byte	98
.L1_x86_CPI42_11:
	.byte	110
	.byte	111
	.byte	32
	.byte	115
	.byte	116
	.byte	111
	.byte	114
	.byte	97
	.byte	103
	.byte	101
	.byte	32
	.byte	115
	.byte	112
	.byte	97
	.byte	99
	.byte	101
.L1_x86_CPI42_12:
	.byte	105
	.byte	110
	.byte	118
	.byte	97
	.byte	108
	.byte	105
	.byte	100
	.byte	32
	.byte	105
	.byte	110
	.byte	112
	.byte	117
	.byte	116
	.byte	32
	.byte	112
	.byte	97
.L1_x86_CPI42_13:
	.byte	115
	.byte	116
	.byte	97
	.byte	108
	.byte	101
	.byte	32
	.byte	110
	.byte	101
	.byte	116
	.byte	119
	.byte	111
	.byte	114
	.byte	107
	.byte	32
	.byte	102
	.byte	105
.L1_x86_CPI42_14:
	.byte	102
	.byte	105
	.byte	108
	.byte	101
	.byte	115
	.byte	121
	.byte	115
	.byte	116
	.byte	101
	.byte	109
	.byte	32
	.byte	108
	.byte	111
	.byte	111
	.byte	112
	.byte	32
.L1_x86_CPI42_15:
	.byte	111
	.byte	114
	.byte	32
	.byte	105
	.byte	110
	.byte	100
	.byte	105
	.byte	114
	.byte	101
	.byte	99
	.byte	116
	.byte	105
	.byte	111
	.byte	110
	.byte	32
	.byte	108
.L1_x86_CPI42_16:
	.byte	105
	.byte	109
	.byte	105
	.byte	116
	.byte	32
	.byte	40
	.byte	101
	.byte	46
	.byte	103
	.byte	46
	.byte	32
	.byte	115
	.byte	121
	.byte	109
	.byte	108
	.byte	105
.L1_x86_CPI42_17:
	.byte	114
	.byte	101
	.byte	97
	.byte	100
	.byte	45
	.byte	111
	.byte	110
	.byte	108
	.byte	121
	.byte	32
	.byte	102
	.byte	105
	.byte	108
	.byte	101
	.byte	115
	.byte	121
.L1_x86_CPI42_18:
	.byte	115
	.byte	116
	.byte	101
	.byte	109
	.byte	32
	.byte	111
	.byte	114
	.byte	32
	.byte	115
	.byte	116
	.byte	111
	.byte	114
	.byte	97
	.byte	103
	.byte	101
	.byte	32
.L1_x86_CPI42_19:
	.byte	100
	.byte	105
	.byte	114
	.byte	101
	.byte	99
	.byte	116
	.byte	111
	.byte	114
	.byte	121
	.byte	32
	.byte	110
	.byte	111
	.byte	116
	.byte	32
	.byte	101
	.byte	109
.L1_x86_CPI42_20:
	.byte	111
	.byte	112
	.byte	101
	.byte	114
	.byte	97
	.byte	116
	.byte	105
	.byte	111
	.byte	110
	.byte	32
	.byte	119
	.byte	111
	.byte	117
	.byte	108
	.byte	100
	.byte	32
.L1_x86_CPI42_21:
	.byte	101
	.byte	110
	.byte	116
	.byte	105
	.byte	116
	.byte	121
	.byte	32
	.byte	97
	.byte	108
	.byte	114
	.byte	101
	.byte	97
	.byte	100
	.byte	121
	.byte	32
	.byte	101
.L1_x86_CPI42_22:
	.byte	97
	.byte	100
	.byte	100
	.byte	114
	.byte	101
	.byte	115
	.byte	115
	.byte	32
	.byte	110
	.byte	111
	.byte	116
	.byte	32
	.byte	97
	.byte	118
	.byte	97
	.byte	105
.L1_x86_CPI42_23:
	.byte	99
	.byte	111
	.byte	110
	.byte	110
	.byte	101
	.byte	99
	.byte	116
	.byte	105
	.byte	111
	.byte	110
	.byte	32
	.byte	97
	.byte	98
	.byte	111
	.byte	114
	.byte	116
.L1_x86_CPI42_24:
	.byte	110
	.byte	101
	.byte	116
	.byte	119
	.byte	111
	.byte	114
	.byte	107
	.byte	32
	.byte	117
	.byte	110
	.byte	114
	.byte	101
	.byte	97
	.byte	99
	.byte	104
	.byte	97
.L1_x86_CPI42_25:
	.byte	104
	.byte	111
	.byte	115
	.byte	116
	.byte	32
	.byte	117
	.byte	110
	.byte	114
	.byte	101
	.byte	97
	.byte	99
	.byte	104
	.byte	97
	.byte	98
	.byte	108
	.byte	101
.L1_x86_CPI42_26:
	.byte	99
	.byte	111
	.byte	110
	.byte	110
	.byte	101
	.byte	99
	.byte	116
	.byte	105
	.byte	111
	.byte	110
	.byte	32
	.byte	114
	.byte	101
	.byte	115
	.byte	101
	.byte	116
.L1_x86_CPI42_27:
	.byte	99
	.byte	111
	.byte	110
	.byte	110
	.byte	101
	.byte	99
	.byte	116
	.byte	105
	.byte	111
	.byte	110
	.byte	32
	.byte	114
	.byte	101
	.byte	102
	.byte	117
	.byte	115
.L1_x86_CPI42_28:
	.byte	112
	.byte	101
	.byte	114
	.byte	109
	.byte	105
	.byte	115
	.byte	115
	.byte	105
	.byte	111
	.byte	110
	.byte	32
	.byte	100
	.byte	101
	.byte	110
	.byte	105
	.byte	101
.L1_x86_CPI42_29:
	.byte	101
	.byte	110
	.byte	116
	.byte	105
	.byte	116
	.byte	121
	.byte	32
	.byte	110
	.byte	111
	.byte	116
	.byte	32
	.byte	102
	.byte	111
	.byte	117
	.byte	110
	.byte	100
.L1_x86_CPI42_30:
	.zero	16,32
.L1_x86_CPI42_31:
	.zero	16,127
	vj_function	b2sum..disk..SystemDisk..reason_of..997c1e2eeb9618f7_1_x86
	pushq	%rbp
	pushq	%r15
	pushq	%r14
	pushq	%r13
	pushq	%r12
	pushq	%rbx
	subq	$472, %rsp
	movq	%rdi, %r12
	movzbl	(%rsi), %r14d
	movzbl	1(%rsi), %ebx
	movzbl	2(%rsi), %edx
	movl	4(%rsi), %ebp
	movdqu	8(%rsi), %xmm0
	movdqu	24(%rsi), %xmm1
	movdqu	40(%rsi), %xmm2
	movdqu	56(%rsi), %xmm3
	movdqu	72(%rsi), %xmm4
	xorps	%xmm5, %xmm5
	movaps	%xmm5, 96(%rsp)
	movq	$0, 112(%rsp)
	movups	%xmm5, 8(%rsp)
	movl	$0, 57(%rsp)
	movl	$0, 60(%rsp)
	leaq	79(%rsp), %rax
	movq	%rax, (%rsp)
	movl	$32, 24(%rsp)
	movq	$0, 28(%rsp)
	movl	$0, 36(%rsp)
	movq	$-1, 40(%rsp)
	movq	$0, 48(%rsp)
	movb	$0, 56(%rsp)
	movl	24(%rsp), %eax
	movl	%eax, 176(%rsp)
	movq	28(%rsp), %rax
	movq	%rax, 180(%rsp)
	movl	36(%rsp), %eax
	movl	%eax, 188(%rsp)
	movq	$-1, 192(%rsp)
	movl	$32, 24(%rsp)
	movq	$0, 28(%rsp)
	movl	$0, 36(%rsp)
	movaps	%xmm5, 448(%rsp)
	movaps	%xmm5, 432(%rsp)
	movaps	%xmm5, 416(%rsp)
	movaps	%xmm5, 400(%rsp)
	movaps	%xmm5, 384(%rsp)
	movaps	%xmm5, 368(%rsp)
	movaps	%xmm5, 352(%rsp)
	movaps	%xmm5, 336(%rsp)
	movaps	%xmm5, 320(%rsp)
	movaps	%xmm5, 304(%rsp)
	movaps	%xmm5, 288(%rsp)
	movaps	%xmm5, 272(%rsp)
	movaps	%xmm5, 256(%rsp)
	movaps	%xmm5, 240(%rsp)
	movaps	%xmm5, 224(%rsp)
	movaps	%xmm5, 208(%rsp)
	testl	%r14d, %r14d
	je	1f
	movdqa	%xmm0, 208(%rsp)
	movdqa	%xmm1, 224(%rsp)
	movdqa	%xmm2, 240(%rsp)
	movdqa	%xmm3, 256(%rsp)
	movdqa	%xmm4, 272(%rsp)
	jmp	5f
1:
	leaq	208(%rsp), %rsi
	movl	$256, %edx
	movl	%ebp, %edi
	vj_call	b2sum_strerror
	movq	$-16, %rcx
	.p2align	4
2:
	movdqa	224(%rsp,%rcx), %xmm0
	pxor	%xmm1, %xmm1
	pcmpeqb	%xmm0, %xmm1
	pmovmskb	%xmm1, %edx
	leaq	16(%rcx), %rax
	testl	%edx, %edx
	jne	3f
	cmpq	$224, %rcx
	movq	%rax, %rcx
	jne	2b
3:
	testw	%dx, %dx
	je	4f
	pxor	%xmm1, %xmm1
	pcmpeqb	%xmm1, %xmm0
	pand	.L1_x86_CPI42_0(%rip), %xmm0
	pextrb	$1, %xmm0, %ecx
	movd	%xmm0, %edx
	cmpb	%cl, %dl
	cmoval	%edx, %ecx
	pextrb	$2, %xmm0, %edx
	cmpb	%dl, %cl
	cmovbel	%edx, %ecx
	pextrb	$3, %xmm0, %edx
	cmpb	%dl, %cl
	cmovbel	%edx, %ecx
	pextrb	$4, %xmm0, %edx
	cmpb	%dl, %cl
	cmovbel	%edx, %ecx
	pextrb	$5, %xmm0, %edx
	cmpb	%dl, %cl
	cmovbel	%edx, %ecx
	pextrb	$6, %xmm0, %edx
	cmpb	%dl, %cl
	cmovbel	%edx, %ecx
	pextrb	$7, %xmm0, %edx
	cmpb	%dl, %cl
	cmovbel	%edx, %ecx
	pextrb	$8, %xmm0, %edx
	cmpb	%dl, %cl
	cmovbel	%edx, %ecx
	pextrb	$9, %xmm0, %edx
	cmpb	%dl, %cl
	cmovbel	%edx, %ecx
	pextrb	$10, %xmm0, %edx
	cmpb	%dl, %cl
	cmovbel	%edx, %ecx
	pextrb	$11, %xmm0, %edx
	cmpb	%dl, %cl
	cmovbel	%edx, %ecx
	pextrb	$12, %xmm0, %edx
	cmpb	%dl, %cl
	cmovbel	%edx, %ecx
	pextrb	$13, %xmm0, %edx
	cmpb	%dl, %cl
	cmovbel	%edx, %ecx
	pextrb	$14, %xmm0, %edx
	cmpb	%dl, %cl
	cmovbel	%edx, %ecx
	pextrb	$15, %xmm0, %edx
	cmpb	%dl, %cl
	cmovbel	%edx, %ecx
	movb	$16, %dl
	subb	%cl, %dl
	movzbl	%dl, %edx
	addq	%rax, %rdx
	jmp	5f
4:
	movl	$256, %edx
5:
	leaq	8(%rsp), %r15
	pxor	%xmm0, %xmm0
	movdqa	%xmm0, 128(%rsp)
	movq	$0, 144(%rsp)
	leaq	128(%rsp), %rdi
	leaq	208(%rsp), %rsi
	callq	core..str..utf8..from_utf8_1_x86
	xorl	%edx, %edx
	cmpb	$0, 128(%rsp)
	leaq	.L1_x86_static.1(%rip), %rsi
	cmoveq	136(%rsp), %rsi
	cmoveq	144(%rsp), %rdx
	cmpl	$1, %r14d
	je	12f
	testl	%r14d, %r14d
	jne	15f
	movq	%r12, 88(%rsp)
	leaq	28(%rsp), %r14
	movl	$32, 24(%rsp)
	movl	$0, 8(%r14)
	movq	$0, (%r14)
	movq	$-1, 40(%rsp)
	cmpq	$0, 48(%rsp)
	jne	76f
	movq	8(%rsp), %rax
	movq	16(%rsp), %rbx
	movq	%rbx, %rcx
	subq	%rax, %rcx
	cmpq	%rcx, %rdx
	ja	82f
6:
	leaq	(%rax,%rdx), %r12
	movq	(%rsp), %r13
	pxor	%xmm0, %xmm0
	movdqu	%xmm0, (%r15)
	leaq	(%rax,%r13), %rdi
	movq	%rdi, %rcx
	subq	%rsi, %rcx
	cmpq	%rdx, %rcx
	jae	27f
	cmpq	$4, %rdx
	jb	7f
	cmpq	$32, %rcx
	jae	63f
7:
	xorl	%ecx, %ecx
8:
	movq	%rdx, %r9
	movq	%rcx, %r8
	andq	$3, %r9
	je	10f
	movq	%rcx, %r8
	.p2align	4
9:
	movzbl	(%rsi,%r8), %r10d
	movb	%r10b, (%rdi,%r8)
	incq	%r8
	decq	%r9
	jne	9b
10:
	subq	%rdx, %rcx
	cmpq	$-4, %rcx
	ja	28f
	addq	%r13, %rax
	addq	$3, %rax
	.p2align	4
11:
	movzbl	(%rsi,%r8), %ecx
	movb	%cl, -3(%rax,%r8)
	movzbl	1(%rsi,%r8), %ecx
	movb	%cl, -2(%rax,%r8)
	movzbl	2(%rsi,%r8), %ecx
	movb	%cl, -1(%rax,%r8)
	movzbl	3(%rsi,%r8), %ecx
	movb	%cl, (%rax,%r8)
	addq	$4, %r8
	cmpq	%r8, %rdx
	jne	11b
	jmp	28f
12:
	movaps	.L1_x86_CPI42_1(%rip), %xmm0
	movaps	%xmm0, 128(%rsp)
	movdqa	.L1_x86_CPI42_2(%rip), %xmm0
	movdqa	%xmm0, 144(%rsp)
	movabsq	$2820983053732684064, %rax
	movq	%rax, 160(%rsp)
	movb	$40, 168(%rsp)
	cmpb	$41, %bl
	movq	%r12, 88(%rsp)
	jae	22f
	movzbl	128(%rsp,%rbx), %ecx
	movq	48(%rsp), %rax
	leaq	.L1_x86_JTI42_0(%rip), %rdx
	movslq	(%rdx,%rcx,4), %rcx
	addq	%rdx, %rcx
	notrack	jmpq	*%rcx
13:
	testq	%rax, %rax
	jne	289f
	movq	8(%rsp), %r11
	movq	16(%rsp), %rsi
	movq	%rsi, %rax
	subq	%r11, %rax
	cmpq	$15, %rax
	jbe	338f
14:
	movq	(%rsp), %r14
	leaq	(%r14,%r11), %rax
	addq	$16, %r11
	leaq	.L1_x86_static.133(%rip), %rcx
	movq	%rax, %rdx
	subq	%rcx, %rdx
	cmpq	$15, %rdx
	movq	%rsi, 64(%rsp)
	ja	238f
	movdqa	.L1_x86_CPI42_29(%rip), %xmm0
	movdqu	%xmm0, (%rax)
	jmp	46f
15:
	cmpq	$0, 32(%rsp)
	jne	25f
	cmpq	40(%rsp), %rdx
	ja	25f
	cmpq	$0, 48(%rsp)
	jne	105f
	movq	8(%rsp), %r11
	movq	16(%rsp), %r13
	movq	%r13, %rax
	subq	%r11, %rax
	cmpq	%rax, %rdx
	ja	111f
16:
	movq	(%rsp), %r14
	pxor	%xmm0, %xmm0
	movdqu	%xmm0, (%r15)
	leaq	(%r14,%r11), %rdi
	movq	%rdi, %rax
	subq	%rsi, %rax
	cmpq	%rdx, %rax
	movq	%r12, 88(%rsp)
	jae	44f
	cmpq	$4, %rdx
	jb	17f
	cmpq	$32, %rax
	jae	81f
17:
	xorl	%eax, %eax
18:
	movq	%rdx, %r8
	movq	%rax, %rcx
	andq	$3, %r8
	je	20f
	movq	%rax, %rcx
	.p2align	4
19:
	movzbl	(%rsi,%rcx), %r9d
	movb	%r9b, (%rdi,%rcx)
	incq	%rcx
	decq	%r8
	jne	19b
20:
	subq	%rdx, %rax
	cmpq	$-4, %rax
	ja	45f
	leaq	(%r11,%r14), %rax
	addq	$3, %rax
	.p2align	4
21:
	movzbl	(%rsi,%rcx), %edi
	movb	%dil, -3(%rax,%rcx)
	movzbl	1(%rsi,%rcx), %edi
	movb	%dil, -2(%rax,%rcx)
	movzbl	2(%rsi,%rcx), %edi
	movb	%dil, -1(%rax,%rcx)
	movzbl	3(%rsi,%rcx), %edi
	movb	%dil, (%rax,%rcx)
	addq	$4, %rcx
	cmpq	%rcx, %rdx
	jne	21b
	jmp	45f
22:
	cmpq	$0, 48(%rsp)
	jne	160f
23:
	movq	8(%rsp), %r11
	movq	16(%rsp), %rsi
	movq	%rsi, %rax
	subq	%r11, %rax
	cmpq	$18, %rax
	jbe	110f
24:
	movq	(%rsp), %r14
	pxor	%xmm0, %xmm0
	movdqu	%xmm0, (%r15)
	leaq	(%r14,%r11), %rax
	addq	$19, %r11
	leaq	.L1_x86_static.174(%rip), %rcx
	movq	%rax, %rdx
	subq	%rcx, %rdx
	cmpq	$18, %rdx
	ja	42f
	movdqa	.L1_x86_CPI42_3(%rip), %xmm0
	movdqu	%xmm0, (%rax)
	movw	$28530, 16(%rax)
	movb	$114, 18(%rax)
	jmp	43f
25:
	movq	%rsp, %rdi
	callq	core..fmt..formatter..Formatter..cut_and_fill..d3f2601cc94bc858_1_x86
26:
	movq	192(%rsp), %rcx
	movq	%rcx, 32(%r15)
	movdqa	176(%rsp), %xmm0
	movdqu	%xmm0, 16(%r15)
	testb	%al, %al
	jne	90f
	movq	%r12, 88(%rsp)
	movq	(%rsp), %r14
	movq	8(%rsp), %r11
	movq	16(%rsp), %rax
	movq	%rax, 64(%rsp)
	jmp	47f
27:
	vj_c_call	memmove
28:
	movq	%r13, (%rsp)
	movq	%r12, 8(%rsp)
	movq	%rbx, 16(%rsp)
29:
	movl	$32, 24(%rsp)
	movl	$0, 8(%r14)
	movq	$0, (%r14)
	movq	$-1, 40(%rsp)
	cmpq	$0, 48(%rsp)
	jne	83f
	movq	8(%rsp), %rax
	movq	16(%rsp), %rcx
	movq	%rcx, %rdx
	subq	%rax, %rdx
	cmpq	$10, %rdx
	jbe	84f
30:
	movq	(%rsp), %rdx
	leaq	(%rdx,%rax), %rsi
	addq	$11, %rax
	leaq	.L1_x86_static.129(%rip), %rdi
	movq	%rsi, %r8
	subq	%rdi, %r8
	movabsq	$8246765057718822944, %rdi
	cmpq	$10, %r8
	ja	31f
	movq	%rdi, (%rsi)
	movw	$29295, 8(%rsi)
	movb	$32, 10(%rsi)
	jmp	32f
31:
	movq	%rdi, (%rsi)
	movl	$544370546, 7(%rsi)
32:
	movq	%rdx, (%rsp)
	movq	%rax, 8(%rsp)
	movq	%rcx, 16(%rsp)
33:
	movl	$32, 24(%rsp)
	movl	$0, 8(%r14)
	movq	$0, (%r14)
	movq	$-1, 40(%rsp)
	movl	%ebp, %edx
	negl	%edx
	cmovsl	%ebp, %edx
	pxor	%xmm0, %xmm0
	movdqa	%xmm0, 128(%rsp)
	movq	$0, 144(%rsp)
	movl	$24, %eax
	cmpl	$100, %edx
	jb	36f
	.p2align	4
34:
	movl	%edx, %ecx
	imulq	$1374389535, %rcx, %rcx
	shrq	$37, %rcx
	imull	$100, %ecx, %esi
	movl	%edx, %edi
	subl	%esi, %edi
	imull	$103, %edi, %esi
	movzwl	%si, %esi
	shrl	$10, %esi
	leal	(%rsi,%rsi), %r8d
	leal	(%r8,%r8,4), %r8d
	subb	%r8b, %dil
	orb	$48, %dil
	movb	%dil, 127(%rsp,%rax)
	orb	$48, %sil
	movb	%sil, 126(%rsp,%rax)
	addq	$-2, %rax
	cmpq	$9999, %rdx
	movq	%rcx, %rdx
	ja	34b
	cmpq	$10, %rcx
	jb	37f
35:
	movzbl	%cl, %edx
	imull	$205, %edx, %edx
	shrl	$11, %edx
	leal	(%rdx,%rdx), %esi
	leal	(%rsi,%rsi,4), %esi
	subb	%sil, %cl
	orb	$48, %cl
	movb	%cl, 127(%rsp,%rax)
	orb	$48, %dl
	movb	%dl, 126(%rsp,%rax)
	addq	$-2, %rax
	jmp	38f
36:
	movq	%rdx, %rcx
	cmpq	$10, %rcx
	jae	35b
37:
	orb	$48, %cl
	movb	%cl, 127(%rsp,%rax)
	decq	%rax
38:
	leaq	-1(%rax), %rcx
	testl	%ebp, %ebp
	movb	$45, 127(%rsp,%rax)
	cmovnsq	%rax, %rcx
	leaq	(%rsp,%rcx), %rsi
	addq	$128, %rsi
	movl	$24, %edx
	subq	%rcx, %rdx
	cmpq	$0, 48(%rsp)
	jne	85f
	movq	8(%rsp), %rbx
	movq	16(%rsp), %r12
	movq	%r12, %rax
	subq	%rbx, %rax
	cmpq	%rax, %rdx
	ja	86f
39:
	movq	(%rsp), %r13
	leaq	(%rbx,%r13), %rdi
	addq	%rdx, %rbx
	vj_c_call	memcpy
	movq	%r13, (%rsp)
	movq	%rbx, 8(%rsp)
	movq	%r12, 16(%rsp)
40:
	movl	$32, 24(%rsp)
	movl	$0, 8(%r14)
	movq	$0, (%r14)
	movq	$-1, 40(%rsp)
	cmpq	$0, 48(%rsp)
	jne	87f
	movq	8(%rsp), %r11
	movq	16(%rsp), %rax
	cmpq	%r11, %rax
	je	88f
41:
	movq	%rax, 64(%rsp)
	movq	(%rsp), %r14
	movb	$41, (%r14,%r11)
	incq	%r11
	jmp	46f
42:
	movdqu	.L1_x86_static.174(%rip), %xmm0
	movdqu	%xmm0, (%rax)
	movl	$1919906418, 15(%rax)
43:
	movq	%r14, (%rsp)
	movq	%r11, 8(%rsp)
	movq	%rsi, 64(%rsp)
	movq	%rsi, 16(%rsp)
	jmp	47f
44:
	movq	%rdx, %r15
	movq	%r11, %rbx
	vj_c_call	memmove
	movq	%rbx, %r11
	movq	%r15, %rdx
45:
	movq	%r13, 64(%rsp)
	addq	%rdx, %r11
46:
	movq	%r14, (%rsp)
47:
	cmpq	$11, %r11
	jae	49f
48:
	xorl	%ebp, %ebp
	movq	88(%rsp), %r12
	movq	64(%rsp), %rbx
	jmp	94f
49:
	movabsq	$-9187201950435737472, %r12
	movabsq	$9187201950435737471, %rbx
	movabsq	$2314885530818453536, %rbp
	movq	%r14, 208(%rsp)
	movq	%r11, 216(%rsp)
	movw	$8224, 224(%rsp)
	movl	$0, 226(%rsp)
	movw	$0, 230(%rsp)
	movq	$10, 232(%rsp)
	leaq	-10(%r11), %r15
	leaq	-18(%r11), %rax
	movq	%rax, 200(%rsp)
	xorl	%r13d, %r13d
	xorl	%ecx, %ecx
	movq	%r11, 80(%rsp)
	jmp	51f
	.p2align	4
50:
	addq	$27, %r13
	movq	$-1, %rax
	cmovbq	%rax, %r13
	leaq	1(%rdx), %rcx
	movq	%r13, %rsi
	shrq	$3, %rsi
	movq	%rcx, %rdi
	addq	$128, %rdi
	cmovbq	%rax, %rdi
	cmpq	%rsi, %rdi
	jb	64f
51:
	movq	%r15, %rax
	subq	%rcx, %rax
	cmpq	$7, %rax
	ja	54f
	cmpq	%rcx, %r15
	ja	53f
	jmp	48b
	.p2align	4
52:
	incq	%rcx
	cmpq	%rcx, %r15
	je	48b
53:
	cmpb	$32, (%r14,%rcx)
	jne	52b
	cmpb	$32, 10(%r14,%rcx)
	jne	52b
	movq	%rcx, %rdx
	jmp	62f
	.p2align	4
54:
	movq	(%r14,%rcx), %rax
	xorq	%rbp, %rax
	movq	10(%r14,%rcx), %rdx
	xorq	%rbp, %rdx
	orq	%rax, %rdx
	movq	%rdx, %rax
	andq	%rbx, %rax
	addq	%rbx, %rax
	orq	%rdx, %rax
	andq	%r12, %rax
	cmpq	%r12, %rax
	jne	55f
	addq	$8, %rcx
	movq	%rcx, %rax
	jmp	56f
	.p2align	4
55:
	xorq	%r12, %rax
	rep		bsfq	%rax, %rax
	shrl	$3, %eax
	addq	%rcx, %rax
	addq	$8, %rcx
	movq	%rax, %rdx
	cmpq	%rcx, %rax
	jb	62f
56:
	movq	%r15, %rcx
	subq	%rax, %rcx
	cmpq	$32, %rcx
	jb	58f
	.p2align	4
57:
	movdqa	.L1_x86_CPI42_30(%rip), %xmm0
	movdqu	(%r14,%rax), %xmm1
	movdqu	10(%r14,%rax), %xmm2
	movdqu	16(%r14,%rax), %xmm3
	movdqu	26(%r14,%rax), %xmm4
	pxor	%xmm0, %xmm3
	pxor	%xmm0, %xmm1
	pxor	%xmm0, %xmm4
	por	%xmm3, %xmm4
	pxor	%xmm0, %xmm2
	por	%xmm1, %xmm2
	movdqa	.L1_x86_CPI42_31(%rip), %xmm0
	movdqa	%xmm4, %xmm1
	pand	%xmm0, %xmm1
	movdqa	%xmm2, %xmm3
	pand	%xmm0, %xmm3
	paddq	%xmm0, %xmm3
	paddq	%xmm0, %xmm1
	por	%xmm4, %xmm1
	por	%xmm2, %xmm3
	pand	%xmm1, %xmm3
	pshufd	$238, %xmm3, %xmm0
	pand	%xmm3, %xmm0
	movq	%xmm0, %rcx
	notq	%rcx
	testq	%rcx, %r12
	jne	58f
	addq	$32, %rax
	leaq	208(%rsp), %rdi
	movq	%rax, %rsi
	movq	%r15, %rdx
	callq	core..slice..words..skip_far..878162fd265b9cd6_1_x86
	movq	%r15, %rcx
	subq	%rax, %rcx
	cmpq	$31, %rcx
	ja	57b
58:
	movq	%r15, %rcx
	subq	%rax, %rcx
	movq	80(%rsp), %r11
	jmp	60f
	.p2align	4
59:
	xorq	%r12, %rdx
	rep		bsfq	%rdx, %rdx
	shrl	$3, %edx
	addq	%rax, %rdx
	addq	$8, %rax
	addq	$-8, %rcx
	cmpq	%rax, %rdx
	jb	62f
60:
	cmpq	$9, %rcx
	jb	61f
	movq	(%r14,%rax), %rdx
	xorq	%rbp, %rdx
	movq	10(%r14,%rax), %rsi
	xorq	%rbp, %rsi
	orq	%rdx, %rsi
	movq	%rsi, %rdx
	andq	%rbx, %rdx
	addq	%rbx, %rdx
	orq	%rsi, %rdx
	andq	%r12, %rdx
	cmpq	%r12, %rdx
	jne	59b
	leaq	8(%rax), %rdx
	addq	$8, %rax
	addq	$-8, %rcx
	cmpq	%rax, %rdx
	jae	60b
	jmp	62f
61:
	movq	200(%rsp), %rcx
	movq	(%r14,%rcx), %rax
	xorq	%rbp, %rax
	movq	10(%r14,%rcx), %rcx
	xorq	%rbp, %rcx
	orq	%rax, %rcx
	movq	%rcx, %rax
	andq	%rbx, %rax
	addq	%rbx, %rax
	orq	%rcx, %rax
	andq	%r12, %rax
	cmpq	%r12, %rax
	je	48b
	xorq	%r12, %rax
	rep		bsfq	%rax, %rdx
	shrl	$3, %edx
	addq	200(%rsp), %rdx
62:
	cmpq	%r15, %rdx
	je	48b
	movq	%r11, %rax
	subq	%rdx, %rax
	cmpq	$11, %rax
	jb	50b
	movabsq	$8246765057718822944, %rax
	cmpq	%rax, (%r14,%rdx)
	jne	50b
	movabsq	$2338053693894893683, %rax
	cmpq	%rax, 3(%r14,%rdx)
	jne	50b
	leaq	79(%rsp), %r13
	jmp	207f
63:
	cmpq	$32, %rdx
	jae	77f
	xorl	%ecx, %ecx
	jmp	79f
64:
	movl	$1, %r8d
	xorl	%r9d, %r9d
	movl	$1, %r11d
	movl	$1, %edi
	xorl	%esi, %esi
	jmp	67f
	.p2align	4
65:
	leaq	1(%rdi), %r10
	movl	$1, %r8d
	xorl	%esi, %esi
	movq	%rdi, %r9
66:
	leaq	(%r10,%rsi), %r11
	movq	%r10, %rdi
	cmpq	$11, %r11
	jae	69f
67:
	leaq	.L1_x86_static.129(%rip), %rax
	leaq	(%rax,%r9), %r10
	movzbl	(%rsi,%r10), %r10d
	movzbl	(%r11,%rax), %r11d
	cmpb	%r10b, %r11b
	jb	65b
	incq	%rsi
	cmpb	%r11b, %r10b
	jae	68f
	movq	%rsi, %r10
	addq	%rdi, %r10
	movq	%r10, %r8
	subq	%r9, %r8
	xorl	%esi, %esi
	jmp	66b
	.p2align	4
68:
	xorl	%r10d, %r10d
	cmpq	%r8, %rsi
	cmoveq	%r10, %rsi
	cmoveq	%r8, %r10
	addq	%rdi, %r10
	jmp	66b
69:
	movl	$1, %edi
	xorl	%esi, %esi
	movl	$1, %r15d
	movl	$1, %r11d
	xorl	%r10d, %r10d
	jmp	72f
	.p2align	4
70:
	leaq	1(%r11), %rbx
	movl	$1, %edi
	xorl	%r10d, %r10d
	movq	%r11, %rsi
71:
	leaq	(%rbx,%r10), %r15
	movq	%rbx, %r11
	cmpq	$11, %r15
	jae	74f
72:
	leaq	(%rax,%rsi), %rbx
	movzbl	(%r10,%rbx), %ebx
	movzbl	(%r15,%rax), %ebp
	cmpb	%bpl, %bl
	jb	70b
	incq	%r10
	cmpb	%bl, %bpl
	jae	73f
	movq	%r10, %rbx
	addq	%r11, %rbx
	movq	%rbx, %rdi
	subq	%rsi, %rdi
	xorl	%r10d, %r10d
	jmp	71b
	.p2align	4
73:
	xorl	%ebx, %ebx
	cmpq	%rdi, %r10
	cmoveq	%rbx, %r10
	cmoveq	%rdi, %rbx
	addq	%r11, %rbx
	jmp	71b
74:
	movl	$11, %r10d
	cmpq	%r9, %rsi
	jae	95f
	subq	%r9, %r10
	cmpq	%r9, %r10
	cmovbeq	%r9, %r10
	leaq	(%r9,%r9), %rsi
	cmpq	$10, %rsi
	ja	97f
	xorl	%esi, %esi
75:
	movzbl	(%rsi,%rax), %edi
	leaq	(%r8,%rsi), %r11
	cmpb	(%rax,%r11), %dil
	jne	97f
	incq	%rsi
	cmpq	%rsi, %r9
	jne	75b
	movq	%r9, %rsi
	movq	%r8, %rdi
	movq	80(%rsp), %r11
	jmp	199f
76:
	movq	%rsp, %rdi
	callq	core..fmt..formatter..Formatter..write_indented..d3f2601cc94bc858_1_x86
	testb	%al, %al
	jne	89f
	jmp	29b
77:
	movq	%rdx, %rcx
	andq	$-32, %rcx
	leaq	(%rax,%r13), %r8
	addq	$16, %r8
	xorl	%r9d, %r9d
	.p2align	4
78:
	movdqu	(%rsi,%r9), %xmm0
	movdqu	16(%rsi,%r9), %xmm1
	movdqu	%xmm0, -16(%r8,%r9)
	movdqu	%xmm1, (%r8,%r9)
	addq	$32, %r9
	cmpq	%r9, %rcx
	jne	78b
	cmpq	%rcx, %rdx
	je	28b
	testb	$28, %dl
	je	8b
79:
	movq	%rcx, %r8
	movq	%rdx, %rcx
	andq	$-4, %rcx
	.p2align	4
80:
	movl	(%rsi,%r8), %r9d
	movl	%r9d, (%rdi,%r8)
	addq	$4, %r8
	cmpq	%r8, %rcx
	jne	80b
	cmpq	%rcx, %rdx
	je	28b
	jmp	8b
81:
	cmpq	$32, %rdx
	jae	106f
	xorl	%eax, %eax
	jmp	108f
82:
	movq	%rsi, %r12
	movq	%rsp, %rdi
	movq	%rdx, %r13
	movq	%rdx, %rsi
	callq	std_alloc..vec..Vec..grow_amortized..01eec35b572d02af_1_x86
	testb	%al, %al
	je	89f
	movq	8(%rsp), %rax
	movq	16(%rsp), %rbx
	movq	%r13, %rdx
	movq	%r12, %rsi
	jmp	6b
83:
	leaq	.L1_x86_static.129(%rip), %rsi
	movq	%rsp, %rdi
	movl	$11, %edx
	callq	core..fmt..formatter..Formatter..write_indented..d3f2601cc94bc858_1_x86
	testb	%al, %al
	jne	89f
	jmp	33b
84:
	movq	%rsp, %rdi
	movl	$11, %esi
	callq	std_alloc..vec..Vec..grow_amortized..01eec35b572d02af_1_x86
	testb	%al, %al
	je	89f
	movq	8(%rsp), %rax
	movq	16(%rsp), %rcx
	jmp	30b
85:
	movq	%rsp, %rdi
	callq	core..fmt..formatter..Formatter..write_indented..d3f2601cc94bc858_1_x86
	testb	%al, %al
	jne	89f
	jmp	40b
86:
	movq	%rsi, %r13
	movq	%rsp, %rdi
	movq	%rdx, %rbp
	movq	%rdx, %rsi
	callq	std_alloc..vec..Vec..grow_amortized..01eec35b572d02af_1_x86
	testb	%al, %al
	je	89f
	movq	8(%rsp), %rbx
	movq	16(%rsp), %r12
	movq	%rbp, %rdx
	movq	%r13, %rsi
	jmp	39b
87:
	leaq	.L1_x86_static.130(%rip), %rsi
	movq	%rsp, %rdi
	movl	$1, %edx
	callq	core..fmt..formatter..Formatter..write_indented..d3f2601cc94bc858_1_x86
	movq	88(%rsp), %r12
	jmp	26b
88:
	movq	%rsp, %rdi
	movl	$1, %esi
	callq	std_alloc..vec..Vec..grow_amortized..01eec35b572d02af_1_x86
	testb	%al, %al
	je	89f
	movq	8(%rsp), %r11
	movq	16(%rsp), %rax
	jmp	41b
89:
	movq	192(%rsp), %rax
	movq	%rax, 32(%r15)
	movdqa	176(%rsp), %xmm0
	movdqu	%xmm0, 16(%r15)
	movq	88(%rsp), %r12
90:
	cmpq	$0, 16(%rsp)
	je	92f
91:
	movq	(%rsp), %rdi
	vj_call	rattle_dealloc
92:
	movb	$1, %bpl
93:
	xorl	%r14d, %r14d
	xorl	%r11d, %r11d
	xorl	%ebx, %ebx
94:
	movb	%bpl, (%r12)
	movq	%r14, 8(%r12)
	movq	%r11, 16(%r12)
	movq	%rbx, 24(%r12)
	addq	$472, %rsp
	popq	%rbx
	popq	%r12
	popq	%r13
	popq	%r14
	popq	%r15
	popq	%rbp
	retq
95:
	subq	%rsi, %r10
	cmpq	%rsi, %r10
	cmovbeq	%rsi, %r10
	leaq	(%rsi,%rsi), %r8
	cmpq	$10, %r8
	movq	80(%rsp), %r11
	ja	99f
	testq	%rsi, %rsi
	je	198f
	xorl	%r8d, %r8d
96:
	movzbl	(%r8,%rax), %r9d
	leaq	(%rdi,%r8), %r11
	cmpb	(%rax,%r11), %r9b
	jne	98f
	incq	%r8
	cmpq	%r8, %rsi
	jne	96b
	movq	80(%rsp), %r11
	jmp	199f
97:
	movq	%r9, %rsi
98:
	movq	80(%rsp), %r11
99:
	movq	%r11, %rdi
	subq	%rcx, %rdi
	cmpq	$11, %rdi
	jb	48b
	cmpq	$11, %rsi
	jae	112f
	leaq	-1(%r14), %rdx
100:
	leaq	(%r14,%rcx), %r8
	movq	%rcx, %rdi
	notq	%rdi
	movq	%rsi, %r9
	leaq	79(%rsp), %r13
	.p2align	4
101:
	movzbl	(%r9,%rax), %r11d
	cmpb	(%r8,%r9), %r11b
	jne	103f
	incq	%r9
	decq	%rdi
	cmpq	$11, %r9
	jne	101b
	leaq	(%rdx,%rcx), %rdi
	movq	%rsi, %r9
	movq	%rsi, %r8
102:
	subq	$1, %r8
	jb	206f
	movzbl	-1(%r9,%rax), %r11d
	cmpb	(%rdi,%r9), %r11b
	movq	%r8, %r9
	je	102b
	addq	%r10, %rcx
	jmp	104f
103:
	negq	%rdi
	movq	%rdi, %rcx
104:
	movq	80(%rsp), %r11
	movq	%r11, %rdi
	subq	%rcx, %rdi
	cmpq	$11, %rdi
	jae	100b
	jmp	48b
105:
	movq	%rsp, %rdi
	callq	core..fmt..formatter..Formatter..write_indented..d3f2601cc94bc858_1_x86
	jmp	26b
106:
	movq	%rdx, %rax
	andq	$-32, %rax
	leaq	(%r11,%r14), %rcx
	addq	$16, %rcx
	xorl	%r8d, %r8d
	.p2align	4
107:
	movdqu	(%rsi,%r8), %xmm0
	movdqu	16(%rsi,%r8), %xmm1
	movdqu	%xmm0, -16(%rcx,%r8)
	movdqu	%xmm1, (%rcx,%r8)
	addq	$32, %r8
	cmpq	%r8, %rax
	jne	107b
	cmpq	%rax, %rdx
	je	45b
	testb	$28, %dl
	je	18b
108:
	movq	%rax, %rcx
	movq	%rdx, %rax
	andq	$-4, %rax
	.p2align	4
109:
	movl	(%rsi,%rcx), %r8d
	movl	%r8d, (%rdi,%rcx)
	addq	$4, %rcx
	cmpq	%rcx, %rax
	jne	109b
	cmpq	%rax, %rdx
	je	45b
	jmp	18b
110:
	movq	%rsp, %rdi
	movl	$19, %esi
	callq	std_alloc..vec..Vec..grow_amortized..01eec35b572d02af_1_x86
	testb	%al, %al
	je	360f
	movq	8(%rsp), %r11
	movq	16(%rsp), %rsi
	jmp	24b
111:
	movq	%rsi, %rbx
	movq	%rsp, %rdi
	movq	%rdx, %r14
	movq	%rdx, %rsi
	callq	std_alloc..vec..Vec..grow_amortized..01eec35b572d02af_1_x86
	testb	%al, %al
	je	360f
	movq	8(%rsp), %r11
	movq	16(%rsp), %r13
	movq	%r14, %rdx
	movq	%rbx, %rsi
	jmp	16b
112:
	addq	%r14, %rdx
113:
	movq	%rsi, %r8
	movq	%rsi, %rdi
	leaq	79(%rsp), %r13
114:
	subq	$1, %rdi
	jb	206f
	movzbl	-1(%r8,%rax), %r9d
	cmpb	(%rdx,%r8), %r9b
	movq	%rdi, %r8
	je	114b
	addq	%r10, %rcx
	movq	%r11, %rdi
	subq	%rcx, %rdi
	addq	%r10, %rdx
	cmpq	$11, %rdi
	jae	113b
	jmp	48b
115:
	testq	%rax, %rax
	jne	269f
	movq	8(%rsp), %r11
	movq	16(%rsp), %rsi
	movq	%rsi, %rax
	subq	%r11, %rax
	cmpq	$21, %rax
	jbe	319f
116:
	movq	(%rsp), %r14
	pxor	%xmm0, %xmm0
	movdqu	%xmm0, (%r15)
	leaq	(%r14,%r11), %rax
	addq	$22, %r11
	leaq	.L1_x86_static.170(%rip), %rcx
	movq	%rax, %rdx
	subq	%rcx, %rdx
	cmpq	$21, %rdx
	ja	218f
	movdqa	.L1_x86_CPI42_4(%rip), %xmm0
	movdqu	%xmm0, (%rax)
	movl	$1768300646, 16(%rax)
	movw	$25964, 20(%rax)
	jmp	43b
117:
	testq	%rax, %rax
	jne	270f
	movq	8(%rsp), %r11
	movq	16(%rsp), %rsi
	movq	%rsi, %rax
	subq	%r11, %rax
	cmpq	$20, %rax
	jbe	320f
118:
	movq	(%rsp), %r14
	pxor	%xmm0, %xmm0
	movdqu	%xmm0, (%r15)
	leaq	(%r14,%r11), %rax
	addq	$21, %r11
	leaq	.L1_x86_static.168(%rip), %rcx
	movq	%rax, %rdx
	subq	%rcx, %rdx
	cmpq	$20, %rdx
	ja	219f
	movdqa	.L1_x86_CPI42_5(%rip), %xmm0
	movdqu	%xmm0, (%rax)
	movl	$1702129781, 16(%rax)
	movb	$100, 20(%rax)
	jmp	43b
119:
	testq	%rax, %rax
	jne	271f
	movq	8(%rsp), %r11
	movq	16(%rsp), %rsi
	movq	%rsi, %rax
	subq	%r11, %rax
	cmpq	$10, %rax
	jbe	321f
120:
	movq	(%rsp), %r14
	leaq	(%r14,%r11), %rax
	addq	$11, %r11
	leaq	.L1_x86_static.169(%rip), %rcx
	movq	%rax, %rdx
	subq	%rcx, %rdx
	movabsq	$8245933071047814773, %rcx
	cmpq	$10, %rdx
	ja	220f
	movq	%rcx, (%rax)
	movw	$25972, 8(%rax)
	movb	$100, 10(%rax)
	jmp	43b
121:
	testq	%rax, %rax
	jne	272f
	movq	8(%rsp), %r11
	movq	16(%rsp), %rsi
	movq	%rsi, %rax
	subq	%r11, %rax
	cmpq	$13, %rax
	jbe	322f
122:
	movq	(%rsp), %r14
	leaq	(%r14,%r11), %rax
	addq	$14, %r11
	leaq	.L1_x86_static.160(%rip), %rcx
	movq	%rax, %rdx
	subq	%rcx, %rdx
	movabsq	$8029764343114262886, %rcx
	cmpq	$13, %rdx
	ja	221f
	movq	%rcx, (%rax)
	movl	$1918987296, 8(%rax)
	movw	$25959, 12(%rax)
	jmp	43b
123:
	testq	%rax, %rax
	jne	273f
	movq	8(%rsp), %r11
	movq	16(%rsp), %rsi
	movq	%rsi, %rax
	subq	%r11, %rax
	cmpq	$21, %rax
	jbe	323f
124:
	movq	(%rsp), %r14
	pxor	%xmm0, %xmm0
	movdqu	%xmm0, (%r15)
	leaq	(%r14,%r11), %rax
	addq	$22, %r11
	leaq	.L1_x86_static.167(%rip), %rcx
	movq	%rax, %rdx
	subq	%rcx, %rdx
	cmpq	$21, %rdx
	ja	222f
	movdqa	.L1_x86_CPI42_6(%rip), %xmm0
	movdqu	%xmm0, (%rax)
	movl	$1869357167, 16(%rax)
	movw	$26478, 20(%rax)
	jmp	43b
125:
	testq	%rax, %rax
	jne	275f
	movq	8(%rsp), %r11
	movq	16(%rsp), %rsi
	movq	%rsi, %rax
	subq	%r11, %rax
	cmpq	$18, %rax
	jbe	324f
126:
	movq	(%rsp), %r14
	pxor	%xmm0, %xmm0
	movdqu	%xmm0, (%r15)
	leaq	(%r14,%r11), %rax
	addq	$19, %r11
	leaq	.L1_x86_static.149(%rip), %rcx
	movq	%rax, %rdx
	subq	%rcx, %rdx
	cmpq	$18, %rdx
	ja	223f
	movdqa	.L1_x86_CPI42_19(%rip), %xmm0
	movdqu	%xmm0, (%rax)
	movw	$29808, 16(%rax)
	movb	$121, 18(%rax)
	jmp	43b
127:
	testq	%rax, %rax
	jne	276f
	movq	8(%rsp), %r11
	movq	16(%rsp), %rsi
	movq	%rsi, %rax
	subq	%r11, %rax
	cmpq	$14, %rax
	jbe	325f
128:
	movq	(%rsp), %r14
	leaq	(%r14,%r11), %rax
	addq	$15, %r11
	leaq	.L1_x86_static.147(%rip), %rcx
	movq	%rax, %rdx
	subq	%rcx, %rdx
	cmpq	$14, %rdx
	ja	224f
	movabsq	$7594230473181917038, %rcx
	movq	%rcx, (%rax)
	movl	$1952671090, 8(%rax)
	movw	$29295, 12(%rax)
	movb	$121, 14(%rax)
	jmp	43b
129:
	testq	%rax, %rax
	jne	277f
	movq	8(%rsp), %r11
	movq	16(%rsp), %rsi
	movq	%rsi, %rax
	subq	%r11, %rax
	cmpq	$15, %rax
	jbe	326f
130:
	movq	(%rsp), %r14
	leaq	(%r14,%r11), %rax
	addq	$16, %r11
	leaq	.L1_x86_static.166(%rip), %rcx
	movq	%rax, %rdx
	subq	%rcx, %rdx
	cmpq	$15, %rdx
	ja	225f
	movdqa	.L1_x86_CPI42_7(%rip), %xmm0
	movdqu	%xmm0, (%rax)
	jmp	43b
131:
	testq	%rax, %rax
	jne	278f
	movq	8(%rsp), %r11
	movq	16(%rsp), %rsi
	movq	%rsi, %rax
	subq	%r11, %rax
	cmpq	$10, %rax
	jbe	327f
132:
	movq	(%rsp), %r14
	leaq	(%r14,%r11), %rax
	addq	$11, %r11
	leaq	.L1_x86_static.144(%rip), %rcx
	movq	%rax, %rdx
	subq	%rcx, %rdx
	movabsq	$8079579113375887970, %rcx
	cmpq	$10, %rdx
	ja	226f
	movq	%rcx, (%rax)
	movw	$28777, 8(%rax)
	movb	$101, 10(%rax)
	jmp	43b
133:
	testq	%rax, %rax
	jne	279f
	movq	8(%rsp), %r11
	movq	16(%rsp), %rsi
	movq	%rsi, %rax
	subq	%r11, %rax
	cmpq	$15, %rax
	jbe	328f
134:
	movq	(%rsp), %r14
	leaq	(%r14,%r11), %rax
	addq	$16, %r11
	leaq	.L1_x86_static.137(%rip), %rcx
	movq	%rax, %rdx
	subq	%rcx, %rdx
	cmpq	$15, %rdx
	movq	%rsi, 64(%rsp)
	ja	227f
	movdqa	.L1_x86_CPI42_25(%rip), %xmm0
	movdqu	%xmm0, (%rax)
	jmp	46b
135:
	testq	%rax, %rax
	jne	280f
	movq	8(%rsp), %r11
	movq	16(%rsp), %rsi
	movq	%rsi, %rax
	subq	%r11, %rax
	cmpq	$10, %rax
	jbe	329f
136:
	movq	(%rsp), %r14
	leaq	(%r14,%r11), %rax
	addq	$11, %r11
	leaq	.L1_x86_static.173(%rip), %rcx
	movq	%rax, %rdx
	subq	%rcx, %rdx
	movabsq	$8243030368671265903, %rcx
	cmpq	$10, %rdx
	ja	228f
	movq	%rcx, (%rax)
	movw	$28530, 8(%rax)
	movb	$114, 10(%rax)
	jmp	43b
137:
	testq	%rax, %rax
	jne	281f
	movq	8(%rsp), %r11
	movq	16(%rsp), %rsi
	movq	%rsi, %rax
	subq	%r11, %rax
	cmpq	$20, %rax
	jbe	330f
138:
	movq	(%rsp), %r14
	pxor	%xmm0, %xmm0
	movdqu	%xmm0, (%r15)
	leaq	(%r14,%r11), %rax
	addq	$21, %r11
	leaq	.L1_x86_static.145(%rip), %rcx
	movq	%rax, %rdx
	subq	%rcx, %rdx
	cmpq	$20, %rdx
	ja	229f
	movdqa	.L1_x86_CPI42_21(%rip), %xmm0
	movdqu	%xmm0, (%rax)
	movl	$1953720696, 16(%rax)
	movb	$115, 20(%rax)
	jmp	43b
139:
	testq	%rax, %rax
	jne	282f
	movq	8(%rsp), %r11
	movq	16(%rsp), %rsi
	movq	%rsi, %rax
	subq	%r11, %rax
	cmpq	$20, %rax
	jbe	331f
140:
	movq	(%rsp), %r14
	pxor	%xmm0, %xmm0
	movdqu	%xmm0, (%r15)
	leaq	(%r14,%r11), %rax
	addq	$21, %r11
	leaq	.L1_x86_static.142(%rip), %rcx
	movq	%rax, %rdx
	subq	%rcx, %rdx
	cmpq	$20, %rdx
	ja	230f
	movdqa	.L1_x86_CPI42_22(%rip), %xmm0
	movdqu	%xmm0, (%rax)
	movl	$1818386796, 16(%rax)
	movb	$101, 20(%rax)
	jmp	43b
141:
	testq	%rax, %rax
	jne	283f
	movq	8(%rsp), %r11
	movq	16(%rsp), %rsi
	movq	%rsi, %rax
	subq	%r11, %rax
	cmpq	$22, %rax
	jbe	332f
142:
	movq	(%rsp), %r14
	pxor	%xmm0, %xmm0
	movdqu	%xmm0, (%r15)
	leaq	(%r14,%r11), %rax
	addq	$23, %r11
	leaq	.L1_x86_static.158(%rip), %rcx
	movq	%rax, %rdx
	subq	%rcx, %rdx
	cmpq	$22, %rdx
	ja	231f
	movdqa	.L1_x86_CPI42_10(%rip), %xmm0
	movdqu	%xmm0, (%rax)
	movl	$1713399148, 16(%rax)
	movw	$27753, 20(%rax)
	movb	$101, 22(%rax)
	jmp	43b
143:
	testq	%rax, %rax
	jne	284f
	movq	8(%rsp), %r11
	movq	16(%rsp), %rsi
	movq	%rsi, %rax
	subq	%r11, %rax
	cmpq	$15, %rax
	jbe	333f
144:
	movq	(%rsp), %r14
	leaq	(%r14,%r11), %rax
	addq	$16, %r11
	leaq	.L1_x86_static.157(%rip), %rcx
	movq	%rax, %rdx
	subq	%rcx, %rdx
	cmpq	$15, %rdx
	ja	232f
	movdqa	.L1_x86_CPI42_11(%rip), %xmm0
	movdqu	%xmm0, (%rax)
	jmp	43b
145:
	testq	%rax, %rax
	jne	285f
	movq	8(%rsp), %r11
	movq	16(%rsp), %rsi
	movq	%rsi, %rax
	subq	%r11, %rax
	cmpq	$17, %rax
	jbe	334f
146:
	movq	(%rsp), %r14
	pxor	%xmm0, %xmm0
	movdqu	%xmm0, (%r15)
	leaq	(%r14,%r11), %rax
	addq	$18, %r11
	leaq	.L1_x86_static.135(%rip), %rcx
	movq	%rax, %rdx
	subq	%rcx, %rdx
	cmpq	$17, %rdx
	movq	%rsi, 64(%rsp)
	ja	233f
	movdqa	.L1_x86_CPI42_27(%rip), %xmm0
	jmp	234f
147:
	testq	%rax, %rax
	jne	286f
	movq	8(%rsp), %r11
	movq	16(%rsp), %rsi
	movq	%rsi, %rax
	subq	%r11, %rax
	cmpq	$13, %rax
	jbe	335f
148:
	movq	(%rsp), %r14
	leaq	(%r14,%r11), %rax
	addq	$14, %r11
	leaq	.L1_x86_static.148(%rip), %rcx
	movq	%rax, %rdx
	subq	%rcx, %rdx
	cmpq	$13, %rdx
	ja	235f
	movabsq	$8244230683109651305, %rcx
	movq	%rcx, (%rax)
	movl	$1869898597, 8(%rax)
	movw	$31090, 12(%rax)
	jmp	43b
149:
	testq	%rax, %rax
	jne	287f
	movq	8(%rsp), %r11
	movq	16(%rsp), %rsi
	movq	%rsi, %rax
	subq	%r11, %rax
	cmpq	$15, %rax
	jbe	336f
150:
	movq	(%rsp), %r14
	leaq	(%r14,%r11), %rax
	addq	$16, %r11
	leaq	.L1_x86_static.136(%rip), %rcx
	movq	%rax, %rdx
	subq	%rcx, %rdx
	cmpq	$15, %rdx
	movq	%rsi, 64(%rsp)
	ja	236f
	movdqa	.L1_x86_CPI42_26(%rip), %xmm0
	movdqu	%xmm0, (%rax)
	jmp	46b
151:
	testq	%rax, %rax
	jne	288f
	movq	8(%rsp), %r11
	movq	16(%rsp), %rsi
	movq	%rsi, %rax
	subq	%r11, %rax
	cmpq	$12, %rax
	jbe	337f
152:
	movq	(%rsp), %r14
	leaq	(%r14,%r11), %rax
	addq	$13, %r11
	leaq	.L1_x86_static.140(%rip), %rcx
	movq	%rax, %rdx
	subq	%rcx, %rdx
	cmpq	$12, %rdx
	ja	237f
	movabsq	$7957420063147192174, %rcx
	movq	%rcx, (%rax)
	movl	$1702126437, 8(%rax)
	movb	$100, 12(%rax)
	jmp	248f
153:
	testq	%rax, %rax
	jne	291f
	movq	8(%rsp), %r11
	movq	16(%rsp), %rsi
	movq	%rsi, %rax
	subq	%r11, %rax
	cmpq	$16, %rax
	jbe	339f
154:
	movq	(%rsp), %r14
	pxor	%xmm0, %xmm0
	movdqu	%xmm0, (%r15)
	leaq	(%r14,%r11), %rax
	addq	$17, %r11
	leaq	.L1_x86_static.134(%rip), %rcx
	movq	%rax, %rdx
	subq	%rcx, %rdx
	cmpq	$16, %rdx
	movq	%rsi, 64(%rsp)
	ja	239f
	movdqa	.L1_x86_CPI42_28(%rip), %xmm0
	jmp	240f
155:
	testq	%rax, %rax
	jne	292f
	movq	8(%rsp), %r11
	movq	16(%rsp), %rsi
	movq	%rsi, %rax
	subq	%r11, %rax
	cmpq	$26, %rax
	jbe	340f
156:
	movq	(%rsp), %r14
	pxor	%xmm0, %xmm0
	movdqu	%xmm0, (%r15)
	leaq	(%r14,%r11), %rax
	addq	$27, %r11
	leaq	.L1_x86_static.164(%rip), %rcx
	movq	%rax, %rdx
	subq	%rcx, %rdx
	cmpq	$26, %rdx
	ja	241f
	movdqa	.L1_x86_CPI42_8(%rip), %xmm0
	movdqu	%xmm0, (%rax)
	movabsq	$7954889800504254571, %rcx
	movq	%rcx, 16(%rax)
	movw	$28001, 24(%rax)
	movb	$101, 26(%rax)
	jmp	43b
157:
	testq	%rax, %rax
	jne	293f
	movq	8(%rsp), %r11
	movq	16(%rsp), %rsi
	movq	%rsi, %rax
	subq	%r11, %rax
	cmpq	$37, %rax
	jbe	341f
158:
	movq	(%rsp), %r14
	pxor	%xmm0, %xmm0
	movdqu	%xmm0, (%r15)
	leaq	(%r14,%r11), %rax
	addq	$38, %r11
	leaq	.L1_x86_static.150(%rip), %rcx
	movq	%rax, %rdx
	subq	%rcx, %rdx
	cmpq	$37, %rdx
	ja	242f
	movaps	.L1_x86_CPI42_17(%rip), %xmm0
	movups	%xmm0, (%rax)
	movdqa	.L1_x86_CPI42_18(%rip), %xmm0
	movdqu	%xmm0, 16(%rax)
	movl	$1768187245, 32(%rax)
	movw	$28021, 36(%rax)
	jmp	43b
159:
	testq	%rax, %rax
	je	23b
160:
	leaq	.L1_x86_static.174(%rip), %rsi
161:
	movq	%rsp, %rdi
	movl	$19, %edx
	callq	core..fmt..formatter..Formatter..write_indented..d3f2601cc94bc858_1_x86
	jmp	26b
162:
	testq	%rax, %rax
	jne	294f
	movq	8(%rsp), %r11
	movq	16(%rsp), %rsi
	movq	%rsi, %rax
	subq	%r11, %rax
	cmpq	$22, %rax
	jbe	342f
163:
	movq	(%rsp), %r14
	pxor	%xmm0, %xmm0
	movdqu	%xmm0, (%r15)
	leaq	(%r14,%r11), %rax
	addq	$23, %r11
	leaq	.L1_x86_static.153(%rip), %rcx
	movq	%rax, %rdx
	subq	%rcx, %rdx
	cmpq	$22, %rdx
	ja	243f
	movdqa	.L1_x86_CPI42_12(%rip), %xmm0
	movdqu	%xmm0, (%rax)
	movl	$1701667186, 16(%rax)
	movw	$25972, 20(%rax)
	movb	$114, 22(%rax)
	jmp	43b
164:
	testq	%rax, %rax
	jne	296f
	movq	8(%rsp), %r11
	movq	16(%rsp), %rsi
	movq	%rsi, %rax
	subq	%r11, %rax
	cmpq	$18, %rax
	jbe	343f
165:
	movq	(%rsp), %r14
	pxor	%xmm0, %xmm0
	movdqu	%xmm0, (%r15)
	leaq	(%r14,%r11), %rax
	addq	$19, %r11
	leaq	.L1_x86_static.138(%rip), %rcx
	movq	%rax, %rdx
	subq	%rcx, %rdx
	cmpq	$18, %rdx
	movq	%rsi, 64(%rsp)
	ja	244f
	movdqa	.L1_x86_CPI42_24(%rip), %xmm0
	movdqu	%xmm0, (%rax)
	movw	$27746, 16(%rax)
	movb	$101, 18(%rax)
	jmp	46b
166:
	testq	%rax, %rax
	jne	297f
	movq	8(%rsp), %r11
	movq	16(%rsp), %rsi
	movq	%rsi, %rax
	subq	%r11, %rax
	cmpq	$11, %rax
	jbe	344f
167:
	movq	(%rsp), %r14
	leaq	(%r14,%r11), %rax
	addq	$12, %r11
	leaq	.L1_x86_static.154(%rip), %rcx
	movq	%rax, %rdx
	subq	%rcx, %rdx
	cmpq	$11, %rdx
	movabsq	$2334106421097295465, %rcx
	movq	%rcx, (%rax)
	movl	$1635017060, 8(%rax)
	jmp	43b
168:
	testq	%rax, %rax
	jne	298f
	movq	8(%rsp), %r11
	movq	16(%rsp), %rsi
	movq	%rsi, %rax
	subq	%r11, %rax
	cmpq	$20, %rax
	jbe	345f
169:
	movq	(%rsp), %r14
	pxor	%xmm0, %xmm0
	movdqu	%xmm0, (%r15)
	leaq	(%r14,%r11), %rax
	addq	$21, %r11
	leaq	.L1_x86_static.146(%rip), %rcx
	movq	%rax, %rdx
	subq	%rcx, %rdx
	cmpq	$20, %rdx
	ja	245f
	movdqa	.L1_x86_CPI42_20(%rip), %xmm0
	movdqu	%xmm0, (%rax)
	movl	$1668246626, 16(%rax)
	movb	$107, 20(%rax)
	jmp	43b
170:
	testq	%rax, %rax
	jne	300f
	movq	8(%rsp), %r11
	movq	16(%rsp), %rsi
	movq	%rsi, %rax
	subq	%r11, %rax
	cmpq	$17, %rax
	jbe	346f
171:
	movq	(%rsp), %r14
	pxor	%xmm0, %xmm0
	movdqu	%xmm0, (%r15)
	leaq	(%r14,%r11), %rax
	addq	$18, %r11
	leaq	.L1_x86_static.139(%rip), %rcx
	movq	%rax, %rdx
	subq	%rcx, %rdx
	cmpq	$17, %rdx
	ja	246f
	movdqa	.L1_x86_CPI42_23(%rip), %xmm0
	jmp	247f
172:
	testq	%rax, %rax
	jne	302f
	movq	8(%rsp), %r11
	movq	16(%rsp), %rsi
	movq	%rsi, %rax
	subq	%r11, %rax
	cmpq	$55, %rax
	jbe	347f
173:
	movq	(%rsp), %r14
	pxor	%xmm0, %xmm0
	movdqu	%xmm0, (%r15)
	leaq	(%r14,%r11), %rax
	addq	$56, %r11
	leaq	.L1_x86_static.151(%rip), %rcx
	movq	%rax, %rdx
	subq	%rcx, %rdx
	cmpq	$55, %rdx
	ja	249f
	movaps	.L1_x86_CPI42_14(%rip), %xmm0
	movups	%xmm0, (%rax)
	movaps	.L1_x86_CPI42_15(%rip), %xmm0
	movups	%xmm0, 16(%rax)
	movdqa	.L1_x86_CPI42_16(%rip), %xmm0
	movdqu	%xmm0, 32(%rax)
	jmp	250f
174:
	testq	%rax, %rax
	jne	303f
	movq	8(%rsp), %r11
	movq	16(%rsp), %rsi
	movq	%rsi, %rax
	subq	%r11, %rax
	cmpq	$11, %rax
	jbe	348f
175:
	movq	(%rsp), %r14
	leaq	(%r14,%r11), %rax
	addq	$12, %r11
	leaq	.L1_x86_static.143(%rip), %rcx
	movq	%rax, %rdx
	subq	%rcx, %rdx
	movabsq	$2336086654792787310, %rcx
	cmpq	$11, %rdx
	movq	%rcx, (%rax)
	movl	$1853321060, 8(%rax)
	jmp	43b
176:
	testq	%rax, %rax
	jne	305f
	movq	8(%rsp), %r11
	movq	16(%rsp), %rsi
	movq	%rsi, %rax
	subq	%r11, %rax
	cmpq	$13, %rax
	jbe	349f
177:
	movq	(%rsp), %r14
	leaq	(%r14,%r11), %rax
	addq	$14, %r11
	leaq	.L1_x86_static.141(%rip), %rcx
	movq	%rax, %rdx
	subq	%rcx, %rdx
	cmpq	$13, %rdx
	ja	251f
	movabsq	$2338339511083492449, %rcx
	movq	%rcx, (%rax)
	movl	$1965059689, 8(%rax)
	movw	$25971, 12(%rax)
	jmp	43b
178:
	testq	%rax, %rax
	jne	306f
	movq	8(%rsp), %r11
	movq	16(%rsp), %rcx
	movq	%rcx, %rax
	subq	%r11, %rax
	cmpq	$7, %rax
	jbe	350f
179:
	movq	(%rsp), %r14
	movabsq	$7738151096083899748, %rax
	movq	%rax, (%r14,%r11)
	addq	$8, %r11
	movq	%r14, (%rsp)
	movq	%r11, 8(%rsp)
	movq	%rcx, 64(%rsp)
	movq	%rcx, 16(%rsp)
	jmp	47b
180:
	testq	%rax, %rax
	jne	307f
	movq	8(%rsp), %r11
	movq	16(%rsp), %rsi
	movq	%rsi, %rax
	subq	%r11, %rax
	cmpq	$13, %rax
	jbe	351f
181:
	movq	(%rsp), %r14
	leaq	(%r14,%r11), %rax
	addq	$14, %r11
	leaq	.L1_x86_static.165(%rip), %rcx
	movq	%rax, %rdx
	subq	%rcx, %rdx
	cmpq	$13, %rdx
	ja	252f
	movabsq	$8750038247350955892, %rcx
	movq	%rcx, (%rax)
	movl	$1852402720, 8(%rax)
	movw	$29547, 12(%rax)
	jmp	43b
182:
	testq	%rax, %rax
	jne	308f
	movq	8(%rsp), %r11
	movq	16(%rsp), %rsi
	movq	%rsi, %rax
	subq	%r11, %rax
	cmpq	$8, %rax
	jbe	352f
183:
	movq	(%rsp), %r14
	leaq	(%r14,%r11), %rax
	addq	$9, %r11
	leaq	.L1_x86_static.155(%rip), %rcx
	movq	%rax, %rdx
	subq	%rcx, %rdx
	movabsq	$8462017840422938996, %rcx
	cmpq	$8, %rdx
	movq	%rcx, (%rax)
	movb	$116, 8(%rax)
	jmp	43b
184:
	testq	%rax, %rax
	jne	309f
	movq	8(%rsp), %r11
	movq	16(%rsp), %rsi
	movq	%rsi, %rax
	subq	%r11, %rax
	cmpq	$10, %rax
	jbe	353f
185:
	movq	(%rsp), %r14
	leaq	(%r14,%r11), %rax
	addq	$11, %r11
	leaq	.L1_x86_static.172(%rip), %rcx
	movq	%rax, %rdx
	subq	%rcx, %rdx
	movabsq	$8243680180223110761, %rcx
	cmpq	$10, %rdx
	ja	253f
	movq	%rcx, (%rax)
	movw	$29541, 8(%rax)
	movb	$115, 10(%rax)
	jmp	43b
186:
	testq	%rax, %rax
	jne	311f
	movq	8(%rsp), %r11
	movq	16(%rsp), %rsi
	movq	%rsi, %rax
	subq	%r11, %rax
	cmpq	$24, %rax
	jbe	354f
187:
	movq	(%rsp), %r14
	pxor	%xmm0, %xmm0
	movdqu	%xmm0, (%r15)
	leaq	(%r14,%r11), %rax
	addq	$25, %r11
	leaq	.L1_x86_static.152(%rip), %rcx
	movq	%rax, %rdx
	subq	%rcx, %rdx
	cmpq	$24, %rdx
	ja	254f
	movdqa	.L1_x86_CPI42_13(%rip), %xmm0
	movdqu	%xmm0, (%rax)
	movabsq	$7810489018405119340, %rcx
	movq	%rcx, 16(%rax)
	movb	$101, 24(%rax)
	jmp	43b
188:
	testq	%rax, %rax
	jne	312f
	movq	8(%rsp), %r11
	movq	16(%rsp), %rsi
	movq	%rsi, %rax
	subq	%r11, %rax
	cmpq	$9, %rax
	jbe	355f
189:
	movq	(%rsp), %r14
	leaq	(%r14,%r11), %rax
	addq	$10, %r11
	leaq	.L1_x86_static.156(%rip), %rcx
	movq	%rax, %rdx
	subq	%rcx, %rdx
	cmpq	$9, %rdx
	movabsq	$7312192565106274935, %rcx
	movq	%rcx, (%rax)
	movw	$28530, 8(%rax)
	jmp	43b
190:
	testq	%rax, %rax
	jne	313f
	movq	8(%rsp), %r11
	movq	16(%rsp), %rsi
	movq	%rsi, %rax
	subq	%r11, %rax
	cmpq	$12, %rax
	jbe	356f
191:
	movq	(%rsp), %r14
	leaq	(%r14,%r11), %rax
	addq	$13, %r11
	leaq	.L1_x86_static.161(%rip), %rcx
	movq	%rax, %rdx
	subq	%rcx, %rdx
	cmpq	$12, %rdx
	ja	255f
	movabsq	$7305808869231650162, %rcx
	movq	%rcx, (%rax)
	movl	$1937072672, 8(%rax)
	movb	$121, 12(%rax)
	jmp	43b
192:
	testq	%rax, %rax
	jne	314f
	movq	8(%rsp), %r11
	movq	16(%rsp), %rsi
	movq	%rsi, %rax
	subq	%r11, %rax
	cmpq	$19, %rax
	jbe	357f
193:
	movq	(%rsp), %r14
	pxor	%xmm0, %xmm0
	movdqu	%xmm0, (%r15)
	leaq	(%r14,%r11), %rax
	addq	$20, %r11
	leaq	.L1_x86_static.162(%rip), %rcx
	movq	%rax, %rdx
	subq	%rcx, %rdx
	cmpq	$19, %rdx
	ja	256f
	movdqa	.L1_x86_CPI42_9(%rip), %xmm0
	jmp	257f
194:
	testq	%rax, %rax
	jne	315f
	movq	8(%rsp), %r11
	movq	16(%rsp), %rsi
	movq	%rsi, %rax
	subq	%r11, %rax
	cmpq	$12, %rax
	jbe	358f
195:
	movq	(%rsp), %r14
	leaq	(%r14,%r11), %rax
	addq	$13, %r11
	leaq	.L1_x86_static.171(%rip), %rcx
	movq	%rax, %rdx
	subq	%rcx, %rdx
	cmpq	$12, %rdx
	ja	258f
	movabsq	$7863397576860792175, %rcx
	movq	%rcx, (%rax)
	movl	$1919905125, 8(%rax)
	movb	$121, 12(%rax)
	jmp	43b
196:
	testq	%rax, %rax
	jne	317f
	movq	8(%rsp), %r11
	movq	16(%rsp), %rsi
	movq	%rsi, %rax
	subq	%r11, %rax
	cmpq	$13, %rax
	jbe	359f
197:
	movq	(%rsp), %r14
	leaq	(%r14,%r11), %rax
	addq	$14, %r11
	leaq	.L1_x86_static.159(%rip), %rcx
	movq	%rax, %rdx
	subq	%rcx, %rdx
	movabsq	$8675375860136506737, %rcx
	cmpq	$13, %rdx
	ja	259f
	movq	%rcx, (%rax)
	movl	$1684366691, 8(%rax)
	movw	$25701, 12(%rax)
	jmp	43b
198:
	xorl	%esi, %esi
199:
	movq	%r11, %rdx
	subq	%rcx, %rdx
	cmpq	$11, %rdx
	jb	48b
	movl	$11, %edx
	subq	%rdi, %rdx
	movl	$1, %r8d
	subq	%rsi, %r8
	leaq	-1(%r14), %r9
	xorl	%r10d, %r10d
200:
	cmpq	%rsi, %r10
	movq	%rsi, %r11
	cmovaq	%r10, %r11
	cmpq	$10, %r11
	ja	202f
	leaq	(%r14,%rcx), %rbx
201:
	movzbl	(%r11,%rax), %ebp
	cmpb	(%rbx,%r11), %bpl
	jne	204f
	incq	%r11
	cmpq	$11, %r11
	jne	201b
202:
	leaq	(%r9,%rcx), %r11
	movq	%rsi, %rbx
	leaq	79(%rsp), %r13
203:
	cmpq	%rbx, %r10
	jae	206f
	movzbl	-1(%rbx,%rax), %ebp
	cmpb	(%r11,%rbx), %bpl
	leaq	-1(%rbx), %rbx
	je	203b
	addq	%rdi, %rcx
	movq	%rdx, %r10
	jmp	205f
204:
	addq	%r8, %rcx
	addq	%r11, %rcx
	xorl	%r10d, %r10d
205:
	movq	80(%rsp), %rbx
	movq	%rbx, %r11
	subq	%rcx, %r11
	cmpq	$11, %r11
	movq	%rbx, %r11
	jae	200b
	jmp	48b
206:
	movq	%rcx, %rdx
207:
	movq	%r13, 96(%rsp)
	pxor	%xmm0, %xmm0
	movdqu	%xmm0, 104(%rsp)
	testq	%rdx, %rdx
	movq	88(%rsp), %r12
	jne	266f
	xorl	%ebx, %ebx
	xorl	%eax, %eax
208:
	leaq	104(%rsp), %rcx
	leaq	(%rax,%rdx), %r11
	movdqu	%xmm0, (%rcx)
	leaq	(%rax,%r13), %rdi
	movq	%rdi, %rcx
	subq	%r14, %rcx
	cmpq	%rdx, %rcx
	jae	214f
	cmpq	$4, %rdx
	jb	209f
	cmpq	$32, %rcx
	jae	217f
209:
	xorl	%ecx, %ecx
210:
	movq	%rdx, %r8
	movq	%rcx, %rsi
	andq	$3, %r8
	je	212f
	movq	%rcx, %rsi
	.p2align	4
211:
	movzbl	(%r14,%rsi), %r9d
	movb	%r9b, (%rdi,%rsi)
	incq	%rsi
	decq	%r8
	jne	211b
212:
	subq	%rdx, %rcx
	cmpq	$-4, %rcx
	ja	215f
	addq	%r13, %rax
	addq	$3, %rax
213:
	movzbl	(%r14,%rsi), %ecx
	movb	%cl, -3(%rax,%rsi)
	movzbl	1(%r14,%rsi), %ecx
	movb	%cl, -2(%rax,%rsi)
	movzbl	2(%r14,%rsi), %ecx
	movb	%cl, -1(%rax,%rsi)
	movzbl	3(%r14,%rsi), %ecx
	movb	%cl, (%rax,%rsi)
	addq	$4, %rsi
	cmpq	%rsi, %rdx
	jne	213b
	jmp	215f
214:
	movq	%r14, %rsi
	movq	%r11, %r15
	vj_c_call	memmove
	movq	%r15, %r11
215:
	movq	%r11, 104(%rsp)
	movq	%rbx, 112(%rsp)
	cmpq	$0, 64(%rsp)
	je	216f
	movq	%r14, %rdi
	movq	%r11, %r14
	vj_call	rattle_dealloc
	movq	%r14, %r11
216:
	xorl	%ebp, %ebp
	movq	%r13, %r14
	jmp	94b
217:
	cmpq	$32, %rdx
	jae	262f
	xorl	%ecx, %ecx
	jmp	264f
218:
	movdqu	.L1_x86_static.170(%rip), %xmm0
	movdqu	%xmm0, (%rax)
	movabsq	$7308332182666637088, %rcx
	movq	%rcx, 14(%rax)
	jmp	43b
219:
	movdqu	.L1_x86_static.168(%rip), %xmm0
	movdqu	%xmm0, (%rax)
	movabsq	$7234316402796163685, %rcx
	movq	%rcx, 13(%rax)
	jmp	43b
220:
	movq	%rcx, (%rax)
	movl	$1684370546, 7(%rax)
	jmp	43b
221:
	movabsq	$7306934683183378287, %rdx
	jmp	260f
222:
	movdqu	.L1_x86_static.167(%rip), %xmm0
	movdqu	%xmm0, (%rax)
	movabsq	$7453016943536074612, %rcx
	movq	%rcx, 14(%rax)
	jmp	43b
223:
	movdqu	.L1_x86_static.149(%rip), %xmm0
	movdqu	%xmm0, (%rax)
	movl	$2037674093, 15(%rax)
	jmp	43b
224:
	movabsq	$8751179571608777321, %rcx
	movq	%rcx, 7(%rax)
	movabsq	$7594230473181917038, %rcx
	jmp	261f
225:
	movdqu	.L1_x86_static.166(%rip), %xmm0
	movdqu	%xmm0, (%rax)
	jmp	43b
226:
	movq	%rcx, (%rax)
	movl	$1701865840, 7(%rax)
	jmp	43b
227:
	movdqu	.L1_x86_static.137(%rip), %xmm0
	movdqu	%xmm0, (%rax)
	jmp	46b
228:
	movq	%rcx, (%rax)
	movl	$1919906418, 7(%rax)
	jmp	43b
229:
	movdqu	.L1_x86_static.145(%rip), %xmm0
	movdqu	%xmm0, (%rax)
	movabsq	$8319401308488802425, %rcx
	movq	%rcx, 13(%rax)
	jmp	43b
230:
	movdqu	.L1_x86_static.142(%rip), %xmm0
	movdqu	%xmm0, (%rax)
	movabsq	$7308324465885667702, %rcx
	movq	%rcx, 13(%rax)
	jmp	43b
231:
	movdqu	.L1_x86_static.158(%rip), %xmm0
	movdqu	%xmm0, (%rax)
	movabsq	$7308332182666570850, %rcx
	movq	%rcx, 15(%rax)
	jmp	43b
232:
	movdqu	.L1_x86_static.157(%rip), %xmm0
	movdqu	%xmm0, (%rax)
	jmp	43b
233:
	movdqu	.L1_x86_static.135(%rip), %xmm0
234:
	movdqu	%xmm0, (%rax)
	movw	$25701, 16(%rax)
	jmp	46b
235:
	movabsq	$8751179571608777321, %rcx
	movq	%rcx, 6(%rax)
	movabsq	$8244230683109651305, %rcx
	jmp	261f
236:
	movdqu	.L1_x86_static.136(%rip), %xmm0
	movdqu	%xmm0, (%rax)
	jmp	46b
237:
	movabsq	$7234316346692890223, %rcx
	movq	%rcx, 5(%rax)
	movabsq	$7957420063147192174, %rcx
	movq	%rcx, (%rax)
	jmp	248f
238:
	movdqu	.L1_x86_static.133(%rip), %xmm0
	movdqu	%xmm0, (%rax)
	jmp	46b
239:
	movdqu	.L1_x86_static.134(%rip), %xmm0
240:
	movdqu	%xmm0, (%rax)
	movb	$100, 16(%rax)
	jmp	46b
241:
	movups	.L1_x86_static.164+11(%rip), %xmm0
	movups	%xmm0, 11(%rax)
	movdqu	.L1_x86_static.164(%rip), %xmm0
	movdqu	%xmm0, (%rax)
	jmp	43b
242:
	movups	.L1_x86_static.150+16(%rip), %xmm0
	movups	%xmm0, 16(%rax)
	movdqu	.L1_x86_static.150(%rip), %xmm0
	movdqu	%xmm0, (%rax)
	movabsq	$7887326202328588389, %rcx
	movq	%rcx, 30(%rax)
	jmp	43b
243:
	movdqu	.L1_x86_static.153(%rip), %xmm0
	movdqu	%xmm0, (%rax)
	movabsq	$8243122671947182689, %rcx
	movq	%rcx, 15(%rax)
	jmp	43b
244:
	movdqu	.L1_x86_static.138(%rip), %xmm0
	movdqu	%xmm0, (%rax)
	movl	$1701601889, 15(%rax)
	jmp	46b
245:
	movdqu	.L1_x86_static.146(%rip), %xmm0
	movdqu	%xmm0, (%rax)
	movabsq	$7738151096046085228, %rcx
	movq	%rcx, 13(%rax)
	jmp	43b
246:
	movdqu	.L1_x86_static.139(%rip), %xmm0
247:
	movdqu	%xmm0, (%rax)
	movw	$25701, 16(%rax)
248:
	movq	%rsi, 64(%rsp)
	movq	%r14, (%rsp)
	movq	%r11, 8(%rsp)
	jmp	47b
249:
	movups	.L1_x86_static.151+32(%rip), %xmm0
	movups	%xmm0, 32(%rax)
	movups	.L1_x86_static.151+16(%rip), %xmm0
	movups	%xmm0, 16(%rax)
	movdqu	.L1_x86_static.151(%rip), %xmm0
	movdqu	%xmm0, (%rax)
250:
	movabsq	$2986009077292755822, %rcx
	movq	%rcx, 48(%rax)
	jmp	43b
251:
	movabsq	$7310315402304233587, %rcx
	movq	%rcx, 6(%rax)
	movabsq	$2338339511083492449, %rcx
	jmp	261f
252:
	movabsq	$8316862535934441838, %rcx
	movq	%rcx, 6(%rax)
	movabsq	$8750038247350955892, %rcx
	jmp	261f
253:
	movq	%rcx, (%rax)
	movl	$1936942450, 7(%rax)
	jmp	43b
254:
	movups	.L1_x86_static.152+9(%rip), %xmm0
	movups	%xmm0, 9(%rax)
	movdqu	.L1_x86_static.152(%rip), %xmm0
	movdqu	%xmm0, (%rax)
	jmp	43b
255:
	movabsq	$8751467565221766002, %rcx
	movq	%rcx, 5(%rax)
	movabsq	$7305808869231650162, %rcx
	jmp	261f
256:
	movdqu	.L1_x86_static.162(%rip), %xmm0
257:
	movdqu	%xmm0, (%rax)
	movl	$2037609826, 16(%rax)
	jmp	43b
258:
	movabsq	$8751179541578063974, %rcx
	movq	%rcx, 5(%rax)
	movabsq	$7863397576860792175, %rcx
	jmp	261f
259:
	movabsq	$7234298763096062053, %rdx
260:
	movq	%rdx, 6(%rax)
261:
	movq	%rcx, (%rax)
	jmp	43b
262:
	movq	%rdx, %rcx
	andq	$-32, %rcx
	leaq	(%rax,%r13), %rsi
	addq	$16, %rsi
	xorl	%r8d, %r8d
263:
	movdqu	(%r14,%r8), %xmm0
	movdqu	16(%r14,%r8), %xmm1
	movdqu	%xmm0, -16(%rsi,%r8)
	movdqu	%xmm1, (%rsi,%r8)
	addq	$32, %r8
	cmpq	%r8, %rcx
	jne	263b
	cmpq	%rcx, %rdx
	je	215b
	testb	$28, %dl
	je	210b
264:
	movq	%rcx, %rsi
	movq	%rdx, %rcx
	andq	$-4, %rcx
265:
	movl	(%r14,%rsi), %r8d
	movl	%r8d, (%rdi,%rsi)
	addq	$4, %rsi
	cmpq	%rsi, %rcx
	jne	265b
	cmpq	%rcx, %rdx
	je	215b
	jmp	210b
266:
	leaq	96(%rsp), %rdi
	movq	%rdx, %r15
	movq	%rdx, %rsi
	callq	std_alloc..vec..Vec..grow_amortized..01eec35b572d02af_1_x86
	testb	%al, %al
	je	267f
	movq	96(%rsp), %r13
	movq	104(%rsp), %rax
	movq	112(%rsp), %rbx
	movq	%r15, %rdx
	pxor	%xmm0, %xmm0
	jmp	208b
267:
	cmpq	$0, 112(%rsp)
	je	268f
	movq	96(%rsp), %rdi
	vj_call	rattle_dealloc
268:
	movb	$1, %bpl
	cmpq	$0, 64(%rsp)
	je	93b
	movq	%r14, %rdi
	vj_call	rattle_dealloc
	jmp	93b
269:
	leaq	.L1_x86_static.170(%rip), %rsi
	jmp	274f
270:
	leaq	.L1_x86_static.168(%rip), %rsi
	jmp	299f
271:
	leaq	.L1_x86_static.169(%rip), %rsi
	jmp	310f
272:
	leaq	.L1_x86_static.160(%rip), %rsi
	jmp	318f
273:
	leaq	.L1_x86_static.167(%rip), %rsi
274:
	movq	%rsp, %rdi
	movl	$22, %edx
	callq	core..fmt..formatter..Formatter..write_indented..d3f2601cc94bc858_1_x86
	jmp	26b
275:
	leaq	.L1_x86_static.149(%rip), %rsi
	jmp	161b
276:
	leaq	.L1_x86_static.147(%rip), %rsi
	movq	%rsp, %rdi
	movl	$15, %edx
	callq	core..fmt..formatter..Formatter..write_indented..d3f2601cc94bc858_1_x86
	jmp	26b
277:
	leaq	.L1_x86_static.166(%rip), %rsi
	jmp	290f
278:
	leaq	.L1_x86_static.144(%rip), %rsi
	jmp	310f
279:
	leaq	.L1_x86_static.137(%rip), %rsi
	jmp	290f
280:
	leaq	.L1_x86_static.173(%rip), %rsi
	jmp	310f
281:
	leaq	.L1_x86_static.145(%rip), %rsi
	jmp	299f
282:
	leaq	.L1_x86_static.142(%rip), %rsi
	jmp	299f
283:
	leaq	.L1_x86_static.158(%rip), %rsi
	jmp	295f
284:
	leaq	.L1_x86_static.157(%rip), %rsi
	jmp	290f
285:
	leaq	.L1_x86_static.135(%rip), %rsi
	jmp	301f
286:
	leaq	.L1_x86_static.148(%rip), %rsi
	jmp	318f
287:
	leaq	.L1_x86_static.136(%rip), %rsi
	jmp	290f
288:
	leaq	.L1_x86_static.140(%rip), %rsi
	jmp	316f
289:
	leaq	.L1_x86_static.133(%rip), %rsi
290:
	movq	%rsp, %rdi
	movl	$16, %edx
	callq	core..fmt..formatter..Formatter..write_indented..d3f2601cc94bc858_1_x86
	jmp	26b
291:
	leaq	.L1_x86_static.134(%rip), %rsi
	movq	%rsp, %rdi
	movl	$17, %edx
	callq	core..fmt..formatter..Formatter..write_indented..d3f2601cc94bc858_1_x86
	jmp	26b
292:
	leaq	.L1_x86_static.164(%rip), %rsi
	movq	%rsp, %rdi
	movl	$27, %edx
	callq	core..fmt..formatter..Formatter..write_indented..d3f2601cc94bc858_1_x86
	jmp	26b
293:
	leaq	.L1_x86_static.150(%rip), %rsi
	movq	%rsp, %rdi
	movl	$38, %edx
	callq	core..fmt..formatter..Formatter..write_indented..d3f2601cc94bc858_1_x86
	jmp	26b
294:
	leaq	.L1_x86_static.153(%rip), %rsi
295:
	movq	%rsp, %rdi
	movl	$23, %edx
	callq	core..fmt..formatter..Formatter..write_indented..d3f2601cc94bc858_1_x86
	jmp	26b
296:
	leaq	.L1_x86_static.138(%rip), %rsi
	jmp	161b
297:
	leaq	.L1_x86_static.154(%rip), %rsi
	jmp	304f
298:
	leaq	.L1_x86_static.146(%rip), %rsi
299:
	movq	%rsp, %rdi
	movl	$21, %edx
	callq	core..fmt..formatter..Formatter..write_indented..d3f2601cc94bc858_1_x86
	jmp	26b
300:
	leaq	.L1_x86_static.139(%rip), %rsi
301:
	movq	%rsp, %rdi
	movl	$18, %edx
	callq	core..fmt..formatter..Formatter..write_indented..d3f2601cc94bc858_1_x86
	jmp	26b
302:
	leaq	.L1_x86_static.151(%rip), %rsi
	movq	%rsp, %rdi
	movl	$56, %edx
	callq	core..fmt..formatter..Formatter..write_indented..d3f2601cc94bc858_1_x86
	jmp	26b
303:
	leaq	.L1_x86_static.143(%rip), %rsi
304:
	movq	%rsp, %rdi
	movl	$12, %edx
	callq	core..fmt..formatter..Formatter..write_indented..d3f2601cc94bc858_1_x86
	jmp	26b
305:
	leaq	.L1_x86_static.141(%rip), %rsi
	jmp	318f
306:
	leaq	.L1_x86_static.163(%rip), %rsi
	movq	%rsp, %rdi
	movl	$8, %edx
	callq	core..fmt..formatter..Formatter..write_indented..d3f2601cc94bc858_1_x86
	jmp	26b
307:
	leaq	.L1_x86_static.165(%rip), %rsi
	jmp	318f
308:
	leaq	.L1_x86_static.155(%rip), %rsi
	movq	%rsp, %rdi
	movl	$9, %edx
	callq	core..fmt..formatter..Formatter..write_indented..d3f2601cc94bc858_1_x86
	jmp	26b
309:
	leaq	.L1_x86_static.172(%rip), %rsi
310:
	movq	%rsp, %rdi
	movl	$11, %edx
	callq	core..fmt..formatter..Formatter..write_indented..d3f2601cc94bc858_1_x86
	jmp	26b
311:
	leaq	.L1_x86_static.152(%rip), %rsi
	movq	%rsp, %rdi
	movl	$25, %edx
	callq	core..fmt..formatter..Formatter..write_indented..d3f2601cc94bc858_1_x86
	jmp	26b
312:
	leaq	.L1_x86_static.156(%rip), %rsi
	movq	%rsp, %rdi
	movl	$10, %edx
	callq	core..fmt..formatter..Formatter..write_indented..d3f2601cc94bc858_1_x86
	jmp	26b
313:
	leaq	.L1_x86_static.161(%rip), %rsi
	jmp	316f
314:
	leaq	.L1_x86_static.162(%rip), %rsi
	movq	%rsp, %rdi
	movl	$20, %edx
	callq	core..fmt..formatter..Formatter..write_indented..d3f2601cc94bc858_1_x86
	jmp	26b
315:
	leaq	.L1_x86_static.171(%rip), %rsi
316:
	movq	%rsp, %rdi
	movl	$13, %edx
	callq	core..fmt..formatter..Formatter..write_indented..d3f2601cc94bc858_1_x86
	jmp	26b
317:
	leaq	.L1_x86_static.159(%rip), %rsi
318:
	movq	%rsp, %rdi
	movl	$14, %edx
	callq	core..fmt..formatter..Formatter..write_indented..d3f2601cc94bc858_1_x86
	jmp	26b
319:
	movq	%rsp, %rdi
	movl	$22, %esi
	callq	std_alloc..vec..Vec..grow_amortized..01eec35b572d02af_1_x86
	testb	%al, %al
	je	360f
	movq	8(%rsp), %r11
	movq	16(%rsp), %rsi
	jmp	116b
320:
	movq	%rsp, %rdi
	movl	$21, %esi
	callq	std_alloc..vec..Vec..grow_amortized..01eec35b572d02af_1_x86
	testb	%al, %al
	je	360f
	movq	8(%rsp), %r11
	movq	16(%rsp), %rsi
	jmp	118b
321:
	movq	%rsp, %rdi
	movl	$11, %esi
	callq	std_alloc..vec..Vec..grow_amortized..01eec35b572d02af_1_x86
	testb	%al, %al
	je	360f
	movq	8(%rsp), %r11
	movq	16(%rsp), %rsi
	jmp	120b
322:
	movq	%rsp, %rdi
	movl	$14, %esi
	callq	std_alloc..vec..Vec..grow_amortized..01eec35b572d02af_1_x86
	testb	%al, %al
	je	360f
	movq	8(%rsp), %r11
	movq	16(%rsp), %rsi
	jmp	122b
323:
	movq	%rsp, %rdi
	movl	$22, %esi
	callq	std_alloc..vec..Vec..grow_amortized..01eec35b572d02af_1_x86
	testb	%al, %al
	je	360f
	movq	8(%rsp), %r11
	movq	16(%rsp), %rsi
	jmp	124b
324:
	movq	%rsp, %rdi
	movl	$19, %esi
	callq	std_alloc..vec..Vec..grow_amortized..01eec35b572d02af_1_x86
	testb	%al, %al
	je	360f
	movq	8(%rsp), %r11
	movq	16(%rsp), %rsi
	jmp	126b
325:
	movq	%rsp, %rdi
	movl	$15, %esi
	callq	std_alloc..vec..Vec..grow_amortized..01eec35b572d02af_1_x86
	testb	%al, %al
	je	360f
	movq	8(%rsp), %r11
	movq	16(%rsp), %rsi
	jmp	128b
326:
	movq	%rsp, %rdi
	movl	$16, %esi
	callq	std_alloc..vec..Vec..grow_amortized..01eec35b572d02af_1_x86
	testb	%al, %al
	je	360f
	movq	8(%rsp), %r11
	movq	16(%rsp), %rsi
	jmp	130b
327:
	movq	%rsp, %rdi
	movl	$11, %esi
	callq	std_alloc..vec..Vec..grow_amortized..01eec35b572d02af_1_x86
	testb	%al, %al
	je	360f
	movq	8(%rsp), %r11
	movq	16(%rsp), %rsi
	jmp	132b
328:
	movq	%rsp, %rdi
	movl	$16, %esi
	callq	std_alloc..vec..Vec..grow_amortized..01eec35b572d02af_1_x86
	testb	%al, %al
	je	360f
	movq	8(%rsp), %r11
	movq	16(%rsp), %rsi
	jmp	134b
329:
	movq	%rsp, %rdi
	movl	$11, %esi
	callq	std_alloc..vec..Vec..grow_amortized..01eec35b572d02af_1_x86
	testb	%al, %al
	je	360f
	movq	8(%rsp), %r11
	movq	16(%rsp), %rsi
	jmp	136b
330:
	movq	%rsp, %rdi
	movl	$21, %esi
	callq	std_alloc..vec..Vec..grow_amortized..01eec35b572d02af_1_x86
	testb	%al, %al
	je	360f
	movq	8(%rsp), %r11
	movq	16(%rsp), %rsi
	jmp	138b
331:
	movq	%rsp, %rdi
	movl	$21, %esi
	callq	std_alloc..vec..Vec..grow_amortized..01eec35b572d02af_1_x86
	testb	%al, %al
	je	360f
	movq	8(%rsp), %r11
	movq	16(%rsp), %rsi
	jmp	140b
332:
	movq	%rsp, %rdi
	movl	$23, %esi
	callq	std_alloc..vec..Vec..grow_amortized..01eec35b572d02af_1_x86
	testb	%al, %al
	je	360f
	movq	8(%rsp), %r11
	movq	16(%rsp), %rsi
	jmp	142b
333:
	movq	%rsp, %rdi
	movl	$16, %esi
	callq	std_alloc..vec..Vec..grow_amortized..01eec35b572d02af_1_x86
	testb	%al, %al
	je	360f
	movq	8(%rsp), %r11
	movq	16(%rsp), %rsi
	jmp	144b
334:
	movq	%rsp, %rdi
	movl	$18, %esi
	callq	std_alloc..vec..Vec..grow_amortized..01eec35b572d02af_1_x86
	testb	%al, %al
	je	360f
	movq	8(%rsp), %r11
	movq	16(%rsp), %rsi
	jmp	146b
335:
	movq	%rsp, %rdi
	movl	$14, %esi
	callq	std_alloc..vec..Vec..grow_amortized..01eec35b572d02af_1_x86
	testb	%al, %al
	je	360f
	movq	8(%rsp), %r11
	movq	16(%rsp), %rsi
	jmp	148b
336:
	movq	%rsp, %rdi
	movl	$16, %esi
	callq	std_alloc..vec..Vec..grow_amortized..01eec35b572d02af_1_x86
	testb	%al, %al
	je	360f
	movq	8(%rsp), %r11
	movq	16(%rsp), %rsi
	jmp	150b
337:
	movq	%rsp, %rdi
	movl	$13, %esi
	callq	std_alloc..vec..Vec..grow_amortized..01eec35b572d02af_1_x86
	testb	%al, %al
	je	360f
	movq	8(%rsp), %r11
	movq	16(%rsp), %rsi
	jmp	152b
338:
	movq	%rsp, %rdi
	movl	$16, %esi
	callq	std_alloc..vec..Vec..grow_amortized..01eec35b572d02af_1_x86
	testb	%al, %al
	je	360f
	movq	8(%rsp), %r11
	movq	16(%rsp), %rsi
	jmp	14b
339:
	movq	%rsp, %rdi
	movl	$17, %esi
	callq	std_alloc..vec..Vec..grow_amortized..01eec35b572d02af_1_x86
	testb	%al, %al
	je	360f
	movq	8(%rsp), %r11
	movq	16(%rsp), %rsi
	jmp	154b
340:
	movq	%rsp, %rdi
	movl	$27, %esi
	callq	std_alloc..vec..Vec..grow_amortized..01eec35b572d02af_1_x86
	testb	%al, %al
	je	360f
	movq	8(%rsp), %r11
	movq	16(%rsp), %rsi
	jmp	156b
341:
	movq	%rsp, %rdi
	movl	$38, %esi
	callq	std_alloc..vec..Vec..grow_amortized..01eec35b572d02af_1_x86
	testb	%al, %al
	je	360f
	movq	8(%rsp), %r11
	movq	16(%rsp), %rsi
	jmp	158b
342:
	movq	%rsp, %rdi
	movl	$23, %esi
	callq	std_alloc..vec..Vec..grow_amortized..01eec35b572d02af_1_x86
	testb	%al, %al
	je	360f
	movq	8(%rsp), %r11
	movq	16(%rsp), %rsi
	jmp	163b
343:
	movq	%rsp, %rdi
	movl	$19, %esi
	callq	std_alloc..vec..Vec..grow_amortized..01eec35b572d02af_1_x86
	testb	%al, %al
	je	360f
	movq	8(%rsp), %r11
	movq	16(%rsp), %rsi
	jmp	165b
344:
	movq	%rsp, %rdi
	movl	$12, %esi
	callq	std_alloc..vec..Vec..grow_amortized..01eec35b572d02af_1_x86
	testb	%al, %al
	je	360f
	movq	8(%rsp), %r11
	movq	16(%rsp), %rsi
	jmp	167b
345:
	movq	%rsp, %rdi
	movl	$21, %esi
	callq	std_alloc..vec..Vec..grow_amortized..01eec35b572d02af_1_x86
	testb	%al, %al
	je	360f
	movq	8(%rsp), %r11
	movq	16(%rsp), %rsi
	jmp	169b
346:
	movq	%rsp, %rdi
	movl	$18, %esi
	callq	std_alloc..vec..Vec..grow_amortized..01eec35b572d02af_1_x86
	testb	%al, %al
	je	360f
	movq	8(%rsp), %r11
	movq	16(%rsp), %rsi
	jmp	171b
347:
	movq	%rsp, %rdi
	movl	$56, %esi
	callq	std_alloc..vec..Vec..grow_amortized..01eec35b572d02af_1_x86
	testb	%al, %al
	je	360f
	movq	8(%rsp), %r11
	movq	16(%rsp), %rsi
	jmp	173b
348:
	movq	%rsp, %rdi
	movl	$12, %esi
	callq	std_alloc..vec..Vec..grow_amortized..01eec35b572d02af_1_x86
	testb	%al, %al
	je	360f
	movq	8(%rsp), %r11
	movq	16(%rsp), %rsi
	jmp	175b
349:
	movq	%rsp, %rdi
	movl	$14, %esi
	callq	std_alloc..vec..Vec..grow_amortized..01eec35b572d02af_1_x86
	testb	%al, %al
	je	360f
	movq	8(%rsp), %r11
	movq	16(%rsp), %rsi
	jmp	177b
350:
	movq	%rsp, %rdi
	movl	$8, %esi
	callq	std_alloc..vec..Vec..grow_amortized..01eec35b572d02af_1_x86
	testb	%al, %al
	je	360f
	movq	8(%rsp), %r11
	movq	16(%rsp), %rcx
	jmp	179b
351:
	movq	%rsp, %rdi
	movl	$14, %esi
	callq	std_alloc..vec..Vec..grow_amortized..01eec35b572d02af_1_x86
	testb	%al, %al
	je	360f
	movq	8(%rsp), %r11
	movq	16(%rsp), %rsi
	jmp	181b
352:
	movq	%rsp, %rdi
	movl	$9, %esi
	callq	std_alloc..vec..Vec..grow_amortized..01eec35b572d02af_1_x86
	testb	%al, %al
	je	360f
	movq	8(%rsp), %r11
	movq	16(%rsp), %rsi
	jmp	183b
353:
	movq	%rsp, %rdi
	movl	$11, %esi
	callq	std_alloc..vec..Vec..grow_amortized..01eec35b572d02af_1_x86
	testb	%al, %al
	je	360f
	movq	8(%rsp), %r11
	movq	16(%rsp), %rsi
	jmp	185b
354:
	movq	%rsp, %rdi
	movl	$25, %esi
	callq	std_alloc..vec..Vec..grow_amortized..01eec35b572d02af_1_x86
	testb	%al, %al
	je	360f
	movq	8(%rsp), %r11
	movq	16(%rsp), %rsi
	jmp	187b
355:
	movq	%rsp, %rdi
	movl	$10, %esi
	callq	std_alloc..vec..Vec..grow_amortized..01eec35b572d02af_1_x86
	testb	%al, %al
	je	360f
	movq	8(%rsp), %r11
	movq	16(%rsp), %rsi
	jmp	189b
356:
	movq	%rsp, %rdi
	movl	$13, %esi
	callq	std_alloc..vec..Vec..grow_amortized..01eec35b572d02af_1_x86
	testb	%al, %al
	je	360f
	movq	8(%rsp), %r11
	movq	16(%rsp), %rsi
	jmp	191b
357:
	movq	%rsp, %rdi
	movl	$20, %esi
	callq	std_alloc..vec..Vec..grow_amortized..01eec35b572d02af_1_x86
	testb	%al, %al
	je	360f
	movq	8(%rsp), %r11
	movq	16(%rsp), %rsi
	jmp	193b
358:
	movq	%rsp, %rdi
	movl	$13, %esi
	callq	std_alloc..vec..Vec..grow_amortized..01eec35b572d02af_1_x86
	testb	%al, %al
	je	360f
	movq	8(%rsp), %r11
	movq	16(%rsp), %rsi
	jmp	195b
359:
	movq	%rsp, %rdi
	movl	$14, %esi
	callq	std_alloc..vec..Vec..grow_amortized..01eec35b572d02af_1_x86
	testb	%al, %al
	je	360f
	movq	8(%rsp), %r11
	movq	16(%rsp), %rsi
	jmp	197b
360:
	movq	192(%rsp), %rax
	movq	%rax, 32(%r15)
	movdqa	176(%rsp), %xmm0
	movdqu	%xmm0, 16(%r15)
	cmpq	$0, 16(%rsp)
	jne	91b
	jmp	92b
	vj_end	b2sum..disk..SystemDisk..reason_of..997c1e2eeb9618f7_1_x86

	vj_data	b2sum..disk..SystemDisk..reason_of..997c1e2eeb9618f7_1_x86
	.p2align	2, 0x0
.L1_x86_JTI42_0:
	.long	13b-.L1_x86_JTI42_0
	.long	153b-.L1_x86_JTI42_0
	.long	145b-.L1_x86_JTI42_0
	.long	149b-.L1_x86_JTI42_0
	.long	133b-.L1_x86_JTI42_0
	.long	164b-.L1_x86_JTI42_0
	.long	170b-.L1_x86_JTI42_0
	.long	151b-.L1_x86_JTI42_0
	.long	176b-.L1_x86_JTI42_0
	.long	139b-.L1_x86_JTI42_0
	.long	174b-.L1_x86_JTI42_0
	.long	131b-.L1_x86_JTI42_0
	.long	137b-.L1_x86_JTI42_0
	.long	168b-.L1_x86_JTI42_0
	.long	127b-.L1_x86_JTI42_0
	.long	147b-.L1_x86_JTI42_0
	.long	125b-.L1_x86_JTI42_0
	.long	157b-.L1_x86_JTI42_0
	.long	172b-.L1_x86_JTI42_0
	.long	186b-.L1_x86_JTI42_0
	.long	162b-.L1_x86_JTI42_0
	.long	166b-.L1_x86_JTI42_0
	.long	182b-.L1_x86_JTI42_0
	.long	188b-.L1_x86_JTI42_0
	.long	143b-.L1_x86_JTI42_0
	.long	141b-.L1_x86_JTI42_0
	.long	196b-.L1_x86_JTI42_0
	.long	121b-.L1_x86_JTI42_0
	.long	190b-.L1_x86_JTI42_0
	.long	192b-.L1_x86_JTI42_0
	.long	178b-.L1_x86_JTI42_0
	.long	155b-.L1_x86_JTI42_0
	.long	180b-.L1_x86_JTI42_0
	.long	129b-.L1_x86_JTI42_0
	.long	123b-.L1_x86_JTI42_0
	.long	117b-.L1_x86_JTI42_0
	.long	119b-.L1_x86_JTI42_0
	.long	115b-.L1_x86_JTI42_0
	.long	194b-.L1_x86_JTI42_0
	.long	184b-.L1_x86_JTI42_0
	.long	135b-.L1_x86_JTI42_0
	.long	159b-.L1_x86_JTI42_0

	vj_cold	core..fmt..formatter..Formatter..write_indented..d3f2601cc94bc858_1_x86
	pushq	%rbp
	pushq	%r15
	pushq	%r14
	pushq	%r13
	pushq	%r12
	pushq	%rbx
	pushq	%rax
	testq	%rdx, %rdx
	je	5f
	movq	%rsi, %r14
	movq	%rdi, %r15
	xorl	%ecx, %ecx
	xorl	%ebp, %ebp
	movq	%rdx, (%rsp)
	jmp	3f
	.p2align	4
1:
	addq	%r14, %r13
	movb	$1, 56(%r15)
	movq	%r15, %rdi
	movq	%r13, %rsi
	movq	%r12, %rdx
	callq	core..fmt..formatter..Formatter..write_raw..d3f2601cc94bc858_1_x86
	movq	%rbp, %rcx
	testb	%al, %al
	movq	(%rsp), %rdx
	jne	9f
2:
	cmpq	%rdx, %rbp
	je	6f
3:
	movq	%rbp, %rax
	incq	%rbp
	cmpb	$10, (%r14,%rax)
	jne	2b
	xorl	%r13d, %r13d
	movq	%rbp, %r12
	subq	%rcx, %r12
	cmovaeq	%rcx, %r13
	cmpq	%rax, %rcx
	movq	%rbp, %rcx
	ja	2b
	cmpb	$1, 56(%r15)
	jne	1b
	movq	48(%r15), %rbx
	testq	%rbx, %rbx
	je	1b
	.p2align	4
4:
	leaq	.L1_x86_static.131(%rip), %rsi
	movl	$4, %edx
	movq	%r15, %rdi
	callq	core..fmt..formatter..Formatter..write_raw..d3f2601cc94bc858_1_x86
	testb	%al, %al
	jne	9f
	decq	%rbx
	jne	4b
	jmp	1b
5:
	xorl	%eax, %eax
	jmp	10f
6:
	xorl	%eax, %eax
	cmpq	%rdx, %rcx
	movq	%rcx, %r12
	cmovaq	%rax, %r12
	subq	%rcx, %rdx
	cmovbq	%rax, %rdx
	jbe	10f
	movq	%rdx, %r13
	cmpb	$1, 56(%r15)
	jne	8f
	movq	48(%r15), %rbx
	testq	%rbx, %rbx
	je	8f
	.p2align	4
7:
	leaq	.L1_x86_static.131(%rip), %rsi
	movl	$4, %edx
	movq	%r15, %rdi
	callq	core..fmt..formatter..Formatter..write_raw..d3f2601cc94bc858_1_x86
	testb	%al, %al
	jne	9f
	decq	%rbx
	jne	7b
8:
	addq	%r12, %r14
	movb	$0, 56(%r15)
	movq	%r15, %rdi
	movq	%r14, %rsi
	movq	%r13, %rdx
	addq	$8, %rsp
	popq	%rbx
	popq	%r12
	popq	%r13
	popq	%r14
	popq	%r15
	popq	%rbp
	jmp	core..fmt..formatter..Formatter..write_raw..d3f2601cc94bc858_1_x86
9:
	movb	$1, %al
10:
	addq	$8, %rsp
	popq	%rbx
	popq	%r12
	popq	%r13
	popq	%r14
	popq	%r15
	popq	%rbp
	retq
	vj_end	core..fmt..formatter..Formatter..write_indented..d3f2601cc94bc858_1_x86

	vj_function	core..fmt..formatter..Formatter..write_raw..d3f2601cc94bc858_1_x86
	testq	%rdx, %rdx
	je	5f
	xorl	%ecx, %ecx
	jmp	2f
	.p2align	4
1:
	addq	%r10, %rcx
	cmpq	%rdx, %rcx
	jae	5f
2:
	movzbl	(%rsi,%rcx), %r8d
	movl	$1, %r10d
	testb	%r8b, %r8b
	jns	1b
	leaq	1(%rcx), %r9
	movb	$1, %al
	cmpq	%r9, %rdx
	jbe	4f
	movzbl	(%rsi,%r9), %r9d
	testb	%r9b, %r9b
	jns	4f
	movzbl	%r9b, %r10d
	cmpb	$-64, %r9b
	movl	$192, %r9d
	cmovbl	%r10d, %r9d
	cmpb	$-62, %r8b
	jb	4f
	movl	%r9d, %r10d
	andb	$127, %r10b
	cmpb	$63, %r10b
	ja	4f
	movl	$2, %r10d
	cmpb	$-32, %r8b
	jb	1b
	leaq	2(%rcx), %r10
	cmpq	%r10, %rdx
	jbe	4f
	cmpb	$-65, (%rsi,%r10)
	jg	4f
	andl	$127, %r9d
	cmpb	$-17, %r8b
	ja	3f
	movl	%r8d, %r10d
	shll	$12, %r10d
	shll	$6, %r9d
	addl	%r10d, %r9d
	addl	$-917504, %r9d
	cmpl	$2048, %r9d
	jb	4f
	movl	$3, %r10d
	cmpl	$55296, %r9d
	jb	1b
	cmpb	$-18, %r8b
	jae	1b
	jmp	4f
3:
	leaq	3(%rcx), %r10
	cmpq	%r10, %rdx
	jbe	4f
	cmpb	$-65, (%rsi,%r10)
	jg	4f
	shll	$18, %r8d
	shll	$12, %r9d
	addl	%r9d, %r8d
	addl	$-62980096, %r8d
	movl	$4, %r10d
	cmpl	$1048575, %r8d
	jbe	1b
4:
	retq
5:
	pushq	%r15
	pushq	%r14
	pushq	%r12
	pushq	%rbx
	pushq	%rax
	movq	8(%rdi), %rcx
	movq	16(%rdi), %rbx
	movq	%rbx, %rax
	subq	%rcx, %rax
	cmpq	%rax, %rdx
	ja	20f
6:
	leaq	8(%rdi), %rax
	leaq	(%rcx,%rdx), %r14
	movq	(%rdi), %r15
	xorps	%xmm0, %xmm0
	movups	%xmm0, (%rax)
	leaq	(%r15,%rcx), %rax
	movq	%rax, %r8
	subq	%rsi, %r8
	cmpq	%rdx, %r8
	jae	12f
	cmpq	$4, %rdx
	jb	7f
	cmpq	$32, %r8
	jae	15f
7:
	xorl	%r8d, %r8d
8:
	movq	%rdx, %r10
	movq	%r8, %r9
	andq	$3, %r10
	je	10f
	movq	%r8, %r9
	.p2align	4
9:
	movzbl	(%rsi,%r9), %r11d
	movb	%r11b, (%rax,%r9)
	incq	%r9
	decq	%r10
	jne	9b
10:
	subq	%rdx, %r8
	cmpq	$-4, %r8
	ja	13f
	leaq	(%rcx,%r15), %rax
	addq	$3, %rax
	.p2align	4
11:
	movzbl	(%rsi,%r9), %ecx
	movb	%cl, -3(%rax,%r9)
	movzbl	1(%rsi,%r9), %ecx
	movb	%cl, -2(%rax,%r9)
	movzbl	2(%rsi,%r9), %ecx
	movb	%cl, -1(%rax,%r9)
	movzbl	3(%rsi,%r9), %ecx
	movb	%cl, (%rax,%r9)
	addq	$4, %r9
	cmpq	%r9, %rdx
	jne	11b
	jmp	13f
12:
	movq	%rdi, %r12
	movq	%rax, %rdi
	vj_c_call	memmove
	movq	%r12, %rdi
13:
	movq	%r15, (%rdi)
	movq	%r14, 8(%rdi)
	movq	%rbx, 16(%rdi)
	xorl	%eax, %eax
14:
	addq	$8, %rsp
	popq	%rbx
	popq	%r12
	popq	%r14
	popq	%r15
	retq
15:
	cmpq	$32, %rdx
	jae	16f
	xorl	%r8d, %r8d
	jmp	18f
16:
	movq	%rdx, %r8
	andq	$-32, %r8
	leaq	(%rcx,%r15), %r9
	addq	$16, %r9
	xorl	%r10d, %r10d
	.p2align	4
17:
	movups	(%rsi,%r10), %xmm0
	movups	16(%rsi,%r10), %xmm1
	movups	%xmm0, -16(%r9,%r10)
	movups	%xmm1, (%r9,%r10)
	addq	$32, %r10
	cmpq	%r10, %r8
	jne	17b
	cmpq	%r8, %rdx
	je	13b
	testb	$28, %dl
	je	8b
18:
	movq	%r8, %r9
	movq	%rdx, %r8
	andq	$-4, %r8
	.p2align	4
19:
	movl	(%rsi,%r9), %r10d
	movl	%r10d, (%rax,%r9)
	addq	$4, %r9
	cmpq	%r9, %r8
	jne	19b
	cmpq	%r8, %rdx
	je	13b
	jmp	8b
20:
	movq	%rdi, %rbx
	movq	%rsi, %r14
	movq	%rdx, %rsi
	movq	%rdx, %r15
	callq	std_alloc..vec..Vec..grow_amortized..01eec35b572d02af_1_x86
	movl	%eax, %ecx
	movb	$1, %al
	testb	%cl, %cl
	je	14b
	movq	%r14, %rsi
	movq	%r15, %rdx
	movq	%rbx, %rdi
	movq	8(%rbx), %rcx
	movq	16(%rbx), %rbx
	jmp	6b
	vj_end	core..fmt..formatter..Formatter..write_raw..d3f2601cc94bc858_1_x86

	vj_constants	16
	.p2align	4, 0x0
.L1_x86_CPI45_0:
	.byte	255
	.byte	63
	.byte	63
	.byte	63
	.zero	1
	.zero	1
	.zero	1
	.zero	1
	.zero	1
	.zero	1
	.zero	1
	.zero	1
	.zero	1
	.zero	1
	.zero	1
	.zero	1
.L1_x86_CPI45_1:
	.byte	240
	.byte	128
	.byte	128
	.byte	128
	.zero	1
	.zero	1
	.zero	1
	.zero	1
	.zero	1
	.zero	1
	.zero	1
	.zero	1
	.zero	1
	.zero	1
	.zero	1
	.zero	1
	vj_function	core..fmt..formatter..Formatter..write_char_n_times..d3f2601cc94bc858_1_x86
	pushq	%rbp
	pushq	%r15
	pushq	%r14
	pushq	%r13
	pushq	%r12
	pushq	%rbx
	subq	$88, %rsp
	movq	%rdx, %r14
	movq	%rdi, %rbx
	pxor	%xmm0, %xmm0
	movdqa	%xmm0, 48(%rsp)
	movq	$0, 64(%rsp)
	cmpl	$127, %esi
	ja	6f
	movd	%esi, %xmm1
	pshufb	%xmm0, %xmm1
	movdqa	%xmm1, 32(%rsp)
	cmpq	$17, %r14
	jb	7f
	.p2align	4
1:
	cmpq	$0, 48(%rbx)
	jne	4f
	movq	8(%rbx), %rax
	movq	16(%rbx), %rcx
	movq	%rcx, %rdx
	subq	%rax, %rdx
	cmpq	$15, %rdx
	jbe	5f
2:
	movq	(%rbx), %rdx
	movdqa	32(%rsp), %xmm0
	movdqu	%xmm0, (%rdx,%rax)
	addq	$16, %rax
	movq	%rdx, (%rbx)
	movq	%rax, 8(%rbx)
	movq	%rcx, 16(%rbx)
3:
	addq	$-16, %r14
	cmpq	$16, %r14
	ja	1b
	jmp	7f
4:
	leaq	32(%rsp), %rsi
	movl	$16, %edx
	movq	%rbx, %rdi
	callq	core..fmt..formatter..Formatter..write_indented..d3f2601cc94bc858_1_x86
	testb	%al, %al
	je	3b
	jmp	29f
5:
	movl	$16, %esi
	movq	%rbx, %rdi
	callq	std_alloc..vec..Vec..grow_amortized..01eec35b572d02af_1_x86
	testb	%al, %al
	je	29f
	movq	8(%rbx), %rax
	movq	16(%rbx), %rcx
	jmp	2b
6:
	movl	$0, 4(%rsp)
	cmpl	$2047, %esi
	ja	9f
	movl	%esi, %eax
	shrl	$6, %eax
	orb	$-64, %al
	movb	%al, 4(%rsp)
	andb	$63, %sil
	orb	$-128, %sil
	movb	%sil, 5(%rsp)
	movl	$2, %edx
	jmp	12f
7:
	cmpq	$0, 48(%rbx)
	jne	30f
	movq	8(%rbx), %r15
	movq	16(%rbx), %r12
	movq	%r12, %rax
	subq	%r15, %rax
	cmpq	%rax, %r14
	ja	31f
8:
	movq	(%rbx), %r13
	leaq	(%r15,%r13), %rdi
	addq	%r14, %r15
	leaq	32(%rsp), %rsi
	movq	%r14, %rdx
	vj_c_call	memcpy
	movq	%r13, (%rbx)
	movq	%r15, 8(%rbx)
	movq	%r12, 16(%rbx)
	xorl	%eax, %eax
	jmp	32f
9:
	cmpl	$55296, %esi
	setb	%al
	leal	-57344(%rsi), %ecx
	cmpl	$1056768, %ecx
	setb	%cl
	orb	%al, %cl
	je	10f
	movl	%esi, %eax
	cmpl	$65535, %esi
	ja	11f
	shrl	$12, %eax
	orb	$-32, %al
	movb	%al, 4(%rsp)
	movl	%esi, %eax
	shrl	$6, %eax
	andb	$63, %al
	orb	$-128, %al
	movb	%al, 5(%rsp)
	andb	$63, %sil
	orb	$-128, %sil
	movb	%sil, 6(%rsp)
	movl	$3, %edx
	jmp	12f
10:
	movw	$-16401, 4(%rsp)
	movb	$-67, 6(%rsp)
	movl	$3, %edx
	jmp	12f
11:
	shrl	$6, %eax
	movl	%esi, %ecx
	shrl	$12, %ecx
	movd	%esi, %xmm0
	psrld	$18, %xmm0
	pinsrb	$1, %ecx, %xmm0
	pinsrb	$2, %eax, %xmm0
	pinsrb	$3, %esi, %xmm0
	pand	.L1_x86_CPI45_0(%rip), %xmm0
	por	.L1_x86_CPI45_1(%rip), %xmm0
	movd	%xmm0, 4(%rsp)
	movl	$4, %edx
12:
	leaq	48(%rsp), %rdi
	leaq	4(%rsp), %rsi
	callq	core..str..utf8..from_utf8_1_x86
	movb	$1, %al
	cmpb	$0, 48(%rsp)
	jne	32f
	movq	56(%rsp), %r15
	movq	64(%rsp), %r12
	movq	%r12, %r8
	andq	$-32, %r8
	movq	%r12, %r9
	andq	$-4, %r9
	movl	%r12d, %eax
	andl	$3, %eax
	movq	%rax, 24(%rsp)
	xorl	%ebp, %ebp
	movq	%r8, 16(%rsp)
	movq	%r9, 8(%rsp)
	jmp	14f
13:
	movq	%rbx, %rdi
	movq	%r15, %rsi
	movq	%r12, %rdx
	callq	core..fmt..formatter..Formatter..write_indented..d3f2601cc94bc858_1_x86
	movq	8(%rsp), %r9
	movq	16(%rsp), %r8
	testb	%al, %al
	jne	29f
	.p2align	4
	incq	%rbp
	cmpq	%r14, %rbp
	je	28f
14:
	cmpq	$0, 48(%rbx)
	jne	13b
	movq	8(%rbx), %r13
	movq	16(%rbx), %r10
	movq	%r10, %rax
	subq	%r13, %rax
	cmpq	%rax, %r12
	ja	27f
15:
	movq	(%rbx), %r11
	pxor	%xmm0, %xmm0
	leaq	8(%rbx), %rax
	movdqu	%xmm0, (%rax)
	leaq	(%r11,%r13), %rdi
	movq	%rdi, %rax
	subq	%r15, %rax
	cmpq	%r12, %rax
	jae	21f
	cmpq	$4, %r12
	jb	16f
	movq	%r13, %rax
	subq	%r15, %rax
	addq	%r11, %rax
	cmpq	$32, %rax
	jae	23f
16:
	xorl	%ecx, %ecx
17:
	movq	%rcx, %rax
	cmpq	$0, 24(%rsp)
	je	19f
	movq	24(%rsp), %rdx
	movq	%rcx, %rax
	.p2align	4
18:
	movzbl	(%r15,%rax), %esi
	movb	%sil, (%rdi,%rax)
	incq	%rax
	decq	%rdx
	jne	18b
19:
	subq	%r12, %rcx
	cmpq	$-4, %rcx
	ja	22f
	leaq	(%r11,%r13), %rcx
	addq	$3, %rcx
	.p2align	4
20:
	movzbl	(%r15,%rax), %edx
	movb	%dl, -3(%rcx,%rax)
	movzbl	1(%r15,%rax), %edx
	movb	%dl, -2(%rcx,%rax)
	movzbl	2(%r15,%rax), %edx
	movb	%dl, -1(%rcx,%rax)
	movzbl	3(%r15,%rax), %edx
	movb	%dl, (%rcx,%rax)
	addq	$4, %rax
	cmpq	%rax, %r12
	jne	20b
	jmp	22f
	.p2align	4
21:
	movq	%r15, %rsi
	movq	%r12, %rdx
	movq	%rbp, 80(%rsp)
	movq	%r14, %rbp
	movq	%r10, %r14
	movq	%r13, 72(%rsp)
	movq	%r11, %r13
	vj_c_call	memmove
	movq	%r13, %r11
	movq	72(%rsp), %r13
	movq	%r14, %r10
	movq	%rbp, %r14
	movq	80(%rsp), %rbp
	movq	8(%rsp), %r9
	movq	16(%rsp), %r8
22:
	addq	%r12, %r13
	movq	%r11, (%rbx)
	movq	%r13, 8(%rbx)
	movq	%r10, 16(%rbx)
	incq	%rbp
	cmpq	%r14, %rbp
	jne	14b
	jmp	28f
23:
	cmpq	$32, %r12
	jae	24f
	xorl	%eax, %eax
	jmp	26f
24:
	leaq	(%r11,%r13), %rax
	addq	$16, %rax
	xorl	%ecx, %ecx
	.p2align	4
25:
	movdqu	(%r15,%rcx), %xmm0
	movdqu	16(%r15,%rcx), %xmm1
	movdqu	%xmm0, -16(%rax,%rcx)
	movdqu	%xmm1, (%rax,%rcx)
	addq	$32, %rcx
	cmpq	%rcx, %r8
	jne	25b
	cmpq	%r8, %r12
	je	22b
	movq	%r8, %rax
	movq	%r8, %rcx
	testb	$28, %r12b
	je	17b
	.p2align	4
26:
	movl	(%r15,%rax), %ecx
	movl	%ecx, (%rdi,%rax)
	addq	$4, %rax
	cmpq	%rax, %r9
	jne	26b
	movq	%r9, %rcx
	cmpq	%r9, %r12
	je	22b
	jmp	17b
27:
	movq	%rbx, %rdi
	movq	%r12, %rsi
	callq	std_alloc..vec..Vec..grow_amortized..01eec35b572d02af_1_x86
	testb	%al, %al
	je	29f
	movq	8(%rbx), %r13
	movq	16(%rbx), %r10
	movq	16(%rsp), %r8
	movq	8(%rsp), %r9
	jmp	15b
28:
	xorl	%eax, %eax
	jmp	32f
29:
	movb	$1, %al
	jmp	32f
30:
	leaq	32(%rsp), %rsi
	movq	%rbx, %rdi
	movq	%r14, %rdx
	callq	core..fmt..formatter..Formatter..write_indented..d3f2601cc94bc858_1_x86
	jmp	32f
31:
	movq	%rbx, %rdi
	movq	%r14, %rsi
	callq	std_alloc..vec..Vec..grow_amortized..01eec35b572d02af_1_x86
	testb	%al, %al
	movb	$1, %al
	je	32f
	movq	8(%rbx), %r15
	movq	16(%rbx), %r12
	jmp	8b
32:
	addq	$88, %rsp
	popq	%rbx
	popq	%r12
	popq	%r13
	popq	%r14
	popq	%r15
	popq	%rbp
	retq
	vj_end	core..fmt..formatter..Formatter..write_char_n_times..d3f2601cc94bc858_1_x86

	vj_function	core..fmt..formatter..Formatter..cut_and_fill..d3f2601cc94bc858_1_x86
	pushq	%rbp
	pushq	%r15
	pushq	%r14
	pushq	%r13
	pushq	%r12
	pushq	%rbx
	pushq	%rax
	movq	40(%rdi), %rax
	movq	%rdx, %rbx
	cmpq	%rax, %rdx
	jbe	5f
	xorl	%ebx, %ebx
	jmp	2f
	.p2align	4
1:
	incq	%rbx
	cmpq	%rbx, %rdx
	je	3f
2:
	cmpb	$-64, (%rsi,%rbx)
	jl	1b
	testq	%rax, %rax
	je	4f
	decq	%rax
	jmp	1b
3:
	movq	%rdx, %rbx
	jmp	6f
4:
	movb	$1, %al
	cmpq	%rbx, %rdx
	jb	25f
5:
	testq	%rdx, %rdx
	je	7f
6:
	movb	$1, %al
	cmpb	$-64, (%rsi)
	jl	25f
7:
	cmpq	%rdx, %rbx
	je	8f
	movb	$1, %al
	cmpb	$-64, (%rsi,%rbx)
	jl	25f
8:
	movq	32(%rdi), %r14
	testq	%rbx, %rbx
	je	10f
	testq	%r14, %r14
	je	10f
	movl	$1, %eax
	.p2align	4
9:
	xorl	%ecx, %ecx
	cmpb	$-64, -1(%rsi,%rax)
	setge	%cl
	subq	%rcx, %r14
	cmpq	%rbx, %rax
	jae	10f
	incq	%rax
	testq	%r14, %r14
	jne	9b
10:
	movzbl	28(%rdi), %eax
	cmpb	$1, %al
	adcl	$0, %eax
	cmpb	$2, %al
	je	11f
	movzbl	%al, %eax
	movq	%r14, %r15
	cmpl	$1, %eax
	jne	12f
	movl	24(%rdi), %eax
	movl	%eax, 4(%rsp)
	jmp	13f
11:
	movq	%r14, %r15
	shrq	%r15
12:
	movl	24(%rdi), %eax
	testq	%r15, %r15
	movl	%eax, 4(%rsp)
	je	13f
	movq	%rdi, %r12
	movq	%rsi, %r13
	movl	%eax, %esi
	movq	%r15, %rdx
	callq	core..fmt..formatter..Formatter..write_char_n_times..d3f2601cc94bc858_1_x86
	movq	%r13, %rsi
	movq	%r12, %rdi
	movl	%eax, %ecx
	movb	$1, %al
	testb	%cl, %cl
	jne	25f
	jmp	14f
13:
	xorl	%r15d, %r15d
14:
	cmpq	$0, 48(%rdi)
	jne	27f
	movq	8(%rdi), %rcx
	movq	16(%rdi), %r12
	movq	%r12, %rax
	subq	%rcx, %rax
	cmpq	%rax, %rbx
	ja	32f
15:
	leaq	8(%rdi), %rax
	leaq	(%rcx,%rbx), %r11
	movq	(%rdi), %rbp
	xorps	%xmm0, %xmm0
	movups	%xmm0, (%rax)
	leaq	(%rcx,%rbp), %rax
	movq	%rax, %rdx
	subq	%rsi, %rdx
	cmpq	%rbx, %rdx
	jae	21f
	cmpq	$4, %rbx
	jb	16f
	cmpq	$32, %rdx
	jae	26f
16:
	xorl	%edx, %edx
17:
	movq	%rbx, %r9
	movq	%rdx, %r8
	andq	$3, %r9
	je	19f
	movq	%rdx, %r8
	.p2align	4
18:
	movzbl	(%rsi,%r8), %r10d
	movb	%r10b, (%rax,%r8)
	incq	%r8
	decq	%r9
	jne	18b
19:
	subq	%rbx, %rdx
	cmpq	$-4, %rdx
	ja	22f
	leaq	(%rcx,%rbp), %rax
	addq	$3, %rax
	.p2align	4
20:
	movzbl	(%rsi,%r8), %ecx
	movb	%cl, -3(%rax,%r8)
	movzbl	1(%rsi,%r8), %ecx
	movb	%cl, -2(%rax,%r8)
	movzbl	2(%rsi,%r8), %ecx
	movb	%cl, -1(%rax,%r8)
	movzbl	3(%rsi,%r8), %ecx
	movb	%cl, (%rax,%r8)
	addq	$4, %r8
	cmpq	%r8, %rbx
	jne	20b
	jmp	22f
21:
	movq	%rdi, %r13
	movq	%rax, %rdi
	movq	%rbx, %rdx
	movq	%r11, %rbx
	vj_c_call	memmove
	movq	%rbx, %r11
	movq	%r13, %rdi
22:
	movq	%rbp, (%rdi)
	movq	%r11, 8(%rdi)
	movq	%r12, 16(%rdi)
23:
	subq	%r15, %r14
	jbe	24f
	movl	4(%rsp), %esi
	movq	%r14, %rdx
	addq	$8, %rsp
	popq	%rbx
	popq	%r12
	popq	%r13
	popq	%r14
	popq	%r15
	popq	%rbp
	jmp	core..fmt..formatter..Formatter..write_char_n_times..d3f2601cc94bc858_1_x86
24:
	xorl	%eax, %eax
25:
	addq	$8, %rsp
	popq	%rbx
	popq	%r12
	popq	%r13
	popq	%r14
	popq	%r15
	popq	%rbp
	retq
26:
	cmpq	$32, %rbx
	jae	28f
	xorl	%edx, %edx
	jmp	30f
27:
	movq	%rdi, %r12
	movq	%rbx, %rdx
	callq	core..fmt..formatter..Formatter..write_indented..d3f2601cc94bc858_1_x86
	movq	%r12, %rdi
	movl	%eax, %ecx
	movb	$1, %al
	testb	%cl, %cl
	je	23b
	jmp	25b
28:
	movq	%rbx, %rdx
	andq	$-32, %rdx
	leaq	(%rcx,%rbp), %r8
	addq	$16, %r8
	xorl	%r9d, %r9d
	.p2align	4
29:
	movups	(%rsi,%r9), %xmm0
	movups	16(%rsi,%r9), %xmm1
	movups	%xmm0, -16(%r8,%r9)
	movups	%xmm1, (%r8,%r9)
	addq	$32, %r9
	cmpq	%r9, %rdx
	jne	29b
	cmpq	%rdx, %rbx
	je	22b
	testb	$28, %bl
	je	17b
30:
	movq	%rdx, %r8
	movq	%rbx, %rdx
	andq	$-4, %rdx
	.p2align	4
31:
	movl	(%rsi,%r8), %r9d
	movl	%r9d, (%rax,%r8)
	addq	$4, %r8
	cmpq	%r8, %rdx
	jne	31b
	cmpq	%rdx, %rbx
	je	22b
	jmp	17b
32:
	movq	%rdi, %r12
	movq	%rsi, %r13
	movq	%rbx, %rsi
	callq	std_alloc..vec..Vec..grow_amortized..01eec35b572d02af_1_x86
	movl	%eax, %ecx
	movb	$1, %al
	testb	%cl, %cl
	je	25b
	movq	%r13, %rsi
	movq	%r12, %rdi
	movq	8(%r12), %rcx
	movq	16(%r12), %r12
	jmp	15b
	vj_end	core..fmt..formatter..Formatter..cut_and_fill..d3f2601cc94bc858_1_x86

	vj_constants	16
	.p2align	4, 0x0
.L1_x86_CPI47_0:
	.zero	16,127
	vj_function	core..slice..words..skip_far..878162fd265b9cd6_1_x86
	movq	%rsi, %rax
	subq	%rsi, %rdx
	cmpq	$64, %rdx
	jb	2f
	movabsq	$-9187201950435737472, %rcx
	movq	(%rdi), %rsi
	movzbl	16(%rdi), %r8d
	movabsq	$72340172838076673, %r9
	imulq	%r9, %r8
	movzbl	17(%rdi), %r10d
	imulq	%r9, %r10
	movq	%r10, %xmm0
	pshufd	$68, %xmm0, %xmm0
	movq	%r8, %xmm1
	pshufd	$68, %xmm1, %xmm1
	movq	24(%rdi), %rdi
	addq	%rsi, %rdi
	.p2align	4
1:
	movdqu	(%rsi,%rax), %xmm6
	movdqu	16(%rsi,%rax), %xmm7
	movdqu	32(%rsi,%rax), %xmm8
	movdqu	48(%rsi,%rax), %xmm9
	pxor	%xmm1, %xmm7
	pxor	%xmm1, %xmm9
	pxor	%xmm1, %xmm6
	pxor	%xmm1, %xmm8
	movdqu	(%rdi,%rax), %xmm3
	movdqu	16(%rdi,%rax), %xmm5
	movdqu	32(%rdi,%rax), %xmm2
	movdqu	48(%rdi,%rax), %xmm4
	pxor	%xmm0, %xmm5
	por	%xmm7, %xmm5
	pxor	%xmm0, %xmm4
	por	%xmm9, %xmm4
	pxor	%xmm0, %xmm3
	por	%xmm6, %xmm3
	pxor	%xmm0, %xmm2
	por	%xmm8, %xmm2
	movdqa	.L1_x86_CPI47_0(%rip), %xmm6
	movdqa	%xmm5, %xmm7
	pand	%xmm6, %xmm7
	movdqa	%xmm4, %xmm8
	pand	%xmm6, %xmm8
	movdqa	%xmm3, %xmm9
	pand	%xmm6, %xmm9
	movdqa	%xmm2, %xmm10
	pand	%xmm6, %xmm10
	paddq	%xmm6, %xmm10
	paddq	%xmm6, %xmm9
	paddq	%xmm6, %xmm8
	paddq	%xmm6, %xmm7
	por	%xmm5, %xmm7
	por	%xmm4, %xmm8
	pand	%xmm7, %xmm8
	por	%xmm3, %xmm9
	por	%xmm2, %xmm10
	pand	%xmm9, %xmm10
	pand	%xmm8, %xmm10
	pshufd	$238, %xmm10, %xmm2
	pand	%xmm10, %xmm2
	movq	%xmm2, %r8
	notq	%r8
	testq	%r8, %rcx
	jne	2f
	addq	$64, %rax
	addq	$-64, %rdx
	cmpq	$63, %rdx
	ja	1b
2:
	retq
	vj_end	core..slice..words..skip_far..878162fd265b9cd6_1_x86

	vj_function	blake2_digest..wiping..scrub_stack..4096_1_x86
	pushq	%rbx
	subq	$3072, %rsp
	movq	$0, (%rsp)
	subq	$1024, %rsp
	movq	%rsp, %rbx
	movl	$4096, %edx
	movq	%rbx, %rdi
	xorl	%esi, %esi
	vj_c_call	memset
	movq	%rbx, %rdi
	callq	blake2_digest..wiping..settle..4096_1_x86
	addq	$4096, %rsp
	popq	%rbx
	retq
	vj_end	blake2_digest..wiping..scrub_stack..4096_1_x86

	vj_function	blake2_digest..wiping..settle..4096_1_x86
	pxor	%xmm0, %xmm0
	xorl	%eax, %eax
	pxor	%xmm1, %xmm1
	.p2align	4
1:
	movdqu	(%rdi,%rax), %xmm2
	por	%xmm1, %xmm2
	movdqu	16(%rdi,%rax), %xmm1
	por	%xmm0, %xmm1
	movdqu	32(%rdi,%rax), %xmm0
	movdqu	48(%rdi,%rax), %xmm3
	movdqu	64(%rdi,%rax), %xmm4
	por	%xmm0, %xmm4
	por	%xmm2, %xmm4
	movdqu	80(%rdi,%rax), %xmm2
	por	%xmm3, %xmm2
	por	%xmm1, %xmm2
	movdqu	96(%rdi,%rax), %xmm1
	por	%xmm4, %xmm1
	movdqu	112(%rdi,%rax), %xmm0
	por	%xmm2, %xmm0
	subq	$-128, %rax
	cmpq	$4096, %rax
	jne	1b
	por	%xmm1, %xmm0
	ptest	%xmm0, %xmm0
	je	2f
	pause
2:
	retq
	vj_end	blake2_digest..wiping..settle..4096_1_x86

	vj_constants	16
	.p2align	4, 0x0
.L1_x86_CPI50_0:
	.quad	7640891576956012808
	.quad	-4942790177534073029
.L1_x86_CPI50_1:
	.quad	4354685564936845355
	.quad	-6534734903238641935
.L1_x86_CPI50_2:
	.short	64
	.short	257
	.short	0
	.short	0
	.zero	2
	.zero	2
	.zero	2
	.zero	2
.L1_x86_CPI50_3:
	.short	64
	.short	257
	.short	0
	.short	0
	.short	0
	.short	0
	.short	0
	.short	0
	vj_function	b2sum..hashes..derive_key_1_x86
	pushq	%rbp
	pushq	%r15
	pushq	%r14
	pushq	%r13
	pushq	%r12
	pushq	%rbx
	subq	$680, %rsp
	cmpq	$64, %rsi
	ja	6f
	movq	%r9, %rbx
	movq	%rcx, %r12
	leaq	-1(%r9), %rax
	movl	$4294967294, %ecx
	cmpq	%rcx, %rax
	ja	6f
	movq	%r8, %r14
	movq	%rdx, %r15
	movq	%rsi, %r13
	movq	%rbx, %xmm0
	psllq	$32, %xmm0
	testq	%rsi, %rsi
	je	1f
	movq	%rdi, %rbp
	movl	%r13d, %eax
	shll	$8, %eax
	orl	$16842816, %eax
	movd	%eax, %xmm1
	pmovzxdq	%xmm1, %xmm1
	punpcklqdq	%xmm0, %xmm1
	pxor	.L1_x86_CPI50_0(%rip), %xmm1
	movdqa	%xmm1, 192(%rsp)
	movl	$64, %eax
	subq	%r13, %rax
	xorl	%edx, %edx
	cmpq	$64, %r13
	cmovbq	%rax, %rdx
	leaq	(%rsp,%r13), %rdi
	xorl	%esi, %esi
	vj_c_call	memset
	movq	%rsp, %rdi
	movq	%rbp, %rsi
	movq	%r13, %rdx
	vj_c_call	memcpy
	pxor	%xmm0, %xmm0
	movdqa	%xmm0, 128(%rsp)
	movdqa	%xmm0, 144(%rsp)
	movdqa	%xmm0, 160(%rsp)
	movdqa	%xmm0, 176(%rsp)
	movdqu	(%rsp), %xmm0
	movups	16(%rsp), %xmm1
	movups	32(%rsp), %xmm2
	movups	48(%rsp), %xmm3
	movdqa	%xmm0, 64(%rsp)
	movaps	%xmm1, 80(%rsp)
	movdqa	192(%rsp), %xmm1
	movaps	%xmm2, 96(%rsp)
	movaps	.L1_x86_CPI50_1(%rip), %xmm2
	movaps	%xmm3, 112(%rsp)
	movl	$128, %eax
	jmp	2f
1:
	movd	.L1_x86_CPI50_3(%rip), %xmm1
	punpcklqdq	%xmm0, %xmm1
	pxor	.L1_x86_CPI50_0(%rip), %xmm1
	movaps	.L1_x86_CPI50_1(%rip), %xmm2
	pxor	%xmm0, %xmm0
	movdqa	%xmm0, 176(%rsp)
	movdqa	%xmm0, 160(%rsp)
	movdqa	%xmm0, 144(%rsp)
	movdqa	%xmm0, 128(%rsp)
	movdqa	%xmm0, 112(%rsp)
	movdqa	%xmm0, 96(%rsp)
	movdqa	%xmm0, 80(%rsp)
	movdqa	%xmm0, 64(%rsp)
	movdqa	%xmm0, (%rsp)
	movdqa	%xmm0, 16(%rsp)
	movdqa	%xmm0, 32(%rsp)
	movdqa	%xmm0, 48(%rsp)
	xorl	%eax, %eax
2:
	movdqa	%xmm1, 208(%rsp)
	movaps	%xmm2, 224(%rsp)
	movabsq	$5840696475078001361, %rcx
	movq	%rcx, 240(%rsp)
	movabsq	$-7276294671716946913, %rdx
	movq	%rdx, 248(%rsp)
	movabsq	$2270897969802886507, %rsi
	movq	%rsi, 256(%rsp)
	movabsq	$6620516959819538809, %rdi
	movq	%rdi, 264(%rsp)
	movdqa	%xmm1, 272(%rsp)
	movaps	%xmm2, 288(%rsp)
	movq	%rcx, 304(%rsp)
	movq	%rdx, 312(%rsp)
	movq	%rsi, 320(%rsp)
	movq	%rdi, 328(%rsp)
	movq	$0, 336(%rsp)
	movl	%eax, 344(%rsp)
	movl	%eax, 348(%rsp)
	movq	$64, 352(%rsp)
	movaps	64(%rsp), %xmm0
	movaps	80(%rsp), %xmm1
	movaps	96(%rsp), %xmm2
	movaps	112(%rsp), %xmm3
	movups	%xmm0, 360(%rsp)
	movups	%xmm1, 376(%rsp)
	movups	%xmm2, 392(%rsp)
	movups	%xmm3, 408(%rsp)
	movaps	128(%rsp), %xmm0
	movups	%xmm0, 424(%rsp)
	movaps	144(%rsp), %xmm0
	movups	%xmm0, 440(%rsp)
	movaps	160(%rsp), %xmm0
	movups	%xmm0, 456(%rsp)
	movaps	176(%rsp), %xmm0
	movups	%xmm0, 472(%rsp)
	movaps	(%rsp), %xmm0
	movaps	16(%rsp), %xmm1
	movaps	32(%rsp), %xmm2
	movaps	48(%rsp), %xmm3
	movups	%xmm3, 536(%rsp)
	movups	%xmm2, 520(%rsp)
	movups	%xmm1, 504(%rsp)
	movups	%xmm0, 488(%rsp)
	xorps	%xmm0, %xmm0
	movups	%xmm0, 552(%rsp)
	movups	%xmm0, 568(%rsp)
	movups	%xmm0, 584(%rsp)
	movups	%xmm0, 600(%rsp)
	movups	%xmm0, 616(%rsp)
	movups	%xmm0, 632(%rsp)
	movq	%rbx, 648(%rsp)
	movaps	%xmm0, 656(%rsp)
	cmpq	$1, %r12
	jne	3f
	testq	%r13, %r13
	je	4f
	leaq	208(%rsp), %rdi
	movl	$1, %edx
	movq	%r15, %rsi
	callq	blake2_state..blake2b..State..absorb_blocks_1_x86
	jmp	5f
3:
	leaq	208(%rsp), %rdi
	movq	%r15, %rsi
	movq	%r12, %rdx
	callq	blake2_state..blake2b..State..absorb_blocks_1_x86
	jmp	5f
4:
	movzbl	(%r15), %ecx
	movl	%eax, %edx
	movb	%cl, 360(%rsp,%rdx)
	orl	$1, %eax
	movl	%eax, 344(%rsp)
5:
	leaq	208(%rsp), %rdi
	movq	%r14, %rsi
	movq	%rbx, %rdx
	vj_call	blake2_xof..blake2xb..State..squeeze_1_x86
	addq	$680, %rsp
	popq	%rbx
	popq	%r12
	popq	%r13
	popq	%r14
	popq	%r15
	popq	%rbp
	retq
6:
	ud2
	vj_end	b2sum..hashes..derive_key_1_x86

	vj_function	blake2_state..blake2b..State..absorb_blocks_1_x86
	pushq	%rbp
	pushq	%r15
	pushq	%r14
	pushq	%r13
	pushq	%r12
	pushq	%rbx
	subq	$168, %rsp
	movq	%rsi, %r14
	movq	%rdi, %rbx
	movl	136(%rdi), %r13d
	movl	$128, %r12d
	subq	%r13, %r12
	movq	%rdx, %rbp
	subq	%r12, %rbp
	jbe	2f
	movq	128(%rbx), %r8
	movups	(%rbx), %xmm0
	movups	16(%rbx), %xmm1
	movups	32(%rbx), %xmm2
	movups	48(%rbx), %xmm3
	movups	80(%rbx), %xmm4
	movups	64(%rbx), %xmm5
	movups	112(%rbx), %xmm6
	movups	96(%rbx), %xmm7
	xorl	%eax, %eax
	cmpl	$0, 148(%rbx)
	setne	%al
	movaps	%xmm0, 16(%rsp)
	movaps	%xmm1, 32(%rsp)
	movaps	%xmm2, 48(%rsp)
	movaps	%xmm3, 64(%rsp)
	movaps	%xmm5, 80(%rsp)
	movaps	%xmm4, 96(%rsp)
	movaps	%xmm7, 112(%rsp)
	movaps	%xmm6, 128(%rsp)
	movq	%r8, 144(%rsp)
	movq	%rax, 152(%rsp)
	leaq	152(%rbx), %r15
	testq	%r13, %r13
	je	10f
	leaq	(%r15,%r13), %rdi
	movq	%rdi, %rax
	subq	%r14, %rax
	cmpq	%r12, %rax
	jae	11f
	cmpq	$4, %r12
	jb	1f
	leaq	(%rbx,%r13), %rax
	subq	%r14, %rax
	addq	$152, %rax
	cmpq	$32, %rax
	jae	13f
1:
	xorl	%eax, %eax
	jmp	22f
2:
	leaq	(%rbx,%r13), %rdi
	addq	$152, %rdi
	movq	%rdi, %rax
	subq	%r14, %rax
	cmpq	%rdx, %rax
	jae	8f
	cmpq	$4, %rdx
	jb	3f
	leaq	(%rbx,%r13), %rax
	subq	%r14, %rax
	addq	$152, %rax
	cmpq	$32, %rax
	jae	12f
3:
	xorl	%eax, %eax
4:
	movq	%rdx, %rsi
	movq	%rax, %rcx
	andq	$3, %rsi
	je	6f
	movq	%rax, %rcx
	.p2align	4
5:
	movzbl	(%r14,%rcx), %r8d
	movb	%r8b, (%rdi,%rcx)
	incq	%rcx
	decq	%rsi
	jne	5b
6:
	subq	%rdx, %rax
	cmpq	$-4, %rax
	ja	9f
	leaq	(%rbx,%r13), %rax
	addq	$155, %rax
	.p2align	4
7:
	movzbl	(%r14,%rcx), %esi
	movb	%sil, -3(%rax,%rcx)
	movzbl	1(%r14,%rcx), %esi
	movb	%sil, -2(%rax,%rcx)
	movzbl	2(%r14,%rcx), %esi
	movb	%sil, -1(%rax,%rcx)
	movzbl	3(%r14,%rcx), %esi
	movb	%sil, (%rax,%rcx)
	addq	$4, %rcx
	cmpq	%rcx, %rdx
	jne	7b
	jmp	9f
8:
	movq	%r14, %rsi
	movq	%rdx, %r14
	vj_c_call	memmove
	movq	%r14, %rdx
9:
	addl	%r13d, %edx
	movl	%edx, 136(%rbx)
	jmp	37f
10:
	movq	%rdx, %rbp
	jmp	25f
11:
	movq	%r14, %rsi
	movq	%r12, %rdx
	movq	%r8, %r13
	vj_c_call	memmove
	movq	%r13, %r8
	jmp	24f
12:
	cmpq	$32, %rdx
	jae	14f
	xorl	%eax, %eax
	jmp	16f
13:
	cmpq	$32, %r12
	jae	18f
	xorl	%eax, %eax
	jmp	20f
14:
	movq	%rdx, %rax
	andq	$-32, %rax
	leaq	(%rbx,%r13), %rcx
	addq	$168, %rcx
	xorl	%esi, %esi
	.p2align	4
15:
	movups	(%r14,%rsi), %xmm0
	movups	16(%r14,%rsi), %xmm1
	movups	%xmm0, -16(%rcx,%rsi)
	movups	%xmm1, (%rcx,%rsi)
	addq	$32, %rsi
	cmpq	%rsi, %rax
	jne	15b
	cmpq	%rax, %rdx
	je	9b
	testb	$28, %dl
	je	4b
16:
	movq	%rax, %rcx
	movq	%rdx, %rax
	andq	$-4, %rax
	.p2align	4
17:
	movl	(%r14,%rcx), %esi
	movl	%esi, (%rdi,%rcx)
	addq	$4, %rcx
	cmpq	%rcx, %rax
	jne	17b
	cmpq	%rax, %rdx
	je	9b
	jmp	4b
18:
	movq	%r12, %rax
	andq	$-32, %rax
	leaq	(%rbx,%r13), %rcx
	addq	$168, %rcx
	xorl	%edx, %edx
	.p2align	4
19:
	movups	(%r14,%rdx), %xmm0
	movups	16(%r14,%rdx), %xmm1
	movups	%xmm0, -16(%rcx,%rdx)
	movups	%xmm1, (%rcx,%rdx)
	addq	$32, %rdx
	cmpq	%rdx, %rax
	jne	19b
	cmpq	%rax, %r12
	je	24f
	testb	$28, %r12b
	je	22f
20:
	movq	%rax, %rcx
	movq	%r12, %rax
	andq	$-4, %rax
	.p2align	4
21:
	movl	(%r14,%rcx), %edx
	movl	%edx, (%rdi,%rcx)
	addq	$4, %rcx
	cmpq	%rcx, %rax
	jne	21b
	jmp	23f
22:
	movzbl	(%r14,%rax), %ecx
	movb	%cl, (%rdi,%rax)
	incq	%rax
23:
	cmpq	%rax, %r12
	jne	22b
24:
	addq	%r12, %r14
	subq	$-128, %r8
	movq	%r8, 144(%rsp)
	leaq	16(%rsp), %rdi
	movq	%r15, %rsi
	movq	%r8, %rdx
	xorl	%ecx, %ecx
	xorl	%r8d, %r8d
	vj_call	blake2_compress..compress..blake2b..compress_1_x86
25:
	cmpq	$1, %rbp
	movq	%rbp, 8(%rsp)
	movq	%rbp, %r13
	adcq	$-1, %r13
	movq	%r13, %rbp
	andq	$-128, %rbp
	shrq	$7, %r13
	je	27f
	movq	%r14, %r12
	.p2align	4
26:
	movq	144(%rsp), %rdx
	subq	$-128, %rdx
	movq	%rdx, 144(%rsp)
	leaq	16(%rsp), %rdi
	movq	%r12, %rsi
	xorl	%ecx, %ecx
	xorl	%r8d, %r8d
	vj_call	blake2_compress..compress..blake2b..compress_1_x86
	subq	$-128, %r12
	decq	%r13
	jne	26b
27:
	leaq	(%r14,%rbp), %rsi
	movq	8(%rsp), %r12
	subq	%rbp, %r12
	xorps	%xmm0, %xmm0
	movups	%xmm0, 112(%r15)
	movups	%xmm0, 96(%r15)
	movups	%xmm0, 80(%r15)
	movups	%xmm0, 64(%r15)
	movups	%xmm0, 48(%r15)
	movups	%xmm0, 32(%r15)
	movups	%xmm0, 16(%r15)
	movups	%xmm0, (%r15)
	movq	%r15, %rax
	subq	%rsi, %rax
	cmpq	%r12, %rax
	jae	28f
	cmpq	$4, %r12
	jae	29f
	xorl	%eax, %eax
	jmp	35f
28:
	movq	%r15, %rdi
	movq	%r12, %rdx
	vj_c_call	memmove
	jmp	36f
29:
	movq	%rbx, %rax
	subq	%rsi, %rax
	addq	$152, %rax
	cmpq	$32, %rax
	jae	30f
	xorl	%eax, %eax
	jmp	35f
30:
	cmpq	$32, %r12
	jae	31f
	xorl	%eax, %eax
	jmp	33f
31:
	movq	8(%rsp), %rdx
	movl	%edx, %ecx
	andl	$31, %ecx
	movq	%r12, %rax
	subq	%rcx, %rax
	andq	$-32, %rdx
	subq	%rbp, %rdx
	leaq	(%r14,%rbp), %rdi
	addq	$16, %rdi
	xorl	%r8d, %r8d
	.p2align	4
32:
	movups	-16(%rdi,%r8), %xmm0
	movups	(%rdi,%r8), %xmm1
	movups	%xmm0, 152(%rbx,%r8)
	movups	%xmm1, 168(%rbx,%r8)
	addq	$32, %r8
	cmpq	%r8, %rdx
	jne	32b
	testq	%rcx, %rcx
	je	36f
	cmpl	$4, %ecx
	jb	35f
33:
	movq	%rax, %rcx
	movq	8(%rsp), %rdi
	andl	$3, %edi
	movq	%r12, %rax
	subq	%rdi, %rax
	.p2align	4
34:
	movl	(%rsi,%rcx), %edx
	movl	%edx, (%r15,%rcx)
	addq	$4, %rcx
	cmpq	%rcx, %rax
	jne	34b
	testq	%rdi, %rdi
	je	36f
	.p2align	4
35:
	movzbl	(%rsi,%rax), %ecx
	movb	%cl, (%r15,%rax)
	incq	%rax
	cmpq	%rax, %r12
	jne	35b
36:
	movl	%r12d, 136(%rbx)
	movaps	16(%rsp), %xmm0
	movups	%xmm0, (%rbx)
	movaps	32(%rsp), %xmm0
	movups	%xmm0, 16(%rbx)
	movaps	48(%rsp), %xmm0
	movups	%xmm0, 32(%rbx)
	movaps	64(%rsp), %xmm0
	movups	%xmm0, 48(%rbx)
	movq	144(%rsp), %rax
	movq	%rax, 128(%rbx)
37:
	addq	$168, %rsp
	popq	%rbx
	popq	%r12
	popq	%r13
	popq	%r14
	popq	%r15
	popq	%rbp
	retq
	vj_end	blake2_state..blake2b..State..absorb_blocks_1_x86

	vj_function	blake2_state..blake2b..State..write_digest_1_x86
	pushq	%r15
	pushq	%r14
	pushq	%rbx
	subq	$384, %rsp
	movq	%rsi, %rbx
	movq	%rdi, %r14
	xorps	%xmm0, %xmm0
	movaps	%xmm0, 48(%rsp)
	movaps	%xmm0, 32(%rsp)
	movaps	%xmm0, 16(%rsp)
	movaps	%xmm0, (%rsp)
	movups	(%rdi), %xmm1
	movups	16(%rdi), %xmm2
	movups	32(%rdi), %xmm3
	movups	48(%rdi), %xmm4
	movups	%xmm1, 64(%rsp)
	movups	%xmm2, 80(%rsp)
	movups	%xmm4, 112(%rsp)
	movups	%xmm3, 96(%rsp)
	movl	136(%rdi), %r15d
	leaq	152(%rdi), %rsi
	movaps	%xmm0, 240(%rsp)
	movaps	%xmm0, 224(%rsp)
	movaps	%xmm0, 208(%rsp)
	movaps	%xmm0, 192(%rsp)
	movaps	%xmm0, 176(%rsp)
	movaps	%xmm0, 160(%rsp)
	movaps	%xmm0, 144(%rsp)
	movaps	%xmm0, 128(%rsp)
	leaq	128(%rsp), %rdi
	movq	%r15, %rdx
	vj_c_call	memcpy
	movaps	128(%rsp), %xmm0
	movaps	144(%rsp), %xmm1
	movaps	160(%rsp), %xmm2
	movaps	176(%rsp), %xmm3
	movaps	%xmm0, 256(%rsp)
	movaps	%xmm1, 272(%rsp)
	movaps	%xmm2, 288(%rsp)
	movaps	%xmm3, 304(%rsp)
	movaps	192(%rsp), %xmm0
	movaps	%xmm0, 320(%rsp)
	movaps	208(%rsp), %xmm0
	movaps	%xmm0, 336(%rsp)
	movaps	224(%rsp), %xmm0
	movaps	%xmm0, 352(%rsp)
	movaps	240(%rsp), %xmm0
	movaps	%xmm0, 368(%rsp)
	xorl	%r8d, %r8d
	cmpl	$0, 148(%r14)
	setne	%r8b
	addq	128(%r14), %r15
	leaq	64(%rsp), %rdi
	leaq	256(%rsp), %rsi
	movq	%r15, %rdx
	movl	$1, %ecx
	vj_call	blake2_compress..compress..blake2b..compress_1_x86
	movups	64(%rsp), %xmm0
	movups	80(%rsp), %xmm1
	movups	96(%rsp), %xmm2
	movups	112(%rsp), %xmm3
	movaps	%xmm0, (%rsp)
	movaps	%xmm1, 16(%rsp)
	movaps	%xmm2, 32(%rsp)
	movaps	%xmm3, 48(%rsp)
	movl	144(%r14), %edx
	movq	%rsp, %rsi
	movq	%rbx, %rdi
	vj_c_call	memcpy
	addq	$384, %rsp
	popq	%rbx
	popq	%r14
	popq	%r15
	retq
	vj_end	blake2_state..blake2b..State..write_digest_1_x86

	vj_function	blake2_digest..wiping..scrub_stack..8192_1_x86
	pushq	%rbx
	subq	$3072, %rsp
	movq	$0, (%rsp)
	subq	$3072, %rsp
	movq	$0, (%rsp)
	subq	$2048, %rsp
	movq	%rsp, %rbx
	movl	$8192, %edx
	movq	%rbx, %rdi
	xorl	%esi, %esi
	vj_c_call	memset
	movq	%rbx, %rdi
	callq	blake2_digest..wiping..settle..8192_1_x86
	addq	$8192, %rsp
	popq	%rbx
	retq
	vj_end	blake2_digest..wiping..scrub_stack..8192_1_x86

	vj_function	blake2_digest..wiping..settle..8192_1_x86
	pxor	%xmm0, %xmm0
	xorl	%eax, %eax
	pxor	%xmm1, %xmm1
	.p2align	4
1:
	movdqu	(%rdi,%rax), %xmm2
	por	%xmm1, %xmm2
	movdqu	16(%rdi,%rax), %xmm1
	por	%xmm0, %xmm1
	movdqu	32(%rdi,%rax), %xmm0
	movdqu	48(%rdi,%rax), %xmm3
	movdqu	64(%rdi,%rax), %xmm4
	por	%xmm0, %xmm4
	por	%xmm2, %xmm4
	movdqu	80(%rdi,%rax), %xmm2
	por	%xmm3, %xmm2
	por	%xmm1, %xmm2
	movdqu	96(%rdi,%rax), %xmm1
	por	%xmm4, %xmm1
	movdqu	112(%rdi,%rax), %xmm0
	por	%xmm2, %xmm0
	subq	$-128, %rax
	cmpq	$8192, %rax
	jne	1b
	por	%xmm1, %xmm0
	ptest	%xmm0, %xmm0
	je	2f
	pause
2:
	retq
	vj_end	blake2_digest..wiping..settle..8192_1_x86

	vj_function	b2sum_commands..messages..tell_named..068f3e307c5390f2_1_x86
	pushq	%rbp
	pushq	%r15
	pushq	%r14
	pushq	%r13
	pushq	%r12
	pushq	%rbx
	subq	$184, %rsp
	movq	%r8, %r14
	movq	%rcx, %r15
	movq	%rdx, %rbp
	movzbl	(%rdx), %eax
	testq	%rsi, %rsi
	sete	%cl
	orb	%al, %cl
	testb	$1, %cl
	jne	2f
	movq	%rsi, %r12
	movq	%rdi, %r13
	movq	%rbp, 8(%rsp)
	xorl	%ebx, %ebx
	.p2align	4
1:
	leaq	(%rbx,%r13), %rsi
	movq	%r12, %rbp
	subq	%rbx, %rbp
	movl	$2, %edi
	movq	%rbp, %rdx
	vj_system_call	write, b2_write
	testq	%rax, %rax
	js	4f
	cmpq	%rbp, %rax
	cmovbq	%rax, %rbp
	testq	%rbp, %rbp
	je	5f
	addq	%rbp, %rbx
	cmpq	%r12, %rbx
	jb	1b
	movq	8(%rsp), %rbp
	movzbl	(%rbp), %eax
2:
	testb	$1, %al
	jne	8f
	xorl	%ebx, %ebx
	.p2align	4
3:
	leaq	(%r15,%rbx), %rsi
	movq	%r14, %r12
	subq	%rbx, %r12
	movl	$2, %edi
	movq	%r12, %rdx
	vj_system_call	write, b2_write
	testq	%rax, %rax
	js	6f
	cmpq	%r12, %rax
	cmovbq	%rax, %r12
	testq	%r12, %r12
	je	7f
	addq	%r12, %rbx
	cmpq	%r14, %rbx
	jb	3b
	jmp	8f
4:
	leaq	96(%rsp), %rdi
	callq	std_io..io..error..last_error_1_x86
	movq	96(%rsp), %rax
	movups	104(%rsp), %xmm0
	movaps	%xmm0, 16(%rsp)
	movups	120(%rsp), %xmm0
	movaps	%xmm0, 32(%rsp)
	movups	136(%rsp), %xmm0
	movaps	%xmm0, 48(%rsp)
	movups	152(%rsp), %xmm0
	movaps	%xmm0, 64(%rsp)
	movups	168(%rsp), %xmm0
	movaps	%xmm0, 80(%rsp)
	movq	8(%rsp), %rcx
	movq	$1, (%rcx)
	movq	%rax, 8(%rcx)
	movaps	16(%rsp), %xmm0
	movaps	32(%rsp), %xmm1
	movaps	48(%rsp), %xmm2
	movaps	64(%rsp), %xmm3
	movups	%xmm0, 16(%rcx)
	movups	%xmm1, 32(%rcx)
	movups	%xmm2, 48(%rcx)
	movups	%xmm3, 64(%rcx)
	movaps	80(%rsp), %xmm0
	movups	%xmm0, 80(%rcx)
	jmp	8f
5:
	movq	8(%rsp), %rax
	movq	$1, (%rax)
	movw	$5889, 8(%rax)
	xorps	%xmm0, %xmm0
	movups	%xmm0, 10(%rax)
	movups	%xmm0, 26(%rax)
	movups	%xmm0, 42(%rax)
	movups	%xmm0, 58(%rax)
	movups	%xmm0, 74(%rax)
	movq	$0, 88(%rax)
	jmp	8f
6:
	leaq	96(%rsp), %rdi
	callq	std_io..io..error..last_error_1_x86
	movq	96(%rsp), %rax
	movups	104(%rsp), %xmm0
	movaps	%xmm0, 16(%rsp)
	movups	120(%rsp), %xmm0
	movaps	%xmm0, 32(%rsp)
	movups	136(%rsp), %xmm0
	movaps	%xmm0, 48(%rsp)
	movups	152(%rsp), %xmm0
	movaps	%xmm0, 64(%rsp)
	movups	168(%rsp), %xmm0
	movaps	%xmm0, 80(%rsp)
	movq	$1, (%rbp)
	movq	%rax, 8(%rbp)
	movaps	16(%rsp), %xmm0
	movaps	32(%rsp), %xmm1
	movaps	48(%rsp), %xmm2
	movaps	64(%rsp), %xmm3
	movups	%xmm0, 16(%rbp)
	movups	%xmm1, 32(%rbp)
	movups	%xmm2, 48(%rbp)
	movups	%xmm3, 64(%rbp)
	movaps	80(%rsp), %xmm0
	movups	%xmm0, 80(%rbp)
	jmp	8f
7:
	movq	$1, (%rbp)
	movw	$5889, 8(%rbp)
	xorps	%xmm0, %xmm0
	movups	%xmm0, 10(%rbp)
	movups	%xmm0, 26(%rbp)
	movups	%xmm0, 42(%rbp)
	movups	%xmm0, 58(%rbp)
	movups	%xmm0, 74(%rbp)
	movq	$0, 88(%rbp)
8:
	addq	$184, %rsp
	popq	%rbx
	popq	%r12
	popq	%r13
	popq	%r14
	popq	%r15
	popq	%rbp
	retq
	vj_end	b2sum_commands..messages..tell_named..068f3e307c5390f2_1_x86

	vj_function	b2sum_commands..check..check_entry..82a450bcca081e63_1_x86
	pushq	%rbp
	pushq	%r15
	pushq	%r14
	pushq	%r13
	pushq	%r12
	pushq	%rbx
	subq	$376, %rsp
	movq	%r9, %r12
	movq	%r8, %rax
	movq	%rcx, %rbp
	movq	%rdx, %r15
	movq	%rdi, %rbx
	pxor	%xmm0, %xmm0
	movdqa	%xmm0, 224(%rsp)
	movdqa	%xmm0, 208(%rsp)
	movdqa	%xmm0, 192(%rsp)
	movdqa	%xmm0, 176(%rsp)
	movq	16(%r9), %r14
	movq	32(%r9), %r8
	movq	40(%r9), %r9
	movzbl	(%r12), %ecx
	movl	4(%r12), %edx
	movl	%ecx, 72(%rsp)
	movl	%edx, 76(%rsp)
	movq	%r14, 80(%rsp)
	leaq	176(%rsp), %rcx
	movq	%rcx, 8(%rsp)
	leaq	72(%rsp), %rcx
	movq	%rcx, (%rsp)
	movq	%rsi, %rdi
	movq	%r15, %rsi
	movq	%rbp, %rdx
	movq	%rax, %rcx
	callq	b2sum_commands..sums..digest_file..82a450bcca081e63_1_x86
	testb	%al, %al
	je	1f
	movb	$1, (%rbx)
	movb	%dl, 1(%rbx)
	pxor	%xmm0, %xmm0
	movdqu	%xmm0, 8(%rbx)
	movdqu	%xmm0, 24(%rbx)
	movdqu	%xmm0, 40(%rbx)
	jmp	54f
1:
	movq	%rbx, 32(%rsp)
	movq	8(%r12), %rsi
	testb	%dl, %dl
	je	2f
	movzbl	%dl, %eax
	cmpl	$1, %eax
	jne	3f
	movb	$3, %al
	xorl	%ebx, %ebx
	jmp	13f
2:
	movb	$1, %bl
	movb	$1, %al
	cmpq	16(%r12), %r14
	jne	13f
	testq	%r14, %r14
	je	12f
	cmpq	$4, %r14
	jae	4f
	xorl	%ecx, %ecx
	xorl	%eax, %eax
	jmp	9f
3:
	movb	$2, %al
	xorl	%ebx, %ebx
	jmp	13f
4:
	cmpq	$32, %r14
	jae	5f
	xorl	%eax, %eax
	xorl	%ecx, %ecx
	jmp	7f
5:
	movq	%r14, %rax
	andq	$-32, %rax
	pxor	%xmm0, %xmm0
	xorl	%ecx, %ecx
	pxor	%xmm1, %xmm1
	.p2align	4
6:
	movdqu	176(%rsp,%rcx), %xmm2
	movdqu	192(%rsp,%rcx), %xmm3
	movdqu	(%rsi,%rcx), %xmm4
	pxor	%xmm2, %xmm4
	por	%xmm4, %xmm1
	movdqu	16(%rsi,%rcx), %xmm2
	pxor	%xmm3, %xmm2
	por	%xmm2, %xmm0
	addq	$32, %rcx
	cmpq	%rcx, %rax
	jne	6b
	por	%xmm1, %xmm0
	pshufd	$238, %xmm0, %xmm1
	por	%xmm0, %xmm1
	pshufd	$85, %xmm1, %xmm0
	por	%xmm1, %xmm0
	movdqa	%xmm0, %xmm1
	psrld	$16, %xmm1
	por	%xmm0, %xmm1
	movdqa	%xmm1, %xmm0
	psrlw	$8, %xmm0
	por	%xmm1, %xmm0
	movd	%xmm0, %ecx
	cmpq	%rax, %r14
	je	11f
	testb	$28, %r14b
	je	9f
7:
	movq	%rax, %rdx
	movq	%r14, %rax
	andq	$-4, %rax
	movzbl	%cl, %ecx
	movd	%ecx, %xmm0
	.p2align	4
8:
	movl	(%rsi,%rdx), %ecx
	xorl	176(%rsp,%rdx), %ecx
	movd	%ecx, %xmm1
	por	%xmm1, %xmm0
	addq	$4, %rdx
	cmpq	%rdx, %rax
	jne	8b
	movdqa	%xmm0, %xmm1
	psrld	$16, %xmm1
	por	%xmm0, %xmm1
	movdqa	%xmm1, %xmm0
	psrlw	$8, %xmm0
	por	%xmm1, %xmm0
	movd	%xmm0, %ecx
	jmp	10f
9:
	movzbl	(%rsi,%rax), %edx
	xorb	176(%rsp,%rax), %dl
	orb	%dl, %cl
	incq	%rax
10:
	cmpq	%rax, %r14
	jne	9b
11:
	movb	$1, %bl
	movb	$1, %al
	testb	%cl, %cl
	jne	13f
12:
	xorl	%ebx, %ebx
	xorl	%eax, %eax
13:
	movzbl	%al, %edx
	pxor	%xmm0, %xmm0
	movdqa	%xmm0, 240(%rsp)
	movdqa	%xmm0, 256(%rsp)
	movq	$0, 272(%rsp)
	movq	16(%r12), %rax
	movq	%rax, 24(%rsp)
	leaq	23(%rsp), %rax
	movq	%rax, 72(%rsp)
	movdqu	%xmm0, 80(%rsp)
	movzbl	208(%r15), %eax
	cmpl	$2, %eax
	movq	%rbp, 168(%rsp)
	movq	%rdx, 160(%rsp)
	movq	%rsi, 64(%rsp)
	jae	14f
	cmpq	$3, %rdx
	je	15f
	testl	%edx, %edx
	je	72f
	cmpl	$1, %edx
	je	55f
	jmp	56f
14:
	jne	15f
	leaq	.L1_x86_JTI56_0(%rip), %rax
	movslq	(%rax,%rdx,4), %rcx
	addq	%rax, %rcx
	notrack	jmpq	*%rcx
15:
	leaq	.L1_x86_static.1(%rip), %rbp
	leaq	23(%rsp), %rdi
	xorl	%r14d, %r14d
	xorl	%r13d, %r13d
	xorl	%edx, %edx
16:
	movq	%rbp, %rsi
	vj_c_call	memcpy
	movq	%r13, %r10
	movq	%r14, %r11
17:
	movq	%r11, 80(%rsp)
	movq	%r10, 88(%rsp)
	andb	209(%r15), %bl
	cmpb	$1, %bl
	leaq	23(%rsp), %r14
	jne	18f
	cmpb	$3, 208(%r15)
	jne	26f
18:
	movq	72(%rsp), %r15
	movq	80(%rsp), %r13
	movq	88(%rsp), %rax
	movq	32(%r12), %rbp
	movq	40(%r12), %r12
	pxor	%xmm0, %xmm0
	movdqu	%xmm0, 48(%rsp)
	movq	%r14, 40(%rsp)
	testq	%r13, %r13
	je	25f
	movq	%rax, 24(%rsp)
	leaq	.L1_x86_static.190(%rip), %rdx
	movq	%rbp, %rdi
	movq	%r12, %rsi
	callq	core..slice..reads..slice.T..contains..i8.31.core..cmp..numbers..U8PartialEq_1_x86
	testb	%al, %al
	jne	58f
	testq	%r12, %r12
	jne	68f
	xorl	%r9d, %r9d
	xorl	%eax, %eax
19:
	leaq	(%rax,%r12), %rbx
	leaq	(%r14,%rax), %rdi
	movq	%rdi, %rcx
	subq	%rbp, %rcx
	cmpq	%r12, %rcx
	jae	30f
	cmpq	$4, %r12
	jb	20f
	cmpq	$32, %rcx
	jae	44f
20:
	xorl	%ecx, %ecx
21:
	movq	%r12, %rsi
	movq	%rcx, %rdx
	andq	$3, %rsi
	je	23f
	movq	%rcx, %rdx
	.p2align	4
22:
	movzbl	(%rbp,%rdx), %r8d
	movb	%r8b, (%rdi,%rdx)
	incq	%rdx
	decq	%rsi
	jne	22b
23:
	subq	%r12, %rcx
	cmpq	$-4, %rcx
	ja	31f
	addq	%r14, %rax
	addq	$3, %rax
	.p2align	4
24:
	movzbl	(%rbp,%rdx), %ecx
	movb	%cl, -3(%rax,%rdx)
	movzbl	1(%rbp,%rdx), %ecx
	movb	%cl, -2(%rax,%rdx)
	movzbl	2(%rbp,%rdx), %ecx
	movb	%cl, -1(%rax,%rdx)
	movzbl	3(%rbp,%rdx), %ecx
	movb	%cl, (%rax,%rdx)
	addq	$4, %rdx
	cmpq	%rdx, %r12
	jne	24b
	jmp	31f
25:
	xorl	%ebx, %ebx
	movq	32(%rsp), %r14
	movb	$1, %bpl
	jmp	51f
26:
	leaq	.L1_x86_static.184(%rip), %rsi
	leaq	72(%rsp), %rdi
	movq	64(%rsp), %rdx
	movq	24(%rsp), %rbx
	movq	%rbx, %rcx
	callq	b2sum_commands..check..push_digest_1_x86
	testb	%al, %al
	jne	27f
	leaq	.L1_x86_static.185(%rip), %rsi
	leaq	72(%rsp), %rdi
	leaq	176(%rsp), %rdx
	movq	%rbx, %rcx
	callq	b2sum_commands..check..push_digest_1_x86
	testb	%al, %al
	je	18b
27:
	cmpq	$0, 88(%rsp)
	je	29f
28:
	movq	72(%rsp), %rdi
	vj_call	rattle_dealloc
29:
	xorl	%ebx, %ebx
	movq	32(%rsp), %r14
	jmp	53f
30:
	movq	%rbp, %rsi
	movq	%r12, %rdx
	movq	%r9, %r14
	vj_c_call	memmove
	movq	%r14, %r9
31:
	movq	%rbx, 48(%rsp)
	movq	%r9, 56(%rsp)
32:
	movq	%r9, %rax
	subq	%rbx, %rax
	cmpq	%rax, %r13
	movq	168(%rsp), %rbp
	ja	69f
33:
	movq	40(%rsp), %r12
	leaq	(%r12,%rbx), %rdi
	movq	%rdi, %rax
	subq	%r15, %rax
	cmpq	%r13, %rax
	jae	39f
	cmpq	$4, %r13
	jb	34f
	cmpq	$32, %rax
	jae	45f
34:
	xorl	%eax, %eax
35:
	movq	%r13, %rdx
	movq	%rax, %rcx
	andq	$3, %rdx
	je	37f
	movq	%rax, %rcx
	.p2align	4
36:
	movzbl	(%r15,%rcx), %esi
	movb	%sil, (%rdi,%rcx)
	incq	%rcx
	decq	%rdx
	jne	36b
37:
	subq	%r13, %rax
	cmpq	$-4, %rax
	ja	40f
	leaq	(%rbx,%r12), %rax
	addq	$3, %rax
	.p2align	4
38:
	movzbl	(%r15,%rcx), %edx
	movb	%dl, -3(%rax,%rcx)
	movzbl	1(%r15,%rcx), %edx
	movb	%dl, -2(%rax,%rcx)
	movzbl	2(%r15,%rcx), %edx
	movb	%dl, -1(%rax,%rcx)
	movzbl	3(%r15,%rcx), %edx
	movb	%dl, (%rax,%rcx)
	addq	$4, %rcx
	cmpq	%rcx, %r13
	jne	38b
	jmp	40f
39:
	movq	%r15, %rsi
	movq	%r13, %rdx
	movq	%r9, %r14
	vj_c_call	memmove
	movq	%r14, %r9
40:
	testb	$1, 128(%rbp)
	jne	49f
	movq	%r9, 64(%rsp)
	addq	%r13, %rbx
	je	42f
	xorl	%r13d, %r13d
	.p2align	4
41:
	leaq	(%r12,%r13), %rsi
	movq	%rbx, %r14
	subq	%r13, %r14
	movl	$1, %edi
	movq	%r14, %rdx
	vj_system_call	write, b2_write
	testq	%rax, %rax
	js	46f
	cmpq	%r14, %rax
	cmovbq	%rax, %r14
	testq	%r14, %r14
	je	47f
	addq	%r14, %r13
	cmpq	%rbx, %r13
	jb	41b
42:
	cmpq	$0, 64(%rsp)
	je	43f
	movq	%r12, %rdi
	vj_call	rattle_dealloc
43:
	xorl	%ebx, %ebx
	movq	32(%rsp), %r14
	movq	24(%rsp), %rax
	movb	$1, %bpl
	jmp	51f
44:
	cmpq	$32, %r12
	jae	60f
	xorl	%ecx, %ecx
	jmp	62f
45:
	cmpq	$32, %r13
	jae	64f
	xorl	%eax, %eax
	jmp	66f
46:
	leaq	72(%rsp), %rdi
	callq	std_io..io..error..last_error_1_x86
	movq	72(%rsp), %rax
	movups	80(%rsp), %xmm0
	movaps	%xmm0, 288(%rsp)
	movups	96(%rsp), %xmm0
	movaps	%xmm0, 304(%rsp)
	movups	112(%rsp), %xmm0
	movaps	%xmm0, 320(%rsp)
	movups	128(%rsp), %xmm0
	movaps	%xmm0, 336(%rsp)
	movups	144(%rsp), %xmm0
	movaps	%xmm0, 352(%rsp)
	movq	$1, 128(%rbp)
	movq	%rax, 136(%rbp)
	movaps	288(%rsp), %xmm0
	movdqa	304(%rsp), %xmm1
	movdqa	320(%rsp), %xmm2
	movdqa	336(%rsp), %xmm3
	movups	%xmm0, 144(%rbp)
	movdqu	%xmm1, 160(%rbp)
	movdqu	%xmm2, 176(%rbp)
	movdqu	%xmm3, 192(%rbp)
	movdqa	352(%rsp), %xmm0
	movdqu	%xmm0, 208(%rbp)
	jmp	48f
47:
	movq	$1, 128(%rbp)
	movw	$5889, 136(%rbp)
	pxor	%xmm0, %xmm0
	movdqu	%xmm0, 138(%rbp)
	movdqu	%xmm0, 154(%rbp)
	movdqu	%xmm0, 170(%rbp)
	movdqu	%xmm0, 186(%rbp)
	movdqu	%xmm0, 202(%rbp)
	movq	$0, 216(%rbp)
48:
	movq	64(%rsp), %r9
49:
	movb	$1, %bl
	testq	%r9, %r9
	je	50f
	movq	%r12, %rdi
	vj_call	rattle_dealloc
50:
	xorl	%ebp, %ebp
	movq	32(%rsp), %r14
	movq	24(%rsp), %rax
51:
	testq	%rax, %rax
	je	52f
	movq	%r15, %rdi
	vj_call	rattle_dealloc
52:
	testb	%bpl, %bpl
	je	53f
	movw	$0, (%r14)
	movq	160(%rsp), %rax
	movq	%rax, 8(%r14)
	movdqa	240(%rsp), %xmm0
	movdqa	256(%rsp), %xmm1
	movdqu	%xmm0, 16(%r14)
	movdqu	%xmm1, 32(%r14)
	movq	272(%rsp), %rax
	movq	%rax, 48(%r14)
	jmp	54f
53:
	movb	$1, (%r14)
	movb	%bl, 1(%r14)
	pxor	%xmm0, %xmm0
	movdqu	%xmm0, 8(%r14)
	movdqu	%xmm0, 24(%r14)
	movdqu	%xmm0, 40(%r14)
54:
	addq	$376, %rsp
	popq	%rbx
	popq	%r12
	popq	%r13
	popq	%r14
	popq	%r15
	popq	%rbp
	retq
55:
	leaq	.L1_x86_static.188(%rip), %rbp
	movl	$9, %esi
	jmp	57f
56:
	leaq	.L1_x86_static.187(%rip), %rbp
	movl	$22, %esi
57:
	xorl	%r13d, %r13d
	jmp	73f
58:
	leaq	40(%rsp), %rdi
	movl	$1, %esi
	callq	std_alloc..vec..Vec..grow_amortized..01eec35b572d02af_1_x86
	testb	%al, %al
	je	70f
	movq	40(%rsp), %rax
	movq	48(%rsp), %rcx
	movb	$92, (%rax,%rcx)
	incq	%rcx
	movq	%rcx, 48(%rsp)
	leaq	40(%rsp), %rdi
	movq	%rbp, %rsi
	movq	%r12, %rdx
	callq	b2sum_lines..names..push_escaped_1_x86
	movq	56(%rsp), %r9
	testb	%al, %al
	je	81f
	testq	%r9, %r9
	jne	71f
59:
	xorl	%ebx, %ebx
	jmp	50b
60:
	movq	%r12, %rcx
	andq	$-32, %rcx
	leaq	(%rax,%r14), %rdx
	addq	$16, %rdx
	xorl	%esi, %esi
	.p2align	4
61:
	movdqu	(%rbp,%rsi), %xmm0
	movdqu	16(%rbp,%rsi), %xmm1
	movdqu	%xmm0, -16(%rdx,%rsi)
	movdqu	%xmm1, (%rdx,%rsi)
	addq	$32, %rsi
	cmpq	%rsi, %rcx
	jne	61b
	cmpq	%rcx, %r12
	je	31b
	testb	$28, %r12b
	je	21b
62:
	movq	%rcx, %rdx
	movq	%r12, %rcx
	andq	$-4, %rcx
	.p2align	4
63:
	movl	(%rbp,%rdx), %esi
	movl	%esi, (%rdi,%rdx)
	addq	$4, %rdx
	cmpq	%rdx, %rcx
	jne	63b
	cmpq	%rcx, %r12
	je	31b
	jmp	21b
64:
	movq	%r13, %rax
	andq	$-32, %rax
	leaq	(%rbx,%r12), %rcx
	addq	$16, %rcx
	xorl	%edx, %edx
	.p2align	4
65:
	movdqu	(%r15,%rdx), %xmm0
	movdqu	16(%r15,%rdx), %xmm1
	movdqu	%xmm0, -16(%rcx,%rdx)
	movdqu	%xmm1, (%rcx,%rdx)
	addq	$32, %rdx
	cmpq	%rdx, %rax
	jne	65b
	cmpq	%rax, %r13
	je	40b
	testb	$28, %r13b
	je	35b
66:
	movq	%rax, %rcx
	movq	%r13, %rax
	andq	$-4, %rax
	.p2align	4
67:
	movl	(%r15,%rcx), %edx
	movl	%edx, (%rdi,%rcx)
	addq	$4, %rcx
	cmpq	%rcx, %rax
	jne	67b
	cmpq	%rax, %r13
	je	40b
	jmp	35b
68:
	leaq	40(%rsp), %rdi
	movq	%r12, %rsi
	callq	std_alloc..vec..Vec..grow_amortized..01eec35b572d02af_1_x86
	testb	%al, %al
	je	70f
	movq	40(%rsp), %r14
	movq	48(%rsp), %rax
	movq	56(%rsp), %r9
	jmp	19b
69:
	leaq	40(%rsp), %rdi
	movq	%r13, %rsi
	callq	std_alloc..vec..Vec..grow_amortized..01eec35b572d02af_1_x86
	testb	%al, %al
	je	70f
	movq	48(%rsp), %rbx
	movq	56(%rsp), %r9
	jmp	33b
70:
	cmpq	$0, 56(%rsp)
	je	59b
71:
	movq	40(%rsp), %rdi
	vj_call	rattle_dealloc
	xorl	%ebx, %ebx
	jmp	50b
72:
	leaq	.L1_x86_static.186(%rip), %rbp
	movl	$5, %esi
	movb	$1, %r13b
73:
	leaq	72(%rsp), %rdi
	movq	%rsi, %r14
	callq	std_alloc..vec..Vec..grow_amortized..01eec35b572d02af_1_x86
	movq	88(%rsp), %r10
	testb	%al, %al
	je	79f
	leaq	80(%rsp), %rdx
	movq	72(%rsp), %rax
	movq	80(%rsp), %rcx
	leaq	(%rcx,%r14), %r11
	pxor	%xmm0, %xmm0
	movdqu	%xmm0, (%rdx)
	leaq	(%rax,%rcx), %rdi
	movq	%rdi, %rdx
	subq	%rbp, %rdx
	cmpq	%r14, %rdx
	movq	%r14, %rdx
	jae	80f
	testb	%r13b, %r13b
	jne	74f
	leaq	(%rax,%rcx), %rsi
	subq	%rbp, %rsi
	cmpq	$8, %rsi
	jae	82f
74:
	xorl	%r14d, %r14d
75:
	movq	%rdx, %r13
	movq	%rdx, %r8
	movq	%r14, %rsi
	andq	$3, %r8
	je	77f
	movq	%r14, %rsi
76:
	movzbl	(%rbp,%rsi), %r9d
	movb	%r9b, (%rdi,%rsi)
	incq	%rsi
	decq	%r8
	jne	76b
77:
	subl	%r13d, %r14d
	cmpl	$-4, %r14d
	ja	17b
	addq	%rcx, %rax
	addq	$3, %rax
78:
	movl	(%rbp,%rsi), %ecx
	movl	%ecx, -3(%rax,%rsi)
	addq	$4, %rsi
	cmpq	%rsi, %r13
	jne	78b
	jmp	17b
79:
	testq	%r10, %r10
	jne	28b
	jmp	29b
80:
	movq	%r11, %r14
	movq	%r10, %r13
	jmp	16b
81:
	movq	48(%rsp), %rbx
	jmp	32b
82:
	movq	%rdx, %r13
	movl	%edx, %r14d
	andl	$-8, %r14d
	leaq	(%rcx,%rax), %rsi
	addq	$4, %rsi
	xorl	%r8d, %r8d
83:
	movq	(%rbp,%r8), %r9
	movq	%r9, -4(%rsi,%r8)
	addq	$8, %r8
	cmpq	%r8, %r14
	jne	83b
	movq	%r13, %rdx
	cmpl	%r14d, %edx
	je	17b
	jmp	75b
	vj_end	b2sum_commands..check..check_entry..82a450bcca081e63_1_x86

	vj_data	b2sum_commands..check..check_entry..82a450bcca081e63_1_x86
	.p2align	2, 0x0
.L1_x86_JTI56_0:
	.long	15b-.L1_x86_JTI56_0
	.long	55b-.L1_x86_JTI56_0
	.long	56b-.L1_x86_JTI56_0
	.long	15b-.L1_x86_JTI56_0

	vj_constants	16
	.p2align	4, 0x0
.L1_x86_CPI57_0:
	.byte	0
	.byte	1
	.byte	2
	.byte	3
	.byte	4
	.byte	5
	.byte	6
	.byte	7
	.byte	8
	.byte	9
	.byte	10
	.byte	11
	.byte	12
	.byte	13
	.byte	14
	.byte	15
.L1_x86_CPI57_1:
	.byte	16
	.byte	17
	.byte	18
	.byte	19
	.byte	20
	.byte	21
	.byte	22
	.byte	23
	.byte	24
	.byte	25
	.byte	26
	.byte	27
	.byte	28
	.byte	29
	.byte	30
	.byte	31
	vj_function	b2sum_commands..sums..digest_file..82a450bcca081e63_1_x86
	pushq	%rbp
	pushq	%r15
	pushq	%r14
	pushq	%r13
	pushq	%r12
	pushq	%rbx
	subq	$792, %rsp
	movq	%r9, %r12
	movq	%r8, %rbx
	movq	%rdx, %r14
	movq	856(%rsp), %r10
	movq	848(%rsp), %rdx
	movzbl	(%rdx), %eax
	movzbl	%al, %r8d
	movl	%r8d, 32(%rsp)
	movl	4(%rdx), %r8d
	movl	%r8d, 36(%rsp)
	movq	8(%rdx), %rbp
	movq	%rbp, 40(%rsp)
	xorps	%xmm0, %xmm0
	movaps	%xmm0, 560(%rsp)
	movaps	%xmm0, 576(%rsp)
	movaps	%xmm0, 592(%rsp)
	movaps	%xmm0, 608(%rsp)
	movaps	%xmm0, 624(%rsp)
	movaps	%xmm0, 640(%rsp)
	movaps	%xmm0, 320(%rsp)
	movaps	%xmm0, 336(%rsp)
	movaps	%xmm0, 352(%rsp)
	movaps	%xmm0, 368(%rsp)
	movaps	%xmm0, 384(%rsp)
	movaps	%xmm0, 400(%rsp)
	movaps	%xmm0, 416(%rsp)
	movaps	%xmm0, 432(%rsp)
	movq	$0, 448(%rsp)
	movaps	%xmm0, 176(%rsp)
	movaps	%xmm0, 192(%rsp)
	movaps	%xmm0, 208(%rsp)
	movaps	%xmm0, 224(%rsp)
	movaps	%xmm0, 240(%rsp)
	movq	$0, 256(%rsp)
	movaps	%xmm0, 544(%rsp)
	movaps	%xmm0, 528(%rsp)
	movaps	%xmm0, 512(%rsp)
	movaps	%xmm0, 496(%rsp)
	movaps	%xmm0, 480(%rsp)
	movaps	%xmm0, 464(%rsp)
	cmpq	$1, %r9
	jne	1f
	cmpb	$45, (%rbx)
	jne	1f
	movq	%rdi, %r15
	movq	320(%r14), %r8
	movq	328(%r14), %r9
	movq	%r10, (%rsp)
	leaq	560(%rsp), %rdi
	leaq	32(%rsp), %rdx
	movq	%r14, %rcx
	callq	b2sum_commands..sums..digest_open..88d5947bde654d8d_1_x86
	cmpb	$1, 560(%rsp)
	jne	25f
	leaq	568(%rsp), %rsi
	addq	$224, %r14
	movl	$1, %r8d
	movq	%r15, %rdi
	movq	%r14, %rdx
	movq	%rbx, %rcx
	jmp	15f
1:
	movq	%rsi, 16(%rsp)
	movq	%rdi, 24(%rsp)
	movq	32(%rcx), %rdx
	cmpq	24(%rcx), %rdx
	jb	13f
	movq	8(%rcx), %r13
	testq	%r13, %r13
	je	13f
	movq	(%rcx), %r15
	cmpq	$3, %r12
	ja	12f
	testq	%r12, %r12
	jne	8f
	cmpb	$1, %al
	je	3f
	testb	%al, %al
	jne	13f
	jmp	5f
	.p2align	4
2:
	addq	$104, %r15
	decq	%r13
	je	13f
3:
	cmpq	%rbp, 32(%r15)
	jne	2b
	cmpb	$1, 24(%r15)
	jne	2b
	cmpq	$0, 8(%r15)
	jne	2b
	jmp	20f
	.p2align	4
4:
	addq	$104, %r15
	decq	%r13
	je	13f
5:
	cmpq	%rbp, 32(%r15)
	jne	4b
	cmpb	$0, 24(%r15)
	jne	4b
	cmpq	$0, 8(%r15)
	jne	4b
	jmp	20f
6:
	testb	%al, %al
	je	9f
	.p2align	4
7:
	addq	$104, %r15
	decq	%r13
	je	13f
8:
	cmpq	%rbp, 32(%r15)
	jne	7b
	movzbl	24(%r15), %ecx
	leal	-2(%rcx), %edx
	cmpl	$3, %edx
	jb	7b
	testl	%ecx, %ecx
	je	6b
	cmpb	$1, %al
	jne	7b
9:
	cmpq	%r12, 8(%r15)
	jne	7b
	movq	(%r15), %rcx
	movzbl	(%rcx), %edx
	cmpb	(%rbx), %dl
	jne	11f
	cmpq	$1, %r12
	je	20f
	movzbl	1(%rcx), %esi
	movl	$1, %edx
	cmpb	1(%rbx), %sil
	jne	10f
	cmpq	$2, %r12
	je	20f
	movzbl	2(%rcx), %ecx
	movl	$2, %edx
	cmpb	2(%rbx), %cl
	je	20f
10:
	cmpq	%r12, %rdx
	jb	7b
	jmp	20f
11:
	xorl	%edx, %edx
	cmpq	%r12, %rdx
	jb	7b
	jmp	20f
12:
	cmpb	$1, %al
	je	17f
	testb	%al, %al
	je	19f
13:
	leaq	320(%rsp), %rdi
	movq	%rbx, %rsi
	movq	%r12, %rdx
	callq	b2sum..disk..SystemDisk..open..997c1e2eeb9618f7_1_x86
	cmpb	$0, 320(%rsp)
	je	21f
	movzbl	328(%rsp), %eax
	movzbl	329(%rsp), %ecx
	movq	16(%rsp), %rdx
	cmpb	$1, 207(%rdx)
	movq	24(%rsp), %rdi
	jne	14f
	movaps	.L1_x86_CPI57_0(%rip), %xmm0
	movaps	%xmm0, 272(%rsp)
	movaps	.L1_x86_CPI57_1(%rip), %xmm0
	movaps	%xmm0, 288(%rsp)
	movabsq	$2820983053732684064, %rdx
	movq	%rdx, 304(%rsp)
	movb	$40, 312(%rsp)
	cmpb	$41, %cl
	jae	14f
	movzbl	%cl, %edx
	cmpb	$0, 272(%rsp,%rdx)
	je	29f
14:
	leaq	330(%rsp), %rdx
	movb	%al, 176(%rsp)
	movb	%cl, 177(%rsp)
	movups	(%rdx), %xmm0
	movups	16(%rdx), %xmm1
	movups	32(%rdx), %xmm2
	movups	48(%rdx), %xmm3
	movups	%xmm0, 178(%rsp)
	movups	%xmm1, 194(%rsp)
	movups	%xmm2, 210(%rsp)
	movups	%xmm3, 226(%rsp)
	movups	64(%rdx), %xmm0
	movups	%xmm0, 242(%rsp)
	movq	78(%rdx), %rax
	movq	%rax, 256(%rsp)
	addq	$224, %r14
	leaq	176(%rsp), %rsi
	movq	%r14, %rdx
	movq	%rbx, %rcx
	movq	%r12, %r8
15:
	callq	b2sum_commands..messages..warn_of_file..fab5d8e6f6068f4d_1_x86
	movl	%eax, %edx
	addb	%dl, %dl
	xorb	$2, %dl
	jmp	27f
	.p2align	4
16:
	addq	$104, %r15
	decq	%r13
	je	13b
17:
	cmpq	%rbp, 32(%r15)
	jne	16b
	cmpb	$1, 24(%r15)
	jne	16b
	cmpq	%r12, 8(%r15)
	jne	16b
	movq	(%r15), %rdi
	movl	(%rdi), %eax
	cmpl	(%rbx), %eax
	jne	16b
	movq	%r12, %rsi
	movq	%rbx, %rdx
	callq	core..cmp..slices..groups_equal..i8.31.core..cmp..numbers..U8PartialEq_1_x86
	testb	%al, %al
	je	16b
	jmp	20f
	.p2align	4
18:
	addq	$104, %r15
	decq	%r13
	je	13b
19:
	cmpq	%rbp, 32(%r15)
	jne	18b
	cmpb	$0, 24(%r15)
	jne	18b
	cmpq	%r12, 8(%r15)
	jne	18b
	movq	(%r15), %rdi
	movl	(%rdi), %eax
	cmpl	(%rbx), %eax
	jne	18b
	movq	%r12, %rsi
	movq	%rbx, %rdx
	callq	core..cmp..slices..groups_equal..i8.31.core..cmp..numbers..U8PartialEq_1_x86
	testb	%al, %al
	je	18b
20:
	movups	40(%r15), %xmm0
	movups	56(%r15), %xmm1
	movups	72(%r15), %xmm2
	movups	88(%r15), %xmm3
	movq	856(%rsp), %rax
	movups	%xmm3, 48(%rax)
	movups	%xmm2, 32(%rax)
	movups	%xmm1, 16(%rax)
	movups	%xmm0, (%rax)
	jmp	25f
21:
	leaq	328(%rsp), %rax
	movups	112(%rax), %xmm0
	movaps	%xmm0, 160(%rsp)
	movups	96(%rax), %xmm0
	movaps	%xmm0, 144(%rsp)
	movups	80(%rax), %xmm0
	movaps	%xmm0, 128(%rsp)
	movups	64(%rax), %xmm0
	movaps	%xmm0, 112(%rsp)
	movups	(%rax), %xmm0
	movups	16(%rax), %xmm1
	movups	32(%rax), %xmm2
	movups	48(%rax), %xmm3
	movaps	%xmm3, 96(%rsp)
	movaps	%xmm2, 80(%rsp)
	movaps	%xmm1, 64(%rsp)
	movaps	%xmm0, 48(%rsp)
	movq	320(%r14), %r8
	movq	328(%r14), %r9
	movq	856(%rsp), %rax
	movq	%rax, (%rsp)
	leaq	464(%rsp), %rdi
	leaq	32(%rsp), %rdx
	leaq	48(%rsp), %rcx
	movq	16(%rsp), %rsi
	callq	b2sum_commands..sums..digest_open..88d5947bde654d8d_1_x86
	cmpb	$1, 464(%rsp)
	movq	24(%rsp), %rdi
	jne	23f
	leaq	472(%rsp), %rsi
	addq	$224, %r14
	movq	%r14, %rdx
	movq	%rbx, %rcx
	movq	%r12, %r8
	callq	b2sum_commands..messages..warn_of_file..fab5d8e6f6068f4d_1_x86
	testb	%al, %al
	je	28f
	movq	56(%rsp), %rbx
	movq	72(%rsp), %r14
	cmpb	$0, 48(%rsp)
	jne	22f
	movl	52(%rsp), %edi
	vj_call	b2sum_close
22:
	movb	$1, %al
	testq	%r14, %r14
	je	30f
	movq	%rbx, %rdi
	vj_call	rattle_dealloc
	movb	$1, %al
	xorl	%edx, %edx
	jmp	27f
23:
	movq	56(%rsp), %rbx
	movq	72(%rsp), %r14
	cmpb	$0, 48(%rsp)
	jne	24f
	movl	52(%rsp), %edi
	vj_call	b2sum_close
24:
	testq	%r14, %r14
	je	25f
	movq	%rbx, %rdi
	vj_call	rattle_dealloc
25:
	xorl	%edx, %edx
26:
	xorl	%eax, %eax
27:
	addq	$792, %rsp
	popq	%rbx
	popq	%r12
	popq	%r13
	popq	%r14
	popq	%r15
	popq	%rbp
	retq
28:
	movaps	160(%rsp), %xmm0
	movaps	%xmm0, 768(%rsp)
	movaps	144(%rsp), %xmm0
	movaps	%xmm0, 752(%rsp)
	movaps	128(%rsp), %xmm0
	movaps	%xmm0, 736(%rsp)
	movaps	112(%rsp), %xmm0
	movaps	%xmm0, 720(%rsp)
	movaps	48(%rsp), %xmm0
	movaps	64(%rsp), %xmm1
	movaps	80(%rsp), %xmm2
	movaps	96(%rsp), %xmm3
	movaps	%xmm3, 704(%rsp)
	movaps	%xmm2, 688(%rsp)
	movaps	%xmm1, 672(%rsp)
	movaps	%xmm0, 656(%rsp)
	leaq	656(%rsp), %rdi
	callq	b2sum..b2sum.disk.Opened.Destruct..drop..635567e538566947_1_x86
	movb	$2, %dl
	jmp	26b
29:
	xorl	%eax, %eax
	movb	$1, %dl
	jmp	27b
30:
	xorl	%edx, %edx
	jmp	27b
	vj_end	b2sum_commands..sums..digest_file..82a450bcca081e63_1_x86

	vj_constants	16
	.p2align	4, 0x0
.L1_x86_CPI58_0:
	.short	64
	.short	512
	.zero	2
	.zero	2
	.zero	2
	.zero	2
	.zero	2
	.zero	2
.L1_x86_CPI58_1:
	.quad	2270897969802886507
	.quad	6620516959819538809
.L1_x86_CPI58_2:
	.quad	5840696475078001361
	.quad	-7276294671716946913
.L1_x86_CPI58_3:
	.quad	7640891576956012808
	.quad	-4942790177534073029
.L1_x86_CPI58_4:
	.quad	4354685564936828971
	.quad	-6534734903238641935
.L1_x86_CPI58_5:
	.quad	4354685564936828970
	.quad	-6534734903238641935
.L1_x86_CPI58_6:
	.short	64
	.short	512
	.short	0
	.short	0
	.short	0
	.short	0
	.short	0
	.short	0
	vj_function	b2sum_commands..sums..digest_open..88d5947bde654d8d_1_x86
	pushq	%rbp
	movq	%rsp, %rbp
	pushq	%r15
	pushq	%r14
	pushq	%r13
	pushq	%r12
	pushq	%rbx
	andq	$-32, %rsp
	subq	$3040, %rsp
	movq	$0, (%rsp)
	subq	$32, %rsp
	movq	%rcx, %r14
	movq	%rdi, %rbx
	movzbl	(%rdx), %eax
	movl	4(%rdx), %edi
	movq	8(%rdx), %r15
	xorps	%xmm0, %xmm0
	movaps	%xmm0, 192(%rsp)
	movaps	%xmm0, 176(%rsp)
	movaps	%xmm0, 160(%rsp)
	movaps	%xmm0, 144(%rsp)
	movaps	%xmm0, 128(%rsp)
	movq	$0, 206(%rsp)
	testb	$1, 32(%rcx)
	je	1f
	movzwl	40(%r14), %eax
	movups	42(%r14), %xmm0
	movaps	%xmm0, 128(%rsp)
	movups	58(%r14), %xmm0
	movaps	%xmm0, 144(%rsp)
	movups	74(%r14), %xmm0
	movaps	%xmm0, 160(%rsp)
	movups	90(%r14), %xmm0
	movaps	%xmm0, 176(%rsp)
	movups	106(%r14), %xmm0
	movaps	%xmm0, 192(%rsp)
	movq	120(%r14), %rcx
	movq	%rcx, 206(%rsp)
	movb	$1, (%rbx)
	movw	%ax, 8(%rbx)
	jmp	36f
1:
	movq	%r8, 8(%rsp)
	movq	%r9, 16(%rsp)
	movq	24(%rsi), %rcx
	movq	32(%rsi), %r13
	movq	96(%rsi), %r12
	movq	104(%rsi), %rdx
	movq	120(%rsi), %r9
	movq	128(%rsi), %r8
	movq	%r15, 936(%rsp)
	movq	%rcx, 944(%rsp)
	movq	%r13, 952(%rsp)
	movq	%r12, 960(%rsp)
	movq	%rdx, 968(%rsp)
	movq	%r9, 976(%rsp)
	movq	%r8, 984(%rsp)
	movl	%eax, %eax
	leaq	.L1_x86_JTI58_0(%rip), %rcx
	movslq	(%rcx,%rax,4), %rax
	addq	%rcx, %rax
	notrack	jmpq	*%rax
2:
	leaq	1408(%rsp), %r15
	movl	$344, %edx
	movq	%r15, %rdi
	xorl	%esi, %esi
	vj_c_call	memset
	leaq	936(%rsp), %rsi
	movq	%r15, %rdi
	callq	b2sum..hashes..init_state..a920819b086c025a_1_x86
	movb	$1, %cl
	testb	%al, %al
	je	15f
	testq	%r13, %r13
	je	3f
	callq	blake2_digest..wiping..scrub_stack..4096_1_x86
3:
	movq	1536(%rsp), %r15
	movl	1544(%rsp), %eax
	movq	%rax, (%rsp)
	movq	%r14, %rdi
	movq	8(%rsp), %r12
	movq	%r12, %rsi
	movq	16(%rsp), %r13
	movq	%r13, %rdx
	callq	b2sum..disk..OpenedOpenFile..read..ec2583f154d97a77_1_x86
	testb	%al, %al
	jne	14f
	addq	(%rsp), %r15
	notq	%r15
	jmp	22f
4:
	movq	%r9, 56(%rsp)
	movq	%r8, 280(%rsp)
	movq	%rdx, (%rsp)
	movl	212(%rsi), %eax
	movl	%eax, 28(%rsp)
	movq	%rdi, %r13
	leaq	1408(%rsp), %rdi
	movl	$752, %edx
	xorl	%esi, %esi
	vj_c_call	memset
	movb	$1, %cl
	testl	%r13d, %r13d
	je	15f
	leaq	-1(%r15), %rax
	cmpq	$63, %rax
	ja	15f
	movq	(%rsp), %rax
	cmpq	$16, %rax
	ja	15f
	movq	280(%rsp), %r8
	cmpq	$16, %r8
	ja	15f
	xorps	%xmm0, %xmm0
	movaps	%xmm0, 64(%rsp)
	movq	%r13, 48(%rsp)
	leaq	64(%rsp), %rdi
	movq	%r12, %rsi
	movq	%rax, %rdx
	movq	%r8, %r13
	vj_c_call	memcpy
	xorps	%xmm0, %xmm0
	movaps	%xmm0, 800(%rsp)
	leaq	800(%rsp), %rdi
	movq	56(%rsp), %rsi
	movq	%r13, %rdx
	vj_c_call	memcpy
	movaps	64(%rsp), %xmm0
	movaps	%xmm0, 1024(%rsp)
	movq	(%rsp), %rdx
	movq	%rdx, 1040(%rsp)
	movaps	800(%rsp), %xmm0
	movups	%xmm0, 1048(%rsp)
	movq	%r13, 1064(%rsp)
	movq	48(%rsp), %rax
	movl	%eax, 1072(%rsp)
	movl	$0, 1076(%rsp)
	xorps	%xmm0, %xmm0
	movaps	%xmm0, 400(%rsp)
	movaps	%xmm0, 384(%rsp)
	movd	.L1_x86_CPI58_6(%rip), %xmm0
	movd	%eax, %xmm1
	movdqa	%xmm1, 32(%rsp)
	punpckldq	%xmm1, %xmm0
	movq	%xmm0, %xmm0
	movdqa	%xmm0, 224(%rsp)
	leaq	384(%rsp), %rdi
	leaq	1024(%rsp), %rsi
	vj_c_call	memcpy
	leaq	400(%rsp), %rdi
	leaq	1048(%rsp), %rsi
	movq	%r13, %rdx
	vj_c_call	memcpy
	movaps	.L1_x86_CPI58_1(%rip), %xmm0
	movaps	%xmm0, 256(%rsp)
	movaps	400(%rsp), %xmm1
	xorps	%xmm0, %xmm1
	movaps	%xmm1, 1392(%rsp)
	movaps	.L1_x86_CPI58_2(%rip), %xmm0
	movaps	%xmm0, 240(%rsp)
	movaps	384(%rsp), %xmm1
	xorps	%xmm0, %xmm1
	movaps	%xmm1, 1376(%rsp)
	movaps	224(%rsp), %xmm0
	xorps	.L1_x86_CPI58_3(%rip), %xmm0
	movaps	%xmm0, 224(%rsp)
	xorps	%xmm0, %xmm0
	movaps	%xmm0, 400(%rsp)
	movaps	%xmm0, 384(%rsp)
	movl	%r15d, %eax
	orl	$33554432, %eax
	movd	%eax, %xmm0
	punpckldq	32(%rsp), %xmm0
	movq	%xmm0, %xmm0
	movdqa	%xmm0, 32(%rsp)
	leaq	384(%rsp), %rdi
	leaq	1024(%rsp), %rsi
	movq	(%rsp), %rdx
	vj_c_call	memcpy
	leaq	400(%rsp), %rdi
	leaq	1048(%rsp), %rsi
	movq	%r13, %rdx
	vj_c_call	memcpy
	movaps	256(%rsp), %xmm0
	xorps	400(%rsp), %xmm0
	movaps	%xmm0, 256(%rsp)
	movaps	240(%rsp), %xmm0
	xorps	384(%rsp), %xmm0
	movaps	%xmm0, 240(%rsp)
	movaps	32(%rsp), %xmm0
	xorps	.L1_x86_CPI58_3(%rip), %xmm0
	movaps	%xmm0, 32(%rsp)
	xorps	%xmm0, %xmm0
	movaps	%xmm0, 992(%rsp)
	leaq	992(%rsp), %rdi
	movq	%r12, %rsi
	movq	(%rsp), %r12
	movq	%r12, %rdx
	vj_c_call	memcpy
	xorps	%xmm0, %xmm0
	movaps	%xmm0, 1008(%rsp)
	leaq	1008(%rsp), %rdi
	movq	56(%rsp), %rsi
	movq	%r13, %rdx
	vj_c_call	memcpy
	movaps	992(%rsp), %xmm0
	movaps	%xmm0, 736(%rsp)
	movaps	1008(%rsp), %xmm0
	movaps	%xmm0, 752(%rsp)
	movaps	224(%rsp), %xmm0
	movaps	%xmm0, 1408(%rsp)
	movaps	.L1_x86_CPI58_4(%rip), %xmm3
	movaps	%xmm3, 1424(%rsp)
	movaps	1376(%rsp), %xmm2
	movaps	%xmm2, 1440(%rsp)
	movaps	1392(%rsp), %xmm1
	movaps	%xmm1, 1456(%rsp)
	movaps	%xmm0, 1472(%rsp)
	movaps	%xmm3, 1488(%rsp)
	movaps	%xmm2, 1504(%rsp)
	movaps	%xmm1, 1520(%rsp)
	xorps	%xmm0, %xmm0
	movaps	%xmm0, 1536(%rsp)
	movl	$64, 1552(%rsp)
	movups	%xmm0, 1732(%rsp)
	movups	%xmm0, 1716(%rsp)
	movups	%xmm0, 1700(%rsp)
	movups	%xmm0, 1684(%rsp)
	movups	%xmm0, 1668(%rsp)
	movups	%xmm0, 1652(%rsp)
	movups	%xmm0, 1636(%rsp)
	movups	%xmm0, 1620(%rsp)
	movups	%xmm0, 1604(%rsp)
	movups	%xmm0, 1588(%rsp)
	movups	%xmm0, 1572(%rsp)
	movups	%xmm0, 1556(%rsp)
	movl	$0, 1748(%rsp)
	movaps	32(%rsp), %xmm3
	movups	%xmm3, 1752(%rsp)
	movaps	.L1_x86_CPI58_5(%rip), %xmm4
	movups	%xmm4, 1768(%rsp)
	movaps	240(%rsp), %xmm2
	movups	%xmm2, 1784(%rsp)
	movaps	256(%rsp), %xmm1
	movups	%xmm1, 1800(%rsp)
	movups	%xmm3, 1816(%rsp)
	movups	%xmm4, 1832(%rsp)
	movups	%xmm2, 1848(%rsp)
	movups	%xmm1, 1864(%rsp)
	movups	%xmm0, 1880(%rsp)
	movl	%r15d, 1896(%rsp)
	movups	%xmm0, 1900(%rsp)
	movups	%xmm0, 1916(%rsp)
	movups	%xmm0, 1932(%rsp)
	movups	%xmm0, 1948(%rsp)
	movups	%xmm0, 1964(%rsp)
	movups	%xmm0, 1980(%rsp)
	movups	%xmm0, 1996(%rsp)
	movups	%xmm0, 2012(%rsp)
	movups	%xmm0, 2028(%rsp)
	movups	%xmm0, 2044(%rsp)
	movups	%xmm0, 2060(%rsp)
	movups	%xmm0, 2076(%rsp)
	movups	%xmm0, 2088(%rsp)
	movq	48(%rsp), %rax
	movq	%rax, 2104(%rsp)
	movq	%r12, 2112(%rsp)
	movq	%r13, 2120(%rsp)
	movaps	736(%rsp), %xmm0
	movaps	752(%rsp), %xmm1
	movaps	%xmm1, 2144(%rsp)
	movaps	%xmm0, 2128(%rsp)
	xorl	%esi, %esi
	cmpb	$0, (%r14)
	jne	5f
	movl	4(%r14), %esi
5:
	leaq	1408(%rsp), %rcx
	movq	%r14, %rdi
	movl	28(%rsp), %edx
	movq	8(%rsp), %r8
	movq	16(%rsp), %r9
	vj_call	b2sum..hashes..absorb_tree..5254a3ddd78d1e3f_1_x86
	testb	%al, %al
	movb	$1, %cl
	je	15f
	leaq	1472(%rsp), %rax
	movaps	1408(%rsp), %xmm0
	movaps	1424(%rsp), %xmm1
	movaps	1440(%rsp), %xmm2
	movaps	1456(%rsp), %xmm3
	movaps	%xmm3, 1072(%rsp)
	movaps	%xmm2, 1056(%rsp)
	movaps	%xmm1, 1040(%rsp)
	movaps	%xmm0, 1024(%rsp)
	movups	(%rax), %xmm0
	movups	16(%rax), %xmm1
	movups	32(%rax), %xmm2
	movups	48(%rax), %xmm3
	movaps	%xmm0, 1088(%rsp)
	movaps	%xmm1, 1104(%rsp)
	movaps	%xmm2, 1120(%rsp)
	movaps	%xmm3, 1136(%rsp)
	movq	1536(%rsp), %rcx
	movl	1552(%rsp), %edx
	movq	%rcx, 1152(%rsp)
	movq	1544(%rsp), %rcx
	movq	%rcx, 1160(%rsp)
	movl	%edx, 1168(%rsp)
	movups	1672(%rsp), %xmm0
	movups	%xmm0, 1288(%rsp)
	movups	1656(%rsp), %xmm0
	movups	%xmm0, 1272(%rsp)
	movups	1640(%rsp), %xmm0
	movups	%xmm0, 1256(%rsp)
	movups	1624(%rsp), %xmm0
	movups	%xmm0, 1240(%rsp)
	movups	1560(%rsp), %xmm0
	movups	1576(%rsp), %xmm1
	movups	1592(%rsp), %xmm2
	movups	1608(%rsp), %xmm3
	movups	%xmm3, 1224(%rsp)
	movups	%xmm2, 1208(%rsp)
	movups	%xmm1, 1192(%rsp)
	movups	%xmm0, 1176(%rsp)
	movups	1688(%rsp), %xmm0
	movups	1704(%rsp), %xmm1
	movups	1720(%rsp), %xmm2
	movups	1736(%rsp), %xmm3
	movups	%xmm3, 1352(%rsp)
	movups	%xmm2, 1336(%rsp)
	movups	%xmm1, 1320(%rsp)
	movups	%xmm0, 1304(%rsp)
	movl	$1, 1172(%rsp)
	movups	280(%rax), %xmm0
	movups	296(%rax), %xmm1
	movups	312(%rax), %xmm2
	movups	328(%rax), %xmm3
	movaps	%xmm3, 432(%rsp)
	movaps	%xmm2, 416(%rsp)
	movaps	%xmm1, 400(%rsp)
	movaps	%xmm0, 384(%rsp)
	movups	344(%rax), %xmm0
	movups	360(%rax), %xmm1
	movups	376(%rax), %xmm2
	movups	392(%rax), %xmm3
	movaps	%xmm3, 496(%rsp)
	movaps	%xmm2, 480(%rsp)
	movaps	%xmm1, 464(%rsp)
	movaps	%xmm0, 448(%rsp)
	movq	1880(%rsp), %rax
	movq	%rax, 512(%rsp)
	movaps	1888(%rsp), %xmm0
	movups	%xmm0, 520(%rsp)
	movaps	2016(%rsp), %xmm0
	movups	%xmm0, 648(%rsp)
	movaps	2000(%rsp), %xmm0
	movups	%xmm0, 632(%rsp)
	movaps	1984(%rsp), %xmm0
	movups	%xmm0, 616(%rsp)
	movaps	1968(%rsp), %xmm0
	movups	%xmm0, 600(%rsp)
	movaps	1904(%rsp), %xmm0
	movaps	1920(%rsp), %xmm1
	movaps	1936(%rsp), %xmm2
	movaps	1952(%rsp), %xmm3
	movups	%xmm3, 584(%rsp)
	movups	%xmm2, 568(%rsp)
	movups	%xmm1, 552(%rsp)
	movups	%xmm0, 536(%rsp)
	movaps	2032(%rsp), %xmm0
	movaps	2048(%rsp), %xmm1
	movaps	2064(%rsp), %xmm2
	movaps	2080(%rsp), %xmm3
	movups	%xmm3, 712(%rsp)
	movups	%xmm2, 696(%rsp)
	movups	%xmm1, 680(%rsp)
	movups	%xmm0, 664(%rsp)
	xorps	%xmm0, %xmm0
	movaps	%xmm0, 848(%rsp)
	movaps	%xmm0, 832(%rsp)
	movaps	%xmm0, 816(%rsp)
	movaps	%xmm0, 800(%rsp)
	leaq	1024(%rsp), %rdi
	leaq	800(%rsp), %rsi
	callq	blake2_state..blake2b..State..write_digest_1_x86
	movaps	800(%rsp), %xmm0
	movaps	816(%rsp), %xmm1
	movaps	832(%rsp), %xmm2
	movaps	848(%rsp), %xmm3
	movaps	%xmm3, 112(%rsp)
	movaps	%xmm2, 96(%rsp)
	movaps	%xmm1, 80(%rsp)
	movaps	%xmm0, 64(%rsp)
	leaq	384(%rsp), %r15
	leaq	64(%rsp), %rsi
	movl	$64, %edx
	movq	%r15, %rdi
	callq	blake2_state..blake2b..State..absorb_blocks_1_x86
	movl	$1, 532(%rsp)
	movq	%r15, %rdi
	jmp	34f
6:
	leaq	1408(%rsp), %r15
	movl	$1632, %edx
	movq	%r15, %rdi
	xorl	%esi, %esi
	vj_c_call	memset
	leaq	936(%rsp), %rsi
	movq	%r15, %rdi
	callq	b2sum..hashes..init_state..782804cb012a25f7_1_x86
	movb	$1, %cl
	testb	%al, %al
	je	15f
	testq	%r13, %r13
	je	7f
	callq	blake2_digest..wiping..scrub_stack..4096_1_x86
7:
	movq	1664(%rsp), %rax
	movq	%rax, (%rsp)
	movq	1672(%rsp), %r15
	movq	%r14, %rdi
	movq	8(%rsp), %r12
	movq	%r12, %rsi
	movq	16(%rsp), %r13
	movq	%r13, %rdx
	callq	b2sum..disk..OpenedOpenFile..read..ec2583f154d97a77_1_x86
	testb	%al, %al
	jne	14f
	movq	(%rsp), %rax
	leaq	(%r15,%rax,4), %r15
	notq	%r15
	.p2align	4
8:
	testq	%rdx, %rdx
	je	30f
	subq	%rdx, %r15
	jb	14f
	leaq	1408(%rsp), %rdi
	movq	%r12, %rsi
	vj_call	blake2_parallel..lanes..blake2bp..Lanes..update_1_x86
	movq	%r14, %rdi
	movq	%r12, %rsi
	movq	%r13, %rdx
	callq	b2sum..disk..OpenedOpenFile..read..ec2583f154d97a77_1_x86
	testb	%al, %al
	je	8b
	jmp	14f
9:
	leaq	1408(%rsp), %r15
	movl	$1600, %edx
	movq	%r15, %rdi
	xorl	%esi, %esi
	vj_c_call	memset
	leaq	936(%rsp), %rsi
	movq	%r15, %rdi
	callq	b2sum..hashes..init_state..c5fd3bf45536a406_1_x86
	movb	$1, %cl
	testb	%al, %al
	je	15f
	testq	%r13, %r13
	je	10f
	callq	blake2_digest..wiping..scrub_stack..4096_1_x86
10:
	movq	1664(%rsp), %rax
	movq	%rax, (%rsp)
	movq	1672(%rsp), %r15
	movq	%r14, %rdi
	movq	8(%rsp), %r12
	movq	%r12, %rsi
	movq	16(%rsp), %r13
	movq	%r13, %rdx
	callq	b2sum..disk..OpenedOpenFile..read..ec2583f154d97a77_1_x86
	testb	%al, %al
	jne	14f
	movq	(%rsp), %rax
	leaq	(%r15,%rax,8), %r15
	notq	%r15
	.p2align	4
11:
	testq	%rdx, %rdx
	je	31f
	subq	%rdx, %r15
	jb	14f
	leaq	1408(%rsp), %rdi
	movq	%r12, %rsi
	vj_call	blake2_parallel..lanes..blake2sp..Lanes..update_1_x86
	movq	%r14, %rdi
	movq	%r12, %rsi
	movq	%r13, %rdx
	callq	b2sum..disk..OpenedOpenFile..read..ec2583f154d97a77_1_x86
	testb	%al, %al
	je	11b
	jmp	14f
12:
	movaps	%xmm0, 1568(%rsp)
	movaps	%xmm0, 1552(%rsp)
	movaps	%xmm0, 1536(%rsp)
	movaps	%xmm0, 1520(%rsp)
	movaps	%xmm0, 1504(%rsp)
	movaps	%xmm0, 1488(%rsp)
	movaps	%xmm0, 1472(%rsp)
	movaps	%xmm0, 1456(%rsp)
	movaps	%xmm0, 1440(%rsp)
	movaps	%xmm0, 1424(%rsp)
	movaps	%xmm0, 1408(%rsp)
	leaq	1408(%rsp), %rdi
	leaq	936(%rsp), %rsi
	callq	b2sum..hashes..init_state..5100c9fa7e8d9213_1_x86
	movb	$1, %cl
	testb	%al, %al
	je	15f
	testq	%r13, %r13
	je	13f
	callq	blake2_digest..wiping..scrub_stack..4096_1_x86
13:
	movq	1472(%rsp), %r15
	movzwl	1480(%rsp), %eax
	movq	%rax, (%rsp)
	movq	%r14, %rdi
	movq	8(%rsp), %r12
	movq	%r12, %rsi
	movq	16(%rsp), %r13
	movq	%r13, %rdx
	callq	b2sum..disk..OpenedOpenFile..read..ec2583f154d97a77_1_x86
	testb	%al, %al
	je	24f
14:
	movb	$1, %cl
15:
	testb	%cl, %cl
	je	35f
16:
	cmpb	$1, 32(%r14)
	jne	17f
	movzbl	40(%r14), %ecx
	movzbl	41(%r14), %eax
	movq	120(%r14), %rdx
	movq	%rdx, 366(%rsp)
	movups	106(%r14), %xmm0
	movaps	%xmm0, 352(%rsp)
	movups	90(%r14), %xmm0
	movaps	%xmm0, 336(%rsp)
	movups	74(%r14), %xmm0
	movaps	%xmm0, 320(%rsp)
	movups	58(%r14), %xmm0
	movaps	%xmm0, 304(%rsp)
	movups	42(%r14), %xmm0
	movaps	%xmm0, 288(%rsp)
	jmp	18f
17:
	xorps	%xmm0, %xmm0
	movaps	%xmm0, 352(%rsp)
	movaps	%xmm0, 336(%rsp)
	movaps	%xmm0, 320(%rsp)
	movaps	%xmm0, 304(%rsp)
	movaps	%xmm0, 288(%rsp)
	movq	$0, 366(%rsp)
	movb	$40, %al
	movb	$1, %cl
18:
	movb	$1, (%rbx)
	movb	%cl, 8(%rbx)
	movb	%al, 9(%rbx)
	movaps	288(%rsp), %xmm0
	movaps	304(%rsp), %xmm1
	movaps	320(%rsp), %xmm2
	movaps	336(%rsp), %xmm3
	movups	%xmm0, 10(%rbx)
	movups	%xmm1, 26(%rbx)
	movups	%xmm2, 42(%rbx)
	movups	%xmm3, 58(%rbx)
	movaps	352(%rsp), %xmm0
	movups	%xmm0, 74(%rbx)
	movq	366(%rsp), %rax
	jmp	37f
19:
	leaq	1408(%rsp), %rdi
20:
	movq	%r12, %rsi
	callq	blake2_state..blake2b..State..absorb_blocks_1_x86
21:
	movq	%r14, %rdi
	movq	%r12, %rsi
	movq	%r13, %rdx
	callq	b2sum..disk..OpenedOpenFile..read..ec2583f154d97a77_1_x86
	testb	%al, %al
	jne	14b
22:
	testq	%rdx, %rdx
	je	33f
	subq	%rdx, %r15
	jb	14b
	cmpq	$1, %rdx
	jne	19b
	movl	1544(%rsp), %eax
	cmpq	$128, %rax
	jae	23f
	movzbl	(%r12), %ecx
	movb	%cl, 1560(%rsp,%rax)
	incl	%eax
	movl	%eax, 1544(%rsp)
	jmp	21b
23:
	leaq	1408(%rsp), %rdi
	movl	$1, %edx
	jmp	20b
24:
	addq	(%rsp), %r15
	notq	%r15
	jmp	28f
25:
	leaq	1408(%rsp), %rdi
26:
	movq	%r12, %rsi
	callq	blake2_state..blake2s..State..absorb_blocks_1_x86
27:
	movq	%r14, %rdi
	movq	%r12, %rsi
	movq	%r13, %rdx
	callq	b2sum..disk..OpenedOpenFile..read..ec2583f154d97a77_1_x86
	testb	%al, %al
	jne	14b
28:
	testq	%rdx, %rdx
	je	38f
	subq	%rdx, %r15
	jb	14b
	cmpq	$1, %rdx
	jne	25b
	movzwl	1480(%rsp), %eax
	cmpq	$64, %rax
	jae	29f
	movzbl	(%r12), %ecx
	movb	%cl, 1488(%rsp,%rax)
	incl	%eax
	movw	%ax, 1480(%rsp)
	jmp	27b
29:
	leaq	1408(%rsp), %rdi
	movl	$1, %edx
	jmp	26b
30:
	xorps	%xmm0, %xmm0
	movaps	%xmm0, 784(%rsp)
	movaps	%xmm0, 768(%rsp)
	movaps	%xmm0, 752(%rsp)
	movaps	%xmm0, 736(%rsp)
	movaps	%xmm0, 624(%rsp)
	movaps	%xmm0, 608(%rsp)
	movaps	%xmm0, 592(%rsp)
	movaps	%xmm0, 576(%rsp)
	movaps	%xmm0, 560(%rsp)
	movaps	%xmm0, 544(%rsp)
	movaps	%xmm0, 528(%rsp)
	movaps	%xmm0, 512(%rsp)
	movaps	%xmm0, 496(%rsp)
	movaps	%xmm0, 480(%rsp)
	movaps	%xmm0, 464(%rsp)
	movaps	%xmm0, 448(%rsp)
	movaps	%xmm0, 432(%rsp)
	movaps	%xmm0, 416(%rsp)
	movaps	%xmm0, 400(%rsp)
	movaps	%xmm0, 384(%rsp)
	leaq	384(%rsp), %r15
	leaq	1408(%rsp), %rsi
	movq	%r15, %rdi
	vj_call	blake2_parallel..lanes..blake2bp..Lanes..outputs_1_x86
	leaq	1024(%rsp), %r12
	movl	$256, %edx
	movq	%r12, %rdi
	movq	%r15, %rsi
	vj_c_call	memcpy
	movups	2832(%rsp), %xmm0
	movups	2848(%rsp), %xmm1
	movups	2864(%rsp), %xmm2
	movups	2880(%rsp), %xmm3
	movups	%xmm1, 80(%rsp)
	movups	%xmm0, 64(%rsp)
	movups	%xmm3, 112(%rsp)
	movups	%xmm2, 96(%rsp)
	leaq	64(%rsp), %r15
	movl	$128, %edx
	movq	%r15, %rdi
	movq	%r12, %rsi
	xorl	%ecx, %ecx
	xorl	%r8d, %r8d
	vj_call	blake2_compress..compress..blake2b..compress_1_x86
	movups	1264(%rsp), %xmm0
	movaps	%xmm0, 912(%rsp)
	movups	1248(%rsp), %xmm0
	movaps	%xmm0, 896(%rsp)
	movups	1232(%rsp), %xmm0
	movaps	%xmm0, 880(%rsp)
	movups	1216(%rsp), %xmm0
	movaps	%xmm0, 864(%rsp)
	movups	1152(%rsp), %xmm0
	movups	1168(%rsp), %xmm1
	movups	1184(%rsp), %xmm2
	movups	1200(%rsp), %xmm3
	movaps	%xmm3, 848(%rsp)
	movaps	%xmm2, 832(%rsp)
	movaps	%xmm1, 816(%rsp)
	movaps	%xmm0, 800(%rsp)
	leaq	800(%rsp), %rsi
	movl	$256, %edx
	movq	%r15, %rdi
	movl	$1, %ecx
	movl	$1, %r8d
	vj_call	blake2_compress..compress..blake2b..compress_1_x86
	movups	64(%rsp), %xmm0
	movups	80(%rsp), %xmm1
	movups	96(%rsp), %xmm2
	movups	112(%rsp), %xmm3
	movaps	%xmm0, 736(%rsp)
	movaps	%xmm1, 752(%rsp)
	movaps	%xmm2, 768(%rsp)
	movaps	%xmm3, 784(%rsp)
	movq	2904(%rsp), %rdx
	leaq	736(%rsp), %rsi
	jmp	32f
31:
	xorps	%xmm0, %xmm0
	movaps	%xmm0, 624(%rsp)
	movaps	%xmm0, 608(%rsp)
	movaps	%xmm0, 592(%rsp)
	movaps	%xmm0, 576(%rsp)
	movaps	%xmm0, 560(%rsp)
	movaps	%xmm0, 544(%rsp)
	movaps	%xmm0, 528(%rsp)
	movaps	%xmm0, 512(%rsp)
	movaps	%xmm0, 496(%rsp)
	movaps	%xmm0, 480(%rsp)
	movaps	%xmm0, 464(%rsp)
	movaps	%xmm0, 448(%rsp)
	movaps	%xmm0, 432(%rsp)
	movaps	%xmm0, 416(%rsp)
	movaps	%xmm0, 400(%rsp)
	movaps	%xmm0, 384(%rsp)
	leaq	384(%rsp), %r15
	leaq	1408(%rsp), %rsi
	movq	%r15, %rdi
	vj_call	blake2_parallel..lanes..blake2sp..Lanes..outputs_1_x86
	leaq	1024(%rsp), %r12
	movl	$256, %edx
	movq	%r12, %rdi
	movq	%r15, %rsi
	vj_c_call	memcpy
	movups	2896(%rsp), %xmm0
	movups	2912(%rsp), %xmm1
	movaps	%xmm0, 64(%rsp)
	movaps	%xmm1, 80(%rsp)
	leaq	64(%rsp), %r15
	movl	$64, %edx
	movq	%r15, %rdi
	movq	%r12, %rsi
	xorl	%ecx, %ecx
	xorl	%r8d, %r8d
	vj_call	blake2_compress..compress..blake2s..compress_1_x86
	leaq	1088(%rsp), %rsi
	movl	$128, %edx
	movq	%r15, %rdi
	xorl	%ecx, %ecx
	xorl	%r8d, %r8d
	vj_call	blake2_compress..compress..blake2s..compress_1_x86
	leaq	1152(%rsp), %rsi
	movl	$192, %edx
	movq	%r15, %rdi
	xorl	%ecx, %ecx
	xorl	%r8d, %r8d
	vj_call	blake2_compress..compress..blake2s..compress_1_x86
	movups	1216(%rsp), %xmm0
	movups	1232(%rsp), %xmm1
	movups	1248(%rsp), %xmm2
	movups	1264(%rsp), %xmm3
	movaps	%xmm3, 848(%rsp)
	movaps	%xmm2, 832(%rsp)
	movaps	%xmm1, 816(%rsp)
	movaps	%xmm0, 800(%rsp)
	leaq	800(%rsp), %rsi
	movl	$256, %edx
	movq	%r15, %rdi
	movl	$1, %ecx
	movl	$1, %r8d
	vj_call	blake2_compress..compress..blake2s..compress_1_x86
	movaps	64(%rsp), %xmm0
	movaps	80(%rsp), %xmm1
	movaps	%xmm0, 1024(%rsp)
	movaps	%xmm1, 1040(%rsp)
	movq	2936(%rsp), %rdx
	leaq	1024(%rsp), %rsi
32:
	movq	16(%rbp), %rdi
	vj_c_call	memcpy
	xorl	%ecx, %ecx
	testb	%cl, %cl
	jne	16b
	jmp	35f
33:
	leaq	1408(%rsp), %rdi
34:
	movq	16(%rbp), %rsi
	callq	blake2_state..blake2b..State..write_digest_1_x86
	xorl	%ecx, %ecx
	testb	%cl, %cl
	jne	16b
35:
	movb	$0, (%rbx)
	movw	$0, 8(%rbx)
36:
	movaps	128(%rsp), %xmm0
	movaps	144(%rsp), %xmm1
	movaps	160(%rsp), %xmm2
	movaps	176(%rsp), %xmm3
	movups	%xmm0, 10(%rbx)
	movups	%xmm1, 26(%rbx)
	movups	%xmm2, 42(%rbx)
	movups	%xmm3, 58(%rbx)
	movaps	192(%rsp), %xmm0
	movups	%xmm0, 74(%rbx)
	movq	206(%rsp), %rax
37:
	movq	%rax, 88(%rbx)
	leaq	-40(%rbp), %rsp
	popq	%rbx
	popq	%r12
	popq	%r13
	popq	%r14
	popq	%r15
	popq	%rbp
	retq
38:
	leaq	1408(%rsp), %rdi
	movq	16(%rbp), %rsi
	callq	b2sum..states..blake2s..StateHashState..write_digest_1_x86
	xorl	%ecx, %ecx
	testb	%cl, %cl
	jne	16b
	jmp	35b
	vj_end	b2sum_commands..sums..digest_open..88d5947bde654d8d_1_x86

	vj_data	b2sum_commands..sums..digest_open..88d5947bde654d8d_1_x86
	.p2align	2, 0x0
.L1_x86_JTI58_0:
	.long	2b-.L1_x86_JTI58_0
	.long	12b-.L1_x86_JTI58_0
	.long	6b-.L1_x86_JTI58_0
	.long	9b-.L1_x86_JTI58_0
	.long	4b-.L1_x86_JTI58_0

	vj_constants	16
	.p2align	4, 0x0
.L1_x86_CPI59_0:
	.quad	7640891576956012808
	.quad	-4942790177534073029
.L1_x86_CPI59_1:
	.quad	4354685564936845355
	.quad	-6534734903238641935
.L1_x86_CPI59_2:
	.quad	5840696475078001361
	.quad	-7276294671716946913
.L1_x86_CPI59_3:
	.quad	2270897969802886507
	.quad	6620516959819538809
	vj_function	b2sum..hashes..init_state..a920819b086c025a_1_x86
	pushq	%rbp
	movq	%rsp, %rbp
	pushq	%r15
	pushq	%r14
	pushq	%r13
	pushq	%r12
	pushq	%rbx
	andq	$-32, %rsp
	subq	$288, %rsp
	movq	%rsi, %rax
	movq	%rdi, %rbx
	movq	(%rsi), %r13
	movq	16(%rsi), %r15
	movq	32(%rsi), %rdx
	movq	48(%rsi), %r12
	leaq	-1(%r13), %rcx
	cmpq	$64, %rcx
	setb	%cl
	cmpq	$65, %r15
	setb	%sil
	cmpq	$17, %rdx
	setb	%dil
	andb	%sil, %dil
	andb	%cl, %dil
	cmpq	$17, %r12
	setb	%r14b
	andb	%dil, %r14b
	cmpb	$1, %r14b
	jne	3f
	movq	24(%rax), %rsi
	movq	40(%rax), %rcx
	movq	%rcx, 16(%rsp)
	testq	%r15, %r15
	je	1f
	movq	8(%rax), %rax
	movq	%rax, 168(%rsp)
	xorps	%xmm0, %xmm0
	movaps	%xmm0, 48(%rsp)
	movaps	%xmm0, 32(%rsp)
	movl	%r15d, %eax
	shll	$8, %eax
	addl	%r13d, %eax
	addl	$16842752, %eax
	movd	%eax, %xmm0
	movdqa	%xmm0, (%rsp)
	leaq	32(%rsp), %rdi
	vj_c_call	memcpy
	leaq	48(%rsp), %rdi
	movq	16(%rsp), %rsi
	movq	%r12, %rdx
	vj_c_call	memcpy
	movaps	32(%rsp), %xmm1
	movaps	48(%rsp), %xmm2
	movaps	(%rsp), %xmm0
	xorps	.L1_x86_CPI59_0(%rip), %xmm0
	movaps	%xmm0, (%rsp)
	xorps	.L1_x86_CPI59_2(%rip), %xmm1
	movaps	%xmm1, 16(%rsp)
	xorps	.L1_x86_CPI59_3(%rip), %xmm2
	movaps	%xmm2, 240(%rsp)
	movl	$64, %eax
	subq	%r15, %rax
	xorl	%edx, %edx
	cmpq	$64, %r15
	cmovbq	%rax, %rdx
	leaq	(%rsp,%r15), %rdi
	addq	$176, %rdi
	xorl	%esi, %esi
	vj_c_call	memset
	leaq	176(%rsp), %rdi
	movq	168(%rsp), %rsi
	movq	%r15, %rdx
	vj_c_call	memcpy
	xorps	%xmm0, %xmm0
	movaps	%xmm0, 96(%rsp)
	movaps	%xmm0, 112(%rsp)
	movaps	%xmm0, 128(%rsp)
	movaps	%xmm0, 144(%rsp)
	movups	176(%rsp), %xmm0
	movups	192(%rsp), %xmm1
	movups	208(%rsp), %xmm2
	movups	224(%rsp), %xmm3
	movaps	%xmm0, 32(%rsp)
	movaps	(%rsp), %xmm0
	movaps	%xmm1, 48(%rsp)
	movaps	16(%rsp), %xmm1
	movaps	%xmm2, 64(%rsp)
	movaps	240(%rsp), %xmm2
	movaps	%xmm3, 80(%rsp)
	movaps	.L1_x86_CPI59_1(%rip), %xmm3
	movl	$128, %eax
	jmp	2f
1:
	xorps	%xmm0, %xmm0
	movaps	%xmm0, 48(%rsp)
	movaps	%xmm0, 32(%rsp)
	movl	%r13d, %eax
	orl	$16842752, %eax
	movd	%eax, %xmm0
	movdqa	%xmm0, (%rsp)
	leaq	32(%rsp), %rdi
	vj_c_call	memcpy
	leaq	48(%rsp), %rdi
	movq	16(%rsp), %rsi
	movq	%r12, %rdx
	vj_c_call	memcpy
	movaps	(%rsp), %xmm0
	movaps	32(%rsp), %xmm1
	movaps	48(%rsp), %xmm2
	xorps	.L1_x86_CPI59_0(%rip), %xmm0
	xorps	.L1_x86_CPI59_2(%rip), %xmm1
	movaps	.L1_x86_CPI59_1(%rip), %xmm3
	xorps	.L1_x86_CPI59_3(%rip), %xmm2
	xorps	%xmm4, %xmm4
	movaps	%xmm4, 32(%rsp)
	movaps	%xmm4, 48(%rsp)
	movaps	%xmm4, 64(%rsp)
	movaps	%xmm4, 80(%rsp)
	movaps	%xmm4, 96(%rsp)
	movaps	%xmm4, 112(%rsp)
	movaps	%xmm4, 128(%rsp)
	movaps	%xmm4, 144(%rsp)
	movaps	%xmm4, 176(%rsp)
	movaps	%xmm4, 192(%rsp)
	movaps	%xmm4, 208(%rsp)
	movaps	%xmm4, 224(%rsp)
	xorl	%eax, %eax
2:
	movups	%xmm0, (%rbx)
	movups	%xmm3, 16(%rbx)
	movups	%xmm1, 32(%rbx)
	movups	%xmm2, 48(%rbx)
	movups	%xmm0, 64(%rbx)
	movups	%xmm3, 80(%rbx)
	movups	%xmm1, 96(%rbx)
	movups	%xmm2, 112(%rbx)
	movq	$0, 128(%rbx)
	movl	%eax, 136(%rbx)
	movl	%eax, 140(%rbx)
	movl	%r13d, 144(%rbx)
	movl	$0, 148(%rbx)
	movaps	144(%rsp), %xmm0
	movups	%xmm0, 264(%rbx)
	movaps	128(%rsp), %xmm0
	movups	%xmm0, 248(%rbx)
	movaps	112(%rsp), %xmm0
	movups	%xmm0, 232(%rbx)
	movaps	96(%rsp), %xmm0
	movups	%xmm0, 216(%rbx)
	movaps	32(%rsp), %xmm0
	movaps	48(%rsp), %xmm1
	movaps	64(%rsp), %xmm2
	movaps	80(%rsp), %xmm3
	movups	%xmm3, 200(%rbx)
	movups	%xmm2, 184(%rbx)
	movups	%xmm1, 168(%rbx)
	movups	%xmm0, 152(%rbx)
	movaps	176(%rsp), %xmm0
	movaps	192(%rsp), %xmm1
	movaps	208(%rsp), %xmm2
	movaps	224(%rsp), %xmm3
	movups	%xmm0, 280(%rbx)
	movups	%xmm1, 296(%rbx)
	movups	%xmm2, 312(%rbx)
	movups	%xmm3, 328(%rbx)
3:
	movl	%r14d, %eax
	leaq	-40(%rbp), %rsp
	popq	%rbx
	popq	%r12
	popq	%r13
	popq	%r14
	popq	%r15
	popq	%rbp
	retq
	vj_end	b2sum..hashes..init_state..a920819b086c025a_1_x86

	vj_constants	16
	.p2align	4, 0x0
.L1_x86_CPI60_0:
	.long	1359893119
	.long	2600822924
	.long	528734635
	.long	1541459225
.L1_x86_CPI60_1:
	.long	1779033703
	.long	3144134277
	.long	1013904242
	.long	2773480762
	vj_function	b2sum..hashes..init_state..5100c9fa7e8d9213_1_x86
	pushq	%rbp
	pushq	%r15
	pushq	%r14
	pushq	%r13
	pushq	%r12
	pushq	%rbx
	subq	$152, %rsp
	movq	%rdi, %rbx
	movq	(%rsi), %r13
	movq	16(%rsi), %r14
	movq	32(%rsi), %rdx
	movq	48(%rsi), %r15
	leaq	-1(%r13), %rax
	cmpq	$32, %rax
	setb	%al
	cmpq	$33, %r14
	setb	%cl
	cmpq	$9, %rdx
	setb	%dil
	andb	%cl, %dil
	andb	%al, %dil
	cmpq	$9, %r15
	setb	%bpl
	andb	%dil, %bpl
	cmpb	$1, %bpl
	jne	3f
	movq	24(%rsi), %rax
	movq	40(%rsi), %r12
	testq	%r14, %r14
	je	1f
	movq	8(%rsi), %rcx
	movq	%rcx, 104(%rsp)
	xorps	%xmm0, %xmm0
	movaps	%xmm0, (%rsp)
	movl	%r14d, %ecx
	shll	$8, %ecx
	addl	%r13d, %ecx
	addl	$16842752, %ecx
	movd	%ecx, %xmm0
	movdqa	%xmm0, 112(%rsp)
	movq	%rsp, %rdi
	movq	%rax, %rsi
	vj_c_call	memcpy
	leaq	8(%rsp), %rdi
	movq	%r12, %rsi
	movq	%r15, %rdx
	vj_c_call	memcpy
	movaps	(%rsp), %xmm0
	movaps	%xmm0, 128(%rsp)
	movl	$32, %eax
	subq	%r14, %rax
	xorl	%edx, %edx
	cmpq	$32, %r14
	cmovbq	%rax, %rdx
	leaq	(%rsp,%r14), %rdi
	addq	$64, %rdi
	xorl	%esi, %esi
	vj_c_call	memset
	leaq	64(%rsp), %rdi
	movq	104(%rsp), %rsi
	movq	%r14, %rdx
	vj_c_call	memcpy
	xorps	%xmm0, %xmm0
	movaps	%xmm0, 32(%rsp)
	movaps	%xmm0, 48(%rsp)
	movdqu	64(%rsp), %xmm0
	movups	80(%rsp), %xmm1
	movdqa	%xmm0, (%rsp)
	movaps	%xmm1, 16(%rsp)
	movaps	128(%rsp), %xmm1
	movw	$64, %ax
	jmp	2f
1:
	xorps	%xmm0, %xmm0
	movaps	%xmm0, (%rsp)
	movl	%r13d, %ecx
	orl	$16842752, %ecx
	movd	%ecx, %xmm0
	movdqa	%xmm0, 112(%rsp)
	movq	%rsp, %rdi
	movq	%rax, %rsi
	vj_c_call	memcpy
	leaq	8(%rsp), %rdi
	movq	%r12, %rsi
	movq	%r15, %rdx
	vj_c_call	memcpy
	movaps	(%rsp), %xmm1
	pxor	%xmm0, %xmm0
	movdqa	%xmm0, (%rsp)
	movdqa	%xmm0, 16(%rsp)
	movdqa	%xmm0, 32(%rsp)
	movdqa	%xmm0, 48(%rsp)
	movdqa	%xmm0, 64(%rsp)
	movdqa	%xmm0, 80(%rsp)
	xorl	%eax, %eax
2:
	xorps	.L1_x86_CPI60_0(%rip), %xmm1
	movaps	112(%rsp), %xmm0
	xorps	.L1_x86_CPI60_1(%rip), %xmm0
	movups	%xmm0, (%rbx)
	movups	%xmm1, 16(%rbx)
	movups	%xmm0, 32(%rbx)
	movups	%xmm1, 48(%rbx)
	movq	$0, 64(%rbx)
	movw	%ax, 72(%rbx)
	movw	%ax, 74(%rbx)
	movw	%r13w, 76(%rbx)
	movw	$0, 78(%rbx)
	movaps	(%rsp), %xmm0
	movaps	16(%rsp), %xmm1
	movaps	32(%rsp), %xmm2
	movaps	48(%rsp), %xmm3
	movups	%xmm0, 80(%rbx)
	movups	%xmm1, 96(%rbx)
	movups	%xmm2, 112(%rbx)
	movups	%xmm3, 128(%rbx)
	movaps	64(%rsp), %xmm0
	movaps	80(%rsp), %xmm1
	movups	%xmm0, 144(%rbx)
	movups	%xmm1, 160(%rbx)
3:
	movl	%ebp, %eax
	addq	$152, %rsp
	popq	%rbx
	popq	%r12
	popq	%r13
	popq	%r14
	popq	%r15
	popq	%rbp
	retq
	vj_end	b2sum..hashes..init_state..5100c9fa7e8d9213_1_x86

	vj_function	blake2_state..blake2s..State..absorb_blocks_1_x86
	pushq	%rbp
	pushq	%r15
	pushq	%r14
	pushq	%r13
	pushq	%r12
	pushq	%rbx
	subq	$104, %rsp
	movq	%rsi, %r14
	movq	%rdi, %rbx
	movzwl	72(%rdi), %r13d
	movl	$64, %r12d
	subq	%r13, %r12
	movq	%rdx, %rbp
	subq	%r12, %rbp
	jbe	1f
	movq	64(%rbx), %r8
	movups	(%rbx), %xmm0
	movups	16(%rbx), %xmm1
	movups	32(%rbx), %xmm2
	movups	48(%rbx), %xmm3
	xorl	%eax, %eax
	cmpw	$0, 78(%rbx)
	setne	%al
	movaps	%xmm0, 16(%rsp)
	movaps	%xmm1, 32(%rsp)
	movaps	%xmm2, 48(%rsp)
	movaps	%xmm3, 64(%rsp)
	movq	%r8, 80(%rsp)
	movq	%rax, 88(%rsp)
	leaq	80(%rbx), %r15
	testq	%r13, %r13
	je	9f
	leaq	(%r15,%r13), %rdi
	movq	%rdi, %rax
	subq	%r14, %rax
	cmpq	%r12, %rax
	jae	10f
	cmpl	$4, %r12d
	jae	11f
	xorl	%eax, %eax
	jmp	22f
1:
	leaq	(%rbx,%r13), %rdi
	addq	$80, %rdi
	movq	%rdi, %rax
	subq	%r14, %rax
	cmpq	%rdx, %rax
	jae	7f
	cmpq	$4, %rdx
	jb	2f
	leaq	(%rbx,%r13), %rax
	subq	%r14, %rax
	addq	$80, %rax
	cmpq	$32, %rax
	jae	12f
2:
	xorl	%eax, %eax
3:
	movq	%rdx, %rsi
	movq	%rax, %rcx
	andq	$3, %rsi
	je	5f
	movq	%rax, %rcx
	.p2align	4
4:
	movzbl	(%r14,%rcx), %r8d
	movb	%r8b, (%rdi,%rcx)
	incq	%rcx
	decq	%rsi
	jne	4b
5:
	subq	%rdx, %rax
	cmpq	$-4, %rax
	ja	8f
	leaq	(%rbx,%r13), %rax
	addq	$83, %rax
	.p2align	4
6:
	movzbl	(%r14,%rcx), %esi
	movb	%sil, -3(%rax,%rcx)
	movzbl	1(%r14,%rcx), %esi
	movb	%sil, -2(%rax,%rcx)
	movzbl	2(%r14,%rcx), %esi
	movb	%sil, -1(%rax,%rcx)
	movzbl	3(%r14,%rcx), %esi
	movb	%sil, (%rax,%rcx)
	addq	$4, %rcx
	cmpq	%rcx, %rdx
	jne	6b
	jmp	8f
7:
	movq	%r14, %rsi
	movq	%rdx, %r14
	vj_c_call	memmove
	movq	%r14, %rdx
8:
	addl	%r13d, %edx
	movw	%dx, 72(%rbx)
	jmp	36f
9:
	movq	%rdx, %rbp
	jmp	24f
10:
	movq	%r14, %rsi
	movq	%r12, %rdx
	movq	%r8, %r13
	vj_c_call	memmove
	movq	%r13, %r8
	jmp	23f
11:
	leaq	(%rbx,%r13), %rax
	subq	%r14, %rax
	addq	$80, %rax
	cmpq	$32, %rax
	jae	13f
	xorl	%eax, %eax
	jmp	22f
12:
	cmpq	$32, %rdx
	jae	14f
	xorl	%eax, %eax
	jmp	16f
13:
	cmpl	$32, %r12d
	jae	18f
	xorl	%eax, %eax
	jmp	20f
14:
	movq	%rdx, %rax
	andq	$-32, %rax
	leaq	(%rbx,%r13), %rcx
	addq	$96, %rcx
	xorl	%esi, %esi
	.p2align	4
15:
	movups	(%r14,%rsi), %xmm0
	movups	16(%r14,%rsi), %xmm1
	movups	%xmm0, -16(%rcx,%rsi)
	movups	%xmm1, (%rcx,%rsi)
	addq	$32, %rsi
	cmpq	%rsi, %rax
	jne	15b
	cmpq	%rax, %rdx
	je	8b
	testb	$28, %dl
	je	3b
16:
	movq	%rax, %rcx
	movq	%rdx, %rax
	andq	$-4, %rax
	.p2align	4
17:
	movl	(%r14,%rcx), %esi
	movl	%esi, (%rdi,%rcx)
	addq	$4, %rcx
	cmpq	%rcx, %rax
	jne	17b
	cmpq	%rax, %rdx
	je	8b
	jmp	3b
18:
	movq	%r12, %rax
	andq	$-32, %rax
	leaq	(%rbx,%r13), %rcx
	addq	$96, %rcx
	xorl	%edx, %edx
	.p2align	4
19:
	movups	(%r14,%rdx), %xmm0
	movups	16(%r14,%rdx), %xmm1
	movups	%xmm0, -16(%rcx,%rdx)
	movups	%xmm1, (%rcx,%rdx)
	addq	$32, %rdx
	cmpq	%rdx, %rax
	jne	19b
	cmpl	%eax, %r12d
	je	23f
	testb	$28, %r12b
	je	22f
20:
	movq	%rax, %rcx
	movq	%r12, %rax
	andq	$-4, %rax
	.p2align	4
21:
	movl	(%r14,%rcx), %edx
	movl	%edx, (%rdi,%rcx)
	addq	$4, %rcx
	cmpq	%rcx, %rax
	jne	21b
	cmpl	%eax, %r12d
	je	23f
	.p2align	4
22:
	movzbl	(%r14,%rax), %ecx
	movb	%cl, (%rdi,%rax)
	incq	%rax
	cmpq	%rax, %r12
	jne	22b
23:
	addq	%r12, %r14
	addq	$64, %r8
	movq	%r8, 80(%rsp)
	leaq	16(%rsp), %rdi
	movq	%r15, %rsi
	movq	%r8, %rdx
	xorl	%ecx, %ecx
	xorl	%r8d, %r8d
	vj_call	blake2_compress..compress..blake2s..compress_1_x86
24:
	cmpq	$1, %rbp
	movq	%rbp, 8(%rsp)
	movq	%rbp, %r13
	adcq	$-1, %r13
	movq	%r13, %rbp
	andq	$-64, %rbp
	shrq	$6, %r13
	je	26f
	movq	%r14, %r12
	.p2align	4
25:
	movq	80(%rsp), %rdx
	addq	$64, %rdx
	movq	%rdx, 80(%rsp)
	leaq	16(%rsp), %rdi
	movq	%r12, %rsi
	xorl	%ecx, %ecx
	xorl	%r8d, %r8d
	vj_call	blake2_compress..compress..blake2s..compress_1_x86
	addq	$64, %r12
	decq	%r13
	jne	25b
26:
	leaq	(%r14,%rbp), %rsi
	movq	8(%rsp), %r12
	subq	%rbp, %r12
	xorps	%xmm0, %xmm0
	movups	%xmm0, 48(%r15)
	movups	%xmm0, 32(%r15)
	movups	%xmm0, 16(%r15)
	movups	%xmm0, (%r15)
	movq	%r15, %rax
	subq	%rsi, %rax
	cmpq	%r12, %rax
	jae	27f
	cmpq	$4, %r12
	jae	28f
	xorl	%eax, %eax
	jmp	34f
27:
	movq	%r15, %rdi
	movq	%r12, %rdx
	vj_c_call	memmove
	jmp	35f
28:
	movq	%rbx, %rax
	subq	%rsi, %rax
	addq	$80, %rax
	cmpq	$32, %rax
	jae	29f
	xorl	%eax, %eax
	jmp	34f
29:
	cmpq	$32, %r12
	jae	30f
	xorl	%eax, %eax
	jmp	32f
30:
	movq	8(%rsp), %rdx
	movl	%edx, %ecx
	andl	$31, %ecx
	movq	%r12, %rax
	subq	%rcx, %rax
	andq	$-32, %rdx
	subq	%rbp, %rdx
	leaq	(%r14,%rbp), %rdi
	addq	$16, %rdi
	xorl	%r8d, %r8d
	.p2align	4
31:
	movups	-16(%rdi,%r8), %xmm0
	movups	(%rdi,%r8), %xmm1
	movups	%xmm0, 80(%rbx,%r8)
	movups	%xmm1, 96(%rbx,%r8)
	addq	$32, %r8
	cmpq	%r8, %rdx
	jne	31b
	testq	%rcx, %rcx
	je	35f
	cmpl	$4, %ecx
	jb	34f
32:
	movq	%rax, %rcx
	movq	8(%rsp), %rdi
	andl	$3, %edi
	movq	%r12, %rax
	subq	%rdi, %rax
	.p2align	4
33:
	movl	(%rsi,%rcx), %edx
	movl	%edx, (%r15,%rcx)
	addq	$4, %rcx
	cmpq	%rcx, %rax
	jne	33b
	testq	%rdi, %rdi
	je	35f
	.p2align	4
34:
	movzbl	(%rsi,%rax), %ecx
	movb	%cl, (%r15,%rax)
	incq	%rax
	cmpq	%rax, %r12
	jne	34b
35:
	movw	%r12w, 72(%rbx)
	movaps	16(%rsp), %xmm0
	movups	%xmm0, (%rbx)
	movaps	32(%rsp), %xmm0
	movups	%xmm0, 16(%rbx)
	movq	80(%rsp), %rax
	movq	%rax, 64(%rbx)
36:
	addq	$104, %rsp
	popq	%rbx
	popq	%r12
	popq	%r13
	popq	%r14
	popq	%r15
	popq	%rbp
	retq
	vj_end	blake2_state..blake2s..State..absorb_blocks_1_x86

	vj_function	b2sum..states..blake2s..StateHashState..write_digest_1_x86
	pushq	%r15
	pushq	%r14
	pushq	%rbx
	subq	$192, %rsp
	movq	%rsi, %rbx
	movq	%rdi, %r14
	movups	(%rdi), %xmm0
	movups	16(%rdi), %xmm1
	movaps	%xmm0, (%rsp)
	movaps	%xmm1, 16(%rsp)
	movzwl	72(%rdi), %r15d
	leaq	80(%rdi), %rsi
	xorps	%xmm0, %xmm0
	movaps	%xmm0, 80(%rsp)
	movaps	%xmm0, 64(%rsp)
	movaps	%xmm0, 48(%rsp)
	movaps	%xmm0, 32(%rsp)
	leaq	32(%rsp), %rdi
	movq	%r15, %rdx
	vj_c_call	memcpy
	movaps	32(%rsp), %xmm0
	movaps	48(%rsp), %xmm1
	movaps	64(%rsp), %xmm2
	movaps	80(%rsp), %xmm3
	movaps	%xmm0, 128(%rsp)
	movaps	%xmm1, 144(%rsp)
	movaps	%xmm2, 160(%rsp)
	movaps	%xmm3, 176(%rsp)
	xorl	%r8d, %r8d
	cmpw	$0, 78(%r14)
	setne	%r8b
	addq	64(%r14), %r15
	movq	%rsp, %rdi
	leaq	128(%rsp), %rsi
	movq	%r15, %rdx
	movl	$1, %ecx
	vj_call	blake2_compress..compress..blake2s..compress_1_x86
	movaps	(%rsp), %xmm0
	movaps	16(%rsp), %xmm1
	movaps	%xmm0, 96(%rsp)
	movaps	%xmm1, 112(%rsp)
	movzwl	76(%r14), %edx
	leaq	96(%rsp), %rsi
	movq	%rbx, %rdi
	vj_c_call	memcpy
	addq	$192, %rsp
	popq	%rbx
	popq	%r14
	popq	%r15
	retq
	vj_end	b2sum..states..blake2s..StateHashState..write_digest_1_x86

	vj_constants	16
	.p2align	4, 0x0
.L1_x86_CPI63_0:
	.quad	5840696475078001361
	.quad	-7276294671716946913
.L1_x86_CPI63_1:
	.quad	2270897969802886507
	.quad	6620516959819538809
.L1_x86_CPI63_2:
	.quad	7640891576956012808
	.quad	-4942790177534073029
.L1_x86_CPI63_3:
	.quad	4354685564936828970
	.quad	-6534734903238641935
.L1_x86_CPI63_4:
	.quad	4354685564936828971
	.quad	-6534734903238641935
.L1_x86_CPI63_5:
	.quad	4354685564936828971
	.quad	4354685564936828971
.L1_x86_CPI63_6:
	.quad	-6534734903238641935
	.quad	-6534734903238641935
.L1_x86_CPI63_7:
	.quad	5840696475078001361
	.quad	5840696475078001361
	vj_function	b2sum..hashes..init_state..782804cb012a25f7_1_x86
	pushq	%rbp
	movq	%rsp, %rbp
	pushq	%r15
	pushq	%r14
	pushq	%r13
	pushq	%r12
	pushq	%rbx
	andq	$-32, %rsp
	subq	$1824, %rsp
	movq	%rdi, %rbx
	movq	(%rsi), %rdi
	movq	16(%rsi), %r8
	movq	32(%rsi), %r13
	movq	48(%rsi), %r12
	leaq	-1(%rdi), %rax
	cmpq	$64, %rax
	setb	%al
	cmpq	$65, %r8
	setb	%cl
	cmpq	$17, %r13
	setb	%dl
	andb	%cl, %dl
	andb	%al, %dl
	cmpq	$17, %r12
	setb	%al
	andb	%dl, %al
	cmpb	$1, %al
	jne	3f
	movq	%rdi, 232(%rsp)
	movb	%al, 23(%rsp)
	movq	40(%rsi), %r14
	movq	8(%rsi), %rax
	movq	%rax, 24(%rsp)
	movq	%r8, 160(%rsp)
	movq	24(%rsi), %r15
	xorps	%xmm0, %xmm0
	movaps	%xmm0, 400(%rsp)
	movaps	%xmm0, 384(%rsp)
	leaq	384(%rsp), %rdi
	movq	%r15, %rsi
	movq	%r13, %rdx
	vj_c_call	memcpy
	leaq	400(%rsp), %rdi
	movq	%r14, %rsi
	movq	%r12, %rdx
	vj_c_call	memcpy
	movaps	384(%rsp), %xmm0
	movaps	%xmm0, 176(%rsp)
	movaps	400(%rsp), %xmm0
	movaps	%xmm0, 208(%rsp)
	xorps	%xmm0, %xmm0
	movaps	%xmm0, 400(%rsp)
	movaps	%xmm0, 384(%rsp)
	leaq	384(%rsp), %rdi
	movq	%r15, %rsi
	movq	160(%rsp), %r15
	movq	%r13, %rdx
	vj_c_call	memcpy
	leaq	400(%rsp), %rdi
	movq	%r14, %rsi
	movq	%r12, %rdx
	vj_c_call	memcpy
	movaps	384(%rsp), %xmm0
	movaps	%xmm0, 240(%rsp)
	movaps	400(%rsp), %xmm0
	movaps	%xmm0, 192(%rsp)
	xorps	%xmm0, %xmm0
	movaps	%xmm0, 32(%rsp)
	movaps	%xmm0, 48(%rsp)
	movaps	%xmm0, 64(%rsp)
	movaps	%xmm0, 80(%rsp)
	movaps	%xmm0, 96(%rsp)
	movaps	%xmm0, 112(%rsp)
	movaps	%xmm0, 128(%rsp)
	movaps	%xmm0, 144(%rsp)
	leaq	32(%rsp), %rdi
	movq	24(%rsp), %rsi
	movq	%r15, %rdx
	vj_c_call	memcpy
	testq	%r15, %r15
	je	1f
	movaps	144(%rsp), %xmm0
	movaps	%xmm0, 496(%rsp)
	movaps	128(%rsp), %xmm1
	movaps	%xmm1, 480(%rsp)
	movaps	112(%rsp), %xmm2
	movaps	%xmm2, 464(%rsp)
	movaps	96(%rsp), %xmm3
	movaps	%xmm3, 448(%rsp)
	movaps	32(%rsp), %xmm4
	movaps	48(%rsp), %xmm5
	movaps	64(%rsp), %xmm6
	movaps	80(%rsp), %xmm7
	movaps	%xmm7, 432(%rsp)
	movaps	%xmm6, 416(%rsp)
	movaps	%xmm5, 400(%rsp)
	movaps	%xmm4, 384(%rsp)
	movaps	%xmm4, 512(%rsp)
	movaps	%xmm5, 528(%rsp)
	movaps	%xmm6, 544(%rsp)
	movaps	%xmm7, 560(%rsp)
	movaps	%xmm3, 576(%rsp)
	movaps	%xmm2, 592(%rsp)
	movaps	%xmm1, 608(%rsp)
	movaps	%xmm0, 624(%rsp)
	movaps	144(%rsp), %xmm0
	movaps	%xmm0, 752(%rsp)
	movaps	128(%rsp), %xmm1
	movaps	%xmm1, 736(%rsp)
	movaps	112(%rsp), %xmm2
	movaps	%xmm2, 720(%rsp)
	movaps	96(%rsp), %xmm3
	movaps	%xmm3, 704(%rsp)
	movaps	32(%rsp), %xmm4
	movaps	48(%rsp), %xmm5
	movaps	64(%rsp), %xmm6
	movaps	80(%rsp), %xmm7
	movaps	%xmm7, 688(%rsp)
	movaps	%xmm6, 672(%rsp)
	movaps	%xmm5, 656(%rsp)
	movaps	%xmm4, 640(%rsp)
	movaps	%xmm0, 880(%rsp)
	movaps	%xmm1, 864(%rsp)
	movaps	%xmm2, 848(%rsp)
	movaps	%xmm3, 832(%rsp)
	movaps	%xmm7, 816(%rsp)
	movaps	%xmm6, 800(%rsp)
	movaps	%xmm5, 784(%rsp)
	movaps	%xmm4, 768(%rsp)
	leaq	1416(%rsp), %rdi
	movl	$384, %edx
	xorl	%esi, %esi
	vj_c_call	memset
	leaq	904(%rsp), %rdi
	leaq	384(%rsp), %rsi
	movl	$512, %eax
	movq	%rax, 24(%rsp)
	movl	$512, %edx
	vj_c_call	memcpy
	jmp	2f
1:
	leaq	904(%rsp), %rdi
	movq	$0, 24(%rsp)
	movl	$896, %edx
	xorl	%esi, %esi
	vj_c_call	memset
2:
	movdqa	.L1_x86_CPI63_0(%rip), %xmm1
	movdqa	240(%rsp), %xmm0
	pxor	%xmm1, %xmm0
	movdqa	%xmm0, 368(%rsp)
	movdqa	.L1_x86_CPI63_1(%rip), %xmm0
	movdqa	192(%rsp), %xmm2
	pxor	%xmm0, %xmm2
	movdqa	%xmm2, 192(%rsp)
	shll	$8, %r15d
	movq	232(%rsp), %r14
	leal	(%r15,%r14), %eax
	addl	$33816576, %eax
	movd	%eax, %xmm2
	pxor	.L1_x86_CPI63_2(%rip), %xmm2
	movdqa	%xmm2, 352(%rsp)
	movdqa	.L1_x86_CPI63_4(%rip), %xmm3
	pshufd	$68, %xmm2, %xmm4
	movdqa	%xmm4, 160(%rsp)
	movdqu	%xmm4, (%rbx)
	movq	%xmm2, 16(%rbx)
	movdqu	%xmm2, 24(%rbx)
	movabsq	$-4942790177534073032, %r15
	leaq	2(%r15), %rax
	movq	%rax, 40(%rbx)
	leaq	1(%r15), %rax
	movq	%rax, 48(%rbx)
	movq	%r15, 56(%rbx)
	movaps	.L1_x86_CPI63_5(%rip), %xmm2
	movups	%xmm2, 64(%rbx)
	movabsq	$4354685564936828971, %r12
	movq	%r12, 80(%rbx)
	movdqa	%xmm3, %xmm2
	movdqu	%xmm3, 88(%rbx)
	movaps	.L1_x86_CPI63_6(%rip), %xmm3
	movups	%xmm3, 104(%rbx)
	movdqa	176(%rsp), %xmm3
	pxor	%xmm1, %xmm3
	movdqa	%xmm3, 176(%rsp)
	movdqa	%xmm3, %xmm1
	palignr	$8, %xmm2, %xmm1
	movdqa	%xmm1, 336(%rsp)
	movdqu	%xmm1, 120(%rbx)
	pshufd	$68, %xmm3, %xmm1
	movdqa	%xmm1, 320(%rsp)
	movdqu	%xmm1, 136(%rbx)
	movdqu	%xmm3, 152(%rbx)
	pshufd	$238, %xmm3, %xmm1
	movdqa	%xmm1, 304(%rsp)
	movdqu	%xmm1, 168(%rbx)
	movdqa	208(%rsp), %xmm1
	pxor	%xmm0, %xmm1
	movdqa	%xmm1, 208(%rsp)
	movdqa	%xmm1, %xmm0
	palignr	$8, %xmm3, %xmm0
	movdqa	%xmm0, 288(%rsp)
	movdqu	%xmm0, 184(%rbx)
	pshufd	$68, %xmm1, %xmm0
	movdqa	%xmm0, 272(%rsp)
	movdqu	%xmm0, 200(%rbx)
	movdqu	%xmm1, 216(%rbx)
	pshufd	$238, %xmm1, %xmm0
	movdqa	%xmm0, 256(%rsp)
	movdqu	%xmm0, 232(%rbx)
	pextrq	$1, %xmm1, 248(%rbx)
	movq	$0, 256(%rbx)
	movq	24(%rsp), %r13
	movq	%r13, 264(%rbx)
	leaq	272(%rbx), %rdi
	leaq	904(%rsp), %rsi
	movl	$896, %edx
	vj_c_call	memcpy
	movaps	160(%rsp), %xmm0
	movups	%xmm0, 1168(%rbx)
	movdqa	352(%rsp), %xmm1
	movq	%xmm1, 1184(%rbx)
	movdqu	%xmm1, 1192(%rbx)
	leaq	2(%r15), %rax
	movq	%rax, 1208(%rbx)
	leaq	1(%r15), %rax
	movq	%rax, 1216(%rbx)
	movq	%r15, 1224(%rbx)
	movaps	.L1_x86_CPI63_5(%rip), %xmm0
	movups	%xmm0, 1232(%rbx)
	movq	%r12, 1248(%rbx)
	movaps	.L1_x86_CPI63_4(%rip), %xmm0
	movups	%xmm0, 1256(%rbx)
	movaps	.L1_x86_CPI63_6(%rip), %xmm0
	movups	%xmm0, 1272(%rbx)
	movaps	336(%rsp), %xmm0
	movups	%xmm0, 1288(%rbx)
	movaps	320(%rsp), %xmm0
	movups	%xmm0, 1304(%rbx)
	movaps	176(%rsp), %xmm0
	movups	%xmm0, 1320(%rbx)
	movaps	304(%rsp), %xmm0
	movups	%xmm0, 1336(%rbx)
	movaps	288(%rsp), %xmm0
	movups	%xmm0, 1352(%rbx)
	movaps	272(%rsp), %xmm0
	movups	%xmm0, 1368(%rbx)
	movdqa	208(%rsp), %xmm3
	movdqu	%xmm3, 1384(%rbx)
	movaps	256(%rsp), %xmm0
	movups	%xmm0, 1400(%rbx)
	movdqa	.L1_x86_CPI63_3(%rip), %xmm2
	movdqa	%xmm2, %xmm0
	palignr	$8, %xmm1, %xmm0
	palignr	$8, %xmm3, %xmm1
	movdqu	%xmm1, 1416(%rbx)
	movdqu	%xmm0, 1432(%rbx)
	movdqa	240(%rsp), %xmm0
	pxor	.L1_x86_CPI63_7(%rip), %xmm0
	palignr	$8, %xmm2, %xmm0
	movdqu	%xmm0, 1448(%rbx)
	movdqa	192(%rsp), %xmm1
	movdqa	%xmm1, %xmm0
	palignr	$8, 368(%rsp), %xmm0
	movdqu	%xmm0, 1464(%rbx)
	pextrq	$1, %xmm1, 1480(%rbx)
	movq	%r13, 1488(%rbx)
	movq	%r14, 1496(%rbx)
	movaps	144(%rsp), %xmm0
	movups	%xmm0, 1616(%rbx)
	movaps	128(%rsp), %xmm0
	movups	%xmm0, 1600(%rbx)
	movaps	112(%rsp), %xmm0
	movups	%xmm0, 1584(%rbx)
	movaps	96(%rsp), %xmm0
	movups	%xmm0, 1568(%rbx)
	movaps	32(%rsp), %xmm0
	movaps	48(%rsp), %xmm1
	movaps	64(%rsp), %xmm2
	movaps	80(%rsp), %xmm3
	movups	%xmm3, 1552(%rbx)
	movups	%xmm2, 1536(%rbx)
	movups	%xmm1, 1520(%rbx)
	movups	%xmm0, 1504(%rbx)
	movzbl	23(%rsp), %eax
3:
	leaq	-40(%rbp), %rsp
	popq	%rbx
	popq	%r12
	popq	%r13
	popq	%r14
	popq	%r15
	popq	%rbp
	retq
	vj_end	b2sum..hashes..init_state..782804cb012a25f7_1_x86

	vj_constants	16
	.p2align	4, 0x0
.L1_x86_CPI64_0:
	.long	1359893119
	.long	2600822924
	.long	528734635
	.long	1541459225
.L1_x86_CPI64_1:
	.zero	2
	.zero	2
	.zero	2
	.zero	2
	.short	0
	.short	0
	.short	0
	.short	8193
.L1_x86_CPI64_2:
	.long	1779033703
	.long	3144134277
	.long	1013904242
	.long	2773480762
.L1_x86_CPI64_3:
	.zero	2
	.zero	2
	.zero	2
	.zero	2
	.short	0
	.short	0
	.short	0
	.short	8192
.L1_x86_CPI64_4:
	.long	1013904243
	.long	1013904240
	.long	1013904241
	.long	1013904246
	vj_function	b2sum..hashes..init_state..c5fd3bf45536a406_1_x86
	pushq	%rbp
	pushq	%r15
	pushq	%r14
	pushq	%r13
	pushq	%r12
	pushq	%rbx
	subq	$1720, %rsp
	movq	%rdi, %rbx
	movq	(%rsi), %rdi
	movq	16(%rsi), %r14
	movq	32(%rsi), %r12
	movq	48(%rsi), %r15
	leaq	-1(%rdi), %rax
	cmpq	$32, %rax
	setb	%al
	cmpq	$33, %r14
	setb	%cl
	cmpq	$9, %r12
	setb	%dl
	andb	%cl, %dl
	andb	%al, %dl
	cmpq	$9, %r15
	setb	%al
	andb	%dl, %al
	cmpb	$1, %al
	jne	3f
	movb	%al, 15(%rsp)
	movq	%rdi, 16(%rsp)
	movq	40(%rsi), %r13
	movq	8(%rsi), %rax
	movq	%rax, 96(%rsp)
	movq	24(%rsi), %rbp
	xorps	%xmm0, %xmm0
	movaps	%xmm0, 240(%rsp)
	leaq	240(%rsp), %rdi
	movq	%rbp, %rsi
	movq	%r12, %rdx
	vj_c_call	memcpy
	leaq	248(%rsp), %rdi
	movq	%r13, %rsi
	movq	%r15, %rdx
	vj_c_call	memcpy
	movaps	240(%rsp), %xmm0
	movaps	%xmm0, 112(%rsp)
	xorps	%xmm0, %xmm0
	movaps	%xmm0, 240(%rsp)
	leaq	240(%rsp), %rdi
	movq	%rbp, %rsi
	movq	%r12, %rdx
	vj_c_call	memcpy
	leaq	248(%rsp), %rdi
	movq	%r13, %rsi
	movq	%r15, %rdx
	vj_c_call	memcpy
	movaps	240(%rsp), %xmm0
	movaps	%xmm0, 128(%rsp)
	xorps	%xmm0, %xmm0
	movaps	%xmm0, 32(%rsp)
	movaps	%xmm0, 48(%rsp)
	movaps	%xmm0, 64(%rsp)
	movaps	%xmm0, 80(%rsp)
	leaq	32(%rsp), %rdi
	movq	96(%rsp), %rsi
	movq	%r14, %rdx
	vj_c_call	memcpy
	testq	%r14, %r14
	je	1f
	movaps	32(%rsp), %xmm0
	movaps	48(%rsp), %xmm1
	movaps	64(%rsp), %xmm2
	movaps	80(%rsp), %xmm3
	movaps	%xmm3, 288(%rsp)
	movaps	%xmm2, 272(%rsp)
	movaps	%xmm1, 256(%rsp)
	movaps	%xmm0, 240(%rsp)
	movaps	%xmm0, 304(%rsp)
	movaps	%xmm1, 320(%rsp)
	movaps	%xmm2, 336(%rsp)
	movaps	%xmm3, 352(%rsp)
	movaps	%xmm0, 368(%rsp)
	movaps	%xmm1, 384(%rsp)
	movaps	%xmm2, 400(%rsp)
	movaps	%xmm3, 416(%rsp)
	movaps	%xmm0, 432(%rsp)
	movaps	%xmm1, 448(%rsp)
	movaps	%xmm2, 464(%rsp)
	movaps	%xmm3, 480(%rsp)
	movaps	32(%rsp), %xmm0
	movaps	48(%rsp), %xmm1
	movaps	64(%rsp), %xmm2
	movaps	80(%rsp), %xmm3
	movaps	%xmm3, 544(%rsp)
	movaps	%xmm2, 528(%rsp)
	movaps	%xmm1, 512(%rsp)
	movaps	%xmm0, 496(%rsp)
	movaps	%xmm3, 608(%rsp)
	movaps	%xmm2, 592(%rsp)
	movaps	%xmm1, 576(%rsp)
	movaps	%xmm0, 560(%rsp)
	movaps	%xmm3, 672(%rsp)
	movaps	%xmm2, 656(%rsp)
	movaps	%xmm1, 640(%rsp)
	movaps	%xmm0, 624(%rsp)
	movaps	%xmm3, 736(%rsp)
	movaps	%xmm2, 720(%rsp)
	movaps	%xmm1, 704(%rsp)
	movaps	%xmm0, 688(%rsp)
	leaq	1272(%rsp), %rdi
	movl	$448, %edx
	xorl	%esi, %esi
	vj_c_call	memset
	leaq	760(%rsp), %rdi
	leaq	240(%rsp), %rsi
	movl	$512, %r15d
	movl	$512, %edx
	vj_c_call	memcpy
	jmp	2f
1:
	leaq	760(%rsp), %rdi
	xorl	%r15d, %r15d
	movl	$960, %edx
	xorl	%esi, %esi
	vj_c_call	memset
2:
	movq	16(%rsp), %r12
	movdqa	.L1_x86_CPI64_0(%rip), %xmm0
	movdqa	128(%rsp), %xmm1
	pxor	%xmm0, %xmm1
	movdqa	%xmm1, 128(%rsp)
	shll	$8, %r14d
	leal	(%r14,%r12), %eax
	addl	$34078720, %eax
	movd	%eax, %xmm1
	pmovzxdq	%xmm1, %xmm3
	movdqa	.L1_x86_CPI64_1(%rip), %xmm2
	pblendw	$15, %xmm3, %xmm2
	movdqa	.L1_x86_CPI64_2(%rip), %xmm1
	pblendw	$240, .L1_x86_CPI64_3(%rip), %xmm3
	pxor	%xmm1, %xmm2
	movdqa	%xmm2, 16(%rsp)
	pxor	%xmm1, %xmm3
	pshufd	$0, %xmm3, %xmm1
	movdqa	%xmm1, 96(%rsp)
	movdqu	%xmm1, (%rbx)
	movdqu	%xmm1, 16(%rbx)
	pshufd	$85, %xmm3, %xmm1
	movdqa	%xmm1, 224(%rsp)
	movdqu	%xmm1, 32(%rbx)
	movdqu	%xmm1, 48(%rbx)
	pextrd	$2, %xmm3, 64(%rbx)
	movdqa	%xmm3, 192(%rsp)
	movdqa	112(%rsp), %xmm1
	pxor	%xmm0, %xmm1
	movaps	.L1_x86_CPI64_4(%rip), %xmm0
	movups	%xmm0, 68(%rbx)
	movabsq	$4354685570269508471, %r14
	movq	%r14, 84(%rbx)
	movl	$1013904245, 92(%rbx)
	pshufd	$255, %xmm3, %xmm0
	movdqa	%xmm0, 112(%rsp)
	movdqu	%xmm0, 96(%rbx)
	movdqu	%xmm0, 112(%rbx)
	pshufd	$0, %xmm1, %xmm0
	movdqa	%xmm0, 208(%rsp)
	movdqu	%xmm0, 128(%rbx)
	movdqu	%xmm0, 144(%rbx)
	pshufd	$85, %xmm1, %xmm0
	movdqa	%xmm0, 176(%rsp)
	movdqu	%xmm0, 160(%rbx)
	movdqu	%xmm0, 176(%rbx)
	pshufd	$170, %xmm1, %xmm0
	movdqa	%xmm0, 160(%rsp)
	movdqu	%xmm0, 192(%rbx)
	movdqu	%xmm0, 208(%rbx)
	pshufd	$255, %xmm1, %xmm0
	movdqa	%xmm0, 144(%rsp)
	movdqu	%xmm0, 224(%rbx)
	movdqu	%xmm0, 240(%rbx)
	movq	$0, 256(%rbx)
	movq	%r15, 264(%rbx)
	leaq	272(%rbx), %rdi
	leaq	760(%rsp), %rsi
	movl	$960, %edx
	vj_c_call	memcpy
	movaps	96(%rsp), %xmm0
	movups	%xmm0, 1232(%rbx)
	movups	%xmm0, 1248(%rbx)
	movaps	224(%rsp), %xmm0
	movups	%xmm0, 1264(%rbx)
	movups	%xmm0, 1280(%rbx)
	movaps	192(%rsp), %xmm0
	extractps	$2, %xmm0, 1296(%rbx)
	movaps	.L1_x86_CPI64_4(%rip), %xmm0
	movups	%xmm0, 1300(%rbx)
	movq	%r14, 1316(%rbx)
	movl	$1013904245, 1324(%rbx)
	movaps	112(%rsp), %xmm0
	movups	%xmm0, 1328(%rbx)
	movups	%xmm0, 1344(%rbx)
	movaps	208(%rsp), %xmm0
	movups	%xmm0, 1360(%rbx)
	movups	%xmm0, 1376(%rbx)
	movaps	176(%rsp), %xmm0
	movups	%xmm0, 1392(%rbx)
	movups	%xmm0, 1408(%rbx)
	movaps	160(%rsp), %xmm0
	movups	%xmm0, 1424(%rbx)
	movups	%xmm0, 1440(%rbx)
	movaps	144(%rsp), %xmm0
	movups	%xmm0, 1456(%rbx)
	movups	%xmm0, 1472(%rbx)
	movaps	16(%rsp), %xmm0
	movups	%xmm0, 1488(%rbx)
	movaps	128(%rsp), %xmm0
	movups	%xmm0, 1504(%rbx)
	movq	%r15, 1520(%rbx)
	movq	%r12, 1528(%rbx)
	movaps	32(%rsp), %xmm0
	movaps	48(%rsp), %xmm1
	movaps	64(%rsp), %xmm2
	movaps	80(%rsp), %xmm3
	movups	%xmm3, 1584(%rbx)
	movups	%xmm2, 1568(%rbx)
	movups	%xmm1, 1552(%rbx)
	movups	%xmm0, 1536(%rbx)
	movzbl	15(%rsp), %eax
3:
	addq	$1720, %rsp
	popq	%rbx
	popq	%r12
	popq	%r13
	popq	%r14
	popq	%r15
	popq	%rbp
	retq
	vj_end	b2sum..hashes..init_state..c5fd3bf45536a406_1_x86

	vj_constants	16
	.p2align	4, 0x0
.L1_x86_CPI65_0:
	.short	64
	.short	512
	.zero	2
	.zero	2
	.zero	2
	.zero	2
	.zero	2
	.zero	2
.L1_x86_CPI65_1:
	.quad	7640891576956012808
	.quad	-4942790177534073029
.L1_x86_CPI65_2:
	.quad	4354685564936828971
	.quad	-6534734903238641935
.L1_x86_CPI65_3:
	.quad	2270897969802886507
	.quad	6620516959819538809
.L1_x86_CPI65_4:
	.quad	5840696475078001361
	.quad	-7276294671716946913
.L1_x86_CPI65_5:
	.short	64
	.short	512
	.short	0
	.short	0
	.short	0
	.short	0
	.short	0
	.short	0
	vj_export	b2sum..hashes..absorb_tree..5254a3ddd78d1e3f.proved_1_x86
	pushq	%rbp
	movq	%rsp, %rbp
	pushq	%r15
	pushq	%r14
	pushq	%r13
	pushq	%r12
	pushq	%rbx
	andq	$-32, %rsp
	subq	$896, %rsp
	movq	%r9, %rdx
	movq	%r8, %r14
	movq	%rcx, %r15
	movq	%rdi, %r13
	movq	688(%rcx), %rax
	movq	%rax, 32(%rsp)
	movq	696(%rcx), %rbx
	movq	128(%rcx), %r12
	movl	136(%rcx), %eax
	movq	%rax, 56(%rsp)
	movq	%r8, %rsi
	movq	%r9, 40(%rsp)
	callq	b2sum..disk..OpenedOpenFile..read..ec2583f154d97a77_1_x86
	testb	%al, %al
	je	1f
	xorl	%eax, %eax
	jmp	16f
1:
	addq	56(%rsp), %r12
	movabsq	$288230376151711743, %rsi
	imulq	32(%rsp), %rbx
	addq	%r12, %rbx
	subq	%rbx, %rsi
	movq	40(%rsp), %rbx
	movq	%r13, %r12
	movq	%r14, 72(%rsp)
	movq	%r13, 64(%rsp)
	movq	%r15, 80(%rsp)
	jmp	5f
	.p2align	4
2:
	movq	%r15, %rdi
	movq	%r13, %rsi
	callq	blake2_state..blake2b..State..absorb_blocks_1_x86
	movq	40(%rsp), %rbx
	movq	72(%rsp), %r14
	movq	64(%rsp), %r12
3:
	movq	48(%rsp), %rsi
	movq	24(%rsp), %r8
4:
	subq	%r8, %rsi
	movq	%r12, %rdi
	movq	%rsi, %r13
	movq	%r14, %rsi
	movq	%rbx, %rdx
	callq	b2sum..disk..OpenedOpenFile..read..ec2583f154d97a77_1_x86
	movq	24(%rsp), %r8
	movq	%r13, %rsi
	testb	%al, %al
	jne	15f
5:
	movq	%rdx, %r8
	leaq	-1(%rdx), %rax
	cmpq	%rsi, %rax
	jae	15f
	movq	696(%r15), %rcx
	movl	136(%r15), %eax
	movq	128(%r15), %rdx
	addq	%rax, %rdx
	subq	%rdx, %rcx
	cmpq	%rcx, %r8
	movq	%r8, 24(%rsp)
	jbe	10f
	movq	%rsi, 48(%rsp)
	movq	%r15, %rdi
	movq	%r14, %rsi
	movq	%r8, %rdx
	jmp	7f
	.p2align	4
6:
	movq	%r15, %rdi
	movq	%r13, %rsi
7:
	callq	blake2_state..tree..TreeState..close_leaf_1_x86
	movq	%rax, %r13
	movq	696(%r15), %r12
	cmpq	%rdx, %r12
	jae	9f
8:
	leaq	(,%r12,4), %rax
	cmpq	%rdx, %rax
	jae	6b
	movq	704(%r15), %rbx
	movq	712(%r15), %r14
	xorps	%xmm0, %xmm0
	movaps	%xmm0, 160(%rsp)
	leaq	160(%rsp), %rdi
	leaq	720(%r15), %rsi
	movq	%rsi, 112(%rsp)
	movq	%rdx, 32(%rsp)
	movq	%rbx, %rdx
	vj_c_call	memcpy
	xorps	%xmm0, %xmm0
	movaps	%xmm0, 176(%rsp)
	leaq	176(%rsp), %rdi
	leaq	736(%r15), %rsi
	movq	%rsi, 104(%rsp)
	movq	%r14, %rdx
	vj_c_call	memcpy
	movaps	160(%rsp), %xmm0
	movaps	%xmm0, 304(%rsp)
	movq	%rbx, 320(%rsp)
	movaps	176(%rsp), %xmm0
	leaq	328(%rsp), %rax
	movups	%xmm0, (%rax)
	movq	%r14, 344(%rsp)
	movl	%r12d, 352(%rsp)
	movl	$0, 356(%rsp)
	leaq	360(%rsp), %rbx
	movl	$512, %edx
	movq	%rbx, %rdi
	xorl	%esi, %esi
	vj_c_call	memset
	movq	688(%r15), %rsi
	leaq	304(%rsp), %rdi
	movq	%r13, %rdx
	movq	32(%rsp), %rcx
	movq	%rbx, %r8
	vj_call	blake2_tree..nodes..Nodes..hash_next_1_x86
	movq	%rax, %r14
	movq	696(%r15), %r12
	movq	%r12, %rax
	imulq	%r14, %rax
	movq	%rax, 120(%rsp)
	movq	%r14, %rbx
	shlq	$6, %rbx
	movq	%r13, 56(%rsp)
	movq	704(%r15), %rdx
	movq	712(%r15), %r13
	movq	%r13, 96(%rsp)
	xorps	%xmm0, %xmm0
	movaps	%xmm0, 192(%rsp)
	leaq	192(%rsp), %rdi
	movq	112(%rsp), %rsi
	movq	%rdx, %r15
	movq	%rdx, 88(%rsp)
	vj_c_call	memcpy
	xorps	%xmm0, %xmm0
	movaps	%xmm0, 208(%rsp)
	leaq	208(%rsp), %rdi
	movq	104(%rsp), %rsi
	movq	%r13, %rdx
	vj_c_call	memcpy
	movaps	192(%rsp), %xmm0
	movaps	%xmm0, 224(%rsp)
	movq	%r15, 240(%rsp)
	movq	80(%rsp), %r15
	movaps	208(%rsp), %xmm0
	leaq	248(%rsp), %rax
	movups	%xmm0, (%rax)
	movq	%r13, 264(%rsp)
	movl	%r12d, 272(%rsp)
	movl	$0, 276(%rsp)
	leaq	344(%r15), %rdi
	leaq	360(%rsp), %rsi
	movq	%rbx, %rdx
	callq	blake2_state..blake2b..State..absorb_blocks_1_x86
	movabsq	$288230376151711743, %rax
	andq	%rax, %r14
	addq	688(%r15), %r14
	movq	%r14, 688(%r15)
	xorps	%xmm0, %xmm0
	movaps	%xmm0, 144(%rsp)
	movaps	%xmm0, 128(%rsp)
	movd	%r12d, %xmm0
	movd	.L1_x86_CPI65_5(%rip), %xmm1
	punpckldq	%xmm0, %xmm1
	movq	%r14, %xmm0
	punpcklqdq	%xmm0, %xmm1
	movdqa	%xmm1, 288(%rsp)
	leaq	128(%rsp), %rdi
	leaq	224(%rsp), %rsi
	movq	88(%rsp), %rdx
	movq	56(%rsp), %r13
	vj_c_call	memcpy
	leaq	144(%rsp), %rdi
	leaq	248(%rsp), %rsi
	movq	96(%rsp), %rdx
	vj_c_call	memcpy
	movq	32(%rsp), %rdx
	movaps	128(%rsp), %xmm0
	movaps	144(%rsp), %xmm1
	movaps	288(%rsp), %xmm3
	xorps	.L1_x86_CPI65_1(%rip), %xmm3
	xorps	.L1_x86_CPI65_3(%rip), %xmm1
	movaps	.L1_x86_CPI65_2(%rip), %xmm2
	xorps	.L1_x86_CPI65_4(%rip), %xmm0
	movups	%xmm3, (%r15)
	movups	%xmm2, 16(%r15)
	movups	%xmm0, 32(%r15)
	movups	%xmm1, 48(%r15)
	movups	%xmm3, 64(%r15)
	movups	%xmm2, 80(%r15)
	movups	%xmm0, 96(%r15)
	movups	%xmm1, 112(%r15)
	leaq	128(%r15), %rax
	xorps	%xmm0, %xmm0
	movups	%xmm0, (%rax)
	movl	$64, 144(%r15)
	leaq	148(%r15), %rax
	movups	%xmm0, 176(%rax)
	movups	%xmm0, 160(%rax)
	movups	%xmm0, 144(%rax)
	movups	%xmm0, 128(%rax)
	movups	%xmm0, 112(%rax)
	movups	%xmm0, 96(%rax)
	movups	%xmm0, 80(%rax)
	movups	%xmm0, 64(%rax)
	movups	%xmm0, 48(%rax)
	movups	%xmm0, 32(%rax)
	movups	%xmm0, 16(%rax)
	movups	%xmm0, (%rax)
	movl	$0, 192(%rax)
	movq	120(%rsp), %rax
	addq	%rax, %r13
	subq	%rax, %rdx
	movq	696(%r15), %r12
	cmpq	%rdx, %r12
	jb	8b
9:
	cmpq	$1, %rdx
	jne	2b
	movl	136(%r15), %eax
	cmpq	$128, %rax
	movq	40(%rsp), %rbx
	movq	72(%rsp), %r14
	movq	64(%rsp), %r12
	jae	12f
	movzbl	(%r13), %ecx
	movb	%cl, 152(%r15,%rax)
	incl	%eax
	movl	%eax, 136(%r15)
	jmp	3b
	.p2align	4
10:
	cmpq	$1, %r8
	jne	11f
	cmpl	$128, %eax
	jae	13f
	movzbl	(%r14), %ecx
	movb	%cl, 152(%r15,%rax)
	incl	%eax
	movl	%eax, 136(%r15)
	jmp	4b
	.p2align	4
11:
	movq	%r15, %rdi
	movq	%rsi, %r13
	movq	%r14, %rsi
	movq	%r8, %rdx
	jmp	14f
12:
	movl	$1, %edx
	movq	%r15, %rdi
	movq	%r13, %rsi
	callq	blake2_state..blake2b..State..absorb_blocks_1_x86
	jmp	3b
13:
	movl	$1, %edx
	movq	%r15, %rdi
	movq	%rsi, %r13
	movq	%r14, %rsi
14:
	callq	blake2_state..blake2b..State..absorb_blocks_1_x86
	movq	24(%rsp), %r8
	movq	%r13, %rsi
	jmp	4b
15:
	testq	%r8, %r8
	sete	%al
16:
	leaq	-40(%rbp), %rsp
	popq	%rbx
	popq	%r12
	popq	%r13
	popq	%r14
	popq	%r15
	popq	%rbp
	retq
	vj_end	b2sum..hashes..absorb_tree..5254a3ddd78d1e3f.proved_1_x86

	vj_constants	16
	.p2align	4, 0x0
.L1_x86_CPI66_0:
	.short	64
	.short	512
	.zero	2
	.zero	2
	.zero	2
	.zero	2
	.zero	2
	.zero	2
.L1_x86_CPI66_1:
	.quad	7640891576956012808
	.quad	-4942790177534073029
.L1_x86_CPI66_2:
	.quad	4354685564936828971
	.quad	-6534734903238641935
.L1_x86_CPI66_3:
	.quad	2270897969802886507
	.quad	6620516959819538809
.L1_x86_CPI66_4:
	.quad	5840696475078001361
	.quad	-7276294671716946913
.L1_x86_CPI66_5:
	.short	64
	.short	512
	.short	0
	.short	0
	.short	0
	.short	0
	.short	0
	.short	0
	vj_function	blake2_state..tree..TreeState..close_leaf_1_x86
	pushq	%rbp
	movq	%rsp, %rbp
	pushq	%r15
	pushq	%r14
	pushq	%r13
	pushq	%r12
	pushq	%rbx
	andq	$-32, %rsp
	subq	$352, %rsp
	movq	%rdx, %rbx
	movq	%rsi, %r14
	movq	%rdi, %r15
	movq	696(%rdi), %r12
	movl	136(%rdi), %eax
	movq	128(%rdi), %rcx
	addq	%rax, %rcx
	subq	%rcx, %r12
	cmpq	$1, %r12
	jne	1f
	cmpl	$128, %eax
	jae	2f
	movzbl	(%r14), %ecx
	movb	%cl, 152(%r15,%rax)
	incl	%eax
	movl	%eax, 136(%r15)
	jmp	4f
1:
	movq	%r15, %rdi
	movq	%r14, %rsi
	movq	%r12, %rdx
	jmp	3f
2:
	movl	$1, %edx
	movq	%r15, %rdi
	movq	%r14, %rsi
3:
	callq	blake2_state..blake2b..State..absorb_blocks_1_x86
4:
	subq	%r12, %rbx
	movq	%rbx, 24(%rsp)
	addq	%r12, %r14
	movq	704(%r15), %r13
	leaq	720(%r15), %rsi
	movq	712(%r15), %r12
	movl	696(%r15), %ebx
	xorps	%xmm0, %xmm0
	movaps	%xmm0, 80(%rsp)
	leaq	80(%rsp), %rdi
	movq	%r13, %rdx
	vj_c_call	memcpy
	xorps	%xmm0, %xmm0
	movaps	%xmm0, 96(%rsp)
	leaq	96(%rsp), %rdi
	leaq	736(%r15), %rsi
	movq	%r12, %rdx
	vj_c_call	memcpy
	movaps	80(%rsp), %xmm0
	movaps	%xmm0, 112(%rsp)
	movq	%r13, 128(%rsp)
	movaps	96(%rsp), %xmm0
	movups	%xmm0, 136(%rsp)
	movq	%r12, 152(%rsp)
	movl	%ebx, 160(%rsp)
	movl	$0, 164(%rsp)
	movl	$0, 148(%r15)
	xorps	%xmm0, %xmm0
	movaps	%xmm0, 224(%rsp)
	movaps	%xmm0, 208(%rsp)
	movaps	%xmm0, 192(%rsp)
	movaps	%xmm0, 176(%rsp)
	leaq	176(%rsp), %rsi
	movq	%r15, %rdi
	callq	blake2_state..blake2b..State..write_digest_1_x86
	movaps	176(%rsp), %xmm0
	movaps	192(%rsp), %xmm1
	movaps	208(%rsp), %xmm2
	movaps	224(%rsp), %xmm3
	movaps	%xmm3, 304(%rsp)
	movaps	%xmm2, 288(%rsp)
	movaps	%xmm1, 272(%rsp)
	movaps	%xmm0, 256(%rsp)
	leaq	256(%rsp), %rsi
	movl	$64, %edx
	leaq	344(%r15), %rdi
	callq	blake2_state..blake2b..State..absorb_blocks_1_x86
	movq	688(%r15), %rax
	incq	%rax
	movq	%rax, 688(%r15)
	xorps	%xmm0, %xmm0
	movaps	%xmm0, 48(%rsp)
	movaps	%xmm0, 32(%rsp)
	movd	%ebx, %xmm0
	movd	.L1_x86_CPI66_5(%rip), %xmm1
	punpckldq	%xmm0, %xmm1
	movq	%rax, %xmm0
	punpcklqdq	%xmm0, %xmm1
	movdqa	%xmm1, 240(%rsp)
	leaq	32(%rsp), %rdi
	leaq	112(%rsp), %rsi
	movq	%r13, %rdx
	vj_c_call	memcpy
	leaq	48(%rsp), %rdi
	leaq	136(%rsp), %rsi
	movq	%r12, %rdx
	vj_c_call	memcpy
	movaps	32(%rsp), %xmm0
	movaps	48(%rsp), %xmm1
	movaps	240(%rsp), %xmm3
	xorps	.L1_x86_CPI66_1(%rip), %xmm3
	xorps	.L1_x86_CPI66_3(%rip), %xmm1
	movaps	.L1_x86_CPI66_2(%rip), %xmm2
	xorps	.L1_x86_CPI66_4(%rip), %xmm0
	movups	%xmm3, (%r15)
	movups	%xmm2, 16(%r15)
	movups	%xmm0, 32(%r15)
	movups	%xmm1, 48(%r15)
	movups	%xmm3, 64(%r15)
	movups	%xmm2, 80(%r15)
	movups	%xmm0, 96(%r15)
	movups	%xmm1, 112(%r15)
	leaq	128(%r15), %rax
	xorps	%xmm0, %xmm0
	movups	%xmm0, (%rax)
	movl	$64, 144(%r15)
	movups	%xmm0, 148(%r15)
	movups	%xmm0, 164(%r15)
	movups	%xmm0, 180(%r15)
	movups	%xmm0, 196(%r15)
	movups	%xmm0, 212(%r15)
	movups	%xmm0, 228(%r15)
	movups	%xmm0, 244(%r15)
	movups	%xmm0, 260(%r15)
	movups	%xmm0, 276(%r15)
	movups	%xmm0, 292(%r15)
	movups	%xmm0, 308(%r15)
	movups	%xmm0, 324(%r15)
	movl	$0, 340(%r15)
	movq	%r14, %rax
	movq	24(%rsp), %rdx
	leaq	-40(%rbp), %rsp
	popq	%rbx
	popq	%r12
	popq	%r13
	popq	%r14
	popq	%r15
	popq	%rbp
	retq
	vj_end	blake2_state..tree..TreeState..close_leaf_1_x86

	vj_function	b2sum_commands..check..push_digest_1_x86
	pushq	%rbp
	pushq	%r15
	pushq	%r14
	pushq	%r13
	pushq	%r12
	pushq	%rbx
	pushq	%rax
	movq	%rdi, %rbx
	movq	8(%rdi), %rdi
	movq	16(%rbx), %r8
	movq	%r8, %rax
	subq	%rdi, %rax
	cmpq	$11, %rax
	jbe	15f
1:
	leaq	8(%rbx), %r12
	movq	(%rbx), %rax
	xorps	%xmm0, %xmm0
	movups	%xmm0, (%r12)
	leaq	(%rax,%rdi), %r9
	addq	$12, %rdi
	movq	%r9, %r10
	subq	%rsi, %r10
	cmpq	$11, %r10
	ja	2f
	movzbl	(%rsi), %r10d
	movb	%r10b, (%r9)
	movzbl	1(%rsi), %r10d
	movb	%r10b, 1(%r9)
	movzbl	2(%rsi), %r10d
	movb	%r10b, 2(%r9)
	movzbl	3(%rsi), %r10d
	movb	%r10b, 3(%r9)
	movzbl	4(%rsi), %r10d
	movb	%r10b, 4(%r9)
	movzbl	5(%rsi), %r10d
	movb	%r10b, 5(%r9)
	movzbl	6(%rsi), %r10d
	movb	%r10b, 6(%r9)
	movzbl	7(%rsi), %r10d
	movb	%r10b, 7(%r9)
	movzbl	8(%rsi), %r10d
	movb	%r10b, 8(%r9)
	movzbl	9(%rsi), %r10d
	movb	%r10b, 9(%r9)
	movzbl	10(%rsi), %r10d
	movb	%r10b, 10(%r9)
	movzbl	11(%rsi), %esi
	movb	%sil, 11(%r9)
	jmp	3f
2:
	movq	(%rsi), %r10
	movl	8(%rsi), %esi
	movl	%esi, 8(%r9)
	movq	%r10, (%r9)
3:
	xorl	%r13d, %r13d
	movq	%rax, (%rbx)
	movq	%rdi, 8(%rbx)
	movq	%r8, 16(%rbx)
	movb	$1, %al
	testq	%rcx, %rcx
	cmovgq	%rcx, %r13
	js	28f
	je	4f
	movq	%r13, %r14
	addq	%r13, %r14
	js	28f
	movq	%rdx, %r12
	movq	%rcx, (%rsp)
	movl	$1, %esi
	movq	%r14, %rdi
	vj_call	rattle_alloc
	testb	$1, %al
	je	27f
	movq	%rdx, %r15
	leaq	-1(%r14), %rdx
	xorl	%ebp, %ebp
	movq	%r15, %rdi
	xorl	%esi, %esi
	vj_c_call	memset
	movb	$0, -1(%r15,%r14)
	movq	(%rsp), %rcx
	cmpq	$1, %rcx
	jne	5f
	movq	%r12, %rax
	leaq	8(%rbx), %r12
	jmp	7f
4:
	movq	%rdi, 8(%rbx)
	movq	%r8, 16(%rbx)
	cmpq	%rdi, %r8
	jne	18f
	jmp	19f
5:
	movabsq	$9223372036854775776, %rdx
	orq	$30, %rdx
	andq	%rcx, %rdx
	xorl	%ebp, %ebp
	movq	%r12, %rax
	.p2align	4
6:
	movzbl	(%rax,%rbp), %esi
	movl	%esi, %edi
	shrl	$4, %edi
	leaq	.L1_x86_static.189(%rip), %r8
	movzbl	(%rdi,%r8), %edi
	movb	%dil, (%r15,%rbp,2)
	andl	$15, %esi
	movzbl	(%rsi,%r8), %esi
	movb	%sil, 1(%r15,%rbp,2)
	movzbl	1(%rax,%rbp), %esi
	movl	%esi, %edi
	shrl	$4, %edi
	movzbl	(%rdi,%r8), %edi
	movb	%dil, 2(%r15,%rbp,2)
	andl	$15, %esi
	movzbl	(%rsi,%r8), %esi
	movb	%sil, 3(%r15,%rbp,2)
	addq	$2, %rbp
	cmpq	%rbp, %rdx
	jne	6b
	testb	$1, %cl
	leaq	8(%rbx), %r12
	je	8f
7:
	movzbl	(%rax,%rbp), %eax
	movl	%eax, %edx
	shrl	$4, %edx
	leaq	.L1_x86_static.189(%rip), %rsi
	movzbl	(%rdx,%rsi), %edx
	movb	%dl, (%r15,%rbp,2)
	andl	$15, %eax
	movzbl	(%rax,%rsi), %eax
	movb	%al, 1(%r15,%rbp,2)
8:
	movq	8(%rbx), %rax
	movq	16(%rbx), %r9
	movq	%r9, %rdx
	subq	%rax, %rdx
	cmpq	%rdx, %r14
	ja	25f
9:
	leaq	(%rax,%r14), %r10
	movq	(%rbx), %rbp
	xorps	%xmm0, %xmm0
	movups	%xmm0, (%r12)
	leaq	(%rax,%rbp), %rdi
	movq	%rdi, %rdx
	subq	%r15, %rdx
	cmpq	%r14, %rdx
	jae	16f
	cmpq	$2, %rcx
	jl	10f
	cmpq	$32, %rdx
	jae	20f
10:
	xorl	%ecx, %ecx
11:
	movq	%r14, %rsi
	movq	%rcx, %rdx
	andq	$2, %rsi
	je	13f
	movq	%rcx, %rdx
	.p2align	4
12:
	movzbl	(%r15,%rdx), %r8d
	movb	%r8b, (%rdi,%rdx)
	incq	%rdx
	decq	%rsi
	jne	12b
13:
	subq	%r14, %rcx
	cmpq	$-4, %rcx
	ja	17f
	addq	%rbp, %rax
	addq	$3, %rax
	.p2align	4
14:
	movzbl	(%r15,%rdx), %ecx
	movb	%cl, -3(%rax,%rdx)
	movzbl	1(%r15,%rdx), %ecx
	movb	%cl, -2(%rax,%rdx)
	movzbl	2(%r15,%rdx), %ecx
	movb	%cl, -1(%rax,%rdx)
	movzbl	3(%r15,%rdx), %ecx
	movb	%cl, (%rax,%rdx)
	addq	$4, %rdx
	cmpq	%rdx, %r14
	jne	14b
	jmp	17f
15:
	movq	%rsi, %r14
	movq	%rdx, %r15
	movq	%rcx, %r12
	movl	$12, %esi
	movq	%rbx, %rdi
	callq	std_alloc..vec..Vec..grow_amortized..01eec35b572d02af_1_x86
	movl	%eax, %ecx
	movb	$1, %al
	testb	%cl, %cl
	je	28f
	movq	8(%rbx), %rdi
	movq	16(%rbx), %r8
	movq	%r12, %rcx
	movq	%r15, %rdx
	movq	%r14, %rsi
	jmp	1b
16:
	movq	%r15, %rsi
	movq	%r14, %rdx
	movq	%r9, %r14
	movq	%r10, %r13
	vj_c_call	memmove
	movq	%r13, %r10
	movq	%r14, %r9
17:
	movq	%rbp, (%rbx)
	movq	%r10, 8(%rbx)
	movq	%r9, 16(%rbx)
	movq	%r15, %rdi
	vj_call	rattle_dealloc
	movq	8(%rbx), %rdi
	movq	16(%rbx), %r8
	cmpq	%rdi, %r8
	je	19f
18:
	movq	(%rbx), %rax
	movb	$10, (%rax,%rdi)
	incq	%rdi
	movq	%rdi, 8(%rbx)
	xorl	%eax, %eax
	jmp	28f
19:
	movl	$1, %esi
	movq	%rbx, %rdi
	callq	std_alloc..vec..Vec..grow_amortized..01eec35b572d02af_1_x86
	movl	%eax, %ecx
	movb	$1, %al
	testb	%cl, %cl
	je	28f
	movq	(%r12), %rdi
	jmp	18b
20:
	movabsq	$9223372036854775776, %rdx
	cmpq	$16, %rcx
	jge	21f
	xorl	%ecx, %ecx
	jmp	23f
21:
	movq	%r14, %rcx
	andq	%rdx, %rcx
	leaq	(%rax,%rbp), %rsi
	addq	$16, %rsi
	xorl	%r8d, %r8d
	.p2align	4
22:
	movups	(%r15,%r8), %xmm0
	movups	16(%r15,%r8), %xmm1
	movups	%xmm0, -16(%rsi,%r8)
	movups	%xmm1, (%rsi,%r8)
	addq	$32, %r8
	cmpq	%r8, %rcx
	jne	22b
	cmpq	%rcx, %r14
	je	17b
	testb	$14, %r13b
	je	11b
23:
	movq	%rcx, %rsi
	addq	$28, %rdx
	movq	%rdx, %rcx
	andq	%r14, %rcx
	.p2align	4
24:
	movl	(%r15,%rsi), %edx
	movl	%edx, (%rdi,%rsi)
	addq	$4, %rsi
	cmpq	%rsi, %rcx
	jne	24b
	cmpq	%rcx, %r14
	je	17b
	jmp	11b
25:
	movq	%rbx, %rdi
	movq	%r14, %rsi
	callq	std_alloc..vec..Vec..grow_amortized..01eec35b572d02af_1_x86
	testb	%al, %al
	je	26f
	movq	8(%rbx), %rax
	movq	16(%rbx), %r9
	movq	(%rsp), %rcx
	jmp	9b
26:
	movq	%r15, %rdi
	vj_call	rattle_dealloc
27:
	movb	$1, %al
28:
	addq	$8, %rsp
	popq	%rbx
	popq	%r12
	popq	%r13
	popq	%r14
	popq	%r15
	popq	%rbp
	retq
	vj_end	b2sum_commands..check..push_digest_1_x86

	vj_function	b2sum_lines..names..push_escaped_1_x86
	testq	%rdx, %rdx
	je	16f
	pushq	%rbp
	pushq	%r15
	pushq	%r14
	pushq	%r12
	pushq	%rbx
	movq	%rdx, %rbx
	movq	%rsi, %r14
	movq	%rdi, %r15
	movq	8(%rdi), %rax
	xorl	%r12d, %r12d
	jmp	4f
	.p2align	4
1:
	movq	%rcx, %rdx
	subq	%rax, %rdx
	cmpq	$1, %rdx
	jbe	10f
2:
	movq	(%r15), %rdx
	leaq	(%rdx,%rax), %rsi
	leaq	.L1_x86_static.194(%rip), %rdi
	movq	%rsi, %r8
	subq	%rdi, %r8
	cmpq	$1, %r8
	movw	$29276, (%rsi)
3:
	addq	$2, %rax
	movq	%rdx, (%r15)
	movq	%rax, 8(%r15)
	movq	%rcx, 16(%r15)
	incq	%r12
	cmpq	%r12, %rbx
	je	14f
4:
	movzbl	(%r14,%r12), %ebp
	movq	16(%r15), %rcx
	cmpl	$10, %ebp
	je	6f
	cmpl	$13, %ebp
	je	1b
	cmpl	$92, %ebp
	jne	8f
	movq	%rcx, %rdx
	subq	%rax, %rdx
	cmpq	$1, %rdx
	jbe	12f
5:
	movq	(%r15), %rdx
	movw	$23644, (%rdx,%rax)
	jmp	3b
	.p2align	4
6:
	movq	%rcx, %rdx
	subq	%rax, %rdx
	cmpq	$1, %rdx
	jbe	11f
7:
	movq	(%r15), %rdx
	leaq	(%rdx,%rax), %rsi
	leaq	.L1_x86_static.193(%rip), %rdi
	movq	%rsi, %r8
	subq	%rdi, %r8
	cmpq	$1, %r8
	movw	$28252, (%rsi)
	jmp	3b
	.p2align	4
8:
	cmpq	%rax, %rcx
	je	13f
9:
	movq	(%r15), %rcx
	movb	%bpl, (%rcx,%rax)
	incq	%rax
	movq	%rax, 8(%r15)
	incq	%r12
	cmpq	%r12, %rbx
	jne	4b
	jmp	14f
10:
	movl	$2, %esi
	movq	%r15, %rdi
	callq	std_alloc..vec..Vec..grow_amortized..01eec35b572d02af_1_x86
	testb	%al, %al
	je	17f
	movq	8(%r15), %rax
	movq	16(%r15), %rcx
	jmp	2b
11:
	movl	$2, %esi
	movq	%r15, %rdi
	callq	std_alloc..vec..Vec..grow_amortized..01eec35b572d02af_1_x86
	testb	%al, %al
	je	17f
	movq	8(%r15), %rax
	movq	16(%r15), %rcx
	jmp	7b
12:
	movl	$2, %esi
	movq	%r15, %rdi
	callq	std_alloc..vec..Vec..grow_amortized..01eec35b572d02af_1_x86
	testb	%al, %al
	je	17f
	movq	8(%r15), %rax
	movq	16(%r15), %rcx
	jmp	5b
13:
	movl	$1, %esi
	movq	%r15, %rdi
	callq	std_alloc..vec..Vec..grow_amortized..01eec35b572d02af_1_x86
	testb	%al, %al
	je	17f
	movq	8(%r15), %rax
	jmp	9b
14:
	xorl	%eax, %eax
15:
	popq	%rbx
	popq	%r12
	popq	%r14
	popq	%r15
	popq	%rbp
	retq
16:
	xorl	%eax, %eax
	retq
17:
	movb	$1, %al
	jmp	15b
	vj_end	b2sum_lines..names..push_escaped_1_x86

	vj_function	b2sum_commands..sealed_checks..read_list_from..fab5d8e6f6068f4d_1_x86
	pushq	%rbp
	pushq	%r15
	pushq	%r14
	pushq	%r13
	pushq	%r12
	pushq	%rbx
	subq	$312, %rsp
	movq	%r9, %r15
	movq	%r8, %r13
	movq	%rcx, %rbp
	movq	%rdx, 120(%rsp)
	movq	%rsi, %r12
	movq	%rdi, %rbx
	xorps	%xmm0, %xmm0
	movaps	%xmm0, 288(%rsp)
	movaps	%xmm0, 272(%rsp)
	movaps	%xmm0, 256(%rsp)
	movaps	%xmm0, 240(%rsp)
	movaps	%xmm0, 224(%rsp)
	movq	$0, 304(%rsp)
	movl	$65536, %edi
	movl	$1, %esi
	vj_call	rattle_alloc
	testb	$1, %al
	je	23f
	movq	%rdx, %r14
	movq	%rbp, 104(%rsp)
	movq	%r13, 112(%rsp)
	movq	%r12, 88(%rsp)
	movq	%r15, 96(%rsp)
	movq	%rbx, 40(%rsp)
	xorl	%ebx, %ebx
	movl	$65536, %edx
	movq	%r14, %rdi
	xorl	%esi, %esi
	vj_c_call	memset
	leaq	39(%rsp), %r12
	movq	%r12, 48(%rsp)
	xorps	%xmm0, %xmm0
	movups	%xmm0, 56(%rsp)
	xorl	%ebp, %ebp
	xorl	%r15d, %r15d
	.p2align	4
1:
	movl	$65536, %edx
	movq	120(%rsp), %rdi
	movq	%r14, %rsi
	callq	b2sum..disk..OpenedOpenFile..read..ec2583f154d97a77_1_x86
	testb	%al, %al
	jne	16f
	movq	%rdx, %r13
	testq	%rdx, %rdx
	je	18f
	movq	%rbp, %rax
	subq	%rbx, %rax
	cmpq	%rax, %r13
	ja	15f
2:
	leaq	(%r12,%rbx), %rdi
	movq	%rdi, %rax
	subq	%r14, %rax
	cmpq	%r13, %rax
	jae	8f
	cmpq	$4, %r13
	jb	3f
	movq	%rbx, %rax
	subq	%r14, %rax
	addq	%r12, %rax
	cmpq	$32, %rax
	jae	10f
3:
	xorl	%eax, %eax
4:
	movq	%r13, %rdx
	movq	%rax, %rcx
	andq	$3, %rdx
	je	6f
	movq	%rax, %rcx
	.p2align	4
5:
	movzbl	(%r14,%rcx), %esi
	movb	%sil, (%rdi,%rcx)
	incq	%rcx
	decq	%rdx
	jne	5b
6:
	subq	%r13, %rax
	cmpq	$-4, %rax
	ja	9f
	leaq	(%r12,%rbx), %rax
	addq	$3, %rax
	.p2align	4
7:
	movzbl	(%r14,%rcx), %edx
	movb	%dl, -3(%rax,%rcx)
	movzbl	1(%r14,%rcx), %edx
	movb	%dl, -2(%rax,%rcx)
	movzbl	2(%r14,%rcx), %edx
	movb	%dl, -1(%rax,%rcx)
	movzbl	3(%r14,%rcx), %edx
	movb	%dl, (%rax,%rcx)
	addq	$4, %rcx
	cmpq	%rcx, %r13
	jne	7b
	jmp	9f
	.p2align	4
8:
	movq	%r14, %rsi
	movq	%r13, %rdx
	vj_c_call	memmove
9:
	addq	%r13, %rbx
	movq	%rbx, 56(%rsp)
	movq	%rbp, 64(%rsp)
	cmpq	$268435456, %rbx
	ja	19f
	incq	%r15
	cmpq	$-1, %r15
	jne	1b
	jmp	26f
10:
	cmpq	$32, %r13
	jae	11f
	xorl	%eax, %eax
	jmp	13f
11:
	movq	%r13, %rax
	andq	$-32, %rax
	leaq	(%r12,%rbx), %rcx
	addq	$16, %rcx
	xorl	%edx, %edx
	.p2align	4
12:
	movups	(%r14,%rdx), %xmm0
	movups	16(%r14,%rdx), %xmm1
	movups	%xmm0, -16(%rcx,%rdx)
	movups	%xmm1, (%rcx,%rdx)
	addq	$32, %rdx
	cmpq	%rdx, %rax
	jne	12b
	cmpq	%rax, %r13
	je	9b
	testb	$28, %r13b
	je	4b
13:
	movq	%rax, %rcx
	movq	%r13, %rax
	andq	$-4, %rax
	.p2align	4
14:
	movl	(%r14,%rcx), %edx
	movl	%edx, (%rdi,%rcx)
	addq	$4, %rcx
	cmpq	%rcx, %rax
	jne	14b
	cmpq	%rax, %r13
	je	9b
	jmp	4b
15:
	leaq	48(%rsp), %rdi
	movq	%r13, %rsi
	callq	std_alloc..vec..Vec..grow_amortized..01eec35b572d02af_1_x86
	testb	%al, %al
	je	35f
	movq	48(%rsp), %r12
	movq	56(%rsp), %rbx
	movq	64(%rsp), %rbp
	jmp	2b
16:
	testq	%rbp, %rbp
	je	17f
	movq	%r12, %rdi
	vj_call	rattle_dealloc
17:
	movq	120(%rsp), %rdi
	cmpb	$1, 32(%rdi)
	movq	112(%rsp), %r8
	movq	104(%rsp), %rcx
	jne	29f
	movzbl	40(%rdi), %esi
	movzbl	41(%rdi), %eax
	movq	120(%rdi), %rdx
	movq	%rdx, 206(%rsp)
	movups	106(%rdi), %xmm0
	movaps	%xmm0, 192(%rsp)
	movups	90(%rdi), %xmm0
	movaps	%xmm0, 176(%rsp)
	movups	74(%rdi), %xmm0
	movaps	%xmm0, 160(%rsp)
	movups	58(%rdi), %xmm0
	movaps	%xmm0, 144(%rsp)
	movups	42(%rdi), %xmm0
	movaps	%xmm0, 128(%rsp)
	jmp	30f
18:
	movq	48(%rsp), %r15
	movq	%r14, %rdi
	vj_call	rattle_dealloc
	movq	40(%rsp), %rax
	movw	$0, (%rax)
	movq	$1, 8(%rax)
	movq	%r15, 16(%rax)
	movq	%rbx, 24(%rax)
	movq	%rbp, 32(%rax)
	jmp	25f
19:
	movq	48(%rsp), %r15
	xorps	%xmm0, %xmm0
	movaps	%xmm0, 64(%rsp)
	movaps	%xmm0, 48(%rsp)
	leaq	48(%rsp), %rdi
	movq	104(%rsp), %rsi
	movq	112(%rsp), %rdx
	callq	b2sum_commands..quoting..quoted_name_1_x86
	cmpb	$0, 48(%rsp)
	jne	21f
	movq	56(%rsp), %r12
	movq	64(%rsp), %r8
	movq	88(%rsp), %rax
	movq	(%rax), %rdi
	movq	8(%rax), %rsi
	movq	72(%rsp), %rbx
	leaq	.L1_x86_static.196(%rip), %rax
	movq	%rax, 8(%rsp)
	movq	$38, 16(%rsp)
	movq	$2, (%rsp)
	leaq	.L1_x86_static.123(%rip), %r9
	movq	96(%rsp), %rdx
	movq	%r12, %rcx
	callq	b2sum_commands..messages..warn..068f3e307c5390f2_1_x86
	movl	%eax, %r13d
	testq	%rbx, %rbx
	je	20f
	movq	%r12, %rdi
	vj_call	rattle_dealloc
20:
	testb	%r13b, %r13b
	je	33f
21:
	testq	%rbp, %rbp
	movq	40(%rsp), %rbx
	je	22f
	movq	%r15, %rdi
	vj_call	rattle_dealloc
22:
	movq	%r14, %rdi
	vj_call	rattle_dealloc
23:
	movw	$1, (%rbx)
24:
	xorps	%xmm0, %xmm0
	movups	%xmm0, 8(%rbx)
	movups	%xmm0, 24(%rbx)
25:
	addq	$312, %rsp
	popq	%rbx
	popq	%r12
	popq	%r13
	popq	%r14
	popq	%r15
	popq	%rbp
	retq
26:
	testq	%rbp, %rbp
	je	28f
27:
	movq	48(%rsp), %rdi
	vj_call	rattle_dealloc
28:
	movq	%r14, %rdi
	vj_call	rattle_dealloc
	movq	40(%rsp), %rax
	movw	$1, (%rax)
	xorps	%xmm0, %xmm0
	movups	%xmm0, 8(%rax)
	movups	%xmm0, 24(%rax)
	jmp	25b
29:
	xorps	%xmm0, %xmm0
	movaps	%xmm0, 192(%rsp)
	movaps	%xmm0, 176(%rsp)
	movaps	%xmm0, 160(%rsp)
	movaps	%xmm0, 144(%rsp)
	movaps	%xmm0, 128(%rsp)
	movq	$0, 206(%rsp)
	movb	$40, %al
	movb	$1, %sil
30:
	movq	40(%rsp), %rbx
	movq	96(%rsp), %rdx
	movq	88(%rsp), %rdi
	movb	%sil, 224(%rsp)
	movb	%al, 225(%rsp)
	movaps	128(%rsp), %xmm0
	movaps	144(%rsp), %xmm1
	movaps	160(%rsp), %xmm2
	movaps	176(%rsp), %xmm3
	movups	%xmm0, 226(%rsp)
	movups	%xmm1, 242(%rsp)
	movups	%xmm2, 258(%rsp)
	movups	%xmm3, 274(%rsp)
	movaps	192(%rsp), %xmm0
	movups	%xmm0, 290(%rsp)
	movq	206(%rsp), %rax
	movq	%rax, 304(%rsp)
	leaq	224(%rsp), %rsi
	callq	b2sum_commands..messages..warn_of_file..fab5d8e6f6068f4d_1_x86
	movl	%eax, %ebp
	movq	%r14, %rdi
	vj_call	rattle_dealloc
	leaq	8(%rbx), %rax
	testb	%bpl, %bpl
	je	31f
	movw	$1, (%rbx)
	jmp	32f
31:
	movw	$0, (%rbx)
32:
	xorps	%xmm0, %xmm0
	movups	%xmm0, 16(%rax)
	movups	%xmm0, (%rax)
	jmp	25b
33:
	testq	%rbp, %rbp
	movq	40(%rsp), %rbx
	je	34f
	movq	%r15, %rdi
	vj_call	rattle_dealloc
34:
	movq	%r14, %rdi
	vj_call	rattle_dealloc
	movw	$0, (%rbx)
	jmp	24b
35:
	cmpq	$0, 64(%rsp)
	jne	27b
	jmp	28b
	vj_end	b2sum_commands..sealed_checks..read_list_from..fab5d8e6f6068f4d_1_x86

	vj_function	b2sum_commands..seals..seal_line..d6b15712839574eb_1_x86
	pushq	%rbp
	pushq	%r15
	pushq	%r14
	pushq	%r13
	pushq	%r12
	pushq	%rbx
	subq	$504, %rsp
	movq	%rcx, %r14
	movq	%rdx, %r15
	movq	%rdi, %rbx
	xorps	%xmm0, %xmm0
	movaps	%xmm0, 144(%rsp)
	movaps	%xmm0, 128(%rsp)
	movaps	%xmm0, 112(%rsp)
	movaps	%xmm0, 96(%rsp)
	movq	24(%rsi), %rax
	movq	32(%rsi), %r13
	cmpq	$64, %r13
	movl	$64, %ecx
	cmovbq	%r13, %rcx
	movq	96(%rsi), %rdx
	movq	104(%rsi), %rsi
	cmpq	$16, %rsi
	movl	$16, %edi
	cmovbq	%rsi, %rdi
	movq	$64, 40(%rsp)
	movq	%rax, 48(%rsp)
	movq	%rcx, 56(%rsp)
	movq	%rdx, 64(%rsp)
	movq	%rdi, 72(%rsp)
	leaq	.L1_x86_static.199(%rip), %rax
	movq	%rax, 80(%rsp)
	movq	$12, 88(%rsp)
	leaq	160(%rsp), %r12
	movl	$344, %edx
	movq	%r12, %rdi
	xorl	%esi, %esi
	vj_c_call	memset
	leaq	40(%rsp), %rsi
	movq	%r12, %rdi
	callq	b2sum..hashes..init_state..a920819b086c025a_1_x86
	testb	%al, %al
	je	6f
	testq	%r13, %r13
	je	1f
	callq	blake2_digest..wiping..scrub_stack..4096_1_x86
1:
	cmpq	$1, %r14
	jne	2f
	movl	296(%rsp), %eax
	cmpq	$128, %rax
	jae	3f
	movzbl	(%r15), %ecx
	movb	%cl, 312(%rsp,%rax)
	incl	%eax
	movl	%eax, 296(%rsp)
	jmp	5f
2:
	leaq	160(%rsp), %rdi
	movq	%r15, %rsi
	movq	%r14, %rdx
	jmp	4f
3:
	leaq	160(%rsp), %rdi
	movl	$1, %edx
	movq	%r15, %rsi
4:
	callq	blake2_state..blake2b..State..absorb_blocks_1_x86
5:
	leaq	160(%rsp), %rdi
	leaq	96(%rsp), %rsi
	callq	blake2_state..blake2b..State..write_digest_1_x86
6:
	leaq	39(%rsp), %rax
	movq	%rax, 8(%rsp)
	xorps	%xmm0, %xmm0
	movups	%xmm0, 16(%rsp)
	leaq	8(%rsp), %rdi
	movl	$9, %esi
	callq	std_alloc..vec..Vec..grow_amortized..01eec35b572d02af_1_x86
	movq	24(%rsp), %r12
	testb	%al, %al
	je	9f
	movq	8(%rsp), %rdi
	movq	16(%rsp), %r13
	leaq	(%rdi,%r13), %rax
	addq	$9, %r13
	leaq	.L1_x86_static.197(%rip), %rcx
	movq	%rax, %rdx
	subq	%rcx, %rdx
	movabsq	$7234307542010241059, %rcx
	cmpq	$8, %rdx
	movq	%rcx, (%rax)
	movb	$32, 8(%rax)
	movq	%r13, 16(%rsp)
	movq	%r12, 24(%rsp)
	xorl	%ecx, %ecx
7:
	movq	%r15, %rax
	.p2align	4
8:
	testq	%r14, %r14
	je	10f
	leaq	1(%rax), %r15
	decq	%r14
	cmpb	$10, (%rax)
	movq	%r15, %rax
	jne	8b
	incq	%rcx
	jmp	7b
9:
	testq	%r12, %r12
	jne	18f
	jmp	21f
10:
	xorps	%xmm0, %xmm0
	movaps	%xmm0, 160(%rsp)
	movl	$0, 176(%rsp)
	movl	$19, %r14d
	cmpq	$10, %rcx
	jb	12f
	.p2align	4
11:
	movabsq	$-3689348814741910323, %rdx
	movq	%rcx, %rax
	mulq	%rdx
	shrq	$3, %rdx
	leal	(%rdx,%rdx), %eax
	leal	(%rax,%rax,4), %eax
	movl	%ecx, %esi
	subl	%eax, %esi
	orb	$48, %sil
	movb	%sil, 160(%rsp,%r14)
	decq	%r14
	cmpq	$99, %rcx
	movq	%rdx, %rcx
	ja	11b
	jmp	13f
12:
	movq	%rcx, %rdx
13:
	orb	$48, %dl
	movb	%dl, 160(%rsp,%r14)
	movl	$20, %edx
	subq	%r14, %rdx
	movq	%r12, %rax
	subq	%r13, %rax
	cmpq	%rax, %rdx
	ja	24f
14:
	leaq	(%rsp,%r14), %rsi
	addq	$160, %rsi
	addq	%r13, %rdi
	addq	%rdx, %r13
	vj_c_call	memcpy
	movq	%r13, 16(%rsp)
	movq	%r12, 24(%rsp)
	cmpq	%r13, %r12
	je	25f
15:
	movq	8(%rsp), %r15
	movb	$32, (%r15,%r13)
	incq	%r13
	movq	%r13, 16(%rsp)
	movq	%r12, 24(%rsp)
	movl	$1, %r13d
	movl	$128, %edi
	movl	$1, %esi
	vj_call	rattle_alloc
	testb	$1, %al
	je	19f
	movq	%rdx, %r14
	xorps	%xmm0, %xmm0
	movups	%xmm0, 112(%rdx)
	movups	%xmm0, 96(%rdx)
	movups	%xmm0, 80(%rdx)
	movups	%xmm0, 64(%rdx)
	movups	%xmm0, 48(%rdx)
	movups	%xmm0, 32(%rdx)
	movups	%xmm0, 16(%rdx)
	movups	%xmm0, (%rdx)
	.p2align	4
16:
	movzbl	95(%rsp,%r13), %eax
	movl	%eax, %ecx
	shrl	$4, %ecx
	leaq	.L1_x86_static.189(%rip), %rdx
	movzbl	(%rcx,%rdx), %ecx
	movb	%cl, -2(%r14,%r13,2)
	andl	$15, %eax
	movzbl	(%rax,%rdx), %eax
	movb	%al, -1(%r14,%r13,2)
	movzbl	96(%rsp,%r13), %eax
	movl	%eax, %ecx
	shrl	$4, %ecx
	movzbl	(%rcx,%rdx), %ecx
	movb	%cl, (%r14,%r13,2)
	andl	$15, %eax
	movzbl	(%rax,%rdx), %eax
	movb	%al, 1(%r14,%r13,2)
	addq	$2, %r13
	cmpq	$65, %r13
	jne	16b
	leaq	8(%rsp), %rdi
	movl	$128, %edx
	movq	%r14, %rsi
	callq	std_alloc..vec..Vec..extend_from_slice..0473daec321ef212_1_x86
	movl	%eax, %ebp
	movq	%r14, %rdi
	vj_call	rattle_dealloc
	testb	%bpl, %bpl
	jne	17f
	leaq	8(%rsp), %rdi
	movl	$10, %esi
	callq	std_alloc..vec..Vec..push..a891bc11159506cb_1_x86
	testb	%al, %al
	je	23f
17:
	cmpq	$0, 24(%rsp)
	je	21f
18:
	movq	8(%rsp), %rdi
	jmp	20f
19:
	testq	%r12, %r12
	je	21f
	movq	%r15, %rdi
20:
	vj_call	rattle_dealloc
21:
	movw	$1, (%rbx)
	xorps	%xmm0, %xmm0
	movups	%xmm0, 8(%rbx)
	movq	$0, 24(%rbx)
22:
	addq	$504, %rsp
	popq	%rbx
	popq	%r12
	popq	%r13
	popq	%r14
	popq	%r15
	popq	%rbp
	retq
23:
	movw	$0, (%rbx)
	movups	8(%rsp), %xmm0
	movups	%xmm0, 8(%rbx)
	movq	24(%rsp), %rax
	movq	%rax, 24(%rbx)
	jmp	22b
24:
	leaq	8(%rsp), %rdi
	movq	%rdx, %r15
	movq	%rdx, %rsi
	callq	std_alloc..vec..Vec..grow_amortized..01eec35b572d02af_1_x86
	testb	%al, %al
	je	17b
	movq	8(%rsp), %rdi
	movq	16(%rsp), %r13
	movq	24(%rsp), %r12
	movq	%r15, %rdx
	jmp	14b
25:
	leaq	8(%rsp), %rdi
	movl	$1, %esi
	callq	std_alloc..vec..Vec..grow_amortized..01eec35b572d02af_1_x86
	testb	%al, %al
	je	17b
	movq	16(%rsp), %r13
	movq	24(%rsp), %r12
	jmp	15b
	vj_end	b2sum_commands..seals..seal_line..d6b15712839574eb_1_x86

	vj_function	b2sum_commands..listed_ahead..go_on_in_list..432d41b752d14b0e_1_x86
	movq	24(%rdx), %rax
	movq	40(%rdx), %rcx
	movq	%rax, %r8
	incq	%r8
	movq	$-1, %r9
	cmovneq	%r8, %r9
	movq	%r9, 24(%rdx)
	cmpq	%rax, %rcx
	ja	1f
	cmpq	$0, 32(%rdi)
	jne	1f
	cmpb	$1, 216(%rdi)
	jne	2f
1:
	retq
2:
	pushq	%rbp
	pushq	%r15
	pushq	%r14
	pushq	%r13
	pushq	%r12
	pushq	%rbx
	subq	$312, %rsp
	movq	%rdx, 288(%rsp)
	movq	48(%rdx), %r13
	movq	(%rsi), %r8
	movq	8(%rsi), %r9
	movzbl	33(%rsi), %ecx
	movq	%rsi, %rbx
	movzbl	32(%rsi), %edx
	xorps	%xmm0, %xmm0
	movaps	%xmm0, 208(%rsp)
	movaps	%xmm0, 192(%rsp)
	movaps	%xmm0, 176(%rsp)
	movaps	%xmm0, 160(%rsp)
	movaps	%xmm0, 144(%rsp)
	leaq	144(%rsp), %rax
	movq	%rdi, %rsi
	movq	%rax, %rdi
	movq	%rsi, 40(%rsp)
	callq	b2sum_commands..check..read_item_1_x86
	cmpb	$0, 144(%rsp)
	jne	3f
	cmpb	$1, 152(%rsp)
	je	4f
3:
	addq	$312, %rsp
	popq	%rbx
	popq	%r12
	popq	%r13
	popq	%r14
	popq	%r15
	popq	%rbp
	retq
4:
	movzbl	216(%rsp), %eax
	leal	-1(%rax), %ecx
	cmpl	$2, %ecx
	jae	5f
	movb	$1, 16(%rsp)
	jmp	7f
5:
	testl	%eax, %eax
	jne	6f
	movzbl	32(%rbx), %eax
	movb	%al, 16(%rsp)
	jmp	7f
6:
	movb	$2, 16(%rsp)
7:
	movzbl	160(%rsp), %r12d
	movl	164(%rsp), %eax
	movl	%eax, 140(%rsp)
	movq	168(%rsp), %rax
	movq	%rax, 80(%rsp)
	movq	176(%rsp), %rax
	movq	%rax, 128(%rsp)
	movq	184(%rsp), %r15
	movq	192(%rsp), %rbp
	movq	208(%rsp), %r14
	movups	200(%rsp), %xmm0
	movaps	%xmm0, 96(%rsp)
	leaq	72(%rsp), %rax
	movq	%rax, 48(%rsp)
	xorps	%xmm0, %xmm0
	movups	%xmm0, 56(%rsp)
	leaq	48(%rsp), %rdi
	movl	$1, %esi
	callq	std_alloc..vec..Vec..grow_amortized..bb23d2d2a8e2d2e5_1_x86
	testb	%al, %al
	je	8f
	movl	%r12d, 76(%rsp)
	movq	48(%rsp), %r10
	movq	56(%rsp), %r12
	leaq	(%r12,%r12,2), %rax
	movq	%rbp, (%r10,%rax,8)
	movaps	96(%rsp), %xmm0
	movups	%xmm0, 8(%r10,%rax,8)
	incq	%r12
	movq	%r12, 56(%rsp)
	movq	24(%rbx), %rsi
	cmpq	%r13, %r12
	setae	%cl
	testq	%rsi, %rsi
	sete	%dl
	orb	%cl, %dl
	je	15f
	movq	40(%rsp), %rdi
	jmp	49f
8:
	movq	%r15, %r13
	testq	%r14, %r14
	je	9f
	movq	%rbp, %rdi
	vj_call	rattle_dealloc
9:
	movq	48(%rsp), %rbx
	movq	56(%rsp), %r15
	movq	64(%rsp), %r14
	testq	%r15, %r15
	je	12f
	leaq	16(%rbx), %r12
	jmp	11f
10:
	addq	$24, %r12
	decq	%r15
	je	12f
11:
	cmpq	$0, (%r12)
	je	10b
	movq	-16(%r12), %rdi
	vj_call	rattle_dealloc
	jmp	10b
12:
	testq	%r14, %r14
	je	13f
	movq	%rbx, %rdi
	vj_call	rattle_dealloc
13:
	testq	%r13, %r13
	je	3b
14:
	movq	80(%rsp), %rdi
	jmp	54f
15:
	movq	%rbx, %rax
	movq	16(%rbx), %r8
	movq	128(%rsp), %rdx
	leaq	(%rdx,%rdx), %rcx
	testq	%rdx, %rdx
	movq	$-1, %r9
	cmovnsq	%rcx, %r9
	movq	%r9, %rcx
	negq	%rcx
	movq	%rcx, 232(%rsp)
	movq	$-2, %rcx
	subq	%r9, %rcx
	leaq	18(%r9), %rdx
	movq	%rdx, 264(%rsp)
	movb	$2, %dl
	subb	%r9b, %dl
	leaq	5(%r9), %rdi
	movq	%rdi, 272(%rsp)
	movq	40(%rsp), %rdi
	movq	%r15, 32(%rsp)
16:
	xorl	%ebp, %ebp
	movl	%edx, %r15d
	movq	%rcx, %r14
17:
	cmpb	$10, (%r8,%rbp)
	je	18f
	incq	%rbp
	incq	%r14
	incb	%r15b
	cmpq	%rbp, %rsi
	jne	17b
	jmp	48f
18:
	movb	%dl, 31(%rsp)
	movq	%rcx, 280(%rsp)
	cmpq	%r9, %rbp
	movq	%rsi, 120(%rsp)
	movq	%r8, 96(%rsp)
	movq	%r9, 112(%rsp)
	jb	27f
	testq	%r9, %r9
	je	27f
	movzbl	(%r8), %ecx
	cmpb	$48, %cl
	jb	27f
	movq	232(%rsp), %rdx
	addq	%rbp, %rdx
	movq	%rdx, 8(%rsp)
	cmpb	$58, %cl
	jae	26f
19:
	cmpq	$2, 8(%rsp)
	jb	27f
	leaq	(%r8,%r9), %rcx
	movq	%rcx, 88(%rsp)
	cmpb	$32, (%rcx)
	jne	27f
	leaq	(%r8,%r9), %rcx
	movzbl	1(%rcx), %ecx
	cmpl	$42, %ecx
	je	20f
	cmpl	$32, %ecx
	jne	27f
20:
	addq	$-2, 8(%rsp)
	je	27f
	cmpb	$13, -1(%r8,%rbp)
	setne	%cl
	cmpb	$1, 16(%rsp)
	sete	%dl
	andb	%cl, %dl
	cmpb	$1, %dl
	jne	27f
	movq	%r10, 240(%rsp)
	cmpq	$0, 8(%rsp)
	js	58f
	movl	$1, %esi
	movq	8(%rsp), %rdi
	vj_call	rattle_alloc
	movq	%rdx, 16(%rsp)
	testb	$1, %al
	je	58f
	movq	88(%rsp), %rax
	leaq	2(%rax), %rsi
	movq	16(%rsp), %rax
	subq	%rsi, %rax
	cmpq	8(%rsp), %rax
	jae	36f
	cmpq	$4, 8(%rsp)
	jb	21f
	movq	16(%rsp), %rax
	subq	88(%rsp), %rax
	addq	$-2, %rax
	cmpq	$32, %rax
	jae	39f
21:
	xorl	%eax, %eax
22:
	movq	%rax, %rcx
	testb	$3, 8(%rsp)
	je	24f
	movzbl	%r15b, %edx
	andl	$3, %edx
	movq	%rax, %rcx
23:
	movzbl	(%rsi,%rcx), %edi
	movq	16(%rsp), %r8
	movb	%dil, (%r8,%rcx)
	incq	%rcx
	decq	%rdx
	jne	23b
24:
	movq	232(%rsp), %rdx
	subq	%rax, %rdx
	leaq	(%rdx,%rbp), %rax
	addq	$-3, %rax
	cmpq	$3, %rax
	jb	37f
	movq	96(%rsp), %rax
	movq	272(%rsp), %rdx
	addq	%rdx, %rax
25:
	movzbl	-3(%rax,%rcx), %edx
	movq	16(%rsp), %rsi
	movb	%dl, (%rsi,%rcx)
	movzbl	-2(%rax,%rcx), %edx
	movb	%dl, 1(%rsi,%rcx)
	movzbl	-1(%rax,%rcx), %edx
	movb	%dl, 2(%rsi,%rcx)
	movzbl	(%rax,%rcx), %edx
	movb	%dl, 3(%rsi,%rcx)
	addq	$4, %rcx
	cmpq	%rcx, %r14
	jne	25b
	jmp	37f
26:
	cmpb	$65, %cl
	jae	35f
27:
	movzbl	33(%rax), %ecx
	xorps	%xmm0, %xmm0
	movaps	%xmm0, 208(%rsp)
	movaps	%xmm0, 192(%rsp)
	movaps	%xmm0, 176(%rsp)
	movaps	%xmm0, 160(%rsp)
	movaps	%xmm0, 144(%rsp)
	movzbl	16(%rsp), %edx
	leaq	144(%rsp), %rdi
	movq	40(%rsp), %rsi
	movq	%rbp, %r9
	callq	b2sum_commands..check..read_item_1_x86
	cmpb	$0, 144(%rsp)
	jne	58f
	cmpb	$1, 152(%rsp)
	jne	47f
	movq	168(%rsp), %rdi
	movq	184(%rsp), %r14
	movq	192(%rsp), %rdx
	movq	208(%rsp), %r15
	movq	128(%rsp), %rax
	cmpq	%rax, 176(%rsp)
	jne	45f
	movzbl	160(%rsp), %ecx
	movups	200(%rsp), %xmm0
	movzbl	216(%rsp), %eax
	testl	%ecx, %ecx
	je	28f
	cmpl	$1, %ecx
	jne	45f
	cmpl	$1, 76(%rsp)
	je	29f
	jmp	45f
28:
	cmpl	$0, 76(%rsp)
	jne	45f
29:
	leal	-1(%rax), %ecx
	cmpl	$2, %ecx
	jae	30f
	movb	$1, 16(%rsp)
	jmp	31f
30:
	testl	%eax, %eax
	je	31f
	movb	$2, 16(%rsp)
31:
	cmpq	%r12, 64(%rsp)
	je	34f
32:
	movq	48(%rsp), %r10
	leaq	(%r12,%r12,2), %rax
	movq	%rdx, (%r10,%rax,8)
	incq	%r12
	movups	%xmm0, 8(%r10,%rax,8)
	movq	%r12, 56(%rsp)
	testq	%r14, %r14
	je	33f
	movq	%r10, %r14
	vj_call	rattle_dealloc
	movq	%r14, %r10
33:
	movq	40(%rsp), %rdi
	movq	%rbx, %rax
	movq	32(%rsp), %r15
	movq	120(%rsp), %rdx
	movq	96(%rsp), %r8
	movq	112(%rsp), %r9
	cmpq	%r13, %r12
	jae	49f
	addq	%rbp, %r8
	incq	%r8
	movq	%rbp, %rcx
	notq	%rcx
	addq	%rdx, %rcx
	decq	%rdx
	cmpq	%rbp, %rdx
	movq	%rcx, %rsi
	movq	280(%rsp), %rcx
	movzbl	31(%rsp), %edx
	jne	16b
	jmp	49f
34:
	movaps	%xmm0, 240(%rsp)
	movq	%rdx, 88(%rsp)
	movq	%rdi, 8(%rsp)
	leaq	48(%rsp), %rdi
	movl	$1, %esi
	callq	std_alloc..vec..Vec..grow_amortized..bb23d2d2a8e2d2e5_1_x86
	testb	%al, %al
	je	55f
	movq	56(%rsp), %r12
	movq	8(%rsp), %rdi
	movq	88(%rsp), %rdx
	movaps	240(%rsp), %xmm0
	jmp	32b
35:
	cmpb	$71, %cl
	jb	19b
	addb	$-103, %cl
	cmpb	$-6, %cl
	jae	19b
	jmp	27b
36:
	movq	16(%rsp), %rdi
	movq	8(%rsp), %rdx
	vj_c_call	memmove
37:
	cmpq	%r12, 64(%rsp)
	je	44f
38:
	leaq	(%r12,%r12,2), %rax
	movq	240(%rsp), %r10
	movq	16(%rsp), %rcx
	movq	%rcx, (%r10,%rax,8)
	movq	8(%rsp), %rcx
	movq	%rcx, 8(%r10,%rax,8)
	movq	%rcx, 16(%r10,%rax,8)
	incq	%r12
	movq	%r12, 56(%rsp)
	movb	$1, 16(%rsp)
	jmp	33b
39:
	movabsq	$9223372036854775776, %rcx
	cmpq	$32, 8(%rsp)
	jae	40f
	xorl	%eax, %eax
	jmp	42f
40:
	movq	8(%rsp), %rax
	andq	%rcx, %rax
	movq	%r14, %rdx
	andq	%rcx, %rdx
	movq	96(%rsp), %rdi
	movq	264(%rsp), %r8
	addq	%r8, %rdi
	xorl	%r8d, %r8d
41:
	movups	-16(%rdi,%r8), %xmm0
	movups	(%rdi,%r8), %xmm1
	movq	16(%rsp), %r9
	movups	%xmm0, (%r9,%r8)
	movups	%xmm1, 16(%r9,%r8)
	addq	$32, %r8
	cmpq	%r8, %rdx
	jne	41b
	cmpq	%rax, 8(%rsp)
	je	37b
	testb	$28, 8(%rsp)
	je	22b
42:
	movq	%rax, %rdx
	addq	$28, %rcx
	movq	%rcx, %rax
	andq	8(%rsp), %rax
	movabsq	$9223372036854775804, %rcx
	andq	%r14, %rcx
43:
	movl	(%rsi,%rdx), %edi
	movq	16(%rsp), %r8
	movl	%edi, (%r8,%rdx)
	addq	$4, %rdx
	cmpq	%rdx, %rcx
	jne	43b
	cmpq	%rax, 8(%rsp)
	je	37b
	jmp	22b
44:
	leaq	48(%rsp), %rdi
	movl	$1, %esi
	callq	std_alloc..vec..Vec..grow_amortized..bb23d2d2a8e2d2e5_1_x86
	testb	%al, %al
	je	59f
	movq	48(%rsp), %rax
	movq	%rax, 240(%rsp)
	movq	56(%rsp), %r12
	jmp	38b
45:
	movq	%rdx, %rbx
	testq	%r14, %r14
	je	46f
	vj_call	rattle_dealloc
46:
	testq	%r15, %r15
	je	47f
	movq	%rbx, %rdi
	vj_call	rattle_dealloc
47:
	movq	40(%rsp), %rdi
48:
	movq	32(%rsp), %r15
49:
	testq	%r15, %r15
	je	50f
	movq	80(%rsp), %rdi
	vj_call	rattle_dealloc
	movq	40(%rsp), %rdi
50:
	movq	48(%rsp), %rbx
	movq	64(%rsp), %r14
	movl	76(%rsp), %eax
	movl	%eax, 296(%rsp)
	movl	140(%rsp), %eax
	movl	%eax, 300(%rsp)
	movq	128(%rsp), %rax
	movq	%rax, 304(%rsp)
	leaq	296(%rsp), %rsi
	movq	%rbx, %rdx
	movq	%r12, %rcx
	movq	288(%rsp), %r8
	callq	b2sum_commands..ahead..read_group..432d41b752d14b0e_1_x86
	testq	%r12, %r12
	je	53f
	leaq	16(%rbx), %r15
	jmp	52f
51:
	addq	$24, %r15
	decq	%r12
	je	53f
52:
	cmpq	$0, (%r15)
	je	51b
	movq	-16(%r15), %rdi
	vj_call	rattle_dealloc
	jmp	51b
53:
	testq	%r14, %r14
	je	3b
	movq	%rbx, %rdi
54:
	vj_call	rattle_dealloc
	jmp	3b
55:
	testq	%r15, %r15
	je	56f
	movq	88(%rsp), %rdi
	vj_call	rattle_dealloc
56:
	testq	%r14, %r14
	je	58f
	movq	8(%rsp), %rdi
57:
	vj_call	rattle_dealloc
58:
	leaq	48(%rsp), %rdi
	callq	std_alloc..vec..Vec..drop..3374fb78d704bdda_1_x86
	cmpq	$0, 32(%rsp)
	jne	14b
	jmp	3b
59:
	movq	16(%rsp), %rdi
	jmp	57b
	vj_end	b2sum_commands..listed_ahead..go_on_in_list..432d41b752d14b0e_1_x86

	vj_function	b2sum_commands..check..read_item_1_x86
	pushq	%rbp
	pushq	%r15
	pushq	%r14
	pushq	%r13
	pushq	%r12
	pushq	%rbx
	subq	$168, %rsp
	testq	%r9, %r9
	je	5f
	cmpb	$35, (%r8)
	je	5f
	leaq	-1(%r9), %r10
	cmpb	$13, -1(%r8,%r9)
	cmovneq	%r9, %r10
	testq	%r10, %r10
	movq	%r8, %r9
	cmoveq	%r10, %r9
	je	5f
	movzbl	(%rsi), %r11d
	movl	4(%rsi), %eax
	xorps	%xmm0, %xmm0
	movaps	%xmm0, 144(%rsp)
	movaps	%xmm0, 128(%rsp)
	movaps	%xmm0, 112(%rsp)
	movaps	%xmm0, 96(%rsp)
	movaps	%xmm0, 80(%rsp)
	xorl	%ebx, %ebx
	jmp	2f
	.p2align	4
1:
	incq	%rbx
	incq	%r9
	cmpq	%rbx, %r10
	je	3f
2:
	movzbl	(%r8,%rbx), %r12d
	cmpl	$32, %r12d
	je	1b
	cmpl	$9, %r12d
	je	1b
	movq	%r10, %r8
	subq	%rbx, %r8
	jne	9f
3:
	xorps	%xmm0, %xmm0
	movups	%xmm0, 136(%rsp)
	movups	%xmm0, 120(%rsp)
	movups	%xmm0, 104(%rsp)
	movups	%xmm0, 88(%rsp)
	movq	$0, 152(%rsp)
	cmpb	$0, 80(%rsp)
	je	12f
4:
	movw	$1, (%rdi)
	jmp	6f
5:
	movw	$0, (%rdi)
6:
	xorps	%xmm0, %xmm0
	movups	%xmm0, 8(%rdi)
	movups	%xmm0, 24(%rdi)
	movups	%xmm0, 40(%rdi)
7:
	movups	%xmm0, 56(%rdi)
	movq	$0, 72(%rdi)
8:
	addq	$168, %rsp
	popq	%rbx
	popq	%r12
	popq	%r13
	popq	%r14
	popq	%r15
	popq	%rbp
	retq
9:
	movl	%ecx, %ebp
	movq	%rsi, %r14
	movq	%rdi, %r15
	cmpb	$92, %r12b
	jne	10f
	incq	%r9
	notq	%rbx
	addq	%r10, %rbx
	movq	%rbx, (%rsp)
	movzbl	%r11b, %esi
	movzbl	%dl, %ecx
	leaq	80(%rsp), %rdi
	movl	%eax, %edx
	movl	$1, %r8d
	jmp	11f
10:
	movq	%r8, (%rsp)
	movzbl	%r11b, %esi
	movzbl	%dl, %ecx
	leaq	80(%rsp), %rdi
	movl	%eax, %edx
	xorl	%r8d, %r8d
11:
	callq	b2sum_lines..reads..read_body_1_x86
	movq	%r15, %rdi
	movq	%r14, %rsi
	movl	%ebp, %ecx
	cmpb	$0, 80(%rsp)
	jne	4b
12:
	cmpb	$0, 88(%rsp)
	je	13f
	movzbl	96(%rsp), %r11d
	movzbl	99(%rsp), %r15d
	movzwl	97(%rsp), %r8d
	movl	100(%rsp), %eax
	movq	%rax, 16(%rsp)
	movq	104(%rsp), %r9
	movq	112(%rsp), %rax
	movq	%rax, 32(%rsp)
	movq	120(%rsp), %r10
	movq	128(%rsp), %r14
	movq	136(%rsp), %rbx
	movq	144(%rsp), %r12
	movzbl	152(%rsp), %edx
	movzbl	155(%rsp), %ebp
	movzwl	153(%rsp), %r13d
	movl	156(%rsp), %eax
	testb	%cl, %cl
	je	14f
	cmpq	$1, %rbx
	je	15f
	jmp	18f
13:
	movl	$3, %r15d
	xorl	%r13d, %r13d
	xorl	%eax, %eax
	xorl	%r12d, %r12d
	xorl	%ecx, %ecx
	xorl	%edx, %edx
	xorl	%esi, %esi
	jmp	68f
14:
	cmpq	$1, %rbx
	sete	%cl
	testb	%cl, 88(%rsi)
	je	18f
15:
	cmpb	$45, (%r14)
	jne	18f
	testq	%r10, %r10
	je	16f
	movq	%rdi, %rbx
	movq	%r9, %rdi
	vj_call	rattle_dealloc
	movq	%rbx, %rdi
16:
	testq	%r12, %r12
	je	17f
	movq	%rdi, %rbx
	movq	%r14, %rdi
	vj_call	rattle_dealloc
	movq	%rbx, %rdi
17:
	movw	$0, (%rdi)
	movq	$3, 8(%rdi)
	xorps	%xmm0, %xmm0
	movups	%xmm0, 16(%rdi)
	movups	%xmm0, 32(%rdi)
	movups	%xmm0, 48(%rdi)
	movups	%xmm0, 64(%rdi)
	jmp	8b
18:
	movq	%r10, 64(%rsp)
	movq	%r9, 48(%rsp)
	movq	%r12, 72(%rsp)
	movq	%r14, 56(%rsp)
	shll	$16, %ebp
	orl	%ebp, %r13d
	movl	%r13d, %ebp
	shrl	$8, %ebp
	movl	%r13d, 28(%rsp)
	movl	%r13d, %ecx
	shrl	$16, %ecx
	movzbl	16(%rsi), %r14d
	cmpb	$1, %r14b
	jne	19f
	movq	32(%rsp), %r9
	cmpq	8(%rsi), %r9
	jne	34f
19:
	testb	%dl, %dl
	jne	20f
	movzbl	89(%rsi), %r12d
	xorb	28(%rsp), %r12b
	movzbl	90(%rsi), %r13d
	xorb	%bpl, %r13b
	movzbl	91(%rsi), %r10d
	xorb	%cl, %r10b
	movzbl	%r13b, %r13d
	movzbl	%r10b, %r10d
	testb	$1, %r13b
	cmovnel	%r13d, %r10d
	orb	%r12b, %r10b
	testb	$1, %r10b
	jne	35f
20:
	movq	%r11, %r12
	cmpb	$0, 17(%rsi)
	jne	21f
	movzbl	90(%rsi), %r10d
	movzbl	91(%rsi), %r13d
	testb	$1, %r10b
	cmovnel	%r10d, %r13d
	orb	89(%rsi), %r13b
	testb	$1, %r13b
	je	23f
21:
	leaq	.L1_x86_JTI72_0(%rip), %r10
	movslq	(%r10,%r12,4), %r13
	addq	%r10, %r13
	notrack	jmpq	*%r13
22:
	movzbl	(%rsi), %r13d
	leaq	.L1_x86_JTI72_1(%rip), %r9
	movslq	(%r9,%r13,4), %r10
	addq	%r9, %r10
	notrack	jmpq	*%r10
23:
	cmpl	$4, %r11d
	setne	%r10b
	cmpl	$1024, 16(%rsp)
	setae	%r12b
	orb	%r10b, %r12b
	jne	33f
24:
	movl	16(%rsp), %r12d
	addq	$4, %r12
	movzbl	(%rsi), %r13d
	leaq	.L1_x86_JTI72_1(%rip), %r9
	movslq	(%r9,%r13,4), %r10
	addq	%r9, %r10
	notrack	jmpq	*%r10
25:
	movl	$2, %r12d
	movzbl	(%rsi), %r13d
	leaq	.L1_x86_JTI72_1(%rip), %r9
	movslq	(%r9,%r13,4), %r10
	addq	%r9, %r10
	notrack	jmpq	*%r10
26:
	movl	$3, %r12d
	movzbl	(%rsi), %r13d
	leaq	.L1_x86_JTI72_1(%rip), %r9
	movslq	(%r9,%r13,4), %r10
	addq	%r9, %r10
	notrack	jmpq	*%r10
27:
	movl	$1, %r12d
	movzbl	(%rsi), %r13d
	leaq	.L1_x86_JTI72_1(%rip), %r10
	movslq	(%r10,%r13,4), %r9
	addq	%r10, %r9
	notrack	jmpq	*%r9
28:
	movl	$1, %r13d
	jmp	32f
29:
	movl	4(%rsi), %r13d
	addq	$4, %r13
	jmp	32f
30:
	movl	$2, %r13d
	jmp	32f
31:
	movl	$3, %r13d
32:
	cmpq	%r13, %r12
	jne	34f
33:
	shll	$16, %r15d
	orl	%r15d, %r8d
	movw	$0, (%rdi)
	movq	$1, 8(%rdi)
	movq	16(%rsp), %rsi
	shlq	$32, %rsi
	shll	$8, %r8d
	orq	%rsi, %r8
	orq	%r11, %r8
	movq	%r8, 16(%rdi)
	movq	48(%rsp), %rsi
	movq	%rsi, 24(%rdi)
	movq	32(%rsp), %rsi
	movq	%rsi, 32(%rdi)
	movq	64(%rsp), %rsi
	movq	%rsi, 40(%rdi)
	movq	56(%rsp), %rsi
	movq	%rsi, 48(%rdi)
	movq	%rbx, 56(%rdi)
	movq	72(%rsp), %rsi
	movq	%rsi, 64(%rdi)
	movb	%dl, 72(%rdi)
	movl	28(%rsp), %edx
	movw	%dx, 73(%rdi)
	movb	%cl, 75(%rdi)
	movl	%eax, 76(%rdi)
	jmp	8b
34:
	testb	%dl, %dl
	je	35f
	movzbl	89(%rsi), %r12d
	movzbl	90(%rsi), %r8d
	movzbl	91(%rsi), %ebx
	movl	$0, 44(%rsp)
	movq	%r11, %r10
	movl	%r10d, %r15d
	leaq	.L1_x86_JTI72_2(%rip), %rax
	movslq	(%rax,%r15,4), %rdx
	addq	%rax, %rdx
	movb	%r12b, 13(%rsp)
	movb	%r8b, 14(%rsp)
	movl	%ebx, %r13d
	notrack	jmpq	*%rdx
35:
	movzbl	89(%rsi), %r12d
	movzbl	90(%rsi), %r8d
	movzbl	91(%rsi), %ebx
	movb	$1, %al
	movl	%eax, 44(%rsp)
	movq	%r11, %r10
	movl	%r10d, %r15d
	leaq	.L1_x86_JTI72_2(%rip), %rax
	movslq	(%rax,%r15,4), %rdx
	addq	%rax, %rdx
	movl	%ecx, %r13d
	movl	28(%rsp), %eax
	movb	%al, 13(%rsp)
	movb	%bpl, 14(%rsp)
	notrack	jmpq	*%rdx
36:
	movzbl	(%rsi), %edx
	leaq	.L1_x86_JTI72_3(%rip), %rax
	movslq	(%rax,%rdx,4), %r9
	addq	%rax, %r9
	movq	%rdx, %rax
	notrack	jmpq	*%r9
37:
	movl	16(%rsp), %r15d
	addq	$4, %r15
	movzbl	(%rsi), %edx
	leaq	.L1_x86_JTI72_3(%rip), %rax
	movslq	(%rax,%rdx,4), %r9
	addq	%rax, %r9
	movq	%rdx, %rax
	notrack	jmpq	*%r9
38:
	movl	$2, %r15d
	movzbl	(%rsi), %edx
	leaq	.L1_x86_JTI72_3(%rip), %rax
	movslq	(%rax,%rdx,4), %r9
	addq	%rax, %r9
	movq	%rdx, %rax
	notrack	jmpq	*%r9
39:
	movl	$3, %r15d
	movzbl	(%rsi), %edx
	leaq	.L1_x86_JTI72_3(%rip), %rax
	movslq	(%rax,%rdx,4), %r9
	addq	%rax, %r9
	movq	%rdx, %rax
	notrack	jmpq	*%r9
40:
	movl	$1, %r15d
	movzbl	(%rsi), %edx
	leaq	.L1_x86_JTI72_3(%rip), %rax
	movslq	(%rax,%rdx,4), %r9
	addq	%rax, %r9
	movq	%rdx, %rax
	notrack	jmpq	*%r9
41:
	movl	$1, %eax
	jmp	45f
42:
	movl	4(%rsi), %eax
	addq	$4, %rax
	jmp	45f
43:
	movl	$2, %eax
	jmp	45f
44:
	movl	$3, %eax
45:
	movl	$0, 40(%rsp)
	cmpq	%rax, %r15
	movl	%r12d, %r11d
	jne	47f
46:
	xorl	%r12d, %r12d
	movl	$0, 24(%rsp)
	jmp	49f
47:
	cmpb	$0, 17(%rsi)
	jne	48f
	movzbl	14(%rsp), %eax
	movzbl	%r13b, %r9d
	testb	$1, %al
	cmovnel	%eax, %r9d
	orb	13(%rsp), %r9b
	testb	$1, %r9b
	jne	48f
	cmpl	$4, %r10d
	setne	%al
	cmpl	$1024, 16(%rsp)
	setae	%r9b
	orb	%al, %r9b
	jne	46b
48:
	movl	$1, 40(%rsp)
	movl	%r10d, %r12d
	movq	16(%rsp), %rax
	movl	%eax, 24(%rsp)
49:
	movl	%r11d, %eax
	xorb	$1, %al
	testb	%al, %r14b
	jne	50f
	testb	$1, 13(%rsp)
	jne	50f
	movq	$0, 16(%rsp)
	movq	$0, 32(%rsp)
	jmp	65f
50:
	leaq	.L1_x86_switch.table.b2sum_lines..writes..push_body_1_x86(%rip), %r9
	testb	%r14b, %r14b
	je	63f
	leaq	.L1_x86_JTI72_4(%rip), %rax
	movslq	(%rax,%r10,4), %r9
	addq	%rax, %r9
	notrack	jmpq	*%r9
51:
	leaq	.L1_x86_JTI72_5(%rip), %rax
	movslq	(%rax,%rdx,4), %r9
	addq	%rax, %r9
	movq	%r10, %r14
	movq	%rdx, %r15
	notrack	jmpq	*%r9
52:
	movl	16(%rsp), %r14d
	addq	$4, %r14
	leaq	.L1_x86_JTI72_5(%rip), %rax
	movslq	(%rax,%rdx,4), %r9
	addq	%rax, %r9
	movq	%rdx, %r15
	notrack	jmpq	*%r9
53:
	movl	$2, %r14d
	leaq	.L1_x86_JTI72_5(%rip), %rax
	movslq	(%rax,%rdx,4), %r9
	addq	%rax, %r9
	movq	%rdx, %r15
	notrack	jmpq	*%r9
54:
	movl	$3, %r14d
	leaq	.L1_x86_JTI72_5(%rip), %rax
	movslq	(%rax,%rdx,4), %r9
	addq	%rax, %r9
	movq	%rdx, %r15
	notrack	jmpq	*%r9
55:
	movl	$1, %r14d
	leaq	.L1_x86_JTI72_5(%rip), %rax
	movslq	(%rax,%rdx,4), %r9
	addq	%rax, %r9
	movq	%rdx, %r15
	notrack	jmpq	*%r9
56:
	movl	$1, %r15d
	jmp	60f
57:
	movl	4(%rsi), %r15d
	addq	$4, %r15
	jmp	60f
58:
	movl	$2, %r15d
	jmp	60f
59:
	movl	$3, %r15d
60:
	movq	8(%rsi), %rax
	cmpq	%r15, %r14
	je	64f
	leaq	.L1_x86_switch.table.b2sum_lines..writes..push_body_1_x86(%rip), %r9
	movq	(%r9,%rdx,8), %rdx
	cmpb	$0, 17(%rsi)
	jne	62f
	movb	%r11b, 15(%rsp)
	movl	%ebx, %r14d
	movl	%r8d, %r15d
	movl	%r11d, %esi
	cmpb	$0, 44(%rsp)
	je	61f
	movl	28(%rsp), %esi
	movb	%sil, 15(%rsp)
	movl	%ecx, %r14d
	movl	%ebp, %r15d
61:
	orb	%r15b, %r14b
	movzbl	%r14b, %ecx
	movzbl	%sil, %esi
	testb	$1, 15(%rsp)
	cmovel	%ecx, %esi
	testb	$1, %sil
	je	69f
62:
	cmpq	%rdx, %rax
	jne	64f
63:
	movq	(%r9,%r10,8), %rax
64:
	xorl	%esi, %esi
	xorl	%edx, %edx
	movq	32(%rsp), %rcx
	cmpq	%rax, %rcx
	setne	%dl
	movq	%rdx, 16(%rsp)
	cmovneq	%rcx, %rsi
	movq	%rsi, 32(%rsp)
65:
	movl	%r11d, %r9d
	notb	%r9b
	movl	%ebx, %eax
	notb	%al
	movl	%r13d, %esi
	notb	%sil
	andb	$1, %sil
	movl	%r8d, %r10d
	notb	%r10b
	movzbl	14(%rsp), %r15d
	movl	%r15d, %edx
	notb	%dl
	andb	$1, %dl
	movzbl	13(%rsp), %ebp
	movl	%ebp, %ecx
	notb	%cl
	andb	$1, %cl
	andb	$1, %al
	andb	$1, %r10b
	andb	$1, %r9b
	movzbl	%al, %eax
	shll	$16, %eax
	movl	%r11d, %r14d
	xorl	%r11d, %r11d
	testb	$1, %r13b
	cmoveq	%r11, %rax
	movzbl	%r10b, %r10d
	shll	$8, %r10d
	testb	$1, %r15b
	cmoveq	%r11, %r10
	movzbl	%r9b, %r15d
	testb	$1, %bpl
	cmoveq	%r11, %r15
	movzbl	%sil, %esi
	shll	$16, %esi
	testb	$1, %bl
	cmoveq	%r11, %rsi
	movzbl	%dl, %edx
	shll	$8, %edx
	testb	$1, %r8b
	cmoveq	%r11, %rdx
	orq	%rsi, %rdx
	movzbl	%cl, %r13d
	testb	$1, %r14b
	cmoveq	%r11, %r13
	orq	%rdx, %r13
	shlq	$24, %r13
	orq	%r10, %r15
	orq	%rax, %r15
	cmpq	$0, 64(%rsp)
	je	66f
	movq	%rdi, %rbx
	movq	48(%rsp), %rdi
	vj_call	rattle_dealloc
	movq	%rbx, %rdi
66:
	orq	%r15, %r13
	movl	$2, %r15d
	cmpq	$0, 72(%rsp)
	je	67f
	movq	%rdi, %rbx
	movq	56(%rsp), %rdi
	vj_call	rattle_dealloc
	movq	%rbx, %rdi
67:
	movl	40(%rsp), %eax
	movl	24(%rsp), %ecx
	movq	16(%rsp), %rdx
	movq	32(%rsp), %rsi
68:
	movl	%eax, %eax
	shlq	$32, %r12
	orq	%rax, %r12
	movw	$0, (%rdi)
	movq	%r15, 8(%rdi)
	movq	%r13, 16(%rdi)
	movq	%r12, 24(%rdi)
	movl	%ecx, %eax
	movq	%rax, 32(%rdi)
	movq	%rdx, 40(%rdi)
	movq	%rsi, 48(%rdi)
	xorps	%xmm0, %xmm0
	jmp	7b
69:
	cmpq	%rdx, %rax
	movl	$64, %ecx
	cmovneq	%rax, %rcx
	cmpl	$1024, 16(%rsp)
	cmovaeq	%rax, %rcx
	cmpl	$4, %r10d
	cmoveq	%rcx, %rax
	jmp	64b
	vj_end	b2sum_commands..check..read_item_1_x86

	vj_data	b2sum_commands..check..read_item_1_x86
	.p2align	2, 0x0
.L1_x86_JTI72_0:
	.long	22b-.L1_x86_JTI72_0
	.long	27b-.L1_x86_JTI72_0
	.long	25b-.L1_x86_JTI72_0
	.long	26b-.L1_x86_JTI72_0
	.long	24b-.L1_x86_JTI72_0
.L1_x86_JTI72_1:
	.long	32b-.L1_x86_JTI72_1
	.long	28b-.L1_x86_JTI72_1
	.long	30b-.L1_x86_JTI72_1
	.long	31b-.L1_x86_JTI72_1
	.long	29b-.L1_x86_JTI72_1
.L1_x86_JTI72_2:
	.long	36b-.L1_x86_JTI72_2
	.long	40b-.L1_x86_JTI72_2
	.long	38b-.L1_x86_JTI72_2
	.long	39b-.L1_x86_JTI72_2
	.long	37b-.L1_x86_JTI72_2
.L1_x86_JTI72_3:
	.long	45b-.L1_x86_JTI72_3
	.long	41b-.L1_x86_JTI72_3
	.long	43b-.L1_x86_JTI72_3
	.long	44b-.L1_x86_JTI72_3
	.long	42b-.L1_x86_JTI72_3
.L1_x86_JTI72_4:
	.long	51b-.L1_x86_JTI72_4
	.long	55b-.L1_x86_JTI72_4
	.long	53b-.L1_x86_JTI72_4
	.long	54b-.L1_x86_JTI72_4
	.long	52b-.L1_x86_JTI72_4
.L1_x86_JTI72_5:
	.long	60b-.L1_x86_JTI72_5
	.long	56b-.L1_x86_JTI72_5
	.long	58b-.L1_x86_JTI72_5
	.long	59b-.L1_x86_JTI72_5
	.long	57b-.L1_x86_JTI72_5

	vj_constants	16
	.p2align	4, 0x0
.L1_x86_CPI73_0:
	.byte	75
	.byte	69
	.byte	50
	.byte	98
	.zero	1
	.zero	1
	.zero	1
	.zero	1
	.zero	1
	.zero	1
	.zero	1
	.zero	1
	.zero	1
	.zero	1
	.zero	1
	.zero	1
	vj_function	b2sum_lines..reads..read_body_1_x86
	pushq	%rbp
	pushq	%r15
	pushq	%r14
	pushq	%r13
	pushq	%r12
	pushq	%rbx
	subq	$392, %rsp
	movl	%ecx, %eax
	movq	%rdi, %rbx
	movq	448(%rsp), %rcx
	pxor	%xmm0, %xmm0
	movdqa	%xmm0, 112(%rsp)
	movdqa	%xmm0, 96(%rsp)
	movdqa	%xmm0, 80(%rsp)
	movdqa	%xmm0, 64(%rsp)
	cmpq	$7, %rcx
	jae	5f
1:
	cmpb	$4, %sil
	je	47f
	pxor	%xmm0, %xmm0
	movdqa	%xmm0, 256(%rsp)
	movdqa	%xmm0, 272(%rsp)
	movdqa	%xmm0, 288(%rsp)
	movdqa	%xmm0, 304(%rsp)
	movdqa	%xmm0, 320(%rsp)
	movdqa	%xmm0, 160(%rsp)
	movdqa	%xmm0, 176(%rsp)
	movq	$0, 192(%rsp)
	leaq	.L1_x86_static.1(%rip), %r15
	testq	%rcx, %rcx
	movl	%edx, 16(%rsp)
	je	8f
	movq	%rcx, %r12
	movq	%r9, %rdx
	jmp	3f
	.p2align	4
2:
	incq	%rdx
	decq	%r12
	je	8f
3:
	movzbl	(%rdx), %edi
	cmpb	$48, %dil
	jb	4f
	cmpb	$58, %dil
	jb	2b
	cmpb	$65, %dil
	jb	4f
	cmpb	$71, %dil
	setae	%r10b
	addb	$-97, %dil
	cmpb	$6, %dil
	setae	%dil
	testb	%dil, %r10b
	je	2b
4:
	movl	%eax, %r14d
	movl	%r8d, %r13d
	movq	%rdx, %r15
	jmp	9f
5:
	movzbl	(%r9), %edi
	movzbl	1(%r9), %r14d
	movzbl	2(%r9), %r15d
	movd	3(%r9), %xmm0
	pcmpeqb	.L1_x86_CPI73_0(%rip), %xmm0
	pmovsxbd	%xmm0, %xmm1
	pshufd	$250, %xmm1, %xmm2
	pand	%xmm1, %xmm2
	pextrb	$4, %xmm2, %r11d
	movd	%xmm0, %ebp
	xorb	$66, %dil
	xorb	$76, %r14b
	orb	%dil, %r14b
	xorb	$65, %r15b
	leaq	7(%r9), %rdi
	leaq	-7(%rcx), %r10
	orb	%r14b, %r15b
	sete	%r14b
	jne	6f
	testb	$1, %bpl
	je	6f
	testb	$1, %r11b
	je	6f
	pextrb	$3, %xmm0, %r15d
	testb	$1, %r15b
	je	6f
	xorl	%r13d, %r13d
	testq	%r10, %r10
	je	13f
	movzbl	(%rdi), %r11d
	cmpb	$112, %r11b
	jne	14f
	addq	$-8, %rcx
	addq	$8, %r9
	movb	$2, %al
	jmp	7f
6:
	cmpb	$115, 6(%r9)
	sete	%r15b
	andb	%r15b, %bpl
	andb	%bpl, %r14b
	andb	%r11b, %r14b
	cmpb	$1, %r14b
	jne	1b
	xorl	%r13d, %r13d
	testq	%r10, %r10
	je	15f
	cmpb	$112, (%rdi)
	jne	19f
	addq	$-8, %rcx
	addq	$8, %r9
	movb	$3, %al
7:
	movq	%rax, 16(%rsp)
	movq	%rcx, %r10
	movq	%r9, %rdi
	jmp	21f
8:
	movl	%eax, %r14d
	movl	%r8d, %r13d
	xorl	%r12d, %r12d
9:
	subq	%r12, %rcx
	movzbl	%sil, %ebp
	leaq	160(%rsp), %rdi
	movl	%ebp, %esi
	movq	%r9, %rdx
	callq	b2sum_lines..reads..digest_of_digits_1_x86
	cmpb	$0, 160(%rsp)
	je	11f
10:
	pxor	%xmm0, %xmm0
	movdqa	%xmm0, 112(%rsp)
	movdqa	%xmm0, 96(%rsp)
	movdqa	%xmm0, 80(%rsp)
	movdqa	%xmm0, 64(%rsp)
	movb	$1, %al
	jmp	48f
11:
	cmpb	$1, 168(%rsp)
	jne	46f
	movq	176(%rsp), %rdi
	movq	192(%rsp), %rdx
	testq	%r12, %r12
	je	44f
	movdqu	184(%rsp), %xmm0
	movzbl	(%r15), %eax
	cmpl	$32, %eax
	je	12f
	cmpl	$9, %eax
	jne	44f
12:
	leaq	1(%r15), %rax
	leaq	-1(%r12), %rsi
	movb	$3, %cl
	cmpb	$2, %r14b
	je	54f
	movzbl	%r14b, %r8d
	cmpl	$1, %r8d
	jne	34f
	testq	%rsi, %rsi
	je	44f
	movzbl	(%rax), %eax
	cmpl	$42, %eax
	je	42f
	cmpl	$32, %eax
	jne	44f
	addq	$-2, %r12
	jne	51f
	jmp	44f
13:
	xorl	%r10d, %r10d
	movq	$0, 16(%rsp)
	jmp	21f
14:
	xorl	%r13d, %r13d
	cmpq	$6, %r10
	jae	16f
	movq	$0, 16(%rsp)
	jmp	21f
15:
	movb	$1, %al
	movq	%rax, 16(%rsp)
	xorl	%r10d, %r10d
	jmp	21f
16:
	cmpb	$114, 9(%r9)
	sete	%bpl
	cmpb	$101, 10(%r9)
	movzwl	11(%r9), %r14d
	movd	%r14d, %xmm0
	pshuflw	$0, %xmm0, %xmm0
	movzbl	%r11b, %r11d
	pinsrb	$0, %r11d, %xmm0
	pinsrb	$1, 8(%r9), %xmm0
	sete	%r11b
	movd	%xmm0, %r14d
	cmpl	$761623597, %r14d
	sete	%r14b
	andb	%r11b, %r14b
	leaq	13(%r9), %r11
	xorl	%r13d, %r13d
	movl	$0, %r15d
	movq	%r15, 16(%rsp)
	testb	%bpl, %r14b
	movl	$0, %r15d
	cmovneq	%r11, %r15
	leaq	-13(%rcx), %r12
	movl	$0, %r14d
	cmovneq	%r12, %r14
	je	21f
	leaq	.L1_x86_static.1(%rip), %rdi
	testq	%r12, %r12
	je	18f
	xorl	%r12d, %r12d
17:
	movzbl	(%r11,%r12), %r10d
	addb	$-48, %r10b
	cmpb	$10, %r10b
	jae	38f
	incq	%r12
	cmpq	%r12, %r14
	jne	17b
18:
	xorl	%r10d, %r10d
	jmp	39f
19:
	movb	$1, %al
20:
	movq	%rax, 16(%rsp)
21:
	pxor	%xmm0, %xmm0
	movdqa	%xmm0, 256(%rsp)
	movdqa	%xmm0, 272(%rsp)
	movdqa	%xmm0, 288(%rsp)
	movdqa	%xmm0, 304(%rsp)
	movdqa	%xmm0, 320(%rsp)
	movdqa	%xmm0, 160(%rsp)
	movdqa	%xmm0, 176(%rsp)
	movq	$0, 192(%rsp)
	movdqa	%xmm0, 208(%rsp)
	movq	$0, 224(%rsp)
	movl	$0, 24(%rsp)
	cmpq	$4, %r10
	jae	22f
	xorl	%esi, %esi
	xorl	%eax, %eax
	xorl	%ecx, %ecx
	jmp	23f
22:
	leaq	4(%rdi), %rax
	leaq	-4(%r10), %rcx
	xorl	%edx, %edx
	cmpl	$2036689709, (%rdi)
	sete	%sil
	cmovneq	%rdx, %rax
	cmovneq	%rdx, %rcx
23:
	movq	%r13, 384(%rsp)
	testb	%sil, %sil
	cmoveq	%rdi, %rax
	cmoveq	%r10, %rcx
	cmpq	$5, %rcx
	jae	24f
	xorl	%r13d, %r13d
	xorl	%r12d, %r12d
	xorl	%r14d, %r14d
	jmp	25f
24:
	cmpb	$45, (%rax)
	sete	%dl
	cmpl	$1953259891, 1(%rax)
	sete	%r13b
	andb	%dl, %r13b
	leaq	5(%rax), %r12
	leaq	-5(%rcx), %r14
	xorl	%edx, %edx
	testb	%r13b, %r13b
	cmoveq	%rdx, %r12
	cmoveq	%rdx, %r14
25:
	testb	%r13b, %r13b
	cmoveq	%rax, %r12
	cmoveq	%rcx, %r14
	cmpq	$9, %r14
	movl	%r8d, 156(%rsp)
	movq	%rsi, 376(%rsp)
	jae	26f
	xorl	%r8d, %r8d
	xorl	%r15d, %r15d
	xorl	%ebp, %ebp
	jmp	27f
26:
	leaq	.L1_x86_static.204(%rip), %rsi
	movl	$9, %edx
	movq	%r12, %rdi
	callq	core..slice..scan..any_in_quarters..953750c03e87c3e2_1_x86
	movl	%eax, %r8d
	xorb	$1, %r8b
	leaq	9(%r12), %r15
	leaq	-9(%r14), %rbp
	xorl	%ecx, %ecx
	testb	%al, %al
	cmovneq	%rcx, %r15
	cmovneq	%rcx, %rbp
27:
	testb	%r8b, %r8b
	cmoveq	%r12, %r15
	cmoveq	%r14, %rbp
	leaq	(%r15,%rbp), %rax
	decq	%rax
	movl	$4, %ecx
	.p2align	4
28:
	leaq	(%rcx,%rbp), %rdx
	cmpq	$4, %rdx
	je	46f
	leaq	-1(%rcx), %r12
	cmpb	$41, -4(%rax,%rcx)
	movq	%r12, %rcx
	jne	28b
	cmpq	$3, %r12
	je	46f
	leaq	-1(%r12), %rsi
	leaq	(%r15,%rbp), %rax
	movq	%r12, %rcx
	jmp	30f
	.p2align	4
29:
	incq	%rsi
	incq	%rcx
	cmpq	$3, %rcx
	je	46f
30:
	movzbl	-2(%rax,%rsi), %edx
	cmpl	$32, %edx
	je	29b
	cmpl	$9, %edx
	je	29b
	cmpq	$3, %rcx
	je	46f
	cmpb	$61, %dl
	jne	46f
	leaq	.L1_x86_static.1(%rip), %rdx
	cmpq	$1, %rsi
	movq	%r8, 368(%rsp)
	jne	35f
31:
	xorl	%ecx, %ecx
32:
	movzbl	16(%rsp), %r14d
	leaq	160(%rsp), %rdi
	movl	%r14d, %esi
	callq	b2sum_lines..reads..digest_of_digits_1_x86
	cmpb	$0, 160(%rsp)
	jne	10b
	movq	%r14, 16(%rsp)
	cmpb	$1, 168(%rsp)
	jne	46f
	movq	176(%rsp), %rax
	movq	%rax, 136(%rsp)
	movq	184(%rsp), %r14
	movq	192(%rsp), %rax
	movq	%rax, 144(%rsp)
	pxor	%xmm0, %xmm0
	movdqu	%xmm0, 48(%rsp)
	leaq	31(%rsp), %rax
	movq	%rax, 40(%rsp)
	leaq	40(%rsp), %rdi
	movl	$1, %esi
	callq	std_alloc..vec..Vec..grow_amortized..01eec35b572d02af_1_x86
	testb	%al, %al
	je	65f
	movq	40(%rsp), %rdi
	movq	48(%rsp), %r9
	movb	$45, (%rdi,%r9)
	incq	%r9
	movq	%r9, 48(%rsp)
	leaq	(,%r14,8), %rcx
	pxor	%xmm0, %xmm0
	movdqa	%xmm0, 336(%rsp)
	movl	$0, 352(%rsp)
	movl	$19, %r8d
	cmpq	$10, %rcx
	movq	%r14, 248(%rsp)
	jb	57f
33:
	movabsq	$-3689348814741910323, %rdx
	movq	%rcx, %rax
	mulq	%rdx
	shrq	$3, %rdx
	leal	(%rdx,%rdx), %eax
	leal	(%rax,%rax,4), %eax
	movl	%ecx, %esi
	subl	%eax, %esi
	orb	$48, %sil
	movb	%sil, 336(%rsp,%r8)
	decq	%r8
	cmpq	$99, %rcx
	movq	%rdx, %rcx
	ja	33b
	jmp	58f
34:
	movl	16(%rsp), %edx
	testq	%rsi, %rsi
	je	41f
	movzbl	(%rax), %r8d
	cmpl	$32, %r8d
	je	50f
	cmpl	$42, %r8d
	jne	55f
	addq	$-2, %r12
	jne	43f
	jmp	53f
35:
	leaq	-1(%rsi), %rcx
	jmp	37f
36:
	incq	%rcx
	incq	%rsi
	cmpq	$1, %rsi
	je	31b
37:
	movzbl	(%rax,%rcx), %edi
	cmpl	$9, %edi
	je	36b
	cmpl	$32, %edi
	je	36b
	addq	%rcx, %rax
	negq	%rcx
	movq	%rax, %rdx
	jmp	32b
38:
	addq	%r12, %r15
	movq	%r14, %r10
	subq	%r12, %r10
	movq	%r15, %rdi
39:
	subq	%r10, %r14
	leaq	-11(%r14), %r15
	cmpq	$-10, %r15
	jb	1b
	cmpb	$48, (%r11)
	je	1b
	xorl	%r13d, %r13d
	xorl	%r15d, %r15d
40:
	movzbl	(%r11,%r15), %ebp
	addb	$-48, %bpl
	cmpb	$9, %bpl
	ja	1b
	leaq	(,%r13,4), %r12
	addq	%r13, %r12
	movzbl	%bpl, %r13d
	leaq	(%r13,%r12,2), %r13
	incq	%r15
	cmpq	%r15, %r14
	jne	40b
	movq	%r13, %r11
	shrq	$32, %r11
	jne	1b
	movb	$4, %al
	jmp	20b
41:
	xorl	%esi, %esi
	jmp	55f
42:
	addq	$-2, %r12
	je	44f
43:
	addq	$2, %r15
	movb	$2, %cl
	jmp	52f
44:
	testq	%rdx, %rdx
	je	46f
45:
	vj_call	rattle_dealloc
46:
	pxor	%xmm0, %xmm0
	movdqa	%xmm0, 112(%rsp)
	movdqa	%xmm0, 96(%rsp)
	movdqa	%xmm0, 80(%rsp)
	movdqa	%xmm0, 64(%rsp)
47:
	xorl	%eax, %eax
48:
	xorl	%ecx, %ecx
49:
	movzbl	%cl, %ecx
	movb	%al, (%rbx)
	movq	%rcx, 8(%rbx)
	movaps	64(%rsp), %xmm0
	movaps	80(%rsp), %xmm1
	movaps	96(%rsp), %xmm2
	movaps	112(%rsp), %xmm3
	movups	%xmm0, 16(%rbx)
	movups	%xmm1, 32(%rbx)
	movups	%xmm2, 48(%rbx)
	movups	%xmm3, 64(%rbx)
	addq	$392, %rsp
	popq	%rbx
	popq	%r12
	popq	%r13
	popq	%r14
	popq	%r15
	popq	%rbp
	retq
50:
	addq	$-2, %r12
	je	53f
51:
	addq	$2, %r15
	movb	$1, %cl
52:
	movq	%r12, %rsi
	movq	%r15, %rax
	jmp	54f
53:
	movl	$1, %esi
54:
	movl	16(%rsp), %edx
55:
	movb	%cl, 208(%rsp)
	movw	$0, 209(%rsp)
	movb	$0, 211(%rsp)
	movq	%rdi, 40(%rsp)
	movdqu	%xmm0, 48(%rsp)
	movq	%rsi, 8(%rsp)
	movq	%rax, (%rsp)
	movzbl	%r13b, %ecx
	leaq	256(%rsp), %rdi
	leaq	40(%rsp), %r8
	leaq	208(%rsp), %r9
	movl	%ebp, %esi
56:
	callq	b2sum_lines..reads..entry_with_1_x86
	movzbl	256(%rsp), %eax
	movzbl	264(%rsp), %ecx
	movaps	272(%rsp), %xmm0
	movaps	%xmm0, 64(%rsp)
	movaps	288(%rsp), %xmm0
	movaps	%xmm0, 80(%rsp)
	movaps	304(%rsp), %xmm0
	movaps	%xmm0, 96(%rsp)
	movdqa	320(%rsp), %xmm0
	movdqa	%xmm0, 112(%rsp)
	jmp	49b
57:
	movq	%rcx, %rdx
58:
	orb	$48, %dl
	movb	%dl, 336(%rsp,%r8)
	movl	$20, %edx
	subq	%r8, %rdx
	movq	56(%rsp), %rax
	movq	%rax, 128(%rsp)
	subq	%r9, %rax
	cmpq	%rax, %rdx
	movq	%r8, 240(%rsp)
	ja	64f
59:
	leaq	(%rsp,%r8), %rsi
	addq	$336, %rsi
	leaq	(%r9,%rdx), %r14
	movq	%rdi, 32(%rsp)
	movq	%r9, 360(%rsp)
	addq	%r9, %rdi
	vj_c_call	memcpy
	movq	%r14, 48(%rsp)
	movq	128(%rsp), %rax
	movq	%rax, 56(%rsp)
	leaq	(%r12,%rbp), %rax
	addq	$-4, %rax
	cmpq	%r14, %rax
	jb	60f
	movq	%r15, %rdi
	movq	%r14, %rsi
	movq	32(%rsp), %rdx
	movq	%r14, %rcx
	callq	core..cmp..slices..parts_equal..i8.31.core..cmp..numbers..U8PartialEq_1_x86
	testb	%al, %al
	je	60f
	movq	240(%rsp), %rax
	subq	360(%rsp), %rax
	addq	%rax, %rbp
	leaq	(%r12,%rbp), %rax
	cmpq	$24, %rax
	je	61f
	addq	%r14, %r15
	movzbl	(%r15), %ecx
	cmpl	$40, %ecx
	je	67f
	cmpl	$32, %ecx
	jne	61f
	cmpq	$25, %rax
	je	61f
	cmpb	$40, 1(%r15)
	jne	61f
	addq	$2, %r15
	addq	%r12, %rbp
	addq	$-26, %rbp
	jmp	68f
60:
	leaq	.L1_x86_switch.table.b2sum_lines..writes..push_body_1_x86(%rip), %rax
	movq	16(%rsp), %rcx
	movq	248(%rsp), %rdx
	cmpq	(%rax,%rcx,8), %rdx
	jne	62f
	leaq	(%r12,%rbp), %rax
	cmpq	$4, %rax
	je	61f
	movzbl	(%r15), %eax
	cmpl	$40, %eax
	je	63f
	cmpl	$32, %eax
	jne	61f
	leaq	(%r12,%rbp), %rax
	cmpq	$5, %rax
	je	61f
	cmpb	$40, 1(%r15)
	jne	61f
	addq	$2, %r15
	addq	%r12, %rbp
	addq	$-6, %rbp
	jmp	68f
61:
	xorl	%r12d, %r12d
	xorl	%r15d, %r15d
	xorl	%ebp, %ebp
	jmp	69f
62:
	cmpq	$0, 128(%rsp)
	je	71f
	movq	32(%rsp), %rdi
	vj_call	rattle_dealloc
	jmp	71f
63:
	incq	%r15
	addq	%r12, %rbp
	addq	$-5, %rbp
	jmp	68f
64:
	leaq	40(%rsp), %rdi
	movq	%rdx, 32(%rsp)
	movq	%rdx, %rsi
	callq	std_alloc..vec..Vec..grow_amortized..01eec35b572d02af_1_x86
	testb	%al, %al
	je	65f
	movq	40(%rsp), %rdi
	movq	48(%rsp), %r9
	movq	56(%rsp), %rax
	movq	%rax, 128(%rsp)
	movq	240(%rsp), %r8
	movq	32(%rsp), %rdx
	jmp	59b
65:
	cmpq	$0, 56(%rsp)
	je	66f
	movq	40(%rsp), %rdi
	vj_call	rattle_dealloc
66:
	cmpq	$0, 144(%rsp)
	je	10b
	movq	136(%rsp), %rdi
	vj_call	rattle_dealloc
	jmp	10b
67:
	incq	%r15
	addq	%r12, %rbp
	addq	$-25, %rbp
68:
	movb	$1, %r12b
69:
	cmpq	$0, 128(%rsp)
	je	70f
	movq	32(%rsp), %rdi
	vj_call	rattle_dealloc
70:
	testb	%r12b, %r12b
	je	71f
	movq	136(%rsp), %rax
	movq	%rax, 208(%rsp)
	movq	248(%rsp), %rax
	movq	%rax, 216(%rsp)
	movq	144(%rsp), %rax
	movq	%rax, 224(%rsp)
	movb	$0, 24(%rsp)
	movq	376(%rsp), %rax
	movb	%al, 25(%rsp)
	movb	%r13b, 26(%rsp)
	movq	368(%rsp), %rax
	movb	%al, 27(%rsp)
	movq	%rbp, 8(%rsp)
	movq	%r15, (%rsp)
	movzbl	156(%rsp), %ecx
	leaq	256(%rsp), %rdi
	leaq	208(%rsp), %r8
	leaq	24(%rsp), %r9
	movq	16(%rsp), %rsi
	movq	384(%rsp), %rdx
	jmp	56b
71:
	cmpq	$0, 144(%rsp)
	je	46b
	movq	136(%rsp), %rdi
	jmp	45b
	vj_end	b2sum_lines..reads..read_body_1_x86

	vj_function	b2sum_lines..reads..digest_of_digits_1_x86
	pushq	%rbp
	pushq	%r15
	pushq	%r14
	pushq	%r13
	pushq	%r12
	pushq	%rbx
	pushq	%rax
	movzbl	%sil, %r13d
	leaq	.L1_x86_switch.table.b2sum_lines..reads..digest_of_digits_1_x86(%rip), %rax
	cmpq	%rcx, (%rax,%r13,8)
	jae	2f
1:
	movb	$0, (%rdi)
	xorps	%xmm0, %xmm0
	movups	%xmm0, 8(%rdi)
	movups	%xmm0, 24(%rdi)
	jmp	18f
2:
	testb	$1, %cl
	jne	3f
	testq	%rcx, %rcx
	je	1b
	movq	%rdx, %r14
	movq	%rdi, %r12
	movq	%rcx, %r15
	movq	%rcx, %rbx
	shrq	%rbx
	movl	$1, %esi
	movq	%rbx, %rdi
	vj_call	rattle_alloc
	testb	$1, %al
	je	4f
	cmpq	$2, %r15
	jne	5f
	xorl	%r15d, %r15d
	movb	$0, (%rdx,%r15)
	incq	%r15
	cmpq	%r15, %rbx
	je	6f
	jmp	14f
3:
	xorl	%edx, %edx
	xorl	%ebx, %ebx
	xorl	%eax, %eax
	xorl	%ecx, %ecx
	jmp	17f
4:
	movb	$1, %al
	xorl	%edx, %edx
	xorl	%ebx, %ebx
	jmp	15f
5:
	leaq	-1(%rbx), %r15
	movq	%rdx, %rdi
	xorl	%esi, %esi
	movq	%rdx, %rbp
	movq	%r15, %rdx
	vj_c_call	memset
	movq	%rbp, %rdx
	movb	$0, (%rdx,%r15)
	incq	%r15
	cmpq	%r15, %rbx
	jne	14f
6:
	xorl	%eax, %eax
	jmp	9f
7:
	addb	$-48, %sil
8:
	shlb	$4, %cl
	addb	%sil, %cl
	movb	%cl, (%rdx,%rax)
	incq	%rax
	cmpq	%rax, %r15
	je	19f
9:
	movzbl	(%r14,%rax,2), %ecx
	cmpb	$48, %cl
	jb	14f
	movzbl	1(%r14,%rax,2), %esi
	cmpb	$57, %cl
	ja	10f
	addb	$-48, %cl
	jmp	12f
10:
	cmpb	$65, %cl
	jb	14f
	cmpb	$70, %cl
	ja	11f
	addb	$-55, %cl
	jmp	12f
11:
	leal	-97(%rcx), %edi
	cmpb	$5, %dil
	ja	14f
	addb	$-87, %cl
12:
	cmpb	$48, %sil
	jb	14f
	cmpb	$57, %sil
	jbe	7b
	cmpb	$65, %sil
	jb	14f
	cmpb	$70, %sil
	ja	13f
	addb	$-55, %sil
	jmp	8b
13:
	leal	-97(%rsi), %edi
	cmpb	$5, %dil
	ja	14f
	addb	$-87, %sil
	jmp	8b
14:
	movq	%rdx, %rdi
	vj_call	rattle_dealloc
	xorl	%edx, %edx
	xorl	%ebx, %ebx
	xorl	%eax, %eax
15:
	xorl	%ecx, %ecx
16:
	movq	%r12, %rdi
17:
	movb	%al, (%rdi)
	movq	%rcx, 8(%rdi)
	movq	%rdx, 16(%rdi)
	movq	%rbx, 24(%rdi)
	movq	%rbx, 32(%rdi)
18:
	addq	$8, %rsp
	popq	%rbx
	popq	%r12
	popq	%r13
	popq	%r14
	popq	%r15
	popq	%rbp
	retq
19:
	leaq	.L1_x86_switch.table.b2sum_lines..writes..push_body_1_x86(%rip), %rax
	cmpq	%rbx, (%rax,%r13,8)
	jae	20f
	movq	%rdx, %rdi
	vj_call	rattle_dealloc
	movq	%r12, %rdi
	jmp	1b
20:
	movl	$1, %ecx
	xorl	%eax, %eax
	jmp	16b
	vj_end	b2sum_lines..reads..digest_of_digits_1_x86

	vj_function	b2sum_lines..reads..entry_with_1_x86
	pushq	%rbp
	pushq	%r15
	pushq	%r14
	pushq	%r13
	pushq	%r12
	pushq	%rbx
	subq	$104, %rsp
	movl	%edx, %r10d
	movq	%rdi, %rbx
	movq	168(%rsp), %r12
	movq	160(%rsp), %r13
	movq	(%r8), %r14
	movq	16(%r8), %r15
	movups	8(%r8), %xmm2
	movzbl	(%r9), %r11d
	movzbl	3(%r9), %eax
	movb	%al, 14(%rsp)
	movzwl	1(%r9), %eax
	movw	%ax, 12(%rsp)
	movw	$0, 8(%rsp)
	movb	$0, 10(%rsp)
	testl	%ecx, %ecx
	je	9f
	leaq	3(%rsp), %rax
	movq	%rax, 24(%rsp)
	xorps	%xmm0, %xmm0
	movups	%xmm0, 32(%rsp)
	testq	%r12, %r12
	je	16f
	movq	%r15, 56(%rsp)
	movq	%r14, 16(%rsp)
	xorl	%r15d, %r15d
	xorl	%ecx, %ecx
	xorl	%ebp, %ebp
	movb	%r11b, 2(%rsp)
	movaps	%xmm2, 64(%rsp)
	movl	%esi, 4(%rsp)
	jmp	6f
1:
	movb	$13, %r14b
2:
	cmpq	%r15, 40(%rsp)
	je	8f
3:
	movq	24(%rsp), %rax
4:
	movb	%r14b, (%rax,%r15)
	incq	%r15
	movq	%r15, 32(%rsp)
	xorl	%ecx, %ecx
5:
	incq	%rbp
	cmpq	%rbp, %r12
	je	11f
6:
	movzbl	(%r13,%rbp), %r14d
	cmpb	$1, %cl
	jne	7f
	movzbl	%r14b, %eax
	cmpl	$92, %eax
	je	2b
	cmpl	$114, %eax
	je	1b
	cmpl	$110, %eax
	jne	12f
	movb	$10, %r14b
	jmp	2b
	.p2align	4
7:
	movb	$1, %cl
	cmpb	$92, %r14b
	je	5b
	cmpq	%r15, 40(%rsp)
	jne	4b
	movl	%r10d, 48(%rsp)
	leaq	24(%rsp), %rdi
	movl	$1, %esi
	callq	std_alloc..vec..Vec..grow_amortized..01eec35b572d02af_1_x86
	testb	%al, %al
	je	44f
	movq	24(%rsp), %rax
	movq	32(%rsp), %r15
	movl	48(%rsp), %r10d
	movzbl	2(%rsp), %r11d
	movaps	64(%rsp), %xmm2
	movl	4(%rsp), %esi
	jmp	4b
8:
	movq	%rbx, 48(%rsp)
	movl	%r10d, %ebx
	leaq	24(%rsp), %rdi
	movl	$1, %esi
	callq	std_alloc..vec..Vec..grow_amortized..01eec35b572d02af_1_x86
	testb	%al, %al
	je	39f
	movq	32(%rsp), %r15
	movl	%ebx, %r10d
	movq	48(%rsp), %rbx
	movzbl	2(%rsp), %r11d
	movaps	64(%rsp), %xmm2
	movl	4(%rsp), %esi
	jmp	3b
9:
	testq	%r12, %r12
	je	17f
	xorl	%eax, %eax
	.p2align	4
10:
	cmpb	$0, (%r13,%rax)
	je	14f
	incq	%rax
	cmpq	%rax, %r12
	jne	10b
	movq	%r15, %rbp
	movl	%esi, 4(%rsp)
	movaps	%xmm2, 64(%rsp)
	movb	%r11b, 2(%rsp)
	movl	%r10d, %r15d
	leaq	3(%rsp), %rax
	movq	%rax, 80(%rsp)
	xorps	%xmm0, %xmm0
	movups	%xmm0, 88(%rsp)
	leaq	80(%rsp), %rdi
	movq	%r12, %rsi
	callq	std_alloc..vec..Vec..grow_amortized..01eec35b572d02af_1_x86
	testb	%al, %al
	je	38f
	movq	%r14, 16(%rsp)
	movq	80(%rsp), %rbp
	movq	88(%rsp), %rax
	movq	96(%rsp), %r9
	movl	%r15d, %r10d
	movzbl	2(%rsp), %r11d
	movaps	64(%rsp), %xmm2
	movl	4(%rsp), %esi
	jmp	18f
11:
	testb	%cl, %cl
	je	25f
12:
	cmpq	$0, 40(%rsp)
	movq	16(%rsp), %r14
	je	13f
	movq	24(%rsp), %rdi
	vj_call	rattle_dealloc
13:
	movq	56(%rsp), %r15
14:
	testq	%r15, %r15
	je	15f
	movq	%r14, %rdi
	vj_call	rattle_dealloc
15:
	movb	$0, (%rbx)
	xorps	%xmm0, %xmm0
	movups	%xmm0, 8(%rbx)
	movups	%xmm0, 24(%rbx)
	movups	%xmm0, 40(%rbx)
	movups	%xmm0, 56(%rbx)
	movb	$0, 72(%rbx)
	movzwl	8(%rsp), %eax
	movw	%ax, 73(%rbx)
	movzbl	10(%rsp), %eax
	jmp	30f
16:
	leaq	3(%rsp), %rbp
	xorl	%r15d, %r15d
	xorl	%r9d, %r9d
	jmp	29f
17:
	movq	%r14, 16(%rsp)
	leaq	3(%rsp), %rbp
	xorl	%r9d, %r9d
	xorl	%eax, %eax
18:
	leaq	(%rax,%r12), %r15
	leaq	(%rax,%rbp), %rdi
	movq	%rdi, %rcx
	subq	%r13, %rcx
	cmpq	%r12, %rcx
	movl	%esi, 4(%rsp)
	jae	27f
	cmpq	$4, %r12
	movq	16(%rsp), %r14
	jb	19f
	cmpq	$32, %rcx
	jae	33f
19:
	xorl	%ecx, %ecx
20:
	movq	%r12, %rsi
	movq	%rcx, %rdx
	andq	$3, %rsi
	je	22f
	movq	%rcx, %rdx
	.p2align	4
21:
	movzbl	(%r13,%rdx), %r8d
	movb	%r8b, (%rdi,%rdx)
	incq	%rdx
	decq	%rsi
	jne	21b
22:
	subq	%r12, %rcx
	cmpq	$-4, %rcx
	ja	24f
	addq	%rbp, %rax
	addq	$3, %rax
	.p2align	4
23:
	movzbl	(%r13,%rdx), %ecx
	movb	%cl, -3(%rax,%rdx)
	movzbl	1(%r13,%rdx), %ecx
	movb	%cl, -2(%rax,%rdx)
	movzbl	2(%r13,%rdx), %ecx
	movb	%cl, -1(%rax,%rdx)
	movzbl	3(%r13,%rdx), %ecx
	movb	%cl, (%rax,%rdx)
	addq	$4, %rdx
	cmpq	%rdx, %r12
	jne	23b
24:
	movl	4(%rsp), %esi
	jmp	29f
25:
	movq	24(%rsp), %rbp
	movq	40(%rsp), %r9
	testq	%r15, %r15
	movq	16(%rsp), %r14
	je	28f
	xorl	%eax, %eax
	.p2align	4
26:
	cmpb	$0, (%rbp,%rax)
	je	32f
	incq	%rax
	cmpq	%rax, %r15
	jne	26b
	jmp	29f
27:
	movq	%r13, %rsi
	movq	%r12, %rdx
	movq	%rbx, %r12
	movl	%r10d, %ebx
	movl	%r11d, %r13d
	movaps	%xmm2, 64(%rsp)
	movq	%r9, %r14
	vj_c_call	memmove
	movq	%r14, %r9
	movl	4(%rsp), %esi
	movaps	64(%rsp), %xmm2
	movl	%r13d, %r11d
	movl	%ebx, %r10d
	movq	%r12, %rbx
	movq	16(%rsp), %r14
	jmp	29f
28:
	xorl	%r15d, %r15d
29:
	movzbl	%sil, %eax
	movb	$0, (%rbx)
	movq	$1, 8(%rbx)
	movl	%eax, 16(%rbx)
	movl	%r10d, 20(%rbx)
	movq	%r14, 24(%rbx)
	movups	%xmm2, 32(%rbx)
	movq	%rbp, 48(%rbx)
	movq	%r15, 56(%rbx)
	movq	%r9, 64(%rbx)
	movb	%r11b, 72(%rbx)
	movzwl	12(%rsp), %eax
	movw	%ax, 73(%rbx)
	movzbl	14(%rsp), %eax
30:
	movb	%al, 75(%rbx)
	movl	$0, 76(%rbx)
31:
	addq	$104, %rsp
	popq	%rbx
	popq	%r12
	popq	%r13
	popq	%r14
	popq	%r15
	popq	%rbp
	retq
32:
	testq	%r9, %r9
	movq	56(%rsp), %r15
	je	14b
	movq	%rbp, %rdi
	vj_call	rattle_dealloc
	jmp	14b
33:
	cmpq	$32, %r12
	jae	34f
	xorl	%ecx, %ecx
	jmp	36f
34:
	movq	%r12, %rcx
	andq	$-32, %rcx
	leaq	(%rax,%rbp), %rdx
	addq	$16, %rdx
	xorl	%esi, %esi
	.p2align	4
35:
	movups	(%r13,%rsi), %xmm0
	movups	16(%r13,%rsi), %xmm1
	movups	%xmm0, -16(%rdx,%rsi)
	movups	%xmm1, (%rdx,%rsi)
	addq	$32, %rsi
	cmpq	%rsi, %rcx
	jne	35b
	cmpq	%rcx, %r12
	je	24b
	testb	$28, %r12b
	je	20b
36:
	movq	%rcx, %rdx
	movq	%r12, %rcx
	andq	$-4, %rcx
	.p2align	4
37:
	movl	(%r13,%rdx), %esi
	movl	%esi, (%rdi,%rdx)
	addq	$4, %rdx
	cmpq	%rdx, %rcx
	jne	37b
	cmpq	%rcx, %r12
	jne	20b
	jmp	24b
38:
	cmpq	$0, 96(%rsp)
	je	42f
	movq	80(%rsp), %rdi
	vj_call	rattle_dealloc
	jmp	42f
39:
	cmpq	$0, 40(%rsp)
	movq	48(%rsp), %rbx
	je	41f
40:
	movq	24(%rsp), %rdi
	vj_call	rattle_dealloc
41:
	movq	16(%rsp), %r14
	movq	56(%rsp), %rbp
42:
	testq	%rbp, %rbp
	je	43f
	movq	%r14, %rdi
	vj_call	rattle_dealloc
43:
	movb	$1, (%rbx)
	xorps	%xmm0, %xmm0
	movups	%xmm0, 8(%rbx)
	movups	%xmm0, 24(%rbx)
	movups	%xmm0, 40(%rbx)
	movups	%xmm0, 56(%rbx)
	movq	$0, 72(%rbx)
	jmp	31b
44:
	cmpq	$0, 40(%rsp)
	jne	40b
	jmp	41b
	vj_end	b2sum_lines..reads..entry_with_1_x86

	vj_constants	16
	.p2align	4, 0x0
.L1_x86_CPI76_0:
	.quad	7640891576956012808
	.quad	-4942790177534073029
.L1_x86_CPI76_1:
	.quad	4354685564936845355
	.quad	-6534734903238641935
.L1_x86_CPI76_2:
	.quad	2270897969802886507
	.quad	6620516959819538809
.L1_x86_CPI76_3:
	.quad	5840696475078001361
	.quad	-7276294671716946913
.L1_x86_CPI76_4:
	.long	1779033703
	.long	3144134277
	.long	1013904242
	.long	2773480762
.L1_x86_CPI76_5:
	.long	1359893119
	.long	2600822924
	.long	528734635
	.long	1541459225
	vj_function	b2sum_commands..ahead..read_group..432d41b752d14b0e_1_x86
	pushq	%rbp
	movq	%rsp, %rbp
	pushq	%r15
	pushq	%r14
	pushq	%r13
	pushq	%r12
	pushq	%rbx
	andq	$-32, %rsp
	subq	$3040, %rsp
	movq	$0, (%rsp)
	subq	$1536, %rsp
	movq	%r8, %r13
	movq	%rcx, 136(%rsp)
	movq	%rdx, 360(%rsp)
	movq	%rdi, 176(%rsp)
	movzbl	(%rsi), %eax
	movl	%eax, 188(%rsp)
	movl	4(%rsi), %eax
	movl	%eax, 372(%rsp)
	movq	48(%r8), %rdx
	cmpq	$64, %rdx
	movl	$64, %eax
	movl	$64, %ecx
	movq	%rdx, 344(%rsp)
	cmovbq	%rdx, %rcx
	addl	%ecx, %ecx
	cmpq	$64, %rcx
	cmovbq	%rcx, %rax
	movq	8(%rsi), %rcx
	movq	%rcx, 336(%rsp)
	movq	%rax, 48(%r8)
	movq	$0, 32(%r8)
	movq	8(%r8), %rbx
	movq	24(%r8), %rax
	movq	%rax, 40(%r8)
	leaq	8(%r8), %rax
	movq	%rax, 376(%rsp)
	testq	%rbx, %rbx
	je	4f
	movq	(%r13), %r15
	movq	16(%r13), %r14
	xorps	%xmm0, %xmm0
	leaq	8(%r13), %rax
	movups	%xmm0, (%rax)
	leaq	16(%r15), %r12
	jmp	2f
	.p2align	4
1:
	addq	$104, %r12
	decq	%rbx
	je	3f
2:
	cmpq	$0, (%r12)
	je	1b
	movq	-16(%r12), %rdi
	vj_call	rattle_dealloc
	jmp	1b
3:
	movq	%r15, (%r13)
	movq	$0, 8(%r13)
	movq	%r14, 16(%r13)
4:
	movq	136(%rsp), %rcx
	movq	344(%rsp), %rax
	cmpq	%rax, %rcx
	cmovbq	%rcx, %rax
	cmpq	$8, %rax
	setae	%al
	cmpb	$2, 188(%rsp)
	setb	%cl
	andb	%al, %cl
	cmpb	$1, %cl
	jne	206f
	movq	56(%r13), %r12
	movq	80(%r13), %rax
	movq	%rax, 144(%rsp)
	cmpq	%r12, %rax
	jae	10f
	leaq	80(%r13), %r15
	movq	72(%r13), %rdi
	leaq	48(%rsp), %r14
	movq	%r14, 72(%r13)
	xorps	%xmm0, %xmm0
	cmpq	$0, 88(%r13)
	movups	%xmm0, (%r15)
	je	5f
	vj_call	rattle_dealloc
	movq	56(%r13), %r12
	cmpq	$4194304, %r12
	movl	$4194304, %ebx
	cmovbq	%r12, %rbx
	testq	%r12, %r12
	jne	6f
	xorl	%r12d, %r12d
	jmp	9f
5:
	cmpq	$4194304, %r12
	movl	$4194304, %ebx
	cmovbq	%r12, %rbx
6:
	movl	$1, %esi
	movq	%rbx, %rdi
	vj_call	rattle_alloc
	testb	$1, %al
	je	206f
	movq	%rdx, %r14
	cmpq	$1, %r12
	jne	7f
	xorl	%r12d, %r12d
	jmp	8f
7:
	leaq	-1(%rbx), %r12
	movq	%r14, %rdi
	xorl	%esi, %esi
	movq	%r12, %rdx
	vj_c_call	memset
8:
	movb	$0, (%r14,%r12)
	incq	%r12
9:
	movq	72(%r13), %rdi
	movq	%r14, 72(%r13)
	movq	%r12, 144(%rsp)
	movq	%r12, 80(%r13)
	cmpq	$0, 88(%r13)
	movq	%rbx, 88(%r13)
	je	10f
	vj_call	rattle_dealloc
	movq	(%r15), %rax
	movq	%rax, 144(%rsp)
10:
	leaq	48(%rsp), %rax
	movq	72(%r13), %r11
	movq	%rax, 352(%rsp)
	movq	%rax, 64(%rsp)
	xorps	%xmm0, %xmm0
	movups	%xmm0, 72(%rsp)
	xorl	%r12d, %r12d
	xorl	%r14d, %r14d
	xorl	%ebx, %ebx
	movq	%r13, 168(%rsp)
	movq	%r11, 56(%rsp)
11:
	cmpq	%r12, 344(%rsp)
	jbe	50f
	cmpq	$2097152, %r14
	jb	12f
	movl	%r12d, %eax
	andl	$7, %eax
	je	50f
12:
	leaq	(,%rbx,8), %rax
	leaq	(%rax,%rax,2), %rcx
	movq	360(%rsp), %rax
	movq	(%rax,%rcx), %r13
	movq	8(%rax,%rcx), %rdx
	cmpq	$1, %rdx
	jne	13f
	cmpb	$45, (%r13)
	je	74f
13:
	movq	%rcx, 112(%rsp)
	xorps	%xmm0, %xmm0
	movaps	%xmm0, 208(%rsp)
	movaps	%xmm0, 192(%rsp)
	leaq	192(%rsp), %rdi
	movq	%r13, %rsi
	movq	%rdx, %r15
	callq	b2sum..disk..text_of_1_x86
	cmpb	$0, 192(%rsp)
	jne	53f
	movq	%r12, 120(%rsp)
	movq	200(%rsp), %rax
	movq	%rax, 96(%rsp)
	movq	208(%rsp), %r12
	movq	216(%rsp), %rax
	movq	%rax, 160(%rsp)
	testq	%r15, %r15
	movq	%r15, %r8
	movq	%r15, 128(%rsp)
	je	15f
	js	52f
	movl	$1, %esi
	movq	%r8, %rdi
	vj_call	rattle_alloc
	movq	128(%rsp), %r8
	testb	$1, %al
	je	52f
	movq	%rdx, %r15
	movq	%r15, %rcx
	subq	%r13, %rcx
	cmpq	%r8, %rcx
	jae	16f
14:
	xorl	%eax, %eax
	cmpq	$4, %r8
	jb	21f
	cmpq	$32, %rcx
	jb	21f
	cmpq	$32, %r8
	jae	17f
	xorl	%eax, %eax
	jmp	19f
	.p2align	4
15:
	leaq	48(%rsp), %r15
	movq	%r15, %rcx
	subq	%r13, %rcx
	cmpq	%r8, %rcx
	jb	14b
16:
	movq	%r15, %rdi
	movq	%r13, %rsi
	movq	%r8, %rdx
	vj_c_call	memmove
	jmp	25f
17:
	movq	%r8, %rax
	andq	$-32, %rax
	xorl	%ecx, %ecx
	.p2align	4
18:
	movups	(%r13,%rcx), %xmm0
	movups	16(%r13,%rcx), %xmm1
	movups	%xmm0, (%r15,%rcx)
	movups	%xmm1, 16(%r15,%rcx)
	addq	$32, %rcx
	cmpq	%rcx, %rax
	jne	18b
	cmpq	%rax, %r8
	je	25f
	testb	$28, %r8b
	je	21f
19:
	movq	%rax, %rcx
	movq	%r8, %rax
	andq	$-4, %rax
	.p2align	4
20:
	movl	(%r13,%rcx), %edx
	movl	%edx, (%r15,%rcx)
	addq	$4, %rcx
	cmpq	%rcx, %rax
	jne	20b
	cmpq	%rax, %r8
	je	25f
21:
	movq	%r8, %rdx
	movq	%rax, %rcx
	andq	$3, %rdx
	je	23f
	movq	%rax, %rcx
	.p2align	4
22:
	movzbl	(%r13,%rcx), %esi
	movb	%sil, (%r15,%rcx)
	incq	%rcx
	decq	%rdx
	jne	22b
23:
	subq	%r8, %rax
	cmpq	$-4, %rax
	ja	25f
	.p2align	4
24:
	movzbl	(%r13,%rcx), %eax
	movb	%al, (%r15,%rcx)
	movzbl	1(%r13,%rcx), %eax
	movb	%al, 1(%r15,%rcx)
	movzbl	2(%r13,%rcx), %eax
	movb	%al, 2(%r15,%rcx)
	movzbl	3(%r13,%rcx), %eax
	movb	%al, 3(%r15,%rcx)
	addq	$4, %rcx
	cmpq	%rcx, %r8
	jne	24b
	.p2align	4
25:
	xorps	%xmm0, %xmm0
	movaps	%xmm0, 3136(%rsp)
	movaps	%xmm0, 3152(%rsp)
	movaps	%xmm0, 384(%rsp)
	movaps	%xmm0, 400(%rsp)
	movaps	%xmm0, 416(%rsp)
	movaps	%xmm0, 432(%rsp)
	movaps	%xmm0, 448(%rsp)
	movaps	%xmm0, 464(%rsp)
	leaq	.L1_x86_static.205(%rip), %rsi
	leaq	3136(%rsp), %rdi
	movq	96(%rsp), %rdx
	movq	%r12, %rcx
	callq	b2sum..disk..marked_1_x86
	cmpb	$0, 3136(%rsp)
	jne	51f
	movq	%r14, 104(%rsp)
	movq	%rbx, 328(%rsp)
	movq	3144(%rsp), %r13
	movq	3152(%rsp), %rdx
	movq	3160(%rsp), %r14
	leaq	384(%rsp), %rdi
	movq	%r13, %rsi
	callq	std..fs..File..open..40609fae31b31c25_1_x86
	movzbl	384(%rsp), %ebx
	movl	388(%rsp), %r12d
	testq	%r14, %r14
	je	26f
	movq	%r13, %rdi
	vj_call	rattle_dealloc
26:
	testb	%bl, %bl
	movq	104(%rsp), %r14
	jne	51f
	cmpq	$0, 160(%rsp)
	je	27f
	movq	96(%rsp), %rdi
	vj_call	rattle_dealloc
27:
	movq	144(%rsp), %rbx
	subq	%r14, %rbx
	jne	28f
	xorl	%r14d, %r14d
	jmp	30f
	.p2align	4
28:
	movq	56(%rsp), %rax
	addq	%r14, %rax
	movq	%rax, 96(%rsp)
	xorl	%r14d, %r14d
	.p2align	4
29:
	movq	96(%rsp), %rax
	leaq	(%rax,%r14), %rsi
	movq	%rbx, %r13
	subq	%r14, %r13
	movl	%r12d, %edi
	movq	%r13, %rdx
	vj_call	b2sum_read
	testq	%rax, %rax
	js	47f
	cmpq	%r13, %rax
	cmovbq	%rax, %r13
	testq	%r13, %r13
	je	30f
	addq	%r13, %r14
	cmpq	%rbx, %r14
	jb	29b
	.p2align	4
30:
	movl	%r12d, %edi
	cmpq	%rbx, %r14
	je	73f
	vj_call	b2sum_close
	cmpq	$0, 128(%rsp)
	je	31f
	movq	%r15, %rdi
	vj_call	rattle_dealloc
31:
	movq	360(%rsp), %rax
	movq	112(%rsp), %rcx
	movq	(%rax,%rcx), %r12
	movq	8(%rax,%rcx), %rbx
	testq	%rbx, %rbx
	je	33f
	js	69f
	movl	$1, %esi
	movq	%rbx, %rdi
	vj_call	rattle_alloc
	testb	$1, %al
	je	69f
	movq	%rdx, %r15
	movq	%r15, %rcx
	subq	%r12, %rcx
	cmpq	%rbx, %rcx
	jae	34f
32:
	xorl	%eax, %eax
	cmpq	$4, %rbx
	jb	35f
	cmpq	$32, %rcx
	movq	56(%rsp), %r11
	jb	40f
	cmpq	$32, %rbx
	jae	36f
	xorl	%eax, %eax
	jmp	38f
	.p2align	4
33:
	leaq	48(%rsp), %r15
	movq	%r15, %rcx
	subq	%r12, %rcx
	cmpq	%rbx, %rcx
	jb	32b
34:
	movq	%r15, %rdi
	movq	%r12, %rsi
	movq	%rbx, %rdx
	vj_c_call	memmove
	movq	56(%rsp), %r11
	jmp	44f
35:
	movq	56(%rsp), %r11
	jmp	40f
36:
	movq	%rbx, %rax
	andq	$-32, %rax
	xorl	%ecx, %ecx
	.p2align	4
37:
	movups	(%r12,%rcx), %xmm0
	movups	16(%r12,%rcx), %xmm1
	movups	%xmm0, (%r15,%rcx)
	movups	%xmm1, 16(%r15,%rcx)
	addq	$32, %rcx
	cmpq	%rcx, %rax
	jne	37b
	cmpq	%rax, %rbx
	je	44f
	testb	$28, %bl
	je	40f
38:
	movq	%rax, %rcx
	movq	%rbx, %rax
	andq	$-4, %rax
	.p2align	4
39:
	movl	(%r12,%rcx), %edx
	movl	%edx, (%r15,%rcx)
	addq	$4, %rcx
	cmpq	%rcx, %rax
	jne	39b
	cmpq	%rax, %rbx
	je	44f
40:
	movq	%rbx, %rdx
	movq	%rax, %rcx
	andq	$3, %rdx
	je	42f
	movq	%rax, %rcx
	.p2align	4
41:
	movzbl	(%r12,%rcx), %esi
	movb	%sil, (%r15,%rcx)
	incq	%rcx
	decq	%rdx
	jne	41b
42:
	subq	%rbx, %rax
	cmpq	$-4, %rax
	ja	44f
	.p2align	4
43:
	movzbl	(%r12,%rcx), %eax
	movb	%al, (%r15,%rcx)
	movzbl	1(%r12,%rcx), %eax
	movb	%al, 1(%r15,%rcx)
	movzbl	2(%r12,%rcx), %eax
	movb	%al, 2(%r15,%rcx)
	movzbl	3(%r12,%rcx), %eax
	movb	%al, 3(%r15,%rcx)
	addq	$4, %rcx
	cmpq	%rcx, %rbx
	jne	43b
	.p2align	4
44:
	movq	120(%rsp), %r12
	cmpq	%r12, 80(%rsp)
	je	46f
45:
	movq	104(%rsp), %rdx
	addq	%rdx, %r14
	leaq	(%r12,%r12,4), %rax
	movq	352(%rsp), %rcx
	movq	%r15, (%rcx,%rax,8)
	movq	%rbx, 8(%rcx,%rax,8)
	movq	%rbx, 16(%rcx,%rax,8)
	movq	%rdx, 24(%rcx,%rax,8)
	movq	%r14, 32(%rcx,%rax,8)
	incq	%r12
	movq	%r12, 72(%rsp)
	movq	328(%rsp), %rbx
	incq	%rbx
	cmpq	136(%rsp), %rbx
	jne	11b
	jmp	50f
46:
	leaq	64(%rsp), %rdi
	callq	std_alloc..vec..Vec..grow_amortized..ceac4a91d2a6d4e6_1_x86
	testb	%al, %al
	je	80f
	movq	64(%rsp), %rax
	movq	%rax, 352(%rsp)
	movq	72(%rsp), %r12
	movq	56(%rsp), %r11
	jmp	45b
47:
	leaq	384(%rsp), %rdi
	callq	std_io..io..error..last_error_1_x86
	movl	%r12d, %edi
	vj_call	b2sum_close
	movl	$1, %ebx
	cmpq	$0, 128(%rsp)
	je	49f
48:
	movq	%r15, %rdi
	vj_call	rattle_dealloc
49:
	movq	120(%rsp), %r12
	jmp	54f
50:
	xorl	%ebx, %ebx
	jmp	55f
51:
	cmpq	$0, 128(%rsp)
	je	52f
	movq	%r15, %rdi
	vj_call	rattle_dealloc
52:
	cmpq	$0, 160(%rsp)
	movq	120(%rsp), %r12
	je	53f
	movq	96(%rsp), %rdi
	vj_call	rattle_dealloc
53:
	movl	$1, %ebx
54:
	movq	56(%rsp), %r11
55:
	movq	%rbx, 360(%rsp)
	movq	64(%rsp), %r15
	movq	80(%rsp), %rax
	cmpq	$20, %r12
	movq	%r12, 120(%rsp)
	movq	%r15, 96(%rsp)
	movq	%rax, 344(%rsp)
	ja	62f
	cmpq	$2, %r12
	movq	%r12, %r15
	jb	97f
	movl	$1, %eax
	movq	96(%rsp), %rdx
	movq	%rdx, %rcx
	movq	%r15, %r12
	movq	%rdx, %r15
	jmp	59f
56:
	xorl	%edi, %edi
57:
	movq	400(%rsp), %r8
	movq	%r8, 16(%r15,%rdi)
	movaps	384(%rsp), %xmm0
	movups	%xmm0, (%r15,%rdi)
	movq	%rdx, 24(%r15,%rdi)
	movq	%rsi, 32(%r15,%rdi)
58:
	incq	%rax
	addq	$40, %rcx
	cmpq	%r12, %rax
	je	67f
59:
	leaq	(%rax,%rax,4), %rdi
	movq	-16(%r15,%rdi,8), %r9
	movq	24(%r15,%rdi,8), %rdx
	movq	32(%r15,%rdi,8), %rsi
	movq	%rdx, %r8
	subq	%rsi, %r8
	subq	-8(%r15,%rdi,8), %r9
	cmpq	%r9, %r8
	jae	58b
	leaq	(%r15,%rdi,8), %r9
	movq	%rax, %rdi
	movq	16(%r9), %r10
	movq	%r10, 400(%rsp)
	movups	(%r9), %xmm0
	movaps	%xmm0, 384(%rsp)
	movups	-40(%r9), %xmm0
	movups	-24(%r9), %xmm1
	movups	%xmm0, (%r9)
	movups	%xmm1, 16(%r9)
	movq	-8(%r9), %r10
	movq	%r10, 32(%r9)
	decq	%rdi
	je	56b
	movq	%rcx, %r9
	.p2align	4
60:
	movq	-16(%r9), %r10
	subq	-8(%r9), %r10
	cmpq	%r10, %r8
	jae	61f
	decq	%rdi
	leaq	-40(%r9), %r10
	movq	32(%r10), %r11
	movq	%r11, 32(%r9)
	movups	(%r10), %xmm0
	movups	16(%r10), %xmm1
	movups	%xmm1, 16(%r9)
	movups	%xmm0, (%r9)
	movq	%r10, %r9
	testq	%rdi, %rdi
	jne	60b
	xorl	%edi, %edi
61:
	movq	56(%rsp), %r11
	shlq	$3, %rdi
	leaq	(%rdi,%rdi,4), %rdi
	jmp	57b
62:
	movq	64(%r15), %r14
	subq	72(%r15), %r14
	movq	24(%r15), %r13
	subq	32(%r15), %r13
	leaq	112(%r15), %rax
	movl	$2, %ebx
	cmpq	%r13, %r14
	jae	64f
	.p2align	4
63:
	movq	-8(%rax), %rcx
	subq	(%rax), %rcx
	movq	-48(%rax), %rdx
	subq	-40(%rax), %rdx
	cmpq	%rdx, %rcx
	jae	65f
	incq	%rbx
	addq	$40, %rax
	cmpq	%rbx, %r12
	jne	63b
	jmp	66f
	.p2align	4
64:
	movq	-8(%rax), %rcx
	subq	(%rax), %rcx
	movq	-48(%rax), %rdx
	subq	-40(%rax), %rdx
	cmpq	%rdx, %rcx
	jb	65f
	incq	%rbx
	addq	$40, %rax
	cmpq	%rbx, %r12
	jne	64b
	jmp	67f
65:
	cmpq	%r12, %rbx
	jne	68f
	cmpq	%r13, %r14
	jae	67f
66:
	movq	%r12, %rdx
	shrq	%rdx
	movq	%r12, %rax
	subq	%rdx, %rax
	leaq	(%rax,%rax,4), %rax
	leaq	(%r15,%rax,8), %rsi
	movq	%r15, %rdi
	callq	core..slice..edits..mirror..27.b2sum_commands..ahead..Part_1_x86
	movq	56(%rsp), %r11
67:
	leaq	48(%rsp), %rax
	movq	%rax, 384(%rsp)
	xorps	%xmm0, %xmm0
	movups	%xmm0, 392(%rsp)
	jmp	98f
68:
	leaq	(,%r12,8), %rax
	leaq	(%rax,%rax,4), %rdi
	testq	%rdi, %rdi
	movq	%r12, %r15
	js	97f
	movl	$8, %esi
	vj_call	rattle_alloc
	movq	56(%rsp), %r11
	xorl	%r12d, %r12d
	testb	$1, %al
	cmovneq	%rdx, %r12
	je	97f
	movq	%rdx, 192(%rsp)
	movq	%r15, 200(%rsp)
	cmpq	$65, %r15
	setae	%cl
	movq	%r15, %rax
	shrq	%rax
	cmpq	%rax, %rbx
	setae	%dl
	orb	%cl, %dl
	jne	75f
	bsrq	%r15, %rcx
	xorl	$63, %ecx
	addl	%ecx, %ecx
	xorl	$126, %ecx
	leaq	192(%rsp), %r8
	movq	96(%rsp), %rdi
	movq	%r15, %rsi
	movq	%r15, %rdx
	jmp	95f
69:
	movq	80(%rsp), %rbx
	movq	120(%rsp), %r15
	testq	%r15, %r15
	je	72f
	movq	352(%rsp), %rax
	leaq	16(%rax), %r14
	jmp	71f
	.p2align	4
70:
	addq	$40, %r14
	decq	%r15
	je	72f
71:
	cmpq	$0, (%r14)
	je	70b
	movq	-16(%r14), %rdi
	vj_call	rattle_dealloc
	jmp	70b
72:
	testq	%rbx, %rbx
	je	206f
	movq	352(%rsp), %rdi
	jmp	205f
73:
	vj_call	b2sum_close
	movl	$257, %ebx
	cmpq	$0, 128(%rsp)
	jne	48b
	jmp	49b
74:
	movl	$1, %ebx
	jmp	55b
75:
	xorps	%xmm0, %xmm0
	movaps	%xmm0, 3152(%rsp)
	movaps	%xmm0, 3136(%rsp)
	movq	$0, 3168(%rsp)
	movl	$64, %r9d
	cmpq	$4097, %r15
	movq	96(%rsp), %r15
	jb	77f
	movabsq	$4294967296, %rdx
	xorl	%ecx, %ecx
	movq	120(%rsp), %r8
76:
	movq	%rcx, %rsi
	addq	%rdx, %rcx
	shrq	%rcx
	movq	%rcx, %rdi
	imulq	%rcx, %rdi
	cmpq	%r8, %rdi
	cmovaq	%rcx, %rdx
	cmovaq	%rsi, %rcx
	leaq	1(%rcx), %rsi
	cmpq	%rdx, %rsi
	jb	76b
	cmpq	$65, %rcx
	movl	$64, %r9d
	cmovaeq	%rcx, %r9
77:
	cmpq	%r9, %rax
	cmovbq	%rax, %r9
	movabsq	$4611686018427387904, %rax
	xorl	%edx, %edx
	divq	120(%rsp)
	incq	%rax
	cmpq	%r9, %rbx
	setae	%cl
	movq	%r9, %r8
	cmovaq	%rbx, %r8
	cmpq	%r13, %r14
	jae	94f
	cmpq	%r9, %rbx
	jb	94f
	cmpq	$15, %rbx
	jbe	78f
	movq	%rbx, %rdx
	shrq	%rdx
	movq	%rbx, %rcx
	subq	%rdx, %rcx
	leaq	(%rcx,%rcx,4), %rcx
	leaq	(%r15,%rcx,8), %rsi
	movq	%r15, %rdi
	movq	%rax, %r14
	movq	%r9, %r13
	callq	core..slice..edits..mirror..27.b2sum_commands..ahead..Part_1_x86
	movq	%r13, %r9
	movq	%r14, %rax
	movb	$1, %cl
	jmp	93f
78:
	leaq	-2(%rbx), %rsi
	movq	%rsi, %rdx
	shrq	%rdx
	movq	%rbx, %rcx
	decq	%rcx
	je	79f
	leaq	(%rcx,%rcx,4), %rcx
	movq	32(%r15), %rdi
	movq	%rdi, 416(%rsp)
	movups	(%r15), %xmm0
	movups	16(%r15), %xmm1
	movaps	%xmm1, 400(%rsp)
	movaps	%xmm0, 384(%rsp)
	movq	32(%r15,%rcx,8), %rdi
	movups	(%r15,%rcx,8), %xmm0
	movups	16(%r15,%rcx,8), %xmm1
	movups	%xmm0, (%r15)
	movups	%xmm1, 16(%r15)
	movq	%rdi, 32(%r15)
	movq	416(%rsp), %rdi
	movq	%rdi, 32(%r15,%rcx,8)
	movaps	384(%rsp), %xmm0
	movaps	400(%rsp), %xmm1
	movups	%xmm1, 16(%r15,%rcx,8)
	movups	%xmm0, (%r15,%rcx,8)
79:
	movb	$1, %cl
	testq	%rdx, %rdx
	je	93f
	cmpq	$1, %rsi
	jbe	85f
	leaq	(%rsi,%rsi,4), %rsi
	movq	72(%r15), %rdi
	movq	%rdi, 416(%rsp)
	movups	40(%r15), %xmm0
	movups	56(%r15), %xmm1
	movaps	%xmm1, 400(%rsp)
	movaps	%xmm0, 384(%rsp)
	movq	32(%r15,%rsi,8), %rdi
	movups	(%r15,%rsi,8), %xmm0
	movups	16(%r15,%rsi,8), %xmm1
	movups	%xmm0, 40(%r15)
	movups	%xmm1, 56(%r15)
	movq	%rdi, 72(%r15)
	movq	416(%rsp), %rdi
	movq	%rdi, 32(%r15,%rsi,8)
	movaps	384(%rsp), %xmm0
	movaps	400(%rsp), %xmm1
	movups	%xmm1, 16(%r15,%rsi,8)
	movups	%xmm0, (%r15,%rsi,8)
	jmp	86f
80:
	testq	%rbx, %rbx
	je	81f
	movq	%r15, %rdi
	vj_call	rattle_dealloc
81:
	movq	64(%rsp), %rbx
	movq	72(%rsp), %r15
	movq	80(%rsp), %r14
	testq	%r15, %r15
	je	84f
	leaq	16(%rbx), %r12
	jmp	83f
82:
	addq	$40, %r12
	decq	%r15
	je	84f
83:
	cmpq	$0, (%r12)
	je	82b
	movq	-16(%r12), %rdi
	vj_call	rattle_dealloc
	jmp	82b
84:
	testq	%r14, %r14
	je	206f
	movq	%rbx, %rdi
	jmp	205f
85:
	testq	%rsi, %rsi
	jne	86f
	leaq	(%rsi,%rsi,4), %rsi
	movq	32(%r15,%rsi,8), %rdi
	movq	%rdi, 416(%rsp)
	movups	(%r15,%rsi,8), %xmm0
	movups	16(%r15,%rsi,8), %xmm1
	movaps	%xmm1, 400(%rsp)
	movaps	%xmm0, 384(%rsp)
	movq	72(%r15), %rdi
	movups	40(%r15), %xmm0
	movups	56(%r15), %xmm1
	movups	%xmm0, (%r15,%rsi,8)
	movups	%xmm1, 16(%r15,%rsi,8)
	movq	%rdi, 32(%r15,%rsi,8)
	movq	416(%rsp), %rsi
	movq	%rsi, 72(%r15)
	movaps	384(%rsp), %xmm0
	movaps	400(%rsp), %xmm1
	movups	%xmm1, 56(%r15)
	movups	%xmm0, 40(%r15)
86:
	cmpq	$1, %rdx
	je	93f
	leaq	-3(%rbx), %rsi
	cmpq	$2, %rsi
	jbe	87f
	leaq	(%rsi,%rsi,4), %rsi
	movq	112(%r15), %rdi
	movq	%rdi, 416(%rsp)
	movups	80(%r15), %xmm0
	movups	96(%r15), %xmm1
	movaps	%xmm1, 400(%rsp)
	movaps	%xmm0, 384(%rsp)
	movq	32(%r15,%rsi,8), %rdi
	movups	(%r15,%rsi,8), %xmm0
	movups	16(%r15,%rsi,8), %xmm1
	movups	%xmm0, 80(%r15)
	movups	%xmm1, 96(%r15)
	movq	%rdi, 112(%r15)
	movq	416(%rsp), %rdi
	movq	%rdi, 32(%r15,%rsi,8)
	movaps	384(%rsp), %xmm0
	movaps	400(%rsp), %xmm1
	movups	%xmm1, 16(%r15,%rsi,8)
	movups	%xmm0, (%r15,%rsi,8)
	jmp	88f
87:
	je	88f
	leaq	(%rsi,%rsi,4), %rsi
	movq	32(%r15,%rsi,8), %rdi
	movq	%rdi, 416(%rsp)
	movups	(%r15,%rsi,8), %xmm0
	movups	16(%r15,%rsi,8), %xmm1
	movaps	%xmm1, 400(%rsp)
	movaps	%xmm0, 384(%rsp)
	movq	112(%r15), %rdi
	movups	80(%r15), %xmm0
	movups	96(%r15), %xmm1
	movups	%xmm0, (%r15,%rsi,8)
	movups	%xmm1, 16(%r15,%rsi,8)
	movq	%rdi, 32(%r15,%rsi,8)
	movq	416(%rsp), %rsi
	movq	%rsi, 112(%r15)
	movaps	384(%rsp), %xmm0
	movaps	400(%rsp), %xmm1
	movups	%xmm1, 96(%r15)
	movups	%xmm0, 80(%r15)
88:
	cmpq	$2, %rdx
	je	93f
	leaq	-4(%rbx), %rsi
	cmpq	$3, %rsi
	jbe	89f
	leaq	(%rsi,%rsi,4), %rsi
	movq	152(%r15), %rdi
	movq	%rdi, 416(%rsp)
	movups	120(%r15), %xmm0
	movups	136(%r15), %xmm1
	movaps	%xmm1, 400(%rsp)
	movaps	%xmm0, 384(%rsp)
	movq	32(%r15,%rsi,8), %rdi
	movups	(%r15,%rsi,8), %xmm0
	movups	16(%r15,%rsi,8), %xmm1
	movups	%xmm0, 120(%r15)
	movups	%xmm1, 136(%r15)
	movq	%rdi, 152(%r15)
	movq	416(%rsp), %rdi
	movq	%rdi, 32(%r15,%rsi,8)
	movaps	384(%rsp), %xmm0
	movaps	400(%rsp), %xmm1
	movups	%xmm1, 16(%r15,%rsi,8)
	movups	%xmm0, (%r15,%rsi,8)
	jmp	90f
89:
	je	90f
	leaq	(%rsi,%rsi,4), %rsi
	movq	32(%r15,%rsi,8), %rdi
	movq	%rdi, 416(%rsp)
	movups	(%r15,%rsi,8), %xmm0
	movups	16(%r15,%rsi,8), %xmm1
	movaps	%xmm1, 400(%rsp)
	movaps	%xmm0, 384(%rsp)
	movq	152(%r15), %rdi
	movups	120(%r15), %xmm0
	movups	136(%r15), %xmm1
	movups	%xmm0, (%r15,%rsi,8)
	movups	%xmm1, 16(%r15,%rsi,8)
	movq	%rdi, 32(%r15,%rsi,8)
	movq	416(%rsp), %rsi
	movq	%rsi, 152(%r15)
	movaps	384(%rsp), %xmm0
	movaps	400(%rsp), %xmm1
	movups	%xmm1, 136(%r15)
	movups	%xmm0, 120(%r15)
90:
	cmpq	$3, %rdx
	je	93f
	leaq	-5(%rbx), %rsi
	cmpq	$4, %rsi
	jbe	91f
	leaq	(%rsi,%rsi,4), %rsi
	movq	192(%r15), %rdi
	movq	%rdi, 416(%rsp)
	movups	160(%r15), %xmm0
	movups	176(%r15), %xmm1
	movaps	%xmm1, 400(%rsp)
	movaps	%xmm0, 384(%rsp)
	movq	32(%r15,%rsi,8), %rdi
	movups	(%r15,%rsi,8), %xmm0
	movups	16(%r15,%rsi,8), %xmm1
	movups	%xmm0, 160(%r15)
	movups	%xmm1, 176(%r15)
	movq	%rdi, 192(%r15)
	movq	416(%rsp), %rdi
	movq	%rdi, 32(%r15,%rsi,8)
	movaps	384(%rsp), %xmm0
	movaps	400(%rsp), %xmm1
	movups	%xmm1, 16(%r15,%rsi,8)
	movups	%xmm0, (%r15,%rsi,8)
	jmp	92f
91:
	je	92f
	leaq	(%rsi,%rsi,4), %rsi
	movq	32(%r15,%rsi,8), %rdi
	movq	%rdi, 416(%rsp)
	movups	(%r15,%rsi,8), %xmm0
	movups	16(%r15,%rsi,8), %xmm1
	movaps	%xmm1, 400(%rsp)
	movaps	%xmm0, 384(%rsp)
	movq	192(%r15), %rdi
	movups	160(%r15), %xmm0
	movups	176(%r15), %xmm1
	movups	%xmm0, (%r15,%rsi,8)
	movups	%xmm1, 16(%r15,%rsi,8)
	movq	%rdi, 32(%r15,%rsi,8)
	movq	416(%rsp), %rsi
	movq	%rsi, 192(%r15)
	movaps	384(%rsp), %xmm0
	movaps	400(%rsp), %xmm1
	movups	%xmm1, 176(%r15)
	movups	%xmm0, 160(%r15)
92:
	cmpq	$4, %rdx
	jne	209f
93:
	movq	%rbx, %r8
94:
	leaq	192(%rsp), %rdx
	movq	%rdx, 24(%rsp)
	movq	%rax, 16(%rsp)
	movq	%r9, 8(%rsp)
	movl	$0, (%rsp)
	movzbl	%cl, %r9d
	leaq	3136(%rsp), %rdi
	movq	%r15, %rsi
	movq	120(%rsp), %rdx
	xorl	%ecx, %ecx
	callq	core..slice..sort..runs..climb..610785a6ec0ddab1_1_x86
	testb	$1, 3144(%rsp)
	jne	96f
	movq	3136(%rsp), %rdx
	movl	$127, %eax
	bsrq	%rdx, %rax
	xorl	$63, %eax
	addl	%eax, %eax
	movl	$126, %ecx
	subl	%eax, %ecx
	leaq	192(%rsp), %r8
	movq	%r15, %rdi
	movq	%rdx, %rsi
95:
	callq	core..slice..sort..stable..quicksort..610785a6ec0ddab1_1_x86
96:
	movq	%r12, %rdi
	vj_call	rattle_dealloc
	movq	120(%rsp), %r15
	movq	56(%rsp), %r11
97:
	leaq	48(%rsp), %r14
	movq	%r14, 384(%rsp)
	xorps	%xmm0, %xmm0
	movups	%xmm0, 392(%rsp)
	testq	%r15, %r15
	movq	%r15, %r12
	movq	96(%rsp), %r15
	je	106f
98:
	leaq	32(%r15), %rbx
	leaq	48(%rsp), %rax
	xorl	%r13d, %r13d
	movq	%r12, %r14
	jmp	100f
	.p2align	4
99:
	leaq	(%r11,%r15), %rcx
	subq	%r15, %r12
	movq	%r13, %rdx
	shlq	$4, %rdx
	movq	%rcx, (%rax,%rdx)
	movq	%r12, 8(%rax,%rdx)
	incq	%r13
	movq	%r13, 392(%rsp)
	addq	$40, %rbx
	decq	%r14
	je	101f
100:
	movq	-8(%rbx), %r15
	movq	(%rbx), %r12
	cmpq	%r13, 400(%rsp)
	jne	99b
	leaq	384(%rsp), %rdi
	callq	std_alloc..vec..Vec..grow_amortized..61dd7b1dc1d96f4a_1_x86
	testb	%al, %al
	je	158f
	movq	384(%rsp), %rax
	movq	392(%rsp), %r13
	movq	56(%rsp), %r11
	jmp	99b
101:
	movq	384(%rsp), %rax
	movq	%rax, 56(%rsp)
	movq	400(%rsp), %r15
	movq	120(%rsp), %r12
	movq	%r12, %rax
	shrq	$57, %rax
	jne	102f
	movq	%r12, %rbx
	shlq	$6, %rbx
	movl	$1, %esi
	movq	%rbx, %rdi
	vj_call	rattle_alloc
	testb	$1, %al
	je	102f
	cmpq	$1, %r12
	jne	130f
	xorl	%ebx, %ebx
	movq	%rdx, %r14
	jmp	131f
102:
	testq	%r15, %r15
	movq	96(%rsp), %r14
	je	103f
	movq	56(%rsp), %rdi
	vj_call	rattle_dealloc
103:
	leaq	16(%r14), %rbx
	jmp	105f
	.p2align	4
104:
	addq	$40, %rbx
	decq	%r12
	je	204f
105:
	cmpq	$0, (%rbx)
	je	104b
	movq	-16(%rbx), %rdi
	vj_call	rattle_dealloc
	jmp	104b
106:
	movb	$1, %dl
	xorl	%r13d, %r13d
	movb	$1, %al
	movq	%r14, %r15
	movq	176(%rsp), %rcx
	cmpq	$0, 32(%rcx)
	jne	132f
107:
	movl	%edx, 176(%rsp)
	movb	%al, 328(%rsp)
	movq	96(%rcx), %rax
	movq	%rax, 104(%rsp)
	movq	104(%rcx), %rax
	movq	%rax, 128(%rsp)
	movq	120(%rcx), %rbx
	movq	128(%rcx), %rax
	movq	%rax, 56(%rsp)
	cmpq	$8, %r13
	movl	$8, %eax
	cmovbq	%r13, %rax
	movq	%rax, 160(%rsp)
	testb	$1, 188(%rsp)
	movq	%r14, 136(%rsp)
	je	135f
	leaq	3136(%rsp), %rdi
	movl	$1408, %edx
	xorl	%esi, %esi
	vj_c_call	memset
	xorps	%xmm0, %xmm0
	movaps	%xmm0, 304(%rsp)
	movaps	%xmm0, 288(%rsp)
	movaps	%xmm0, 272(%rsp)
	movaps	%xmm0, 256(%rsp)
	movaps	%xmm0, 240(%rsp)
	movaps	%xmm0, 224(%rsp)
	movaps	%xmm0, 208(%rsp)
	movaps	%xmm0, 192(%rsp)
	testq	%r13, %r13
	je	165f
	movq	%rbx, 112(%rsp)
	movq	336(%rsp), %rbx
	leaq	-1(%rbx), %rax
	cmpq	$32, %rax
	setae	%al
	movq	128(%rsp), %rdx
	cmpq	$9, %rdx
	setae	%cl
	orb	%al, %cl
	movq	56(%rsp), %rsi
	cmpq	$9, %rsi
	setae	%al
	orb	%cl, %al
	jne	160f
	movl	%ebx, %eax
	orl	$16842752, %eax
	movd	%eax, %xmm0
	pxor	.L1_x86_CPI76_4(%rip), %xmm0
	movdqa	%xmm0, 144(%rsp)
	pxor	%xmm0, %xmm0
	movdqa	%xmm0, 64(%rsp)
	leaq	64(%rsp), %rdi
	movq	%rsi, %r14
	movq	104(%rsp), %rsi
	vj_c_call	memcpy
	leaq	72(%rsp), %rdi
	movq	112(%rsp), %rsi
	movq	%r14, %rdx
	vj_c_call	memcpy
	movaps	144(%rsp), %xmm1
	movaps	64(%rsp), %xmm0
	xorps	.L1_x86_CPI76_5(%rip), %xmm0
	movaps	%xmm1, 3136(%rsp)
	movaps	%xmm0, 3152(%rsp)
	movaps	%xmm1, 3168(%rsp)
	movaps	%xmm0, 3184(%rsp)
	movq	$0, 3200(%rsp)
	movl	$0, 3208(%rsp)
	movw	%bx, 3212(%rsp)
	xorps	%xmm0, %xmm0
	movups	%xmm0, 3214(%rsp)
	movups	%xmm0, 3230(%rsp)
	movups	%xmm0, 3246(%rsp)
	movups	%xmm0, 3262(%rsp)
	movups	%xmm0, 3278(%rsp)
	movups	%xmm0, 3294(%rsp)
	movw	$0, 3310(%rsp)
	movaps	%xmm0, 192(%rsp)
	cmpq	$1, %r13
	je	108f
	movaps	%xmm0, 64(%rsp)
	leaq	64(%rsp), %rdi
	movq	104(%rsp), %rsi
	movq	128(%rsp), %rdx
	vj_c_call	memcpy
	leaq	72(%rsp), %rdi
	movq	112(%rsp), %rsi
	movq	56(%rsp), %rdx
	vj_c_call	memcpy
	movaps	144(%rsp), %xmm1
	movaps	64(%rsp), %xmm0
	xorps	.L1_x86_CPI76_5(%rip), %xmm0
	movaps	%xmm1, 3312(%rsp)
	movaps	%xmm0, 3328(%rsp)
	movaps	%xmm1, 3344(%rsp)
	movaps	%xmm0, 3360(%rsp)
	movq	$0, 3376(%rsp)
	movl	$0, 3384(%rsp)
	movw	%bx, 3388(%rsp)
	xorps	%xmm0, %xmm0
	movups	%xmm0, 3390(%rsp)
	movups	%xmm0, 3406(%rsp)
	movups	%xmm0, 3422(%rsp)
	movups	%xmm0, 3438(%rsp)
	movups	%xmm0, 3454(%rsp)
	movups	%xmm0, 3470(%rsp)
	movw	$0, 3486(%rsp)
	movq	$1, 208(%rsp)
	movq	$0, 216(%rsp)
	cmpq	$2, %r13
	je	108f
	movaps	%xmm0, 64(%rsp)
	leaq	64(%rsp), %rdi
	movq	104(%rsp), %rsi
	movq	128(%rsp), %rdx
	vj_c_call	memcpy
	leaq	72(%rsp), %rdi
	movq	112(%rsp), %rsi
	movq	56(%rsp), %rdx
	vj_c_call	memcpy
	movaps	144(%rsp), %xmm1
	movaps	64(%rsp), %xmm0
	xorps	.L1_x86_CPI76_5(%rip), %xmm0
	movaps	%xmm1, 3488(%rsp)
	movaps	%xmm0, 3504(%rsp)
	movaps	%xmm1, 3520(%rsp)
	movaps	%xmm0, 3536(%rsp)
	movq	$0, 3552(%rsp)
	movl	$0, 3560(%rsp)
	movw	%bx, 3564(%rsp)
	xorps	%xmm0, %xmm0
	movups	%xmm0, 3566(%rsp)
	movups	%xmm0, 3582(%rsp)
	movups	%xmm0, 3598(%rsp)
	movups	%xmm0, 3614(%rsp)
	movups	%xmm0, 3630(%rsp)
	movups	%xmm0, 3646(%rsp)
	movw	$0, 3662(%rsp)
	movq	$2, 224(%rsp)
	movq	$0, 232(%rsp)
	cmpq	$3, %r13
	je	108f
	movaps	%xmm0, 64(%rsp)
	leaq	64(%rsp), %rdi
	movq	104(%rsp), %rsi
	movq	128(%rsp), %rdx
	vj_c_call	memcpy
	leaq	72(%rsp), %rdi
	movq	112(%rsp), %rsi
	movq	56(%rsp), %rdx
	vj_c_call	memcpy
	movaps	144(%rsp), %xmm1
	movaps	64(%rsp), %xmm0
	xorps	.L1_x86_CPI76_5(%rip), %xmm0
	movaps	%xmm1, 3664(%rsp)
	movaps	%xmm0, 3680(%rsp)
	movaps	%xmm1, 3696(%rsp)
	movaps	%xmm0, 3712(%rsp)
	movq	$0, 3728(%rsp)
	movl	$0, 3736(%rsp)
	movw	%bx, 3740(%rsp)
	xorps	%xmm0, %xmm0
	movups	%xmm0, 3742(%rsp)
	movups	%xmm0, 3758(%rsp)
	movups	%xmm0, 3774(%rsp)
	movups	%xmm0, 3790(%rsp)
	movups	%xmm0, 3806(%rsp)
	movups	%xmm0, 3822(%rsp)
	movw	$0, 3838(%rsp)
	movq	$3, 240(%rsp)
	movq	$0, 248(%rsp)
	cmpq	$4, %r13
	je	108f
	movaps	%xmm0, 64(%rsp)
	leaq	64(%rsp), %rdi
	movq	104(%rsp), %rsi
	movq	128(%rsp), %rdx
	vj_c_call	memcpy
	leaq	72(%rsp), %rdi
	movq	112(%rsp), %rsi
	movq	56(%rsp), %rdx
	vj_c_call	memcpy
	movaps	144(%rsp), %xmm1
	movaps	64(%rsp), %xmm0
	xorps	.L1_x86_CPI76_5(%rip), %xmm0
	movaps	%xmm1, 3840(%rsp)
	movaps	%xmm0, 3856(%rsp)
	movaps	%xmm1, 3872(%rsp)
	movaps	%xmm0, 3888(%rsp)
	movq	$0, 3904(%rsp)
	movl	$0, 3912(%rsp)
	movw	%bx, 3916(%rsp)
	xorps	%xmm0, %xmm0
	movups	%xmm0, 3918(%rsp)
	movups	%xmm0, 3934(%rsp)
	movups	%xmm0, 3950(%rsp)
	movups	%xmm0, 3966(%rsp)
	movups	%xmm0, 3982(%rsp)
	movups	%xmm0, 3998(%rsp)
	movw	$0, 4014(%rsp)
	movq	$4, 256(%rsp)
	movq	$0, 264(%rsp)
	cmpq	$5, %r13
	je	108f
	movaps	%xmm0, 64(%rsp)
	leaq	64(%rsp), %rdi
	movq	104(%rsp), %rsi
	movq	128(%rsp), %rdx
	vj_c_call	memcpy
	leaq	72(%rsp), %rdi
	movq	112(%rsp), %rsi
	movq	56(%rsp), %rdx
	vj_c_call	memcpy
	movaps	144(%rsp), %xmm1
	movaps	64(%rsp), %xmm0
	xorps	.L1_x86_CPI76_5(%rip), %xmm0
	movaps	%xmm1, 4016(%rsp)
	movaps	%xmm0, 4032(%rsp)
	movaps	%xmm1, 4048(%rsp)
	movaps	%xmm0, 4064(%rsp)
	movq	$0, 4080(%rsp)
	movl	$0, 4088(%rsp)
	movw	%bx, 4092(%rsp)
	xorps	%xmm0, %xmm0
	movups	%xmm0, 4094(%rsp)
	movups	%xmm0, 4110(%rsp)
	movups	%xmm0, 4126(%rsp)
	movups	%xmm0, 4142(%rsp)
	movups	%xmm0, 4158(%rsp)
	movups	%xmm0, 4174(%rsp)
	movw	$0, 4190(%rsp)
	movq	$5, 272(%rsp)
	movq	$0, 280(%rsp)
	cmpq	$6, %r13
	je	108f
	movaps	%xmm0, 64(%rsp)
	leaq	64(%rsp), %rdi
	movq	104(%rsp), %rsi
	movq	128(%rsp), %rdx
	vj_c_call	memcpy
	leaq	72(%rsp), %rdi
	movq	112(%rsp), %rsi
	movq	56(%rsp), %rdx
	vj_c_call	memcpy
	movaps	144(%rsp), %xmm1
	movaps	64(%rsp), %xmm0
	xorps	.L1_x86_CPI76_5(%rip), %xmm0
	movaps	%xmm1, 4192(%rsp)
	movaps	%xmm0, 4208(%rsp)
	movaps	%xmm1, 4224(%rsp)
	movaps	%xmm0, 4240(%rsp)
	movq	$0, 4256(%rsp)
	movl	$0, 4264(%rsp)
	movw	%bx, 4268(%rsp)
	xorps	%xmm0, %xmm0
	movups	%xmm0, 4270(%rsp)
	movups	%xmm0, 4286(%rsp)
	movups	%xmm0, 4302(%rsp)
	movups	%xmm0, 4318(%rsp)
	movups	%xmm0, 4334(%rsp)
	movups	%xmm0, 4350(%rsp)
	movw	$0, 4366(%rsp)
	movq	$6, 288(%rsp)
	movq	$0, 296(%rsp)
	cmpq	$7, %r13
	je	108f
	movaps	%xmm0, 64(%rsp)
	leaq	64(%rsp), %rdi
	movq	104(%rsp), %rsi
	movq	128(%rsp), %rdx
	vj_c_call	memcpy
	leaq	72(%rsp), %rdi
	movq	112(%rsp), %rsi
	movq	56(%rsp), %rdx
	vj_c_call	memcpy
	movaps	144(%rsp), %xmm1
	movaps	64(%rsp), %xmm0
	xorps	.L1_x86_CPI76_5(%rip), %xmm0
	movaps	%xmm1, 4368(%rsp)
	movaps	%xmm0, 4384(%rsp)
	movaps	%xmm1, 4400(%rsp)
	movaps	%xmm0, 4416(%rsp)
	movq	$0, 4432(%rsp)
	movw	$0, 4440(%rsp)
	movw	$0, 4442(%rsp)
	movw	%bx, 4444(%rsp)
	xorps	%xmm0, %xmm0
	movups	%xmm0, 4446(%rsp)
	movups	%xmm0, 4462(%rsp)
	movups	%xmm0, 4478(%rsp)
	movups	%xmm0, 4494(%rsp)
	movups	%xmm0, 4510(%rsp)
	movups	%xmm0, 4526(%rsp)
	movw	$0, 4542(%rsp)
	movq	$7, 304(%rsp)
	movq	$0, 312(%rsp)
108:
	cmpq	$9, %r13
	jb	161f
	movq	160(%rsp), %rbx
	jmp	110f
109:
	leaq	192(%rsp), %rcx
	leaq	3136(%rsp), %r8
	movq	%r15, %rdi
	movq	%r12, %rdx
	callq	b2sum..lanes..finish..86239a0cbe7e8a42_1_x86
	imulq	$176, %r12, %r14
	xorps	%xmm0, %xmm0
	movaps	%xmm0, 64(%rsp)
	leaq	64(%rsp), %rdi
	movq	104(%rsp), %rsi
	movq	128(%rsp), %rdx
	vj_c_call	memcpy
	leaq	72(%rsp), %rdi
	movq	112(%rsp), %rsi
	movq	56(%rsp), %rdx
	vj_c_call	memcpy
	movaps	64(%rsp), %xmm0
	xorps	.L1_x86_CPI76_5(%rip), %xmm0
	movaps	144(%rsp), %xmm1
	movaps	%xmm1, 3136(%rsp,%r14)
	movaps	%xmm0, 3152(%rsp,%r14)
	movaps	%xmm1, 3168(%rsp,%r14)
	movaps	%xmm0, 3184(%rsp,%r14)
	movq	$0, 3200(%rsp,%r14)
	movl	$0, 3208(%rsp,%r14)
	movq	336(%rsp), %rax
	movw	%ax, 3212(%rsp,%r14)
	xorps	%xmm0, %xmm0
	movups	%xmm0, 3214(%rsp,%r14)
	movups	%xmm0, 3230(%rsp,%r14)
	movups	%xmm0, 3246(%rsp,%r14)
	movups	%xmm0, 3262(%rsp,%r14)
	movups	%xmm0, 3278(%rsp,%r14)
	movups	%xmm0, 3294(%rsp,%r14)
	movw	$0, 3310(%rsp,%r14)
	shlq	$4, %r12
	movq	%rbx, 192(%rsp,%r12)
	movq	$0, 200(%rsp,%r12)
	incq	%rbx
	cmpq	%rbx, %r13
	movq	120(%rsp), %r12
	je	161f
110:
	movq	288(%rsp), %rax
	shlq	$4, %rax
	movq	8(%r15,%rax), %rdx
	xorl	%eax, %eax
	movl	$0, %ecx
	subq	296(%rsp), %rdx
	jb	111f
	movq	%rdx, %rcx
111:
	movq	272(%rsp), %rdx
	shlq	$4, %rdx
	movq	8(%r15,%rdx), %rsi
	movl	$0, %edx
	subq	280(%rsp), %rsi
	jb	112f
	movq	%rsi, %rdx
112:
	movq	256(%rsp), %rsi
	shlq	$4, %rsi
	movq	8(%r15,%rsi), %rdi
	movl	$0, %esi
	subq	264(%rsp), %rdi
	jb	113f
	movq	%rdi, %rsi
113:
	movq	240(%rsp), %rdi
	shlq	$4, %rdi
	movq	8(%r15,%rdi), %r8
	movl	$0, %edi
	subq	248(%rsp), %r8
	jb	114f
	movq	%r8, %rdi
114:
	movq	224(%rsp), %r8
	shlq	$4, %r8
	movq	8(%r15,%r8), %r9
	movl	$0, %r8d
	subq	232(%rsp), %r9
	jb	115f
	movq	%r9, %r8
115:
	movq	208(%rsp), %r9
	shlq	$4, %r9
	movq	8(%r15,%r9), %r10
	movl	$0, %r9d
	subq	216(%rsp), %r10
	jb	116f
	movq	%r10, %r9
116:
	movq	192(%rsp), %r10
	shlq	$4, %r10
	movq	8(%r15,%r10), %r10
	movl	$0, %r11d
	subq	200(%rsp), %r10
	jb	117f
	movq	%r10, %r11
117:
	xorl	%r10d, %r10d
	cmpq	%r11, %r9
	setb	%r10b
	movl	%r10d, %r14d
	shll	$4, %r14d
	movq	192(%rsp,%r14), %r9
	shlq	$4, %r9
	movq	8(%r15,%r9), %r9
	movl	$0, %r11d
	subq	200(%rsp,%r14), %r9
	jb	118f
	movq	%r9, %r11
118:
	movl	$2, %r14d
	cmpq	%r11, %r8
	movq	136(%rsp), %r9
	jb	119f
	movq	%r10, %r14
119:
	movl	%r14d, %r11d
	shll	$4, %r11d
	movq	192(%rsp,%r11), %r8
	shlq	$4, %r8
	movq	8(%r15,%r8), %r8
	movl	$0, %r10d
	subq	200(%rsp,%r11), %r8
	jb	120f
	movq	%r8, %r10
120:
	movl	$3, %r8d
	cmpq	%r10, %rdi
	jb	121f
	movq	%r14, %r8
121:
	movl	%r8d, %r10d
	shll	$4, %r10d
	movq	192(%rsp,%r10), %rdi
	shlq	$4, %rdi
	movq	8(%r15,%rdi), %rdi
	movl	$0, %r11d
	subq	200(%rsp,%r10), %rdi
	jb	122f
	movq	%rdi, %r11
122:
	movl	$4, %edi
	cmpq	%r11, %rsi
	movq	160(%rsp), %rsi
	jb	123f
	movq	%r8, %rdi
123:
	movl	%edi, %r10d
	shll	$4, %r10d
	movq	192(%rsp,%r10), %r8
	shlq	$4, %r8
	movq	8(%r15,%r8), %r11
	movl	$0, %r8d
	subq	200(%rsp,%r10), %r11
	jb	124f
	movq	%r11, %r8
124:
	movl	$5, %r10d
	cmpq	%r8, %rdx
	jb	125f
	movq	%rdi, %r10
125:
	movl	%r10d, %r8d
	shll	$4, %r8d
	movq	192(%rsp,%r8), %rdx
	shlq	$4, %rdx
	movq	8(%r15,%rdx), %rdx
	movl	$0, %edi
	subq	200(%rsp,%r8), %rdx
	jb	126f
	movq	%rdx, %rdi
126:
	movl	$6, %edx
	cmpq	%rdi, %rcx
	jb	127f
	movq	%r10, %rdx
127:
	movq	304(%rsp), %rcx
	shlq	$4, %rcx
	movq	8(%r15,%rcx), %rdi
	movl	$0, %ecx
	subq	312(%rsp), %rdi
	jb	128f
	movq	%rdi, %rcx
128:
	movq	%rdx, %rdi
	shlq	$4, %rdi
	movq	192(%rsp,%rdi), %r8
	shlq	$4, %r8
	movq	8(%r15,%r8), %r8
	subq	200(%rsp,%rdi), %r8
	jb	129f
	movq	%r8, %rax
129:
	movl	$7, %r12d
	cmpq	%rax, %rcx
	jb	109b
	movq	%rdx, %r12
	jmp	109b
130:
	addq	$-64, %rbx
	movq	%rdx, %r14
	movq	%rdx, %rdi
	xorl	%esi, %esi
	movq	%rbx, %rdx
	vj_c_call	memset
131:
	movq	176(%rsp), %rcx
	testq	%r15, %r15
	sete	%al
	xorps	%xmm0, %xmm0
	movups	%xmm0, 48(%r14,%rbx)
	movups	%xmm0, 32(%r14,%rbx)
	movups	%xmm0, 16(%r14,%rbx)
	movups	%xmm0, (%r14,%rbx)
	xorl	%edx, %edx
	movq	56(%rsp), %r15
	cmpq	$0, 32(%rcx)
	je	107b
132:
	movq	%r15, %rbx
	testb	%dl, %dl
	movq	168(%rsp), %r15
	jne	134f
133:
	movq	%r14, %rdi
	movl	%eax, %r14d
	vj_call	rattle_dealloc
	movl	%r14d, %eax
134:
	testb	%al, %al
	jne	167f
	movq	%rbx, %rdi
	vj_call	rattle_dealloc
	jmp	167f
135:
	leaq	384(%rsp), %rdi
	movl	$2752, %edx
	xorl	%esi, %esi
	vj_c_call	memset
	xorps	%xmm0, %xmm0
	movaps	%xmm0, 304(%rsp)
	movaps	%xmm0, 288(%rsp)
	movaps	%xmm0, 272(%rsp)
	movaps	%xmm0, 256(%rsp)
	movaps	%xmm0, 240(%rsp)
	movaps	%xmm0, 224(%rsp)
	movaps	%xmm0, 208(%rsp)
	movaps	%xmm0, 192(%rsp)
	testq	%r13, %r13
	je	165f
	movq	%rbx, 112(%rsp)
	movq	336(%rsp), %rbx
	leaq	-1(%rbx), %rax
	cmpq	$64, %rax
	setae	%al
	movq	128(%rsp), %rdx
	cmpq	$17, %rdx
	setae	%cl
	orb	%al, %cl
	movq	56(%rsp), %rsi
	cmpq	$17, %rsi
	setae	%al
	orb	%cl, %al
	jne	160f
	movl	%ebx, %eax
	orl	$16842752, %eax
	movd	%eax, %xmm0
	pxor	.L1_x86_CPI76_0(%rip), %xmm0
	movdqa	%xmm0, 144(%rsp)
	pxor	%xmm0, %xmm0
	movdqa	%xmm0, 80(%rsp)
	movdqa	%xmm0, 64(%rsp)
	leaq	64(%rsp), %rdi
	movq	%rsi, %r14
	movq	104(%rsp), %rsi
	movq	%rdx, %r12
	vj_c_call	memcpy
	leaq	80(%rsp), %rdi
	movq	112(%rsp), %rsi
	movq	%r14, %rdx
	vj_c_call	memcpy
	movaps	.L1_x86_CPI76_1(%rip), %xmm3
	movaps	144(%rsp), %xmm2
	movaps	80(%rsp), %xmm0
	xorps	.L1_x86_CPI76_2(%rip), %xmm0
	movaps	64(%rsp), %xmm1
	xorps	.L1_x86_CPI76_3(%rip), %xmm1
	movaps	%xmm2, 384(%rsp)
	movaps	%xmm3, 400(%rsp)
	movaps	%xmm1, 416(%rsp)
	movaps	%xmm0, 432(%rsp)
	movaps	%xmm2, 448(%rsp)
	movaps	%xmm3, 464(%rsp)
	movaps	%xmm1, 480(%rsp)
	movaps	%xmm0, 496(%rsp)
	xorps	%xmm0, %xmm0
	movaps	%xmm0, 512(%rsp)
	movl	%ebx, 528(%rsp)
	movups	%xmm0, 532(%rsp)
	movups	%xmm0, 548(%rsp)
	movups	%xmm0, 564(%rsp)
	movups	%xmm0, 580(%rsp)
	movups	%xmm0, 596(%rsp)
	movups	%xmm0, 612(%rsp)
	movups	%xmm0, 628(%rsp)
	movups	%xmm0, 644(%rsp)
	movups	%xmm0, 660(%rsp)
	movups	%xmm0, 676(%rsp)
	movups	%xmm0, 692(%rsp)
	movups	%xmm0, 708(%rsp)
	movl	$0, 724(%rsp)
	movaps	%xmm0, 192(%rsp)
	cmpq	$1, %r13
	je	136f
	movaps	%xmm0, 80(%rsp)
	movaps	%xmm0, 64(%rsp)
	leaq	64(%rsp), %rdi
	movq	104(%rsp), %rsi
	movq	%r12, %rdx
	vj_c_call	memcpy
	leaq	80(%rsp), %rdi
	movq	112(%rsp), %rsi
	movq	56(%rsp), %rdx
	vj_c_call	memcpy
	movaps	.L1_x86_CPI76_1(%rip), %xmm3
	movaps	144(%rsp), %xmm2
	movaps	64(%rsp), %xmm0
	movaps	80(%rsp), %xmm1
	xorps	.L1_x86_CPI76_2(%rip), %xmm1
	xorps	.L1_x86_CPI76_3(%rip), %xmm0
	movups	%xmm2, 728(%rsp)
	movups	%xmm3, 744(%rsp)
	movups	%xmm0, 760(%rsp)
	movups	%xmm1, 776(%rsp)
	movups	%xmm2, 792(%rsp)
	movups	%xmm3, 808(%rsp)
	movups	%xmm0, 824(%rsp)
	movups	%xmm1, 840(%rsp)
	xorps	%xmm0, %xmm0
	movups	%xmm0, 856(%rsp)
	movl	%ebx, 872(%rsp)
	movups	%xmm0, 876(%rsp)
	movups	%xmm0, 892(%rsp)
	movups	%xmm0, 908(%rsp)
	movups	%xmm0, 924(%rsp)
	movups	%xmm0, 940(%rsp)
	movups	%xmm0, 956(%rsp)
	movups	%xmm0, 972(%rsp)
	movups	%xmm0, 988(%rsp)
	movups	%xmm0, 1004(%rsp)
	movups	%xmm0, 1020(%rsp)
	movups	%xmm0, 1036(%rsp)
	movups	%xmm0, 1052(%rsp)
	movl	$0, 1068(%rsp)
	movq	$1, 208(%rsp)
	movq	$0, 216(%rsp)
	cmpq	$2, %r13
	je	136f
	movaps	%xmm0, 80(%rsp)
	movaps	%xmm0, 64(%rsp)
	leaq	64(%rsp), %rdi
	movq	104(%rsp), %rsi
	movq	%r12, %rdx
	vj_c_call	memcpy
	leaq	80(%rsp), %rdi
	movq	112(%rsp), %rsi
	movq	56(%rsp), %rdx
	vj_c_call	memcpy
	movaps	.L1_x86_CPI76_1(%rip), %xmm3
	movaps	144(%rsp), %xmm2
	movaps	64(%rsp), %xmm0
	movaps	80(%rsp), %xmm1
	xorps	.L1_x86_CPI76_2(%rip), %xmm1
	xorps	.L1_x86_CPI76_3(%rip), %xmm0
	movaps	%xmm2, 1072(%rsp)
	movaps	%xmm3, 1088(%rsp)
	movaps	%xmm0, 1104(%rsp)
	movaps	%xmm1, 1120(%rsp)
	movaps	%xmm2, 1136(%rsp)
	movaps	%xmm3, 1152(%rsp)
	movaps	%xmm0, 1168(%rsp)
	movaps	%xmm1, 1184(%rsp)
	xorps	%xmm0, %xmm0
	movaps	%xmm0, 1200(%rsp)
	movl	%ebx, 1216(%rsp)
	movups	%xmm0, 1220(%rsp)
	movups	%xmm0, 1236(%rsp)
	movups	%xmm0, 1252(%rsp)
	movups	%xmm0, 1268(%rsp)
	movups	%xmm0, 1284(%rsp)
	movups	%xmm0, 1300(%rsp)
	movups	%xmm0, 1316(%rsp)
	movups	%xmm0, 1332(%rsp)
	movups	%xmm0, 1348(%rsp)
	movups	%xmm0, 1364(%rsp)
	movups	%xmm0, 1380(%rsp)
	movups	%xmm0, 1396(%rsp)
	movl	$0, 1412(%rsp)
	movq	$2, 224(%rsp)
	movq	$0, 232(%rsp)
	cmpq	$3, %r13
	je	136f
	movaps	%xmm0, 80(%rsp)
	movaps	%xmm0, 64(%rsp)
	leaq	64(%rsp), %rdi
	movq	104(%rsp), %rsi
	movq	%r12, %rdx
	vj_c_call	memcpy
	leaq	80(%rsp), %rdi
	movq	112(%rsp), %rsi
	movq	56(%rsp), %rdx
	vj_c_call	memcpy
	movaps	.L1_x86_CPI76_1(%rip), %xmm3
	movaps	144(%rsp), %xmm2
	movaps	64(%rsp), %xmm0
	movaps	80(%rsp), %xmm1
	xorps	.L1_x86_CPI76_2(%rip), %xmm1
	xorps	.L1_x86_CPI76_3(%rip), %xmm0
	movups	%xmm2, 1416(%rsp)
	movups	%xmm3, 1432(%rsp)
	movups	%xmm0, 1448(%rsp)
	movups	%xmm1, 1464(%rsp)
	movups	%xmm2, 1480(%rsp)
	movups	%xmm3, 1496(%rsp)
	movups	%xmm0, 1512(%rsp)
	movups	%xmm1, 1528(%rsp)
	xorps	%xmm0, %xmm0
	movups	%xmm0, 1544(%rsp)
	movl	%ebx, 1560(%rsp)
	movups	%xmm0, 1564(%rsp)
	movups	%xmm0, 1580(%rsp)
	movups	%xmm0, 1596(%rsp)
	movups	%xmm0, 1612(%rsp)
	movups	%xmm0, 1628(%rsp)
	movups	%xmm0, 1644(%rsp)
	movups	%xmm0, 1660(%rsp)
	movups	%xmm0, 1676(%rsp)
	movups	%xmm0, 1692(%rsp)
	movups	%xmm0, 1708(%rsp)
	movups	%xmm0, 1724(%rsp)
	movups	%xmm0, 1740(%rsp)
	movl	$0, 1756(%rsp)
	movq	$3, 240(%rsp)
	movq	$0, 248(%rsp)
	cmpq	$4, %r13
	je	136f
	movaps	%xmm0, 80(%rsp)
	movaps	%xmm0, 64(%rsp)
	leaq	64(%rsp), %rdi
	movq	104(%rsp), %rsi
	movq	%r12, %rdx
	vj_c_call	memcpy
	leaq	80(%rsp), %rdi
	movq	112(%rsp), %rsi
	movq	56(%rsp), %rdx
	vj_c_call	memcpy
	movaps	.L1_x86_CPI76_1(%rip), %xmm3
	movaps	144(%rsp), %xmm2
	movaps	64(%rsp), %xmm0
	movaps	80(%rsp), %xmm1
	xorps	.L1_x86_CPI76_2(%rip), %xmm1
	xorps	.L1_x86_CPI76_3(%rip), %xmm0
	movaps	%xmm2, 1760(%rsp)
	movaps	%xmm3, 1776(%rsp)
	movaps	%xmm0, 1792(%rsp)
	movaps	%xmm1, 1808(%rsp)
	movaps	%xmm2, 1824(%rsp)
	movaps	%xmm3, 1840(%rsp)
	movaps	%xmm0, 1856(%rsp)
	movaps	%xmm1, 1872(%rsp)
	xorps	%xmm0, %xmm0
	movaps	%xmm0, 1888(%rsp)
	movl	%ebx, 1904(%rsp)
	movups	%xmm0, 1908(%rsp)
	movups	%xmm0, 1924(%rsp)
	movups	%xmm0, 1940(%rsp)
	movups	%xmm0, 1956(%rsp)
	movups	%xmm0, 1972(%rsp)
	movups	%xmm0, 1988(%rsp)
	movups	%xmm0, 2004(%rsp)
	movups	%xmm0, 2020(%rsp)
	movups	%xmm0, 2036(%rsp)
	movups	%xmm0, 2052(%rsp)
	movups	%xmm0, 2068(%rsp)
	movups	%xmm0, 2084(%rsp)
	movl	$0, 2100(%rsp)
	movq	$4, 256(%rsp)
	movq	$0, 264(%rsp)
	cmpq	$5, %r13
	je	136f
	movaps	%xmm0, 80(%rsp)
	movaps	%xmm0, 64(%rsp)
	leaq	64(%rsp), %rdi
	movq	104(%rsp), %rsi
	movq	%r12, %rdx
	vj_c_call	memcpy
	leaq	80(%rsp), %rdi
	movq	112(%rsp), %rsi
	movq	56(%rsp), %rdx
	vj_c_call	memcpy
	movaps	.L1_x86_CPI76_1(%rip), %xmm3
	movaps	144(%rsp), %xmm2
	movaps	64(%rsp), %xmm0
	movaps	80(%rsp), %xmm1
	xorps	.L1_x86_CPI76_2(%rip), %xmm1
	xorps	.L1_x86_CPI76_3(%rip), %xmm0
	movups	%xmm2, 2104(%rsp)
	movups	%xmm3, 2120(%rsp)
	movups	%xmm0, 2136(%rsp)
	movups	%xmm1, 2152(%rsp)
	movups	%xmm2, 2168(%rsp)
	movups	%xmm3, 2184(%rsp)
	movups	%xmm0, 2200(%rsp)
	movups	%xmm1, 2216(%rsp)
	xorps	%xmm0, %xmm0
	movups	%xmm0, 2232(%rsp)
	movl	%ebx, 2248(%rsp)
	movups	%xmm0, 2252(%rsp)
	movups	%xmm0, 2268(%rsp)
	movups	%xmm0, 2284(%rsp)
	movups	%xmm0, 2300(%rsp)
	movups	%xmm0, 2316(%rsp)
	movups	%xmm0, 2332(%rsp)
	movups	%xmm0, 2348(%rsp)
	movups	%xmm0, 2364(%rsp)
	movups	%xmm0, 2380(%rsp)
	movups	%xmm0, 2396(%rsp)
	movups	%xmm0, 2412(%rsp)
	movups	%xmm0, 2428(%rsp)
	movl	$0, 2444(%rsp)
	movq	$5, 272(%rsp)
	movq	$0, 280(%rsp)
	cmpq	$6, %r13
	je	136f
	movaps	%xmm0, 80(%rsp)
	movaps	%xmm0, 64(%rsp)
	leaq	64(%rsp), %rdi
	movq	104(%rsp), %rsi
	movq	%r12, %rdx
	vj_c_call	memcpy
	leaq	80(%rsp), %rdi
	movq	112(%rsp), %rsi
	movq	56(%rsp), %rdx
	vj_c_call	memcpy
	movaps	.L1_x86_CPI76_1(%rip), %xmm3
	movaps	144(%rsp), %xmm2
	movaps	64(%rsp), %xmm0
	movaps	80(%rsp), %xmm1
	xorps	.L1_x86_CPI76_2(%rip), %xmm1
	xorps	.L1_x86_CPI76_3(%rip), %xmm0
	movaps	%xmm2, 2448(%rsp)
	movaps	%xmm3, 2464(%rsp)
	movaps	%xmm0, 2480(%rsp)
	movaps	%xmm1, 2496(%rsp)
	movaps	%xmm2, 2512(%rsp)
	movaps	%xmm3, 2528(%rsp)
	movaps	%xmm0, 2544(%rsp)
	movaps	%xmm1, 2560(%rsp)
	xorps	%xmm0, %xmm0
	movaps	%xmm0, 2576(%rsp)
	movl	%ebx, 2592(%rsp)
	movups	%xmm0, 2596(%rsp)
	movups	%xmm0, 2612(%rsp)
	movups	%xmm0, 2628(%rsp)
	movups	%xmm0, 2644(%rsp)
	movups	%xmm0, 2660(%rsp)
	movups	%xmm0, 2676(%rsp)
	movups	%xmm0, 2692(%rsp)
	movups	%xmm0, 2708(%rsp)
	movups	%xmm0, 2724(%rsp)
	movups	%xmm0, 2740(%rsp)
	movups	%xmm0, 2756(%rsp)
	movups	%xmm0, 2772(%rsp)
	movl	$0, 2788(%rsp)
	movq	$6, 288(%rsp)
	movq	$0, 296(%rsp)
	cmpq	$7, %r13
	je	136f
	movaps	%xmm0, 80(%rsp)
	movaps	%xmm0, 64(%rsp)
	leaq	64(%rsp), %rdi
	movq	104(%rsp), %rsi
	movq	%r12, %rdx
	vj_c_call	memcpy
	leaq	80(%rsp), %rdi
	movq	112(%rsp), %rsi
	movq	56(%rsp), %rdx
	vj_c_call	memcpy
	movaps	.L1_x86_CPI76_1(%rip), %xmm3
	movaps	144(%rsp), %xmm2
	movaps	80(%rsp), %xmm0
	xorps	.L1_x86_CPI76_2(%rip), %xmm0
	movaps	64(%rsp), %xmm1
	xorps	.L1_x86_CPI76_3(%rip), %xmm1
	movups	%xmm2, 2792(%rsp)
	movups	%xmm3, 2808(%rsp)
	movups	%xmm1, 2824(%rsp)
	movups	%xmm0, 2840(%rsp)
	movups	%xmm2, 2856(%rsp)
	movups	%xmm3, 2872(%rsp)
	movups	%xmm1, 2888(%rsp)
	movups	%xmm0, 2904(%rsp)
	xorps	%xmm0, %xmm0
	movups	%xmm0, 2920(%rsp)
	movl	%ebx, 2936(%rsp)
	movups	%xmm0, 2940(%rsp)
	movups	%xmm0, 2956(%rsp)
	movups	%xmm0, 2972(%rsp)
	movups	%xmm0, 2988(%rsp)
	movups	%xmm0, 3004(%rsp)
	movups	%xmm0, 3020(%rsp)
	movups	%xmm0, 3036(%rsp)
	movups	%xmm0, 3052(%rsp)
	movups	%xmm0, 3068(%rsp)
	movups	%xmm0, 3084(%rsp)
	movups	%xmm0, 3100(%rsp)
	movups	%xmm0, 3116(%rsp)
	movl	$0, 3132(%rsp)
	movq	$7, 304(%rsp)
	movq	$0, 312(%rsp)
136:
	cmpq	$9, %r13
	jb	163f
	movq	160(%rsp), %r12
	jmp	138f
137:
	leaq	192(%rsp), %rcx
	leaq	384(%rsp), %r8
	movq	%r15, %rdi
	movq	%rbx, %rdx
	movq	136(%rsp), %r9
	callq	b2sum..lanes..finish..d634354ca11db3c0_1_x86
	imulq	$344, %rbx, %r14
	xorps	%xmm0, %xmm0
	movaps	%xmm0, 80(%rsp)
	movaps	%xmm0, 64(%rsp)
	leaq	64(%rsp), %rdi
	movq	104(%rsp), %rsi
	movq	128(%rsp), %rdx
	vj_c_call	memcpy
	leaq	80(%rsp), %rdi
	movq	112(%rsp), %rsi
	movq	56(%rsp), %rdx
	vj_c_call	memcpy
	movaps	64(%rsp), %xmm0
	movaps	80(%rsp), %xmm1
	xorps	.L1_x86_CPI76_2(%rip), %xmm1
	xorps	.L1_x86_CPI76_3(%rip), %xmm0
	movaps	144(%rsp), %xmm2
	movups	%xmm2, 384(%rsp,%r14)
	movaps	.L1_x86_CPI76_1(%rip), %xmm3
	movups	%xmm3, 400(%rsp,%r14)
	movups	%xmm0, 416(%rsp,%r14)
	movups	%xmm1, 432(%rsp,%r14)
	movups	%xmm2, 448(%rsp,%r14)
	movups	%xmm3, 464(%rsp,%r14)
	movups	%xmm0, 480(%rsp,%r14)
	movups	%xmm1, 496(%rsp,%r14)
	xorps	%xmm0, %xmm0
	movups	%xmm0, 512(%rsp,%r14)
	movq	336(%rsp), %rax
	movl	%eax, 528(%rsp,%r14)
	movups	%xmm0, 532(%rsp,%r14)
	movups	%xmm0, 548(%rsp,%r14)
	movups	%xmm0, 564(%rsp,%r14)
	movups	%xmm0, 580(%rsp,%r14)
	movups	%xmm0, 596(%rsp,%r14)
	movups	%xmm0, 612(%rsp,%r14)
	movups	%xmm0, 628(%rsp,%r14)
	movups	%xmm0, 644(%rsp,%r14)
	movups	%xmm0, 660(%rsp,%r14)
	movups	%xmm0, 676(%rsp,%r14)
	movups	%xmm0, 692(%rsp,%r14)
	movups	%xmm0, 708(%rsp,%r14)
	movl	$0, 724(%rsp,%r14)
	shlq	$4, %rbx
	movq	%r12, 192(%rsp,%rbx)
	movq	$0, 200(%rsp,%rbx)
	incq	%r12
	cmpq	%r12, %r13
	je	163f
138:
	movq	288(%rsp), %rax
	shlq	$4, %rax
	movq	8(%r15,%rax), %rdx
	xorl	%r9d, %r9d
	movl	$0, %ecx
	subq	296(%rsp), %rdx
	jb	139f
	movq	%rdx, %rcx
139:
	movq	272(%rsp), %rdx
	shlq	$4, %rdx
	movq	8(%r15,%rdx), %rsi
	movl	$0, %edx
	subq	280(%rsp), %rsi
	jb	140f
	movq	%rsi, %rdx
140:
	movq	256(%rsp), %rsi
	shlq	$4, %rsi
	movq	8(%r15,%rsi), %rdi
	movl	$0, %eax
	subq	264(%rsp), %rdi
	jb	141f
	movq	%rdi, %rax
141:
	movq	240(%rsp), %rdi
	shlq	$4, %rdi
	movq	8(%r15,%rdi), %r8
	movl	$0, %edi
	subq	248(%rsp), %r8
	jb	142f
	movq	%r8, %rdi
142:
	movq	224(%rsp), %r8
	shlq	$4, %r8
	movq	8(%r15,%r8), %r10
	movl	$0, %r8d
	subq	232(%rsp), %r10
	jb	143f
	movq	%r10, %r8
143:
	movq	208(%rsp), %r10
	shlq	$4, %r10
	movq	8(%r15,%r10), %r10
	movl	$0, %ebx
	subq	216(%rsp), %r10
	jb	144f
	movq	%r10, %rbx
144:
	movq	192(%rsp), %r10
	shlq	$4, %r10
	movq	8(%r15,%r10), %r10
	movl	$0, %r11d
	subq	200(%rsp), %r10
	jb	145f
	movq	%r10, %r11
145:
	xorl	%r10d, %r10d
	cmpq	%r11, %rbx
	setb	%r10b
	movl	%r10d, %ebx
	shll	$4, %ebx
	movq	192(%rsp,%rbx), %r11
	shlq	$4, %r11
	movq	8(%r15,%r11), %r14
	movl	$0, %r11d
	subq	200(%rsp,%rbx), %r14
	jb	146f
	movq	%r14, %r11
146:
	movl	$2, %ebx
	cmpq	%r11, %r8
	jb	147f
	movq	%r10, %rbx
147:
	movl	%ebx, %r11d
	shll	$4, %r11d
	movq	192(%rsp,%r11), %r8
	shlq	$4, %r8
	movq	8(%r15,%r8), %r8
	movl	$0, %r10d
	subq	200(%rsp,%r11), %r8
	movq	160(%rsp), %rsi
	jb	148f
	movq	%r8, %r10
148:
	movl	$3, %r8d
	cmpq	%r10, %rdi
	jb	149f
	movq	%rbx, %r8
149:
	movl	%r8d, %r10d
	shll	$4, %r10d
	movq	192(%rsp,%r10), %rdi
	shlq	$4, %rdi
	movq	8(%r15,%rdi), %rdi
	movl	$0, %r11d
	subq	200(%rsp,%r10), %rdi
	jb	150f
	movq	%rdi, %r11
150:
	movl	$4, %edi
	cmpq	%r11, %rax
	jb	151f
	movq	%r8, %rdi
151:
	movl	%edi, %r10d
	shll	$4, %r10d
	movq	192(%rsp,%r10), %rax
	shlq	$4, %rax
	movq	8(%r15,%rax), %rax
	movl	$0, %r8d
	subq	200(%rsp,%r10), %rax
	jb	152f
	movq	%rax, %r8
152:
	movl	$5, %eax
	cmpq	%r8, %rdx
	jb	153f
	movq	%rdi, %rax
153:
	movl	%eax, %r8d
	shll	$4, %r8d
	movq	192(%rsp,%r8), %rdx
	shlq	$4, %rdx
	movq	8(%r15,%rdx), %rdx
	movl	$0, %edi
	subq	200(%rsp,%r8), %rdx
	jb	154f
	movq	%rdx, %rdi
154:
	movl	$6, %edx
	cmpq	%rdi, %rcx
	jb	155f
	movq	%rax, %rdx
155:
	movq	304(%rsp), %rcx
	shlq	$4, %rcx
	movq	8(%r15,%rcx), %rax
	movl	$0, %ecx
	subq	312(%rsp), %rax
	jb	156f
	movq	%rax, %rcx
156:
	movq	%rdx, %rdi
	shlq	$4, %rdi
	movq	192(%rsp,%rdi), %rax
	shlq	$4, %rax
	movq	8(%r15,%rax), %rax
	subq	200(%rsp,%rdi), %rax
	jb	157f
	movq	%rax, %r9
157:
	movl	$7, %ebx
	cmpq	%r9, %rcx
	jb	137b
	movq	%rdx, %rbx
	jmp	137b
158:
	cmpq	$0, 400(%rsp)
	je	159f
	movq	384(%rsp), %rdi
	vj_call	rattle_dealloc
159:
	movq	120(%rsp), %r12
	movq	96(%rsp), %r14
	jmp	103b
160:
	movq	%r15, %rbx
	movzbl	328(%rsp), %eax
	movl	176(%rsp), %edx
	testb	%dl, %dl
	movq	168(%rsp), %r15
	je	133b
	jmp	134b
161:
	xorl	%ebx, %ebx
	movq	136(%rsp), %r14
	movq	160(%rsp), %r13
	.p2align	4
162:
	leaq	192(%rsp), %rcx
	leaq	3136(%rsp), %r8
	movq	%r15, %rdi
	movq	%r13, %rsi
	movq	%rbx, %rdx
	movq	%r14, %r9
	callq	b2sum..lanes..finish..86239a0cbe7e8a42_1_x86
	incq	%rbx
	cmpq	%rbx, %r13
	jne	162b
	jmp	165f
163:
	xorl	%ebx, %ebx
	movq	120(%rsp), %r12
	movq	136(%rsp), %r14
	movq	160(%rsp), %r13
	.p2align	4
164:
	leaq	192(%rsp), %rcx
	leaq	384(%rsp), %r8
	movq	%r15, %rdi
	movq	%r13, %rsi
	movq	%rbx, %rdx
	movq	%r14, %r9
	callq	b2sum..lanes..finish..d634354ca11db3c0_1_x86
	incq	%rbx
	cmpq	%rbx, %r13
	jne	164b
165:
	movq	%r15, 56(%rsp)
	movb	$1, %r14b
	movb	$1, %bl
	cmpb	$0, 176(%rsp)
	movq	168(%rsp), %r15
	je	181f
	cmpb	$0, 328(%rsp)
	je	202f
166:
	testb	%bl, %bl
	je	203f
167:
	movq	360(%rsp), %r11
	movl	%r11d, %eax
	shrl	$8, %eax
	testq	%r12, %r12
	je	168f
	cmpq	$1, %r12
	jne	170f
	xorl	%ecx, %ecx
	xorl	%edx, %edx
	jmp	175f
168:
	testq	%rax, %rax
	jne	177f
169:
	movq	64(%r15), %rcx
	cmpq	$1024, %rcx
	movl	$1024, %edx
	cmovbq	%rcx, %rdx
	addl	%edx, %edx
	cmpq	$960, %rdx
	movl	$960, %ecx
	cmovbq	%rdx, %rcx
	addq	$64, %rcx
	jmp	178f
170:
	movq	%r12, %rsi
	andq	$-2, %rsi
	movq	96(%rsp), %rcx
	leaq	72(%rcx), %rdi
	xorl	%ecx, %ecx
	xorl	%edx, %edx
	jmp	172f
	.p2align	4
171:
	addq	$2, %rdx
	addq	$80, %rdi
	cmpq	%rdx, %rsi
	je	174f
172:
	movq	-40(%rdi), %r9
	xorl	%r8d, %r8d
	subq	-48(%rdi), %r9
	cmovbq	%r8, %r9
	movq	$-1, %r10
	addq	%rcx, %r9
	movq	$-1, %rcx
	jb	173f
	movq	%r9, %r10
173:
	movq	(%rdi), %r9
	subq	-8(%rdi), %r9
	cmovbq	%r8, %r9
	addq	%r10, %r9
	jb	171b
	movq	%r9, %rcx
	jmp	171b
174:
	testb	$1, %r12b
	je	176f
175:
	leaq	(%rdx,%rdx,4), %rdx
	movq	96(%rsp), %r8
	movq	32(%r8,%rdx,8), %rsi
	xorl	%edi, %edi
	subq	24(%r8,%rdx,8), %rsi
	cmovaeq	%rsi, %rdi
	addq	%rcx, %rdi
	movq	$-1, %rcx
	cmovaeq	%rdi, %rcx
176:
	shrq	$11, %rcx
	cmpq	%r12, %rcx
	jb	169b
177:
	xorl	%ecx, %ecx
178:
	movq	56(%r15), %rsi
	cmpq	$4194304, %rsi
	movl	$4194304, %edx
	movl	$4194304, %edi
	cmovbq	%rsi, %rdi
	addl	%edi, %edi
	cmpq	$4194304, %rdi
	cmovbq	%rdi, %rdx
	testq	%rax, %rax
	cmoveq	%rsi, %rdx
	movq	24(%r15), %rax
	addq	%r12, %rax
	movq	$-1, %rsi
	cmovbq	%rsi, %rax
	cmpq	$1, %rax
	adcq	$-1, %rax
	andl	$1, %r11d
	addq	%rax, %r11
	addq	%rcx, %r11
	cmovbq	%rsi, %r11
	movq	%rcx, 64(%r15)
	movq	%rdx, 56(%r15)
	movq	%rax, 32(%r15)
	movq	%r11, 40(%r15)
	testq	%r12, %r12
	movq	96(%rsp), %r14
	je	204f
	leaq	16(%r14), %rbx
	jmp	180f
	.p2align	4
179:
	addq	$40, %rbx
	decq	%r12
	je	204f
180:
	cmpq	$0, (%rbx)
	je	179b
	movq	-16(%rbx), %rdi
	vj_call	rattle_dealloc
	jmp	179b
181:
	xorl	%r14d, %r14d
	.p2align	4
182:
	leaq	(%r14,%r14,4), %rax
	movq	96(%rsp), %rcx
	movq	(%rcx,%rax,8), %r12
	movq	8(%rcx,%rax,8), %rbx
	testq	%rbx, %rbx
	je	184f
	js	198f
	movl	$1, %esi
	movq	%rbx, %rdi
	vj_call	rattle_alloc
	testb	$1, %al
	je	199f
	movq	%rdx, %r13
	movq	%r13, %rcx
	subq	%r12, %rcx
	cmpq	%rbx, %rcx
	jae	185f
183:
	xorl	%eax, %eax
	cmpq	$4, %rbx
	jb	190f
	cmpq	$32, %rcx
	jb	190f
	cmpq	$32, %rbx
	jae	186f
	xorl	%eax, %eax
	jmp	188f
184:
	leaq	48(%rsp), %r13
	movq	%r13, %rcx
	subq	%r12, %rcx
	cmpq	%rbx, %rcx
	jb	183b
185:
	movq	%r13, %rdi
	movq	%r12, %rsi
	movq	%rbx, %rdx
	vj_c_call	memmove
	jmp	194f
186:
	movq	%rbx, %rax
	andq	$-32, %rax
	xorl	%ecx, %ecx
	.p2align	4
187:
	movups	(%r12,%rcx), %xmm0
	movups	16(%r12,%rcx), %xmm1
	movups	%xmm0, (%r13,%rcx)
	movups	%xmm1, 16(%r13,%rcx)
	addq	$32, %rcx
	cmpq	%rcx, %rax
	jne	187b
	cmpq	%rax, %rbx
	je	194f
	testb	$28, %bl
	je	190f
188:
	movq	%rax, %rcx
	movq	%rbx, %rax
	andq	$-4, %rax
	.p2align	4
189:
	movl	(%r12,%rcx), %edx
	movl	%edx, (%r13,%rcx)
	addq	$4, %rcx
	cmpq	%rcx, %rax
	jne	189b
	cmpq	%rax, %rbx
	je	194f
190:
	movq	%rbx, %rdx
	movq	%rax, %rcx
	andq	$3, %rdx
	je	192f
	movq	%rax, %rcx
	.p2align	4
191:
	movzbl	(%r12,%rcx), %esi
	movb	%sil, (%r13,%rcx)
	incq	%rcx
	decq	%rdx
	jne	191b
192:
	subq	%rbx, %rax
	cmpq	$-4, %rax
	ja	194f
	.p2align	4
193:
	movzbl	(%r12,%rcx), %eax
	movb	%al, (%r13,%rcx)
	movzbl	1(%r12,%rcx), %eax
	movb	%al, 1(%r13,%rcx)
	movzbl	2(%r12,%rcx), %eax
	movb	%al, 2(%r13,%rcx)
	movzbl	3(%r12,%rcx), %eax
	movb	%al, 3(%r13,%rcx)
	addq	$4, %rcx
	cmpq	%rcx, %rbx
	jne	193b
	.p2align	4
194:
	movq	%r14, %rax
	shlq	$6, %rax
	movq	136(%rsp), %rcx
	movups	(%rcx,%rax), %xmm0
	movups	16(%rcx,%rax), %xmm1
	movups	32(%rcx,%rax), %xmm2
	movups	48(%rcx,%rax), %xmm3
	movaps	%xmm3, 432(%rsp)
	movaps	%xmm2, 416(%rsp)
	movaps	%xmm1, 400(%rsp)
	movaps	%xmm0, 384(%rsp)
	movq	168(%rsp), %rdi
	movq	8(%rdi), %rax
	cmpq	%rax, 16(%rdi)
	movq	120(%rsp), %r12
	je	196f
195:
	movq	(%rdi), %rcx
	imulq	$104, %rax, %rdx
	movq	%r13, (%rcx,%rdx)
	movq	%rbx, 8(%rcx,%rdx)
	movq	%rbx, 16(%rcx,%rdx)
	movl	188(%rsp), %esi
	movl	%esi, 24(%rcx,%rdx)
	movl	372(%rsp), %esi
	movl	%esi, 28(%rcx,%rdx)
	movq	336(%rsp), %rsi
	movq	%rsi, 32(%rcx,%rdx)
	movaps	384(%rsp), %xmm0
	movaps	400(%rsp), %xmm1
	movaps	416(%rsp), %xmm2
	movaps	432(%rsp), %xmm3
	movups	%xmm0, 40(%rcx,%rdx)
	movups	%xmm1, 56(%rcx,%rdx)
	movups	%xmm2, 72(%rcx,%rdx)
	movups	%xmm3, 88(%rcx,%rdx)
	incq	%rax
	movq	%rax, 8(%rdi)
	incq	%r14
	cmpq	%r12, %r14
	movq	%rdi, %r15
	jne	182b
	jmp	197f
196:
	callq	std_alloc..vec..Vec..grow_amortized..bf97339f63b56ecc_1_x86
	testb	%al, %al
	je	207f
	movq	376(%rsp), %rax
	movq	(%rax), %rax
	movq	168(%rsp), %rdi
	jmp	195b
197:
	movb	$1, %bl
	jmp	201f
198:
	xorl	%ebx, %ebx
	jmp	200f
199:
	xorl	%ebx, %ebx
	movq	168(%rsp), %r15
200:
	movq	120(%rsp), %r12
201:
	movq	136(%rsp), %rdi
	vj_call	rattle_dealloc
	xorl	%r14d, %r14d
	cmpb	$0, 328(%rsp)
	jne	166b
202:
	movq	56(%rsp), %rdi
	vj_call	rattle_dealloc
	testb	%bl, %bl
	jne	167b
203:
	testb	%r14b, %r14b
	movq	96(%rsp), %r14
	je	103b
204:
	cmpq	$0, 344(%rsp)
	je	206f
	movq	%r14, %rdi
205:
	vj_call	rattle_dealloc
206:
	leaq	-40(%rbp), %rsp
	popq	%rbx
	popq	%r12
	popq	%r13
	popq	%r14
	popq	%r15
	popq	%rbp
	retq
207:
	testq	%rbx, %rbx
	je	208f
	movq	%r13, %rdi
	vj_call	rattle_dealloc
208:
	xorl	%ebx, %ebx
	movq	168(%rsp), %r15
	jmp	201b
209:
	leaq	-6(%rbx), %rsi
	cmpq	$5, %rsi
	jbe	210f
	leaq	(%rsi,%rsi,4), %rsi
	movq	96(%rsp), %r8
	movq	232(%r8), %rdi
	movq	%rdi, 416(%rsp)
	movups	200(%r8), %xmm0
	movups	216(%r8), %xmm1
	movaps	%xmm1, 400(%rsp)
	movaps	%xmm0, 384(%rsp)
	movq	32(%r8,%rsi,8), %rdi
	movups	(%r8,%rsi,8), %xmm0
	movups	16(%r8,%rsi,8), %xmm1
	movups	%xmm0, 200(%r8)
	movups	%xmm1, 216(%r8)
	movq	%rdi, 232(%r8)
	movq	416(%rsp), %rdi
	movq	%rdi, 32(%r8,%rsi,8)
	movaps	384(%rsp), %xmm0
	movaps	400(%rsp), %xmm1
	movups	%xmm1, 16(%r8,%rsi,8)
	movups	%xmm0, (%r8,%rsi,8)
	jmp	211f
210:
	je	211f
	leaq	(%rsi,%rsi,4), %rsi
	movq	96(%rsp), %r8
	movq	32(%r8,%rsi,8), %rdi
	movq	%rdi, 416(%rsp)
	movups	(%r8,%rsi,8), %xmm0
	movups	16(%r8,%rsi,8), %xmm1
	movaps	%xmm1, 400(%rsp)
	movaps	%xmm0, 384(%rsp)
	movq	232(%r8), %rdi
	movups	200(%r8), %xmm0
	movups	216(%r8), %xmm1
	movups	%xmm0, (%r8,%rsi,8)
	movups	%xmm1, 16(%r8,%rsi,8)
	movq	%rdi, 32(%r8,%rsi,8)
	movq	416(%rsp), %rsi
	movq	%rsi, 232(%r8)
	movaps	384(%rsp), %xmm0
	movaps	400(%rsp), %xmm1
	movups	%xmm1, 216(%r8)
	movups	%xmm0, 200(%r8)
211:
	cmpq	$5, %rdx
	jne	213f
212:
	movq	%rbx, %r8
	movq	96(%rsp), %r15
	jmp	94b
213:
	leaq	-7(%rbx), %rdx
	cmpq	$6, %rdx
	jbe	214f
	leaq	(%rdx,%rdx,4), %rdx
	movq	96(%rsp), %r15
	movq	272(%r15), %rsi
	movq	%rsi, 416(%rsp)
	movups	240(%r15), %xmm0
	movups	256(%r15), %xmm1
	movaps	%xmm1, 400(%rsp)
	movaps	%xmm0, 384(%rsp)
	movq	32(%r15,%rdx,8), %rsi
	movups	(%r15,%rdx,8), %xmm0
	movups	16(%r15,%rdx,8), %xmm1
	movups	%xmm0, 240(%r15)
	movups	%xmm1, 256(%r15)
	movq	%rsi, 272(%r15)
	movq	416(%rsp), %rsi
	movq	%rsi, 32(%r15,%rdx,8)
	movaps	384(%rsp), %xmm0
	movaps	400(%rsp), %xmm1
	movups	%xmm1, 16(%r15,%rdx,8)
	movups	%xmm0, (%r15,%rdx,8)
	jmp	93b
214:
	je	212b
	leaq	(%rdx,%rdx,4), %rdx
	movq	96(%rsp), %r15
	movq	32(%r15,%rdx,8), %rsi
	movq	%rsi, 416(%rsp)
	movups	(%r15,%rdx,8), %xmm0
	movups	16(%r15,%rdx,8), %xmm1
	movaps	%xmm1, 400(%rsp)
	movaps	%xmm0, 384(%rsp)
	movq	272(%r15), %rsi
	movups	240(%r15), %xmm0
	movups	256(%r15), %xmm1
	movups	%xmm0, (%r15,%rdx,8)
	movups	%xmm1, 16(%r15,%rdx,8)
	movq	%rsi, 32(%r15,%rdx,8)
	movq	416(%rsp), %rdx
	movq	%rdx, 272(%r15)
	movaps	384(%rsp), %xmm0
	movaps	400(%rsp), %xmm1
	movups	%xmm1, 256(%r15)
	movups	%xmm0, 240(%r15)
	jmp	93b
	vj_end	b2sum_commands..ahead..read_group..432d41b752d14b0e_1_x86

	vj_function	b2sum..disk..marked_1_x86
	pushq	%r15
	pushq	%r14
	pushq	%r13
	pushq	%r12
	pushq	%rbx
	subq	$32, %rsp
	movq	%rcx, %r14
	movq	%rdx, %r15
	movq	%rsi, %r12
	movq	%rdi, %rbx
	leaq	7(%rsp), %rax
	movq	%rax, 8(%rsp)
	xorps	%xmm0, %xmm0
	movups	%xmm0, 16(%rsp)
	leaq	8(%rsp), %rdi
	movl	$4, %esi
	callq	std_alloc..vec..Vec..grow_amortized..01eec35b572d02af_1_x86
	movq	24(%rsp), %r13
	testb	%al, %al
	je	1f
	movq	8(%rsp), %rax
	movq	16(%rsp), %rcx
	leaq	(%rax,%rcx), %rdx
	addq	$4, %rcx
	movq	%rdx, %rsi
	subq	%r12, %rsi
	cmpq	$3, %rsi
	ja	4f
	movzbl	(%r12), %esi
	movb	%sil, (%rdx)
	movzbl	1(%r12), %esi
	movb	%sil, 1(%rdx)
	movzbl	2(%r12), %esi
	movb	%sil, 2(%rdx)
	movzbl	3(%r12), %esi
	movb	%sil, 3(%rdx)
	jmp	5f
1:
	testq	%r13, %r13
	je	3f
2:
	movq	8(%rsp), %rdi
	vj_call	rattle_dealloc
3:
	movb	$1, (%rbx)
	xorps	%xmm0, %xmm0
	movups	%xmm0, 8(%rbx)
	movq	$0, 24(%rbx)
	jmp	14f
4:
	movl	(%r12), %esi
	movl	%esi, (%rdx)
5:
	movq	%rcx, 16(%rsp)
	movq	%r13, 24(%rsp)
	movq	%r13, %rdx
	subq	%rcx, %rdx
	cmpq	%rdx, %r14
	ja	20f
6:
	leaq	(%rcx,%r14), %r12
	leaq	(%rax,%rcx), %rdi
	movq	%rdi, %rdx
	subq	%r15, %rdx
	cmpq	%r14, %rdx
	jae	12f
	cmpq	$4, %r14
	jb	7f
	cmpq	$32, %rdx
	jae	15f
7:
	xorl	%edx, %edx
8:
	movq	%r14, %r8
	movq	%rdx, %rsi
	andq	$3, %r8
	je	10f
	movq	%rdx, %rsi
	.p2align	4
9:
	movzbl	(%r15,%rsi), %r9d
	movb	%r9b, (%rdi,%rsi)
	incq	%rsi
	decq	%r8
	jne	9b
10:
	subq	%r14, %rdx
	cmpq	$-4, %rdx
	ja	13f
	addq	%rcx, %rax
	addq	$3, %rax
	.p2align	4
11:
	movzbl	(%r15,%rsi), %ecx
	movb	%cl, -3(%rax,%rsi)
	movzbl	1(%r15,%rsi), %ecx
	movb	%cl, -2(%rax,%rsi)
	movzbl	2(%r15,%rsi), %ecx
	movb	%cl, -1(%rax,%rsi)
	movzbl	3(%r15,%rsi), %ecx
	movb	%cl, (%rax,%rsi)
	addq	$4, %rsi
	cmpq	%rsi, %r14
	jne	11b
	jmp	13f
12:
	movq	%r15, %rsi
	movq	%r14, %rdx
	vj_c_call	memmove
13:
	movq	%r12, 16(%rsp)
	movq	%r13, 24(%rsp)
	movb	$0, (%rbx)
	movq	8(%rsp), %rax
	movq	%rax, 8(%rbx)
	movq	16(%rsp), %rax
	movq	%rax, 16(%rbx)
	movq	24(%rsp), %rax
	movq	%rax, 24(%rbx)
14:
	addq	$32, %rsp
	popq	%rbx
	popq	%r12
	popq	%r13
	popq	%r14
	popq	%r15
	retq
15:
	cmpq	$32, %r14
	jae	16f
	xorl	%edx, %edx
	jmp	18f
16:
	movq	%r14, %rdx
	andq	$-32, %rdx
	leaq	(%rcx,%rax), %rsi
	addq	$16, %rsi
	xorl	%r8d, %r8d
	.p2align	4
17:
	movups	(%r15,%r8), %xmm0
	movups	16(%r15,%r8), %xmm1
	movups	%xmm0, -16(%rsi,%r8)
	movups	%xmm1, (%rsi,%r8)
	addq	$32, %r8
	cmpq	%r8, %rdx
	jne	17b
	cmpq	%rdx, %r14
	je	13b
	testb	$28, %r14b
	je	8b
18:
	movq	%rdx, %rsi
	movq	%r14, %rdx
	andq	$-4, %rdx
	.p2align	4
19:
	movl	(%r15,%rsi), %r8d
	movl	%r8d, (%rdi,%rsi)
	addq	$4, %rsi
	cmpq	%rsi, %rdx
	jne	19b
	cmpq	%rdx, %r14
	je	13b
	jmp	8b
20:
	leaq	8(%rsp), %rdi
	movq	%r14, %rsi
	callq	std_alloc..vec..Vec..grow_amortized..01eec35b572d02af_1_x86
	testb	%al, %al
	je	21f
	movq	8(%rsp), %rax
	movq	16(%rsp), %rcx
	movq	24(%rsp), %r13
	jmp	6b
21:
	cmpq	$0, 24(%rsp)
	jne	2b
	jmp	3b
	vj_end	b2sum..disk..marked_1_x86

	vj_cold	std_alloc..vec..Vec..grow_amortized..ceac4a91d2a6d4e6_1_x86
	movq	8(%rdi), %rax
	cmpq	$-1, %rax
	je	2f
	pushq	%r14
	pushq	%rbx
	pushq	%rax
	movq	16(%rdi), %rcx
	cmpq	$4, %rax
	movl	$3, %ebx
	cmovaeq	%rax, %rbx
	incq	%rbx
	movq	%rcx, %rsi
	shrq	$62, %rsi
	leaq	(%rcx,%rcx), %rdx
	cmpq	%rdx, %rbx
	cmovaq	%rbx, %rdx
	testq	%rsi, %rsi
	cmoveq	%rdx, %rbx
	movabsq	$230584300921369395, %rsi
	cmpq	%rsi, %rbx
	ja	4f
	testq	%rcx, %rcx
	je	3f
	movq	%rdi, %r14
	movq	(%rdi), %rdi
	shlq	$3, %rax
	leaq	(%rax,%rax,4), %rsi
	leaq	(,%rbx,8), %rax
	leaq	(%rax,%rax,4), %rdx
	movl	$8, %ecx
	vj_call	rattle_realloc
	testb	$1, %al
	je	4f
1:
	movq	%rdx, (%r14)
	movq	%rbx, 16(%r14)
	movb	$1, %al
	addq	$8, %rsp
	popq	%rbx
	popq	%r14
	retq
2:
	xorl	%eax, %eax
	retq
3:
	movq	%rdi, %r14
	shlq	$3, %rdx
	leaq	(%rdx,%rdx,4), %rdi
	movl	$8, %esi
	vj_call	rattle_alloc
	testb	$1, %al
	jne	1b
4:
	xorl	%eax, %eax
	addq	$8, %rsp
	popq	%rbx
	popq	%r14
	retq
	vj_end	std_alloc..vec..Vec..grow_amortized..ceac4a91d2a6d4e6_1_x86

	vj_function	core..slice..edits..mirror..27.b2sum_commands..ahead..Part_1_x86
	subq	$40, %rsp
	leaq	(%rdx,%rdx,4), %rax
	leaq	(%rsi,%rax,8), %rax
	addq	$-40, %rax
	.p2align	4
1:
	movq	32(%rdi), %rcx
	movq	%rcx, 32(%rsp)
	movups	(%rdi), %xmm0
	movups	16(%rdi), %xmm1
	movaps	%xmm1, 16(%rsp)
	movaps	%xmm0, (%rsp)
	movq	32(%rax), %rcx
	movups	(%rax), %xmm0
	movups	16(%rax), %xmm1
	movups	%xmm0, (%rdi)
	movups	%xmm1, 16(%rdi)
	movq	%rcx, 32(%rdi)
	movq	32(%rsp), %rcx
	movq	%rcx, 32(%rax)
	movaps	(%rsp), %xmm0
	movaps	16(%rsp), %xmm1
	movups	%xmm1, 16(%rax)
	movups	%xmm0, (%rax)
	addq	$40, %rdi
	addq	$-40, %rax
	decq	%rdx
	jne	1b
	addq	$40, %rsp
	retq
	vj_end	core..slice..edits..mirror..27.b2sum_commands..ahead..Part_1_x86

	vj_function	core..slice..sort..stable..quicksort..610785a6ec0ddab1_1_x86
	pushq	%rbp
	pushq	%r15
	pushq	%r14
	pushq	%r13
	pushq	%r12
	pushq	%rbx
	subq	$72, %rsp
	movq	%r8, 8(%rsp)
	movl	%ecx, %r12d
	movq	%rdx, %rbx
	movq	%rsi, %r14
	movq	%rdi, %rbp
	cmpq	$33, %rsi
	jae	5f
1:
	movq	%rbp, %rdi
	movq	%r14, %rsi
	movq	8(%rsp), %rdx
	addq	$72, %rsp
	popq	%rbx
	popq	%r12
	popq	%r13
	popq	%r14
	popq	%r15
	popq	%rbp
	jmp	core..slice..sort..short..sort..610785a6ec0ddab1_1_x86
	.p2align	4
2:
	movq	%r15, %rdi
	movq	%r12, %rsi
	vj_c_call	memmove
	movq	16(%rsp), %r9
3:
	movq	8(%rsp), %r8
	movq	%r12, (%r8)
	movq	%r9, 8(%r8)
	movl	36(%rsp), %r12d
	decl	%r12d
	movq	%rbp, %rdi
	movq	%rbx, %rsi
	movq	%r14, %rdx
	movl	%r12d, %ecx
	callq	core..slice..sort..stable..quicksort..610785a6ec0ddab1_1_x86
	movq	24(%rsp), %r14
4:
	movq	%r14, %rbx
	movq	%r15, %rbp
	movq	%r13, %r14
	cmpq	$33, %r13
	jb	1b
5:
	testl	%r12d, %r12d
	je	37f
	movq	%r14, %r8
	shrq	$3, %r8
	leaq	(,%r8,4), %rdx
	movq	%r14, %rcx
	andq	$-8, %rcx
	subq	%r8, %rcx
	cmpq	$63, %r14
	ja	6f
	leaq	(%r8,%r8,4), %rax
	shlq	$5, %rax
	movq	24(%rbp), %rsi
	movq	24(%rbp,%rax), %rdi
	subq	32(%rbp), %rsi
	subq	32(%rbp,%rax), %rdi
	cmpq	%rdi, %rsi
	setb	%al
	imulq	$280, %r8, %r8
	movq	24(%rbp,%r8), %r9
	subq	32(%rbp,%r8), %r9
	cmpq	%r9, %rsi
	setb	%sil
	xorb	%al, %sil
	cmpq	%r9, %rdi
	setb	%dil
	xorb	%al, %dil
	cmovneq	%rcx, %rdx
	xorl	%eax, %eax
	testb	%sil, %sil
	cmoveq	%rdx, %rax
	jmp	7f
	.p2align	4
6:
	movq	%rbp, %rdi
	xorl	%esi, %esi
	callq	core..slice..sort..pivot..median_of_medians..610785a6ec0ddab1_1_x86
7:
	movl	%r12d, 36(%rsp)
	leaq	(,%rax,8), %rcx
	leaq	(%rcx,%rcx,4), %rsi
	cmpq	%r14, %rbx
	jae	8f
	leaq	(%rbx,%rbx,4), %rdx
	movq	24(%rbp,%rdx,8), %rdi
	movq	24(%rbp,%rsi), %r15
	movq	32(%rbp,%rsi), %rcx
	subq	32(%rbp,%rdx,8), %rdi
	movq	%r15, %rdx
	subq	%rcx, %rdx
	movq	8(%rsp), %r8
	movq	(%r8), %r12
	movq	8(%r8), %r8
	cmpq	%rdx, %rdi
	jb	9f
	addq	%rbp, %rsi
	movq	16(%rsi), %rdi
	movq	%rdi, 64(%rsp)
	movups	(%rsi), %xmm0
	movaps	%xmm0, 48(%rsp)
	testq	%rax, %rax
	movq	%r8, 16(%rsp)
	je	19f
	cmpq	$1, %rax
	jne	24f
	xorl	%esi, %esi
	xorl	%edi, %edi
	jmp	26f
	.p2align	4
8:
	movq	8(%rsp), %rcx
	movq	(%rcx), %r12
	movq	8(%rcx), %r8
9:
	movq	16(%rbp,%rsi), %rcx
	movq	%rcx, 64(%rsp)
	movups	(%rbp,%rsi), %xmm0
	movaps	%xmm0, 48(%rsp)
	movq	24(%rbp,%rsi), %rcx
	movq	32(%rbp,%rsi), %rdx
	testq	%rax, %rax
	movq	%rax, 24(%rsp)
	movq	%r8, 16(%rsp)
	movq	%rcx, 40(%rsp)
	je	10f
	movq	%rcx, %rsi
	movq	%rdx, %rcx
	subq	%rdx, %rsi
	cmpq	$1, %rax
	jne	11f
	xorl	%edx, %edx
	xorl	%edi, %edi
	jmp	13f
	.p2align	4
10:
	movq	%rdx, %rcx
	xorl	%edx, %edx
	jmp	14f
	.p2align	4
11:
	movq	%rax, %r8
	andq	$-2, %r8
	leaq	72(%rbp), %r9
	xorl	%edx, %edx
	xorl	%edi, %edi
	.p2align	4
12:
	movq	-48(%r9), %r11
	movq	-40(%r9), %rbx
	subq	%rbx, %r11
	movq	%rdi, %r15
	subq	%rdx, %r15
	xorl	%r10d, %r10d
	cmpq	%rsi, %r11
	movq	%r12, %r11
	cmovbq	%rbp, %r11
	cmovbq	%rdx, %r15
	setb	%r10b
	leaq	(%r15,%r15,4), %r15
	movups	-72(%r9), %xmm0
	movups	-56(%r9), %xmm1
	movq	%rbx, 32(%r11,%r15,8)
	movups	%xmm1, 16(%r11,%r15,8)
	movups	%xmm0, (%r11,%r15,8)
	leaq	(%rdx,%r10), %r11
	movq	-8(%r9), %rbx
	movq	(%r9), %r15
	subq	%r15, %rbx
	movq	%rdi, %r13
	subq	%r11, %r13
	incq	%r13
	cmpq	%rsi, %rbx
	movq	%r12, %rbx
	cmovbq	%rbp, %rbx
	cmovbq	%r11, %r13
	leaq	(%r13,%r13,4), %r11
	movups	-32(%r9), %xmm0
	movups	-16(%r9), %xmm1
	movq	%r15, 32(%rbx,%r11,8)
	movups	%xmm1, 16(%rbx,%r11,8)
	adcq	%r10, %rdx
	movups	%xmm0, (%rbx,%r11,8)
	addq	$2, %rdi
	addq	$80, %r9
	cmpq	%rdi, %r8
	jne	12b
	movq	24(%rsp), %rax
	testb	$1, %al
	je	14f
13:
	leaq	(%rdi,%rdi,4), %r8
	movq	24(%rbp,%r8,8), %r9
	movq	32(%rbp,%r8,8), %r10
	subq	%r10, %r9
	subq	%rdx, %rdi
	cmpq	%rsi, %r9
	movq	%r12, %rsi
	cmovbq	%rbp, %rsi
	cmovbq	%rdx, %rdi
	leaq	(%rdi,%rdi,4), %rdi
	movups	(%rbp,%r8,8), %xmm0
	movups	16(%rbp,%r8,8), %xmm1
	movq	%r10, 32(%rsi,%rdi,8)
	movups	%xmm1, 16(%rsi,%rdi,8)
	movups	%xmm0, (%rsi,%rdi,8)
	adcq	$0, %rdx
14:
	leaq	1(%rax), %rdi
	movq	%rdx, %rbx
	cmpq	%r14, %rdi
	jae	18f
	movq	40(%rsp), %rsi
	subq	%rcx, %rsi
	movq	24(%rsp), %rax
	movl	%eax, %r8d
	subl	%r14d, %r8d
	testb	$1, %r8b
	jne	15f
	leaq	(%rdi,%rdi,4), %r8
	movq	24(%rbp,%r8,8), %r9
	movq	32(%rbp,%r8,8), %r10
	subq	%r10, %r9
	subq	%rdx, %rdi
	cmpq	%rsi, %r9
	movq	%r12, %r9
	cmovbq	%rbp, %r9
	cmovbq	%rdx, %rdi
	leaq	(%rdi,%rdi,4), %rdi
	movups	(%rbp,%r8,8), %xmm0
	movups	16(%rbp,%r8,8), %xmm1
	movq	%r10, 32(%r9,%rdi,8)
	movups	%xmm1, 16(%r9,%rdi,8)
	movups	%xmm0, (%r9,%rdi,8)
	movq	%rdx, %rbx
	adcq	$0, %rbx
	leaq	2(%rax), %rdi
	leaq	-2(%r14), %r8
	cmpq	%rax, %r8
	jne	16f
	jmp	18f
15:
	movq	%rdx, %rbx
	leaq	-2(%r14), %r8
	cmpq	%rax, %r8
	je	18f
16:
	leaq	(%rdi,%rdi,4), %r8
	leaq	72(,%r8,8), %r8
	addq	%rbp, %r8
	.p2align	4
17:
	movq	-48(%r8), %r10
	movq	-40(%r8), %r11
	subq	%r11, %r10
	movq	%rdi, %r15
	subq	%rbx, %r15
	xorl	%r9d, %r9d
	cmpq	%rsi, %r10
	movq	%r12, %r10
	cmovbq	%rbp, %r10
	cmovbq	%rbx, %r15
	setb	%r9b
	leaq	(%r15,%r15,4), %r15
	movups	-72(%r8), %xmm0
	movups	-56(%r8), %xmm1
	movq	%r11, 32(%r10,%r15,8)
	movups	%xmm1, 16(%r10,%r15,8)
	movups	%xmm0, (%r10,%r15,8)
	leaq	(%rbx,%r9), %r10
	movq	-8(%r8), %r11
	movq	(%r8), %r15
	subq	%r15, %r11
	movq	%rdi, %r13
	subq	%r10, %r13
	incq	%r13
	cmpq	%rsi, %r11
	movq	%r12, %r11
	cmovbq	%rbp, %r11
	cmovbq	%r10, %r13
	leaq	(%r13,%r13,4), %r10
	movups	-32(%r8), %xmm0
	movups	-16(%r8), %xmm1
	movq	%r15, 32(%r11,%r10,8)
	movups	%xmm1, 16(%r11,%r10,8)
	adcq	%r9, %rbx
	movups	%xmm0, (%r11,%r10,8)
	addq	$2, %rdi
	addq	$80, %r8
	cmpq	%rdi, %r14
	jne	17b
18:
	movq	24(%rsp), %rax
	subq	%rdx, %rax
	movq	%rax, 24(%rsp)
	leaq	(%rax,%rax,4), %rdx
	movq	64(%rsp), %rsi
	movq	%rsi, 16(%r12,%rdx,8)
	movaps	48(%rsp), %xmm0
	movups	%xmm0, (%r12,%rdx,8)
	movq	40(%rsp), %rax
	movq	%rax, 24(%r12,%rdx,8)
	movq	%rcx, 32(%r12,%rdx,8)
	movq	%r14, %r13
	subq	%rbx, %r13
	leaq	(,%rbx,8), %rax
	leaq	(%rax,%rax,4), %rax
	leaq	(%rax,%rbp), %r15
	leaq	(,%r13,8), %rcx
	leaq	(%rcx,%rcx,4), %rdx
	movq	%r15, %rcx
	subq	%r12, %rcx
	cmpq	%rdx, %rcx
	jae	2b
	cmpq	%rbx, %r14
	movq	16(%rsp), %r9
	je	3b
	movl	%r13d, %ecx
	andl	$7, %ecx
	movq	%rbx, %rdx
	subq	%r14, %rdx
	cmpq	$-8, %rdx
	jbe	20f
	xorl	%edx, %edx
	jmp	22f
19:
	xorl	%esi, %esi
	jmp	27f
20:
	movq	%r13, %rsi
	andq	$-8, %rsi
	movl	$280, %edi
	xorl	%edx, %edx
	.p2align	4
21:
	movups	-280(%r12,%rdi), %xmm0
	movups	-264(%r12,%rdi), %xmm1
	movq	-248(%r12,%rdi), %r8
	movq	%r8, -248(%r15,%rdi)
	movups	%xmm1, -264(%r15,%rdi)
	movups	%xmm0, -280(%r15,%rdi)
	movups	-240(%r12,%rdi), %xmm0
	movups	-224(%r12,%rdi), %xmm1
	movq	-208(%r12,%rdi), %r8
	movq	%r8, -208(%r15,%rdi)
	movups	%xmm1, -224(%r15,%rdi)
	movups	%xmm0, -240(%r15,%rdi)
	movups	-200(%r12,%rdi), %xmm0
	movups	-184(%r12,%rdi), %xmm1
	movq	-168(%r12,%rdi), %r8
	movq	%r8, -168(%r15,%rdi)
	movups	%xmm1, -184(%r15,%rdi)
	movups	%xmm0, -200(%r15,%rdi)
	movups	-160(%r12,%rdi), %xmm0
	movups	-144(%r12,%rdi), %xmm1
	movq	-128(%r12,%rdi), %r8
	movq	%r8, -128(%r15,%rdi)
	movups	%xmm1, -144(%r15,%rdi)
	movups	%xmm0, -160(%r15,%rdi)
	movups	-120(%r12,%rdi), %xmm0
	movups	-104(%r12,%rdi), %xmm1
	movq	-88(%r12,%rdi), %r8
	movq	%r8, -88(%r15,%rdi)
	movups	%xmm1, -104(%r15,%rdi)
	movups	%xmm0, -120(%r15,%rdi)
	movups	-80(%r12,%rdi), %xmm0
	movups	-64(%r12,%rdi), %xmm1
	movq	-48(%r12,%rdi), %r8
	movq	%r8, -48(%r15,%rdi)
	movups	%xmm1, -64(%r15,%rdi)
	movups	%xmm0, -80(%r15,%rdi)
	movups	-40(%r12,%rdi), %xmm0
	movups	-24(%r12,%rdi), %xmm1
	movq	-8(%r12,%rdi), %r8
	movq	%r8, -8(%r15,%rdi)
	movups	%xmm1, -24(%r15,%rdi)
	movups	%xmm0, -40(%r15,%rdi)
	movups	(%r12,%rdi), %xmm0
	movups	16(%r12,%rdi), %xmm1
	movq	32(%r12,%rdi), %r8
	movq	%r8, 32(%r15,%rdi)
	movups	%xmm1, 16(%r15,%rdi)
	movups	%xmm0, (%r15,%rdi)
	addq	$8, %rdx
	addq	$320, %rdi
	cmpq	%rdx, %rsi
	jne	21b
	testq	%rcx, %rcx
	je	3b
22:
	shlq	$3, %rdx
	leaq	(%rdx,%rdx,4), %rsi
	leaq	(%r12,%rsi), %rdx
	addq	%rbp, %rax
	addq	%rsi, %rax
	shll	$3, %ecx
	leaq	(%rcx,%rcx,4), %rcx
	xorl	%esi, %esi
	.p2align	4
23:
	movups	(%rdx,%rsi), %xmm0
	movups	16(%rdx,%rsi), %xmm1
	movq	32(%rdx,%rsi), %rdi
	movq	%rdi, 32(%rax,%rsi)
	movups	%xmm1, 16(%rax,%rsi)
	movups	%xmm0, (%rax,%rsi)
	addq	$40, %rsi
	cmpq	%rsi, %rcx
	jne	23b
	jmp	3b
24:
	movq	%rax, %r8
	andq	$-2, %r8
	leaq	72(%rbp), %r9
	xorl	%esi, %esi
	xorl	%edi, %edi
	.p2align	4
25:
	movq	-48(%r9), %r10
	movq	-40(%r9), %r11
	subq	%r11, %r10
	movq	%rdi, %rbx
	subq	%rsi, %rbx
	cmpq	%r10, %rdx
	movq	%r12, %r10
	cmovaeq	%rbp, %r10
	cmovaeq	%rsi, %rbx
	leaq	(%rbx,%rbx,4), %rbx
	movups	-72(%r9), %xmm0
	movups	-56(%r9), %xmm1
	movq	%r11, 32(%r10,%rbx,8)
	movups	%xmm1, 16(%r10,%rbx,8)
	movups	%xmm0, (%r10,%rbx,8)
	sbbq	$-1, %rsi
	movq	-8(%r9), %r10
	movq	(%r9), %r11
	subq	%r11, %r10
	movq	%rdi, %rbx
	subq	%rsi, %rbx
	incq	%rbx
	cmpq	%r10, %rdx
	movq	%r12, %r10
	cmovaeq	%rbp, %r10
	cmovaeq	%rsi, %rbx
	leaq	(%rbx,%rbx,4), %rbx
	movups	-32(%r9), %xmm0
	movups	-16(%r9), %xmm1
	movq	%r11, 32(%r10,%rbx,8)
	movups	%xmm1, 16(%r10,%rbx,8)
	sbbq	$-1, %rsi
	movups	%xmm0, (%r10,%rbx,8)
	addq	$2, %rdi
	addq	$80, %r9
	cmpq	%rdi, %r8
	jne	25b
	testb	$1, %al
	je	27f
26:
	leaq	(%rdi,%rdi,4), %r8
	movq	24(%rbp,%r8,8), %r9
	movq	32(%rbp,%r8,8), %r10
	subq	%r10, %r9
	subq	%rsi, %rdi
	cmpq	%r9, %rdx
	movq	%r12, %r9
	cmovaeq	%rbp, %r9
	cmovaeq	%rsi, %rdi
	leaq	(%rdi,%rdi,4), %rdi
	movups	(%rbp,%r8,8), %xmm0
	movups	16(%rbp,%r8,8), %xmm1
	movq	%r10, 32(%r9,%rdi,8)
	movups	%xmm1, 16(%r9,%rdi,8)
	movups	%xmm0, (%r9,%rdi,8)
	sbbq	$-1, %rsi
27:
	leaq	1(%rsi), %rdi
	leaq	1(%rax), %r8
	cmpq	%r14, %r8
	jae	30f
	movl	%eax, %r9d
	subl	%r14d, %r9d
	testb	$1, %r9b
	jne	28f
	leaq	(%r8,%r8,4), %r8
	movq	24(%rbp,%r8,8), %r9
	movq	32(%rbp,%r8,8), %r10
	subq	%r10, %r9
	movq	%rax, %r11
	subq	%rsi, %r11
	cmpq	%r9, %rdx
	movq	%r12, %r9
	cmovaeq	%rbp, %r9
	cmovaeq	%rdi, %r11
	leaq	(%r11,%r11,4), %r11
	movups	(%rbp,%r8,8), %xmm0
	movups	16(%rbp,%r8,8), %xmm1
	movq	%r10, 32(%r9,%r11,8)
	movups	%xmm1, 16(%r9,%r11,8)
	movups	%xmm0, (%r9,%r11,8)
	sbbq	$-1, %rdi
	leaq	2(%rax), %r8
28:
	leaq	-2(%r14), %r9
	cmpq	%rax, %r9
	je	30f
	leaq	(%r8,%r8,4), %r9
	leaq	72(,%r9,8), %r9
	addq	%rbp, %r9
	.p2align	4
29:
	movq	-48(%r9), %r10
	movq	-40(%r9), %r11
	subq	%r11, %r10
	movq	%r8, %rbx
	subq	%rdi, %rbx
	cmpq	%r10, %rdx
	movq	%r12, %r10
	cmovaeq	%rbp, %r10
	cmovaeq	%rdi, %rbx
	leaq	(%rbx,%rbx,4), %rbx
	movups	-72(%r9), %xmm0
	movups	-56(%r9), %xmm1
	movq	%r11, 32(%r10,%rbx,8)
	movups	%xmm1, 16(%r10,%rbx,8)
	movups	%xmm0, (%r10,%rbx,8)
	sbbq	$-1, %rdi
	movq	-8(%r9), %r10
	movq	(%r9), %r11
	subq	%r11, %r10
	movq	%r8, %rbx
	subq	%rdi, %rbx
	incq	%rbx
	cmpq	%r10, %rdx
	movq	%r12, %r10
	cmovaeq	%rbp, %r10
	cmovaeq	%rdi, %rbx
	leaq	(%rbx,%rbx,4), %rbx
	movups	-32(%r9), %xmm0
	movups	-16(%r9), %xmm1
	movq	%r11, 32(%r10,%rbx,8)
	movups	%xmm1, 16(%r10,%rbx,8)
	sbbq	$-1, %rdi
	movups	%xmm0, (%r10,%rbx,8)
	addq	$2, %r8
	addq	$80, %r9
	cmpq	%r8, %r14
	jne	29b
30:
	leaq	(%rsi,%rsi,4), %rdx
	movq	64(%rsp), %rsi
	movq	%rsi, 16(%rbp,%rdx,8)
	movaps	48(%rsp), %xmm0
	movups	%xmm0, (%rbp,%rdx,8)
	movq	%r15, 24(%rbp,%rdx,8)
	movq	%rcx, 32(%rbp,%rdx,8)
	movq	%r14, %r13
	subq	%rdi, %r13
	leaq	(,%rdi,8), %rax
	leaq	(%rax,%rax,4), %rax
	leaq	(%rax,%rbp), %r15
	leaq	(,%r13,8), %rcx
	leaq	(%rcx,%rcx,4), %rdx
	movq	%r15, %rcx
	subq	%r12, %rcx
	cmpq	%rdx, %rcx
	jae	31f
	cmpq	%rdi, %r14
	movq	16(%rsp), %r9
	je	36f
	movl	%r13d, %ecx
	andl	$7, %ecx
	subq	%r14, %rdi
	cmpq	$-8, %rdi
	jbe	32f
	xorl	%edx, %edx
	jmp	34f
31:
	movq	%r15, %rdi
	movq	%r12, %rsi
	vj_c_call	memmove
	movq	16(%rsp), %r9
	jmp	36f
32:
	movq	%r13, %rsi
	andq	$-8, %rsi
	movl	$280, %edi
	xorl	%edx, %edx
	.p2align	4
33:
	movups	-280(%r12,%rdi), %xmm0
	movups	-264(%r12,%rdi), %xmm1
	movq	-248(%r12,%rdi), %r8
	movq	%r8, -248(%r15,%rdi)
	movups	%xmm1, -264(%r15,%rdi)
	movups	%xmm0, -280(%r15,%rdi)
	movups	-240(%r12,%rdi), %xmm0
	movups	-224(%r12,%rdi), %xmm1
	movq	-208(%r12,%rdi), %r8
	movq	%r8, -208(%r15,%rdi)
	movups	%xmm1, -224(%r15,%rdi)
	movups	%xmm0, -240(%r15,%rdi)
	movups	-200(%r12,%rdi), %xmm0
	movups	-184(%r12,%rdi), %xmm1
	movq	-168(%r12,%rdi), %r8
	movq	%r8, -168(%r15,%rdi)
	movups	%xmm1, -184(%r15,%rdi)
	movups	%xmm0, -200(%r15,%rdi)
	movups	-160(%r12,%rdi), %xmm0
	movups	-144(%r12,%rdi), %xmm1
	movq	-128(%r12,%rdi), %r8
	movq	%r8, -128(%r15,%rdi)
	movups	%xmm1, -144(%r15,%rdi)
	movups	%xmm0, -160(%r15,%rdi)
	movups	-120(%r12,%rdi), %xmm0
	movups	-104(%r12,%rdi), %xmm1
	movq	-88(%r12,%rdi), %r8
	movq	%r8, -88(%r15,%rdi)
	movups	%xmm1, -104(%r15,%rdi)
	movups	%xmm0, -120(%r15,%rdi)
	movups	-80(%r12,%rdi), %xmm0
	movups	-64(%r12,%rdi), %xmm1
	movq	-48(%r12,%rdi), %r8
	movq	%r8, -48(%r15,%rdi)
	movups	%xmm1, -64(%r15,%rdi)
	movups	%xmm0, -80(%r15,%rdi)
	movups	-40(%r12,%rdi), %xmm0
	movups	-24(%r12,%rdi), %xmm1
	movq	-8(%r12,%rdi), %r8
	movq	%r8, -8(%r15,%rdi)
	movups	%xmm1, -24(%r15,%rdi)
	movups	%xmm0, -40(%r15,%rdi)
	movups	(%r12,%rdi), %xmm0
	movups	16(%r12,%rdi), %xmm1
	movq	32(%r12,%rdi), %r8
	movq	%r8, 32(%r15,%rdi)
	movups	%xmm1, 16(%r15,%rdi)
	movups	%xmm0, (%r15,%rdi)
	addq	$8, %rdx
	addq	$320, %rdi
	cmpq	%rdx, %rsi
	jne	33b
	testq	%rcx, %rcx
	je	36f
34:
	shlq	$3, %rdx
	leaq	(%rdx,%rdx,4), %rsi
	leaq	(%r12,%rsi), %rdx
	addq	%rax, %rbp
	addq	%rsi, %rbp
	shll	$3, %ecx
	leaq	(%rcx,%rcx,4), %rax
	xorl	%ecx, %ecx
	.p2align	4
35:
	movups	(%rdx,%rcx), %xmm0
	movups	16(%rdx,%rcx), %xmm1
	movq	32(%rdx,%rcx), %rsi
	movq	%rsi, 32(%rbp,%rcx)
	movups	%xmm1, 16(%rbp,%rcx)
	movups	%xmm0, (%rbp,%rcx)
	addq	$40, %rcx
	cmpq	%rcx, %rax
	jne	35b
36:
	movq	8(%rsp), %rax
	movq	%r12, (%rax)
	movq	%r9, 8(%rax)
	movl	36(%rsp), %r12d
	decl	%r12d
	jmp	4b
37:
	movq	%rbp, %rdi
	movq	%r14, %rsi
	movq	8(%rsp), %rdx
	addq	$72, %rsp
	popq	%rbx
	popq	%r12
	popq	%r13
	popq	%r14
	popq	%r15
	popq	%rbp
	jmp	core..slice..sort..stable..merge_sort..610785a6ec0ddab1_1_x86
	vj_end	core..slice..sort..stable..quicksort..610785a6ec0ddab1_1_x86

	vj_function	core..slice..sort..short..sort..610785a6ec0ddab1_1_x86
	cmpq	$16, %rsi
	jb	core..slice..sort..short..sort_half..610785a6ec0ddab1_1_x86
	pushq	%rbp
	pushq	%r15
	pushq	%r14
	pushq	%r13
	pushq	%r12
	pushq	%rbx
	subq	$72, %rsp
	movq	%rsi, %r15
	shrq	%r15
	leaq	(%r15,%r15,4), %rax
	leaq	(%rdi,%rax,8), %r12
	movq	%rsi, %r13
	subq	%r15, %r13
	movq	%rdi, %r14
	movq	%rsi, %rbp
	movq	%r15, %rsi
	movq	%rdx, %rbx
	callq	core..slice..sort..short..sort_half..610785a6ec0ddab1_1_x86
	movq	%r12, %rdi
	movq	%r13, %rsi
	movq	%rbx, %rdx
	callq	core..slice..sort..short..sort_half..610785a6ec0ddab1_1_x86
	movq	%rbp, %r9
	movq	%r14, %rdi
	movq	(%rbx), %r14
	movq	%rbx, 56(%rsp)
	movq	8(%rbx), %rax
	movq	%rax, 8(%rsp)
	xorps	%xmm0, %xmm0
	movaps	%xmm0, 32(%rsp)
	movaps	%xmm0, 16(%rsp)
	leaq	16(%rsp), %rcx
	leaq	(%rcx,%rbp), %r10
	decq	%r10
	xorl	%edx, %edx
	movq	%r15, %rsi
	movq	%r15, %r8
	movq	%rbp, 64(%rsp)
	xorl	%r11d, %r11d
	.p2align	4
1:
	movq	%r8, %r13
	leaq	(%r8,%r8,4), %rbp
	leaq	(%rdx,%rdx,4), %r12
	movq	24(%rdi,%rbp,8), %rbx
	movq	24(%rdi,%r12,8), %rax
	subq	32(%rdi,%rbp,8), %rbx
	subq	32(%rdi,%r12,8), %rax
	cmpq	%rax, %rbx
	adcq	$0, %r8
	cmpq	%rax, %rbx
	cmovael	%edx, %r13d
	movq	%rsi, %rax
	movb	%r13b, 16(%rsp,%r11)
	sbbq	$-1, %rdx
	leaq	(%r9,%r9,4), %rbx
	leaq	(%rsi,%rsi,4), %r12
	movq	-16(%rdi,%rbx,8), %r13
	movq	-16(%rdi,%r12,8), %rbp
	subq	-8(%rdi,%rbx,8), %r13
	subq	-8(%rdi,%r12,8), %rbp
	cmpq	%rbp, %r13
	sbbq	$0, %rsi
	cmpq	%rbp, %r13
	cmovael	%r9d, %eax
	adcq	$-1, %r9
	decb	%al
	movb	%al, (%r10)
	incq	%r11
	decq	%r10
	cmpq	%r11, %r15
	jne	1b
	movq	64(%rsp), %r12
	testb	$1, %r12b
	je	2f
	cmpq	%rsi, %rdx
	movl	%r8d, %eax
	cmovbl	%edx, %eax
	movb	%al, 16(%rsp,%r15)
2:
	cmpq	%r9, %r8
	ja	8f
	cmpq	%rsi, %rdx
	ja	8f
	movl	%r12d, %edx
	andl	$3, %edx
	leaq	(,%r12,8), %rsi
	movq	%rsi, %rax
	andq	$-32, %rax
	leaq	(%rax,%rax,4), %r9
	xorl	%r8d, %r8d
	.p2align	4
3:
	movzbl	(%rcx), %eax
	leaq	(%rax,%rax,4), %rax
	movups	(%rdi,%rax,8), %xmm0
	movups	16(%rdi,%rax,8), %xmm1
	movq	32(%rdi,%rax,8), %rax
	movq	%rax, 32(%r14,%r8)
	movups	%xmm1, 16(%r14,%r8)
	movups	%xmm0, (%r14,%r8)
	movzbl	1(%rcx), %eax
	leaq	(%rax,%rax,4), %rax
	movups	(%rdi,%rax,8), %xmm0
	movups	16(%rdi,%rax,8), %xmm1
	movq	32(%rdi,%rax,8), %rax
	movq	%rax, 72(%r14,%r8)
	movups	%xmm1, 56(%r14,%r8)
	movups	%xmm0, 40(%r14,%r8)
	movzbl	2(%rcx), %eax
	leaq	(%rax,%rax,4), %rax
	movups	(%rdi,%rax,8), %xmm0
	movups	16(%rdi,%rax,8), %xmm1
	movq	32(%rdi,%rax,8), %rax
	movq	%rax, 112(%r14,%r8)
	movups	%xmm1, 96(%r14,%r8)
	movups	%xmm0, 80(%r14,%r8)
	movzbl	3(%rcx), %eax
	leaq	(%rax,%rax,4), %rax
	movups	(%rdi,%rax,8), %xmm0
	movups	16(%rdi,%rax,8), %xmm1
	movq	32(%rdi,%rax,8), %rax
	movq	%rax, 152(%r14,%r8)
	movups	%xmm1, 136(%r14,%r8)
	movups	%xmm0, 120(%r14,%r8)
	addq	$4, %rcx
	addq	$160, %r8
	cmpq	%r8, %r9
	jne	3b
	testq	%rdx, %rdx
	movq	56(%rsp), %rbx
	je	5f
	addq	%r14, %r8
	.p2align	4
4:
	movzbl	(%rcx), %eax
	leaq	(%rax,%rax,4), %rax
	movups	(%rdi,%rax,8), %xmm0
	movups	16(%rdi,%rax,8), %xmm1
	movq	32(%rdi,%rax,8), %rax
	movq	%rax, 32(%r8)
	movups	%xmm1, 16(%r8)
	movups	%xmm0, (%r8)
	addq	$40, %r8
	incq	%rcx
	decq	%rdx
	jne	4b
5:
	leaq	(%rsi,%rsi,4), %rdx
	movq	%rdi, %rax
	subq	%r14, %rax
	cmpq	%rdx, %rax
	jae	15f
	andl	$7, %r12d
	andq	$-64, %rsi
	leaq	(%rsi,%rsi,4), %rdx
	xorl	%ecx, %ecx
	.p2align	4
6:
	movups	(%r14,%rcx), %xmm0
	movups	16(%r14,%rcx), %xmm1
	movq	32(%r14,%rcx), %rax
	movq	%rax, 32(%rdi,%rcx)
	movups	%xmm1, 16(%rdi,%rcx)
	movups	%xmm0, (%rdi,%rcx)
	movups	40(%r14,%rcx), %xmm0
	movups	56(%r14,%rcx), %xmm1
	movq	72(%r14,%rcx), %rax
	movq	%rax, 72(%rdi,%rcx)
	movups	%xmm1, 56(%rdi,%rcx)
	movups	%xmm0, 40(%rdi,%rcx)
	movups	80(%r14,%rcx), %xmm0
	movups	96(%r14,%rcx), %xmm1
	movq	112(%r14,%rcx), %rax
	movq	%rax, 112(%rdi,%rcx)
	movups	%xmm1, 96(%rdi,%rcx)
	movups	%xmm0, 80(%rdi,%rcx)
	movups	120(%r14,%rcx), %xmm0
	movups	136(%r14,%rcx), %xmm1
	movq	152(%r14,%rcx), %rax
	movq	%rax, 152(%rdi,%rcx)
	movups	%xmm1, 136(%rdi,%rcx)
	movups	%xmm0, 120(%rdi,%rcx)
	movups	160(%r14,%rcx), %xmm0
	movups	176(%r14,%rcx), %xmm1
	movq	192(%r14,%rcx), %rax
	movq	%rax, 192(%rdi,%rcx)
	movups	%xmm1, 176(%rdi,%rcx)
	movups	%xmm0, 160(%rdi,%rcx)
	movups	200(%r14,%rcx), %xmm0
	movups	216(%r14,%rcx), %xmm1
	movq	232(%r14,%rcx), %rax
	movq	%rax, 232(%rdi,%rcx)
	movups	%xmm1, 216(%rdi,%rcx)
	movups	%xmm0, 200(%rdi,%rcx)
	movups	240(%r14,%rcx), %xmm0
	movups	256(%r14,%rcx), %xmm1
	movq	272(%r14,%rcx), %rax
	movq	%rax, 272(%rdi,%rcx)
	movups	%xmm1, 256(%rdi,%rcx)
	movups	%xmm0, 240(%rdi,%rcx)
	movups	280(%r14,%rcx), %xmm0
	movups	296(%r14,%rcx), %xmm1
	movq	312(%r14,%rcx), %rax
	movq	%rax, 312(%rdi,%rcx)
	movups	%xmm1, 296(%rdi,%rcx)
	movups	%xmm0, 280(%rdi,%rcx)
	addq	$320, %rcx
	cmpq	%rcx, %rdx
	jne	6b
	testq	%r12, %r12
	movq	8(%rsp), %rdx
	je	16f
	.p2align	4
7:
	movups	(%r14,%rcx), %xmm0
	movups	16(%r14,%rcx), %xmm1
	movq	32(%r14,%rcx), %rax
	movq	%rax, 32(%rdi,%rcx)
	movups	%xmm1, 16(%rdi,%rcx)
	movups	%xmm0, (%rdi,%rcx)
	addq	$40, %rcx
	decq	%r12
	jne	7b
	jmp	16f
8:
	movl	$1, %ecx
	movq	%rdi, %rdx
	jmp	12f
9:
	xorl	%r9d, %r9d
10:
	movq	32(%rsp), %rax
	movq	%rax, 16(%rdi,%r9)
	movaps	16(%rsp), %xmm0
	movups	%xmm0, (%rdi,%r9)
	movq	%rsi, 24(%rdi,%r9)
	movq	%r8, 32(%rdi,%r9)
11:
	incq	%rcx
	addq	$40, %rdx
	cmpq	%r12, %rcx
	je	17f
12:
	leaq	(%rcx,%rcx,4), %r9
	movq	-16(%rdi,%r9,8), %rax
	movq	24(%rdi,%r9,8), %rsi
	movq	32(%rdi,%r9,8), %r8
	movq	%rsi, %r10
	subq	%r8, %r10
	subq	-8(%rdi,%r9,8), %rax
	cmpq	%rax, %r10
	jae	11b
	leaq	(%rdi,%r9,8), %rax
	movq	%rcx, %r9
	movq	16(%rax), %r11
	movq	%r11, 32(%rsp)
	movups	(%rax), %xmm0
	movaps	%xmm0, 16(%rsp)
	movups	-40(%rax), %xmm0
	movups	-24(%rax), %xmm1
	movups	%xmm0, (%rax)
	movups	%xmm1, 16(%rax)
	movq	-8(%rax), %r11
	movq	%r11, 32(%rax)
	decq	%r9
	je	9b
	movq	%rdx, %r11
	.p2align	4
13:
	movq	-16(%r11), %rax
	subq	-8(%r11), %rax
	cmpq	%rax, %r10
	jae	14f
	decq	%r9
	leaq	-40(%r11), %rax
	movq	32(%rax), %rbx
	movq	%rbx, 32(%r11)
	movups	(%rax), %xmm0
	movups	16(%rax), %xmm1
	movups	%xmm1, 16(%r11)
	movups	%xmm0, (%r11)
	movq	%rax, %r11
	testq	%r9, %r9
	jne	13b
	xorl	%r9d, %r9d
14:
	shlq	$3, %r9
	leaq	(%r9,%r9,4), %r9
	jmp	10b
15:
	movq	%r14, %rsi
	vj_c_call	memmove
	movq	8(%rsp), %rdx
16:
	movq	%r14, (%rbx)
	movq	%rdx, 8(%rbx)
17:
	addq	$72, %rsp
	popq	%rbx
	popq	%r12
	popq	%r13
	popq	%r14
	popq	%r15
	popq	%rbp
	retq
	vj_end	core..slice..sort..short..sort..610785a6ec0ddab1_1_x86

	vj_function	core..slice..sort..short..sort_half..610785a6ec0ddab1_1_x86
	pushq	%rbp
	pushq	%r15
	pushq	%r14
	pushq	%r13
	pushq	%r12
	pushq	%rbx
	subq	$200, %rsp
	movq	%rdx, (%rsp)
	cmpq	$8, %rsi
	jb	1f
	movq	24(%rdi), %r10
	movq	64(%rdi), %r11
	subq	72(%rdi), %r11
	subq	32(%rdi), %r10
	movq	144(%rdi), %rax
	movq	104(%rdi), %rcx
	subq	152(%rdi), %rax
	subq	112(%rdi), %rcx
	xorl	%edx, %edx
	cmpq	%rcx, %rax
	setb	%dl
	leaq	2(%rdx), %rax
	xorq	$3, %rdx
	leaq	(%rax,%rax,4), %rcx
	movq	24(%rdi,%rcx,8), %r9
	subq	32(%rdi,%rcx,8), %r9
	leaq	40(%rdi), %rbx
	xorl	%ecx, %ecx
	xorl	%r8d, %r8d
	cmpq	%r10, %r11
	setae	%cl
	setb	%r8b
	movq	%rdi, %r10
	cmovbq	%rbx, %r10
	movq	24(%r10), %r11
	leaq	(%rdx,%rdx,4), %r14
	cmovbq	%rdi, %rbx
	subq	32(%r10), %r11
	movq	24(%rdi,%r14,8), %r10
	movq	24(%rbx), %r15
	subq	32(%rdi,%r14,8), %r10
	subq	32(%rbx), %r15
	cmpq	%r15, %r10
	movq	%rcx, %r14
	cmovbq	%rax, %r14
	cmpq	%r11, %r9
	cmovbq	%r8, %r14
	cmovbq	%rax, %r8
	cmovbq	%rcx, %rax
	cmpq	%r15, %r10
	movq	(%rsp), %r9
	movq	(%r9), %rbx
	cmovaeq	%rdx, %rcx
	cmovbq	%rdx, %rax
	leaq	(%rax,%rax,4), %rdx
	leaq	(%r14,%r14,4), %r10
	movq	24(%rdi,%rdx,8), %r11
	movq	24(%rdi,%r10,8), %r15
	subq	32(%rdi,%rdx,8), %r11
	subq	32(%rdi,%r10,8), %r15
	cmpq	%r15, %r11
	movq	%r14, %rdx
	cmovbq	%rax, %rdx
	cmovbq	%r14, %rax
	movq	8(%r9), %r9
	movq	%r9, 168(%rsp)
	leaq	(%r8,%r8,4), %r8
	movups	(%rdi,%r8,8), %xmm0
	movups	16(%rdi,%r8,8), %xmm1
	movq	32(%rdi,%r8,8), %r8
	movq	%r8, 32(%rbx)
	movups	%xmm1, 16(%rbx)
	movups	%xmm0, (%rbx)
	leaq	(%rdx,%rdx,4), %rdx
	movups	(%rdi,%rdx,8), %xmm0
	movups	16(%rdi,%rdx,8), %xmm1
	movq	32(%rdi,%rdx,8), %rdx
	movq	%rdx, 72(%rbx)
	movups	%xmm1, 56(%rbx)
	movups	%xmm0, 40(%rbx)
	leaq	(%rax,%rax,4), %rax
	movups	(%rdi,%rax,8), %xmm0
	movups	16(%rdi,%rax,8), %xmm1
	movq	32(%rdi,%rax,8), %rax
	movq	%rax, 112(%rbx)
	movups	%xmm1, 96(%rbx)
	movups	%xmm0, 80(%rbx)
	leaq	(%rcx,%rcx,4), %rax
	movups	(%rdi,%rax,8), %xmm0
	movups	16(%rdi,%rax,8), %xmm1
	movq	32(%rdi,%rax,8), %rax
	movq	%rax, 152(%rbx)
	movups	%xmm1, 136(%rbx)
	movups	%xmm0, 120(%rbx)
	movq	224(%rdi), %rcx
	subq	232(%rdi), %rcx
	movq	184(%rdi), %rdx
	subq	192(%rdi), %rdx
	xorl	%eax, %eax
	cmpq	%rdx, %rcx
	setb	%al
	movq	304(%rdi), %rcx
	movq	264(%rdi), %rdx
	subq	312(%rdi), %rcx
	subq	272(%rdi), %rdx
	xorl	%r8d, %r8d
	cmpq	%rdx, %rcx
	setb	%r8b
	leaq	4(%rax), %rdx
	xorq	$5, %rax
	leaq	6(%r8), %rcx
	xorq	$7, %r8
	leaq	(%rcx,%rcx,4), %r9
	leaq	(%rdx,%rdx,4), %r10
	movq	24(%rdi,%r9,8), %r11
	movq	24(%rdi,%r10,8), %r14
	subq	32(%rdi,%r9,8), %r11
	subq	32(%rdi,%r10,8), %r14
	leaq	(%r8,%r8,4), %r9
	leaq	(%rax,%rax,4), %r10
	movq	24(%rdi,%r9,8), %r15
	movq	24(%rdi,%r10,8), %r12
	subq	32(%rdi,%r9,8), %r15
	subq	32(%rdi,%r10,8), %r12
	cmpq	%r12, %r15
	movq	%rax, %r9
	cmovbq	%rcx, %r9
	cmpq	%r14, %r11
	cmovbq	%rdx, %r9
	cmovbq	%rcx, %rdx
	cmovbq	%rax, %rcx
	cmpq	%r12, %r15
	cmovaeq	%r8, %rax
	cmovbq	%r8, %rcx
	leaq	(%rcx,%rcx,4), %r8
	leaq	(%r9,%r9,4), %r10
	movq	24(%rdi,%r8,8), %r11
	movq	24(%rdi,%r10,8), %r14
	subq	32(%rdi,%r8,8), %r11
	subq	32(%rdi,%r10,8), %r14
	cmpq	%r14, %r11
	movq	%r9, %r8
	cmovbq	%rcx, %r8
	cmovbq	%r9, %rcx
	leaq	(%rdx,%rdx,4), %rdx
	movups	(%rdi,%rdx,8), %xmm0
	movups	16(%rdi,%rdx,8), %xmm1
	movq	32(%rdi,%rdx,8), %rdx
	movq	%rdx, 192(%rbx)
	movups	%xmm1, 176(%rbx)
	movups	%xmm0, 160(%rbx)
	leaq	(%r8,%r8,4), %rdx
	movups	(%rdi,%rdx,8), %xmm0
	movups	16(%rdi,%rdx,8), %xmm1
	movq	32(%rdi,%rdx,8), %rdx
	movq	%rdx, 232(%rbx)
	movups	%xmm1, 216(%rbx)
	movups	%xmm0, 200(%rbx)
	leaq	(%rcx,%rcx,4), %rcx
	movups	(%rdi,%rcx,8), %xmm0
	movups	16(%rdi,%rcx,8), %xmm1
	movq	32(%rdi,%rcx,8), %rcx
	movq	%rcx, 272(%rbx)
	movups	%xmm1, 256(%rbx)
	movups	%xmm0, 240(%rbx)
	leaq	(%rax,%rax,4), %rax
	movups	(%rdi,%rax,8), %xmm0
	movups	16(%rdi,%rax,8), %xmm1
	movq	32(%rdi,%rax,8), %rax
	movq	%rax, 312(%rbx)
	movups	%xmm1, 296(%rbx)
	movups	%xmm0, 280(%rbx)
	movq	304(%rbx), %rcx
	movq	144(%rbx), %rdx
	subq	312(%rbx), %rcx
	subq	152(%rbx), %rdx
	xorl	%eax, %eax
	movq	%rcx, 136(%rsp)
	movq	%rdx, 128(%rsp)
	cmpq	%rdx, %rcx
	setb	%al
	movl	$4, %edx
	subq	%rax, %rdx
	leaq	7(%rax), %r8
	leaq	(%r8,%r8,4), %rcx
	movq	%rdx, 112(%rsp)
	leaq	(%rdx,%rdx,4), %rdx
	movq	-16(%rbx,%rcx,8), %r9
	movq	-16(%rbx,%rdx,8), %r10
	subq	-8(%rbx,%rcx,8), %r9
	subq	-8(%rbx,%rdx,8), %r10
	movl	$4, %edx
	cmpq	%r10, %r9
	sbbq	%rax, %rdx
	movq	%r9, 104(%rsp)
	movq	%r10, 96(%rsp)
	cmpq	%r10, %r9
	movq	%r8, 152(%rsp)
	adcq	$-1, %r8
	leaq	(%r8,%r8,4), %rax
	leaq	(%rdx,%rdx,4), %rcx
	movq	-16(%rbx,%rax,8), %r9
	movq	-16(%rbx,%rcx,8), %r10
	subq	-8(%rbx,%rax,8), %r9
	subq	-8(%rbx,%rcx,8), %r10
	xorl	%eax, %eax
	movq	%r9, 80(%rsp)
	movq	%r10, 72(%rsp)
	cmpq	%r10, %r9
	setb	%al
	movq	%r8, 144(%rsp)
	adcq	$-1, %r8
	leaq	(%r8,%r8,4), %rcx
	movq	-16(%rbx,%rcx,8), %r9
	subq	-8(%rbx,%rcx,8), %r9
	movq	%rdx, %rcx
	subq	%rax, %rcx
	movq	%rcx, 48(%rsp)
	leaq	(%rcx,%rcx,4), %rcx
	movq	-16(%rbx,%rcx,8), %r14
	subq	-8(%rbx,%rcx,8), %r14
	cmpq	%r14, %r9
	movq	%rdx, 88(%rsp)
	sbbq	%rax, %rdx
	movq	%rdx, 160(%rsp)
	movq	%r9, 40(%rsp)
	cmpq	%r14, %r9
	movq	%r8, 120(%rsp)
	movl	%r8d, %eax
	adcl	$-1, %eax
	movl	%eax, 12(%rsp)
	movq	184(%rbx), %rax
	subq	192(%rbx), %rax
	movq	24(%rbx), %rcx
	subq	32(%rbx), %rcx
	xorl	%r13d, %r13d
	movq	%rax, 64(%rsp)
	movq	%rcx, 56(%rsp)
	cmpq	%rcx, %rax
	leaq	40(%rbx), %rcx
	movq	%rbx, %rax
	cmovaeq	%rcx, %rax
	setae	%r13b
	movq	%r13, %r15
	xorq	$5, %r15
	leaq	(%r15,%r15,4), %rcx
	movq	24(%rbx,%rcx,8), %rdx
	subq	32(%rbx,%rcx,8), %rdx
	movq	24(%rax), %r8
	subq	32(%rax), %r8
	xorl	%ecx, %ecx
	movq	%rdx, 32(%rsp)
	movq	%r8, 24(%rsp)
	cmpq	%r8, %rdx
	setb	%cl
	movq	%r13, %rax
	sbbq	$-1, %rax
	leaq	(%r15,%rcx), %rdx
	movq	%rdx, 16(%rsp)
	leaq	(%rdx,%rdx,4), %rdx
	movq	24(%rbx,%rdx,8), %r12
	subq	32(%rbx,%rdx,8), %r12
	leaq	(%rax,%rax,4), %rdx
	movl	%edx, %edx
	movq	24(%rbx,%rdx,8), %r10
	subq	32(%rbx,%rdx,8), %r10
	cmpq	%r10, %r12
	adcq	%r15, %rcx
	cmpq	%r10, %r12
	movq	%rax, %r8
	sbbq	$-1, %r8
	leaq	(%rcx,%rcx,4), %rdx
	movl	%edx, %edx
	movq	24(%rbx,%rdx,8), %rbp
	subq	32(%rbx,%rdx,8), %rbp
	leaq	(%r8,%r8,4), %rdx
	movl	%edx, %edx
	movq	24(%rbx,%rdx,8), %r9
	subq	32(%rbx,%rdx,8), %r9
	cmpq	%r9, %rbp
	movl	%ecx, %r11d
	adcl	$0, %r11d
	cmpq	%r9, %rbp
	movq	%r8, %rdx
	sbbq	$-1, %rdx
	cmpl	12(%rsp), %r11d
	ja	2f
	cmpq	160(%rsp), %rdx
	ja	2f
	cmpq	%r14, 40(%rsp)
	movq	120(%rsp), %r11
	cmovbl	48(%rsp), %r11d
	decl	%r11d
	cmpq	%r9, %rbp
	cmovbq	%rcx, %r8
	movq	72(%rsp), %rcx
	cmpq	%rcx, 80(%rsp)
	movq	144(%rsp), %r9
	cmovbl	88(%rsp), %r9d
	decl	%r9d
	cmpq	%r10, %r12
	cmovbq	16(%rsp), %rax
	movq	96(%rsp), %rcx
	cmpq	%rcx, 104(%rsp)
	movq	152(%rsp), %rdx
	cmovbl	112(%rsp), %edx
	decl	%edx
	movq	24(%rsp), %rcx
	cmpq	%rcx, 32(%rsp)
	cmovbq	%r15, %r13
	movq	56(%rsp), %rcx
	cmpq	%rcx, 64(%rsp)
	leaq	160(%rbx), %r10
	cmovaeq	%rbx, %r10
	movq	128(%rsp), %rcx
	cmpq	%rcx, 136(%rsp)
	movups	(%r10), %xmm0
	movups	16(%r10), %xmm1
	movq	32(%r10), %rcx
	movq	%rcx, 32(%rdi)
	movups	%xmm1, 16(%rdi)
	movups	%xmm0, (%rdi)
	leaq	(%r13,%r13,4), %rcx
	movups	(%rbx,%rcx,8), %xmm0
	movups	16(%rbx,%rcx,8), %xmm1
	movq	32(%rbx,%rcx,8), %rcx
	movq	%rcx, 72(%rdi)
	movups	%xmm1, 56(%rdi)
	movups	%xmm0, 40(%rdi)
	leaq	(%rax,%rax,4), %rax
	movups	(%rbx,%rax,8), %xmm0
	movups	16(%rbx,%rax,8), %xmm1
	movq	32(%rbx,%rax,8), %rax
	movq	%rax, 112(%rdi)
	movups	%xmm1, 96(%rdi)
	movups	%xmm0, 80(%rdi)
	leaq	(%r8,%r8,4), %rax
	movups	(%rbx,%rax,8), %xmm0
	movups	16(%rbx,%rax,8), %xmm1
	movq	32(%rbx,%rax,8), %rax
	movq	%rax, 152(%rdi)
	movups	%xmm1, 136(%rdi)
	movups	%xmm0, 120(%rdi)
	movzbl	%r11b, %eax
	leaq	(%rax,%rax,4), %rax
	movups	(%rbx,%rax,8), %xmm0
	movups	16(%rbx,%rax,8), %xmm1
	movq	32(%rbx,%rax,8), %rax
	movq	%rax, 192(%rdi)
	movups	%xmm1, 176(%rdi)
	movups	%xmm0, 160(%rdi)
	movzbl	%r9b, %eax
	leaq	(%rax,%rax,4), %rax
	movups	(%rbx,%rax,8), %xmm0
	movups	16(%rbx,%rax,8), %xmm1
	movq	32(%rbx,%rax,8), %rax
	movq	%rax, 232(%rdi)
	movups	%xmm1, 216(%rdi)
	movups	%xmm0, 200(%rdi)
	movzbl	%dl, %eax
	leaq	(%rax,%rax,4), %rax
	movups	(%rbx,%rax,8), %xmm0
	movups	16(%rbx,%rax,8), %xmm1
	movq	32(%rbx,%rax,8), %rax
	movq	%rax, 272(%rdi)
	leaq	280(%rbx), %rax
	leaq	120(%rbx), %rcx
	cmovbq	%rcx, %rax
	movups	%xmm1, 256(%rdi)
	movups	%xmm0, 240(%rdi)
	movups	(%rax), %xmm0
	movups	16(%rax), %xmm1
	movq	32(%rax), %rax
	movq	%rax, 312(%rdi)
	movups	%xmm1, 296(%rdi)
	movups	%xmm0, 280(%rdi)
	movl	$8, %eax
	jmp	5f
1:
	movl	$1, %eax
	cmpq	$4, %rsi
	jb	6f
	movq	24(%rdi), %r10
	movq	64(%rdi), %r11
	subq	72(%rdi), %r11
	subq	32(%rdi), %r10
	movq	144(%rdi), %rax
	movq	104(%rdi), %rcx
	subq	152(%rdi), %rax
	subq	112(%rdi), %rcx
	xorl	%edx, %edx
	cmpq	%rcx, %rax
	setb	%dl
	leaq	2(%rdx), %rax
	xorq	$3, %rdx
	leaq	(%rax,%rax,4), %rcx
	movq	24(%rdi,%rcx,8), %r9
	subq	32(%rdi,%rcx,8), %r9
	leaq	40(%rdi), %rbx
	xorl	%ecx, %ecx
	xorl	%r8d, %r8d
	cmpq	%r10, %r11
	setae	%cl
	setb	%r8b
	movq	%rdi, %r10
	cmovbq	%rbx, %r10
	movq	24(%r10), %r11
	leaq	(%rdx,%rdx,4), %r14
	cmovbq	%rdi, %rbx
	subq	32(%r10), %r11
	movq	24(%rdi,%r14,8), %r10
	movq	24(%rbx), %r15
	subq	32(%rdi,%r14,8), %r10
	subq	32(%rbx), %r15
	cmpq	%r15, %r10
	movq	%rcx, %r14
	cmovbq	%rax, %r14
	cmpq	%r11, %r9
	cmovbq	%r8, %r14
	cmovbq	%rax, %r8
	cmovbq	%rcx, %rax
	cmpq	%r15, %r10
	movq	(%rsp), %r9
	movq	(%r9), %rbx
	cmovaeq	%rdx, %rcx
	cmovbq	%rdx, %rax
	leaq	(%rax,%rax,4), %rdx
	leaq	(%r14,%r14,4), %r10
	movq	24(%rdi,%rdx,8), %r11
	movq	24(%rdi,%r10,8), %r15
	subq	32(%rdi,%rdx,8), %r11
	subq	32(%rdi,%r10,8), %r15
	cmpq	%r15, %r11
	movq	%r14, %rdx
	cmovbq	%rax, %rdx
	cmovbq	%r14, %rax
	movq	8(%r9), %r15
	leaq	(%r8,%r8,4), %r8
	movups	(%rdi,%r8,8), %xmm0
	movups	16(%rdi,%r8,8), %xmm1
	movq	32(%rdi,%r8,8), %r8
	movq	%r8, 32(%rbx)
	movups	%xmm1, 16(%rbx)
	movups	%xmm0, (%rbx)
	leaq	(%rdx,%rdx,4), %rdx
	movups	(%rdi,%rdx,8), %xmm0
	movups	16(%rdi,%rdx,8), %xmm1
	movq	32(%rdi,%rdx,8), %rdx
	movq	%rdx, 72(%rbx)
	movups	%xmm1, 56(%rbx)
	movups	%xmm0, 40(%rbx)
	leaq	(%rax,%rax,4), %rax
	movups	(%rdi,%rax,8), %xmm0
	movups	16(%rdi,%rax,8), %xmm1
	movq	32(%rdi,%rax,8), %rax
	movq	%rax, 112(%rbx)
	movups	%xmm1, 96(%rbx)
	movups	%xmm0, 80(%rbx)
	leaq	(%rcx,%rcx,4), %rax
	movups	(%rdi,%rax,8), %xmm0
	movups	16(%rdi,%rax,8), %xmm1
	movq	32(%rdi,%rax,8), %rax
	movq	%rax, 152(%rbx)
	movups	%xmm1, 136(%rbx)
	movups	%xmm0, 120(%rbx)
	movq	%rdi, %rax
	subq	%rbx, %rax
	cmpq	$159, %rax
	ja	14f
	leaq	40(%rbx), %rax
	leaq	80(%rbx), %rcx
	leaq	120(%rbx), %rdx
	movups	(%rbx), %xmm0
	movups	16(%rbx), %xmm1
	movq	32(%rbx), %r8
	movq	%r8, 32(%rdi)
	movups	%xmm1, 16(%rdi)
	movups	%xmm0, (%rdi)
	movups	(%rax), %xmm0
	movups	16(%rax), %xmm1
	movq	32(%rax), %rax
	movq	%rax, 72(%rdi)
	movups	%xmm1, 56(%rdi)
	movups	%xmm0, 40(%rdi)
	movups	(%rcx), %xmm0
	movups	16(%rcx), %xmm1
	movq	32(%rcx), %rax
	movq	%rax, 112(%rdi)
	movups	%xmm1, 96(%rdi)
	movups	%xmm0, 80(%rdi)
	movups	(%rdx), %xmm0
	movups	16(%rdx), %xmm1
	movq	32(%rdx), %rax
	movq	%rax, 152(%rdi)
	movups	%xmm1, 136(%rdi)
	movups	%xmm0, 120(%rdi)
	jmp	15f
2:
	movq	%rdi, %rax
	subq	%rbx, %rax
	cmpq	$319, %rax
	ja	3f
	leaq	80(%rbx), %rdx
	leaq	200(%rbx), %rcx
	leaq	240(%rbx), %rax
	movups	(%rbx), %xmm0
	movups	16(%rbx), %xmm1
	movq	32(%rbx), %r8
	movq	%r8, 32(%rdi)
	movups	%xmm1, 16(%rdi)
	movups	%xmm0, (%rdi)
	leaq	40(%rbx), %r8
	movups	(%r8), %xmm0
	movups	16(%r8), %xmm1
	movq	32(%r8), %r8
	movq	%r8, 72(%rdi)
	movups	%xmm1, 56(%rdi)
	movups	%xmm0, 40(%rdi)
	movups	(%rdx), %xmm0
	movups	16(%rdx), %xmm1
	movq	32(%rdx), %rdx
	movq	%rdx, 112(%rdi)
	movups	%xmm1, 96(%rdi)
	movups	%xmm0, 80(%rdi)
	leaq	120(%rbx), %rdx
	movups	(%rdx), %xmm0
	movups	16(%rdx), %xmm1
	movq	32(%rdx), %rdx
	movq	%rdx, 152(%rdi)
	movups	%xmm1, 136(%rdi)
	movups	%xmm0, 120(%rdi)
	leaq	160(%rbx), %rdx
	movups	(%rdx), %xmm0
	movups	16(%rdx), %xmm1
	movq	32(%rdx), %rdx
	movq	%rdx, 192(%rdi)
	movups	%xmm1, 176(%rdi)
	movups	%xmm0, 160(%rdi)
	movups	(%rcx), %xmm0
	movups	16(%rcx), %xmm1
	movq	32(%rcx), %rcx
	movq	%rcx, 232(%rdi)
	movups	%xmm1, 216(%rdi)
	movups	%xmm0, 200(%rdi)
	movups	(%rax), %xmm0
	movups	16(%rax), %xmm1
	movq	32(%rax), %rax
	movq	%rax, 272(%rdi)
	movups	%xmm1, 256(%rdi)
	movups	%xmm0, 240(%rdi)
	leaq	280(%rbx), %rax
	movups	(%rax), %xmm0
	movups	16(%rax), %xmm1
	movq	32(%rax), %rax
	movq	%rax, 312(%rdi)
	movups	%xmm1, 296(%rdi)
	movups	%xmm0, 280(%rdi)
	jmp	4f
3:
	movl	$320, %edx
	movq	%rdi, %r14
	movq	%rsi, %r15
	movq	%rbx, %rsi
	vj_c_call	memmove
	movq	%r14, %rdi
	movq	%r15, %rsi
4:
	movl	$4, %eax
5:
	movq	(%rsp), %rcx
	movq	%rbx, (%rcx)
	movq	168(%rsp), %rdx
	movq	%rdx, 8(%rcx)
6:
	cmpq	%rsi, %rax
	jae	16f
7:
	leaq	(%rax,%rax,4), %rcx
	leaq	(%rdi,%rcx,8), %rcx
	addq	$-40, %rcx
	jmp	11f
8:
	xorl	%r9d, %r9d
9:
	movq	192(%rsp), %r10
	movq	%r10, 16(%rdi,%r9)
	movaps	176(%rsp), %xmm0
	movups	%xmm0, (%rdi,%r9)
	movq	%rdx, 24(%rdi,%r9)
	movq	%r8, 32(%rdi,%r9)
10:
	incq	%rax
	addq	$40, %rcx
	cmpq	%rsi, %rax
	je	16f
11:
	leaq	(%rax,%rax,4), %r9
	movq	-16(%rdi,%r9,8), %r11
	movq	24(%rdi,%r9,8), %rdx
	movq	32(%rdi,%r9,8), %r8
	movq	%rdx, %r10
	subq	%r8, %r10
	subq	-8(%rdi,%r9,8), %r11
	cmpq	%r11, %r10
	jae	10b
	leaq	(%rdi,%r9,8), %r11
	movq	%rax, %r9
	movq	16(%r11), %rbx
	movq	%rbx, 192(%rsp)
	movups	(%r11), %xmm0
	movaps	%xmm0, 176(%rsp)
	movups	-40(%r11), %xmm0
	movups	-24(%r11), %xmm1
	movups	%xmm0, (%r11)
	movups	%xmm1, 16(%r11)
	movq	-8(%r11), %rbx
	movq	%rbx, 32(%r11)
	decq	%r9
	je	8b
	movq	%rcx, %r11
	.p2align	4
12:
	movq	-16(%r11), %rbx
	subq	-8(%r11), %rbx
	cmpq	%rbx, %r10
	jae	13f
	decq	%r9
	leaq	-40(%r11), %rbx
	movq	32(%rbx), %r14
	movq	%r14, 32(%r11)
	movups	(%rbx), %xmm0
	movups	16(%rbx), %xmm1
	movups	%xmm1, 16(%r11)
	movups	%xmm0, (%r11)
	movq	%rbx, %r11
	testq	%r9, %r9
	jne	12b
	xorl	%r9d, %r9d
13:
	shlq	$3, %r9
	leaq	(%r9,%r9,4), %r9
	jmp	9b
14:
	movl	$160, %edx
	movq	%rdi, %r14
	movq	%rsi, %r12
	movq	%rbx, %rsi
	vj_c_call	memmove
	movq	%r14, %rdi
	movq	%r12, %rsi
15:
	movq	(%rsp), %rax
	movq	%rbx, (%rax)
	movq	%r15, 8(%rax)
	movl	$4, %eax
	cmpq	%rsi, %rax
	jb	7b
16:
	addq	$200, %rsp
	popq	%rbx
	popq	%r12
	popq	%r13
	popq	%r14
	popq	%r15
	popq	%rbp
	retq
	vj_end	core..slice..sort..short..sort_half..610785a6ec0ddab1_1_x86

	vj_function	core..slice..sort..stable..merge_sort..610785a6ec0ddab1_1_x86
	cmpq	$32, %rsi
	ja	1f
	jmp	core..slice..sort..short..sort..610785a6ec0ddab1_1_x86
1:
	pushq	%rbp
	pushq	%r15
	pushq	%r14
	pushq	%r13
	pushq	%r12
	pushq	%rbx
	pushq	%rax
	movq	%rsi, %rbx
	shrq	%rbx
	leaq	(%rbx,%rbx,4), %rax
	leaq	(%rdi,%rax,8), %r14
	movq	%rsi, %r15
	subq	%rbx, %r15
	movq	%rdi, %r12
	movq	%rsi, %r13
	movq	%rbx, %rsi
	movq	%rdx, %rbp
	callq	core..slice..sort..stable..merge_sort..610785a6ec0ddab1_1_x86
	movq	%r14, %rdi
	movq	%r15, %rsi
	movq	%rbp, %rdx
	callq	core..slice..sort..stable..merge_sort..610785a6ec0ddab1_1_x86
	movq	%r12, %rdi
	movq	%r13, %rsi
	movq	%rbx, %rdx
	movq	%rbp, %rcx
	addq	$8, %rsp
	popq	%rbx
	popq	%r12
	popq	%r13
	popq	%r14
	popq	%r15
	popq	%rbp
	jmp	core..slice..sort..merge..merge..610785a6ec0ddab1_1_x86
	vj_end	core..slice..sort..stable..merge_sort..610785a6ec0ddab1_1_x86

	vj_function	core..slice..sort..merge..merge..610785a6ec0ddab1_1_x86
	pushq	%rbp
	pushq	%r15
	pushq	%r14
	pushq	%r13
	pushq	%r12
	pushq	%rbx
	subq	$40, %rsp
	movq	%rcx, %rbx
	movq	%rdx, %r13
	movq	%rsi, %r15
	movq	%rdi, %r14
	movq	%rsi, %rax
	shrq	$2, %rax
	cmpq	%rdx, %rax
	setbe	%cl
	movq	%rsi, %rbp
	subq	%rdx, %rbp
	cmpq	%rbp, %rax
	setbe	%al
	andb	%cl, %al
	cmpq	$4097, %rsi
	setb	%cl
	xorb	$1, %al
	orb	%al, %cl
	je	2f
	cmpq	$4097, %r15
	setae	%cl
	testb	%al, %cl
	je	3f
1:
	leaq	(,%r13,8), %rax
	movq	(%rbx), %r12
	movq	8(%rbx), %rcx
	movq	%rcx, 16(%rsp)
	leaq	(%rax,%rax,4), %r11
	cmpq	%rbp, %r13
	jbe	4f
	movq	%rbx, 8(%rsp)
	leaq	(%r14,%r11), %rsi
	leaq	(%r12,%r11), %rbx
	leaq	(,%rbp,8), %rax
	leaq	(%rax,%rax,4), %rdx
	movq	%rbx, %rax
	subq	%rsi, %rax
	cmpq	%rdx, %rax
	jae	6f
	cmpq	%r13, %r15
	je	43f
	movl	%ebp, %eax
	andl	$7, %eax
	movq	%r13, %rcx
	subq	%r15, %rcx
	cmpq	$-8, %rcx
	jbe	39f
	xorl	%ecx, %ecx
	jmp	41f
2:
	cmpq	$65537, %r15
	jae	1b
3:
	movq	(%rbx), %r12
	movq	%rbx, 8(%rsp)
	movq	8(%rbx), %rbx
	leaq	(,%r15,8), %rax
	leaq	(%rax,%rax,4), %rdx
	movq	%r12, %rax
	subq	%r14, %rax
	cmpq	%rdx, %rax
	jae	5f
	testq	%r15, %r15
	je	12f
	movl	%r15d, %eax
	andl	$7, %eax
	cmpq	$8, %r15
	jae	8f
	xorl	%ecx, %ecx
	jmp	10f
4:
	movq	%r12, %rax
	subq	%r14, %rax
	cmpq	%r11, %rax
	jae	7f
	testq	%r13, %r13
	je	27f
	movl	%r13d, %eax
	andl	$7, %eax
	cmpq	$8, %r13
	jae	28f
	xorl	%ecx, %ecx
	jmp	30f
5:
	movq	%r12, %rdi
	movq	%r14, %rsi
	vj_c_call	memmove
	jmp	12f
6:
	movq	%rbx, %rdi
	movq	%r11, 32(%rsp)
	movq	%rdx, 24(%rsp)
	vj_c_call	memmove
	movq	24(%rsp), %rdx
	movq	32(%rsp), %r11
	jmp	43f
7:
	movq	%r12, %rdi
	movq	%r14, %rsi
	movq	%r11, %rdx
	vj_c_call	memmove
	jmp	32f
8:
	movq	%r15, %rdx
	andq	$-8, %rdx
	xorl	%ecx, %ecx
	xorl	%esi, %esi
	.p2align	4
9:
	movups	(%r14,%rsi), %xmm0
	movups	16(%r14,%rsi), %xmm1
	movq	32(%r14,%rsi), %rdi
	movq	%rdi, 32(%r12,%rsi)
	movups	%xmm1, 16(%r12,%rsi)
	movups	%xmm0, (%r12,%rsi)
	movups	40(%r14,%rsi), %xmm0
	movups	56(%r14,%rsi), %xmm1
	movq	72(%r14,%rsi), %rdi
	movq	%rdi, 72(%r12,%rsi)
	movups	%xmm1, 56(%r12,%rsi)
	movups	%xmm0, 40(%r12,%rsi)
	movups	80(%r14,%rsi), %xmm0
	movups	96(%r14,%rsi), %xmm1
	movq	112(%r14,%rsi), %rdi
	movq	%rdi, 112(%r12,%rsi)
	movups	%xmm1, 96(%r12,%rsi)
	movups	%xmm0, 80(%r12,%rsi)
	movups	120(%r14,%rsi), %xmm0
	movups	136(%r14,%rsi), %xmm1
	movq	152(%r14,%rsi), %rdi
	movq	%rdi, 152(%r12,%rsi)
	movups	%xmm1, 136(%r12,%rsi)
	movups	%xmm0, 120(%r12,%rsi)
	movups	160(%r14,%rsi), %xmm0
	movups	176(%r14,%rsi), %xmm1
	movq	192(%r14,%rsi), %rdi
	movq	%rdi, 192(%r12,%rsi)
	movups	%xmm1, 176(%r12,%rsi)
	movups	%xmm0, 160(%r12,%rsi)
	movups	200(%r14,%rsi), %xmm0
	movups	216(%r14,%rsi), %xmm1
	movq	232(%r14,%rsi), %rdi
	movq	%rdi, 232(%r12,%rsi)
	movups	%xmm1, 216(%r12,%rsi)
	movups	%xmm0, 200(%r12,%rsi)
	movups	240(%r14,%rsi), %xmm0
	movups	256(%r14,%rsi), %xmm1
	movq	272(%r14,%rsi), %rdi
	movq	%rdi, 272(%r12,%rsi)
	movups	%xmm1, 256(%r12,%rsi)
	movups	%xmm0, 240(%r12,%rsi)
	movups	280(%r14,%rsi), %xmm0
	movups	296(%r14,%rsi), %xmm1
	movq	312(%r14,%rsi), %rdi
	movq	%rdi, 312(%r12,%rsi)
	movups	%xmm1, 296(%r12,%rsi)
	movups	%xmm0, 280(%r12,%rsi)
	addq	$8, %rcx
	addq	$320, %rsi
	cmpq	%rcx, %rdx
	jne	9b
	testq	%rax, %rax
	je	12f
10:
	shlq	$3, %rcx
	leaq	(%rcx,%rcx,4), %rcx
	leaq	(%r14,%rcx), %rdx
	addq	%r12, %rcx
	shll	$3, %eax
	leaq	(%rax,%rax,4), %rax
	xorl	%esi, %esi
	.p2align	4
11:
	movups	(%rdx,%rsi), %xmm0
	movups	16(%rdx,%rsi), %xmm1
	movq	32(%rdx,%rsi), %rdi
	movq	%rdi, 32(%rcx,%rsi)
	movups	%xmm1, 16(%rcx,%rsi)
	movups	%xmm0, (%rcx,%rsi)
	addq	$40, %rsi
	cmpq	%rsi, %rax
	jne	11b
12:
	testq	%r13, %r13
	sete	%al
	cmpq	%r15, %r13
	setae	%cl
	orb	%al, %cl
	jne	19f
	xorl	%ecx, %ecx
	movq	%r14, %rsi
	movq	%r13, %rdx
	movq	%r15, %rdi
	xorl	%eax, %eax
	jmp	15f
	.p2align	4
13:
	movq	%r13, %r8
	incq	%rax
	cmpq	%r8, %rcx
	jae	18f
14:
	addq	$40, %rsi
	movq	%r8, %r13
	cmpq	%rdi, %rdx
	jae	18f
15:
	movq	%rdx, %r8
	leaq	(%rdx,%rdx,4), %r9
	leaq	(%rcx,%rcx,4), %r10
	movq	24(%r12,%r9,8), %r11
	movq	24(%r12,%r10,8), %rbp
	subq	32(%r12,%r9,8), %r11
	subq	32(%r12,%r10,8), %rbp
	cmpq	%rbp, %r11
	adcq	$0, %rdx
	cmpq	%rbp, %r11
	jb	16f
	movq	%rcx, %r8
16:
	leaq	(%r8,%r8,4), %r8
	movups	(%r12,%r8,8), %xmm0
	movups	16(%r12,%r8,8), %xmm1
	movq	32(%r12,%r8,8), %r8
	movq	%r8, 32(%rsi)
	movups	%xmm1, 16(%rsi)
	movups	%xmm0, (%rsi)
	sbbq	$-1, %rcx
	cmpq	%r13, %rcx
	jae	13b
	cmpq	%rdi, %rdx
	jae	13b
	leaq	(%rdi,%rdi,4), %r8
	leaq	(,%r13,4), %r9
	addq	%r13, %r9
	movq	-16(%r12,%r8,8), %r10
	subq	-8(%r12,%r8,8), %r10
	movq	-16(%r12,%r9,8), %r11
	subq	-8(%r12,%r9,8), %r11
	cmpq	%r11, %r10
	movq	%r13, %r8
	sbbq	$0, %r8
	cmpq	%r11, %r10
	jb	17f
	movq	%rdi, %r13
17:
	adcq	$-1, %rdi
	decq	%r15
	leaq	(,%r13,4), %r9
	addq	%r13, %r9
	leaq	(%r15,%r15,4), %r10
	movups	-40(%r12,%r9,8), %xmm0
	movups	-24(%r12,%r9,8), %xmm1
	movq	-8(%r12,%r9,8), %r9
	movq	%r9, 32(%r14,%r10,8)
	movups	%xmm1, 16(%r14,%r10,8)
	movups	%xmm0, (%r14,%r10,8)
	incq	%rax
	cmpq	%r8, %rcx
	jb	14b
18:
	cmpq	%r8, %rcx
	cmovbq	%rcx, %rdx
	shlq	$3, %rdx
	leaq	(%rdx,%rdx,4), %rcx
	jmp	20f
19:
	xorl	%eax, %eax
	xorl	%ecx, %ecx
20:
	movq	%r15, %r9
	subq	%rax, %r9
	leaq	(%r12,%rcx), %rsi
	leaq	(,%rax,8), %rdx
	leaq	(%rdx,%rdx,4), %r8
	leaq	(%r14,%r8), %rdi
	leaq	(,%r9,8), %rdx
	leaq	(%rdx,%rdx,4), %rdx
	movq	%rdi, %r10
	subq	%rsi, %r10
	cmpq	%rdx, %r10
	jae	21f
	cmpq	%rax, %r15
	je	26f
	movl	%r9d, %edx
	andl	$7, %edx
	subq	%r15, %rax
	cmpq	$-8, %rax
	jbe	22f
	xorl	%eax, %eax
	jmp	24f
21:
	vj_c_call	memmove
	jmp	26f
22:
	andq	$-8, %r9
	movl	$280, %r10d
	xorl	%eax, %eax
	.p2align	4
23:
	movups	-280(%rsi,%r10), %xmm0
	movups	-264(%rsi,%r10), %xmm1
	movq	-248(%rsi,%r10), %r11
	movq	%r11, -248(%rdi,%r10)
	movups	%xmm1, -264(%rdi,%r10)
	movups	%xmm0, -280(%rdi,%r10)
	movups	-240(%rsi,%r10), %xmm0
	movups	-224(%rsi,%r10), %xmm1
	movq	-208(%rsi,%r10), %r11
	movq	%r11, -208(%rdi,%r10)
	movups	%xmm1, -224(%rdi,%r10)
	movups	%xmm0, -240(%rdi,%r10)
	movups	-200(%rsi,%r10), %xmm0
	movups	-184(%rsi,%r10), %xmm1
	movq	-168(%rsi,%r10), %r11
	movq	%r11, -168(%rdi,%r10)
	movups	%xmm1, -184(%rdi,%r10)
	movups	%xmm0, -200(%rdi,%r10)
	movups	-160(%rsi,%r10), %xmm0
	movups	-144(%rsi,%r10), %xmm1
	movq	-128(%rsi,%r10), %r11
	movq	%r11, -128(%rdi,%r10)
	movups	%xmm1, -144(%rdi,%r10)
	movups	%xmm0, -160(%rdi,%r10)
	movups	-120(%rsi,%r10), %xmm0
	movups	-104(%rsi,%r10), %xmm1
	movq	-88(%rsi,%r10), %r11
	movq	%r11, -88(%rdi,%r10)
	movups	%xmm1, -104(%rdi,%r10)
	movups	%xmm0, -120(%rdi,%r10)
	movups	-80(%rsi,%r10), %xmm0
	movups	-64(%rsi,%r10), %xmm1
	movq	-48(%rsi,%r10), %r11
	movq	%r11, -48(%rdi,%r10)
	movups	%xmm1, -64(%rdi,%r10)
	movups	%xmm0, -80(%rdi,%r10)
	movups	-40(%rsi,%r10), %xmm0
	movups	-24(%rsi,%r10), %xmm1
	movq	-8(%rsi,%r10), %r11
	movq	%r11, -8(%rdi,%r10)
	movups	%xmm1, -24(%rdi,%r10)
	movups	%xmm0, -40(%rdi,%r10)
	movups	(%rsi,%r10), %xmm0
	movups	16(%rsi,%r10), %xmm1
	movq	32(%rsi,%r10), %r11
	movq	%r11, 32(%rdi,%r10)
	movups	%xmm1, 16(%rdi,%r10)
	movups	%xmm0, (%rdi,%r10)
	addq	$8, %rax
	addq	$320, %r10
	cmpq	%rax, %r9
	jne	23b
	testq	%rdx, %rdx
	je	26f
24:
	shlq	$3, %rax
	leaq	(%rax,%rax,4), %rax
	addq	%rax, %rcx
	addq	%r12, %rcx
	addq	%rax, %r8
	addq	%r8, %r14
	shll	$3, %edx
	leaq	(%rdx,%rdx,4), %rax
	xorl	%edx, %edx
	.p2align	4
25:
	movups	(%rcx,%rdx), %xmm0
	movups	16(%rcx,%rdx), %xmm1
	movq	32(%rcx,%rdx), %rsi
	movq	%rsi, 32(%r14,%rdx)
	movups	%xmm1, 16(%r14,%rdx)
	movups	%xmm0, (%r14,%rdx)
	addq	$40, %rdx
	cmpq	%rdx, %rax
	jne	25b
26:
	movq	8(%rsp), %rax
	movq	%r12, (%rax)
	movq	%rbx, 8(%rax)
	jmp	60f
27:
	movq	%r14, %rax
	subq	%r12, %rax
	cmpq	%r11, %rax
	jb	59f
	xorl	%edx, %edx
	movq	%r12, %rsi
	jmp	38f
28:
	movq	%r13, %rdx
	andq	$-8, %rdx
	xorl	%ecx, %ecx
	xorl	%esi, %esi
	.p2align	4
29:
	movups	(%r14,%rsi), %xmm0
	movups	16(%r14,%rsi), %xmm1
	movq	32(%r14,%rsi), %rdi
	movq	%rdi, 32(%r12,%rsi)
	movups	%xmm1, 16(%r12,%rsi)
	movups	%xmm0, (%r12,%rsi)
	movups	40(%r14,%rsi), %xmm0
	movups	56(%r14,%rsi), %xmm1
	movq	72(%r14,%rsi), %rdi
	movq	%rdi, 72(%r12,%rsi)
	movups	%xmm1, 56(%r12,%rsi)
	movups	%xmm0, 40(%r12,%rsi)
	movups	80(%r14,%rsi), %xmm0
	movups	96(%r14,%rsi), %xmm1
	movq	112(%r14,%rsi), %rdi
	movq	%rdi, 112(%r12,%rsi)
	movups	%xmm1, 96(%r12,%rsi)
	movups	%xmm0, 80(%r12,%rsi)
	movups	120(%r14,%rsi), %xmm0
	movups	136(%r14,%rsi), %xmm1
	movq	152(%r14,%rsi), %rdi
	movq	%rdi, 152(%r12,%rsi)
	movups	%xmm1, 136(%r12,%rsi)
	movups	%xmm0, 120(%r12,%rsi)
	movups	160(%r14,%rsi), %xmm0
	movups	176(%r14,%rsi), %xmm1
	movq	192(%r14,%rsi), %rdi
	movq	%rdi, 192(%r12,%rsi)
	movups	%xmm1, 176(%r12,%rsi)
	movups	%xmm0, 160(%r12,%rsi)
	movups	200(%r14,%rsi), %xmm0
	movups	216(%r14,%rsi), %xmm1
	movq	232(%r14,%rsi), %rdi
	movq	%rdi, 232(%r12,%rsi)
	movups	%xmm1, 216(%r12,%rsi)
	movups	%xmm0, 200(%r12,%rsi)
	movups	240(%r14,%rsi), %xmm0
	movups	256(%r14,%rsi), %xmm1
	movq	272(%r14,%rsi), %rdi
	movq	%rdi, 272(%r12,%rsi)
	movups	%xmm1, 256(%r12,%rsi)
	movups	%xmm0, 240(%r12,%rsi)
	movups	280(%r14,%rsi), %xmm0
	movups	296(%r14,%rsi), %xmm1
	movq	312(%r14,%rsi), %rdi
	movq	%rdi, 312(%r12,%rsi)
	movups	%xmm1, 296(%r12,%rsi)
	movups	%xmm0, 280(%r12,%rsi)
	addq	$8, %rcx
	addq	$320, %rsi
	cmpq	%rcx, %rdx
	jne	29b
	testq	%rax, %rax
	je	32f
30:
	shlq	$3, %rcx
	leaq	(%rcx,%rcx,4), %rcx
	leaq	(%r14,%rcx), %rdx
	addq	%r12, %rcx
	shll	$3, %eax
	leaq	(%rax,%rax,4), %rax
	xorl	%esi, %esi
	.p2align	4
31:
	movups	(%rdx,%rsi), %xmm0
	movups	16(%rdx,%rsi), %xmm1
	movq	32(%rdx,%rsi), %rdi
	movq	%rdi, 32(%rcx,%rsi)
	movups	%xmm1, 16(%rcx,%rsi)
	movups	%xmm0, (%rcx,%rsi)
	addq	$40, %rsi
	cmpq	%rsi, %rax
	jne	31b
32:
	testq	%r13, %r13
	sete	%al
	cmpq	%r15, %r13
	setae	%cl
	orb	%al, %cl
	jne	35f
	xorl	%eax, %eax
	xorl	%r9d, %r9d
	movq	%r13, %rcx
	.p2align	4
33:
	movq	%rcx, %rdx
	leaq	(%rcx,%rcx,4), %rsi
	leaq	(%r9,%r9,4), %rdi
	movq	24(%r14,%rsi,8), %r8
	subq	32(%r14,%rsi,8), %r8
	movq	24(%r12,%rdi,8), %r10
	subq	32(%r12,%rdi,8), %r10
	cmpq	%r10, %r8
	adcq	$0, %rcx
	movq	%r14, %rsi
	cmpq	%r10, %r8
	jb	34f
	movq	%r12, %rsi
	movq	%r9, %rdx
34:
	leaq	(%rdx,%rdx,4), %rdx
	movups	(%rsi,%rdx,8), %xmm0
	movups	16(%rsi,%rdx,8), %xmm1
	movq	32(%rsi,%rdx,8), %rdx
	movq	%rdx, 32(%r14,%rax)
	movups	%xmm1, 16(%r14,%rax)
	movups	%xmm0, (%r14,%rax)
	sbbq	$-1, %r9
	addq	$40, %rax
	cmpq	%r13, %r9
	jae	36f
	cmpq	%r15, %rcx
	jb	33b
	jmp	36f
35:
	xorl	%eax, %eax
	xorl	%r9d, %r9d
36:
	movq	%r13, %rdi
	subq	%r9, %rdi
	leaq	(,%r9,8), %rcx
	leaq	(%rcx,%rcx,4), %rcx
	leaq	(%r12,%rcx), %rsi
	leaq	(%r14,%rax), %r8
	leaq	(,%rdi,8), %rdx
	leaq	(%rdx,%rdx,4), %rdx
	movq	%r8, %r10
	subq	%rsi, %r10
	cmpq	%rdx, %r10
	jae	37f
	cmpq	%r9, %r13
	je	59f
	movl	%edi, %edx
	andl	$7, %edx
	subq	%r13, %r9
	cmpq	$-8, %r9
	jbe	55f
	xorl	%r9d, %r9d
	jmp	57f
37:
	movq	%r8, %r14
38:
	movq	%r14, %rdi
	vj_c_call	memmove
	jmp	59f
39:
	movq	%rbp, %r8
	andq	$-8, %r8
	xorl	%ecx, %ecx
	movq	%r11, %rsi
	.p2align	4
40:
	movups	(%r14,%rsi), %xmm0
	movups	16(%r14,%rsi), %xmm1
	movq	32(%r14,%rsi), %rdi
	movq	%rdi, 32(%r12,%rsi)
	movups	%xmm1, 16(%r12,%rsi)
	movups	%xmm0, (%r12,%rsi)
	movups	40(%r14,%rsi), %xmm0
	movups	56(%r14,%rsi), %xmm1
	movq	72(%r14,%rsi), %rdi
	movq	%rdi, 72(%r12,%rsi)
	movups	%xmm1, 56(%r12,%rsi)
	movups	%xmm0, 40(%r12,%rsi)
	movups	80(%r14,%rsi), %xmm0
	movups	96(%r14,%rsi), %xmm1
	movq	112(%r14,%rsi), %rdi
	movq	%rdi, 112(%r12,%rsi)
	movups	%xmm1, 96(%r12,%rsi)
	movups	%xmm0, 80(%r12,%rsi)
	movups	120(%r14,%rsi), %xmm0
	movups	136(%r14,%rsi), %xmm1
	movq	152(%r14,%rsi), %rdi
	movq	%rdi, 152(%r12,%rsi)
	movups	%xmm1, 136(%r12,%rsi)
	movups	%xmm0, 120(%r12,%rsi)
	movups	160(%r14,%rsi), %xmm0
	movups	176(%r14,%rsi), %xmm1
	movq	192(%r14,%rsi), %rdi
	movq	%rdi, 192(%r12,%rsi)
	movups	%xmm1, 176(%r12,%rsi)
	movups	%xmm0, 160(%r12,%rsi)
	movups	200(%r14,%rsi), %xmm0
	movups	216(%r14,%rsi), %xmm1
	movq	232(%r14,%rsi), %rdi
	movq	%rdi, 232(%r12,%rsi)
	movups	%xmm1, 216(%r12,%rsi)
	movups	%xmm0, 200(%r12,%rsi)
	movups	240(%r14,%rsi), %xmm0
	movups	256(%r14,%rsi), %xmm1
	movq	272(%r14,%rsi), %rdi
	movq	%rdi, 272(%r12,%rsi)
	movups	%xmm1, 256(%r12,%rsi)
	movups	%xmm0, 240(%r12,%rsi)
	movups	280(%r14,%rsi), %xmm0
	movups	296(%r14,%rsi), %xmm1
	movq	312(%r14,%rsi), %rdi
	movq	%rdi, 312(%r12,%rsi)
	movups	%xmm1, 296(%r12,%rsi)
	movups	%xmm0, 280(%r12,%rsi)
	addq	$8, %rcx
	addq	$320, %rsi
	cmpq	%rcx, %r8
	jne	40b
	testq	%rax, %rax
	je	43f
41:
	leaq	(%rcx,%rcx,4), %rcx
	leaq	(%r11,%rcx,8), %rcx
	leaq	(%r14,%rcx), %r8
	addq	%r12, %rcx
	shll	$3, %eax
	leaq	(%rax,%rax,4), %rax
	xorl	%esi, %esi
	.p2align	4
42:
	movups	(%r8,%rsi), %xmm0
	movups	16(%r8,%rsi), %xmm1
	movq	32(%r8,%rsi), %rdi
	movq	%rdi, 32(%rcx,%rsi)
	movups	%xmm1, 16(%rcx,%rsi)
	movups	%xmm0, (%rcx,%rsi)
	addq	$40, %rsi
	cmpq	%rsi, %rax
	jne	42b
43:
	cmpq	%r15, %r13
	jae	47f
	leaq	(%r15,%r15,4), %rax
	leaq	(%r14,%rax,8), %rcx
	addq	$-40, %rcx
	movq	%r13, %rax
	.p2align	4
44:
	leaq	-1(%r15), %rsi
	leaq	(%rsi,%rsi,4), %rdx
	leaq	-1(%rax), %rdi
	leaq	(%rdi,%rdi,4), %r8
	movq	24(%r12,%rdx,8), %r9
	movq	24(%r14,%r8,8), %r10
	subq	32(%r12,%rdx,8), %r9
	subq	32(%r14,%r8,8), %r10
	cmpq	%r10, %r9
	adcq	$-1, %r15
	leaq	-40(%rcx), %rdx
	movq	%r14, %r8
	cmpq	%r10, %r9
	jb	45f
	movq	%r12, %r8
	movq	%rsi, %rdi
45:
	leaq	(%rdi,%rdi,4), %rsi
	movups	(%r8,%rsi,8), %xmm0
	movups	16(%r8,%rsi,8), %xmm1
	movq	32(%r8,%rsi,8), %rsi
	movq	%rsi, 32(%rcx)
	movups	%xmm1, 16(%rcx)
	movups	%xmm0, (%rcx)
	sbbq	$0, %rax
	je	46f
	movq	%rdx, %rcx
	cmpq	%r13, %r15
	ja	44b
46:
	movq	%r15, %rbp
	subq	%r13, %rbp
	shlq	$3, %rax
	leaq	(%rax,%rax,4), %rax
	leaq	(,%rbp,8), %rcx
	leaq	(%rcx,%rcx,4), %rdx
	jmp	48f
47:
	movq	%r11, %rax
48:
	addq	%rax, %r14
	movq	%r14, %rax
	subq	%rbx, %rax
	cmpq	%rdx, %rax
	jae	49f
	cmpq	%r13, %r15
	je	54f
	leaq	-1(%rbp), %rcx
	movl	%ebp, %eax
	andl	$7, %eax
	cmpq	$7, %rcx
	jae	50f
	xorl	%ecx, %ecx
	jmp	52f
49:
	movq	%r14, %rdi
	movq	%rbx, %rsi
	vj_c_call	memmove
	jmp	54f
50:
	andq	$-8, %rbp
	movl	$280, %edx
	xorl	%ecx, %ecx
	.p2align	4
51:
	movups	-280(%rbx,%rdx), %xmm0
	movups	-264(%rbx,%rdx), %xmm1
	movq	-248(%rbx,%rdx), %rsi
	movq	%rsi, -248(%r14,%rdx)
	movups	%xmm1, -264(%r14,%rdx)
	movups	%xmm0, -280(%r14,%rdx)
	movups	-240(%rbx,%rdx), %xmm0
	movups	-224(%rbx,%rdx), %xmm1
	movq	-208(%rbx,%rdx), %rsi
	movq	%rsi, -208(%r14,%rdx)
	movups	%xmm1, -224(%r14,%rdx)
	movups	%xmm0, -240(%r14,%rdx)
	movups	-200(%rbx,%rdx), %xmm0
	movups	-184(%rbx,%rdx), %xmm1
	movq	-168(%rbx,%rdx), %rsi
	movq	%rsi, -168(%r14,%rdx)
	movups	%xmm1, -184(%r14,%rdx)
	movups	%xmm0, -200(%r14,%rdx)
	movups	-160(%rbx,%rdx), %xmm0
	movups	-144(%rbx,%rdx), %xmm1
	movq	-128(%rbx,%rdx), %rsi
	movq	%rsi, -128(%r14,%rdx)
	movups	%xmm1, -144(%r14,%rdx)
	movups	%xmm0, -160(%r14,%rdx)
	movups	-120(%rbx,%rdx), %xmm0
	movups	-104(%rbx,%rdx), %xmm1
	movq	-88(%rbx,%rdx), %rsi
	movq	%rsi, -88(%r14,%rdx)
	movups	%xmm1, -104(%r14,%rdx)
	movups	%xmm0, -120(%r14,%rdx)
	movups	-80(%rbx,%rdx), %xmm0
	movups	-64(%rbx,%rdx), %xmm1
	movq	-48(%rbx,%rdx), %rsi
	movq	%rsi, -48(%r14,%rdx)
	movups	%xmm1, -64(%r14,%rdx)
	movups	%xmm0, -80(%r14,%rdx)
	movups	-40(%rbx,%rdx), %xmm0
	movups	-24(%rbx,%rdx), %xmm1
	movq	-8(%rbx,%rdx), %rsi
	movq	%rsi, -8(%r14,%rdx)
	movups	%xmm1, -24(%r14,%rdx)
	movups	%xmm0, -40(%r14,%rdx)
	movups	(%rbx,%rdx), %xmm0
	movups	16(%rbx,%rdx), %xmm1
	movq	32(%rbx,%rdx), %rsi
	movq	%rsi, 32(%r14,%rdx)
	movups	%xmm1, 16(%r14,%rdx)
	movups	%xmm0, (%r14,%rdx)
	addq	$8, %rcx
	addq	$320, %rdx
	cmpq	%rcx, %rbp
	jne	51b
	testq	%rax, %rax
	je	54f
52:
	shlq	$3, %rcx
	leaq	(%rcx,%rcx,4), %rcx
	addq	%rcx, %r11
	addq	%r12, %r11
	addq	%rcx, %r14
	shll	$3, %eax
	leaq	(%rax,%rax,4), %rax
	xorl	%ecx, %ecx
	.p2align	4
53:
	movups	(%r11,%rcx), %xmm0
	movups	16(%r11,%rcx), %xmm1
	movq	32(%r11,%rcx), %rdx
	movq	%rdx, 32(%r14,%rcx)
	movups	%xmm1, 16(%r14,%rcx)
	movups	%xmm0, (%r14,%rcx)
	addq	$40, %rcx
	cmpq	%rcx, %rax
	jne	53b
54:
	movq	8(%rsp), %rax
	movq	%r12, (%rax)
	movq	16(%rsp), %rcx
	movq	%rcx, 8(%rax)
	jmp	60f
55:
	andq	$-8, %rdi
	movl	$280, %r10d
	xorl	%r9d, %r9d
	.p2align	4
56:
	movups	-280(%rsi,%r10), %xmm0
	movups	-264(%rsi,%r10), %xmm1
	movq	-248(%rsi,%r10), %r11
	movq	%r11, -248(%r8,%r10)
	movups	%xmm1, -264(%r8,%r10)
	movups	%xmm0, -280(%r8,%r10)
	movups	-240(%rsi,%r10), %xmm0
	movups	-224(%rsi,%r10), %xmm1
	movq	-208(%rsi,%r10), %r11
	movq	%r11, -208(%r8,%r10)
	movups	%xmm1, -224(%r8,%r10)
	movups	%xmm0, -240(%r8,%r10)
	movups	-200(%rsi,%r10), %xmm0
	movups	-184(%rsi,%r10), %xmm1
	movq	-168(%rsi,%r10), %r11
	movq	%r11, -168(%r8,%r10)
	movups	%xmm1, -184(%r8,%r10)
	movups	%xmm0, -200(%r8,%r10)
	movups	-160(%rsi,%r10), %xmm0
	movups	-144(%rsi,%r10), %xmm1
	movq	-128(%rsi,%r10), %r11
	movq	%r11, -128(%r8,%r10)
	movups	%xmm1, -144(%r8,%r10)
	movups	%xmm0, -160(%r8,%r10)
	movups	-120(%rsi,%r10), %xmm0
	movups	-104(%rsi,%r10), %xmm1
	movq	-88(%rsi,%r10), %r11
	movq	%r11, -88(%r8,%r10)
	movups	%xmm1, -104(%r8,%r10)
	movups	%xmm0, -120(%r8,%r10)
	movups	-80(%rsi,%r10), %xmm0
	movups	-64(%rsi,%r10), %xmm1
	movq	-48(%rsi,%r10), %r11
	movq	%r11, -48(%r8,%r10)
	movups	%xmm1, -64(%r8,%r10)
	movups	%xmm0, -80(%r8,%r10)
	movups	-40(%rsi,%r10), %xmm0
	movups	-24(%rsi,%r10), %xmm1
	movq	-8(%rsi,%r10), %r11
	movq	%r11, -8(%r8,%r10)
	movups	%xmm1, -24(%r8,%r10)
	movups	%xmm0, -40(%r8,%r10)
	movups	(%rsi,%r10), %xmm0
	movups	16(%rsi,%r10), %xmm1
	movq	32(%rsi,%r10), %r11
	movq	%r11, 32(%r8,%r10)
	movups	%xmm1, 16(%r8,%r10)
	movups	%xmm0, (%r8,%r10)
	addq	$8, %r9
	addq	$320, %r10
	cmpq	%r9, %rdi
	jne	56b
	testq	%rdx, %rdx
	je	59f
57:
	shlq	$3, %r9
	leaq	(%r9,%r9,4), %rsi
	addq	%r12, %rcx
	addq	%rsi, %rcx
	addq	%rax, %r14
	addq	%rsi, %r14
	shll	$3, %edx
	leaq	(%rdx,%rdx,4), %rax
	xorl	%edx, %edx
	.p2align	4
58:
	movups	(%rcx,%rdx), %xmm0
	movups	16(%rcx,%rdx), %xmm1
	movq	32(%rcx,%rdx), %rsi
	movq	%rsi, 32(%r14,%rdx)
	movups	%xmm1, 16(%r14,%rdx)
	movups	%xmm0, (%r14,%rdx)
	addq	$40, %rdx
	cmpq	%rdx, %rax
	jne	58b
59:
	movq	%r12, (%rbx)
	movq	16(%rsp), %rax
	movq	%rax, 8(%rbx)
60:
	addq	$40, %rsp
	popq	%rbx
	popq	%r12
	popq	%r13
	popq	%r14
	popq	%r15
	popq	%rbp
	retq
	vj_end	core..slice..sort..merge..merge..610785a6ec0ddab1_1_x86

	vj_function	core..slice..sort..pivot..median_of_medians..610785a6ec0ddab1_1_x86
	pushq	%rbp
	pushq	%r15
	pushq	%r14
	pushq	%r13
	pushq	%r12
	pushq	%rbx
	pushq	%rax
	movq	%rcx, %r14
	movq	%rdx, %rbx
	cmpq	$8, %r8
	jae	1f
	leaq	(%rsi,%rsi,4), %rax
	leaq	(%rbx,%rbx,4), %rcx
	movq	24(%rdi,%rax,8), %rdx
	movq	24(%rdi,%rcx,8), %r8
	subq	32(%rdi,%rax,8), %rdx
	subq	32(%rdi,%rcx,8), %r8
	cmpq	%r8, %rdx
	setb	%al
	leaq	(%r14,%r14,4), %rcx
	movq	24(%rdi,%rcx,8), %r9
	subq	32(%rdi,%rcx,8), %r9
	cmpq	%r9, %rdx
	setb	%cl
	xorb	%al, %cl
	cmpq	%r9, %r8
	setb	%dl
	xorb	%al, %dl
	cmovneq	%r14, %rbx
	testb	%cl, %cl
	cmovneq	%rsi, %rbx
	jmp	2f
1:
	movq	%r8, %r13
	shrq	$3, %r13
	leaq	(%rsi,%r13,4), %rdx
	andq	$-8, %r8
	subq	%r13, %r8
	leaq	(%r8,%rsi), %rcx
	movq	%rdi, %r12
	movq	%r8, %rbp
	movq	%r13, %r8
	callq	core..slice..sort..pivot..median_of_medians..610785a6ec0ddab1_1_x86
	movq	%rax, %r15
	leaq	(%rbx,%r13,4), %rdx
	leaq	(%rbx,%rbp), %rcx
	movq	%r12, %rdi
	movq	%rbx, %rsi
	movq	%r13, %r8
	callq	core..slice..sort..pivot..median_of_medians..610785a6ec0ddab1_1_x86
	movq	%rax, %rbx
	leaq	(%r14,%r13,4), %rdx
	addq	%r14, %rbp
	movq	%r12, %rdi
	movq	%r14, %rsi
	movq	%rbp, %rcx
	movq	%r13, %r8
	callq	core..slice..sort..pivot..median_of_medians..610785a6ec0ddab1_1_x86
	leaq	(%r15,%r15,4), %rcx
	leaq	(%rbx,%rbx,4), %rdx
	movq	24(%r12,%rcx,8), %rsi
	movq	24(%r12,%rdx,8), %rdi
	subq	32(%r12,%rcx,8), %rsi
	subq	32(%r12,%rdx,8), %rdi
	cmpq	%rdi, %rsi
	setb	%cl
	leaq	(%rax,%rax,4), %rdx
	movq	24(%r12,%rdx,8), %r8
	subq	32(%r12,%rdx,8), %r8
	cmpq	%r8, %rsi
	setb	%dl
	xorb	%cl, %dl
	cmpq	%r8, %rdi
	setb	%sil
	xorb	%cl, %sil
	cmovneq	%rax, %rbx
	testb	%dl, %dl
	cmovneq	%r15, %rbx
2:
	movq	%rbx, %rax
	addq	$8, %rsp
	popq	%rbx
	popq	%r12
	popq	%r13
	popq	%r14
	popq	%r15
	popq	%rbp
	retq
	vj_end	core..slice..sort..pivot..median_of_medians..610785a6ec0ddab1_1_x86

	vj_function	core..slice..sort..runs..climb..610785a6ec0ddab1_1_x86
	pushq	%rbp
	pushq	%r15
	pushq	%r14
	pushq	%r13
	pushq	%r12
	pushq	%rbx
	subq	$152, %rsp
	movl	%r9d, %ebp
	movq	%r8, %rbx
	movq	$0, 72(%rsp)
	movq	%rdx, %rax
	subq	%r8, %rax
	jne	1f
	movq	%rbx, (%rdi)
	movb	%bpl, 8(%rdi)
	movl	$0, 9(%rdi)
	movl	$0, 12(%rdi)
	movq	%rbx, 16(%rdi)
	movb	%bpl, 24(%rdi)
	movq	$0, 25(%rdi)
	movq	$0, 32(%rdi)
	jmp	23f
1:
	movq	%rdx, %r12
	movq	%rsi, %r13
	movq	%rcx, 80(%rsp)
	movq	%rdi, 144(%rsp)
	xorl	%r10d, %r10d
	movq	%rdx, %r15
	movl	$0, %r14d
	cmpq	216(%rsp), %rax
	jb	15f
	leaq	2(%rbx), %r15
	leaq	(,%rbx,8), %rax
	leaq	(%rax,%rax,4), %rax
	leaq	(%rax,%r13), %rdi
	movq	64(%r13,%rax), %rdx
	subq	72(%r13,%rax), %rdx
	movq	24(%r13,%rax), %rsi
	subq	32(%r13,%rax), %rsi
	cmpq	%rsi, %rdx
	jae	3f
	cmpq	%r12, %r15
	jae	7f
	leaq	(%rax,%r13), %rcx
	addq	$112, %rcx
	.p2align	4
2:
	movq	-8(%rcx), %r8
	subq	(%rcx), %r8
	movq	-48(%rcx), %r9
	subq	-40(%rcx), %r9
	cmpq	%r9, %r8
	jae	6f
	incq	%r15
	addq	$40, %rcx
	cmpq	%r15, %r12
	jne	2b
	jmp	5f
3:
	cmpq	%r12, %r15
	jae	12f
	leaq	(%rax,%r13), %rcx
	addq	$112, %rcx
	.p2align	4
4:
	movq	-8(%rcx), %r8
	subq	(%rcx), %r8
	movq	-48(%rcx), %r9
	subq	-40(%rcx), %r9
	cmpq	%r9, %r8
	jb	6f
	incq	%r15
	addq	$40, %rcx
	cmpq	%r15, %r12
	jne	4b
5:
	movq	%r12, %r15
6:
	movq	%r15, %rcx
	subq	%rbx, %rcx
	cmpq	216(%rsp), %rcx
	jb	13f
	movb	$1, %r14b
	cmpq	%rsi, %rdx
	jae	15f
	cmpq	$15, %rcx
	jbe	24f
	movq	%rcx, %rdx
	shrq	%rdx
	subq	%rdx, %rcx
	leaq	(%rcx,%rcx,4), %rax
	leaq	(%rdi,%rax,8), %rsi
	callq	core..slice..edits..mirror..27.b2sum_commands..ahead..Part_1_x86
	xorl	%r10d, %r10d
	jmp	15f
7:
	movl	$2, %ecx
	cmpq	$2, 216(%rsp)
	ja	13f
8:
	leaq	-2(%rcx), %rdx
	shrq	%rdx
	incq	%rdx
	leaq	(%rcx,%rcx,4), %rsi
	leaq	(%rax,%rsi,8), %rax
	addq	%r13, %rax
	addq	$-40, %rax
	decq	%rcx
	xorl	%esi, %esi
	jmp	11f
	.p2align	4
9:
	movq	32(%rdi), %r8
	movq	%r8, 128(%rsp)
	movups	(%rdi), %xmm0
	movups	16(%rdi), %xmm1
	movaps	%xmm1, 112(%rsp)
	movaps	%xmm0, 96(%rsp)
	movq	32(%rax), %r8
	movups	(%rax), %xmm0
	movups	16(%rax), %xmm1
	movups	%xmm0, (%rdi)
	movups	%xmm1, 16(%rdi)
	movq	%r8, 32(%rdi)
	movq	128(%rsp), %r8
	movq	%r8, 32(%rax)
	movaps	96(%rsp), %xmm0
	movaps	112(%rsp), %xmm1
	movups	%xmm1, 16(%rax)
	movups	%xmm0, (%rax)
10:
	incq	%rsi
	addq	$40, %rdi
	addq	$-40, %rax
	decq	%rcx
	cmpq	%rsi, %rdx
	je	14f
11:
	cmpq	%rcx, %rsi
	jb	9b
	jbe	10b
	movq	32(%rax), %r8
	movq	%r8, 128(%rsp)
	movups	(%rax), %xmm0
	movups	16(%rax), %xmm1
	movaps	%xmm1, 112(%rsp)
	movaps	%xmm0, 96(%rsp)
	movq	32(%rdi), %r8
	movups	(%rdi), %xmm0
	movups	16(%rdi), %xmm1
	movups	%xmm0, (%rax)
	movups	%xmm1, 16(%rax)
	movq	%r8, 32(%rax)
	movq	128(%rsp), %r8
	movq	%r8, 32(%rdi)
	movaps	96(%rsp), %xmm0
	movaps	112(%rsp), %xmm1
	movups	%xmm1, 16(%rdi)
	movups	%xmm0, (%rdi)
	jmp	10b
12:
	movb	$1, %r14b
	cmpq	$3, 216(%rsp)
	jb	15f
13:
	movq	216(%rsp), %rax
	leaq	(%rax,%rbx), %r15
	xorl	%r14d, %r14d
	jmp	15f
14:
	movb	$1, %r14b
15:
	movq	80(%rsp), %rsi
	leaq	(%rbx,%rsi), %rax
	movq	224(%rsp), %rdx
	imulq	%rdx, %rax
	leaq	(%r15,%rbx), %rcx
	imulq	%rdx, %rcx
	xorq	%rax, %rcx
	movl	$127, %edx
	bsrq	%rcx, %rdx
	xorl	$63, %edx
	leal	1(%rdx), %eax
	movq	%rbx, 40(%rsp)
	movb	%bpl, 48(%rsp)
	movl	$0, 49(%rsp)
	movl	$0, 52(%rsp)
	movq	%r15, 56(%rsp)
	movb	%r14b, 64(%rsp)
	movl	$0, 65(%rsp)
	movl	$0, 68(%rsp)
	movl	%eax, 72(%rsp)
	cmpl	%edx, 208(%rsp)
	ja	22f
	leaq	(%rsi,%rsi,4), %rcx
	leaq	(,%rcx,8), %rcx
	addq	%r13, %rcx
	movq	%rcx, 88(%rsp)
	jmp	18f
	.p2align	4
16:
	movl	%r12d, %ebp
	movq	%r15, %r12
17:
	movb	%bpl, 48(%rsp)
	leaq	49(%rsp), %rax
	movl	$0, 3(%rax)
	movl	$0, (%rax)
	movl	72(%rsp), %eax
	cmpl	%eax, 208(%rsp)
	jae	21f
18:
	movq	%rbx, %r14
	movq	56(%rsp), %r8
	movl	64(%rsp), %r9d
	movq	232(%rsp), %rcx
	movq	%rcx, 24(%rsp)
	movq	224(%rsp), %rcx
	movq	%rcx, 16(%rsp)
	movq	216(%rsp), %rcx
	movq	%rcx, 8(%rsp)
	movl	%eax, (%rsp)
	leaq	40(%rsp), %rdi
	movq	%r13, %rsi
	movq	%r12, %r15
	movq	%r12, %rdx
	movq	%rbx, %rcx
	callq	core..slice..sort..runs..climb..610785a6ec0ddab1_1_x86
	movq	40(%rsp), %rbx
	movzbl	48(%rsp), %r12d
	movl	%r12d, %eax
	orb	%bpl, %al
	testb	$1, %al
	je	16b
	testb	$1, %bpl
	jne	19f
	movq	%r14, %rdx
	subq	80(%rsp), %rdx
	movl	$127, %eax
	bsrq	%rdx, %rax
	xorl	$63, %eax
	addl	%eax, %eax
	movl	$126, %ecx
	subl	%eax, %ecx
	movq	88(%rsp), %rdi
	movq	%rdx, %rsi
	movq	232(%rsp), %r8
	callq	core..slice..sort..stable..quicksort..610785a6ec0ddab1_1_x86
19:
	leaq	(,%r14,8), %rax
	leaq	(%rax,%rax,4), %rbp
	testb	$1, %r12b
	jne	20f
	movq	%r13, %rdi
	addq	%rbp, %rdi
	movq	%rbx, %rdx
	subq	%r14, %rdx
	movl	$127, %eax
	bsrq	%rdx, %rax
	xorl	$63, %eax
	addl	%eax, %eax
	movl	$126, %ecx
	subl	%eax, %ecx
	movq	%rdx, %rsi
	movq	232(%rsp), %r8
	callq	core..slice..sort..stable..quicksort..610785a6ec0ddab1_1_x86
20:
	movq	-16(%r13,%rbp), %rax
	movq	24(%r13,%rbp), %rcx
	subq	32(%r13,%rbp), %rcx
	subq	-8(%r13,%rbp), %rax
	movb	$1, %bpl
	cmpq	%rax, %rcx
	movq	%r15, %r12
	jae	17b
	movq	%rbx, %rsi
	movq	80(%rsp), %rax
	subq	%rax, %rsi
	subq	%rax, %r14
	movq	88(%rsp), %rdi
	movq	%r14, %rdx
	movq	232(%rsp), %rcx
	callq	core..slice..sort..merge..merge..610785a6ec0ddab1_1_x86
	jmp	17b
21:
	movq	56(%rsp), %r15
	movzbl	64(%rsp), %r14d
	movl	76(%rsp), %r10d
22:
	movq	144(%rsp), %rsi
	movq	%rbx, (%rsi)
	movb	%bpl, 8(%rsi)
	leaq	49(%rsp), %rdi
	movl	(%rdi), %ecx
	movl	3(%rdi), %edx
	movl	%ecx, 9(%rsi)
	movl	%edx, 12(%rsi)
	movq	%r15, 16(%rsi)
	movb	%r14b, 24(%rsi)
	movl	16(%rdi), %ecx
	movl	19(%rdi), %edx
	movl	%ecx, 25(%rsi)
	movl	%edx, 28(%rsi)
	movl	%eax, 32(%rsi)
	movl	%r10d, 36(%rsi)
23:
	addq	$152, %rsp
	popq	%rbx
	popq	%r12
	popq	%r13
	popq	%r14
	popq	%r15
	popq	%rbp
	retq
24:
	cmpq	$2, %rcx
	jae	8b
	jmp	15b
	vj_end	core..slice..sort..runs..climb..610785a6ec0ddab1_1_x86

	vj_cold	std_alloc..vec..Vec..grow_amortized..61dd7b1dc1d96f4a_1_x86
	movq	8(%rdi), %rsi
	cmpq	$-1, %rsi
	je	2f
	pushq	%r14
	pushq	%rbx
	pushq	%rax
	movq	16(%rdi), %rcx
	cmpq	$4, %rsi
	movl	$3, %ebx
	cmovaeq	%rsi, %rbx
	incq	%rbx
	movq	%rcx, %rdx
	shrq	$62, %rdx
	leaq	(%rcx,%rcx), %rax
	cmpq	%rax, %rbx
	cmovaq	%rbx, %rax
	testq	%rdx, %rdx
	cmoveq	%rax, %rbx
	movq	%rbx, %rdx
	shrq	$59, %rdx
	jne	4f
	testq	%rcx, %rcx
	je	3f
	movq	%rdi, %r14
	movq	(%rdi), %rdi
	shlq	$4, %rsi
	movq	%rbx, %rdx
	shlq	$4, %rdx
	movl	$8, %ecx
	vj_call	rattle_realloc
	testb	$1, %al
	je	4f
1:
	movq	%rdx, (%r14)
	movq	%rbx, 16(%r14)
	movb	$1, %al
	addq	$8, %rsp
	popq	%rbx
	popq	%r14
	retq
2:
	xorl	%eax, %eax
	retq
3:
	movq	%rdi, %r14
	shlq	$4, %rax
	movl	$8, %esi
	movq	%rax, %rdi
	vj_call	rattle_alloc
	testb	$1, %al
	jne	1b
4:
	xorl	%eax, %eax
	addq	$8, %rsp
	popq	%rbx
	popq	%r14
	retq
	vj_end	std_alloc..vec..Vec..grow_amortized..61dd7b1dc1d96f4a_1_x86

	vj_function	b2sum..lanes..finish..d634354ca11db3c0_1_x86
	pushq	%rbp
	pushq	%r15
	pushq	%r14
	pushq	%r13
	pushq	%r12
	pushq	%rbx
	subq	$408, %rsp
	movq	%r9, 136(%rsp)
	movq	%r8, %r14
	movq	%rcx, %r15
	movq	%rdx, %r12
	movq	%rdx, 128(%rsp)
	shlq	$4, %r12
	movq	(%rcx,%r12), %rax
	shlq	$4, %rax
	movq	8(%rdi,%rax), %rax
	xorl	%ebx, %ebx
	subq	8(%rcx,%r12), %rax
	cmovaeq	%rax, %rbx
	xorps	%xmm0, %xmm0
	movaps	%xmm0, 144(%rsp)
	movaps	%xmm0, 160(%rsp)
	movaps	%xmm0, 176(%rsp)
	movaps	%xmm0, 192(%rsp)
	movaps	%xmm0, 208(%rsp)
	movaps	%xmm0, 224(%rsp)
	movaps	%xmm0, 240(%rsp)
	movaps	%xmm0, 256(%rsp)
	movaps	%xmm0, 272(%rsp)
	movaps	%xmm0, 288(%rsp)
	movaps	%xmm0, 304(%rsp)
	movaps	%xmm0, 320(%rsp)
	movaps	%xmm0, 336(%rsp)
	movaps	%xmm0, 352(%rsp)
	movaps	%xmm0, 368(%rsp)
	movaps	%xmm0, 384(%rsp)
	leaq	.L1_x86_static.1(%rip), %rax
	movq	%rax, (%rsp)
	movq	$0, 8(%rsp)
	movq	%rax, 16(%rsp)
	movq	$0, 24(%rsp)
	movq	%rax, 32(%rsp)
	movq	$0, 40(%rsp)
	movq	%rax, 48(%rsp)
	movq	$0, 56(%rsp)
	movq	%rax, 64(%rsp)
	movq	$0, 72(%rsp)
	movq	%rax, 80(%rsp)
	movq	$0, 88(%rsp)
	movq	%rax, 96(%rsp)
	movq	$0, 104(%rsp)
	movq	%rax, 112(%rsp)
	movq	$0, 120(%rsp)
	testq	%rsi, %rsi
	je	1f
	movq	%rdi, %r13
	movq	%rsi, %rbp
	cmpq	$1, %rsi
	jne	3f
	xorl	%eax, %eax
	jmp	5f
1:
	movups	112(%rsp), %xmm0
	movaps	%xmm0, 384(%rsp)
	movups	96(%rsp), %xmm1
	movaps	%xmm1, 368(%rsp)
	movups	80(%rsp), %xmm2
	movaps	%xmm2, 352(%rsp)
	movups	64(%rsp), %xmm3
	movaps	%xmm3, 336(%rsp)
	movups	(%rsp), %xmm4
	movups	16(%rsp), %xmm5
	movups	32(%rsp), %xmm6
	movups	48(%rsp), %xmm7
	movaps	%xmm7, 320(%rsp)
	movaps	%xmm6, 304(%rsp)
	movaps	%xmm5, 288(%rsp)
	movaps	%xmm4, 272(%rsp)
	movaps	%xmm4, 144(%rsp)
	movaps	%xmm5, 160(%rsp)
	movaps	%xmm6, 176(%rsp)
	movaps	%xmm7, 192(%rsp)
	movaps	%xmm3, 208(%rsp)
	movaps	%xmm2, 224(%rsp)
	movaps	%xmm1, 240(%rsp)
	movaps	%xmm0, 256(%rsp)
	leaq	144(%rsp), %rdx
	movq	%r14, %rdi
	xorl	%esi, %esi
	xorl	%ecx, %ecx
	vj_call	blake2_state..many..blake2b..update_many_1_x86
2:
	imulq	$344, 128(%rsp), %rax
	addq	%rax, %r14
	movq	(%r15,%r12), %rax
	shlq	$6, %rax
	movq	136(%rsp), %rsi
	addq	%rax, %rsi
	movq	%r14, %rdi
	callq	blake2_state..blake2b..State..write_digest_1_x86
	addq	$408, %rsp
	popq	%rbx
	popq	%r12
	popq	%r13
	popq	%r14
	popq	%r15
	popq	%rbp
	retq
3:
	movq	%rbp, %rcx
	andq	$-2, %rcx
	movl	$24, %edx
	xorl	%eax, %eax
	.p2align	4
4:
	movq	-24(%r15,%rdx), %rsi
	movq	-16(%r15,%rdx), %rdi
	shlq	$4, %rsi
	movq	8(%r13,%rsi), %r8
	movq	(%r13,%rsi), %rsi
	addq	%rdi, %rsi
	subq	%rdi, %r8
	cmpq	%rbx, %r8
	cmovaeq	%rbx, %r8
	movq	%rsi, -24(%rsp,%rdx)
	movq	%r8, -16(%rsp,%rdx)
	movq	-8(%r15,%rdx), %rsi
	movq	(%r15,%rdx), %rdi
	shlq	$4, %rsi
	movq	8(%r13,%rsi), %r8
	movq	(%r13,%rsi), %rsi
	addq	%rdi, %rsi
	subq	%rdi, %r8
	cmpq	%rbx, %r8
	cmovaeq	%rbx, %r8
	movq	%rsi, -8(%rsp,%rdx)
	movq	%r8, (%rsp,%rdx)
	addq	$2, %rax
	addq	$32, %rdx
	cmpq	%rax, %rcx
	jne	4b
	testb	$1, %bpl
	je	6f
5:
	shlq	$4, %rax
	movq	(%r15,%rax), %rcx
	movq	8(%r15,%rax), %rdx
	shlq	$4, %rcx
	movq	8(%r13,%rcx), %rsi
	movq	(%r13,%rcx), %rcx
	addq	%rdx, %rcx
	subq	%rdx, %rsi
	cmpq	%rbx, %rsi
	cmovaeq	%rbx, %rsi
	movq	%rcx, (%rsp,%rax)
	movq	%rsi, 8(%rsp,%rax)
6:
	movups	112(%rsp), %xmm0
	movaps	%xmm0, 384(%rsp)
	movups	96(%rsp), %xmm1
	movaps	%xmm1, 368(%rsp)
	movups	80(%rsp), %xmm2
	movaps	%xmm2, 352(%rsp)
	movups	64(%rsp), %xmm3
	movaps	%xmm3, 336(%rsp)
	movups	(%rsp), %xmm4
	movups	16(%rsp), %xmm5
	movups	32(%rsp), %xmm6
	movups	48(%rsp), %xmm7
	movaps	%xmm7, 320(%rsp)
	movaps	%xmm6, 304(%rsp)
	movaps	%xmm5, 288(%rsp)
	movaps	%xmm4, 272(%rsp)
	movaps	%xmm4, 144(%rsp)
	movaps	%xmm5, 160(%rsp)
	movaps	%xmm6, 176(%rsp)
	movaps	%xmm7, 192(%rsp)
	movaps	%xmm3, 208(%rsp)
	movaps	%xmm2, 224(%rsp)
	movaps	%xmm1, 240(%rsp)
	movaps	%xmm0, 256(%rsp)
	leaq	144(%rsp), %rdx
	movq	%r14, %rdi
	movq	%rbp, %rsi
	movq	%rbp, %rcx
	vj_call	blake2_state..many..blake2b..update_many_1_x86
	leaq	8(%r15), %rax
	jmp	8f
	.p2align	4
7:
	subq	%rdx, %rcx
	movq	%rcx, (%rax)
	addq	$16, %rax
	decq	%rbp
	je	2b
8:
	movq	-8(%rax), %rcx
	shlq	$4, %rcx
	movq	8(%r13,%rcx), %rcx
	xorl	%edx, %edx
	movq	%rcx, %rdi
	movl	$0, %esi
	subq	(%rax), %rdi
	jb	9f
	movq	%rdi, %rsi
9:
	subq	%rbx, %rsi
	jb	7b
	movq	%rsi, %rdx
	jmp	7b
	vj_end	b2sum..lanes..finish..d634354ca11db3c0_1_x86

	vj_function	b2sum..lanes..finish..86239a0cbe7e8a42_1_x86
	pushq	%rbp
	pushq	%r15
	pushq	%r14
	pushq	%r13
	pushq	%r12
	pushq	%rbx
	subq	$408, %rsp
	movq	%r9, 136(%rsp)
	movq	%r8, %r14
	movq	%rcx, %r15
	movq	%rdx, %r12
	movq	%rdx, 128(%rsp)
	shlq	$4, %r12
	movq	(%rcx,%r12), %rax
	shlq	$4, %rax
	movq	8(%rdi,%rax), %rax
	xorl	%ebx, %ebx
	subq	8(%rcx,%r12), %rax
	cmovaeq	%rax, %rbx
	xorps	%xmm0, %xmm0
	movaps	%xmm0, 144(%rsp)
	movaps	%xmm0, 160(%rsp)
	movaps	%xmm0, 176(%rsp)
	movaps	%xmm0, 192(%rsp)
	movaps	%xmm0, 208(%rsp)
	movaps	%xmm0, 224(%rsp)
	movaps	%xmm0, 240(%rsp)
	movaps	%xmm0, 256(%rsp)
	movaps	%xmm0, 272(%rsp)
	movaps	%xmm0, 288(%rsp)
	movaps	%xmm0, 304(%rsp)
	movaps	%xmm0, 320(%rsp)
	movaps	%xmm0, 336(%rsp)
	movaps	%xmm0, 352(%rsp)
	movaps	%xmm0, 368(%rsp)
	movaps	%xmm0, 384(%rsp)
	leaq	.L1_x86_static.1(%rip), %rax
	movq	%rax, (%rsp)
	movq	$0, 8(%rsp)
	movq	%rax, 16(%rsp)
	movq	$0, 24(%rsp)
	movq	%rax, 32(%rsp)
	movq	$0, 40(%rsp)
	movq	%rax, 48(%rsp)
	movq	$0, 56(%rsp)
	movq	%rax, 64(%rsp)
	movq	$0, 72(%rsp)
	movq	%rax, 80(%rsp)
	movq	$0, 88(%rsp)
	movq	%rax, 96(%rsp)
	movq	$0, 104(%rsp)
	movq	%rax, 112(%rsp)
	movq	$0, 120(%rsp)
	testq	%rsi, %rsi
	je	1f
	movq	%rdi, %r13
	movq	%rsi, %rbp
	cmpq	$1, %rsi
	jne	3f
	xorl	%eax, %eax
	jmp	5f
1:
	movups	112(%rsp), %xmm0
	movaps	%xmm0, 384(%rsp)
	movups	96(%rsp), %xmm1
	movaps	%xmm1, 368(%rsp)
	movups	80(%rsp), %xmm2
	movaps	%xmm2, 352(%rsp)
	movups	64(%rsp), %xmm3
	movaps	%xmm3, 336(%rsp)
	movups	(%rsp), %xmm4
	movups	16(%rsp), %xmm5
	movups	32(%rsp), %xmm6
	movups	48(%rsp), %xmm7
	movaps	%xmm7, 320(%rsp)
	movaps	%xmm6, 304(%rsp)
	movaps	%xmm5, 288(%rsp)
	movaps	%xmm4, 272(%rsp)
	movaps	%xmm4, 144(%rsp)
	movaps	%xmm5, 160(%rsp)
	movaps	%xmm6, 176(%rsp)
	movaps	%xmm7, 192(%rsp)
	movaps	%xmm3, 208(%rsp)
	movaps	%xmm2, 224(%rsp)
	movaps	%xmm1, 240(%rsp)
	movaps	%xmm0, 256(%rsp)
	leaq	144(%rsp), %rdx
	movq	%r14, %rdi
	xorl	%esi, %esi
	xorl	%ecx, %ecx
	vj_call	blake2_state..many..blake2s..update_many_1_x86
2:
	imulq	$176, 128(%rsp), %rax
	addq	%rax, %r14
	movq	(%r15,%r12), %rax
	shlq	$6, %rax
	movq	136(%rsp), %rsi
	addq	%rax, %rsi
	movq	%r14, %rdi
	callq	b2sum..states..blake2s..StateHashState..write_digest_1_x86
	addq	$408, %rsp
	popq	%rbx
	popq	%r12
	popq	%r13
	popq	%r14
	popq	%r15
	popq	%rbp
	retq
3:
	movq	%rbp, %rcx
	andq	$-2, %rcx
	movl	$24, %edx
	xorl	%eax, %eax
	.p2align	4
4:
	movq	-24(%r15,%rdx), %rsi
	movq	-16(%r15,%rdx), %rdi
	shlq	$4, %rsi
	movq	8(%r13,%rsi), %r8
	movq	(%r13,%rsi), %rsi
	addq	%rdi, %rsi
	subq	%rdi, %r8
	cmpq	%rbx, %r8
	cmovaeq	%rbx, %r8
	movq	%rsi, -24(%rsp,%rdx)
	movq	%r8, -16(%rsp,%rdx)
	movq	-8(%r15,%rdx), %rsi
	movq	(%r15,%rdx), %rdi
	shlq	$4, %rsi
	movq	8(%r13,%rsi), %r8
	movq	(%r13,%rsi), %rsi
	addq	%rdi, %rsi
	subq	%rdi, %r8
	cmpq	%rbx, %r8
	cmovaeq	%rbx, %r8
	movq	%rsi, -8(%rsp,%rdx)
	movq	%r8, (%rsp,%rdx)
	addq	$2, %rax
	addq	$32, %rdx
	cmpq	%rax, %rcx
	jne	4b
	testb	$1, %bpl
	je	6f
5:
	shlq	$4, %rax
	movq	(%r15,%rax), %rcx
	movq	8(%r15,%rax), %rdx
	shlq	$4, %rcx
	movq	8(%r13,%rcx), %rsi
	movq	(%r13,%rcx), %rcx
	addq	%rdx, %rcx
	subq	%rdx, %rsi
	cmpq	%rbx, %rsi
	cmovaeq	%rbx, %rsi
	movq	%rcx, (%rsp,%rax)
	movq	%rsi, 8(%rsp,%rax)
6:
	movups	112(%rsp), %xmm0
	movaps	%xmm0, 384(%rsp)
	movups	96(%rsp), %xmm1
	movaps	%xmm1, 368(%rsp)
	movups	80(%rsp), %xmm2
	movaps	%xmm2, 352(%rsp)
	movups	64(%rsp), %xmm3
	movaps	%xmm3, 336(%rsp)
	movups	(%rsp), %xmm4
	movups	16(%rsp), %xmm5
	movups	32(%rsp), %xmm6
	movups	48(%rsp), %xmm7
	movaps	%xmm7, 320(%rsp)
	movaps	%xmm6, 304(%rsp)
	movaps	%xmm5, 288(%rsp)
	movaps	%xmm4, 272(%rsp)
	movaps	%xmm4, 144(%rsp)
	movaps	%xmm5, 160(%rsp)
	movaps	%xmm6, 176(%rsp)
	movaps	%xmm7, 192(%rsp)
	movaps	%xmm3, 208(%rsp)
	movaps	%xmm2, 224(%rsp)
	movaps	%xmm1, 240(%rsp)
	movaps	%xmm0, 256(%rsp)
	leaq	144(%rsp), %rdx
	movq	%r14, %rdi
	movq	%rbp, %rsi
	movq	%rbp, %rcx
	vj_call	blake2_state..many..blake2s..update_many_1_x86
	leaq	8(%r15), %rax
	jmp	8f
	.p2align	4
7:
	subq	%rdx, %rcx
	movq	%rcx, (%rax)
	addq	$16, %rax
	decq	%rbp
	je	2b
8:
	movq	-8(%rax), %rcx
	shlq	$4, %rcx
	movq	8(%r13,%rcx), %rcx
	xorl	%edx, %edx
	movq	%rcx, %rdi
	movl	$0, %esi
	subq	(%rax), %rdi
	jb	9f
	movq	%rdi, %rsi
9:
	subq	%rbx, %rsi
	jb	7b
	movq	%rsi, %rdx
	jmp	7b
	vj_end	b2sum..lanes..finish..86239a0cbe7e8a42_1_x86

	vj_cold	std_alloc..vec..Vec..grow_amortized..bf97339f63b56ecc_1_x86
	movq	8(%rdi), %rax
	cmpq	$-1, %rax
	je	2f
	pushq	%r14
	pushq	%rbx
	pushq	%rax
	movq	16(%rdi), %rcx
	cmpq	$4, %rax
	movl	$3, %ebx
	cmovaeq	%rax, %rbx
	incq	%rbx
	movq	%rcx, %rsi
	shrq	$62, %rsi
	leaq	(%rcx,%rcx), %rdx
	cmpq	%rdx, %rbx
	cmovaq	%rbx, %rdx
	testq	%rsi, %rsi
	cmoveq	%rdx, %rbx
	movabsq	$88686269585142075, %rsi
	cmpq	%rsi, %rbx
	ja	4f
	testq	%rcx, %rcx
	je	3f
	movq	%rdi, %r14
	movq	(%rdi), %rdi
	imulq	$104, %rax, %rsi
	imulq	$104, %rbx, %rdx
	movl	$8, %ecx
	vj_call	rattle_realloc
	testb	$1, %al
	je	4f
1:
	movq	%rdx, (%r14)
	movq	%rbx, 16(%r14)
	movb	$1, %al
	addq	$8, %rsp
	popq	%rbx
	popq	%r14
	retq
2:
	xorl	%eax, %eax
	retq
3:
	movq	%rdi, %r14
	imulq	$104, %rdx, %rdi
	movl	$8, %esi
	vj_call	rattle_alloc
	testb	$1, %al
	jne	1b
4:
	xorl	%eax, %eax
	addq	$8, %rsp
	popq	%rbx
	popq	%r14
	retq
	vj_end	std_alloc..vec..Vec..grow_amortized..bf97339f63b56ecc_1_x86

	vj_constants	16
	.p2align	4, 0x0
.L1_x86_CPI91_0:
	.byte	58
	.byte	32
	.byte	105
	.byte	109
	.byte	112
	.byte	114
	.byte	111
	.byte	112
	.byte	101
	.byte	114
	.byte	108
	.byte	121
	.byte	32
	.byte	102
	.byte	111
	.byte	114
	vj_function	b2sum_commands..check..check_line..82a450bcca081e63_1_x86
	pushq	%rbp
	pushq	%r15
	pushq	%r14
	pushq	%r13
	pushq	%r12
	pushq	%rbx
	subq	$536, %rsp
	movl	%r9d, %eax
	movq	%r8, %rbx
	movq	%rcx, %rbp
	movq	%rdx, %r12
	movq	%rsi, %r13
	movq	%rdi, %r15
	movq	600(%rsp), %r9
	movq	592(%rsp), %r8
	pxor	%xmm0, %xmm0
	movdqa	%xmm0, 368(%rsp)
	movdqa	%xmm0, 352(%rsp)
	movq	$0, 384(%rsp)
	movdqa	%xmm0, 288(%rsp)
	movdqa	%xmm0, 304(%rsp)
	movdqa	%xmm0, 320(%rsp)
	movdqa	%xmm0, 336(%rsp)
	movdqa	%xmm0, 448(%rsp)
	movdqa	%xmm0, 464(%rsp)
	movdqa	%xmm0, 480(%rsp)
	movdqa	%xmm0, 496(%rsp)
	movdqa	%xmm0, 512(%rsp)
	movdqa	%xmm0, 192(%rsp)
	movdqa	%xmm0, 208(%rsp)
	movdqa	%xmm0, 224(%rsp)
	movq	$0, 240(%rsp)
	movdqa	%xmm0, 400(%rsp)
	movdqa	%xmm0, 416(%rsp)
	movq	$0, 432(%rsp)
	movzbl	368(%rcx), %edx
	leaq	448(%rsp), %rdi
	movq	%r12, %rsi
	movl	%eax, %ecx
	movq	%r9, %r14
	callq	b2sum_commands..check..read_item_1_x86
	cmpb	$0, 448(%rsp)
	je	1f
	movzbl	449(%rsp), %eax
	movb	$1, (%r15)
	movb	%al, 1(%r15)
	pxor	%xmm0, %xmm0
	movdqu	%xmm0, 8(%r15)
	movdqu	%xmm0, 24(%r15)
	movdqu	%xmm0, 40(%r15)
	jmp	14f
1:
	movq	%rbx, %r10
	movq	%r12, %r11
	movq	%r15, 136(%rsp)
	movq	%r14, %rbx
	movq	592(%rsp), %r14
	movq	%r13, 128(%rsp)
	movzbl	456(%rsp), %ecx
	leaq	464(%rsp), %rax
	cmpl	$1, %ecx
	jne	2f
	movzbl	520(%rsp), %r9d
	movzbl	%r9b, %r8d
	leaq	521(%rsp), %rdx
	leal	-1(%r8), %edi
	cmpl	$2, %edi
	movq	128(%rsp), %rsi
	jae	4f
	movb	$1, %dil
	movq	%r10, %r8
	jmp	11f
2:
	movq	%rbp, %r12
	movq	376(%rbp), %rdx
	incq	%rdx
	movq	$-1, %rbp
	cmovneq	%rdx, %rbp
	movq	%rbp, 376(%r12)
	testl	%ecx, %ecx
	je	5f
	cmpl	$2, %ecx
	jne	6f
	movq	32(%rax), %rcx
	movq	%rcx, 384(%rsp)
	movdqu	(%rax), %xmm0
	movups	16(%rax), %xmm1
	movaps	%xmm1, 368(%rsp)
	movdqa	%xmm0, 352(%rsp)
	cmpb	$1, 208(%r11)
	je	15f
3:
	movb	$0, 192(%rsp)
	movq	$5, 200(%rsp)
	movdqa	352(%rsp), %xmm0
	movaps	368(%rsp), %xmm1
	movdqa	%xmm0, 208(%rsp)
	movaps	%xmm1, 224(%rsp)
	movq	384(%rsp), %rax
	jmp	8f
4:
	testl	%r8d, %r8d
	movq	%r10, %r8
	jne	10f
	movzbl	368(%rbp), %edi
	jmp	11f
5:
	movb	$0, 192(%rsp)
	movq	$6, 200(%rsp)
	pxor	%xmm0, %xmm0
	movdqa	%xmm0, 208(%rsp)
	movdqa	%xmm0, 224(%rsp)
	movq	$0, 240(%rsp)
	jmp	9f
6:
	cmpb	$1, 208(%r11)
	je	17f
7:
	movb	$0, 192(%rsp)
	movq	$4, 200(%rsp)
	movdqa	400(%rsp), %xmm0
	movaps	416(%rsp), %xmm1
	movdqa	%xmm0, 208(%rsp)
	movaps	%xmm1, 224(%rsp)
	movq	432(%rsp), %rax
8:
	movq	%rax, 240(%rsp)
9:
	movq	136(%rsp), %rbx
	jmp	13f
10:
	movb	$2, %dil
11:
	movb	%dil, 368(%rbp)
	movq	376(%rbp), %r10
	incq	%r10
	movq	$-1, %rdi
	cmovneq	%r10, %rdi
	movq	%rdi, 376(%rbp)
	movq	48(%rax), %rdi
	movq	%rdi, 336(%rsp)
	movdqu	(%rax), %xmm0
	movups	16(%rax), %xmm1
	movups	32(%rax), %xmm2
	movaps	%xmm2, 320(%rsp)
	movaps	%xmm1, 304(%rsp)
	movdqa	%xmm0, 288(%rsp)
	movb	%r9b, 344(%rsp)
	movl	(%rdx), %eax
	movl	3(%rdx), %edx
	movl	%eax, 345(%rsp)
	movl	%edx, 348(%rsp)
	leaq	192(%rsp), %rdi
	leaq	288(%rsp), %r9
	movq	%r11, %rdx
	movq	%rbp, %rcx
	callq	b2sum_commands..check..check_entry..82a450bcca081e63_1_x86
	cmpq	$0, 312(%rsp)
	je	12f
	movq	296(%rsp), %rdi
	vj_call	rattle_dealloc
12:
	cmpq	$0, 336(%rsp)
	movq	136(%rsp), %rbx
	je	13f
	movq	320(%rsp), %rdi
	vj_call	rattle_dealloc
13:
	movzwl	192(%rsp), %eax
	movzbl	200(%rsp), %ecx
	movw	%ax, (%rbx)
	movq	%rcx, 8(%rbx)
	movdqa	208(%rsp), %xmm0
	movaps	224(%rsp), %xmm1
	movdqu	%xmm0, 16(%rbx)
	movups	%xmm1, 32(%rbx)
	movq	240(%rsp), %rax
	movq	%rax, 48(%rbx)
14:
	addq	$536, %rsp
	popq	%rbx
	popq	%r12
	popq	%r13
	popq	%r14
	popq	%r15
	popq	%rbp
	retq
15:
	movq	344(%r12), %rbx
	movq	352(%r12), %r15
	movdqu	(%rax), %xmm0
	movups	16(%rax), %xmm1
	movdqa	%xmm0, 144(%rsp)
	movaps	%xmm1, 160(%rsp)
	movq	32(%rax), %rax
	movq	%rax, 176(%rsp)
	pxor	%xmm0, %xmm0
	movdqa	%xmm0, 256(%rsp)
	movq	$0, 272(%rsp)
	leaq	39(%rsp), %rax
	movq	%rax, 40(%rsp)
	movdqu	%xmm0, 48(%rsp)
	leaq	40(%rsp), %rdi
	movl	$2, %esi
	callq	std_alloc..vec..Vec..grow_amortized..01eec35b572d02af_1_x86
	testb	%al, %al
	je	67f
	movq	%rbx, 120(%rsp)
	movq	40(%rsp), %rbx
	movq	48(%rsp), %r14
	leaq	(%rbx,%r14), %rax
	addq	$2, %r14
	leaq	.L1_x86_static.123(%rip), %rcx
	movq	%rax, %rdx
	subq	%rcx, %rdx
	cmpq	$1, %rdx
	movq	%r15, 184(%rsp)
	movw	$8250, (%rax)
	movq	56(%rsp), %r13
	movq	%r14, 48(%rsp)
	pxor	%xmm0, %xmm0
	movdqa	%xmm0, 80(%rsp)
	movl	$0, 96(%rsp)
	movl	$19, %r15d
	cmpq	$10, %rbp
	jb	25f
16:
	movabsq	$-3689348814741910323, %rcx
	movq	%rbp, %rax
	mulq	%rcx
	shrq	$3, %rdx
	leal	(%rdx,%rdx), %eax
	leal	(%rax,%rax,4), %eax
	movl	%ebp, %ecx
	subl	%eax, %ecx
	orb	$48, %cl
	movb	%cl, 80(%rsp,%r15)
	decq	%r15
	cmpq	$99, %rbp
	movq	%rdx, %rbp
	ja	16b
	jmp	26f
17:
	leaq	224(%r12), %r13
	movq	344(%r12), %rax
	movq	%rax, 120(%rsp)
	movq	352(%r12), %rax
	movq	%rax, 184(%rsp)
	movabsq	$-3689348814741910323, %r12
	cmpq	$5, %rbx
	jae	20f
18:
	movzbl	(%r11), %r14d
	movl	4(%r11), %ebx
	pxor	%xmm0, %xmm0
	movdqa	%xmm0, 96(%rsp)
	movdqa	%xmm0, 80(%rsp)
	leaq	39(%rsp), %rax
	movq	%rax, 40(%rsp)
	movdqu	%xmm0, 48(%rsp)
	leaq	40(%rsp), %rdi
	movl	$2, %esi
	callq	std_alloc..vec..Vec..grow_amortized..01eec35b572d02af_1_x86
	testb	%al, %al
	je	79f
	movb	%r14b, 72(%rsp)
	movq	40(%rsp), %r15
	movq	48(%rsp), %r14
	leaq	(%r15,%r14), %rax
	addq	$2, %r14
	leaq	.L1_x86_static.123(%rip), %rcx
	movq	%rax, %rdx
	subq	%rcx, %rdx
	cmpq	$1, %rdx
	movq	%r13, 112(%rsp)
	movw	$8250, (%rax)
	movq	56(%rsp), %rsi
	movq	%r14, 48(%rsp)
	pxor	%xmm0, %xmm0
	movdqa	%xmm0, 144(%rsp)
	movl	$0, 160(%rsp)
	movl	$19, %r13d
	cmpq	$10, %rbp
	jb	37f
19:
	movq	%rbp, %rax
	mulq	%r12
	shrq	$3, %rdx
	leal	(%rdx,%rdx), %eax
	leal	(%rax,%rax,4), %eax
	movl	%ebp, %ecx
	subl	%eax, %ecx
	orb	$48, %cl
	movb	%cl, 144(%rsp,%r13)
	decq	%r13
	cmpq	$99, %rbp
	movq	%rdx, %rbp
	ja	19b
	jmp	38f
20:
	movq	%rbx, %r8
	movq	%r14, %r15
	movzbl	(%r14), %edx
	movzbl	1(%r14), %eax
	movzbl	2(%r14), %edi
	movzbl	3(%r14), %ecx
	movzbl	4(%r14), %esi
	cmpb	$32, %cl
	jne	21f
	cmpb	$77, %dl
	jne	21f
	cmpb	$68, %al
	jne	21f
	cmpb	$53, %dil
	jne	21f
	cmpb	$40, %sil
	je	42f
21:
	cmpq	$5, %r8
	jne	41f
22:
	cmpb	$83, %dl
	jne	23f
	cmpb	$65, %dil
	jne	23f
	cmpb	$51, %cl
	jne	23f
	cmpb	$72, %al
	jne	23f
	cmpb	$45, %sil
	je	42f
23:
	cmpb	$83, %dl
	jne	24f
	cmpb	$32, %cl
	jne	24f
	cmpb	$77, %al
	jne	24f
	cmpb	$51, %dil
	jne	24f
	cmpb	$40, %sil
	je	42f
24:
	cmpq	$8, %r8
	jb	18b
	cmpb	$65, %dil
	movzwl	5(%r15), %edi
	movd	%edi, %xmm0
	pslld	$8, %xmm0
	movzbl	%sil, %esi
	pinsrb	$0, %esi, %xmm0
	setne	%sil
	pinsrb	$3, 7(%r15), %xmm0
	cmpb	$66, %dl
	sete	%dl
	xorb	$76, %al
	xorb	$75, %cl
	movd	%xmm0, %edi
	cmpl	$673198917, %edi
	sete	%dil
	orb	%al, %cl
	sete	%al
	andb	%dl, %al
	andb	%dil, %al
	xorb	$1, %al
	orb	%sil, %al
	jne	18b
	jmp	42f
25:
	movq	%rbp, %rdx
26:
	orb	$48, %dl
	movb	%dl, 80(%rsp,%r15)
	movl	$20, %edx
	subq	%r15, %rdx
	movq	%r13, %rax
	subq	%r14, %rax
	cmpq	%rax, %rdx
	ja	65f
27:
	leaq	(%rsp,%r15), %rsi
	addq	$80, %rsi
	leaq	(%rbx,%r14), %rdi
	addq	%rdx, %r14
	vj_c_call	memcpy
	movq	%r14, 48(%rsp)
	movq	%r13, 56(%rsp)
	movq	%r13, %rax
	subq	%r14, %rax
	cmpq	$6, %rax
	jbe	66f
28:
	leaq	(%rbx,%r14), %rax
	leaq	.L1_x86_static.220(%rip), %rcx
	movq	%rax, %rdx
	subq	%rcx, %rdx
	cmpq	$6, %rdx
	movq	184(%rsp), %r15
	ja	29f
	movl	$1701716026, (%rax)
	movw	$25701, 4(%rax)
	movb	$115, 6(%rax)
	jmp	30f
29:
	movl	$1935959397, 3(%rax)
	movl	$1701716026, (%rax)
30:
	leaq	39(%rsp), %rax
	movq	%rax, 256(%rsp)
	pxor	%xmm0, %xmm0
	movdqu	%xmm0, 264(%rsp)
	leaq	144(%rsp), %rdi
	leaq	256(%rsp), %rsi
	callq	b2sum_commands..line_needs..Lacks..push_options_1_x86
	testb	%al, %al
	je	32f
	cmpq	$0, 272(%rsp)
	je	31f
	movq	256(%rsp), %rdi
	vj_call	rattle_dealloc
31:
	testq	%r13, %r13
	je	82f
	movq	%rbx, %rdi
	vj_call	rattle_dealloc
	jmp	82f
32:
	movq	256(%rsp), %rax
	movq	%rax, 112(%rsp)
	movq	264(%rsp), %rbp
	pxor	%xmm0, %xmm0
	movdqa	%xmm0, 96(%rsp)
	movdqa	%xmm0, 80(%rsp)
	cmpq	$1, %r15
	jne	33f
	movq	120(%rsp), %rax
	cmpb	$45, (%rax)
	jne	33f
	movl	$14, %r15d
	leaq	.L1_x86_static.217(%rip), %rax
	movq	%rax, 120(%rsp)
33:
	leaq	80(%rsp), %rdi
	movq	120(%rsp), %rsi
	movq	%r15, %rdx
	callq	b2sum_commands..quoting..quoted_name_1_x86
	movb	$1, %r15b
	cmpb	$0, 80(%rsp)
	jne	34f
	addq	$224, %r12
	addq	$7, %r14
	movq	%rbp, %rcx
	movq	88(%rsp), %rbp
	movq	96(%rsp), %r8
	movq	128(%rsp), %rax
	movq	(%rax), %rdi
	movq	8(%rax), %rsi
	movq	104(%rsp), %rax
	movq	%rax, 128(%rsp)
	movq	%rcx, 16(%rsp)
	movq	112(%rsp), %rax
	movq	%rax, 8(%rsp)
	movq	%r14, (%rsp)
	movq	%r12, %rdx
	movq	%rbp, %rcx
	movq	%rbx, %r9
	callq	b2sum_commands..messages..warn..068f3e307c5390f2_1_x86
	movl	%eax, %r15d
	cmpq	$0, 128(%rsp)
	je	34f
	movq	%rbp, %rdi
	vj_call	rattle_dealloc
34:
	cmpq	$0, 272(%rsp)
	je	35f
	movq	112(%rsp), %rdi
	vj_call	rattle_dealloc
35:
	testq	%r13, %r13
	je	36f
	movq	%rbx, %rdi
	vj_call	rattle_dealloc
36:
	testb	%r15b, %r15b
	je	3b
	jmp	82f
37:
	movq	%rbp, %rdx
38:
	orb	$48, %dl
	movb	%dl, 144(%rsp,%r13)
	movl	$20, %edx
	subq	%r13, %rdx
	movq	%rsi, %r12
	movq	%rsi, %rax
	subq	%r14, %rax
	cmpq	%rax, %rdx
	ja	68f
39:
	leaq	(%rsp,%r13), %rsi
	addq	$144, %rsi
	leaq	(%r15,%r14), %rdi
	addq	%rdx, %r14
	vj_c_call	memcpy
	movq	%r14, 48(%rsp)
	movq	%r12, 56(%rsp)
	movq	%r12, %rax
	subq	%r14, %rax
	cmpq	$22, %rax
	jbe	69f
40:
	leaq	48(%rsp), %rax
	pxor	%xmm0, %xmm0
	movdqu	%xmm0, (%rax)
	leaq	(%r15,%r14), %rax
	addq	$23, %r14
	leaq	.L1_x86_static.218(%rip), %rcx
	movq	%rax, %rdx
	subq	%rcx, %rdx
	cmpq	$22, %rdx
	ja	44f
	movdqa	.L1_x86_CPI91_0(%rip), %xmm0
	movdqu	%xmm0, (%rax)
	movl	$1953784173, 16(%rax)
	movw	$25701, 20(%rax)
	movb	$32, 22(%rax)
	jmp	45f
41:
	movzbl	5(%r15), %r9d
	movb	%r9b, 72(%rsp)
	movl	%edx, %r9d
	xorb	$83, %r9b
	movl	%eax, %r10d
	xorb	$72, %r10b
	orb	%r9b, %r10b
	sete	%r9b
	jne	58f
	cmpb	$65, %dil
	jne	58f
	cmpb	$49, %cl
	jne	58f
	cmpb	$32, %sil
	jne	58f
	cmpb	$40, 72(%rsp)
	jne	58f
42:
	pxor	%xmm0, %xmm0
	movdqu	%xmm0, 88(%rsp)
	leaq	39(%rsp), %rax
	movq	%rax, 80(%rsp)
	leaq	80(%rsp), %rdi
	movl	$2, %esi
	callq	std_alloc..vec..Vec..grow_amortized..01eec35b572d02af_1_x86
	testb	%al, %al
	je	71f
	movq	%r13, 112(%rsp)
	movq	80(%rsp), %rbx
	movq	88(%rsp), %r13
	leaq	(%rbx,%r13), %rax
	addq	$2, %r13
	leaq	.L1_x86_static.123(%rip), %rcx
	movq	%rax, %rdx
	subq	%rcx, %rdx
	cmpq	$1, %rdx
	movw	$8250, (%rax)
	movq	96(%rsp), %rsi
	movq	%r13, 88(%rsp)
	pxor	%xmm0, %xmm0
	movdqa	%xmm0, 144(%rsp)
	movl	$0, 160(%rsp)
	movl	$19, %r14d
	cmpq	$10, %rbp
	jb	46f
43:
	movq	%rbp, %rax
	mulq	%r12
	shrq	$3, %rdx
	leal	(%rdx,%rdx), %eax
	leal	(%rax,%rax,4), %eax
	movl	%ebp, %ecx
	subl	%eax, %ecx
	orb	$48, %cl
	movb	%cl, 144(%rsp,%r14)
	decq	%r14
	cmpq	$99, %rbp
	movq	%rdx, %rbp
	ja	43b
	jmp	47f
44:
	movdqu	.L1_x86_static.218(%rip), %xmm0
	movdqu	%xmm0, (%rax)
	movabsq	$2334102057727913330, %rcx
	movq	%rcx, 15(%rax)
45:
	movq	%r14, 48(%rsp)
	movq	%r12, 56(%rsp)
	movzbl	72(%rsp), %esi
	leaq	80(%rsp), %rdi
	movl	%ebx, %edx
	callq	b2sum_lines..entry..Algorithm..tag_1_x86
	cmpb	$0, 80(%rsp)
	je	51f
	movb	$1, %bpl
	testq	%r12, %r12
	je	81f
	movq	%r15, %rdi
	jmp	80f
46:
	movq	%rbp, %rdx
47:
	orb	$48, %dl
	movb	%dl, 144(%rsp,%r14)
	movl	$20, %r15d
	subq	%r14, %r15
	movq	%rsi, %r12
	movq	%rsi, %rax
	subq	%r13, %rax
	cmpq	%rax, %r15
	ja	70f
48:
	leaq	(%rsp,%r14), %rsi
	addq	$144, %rsi
	leaq	(%rbx,%r13), %rdi
	movq	%r15, %rdx
	vj_c_call	memcpy
	pxor	%xmm0, %xmm0
	movdqa	%xmm0, 160(%rsp)
	movdqa	%xmm0, 144(%rsp)
	movq	184(%rsp), %rdx
	cmpq	$1, %rdx
	movq	120(%rsp), %rsi
	jne	49f
	cmpb	$45, (%rsi)
	jne	49f
	movl	$14, %edx
	leaq	.L1_x86_static.217(%rip), %rsi
49:
	leaq	144(%rsp), %rdi
	callq	b2sum_commands..quoting..quoted_name_1_x86
	movb	$1, %bpl
	cmpb	$0, 144(%rsp)
	jne	50f
	addq	%r15, %r13
	movq	152(%rsp), %r15
	movq	160(%rsp), %r8
	movq	128(%rsp), %rax
	movq	(%rax), %rdi
	movq	8(%rax), %rsi
	movq	168(%rsp), %r14
	leaq	.L1_x86_static.216(%rip), %rax
	movq	%rax, 8(%rsp)
	movq	%r13, (%rsp)
	movq	$36, 16(%rsp)
	movq	112(%rsp), %rdx
	movq	%r15, %rcx
	movq	%rbx, %r9
	callq	b2sum_commands..messages..warn..068f3e307c5390f2_1_x86
	movl	%eax, %ebp
	testq	%r14, %r14
	je	50f
	movq	%r15, %rdi
	vj_call	rattle_dealloc
50:
	testq	%r12, %r12
	je	81f
	movq	%rbx, %rdi
	jmp	80f
51:
	movq	88(%rsp), %r13
	movq	96(%rsp), %r15
	movq	104(%rsp), %rbp
	movq	%r12, 72(%rsp)
	movq	%r12, %rax
	subq	%r14, %rax
	cmpq	%rax, %r15
	ja	77f
52:
	movq	40(%rsp), %r12
	leaq	(%r12,%r14), %rdi
	movq	%rdi, %rax
	subq	%r13, %rax
	cmpq	%r15, %rax
	jae	60f
	cmpq	$4, %r15
	jb	53f
	cmpq	$32, %rax
	jae	72f
53:
	xorl	%eax, %eax
54:
	movq	%r15, %rdx
	movq	%rax, %rcx
	andq	$3, %rdx
	je	56f
	movq	%rax, %rcx
55:
	movzbl	(%r13,%rcx), %esi
	movb	%sil, (%rdi,%rcx)
	incq	%rcx
	decq	%rdx
	jne	55b
56:
	subq	%r15, %rax
	cmpq	$-4, %rax
	ja	61f
	leaq	(%r14,%r12), %rax
	addq	$3, %rax
57:
	movzbl	(%r13,%rcx), %edx
	movb	%dl, -3(%rax,%rcx)
	movzbl	1(%r13,%rcx), %edx
	movb	%dl, -2(%rax,%rcx)
	movzbl	2(%r13,%rcx), %edx
	movb	%dl, -1(%rax,%rcx)
	movzbl	3(%r13,%rcx), %edx
	movb	%dl, (%rax,%rcx)
	addq	$4, %rcx
	cmpq	%rcx, %r15
	jne	57b
	jmp	61f
58:
	cmpq	$8, %r8
	jb	22b
	cmpb	$65, %dil
	sete	%r10b
	movzbl	6(%r15), %r8d
	movb	%r8b, 37(%rsp)
	movzbl	7(%r15), %r8d
	andb	%r10b, %r9b
	cmpb	$50, %cl
	sete	%r10b
	andb	%r9b, %r10b
	cmpb	$1, %r10b
	jne	59f
	cmpb	$50, %sil
	jne	59f
	cmpb	$52, 72(%rsp)
	jne	59f
	cmpb	$32, 37(%rsp)
	jne	59f
	cmpb	$40, %r8b
	je	42b
59:
	xorb	$40, %r8b
	movb	%r8b, 38(%rsp)
	movb	%r9b, 71(%rsp)
	movzbl	37(%rsp), %r9d
	xorb	$32, %r9b
	movl	%esi, %r15d
	xorb	$53, %r15b
	movzbl	72(%rsp), %r8d
	xorb	$54, %r8b
	orb	%r15b, %r8b
	movb	%r9b, 37(%rsp)
	orb	%r9b, %r8b
	movzbl	71(%rsp), %r9d
	orb	38(%rsp), %r8b
	sete	%r8b
	testb	%r8b, %r10b
	jne	42b
	movzbl	72(%rsp), %r8d
	xorb	$52, %r8b
	movl	%esi, %r10d
	xorb	$56, %r10b
	movl	%ecx, %r15d
	xorb	$51, %r15b
	orb	%r10b, %r15b
	orb	37(%rsp), %r8b
	orb	%r15b, %r8b
	orb	38(%rsp), %r8b
	sete	%r8b
	testb	%r8b, %r9b
	movzbl	38(%rsp), %r8d
	jne	42b
	movq	%r14, %r15
	movl	%r8d, %r14d
	movl	%esi, %r8d
	xorb	$49, %r8b
	movzbl	72(%rsp), %r10d
	xorb	$50, %r10b
	orb	%r8b, %r10b
	movl	%ecx, %r8d
	xorb	$53, %r8b
	orb	37(%rsp), %r8b
	orb	%r10b, %r8b
	orb	%r14b, %r8b
	sete	%r8b
	testb	%r8b, %r9b
	movq	%rbx, %r8
	je	22b
	jmp	42b
60:
	movq	%r13, %rsi
	movq	%r15, %rdx
	vj_c_call	memmove
61:
	testq	%rbp, %rbp
	je	62f
	movq	%r13, %rdi
	vj_call	rattle_dealloc
62:
	pxor	%xmm0, %xmm0
	movdqa	%xmm0, 160(%rsp)
	movdqa	%xmm0, 144(%rsp)
	movq	184(%rsp), %rdx
	cmpq	$1, %rdx
	movq	120(%rsp), %rsi
	jne	63f
	cmpb	$45, (%rsi)
	jne	63f
	movl	$14, %edx
	leaq	.L1_x86_static.217(%rip), %rsi
63:
	leaq	144(%rsp), %rdi
	callq	b2sum_commands..quoting..quoted_name_1_x86
	movb	$1, %bpl
	cmpb	$0, 144(%rsp)
	jne	64f
	addq	%r15, %r14
	movq	152(%rsp), %r15
	movq	160(%rsp), %r8
	movq	128(%rsp), %rax
	movq	(%rax), %rdi
	movq	8(%rax), %rsi
	movq	168(%rsp), %r13
	leaq	.L1_x86_static.219(%rip), %rax
	movq	%rax, 8(%rsp)
	movq	%r14, (%rsp)
	movq	$14, 16(%rsp)
	movq	112(%rsp), %rdx
	movq	%r15, %rcx
	movq	%r12, %r9
	callq	b2sum_commands..messages..warn..068f3e307c5390f2_1_x86
	movl	%eax, %ebp
	testq	%r13, %r13
	je	64f
	movq	%r15, %rdi
	vj_call	rattle_dealloc
64:
	cmpq	$0, 72(%rsp)
	je	81f
	movq	%r12, %rdi
	jmp	80f
65:
	leaq	40(%rsp), %rdi
	movq	%rdx, %rbp
	movq	%rdx, %rsi
	callq	std_alloc..vec..Vec..grow_amortized..01eec35b572d02af_1_x86
	testb	%al, %al
	je	67f
	movq	40(%rsp), %rbx
	movq	48(%rsp), %r14
	movq	56(%rsp), %r13
	movq	%rbp, %rdx
	jmp	27b
66:
	leaq	40(%rsp), %rdi
	movl	$7, %esi
	callq	std_alloc..vec..Vec..grow_amortized..01eec35b572d02af_1_x86
	testb	%al, %al
	je	67f
	movq	40(%rsp), %rbx
	movq	48(%rsp), %r14
	movq	56(%rsp), %r13
	jmp	28b
67:
	cmpq	$0, 56(%rsp)
	je	82f
	movq	40(%rsp), %rdi
	vj_call	rattle_dealloc
	jmp	82f
68:
	leaq	40(%rsp), %rdi
	movq	%rdx, %r12
	movq	%rdx, %rsi
	callq	std_alloc..vec..Vec..grow_amortized..01eec35b572d02af_1_x86
	testb	%al, %al
	je	79f
	movq	40(%rsp), %r15
	movq	48(%rsp), %r14
	movq	56(%rsp), %rax
	movq	%r12, %rdx
	movq	%rax, %r12
	jmp	39b
69:
	leaq	40(%rsp), %rdi
	movl	$23, %esi
	callq	std_alloc..vec..Vec..grow_amortized..01eec35b572d02af_1_x86
	testb	%al, %al
	je	79f
	movq	40(%rsp), %r15
	movq	48(%rsp), %r14
	movq	56(%rsp), %r12
	jmp	40b
70:
	leaq	80(%rsp), %rdi
	movq	%r15, %rsi
	callq	std_alloc..vec..Vec..grow_amortized..01eec35b572d02af_1_x86
	testb	%al, %al
	je	71f
	movq	80(%rsp), %rbx
	movq	88(%rsp), %r13
	movq	96(%rsp), %r12
	jmp	48b
71:
	movb	$1, %bpl
	cmpq	$0, 96(%rsp)
	je	81f
	movq	80(%rsp), %rdi
	jmp	80f
72:
	cmpq	$32, %r15
	jae	73f
	xorl	%eax, %eax
	jmp	75f
73:
	movq	%r15, %rax
	andq	$-32, %rax
	leaq	(%r14,%r12), %rcx
	addq	$16, %rcx
	xorl	%edx, %edx
74:
	movdqu	(%r13,%rdx), %xmm0
	movups	16(%r13,%rdx), %xmm1
	movdqu	%xmm0, -16(%rcx,%rdx)
	movups	%xmm1, (%rcx,%rdx)
	addq	$32, %rdx
	cmpq	%rdx, %rax
	jne	74b
	cmpq	%rax, %r15
	je	61b
	testb	$28, %r15b
	je	54b
75:
	movq	%rax, %rcx
	movq	%r15, %rax
	andq	$-4, %rax
76:
	movl	(%r13,%rcx), %edx
	movl	%edx, (%rdi,%rcx)
	addq	$4, %rcx
	cmpq	%rcx, %rax
	jne	76b
	cmpq	%rax, %r15
	je	61b
	jmp	54b
77:
	leaq	40(%rsp), %rdi
	movq	%r15, %rsi
	callq	std_alloc..vec..Vec..grow_amortized..01eec35b572d02af_1_x86
	testb	%al, %al
	je	78f
	movq	48(%rsp), %r14
	movq	56(%rsp), %rax
	movq	%rax, 72(%rsp)
	jmp	52b
78:
	testq	%rbp, %rbp
	je	79f
	movq	%r13, %rdi
	vj_call	rattle_dealloc
79:
	movb	$1, %bpl
	cmpq	$0, 56(%rsp)
	je	81f
	movq	40(%rsp), %rdi
80:
	vj_call	rattle_dealloc
81:
	testb	%bpl, %bpl
	je	7b
82:
	movq	136(%rsp), %rax
	movw	$1, (%rax)
	pxor	%xmm0, %xmm0
	movdqu	%xmm0, 8(%rax)
	movdqu	%xmm0, 24(%rax)
	movdqu	%xmm0, 40(%rax)
	jmp	14b
	vj_end	b2sum_commands..check..check_line..82a450bcca081e63_1_x86

	vj_constants	16
	.p2align	4, 0x0
.L1_x86_CPI92_0:
	.byte	32
	.byte	45
	.byte	45
	.byte	97
	.byte	108
	.byte	103
	.byte	111
	.byte	114
	.byte	105
	.byte	116
	.byte	104
	.byte	109
	.byte	32
	.byte	98
	.byte	108
	.byte	97
	vj_function	b2sum_commands..line_needs..Lacks..push_options_1_x86
	pushq	%rbp
	pushq	%r15
	pushq	%r14
	pushq	%r13
	pushq	%r12
	pushq	%rbx
	subq	$56, %rsp
	movq	%rsi, %rbx
	movq	(%rdi), %r15
	movzbl	8(%rdi), %r12d
	movzbl	12(%rdi), %r14d
	movl	16(%rdi), %r13d
	movzbl	24(%rdi), %eax
	movb	%al, 15(%rsp)
	movq	32(%rdi), %rax
	movq	%rax, 16(%rsp)
	movw	%r15w, 28(%rsp)
	movl	%r15d, %eax
	shrl	$16, %eax
	movb	%al, 30(%rsp)
	leaq	.L1_x86_static.198(%rip), %rsi
	leaq	28(%rsp), %rcx
	movl	$1, %edx
	movq	%rbx, %rdi
	callq	b2sum_commands..line_needs..push_needs_options_1_x86
	movb	$1, %bpl
	testb	%al, %al
	jne	29f
	shrq	$24, %r15
	movw	%r15w, 24(%rsp)
	shrl	$16, %r15d
	movb	%r15b, 26(%rsp)
	leaq	.L1_x86_static.221(%rip), %rsi
	leaq	24(%rsp), %rcx
	movl	$4, %edx
	movq	%rbx, %rdi
	callq	b2sum_commands..line_needs..push_needs_options_1_x86
	testb	%al, %al
	jne	29f
	testb	%r12b, %r12b
	movq	16(%rsp), %rdx
	je	15f
	movq	8(%rbx), %r12
	movq	16(%rbx), %r15
	leaq	8(%rbx), %rdi
	movq	%r15, %rax
	subq	%r12, %rax
	movl	%r14d, %ecx
	leaq	.L1_x86_JTI92_0(%rip), %rsi
	movslq	(%rsi,%rcx,4), %rcx
	addq	%rsi, %rcx
	notrack	jmpq	*%rcx
1:
	cmpq	$19, %rax
	jbe	35f
2:
	movq	(%rbx), %rax
	xorps	%xmm0, %xmm0
	movups	%xmm0, (%rdi)
	leaq	(%rax,%r12), %rcx
	addq	$20, %r12
	leaq	.L1_x86_static.225(%rip), %rsi
	movq	%rcx, %rdi
	subq	%rsi, %rdi
	cmpq	$19, %rdi
	ja	18f
	movaps	.L1_x86_CPI92_0(%rip), %xmm0
	jmp	19f
3:
	cmpq	$7, %rax
	jbe	32f
4:
	movq	(%rbx), %rdi
	movabsq	$2334383524111265056, %rax
	movq	%rax, (%rdi,%r12)
	addq	$8, %r12
	movq	%rdi, (%rbx)
	movq	%r12, 8(%rbx)
	movq	%r15, 16(%rbx)
	xorps	%xmm0, %xmm0
	movaps	%xmm0, 32(%rsp)
	movl	$0, 48(%rsp)
	movl	$19, %r14d
	cmpl	$10, %r13d
	jb	12f
	.p2align	4
5:
	movl	%r13d, %ecx
	movl	$3435973837, %eax
	imulq	%rcx, %rax
	shrq	$35, %rax
	leal	(%rax,%rax), %ecx
	leal	(%rcx,%rcx,4), %ecx
	movl	%r13d, %edx
	subl	%ecx, %edx
	orb	$48, %dl
	movb	%dl, 32(%rsp,%r14)
	decq	%r14
	cmpq	$99, %r13
	movq	%rax, %r13
	ja	5b
	jmp	13f
6:
	cmpq	$20, %rax
	jbe	33f
7:
	movq	(%rbx), %rax
	xorps	%xmm0, %xmm0
	movups	%xmm0, (%rdi)
	leaq	(%rax,%r12), %rcx
	addq	$21, %r12
	leaq	.L1_x86_static.227(%rip), %rsi
	movq	%rcx, %rdi
	subq	%rsi, %rdi
	cmpq	$20, %rdi
	ja	16f
	movaps	.L1_x86_CPI92_0(%rip), %xmm0
	movups	%xmm0, (%rcx)
	movl	$1647469931, 16(%rcx)
	movb	$112, 20(%rcx)
	jmp	22f
8:
	cmpq	$20, %rax
	jbe	34f
9:
	movq	(%rbx), %rax
	xorps	%xmm0, %xmm0
	movups	%xmm0, (%rdi)
	leaq	(%rax,%r12), %rcx
	addq	$21, %r12
	leaq	.L1_x86_static.228(%rip), %rsi
	movq	%rcx, %rdi
	subq	%rsi, %rdi
	cmpq	$20, %rdi
	ja	17f
	movaps	.L1_x86_CPI92_0(%rip), %xmm0
	movups	%xmm0, (%rcx)
	movl	$1932682603, 16(%rcx)
	movb	$112, 20(%rcx)
	jmp	22f
10:
	cmpq	$19, %rax
	jbe	36f
11:
	movq	(%rbx), %rax
	xorps	%xmm0, %xmm0
	movups	%xmm0, (%rdi)
	leaq	(%rax,%r12), %rcx
	addq	$20, %r12
	leaq	.L1_x86_static.226(%rip), %rsi
	movq	%rcx, %rdi
	subq	%rsi, %rdi
	cmpq	$19, %rdi
	ja	20f
	movaps	.L1_x86_CPI92_0(%rip), %xmm0
	jmp	21f
12:
	movq	%r13, %rax
13:
	orb	$48, %al
	movb	%al, 32(%rsp,%r14)
	movl	$20, %edx
	subq	%r14, %rdx
	movq	%r15, %rax
	subq	%r12, %rax
	cmpq	%rax, %rdx
	ja	37f
14:
	leaq	(%rsp,%r14), %rsi
	addq	$32, %rsi
	movq	%rdi, %r14
	addq	%r12, %rdi
	addq	%rdx, %r12
	vj_c_call	memcpy
	movq	%r14, (%rbx)
	movq	%r12, 8(%rbx)
	movq	%r15, 16(%rbx)
	movq	16(%rsp), %rdx
15:
	cmpb	$1, 15(%rsp)
	je	23f
	jmp	28f
16:
	movups	.L1_x86_static.227(%rip), %xmm0
	movups	%xmm0, (%rcx)
	movabsq	$8098090491140205666, %rsi
	movq	%rsi, 13(%rcx)
	jmp	22f
17:
	movups	.L1_x86_static.228(%rip), %xmm0
	movups	%xmm0, (%rcx)
	movabsq	$8102875565744286818, %rsi
	movq	%rsi, 13(%rcx)
	jmp	22f
18:
	movups	.L1_x86_static.225(%rip), %xmm0
19:
	movups	%xmm0, (%rcx)
	movl	$1647469931, 16(%rcx)
	jmp	22f
20:
	movups	.L1_x86_static.226(%rip), %xmm0
21:
	movups	%xmm0, (%rcx)
	movl	$1932682603, 16(%rcx)
22:
	movq	%rax, (%rbx)
	movq	%r12, 8(%rbx)
	movq	%r15, 16(%rbx)
	cmpb	$1, 15(%rsp)
	jne	28f
23:
	movq	8(%rbx), %r15
	movq	16(%rbx), %r12
	movq	%r12, %rax
	subq	%r15, %rax
	cmpq	$9, %rax
	jbe	30f
24:
	movq	(%rbx), %r14
	leaq	(%r14,%r15), %rax
	addq	$10, %r15
	leaq	.L1_x86_static.230(%rip), %rcx
	movq	%rax, %rsi
	subq	%rcx, %rsi
	cmpq	$9, %rsi
	movabsq	$8387794212886490400, %rcx
	movq	%rcx, (%rax)
	movw	$8296, 8(%rax)
	movq	%r14, (%rbx)
	movq	%r15, 8(%rbx)
	movq	%r12, 16(%rbx)
	movq	%rdx, %rax
	shrq	$61, %rax
	shlq	$3, %rdx
	xorl	%ecx, %ecx
	negq	%rax
	sbbq	%rcx, %rcx
	orq	%rdx, %rcx
	xorps	%xmm0, %xmm0
	movaps	%xmm0, 32(%rsp)
	movl	$0, 48(%rsp)
	movl	$19, %r13d
	cmpq	$10, %rcx
	jb	26f
	.p2align	4
25:
	movabsq	$-3689348814741910323, %rdx
	movq	%rcx, %rax
	mulq	%rdx
	shrq	$3, %rdx
	leal	(%rdx,%rdx), %eax
	leal	(%rax,%rax,4), %eax
	movl	%ecx, %esi
	subl	%eax, %esi
	orb	$48, %sil
	movb	%sil, 32(%rsp,%r13)
	decq	%r13
	cmpq	$99, %rcx
	movq	%rdx, %rcx
	ja	25b
26:
	orb	$48, %dl
	movb	%dl, 32(%rsp,%r13)
	movl	$20, %edx
	subq	%r13, %rdx
	movq	%r12, %rax
	subq	%r15, %rax
	cmpq	%rax, %rdx
	ja	31f
27:
	leaq	(%rsp,%r13), %rsi
	addq	$32, %rsi
	leaq	(%r14,%r15), %rdi
	addq	%rdx, %r15
	vj_c_call	memcpy
	movq	%r14, (%rbx)
	movq	%r15, 8(%rbx)
	movq	%r12, 16(%rbx)
28:
	xorl	%ebp, %ebp
29:
	movl	%ebp, %eax
	addq	$56, %rsp
	popq	%rbx
	popq	%r12
	popq	%r13
	popq	%r14
	popq	%r15
	popq	%rbp
	retq
30:
	movl	$10, %esi
	movq	%rbx, %rdi
	callq	std_alloc..vec..Vec..grow_amortized..01eec35b572d02af_1_x86
	testb	%al, %al
	je	29b
	movq	8(%rbx), %r15
	movq	16(%rbx), %r12
	movq	16(%rsp), %rdx
	jmp	24b
31:
	movq	%rbx, %rdi
	movq	%rdx, 16(%rsp)
	movq	%rdx, %rsi
	callq	std_alloc..vec..Vec..grow_amortized..01eec35b572d02af_1_x86
	movb	$1, %bpl
	testb	%al, %al
	je	29b
	movq	(%rbx), %r14
	movq	8(%rbx), %r15
	movq	16(%rbx), %r12
	movq	16(%rsp), %rdx
	jmp	27b
32:
	movl	$8, %esi
	movq	%rbx, %rdi
	callq	std_alloc..vec..Vec..grow_amortized..01eec35b572d02af_1_x86
	testb	%al, %al
	je	29b
	movq	8(%rbx), %r12
	movq	16(%rbx), %r15
	jmp	4b
33:
	movq	%rdi, %r14
	movl	$21, %esi
	movq	%rbx, %rdi
	callq	std_alloc..vec..Vec..grow_amortized..01eec35b572d02af_1_x86
	testb	%al, %al
	je	29b
	movq	8(%rbx), %r12
	movq	16(%rbx), %r15
	movq	16(%rsp), %rdx
	movq	%r14, %rdi
	jmp	7b
34:
	movq	%rdi, %r14
	movl	$21, %esi
	movq	%rbx, %rdi
	callq	std_alloc..vec..Vec..grow_amortized..01eec35b572d02af_1_x86
	testb	%al, %al
	je	29b
	movq	8(%rbx), %r12
	movq	16(%rbx), %r15
	movq	16(%rsp), %rdx
	movq	%r14, %rdi
	jmp	9b
35:
	movq	%rdi, %r14
	movl	$20, %esi
	movq	%rbx, %rdi
	callq	std_alloc..vec..Vec..grow_amortized..01eec35b572d02af_1_x86
	testb	%al, %al
	je	29b
	movq	8(%rbx), %r12
	movq	16(%rbx), %r15
	movq	16(%rsp), %rdx
	movq	%r14, %rdi
	jmp	2b
36:
	movq	%rdi, %r14
	movl	$20, %esi
	movq	%rbx, %rdi
	callq	std_alloc..vec..Vec..grow_amortized..01eec35b572d02af_1_x86
	testb	%al, %al
	je	29b
	movq	8(%rbx), %r12
	movq	16(%rbx), %r15
	movq	16(%rsp), %rdx
	movq	%r14, %rdi
	jmp	11b
37:
	movq	%rbx, %rdi
	movq	%rdx, %r15
	movq	%rdx, %rsi
	callq	std_alloc..vec..Vec..grow_amortized..01eec35b572d02af_1_x86
	testb	%al, %al
	je	29b
	movq	(%rbx), %rdi
	movq	8(%rbx), %r12
	movq	16(%rbx), %rax
	movq	%r15, %rdx
	movq	%rax, %r15
	jmp	14b
	vj_end	b2sum_commands..line_needs..Lacks..push_options_1_x86

	vj_data	b2sum_commands..line_needs..Lacks..push_options_1_x86
	.p2align	2, 0x0
.L1_x86_JTI92_0:
	.long	1b-.L1_x86_JTI92_0
	.long	10b-.L1_x86_JTI92_0
	.long	6b-.L1_x86_JTI92_0
	.long	8b-.L1_x86_JTI92_0
	.long	3b-.L1_x86_JTI92_0

	vj_function	b2sum_commands..line_needs..push_needs_options_1_x86
	pushq	%rbp
	pushq	%r15
	pushq	%r14
	pushq	%r13
	pushq	%r12
	pushq	%rbx
	subq	$24, %rsp
	movq	%rdx, %r15
	movq	%rdi, %rbx
	movzbl	1(%rcx), %r8d
	movzbl	2(%rcx), %r14d
	testb	$1, (%rcx)
	je	5f
	movq	8(%rbx), %r13
	movq	16(%rbx), %rbp
	movq	%rbp, %rax
	subq	%r13, %rax
	cmpq	%rax, %r15
	ja	19f
1:
	leaq	8(%rbx), %rax
	movq	(%rbx), %r12
	xorps	%xmm0, %xmm0
	movups	%xmm0, (%rax)
	leaq	(%r12,%r13), %rdi
	addq	%r15, %r13
	movq	%rdi, %rax
	subq	%rsi, %rax
	cmpq	%r15, %rax
	jae	2f
	movzbl	(%rsi), %eax
	movb	%al, (%rdi)
	cmpq	$1, %r15
	je	3f
	movzbl	1(%rsi), %eax
	movb	%al, 1(%rdi)
	cmpq	$2, %r15
	je	3f
	movzbl	2(%rsi), %eax
	movb	%al, 2(%rdi)
	cmpq	$3, %r15
	je	3f
	movzbl	3(%rsi), %eax
	movb	%al, 3(%rdi)
	jmp	3f
2:
	movb	%r14b, 14(%rsp)
	movq	%r15, %rdx
	movq	%rsi, %r14
	movb	%r8b, 15(%rsp)
	vj_c_call	memmove
	movzbl	15(%rsp), %r8d
	movq	%r14, %rsi
	movzbl	14(%rsp), %r14d
3:
	movq	%r12, (%rbx)
	movq	%r13, 8(%rbx)
	movq	%rbp, 16(%rbx)
	movq	%rbp, %rax
	subq	%r13, %rax
	cmpq	$9, %rax
	jbe	21f
4:
	leaq	(%r12,%r13), %rax
	addq	$10, %r13
	leaq	.L1_x86_static.222(%rip), %rcx
	movq	%rax, %rdx
	subq	%rcx, %rdx
	cmpq	$9, %rdx
	movabsq	$7594807821022735661, %rcx
	movq	%rcx, (%rax)
	movw	$25964, 8(%rax)
	movq	%r12, (%rbx)
	movq	%r13, 8(%rbx)
	movq	%rbp, 16(%rbx)
5:
	testb	$1, %r8b
	je	12f
	movq	8(%rbx), %r12
	movq	16(%rbx), %r13
	movq	%r13, %rax
	subq	%r12, %rax
	cmpq	%rax, %r15
	ja	20f
6:
	leaq	8(%rbx), %rax
	movq	(%rbx), %rbp
	xorps	%xmm0, %xmm0
	movups	%xmm0, (%rax)
	leaq	(%r12,%rbp), %rdi
	addq	%r15, %r12
	movq	%rdi, %rax
	subq	%rsi, %rax
	cmpq	%r15, %rax
	jae	7f
	movzbl	(%rsi), %eax
	movb	%al, (%rdi)
	cmpq	$1, %r15
	je	8f
	movzbl	1(%rsi), %eax
	movb	%al, 1(%rdi)
	cmpq	$2, %r15
	je	8f
	movzbl	2(%rsi), %eax
	movb	%al, 2(%rdi)
	cmpq	$3, %r15
	je	8f
	movzbl	3(%rsi), %eax
	movb	%al, 3(%rdi)
	jmp	8f
7:
	movb	%r14b, 14(%rsp)
	movq	%r15, %rdx
	movq	%rsi, %r14
	vj_c_call	memmove
	movq	%r14, %rsi
	movzbl	14(%rsp), %r14d
8:
	movq	%rbp, (%rbx)
	movq	%r12, 8(%rbx)
	movq	%r13, 16(%rbx)
	movq	%r13, %rax
	subq	%r12, %rax
	cmpq	$5, %rax
	jbe	23f
9:
	leaq	(%r12,%rbp), %rax
	addq	$6, %r12
	leaq	.L1_x86_static.223(%rip), %rcx
	movq	%rax, %rdx
	subq	%rcx, %rdx
	cmpq	$5, %rdx
	ja	10f
	movl	$1634938157, (%rax)
	movw	$29804, 4(%rax)
	jmp	11f
10:
	movw	$29804, 4(%rax)
	movl	$1634938157, (%rax)
11:
	movq	%rbp, (%rbx)
	movq	%r12, 8(%rbx)
	movq	%r13, 16(%rbx)
12:
	testb	$1, %r14b
	je	17f
	movq	8(%rbx), %r12
	movq	16(%rbx), %r13
	movq	%r13, %rax
	subq	%r12, %rax
	cmpq	%rax, %r15
	ja	22f
13:
	leaq	8(%rbx), %rax
	movq	(%rbx), %rbp
	xorps	%xmm0, %xmm0
	movups	%xmm0, (%rax)
	leaq	(%r12,%rbp), %rdi
	addq	%r15, %r12
	movq	%rdi, %rax
	subq	%rsi, %rax
	cmpq	%r15, %rax
	jae	14f
	movzbl	(%rsi), %eax
	movb	%al, (%rdi)
	cmpq	$1, %r15
	je	15f
	movzbl	1(%rsi), %eax
	movb	%al, 1(%rdi)
	cmpq	$2, %r15
	je	15f
	movzbl	2(%rsi), %eax
	movb	%al, 2(%rdi)
	cmpq	$3, %r15
	je	15f
	movzbl	3(%rsi), %eax
	movb	%al, 3(%rdi)
	jmp	15f
14:
	movq	%r15, %rdx
	vj_c_call	memmove
15:
	movq	%rbp, (%rbx)
	movq	%r12, 8(%rbx)
	movq	%r13, 16(%rbx)
	movq	%r13, %rax
	subq	%r12, %rax
	cmpq	$9, %rax
	jbe	24f
16:
	leaq	(%r12,%rbp), %rax
	addq	$10, %r12
	leaq	.L1_x86_static.224(%rip), %rcx
	movq	%rax, %rdx
	subq	%rcx, %rdx
	cmpq	$9, %rdx
	movabsq	$7957706001752272173, %rcx
	movq	%rcx, (%rax)
	movw	$27745, 8(%rax)
	movq	%rbp, (%rbx)
	movq	%r12, 8(%rbx)
	movq	%r13, 16(%rbx)
17:
	xorl	%eax, %eax
18:
	addq	$24, %rsp
	popq	%rbx
	popq	%r12
	popq	%r13
	popq	%r14
	popq	%r15
	popq	%rbp
	retq
19:
	movb	%r8b, 15(%rsp)
	movq	%rsi, 16(%rsp)
	movl	%r14d, %r12d
	movq	%rbx, %rdi
	movq	%r15, %rsi
	callq	std_alloc..vec..Vec..grow_amortized..01eec35b572d02af_1_x86
	movl	%eax, %ecx
	movb	$1, %al
	testb	%cl, %cl
	je	18b
	movq	8(%rbx), %r13
	movq	16(%rbx), %rbp
	movl	%r12d, %r14d
	movq	16(%rsp), %rsi
	movzbl	15(%rsp), %r8d
	jmp	1b
20:
	movq	%rsi, 16(%rsp)
	movl	%r14d, %ebp
	movq	%rbx, %rdi
	movq	%r15, %rsi
	callq	std_alloc..vec..Vec..grow_amortized..01eec35b572d02af_1_x86
	movl	%eax, %ecx
	movb	$1, %al
	testb	%cl, %cl
	je	18b
	movq	8(%rbx), %r12
	movq	16(%rbx), %r13
	movl	%ebp, %r14d
	movq	16(%rsp), %rsi
	jmp	6b
21:
	movb	%r8b, 15(%rsp)
	movq	%rsi, 16(%rsp)
	movb	%r14b, 14(%rsp)
	movl	$10, %esi
	movq	%rbx, %rdi
	callq	std_alloc..vec..Vec..grow_amortized..01eec35b572d02af_1_x86
	movl	%eax, %ecx
	movb	$1, %al
	testb	%cl, %cl
	je	18b
	movq	(%rbx), %r12
	movq	8(%rbx), %r13
	movq	16(%rbx), %rbp
	movzbl	14(%rsp), %r14d
	movq	16(%rsp), %rsi
	movzbl	15(%rsp), %r8d
	jmp	4b
22:
	movq	%rsi, %r14
	movq	%rbx, %rdi
	movq	%r15, %rsi
	callq	std_alloc..vec..Vec..grow_amortized..01eec35b572d02af_1_x86
	movl	%eax, %ecx
	movb	$1, %al
	testb	%cl, %cl
	je	18b
	movq	8(%rbx), %r12
	movq	16(%rbx), %r13
	movq	%r14, %rsi
	jmp	13b
23:
	movq	%rsi, 16(%rsp)
	movb	%r14b, 14(%rsp)
	movl	$6, %esi
	movq	%rbx, %rdi
	callq	std_alloc..vec..Vec..grow_amortized..01eec35b572d02af_1_x86
	movl	%eax, %ecx
	movb	$1, %al
	testb	%cl, %cl
	je	18b
	movq	(%rbx), %rbp
	movq	8(%rbx), %r12
	movq	16(%rbx), %r13
	movzbl	14(%rsp), %r14d
	movq	16(%rsp), %rsi
	jmp	9b
24:
	movl	$10, %esi
	movq	%rbx, %rdi
	callq	std_alloc..vec..Vec..grow_amortized..01eec35b572d02af_1_x86
	movl	%eax, %ecx
	movb	$1, %al
	testb	%cl, %cl
	je	18b
	movq	(%rbx), %rbp
	movq	8(%rbx), %r12
	movq	16(%rbx), %r13
	jmp	16b
	vj_end	b2sum_commands..line_needs..push_needs_options_1_x86

	vj_function	b2sum_commands..check..end_manifest..068f3e307c5390f2_1_x86
	pushq	%rbp
	pushq	%r15
	pushq	%r14
	pushq	%r13
	pushq	%r12
	pushq	%rbx
	subq	$216, %rsp
	movq	%rdx, %rbp
	movq	%rdi, %r14
	cmpb	$1, (%r9)
	jne	4f
	movq	16(%r9), %r12
	movq	24(%r9), %r13
	movq	48(%r9), %r15
	movq	8(%r9), %rbx
	movq	%rbx, %rax
	orq	%r12, %rax
	movq	32(%r9), %rdx
	orq	%r13, %rdx
	orq	%rax, %rdx
	orq	%r15, %rdx
	jne	7f
	xorps	%xmm0, %xmm0
	movaps	%xmm0, 64(%rsp)
	movaps	%xmm0, 48(%rsp)
	cmpq	$1, %r8
	jne	1f
	cmpb	$45, (%rcx)
	jne	1f
	movl	$14, %r8d
	leaq	.L1_x86_static.217(%rip), %rcx
1:
	leaq	48(%rsp), %rdi
	movq	%rcx, %rsi
	movq	%r8, %rdx
	callq	b2sum_commands..quoting..quoted_name_1_x86
	cmpb	$0, 48(%rsp)
	jne	16f
	movq	56(%rsp), %r15
	movq	64(%rsp), %r8
	movq	(%r14), %rdi
	movq	8(%r14), %rsi
	movq	72(%rsp), %r14
	leaq	.L1_x86_static.1(%rip), %rax
	movq	%rax, 8(%rsp)
	movq	$0, 16(%rsp)
	movq	$44, (%rsp)
	leaq	.L1_x86_static.232(%rip), %r9
	movq	%rbp, %rdx
	movq	%r15, %rcx
	callq	b2sum_commands..messages..warn..068f3e307c5390f2_1_x86
	movl	%eax, %ebx
	testq	%r14, %r14
	je	2f
	movq	%r15, %rdi
	vj_call	rattle_dealloc
2:
	movb	$1, %bpl
3:
	xorl	%edx, %edx
	testb	%bl, %bl
	jne	21f
	jmp	20f
4:
	xorps	%xmm0, %xmm0
	movaps	%xmm0, 64(%rsp)
	movaps	%xmm0, 48(%rsp)
	cmpq	$1, %r8
	jne	5f
	cmpb	$45, (%rcx)
	jne	5f
	movl	$14, %r8d
	leaq	.L1_x86_static.217(%rip), %rcx
5:
	leaq	48(%rsp), %rdi
	movq	%rcx, %rsi
	movq	%r8, %rdx
	callq	b2sum_commands..quoting..quoted_name_1_x86
	cmpb	$0, 48(%rsp)
	jne	16f
	movq	56(%rsp), %r15
	movq	64(%rsp), %r8
	movq	(%r14), %rdi
	movq	8(%r14), %rsi
	movq	72(%rsp), %r14
	leaq	.L1_x86_static.231(%rip), %rax
	movq	%rax, 8(%rsp)
	movq	$10, 16(%rsp)
	movq	$2, (%rsp)
	leaq	.L1_x86_static.123(%rip), %r9
	movq	%rbp, %rdx
	movq	%r15, %rcx
	callq	b2sum_commands..messages..warn..068f3e307c5390f2_1_x86
	movl	%eax, %ebx
	testq	%r14, %r14
	je	6f
	movq	%r15, %rdi
	vj_call	rattle_dealloc
6:
	testb	%bl, %bl
	jne	16f
	jmp	19f
7:
	movq	%rbp, 40(%rsp)
	movq	40(%r9), %r10
	cmpb	$3, 208(%rsi)
	jne	10f
8:
	testq	%rbx, %rbx
	setne	%al
	orq	%r13, %r12
	sete	%cl
	testb	%al, %cl
	je	19f
9:
	cmpb	$0, 210(%rsi)
	cmoveq	%r15, %r10
	testq	%r15, %r15
	cmovneq	%r15, %r10
	testq	%r10, %r10
	sete	%dl
	jmp	20f
10:
	movq	%rsi, 168(%rsp)
	movq	%rcx, 128(%rsp)
	movq	%r8, 120(%rsp)
	addq	$56, %r9
	movups	(%r9), %xmm0
	movups	16(%r9), %xmm1
	movaps	%xmm0, 48(%rsp)
	movaps	%xmm1, 64(%rsp)
	movq	32(%r9), %rax
	movq	%rax, 80(%rsp)
	testq	%r15, %r15
	movq	%r10, 112(%rsp)
	je	11f
	leaq	39(%rsp), %rax
	movq	%rax, 136(%rsp)
	xorps	%xmm0, %xmm0
	movups	%xmm0, 144(%rsp)
	leaq	48(%rsp), %rdi
	leaq	136(%rsp), %rsi
	callq	b2sum_commands..line_needs..Lacks..push_options_1_x86
	testb	%al, %al
	je	12f
	cmpq	$0, 152(%rsp)
	je	16f
	movq	136(%rsp), %rdi
	vj_call	rattle_dealloc
	jmp	16f
11:
	movq	40(%rsp), %rbp
	jmp	18f
12:
	movq	136(%rsp), %rax
	movq	%rax, 104(%rsp)
	movq	144(%rsp), %rax
	movq	%rax, 96(%rsp)
	xorps	%xmm0, %xmm0
	movaps	%xmm0, 192(%rsp)
	movaps	%xmm0, 176(%rsp)
	movq	120(%rsp), %rdx
	cmpq	$1, %rdx
	movq	128(%rsp), %rsi
	jne	13f
	cmpb	$45, (%rsi)
	jne	13f
	movl	$14, %edx
	leaq	.L1_x86_static.217(%rip), %rsi
13:
	leaq	176(%rsp), %rdi
	callq	b2sum_commands..quoting..quoted_name_1_x86
	movb	$1, %bpl
	cmpb	$0, 176(%rsp)
	jne	14f
	movq	184(%rsp), %rcx
	movq	192(%rsp), %r8
	movq	(%r14), %rdi
	movq	8(%r14), %rsi
	movq	200(%rsp), %rax
	movq	%rax, 160(%rsp)
	movq	96(%rsp), %rax
	movq	%rax, 16(%rsp)
	movq	104(%rsp), %rax
	movq	%rax, 8(%rsp)
	movq	$12, (%rsp)
	leaq	.L1_x86_static.233(%rip), %r9
	movq	40(%rsp), %rdx
	movq	%rcx, 96(%rsp)
	callq	b2sum_commands..messages..warn..068f3e307c5390f2_1_x86
	movl	%eax, %ebp
	cmpq	$0, 160(%rsp)
	je	14f
	movq	96(%rsp), %rdi
	vj_call	rattle_dealloc
14:
	cmpq	$0, 152(%rsp)
	je	15f
	movq	104(%rsp), %rdi
	vj_call	rattle_dealloc
15:
	testb	%bpl, %bpl
	movq	40(%rsp), %rbp
	movq	112(%rsp), %r10
	je	18f
16:
	movb	$1, %bpl
17:
	xorl	%edx, %edx
	jmp	21f
18:
	movq	$31, (%rsp)
	leaq	.L1_x86_static.234(%rip), %rcx
	leaq	.L1_x86_static.235(%rip), %r9
	movl	$29, %r8d
	movq	%r14, %rdi
	movq	%rbp, %rsi
	movq	%r10, %rdx
	callq	b2sum_commands..messages..warn_of_count..068f3e307c5390f2_1_x86
	movq	%rbp, %rdx
	movb	$1, %bpl
	testb	%al, %al
	jne	17b
	movq	$25, (%rsp)
	leaq	.L1_x86_static.236(%rip), %rcx
	leaq	.L1_x86_static.237(%rip), %r9
	movl	$25, %r8d
	movq	%r14, %rdi
	movq	%rdx, %rsi
	movq	%r15, %rdx
	callq	b2sum_commands..messages..warn_of_count..068f3e307c5390f2_1_x86
	testb	%al, %al
	jne	17b
	movq	$31, (%rsp)
	leaq	.L1_x86_static.238(%rip), %rcx
	leaq	.L1_x86_static.239(%rip), %r9
	movl	$30, %r8d
	movq	%r14, %rdi
	movq	40(%rsp), %rsi
	movq	%r13, %rdx
	callq	b2sum_commands..messages..warn_of_count..068f3e307c5390f2_1_x86
	testb	%al, %al
	jne	17b
	movq	$33, (%rsp)
	leaq	.L1_x86_static.240(%rip), %rcx
	leaq	.L1_x86_static.241(%rip), %r9
	movl	$32, %r8d
	movq	%r14, %rdi
	movq	40(%rsp), %rsi
	movq	%r12, %rdx
	callq	b2sum_commands..messages..warn_of_count..068f3e307c5390f2_1_x86
	testb	%al, %al
	jne	17b
	movq	168(%rsp), %rsi
	cmpb	$1, 207(%rsi)
	movq	120(%rsp), %rdx
	movq	128(%rsp), %rax
	movq	112(%rsp), %r10
	jne	8b
	testq	%rbx, %rbx
	je	22f
	orq	%r13, %r12
	je	9b
19:
	xorl	%edx, %edx
20:
	xorl	%ebp, %ebp
21:
	movl	%ebp, %eax
	addq	$216, %rsp
	popq	%rbx
	popq	%r12
	popq	%r13
	popq	%r14
	popq	%r15
	popq	%rbp
	retq
22:
	xorps	%xmm0, %xmm0
	movaps	%xmm0, 64(%rsp)
	movaps	%xmm0, 48(%rsp)
	cmpq	$1, %rdx
	jne	23f
	cmpb	$45, (%rax)
	jne	23f
	movl	$14, %edx
	leaq	.L1_x86_static.217(%rip), %rax
23:
	leaq	48(%rsp), %rdi
	movq	%rax, %rsi
	callq	b2sum_commands..quoting..quoted_name_1_x86
	cmpb	$0, 48(%rsp)
	jne	17b
	movq	56(%rsp), %r15
	movq	64(%rsp), %r8
	movq	(%r14), %rdi
	movq	8(%r14), %rsi
	movq	72(%rsp), %r14
	leaq	.L1_x86_static.1(%rip), %rax
	movq	%rax, 8(%rsp)
	movq	$0, 16(%rsp)
	movq	$22, (%rsp)
	leaq	.L1_x86_static.242(%rip), %r9
	movq	40(%rsp), %rdx
	movq	%r15, %rcx
	callq	b2sum_commands..messages..warn..068f3e307c5390f2_1_x86
	movl	%eax, %ebx
	testq	%r14, %r14
	je	3b
	movq	%r15, %rdi
	vj_call	rattle_dealloc
	jmp	3b
	vj_end	b2sum_commands..check..end_manifest..068f3e307c5390f2_1_x86

	vj_function	b2sum_commands..messages..warn_of_count..068f3e307c5390f2_1_x86
	testq	%rdx, %rdx
	je	5f
	pushq	%rbp
	pushq	%r15
	pushq	%r14
	pushq	%r13
	pushq	%r12
	pushq	%rbx
	subq	$136, %rsp
	movq	%rdx, %rbx
	movq	%rsi, %r15
	movq	%rcx, 104(%rsp)
	movq	%rdi, 112(%rsp)
	movq	%r8, 120(%rsp)
	movq	%r9, 128(%rsp)
	leaq	39(%rsp), %rax
	movq	%rax, %rdi
	movq	%rax, 40(%rsp)
	xorps	%xmm0, %xmm0
	movups	%xmm0, 48(%rsp)
	movaps	%xmm0, 64(%rsp)
	movl	$0, 80(%rsp)
	movl	$19, %ebp
	cmpq	$10, %rdx
	jb	2f
	movq	%rbx, %rcx
	.p2align	4
1:
	movabsq	$-3689348814741910323, %rdx
	movq	%rcx, %rax
	mulq	%rdx
	shrq	$3, %rdx
	leal	(%rdx,%rdx), %eax
	leal	(%rax,%rax,4), %eax
	movl	%ecx, %esi
	subl	%eax, %esi
	orb	$48, %sil
	movb	%sil, 64(%rsp,%rbp)
	decq	%rbp
	cmpq	$99, %rcx
	movq	%rdx, %rcx
	ja	1b
2:
	orb	$48, %dl
	movb	%dl, 64(%rsp,%rbp)
	movl	$20, %r12d
	subq	%rbp, %r12
	movq	48(%rsp), %r14
	movq	56(%rsp), %r13
	movq	%r13, %rax
	subq	%r14, %rax
	cmpq	%rax, %r12
	ja	6f
3:
	movq	%r15, 96(%rsp)
	movq	192(%rsp), %r15
	leaq	(%rsp,%rbp), %rsi
	addq	$64, %rsi
	movq	%rdi, %rbp
	addq	%r14, %rdi
	addq	%r12, %r14
	movq	%r12, %rdx
	vj_c_call	memcpy
	cmpq	$1, %rbx
	movq	128(%rsp), %rax
	cmoveq	104(%rsp), %rax
	cmoveq	120(%rsp), %r15
	movq	112(%rsp), %rcx
	movq	(%rcx), %rdi
	movq	8(%rcx), %rsi
	movq	%r15, 16(%rsp)
	movq	%rax, 8(%rsp)
	movq	%r14, (%rsp)
	leaq	.L1_x86_static.176(%rip), %rcx
	movl	$9, %r8d
	movq	96(%rsp), %rdx
	movq	%rbp, %r9
	callq	b2sum_commands..messages..warn..068f3e307c5390f2_1_x86
	testq	%r13, %r13
	je	4f
	movq	%rbp, %rdi
	movl	%eax, %ebx
	vj_call	rattle_dealloc
	movl	%ebx, %eax
4:
	addq	$136, %rsp
	popq	%rbx
	popq	%r12
	popq	%r13
	popq	%r14
	popq	%r15
	popq	%rbp
	retq
5:
	xorl	%eax, %eax
	retq
6:
	leaq	40(%rsp), %rdi
	movq	%r12, %rsi
	callq	std_alloc..vec..Vec..grow_amortized..01eec35b572d02af_1_x86
	testb	%al, %al
	je	7f
	movq	40(%rsp), %rdi
	movq	48(%rsp), %r14
	movq	56(%rsp), %r13
	jmp	3b
7:
	movb	$1, %al
	cmpq	$0, 56(%rsp)
	je	4b
	movq	40(%rsp), %rdi
	vj_call	rattle_dealloc
	movb	$1, %al
	jmp	4b
	vj_end	b2sum_commands..messages..warn_of_count..068f3e307c5390f2_1_x86

	vj_function	b2sum_commands..folder_checks..has_all..82a450bcca081e63_1_x86
	pushq	%rbp
	pushq	%r15
	pushq	%r14
	pushq	%r13
	pushq	%r12
	pushq	%rbx
	subq	$664, %rsp
	movq	%rdx, 96(%rsp)
	pxor	%xmm0, %xmm0
	movdqa	%xmm0, 112(%rsp)
	movq	$0, 128(%rsp)
	movdqa	%xmm0, 480(%rsp)
	movdqa	%xmm0, 496(%rsp)
	movdqa	%xmm0, 512(%rsp)
	movdqa	%xmm0, 528(%rsp)
	movdqa	%xmm0, 544(%rsp)
	movq	$0, 560(%rsp)
	movdqa	%xmm0, 448(%rsp)
	movq	$0, 464(%rsp)
	movdqa	%xmm0, 416(%rsp)
	movq	$0, 432(%rsp)
	movdqa	%xmm0, 384(%rsp)
	movq	$0, 400(%rsp)
	movdqa	%xmm0, 352(%rsp)
	movq	$0, 368(%rsp)
	movdqa	%xmm0, 320(%rsp)
	movq	$0, 336(%rsp)
	movdqa	%xmm0, 288(%rsp)
	movq	$0, 304(%rsp)
	cmpq	$0, 152(%rsi)
	je	19f
	movq	%rdi, 184(%rsp)
	movq	%rsi, 32(%rsp)
	movq	720(%rsp), %r13
	leaq	64(%rsp), %r12
	movq	%r12, 144(%rsp)
	movdqu	%xmm0, 152(%rsp)
	testq	%r13, %r13
	je	20f
	movq	%r9, %r15
	movl	%r8d, %ebx
	movl	%ecx, %ebp
	movq	32(%rsp), %r12
	jmp	3f
	.p2align	4
1:
	movq	32(%rsp), %r12
2:
	testq	%r13, %r13
	je	27f
3:
	movq	%r15, %r8
	movq	%r13, %r9
	incq	%r15
	xorl	%eax, %eax
	.p2align	4
4:
	cmpb	$10, -1(%r15)
	je	5f
	incq	%rax
	incq	%r15
	cmpq	%rax, %r9
	jne	4b
	leaq	.L1_x86_static.1(%rip), %r15
	xorl	%r13d, %r13d
	jmp	6f
	.p2align	4
5:
	movq	%rax, %r13
	notq	%r13
	addq	%r9, %r13
	movq	%rax, %r9
6:
	pxor	%xmm0, %xmm0
	movdqa	%xmm0, 640(%rsp)
	movdqa	%xmm0, 624(%rsp)
	movdqa	%xmm0, 608(%rsp)
	movdqa	%xmm0, 592(%rsp)
	movdqa	%xmm0, 576(%rsp)
	movzbl	%bpl, %edx
	testq	%r9, %r9
	je	10f
	cmpb	$35, (%r8)
	je	10f
	leaq	-1(%r9), %rsi
	cmpb	$13, -1(%r8,%r9)
	cmovneq	%r9, %rsi
	testq	%rsi, %rsi
	movq	%r8, %r10
	cmoveq	%rsi, %r10
	je	10f
	movzbl	(%r12), %ecx
	movl	4(%r12), %eax
	movdqa	%xmm0, 272(%rsp)
	movdqa	%xmm0, 256(%rsp)
	movdqa	%xmm0, 240(%rsp)
	movdqa	%xmm0, 224(%rsp)
	movdqa	%xmm0, 208(%rsp)
	movq	%rsi, %r11
	negq	%r11
	xorl	%edi, %edi
	jmp	8f
	.p2align	4
7:
	incq	%rdi
	movq	%r11, %r14
	addq	%rdi, %r14
	je	9f
8:
	movzbl	(%r8,%rdi), %r12d
	cmpl	$32, %r12d
	je	7b
	cmpl	$9, %r12d
	je	7b
	movq	%rdi, %r11
	subq	%rsi, %r11
	je	9f
	movl	%edx, %r14d
	movq	%r9, 56(%rsp)
	movq	%r8, 40(%rsp)
	cmpb	$92, %r12b
	jne	14f
	leaq	(%r10,%rdi), %r9
	incq	%r9
	notq	%rdi
	addq	%rsi, %rdi
	movq	%rdi, (%rsp)
	movzbl	%cl, %esi
	leaq	208(%rsp), %rdi
	movl	%eax, %edx
	movl	%r14d, %ecx
	movl	$1, %r8d
	jmp	15f
9:
	movq	32(%rsp), %r12
	.p2align	4
10:
	movzbl	%bl, %ecx
	leaq	576(%rsp), %rdi
	movq	%r12, %rsi
	callq	b2sum_commands..check..read_item_1_x86
	cmpb	$0, 576(%rsp)
	jne	21f
	cmpb	$1, 584(%rsp)
	jne	2b
	movzbl	648(%rsp), %eax
	leal	-1(%rax), %ecx
	cmpl	$2, %ecx
	jae	11f
	movb	$1, %bpl
	jmp	12f
	.p2align	4
11:
	testl	%eax, %eax
	je	12f
	movb	$2, %bpl
12:
	movq	624(%rsp), %r14
	movq	640(%rsp), %r12
	cmpq	$0, 616(%rsp)
	je	13f
	movq	600(%rsp), %rdi
	vj_call	rattle_dealloc
13:
	testq	%r12, %r12
	je	1b
	movq	%r14, %rdi
	vj_call	rattle_dealloc
	jmp	1b
14:
	addq	%rdi, %r10
	negq	%r11
	movq	%r11, (%rsp)
	movzbl	%cl, %esi
	leaq	208(%rsp), %rdi
	movl	%eax, %edx
	movl	%r14d, %ecx
	xorl	%r8d, %r8d
	movq	%r10, %r9
15:
	callq	b2sum_lines..reads..read_body_1_x86
	cmpb	$0, 208(%rsp)
	movq	40(%rsp), %r8
	movq	56(%rsp), %r9
	movq	32(%rsp), %r12
	jne	87f
	cmpb	$1, 216(%rsp)
	movl	%r14d, %edx
	jne	10b
	movq	256(%rsp), %rdi
	movq	272(%rsp), %rax
	movq	%rax, 80(%rsp)
	movdqu	264(%rsp), %xmm0
	cmpq	$0, 248(%rsp)
	je	16f
	movq	%rdi, 48(%rsp)
	movq	232(%rsp), %rdi
	movdqa	%xmm0, 192(%rsp)
	vj_call	rattle_dealloc
	movdqa	192(%rsp), %xmm0
	movq	48(%rsp), %rdi
	movl	%r14d, %edx
	movq	56(%rsp), %r9
	movq	40(%rsp), %r8
16:
	movq	152(%rsp), %rax
	cmpq	%rax, 160(%rsp)
	je	18f
17:
	movq	144(%rsp), %rcx
	leaq	(%rax,%rax,2), %rsi
	movq	%rdi, (%rcx,%rsi,8)
	movdqu	%xmm0, 8(%rcx,%rsi,8)
	incq	%rax
	movq	%rax, 152(%rsp)
	jmp	10b
18:
	movdqa	%xmm0, 192(%rsp)
	movq	%rdi, 48(%rsp)
	leaq	144(%rsp), %rdi
	movl	$1, %esi
	callq	std_alloc..vec..Vec..grow_amortized..bb23d2d2a8e2d2e5_1_x86
	testb	%al, %al
	je	86f
	movq	152(%rsp), %rax
	movq	40(%rsp), %r8
	movq	56(%rsp), %r9
	movl	%r14d, %edx
	movq	48(%rsp), %rdi
	movdqa	192(%rsp), %xmm0
	jmp	17b
19:
	movb	$1, %r14b
	jmp	71f
20:
	xorl	%r15d, %r15d
	xorl	%r13d, %r13d
	jmp	28f
21:
	movzbl	577(%rsp), %ebp
22:
	movq	144(%rsp), %rbx
	movq	152(%rsp), %r15
	movq	160(%rsp), %r14
	testq	%r15, %r15
	je	25f
	leaq	16(%rbx), %r12
	jmp	24f
	.p2align	4
23:
	addq	$24, %r12
	decq	%r15
	je	25f
24:
	cmpq	$0, (%r12)
	je	23b
	movq	-16(%r12), %rdi
	vj_call	rattle_dealloc
	jmp	23b
25:
	testq	%r14, %r14
	je	26f
	movq	%rbx, %rdi
	vj_call	rattle_dealloc
26:
	movb	$1, %al
	movl	%ebp, %r14d
	jmp	72f
27:
	movq	144(%rsp), %r12
	movq	152(%rsp), %r13
	movq	160(%rsp), %r15
28:
	movq	%r12, %rdi
	movq	%r13, %rsi
	callq	std_alloc..vec..Vec..sort_unstable..6c2966b20b9e9cac_1_x86
	movq	32(%rsp), %rax
	movq	144(%rax), %rcx
	movq	152(%rax), %r8
	leaq	480(%rsp), %rdi
	movq	184(%rsp), %rsi
	movq	96(%rsp), %rbx
	movq	%rbx, %rdx
	callq	b2sum_commands..folders..walk..82a450bcca081e63_1_x86
	cmpb	$0, 480(%rsp)
	je	32f
	movzbl	481(%rsp), %r14d
	testq	%r13, %r13
	je	31f
	leaq	16(%r12), %rbx
	jmp	30f
	.p2align	4
29:
	addq	$24, %rbx
	decq	%r13
	je	31f
30:
	cmpq	$0, (%rbx)
	je	29b
	movq	-16(%rbx), %rdi
	vj_call	rattle_dealloc
	jmp	29b
31:
	movb	$1, %al
	testq	%r15, %r15
	je	72f
	movq	%r12, %rdi
	vj_call	rattle_dealloc
	movb	$1, %al
	jmp	72f
32:
	movq	%r15, 88(%rsp)
	movq	488(%rsp), %rax
	movq	%rax, 104(%rsp)
	movq	496(%rsp), %rax
	movq	%rax, 80(%rsp)
	movq	504(%rsp), %rax
	movq	%rax, 168(%rsp)
	movq	536(%rsp), %rbp
	movq	544(%rsp), %r15
	movq	552(%rsp), %rax
	movq	%rax, 176(%rsp)
	movzbl	560(%rsp), %eax
	movb	%al, 31(%rsp)
	movdqa	512(%rsp), %xmm0
	movdqa	%xmm0, 112(%rsp)
	movq	528(%rsp), %rax
	movq	%rax, 128(%rsp)
	movq	120(%rsp), %r8
	subq	%r8, %rax
	cmpq	%rax, %r15
	ja	66f
	testq	%r15, %r15
	je	34f
33:
	movq	112(%rsp), %r14
	leaq	(,%r8,8), %rax
	leaq	(%rax,%rax,2), %rax
	leaq	(%r14,%rax), %rdi
	leaq	(,%r15,8), %rcx
	leaq	(%rcx,%rcx,2), %rdx
	movq	%rdi, %rcx
	subq	%rbp, %rcx
	cmpq	%rdx, %rcx
	jae	35f
	leaq	-1(%r15), %rdx
	movl	%r15d, %ecx
	andl	$7, %ecx
	cmpq	$7, %rdx
	jae	36f
	xorl	%edx, %edx
	jmp	38f
34:
	movq	112(%rsp), %r14
	jmp	41f
35:
	movq	%rbp, %rsi
	movq	%r14, 48(%rsp)
	movq	%r8, %r14
	vj_c_call	memmove
	movq	%r14, %r8
	movq	48(%rsp), %r14
	jmp	40f
36:
	movq	%r8, %r10
	movq	%r15, %rsi
	andq	$-8, %rsi
	movl	$168, %r8d
	xorl	%edx, %edx
	.p2align	4
37:
	movups	-168(%rbp,%r8), %xmm0
	movq	-152(%rbp,%r8), %r9
	movq	%r9, -152(%rdi,%r8)
	movups	%xmm0, -168(%rdi,%r8)
	movups	-144(%rbp,%r8), %xmm0
	movq	-128(%rbp,%r8), %r9
	movq	%r9, -128(%rdi,%r8)
	movups	%xmm0, -144(%rdi,%r8)
	movups	-120(%rbp,%r8), %xmm0
	movq	-104(%rbp,%r8), %r9
	movq	%r9, -104(%rdi,%r8)
	movups	%xmm0, -120(%rdi,%r8)
	movups	-96(%rbp,%r8), %xmm0
	movq	-80(%rbp,%r8), %r9
	movq	%r9, -80(%rdi,%r8)
	movups	%xmm0, -96(%rdi,%r8)
	movups	-72(%rbp,%r8), %xmm0
	movq	-56(%rbp,%r8), %r9
	movq	%r9, -56(%rdi,%r8)
	movups	%xmm0, -72(%rdi,%r8)
	movups	-48(%rbp,%r8), %xmm0
	movq	-32(%rbp,%r8), %r9
	movq	%r9, -32(%rdi,%r8)
	movups	%xmm0, -48(%rdi,%r8)
	movups	-24(%rbp,%r8), %xmm0
	movq	-8(%rbp,%r8), %r9
	movq	%r9, -8(%rdi,%r8)
	movups	%xmm0, -24(%rdi,%r8)
	movdqu	(%rbp,%r8), %xmm0
	movq	16(%rbp,%r8), %r9
	movq	%r9, 16(%rdi,%r8)
	movdqu	%xmm0, (%rdi,%r8)
	addq	$8, %rdx
	addq	$192, %r8
	cmpq	%rdx, %rsi
	jne	37b
	testq	%rcx, %rcx
	movq	%r10, %r8
	je	40f
38:
	shlq	$3, %rdx
	leaq	(%rdx,%rdx,2), %rsi
	leaq	(%rsi,%rbp), %rdx
	addq	%rsi, %rax
	addq	%r14, %rax
	shll	$3, %ecx
	leaq	(%rcx,%rcx,2), %rcx
	xorl	%esi, %esi
	.p2align	4
39:
	movdqu	(%rdx,%rsi), %xmm0
	movq	16(%rdx,%rsi), %rdi
	movq	%rdi, 16(%rax,%rsi)
	movdqu	%xmm0, (%rax,%rsi)
	addq	$24, %rsi
	cmpq	%rsi, %rcx
	jne	39b
40:
	addq	%r15, %r8
	movq	%r8, 120(%rsp)
41:
	movq	%r8, 40(%rsp)
	movq	%r14, %rdi
	movq	%r8, %rsi
	callq	std_alloc..vec..Vec..sort_unstable..6c2966b20b9e9cac_1_x86
	movq	40(%rsp), %rcx
	testq	%rcx, %rcx
	movq	88(%rsp), %r15
	je	56f
	addq	$224, %rbx
	testq	%r13, %r13
	je	58f
	movq	%rbp, 72(%rsp)
	movq	%rbx, 96(%rsp)
	movb	$1, %al
	movl	%eax, 56(%rsp)
	xorl	%r15d, %r15d
	movq	%r14, 48(%rsp)
	jmp	44f
	.p2align	4
42:
	testb	%r14b, %r14b
	jne	63f
43:
	cmpb	$1, %bpl
	sete	%al
	movl	56(%rsp), %ecx
	andb	%al, %cl
	movl	%ecx, 56(%rsp)
	incq	%r15
	cmpq	40(%rsp), %r15
	movq	48(%rsp), %r14
	je	57f
44:
	leaq	(%r15,%r15,2), %rax
	movq	(%r14,%rax,8), %rbx
	movq	8(%r14,%rax,8), %r14
	xorl	%eax, %eax
	cmpq	$1, %r13
	je	55f
	movq	%r13, %rcx
	jmp	47f
	.p2align	4
45:
	cmpq	%r14, %rdi
	setae	%r8b
	addb	%r8b, %r8b
	cmpq	%r14, %rdi
	movzbl	%r8b, %r8d
	movl	$1, %edi
	cmovnel	%r8d, %edi
46:
	cmpb	$2, %dil
	cmovneq	%rsi, %rax
	subq	%rdx, %rcx
	cmpq	$1, %rcx
	jbe	54f
47:
	movq	%rcx, %rdx
	shrq	%rdx
	leaq	(%rdx,%rax), %rsi
	leaq	(%rsi,%rsi,2), %rdi
	movq	(%r12,%rdi,8), %r8
	movq	8(%r12,%rdi,8), %rdi
	cmpq	%rdi, %r14
	movq	%rdi, %r9
	cmovbq	%r14, %r9
	xorl	%r10d, %r10d
	cmpq	$64, %r9
	jb	49f
	movq	%r9, %r11
	.p2align	4
48:
	movdqu	(%r8,%r10), %xmm0
	movdqu	16(%r8,%r10), %xmm1
	movdqu	32(%r8,%r10), %xmm2
	movdqu	48(%r8,%r10), %xmm3
	movdqu	(%rbx,%r10), %xmm4
	pcmpeqb	%xmm0, %xmm4
	movdqu	16(%rbx,%r10), %xmm0
	pcmpeqb	%xmm1, %xmm0
	movdqu	32(%rbx,%r10), %xmm1
	pcmpeqb	%xmm2, %xmm1
	pand	%xmm4, %xmm1
	movdqu	48(%rbx,%r10), %xmm2
	pcmpeqb	%xmm3, %xmm2
	pand	%xmm0, %xmm2
	pand	%xmm1, %xmm2
	pmovmskb	%xmm2, %ebp
	cmpl	$65535, %ebp
	jne	49f
	addq	$64, %r10
	addq	$-64, %r11
	cmpq	$63, %r11
	ja	48b
49:
	movq	%r9, %r11
	subq	%r10, %r11
	cmpq	$8, %r11
	jb	51f
	.p2align	4
50:
	movq	(%r8,%r10), %rbp
	cmpq	(%rbx,%r10), %rbp
	jne	51f
	addq	$8, %r10
	addq	$-8, %r11
	cmpq	$7, %r11
	ja	50b
51:
	cmpq	%r9, %r10
	jae	45b
	.p2align	4
52:
	movzbl	(%rbx,%r10), %r11d
	cmpb	%r11b, (%r8,%r10)
	jne	53f
	incq	%r10
	cmpq	%r10, %r9
	jne	52b
	jmp	45b
	.p2align	4
53:
	setae	%dil
	addb	%dil, %dil
	jmp	46b
	.p2align	4
54:
	shlq	$3, %rax
	leaq	(%rax,%rax,2), %rax
55:
	movq	(%r12,%rax), %rdi
	movq	8(%r12,%rax), %rsi
	movq	%rbx, %rdx
	movq	%r14, %rcx
	callq	std_alloc..compared..VecOrd..cmp..330a034538f27f99_1_x86
	movl	%eax, %ebp
	cmpb	$1, %al
	je	43b
	movq	32(%rsp), %rax
	cmpb	$3, 208(%rax)
	je	43b
	pxor	%xmm0, %xmm0
	movdqa	%xmm0, 224(%rsp)
	movdqa	%xmm0, 208(%rsp)
	leaq	208(%rsp), %rdi
	movq	%rbx, %rsi
	movq	%r14, %rdx
	callq	b2sum_commands..quoting..quoted_name_1_x86
	cmpb	$0, 208(%rsp)
	jne	63f
	movq	216(%rsp), %rbx
	movq	224(%rsp), %r8
	movq	184(%rsp), %rax
	movq	(%rax), %rdi
	movq	8(%rax), %rsi
	movq	232(%rsp), %rax
	movq	%rax, 192(%rsp)
	leaq	.L1_x86_static.245(%rip), %rax
	movq	%rax, 8(%rsp)
	movq	$18, 16(%rsp)
	movq	$2, (%rsp)
	leaq	.L1_x86_static.123(%rip), %r9
	movq	96(%rsp), %rdx
	movq	%rbx, %rcx
	callq	b2sum_commands..messages..warn..068f3e307c5390f2_1_x86
	movl	%eax, %r14d
	cmpq	$0, 192(%rsp)
	je	42b
	movq	%rbx, %rdi
	vj_call	rattle_dealloc
	jmp	42b
56:
	movb	$1, %r14b
	jmp	70f
57:
	movq	88(%rsp), %r15
	movq	72(%rsp), %rbp
	movl	56(%rsp), %r14d
	jmp	70f
58:
	movq	32(%rsp), %rax
	movzbl	208(%rax), %eax
	cmpb	$3, %al
	jne	59f
	xorl	%r14d, %r14d
	jmp	70f
59:
	movq	%rbp, 72(%rsp)
	movq	%rbx, 96(%rsp)
	decq	%rcx
	movq	%rcx, 40(%rsp)
	addq	$8, %r14
	cmpb	$3, %al
	je	62f
60:
	movq	-8(%r14), %rsi
	movq	(%r14), %rdx
	pxor	%xmm0, %xmm0
	movdqa	%xmm0, 224(%rsp)
	movdqa	%xmm0, 208(%rsp)
	leaq	208(%rsp), %rdi
	callq	b2sum_commands..quoting..quoted_name_1_x86
	cmpb	$0, 208(%rsp)
	jne	63f
	movq	216(%rsp), %rbx
	movq	224(%rsp), %r8
	movq	184(%rsp), %rax
	movq	(%rax), %rdi
	movq	8(%rax), %rsi
	movq	232(%rsp), %r15
	leaq	.L1_x86_static.245(%rip), %rax
	movq	%rax, 8(%rsp)
	movq	$18, 16(%rsp)
	movq	$2, (%rsp)
	leaq	.L1_x86_static.123(%rip), %r9
	movq	96(%rsp), %rdx
	movq	%rbx, %rcx
	callq	b2sum_commands..messages..warn..068f3e307c5390f2_1_x86
	movl	%eax, %ebp
	testq	%r15, %r15
	je	61f
	movq	%rbx, %rdi
	vj_call	rattle_dealloc
61:
	testb	%bpl, %bpl
	jne	63f
62:
	movq	40(%rsp), %r15
	subq	$1, %r15
	jb	69f
	movq	%r15, 40(%rsp)
	movq	32(%rsp), %rax
	movzbl	208(%rax), %eax
	addq	$24, %r14
	cmpb	$3, %al
	jne	60b
	jmp	62b
63:
	leaq	112(%rsp), %rdi
	callq	std_alloc..vec..Vec..drop..3374fb78d704bdda_1_x86
	movq	104(%rsp), %rax
	movq	%rax, 448(%rsp)
	movq	80(%rsp), %rax
	movq	%rax, 456(%rsp)
	movq	168(%rsp), %rax
	movq	%rax, 464(%rsp)
	leaq	448(%rsp), %rdi
	callq	std_alloc..vec..Vec..drop..3374fb78d704bdda_1_x86
	movq	72(%rsp), %rax
	movq	%rax, 416(%rsp)
	movq	$0, 424(%rsp)
	movq	176(%rsp), %rax
	movq	%rax, 432(%rsp)
	leaq	416(%rsp), %rdi
	callq	std_alloc..vec..Vec..drop..3374fb78d704bdda_1_x86
	movq	%r12, 384(%rsp)
	movq	%r13, 392(%rsp)
	movq	88(%rsp), %rax
	movq	%rax, 400(%rsp)
	leaq	384(%rsp), %rdi
	callq	std_alloc..vec..Vec..drop..3374fb78d704bdda_1_x86
64:
	movb	$1, %al
65:
	xorl	%r14d, %r14d
	jmp	72f
66:
	leaq	112(%rsp), %rdi
	movq	%r15, %rsi
	callq	std_alloc..vec..Vec..grow_amortized..bb23d2d2a8e2d2e5_1_x86
	movq	120(%rsp), %r8
	testb	%al, %al
	jne	33b
	movq	%rbp, 72(%rsp)
	movq	112(%rsp), %rbx
	movq	128(%rsp), %rax
	movq	%rax, 32(%rsp)
	testq	%r8, %r8
	je	73f
	leaq	16(%rbx), %rbp
	jmp	68f
67:
	addq	$24, %rbp
	decq	%r8
	je	73f
68:
	cmpq	$0, (%rbp)
	je	67b
	movq	-16(%rbp), %rdi
	movq	%r8, %r14
	vj_call	rattle_dealloc
	movq	%r14, %r8
	jmp	67b
69:
	xorl	%r14d, %r14d
	movq	88(%rsp), %r15
	movq	72(%rsp), %rbp
70:
	andb	31(%rsp), %r14b
	leaq	112(%rsp), %rdi
	callq	std_alloc..vec..Vec..drop..3374fb78d704bdda_1_x86
	movq	104(%rsp), %rax
	movq	%rax, 352(%rsp)
	movq	80(%rsp), %rax
	movq	%rax, 360(%rsp)
	movq	168(%rsp), %rax
	movq	%rax, 368(%rsp)
	leaq	352(%rsp), %rdi
	callq	std_alloc..vec..Vec..drop..3374fb78d704bdda_1_x86
	movq	%rbp, 320(%rsp)
	movq	$0, 328(%rsp)
	movq	176(%rsp), %rax
	movq	%rax, 336(%rsp)
	leaq	320(%rsp), %rdi
	callq	std_alloc..vec..Vec..drop..3374fb78d704bdda_1_x86
	movq	%r12, 288(%rsp)
	movq	%r13, 296(%rsp)
	movq	%r15, 304(%rsp)
	leaq	288(%rsp), %rdi
	callq	std_alloc..vec..Vec..drop..3374fb78d704bdda_1_x86
71:
	xorl	%eax, %eax
72:
	movl	%r14d, %edx
	addq	$664, %rsp
	popq	%rbx
	popq	%r12
	popq	%r13
	popq	%r14
	popq	%r15
	popq	%rbp
	retq
73:
	cmpq	$0, 32(%rsp)
	je	74f
	movq	%rbx, %rdi
	vj_call	rattle_dealloc
74:
	cmpq	$0, 80(%rsp)
	movq	88(%rsp), %r14
	movq	72(%rsp), %rbp
	je	77f
	movq	104(%rsp), %rax
	leaq	16(%rax), %rbx
	jmp	76f
75:
	addq	$24, %rbx
	decq	80(%rsp)
	je	77f
76:
	cmpq	$0, (%rbx)
	je	75b
	movq	-16(%rbx), %rdi
	vj_call	rattle_dealloc
	jmp	75b
77:
	cmpq	$0, 168(%rsp)
	je	78f
	movq	104(%rsp), %rdi
	vj_call	rattle_dealloc
78:
	leaq	16(%rbp), %rbx
	jmp	80f
79:
	addq	$24, %rbx
	decq	%r15
	je	81f
80:
	cmpq	$0, (%rbx)
	je	79b
	movq	-16(%rbx), %rdi
	vj_call	rattle_dealloc
	jmp	79b
81:
	cmpq	$0, 176(%rsp)
	je	82f
	movq	%rbp, %rdi
	vj_call	rattle_dealloc
82:
	testq	%r13, %r13
	je	85f
	leaq	16(%r12), %rbx
	jmp	84f
83:
	addq	$24, %rbx
	decq	%r13
	je	85f
84:
	cmpq	$0, (%rbx)
	je	83b
	movq	-16(%rbx), %rdi
	vj_call	rattle_dealloc
	jmp	83b
85:
	movb	$1, %al
	testq	%r14, %r14
	je	65b
	movq	%r12, %rdi
	vj_call	rattle_dealloc
	jmp	64b
86:
	cmpq	$0, 80(%rsp)
	movq	48(%rsp), %rdi
	je	87f
	vj_call	rattle_dealloc
87:
	xorl	%ebp, %ebp
	jmp	22b
	vj_end	b2sum_commands..folder_checks..has_all..82a450bcca081e63_1_x86

	vj_function	b2sum_commands..folders..walk..82a450bcca081e63_1_x86
	pushq	%rbp
	pushq	%r15
	pushq	%r14
	pushq	%r13
	pushq	%r12
	pushq	%rbx
	subq	$856, %rsp
	movq	%rcx, 160(%rsp)
	movq	%rdx, 136(%rsp)
	movq	%rsi, 184(%rsp)
	movq	%rdi, 16(%rsp)
	xorps	%xmm0, %xmm0
	movups	%xmm0, 718(%rsp)
	movaps	%xmm0, 704(%rsp)
	movl	$0, 120(%rsp)
	movl	$0, 123(%rsp)
	movaps	%xmm0, 32(%rsp)
	movaps	%xmm0, 48(%rsp)
	movaps	%xmm0, 64(%rsp)
	movaps	%xmm0, 80(%rsp)
	movq	$0, 96(%rsp)
	movaps	%xmm0, 736(%rsp)
	movups	%xmm0, 751(%rsp)
	movl	$0, 112(%rsp)
	movl	$0, 115(%rsp)
	leaq	8(%rsp), %rax
	movq	%rax, 208(%rsp)
	movups	%xmm0, 216(%rsp)
	movq	%r8, 144(%rsp)
	testq	%r8, %r8
	je	15f
	xorl	%ebx, %ebx
	leaq	8(%rsp), %r13
	xorl	%r12d, %r12d
	.p2align	4
1:
	leaq	(%r12,%r12,2), %rax
	movq	160(%rsp), %rcx
	movq	(%rcx,%rax,8), %r14
	movq	8(%rcx,%rax,8), %rbp
	leaq	8(%rsp), %r15
	testq	%rbp, %rbp
	je	2f
	js	59f
	movl	$1, %esi
	movq	%rbp, %rdi
	vj_call	rattle_alloc
	testb	$1, %al
	je	59f
	movq	%rdx, %r15
2:
	movq	%r15, %rcx
	subq	%r14, %rcx
	cmpq	%rbp, %rcx
	jae	3f
	xorl	%eax, %eax
	cmpq	$4, %rbp
	jb	8f
	cmpq	$32, %rcx
	jb	8f
	cmpq	$32, %rbp
	jae	4f
	xorl	%eax, %eax
	jmp	6f
	.p2align	4
3:
	movq	%r15, %rdi
	movq	%r14, %rsi
	movq	%rbp, %rdx
	vj_c_call	memmove
	jmp	12f
4:
	movq	%rbp, %rax
	andq	$-32, %rax
	xorl	%ecx, %ecx
	.p2align	4
5:
	movups	(%r14,%rcx), %xmm0
	movups	16(%r14,%rcx), %xmm1
	movups	%xmm0, (%r15,%rcx)
	movups	%xmm1, 16(%r15,%rcx)
	addq	$32, %rcx
	cmpq	%rcx, %rax
	jne	5b
	cmpq	%rax, %rbp
	je	12f
	testb	$28, %bpl
	je	8f
6:
	movq	%rax, %rcx
	movq	%rbp, %rax
	andq	$-4, %rax
	.p2align	4
7:
	movl	(%r14,%rcx), %edx
	movl	%edx, (%r15,%rcx)
	addq	$4, %rcx
	cmpq	%rcx, %rax
	jne	7b
	cmpq	%rax, %rbp
	je	12f
8:
	movq	%rbp, %rdx
	movq	%rax, %rcx
	andq	$3, %rdx
	je	10f
	movq	%rax, %rcx
	.p2align	4
9:
	movzbl	(%r14,%rcx), %esi
	movb	%sil, (%r15,%rcx)
	incq	%rcx
	decq	%rdx
	jne	9b
10:
	subq	%rbp, %rax
	cmpq	$-4, %rax
	ja	12f
	.p2align	4
11:
	movzbl	(%r14,%rcx), %eax
	movb	%al, (%r15,%rcx)
	movzbl	1(%r14,%rcx), %eax
	movb	%al, 1(%r15,%rcx)
	movzbl	2(%r14,%rcx), %eax
	movb	%al, 2(%r15,%rcx)
	movzbl	3(%r14,%rcx), %eax
	movb	%al, 3(%r15,%rcx)
	addq	$4, %rcx
	cmpq	%rcx, %rbp
	jne	11b
	.p2align	4
12:
	cmpq	%rbx, 224(%rsp)
	je	14f
13:
	leaq	(%rbx,%rbx,2), %rax
	movq	%r15, (%r13,%rax,8)
	movq	%rbp, 8(%r13,%rax,8)
	movq	%rbp, 16(%r13,%rax,8)
	incq	%rbx
	movq	%rbx, 216(%rsp)
	incq	%r12
	cmpq	144(%rsp), %r12
	jne	1b
	jmp	15f
14:
	leaq	208(%rsp), %rdi
	movl	$1, %esi
	callq	std_alloc..vec..Vec..grow_amortized..bb23d2d2a8e2d2e5_1_x86
	testb	%al, %al
	je	89f
	movq	208(%rsp), %r13
	movq	216(%rsp), %rbx
	jmp	13b
15:
	movq	224(%rsp), %rax
	movq	%rax, 759(%rsp)
	movups	208(%rsp), %xmm0
	movups	%xmm0, 743(%rsp)
	movaps	%xmm0, 32(%rsp)
	movq	%rax, 48(%rsp)
	leaq	8(%rsp), %rax
	movq	%rax, 56(%rsp)
	xorps	%xmm0, %xmm0
	movaps	%xmm0, 64(%rsp)
	movq	%rax, 80(%rsp)
	movups	%xmm0, 88(%rsp)
	addq	$224, 136(%rsp)
	movb	$1, %bpl
	xorl	%eax, %eax
	jmp	17f
	.p2align	4
16:
	movzbl	160(%rsp), %ebp
	andb	%bl, %bpl
	movq	144(%rsp), %rax
	incq	%rax
	cmpq	$-1, %rax
	je	75f
17:
	movq	40(%rsp), %r15
	cmpq	%r15, %rax
	je	74f
	movb	%bpl, 160(%rsp)
	movq	32(%rsp), %r14
	movq	%rax, 144(%rsp)
	leaq	(%rax,%rax,2), %rax
	movq	(%r14,%rax,8), %rbx
	movq	8(%r14,%rax,8), %r12
	leaq	8(%rsp), %r13
	testq	%r12, %r12
	je	18f
	js	63f
	movl	$1, %esi
	movq	%r12, %rdi
	vj_call	rattle_alloc
	testb	$1, %al
	je	63f
	movq	%rdx, %r13
18:
	movq	%r13, %rcx
	subq	%rbx, %rcx
	cmpq	%r12, %rcx
	jae	19f
	xorl	%eax, %eax
	cmpq	$4, %r12
	jb	24f
	cmpq	$32, %rcx
	jb	24f
	cmpq	$32, %r12
	jae	20f
	xorl	%eax, %eax
	jmp	22f
	.p2align	4
19:
	movq	%r13, %rdi
	movq	%rbx, %rsi
	movq	%r12, %rdx
	vj_c_call	memmove
	jmp	28f
20:
	movq	%r12, %rax
	andq	$-32, %rax
	xorl	%ecx, %ecx
	.p2align	4
21:
	movups	(%rbx,%rcx), %xmm0
	movups	16(%rbx,%rcx), %xmm1
	movups	%xmm0, (%r13,%rcx)
	movups	%xmm1, 16(%r13,%rcx)
	addq	$32, %rcx
	cmpq	%rcx, %rax
	jne	21b
	cmpq	%rax, %r12
	je	28f
	testb	$28, %r12b
	je	24f
22:
	movq	%rax, %rcx
	movq	%r12, %rax
	andq	$-4, %rax
	.p2align	4
23:
	movl	(%rbx,%rcx), %edx
	movl	%edx, (%r13,%rcx)
	addq	$4, %rcx
	cmpq	%rcx, %rax
	jne	23b
	cmpq	%rax, %r12
	je	28f
24:
	movq	%r12, %rdx
	movq	%rax, %rcx
	andq	$3, %rdx
	je	26f
	movq	%rax, %rcx
	.p2align	4
25:
	movzbl	(%rbx,%rcx), %esi
	movb	%sil, (%r13,%rcx)
	incq	%rcx
	decq	%rdx
	jne	25b
26:
	subq	%r12, %rax
	cmpq	$-4, %rax
	ja	28f
	.p2align	4
27:
	movzbl	(%rbx,%rcx), %eax
	movb	%al, (%r13,%rcx)
	movzbl	1(%rbx,%rcx), %eax
	movb	%al, 1(%r13,%rcx)
	movzbl	2(%rbx,%rcx), %eax
	movb	%al, 2(%r13,%rcx)
	movzbl	3(%rbx,%rcx), %eax
	movb	%al, 3(%r13,%rcx)
	addq	$4, %rcx
	cmpq	%rcx, %r12
	jne	27b
	.p2align	4
28:
	xorps	%xmm0, %xmm0
	movaps	%xmm0, 336(%rsp)
	movaps	%xmm0, 352(%rsp)
	movq	$0, 368(%rsp)
	movaps	%xmm0, 208(%rsp)
	movaps	%xmm0, 224(%rsp)
	movaps	%xmm0, 240(%rsp)
	movaps	%xmm0, 256(%rsp)
	movaps	%xmm0, 272(%rsp)
	movaps	%xmm0, 288(%rsp)
	movaps	%xmm0, 304(%rsp)
	movaps	%xmm0, 320(%rsp)
	movaps	%xmm0, 384(%rsp)
	movaps	%xmm0, 400(%rsp)
	leaq	384(%rsp), %rdi
	movq	%r13, %rsi
	movq	%r12, %rdx
	callq	b2sum..disk..text_of_1_x86
	cmpb	$0, 384(%rsp)
	je	30f
29:
	xorps	%xmm0, %xmm0
	movaps	%xmm0, 592(%rsp)
	movaps	%xmm0, 576(%rsp)
	movaps	%xmm0, 560(%rsp)
	movaps	%xmm0, 544(%rsp)
	movaps	%xmm0, 528(%rsp)
	movaps	%xmm0, 512(%rsp)
	xorl	%eax, %eax
	movb	$38, %cl
	movb	$1, %r15b
	xorl	%r14d, %r14d
	xorl	%ebp, %ebp
	jmp	49f
	.p2align	4
30:
	movq	392(%rsp), %r15
	movq	400(%rsp), %r14
	movq	408(%rsp), %rbp
	testq	%r12, %r12
	je	32f
	movl	$1, %esi
	movq	%r12, %rdi
	vj_call	rattle_alloc
	testb	$1, %al
	je	34f
	movq	%rdx, %rbx
	movq	%rbx, %rcx
	subq	%r13, %rcx
	cmpq	%r12, %rcx
	jb	33f
31:
	movq	%rbx, %rdi
	movq	%r13, %rsi
	movq	%r12, %rdx
	vj_c_call	memmove
	jmp	43f
32:
	leaq	8(%rsp), %rbx
	movq	%rbx, %rcx
	subq	%r13, %rcx
	cmpq	%r12, %rcx
	jae	31b
33:
	xorl	%eax, %eax
	cmpq	$4, %r12
	jb	39f
	cmpq	$32, %rcx
	jb	39f
	cmpq	$32, %r12
	jae	35f
	xorl	%eax, %eax
	jmp	37f
34:
	testq	%rbp, %rbp
	je	29b
	movq	%r15, %rdi
	vj_call	rattle_dealloc
	jmp	29b
35:
	movq	%r12, %rax
	andq	$-32, %rax
	xorl	%ecx, %ecx
	.p2align	4
36:
	movups	(%r13,%rcx), %xmm0
	movups	16(%r13,%rcx), %xmm1
	movups	%xmm0, (%rbx,%rcx)
	movups	%xmm1, 16(%rbx,%rcx)
	addq	$32, %rcx
	cmpq	%rcx, %rax
	jne	36b
	cmpq	%rax, %r12
	je	43f
	testb	$28, %r12b
	je	39f
37:
	movq	%rax, %rcx
	movq	%r12, %rax
	andq	$-4, %rax
	.p2align	4
38:
	movl	(%r13,%rcx), %edx
	movl	%edx, (%rbx,%rcx)
	addq	$4, %rcx
	cmpq	%rcx, %rax
	jne	38b
	cmpq	%rax, %r12
	je	43f
39:
	movq	%r12, %rdx
	movq	%rax, %rcx
	andq	$3, %rdx
	je	41f
	movq	%rax, %rcx
	.p2align	4
40:
	movzbl	(%r13,%rcx), %esi
	movb	%sil, (%rbx,%rcx)
	incq	%rcx
	decq	%rdx
	jne	40b
41:
	subq	%r12, %rax
	cmpq	$-4, %rax
	ja	43f
	.p2align	4
42:
	movzbl	(%r13,%rcx), %eax
	movb	%al, (%rbx,%rcx)
	movzbl	1(%r13,%rcx), %eax
	movb	%al, 1(%rbx,%rcx)
	movzbl	2(%r13,%rcx), %eax
	movb	%al, 2(%rbx,%rcx)
	movzbl	3(%r13,%rcx), %eax
	movb	%al, 3(%rbx,%rcx)
	addq	$4, %rcx
	cmpq	%rcx, %r12
	jne	42b
	.p2align	4
43:
	xorps	%xmm0, %xmm0
	movaps	%xmm0, 608(%rsp)
	movaps	%xmm0, 624(%rsp)
	movaps	%xmm0, 640(%rsp)
	movaps	%xmm0, 656(%rsp)
	movaps	%xmm0, 672(%rsp)
	movaps	%xmm0, 688(%rsp)
	movaps	%xmm0, 416(%rsp)
	movaps	%xmm0, 432(%rsp)
	leaq	.L1_x86_static.243(%rip), %rsi
	leaq	416(%rsp), %rdi
	movq	%r15, 176(%rsp)
	movq	%r15, %rdx
	movq	%r14, %rcx
	callq	b2sum..disk..marked_1_x86
	cmpb	$0, 416(%rsp)
	movq	%rbp, 24(%rsp)
	je	44f
	xorps	%xmm1, %xmm1
	movaps	%xmm1, 480(%rsp)
	movaps	%xmm1, 464(%rsp)
	xorps	%xmm0, %xmm0
	movaps	%xmm0, 192(%rsp)
	movaps	%xmm1, 448(%rsp)
	movq	$0, 496(%rsp)
	movq	$0, 128(%rsp)
	movb	$38, 15(%rsp)
	movb	$1, %r15b
	xorl	%r14d, %r14d
	xorl	%ebp, %ebp
	jmp	46f
44:
	movq	424(%rsp), %r14
	movq	432(%rsp), %rdx
	movq	440(%rsp), %r15
	leaq	608(%rsp), %rdi
	movq	%r14, %rsi
	callq	std..fs..File..open..40609fae31b31c25_1_x86
	testq	%r15, %r15
	je	45f
	movq	%r14, %rdi
	vj_call	rattle_dealloc
45:
	movl	612(%rsp), %ecx
	movzbl	616(%rsp), %r15d
	movzbl	617(%rsp), %eax
	movb	%al, 15(%rsp)
	movzwl	618(%rsp), %eax
	movq	%rax, 128(%rsp)
	movl	620(%rsp), %r14d
	movq	624(%rsp), %rbp
	movups	632(%rsp), %xmm0
	movaps	%xmm0, 192(%rsp)
	leaq	648(%rsp), %rax
	movups	(%rax), %xmm0
	movups	16(%rax), %xmm1
	movups	32(%rax), %xmm2
	movaps	%xmm0, 448(%rsp)
	movaps	%xmm1, 464(%rsp)
	movaps	%xmm2, 480(%rsp)
	movq	48(%rax), %rax
	movq	%rax, 496(%rsp)
	cmpb	$0, 608(%rsp)
	je	51f
46:
	movq	496(%rsp), %rax
	movq	%rax, 560(%rsp)
	movaps	448(%rsp), %xmm0
	movaps	464(%rsp), %xmm1
	movaps	480(%rsp), %xmm2
	movaps	%xmm2, 544(%rsp)
	movaps	%xmm1, 528(%rsp)
	movaps	%xmm0, 512(%rsp)
	testq	%r12, %r12
	je	47f
	movq	%rbx, %rdi
	vj_call	rattle_dealloc
47:
	cmpq	$0, 24(%rsp)
	je	48f
	movq	176(%rsp), %rdi
	vj_call	rattle_dealloc
48:
	movaps	192(%rsp), %xmm0
	movq	128(%rsp), %rax
	movzbl	15(%rsp), %ecx
49:
	movb	%r15b, 768(%rsp)
	movb	%cl, 769(%rsp)
	movw	%ax, 770(%rsp)
	movl	%r14d, 772(%rsp)
	movq	%rbp, 776(%rsp)
	movups	%xmm0, 784(%rsp)
	movq	560(%rsp), %rax
	leaq	800(%rsp), %rcx
	movq	%rax, 48(%rcx)
	movaps	512(%rsp), %xmm0
	movaps	528(%rsp), %xmm1
	movaps	544(%rsp), %xmm2
	movups	%xmm2, 32(%rcx)
	movups	%xmm1, 16(%rcx)
	movups	%xmm0, (%rcx)
	leaq	768(%rsp), %rsi
	movq	184(%rsp), %rdi
	movq	136(%rsp), %rdx
	movq	%r13, %rcx
	movq	%r12, %r8
	callq	b2sum_commands..messages..warn_of_file..fab5d8e6f6068f4d_1_x86
	xorl	%ebx, %ebx
	testb	%al, %al
	jne	99f
50:
	testq	%r12, %r12
	je	16b
	movq	%r13, %rdi
	vj_call	rattle_dealloc
	jmp	16b
51:
	cmpq	$0, 24(%rsp)
	je	52f
	movq	176(%rsp), %rdi
	movl	%ecx, %ebp
	vj_call	rattle_dealloc
	movl	%ebp, %ecx
52:
	movl	$0, 208(%rsp)
	movl	%ecx, 212(%rsp)
	movq	%rbx, 216(%rsp)
	movq	%r12, 224(%rsp)
	movq	%r12, 232(%rsp)
	xorps	%xmm0, %xmm0
	leaq	240(%rsp), %rax
	movups	%xmm0, 80(%rax)
	movups	%xmm0, 64(%rax)
	movups	%xmm0, 48(%rax)
	movups	%xmm0, 32(%rax)
	movups	%xmm0, 16(%rax)
	movups	%xmm0, (%rax)
	leaq	336(%rsp), %rdi
	leaq	208(%rsp), %rdx
	movq	184(%rsp), %rsi
	movq	%r13, %rcx
	movq	%r12, %r8
	movq	136(%rsp), %r9
	callq	b2sum_commands..sealed_checks..read_list_from..fab5d8e6f6068f4d_1_x86
	movq	216(%rsp), %rbx
	movq	232(%rsp), %r14
	cmpb	$0, 208(%rsp)
	jne	53f
	movl	212(%rsp), %edi
	vj_call	b2sum_close
53:
	testq	%r14, %r14
	je	54f
	movq	%rbx, %rdi
	vj_call	rattle_dealloc
54:
	cmpb	$0, 336(%rsp)
	jne	96f
	cmpb	$1, 344(%rsp)
	sete	%bl
	jne	50b
	movq	352(%rsp), %rcx
	movq	360(%rsp), %r14
	movq	368(%rsp), %r15
	movq	%rcx, 24(%rsp)
55:
	testq	%r14, %r14
	je	58f
	leaq	1(%rcx), %rbp
	movq	%r14, %rax
	negq	%rax
	xorl	%r8d, %r8d
	.p2align	4
56:
	cmpb	$0, -1(%rbp)
	je	57f
	incq	%r8
	incq	%rbp
	movq	%rax, %rdx
	addq	%r8, %rdx
	jne	56b
	jmp	58f
57:
	movq	%r8, %rax
	notq	%rax
	addq	%rax, %r14
	leaq	32(%rsp), %rdi
	movq	%r13, %rsi
	movq	%r12, %rdx
	callq	b2sum_commands..folders..Found..add_entry_1_x86
	movq	%rbp, %rcx
	testb	%al, %al
	je	55b
	jmp	97f
58:
	leaq	32(%rsp), %rdi
	movq	%r13, %rsi
	movq	%r12, %rdx
	movq	%r14, %r8
	callq	b2sum_commands..folders..Found..add_entry_1_x86
	testb	%al, %al
	jne	97f
	testq	%r15, %r15
	je	50b
	movq	24(%rsp), %rdi
	vj_call	rattle_dealloc
	jmp	50b
59:
	movq	224(%rsp), %r14
	testq	%rbx, %rbx
	je	62f
	leaq	16(%r13), %r15
	jmp	61f
	.p2align	4
60:
	addq	$24, %r15
	decq	%rbx
	je	62f
61:
	cmpq	$0, (%r15)
	je	60b
	movq	-16(%r15), %rdi
	vj_call	rattle_dealloc
	jmp	60b
62:
	testq	%r14, %r14
	je	95f
	movq	%r13, %rdi
	jmp	94f
63:
	movq	48(%rsp), %rbx
	testq	%r15, %r15
	je	66f
	leaq	16(%r14), %r12
	jmp	65f
	.p2align	4
64:
	addq	$24, %r12
	decq	%r15
	je	66f
65:
	cmpq	$0, (%r12)
	je	64b
	movq	-16(%r12), %rdi
	vj_call	rattle_dealloc
	jmp	64b
66:
	testq	%rbx, %rbx
	je	67f
	movq	%r14, %rdi
	vj_call	rattle_dealloc
67:
	movq	56(%rsp), %rbx
	movq	64(%rsp), %r15
	movq	72(%rsp), %r14
	testq	%r15, %r15
	je	70f
	leaq	16(%rbx), %r12
	jmp	69f
	.p2align	4
68:
	addq	$24, %r12
	decq	%r15
	je	70f
69:
	cmpq	$0, (%r12)
	je	68b
	movq	-16(%r12), %rdi
	vj_call	rattle_dealloc
	jmp	68b
70:
	testq	%r14, %r14
	je	71f
	movq	%rbx, %rdi
	vj_call	rattle_dealloc
71:
	movq	80(%rsp), %rbx
	movq	88(%rsp), %r15
	movq	96(%rsp), %r14
	testq	%r15, %r15
	je	93f
	leaq	16(%rbx), %r12
	jmp	73f
	.p2align	4
72:
	addq	$24, %r12
	decq	%r15
	je	93f
73:
	cmpq	$0, (%r12)
	je	72b
	movq	-16(%r12), %rdi
	vj_call	rattle_dealloc
	jmp	72b
74:
	movq	80(%rsp), %rbx
	andb	$1, %bpl
	movaps	64(%rsp), %xmm0
	movaps	%xmm0, 160(%rsp)
	movq	56(%rsp), %r14
	movq	64(%rsp), %rsi
	movq	%r14, %rdi
	callq	std_alloc..vec..Vec..sort_unstable..6c2966b20b9e9cac_1_x86
	movups	88(%rsp), %xmm0
	movaps	%xmm0, 144(%rsp)
	movq	88(%rsp), %rsi
	movq	%rbx, %rdi
	callq	std_alloc..vec..Vec..sort_unstable..6c2966b20b9e9cac_1_x86
	movq	16(%rsp), %rdx
	movw	$0, (%rdx)
	movaps	32(%rsp), %xmm0
	movups	%xmm0, 8(%rdx)
	movq	48(%rsp), %rax
	movq	%rax, 24(%rdx)
	movq	%r14, 32(%rdx)
	movaps	160(%rsp), %xmm0
	movups	%xmm0, 40(%rdx)
	movq	%rbx, 56(%rdx)
	movaps	144(%rsp), %xmm0
	movups	%xmm0, 64(%rdx)
	movb	%bpl, 80(%rdx)
	movl	112(%rsp), %eax
	movl	115(%rsp), %ecx
	jmp	88f
75:
	movq	32(%rsp), %rbx
	movq	40(%rsp), %r15
	movq	48(%rsp), %r14
	testq	%r15, %r15
	je	78f
	leaq	16(%rbx), %r12
	jmp	77f
	.p2align	4
76:
	addq	$24, %r12
	decq	%r15
	je	78f
77:
	cmpq	$0, (%r12)
	je	76b
	movq	-16(%r12), %rdi
	vj_call	rattle_dealloc
	jmp	76b
78:
	testq	%r14, %r14
	je	79f
	movq	%rbx, %rdi
	vj_call	rattle_dealloc
79:
	movq	56(%rsp), %rbx
	movq	64(%rsp), %r15
	movq	72(%rsp), %r14
	testq	%r15, %r15
	je	82f
	leaq	16(%rbx), %r12
	jmp	81f
	.p2align	4
80:
	addq	$24, %r12
	decq	%r15
	je	82f
81:
	cmpq	$0, (%r12)
	je	80b
	movq	-16(%r12), %rdi
	vj_call	rattle_dealloc
	jmp	80b
82:
	testq	%r14, %r14
	je	83f
	movq	%rbx, %rdi
	vj_call	rattle_dealloc
83:
	movq	80(%rsp), %rbx
	movq	88(%rsp), %r15
	movq	96(%rsp), %r14
	testq	%r15, %r15
	je	86f
	leaq	16(%rbx), %r12
	jmp	85f
	.p2align	4
84:
	addq	$24, %r12
	decq	%r15
	je	86f
85:
	cmpq	$0, (%r12)
	je	84b
	movq	-16(%r12), %rdi
	vj_call	rattle_dealloc
	jmp	84b
86:
	testq	%r14, %r14
	je	87f
	movq	%rbx, %rdi
	vj_call	rattle_dealloc
87:
	movq	16(%rsp), %rdx
	movw	$1, (%rdx)
	movups	710(%rsp), %xmm0
	movups	%xmm0, 8(%rdx)
	movq	726(%rsp), %rax
	movq	%rax, 24(%rdx)
	xorps	%xmm0, %xmm0
	movups	%xmm0, 32(%rdx)
	movups	%xmm0, 48(%rdx)
	movups	%xmm0, 64(%rdx)
	movb	$0, 80(%rdx)
	movl	120(%rsp), %eax
	movl	123(%rsp), %ecx
88:
	movl	%eax, 81(%rdx)
	movl	%ecx, 84(%rdx)
	jmp	114f
89:
	testq	%rbp, %rbp
	je	90f
	movq	%r15, %rdi
	vj_call	rattle_dealloc
90:
	movq	208(%rsp), %rbx
	movq	216(%rsp), %r15
	movq	224(%rsp), %r14
	testq	%r15, %r15
	je	93f
	leaq	16(%rbx), %r12
	jmp	92f
	.p2align	4
91:
	addq	$24, %r12
	decq	%r15
	je	93f
92:
	cmpq	$0, (%r12)
	je	91b
	movq	-16(%r12), %rdi
	vj_call	rattle_dealloc
	jmp	91b
93:
	testq	%r14, %r14
	je	95f
	movq	%rbx, %rdi
94:
	vj_call	rattle_dealloc
95:
	movq	16(%rsp), %rax
	movw	$1, (%rax)
	jmp	113f
96:
	movzbl	337(%rsp), %ebx
	jmp	99f
97:
	testq	%r15, %r15
	je	98f
	movq	24(%rsp), %rdi
	vj_call	rattle_dealloc
98:
	xorl	%ebx, %ebx
99:
	testq	%r12, %r12
	je	100f
	movq	%r13, %rdi
	vj_call	rattle_dealloc
100:
	movq	32(%rsp), %r14
	movq	40(%rsp), %r12
	movq	48(%rsp), %r15
	testq	%r12, %r12
	je	103f
	leaq	16(%r14), %r13
	jmp	102f
	.p2align	4
101:
	addq	$24, %r13
	decq	%r12
	je	103f
102:
	cmpq	$0, (%r13)
	je	101b
	movq	-16(%r13), %rdi
	vj_call	rattle_dealloc
	jmp	101b
103:
	testq	%r15, %r15
	je	104f
	movq	%r14, %rdi
	vj_call	rattle_dealloc
104:
	movq	56(%rsp), %r14
	movq	64(%rsp), %r12
	movq	72(%rsp), %r15
	testq	%r12, %r12
	je	107f
	leaq	16(%r14), %r13
	jmp	106f
	.p2align	4
105:
	addq	$24, %r13
	decq	%r12
	je	107f
106:
	cmpq	$0, (%r13)
	je	105b
	movq	-16(%r13), %rdi
	vj_call	rattle_dealloc
	jmp	105b
107:
	testq	%r15, %r15
	je	108f
	movq	%r14, %rdi
	vj_call	rattle_dealloc
108:
	movq	80(%rsp), %r14
	movq	88(%rsp), %r12
	movq	96(%rsp), %r15
	testq	%r12, %r12
	je	111f
	leaq	16(%r14), %r13
	jmp	110f
	.p2align	4
109:
	addq	$24, %r13
	decq	%r12
	je	111f
110:
	cmpq	$0, (%r13)
	je	109b
	movq	-16(%r13), %rdi
	vj_call	rattle_dealloc
	jmp	109b
111:
	testq	%r15, %r15
	je	112f
	movq	%r14, %rdi
	vj_call	rattle_dealloc
112:
	movq	16(%rsp), %rax
	movb	$1, (%rax)
	movb	%bl, 1(%rax)
113:
	xorps	%xmm0, %xmm0
	movups	%xmm0, 8(%rax)
	movups	%xmm0, 24(%rax)
	movups	%xmm0, 40(%rax)
	movups	%xmm0, 56(%rax)
	movups	%xmm0, 72(%rax)
114:
	addq	$856, %rsp
	popq	%rbx
	popq	%r12
	popq	%r13
	popq	%r14
	popq	%r15
	popq	%rbp
	retq
	vj_end	b2sum_commands..folders..walk..82a450bcca081e63_1_x86

	vj_function	b2sum_commands..folders..Found..add_entry_1_x86
	testq	%r8, %r8
	je	2f
	pushq	%rbp
	pushq	%r15
	pushq	%r14
	pushq	%r13
	pushq	%r12
	pushq	%rbx
	subq	$40, %rsp
	movq	%r8, %r12
	movq	%rcx, %r15
	movq	%rdx, %r14
	movq	%rsi, %r13
	movq	%rdi, %rbx
	xorps	%xmm0, %xmm0
	movaps	%xmm0, (%rsp)
	movq	$0, 16(%rsp)
	testq	%rdx, %rdx
	je	3f
	js	1f
	movl	$1, %esi
	movq	%r14, %rdi
	vj_call	rattle_alloc
	testb	$1, %al
	jne	4f
1:
	movb	$1, %al
	jmp	31f
2:
	xorl	%eax, %eax
	retq
3:
	leaq	39(%rsp), %rdx
4:
	movq	%rdx, %rcx
	subq	%r13, %rcx
	cmpq	%r14, %rcx
	jae	5f
	xorl	%eax, %eax
	cmpq	$4, %r14
	jb	10f
	cmpq	$32, %rcx
	jb	10f
	cmpq	$32, %r14
	jae	6f
	xorl	%eax, %eax
	jmp	8f
5:
	movq	%rdx, %rdi
	movq	%r13, %rsi
	movq	%rdx, %rbp
	movq	%r14, %rdx
	vj_c_call	memmove
	movq	%rbp, (%rsp)
	leaq	8(%rsp), %rbp
	movq	%r14, 8(%rsp)
	movq	%r14, 16(%rsp)
	testq	%r14, %r14
	jne	15f
	jmp	33f
6:
	movq	%r14, %rax
	andq	$-32, %rax
	xorl	%ecx, %ecx
	.p2align	4
7:
	movups	(%r13,%rcx), %xmm0
	movups	16(%r13,%rcx), %xmm1
	movups	%xmm0, (%rdx,%rcx)
	movups	%xmm1, 16(%rdx,%rcx)
	addq	$32, %rcx
	cmpq	%rcx, %rax
	jne	7b
	cmpq	%rax, %r14
	je	14f
	testb	$28, %r14b
	je	10f
8:
	movq	%rax, %rcx
	movq	%r14, %rax
	andq	$-4, %rax
	.p2align	4
9:
	movl	(%r13,%rcx), %esi
	movl	%esi, (%rdx,%rcx)
	addq	$4, %rcx
	cmpq	%rcx, %rax
	jne	9b
	cmpq	%rax, %r14
	je	14f
10:
	movq	%r14, %rsi
	movq	%rax, %rcx
	andq	$3, %rsi
	je	12f
	movq	%rax, %rcx
	.p2align	4
11:
	movzbl	(%r13,%rcx), %edi
	movb	%dil, (%rdx,%rcx)
	incq	%rcx
	decq	%rsi
	jne	11b
12:
	subq	%r14, %rax
	cmpq	$-4, %rax
	ja	14f
	.p2align	4
13:
	movzbl	(%r13,%rcx), %eax
	movb	%al, (%rdx,%rcx)
	movzbl	1(%r13,%rcx), %eax
	movb	%al, 1(%rdx,%rcx)
	movzbl	2(%r13,%rcx), %eax
	movb	%al, 2(%rdx,%rcx)
	movzbl	3(%r13,%rcx), %eax
	movb	%al, 3(%rdx,%rcx)
	addq	$4, %rcx
	cmpq	%rcx, %r14
	jne	13b
14:
	movq	%rdx, (%rsp)
	leaq	8(%rsp), %rbp
	movq	%r14, 8(%rsp)
	movq	%r14, 16(%rsp)
15:
	cmpb	$47, -1(%r13,%r14)
	movq	%r14, %r10
	jne	33f
16:
	leaq	-1(%r12), %r13
	movq	%r10, %rax
	subq	%r14, %rax
	cmpq	%rax, %r13
	ja	38f
17:
	leaq	1(%r15), %rsi
	movq	(%rsp), %rax
	xorps	%xmm0, %xmm0
	movups	%xmm0, (%rbp)
	leaq	(%rax,%r14), %rdi
	movq	%rdi, %rcx
	subq	%rsi, %rcx
	cmpq	%r13, %rcx
	jae	23f
	cmpq	$5, %r12
	jb	18f
	movq	%r15, %rcx
	subq	%rdi, %rcx
	cmpq	$-33, %rcx
	jbe	32f
18:
	xorl	%ecx, %ecx
19:
	movq	%r12, %rdx
	subq	%rcx, %rdx
	addq	$-2, %rdx
	movl	%r12d, %r8d
	andl	$3, %r8d
	cmpl	$1, %r8d
	je	21f
	leal	-1(%r12), %r8d
	andl	$3, %r8d
	.p2align	4
20:
	movzbl	(%rsi,%rcx), %r9d
	movb	%r9b, (%rdi,%rcx)
	incq	%rcx
	decq	%r8
	jne	20b
21:
	cmpq	$3, %rdx
	jb	24f
	addq	%r14, %rax
	addq	$3, %rax
	.p2align	4
22:
	movzbl	1(%r15,%rcx), %edx
	movb	%dl, -3(%rax,%rcx)
	movzbl	2(%r15,%rcx), %edx
	movb	%dl, -2(%rax,%rcx)
	movzbl	3(%r15,%rcx), %edx
	movb	%dl, -1(%rax,%rcx)
	movzbl	4(%r15,%rcx), %edx
	movb	%dl, (%rax,%rcx)
	addq	$4, %rcx
	cmpq	%rcx, %r13
	jne	22b
	jmp	24f
23:
	movq	%r13, %rdx
	movq	%r10, %r12
	vj_c_call	memmove
	movq	%r12, %r10
24:
	addq	%r13, %r14
	movq	(%rsp), %r12
	movzbl	(%r15), %eax
	cmpl	$100, %eax
	je	26f
	cmpl	$102, %eax
	jne	28f
	movq	32(%rbx), %rax
	cmpq	%rax, 40(%rbx)
	je	40f
25:
	movq	24(%rbx), %rcx
	leaq	(%rax,%rax,2), %rdx
	movq	%r12, (%rcx,%rdx,8)
	movq	%r14, 8(%rcx,%rdx,8)
	movq	%r10, 16(%rcx,%rdx,8)
	incq	%rax
	movq	%rax, 32(%rbx)
	jmp	30f
26:
	movq	8(%rbx), %rax
	cmpq	%rax, 16(%rbx)
	je	41f
27:
	movq	(%rbx), %rcx
	leaq	(%rax,%rax,2), %rdx
	movq	%r12, (%rcx,%rdx,8)
	movq	%r14, 8(%rcx,%rdx,8)
	movq	%r10, 16(%rcx,%rdx,8)
	incq	%rax
	movq	%rax, 8(%rbx)
	jmp	30f
28:
	movq	56(%rbx), %rax
	cmpq	%rax, 64(%rbx)
	je	42f
29:
	movq	48(%rbx), %rcx
	leaq	(%rax,%rax,2), %rdx
	movq	%r12, (%rcx,%rdx,8)
	movq	%r14, 8(%rcx,%rdx,8)
	movq	%r10, 16(%rcx,%rdx,8)
	incq	%rax
	movq	%rax, 56(%rbx)
30:
	xorl	%eax, %eax
31:
	addq	$40, %rsp
	popq	%rbx
	popq	%r12
	popq	%r13
	popq	%r14
	popq	%r15
	popq	%rbp
	retq
32:
	cmpq	$33, %r12
	jae	34f
	xorl	%ecx, %ecx
	jmp	36f
33:
	movq	%rsp, %rdi
	movl	$1, %esi
	callq	std_alloc..vec..Vec..grow_amortized..01eec35b572d02af_1_x86
	testb	%al, %al
	je	39f
	movq	(%rsp), %rax
	movq	8(%rsp), %r14
	movb	$47, (%rax,%r14)
	incq	%r14
	movq	%r14, 8(%rsp)
	movq	16(%rsp), %r10
	jmp	16b
34:
	movq	%r13, %rcx
	andq	$-32, %rcx
	leaq	(%r14,%rax), %rdx
	addq	$16, %rdx
	xorl	%r8d, %r8d
	.p2align	4
35:
	movups	1(%r15,%r8), %xmm0
	movups	17(%r15,%r8), %xmm1
	movups	%xmm0, -16(%rdx,%r8)
	movups	%xmm1, (%rdx,%r8)
	addq	$32, %r8
	cmpq	%r8, %rcx
	jne	35b
	cmpq	%rcx, %r13
	je	24b
	testb	$28, %r13b
	je	19b
36:
	movq	%rcx, %rdx
	movq	%r13, %rcx
	andq	$-4, %rcx
	.p2align	4
37:
	movl	(%rsi,%rdx), %r8d
	movl	%r8d, (%rdi,%rdx)
	addq	$4, %rdx
	cmpq	%rdx, %rcx
	jne	37b
	cmpq	%rcx, %r13
	je	24b
	jmp	19b
38:
	movq	%rsp, %rdi
	movq	%r13, %rsi
	callq	std_alloc..vec..Vec..grow_amortized..01eec35b572d02af_1_x86
	testb	%al, %al
	je	39f
	movq	8(%rsp), %r14
	movq	16(%rsp), %r10
	jmp	17b
39:
	cmpq	$0, 16(%rsp)
	je	1b
	movq	(%rsp), %rdi
	vj_call	rattle_dealloc
	jmp	1b
40:
	movq	%r10, %r15
	leaq	24(%rbx), %rdi
	movl	$1, %esi
	callq	std_alloc..vec..Vec..grow_amortized..bb23d2d2a8e2d2e5_1_x86
	testb	%al, %al
	je	43f
	movq	32(%rbx), %rax
	movq	%r15, %r10
	jmp	25b
41:
	movq	%r10, %r15
	movl	$1, %esi
	movq	%rbx, %rdi
	callq	std_alloc..vec..Vec..grow_amortized..bb23d2d2a8e2d2e5_1_x86
	testb	%al, %al
	je	43f
	movq	8(%rbx), %rax
	movq	%r15, %r10
	jmp	27b
42:
	movq	%r10, %r15
	leaq	48(%rbx), %rdi
	movl	$1, %esi
	callq	std_alloc..vec..Vec..grow_amortized..bb23d2d2a8e2d2e5_1_x86
	testb	%al, %al
	je	43f
	movq	56(%rbx), %rax
	movq	%r15, %r10
	jmp	29b
43:
	movb	$1, %al
	testq	%r15, %r15
	je	31b
	movq	%r12, %rdi
	vj_call	rattle_dealloc
	movb	$1, %al
	jmp	31b
	vj_end	b2sum_commands..folders..Found..add_entry_1_x86

	vj_function	std_alloc..vec..Vec..sort_unstable..6c2966b20b9e9cac_1_x86
	pushq	%rbp
	pushq	%r15
	pushq	%r14
	pushq	%r12
	pushq	%rbx
	movq	%rsi, %rbx
	movq	%rdi, %r14
	cmpq	$20, %rsi
	ja	1f
	movq	%r14, %rdi
	movq	%rbx, %rsi
	popq	%rbx
	popq	%r12
	popq	%r14
	popq	%r15
	popq	%rbp
	jmp	core..slice..sort..small..insertion_sort..e08de7559db7a9ba_1_x86
1:
	movq	24(%r14), %rdi
	movq	32(%r14), %rsi
	movq	(%r14), %rdx
	movq	8(%r14), %rcx
	callq	std_alloc..compared..VecOrd..cmp..330a034538f27f99_1_x86
	movl	%eax, %ebp
	leaq	56(%r14), %r12
	movl	$2, %r15d
	testb	%al, %al
	je	4f
	.p2align	4
2:
	movq	-8(%r12), %rdi
	movq	(%r12), %rsi
	movq	-32(%r12), %rdx
	movq	-24(%r12), %rcx
	callq	std_alloc..compared..VecOrd..cmp..330a034538f27f99_1_x86
	testb	%al, %al
	je	5f
	incq	%r15
	addq	$24, %r12
	cmpq	%r15, %rbx
	jne	2b
	jmp	7f
	.p2align	4
3:
	incq	%r15
	addq	$24, %r12
	cmpq	%r15, %rbx
	je	8f
4:
	movq	-8(%r12), %rdi
	movq	(%r12), %rsi
	movq	-32(%r12), %rdx
	movq	-24(%r12), %rcx
	callq	std_alloc..compared..VecOrd..cmp..330a034538f27f99_1_x86
	testb	%al, %al
	je	3b
5:
	cmpq	%rbx, %r15
	jae	6f
	bsrq	%rbx, %rcx
	xorl	$63, %ecx
	addl	%ecx, %ecx
	xorl	$126, %ecx
	movq	%r14, %rdi
	xorl	%esi, %esi
	movq	%rbx, %rdx
	popq	%rbx
	popq	%r12
	popq	%r14
	popq	%r15
	popq	%rbp
	jmp	core..slice..sort..unstable..quicksort..e08de7559db7a9ba_1_x86
6:
	testb	%bpl, %bpl
	je	8f
7:
	popq	%rbx
	popq	%r12
	popq	%r14
	popq	%r15
	popq	%rbp
	retq
8:
	movq	%rbx, %rdx
	shrq	%rdx
	subq	%rdx, %rbx
	leaq	(%rbx,%rbx,2), %rax
	leaq	(%r14,%rax,8), %rsi
	movq	%r14, %rdi
	popq	%rbx
	popq	%r12
	popq	%r14
	popq	%r15
	popq	%rbp
	jmp	core..slice..edits..mirror..2262cf5b90b10fda_1_x86
	vj_end	std_alloc..vec..Vec..sort_unstable..6c2966b20b9e9cac_1_x86

	vj_function	core..slice..sort..small..insertion_sort..e08de7559db7a9ba_1_x86
	cmpq	$2, %rsi
	jb	16f
	pushq	%rbp
	pushq	%r15
	pushq	%r14
	pushq	%r13
	pushq	%r12
	pushq	%rbx
	pushq	%rax
	movq	%rsi, %rbx
	movq	%rdi, %r14
	movl	$1, %r13d
	jmp	5f
1:
	xorl	%ecx, %ecx
2:
	shlq	$3, %rcx
	leaq	(%rcx,%rcx,2), %rcx
3:
	movq	%r15, (%r14,%rcx)
	movq	%r12, 8(%r14,%rcx)
	movq	%rax, 16(%r14,%rcx)
4:
	incq	%r13
	cmpq	%rbx, %r13
	je	15f
5:
	leaq	(,%r13,2), %rbp
	addq	%r13, %rbp
	movq	(%r14,%rbp,8), %r15
	movq	8(%r14,%rbp,8), %r12
	movq	-24(%r14,%rbp,8), %rdx
	movq	-16(%r14,%rbp,8), %rcx
	movq	%r15, %rdi
	movq	%r12, %rsi
	callq	std_alloc..compared..VecOrd..cmp..330a034538f27f99_1_x86
	testb	%al, %al
	jne	4b
	leaq	(%r14,%rbp,8), %rdx
	movq	%r13, %rcx
	movq	16(%rdx), %rax
	movdqu	-24(%rdx), %xmm0
	movdqu	%xmm0, (%rdx)
	movq	-8(%rdx), %rsi
	movq	%rsi, 16(%rdx)
	decq	%rcx
	jne	8f
	xorl	%ecx, %ecx
	jmp	3b
	.p2align	4
6:
	cmpq	%rdi, %r12
	jae	2b
7:
	leaq	(%r14,%rsi,8), %rsi
	leaq	(%rcx,%rcx,2), %rcx
	movq	16(%rsi), %rdi
	movq	%rdi, 16(%r14,%rcx,8)
	movdqu	(%rsi), %xmm0
	movdqu	%xmm0, (%r14,%rcx,8)
	movq	%rdx, %rcx
	testq	%rdx, %rdx
	je	1b
8:
	leaq	-1(%rcx), %rdx
	leaq	(%rdx,%rdx,2), %rsi
	movq	(%r14,%rsi,8), %r8
	movq	8(%r14,%rsi,8), %rdi
	cmpq	%r12, %rdi
	movq	%r12, %r9
	cmovbq	%rdi, %r9
	xorl	%r10d, %r10d
	cmpq	$64, %r9
	jb	10f
	movq	%r9, %r11
	.p2align	4
9:
	movdqu	(%r15,%r10), %xmm0
	movdqu	16(%r15,%r10), %xmm1
	movdqu	32(%r15,%r10), %xmm2
	movdqu	48(%r15,%r10), %xmm3
	movdqu	(%r8,%r10), %xmm4
	pcmpeqb	%xmm0, %xmm4
	movdqu	16(%r8,%r10), %xmm0
	pcmpeqb	%xmm1, %xmm0
	movdqu	32(%r8,%r10), %xmm1
	pcmpeqb	%xmm2, %xmm1
	pand	%xmm4, %xmm1
	movdqu	48(%r8,%r10), %xmm2
	pcmpeqb	%xmm3, %xmm2
	pand	%xmm0, %xmm2
	pand	%xmm1, %xmm2
	pmovmskb	%xmm2, %ebp
	cmpl	$65535, %ebp
	jne	10f
	addq	$64, %r10
	addq	$-64, %r11
	cmpq	$63, %r11
	ja	9b
10:
	movq	%r9, %r11
	subq	%r10, %r11
	cmpq	$8, %r11
	jb	12f
	.p2align	4
11:
	movq	(%r15,%r10), %rbp
	cmpq	(%r8,%r10), %rbp
	jne	12f
	addq	$8, %r10
	addq	$-8, %r11
	cmpq	$7, %r11
	ja	11b
12:
	cmpq	%r9, %r10
	jae	6b
	.p2align	4
13:
	movzbl	(%r8,%r10), %r11d
	cmpb	%r11b, (%r15,%r10)
	jne	14f
	incq	%r10
	cmpq	%r10, %r9
	jne	13b
	jmp	6b
	.p2align	4
14:
	jb	7b
	jmp	2b
15:
	addq	$8, %rsp
	popq	%rbx
	popq	%r12
	popq	%r13
	popq	%r14
	popq	%r15
	popq	%rbp
16:
	retq
	vj_end	core..slice..sort..small..insertion_sort..e08de7559db7a9ba_1_x86

	vj_function	std_alloc..compared..VecOrd..cmp..330a034538f27f99_1_x86
	cmpq	%rsi, %rcx
	movq	%rsi, %rax
	cmovbq	%rcx, %rax
	xorl	%r8d, %r8d
	cmpq	$64, %rax
	jb	2f
	movq	%rax, %r9
	.p2align	4
1:
	movdqu	(%rdi,%r8), %xmm0
	movdqu	16(%rdi,%r8), %xmm1
	movdqu	32(%rdi,%r8), %xmm2
	movdqu	48(%rdi,%r8), %xmm3
	movdqu	(%rdx,%r8), %xmm4
	pcmpeqb	%xmm0, %xmm4
	movdqu	16(%rdx,%r8), %xmm0
	pcmpeqb	%xmm1, %xmm0
	movdqu	32(%rdx,%r8), %xmm1
	pcmpeqb	%xmm2, %xmm1
	pand	%xmm4, %xmm1
	movdqu	48(%rdx,%r8), %xmm2
	pcmpeqb	%xmm3, %xmm2
	pand	%xmm0, %xmm2
	pand	%xmm1, %xmm2
	pmovmskb	%xmm2, %r10d
	cmpl	$65535, %r10d
	jne	2f
	addq	$64, %r8
	addq	$-64, %r9
	cmpq	$63, %r9
	ja	1b
2:
	movq	%rax, %r9
	subq	%r8, %r9
	cmpq	$8, %r9
	jb	4f
	.p2align	4
3:
	movq	(%rdi,%r8), %r10
	cmpq	(%rdx,%r8), %r10
	jne	4f
	addq	$8, %r8
	addq	$-8, %r9
	cmpq	$7, %r9
	ja	3b
4:
	cmpq	%rax, %r8
	jae	6f
	.p2align	4
5:
	movzbl	(%rdx,%r8), %r9d
	cmpb	%r9b, (%rdi,%r8)
	jne	7f
	incq	%r8
	cmpq	%r8, %rax
	jne	5b
6:
	cmpq	%rcx, %rsi
	setae	%al
	addb	%al, %al
	cmpq	%rcx, %rsi
	movzbl	%al, %ecx
	movl	$1, %eax
	cmovnel	%ecx, %eax
	retq
7:
	setae	%al
	addb	%al, %al
	retq
	vj_end	std_alloc..compared..VecOrd..cmp..330a034538f27f99_1_x86

	vj_function	core..slice..sort..unstable..quicksort..e08de7559db7a9ba_1_x86
	pushq	%rbp
	pushq	%r15
	pushq	%r14
	pushq	%r13
	pushq	%r12
	pushq	%rbx
	subq	$136, %rsp
	movl	%ecx, 44(%rsp)
	movq	%rdx, %rbx
	movq	%rdi, %r15
	movq	%rdx, 128(%rsp)
	subq	%rsi, %rbx
	cmpq	$17, %rbx
	jb	50f
	leaq	56(%r15), %rax
	movq	%rax, 112(%rsp)
	movq	%r15, 56(%rsp)
	jmp	4f
	.p2align	4
1:
	leaq	(,%rdx,8), %rax
	leaq	(%rax,%rax,2), %rax
	movdqu	(%r15,%rax), %xmm0
	movq	16(%r15,%rax), %rcx
	movq	%rcx, 16(%r15)
	movdqu	%xmm0, (%r15)
2:
	movq	%r13, (%r15,%rax)
	movups	%xmm5, 8(%r15,%rax)
	addq	%r10, %rdx
	movq	56(%rsp), %r15
	movq	%r15, %rdi
	movq	%r10, %rsi
	movl	44(%rsp), %ecx
	callq	core..slice..sort..unstable..quicksort..e08de7559db7a9ba_1_x86
	movq	32(%rsp), %rsi
3:
	addq	%r14, %rsi
	movq	128(%rsp), %rbx
	subq	%rsi, %rbx
	cmpq	$16, %rbx
	jbe	50f
4:
	cmpl	$0, 44(%rsp)
	je	51f
	movq	%rbx, %r8
	shrq	$3, %r8
	movq	%rbx, %r12
	andq	$-8, %r12
	subq	%r8, %r12
	addq	%rsi, %r12
	leaq	(%rsi,%r8,4), %r14
	cmpq	$63, %rbx
	movq	%rsi, 32(%rsp)
	ja	17f
	leaq	(%rsi,%rsi,2), %rax
	leaq	(%r14,%r14,2), %rcx
	movq	(%r15,%rax,8), %rbp
	movq	8(%r15,%rax,8), %r13
	movq	(%r15,%rcx,8), %rdx
	movq	8(%r15,%rcx,8), %rcx
	movq	%rbp, %rdi
	movq	%r13, %rsi
	movq	%rdx, 64(%rsp)
	movq	%rcx, 48(%rsp)
	callq	std_alloc..compared..VecOrd..cmp..330a034538f27f99_1_x86
	movb	%al, 96(%rsp)
	testb	%al, %al
	sete	80(%rsp)
	leaq	(%r12,%r12,2), %rax
	movq	(%r15,%rax,8), %rdx
	movq	8(%r15,%rax,8), %rcx
	movq	%rdx, %r15
	movq	%rbp, %rdi
	movq	%r13, %rsi
	movq	%rcx, %rbp
	callq	std_alloc..compared..VecOrd..cmp..330a034538f27f99_1_x86
	movq	32(%rsp), %r10
	testb	%al, %al
	sete	%al
	xorb	80(%rsp), %al
	movq	%r10, %r13
	jne	5f
	cmpb	$0, 96(%rsp)
	sete	%r13b
	movq	64(%rsp), %rdi
	movq	48(%rsp), %rsi
	movq	%r15, %rdx
	movq	%rbp, %rcx
	callq	std_alloc..compared..VecOrd..cmp..330a034538f27f99_1_x86
	movq	32(%rsp), %r10
	testb	%al, %al
	sete	%al
	xorb	%r13b, %al
	cmovneq	%r12, %r14
	movq	%r14, %r13
5:
	decl	44(%rsp)
	testq	%r10, %r10
	je	18f
6:
	leaq	(,%r10,8), %rax
	leaq	(%rax,%rax,2), %r15
	leaq	(,%r13,2), %rax
	addq	%r13, %rax
	movq	56(%rsp), %r14
	movq	-24(%r14,%r15), %rdi
	movq	-16(%r14,%r15), %rsi
	movq	(%r14,%rax,8), %rdx
	movq	8(%r14,%rax,8), %rcx
	movq	%r10, %r12
	callq	std_alloc..compared..VecOrd..cmp..330a034538f27f99_1_x86
	testb	%al, %al
	je	42f
	leaq	(%r14,%r15), %rbp
	subq	%r12, %r13
	movq	%r12, %rsi
	je	7f
	leaq	(,%r13,2), %rax
	addq	%r13, %rax
	movq	16(%rbp), %rcx
	movq	%rcx, 16(%rsp)
	movups	(%rbp), %xmm0
	movaps	%xmm0, (%rsp)
	movq	16(%rbp,%rax,8), %rcx
	movups	(%rbp,%rax,8), %xmm0
	movups	%xmm0, (%rbp)
	movq	%rcx, 16(%rbp)
	movq	16(%rsp), %rcx
	movq	%rcx, 16(%rbp,%rax,8)
	movdqa	(%rsp), %xmm0
	movdqu	%xmm0, (%rbp,%rax,8)
7:
	movq	(%rbp), %r13
	movq	8(%rbp), %r12
	movups	8(%rbp), %xmm5
	movl	$1, %r14d
	jmp	10f
	.p2align	4
8:
	cmpq	%rax, %r12
	jb	44f
9:
	incq	%r14
	cmpq	%rbx, %r14
	je	43f
10:
	leaq	(%r14,%r14,2), %rax
	movq	(%rbp,%rax,8), %rcx
	movq	8(%rbp,%rax,8), %rax
	cmpq	%r12, %rax
	movq	%r12, %rdx
	cmovbq	%rax, %rdx
	xorl	%r9d, %r9d
	cmpq	$64, %rdx
	jb	12f
	movq	%rdx, %rdi
	.p2align	4
11:
	movdqu	(%r13,%r9), %xmm0
	movdqu	16(%r13,%r9), %xmm1
	movdqu	32(%r13,%r9), %xmm2
	movdqu	48(%r13,%r9), %xmm3
	movdqu	(%rcx,%r9), %xmm4
	pcmpeqb	%xmm0, %xmm4
	movdqu	16(%rcx,%r9), %xmm0
	pcmpeqb	%xmm1, %xmm0
	movdqu	32(%rcx,%r9), %xmm1
	pcmpeqb	%xmm2, %xmm1
	pand	%xmm4, %xmm1
	movdqu	48(%rcx,%r9), %xmm2
	pcmpeqb	%xmm3, %xmm2
	pand	%xmm0, %xmm2
	pand	%xmm1, %xmm2
	pmovmskb	%xmm2, %r8d
	cmpl	$65535, %r8d
	jne	12f
	addq	$64, %r9
	addq	$-64, %rdi
	cmpq	$63, %rdi
	ja	11b
12:
	movq	%rdx, %rdi
	subq	%r9, %rdi
	cmpq	$8, %rdi
	jb	14f
	.p2align	4
13:
	movq	(%r13,%r9), %r8
	cmpq	(%rcx,%r9), %r8
	jne	14f
	addq	$8, %r9
	addq	$-8, %rdi
	cmpq	$7, %rdi
	ja	13b
14:
	cmpq	%rdx, %r9
	jae	8b
	.p2align	4
15:
	movzbl	(%rcx,%r9), %edi
	cmpb	%dil, (%r13,%r9)
	jne	16f
	incq	%r9
	cmpq	%r9, %rdx
	jne	15b
	jmp	8b
	.p2align	4
16:
	jae	9b
	jmp	44f
	.p2align	4
17:
	movq	%r15, %rdi
	movq	%r14, %rdx
	movq	%r12, %rcx
	callq	core..slice..sort..pivot..median_of_medians..e08de7559db7a9ba_1_x86
	movq	32(%rsp), %r10
	movq	%rax, %r13
	decl	44(%rsp)
	testq	%r10, %r10
	jne	6b
18:
	xorl	%r15d, %r15d
	addq	56(%rsp), %r15
	subq	%r10, %r13
	je	20f
19:
	leaq	(,%r13,2), %rax
	addq	%r13, %rax
	movq	16(%r15), %rcx
	movq	%rcx, 16(%rsp)
	movups	(%r15), %xmm0
	movaps	%xmm0, (%rsp)
	movq	16(%r15,%rax,8), %rcx
	movups	(%r15,%rax,8), %xmm0
	movups	%xmm0, (%r15)
	movq	%rcx, 16(%r15)
	movq	16(%rsp), %rcx
	movq	%rcx, 16(%r15,%rax,8)
	movdqa	(%rsp), %xmm0
	movdqu	%xmm0, (%r15,%rax,8)
20:
	movq	(%r15), %r13
	movq	8(%r15), %rcx
	movups	8(%r15), %xmm5
	movl	$1, %r14d
	jmp	23f
	.p2align	4
21:
	cmpq	%rcx, %rax
	jae	31f
22:
	incq	%r14
	cmpq	%rbx, %r14
	je	30f
23:
	leaq	(%r14,%r14,2), %rax
	movq	(%r15,%rax,8), %rdx
	movq	8(%r15,%rax,8), %rax
	cmpq	%rax, %rcx
	movq	%rax, %rsi
	cmovbq	%rcx, %rsi
	xorl	%edi, %edi
	cmpq	$64, %rsi
	jb	25f
	movq	%rsi, %r8
	.p2align	4
24:
	movdqu	(%rdx,%rdi), %xmm0
	movdqu	16(%rdx,%rdi), %xmm1
	movdqu	32(%rdx,%rdi), %xmm2
	movdqu	48(%rdx,%rdi), %xmm3
	movdqu	(%r13,%rdi), %xmm4
	pcmpeqb	%xmm0, %xmm4
	movdqu	16(%r13,%rdi), %xmm0
	pcmpeqb	%xmm1, %xmm0
	movdqu	32(%r13,%rdi), %xmm1
	pcmpeqb	%xmm2, %xmm1
	pand	%xmm4, %xmm1
	movdqu	48(%r13,%rdi), %xmm2
	pcmpeqb	%xmm3, %xmm2
	pand	%xmm0, %xmm2
	pand	%xmm1, %xmm2
	pmovmskb	%xmm2, %r9d
	cmpl	$65535, %r9d
	jne	25f
	addq	$64, %rdi
	addq	$-64, %r8
	cmpq	$63, %r8
	ja	24b
25:
	movq	%rsi, %r8
	subq	%rdi, %r8
	cmpq	$8, %r8
	jb	27f
	.p2align	4
26:
	movq	(%rdx,%rdi), %r9
	cmpq	(%r13,%rdi), %r9
	jne	27f
	addq	$8, %rdi
	addq	$-8, %r8
	cmpq	$7, %r8
	ja	26b
27:
	cmpq	%rsi, %rdi
	jae	21b
	.p2align	4
28:
	movzbl	(%r13,%rdi), %r8d
	cmpb	%r8b, (%rdx,%rdi)
	jne	29f
	incq	%rdi
	cmpq	%rdi, %rsi
	jne	28b
	jmp	21b
	.p2align	4
29:
	jb	22b
	jmp	31f
	.p2align	4
30:
	movq	%rbx, %r14
31:
	decq	%rbx
	cmpq	%rbx, %r14
	jae	33f
	leaq	1(%r14), %rax
	leaq	(%rax,%rax,2), %rdx
	movq	(%r15,%rdx,8), %rsi
	movq	%rsi, 48(%rsp)
	movq	8(%r15,%rdx,8), %rsi
	movdqu	8(%r15,%rdx,8), %xmm0
	cmpq	%rbx, %rax
	movaps	%xmm5, 80(%rsp)
	movdqa	%xmm0, 64(%rsp)
	jb	36f
32:
	movq	48(%rsp), %r12
	movq	%r12, %rdi
	movq	%r13, %rdx
	callq	std_alloc..compared..VecOrd..cmp..330a034538f27f99_1_x86
	leaq	(%r14,%r14,2), %rcx
	leaq	(%rbx,%rbx,2), %rdx
	movq	16(%r15,%rcx,8), %rsi
	movups	(%r15,%rcx,8), %xmm0
	movups	%xmm0, (%r15,%rdx,8)
	movq	%rsi, 16(%r15,%rdx,8)
	movq	%r12, (%r15,%rcx,8)
	movdqa	64(%rsp), %xmm0
	movdqu	%xmm0, 8(%r15,%rcx,8)
	cmpb	$1, %al
	adcq	$0, %r14
	movq	32(%rsp), %r10
	movaps	80(%rsp), %xmm5
33:
	movq	%r14, %rdx
	decq	%rdx
	jne	1b
	xorl	%eax, %eax
	jmp	2b
	.p2align	4
34:
	cmpq	%rcx, %r8
35:
	setb	%r8b
	leaq	(%r15,%rdi,8), %rdi
	leaq	(%r14,%r14,2), %r9
	leaq	(%rax,%rax,2), %rax
	movups	(%r15,%r9,8), %xmm0
	movq	16(%r15,%r9,8), %r10
	movq	%r10, 16(%r15,%rax,8)
	movups	%xmm0, (%r15,%rax,8)
	movdqu	(%rdi), %xmm0
	movq	16(%rdi), %rax
	movq	%rax, 16(%r15,%r9,8)
	movdqu	%xmm0, (%r15,%r9,8)
	movzbl	%r8b, %eax
	addq	%rax, %r14
	movq	%rdx, %rax
	cmpq	%rbx, %rdx
	je	32b
36:
	leaq	1(%rax), %rdx
	leaq	(%rdx,%rdx,2), %rdi
	movq	(%r15,%rdi,8), %r9
	movq	8(%r15,%rdi,8), %r8
	cmpq	%r8, %rcx
	movq	%r8, %r10
	cmovbq	%rcx, %r10
	xorl	%r11d, %r11d
	cmpq	$64, %r10
	jb	38f
	movq	%r10, %rbp
	.p2align	4
37:
	movdqu	(%r9,%r11), %xmm0
	movdqu	16(%r9,%r11), %xmm1
	movdqu	32(%r9,%r11), %xmm2
	movdqu	48(%r9,%r11), %xmm3
	movdqu	(%r13,%r11), %xmm4
	pcmpeqb	%xmm0, %xmm4
	movdqu	16(%r13,%r11), %xmm0
	pcmpeqb	%xmm1, %xmm0
	movdqu	32(%r13,%r11), %xmm1
	pcmpeqb	%xmm2, %xmm1
	pand	%xmm4, %xmm1
	movdqu	48(%r13,%r11), %xmm2
	pcmpeqb	%xmm3, %xmm2
	pand	%xmm0, %xmm2
	pand	%xmm1, %xmm2
	pmovmskb	%xmm2, %r12d
	cmpl	$65535, %r12d
	jne	38f
	addq	$64, %r11
	addq	$-64, %rbp
	cmpq	$63, %rbp
	ja	37b
38:
	movq	%r10, %rbp
	subq	%r11, %rbp
	cmpq	$8, %rbp
	jb	40f
	.p2align	4
39:
	movq	(%r9,%r11), %r12
	cmpq	(%r13,%r11), %r12
	jne	40f
	addq	$8, %r11
	addq	$-8, %rbp
	cmpq	$7, %rbp
	ja	39b
40:
	cmpq	%r10, %r11
	jae	34b
	.p2align	4
41:
	movzbl	(%r13,%r11), %ebp
	cmpb	%bpl, (%r9,%r11)
	jne	35b
	incq	%r11
	cmpq	%r11, %r10
	jne	41b
	jmp	34b
	.p2align	4
42:
	movq	%r12, %r10
	addq	56(%rsp), %r15
	subq	%r10, %r13
	jne	19b
	jmp	20b
43:
	movq	%rbx, %r14
44:
	leaq	-1(%rbx), %rdx
	cmpq	%rdx, %r14
	jae	47f
	leaq	1(%r14), %rax
	leaq	(%rax,%rax,2), %rcx
	movq	(%rbp,%rcx,8), %rsi
	movq	8(%rbp,%rcx,8), %rdi
	movdqu	8(%rbp,%rcx,8), %xmm0
	cmpq	%rdx, %rax
	movaps	%xmm5, 80(%rsp)
	movq	%rdx, 64(%rsp)
	movq	%rsi, 48(%rsp)
	movdqa	%xmm0, 96(%rsp)
	movq	%rdi, 120(%rsp)
	jae	46f
	leaq	(%r14,%r14,2), %rax
	leaq	(%r15,%rax,8), %r15
	addq	112(%rsp), %r15
	subq	%r14, %rbx
	addq	$-2, %rbx
	.p2align	4
45:
	movq	-8(%r15), %rdx
	movq	(%r15), %rcx
	movq	%r13, %rdi
	movq	%r12, %rsi
	callq	std_alloc..compared..VecOrd..cmp..330a034538f27f99_1_x86
	leaq	(%r14,%r14,2), %rcx
	movq	16(%rbp,%rcx,8), %rdx
	movups	(%rbp,%rcx,8), %xmm0
	movups	%xmm0, -32(%r15)
	movq	%rdx, -16(%r15)
	movdqu	-8(%r15), %xmm0
	movq	8(%r15), %rdx
	movq	%rdx, 16(%rbp,%rcx,8)
	movdqu	%xmm0, (%rbp,%rcx,8)
	cmpb	$1, %al
	sbbq	$-1, %r14
	addq	$24, %r15
	decq	%rbx
	jne	45b
46:
	movq	%r13, %rdi
	movq	%r12, %rsi
	movq	48(%rsp), %rbx
	movq	%rbx, %rdx
	movq	120(%rsp), %rcx
	callq	std_alloc..compared..VecOrd..cmp..330a034538f27f99_1_x86
	leaq	(%r14,%r14,2), %rcx
	movq	64(%rsp), %rdx
	leaq	(%rdx,%rdx,2), %rdx
	movq	16(%rbp,%rcx,8), %rsi
	movups	(%rbp,%rcx,8), %xmm0
	movups	%xmm0, (%rbp,%rdx,8)
	movq	%rsi, 16(%rbp,%rdx,8)
	movq	%rbx, (%rbp,%rcx,8)
	movdqa	96(%rsp), %xmm0
	movdqu	%xmm0, 8(%rbp,%rcx,8)
	cmpb	$1, %al
	sbbq	$-1, %r14
	movq	32(%rsp), %rsi
	movaps	80(%rsp), %xmm5
47:
	movq	%r14, %rax
	decq	%rax
	movq	56(%rsp), %r15
	je	48f
	shlq	$3, %rax
	leaq	(%rax,%rax,2), %rax
	movdqu	(%rbp,%rax), %xmm0
	movq	16(%rbp,%rax), %rcx
	movq	%rcx, 16(%rbp)
	movdqu	%xmm0, (%rbp)
	jmp	49f
48:
	xorl	%eax, %eax
49:
	movq	%r13, (%rbp,%rax)
	movups	%xmm5, 8(%rbp,%rax)
	jmp	3b
50:
	leaq	(%rsi,%rsi,2), %rax
	leaq	(%r15,%rax,8), %rdi
	movq	%rbx, %rsi
	addq	$136, %rsp
	popq	%rbx
	popq	%r12
	popq	%r13
	popq	%r14
	popq	%r15
	popq	%rbp
	jmp	core..slice..sort..small..insertion_sort..e08de7559db7a9ba_1_x86
51:
	leaq	(%rsi,%rsi,2), %rax
	leaq	(%r15,%rax,8), %rax
	movq	%rbx, %rcx
	shrq	%rcx
	movq	%rcx, %rsi
	jmp	53f
	.p2align	4
52:
	movq	32(%rsp), %rsi
	testq	%rsi, %rsi
	je	73f
53:
	decq	%rsi
	movq	%rsi, 32(%rsp)
	jmp	56f
	.p2align	4
54:
	movq	16(%r8), %rdx
	movq	%rdx, 16(%rsp)
	movups	(%r8), %xmm0
	movaps	%xmm0, (%rsp)
	movq	16(%r9), %rdx
	movups	(%r9), %xmm0
	movups	%xmm0, (%r8)
	movq	%rdx, 16(%r8)
	movq	16(%rsp), %rdx
	movq	%rdx, 16(%r9)
	movdqa	(%rsp), %xmm0
	movdqu	%xmm0, (%r9)
55:
	cmpq	%rcx, %rsi
	jae	52b
56:
	movq	%rsi, %rdi
	leaq	1(,%rsi,2), %rsi
	leaq	2(,%rdi,2), %r8
	cmpq	%rbx, %r8
	je	64f
	leaq	(%rsi,%rsi,2), %r9
	leaq	(%r8,%r8,2), %r11
	movq	(%rax,%r9,8), %r10
	movq	8(%rax,%r9,8), %r9
	movq	(%rax,%r11,8), %r14
	movq	8(%rax,%r11,8), %r11
	cmpq	%r9, %r11
	movq	%r9, %r15
	cmovbq	%r11, %r15
	xorl	%r12d, %r12d
	cmpq	$64, %r15
	jb	58f
	movq	%r15, %r13
	.p2align	4
57:
	movdqu	(%r10,%r12), %xmm0
	movdqu	16(%r10,%r12), %xmm1
	movdqu	32(%r10,%r12), %xmm2
	movdqu	48(%r10,%r12), %xmm3
	movdqu	(%r14,%r12), %xmm4
	pcmpeqb	%xmm0, %xmm4
	movdqu	16(%r14,%r12), %xmm0
	pcmpeqb	%xmm1, %xmm0
	movdqu	32(%r14,%r12), %xmm1
	pcmpeqb	%xmm2, %xmm1
	pand	%xmm4, %xmm1
	movdqu	48(%r14,%r12), %xmm2
	pcmpeqb	%xmm3, %xmm2
	pand	%xmm0, %xmm2
	pand	%xmm1, %xmm2
	pmovmskb	%xmm2, %ebp
	cmpl	$65535, %ebp
	jne	58f
	addq	$64, %r12
	addq	$-64, %r13
	cmpq	$63, %r13
	ja	57b
58:
	movq	%r15, %r13
	subq	%r12, %r13
	cmpq	$8, %r13
	jb	60f
	.p2align	4
59:
	movq	(%r10,%r12), %rbp
	cmpq	(%r14,%r12), %rbp
	jne	60f
	addq	$8, %r12
	addq	$-8, %r13
	cmpq	$7, %r13
	ja	59b
60:
	cmpq	%r15, %r12
	jae	62f
	.p2align	4
61:
	movzbl	(%r14,%r12), %ebp
	cmpb	%bpl, (%r10,%r12)
	jne	63f
	incq	%r12
	cmpq	%r12, %r15
	jne	61b
62:
	cmpq	%r11, %r9
63:
	setb	%r9b
	testb	%r9b, %r9b
	cmovneq	%r8, %rsi
64:
	leaq	(%rdi,%rdi,2), %r8
	leaq	(%rsi,%rsi,2), %r9
	movq	(%rax,%r8,8), %r11
	movq	8(%rax,%r8,8), %r10
	movq	(%rax,%r9,8), %r15
	movq	8(%rax,%r9,8), %r14
	cmpq	%r10, %r14
	movq	%r10, %r12
	cmovbq	%r14, %r12
	xorl	%r13d, %r13d
	cmpq	$64, %r12
	jb	66f
	movq	%r12, %rbp
	.p2align	4
65:
	movdqu	(%r11,%r13), %xmm0
	movdqu	16(%r11,%r13), %xmm1
	movdqu	32(%r11,%r13), %xmm2
	movdqu	48(%r11,%r13), %xmm3
	movdqu	(%r15,%r13), %xmm4
	pcmpeqb	%xmm0, %xmm4
	movdqu	16(%r15,%r13), %xmm0
	pcmpeqb	%xmm1, %xmm0
	movdqu	32(%r15,%r13), %xmm1
	pcmpeqb	%xmm2, %xmm1
	pand	%xmm4, %xmm1
	movdqu	48(%r15,%r13), %xmm2
	pcmpeqb	%xmm3, %xmm2
	pand	%xmm0, %xmm2
	pand	%xmm1, %xmm2
	pmovmskb	%xmm2, %edx
	cmpl	$65535, %edx
	jne	66f
	addq	$64, %r13
	addq	$-64, %rbp
	cmpq	$63, %rbp
	ja	65b
66:
	movq	%r12, %rbp
	subq	%r13, %rbp
	cmpq	$8, %rbp
	jb	68f
	.p2align	4
67:
	movq	(%r11,%r13), %rdx
	cmpq	(%r15,%r13), %rdx
	jne	68f
	addq	$8, %r13
	addq	$-8, %rbp
	cmpq	$7, %rbp
	ja	67b
68:
	cmpq	%r12, %r13
	jae	70f
	.p2align	4
69:
	movzbl	(%r15,%r13), %edx
	cmpb	%dl, (%r11,%r13)
	jne	71f
	incq	%r13
	cmpq	%r13, %r12
	jne	69b
70:
	cmpq	%r14, %r10
71:
	jae	52b
	leaq	(%rax,%r8,8), %r8
	leaq	(%rax,%r9,8), %r9
	cmpq	%rsi, %rdi
	jb	54b
	jbe	55b
	movq	16(%r9), %rdx
	movq	%rdx, 16(%rsp)
	movups	(%r9), %xmm0
	movaps	%xmm0, (%rsp)
	movq	16(%r8), %rdx
	movups	(%r8), %xmm0
	movups	%xmm0, (%r9)
	movq	%rdx, 16(%r9)
	movq	16(%rsp), %rdx
	movq	%rdx, 16(%r8)
	movdqa	(%rsp), %xmm0
	movdqu	%xmm0, (%r8)
	jmp	55b
	.p2align	4
72:
	cmpq	$1, %rbx
	jbe	92f
73:
	decq	%rbx
	leaq	(%rbx,%rbx,2), %rcx
	movq	16(%rax), %rdx
	movq	%rdx, 16(%rsp)
	movups	(%rax), %xmm0
	movaps	%xmm0, (%rsp)
	movq	16(%rax,%rcx,8), %rdx
	movups	(%rax,%rcx,8), %xmm0
	movups	%xmm0, (%rax)
	movq	%rdx, 16(%rax)
	movq	16(%rsp), %rdx
	movq	%rdx, 16(%rax,%rcx,8)
	movdqa	(%rsp), %xmm0
	movdqu	%xmm0, (%rax,%rcx,8)
	movq	%rbx, %rcx
	shrq	%rcx
	je	72b
	xorl	%edx, %edx
	jmp	76f
	.p2align	4
74:
	movq	16(%rdi), %rsi
	movq	%rsi, 16(%rsp)
	movups	(%rdi), %xmm0
	movaps	%xmm0, (%rsp)
	movq	16(%r8), %rsi
	movups	(%r8), %xmm0
	movups	%xmm0, (%rdi)
	movq	%rsi, 16(%rdi)
	movq	16(%rsp), %rsi
	movq	%rsi, 16(%r8)
	movdqa	(%rsp), %xmm0
	movdqu	%xmm0, (%r8)
75:
	cmpq	%rcx, %rdx
	jae	72b
76:
	movq	%rdx, %rsi
	leaq	1(,%rdx,2), %rdx
	leaq	2(,%rsi,2), %rdi
	cmpq	%rbx, %rdi
	je	84f
	leaq	(%rdx,%rdx,2), %r8
	leaq	(%rdi,%rdi,2), %r10
	movq	(%rax,%r8,8), %r9
	movq	8(%rax,%r8,8), %r8
	movq	(%rax,%r10,8), %r11
	movq	8(%rax,%r10,8), %r10
	cmpq	%r8, %r10
	movq	%r8, %r14
	cmovbq	%r10, %r14
	xorl	%r15d, %r15d
	cmpq	$64, %r14
	jb	78f
	movq	%r14, %r12
	.p2align	4
77:
	movdqu	(%r9,%r15), %xmm0
	movdqu	16(%r9,%r15), %xmm1
	movdqu	32(%r9,%r15), %xmm2
	movdqu	48(%r9,%r15), %xmm3
	movdqu	(%r11,%r15), %xmm4
	pcmpeqb	%xmm0, %xmm4
	movdqu	16(%r11,%r15), %xmm0
	pcmpeqb	%xmm1, %xmm0
	movdqu	32(%r11,%r15), %xmm1
	pcmpeqb	%xmm2, %xmm1
	pand	%xmm4, %xmm1
	movdqu	48(%r11,%r15), %xmm2
	pcmpeqb	%xmm3, %xmm2
	pand	%xmm0, %xmm2
	pand	%xmm1, %xmm2
	pmovmskb	%xmm2, %ebp
	cmpl	$65535, %ebp
	jne	78f
	addq	$64, %r15
	addq	$-64, %r12
	cmpq	$63, %r12
	ja	77b
78:
	movq	%r14, %r12
	subq	%r15, %r12
	cmpq	$8, %r12
	jb	80f
	.p2align	4
79:
	movq	(%r9,%r15), %r13
	cmpq	(%r11,%r15), %r13
	jne	80f
	addq	$8, %r15
	addq	$-8, %r12
	cmpq	$7, %r12
	ja	79b
80:
	cmpq	%r14, %r15
	jae	82f
	.p2align	4
81:
	movzbl	(%r11,%r15), %ebp
	cmpb	%bpl, (%r9,%r15)
	jne	83f
	incq	%r15
	cmpq	%r15, %r14
	jne	81b
82:
	cmpq	%r10, %r8
83:
	setb	%r8b
	testb	%r8b, %r8b
	cmovneq	%rdi, %rdx
84:
	leaq	(%rsi,%rsi,2), %rdi
	leaq	(%rdx,%rdx,2), %r8
	movq	(%rax,%rdi,8), %r10
	movq	8(%rax,%rdi,8), %r9
	movq	(%rax,%r8,8), %r14
	movq	8(%rax,%r8,8), %r11
	cmpq	%r9, %r11
	movq	%r9, %r15
	cmovbq	%r11, %r15
	xorl	%r12d, %r12d
	cmpq	$64, %r15
	jb	86f
	movq	%r15, %r13
	.p2align	4
85:
	movdqu	(%r10,%r12), %xmm0
	movdqu	16(%r10,%r12), %xmm1
	movdqu	32(%r10,%r12), %xmm2
	movdqu	48(%r10,%r12), %xmm3
	movdqu	(%r14,%r12), %xmm4
	pcmpeqb	%xmm0, %xmm4
	movdqu	16(%r14,%r12), %xmm0
	pcmpeqb	%xmm1, %xmm0
	movdqu	32(%r14,%r12), %xmm1
	pcmpeqb	%xmm2, %xmm1
	pand	%xmm4, %xmm1
	movdqu	48(%r14,%r12), %xmm2
	pcmpeqb	%xmm3, %xmm2
	pand	%xmm0, %xmm2
	pand	%xmm1, %xmm2
	pmovmskb	%xmm2, %ebp
	cmpl	$65535, %ebp
	jne	86f
	addq	$64, %r12
	addq	$-64, %r13
	cmpq	$63, %r13
	ja	85b
86:
	movq	%r15, %r13
	subq	%r12, %r13
	cmpq	$8, %r13
	jb	88f
	.p2align	4
87:
	movq	(%r10,%r12), %rbp
	cmpq	(%r14,%r12), %rbp
	jne	88f
	addq	$8, %r12
	addq	$-8, %r13
	cmpq	$7, %r13
	ja	87b
88:
	cmpq	%r15, %r12
	jae	90f
	.p2align	4
89:
	movzbl	(%r14,%r12), %ebp
	cmpb	%bpl, (%r10,%r12)
	jne	91f
	incq	%r12
	cmpq	%r12, %r15
	jne	89b
90:
	cmpq	%r11, %r9
91:
	jae	72b
	leaq	(%rax,%rdi,8), %rdi
	leaq	(%rax,%r8,8), %r8
	cmpq	%rdx, %rsi
	jb	74b
	jbe	75b
	movq	16(%r8), %rsi
	movq	%rsi, 16(%rsp)
	movups	(%r8), %xmm0
	movaps	%xmm0, (%rsp)
	movq	16(%rdi), %rsi
	movups	(%rdi), %xmm0
	movups	%xmm0, (%r8)
	movq	%rsi, 16(%r8)
	movq	16(%rsp), %rsi
	movq	%rsi, 16(%rdi)
	movdqa	(%rsp), %xmm0
	movdqu	%xmm0, (%rdi)
	jmp	75b
92:
	addq	$136, %rsp
	popq	%rbx
	popq	%r12
	popq	%r13
	popq	%r14
	popq	%r15
	popq	%rbp
	retq
	vj_end	core..slice..sort..unstable..quicksort..e08de7559db7a9ba_1_x86

	vj_function	core..slice..sort..pivot..median_of_medians..e08de7559db7a9ba_1_x86
	pushq	%rbp
	pushq	%r15
	pushq	%r14
	pushq	%r13
	pushq	%r12
	pushq	%rbx
	subq	$40, %rsp
	movq	%rcx, %r14
	movq	%rdx, %r12
	movq	%rsi, %rbx
	movq	%rdi, %r15
	cmpq	$8, %r8
	jae	1f
	leaq	(%rbx,%rbx,2), %rax
	leaq	(%r12,%r12,2), %rcx
	movq	(%r15,%rax,8), %r13
	movq	8(%r15,%rax,8), %rbp
	movq	(%r15,%rcx,8), %rdx
	movq	8(%r15,%rcx,8), %rcx
	movq	%r13, %rdi
	movq	%rbp, %rsi
	movq	%rdx, 24(%rsp)
	movq	%rcx, 16(%rsp)
	callq	std_alloc..compared..VecOrd..cmp..330a034538f27f99_1_x86
	movb	%al, 8(%rsp)
	testb	%al, %al
	sete	7(%rsp)
	leaq	(%r14,%r14,2), %rax
	movq	(%r15,%rax,8), %rcx
	movq	8(%r15,%rax,8), %r15
	movq	%r13, %rdi
	movq	%rcx, %r13
	movq	%rbp, %rsi
	movq	%rcx, %rdx
	movq	%r15, %rcx
	callq	std_alloc..compared..VecOrd..cmp..330a034538f27f99_1_x86
	testb	%al, %al
	sete	%al
	xorb	7(%rsp), %al
	jne	2f
	cmpb	$0, 8(%rsp)
	sete	%bl
	movq	24(%rsp), %rdi
	movq	16(%rsp), %rsi
	movq	%r13, %rdx
	movq	%r15, %rcx
	callq	std_alloc..compared..VecOrd..cmp..330a034538f27f99_1_x86
	testb	%al, %al
	sete	%al
	xorb	%bl, %al
	cmovneq	%r14, %r12
	movq	%r12, %rbx
	jmp	2f
1:
	movq	%r8, %r13
	shrq	$3, %r13
	leaq	(%rbx,%r13,4), %rdx
	andq	$-8, %r8
	subq	%r13, %r8
	leaq	(%r8,%rbx), %rcx
	movq	%r15, %rdi
	movq	%rbx, %rsi
	movq	%r8, %rbp
	movq	%r13, %r8
	callq	core..slice..sort..pivot..median_of_medians..e08de7559db7a9ba_1_x86
	movq	%rax, %rbx
	leaq	(%r12,%r13,4), %rdx
	leaq	(%r12,%rbp), %rcx
	movq	%r15, %rdi
	movq	%r12, %rsi
	movq	%r13, %r8
	callq	core..slice..sort..pivot..median_of_medians..e08de7559db7a9ba_1_x86
	movq	%rax, %r12
	leaq	(%r14,%r13,4), %rdx
	addq	%r14, %rbp
	movq	%r15, %rdi
	movq	%r14, %rsi
	movq	%rbp, %rcx
	movq	%r13, %r8
	callq	core..slice..sort..pivot..median_of_medians..e08de7559db7a9ba_1_x86
	movq	%rax, %r14
	leaq	(%rbx,%rbx,2), %rax
	movq	%r12, 24(%rsp)
	leaq	(%r12,%r12,2), %rcx
	movq	(%r15,%rax,8), %r13
	movq	8(%r15,%rax,8), %rbp
	movq	(%r15,%rcx,8), %rdx
	movq	8(%r15,%rcx,8), %rcx
	movq	%r13, %rdi
	movq	%rbp, %rsi
	movq	%rdx, 8(%rsp)
	movq	%rcx, 32(%rsp)
	callq	std_alloc..compared..VecOrd..cmp..330a034538f27f99_1_x86
	movl	%eax, %r12d
	testb	%al, %al
	sete	7(%rsp)
	movq	%r14, 16(%rsp)
	leaq	(%r14,%r14,2), %rax
	movq	(%r15,%rax,8), %r14
	movq	8(%r15,%rax,8), %r15
	movq	%r13, %rdi
	movq	%rbp, %rsi
	movq	%r14, %rdx
	movq	%r15, %rcx
	callq	std_alloc..compared..VecOrd..cmp..330a034538f27f99_1_x86
	testb	%al, %al
	sete	%al
	xorb	7(%rsp), %al
	jne	2f
	testb	%r12b, %r12b
	sete	%bl
	movq	8(%rsp), %rdi
	movq	32(%rsp), %rsi
	movq	%r14, %rdx
	movq	%r15, %rcx
	callq	std_alloc..compared..VecOrd..cmp..330a034538f27f99_1_x86
	testb	%al, %al
	sete	%al
	xorb	%bl, %al
	movq	24(%rsp), %rbx
	cmovneq	16(%rsp), %rbx
2:
	movq	%rbx, %rax
	addq	$40, %rsp
	popq	%rbx
	popq	%r12
	popq	%r13
	popq	%r14
	popq	%r15
	popq	%rbp
	retq
	vj_end	core..slice..sort..pivot..median_of_medians..e08de7559db7a9ba_1_x86

	vj_function	core..slice..edits..mirror..2262cf5b90b10fda_1_x86
	subq	$24, %rsp
	leaq	(%rdx,%rdx,2), %rax
	leaq	(%rsi,%rax,8), %rax
	addq	$-24, %rax
	.p2align	4
1:
	movq	16(%rdi), %rcx
	movq	%rcx, 16(%rsp)
	movups	(%rdi), %xmm0
	movaps	%xmm0, (%rsp)
	movq	16(%rax), %rcx
	movups	(%rax), %xmm0
	movups	%xmm0, (%rdi)
	movq	%rcx, 16(%rdi)
	movq	16(%rsp), %rcx
	movq	%rcx, 16(%rax)
	movaps	(%rsp), %xmm0
	movups	%xmm0, (%rax)
	addq	$24, %rdi
	addq	$-24, %rax
	decq	%rdx
	jne	1b
	addq	$24, %rsp
	retq
	vj_end	core..slice..edits..mirror..2262cf5b90b10fda_1_x86

	vj_function	b2sum_commands..line_reader..LineReader..read_line..5254a3ddd78d1e3f_1_x86
	pushq	%rbp
	pushq	%r15
	pushq	%r14
	pushq	%r13
	pushq	%r12
	pushq	%rbx
	subq	$40, %rsp
	movq	%rdx, %r14
	movq	%rsi, 32(%rsp)
	movq	%rdi, %rbp
	leaq	8(%rdx), %rdi
	cmpq	$0, 8(%rdx)
	je	1f
	movq	$0, (%rdi)
1:
	leaq	24(%rbp), %rax
	movq	%rax, 24(%rsp)
	movq	32(%rbp), %rdx
	xorl	%ebx, %ebx
	movq	%rbp, 8(%rsp)
2:
	movq	(%rbp), %r10
	movq	24(%rbp), %rbp
	leaq	(%r10,%rbp), %rsi
	movq	%rdx, %r13
	subq	%rbp, %r13
	je	4f
	movq	%rbp, %r15
	subq	%rdx, %r15
	xorl	%r12d, %r12d
	.p2align	4
3:
	cmpb	$10, (%rsi,%r12)
	je	17f
	incq	%r12
	movq	%r15, %rax
	addq	%r12, %rax
	jne	3b
4:
	movq	8(%r14), %r15
	movq	16(%r14), %r9
	movq	%r9, %rax
	subq	%r15, %rax
	cmpq	%rax, %r13
	ja	13f
5:
	movq	(%r14), %r12
	xorps	%xmm0, %xmm0
	movups	%xmm0, (%rdi)
	leaq	(%r12,%r15), %rdi
	movq	%rdi, %rax
	subq	%rsi, %rax
	cmpq	%r13, %rax
	jae	7f
	cmpq	$4, %r13
	jb	6f
	cmpq	$32, %rax
	jae	8f
6:
	xorl	%eax, %eax
	movq	8(%rsp), %rbp
	jmp	14f
	.p2align	4
7:
	movq	%r13, %rdx
	movq	%r9, %rbp
	vj_c_call	memmove
	movq	%rbp, %r9
	movq	8(%rsp), %rbp
	jmp	16f
8:
	cmpq	$32, %r13
	jae	9f
	xorl	%eax, %eax
	movq	8(%rsp), %rbp
	jmp	11f
9:
	movq	%r13, %rax
	andq	$-32, %rax
	leaq	(%r10,%rbp), %rcx
	addq	$16, %rcx
	leaq	(%r12,%r15), %rdx
	addq	$16, %rdx
	xorl	%r8d, %r8d
	.p2align	4
10:
	movups	-16(%rcx,%r8), %xmm0
	movups	(%rcx,%r8), %xmm1
	movups	%xmm0, -16(%rdx,%r8)
	movups	%xmm1, (%rdx,%r8)
	addq	$32, %r8
	cmpq	%r8, %rax
	jne	10b
	cmpq	%rax, %r13
	movq	8(%rsp), %rbp
	je	16f
	testb	$28, %r13b
	je	14f
11:
	movq	%rax, %rcx
	movq	%r13, %rax
	andq	$-4, %rax
	.p2align	4
12:
	movl	(%rsi,%rcx), %edx
	movl	%edx, (%rdi,%rcx)
	addq	$4, %rcx
	cmpq	%rcx, %rax
	jne	12b
	jmp	15f
13:
	movq	%r10, %r12
	movq	%rsi, 16(%rsp)
	movq	%r14, %rdi
	movq	%r13, %rsi
	callq	std_alloc..vec..Vec..grow_amortized..01eec35b572d02af_1_x86
	testb	%al, %al
	je	36f
	movq	8(%r14), %r15
	movq	16(%r14), %r9
	movq	16(%rsp), %rsi
	leaq	8(%r14), %rdi
	movq	%r12, %r10
	jmp	5b
	.p2align	4
14:
	movzbl	(%rsi,%rax), %ecx
	movb	%cl, (%rdi,%rax)
	incq	%rax
15:
	cmpq	%rax, %r13
	jne	14b
16:
	addq	%r13, %r15
	movq	%r12, (%r14)
	movq	%r15, 8(%r14)
	movq	%r9, 16(%r14)
	xorps	%xmm0, %xmm0
	movq	24(%rsp), %rax
	movups	%xmm0, (%rax)
	movq	(%rbp), %rsi
	movq	8(%rbp), %rdx
	movq	32(%rsp), %rdi
	callq	b2sum..disk..OpenedOpenFile..read..ec2583f154d97a77_1_x86
	testb	%al, %al
	jne	29f
	movq	%rdx, 32(%rbp)
	testq	%rdx, %rdx
	je	30f
	incq	%rbx
	cmpq	$-1, %rbx
	leaq	8(%r14), %rdi
	jne	2b
	jmp	36f
17:
	movq	8(%r14), %rax
	movq	16(%r14), %rbx
	movq	%rbx, %rcx
	subq	%rax, %rcx
	cmpq	%rcx, %r12
	ja	35f
18:
	leaq	(%rax,%r12), %r11
	movq	(%r14), %r13
	xorps	%xmm0, %xmm0
	movups	%xmm0, (%rdi)
	leaq	(%rax,%r13), %rdi
	movq	%rdi, %rcx
	subq	%rsi, %rcx
	cmpq	%r12, %rcx
	jae	24f
	cmpq	$4, %r12
	jb	19f
	cmpq	$32, %rcx
	jae	28f
19:
	xorl	%ecx, %ecx
20:
	movq	%rcx, %rdx
	testb	$3, %r12b
	je	22f
	movzbl	%r12b, %r8d
	andl	$3, %r8d
	movq	%rcx, %rdx
	.p2align	4
21:
	movzbl	(%rsi,%rdx), %r9d
	movb	%r9b, (%rdi,%rdx)
	incq	%rdx
	decq	%r8
	jne	21b
22:
	subq	%r12, %rcx
	cmpq	$-4, %rcx
	ja	25f
	leaq	(%r10,%rbp), %rcx
	addq	$3, %rcx
	addq	%r13, %rax
	addq	$3, %rax
	.p2align	4
23:
	movzbl	-3(%rcx,%rdx), %esi
	movb	%sil, -3(%rax,%rdx)
	movzbl	-2(%rcx,%rdx), %esi
	movb	%sil, -2(%rax,%rdx)
	movzbl	-1(%rcx,%rdx), %esi
	movb	%sil, -1(%rax,%rdx)
	movzbl	(%rcx,%rdx), %esi
	movb	%sil, (%rax,%rdx)
	addq	$4, %rdx
	cmpq	%rdx, %r12
	jne	23b
	jmp	25f
24:
	movq	%r12, %rdx
	movq	%r11, %rbp
	vj_c_call	memmove
	movq	%rbp, %r11
25:
	movq	%r13, (%r14)
	movq	%r11, 8(%r14)
	movq	%rbx, 16(%r14)
	movq	8(%rsp), %rcx
	addq	32(%rcx), %r15
	leaq	(%r12,%r15), %rax
	incq	%rax
	movq	%rax, 24(%rcx)
	xorl	%edx, %edx
26:
	xorl	%eax, %eax
27:
	addq	$40, %rsp
	popq	%rbx
	popq	%r12
	popq	%r13
	popq	%r14
	popq	%r15
	popq	%rbp
	retq
28:
	cmpq	$32, %r12
	jae	31f
	xorl	%ecx, %ecx
	jmp	33f
29:
	cmpb	$1, %al
	sete	%dl
	incb	%dl
	jmp	26b
30:
	movb	$1, %dl
	jmp	26b
31:
	movq	%r12, %rcx
	andq	$-32, %rcx
	leaq	(%r10,%rbp), %rdx
	addq	$16, %rdx
	leaq	(%rax,%r13), %r8
	addq	$16, %r8
	xorl	%r9d, %r9d
	.p2align	4
32:
	movups	-16(%rdx,%r9), %xmm0
	movups	(%rdx,%r9), %xmm1
	movups	%xmm0, -16(%r8,%r9)
	movups	%xmm1, (%r8,%r9)
	addq	$32, %r9
	cmpq	%r9, %rcx
	jne	32b
	cmpq	%rcx, %r12
	je	25b
	testb	$28, %r12b
	je	20b
33:
	movq	%rcx, %rdx
	movq	%r12, %rcx
	andq	$-4, %rcx
	.p2align	4
34:
	movl	(%rsi,%rdx), %r8d
	movl	%r8d, (%rdi,%rdx)
	addq	$4, %rdx
	cmpq	%rdx, %rcx
	jne	34b
	cmpq	%rcx, %r12
	je	25b
	jmp	20b
35:
	movq	%r10, %r13
	movq	%rsi, 16(%rsp)
	movq	%r14, %rdi
	movq	%r12, %rsi
	callq	std_alloc..vec..Vec..grow_amortized..01eec35b572d02af_1_x86
	testb	%al, %al
	je	36f
	movq	8(%r14), %rax
	movq	16(%r14), %rbx
	movq	16(%rsp), %rsi
	leaq	8(%r14), %rdi
	movq	%r13, %r10
	jmp	18b
36:
	movb	$1, %al
	xorl	%edx, %edx
	jmp	27b
	vj_end	b2sum_commands..line_reader..LineReader..read_line..5254a3ddd78d1e3f_1_x86

	vj_function	b2sum_commands..seals..print_list..82a450bcca081e63_1_x86
	pushq	%rbp
	pushq	%r15
	pushq	%r14
	pushq	%r13
	pushq	%r12
	pushq	%rbx
	subq	$264, %rsp
	xorps	%xmm0, %xmm0
	movaps	%xmm0, 64(%rsp)
	movaps	%xmm0, 48(%rsp)
	cmpb	$0, 211(%rsi)
	je	2f
	leaq	15(%rsp), %rax
	movq	%rax, 24(%rsp)
	movups	%xmm0, 32(%rsp)
	leaq	24(%rsp), %r9
	movq	%rsi, %r14
	movq	%rdx, %r12
	callq	b2sum_commands..sums..print_lines..82a450bcca081e63_1_x86
	testb	%al, %al
	je	3f
	movb	$1, %al
	cmpq	$0, 40(%rsp)
	je	17f
	movq	24(%rsp), %rdi
1:
	movl	%edx, %ebx
	vj_call	rattle_dealloc
	movb	$1, %al
	movl	%ebx, %edx
	jmp	17f
2:
	movups	%xmm0, 96(%rsp)
	leaq	15(%rsp), %rax
	movq	%rax, 88(%rsp)
	leaq	88(%rsp), %r9
	callq	b2sum_commands..sums..print_lines..82a450bcca081e63_1_x86
	cmpq	$0, 104(%rsp)
	je	17f
	movq	88(%rsp), %rdi
	movl	%edx, %ebx
	movl	%eax, %ebp
	vj_call	rattle_dealloc
	movl	%ebp, %eax
	movl	%ebx, %edx
	jmp	17f
3:
	testb	$1, %dl
	je	4f
	movq	24(%rsp), %rbx
	movq	32(%rsp), %rcx
	leaq	48(%rsp), %rdi
	movq	%r14, %rsi
	movq	%rbx, %rdx
	callq	b2sum_commands..seals..seal_line..d6b15712839574eb_1_x86
	cmpb	$0, 48(%rsp)
	je	6f
	movzbl	49(%rsp), %edx
	movb	$1, %al
	cmpq	$0, 40(%rsp)
	je	17f
	movq	%rbx, %rdi
	jmp	1b
4:
	cmpq	$0, 40(%rsp)
	je	5f
	movq	24(%rsp), %rdi
	vj_call	rattle_dealloc
5:
	xorl	%edx, %edx
	xorl	%eax, %eax
	jmp	17f
6:
	movq	56(%rsp), %r14
	movq	72(%rsp), %rcx
	testb	$1, 128(%r12)
	jne	14f
	movq	%rcx, 16(%rsp)
	movq	64(%rsp), %rbp
	testq	%rbp, %rbp
	je	8f
	xorl	%r13d, %r13d
7:
	leaq	(%r14,%r13), %rsi
	movq	%rbp, %r15
	subq	%r13, %r15
	movl	$1, %edi
	movq	%r15, %rdx
	vj_system_call	write, b2_write
	testq	%rax, %rax
	js	11f
	cmpq	%r15, %rax
	cmovbq	%rax, %r15
	testq	%r15, %r15
	je	12f
	addq	%r15, %r13
	cmpq	%rbp, %r13
	jb	7b
8:
	cmpq	$0, 16(%rsp)
	je	9f
	movq	%r14, %rdi
	vj_call	rattle_dealloc
9:
	movb	$1, %dl
	cmpq	$0, 40(%rsp)
	je	10f
	movq	%rbx, %rdi
	vj_call	rattle_dealloc
	movb	$1, %dl
10:
	xorl	%eax, %eax
	jmp	17f
11:
	leaq	88(%rsp), %rdi
	callq	std_io..io..error..last_error_1_x86
	movq	88(%rsp), %rax
	movups	96(%rsp), %xmm0
	movaps	%xmm0, 176(%rsp)
	movups	112(%rsp), %xmm0
	movaps	%xmm0, 192(%rsp)
	movups	128(%rsp), %xmm0
	movaps	%xmm0, 208(%rsp)
	movups	144(%rsp), %xmm0
	movaps	%xmm0, 224(%rsp)
	movups	160(%rsp), %xmm0
	movaps	%xmm0, 240(%rsp)
	movq	$1, 128(%r12)
	movq	%rax, 136(%r12)
	movaps	176(%rsp), %xmm0
	movaps	192(%rsp), %xmm1
	movaps	208(%rsp), %xmm2
	movaps	224(%rsp), %xmm3
	movups	%xmm0, 144(%r12)
	movups	%xmm1, 160(%r12)
	movups	%xmm2, 176(%r12)
	movups	%xmm3, 192(%r12)
	movaps	240(%rsp), %xmm0
	movups	%xmm0, 208(%r12)
	jmp	13f
12:
	movq	$1, 128(%r12)
	movw	$5889, 136(%r12)
	xorps	%xmm0, %xmm0
	movups	%xmm0, 138(%r12)
	movups	%xmm0, 154(%r12)
	movups	%xmm0, 170(%r12)
	movups	%xmm0, 186(%r12)
	movups	%xmm0, 202(%r12)
	movq	$0, 216(%r12)
13:
	movq	16(%rsp), %rcx
14:
	testq	%rcx, %rcx
	je	15f
	movq	%r14, %rdi
	vj_call	rattle_dealloc
15:
	movb	$1, %dl
	cmpq	$0, 40(%rsp)
	je	16f
	movq	%rbx, %rdi
	vj_call	rattle_dealloc
	movb	$1, %dl
16:
	movb	$1, %al
17:
	addq	$264, %rsp
	popq	%rbx
	popq	%r12
	popq	%r13
	popq	%r14
	popq	%r15
	popq	%rbp
	retq
	vj_end	b2sum_commands..seals..print_list..82a450bcca081e63_1_x86

	vj_function	b2sum_commands..sums..print_lines..82a450bcca081e63_1_x86
	pushq	%rbp
	pushq	%r15
	pushq	%r14
	pushq	%r13
	pushq	%r12
	pushq	%rbx
	subq	$712, %rsp
	movq	%rcx, 344(%rsp)
	movq	%rdi, 392(%rsp)
	leaq	16(%rsp), %r15
	movq	%r15, 400(%rsp)
	xorps	%xmm0, %xmm0
	movups	%xmm0, 408(%rsp)
	movups	%xmm0, 424(%rsp)
	movq	$0, 440(%rsp)
	movq	$1, 448(%rsp)
	movq	$65536, 456(%rsp)
	movq	$0, 464(%rsp)
	movq	%r15, 472(%rsp)
	movups	%xmm0, 480(%rsp)
	movq	%r8, 336(%rsp)
	testq	%r8, %r8
	je	117f
	movq	%rdx, %rbx
	movq	%rsi, %r10
	movq	%r9, 48(%rsp)
	leaq	8(%r9), %rax
	movq	%rax, 384(%rsp)
	movb	$1, %al
	xorl	%ebp, %ebp
	movq	%rdx, 184(%rsp)
	movq	%rsi, 32(%rsp)
	jmp	2f
	.p2align	4
1:
	testb	%dl, %dl
	sete	%al
	movzbl	47(%rsp), %ecx
	andb	%al, %cl
	movl	%ecx, %eax
	incq	%rbp
	cmpq	336(%rsp), %rbp
	movq	32(%rsp), %r10
	je	126f
2:
	movb	%al, 47(%rsp)
	movq	424(%rsp), %rax
	movq	440(%rsp), %rcx
	movq	%rax, %rdx
	incq	%rdx
	movq	$-1, %rsi
	cmovneq	%rdx, %rsi
	movq	%rsi, 424(%rsp)
	cmpq	%rax, %rcx
	ja	3f
	cmpq	$0, 32(%r10)
	jne	3f
	cmpb	$0, 216(%r10)
	jne	3f
	movzbl	(%r10), %ecx
	movl	4(%r10), %edx
	movq	8(%r10), %rsi
	movl	%ecx, 192(%rsp)
	movl	%edx, 196(%rsp)
	movq	%rsi, 200(%rsp)
	movq	336(%rsp), %rcx
	subq	%rax, %rcx
	jb	3f
	leaq	(%rax,%rax,2), %rax
	movq	344(%rsp), %rdx
	leaq	(%rdx,%rax,8), %rdx
	leaq	192(%rsp), %rsi
	leaq	400(%rsp), %r8
	movq	%r10, %rdi
	callq	b2sum_commands..ahead..read_group..432d41b752d14b0e_1_x86
	movq	32(%rsp), %r10
	.p2align	4
3:
	leaq	(,%rbp,8), %rax
	leaq	(%rax,%rax,2), %rax
	movq	344(%rsp), %rcx
	movq	(%rcx,%rax), %r12
	movq	8(%rcx,%rax), %r15
	xorps	%xmm0, %xmm0
	movaps	%xmm0, 512(%rsp)
	movaps	%xmm0, 528(%rsp)
	movaps	%xmm0, 544(%rsp)
	movaps	%xmm0, 560(%rsp)
	movq	8(%r10), %r14
	movzbl	(%r10), %eax
	movl	4(%r10), %ecx
	movl	%eax, 496(%rsp)
	movl	%ecx, 500(%rsp)
	movq	%r14, 504(%rsp)
	leaq	512(%rsp), %r13
	movq	%r13, 8(%rsp)
	leaq	496(%rsp), %rax
	movq	%rax, (%rsp)
	leaq	400(%rsp), %rcx
	movq	392(%rsp), %rdi
	movq	%r10, %rsi
	movq	%rbx, %rdx
	movq	%r12, %r8
	movq	%r15, %r9
	callq	b2sum_commands..sums..digest_file..82a450bcca081e63_1_x86
	testb	%al, %al
	jne	125f
	testb	%dl, %dl
	jne	1b
	movb	%dl, 46(%rsp)
	movq	32(%rsp), %rcx
	movzbl	201(%rcx), %eax
	cmpl	$2, %eax
	je	5f
	cmpl	$1, %eax
	jne	7f
	xorl	%ebx, %ebx
	movw	$0, 196(%rsp)
	movl	$0, 192(%rsp)
	movb	$1, %r12b
	testq	%r14, %r14
	movl	$0, %eax
	cmovgq	%r14, %rax
	js	25f
	movq	48(%rsp), %r13
	je	27f
	movq	%rax, %rdi
	addq	%rax, %rdi
	js	34f
	movq	%rax, 24(%rsp)
	movl	$1, %esi
	movq	%rdi, %rbx
	vj_call	rattle_alloc
	xorl	%r15d, %r15d
	testb	$1, %al
	jne	91f
4:
	xorl	%ebx, %ebx
	movq	$0, 24(%rsp)
	movq	32(%rsp), %rcx
	movb	$1, %r12b
	testb	%r12b, %r12b
	je	67f
	jmp	130f
5:
	leaq	16(%rsp), %r15
	movq	%r15, 192(%rsp)
	xorps	%xmm0, %xmm0
	leaq	200(%rsp), %rax
	movups	%xmm0, (%rax)
	testq	%r14, %r14
	jne	53f
	movq	$0, 24(%rsp)
	xorl	%ebx, %ebx
6:
	leaq	(%r15,%rbx), %rdi
	addq	%r14, %rbx
	movq	%rdi, %rax
	subq	%r13, %rax
	leaq	512(%rsp), %rsi
	movq	%r14, %rdx
	cmpq	%r14, %rax
	jae	9f
	vj_c_call	memcpy
	jmp	10f
7:
	xorps	%xmm0, %xmm0
	movaps	%xmm0, 192(%rsp)
	movaps	%xmm0, 208(%rsp)
	movaps	%xmm0, 224(%rsp)
	movaps	%xmm0, 240(%rsp)
	movaps	%xmm0, 160(%rsp)
	movq	$0, 176(%rsp)
	movaps	%xmm0, 608(%rsp)
	movups	%xmm0, 622(%rsp)
	movaps	%xmm0, 352(%rsp)
	movq	$0, 368(%rsp)
	movaps	%xmm0, 672(%rsp)
	movups	%xmm0, 687(%rsp)
	movaps	%xmm0, 640(%rsp)
	movups	%xmm0, 655(%rsp)
	movzbl	(%rcx), %eax
	movl	%eax, 296(%rsp)
	movl	4(%rcx), %eax
	movl	%eax, 308(%rsp)
	leaq	16(%rsp), %rbx
	movq	%rbx, 80(%rsp)
	leaq	88(%rsp), %rax
	movups	%xmm0, (%rax)
	testq	%r14, %r14
	jne	54f
	movq	$0, 288(%rsp)
	xorl	%ecx, %ecx
8:
	movq	%rcx, 376(%rsp)
	leaq	(%rbx,%rcx), %rdi
	movq	%rdi, %rax
	subq	%r13, %rax
	leaq	512(%rsp), %rsi
	movq	%r14, %rdx
	cmpq	%r14, %rax
	jae	12f
	vj_c_call	memcpy
	jmp	13f
9:
	vj_c_call	memmove
10:
	xorl	%r12d, %r12d
11:
	movq	48(%rsp), %r13
	movq	32(%rsp), %rcx
	testb	%r12b, %r12b
	je	67f
	jmp	130f
12:
	vj_c_call	memmove
13:
	movq	48(%rsp), %r13
	leaq	16(%rsp), %rax
	movq	%rax, 80(%rsp)
	xorps	%xmm0, %xmm0
	leaq	88(%rsp), %rcx
	movups	%xmm0, (%rcx)
	testq	%r15, %r15
	movq	%rbx, 24(%rsp)
	jne	55f
	xorl	%r10d, %r10d
	xorl	%ebx, %ebx
14:
	leaq	(%rax,%rbx), %rdi
	movq	%rdi, %rcx
	subq	%r12, %rcx
	cmpq	%r15, %rcx
	jae	20f
	cmpq	$4, %r15
	movq	32(%rsp), %r9
	jb	15f
	cmpq	$32, %rcx
	jae	38f
15:
	xorl	%ecx, %ecx
16:
	movq	%r15, %rsi
	movq	%rcx, %rdx
	andq	$3, %rsi
	je	18f
	movq	%rcx, %rdx
	.p2align	4
17:
	movzbl	(%r12,%rdx), %r8d
	movb	%r8b, (%rdi,%rdx)
	incq	%rdx
	decq	%rsi
	jne	17b
18:
	subq	%r15, %rcx
	cmpq	$-4, %rcx
	ja	21f
	addq	%rbx, %rax
	addq	$3, %rax
	.p2align	4
19:
	movzbl	(%r12,%rdx), %ecx
	movb	%cl, -3(%rax,%rdx)
	movzbl	1(%r12,%rdx), %ecx
	movb	%cl, -2(%rax,%rdx)
	movzbl	2(%r12,%rdx), %ecx
	movb	%cl, -1(%rax,%rdx)
	movzbl	3(%r12,%rdx), %ecx
	movb	%cl, (%rax,%rdx)
	addq	$4, %rdx
	cmpq	%rdx, %r15
	jne	19b
	jmp	21f
20:
	movq	%r12, %rsi
	movq	%r15, %rdx
	movq	%r10, %r12
	vj_c_call	memmove
	movq	%r12, %r10
	movq	32(%rsp), %r9
21:
	movq	376(%rsp), %rdi
	addq	%r14, %rdi
	addq	%r15, %rbx
	movq	%rbx, 88(%rsp)
	movq	%r10, 96(%rsp)
	leaq	614(%rsp), %r8
	movq	%r10, 16(%r8)
	movq	80(%rsp), %rax
	movq	%rax, (%r8)
	movq	88(%rsp), %rax
	movq	%rax, 8(%r8)
	movzwl	203(%r9), %eax
	movzbl	202(%r9), %ecx
	movzbl	205(%r9), %edx
	movl	296(%rsp), %esi
	movl	%esi, 192(%rsp)
	movl	308(%rsp), %esi
	movl	%esi, 196(%rsp)
	movq	24(%rsp), %rbx
	movq	%rbx, 200(%rsp)
	movq	%rdi, 208(%rsp)
	movq	288(%rsp), %r12
	movq	%r12, 216(%rsp)
	movq	16(%r8), %rsi
	leaq	200(%rsp), %rdi
	movq	%rsi, 40(%rdi)
	movq	(%r8), %rsi
	movq	%rsi, 24(%rdi)
	movq	8(%r8), %rsi
	movq	%rsi, 32(%rdi)
	movb	%cl, 248(%rsp)
	movb	%dl, 251(%rsp)
	movw	%ax, 249(%rsp)
	cmpb	$0, 206(%r9)
	je	22f
	leaq	16(%rsp), %rax
	movq	%rax, 80(%rsp)
	xorps	%xmm0, %xmm0
	leaq	88(%rsp), %rax
	movups	%xmm0, (%rax)
	movq	224(%rsp), %r14
	movq	232(%rsp), %rcx
	leaq	80(%rsp), %rdi
	leaq	192(%rsp), %rsi
	movq	%r14, %rdx
	callq	b2sum_lines..writes..push_body_1_x86
	testb	%al, %al
	je	26f
	cmpq	$0, 96(%rsp)
	je	44f
	movq	80(%rsp), %rdi
	jmp	43f
22:
	xorps	%xmm0, %xmm0
	movups	%xmm0, 591(%rsp)
	movaps	%xmm0, 576(%rsp)
	leaq	16(%rsp), %rax
	movq	%rax, 56(%rsp)
	leaq	64(%rsp), %rcx
	movups	%xmm0, (%rcx)
	movq	224(%rsp), %r14
	movq	232(%rsp), %rcx
	testq	%rcx, %rcx
	je	24f
	xorl	%edx, %edx
	.p2align	4
23:
	movzbl	(%r14,%rdx), %esi
	cmpl	$10, %esi
	je	32f
	cmpl	$13, %esi
	je	32f
	cmpl	$92, %esi
	je	32f
	incq	%rdx
	cmpq	%rdx, %rcx
	jne	23b
24:
	leaq	56(%rsp), %rdi
	leaq	192(%rsp), %rsi
	movq	%r14, %rdx
	callq	b2sum_lines..writes..push_body_1_x86
	testb	%al, %al
	jne	42f
	movq	72(%rsp), %rax
	leaq	583(%rsp), %rcx
	movq	%rax, 16(%rcx)
	movups	56(%rsp), %xmm0
	movups	%xmm0, (%rcx)
	jmp	58f
25:
	xorl	%r15d, %r15d
	movq	$0, 24(%rsp)
	movq	48(%rsp), %r13
	testb	%r12b, %r12b
	je	67f
	jmp	130f
26:
	movq	96(%rsp), %rax
	leaq	679(%rsp), %rcx
	movq	%rax, 16(%rcx)
	movups	80(%rsp), %xmm0
	movups	%xmm0, (%rcx)
	movups	(%rcx), %xmm0
	movaps	%xmm0, 352(%rsp)
	movq	16(%rcx), %rax
	jmp	59f
27:
	leaq	16(%rsp), %rdi
	movq	%rdi, 80(%rsp)
	xorl	%ebx, %ebx
	xorl	%r15d, %r15d
	movq	%rdi, %r12
	xorl	%edx, %edx
28:
	movq	%r12, %rsi
	vj_c_call	memmove
	movq	%rbx, 88(%rsp)
	movq	%r15, 96(%rsp)
	leaq	200(%rsp), %rcx
	movq	%r15, 14(%rcx)
	movq	80(%rsp), %rax
	movq	%rax, -2(%rcx)
	movq	88(%rsp), %rax
	movq	%rax, 6(%rcx)
	movq	14(%rcx), %rax
	movq	%rax, 96(%rsp)
	movq	-2(%rcx), %rax
	movq	%rax, 80(%rsp)
	movq	6(%rcx), %rax
	movq	%rax, 88(%rsp)
	testq	%r14, %r14
	je	30f
29:
	movq	%r12, %rdi
	vj_call	rattle_dealloc
30:
	movq	88(%rsp), %rbx
	movq	96(%rsp), %rax
	movq	32(%rsp), %rcx
	cmpb	$0, 206(%rcx)
	je	35f
	cmpq	%rbx, %rax
	movb	$1, %r12b
	je	107f
31:
	movq	80(%rsp), %r15
	movb	$0, (%r15,%rbx)
	jmp	37f
32:
	movq	%rax, 312(%rsp)
	xorps	%xmm0, %xmm0
	leaq	320(%rsp), %rax
	movups	%xmm0, (%rax)
	leaq	312(%rsp), %rdi
	movq	%r14, %rsi
	movq	%rcx, %rdx
	callq	b2sum_lines..names..push_escaped_1_x86
	testb	%al, %al
	je	39f
33:
	cmpq	$0, 328(%rsp)
	je	42f
	movq	312(%rsp), %rdi
	jmp	41f
34:
	xorl	%r15d, %r15d
	xorl	%ebx, %ebx
	movq	$0, 24(%rsp)
	testb	%r12b, %r12b
	je	67f
	jmp	130f
35:
	cmpq	%rbx, %rax
	movb	$1, %r12b
	je	108f
36:
	movq	80(%rsp), %r15
	movb	$10, (%r15,%rbx)
37:
	incq	%rbx
	movq	96(%rsp), %rax
	jmp	66f
38:
	cmpq	$32, %r15
	jae	49f
	xorl	%ecx, %ecx
	jmp	51f
39:
	movq	64(%rsp), %rax
	cmpq	%rax, 72(%rsp)
	je	110f
40:
	movq	56(%rsp), %rcx
	movb	$92, (%rcx,%rax)
	incq	%rax
	movq	%rax, 64(%rsp)
	movq	312(%rsp), %r15
	movq	320(%rsp), %rcx
	leaq	56(%rsp), %rdi
	leaq	192(%rsp), %rsi
	movq	%r15, %rdx
	callq	b2sum_lines..writes..push_body_1_x86
	testb	%al, %al
	je	56f
	cmpq	$0, 328(%rsp)
	je	42f
	movq	%r15, %rdi
41:
	vj_call	rattle_dealloc
42:
	cmpq	$0, 72(%rsp)
	je	44f
	movq	56(%rsp), %rdi
43:
	vj_call	rattle_dealloc
44:
	testq	%r12, %r12
	je	46f
	movq	%rbx, %rdi
45:
	vj_call	rattle_dealloc
46:
	movb	$1, %r12b
	cmpq	$0, 240(%rsp)
	je	48f
	movq	%r14, %rdi
47:
	vj_call	rattle_dealloc
48:
	xorl	%r15d, %r15d
	xorl	%ebx, %ebx
	movq	$0, 24(%rsp)
	movq	32(%rsp), %rcx
	testb	%r12b, %r12b
	je	67f
	jmp	130f
49:
	movq	%r15, %rcx
	andq	$-32, %rcx
	leaq	(%rax,%rbx), %rdx
	addq	$16, %rdx
	xorl	%esi, %esi
	.p2align	4
50:
	movups	(%r12,%rsi), %xmm0
	movups	16(%r12,%rsi), %xmm1
	movups	%xmm0, -16(%rdx,%rsi)
	movups	%xmm1, (%rdx,%rsi)
	addq	$32, %rsi
	cmpq	%rsi, %rcx
	jne	50b
	cmpq	%rcx, %r15
	je	21b
	testb	$28, %r15b
	je	16b
51:
	movq	%rcx, %rdx
	movq	%r15, %rcx
	andq	$-4, %rcx
	.p2align	4
52:
	movl	(%r12,%rdx), %esi
	movl	%esi, (%rdi,%rdx)
	addq	$4, %rdx
	cmpq	%rdx, %rcx
	jne	52b
	cmpq	%rcx, %r15
	je	21b
	jmp	16b
53:
	leaq	192(%rsp), %rdi
	movq	%r14, %rsi
	callq	std_alloc..vec..Vec..grow_amortized..01eec35b572d02af_1_x86
	testb	%al, %al
	je	85f
	movq	192(%rsp), %r15
	movq	200(%rsp), %rbx
	movq	208(%rsp), %rax
	movq	%rax, 24(%rsp)
	jmp	6b
54:
	leaq	80(%rsp), %rdi
	movq	%r14, %rsi
	callq	std_alloc..vec..Vec..grow_amortized..01eec35b572d02af_1_x86
	testb	%al, %al
	je	86f
	movq	80(%rsp), %rbx
	movq	88(%rsp), %rcx
	movq	96(%rsp), %rax
	movq	%rax, 288(%rsp)
	jmp	8b
55:
	leaq	80(%rsp), %rdi
	movq	%r15, %rsi
	callq	std_alloc..vec..Vec..grow_amortized..01eec35b572d02af_1_x86
	testb	%al, %al
	je	89f
	movq	80(%rsp), %rax
	movq	88(%rsp), %rbx
	movq	96(%rsp), %r10
	jmp	14b
56:
	movq	72(%rsp), %rax
	leaq	88(%rsp), %rcx
	movq	%rax, 15(%rcx)
	movups	56(%rsp), %xmm0
	movups	%xmm0, -1(%rcx)
	cmpq	$0, 328(%rsp)
	je	57f
	movq	%r15, %rdi
	vj_call	rattle_dealloc
57:
	leaq	88(%rsp), %rcx
	movq	15(%rcx), %rax
	leaq	583(%rsp), %rdx
	movq	%rax, 16(%rdx)
	movups	-1(%rcx), %xmm0
	movq	%rdx, %rcx
	movups	%xmm0, (%rdx)
58:
	movq	16(%rcx), %rax
	leaq	647(%rsp), %rdx
	movq	%rax, 16(%rdx)
	movups	(%rcx), %xmm0
	movups	%xmm0, (%rdx)
	movups	(%rdx), %xmm0
	movaps	%xmm0, 352(%rsp)
	movq	16(%rdx), %rax
59:
	movq	%rax, 368(%rsp)
	movq	32(%rsp), %rcx
	movq	368(%rsp), %rax
	movq	%rax, 176(%rsp)
	movaps	352(%rsp), %xmm0
	movaps	%xmm0, 160(%rsp)
	movq	168(%rsp), %rbx
	cmpb	$1, 206(%rcx)
	jne	61f
	cmpq	%rbx, %rax
	je	101f
60:
	movq	160(%rsp), %r15
	movb	$0, (%r15,%rbx)
	incq	%rbx
	movq	%rbx, 168(%rsp)
	testq	%r12, %r12
	jne	63f
	jmp	64f
61:
	cmpq	%rbx, %rax
	je	102f
62:
	movq	160(%rsp), %r15
	movb	$10, (%r15,%rbx)
	incq	%rbx
	movq	%rbx, 168(%rsp)
	testq	%r12, %r12
	je	64f
63:
	movq	24(%rsp), %rdi
	vj_call	rattle_dealloc
	movq	32(%rsp), %rcx
64:
	cmpq	$0, 240(%rsp)
	je	65f
	movq	%r14, %rdi
	vj_call	rattle_dealloc
	movq	32(%rsp), %rcx
65:
	movq	176(%rsp), %rax
66:
	movq	%rax, 24(%rsp)
	xorl	%r12d, %r12d
	testb	%r12b, %r12b
	jne	130f
67:
	cmpb	$1, 211(%rcx)
	jne	76f
	movq	8(%r13), %r14
	movq	16(%r13), %r8
	movq	%r8, %rax
	subq	%r14, %rax
	cmpq	%rax, %rbx
	ja	84f
68:
	movq	(%r13), %r9
	xorps	%xmm0, %xmm0
	movq	384(%rsp), %rax
	movups	%xmm0, (%rax)
	leaq	(%r9,%r14), %rdi
	movq	%rdi, %rax
	subq	%r15, %rax
	cmpq	%rbx, %rax
	jae	74f
	cmpq	$4, %rbx
	jb	69f
	cmpq	$32, %rax
	jae	79f
69:
	xorl	%eax, %eax
70:
	movq	%rbx, %rdx
	movq	%rax, %rcx
	andq	$3, %rdx
	je	72f
	movq	%rax, %rcx
	.p2align	4
71:
	movzbl	(%r15,%rcx), %esi
	movb	%sil, (%rdi,%rcx)
	incq	%rcx
	decq	%rdx
	jne	71b
72:
	subq	%rbx, %rax
	cmpq	$-4, %rax
	ja	75f
	leaq	(%r9,%r14), %rax
	addq	$3, %rax
	.p2align	4
73:
	movzbl	(%r15,%rcx), %edx
	movb	%dl, -3(%rax,%rcx)
	movzbl	1(%r15,%rcx), %edx
	movb	%dl, -2(%rax,%rcx)
	movzbl	2(%r15,%rcx), %edx
	movb	%dl, -1(%rax,%rcx)
	movzbl	3(%r15,%rcx), %edx
	movb	%dl, (%rax,%rcx)
	addq	$4, %rcx
	cmpq	%rcx, %rbx
	jne	73b
	jmp	75f
74:
	movq	%r15, %rsi
	movq	%rbx, %rdx
	movq	%r13, %r12
	movq	%r8, %r13
	movq	%rbp, 296(%rsp)
	movq	%r9, %rbp
	vj_c_call	memmove
	movq	%rbp, %r9
	movq	296(%rsp), %rbp
	movq	%r13, %r8
	movq	%r12, %r13
75:
	addq	%rbx, %r14
	movq	%r9, (%r13)
	movq	%r14, 8(%r13)
	movq	%r8, 16(%r13)
76:
	movb	$1, %r14b
	movq	184(%rsp), %rax
	testb	$1, 128(%rax)
	jne	123f
	testq	%rbx, %rbx
	je	78f
	xorl	%r13d, %r13d
	.p2align	4
77:
	leaq	(%r15,%r13), %rsi
	movq	%rbx, %r12
	subq	%r13, %r12
	movl	$1, %edi
	movq	%r12, %rdx
	vj_system_call	write, b2_write
	testq	%rax, %rax
	js	121f
	cmpq	%r12, %rax
	cmovbq	%rax, %r12
	testq	%r12, %r12
	je	122f
	addq	%r12, %r13
	cmpq	%rbx, %r13
	jb	77b
78:
	cmpq	$0, 24(%rsp)
	movq	184(%rsp), %rbx
	movzbl	46(%rsp), %edx
	je	1b
	movq	%r15, %rdi
	vj_call	rattle_dealloc
	movzbl	46(%rsp), %edx
	jmp	1b
79:
	cmpq	$32, %rbx
	jae	80f
	xorl	%eax, %eax
	jmp	82f
80:
	movq	%rbx, %rax
	andq	$-32, %rax
	leaq	(%r9,%r14), %rcx
	addq	$16, %rcx
	xorl	%edx, %edx
	.p2align	4
81:
	movups	(%r15,%rdx), %xmm0
	movups	16(%r15,%rdx), %xmm1
	movups	%xmm0, -16(%rcx,%rdx)
	movups	%xmm1, (%rcx,%rdx)
	addq	$32, %rdx
	cmpq	%rdx, %rax
	jne	81b
	cmpq	%rax, %rbx
	je	75b
	testb	$28, %bl
	je	70b
82:
	movq	%rax, %rcx
	movq	%rbx, %rax
	andq	$-4, %rax
	.p2align	4
83:
	movl	(%r15,%rcx), %edx
	movl	%edx, (%rdi,%rcx)
	addq	$4, %rcx
	cmpq	%rcx, %rax
	jne	83b
	cmpq	%rax, %rbx
	je	75b
	jmp	70b
84:
	movq	%r13, %rdi
	movq	%rbx, %rsi
	callq	std_alloc..vec..Vec..grow_amortized..01eec35b572d02af_1_x86
	testb	%al, %al
	je	137f
	movq	8(%r13), %r14
	movq	16(%r13), %r8
	jmp	68b
85:
	movb	$1, %r12b
	cmpq	$0, 208(%rsp)
	je	88f
	movq	192(%rsp), %rdi
	vj_call	rattle_dealloc
	jmp	88f
86:
	cmpq	$0, 96(%rsp)
	je	87f
	movq	80(%rsp), %rdi
	vj_call	rattle_dealloc
87:
	movb	$1, %r12b
88:
	xorl	%r15d, %r15d
	xorl	%ebx, %ebx
	movq	$0, 24(%rsp)
	jmp	11b
89:
	cmpq	$0, 96(%rsp)
	je	90f
	movq	80(%rsp), %rdi
	vj_call	rattle_dealloc
90:
	movb	$1, %r12b
	cmpq	$0, 288(%rsp)
	je	48b
	movq	%rbx, %rdi
	jmp	47b
91:
	movq	%rdx, %r12
	leaq	-1(%rbx), %rdx
	movq	%rbx, %r15
	xorl	%ebx, %ebx
	movq	%r12, %rdi
	xorl	%esi, %esi
	vj_c_call	memset
	movb	$0, -1(%r12,%r15)
	cmpq	$1, %r14
	movq	%r15, %rsi
	je	93f
	movabsq	$9223372036854775776, %rax
	orq	$30, %rax
	andq	%r14, %rax
	xorl	%ebx, %ebx
	.p2align	4
92:
	movzbl	512(%rsp,%rbx), %ecx
	movl	%ecx, %edx
	shrl	$4, %edx
	leaq	.L1_x86_static.189(%rip), %rdi
	movzbl	(%rdx,%rdi), %edx
	movb	%dl, (%r12,%rbx,2)
	andl	$15, %ecx
	movzbl	(%rcx,%rdi), %ecx
	movb	%cl, 1(%r12,%rbx,2)
	movzbl	513(%rsp,%rbx), %ecx
	movl	%ecx, %edx
	shrl	$4, %edx
	movzbl	(%rdx,%rdi), %edx
	movb	%dl, 2(%r12,%rbx,2)
	andl	$15, %ecx
	movzbl	(%rcx,%rdi), %ecx
	movb	%cl, 3(%r12,%rbx,2)
	addq	$2, %rbx
	cmpq	%rbx, %rax
	jne	92b
	testb	$1, %r14b
	je	94f
93:
	movzbl	512(%rsp,%rbx), %eax
	movl	%eax, %ecx
	shrl	$4, %ecx
	leaq	.L1_x86_static.189(%rip), %rdx
	movzbl	(%rcx,%rdx), %ecx
	movb	%cl, (%r12,%rbx,2)
	andl	$15, %eax
	movzbl	(%rax,%rdx), %eax
	movb	%al, 1(%r12,%rbx,2)
94:
	leaq	16(%rsp), %rax
	movq	%rax, 80(%rsp)
	xorps	%xmm0, %xmm0
	leaq	88(%rsp), %rax
	movups	%xmm0, (%rax)
	leaq	80(%rsp), %rdi
	movq	%rsi, %r15
	callq	std_alloc..vec..Vec..grow_amortized..01eec35b572d02af_1_x86
	testb	%al, %al
	je	105f
	movq	80(%rsp), %rax
	movq	88(%rsp), %rcx
	leaq	(%rcx,%r15), %rbx
	leaq	(%rax,%rcx), %rdi
	movq	%rdi, %rdx
	subq	%r12, %rdx
	cmpq	%r15, %rdx
	movq	%r15, %rdx
	jae	111f
	cmpq	$2, %r14
	jl	95f
	leaq	(%rax,%rcx), %rsi
	subq	%r12, %rsi
	cmpq	$32, %rsi
	jae	112f
95:
	xorl	%r10d, %r10d
96:
	movq	%rdx, %r8
	movq	%r10, %rsi
	andq	$2, %r8
	je	98f
	movq	%r10, %rsi
97:
	movzbl	(%r12,%rsi), %r9d
	movb	%r9b, (%rdi,%rsi)
	incq	%rsi
	decq	%r8
	jne	97b
98:
	subq	%rdx, %r10
	cmpq	$-4, %r10
	ja	100f
	addq	%rcx, %rax
	addq	$3, %rax
99:
	movzbl	(%r12,%rsi), %ecx
	movb	%cl, -3(%rax,%rsi)
	movzbl	1(%r12,%rsi), %ecx
	movb	%cl, -2(%rax,%rsi)
	movzbl	2(%r12,%rsi), %ecx
	movb	%cl, -1(%rax,%rsi)
	movzbl	3(%r12,%rsi), %ecx
	movb	%cl, (%rax,%rsi)
	addq	$4, %rsi
	cmpq	%rsi, %rdx
	jne	99b
100:
	movq	%rbx, 88(%rsp)
	movq	96(%rsp), %rax
	leaq	200(%rsp), %rcx
	movq	%rax, 14(%rcx)
	movq	80(%rsp), %rax
	movq	%rax, -2(%rcx)
	movq	88(%rsp), %rax
	movq	%rax, 6(%rcx)
	movq	-2(%rcx), %rax
	movq	%rax, 80(%rsp)
	movq	6(%rcx), %rax
	movq	%rax, 88(%rsp)
	movq	14(%rcx), %rax
	movq	%rax, 96(%rsp)
	jmp	29b
101:
	leaq	160(%rsp), %rdi
	movl	$1, %esi
	callq	std_alloc..vec..Vec..grow_amortized..01eec35b572d02af_1_x86
	testb	%al, %al
	je	103f
	movq	168(%rsp), %rbx
	movq	32(%rsp), %rcx
	jmp	60b
102:
	leaq	160(%rsp), %rdi
	movl	$1, %esi
	callq	std_alloc..vec..Vec..grow_amortized..01eec35b572d02af_1_x86
	testb	%al, %al
	je	103f
	movq	168(%rsp), %rbx
	movq	32(%rsp), %rcx
	jmp	62b
103:
	cmpq	$0, 176(%rsp)
	je	104f
	movq	160(%rsp), %rdi
	vj_call	rattle_dealloc
104:
	testq	%r12, %r12
	movq	24(%rsp), %rdi
	jne	45b
	jmp	46b
105:
	cmpq	$0, 96(%rsp)
	je	106f
	movq	80(%rsp), %rdi
	vj_call	rattle_dealloc
106:
	movq	%r12, %rdi
	vj_call	rattle_dealloc
	xorl	%r15d, %r15d
	jmp	4b
107:
	leaq	80(%rsp), %rdi
	movl	$1, %esi
	callq	std_alloc..vec..Vec..grow_amortized..01eec35b572d02af_1_x86
	testb	%al, %al
	je	109f
	movq	88(%rsp), %rbx
	movq	32(%rsp), %rcx
	jmp	31b
108:
	leaq	80(%rsp), %rdi
	movl	$1, %esi
	callq	std_alloc..vec..Vec..grow_amortized..01eec35b572d02af_1_x86
	testb	%al, %al
	je	109f
	movq	88(%rsp), %rbx
	movq	32(%rsp), %rcx
	jmp	36b
109:
	cmpq	$0, 96(%rsp)
	je	48b
	movq	80(%rsp), %rdi
	jmp	47b
110:
	leaq	56(%rsp), %rdi
	movl	$1, %esi
	callq	std_alloc..vec..Vec..grow_amortized..01eec35b572d02af_1_x86
	testb	%al, %al
	je	33b
	movq	64(%rsp), %rax
	jmp	40b
111:
	movq	96(%rsp), %r15
	jmp	28b
112:
	movabsq	$9223372036854775776, %rsi
	cmpq	$16, %r14
	jge	113f
	xorl	%r10d, %r10d
	jmp	115f
113:
	movq	%rdx, %r10
	andq	%rsi, %r10
	leaq	(%rax,%rcx), %r8
	addq	$16, %r8
	xorl	%r9d, %r9d
114:
	movups	(%r12,%r9), %xmm0
	movups	16(%r12,%r9), %xmm1
	movups	%xmm0, -16(%r8,%r9)
	movups	%xmm1, (%r8,%r9)
	addq	$32, %r9
	cmpq	%r9, %r10
	jne	114b
	cmpq	%r10, %rdx
	je	100b
	testb	$14, 24(%rsp)
	je	96b
115:
	movq	%r10, %r8
	addq	$28, %rsi
	movq	%rsi, %r10
	andq	%rdx, %r10
116:
	movl	(%r12,%r8), %esi
	movl	%esi, (%rdi,%r8)
	addq	$4, %r8
	cmpq	%r8, %r10
	jne	116b
	cmpq	%r10, %rdx
	je	100b
	jmp	96b
117:
	movb	$1, %r14b
	movq	408(%rsp), %r12
	movq	416(%rsp), %rbx
	testq	%r12, %r12
	je	127f
118:
	leaq	16(%r15), %r13
	jmp	120f
	.p2align	4
119:
	addq	$104, %r13
	decq	%r12
	je	127f
120:
	cmpq	$0, (%r13)
	je	119b
	movq	-16(%r13), %rdi
	vj_call	rattle_dealloc
	jmp	119b
121:
	leaq	192(%rsp), %rdi
	callq	std_io..io..error..last_error_1_x86
	movq	192(%rsp), %rax
	movups	200(%rsp), %xmm0
	movaps	%xmm0, 80(%rsp)
	movups	216(%rsp), %xmm0
	movaps	%xmm0, 96(%rsp)
	movups	232(%rsp), %xmm0
	movaps	%xmm0, 112(%rsp)
	movups	248(%rsp), %xmm0
	movaps	%xmm0, 128(%rsp)
	movups	264(%rsp), %xmm0
	movaps	%xmm0, 144(%rsp)
	movq	184(%rsp), %rcx
	movq	$1, 128(%rcx)
	movq	%rax, 136(%rcx)
	movaps	80(%rsp), %xmm0
	movaps	96(%rsp), %xmm1
	movaps	112(%rsp), %xmm2
	movaps	128(%rsp), %xmm3
	movups	%xmm0, 144(%rcx)
	movups	%xmm1, 160(%rcx)
	movups	%xmm2, 176(%rcx)
	movups	%xmm3, 192(%rcx)
	movaps	144(%rsp), %xmm0
	movups	%xmm0, 208(%rcx)
	cmpq	$0, 24(%rsp)
	jne	124f
	jmp	131f
122:
	movq	184(%rsp), %rax
	movq	$1, 128(%rax)
	movw	$5889, 136(%rax)
	xorps	%xmm0, %xmm0
	movups	%xmm0, 138(%rax)
	movups	%xmm0, 154(%rax)
	movups	%xmm0, 170(%rax)
	movups	%xmm0, 186(%rax)
	movups	%xmm0, 202(%rax)
	movq	$0, 216(%rax)
123:
	cmpq	$0, 24(%rsp)
	je	131f
124:
	movq	%r15, %rdi
	vj_call	rattle_dealloc
	jmp	131f
125:
	movl	%edx, %r14d
	jmp	131f
126:
	movq	400(%rsp), %r15
	movl	%eax, %r14d
	movq	408(%rsp), %r12
	movq	416(%rsp), %rbx
	testq	%r12, %r12
	jne	118b
127:
	testq	%rbx, %rbx
	je	128f
	movq	%r15, %rdi
	vj_call	rattle_dealloc
128:
	cmpq	$0, 488(%rsp)
	je	129f
	movq	472(%rsp), %rdi
	vj_call	rattle_dealloc
129:
	xorl	%eax, %eax
	jmp	136f
130:
	xorl	%r14d, %r14d
131:
	movq	400(%rsp), %rbx
	movq	408(%rsp), %r12
	movq	416(%rsp), %r15
	testq	%r12, %r12
	je	134f
	leaq	16(%rbx), %r13
	jmp	133f
	.p2align	4
132:
	addq	$104, %r13
	decq	%r12
	je	134f
133:
	cmpq	$0, (%r13)
	je	132b
	movq	-16(%r13), %rdi
	vj_call	rattle_dealloc
	jmp	132b
134:
	testq	%r15, %r15
	je	135f
	movq	%rbx, %rdi
	vj_call	rattle_dealloc
135:
	movb	$1, %al
	cmpq	$0, 488(%rsp)
	je	136f
	movq	472(%rsp), %rdi
	vj_call	rattle_dealloc
	movb	$1, %al
136:
	movl	%r14d, %edx
	addq	$712, %rsp
	popq	%rbx
	popq	%r12
	popq	%r13
	popq	%r14
	popq	%r15
	popq	%rbp
	retq
137:
	xorl	%r14d, %r14d
	cmpq	$0, 24(%rsp)
	jne	124b
	jmp	131b
	vj_end	b2sum_commands..sums..print_lines..82a450bcca081e63_1_x86

	vj_function	b2sum_lines..writes..push_body_1_x86
	pushq	%rbp
	pushq	%r15
	pushq	%r14
	pushq	%r13
	pushq	%r12
	pushq	%rbx
	subq	$104, %rsp
	movq	%rcx, %r14
	movq	%rdx, %r15
	movq	%rdi, %rbx
	movzbl	56(%rsi), %eax
	leaq	.L1_x86_JTI108_0(%rip), %rcx
	movslq	(%rcx,%rax,4), %rax
	addq	%rcx, %rax
	notrack	jmpq	*%rax
1:
	movzbl	57(%rsi), %r13d
	movzbl	58(%rsi), %r12d
	movzbl	59(%rsi), %ebp
	xorps	%xmm0, %xmm0
	movaps	%xmm0, 80(%rsp)
	movaps	%xmm0, 64(%rsp)
	movl	4(%rsi), %edx
	movq	%rsi, 8(%rsp)
	movzbl	(%rsi), %esi
	leaq	64(%rsp), %rdi
	callq	b2sum_lines..entry..Algorithm..tag_1_x86
	cmpb	$0, 64(%rsp)
	je	30f
2:
	movb	$1, %al
	jmp	29f
3:
	movq	8(%rsi), %rax
	movq	16(%rsi), %rdx
	movq	%rbx, %rdi
	movq	%rax, %rsi
	callq	b2sum_lines..writes..push_hex_1_x86
	movl	%eax, %ecx
	movb	$1, %al
	testb	%cl, %cl
	jne	29f
	movq	8(%rbx), %rax
	movq	16(%rbx), %r12
	movq	%r12, %rcx
	subq	%rax, %rcx
	cmpq	$1, %rcx
	jbe	81f
4:
	movq	(%rbx), %r13
	leaq	(%rax,%r13), %rcx
	addq	$2, %rax
	leaq	.L1_x86_static.250(%rip), %rdx
	movq	%rcx, %rsi
	subq	%rdx, %rsi
	cmpq	$1, %rsi
	movw	$10784, (%rcx)
	movq	%r13, (%rbx)
	movq	%rax, 8(%rbx)
	movq	%r12, 16(%rbx)
	movq	%r12, %rcx
	subq	%rax, %rcx
	cmpq	%rcx, %r14
	ja	84f
5:
	leaq	8(%rbx), %rcx
	leaq	(%rax,%r14), %rbp
	xorps	%xmm0, %xmm0
	movups	%xmm0, (%rcx)
	leaq	(%rax,%r13), %rdi
	movq	%rdi, %rcx
	subq	%r15, %rcx
	cmpq	%r14, %rcx
	jae	27f
	cmpq	$4, %r14
	jb	6f
	cmpq	$32, %rcx
	jae	64f
6:
	xorl	%ecx, %ecx
7:
	movq	%r14, %rsi
	movq	%rcx, %rdx
	andq	$3, %rsi
	je	9f
	movq	%rcx, %rdx
	.p2align	4
8:
	movzbl	(%r15,%rdx), %r8d
	movb	%r8b, (%rdi,%rdx)
	incq	%rdx
	decq	%rsi
	jne	8b
9:
	subq	%r14, %rcx
	cmpq	$-4, %rcx
	ja	28f
	addq	%r13, %rax
	addq	$3, %rax
	.p2align	4
10:
	movzbl	(%r15,%rdx), %ecx
	movb	%cl, -3(%rax,%rdx)
	movzbl	1(%r15,%rdx), %ecx
	movb	%cl, -2(%rax,%rdx)
	movzbl	2(%r15,%rdx), %ecx
	movb	%cl, -1(%rax,%rdx)
	movzbl	3(%r15,%rdx), %ecx
	movb	%cl, (%rax,%rdx)
	addq	$4, %rdx
	cmpq	%rdx, %r14
	jne	10b
	jmp	28f
11:
	movq	8(%rsi), %rax
	movq	16(%rsi), %rdx
	movq	%rbx, %rdi
	movq	%rax, %rsi
	callq	b2sum_lines..writes..push_hex_1_x86
	movl	%eax, %ecx
	movb	$1, %al
	testb	%cl, %cl
	jne	29f
	movq	8(%rbx), %rax
	movq	16(%rbx), %r12
	cmpq	%rax, %r12
	je	82f
12:
	movq	(%rbx), %r13
	movb	$32, (%r13,%rax)
	incq	%rax
	movq	%r13, (%rbx)
	movq	%rax, 8(%rbx)
	movq	%r12, 16(%rbx)
	movq	%r12, %rcx
	subq	%rax, %rcx
	cmpq	%rcx, %r14
	ja	85f
13:
	leaq	8(%rbx), %rcx
	leaq	(%rax,%r14), %rbp
	xorps	%xmm0, %xmm0
	movups	%xmm0, (%rcx)
	leaq	(%rax,%r13), %rdi
	movq	%rdi, %rcx
	subq	%r15, %rcx
	cmpq	%r14, %rcx
	jae	27f
	cmpq	$4, %r14
	jb	14f
	cmpq	$32, %rcx
	jae	65f
14:
	xorl	%ecx, %ecx
15:
	movq	%r14, %rsi
	movq	%rcx, %rdx
	andq	$3, %rsi
	je	17f
	movq	%rcx, %rdx
	.p2align	4
16:
	movzbl	(%r15,%rdx), %r8d
	movb	%r8b, (%rdi,%rdx)
	incq	%rdx
	decq	%rsi
	jne	16b
17:
	subq	%r14, %rcx
	cmpq	$-4, %rcx
	ja	28f
	addq	%r13, %rax
	addq	$3, %rax
	.p2align	4
18:
	movzbl	(%r15,%rdx), %ecx
	movb	%cl, -3(%rax,%rdx)
	movzbl	1(%r15,%rdx), %ecx
	movb	%cl, -2(%rax,%rdx)
	movzbl	2(%r15,%rdx), %ecx
	movb	%cl, -1(%rax,%rdx)
	movzbl	3(%r15,%rdx), %ecx
	movb	%cl, (%rax,%rdx)
	addq	$4, %rdx
	cmpq	%rdx, %r14
	jne	18b
	jmp	28f
19:
	movq	8(%rsi), %rax
	movq	16(%rsi), %rdx
	movq	%rbx, %rdi
	movq	%rax, %rsi
	callq	b2sum_lines..writes..push_hex_1_x86
	movl	%eax, %ecx
	movb	$1, %al
	testb	%cl, %cl
	jne	29f
	movq	8(%rbx), %rax
	movq	16(%rbx), %r12
	movq	%r12, %rcx
	subq	%rax, %rcx
	cmpq	$1, %rcx
	jbe	83f
20:
	movq	(%rbx), %r13
	movw	$8224, (%r13,%rax)
	addq	$2, %rax
	movq	%r13, (%rbx)
	movq	%rax, 8(%rbx)
	movq	%r12, 16(%rbx)
	movq	%r12, %rcx
	subq	%rax, %rcx
	cmpq	%rcx, %r14
	ja	86f
21:
	leaq	8(%rbx), %rcx
	leaq	(%rax,%r14), %rbp
	xorps	%xmm0, %xmm0
	movups	%xmm0, (%rcx)
	leaq	(%rax,%r13), %rdi
	movq	%rdi, %rcx
	subq	%r15, %rcx
	cmpq	%r14, %rcx
	jae	27f
	cmpq	$4, %r14
	jb	22f
	cmpq	$32, %rcx
	jae	66f
22:
	xorl	%ecx, %ecx
23:
	movq	%r14, %rsi
	movq	%rcx, %rdx
	andq	$3, %rsi
	je	25f
	movq	%rcx, %rdx
	.p2align	4
24:
	movzbl	(%r15,%rdx), %r8d
	movb	%r8b, (%rdi,%rdx)
	incq	%rdx
	decq	%rsi
	jne	24b
25:
	subq	%r14, %rcx
	cmpq	$-4, %rcx
	ja	28f
	addq	%r13, %rax
	addq	$3, %rax
	.p2align	4
26:
	movzbl	(%r15,%rdx), %ecx
	movb	%cl, -3(%rax,%rdx)
	movzbl	1(%r15,%rdx), %ecx
	movb	%cl, -2(%rax,%rdx)
	movzbl	2(%r15,%rdx), %ecx
	movb	%cl, -1(%rax,%rdx)
	movzbl	3(%r15,%rdx), %ecx
	movb	%cl, (%rax,%rdx)
	addq	$4, %rdx
	cmpq	%rdx, %r14
	jne	26b
	jmp	28f
27:
	movq	%r15, %rsi
	movq	%r14, %rdx
	vj_c_call	memmove
28:
	movq	%r13, (%rbx)
	movq	%rbp, 8(%rbx)
	movq	%r12, 16(%rbx)
	xorl	%eax, %eax
29:
	addq	$104, %rsp
	popq	%rbx
	popq	%r12
	popq	%r13
	popq	%r14
	popq	%r15
	popq	%rbp
	retq
30:
	movb	%r13b, 6(%rsp)
	movb	%r12b, 7(%rsp)
	movb	%bpl, 24(%rsp)
	movq	72(%rsp), %r12
	movq	80(%rsp), %rdx
	movq	88(%rsp), %r11
	movq	8(%rbx), %rcx
	movq	16(%rbx), %r13
	movq	%r13, %rax
	subq	%rcx, %rax
	cmpq	%rax, %rdx
	ja	91f
31:
	leaq	8(%rbx), %rax
	leaq	(%rcx,%rdx), %rbp
	movq	(%rbx), %r10
	xorps	%xmm0, %xmm0
	movups	%xmm0, (%rax)
	leaq	(%r10,%rcx), %rdi
	movq	%rdi, %rsi
	subq	%r12, %rsi
	cmpq	%rdx, %rsi
	jae	37f
	cmpq	$4, %rdx
	movq	8(%rsp), %rax
	jb	32f
	cmpq	$32, %rsi
	jae	67f
32:
	xorl	%esi, %esi
33:
	movq	%r10, %rax
	movq	%rdx, %r9
	movq	%rsi, %r8
	andq	$3, %r9
	je	35f
	movq	%rsi, %r8
	.p2align	4
34:
	movzbl	(%r12,%r8), %r10d
	movb	%r10b, (%rdi,%r8)
	incq	%r8
	decq	%r9
	jne	34b
35:
	subq	%rdx, %rsi
	cmpq	$-4, %rsi
	movq	%rax, %r10
	movq	8(%rsp), %rax
	ja	38f
	addq	%r10, %rcx
	addq	$3, %rcx
	.p2align	4
36:
	movzbl	(%r12,%r8), %esi
	movb	%sil, -3(%rcx,%r8)
	movzbl	1(%r12,%r8), %esi
	movb	%sil, -2(%rcx,%r8)
	movzbl	2(%r12,%r8), %esi
	movb	%sil, -1(%rcx,%r8)
	movzbl	3(%r12,%r8), %esi
	movb	%sil, (%rcx,%r8)
	addq	$4, %r8
	cmpq	%r8, %rdx
	jne	36b
	jmp	38f
37:
	movq	%r12, %rsi
	movq	%rbp, 16(%rsp)
	movq	%r13, 56(%rsp)
	movq	%r11, %r13
	movq	%r10, %rbp
	vj_c_call	memmove
	movq	%rbp, %r10
	movq	%r13, %r11
	movq	56(%rsp), %r13
	movq	16(%rsp), %rbp
	movq	8(%rsp), %rax
38:
	movq	%r10, (%rbx)
	movq	%rbp, 8(%rbx)
	movq	%r13, 16(%rbx)
	testq	%r11, %r11
	je	39f
	movq	%r12, %rdi
	vj_call	rattle_dealloc
	movq	8(%rsp), %rax
39:
	testb	$1, 6(%rsp)
	movzbl	24(%rsp), %ebp
	movzbl	7(%rsp), %r12d
	je	41f
	movq	8(%rbx), %rcx
	movq	16(%rbx), %rdx
	movq	%rdx, %rsi
	subq	%rcx, %rsi
	cmpq	$3, %rsi
	jbe	99f
40:
	movq	(%rbx), %rsi
	movl	$2036689709, (%rsi,%rcx)
	addq	$4, %rcx
	movq	%rsi, (%rbx)
	movq	%rcx, 8(%rbx)
	movq	%rdx, 16(%rbx)
41:
	testb	$1, %r12b
	je	45f
	movq	8(%rbx), %rcx
	movq	16(%rbx), %rdx
	movq	%rdx, %rsi
	subq	%rcx, %rsi
	cmpq	$4, %rsi
	jbe	100f
42:
	movq	(%rbx), %rsi
	leaq	(%rsi,%rcx), %rdi
	addq	$5, %rcx
	leaq	.L1_x86_static.203(%rip), %r8
	movq	%rdi, %r9
	subq	%r8, %r9
	cmpq	$4, %r9
	ja	43f
	movl	$1818325805, (%rdi)
	movb	$116, 4(%rdi)
	jmp	44f
43:
	movb	$116, 4(%rdi)
	movl	$1818325805, (%rdi)
44:
	movq	%rsi, (%rbx)
	movq	%rcx, 8(%rbx)
	movq	%rdx, 16(%rbx)
45:
	testb	$1, %bpl
	je	47f
	movq	8(%rbx), %rcx
	movq	16(%rbx), %rdx
	movq	%rdx, %rsi
	subq	%rcx, %rsi
	cmpq	$8, %rsi
	jbe	101f
46:
	movq	(%rbx), %rsi
	leaq	(%rsi,%rcx), %rdi
	addq	$9, %rcx
	leaq	.L1_x86_static.204(%rip), %r8
	movq	%rdi, %r9
	subq	%r8, %r9
	cmpq	$8, %r9
	movabsq	$7020671410748354605, %r8
	movq	%r8, (%rdi)
	movb	$108, 8(%rdi)
	movq	%rsi, (%rbx)
	movq	%rcx, 8(%rbx)
	movq	%rdx, 16(%rbx)
47:
	movzbl	(%rax), %ecx
	movq	16(%rax), %r12
	leaq	.L1_x86_switch.table.b2sum_lines..writes..push_body_1_x86(%rip), %rax
	cmpq	(%rax,%rcx,8), %r12
	jne	48f
	movq	8(%rbx), %rbp
	movq	16(%rbx), %r12
	jmp	54f
48:
	movq	8(%rbx), %rbp
	cmpq	%rbp, 16(%rbx)
	je	102f
49:
	movq	(%rbx), %rax
	movb	$45, (%rax,%rbp)
	incq	%rbp
	movq	%rbp, 8(%rbx)
	shlq	$3, %r12
	xorps	%xmm0, %xmm0
	movaps	%xmm0, 32(%rsp)
	movl	$0, 48(%rsp)
	movl	$19, %r13d
	cmpq	$10, %r12
	jb	51f
	.p2align	4
50:
	movabsq	$-3689348814741910323, %rcx
	movq	%r12, %rax
	mulq	%rcx
	shrq	$3, %rdx
	leal	(%rdx,%rdx), %eax
	leal	(%rax,%rax,4), %eax
	movl	%r12d, %ecx
	subl	%eax, %ecx
	orb	$48, %cl
	movb	%cl, 32(%rsp,%r13)
	decq	%r13
	cmpq	$99, %r12
	movq	%rdx, %r12
	ja	50b
	jmp	52f
51:
	movq	%r12, %rdx
52:
	orb	$48, %dl
	movb	%dl, 32(%rsp,%r13)
	movl	$20, %edx
	subq	%r13, %rdx
	movq	16(%rbx), %r12
	movq	%r12, %rax
	subq	%rbp, %rax
	cmpq	%rax, %rdx
	ja	103f
53:
	leaq	(%rsp,%r13), %rsi
	addq	$32, %rsi
	movq	(%rbx), %r13
	movq	%r13, %rdi
	addq	%rbp, %rdi
	addq	%rdx, %rbp
	vj_c_call	memcpy
	movq	%r13, (%rbx)
	movq	%rbp, 8(%rbx)
	movq	%r12, 16(%rbx)
54:
	movq	%r12, %rax
	subq	%rbp, %rax
	cmpq	$1, %rax
	jbe	96f
55:
	movq	(%rbx), %r13
	movq	%r13, %rax
	addq	%rbp, %rax
	addq	$2, %rbp
	leaq	.L1_x86_static.247(%rip), %rcx
	movq	%rax, %rdx
	subq	%rcx, %rdx
	cmpq	$1, %rdx
	movw	$10272, (%rax)
	movq	%r13, (%rbx)
	movq	%rbp, 8(%rbx)
	movq	%r12, 16(%rbx)
	movq	%r12, %rax
	subq	%rbp, %rax
	cmpq	%rax, %r14
	ja	97f
56:
	leaq	(%r14,%rbp), %r8
	xorps	%xmm0, %xmm0
	leaq	8(%rbx), %rax
	movups	%xmm0, (%rax)
	movq	%r13, %rdi
	addq	%rbp, %rdi
	movq	%rdi, %rax
	subq	%r15, %rax
	cmpq	%r14, %rax
	jae	62f
	cmpq	$4, %r14
	jb	57f
	cmpq	$32, %rax
	jae	68f
57:
	xorl	%eax, %eax
58:
	movq	%r14, %rdx
	movq	%rax, %rcx
	andq	$3, %rdx
	je	60f
	movq	%rax, %rcx
	.p2align	4
59:
	movzbl	(%r15,%rcx), %esi
	movb	%sil, (%rdi,%rcx)
	incq	%rcx
	decq	%rdx
	jne	59b
60:
	subq	%r14, %rax
	cmpq	$-4, %rax
	ja	63f
	leaq	3(,%r13), %rax
	addq	%rbp, %rax
	.p2align	4
61:
	movzbl	(%r15,%rcx), %edx
	movb	%dl, -3(%rax,%rcx)
	movzbl	1(%r15,%rcx), %edx
	movb	%dl, -2(%rax,%rcx)
	movzbl	2(%r15,%rcx), %edx
	movb	%dl, -1(%rax,%rcx)
	movzbl	3(%r15,%rcx), %edx
	movb	%dl, (%rax,%rcx)
	addq	$4, %rcx
	cmpq	%rcx, %r14
	jne	61b
	jmp	63f
62:
	movq	%r15, %rsi
	movq	%r14, %rdx
	movq	%r8, %r14
	vj_c_call	memmove
	movq	%r14, %r8
63:
	movq	%r13, (%rbx)
	movq	%r8, 8(%rbx)
	movq	%r12, 16(%rbx)
	leaq	.L1_x86_static.248(%rip), %rsi
	movl	$4, %edx
	movq	%rbx, %rdi
	callq	std_alloc..vec..Vec..extend_from_slice..0473daec321ef212_1_x86
	movl	%eax, %ecx
	movb	$1, %al
	testb	%cl, %cl
	jne	29b
	movq	8(%rsp), %rax
	movq	8(%rax), %rsi
	movq	16(%rax), %rdx
	movq	%rbx, %rdi
	addq	$104, %rsp
	popq	%rbx
	popq	%r12
	popq	%r13
	popq	%r14
	popq	%r15
	popq	%rbp
	jmp	b2sum_lines..writes..push_hex_1_x86
64:
	cmpq	$32, %r14
	jae	69f
	xorl	%ecx, %ecx
	jmp	71f
65:
	cmpq	$32, %r14
	jae	73f
	xorl	%ecx, %ecx
	jmp	75f
66:
	cmpq	$32, %r14
	jae	77f
	xorl	%ecx, %ecx
	jmp	79f
67:
	cmpq	$32, %rdx
	jae	87f
	xorl	%esi, %esi
	jmp	89f
68:
	cmpq	$32, %r14
	jae	92f
	xorl	%eax, %eax
	jmp	94f
69:
	movq	%r14, %rcx
	andq	$-32, %rcx
	leaq	(%rax,%r13), %rdx
	addq	$16, %rdx
	xorl	%esi, %esi
	.p2align	4
70:
	movups	(%r15,%rsi), %xmm0
	movups	16(%r15,%rsi), %xmm1
	movups	%xmm0, -16(%rdx,%rsi)
	movups	%xmm1, (%rdx,%rsi)
	addq	$32, %rsi
	cmpq	%rsi, %rcx
	jne	70b
	cmpq	%rcx, %r14
	je	28b
	testb	$28, %r14b
	je	7b
71:
	movq	%rcx, %rdx
	movq	%r14, %rcx
	andq	$-4, %rcx
	.p2align	4
72:
	movl	(%r15,%rdx), %esi
	movl	%esi, (%rdi,%rdx)
	addq	$4, %rdx
	cmpq	%rdx, %rcx
	jne	72b
	cmpq	%rcx, %r14
	je	28b
	jmp	7b
73:
	movq	%r14, %rcx
	andq	$-32, %rcx
	leaq	(%rax,%r13), %rdx
	addq	$16, %rdx
	xorl	%esi, %esi
	.p2align	4
74:
	movups	(%r15,%rsi), %xmm0
	movups	16(%r15,%rsi), %xmm1
	movups	%xmm0, -16(%rdx,%rsi)
	movups	%xmm1, (%rdx,%rsi)
	addq	$32, %rsi
	cmpq	%rsi, %rcx
	jne	74b
	cmpq	%rcx, %r14
	je	28b
	testb	$28, %r14b
	je	15b
75:
	movq	%rcx, %rdx
	movq	%r14, %rcx
	andq	$-4, %rcx
	.p2align	4
76:
	movl	(%r15,%rdx), %esi
	movl	%esi, (%rdi,%rdx)
	addq	$4, %rdx
	cmpq	%rdx, %rcx
	jne	76b
	cmpq	%rcx, %r14
	je	28b
	jmp	15b
77:
	movq	%r14, %rcx
	andq	$-32, %rcx
	leaq	(%rax,%r13), %rdx
	addq	$16, %rdx
	xorl	%esi, %esi
	.p2align	4
78:
	movups	(%r15,%rsi), %xmm0
	movups	16(%r15,%rsi), %xmm1
	movups	%xmm0, -16(%rdx,%rsi)
	movups	%xmm1, (%rdx,%rsi)
	addq	$32, %rsi
	cmpq	%rsi, %rcx
	jne	78b
	cmpq	%rcx, %r14
	je	28b
	testb	$28, %r14b
	je	23b
79:
	movq	%rcx, %rdx
	movq	%r14, %rcx
	andq	$-4, %rcx
	.p2align	4
80:
	movl	(%r15,%rdx), %esi
	movl	%esi, (%rdi,%rdx)
	addq	$4, %rdx
	cmpq	%rdx, %rcx
	jne	80b
	cmpq	%rcx, %r14
	je	28b
	jmp	23b
81:
	movl	$2, %esi
	movq	%rbx, %rdi
	callq	std_alloc..vec..Vec..grow_amortized..01eec35b572d02af_1_x86
	testb	%al, %al
	je	2b
	movq	8(%rbx), %rax
	movq	16(%rbx), %r12
	jmp	4b
82:
	movl	$1, %esi
	movq	%rbx, %rdi
	callq	std_alloc..vec..Vec..grow_amortized..01eec35b572d02af_1_x86
	testb	%al, %al
	je	2b
	movq	8(%rbx), %rax
	movq	16(%rbx), %r12
	jmp	12b
83:
	movl	$2, %esi
	movq	%rbx, %rdi
	callq	std_alloc..vec..Vec..grow_amortized..01eec35b572d02af_1_x86
	testb	%al, %al
	je	2b
	movq	8(%rbx), %rax
	movq	16(%rbx), %r12
	jmp	20b
84:
	movq	%rbx, %rdi
	movq	%r14, %rsi
	callq	std_alloc..vec..Vec..grow_amortized..01eec35b572d02af_1_x86
	movl	%eax, %ecx
	movb	$1, %al
	testb	%cl, %cl
	je	29b
	movq	(%rbx), %r13
	movq	8(%rbx), %rax
	movq	16(%rbx), %r12
	jmp	5b
85:
	movq	%rbx, %rdi
	movq	%r14, %rsi
	callq	std_alloc..vec..Vec..grow_amortized..01eec35b572d02af_1_x86
	movl	%eax, %ecx
	movb	$1, %al
	testb	%cl, %cl
	je	29b
	movq	(%rbx), %r13
	movq	8(%rbx), %rax
	movq	16(%rbx), %r12
	jmp	13b
86:
	movq	%rbx, %rdi
	movq	%r14, %rsi
	callq	std_alloc..vec..Vec..grow_amortized..01eec35b572d02af_1_x86
	movl	%eax, %ecx
	movb	$1, %al
	testb	%cl, %cl
	je	29b
	movq	(%rbx), %r13
	movq	8(%rbx), %rax
	movq	16(%rbx), %r12
	jmp	21b
87:
	movq	%rdx, %rsi
	andq	$-32, %rsi
	leaq	(%rcx,%r10), %r8
	addq	$16, %r8
	xorl	%r9d, %r9d
88:
	movups	(%r12,%r9), %xmm0
	movups	16(%r12,%r9), %xmm1
	movups	%xmm0, -16(%r8,%r9)
	movups	%xmm1, (%r8,%r9)
	addq	$32, %r9
	cmpq	%r9, %rsi
	jne	88b
	cmpq	%rsi, %rdx
	je	38b
	testb	$28, %dl
	je	33b
89:
	movq	%rsi, %r8
	movq	%rdx, %rsi
	andq	$-4, %rsi
	.p2align	4
90:
	movl	(%r12,%r8), %r9d
	movl	%r9d, (%rdi,%r8)
	addq	$4, %r8
	cmpq	%r8, %rsi
	jne	90b
	cmpq	%rsi, %rdx
	je	38b
	jmp	33b
91:
	movq	%r11, %rbp
	movq	%rbx, %rdi
	movq	%rdx, 16(%rsp)
	movq	%rdx, %rsi
	callq	std_alloc..vec..Vec..grow_amortized..01eec35b572d02af_1_x86
	testb	%al, %al
	je	98f
	movq	8(%rbx), %rcx
	movq	16(%rbx), %r13
	movq	16(%rsp), %rdx
	movq	%rbp, %r11
	jmp	31b
92:
	movq	%r14, %rax
	andq	$-32, %rax
	leaq	16(,%r13), %rcx
	addq	%rbp, %rcx
	xorl	%edx, %edx
93:
	movups	(%r15,%rdx), %xmm0
	movups	16(%r15,%rdx), %xmm1
	movups	%xmm0, -16(%rcx,%rdx)
	movups	%xmm1, (%rcx,%rdx)
	addq	$32, %rdx
	cmpq	%rdx, %rax
	jne	93b
	cmpq	%rax, %r14
	je	63b
	testb	$28, %r14b
	je	58b
94:
	movq	%rax, %rcx
	movq	%r14, %rax
	andq	$-4, %rax
	.p2align	4
95:
	movl	(%r15,%rcx), %edx
	movl	%edx, (%rdi,%rcx)
	addq	$4, %rcx
	cmpq	%rcx, %rax
	jne	95b
	cmpq	%rax, %r14
	je	63b
	jmp	58b
96:
	movl	$2, %esi
	movq	%rbx, %rdi
	callq	std_alloc..vec..Vec..grow_amortized..01eec35b572d02af_1_x86
	movl	%eax, %ecx
	movb	$1, %al
	testb	%cl, %cl
	je	29b
	movq	8(%rbx), %rbp
	movq	16(%rbx), %r12
	jmp	55b
97:
	movq	%rbx, %rdi
	movq	%r14, %rsi
	callq	std_alloc..vec..Vec..grow_amortized..01eec35b572d02af_1_x86
	movl	%eax, %ecx
	movb	$1, %al
	testb	%cl, %cl
	je	29b
	movq	(%rbx), %r13
	movq	8(%rbx), %rbp
	movq	16(%rbx), %r12
	jmp	56b
98:
	testq	%rbp, %rbp
	je	2b
	movq	%r12, %rdi
	vj_call	rattle_dealloc
	jmp	2b
99:
	movl	$4, %esi
	movq	%rbx, %rdi
	callq	std_alloc..vec..Vec..grow_amortized..01eec35b572d02af_1_x86
	testb	%al, %al
	je	2b
	movq	8(%rbx), %rcx
	movq	16(%rbx), %rdx
	movq	8(%rsp), %rax
	jmp	40b
100:
	movl	$5, %esi
	movq	%rbx, %rdi
	callq	std_alloc..vec..Vec..grow_amortized..01eec35b572d02af_1_x86
	testb	%al, %al
	je	2b
	movq	8(%rbx), %rcx
	movq	16(%rbx), %rdx
	movq	8(%rsp), %rax
	jmp	42b
101:
	movl	$9, %esi
	movq	%rbx, %rdi
	callq	std_alloc..vec..Vec..grow_amortized..01eec35b572d02af_1_x86
	testb	%al, %al
	je	2b
	movq	8(%rbx), %rcx
	movq	16(%rbx), %rdx
	movq	8(%rsp), %rax
	jmp	46b
102:
	movl	$1, %esi
	movq	%rbx, %rdi
	callq	std_alloc..vec..Vec..grow_amortized..01eec35b572d02af_1_x86
	testb	%al, %al
	je	2b
	leaq	8(%rbx), %rax
	movq	(%rax), %rbp
	jmp	49b
103:
	movq	%rbx, %rdi
	movq	%rdx, 24(%rsp)
	movq	%rdx, %rsi
	callq	std_alloc..vec..Vec..grow_amortized..01eec35b572d02af_1_x86
	testb	%al, %al
	je	2b
	movq	8(%rbx), %rbp
	movq	16(%rbx), %r12
	movq	24(%rsp), %rdx
	jmp	53b
	vj_end	b2sum_lines..writes..push_body_1_x86

	vj_data	b2sum_lines..writes..push_body_1_x86
	.p2align	2, 0x0
.L1_x86_JTI108_0:
	.long	1b-.L1_x86_JTI108_0
	.long	19b-.L1_x86_JTI108_0
	.long	3b-.L1_x86_JTI108_0
	.long	11b-.L1_x86_JTI108_0

	vj_function	b2sum_lines..writes..push_hex_1_x86
	pushq	%rbp
	pushq	%r15
	pushq	%r14
	pushq	%r13
	pushq	%r12
	pushq	%rbx
	pushq	%rax
	xorl	%r15d, %r15d
	movb	$1, %al
	testq	%rdx, %rdx
	cmovgq	%rdx, %r15
	js	16f
	je	1f
	movq	%r15, %r14
	addq	%r15, %r14
	js	16f
	movq	%rsi, %r13
	movq	%rdx, (%rsp)
	movq	%rdi, %rbp
	movl	$1, %esi
	movq	%r14, %rdi
	vj_call	rattle_alloc
	movq	%rax, %rcx
	movb	$1, %al
	testb	$1, %cl
	je	16f
	movq	%rdx, %rbx
	leaq	-1(%r14), %rdx
	xorl	%r12d, %r12d
	movq	%rbx, %rdi
	xorl	%esi, %esi
	vj_c_call	memset
	movb	$0, -1(%rbx,%r14)
	movq	(%rsp), %rdx
	cmpq	$1, %rdx
	jne	2f
	movq	%rbp, %rax
	jmp	4f
1:
	xorl	%eax, %eax
	jmp	16f
2:
	movabsq	$9223372036854775776, %rsi
	orq	$30, %rsi
	andq	%rdx, %rsi
	xorl	%r12d, %r12d
	movq	%rbp, %rax
	.p2align	4
3:
	movzbl	(%r13,%r12), %edi
	movl	%edi, %r8d
	shrl	$4, %r8d
	leaq	.L1_x86_static.189(%rip), %r9
	movzbl	(%r8,%r9), %r8d
	movb	%r8b, (%rbx,%r12,2)
	andl	$15, %edi
	movzbl	(%rdi,%r9), %edi
	movb	%dil, 1(%rbx,%r12,2)
	movzbl	1(%r13,%r12), %edi
	movl	%edi, %r8d
	shrl	$4, %r8d
	movzbl	(%r8,%r9), %r8d
	movb	%r8b, 2(%rbx,%r12,2)
	andl	$15, %edi
	movzbl	(%rdi,%r9), %edi
	movb	%dil, 3(%rbx,%r12,2)
	addq	$2, %r12
	cmpq	%r12, %rsi
	jne	3b
	testb	$1, %dl
	je	5f
4:
	movzbl	(%r13,%r12), %ecx
	movl	%ecx, %esi
	shrl	$4, %esi
	leaq	.L1_x86_static.189(%rip), %rdi
	movzbl	(%rsi,%rdi), %esi
	movb	%sil, (%rbx,%r12,2)
	andl	$15, %ecx
	movzbl	(%rcx,%rdi), %ecx
	movb	%cl, 1(%rbx,%r12,2)
5:
	movq	8(%rax), %rcx
	movq	16(%rax), %r12
	movq	%r12, %rsi
	subq	%rcx, %rsi
	cmpq	%rsi, %r14
	ja	22f
6:
	leaq	8(%rax), %rsi
	leaq	(%rcx,%r14), %r13
	movq	(%rax), %rbp
	xorps	%xmm0, %xmm0
	movups	%xmm0, (%rsi)
	leaq	(%rcx,%rbp), %rdi
	movq	%rdi, %rsi
	subq	%rbx, %rsi
	cmpq	%r14, %rsi
	jae	13f
	cmpq	$2, %rdx
	jl	7f
	cmpq	$32, %rsi
	jae	17f
7:
	xorl	%edx, %edx
8:
	movq	%r14, %r8
	movq	%rdx, %rsi
	andq	$2, %r8
	je	10f
	movq	%rdx, %rsi
	.p2align	4
9:
	movzbl	(%rbx,%rsi), %r9d
	movb	%r9b, (%rdi,%rsi)
	incq	%rsi
	decq	%r8
	jne	9b
10:
	subq	%r14, %rdx
	cmpq	$-4, %rdx
	ja	12f
	addq	%rbp, %rcx
	addq	$3, %rcx
	.p2align	4
11:
	movzbl	(%rbx,%rsi), %edx
	movb	%dl, -3(%rcx,%rsi)
	movzbl	1(%rbx,%rsi), %edx
	movb	%dl, -2(%rcx,%rsi)
	movzbl	2(%rbx,%rsi), %edx
	movb	%dl, -1(%rcx,%rsi)
	movzbl	3(%rbx,%rsi), %edx
	movb	%dl, (%rcx,%rsi)
	addq	$4, %rsi
	cmpq	%rsi, %r14
	jne	11b
12:
	movq	%rbp, (%rax)
	movq	%r13, 8(%rax)
	movq	%r12, 16(%rax)
	jmp	14f
13:
	movq	%rax, %r15
	movq	%rbx, %rsi
	movq	%r14, %rdx
	vj_c_call	memmove
	movq	%rbp, (%r15)
	movq	%r13, 8(%r15)
	movq	%r12, 16(%r15)
14:
	xorl	%ecx, %ecx
15:
	movq	%rbx, %rdi
	movl	%ecx, %ebx
	vj_call	rattle_dealloc
	movl	%ebx, %eax
16:
	addq	$8, %rsp
	popq	%rbx
	popq	%r12
	popq	%r13
	popq	%r14
	popq	%r15
	popq	%rbp
	retq
17:
	movabsq	$9223372036854775776, %rsi
	cmpq	$16, %rdx
	jge	18f
	xorl	%edx, %edx
	jmp	20f
18:
	movq	%r14, %rdx
	andq	%rsi, %rdx
	leaq	(%rcx,%rbp), %r8
	addq	$16, %r8
	xorl	%r9d, %r9d
	.p2align	4
19:
	movups	(%rbx,%r9), %xmm0
	movups	16(%rbx,%r9), %xmm1
	movups	%xmm0, -16(%r8,%r9)
	movups	%xmm1, (%r8,%r9)
	addq	$32, %r9
	cmpq	%r9, %rdx
	jne	19b
	cmpq	%rdx, %r14
	je	12b
	testb	$14, %r15b
	je	8b
20:
	movq	%rdx, %r8
	addq	$28, %rsi
	movq	%rsi, %rdx
	andq	%r14, %rdx
	.p2align	4
21:
	movl	(%rbx,%r8), %esi
	movl	%esi, (%rdi,%r8)
	addq	$4, %r8
	cmpq	%r8, %rdx
	jne	21b
	cmpq	%rdx, %r14
	je	12b
	jmp	8b
22:
	movq	%rax, %rdi
	movq	%r14, %rsi
	callq	std_alloc..vec..Vec..grow_amortized..01eec35b572d02af_1_x86
	movb	$1, %cl
	testb	%al, %al
	je	15b
	movq	%rbp, %rax
	movq	8(%rbp), %rcx
	movq	16(%rbp), %r12
	movq	(%rsp), %rdx
	jmp	6b
	vj_end	b2sum_lines..writes..push_hex_1_x86

	vj_constants	16
	.p2align	4, 0x0
.L1_x86_CPI110_0:
	.byte	116
	.byte	104
	.byte	105
	.byte	115
	.byte	32
	.byte	109
	.byte	97
	.byte	99
	.byte	104
	.byte	105
	.byte	110
	.byte	101
	.byte	32
	.byte	108
	.byte	97
	.byte	99
.L1_x86_CPI110_1:
	.byte	107
	.byte	115
	.byte	32
	.byte	97
	.byte	32
	.byte	102
	.byte	101
	.byte	97
	.byte	116
	.byte	117
	.byte	114
	.byte	101
	.byte	32
	.byte	111
	.byte	102
	.byte	32
.L1_x86_CPI110_2:
	.byte	120
	.byte	56
	.byte	54
	.byte	45
	.byte	54
	.byte	52
	.byte	45
	.byte	118
	.byte	50
	.byte	44
	.byte	32
	.byte	119
	.byte	104
	.byte	105
	.byte	99
	.byte	104
.L1_x86_CPI110_3:
	.byte	32
	.byte	116
	.byte	104
	.byte	105
	.byte	115
	.byte	32
	.byte	112
	.byte	114
	.byte	111
	.byte	103
	.byte	114
	.byte	97
	.byte	109
	.byte	32
	.byte	119
	.byte	97
.L1_x86_CPI110_4:
	.byte	115
	.byte	32
	.byte	98
	.byte	117
	.byte	105
	.byte	108
	.byte	116
	.byte	32
	.byte	102
	.byte	111
	.byte	114
	.byte	58
	.byte	32
	.byte	114
	.byte	117
	.byte	110
.L1_x86_CPI110_5:
	.byte	32
	.byte	105
	.byte	116
	.byte	32
	.byte	111
	.byte	110
	.byte	32
	.byte	97
	.byte	110
	.byte	111
	.byte	116
	.byte	104
	.byte	101
	.byte	114
	.byte	32
	.byte	109
.L1_x86_CPI110_6:
	.byte	97
	.byte	99
	.byte	104
	.byte	105
	.byte	110
	.byte	101
	.byte	44
	.byte	32
	.byte	111
	.byte	114
	.byte	32
	.byte	98
	.byte	117
	.byte	105
	.byte	108
	.byte	100
.L1_x86_CPI110_7:
	.byte	32
	.byte	105
	.byte	116
	.byte	32
	.byte	119
	.byte	105
	.byte	116
	.byte	104
	.byte	32
	.byte	45
	.byte	45
	.byte	99
	.byte	112
	.byte	117
	.byte	32
	.byte	120
	vj_export	main_1_x86
	pushq	%rbp
	movq	%rsp, %rbp
	pushq	%rbx
	pushq	%rax
	movl	$1, %esi
	movl	$13, %edi
	vj_call	b2sum_signal
	xorl	%edi, %edi
	vj_call	__x86_get_cpuid_feature_leaf
	movl	24(%rax), %ebx
	movl	$2, %edi
	vj_call	__x86_get_cpuid_feature_leaf
	notl	%ebx
	testl	$9970177, %ebx
	jne	1f
	movl	24(%rax), %eax
	andl	$1, %eax
	je	1f
	leaq	-8(%rbp), %rsp
	popq	%rbx
	popq	%rbp
	jmp	b2sum..main.start_1_x86
1:
	movq	%rsp, %rsi
	subq	$144, %rsi
	cmpq	%rsp, %rsi
	jge	3f
2:
	xorq	$0, (%rsp)
	subq	$3072, %rsp
	cmpq	%rsp, %rsi
	jl	2b
3:
	movq	%rsi, %rsp
	movaps	.L1_x86_CPI110_0(%rip), %xmm0
	movaps	%xmm0, (%rsi)
	movaps	.L1_x86_CPI110_1(%rip), %xmm0
	movaps	%xmm0, 16(%rsi)
	movaps	.L1_x86_CPI110_2(%rip), %xmm0
	movaps	%xmm0, 32(%rsi)
	movaps	.L1_x86_CPI110_3(%rip), %xmm0
	movaps	%xmm0, 48(%rsi)
	movaps	.L1_x86_CPI110_4(%rip), %xmm0
	movaps	%xmm0, 64(%rsi)
	movaps	.L1_x86_CPI110_5(%rip), %xmm0
	movaps	%xmm0, 80(%rsi)
	movaps	.L1_x86_CPI110_6(%rip), %xmm0
	movaps	%xmm0, 96(%rsi)
	movaps	.L1_x86_CPI110_7(%rip), %xmm0
	movaps	%xmm0, 112(%rsi)
	movl	$908932664, 128(%rsi)
	movw	$2612, 132(%rsi)
	movl	$134, %edx
	movl	$2, %edi
	vj_system_call	__write, b2_write
	movl	$127, %eax
	leaq	-8(%rbp), %rsp
	popq	%rbx
	popq	%rbp
	retq
	vj_end	main_1_x86

	vj_data	static.0_1_x86
.L1_x86_static.0:
	.ascii	"b2sum"

	vj_data	static.1_1_x86
.L1_x86_static.1:

	vj_data	static.4_1_x86
.L1_x86_static.4:
	.ascii	"unrecognized option '--"

	vj_data	static.5_1_x86
.L1_x86_static.5:
	.byte	39

	vj_data	static.6_1_x86
.L1_x86_static.6:
	.ascii	"\001\017\021\022\023\024\025\026\031\032\033\000\002\003\004\005\006\007\b\t\n\013\f\r\016\020\027\030\034\035"

	vj_data	static.7_1_x86
.L1_x86_static.7:
	.ascii	"algorithm"

	vj_data	static.8_1_x86
.L1_x86_static.8:
	.ascii	"length"

	vj_constants	8
.L1_x86_static.9:
	.ascii	"key-file"

	vj_data	static.10_1_x86
.L1_x86_static.10:
	.ascii	"key-hex-file"

	vj_data	static.11_1_x86
.L1_x86_static.11:
	.ascii	"derive-key"

	vj_constants	8
.L1_x86_static.12:
	.ascii	"personal"

	vj_data	static.13_1_x86
.L1_x86_static.13:
	.ascii	"personal-text"

	vj_constants	4
.L1_x86_static.14:
	.ascii	"salt"

.L1_x86_static.15:
	.ascii	"tree"

	vj_data	static.16_1_x86
.L1_x86_static.16:
	.ascii	"threads"

	vj_constants	8
.L1_x86_static.17:
	.ascii	"progress"

.L1_x86_static.18:
	.ascii	"no-names"

	vj_data	static.19_1_x86
.L1_x86_static.19:
	.ascii	"raw"

	vj_data	static.20_1_x86
.L1_x86_static.20:
	.ascii	"show-digests"

	vj_data	static.21_1_x86
.L1_x86_static.21:
	.ascii	"recursive"

	vj_data	static.22_1_x86
.L1_x86_static.22:
	.ascii	"check"

	vj_data	static.23_1_x86
.L1_x86_static.23:
	.ascii	"expect"

	vj_data	static.24_1_x86
.L1_x86_static.24:
	.ascii	"ignore-missing"

	vj_data	static.25_1_x86
.L1_x86_static.25:
	.ascii	"quiet"

	vj_data	static.26_1_x86
.L1_x86_static.26:
	.ascii	"status"

	vj_constants	4
.L1_x86_static.27:
	.ascii	"warn"

	vj_data	static.28_1_x86
.L1_x86_static.28:
	.ascii	"strict"

	vj_data	static.29_1_x86
.L1_x86_static.29:
	.ascii	"tag"

	vj_constants	4
.L1_x86_static.30:
	.ascii	"seal"

	vj_data	static.31_1_x86
.L1_x86_static.31:
	.ascii	"sealed"

	vj_constants	4
.L1_x86_static.32:
	.ascii	"zero"

	vj_data	static.33_1_x86
.L1_x86_static.33:
	.ascii	"binary"

	vj_constants	4
.L1_x86_static.34:
	.ascii	"text"

.L1_x86_static.35:
	.ascii	"help"

	vj_data	static.36_1_x86
.L1_x86_static.36:
	.ascii	"version"

	vj_data	static.37_1_x86
.L1_x86_static.37:
	.ascii	"option '--"

	vj_data	static.38_1_x86
.L1_x86_static.38:
	.ascii	"' is ambiguous; possibilities:"

	vj_data	static.40_1_x86
.L1_x86_static.40:
	.ascii	"' doesn't allow an argument"

	vj_data	static.41_1_x86
.L1_x86_static.41:
	.ascii	"invalid option -- '"

	vj_data	static.42_1_x86
.L1_x86_static.42:
	.ascii	"invalid context: "

	vj_data	static.43_1_x86
.L1_x86_static.43:
	.ascii	"invalid personalization: "

	vj_data	static.44_1_x86
.L1_x86_static.44:
	.ascii	"invalid salt: "

	vj_data	static.45_1_x86
.L1_x86_static.45:
	.ascii	"blake2b"

	vj_data	static.46_1_x86
.L1_x86_static.46:
	.ascii	"blake2s"

	vj_constants	8
.L1_x86_static.47:
	.ascii	"blake2bp"

.L1_x86_static.48:
	.ascii	"blake2sp"

	vj_data	static.49_1_x86
.L1_x86_static.49:
	.ascii	"invalid algorithm: "

	vj_constants	16
.L1_x86_static.50:
	.ascii	"invalid digest: "

	vj_data	static.51_1_x86
.L1_x86_static.51:
	.ascii	"the value has no digits"

	vj_data	static.52_1_x86
.L1_x86_static.52:
	.ascii	"a digest has at most 512 bits"

	vj_data	static.53_1_x86
.L1_x86_static.53:
	.ascii	"the value is not hexadecimal digits, two for each byte"

	vj_data	static.54_1_x86
.L1_x86_static.54:
	.ascii	"the value has no bytes"

	vj_data	static.55_1_x86
.L1_x86_static.55:
	.ascii	"a value of zeros only is the same as none"

	vj_constants	32
.L1_x86_static.56:
	.ascii	"a leaf has 1 to 4294967295 bytes"

	vj_data	static.57_1_x86
.L1_x86_static.57:
	.ascii	"invalid leaf length: "

	vj_data	static.58_1_x86
.L1_x86_static.58:
	.ascii	": Value too large for defined data type"

	vj_data	static.59_1_x86
.L1_x86_static.59:
	.ascii	"the value is not a number of threads, or 0 for all processors"

	vj_data	static.60_1_x86
.L1_x86_static.60:
	.ascii	"invalid number of threads: "

	vj_constants	16
.L1_x86_static.61:
	.ascii	"invalid length: "

	vj_data	static.62_1_x86
.L1_x86_static.62:
	.ascii	"length is not a multiple of 8"

	vj_constants	32
.L1_x86_static.63:
	.ascii	"option requires an argument -- '"

	vj_data	static.64_1_x86
.L1_x86_static.64:
	.ascii	"' requires an argument"

	vj_data	static.65_1_x86
.L1_x86_static.65:
	.ascii	"' is 256 bits"

	vj_data	static.66_1_x86
.L1_x86_static.66:
	.ascii	"' is 512 bits"

	vj_data	static.67_1_x86
.L1_x86_static.67:
	.ascii	"maximum digest length for '"

	vj_data	static.68_1_x86
.L1_x86_static.68:
	.ascii	"BLAKE2b"

	vj_data	static.69_1_x86
.L1_x86_static.69:
	.ascii	"BLAKE2s"

	vj_data	static.72_1_x86
.L1_x86_static.72:
	.ascii	"BLAKE2b-tree-"

	vj_data	static.73_1_x86
.L1_x86_static.73:
	.ascii	"the --derive-key option needs --key-file"

	vj_data	static.74_1_x86
.L1_x86_static.74:
	.ascii	"the --seal option is meaningless when verifying checksums"

	vj_data	static.75_1_x86
.L1_x86_static.75:
	.ascii	"the --seal option does not support --tree"

	vj_data	static.76_1_x86
.L1_x86_static.76:
	.ascii	"the --seal option does not support --zero"

	vj_data	static.77_1_x86
.L1_x86_static.77:
	.ascii	"the --seal option does not support --no-names and --raw"

	vj_data	static.79_1_x86
.L1_x86_static.79:
	.ascii	"--seal does not support --text mode"

	vj_data	static.80_1_x86
.L1_x86_static.80:
	.ascii	"the --seal option needs --key-file"

	vj_data	static.81_1_x86
.L1_x86_static.81:
	.ascii	"the --sealed option is meaningful only when verifying checksums"

	vj_data	static.82_1_x86
.L1_x86_static.82:
	.ascii	"the --sealed option needs --key-file"

	vj_data	static.83_1_x86
.L1_x86_static.83:
	.ascii	"the --recursive option does not support --expect"

	vj_data	static.84_1_x86
.L1_x86_static.84:
	.ascii	"the --recursive option does not support --raw"

	vj_data	static.85_1_x86
.L1_x86_static.85:
	.ascii	"the --recursive option needs --sealed when verifying checksums"

	vj_data	static.86_1_x86
.L1_x86_static.86:
	.ascii	"the --expect option does not support --sealed"

	vj_data	static.87_1_x86
.L1_x86_static.87:
	.ascii	"the --expect option does not support --strict and --ignore-missing"

	vj_data	static.88_1_x86
.L1_x86_static.88:
	.ascii	"the expected digest does not have the length of the digests"

	vj_data	static.89_1_x86
.L1_x86_static.89:
	.ascii	"--tag does not support --text mode"

	vj_data	static.90_1_x86
.L1_x86_static.90:
	.ascii	"--tag does not support --no-names and --raw"

	vj_data	static.91_1_x86
.L1_x86_static.91:
	.ascii	"the --personal and --personal-text options are mutually exclusive"

	vj_data	static.92_1_x86
.L1_x86_static.92:
	.ascii	"the --key-file and --key-hex-file options are mutually exclusive"

	vj_data	static.93_1_x86
.L1_x86_static.93:
	.ascii	"the --tree option supports blake2b only"

	vj_data	static.94_1_x86
.L1_x86_static.94:
	.ascii	"the --tree option does not support --key-file"

	vj_data	static.95_1_x86
.L1_x86_static.95:
	.ascii	"--tree does not support --text mode"

	vj_data	static.96_1_x86
.L1_x86_static.96:
	.ascii	"the --threads option is meaningful only with --tree"

	vj_data	static.97_1_x86
.L1_x86_static.97:
	.ascii	"the --zero option is not supported when verifying checksums"

	vj_data	static.98_1_x86
.L1_x86_static.98:
	.ascii	"the --tag option is meaningless when verifying checksums"

	vj_data	static.99_1_x86
.L1_x86_static.99:
	.ascii	"the --binary and --text options are meaningless when verifying checksums"

	vj_data	static.100_1_x86
.L1_x86_static.100:
	.ascii	"the --no-names and --raw options are meaningless when verifying checksums"

	vj_data	static.101_1_x86
.L1_x86_static.101:
	.ascii	"--show-digests does not support --key-file: it would print a valid MAC of a changed file"

	vj_data	static.102_1_x86
.L1_x86_static.102:
	.ascii	"the --ignore-missing option is meaningful only when verifying checksums"

	vj_data	static.103_1_x86
.L1_x86_static.103:
	.ascii	"the --status option is meaningful only when verifying checksums"

	vj_data	static.104_1_x86
.L1_x86_static.104:
	.ascii	"the --warn option is meaningful only when verifying checksums"

	vj_data	static.105_1_x86
.L1_x86_static.105:
	.ascii	"the --quiet option is meaningful only when verifying checksums"

	vj_data	static.106_1_x86
.L1_x86_static.106:
	.ascii	"the --strict option is meaningful only when verifying checksums"

	vj_data	static.107_1_x86
.L1_x86_static.107:
	.ascii	"the --show-digests option is meaningful only when verifying checksums"

	vj_data	static.108_1_x86
.L1_x86_static.108:
	.ascii	"the salt is too long: at most 16 bytes, 8 for BLAKE2s and BLAKE2sp"

	vj_data	static.109_1_x86
.L1_x86_static.109:
	.ascii	"the personalization is too long: at most 16 bytes, 8 for BLAKE2s and BLAKE2sp"

	vj_data	static.110_1_x86
.L1_x86_static.110:
	.ascii	"the --raw option needs one file"

	vj_data	static.111_1_x86
.L1_x86_static.111:
	.ascii	"standard input is the key, and cannot be a file too"

	vj_data	static.113_1_x86
.L1_x86_static.113:
	.byte	244

	vj_data	static.114_1_x86
.L1_x86_static.114:
	.ascii	"file name contained an unexpected NUL byte"

	vj_data	static.118_1_x86
.L1_x86_static.118:
	.ascii	"gave up reading or writing after 2^64 tries"

	vj_data	static.119_1_x86
.L1_x86_static.119:
	.ascii	"a key has 2 to 128 hexadecimal digits, two for each byte"

	vj_data	static.120_1_x86
.L1_x86_static.120:
	.ascii	"a key of BLAKE2s or BLAKE2sp has 2 to 64 hexadecimal digits, two for each byte"

	vj_data	static.121_1_x86
.L1_x86_static.121:
	.ascii	"a key has 1 to 64 bytes"

	vj_data	static.122_1_x86
.L1_x86_static.122:
	.ascii	"a key of BLAKE2s or BLAKE2sp has 1 to 32 bytes"

	vj_data	static.123_1_x86
.L1_x86_static.123:
	.ascii	": "

	vj_data	static.124_1_x86
.L1_x86_static.124:
	.ascii	" !\"$&'()*:;<=>?[\\^`|"

	vj_data	static.125_1_x86
.L1_x86_static.125:
	.ascii	" %'+,-./:]_"

	vj_data	static.128_1_x86
.L1_x86_static.128:
	.ascii	"'$'"

	vj_data	static.129_1_x86
.L1_x86_static.129:
	.ascii	" (os error "

	vj_data	static.130_1_x86
.L1_x86_static.130:
	.byte	41

	vj_constants	4
.L1_x86_static.131:
	.zero	4,32

	vj_constants	16
.L1_x86_static.133:
	.ascii	"entity not found"

	vj_data	static.134_1_x86
.L1_x86_static.134:
	.ascii	"permission denied"

	vj_data	static.135_1_x86
.L1_x86_static.135:
	.ascii	"connection refused"

	vj_constants	16
.L1_x86_static.136:
	.ascii	"connection reset"

.L1_x86_static.137:
	.ascii	"host unreachable"

	vj_data	static.138_1_x86
.L1_x86_static.138:
	.ascii	"network unreachable"

	vj_data	static.139_1_x86
.L1_x86_static.139:
	.ascii	"connection aborted"

	vj_data	static.140_1_x86
.L1_x86_static.140:
	.ascii	"not connected"

	vj_data	static.141_1_x86
.L1_x86_static.141:
	.ascii	"address in use"

	vj_data	static.142_1_x86
.L1_x86_static.142:
	.ascii	"address not available"

	vj_data	static.143_1_x86
.L1_x86_static.143:
	.ascii	"network down"

	vj_data	static.144_1_x86
.L1_x86_static.144:
	.ascii	"broken pipe"

	vj_data	static.145_1_x86
.L1_x86_static.145:
	.ascii	"entity already exists"

	vj_data	static.146_1_x86
.L1_x86_static.146:
	.ascii	"operation would block"

	vj_data	static.147_1_x86
.L1_x86_static.147:
	.ascii	"not a directory"

	vj_data	static.148_1_x86
.L1_x86_static.148:
	.ascii	"is a directory"

	vj_data	static.149_1_x86
.L1_x86_static.149:
	.ascii	"directory not empty"

	vj_data	static.150_1_x86
.L1_x86_static.150:
	.ascii	"read-only filesystem or storage medium"

	vj_data	static.151_1_x86
.L1_x86_static.151:
	.ascii	"filesystem loop or indirection limit (e.g. symlink loop)"

	vj_data	static.152_1_x86
.L1_x86_static.152:
	.ascii	"stale network file handle"

	vj_data	static.153_1_x86
.L1_x86_static.153:
	.ascii	"invalid input parameter"

	vj_data	static.154_1_x86
.L1_x86_static.154:
	.ascii	"invalid data"

	vj_data	static.155_1_x86
.L1_x86_static.155:
	.ascii	"timed out"

	vj_data	static.156_1_x86
.L1_x86_static.156:
	.ascii	"write zero"

	vj_constants	16
.L1_x86_static.157:
	.ascii	"no storage space"

	vj_data	static.158_1_x86
.L1_x86_static.158:
	.ascii	"seek on unseekable file"

	vj_data	static.159_1_x86
.L1_x86_static.159:
	.ascii	"quota exceeded"

	vj_data	static.160_1_x86
.L1_x86_static.160:
	.ascii	"file too large"

	vj_data	static.161_1_x86
.L1_x86_static.161:
	.ascii	"resource busy"

	vj_data	static.162_1_x86
.L1_x86_static.162:
	.ascii	"executable file busy"

	vj_constants	8
.L1_x86_static.163:
	.ascii	"deadlock"

	vj_data	static.164_1_x86
.L1_x86_static.164:
	.ascii	"cross-device link or rename"

	vj_data	static.165_1_x86
.L1_x86_static.165:
	.ascii	"too many links"

	vj_constants	16
.L1_x86_static.166:
	.ascii	"invalid filename"

	vj_data	static.167_1_x86
.L1_x86_static.167:
	.ascii	"argument list too long"

	vj_data	static.168_1_x86
.L1_x86_static.168:
	.ascii	"operation interrupted"

	vj_data	static.169_1_x86
.L1_x86_static.169:
	.ascii	"unsupported"

	vj_data	static.170_1_x86
.L1_x86_static.170:
	.ascii	"unexpected end of file"

	vj_data	static.171_1_x86
.L1_x86_static.171:
	.ascii	"out of memory"

	vj_data	static.172_1_x86
.L1_x86_static.172:
	.ascii	"in progress"

	vj_data	static.173_1_x86
.L1_x86_static.173:
	.ascii	"other error"

	vj_data	static.174_1_x86
.L1_x86_static.174:
	.ascii	"uncategorized error"

	vj_data	static.175_1_x86
.L1_x86_static.175:
	.ascii	": has only hexadecimal digits, which --key-hex-file would decode"

	vj_data	static.176_1_x86
.L1_x86_static.176:
	.ascii	"WARNING: "

	vj_data	static.179_1_x86
.L1_x86_static.179:
	.ascii	": WARNING: MACs below 128 bits can be guessed\n"

	vj_data	static.184_1_x86
.L1_x86_static.184:
	.ascii	"  expected: "

	vj_data	static.185_1_x86
.L1_x86_static.185:
	.ascii	"  found:    "

	vj_data	static.186_1_x86
.L1_x86_static.186:
	.ascii	": OK\n"

	vj_data	static.187_1_x86
.L1_x86_static.187:
	.ascii	": FAILED open or read\n"

	vj_data	static.188_1_x86
.L1_x86_static.188:
	.ascii	": FAILED\n"

	vj_constants	16
.L1_x86_static.189:
	.ascii	"0123456789abcdef"

	vj_data	static.190_1_x86
.L1_x86_static.190:
	.byte	10

	vj_data	static.193_1_x86
.L1_x86_static.193:
	.ascii	"\\n"

	vj_data	static.194_1_x86
.L1_x86_static.194:
	.ascii	"\\r"

	vj_data	static.195_1_x86
.L1_x86_static.195:
	.ascii	"the seal does not hold"

	vj_data	static.196_1_x86
.L1_x86_static.196:
	.ascii	"the list has more than 268435456 bytes"

	vj_data	static.197_1_x86
.L1_x86_static.197:
	.ascii	"# sealed "

	vj_data	static.198_1_x86
.L1_x86_static.198:
	.byte	32

	vj_data	static.199_1_x86
.L1_x86_static.199:
	.ascii	"b2sum sealed"

	vj_data	static.203_1_x86
.L1_x86_static.203:
	.ascii	"-salt"

	vj_data	static.204_1_x86
.L1_x86_static.204:
	.ascii	"-personal"

	vj_constants	4
.L1_x86_static.205:
	.ascii	"\364\217\274\200"

	vj_data	static.216_1_x86
.L1_x86_static.216:
	.ascii	": checksum line of another algorithm"

	vj_data	static.217_1_x86
.L1_x86_static.217:
	.ascii	"standard input"

	vj_data	static.218_1_x86
.L1_x86_static.218:
	.ascii	": improperly formatted "

	vj_data	static.219_1_x86
.L1_x86_static.219:
	.ascii	" checksum line"

	vj_data	static.220_1_x86
.L1_x86_static.220:
	.ascii	": needs"

	vj_constants	4
.L1_x86_static.221:
	.ascii	" no "

	vj_data	static.222_1_x86
.L1_x86_static.222:
	.ascii	"--key-file"

	vj_data	static.223_1_x86
.L1_x86_static.223:
	.ascii	"--salt"

	vj_data	static.224_1_x86
.L1_x86_static.224:
	.ascii	"--personal"

	vj_data	static.225_1_x86
.L1_x86_static.225:
	.ascii	" --algorithm blake2b"

	vj_data	static.226_1_x86
.L1_x86_static.226:
	.ascii	" --algorithm blake2s"

	vj_data	static.227_1_x86
.L1_x86_static.227:
	.ascii	" --algorithm blake2bp"

	vj_data	static.228_1_x86
.L1_x86_static.228:
	.ascii	" --algorithm blake2sp"

	vj_data	static.230_1_x86
.L1_x86_static.230:
	.ascii	" --length "

	vj_data	static.231_1_x86
.L1_x86_static.231:
	.ascii	"read error"

	vj_data	static.232_1_x86
.L1_x86_static.232:
	.ascii	": no properly formatted checksum lines found"

	vj_data	static.233_1_x86
.L1_x86_static.233:
	.ascii	": lines need"

	vj_data	static.234_1_x86
.L1_x86_static.234:
	.ascii	" line is improperly formatted"

	vj_data	static.235_1_x86
.L1_x86_static.235:
	.ascii	" lines are improperly formatted"

	vj_data	static.236_1_x86
.L1_x86_static.236:
	.ascii	" line needs other options"

	vj_data	static.237_1_x86
.L1_x86_static.237:
	.ascii	" lines need other options"

	vj_data	static.238_1_x86
.L1_x86_static.238:
	.ascii	" listed file could not be read"

	vj_data	static.239_1_x86
.L1_x86_static.239:
	.ascii	" listed files could not be read"

	vj_constants	32
.L1_x86_static.240:
	.ascii	" computed checksum did NOT match"

	vj_data	static.241_1_x86
.L1_x86_static.241:
	.ascii	" computed checksums did NOT match"

	vj_data	static.242_1_x86
.L1_x86_static.242:
	.ascii	": no file was verified"

	vj_constants	4
.L1_x86_static.243:
	.ascii	"\364\217\274\201"

	vj_data	static.245_1_x86
.L1_x86_static.245:
	.ascii	"is not in the list"

	vj_data	static.247_1_x86
.L1_x86_static.247:
	.ascii	" ("

	vj_constants	4
.L1_x86_static.248:
	.ascii	") = "

	vj_data	static.250_1_x86
.L1_x86_static.250:
	.ascii	" *"

	vj_data	static.251_1_x86
.L1_x86_static.251:
	.ascii	"is not a regular file"

	vj_data	static.252_1_x86
.L1_x86_static.252:
	.ascii	"Usage: "

	vj_data	static.253_1_x86
.L1_x86_static.253:
	.ascii	" [OPTION].. [FILE]..\nPrint or check BLAKE2 digests. Without FILE and --recursive, or for -, read standard input.\n\n  -a, --algorithm NAME  blake2b (the default), blake2s, blake2bp or blake2sp\n  -l, --length BITS     length of the digests: a multiple of 8, at most 512, or 256 for blake2s\n                        and blake2sp\n  -b, --binary          print * before each name\n  -t, --text            print a space before each name (the default)\n      --tag             print lines that name the algorithm\n      --seal            print lines as --tag does, and one that seals them; needs --key-file\n  -z, --zero            end each line with a zero byte, and do not escape names\n      --no-names        print only the digits of each digest\n      --raw             print only the bytes of the digest of one FILE\n      --key-file FILE   use the bytes of the file, or of standard input if it is -, as the key:\n                        at most 64, or 32 for blake2s and blake2sp\n      --key-hex-file FILE\n                        use the key that the hexadecimal digits of the file write\n      --derive-key CONTEXT\n                        for the purpose CONTEXT, use a key that is derived from that of the file\n      --salt HEX        use this salt: at most 16 bytes, or 8 for blake2s and blake2sp\n      --personal HEX    use this personalization: at most 16 bytes, or 8 for blake2s and blake2sp\n      --personal-text TEXT\n                        use the bytes of TEXT as the personalization\n      --tree LEAF       print roots of trees of blake2b with leaves of LEAF bytes, such as 65536,\n                        which is fastest for large files\n      --recursive DIR   print the lines of all files in DIR and below; with --check --sealed, name\n                        what is there and not in the list\n  -c, --check           read digests from the FILEs and check them\n      --expect DIGEST   check that each FILE has this digest, whose digits tell its length\n      --ignore-missing  do not fail for missing files\n      --quiet           do not print OK\n      --status          print nothing, the status shows success\n      --sealed          with --check, believe only lists whose seal holds; needs --key-file\n      --strict          fail for improperly formatted lines\n      --show-digests    print the expected and the found digest of each file that differs\n  -w, --warn            warn about each line that is improperly formatted or needs other options\n      --threads N       hash trees by at most N threads; 0, the default: all processors\n      --progress        show the progress of long reads on a terminal\n      --help            print this help\n      --version         print the version\n\nThe status is 0 for success, and 1 for a file that cannot be read, a check that fails, wrong\noptions, or output that cannot be written.\n"

	vj_data	static.254_1_x86
.L1_x86_static.254:
	.ascii	"b2sum (Vulfsjor) 0.1.0\n"

	vj_data	static.255_1_x86
.L1_x86_static.255:
	.ascii	" --help' for more information.\n"

	vj_data	static.256_1_x86
.L1_x86_static.256:
	.ascii	"Try '"

	vj_data	static.257_1_x86
.L1_x86_static.257:
	.ascii	": write error\n"

	vj_data	static.258_1_x86
.L1_x86_static.258:
	.ascii	"write error: "

	vj_data	static.259_1_x86
.L1_x86_static.259:
	.ascii	": memory exhausted\n"

	vj_data	Lswitch.table.b2sum_commands..program..run_words..82a450bcca081e63_1_x86
	.p2align	3, 0x0
.L1_x86_switch.table.b2sum_commands..program..run_words..82a450bcca081e63_1_x86:
	.quad	8
	.quad	8
	.quad	3
	.quad	12
	.quad	9
	.quad	5
	.quad	6
	.quad	14
	.quad	5
	.quad	6
	.quad	4
	.quad	6
	.quad	3
	.quad	4
	.quad	6
	.quad	4
	.quad	6
	.quad	4
	.quad	4
	.quad	7

	vj_data	Lswitch.table.b2sum_commands..program..run_words..82a450bcca081e63.394.rel_1_x86
	.p2align	2, 0x0
.L1_x86_switch.table.b2sum_commands..program..run_words..82a450bcca081e63.394.rel_1_x86:
	.long	.L1_x86_static.17-.L1_x86_switch.table.b2sum_commands..program..run_words..82a450bcca081e63.394.rel_1_x86
	.long	.L1_x86_static.18-.L1_x86_switch.table.b2sum_commands..program..run_words..82a450bcca081e63.394.rel_1_x86
	.long	.L1_x86_static.19-.L1_x86_switch.table.b2sum_commands..program..run_words..82a450bcca081e63.394.rel_1_x86
	.long	.L1_x86_static.20-.L1_x86_switch.table.b2sum_commands..program..run_words..82a450bcca081e63.394.rel_1_x86
	.long	.L1_x86_static.21-.L1_x86_switch.table.b2sum_commands..program..run_words..82a450bcca081e63.394.rel_1_x86
	.long	.L1_x86_static.22-.L1_x86_switch.table.b2sum_commands..program..run_words..82a450bcca081e63.394.rel_1_x86
	.long	.L1_x86_static.23-.L1_x86_switch.table.b2sum_commands..program..run_words..82a450bcca081e63.394.rel_1_x86
	.long	.L1_x86_static.24-.L1_x86_switch.table.b2sum_commands..program..run_words..82a450bcca081e63.394.rel_1_x86
	.long	.L1_x86_static.25-.L1_x86_switch.table.b2sum_commands..program..run_words..82a450bcca081e63.394.rel_1_x86
	.long	.L1_x86_static.26-.L1_x86_switch.table.b2sum_commands..program..run_words..82a450bcca081e63.394.rel_1_x86
	.long	.L1_x86_static.27-.L1_x86_switch.table.b2sum_commands..program..run_words..82a450bcca081e63.394.rel_1_x86
	.long	.L1_x86_static.28-.L1_x86_switch.table.b2sum_commands..program..run_words..82a450bcca081e63.394.rel_1_x86
	.long	.L1_x86_static.29-.L1_x86_switch.table.b2sum_commands..program..run_words..82a450bcca081e63.394.rel_1_x86
	.long	.L1_x86_static.30-.L1_x86_switch.table.b2sum_commands..program..run_words..82a450bcca081e63.394.rel_1_x86
	.long	.L1_x86_static.31-.L1_x86_switch.table.b2sum_commands..program..run_words..82a450bcca081e63.394.rel_1_x86
	.long	.L1_x86_static.32-.L1_x86_switch.table.b2sum_commands..program..run_words..82a450bcca081e63.394.rel_1_x86
	.long	.L1_x86_static.33-.L1_x86_switch.table.b2sum_commands..program..run_words..82a450bcca081e63.394.rel_1_x86
	.long	.L1_x86_static.34-.L1_x86_switch.table.b2sum_commands..program..run_words..82a450bcca081e63.394.rel_1_x86
	.long	.L1_x86_static.35-.L1_x86_switch.table.b2sum_commands..program..run_words..82a450bcca081e63.394.rel_1_x86
	.long	.L1_x86_static.36-.L1_x86_switch.table.b2sum_commands..program..run_words..82a450bcca081e63.394.rel_1_x86

	vj_data	Lswitch.table.b2sum_commands..program..run_words..82a450bcca081e63.395_1_x86
	.p2align	3, 0x0
.L1_x86_switch.table.b2sum_commands..program..run_words..82a450bcca081e63.395_1_x86:
	.quad	9
	.quad	6
	.quad	8
	.quad	12
	.quad	10
	.quad	8
	.quad	13
	.quad	4
	.quad	4
	.quad	7
	.quad	8
	.quad	8
	.quad	3
	.quad	12
	.quad	9
	.quad	5
	.quad	6

	vj_data	Lswitch.table.b2sum_commands..program..run_words..82a450bcca081e63.396.rel_1_x86
	.p2align	2, 0x0
.L1_x86_switch.table.b2sum_commands..program..run_words..82a450bcca081e63.396.rel_1_x86:
	.long	.L1_x86_static.7-.L1_x86_switch.table.b2sum_commands..program..run_words..82a450bcca081e63.396.rel_1_x86
	.long	.L1_x86_static.8-.L1_x86_switch.table.b2sum_commands..program..run_words..82a450bcca081e63.396.rel_1_x86
	.long	.L1_x86_static.9-.L1_x86_switch.table.b2sum_commands..program..run_words..82a450bcca081e63.396.rel_1_x86
	.long	.L1_x86_static.10-.L1_x86_switch.table.b2sum_commands..program..run_words..82a450bcca081e63.396.rel_1_x86
	.long	.L1_x86_static.11-.L1_x86_switch.table.b2sum_commands..program..run_words..82a450bcca081e63.396.rel_1_x86
	.long	.L1_x86_static.12-.L1_x86_switch.table.b2sum_commands..program..run_words..82a450bcca081e63.396.rel_1_x86
	.long	.L1_x86_static.13-.L1_x86_switch.table.b2sum_commands..program..run_words..82a450bcca081e63.396.rel_1_x86
	.long	.L1_x86_static.14-.L1_x86_switch.table.b2sum_commands..program..run_words..82a450bcca081e63.396.rel_1_x86
	.long	.L1_x86_static.15-.L1_x86_switch.table.b2sum_commands..program..run_words..82a450bcca081e63.396.rel_1_x86
	.long	.L1_x86_static.16-.L1_x86_switch.table.b2sum_commands..program..run_words..82a450bcca081e63.396.rel_1_x86
	.long	.L1_x86_static.17-.L1_x86_switch.table.b2sum_commands..program..run_words..82a450bcca081e63.396.rel_1_x86
	.long	.L1_x86_static.18-.L1_x86_switch.table.b2sum_commands..program..run_words..82a450bcca081e63.396.rel_1_x86
	.long	.L1_x86_static.19-.L1_x86_switch.table.b2sum_commands..program..run_words..82a450bcca081e63.396.rel_1_x86
	.long	.L1_x86_static.20-.L1_x86_switch.table.b2sum_commands..program..run_words..82a450bcca081e63.396.rel_1_x86
	.long	.L1_x86_static.21-.L1_x86_switch.table.b2sum_commands..program..run_words..82a450bcca081e63.396.rel_1_x86
	.long	.L1_x86_static.22-.L1_x86_switch.table.b2sum_commands..program..run_words..82a450bcca081e63.396.rel_1_x86
	.long	.L1_x86_static.23-.L1_x86_switch.table.b2sum_commands..program..run_words..82a450bcca081e63.396.rel_1_x86

	vj_data	Lswitch.table.b2sum_commands..program..run_words..82a450bcca081e63.397_1_x86
	.p2align	3, 0x0
.L1_x86_switch.table.b2sum_commands..program..run_words..82a450bcca081e63.397_1_x86:
	.quad	512
	.quad	256
	.quad	512
	.quad	256
	.quad	512

	vj_data	Lswitch.table.b2sum_commands..program..run_words..82a450bcca081e63.398.rel_1_x86
	.p2align	2, 0x0
.L1_x86_switch.table.b2sum_commands..program..run_words..82a450bcca081e63.398.rel_1_x86:
	.long	.L1_x86_static.66-.L1_x86_switch.table.b2sum_commands..program..run_words..82a450bcca081e63.398.rel_1_x86
	.long	.L1_x86_static.65-.L1_x86_switch.table.b2sum_commands..program..run_words..82a450bcca081e63.398.rel_1_x86
	.long	.L1_x86_static.66-.L1_x86_switch.table.b2sum_commands..program..run_words..82a450bcca081e63.398.rel_1_x86
	.long	.L1_x86_static.65-.L1_x86_switch.table.b2sum_commands..program..run_words..82a450bcca081e63.398.rel_1_x86
	.long	.L1_x86_static.66-.L1_x86_switch.table.b2sum_commands..program..run_words..82a450bcca081e63.398.rel_1_x86

	vj_data	Lswitch.table.b2sum_commands..program..run_words..82a450bcca081e63.400_1_x86
	.p2align	3, 0x0
.L1_x86_switch.table.b2sum_commands..program..run_words..82a450bcca081e63.400_1_x86:
	.quad	16
	.quad	8
	.quad	16
	.quad	8
	.quad	16

	vj_data	Lswitch.table.b2sum_commands..options..long_flag.409_1_x86
	.p2align	3, 0x0
.L1_x86_switch.table.b2sum_commands..options..long_flag.409_1_x86:
	.quad	9
	.quad	6
	.quad	8
	.quad	12
	.quad	10
	.quad	8
	.quad	13
	.quad	4
	.quad	4
	.quad	7
	.quad	8
	.quad	8
	.quad	3
	.quad	12
	.quad	9
	.quad	5
	.quad	6
	.quad	14
	.quad	5
	.quad	6
	.quad	4
	.quad	6
	.quad	3
	.quad	4
	.quad	6
	.quad	4
	.quad	6
	.quad	4
	.quad	4
	.quad	7

	vj_relocated	Lswitch.table.b2sum_commands..options..long_flag.410_1_x86
	.p2align	3, 0x0
.L1_x86_switch.table.b2sum_commands..options..long_flag.410_1_x86:
	.quad	.L1_x86_static.7
	.quad	.L1_x86_static.8
	.quad	.L1_x86_static.9
	.quad	.L1_x86_static.10
	.quad	.L1_x86_static.11
	.quad	.L1_x86_static.12
	.quad	.L1_x86_static.13
	.quad	.L1_x86_static.14
	.quad	.L1_x86_static.15
	.quad	.L1_x86_static.16
	.quad	.L1_x86_static.17
	.quad	.L1_x86_static.18
	.quad	.L1_x86_static.19
	.quad	.L1_x86_static.20
	.quad	.L1_x86_static.21
	.quad	.L1_x86_static.22
	.quad	.L1_x86_static.23
	.quad	.L1_x86_static.24
	.quad	.L1_x86_static.25
	.quad	.L1_x86_static.26
	.quad	.L1_x86_static.27
	.quad	.L1_x86_static.28
	.quad	.L1_x86_static.29
	.quad	.L1_x86_static.30
	.quad	.L1_x86_static.31
	.quad	.L1_x86_static.32
	.quad	.L1_x86_static.33
	.quad	.L1_x86_static.34
	.quad	.L1_x86_static.35
	.quad	.L1_x86_static.36

	vj_data	Lswitch.table.b2sum_lines..reads..digest_of_digits_1_x86
	.p2align	3, 0x0
.L1_x86_switch.table.b2sum_lines..reads..digest_of_digits_1_x86:
	.quad	128
	.quad	64
	.quad	128
	.quad	64
	.quad	128

	vj_data	Lswitch.table.b2sum_lines..writes..push_body_1_x86
	.p2align	3, 0x0
.L1_x86_switch.table.b2sum_lines..writes..push_body_1_x86:
	.quad	64
	.quad	32
	.quad	64
	.quad	32
	.quad	64

	vj_choose	blake2_compress..compress..blake2b..compress_1_x86, blake2_compress..compress..blake2b..compress_1_v2, blake2_compress..compress..blake2b..compress_1_v3, blake2_compress..compress..blake2b..compress_1_v4
	vj_choose	blake2_compress..compress..blake2s..compress_1_x86, blake2_compress..compress..blake2s..compress_1_v2, blake2_compress..compress..blake2s..compress_1_v3, blake2_compress..compress..blake2s..compress_1_v4
	vj_choose	blake2_parallel..lanes..blake2bp..Lanes..outputs_1_x86, blake2_parallel..lanes..blake2bp..Lanes..outputs_1_v2, blake2_parallel..lanes..blake2bp..Lanes..outputs_1_v3, blake2_parallel..lanes..blake2bp..Lanes..outputs_1_v4
	vj_choose	blake2_parallel..lanes..blake2bp..Lanes..update_1_x86, blake2_parallel..lanes..blake2bp..Lanes..update_1_v2, blake2_parallel..lanes..blake2bp..Lanes..update_1_v3, blake2_parallel..lanes..blake2bp..Lanes..update_1_v4
	vj_choose	blake2_parallel..lanes..blake2sp..Lanes..outputs_1_x86, blake2_parallel..lanes..blake2sp..Lanes..outputs_1_v2, blake2_parallel..lanes..blake2sp..Lanes..outputs_1_v3, blake2_parallel..lanes..blake2sp..Lanes..outputs_1_v4
	vj_choose	blake2_parallel..lanes..blake2sp..Lanes..update_1_x86, blake2_parallel..lanes..blake2sp..Lanes..update_1_v2, blake2_parallel..lanes..blake2sp..Lanes..update_1_v3, blake2_parallel..lanes..blake2sp..Lanes..update_1_v4
	vj_choose	blake2_state..many..blake2b..update_many_1_x86, blake2_state..many..blake2b..update_many_1_v2, blake2_state..many..blake2b..update_many_1_v3, blake2_state..many..blake2b..update_many_1_v4
	vj_choose	blake2_state..many..blake2s..update_many_1_x86, blake2_state..many..blake2s..update_many_1_v2, blake2_state..many..blake2s..update_many_1_v3, blake2_state..many..blake2s..update_many_1_v4
	vj_choose	blake2_tree..nodes..Nodes..hash_next_1_x86, blake2_tree..nodes..Nodes..hash_next_1_v2, blake2_tree..nodes..Nodes..hash_next_1_v3, blake2_tree..nodes..Nodes..hash_next_1_v4
	vj_choose	blake2_xof..blake2xb..State..squeeze_1_x86, blake2_xof..blake2xb..State..squeeze_1_v2, blake2_xof..blake2xb..State..squeeze_1_v3, blake2_xof..blake2xb..State..squeeze_1_v4
