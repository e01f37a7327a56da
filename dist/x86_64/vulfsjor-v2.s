/* Made by tools/dist.sh from the proved crate blake2_ffi. dist/README.md says how. */
	vj_function	blake2_ffi..blake2b..finalize_1_v2
	pushq	%rbx
	movq	%rdi, %rbx
	callq	blake2_state..blake2b..State..write_digest_1_v2
	movl	$344, %edx
	movq	%rbx, %rdi
	xorl	%esi, %esi
	popq	%rbx
	vj_c_jump	memset
	vj_end	blake2_ffi..blake2b..finalize_1_v2

	vj_function	blake2_state..blake2b..State..write_digest_1_v2
	pushq	%r15
	pushq	%r14
	pushq	%r12
	pushq	%rbx
	subq	$264, %rsp
	movq	%rsi, %rbx
	movq	%rdi, %r14
	xorps	%xmm0, %xmm0
	movaps	%xmm0, 48(%rsp)
	movaps	%xmm0, 32(%rsp)
	movaps	%xmm0, 16(%rsp)
	movaps	%xmm0, (%rsp)
	movups	(%rdi), %xmm1
	movups	16(%rdi), %xmm2
	movups	32(%rdi), %xmm3
	movups	48(%rdi), %xmm4
	movups	%xmm1, 64(%rsp)
	movups	%xmm2, 80(%rsp)
	movups	%xmm4, 112(%rsp)
	movups	%xmm3, 96(%rsp)
	movl	136(%rdi), %r15d
	leaq	152(%rdi), %rsi
	movaps	%xmm0, 240(%rsp)
	movaps	%xmm0, 224(%rsp)
	movaps	%xmm0, 208(%rsp)
	movaps	%xmm0, 192(%rsp)
	movaps	%xmm0, 176(%rsp)
	movaps	%xmm0, 160(%rsp)
	movaps	%xmm0, 144(%rsp)
	movaps	%xmm0, 128(%rsp)
	leaq	128(%rsp), %r12
	movq	%r12, %rdi
	movq	%r15, %rdx
	vj_c_call	memcpy
	xorl	%r8d, %r8d
	cmpl	$0, 148(%r14)
	setne	%r8b
	addq	128(%r14), %r15
	leaq	64(%rsp), %rdi
	movq	%r12, %rsi
	movq	%r15, %rdx
	movl	$1, %ecx
	vj_call	blake2_compress..compress..blake2b..compress_1_v2
	movups	64(%rsp), %xmm0
	movups	80(%rsp), %xmm1
	movups	96(%rsp), %xmm2
	movups	112(%rsp), %xmm3
	movaps	%xmm0, (%rsp)
	movaps	%xmm1, 16(%rsp)
	movaps	%xmm2, 32(%rsp)
	movaps	%xmm3, 48(%rsp)
	movl	144(%r14), %edx
	movq	%rsp, %rsi
	movq	%rbx, %rdi
	vj_c_call	memcpy
	addq	$264, %rsp
	popq	%rbx
	popq	%r12
	popq	%r14
	popq	%r15
	retq
	vj_end	blake2_state..blake2b..State..write_digest_1_v2

	vj_constants	16
	.p2align	4, 0x0
.L1_v2_CPI2_0:
	.quad	-1
	.quad	0
.L1_v2_CPI2_1:
	.byte	0
	.byte	0
	.byte	0
	.byte	0
	.byte	0
	.byte	0
	.byte	0
	.byte	0
	.byte	255
	.byte	255
	.byte	255
	.byte	255
	.byte	255
	.byte	255
	.byte	255
	.byte	255
.L1_v2_CPI2_2:
	.long	528734635
	.long	4215389547
	.long	1541459225
	.long	327033209
.L1_v2_CPI2_3:
	.long	1359893119
	.long	2917565137
	.long	2600822924
	.long	725511199
.L1_v2_CPI2_4:
	.quad	4354685564936845355
	.quad	-6534734903238641935
.L1_v2_CPI2_5:
	.quad	7640891576956012808
	.quad	-4942790177534073029
.L1_v2_CPI2_6:
	.byte	3
	.byte	4
	.byte	5
	.byte	6
	.byte	7
	.byte	0
	.byte	1
	.byte	2
	.byte	11
	.byte	12
	.byte	13
	.byte	14
	.byte	15
	.byte	8
	.byte	9
	.byte	10
.L1_v2_CPI2_7:
	.byte	2
	.byte	3
	.byte	4
	.byte	5
	.byte	6
	.byte	7
	.byte	0
	.byte	1
	.byte	10
	.byte	11
	.byte	12
	.byte	13
	.byte	14
	.byte	15
	.byte	8
	.byte	9
	vj_constants	8
	.p2align	3, 0x0
.L1_v2_CPI2_8:
	.quad	-1
	vj_shared	blake2_compress..compress..blake2b..compress_1_v2
	pxor	%xmm1, %xmm1
	testb	$1, %cl
	jne	1f
	pxor	%xmm0, %xmm0
	jmp	2f
1:
	movq	.L1_v2_CPI2_8(%rip), %xmm0
2:
	subq	$520, %rsp
	movdqu	(%rsi), %xmm14
	movdqu	16(%rsi), %xmm8
	movdqu	32(%rsi), %xmm10
	movdqu	48(%rsi), %xmm11
	movups	64(%rsi), %xmm2
	movaps	%xmm2, 112(%rsp)
	movups	80(%rsi), %xmm2
	movaps	%xmm2, 80(%rsp)
	movups	112(%rsi), %xmm2
	movaps	%xmm2, 48(%rsp)
	movdqu	96(%rsi), %xmm15
	movdqu	(%rdi), %xmm2
	movdqu	16(%rdi), %xmm5
	movdqu	32(%rdi), %xmm3
	movdqu	48(%rdi), %xmm4
	testb	$1, %r8b
	je	3f
	movdqa	.L1_v2_CPI2_1(%rip), %xmm1
3:
	pxor	%xmm1, %xmm0
	movq	%rdx, %xmm1
	movdqa	%xmm14, %xmm6
	punpcklqdq	%xmm8, %xmm6
	movdqa	%xmm6, 432(%rsp)
	movdqa	%xmm2, 496(%rsp)
	paddq	%xmm3, %xmm2
	paddq	%xmm6, %xmm2
	movdqa	%xmm8, 96(%rsp)
	movdqa	%xmm14, 16(%rsp)
	pshufd	$177, %xmm1, %xmm9
	pshufd	$177, %xmm2, %xmm1
	pxor	%xmm1, %xmm9
	movdqa	%xmm10, %xmm7
	punpcklqdq	%xmm11, %xmm7
	movdqa	%xmm7, 208(%rsp)
	movdqa	%xmm10, %xmm1
	punpckhqdq	%xmm11, %xmm1
	movdqa	%xmm1, %xmm6
	movdqa	%xmm1, 400(%rsp)
	movdqa	%xmm5, %xmm1
	paddq	%xmm4, %xmm1
	paddq	%xmm7, %xmm1
	pxor	%xmm1, %xmm0
	movdqa	%xmm11, (%rsp)
	pshufd	$177, %xmm0, %xmm12
	pxor	.L1_v2_CPI2_2(%rip), %xmm12
	movdqa	%xmm3, %xmm13
	movdqa	%xmm3, 464(%rsp)
	movdqa	.L1_v2_CPI2_4(%rip), %xmm3
	paddq	%xmm12, %xmm3
	movdqa	%xmm4, %xmm0
	movdqa	%xmm4, 480(%rsp)
	movdqa	%xmm3, %xmm4
	pxor	%xmm0, %xmm4
	movdqa	.L1_v2_CPI2_6(%rip), %xmm11
	pshufb	%xmm11, %xmm4
	paddq	%xmm6, %xmm1
	paddq	%xmm4, %xmm1
	pxor	%xmm1, %xmm12
	movdqa	.L1_v2_CPI2_7(%rip), %xmm7
	pshufb	%xmm7, %xmm12
	paddq	%xmm12, %xmm3
	pxor	%xmm3, %xmm4
	movdqa	%xmm4, %xmm0
	psrlq	$63, %xmm0
	paddq	%xmm4, %xmm4
	por	%xmm0, %xmm4
	punpckhqdq	%xmm8, %xmm14
	movdqa	%xmm14, 336(%rsp)
	pxor	.L1_v2_CPI2_3(%rip), %xmm9
	movdqa	%xmm10, 32(%rsp)
	movdqa	.L1_v2_CPI2_5(%rip), %xmm10
	paddq	%xmm9, %xmm10
	movdqa	%xmm5, 448(%rsp)
	movdqa	%xmm10, %xmm5
	pxor	%xmm13, %xmm5
	pshufb	%xmm11, %xmm5
	movdqa	%xmm11, %xmm13
	paddq	%xmm14, %xmm2
	paddq	%xmm5, %xmm2
	pxor	%xmm2, %xmm9
	pshufb	%xmm7, %xmm9
	paddq	%xmm9, %xmm10
	pxor	%xmm10, %xmm5
	movdqa	%xmm5, %xmm0
	psrlq	$63, %xmm0
	paddq	%xmm5, %xmm5
	por	%xmm0, %xmm5
	movdqa	%xmm1, %xmm0
	palignr	$8, %xmm2, %xmm0
	palignr	$8, %xmm1, %xmm2
	movdqa	%xmm10, %xmm1
	palignr	$8, %xmm3, %xmm1
	palignr	$8, %xmm10, %xmm3
	movdqa	80(%rsp), %xmm14
	movdqa	%xmm14, %xmm10
	movdqa	%xmm14, %xmm11
	punpcklqdq	%xmm15, %xmm10
	movdqa	%xmm15, %xmm6
	movdqa	%xmm10, 144(%rsp)
	paddq	%xmm10, %xmm0
	paddq	%xmm4, %xmm0
	pshufd	$177, %xmm9, %xmm10
	pshufd	$177, %xmm0, %xmm9
	pxor	%xmm9, %xmm10
	movdqa	48(%rsp), %xmm8
	movdqa	%xmm8, %xmm9
	movdqa	%xmm8, %xmm15
	movdqa	112(%rsp), %xmm8
	punpcklqdq	%xmm8, %xmm9
	movdqa	%xmm9, 384(%rsp)
	paddq	%xmm9, %xmm2
	paddq	%xmm5, %xmm2
	pshufd	$177, %xmm12, %xmm12
	pshufd	$177, %xmm2, %xmm9
	pxor	%xmm12, %xmm9
	movdqa	%xmm14, %xmm12
	punpckhqdq	%xmm6, %xmm12
	movdqa	%xmm6, %xmm14
	movdqa	%xmm6, 64(%rsp)
	movdqa	%xmm12, 416(%rsp)
	paddq	%xmm10, %xmm1
	pxor	%xmm1, %xmm4
	pshufb	%xmm13, %xmm4
	paddq	%xmm12, %xmm0
	paddq	%xmm4, %xmm0
	movdqa	%xmm0, %xmm12
	pshufb	%xmm7, %xmm12
	pshufb	%xmm7, %xmm10
	pxor	%xmm12, %xmm10
	movdqa	%xmm15, %xmm12
	punpckhqdq	%xmm8, %xmm12
	movdqa	%xmm12, 192(%rsp)
	paddq	%xmm9, %xmm3
	pxor	%xmm3, %xmm5
	pshufb	%xmm13, %xmm5
	paddq	%xmm12, %xmm2
	paddq	%xmm5, %xmm2
	pshufb	%xmm7, %xmm9
	movdqa	%xmm2, %xmm12
	palignr	$8, %xmm0, %xmm12
	palignr	$8, %xmm2, %xmm0
	movdqa	%xmm2, %xmm13
	pshufb	%xmm7, %xmm13
	pxor	%xmm9, %xmm13
	paddq	%xmm10, %xmm1
	pxor	%xmm1, %xmm4
	movdqa	%xmm4, %xmm2
	psrlq	$63, %xmm2
	paddq	%xmm4, %xmm4
	por	%xmm2, %xmm4
	paddq	%xmm13, %xmm3
	pxor	%xmm3, %xmm5
	movdqa	%xmm5, %xmm2
	psrlq	$63, %xmm2
	paddq	%xmm5, %xmm5
	por	%xmm2, %xmm5
	movdqa	%xmm1, %xmm2
	palignr	$8, %xmm3, %xmm2
	palignr	$8, %xmm1, %xmm3
	movdqa	%xmm8, %xmm6
	movdqa	%xmm8, %xmm1
	punpckhqdq	%xmm14, %xmm1
	movdqa	%xmm1, 176(%rsp)
	paddq	%xmm1, %xmm12
	paddq	%xmm4, %xmm12
	pshufd	$177, %xmm13, %xmm13
	pshufd	$177, %xmm12, %xmm1
	pxor	%xmm1, %xmm13
	movdqa	%xmm15, %xmm1
	movdqa	32(%rsp), %xmm8
	punpcklqdq	%xmm8, %xmm1
	movdqa	%xmm1, 160(%rsp)
	paddq	%xmm1, %xmm0
	paddq	%xmm5, %xmm0
	pshufd	$177, %xmm10, %xmm1
	pshufd	$177, %xmm0, %xmm9
	pxor	%xmm9, %xmm1
	movdqa	%xmm11, %xmm9
	punpcklqdq	%xmm6, %xmm9
	movdqa	%xmm9, 128(%rsp)
	movdqa	(%rsp), %xmm7
	movdqa	%xmm7, %xmm10
	palignr	$8, %xmm15, %xmm10
	movdqa	%xmm10, 368(%rsp)
	paddq	%xmm1, %xmm3
	paddq	%xmm13, %xmm2
	pxor	%xmm2, %xmm4
	pxor	%xmm3, %xmm5
	movdqa	.L1_v2_CPI2_6(%rip), %xmm6
	pshufb	%xmm6, %xmm4
	pshufb	%xmm6, %xmm5
	paddq	%xmm10, %xmm12
	paddq	%xmm9, %xmm0
	paddq	%xmm4, %xmm12
	paddq	%xmm5, %xmm0
	movdqa	%xmm12, %xmm10
	palignr	$8, %xmm0, %xmm10
	movdqa	%xmm0, %xmm9
	palignr	$8, %xmm12, %xmm0
	movdqa	.L1_v2_CPI2_7(%rip), %xmm15
	pshufb	%xmm15, %xmm12
	pshufb	%xmm15, %xmm13
	pxor	%xmm12, %xmm13
	pshufb	%xmm15, %xmm9
	pshufb	%xmm15, %xmm1
	pxor	%xmm9, %xmm1
	paddq	%xmm13, %xmm2
	pxor	%xmm2, %xmm4
	movdqa	%xmm4, %xmm9
	psrlq	$63, %xmm9
	paddq	%xmm4, %xmm4
	por	%xmm9, %xmm4
	paddq	%xmm1, %xmm3
	pxor	%xmm3, %xmm5
	movdqa	%xmm5, %xmm9
	psrlq	$63, %xmm9
	paddq	%xmm5, %xmm5
	por	%xmm9, %xmm5
	movdqa	%xmm3, %xmm12
	palignr	$8, %xmm2, %xmm12
	palignr	$8, %xmm3, %xmm2
	movdqa	16(%rsp), %xmm6
	movdqa	%xmm6, %xmm3
	pblendw	$240, %xmm11, %xmm3
	movdqa	%xmm3, 288(%rsp)
	paddq	%xmm3, %xmm10
	paddq	%xmm4, %xmm10
	pshufd	$177, %xmm1, %xmm1
	pshufd	$177, %xmm10, %xmm3
	pxor	%xmm3, %xmm1
	movdqa	%xmm8, %xmm3
	punpckhqdq	%xmm6, %xmm3
	movdqa	%xmm3, 320(%rsp)
	paddq	%xmm3, %xmm0
	paddq	%xmm5, %xmm0
	pshufd	$177, %xmm13, %xmm3
	pshufd	$177, %xmm0, %xmm9
	pxor	%xmm9, %xmm3
	movdqa	96(%rsp), %xmm6
	movdqa	%xmm6, %xmm9
	pblendw	$240, %xmm7, %xmm9
	movdqa	%xmm9, 352(%rsp)
	paddq	%xmm1, %xmm12
	pxor	%xmm12, %xmm4
	movdqa	.L1_v2_CPI2_6(%rip), %xmm7
	pshufb	%xmm7, %xmm4
	paddq	%xmm9, %xmm10
	paddq	%xmm4, %xmm10
	movdqa	%xmm10, %xmm9
	pshufb	%xmm15, %xmm9
	pshufb	%xmm15, %xmm1
	movdqa	%xmm15, %xmm8
	pxor	%xmm9, %xmm1
	movdqa	64(%rsp), %xmm15
	movdqa	%xmm15, %xmm9
	palignr	$8, %xmm6, %xmm9
	movdqa	%xmm9, 304(%rsp)
	paddq	%xmm3, %xmm2
	pxor	%xmm2, %xmm5
	pshufb	%xmm7, %xmm5
	paddq	%xmm9, %xmm0
	paddq	%xmm5, %xmm0
	movdqa	%xmm0, %xmm14
	palignr	$8, %xmm10, %xmm14
	palignr	$8, %xmm0, %xmm10
	pshufb	%xmm8, %xmm0
	pshufb	%xmm8, %xmm3
	pxor	%xmm0, %xmm3
	paddq	%xmm1, %xmm12
	pxor	%xmm12, %xmm4
	movdqa	%xmm4, %xmm0
	psrlq	$63, %xmm0
	paddq	%xmm4, %xmm4
	por	%xmm0, %xmm4
	paddq	%xmm3, %xmm2
	pxor	%xmm2, %xmm5
	movdqa	%xmm5, %xmm0
	psrlq	$63, %xmm0
	paddq	%xmm5, %xmm5
	por	%xmm0, %xmm5
	movdqa	%xmm12, %xmm0
	palignr	$8, %xmm2, %xmm0
	palignr	$8, %xmm12, %xmm2
	movdqa	%xmm15, %xmm13
	palignr	$8, %xmm11, %xmm13
	paddq	%xmm10, %xmm13
	movdqa	32(%rsp), %xmm9
	punpckhqdq	48(%rsp), %xmm9
	movdqa	%xmm9, 256(%rsp)
	paddq	%xmm9, %xmm14
	paddq	%xmm4, %xmm14
	pshufd	$177, %xmm3, %xmm3
	pshufd	$177, %xmm14, %xmm9
	pxor	%xmm9, %xmm3
	paddq	%xmm5, %xmm13
	pshufd	$177, %xmm1, %xmm1
	pshufd	$177, %xmm13, %xmm9
	pxor	%xmm9, %xmm1
	movdqa	%xmm6, %xmm9
	movdqa	%xmm6, %xmm12
	pblendw	$240, %xmm15, %xmm9
	paddq	%xmm9, %xmm14
	movdqa	112(%rsp), %xmm7
	movdqa	%xmm7, %xmm9
	punpcklqdq	16(%rsp), %xmm9
	movdqa	%xmm9, 272(%rsp)
	paddq	%xmm1, %xmm2
	paddq	%xmm3, %xmm0
	pxor	%xmm0, %xmm4
	pxor	%xmm2, %xmm5
	movdqa	.L1_v2_CPI2_6(%rip), %xmm6
	pshufb	%xmm6, %xmm4
	pshufb	%xmm6, %xmm5
	paddq	%xmm9, %xmm13
	paddq	%xmm4, %xmm14
	paddq	%xmm5, %xmm13
	movdqa	%xmm14, %xmm9
	palignr	$8, %xmm13, %xmm9
	movdqa	%xmm13, %xmm10
	palignr	$8, %xmm14, %xmm13
	pshufb	%xmm8, %xmm14
	pshufb	%xmm8, %xmm3
	pxor	%xmm14, %xmm3
	pshufb	%xmm8, %xmm10
	pshufb	%xmm8, %xmm1
	pxor	%xmm10, %xmm1
	paddq	%xmm3, %xmm0
	pxor	%xmm0, %xmm4
	movdqa	%xmm4, %xmm10
	psrlq	$63, %xmm10
	paddq	%xmm4, %xmm4
	por	%xmm10, %xmm4
	paddq	%xmm1, %xmm2
	pxor	%xmm2, %xmm5
	movdqa	%xmm5, %xmm10
	psrlq	$63, %xmm10
	paddq	%xmm5, %xmm5
	por	%xmm10, %xmm5
	movdqa	%xmm2, %xmm10
	palignr	$8, %xmm0, %xmm10
	palignr	$8, %xmm2, %xmm0
	movdqa	%xmm11, %xmm2
	movdqa	%xmm11, %xmm6
	palignr	$8, %xmm7, %xmm2
	paddq	%xmm13, %xmm2
	movdqa	%xmm12, %xmm15
	movdqa	(%rsp), %xmm7
	punpckhqdq	%xmm7, %xmm12
	paddq	%xmm9, %xmm12
	paddq	%xmm4, %xmm12
	pshufd	$177, %xmm1, %xmm1
	pshufd	$177, %xmm12, %xmm9
	pxor	%xmm9, %xmm1
	paddq	%xmm5, %xmm2
	pshufd	$177, %xmm3, %xmm3
	pshufd	$177, %xmm2, %xmm9
	pxor	%xmm9, %xmm3
	movdqa	%xmm7, %xmm9
	movdqa	16(%rsp), %xmm11
	pblendw	$240, %xmm11, %xmm9
	paddq	%xmm9, %xmm12
	movdqa	32(%rsp), %xmm9
	movdqa	48(%rsp), %xmm14
	punpcklqdq	%xmm14, %xmm9
	paddq	%xmm9, %xmm2
	paddq	%xmm1, %xmm10
	pxor	%xmm10, %xmm4
	movdqa	.L1_v2_CPI2_6(%rip), %xmm13
	pshufb	%xmm13, %xmm4
	paddq	%xmm4, %xmm12
	movdqa	%xmm12, %xmm9
	pshufb	%xmm8, %xmm9
	pshufb	%xmm8, %xmm1
	pxor	%xmm9, %xmm1
	paddq	%xmm3, %xmm0
	pxor	%xmm0, %xmm5
	pshufb	%xmm13, %xmm5
	paddq	%xmm5, %xmm2
	movdqa	%xmm2, %xmm13
	palignr	$8, %xmm12, %xmm13
	palignr	$8, %xmm2, %xmm12
	pshufb	%xmm8, %xmm2
	pshufb	%xmm8, %xmm3
	pxor	%xmm2, %xmm3
	paddq	%xmm1, %xmm10
	pxor	%xmm10, %xmm4
	movdqa	%xmm4, %xmm2
	psrlq	$63, %xmm2
	paddq	%xmm4, %xmm4
	por	%xmm2, %xmm4
	paddq	%xmm3, %xmm0
	pxor	%xmm0, %xmm5
	movdqa	%xmm5, %xmm2
	psrlq	$63, %xmm2
	paddq	%xmm5, %xmm5
	por	%xmm2, %xmm5
	movdqa	%xmm10, %xmm2
	palignr	$8, %xmm0, %xmm2
	palignr	$8, %xmm10, %xmm0
	movdqa	%xmm7, %xmm10
	punpckhqdq	%xmm15, %xmm10
	paddq	%xmm12, %xmm10
	movdqa	64(%rsp), %xmm7
	movdqa	%xmm7, %xmm9
	punpckhqdq	%xmm6, %xmm9
	paddq	%xmm13, %xmm9
	paddq	%xmm4, %xmm9
	pshufd	$177, %xmm3, %xmm3
	pshufd	$177, %xmm9, %xmm12
	pxor	%xmm12, %xmm3
	paddq	%xmm5, %xmm10
	pshufd	$177, %xmm1, %xmm1
	pshufd	$177, %xmm10, %xmm12
	pxor	%xmm12, %xmm1
	movdqa	%xmm7, %xmm12
	punpcklqdq	%xmm14, %xmm12
	paddq	%xmm12, %xmm9
	movdqa	112(%rsp), %xmm8
	movdqa	%xmm8, %xmm12
	punpckhqdq	%xmm11, %xmm12
	paddq	%xmm12, %xmm10
	paddq	%xmm1, %xmm0
	paddq	%xmm3, %xmm2
	pxor	%xmm2, %xmm4
	pxor	%xmm0, %xmm5
	movdqa	.L1_v2_CPI2_6(%rip), %xmm6
	pshufb	%xmm6, %xmm4
	pshufb	%xmm6, %xmm5
	paddq	%xmm4, %xmm9
	paddq	%xmm5, %xmm10
	movdqa	%xmm9, %xmm13
	palignr	$8, %xmm10, %xmm13
	movdqa	%xmm10, %xmm12
	palignr	$8, %xmm9, %xmm10
	movdqa	.L1_v2_CPI2_7(%rip), %xmm6
	pshufb	%xmm6, %xmm9
	pshufb	%xmm6, %xmm3
	pxor	%xmm9, %xmm3
	pshufb	%xmm6, %xmm12
	pshufb	%xmm6, %xmm1
	pxor	%xmm12, %xmm1
	paddq	%xmm3, %xmm2
	pxor	%xmm2, %xmm4
	movdqa	%xmm4, %xmm9
	psrlq	$63, %xmm9
	paddq	%xmm4, %xmm4
	por	%xmm9, %xmm4
	paddq	%xmm1, %xmm0
	pxor	%xmm0, %xmm5
	movdqa	%xmm5, %xmm9
	psrlq	$63, %xmm9
	paddq	%xmm5, %xmm5
	por	%xmm9, %xmm5
	movdqa	%xmm0, %xmm12
	palignr	$8, %xmm2, %xmm12
	palignr	$8, %xmm0, %xmm2
	movdqa	%xmm15, %xmm0
	palignr	$8, %xmm14, %xmm0
	paddq	%xmm10, %xmm0
	movdqa	32(%rsp), %xmm14
	pshufd	$78, %xmm14, %xmm10
	paddq	%xmm13, %xmm10
	paddq	%xmm4, %xmm10
	pshufd	$177, %xmm1, %xmm1
	pshufd	$177, %xmm10, %xmm9
	pxor	%xmm9, %xmm1
	paddq	%xmm5, %xmm0
	pshufd	$177, %xmm3, %xmm9
	pshufd	$177, %xmm0, %xmm3
	pxor	%xmm3, %xmm9
	movdqa	%xmm8, %xmm3
	punpcklqdq	(%rsp), %xmm3
	paddq	%xmm3, %xmm0
	movdqa	80(%rsp), %xmm7
	movdqa	%xmm7, %xmm6
	punpcklqdq	%xmm11, %xmm6
	movdqa	%xmm6, 240(%rsp)
	paddq	%xmm1, %xmm12
	pxor	%xmm12, %xmm4
	movdqa	.L1_v2_CPI2_6(%rip), %xmm3
	pshufb	%xmm3, %xmm4
	paddq	%xmm6, %xmm10
	paddq	%xmm4, %xmm10
	movdqa	%xmm10, %xmm13
	movdqa	.L1_v2_CPI2_7(%rip), %xmm6
	pshufb	%xmm6, %xmm13
	pshufb	%xmm6, %xmm1
	pxor	%xmm13, %xmm1
	paddq	%xmm9, %xmm2
	pxor	%xmm2, %xmm5
	pshufb	%xmm3, %xmm5
	paddq	%xmm5, %xmm0
	movdqa	%xmm0, %xmm13
	palignr	$8, %xmm10, %xmm13
	palignr	$8, %xmm0, %xmm10
	pshufb	%xmm6, %xmm0
	pshufb	%xmm6, %xmm9
	pxor	%xmm0, %xmm9
	paddq	%xmm1, %xmm12
	pxor	%xmm12, %xmm4
	movdqa	%xmm4, %xmm0
	psrlq	$63, %xmm0
	paddq	%xmm4, %xmm4
	por	%xmm0, %xmm4
	paddq	%xmm9, %xmm2
	pxor	%xmm2, %xmm5
	movdqa	%xmm5, %xmm0
	psrlq	$63, %xmm0
	paddq	%xmm5, %xmm5
	por	%xmm0, %xmm5
	movdqa	%xmm12, %xmm0
	palignr	$8, %xmm2, %xmm0
	palignr	$8, %xmm12, %xmm2
	movdqa	%xmm15, %xmm12
	punpcklqdq	%xmm7, %xmm12
	movdqa	%xmm7, %xmm6
	paddq	%xmm13, %xmm12
	movdqa	%xmm8, %xmm13
	punpckhqdq	%xmm14, %xmm13
	paddq	%xmm10, %xmm13
	paddq	%xmm4, %xmm12
	pshufd	$177, %xmm9, %xmm10
	pshufd	$177, %xmm12, %xmm9
	pxor	%xmm9, %xmm10
	paddq	%xmm5, %xmm13
	pshufd	$177, %xmm1, %xmm1
	pshufd	$177, %xmm13, %xmm9
	pxor	%xmm9, %xmm1
	movdqa	48(%rsp), %xmm8
	pblendw	$240, %xmm8, %xmm14
	paddq	%xmm14, %xmm12
	movdqa	(%rsp), %xmm3
	pblendw	$240, %xmm3, %xmm11
	paddq	%xmm11, %xmm13
	paddq	%xmm1, %xmm2
	paddq	%xmm10, %xmm0
	pxor	%xmm0, %xmm4
	pxor	%xmm2, %xmm5
	movdqa	.L1_v2_CPI2_6(%rip), %xmm7
	pshufb	%xmm7, %xmm4
	pshufb	%xmm7, %xmm5
	paddq	%xmm4, %xmm12
	paddq	%xmm5, %xmm13
	movdqa	%xmm12, %xmm15
	palignr	$8, %xmm13, %xmm15
	movdqa	%xmm13, %xmm9
	palignr	$8, %xmm12, %xmm13
	movdqa	.L1_v2_CPI2_7(%rip), %xmm7
	pshufb	%xmm7, %xmm12
	pshufb	%xmm7, %xmm10
	pxor	%xmm12, %xmm10
	pshufb	%xmm7, %xmm9
	pshufb	%xmm7, %xmm1
	pxor	%xmm9, %xmm1
	paddq	%xmm10, %xmm0
	pxor	%xmm0, %xmm4
	movdqa	%xmm4, %xmm9
	psrlq	$63, %xmm9
	paddq	%xmm4, %xmm4
	por	%xmm9, %xmm4
	paddq	%xmm1, %xmm2
	pxor	%xmm2, %xmm5
	movdqa	%xmm5, %xmm9
	psrlq	$63, %xmm9
	paddq	%xmm5, %xmm5
	por	%xmm9, %xmm5
	movdqa	%xmm2, %xmm12
	palignr	$8, %xmm0, %xmm12
	palignr	$8, %xmm2, %xmm0
	movdqa	%xmm8, %xmm9
	movdqa	96(%rsp), %xmm7
	palignr	$8, %xmm7, %xmm9
	paddq	%xmm13, %xmm9
	movdqa	%xmm3, %xmm14
	movdqa	%xmm3, %xmm13
	palignr	$8, %xmm6, %xmm14
	paddq	%xmm15, %xmm14
	paddq	%xmm4, %xmm14
	pshufd	$177, %xmm1, %xmm1
	pshufd	$177, %xmm14, %xmm2
	pxor	%xmm2, %xmm1
	paddq	%xmm5, %xmm9
	pshufd	$177, %xmm10, %xmm10
	pshufd	$177, %xmm9, %xmm2
	pxor	%xmm2, %xmm10
	movdqa	64(%rsp), %xmm6
	movdqa	%xmm6, %xmm2
	movdqa	112(%rsp), %xmm8
	punpcklqdq	%xmm8, %xmm2
	paddq	%xmm2, %xmm14
	paddq	%xmm1, %xmm12
	pxor	%xmm12, %xmm4
	movdqa	.L1_v2_CPI2_6(%rip), %xmm15
	pshufb	%xmm15, %xmm4
	paddq	%xmm4, %xmm14
	movdqa	%xmm14, %xmm2
	movdqa	.L1_v2_CPI2_7(%rip), %xmm3
	pshufb	%xmm3, %xmm2
	pshufb	%xmm3, %xmm1
	pxor	%xmm2, %xmm1
	movdqa	%xmm6, %xmm3
	movdqa	16(%rsp), %xmm2
	punpckhqdq	%xmm2, %xmm3
	movdqa	%xmm3, 224(%rsp)
	paddq	%xmm10, %xmm0
	pxor	%xmm0, %xmm5
	pshufb	%xmm15, %xmm5
	paddq	%xmm3, %xmm9
	paddq	%xmm5, %xmm9
	movdqa	%xmm9, %xmm15
	palignr	$8, %xmm14, %xmm15
	palignr	$8, %xmm9, %xmm14
	movdqa	.L1_v2_CPI2_7(%rip), %xmm3
	pshufb	%xmm3, %xmm9
	pshufb	%xmm3, %xmm10
	pxor	%xmm9, %xmm10
	paddq	%xmm1, %xmm12
	pxor	%xmm12, %xmm4
	movdqa	%xmm4, %xmm9
	psrlq	$63, %xmm9
	paddq	%xmm4, %xmm4
	por	%xmm9, %xmm4
	paddq	%xmm10, %xmm0
	pxor	%xmm0, %xmm5
	movdqa	%xmm5, %xmm9
	psrlq	$63, %xmm9
	paddq	%xmm5, %xmm5
	por	%xmm9, %xmm5
	movdqa	%xmm12, %xmm9
	palignr	$8, %xmm0, %xmm9
	palignr	$8, %xmm12, %xmm0
	movdqa	%xmm7, %xmm12
	punpcklqdq	%xmm13, %xmm12
	paddq	%xmm14, %xmm12
	movdqa	%xmm2, %xmm13
	punpcklqdq	%xmm8, %xmm13
	movdqa	%xmm8, %xmm3
	paddq	%xmm15, %xmm13
	paddq	%xmm4, %xmm13
	pshufd	$177, %xmm10, %xmm10
	pshufd	$177, %xmm13, %xmm14
	pxor	%xmm14, %xmm10
	paddq	%xmm5, %xmm12
	pshufd	$177, %xmm1, %xmm1
	pshufd	$177, %xmm12, %xmm14
	pxor	%xmm14, %xmm1
	movdqa	80(%rsp), %xmm2
	movdqa	%xmm2, %xmm14
	punpckhqdq	%xmm7, %xmm14
	paddq	%xmm14, %xmm13
	punpcklqdq	%xmm2, %xmm6
	paddq	%xmm6, %xmm12
	paddq	%xmm1, %xmm0
	paddq	%xmm10, %xmm9
	pxor	%xmm9, %xmm4
	pxor	%xmm0, %xmm5
	movdqa	.L1_v2_CPI2_6(%rip), %xmm11
	pshufb	%xmm11, %xmm4
	pshufb	%xmm11, %xmm5
	paddq	%xmm4, %xmm13
	paddq	%xmm5, %xmm12
	movdqa	%xmm13, %xmm15
	palignr	$8, %xmm12, %xmm15
	movdqa	%xmm12, %xmm14
	palignr	$8, %xmm13, %xmm12
	movdqa	.L1_v2_CPI2_7(%rip), %xmm8
	pshufb	%xmm8, %xmm13
	pshufb	%xmm8, %xmm10
	pxor	%xmm13, %xmm10
	pshufb	%xmm8, %xmm14
	pshufb	%xmm8, %xmm1
	pxor	%xmm14, %xmm1
	paddq	%xmm10, %xmm9
	pxor	%xmm9, %xmm4
	movdqa	%xmm4, %xmm13
	psrlq	$63, %xmm13
	paddq	%xmm4, %xmm4
	por	%xmm13, %xmm4
	paddq	%xmm1, %xmm0
	pxor	%xmm0, %xmm5
	movdqa	%xmm5, %xmm13
	psrlq	$63, %xmm13
	paddq	%xmm5, %xmm5
	por	%xmm13, %xmm5
	movdqa	%xmm0, %xmm14
	palignr	$8, %xmm9, %xmm14
	palignr	$8, %xmm0, %xmm9
	movdqa	%xmm3, %xmm6
	movdqa	32(%rsp), %xmm2
	movdqa	%xmm2, %xmm0
	movdqa	16(%rsp), %xmm3
	palignr	$8, %xmm3, %xmm0
	paddq	%xmm12, %xmm0
	movdqa	(%rsp), %xmm12
	movdqa	48(%rsp), %xmm7
	punpckhqdq	%xmm7, %xmm12
	paddq	%xmm15, %xmm12
	paddq	%xmm4, %xmm12
	pshufd	$177, %xmm1, %xmm1
	pshufd	$177, %xmm12, %xmm13
	pxor	%xmm13, %xmm1
	paddq	%xmm5, %xmm0
	pshufd	$177, %xmm10, %xmm15
	pshufd	$177, %xmm0, %xmm10
	pxor	%xmm10, %xmm15
	movdqa	%xmm7, %xmm10
	palignr	$8, %xmm2, %xmm10
	paddq	%xmm10, %xmm12
	paddq	%xmm1, %xmm14
	pxor	%xmm14, %xmm4
	pshufb	%xmm11, %xmm4
	paddq	%xmm4, %xmm12
	movdqa	%xmm12, %xmm10
	pshufb	%xmm8, %xmm10
	pshufb	%xmm8, %xmm1
	pxor	%xmm10, %xmm1
	paddq	%xmm15, %xmm9
	pxor	%xmm9, %xmm5
	pshufb	%xmm11, %xmm5
	paddq	176(%rsp), %xmm0
	paddq	%xmm5, %xmm0
	movdqa	%xmm0, %xmm13
	palignr	$8, %xmm12, %xmm13
	palignr	$8, %xmm0, %xmm12
	pshufb	%xmm8, %xmm0
	pshufb	%xmm8, %xmm15
	pxor	%xmm0, %xmm15
	paddq	%xmm1, %xmm14
	pxor	%xmm14, %xmm4
	movdqa	%xmm4, %xmm0
	psrlq	$63, %xmm0
	paddq	%xmm4, %xmm4
	por	%xmm0, %xmm4
	paddq	%xmm15, %xmm9
	pxor	%xmm9, %xmm5
	movdqa	%xmm5, %xmm0
	psrlq	$63, %xmm0
	paddq	%xmm5, %xmm5
	por	%xmm0, %xmm5
	movdqa	%xmm14, %xmm0
	palignr	$8, %xmm9, %xmm0
	palignr	$8, %xmm14, %xmm9
	movdqa	64(%rsp), %xmm2
	movdqa	%xmm2, %xmm10
	pblendw	$240, %xmm3, %xmm10
	paddq	%xmm12, %xmm10
	paddq	160(%rsp), %xmm13
	paddq	%xmm4, %xmm13
	pshufd	$177, %xmm15, %xmm12
	pshufd	$177, %xmm13, %xmm14
	pxor	%xmm14, %xmm12
	paddq	%xmm5, %xmm10
	pshufd	$177, %xmm1, %xmm1
	pshufd	$177, %xmm10, %xmm14
	pxor	%xmm14, %xmm1
	movdqa	80(%rsp), %xmm3
	movdqa	%xmm3, %xmm14
	palignr	$8, %xmm2, %xmm14
	paddq	%xmm14, %xmm13
	paddq	256(%rsp), %xmm10
	paddq	%xmm1, %xmm9
	paddq	%xmm12, %xmm0
	pxor	%xmm0, %xmm4
	pxor	%xmm9, %xmm5
	pshufb	%xmm11, %xmm4
	pshufb	%xmm11, %xmm5
	paddq	%xmm4, %xmm13
	paddq	%xmm5, %xmm10
	movdqa	%xmm13, %xmm15
	palignr	$8, %xmm10, %xmm15
	movdqa	%xmm10, %xmm14
	palignr	$8, %xmm13, %xmm10
	pshufb	%xmm8, %xmm13
	pshufb	%xmm8, %xmm12
	pxor	%xmm13, %xmm12
	pshufb	%xmm8, %xmm14
	pshufb	%xmm8, %xmm1
	pxor	%xmm14, %xmm1
	paddq	%xmm12, %xmm0
	pxor	%xmm0, %xmm4
	movdqa	%xmm4, %xmm13
	psrlq	$63, %xmm13
	paddq	%xmm4, %xmm4
	por	%xmm13, %xmm4
	paddq	%xmm1, %xmm9
	pxor	%xmm9, %xmm5
	movdqa	%xmm5, %xmm13
	psrlq	$63, %xmm13
	paddq	%xmm5, %xmm5
	por	%xmm13, %xmm5
	movdqa	%xmm9, %xmm13
	palignr	$8, %xmm0, %xmm13
	palignr	$8, %xmm9, %xmm0
	movdqa	(%rsp), %xmm2
	movdqa	%xmm2, %xmm14
	pblendw	$240, %xmm6, %xmm14
	paddq	%xmm15, %xmm14
	paddq	272(%rsp), %xmm10
	paddq	%xmm4, %xmm14
	pshufd	$177, %xmm1, %xmm1
	pshufd	$177, %xmm14, %xmm9
	pxor	%xmm9, %xmm1
	paddq	%xmm5, %xmm10
	pshufd	$177, %xmm12, %xmm15
	pshufd	$177, %xmm10, %xmm9
	pxor	%xmm9, %xmm15
	movdqa	96(%rsp), %xmm8
	pshufd	$78, %xmm8, %xmm9
	paddq	%xmm9, %xmm14
	movdqa	%xmm3, %xmm11
	movdqa	%xmm3, %xmm9
	punpckhqdq	%xmm2, %xmm9
	paddq	%xmm9, %xmm10
	paddq	%xmm1, %xmm13
	pxor	%xmm13, %xmm4
	movdqa	.L1_v2_CPI2_6(%rip), %xmm3
	pshufb	%xmm3, %xmm4
	paddq	%xmm4, %xmm14
	movdqa	%xmm14, %xmm9
	movdqa	.L1_v2_CPI2_7(%rip), %xmm7
	pshufb	%xmm7, %xmm9
	pshufb	%xmm7, %xmm1
	pxor	%xmm9, %xmm1
	paddq	%xmm15, %xmm0
	pxor	%xmm0, %xmm5
	pshufb	%xmm3, %xmm5
	paddq	%xmm5, %xmm10
	movdqa	%xmm10, %xmm12
	palignr	$8, %xmm14, %xmm12
	palignr	$8, %xmm10, %xmm14
	pshufb	%xmm7, %xmm10
	pshufb	%xmm7, %xmm15
	pxor	%xmm10, %xmm15
	paddq	%xmm1, %xmm13
	pxor	%xmm13, %xmm4
	movdqa	%xmm4, %xmm9
	psrlq	$63, %xmm9
	paddq	%xmm4, %xmm4
	por	%xmm9, %xmm4
	paddq	%xmm15, %xmm0
	pxor	%xmm0, %xmm5
	movdqa	%xmm5, %xmm9
	psrlq	$63, %xmm9
	paddq	%xmm5, %xmm5
	por	%xmm9, %xmm5
	movdqa	%xmm13, %xmm9
	palignr	$8, %xmm0, %xmm9
	palignr	$8, %xmm13, %xmm0
	movdqa	64(%rsp), %xmm7
	movdqa	%xmm7, %xmm13
	pblendw	$240, %xmm8, %xmm13
	paddq	%xmm12, %xmm13
	movdqa	%xmm7, %xmm12
	punpckhqdq	%xmm2, %xmm12
	paddq	%xmm14, %xmm12
	paddq	%xmm4, %xmm13
	pshufd	$177, %xmm15, %xmm10
	pshufd	$177, %xmm13, %xmm14
	pxor	%xmm14, %xmm10
	paddq	%xmm5, %xmm12
	pshufd	$177, %xmm1, %xmm1
	pshufd	$177, %xmm12, %xmm14
	pxor	%xmm14, %xmm1
	movdqa	16(%rsp), %xmm2
	movdqa	%xmm2, %xmm14
	punpckhqdq	%xmm6, %xmm14
	paddq	%xmm14, %xmm13
	movdqa	48(%rsp), %xmm3
	movdqa	%xmm3, %xmm14
	palignr	$8, %xmm11, %xmm14
	paddq	%xmm14, %xmm12
	paddq	%xmm1, %xmm0
	paddq	%xmm10, %xmm9
	pxor	%xmm9, %xmm4
	pxor	%xmm0, %xmm5
	movdqa	.L1_v2_CPI2_6(%rip), %xmm7
	pshufb	%xmm7, %xmm4
	pshufb	%xmm7, %xmm5
	paddq	%xmm4, %xmm13
	paddq	%xmm5, %xmm12
	movdqa	%xmm13, %xmm14
	palignr	$8, %xmm12, %xmm14
	movdqa	%xmm12, %xmm15
	palignr	$8, %xmm13, %xmm12
	movdqa	.L1_v2_CPI2_7(%rip), %xmm11
	pshufb	%xmm11, %xmm13
	pshufb	%xmm11, %xmm10
	pxor	%xmm13, %xmm10
	pshufb	%xmm11, %xmm15
	pshufb	%xmm11, %xmm1
	pxor	%xmm15, %xmm1
	paddq	%xmm10, %xmm9
	pxor	%xmm9, %xmm4
	movdqa	%xmm4, %xmm13
	psrlq	$63, %xmm13
	paddq	%xmm4, %xmm4
	por	%xmm13, %xmm4
	paddq	%xmm1, %xmm0
	pxor	%xmm0, %xmm5
	movdqa	%xmm5, %xmm13
	psrlq	$63, %xmm13
	paddq	%xmm5, %xmm5
	por	%xmm13, %xmm5
	movdqa	%xmm0, %xmm13
	palignr	$8, %xmm9, %xmm13
	palignr	$8, %xmm0, %xmm9
	movdqa	96(%rsp), %xmm7
	movdqa	%xmm7, %xmm0
	pblendw	$240, 32(%rsp), %xmm0
	paddq	%xmm12, %xmm0
	movdqa	%xmm6, %xmm12
	palignr	$8, %xmm3, %xmm12
	movdqa	%xmm3, %xmm15
	paddq	%xmm14, %xmm12
	paddq	%xmm4, %xmm12
	pshufd	$177, %xmm1, %xmm1
	pshufd	$177, %xmm12, %xmm14
	pxor	%xmm14, %xmm1
	paddq	%xmm5, %xmm0
	pshufd	$177, %xmm10, %xmm14
	pshufd	$177, %xmm0, %xmm10
	pxor	%xmm10, %xmm14
	paddq	240(%rsp), %xmm0
	paddq	%xmm1, %xmm13
	pxor	%xmm13, %xmm4
	movdqa	.L1_v2_CPI2_6(%rip), %xmm8
	pshufb	%xmm8, %xmm4
	paddq	208(%rsp), %xmm12
	paddq	%xmm4, %xmm12
	movdqa	%xmm12, %xmm3
	pshufb	%xmm11, %xmm3
	pshufb	%xmm11, %xmm1
	pxor	%xmm3, %xmm1
	paddq	%xmm14, %xmm9
	pxor	%xmm9, %xmm5
	pshufb	%xmm8, %xmm5
	paddq	%xmm5, %xmm0
	movdqa	%xmm0, %xmm3
	palignr	$8, %xmm12, %xmm3
	palignr	$8, %xmm0, %xmm12
	pshufb	%xmm11, %xmm0
	pshufb	%xmm11, %xmm14
	pxor	%xmm0, %xmm14
	paddq	%xmm1, %xmm13
	pxor	%xmm13, %xmm4
	movdqa	%xmm4, %xmm0
	psrlq	$63, %xmm0
	paddq	%xmm4, %xmm4
	por	%xmm0, %xmm4
	paddq	%xmm14, %xmm9
	pxor	%xmm9, %xmm5
	movdqa	%xmm5, %xmm0
	psrlq	$63, %xmm0
	paddq	%xmm5, %xmm5
	por	%xmm0, %xmm5
	movdqa	%xmm13, %xmm0
	palignr	$8, %xmm9, %xmm0
	palignr	$8, %xmm13, %xmm9
	movdqa	(%rsp), %xmm8
	movdqa	%xmm8, %xmm10
	punpcklqdq	%xmm15, %xmm10
	paddq	%xmm12, %xmm10
	movdqa	%xmm2, %xmm13
	palignr	$8, 80(%rsp), %xmm13
	paddq	%xmm3, %xmm13
	paddq	%xmm4, %xmm13
	pshufd	$177, %xmm14, %xmm12
	pshufd	$177, %xmm13, %xmm3
	pxor	%xmm3, %xmm12
	paddq	%xmm5, %xmm10
	pshufd	$177, %xmm1, %xmm1
	pshufd	$177, %xmm10, %xmm3
	pxor	%xmm3, %xmm1
	movdqa	%xmm6, %xmm3
	palignr	$8, %xmm7, %xmm3
	paddq	%xmm3, %xmm13
	paddq	%xmm1, %xmm9
	paddq	%xmm12, %xmm0
	pxor	%xmm0, %xmm4
	pxor	%xmm9, %xmm5
	movdqa	.L1_v2_CPI2_6(%rip), %xmm2
	pshufb	%xmm2, %xmm4
	pshufb	%xmm2, %xmm5
	paddq	192(%rsp), %xmm10
	paddq	%xmm4, %xmm13
	paddq	%xmm5, %xmm10
	movdqa	%xmm13, %xmm3
	palignr	$8, %xmm10, %xmm3
	movdqa	%xmm10, %xmm14
	palignr	$8, %xmm13, %xmm10
	pshufb	%xmm11, %xmm13
	pshufb	%xmm11, %xmm12
	pxor	%xmm13, %xmm12
	pshufb	%xmm11, %xmm14
	pshufb	%xmm11, %xmm1
	movdqa	%xmm11, %xmm15
	pxor	%xmm14, %xmm1
	paddq	%xmm12, %xmm0
	pxor	%xmm0, %xmm4
	movdqa	%xmm4, %xmm13
	psrlq	$63, %xmm13
	paddq	%xmm4, %xmm4
	por	%xmm13, %xmm4
	paddq	%xmm1, %xmm9
	pxor	%xmm9, %xmm5
	movdqa	%xmm5, %xmm13
	psrlq	$63, %xmm13
	paddq	%xmm5, %xmm5
	por	%xmm13, %xmm5
	movdqa	%xmm9, %xmm14
	palignr	$8, %xmm0, %xmm14
	palignr	$8, %xmm9, %xmm0
	paddq	224(%rsp), %xmm3
	paddq	%xmm4, %xmm3
	pshufd	$177, %xmm1, %xmm1
	pshufd	$177, %xmm3, %xmm2
	pxor	%xmm2, %xmm1
	paddq	144(%rsp), %xmm10
	paddq	%xmm5, %xmm10
	pshufd	$177, %xmm12, %xmm9
	pshufd	$177, %xmm10, %xmm2
	pxor	%xmm2, %xmm9
	movdqa	32(%rsp), %xmm11
	movdqa	%xmm11, %xmm2
	movdqa	%xmm8, %xmm12
	palignr	$8, %xmm8, %xmm2
	paddq	%xmm2, %xmm3
	movdqa	%xmm7, %xmm2
	palignr	$8, %xmm11, %xmm2
	paddq	%xmm2, %xmm10
	paddq	%xmm1, %xmm14
	pxor	%xmm14, %xmm4
	movdqa	.L1_v2_CPI2_6(%rip), %xmm8
	pshufb	%xmm8, %xmm4
	paddq	%xmm4, %xmm3
	movdqa	%xmm3, %xmm2
	pshufb	%xmm15, %xmm2
	pshufb	%xmm15, %xmm1
	pxor	%xmm2, %xmm1
	paddq	%xmm9, %xmm0
	pxor	%xmm0, %xmm5
	pshufb	%xmm8, %xmm5
	paddq	%xmm5, %xmm10
	movdqa	%xmm10, %xmm13
	palignr	$8, %xmm3, %xmm13
	palignr	$8, %xmm10, %xmm3
	pshufb	%xmm15, %xmm10
	pshufb	%xmm15, %xmm9
	pxor	%xmm10, %xmm9
	paddq	%xmm1, %xmm14
	pxor	%xmm14, %xmm4
	movdqa	%xmm4, %xmm2
	psrlq	$63, %xmm2
	paddq	%xmm4, %xmm4
	por	%xmm2, %xmm4
	paddq	%xmm9, %xmm0
	pxor	%xmm0, %xmm5
	movdqa	%xmm5, %xmm2
	psrlq	$63, %xmm2
	paddq	%xmm5, %xmm5
	por	%xmm2, %xmm5
	movdqa	%xmm14, %xmm2
	palignr	$8, %xmm0, %xmm2
	palignr	$8, %xmm14, %xmm0
	movdqa	%xmm12, %xmm14
	punpckhqdq	16(%rsp), %xmm12
	paddq	%xmm13, %xmm12
	movdqa	%xmm7, %xmm13
	punpcklqdq	%xmm11, %xmm13
	pblendw	$240, %xmm11, %xmm14
	paddq	%xmm4, %xmm12
	pshufd	$177, %xmm9, %xmm10
	pshufd	$177, %xmm12, %xmm9
	pxor	%xmm9, %xmm10
	paddq	128(%rsp), %xmm3
	paddq	%xmm5, %xmm3
	pshufd	$177, %xmm1, %xmm9
	pshufd	$177, %xmm3, %xmm1
	pxor	%xmm1, %xmm9
	paddq	%xmm14, %xmm12
	paddq	%xmm13, %xmm3
	paddq	%xmm9, %xmm0
	paddq	%xmm10, %xmm2
	pxor	%xmm2, %xmm4
	pxor	%xmm0, %xmm5
	movdqa	%xmm8, %xmm14
	pshufb	%xmm8, %xmm4
	pshufb	%xmm8, %xmm5
	paddq	%xmm4, %xmm12
	paddq	%xmm5, %xmm3
	movdqa	%xmm12, %xmm11
	palignr	$8, %xmm3, %xmm11
	movdqa	%xmm3, %xmm1
	palignr	$8, %xmm12, %xmm3
	pshufb	%xmm15, %xmm12
	pshufb	%xmm15, %xmm10
	pxor	%xmm12, %xmm10
	pshufb	%xmm15, %xmm1
	pshufb	%xmm15, %xmm9
	pxor	%xmm1, %xmm9
	paddq	%xmm10, %xmm2
	pxor	%xmm2, %xmm4
	movdqa	%xmm4, %xmm1
	psrlq	$63, %xmm1
	paddq	%xmm4, %xmm4
	por	%xmm1, %xmm4
	paddq	%xmm9, %xmm0
	pxor	%xmm0, %xmm5
	movdqa	%xmm5, %xmm1
	psrlq	$63, %xmm1
	paddq	%xmm5, %xmm5
	por	%xmm1, %xmm5
	movdqa	%xmm0, %xmm1
	palignr	$8, %xmm2, %xmm1
	palignr	$8, %xmm0, %xmm2
	movdqa	64(%rsp), %xmm8
	movdqa	%xmm8, %xmm0
	movdqa	48(%rsp), %xmm12
	punpckhqdq	%xmm12, %xmm0
	paddq	%xmm3, %xmm0
	punpckhqdq	%xmm7, %xmm6
	paddq	%xmm11, %xmm6
	punpcklqdq	%xmm8, %xmm12
	paddq	%xmm4, %xmm6
	pshufd	$177, %xmm9, %xmm9
	pshufd	$177, %xmm6, %xmm3
	pxor	%xmm3, %xmm9
	paddq	%xmm5, %xmm0
	pshufd	$177, %xmm10, %xmm3
	pshufd	$177, %xmm0, %xmm10
	pxor	%xmm10, %xmm3
	paddq	%xmm12, %xmm6
	paddq	%xmm9, %xmm1
	pxor	%xmm1, %xmm4
	pshufb	%xmm14, %xmm4
	paddq	%xmm4, %xmm6
	movdqa	%xmm6, %xmm10
	pshufb	%xmm15, %xmm10
	pshufb	%xmm15, %xmm9
	pxor	%xmm10, %xmm9
	paddq	%xmm3, %xmm2
	pxor	%xmm2, %xmm5
	pshufb	%xmm14, %xmm5
	movdqa	288(%rsp), %xmm12
	paddq	%xmm12, %xmm0
	paddq	%xmm5, %xmm0
	movdqa	%xmm0, %xmm10
	palignr	$8, %xmm6, %xmm10
	palignr	$8, %xmm0, %xmm6
	pshufb	%xmm15, %xmm0
	pshufb	%xmm15, %xmm3
	pxor	%xmm0, %xmm3
	paddq	%xmm9, %xmm1
	pxor	%xmm1, %xmm4
	movdqa	%xmm4, %xmm0
	psrlq	$63, %xmm0
	paddq	%xmm4, %xmm4
	por	%xmm0, %xmm4
	paddq	%xmm3, %xmm2
	pxor	%xmm2, %xmm5
	movdqa	%xmm5, %xmm0
	psrlq	$63, %xmm0
	paddq	%xmm5, %xmm5
	por	%xmm0, %xmm5
	movdqa	%xmm1, %xmm0
	palignr	$8, %xmm2, %xmm0
	palignr	$8, %xmm1, %xmm2
	paddq	432(%rsp), %xmm6
	paddq	208(%rsp), %xmm10
	paddq	%xmm4, %xmm10
	pshufd	$177, %xmm3, %xmm3
	pshufd	$177, %xmm10, %xmm1
	pxor	%xmm1, %xmm3
	paddq	%xmm5, %xmm6
	pshufd	$177, %xmm9, %xmm9
	pshufd	$177, %xmm6, %xmm1
	pxor	%xmm1, %xmm9
	paddq	400(%rsp), %xmm10
	paddq	336(%rsp), %xmm6
	paddq	%xmm9, %xmm2
	paddq	%xmm3, %xmm0
	pxor	%xmm0, %xmm4
	pxor	%xmm2, %xmm5
	pshufb	%xmm14, %xmm4
	pshufb	%xmm14, %xmm5
	paddq	%xmm4, %xmm10
	paddq	%xmm5, %xmm6
	movdqa	%xmm10, %xmm1
	palignr	$8, %xmm6, %xmm1
	movdqa	%xmm6, %xmm11
	palignr	$8, %xmm10, %xmm6
	pshufb	%xmm15, %xmm10
	pshufb	%xmm15, %xmm3
	pxor	%xmm10, %xmm3
	pshufb	%xmm15, %xmm11
	pshufb	%xmm15, %xmm9
	pxor	%xmm11, %xmm9
	paddq	%xmm3, %xmm0
	pxor	%xmm0, %xmm4
	movdqa	%xmm4, %xmm10
	psrlq	$63, %xmm10
	paddq	%xmm4, %xmm4
	por	%xmm10, %xmm4
	paddq	%xmm9, %xmm2
	pxor	%xmm2, %xmm5
	movdqa	%xmm5, %xmm10
	psrlq	$63, %xmm10
	paddq	%xmm5, %xmm5
	por	%xmm10, %xmm5
	movdqa	%xmm2, %xmm10
	palignr	$8, %xmm0, %xmm10
	palignr	$8, %xmm2, %xmm0
	paddq	384(%rsp), %xmm6
	paddq	144(%rsp), %xmm1
	paddq	%xmm4, %xmm1
	pshufd	$177, %xmm9, %xmm9
	pshufd	$177, %xmm1, %xmm2
	pxor	%xmm2, %xmm9
	paddq	%xmm5, %xmm6
	pshufd	$177, %xmm3, %xmm3
	pshufd	$177, %xmm6, %xmm2
	pxor	%xmm2, %xmm3
	paddq	416(%rsp), %xmm1
	paddq	192(%rsp), %xmm6
	paddq	%xmm9, %xmm10
	pxor	%xmm10, %xmm4
	pshufb	%xmm14, %xmm4
	paddq	%xmm4, %xmm1
	movdqa	%xmm1, %xmm2
	pshufb	%xmm15, %xmm2
	pshufb	%xmm15, %xmm9
	pxor	%xmm2, %xmm9
	paddq	%xmm3, %xmm0
	pxor	%xmm0, %xmm5
	pshufb	%xmm14, %xmm5
	paddq	%xmm5, %xmm6
	movdqa	%xmm6, %xmm2
	pshufb	%xmm15, %xmm2
	pshufb	%xmm15, %xmm3
	pxor	%xmm2, %xmm3
	paddq	%xmm9, %xmm10
	pxor	%xmm10, %xmm4
	movdqa	%xmm4, %xmm2
	psrlq	$63, %xmm2
	paddq	%xmm4, %xmm4
	por	%xmm2, %xmm4
	paddq	%xmm3, %xmm0
	pxor	%xmm0, %xmm5
	movdqa	%xmm5, %xmm2
	psrlq	$63, %xmm2
	paddq	%xmm5, %xmm5
	por	%xmm2, %xmm5
	movdqa	%xmm6, %xmm11
	palignr	$8, %xmm1, %xmm11
	palignr	$8, %xmm6, %xmm1
	movdqa	%xmm10, %xmm2
	palignr	$8, %xmm0, %xmm2
	palignr	$8, %xmm10, %xmm0
	paddq	160(%rsp), %xmm1
	paddq	176(%rsp), %xmm11
	paddq	%xmm4, %xmm11
	pshufd	$177, %xmm3, %xmm8
	pshufd	$177, %xmm11, %xmm3
	pxor	%xmm3, %xmm8
	paddq	%xmm5, %xmm1
	pshufd	$177, %xmm9, %xmm9
	pshufd	$177, %xmm1, %xmm3
	pxor	%xmm3, %xmm9
	paddq	368(%rsp), %xmm11
	paddq	128(%rsp), %xmm1
	paddq	%xmm9, %xmm0
	paddq	%xmm8, %xmm2
	pxor	%xmm2, %xmm4
	pxor	%xmm0, %xmm5
	pshufb	%xmm14, %xmm4
	pshufb	%xmm14, %xmm5
	paddq	%xmm4, %xmm11
	paddq	%xmm5, %xmm1
	movdqa	%xmm11, %xmm3
	palignr	$8, %xmm1, %xmm3
	movdqa	%xmm1, %xmm10
	palignr	$8, %xmm11, %xmm1
	pshufb	%xmm15, %xmm11
	pshufb	%xmm15, %xmm8
	pxor	%xmm11, %xmm8
	pshufb	%xmm15, %xmm10
	pshufb	%xmm15, %xmm9
	pxor	%xmm10, %xmm9
	paddq	%xmm8, %xmm2
	pxor	%xmm2, %xmm4
	movdqa	%xmm4, %xmm10
	psrlq	$63, %xmm10
	paddq	%xmm4, %xmm4
	por	%xmm10, %xmm4
	paddq	%xmm9, %xmm0
	pxor	%xmm0, %xmm5
	movdqa	%xmm5, %xmm10
	psrlq	$63, %xmm10
	paddq	%xmm5, %xmm5
	por	%xmm10, %xmm5
	movdqa	%xmm0, %xmm10
	palignr	$8, %xmm2, %xmm10
	palignr	$8, %xmm0, %xmm2
	paddq	320(%rsp), %xmm1
	paddq	%xmm12, %xmm3
	paddq	%xmm4, %xmm3
	pshufd	$177, %xmm9, %xmm0
	pshufd	$177, %xmm3, %xmm9
	pxor	%xmm9, %xmm0
	paddq	%xmm5, %xmm1
	pshufd	$177, %xmm8, %xmm8
	pshufd	$177, %xmm1, %xmm9
	pxor	%xmm9, %xmm8
	paddq	%xmm8, %xmm2
	paddq	%xmm0, %xmm10
	pxor	%xmm10, %xmm4
	pxor	%xmm2, %xmm5
	pshufb	%xmm14, %xmm4
	pshufb	%xmm14, %xmm5
	paddq	352(%rsp), %xmm3
	paddq	304(%rsp), %xmm1
	paddq	%xmm4, %xmm3
	paddq	%xmm5, %xmm1
	movdqa	%xmm3, %xmm7
	pshufb	%xmm15, %xmm7
	pshufb	%xmm15, %xmm0
	pxor	%xmm7, %xmm0
	movdqa	%xmm1, %xmm7
	palignr	$8, %xmm3, %xmm7
	palignr	$8, %xmm1, %xmm3
	pshufb	%xmm15, %xmm1
	pshufb	%xmm15, %xmm8
	pxor	%xmm1, %xmm8
	paddq	%xmm8, %xmm2
	paddq	%xmm0, %xmm10
	pxor	%xmm10, %xmm4
	pxor	%xmm2, %xmm5
	movdqa	%xmm4, %xmm1
	psrlq	$63, %xmm1
	paddq	%xmm4, %xmm4
	por	%xmm1, %xmm4
	movdqa	%xmm5, %xmm1
	psrlq	$63, %xmm1
	paddq	%xmm5, %xmm5
	por	%xmm1, %xmm5
	movdqa	%xmm10, %xmm1
	palignr	$8, %xmm2, %xmm1
	palignr	$8, %xmm10, %xmm2
	pxor	448(%rsp), %xmm7
	pxor	%xmm1, %xmm7
	pxor	496(%rsp), %xmm3
	pxor	%xmm2, %xmm3
	pxor	480(%rsp), %xmm8
	pxor	%xmm4, %xmm8
	pxor	464(%rsp), %xmm0
	pxor	%xmm5, %xmm0
	movdqu	%xmm3, (%rdi)
	movdqu	%xmm7, 16(%rdi)
	movdqu	%xmm0, 32(%rdi)
	movdqu	%xmm8, 48(%rdi)
	addq	$520, %rsp
	retq
	vj_end	blake2_compress..compress..blake2b..compress_1_v2

	vj_function	blake2_digest..wiping..scrub_stack..1664_1_v2
	pushq	%rbx
	subq	$1664, %rsp
	movq	%rsp, %rbx
	movl	$1664, %edx
	movq	%rbx, %rdi
	xorl	%esi, %esi
	vj_c_call	memset
	movq	%rbx, %rdi
	callq	blake2_digest..wiping..settle..1664_1_v2
	addq	$1664, %rsp
	popq	%rbx
	retq
	vj_end	blake2_digest..wiping..scrub_stack..1664_1_v2

	vj_function	blake2_digest..wiping..settle..1664_1_v2
	movdqu	(%rdi), %xmm0
	movdqu	16(%rdi), %xmm1
	movdqu	32(%rdi), %xmm2
	por	%xmm0, %xmm2
	movdqu	48(%rdi), %xmm0
	por	%xmm1, %xmm0
	movdqu	64(%rdi), %xmm1
	movdqu	80(%rdi), %xmm3
	movdqu	96(%rdi), %xmm4
	por	%xmm1, %xmm4
	por	%xmm2, %xmm4
	movdqu	112(%rdi), %xmm1
	por	%xmm3, %xmm1
	por	%xmm0, %xmm1
	movdqu	128(%rdi), %xmm0
	movdqu	144(%rdi), %xmm2
	movdqu	160(%rdi), %xmm3
	por	%xmm0, %xmm3
	movdqu	176(%rdi), %xmm0
	por	%xmm2, %xmm0
	movdqu	192(%rdi), %xmm2
	por	%xmm3, %xmm2
	por	%xmm4, %xmm2
	movdqu	208(%rdi), %xmm4
	por	%xmm0, %xmm4
	por	%xmm1, %xmm4
	movdqu	224(%rdi), %xmm0
	movdqu	240(%rdi), %xmm1
	movdqu	256(%rdi), %xmm3
	por	%xmm0, %xmm3
	movdqu	272(%rdi), %xmm0
	por	%xmm1, %xmm0
	movdqu	288(%rdi), %xmm1
	por	%xmm3, %xmm1
	movdqu	304(%rdi), %xmm5
	por	%xmm0, %xmm5
	movdqu	320(%rdi), %xmm0
	por	%xmm1, %xmm0
	por	%xmm2, %xmm0
	movdqu	336(%rdi), %xmm3
	por	%xmm5, %xmm3
	por	%xmm4, %xmm3
	movdqu	352(%rdi), %xmm1
	movdqu	368(%rdi), %xmm2
	movdqu	384(%rdi), %xmm4
	por	%xmm1, %xmm4
	movdqu	400(%rdi), %xmm1
	por	%xmm2, %xmm1
	movdqu	416(%rdi), %xmm2
	por	%xmm4, %xmm2
	movdqu	432(%rdi), %xmm4
	por	%xmm1, %xmm4
	movdqu	448(%rdi), %xmm5
	por	%xmm2, %xmm5
	movdqu	464(%rdi), %xmm6
	por	%xmm4, %xmm6
	movdqu	480(%rdi), %xmm1
	por	%xmm5, %xmm1
	por	%xmm0, %xmm1
	movdqu	496(%rdi), %xmm2
	por	%xmm6, %xmm2
	por	%xmm3, %xmm2
	movdqu	512(%rdi), %xmm0
	movdqu	528(%rdi), %xmm3
	movdqu	544(%rdi), %xmm4
	por	%xmm0, %xmm4
	movdqu	560(%rdi), %xmm0
	por	%xmm3, %xmm0
	movdqu	576(%rdi), %xmm3
	por	%xmm4, %xmm3
	movdqu	592(%rdi), %xmm4
	por	%xmm0, %xmm4
	movdqu	608(%rdi), %xmm0
	por	%xmm3, %xmm0
	movdqu	624(%rdi), %xmm3
	por	%xmm4, %xmm3
	movdqu	640(%rdi), %xmm4
	por	%xmm0, %xmm4
	movdqu	656(%rdi), %xmm5
	por	%xmm3, %xmm5
	movdqu	672(%rdi), %xmm0
	por	%xmm4, %xmm0
	por	%xmm1, %xmm0
	movdqu	688(%rdi), %xmm3
	por	%xmm5, %xmm3
	por	%xmm2, %xmm3
	movdqu	704(%rdi), %xmm1
	movdqu	720(%rdi), %xmm2
	movdqu	736(%rdi), %xmm4
	por	%xmm1, %xmm4
	movdqu	752(%rdi), %xmm1
	por	%xmm2, %xmm1
	movdqu	768(%rdi), %xmm2
	por	%xmm4, %xmm2
	movdqu	784(%rdi), %xmm4
	por	%xmm1, %xmm4
	movdqu	800(%rdi), %xmm1
	por	%xmm2, %xmm1
	movdqu	816(%rdi), %xmm2
	por	%xmm4, %xmm2
	movdqu	832(%rdi), %xmm4
	por	%xmm1, %xmm4
	movdqu	848(%rdi), %xmm1
	por	%xmm2, %xmm1
	movdqu	864(%rdi), %xmm2
	por	%xmm4, %xmm2
	movdqu	880(%rdi), %xmm4
	por	%xmm1, %xmm4
	movdqu	896(%rdi), %xmm1
	por	%xmm2, %xmm1
	por	%xmm0, %xmm1
	movdqu	912(%rdi), %xmm2
	por	%xmm4, %xmm2
	por	%xmm3, %xmm2
	movdqu	928(%rdi), %xmm0
	movdqu	944(%rdi), %xmm3
	movdqu	960(%rdi), %xmm4
	por	%xmm0, %xmm4
	movdqu	976(%rdi), %xmm0
	por	%xmm3, %xmm0
	movdqu	992(%rdi), %xmm3
	por	%xmm4, %xmm3
	movdqu	1008(%rdi), %xmm4
	por	%xmm0, %xmm4
	movdqu	1024(%rdi), %xmm0
	por	%xmm3, %xmm0
	movdqu	1040(%rdi), %xmm3
	por	%xmm4, %xmm3
	movdqu	1056(%rdi), %xmm4
	por	%xmm0, %xmm4
	movdqu	1072(%rdi), %xmm0
	por	%xmm3, %xmm0
	movdqu	1088(%rdi), %xmm3
	por	%xmm4, %xmm3
	movdqu	1104(%rdi), %xmm4
	por	%xmm0, %xmm4
	movdqu	1120(%rdi), %xmm5
	por	%xmm3, %xmm5
	movdqu	1136(%rdi), %xmm3
	por	%xmm4, %xmm3
	movdqu	1152(%rdi), %xmm0
	por	%xmm5, %xmm0
	por	%xmm1, %xmm0
	movdqu	1168(%rdi), %xmm1
	por	%xmm3, %xmm1
	por	%xmm2, %xmm1
	movdqu	1184(%rdi), %xmm2
	movdqu	1200(%rdi), %xmm3
	movdqu	1216(%rdi), %xmm4
	por	%xmm2, %xmm4
	movdqu	1232(%rdi), %xmm2
	por	%xmm3, %xmm2
	movdqu	1248(%rdi), %xmm3
	por	%xmm4, %xmm3
	movdqu	1264(%rdi), %xmm4
	por	%xmm2, %xmm4
	movdqu	1280(%rdi), %xmm2
	por	%xmm3, %xmm2
	movdqu	1296(%rdi), %xmm3
	por	%xmm4, %xmm3
	movdqu	1312(%rdi), %xmm4
	por	%xmm2, %xmm4
	movdqu	1328(%rdi), %xmm2
	por	%xmm3, %xmm2
	movdqu	1344(%rdi), %xmm3
	por	%xmm4, %xmm3
	movdqu	1360(%rdi), %xmm4
	por	%xmm2, %xmm4
	movdqu	1376(%rdi), %xmm2
	por	%xmm3, %xmm2
	movdqu	1392(%rdi), %xmm3
	por	%xmm4, %xmm3
	movdqu	1408(%rdi), %xmm4
	por	%xmm2, %xmm4
	movdqu	1424(%rdi), %xmm5
	por	%xmm3, %xmm5
	movdqu	1440(%rdi), %xmm2
	por	%xmm4, %xmm2
	por	%xmm0, %xmm2
	movdqu	1456(%rdi), %xmm0
	por	%xmm5, %xmm0
	por	%xmm1, %xmm0
	movdqu	1472(%rdi), %xmm1
	movdqu	1488(%rdi), %xmm3
	movdqu	1504(%rdi), %xmm4
	por	%xmm1, %xmm4
	movdqu	1520(%rdi), %xmm1
	por	%xmm3, %xmm1
	movdqu	1536(%rdi), %xmm3
	por	%xmm4, %xmm3
	movdqu	1552(%rdi), %xmm4
	por	%xmm1, %xmm4
	movdqu	1568(%rdi), %xmm1
	por	%xmm3, %xmm1
	movdqu	1584(%rdi), %xmm3
	por	%xmm4, %xmm3
	movdqu	1600(%rdi), %xmm4
	por	%xmm1, %xmm4
	movdqu	1616(%rdi), %xmm1
	por	%xmm3, %xmm1
	movdqu	1632(%rdi), %xmm3
	por	%xmm4, %xmm3
	por	%xmm2, %xmm3
	movdqu	1648(%rdi), %xmm2
	por	%xmm1, %xmm2
	por	%xmm0, %xmm2
	por	%xmm3, %xmm2
	ptest	%xmm2, %xmm2
	je	1f
	pause
1:
	retq
	vj_end	blake2_digest..wiping..settle..1664_1_v2

	vj_constants	16
	.p2align	4, 0x0
.L1_v2_CPI5_0:
	.quad	7640891576956012808
	.quad	-4942790177534073029
.L1_v2_CPI5_1:
	.quad	4354685564936845355
	.quad	-6534734903238641935
.L1_v2_CPI5_2:
	.quad	5840696475078001361
	.quad	-7276294671716946913
.L1_v2_CPI5_3:
	.quad	2270897969802886507
	.quad	6620516959819538809
	vj_function	blake2_ffi..blake2b..initialize_1_v2
	pushq	%rbp
	movq	%rsp, %rbp
	pushq	%r15
	pushq	%r14
	pushq	%r13
	pushq	%r12
	pushq	%rbx
	andq	$-32, %rsp
	subq	$544, %rsp
	movq	%rdx, %rcx
	movq	%rsi, %rax
	movq	(%rsi), %r13
	movq	16(%rsi), %rbx
	movq	32(%rsi), %rdx
	movq	48(%rsi), %r14
	movzwl	(%rcx), %r8d
	leaq	-1(%r13), %rsi
	cmpq	$64, %rsi
	setb	%sil
	cmpq	$65, %rbx
	setb	%r9b
	cmpq	$17, %rdx
	setb	%r10b
	andb	%r9b, %r10b
	andb	%sil, %r10b
	cmpq	$17, %r14
	setb	%sil
	cmpl	$256, %r8d
	setae	%r11b
	andb	%sil, %r11b
	andb	%r10b, %r11b
	movzwl	16(%rcx), %r9d
	cmpl	$16640, %r9d
	setb	%sil
	andb	%r11b, %sil
	cmpb	$1, %sil
	jne	1f
	movq	%rdi, 88(%rsp)
	movq	24(%rax), %rsi
	movq	40(%rax), %r15
	movd	4(%rcx), %xmm1
	movq	8(%rcx), %xmm0
	testq	%rbx, %rbx
	je	2f
	movq	8(%rax), %r12
	shll	$16, %r8d
	xorps	%xmm2, %xmm2
	movaps	%xmm2, 16(%rsp)
	movaps	%xmm2, (%rsp)
	movl	%ebx, %eax
	shll	$8, %eax
	movzwl	%ax, %eax
	orl	%r8d, %eax
	orl	%r13d, %eax
	movd	%eax, %xmm2
	punpckldq	%xmm1, %xmm2
	punpcklqdq	%xmm0, %xmm2
	movdqa	%xmm2, 64(%rsp)
	movd	%r9d, %xmm0
	movdqa	%xmm0, 48(%rsp)
	movq	%rsp, %rdi
	vj_c_call	memcpy
	leaq	16(%rsp), %rdi
	movq	%r15, %rsi
	movq	%r14, %rdx
	vj_c_call	memcpy
	movaps	(%rsp), %xmm1
	movaps	16(%rsp), %xmm2
	movaps	64(%rsp), %xmm0
	xorps	.L1_v2_CPI5_0(%rip), %xmm0
	movaps	%xmm0, 64(%rsp)
	movaps	48(%rsp), %xmm0
	xorps	.L1_v2_CPI5_1(%rip), %xmm0
	movaps	%xmm0, 48(%rsp)
	xorps	.L1_v2_CPI5_2(%rip), %xmm1
	movaps	%xmm1, 368(%rsp)
	xorps	.L1_v2_CPI5_3(%rip), %xmm2
	movaps	%xmm2, 352(%rsp)
	movl	$64, %eax
	subq	%rbx, %rax
	xorl	%edx, %edx
	cmpq	$64, %rbx
	cmovbq	%rax, %rdx
	leaq	(%rsp,%rbx), %rdi
	addq	$288, %rdi
	xorl	%esi, %esi
	vj_c_call	memset
	leaq	288(%rsp), %rdi
	movq	%r12, %rsi
	movq	%rbx, %rdx
	vj_c_call	memcpy
	xorps	%xmm4, %xmm4
	movaps	%xmm4, 448(%rsp)
	movaps	%xmm4, 464(%rsp)
	movaps	%xmm4, 480(%rsp)
	movaps	%xmm4, 496(%rsp)
	movups	288(%rsp), %xmm0
	movups	304(%rsp), %xmm1
	movups	320(%rsp), %xmm2
	movups	336(%rsp), %xmm3
	movaps	%xmm0, 384(%rsp)
	movaps	%xmm1, 400(%rsp)
	movaps	%xmm2, 416(%rsp)
	movaps	%xmm3, 432(%rsp)
	movaps	%xmm4, 224(%rsp)
	movaps	%xmm4, 240(%rsp)
	movaps	%xmm4, 256(%rsp)
	movaps	%xmm4, 272(%rsp)
	movaps	%xmm0, 160(%rsp)
	movaps	%xmm1, 176(%rsp)
	movaps	%xmm2, 192(%rsp)
	movaps	%xmm3, 208(%rsp)
	movups	288(%rsp), %xmm0
	movups	304(%rsp), %xmm1
	movups	320(%rsp), %xmm2
	movups	336(%rsp), %xmm3
	movaps	%xmm3, 144(%rsp)
	movaps	352(%rsp), %xmm3
	movaps	%xmm2, 128(%rsp)
	movaps	368(%rsp), %xmm2
	movaps	%xmm1, 112(%rsp)
	movaps	48(%rsp), %xmm1
	movaps	%xmm0, 96(%rsp)
	movaps	64(%rsp), %xmm0
	movl	$128, %ecx
	jmp	3f
1:
	movl	$344, %edx
	xorl	%esi, %esi
	vj_c_call	memset
	movl	$-1, %eax
	jmp	4f
2:
	shll	$16, %r8d
	xorps	%xmm2, %xmm2
	movaps	%xmm2, 16(%rsp)
	movaps	%xmm2, (%rsp)
	orl	%r13d, %r8d
	movd	%r8d, %xmm2
	punpckldq	%xmm1, %xmm2
	punpcklqdq	%xmm0, %xmm2
	movdqa	%xmm2, 64(%rsp)
	movd	%r9d, %xmm0
	movdqa	%xmm0, 48(%rsp)
	movq	%rsp, %rdi
	vj_c_call	memcpy
	leaq	16(%rsp), %rdi
	movq	%r15, %rsi
	movq	%r14, %rdx
	vj_c_call	memcpy
	movaps	48(%rsp), %xmm1
	movaps	64(%rsp), %xmm0
	movaps	(%rsp), %xmm2
	xorps	.L1_v2_CPI5_0(%rip), %xmm0
	xorps	.L1_v2_CPI5_1(%rip), %xmm1
	xorps	.L1_v2_CPI5_2(%rip), %xmm2
	movaps	16(%rsp), %xmm3
	xorps	.L1_v2_CPI5_3(%rip), %xmm3
	xorps	%xmm4, %xmm4
	movaps	%xmm4, 160(%rsp)
	movaps	%xmm4, 176(%rsp)
	movaps	%xmm4, 192(%rsp)
	movaps	%xmm4, 208(%rsp)
	movaps	%xmm4, 224(%rsp)
	movaps	%xmm4, 240(%rsp)
	movaps	%xmm4, 256(%rsp)
	movaps	%xmm4, 272(%rsp)
	movaps	%xmm4, 96(%rsp)
	movaps	%xmm4, 112(%rsp)
	movaps	%xmm4, 128(%rsp)
	movaps	%xmm4, 144(%rsp)
	xorl	%ecx, %ecx
3:
	movq	88(%rsp), %rax
	movups	%xmm0, (%rax)
	movups	%xmm1, 16(%rax)
	movups	%xmm2, 32(%rax)
	movups	%xmm3, 48(%rax)
	movups	%xmm0, 64(%rax)
	movups	%xmm1, 80(%rax)
	movups	%xmm2, 96(%rax)
	movups	%xmm3, 112(%rax)
	movq	$0, 128(%rax)
	movl	%ecx, 136(%rax)
	movl	%ecx, 140(%rax)
	movl	%r13d, 144(%rax)
	movl	$0, 148(%rax)
	movaps	272(%rsp), %xmm0
	movups	%xmm0, 264(%rax)
	movaps	256(%rsp), %xmm0
	movups	%xmm0, 248(%rax)
	movaps	240(%rsp), %xmm0
	movups	%xmm0, 232(%rax)
	movaps	224(%rsp), %xmm0
	movups	%xmm0, 216(%rax)
	movaps	160(%rsp), %xmm0
	movaps	176(%rsp), %xmm1
	movaps	192(%rsp), %xmm2
	movaps	208(%rsp), %xmm3
	movups	%xmm3, 200(%rax)
	movups	%xmm2, 184(%rax)
	movups	%xmm1, 168(%rax)
	movups	%xmm0, 152(%rax)
	movaps	96(%rsp), %xmm0
	movaps	112(%rsp), %xmm1
	movaps	128(%rsp), %xmm2
	movaps	144(%rsp), %xmm3
	movups	%xmm0, 280(%rax)
	movups	%xmm1, 296(%rax)
	movups	%xmm2, 312(%rax)
	movups	%xmm3, 328(%rax)
	xorl	%eax, %eax
4:
	leaq	-40(%rbp), %rsp
	popq	%rbx
	popq	%r12
	popq	%r13
	popq	%r14
	popq	%r15
	popq	%rbp
	retq
	vj_end	blake2_ffi..blake2b..initialize_1_v2

	vj_function	blake2_digest..wiping..scrub_stack..1024_1_v2
	pushq	%rbx
	subq	$1024, %rsp
	movq	%rsp, %rbx
	movl	$1024, %edx
	movq	%rbx, %rdi
	xorl	%esi, %esi
	vj_c_call	memset
	movq	%rbx, %rdi
	callq	blake2_digest..wiping..settle..1024_1_v2
	addq	$1024, %rsp
	popq	%rbx
	retq
	vj_end	blake2_digest..wiping..scrub_stack..1024_1_v2

	vj_function	blake2_digest..wiping..settle..1024_1_v2
	movdqu	(%rdi), %xmm0
	movdqu	16(%rdi), %xmm1
	movdqu	32(%rdi), %xmm2
	por	%xmm0, %xmm2
	movdqu	48(%rdi), %xmm0
	por	%xmm1, %xmm0
	movdqu	64(%rdi), %xmm1
	movdqu	80(%rdi), %xmm3
	movdqu	96(%rdi), %xmm4
	por	%xmm1, %xmm4
	por	%xmm2, %xmm4
	movdqu	112(%rdi), %xmm1
	por	%xmm3, %xmm1
	por	%xmm0, %xmm1
	movdqu	128(%rdi), %xmm0
	movdqu	144(%rdi), %xmm2
	movdqu	160(%rdi), %xmm3
	por	%xmm0, %xmm3
	movdqu	176(%rdi), %xmm0
	por	%xmm2, %xmm0
	movdqu	192(%rdi), %xmm2
	por	%xmm3, %xmm2
	por	%xmm4, %xmm2
	movdqu	208(%rdi), %xmm4
	por	%xmm0, %xmm4
	por	%xmm1, %xmm4
	movdqu	224(%rdi), %xmm0
	movdqu	240(%rdi), %xmm1
	movdqu	256(%rdi), %xmm3
	por	%xmm0, %xmm3
	movdqu	272(%rdi), %xmm0
	por	%xmm1, %xmm0
	movdqu	288(%rdi), %xmm1
	por	%xmm3, %xmm1
	movdqu	304(%rdi), %xmm5
	por	%xmm0, %xmm5
	movdqu	320(%rdi), %xmm0
	por	%xmm1, %xmm0
	por	%xmm2, %xmm0
	movdqu	336(%rdi), %xmm3
	por	%xmm5, %xmm3
	por	%xmm4, %xmm3
	movdqu	352(%rdi), %xmm1
	movdqu	368(%rdi), %xmm2
	movdqu	384(%rdi), %xmm4
	por	%xmm1, %xmm4
	movdqu	400(%rdi), %xmm1
	por	%xmm2, %xmm1
	movdqu	416(%rdi), %xmm2
	por	%xmm4, %xmm2
	movdqu	432(%rdi), %xmm4
	por	%xmm1, %xmm4
	movdqu	448(%rdi), %xmm5
	por	%xmm2, %xmm5
	movdqu	464(%rdi), %xmm6
	por	%xmm4, %xmm6
	movdqu	480(%rdi), %xmm1
	por	%xmm5, %xmm1
	por	%xmm0, %xmm1
	movdqu	496(%rdi), %xmm2
	por	%xmm6, %xmm2
	por	%xmm3, %xmm2
	movdqu	512(%rdi), %xmm0
	movdqu	528(%rdi), %xmm3
	movdqu	544(%rdi), %xmm4
	por	%xmm0, %xmm4
	movdqu	560(%rdi), %xmm0
	por	%xmm3, %xmm0
	movdqu	576(%rdi), %xmm3
	por	%xmm4, %xmm3
	movdqu	592(%rdi), %xmm4
	por	%xmm0, %xmm4
	movdqu	608(%rdi), %xmm0
	por	%xmm3, %xmm0
	movdqu	624(%rdi), %xmm3
	por	%xmm4, %xmm3
	movdqu	640(%rdi), %xmm4
	por	%xmm0, %xmm4
	movdqu	656(%rdi), %xmm5
	por	%xmm3, %xmm5
	movdqu	672(%rdi), %xmm0
	por	%xmm4, %xmm0
	por	%xmm1, %xmm0
	movdqu	688(%rdi), %xmm1
	por	%xmm5, %xmm1
	por	%xmm2, %xmm1
	movdqu	704(%rdi), %xmm2
	movdqu	720(%rdi), %xmm3
	movdqu	736(%rdi), %xmm4
	por	%xmm2, %xmm4
	movdqu	752(%rdi), %xmm2
	por	%xmm3, %xmm2
	movdqu	768(%rdi), %xmm3
	por	%xmm4, %xmm3
	movdqu	784(%rdi), %xmm4
	por	%xmm2, %xmm4
	movdqu	800(%rdi), %xmm2
	por	%xmm3, %xmm2
	movdqu	816(%rdi), %xmm3
	por	%xmm4, %xmm3
	movdqu	832(%rdi), %xmm4
	por	%xmm2, %xmm4
	movdqu	848(%rdi), %xmm2
	por	%xmm3, %xmm2
	movdqu	864(%rdi), %xmm3
	por	%xmm4, %xmm3
	movdqu	880(%rdi), %xmm4
	por	%xmm2, %xmm4
	movdqu	896(%rdi), %xmm2
	por	%xmm3, %xmm2
	por	%xmm0, %xmm2
	movdqu	912(%rdi), %xmm0
	por	%xmm4, %xmm0
	por	%xmm1, %xmm0
	movdqu	928(%rdi), %xmm1
	movdqu	944(%rdi), %xmm3
	movdqu	960(%rdi), %xmm4
	por	%xmm1, %xmm4
	movdqu	976(%rdi), %xmm1
	por	%xmm3, %xmm1
	movdqu	992(%rdi), %xmm3
	por	%xmm4, %xmm3
	por	%xmm2, %xmm3
	movdqu	1008(%rdi), %xmm2
	por	%xmm1, %xmm2
	por	%xmm0, %xmm2
	por	%xmm3, %xmm2
	ptest	%xmm2, %xmm2
	je	1f
	pause
1:
	retq
	vj_end	blake2_digest..wiping..settle..1024_1_v2

	vj_function	blake2_state..blake2b..State..save_1_v2
	pushq	%rbp
	pushq	%r15
	pushq	%r14
	pushq	%r13
	pushq	%r12
	pushq	%rbx
	subq	$536, %rsp
	movl	144(%rsi), %r14d
	leal	-1(%r14), %eax
	cmpl	$63, %eax
	ja	1f
	movl	136(%rsi), %ebx
	cmpq	$128, %rbx
	ja	1f
	movl	140(%rsi), %eax
	cmpl	$128, %eax
	ja	1f
	movl	%ebx, %ecx
	notl	%ecx
	movslq	%ecx, %rcx
	cmpq	%rcx, 128(%rsi)
	ja	1f
	movq	64(%rsi), %rbp
	movl	%ebp, %ecx
	andl	$65280, %ecx
	cmpl	$51456, %ecx
	sete	%cl
	testl	%eax, %eax
	sete	%al
	testb	%cl, %al
	je	1f
	movl	148(%rsi), %eax
	movl	%eax, 4(%rsp)
	xorps	%xmm0, %xmm0
	movaps	%xmm0, 128(%rsp)
	movaps	%xmm0, 112(%rsp)
	movaps	%xmm0, 96(%rsp)
	movaps	%xmm0, 80(%rsp)
	movaps	%xmm0, 64(%rsp)
	movaps	%xmm0, 48(%rsp)
	movaps	%xmm0, 32(%rsp)
	movaps	%xmm0, 16(%rsp)
	movzbl	24(%rsi), %r12d
	movzbl	56(%rsi), %r13d
	movups	72(%rsi), %xmm0
	movaps	%xmm0, 224(%rsp)
	movzbl	88(%rsi), %eax
	movb	%al, 2(%rsp)
	movzbl	120(%rsi), %eax
	movb	%al, 3(%rsp)
	movups	112(%rsi), %xmm0
	movaps	%xmm0, 256(%rsp)
	movups	80(%rsi), %xmm0
	movaps	%xmm0, 208(%rsp)
	movq	128(%rsi), %rax
	movq	%rax, 8(%rsp)
	leaq	152(%rsi), %rax
	movups	32(%rsi), %xmm0
	movaps	%xmm0, 192(%rsp)
	movups	(%rsi), %xmm0
	movaps	%xmm0, 160(%rsp)
	movups	16(%rsi), %xmm0
	movaps	%xmm0, 144(%rsp)
	movups	48(%rsi), %xmm0
	movaps	%xmm0, 176(%rsp)
	movups	96(%rsi), %xmm0
	movaps	%xmm0, 240(%rsp)
	leaq	16(%rsp), %rcx
	movq	%rdi, %r15
	movq	%rcx, %rdi
	movq	%rax, %rsi
	movq	%rbx, %rdx
	vj_c_call	memcpy
	movaps	128(%rsp), %xmm0
	movaps	%xmm0, 512(%rsp)
	movaps	112(%rsp), %xmm1
	movaps	%xmm1, 496(%rsp)
	movaps	96(%rsp), %xmm2
	movaps	%xmm2, 480(%rsp)
	movaps	80(%rsp), %xmm3
	movaps	%xmm3, 464(%rsp)
	movaps	16(%rsp), %xmm4
	movaps	32(%rsp), %xmm5
	movaps	48(%rsp), %xmm6
	movaps	64(%rsp), %xmm7
	movaps	%xmm7, 448(%rsp)
	movaps	%xmm6, 432(%rsp)
	movaps	%xmm5, 416(%rsp)
	movaps	%xmm4, 400(%rsp)
	movaps	%xmm4, 272(%rsp)
	movaps	%xmm5, 288(%rsp)
	movaps	%xmm6, 304(%rsp)
	movaps	%xmm7, 320(%rsp)
	movaps	%xmm3, 336(%rsp)
	movaps	%xmm2, 352(%rsp)
	movaps	%xmm1, 368(%rsp)
	movaps	%xmm0, 384(%rsp)
	movb	$1, (%r15)
	movabsq	$99697414952275010, %rax
	movq	%rax, 1(%r15)
	movaps	160(%rsp), %xmm0
	movups	%xmm0, 9(%r15)
	movdqa	144(%rsp), %xmm3
	movq	%xmm3, 25(%r15)
	movb	%r12b, 33(%r15)
	movdqa	176(%rsp), %xmm1
	movdqa	%xmm1, %xmm0
	movdqa	192(%rsp), %xmm2
	palignr	$9, %xmm2, %xmm0
	palignr	$9, %xmm3, %xmm2
	movdqu	%xmm2, 34(%r15)
	movq	%xmm0, 50(%r15)
	movdqa	%xmm1, %xmm0
	psrlq	$8, %xmm0
	movd	%xmm0, 58(%r15)
	pextrb	$5, %xmm1, 62(%r15)
	movq	%rbp, %xmm0
	pextrb	$6, %xmm1, 63(%r15)
	punpcklqdq	224(%rsp), %xmm0
	pextrb	$7, %xmm1, 64(%r15)
	movdqa	%xmm1, %xmm3
	movb	%r13b, 65(%r15)
	movdqa	208(%rsp), %xmm2
	movdqa	%xmm2, %xmm1
	palignr	$9, %xmm0, %xmm1
	palignr	$9, %xmm3, %xmm0
	movdqu	%xmm0, 66(%r15)
	movq	%xmm1, 82(%r15)
	movdqa	%xmm2, %xmm0
	psrlq	$8, %xmm0
	movd	%xmm0, 90(%r15)
	pextrb	$5, %xmm2, 94(%r15)
	pextrb	$6, %xmm2, 95(%r15)
	pextrb	$7, %xmm2, 96(%r15)
	movzbl	2(%rsp), %eax
	movb	%al, 97(%r15)
	movdqa	256(%rsp), %xmm1
	movdqa	%xmm1, %xmm0
	movdqa	240(%rsp), %xmm3
	palignr	$9, %xmm3, %xmm0
	palignr	$9, %xmm2, %xmm3
	movdqu	%xmm3, 98(%r15)
	movq	%xmm0, 114(%r15)
	movdqa	%xmm1, %xmm0
	psrlq	$8, %xmm0
	movd	%xmm0, 122(%r15)
	pextrb	$5, %xmm1, 126(%r15)
	pextrb	$6, %xmm1, 127(%r15)
	pextrb	$7, %xmm1, 128(%r15)
	movzbl	3(%rsp), %eax
	movb	%al, 129(%r15)
	movdqa	%xmm1, %xmm0
	psrldq	$9, %xmm0
	movd	%xmm0, 130(%r15)
	pextrb	$13, %xmm1, 134(%r15)
	pextrb	$14, %xmm1, 135(%r15)
	pextrb	$15, %xmm1, 136(%r15)
	cmpl	$0, 4(%rsp)
	movq	8(%rsp), %rax
	movq	%rax, 137(%r15)
	movb	%r14b, 145(%r15)
	movb	%bl, 146(%r15)
	setne	147(%r15)
	movaps	384(%rsp), %xmm0
	movups	%xmm0, 260(%r15)
	movaps	368(%rsp), %xmm0
	movups	%xmm0, 244(%r15)
	movaps	352(%rsp), %xmm0
	movups	%xmm0, 228(%r15)
	movaps	336(%rsp), %xmm0
	movups	%xmm0, 212(%r15)
	movaps	272(%rsp), %xmm0
	movaps	288(%rsp), %xmm1
	movaps	304(%rsp), %xmm2
	movaps	320(%rsp), %xmm3
	movups	%xmm3, 196(%r15)
	movups	%xmm2, 180(%r15)
	movups	%xmm1, 164(%r15)
	movups	%xmm0, 148(%r15)
	addq	$536, %rsp
	popq	%rbx
	popq	%r12
	popq	%r13
	popq	%r14
	popq	%r15
	popq	%rbp
	retq
1:
	movl	$276, %edx
	xorl	%esi, %esi
	addq	$536, %rsp
	popq	%rbx
	popq	%r12
	popq	%r13
	popq	%r14
	popq	%r15
	popq	%rbp
	vj_c_jump	memset
	vj_end	blake2_state..blake2b..State..save_1_v2

	vj_function	core..cmp..slices..groups_equal..i8.31.core..cmp..numbers..U8PartialEq_1_v2
	cmpq	$8, %rsi
	ja	1f
	movd	(%rdi), %xmm0
	pinsrd	$1, -4(%rdi,%rsi), %xmm0
	movd	(%rdx), %xmm1
	pinsrd	$1, -4(%rdx,%rsi), %xmm1
	movq	%xmm0, %rax
	movq	%xmm1, %rcx
	cmpq	%rcx, %rax
	jmp	9f
1:
	cmpq	$32, %rsi
	ja	2f
	leaq	-8(%rsi), %rax
	cmpq	$8, %rax
	movl	$8, %ecx
	cmovbq	%rax, %rcx
	cmpq	$16, %rax
	movl	$16, %r8d
	cmovbq	%rax, %r8
	movq	(%rdi,%rcx), %xmm0
	movq	(%rdi), %xmm1
	punpcklqdq	%xmm0, %xmm1
	movq	(%rdi,%r8), %xmm0
	movq	-8(%rdi,%rsi), %xmm2
	punpcklqdq	%xmm2, %xmm0
	movq	(%rdx,%rcx), %xmm2
	movq	(%rdx), %xmm3
	punpcklqdq	%xmm2, %xmm3
	pxor	%xmm1, %xmm3
	movq	(%rdx,%r8), %xmm1
	movq	-8(%rdx,%rsi), %xmm2
	punpcklqdq	%xmm2, %xmm1
	pxor	%xmm0, %xmm1
	por	%xmm3, %xmm1
	ptest	%xmm1, %xmm1
	jmp	9f
2:
	cmpq	$65, %rsi
	jae	3f
	movdqu	(%rdi), %xmm0
	movdqu	16(%rdi), %xmm1
	movdqu	(%rdx), %xmm2
	pxor	%xmm0, %xmm2
	movdqu	16(%rdx), %xmm0
	pxor	%xmm1, %xmm0
	movdqu	-32(%rdi,%rsi), %xmm1
	movdqu	-16(%rdi,%rsi), %xmm3
	movdqu	-32(%rdx,%rsi), %xmm4
	pxor	%xmm1, %xmm4
	por	%xmm2, %xmm4
	movdqu	-16(%rdx,%rsi), %xmm1
	pxor	%xmm3, %xmm1
	por	%xmm0, %xmm1
	por	%xmm4, %xmm1
	ptest	%xmm1, %xmm1
	jmp	9f
3:
	xorl	%eax, %eax
	movq	%rsi, %rcx
	.p2align	4
4:
	movdqu	(%rdi,%rax), %xmm0
	movdqu	16(%rdi,%rax), %xmm1
	movdqu	32(%rdi,%rax), %xmm2
	movdqu	48(%rdi,%rax), %xmm3
	movdqu	(%rdx,%rax), %xmm4
	pcmpeqb	%xmm0, %xmm4
	movdqu	16(%rdx,%rax), %xmm0
	pcmpeqb	%xmm1, %xmm0
	movdqu	32(%rdx,%rax), %xmm1
	pcmpeqb	%xmm2, %xmm1
	pand	%xmm4, %xmm1
	movdqu	48(%rdx,%rax), %xmm2
	pcmpeqb	%xmm3, %xmm2
	pand	%xmm0, %xmm2
	pand	%xmm1, %xmm2
	pmovmskb	%xmm2, %r8d
	cmpl	$65535, %r8d
	jne	5f
	addq	$64, %rax
	addq	$-64, %rcx
	cmpq	$63, %rcx
	ja	4b
5:
	cmpq	$32, %rcx
	jb	8f
	movq	%rsi, %rcx
	subq	%rax, %rcx
	.p2align	4
6:
	movdqu	(%rdi,%rax), %xmm0
	movdqu	16(%rdi,%rax), %xmm1
	movdqu	(%rdx,%rax), %xmm2
	pxor	%xmm0, %xmm2
	movdqu	16(%rdx,%rax), %xmm0
	pxor	%xmm1, %xmm0
	por	%xmm2, %xmm0
	ptest	%xmm0, %xmm0
	jne	7f
	addq	$32, %rax
	addq	$-32, %rcx
	cmpq	$32, %rcx
	jae	6b
	jmp	8f
7:
	movb	$1, %al
	cmpq	$31, %rcx
	ja	10f
8:
	movdqu	-32(%rdi,%rsi), %xmm0
	movdqu	-16(%rdi,%rsi), %xmm1
	movdqu	-32(%rdx,%rsi), %xmm2
	pxor	%xmm0, %xmm2
	movdqu	-16(%rdx,%rsi), %xmm0
	pxor	%xmm1, %xmm0
	por	%xmm2, %xmm0
	ptest	%xmm0, %xmm0
9:
	setne	%al
10:
	xorb	$1, %al
	retq
	vj_end	core..cmp..slices..groups_equal..i8.31.core..cmp..numbers..U8PartialEq_1_v2

	vj_function	blake2_ffi..blake2b..update_scrubbed_1_v2
	pushq	%rax
	callq	blake2_ffi..blake2b..update_in_frame_1_v2
	popq	%rax
	jmp	blake2_digest..wiping..scrub_stack..1152_1_v2
	vj_end	blake2_ffi..blake2b..update_scrubbed_1_v2

	vj_function	blake2_ffi..blake2b..update_in_frame_1_v2
	cmpq	$1, %rdx
	jne	blake2_state..blake2b..State..absorb_blocks_1_v2
	movl	136(%rdi), %eax
	cmpq	$128, %rax
	jae	1f
	movzbl	(%rsi), %ecx
	movb	%cl, 152(%rdi,%rax)
	incl	%eax
	movl	%eax, 136(%rdi)
	retq
1:
	movl	$1, %edx
	jmp	blake2_state..blake2b..State..absorb_blocks_1_v2
	vj_end	blake2_ffi..blake2b..update_in_frame_1_v2

	vj_function	blake2_digest..wiping..scrub_stack..1152_1_v2
	pushq	%rbx
	subq	$1152, %rsp
	movq	%rsp, %rbx
	movl	$1152, %edx
	movq	%rbx, %rdi
	xorl	%esi, %esi
	vj_c_call	memset
	movq	%rbx, %rdi
	callq	blake2_digest..wiping..settle..1152_1_v2
	addq	$1152, %rsp
	popq	%rbx
	retq
	vj_end	blake2_digest..wiping..scrub_stack..1152_1_v2

	vj_function	blake2_digest..wiping..settle..1152_1_v2
	movdqu	(%rdi), %xmm0
	movdqu	16(%rdi), %xmm1
	movdqu	32(%rdi), %xmm2
	por	%xmm0, %xmm2
	movdqu	48(%rdi), %xmm0
	por	%xmm1, %xmm0
	movdqu	64(%rdi), %xmm1
	movdqu	80(%rdi), %xmm3
	movdqu	96(%rdi), %xmm4
	por	%xmm1, %xmm4
	por	%xmm2, %xmm4
	movdqu	112(%rdi), %xmm1
	por	%xmm3, %xmm1
	por	%xmm0, %xmm1
	movdqu	128(%rdi), %xmm0
	movdqu	144(%rdi), %xmm2
	movdqu	160(%rdi), %xmm3
	por	%xmm0, %xmm3
	movdqu	176(%rdi), %xmm0
	por	%xmm2, %xmm0
	movdqu	192(%rdi), %xmm2
	por	%xmm3, %xmm2
	por	%xmm4, %xmm2
	movdqu	208(%rdi), %xmm4
	por	%xmm0, %xmm4
	por	%xmm1, %xmm4
	movdqu	224(%rdi), %xmm0
	movdqu	240(%rdi), %xmm1
	movdqu	256(%rdi), %xmm3
	por	%xmm0, %xmm3
	movdqu	272(%rdi), %xmm0
	por	%xmm1, %xmm0
	movdqu	288(%rdi), %xmm1
	por	%xmm3, %xmm1
	movdqu	304(%rdi), %xmm5
	por	%xmm0, %xmm5
	movdqu	320(%rdi), %xmm0
	por	%xmm1, %xmm0
	por	%xmm2, %xmm0
	movdqu	336(%rdi), %xmm3
	por	%xmm5, %xmm3
	por	%xmm4, %xmm3
	movdqu	352(%rdi), %xmm1
	movdqu	368(%rdi), %xmm2
	movdqu	384(%rdi), %xmm4
	por	%xmm1, %xmm4
	movdqu	400(%rdi), %xmm1
	por	%xmm2, %xmm1
	movdqu	416(%rdi), %xmm2
	por	%xmm4, %xmm2
	movdqu	432(%rdi), %xmm4
	por	%xmm1, %xmm4
	movdqu	448(%rdi), %xmm5
	por	%xmm2, %xmm5
	movdqu	464(%rdi), %xmm6
	por	%xmm4, %xmm6
	movdqu	480(%rdi), %xmm1
	por	%xmm5, %xmm1
	por	%xmm0, %xmm1
	movdqu	496(%rdi), %xmm2
	por	%xmm6, %xmm2
	por	%xmm3, %xmm2
	movdqu	512(%rdi), %xmm0
	movdqu	528(%rdi), %xmm3
	movdqu	544(%rdi), %xmm4
	por	%xmm0, %xmm4
	movdqu	560(%rdi), %xmm0
	por	%xmm3, %xmm0
	movdqu	576(%rdi), %xmm3
	por	%xmm4, %xmm3
	movdqu	592(%rdi), %xmm4
	por	%xmm0, %xmm4
	movdqu	608(%rdi), %xmm0
	por	%xmm3, %xmm0
	movdqu	624(%rdi), %xmm3
	por	%xmm4, %xmm3
	movdqu	640(%rdi), %xmm4
	por	%xmm0, %xmm4
	movdqu	656(%rdi), %xmm5
	por	%xmm3, %xmm5
	movdqu	672(%rdi), %xmm0
	por	%xmm4, %xmm0
	por	%xmm1, %xmm0
	movdqu	688(%rdi), %xmm1
	por	%xmm5, %xmm1
	por	%xmm2, %xmm1
	movdqu	704(%rdi), %xmm2
	movdqu	720(%rdi), %xmm3
	movdqu	736(%rdi), %xmm4
	por	%xmm2, %xmm4
	movdqu	752(%rdi), %xmm2
	por	%xmm3, %xmm2
	movdqu	768(%rdi), %xmm3
	por	%xmm4, %xmm3
	movdqu	784(%rdi), %xmm4
	por	%xmm2, %xmm4
	movdqu	800(%rdi), %xmm2
	por	%xmm3, %xmm2
	movdqu	816(%rdi), %xmm3
	por	%xmm4, %xmm3
	movdqu	832(%rdi), %xmm4
	por	%xmm2, %xmm4
	movdqu	848(%rdi), %xmm2
	por	%xmm3, %xmm2
	movdqu	864(%rdi), %xmm3
	por	%xmm4, %xmm3
	movdqu	880(%rdi), %xmm4
	por	%xmm2, %xmm4
	movdqu	896(%rdi), %xmm2
	por	%xmm3, %xmm2
	por	%xmm0, %xmm2
	movdqu	912(%rdi), %xmm0
	por	%xmm4, %xmm0
	por	%xmm1, %xmm0
	movdqu	928(%rdi), %xmm1
	movdqu	944(%rdi), %xmm3
	movdqu	960(%rdi), %xmm4
	por	%xmm1, %xmm4
	movdqu	976(%rdi), %xmm1
	por	%xmm3, %xmm1
	movdqu	992(%rdi), %xmm3
	por	%xmm4, %xmm3
	movdqu	1008(%rdi), %xmm4
	por	%xmm1, %xmm4
	movdqu	1024(%rdi), %xmm1
	por	%xmm3, %xmm1
	movdqu	1040(%rdi), %xmm3
	por	%xmm4, %xmm3
	movdqu	1056(%rdi), %xmm4
	por	%xmm1, %xmm4
	movdqu	1072(%rdi), %xmm1
	por	%xmm3, %xmm1
	movdqu	1088(%rdi), %xmm3
	por	%xmm4, %xmm3
	movdqu	1104(%rdi), %xmm4
	por	%xmm1, %xmm4
	movdqu	1120(%rdi), %xmm1
	por	%xmm3, %xmm1
	por	%xmm2, %xmm1
	movdqu	1136(%rdi), %xmm2
	por	%xmm4, %xmm2
	por	%xmm0, %xmm2
	por	%xmm1, %xmm2
	ptest	%xmm2, %xmm2
	je	1f
	pause
1:
	retq
	vj_end	blake2_digest..wiping..settle..1152_1_v2

	vj_function	blake2_state..blake2b..State..absorb_blocks_1_v2
	pushq	%r15
	pushq	%r14
	pushq	%rbx
	subq	$144, %rsp
	movq	%rdx, %r14
	movq	%rsi, %rdx
	movq	%rdi, %rbx
	movl	136(%rdi), %r15d
	movl	$128, %eax
	subq	%r15, %rax
	cmpq	%rax, %r14
	jbe	1f
	movq	128(%rbx), %rax
	movups	(%rbx), %xmm0
	movups	16(%rbx), %xmm1
	movups	32(%rbx), %xmm2
	movups	48(%rbx), %xmm3
	movups	80(%rbx), %xmm4
	movups	64(%rbx), %xmm5
	movups	112(%rbx), %xmm6
	movups	96(%rbx), %xmm7
	xorl	%ecx, %ecx
	cmpl	$0, 148(%rbx)
	setne	%cl
	movaps	%xmm0, (%rsp)
	movaps	%xmm1, 16(%rsp)
	movaps	%xmm2, 32(%rsp)
	movaps	%xmm3, 48(%rsp)
	movaps	%xmm5, 64(%rsp)
	movaps	%xmm4, 80(%rsp)
	movaps	%xmm7, 96(%rsp)
	movaps	%xmm6, 112(%rsp)
	movq	%rax, 128(%rsp)
	movq	%rcx, 136(%rsp)
	leaq	152(%rbx), %rdi
	movq	%rsp, %r8
	movq	%r15, %rsi
	movq	%r14, %rcx
	callq	blake2_digest..buffer..digest_into..33c1e97afcdf8a5d_1_v2
	movl	%eax, 136(%rbx)
	movaps	(%rsp), %xmm0
	movups	%xmm0, (%rbx)
	movaps	16(%rsp), %xmm0
	movups	%xmm0, 16(%rbx)
	movaps	32(%rsp), %xmm0
	movups	%xmm0, 32(%rbx)
	movaps	48(%rsp), %xmm0
	movups	%xmm0, 48(%rbx)
	movq	128(%rsp), %rax
	movq	%rax, 128(%rbx)
	jmp	9f
1:
	leaq	(%rbx,%r15), %rdi
	addq	$152, %rdi
	movq	%rdi, %rax
	subq	%rdx, %rax
	cmpq	%r14, %rax
	jae	7f
	cmpq	$4, %r14
	jb	2f
	leaq	(%rbx,%r15), %rax
	subq	%rdx, %rax
	addq	$152, %rax
	cmpq	$32, %rax
	jae	10f
2:
	xorl	%eax, %eax
3:
	movq	%r14, %rsi
	movq	%rax, %rcx
	andq	$3, %rsi
	je	5f
	movq	%rax, %rcx
	.p2align	4
4:
	movzbl	(%rdx,%rcx), %r8d
	movb	%r8b, (%rdi,%rcx)
	incq	%rcx
	decq	%rsi
	jne	4b
5:
	subq	%r14, %rax
	cmpq	$-4, %rax
	ja	8f
	leaq	(%r15,%rbx), %rax
	addq	$155, %rax
	.p2align	4
6:
	movzbl	(%rdx,%rcx), %esi
	movb	%sil, -3(%rax,%rcx)
	movzbl	1(%rdx,%rcx), %esi
	movb	%sil, -2(%rax,%rcx)
	movzbl	2(%rdx,%rcx), %esi
	movb	%sil, -1(%rax,%rcx)
	movzbl	3(%rdx,%rcx), %esi
	movb	%sil, (%rax,%rcx)
	addq	$4, %rcx
	cmpq	%rcx, %r14
	jne	6b
	jmp	8f
7:
	movq	%rdx, %rsi
	movq	%r14, %rdx
	vj_c_call	memmove
8:
	addl	%r15d, %r14d
	movl	%r14d, 136(%rbx)
9:
	addq	$144, %rsp
	popq	%rbx
	popq	%r14
	popq	%r15
	retq
10:
	cmpq	$32, %r14
	jae	11f
	xorl	%eax, %eax
	jmp	13f
11:
	movq	%r14, %rax
	andq	$-32, %rax
	leaq	(%r15,%rbx), %rcx
	addq	$168, %rcx
	xorl	%esi, %esi
	.p2align	4
12:
	movups	(%rdx,%rsi), %xmm0
	movups	16(%rdx,%rsi), %xmm1
	movups	%xmm0, -16(%rcx,%rsi)
	movups	%xmm1, (%rcx,%rsi)
	addq	$32, %rsi
	cmpq	%rsi, %rax
	jne	12b
	cmpq	%rax, %r14
	je	8b
	testb	$28, %r14b
	je	3b
13:
	movq	%rax, %rcx
	movq	%r14, %rax
	andq	$-4, %rax
	.p2align	4
14:
	movl	(%rdx,%rcx), %esi
	movl	%esi, (%rdi,%rcx)
	addq	$4, %rcx
	cmpq	%rcx, %rax
	jne	14b
	cmpq	%rax, %r14
	je	8b
	jmp	3b
	vj_end	blake2_state..blake2b..State..absorb_blocks_1_v2

	vj_function	blake2_digest..buffer..digest_into..33c1e97afcdf8a5d_1_v2
	pushq	%rbp
	pushq	%r15
	pushq	%r14
	pushq	%r13
	pushq	%r12
	pushq	%rbx
	pushq	%rax
	movq	%rcx, %r15
	movq	%rdx, %r14
	movq	%rdi, %rbx
	movl	$128, %r13d
	subq	%rsi, %r13
	movq	%rcx, %rbp
	subq	%r13, %rbp
	jbe	2f
	movq	%r8, %r12
	testq	%rsi, %rsi
	je	10f
	leaq	(%rbx,%rsi), %rdi
	movq	%rdi, %rax
	subq	%r14, %rax
	cmpq	%r13, %rax
	jae	11f
	cmpq	$4, %r13
	jb	1f
	cmpq	$32, %rax
	jae	13f
1:
	xorl	%eax, %eax
	jmp	22f
2:
	leaq	(%rbx,%rsi), %rdi
	movq	%rdi, %rax
	subq	%r14, %rax
	cmpq	%r15, %rax
	jae	8f
	cmpq	$4, %r15
	jb	3f
	cmpq	$32, %rax
	jae	12f
3:
	xorl	%eax, %eax
4:
	movq	%r15, %rdx
	movq	%rax, %rcx
	andq	$3, %rdx
	je	6f
	movq	%rax, %rcx
	.p2align	4
5:
	movzbl	(%r14,%rcx), %r8d
	movb	%r8b, (%rdi,%rcx)
	incq	%rcx
	decq	%rdx
	jne	5b
6:
	subq	%r15, %rax
	cmpq	$-4, %rax
	ja	9f
	leaq	(%rsi,%rbx), %rax
	addq	$3, %rax
	.p2align	4
7:
	movzbl	(%r14,%rcx), %edx
	movb	%dl, -3(%rax,%rcx)
	movzbl	1(%r14,%rcx), %edx
	movb	%dl, -2(%rax,%rcx)
	movzbl	2(%r14,%rcx), %edx
	movb	%dl, -1(%rax,%rcx)
	movzbl	3(%r14,%rcx), %edx
	movb	%dl, (%rax,%rcx)
	addq	$4, %rcx
	cmpq	%rcx, %r15
	jne	7b
	jmp	9f
8:
	movq	%rsi, %rbx
	movq	%r14, %rsi
	movq	%r15, %rdx
	vj_c_call	memmove
	movq	%rbx, %rsi
9:
	addq	%rsi, %r15
	jmp	36f
10:
	movq	%r15, %rbp
	jmp	25f
11:
	movq	%r14, %rsi
	movq	%r13, %rdx
	vj_c_call	memmove
	jmp	24f
12:
	cmpq	$32, %r15
	jae	14f
	xorl	%eax, %eax
	jmp	16f
13:
	cmpq	$32, %r13
	jae	18f
	xorl	%eax, %eax
	jmp	20f
14:
	movq	%r15, %rax
	andq	$-32, %rax
	leaq	(%rsi,%rbx), %rcx
	addq	$16, %rcx
	xorl	%edx, %edx
	.p2align	4
15:
	movups	(%r14,%rdx), %xmm0
	movups	16(%r14,%rdx), %xmm1
	movups	%xmm0, -16(%rcx,%rdx)
	movups	%xmm1, (%rcx,%rdx)
	addq	$32, %rdx
	cmpq	%rdx, %rax
	jne	15b
	cmpq	%rax, %r15
	je	9b
	testb	$28, %r15b
	je	4b
16:
	movq	%rax, %rcx
	movq	%r15, %rax
	andq	$-4, %rax
	.p2align	4
17:
	movl	(%r14,%rcx), %edx
	movl	%edx, (%rdi,%rcx)
	addq	$4, %rcx
	cmpq	%rcx, %rax
	jne	17b
	cmpq	%rax, %r15
	je	9b
	jmp	4b
18:
	movq	%r13, %rax
	andq	$-32, %rax
	leaq	(%rsi,%rbx), %rcx
	addq	$16, %rcx
	xorl	%edx, %edx
	.p2align	4
19:
	movups	(%r14,%rdx), %xmm0
	movups	16(%r14,%rdx), %xmm1
	movups	%xmm0, -16(%rcx,%rdx)
	movups	%xmm1, (%rcx,%rdx)
	addq	$32, %rdx
	cmpq	%rdx, %rax
	jne	19b
	cmpq	%rax, %r13
	je	24f
	testb	$28, %r13b
	je	22f
20:
	movq	%rax, %rcx
	movq	%r13, %rax
	andq	$-4, %rax
	.p2align	4
21:
	movl	(%r14,%rcx), %edx
	movl	%edx, (%rdi,%rcx)
	addq	$4, %rcx
	cmpq	%rcx, %rax
	jne	21b
	jmp	23f
22:
	movzbl	(%r14,%rax), %ecx
	movb	%cl, (%rdi,%rax)
	incq	%rax
23:
	cmpq	%rax, %r13
	jne	22b
24:
	addq	%r13, %r14
	movq	128(%r12), %rdx
	subq	$-128, %rdx
	movq	%rdx, 128(%r12)
	movq	%r12, %rdi
	movq	%rbx, %rsi
	xorl	%ecx, %ecx
	xorl	%r8d, %r8d
	vj_call	blake2_compress..compress..blake2b..compress_1_v2
25:
	cmpq	$1, %rbp
	movq	%rbp, (%rsp)
	movq	%rbp, %r13
	adcq	$-1, %r13
	movq	%r13, %rbp
	andq	$-128, %rbp
	shrq	$7, %r13
	je	27f
	movq	%r14, %r15
	.p2align	4
26:
	movq	128(%r12), %rdx
	subq	$-128, %rdx
	movq	%rdx, 128(%r12)
	movq	%r12, %rdi
	movq	%r15, %rsi
	xorl	%ecx, %ecx
	xorl	%r8d, %r8d
	vj_call	blake2_compress..compress..blake2b..compress_1_v2
	subq	$-128, %r15
	decq	%r13
	jne	26b
27:
	leaq	(%r14,%rbp), %rsi
	movq	(%rsp), %r15
	subq	%rbp, %r15
	xorps	%xmm0, %xmm0
	movups	%xmm0, 112(%rbx)
	movups	%xmm0, 96(%rbx)
	movups	%xmm0, 80(%rbx)
	movups	%xmm0, 64(%rbx)
	movups	%xmm0, 48(%rbx)
	movups	%xmm0, 32(%rbx)
	movups	%xmm0, 16(%rbx)
	movups	%xmm0, (%rbx)
	movq	%rbx, %rax
	subq	%rsi, %rax
	cmpq	%r15, %rax
	jae	28f
	cmpq	$4, %r15
	jae	29f
	xorl	%eax, %eax
	jmp	35f
28:
	movq	%rbx, %rdi
	movq	%r15, %rdx
	vj_c_call	memmove
	jmp	36f
29:
	cmpq	$32, %rax
	jae	30f
	xorl	%eax, %eax
	jmp	35f
30:
	cmpq	$32, %r15
	jae	31f
	xorl	%eax, %eax
	jmp	33f
31:
	movq	(%rsp), %rdx
	movl	%edx, %ecx
	andl	$31, %ecx
	movq	%r15, %rax
	subq	%rcx, %rax
	andq	$-32, %rdx
	subq	%rbp, %rdx
	leaq	(%r14,%rbp), %rdi
	addq	$16, %rdi
	xorl	%r8d, %r8d
	.p2align	4
32:
	movups	-16(%rdi,%r8), %xmm0
	movups	(%rdi,%r8), %xmm1
	movups	%xmm0, (%rbx,%r8)
	movups	%xmm1, 16(%rbx,%r8)
	addq	$32, %r8
	cmpq	%r8, %rdx
	jne	32b
	testq	%rcx, %rcx
	je	36f
	cmpl	$4, %ecx
	jb	35f
33:
	movq	%rax, %rcx
	movq	(%rsp), %rdi
	andl	$3, %edi
	movq	%r15, %rax
	subq	%rdi, %rax
	.p2align	4
34:
	movl	(%rsi,%rcx), %edx
	movl	%edx, (%rbx,%rcx)
	addq	$4, %rcx
	cmpq	%rcx, %rax
	jne	34b
	testq	%rdi, %rdi
	je	36f
	.p2align	4
35:
	movzbl	(%rsi,%rax), %ecx
	movb	%cl, (%rbx,%rax)
	incq	%rax
	cmpq	%rax, %r15
	jne	35b
36:
	movq	%r15, %rax
	addq	$8, %rsp
	popq	%rbx
	popq	%r12
	popq	%r13
	popq	%r14
	popq	%r15
	popq	%rbp
	retq
	vj_end	blake2_digest..buffer..digest_into..33c1e97afcdf8a5d_1_v2

	vj_function	blake2_ffi..several..blake2b..update_in_frame_1_v2
	testq	%rdx, %rdx
	je	5f
	pushq	%r15
	pushq	%r14
	pushq	%rbx
	movq	%rdx, %rbx
	movq	%rsi, %r14
	movq	%rdi, %r15
	addq	$8, %r14
	jmp	3f
	.p2align	4
1:
	movl	$1, %edx
2:
	movq	%r15, %rdi
	callq	blake2_state..blake2b..State..absorb_blocks_1_v2
	addq	$16, %r14
	addq	$344, %r15
	decq	%rbx
	je	4f
3:
	movq	-8(%r14), %rsi
	movq	(%r14), %rdx
	cmpq	$1, %rdx
	jne	2b
	movl	136(%r15), %eax
	cmpq	$128, %rax
	jae	1b
	movzbl	(%rsi), %ecx
	movb	%cl, 152(%r15,%rax)
	incl	%eax
	movl	%eax, 136(%r15)
	addq	$16, %r14
	addq	$344, %r15
	decq	%rbx
	jne	3b
4:
	popq	%rbx
	popq	%r14
	popq	%r15
5:
	retq
	vj_end	blake2_ffi..several..blake2b..update_in_frame_1_v2

	vj_shared	blake2_state..many..blake2b..update_many_1_v2
	testq	%rcx, %rcx
	je	5f
	pushq	%r15
	pushq	%r14
	pushq	%rbx
	movq	%rcx, %rbx
	movq	%rdx, %r14
	movq	%rdi, %r15
	addq	$8, %r14
	jmp	3f
	.p2align	4
1:
	movl	$1, %edx
2:
	movq	%r15, %rdi
	callq	blake2_state..blake2b..State..absorb_blocks_1_v2
	addq	$344, %r15
	addq	$16, %r14
	decq	%rbx
	je	4f
3:
	movq	-8(%r14), %rsi
	movq	(%r14), %rdx
	cmpq	$1, %rdx
	jne	2b
	movl	136(%r15), %eax
	cmpq	$128, %rax
	jae	1b
	movzbl	(%rsi), %ecx
	movb	%cl, 152(%r15,%rax)
	incl	%eax
	movl	%eax, 136(%r15)
	addq	$344, %r15
	addq	$16, %r14
	decq	%rbx
	jne	3b
4:
	popq	%rbx
	popq	%r14
	popq	%r15
5:
	retq
	vj_end	blake2_state..many..blake2b..update_many_1_v2

	vj_function	blake2_digest..wiping..scrub_stack..9216_1_v2
	pushq	%rbx
	subq	$3072, %rsp
	movq	$0, (%rsp)
	subq	$3072, %rsp
	movq	$0, (%rsp)
	subq	$3072, %rsp
	movq	%rsp, %rbx
	movl	$9216, %edx
	movq	%rbx, %rdi
	xorl	%esi, %esi
	vj_c_call	memset
	movq	%rbx, %rdi
	callq	blake2_digest..wiping..settle..9216_1_v2
	addq	$9216, %rsp
	popq	%rbx
	retq
	vj_end	blake2_digest..wiping..scrub_stack..9216_1_v2

	vj_function	blake2_digest..wiping..settle..9216_1_v2
	pxor	%xmm0, %xmm0
	movl	$112, %eax
	pxor	%xmm1, %xmm1
	.p2align	4
1:
	movdqu	-112(%rdi,%rax), %xmm2
	por	%xmm1, %xmm2
	movdqu	-96(%rdi,%rax), %xmm1
	por	%xmm0, %xmm1
	movdqu	-80(%rdi,%rax), %xmm0
	movdqu	-64(%rdi,%rax), %xmm3
	movdqu	-48(%rdi,%rax), %xmm4
	por	%xmm0, %xmm4
	por	%xmm2, %xmm4
	movdqu	-32(%rdi,%rax), %xmm2
	por	%xmm3, %xmm2
	por	%xmm1, %xmm2
	movdqu	-16(%rdi,%rax), %xmm1
	por	%xmm4, %xmm1
	movdqu	(%rdi,%rax), %xmm0
	por	%xmm2, %xmm0
	subq	$-128, %rax
	cmpq	$9328, %rax
	jne	1b
	por	%xmm1, %xmm0
	ptest	%xmm0, %xmm0
	je	2f
	pause
2:
	retq
	vj_end	blake2_digest..wiping..settle..9216_1_v2

	vj_function	blake2_ffi..blake2b..is_digest_of_1_v2
	pushq	%r15
	pushq	%r14
	pushq	%rbx
	subq	$64, %rsp
	movq	%rdx, %rbx
	movq	%rsi, %r14
	movq	%rdi, %r15
	pxor	%xmm0, %xmm0
	movdqa	%xmm0, 48(%rsp)
	movdqa	%xmm0, 32(%rsp)
	movdqa	%xmm0, 16(%rsp)
	movdqa	%xmm0, (%rsp)
	movq	%rsp, %rsi
	callq	blake2_state..blake2b..State..write_digest_1_v2
	movl	144(%r15), %eax
	cmpq	%rax, %rbx
	jne	1f
	testq	%rbx, %rbx
	je	2f
	cmpq	$4, %rbx
	jae	3f
	xorl	%ecx, %ecx
	xorl	%eax, %eax
	jmp	8f
1:
	xorl	%eax, %eax
	jmp	11f
2:
	movb	$1, %al
	jmp	11f
3:
	cmpq	$32, %rbx
	jae	4f
	xorl	%eax, %eax
	xorl	%ecx, %ecx
	jmp	6f
4:
	movq	%rbx, %rax
	andq	$-32, %rax
	pxor	%xmm0, %xmm0
	xorl	%ecx, %ecx
	pxor	%xmm1, %xmm1
	.p2align	4
5:
	movdqu	(%r14,%rcx), %xmm2
	movdqu	16(%r14,%rcx), %xmm3
	movdqu	(%rsp,%rcx), %xmm4
	pxor	%xmm2, %xmm4
	por	%xmm4, %xmm1
	movdqu	16(%rsp,%rcx), %xmm2
	pxor	%xmm3, %xmm2
	por	%xmm2, %xmm0
	addq	$32, %rcx
	cmpq	%rcx, %rax
	jne	5b
	por	%xmm1, %xmm0
	pshufd	$238, %xmm0, %xmm1
	por	%xmm0, %xmm1
	pshufd	$85, %xmm1, %xmm0
	por	%xmm1, %xmm0
	movdqa	%xmm0, %xmm1
	psrld	$16, %xmm1
	por	%xmm0, %xmm1
	movdqa	%xmm1, %xmm0
	psrlw	$8, %xmm0
	por	%xmm1, %xmm0
	movd	%xmm0, %ecx
	cmpq	%rax, %rbx
	je	10f
	testb	$28, %bl
	je	8f
6:
	movq	%rax, %rdx
	movq	%rbx, %rax
	andq	$-4, %rax
	movzbl	%cl, %ecx
	movd	%ecx, %xmm0
	.p2align	4
7:
	movl	(%rsp,%rdx), %ecx
	xorl	(%r14,%rdx), %ecx
	movd	%ecx, %xmm1
	por	%xmm1, %xmm0
	addq	$4, %rdx
	cmpq	%rdx, %rax
	jne	7b
	movdqa	%xmm0, %xmm1
	psrld	$16, %xmm1
	por	%xmm0, %xmm1
	movdqa	%xmm1, %xmm0
	psrlw	$8, %xmm0
	por	%xmm1, %xmm0
	movd	%xmm0, %ecx
	jmp	9f
8:
	movzbl	(%rsp,%rax), %edx
	xorb	(%r14,%rax), %dl
	orb	%dl, %cl
	incq	%rax
9:
	cmpq	%rax, %rbx
	jne	8b
10:
	testb	%cl, %cl
	sete	%al
11:
	addq	$64, %rsp
	popq	%rbx
	popq	%r14
	popq	%r15
	retq
	vj_end	blake2_ffi..blake2b..is_digest_of_1_v2

	vj_function	blake2_ffi..blake2bp..finalize_1_v2
	pushq	%rbx
	movq	%rdi, %rbx
	callq	blake2_parallel..blake2bp..State..write_digest_1_v2
	movl	$1632, %edx
	movq	%rbx, %rdi
	xorl	%esi, %esi
	popq	%rbx
	vj_c_jump	memset
	vj_end	blake2_ffi..blake2bp..finalize_1_v2

	vj_function	blake2_parallel..blake2bp..State..write_digest_1_v2
	pushq	%r15
	pushq	%r14
	pushq	%r13
	pushq	%r12
	pushq	%rbx
	subq	$384, %rsp
	movq	%rsi, %rbx
	movq	%rdi, %r14
	xorps	%xmm0, %xmm0
	movaps	%xmm0, 48(%rsp)
	movaps	%xmm0, 32(%rsp)
	movaps	%xmm0, 16(%rsp)
	movaps	%xmm0, (%rsp)
	leaq	128(%rsp), %r15
	movq	%r15, %rdi
	movq	%r14, %rsi
	vj_call	blake2_parallel..lanes..blake2bp..Lanes..outputs_1_v2
	movups	1424(%r14), %xmm0
	movups	1440(%r14), %xmm1
	movups	1456(%r14), %xmm2
	movups	1472(%r14), %xmm3
	movups	%xmm1, 80(%rsp)
	movups	%xmm0, 64(%rsp)
	movups	%xmm3, 112(%rsp)
	movups	%xmm2, 96(%rsp)
	leaq	256(%rsp), %r12
	leaq	64(%rsp), %r13
	movl	$128, %edx
	movq	%r13, %rdi
	movq	%r15, %rsi
	xorl	%ecx, %ecx
	xorl	%r8d, %r8d
	vj_call	blake2_compress..compress..blake2b..compress_1_v2
	movl	$256, %edx
	movq	%r13, %rdi
	movq	%r12, %rsi
	movl	$1, %ecx
	movl	$1, %r8d
	vj_call	blake2_compress..compress..blake2b..compress_1_v2
	movups	64(%rsp), %xmm0
	movups	80(%rsp), %xmm1
	movups	96(%rsp), %xmm2
	movups	112(%rsp), %xmm3
	movaps	%xmm0, (%rsp)
	movaps	%xmm1, 16(%rsp)
	movaps	%xmm2, 32(%rsp)
	movaps	%xmm3, 48(%rsp)
	movq	1496(%r14), %rdx
	movq	%rsp, %rsi
	movq	%rbx, %rdi
	vj_c_call	memcpy
	addq	$384, %rsp
	popq	%rbx
	popq	%r12
	popq	%r13
	popq	%r14
	popq	%r15
	retq
	vj_end	blake2_parallel..blake2bp..State..write_digest_1_v2

	vj_shared	blake2_parallel..lanes..blake2bp..Lanes..outputs_1_v2
	pushq	%rbp
	pushq	%r15
	pushq	%r14
	pushq	%r13
	pushq	%r12
	pushq	%rbx
	subq	$648, %rsp
	movq	%rsi, %r15
	movq	%rdi, %rbx
	movq	264(%rsi), %rbp
	cmpq	$512, %rbp
	movl	$512, %r12d
	cmovbq	%rbp, %r12
	movq	%rbp, %r14
	subq	%r12, %r14
	movups	(%rsi), %xmm0
	movups	16(%rsi), %xmm1
	movups	32(%rsi), %xmm2
	movups	48(%rsi), %xmm3
	movups	64(%rsi), %xmm4
	movups	80(%rsi), %xmm5
	movups	96(%rsi), %xmm6
	movups	112(%rsi), %xmm7
	movups	128(%rsi), %xmm8
	movups	144(%rsi), %xmm9
	movups	160(%rsi), %xmm10
	movups	176(%rsi), %xmm11
	movups	192(%rsi), %xmm12
	movups	208(%rsi), %xmm13
	movups	224(%rsi), %xmm14
	movups	240(%rsi), %xmm15
	movq	256(%rsi), %rcx
	movq	$0, 8(%rsp)
	cmpq	$513, %rbp
	setb	8(%rsp)
	cmpq	$129, %r14
	setb	10(%rsp)
	cmpq	$257, %r14
	setb	12(%rsp)
	cmpq	$385, %r14
	setb	14(%rsp)
	leaq	272(%rsi), %r13
	setb	15(%rsp)
	movups	%xmm1, 48(%rsp)
	movups	%xmm0, 32(%rsp)
	movups	%xmm3, 80(%rsp)
	movups	%xmm2, 64(%rsp)
	movups	%xmm5, 112(%rsp)
	movups	%xmm4, 96(%rsp)
	movups	%xmm7, 144(%rsp)
	movups	%xmm6, 128(%rsp)
	movups	%xmm9, 176(%rsp)
	movups	%xmm8, 160(%rsp)
	movups	%xmm11, 208(%rsp)
	movups	%xmm10, 192(%rsp)
	movups	%xmm13, 240(%rsp)
	movups	%xmm12, 224(%rsp)
	movups	%xmm15, 272(%rsp)
	movups	%xmm14, 256(%rsp)
	leaq	32(%rsp), %rdi
	leaq	8(%rsp), %r8
	movq	%r13, %rsi
	movq	%r12, %rdx
	callq	blake2_parallel..lanes..blake2bp..compress_short_1_v2
	movups	48(%rsp), %xmm7
	movups	80(%rsp), %xmm14
	movups	112(%rsp), %xmm6
	movups	96(%rsp), %xmm1
	movups	128(%rsp), %xmm2
	movups	176(%rsp), %xmm8
	movups	208(%rsp), %xmm11
	movups	240(%rsp), %xmm4
	movups	224(%rsp), %xmm0
	movups	144(%rsp), %xmm9
	movups	272(%rsp), %xmm10
	movaps	%xmm7, %xmm3
	movlhps	%xmm14, %xmm3
	movaps	%xmm3, 336(%rsp)
	movaps	%xmm6, %xmm15
	movlhps	%xmm9, %xmm15
	movaps	%xmm1, 464(%rsp)
	movaps	%xmm2, 448(%rsp)
	unpckhpd	%xmm2, %xmm1
	movaps	%xmm6, 576(%rsp)
	unpckhpd	%xmm9, %xmm6
	movaps	%xmm6, 400(%rsp)
	movaps	%xmm4, %xmm5
	movlhps	%xmm10, %xmm5
	movaps	%xmm4, 592(%rsp)
	unpckhpd	%xmm10, %xmm4
	movaps	%xmm8, %xmm9
	movlhps	%xmm11, %xmm9
	movups	256(%rsp), %xmm2
	movaps	%xmm0, 16(%rsp)
	movaps	%xmm2, 432(%rsp)
	unpckhpd	%xmm2, %xmm0
	movups	32(%rsp), %xmm2
	movups	64(%rsp), %xmm13
	movaps	%xmm2, %xmm12
	unpckhpd	%xmm13, %xmm12
	movups	160(%rsp), %xmm3
	movups	192(%rsp), %xmm6
	movaps	%xmm3, %xmm10
	movaps	%xmm6, 416(%rsp)
	unpckhpd	%xmm6, %xmm10
	movaps	%xmm7, 560(%rsp)
	movaps	%xmm14, 544(%rsp)
	unpckhpd	%xmm14, %xmm7
	movaps	%xmm8, 624(%rsp)
	movaps	%xmm11, 608(%rsp)
	unpckhpd	%xmm11, %xmm8
	cmpq	$513, %rbp
	jae	1f
	movlhps	%xmm13, %xmm2
	movaps	464(%rsp), %xmm13
	unpcklpd	448(%rsp), %xmm13
	unpcklpd	416(%rsp), %xmm3
	movaps	16(%rsp), %xmm11
	unpcklpd	432(%rsp), %xmm11
	movups	%xmm2, (%rbx)
	movups	%xmm13, 16(%rbx)
	movups	%xmm3, 32(%rbx)
	movups	%xmm11, 48(%rbx)
	movups	%xmm12, 64(%rbx)
	movups	%xmm1, 80(%rbx)
	movups	%xmm10, 96(%rbx)
	movups	%xmm0, 112(%rbx)
	movaps	336(%rsp), %xmm0
	movups	%xmm0, 128(%rbx)
	movups	%xmm15, 144(%rbx)
	movups	%xmm9, 160(%rbx)
	movups	%xmm5, 176(%rbx)
	movups	%xmm7, 192(%rbx)
	movaps	400(%rsp), %xmm0
	movups	%xmm0, 208(%rbx)
	movups	%xmm8, 224(%rbx)
	movups	%xmm4, 240(%rbx)
	jmp	6f
1:
	movaps	%xmm10, 352(%rsp)
	movaps	%xmm12, 368(%rsp)
	movaps	%xmm8, 480(%rsp)
	movaps	%xmm7, 496(%rsp)
	movaps	%xmm0, 288(%rsp)
	movaps	%xmm9, 304(%rsp)
	movaps	%xmm1, 320(%rsp)
	movaps	%xmm4, 512(%rsp)
	movaps	%xmm5, 528(%rsp)
	movaps	%xmm15, 384(%rsp)
	movups	144(%rsp), %xmm14
	movups	272(%rsp), %xmm15
	addq	%r12, %r13
	movq	256(%r15), %rcx
	subq	$-128, %rcx
	movabsq	$72339073309671425, %rax
	movq	%rax, 8(%rsp)
	movaps	560(%rsp), %xmm0
	movups	%xmm0, 48(%rsp)
	movups	%xmm2, 32(%rsp)
	movaps	544(%rsp), %xmm0
	movups	%xmm0, 80(%rsp)
	movups	%xmm13, 64(%rsp)
	movaps	576(%rsp), %xmm0
	movups	%xmm0, 112(%rsp)
	movaps	464(%rsp), %xmm0
	movups	%xmm0, 96(%rsp)
	movups	%xmm14, 144(%rsp)
	movaps	448(%rsp), %xmm0
	movups	%xmm0, 128(%rsp)
	movaps	624(%rsp), %xmm0
	movups	%xmm0, 176(%rsp)
	movups	%xmm3, 160(%rsp)
	movaps	608(%rsp), %xmm0
	movups	%xmm0, 208(%rsp)
	movaps	416(%rsp), %xmm0
	movups	%xmm0, 192(%rsp)
	movaps	592(%rsp), %xmm0
	movups	%xmm0, 240(%rsp)
	movaps	16(%rsp), %xmm0
	movups	%xmm0, 224(%rsp)
	movups	%xmm15, 272(%rsp)
	movaps	432(%rsp), %xmm0
	movups	%xmm0, 256(%rsp)
	leaq	32(%rsp), %rdi
	leaq	8(%rsp), %r8
	movq	%r13, %rsi
	movq	%r14, %rdx
	callq	blake2_parallel..lanes..blake2bp..compress_short_1_v2
	movups	32(%rsp), %xmm0
	movups	64(%rsp), %xmm5
	movups	96(%rsp), %xmm1
	movups	128(%rsp), %xmm6
	movups	160(%rsp), %xmm2
	movups	192(%rsp), %xmm7
	movups	224(%rsp), %xmm3
	movups	256(%rsp), %xmm8
	cmpq	$129, %r14
	jb	2f
	movaps	%xmm0, %xmm4
	unpckhpd	%xmm5, %xmm4
	movaps	%xmm4, 368(%rsp)
	movaps	%xmm1, %xmm4
	unpckhpd	%xmm6, %xmm4
	movaps	%xmm4, 320(%rsp)
	movaps	%xmm2, %xmm4
	unpckhpd	%xmm7, %xmm4
	movaps	%xmm4, 352(%rsp)
	movaps	%xmm3, %xmm4
	unpckhpd	%xmm8, %xmm4
	movaps	%xmm4, 288(%rsp)
2:
	movaps	%xmm8, 16(%rsp)
	movups	48(%rsp), %xmm8
	movups	80(%rsp), %xmm12
	movups	112(%rsp), %xmm9
	movups	144(%rsp), %xmm13
	movups	176(%rsp), %xmm10
	movups	208(%rsp), %xmm14
	movups	240(%rsp), %xmm11
	movups	272(%rsp), %xmm15
	cmpq	$257, %r14
	movaps	528(%rsp), %xmm4
	jb	3f
	movaps	%xmm8, %xmm4
	movlhps	%xmm12, %xmm4
	movaps	%xmm4, 336(%rsp)
	movaps	%xmm9, %xmm4
	movlhps	%xmm13, %xmm4
	movaps	%xmm4, 384(%rsp)
	movaps	%xmm10, %xmm4
	movlhps	%xmm14, %xmm4
	movaps	%xmm4, 304(%rsp)
	movaps	%xmm11, %xmm4
	movlhps	%xmm15, %xmm4
3:
	movlhps	%xmm5, %xmm0
	movlhps	%xmm6, %xmm1
	movlhps	%xmm7, %xmm2
	unpcklpd	16(%rsp), %xmm3
	cmpq	$384, %r14
	jbe	4f
	unpckhpd	%xmm12, %xmm8
	unpckhpd	%xmm13, %xmm9
	unpckhpd	%xmm14, %xmm10
	unpckhpd	%xmm15, %xmm11
	movaps	320(%rsp), %xmm5
	movaps	304(%rsp), %xmm6
	movaps	288(%rsp), %xmm7
	jmp	5f
4:
	movaps	400(%rsp), %xmm9
	movaps	512(%rsp), %xmm11
	movaps	320(%rsp), %xmm5
	movaps	304(%rsp), %xmm6
	movaps	288(%rsp), %xmm7
	movaps	496(%rsp), %xmm8
	movaps	480(%rsp), %xmm10
5:
	movups	%xmm0, (%rbx)
	movups	%xmm1, 16(%rbx)
	movups	%xmm2, 32(%rbx)
	movups	%xmm3, 48(%rbx)
	movaps	368(%rsp), %xmm0
	movups	%xmm0, 64(%rbx)
	movups	%xmm5, 80(%rbx)
	movaps	352(%rsp), %xmm0
	movups	%xmm0, 96(%rbx)
	movups	%xmm7, 112(%rbx)
	movaps	336(%rsp), %xmm0
	movups	%xmm0, 128(%rbx)
	movaps	384(%rsp), %xmm0
	movups	%xmm0, 144(%rbx)
	movups	%xmm6, 160(%rbx)
	movups	%xmm4, 176(%rbx)
	movups	%xmm8, 192(%rbx)
	movups	%xmm9, 208(%rbx)
	movups	%xmm10, 224(%rbx)
	movups	%xmm11, 240(%rbx)
6:
	addq	$648, %rsp
	popq	%rbx
	popq	%r12
	popq	%r13
	popq	%r14
	popq	%r15
	popq	%rbp
	retq
	vj_end	blake2_parallel..lanes..blake2bp..Lanes..outputs_1_v2

	vj_function	blake2_parallel..lanes..blake2bp..compress_short_1_v2
	pushq	%rbp
	pushq	%r15
	pushq	%r14
	pushq	%r13
	pushq	%r12
	pushq	%rbx
	subq	$1576, %rsp
	movq	%r8, %rbx
	movq	%rcx, %r14
	cmpq	$512, %rdx
	jne	1f
	leaq	128(%rsi), %rax
	leaq	256(%rsi), %rcx
	movq	%rsi, 40(%rsp)
	addq	$384, %rsi
	movq	%rax, 48(%rsp)
	movq	%rcx, 56(%rsp)
	movq	%rsi, 64(%rsp)
	subq	$-128, %r14
	movq	%r14, (%rsp)
	movq	%r14, 8(%rsp)
	movq	%r14, 16(%rsp)
	movq	%r14, 24(%rsp)
	leaq	40(%rsp), %rsi
	movq	%rsp, %rdx
	jmp	2f
1:
	movq	%rdx, %r15
	leaq	40(%rsp), %r13
	xorl	%r12d, %r12d
	movl	$512, %edx
	movq	%rdi, 32(%rsp)
	movq	%r13, %rdi
	movq	%rsi, %rbp
	xorl	%esi, %esi
	vj_c_call	memset
	movq	%r13, %rdi
	movq	%rbp, %rsi
	movq	%r15, %rdx
	vj_c_call	memcpy
	leaq	1064(%rsp), %rbp
	movl	$512, %edx
	movq	%rbp, %rdi
	movq	%r13, %rsi
	vj_c_call	memcpy
	leaq	552(%rsp), %r13
	movl	$512, %edx
	movq	%r13, %rdi
	movq	%rbp, %rsi
	vj_c_call	memcpy
	leaq	680(%rsp), %rax
	leaq	808(%rsp), %rcx
	leaq	936(%rsp), %rdx
	movq	%r13, 40(%rsp)
	movq	%rax, 48(%rsp)
	movq	%rcx, 56(%rsp)
	movq	%r15, %rax
	subq	$128, %rax
	movl	$128, %ecx
	cmovbq	%r15, %rcx
	movl	$128, %esi
	cmovbq	%r12, %rax
	addq	%r14, %rcx
	cmpq	$128, %rax
	cmovaeq	%rsi, %rax
	addq	%r14, %rax
	movq	%r15, %rdi
	subq	$256, %rdi
	cmovbq	%r12, %rdi
	movq	%rdx, 64(%rsp)
	cmpq	$128, %rdi
	cmovaeq	%rsi, %rdi
	addq	%r14, %rdi
	subq	$384, %r15
	cmovbq	%r12, %r15
	cmpq	$128, %r15
	cmovaeq	%rsi, %r15
	addq	%r14, %r15
	movq	%rcx, (%rsp)
	movq	%rax, 8(%rsp)
	movq	%rdi, 16(%rsp)
	movq	%r15, 24(%rsp)
	leaq	40(%rsp), %rsi
	movq	%rsp, %rdx
	movq	32(%rsp), %rdi
2:
	movq	%rbx, %rcx
	callq	blake2_parallel..lanes..blake2bp..compress_one_by_one_1_v2
	addq	$1576, %rsp
	popq	%rbx
	popq	%r12
	popq	%r13
	popq	%r14
	popq	%r15
	popq	%rbp
	retq
	vj_end	blake2_parallel..lanes..blake2bp..compress_short_1_v2

	vj_function	blake2_parallel..lanes..blake2bp..compress_one_by_one_1_v2
	pushq	%r15
	pushq	%r14
	pushq	%r12
	pushq	%rbx
	subq	$392, %rsp
	movq	%rcx, %r14
	movq	%rdx, %r15
	movq	%rsi, %r12
	movq	%rdi, %rbx
	movups	(%rdi), %xmm7
	movups	16(%rdi), %xmm5
	movups	32(%rdi), %xmm1
	movups	48(%rdi), %xmm2
	movups	64(%rdi), %xmm8
	movups	80(%rdi), %xmm6
	movups	96(%rdi), %xmm3
	movups	112(%rdi), %xmm4
	movaps	%xmm5, %xmm0
	movlhps	%xmm2, %xmm0
	movaps	%xmm0, 176(%rsp)
	movaps	%xmm7, %xmm0
	movlhps	%xmm1, %xmm0
	unpckhpd	%xmm2, %xmm5
	movaps	%xmm5, 368(%rsp)
	unpckhpd	%xmm1, %xmm7
	movaps	%xmm7, 128(%rsp)
	movaps	%xmm6, %xmm1
	movlhps	%xmm4, %xmm1
	movaps	%xmm1, 160(%rsp)
	movaps	%xmm8, %xmm1
	movlhps	%xmm3, %xmm1
	unpckhpd	%xmm4, %xmm6
	movaps	%xmm6, 352(%rsp)
	unpckhpd	%xmm3, %xmm8
	movaps	%xmm8, 96(%rsp)
	movups	128(%rdi), %xmm8
	movups	144(%rdi), %xmm5
	movups	160(%rdi), %xmm2
	movups	176(%rdi), %xmm3
	movups	192(%rdi), %xmm9
	movups	208(%rdi), %xmm6
	movups	240(%rdi), %xmm4
	movaps	%xmm5, %xmm7
	movlhps	%xmm3, %xmm7
	movaps	%xmm7, 144(%rsp)
	unpckhpd	%xmm3, %xmm5
	movaps	%xmm5, 336(%rsp)
	movaps	%xmm8, %xmm3
	movlhps	%xmm2, %xmm3
	unpckhpd	%xmm2, %xmm8
	movaps	%xmm8, 80(%rsp)
	movaps	%xmm6, %xmm2
	movlhps	%xmm4, %xmm2
	movaps	%xmm2, 112(%rsp)
	unpckhpd	%xmm4, %xmm6
	movaps	%xmm6, 320(%rsp)
	movups	224(%rdi), %xmm2
	movaps	%xmm9, %xmm4
	movlhps	%xmm2, %xmm4
	unpckhpd	%xmm2, %xmm9
	movaps	%xmm9, 64(%rsp)
	movq	(%rsi), %rsi
	movq	(%rdx), %rdx
	movzbl	1(%rcx), %r8d
	movzbl	(%rcx), %ecx
	movaps	%xmm1, 16(%rsp)
	movaps	%xmm0, (%rsp)
	movaps	%xmm4, 48(%rsp)
	movaps	%xmm3, 32(%rsp)
	movq	%rsp, %rdi
	vj_call	blake2_compress..compress..blake2b..compress_1_v2
	movaps	48(%rsp), %xmm0
	movaps	%xmm0, 192(%rsp)
	movsd	(%rsp), %xmm0
	movaps	%xmm0, 208(%rsp)
	movsd	8(%rsp), %xmm0
	movaps	%xmm0, 224(%rsp)
	movsd	16(%rsp), %xmm0
	movaps	%xmm0, 240(%rsp)
	movsd	24(%rsp), %xmm0
	movaps	%xmm0, 256(%rsp)
	movsd	32(%rsp), %xmm0
	movaps	%xmm0, 272(%rsp)
	movsd	40(%rsp), %xmm0
	movaps	%xmm0, 288(%rsp)
	movq	8(%r12), %rsi
	movq	8(%r15), %rdx
	movzbl	3(%r14), %r8d
	movzbl	2(%r14), %ecx
	movaps	96(%rsp), %xmm0
	movups	%xmm0, 16(%rsp)
	movaps	128(%rsp), %xmm0
	movups	%xmm0, (%rsp)
	movaps	64(%rsp), %xmm0
	movups	%xmm0, 48(%rsp)
	movaps	80(%rsp), %xmm0
	movups	%xmm0, 32(%rsp)
	movq	%rsp, %rdi
	vj_call	blake2_compress..compress..blake2b..compress_1_v2
	movsd	(%rsp), %xmm0
	movaps	208(%rsp), %xmm1
	movlhps	%xmm0, %xmm1
	movaps	%xmm1, 208(%rsp)
	movsd	8(%rsp), %xmm0
	movaps	224(%rsp), %xmm1
	movlhps	%xmm0, %xmm1
	movaps	%xmm1, 224(%rsp)
	movsd	16(%rsp), %xmm0
	movaps	240(%rsp), %xmm1
	movlhps	%xmm0, %xmm1
	movaps	%xmm1, 240(%rsp)
	movsd	24(%rsp), %xmm0
	movaps	256(%rsp), %xmm1
	movlhps	%xmm0, %xmm1
	movaps	%xmm1, 256(%rsp)
	movsd	32(%rsp), %xmm0
	movaps	272(%rsp), %xmm1
	movlhps	%xmm0, %xmm1
	movaps	%xmm1, 272(%rsp)
	movsd	40(%rsp), %xmm0
	movaps	288(%rsp), %xmm1
	movlhps	%xmm0, %xmm1
	movaps	%xmm1, 288(%rsp)
	movdqa	192(%rsp), %xmm0
	pshufd	$238, %xmm0, %xmm1
	pinsrq	$1, 48(%rsp), %xmm0
	movdqa	%xmm0, 192(%rsp)
	pinsrq	$1, 56(%rsp), %xmm1
	movdqa	%xmm1, 128(%rsp)
	movq	16(%r12), %rsi
	movq	16(%r15), %rdx
	movzbl	5(%r14), %r8d
	movzbl	4(%r14), %ecx
	movaps	160(%rsp), %xmm0
	movups	%xmm0, 16(%rsp)
	movaps	176(%rsp), %xmm0
	movups	%xmm0, (%rsp)
	movaps	112(%rsp), %xmm0
	movups	%xmm0, 48(%rsp)
	movaps	144(%rsp), %xmm0
	movups	%xmm0, 32(%rsp)
	movq	%rsp, %rdi
	vj_call	blake2_compress..compress..blake2b..compress_1_v2
	movsd	(%rsp), %xmm0
	movaps	%xmm0, 304(%rsp)
	movsd	8(%rsp), %xmm0
	movaps	%xmm0, 64(%rsp)
	movsd	16(%rsp), %xmm0
	movaps	%xmm0, 80(%rsp)
	movsd	24(%rsp), %xmm0
	movaps	%xmm0, 96(%rsp)
	movsd	32(%rsp), %xmm0
	movaps	%xmm0, 112(%rsp)
	movsd	40(%rsp), %xmm0
	movaps	%xmm0, 144(%rsp)
	movsd	48(%rsp), %xmm0
	movaps	%xmm0, 160(%rsp)
	movsd	56(%rsp), %xmm0
	movaps	%xmm0, 176(%rsp)
	movq	24(%r12), %rsi
	movq	24(%r15), %rdx
	movzbl	7(%r14), %r8d
	movzbl	6(%r14), %ecx
	movaps	352(%rsp), %xmm0
	movups	%xmm0, 16(%rsp)
	movaps	368(%rsp), %xmm0
	movups	%xmm0, (%rsp)
	movaps	320(%rsp), %xmm0
	movups	%xmm0, 48(%rsp)
	movaps	336(%rsp), %xmm0
	movups	%xmm0, 32(%rsp)
	movq	%rsp, %rdi
	vj_call	blake2_compress..compress..blake2b..compress_1_v2
	movsd	(%rsp), %xmm0
	movaps	304(%rsp), %xmm8
	movlhps	%xmm0, %xmm8
	movsd	8(%rsp), %xmm0
	movaps	64(%rsp), %xmm7
	movlhps	%xmm0, %xmm7
	movsd	16(%rsp), %xmm0
	movaps	80(%rsp), %xmm6
	movlhps	%xmm0, %xmm6
	movsd	24(%rsp), %xmm0
	movaps	96(%rsp), %xmm5
	movlhps	%xmm0, %xmm5
	movsd	32(%rsp), %xmm0
	movaps	112(%rsp), %xmm4
	movlhps	%xmm0, %xmm4
	movsd	40(%rsp), %xmm0
	movaps	144(%rsp), %xmm3
	movlhps	%xmm0, %xmm3
	movsd	48(%rsp), %xmm0
	movaps	160(%rsp), %xmm2
	movlhps	%xmm0, %xmm2
	movsd	56(%rsp), %xmm0
	movaps	176(%rsp), %xmm1
	movlhps	%xmm0, %xmm1
	movups	%xmm8, 16(%rbx)
	movaps	208(%rsp), %xmm0
	movups	%xmm0, (%rbx)
	movups	%xmm7, 48(%rbx)
	movaps	224(%rsp), %xmm0
	movups	%xmm0, 32(%rbx)
	movups	%xmm6, 80(%rbx)
	movaps	240(%rsp), %xmm0
	movups	%xmm0, 64(%rbx)
	movups	%xmm5, 112(%rbx)
	movaps	256(%rsp), %xmm0
	movups	%xmm0, 96(%rbx)
	movups	%xmm4, 144(%rbx)
	movaps	272(%rsp), %xmm0
	movups	%xmm0, 128(%rbx)
	movups	%xmm3, 176(%rbx)
	movaps	288(%rsp), %xmm0
	movups	%xmm0, 160(%rbx)
	movups	%xmm2, 208(%rbx)
	movaps	192(%rsp), %xmm0
	movups	%xmm0, 192(%rbx)
	movups	%xmm1, 240(%rbx)
	movaps	128(%rsp), %xmm0
	movups	%xmm0, 224(%rbx)
	addq	$392, %rsp
	popq	%rbx
	popq	%r12
	popq	%r14
	popq	%r15
	retq
	vj_end	blake2_parallel..lanes..blake2bp..compress_one_by_one_1_v2

	vj_function	blake2_digest..wiping..scrub_stack..5632_1_v2
	pushq	%rbx
	subq	$3072, %rsp
	movq	$0, (%rsp)
	subq	$2560, %rsp
	movq	%rsp, %rbx
	movl	$5632, %edx
	movq	%rbx, %rdi
	xorl	%esi, %esi
	vj_c_call	memset
	movq	%rbx, %rdi
	callq	blake2_digest..wiping..settle..5632_1_v2
	addq	$5632, %rsp
	popq	%rbx
	retq
	vj_end	blake2_digest..wiping..scrub_stack..5632_1_v2

	vj_function	blake2_digest..wiping..settle..5632_1_v2
	pxor	%xmm0, %xmm0
	movl	$112, %eax
	pxor	%xmm1, %xmm1
	.p2align	4
1:
	movdqu	-112(%rdi,%rax), %xmm2
	por	%xmm1, %xmm2
	movdqu	-96(%rdi,%rax), %xmm1
	por	%xmm0, %xmm1
	movdqu	-80(%rdi,%rax), %xmm0
	movdqu	-64(%rdi,%rax), %xmm3
	movdqu	-48(%rdi,%rax), %xmm4
	por	%xmm0, %xmm4
	por	%xmm2, %xmm4
	movdqu	-32(%rdi,%rax), %xmm2
	por	%xmm3, %xmm2
	por	%xmm1, %xmm2
	movdqu	-16(%rdi,%rax), %xmm1
	por	%xmm4, %xmm1
	movdqu	(%rdi,%rax), %xmm0
	por	%xmm2, %xmm0
	subq	$-128, %rax
	cmpq	$5744, %rax
	jne	1b
	por	%xmm1, %xmm0
	ptest	%xmm0, %xmm0
	je	2f
	pause
2:
	retq
	vj_end	blake2_digest..wiping..settle..5632_1_v2

	vj_constants	16
	.p2align	4, 0x0
.L1_v2_CPI28_0:
	.quad	5840696475078001361
	.quad	-7276294671716946913
.L1_v2_CPI28_1:
	.quad	2270897969802886507
	.quad	6620516959819538809
.L1_v2_CPI28_2:
	.quad	7640891576956012808
	.quad	-4942790177534073029
.L1_v2_CPI28_3:
	.quad	4354685564936828970
	.quad	-6534734903238641935
.L1_v2_CPI28_4:
	.quad	4354685564936828971
	.quad	-6534734903238641935
.L1_v2_CPI28_5:
	.quad	4354685564936828971
	.quad	4354685564936828971
.L1_v2_CPI28_6:
	.quad	-6534734903238641935
	.quad	-6534734903238641935
.L1_v2_CPI28_7:
	.quad	5840696475078001361
	.quad	5840696475078001361
	vj_function	blake2_ffi..blake2bp..initialize_1_v2
	pushq	%rbp
	movq	%rsp, %rbp
	pushq	%r15
	pushq	%r14
	pushq	%r13
	pushq	%r12
	pushq	%rbx
	andq	$-32, %rsp
	subq	$2720, %rsp
	movq	%r8, %rbx
	movq	%rcx, %r14
	movq	%rdx, %r8
	movq	24(%rbp), %r12
	movq	%rsi, 232(%rsp)
	leaq	-1(%rsi), %rax
	cmpq	$64, %rax
	setae	%al
	cmpq	$65, %rcx
	setae	%cl
	cmpq	$17, %r9
	setae	%dl
	orb	%cl, %dl
	orb	%al, %dl
	cmpq	$17, %r12
	setae	%al
	orb	%dl, %al
	jne	1f
	movq	%r9, %r13
	movq	%rdi, 224(%rsp)
	movq	16(%rbp), %r15
	xorps	%xmm0, %xmm0
	movaps	%xmm0, 400(%rsp)
	movaps	%xmm0, 384(%rsp)
	leaq	384(%rsp), %rdi
	movq	%rbx, %rsi
	movq	%r9, %rdx
	movq	%r8, 32(%rsp)
	vj_c_call	memcpy
	leaq	400(%rsp), %rdi
	movq	%r15, %rsi
	movq	%r12, %rdx
	vj_c_call	memcpy
	movaps	384(%rsp), %xmm0
	movaps	%xmm0, 176(%rsp)
	movaps	400(%rsp), %xmm0
	movaps	%xmm0, 208(%rsp)
	xorps	%xmm0, %xmm0
	movaps	%xmm0, 400(%rsp)
	movaps	%xmm0, 384(%rsp)
	leaq	384(%rsp), %rdi
	movq	%rbx, %rsi
	movq	%r13, %rdx
	vj_c_call	memcpy
	leaq	400(%rsp), %rdi
	movq	%r15, %rsi
	movq	%r12, %rdx
	vj_c_call	memcpy
	movaps	384(%rsp), %xmm0
	movaps	%xmm0, 240(%rsp)
	movaps	400(%rsp), %xmm0
	movaps	%xmm0, 192(%rsp)
	xorps	%xmm0, %xmm0
	movaps	%xmm0, 48(%rsp)
	movaps	%xmm0, 64(%rsp)
	movaps	%xmm0, 80(%rsp)
	movaps	%xmm0, 96(%rsp)
	movaps	%xmm0, 112(%rsp)
	movaps	%xmm0, 128(%rsp)
	movaps	%xmm0, 144(%rsp)
	movaps	%xmm0, 160(%rsp)
	leaq	48(%rsp), %rdi
	movq	32(%rsp), %rsi
	movq	%r14, %rdx
	vj_c_call	memcpy
	testq	%r14, %r14
	je	2f
	movaps	160(%rsp), %xmm0
	movaps	%xmm0, 496(%rsp)
	movaps	144(%rsp), %xmm1
	movaps	%xmm1, 480(%rsp)
	movaps	128(%rsp), %xmm2
	movaps	%xmm2, 464(%rsp)
	movaps	112(%rsp), %xmm3
	movaps	%xmm3, 448(%rsp)
	movaps	48(%rsp), %xmm4
	movaps	64(%rsp), %xmm5
	movaps	80(%rsp), %xmm6
	movaps	96(%rsp), %xmm7
	movaps	%xmm7, 432(%rsp)
	movaps	%xmm6, 416(%rsp)
	movaps	%xmm5, 400(%rsp)
	movaps	%xmm4, 384(%rsp)
	movaps	%xmm4, 512(%rsp)
	movaps	%xmm5, 528(%rsp)
	movaps	%xmm6, 544(%rsp)
	movaps	%xmm7, 560(%rsp)
	movaps	%xmm3, 576(%rsp)
	movaps	%xmm2, 592(%rsp)
	movaps	%xmm1, 608(%rsp)
	movaps	%xmm0, 624(%rsp)
	movaps	160(%rsp), %xmm0
	movaps	%xmm0, 752(%rsp)
	movaps	144(%rsp), %xmm1
	movaps	%xmm1, 736(%rsp)
	movaps	128(%rsp), %xmm2
	movaps	%xmm2, 720(%rsp)
	movaps	112(%rsp), %xmm3
	movaps	%xmm3, 704(%rsp)
	movaps	48(%rsp), %xmm4
	movaps	64(%rsp), %xmm5
	movaps	80(%rsp), %xmm6
	movaps	96(%rsp), %xmm7
	movaps	%xmm7, 688(%rsp)
	movaps	%xmm6, 672(%rsp)
	movaps	%xmm5, 656(%rsp)
	movaps	%xmm4, 640(%rsp)
	movaps	%xmm0, 880(%rsp)
	movaps	%xmm1, 864(%rsp)
	movaps	%xmm2, 848(%rsp)
	movaps	%xmm3, 832(%rsp)
	movaps	%xmm7, 816(%rsp)
	movaps	%xmm6, 800(%rsp)
	movaps	%xmm5, 784(%rsp)
	movaps	%xmm4, 768(%rsp)
	leaq	1416(%rsp), %rdi
	movl	$384, %edx
	xorl	%esi, %esi
	vj_c_call	memset
	leaq	904(%rsp), %rdi
	leaq	384(%rsp), %rsi
	movl	$512, %eax
	movq	%rax, 24(%rsp)
	movl	$512, %edx
	vj_c_call	memcpy
	jmp	3f
1:
	movl	$1632, %edx
	xorl	%esi, %esi
	vj_c_call	memset
	movl	$-1, %eax
	jmp	4f
2:
	leaq	904(%rsp), %rdi
	movq	$0, 24(%rsp)
	movl	$896, %edx
	xorl	%esi, %esi
	vj_c_call	memset
3:
	movaps	240(%rsp), %xmm0
	xorps	.L1_v2_CPI28_0(%rip), %xmm0
	movaps	%xmm0, 368(%rsp)
	movaps	192(%rsp), %xmm0
	xorps	.L1_v2_CPI28_1(%rip), %xmm0
	movaps	%xmm0, 192(%rsp)
	shll	$8, %r14d
	movq	232(%rsp), %r13
	leal	(%r14,%r13), %eax
	addl	$33816576, %eax
	movd	%eax, %xmm0
	pxor	.L1_v2_CPI28_2(%rip), %xmm0
	movdqa	%xmm0, 32(%rsp)
	leaq	1800(%rsp), %rdi
	leaq	904(%rsp), %rsi
	movl	$896, %edx
	vj_c_call	memcpy
	movdqa	32(%rsp), %xmm0
	pshufd	$68, %xmm0, %xmm1
	movdqa	%xmm1, 352(%rsp)
	movq	224(%rsp), %r15
	movdqu	%xmm1, (%r15)
	movq	%xmm0, 16(%r15)
	movdqu	%xmm0, 24(%r15)
	movabsq	$-4942790177534073032, %r12
	leaq	2(%r12), %rax
	movq	%rax, 40(%r15)
	leaq	1(%r12), %rax
	movq	%rax, 48(%r15)
	movq	%r12, 56(%r15)
	movaps	.L1_v2_CPI28_5(%rip), %xmm0
	movups	%xmm0, 64(%r15)
	movabsq	$4354685564936828971, %rbx
	movq	%rbx, 80(%r15)
	movdqa	.L1_v2_CPI28_4(%rip), %xmm0
	movdqu	%xmm0, 88(%r15)
	movaps	.L1_v2_CPI28_6(%rip), %xmm1
	movups	%xmm1, 104(%r15)
	movdqa	176(%rsp), %xmm1
	pxor	.L1_v2_CPI28_0(%rip), %xmm1
	movdqa	%xmm1, 176(%rsp)
	movdqa	%xmm1, %xmm2
	palignr	$8, %xmm0, %xmm2
	movdqa	%xmm2, 336(%rsp)
	movdqu	%xmm2, 120(%r15)
	pshufd	$68, %xmm1, %xmm0
	movdqa	%xmm0, 320(%rsp)
	movdqu	%xmm0, 136(%r15)
	movdqu	%xmm1, 152(%r15)
	pshufd	$238, %xmm1, %xmm0
	movdqa	%xmm0, 304(%rsp)
	movdqu	%xmm0, 168(%r15)
	movdqa	208(%rsp), %xmm0
	pxor	.L1_v2_CPI28_1(%rip), %xmm0
	movdqa	%xmm0, 208(%rsp)
	movdqa	%xmm0, %xmm2
	palignr	$8, %xmm1, %xmm2
	movdqa	%xmm2, 288(%rsp)
	movdqu	%xmm2, 184(%r15)
	pshufd	$68, %xmm0, %xmm1
	movdqa	%xmm1, 272(%rsp)
	movdqu	%xmm1, 200(%r15)
	movdqu	%xmm0, 216(%r15)
	pshufd	$238, %xmm0, %xmm1
	movdqa	%xmm1, 256(%rsp)
	movdqu	%xmm1, 232(%r15)
	pextrq	$1, %xmm0, 248(%r15)
	movq	$0, 256(%r15)
	movq	24(%rsp), %r14
	movq	%r14, 264(%r15)
	leaq	272(%r15), %rdi
	movl	$896, %edx
	leaq	1800(%rsp), %rsi
	vj_c_call	memcpy
	movaps	352(%rsp), %xmm0
	movups	%xmm0, 1168(%r15)
	movdqa	32(%rsp), %xmm2
	movq	%xmm2, 1184(%r15)
	movdqu	%xmm2, 1192(%r15)
	leaq	2(%r12), %rax
	movq	%rax, 1208(%r15)
	leaq	1(%r12), %rax
	movq	%rax, 1216(%r15)
	movq	%r12, 1224(%r15)
	movaps	.L1_v2_CPI28_5(%rip), %xmm0
	movups	%xmm0, 1232(%r15)
	movq	%rbx, 1248(%r15)
	movaps	.L1_v2_CPI28_4(%rip), %xmm0
	movups	%xmm0, 1256(%r15)
	movaps	.L1_v2_CPI28_6(%rip), %xmm0
	movups	%xmm0, 1272(%r15)
	movaps	336(%rsp), %xmm0
	movups	%xmm0, 1288(%r15)
	movaps	320(%rsp), %xmm0
	movups	%xmm0, 1304(%r15)
	movaps	176(%rsp), %xmm0
	movups	%xmm0, 1320(%r15)
	movaps	304(%rsp), %xmm0
	movups	%xmm0, 1336(%r15)
	movaps	288(%rsp), %xmm0
	movups	%xmm0, 1352(%r15)
	movaps	272(%rsp), %xmm0
	movups	%xmm0, 1368(%r15)
	movdqa	208(%rsp), %xmm3
	movdqu	%xmm3, 1384(%r15)
	movaps	256(%rsp), %xmm0
	movups	%xmm0, 1400(%r15)
	movdqa	.L1_v2_CPI28_3(%rip), %xmm1
	movdqa	%xmm1, %xmm0
	palignr	$8, %xmm2, %xmm0
	palignr	$8, %xmm3, %xmm2
	movdqu	%xmm2, 1416(%r15)
	movdqu	%xmm0, 1432(%r15)
	movdqa	240(%rsp), %xmm0
	pxor	.L1_v2_CPI28_7(%rip), %xmm0
	palignr	$8, %xmm1, %xmm0
	movdqu	%xmm0, 1448(%r15)
	movdqa	192(%rsp), %xmm1
	movdqa	%xmm1, %xmm0
	palignr	$8, 368(%rsp), %xmm0
	movdqu	%xmm0, 1464(%r15)
	pextrq	$1, %xmm1, 1480(%r15)
	movq	%r14, 1488(%r15)
	movq	%r13, 1496(%r15)
	movaps	160(%rsp), %xmm0
	movups	%xmm0, 1616(%r15)
	movaps	144(%rsp), %xmm0
	movups	%xmm0, 1600(%r15)
	movaps	128(%rsp), %xmm0
	movups	%xmm0, 1584(%r15)
	movaps	112(%rsp), %xmm0
	movups	%xmm0, 1568(%r15)
	movaps	48(%rsp), %xmm0
	movaps	64(%rsp), %xmm1
	movaps	80(%rsp), %xmm2
	movaps	96(%rsp), %xmm3
	movups	%xmm3, 1552(%r15)
	movups	%xmm2, 1536(%r15)
	movups	%xmm1, 1520(%r15)
	movups	%xmm0, 1504(%r15)
	xorl	%eax, %eax
4:
	leaq	-40(%rbp), %rsp
	popq	%rbx
	popq	%r12
	popq	%r13
	popq	%r14
	popq	%r15
	popq	%rbp
	retq
	vj_end	blake2_ffi..blake2bp..initialize_1_v2

	vj_function	blake2_digest..wiping..scrub_stack..5120_1_v2
	pushq	%rbx
	subq	$3072, %rsp
	movq	$0, (%rsp)
	subq	$2048, %rsp
	movq	%rsp, %rbx
	movl	$5120, %edx
	movq	%rbx, %rdi
	xorl	%esi, %esi
	vj_c_call	memset
	movq	%rbx, %rdi
	callq	blake2_digest..wiping..settle..5120_1_v2
	addq	$5120, %rsp
	popq	%rbx
	retq
	vj_end	blake2_digest..wiping..scrub_stack..5120_1_v2

	vj_function	blake2_digest..wiping..settle..5120_1_v2
	pxor	%xmm0, %xmm0
	movl	$144, %eax
	pxor	%xmm1, %xmm1
	.p2align	4
1:
	movdqu	-144(%rdi,%rax), %xmm2
	por	%xmm1, %xmm2
	movdqu	-128(%rdi,%rax), %xmm1
	por	%xmm0, %xmm1
	movdqu	-112(%rdi,%rax), %xmm0
	movdqu	-96(%rdi,%rax), %xmm3
	movdqu	-80(%rdi,%rax), %xmm4
	por	%xmm0, %xmm4
	por	%xmm2, %xmm4
	movdqu	-64(%rdi,%rax), %xmm2
	por	%xmm3, %xmm2
	por	%xmm1, %xmm2
	movdqu	-48(%rdi,%rax), %xmm0
	movdqu	-32(%rdi,%rax), %xmm3
	movdqu	-16(%rdi,%rax), %xmm1
	por	%xmm0, %xmm1
	por	%xmm4, %xmm1
	movdqu	(%rdi,%rax), %xmm0
	por	%xmm3, %xmm0
	por	%xmm2, %xmm0
	addq	$160, %rax
	cmpq	$5264, %rax
	jne	1b
	por	%xmm1, %xmm0
	ptest	%xmm0, %xmm0
	je	2f
	pause
2:
	retq
	vj_end	blake2_digest..wiping..settle..5120_1_v2

	vj_function	blake2_ffi..blake2bp..reset_in_frame_1_v2
	pushq	%r15
	pushq	%r14
	pushq	%rbx
	subq	$1664, %rsp
	movq	%rdi, %rbx
	leaq	1168(%rdi), %r14
	movq	1488(%rdi), %r15
	testq	%r15, %r15
	je	1f
	movups	1616(%rbx), %xmm0
	movaps	%xmm0, 112(%rsp)
	movups	1600(%rbx), %xmm0
	movaps	%xmm0, 96(%rsp)
	movups	1584(%rbx), %xmm0
	movaps	%xmm0, 80(%rsp)
	movups	1568(%rbx), %xmm0
	movaps	%xmm0, 64(%rsp)
	movups	1504(%rbx), %xmm0
	movups	1520(%rbx), %xmm1
	movups	1536(%rbx), %xmm2
	movups	1552(%rbx), %xmm3
	movaps	%xmm3, 48(%rsp)
	movaps	%xmm2, 32(%rsp)
	movaps	%xmm1, 16(%rsp)
	movaps	%xmm0, (%rsp)
	movups	1504(%rbx), %xmm0
	movups	1520(%rbx), %xmm1
	movups	1536(%rbx), %xmm2
	movups	1552(%rbx), %xmm3
	movaps	%xmm0, 128(%rsp)
	movaps	%xmm1, 144(%rsp)
	movaps	%xmm2, 160(%rsp)
	movaps	%xmm3, 176(%rsp)
	movups	1568(%rbx), %xmm0
	movaps	%xmm0, 192(%rsp)
	movups	1584(%rbx), %xmm0
	movaps	%xmm0, 208(%rsp)
	movups	1600(%rbx), %xmm0
	movaps	%xmm0, 224(%rsp)
	movups	1616(%rbx), %xmm0
	movaps	%xmm0, 240(%rsp)
	movups	1504(%rbx), %xmm0
	movups	1520(%rbx), %xmm1
	movups	1536(%rbx), %xmm2
	movups	1552(%rbx), %xmm3
	movaps	%xmm0, 256(%rsp)
	movaps	%xmm1, 272(%rsp)
	movaps	%xmm2, 288(%rsp)
	movaps	%xmm3, 304(%rsp)
	movups	1568(%rbx), %xmm0
	movaps	%xmm0, 320(%rsp)
	movups	1584(%rbx), %xmm0
	movaps	%xmm0, 336(%rsp)
	movups	1600(%rbx), %xmm0
	movaps	%xmm0, 352(%rsp)
	movups	1616(%rbx), %xmm0
	movaps	%xmm0, 368(%rsp)
	movups	1616(%rbx), %xmm0
	movaps	%xmm0, 496(%rsp)
	movups	1600(%rbx), %xmm0
	movaps	%xmm0, 480(%rsp)
	movups	1584(%rbx), %xmm0
	movaps	%xmm0, 464(%rsp)
	movups	1568(%rbx), %xmm0
	movaps	%xmm0, 448(%rsp)
	movups	1504(%rbx), %xmm0
	movups	1520(%rbx), %xmm1
	movups	1536(%rbx), %xmm2
	movups	1552(%rbx), %xmm3
	movaps	%xmm3, 432(%rsp)
	movaps	%xmm2, 416(%rsp)
	movaps	%xmm1, 400(%rsp)
	movaps	%xmm0, 384(%rsp)
	leaq	1280(%rsp), %rdi
	movl	$384, %edx
	xorl	%esi, %esi
	vj_c_call	memset
	leaq	768(%rsp), %rdi
	movq	%rsp, %rsi
	movl	$512, %edx
	vj_c_call	memcpy
	leaq	512(%rsp), %rdi
	movl	$256, %edx
	movq	%r14, %rsi
	vj_c_call	memcpy
	jmp	2f
1:
	leaq	512(%rsp), %rdi
	movl	$256, %edx
	movq	%r14, %rsi
	vj_c_call	memcpy
	leaq	768(%rsp), %rdi
	movl	$896, %edx
	xorl	%esi, %esi
	vj_c_call	memset
2:
	leaq	512(%rsp), %rsi
	movl	$256, %edx
	movq	%rbx, %rdi
	vj_c_call	memcpy
	movq	$0, 256(%rbx)
	movq	%r15, 264(%rbx)
	addq	$272, %rbx
	leaq	768(%rsp), %rsi
	movl	$896, %edx
	movq	%rbx, %rdi
	vj_c_call	memcpy
	addq	$1664, %rsp
	popq	%rbx
	popq	%r14
	popq	%r15
	retq
	vj_end	blake2_ffi..blake2bp..reset_in_frame_1_v2

	vj_function	blake2_digest..wiping..scrub_stack..1792_1_v2
	pushq	%rbx
	subq	$1792, %rsp
	movq	%rsp, %rbx
	movl	$1792, %edx
	movq	%rbx, %rdi
	xorl	%esi, %esi
	vj_c_call	memset
	movq	%rbx, %rdi
	callq	blake2_digest..wiping..settle..1792_1_v2
	addq	$1792, %rsp
	popq	%rbx
	retq
	vj_end	blake2_digest..wiping..scrub_stack..1792_1_v2

	vj_function	blake2_digest..wiping..settle..1792_1_v2
	movdqu	(%rdi), %xmm0
	movdqu	16(%rdi), %xmm1
	movdqu	32(%rdi), %xmm2
	por	%xmm0, %xmm2
	movdqu	48(%rdi), %xmm0
	por	%xmm1, %xmm0
	movdqu	64(%rdi), %xmm1
	movdqu	80(%rdi), %xmm3
	movdqu	96(%rdi), %xmm4
	por	%xmm1, %xmm4
	por	%xmm2, %xmm4
	movdqu	112(%rdi), %xmm1
	por	%xmm3, %xmm1
	por	%xmm0, %xmm1
	movdqu	128(%rdi), %xmm0
	movdqu	144(%rdi), %xmm2
	movdqu	160(%rdi), %xmm3
	por	%xmm0, %xmm3
	movdqu	176(%rdi), %xmm0
	por	%xmm2, %xmm0
	movdqu	192(%rdi), %xmm2
	por	%xmm3, %xmm2
	por	%xmm4, %xmm2
	movdqu	208(%rdi), %xmm3
	por	%xmm0, %xmm3
	por	%xmm1, %xmm3
	movdqu	224(%rdi), %xmm0
	movdqu	240(%rdi), %xmm1
	movdqu	256(%rdi), %xmm4
	por	%xmm0, %xmm4
	movdqu	272(%rdi), %xmm0
	por	%xmm1, %xmm0
	movdqu	288(%rdi), %xmm5
	por	%xmm4, %xmm5
	movdqu	304(%rdi), %xmm4
	por	%xmm0, %xmm4
	movdqu	320(%rdi), %xmm1
	por	%xmm5, %xmm1
	por	%xmm2, %xmm1
	movdqu	336(%rdi), %xmm2
	por	%xmm4, %xmm2
	por	%xmm3, %xmm2
	movdqu	352(%rdi), %xmm0
	movdqu	368(%rdi), %xmm3
	movdqu	384(%rdi), %xmm4
	por	%xmm0, %xmm4
	movdqu	400(%rdi), %xmm0
	por	%xmm3, %xmm0
	movdqu	416(%rdi), %xmm3
	por	%xmm4, %xmm3
	movdqu	432(%rdi), %xmm4
	por	%xmm0, %xmm4
	movdqu	448(%rdi), %xmm5
	por	%xmm3, %xmm5
	movdqu	464(%rdi), %xmm6
	por	%xmm4, %xmm6
	movdqu	480(%rdi), %xmm0
	por	%xmm5, %xmm0
	por	%xmm1, %xmm0
	movdqu	496(%rdi), %xmm3
	por	%xmm6, %xmm3
	por	%xmm2, %xmm3
	movdqu	512(%rdi), %xmm1
	movdqu	528(%rdi), %xmm2
	movdqu	544(%rdi), %xmm4
	por	%xmm1, %xmm4
	movdqu	560(%rdi), %xmm1
	por	%xmm2, %xmm1
	movdqu	576(%rdi), %xmm2
	por	%xmm4, %xmm2
	movdqu	592(%rdi), %xmm4
	por	%xmm1, %xmm4
	movdqu	608(%rdi), %xmm1
	por	%xmm2, %xmm1
	movdqu	624(%rdi), %xmm2
	por	%xmm4, %xmm2
	movdqu	640(%rdi), %xmm4
	por	%xmm1, %xmm4
	movdqu	656(%rdi), %xmm5
	por	%xmm2, %xmm5
	movdqu	672(%rdi), %xmm1
	por	%xmm4, %xmm1
	por	%xmm0, %xmm1
	movdqu	688(%rdi), %xmm2
	por	%xmm5, %xmm2
	por	%xmm3, %xmm2
	movdqu	704(%rdi), %xmm0
	movdqu	720(%rdi), %xmm3
	movdqu	736(%rdi), %xmm4
	por	%xmm0, %xmm4
	movdqu	752(%rdi), %xmm0
	por	%xmm3, %xmm0
	movdqu	768(%rdi), %xmm3
	por	%xmm4, %xmm3
	movdqu	784(%rdi), %xmm4
	por	%xmm0, %xmm4
	movdqu	800(%rdi), %xmm0
	por	%xmm3, %xmm0
	movdqu	816(%rdi), %xmm3
	por	%xmm4, %xmm3
	movdqu	832(%rdi), %xmm4
	por	%xmm0, %xmm4
	movdqu	848(%rdi), %xmm0
	por	%xmm3, %xmm0
	movdqu	864(%rdi), %xmm3
	por	%xmm4, %xmm3
	movdqu	880(%rdi), %xmm4
	por	%xmm0, %xmm4
	movdqu	896(%rdi), %xmm0
	por	%xmm3, %xmm0
	por	%xmm1, %xmm0
	movdqu	912(%rdi), %xmm3
	por	%xmm4, %xmm3
	por	%xmm2, %xmm3
	movdqu	928(%rdi), %xmm1
	movdqu	944(%rdi), %xmm2
	movdqu	960(%rdi), %xmm4
	por	%xmm1, %xmm4
	movdqu	976(%rdi), %xmm1
	por	%xmm2, %xmm1
	movdqu	992(%rdi), %xmm2
	por	%xmm4, %xmm2
	movdqu	1008(%rdi), %xmm4
	por	%xmm1, %xmm4
	movdqu	1024(%rdi), %xmm1
	por	%xmm2, %xmm1
	movdqu	1040(%rdi), %xmm2
	por	%xmm4, %xmm2
	movdqu	1056(%rdi), %xmm4
	por	%xmm1, %xmm4
	movdqu	1072(%rdi), %xmm1
	por	%xmm2, %xmm1
	movdqu	1088(%rdi), %xmm2
	por	%xmm4, %xmm2
	movdqu	1104(%rdi), %xmm4
	por	%xmm1, %xmm4
	movdqu	1120(%rdi), %xmm5
	por	%xmm2, %xmm5
	movdqu	1136(%rdi), %xmm6
	por	%xmm4, %xmm6
	movdqu	1152(%rdi), %xmm1
	por	%xmm5, %xmm1
	por	%xmm0, %xmm1
	movdqu	1168(%rdi), %xmm2
	por	%xmm6, %xmm2
	por	%xmm3, %xmm2
	movdqu	1184(%rdi), %xmm0
	movdqu	1200(%rdi), %xmm3
	movdqu	1216(%rdi), %xmm4
	por	%xmm0, %xmm4
	movdqu	1232(%rdi), %xmm0
	por	%xmm3, %xmm0
	movdqu	1248(%rdi), %xmm3
	por	%xmm4, %xmm3
	movdqu	1264(%rdi), %xmm4
	por	%xmm0, %xmm4
	movdqu	1280(%rdi), %xmm0
	por	%xmm3, %xmm0
	movdqu	1296(%rdi), %xmm3
	por	%xmm4, %xmm3
	movdqu	1312(%rdi), %xmm4
	por	%xmm0, %xmm4
	movdqu	1328(%rdi), %xmm0
	por	%xmm3, %xmm0
	movdqu	1344(%rdi), %xmm3
	por	%xmm4, %xmm3
	movdqu	1360(%rdi), %xmm4
	por	%xmm0, %xmm4
	movdqu	1376(%rdi), %xmm0
	por	%xmm3, %xmm0
	movdqu	1392(%rdi), %xmm3
	por	%xmm4, %xmm3
	movdqu	1408(%rdi), %xmm4
	por	%xmm0, %xmm4
	movdqu	1424(%rdi), %xmm5
	por	%xmm3, %xmm5
	movdqu	1440(%rdi), %xmm0
	por	%xmm4, %xmm0
	por	%xmm1, %xmm0
	movdqu	1456(%rdi), %xmm1
	por	%xmm5, %xmm1
	por	%xmm2, %xmm1
	movdqu	1472(%rdi), %xmm2
	movdqu	1488(%rdi), %xmm3
	movdqu	1504(%rdi), %xmm4
	por	%xmm2, %xmm4
	movdqu	1520(%rdi), %xmm2
	por	%xmm3, %xmm2
	movdqu	1536(%rdi), %xmm3
	por	%xmm4, %xmm3
	movdqu	1552(%rdi), %xmm4
	por	%xmm2, %xmm4
	movdqu	1568(%rdi), %xmm2
	por	%xmm3, %xmm2
	movdqu	1584(%rdi), %xmm3
	por	%xmm4, %xmm3
	movdqu	1600(%rdi), %xmm4
	por	%xmm2, %xmm4
	movdqu	1616(%rdi), %xmm2
	por	%xmm3, %xmm2
	movdqu	1632(%rdi), %xmm3
	por	%xmm4, %xmm3
	movdqu	1648(%rdi), %xmm4
	por	%xmm2, %xmm4
	movdqu	1664(%rdi), %xmm2
	por	%xmm3, %xmm2
	movdqu	1680(%rdi), %xmm3
	por	%xmm4, %xmm3
	movdqu	1696(%rdi), %xmm4
	por	%xmm2, %xmm4
	movdqu	1712(%rdi), %xmm2
	por	%xmm3, %xmm2
	movdqu	1728(%rdi), %xmm3
	por	%xmm4, %xmm3
	movdqu	1744(%rdi), %xmm4
	por	%xmm2, %xmm4
	movdqu	1760(%rdi), %xmm2
	por	%xmm3, %xmm2
	por	%xmm0, %xmm2
	movdqu	1776(%rdi), %xmm0
	por	%xmm4, %xmm0
	por	%xmm1, %xmm0
	por	%xmm2, %xmm0
	ptest	%xmm0, %xmm0
	je	1f
	pause
1:
	retq
	vj_end	blake2_digest..wiping..settle..1792_1_v2

	vj_function	blake2_ffi..blake2bp..update_scrubbed_1_v2
	pushq	%rax
	callq	blake2_ffi..blake2bp..update_in_frame_1_v2
	popq	%rax
	jmp	blake2_digest..wiping..scrub_stack..3072_1_v2
	vj_end	blake2_ffi..blake2bp..update_scrubbed_1_v2

	vj_function	blake2_ffi..blake2bp..update_in_frame_1_v2
	vj_jump	blake2_parallel..lanes..blake2bp..Lanes..update_1_v2
	vj_end	blake2_ffi..blake2bp..update_in_frame_1_v2

	vj_function	blake2_digest..wiping..scrub_stack..3072_1_v2
	pushq	%rbx
	subq	$3072, %rsp
	movq	%rsp, %rbx
	movl	$3072, %edx
	movq	%rbx, %rdi
	xorl	%esi, %esi
	vj_c_call	memset
	movq	%rbx, %rdi
	callq	blake2_digest..wiping..settle..3072_1_v2
	addq	$3072, %rsp
	popq	%rbx
	retq
	vj_end	blake2_digest..wiping..scrub_stack..3072_1_v2

	vj_function	blake2_digest..wiping..settle..3072_1_v2
	pxor	%xmm0, %xmm0
	movl	$112, %eax
	pxor	%xmm1, %xmm1
	.p2align	4
1:
	movdqu	-112(%rdi,%rax), %xmm2
	por	%xmm1, %xmm2
	movdqu	-96(%rdi,%rax), %xmm1
	por	%xmm0, %xmm1
	movdqu	-80(%rdi,%rax), %xmm0
	movdqu	-64(%rdi,%rax), %xmm3
	movdqu	-48(%rdi,%rax), %xmm4
	por	%xmm0, %xmm4
	por	%xmm2, %xmm4
	movdqu	-32(%rdi,%rax), %xmm2
	por	%xmm3, %xmm2
	por	%xmm1, %xmm2
	movdqu	-16(%rdi,%rax), %xmm1
	por	%xmm4, %xmm1
	movdqu	(%rdi,%rax), %xmm0
	por	%xmm2, %xmm0
	subq	$-128, %rax
	cmpq	$3184, %rax
	jne	1b
	por	%xmm1, %xmm0
	ptest	%xmm0, %xmm0
	je	2f
	pause
2:
	retq
	vj_end	blake2_digest..wiping..settle..3072_1_v2

	vj_shared	blake2_parallel..lanes..blake2bp..Lanes..update_1_v2
	pushq	%rbp
	pushq	%r15
	pushq	%r14
	pushq	%r13
	pushq	%r12
	pushq	%rbx
	subq	$264, %rsp
	movq	%rdx, %rbx
	movq	%rsi, %r15
	movq	%rdi, %r14
	movq	264(%rdi), %r13
	movl	$896, %eax
	subq	%r13, %rax
	cmpq	%rdx, %rax
	jb	11f
1:
	leaq	(%r14,%r13), %rdi
	addq	$272, %rdi
	movq	%rdi, %rax
	subq	%r15, %rax
	cmpq	%rbx, %rax
	jae	20f
	cmpq	$4, %rbx
	jb	2f
	leaq	(%r14,%r13), %rax
	subq	%r15, %rax
	addq	$272, %rax
	cmpq	$32, %rax
	jae	22f
2:
	xorl	%eax, %eax
3:
	movq	%rbx, %rdx
	movq	%rax, %rcx
	andq	$3, %rdx
	je	5f
	movq	%rax, %rcx
	.p2align	4
4:
	movzbl	(%r15,%rcx), %esi
	movb	%sil, (%rdi,%rcx)
	incq	%rcx
	decq	%rdx
	jne	4b
5:
	subq	%rbx, %rax
	cmpq	$-4, %rax
	ja	21f
	leaq	(%r14,%r13), %rax
	addq	$275, %rax
	.p2align	4
6:
	movzbl	(%r15,%rcx), %edx
	movb	%dl, -3(%rax,%rcx)
	movzbl	1(%r15,%rcx), %edx
	movb	%dl, -2(%rax,%rcx)
	movzbl	2(%r15,%rcx), %edx
	movb	%dl, -1(%rax,%rcx)
	movzbl	3(%r15,%rcx), %edx
	movb	%dl, (%rax,%rcx)
	addq	$4, %rcx
	cmpq	%rcx, %rbx
	jne	6b
	jmp	21f
7:
	movq	%r15, %rsi
	movq	%r12, %rdx
	vj_c_call	memmove
8:
	subq	%r12, %rbx
	addq	%r12, %r15
	movq	$512, 264(%r14)
9:
	movq	%r14, %rdi
	callq	blake2_parallel..lanes..blake2bp..Lanes..compress_held_1_v2
10:
	movq	264(%r14), %r13
	movl	$896, %eax
	subq	%r13, %rax
	cmpq	%rbx, %rax
	jae	1b
11:
	testq	%r13, %r13
	je	12f
	cmpq	$511, %r13
	ja	9b
	movl	$512, %r12d
	subq	%r13, %r12
	leaq	272(%r14), %rax
	leaq	(%rax,%r13), %rdi
	movq	%rdi, %rax
	subq	%r15, %rax
	cmpq	%r12, %rax
	jae	7b
	cmpq	$508, %r13
	jbe	13f
	xorl	%eax, %eax
	jmp	19f
	.p2align	4
12:
	leaq	-385(%rbx), %rbp
	movq	%rbp, %r12
	shrq	$9, %r12
	movups	(%r14), %xmm0
	movups	16(%r14), %xmm1
	movups	32(%r14), %xmm2
	movups	48(%r14), %xmm3
	movups	80(%r14), %xmm4
	movups	64(%r14), %xmm5
	movups	112(%r14), %xmm6
	movups	96(%r14), %xmm7
	movups	144(%r14), %xmm8
	movups	128(%r14), %xmm9
	movups	176(%r14), %xmm10
	movups	160(%r14), %xmm11
	movups	208(%r14), %xmm12
	movups	192(%r14), %xmm13
	movups	224(%r14), %xmm14
	movups	240(%r14), %xmm15
	movaps	%xmm0, (%rsp)
	movaps	%xmm1, 16(%rsp)
	movaps	%xmm2, 32(%rsp)
	movaps	%xmm3, 48(%rsp)
	movaps	%xmm5, 64(%rsp)
	movaps	%xmm4, 80(%rsp)
	movaps	%xmm7, 96(%rsp)
	movaps	%xmm6, 112(%rsp)
	movaps	%xmm9, 128(%rsp)
	movaps	%xmm8, 144(%rsp)
	movaps	%xmm11, 160(%rsp)
	movaps	%xmm10, 176(%rsp)
	movaps	%xmm13, 192(%rsp)
	movaps	%xmm12, 208(%rsp)
	movaps	%xmm15, 240(%rsp)
	movaps	%xmm14, 224(%rsp)
	movq	256(%r14), %r13
	movq	%rsp, %rdi
	movq	%r15, %rsi
	movq	%r13, %rdx
	movq	%r12, %rcx
	callq	blake2_parallel..lanes..blake2bp..compress_by_leaf_1_v2
	movaps	(%rsp), %xmm0
	movups	%xmm0, (%r14)
	movaps	16(%rsp), %xmm0
	movups	%xmm0, 16(%r14)
	movaps	32(%rsp), %xmm0
	movups	%xmm0, 32(%r14)
	movaps	48(%rsp), %xmm0
	movups	%xmm0, 48(%r14)
	movaps	64(%rsp), %xmm0
	movups	%xmm0, 64(%r14)
	movaps	80(%rsp), %xmm0
	movups	%xmm0, 80(%r14)
	movaps	96(%rsp), %xmm0
	movups	%xmm0, 96(%r14)
	movaps	112(%rsp), %xmm0
	movups	%xmm0, 112(%r14)
	movaps	128(%rsp), %xmm0
	movups	%xmm0, 128(%r14)
	movaps	144(%rsp), %xmm0
	movups	%xmm0, 144(%r14)
	movaps	160(%rsp), %xmm0
	movups	%xmm0, 160(%r14)
	movaps	176(%rsp), %xmm0
	movups	%xmm0, 176(%r14)
	movaps	192(%rsp), %xmm0
	movups	%xmm0, 192(%r14)
	movaps	208(%rsp), %xmm0
	movups	%xmm0, 208(%r14)
	movaps	224(%rsp), %xmm0
	movups	%xmm0, 224(%r14)
	movaps	240(%rsp), %xmm0
	movups	%xmm0, 240(%r14)
	shlq	$7, %r12
	addq	%r13, %r12
	movq	%r12, 256(%r14)
	andq	$-512, %rbp
	addq	%rbp, %r15
	subq	%rbp, %rbx
	jmp	10b
13:
	cmpq	$32, %rax
	jae	14f
	xorl	%eax, %eax
	jmp	19f
14:
	cmpq	$480, %r13
	jbe	15f
	xorl	%eax, %eax
	jmp	17f
15:
	movl	%r12d, %eax
	andl	$-32, %eax
	leaq	288(%r14), %rcx
	addq	%rcx, %r13
	xorl	%ecx, %ecx
	.p2align	4
16:
	movups	(%r15,%rcx), %xmm0
	movups	16(%r15,%rcx), %xmm1
	movups	%xmm0, -16(%r13,%rcx)
	movups	%xmm1, (%r13,%rcx)
	addq	$32, %rcx
	cmpq	%rcx, %rax
	jne	16b
	cmpl	%eax, %r12d
	je	8b
	testb	$28, %r12b
	je	19f
17:
	movq	%rax, %rcx
	movl	%r12d, %eax
	andl	$-4, %eax
	.p2align	4
18:
	movl	(%r15,%rcx), %edx
	movl	%edx, (%rdi,%rcx)
	addq	$4, %rcx
	cmpq	%rcx, %rax
	jne	18b
	cmpl	%eax, %r12d
	je	8b
	.p2align	4
19:
	movzbl	(%r15,%rax), %ecx
	movb	%cl, (%rdi,%rax)
	incq	%rax
	cmpq	%rax, %r12
	jne	19b
	jmp	8b
20:
	movq	%r15, %rsi
	movq	%rbx, %rdx
	vj_c_call	memmove
21:
	addq	%rbx, %r13
	movq	%r13, 264(%r14)
	addq	$264, %rsp
	popq	%rbx
	popq	%r12
	popq	%r13
	popq	%r14
	popq	%r15
	popq	%rbp
	retq
22:
	cmpq	$32, %rbx
	jae	23f
	xorl	%eax, %eax
	jmp	25f
23:
	movq	%rbx, %rax
	andq	$-32, %rax
	leaq	(%r14,%r13), %rcx
	addq	$288, %rcx
	xorl	%edx, %edx
	.p2align	4
24:
	movups	(%r15,%rdx), %xmm0
	movups	16(%r15,%rdx), %xmm1
	movups	%xmm0, -16(%rcx,%rdx)
	movups	%xmm1, (%rcx,%rdx)
	addq	$32, %rdx
	cmpq	%rdx, %rax
	jne	24b
	cmpq	%rax, %rbx
	je	21b
	testb	$28, %bl
	je	3b
25:
	movq	%rax, %rcx
	movq	%rbx, %rax
	andq	$-4, %rax
	.p2align	4
26:
	movl	(%r15,%rcx), %edx
	movl	%edx, (%rdi,%rcx)
	addq	$4, %rcx
	cmpq	%rcx, %rax
	jne	26b
	cmpq	%rax, %rbx
	je	21b
	jmp	3b
	vj_end	blake2_parallel..lanes..blake2bp..Lanes..update_1_v2

	vj_function	blake2_parallel..lanes..blake2bp..compress_by_leaf_1_v2
	pushq	%rbp
	pushq	%r15
	pushq	%r14
	pushq	%r13
	pushq	%r12
	pushq	%rbx
	subq	$456, %rsp
	movq	%rcx, %rbx
	movq	%rdx, %r15
	movq	%rsi, %r12
	movups	(%rdi), %xmm2
	movups	16(%rdi), %xmm12
	movups	32(%rdi), %xmm5
	movups	48(%rdi), %xmm0
	movaps	%xmm0, 432(%rsp)
	movups	64(%rdi), %xmm0
	movups	80(%rdi), %xmm10
	movups	96(%rdi), %xmm1
	movups	112(%rdi), %xmm3
	movaps	%xmm3, 416(%rsp)
	movaps	%xmm2, %xmm6
	movlhps	%xmm5, %xmm6
	unpckhpd	%xmm5, %xmm2
	movaps	%xmm2, 304(%rsp)
	movaps	%xmm0, %xmm7
	movlhps	%xmm1, %xmm7
	movaps	%xmm0, %xmm2
	unpckhpd	%xmm1, %xmm2
	movaps	%xmm2, 288(%rsp)
	movups	128(%rdi), %xmm11
	movups	160(%rdi), %xmm3
	movups	192(%rdi), %xmm1
	movq	224(%rdi), %rax
	movups	224(%rdi), %xmm2
	movaps	%xmm1, %xmm8
	movlhps	%xmm2, %xmm8
	movaps	%xmm1, %xmm4
	unpckhpd	%xmm2, %xmm4
	movaps	%xmm3, %xmm2
	movaps	%xmm11, %xmm9
	movlhps	%xmm3, %xmm9
	unpckhpd	%xmm3, %xmm11
	movaps	%xmm11, 320(%rsp)
	movups	144(%rdi), %xmm13
	movups	176(%rdi), %xmm3
	movups	208(%rdi), %xmm11
	movq	%rdi, 344(%rsp)
	movups	240(%rdi), %xmm14
	movaps	%xmm14, 400(%rsp)
	movaps	%xmm7, 16(%rsp)
	movaps	%xmm6, (%rsp)
	movaps	%xmm8, 48(%rsp)
	movaps	%xmm9, 32(%rsp)
	testq	%rcx, %rcx
	movaps	%xmm10, 144(%rsp)
	movaps	%xmm12, 128(%rsp)
	movaps	%xmm11, 112(%rsp)
	movaps	%xmm13, 96(%rsp)
	movaps	%xmm3, 384(%rsp)
	je	2f
	movaps	%xmm4, 272(%rsp)
	leaq	128(%r15), %r13
	movq	%rbx, %r14
	movq	%r12, %rbp
	.p2align	4
1:
	movq	%rsp, %rdi
	movq	%rbp, %rsi
	movq	%r13, %rdx
	xorl	%ecx, %ecx
	xorl	%r8d, %r8d
	vj_call	blake2_compress..compress..blake2b..compress_1_v2
	addq	$512, %rbp
	subq	$-128, %r13
	decq	%r14
	jne	1b
	movaps	(%rsp), %xmm6
	movups	8(%rsp), %xmm5
	movaps	16(%rsp), %xmm7
	movaps	32(%rsp), %xmm9
	movups	40(%rsp), %xmm0
	movaps	%xmm0, 368(%rsp)
	movaps	48(%rsp), %xmm0
	movaps	%xmm0, 352(%rsp)
	movq	56(%rsp), %rax
	movq	%rax, 88(%rsp)
	movaps	272(%rsp), %xmm4
	movaps	144(%rsp), %xmm10
	movaps	128(%rsp), %xmm12
	movaps	112(%rsp), %xmm11
	movaps	96(%rsp), %xmm13
	movaps	384(%rsp), %xmm3
	jmp	3f
2:
	movaps	%xmm8, 352(%rsp)
	movq	%rax, 88(%rsp)
	movlhps	%xmm0, %xmm5
	movlhps	%xmm1, %xmm2
	movaps	%xmm2, 368(%rsp)
3:
	movaps	%xmm12, %xmm2
	unpcklpd	432(%rsp), %xmm2
	movaps	%xmm10, %xmm1
	unpcklpd	416(%rsp), %xmm1
	movaps	%xmm13, %xmm15
	movlhps	%xmm3, %xmm15
	movaps	%xmm11, %xmm14
	unpcklpd	400(%rsp), %xmm14
	movq	24(%rsp), %rax
	movq	%rax, 336(%rsp)
	movaps	288(%rsp), %xmm0
	movups	%xmm0, 16(%rsp)
	movaps	304(%rsp), %xmm0
	movups	%xmm0, (%rsp)
	movups	%xmm4, 48(%rsp)
	movaps	320(%rsp), %xmm0
	movups	%xmm0, 32(%rsp)
	testq	%rbx, %rbx
	movaps	%xmm5, 240(%rsp)
	movaps	%xmm6, 224(%rsp)
	movaps	%xmm7, 208(%rsp)
	movaps	%xmm9, 192(%rsp)
	je	5f
	movaps	%xmm2, 64(%rsp)
	movaps	%xmm1, 256(%rsp)
	movaps	%xmm15, 160(%rsp)
	movaps	%xmm14, 176(%rsp)
	leaq	128(%r12), %r13
	leaq	128(%r15), %rbp
	movq	%rbx, %r14
	.p2align	4
4:
	movq	%rsp, %rdi
	movq	%r13, %rsi
	movq	%rbp, %rdx
	xorl	%ecx, %ecx
	xorl	%r8d, %r8d
	vj_call	blake2_compress..compress..blake2b..compress_1_v2
	addq	$512, %r13
	subq	$-128, %rbp
	decq	%r14
	jne	4b
	movups	(%rsp), %xmm0
	movaps	%xmm0, 304(%rsp)
	movups	16(%rsp), %xmm0
	movaps	%xmm0, 288(%rsp)
	movups	32(%rsp), %xmm0
	movaps	%xmm0, 320(%rsp)
	movups	48(%rsp), %xmm4
	movaps	240(%rsp), %xmm5
	movaps	224(%rsp), %xmm6
	movaps	208(%rsp), %xmm7
	movaps	192(%rsp), %xmm9
	movaps	144(%rsp), %xmm10
	movaps	128(%rsp), %xmm12
	movaps	112(%rsp), %xmm11
	movaps	96(%rsp), %xmm13
	movaps	176(%rsp), %xmm14
	movaps	160(%rsp), %xmm15
	movaps	256(%rsp), %xmm1
	movaps	64(%rsp), %xmm2
	movaps	384(%rsp), %xmm3
5:
	movaps	%xmm4, 272(%rsp)
	unpckhpd	432(%rsp), %xmm12
	unpckhpd	416(%rsp), %xmm10
	unpckhpd	%xmm3, %xmm13
	unpckhpd	400(%rsp), %xmm11
	movups	%xmm1, 16(%rsp)
	movups	%xmm2, (%rsp)
	movups	%xmm14, 48(%rsp)
	movups	%xmm15, 32(%rsp)
	testq	%rbx, %rbx
	je	7f
	movaps	%xmm13, 96(%rsp)
	movaps	%xmm11, 112(%rsp)
	movaps	%xmm12, 128(%rsp)
	movaps	%xmm10, 144(%rsp)
	leaq	256(%r12), %r13
	leaq	128(%r15), %rbp
	movq	%rbx, %r14
	.p2align	4
6:
	movq	%rsp, %rdi
	movq	%r13, %rsi
	movq	%rbp, %rdx
	xorl	%ecx, %ecx
	xorl	%r8d, %r8d
	vj_call	blake2_compress..compress..blake2b..compress_1_v2
	addq	$512, %r13
	subq	$-128, %rbp
	decq	%r14
	jne	6b
	movups	(%rsp), %xmm2
	movups	16(%rsp), %xmm1
	movups	32(%rsp), %xmm15
	movups	48(%rsp), %xmm14
	movaps	240(%rsp), %xmm5
	movaps	224(%rsp), %xmm6
	movaps	208(%rsp), %xmm7
	movaps	192(%rsp), %xmm9
	movaps	144(%rsp), %xmm10
	movaps	128(%rsp), %xmm12
	movaps	112(%rsp), %xmm11
	movaps	96(%rsp), %xmm13
7:
	movaps	%xmm1, 256(%rsp)
	movups	%xmm10, 16(%rsp)
	movups	%xmm12, (%rsp)
	movups	%xmm11, 48(%rsp)
	movups	%xmm13, 32(%rsp)
	testq	%rbx, %rbx
	je	9f
	movaps	%xmm2, 64(%rsp)
	movaps	%xmm15, 160(%rsp)
	movaps	%xmm14, 176(%rsp)
	addq	$384, %r12
	subq	$-128, %r15
	.p2align	4
8:
	movq	%rsp, %rdi
	movq	%r12, %rsi
	movq	%r15, %rdx
	xorl	%ecx, %ecx
	xorl	%r8d, %r8d
	vj_call	blake2_compress..compress..blake2b..compress_1_v2
	addq	$512, %r12
	subq	$-128, %r15
	decq	%rbx
	jne	8b
	movups	(%rsp), %xmm12
	movups	16(%rsp), %xmm10
	movups	32(%rsp), %xmm13
	movups	48(%rsp), %xmm11
	movaps	240(%rsp), %xmm5
	movaps	224(%rsp), %xmm6
	movaps	208(%rsp), %xmm7
	movaps	192(%rsp), %xmm9
	movaps	176(%rsp), %xmm14
	movaps	160(%rsp), %xmm15
	movaps	64(%rsp), %xmm2
9:
	movaps	304(%rsp), %xmm0
	movlhps	%xmm0, %xmm6
	blendps	$12, %xmm0, %xmm5
	movaps	%xmm2, %xmm0
	movlhps	%xmm12, %xmm0
	unpckhpd	%xmm12, %xmm2
	movaps	%xmm2, 64(%rsp)
	movaps	288(%rsp), %xmm2
	movlhps	%xmm2, %xmm7
	movsd	336(%rsp), %xmm1
	blendps	$12, %xmm2, %xmm1
	movaps	256(%rsp), %xmm12
	movaps	%xmm12, %xmm2
	movlhps	%xmm10, %xmm2
	unpckhpd	%xmm10, %xmm12
	movaps	320(%rsp), %xmm3
	movlhps	%xmm3, %xmm9
	movaps	368(%rsp), %xmm8
	blendps	$12, %xmm3, %xmm8
	movaps	%xmm15, %xmm3
	movlhps	%xmm13, %xmm3
	unpckhpd	%xmm13, %xmm15
	movaps	%xmm14, %xmm4
	movlhps	%xmm11, %xmm4
	unpckhpd	%xmm11, %xmm14
	movq	344(%rsp), %rax
	movups	%xmm0, 16(%rax)
	movups	%xmm6, (%rax)
	movaps	64(%rsp), %xmm0
	movups	%xmm0, 48(%rax)
	movups	%xmm5, 32(%rax)
	movups	%xmm2, 80(%rax)
	movups	%xmm7, 64(%rax)
	movups	%xmm12, 112(%rax)
	movups	%xmm1, 96(%rax)
	movups	%xmm3, 144(%rax)
	movups	%xmm9, 128(%rax)
	movups	%xmm15, 176(%rax)
	movups	%xmm8, 160(%rax)
	movups	%xmm4, 208(%rax)
	movdqa	272(%rsp), %xmm0
	movdqa	352(%rsp), %xmm1
	punpcklqdq	%xmm0, %xmm1
	movdqu	%xmm1, 192(%rax)
	movups	%xmm14, 240(%rax)
	pinsrq	$0, 88(%rsp), %xmm0
	movdqu	%xmm0, 224(%rax)
	addq	$456, %rsp
	popq	%rbx
	popq	%r12
	popq	%r13
	popq	%r14
	popq	%r15
	popq	%rbp
	retq
	vj_end	blake2_parallel..lanes..blake2bp..compress_by_leaf_1_v2

	vj_function	blake2_parallel..lanes..blake2bp..Lanes..compress_held_1_v2
	pushq	%rbp
	pushq	%r15
	pushq	%r14
	pushq	%r13
	pushq	%r12
	pushq	%rbx
	subq	$1160, %rsp
	movq	%rdi, %rbx
	movups	(%rdi), %xmm0
	movups	16(%rdi), %xmm1
	movups	32(%rdi), %xmm2
	movups	48(%rdi), %xmm3
	movups	80(%rdi), %xmm4
	movups	64(%rdi), %xmm5
	movups	112(%rdi), %xmm6
	movups	96(%rdi), %xmm7
	movups	144(%rdi), %xmm8
	movups	128(%rdi), %xmm9
	movups	176(%rdi), %xmm10
	movups	160(%rdi), %xmm11
	movups	208(%rdi), %xmm12
	movups	192(%rdi), %xmm13
	movups	224(%rdi), %xmm14
	movups	240(%rdi), %xmm15
	movaps	%xmm0, (%rsp)
	movaps	%xmm1, 16(%rsp)
	movaps	%xmm2, 32(%rsp)
	movaps	%xmm3, 48(%rsp)
	movaps	%xmm5, 64(%rsp)
	movaps	%xmm4, 80(%rsp)
	movaps	%xmm7, 96(%rsp)
	movaps	%xmm6, 112(%rsp)
	movaps	%xmm9, 128(%rsp)
	movaps	%xmm8, 144(%rsp)
	movaps	%xmm11, 160(%rsp)
	movaps	%xmm10, 176(%rsp)
	movaps	%xmm13, 192(%rsp)
	movaps	%xmm12, 208(%rsp)
	movaps	%xmm15, 240(%rsp)
	movaps	%xmm14, 224(%rsp)
	movq	256(%rdi), %r15
	leaq	272(%rdi), %r14
	movq	%rsp, %rdi
	movl	$1, %ecx
	movq	%r14, %rsi
	movq	%r15, %rdx
	callq	blake2_parallel..lanes..blake2bp..compress_by_leaf_1_v2
	leaq	784(%rbx), %rbp
	movq	$-512, %r12
	addq	264(%rbx), %r12
	leaq	264(%rsp), %r13
	movl	$896, %edx
	movq	%r13, %rdi
	xorl	%esi, %esi
	vj_c_call	memset
	movq	%r13, %rdi
	movq	%rbp, %rsi
	movq	%r12, %rdx
	vj_c_call	memcpy
	movaps	(%rsp), %xmm0
	movups	%xmm0, (%rbx)
	movaps	16(%rsp), %xmm0
	movups	%xmm0, 16(%rbx)
	movaps	32(%rsp), %xmm0
	movups	%xmm0, 32(%rbx)
	movaps	48(%rsp), %xmm0
	movups	%xmm0, 48(%rbx)
	movaps	64(%rsp), %xmm0
	movups	%xmm0, 64(%rbx)
	movaps	80(%rsp), %xmm0
	movups	%xmm0, 80(%rbx)
	movaps	96(%rsp), %xmm0
	movups	%xmm0, 96(%rbx)
	movaps	112(%rsp), %xmm0
	movups	%xmm0, 112(%rbx)
	movaps	128(%rsp), %xmm0
	movups	%xmm0, 128(%rbx)
	movaps	144(%rsp), %xmm0
	movups	%xmm0, 144(%rbx)
	movaps	160(%rsp), %xmm0
	movups	%xmm0, 160(%rbx)
	movaps	176(%rsp), %xmm0
	movups	%xmm0, 176(%rbx)
	movaps	192(%rsp), %xmm0
	movups	%xmm0, 192(%rbx)
	movaps	208(%rsp), %xmm0
	movups	%xmm0, 208(%rbx)
	movaps	224(%rsp), %xmm0
	movups	%xmm0, 224(%rbx)
	movaps	240(%rsp), %xmm0
	movups	%xmm0, 240(%rbx)
	subq	$-128, %r15
	movq	%r15, 256(%rbx)
	movl	$896, %edx
	movq	%r14, %rdi
	movq	%r13, %rsi
	vj_c_call	memcpy
	movq	%r12, 264(%rbx)
	addq	$1160, %rsp
	popq	%rbx
	popq	%r12
	popq	%r13
	popq	%r14
	popq	%r15
	popq	%rbp
	retq
	vj_end	blake2_parallel..lanes..blake2bp..Lanes..compress_held_1_v2

	vj_function	blake2_ffi..blake2bp..is_digest_of_1_v2
	pushq	%rbp
	pushq	%r15
	pushq	%r14
	pushq	%r13
	pushq	%r12
	pushq	%rbx
	subq	$392, %rsp
	movq	%rdx, %rbx
	movq	%rsi, %r14
	movq	%rdi, %r15
	xorps	%xmm0, %xmm0
	movaps	%xmm0, 48(%rsp)
	movaps	%xmm0, 32(%rsp)
	movaps	%xmm0, 16(%rsp)
	movaps	%xmm0, (%rsp)
	leaq	136(%rsp), %r12
	movq	%r12, %rdi
	movq	%r15, %rsi
	vj_call	blake2_parallel..lanes..blake2bp..Lanes..outputs_1_v2
	movups	1424(%r15), %xmm0
	movups	1440(%r15), %xmm1
	movups	1456(%r15), %xmm2
	movups	1472(%r15), %xmm3
	movups	%xmm1, 88(%rsp)
	movups	%xmm0, 72(%rsp)
	movups	%xmm3, 120(%rsp)
	movups	%xmm2, 104(%rsp)
	leaq	72(%rsp), %r13
	xorl	%ebp, %ebp
	movl	$128, %edx
	movq	%r13, %rdi
	movq	%r12, %rsi
	xorl	%ecx, %ecx
	xorl	%r8d, %r8d
	vj_call	blake2_compress..compress..blake2b..compress_1_v2
	movl	$256, %edx
	movq	%r13, %rdi
	leaq	264(%rsp), %rsi
	movl	$1, %ecx
	movl	$1, %r8d
	vj_call	blake2_compress..compress..blake2b..compress_1_v2
	movdqu	72(%rsp), %xmm0
	movdqu	88(%rsp), %xmm1
	movdqu	104(%rsp), %xmm2
	movdqu	120(%rsp), %xmm3
	movdqa	%xmm0, (%rsp)
	movdqa	%xmm1, 16(%rsp)
	movdqa	%xmm2, 32(%rsp)
	movdqa	%xmm3, 48(%rsp)
	cmpq	1496(%r15), %rbx
	jne	10f
	testq	%rbx, %rbx
	je	1f
	cmpq	$4, %rbx
	jae	2f
	xorl	%ecx, %ecx
	xorl	%eax, %eax
	jmp	7f
1:
	movb	$1, %bpl
	jmp	10f
2:
	cmpq	$32, %rbx
	jae	3f
	xorl	%eax, %eax
	xorl	%ecx, %ecx
	jmp	5f
3:
	movq	%rbx, %rax
	andq	$-32, %rax
	pxor	%xmm0, %xmm0
	xorl	%ecx, %ecx
	pxor	%xmm1, %xmm1
	.p2align	4
4:
	movdqu	(%r14,%rcx), %xmm2
	movdqu	16(%r14,%rcx), %xmm3
	pxor	(%rsp,%rcx), %xmm2
	pxor	16(%rsp,%rcx), %xmm3
	por	%xmm2, %xmm1
	por	%xmm3, %xmm0
	addq	$32, %rcx
	cmpq	%rcx, %rax
	jne	4b
	por	%xmm1, %xmm0
	pshufd	$238, %xmm0, %xmm1
	por	%xmm0, %xmm1
	pshufd	$85, %xmm1, %xmm0
	por	%xmm1, %xmm0
	movdqa	%xmm0, %xmm1
	psrld	$16, %xmm1
	por	%xmm0, %xmm1
	movdqa	%xmm1, %xmm0
	psrlw	$8, %xmm0
	por	%xmm1, %xmm0
	movd	%xmm0, %ecx
	cmpq	%rax, %rbx
	je	9f
	testb	$28, %bl
	je	7f
5:
	movq	%rax, %rdx
	movq	%rbx, %rax
	andq	$-4, %rax
	movzbl	%cl, %ecx
	movd	%ecx, %xmm0
	.p2align	4
6:
	movl	(%rsp,%rdx), %ecx
	xorl	(%r14,%rdx), %ecx
	movd	%ecx, %xmm1
	por	%xmm1, %xmm0
	addq	$4, %rdx
	cmpq	%rdx, %rax
	jne	6b
	movdqa	%xmm0, %xmm1
	psrld	$16, %xmm1
	por	%xmm0, %xmm1
	movdqa	%xmm1, %xmm0
	psrlw	$8, %xmm0
	por	%xmm1, %xmm0
	movd	%xmm0, %ecx
	jmp	8f
7:
	movzbl	(%rsp,%rax), %edx
	xorb	(%r14,%rax), %dl
	orb	%dl, %cl
	incq	%rax
8:
	cmpq	%rax, %rbx
	jne	7b
9:
	testb	%cl, %cl
	sete	%bpl
10:
	movl	%ebp, %eax
	addq	$392, %rsp
	popq	%rbx
	popq	%r12
	popq	%r13
	popq	%r14
	popq	%r15
	popq	%rbp
	retq
	vj_end	blake2_ffi..blake2bp..is_digest_of_1_v2

	vj_function	blake2_ffi..blake2s..finalize_1_v2
	pushq	%rbx
	movq	%rdi, %rbx
	callq	blake2_state..blake2s..State..write_digest_1_v2
	xorps	%xmm0, %xmm0
	movups	%xmm0, 160(%rbx)
	movups	%xmm0, 144(%rbx)
	movups	%xmm0, 128(%rbx)
	movups	%xmm0, 112(%rbx)
	movups	%xmm0, 96(%rbx)
	movups	%xmm0, 80(%rbx)
	movups	%xmm0, 64(%rbx)
	movups	%xmm0, 48(%rbx)
	movups	%xmm0, 32(%rbx)
	movups	%xmm0, 16(%rbx)
	movups	%xmm0, (%rbx)
	popq	%rbx
	retq
	vj_end	blake2_ffi..blake2s..finalize_1_v2

	vj_function	blake2_state..blake2s..State..write_digest_1_v2
	pushq	%r15
	pushq	%r14
	pushq	%r12
	pushq	%rbx
	subq	$136, %rsp
	movq	%rsi, %rbx
	movq	%rdi, %r14
	xorps	%xmm0, %xmm0
	movaps	%xmm0, 16(%rsp)
	movaps	%xmm0, (%rsp)
	movups	(%rdi), %xmm1
	movups	16(%rdi), %xmm2
	movaps	%xmm1, 32(%rsp)
	movaps	%xmm2, 48(%rsp)
	movzwl	72(%rdi), %r15d
	leaq	80(%rdi), %rsi
	movaps	%xmm0, 112(%rsp)
	movaps	%xmm0, 96(%rsp)
	movaps	%xmm0, 80(%rsp)
	movaps	%xmm0, 64(%rsp)
	leaq	64(%rsp), %r12
	movq	%r12, %rdi
	movq	%r15, %rdx
	vj_c_call	memcpy
	xorl	%r8d, %r8d
	cmpw	$0, 78(%r14)
	setne	%r8b
	addq	64(%r14), %r15
	leaq	32(%rsp), %rdi
	movq	%r12, %rsi
	movq	%r15, %rdx
	movl	$1, %ecx
	vj_call	blake2_compress..compress..blake2s..compress_1_v2
	movaps	32(%rsp), %xmm0
	movaps	48(%rsp), %xmm1
	movaps	%xmm0, (%rsp)
	movaps	%xmm1, 16(%rsp)
	movzwl	76(%r14), %edx
	movq	%rsp, %rsi
	movq	%rbx, %rdi
	vj_c_call	memcpy
	addq	$136, %rsp
	popq	%rbx
	popq	%r12
	popq	%r14
	popq	%r15
	retq
	vj_end	blake2_state..blake2s..State..write_digest_1_v2

	vj_constants	16
	.p2align	4, 0x0
.L1_v2_CPI44_0:
	.long	0
	.long	0
	.long	0
	.long	4294967295
.L1_v2_CPI44_1:
	.long	1359893119
	.long	2600822924
	.long	3766232660
	.long	1541459225
.L1_v2_CPI44_2:
	.long	1359893119
	.long	2600822924
	.long	528734635
	.long	1541459225
.L1_v2_CPI44_3:
	.byte	2
	.byte	3
	.byte	0
	.byte	1
	.byte	6
	.byte	7
	.byte	4
	.byte	5
	.byte	10
	.byte	11
	.byte	8
	.byte	9
	.byte	14
	.byte	15
	.byte	12
	.byte	13
.L1_v2_CPI44_4:
	.long	1779033703
	.long	3144134277
	.long	1013904242
	.long	2773480762
.L1_v2_CPI44_5:
	.byte	1
	.byte	2
	.byte	3
	.byte	0
	.byte	5
	.byte	6
	.byte	7
	.byte	4
	.byte	9
	.byte	10
	.byte	11
	.byte	8
	.byte	13
	.byte	14
	.byte	15
	.byte	12
.L1_v2_CPI44_6:
	.byte	11
	.byte	8
	.byte	9
	.byte	10
	.byte	15
	.byte	12
	.byte	13
	.byte	14
	.byte	3
	.byte	0
	.byte	1
	.byte	2
	.byte	7
	.byte	4
	.byte	5
	.byte	6
.L1_v2_CPI44_7:
	.byte	9
	.byte	10
	.byte	11
	.byte	8
	.byte	13
	.byte	14
	.byte	15
	.byte	12
	.byte	1
	.byte	2
	.byte	3
	.byte	0
	.byte	5
	.byte	6
	.byte	7
	.byte	4
	vj_shared	blake2_compress..compress..blake2s..compress_1_v2
	movups	(%rsi), %xmm4
	movups	16(%rsi), %xmm9
	movdqu	(%rdi), %xmm1
	movdqu	16(%rdi), %xmm6
	testb	$1, %r8b
	jne	1f
	pxor	%xmm0, %xmm0
	jmp	2f
1:
	movdqa	.L1_v2_CPI44_0(%rip), %xmm0
2:
	subq	$56, %rsp
	movdqu	32(%rsi), %xmm8
	movdqu	48(%rsi), %xmm5
	movq	%rdx, %xmm3
	movaps	%xmm4, %xmm2
	shufps	$136, %xmm9, %xmm2
	movaps	%xmm4, %xmm10
	shufps	$221, %xmm9, %xmm10
	movdqa	%xmm1, 32(%rsp)
	paddd	%xmm6, %xmm1
	paddd	%xmm2, %xmm1
	testb	$1, %cl
	jne	3f
	movdqa	.L1_v2_CPI44_2(%rip), %xmm2
	jmp	4f
3:
	movdqa	.L1_v2_CPI44_1(%rip), %xmm2
4:
	pxor	%xmm3, %xmm2
	pxor	%xmm0, %xmm2
	pxor	%xmm1, %xmm2
	movdqa	.L1_v2_CPI44_3(%rip), %xmm15
	pshufb	%xmm15, %xmm2
	movdqa	.L1_v2_CPI44_4(%rip), %xmm0
	paddd	%xmm2, %xmm0
	movdqa	%xmm0, %xmm3
	pxor	%xmm6, %xmm3
	movdqa	%xmm3, %xmm7
	psrld	$12, %xmm7
	pslld	$20, %xmm3
	por	%xmm7, %xmm3
	paddd	%xmm1, %xmm10
	paddd	%xmm3, %xmm10
	pxor	%xmm10, %xmm2
	movdqa	.L1_v2_CPI44_5(%rip), %xmm7
	movdqa	%xmm2, %xmm1
	pshufb	%xmm7, %xmm1
	paddd	%xmm0, %xmm1
	pxor	%xmm1, %xmm3
	movdqa	%xmm3, %xmm0
	psrld	$7, %xmm0
	pslld	$25, %xmm3
	por	%xmm0, %xmm3
	pshufd	$147, %xmm10, %xmm0
	pshufd	$57, %xmm1, %xmm11
	pshufd	$224, %xmm8, %xmm10
	pshufd	$38, %xmm5, %xmm1
	pblendw	$60, %xmm10, %xmm1
	paddd	%xmm0, %xmm1
	pshufd	$244, %xmm8, %xmm0
	pshufd	$103, %xmm5, %xmm12
	pblendw	$60, %xmm0, %xmm12
	paddd	%xmm3, %xmm1
	movdqa	%xmm1, %xmm0
	pshufb	%xmm15, %xmm0
	movdqa	.L1_v2_CPI44_6(%rip), %xmm10
	pshufb	%xmm10, %xmm2
	pxor	%xmm0, %xmm2
	paddd	%xmm2, %xmm11
	pxor	%xmm11, %xmm3
	movdqa	%xmm3, %xmm0
	psrld	$12, %xmm0
	pslld	$20, %xmm3
	por	%xmm0, %xmm3
	paddd	%xmm12, %xmm1
	paddd	%xmm3, %xmm1
	pxor	%xmm1, %xmm2
	movdqa	%xmm2, %xmm0
	pshufb	%xmm7, %xmm0
	paddd	%xmm11, %xmm0
	pxor	%xmm0, %xmm3
	movdqa	%xmm3, %xmm11
	psrld	$7, %xmm11
	pslld	$25, %xmm3
	por	%xmm11, %xmm3
	pshufd	$57, %xmm1, %xmm11
	pshufd	$147, %xmm0, %xmm12
	movaps	%xmm9, %xmm1
	blendps	$12, %xmm5, %xmm1
	shufps	$210, %xmm8, %xmm1
	insertps	$112, %xmm5, %xmm1
	paddd	%xmm11, %xmm1
	pshufd	$68, %xmm5, %xmm11
	movaps	%xmm8, %xmm0
	shufps	$242, %xmm5, %xmm0
	insertps	$176, %xmm9, %xmm0
	paddd	%xmm3, %xmm1
	movdqa	%xmm1, %xmm13
	pshufb	%xmm15, %xmm13
	pshufb	%xmm10, %xmm2
	pxor	%xmm13, %xmm2
	paddd	%xmm2, %xmm12
	pxor	%xmm12, %xmm3
	movdqa	%xmm3, %xmm13
	psrld	$12, %xmm13
	pslld	$20, %xmm3
	por	%xmm13, %xmm3
	paddd	%xmm0, %xmm1
	paddd	%xmm3, %xmm1
	pxor	%xmm1, %xmm2
	movdqa	%xmm2, %xmm0
	pshufb	%xmm7, %xmm0
	paddd	%xmm12, %xmm0
	pxor	%xmm0, %xmm3
	movdqa	%xmm3, %xmm12
	psrld	$7, %xmm12
	pslld	$25, %xmm3
	por	%xmm12, %xmm3
	pshufd	$147, %xmm1, %xmm13
	pshufd	$57, %xmm0, %xmm12
	movaps	%xmm4, %xmm0
	unpcklps	%xmm9, %xmm0
	pshufd	$203, %xmm0, %xmm1
	pblendw	$192, %xmm8, %xmm1
	paddd	%xmm13, %xmm1
	movaps	%xmm5, %xmm0
	blendps	$12, %xmm4, %xmm0
	pshufd	$227, %xmm0, %xmm0
	pblendw	$192, %xmm9, %xmm0
	paddd	%xmm3, %xmm1
	movdqa	%xmm1, %xmm13
	pshufb	%xmm15, %xmm13
	pshufb	%xmm10, %xmm2
	pxor	%xmm13, %xmm2
	paddd	%xmm2, %xmm12
	pxor	%xmm12, %xmm3
	movdqa	%xmm3, %xmm13
	psrld	$12, %xmm13
	pslld	$20, %xmm3
	por	%xmm13, %xmm3
	paddd	%xmm0, %xmm1
	paddd	%xmm3, %xmm1
	pxor	%xmm1, %xmm2
	movdqa	%xmm2, %xmm0
	pshufb	%xmm7, %xmm0
	paddd	%xmm12, %xmm0
	pxor	%xmm0, %xmm3
	movdqa	%xmm3, %xmm12
	psrld	$7, %xmm12
	pslld	$25, %xmm3
	por	%xmm12, %xmm3
	pshufd	$57, %xmm1, %xmm12
	pshufd	$147, %xmm0, %xmm13
	movdqa	%xmm5, %xmm1
	palignr	$12, %xmm8, %xmm1
	shufps	$212, %xmm9, %xmm1
	blendps	$8, %xmm5, %xmm1
	paddd	%xmm12, %xmm1
	movaps	%xmm8, %xmm12
	unpcklps	%xmm4, %xmm12
	movaps	%xmm12, %xmm0
	blendps	$12, %xmm4, %xmm0
	blendps	$8, %xmm11, %xmm0
	paddd	%xmm3, %xmm1
	movdqa	%xmm1, %xmm11
	pshufb	%xmm15, %xmm11
	pshufb	%xmm10, %xmm2
	pxor	%xmm11, %xmm2
	paddd	%xmm2, %xmm13
	pxor	%xmm13, %xmm3
	movdqa	%xmm3, %xmm11
	psrld	$12, %xmm11
	pslld	$20, %xmm3
	por	%xmm11, %xmm3
	paddd	%xmm0, %xmm1
	paddd	%xmm3, %xmm1
	pxor	%xmm1, %xmm2
	movdqa	%xmm2, %xmm0
	pshufb	%xmm7, %xmm0
	paddd	%xmm13, %xmm0
	pxor	%xmm0, %xmm3
	movdqa	%xmm3, %xmm11
	psrld	$7, %xmm11
	pslld	$25, %xmm3
	por	%xmm11, %xmm3
	pshufd	$147, %xmm1, %xmm11
	pshufd	$57, %xmm0, %xmm13
	movaps	%xmm8, %xmm1
	shufps	$249, %xmm4, %xmm1
	blendps	$8, %xmm9, %xmm1
	paddd	%xmm11, %xmm1
	pshufd	$250, %xmm5, %xmm0
	pblendw	$243, %xmm9, %xmm0
	paddd	%xmm3, %xmm1
	movdqa	%xmm1, %xmm11
	pshufb	%xmm15, %xmm11
	pshufb	%xmm10, %xmm2
	pxor	%xmm11, %xmm2
	paddd	%xmm2, %xmm13
	pxor	%xmm13, %xmm3
	movdqa	%xmm3, %xmm11
	psrld	$12, %xmm11
	pslld	$20, %xmm3
	por	%xmm11, %xmm3
	pshufd	$68, %xmm4, %xmm11
	movdqa	%xmm11, 16(%rsp)
	pblendw	$192, %xmm11, %xmm0
	paddd	%xmm0, %xmm1
	paddd	%xmm3, %xmm1
	pxor	%xmm1, %xmm2
	movdqa	%xmm2, %xmm0
	pshufb	%xmm7, %xmm0
	paddd	%xmm13, %xmm0
	pxor	%xmm0, %xmm3
	movdqa	%xmm3, %xmm13
	psrld	$7, %xmm13
	pslld	$25, %xmm3
	por	%xmm13, %xmm3
	pshufd	$57, %xmm1, %xmm13
	pshufd	$147, %xmm0, %xmm14
	movaps	%xmm9, %xmm1
	unpckhps	%xmm4, %xmm1
	shufps	$222, %xmm5, %xmm1
	blendps	$8, %xmm8, %xmm1
	paddd	%xmm13, %xmm1
	paddd	%xmm3, %xmm1
	movdqa	%xmm1, %xmm0
	movdqa	%xmm15, %xmm11
	pshufb	%xmm15, %xmm0
	pshufb	%xmm10, %xmm2
	pxor	%xmm0, %xmm2
	paddd	%xmm2, %xmm14
	pxor	%xmm14, %xmm3
	movdqa	%xmm3, %xmm0
	psrld	$12, %xmm0
	pslld	$20, %xmm3
	por	%xmm0, %xmm3
	pshufd	$85, %xmm8, %xmm13
	movdqa	%xmm13, %xmm0
	pblendw	$12, %xmm4, %xmm0
	shufps	$132, %xmm5, %xmm0
	paddd	%xmm0, %xmm1
	paddd	%xmm3, %xmm1
	pxor	%xmm1, %xmm2
	movdqa	%xmm2, %xmm0
	pshufb	%xmm7, %xmm0
	paddd	%xmm14, %xmm0
	pxor	%xmm0, %xmm3
	movdqa	%xmm3, %xmm14
	psrld	$7, %xmm14
	pslld	$25, %xmm3
	por	%xmm14, %xmm3
	pshufd	$147, %xmm1, %xmm14
	movaps	%xmm4, %xmm1
	blendps	$8, %xmm5, %xmm1
	shufps	$27, %xmm9, %xmm1
	paddd	%xmm14, %xmm1
	pshufd	$250, %xmm9, %xmm14
	pblendw	$243, %xmm8, %xmm14
	pshufd	$0, %xmm4, %xmm15
	pblendw	$63, %xmm14, %xmm15
	paddd	%xmm3, %xmm1
	movdqa	%xmm1, %xmm14
	pshufb	%xmm11, %xmm14
	pshufb	%xmm10, %xmm2
	pxor	%xmm14, %xmm2
	pshufd	$57, %xmm0, %xmm14
	paddd	%xmm2, %xmm14
	pxor	%xmm14, %xmm3
	movdqa	%xmm3, %xmm0
	psrld	$12, %xmm0
	pslld	$20, %xmm3
	por	%xmm0, %xmm3
	paddd	%xmm15, %xmm1
	paddd	%xmm3, %xmm1
	pxor	%xmm1, %xmm2
	movdqa	%xmm2, %xmm0
	pshufb	%xmm7, %xmm0
	paddd	%xmm14, %xmm0
	pxor	%xmm0, %xmm3
	movdqa	%xmm3, %xmm14
	psrld	$7, %xmm14
	pslld	$25, %xmm3
	por	%xmm14, %xmm3
	pshufd	$57, %xmm1, %xmm1
	movdqa	%xmm13, %xmm15
	pblendw	$12, %xmm9, %xmm15
	pblendw	$240, %xmm4, %xmm15
	pshufd	$170, %xmm8, %xmm14
	pblendw	$192, %xmm14, %xmm15
	paddd	%xmm1, %xmm15
	paddd	%xmm3, %xmm15
	movdqa	%xmm15, %xmm1
	pshufb	%xmm11, %xmm1
	pshufb	%xmm10, %xmm2
	pxor	%xmm1, %xmm2
	pshufd	$147, %xmm0, %xmm1
	paddd	%xmm2, %xmm1
	pxor	%xmm1, %xmm3
	movdqa	%xmm3, %xmm0
	psrld	$12, %xmm0
	pslld	$20, %xmm3
	por	%xmm0, %xmm3
	pshufd	$78, %xmm9, %xmm0
	pblendw	$3, %xmm4, %xmm0
	pblendw	$192, %xmm5, %xmm0
	paddd	%xmm0, %xmm15
	paddd	%xmm3, %xmm15
	pxor	%xmm15, %xmm2
	movdqa	%xmm2, %xmm0
	pshufb	%xmm7, %xmm0
	paddd	%xmm1, %xmm0
	pxor	%xmm0, %xmm3
	movdqa	%xmm3, %xmm1
	psrld	$7, %xmm1
	pslld	$25, %xmm3
	por	%xmm1, %xmm3
	pshufd	$147, %xmm15, %xmm1
	movaps	%xmm5, %xmm15
	blendps	$8, %xmm4, %xmm15
	shufps	$251, %xmm8, %xmm15
	insertps	$176, %xmm9, %xmm15
	paddd	%xmm1, %xmm15
	paddd	%xmm3, %xmm15
	movdqa	%xmm15, %xmm1
	pshufb	%xmm11, %xmm1
	pshufb	%xmm10, %xmm2
	pxor	%xmm1, %xmm2
	pshufd	$57, %xmm0, %xmm1
	paddd	%xmm2, %xmm1
	pxor	%xmm1, %xmm3
	movdqa	%xmm3, %xmm0
	psrld	$12, %xmm0
	pslld	$20, %xmm3
	por	%xmm0, %xmm3
	pshufd	$197, %xmm5, %xmm0
	pblendw	$12, %xmm4, %xmm0
	movdqa	%xmm6, (%rsp)
	pshufd	$0, %xmm8, %xmm6
	pblendw	$192, %xmm6, %xmm0
	paddd	%xmm0, %xmm15
	paddd	%xmm3, %xmm15
	pxor	%xmm15, %xmm2
	movdqa	%xmm2, %xmm0
	pshufb	%xmm7, %xmm0
	paddd	%xmm1, %xmm0
	pxor	%xmm0, %xmm3
	movdqa	%xmm3, %xmm1
	psrld	$7, %xmm1
	pslld	$25, %xmm3
	por	%xmm1, %xmm3
	pshufd	$36, %xmm4, %xmm1
	punpckhdq	%xmm9, %xmm1
	pblendw	$192, %xmm6, %xmm1
	pshufd	$57, %xmm15, %xmm6
	paddd	%xmm6, %xmm1
	paddd	%xmm3, %xmm1
	movdqa	%xmm1, %xmm6
	pshufb	%xmm11, %xmm6
	pshufb	%xmm10, %xmm2
	pxor	%xmm6, %xmm2
	pshufd	$147, %xmm0, %xmm6
	paddd	%xmm2, %xmm6
	pxor	%xmm6, %xmm3
	movdqa	%xmm3, %xmm0
	psrld	$12, %xmm0
	pslld	$20, %xmm3
	por	%xmm0, %xmm3
	pshufd	$250, %xmm8, %xmm0
	pblendw	$3, %xmm5, %xmm0
	pblendw	$192, %xmm4, %xmm0
	paddd	%xmm0, %xmm1
	paddd	%xmm3, %xmm1
	pxor	%xmm1, %xmm2
	movdqa	%xmm2, %xmm0
	pshufb	%xmm7, %xmm0
	paddd	%xmm6, %xmm0
	pxor	%xmm0, %xmm3
	movdqa	%xmm3, %xmm6
	psrld	$7, %xmm6
	pslld	$25, %xmm3
	por	%xmm6, %xmm3
	pshufd	$147, %xmm1, %xmm1
	movdqa	%xmm9, %xmm6
	pblendw	$12, %xmm4, %xmm6
	pshufd	$241, %xmm6, %xmm15
	pblendw	$192, %xmm5, %xmm15
	paddd	%xmm1, %xmm15
	paddd	%xmm3, %xmm15
	movdqa	%xmm15, %xmm1
	pshufb	%xmm11, %xmm1
	pshufb	%xmm10, %xmm2
	pxor	%xmm1, %xmm2
	pshufd	$57, %xmm0, %xmm1
	paddd	%xmm2, %xmm1
	pxor	%xmm1, %xmm3
	movdqa	%xmm3, %xmm0
	psrld	$12, %xmm0
	pslld	$20, %xmm3
	por	%xmm0, %xmm3
	pblendw	$12, %xmm5, %xmm13
	shufps	$212, %xmm9, %xmm13
	insertps	$176, %xmm5, %xmm13
	paddd	%xmm13, %xmm15
	paddd	%xmm3, %xmm15
	pxor	%xmm15, %xmm2
	movdqa	%xmm2, %xmm0
	pshufb	%xmm7, %xmm0
	paddd	%xmm1, %xmm0
	pxor	%xmm0, %xmm3
	movdqa	%xmm3, %xmm1
	psrld	$7, %xmm1
	pslld	$25, %xmm3
	por	%xmm1, %xmm3
	movdqa	%xmm5, %xmm6
	pblendw	$12, %xmm4, %xmm6
	pshufd	$0, %xmm9, %xmm1
	pblendw	$63, %xmm6, %xmm1
	pshufd	$57, %xmm15, %xmm6
	paddd	%xmm6, %xmm1
	pshufd	$85, %xmm9, %xmm6
	pshufd	$220, %xmm5, %xmm13
	pblendw	$3, %xmm6, %xmm13
	pblendw	$192, %xmm14, %xmm13
	paddd	%xmm3, %xmm1
	movdqa	%xmm1, %xmm6
	pshufb	%xmm11, %xmm6
	pshufb	%xmm10, %xmm2
	pxor	%xmm6, %xmm2
	pshufd	$147, %xmm0, %xmm0
	paddd	%xmm2, %xmm0
	pxor	%xmm0, %xmm3
	movdqa	%xmm3, %xmm6
	psrld	$12, %xmm6
	pslld	$20, %xmm3
	por	%xmm6, %xmm3
	paddd	%xmm13, %xmm1
	paddd	%xmm3, %xmm1
	pxor	%xmm1, %xmm2
	movdqa	%xmm2, %xmm6
	pshufb	%xmm7, %xmm6
	paddd	%xmm0, %xmm6
	pxor	%xmm6, %xmm3
	movdqa	%xmm3, %xmm0
	psrld	$7, %xmm0
	pslld	$25, %xmm3
	por	%xmm0, %xmm3
	pshufd	$147, %xmm1, %xmm0
	pshufd	$57, %xmm6, %xmm13
	blendps	$12, %xmm9, %xmm12
	pshufd	$68, %xmm8, %xmm1
	pblendw	$63, %xmm12, %xmm1
	paddd	%xmm0, %xmm1
	movaps	%xmm8, %xmm0
	unpckhps	%xmm9, %xmm0
	shufps	$190, %xmm4, %xmm0
	paddd	%xmm3, %xmm1
	movdqa	%xmm1, %xmm6
	pshufb	%xmm11, %xmm6
	pshufb	%xmm10, %xmm2
	pxor	%xmm6, %xmm2
	paddd	%xmm2, %xmm13
	pxor	%xmm13, %xmm3
	movdqa	%xmm3, %xmm6
	psrld	$12, %xmm6
	pslld	$20, %xmm3
	por	%xmm6, %xmm3
	paddd	%xmm0, %xmm1
	paddd	%xmm3, %xmm1
	pxor	%xmm1, %xmm2
	movdqa	%xmm2, %xmm0
	pshufb	%xmm7, %xmm0
	paddd	%xmm13, %xmm0
	pxor	%xmm0, %xmm3
	movdqa	%xmm3, %xmm6
	psrld	$7, %xmm6
	pslld	$25, %xmm3
	por	%xmm6, %xmm3
	pshufd	$57, %xmm1, %xmm6
	pshufd	$147, %xmm0, %xmm12
	movdqa	%xmm5, %xmm0
	pblendw	$240, %xmm9, %xmm0
	pshufd	$205, %xmm0, %xmm1
	pblendw	$192, %xmm4, %xmm1
	paddd	%xmm6, %xmm1
	movaps	%xmm5, %xmm0
	blendps	$8, %xmm8, %xmm0
	shufps	$219, %xmm4, %xmm0
	insertps	$112, %xmm8, %xmm0
	paddd	%xmm3, %xmm1
	movdqa	%xmm1, %xmm6
	pshufb	%xmm11, %xmm6
	pshufb	%xmm10, %xmm2
	pxor	%xmm6, %xmm2
	paddd	%xmm2, %xmm12
	pxor	%xmm12, %xmm3
	movdqa	%xmm3, %xmm6
	psrld	$12, %xmm6
	pslld	$20, %xmm3
	por	%xmm6, %xmm3
	paddd	%xmm0, %xmm1
	paddd	%xmm3, %xmm1
	pxor	%xmm1, %xmm2
	movdqa	%xmm2, %xmm0
	pshufb	%xmm7, %xmm0
	paddd	%xmm12, %xmm0
	pxor	%xmm0, %xmm3
	movdqa	%xmm3, %xmm6
	psrld	$7, %xmm6
	pslld	$25, %xmm3
	por	%xmm6, %xmm3
	pshufd	$147, %xmm1, %xmm13
	pshufd	$57, %xmm0, %xmm12
	pshufd	$238, %xmm4, %xmm14
	pshufd	$96, %xmm9, %xmm15
	pblendw	$3, %xmm14, %xmm15
	pblendw	$12, %xmm9, %xmm14
	shufps	$244, %xmm5, %xmm14
	insertps	$48, %xmm8, %xmm14
	paddd	%xmm13, %xmm14
	paddd	%xmm3, %xmm14
	movdqa	%xmm14, %xmm0
	pshufb	%xmm11, %xmm0
	pshufb	%xmm10, %xmm2
	pxor	%xmm0, %xmm2
	paddd	%xmm2, %xmm12
	pxor	%xmm12, %xmm3
	movdqa	%xmm3, %xmm0
	psrld	$12, %xmm0
	pslld	$20, %xmm3
	por	%xmm0, %xmm3
	movaps	%xmm4, %xmm0
	blendps	$12, %xmm8, %xmm0
	shufps	$130, %xmm9, %xmm0
	paddd	%xmm0, %xmm14
	paddd	%xmm3, %xmm14
	pxor	%xmm14, %xmm2
	movdqa	%xmm2, %xmm0
	pshufb	%xmm7, %xmm0
	paddd	%xmm12, %xmm0
	pxor	%xmm0, %xmm3
	movdqa	%xmm3, %xmm1
	psrld	$7, %xmm1
	pslld	$25, %xmm3
	por	%xmm1, %xmm3
	pshufd	$57, %xmm14, %xmm1
	pshufd	$147, %xmm0, %xmm6
	movaps	%xmm9, %xmm0
	unpckhps	%xmm5, %xmm0
	shufps	$244, %xmm8, %xmm0
	insertps	$48, %xmm4, %xmm0
	paddd	%xmm1, %xmm0
	paddd	%xmm3, %xmm0
	movdqa	%xmm0, %xmm1
	pshufb	%xmm11, %xmm1
	pshufb	%xmm10, %xmm2
	pxor	%xmm1, %xmm2
	paddd	%xmm2, %xmm6
	pxor	%xmm6, %xmm3
	movdqa	%xmm3, %xmm1
	psrld	$12, %xmm1
	pslld	$20, %xmm3
	por	%xmm1, %xmm3
	pshufd	$255, %xmm5, %xmm1
	pblendw	$12, %xmm8, %xmm1
	shufps	$244, %xmm4, %xmm1
	insertps	$48, %xmm8, %xmm1
	paddd	%xmm1, %xmm0
	paddd	%xmm3, %xmm0
	pxor	%xmm0, %xmm2
	movdqa	%xmm2, %xmm1
	pshufb	%xmm7, %xmm1
	paddd	%xmm6, %xmm1
	pxor	%xmm1, %xmm3
	movdqa	%xmm3, %xmm6
	psrld	$7, %xmm6
	pslld	$25, %xmm3
	por	%xmm6, %xmm3
	movdqa	%xmm5, %xmm6
	pblendw	$240, %xmm8, %xmm6
	pshufd	$210, %xmm6, %xmm6
	pblendw	$192, 16(%rsp), %xmm6
	pshufd	$147, %xmm0, %xmm0
	pshufd	$57, %xmm1, %xmm1
	paddd	%xmm0, %xmm6
	paddd	%xmm3, %xmm6
	movdqa	%xmm6, %xmm0
	pshufb	%xmm11, %xmm0
	pshufb	%xmm10, %xmm2
	pxor	%xmm0, %xmm2
	paddd	%xmm2, %xmm1
	pxor	%xmm1, %xmm3
	movdqa	%xmm3, %xmm0
	psrld	$12, %xmm0
	pslld	$20, %xmm3
	por	%xmm0, %xmm3
	movdqa	%xmm9, %xmm0
	pblendw	$48, %xmm4, %xmm0
	pshufd	$57, %xmm0, %xmm0
	paddd	%xmm0, %xmm6
	paddd	%xmm3, %xmm6
	pxor	%xmm6, %xmm2
	movdqa	%xmm2, %xmm0
	pshufb	%xmm7, %xmm0
	paddd	%xmm1, %xmm0
	pxor	%xmm0, %xmm3
	movdqa	%xmm3, %xmm1
	psrld	$7, %xmm1
	pslld	$25, %xmm3
	por	%xmm1, %xmm3
	movaps	%xmm8, %xmm1
	shufps	$242, %xmm9, %xmm1
	pshufd	$57, %xmm6, %xmm6
	pshufd	$147, %xmm0, %xmm0
	insertps	$112, %xmm4, %xmm1
	paddd	%xmm6, %xmm1
	paddd	%xmm3, %xmm1
	movdqa	%xmm1, %xmm6
	pshufb	%xmm11, %xmm6
	pshufb	%xmm10, %xmm2
	pxor	%xmm6, %xmm2
	paddd	%xmm2, %xmm0
	pxor	%xmm0, %xmm3
	movdqa	%xmm3, %xmm6
	psrld	$12, %xmm6
	pslld	$20, %xmm3
	por	%xmm6, %xmm3
	paddd	%xmm15, %xmm1
	paddd	%xmm3, %xmm1
	pxor	%xmm1, %xmm2
	movdqa	%xmm2, %xmm6
	pshufb	%xmm7, %xmm6
	paddd	%xmm0, %xmm6
	pxor	%xmm6, %xmm3
	movdqa	%xmm3, %xmm0
	psrld	$7, %xmm0
	pslld	$25, %xmm3
	por	%xmm0, %xmm3
	pshufd	$147, %xmm1, %xmm0
	movaps	%xmm5, %xmm1
	shufps	$221, %xmm8, %xmm1
	blendps	$8, %xmm4, %xmm1
	paddd	%xmm0, %xmm1
	pshufd	$238, %xmm8, %xmm0
	pblendw	$243, %xmm4, %xmm0
	shufps	$36, %xmm5, %xmm0
	paddd	%xmm3, %xmm1
	movdqa	%xmm1, %xmm4
	pshufb	%xmm11, %xmm4
	pshufb	%xmm10, %xmm2
	pshufd	$57, %xmm6, %xmm5
	pxor	%xmm4, %xmm2
	paddd	%xmm2, %xmm5
	pxor	%xmm5, %xmm3
	movdqa	%xmm3, %xmm4
	psrld	$12, %xmm4
	pslld	$20, %xmm3
	por	%xmm4, %xmm3
	paddd	%xmm0, %xmm1
	paddd	%xmm3, %xmm1
	pxor	%xmm1, %xmm2
	movdqa	%xmm2, %xmm0
	pshufb	%xmm7, %xmm0
	paddd	%xmm5, %xmm0
	pxor	%xmm0, %xmm3
	movdqa	%xmm3, %xmm4
	psrld	$7, %xmm4
	pslld	$25, %xmm3
	por	%xmm4, %xmm3
	pshufd	$57, %xmm1, %xmm1
	pxor	32(%rsp), %xmm1
	pshufd	$147, %xmm0, %xmm0
	pxor	%xmm0, %xmm1
	pshufb	.L1_v2_CPI44_7(%rip), %xmm2
	pxor	(%rsp), %xmm3
	pxor	%xmm2, %xmm3
	movdqu	%xmm1, (%rdi)
	movdqu	%xmm3, 16(%rdi)
	addq	$56, %rsp
	retq
	vj_end	blake2_compress..compress..blake2s..compress_1_v2

	vj_function	blake2_digest..wiping..scrub_stack..768_1_v2
	pushq	%rbx
	subq	$768, %rsp
	movq	%rsp, %rbx
	movl	$768, %edx
	movq	%rbx, %rdi
	xorl	%esi, %esi
	vj_c_call	memset
	movq	%rbx, %rdi
	callq	blake2_digest..wiping..settle..768_1_v2
	addq	$768, %rsp
	popq	%rbx
	retq
	vj_end	blake2_digest..wiping..scrub_stack..768_1_v2

	vj_function	blake2_digest..wiping..settle..768_1_v2
	movdqu	(%rdi), %xmm0
	movdqu	16(%rdi), %xmm1
	movdqu	32(%rdi), %xmm2
	por	%xmm0, %xmm2
	movdqu	48(%rdi), %xmm0
	por	%xmm1, %xmm0
	movdqu	64(%rdi), %xmm1
	movdqu	80(%rdi), %xmm3
	movdqu	96(%rdi), %xmm4
	por	%xmm1, %xmm4
	por	%xmm2, %xmm4
	movdqu	112(%rdi), %xmm1
	por	%xmm3, %xmm1
	por	%xmm0, %xmm1
	movdqu	128(%rdi), %xmm0
	movdqu	144(%rdi), %xmm2
	movdqu	160(%rdi), %xmm3
	por	%xmm0, %xmm3
	movdqu	176(%rdi), %xmm0
	por	%xmm2, %xmm0
	movdqu	192(%rdi), %xmm2
	por	%xmm3, %xmm2
	por	%xmm4, %xmm2
	movdqu	208(%rdi), %xmm3
	por	%xmm0, %xmm3
	por	%xmm1, %xmm3
	movdqu	224(%rdi), %xmm0
	movdqu	240(%rdi), %xmm1
	movdqu	256(%rdi), %xmm4
	por	%xmm0, %xmm4
	movdqu	272(%rdi), %xmm0
	por	%xmm1, %xmm0
	movdqu	288(%rdi), %xmm5
	por	%xmm4, %xmm5
	movdqu	304(%rdi), %xmm4
	por	%xmm0, %xmm4
	movdqu	320(%rdi), %xmm1
	por	%xmm5, %xmm1
	por	%xmm2, %xmm1
	movdqu	336(%rdi), %xmm2
	por	%xmm4, %xmm2
	por	%xmm3, %xmm2
	movdqu	352(%rdi), %xmm0
	movdqu	368(%rdi), %xmm3
	movdqu	384(%rdi), %xmm4
	por	%xmm0, %xmm4
	movdqu	400(%rdi), %xmm0
	por	%xmm3, %xmm0
	movdqu	416(%rdi), %xmm3
	por	%xmm4, %xmm3
	movdqu	432(%rdi), %xmm4
	por	%xmm0, %xmm4
	movdqu	448(%rdi), %xmm5
	por	%xmm3, %xmm5
	movdqu	464(%rdi), %xmm3
	por	%xmm4, %xmm3
	movdqu	480(%rdi), %xmm0
	por	%xmm5, %xmm0
	por	%xmm1, %xmm0
	movdqu	496(%rdi), %xmm1
	por	%xmm3, %xmm1
	por	%xmm2, %xmm1
	movdqu	512(%rdi), %xmm2
	movdqu	528(%rdi), %xmm3
	movdqu	544(%rdi), %xmm4
	por	%xmm2, %xmm4
	movdqu	560(%rdi), %xmm2
	por	%xmm3, %xmm2
	movdqu	576(%rdi), %xmm3
	por	%xmm4, %xmm3
	movdqu	592(%rdi), %xmm4
	por	%xmm2, %xmm4
	movdqu	608(%rdi), %xmm2
	por	%xmm3, %xmm2
	movdqu	624(%rdi), %xmm3
	por	%xmm4, %xmm3
	movdqu	640(%rdi), %xmm4
	por	%xmm2, %xmm4
	movdqu	656(%rdi), %xmm2
	por	%xmm3, %xmm2
	movdqu	672(%rdi), %xmm3
	por	%xmm4, %xmm3
	por	%xmm0, %xmm3
	movdqu	688(%rdi), %xmm0
	por	%xmm2, %xmm0
	por	%xmm1, %xmm0
	movdqu	704(%rdi), %xmm1
	movdqu	720(%rdi), %xmm2
	movdqu	736(%rdi), %xmm4
	por	%xmm1, %xmm4
	por	%xmm3, %xmm4
	movdqu	752(%rdi), %xmm1
	por	%xmm2, %xmm1
	por	%xmm0, %xmm1
	por	%xmm4, %xmm1
	ptest	%xmm1, %xmm1
	je	1f
	pause
1:
	retq
	vj_end	blake2_digest..wiping..settle..768_1_v2

	vj_constants	16
	.p2align	4, 0x0
.L1_v2_CPI47_0:
	.long	1359893119
	.long	2600822924
	.long	528734635
	.long	1541459225
.L1_v2_CPI47_1:
	.long	1779033703
	.long	3144134277
	.long	1013904242
	.long	2773480762
	vj_function	blake2_ffi..blake2s..initialize_1_v2
	pushq	%rbp
	pushq	%r15
	pushq	%r14
	pushq	%r13
	pushq	%r12
	pushq	%rbx
	subq	$248, %rsp
	movq	%rdx, %rax
	movq	(%rsi), %r13
	movq	16(%rsi), %r14
	movq	32(%rsi), %rdx
	movq	48(%rsi), %rbx
	movzwl	(%rax), %ecx
	leaq	-33(%r13), %r8
	cmpq	$-32, %r8
	setb	%r8b
	cmpq	$33, %r14
	setae	%r9b
	cmpq	$9, %rdx
	setae	%r10b
	orb	%r9b, %r10b
	orb	%r8b, %r10b
	cmpq	$9, %rbx
	setae	%r8b
	cmpl	$256, %ecx
	setb	%r9b
	orb	%r8b, %r9b
	orb	%r10b, %r9b
	jne	1f
	movq	8(%rax), %r9
	movzwl	16(%rax), %r8d
	movzwl	%r8w, %r10d
	cmpl	$8448, %r10d
	setb	%r10b
	movq	%r9, %r11
	shrq	$48, %r11
	sete	%r11b
	andb	%r10b, %r11b
	cmpb	$1, %r11b
	jne	1f
	movq	%rdi, %rbp
	movq	%rsi, %r10
	movq	24(%rsi), %rsi
	movq	40(%r10), %r15
	movd	4(%rax), %xmm0
	testq	%r14, %r14
	je	2f
	movq	8(%r10), %r12
	shll	$16, %ecx
	xorps	%xmm1, %xmm1
	movaps	%xmm1, (%rsp)
	movl	%r14d, %eax
	shll	$8, %eax
	movzwl	%ax, %eax
	orl	%ecx, %eax
	orl	%r13d, %eax
	movd	%eax, %xmm1
	punpckldq	%xmm0, %xmm1
	movq	%r9, %xmm0
	punpcklqdq	%xmm0, %xmm1
	pinsrw	$7, %r8d, %xmm1
	movdqa	%xmm1, 16(%rsp)
	movq	%rsp, %rdi
	vj_c_call	memcpy
	leaq	8(%rsp), %rdi
	movq	%r15, %rsi
	movq	%rbx, %rdx
	vj_c_call	memcpy
	movaps	(%rsp), %xmm0
	movaps	%xmm0, 128(%rsp)
	movl	$32, %eax
	subq	%r14, %rax
	xorl	%edx, %edx
	cmpq	$32, %r14
	cmovbq	%rax, %rdx
	leaq	(%rsp,%r14), %rdi
	addq	$144, %rdi
	xorl	%esi, %esi
	vj_c_call	memset
	leaq	144(%rsp), %rdi
	movq	%r12, %rsi
	movq	%r14, %rdx
	vj_c_call	memcpy
	xorps	%xmm2, %xmm2
	movaps	%xmm2, 208(%rsp)
	movaps	%xmm2, 224(%rsp)
	movdqu	144(%rsp), %xmm0
	movups	160(%rsp), %xmm1
	movdqa	%xmm0, 176(%rsp)
	movaps	%xmm1, 192(%rsp)
	movaps	%xmm2, 96(%rsp)
	movaps	%xmm2, 112(%rsp)
	movdqa	%xmm0, 64(%rsp)
	movaps	%xmm1, 80(%rsp)
	movdqa	%xmm0, 32(%rsp)
	movaps	%xmm1, 48(%rsp)
	movaps	128(%rsp), %xmm1
	movw	$64, %ax
	jmp	3f
1:
	xorps	%xmm0, %xmm0
	movups	%xmm0, 160(%rdi)
	movups	%xmm0, 144(%rdi)
	movups	%xmm0, 128(%rdi)
	movups	%xmm0, 112(%rdi)
	movups	%xmm0, 96(%rdi)
	movups	%xmm0, 80(%rdi)
	movups	%xmm0, 64(%rdi)
	movups	%xmm0, 48(%rdi)
	movups	%xmm0, 32(%rdi)
	movups	%xmm0, 16(%rdi)
	movups	%xmm0, (%rdi)
	movl	$-1, %eax
	jmp	4f
2:
	shll	$16, %ecx
	xorps	%xmm1, %xmm1
	movaps	%xmm1, (%rsp)
	movl	%r13d, %eax
	orl	%ecx, %eax
	movd	%eax, %xmm1
	punpckldq	%xmm0, %xmm1
	movq	%r9, %xmm0
	punpcklqdq	%xmm0, %xmm1
	pinsrw	$7, %r8d, %xmm1
	movdqa	%xmm1, 16(%rsp)
	movq	%rsp, %rdi
	vj_c_call	memcpy
	leaq	8(%rsp), %rdi
	movq	%r15, %rsi
	movq	%rbx, %rdx
	vj_c_call	memcpy
	movaps	(%rsp), %xmm1
	pxor	%xmm0, %xmm0
	movdqa	%xmm0, 64(%rsp)
	movdqa	%xmm0, 80(%rsp)
	movdqa	%xmm0, 96(%rsp)
	movdqa	%xmm0, 112(%rsp)
	movdqa	%xmm0, 32(%rsp)
	movdqa	%xmm0, 48(%rsp)
	xorl	%eax, %eax
3:
	xorps	.L1_v2_CPI47_0(%rip), %xmm1
	movaps	16(%rsp), %xmm0
	xorps	.L1_v2_CPI47_1(%rip), %xmm0
	movups	%xmm0, (%rbp)
	movups	%xmm1, 16(%rbp)
	movups	%xmm0, 32(%rbp)
	movups	%xmm1, 48(%rbp)
	movq	$0, 64(%rbp)
	movw	%ax, 72(%rbp)
	movw	%ax, 74(%rbp)
	movw	%r13w, 76(%rbp)
	movw	$0, 78(%rbp)
	movaps	64(%rsp), %xmm0
	movaps	80(%rsp), %xmm1
	movaps	96(%rsp), %xmm2
	movaps	112(%rsp), %xmm3
	movups	%xmm0, 80(%rbp)
	movups	%xmm1, 96(%rbp)
	movups	%xmm2, 112(%rbp)
	movups	%xmm3, 128(%rbp)
	movaps	32(%rsp), %xmm0
	movaps	48(%rsp), %xmm1
	movups	%xmm0, 144(%rbp)
	movups	%xmm1, 160(%rbp)
	xorl	%eax, %eax
4:
	addq	$248, %rsp
	popq	%rbx
	popq	%r12
	popq	%r13
	popq	%r14
	popq	%r15
	popq	%rbp
	retq
	vj_end	blake2_ffi..blake2s..initialize_1_v2

	vj_function	blake2_state..blake2s..State..save_1_v2
	pushq	%rbp
	pushq	%r15
	pushq	%r14
	pushq	%r13
	pushq	%r12
	pushq	%rbx
	subq	$200, %rsp
	movzwl	76(%rsi), %r14d
	leal	-1(%r14), %eax
	cmpw	$31, %ax
	ja	1f
	movzwl	72(%rsi), %ebx
	cmpq	$64, %rbx
	ja	1f
	movzwl	74(%rsi), %eax
	cmpw	$64, %ax
	ja	1f
	movl	%ebx, %ecx
	notl	%ecx
	movswq	%cx, %rcx
	cmpq	%rcx, 64(%rsi)
	ja	1f
	movl	32(%rsi), %ebp
	movl	%ebp, %ecx
	andl	$65280, %ecx
	cmpl	$58880, %ecx
	sete	%cl
	testw	%ax, %ax
	sete	%al
	testb	%cl, %al
	je	1f
	movzwl	78(%rsi), %eax
	movw	%ax, 6(%rsp)
	xorps	%xmm0, %xmm0
	movaps	%xmm0, 64(%rsp)
	movaps	%xmm0, 48(%rsp)
	movaps	%xmm0, 32(%rsp)
	movaps	%xmm0, 16(%rsp)
	movzbl	12(%rsi), %eax
	movb	%al, 3(%rsp)
	movups	(%rsi), %xmm0
	movaps	%xmm0, 80(%rsp)
	movzbl	28(%rsi), %eax
	movb	%al, 4(%rsp)
	movups	16(%rsi), %xmm0
	movaps	%xmm0, 96(%rsp)
	movq	36(%rsi), %r12
	movl	44(%rsi), %r13d
	movzbl	60(%rsi), %eax
	movb	%al, 5(%rsp)
	movups	48(%rsi), %xmm0
	movaps	%xmm0, 112(%rsp)
	movq	64(%rsi), %rax
	movq	%rax, 8(%rsp)
	addq	$80, %rsi
	leaq	16(%rsp), %rax
	movq	%rdi, %r15
	movq	%rax, %rdi
	movq	%rbx, %rdx
	vj_c_call	memcpy
	movq	%r12, %xmm0
	movd	%ebp, %xmm2
	pshufd	$80, %xmm0, %xmm1
	pblendw	$3, %xmm2, %xmm1
	movdqa	%xmm1, %xmm0
	pinsrd	$3, %r13d, %xmm0
	cmpw	$0, 6(%rsp)
	movaps	16(%rsp), %xmm2
	movaps	32(%rsp), %xmm3
	movaps	48(%rsp), %xmm4
	movaps	64(%rsp), %xmm5
	movaps	%xmm2, 128(%rsp)
	movaps	%xmm3, 144(%rsp)
	movaps	%xmm4, 160(%rsp)
	movaps	%xmm5, 176(%rsp)
	setne	83(%r15)
	movb	$1, (%r15)
	movabsq	$104482489556356162, %rax
	movq	%rax, 1(%r15)
	movdqa	80(%rsp), %xmm4
	movq	%xmm4, 9(%r15)
	pextrd	$2, %xmm4, 17(%r15)
	movq	%r12, %rax
	movzbl	3(%rsp), %ecx
	movb	%cl, 21(%r15)
	movdqa	96(%rsp), %xmm3
	movdqa	%xmm3, %xmm2
	palignr	$13, %xmm4, %xmm2
	movq	%xmm2, 22(%r15)
	movdqa	%xmm3, %xmm2
	psrldq	$5, %xmm2
	movd	%xmm2, 30(%r15)
	pextrb	$9, %xmm3, 34(%r15)
	shrq	$40, %rax
	pextrb	$10, %xmm3, 35(%r15)
	movq	%r12, %rcx
	pextrb	$11, %xmm3, 36(%r15)
	shrq	$48, %rcx
	shrq	$56, %r12
	movzbl	4(%rsp), %esi
	movb	%sil, 37(%r15)
	palignr	$13, %xmm3, %xmm1
	movq	%xmm1, 38(%r15)
	movdqa	112(%rsp), %xmm2
	movdqa	%xmm2, %xmm1
	palignr	$13, %xmm0, %xmm1
	psrldq	$5, %xmm0
	movd	%xmm0, 46(%r15)
	movb	%al, 50(%r15)
	movb	%cl, 51(%r15)
	movb	%r12b, 52(%r15)
	movb	%r13b, 53(%r15)
	movq	%xmm1, 54(%r15)
	movdqa	%xmm2, %xmm0
	psrldq	$5, %xmm0
	movd	%xmm0, 62(%r15)
	pextrb	$9, %xmm2, 66(%r15)
	pextrb	$10, %xmm2, 67(%r15)
	pextrb	$11, %xmm2, 68(%r15)
	movzbl	5(%rsp), %eax
	movb	%al, 69(%r15)
	pextrb	$13, %xmm2, 70(%r15)
	pextrb	$14, %xmm2, 71(%r15)
	pextrb	$15, %xmm2, 72(%r15)
	movq	8(%rsp), %rax
	movq	%rax, 73(%r15)
	movb	%r14b, 81(%r15)
	movb	%bl, 82(%r15)
	movaps	128(%rsp), %xmm0
	movaps	144(%rsp), %xmm1
	movaps	160(%rsp), %xmm2
	movaps	176(%rsp), %xmm3
	movups	%xmm3, 132(%r15)
	movups	%xmm2, 116(%r15)
	movups	%xmm1, 100(%r15)
	movups	%xmm0, 84(%r15)
	jmp	2f
1:
	xorps	%xmm0, %xmm0
	movups	%xmm0, 128(%rdi)
	movups	%xmm0, 112(%rdi)
	movups	%xmm0, 96(%rdi)
	movups	%xmm0, 80(%rdi)
	movups	%xmm0, 64(%rdi)
	movups	%xmm0, 48(%rdi)
	movups	%xmm0, 32(%rdi)
	movups	%xmm0, 16(%rdi)
	movups	%xmm0, (%rdi)
	movl	$0, 144(%rdi)
2:
	addq	$200, %rsp
	popq	%rbx
	popq	%r12
	popq	%r13
	popq	%r14
	popq	%r15
	popq	%rbp
	retq
	vj_end	blake2_state..blake2s..State..save_1_v2

	vj_function	blake2_ffi..blake2s..update_scrubbed_1_v2
	pushq	%rax
	callq	blake2_ffi..blake2s..update_in_frame_1_v2
	popq	%rax
	jmp	blake2_digest..wiping..scrub_stack..512_1_v2
	vj_end	blake2_ffi..blake2s..update_scrubbed_1_v2

	vj_function	blake2_ffi..blake2s..update_in_frame_1_v2
	cmpq	$1, %rdx
	jne	blake2_state..blake2s..State..absorb_blocks_1_v2
	movzwl	72(%rdi), %eax
	cmpq	$64, %rax
	jae	1f
	movzbl	(%rsi), %ecx
	movb	%cl, 80(%rdi,%rax)
	incl	%eax
	movw	%ax, 72(%rdi)
	retq
1:
	movl	$1, %edx
	jmp	blake2_state..blake2s..State..absorb_blocks_1_v2
	vj_end	blake2_ffi..blake2s..update_in_frame_1_v2

	vj_function	blake2_digest..wiping..scrub_stack..512_1_v2
	pushq	%rbx
	subq	$512, %rsp
	movq	%rsp, %rbx
	movl	$512, %edx
	movq	%rbx, %rdi
	xorl	%esi, %esi
	vj_c_call	memset
	movq	%rbx, %rdi
	callq	blake2_digest..wiping..settle..512_1_v2
	addq	$512, %rsp
	popq	%rbx
	retq
	vj_end	blake2_digest..wiping..scrub_stack..512_1_v2

	vj_function	blake2_digest..wiping..settle..512_1_v2
	movdqu	(%rdi), %xmm0
	movdqu	16(%rdi), %xmm1
	movdqu	32(%rdi), %xmm2
	por	%xmm0, %xmm2
	movdqu	48(%rdi), %xmm0
	por	%xmm1, %xmm0
	movdqu	64(%rdi), %xmm1
	movdqu	80(%rdi), %xmm3
	movdqu	96(%rdi), %xmm4
	por	%xmm1, %xmm4
	por	%xmm2, %xmm4
	movdqu	112(%rdi), %xmm1
	por	%xmm3, %xmm1
	por	%xmm0, %xmm1
	movdqu	128(%rdi), %xmm0
	movdqu	144(%rdi), %xmm2
	movdqu	160(%rdi), %xmm3
	por	%xmm0, %xmm3
	movdqu	176(%rdi), %xmm0
	por	%xmm2, %xmm0
	movdqu	192(%rdi), %xmm2
	por	%xmm3, %xmm2
	por	%xmm4, %xmm2
	movdqu	208(%rdi), %xmm3
	por	%xmm0, %xmm3
	por	%xmm1, %xmm3
	movdqu	224(%rdi), %xmm0
	movdqu	240(%rdi), %xmm1
	movdqu	256(%rdi), %xmm4
	por	%xmm0, %xmm4
	movdqu	272(%rdi), %xmm0
	por	%xmm1, %xmm0
	movdqu	288(%rdi), %xmm1
	por	%xmm4, %xmm1
	movdqu	304(%rdi), %xmm4
	por	%xmm0, %xmm4
	movdqu	320(%rdi), %xmm0
	por	%xmm1, %xmm0
	por	%xmm2, %xmm0
	movdqu	336(%rdi), %xmm1
	por	%xmm4, %xmm1
	por	%xmm3, %xmm1
	movdqu	352(%rdi), %xmm2
	movdqu	368(%rdi), %xmm3
	movdqu	384(%rdi), %xmm4
	por	%xmm2, %xmm4
	movdqu	400(%rdi), %xmm2
	por	%xmm3, %xmm2
	movdqu	416(%rdi), %xmm3
	por	%xmm4, %xmm3
	movdqu	432(%rdi), %xmm4
	por	%xmm2, %xmm4
	movdqu	448(%rdi), %xmm2
	por	%xmm3, %xmm2
	movdqu	464(%rdi), %xmm3
	por	%xmm4, %xmm3
	movdqu	480(%rdi), %xmm4
	por	%xmm2, %xmm4
	por	%xmm0, %xmm4
	movdqu	496(%rdi), %xmm0
	por	%xmm3, %xmm0
	por	%xmm1, %xmm0
	por	%xmm4, %xmm0
	ptest	%xmm0, %xmm0
	je	1f
	pause
1:
	retq
	vj_end	blake2_digest..wiping..settle..512_1_v2

	vj_function	blake2_state..blake2s..State..absorb_blocks_1_v2
	pushq	%rbp
	pushq	%r15
	pushq	%r14
	pushq	%r13
	pushq	%r12
	pushq	%rbx
	subq	$104, %rsp
	movq	%rsi, %r14
	movq	%rdi, %rbx
	movzwl	72(%rdi), %r13d
	movl	$64, %r12d
	subq	%r13, %r12
	movq	%rdx, %rbp
	subq	%r12, %rbp
	jbe	1f
	movq	64(%rbx), %r8
	movups	(%rbx), %xmm0
	movups	16(%rbx), %xmm1
	movups	32(%rbx), %xmm2
	movups	48(%rbx), %xmm3
	xorl	%eax, %eax
	cmpw	$0, 78(%rbx)
	setne	%al
	movaps	%xmm0, 16(%rsp)
	movaps	%xmm1, 32(%rsp)
	movaps	%xmm2, 48(%rsp)
	movaps	%xmm3, 64(%rsp)
	movq	%r8, 80(%rsp)
	movq	%rax, 88(%rsp)
	leaq	80(%rbx), %r15
	testq	%r13, %r13
	je	9f
	leaq	(%r15,%r13), %rdi
	movq	%rdi, %rax
	subq	%r14, %rax
	cmpq	%r12, %rax
	jae	10f
	cmpl	$4, %r12d
	jae	11f
	xorl	%eax, %eax
	jmp	22f
1:
	leaq	(%rbx,%r13), %rdi
	addq	$80, %rdi
	movq	%rdi, %rax
	subq	%r14, %rax
	cmpq	%rdx, %rax
	jae	7f
	cmpq	$4, %rdx
	jb	2f
	leaq	(%rbx,%r13), %rax
	subq	%r14, %rax
	addq	$80, %rax
	cmpq	$32, %rax
	jae	12f
2:
	xorl	%eax, %eax
3:
	movq	%rdx, %rsi
	movq	%rax, %rcx
	andq	$3, %rsi
	je	5f
	movq	%rax, %rcx
	.p2align	4
4:
	movzbl	(%r14,%rcx), %r8d
	movb	%r8b, (%rdi,%rcx)
	incq	%rcx
	decq	%rsi
	jne	4b
5:
	subq	%rdx, %rax
	cmpq	$-4, %rax
	ja	8f
	leaq	(%rbx,%r13), %rax
	addq	$83, %rax
	.p2align	4
6:
	movzbl	(%r14,%rcx), %esi
	movb	%sil, -3(%rax,%rcx)
	movzbl	1(%r14,%rcx), %esi
	movb	%sil, -2(%rax,%rcx)
	movzbl	2(%r14,%rcx), %esi
	movb	%sil, -1(%rax,%rcx)
	movzbl	3(%r14,%rcx), %esi
	movb	%sil, (%rax,%rcx)
	addq	$4, %rcx
	cmpq	%rcx, %rdx
	jne	6b
	jmp	8f
7:
	movq	%r14, %rsi
	movq	%rdx, %r14
	vj_c_call	memmove
	movq	%r14, %rdx
8:
	addl	%r13d, %edx
	movw	%dx, 72(%rbx)
	jmp	36f
9:
	movq	%rdx, %rbp
	jmp	24f
10:
	movq	%r14, %rsi
	movq	%r12, %rdx
	movq	%r8, %r13
	vj_c_call	memmove
	movq	%r13, %r8
	jmp	23f
11:
	leaq	(%rbx,%r13), %rax
	subq	%r14, %rax
	addq	$80, %rax
	cmpq	$32, %rax
	jae	13f
	xorl	%eax, %eax
	jmp	22f
12:
	cmpq	$32, %rdx
	jae	14f
	xorl	%eax, %eax
	jmp	16f
13:
	cmpl	$32, %r12d
	jae	18f
	xorl	%eax, %eax
	jmp	20f
14:
	movq	%rdx, %rax
	andq	$-32, %rax
	leaq	(%rbx,%r13), %rcx
	addq	$96, %rcx
	xorl	%esi, %esi
	.p2align	4
15:
	movups	(%r14,%rsi), %xmm0
	movups	16(%r14,%rsi), %xmm1
	movups	%xmm0, -16(%rcx,%rsi)
	movups	%xmm1, (%rcx,%rsi)
	addq	$32, %rsi
	cmpq	%rsi, %rax
	jne	15b
	cmpq	%rax, %rdx
	je	8b
	testb	$28, %dl
	je	3b
16:
	movq	%rax, %rcx
	movq	%rdx, %rax
	andq	$-4, %rax
	.p2align	4
17:
	movl	(%r14,%rcx), %esi
	movl	%esi, (%rdi,%rcx)
	addq	$4, %rcx
	cmpq	%rcx, %rax
	jne	17b
	cmpq	%rax, %rdx
	je	8b
	jmp	3b
18:
	movq	%r12, %rax
	andq	$-32, %rax
	leaq	(%rbx,%r13), %rcx
	addq	$96, %rcx
	xorl	%edx, %edx
	.p2align	4
19:
	movups	(%r14,%rdx), %xmm0
	movups	16(%r14,%rdx), %xmm1
	movups	%xmm0, -16(%rcx,%rdx)
	movups	%xmm1, (%rcx,%rdx)
	addq	$32, %rdx
	cmpq	%rdx, %rax
	jne	19b
	cmpl	%eax, %r12d
	je	23f
	testb	$28, %r12b
	je	22f
20:
	movq	%rax, %rcx
	movq	%r12, %rax
	andq	$-4, %rax
	.p2align	4
21:
	movl	(%r14,%rcx), %edx
	movl	%edx, (%rdi,%rcx)
	addq	$4, %rcx
	cmpq	%rcx, %rax
	jne	21b
	cmpl	%eax, %r12d
	je	23f
	.p2align	4
22:
	movzbl	(%r14,%rax), %ecx
	movb	%cl, (%rdi,%rax)
	incq	%rax
	cmpq	%rax, %r12
	jne	22b
23:
	addq	%r12, %r14
	addq	$64, %r8
	movq	%r8, 80(%rsp)
	leaq	16(%rsp), %rdi
	movq	%r15, %rsi
	movq	%r8, %rdx
	xorl	%ecx, %ecx
	xorl	%r8d, %r8d
	vj_call	blake2_compress..compress..blake2s..compress_1_v2
24:
	cmpq	$1, %rbp
	movq	%rbp, 8(%rsp)
	movq	%rbp, %r13
	adcq	$-1, %r13
	movq	%r13, %rbp
	andq	$-64, %rbp
	shrq	$6, %r13
	je	26f
	movq	%r14, %r12
	.p2align	4
25:
	movq	80(%rsp), %rdx
	addq	$64, %rdx
	movq	%rdx, 80(%rsp)
	leaq	16(%rsp), %rdi
	movq	%r12, %rsi
	xorl	%ecx, %ecx
	xorl	%r8d, %r8d
	vj_call	blake2_compress..compress..blake2s..compress_1_v2
	addq	$64, %r12
	decq	%r13
	jne	25b
26:
	leaq	(%r14,%rbp), %rsi
	movq	8(%rsp), %r12
	subq	%rbp, %r12
	xorps	%xmm0, %xmm0
	movups	%xmm0, 48(%r15)
	movups	%xmm0, 32(%r15)
	movups	%xmm0, 16(%r15)
	movups	%xmm0, (%r15)
	movq	%r15, %rax
	subq	%rsi, %rax
	cmpq	%r12, %rax
	jae	27f
	cmpq	$4, %r12
	jae	28f
	xorl	%eax, %eax
	jmp	34f
27:
	movq	%r15, %rdi
	movq	%r12, %rdx
	vj_c_call	memmove
	jmp	35f
28:
	movq	%rbx, %rax
	subq	%rsi, %rax
	addq	$80, %rax
	cmpq	$32, %rax
	jae	29f
	xorl	%eax, %eax
	jmp	34f
29:
	cmpq	$32, %r12
	jae	30f
	xorl	%eax, %eax
	jmp	32f
30:
	movq	8(%rsp), %rdx
	movl	%edx, %ecx
	andl	$31, %ecx
	movq	%r12, %rax
	subq	%rcx, %rax
	andq	$-32, %rdx
	subq	%rbp, %rdx
	leaq	(%r14,%rbp), %rdi
	addq	$16, %rdi
	xorl	%r8d, %r8d
	.p2align	4
31:
	movups	-16(%rdi,%r8), %xmm0
	movups	(%rdi,%r8), %xmm1
	movups	%xmm0, 80(%rbx,%r8)
	movups	%xmm1, 96(%rbx,%r8)
	addq	$32, %r8
	cmpq	%r8, %rdx
	jne	31b
	testq	%rcx, %rcx
	je	35f
	cmpl	$4, %ecx
	jb	34f
32:
	movq	%rax, %rcx
	movq	8(%rsp), %rdi
	andl	$3, %edi
	movq	%r12, %rax
	subq	%rdi, %rax
	.p2align	4
33:
	movl	(%rsi,%rcx), %edx
	movl	%edx, (%r15,%rcx)
	addq	$4, %rcx
	cmpq	%rcx, %rax
	jne	33b
	testq	%rdi, %rdi
	je	35f
	.p2align	4
34:
	movzbl	(%rsi,%rax), %ecx
	movb	%cl, (%r15,%rax)
	incq	%rax
	cmpq	%rax, %r12
	jne	34b
35:
	movw	%r12w, 72(%rbx)
	movaps	16(%rsp), %xmm0
	movups	%xmm0, (%rbx)
	movaps	32(%rsp), %xmm0
	movups	%xmm0, 16(%rbx)
	movq	80(%rsp), %rax
	movq	%rax, 64(%rbx)
36:
	addq	$104, %rsp
	popq	%rbx
	popq	%r12
	popq	%r13
	popq	%r14
	popq	%r15
	popq	%rbp
	retq
	vj_end	blake2_state..blake2s..State..absorb_blocks_1_v2

	vj_function	blake2_ffi..several..blake2s..update_in_frame_1_v2
	vj_jump	blake2_state..many..blake2s..update_many_1_v2
	vj_end	blake2_ffi..several..blake2s..update_in_frame_1_v2

	vj_shared	blake2_state..many..blake2s..update_many_1_v2
	testq	%rcx, %rcx
	je	17f
	pushq	%rbp
	pushq	%r15
	pushq	%r14
	pushq	%r13
	pushq	%r12
	pushq	%rbx
	subq	$2392, %rsp
	movq	%rcx, %r13
	movq	%rdx, %rbp
	movq	%rdi, %r12
	leaq	8(%rdx), %rax
	movq	%rax, 496(%rsp)
	xorl	%r14d, %r14d
	movq	%rcx, 520(%rsp)
	movq	%rdx, 512(%rsp)
	movq	%rdi, 504(%rsp)
	jmp	3f
	.p2align	4
1:
	movl	$8, %ebx
	movq	520(%rsp), %r13
	movq	512(%rsp), %rbp
	movq	504(%rsp), %r12
	movq	64(%rsp), %r14
2:
	addq	%rbx, %r14
	cmpq	%r13, %r14
	jae	16f
3:
	movq	%r13, %rax
	subq	%r14, %rax
	imulq	$176, %r14, %rdi
	cmpq	$7, %rax
	jbe	10f
	movq	%r14, 64(%rsp)
	movq	%r14, %rax
	shlq	$4, %rax
	movq	8(%rbp,%rax), %rdx
	movzwl	72(%r12,%rdi), %ecx
	leaq	(%rdx,%rcx), %rsi
	movzwl	248(%rdi,%r12), %r15d
	movq	24(%rbp,%rax), %r8
	addq	%r15, %r8
	cmpq	%rsi, %r8
	cmovaeq	%rsi, %r8
	movzwl	424(%rdi,%r12), %r14d
	movq	40(%rbp,%rax), %rsi
	addq	%r14, %rsi
	cmpq	%r8, %rsi
	cmovaeq	%r8, %rsi
	movzwl	600(%rdi,%r12), %r9d
	movq	56(%rbp,%rax), %r8
	movq	%r9, 8(%rsp)
	addq	%r9, %r8
	cmpq	%rsi, %r8
	cmovaeq	%rsi, %r8
	movzwl	776(%rdi,%r12), %ebx
	movq	72(%rbp,%rax), %rsi
	addq	%rbx, %rsi
	cmpq	%r8, %rsi
	cmovaeq	%r8, %rsi
	movzwl	952(%rdi,%r12), %r11d
	movq	88(%rbp,%rax), %r8
	addq	%r11, %r8
	cmpq	%rsi, %r8
	cmovaeq	%rsi, %r8
	movzwl	1128(%rdi,%r12), %r10d
	movq	104(%rbp,%rax), %rsi
	addq	%r10, %rsi
	cmpq	%r8, %rsi
	cmovaeq	%r8, %rsi
	movzwl	1304(%rdi,%r12), %r9d
	movq	120(%rbp,%rax), %r8
	addq	%r9, %r8
	cmpq	%rsi, %r8
	cmovaeq	%rsi, %r8
	cmpq	$65, %r8
	jb	12f
	leaq	(%r12,%rdi), %rdx
	movq	%rbx, 56(%rsp)
	leaq	(%rdi,%r12), %rbx
	addq	$176, %rbx
	xorps	%xmm0, %xmm0
	movaps	%xmm0, 752(%rsp)
	movaps	%xmm0, 768(%rsp)
	movaps	%xmm0, 784(%rsp)
	movaps	%xmm0, 800(%rsp)
	movaps	%xmm0, 816(%rsp)
	movaps	%xmm0, 832(%rsp)
	movaps	%xmm0, 848(%rsp)
	movaps	%xmm0, 864(%rsp)
	movaps	%xmm0, 880(%rsp)
	movaps	%xmm0, 896(%rsp)
	movaps	%xmm0, 912(%rsp)
	movaps	%xmm0, 928(%rsp)
	movaps	%xmm0, 944(%rsp)
	movaps	%xmm0, 960(%rsp)
	movaps	%xmm0, 976(%rsp)
	movaps	%xmm0, 992(%rsp)
	movd	(%rdx), %xmm0
	pinsrd	$1, (%rbx), %xmm0
	pinsrd	$2, 176(%rbx), %xmm0
	pinsrd	$3, 352(%rbx), %xmm0
	movdqa	%xmm0, 464(%rsp)
	movd	528(%rbx), %xmm0
	pinsrd	$1, 704(%rbx), %xmm0
	pinsrd	$2, 880(%rbx), %xmm0
	pinsrd	$3, 1056(%rbx), %xmm0
	movdqa	%xmm0, 480(%rsp)
	movd	4(%rdx), %xmm0
	pinsrd	$1, 4(%rbx), %xmm0
	pinsrd	$2, 180(%rbx), %xmm0
	pinsrd	$3, 356(%rbx), %xmm0
	movdqa	%xmm0, 1344(%rsp)
	movd	532(%rbx), %xmm0
	pinsrd	$1, 708(%rbx), %xmm0
	pinsrd	$2, 884(%rbx), %xmm0
	pinsrd	$3, 1060(%rbx), %xmm0
	movdqa	%xmm0, 1328(%rsp)
	movd	8(%rdx), %xmm0
	pinsrd	$1, 8(%rbx), %xmm0
	pinsrd	$2, 184(%rbx), %xmm0
	pinsrd	$3, 360(%rbx), %xmm0
	movdqa	%xmm0, 1312(%rsp)
	movd	536(%rbx), %xmm0
	pinsrd	$1, 712(%rbx), %xmm0
	pinsrd	$2, 888(%rbx), %xmm0
	pinsrd	$3, 1064(%rbx), %xmm0
	movdqa	%xmm0, 1296(%rsp)
	movd	12(%rdx), %xmm0
	pinsrd	$1, 12(%rbx), %xmm0
	pinsrd	$2, 188(%rbx), %xmm0
	pinsrd	$3, 364(%rbx), %xmm0
	movdqa	%xmm0, 1280(%rsp)
	movd	540(%rbx), %xmm0
	pinsrd	$1, 716(%rbx), %xmm0
	pinsrd	$2, 892(%rbx), %xmm0
	pinsrd	$3, 1068(%rbx), %xmm0
	movdqa	%xmm0, 1264(%rsp)
	movd	16(%rdx), %xmm0
	pinsrd	$1, 16(%rbx), %xmm0
	pinsrd	$2, 192(%rbx), %xmm0
	pinsrd	$3, 368(%rbx), %xmm0
	movdqa	%xmm0, 1248(%rsp)
	movd	544(%rbx), %xmm0
	pinsrd	$1, 720(%rbx), %xmm0
	pinsrd	$2, 896(%rbx), %xmm0
	pinsrd	$3, 1072(%rbx), %xmm0
	movdqa	%xmm0, 1232(%rsp)
	movd	20(%rdx), %xmm0
	pinsrd	$1, 20(%rbx), %xmm0
	pinsrd	$2, 196(%rbx), %xmm0
	pinsrd	$3, 372(%rbx), %xmm0
	movdqa	%xmm0, 1216(%rsp)
	movd	548(%rbx), %xmm0
	pinsrd	$1, 724(%rbx), %xmm0
	pinsrd	$2, 900(%rbx), %xmm0
	pinsrd	$3, 1076(%rbx), %xmm0
	movdqa	%xmm0, 1200(%rsp)
	movd	24(%rdx), %xmm0
	pinsrd	$1, 24(%rbx), %xmm0
	pinsrd	$2, 200(%rbx), %xmm0
	pinsrd	$3, 376(%rbx), %xmm0
	movdqa	%xmm0, 1184(%rsp)
	movd	552(%rbx), %xmm0
	pinsrd	$1, 728(%rbx), %xmm0
	pinsrd	$2, 904(%rbx), %xmm0
	pinsrd	$3, 1080(%rbx), %xmm0
	movdqa	%xmm0, 1168(%rsp)
	movd	28(%rdx), %xmm0
	pinsrd	$1, 28(%rbx), %xmm0
	pinsrd	$2, 204(%rbx), %xmm0
	pinsrd	$3, 380(%rbx), %xmm0
	movdqa	%xmm0, 1152(%rsp)
	movd	556(%rbx), %xmm0
	pinsrd	$1, 732(%rbx), %xmm0
	pinsrd	$2, 908(%rbx), %xmm0
	pinsrd	$3, 1084(%rbx), %xmm0
	movdqa	%xmm0, 1136(%rsp)
	movq	(%rbp,%rax), %rsi
	movq	%rsi, 600(%rsp)
	movq	%rdx, 72(%rsp)
	movups	80(%rdx), %xmm0
	movups	96(%rdx), %xmm1
	movups	112(%rdx), %xmm2
	movups	128(%rdx), %xmm3
	movaps	%xmm3, 128(%rsp)
	movaps	%xmm2, 112(%rsp)
	movaps	%xmm1, 96(%rsp)
	movaps	%xmm0, 80(%rsp)
	leaq	16(%rax), %r13
	leaq	32(%rax), %r12
	leaq	48(%rax), %rdx
	movq	%rdx, 32(%rsp)
	leaq	64(%rax), %rdx
	movq	%rdx, 24(%rsp)
	leaq	80(%rax), %rdx
	movq	%rdx, 536(%rsp)
	leaq	96(%rax), %rdx
	movq	%rdx, 40(%rsp)
	addq	$112, %rax
	movq	%rax, 48(%rsp)
	decq	%r8
	shrq	$6, %r8
	movq	%r8, 16(%rsp)
	leaq	(%rsp,%rcx), %rdi
	addq	$80, %rdi
	movl	$64, %edx
	subq	%rcx, %rdx
	movq	%rdx, 592(%rsp)
	movq	%r9, 568(%rsp)
	movq	%r10, 544(%rsp)
	movq	%r11, 528(%rsp)
	vj_c_call	memcpy
	movaps	80(%rsp), %xmm0
	movaps	96(%rsp), %xmm1
	movaps	112(%rsp), %xmm2
	movaps	128(%rsp), %xmm3
	movaps	%xmm3, 384(%rsp)
	movaps	%xmm2, 368(%rsp)
	movaps	%xmm1, 352(%rsp)
	movaps	%xmm0, 336(%rsp)
	movaps	%xmm0, 1872(%rsp)
	movaps	%xmm1, 1888(%rsp)
	movaps	%xmm2, 1904(%rsp)
	movaps	%xmm3, 1920(%rsp)
	movq	(%rbp,%r13), %rsi
	movq	%rsi, 584(%rsp)
	movups	80(%rbx), %xmm0
	movups	96(%rbx), %xmm1
	movups	112(%rbx), %xmm2
	movups	128(%rbx), %xmm3
	movaps	%xmm3, 128(%rsp)
	movaps	%xmm2, 112(%rsp)
	movaps	%xmm1, 96(%rsp)
	movaps	%xmm0, 80(%rsp)
	leaq	(%rsp,%r15), %rdi
	addq	$80, %rdi
	movl	$64, %edx
	subq	%r15, %rdx
	movq	%rdx, 576(%rsp)
	vj_c_call	memcpy
	movaps	80(%rsp), %xmm0
	movaps	96(%rsp), %xmm1
	movaps	112(%rsp), %xmm2
	movaps	128(%rsp), %xmm3
	movaps	%xmm3, 384(%rsp)
	movaps	%xmm2, 368(%rsp)
	movaps	%xmm1, 352(%rsp)
	movaps	%xmm0, 336(%rsp)
	leaq	1936(%rsp), %r13
	movups	%xmm3, 48(%r13)
	movups	%xmm2, 32(%r13)
	movups	%xmm1, 16(%r13)
	movups	%xmm0, (%r13)
	movq	(%rbp,%r12), %rsi
	movq	%rsi, 560(%rsp)
	movups	256(%rbx), %xmm0
	movups	272(%rbx), %xmm1
	movups	288(%rbx), %xmm2
	movups	304(%rbx), %xmm3
	movaps	%xmm3, 128(%rsp)
	movaps	%xmm2, 112(%rsp)
	movaps	%xmm1, 96(%rsp)
	movaps	%xmm0, 80(%rsp)
	leaq	(%rsp,%r14), %rdi
	addq	$80, %rdi
	movl	$64, %edx
	subq	%r14, %rdx
	movq	%rdx, 552(%rsp)
	vj_c_call	memcpy
	movaps	80(%rsp), %xmm0
	movaps	96(%rsp), %xmm1
	movaps	112(%rsp), %xmm2
	movaps	128(%rsp), %xmm3
	movaps	%xmm3, 384(%rsp)
	movaps	%xmm2, 368(%rsp)
	movaps	%xmm1, 352(%rsp)
	movaps	%xmm0, 336(%rsp)
	movups	%xmm3, 112(%r13)
	movups	%xmm2, 96(%r13)
	movups	%xmm1, 80(%r13)
	movups	%xmm0, 64(%r13)
	movq	32(%rsp), %rax
	movq	(%rbp,%rax), %rsi
	movq	%rsi, 32(%rsp)
	movups	432(%rbx), %xmm0
	movups	448(%rbx), %xmm1
	movups	464(%rbx), %xmm2
	movups	480(%rbx), %xmm3
	movaps	%xmm3, 128(%rsp)
	movaps	%xmm2, 112(%rsp)
	movaps	%xmm1, 96(%rsp)
	movaps	%xmm0, 80(%rsp)
	movq	8(%rsp), %rax
	leaq	(%rsp,%rax), %rdi
	addq	$80, %rdi
	movl	$64, %edx
	subq	%rax, %rdx
	movq	%rdx, 8(%rsp)
	vj_c_call	memcpy
	movaps	80(%rsp), %xmm0
	movaps	96(%rsp), %xmm1
	movaps	112(%rsp), %xmm2
	movaps	128(%rsp), %xmm3
	movaps	%xmm3, 384(%rsp)
	movaps	%xmm2, 368(%rsp)
	movaps	%xmm1, 352(%rsp)
	movaps	%xmm0, 336(%rsp)
	movups	%xmm3, 176(%r13)
	movups	%xmm2, 160(%r13)
	movups	%xmm1, 144(%r13)
	movups	%xmm0, 128(%r13)
	movq	24(%rsp), %rax
	movq	(%rbp,%rax), %rsi
	movq	%rsi, 24(%rsp)
	movups	608(%rbx), %xmm0
	movups	624(%rbx), %xmm1
	movups	640(%rbx), %xmm2
	movups	656(%rbx), %xmm3
	movaps	%xmm3, 128(%rsp)
	movaps	%xmm2, 112(%rsp)
	movaps	%xmm1, 96(%rsp)
	movaps	%xmm0, 80(%rsp)
	movq	56(%rsp), %rax
	leaq	(%rsp,%rax), %rdi
	addq	$80, %rdi
	movl	$64, %r12d
	subq	%rax, %r12
	movq	%r12, %rdx
	vj_c_call	memcpy
	movaps	80(%rsp), %xmm0
	movaps	96(%rsp), %xmm1
	movaps	112(%rsp), %xmm2
	movaps	128(%rsp), %xmm3
	movaps	%xmm3, 384(%rsp)
	movaps	%xmm2, 368(%rsp)
	movaps	%xmm1, 352(%rsp)
	movaps	%xmm0, 336(%rsp)
	movups	%xmm3, 240(%r13)
	movups	%xmm2, 224(%r13)
	movups	%xmm1, 208(%r13)
	movups	%xmm0, 192(%r13)
	movq	536(%rsp), %rax
	movq	(%rbp,%rax), %rsi
	movq	%rsi, 56(%rsp)
	movups	784(%rbx), %xmm0
	movups	800(%rbx), %xmm1
	movups	816(%rbx), %xmm2
	movups	832(%rbx), %xmm3
	movaps	%xmm3, 128(%rsp)
	movaps	%xmm2, 112(%rsp)
	movaps	%xmm1, 96(%rsp)
	movaps	%xmm0, 80(%rsp)
	movq	528(%rsp), %rax
	leaq	(%rsp,%rax), %rdi
	addq	$80, %rdi
	movl	$64, %r15d
	subq	%rax, %r15
	movq	%r15, %rdx
	vj_c_call	memcpy
	movaps	80(%rsp), %xmm0
	movaps	96(%rsp), %xmm1
	movaps	112(%rsp), %xmm2
	movaps	128(%rsp), %xmm3
	movaps	%xmm3, 384(%rsp)
	movaps	%xmm2, 368(%rsp)
	movaps	%xmm1, 352(%rsp)
	movaps	%xmm0, 336(%rsp)
	movups	%xmm3, 304(%r13)
	movups	%xmm2, 288(%r13)
	movups	%xmm1, 272(%r13)
	movups	%xmm0, 256(%r13)
	movq	40(%rsp), %rax
	movq	(%rbp,%rax), %rsi
	movq	%rsi, 40(%rsp)
	movups	960(%rbx), %xmm0
	movups	976(%rbx), %xmm1
	movups	992(%rbx), %xmm2
	movups	1008(%rbx), %xmm3
	movaps	%xmm3, 128(%rsp)
	movaps	%xmm2, 112(%rsp)
	movaps	%xmm1, 96(%rsp)
	movaps	%xmm0, 80(%rsp)
	movq	544(%rsp), %rax
	leaq	(%rsp,%rax), %rdi
	addq	$80, %rdi
	movl	$64, %r14d
	subq	%rax, %r14
	movq	%r14, %rdx
	vj_c_call	memcpy
	movaps	80(%rsp), %xmm0
	movaps	96(%rsp), %xmm1
	movaps	112(%rsp), %xmm2
	movaps	128(%rsp), %xmm3
	movaps	%xmm3, 384(%rsp)
	movaps	%xmm2, 368(%rsp)
	movaps	%xmm1, 352(%rsp)
	movaps	%xmm0, 336(%rsp)
	movups	%xmm3, 368(%r13)
	movups	%xmm2, 352(%r13)
	movups	%xmm1, 336(%r13)
	movups	%xmm0, 320(%r13)
	movq	48(%rsp), %rax
	movq	(%rbp,%rax), %rsi
	movq	%rsi, 48(%rsp)
	movups	1136(%rbx), %xmm0
	movups	1152(%rbx), %xmm1
	movups	1168(%rbx), %xmm2
	movups	1184(%rbx), %xmm3
	movaps	%xmm3, 128(%rsp)
	movaps	%xmm2, 112(%rsp)
	movaps	%xmm1, 96(%rsp)
	movaps	%xmm0, 80(%rsp)
	movq	568(%rsp), %rax
	leaq	(%rsp,%rax), %rdi
	addq	$80, %rdi
	movl	$64, %edx
	subq	%rax, %rdx
	movq	%rdx, %rbp
	vj_c_call	memcpy
	movaps	128(%rsp), %xmm0
	movaps	%xmm0, 384(%rsp)
	movups	%xmm0, 432(%r13)
	movaps	112(%rsp), %xmm0
	movaps	%xmm0, 368(%rsp)
	movups	%xmm0, 416(%r13)
	movaps	96(%rsp), %xmm0
	movaps	%xmm0, 352(%rsp)
	movups	%xmm0, 400(%r13)
	movaps	80(%rsp), %xmm0
	movaps	%xmm0, 336(%rsp)
	movups	%xmm0, 384(%r13)
	movq	592(%rsp), %rax
	addq	600(%rsp), %rax
	movq	576(%rsp), %rcx
	addq	584(%rsp), %rcx
	movq	552(%rsp), %rdx
	addq	560(%rsp), %rdx
	movq	8(%rsp), %rsi
	addq	32(%rsp), %rsi
	addq	24(%rsp), %r12
	addq	56(%rsp), %r15
	addq	40(%rsp), %r14
	addq	48(%rsp), %rbp
	movq	%rax, 1008(%rsp)
	movq	16(%rsp), %rax
	decq	%rax
	movq	%rax, 1016(%rsp)
	movq	%rcx, 1024(%rsp)
	movq	%rax, 1032(%rsp)
	movq	%rdx, 1040(%rsp)
	movq	%rax, 1048(%rsp)
	movq	%rsi, 1056(%rsp)
	movq	%rax, 1064(%rsp)
	movq	%r12, 1072(%rsp)
	movq	%rax, 1080(%rsp)
	movq	%r15, 1088(%rsp)
	movq	%rax, 1096(%rsp)
	movq	%r14, 1104(%rsp)
	movq	%rax, 1112(%rsp)
	movq	%rbp, 1120(%rsp)
	movq	%rax, 1128(%rsp)
	movq	72(%rsp), %rax
	movq	64(%rax), %rsi
	movq	64(%rbx), %rdi
	movq	240(%rbx), %r8
	movq	416(%rbx), %r9
	movq	592(%rbx), %rax
	movq	768(%rbx), %rcx
	movq	944(%rbx), %rdx
	movq	1120(%rbx), %r10
	movaps	480(%rsp), %xmm0
	movups	%xmm0, 96(%rsp)
	movaps	464(%rsp), %xmm0
	movups	%xmm0, 80(%rsp)
	movaps	1328(%rsp), %xmm0
	movups	%xmm0, 128(%rsp)
	movaps	1344(%rsp), %xmm0
	movups	%xmm0, 112(%rsp)
	movaps	1296(%rsp), %xmm0
	movups	%xmm0, 160(%rsp)
	movaps	1312(%rsp), %xmm0
	movups	%xmm0, 144(%rsp)
	movaps	1264(%rsp), %xmm0
	movups	%xmm0, 192(%rsp)
	movaps	1280(%rsp), %xmm0
	movups	%xmm0, 176(%rsp)
	movaps	1232(%rsp), %xmm0
	movups	%xmm0, 224(%rsp)
	movaps	1248(%rsp), %xmm0
	movups	%xmm0, 208(%rsp)
	movaps	1200(%rsp), %xmm0
	movups	%xmm0, 256(%rsp)
	movaps	1216(%rsp), %xmm0
	movups	%xmm0, 240(%rsp)
	movaps	1168(%rsp), %xmm0
	movups	%xmm0, 288(%rsp)
	movaps	1184(%rsp), %xmm0
	movups	%xmm0, 272(%rsp)
	movaps	1136(%rsp), %xmm0
	movups	%xmm0, 320(%rsp)
	movaps	1152(%rsp), %xmm0
	movups	%xmm0, 304(%rsp)
	xorps	%xmm0, %xmm0
	movaps	%xmm0, 656(%rsp)
	movaps	%xmm0, 640(%rsp)
	movaps	%xmm0, 624(%rsp)
	movaps	%xmm0, 608(%rsp)
	movaps	%xmm0, 672(%rsp)
	movaps	1920(%rsp), %xmm0
	movaps	%xmm0, 1856(%rsp)
	movaps	1904(%rsp), %xmm0
	movaps	%xmm0, 1840(%rsp)
	movaps	1888(%rsp), %xmm0
	movaps	%xmm0, 1824(%rsp)
	movaps	1872(%rsp), %xmm0
	movaps	%xmm0, 1808(%rsp)
	movups	48(%r13), %xmm0
	movaps	%xmm0, 1792(%rsp)
	movups	32(%r13), %xmm0
	movaps	%xmm0, 1776(%rsp)
	movups	16(%r13), %xmm0
	movaps	%xmm0, 1760(%rsp)
	movups	(%r13), %xmm0
	movaps	%xmm0, 1744(%rsp)
	movups	112(%r13), %xmm0
	movaps	%xmm0, 1728(%rsp)
	movups	96(%r13), %xmm0
	movaps	%xmm0, 1712(%rsp)
	movups	80(%r13), %xmm0
	movaps	%xmm0, 1696(%rsp)
	movups	64(%r13), %xmm0
	movaps	%xmm0, 1680(%rsp)
	movups	176(%r13), %xmm0
	movaps	%xmm0, 1664(%rsp)
	movups	160(%r13), %xmm0
	movaps	%xmm0, 1648(%rsp)
	movups	144(%r13), %xmm0
	movaps	%xmm0, 1632(%rsp)
	movups	128(%r13), %xmm0
	movaps	%xmm0, 1616(%rsp)
	movups	240(%r13), %xmm0
	movaps	%xmm0, 1600(%rsp)
	movups	224(%r13), %xmm0
	movaps	%xmm0, 1584(%rsp)
	movups	208(%r13), %xmm0
	movaps	%xmm0, 1568(%rsp)
	movups	192(%r13), %xmm0
	movaps	%xmm0, 1552(%rsp)
	movups	304(%r13), %xmm0
	movaps	%xmm0, 1536(%rsp)
	movups	288(%r13), %xmm0
	movaps	%xmm0, 1520(%rsp)
	movups	272(%r13), %xmm0
	movaps	%xmm0, 1504(%rsp)
	movups	256(%r13), %xmm0
	movaps	%xmm0, 1488(%rsp)
	movups	368(%r13), %xmm0
	movaps	%xmm0, 1472(%rsp)
	movups	352(%r13), %xmm0
	movaps	%xmm0, 1456(%rsp)
	movups	336(%r13), %xmm0
	movaps	%xmm0, 1440(%rsp)
	movups	320(%r13), %xmm0
	movaps	%xmm0, 1424(%rsp)
	movups	432(%r13), %xmm0
	movaps	%xmm0, 1408(%rsp)
	movups	416(%r13), %xmm0
	movaps	%xmm0, 1392(%rsp)
	movups	400(%r13), %xmm0
	movaps	%xmm0, 1376(%rsp)
	movups	384(%r13), %xmm0
	movq	%rax, %r13
	movaps	%xmm0, 1360(%rsp)
	movq	%rsi, %r15
	leaq	64(%rsi), %rax
	movq	%rax, 688(%rsp)
	movq	%rdi, %r12
	leaq	64(%rdi), %rax
	movq	%rax, 696(%rsp)
	movq	%r8, %rbp
	leaq	64(%r8), %rax
	movq	%rax, 704(%rsp)
	movq	%r9, 8(%rsp)
	leaq	64(%r9), %rax
	movq	%rax, 712(%rsp)
	leaq	64(%r13), %rax
	movq	%rax, 720(%rsp)
	movq	%rcx, %rbx
	leaq	64(%rcx), %rax
	movq	%rax, 728(%rsp)
	movq	%rdx, %r14
	leaq	64(%rdx), %rax
	movq	%rax, 736(%rsp)
	movq	%r10, 464(%rsp)
	leaq	64(%r10), %rax
	movq	%rax, 744(%rsp)
	leaq	1808(%rsp), %rax
	movq	%rax, 336(%rsp)
	movq	$1, 344(%rsp)
	leaq	1744(%rsp), %rax
	movq	%rax, 352(%rsp)
	movq	$1, 360(%rsp)
	leaq	1680(%rsp), %rax
	movq	%rax, 368(%rsp)
	movq	$1, 376(%rsp)
	leaq	1616(%rsp), %rax
	movq	%rax, 384(%rsp)
	movq	$1, 392(%rsp)
	leaq	1552(%rsp), %rax
	movq	%rax, 400(%rsp)
	movq	$1, 408(%rsp)
	leaq	1488(%rsp), %rax
	movq	%rax, 416(%rsp)
	movq	$1, 424(%rsp)
	leaq	1424(%rsp), %rax
	movq	%rax, 432(%rsp)
	movq	$1, 440(%rsp)
	leaq	1360(%rsp), %rax
	movq	%rax, 448(%rsp)
	movq	$1, 456(%rsp)
	leaq	80(%rsp), %rdi
	leaq	336(%rsp), %rsi
	leaq	688(%rsp), %rdx
	leaq	672(%rsp), %rcx
	callq	blake2_compress..many..blake2s..compress_blocks_1_v2
	movq	16(%rsp), %r8
	decq	%r8
	je	4f
	subq	$-128, %r15
	subq	$-128, %r12
	subq	$-128, %rbp
	movq	8(%rsp), %rax
	subq	$-128, %rax
	subq	$-128, %r13
	subq	$-128, %rbx
	subq	$-128, %r14
	movq	464(%rsp), %rcx
	subq	$-128, %rcx
	movq	%r15, 608(%rsp)
	movq	%r12, 616(%rsp)
	movq	%rbp, 624(%rsp)
	movq	%rax, 632(%rsp)
	movq	%r13, 640(%rsp)
	movq	%rbx, 648(%rsp)
	movq	%r14, 656(%rsp)
	movq	%rcx, 664(%rsp)
	leaq	80(%rsp), %rdi
	leaq	1008(%rsp), %rsi
	leaq	608(%rsp), %rdx
	leaq	672(%rsp), %rcx
	movq	%r8, %rbx
	callq	blake2_compress..many..blake2s..compress_blocks_1_v2
	movq	%rbx, %r8
4:
	movdqu	144(%rsp), %xmm5
	movdqu	176(%rsp), %xmm4
	movdqu	240(%rsp), %xmm7
	movdqu	208(%rsp), %xmm1
	movdqu	272(%rsp), %xmm3
	movdqu	304(%rsp), %xmm2
	movdqu	80(%rsp), %xmm6
	movdqu	112(%rsp), %xmm8
	movdqa	%xmm6, %xmm0
	punpckldq	%xmm8, %xmm0
	punpcklqdq	%xmm5, %xmm0
	pshufd	$0, %xmm4, %xmm9
	pblendw	$63, %xmm0, %xmm9
	movdqa	%xmm9, 752(%rsp)
	movdqa	%xmm1, %xmm0
	punpckldq	%xmm7, %xmm0
	punpcklqdq	%xmm3, %xmm0
	pshufd	$0, %xmm2, %xmm9
	pblendw	$63, %xmm0, %xmm9
	movdqu	96(%rsp), %xmm0
	movdqa	%xmm9, 768(%rsp)
	pshufd	$85, %xmm6, %xmm9
	pblendw	$12, %xmm8, %xmm9
	shufps	$212, %xmm5, %xmm9
	insertps	$112, %xmm4, %xmm9
	movaps	%xmm9, 784(%rsp)
	pshufd	$85, %xmm1, %xmm9
	pblendw	$12, %xmm7, %xmm9
	shufps	$212, %xmm3, %xmm9
	insertps	$112, %xmm2, %xmm9
	movaps	%xmm9, 800(%rsp)
	punpckhdq	%xmm8, %xmm6
	movdqa	%xmm6, %xmm8
	pblendw	$240, %xmm5, %xmm8
	pshufd	$170, %xmm4, %xmm10
	pblendw	$63, %xmm8, %xmm10
	movdqu	128(%rsp), %xmm9
	movdqa	%xmm10, 816(%rsp)
	punpckhdq	%xmm7, %xmm1
	movdqa	%xmm1, %xmm7
	pblendw	$240, %xmm3, %xmm7
	pshufd	$170, %xmm2, %xmm8
	pblendw	$63, %xmm7, %xmm8
	movdqu	160(%rsp), %xmm7
	movdqa	%xmm8, 832(%rsp)
	movdqu	192(%rsp), %xmm8
	shufps	$254, %xmm5, %xmm6
	movdqu	256(%rsp), %xmm10
	blendps	$8, %xmm4, %xmm6
	movdqu	224(%rsp), %xmm4
	movaps	%xmm6, 848(%rsp)
	movdqu	288(%rsp), %xmm5
	shufps	$254, %xmm3, %xmm1
	movdqu	320(%rsp), %xmm3
	blendps	$8, %xmm2, %xmm1
	movaps	%xmm1, 864(%rsp)
	movdqa	%xmm0, %xmm1
	punpckldq	%xmm9, %xmm1
	punpcklqdq	%xmm7, %xmm1
	pshufd	$0, %xmm8, %xmm2
	pblendw	$63, %xmm1, %xmm2
	movdqa	%xmm2, 880(%rsp)
	movdqa	%xmm4, %xmm1
	punpckldq	%xmm10, %xmm1
	punpcklqdq	%xmm5, %xmm1
	pshufd	$0, %xmm3, %xmm2
	pblendw	$63, %xmm1, %xmm2
	movdqa	%xmm2, 896(%rsp)
	pshufd	$85, %xmm0, %xmm1
	pblendw	$12, %xmm9, %xmm1
	shufps	$212, %xmm7, %xmm1
	insertps	$112, %xmm8, %xmm1
	movaps	%xmm1, 912(%rsp)
	pshufd	$85, %xmm4, %xmm1
	pblendw	$12, %xmm10, %xmm1
	shufps	$212, %xmm5, %xmm1
	insertps	$112, %xmm3, %xmm1
	movaps	%xmm1, 928(%rsp)
	punpckhdq	%xmm9, %xmm0
	movdqa	%xmm0, %xmm1
	pblendw	$240, %xmm7, %xmm1
	pshufd	$170, %xmm8, %xmm2
	pblendw	$63, %xmm1, %xmm2
	movdqa	%xmm2, 944(%rsp)
	punpckhdq	%xmm10, %xmm4
	movdqa	%xmm4, %xmm1
	pblendw	$240, %xmm5, %xmm1
	pshufd	$170, %xmm3, %xmm2
	pblendw	$63, %xmm1, %xmm2
	movdqa	%xmm2, 960(%rsp)
	shufps	$254, %xmm7, %xmm0
	blendps	$8, %xmm8, %xmm0
	movaps	%xmm0, 976(%rsp)
	shufps	$254, %xmm5, %xmm4
	blendps	$8, %xmm3, %xmm4
	movaps	%xmm4, 992(%rsp)
	shlq	$6, %r8
	leaq	64(%r8), %rax
	movq	%rax, 464(%rsp)
	movq	64(%rsp), %rax
	shlq	$4, %rax
	addq	496(%rsp), %rax
	movq	%rax, 480(%rsp)
	xorl	%ebx, %ebx
	xorl	%ebp, %ebp
	movq	%r8, 16(%rsp)
	jmp	8f
	.p2align	4
5:
	movq	8(%rsp), %rdi
	movq	%r14, %rsi
	movq	%r12, %rdx
6:
	callq	blake2_state..blake2s..State..absorb_blocks_1_v2
7:
	movq	16(%rsp), %r8
	addq	$176, %rbp
	addq	$16, %rbx
	cmpq	$1408, %rbp
	je	1b
8:
	movq	72(%rsp), %r13
	movq	%r13, %rax
	addq	%rbp, %rax
	movq	%rax, 8(%rsp)
	movq	480(%rsp), %rax
	movq	-8(%rax,%rbx), %r14
	movq	(%rax,%rbx), %r12
	movzwl	72(%r13,%rbp), %eax
	movq	%r8, %rcx
	subq	%rax, %rcx
	leaq	128(%rcx), %r15
	cmpq	%r15, %r12
	cmovbq	%r12, %r15
	subq	%r15, %r12
	leaq	(%r14,%rcx), %rsi
	addq	$64, %rsi
	addq	$64, %rcx
	movups	752(%rsp,%rbx,2), %xmm0
	movups	768(%rsp,%rbx,2), %xmm1
	movups	%xmm1, 16(%r13,%rbp)
	movups	%xmm0, (%r13,%rbp)
	movq	464(%rsp), %rax
	addq	%rax, 64(%r13,%rbp)
	addq	%r15, %r14
	subq	%rcx, %r15
	movw	%r15w, 72(%r13,%rbp)
	xorps	%xmm0, %xmm0
	movaps	%xmm0, 128(%rsp)
	movaps	%xmm0, 112(%rsp)
	movaps	%xmm0, 96(%rsp)
	movaps	%xmm0, 80(%rsp)
	leaq	80(%rsp), %rdi
	movq	%r15, %rdx
	vj_c_call	memcpy
	movaps	80(%rsp), %xmm0
	movaps	96(%rsp), %xmm1
	movaps	112(%rsp), %xmm2
	movaps	128(%rsp), %xmm3
	movups	%xmm0, 80(%r13,%rbp)
	movups	%xmm1, 96(%r13,%rbp)
	movups	%xmm2, 112(%r13,%rbp)
	movups	%xmm3, 128(%r13,%rbp)
	cmpq	$1, %r12
	jne	5b
	movq	8(%rsp), %rdi
	cmpw	$64, %r15w
	jae	9f
	movzbl	(%r14), %eax
	movl	%r15d, %ecx
	andl	$63, %ecx
	movb	%al, 80(%rcx,%rdi)
	incl	%r15d
	movq	72(%rsp), %rax
	movw	%r15w, 72(%rax,%rbp)
	jmp	7b
	.p2align	4
9:
	movl	$1, %edx
	movq	%r14, %rsi
	jmp	6b
	.p2align	4
10:
	movq	%r14, %rax
	shlq	$4, %rax
	movq	8(%rbp,%rax), %rdx
	addq	%r12, %rdi
	movq	(%rbp,%rax), %rsi
	cmpq	$1, %rdx
	jne	13f
11:
	movzwl	72(%rdi), %eax
	cmpq	$64, %rax
	jae	15f
	movzbl	(%rsi), %ecx
	movb	%cl, 80(%rdi,%rax)
	incl	%eax
	movw	%ax, 72(%rdi)
	jmp	14f
	.p2align	4
12:
	movq	64(%rsp), %r14
	addq	%r12, %rdi
	movq	(%rbp,%rax), %rsi
	cmpq	$1, %rdx
	je	11b
13:
	callq	blake2_state..blake2s..State..absorb_blocks_1_v2
14:
	movl	$1, %ebx
	jmp	2b
15:
	movl	$1, %ebx
	movl	$1, %edx
	callq	blake2_state..blake2s..State..absorb_blocks_1_v2
	jmp	2b
16:
	addq	$2392, %rsp
	popq	%rbx
	popq	%r12
	popq	%r13
	popq	%r14
	popq	%r15
	popq	%rbp
17:
	retq
	vj_end	blake2_state..many..blake2s..update_many_1_v2

	vj_constants	16
	.p2align	4, 0x0
.L1_v2_CPI56_0:
	.long	3766232660
	.long	3766232660
	.long	3766232660
	.long	3766232660
.L1_v2_CPI56_1:
	.long	528734635
	.long	528734635
	.long	528734635
	.long	528734635
.L1_v2_CPI56_2:
	.long	2753508070
	.long	2753508070
	.long	2753508070
	.long	2753508070
.L1_v2_CPI56_3:
	.long	1541459225
	.long	1541459225
	.long	1541459225
	.long	1541459225
.L1_v2_CPI56_4:
	.long	1359893119
	.long	1359893119
	.long	1359893119
	.long	1359893119
.L1_v2_CPI56_5:
	.byte	2
	.byte	3
	.byte	0
	.byte	1
	.byte	6
	.byte	7
	.byte	4
	.byte	5
	.byte	10
	.byte	11
	.byte	8
	.byte	9
	.byte	14
	.byte	15
	.byte	12
	.byte	13
.L1_v2_CPI56_6:
	.long	1779033703
	.long	1779033703
	.long	1779033703
	.long	1779033703
.L1_v2_CPI56_7:
	.byte	1
	.byte	2
	.byte	3
	.byte	0
	.byte	5
	.byte	6
	.byte	7
	.byte	4
	.byte	9
	.byte	10
	.byte	11
	.byte	8
	.byte	13
	.byte	14
	.byte	15
	.byte	12
.L1_v2_CPI56_8:
	.long	2600822924
	.long	2600822924
	.long	2600822924
	.long	2600822924
.L1_v2_CPI56_9:
	.long	3144134277
	.long	3144134277
	.long	3144134277
	.long	3144134277
.L1_v2_CPI56_10:
	.long	1013904242
	.long	1013904242
	.long	1013904242
	.long	1013904242
.L1_v2_CPI56_11:
	.long	2773480762
	.long	2773480762
	.long	2773480762
	.long	2773480762
	vj_function	blake2_compress..many..blake2s..compress_blocks_1_v2
	pushq	%rbp
	pushq	%r15
	pushq	%r14
	pushq	%r12
	pushq	%rbx
	subq	$1328, %rsp
	movq	8(%rsi), %rax
	movups	(%rdi), %xmm0
	movaps	%xmm0, 944(%rsp)
	movdqu	16(%rdi), %xmm12
	movdqu	32(%rdi), %xmm11
	movdqu	48(%rdi), %xmm2
	movdqu	80(%rdi), %xmm7
	movdqu	64(%rdi), %xmm4
	movdqu	112(%rdi), %xmm1
	movdqu	96(%rdi), %xmm3
	movdqu	144(%rdi), %xmm10
	movdqu	128(%rdi), %xmm6
	movdqu	176(%rdi), %xmm13
	movdqu	160(%rdi), %xmm5
	movdqu	208(%rdi), %xmm14
	movdqu	192(%rdi), %xmm9
	movdqu	240(%rdi), %xmm15
	movups	224(%rdi), %xmm0
	movaps	%xmm0, 1008(%rsp)
	testq	%rax, %rax
	je	2f
	movq	(%rsi), %r8
	movq	16(%rsi), %r9
	movzbl	10(%rcx), %r10d
	movzbl	8(%rcx), %r11d
	movd	%r11d, %xmm0
	pinsrd	$1, %r10d, %xmm0
	movq	32(%rsi), %r10
	movzbl	12(%rcx), %r11d
	pinsrd	$2, %r11d, %xmm0
	movq	48(%rsi), %r11
	movzbl	14(%rcx), %ebx
	pinsrd	$3, %ebx, %xmm0
	pslld	$31, %xmm0
	movdqa	%xmm14, 1072(%rsp)
	movdqa	%xmm1, %xmm14
	movaps	.L1_v2_CPI56_0(%rip), %xmm1
	movdqa	%xmm10, 1040(%rsp)
	movdqa	%xmm3, %xmm10
	movaps	.L1_v2_CPI56_1(%rip), %xmm3
	movdqa	%xmm6, 1024(%rsp)
	movdqa	%xmm7, %xmm6
	movaps	%xmm3, %xmm7
	blendvps	%xmm0, %xmm1, %xmm7
	movaps	%xmm7, 1296(%rsp)
	movzbl	2(%rcx), %ebx
	movzbl	(%rcx), %ebp
	movd	%ebp, %xmm0
	pinsrd	$1, %ebx, %xmm0
	movq	64(%rsi), %rbx
	movzbl	4(%rcx), %ebp
	pinsrd	$2, %ebp, %xmm0
	movzbl	6(%rcx), %ebp
	pinsrd	$3, %ebp, %xmm0
	pslld	$31, %xmm0
	blendvps	%xmm0, %xmm1, %xmm3
	movaps	%xmm3, 1312(%rsp)
	movzbl	11(%rcx), %ebp
	movzbl	9(%rcx), %r14d
	movd	%r14d, %xmm0
	pinsrd	$1, %ebp, %xmm0
	movq	80(%rsi), %r14
	movzbl	13(%rcx), %ebp
	pinsrd	$2, %ebp, %xmm0
	movq	96(%rsi), %r15
	movzbl	15(%rcx), %ebp
	pinsrd	$3, %ebp, %xmm0
	pslld	$31, %xmm0
	movaps	.L1_v2_CPI56_2(%rip), %xmm1
	movaps	.L1_v2_CPI56_3(%rip), %xmm3
	movaps	%xmm3, %xmm7
	blendvps	%xmm0, %xmm1, %xmm7
	movaps	%xmm7, 1264(%rsp)
	movzbl	3(%rcx), %ebp
	movzbl	1(%rcx), %r12d
	movd	%r12d, %xmm0
	pinsrd	$1, %ebp, %xmm0
	movq	112(%rsi), %rsi
	movzbl	5(%rcx), %ebp
	pinsrd	$2, %ebp, %xmm0
	movzbl	7(%rcx), %ecx
	pinsrd	$3, %ecx, %xmm0
	pslld	$31, %xmm0
	blendvps	%xmm0, %xmm1, %xmm3
	movaps	%xmm3, 1280(%rsp)
	movups	(%rdx), %xmm0
	movaps	%xmm0, 1248(%rsp)
	movups	16(%rdx), %xmm0
	movaps	%xmm0, 1232(%rsp)
	movups	32(%rdx), %xmm0
	movaps	%xmm0, 1216(%rsp)
	movdqu	48(%rdx), %xmm0
	movdqa	%xmm0, 1200(%rsp)
	xorl	%ecx, %ecx
	movdqa	%xmm12, 1088(%rsp)
	movdqa	%xmm13, %xmm1
	movdqa	%xmm12, %xmm13
	movdqa	944(%rsp), %xmm12
	movdqa	%xmm2, 1120(%rsp)
	movdqa	%xmm2, 128(%rsp)
	movdqa	%xmm11, 1104(%rsp)
	movdqa	%xmm11, 112(%rsp)
	movdqa	%xmm4, 1136(%rsp)
	movdqa	%xmm4, 16(%rsp)
	movdqa	%xmm6, 1152(%rsp)
	movdqa	%xmm6, 80(%rsp)
	movdqa	%xmm10, 1168(%rsp)
	movdqa	%xmm10, (%rsp)
	movdqa	%xmm14, 1184(%rsp)
	movdqa	%xmm14, 288(%rsp)
	movdqa	%xmm15, 992(%rsp)
	movdqa	%xmm5, 960(%rsp)
	movdqa	%xmm9, 976(%rsp)
	movdqa	%xmm1, 1056(%rsp)
	.p2align	4
1:
	movdqu	(%r8,%rcx), %xmm1
	movdqu	(%r9,%rcx), %xmm0
	movdqa	%xmm1, %xmm2
	punpckhdq	%xmm0, %xmm1
	punpckldq	%xmm0, %xmm2
	movups	16(%r8,%rcx), %xmm4
	movups	16(%r9,%rcx), %xmm0
	movaps	%xmm4, %xmm8
	unpcklps	%xmm0, %xmm8
	unpckhps	%xmm0, %xmm4
	movaps	%xmm4, %xmm3
	movdqu	(%r10,%rcx), %xmm4
	movdqu	(%r11,%rcx), %xmm5
	movdqa	%xmm4, %xmm0
	punpckldq	%xmm5, %xmm0
	punpckhdq	%xmm5, %xmm4
	movups	16(%r10,%rcx), %xmm5
	movups	16(%r11,%rcx), %xmm6
	movaps	%xmm5, %xmm9
	unpcklps	%xmm6, %xmm9
	unpckhps	%xmm6, %xmm5
	movaps	%xmm3, %xmm6
	movlhps	%xmm5, %xmm6
	movaps	%xmm6, 912(%rsp)
	unpckhpd	%xmm5, %xmm3
	movaps	%xmm3, 464(%rsp)
	movdqa	%xmm1, %xmm5
	punpcklqdq	%xmm4, %xmm5
	movdqa	%xmm5, 832(%rsp)
	punpckhqdq	%xmm4, %xmm1
	movdqa	%xmm1, 768(%rsp)
	movaps	%xmm8, %xmm1
	unpckhpd	%xmm9, %xmm8
	movaps	%xmm8, 480(%rsp)
	movlhps	%xmm9, %xmm1
	movaps	%xmm1, 544(%rsp)
	movdqu	(%rbx,%rcx), %xmm1
	movdqu	(%r14,%rcx), %xmm4
	movdqa	%xmm1, %xmm15
	punpckldq	%xmm4, %xmm15
	punpckhdq	%xmm4, %xmm1
	movdqa	%xmm2, %xmm4
	punpckhqdq	%xmm0, %xmm2
	movdqa	%xmm2, 512(%rsp)
	punpcklqdq	%xmm0, %xmm4
	movdqa	%xmm4, %xmm7
	movdqa	%xmm4, 896(%rsp)
	movups	16(%rbx,%rcx), %xmm4
	movups	16(%r14,%rcx), %xmm0
	movaps	%xmm4, %xmm2
	unpcklps	%xmm0, %xmm2
	unpckhps	%xmm0, %xmm4
	movaps	%xmm4, %xmm8
	movdqu	(%r15,%rcx), %xmm4
	movdqu	(%rsi,%rcx), %xmm5
	movdqa	%xmm4, %xmm0
	punpckldq	%xmm5, %xmm0
	punpckhdq	%xmm5, %xmm4
	movups	16(%r15,%rcx), %xmm5
	movups	16(%rsi,%rcx), %xmm6
	movaps	%xmm5, %xmm9
	unpcklps	%xmm6, %xmm9
	unpckhps	%xmm6, %xmm5
	movaps	%xmm8, %xmm3
	movlhps	%xmm5, %xmm3
	movaps	%xmm3, 432(%rsp)
	unpckhpd	%xmm5, %xmm8
	movaps	%xmm8, 624(%rsp)
	movdqa	%xmm1, %xmm5
	punpcklqdq	%xmm4, %xmm5
	movdqa	%xmm5, 816(%rsp)
	punpckhqdq	%xmm4, %xmm1
	movdqa	%xmm1, 672(%rsp)
	movaps	%xmm2, %xmm1
	unpckhpd	%xmm9, %xmm2
	movaps	%xmm2, 736(%rsp)
	movlhps	%xmm9, %xmm1
	movaps	%xmm1, 848(%rsp)
	movups	32(%r8,%rcx), %xmm10
	movups	32(%r9,%rcx), %xmm4
	movaps	%xmm10, %xmm8
	unpcklps	%xmm4, %xmm8
	unpckhps	%xmm4, %xmm10
	movdqa	%xmm15, %xmm4
	punpckhqdq	%xmm0, %xmm15
	movdqa	%xmm15, 576(%rsp)
	punpcklqdq	%xmm0, %xmm4
	movdqa	%xmm4, %xmm15
	movdqa	%xmm4, 880(%rsp)
	movups	48(%r8,%rcx), %xmm2
	movups	48(%r9,%rcx), %xmm0
	movaps	%xmm2, %xmm1
	unpcklps	%xmm0, %xmm1
	unpckhps	%xmm0, %xmm2
	movups	32(%r10,%rcx), %xmm4
	movups	32(%r11,%rcx), %xmm5
	movaps	%xmm4, %xmm0
	unpcklps	%xmm5, %xmm0
	unpckhps	%xmm5, %xmm4
	movups	48(%r10,%rcx), %xmm5
	movups	48(%r11,%rcx), %xmm6
	movaps	%xmm5, %xmm9
	unpcklps	%xmm6, %xmm9
	unpckhps	%xmm6, %xmm5
	movaps	%xmm2, %xmm3
	movlhps	%xmm5, %xmm3
	movaps	%xmm3, 448(%rsp)
	unpckhpd	%xmm5, %xmm2
	movaps	%xmm2, 752(%rsp)
	movaps	%xmm10, %xmm2
	movlhps	%xmm4, %xmm2
	movaps	%xmm2, 496(%rsp)
	unpckhpd	%xmm4, %xmm10
	movaps	%xmm10, 704(%rsp)
	movaps	%xmm1, %xmm2
	unpckhpd	%xmm9, %xmm1
	movaps	%xmm1, 784(%rsp)
	movlhps	%xmm9, %xmm2
	movaps	%xmm2, 528(%rsp)
	movups	32(%rbx,%rcx), %xmm2
	movups	32(%r14,%rcx), %xmm4
	movaps	%xmm2, %xmm10
	unpcklps	%xmm4, %xmm10
	unpckhps	%xmm4, %xmm2
	movaps	%xmm8, %xmm1
	unpckhpd	%xmm0, %xmm8
	movaps	%xmm8, 560(%rsp)
	movlhps	%xmm0, %xmm1
	movaps	%xmm1, 800(%rsp)
	movups	48(%rbx,%rcx), %xmm4
	movups	48(%r14,%rcx), %xmm0
	movaps	%xmm4, %xmm1
	unpcklps	%xmm0, %xmm1
	unpckhps	%xmm0, %xmm4
	movaps	%xmm4, %xmm8
	movups	32(%r15,%rcx), %xmm0
	movups	32(%rsi,%rcx), %xmm4
	movaps	%xmm0, %xmm5
	unpcklps	%xmm4, %xmm5
	unpckhps	%xmm4, %xmm0
	movups	48(%r15,%rcx), %xmm4
	movups	48(%rsi,%rcx), %xmm6
	movaps	%xmm4, %xmm9
	unpcklps	%xmm6, %xmm9
	unpckhps	%xmm6, %xmm4
	movaps	%xmm1, %xmm6
	movlhps	%xmm9, %xmm6
	movaps	%xmm6, 720(%rsp)
	unpckhpd	%xmm9, %xmm1
	movaps	%xmm1, 688(%rsp)
	movaps	%xmm8, %xmm1
	movlhps	%xmm4, %xmm1
	movaps	%xmm1, 640(%rsp)
	unpckhpd	%xmm4, %xmm8
	movaps	%xmm8, 592(%rsp)
	movaps	%xmm10, %xmm1
	unpckhpd	%xmm5, %xmm10
	movaps	%xmm10, 656(%rsp)
	movlhps	%xmm5, %xmm1
	movaps	%xmm1, 416(%rsp)
	movaps	%xmm2, %xmm1
	movlhps	%xmm0, %xmm1
	movaps	%xmm1, 864(%rsp)
	unpckhpd	%xmm0, %xmm2
	movaps	%xmm2, 608(%rsp)
	movq	%rcx, %xmm0
	pshufd	$68, %xmm0, %xmm0
	movdqa	1232(%rsp), %xmm9
	paddq	%xmm0, %xmm9
	movdqa	1248(%rsp), %xmm6
	paddq	%xmm0, %xmm6
	movdqa	1216(%rsp), %xmm10
	paddq	%xmm0, %xmm10
	paddq	1200(%rsp), %xmm0
	movdqa	%xmm10, %xmm5
	shufps	$221, %xmm0, %xmm5
	shufps	$136, %xmm0, %xmm10
	movdqa	%xmm6, %xmm4
	shufps	$221, %xmm9, %xmm4
	shufps	$136, %xmm9, %xmm6
	movaps	.L1_v2_CPI56_4(%rip), %xmm0
	xorps	%xmm0, %xmm10
	xorps	%xmm0, %xmm6
	movdqa	1024(%rsp), %xmm2
	movdqa	%xmm12, %xmm8
	paddd	%xmm2, %xmm8
	paddd	%xmm7, %xmm8
	xorps	%xmm8, %xmm6
	movdqa	.L1_v2_CPI56_5(%rip), %xmm14
	pshufb	%xmm14, %xmm6
	movdqa	.L1_v2_CPI56_6(%rip), %xmm1
	movdqa	%xmm6, %xmm9
	paddd	%xmm1, %xmm9
	movdqa	%xmm9, 64(%rsp)
	movdqa	%xmm9, %xmm3
	pxor	%xmm2, %xmm3
	movdqa	%xmm3, %xmm0
	psrld	$12, %xmm0
	pslld	$20, %xmm3
	por	%xmm0, %xmm3
	movdqa	%xmm3, 256(%rsp)
	movdqa	1040(%rsp), %xmm0
	paddd	%xmm0, %xmm13
	paddd	%xmm15, %xmm13
	xorps	%xmm13, %xmm10
	movdqa	%xmm13, %xmm7
	pshufb	%xmm14, %xmm10
	paddd	%xmm10, %xmm1
	movdqa	%xmm1, %xmm2
	movdqa	%xmm1, %xmm9
	pxor	%xmm0, %xmm2
	movdqa	%xmm2, %xmm0
	psrld	$12, %xmm0
	pslld	$20, %xmm2
	por	%xmm0, %xmm2
	movdqa	%xmm2, %xmm3
	movaps	.L1_v2_CPI56_8(%rip), %xmm0
	xorps	%xmm0, %xmm5
	xorps	%xmm0, %xmm4
	movdqa	960(%rsp), %xmm0
	movdqa	112(%rsp), %xmm1
	paddd	%xmm0, %xmm1
	movdqa	%xmm0, 960(%rsp)
	paddd	832(%rsp), %xmm1
	xorps	%xmm1, %xmm4
	movdqa	%xmm1, %xmm13
	pshufb	%xmm14, %xmm4
	movdqa	.L1_v2_CPI56_9(%rip), %xmm15
	movdqa	%xmm4, %xmm2
	paddd	%xmm15, %xmm2
	movdqa	%xmm2, %xmm1
	pxor	%xmm0, %xmm1
	movdqa	%xmm1, %xmm0
	psrld	$12, %xmm0
	pslld	$20, %xmm1
	por	%xmm0, %xmm1
	movdqa	%xmm1, %xmm11
	movdqa	1056(%rsp), %xmm0
	movdqa	128(%rsp), %xmm1
	paddd	%xmm0, %xmm1
	paddd	816(%rsp), %xmm1
	xorps	%xmm1, %xmm5
	movdqa	%xmm1, %xmm12
	pshufb	%xmm14, %xmm5
	paddd	%xmm5, %xmm15
	movdqa	%xmm15, %xmm1
	pxor	%xmm0, %xmm1
	movdqa	%xmm1, %xmm0
	pslld	$20, %xmm1
	psrld	$12, %xmm0
	por	%xmm0, %xmm1
	paddd	672(%rsp), %xmm12
	paddd	%xmm1, %xmm12
	movdqa	%xmm12, 128(%rsp)
	pxor	%xmm12, %xmm5
	movdqa	.L1_v2_CPI56_7(%rip), %xmm12
	pshufb	%xmm12, %xmm5
	movdqa	%xmm5, 400(%rsp)
	paddd	%xmm5, %xmm15
	movdqa	%xmm15, 336(%rsp)
	pxor	%xmm15, %xmm1
	movdqa	%xmm1, %xmm0
	psrld	$7, %xmm0
	pslld	$25, %xmm1
	por	%xmm0, %xmm1
	movdqa	%xmm1, 352(%rsp)
	paddd	768(%rsp), %xmm13
	paddd	%xmm11, %xmm13
	movdqa	%xmm13, 112(%rsp)
	pxor	%xmm13, %xmm4
	pshufb	%xmm12, %xmm4
	movdqa	%xmm4, 304(%rsp)
	paddd	%xmm4, %xmm2
	movdqa	%xmm2, 192(%rsp)
	pxor	%xmm2, %xmm11
	movdqa	%xmm11, %xmm0
	psrld	$7, %xmm0
	pslld	$25, %xmm11
	por	%xmm0, %xmm11
	movdqa	%xmm11, 32(%rsp)
	paddd	576(%rsp), %xmm7
	paddd	%xmm3, %xmm7
	movdqa	%xmm7, 224(%rsp)
	pxor	%xmm7, %xmm10
	pshufb	%xmm12, %xmm10
	movdqa	%xmm12, %xmm5
	paddd	%xmm10, %xmm9
	movdqa	%xmm9, 176(%rsp)
	pxor	%xmm9, %xmm3
	movdqa	%xmm3, %xmm0
	psrld	$7, %xmm0
	pslld	$25, %xmm3
	por	%xmm0, %xmm3
	movdqa	%xmm3, 384(%rsp)
	movdqa	976(%rsp), %xmm0
	movdqa	16(%rsp), %xmm9
	paddd	%xmm0, %xmm9
	movdqa	%xmm0, 976(%rsp)
	paddd	544(%rsp), %xmm9
	movdqa	%xmm9, 16(%rsp)
	pxor	1312(%rsp), %xmm9
	movdqa	%xmm14, %xmm2
	pshufb	%xmm14, %xmm9
	movdqa	.L1_v2_CPI56_10(%rip), %xmm12
	movdqa	%xmm9, %xmm7
	paddd	%xmm12, %xmm7
	movdqa	%xmm7, 208(%rsp)
	pxor	%xmm0, %xmm7
	movdqa	%xmm7, %xmm0
	psrld	$12, %xmm0
	pslld	$20, %xmm7
	por	%xmm0, %xmm7
	movdqa	1072(%rsp), %xmm0
	movdqa	80(%rsp), %xmm14
	paddd	%xmm0, %xmm14
	paddd	848(%rsp), %xmm14
	movdqa	%xmm14, 80(%rsp)
	pxor	1296(%rsp), %xmm14
	pshufb	%xmm2, %xmm14
	paddd	%xmm14, %xmm12
	movdqa	%xmm12, %xmm1
	pxor	%xmm0, %xmm1
	movdqa	%xmm1, %xmm0
	psrld	$12, %xmm0
	pslld	$20, %xmm1
	por	%xmm0, %xmm1
	movdqa	%xmm1, %xmm4
	paddd	512(%rsp), %xmm8
	movdqa	256(%rsp), %xmm1
	paddd	%xmm1, %xmm8
	movdqa	%xmm8, 272(%rsp)
	pxor	%xmm8, %xmm6
	pshufb	%xmm5, %xmm6
	movdqa	%xmm6, 928(%rsp)
	movdqa	64(%rsp), %xmm0
	paddd	%xmm6, %xmm0
	movdqa	%xmm0, 64(%rsp)
	pxor	%xmm0, %xmm1
	movdqa	%xmm1, %xmm0
	psrld	$7, %xmm0
	pslld	$25, %xmm1
	por	%xmm0, %xmm1
	movdqa	%xmm1, 256(%rsp)
	movdqa	(%rsp), %xmm8
	movdqa	1008(%rsp), %xmm1
	paddd	%xmm1, %xmm8
	paddd	912(%rsp), %xmm8
	movdqa	%xmm8, %xmm0
	pxor	1280(%rsp), %xmm0
	movdqa	%xmm2, %xmm11
	pshufb	%xmm2, %xmm0
	movdqa	.L1_v2_CPI56_11(%rip), %xmm13
	movdqa	%xmm0, %xmm5
	paddd	%xmm13, %xmm5
	movdqa	%xmm5, %xmm3
	pxor	%xmm1, %xmm3
	movdqa	%xmm3, %xmm15
	psrld	$12, %xmm15
	pslld	$20, %xmm3
	por	%xmm15, %xmm3
	movdqa	992(%rsp), %xmm1
	movdqa	288(%rsp), %xmm2
	paddd	%xmm1, %xmm2
	movdqa	%xmm1, 992(%rsp)
	paddd	432(%rsp), %xmm2
	movdqa	%xmm2, %xmm15
	movdqa	%xmm2, %xmm6
	pxor	1264(%rsp), %xmm15
	pshufb	%xmm11, %xmm15
	paddd	%xmm15, %xmm13
	movdqa	%xmm13, %xmm11
	pxor	%xmm1, %xmm11
	movdqa	%xmm11, %xmm2
	psrld	$12, %xmm2
	pslld	$20, %xmm11
	por	%xmm2, %xmm11
	movdqa	80(%rsp), %xmm1
	paddd	736(%rsp), %xmm1
	paddd	%xmm4, %xmm1
	movdqa	%xmm1, 80(%rsp)
	pxor	%xmm1, %xmm14
	movdqa	.L1_v2_CPI56_7(%rip), %xmm1
	pshufb	%xmm1, %xmm14
	paddd	%xmm14, %xmm12
	movdqa	%xmm12, 160(%rsp)
	pxor	%xmm12, %xmm4
	movdqa	%xmm4, %xmm2
	psrld	$7, %xmm2
	pslld	$25, %xmm4
	por	%xmm2, %xmm4
	movdqa	%xmm4, 96(%rsp)
	paddd	624(%rsp), %xmm6
	paddd	%xmm11, %xmm6
	movdqa	%xmm6, 288(%rsp)
	pxor	%xmm6, %xmm15
	pshufb	%xmm1, %xmm15
	paddd	%xmm15, %xmm13
	pxor	%xmm13, %xmm11
	movdqa	%xmm11, %xmm2
	psrld	$7, %xmm2
	pslld	$25, %xmm11
	por	%xmm2, %xmm11
	movdqa	16(%rsp), %xmm2
	paddd	480(%rsp), %xmm2
	paddd	%xmm7, %xmm2
	movdqa	%xmm2, 16(%rsp)
	pxor	%xmm2, %xmm9
	pshufb	%xmm1, %xmm9
	movdqa	208(%rsp), %xmm2
	paddd	%xmm9, %xmm2
	pxor	%xmm2, %xmm7
	movdqa	%xmm2, %xmm4
	movdqa	%xmm7, %xmm2
	psrld	$7, %xmm2
	pslld	$25, %xmm7
	por	%xmm2, %xmm7
	paddd	464(%rsp), %xmm8
	paddd	%xmm3, %xmm8
	movdqa	%xmm8, (%rsp)
	pxor	%xmm8, %xmm0
	pshufb	%xmm1, %xmm0
	paddd	%xmm0, %xmm5
	pxor	%xmm5, %xmm3
	movdqa	%xmm5, %xmm6
	movdqa	%xmm3, %xmm2
	psrld	$7, %xmm2
	pslld	$25, %xmm3
	por	%xmm2, %xmm3
	movdqa	272(%rsp), %xmm1
	paddd	800(%rsp), %xmm1
	movdqa	32(%rsp), %xmm5
	paddd	%xmm5, %xmm1
	movdqa	%xmm1, 272(%rsp)
	pxor	%xmm1, %xmm0
	movdqa	.L1_v2_CPI56_5(%rip), %xmm12
	pshufb	%xmm12, %xmm0
	paddd	%xmm0, %xmm4
	movdqa	%xmm4, 208(%rsp)
	pxor	%xmm4, %xmm5
	movdqa	%xmm5, %xmm2
	psrld	$12, %xmm2
	pslld	$20, %xmm5
	por	%xmm2, %xmm5
	movdqa	%xmm5, 32(%rsp)
	movdqa	224(%rsp), %xmm4
	paddd	416(%rsp), %xmm4
	movdqa	352(%rsp), %xmm8
	paddd	%xmm8, %xmm4
	pxor	%xmm4, %xmm15
	pshufb	%xmm12, %xmm15
	movdqa	160(%rsp), %xmm5
	paddd	%xmm15, %xmm5
	pxor	%xmm5, %xmm8
	movdqa	%xmm8, %xmm2
	psrld	$12, %xmm2
	pslld	$20, %xmm8
	por	%xmm2, %xmm8
	movdqa	112(%rsp), %xmm1
	paddd	496(%rsp), %xmm1
	paddd	%xmm7, %xmm1
	movdqa	%xmm1, 112(%rsp)
	movdqa	928(%rsp), %xmm2
	pxor	%xmm1, %xmm2
	pshufb	%xmm12, %xmm2
	movdqa	%xmm2, 928(%rsp)
	paddd	%xmm2, %xmm6
	movdqa	%xmm6, 48(%rsp)
	pxor	%xmm6, %xmm7
	movdqa	%xmm7, %xmm2
	psrld	$12, %xmm2
	pslld	$20, %xmm7
	por	%xmm2, %xmm7
	movdqa	%xmm7, 144(%rsp)
	movdqa	128(%rsp), %xmm1
	paddd	864(%rsp), %xmm1
	movdqa	96(%rsp), %xmm6
	paddd	%xmm6, %xmm1
	movdqa	%xmm1, 128(%rsp)
	pxor	%xmm1, %xmm10
	pshufb	%xmm12, %xmm10
	paddd	%xmm10, %xmm13
	movdqa	%xmm13, 240(%rsp)
	pxor	%xmm13, %xmm6
	movdqa	%xmm6, %xmm2
	psrld	$12, %xmm2
	pslld	$20, %xmm6
	por	%xmm2, %xmm6
	movdqa	%xmm6, 96(%rsp)
	paddd	656(%rsp), %xmm4
	paddd	%xmm8, %xmm4
	movdqa	%xmm4, 224(%rsp)
	pxor	%xmm4, %xmm15
	movdqa	.L1_v2_CPI56_7(%rip), %xmm13
	pshufb	%xmm13, %xmm15
	paddd	%xmm15, %xmm5
	movdqa	%xmm5, 160(%rsp)
	pxor	%xmm5, %xmm8
	movdqa	%xmm8, %xmm1
	movdqa	%xmm8, %xmm2
	psrld	$7, %xmm2
	pslld	$25, %xmm1
	por	%xmm2, %xmm1
	movdqa	%xmm1, 352(%rsp)
	movdqa	16(%rsp), %xmm1
	paddd	528(%rsp), %xmm1
	paddd	%xmm3, %xmm1
	movdqa	%xmm1, 16(%rsp)
	movdqa	304(%rsp), %xmm6
	pxor	%xmm1, %xmm6
	movdqa	%xmm12, %xmm4
	pshufb	%xmm12, %xmm6
	movdqa	64(%rsp), %xmm1
	paddd	%xmm6, %xmm1
	movdqa	%xmm1, 64(%rsp)
	pxor	%xmm1, %xmm3
	movdqa	%xmm3, %xmm2
	psrld	$12, %xmm2
	pslld	$20, %xmm3
	por	%xmm2, %xmm3
	movdqa	272(%rsp), %xmm12
	paddd	560(%rsp), %xmm12
	movdqa	32(%rsp), %xmm5
	paddd	%xmm5, %xmm12
	pxor	%xmm12, %xmm0
	pshufb	%xmm13, %xmm0
	movdqa	208(%rsp), %xmm1
	paddd	%xmm0, %xmm1
	movdqa	%xmm1, 208(%rsp)
	pxor	%xmm1, %xmm5
	movdqa	%xmm5, %xmm2
	psrld	$7, %xmm2
	pslld	$25, %xmm5
	por	%xmm2, %xmm5
	movdqa	%xmm5, 32(%rsp)
	movdqa	80(%rsp), %xmm1
	paddd	720(%rsp), %xmm1
	movdqa	%xmm11, %xmm8
	paddd	%xmm11, %xmm1
	movdqa	400(%rsp), %xmm5
	pxor	%xmm1, %xmm5
	movdqa	%xmm1, %xmm7
	pshufb	%xmm4, %xmm5
	movdqa	176(%rsp), %xmm1
	paddd	%xmm5, %xmm1
	pxor	%xmm1, %xmm8
	movdqa	%xmm8, %xmm2
	psrld	$12, %xmm2
	pslld	$20, %xmm8
	por	%xmm2, %xmm8
	paddd	688(%rsp), %xmm7
	paddd	%xmm8, %xmm7
	movdqa	%xmm7, 80(%rsp)
	pxor	%xmm7, %xmm5
	pshufb	%xmm13, %xmm5
	paddd	%xmm5, %xmm1
	movdqa	%xmm1, 176(%rsp)
	pxor	%xmm1, %xmm8
	movdqa	%xmm8, %xmm2
	psrld	$7, %xmm2
	pslld	$25, %xmm8
	por	%xmm2, %xmm8
	movdqa	%xmm8, 320(%rsp)
	movdqa	(%rsp), %xmm1
	paddd	448(%rsp), %xmm1
	movdqa	256(%rsp), %xmm2
	paddd	%xmm2, %xmm1
	movdqa	%xmm1, (%rsp)
	pxor	%xmm1, %xmm9
	movdqa	%xmm4, %xmm1
	pshufb	%xmm4, %xmm9
	movdqa	192(%rsp), %xmm4
	paddd	%xmm9, %xmm4
	movdqa	%xmm4, 192(%rsp)
	pxor	%xmm4, %xmm2
	movdqa	%xmm2, %xmm11
	psrld	$12, %xmm2
	pslld	$20, %xmm11
	por	%xmm2, %xmm11
	movdqa	16(%rsp), %xmm2
	paddd	784(%rsp), %xmm2
	paddd	%xmm3, %xmm2
	movdqa	%xmm2, 16(%rsp)
	pxor	%xmm2, %xmm6
	pshufb	%xmm13, %xmm6
	movdqa	64(%rsp), %xmm2
	paddd	%xmm6, %xmm2
	movdqa	%xmm2, 64(%rsp)
	pxor	%xmm2, %xmm3
	movdqa	%xmm3, %xmm2
	psrld	$7, %xmm2
	pslld	$25, %xmm3
	por	%xmm2, %xmm3
	movdqa	%xmm3, 368(%rsp)
	movdqa	288(%rsp), %xmm2
	paddd	640(%rsp), %xmm2
	movdqa	384(%rsp), %xmm8
	paddd	%xmm8, %xmm2
	pxor	%xmm2, %xmm14
	movdqa	%xmm2, %xmm7
	pshufb	%xmm1, %xmm14
	movdqa	336(%rsp), %xmm2
	paddd	%xmm14, %xmm2
	pxor	%xmm2, %xmm8
	movdqa	%xmm2, %xmm4
	movdqa	%xmm8, %xmm2
	psrld	$12, %xmm2
	pslld	$20, %xmm8
	por	%xmm2, %xmm8
	movdqa	128(%rsp), %xmm1
	paddd	608(%rsp), %xmm1
	movdqa	96(%rsp), %xmm3
	paddd	%xmm3, %xmm1
	movdqa	%xmm1, 128(%rsp)
	pxor	%xmm1, %xmm10
	pshufb	%xmm13, %xmm10
	movdqa	240(%rsp), %xmm1
	paddd	%xmm10, %xmm1
	movdqa	%xmm1, 240(%rsp)
	pxor	%xmm1, %xmm3
	movdqa	%xmm3, %xmm2
	psrld	$7, %xmm2
	pslld	$25, %xmm3
	por	%xmm2, %xmm3
	movdqa	%xmm3, 96(%rsp)
	paddd	592(%rsp), %xmm7
	paddd	%xmm8, %xmm7
	movdqa	%xmm7, 288(%rsp)
	pxor	%xmm7, %xmm14
	movdqa	%xmm13, %xmm1
	pshufb	%xmm13, %xmm14
	paddd	%xmm14, %xmm4
	movdqa	%xmm4, 336(%rsp)
	pxor	%xmm4, %xmm8
	movdqa	%xmm8, %xmm2
	psrld	$7, %xmm2
	pslld	$25, %xmm8
	por	%xmm2, %xmm8
	movdqa	112(%rsp), %xmm13
	paddd	704(%rsp), %xmm13
	movdqa	144(%rsp), %xmm3
	paddd	%xmm3, %xmm13
	movdqa	928(%rsp), %xmm4
	pxor	%xmm13, %xmm4
	pshufb	%xmm1, %xmm4
	movdqa	48(%rsp), %xmm2
	paddd	%xmm4, %xmm2
	movdqa	%xmm2, 48(%rsp)
	pxor	%xmm2, %xmm3
	movdqa	%xmm3, %xmm2
	psrld	$7, %xmm2
	pslld	$25, %xmm3
	por	%xmm2, %xmm3
	movdqa	%xmm3, 144(%rsp)
	movdqa	(%rsp), %xmm2
	paddd	752(%rsp), %xmm2
	paddd	%xmm11, %xmm2
	movdqa	%xmm2, (%rsp)
	pxor	%xmm2, %xmm9
	pshufb	%xmm1, %xmm9
	movdqa	192(%rsp), %xmm2
	paddd	%xmm9, %xmm2
	pxor	%xmm2, %xmm11
	movdqa	%xmm2, %xmm3
	movdqa	%xmm11, %xmm2
	psrld	$7, %xmm2
	pslld	$25, %xmm11
	por	%xmm2, %xmm11
	paddd	448(%rsp), %xmm12
	paddd	%xmm11, %xmm12
	movdqa	%xmm11, %xmm7
	pxor	%xmm12, %xmm4
	movdqa	.L1_v2_CPI56_5(%rip), %xmm11
	pshufb	%xmm11, %xmm4
	movdqa	64(%rsp), %xmm1
	paddd	%xmm4, %xmm1
	movdqa	%xmm1, 64(%rsp)
	pxor	%xmm1, %xmm7
	movdqa	%xmm7, %xmm2
	psrld	$12, %xmm2
	pslld	$20, %xmm7
	por	%xmm2, %xmm7
	movdqa	%xmm7, 256(%rsp)
	paddd	544(%rsp), %xmm13
	movdqa	32(%rsp), %xmm1
	paddd	%xmm1, %xmm13
	pxor	%xmm13, %xmm6
	movdqa	%xmm11, %xmm7
	pshufb	%xmm11, %xmm6
	paddd	%xmm6, %xmm3
	movdqa	%xmm3, 192(%rsp)
	pxor	%xmm3, %xmm1
	movdqa	%xmm1, %xmm2
	psrld	$12, %xmm2
	pslld	$20, %xmm1
	por	%xmm2, %xmm1
	movdqa	%xmm1, 32(%rsp)
	movdqa	224(%rsp), %xmm11
	paddd	640(%rsp), %xmm11
	paddd	%xmm8, %xmm11
	pxor	%xmm11, %xmm10
	pshufb	%xmm7, %xmm10
	movdqa	176(%rsp), %xmm1
	paddd	%xmm10, %xmm1
	movdqa	%xmm1, 176(%rsp)
	pxor	%xmm1, %xmm8
	movdqa	%xmm8, %xmm2
	psrld	$12, %xmm2
	pslld	$20, %xmm8
	por	%xmm2, %xmm8
	movdqa	%xmm8, 384(%rsp)
	movdqa	128(%rsp), %xmm2
	paddd	848(%rsp), %xmm2
	movdqa	352(%rsp), %xmm1
	paddd	%xmm1, %xmm2
	pxor	%xmm2, %xmm5
	movdqa	%xmm2, %xmm8
	pshufb	%xmm7, %xmm5
	movdqa	336(%rsp), %xmm2
	paddd	%xmm5, %xmm2
	pxor	%xmm2, %xmm1
	movdqa	%xmm2, %xmm7
	movdqa	%xmm1, %xmm2
	psrld	$12, %xmm2
	pslld	$20, %xmm1
	por	%xmm2, %xmm1
	paddd	416(%rsp), %xmm8
	paddd	%xmm1, %xmm8
	movdqa	%xmm8, 128(%rsp)
	pxor	%xmm8, %xmm5
	movdqa	.L1_v2_CPI56_7(%rip), %xmm3
	pshufb	%xmm3, %xmm5
	movdqa	%xmm5, 400(%rsp)
	paddd	%xmm5, %xmm7
	movdqa	%xmm7, 336(%rsp)
	pxor	%xmm7, %xmm1
	movdqa	%xmm1, %xmm2
	psrld	$7, %xmm2
	pslld	$25, %xmm1
	por	%xmm2, %xmm1
	movdqa	%xmm1, 352(%rsp)
	movdqa	16(%rsp), %xmm1
	paddd	560(%rsp), %xmm1
	movdqa	144(%rsp), %xmm2
	paddd	%xmm2, %xmm1
	movdqa	%xmm1, 16(%rsp)
	pxor	%xmm1, %xmm9
	movdqa	.L1_v2_CPI56_5(%rip), %xmm8
	pshufb	%xmm8, %xmm9
	movdqa	208(%rsp), %xmm5
	paddd	%xmm9, %xmm5
	movdqa	%xmm5, 208(%rsp)
	movdqa	%xmm2, %xmm1
	pxor	%xmm5, %xmm1
	movdqa	%xmm1, %xmm2
	psrld	$12, %xmm2
	pslld	$20, %xmm1
	por	%xmm2, %xmm1
	movdqa	%xmm1, 144(%rsp)
	movdqa	%xmm13, %xmm1
	paddd	800(%rsp), %xmm1
	movdqa	32(%rsp), %xmm5
	paddd	%xmm5, %xmm1
	movdqa	%xmm1, 112(%rsp)
	pxor	%xmm1, %xmm6
	pshufb	%xmm3, %xmm6
	movdqa	%xmm3, %xmm13
	movdqa	192(%rsp), %xmm1
	paddd	%xmm6, %xmm1
	movdqa	%xmm1, 192(%rsp)
	pxor	%xmm1, %xmm5
	movdqa	%xmm5, %xmm2
	psrld	$7, %xmm2
	pslld	$25, %xmm5
	por	%xmm2, %xmm5
	movdqa	%xmm5, 32(%rsp)
	movdqa	80(%rsp), %xmm1
	paddd	656(%rsp), %xmm1
	movdqa	96(%rsp), %xmm3
	paddd	%xmm3, %xmm1
	movdqa	%xmm1, 80(%rsp)
	pxor	%xmm1, %xmm14
	pshufb	%xmm8, %xmm14
	movdqa	160(%rsp), %xmm1
	paddd	%xmm14, %xmm1
	movdqa	%xmm1, 160(%rsp)
	pxor	%xmm1, %xmm3
	movdqa	%xmm3, %xmm2
	psrld	$12, %xmm2
	pslld	$20, %xmm3
	por	%xmm2, %xmm3
	movdqa	%xmm3, 96(%rsp)
	movdqa	%xmm11, %xmm1
	paddd	864(%rsp), %xmm1
	movdqa	384(%rsp), %xmm3
	paddd	%xmm3, %xmm1
	movdqa	%xmm1, 224(%rsp)
	pxor	%xmm1, %xmm10
	pshufb	%xmm13, %xmm10
	movdqa	176(%rsp), %xmm1
	paddd	%xmm10, %xmm1
	movdqa	%xmm1, 176(%rsp)
	pxor	%xmm1, %xmm3
	movdqa	%xmm3, %xmm2
	psrld	$7, %xmm2
	pslld	$25, %xmm3
	por	%xmm2, %xmm3
	movdqa	%xmm3, 384(%rsp)
	movdqa	(%rsp), %xmm1
	paddd	784(%rsp), %xmm1
	movdqa	368(%rsp), %xmm7
	paddd	%xmm7, %xmm1
	movdqa	%xmm1, (%rsp)
	pxor	%xmm1, %xmm0
	pshufb	%xmm8, %xmm0
	movdqa	48(%rsp), %xmm11
	paddd	%xmm0, %xmm11
	pxor	%xmm11, %xmm7
	movdqa	%xmm7, %xmm2
	psrld	$12, %xmm2
	pslld	$20, %xmm7
	por	%xmm2, %xmm7
	paddd	496(%rsp), %xmm12
	movdqa	256(%rsp), %xmm1
	paddd	%xmm1, %xmm12
	movdqa	%xmm4, %xmm2
	pxor	%xmm12, %xmm2
	movdqa	%xmm13, %xmm4
	pshufb	%xmm13, %xmm2
	movdqa	%xmm2, 928(%rsp)
	movdqa	64(%rsp), %xmm3
	paddd	%xmm2, %xmm3
	movdqa	%xmm3, 64(%rsp)
	pxor	%xmm3, %xmm1
	movdqa	%xmm1, %xmm2
	psrld	$7, %xmm2
	pslld	$25, %xmm1
	por	%xmm2, %xmm1
	movdqa	%xmm1, 256(%rsp)
	movdqa	288(%rsp), %xmm2
	paddd	688(%rsp), %xmm2
	movdqa	320(%rsp), %xmm1
	paddd	%xmm1, %xmm2
	pxor	%xmm2, %xmm15
	movdqa	%xmm2, %xmm3
	pshufb	%xmm8, %xmm15
	movdqa	240(%rsp), %xmm8
	paddd	%xmm15, %xmm8
	pxor	%xmm8, %xmm1
	movdqa	%xmm1, %xmm2
	psrld	$12, %xmm2
	pslld	$20, %xmm1
	por	%xmm2, %xmm1
	movdqa	%xmm1, %xmm5
	movdqa	80(%rsp), %xmm2
	paddd	592(%rsp), %xmm2
	movdqa	96(%rsp), %xmm1
	paddd	%xmm1, %xmm2
	movdqa	%xmm2, 80(%rsp)
	pxor	%xmm2, %xmm14
	pshufb	%xmm13, %xmm14
	movdqa	160(%rsp), %xmm13
	paddd	%xmm14, %xmm13
	pxor	%xmm13, %xmm1
	movdqa	%xmm1, %xmm2
	psrld	$7, %xmm2
	pslld	$25, %xmm1
	por	%xmm2, %xmm1
	movdqa	%xmm1, 96(%rsp)
	paddd	432(%rsp), %xmm3
	paddd	%xmm5, %xmm3
	movdqa	%xmm3, 288(%rsp)
	pxor	%xmm3, %xmm15
	pshufb	%xmm4, %xmm15
	paddd	%xmm15, %xmm8
	movdqa	%xmm8, 240(%rsp)
	pxor	%xmm8, %xmm5
	movdqa	%xmm5, %xmm2
	psrld	$7, %xmm2
	pslld	$25, %xmm5
	por	%xmm2, %xmm5
	movdqa	16(%rsp), %xmm2
	paddd	752(%rsp), %xmm2
	movdqa	144(%rsp), %xmm8
	paddd	%xmm8, %xmm2
	movdqa	%xmm2, 16(%rsp)
	pxor	%xmm2, %xmm9
	pshufb	%xmm4, %xmm9
	movdqa	%xmm4, %xmm3
	movdqa	208(%rsp), %xmm1
	paddd	%xmm9, %xmm1
	pxor	%xmm1, %xmm8
	movdqa	%xmm1, %xmm4
	movdqa	%xmm8, %xmm2
	psrld	$7, %xmm2
	pslld	$25, %xmm8
	por	%xmm2, %xmm8
	movdqa	%xmm8, 144(%rsp)
	movdqa	(%rsp), %xmm2
	paddd	912(%rsp), %xmm2
	paddd	%xmm7, %xmm2
	movdqa	%xmm2, (%rsp)
	pxor	%xmm2, %xmm0
	pshufb	%xmm3, %xmm0
	paddd	%xmm0, %xmm11
	movdqa	%xmm11, 48(%rsp)
	pxor	%xmm11, %xmm7
	movdqa	%xmm7, %xmm2
	psrld	$7, %xmm2
	pslld	$25, %xmm7
	por	%xmm2, %xmm7
	movdqa	%xmm7, %xmm3
	paddd	512(%rsp), %xmm12
	movdqa	32(%rsp), %xmm7
	paddd	%xmm7, %xmm12
	pxor	%xmm12, %xmm0
	movdqa	.L1_v2_CPI56_5(%rip), %xmm1
	pshufb	%xmm1, %xmm0
	paddd	%xmm0, %xmm4
	movdqa	%xmm4, 208(%rsp)
	pxor	%xmm4, %xmm7
	movdqa	%xmm7, %xmm2
	psrld	$12, %xmm2
	pslld	$20, %xmm7
	por	%xmm2, %xmm7
	movdqa	%xmm7, 32(%rsp)
	movdqa	224(%rsp), %xmm11
	paddd	576(%rsp), %xmm11
	movdqa	352(%rsp), %xmm8
	paddd	%xmm8, %xmm11
	pxor	%xmm11, %xmm15
	pshufb	%xmm1, %xmm15
	movdqa	%xmm13, %xmm7
	paddd	%xmm15, %xmm7
	pxor	%xmm7, %xmm8
	movdqa	%xmm8, %xmm2
	psrld	$12, %xmm2
	pslld	$20, %xmm8
	por	%xmm2, %xmm8
	movdqa	112(%rsp), %xmm2
	paddd	896(%rsp), %xmm2
	movdqa	144(%rsp), %xmm13
	paddd	%xmm13, %xmm2
	movdqa	%xmm2, 112(%rsp)
	movdqa	928(%rsp), %xmm4
	pxor	%xmm2, %xmm4
	pshufb	%xmm1, %xmm4
	movdqa	%xmm4, 928(%rsp)
	movdqa	48(%rsp), %xmm2
	paddd	%xmm4, %xmm2
	movdqa	%xmm2, 48(%rsp)
	pxor	%xmm2, %xmm13
	movdqa	%xmm13, %xmm2
	psrld	$12, %xmm2
	pslld	$20, %xmm13
	por	%xmm2, %xmm13
	movdqa	%xmm13, 144(%rsp)
	movdqa	128(%rsp), %xmm2
	paddd	880(%rsp), %xmm2
	movdqa	96(%rsp), %xmm4
	paddd	%xmm4, %xmm2
	movdqa	%xmm2, 128(%rsp)
	pxor	%xmm2, %xmm10
	pshufb	%xmm1, %xmm10
	movdqa	%xmm1, %xmm13
	movdqa	240(%rsp), %xmm1
	paddd	%xmm10, %xmm1
	movdqa	%xmm1, 240(%rsp)
	movdqa	%xmm4, %xmm2
	pxor	%xmm1, %xmm2
	movdqa	%xmm2, %xmm1
	psrld	$12, %xmm1
	pslld	$20, %xmm2
	por	%xmm1, %xmm2
	movdqa	%xmm2, 96(%rsp)
	movdqa	%xmm11, %xmm1
	paddd	720(%rsp), %xmm1
	paddd	%xmm8, %xmm1
	movdqa	%xmm1, 224(%rsp)
	pxor	%xmm1, %xmm15
	pshufb	.L1_v2_CPI56_7(%rip), %xmm15
	paddd	%xmm15, %xmm7
	movdqa	%xmm7, 160(%rsp)
	pxor	%xmm7, %xmm8
	movdqa	%xmm8, %xmm2
	psrld	$7, %xmm2
	pslld	$25, %xmm8
	por	%xmm2, %xmm8
	movdqa	%xmm8, 352(%rsp)
	movdqa	16(%rsp), %xmm4
	paddd	704(%rsp), %xmm4
	paddd	%xmm3, %xmm4
	pxor	%xmm4, %xmm6
	movdqa	%xmm13, %xmm11
	pshufb	%xmm13, %xmm6
	movdqa	64(%rsp), %xmm13
	paddd	%xmm6, %xmm13
	pxor	%xmm13, %xmm3
	movdqa	%xmm3, %xmm2
	psrld	$12, %xmm2
	pslld	$20, %xmm3
	por	%xmm2, %xmm3
	paddd	528(%rsp), %xmm12
	movdqa	32(%rsp), %xmm8
	paddd	%xmm8, %xmm12
	movdqa	%xmm12, 272(%rsp)
	pxor	%xmm12, %xmm0
	movdqa	.L1_v2_CPI56_7(%rip), %xmm7
	pshufb	%xmm7, %xmm0
	movdqa	208(%rsp), %xmm1
	paddd	%xmm0, %xmm1
	movdqa	%xmm1, 208(%rsp)
	pxor	%xmm1, %xmm8
	movdqa	%xmm8, %xmm2
	psrld	$7, %xmm2
	pslld	$25, %xmm8
	por	%xmm2, %xmm8
	movdqa	%xmm8, 32(%rsp)
	movdqa	80(%rsp), %xmm2
	paddd	608(%rsp), %xmm2
	movdqa	%xmm5, %xmm8
	paddd	%xmm5, %xmm2
	movdqa	400(%rsp), %xmm12
	pxor	%xmm2, %xmm12
	movdqa	%xmm2, %xmm1
	pshufb	%xmm11, %xmm12
	movdqa	176(%rsp), %xmm2
	paddd	%xmm12, %xmm2
	pxor	%xmm2, %xmm8
	movdqa	%xmm2, %xmm11
	movdqa	%xmm8, %xmm2
	psrld	$12, %xmm2
	pslld	$20, %xmm8
	por	%xmm2, %xmm8
	paddd	624(%rsp), %xmm1
	paddd	%xmm8, %xmm1
	movdqa	%xmm1, 80(%rsp)
	pxor	%xmm1, %xmm12
	pshufb	%xmm7, %xmm12
	paddd	%xmm12, %xmm11
	movdqa	%xmm11, 176(%rsp)
	pxor	%xmm11, %xmm8
	movdqa	%xmm8, %xmm2
	psrld	$7, %xmm2
	pslld	$25, %xmm8
	por	%xmm2, %xmm8
	movdqa	%xmm8, 320(%rsp)
	movdqa	(%rsp), %xmm1
	paddd	480(%rsp), %xmm1
	movdqa	256(%rsp), %xmm11
	paddd	%xmm11, %xmm1
	movdqa	%xmm1, (%rsp)
	pxor	%xmm1, %xmm9
	movdqa	.L1_v2_CPI56_5(%rip), %xmm5
	pshufb	%xmm5, %xmm9
	movdqa	192(%rsp), %xmm1
	paddd	%xmm9, %xmm1
	movdqa	%xmm1, 192(%rsp)
	pxor	%xmm1, %xmm11
	movdqa	%xmm11, %xmm2
	psrld	$12, %xmm2
	pslld	$20, %xmm11
	por	%xmm2, %xmm11
	paddd	464(%rsp), %xmm4
	paddd	%xmm3, %xmm4
	movdqa	%xmm4, 16(%rsp)
	pxor	%xmm4, %xmm6
	movdqa	%xmm7, %xmm8
	pshufb	%xmm7, %xmm6
	movdqa	%xmm13, %xmm1
	paddd	%xmm6, %xmm1
	movdqa	%xmm1, 64(%rsp)
	pxor	%xmm1, %xmm3
	movdqa	%xmm3, %xmm2
	psrld	$7, %xmm2
	pslld	$25, %xmm3
	por	%xmm2, %xmm3
	movdqa	%xmm3, 368(%rsp)
	movdqa	288(%rsp), %xmm1
	paddd	736(%rsp), %xmm1
	movdqa	384(%rsp), %xmm3
	paddd	%xmm3, %xmm1
	pxor	%xmm1, %xmm14
	pshufb	%xmm5, %xmm14
	movdqa	336(%rsp), %xmm2
	paddd	%xmm14, %xmm2
	pxor	%xmm2, %xmm3
	movdqa	%xmm2, %xmm5
	movdqa	%xmm3, %xmm2
	psrld	$12, %xmm2
	pslld	$20, %xmm3
	por	%xmm2, %xmm3
	movdqa	128(%rsp), %xmm2
	paddd	816(%rsp), %xmm2
	movdqa	96(%rsp), %xmm4
	paddd	%xmm4, %xmm2
	movdqa	%xmm2, 128(%rsp)
	pxor	%xmm2, %xmm10
	pshufb	%xmm7, %xmm10
	movdqa	240(%rsp), %xmm2
	paddd	%xmm10, %xmm2
	movdqa	%xmm2, 240(%rsp)
	pxor	%xmm2, %xmm4
	movdqa	%xmm4, %xmm2
	psrld	$7, %xmm2
	pslld	$25, %xmm4
	por	%xmm2, %xmm4
	movdqa	%xmm4, 96(%rsp)
	paddd	672(%rsp), %xmm1
	paddd	%xmm3, %xmm1
	movdqa	%xmm1, 288(%rsp)
	pxor	%xmm1, %xmm14
	pshufb	%xmm7, %xmm14
	paddd	%xmm14, %xmm5
	movdqa	%xmm5, 336(%rsp)
	pxor	%xmm5, %xmm3
	movdqa	%xmm3, %xmm2
	psrld	$7, %xmm2
	pslld	$25, %xmm3
	por	%xmm2, %xmm3
	movdqa	112(%rsp), %xmm13
	paddd	832(%rsp), %xmm13
	movdqa	144(%rsp), %xmm7
	paddd	%xmm7, %xmm13
	movdqa	928(%rsp), %xmm5
	pxor	%xmm13, %xmm5
	pshufb	%xmm8, %xmm5
	movdqa	48(%rsp), %xmm1
	paddd	%xmm5, %xmm1
	movdqa	%xmm1, 48(%rsp)
	pxor	%xmm1, %xmm7
	movdqa	%xmm7, %xmm2
	psrld	$7, %xmm2
	pslld	$25, %xmm7
	por	%xmm2, %xmm7
	movdqa	%xmm7, %xmm4
	movdqa	(%rsp), %xmm1
	paddd	768(%rsp), %xmm1
	paddd	%xmm11, %xmm1
	movdqa	%xmm1, (%rsp)
	pxor	%xmm1, %xmm9
	pshufb	%xmm8, %xmm9
	movdqa	192(%rsp), %xmm2
	paddd	%xmm9, %xmm2
	pxor	%xmm2, %xmm11
	movdqa	%xmm2, %xmm7
	movdqa	%xmm11, %xmm2
	psrld	$7, %xmm2
	pslld	$25, %xmm11
	por	%xmm2, %xmm11
	movdqa	272(%rsp), %xmm1
	paddd	704(%rsp), %xmm1
	paddd	%xmm11, %xmm1
	movdqa	%xmm1, 272(%rsp)
	pxor	%xmm1, %xmm5
	movdqa	.L1_v2_CPI56_5(%rip), %xmm8
	pshufb	%xmm8, %xmm5
	movdqa	64(%rsp), %xmm1
	paddd	%xmm5, %xmm1
	movdqa	%xmm1, 64(%rsp)
	pxor	%xmm1, %xmm11
	movdqa	%xmm11, %xmm2
	psrld	$12, %xmm2
	pslld	$20, %xmm11
	por	%xmm2, %xmm11
	paddd	528(%rsp), %xmm13
	movdqa	32(%rsp), %xmm1
	paddd	%xmm1, %xmm13
	pxor	%xmm13, %xmm6
	pshufb	%xmm8, %xmm6
	paddd	%xmm6, %xmm7
	movdqa	%xmm7, 192(%rsp)
	pxor	%xmm7, %xmm1
	movdqa	%xmm1, %xmm2
	psrld	$12, %xmm2
	pslld	$20, %xmm1
	por	%xmm2, %xmm1
	movdqa	%xmm1, 32(%rsp)
	movdqa	224(%rsp), %xmm1
	paddd	608(%rsp), %xmm1
	paddd	%xmm3, %xmm1
	movdqa	%xmm1, 224(%rsp)
	pxor	%xmm1, %xmm10
	pshufb	%xmm8, %xmm10
	movdqa	176(%rsp), %xmm1
	paddd	%xmm10, %xmm1
	movdqa	%xmm1, 176(%rsp)
	pxor	%xmm1, %xmm3
	movdqa	%xmm3, %xmm2
	psrld	$12, %xmm2
	pslld	$20, %xmm3
	por	%xmm2, %xmm3
	movdqa	%xmm3, 384(%rsp)
	movdqa	128(%rsp), %xmm7
	paddd	720(%rsp), %xmm7
	movdqa	352(%rsp), %xmm1
	paddd	%xmm1, %xmm7
	pxor	%xmm7, %xmm12
	pshufb	%xmm8, %xmm12
	movdqa	336(%rsp), %xmm3
	paddd	%xmm12, %xmm3
	pxor	%xmm3, %xmm1
	movdqa	%xmm1, %xmm2
	psrld	$12, %xmm2
	pslld	$20, %xmm1
	por	%xmm2, %xmm1
	paddd	880(%rsp), %xmm7
	paddd	%xmm1, %xmm7
	movdqa	%xmm7, 128(%rsp)
	movdqa	%xmm1, %xmm8
	pxor	%xmm7, %xmm12
	movdqa	.L1_v2_CPI56_7(%rip), %xmm7
	pshufb	%xmm7, %xmm12
	movdqa	%xmm12, 400(%rsp)
	paddd	%xmm12, %xmm3
	movdqa	%xmm3, 336(%rsp)
	pxor	%xmm3, %xmm8
	movdqa	%xmm8, %xmm2
	psrld	$7, %xmm2
	pslld	$25, %xmm8
	por	%xmm2, %xmm8
	movdqa	16(%rsp), %xmm1
	paddd	480(%rsp), %xmm1
	paddd	%xmm4, %xmm1
	movdqa	%xmm1, 16(%rsp)
	pxor	%xmm1, %xmm9
	movdqa	.L1_v2_CPI56_5(%rip), %xmm3
	pshufb	%xmm3, %xmm9
	movdqa	208(%rsp), %xmm1
	paddd	%xmm9, %xmm1
	movdqa	%xmm1, 208(%rsp)
	pxor	%xmm1, %xmm4
	movdqa	%xmm4, %xmm2
	psrld	$12, %xmm2
	pslld	$20, %xmm4
	por	%xmm2, %xmm4
	movdqa	%xmm4, 144(%rsp)
	paddd	896(%rsp), %xmm13
	movdqa	32(%rsp), %xmm1
	paddd	%xmm1, %xmm13
	movdqa	%xmm13, 112(%rsp)
	pxor	%xmm13, %xmm6
	pshufb	%xmm7, %xmm6
	movdqa	%xmm6, 304(%rsp)
	movdqa	192(%rsp), %xmm2
	paddd	%xmm6, %xmm2
	movdqa	%xmm2, 192(%rsp)
	pxor	%xmm2, %xmm1
	movdqa	%xmm1, %xmm2
	psrld	$7, %xmm2
	pslld	$25, %xmm1
	por	%xmm2, %xmm1
	movdqa	%xmm1, 32(%rsp)
	movdqa	80(%rsp), %xmm1
	paddd	736(%rsp), %xmm1
	movdqa	96(%rsp), %xmm6
	paddd	%xmm6, %xmm1
	movdqa	%xmm1, 80(%rsp)
	pxor	%xmm1, %xmm14
	pshufb	%xmm3, %xmm14
	movdqa	%xmm3, %xmm4
	movdqa	160(%rsp), %xmm13
	paddd	%xmm14, %xmm13
	pxor	%xmm13, %xmm6
	movdqa	%xmm6, %xmm2
	psrld	$12, %xmm2
	pslld	$20, %xmm6
	por	%xmm2, %xmm6
	movdqa	%xmm6, %xmm3
	movdqa	224(%rsp), %xmm2
	paddd	416(%rsp), %xmm2
	movdqa	384(%rsp), %xmm1
	paddd	%xmm1, %xmm2
	movdqa	%xmm2, 224(%rsp)
	pxor	%xmm2, %xmm10
	pshufb	%xmm7, %xmm10
	movdqa	176(%rsp), %xmm2
	paddd	%xmm10, %xmm2
	movdqa	%xmm2, 176(%rsp)
	pxor	%xmm2, %xmm1
	movdqa	%xmm1, %xmm2
	psrld	$7, %xmm2
	pslld	$25, %xmm1
	por	%xmm2, %xmm1
	movdqa	%xmm1, 384(%rsp)
	movdqa	(%rsp), %xmm2
	paddd	752(%rsp), %xmm2
	movdqa	368(%rsp), %xmm1
	paddd	%xmm1, %xmm2
	movdqa	%xmm2, (%rsp)
	pxor	%xmm2, %xmm0
	pshufb	%xmm4, %xmm0
	movdqa	48(%rsp), %xmm2
	paddd	%xmm0, %xmm2
	movdqa	%xmm2, 48(%rsp)
	pxor	%xmm2, %xmm1
	movdqa	%xmm1, %xmm2
	psrld	$12, %xmm2
	pslld	$20, %xmm1
	por	%xmm2, %xmm1
	movdqa	%xmm1, 368(%rsp)
	movdqa	272(%rsp), %xmm2
	paddd	800(%rsp), %xmm2
	paddd	%xmm11, %xmm2
	movdqa	%xmm2, 272(%rsp)
	pxor	%xmm2, %xmm5
	movdqa	%xmm7, %xmm6
	pshufb	%xmm7, %xmm5
	movdqa	64(%rsp), %xmm2
	paddd	%xmm5, %xmm2
	movdqa	%xmm2, 64(%rsp)
	pxor	%xmm2, %xmm11
	movdqa	%xmm11, %xmm2
	psrld	$7, %xmm2
	pslld	$25, %xmm11
	por	%xmm2, %xmm11
	movdqa	%xmm11, 256(%rsp)
	movdqa	288(%rsp), %xmm7
	paddd	592(%rsp), %xmm7
	movdqa	320(%rsp), %xmm12
	paddd	%xmm12, %xmm7
	pxor	%xmm7, %xmm15
	movdqa	%xmm7, %xmm11
	pshufb	%xmm4, %xmm15
	movdqa	240(%rsp), %xmm7
	paddd	%xmm15, %xmm7
	pxor	%xmm7, %xmm12
	movdqa	%xmm7, %xmm4
	movdqa	%xmm12, %xmm2
	psrld	$12, %xmm2
	pslld	$20, %xmm12
	por	%xmm2, %xmm12
	movdqa	80(%rsp), %xmm2
	paddd	816(%rsp), %xmm2
	movdqa	%xmm3, %xmm1
	paddd	%xmm3, %xmm2
	movdqa	%xmm2, 80(%rsp)
	pxor	%xmm2, %xmm14
	pshufb	%xmm6, %xmm14
	paddd	%xmm14, %xmm13
	pxor	%xmm13, %xmm1
	movdqa	%xmm1, %xmm2
	psrld	$7, %xmm2
	pslld	$25, %xmm1
	por	%xmm2, %xmm1
	movdqa	%xmm1, 96(%rsp)
	paddd	688(%rsp), %xmm11
	paddd	%xmm12, %xmm11
	movdqa	%xmm11, 288(%rsp)
	pxor	%xmm11, %xmm15
	pshufb	%xmm6, %xmm15
	paddd	%xmm15, %xmm4
	movdqa	%xmm4, 240(%rsp)
	pxor	%xmm4, %xmm12
	movdqa	%xmm12, %xmm2
	psrld	$7, %xmm2
	pslld	$25, %xmm12
	por	%xmm2, %xmm12
	movdqa	16(%rsp), %xmm2
	paddd	832(%rsp), %xmm2
	movdqa	144(%rsp), %xmm7
	paddd	%xmm7, %xmm2
	movdqa	%xmm2, 16(%rsp)
	pxor	%xmm2, %xmm9
	pshufb	%xmm6, %xmm9
	movdqa	%xmm6, %xmm4
	movdqa	208(%rsp), %xmm6
	paddd	%xmm9, %xmm6
	pxor	%xmm6, %xmm7
	movdqa	%xmm7, %xmm2
	psrld	$7, %xmm2
	pslld	$25, %xmm7
	por	%xmm2, %xmm7
	movdqa	(%rsp), %xmm1
	paddd	784(%rsp), %xmm1
	movdqa	368(%rsp), %xmm11
	paddd	%xmm11, %xmm1
	movdqa	%xmm1, (%rsp)
	pxor	%xmm1, %xmm0
	pshufb	%xmm4, %xmm0
	movdqa	48(%rsp), %xmm1
	paddd	%xmm0, %xmm1
	movdqa	%xmm1, 48(%rsp)
	pxor	%xmm1, %xmm11
	movdqa	%xmm11, %xmm2
	psrld	$7, %xmm2
	pslld	$25, %xmm11
	por	%xmm2, %xmm11
	movdqa	272(%rsp), %xmm1
	paddd	496(%rsp), %xmm1
	movdqa	32(%rsp), %xmm2
	paddd	%xmm2, %xmm1
	movdqa	%xmm1, 272(%rsp)
	pxor	%xmm1, %xmm0
	movdqa	.L1_v2_CPI56_5(%rip), %xmm3
	pshufb	%xmm3, %xmm0
	paddd	%xmm0, %xmm6
	movdqa	%xmm6, 208(%rsp)
	pxor	%xmm6, %xmm2
	movdqa	%xmm2, %xmm6
	psrld	$12, %xmm6
	pslld	$20, %xmm2
	por	%xmm6, %xmm2
	movdqa	%xmm2, 32(%rsp)
	movdqa	%xmm5, %xmm6
	movdqa	224(%rsp), %xmm5
	paddd	864(%rsp), %xmm5
	paddd	%xmm8, %xmm5
	pxor	%xmm5, %xmm15
	pshufb	%xmm3, %xmm15
	paddd	%xmm15, %xmm13
	pxor	%xmm13, %xmm8
	movdqa	%xmm8, %xmm2
	psrld	$12, %xmm2
	pslld	$20, %xmm8
	por	%xmm2, %xmm8
	movdqa	112(%rsp), %xmm1
	paddd	768(%rsp), %xmm1
	paddd	%xmm7, %xmm1
	movdqa	%xmm1, 112(%rsp)
	pxor	%xmm1, %xmm6
	pshufb	%xmm3, %xmm6
	movdqa	48(%rsp), %xmm1
	paddd	%xmm6, %xmm1
	movdqa	%xmm1, 48(%rsp)
	pxor	%xmm1, %xmm7
	movdqa	%xmm7, %xmm2
	psrld	$12, %xmm2
	pslld	$20, %xmm7
	por	%xmm2, %xmm7
	movdqa	%xmm7, 144(%rsp)
	movdqa	128(%rsp), %xmm1
	paddd	672(%rsp), %xmm1
	movdqa	96(%rsp), %xmm4
	paddd	%xmm4, %xmm1
	movdqa	%xmm1, 128(%rsp)
	pxor	%xmm1, %xmm10
	pshufb	%xmm3, %xmm10
	movdqa	%xmm3, %xmm7
	movdqa	240(%rsp), %xmm1
	paddd	%xmm10, %xmm1
	movdqa	%xmm1, 240(%rsp)
	pxor	%xmm1, %xmm4
	movdqa	%xmm4, %xmm2
	psrld	$12, %xmm2
	pslld	$20, %xmm4
	por	%xmm2, %xmm4
	movdqa	%xmm4, 96(%rsp)
	movdqa	%xmm5, %xmm1
	paddd	640(%rsp), %xmm1
	paddd	%xmm8, %xmm1
	movdqa	%xmm1, 224(%rsp)
	pxor	%xmm1, %xmm15
	movdqa	.L1_v2_CPI56_7(%rip), %xmm4
	pshufb	%xmm4, %xmm15
	paddd	%xmm15, %xmm13
	movdqa	%xmm13, 160(%rsp)
	pxor	%xmm13, %xmm8
	movdqa	%xmm8, %xmm2
	psrld	$7, %xmm2
	pslld	$25, %xmm8
	por	%xmm2, %xmm8
	movdqa	%xmm8, 352(%rsp)
	movdqa	16(%rsp), %xmm1
	paddd	464(%rsp), %xmm1
	paddd	%xmm11, %xmm1
	movdqa	304(%rsp), %xmm2
	pxor	%xmm1, %xmm2
	movdqa	%xmm1, %xmm3
	movdqa	%xmm7, %xmm1
	pshufb	%xmm7, %xmm2
	movdqa	%xmm2, 304(%rsp)
	movdqa	64(%rsp), %xmm8
	paddd	%xmm2, %xmm8
	pxor	%xmm8, %xmm11
	movdqa	%xmm11, %xmm2
	psrld	$12, %xmm2
	pslld	$20, %xmm11
	por	%xmm2, %xmm11
	movdqa	272(%rsp), %xmm2
	paddd	448(%rsp), %xmm2
	movdqa	32(%rsp), %xmm13
	paddd	%xmm13, %xmm2
	movdqa	%xmm2, 272(%rsp)
	pxor	%xmm2, %xmm0
	pshufb	%xmm4, %xmm0
	movdqa	208(%rsp), %xmm2
	paddd	%xmm0, %xmm2
	movdqa	%xmm2, 208(%rsp)
	pxor	%xmm2, %xmm13
	movdqa	%xmm13, %xmm2
	psrld	$7, %xmm2
	pslld	$25, %xmm13
	por	%xmm2, %xmm13
	movdqa	%xmm13, 32(%rsp)
	movdqa	80(%rsp), %xmm2
	paddd	624(%rsp), %xmm2
	movdqa	%xmm12, %xmm7
	paddd	%xmm12, %xmm2
	movdqa	400(%rsp), %xmm5
	pxor	%xmm2, %xmm5
	movdqa	%xmm2, %xmm12
	pshufb	%xmm1, %xmm5
	movdqa	%xmm1, %xmm13
	movdqa	176(%rsp), %xmm2
	paddd	%xmm5, %xmm2
	pxor	%xmm2, %xmm7
	movdqa	%xmm2, %xmm1
	movdqa	%xmm7, %xmm2
	psrld	$12, %xmm2
	pslld	$20, %xmm7
	por	%xmm2, %xmm7
	paddd	576(%rsp), %xmm12
	paddd	%xmm7, %xmm12
	movdqa	%xmm12, 80(%rsp)
	pxor	%xmm12, %xmm5
	movdqa	%xmm4, %xmm12
	pshufb	%xmm4, %xmm5
	paddd	%xmm5, %xmm1
	movdqa	%xmm1, 176(%rsp)
	pxor	%xmm1, %xmm7
	movdqa	%xmm7, %xmm2
	psrld	$7, %xmm2
	pslld	$25, %xmm7
	por	%xmm2, %xmm7
	movdqa	%xmm7, 320(%rsp)
	movdqa	(%rsp), %xmm1
	paddd	560(%rsp), %xmm1
	movdqa	256(%rsp), %xmm2
	paddd	%xmm2, %xmm1
	movdqa	%xmm1, (%rsp)
	pxor	%xmm1, %xmm9
	pshufb	%xmm13, %xmm9
	movdqa	192(%rsp), %xmm1
	paddd	%xmm9, %xmm1
	movdqa	%xmm1, 192(%rsp)
	pxor	%xmm1, %xmm2
	movdqa	%xmm2, %xmm1
	psrld	$12, %xmm2
	pslld	$20, %xmm1
	por	%xmm2, %xmm1
	movdqa	%xmm1, 256(%rsp)
	movdqa	%xmm3, %xmm2
	paddd	512(%rsp), %xmm2
	movdqa	%xmm11, %xmm1
	paddd	%xmm11, %xmm2
	movdqa	%xmm2, 16(%rsp)
	movdqa	304(%rsp), %xmm4
	pxor	%xmm2, %xmm4
	pshufb	%xmm12, %xmm4
	movdqa	%xmm12, %xmm11
	movdqa	%xmm8, %xmm2
	paddd	%xmm4, %xmm2
	movdqa	%xmm2, 64(%rsp)
	movdqa	%xmm4, %xmm12
	pxor	%xmm2, %xmm1
	movdqa	%xmm1, %xmm2
	psrld	$7, %xmm2
	pslld	$25, %xmm1
	por	%xmm2, %xmm1
	movdqa	%xmm1, 368(%rsp)
	movdqa	288(%rsp), %xmm1
	paddd	656(%rsp), %xmm1
	movdqa	384(%rsp), %xmm3
	paddd	%xmm3, %xmm1
	pxor	%xmm1, %xmm14
	pshufb	%xmm13, %xmm14
	movdqa	336(%rsp), %xmm2
	paddd	%xmm14, %xmm2
	pxor	%xmm2, %xmm3
	movdqa	%xmm2, %xmm7
	movdqa	%xmm3, %xmm2
	psrld	$12, %xmm2
	pslld	$20, %xmm3
	por	%xmm2, %xmm3
	movdqa	%xmm3, %xmm13
	movdqa	128(%rsp), %xmm2
	paddd	432(%rsp), %xmm2
	movdqa	96(%rsp), %xmm4
	paddd	%xmm4, %xmm2
	movdqa	%xmm2, 128(%rsp)
	pxor	%xmm2, %xmm10
	movdqa	%xmm11, %xmm3
	pshufb	%xmm11, %xmm10
	movdqa	240(%rsp), %xmm2
	paddd	%xmm10, %xmm2
	movdqa	%xmm2, 240(%rsp)
	pxor	%xmm2, %xmm4
	movdqa	%xmm4, %xmm2
	psrld	$7, %xmm2
	pslld	$25, %xmm4
	por	%xmm2, %xmm4
	movdqa	%xmm4, 96(%rsp)
	paddd	848(%rsp), %xmm1
	paddd	%xmm13, %xmm1
	movdqa	%xmm1, 288(%rsp)
	pxor	%xmm1, %xmm14
	pshufb	%xmm11, %xmm14
	paddd	%xmm14, %xmm7
	pxor	%xmm7, %xmm13
	movdqa	%xmm13, %xmm2
	psrld	$7, %xmm2
	pslld	$25, %xmm13
	por	%xmm2, %xmm13
	movdqa	112(%rsp), %xmm8
	paddd	912(%rsp), %xmm8
	movdqa	144(%rsp), %xmm11
	paddd	%xmm11, %xmm8
	pxor	%xmm8, %xmm6
	pshufb	%xmm3, %xmm6
	movdqa	48(%rsp), %xmm1
	paddd	%xmm6, %xmm1
	movdqa	%xmm1, 48(%rsp)
	pxor	%xmm1, %xmm11
	movdqa	%xmm11, %xmm2
	psrld	$7, %xmm2
	pslld	$25, %xmm11
	por	%xmm2, %xmm11
	movdqa	%xmm11, 144(%rsp)
	movdqa	(%rsp), %xmm1
	paddd	544(%rsp), %xmm1
	movdqa	256(%rsp), %xmm11
	paddd	%xmm11, %xmm1
	movdqa	%xmm1, (%rsp)
	pxor	%xmm1, %xmm9
	pshufb	%xmm3, %xmm9
	movdqa	192(%rsp), %xmm2
	paddd	%xmm9, %xmm2
	pxor	%xmm2, %xmm11
	movdqa	%xmm2, %xmm3
	movdqa	%xmm11, %xmm2
	psrld	$7, %xmm2
	pslld	$25, %xmm11
	por	%xmm2, %xmm11
	movdqa	272(%rsp), %xmm1
	paddd	464(%rsp), %xmm1
	paddd	%xmm11, %xmm1
	movdqa	%xmm1, 272(%rsp)
	pxor	%xmm1, %xmm6
	pshufb	.L1_v2_CPI56_5(%rip), %xmm6
	movdqa	64(%rsp), %xmm1
	paddd	%xmm6, %xmm1
	movdqa	%xmm1, 64(%rsp)
	pxor	%xmm1, %xmm11
	movdqa	%xmm11, %xmm2
	psrld	$12, %xmm2
	pslld	$20, %xmm11
	por	%xmm2, %xmm11
	movdqa	%xmm11, 256(%rsp)
	paddd	768(%rsp), %xmm8
	movdqa	32(%rsp), %xmm4
	paddd	%xmm4, %xmm8
	movdqa	%xmm8, 112(%rsp)
	pxor	%xmm8, %xmm12
	movdqa	.L1_v2_CPI56_5(%rip), %xmm1
	pshufb	%xmm1, %xmm12
	paddd	%xmm12, %xmm3
	movdqa	%xmm3, 192(%rsp)
	pxor	%xmm3, %xmm4
	movdqa	%xmm4, %xmm2
	psrld	$12, %xmm2
	pslld	$20, %xmm4
	por	%xmm2, %xmm4
	movdqa	%xmm4, 32(%rsp)
	movdqa	224(%rsp), %xmm11
	paddd	624(%rsp), %xmm11
	paddd	%xmm13, %xmm11
	pxor	%xmm11, %xmm10
	movdqa	%xmm1, %xmm3
	pshufb	%xmm1, %xmm10
	movdqa	176(%rsp), %xmm1
	paddd	%xmm10, %xmm1
	movdqa	%xmm1, 176(%rsp)
	pxor	%xmm1, %xmm13
	movdqa	%xmm13, %xmm2
	psrld	$12, %xmm2
	pslld	$20, %xmm13
	por	%xmm2, %xmm13
	movdqa	128(%rsp), %xmm1
	paddd	672(%rsp), %xmm1
	movdqa	352(%rsp), %xmm8
	paddd	%xmm8, %xmm1
	pxor	%xmm1, %xmm5
	pshufb	%xmm3, %xmm5
	paddd	%xmm5, %xmm7
	pxor	%xmm7, %xmm8
	movdqa	%xmm8, %xmm2
	psrld	$12, %xmm2
	pslld	$20, %xmm8
	por	%xmm2, %xmm8
	paddd	576(%rsp), %xmm1
	paddd	%xmm8, %xmm1
	movdqa	%xmm1, 128(%rsp)
	pxor	%xmm1, %xmm5
	movdqa	.L1_v2_CPI56_7(%rip), %xmm4
	pshufb	%xmm4, %xmm5
	movdqa	%xmm5, 400(%rsp)
	paddd	%xmm5, %xmm7
	movdqa	%xmm7, 336(%rsp)
	pxor	%xmm7, %xmm8
	movdqa	%xmm8, %xmm2
	psrld	$7, %xmm2
	pslld	$25, %xmm8
	por	%xmm2, %xmm8
	movdqa	16(%rsp), %xmm1
	paddd	784(%rsp), %xmm1
	movdqa	144(%rsp), %xmm2
	paddd	%xmm2, %xmm1
	movdqa	%xmm1, 16(%rsp)
	pxor	%xmm1, %xmm9
	movdqa	%xmm3, %xmm5
	pshufb	%xmm3, %xmm9
	movdqa	208(%rsp), %xmm3
	paddd	%xmm9, %xmm3
	movdqa	%xmm3, 208(%rsp)
	movdqa	%xmm2, %xmm1
	pxor	%xmm3, %xmm1
	movdqa	%xmm1, %xmm2
	psrld	$12, %xmm2
	pslld	$20, %xmm1
	por	%xmm2, %xmm1
	movdqa	%xmm1, 144(%rsp)
	movdqa	112(%rsp), %xmm1
	paddd	512(%rsp), %xmm1
	movdqa	32(%rsp), %xmm3
	paddd	%xmm3, %xmm1
	movdqa	%xmm1, 112(%rsp)
	pxor	%xmm1, %xmm12
	pshufb	%xmm4, %xmm12
	movdqa	192(%rsp), %xmm1
	paddd	%xmm12, %xmm1
	movdqa	%xmm1, 192(%rsp)
	pxor	%xmm1, %xmm3
	movdqa	%xmm3, %xmm2
	psrld	$7, %xmm2
	pslld	$25, %xmm3
	por	%xmm2, %xmm3
	movdqa	%xmm3, 32(%rsp)
	movdqa	80(%rsp), %xmm1
	paddd	688(%rsp), %xmm1
	movdqa	96(%rsp), %xmm3
	paddd	%xmm3, %xmm1
	movdqa	%xmm1, 80(%rsp)
	pxor	%xmm1, %xmm14
	pshufb	%xmm5, %xmm14
	movdqa	160(%rsp), %xmm1
	paddd	%xmm14, %xmm1
	movdqa	%xmm1, 160(%rsp)
	pxor	%xmm1, %xmm3
	movdqa	%xmm3, %xmm2
	psrld	$12, %xmm2
	pslld	$20, %xmm3
	por	%xmm2, %xmm3
	movdqa	%xmm3, 96(%rsp)
	paddd	656(%rsp), %xmm11
	movdqa	%xmm13, %xmm1
	paddd	%xmm13, %xmm11
	pxor	%xmm11, %xmm10
	movdqa	%xmm11, %xmm13
	pshufb	%xmm4, %xmm10
	movdqa	176(%rsp), %xmm2
	paddd	%xmm10, %xmm2
	movdqa	%xmm2, 176(%rsp)
	pxor	%xmm2, %xmm1
	movdqa	%xmm1, %xmm2
	psrld	$7, %xmm2
	pslld	$25, %xmm1
	por	%xmm2, %xmm1
	movdqa	%xmm1, 384(%rsp)
	movdqa	(%rsp), %xmm1
	paddd	704(%rsp), %xmm1
	movdqa	368(%rsp), %xmm3
	paddd	%xmm3, %xmm1
	movdqa	%xmm1, (%rsp)
	pxor	%xmm1, %xmm0
	pshufb	%xmm5, %xmm0
	movdqa	48(%rsp), %xmm1
	paddd	%xmm0, %xmm1
	movdqa	%xmm1, 48(%rsp)
	pxor	%xmm1, %xmm3
	movdqa	%xmm3, %xmm2
	psrld	$12, %xmm2
	pslld	$20, %xmm3
	por	%xmm2, %xmm3
	movdqa	%xmm3, 368(%rsp)
	movdqa	272(%rsp), %xmm2
	paddd	560(%rsp), %xmm2
	movdqa	256(%rsp), %xmm1
	paddd	%xmm1, %xmm2
	movdqa	%xmm2, 272(%rsp)
	pxor	%xmm2, %xmm6
	movdqa	%xmm4, %xmm11
	pshufb	%xmm4, %xmm6
	movdqa	64(%rsp), %xmm2
	paddd	%xmm6, %xmm2
	movdqa	%xmm2, 64(%rsp)
	pxor	%xmm2, %xmm1
	movdqa	%xmm1, %xmm2
	psrld	$7, %xmm2
	pslld	$25, %xmm1
	por	%xmm2, %xmm1
	movdqa	%xmm1, 256(%rsp)
	movdqa	288(%rsp), %xmm7
	paddd	608(%rsp), %xmm7
	movdqa	320(%rsp), %xmm1
	paddd	%xmm1, %xmm7
	pxor	%xmm7, %xmm15
	movdqa	%xmm7, %xmm4
	pshufb	%xmm5, %xmm15
	movdqa	240(%rsp), %xmm3
	paddd	%xmm15, %xmm3
	pxor	%xmm3, %xmm1
	movdqa	%xmm1, %xmm2
	psrld	$12, %xmm2
	pslld	$20, %xmm1
	por	%xmm2, %xmm1
	movdqa	%xmm1, %xmm5
	movdqa	80(%rsp), %xmm1
	paddd	720(%rsp), %xmm1
	movdqa	96(%rsp), %xmm7
	paddd	%xmm7, %xmm1
	movdqa	%xmm1, 80(%rsp)
	pxor	%xmm1, %xmm14
	pshufb	%xmm11, %xmm14
	movdqa	160(%rsp), %xmm2
	paddd	%xmm14, %xmm2
	movdqa	%xmm2, 160(%rsp)
	pxor	%xmm2, %xmm7
	movdqa	%xmm7, %xmm2
	psrld	$7, %xmm2
	pslld	$25, %xmm7
	por	%xmm2, %xmm7
	movdqa	%xmm7, 96(%rsp)
	paddd	640(%rsp), %xmm4
	paddd	%xmm5, %xmm4
	movdqa	%xmm4, 288(%rsp)
	pxor	%xmm4, %xmm15
	pshufb	%xmm11, %xmm15
	movdqa	%xmm11, %xmm4
	paddd	%xmm15, %xmm3
	movdqa	%xmm3, 240(%rsp)
	pxor	%xmm3, %xmm5
	movdqa	%xmm5, %xmm2
	psrld	$7, %xmm2
	pslld	$25, %xmm5
	por	%xmm2, %xmm5
	movdqa	%xmm5, 320(%rsp)
	movdqa	16(%rsp), %xmm2
	paddd	528(%rsp), %xmm2
	movdqa	144(%rsp), %xmm11
	paddd	%xmm11, %xmm2
	movdqa	%xmm2, 16(%rsp)
	pxor	%xmm2, %xmm9
	pshufb	%xmm4, %xmm9
	movdqa	208(%rsp), %xmm5
	paddd	%xmm9, %xmm5
	pxor	%xmm5, %xmm11
	movdqa	%xmm11, %xmm2
	psrld	$7, %xmm2
	pslld	$25, %xmm11
	por	%xmm2, %xmm11
	movdqa	(%rsp), %xmm1
	paddd	448(%rsp), %xmm1
	movdqa	368(%rsp), %xmm7
	paddd	%xmm7, %xmm1
	movdqa	%xmm1, (%rsp)
	pxor	%xmm1, %xmm0
	pshufb	%xmm4, %xmm0
	movdqa	48(%rsp), %xmm1
	paddd	%xmm0, %xmm1
	movdqa	%xmm1, 48(%rsp)
	pxor	%xmm1, %xmm7
	movdqa	%xmm7, %xmm2
	psrld	$7, %xmm2
	pslld	$25, %xmm7
	por	%xmm2, %xmm7
	movdqa	272(%rsp), %xmm1
	paddd	832(%rsp), %xmm1
	movdqa	32(%rsp), %xmm2
	paddd	%xmm2, %xmm1
	movdqa	%xmm1, 272(%rsp)
	pxor	%xmm1, %xmm0
	movdqa	.L1_v2_CPI56_5(%rip), %xmm1
	pshufb	%xmm1, %xmm0
	paddd	%xmm0, %xmm5
	movdqa	%xmm5, 208(%rsp)
	pxor	%xmm5, %xmm2
	movdqa	%xmm2, %xmm4
	psrld	$12, %xmm4
	pslld	$20, %xmm2
	por	%xmm4, %xmm2
	movdqa	%xmm2, 32(%rsp)
	movdqa	%xmm12, %xmm4
	paddd	816(%rsp), %xmm13
	paddd	%xmm8, %xmm13
	pxor	%xmm13, %xmm15
	pshufb	%xmm1, %xmm15
	movdqa	%xmm1, %xmm12
	movdqa	160(%rsp), %xmm5
	paddd	%xmm15, %xmm5
	pxor	%xmm5, %xmm8
	movdqa	%xmm8, %xmm2
	psrld	$12, %xmm2
	pslld	$20, %xmm8
	por	%xmm2, %xmm8
	movdqa	112(%rsp), %xmm1
	paddd	480(%rsp), %xmm1
	paddd	%xmm11, %xmm1
	movdqa	%xmm1, 112(%rsp)
	pxor	%xmm1, %xmm6
	pshufb	%xmm12, %xmm6
	movdqa	48(%rsp), %xmm1
	paddd	%xmm6, %xmm1
	movdqa	%xmm1, 48(%rsp)
	pxor	%xmm1, %xmm11
	movdqa	%xmm11, %xmm2
	psrld	$12, %xmm2
	pslld	$20, %xmm11
	por	%xmm2, %xmm11
	movdqa	128(%rsp), %xmm1
	paddd	736(%rsp), %xmm1
	movdqa	96(%rsp), %xmm3
	paddd	%xmm3, %xmm1
	movdqa	%xmm1, 128(%rsp)
	pxor	%xmm1, %xmm10
	pshufb	%xmm12, %xmm10
	movdqa	240(%rsp), %xmm1
	paddd	%xmm10, %xmm1
	movdqa	%xmm1, 240(%rsp)
	pxor	%xmm1, %xmm3
	movdqa	%xmm3, %xmm2
	psrld	$12, %xmm2
	pslld	$20, %xmm3
	por	%xmm2, %xmm3
	movdqa	%xmm3, 96(%rsp)
	paddd	432(%rsp), %xmm13
	paddd	%xmm8, %xmm13
	movdqa	%xmm13, 224(%rsp)
	pxor	%xmm13, %xmm15
	movdqa	.L1_v2_CPI56_7(%rip), %xmm3
	pshufb	%xmm3, %xmm15
	movdqa	%xmm5, %xmm1
	paddd	%xmm15, %xmm1
	movdqa	%xmm1, 160(%rsp)
	pxor	%xmm1, %xmm8
	movdqa	%xmm8, %xmm2
	psrld	$7, %xmm2
	pslld	$25, %xmm8
	por	%xmm2, %xmm8
	movdqa	%xmm8, 352(%rsp)
	movdqa	16(%rsp), %xmm1
	paddd	544(%rsp), %xmm1
	paddd	%xmm7, %xmm1
	movdqa	%xmm1, 16(%rsp)
	pxor	%xmm1, %xmm4
	movdqa	%xmm12, %xmm13
	pshufb	%xmm12, %xmm4
	movdqa	64(%rsp), %xmm1
	paddd	%xmm4, %xmm1
	movdqa	%xmm1, 64(%rsp)
	pxor	%xmm1, %xmm7
	movdqa	%xmm7, %xmm2
	psrld	$12, %xmm2
	pslld	$20, %xmm7
	por	%xmm2, %xmm7
	movdqa	272(%rsp), %xmm2
	paddd	912(%rsp), %xmm2
	movdqa	32(%rsp), %xmm1
	paddd	%xmm1, %xmm2
	movdqa	%xmm2, 272(%rsp)
	pxor	%xmm2, %xmm0
	movdqa	%xmm3, %xmm12
	pshufb	%xmm3, %xmm0
	movdqa	208(%rsp), %xmm2
	paddd	%xmm0, %xmm2
	movdqa	%xmm2, 208(%rsp)
	pxor	%xmm2, %xmm1
	movdqa	%xmm1, %xmm2
	psrld	$7, %xmm2
	pslld	$25, %xmm1
	por	%xmm2, %xmm1
	movdqa	%xmm1, 32(%rsp)
	movdqa	80(%rsp), %xmm3
	paddd	848(%rsp), %xmm3
	movdqa	320(%rsp), %xmm8
	paddd	%xmm8, %xmm3
	movdqa	400(%rsp), %xmm5
	pxor	%xmm3, %xmm5
	pshufb	%xmm13, %xmm5
	movdqa	176(%rsp), %xmm1
	paddd	%xmm5, %xmm1
	pxor	%xmm1, %xmm8
	movdqa	%xmm8, %xmm2
	psrld	$12, %xmm2
	pslld	$20, %xmm8
	por	%xmm2, %xmm8
	paddd	880(%rsp), %xmm3
	paddd	%xmm8, %xmm3
	movdqa	%xmm3, 80(%rsp)
	pxor	%xmm3, %xmm5
	pshufb	%xmm12, %xmm5
	movdqa	%xmm5, 400(%rsp)
	paddd	%xmm5, %xmm1
	movdqa	%xmm1, 176(%rsp)
	pxor	%xmm1, %xmm8
	movdqa	%xmm8, %xmm2
	psrld	$7, %xmm2
	pslld	$25, %xmm8
	por	%xmm2, %xmm8
	movdqa	%xmm8, 320(%rsp)
	movdqa	(%rsp), %xmm1
	paddd	752(%rsp), %xmm1
	movdqa	256(%rsp), %xmm2
	paddd	%xmm2, %xmm1
	movdqa	%xmm1, (%rsp)
	pxor	%xmm1, %xmm9
	movdqa	%xmm13, %xmm5
	pshufb	%xmm13, %xmm9
	movdqa	192(%rsp), %xmm1
	paddd	%xmm9, %xmm1
	movdqa	%xmm1, 192(%rsp)
	pxor	%xmm1, %xmm2
	movdqa	%xmm2, %xmm1
	psrld	$12, %xmm2
	pslld	$20, %xmm1
	por	%xmm2, %xmm1
	movdqa	%xmm1, 256(%rsp)
	movdqa	16(%rsp), %xmm1
	paddd	896(%rsp), %xmm1
	paddd	%xmm7, %xmm1
	movdqa	%xmm1, 16(%rsp)
	pxor	%xmm1, %xmm4
	pshufb	%xmm12, %xmm4
	movdqa	%xmm4, 304(%rsp)
	movdqa	64(%rsp), %xmm2
	paddd	%xmm4, %xmm2
	movdqa	%xmm2, 64(%rsp)
	pxor	%xmm2, %xmm7
	movdqa	%xmm7, %xmm2
	psrld	$7, %xmm2
	pslld	$25, %xmm7
	por	%xmm2, %xmm7
	movdqa	%xmm7, 368(%rsp)
	movdqa	288(%rsp), %xmm1
	paddd	592(%rsp), %xmm1
	movdqa	384(%rsp), %xmm4
	paddd	%xmm4, %xmm1
	pxor	%xmm1, %xmm14
	movdqa	%xmm1, %xmm13
	pshufb	%xmm5, %xmm14
	movdqa	336(%rsp), %xmm8
	paddd	%xmm14, %xmm8
	pxor	%xmm8, %xmm4
	movdqa	%xmm4, %xmm2
	psrld	$12, %xmm2
	pslld	$20, %xmm4
	por	%xmm2, %xmm4
	movdqa	128(%rsp), %xmm2
	paddd	864(%rsp), %xmm2
	movdqa	96(%rsp), %xmm1
	paddd	%xmm1, %xmm2
	pxor	%xmm2, %xmm10
	movdqa	%xmm2, %xmm7
	pshufb	%xmm12, %xmm10
	movdqa	240(%rsp), %xmm2
	paddd	%xmm10, %xmm2
	movdqa	%xmm2, 240(%rsp)
	pxor	%xmm2, %xmm1
	movdqa	%xmm1, %xmm2
	psrld	$7, %xmm2
	pslld	$25, %xmm1
	por	%xmm2, %xmm1
	movdqa	%xmm1, 96(%rsp)
	paddd	416(%rsp), %xmm13
	paddd	%xmm4, %xmm13
	movdqa	%xmm13, 288(%rsp)
	pxor	%xmm13, %xmm14
	pshufb	%xmm12, %xmm14
	paddd	%xmm14, %xmm8
	pxor	%xmm8, %xmm4
	movdqa	%xmm4, %xmm2
	psrld	$7, %xmm2
	pslld	$25, %xmm4
	por	%xmm2, %xmm4
	movdqa	112(%rsp), %xmm13
	paddd	496(%rsp), %xmm13
	paddd	%xmm11, %xmm13
	pxor	%xmm13, %xmm6
	pshufb	%xmm12, %xmm6
	movdqa	48(%rsp), %xmm1
	paddd	%xmm6, %xmm1
	movdqa	%xmm1, 48(%rsp)
	pxor	%xmm1, %xmm11
	movdqa	%xmm11, %xmm2
	psrld	$7, %xmm2
	pslld	$25, %xmm11
	por	%xmm2, %xmm11
	movdqa	%xmm11, 144(%rsp)
	movdqa	(%rsp), %xmm1
	paddd	800(%rsp), %xmm1
	movdqa	256(%rsp), %xmm11
	paddd	%xmm11, %xmm1
	movdqa	%xmm1, (%rsp)
	pxor	%xmm1, %xmm9
	pshufb	%xmm12, %xmm9
	movdqa	192(%rsp), %xmm1
	paddd	%xmm9, %xmm1
	pxor	%xmm1, %xmm11
	movdqa	%xmm11, %xmm2
	psrld	$7, %xmm2
	pslld	$25, %xmm11
	por	%xmm2, %xmm11
	movdqa	272(%rsp), %xmm2
	paddd	560(%rsp), %xmm2
	paddd	%xmm11, %xmm2
	movdqa	%xmm2, 272(%rsp)
	pxor	%xmm2, %xmm6
	pshufb	%xmm5, %xmm6
	movdqa	64(%rsp), %xmm2
	paddd	%xmm6, %xmm2
	movdqa	%xmm2, 64(%rsp)
	pxor	%xmm2, %xmm11
	movdqa	%xmm11, %xmm2
	psrld	$12, %xmm2
	pslld	$20, %xmm11
	por	%xmm2, %xmm11
	movdqa	%xmm11, 256(%rsp)
	paddd	480(%rsp), %xmm13
	movdqa	32(%rsp), %xmm12
	paddd	%xmm12, %xmm13
	movdqa	%xmm13, 112(%rsp)
	movdqa	304(%rsp), %xmm2
	pxor	%xmm13, %xmm2
	pshufb	%xmm5, %xmm2
	movdqa	%xmm2, 304(%rsp)
	paddd	%xmm2, %xmm1
	pxor	%xmm1, %xmm12
	movdqa	%xmm12, %xmm2
	psrld	$12, %xmm2
	pslld	$20, %xmm12
	por	%xmm2, %xmm12
	movdqa	224(%rsp), %xmm11
	paddd	656(%rsp), %xmm11
	paddd	%xmm4, %xmm11
	pxor	%xmm11, %xmm10
	movdqa	%xmm5, %xmm3
	pshufb	%xmm5, %xmm10
	movdqa	176(%rsp), %xmm2
	paddd	%xmm10, %xmm2
	movdqa	%xmm2, 176(%rsp)
	pxor	%xmm2, %xmm4
	movdqa	%xmm4, %xmm2
	psrld	$12, %xmm2
	pslld	$20, %xmm4
	por	%xmm2, %xmm4
	movdqa	%xmm4, 384(%rsp)
	paddd	736(%rsp), %xmm7
	movdqa	352(%rsp), %xmm2
	paddd	%xmm2, %xmm7
	movdqa	400(%rsp), %xmm5
	pxor	%xmm7, %xmm5
	movdqa	%xmm7, %xmm13
	pshufb	%xmm3, %xmm5
	movdqa	%xmm3, %xmm4
	paddd	%xmm5, %xmm8
	movdqa	%xmm5, %xmm3
	pxor	%xmm8, %xmm2
	movdqa	%xmm2, %xmm7
	psrld	$12, %xmm7
	pslld	$20, %xmm2
	por	%xmm7, %xmm2
	paddd	624(%rsp), %xmm13
	paddd	%xmm2, %xmm13
	movdqa	%xmm13, 128(%rsp)
	movdqa	%xmm2, %xmm5
	pxor	%xmm13, %xmm3
	movdqa	.L1_v2_CPI56_7(%rip), %xmm13
	pshufb	%xmm13, %xmm3
	movdqa	%xmm3, 400(%rsp)
	paddd	%xmm3, %xmm8
	movdqa	%xmm8, 336(%rsp)
	pxor	%xmm8, %xmm5
	movdqa	%xmm5, %xmm2
	psrld	$7, %xmm2
	pslld	$25, %xmm5
	por	%xmm2, %xmm5
	movdqa	16(%rsp), %xmm2
	paddd	832(%rsp), %xmm2
	movdqa	144(%rsp), %xmm3
	paddd	%xmm3, %xmm2
	movdqa	%xmm2, 16(%rsp)
	pxor	%xmm2, %xmm9
	movdqa	%xmm4, %xmm8
	pshufb	%xmm4, %xmm9
	movdqa	208(%rsp), %xmm2
	paddd	%xmm9, %xmm2
	movdqa	%xmm2, 208(%rsp)
	pxor	%xmm2, %xmm3
	movdqa	%xmm3, %xmm2
	psrld	$12, %xmm2
	pslld	$20, %xmm3
	por	%xmm2, %xmm3
	movdqa	%xmm3, 144(%rsp)
	movdqa	112(%rsp), %xmm2
	paddd	464(%rsp), %xmm2
	paddd	%xmm12, %xmm2
	movdqa	%xmm2, 112(%rsp)
	movdqa	304(%rsp), %xmm4
	pxor	%xmm2, %xmm4
	movdqa	%xmm13, %xmm3
	pshufb	%xmm13, %xmm4
	movdqa	%xmm4, 304(%rsp)
	paddd	%xmm4, %xmm1
	movdqa	%xmm1, 192(%rsp)
	pxor	%xmm1, %xmm12
	movdqa	%xmm12, %xmm2
	psrld	$7, %xmm2
	pslld	$25, %xmm12
	por	%xmm2, %xmm12
	movdqa	%xmm12, 32(%rsp)
	movdqa	80(%rsp), %xmm2
	paddd	816(%rsp), %xmm2
	movdqa	96(%rsp), %xmm13
	paddd	%xmm13, %xmm2
	movdqa	%xmm2, 80(%rsp)
	pxor	%xmm2, %xmm14
	pshufb	%xmm8, %xmm14
	movdqa	160(%rsp), %xmm2
	paddd	%xmm14, %xmm2
	movdqa	%xmm2, 160(%rsp)
	pxor	%xmm2, %xmm13
	movdqa	%xmm13, %xmm2
	psrld	$12, %xmm2
	pslld	$20, %xmm13
	por	%xmm2, %xmm13
	movdqa	%xmm11, %xmm1
	paddd	880(%rsp), %xmm1
	movdqa	384(%rsp), %xmm7
	paddd	%xmm7, %xmm1
	movdqa	%xmm1, 224(%rsp)
	pxor	%xmm1, %xmm10
	pshufb	%xmm3, %xmm10
	movdqa	%xmm3, %xmm11
	movdqa	176(%rsp), %xmm1
	paddd	%xmm10, %xmm1
	movdqa	%xmm1, 176(%rsp)
	pxor	%xmm1, %xmm7
	movdqa	%xmm7, %xmm2
	psrld	$7, %xmm2
	pslld	$25, %xmm7
	por	%xmm2, %xmm7
	movdqa	%xmm7, 384(%rsp)
	movdqa	(%rsp), %xmm2
	paddd	496(%rsp), %xmm2
	movdqa	368(%rsp), %xmm1
	paddd	%xmm1, %xmm2
	movdqa	%xmm2, (%rsp)
	pxor	%xmm2, %xmm0
	pshufb	%xmm8, %xmm0
	movdqa	48(%rsp), %xmm2
	paddd	%xmm0, %xmm2
	movdqa	%xmm2, 48(%rsp)
	pxor	%xmm2, %xmm1
	movdqa	%xmm1, %xmm2
	psrld	$12, %xmm2
	pslld	$20, %xmm1
	por	%xmm2, %xmm1
	movdqa	%xmm1, 368(%rsp)
	movdqa	272(%rsp), %xmm12
	paddd	896(%rsp), %xmm12
	movdqa	256(%rsp), %xmm1
	paddd	%xmm1, %xmm12
	pxor	%xmm12, %xmm6
	pshufb	%xmm3, %xmm6
	movdqa	64(%rsp), %xmm2
	paddd	%xmm6, %xmm2
	movdqa	%xmm2, 64(%rsp)
	pxor	%xmm2, %xmm1
	movdqa	%xmm1, %xmm2
	psrld	$7, %xmm2
	pslld	$25, %xmm1
	por	%xmm2, %xmm1
	movdqa	%xmm1, 256(%rsp)
	movdqa	288(%rsp), %xmm3
	paddd	864(%rsp), %xmm3
	movdqa	320(%rsp), %xmm7
	paddd	%xmm7, %xmm3
	pxor	%xmm3, %xmm15
	pshufb	%xmm8, %xmm15
	movdqa	240(%rsp), %xmm1
	paddd	%xmm15, %xmm1
	pxor	%xmm1, %xmm7
	movdqa	%xmm1, %xmm4
	movdqa	%xmm7, %xmm2
	psrld	$12, %xmm2
	pslld	$20, %xmm7
	por	%xmm2, %xmm7
	movdqa	%xmm7, %xmm8
	movdqa	80(%rsp), %xmm2
	paddd	848(%rsp), %xmm2
	paddd	%xmm13, %xmm2
	movdqa	%xmm2, 80(%rsp)
	pxor	%xmm2, %xmm14
	movdqa	%xmm11, %xmm7
	pshufb	%xmm11, %xmm14
	movdqa	160(%rsp), %xmm2
	paddd	%xmm14, %xmm2
	movdqa	%xmm2, 160(%rsp)
	pxor	%xmm2, %xmm13
	movdqa	%xmm13, %xmm2
	psrld	$7, %xmm2
	pslld	$25, %xmm13
	por	%xmm2, %xmm13
	movdqa	%xmm13, %xmm11
	paddd	592(%rsp), %xmm3
	paddd	%xmm8, %xmm3
	movdqa	%xmm3, 288(%rsp)
	pxor	%xmm3, %xmm15
	pshufb	%xmm7, %xmm15
	paddd	%xmm15, %xmm4
	movdqa	%xmm4, 240(%rsp)
	pxor	%xmm4, %xmm8
	movdqa	%xmm8, %xmm2
	psrld	$7, %xmm2
	pslld	$25, %xmm8
	por	%xmm2, %xmm8
	movdqa	16(%rsp), %xmm1
	paddd	544(%rsp), %xmm1
	movdqa	144(%rsp), %xmm4
	paddd	%xmm4, %xmm1
	movdqa	%xmm1, 16(%rsp)
	pxor	%xmm1, %xmm9
	pshufb	%xmm7, %xmm9
	movdqa	208(%rsp), %xmm3
	paddd	%xmm9, %xmm3
	pxor	%xmm3, %xmm4
	movdqa	%xmm4, %xmm2
	psrld	$7, %xmm2
	pslld	$25, %xmm4
	por	%xmm2, %xmm4
	movdqa	(%rsp), %xmm2
	paddd	752(%rsp), %xmm2
	movdqa	368(%rsp), %xmm13
	paddd	%xmm13, %xmm2
	movdqa	%xmm2, (%rsp)
	pxor	%xmm2, %xmm0
	pshufb	%xmm7, %xmm0
	movdqa	48(%rsp), %xmm1
	paddd	%xmm0, %xmm1
	movdqa	%xmm1, 48(%rsp)
	pxor	%xmm1, %xmm13
	movdqa	%xmm13, %xmm2
	psrld	$7, %xmm2
	pslld	$25, %xmm13
	por	%xmm2, %xmm13
	paddd	448(%rsp), %xmm12
	movdqa	32(%rsp), %xmm7
	paddd	%xmm7, %xmm12
	pxor	%xmm12, %xmm0
	movdqa	.L1_v2_CPI56_5(%rip), %xmm1
	pshufb	%xmm1, %xmm0
	paddd	%xmm0, %xmm3
	movdqa	%xmm3, 208(%rsp)
	pxor	%xmm3, %xmm7
	movdqa	%xmm7, %xmm2
	psrld	$12, %xmm2
	pslld	$20, %xmm7
	por	%xmm2, %xmm7
	movdqa	%xmm7, 32(%rsp)
	movdqa	224(%rsp), %xmm2
	paddd	640(%rsp), %xmm2
	paddd	%xmm5, %xmm2
	movdqa	%xmm2, 224(%rsp)
	pxor	%xmm2, %xmm15
	pshufb	%xmm1, %xmm15
	movdqa	%xmm1, %xmm7
	movdqa	160(%rsp), %xmm1
	paddd	%xmm15, %xmm1
	movdqa	%xmm1, 160(%rsp)
	pxor	%xmm1, %xmm5
	movdqa	%xmm5, %xmm2
	psrld	$12, %xmm2
	pslld	$20, %xmm5
	por	%xmm2, %xmm5
	movdqa	112(%rsp), %xmm1
	paddd	704(%rsp), %xmm1
	movdqa	%xmm4, %xmm3
	paddd	%xmm4, %xmm1
	movdqa	%xmm1, 112(%rsp)
	pxor	%xmm1, %xmm6
	movdqa	%xmm7, %xmm4
	pshufb	%xmm7, %xmm6
	movdqa	48(%rsp), %xmm2
	paddd	%xmm6, %xmm2
	movdqa	%xmm2, 48(%rsp)
	pxor	%xmm2, %xmm3
	movdqa	%xmm3, %xmm2
	psrld	$12, %xmm2
	pslld	$20, %xmm3
	por	%xmm2, %xmm3
	movdqa	%xmm3, 144(%rsp)
	movdqa	128(%rsp), %xmm2
	paddd	608(%rsp), %xmm2
	paddd	%xmm11, %xmm2
	movdqa	%xmm2, 128(%rsp)
	pxor	%xmm2, %xmm10
	pshufb	%xmm7, %xmm10
	movdqa	240(%rsp), %xmm1
	paddd	%xmm10, %xmm1
	movdqa	%xmm1, 240(%rsp)
	pxor	%xmm1, %xmm11
	movdqa	%xmm11, %xmm2
	psrld	$12, %xmm2
	pslld	$20, %xmm11
	por	%xmm2, %xmm11
	movdqa	%xmm11, 96(%rsp)
	movdqa	224(%rsp), %xmm1
	paddd	576(%rsp), %xmm1
	paddd	%xmm5, %xmm1
	movdqa	%xmm1, 224(%rsp)
	pxor	%xmm1, %xmm15
	pshufb	.L1_v2_CPI56_7(%rip), %xmm15
	movdqa	160(%rsp), %xmm1
	paddd	%xmm15, %xmm1
	movdqa	%xmm1, 160(%rsp)
	pxor	%xmm1, %xmm5
	movdqa	%xmm5, %xmm2
	psrld	$7, %xmm2
	pslld	$25, %xmm5
	por	%xmm2, %xmm5
	movdqa	%xmm5, 352(%rsp)
	movdqa	16(%rsp), %xmm1
	paddd	912(%rsp), %xmm1
	paddd	%xmm13, %xmm1
	movdqa	%xmm1, 16(%rsp)
	movdqa	304(%rsp), %xmm2
	pxor	%xmm1, %xmm2
	pshufb	%xmm7, %xmm2
	movdqa	%xmm2, 304(%rsp)
	movdqa	64(%rsp), %xmm7
	paddd	%xmm2, %xmm7
	pxor	%xmm7, %xmm13
	movdqa	%xmm13, %xmm2
	psrld	$12, %xmm2
	pslld	$20, %xmm13
	por	%xmm2, %xmm13
	paddd	512(%rsp), %xmm12
	movdqa	32(%rsp), %xmm3
	paddd	%xmm3, %xmm12
	movdqa	%xmm12, 272(%rsp)
	pxor	%xmm12, %xmm0
	movdqa	.L1_v2_CPI56_7(%rip), %xmm12
	pshufb	%xmm12, %xmm0
	movdqa	208(%rsp), %xmm1
	paddd	%xmm0, %xmm1
	movdqa	%xmm1, 208(%rsp)
	pxor	%xmm1, %xmm3
	movdqa	%xmm3, %xmm2
	psrld	$7, %xmm2
	pslld	$25, %xmm3
	por	%xmm2, %xmm3
	movdqa	%xmm3, 32(%rsp)
	movdqa	80(%rsp), %xmm1
	paddd	432(%rsp), %xmm1
	paddd	%xmm8, %xmm1
	movdqa	400(%rsp), %xmm5
	pxor	%xmm1, %xmm5
	movdqa	%xmm1, %xmm3
	pshufb	%xmm4, %xmm5
	movdqa	176(%rsp), %xmm1
	paddd	%xmm5, %xmm1
	pxor	%xmm1, %xmm8
	movdqa	%xmm8, %xmm2
	psrld	$12, %xmm2
	pslld	$20, %xmm8
	por	%xmm2, %xmm8
	paddd	416(%rsp), %xmm3
	paddd	%xmm8, %xmm3
	movdqa	%xmm3, 80(%rsp)
	pxor	%xmm3, %xmm5
	pshufb	%xmm12, %xmm5
	paddd	%xmm5, %xmm1
	movdqa	%xmm1, 176(%rsp)
	pxor	%xmm1, %xmm8
	movdqa	%xmm8, %xmm2
	psrld	$7, %xmm2
	pslld	$25, %xmm8
	por	%xmm2, %xmm8
	movdqa	%xmm8, 320(%rsp)
	movdqa	(%rsp), %xmm1
	paddd	768(%rsp), %xmm1
	movdqa	256(%rsp), %xmm2
	paddd	%xmm2, %xmm1
	movdqa	%xmm1, (%rsp)
	pxor	%xmm1, %xmm9
	pshufb	%xmm4, %xmm9
	movdqa	192(%rsp), %xmm1
	paddd	%xmm9, %xmm1
	movdqa	%xmm1, 192(%rsp)
	pxor	%xmm1, %xmm2
	movdqa	%xmm2, %xmm1
	psrld	$12, %xmm2
	pslld	$20, %xmm1
	por	%xmm2, %xmm1
	movdqa	%xmm1, 256(%rsp)
	movdqa	16(%rsp), %xmm1
	paddd	800(%rsp), %xmm1
	paddd	%xmm13, %xmm1
	movdqa	%xmm1, 16(%rsp)
	movdqa	304(%rsp), %xmm2
	pxor	%xmm1, %xmm2
	pshufb	%xmm12, %xmm2
	movdqa	%xmm2, 304(%rsp)
	paddd	%xmm2, %xmm7
	movdqa	%xmm7, 64(%rsp)
	pxor	%xmm7, %xmm13
	movdqa	%xmm13, %xmm2
	psrld	$7, %xmm2
	pslld	$25, %xmm13
	por	%xmm2, %xmm13
	movdqa	%xmm13, 368(%rsp)
	movdqa	288(%rsp), %xmm2
	paddd	672(%rsp), %xmm2
	movdqa	384(%rsp), %xmm3
	paddd	%xmm3, %xmm2
	pxor	%xmm2, %xmm14
	movdqa	%xmm2, %xmm8
	pshufb	%xmm4, %xmm14
	movdqa	336(%rsp), %xmm1
	paddd	%xmm14, %xmm1
	pxor	%xmm1, %xmm3
	movdqa	%xmm1, %xmm13
	movdqa	%xmm3, %xmm2
	psrld	$12, %xmm2
	pslld	$20, %xmm3
	por	%xmm2, %xmm3
	movdqa	128(%rsp), %xmm1
	paddd	720(%rsp), %xmm1
	movdqa	96(%rsp), %xmm11
	paddd	%xmm11, %xmm1
	movdqa	%xmm1, 128(%rsp)
	pxor	%xmm1, %xmm10
	pshufb	%xmm12, %xmm10
	movdqa	240(%rsp), %xmm1
	paddd	%xmm10, %xmm1
	movdqa	%xmm1, 240(%rsp)
	pxor	%xmm1, %xmm11
	movdqa	%xmm11, %xmm2
	psrld	$7, %xmm2
	pslld	$25, %xmm11
	por	%xmm2, %xmm11
	movdqa	%xmm11, 96(%rsp)
	paddd	688(%rsp), %xmm8
	paddd	%xmm3, %xmm8
	movdqa	%xmm8, 288(%rsp)
	pxor	%xmm8, %xmm14
	pshufb	%xmm12, %xmm14
	paddd	%xmm14, %xmm13
	pxor	%xmm13, %xmm3
	movdqa	%xmm3, %xmm2
	psrld	$7, %xmm2
	pslld	$25, %xmm3
	por	%xmm2, %xmm3
	movdqa	112(%rsp), %xmm8
	paddd	528(%rsp), %xmm8
	movdqa	144(%rsp), %xmm7
	paddd	%xmm7, %xmm8
	pxor	%xmm8, %xmm6
	pshufb	%xmm12, %xmm6
	movdqa	48(%rsp), %xmm1
	paddd	%xmm6, %xmm1
	movdqa	%xmm1, 48(%rsp)
	pxor	%xmm1, %xmm7
	movdqa	%xmm7, %xmm2
	psrld	$7, %xmm2
	pslld	$25, %xmm7
	por	%xmm2, %xmm7
	movdqa	%xmm7, 144(%rsp)
	movdqa	(%rsp), %xmm1
	paddd	784(%rsp), %xmm1
	movdqa	256(%rsp), %xmm2
	paddd	%xmm2, %xmm1
	movdqa	%xmm1, (%rsp)
	pxor	%xmm1, %xmm9
	pshufb	%xmm12, %xmm9
	movdqa	192(%rsp), %xmm7
	paddd	%xmm9, %xmm7
	pxor	%xmm7, %xmm2
	movdqa	%xmm2, %xmm11
	psrld	$7, %xmm11
	pslld	$25, %xmm2
	por	%xmm11, %xmm2
	movdqa	272(%rsp), %xmm1
	paddd	832(%rsp), %xmm1
	paddd	%xmm2, %xmm1
	movdqa	%xmm1, 272(%rsp)
	pxor	%xmm1, %xmm6
	movdqa	.L1_v2_CPI56_5(%rip), %xmm11
	pshufb	%xmm11, %xmm6
	movdqa	64(%rsp), %xmm1
	paddd	%xmm6, %xmm1
	movdqa	%xmm1, 64(%rsp)
	movdqa	%xmm2, %xmm4
	pxor	%xmm1, %xmm4
	movdqa	%xmm4, %xmm2
	psrld	$12, %xmm2
	pslld	$20, %xmm4
	por	%xmm2, %xmm4
	movdqa	%xmm4, 256(%rsp)
	paddd	912(%rsp), %xmm8
	movdqa	32(%rsp), %xmm12
	paddd	%xmm12, %xmm8
	movdqa	304(%rsp), %xmm2
	pxor	%xmm8, %xmm2
	movdqa	%xmm11, %xmm4
	pshufb	%xmm11, %xmm2
	movdqa	%xmm2, 304(%rsp)
	paddd	%xmm2, %xmm7
	movdqa	%xmm7, 192(%rsp)
	pxor	%xmm7, %xmm12
	movdqa	%xmm12, %xmm2
	psrld	$12, %xmm2
	pslld	$20, %xmm12
	por	%xmm2, %xmm12
	movdqa	224(%rsp), %xmm11
	paddd	816(%rsp), %xmm11
	paddd	%xmm3, %xmm11
	pxor	%xmm11, %xmm10
	pshufb	%xmm4, %xmm10
	movdqa	176(%rsp), %xmm2
	paddd	%xmm10, %xmm2
	movdqa	%xmm2, 176(%rsp)
	pxor	%xmm2, %xmm3
	movdqa	%xmm3, %xmm2
	psrld	$12, %xmm2
	pslld	$20, %xmm3
	por	%xmm2, %xmm3
	movdqa	128(%rsp), %xmm7
	paddd	432(%rsp), %xmm7
	movdqa	352(%rsp), %xmm2
	paddd	%xmm2, %xmm7
	pxor	%xmm7, %xmm5
	pshufb	%xmm4, %xmm5
	paddd	%xmm5, %xmm13
	pxor	%xmm13, %xmm2
	movdqa	%xmm13, %xmm1
	movdqa	%xmm2, %xmm13
	psrld	$12, %xmm13
	pslld	$20, %xmm2
	por	%xmm13, %xmm2
	movdqa	%xmm7, %xmm13
	paddd	864(%rsp), %xmm13
	paddd	%xmm2, %xmm13
	movdqa	%xmm13, 128(%rsp)
	movdqa	%xmm2, %xmm7
	pxor	%xmm13, %xmm5
	movdqa	.L1_v2_CPI56_7(%rip), %xmm13
	pshufb	%xmm13, %xmm5
	movdqa	%xmm5, 400(%rsp)
	paddd	%xmm5, %xmm1
	movdqa	%xmm1, 336(%rsp)
	pxor	%xmm1, %xmm7
	movdqa	%xmm7, %xmm2
	psrld	$7, %xmm2
	pslld	$25, %xmm7
	por	%xmm2, %xmm7
	movdqa	16(%rsp), %xmm1
	paddd	896(%rsp), %xmm1
	movdqa	144(%rsp), %xmm2
	paddd	%xmm2, %xmm1
	movdqa	%xmm1, 16(%rsp)
	pxor	%xmm1, %xmm9
	pshufb	%xmm4, %xmm9
	movdqa	208(%rsp), %xmm1
	paddd	%xmm9, %xmm1
	movdqa	%xmm1, 208(%rsp)
	pxor	%xmm1, %xmm2
	movdqa	%xmm2, %xmm1
	psrld	$12, %xmm2
	pslld	$20, %xmm1
	por	%xmm2, %xmm1
	movdqa	%xmm1, 144(%rsp)
	paddd	496(%rsp), %xmm8
	paddd	%xmm12, %xmm8
	movdqa	%xmm8, 112(%rsp)
	movdqa	304(%rsp), %xmm1
	pxor	%xmm8, %xmm1
	pshufb	%xmm13, %xmm1
	movdqa	%xmm1, 304(%rsp)
	movdqa	192(%rsp), %xmm2
	paddd	%xmm1, %xmm2
	movdqa	%xmm2, 192(%rsp)
	pxor	%xmm2, %xmm12
	movdqa	%xmm12, %xmm2
	psrld	$7, %xmm2
	pslld	$25, %xmm12
	por	%xmm2, %xmm12
	movdqa	%xmm12, 32(%rsp)
	movdqa	80(%rsp), %xmm1
	paddd	880(%rsp), %xmm1
	movdqa	96(%rsp), %xmm5
	paddd	%xmm5, %xmm1
	movdqa	%xmm1, 80(%rsp)
	pxor	%xmm1, %xmm14
	pshufb	%xmm4, %xmm14
	movdqa	160(%rsp), %xmm1
	paddd	%xmm14, %xmm1
	movdqa	%xmm1, 160(%rsp)
	pxor	%xmm1, %xmm5
	movdqa	%xmm5, %xmm2
	psrld	$12, %xmm2
	pslld	$20, %xmm5
	por	%xmm2, %xmm5
	movdqa	%xmm5, 96(%rsp)
	paddd	720(%rsp), %xmm11
	paddd	%xmm3, %xmm11
	pxor	%xmm11, %xmm10
	pshufb	%xmm13, %xmm10
	movdqa	176(%rsp), %xmm2
	paddd	%xmm10, %xmm2
	movdqa	%xmm2, 176(%rsp)
	pxor	%xmm2, %xmm3
	movdqa	%xmm3, %xmm2
	psrld	$7, %xmm2
	pslld	$25, %xmm3
	por	%xmm2, %xmm3
	movdqa	%xmm3, 384(%rsp)
	movdqa	(%rsp), %xmm1
	paddd	800(%rsp), %xmm1
	movdqa	368(%rsp), %xmm3
	paddd	%xmm3, %xmm1
	movdqa	%xmm1, (%rsp)
	pxor	%xmm1, %xmm0
	pshufb	%xmm4, %xmm0
	movdqa	48(%rsp), %xmm1
	paddd	%xmm0, %xmm1
	movdqa	%xmm1, 48(%rsp)
	pxor	%xmm1, %xmm3
	movdqa	%xmm3, %xmm2
	psrld	$12, %xmm2
	pslld	$20, %xmm3
	por	%xmm2, %xmm3
	movdqa	%xmm3, 368(%rsp)
	movdqa	272(%rsp), %xmm12
	paddd	528(%rsp), %xmm12
	movdqa	256(%rsp), %xmm1
	paddd	%xmm1, %xmm12
	pxor	%xmm12, %xmm6
	movdqa	%xmm13, %xmm3
	pshufb	%xmm13, %xmm6
	movdqa	64(%rsp), %xmm2
	paddd	%xmm6, %xmm2
	movdqa	%xmm2, 64(%rsp)
	pxor	%xmm2, %xmm1
	movdqa	%xmm1, %xmm2
	psrld	$7, %xmm2
	pslld	$25, %xmm1
	por	%xmm2, %xmm1
	movdqa	%xmm1, 256(%rsp)
	movdqa	288(%rsp), %xmm1
	paddd	416(%rsp), %xmm1
	movdqa	320(%rsp), %xmm8
	paddd	%xmm8, %xmm1
	pxor	%xmm1, %xmm15
	movdqa	%xmm1, %xmm13
	pshufb	%xmm4, %xmm15
	movdqa	240(%rsp), %xmm5
	paddd	%xmm15, %xmm5
	pxor	%xmm5, %xmm8
	movdqa	%xmm8, %xmm2
	psrld	$12, %xmm2
	pslld	$20, %xmm8
	por	%xmm2, %xmm8
	movdqa	%xmm8, %xmm4
	movdqa	80(%rsp), %xmm1
	paddd	608(%rsp), %xmm1
	movdqa	96(%rsp), %xmm8
	paddd	%xmm8, %xmm1
	movdqa	%xmm1, 80(%rsp)
	pxor	%xmm1, %xmm14
	pshufb	%xmm3, %xmm14
	movdqa	160(%rsp), %xmm1
	paddd	%xmm14, %xmm1
	movdqa	%xmm1, 160(%rsp)
	pxor	%xmm1, %xmm8
	movdqa	%xmm8, %xmm2
	psrld	$7, %xmm2
	pslld	$25, %xmm8
	por	%xmm2, %xmm8
	movdqa	%xmm8, 96(%rsp)
	paddd	672(%rsp), %xmm13
	paddd	%xmm4, %xmm13
	movdqa	%xmm13, 288(%rsp)
	pxor	%xmm13, %xmm15
	movdqa	%xmm3, %xmm8
	pshufb	%xmm3, %xmm15
	paddd	%xmm15, %xmm5
	pxor	%xmm5, %xmm4
	movdqa	%xmm4, %xmm2
	psrld	$7, %xmm2
	pslld	$25, %xmm4
	por	%xmm2, %xmm4
	movdqa	%xmm4, 320(%rsp)
	movdqa	16(%rsp), %xmm1
	paddd	704(%rsp), %xmm1
	movdqa	144(%rsp), %xmm3
	paddd	%xmm3, %xmm1
	movdqa	%xmm1, 16(%rsp)
	pxor	%xmm1, %xmm9
	pshufb	%xmm8, %xmm9
	movdqa	208(%rsp), %xmm2
	paddd	%xmm9, %xmm2
	pxor	%xmm2, %xmm3
	movdqa	%xmm2, %xmm4
	movdqa	%xmm3, %xmm2
	psrld	$7, %xmm2
	pslld	$25, %xmm3
	por	%xmm2, %xmm3
	movdqa	%xmm3, 144(%rsp)
	movdqa	(%rsp), %xmm2
	paddd	768(%rsp), %xmm2
	movdqa	368(%rsp), %xmm3
	paddd	%xmm3, %xmm2
	movdqa	%xmm2, (%rsp)
	pxor	%xmm2, %xmm0
	pshufb	%xmm8, %xmm0
	movdqa	48(%rsp), %xmm1
	paddd	%xmm0, %xmm1
	movdqa	%xmm1, 48(%rsp)
	pxor	%xmm1, %xmm3
	movdqa	%xmm3, %xmm2
	psrld	$7, %xmm2
	pslld	$25, %xmm3
	por	%xmm2, %xmm3
	paddd	544(%rsp), %xmm12
	movdqa	32(%rsp), %xmm13
	paddd	%xmm13, %xmm12
	pxor	%xmm12, %xmm0
	movdqa	.L1_v2_CPI56_5(%rip), %xmm1
	pshufb	%xmm1, %xmm0
	paddd	%xmm0, %xmm4
	movdqa	%xmm4, 208(%rsp)
	pxor	%xmm4, %xmm13
	movdqa	%xmm13, %xmm2
	psrld	$12, %xmm2
	pslld	$20, %xmm13
	por	%xmm2, %xmm13
	movdqa	%xmm13, 32(%rsp)
	paddd	848(%rsp), %xmm11
	paddd	%xmm7, %xmm11
	pxor	%xmm11, %xmm15
	pshufb	%xmm1, %xmm15
	movdqa	160(%rsp), %xmm13
	paddd	%xmm15, %xmm13
	pxor	%xmm13, %xmm7
	movdqa	%xmm7, %xmm2
	psrld	$12, %xmm2
	pslld	$20, %xmm7
	por	%xmm2, %xmm7
	movdqa	%xmm7, %xmm8
	movdqa	112(%rsp), %xmm2
	paddd	464(%rsp), %xmm2
	movdqa	144(%rsp), %xmm4
	paddd	%xmm4, %xmm2
	movdqa	%xmm2, 112(%rsp)
	pxor	%xmm2, %xmm6
	pshufb	%xmm1, %xmm6
	movdqa	48(%rsp), %xmm2
	paddd	%xmm6, %xmm2
	movdqa	%xmm2, 48(%rsp)
	pxor	%xmm2, %xmm4
	movdqa	%xmm4, %xmm2
	psrld	$12, %xmm2
	pslld	$20, %xmm4
	por	%xmm2, %xmm4
	movdqa	%xmm4, 144(%rsp)
	movdqa	128(%rsp), %xmm2
	paddd	624(%rsp), %xmm2
	movdqa	96(%rsp), %xmm4
	paddd	%xmm4, %xmm2
	movdqa	%xmm2, 128(%rsp)
	pxor	%xmm2, %xmm10
	pshufb	%xmm1, %xmm10
	movdqa	%xmm1, %xmm7
	paddd	%xmm10, %xmm5
	movdqa	%xmm5, 240(%rsp)
	pxor	%xmm5, %xmm4
	movdqa	%xmm4, %xmm2
	psrld	$12, %xmm2
	pslld	$20, %xmm4
	por	%xmm2, %xmm4
	movdqa	%xmm4, 96(%rsp)
	paddd	688(%rsp), %xmm11
	paddd	%xmm8, %xmm11
	movdqa	%xmm11, 224(%rsp)
	pxor	%xmm11, %xmm15
	pshufb	.L1_v2_CPI56_7(%rip), %xmm15
	paddd	%xmm15, %xmm13
	movdqa	%xmm13, 160(%rsp)
	pxor	%xmm13, %xmm8
	movdqa	%xmm8, %xmm2
	psrld	$7, %xmm2
	pslld	$25, %xmm8
	por	%xmm2, %xmm8
	movdqa	%xmm8, 352(%rsp)
	movdqa	16(%rsp), %xmm1
	paddd	752(%rsp), %xmm1
	paddd	%xmm3, %xmm1
	movdqa	%xmm1, 16(%rsp)
	movdqa	304(%rsp), %xmm4
	pxor	%xmm1, %xmm4
	movdqa	%xmm7, %xmm13
	pshufb	%xmm7, %xmm4
	movdqa	64(%rsp), %xmm7
	paddd	%xmm4, %xmm7
	pxor	%xmm7, %xmm3
	movdqa	%xmm3, %xmm2
	psrld	$12, %xmm2
	pslld	$20, %xmm3
	por	%xmm2, %xmm3
	movdqa	%xmm12, %xmm1
	paddd	784(%rsp), %xmm1
	movdqa	32(%rsp), %xmm5
	paddd	%xmm5, %xmm1
	movdqa	%xmm1, 272(%rsp)
	pxor	%xmm1, %xmm0
	movdqa	.L1_v2_CPI56_7(%rip), %xmm1
	pshufb	%xmm1, %xmm0
	movdqa	208(%rsp), %xmm2
	paddd	%xmm0, %xmm2
	movdqa	%xmm2, 208(%rsp)
	pxor	%xmm2, %xmm5
	movdqa	%xmm5, %xmm2
	psrld	$7, %xmm2
	pslld	$25, %xmm5
	por	%xmm2, %xmm5
	movdqa	%xmm5, 32(%rsp)
	movdqa	80(%rsp), %xmm2
	paddd	592(%rsp), %xmm2
	movdqa	320(%rsp), %xmm8
	paddd	%xmm8, %xmm2
	movdqa	400(%rsp), %xmm11
	pxor	%xmm2, %xmm11
	movdqa	%xmm2, %xmm12
	pshufb	%xmm13, %xmm11
	movdqa	176(%rsp), %xmm5
	paddd	%xmm11, %xmm5
	pxor	%xmm5, %xmm8
	movdqa	%xmm8, %xmm2
	psrld	$12, %xmm2
	pslld	$20, %xmm8
	por	%xmm2, %xmm8
	paddd	640(%rsp), %xmm12
	paddd	%xmm8, %xmm12
	movdqa	%xmm12, 80(%rsp)
	pxor	%xmm12, %xmm11
	movdqa	%xmm1, %xmm12
	pshufb	%xmm1, %xmm11
	paddd	%xmm11, %xmm5
	movdqa	%xmm5, 176(%rsp)
	pxor	%xmm5, %xmm8
	movdqa	%xmm8, %xmm2
	psrld	$7, %xmm2
	pslld	$25, %xmm8
	por	%xmm2, %xmm8
	movdqa	%xmm8, 320(%rsp)
	movdqa	(%rsp), %xmm1
	paddd	512(%rsp), %xmm1
	movdqa	256(%rsp), %xmm5
	paddd	%xmm5, %xmm1
	movdqa	%xmm1, (%rsp)
	pxor	%xmm1, %xmm9
	pshufb	%xmm13, %xmm9
	movdqa	192(%rsp), %xmm1
	paddd	%xmm9, %xmm1
	movdqa	%xmm1, 192(%rsp)
	pxor	%xmm1, %xmm5
	movdqa	%xmm5, %xmm2
	psrld	$12, %xmm2
	pslld	$20, %xmm5
	por	%xmm2, %xmm5
	movdqa	%xmm5, 256(%rsp)
	movdqa	16(%rsp), %xmm1
	paddd	448(%rsp), %xmm1
	paddd	%xmm3, %xmm1
	movdqa	%xmm1, 16(%rsp)
	pxor	%xmm1, %xmm4
	pshufb	%xmm12, %xmm4
	movdqa	%xmm12, %xmm5
	paddd	%xmm4, %xmm7
	movdqa	%xmm7, 64(%rsp)
	movdqa	%xmm4, %xmm12
	pxor	%xmm7, %xmm3
	movdqa	%xmm3, %xmm2
	psrld	$7, %xmm2
	pslld	$25, %xmm3
	por	%xmm2, %xmm3
	movdqa	%xmm3, 368(%rsp)
	movdqa	288(%rsp), %xmm1
	paddd	576(%rsp), %xmm1
	movdqa	384(%rsp), %xmm8
	paddd	%xmm8, %xmm1
	pxor	%xmm1, %xmm14
	movdqa	%xmm1, %xmm3
	pshufb	%xmm13, %xmm14
	movdqa	336(%rsp), %xmm4
	paddd	%xmm14, %xmm4
	pxor	%xmm4, %xmm8
	movdqa	%xmm8, %xmm2
	psrld	$12, %xmm2
	pslld	$20, %xmm8
	por	%xmm2, %xmm8
	movdqa	128(%rsp), %xmm2
	paddd	736(%rsp), %xmm2
	movdqa	96(%rsp), %xmm1
	paddd	%xmm1, %xmm2
	movdqa	%xmm2, 128(%rsp)
	pxor	%xmm2, %xmm10
	pshufb	%xmm5, %xmm10
	movdqa	240(%rsp), %xmm2
	paddd	%xmm10, %xmm2
	movdqa	%xmm2, 240(%rsp)
	pxor	%xmm2, %xmm1
	movdqa	%xmm1, %xmm2
	psrld	$7, %xmm2
	pslld	$25, %xmm1
	por	%xmm2, %xmm1
	movdqa	%xmm1, 96(%rsp)
	paddd	656(%rsp), %xmm3
	paddd	%xmm8, %xmm3
	movdqa	%xmm3, 288(%rsp)
	pxor	%xmm3, %xmm14
	pshufb	%xmm5, %xmm14
	paddd	%xmm14, %xmm4
	movdqa	%xmm4, 336(%rsp)
	pxor	%xmm4, %xmm8
	movdqa	%xmm8, %xmm2
	psrld	$7, %xmm2
	pslld	$25, %xmm8
	por	%xmm2, %xmm8
	movdqa	112(%rsp), %xmm13
	paddd	480(%rsp), %xmm13
	movdqa	144(%rsp), %xmm1
	paddd	%xmm1, %xmm13
	pxor	%xmm13, %xmm6
	pshufb	%xmm5, %xmm6
	movdqa	48(%rsp), %xmm2
	paddd	%xmm6, %xmm2
	movdqa	%xmm2, 48(%rsp)
	pxor	%xmm2, %xmm1
	movdqa	%xmm1, %xmm2
	psrld	$7, %xmm2
	pslld	$25, %xmm1
	por	%xmm2, %xmm1
	movdqa	%xmm1, 144(%rsp)
	movdqa	(%rsp), %xmm1
	paddd	560(%rsp), %xmm1
	movdqa	256(%rsp), %xmm3
	paddd	%xmm3, %xmm1
	movdqa	%xmm1, (%rsp)
	pxor	%xmm1, %xmm9
	pshufb	%xmm5, %xmm9
	movdqa	192(%rsp), %xmm1
	paddd	%xmm9, %xmm1
	pxor	%xmm1, %xmm3
	movdqa	%xmm3, %xmm2
	psrld	$7, %xmm2
	pslld	$25, %xmm3
	por	%xmm2, %xmm3
	movdqa	272(%rsp), %xmm2
	paddd	528(%rsp), %xmm2
	paddd	%xmm3, %xmm2
	movdqa	%xmm2, 272(%rsp)
	pxor	%xmm2, %xmm6
	movdqa	.L1_v2_CPI56_5(%rip), %xmm4
	pshufb	%xmm4, %xmm6
	movdqa	64(%rsp), %xmm2
	paddd	%xmm6, %xmm2
	movdqa	%xmm2, 64(%rsp)
	pxor	%xmm2, %xmm3
	movdqa	%xmm3, %xmm2
	psrld	$12, %xmm2
	pslld	$20, %xmm3
	por	%xmm2, %xmm3
	movdqa	%xmm3, 256(%rsp)
	paddd	512(%rsp), %xmm13
	movdqa	32(%rsp), %xmm5
	paddd	%xmm5, %xmm13
	movdqa	%xmm13, 112(%rsp)
	pxor	%xmm13, %xmm12
	pshufb	%xmm4, %xmm12
	paddd	%xmm12, %xmm1
	pxor	%xmm1, %xmm5
	movdqa	%xmm5, %xmm2
	psrld	$12, %xmm2
	pslld	$20, %xmm5
	por	%xmm2, %xmm5
	movdqa	224(%rsp), %xmm2
	paddd	720(%rsp), %xmm2
	paddd	%xmm8, %xmm2
	movdqa	%xmm2, 224(%rsp)
	pxor	%xmm2, %xmm10
	movdqa	%xmm4, %xmm3
	pshufb	%xmm4, %xmm10
	movdqa	176(%rsp), %xmm2
	paddd	%xmm10, %xmm2
	movdqa	%xmm2, 176(%rsp)
	pxor	%xmm2, %xmm8
	movdqa	%xmm8, %xmm2
	psrld	$12, %xmm2
	pslld	$20, %xmm8
	por	%xmm2, %xmm8
	movdqa	128(%rsp), %xmm2
	paddd	576(%rsp), %xmm2
	movdqa	352(%rsp), %xmm13
	paddd	%xmm13, %xmm2
	pxor	%xmm2, %xmm11
	movdqa	%xmm2, %xmm4
	pshufb	%xmm3, %xmm11
	movdqa	336(%rsp), %xmm7
	paddd	%xmm11, %xmm7
	pxor	%xmm7, %xmm13
	movdqa	%xmm13, %xmm2
	psrld	$12, %xmm2
	pslld	$20, %xmm13
	por	%xmm2, %xmm13
	paddd	592(%rsp), %xmm4
	paddd	%xmm13, %xmm4
	movdqa	%xmm4, 128(%rsp)
	pxor	%xmm4, %xmm11
	movdqa	.L1_v2_CPI56_7(%rip), %xmm3
	pshufb	%xmm3, %xmm11
	movdqa	%xmm11, 400(%rsp)
	paddd	%xmm11, %xmm7
	movdqa	%xmm7, 336(%rsp)
	pxor	%xmm7, %xmm13
	movdqa	%xmm13, %xmm2
	psrld	$7, %xmm2
	pslld	$25, %xmm13
	por	%xmm2, %xmm13
	movdqa	16(%rsp), %xmm2
	paddd	448(%rsp), %xmm2
	movdqa	144(%rsp), %xmm4
	paddd	%xmm4, %xmm2
	movdqa	%xmm2, 16(%rsp)
	pxor	%xmm2, %xmm9
	movdqa	.L1_v2_CPI56_5(%rip), %xmm7
	pshufb	%xmm7, %xmm9
	movdqa	208(%rsp), %xmm2
	paddd	%xmm9, %xmm2
	movdqa	%xmm2, 208(%rsp)
	pxor	%xmm2, %xmm4
	movdqa	%xmm4, %xmm2
	psrld	$12, %xmm2
	pslld	$20, %xmm4
	por	%xmm2, %xmm4
	movdqa	%xmm4, 144(%rsp)
	movdqa	112(%rsp), %xmm2
	paddd	752(%rsp), %xmm2
	paddd	%xmm5, %xmm2
	movdqa	%xmm2, 112(%rsp)
	pxor	%xmm2, %xmm12
	pshufb	%xmm3, %xmm12
	movdqa	%xmm12, 304(%rsp)
	paddd	%xmm12, %xmm1
	movdqa	%xmm1, 192(%rsp)
	pxor	%xmm1, %xmm5
	movdqa	%xmm5, %xmm2
	psrld	$7, %xmm2
	pslld	$25, %xmm5
	por	%xmm2, %xmm5
	movdqa	%xmm5, 32(%rsp)
	movdqa	80(%rsp), %xmm1
	paddd	640(%rsp), %xmm1
	movdqa	96(%rsp), %xmm4
	paddd	%xmm4, %xmm1
	movdqa	%xmm1, 80(%rsp)
	pxor	%xmm1, %xmm14
	pshufb	%xmm7, %xmm14
	movdqa	160(%rsp), %xmm1
	paddd	%xmm14, %xmm1
	movdqa	%xmm1, 160(%rsp)
	pxor	%xmm1, %xmm4
	movdqa	%xmm4, %xmm2
	psrld	$12, %xmm2
	pslld	$20, %xmm4
	por	%xmm2, %xmm4
	movdqa	%xmm4, 96(%rsp)
	movdqa	224(%rsp), %xmm2
	paddd	736(%rsp), %xmm2
	movdqa	%xmm8, %xmm1
	paddd	%xmm8, %xmm2
	movdqa	%xmm2, 224(%rsp)
	pxor	%xmm2, %xmm10
	pshufb	%xmm3, %xmm10
	movdqa	176(%rsp), %xmm2
	paddd	%xmm10, %xmm2
	movdqa	%xmm2, 176(%rsp)
	pxor	%xmm2, %xmm1
	movdqa	%xmm1, %xmm2
	psrld	$7, %xmm2
	pslld	$25, %xmm1
	por	%xmm2, %xmm1
	movdqa	%xmm1, 384(%rsp)
	movdqa	(%rsp), %xmm1
	paddd	544(%rsp), %xmm1
	movdqa	368(%rsp), %xmm11
	paddd	%xmm11, %xmm1
	movdqa	%xmm1, (%rsp)
	pxor	%xmm1, %xmm0
	pshufb	%xmm7, %xmm0
	movdqa	48(%rsp), %xmm1
	paddd	%xmm0, %xmm1
	movdqa	%xmm1, 48(%rsp)
	pxor	%xmm1, %xmm11
	movdqa	%xmm11, %xmm2
	psrld	$12, %xmm2
	pslld	$20, %xmm11
	por	%xmm2, %xmm11
	movdqa	272(%rsp), %xmm12
	paddd	480(%rsp), %xmm12
	movdqa	256(%rsp), %xmm2
	paddd	%xmm2, %xmm12
	pxor	%xmm12, %xmm6
	movdqa	%xmm3, %xmm8
	pshufb	%xmm3, %xmm6
	movdqa	64(%rsp), %xmm1
	paddd	%xmm6, %xmm1
	movdqa	%xmm1, 64(%rsp)
	pxor	%xmm1, %xmm2
	movdqa	%xmm2, %xmm1
	psrld	$7, %xmm2
	pslld	$25, %xmm1
	por	%xmm2, %xmm1
	movdqa	%xmm1, 256(%rsp)
	movdqa	288(%rsp), %xmm4
	paddd	848(%rsp), %xmm4
	movdqa	320(%rsp), %xmm3
	paddd	%xmm3, %xmm4
	pxor	%xmm4, %xmm15
	pshufb	%xmm7, %xmm15
	movdqa	240(%rsp), %xmm1
	paddd	%xmm15, %xmm1
	pxor	%xmm1, %xmm3
	movdqa	%xmm1, %xmm7
	movdqa	%xmm3, %xmm2
	psrld	$12, %xmm2
	pslld	$20, %xmm3
	por	%xmm2, %xmm3
	movdqa	%xmm3, %xmm5
	movdqa	80(%rsp), %xmm2
	paddd	688(%rsp), %xmm2
	movdqa	96(%rsp), %xmm1
	paddd	%xmm1, %xmm2
	movdqa	%xmm2, 80(%rsp)
	pxor	%xmm2, %xmm14
	movdqa	%xmm8, %xmm3
	pshufb	%xmm8, %xmm14
	movdqa	160(%rsp), %xmm2
	paddd	%xmm14, %xmm2
	movdqa	%xmm2, 160(%rsp)
	pxor	%xmm2, %xmm1
	movdqa	%xmm1, %xmm2
	psrld	$7, %xmm2
	pslld	$25, %xmm1
	por	%xmm2, %xmm1
	movdqa	%xmm1, %xmm8
	paddd	864(%rsp), %xmm4
	paddd	%xmm5, %xmm4
	movdqa	%xmm4, 288(%rsp)
	pxor	%xmm4, %xmm15
	pshufb	%xmm3, %xmm15
	paddd	%xmm15, %xmm7
	movdqa	%xmm7, 240(%rsp)
	pxor	%xmm7, %xmm5
	movdqa	%xmm5, %xmm2
	psrld	$7, %xmm2
	pslld	$25, %xmm5
	por	%xmm2, %xmm5
	movdqa	%xmm5, 320(%rsp)
	movdqa	16(%rsp), %xmm1
	paddd	784(%rsp), %xmm1
	movdqa	144(%rsp), %xmm7
	paddd	%xmm7, %xmm1
	movdqa	%xmm1, 16(%rsp)
	pxor	%xmm1, %xmm9
	pshufb	%xmm3, %xmm9
	movdqa	208(%rsp), %xmm2
	paddd	%xmm9, %xmm2
	pxor	%xmm2, %xmm7
	movdqa	%xmm2, %xmm4
	movdqa	%xmm7, %xmm2
	psrld	$7, %xmm2
	pslld	$25, %xmm7
	por	%xmm2, %xmm7
	movdqa	(%rsp), %xmm1
	paddd	496(%rsp), %xmm1
	paddd	%xmm11, %xmm1
	movdqa	%xmm1, (%rsp)
	pxor	%xmm1, %xmm0
	pshufb	%xmm3, %xmm0
	movdqa	48(%rsp), %xmm1
	paddd	%xmm0, %xmm1
	pxor	%xmm1, %xmm11
	movdqa	%xmm1, %xmm5
	movdqa	%xmm11, %xmm2
	psrld	$7, %xmm2
	pslld	$25, %xmm11
	por	%xmm2, %xmm11
	paddd	896(%rsp), %xmm12
	movdqa	32(%rsp), %xmm3
	paddd	%xmm3, %xmm12
	pxor	%xmm12, %xmm0
	movdqa	.L1_v2_CPI56_5(%rip), %xmm1
	pshufb	%xmm1, %xmm0
	paddd	%xmm0, %xmm4
	movdqa	%xmm4, 208(%rsp)
	pxor	%xmm4, %xmm3
	movdqa	%xmm3, %xmm2
	psrld	$12, %xmm2
	pslld	$20, %xmm3
	por	%xmm2, %xmm3
	movdqa	%xmm3, 32(%rsp)
	movdqa	224(%rsp), %xmm2
	paddd	880(%rsp), %xmm2
	movdqa	%xmm13, %xmm3
	paddd	%xmm13, %xmm2
	pxor	%xmm2, %xmm15
	movdqa	%xmm2, %xmm13
	pshufb	%xmm1, %xmm15
	movdqa	%xmm1, %xmm4
	movdqa	160(%rsp), %xmm1
	paddd	%xmm15, %xmm1
	movdqa	%xmm1, 160(%rsp)
	pxor	%xmm1, %xmm3
	movdqa	%xmm3, %xmm2
	psrld	$12, %xmm2
	pslld	$20, %xmm3
	por	%xmm2, %xmm3
	movdqa	112(%rsp), %xmm1
	paddd	912(%rsp), %xmm1
	paddd	%xmm7, %xmm1
	movdqa	%xmm1, 112(%rsp)
	pxor	%xmm1, %xmm6
	pshufb	%xmm4, %xmm6
	paddd	%xmm6, %xmm5
	movdqa	%xmm5, 48(%rsp)
	pxor	%xmm5, %xmm7
	movdqa	%xmm7, %xmm2
	psrld	$12, %xmm2
	pslld	$20, %xmm7
	por	%xmm2, %xmm7
	movdqa	%xmm7, 144(%rsp)
	movdqa	128(%rsp), %xmm2
	paddd	432(%rsp), %xmm2
	paddd	%xmm8, %xmm2
	movdqa	%xmm2, 128(%rsp)
	pxor	%xmm2, %xmm10
	pshufb	%xmm4, %xmm10
	movdqa	240(%rsp), %xmm1
	paddd	%xmm10, %xmm1
	movdqa	%xmm1, 240(%rsp)
	pxor	%xmm1, %xmm8
	movdqa	%xmm8, %xmm2
	psrld	$12, %xmm2
	pslld	$20, %xmm8
	por	%xmm2, %xmm8
	paddd	624(%rsp), %xmm13
	paddd	%xmm3, %xmm13
	movdqa	%xmm13, 224(%rsp)
	pxor	%xmm13, %xmm15
	movdqa	.L1_v2_CPI56_7(%rip), %xmm5
	pshufb	%xmm5, %xmm15
	movdqa	160(%rsp), %xmm13
	paddd	%xmm15, %xmm13
	movdqa	%xmm13, 160(%rsp)
	pxor	%xmm13, %xmm3
	movdqa	%xmm3, %xmm2
	psrld	$7, %xmm2
	pslld	$25, %xmm3
	por	%xmm2, %xmm3
	movdqa	%xmm3, 352(%rsp)
	movdqa	16(%rsp), %xmm1
	paddd	560(%rsp), %xmm1
	paddd	%xmm11, %xmm1
	movdqa	%xmm1, 16(%rsp)
	movdqa	304(%rsp), %xmm2
	pxor	%xmm1, %xmm2
	pshufb	%xmm4, %xmm2
	movdqa	%xmm2, 304(%rsp)
	movdqa	64(%rsp), %xmm13
	paddd	%xmm2, %xmm13
	pxor	%xmm13, %xmm11
	movdqa	%xmm11, %xmm2
	psrld	$12, %xmm2
	pslld	$20, %xmm11
	por	%xmm2, %xmm11
	movdqa	%xmm12, %xmm1
	paddd	464(%rsp), %xmm1
	movdqa	32(%rsp), %xmm3
	paddd	%xmm3, %xmm1
	movdqa	%xmm1, 272(%rsp)
	pxor	%xmm1, %xmm0
	movdqa	%xmm5, %xmm4
	pshufb	%xmm5, %xmm0
	movdqa	208(%rsp), %xmm1
	paddd	%xmm0, %xmm1
	movdqa	%xmm1, 208(%rsp)
	pxor	%xmm1, %xmm3
	movdqa	%xmm3, %xmm2
	psrld	$7, %xmm2
	pslld	$25, %xmm3
	por	%xmm2, %xmm3
	movdqa	%xmm3, 32(%rsp)
	movdqa	80(%rsp), %xmm1
	paddd	656(%rsp), %xmm1
	movdqa	320(%rsp), %xmm3
	paddd	%xmm3, %xmm1
	movdqa	400(%rsp), %xmm5
	pxor	%xmm1, %xmm5
	movdqa	%xmm1, %xmm7
	movdqa	.L1_v2_CPI56_5(%rip), %xmm12
	pshufb	%xmm12, %xmm5
	movdqa	176(%rsp), %xmm1
	paddd	%xmm5, %xmm1
	pxor	%xmm1, %xmm3
	movdqa	%xmm3, %xmm2
	psrld	$12, %xmm2
	pslld	$20, %xmm3
	por	%xmm2, %xmm3
	paddd	816(%rsp), %xmm7
	paddd	%xmm3, %xmm7
	movdqa	%xmm7, 80(%rsp)
	pxor	%xmm7, %xmm5
	pshufb	%xmm4, %xmm5
	movdqa	%xmm5, 400(%rsp)
	paddd	%xmm5, %xmm1
	movdqa	%xmm1, 176(%rsp)
	pxor	%xmm1, %xmm3
	movdqa	%xmm3, %xmm2
	psrld	$7, %xmm2
	pslld	$25, %xmm3
	por	%xmm2, %xmm3
	movdqa	%xmm3, 320(%rsp)
	movdqa	(%rsp), %xmm1
	paddd	800(%rsp), %xmm1
	movdqa	256(%rsp), %xmm7
	paddd	%xmm7, %xmm1
	movdqa	%xmm1, (%rsp)
	pxor	%xmm1, %xmm9
	pshufb	%xmm12, %xmm9
	movdqa	192(%rsp), %xmm3
	paddd	%xmm9, %xmm3
	movdqa	%xmm3, 192(%rsp)
	pxor	%xmm3, %xmm7
	movdqa	%xmm7, %xmm2
	psrld	$12, %xmm2
	pslld	$20, %xmm7
	por	%xmm2, %xmm7
	movdqa	16(%rsp), %xmm1
	paddd	832(%rsp), %xmm1
	paddd	%xmm11, %xmm1
	movdqa	%xmm1, 16(%rsp)
	movdqa	304(%rsp), %xmm4
	pxor	%xmm1, %xmm4
	movdqa	.L1_v2_CPI56_7(%rip), %xmm5
	pshufb	%xmm5, %xmm4
	movdqa	%xmm13, %xmm1
	paddd	%xmm4, %xmm1
	movdqa	%xmm1, 64(%rsp)
	pxor	%xmm1, %xmm11
	movdqa	%xmm11, %xmm2
	psrld	$7, %xmm2
	pslld	$25, %xmm11
	por	%xmm2, %xmm11
	movdqa	%xmm11, 368(%rsp)
	movdqa	288(%rsp), %xmm1
	paddd	416(%rsp), %xmm1
	movdqa	384(%rsp), %xmm3
	paddd	%xmm3, %xmm1
	pxor	%xmm1, %xmm14
	movdqa	%xmm1, %xmm11
	pshufb	%xmm12, %xmm14
	movdqa	%xmm12, %xmm13
	movdqa	336(%rsp), %xmm1
	paddd	%xmm14, %xmm1
	pxor	%xmm1, %xmm3
	movdqa	%xmm1, %xmm12
	movdqa	%xmm3, %xmm2
	psrld	$12, %xmm2
	pslld	$20, %xmm3
	por	%xmm2, %xmm3
	movdqa	128(%rsp), %xmm1
	paddd	672(%rsp), %xmm1
	paddd	%xmm8, %xmm1
	movdqa	%xmm1, 128(%rsp)
	pxor	%xmm1, %xmm10
	pshufb	%xmm5, %xmm10
	movdqa	240(%rsp), %xmm2
	paddd	%xmm10, %xmm2
	movdqa	%xmm2, 240(%rsp)
	pxor	%xmm2, %xmm8
	movdqa	%xmm8, %xmm2
	psrld	$7, %xmm2
	pslld	$25, %xmm8
	por	%xmm2, %xmm8
	paddd	608(%rsp), %xmm11
	paddd	%xmm3, %xmm11
	movdqa	%xmm11, 288(%rsp)
	pxor	%xmm11, %xmm14
	pshufb	%xmm5, %xmm14
	paddd	%xmm14, %xmm12
	movdqa	%xmm12, 336(%rsp)
	pxor	%xmm12, %xmm3
	movdqa	%xmm3, %xmm2
	psrld	$7, %xmm2
	pslld	$25, %xmm3
	por	%xmm2, %xmm3
	movdqa	112(%rsp), %xmm2
	paddd	768(%rsp), %xmm2
	movdqa	144(%rsp), %xmm11
	paddd	%xmm11, %xmm2
	movdqa	%xmm2, 112(%rsp)
	pxor	%xmm2, %xmm6
	pshufb	%xmm5, %xmm6
	movdqa	48(%rsp), %xmm1
	paddd	%xmm6, %xmm1
	movdqa	%xmm1, 48(%rsp)
	pxor	%xmm1, %xmm11
	movdqa	%xmm11, %xmm2
	psrld	$7, %xmm2
	pslld	$25, %xmm11
	por	%xmm2, %xmm11
	movdqa	%xmm11, 144(%rsp)
	movdqa	(%rsp), %xmm1
	paddd	704(%rsp), %xmm1
	movdqa	%xmm7, %xmm11
	paddd	%xmm7, %xmm1
	movdqa	%xmm1, (%rsp)
	pxor	%xmm1, %xmm9
	pshufb	%xmm5, %xmm9
	movdqa	192(%rsp), %xmm1
	paddd	%xmm9, %xmm1
	pxor	%xmm1, %xmm11
	movdqa	%xmm1, %xmm7
	movdqa	%xmm11, %xmm2
	psrld	$7, %xmm2
	pslld	$25, %xmm11
	por	%xmm2, %xmm11
	movdqa	272(%rsp), %xmm1
	paddd	784(%rsp), %xmm1
	paddd	%xmm11, %xmm1
	movdqa	%xmm1, 272(%rsp)
	pxor	%xmm1, %xmm6
	pshufb	%xmm13, %xmm6
	movdqa	64(%rsp), %xmm1
	paddd	%xmm6, %xmm1
	movdqa	%xmm1, 64(%rsp)
	pxor	%xmm1, %xmm11
	movdqa	%xmm11, %xmm2
	psrld	$12, %xmm2
	pslld	$20, %xmm11
	por	%xmm2, %xmm11
	movdqa	%xmm11, 256(%rsp)
	movdqa	112(%rsp), %xmm1
	paddd	464(%rsp), %xmm1
	movdqa	32(%rsp), %xmm12
	paddd	%xmm12, %xmm1
	movdqa	%xmm1, 112(%rsp)
	pxor	%xmm1, %xmm4
	movdqa	%xmm13, %xmm1
	pshufb	%xmm13, %xmm4
	paddd	%xmm4, %xmm7
	movdqa	%xmm7, 192(%rsp)
	pxor	%xmm7, %xmm12
	movdqa	%xmm12, %xmm2
	psrld	$12, %xmm2
	pslld	$20, %xmm12
	por	%xmm2, %xmm12
	movdqa	224(%rsp), %xmm2
	paddd	688(%rsp), %xmm2
	paddd	%xmm3, %xmm2
	movdqa	%xmm2, 224(%rsp)
	pxor	%xmm2, %xmm10
	pshufb	%xmm13, %xmm10
	movdqa	176(%rsp), %xmm2
	paddd	%xmm10, %xmm2
	movdqa	%xmm2, 176(%rsp)
	pxor	%xmm2, %xmm3
	movdqa	%xmm3, %xmm2
	psrld	$12, %xmm2
	pslld	$20, %xmm3
	por	%xmm2, %xmm3
	movdqa	128(%rsp), %xmm7
	paddd	624(%rsp), %xmm7
	movdqa	352(%rsp), %xmm13
	paddd	%xmm13, %xmm7
	movdqa	400(%rsp), %xmm5
	pxor	%xmm7, %xmm5
	pshufb	%xmm1, %xmm5
	movdqa	336(%rsp), %xmm2
	paddd	%xmm5, %xmm2
	pxor	%xmm2, %xmm13
	movdqa	%xmm2, %xmm1
	movdqa	%xmm13, %xmm2
	psrld	$12, %xmm2
	pslld	$20, %xmm13
	por	%xmm2, %xmm13
	paddd	640(%rsp), %xmm7
	paddd	%xmm13, %xmm7
	movdqa	%xmm7, 128(%rsp)
	pxor	%xmm7, %xmm5
	movdqa	.L1_v2_CPI56_7(%rip), %xmm11
	pshufb	%xmm11, %xmm5
	movdqa	%xmm5, 400(%rsp)
	paddd	%xmm5, %xmm1
	movdqa	%xmm1, 336(%rsp)
	pxor	%xmm1, %xmm13
	movdqa	%xmm13, %xmm2
	psrld	$7, %xmm2
	pslld	$25, %xmm13
	por	%xmm2, %xmm13
	movdqa	%xmm13, 352(%rsp)
	movdqa	16(%rsp), %xmm1
	paddd	528(%rsp), %xmm1
	movdqa	144(%rsp), %xmm2
	paddd	%xmm2, %xmm1
	movdqa	%xmm1, 16(%rsp)
	pxor	%xmm1, %xmm9
	movdqa	.L1_v2_CPI56_5(%rip), %xmm13
	pshufb	%xmm13, %xmm9
	movdqa	208(%rsp), %xmm1
	paddd	%xmm9, %xmm1
	movdqa	%xmm1, 208(%rsp)
	pxor	%xmm1, %xmm2
	movdqa	%xmm2, %xmm1
	psrld	$12, %xmm2
	pslld	$20, %xmm1
	por	%xmm2, %xmm1
	movdqa	%xmm1, 144(%rsp)
	movdqa	112(%rsp), %xmm1
	paddd	448(%rsp), %xmm1
	paddd	%xmm12, %xmm1
	movdqa	%xmm1, 112(%rsp)
	movdqa	%xmm4, %xmm2
	pxor	%xmm1, %xmm2
	pshufb	%xmm11, %xmm2
	movdqa	%xmm2, 304(%rsp)
	movdqa	192(%rsp), %xmm1
	paddd	%xmm2, %xmm1
	movdqa	%xmm1, 192(%rsp)
	pxor	%xmm1, %xmm12
	movdqa	%xmm12, %xmm2
	psrld	$7, %xmm2
	pslld	$25, %xmm12
	por	%xmm2, %xmm12
	movdqa	%xmm12, 32(%rsp)
	movdqa	80(%rsp), %xmm1
	paddd	720(%rsp), %xmm1
	paddd	%xmm8, %xmm1
	movdqa	%xmm1, 80(%rsp)
	pxor	%xmm1, %xmm14
	pshufb	%xmm13, %xmm14
	movdqa	%xmm13, %xmm4
	movdqa	160(%rsp), %xmm1
	paddd	%xmm14, %xmm1
	movdqa	%xmm1, 160(%rsp)
	pxor	%xmm1, %xmm8
	movdqa	%xmm8, %xmm2
	psrld	$12, %xmm2
	pslld	$20, %xmm8
	por	%xmm2, %xmm8
	movdqa	224(%rsp), %xmm1
	paddd	608(%rsp), %xmm1
	paddd	%xmm3, %xmm1
	movdqa	%xmm1, 224(%rsp)
	pxor	%xmm1, %xmm10
	pshufb	%xmm11, %xmm10
	movdqa	176(%rsp), %xmm1
	paddd	%xmm10, %xmm1
	movdqa	%xmm1, 176(%rsp)
	pxor	%xmm1, %xmm3
	movdqa	%xmm3, %xmm2
	psrld	$7, %xmm2
	pslld	$25, %xmm3
	por	%xmm2, %xmm3
	movdqa	(%rsp), %xmm1
	paddd	768(%rsp), %xmm1
	movdqa	368(%rsp), %xmm5
	paddd	%xmm5, %xmm1
	movdqa	%xmm1, (%rsp)
	pxor	%xmm1, %xmm0
	pshufb	%xmm13, %xmm0
	movdqa	48(%rsp), %xmm1
	paddd	%xmm0, %xmm1
	movdqa	%xmm1, 48(%rsp)
	pxor	%xmm1, %xmm5
	movdqa	%xmm5, %xmm2
	psrld	$12, %xmm2
	pslld	$20, %xmm5
	por	%xmm2, %xmm5
	movdqa	272(%rsp), %xmm12
	paddd	704(%rsp), %xmm12
	movdqa	256(%rsp), %xmm7
	paddd	%xmm7, %xmm12
	pxor	%xmm12, %xmm6
	movdqa	%xmm11, %xmm1
	pshufb	%xmm11, %xmm6
	movdqa	64(%rsp), %xmm2
	paddd	%xmm6, %xmm2
	movdqa	%xmm2, 64(%rsp)
	pxor	%xmm2, %xmm7
	movdqa	%xmm7, %xmm2
	psrld	$7, %xmm2
	pslld	$25, %xmm7
	por	%xmm2, %xmm7
	movdqa	%xmm7, 256(%rsp)
	movdqa	288(%rsp), %xmm2
	paddd	672(%rsp), %xmm2
	movdqa	320(%rsp), %xmm13
	paddd	%xmm13, %xmm2
	pxor	%xmm2, %xmm15
	movdqa	%xmm2, %xmm11
	pshufb	%xmm4, %xmm15
	movdqa	240(%rsp), %xmm2
	paddd	%xmm15, %xmm2
	pxor	%xmm2, %xmm13
	movdqa	%xmm2, %xmm4
	movdqa	%xmm13, %xmm2
	psrld	$12, %xmm2
	pslld	$20, %xmm13
	por	%xmm2, %xmm13
	movdqa	%xmm13, %xmm7
	movdqa	80(%rsp), %xmm2
	paddd	576(%rsp), %xmm2
	paddd	%xmm8, %xmm2
	movdqa	%xmm2, 80(%rsp)
	pxor	%xmm2, %xmm14
	pshufb	%xmm1, %xmm14
	movdqa	160(%rsp), %xmm2
	paddd	%xmm14, %xmm2
	movdqa	%xmm2, 160(%rsp)
	pxor	%xmm2, %xmm8
	movdqa	%xmm8, %xmm2
	psrld	$7, %xmm2
	pslld	$25, %xmm8
	por	%xmm2, %xmm8
	movdqa	%xmm8, 96(%rsp)
	paddd	656(%rsp), %xmm11
	paddd	%xmm13, %xmm11
	movdqa	%xmm11, 288(%rsp)
	pxor	%xmm11, %xmm15
	pshufb	%xmm1, %xmm15
	movdqa	%xmm1, %xmm11
	paddd	%xmm15, %xmm4
	pxor	%xmm4, %xmm7
	movdqa	%xmm7, %xmm2
	psrld	$7, %xmm2
	pslld	$25, %xmm7
	por	%xmm2, %xmm7
	movdqa	16(%rsp), %xmm1
	paddd	512(%rsp), %xmm1
	movdqa	144(%rsp), %xmm8
	paddd	%xmm8, %xmm1
	movdqa	%xmm1, 16(%rsp)
	pxor	%xmm1, %xmm9
	pshufb	%xmm11, %xmm9
	movdqa	208(%rsp), %xmm1
	paddd	%xmm9, %xmm1
	pxor	%xmm1, %xmm8
	movdqa	%xmm8, %xmm2
	psrld	$7, %xmm2
	pslld	$25, %xmm8
	por	%xmm2, %xmm8
	movdqa	%xmm8, 144(%rsp)
	movdqa	(%rsp), %xmm2
	paddd	560(%rsp), %xmm2
	movdqa	%xmm5, %xmm13
	paddd	%xmm5, %xmm2
	movdqa	%xmm2, (%rsp)
	pxor	%xmm2, %xmm0
	pshufb	%xmm11, %xmm0
	movdqa	48(%rsp), %xmm2
	paddd	%xmm0, %xmm2
	movdqa	%xmm2, 48(%rsp)
	pxor	%xmm2, %xmm13
	movdqa	%xmm13, %xmm2
	psrld	$7, %xmm2
	pslld	$25, %xmm13
	por	%xmm2, %xmm13
	paddd	480(%rsp), %xmm12
	movdqa	32(%rsp), %xmm5
	paddd	%xmm5, %xmm12
	pxor	%xmm12, %xmm0
	movdqa	.L1_v2_CPI56_5(%rip), %xmm8
	pshufb	%xmm8, %xmm0
	paddd	%xmm0, %xmm1
	pxor	%xmm1, %xmm5
	movdqa	%xmm5, %xmm2
	psrld	$12, %xmm2
	pslld	$20, %xmm5
	por	%xmm2, %xmm5
	movdqa	%xmm5, 32(%rsp)
	movdqa	224(%rsp), %xmm5
	paddd	736(%rsp), %xmm5
	movdqa	352(%rsp), %xmm11
	paddd	%xmm11, %xmm5
	movdqa	%xmm5, 224(%rsp)
	pxor	%xmm5, %xmm15
	pshufb	%xmm8, %xmm15
	movdqa	160(%rsp), %xmm5
	paddd	%xmm15, %xmm5
	movdqa	%xmm5, 160(%rsp)
	pxor	%xmm5, %xmm11
	movdqa	%xmm11, %xmm8
	psrld	$12, %xmm8
	pslld	$20, %xmm11
	por	%xmm8, %xmm11
	movdqa	112(%rsp), %xmm2
	paddd	752(%rsp), %xmm2
	movdqa	144(%rsp), %xmm5
	paddd	%xmm5, %xmm2
	movdqa	%xmm2, 112(%rsp)
	pxor	%xmm2, %xmm6
	movdqa	.L1_v2_CPI56_5(%rip), %xmm8
	pshufb	%xmm8, %xmm6
	movdqa	48(%rsp), %xmm2
	paddd	%xmm6, %xmm2
	movdqa	%xmm2, 48(%rsp)
	pxor	%xmm2, %xmm5
	movdqa	%xmm5, %xmm2
	psrld	$12, %xmm2
	pslld	$20, %xmm5
	por	%xmm2, %xmm5
	movdqa	%xmm5, 144(%rsp)
	movdqa	128(%rsp), %xmm2
	paddd	592(%rsp), %xmm2
	movdqa	96(%rsp), %xmm5
	paddd	%xmm5, %xmm2
	movdqa	%xmm2, 128(%rsp)
	pxor	%xmm2, %xmm10
	pshufb	%xmm8, %xmm10
	movdqa	%xmm4, %xmm2
	paddd	%xmm10, %xmm2
	movdqa	%xmm2, 240(%rsp)
	pxor	%xmm2, %xmm5
	movdqa	%xmm5, %xmm2
	psrld	$12, %xmm2
	pslld	$20, %xmm5
	por	%xmm2, %xmm5
	movdqa	%xmm5, 96(%rsp)
	movdqa	224(%rsp), %xmm5
	paddd	880(%rsp), %xmm5
	movdqa	%xmm11, %xmm2
	paddd	%xmm11, %xmm5
	movdqa	%xmm5, 224(%rsp)
	pxor	%xmm5, %xmm15
	pshufb	.L1_v2_CPI56_7(%rip), %xmm15
	movdqa	160(%rsp), %xmm11
	paddd	%xmm15, %xmm11
	movdqa	%xmm11, 160(%rsp)
	pxor	%xmm11, %xmm2
	movdqa	%xmm2, %xmm5
	psrld	$7, %xmm5
	pslld	$25, %xmm2
	por	%xmm5, %xmm2
	movdqa	%xmm2, 352(%rsp)
	movdqa	400(%rsp), %xmm5
	movdqa	16(%rsp), %xmm2
	paddd	800(%rsp), %xmm2
	paddd	%xmm13, %xmm2
	movdqa	%xmm2, 16(%rsp)
	movdqa	304(%rsp), %xmm4
	pxor	%xmm2, %xmm4
	movdqa	%xmm8, %xmm11
	pshufb	%xmm8, %xmm4
	movdqa	64(%rsp), %xmm2
	paddd	%xmm4, %xmm2
	movdqa	%xmm2, 64(%rsp)
	pxor	%xmm2, %xmm13
	movdqa	%xmm13, %xmm2
	psrld	$12, %xmm2
	pslld	$20, %xmm13
	por	%xmm2, %xmm13
	paddd	896(%rsp), %xmm12
	movdqa	32(%rsp), %xmm8
	paddd	%xmm8, %xmm12
	movdqa	%xmm12, 272(%rsp)
	pxor	%xmm12, %xmm0
	movdqa	.L1_v2_CPI56_7(%rip), %xmm12
	pshufb	%xmm12, %xmm0
	paddd	%xmm0, %xmm1
	movdqa	%xmm1, 208(%rsp)
	pxor	%xmm1, %xmm8
	movdqa	%xmm8, %xmm2
	psrld	$7, %xmm2
	pslld	$25, %xmm8
	por	%xmm2, %xmm8
	movdqa	%xmm8, 32(%rsp)
	movdqa	80(%rsp), %xmm1
	paddd	416(%rsp), %xmm1
	paddd	%xmm7, %xmm1
	pxor	%xmm1, %xmm5
	movdqa	%xmm1, %xmm8
	pshufb	%xmm11, %xmm5
	movdqa	176(%rsp), %xmm1
	paddd	%xmm5, %xmm1
	pxor	%xmm1, %xmm7
	movdqa	%xmm7, %xmm2
	psrld	$12, %xmm2
	pslld	$20, %xmm7
	por	%xmm2, %xmm7
	paddd	432(%rsp), %xmm8
	paddd	%xmm7, %xmm8
	movdqa	%xmm8, 80(%rsp)
	pxor	%xmm8, %xmm5
	movdqa	%xmm12, %xmm11
	pshufb	%xmm12, %xmm5
	paddd	%xmm5, %xmm1
	movdqa	%xmm1, 176(%rsp)
	pxor	%xmm1, %xmm7
	movdqa	%xmm7, %xmm2
	psrld	$7, %xmm2
	pslld	$25, %xmm7
	por	%xmm2, %xmm7
	movdqa	%xmm7, 320(%rsp)
	movdqa	(%rsp), %xmm1
	paddd	832(%rsp), %xmm1
	movdqa	256(%rsp), %xmm12
	paddd	%xmm12, %xmm1
	movdqa	%xmm1, (%rsp)
	pxor	%xmm1, %xmm9
	movdqa	.L1_v2_CPI56_5(%rip), %xmm8
	pshufb	%xmm8, %xmm9
	movdqa	192(%rsp), %xmm1
	paddd	%xmm9, %xmm1
	movdqa	%xmm1, 192(%rsp)
	pxor	%xmm1, %xmm12
	movdqa	%xmm12, %xmm2
	psrld	$12, %xmm2
	pslld	$20, %xmm12
	por	%xmm2, %xmm12
	movdqa	912(%rsp), %xmm7
	movdqa	16(%rsp), %xmm1
	paddd	%xmm7, %xmm1
	paddd	%xmm13, %xmm1
	movdqa	%xmm1, 16(%rsp)
	pxor	%xmm1, %xmm4
	pshufb	%xmm11, %xmm4
	movdqa	%xmm4, 304(%rsp)
	movdqa	64(%rsp), %xmm1
	paddd	%xmm4, %xmm1
	movdqa	%xmm1, 64(%rsp)
	pxor	%xmm1, %xmm13
	movdqa	%xmm13, %xmm2
	psrld	$7, %xmm2
	pslld	$25, %xmm13
	por	%xmm2, %xmm13
	movdqa	288(%rsp), %xmm1
	paddd	816(%rsp), %xmm1
	paddd	%xmm3, %xmm1
	pxor	%xmm1, %xmm14
	pshufb	%xmm8, %xmm14
	movdqa	336(%rsp), %xmm4
	paddd	%xmm14, %xmm4
	pxor	%xmm4, %xmm3
	movdqa	%xmm3, %xmm2
	psrld	$12, %xmm2
	pslld	$20, %xmm3
	por	%xmm2, %xmm3
	movdqa	128(%rsp), %xmm2
	paddd	848(%rsp), %xmm2
	movdqa	96(%rsp), %xmm8
	paddd	%xmm8, %xmm2
	movdqa	%xmm2, 128(%rsp)
	pxor	%xmm2, %xmm10
	pshufb	%xmm11, %xmm10
	movdqa	240(%rsp), %xmm2
	paddd	%xmm10, %xmm2
	movdqa	%xmm2, 240(%rsp)
	pxor	%xmm2, %xmm8
	movdqa	%xmm8, %xmm2
	psrld	$7, %xmm2
	pslld	$25, %xmm8
	por	%xmm2, %xmm8
	movdqa	%xmm8, 96(%rsp)
	paddd	864(%rsp), %xmm1
	paddd	%xmm3, %xmm1
	movdqa	%xmm1, 288(%rsp)
	pxor	%xmm1, %xmm14
	pshufb	%xmm11, %xmm14
	paddd	%xmm14, %xmm4
	movdqa	%xmm4, 336(%rsp)
	pxor	%xmm4, %xmm3
	movdqa	%xmm3, %xmm2
	psrld	$7, %xmm2
	pslld	$25, %xmm3
	por	%xmm2, %xmm3
	movdqa	112(%rsp), %xmm1
	paddd	544(%rsp), %xmm1
	movdqa	144(%rsp), %xmm4
	paddd	%xmm4, %xmm1
	movdqa	%xmm1, 112(%rsp)
	pxor	%xmm1, %xmm6
	pshufb	%xmm11, %xmm6
	movdqa	48(%rsp), %xmm2
	paddd	%xmm6, %xmm2
	movdqa	%xmm2, 48(%rsp)
	pxor	%xmm2, %xmm4
	movdqa	%xmm4, %xmm2
	psrld	$7, %xmm2
	pslld	$25, %xmm4
	por	%xmm2, %xmm4
	movdqa	%xmm4, 144(%rsp)
	movdqa	(%rsp), %xmm2
	paddd	496(%rsp), %xmm2
	paddd	%xmm12, %xmm2
	movdqa	%xmm2, (%rsp)
	pxor	%xmm2, %xmm9
	pshufb	%xmm11, %xmm9
	movdqa	192(%rsp), %xmm2
	paddd	%xmm9, %xmm2
	pxor	%xmm2, %xmm12
	movdqa	%xmm2, %xmm8
	movdqa	%xmm12, %xmm2
	psrld	$7, %xmm2
	pslld	$25, %xmm12
	por	%xmm2, %xmm12
	movdqa	272(%rsp), %xmm1
	paddd	%xmm7, %xmm1
	paddd	%xmm12, %xmm1
	movdqa	%xmm1, 272(%rsp)
	movdqa	%xmm12, %xmm11
	pxor	%xmm1, %xmm6
	movdqa	.L1_v2_CPI56_5(%rip), %xmm12
	pshufb	%xmm12, %xmm6
	movdqa	64(%rsp), %xmm1
	paddd	%xmm6, %xmm1
	movdqa	%xmm1, 64(%rsp)
	pxor	%xmm1, %xmm11
	movdqa	%xmm11, %xmm2
	psrld	$12, %xmm2
	pslld	$20, %xmm11
	por	%xmm2, %xmm11
	movdqa	112(%rsp), %xmm2
	paddd	448(%rsp), %xmm2
	movdqa	32(%rsp), %xmm1
	paddd	%xmm1, %xmm2
	movdqa	%xmm2, 112(%rsp)
	movdqa	304(%rsp), %xmm4
	pxor	%xmm2, %xmm4
	pshufb	%xmm12, %xmm4
	paddd	%xmm4, %xmm8
	movdqa	%xmm8, 192(%rsp)
	pxor	%xmm8, %xmm1
	movdqa	%xmm1, %xmm2
	psrld	$12, %xmm2
	pslld	$20, %xmm1
	por	%xmm2, %xmm1
	movdqa	%xmm1, 32(%rsp)
	movdqa	224(%rsp), %xmm1
	paddd	432(%rsp), %xmm1
	paddd	%xmm3, %xmm1
	movdqa	%xmm1, 224(%rsp)
	pxor	%xmm1, %xmm10
	pshufb	%xmm12, %xmm10
	movdqa	176(%rsp), %xmm1
	paddd	%xmm10, %xmm1
	movdqa	%xmm1, 176(%rsp)
	pxor	%xmm1, %xmm3
	movdqa	%xmm3, %xmm2
	psrld	$12, %xmm2
	pslld	$20, %xmm3
	por	%xmm2, %xmm3
	movdqa	128(%rsp), %xmm1
	paddd	640(%rsp), %xmm1
	movdqa	352(%rsp), %xmm8
	paddd	%xmm8, %xmm1
	pxor	%xmm1, %xmm5
	movdqa	%xmm1, %xmm7
	pshufb	%xmm12, %xmm5
	movdqa	336(%rsp), %xmm1
	paddd	%xmm5, %xmm1
	pxor	%xmm1, %xmm8
	movdqa	%xmm8, %xmm2
	psrld	$12, %xmm2
	pslld	$20, %xmm8
	por	%xmm2, %xmm8
	paddd	656(%rsp), %xmm7
	paddd	%xmm8, %xmm7
	movdqa	%xmm7, 128(%rsp)
	pxor	%xmm7, %xmm5
	movdqa	.L1_v2_CPI56_7(%rip), %xmm7
	pshufb	%xmm7, %xmm5
	paddd	%xmm5, %xmm1
	movdqa	%xmm1, 336(%rsp)
	pxor	%xmm1, %xmm8
	movdqa	%xmm8, %xmm2
	psrld	$7, %xmm2
	pslld	$25, %xmm8
	por	%xmm2, %xmm8
	movdqa	%xmm8, 352(%rsp)
	movdqa	16(%rsp), %xmm1
	paddd	704(%rsp), %xmm1
	movdqa	144(%rsp), %xmm2
	paddd	%xmm2, %xmm1
	movdqa	%xmm1, 16(%rsp)
	pxor	%xmm1, %xmm9
	pshufb	%xmm12, %xmm9
	movdqa	208(%rsp), %xmm1
	paddd	%xmm9, %xmm1
	movdqa	%xmm1, 208(%rsp)
	pxor	%xmm1, %xmm2
	movdqa	%xmm2, %xmm1
	psrld	$12, %xmm2
	pslld	$20, %xmm1
	por	%xmm2, %xmm1
	movdqa	%xmm1, 144(%rsp)
	movdqa	112(%rsp), %xmm1
	paddd	560(%rsp), %xmm1
	movdqa	32(%rsp), %xmm8
	paddd	%xmm8, %xmm1
	movdqa	%xmm1, 112(%rsp)
	pxor	%xmm1, %xmm4
	pshufb	%xmm7, %xmm4
	movdqa	%xmm4, 304(%rsp)
	movdqa	192(%rsp), %xmm1
	paddd	%xmm4, %xmm1
	movdqa	%xmm1, 192(%rsp)
	pxor	%xmm1, %xmm8
	movdqa	%xmm8, %xmm2
	psrld	$7, %xmm2
	pslld	$25, %xmm8
	por	%xmm2, %xmm8
	movdqa	%xmm8, 32(%rsp)
	movdqa	80(%rsp), %xmm1
	paddd	608(%rsp), %xmm1
	movdqa	96(%rsp), %xmm4
	paddd	%xmm4, %xmm1
	movdqa	%xmm1, 80(%rsp)
	pxor	%xmm1, %xmm14
	pshufb	%xmm12, %xmm14
	movdqa	160(%rsp), %xmm1
	paddd	%xmm14, %xmm1
	movdqa	%xmm1, 160(%rsp)
	pxor	%xmm1, %xmm4
	movdqa	%xmm4, %xmm2
	psrld	$12, %xmm2
	pslld	$20, %xmm4
	por	%xmm2, %xmm4
	movdqa	%xmm4, 96(%rsp)
	movdqa	224(%rsp), %xmm2
	paddd	592(%rsp), %xmm2
	paddd	%xmm3, %xmm2
	movdqa	%xmm2, 224(%rsp)
	pxor	%xmm2, %xmm10
	pshufb	%xmm7, %xmm10
	movdqa	176(%rsp), %xmm2
	paddd	%xmm10, %xmm2
	movdqa	%xmm2, 176(%rsp)
	pxor	%xmm2, %xmm3
	movdqa	%xmm3, %xmm2
	psrld	$7, %xmm2
	pslld	$25, %xmm3
	por	%xmm2, %xmm3
	movdqa	%xmm3, 384(%rsp)
	movdqa	(%rsp), %xmm1
	paddd	896(%rsp), %xmm1
	paddd	%xmm13, %xmm1
	movdqa	%xmm1, (%rsp)
	pxor	%xmm1, %xmm0
	movdqa	%xmm12, %xmm3
	pshufb	%xmm12, %xmm0
	movdqa	48(%rsp), %xmm1
	paddd	%xmm0, %xmm1
	movdqa	%xmm1, 48(%rsp)
	pxor	%xmm1, %xmm13
	movdqa	%xmm13, %xmm2
	psrld	$12, %xmm2
	pslld	$20, %xmm13
	por	%xmm2, %xmm13
	movdqa	272(%rsp), %xmm12
	paddd	752(%rsp), %xmm12
	movdqa	%xmm11, %xmm1
	paddd	%xmm11, %xmm12
	pxor	%xmm12, %xmm6
	movdqa	%xmm7, %xmm11
	pshufb	%xmm7, %xmm6
	movdqa	64(%rsp), %xmm2
	paddd	%xmm6, %xmm2
	movdqa	%xmm2, 64(%rsp)
	pxor	%xmm2, %xmm1
	movdqa	%xmm1, %xmm2
	psrld	$7, %xmm2
	pslld	$25, %xmm1
	por	%xmm2, %xmm1
	movdqa	%xmm1, 256(%rsp)
	movdqa	288(%rsp), %xmm4
	paddd	880(%rsp), %xmm4
	movdqa	320(%rsp), %xmm8
	paddd	%xmm8, %xmm4
	pxor	%xmm4, %xmm15
	pshufb	%xmm3, %xmm15
	movdqa	240(%rsp), %xmm7
	paddd	%xmm15, %xmm7
	pxor	%xmm7, %xmm8
	movdqa	%xmm8, %xmm2
	psrld	$12, %xmm2
	pslld	$20, %xmm8
	por	%xmm2, %xmm8
	movdqa	80(%rsp), %xmm2
	paddd	672(%rsp), %xmm2
	movdqa	96(%rsp), %xmm1
	paddd	%xmm1, %xmm2
	movdqa	%xmm2, 80(%rsp)
	pxor	%xmm2, %xmm14
	pshufb	%xmm11, %xmm14
	movdqa	160(%rsp), %xmm2
	paddd	%xmm14, %xmm2
	movdqa	%xmm2, 160(%rsp)
	pxor	%xmm2, %xmm1
	movdqa	%xmm1, %xmm2
	psrld	$7, %xmm2
	pslld	$25, %xmm1
	por	%xmm2, %xmm1
	movdqa	%xmm1, 96(%rsp)
	paddd	416(%rsp), %xmm4
	paddd	%xmm8, %xmm4
	movdqa	%xmm4, 288(%rsp)
	pxor	%xmm4, %xmm15
	pshufb	%xmm11, %xmm15
	paddd	%xmm15, %xmm7
	pxor	%xmm7, %xmm8
	movdqa	%xmm7, %xmm4
	movdqa	%xmm8, %xmm2
	psrld	$7, %xmm2
	pslld	$25, %xmm8
	por	%xmm2, %xmm8
	movdqa	%xmm8, 320(%rsp)
	movdqa	16(%rsp), %xmm2
	paddd	768(%rsp), %xmm2
	movdqa	144(%rsp), %xmm3
	paddd	%xmm3, %xmm2
	movdqa	%xmm2, 16(%rsp)
	pxor	%xmm2, %xmm9
	pshufb	%xmm11, %xmm9
	movdqa	208(%rsp), %xmm1
	paddd	%xmm9, %xmm1
	pxor	%xmm1, %xmm3
	movdqa	%xmm3, %xmm2
	psrld	$7, %xmm2
	pslld	$25, %xmm3
	por	%xmm2, %xmm3
	movdqa	%xmm3, 144(%rsp)
	movdqa	(%rsp), %xmm3
	paddd	800(%rsp), %xmm3
	paddd	%xmm13, %xmm3
	movdqa	%xmm3, (%rsp)
	pxor	%xmm3, %xmm0
	pshufb	%xmm11, %xmm0
	movdqa	48(%rsp), %xmm3
	paddd	%xmm0, %xmm3
	movdqa	%xmm3, 48(%rsp)
	pxor	%xmm3, %xmm13
	movdqa	%xmm13, %xmm3
	psrld	$7, %xmm3
	pslld	$25, %xmm13
	por	%xmm3, %xmm13
	movdqa	%xmm13, 368(%rsp)
	paddd	528(%rsp), %xmm12
	movdqa	32(%rsp), %xmm7
	paddd	%xmm7, %xmm12
	pxor	%xmm12, %xmm0
	movdqa	.L1_v2_CPI56_5(%rip), %xmm3
	pshufb	%xmm3, %xmm0
	paddd	%xmm0, %xmm1
	pxor	%xmm1, %xmm7
	movdqa	%xmm7, %xmm2
	psrld	$12, %xmm2
	pslld	$20, %xmm7
	por	%xmm2, %xmm7
	movdqa	%xmm7, 32(%rsp)
	movdqa	224(%rsp), %xmm11
	paddd	720(%rsp), %xmm11
	movdqa	352(%rsp), %xmm7
	paddd	%xmm7, %xmm11
	pxor	%xmm11, %xmm15
	pshufb	%xmm3, %xmm15
	movdqa	160(%rsp), %xmm2
	paddd	%xmm15, %xmm2
	pxor	%xmm2, %xmm7
	movdqa	%xmm2, %xmm8
	movdqa	%xmm7, %xmm2
	psrld	$12, %xmm2
	pslld	$20, %xmm7
	por	%xmm2, %xmm7
	movdqa	%xmm7, %xmm13
	movdqa	112(%rsp), %xmm2
	paddd	784(%rsp), %xmm2
	movdqa	144(%rsp), %xmm3
	paddd	%xmm3, %xmm2
	movdqa	%xmm2, 112(%rsp)
	pxor	%xmm2, %xmm6
	movdqa	.L1_v2_CPI56_5(%rip), %xmm7
	pshufb	%xmm7, %xmm6
	movdqa	48(%rsp), %xmm2
	paddd	%xmm6, %xmm2
	movdqa	%xmm2, 48(%rsp)
	pxor	%xmm2, %xmm3
	movdqa	%xmm3, %xmm2
	psrld	$12, %xmm2
	pslld	$20, %xmm3
	por	%xmm2, %xmm3
	movdqa	%xmm3, 144(%rsp)
	movdqa	128(%rsp), %xmm2
	paddd	688(%rsp), %xmm2
	movdqa	96(%rsp), %xmm3
	paddd	%xmm3, %xmm2
	movdqa	%xmm2, 128(%rsp)
	pxor	%xmm2, %xmm10
	pshufb	%xmm7, %xmm10
	paddd	%xmm10, %xmm4
	movdqa	%xmm4, 240(%rsp)
	pxor	%xmm4, %xmm3
	movdqa	%xmm3, %xmm2
	psrld	$12, %xmm2
	pslld	$20, %xmm3
	por	%xmm2, %xmm3
	movdqa	%xmm3, 96(%rsp)
	paddd	816(%rsp), %xmm11
	paddd	%xmm13, %xmm11
	movdqa	%xmm11, 224(%rsp)
	pxor	%xmm11, %xmm15
	movdqa	.L1_v2_CPI56_7(%rip), %xmm11
	pshufb	%xmm11, %xmm15
	paddd	%xmm15, %xmm8
	movdqa	%xmm8, 160(%rsp)
	pxor	%xmm8, %xmm13
	movdqa	%xmm13, %xmm2
	psrld	$7, %xmm2
	pslld	$25, %xmm13
	por	%xmm2, %xmm13
	movdqa	%xmm13, 352(%rsp)
	movdqa	16(%rsp), %xmm2
	paddd	512(%rsp), %xmm2
	movdqa	368(%rsp), %xmm3
	paddd	%xmm3, %xmm2
	movdqa	%xmm2, 16(%rsp)
	movdqa	304(%rsp), %xmm4
	pxor	%xmm2, %xmm4
	movdqa	%xmm7, %xmm8
	pshufb	%xmm7, %xmm4
	movdqa	64(%rsp), %xmm2
	paddd	%xmm4, %xmm2
	movdqa	%xmm2, 64(%rsp)
	movdqa	%xmm3, %xmm7
	pxor	%xmm2, %xmm7
	movdqa	%xmm7, %xmm2
	psrld	$12, %xmm2
	pslld	$20, %xmm7
	por	%xmm2, %xmm7
	movdqa	%xmm12, %xmm2
	paddd	832(%rsp), %xmm2
	movdqa	32(%rsp), %xmm3
	paddd	%xmm3, %xmm2
	movdqa	%xmm2, 272(%rsp)
	pxor	%xmm2, %xmm0
	movdqa	%xmm11, %xmm12
	pshufb	%xmm11, %xmm0
	paddd	%xmm0, %xmm1
	movdqa	%xmm1, 208(%rsp)
	pxor	%xmm1, %xmm3
	movdqa	%xmm3, %xmm2
	psrld	$7, %xmm2
	pslld	$25, %xmm3
	por	%xmm2, %xmm3
	movdqa	%xmm3, 32(%rsp)
	movdqa	80(%rsp), %xmm3
	paddd	576(%rsp), %xmm3
	movdqa	320(%rsp), %xmm1
	paddd	%xmm1, %xmm3
	pxor	%xmm3, %xmm5
	pshufb	%xmm8, %xmm5
	movdqa	%xmm8, %xmm11
	movdqa	176(%rsp), %xmm2
	paddd	%xmm5, %xmm2
	pxor	%xmm2, %xmm1
	movdqa	%xmm2, %xmm8
	movdqa	%xmm1, %xmm2
	psrld	$12, %xmm2
	pslld	$20, %xmm1
	por	%xmm2, %xmm1
	paddd	848(%rsp), %xmm3
	paddd	%xmm1, %xmm3
	movdqa	%xmm3, 80(%rsp)
	pxor	%xmm3, %xmm5
	pshufb	%xmm12, %xmm5
	paddd	%xmm5, %xmm8
	movdqa	%xmm8, 176(%rsp)
	pxor	%xmm8, %xmm1
	movdqa	%xmm1, %xmm2
	psrld	$7, %xmm2
	pslld	$25, %xmm1
	por	%xmm2, %xmm1
	movdqa	%xmm1, 320(%rsp)
	movdqa	(%rsp), %xmm1
	paddd	496(%rsp), %xmm1
	movdqa	256(%rsp), %xmm13
	paddd	%xmm13, %xmm1
	movdqa	%xmm1, (%rsp)
	pxor	%xmm1, %xmm9
	movdqa	%xmm11, %xmm8
	pshufb	%xmm11, %xmm9
	movdqa	192(%rsp), %xmm1
	paddd	%xmm9, %xmm1
	movdqa	%xmm1, 192(%rsp)
	pxor	%xmm1, %xmm13
	movdqa	%xmm13, %xmm2
	psrld	$12, %xmm2
	pslld	$20, %xmm13
	por	%xmm2, %xmm13
	movdqa	16(%rsp), %xmm1
	paddd	544(%rsp), %xmm1
	paddd	%xmm7, %xmm1
	movdqa	%xmm1, 16(%rsp)
	pxor	%xmm1, %xmm4
	pshufb	%xmm12, %xmm4
	movdqa	64(%rsp), %xmm2
	paddd	%xmm4, %xmm2
	movdqa	%xmm2, 64(%rsp)
	movdqa	%xmm4, %xmm12
	pxor	%xmm2, %xmm7
	movdqa	%xmm7, %xmm2
	psrld	$7, %xmm2
	pslld	$25, %xmm7
	por	%xmm2, %xmm7
	movdqa	%xmm7, 368(%rsp)
	movdqa	864(%rsp), %xmm11
	movdqa	288(%rsp), %xmm7
	paddd	%xmm11, %xmm7
	movdqa	384(%rsp), %xmm3
	paddd	%xmm3, %xmm7
	pxor	%xmm7, %xmm14
	pshufb	%xmm8, %xmm14
	movdqa	336(%rsp), %xmm1
	paddd	%xmm14, %xmm1
	pxor	%xmm1, %xmm3
	movdqa	%xmm3, %xmm2
	psrld	$12, %xmm2
	pslld	$20, %xmm3
	por	%xmm2, %xmm3
	paddd	736(%rsp), %xmm7
	paddd	%xmm3, %xmm7
	movdqa	%xmm7, 288(%rsp)
	pxor	%xmm7, %xmm14
	movdqa	.L1_v2_CPI56_7(%rip), %xmm4
	pshufb	%xmm4, %xmm14
	paddd	%xmm14, %xmm1
	movdqa	%xmm1, 336(%rsp)
	pxor	%xmm1, %xmm3
	movdqa	%xmm3, %xmm2
	psrld	$7, %xmm2
	pslld	$25, %xmm3
	por	%xmm2, %xmm3
	movdqa	(%rsp), %xmm1
	paddd	480(%rsp), %xmm1
	movdqa	%xmm13, %xmm7
	paddd	%xmm13, %xmm1
	movdqa	%xmm1, (%rsp)
	pxor	%xmm1, %xmm9
	pshufb	%xmm4, %xmm9
	movdqa	192(%rsp), %xmm2
	paddd	%xmm9, %xmm2
	movdqa	%xmm2, 192(%rsp)
	pxor	%xmm2, %xmm7
	movdqa	%xmm7, %xmm2
	psrld	$7, %xmm2
	pslld	$25, %xmm7
	por	%xmm2, %xmm7
	movdqa	%xmm7, 256(%rsp)
	movdqa	128(%rsp), %xmm7
	paddd	624(%rsp), %xmm7
	movdqa	96(%rsp), %xmm8
	paddd	%xmm8, %xmm7
	pxor	%xmm7, %xmm10
	pshufb	%xmm4, %xmm10
	movdqa	240(%rsp), %xmm1
	paddd	%xmm10, %xmm1
	movdqa	%xmm1, 240(%rsp)
	pxor	%xmm1, %xmm8
	movdqa	%xmm8, %xmm2
	psrld	$7, %xmm2
	pslld	$25, %xmm8
	por	%xmm2, %xmm8
	movdqa	%xmm8, 96(%rsp)
	movdqa	224(%rsp), %xmm1
	paddd	%xmm11, %xmm1
	movdqa	%xmm1, 224(%rsp)
	movdqa	272(%rsp), %xmm8
	paddd	496(%rsp), %xmm8
	movdqa	112(%rsp), %xmm13
	paddd	464(%rsp), %xmm13
	movdqa	144(%rsp), %xmm1
	paddd	%xmm1, %xmm13
	pxor	%xmm13, %xmm6
	pshufb	%xmm4, %xmm6
	movdqa	48(%rsp), %xmm2
	paddd	%xmm6, %xmm2
	movdqa	%xmm2, 48(%rsp)
	pxor	%xmm2, %xmm1
	movdqa	%xmm1, %xmm2
	psrld	$7, %xmm2
	pslld	$25, %xmm1
	por	%xmm2, %xmm1
	movdqa	%xmm1, 144(%rsp)
	paddd	416(%rsp), %xmm7
	movdqa	%xmm8, %xmm1
	movdqa	256(%rsp), %xmm4
	paddd	%xmm4, %xmm1
	pxor	%xmm1, %xmm6
	paddd	832(%rsp), %xmm1
	movdqa	%xmm1, 272(%rsp)
	paddd	800(%rsp), %xmm13
	movdqa	224(%rsp), %xmm1
	paddd	%xmm3, %xmm1
	pxor	%xmm1, %xmm10
	paddd	816(%rsp), %xmm1
	movdqa	%xmm1, 224(%rsp)
	movdqa	32(%rsp), %xmm8
	paddd	%xmm8, %xmm13
	pxor	%xmm13, %xmm12
	movdqa	.L1_v2_CPI56_5(%rip), %xmm1
	pshufb	%xmm1, %xmm12
	movdqa	192(%rsp), %xmm2
	paddd	%xmm12, %xmm2
	movdqa	%xmm2, 192(%rsp)
	pxor	%xmm2, %xmm8
	movdqa	%xmm8, %xmm2
	pslld	$20, %xmm8
	psrld	$12, %xmm2
	por	%xmm2, %xmm8
	movdqa	%xmm8, 32(%rsp)
	pshufb	%xmm1, %xmm6
	movdqa	64(%rsp), %xmm2
	paddd	%xmm6, %xmm2
	movdqa	%xmm2, 64(%rsp)
	pxor	%xmm2, %xmm4
	movdqa	%xmm4, %xmm2
	psrld	$12, %xmm2
	pslld	$20, %xmm4
	por	%xmm2, %xmm4
	movdqa	%xmm4, 256(%rsp)
	movdqa	352(%rsp), %xmm11
	paddd	%xmm11, %xmm7
	pxor	%xmm7, %xmm5
	pshufb	%xmm1, %xmm5
	movdqa	336(%rsp), %xmm8
	paddd	%xmm5, %xmm8
	pxor	%xmm8, %xmm11
	movdqa	%xmm11, %xmm2
	pslld	$20, %xmm11
	psrld	$12, %xmm2
	por	%xmm2, %xmm11
	pshufb	%xmm1, %xmm10
	movdqa	176(%rsp), %xmm1
	paddd	%xmm10, %xmm1
	movdqa	%xmm1, 176(%rsp)
	pxor	%xmm1, %xmm3
	movdqa	%xmm3, %xmm2
	psrld	$12, %xmm2
	pslld	$20, %xmm3
	por	%xmm2, %xmm3
	paddd	544(%rsp), %xmm13
	paddd	848(%rsp), %xmm7
	movdqa	80(%rsp), %xmm4
	paddd	624(%rsp), %xmm4
	paddd	%xmm11, %xmm7
	movdqa	%xmm7, 128(%rsp)
	pxor	%xmm7, %xmm5
	pshufb	.L1_v2_CPI56_7(%rip), %xmm5
	movdqa	%xmm8, %xmm1
	paddd	%xmm5, %xmm1
	movdqa	%xmm1, 336(%rsp)
	pxor	%xmm1, %xmm11
	movdqa	%xmm11, %xmm1
	movdqa	%xmm11, %xmm2
	psrld	$7, %xmm2
	pslld	$25, %xmm1
	por	%xmm2, %xmm1
	movdqa	%xmm1, 352(%rsp)
	movdqa	16(%rsp), %xmm1
	paddd	464(%rsp), %xmm1
	movdqa	144(%rsp), %xmm2
	paddd	%xmm2, %xmm1
	pxor	%xmm1, %xmm9
	movdqa	%xmm1, %xmm8
	movdqa	.L1_v2_CPI56_5(%rip), %xmm11
	pshufb	%xmm11, %xmm9
	movdqa	208(%rsp), %xmm1
	paddd	%xmm9, %xmm1
	movdqa	%xmm1, 208(%rsp)
	pxor	%xmm1, %xmm2
	movdqa	%xmm2, %xmm1
	psrld	$12, %xmm2
	pslld	$20, %xmm1
	por	%xmm2, %xmm1
	movdqa	%xmm1, 144(%rsp)
	movdqa	%xmm4, %xmm7
	movdqa	96(%rsp), %xmm4
	paddd	%xmm4, %xmm7
	pxor	%xmm7, %xmm14
	pshufb	%xmm11, %xmm14
	movdqa	160(%rsp), %xmm1
	paddd	%xmm14, %xmm1
	movdqa	%xmm1, 160(%rsp)
	pxor	%xmm1, %xmm4
	movdqa	%xmm4, %xmm2
	psrld	$12, %xmm2
	pslld	$20, %xmm4
	por	%xmm2, %xmm4
	movdqa	%xmm4, 96(%rsp)
	movdqa	32(%rsp), %xmm1
	paddd	%xmm1, %xmm13
	movdqa	%xmm13, 112(%rsp)
	pxor	%xmm13, %xmm12
	movdqa	.L1_v2_CPI56_7(%rip), %xmm4
	pshufb	%xmm4, %xmm12
	movdqa	%xmm12, 304(%rsp)
	movdqa	192(%rsp), %xmm2
	paddd	%xmm12, %xmm2
	movdqa	%xmm2, 192(%rsp)
	pxor	%xmm2, %xmm1
	movdqa	%xmm1, %xmm2
	psrld	$7, %xmm2
	pslld	$25, %xmm1
	por	%xmm2, %xmm1
	movdqa	%xmm1, 32(%rsp)
	paddd	912(%rsp), %xmm8
	movdqa	%xmm8, 16(%rsp)
	paddd	432(%rsp), %xmm7
	movdqa	288(%rsp), %xmm11
	paddd	576(%rsp), %xmm11
	movdqa	224(%rsp), %xmm12
	paddd	%xmm3, %xmm12
	pxor	%xmm12, %xmm10
	pshufb	%xmm4, %xmm10
	movdqa	176(%rsp), %xmm1
	paddd	%xmm10, %xmm1
	movdqa	%xmm1, 176(%rsp)
	pxor	%xmm1, %xmm3
	movdqa	%xmm3, %xmm1
	psrld	$7, %xmm1
	pslld	$25, %xmm3
	por	%xmm1, %xmm3
	movdqa	%xmm3, 384(%rsp)
	movdqa	(%rsp), %xmm13
	paddd	512(%rsp), %xmm13
	movdqa	368(%rsp), %xmm3
	paddd	%xmm3, %xmm13
	pxor	%xmm13, %xmm0
	movdqa	.L1_v2_CPI56_5(%rip), %xmm1
	pshufb	%xmm1, %xmm0
	movdqa	48(%rsp), %xmm2
	paddd	%xmm0, %xmm2
	movdqa	%xmm2, 48(%rsp)
	pxor	%xmm2, %xmm3
	movdqa	%xmm3, %xmm2
	psrld	$12, %xmm2
	pslld	$20, %xmm3
	por	%xmm2, %xmm3
	movdqa	%xmm3, 368(%rsp)
	movdqa	320(%rsp), %xmm8
	movdqa	%xmm11, %xmm2
	paddd	%xmm8, %xmm2
	movdqa	%xmm2, 288(%rsp)
	pxor	%xmm2, %xmm15
	pshufb	%xmm1, %xmm15
	movdqa	240(%rsp), %xmm1
	paddd	%xmm15, %xmm1
	pxor	%xmm1, %xmm8
	movdqa	%xmm1, %xmm11
	movdqa	%xmm8, %xmm2
	psrld	$12, %xmm2
	pslld	$20, %xmm8
	por	%xmm2, %xmm8
	movdqa	256(%rsp), %xmm2
	movdqa	272(%rsp), %xmm1
	paddd	%xmm2, %xmm1
	movdqa	%xmm1, 272(%rsp)
	pxor	%xmm1, %xmm6
	movdqa	%xmm4, %xmm3
	pshufb	%xmm4, %xmm6
	movdqa	64(%rsp), %xmm1
	paddd	%xmm6, %xmm1
	movdqa	%xmm1, 64(%rsp)
	pxor	%xmm1, %xmm2
	movdqa	%xmm2, %xmm1
	psrld	$7, %xmm1
	pslld	$25, %xmm2
	por	%xmm1, %xmm2
	movdqa	%xmm2, 256(%rsp)
	movdqa	288(%rsp), %xmm1
	movdqa	272(%rsp), %xmm4
	paddd	480(%rsp), %xmm13
	paddd	736(%rsp), %xmm1
	paddd	%xmm8, %xmm1
	movdqa	%xmm1, 288(%rsp)
	pxor	%xmm1, %xmm15
	pshufb	%xmm3, %xmm15
	movdqa	%xmm11, %xmm1
	paddd	%xmm15, %xmm1
	movdqa	%xmm1, 240(%rsp)
	pxor	%xmm1, %xmm8
	movdqa	%xmm8, %xmm2
	psrld	$7, %xmm2
	pslld	$25, %xmm8
	por	%xmm2, %xmm8
	movdqa	%xmm8, 320(%rsp)
	movdqa	96(%rsp), %xmm1
	movdqa	%xmm7, %xmm11
	paddd	%xmm1, %xmm11
	pxor	%xmm11, %xmm14
	pshufb	%xmm3, %xmm14
	movdqa	160(%rsp), %xmm2
	paddd	%xmm14, %xmm2
	movdqa	%xmm2, 160(%rsp)
	pxor	%xmm2, %xmm1
	movdqa	%xmm1, %xmm2
	psrld	$7, %xmm2
	pslld	$25, %xmm1
	por	%xmm2, %xmm1
	movdqa	%xmm1, 96(%rsp)
	movdqa	368(%rsp), %xmm8
	paddd	%xmm8, %xmm13
	movdqa	%xmm13, (%rsp)
	pxor	%xmm13, %xmm0
	pshufb	%xmm3, %xmm0
	movdqa	48(%rsp), %xmm1
	paddd	%xmm0, %xmm1
	movdqa	%xmm1, 48(%rsp)
	pxor	%xmm1, %xmm8
	movdqa	%xmm8, %xmm2
	pslld	$25, %xmm8
	psrld	$7, %xmm2
	por	%xmm2, %xmm8
	movdqa	%xmm8, %xmm7
	paddd	592(%rsp), %xmm12
	paddd	752(%rsp), %xmm4
	movdqa	144(%rsp), %xmm8
	movdqa	16(%rsp), %xmm13
	paddd	%xmm8, %xmm13
	pxor	%xmm13, %xmm9
	pshufb	%xmm3, %xmm9
	movdqa	208(%rsp), %xmm1
	paddd	%xmm9, %xmm1
	pxor	%xmm1, %xmm8
	movdqa	%xmm1, %xmm3
	movdqa	%xmm8, %xmm2
	psrld	$7, %xmm2
	pslld	$25, %xmm8
	por	%xmm2, %xmm8
	movdqa	%xmm8, 144(%rsp)
	movdqa	32(%rsp), %xmm1
	paddd	%xmm1, %xmm4
	pxor	%xmm4, %xmm0
	pshufb	.L1_v2_CPI56_5(%rip), %xmm0
	paddd	%xmm0, %xmm3
	movdqa	%xmm3, 208(%rsp)
	pxor	%xmm3, %xmm1
	movdqa	%xmm1, %xmm2
	pslld	$20, %xmm1
	psrld	$12, %xmm2
	por	%xmm2, %xmm1
	movdqa	%xmm1, 32(%rsp)
	paddd	704(%rsp), %xmm4
	movdqa	%xmm4, 272(%rsp)
	movdqa	352(%rsp), %xmm3
	paddd	%xmm3, %xmm12
	pxor	%xmm12, %xmm15
	paddd	608(%rsp), %xmm12
	movdqa	%xmm12, 224(%rsp)
	movdqa	128(%rsp), %xmm2
	paddd	656(%rsp), %xmm2
	movdqa	112(%rsp), %xmm1
	paddd	560(%rsp), %xmm1
	paddd	%xmm8, %xmm1
	pxor	%xmm1, %xmm6
	paddd	448(%rsp), %xmm1
	movdqa	%xmm1, 112(%rsp)
	movdqa	%xmm2, %xmm1
	paddd	96(%rsp), %xmm1
	pxor	%xmm1, %xmm10
	paddd	640(%rsp), %xmm1
	movdqa	%xmm1, 128(%rsp)
	paddd	672(%rsp), %xmm11
	paddd	768(%rsp), %xmm13
	movdqa	%xmm7, %xmm8
	paddd	%xmm7, %xmm13
	movdqa	304(%rsp), %xmm4
	pxor	%xmm13, %xmm4
	paddd	528(%rsp), %xmm13
	movdqa	%xmm13, 16(%rsp)
	movdqa	320(%rsp), %xmm7
	paddd	%xmm7, %xmm11
	pxor	%xmm11, %xmm5
	paddd	720(%rsp), %xmm11
	movdqa	%xmm11, 80(%rsp)
	movdqa	.L1_v2_CPI56_5(%rip), %xmm12
	pshufb	%xmm12, %xmm15
	movdqa	160(%rsp), %xmm1
	paddd	%xmm15, %xmm1
	movdqa	%xmm1, 160(%rsp)
	pxor	%xmm1, %xmm3
	movdqa	%xmm3, %xmm2
	psrld	$12, %xmm2
	pslld	$20, %xmm3
	por	%xmm2, %xmm3
	movdqa	%xmm3, 352(%rsp)
	movdqa	288(%rsp), %xmm13
	paddd	688(%rsp), %xmm13
	movdqa	%xmm4, %xmm1
	pshufb	%xmm12, %xmm1
	movdqa	%xmm1, 304(%rsp)
	movdqa	64(%rsp), %xmm2
	paddd	%xmm1, %xmm2
	movdqa	%xmm2, 64(%rsp)
	pxor	%xmm2, %xmm8
	movdqa	%xmm8, %xmm2
	psrld	$12, %xmm2
	pslld	$20, %xmm8
	por	%xmm2, %xmm8
	movdqa	%xmm8, 368(%rsp)
	movdqa	(%rsp), %xmm11
	paddd	784(%rsp), %xmm11
	movdqa	%xmm12, %xmm2
	pshufb	%xmm12, %xmm5
	movdqa	256(%rsp), %xmm3
	paddd	%xmm3, %xmm11
	pshufb	%xmm12, %xmm10
	movdqa	384(%rsp), %xmm12
	paddd	%xmm12, %xmm13
	pxor	%xmm13, %xmm14
	movdqa	%xmm13, %xmm4
	pxor	%xmm11, %xmm9
	pshufb	%xmm2, %xmm6
	pshufb	%xmm2, %xmm14
	pshufb	%xmm2, %xmm9
	movdqa	176(%rsp), %xmm1
	paddd	%xmm5, %xmm1
	movdqa	%xmm1, 176(%rsp)
	pxor	%xmm1, %xmm7
	movdqa	%xmm7, %xmm2
	psrld	$12, %xmm2
	pslld	$20, %xmm7
	por	%xmm2, %xmm7
	movdqa	%xmm7, 320(%rsp)
	movdqa	192(%rsp), %xmm1
	paddd	%xmm9, %xmm1
	movdqa	%xmm1, 192(%rsp)
	pxor	%xmm1, %xmm3
	movdqa	%xmm3, %xmm2
	psrld	$12, %xmm2
	pslld	$20, %xmm3
	por	%xmm2, %xmm3
	movdqa	%xmm3, 256(%rsp)
	movdqa	48(%rsp), %xmm1
	paddd	%xmm6, %xmm1
	movdqa	%xmm1, 48(%rsp)
	movdqa	144(%rsp), %xmm13
	pxor	%xmm1, %xmm13
	movdqa	%xmm13, %xmm2
	psrld	$12, %xmm2
	pslld	$20, %xmm13
	por	%xmm2, %xmm13
	movdqa	%xmm13, 144(%rsp)
	movdqa	336(%rsp), %xmm1
	paddd	%xmm14, %xmm1
	movdqa	%xmm1, 336(%rsp)
	pxor	%xmm1, %xmm12
	movdqa	%xmm12, %xmm2
	psrld	$12, %xmm2
	pslld	$20, %xmm12
	por	%xmm2, %xmm12
	movdqa	%xmm12, 384(%rsp)
	movdqa	240(%rsp), %xmm1
	paddd	%xmm10, %xmm1
	movdqa	%xmm1, 240(%rsp)
	movdqa	96(%rsp), %xmm3
	pxor	%xmm1, %xmm3
	movdqa	%xmm3, %xmm2
	psrld	$12, %xmm2
	pslld	$20, %xmm3
	por	%xmm2, %xmm3
	movdqa	%xmm3, %xmm1
	movdqa	%xmm3, 96(%rsp)
	paddd	896(%rsp), %xmm11
	movdqa	%xmm11, (%rsp)
	movdqa	%xmm4, %xmm8
	paddd	880(%rsp), %xmm8
	movdqa	272(%rsp), %xmm11
	paddd	32(%rsp), %xmm11
	pxor	%xmm11, %xmm0
	pxor	944(%rsp), %xmm11
	movdqa	224(%rsp), %xmm4
	paddd	352(%rsp), %xmm4
	pxor	%xmm4, %xmm15
	pxor	1088(%rsp), %xmm4
	movdqa	.L1_v2_CPI56_7(%rip), %xmm2
	pshufb	%xmm2, %xmm0
	pshufb	%xmm2, %xmm15
	movdqa	128(%rsp), %xmm3
	paddd	%xmm1, %xmm3
	movdqa	%xmm3, 128(%rsp)
	movdqa	112(%rsp), %xmm1
	paddd	%xmm13, %xmm1
	movdqa	%xmm1, 112(%rsp)
	pxor	%xmm1, %xmm6
	movdqa	80(%rsp), %xmm12
	movdqa	320(%rsp), %xmm1
	paddd	%xmm1, %xmm12
	movdqa	%xmm12, 80(%rsp)
	movdqa	16(%rsp), %xmm7
	paddd	368(%rsp), %xmm7
	movdqa	%xmm7, 16(%rsp)
	pxor	%xmm3, %xmm10
	movdqa	304(%rsp), %xmm3
	pxor	%xmm7, %xmm3
	pxor	%xmm12, %xmm5
	pshufb	%xmm2, %xmm3
	movdqa	%xmm3, %xmm12
	movdqa	%xmm3, 304(%rsp)
	pshufb	%xmm2, %xmm5
	movdqa	%xmm6, %xmm7
	movdqa	%xmm8, %xmm13
	movdqa	384(%rsp), %xmm6
	paddd	%xmm6, %xmm13
	movdqa	(%rsp), %xmm3
	movdqa	256(%rsp), %xmm8
	paddd	%xmm8, %xmm3
	movdqa	%xmm3, (%rsp)
	pxor	%xmm3, %xmm9
	pshufb	%xmm2, %xmm7
	pxor	%xmm13, %xmm14
	pshufb	%xmm2, %xmm9
	pshufb	%xmm2, %xmm14
	pshufb	%xmm2, %xmm10
	movdqa	112(%rsp), %xmm3
	pxor	1104(%rsp), %xmm3
	movdqa	176(%rsp), %xmm2
	paddd	%xmm5, %xmm2
	pxor	%xmm2, %xmm1
	movdqa	%xmm1, 320(%rsp)
	pxor	%xmm2, %xmm4
	movdqa	%xmm4, 224(%rsp)
	movdqa	128(%rsp), %xmm2
	pxor	1120(%rsp), %xmm2
	movdqa	64(%rsp), %xmm1
	paddd	%xmm12, %xmm1
	movdqa	368(%rsp), %xmm12
	pxor	%xmm1, %xmm12
	pxor	%xmm1, %xmm11
	movdqa	%xmm11, 272(%rsp)
	movdqa	336(%rsp), %xmm1
	paddd	%xmm14, %xmm1
	pxor	%xmm1, %xmm6
	movdqa	%xmm6, 384(%rsp)
	pxor	%xmm1, %xmm2
	movdqa	%xmm2, 128(%rsp)
	movdqa	192(%rsp), %xmm2
	paddd	%xmm9, %xmm2
	movdqa	%xmm8, %xmm4
	pxor	%xmm2, %xmm4
	pxor	%xmm2, %xmm3
	movdqa	%xmm3, 112(%rsp)
	movdqa	160(%rsp), %xmm1
	paddd	%xmm15, %xmm1
	movdqa	%xmm1, 160(%rsp)
	movdqa	352(%rsp), %xmm3
	pxor	%xmm1, %xmm3
	movdqa	%xmm3, %xmm2
	psrld	$7, %xmm2
	pslld	$25, %xmm3
	por	%xmm2, %xmm3
	movdqa	%xmm3, 352(%rsp)
	movdqa	16(%rsp), %xmm6
	pxor	1136(%rsp), %xmm6
	movaps	80(%rsp), %xmm11
	xorps	1152(%rsp), %xmm11
	movdqa	208(%rsp), %xmm1
	paddd	%xmm0, %xmm1
	movdqa	32(%rsp), %xmm2
	pxor	%xmm1, %xmm2
	movdqa	%xmm2, %xmm8
	psrld	$7, %xmm8
	pslld	$25, %xmm2
	por	%xmm8, %xmm2
	movdqa	%xmm2, 32(%rsp)
	movdqa	320(%rsp), %xmm3
	movdqa	%xmm3, %xmm2
	psrld	$7, %xmm2
	pslld	$25, %xmm3
	por	%xmm2, %xmm3
	movdqa	%xmm3, 320(%rsp)
	movdqa	%xmm12, %xmm3
	movdqa	%xmm12, %xmm2
	psrld	$7, %xmm2
	pslld	$25, %xmm3
	por	%xmm2, %xmm3
	movdqa	%xmm3, 368(%rsp)
	movdqa	384(%rsp), %xmm12
	movdqa	%xmm12, %xmm2
	psrld	$7, %xmm2
	pslld	$25, %xmm12
	por	%xmm2, %xmm12
	movdqa	%xmm4, %xmm2
	psrld	$7, %xmm2
	pslld	$25, %xmm4
	por	%xmm2, %xmm4
	movdqa	%xmm4, 256(%rsp)
	xorps	160(%rsp), %xmm11
	movaps	%xmm11, 80(%rsp)
	movdqa	%xmm6, %xmm11
	pxor	%xmm1, %xmm11
	movdqa	240(%rsp), %xmm4
	paddd	%xmm10, %xmm4
	movdqa	96(%rsp), %xmm8
	pxor	%xmm4, %xmm8
	movdqa	%xmm8, %xmm2
	psrld	$7, %xmm2
	pslld	$25, %xmm8
	por	%xmm2, %xmm8
	movdqa	%xmm8, %xmm6
	movdqa	(%rsp), %xmm1
	pxor	1168(%rsp), %xmm1
	pxor	1184(%rsp), %xmm13
	movdqa	48(%rsp), %xmm3
	paddd	%xmm7, %xmm3
	movdqa	144(%rsp), %xmm8
	pxor	%xmm3, %xmm8
	movdqa	%xmm8, %xmm2
	psrld	$7, %xmm2
	pslld	$25, %xmm8
	por	%xmm2, %xmm8
	pxor	%xmm4, %xmm13
	pxor	%xmm3, %xmm1
	pxor	1040(%rsp), %xmm10
	pxor	%xmm12, %xmm10
	pxor	1024(%rsp), %xmm7
	pxor	1056(%rsp), %xmm5
	pxor	352(%rsp), %xmm5
	pxor	256(%rsp), %xmm7
	movdqa	304(%rsp), %xmm2
	pxor	960(%rsp), %xmm2
	pxor	32(%rsp), %xmm2
	pxor	1072(%rsp), %xmm14
	pxor	%xmm6, %xmm14
	pxor	976(%rsp), %xmm9
	pxor	992(%rsp), %xmm15
	pxor	320(%rsp), %xmm15
	pxor	%xmm8, %xmm9
	pxor	1008(%rsp), %xmm0
	pxor	368(%rsp), %xmm0
	addq	$64, %rcx
	movdqa	%xmm0, 1008(%rsp)
	movdqa	%xmm15, 992(%rsp)
	movdqa	%xmm2, %xmm8
	movdqa	%xmm2, 960(%rsp)
	movdqa	%xmm5, 1056(%rsp)
	movdqa	%xmm7, %xmm6
	movdqa	%xmm7, 1024(%rsp)
	movdqa	%xmm10, 1040(%rsp)
	movdqa	%xmm1, (%rsp)
	movdqa	%xmm1, 1168(%rsp)
	movdqa	%xmm13, 288(%rsp)
	movdqa	%xmm13, 1184(%rsp)
	movdqa	%xmm9, 976(%rsp)
	movdqa	%xmm11, 16(%rsp)
	movdqa	%xmm11, 1136(%rsp)
	movaps	80(%rsp), %xmm1
	movaps	%xmm1, 1152(%rsp)
	movaps	112(%rsp), %xmm1
	movaps	%xmm1, 1104(%rsp)
	movdqa	%xmm14, 1072(%rsp)
	movaps	128(%rsp), %xmm1
	movaps	%xmm1, 1120(%rsp)
	movdqa	272(%rsp), %xmm1
	movdqa	%xmm1, %xmm12
	movdqa	%xmm1, 944(%rsp)
	movdqa	224(%rsp), %xmm1
	movdqa	%xmm1, %xmm13
	movdqa	%xmm1, 1088(%rsp)
	decq	%rax
	jne	1b
	jmp	3f
2:
	movdqa	1008(%rsp), %xmm0
	movdqa	%xmm5, %xmm8
	movdqa	%xmm13, %xmm5
	movdqa	%xmm3, (%rsp)
	movdqa	%xmm1, 288(%rsp)
	movdqa	%xmm4, 16(%rsp)
	movdqa	%xmm7, 80(%rsp)
	movdqa	%xmm11, 112(%rsp)
	movdqa	%xmm2, 128(%rsp)
	movdqa	%xmm12, %xmm13
	movdqa	944(%rsp), %xmm12
3:
	movdqu	%xmm12, (%rdi)
	movdqu	%xmm13, 16(%rdi)
	movaps	112(%rsp), %xmm1
	movups	%xmm1, 32(%rdi)
	movaps	128(%rsp), %xmm1
	movups	%xmm1, 48(%rdi)
	movaps	16(%rsp), %xmm1
	movups	%xmm1, 64(%rdi)
	movaps	80(%rsp), %xmm1
	movups	%xmm1, 80(%rdi)
	movaps	(%rsp), %xmm2
	movups	%xmm2, 96(%rdi)
	movaps	288(%rsp), %xmm1
	movups	%xmm1, 112(%rdi)
	movdqu	%xmm6, 128(%rdi)
	movdqu	%xmm10, 144(%rdi)
	movdqu	%xmm8, 160(%rdi)
	movdqu	%xmm5, 176(%rdi)
	movdqu	%xmm9, 192(%rdi)
	movdqu	%xmm14, 208(%rdi)
	movdqu	%xmm0, 224(%rdi)
	movdqu	%xmm15, 240(%rdi)
	addq	$1328, %rsp
	popq	%rbx
	popq	%r12
	popq	%r14
	popq	%r15
	popq	%rbp
	retq
	vj_end	blake2_compress..many..blake2s..compress_blocks_1_v2

	vj_function	blake2_ffi..blake2s..is_digest_of_1_v2
	pushq	%r15
	pushq	%r14
	pushq	%rbx
	subq	$32, %rsp
	movq	%rdx, %rbx
	movq	%rsi, %r14
	movq	%rdi, %r15
	pxor	%xmm0, %xmm0
	movdqa	%xmm0, 16(%rsp)
	movdqa	%xmm0, (%rsp)
	movq	%rsp, %rsi
	callq	blake2_state..blake2s..State..write_digest_1_v2
	movzwl	76(%r15), %eax
	cmpq	%rax, %rbx
	jne	1f
	testq	%rbx, %rbx
	je	2f
	cmpq	$4, %rbx
	jae	3f
	xorl	%ecx, %ecx
	xorl	%eax, %eax
	jmp	8f
1:
	xorl	%eax, %eax
	jmp	11f
2:
	movb	$1, %al
	jmp	11f
3:
	cmpq	$32, %rbx
	jae	4f
	xorl	%eax, %eax
	xorl	%ecx, %ecx
	jmp	6f
4:
	movq	%rbx, %rax
	andq	$-32, %rax
	pxor	%xmm0, %xmm0
	xorl	%ecx, %ecx
	pxor	%xmm1, %xmm1
	.p2align	4
5:
	movdqu	(%r14,%rcx), %xmm2
	movdqu	16(%r14,%rcx), %xmm3
	movdqu	(%rsp,%rcx), %xmm4
	pxor	%xmm2, %xmm4
	por	%xmm4, %xmm1
	movdqu	16(%rsp,%rcx), %xmm2
	pxor	%xmm3, %xmm2
	por	%xmm2, %xmm0
	addq	$32, %rcx
	cmpq	%rcx, %rax
	jne	5b
	por	%xmm1, %xmm0
	pshufd	$238, %xmm0, %xmm1
	por	%xmm0, %xmm1
	pshufd	$85, %xmm1, %xmm0
	por	%xmm1, %xmm0
	movdqa	%xmm0, %xmm1
	psrld	$16, %xmm1
	por	%xmm0, %xmm1
	movdqa	%xmm1, %xmm0
	psrlw	$8, %xmm0
	por	%xmm1, %xmm0
	movd	%xmm0, %ecx
	cmpq	%rax, %rbx
	je	10f
	testb	$28, %bl
	je	8f
6:
	movq	%rax, %rdx
	movq	%rbx, %rax
	andq	$-4, %rax
	movzbl	%cl, %ecx
	movd	%ecx, %xmm0
	.p2align	4
7:
	movl	(%rsp,%rdx), %ecx
	xorl	(%r14,%rdx), %ecx
	movd	%ecx, %xmm1
	por	%xmm1, %xmm0
	addq	$4, %rdx
	cmpq	%rdx, %rax
	jne	7b
	movdqa	%xmm0, %xmm1
	psrld	$16, %xmm1
	por	%xmm0, %xmm1
	movdqa	%xmm1, %xmm0
	psrlw	$8, %xmm0
	por	%xmm1, %xmm0
	movd	%xmm0, %ecx
	jmp	9f
8:
	movzbl	(%rsp,%rax), %edx
	xorb	(%r14,%rax), %dl
	orb	%dl, %cl
	incq	%rax
9:
	cmpq	%rax, %rbx
	jne	8b
10:
	testb	%cl, %cl
	sete	%al
11:
	addq	$32, %rsp
	popq	%rbx
	popq	%r14
	popq	%r15
	retq
	vj_end	blake2_ffi..blake2s..is_digest_of_1_v2

	vj_function	blake2_ffi..blake2sp..finalize_1_v2
	pushq	%r15
	pushq	%r14
	pushq	%rbx
	subq	$32, %rsp
	movq	%rsi, %rbx
	movq	%rdi, %r14
	movq	%rsp, %r15
	movq	%r15, %rdi
	movq	%r14, %rsi
	callq	blake2_parallel..blake2sp..State..output_1_v2
	movq	1528(%r14), %rdx
	movq	%rbx, %rdi
	movq	%r15, %rsi
	vj_c_call	memcpy
	movl	$1600, %edx
	movq	%r14, %rdi
	xorl	%esi, %esi
	addq	$32, %rsp
	popq	%rbx
	popq	%r14
	popq	%r15
	vj_c_jump	memset
	vj_end	blake2_ffi..blake2sp..finalize_1_v2

	vj_function	blake2_parallel..blake2sp..State..output_1_v2
	pushq	%r15
	pushq	%r14
	pushq	%rbx
	subq	$288, %rsp
	movq	%rsi, %r14
	movq	%rdi, %rbx
	leaq	32(%rsp), %r15
	movq	%r15, %rdi
	vj_call	blake2_parallel..lanes..blake2sp..Lanes..outputs_1_v2
	movups	1488(%r14), %xmm0
	movups	1504(%r14), %xmm1
	movaps	%xmm0, (%rsp)
	movaps	%xmm1, 16(%rsp)
	movq	%rsp, %r14
	movl	$64, %edx
	movq	%r14, %rdi
	movq	%r15, %rsi
	xorl	%ecx, %ecx
	xorl	%r8d, %r8d
	vj_call	blake2_compress..compress..blake2s..compress_1_v2
	leaq	96(%rsp), %rsi
	movl	$128, %edx
	movq	%r14, %rdi
	xorl	%ecx, %ecx
	xorl	%r8d, %r8d
	vj_call	blake2_compress..compress..blake2s..compress_1_v2
	leaq	160(%rsp), %rsi
	movl	$192, %edx
	movq	%r14, %rdi
	xorl	%ecx, %ecx
	xorl	%r8d, %r8d
	vj_call	blake2_compress..compress..blake2s..compress_1_v2
	leaq	224(%rsp), %rsi
	movl	$256, %edx
	movq	%r14, %rdi
	movl	$1, %ecx
	movl	$1, %r8d
	vj_call	blake2_compress..compress..blake2s..compress_1_v2
	movaps	(%rsp), %xmm0
	movaps	16(%rsp), %xmm1
	movups	%xmm0, (%rbx)
	movups	%xmm1, 16(%rbx)
	addq	$288, %rsp
	popq	%rbx
	popq	%r14
	popq	%r15
	retq
	vj_end	blake2_parallel..blake2sp..State..output_1_v2

	vj_constants	16
	.p2align	4, 0x0
.L1_v2_CPI60_0:
	.byte	1
	.byte	0
	.byte	1
	.byte	0
	.byte	1
	.byte	0
	.byte	1
	.byte	0
	.byte	1
	.byte	0
	.byte	1
	.byte	0
	.byte	1
	.byte	0
	.byte	1
	.byte	1
	vj_shared	blake2_parallel..lanes..blake2sp..Lanes..outputs_1_v2
	pushq	%rbp
	pushq	%r15
	pushq	%r14
	pushq	%r13
	pushq	%r12
	pushq	%rbx
	subq	$1832, %rsp
	movq	%rsi, %r15
	xorps	%xmm0, %xmm0
	movaps	%xmm0, 768(%rsp)
	movaps	%xmm0, 752(%rsp)
	movaps	%xmm0, 736(%rsp)
	movaps	%xmm0, 720(%rsp)
	movaps	%xmm0, 704(%rsp)
	movaps	%xmm0, 688(%rsp)
	movaps	%xmm0, 672(%rsp)
	movaps	%xmm0, 656(%rsp)
	movaps	%xmm0, 640(%rsp)
	movaps	%xmm0, 624(%rsp)
	movaps	%xmm0, 608(%rsp)
	movaps	%xmm0, 592(%rsp)
	movaps	%xmm0, 576(%rsp)
	movaps	%xmm0, 560(%rsp)
	movaps	%xmm0, 544(%rsp)
	movaps	%xmm0, 528(%rsp)
	movaps	%xmm0, 800(%rsp)
	movaps	%xmm0, 816(%rsp)
	movaps	%xmm0, 832(%rsp)
	movaps	%xmm0, 848(%rsp)
	movaps	%xmm0, 864(%rsp)
	movaps	%xmm0, 880(%rsp)
	movaps	%xmm0, 896(%rsp)
	movaps	%xmm0, 912(%rsp)
	movaps	%xmm0, 928(%rsp)
	movaps	%xmm0, 944(%rsp)
	movaps	%xmm0, 960(%rsp)
	movaps	%xmm0, 976(%rsp)
	movaps	%xmm0, 992(%rsp)
	movaps	%xmm0, 1008(%rsp)
	movaps	%xmm0, 1024(%rsp)
	movaps	%xmm0, 1040(%rsp)
	movaps	%xmm0, 512(%rsp)
	movaps	%xmm0, 496(%rsp)
	movaps	%xmm0, 464(%rsp)
	movaps	%xmm0, 480(%rsp)
	movaps	%xmm0, 432(%rsp)
	movaps	%xmm0, 448(%rsp)
	movaps	%xmm0, 400(%rsp)
	movaps	%xmm0, 416(%rsp)
	movaps	%xmm0, 368(%rsp)
	movaps	%xmm0, 384(%rsp)
	movaps	%xmm0, 336(%rsp)
	movaps	%xmm0, 352(%rsp)
	movaps	%xmm0, 304(%rsp)
	movaps	%xmm0, 320(%rsp)
	movaps	%xmm0, 288(%rsp)
	movaps	%xmm0, 272(%rsp)
	movq	264(%rsi), %r14
	cmpq	$512, %r14
	movl	$512, %r12d
	cmovbq	%r14, %r12
	movq	%r14, %r13
	subq	%r12, %r13
	movups	(%rsi), %xmm6
	movups	16(%rsi), %xmm7
	movups	32(%rsi), %xmm8
	movups	48(%rsi), %xmm9
	movups	80(%rsi), %xmm0
	movups	64(%rsi), %xmm10
	movups	112(%rsi), %xmm1
	movups	96(%rsi), %xmm11
	movups	144(%rsi), %xmm2
	movups	128(%rsi), %xmm12
	movups	176(%rsi), %xmm3
	movups	160(%rsi), %xmm13
	movups	208(%rsi), %xmm4
	movups	192(%rsi), %xmm14
	movups	240(%rsi), %xmm5
	movups	224(%rsi), %xmm15
	movq	256(%rsi), %rcx
	cmpq	$513, %r14
	setb	16(%rsp)
	cmpq	$65, %r13
	setb	18(%rsp)
	cmpq	$129, %r13
	setb	20(%rsp)
	cmpq	$193, %r13
	setb	22(%rsp)
	cmpq	$257, %r13
	setb	24(%rsp)
	cmpq	$321, %r13
	setb	26(%rsp)
	cmpq	$385, %r13
	setb	28(%rsp)
	movq	%rdi, 8(%rsp)
	cmpq	$449, %r13
	movb	$0, 17(%rsp)
	movb	$0, 19(%rsp)
	movb	$0, 21(%rsp)
	movb	$0, 23(%rsp)
	movb	$0, 25(%rsp)
	movb	$0, 27(%rsp)
	movb	$0, 29(%rsp)
	setb	30(%rsp)
	leaq	272(%rsi), %rsi
	setb	31(%rsp)
	movups	%xmm6, 1064(%rsp)
	movups	%xmm7, 1080(%rsp)
	movups	%xmm8, 1096(%rsp)
	movups	%xmm9, 1112(%rsp)
	movups	%xmm10, 1128(%rsp)
	movups	%xmm0, 1144(%rsp)
	movups	%xmm11, 1160(%rsp)
	movups	%xmm1, 1176(%rsp)
	movups	%xmm12, 1192(%rsp)
	movups	%xmm2, 1208(%rsp)
	movups	%xmm13, 1224(%rsp)
	movups	%xmm3, 1240(%rsp)
	movups	%xmm14, 1256(%rsp)
	movups	%xmm4, 1272(%rsp)
	movups	%xmm15, 1288(%rsp)
	movups	%xmm5, 1304(%rsp)
	leaq	1064(%rsp), %rbp
	leaq	16(%rsp), %r8
	movq	%rbp, %rdi
	movq	%r12, %rdx
	callq	blake2_parallel..lanes..blake2sp..compress_short_1_v2
	leaq	1576(%rsp), %rbx
	movq	%rbx, %rdi
	movq	%rbp, %rsi
	callq	blake2_parallel..lanes..blake2sp..outputs_of_1_v2
	leaq	1320(%rsp), %rdi
	movl	$256, %edx
	movq	%rbx, %rsi
	vj_c_call	memcpy
	cmpq	$513, %r14
	jae	1f
	leaq	1576(%rsp), %rsi
	movl	$256, %edx
	movq	8(%rsp), %rdi
	jmp	16f
1:
	movq	8(%rsp), %r14
	leaq	272(%r15), %rbp
	addq	%r12, %rbp
	movq	256(%r15), %rbx
	addq	$64, %rbx
	movaps	.L1_v2_CPI60_0(%rip), %xmm0
	movaps	%xmm0, 784(%rsp)
	leaq	16(%rsp), %r15
	leaq	1064(%rsp), %r12
	movl	$256, %edx
	movq	%r15, %rdi
	movq	%r12, %rsi
	vj_c_call	memcpy
	leaq	784(%rsp), %r8
	movq	%r15, %rdi
	movq	%rbp, %rsi
	movq	%r13, %rdx
	movq	%rbx, %rcx
	callq	blake2_parallel..lanes..blake2sp..compress_short_1_v2
	movl	$256, %edx
	movq	%r12, %rdi
	movq	%r15, %rsi
	vj_c_call	memcpy
	leaq	1576(%rsp), %rbx
	movq	%rbx, %rdi
	movq	%r12, %rsi
	callq	blake2_parallel..lanes..blake2sp..outputs_of_1_v2
	leaq	800(%rsp), %rdi
	movl	$256, %edx
	movq	%rbx, %rsi
	vj_c_call	memcpy
	movups	1576(%rsp), %xmm0
	movups	1592(%rsp), %xmm1
	movaps	%xmm0, 496(%rsp)
	movaps	%xmm1, 512(%rsp)
	cmpq	$65, %r13
	jb	2f
	movups	1608(%rsp), %xmm0
	movups	1624(%rsp), %xmm1
	jmp	3f
2:
	movups	1352(%rsp), %xmm0
	movups	1368(%rsp), %xmm1
3:
	movaps	%xmm1, 32(%rsp)
	movaps	%xmm0, 16(%rsp)
	movq	%r14, %rdi
	movaps	16(%rsp), %xmm0
	movaps	32(%rsp), %xmm1
	movaps	%xmm1, 480(%rsp)
	movaps	%xmm0, 464(%rsp)
	cmpq	$129, %r13
	jb	4f
	movups	1640(%rsp), %xmm0
	movups	1656(%rsp), %xmm1
	jmp	5f
4:
	movups	1384(%rsp), %xmm0
	movups	1400(%rsp), %xmm1
5:
	movaps	%xmm1, 32(%rsp)
	movaps	%xmm0, 16(%rsp)
	movaps	16(%rsp), %xmm0
	movaps	32(%rsp), %xmm1
	movaps	%xmm1, 448(%rsp)
	movaps	%xmm0, 432(%rsp)
	cmpq	$193, %r13
	jb	6f
	movups	1672(%rsp), %xmm0
	movups	1688(%rsp), %xmm1
	jmp	7f
6:
	movups	1416(%rsp), %xmm0
	movups	1432(%rsp), %xmm1
7:
	movaps	%xmm1, 32(%rsp)
	movaps	%xmm0, 16(%rsp)
	movaps	16(%rsp), %xmm0
	movaps	32(%rsp), %xmm1
	movaps	%xmm1, 416(%rsp)
	movaps	%xmm0, 400(%rsp)
	cmpq	$257, %r13
	jb	8f
	movaps	928(%rsp), %xmm0
	movaps	944(%rsp), %xmm1
	jmp	9f
8:
	movups	1448(%rsp), %xmm0
	movups	1464(%rsp), %xmm1
9:
	movaps	%xmm1, 32(%rsp)
	movaps	%xmm0, 16(%rsp)
	movaps	16(%rsp), %xmm0
	movaps	32(%rsp), %xmm1
	movaps	%xmm1, 384(%rsp)
	movaps	%xmm0, 368(%rsp)
	cmpq	$321, %r13
	jb	10f
	movaps	960(%rsp), %xmm0
	movaps	976(%rsp), %xmm1
	jmp	11f
10:
	movups	1480(%rsp), %xmm0
	movups	1496(%rsp), %xmm1
11:
	movaps	%xmm1, 32(%rsp)
	movaps	%xmm0, 16(%rsp)
	movaps	16(%rsp), %xmm0
	movaps	32(%rsp), %xmm1
	movaps	%xmm1, 352(%rsp)
	movaps	%xmm0, 336(%rsp)
	cmpq	$385, %r13
	jb	12f
	movaps	992(%rsp), %xmm0
	movaps	1008(%rsp), %xmm1
	jmp	13f
12:
	movups	1512(%rsp), %xmm0
	movups	1528(%rsp), %xmm1
13:
	movaps	%xmm1, 32(%rsp)
	movaps	%xmm0, 16(%rsp)
	movaps	16(%rsp), %xmm0
	movaps	32(%rsp), %xmm1
	movaps	%xmm1, 320(%rsp)
	movaps	%xmm0, 304(%rsp)
	cmpq	$449, %r13
	jb	14f
	movaps	1024(%rsp), %xmm0
	movaps	1040(%rsp), %xmm1
	jmp	15f
14:
	movups	1544(%rsp), %xmm0
	movups	1560(%rsp), %xmm1
15:
	movaps	%xmm1, 32(%rsp)
	movaps	%xmm0, 16(%rsp)
	movaps	16(%rsp), %xmm0
	movaps	32(%rsp), %xmm1
	movaps	%xmm1, 288(%rsp)
	movaps	%xmm0, 272(%rsp)
	movaps	496(%rsp), %xmm0
	movaps	512(%rsp), %xmm1
	movaps	%xmm0, 528(%rsp)
	movaps	%xmm1, 544(%rsp)
	movaps	464(%rsp), %xmm0
	movaps	480(%rsp), %xmm1
	movaps	%xmm0, 560(%rsp)
	movaps	%xmm1, 576(%rsp)
	movaps	432(%rsp), %xmm0
	movaps	448(%rsp), %xmm1
	movaps	%xmm0, 592(%rsp)
	movaps	%xmm1, 608(%rsp)
	movaps	400(%rsp), %xmm0
	movaps	416(%rsp), %xmm1
	movaps	%xmm1, 640(%rsp)
	movaps	%xmm0, 624(%rsp)
	movaps	368(%rsp), %xmm0
	movaps	384(%rsp), %xmm1
	movaps	%xmm1, 672(%rsp)
	movaps	%xmm0, 656(%rsp)
	movaps	336(%rsp), %xmm0
	movaps	352(%rsp), %xmm1
	movaps	%xmm1, 704(%rsp)
	movaps	%xmm0, 688(%rsp)
	movaps	304(%rsp), %xmm0
	movaps	320(%rsp), %xmm1
	movaps	%xmm1, 736(%rsp)
	movaps	%xmm0, 720(%rsp)
	movaps	272(%rsp), %xmm0
	movaps	288(%rsp), %xmm1
	movaps	%xmm1, 768(%rsp)
	movaps	%xmm0, 752(%rsp)
	leaq	528(%rsp), %rsi
	movl	$256, %edx
16:
	vj_c_call	memcpy
	addq	$1832, %rsp
	popq	%rbx
	popq	%r12
	popq	%r13
	popq	%r14
	popq	%r15
	popq	%rbp
	retq
	vj_end	blake2_parallel..lanes..blake2sp..Lanes..outputs_1_v2

	vj_function	blake2_parallel..lanes..blake2sp..compress_short_1_v2
	pushq	%rbp
	pushq	%r15
	pushq	%r14
	pushq	%r13
	pushq	%r12
	pushq	%rbx
	subq	$1608, %rsp
	movq	%r8, %rbx
	movq	%rcx, %r14
	cmpq	$512, %rdx
	jne	1f
	leaq	64(%rsi), %rax
	leaq	128(%rsi), %rcx
	leaq	192(%rsi), %rdx
	leaq	256(%rsi), %r8
	leaq	320(%rsi), %r9
	leaq	384(%rsi), %r10
	movq	%rsi, 72(%rsp)
	addq	$448, %rsi
	movq	%rax, 80(%rsp)
	movq	%rcx, 88(%rsp)
	movq	%rdx, 96(%rsp)
	movq	%r8, 104(%rsp)
	movq	%r9, 112(%rsp)
	movq	%r10, 120(%rsp)
	movq	%rsi, 128(%rsp)
	addq	$64, %r14
	movq	%r14, (%rsp)
	movq	%r14, 8(%rsp)
	movq	%r14, 16(%rsp)
	movq	%r14, 24(%rsp)
	movq	%r14, 32(%rsp)
	movq	%r14, 40(%rsp)
	movq	%r14, 48(%rsp)
	movq	%r14, 56(%rsp)
	leaq	72(%rsp), %rsi
	movq	%rsp, %rdx
	jmp	2f
1:
	movq	%rdx, %r15
	leaq	72(%rsp), %r13
	xorl	%r12d, %r12d
	movl	$512, %edx
	movq	%rdi, 64(%rsp)
	movq	%r13, %rdi
	movq	%rsi, %rbp
	xorl	%esi, %esi
	vj_c_call	memset
	movq	%r13, %rdi
	movq	%rbp, %rsi
	movq	%r15, %rdx
	vj_c_call	memcpy
	leaq	1096(%rsp), %rbp
	movl	$512, %edx
	movq	%rbp, %rdi
	movq	%r13, %rsi
	vj_c_call	memcpy
	leaq	584(%rsp), %r13
	movl	$512, %edx
	movq	%r13, %rdi
	movq	%rbp, %rsi
	vj_c_call	memcpy
	leaq	648(%rsp), %rax
	leaq	712(%rsp), %rcx
	leaq	776(%rsp), %rsi
	leaq	840(%rsp), %rdi
	leaq	904(%rsp), %r8
	leaq	968(%rsp), %r9
	leaq	1032(%rsp), %rdx
	movq	%r13, 72(%rsp)
	movq	%rax, 80(%rsp)
	movq	%rcx, 88(%rsp)
	movq	%rsi, 96(%rsp)
	movq	%rdi, 104(%rsp)
	movq	%r8, 112(%rsp)
	movq	%r9, 120(%rsp)
	movq	%r15, %rax
	subq	$64, %rax
	movl	$64, %ecx
	cmovbq	%r15, %rcx
	movl	$64, %esi
	cmovbq	%r12, %rax
	addq	%r14, %rcx
	cmpq	$64, %rax
	cmovaeq	%rsi, %rax
	addq	%r14, %rax
	movq	%r15, %rdi
	subq	$128, %rdi
	cmovbq	%r12, %rdi
	cmpq	$64, %rdi
	cmovaeq	%rsi, %rdi
	addq	%r14, %rdi
	movq	%r15, %r8
	subq	$192, %r8
	cmovbq	%r12, %r8
	cmpq	$64, %r8
	cmovaeq	%rsi, %r8
	addq	%r14, %r8
	movq	%r15, %r9
	subq	$256, %r9
	cmovbq	%r12, %r9
	cmpq	$64, %r9
	cmovaeq	%rsi, %r9
	addq	%r14, %r9
	movq	%r15, %r10
	subq	$320, %r10
	cmovbq	%r12, %r10
	cmpq	$64, %r10
	cmovaeq	%rsi, %r10
	addq	%r14, %r10
	movq	%r15, %r11
	subq	$384, %r11
	cmovbq	%r12, %r11
	movq	%rdx, 128(%rsp)
	cmpq	$64, %r11
	cmovaeq	%rsi, %r11
	addq	%r14, %r11
	subq	$448, %r15
	cmovbq	%r12, %r15
	cmpq	$64, %r15
	cmovaeq	%rsi, %r15
	addq	%r14, %r15
	movq	%rcx, (%rsp)
	movq	%rax, 8(%rsp)
	movq	%rdi, 16(%rsp)
	movq	%r8, 24(%rsp)
	movq	%r9, 32(%rsp)
	movq	%r10, 40(%rsp)
	movq	%r11, 48(%rsp)
	movq	%r15, 56(%rsp)
	leaq	72(%rsp), %rsi
	movq	%rsp, %rdx
	movq	64(%rsp), %rdi
2:
	movq	%rbx, %rcx
	callq	blake2_compress..many..blake2s..compress_each_1_v2
	addq	$1608, %rsp
	popq	%rbx
	popq	%r12
	popq	%r13
	popq	%r14
	popq	%r15
	popq	%rbp
	retq
	vj_end	blake2_parallel..lanes..blake2sp..compress_short_1_v2

	vj_constants	16
	.p2align	4, 0x0
.L1_v2_CPI62_0:
	.long	3766232660
	.long	3766232660
	.long	3766232660
	.long	3766232660
.L1_v2_CPI62_1:
	.long	528734635
	.long	528734635
	.long	528734635
	.long	528734635
.L1_v2_CPI62_2:
	.long	2753508070
	.long	2753508070
	.long	2753508070
	.long	2753508070
.L1_v2_CPI62_3:
	.long	1541459225
	.long	1541459225
	.long	1541459225
	.long	1541459225
.L1_v2_CPI62_4:
	.long	1359893119
	.long	1359893119
	.long	1359893119
	.long	1359893119
.L1_v2_CPI62_5:
	.byte	2
	.byte	3
	.byte	0
	.byte	1
	.byte	6
	.byte	7
	.byte	4
	.byte	5
	.byte	10
	.byte	11
	.byte	8
	.byte	9
	.byte	14
	.byte	15
	.byte	12
	.byte	13
.L1_v2_CPI62_6:
	.long	1779033703
	.long	1779033703
	.long	1779033703
	.long	1779033703
.L1_v2_CPI62_7:
	.byte	1
	.byte	2
	.byte	3
	.byte	0
	.byte	5
	.byte	6
	.byte	7
	.byte	4
	.byte	9
	.byte	10
	.byte	11
	.byte	8
	.byte	13
	.byte	14
	.byte	15
	.byte	12
.L1_v2_CPI62_8:
	.long	2600822924
	.long	2600822924
	.long	2600822924
	.long	2600822924
.L1_v2_CPI62_9:
	.long	3144134277
	.long	3144134277
	.long	3144134277
	.long	3144134277
.L1_v2_CPI62_10:
	.long	1013904242
	.long	1013904242
	.long	1013904242
	.long	1013904242
.L1_v2_CPI62_11:
	.long	2773480762
	.long	2773480762
	.long	2773480762
	.long	2773480762
	vj_function	blake2_compress..many..blake2s..compress_each_1_v2
	pushq	%rbx
	subq	$1248, %rsp
	movq	(%rsi), %rax
	movq	8(%rsi), %r8
	movdqu	(%rax), %xmm8
	movups	16(%rax), %xmm10
	movdqu	(%r8), %xmm4
	movups	16(%r8), %xmm3
	movq	16(%rsi), %r9
	movdqu	(%r9), %xmm1
	movups	16(%r9), %xmm2
	movq	24(%rsi), %r10
	movdqu	(%r10), %xmm5
	movzbl	10(%rcx), %r11d
	movzbl	8(%rcx), %ebx
	movd	%ebx, %xmm0
	pinsrd	$1, %r11d, %xmm0
	movups	16(%r10), %xmm6
	movzbl	12(%rcx), %r11d
	pinsrd	$2, %r11d, %xmm0
	movq	32(%rsi), %r11
	movzbl	14(%rcx), %ebx
	pinsrd	$3, %ebx, %xmm0
	pslld	$31, %xmm0
	movaps	.L1_v2_CPI62_0(%rip), %xmm7
	movaps	.L1_v2_CPI62_1(%rip), %xmm9
	movaps	%xmm9, %xmm12
	movaps	%xmm9, %xmm11
	blendvps	%xmm0, %xmm7, %xmm12
	movaps	%xmm12, 320(%rsp)
	movzbl	(%rcx), %ebx
	movd	%ebx, %xmm0
	movzbl	2(%rcx), %ebx
	pinsrd	$1, %ebx, %xmm0
	movdqu	(%r11), %xmm9
	movzbl	4(%rcx), %ebx
	pinsrd	$2, %ebx, %xmm0
	movzbl	6(%rcx), %ebx
	pinsrd	$3, %ebx, %xmm0
	pslld	$31, %xmm0
	blendvps	%xmm0, %xmm7, %xmm11
	movaps	%xmm11, 224(%rsp)
	movzbl	9(%rcx), %ebx
	movd	%ebx, %xmm0
	movzbl	11(%rcx), %ebx
	pinsrd	$1, %ebx, %xmm0
	movups	16(%r11), %xmm13
	movzbl	13(%rcx), %ebx
	pinsrd	$2, %ebx, %xmm0
	movzbl	15(%rcx), %ebx
	pinsrd	$3, %ebx, %xmm0
	pslld	$31, %xmm0
	movaps	.L1_v2_CPI62_2(%rip), %xmm7
	movaps	.L1_v2_CPI62_3(%rip), %xmm11
	movaps	%xmm11, %xmm12
	blendvps	%xmm0, %xmm7, %xmm12
	movaps	%xmm12, 352(%rsp)
	movzbl	1(%rcx), %ebx
	movd	%ebx, %xmm0
	movzbl	3(%rcx), %ebx
	pinsrd	$1, %ebx, %xmm0
	movzbl	5(%rcx), %ebx
	pinsrd	$2, %ebx, %xmm0
	movq	40(%rsi), %rbx
	movzbl	7(%rcx), %ecx
	pinsrd	$3, %ecx, %xmm0
	pslld	$31, %xmm0
	blendvps	%xmm0, %xmm7, %xmm11
	movaps	%xmm11, 384(%rsp)
	movdqu	(%rbx), %xmm0
	movdqa	%xmm8, %xmm11
	punpckldq	%xmm4, %xmm11
	punpckhdq	%xmm4, %xmm8
	movaps	%xmm10, %xmm7
	unpcklps	%xmm3, %xmm7
	unpckhps	%xmm3, %xmm10
	movdqa	%xmm1, %xmm3
	punpckldq	%xmm5, %xmm3
	punpckhdq	%xmm5, %xmm1
	movaps	%xmm2, %xmm4
	unpcklps	%xmm6, %xmm4
	unpckhps	%xmm6, %xmm2
	movaps	%xmm7, %xmm5
	movlhps	%xmm4, %xmm5
	movaps	%xmm5, 544(%rsp)
	unpckhpd	%xmm4, %xmm7
	movaps	%xmm7, 480(%rsp)
	movdqa	%xmm11, %xmm4
	punpcklqdq	%xmm3, %xmm4
	movdqa	%xmm4, %xmm5
	movdqa	%xmm4, 896(%rsp)
	punpckhqdq	%xmm3, %xmm11
	movdqa	%xmm11, 864(%rsp)
	movaps	%xmm10, %xmm3
	movlhps	%xmm2, %xmm3
	movaps	%xmm3, 464(%rsp)
	unpckhpd	%xmm2, %xmm10
	movaps	%xmm10, 416(%rsp)
	movdqa	%xmm8, %xmm2
	punpcklqdq	%xmm1, %xmm2
	movdqa	%xmm2, 576(%rsp)
	punpckhqdq	%xmm1, %xmm8
	movdqa	%xmm8, 704(%rsp)
	movdqa	%xmm9, %xmm12
	punpckldq	%xmm0, %xmm12
	punpckhdq	%xmm0, %xmm9
	movups	16(%rbx), %xmm0
	movaps	%xmm13, %xmm1
	movaps	%xmm13, %xmm6
	unpcklps	%xmm0, %xmm6
	unpckhps	%xmm0, %xmm1
	movaps	%xmm1, %xmm8
	movq	48(%rsi), %rcx
	movq	56(%rsi), %rsi
	movdqu	(%rcx), %xmm0
	movdqu	(%rsi), %xmm1
	movdqa	%xmm0, %xmm2
	punpckldq	%xmm1, %xmm2
	punpckhdq	%xmm1, %xmm0
	movups	16(%rcx), %xmm1
	movups	16(%rsi), %xmm3
	movaps	%xmm1, %xmm4
	unpcklps	%xmm3, %xmm4
	unpckhps	%xmm3, %xmm1
	movaps	%xmm6, %xmm3
	movlhps	%xmm4, %xmm3
	movaps	%xmm3, 512(%rsp)
	unpckhpd	%xmm4, %xmm6
	movaps	%xmm6, 496(%rsp)
	movdqa	%xmm12, %xmm3
	punpcklqdq	%xmm2, %xmm3
	movdqa	%xmm3, %xmm6
	movdqa	%xmm3, 912(%rsp)
	punpckhqdq	%xmm2, %xmm12
	movdqa	%xmm12, 848(%rsp)
	movaps	%xmm8, %xmm2
	movlhps	%xmm1, %xmm2
	movaps	%xmm2, 448(%rsp)
	unpckhpd	%xmm1, %xmm8
	movaps	%xmm8, 592(%rsp)
	movdqa	%xmm9, %xmm14
	punpcklqdq	%xmm0, %xmm14
	movdqa	%xmm14, 784(%rsp)
	punpckhqdq	%xmm0, %xmm9
	movdqa	%xmm9, 672(%rsp)
	movups	32(%rax), %xmm9
	movups	32(%r8), %xmm0
	movaps	%xmm9, %xmm8
	unpcklps	%xmm0, %xmm8
	unpckhps	%xmm0, %xmm9
	movups	48(%rax), %xmm10
	movups	48(%r8), %xmm0
	movaps	%xmm10, %xmm7
	unpcklps	%xmm0, %xmm7
	unpckhps	%xmm0, %xmm10
	movups	32(%r9), %xmm0
	movups	32(%r10), %xmm1
	movaps	%xmm0, %xmm2
	unpcklps	%xmm1, %xmm2
	unpckhps	%xmm1, %xmm0
	movups	48(%r9), %xmm1
	movups	48(%r10), %xmm3
	movaps	%xmm1, %xmm4
	unpcklps	%xmm3, %xmm4
	unpckhps	%xmm3, %xmm1
	movaps	%xmm7, %xmm3
	movlhps	%xmm4, %xmm3
	movaps	%xmm3, 688(%rsp)
	unpckhpd	%xmm4, %xmm7
	movaps	%xmm7, 736(%rsp)
	movaps	%xmm8, %xmm3
	movlhps	%xmm2, %xmm3
	movaps	%xmm3, 624(%rsp)
	unpckhpd	%xmm2, %xmm8
	movaps	%xmm8, 880(%rsp)
	movaps	%xmm10, %xmm2
	movlhps	%xmm1, %xmm2
	movaps	%xmm2, 768(%rsp)
	unpckhpd	%xmm1, %xmm10
	movaps	%xmm10, 560(%rsp)
	movaps	%xmm9, %xmm1
	movlhps	%xmm0, %xmm1
	movaps	%xmm1, 752(%rsp)
	unpckhpd	%xmm0, %xmm9
	movaps	%xmm9, 800(%rsp)
	movups	32(%r11), %xmm9
	movups	32(%rbx), %xmm0
	movaps	%xmm9, %xmm8
	unpcklps	%xmm0, %xmm8
	unpckhps	%xmm0, %xmm9
	movups	48(%r11), %xmm10
	movups	48(%rbx), %xmm0
	movaps	%xmm10, %xmm7
	unpcklps	%xmm0, %xmm7
	unpckhps	%xmm0, %xmm10
	movups	32(%rcx), %xmm0
	movups	32(%rsi), %xmm1
	movaps	%xmm0, %xmm2
	unpcklps	%xmm1, %xmm2
	unpckhps	%xmm1, %xmm0
	movups	48(%rcx), %xmm1
	movups	48(%rsi), %xmm3
	movaps	%xmm1, %xmm4
	unpcklps	%xmm3, %xmm4
	unpckhps	%xmm3, %xmm1
	movaps	%xmm7, %xmm3
	movlhps	%xmm4, %xmm3
	movaps	%xmm3, 656(%rsp)
	unpckhpd	%xmm4, %xmm7
	movaps	%xmm7, 720(%rsp)
	movaps	%xmm8, %xmm3
	movlhps	%xmm2, %xmm3
	movaps	%xmm3, 608(%rsp)
	unpckhpd	%xmm2, %xmm8
	movaps	%xmm8, 528(%rsp)
	movaps	%xmm10, %xmm2
	movlhps	%xmm1, %xmm2
	movaps	%xmm2, 640(%rsp)
	unpckhpd	%xmm1, %xmm10
	movaps	%xmm10, 432(%rsp)
	movaps	%xmm9, %xmm1
	movlhps	%xmm0, %xmm1
	movaps	%xmm1, 832(%rsp)
	unpckhpd	%xmm0, %xmm9
	movaps	%xmm9, 816(%rsp)
	movups	(%rdx), %xmm8
	movups	16(%rdx), %xmm0
	movaps	%xmm8, %xmm13
	shufps	$221, %xmm0, %xmm13
	shufps	$136, %xmm0, %xmm8
	movups	32(%rdx), %xmm7
	movups	48(%rdx), %xmm0
	movaps	%xmm7, %xmm9
	shufps	$221, %xmm0, %xmm9
	shufps	$136, %xmm0, %xmm7
	movaps	.L1_v2_CPI62_4(%rip), %xmm0
	xorps	%xmm0, %xmm8
	xorps	%xmm0, %xmm7
	movdqu	16(%rdi), %xmm10
	movdqa	%xmm10, 1216(%rsp)
	movdqu	144(%rdi), %xmm0
	paddd	%xmm0, %xmm10
	movdqa	%xmm0, 1232(%rsp)
	paddd	%xmm6, %xmm10
	xorps	%xmm10, %xmm7
	movdqa	.L1_v2_CPI62_5(%rip), %xmm3
	pshufb	%xmm3, %xmm7
	movdqa	.L1_v2_CPI62_6(%rip), %xmm4
	movdqa	%xmm7, %xmm2
	paddd	%xmm4, %xmm2
	movdqa	%xmm2, %xmm15
	pxor	%xmm0, %xmm15
	movdqa	%xmm15, %xmm0
	psrld	$12, %xmm0
	pslld	$20, %xmm15
	por	%xmm0, %xmm15
	movdqu	(%rdi), %xmm0
	movdqa	%xmm0, 1184(%rsp)
	movdqu	128(%rdi), %xmm1
	movdqa	%xmm1, 1200(%rsp)
	paddd	%xmm1, %xmm0
	paddd	%xmm5, %xmm0
	xorps	%xmm0, %xmm8
	movdqa	%xmm0, %xmm6
	pshufb	%xmm3, %xmm8
	movdqa	%xmm4, %xmm0
	paddd	%xmm8, %xmm0
	movdqa	%xmm0, %xmm4
	movdqa	%xmm0, %xmm5
	pxor	%xmm1, %xmm4
	movdqa	%xmm4, %xmm0
	psrld	$12, %xmm0
	pslld	$20, %xmm4
	por	%xmm0, %xmm4
	paddd	%xmm11, %xmm6
	paddd	%xmm4, %xmm6
	movdqa	%xmm6, 80(%rsp)
	pxor	%xmm6, %xmm8
	movdqa	.L1_v2_CPI62_7(%rip), %xmm11
	pshufb	%xmm11, %xmm8
	movdqa	%xmm8, 160(%rsp)
	paddd	%xmm8, %xmm5
	movdqa	%xmm5, 208(%rsp)
	pxor	%xmm5, %xmm4
	movdqa	%xmm4, %xmm0
	psrld	$7, %xmm0
	pslld	$25, %xmm4
	por	%xmm0, %xmm4
	movdqa	%xmm4, 960(%rsp)
	paddd	%xmm12, %xmm10
	paddd	%xmm15, %xmm10
	movdqa	%xmm10, (%rsp)
	pxor	%xmm10, %xmm7
	pshufb	%xmm11, %xmm7
	paddd	%xmm7, %xmm2
	movdqa	%xmm2, 176(%rsp)
	pxor	%xmm2, %xmm15
	movdqa	%xmm15, %xmm0
	psrld	$7, %xmm0
	pslld	$25, %xmm15
	por	%xmm0, %xmm15
	movaps	.L1_v2_CPI62_8(%rip), %xmm0
	xorps	%xmm0, %xmm13
	xorps	%xmm0, %xmm9
	movdqu	48(%rdi), %xmm6
	movdqa	%xmm6, 1152(%rsp)
	movdqu	176(%rdi), %xmm0
	paddd	%xmm0, %xmm6
	movdqa	%xmm0, 1168(%rsp)
	paddd	%xmm14, %xmm6
	xorps	%xmm6, %xmm9
	movdqa	%xmm3, %xmm10
	pshufb	%xmm3, %xmm9
	movdqa	.L1_v2_CPI62_9(%rip), %xmm5
	movdqa	%xmm9, %xmm4
	paddd	%xmm5, %xmm4
	movdqa	%xmm4, %xmm14
	pxor	%xmm0, %xmm14
	movdqa	%xmm14, %xmm0
	psrld	$12, %xmm0
	pslld	$20, %xmm14
	por	%xmm0, %xmm14
	movdqu	32(%rdi), %xmm0
	movdqa	%xmm0, 1120(%rsp)
	movdqu	160(%rdi), %xmm2
	movdqa	%xmm2, 1136(%rsp)
	paddd	%xmm2, %xmm0
	paddd	576(%rsp), %xmm0
	xorps	%xmm0, %xmm13
	movdqa	%xmm0, %xmm8
	pshufb	%xmm3, %xmm13
	movdqa	%xmm5, %xmm0
	paddd	%xmm13, %xmm0
	movdqa	%xmm0, %xmm5
	movdqa	%xmm0, %xmm3
	pxor	%xmm2, %xmm5
	movdqa	%xmm5, %xmm0
	psrld	$12, %xmm0
	pslld	$20, %xmm5
	por	%xmm0, %xmm5
	paddd	704(%rsp), %xmm8
	paddd	%xmm5, %xmm8
	movdqa	%xmm8, 144(%rsp)
	pxor	%xmm8, %xmm13
	pshufb	%xmm11, %xmm13
	movdqa	%xmm13, 336(%rsp)
	paddd	%xmm13, %xmm3
	movdqa	%xmm3, 192(%rsp)
	pxor	%xmm3, %xmm5
	movdqa	%xmm5, %xmm0
	psrld	$7, %xmm0
	pslld	$25, %xmm5
	por	%xmm0, %xmm5
	paddd	672(%rsp), %xmm6
	paddd	%xmm14, %xmm6
	movdqa	%xmm6, 32(%rsp)
	pxor	%xmm6, %xmm9
	pshufb	%xmm11, %xmm9
	movdqa	%xmm9, 272(%rsp)
	paddd	%xmm9, %xmm4
	movdqa	%xmm4, 288(%rsp)
	pxor	%xmm4, %xmm14
	movdqa	%xmm14, %xmm0
	psrld	$7, %xmm0
	pslld	$25, %xmm14
	por	%xmm0, %xmm14
	movdqu	80(%rdi), %xmm1
	movdqa	%xmm1, 1088(%rsp)
	movdqu	208(%rdi), %xmm0
	paddd	%xmm0, %xmm1
	movdqa	%xmm0, 1104(%rsp)
	paddd	512(%rsp), %xmm1
	movdqa	320(%rsp), %xmm6
	pxor	%xmm1, %xmm6
	pshufb	%xmm10, %xmm6
	movdqa	.L1_v2_CPI62_10(%rip), %xmm8
	movdqa	%xmm6, %xmm4
	paddd	%xmm8, %xmm4
	movdqa	%xmm4, %xmm2
	pxor	%xmm0, %xmm2
	movdqa	%xmm2, %xmm0
	psrld	$12, %xmm0
	pslld	$20, %xmm2
	por	%xmm0, %xmm2
	movdqa	%xmm2, %xmm9
	movdqu	64(%rdi), %xmm0
	movdqa	%xmm0, 1056(%rsp)
	movdqu	192(%rdi), %xmm3
	movdqa	%xmm3, 1072(%rsp)
	paddd	%xmm3, %xmm0
	paddd	544(%rsp), %xmm0
	movdqa	224(%rsp), %xmm12
	pxor	%xmm0, %xmm12
	movdqa	%xmm0, %xmm2
	pshufb	%xmm10, %xmm12
	paddd	%xmm12, %xmm8
	movdqa	%xmm8, %xmm13
	pxor	%xmm3, %xmm13
	movdqa	%xmm13, %xmm0
	psrld	$12, %xmm0
	pslld	$20, %xmm13
	por	%xmm0, %xmm13
	paddd	480(%rsp), %xmm2
	paddd	%xmm13, %xmm2
	movdqa	%xmm2, 96(%rsp)
	pxor	%xmm2, %xmm12
	pshufb	%xmm11, %xmm12
	movdqa	%xmm12, 224(%rsp)
	paddd	%xmm12, %xmm8
	pxor	%xmm8, %xmm13
	movdqa	%xmm13, %xmm0
	psrld	$7, %xmm0
	pslld	$25, %xmm13
	por	%xmm0, %xmm13
	paddd	496(%rsp), %xmm1
	paddd	%xmm9, %xmm1
	movdqa	%xmm1, 48(%rsp)
	movdqa	%xmm6, %xmm0
	pxor	%xmm1, %xmm0
	pshufb	%xmm11, %xmm0
	movdqa	%xmm0, 320(%rsp)
	paddd	%xmm0, %xmm4
	movdqa	%xmm4, 112(%rsp)
	pxor	%xmm4, %xmm9
	movdqa	%xmm9, %xmm0
	psrld	$7, %xmm0
	pslld	$25, %xmm9
	por	%xmm0, %xmm9
	movdqa	%xmm9, %xmm11
	movdqu	112(%rdi), %xmm2
	movdqa	%xmm2, 1024(%rsp)
	movdqu	240(%rdi), %xmm0
	paddd	%xmm0, %xmm2
	movdqa	%xmm0, 1040(%rsp)
	paddd	448(%rsp), %xmm2
	movdqa	352(%rsp), %xmm12
	pxor	%xmm2, %xmm12
	pshufb	%xmm10, %xmm12
	movdqa	%xmm12, 352(%rsp)
	movdqa	.L1_v2_CPI62_11(%rip), %xmm4
	paddd	%xmm4, %xmm12
	movdqa	%xmm12, %xmm6
	pxor	%xmm0, %xmm6
	movdqa	%xmm6, %xmm0
	psrld	$12, %xmm0
	pslld	$20, %xmm6
	por	%xmm0, %xmm6
	movdqu	96(%rdi), %xmm3
	movdqa	%xmm3, 992(%rsp)
	movdqu	224(%rdi), %xmm1
	movdqa	%xmm1, 1008(%rsp)
	paddd	%xmm1, %xmm3
	paddd	464(%rsp), %xmm3
	movdqa	384(%rsp), %xmm9
	pxor	%xmm3, %xmm9
	pshufb	%xmm10, %xmm9
	paddd	%xmm9, %xmm4
	movdqa	%xmm4, %xmm10
	pxor	%xmm1, %xmm10
	movdqa	%xmm10, %xmm0
	psrld	$12, %xmm0
	pslld	$20, %xmm10
	por	%xmm0, %xmm10
	paddd	416(%rsp), %xmm3
	paddd	%xmm10, %xmm3
	movdqa	%xmm3, 128(%rsp)
	pxor	%xmm3, %xmm9
	movdqa	.L1_v2_CPI62_7(%rip), %xmm1
	pshufb	%xmm1, %xmm9
	paddd	%xmm9, %xmm4
	movdqa	%xmm4, 256(%rsp)
	pxor	%xmm4, %xmm10
	movdqa	%xmm10, %xmm0
	psrld	$7, %xmm0
	pslld	$25, %xmm10
	por	%xmm0, %xmm10
	paddd	592(%rsp), %xmm2
	paddd	%xmm6, %xmm2
	movdqa	%xmm2, 16(%rsp)
	movdqa	352(%rsp), %xmm4
	pxor	%xmm2, %xmm4
	pshufb	%xmm1, %xmm4
	paddd	%xmm4, %xmm12
	pxor	%xmm12, %xmm6
	movdqa	%xmm6, %xmm0
	psrld	$7, %xmm0
	pslld	$25, %xmm6
	por	%xmm0, %xmm6
	movdqa	(%rsp), %xmm0
	paddd	608(%rsp), %xmm0
	paddd	%xmm14, %xmm0
	movdqa	%xmm0, (%rsp)
	pxor	%xmm0, %xmm4
	movdqa	.L1_v2_CPI62_5(%rip), %xmm2
	pshufb	%xmm2, %xmm4
	movdqa	112(%rsp), %xmm1
	paddd	%xmm4, %xmm1
	pxor	%xmm1, %xmm14
	movdqa	%xmm14, %xmm0
	psrld	$12, %xmm0
	pslld	$20, %xmm14
	por	%xmm0, %xmm14
	movdqa	80(%rsp), %xmm0
	paddd	624(%rsp), %xmm0
	paddd	%xmm5, %xmm0
	pxor	%xmm0, %xmm9
	movdqa	%xmm0, %xmm3
	pshufb	%xmm2, %xmm9
	paddd	%xmm9, %xmm8
	pxor	%xmm8, %xmm5
	movdqa	%xmm5, %xmm0
	psrld	$12, %xmm0
	pslld	$20, %xmm5
	por	%xmm0, %xmm5
	paddd	880(%rsp), %xmm3
	paddd	%xmm5, %xmm3
	movdqa	%xmm3, 80(%rsp)
	pxor	%xmm3, %xmm9
	movdqa	.L1_v2_CPI62_7(%rip), %xmm3
	pshufb	%xmm3, %xmm9
	paddd	%xmm9, %xmm8
	movdqa	%xmm8, 304(%rsp)
	pxor	%xmm8, %xmm5
	movdqa	%xmm5, %xmm0
	psrld	$7, %xmm0
	pslld	$25, %xmm5
	por	%xmm0, %xmm5
	movdqa	(%rsp), %xmm0
	paddd	528(%rsp), %xmm0
	paddd	%xmm14, %xmm0
	movdqa	%xmm0, (%rsp)
	pxor	%xmm0, %xmm4
	pshufb	%xmm3, %xmm4
	paddd	%xmm4, %xmm1
	movdqa	%xmm1, 112(%rsp)
	pxor	%xmm1, %xmm14
	movdqa	%xmm14, %xmm0
	psrld	$7, %xmm0
	pslld	$25, %xmm14
	por	%xmm0, %xmm14
	movdqa	32(%rsp), %xmm0
	paddd	832(%rsp), %xmm0
	paddd	%xmm11, %xmm0
	movdqa	%xmm0, 32(%rsp)
	pxor	%xmm0, %xmm7
	movdqa	.L1_v2_CPI62_5(%rip), %xmm2
	pshufb	%xmm2, %xmm7
	paddd	%xmm7, %xmm12
	pxor	%xmm12, %xmm11
	movdqa	%xmm11, %xmm0
	psrld	$12, %xmm0
	pslld	$20, %xmm11
	por	%xmm0, %xmm11
	movdqa	144(%rsp), %xmm0
	paddd	752(%rsp), %xmm0
	paddd	%xmm13, %xmm0
	movdqa	160(%rsp), %xmm8
	pxor	%xmm0, %xmm8
	movdqa	%xmm0, %xmm1
	pshufb	%xmm2, %xmm8
	movdqa	256(%rsp), %xmm3
	paddd	%xmm8, %xmm3
	pxor	%xmm3, %xmm13
	movdqa	%xmm13, %xmm0
	psrld	$12, %xmm0
	pslld	$20, %xmm13
	por	%xmm0, %xmm13
	paddd	800(%rsp), %xmm1
	paddd	%xmm13, %xmm1
	movdqa	%xmm1, 144(%rsp)
	pxor	%xmm1, %xmm8
	movdqa	.L1_v2_CPI62_7(%rip), %xmm1
	pshufb	%xmm1, %xmm8
	movdqa	%xmm8, 160(%rsp)
	paddd	%xmm8, %xmm3
	movdqa	%xmm3, 256(%rsp)
	pxor	%xmm3, %xmm13
	movdqa	%xmm13, %xmm0
	psrld	$7, %xmm0
	pslld	$25, %xmm13
	por	%xmm0, %xmm13
	movdqa	32(%rsp), %xmm0
	paddd	816(%rsp), %xmm0
	paddd	%xmm11, %xmm0
	movdqa	%xmm0, 32(%rsp)
	pxor	%xmm0, %xmm7
	pshufb	%xmm1, %xmm7
	movdqa	%xmm7, 64(%rsp)
	paddd	%xmm7, %xmm12
	movdqa	%xmm12, 240(%rsp)
	pxor	%xmm12, %xmm11
	movdqa	%xmm11, %xmm0
	psrld	$7, %xmm0
	pslld	$25, %xmm11
	por	%xmm0, %xmm11
	movdqa	48(%rsp), %xmm2
	paddd	656(%rsp), %xmm2
	paddd	%xmm6, %xmm2
	movdqa	272(%rsp), %xmm0
	pxor	%xmm2, %xmm0
	movdqa	.L1_v2_CPI62_5(%rip), %xmm8
	pshufb	%xmm8, %xmm0
	movdqa	%xmm0, 272(%rsp)
	movdqa	176(%rsp), %xmm3
	paddd	%xmm0, %xmm3
	pxor	%xmm3, %xmm6
	movdqa	%xmm6, %xmm0
	psrld	$12, %xmm0
	pslld	$20, %xmm6
	por	%xmm0, %xmm6
	movdqa	96(%rsp), %xmm1
	paddd	688(%rsp), %xmm1
	paddd	%xmm10, %xmm1
	movdqa	336(%rsp), %xmm12
	pxor	%xmm1, %xmm12
	pshufb	%xmm8, %xmm12
	movdqa	208(%rsp), %xmm0
	paddd	%xmm12, %xmm0
	pxor	%xmm0, %xmm10
	movdqa	%xmm0, %xmm7
	movdqa	%xmm10, %xmm0
	psrld	$12, %xmm0
	pslld	$20, %xmm10
	por	%xmm0, %xmm10
	paddd	736(%rsp), %xmm1
	paddd	%xmm10, %xmm1
	movdqa	%xmm1, 96(%rsp)
	movdqa	%xmm12, %xmm0
	pxor	%xmm1, %xmm0
	movdqa	.L1_v2_CPI62_7(%rip), %xmm12
	pshufb	%xmm12, %xmm0
	movdqa	%xmm0, 336(%rsp)
	paddd	%xmm0, %xmm7
	movdqa	%xmm7, 208(%rsp)
	pxor	%xmm7, %xmm10
	movdqa	%xmm10, %xmm0
	psrld	$7, %xmm0
	pslld	$25, %xmm10
	por	%xmm0, %xmm10
	paddd	720(%rsp), %xmm2
	paddd	%xmm6, %xmm2
	movdqa	%xmm2, 48(%rsp)
	movdqa	272(%rsp), %xmm0
	pxor	%xmm2, %xmm0
	pshufb	%xmm12, %xmm0
	movdqa	%xmm0, 272(%rsp)
	movdqa	%xmm3, %xmm1
	paddd	%xmm0, %xmm1
	movdqa	%xmm1, 176(%rsp)
	pxor	%xmm1, %xmm6
	movdqa	%xmm6, %xmm0
	psrld	$7, %xmm0
	pslld	$25, %xmm6
	por	%xmm0, %xmm6
	movdqa	16(%rsp), %xmm0
	paddd	640(%rsp), %xmm0
	paddd	%xmm15, %xmm0
	movdqa	%xmm0, 16(%rsp)
	movdqa	320(%rsp), %xmm2
	pxor	%xmm0, %xmm2
	movdqa	%xmm8, %xmm7
	pshufb	%xmm8, %xmm2
	movdqa	288(%rsp), %xmm0
	paddd	%xmm2, %xmm0
	movdqa	%xmm0, 288(%rsp)
	pxor	%xmm0, %xmm15
	movdqa	%xmm15, %xmm0
	psrld	$12, %xmm0
	pslld	$20, %xmm15
	por	%xmm0, %xmm15
	movdqa	768(%rsp), %xmm8
	movdqa	128(%rsp), %xmm1
	paddd	%xmm8, %xmm1
	movdqa	960(%rsp), %xmm12
	paddd	%xmm12, %xmm1
	movdqa	224(%rsp), %xmm3
	pxor	%xmm1, %xmm3
	pshufb	%xmm7, %xmm3
	movdqa	192(%rsp), %xmm7
	paddd	%xmm3, %xmm7
	pxor	%xmm7, %xmm12
	movdqa	%xmm12, %xmm0
	psrld	$12, %xmm0
	pslld	$20, %xmm12
	por	%xmm0, %xmm12
	paddd	560(%rsp), %xmm1
	paddd	%xmm12, %xmm1
	movdqa	%xmm1, 128(%rsp)
	pxor	%xmm1, %xmm3
	movdqa	.L1_v2_CPI62_7(%rip), %xmm1
	pshufb	%xmm1, %xmm3
	movdqa	%xmm3, 224(%rsp)
	paddd	%xmm3, %xmm7
	movdqa	%xmm7, 192(%rsp)
	pxor	%xmm7, %xmm12
	movdqa	%xmm12, %xmm0
	psrld	$7, %xmm0
	pslld	$25, %xmm12
	por	%xmm0, %xmm12
	movdqa	16(%rsp), %xmm0
	paddd	432(%rsp), %xmm0
	paddd	%xmm15, %xmm0
	movdqa	%xmm0, 16(%rsp)
	pxor	%xmm0, %xmm2
	pshufb	%xmm1, %xmm2
	movdqa	%xmm2, 320(%rsp)
	movdqa	288(%rsp), %xmm0
	paddd	%xmm2, %xmm0
	movdqa	%xmm0, 288(%rsp)
	pxor	%xmm0, %xmm15
	movdqa	%xmm15, %xmm0
	psrld	$7, %xmm0
	pslld	$25, %xmm15
	por	%xmm0, %xmm15
	movdqa	(%rsp), %xmm1
	paddd	640(%rsp), %xmm1
	paddd	%xmm15, %xmm1
	movdqa	%xmm1, (%rsp)
	movdqa	64(%rsp), %xmm0
	pxor	%xmm1, %xmm0
	movdqa	.L1_v2_CPI62_5(%rip), %xmm1
	pshufb	%xmm1, %xmm0
	movdqa	%xmm0, 64(%rsp)
	movdqa	176(%rsp), %xmm3
	paddd	%xmm0, %xmm3
	pxor	%xmm3, %xmm15
	movdqa	%xmm15, %xmm0
	psrld	$12, %xmm0
	pslld	$20, %xmm15
	por	%xmm0, %xmm15
	movdqa	80(%rsp), %xmm0
	paddd	%xmm8, %xmm0
	paddd	%xmm12, %xmm0
	movdqa	160(%rsp), %xmm2
	pxor	%xmm0, %xmm2
	movdqa	%xmm0, %xmm7
	pshufb	%xmm1, %xmm2
	movdqa	208(%rsp), %xmm1
	paddd	%xmm2, %xmm1
	pxor	%xmm1, %xmm12
	movdqa	%xmm12, %xmm0
	psrld	$12, %xmm0
	pslld	$20, %xmm12
	por	%xmm0, %xmm12
	paddd	752(%rsp), %xmm7
	paddd	%xmm12, %xmm7
	movdqa	%xmm7, 80(%rsp)
	pxor	%xmm7, %xmm2
	movdqa	.L1_v2_CPI62_7(%rip), %xmm8
	pshufb	%xmm8, %xmm2
	movdqa	%xmm2, 160(%rsp)
	paddd	%xmm2, %xmm1
	movdqa	%xmm1, 208(%rsp)
	pxor	%xmm1, %xmm12
	movdqa	%xmm12, %xmm0
	psrld	$7, %xmm0
	pslld	$25, %xmm12
	por	%xmm0, %xmm12
	movdqa	(%rsp), %xmm0
	paddd	832(%rsp), %xmm0
	paddd	%xmm15, %xmm0
	movdqa	%xmm0, (%rsp)
	movdqa	64(%rsp), %xmm7
	pxor	%xmm0, %xmm7
	pshufb	%xmm8, %xmm7
	movdqa	%xmm7, 64(%rsp)
	paddd	%xmm7, %xmm3
	movdqa	%xmm3, 176(%rsp)
	pxor	%xmm3, %xmm15
	movdqa	%xmm15, %xmm0
	psrld	$7, %xmm0
	pslld	$25, %xmm15
	por	%xmm0, %xmm15
	movdqa	32(%rsp), %xmm0
	paddd	512(%rsp), %xmm0
	paddd	%xmm14, %xmm0
	movdqa	%xmm0, 32(%rsp)
	movdqa	272(%rsp), %xmm2
	pxor	%xmm0, %xmm2
	movdqa	.L1_v2_CPI62_5(%rip), %xmm1
	pshufb	%xmm1, %xmm2
	movdqa	%xmm2, 272(%rsp)
	movdqa	288(%rsp), %xmm8
	paddd	%xmm2, %xmm8
	pxor	%xmm8, %xmm14
	movdqa	%xmm14, %xmm0
	psrld	$12, %xmm0
	pslld	$20, %xmm14
	por	%xmm0, %xmm14
	movdqa	144(%rsp), %xmm0
	paddd	544(%rsp), %xmm0
	paddd	%xmm5, %xmm0
	movdqa	336(%rsp), %xmm3
	pxor	%xmm0, %xmm3
	movdqa	%xmm0, %xmm2
	pshufb	%xmm1, %xmm3
	movdqa	192(%rsp), %xmm0
	paddd	%xmm3, %xmm0
	movdqa	%xmm3, %xmm7
	pxor	%xmm0, %xmm5
	movdqa	%xmm0, %xmm1
	movdqa	%xmm5, %xmm0
	psrld	$12, %xmm0
	pslld	$20, %xmm5
	por	%xmm0, %xmm5
	paddd	624(%rsp), %xmm2
	paddd	%xmm5, %xmm2
	movdqa	%xmm2, 144(%rsp)
	pxor	%xmm2, %xmm7
	movdqa	.L1_v2_CPI62_7(%rip), %xmm2
	pshufb	%xmm2, %xmm7
	paddd	%xmm7, %xmm1
	movdqa	%xmm1, 192(%rsp)
	pxor	%xmm1, %xmm5
	movdqa	%xmm5, %xmm0
	psrld	$7, %xmm0
	pslld	$25, %xmm5
	por	%xmm0, %xmm5
	movdqa	32(%rsp), %xmm0
	paddd	608(%rsp), %xmm0
	paddd	%xmm14, %xmm0
	movdqa	%xmm0, 32(%rsp)
	movdqa	272(%rsp), %xmm1
	pxor	%xmm0, %xmm1
	pshufb	%xmm2, %xmm1
	movdqa	%xmm1, 272(%rsp)
	movdqa	%xmm8, %xmm0
	paddd	%xmm1, %xmm0
	movdqa	%xmm0, 288(%rsp)
	pxor	%xmm0, %xmm14
	movdqa	%xmm14, %xmm0
	psrld	$7, %xmm0
	pslld	$25, %xmm14
	por	%xmm0, %xmm14
	movdqa	48(%rsp), %xmm1
	paddd	528(%rsp), %xmm1
	paddd	%xmm11, %xmm1
	movdqa	%xmm1, 48(%rsp)
	movdqa	320(%rsp), %xmm0
	pxor	%xmm1, %xmm0
	movdqa	.L1_v2_CPI62_5(%rip), %xmm2
	pshufb	%xmm2, %xmm0
	movdqa	%xmm0, 320(%rsp)
	movdqa	112(%rsp), %xmm3
	paddd	%xmm0, %xmm3
	pxor	%xmm3, %xmm11
	movdqa	%xmm11, %xmm0
	psrld	$12, %xmm0
	pslld	$20, %xmm11
	por	%xmm0, %xmm11
	movdqa	96(%rsp), %xmm8
	paddd	880(%rsp), %xmm8
	paddd	%xmm13, %xmm8
	movdqa	224(%rsp), %xmm1
	pxor	%xmm8, %xmm1
	pshufb	%xmm2, %xmm1
	movdqa	304(%rsp), %xmm2
	paddd	%xmm1, %xmm2
	pxor	%xmm2, %xmm13
	movdqa	%xmm13, %xmm0
	psrld	$12, %xmm0
	pslld	$20, %xmm13
	por	%xmm0, %xmm13
	paddd	560(%rsp), %xmm8
	paddd	%xmm13, %xmm8
	movdqa	%xmm8, 96(%rsp)
	pxor	%xmm8, %xmm1
	movdqa	.L1_v2_CPI62_7(%rip), %xmm8
	pshufb	%xmm8, %xmm1
	movdqa	%xmm1, 224(%rsp)
	paddd	%xmm1, %xmm2
	movdqa	%xmm2, 304(%rsp)
	pxor	%xmm2, %xmm13
	movdqa	%xmm13, %xmm0
	psrld	$7, %xmm0
	pslld	$25, %xmm13
	por	%xmm0, %xmm13
	movdqa	48(%rsp), %xmm0
	paddd	432(%rsp), %xmm0
	paddd	%xmm11, %xmm0
	movdqa	%xmm0, 48(%rsp)
	movdqa	320(%rsp), %xmm1
	pxor	%xmm0, %xmm1
	pshufb	%xmm8, %xmm1
	movdqa	%xmm1, 320(%rsp)
	movdqa	%xmm3, %xmm0
	paddd	%xmm1, %xmm0
	movdqa	%xmm0, 112(%rsp)
	pxor	%xmm0, %xmm11
	movdqa	%xmm11, %xmm0
	psrld	$7, %xmm0
	pslld	$25, %xmm11
	por	%xmm0, %xmm11
	movdqa	16(%rsp), %xmm2
	paddd	720(%rsp), %xmm2
	paddd	%xmm6, %xmm2
	pxor	%xmm2, %xmm4
	movdqa	.L1_v2_CPI62_5(%rip), %xmm3
	pshufb	%xmm3, %xmm4
	movdqa	240(%rsp), %xmm0
	paddd	%xmm4, %xmm0
	movdqa	%xmm0, 240(%rsp)
	pxor	%xmm0, %xmm6
	movdqa	%xmm6, %xmm0
	psrld	$12, %xmm0
	pslld	$20, %xmm6
	por	%xmm0, %xmm6
	movdqa	128(%rsp), %xmm0
	paddd	736(%rsp), %xmm0
	paddd	%xmm10, %xmm0
	pxor	%xmm0, %xmm9
	movdqa	%xmm0, %xmm1
	pshufb	%xmm3, %xmm9
	movdqa	256(%rsp), %xmm0
	paddd	%xmm9, %xmm0
	movdqa	%xmm9, %xmm3
	pxor	%xmm0, %xmm10
	movdqa	%xmm0, %xmm8
	movdqa	%xmm10, %xmm0
	psrld	$12, %xmm0
	pslld	$20, %xmm10
	por	%xmm0, %xmm10
	paddd	464(%rsp), %xmm1
	paddd	%xmm10, %xmm1
	movdqa	%xmm1, 128(%rsp)
	pxor	%xmm1, %xmm3
	movdqa	.L1_v2_CPI62_7(%rip), %xmm9
	pshufb	%xmm9, %xmm3
	paddd	%xmm3, %xmm8
	movdqa	%xmm8, 256(%rsp)
	pxor	%xmm8, %xmm10
	movdqa	%xmm10, %xmm0
	psrld	$7, %xmm0
	pslld	$25, %xmm10
	por	%xmm0, %xmm10
	movdqa	%xmm2, %xmm0
	paddd	448(%rsp), %xmm0
	paddd	%xmm6, %xmm0
	movdqa	%xmm0, 16(%rsp)
	pxor	%xmm0, %xmm4
	pshufb	%xmm9, %xmm4
	movdqa	240(%rsp), %xmm0
	paddd	%xmm4, %xmm0
	movdqa	%xmm0, 240(%rsp)
	pxor	%xmm0, %xmm6
	movdqa	%xmm6, %xmm0
	psrld	$7, %xmm0
	pslld	$25, %xmm6
	por	%xmm0, %xmm6
	movdqa	(%rsp), %xmm0
	paddd	848(%rsp), %xmm0
	paddd	%xmm14, %xmm0
	movdqa	%xmm0, (%rsp)
	pxor	%xmm0, %xmm4
	movdqa	.L1_v2_CPI62_5(%rip), %xmm2
	pshufb	%xmm2, %xmm4
	movdqa	112(%rsp), %xmm8
	paddd	%xmm4, %xmm8
	pxor	%xmm8, %xmm14
	movdqa	%xmm14, %xmm0
	psrld	$12, %xmm0
	pslld	$20, %xmm14
	por	%xmm0, %xmm14
	movdqa	80(%rsp), %xmm1
	paddd	864(%rsp), %xmm1
	paddd	%xmm5, %xmm1
	pxor	%xmm1, %xmm3
	pshufb	%xmm2, %xmm3
	movdqa	304(%rsp), %xmm2
	paddd	%xmm3, %xmm2
	pxor	%xmm2, %xmm5
	movdqa	%xmm5, %xmm0
	psrld	$12, %xmm0
	pslld	$20, %xmm5
	por	%xmm0, %xmm5
	paddd	688(%rsp), %xmm1
	paddd	%xmm5, %xmm1
	movdqa	%xmm1, 80(%rsp)
	pxor	%xmm1, %xmm3
	pshufb	%xmm9, %xmm3
	movdqa	%xmm3, 384(%rsp)
	paddd	%xmm3, %xmm2
	movdqa	%xmm2, 304(%rsp)
	pxor	%xmm2, %xmm5
	movdqa	%xmm5, %xmm0
	psrld	$7, %xmm0
	pslld	$25, %xmm5
	por	%xmm0, %xmm5
	movdqa	(%rsp), %xmm0
	paddd	656(%rsp), %xmm0
	paddd	%xmm14, %xmm0
	movdqa	%xmm0, (%rsp)
	pxor	%xmm0, %xmm4
	pshufb	%xmm9, %xmm4
	paddd	%xmm4, %xmm8
	movdqa	%xmm8, 112(%rsp)
	pxor	%xmm8, %xmm14
	movdqa	%xmm14, %xmm0
	psrld	$7, %xmm0
	pslld	$25, %xmm14
	por	%xmm0, %xmm14
	movdqa	32(%rsp), %xmm8
	paddd	912(%rsp), %xmm8
	paddd	%xmm11, %xmm8
	movdqa	64(%rsp), %xmm0
	pxor	%xmm8, %xmm0
	movdqa	.L1_v2_CPI62_5(%rip), %xmm3
	pshufb	%xmm3, %xmm0
	movdqa	%xmm0, 64(%rsp)
	movdqa	240(%rsp), %xmm1
	paddd	%xmm0, %xmm1
	movdqa	%xmm1, 240(%rsp)
	pxor	%xmm1, %xmm11
	movdqa	%xmm11, %xmm0
	psrld	$12, %xmm0
	pslld	$20, %xmm11
	por	%xmm0, %xmm11
	movdqa	144(%rsp), %xmm1
	paddd	896(%rsp), %xmm1
	paddd	%xmm13, %xmm1
	movdqa	160(%rsp), %xmm2
	pxor	%xmm1, %xmm2
	pshufb	%xmm3, %xmm2
	movdqa	256(%rsp), %xmm3
	paddd	%xmm2, %xmm3
	pxor	%xmm3, %xmm13
	movdqa	%xmm13, %xmm0
	psrld	$12, %xmm0
	pslld	$20, %xmm13
	por	%xmm0, %xmm13
	paddd	576(%rsp), %xmm1
	paddd	%xmm13, %xmm1
	movdqa	%xmm1, 144(%rsp)
	pxor	%xmm1, %xmm2
	pshufb	%xmm9, %xmm2
	movdqa	%xmm2, 160(%rsp)
	paddd	%xmm2, %xmm3
	movdqa	%xmm3, 256(%rsp)
	pxor	%xmm3, %xmm13
	movdqa	%xmm13, %xmm0
	psrld	$7, %xmm0
	pslld	$25, %xmm13
	por	%xmm0, %xmm13
	movdqa	%xmm8, %xmm0
	paddd	784(%rsp), %xmm0
	paddd	%xmm11, %xmm0
	movdqa	%xmm0, %xmm1
	movdqa	%xmm0, 32(%rsp)
	movdqa	64(%rsp), %xmm0
	pxor	%xmm1, %xmm0
	pshufb	%xmm9, %xmm0
	movdqa	%xmm0, 64(%rsp)
	movdqa	240(%rsp), %xmm1
	paddd	%xmm0, %xmm1
	movdqa	%xmm1, 240(%rsp)
	pxor	%xmm1, %xmm11
	movdqa	%xmm11, %xmm0
	psrld	$7, %xmm0
	pslld	$25, %xmm11
	por	%xmm0, %xmm11
	movdqa	48(%rsp), %xmm0
	paddd	816(%rsp), %xmm0
	paddd	%xmm6, %xmm0
	movdqa	%xmm0, 48(%rsp)
	movdqa	272(%rsp), %xmm8
	pxor	%xmm0, %xmm8
	movdqa	.L1_v2_CPI62_5(%rip), %xmm2
	pshufb	%xmm2, %xmm8
	movdqa	176(%rsp), %xmm9
	paddd	%xmm8, %xmm9
	pxor	%xmm9, %xmm6
	movdqa	%xmm6, %xmm0
	psrld	$12, %xmm0
	pslld	$20, %xmm6
	por	%xmm0, %xmm6
	movdqa	96(%rsp), %xmm1
	paddd	800(%rsp), %xmm1
	paddd	%xmm10, %xmm1
	pxor	%xmm1, %xmm7
	pshufb	%xmm2, %xmm7
	movdqa	208(%rsp), %xmm0
	paddd	%xmm7, %xmm0
	pxor	%xmm0, %xmm10
	movdqa	%xmm0, %xmm2
	movdqa	%xmm10, %xmm0
	psrld	$12, %xmm0
	pslld	$20, %xmm10
	por	%xmm0, %xmm10
	paddd	416(%rsp), %xmm1
	paddd	%xmm10, %xmm1
	movdqa	%xmm1, 96(%rsp)
	pxor	%xmm1, %xmm7
	movdqa	.L1_v2_CPI62_7(%rip), %xmm3
	pshufb	%xmm3, %xmm7
	movdqa	%xmm7, 336(%rsp)
	paddd	%xmm7, %xmm2
	movdqa	%xmm2, 208(%rsp)
	pxor	%xmm2, %xmm10
	movdqa	%xmm10, %xmm0
	psrld	$7, %xmm0
	pslld	$25, %xmm10
	por	%xmm0, %xmm10
	movdqa	48(%rsp), %xmm0
	paddd	592(%rsp), %xmm0
	paddd	%xmm6, %xmm0
	movdqa	%xmm0, 48(%rsp)
	pxor	%xmm0, %xmm8
	pshufb	%xmm3, %xmm8
	movdqa	%xmm8, 272(%rsp)
	movdqa	%xmm9, %xmm0
	paddd	%xmm8, %xmm0
	movdqa	%xmm0, 176(%rsp)
	pxor	%xmm0, %xmm6
	movdqa	%xmm6, %xmm0
	psrld	$7, %xmm0
	pslld	$25, %xmm6
	por	%xmm0, %xmm6
	movdqa	16(%rsp), %xmm0
	paddd	496(%rsp), %xmm0
	paddd	%xmm15, %xmm0
	movdqa	%xmm0, 16(%rsp)
	movdqa	320(%rsp), %xmm7
	pxor	%xmm0, %xmm7
	movdqa	.L1_v2_CPI62_5(%rip), %xmm3
	pshufb	%xmm3, %xmm7
	movdqa	288(%rsp), %xmm9
	paddd	%xmm7, %xmm9
	pxor	%xmm9, %xmm15
	movdqa	%xmm15, %xmm0
	psrld	$12, %xmm0
	pslld	$20, %xmm15
	por	%xmm0, %xmm15
	movdqa	128(%rsp), %xmm0
	paddd	480(%rsp), %xmm0
	paddd	%xmm12, %xmm0
	movdqa	224(%rsp), %xmm8
	pxor	%xmm0, %xmm8
	movdqa	%xmm0, %xmm2
	pshufb	%xmm3, %xmm8
	movdqa	192(%rsp), %xmm1
	paddd	%xmm8, %xmm1
	pxor	%xmm1, %xmm12
	movdqa	%xmm12, %xmm0
	psrld	$12, %xmm0
	pslld	$20, %xmm12
	por	%xmm0, %xmm12
	paddd	704(%rsp), %xmm2
	paddd	%xmm12, %xmm2
	movdqa	%xmm2, 128(%rsp)
	pxor	%xmm2, %xmm8
	movdqa	.L1_v2_CPI62_7(%rip), %xmm2
	pshufb	%xmm2, %xmm8
	paddd	%xmm8, %xmm1
	movdqa	%xmm1, 192(%rsp)
	pxor	%xmm1, %xmm12
	movdqa	%xmm12, %xmm0
	psrld	$7, %xmm0
	pslld	$25, %xmm12
	por	%xmm0, %xmm12
	movdqa	16(%rsp), %xmm3
	paddd	672(%rsp), %xmm3
	paddd	%xmm15, %xmm3
	movdqa	%xmm3, 16(%rsp)
	movdqa	%xmm7, %xmm0
	pxor	%xmm3, %xmm0
	pshufb	%xmm2, %xmm0
	movdqa	%xmm0, 320(%rsp)
	movdqa	%xmm2, %xmm7
	movdqa	%xmm9, %xmm1
	paddd	%xmm0, %xmm1
	movdqa	%xmm1, 288(%rsp)
	pxor	%xmm1, %xmm15
	movdqa	%xmm15, %xmm0
	psrld	$7, %xmm0
	pslld	$25, %xmm15
	por	%xmm0, %xmm15
	movdqa	(%rsp), %xmm1
	paddd	816(%rsp), %xmm1
	paddd	%xmm15, %xmm1
	movdqa	%xmm1, (%rsp)
	movdqa	64(%rsp), %xmm0
	pxor	%xmm1, %xmm0
	movdqa	.L1_v2_CPI62_5(%rip), %xmm3
	pshufb	%xmm3, %xmm0
	movdqa	%xmm0, 64(%rsp)
	movdqa	176(%rsp), %xmm9
	paddd	%xmm0, %xmm9
	pxor	%xmm9, %xmm15
	movdqa	%xmm15, %xmm0
	psrld	$12, %xmm0
	pslld	$20, %xmm15
	por	%xmm0, %xmm15
	movdqa	80(%rsp), %xmm1
	paddd	800(%rsp), %xmm1
	paddd	%xmm12, %xmm1
	movdqa	160(%rsp), %xmm2
	pxor	%xmm1, %xmm2
	pshufb	%xmm3, %xmm2
	movdqa	208(%rsp), %xmm3
	paddd	%xmm2, %xmm3
	pxor	%xmm3, %xmm12
	movdqa	%xmm12, %xmm0
	psrld	$12, %xmm0
	pslld	$20, %xmm12
	por	%xmm0, %xmm12
	movdqa	%xmm1, %xmm0
	paddd	624(%rsp), %xmm0
	paddd	%xmm12, %xmm0
	movdqa	%xmm0, 80(%rsp)
	movdqa	%xmm2, %xmm1
	pxor	%xmm0, %xmm1
	pshufb	%xmm7, %xmm1
	movdqa	%xmm1, 160(%rsp)
	paddd	%xmm1, %xmm3
	movdqa	%xmm3, 208(%rsp)
	pxor	%xmm3, %xmm12
	movdqa	%xmm12, %xmm0
	psrld	$7, %xmm0
	pslld	$25, %xmm12
	por	%xmm0, %xmm12
	movdqa	(%rsp), %xmm0
	paddd	608(%rsp), %xmm0
	paddd	%xmm15, %xmm0
	movdqa	%xmm0, (%rsp)
	movdqa	64(%rsp), %xmm3
	pxor	%xmm0, %xmm3
	pshufb	%xmm7, %xmm3
	movdqa	%xmm3, 64(%rsp)
	paddd	%xmm3, %xmm9
	movdqa	%xmm9, 176(%rsp)
	pxor	%xmm9, %xmm15
	movdqa	%xmm15, %xmm0
	psrld	$7, %xmm0
	pslld	$25, %xmm15
	por	%xmm0, %xmm15
	movdqa	32(%rsp), %xmm1
	paddd	656(%rsp), %xmm1
	paddd	%xmm14, %xmm1
	movdqa	%xmm1, 32(%rsp)
	movdqa	272(%rsp), %xmm0
	pxor	%xmm1, %xmm0
	movdqa	.L1_v2_CPI62_5(%rip), %xmm2
	pshufb	%xmm2, %xmm0
	movdqa	288(%rsp), %xmm9
	paddd	%xmm0, %xmm9
	movdqa	%xmm0, %xmm3
	pxor	%xmm9, %xmm14
	movdqa	%xmm14, %xmm0
	psrld	$12, %xmm0
	pslld	$20, %xmm14
	por	%xmm0, %xmm14
	movdqa	144(%rsp), %xmm0
	paddd	688(%rsp), %xmm0
	paddd	%xmm5, %xmm0
	movdqa	336(%rsp), %xmm7
	pxor	%xmm0, %xmm7
	movdqa	%xmm0, %xmm1
	pshufb	%xmm2, %xmm7
	movdqa	192(%rsp), %xmm2
	paddd	%xmm7, %xmm2
	pxor	%xmm2, %xmm5
	movdqa	%xmm5, %xmm0
	psrld	$12, %xmm0
	pslld	$20, %xmm5
	por	%xmm0, %xmm5
	paddd	896(%rsp), %xmm1
	paddd	%xmm5, %xmm1
	movdqa	%xmm1, 144(%rsp)
	pxor	%xmm1, %xmm7
	movdqa	.L1_v2_CPI62_7(%rip), %xmm1
	pshufb	%xmm1, %xmm7
	movdqa	%xmm7, 336(%rsp)
	paddd	%xmm7, %xmm2
	movdqa	%xmm2, 192(%rsp)
	pxor	%xmm2, %xmm5
	movdqa	%xmm5, %xmm0
	psrld	$7, %xmm0
	pslld	$25, %xmm5
	por	%xmm0, %xmm5
	movdqa	32(%rsp), %xmm0
	paddd	912(%rsp), %xmm0
	paddd	%xmm14, %xmm0
	movdqa	%xmm0, 32(%rsp)
	pxor	%xmm0, %xmm3
	pshufb	%xmm1, %xmm3
	movdqa	%xmm3, 272(%rsp)
	movdqa	%xmm9, %xmm0
	paddd	%xmm3, %xmm0
	movdqa	%xmm0, 288(%rsp)
	pxor	%xmm0, %xmm14
	movdqa	%xmm14, %xmm0
	psrld	$7, %xmm0
	pslld	$25, %xmm14
	por	%xmm0, %xmm14
	movdqa	48(%rsp), %xmm1
	paddd	496(%rsp), %xmm1
	paddd	%xmm11, %xmm1
	movdqa	%xmm1, 48(%rsp)
	movdqa	320(%rsp), %xmm0
	pxor	%xmm1, %xmm0
	movdqa	.L1_v2_CPI62_5(%rip), %xmm7
	pshufb	%xmm7, %xmm0
	movdqa	112(%rsp), %xmm1
	paddd	%xmm0, %xmm1
	movdqa	%xmm1, 112(%rsp)
	movdqa	%xmm0, %xmm9
	pxor	%xmm1, %xmm11
	movdqa	%xmm11, %xmm0
	psrld	$12, %xmm0
	pslld	$20, %xmm11
	por	%xmm0, %xmm11
	movdqa	96(%rsp), %xmm0
	paddd	480(%rsp), %xmm0
	paddd	%xmm13, %xmm0
	pxor	%xmm0, %xmm8
	movdqa	%xmm0, %xmm3
	pshufb	%xmm7, %xmm8
	movdqa	304(%rsp), %xmm1
	paddd	%xmm8, %xmm1
	pxor	%xmm1, %xmm13
	movdqa	%xmm13, %xmm0
	psrld	$12, %xmm0
	pslld	$20, %xmm13
	por	%xmm0, %xmm13
	paddd	576(%rsp), %xmm3
	paddd	%xmm13, %xmm3
	movdqa	%xmm3, 96(%rsp)
	pxor	%xmm3, %xmm8
	movdqa	.L1_v2_CPI62_7(%rip), %xmm2
	pshufb	%xmm2, %xmm8
	movdqa	%xmm8, 224(%rsp)
	paddd	%xmm8, %xmm1
	movdqa	%xmm1, 304(%rsp)
	pxor	%xmm1, %xmm13
	movdqa	%xmm13, %xmm0
	psrld	$7, %xmm0
	pslld	$25, %xmm13
	por	%xmm0, %xmm13
	movdqa	48(%rsp), %xmm0
	paddd	784(%rsp), %xmm0
	paddd	%xmm11, %xmm0
	movdqa	%xmm0, 48(%rsp)
	pxor	%xmm0, %xmm9
	pshufb	%xmm2, %xmm9
	movdqa	%xmm9, 320(%rsp)
	movdqa	112(%rsp), %xmm0
	paddd	%xmm9, %xmm0
	pxor	%xmm0, %xmm11
	movdqa	%xmm0, %xmm8
	movdqa	%xmm11, %xmm0
	psrld	$7, %xmm0
	pslld	$25, %xmm11
	por	%xmm0, %xmm11
	movdqa	16(%rsp), %xmm9
	paddd	432(%rsp), %xmm9
	paddd	%xmm6, %xmm9
	pxor	%xmm9, %xmm4
	movdqa	%xmm7, %xmm2
	pshufb	%xmm7, %xmm4
	movdqa	240(%rsp), %xmm7
	paddd	%xmm4, %xmm7
	pxor	%xmm7, %xmm6
	movdqa	%xmm6, %xmm0
	psrld	$12, %xmm0
	pslld	$20, %xmm6
	por	%xmm0, %xmm6
	movdqa	128(%rsp), %xmm1
	paddd	560(%rsp), %xmm1
	paddd	%xmm10, %xmm1
	movdqa	384(%rsp), %xmm3
	pxor	%xmm1, %xmm3
	pshufb	%xmm2, %xmm3
	movdqa	256(%rsp), %xmm2
	paddd	%xmm3, %xmm2
	pxor	%xmm2, %xmm10
	movdqa	%xmm10, %xmm0
	psrld	$12, %xmm0
	pslld	$20, %xmm10
	por	%xmm0, %xmm10
	paddd	736(%rsp), %xmm1
	paddd	%xmm10, %xmm1
	movdqa	%xmm1, 128(%rsp)
	pxor	%xmm1, %xmm3
	movdqa	.L1_v2_CPI62_7(%rip), %xmm1
	pshufb	%xmm1, %xmm3
	paddd	%xmm3, %xmm2
	movdqa	%xmm2, 256(%rsp)
	pxor	%xmm2, %xmm10
	movdqa	%xmm10, %xmm0
	psrld	$7, %xmm0
	pslld	$25, %xmm10
	por	%xmm0, %xmm10
	movdqa	%xmm9, %xmm0
	paddd	720(%rsp), %xmm0
	paddd	%xmm6, %xmm0
	movdqa	%xmm0, 16(%rsp)
	pxor	%xmm0, %xmm4
	pshufb	%xmm1, %xmm4
	paddd	%xmm4, %xmm7
	pxor	%xmm7, %xmm6
	movdqa	%xmm6, %xmm0
	psrld	$7, %xmm0
	pslld	$25, %xmm6
	por	%xmm0, %xmm6
	movdqa	(%rsp), %xmm0
	paddd	832(%rsp), %xmm0
	paddd	%xmm14, %xmm0
	movdqa	%xmm0, (%rsp)
	pxor	%xmm0, %xmm4
	movdqa	.L1_v2_CPI62_5(%rip), %xmm1
	pshufb	%xmm1, %xmm4
	movdqa	%xmm8, %xmm2
	paddd	%xmm4, %xmm2
	pxor	%xmm2, %xmm14
	movdqa	%xmm14, %xmm0
	psrld	$12, %xmm0
	pslld	$20, %xmm14
	por	%xmm0, %xmm14
	movdqa	80(%rsp), %xmm0
	paddd	752(%rsp), %xmm0
	paddd	%xmm5, %xmm0
	pxor	%xmm0, %xmm3
	movdqa	%xmm0, %xmm8
	pshufb	%xmm1, %xmm3
	movdqa	304(%rsp), %xmm0
	paddd	%xmm3, %xmm0
	pxor	%xmm0, %xmm5
	movdqa	%xmm0, %xmm9
	movdqa	%xmm5, %xmm0
	psrld	$12, %xmm0
	pslld	$20, %xmm5
	por	%xmm0, %xmm5
	paddd	768(%rsp), %xmm8
	paddd	%xmm5, %xmm8
	movdqa	%xmm8, 80(%rsp)
	pxor	%xmm8, %xmm3
	movdqa	.L1_v2_CPI62_7(%rip), %xmm1
	pshufb	%xmm1, %xmm3
	movdqa	%xmm3, 384(%rsp)
	paddd	%xmm3, %xmm9
	movdqa	%xmm9, 304(%rsp)
	pxor	%xmm9, %xmm5
	movdqa	%xmm5, %xmm0
	psrld	$7, %xmm0
	pslld	$25, %xmm5
	por	%xmm0, %xmm5
	movdqa	(%rsp), %xmm0
	paddd	640(%rsp), %xmm0
	paddd	%xmm14, %xmm0
	movdqa	%xmm0, (%rsp)
	pxor	%xmm0, %xmm4
	pshufb	%xmm1, %xmm4
	movdqa	%xmm1, %xmm3
	paddd	%xmm4, %xmm2
	movdqa	%xmm2, 112(%rsp)
	pxor	%xmm2, %xmm14
	movdqa	%xmm14, %xmm0
	psrld	$7, %xmm0
	pslld	$25, %xmm14
	por	%xmm0, %xmm14
	movdqa	32(%rsp), %xmm0
	paddd	672(%rsp), %xmm0
	paddd	%xmm11, %xmm0
	movdqa	%xmm0, 32(%rsp)
	movdqa	64(%rsp), %xmm1
	pxor	%xmm0, %xmm1
	movdqa	.L1_v2_CPI62_5(%rip), %xmm9
	pshufb	%xmm9, %xmm1
	movdqa	%xmm1, 64(%rsp)
	paddd	%xmm1, %xmm7
	pxor	%xmm7, %xmm11
	movdqa	%xmm7, %xmm8
	movdqa	%xmm11, %xmm0
	psrld	$12, %xmm0
	pslld	$20, %xmm11
	por	%xmm0, %xmm11
	movdqa	144(%rsp), %xmm1
	paddd	704(%rsp), %xmm1
	paddd	%xmm13, %xmm1
	movdqa	160(%rsp), %xmm2
	pxor	%xmm1, %xmm2
	pshufb	%xmm9, %xmm2
	movdqa	%xmm9, %xmm7
	movdqa	256(%rsp), %xmm0
	paddd	%xmm2, %xmm0
	pxor	%xmm0, %xmm13
	movdqa	%xmm0, %xmm9
	movdqa	%xmm13, %xmm0
	psrld	$12, %xmm0
	pslld	$20, %xmm13
	por	%xmm0, %xmm13
	paddd	464(%rsp), %xmm1
	paddd	%xmm13, %xmm1
	movdqa	%xmm1, 144(%rsp)
	pxor	%xmm1, %xmm2
	pshufb	%xmm3, %xmm2
	movdqa	%xmm2, 160(%rsp)
	paddd	%xmm2, %xmm9
	movdqa	%xmm9, 256(%rsp)
	pxor	%xmm9, %xmm13
	movdqa	%xmm13, %xmm0
	psrld	$7, %xmm0
	pslld	$25, %xmm13
	por	%xmm0, %xmm13
	movdqa	32(%rsp), %xmm1
	paddd	448(%rsp), %xmm1
	paddd	%xmm11, %xmm1
	movdqa	%xmm1, 32(%rsp)
	movdqa	64(%rsp), %xmm0
	pxor	%xmm1, %xmm0
	pshufb	%xmm3, %xmm0
	movdqa	%xmm3, %xmm2
	movdqa	%xmm0, 64(%rsp)
	paddd	%xmm0, %xmm8
	movdqa	%xmm8, 240(%rsp)
	pxor	%xmm8, %xmm11
	movdqa	%xmm11, %xmm0
	psrld	$7, %xmm0
	pslld	$25, %xmm11
	por	%xmm0, %xmm11
	movdqa	48(%rsp), %xmm0
	paddd	592(%rsp), %xmm0
	paddd	%xmm6, %xmm0
	movdqa	%xmm0, 48(%rsp)
	movdqa	272(%rsp), %xmm9
	pxor	%xmm0, %xmm9
	movdqa	%xmm7, %xmm3
	pshufb	%xmm7, %xmm9
	movdqa	176(%rsp), %xmm8
	paddd	%xmm9, %xmm8
	pxor	%xmm8, %xmm6
	movdqa	%xmm6, %xmm0
	psrld	$12, %xmm0
	pslld	$20, %xmm6
	por	%xmm0, %xmm6
	movdqa	96(%rsp), %xmm0
	paddd	416(%rsp), %xmm0
	paddd	%xmm10, %xmm0
	movdqa	336(%rsp), %xmm7
	pxor	%xmm0, %xmm7
	movdqa	%xmm0, %xmm1
	pshufb	%xmm3, %xmm7
	movdqa	208(%rsp), %xmm3
	paddd	%xmm7, %xmm3
	pxor	%xmm3, %xmm10
	movdqa	%xmm10, %xmm0
	psrld	$12, %xmm0
	pslld	$20, %xmm10
	por	%xmm0, %xmm10
	paddd	864(%rsp), %xmm1
	paddd	%xmm10, %xmm1
	movdqa	%xmm1, 96(%rsp)
	pxor	%xmm1, %xmm7
	pshufb	%xmm2, %xmm7
	paddd	%xmm7, %xmm3
	movdqa	%xmm3, 208(%rsp)
	pxor	%xmm3, %xmm10
	movdqa	%xmm10, %xmm0
	psrld	$7, %xmm0
	pslld	$25, %xmm10
	por	%xmm0, %xmm10
	movdqa	48(%rsp), %xmm1
	paddd	848(%rsp), %xmm1
	paddd	%xmm6, %xmm1
	movdqa	%xmm1, 48(%rsp)
	pxor	%xmm1, %xmm9
	pshufb	%xmm2, %xmm9
	movdqa	%xmm9, 272(%rsp)
	paddd	%xmm9, %xmm8
	movdqa	%xmm8, 176(%rsp)
	pxor	%xmm8, %xmm6
	movdqa	%xmm6, %xmm0
	psrld	$7, %xmm0
	pslld	$25, %xmm6
	por	%xmm0, %xmm6
	movdqa	%xmm6, 368(%rsp)
	movdqa	16(%rsp), %xmm9
	paddd	528(%rsp), %xmm9
	paddd	%xmm15, %xmm9
	movdqa	320(%rsp), %xmm1
	pxor	%xmm9, %xmm1
	movdqa	.L1_v2_CPI62_5(%rip), %xmm2
	pshufb	%xmm2, %xmm1
	movdqa	%xmm1, 320(%rsp)
	movdqa	288(%rsp), %xmm0
	paddd	%xmm1, %xmm0
	movdqa	%xmm0, 288(%rsp)
	pxor	%xmm0, %xmm15
	movdqa	%xmm15, %xmm0
	psrld	$12, %xmm0
	pslld	$20, %xmm15
	por	%xmm0, %xmm15
	movdqa	880(%rsp), %xmm3
	movdqa	128(%rsp), %xmm0
	paddd	%xmm3, %xmm0
	paddd	%xmm12, %xmm0
	movdqa	224(%rsp), %xmm8
	pxor	%xmm0, %xmm8
	movdqa	%xmm0, %xmm1
	pshufb	%xmm2, %xmm8
	movdqa	192(%rsp), %xmm0
	paddd	%xmm8, %xmm0
	pxor	%xmm0, %xmm12
	movdqa	%xmm0, %xmm6
	movdqa	%xmm12, %xmm0
	psrld	$12, %xmm0
	pslld	$20, %xmm12
	por	%xmm0, %xmm12
	paddd	544(%rsp), %xmm1
	paddd	%xmm12, %xmm1
	movdqa	%xmm1, 128(%rsp)
	pxor	%xmm1, %xmm8
	movdqa	.L1_v2_CPI62_7(%rip), %xmm1
	pshufb	%xmm1, %xmm8
	movdqa	%xmm8, 224(%rsp)
	paddd	%xmm8, %xmm6
	movdqa	%xmm6, 192(%rsp)
	pxor	%xmm6, %xmm12
	movdqa	%xmm12, %xmm0
	psrld	$7, %xmm0
	pslld	$25, %xmm12
	por	%xmm0, %xmm12
	movdqa	%xmm9, %xmm8
	paddd	512(%rsp), %xmm8
	paddd	%xmm15, %xmm8
	movdqa	%xmm8, 16(%rsp)
	movdqa	320(%rsp), %xmm0
	pxor	%xmm8, %xmm0
	pshufb	%xmm1, %xmm0
	movdqa	288(%rsp), %xmm1
	paddd	%xmm0, %xmm1
	movdqa	%xmm1, 288(%rsp)
	movdqa	%xmm0, %xmm6
	pxor	%xmm1, %xmm15
	movdqa	%xmm15, %xmm0
	psrld	$7, %xmm0
	pslld	$25, %xmm15
	por	%xmm0, %xmm15
	movdqa	(%rsp), %xmm0
	paddd	592(%rsp), %xmm0
	paddd	%xmm15, %xmm0
	movdqa	%xmm0, (%rsp)
	movdqa	64(%rsp), %xmm9
	pxor	%xmm0, %xmm9
	movdqa	%xmm2, %xmm1
	pshufb	%xmm2, %xmm9
	movdqa	%xmm9, 64(%rsp)
	movdqa	176(%rsp), %xmm8
	paddd	%xmm9, %xmm8
	pxor	%xmm8, %xmm15
	movdqa	%xmm15, %xmm0
	psrld	$12, %xmm0
	pslld	$20, %xmm15
	por	%xmm0, %xmm15
	movdqa	80(%rsp), %xmm9
	paddd	416(%rsp), %xmm9
	paddd	%xmm12, %xmm9
	movdqa	160(%rsp), %xmm2
	pxor	%xmm9, %xmm2
	pshufb	%xmm1, %xmm2
	movdqa	208(%rsp), %xmm0
	paddd	%xmm2, %xmm0
	movdqa	%xmm2, %xmm1
	pxor	%xmm0, %xmm12
	movdqa	%xmm0, %xmm2
	movdqa	%xmm12, %xmm0
	psrld	$12, %xmm0
	pslld	$20, %xmm12
	por	%xmm0, %xmm12
	paddd	%xmm3, %xmm9
	paddd	%xmm12, %xmm9
	movdqa	%xmm9, 80(%rsp)
	movdqa	%xmm1, %xmm0
	pxor	%xmm9, %xmm0
	movdqa	.L1_v2_CPI62_7(%rip), %xmm1
	pshufb	%xmm1, %xmm0
	movdqa	%xmm0, 160(%rsp)
	paddd	%xmm0, %xmm2
	movdqa	%xmm2, 208(%rsp)
	pxor	%xmm2, %xmm12
	movdqa	%xmm12, %xmm0
	psrld	$7, %xmm0
	pslld	$25, %xmm12
	por	%xmm0, %xmm12
	movdqa	(%rsp), %xmm0
	paddd	528(%rsp), %xmm0
	paddd	%xmm15, %xmm0
	movdqa	%xmm0, (%rsp)
	movdqa	64(%rsp), %xmm2
	pxor	%xmm0, %xmm2
	pshufb	%xmm1, %xmm2
	movdqa	%xmm2, 64(%rsp)
	paddd	%xmm2, %xmm8
	movdqa	%xmm8, 176(%rsp)
	pxor	%xmm8, %xmm15
	movdqa	%xmm15, %xmm0
	psrld	$7, %xmm0
	pslld	$25, %xmm15
	por	%xmm0, %xmm15
	movdqa	%xmm15, 944(%rsp)
	movdqa	32(%rsp), %xmm0
	paddd	672(%rsp), %xmm0
	paddd	%xmm14, %xmm0
	movdqa	%xmm0, 32(%rsp)
	movdqa	272(%rsp), %xmm2
	pxor	%xmm0, %xmm2
	movdqa	.L1_v2_CPI62_5(%rip), %xmm3
	pshufb	%xmm3, %xmm2
	movdqa	288(%rsp), %xmm0
	paddd	%xmm2, %xmm0
	pxor	%xmm0, %xmm14
	movdqa	%xmm0, %xmm15
	movdqa	%xmm14, %xmm0
	psrld	$12, %xmm0
	pslld	$20, %xmm14
	por	%xmm0, %xmm14
	movdqa	144(%rsp), %xmm9
	paddd	704(%rsp), %xmm9
	paddd	%xmm5, %xmm9
	pxor	%xmm9, %xmm7
	pshufb	%xmm3, %xmm7
	movdqa	192(%rsp), %xmm0
	paddd	%xmm7, %xmm0
	pxor	%xmm0, %xmm5
	movdqa	%xmm0, %xmm8
	movdqa	%xmm5, %xmm0
	psrld	$12, %xmm0
	pslld	$20, %xmm5
	por	%xmm0, %xmm5
	paddd	864(%rsp), %xmm9
	paddd	%xmm5, %xmm9
	movdqa	%xmm9, 144(%rsp)
	pxor	%xmm9, %xmm7
	pshufb	%xmm1, %xmm7
	paddd	%xmm7, %xmm8
	movdqa	%xmm8, 192(%rsp)
	pxor	%xmm8, %xmm5
	movdqa	%xmm5, %xmm0
	psrld	$7, %xmm0
	pslld	$25, %xmm5
	por	%xmm0, %xmm5
	movdqa	%xmm5, 400(%rsp)
	movdqa	32(%rsp), %xmm0
	paddd	848(%rsp), %xmm0
	paddd	%xmm14, %xmm0
	movdqa	%xmm0, 32(%rsp)
	pxor	%xmm0, %xmm2
	pshufb	%xmm1, %xmm2
	movdqa	%xmm2, 272(%rsp)
	movdqa	%xmm1, %xmm3
	paddd	%xmm2, %xmm15
	movdqa	%xmm15, 288(%rsp)
	pxor	%xmm15, %xmm14
	movdqa	%xmm14, %xmm0
	psrld	$7, %xmm0
	pslld	$25, %xmm14
	por	%xmm0, %xmm14
	movdqa	48(%rsp), %xmm1
	paddd	720(%rsp), %xmm1
	paddd	%xmm11, %xmm1
	pxor	%xmm1, %xmm6
	movdqa	.L1_v2_CPI62_5(%rip), %xmm5
	pshufb	%xmm5, %xmm6
	movdqa	112(%rsp), %xmm15
	paddd	%xmm6, %xmm15
	pxor	%xmm15, %xmm11
	movdqa	%xmm11, %xmm0
	psrld	$12, %xmm0
	pslld	$20, %xmm11
	por	%xmm0, %xmm11
	movdqa	96(%rsp), %xmm8
	paddd	736(%rsp), %xmm8
	paddd	%xmm13, %xmm8
	movdqa	224(%rsp), %xmm2
	pxor	%xmm8, %xmm2
	pshufb	%xmm5, %xmm2
	movdqa	304(%rsp), %xmm9
	paddd	%xmm2, %xmm9
	pxor	%xmm9, %xmm13
	movdqa	%xmm13, %xmm0
	psrld	$12, %xmm0
	pslld	$20, %xmm13
	por	%xmm0, %xmm13
	paddd	688(%rsp), %xmm8
	paddd	%xmm13, %xmm8
	movdqa	%xmm8, 96(%rsp)
	pxor	%xmm8, %xmm2
	pshufb	%xmm3, %xmm2
	movdqa	%xmm2, 224(%rsp)
	paddd	%xmm2, %xmm9
	pxor	%xmm9, %xmm13
	movdqa	%xmm13, %xmm0
	psrld	$7, %xmm0
	pslld	$25, %xmm13
	por	%xmm0, %xmm13
	movdqa	%xmm1, %xmm0
	paddd	656(%rsp), %xmm0
	paddd	%xmm11, %xmm0
	movdqa	%xmm0, 48(%rsp)
	movdqa	%xmm6, %xmm2
	pxor	%xmm0, %xmm2
	pshufb	%xmm3, %xmm2
	movdqa	%xmm2, 320(%rsp)
	movdqa	%xmm15, %xmm0
	paddd	%xmm2, %xmm0
	movdqa	%xmm0, 112(%rsp)
	pxor	%xmm0, %xmm11
	movdqa	%xmm11, %xmm0
	psrld	$7, %xmm0
	pslld	$25, %xmm11
	por	%xmm0, %xmm11
	movdqa	%xmm11, %xmm6
	movdqa	16(%rsp), %xmm1
	paddd	816(%rsp), %xmm1
	movdqa	368(%rsp), %xmm11
	paddd	%xmm11, %xmm1
	pxor	%xmm1, %xmm4
	pshufb	%xmm5, %xmm4
	movdqa	240(%rsp), %xmm15
	paddd	%xmm4, %xmm15
	pxor	%xmm15, %xmm11
	movdqa	%xmm11, %xmm0
	psrld	$12, %xmm0
	pslld	$20, %xmm11
	por	%xmm0, %xmm11
	movdqa	128(%rsp), %xmm0
	paddd	800(%rsp), %xmm0
	paddd	%xmm10, %xmm0
	movdqa	384(%rsp), %xmm3
	pxor	%xmm0, %xmm3
	movdqa	%xmm0, %xmm8
	pshufb	%xmm5, %xmm3
	movdqa	256(%rsp), %xmm2
	paddd	%xmm3, %xmm2
	movdqa	%xmm3, %xmm5
	pxor	%xmm2, %xmm10
	movdqa	%xmm10, %xmm0
	psrld	$12, %xmm0
	pslld	$20, %xmm10
	por	%xmm0, %xmm10
	paddd	768(%rsp), %xmm8
	paddd	%xmm10, %xmm8
	movdqa	%xmm8, 128(%rsp)
	pxor	%xmm8, %xmm5
	movdqa	.L1_v2_CPI62_7(%rip), %xmm3
	pshufb	%xmm3, %xmm5
	paddd	%xmm5, %xmm2
	movdqa	%xmm2, 256(%rsp)
	pxor	%xmm2, %xmm10
	movdqa	%xmm10, %xmm0
	psrld	$7, %xmm0
	pslld	$25, %xmm10
	por	%xmm0, %xmm10
	paddd	640(%rsp), %xmm1
	paddd	%xmm11, %xmm1
	movdqa	%xmm1, 16(%rsp)
	pxor	%xmm1, %xmm4
	pshufb	%xmm3, %xmm4
	movdqa	%xmm15, %xmm0
	paddd	%xmm4, %xmm0
	movdqa	%xmm0, 240(%rsp)
	pxor	%xmm0, %xmm11
	movdqa	%xmm11, %xmm0
	psrld	$7, %xmm0
	pslld	$25, %xmm11
	por	%xmm0, %xmm11
	movdqa	(%rsp), %xmm15
	paddd	784(%rsp), %xmm15
	paddd	%xmm14, %xmm15
	pxor	%xmm15, %xmm4
	movdqa	.L1_v2_CPI62_5(%rip), %xmm8
	pshufb	%xmm8, %xmm4
	movdqa	112(%rsp), %xmm2
	paddd	%xmm4, %xmm2
	pxor	%xmm2, %xmm14
	movdqa	%xmm14, %xmm0
	psrld	$12, %xmm0
	pslld	$20, %xmm14
	por	%xmm0, %xmm14
	movdqa	80(%rsp), %xmm1
	paddd	576(%rsp), %xmm1
	movdqa	400(%rsp), %xmm3
	paddd	%xmm3, %xmm1
	pxor	%xmm1, %xmm5
	pshufb	%xmm8, %xmm5
	paddd	%xmm5, %xmm9
	pxor	%xmm9, %xmm3
	movdqa	%xmm3, %xmm0
	psrld	$12, %xmm0
	pslld	$20, %xmm3
	por	%xmm0, %xmm3
	paddd	464(%rsp), %xmm1
	paddd	%xmm3, %xmm1
	movdqa	%xmm1, 80(%rsp)
	pxor	%xmm1, %xmm5
	movdqa	.L1_v2_CPI62_7(%rip), %xmm1
	pshufb	%xmm1, %xmm5
	paddd	%xmm5, %xmm9
	movdqa	%xmm9, 304(%rsp)
	pxor	%xmm9, %xmm3
	movdqa	%xmm3, %xmm0
	psrld	$7, %xmm0
	pslld	$25, %xmm3
	por	%xmm0, %xmm3
	movdqa	%xmm3, 400(%rsp)
	movdqa	%xmm15, %xmm0
	paddd	448(%rsp), %xmm0
	paddd	%xmm14, %xmm0
	movdqa	%xmm0, (%rsp)
	pxor	%xmm0, %xmm4
	pshufb	%xmm1, %xmm4
	movdqa	%xmm4, 352(%rsp)
	paddd	%xmm4, %xmm2
	movdqa	%xmm2, 112(%rsp)
	pxor	%xmm2, %xmm14
	movdqa	%xmm14, %xmm0
	psrld	$7, %xmm0
	pslld	$25, %xmm14
	por	%xmm0, %xmm14
	movdqa	32(%rsp), %xmm8
	paddd	496(%rsp), %xmm8
	paddd	%xmm6, %xmm8
	movdqa	64(%rsp), %xmm15
	pxor	%xmm8, %xmm15
	movdqa	.L1_v2_CPI62_5(%rip), %xmm1
	pshufb	%xmm1, %xmm15
	movdqa	240(%rsp), %xmm3
	paddd	%xmm15, %xmm3
	pxor	%xmm3, %xmm6
	movdqa	%xmm6, %xmm0
	psrld	$12, %xmm0
	pslld	$20, %xmm6
	por	%xmm0, %xmm6
	movdqa	144(%rsp), %xmm9
	paddd	480(%rsp), %xmm9
	paddd	%xmm13, %xmm9
	movdqa	160(%rsp), %xmm4
	pxor	%xmm9, %xmm4
	pshufb	%xmm1, %xmm4
	movdqa	256(%rsp), %xmm0
	paddd	%xmm4, %xmm0
	movdqa	%xmm4, %xmm1
	pxor	%xmm0, %xmm13
	movdqa	%xmm0, %xmm4
	movdqa	%xmm13, %xmm0
	psrld	$12, %xmm0
	pslld	$20, %xmm13
	por	%xmm0, %xmm13
	paddd	752(%rsp), %xmm9
	paddd	%xmm13, %xmm9
	movdqa	%xmm9, 144(%rsp)
	pxor	%xmm9, %xmm1
	movdqa	.L1_v2_CPI62_7(%rip), %xmm2
	pshufb	%xmm2, %xmm1
	movdqa	%xmm1, 160(%rsp)
	paddd	%xmm1, %xmm4
	movdqa	%xmm4, 256(%rsp)
	pxor	%xmm4, %xmm13
	movdqa	%xmm13, %xmm0
	psrld	$7, %xmm0
	pslld	$25, %xmm13
	por	%xmm0, %xmm13
	movdqa	%xmm8, %xmm1
	paddd	832(%rsp), %xmm1
	paddd	%xmm6, %xmm1
	movdqa	%xmm1, 32(%rsp)
	movdqa	%xmm15, %xmm0
	pxor	%xmm1, %xmm0
	pshufb	%xmm2, %xmm0
	movdqa	%xmm0, 64(%rsp)
	movdqa	%xmm2, %xmm15
	movdqa	%xmm3, %xmm2
	paddd	%xmm0, %xmm2
	movdqa	%xmm2, 240(%rsp)
	pxor	%xmm2, %xmm6
	movdqa	%xmm6, %xmm0
	psrld	$7, %xmm0
	pslld	$25, %xmm6
	por	%xmm0, %xmm6
	movdqa	48(%rsp), %xmm1
	paddd	512(%rsp), %xmm1
	paddd	%xmm11, %xmm1
	movdqa	272(%rsp), %xmm8
	pxor	%xmm1, %xmm8
	movdqa	.L1_v2_CPI62_5(%rip), %xmm2
	pshufb	%xmm2, %xmm8
	movdqa	176(%rsp), %xmm4
	paddd	%xmm8, %xmm4
	pxor	%xmm4, %xmm11
	movdqa	%xmm11, %xmm0
	psrld	$12, %xmm0
	pslld	$20, %xmm11
	por	%xmm0, %xmm11
	movdqa	96(%rsp), %xmm0
	paddd	544(%rsp), %xmm0
	paddd	%xmm10, %xmm0
	pxor	%xmm0, %xmm7
	movdqa	%xmm0, %xmm9
	pshufb	%xmm2, %xmm7
	movdqa	208(%rsp), %xmm0
	paddd	%xmm7, %xmm0
	pxor	%xmm0, %xmm10
	movdqa	%xmm0, %xmm3
	movdqa	%xmm10, %xmm0
	psrld	$12, %xmm0
	pslld	$20, %xmm10
	por	%xmm0, %xmm10
	paddd	896(%rsp), %xmm9
	paddd	%xmm10, %xmm9
	movdqa	%xmm9, 96(%rsp)
	pxor	%xmm9, %xmm7
	pshufb	%xmm15, %xmm7
	movdqa	%xmm7, 336(%rsp)
	paddd	%xmm7, %xmm3
	movdqa	%xmm3, 208(%rsp)
	pxor	%xmm3, %xmm10
	movdqa	%xmm10, %xmm0
	psrld	$7, %xmm0
	pslld	$25, %xmm10
	por	%xmm0, %xmm10
	movdqa	%xmm1, %xmm0
	paddd	912(%rsp), %xmm0
	movdqa	%xmm11, %xmm1
	paddd	%xmm11, %xmm0
	movdqa	%xmm0, 48(%rsp)
	pxor	%xmm0, %xmm8
	pshufb	%xmm15, %xmm8
	movdqa	%xmm4, %xmm0
	paddd	%xmm8, %xmm0
	movdqa	%xmm0, 176(%rsp)
	pxor	%xmm0, %xmm1
	movdqa	%xmm1, %xmm0
	psrld	$7, %xmm0
	pslld	$25, %xmm1
	por	%xmm0, %xmm1
	movdqa	%xmm1, 368(%rsp)
	movdqa	16(%rsp), %xmm7
	paddd	432(%rsp), %xmm7
	movdqa	944(%rsp), %xmm4
	paddd	%xmm4, %xmm7
	movdqa	320(%rsp), %xmm1
	pxor	%xmm7, %xmm1
	movdqa	%xmm2, %xmm3
	pshufb	%xmm2, %xmm1
	movdqa	288(%rsp), %xmm0
	paddd	%xmm1, %xmm0
	pxor	%xmm0, %xmm4
	movdqa	%xmm0, %xmm11
	movdqa	%xmm4, %xmm0
	psrld	$12, %xmm0
	pslld	$20, %xmm4
	por	%xmm0, %xmm4
	movdqa	128(%rsp), %xmm2
	paddd	560(%rsp), %xmm2
	paddd	%xmm12, %xmm2
	movdqa	224(%rsp), %xmm0
	pxor	%xmm2, %xmm0
	pshufb	%xmm3, %xmm0
	movdqa	192(%rsp), %xmm9
	paddd	%xmm0, %xmm9
	movdqa	%xmm0, %xmm3
	pxor	%xmm9, %xmm12
	movdqa	%xmm12, %xmm0
	psrld	$12, %xmm0
	pslld	$20, %xmm12
	por	%xmm0, %xmm12
	paddd	624(%rsp), %xmm2
	paddd	%xmm12, %xmm2
	movdqa	%xmm2, 128(%rsp)
	pxor	%xmm2, %xmm3
	pshufb	%xmm15, %xmm3
	movdqa	%xmm3, 224(%rsp)
	paddd	%xmm3, %xmm9
	movdqa	%xmm9, 192(%rsp)
	pxor	%xmm9, %xmm12
	movdqa	%xmm12, %xmm0
	psrld	$7, %xmm0
	pslld	$25, %xmm12
	por	%xmm0, %xmm12
	movdqa	%xmm7, %xmm0
	paddd	608(%rsp), %xmm0
	paddd	%xmm4, %xmm0
	movdqa	%xmm0, 16(%rsp)
	movdqa	%xmm1, %xmm7
	pxor	%xmm0, %xmm7
	pshufb	%xmm15, %xmm7
	movdqa	%xmm11, %xmm9
	paddd	%xmm7, %xmm9
	movdqa	%xmm4, %xmm11
	pxor	%xmm9, %xmm11
	movdqa	%xmm11, %xmm0
	psrld	$7, %xmm0
	pslld	$25, %xmm11
	por	%xmm0, %xmm11
	movdqa	(%rsp), %xmm0
	paddd	528(%rsp), %xmm0
	paddd	%xmm11, %xmm0
	movdqa	%xmm0, (%rsp)
	movdqa	64(%rsp), %xmm15
	pxor	%xmm0, %xmm15
	movdqa	.L1_v2_CPI62_5(%rip), %xmm3
	pshufb	%xmm3, %xmm15
	movdqa	176(%rsp), %xmm0
	paddd	%xmm15, %xmm0
	pxor	%xmm0, %xmm11
	movdqa	%xmm0, %xmm4
	movdqa	%xmm11, %xmm0
	psrld	$12, %xmm0
	pslld	$20, %xmm11
	por	%xmm0, %xmm11
	movdqa	80(%rsp), %xmm2
	paddd	880(%rsp), %xmm2
	paddd	%xmm12, %xmm2
	movdqa	160(%rsp), %xmm0
	pxor	%xmm2, %xmm0
	pshufb	%xmm3, %xmm0
	movdqa	208(%rsp), %xmm1
	paddd	%xmm0, %xmm1
	movdqa	%xmm0, %xmm3
	pxor	%xmm1, %xmm12
	movdqa	%xmm12, %xmm0
	psrld	$12, %xmm0
	pslld	$20, %xmm12
	por	%xmm0, %xmm12
	movdqa	%xmm2, %xmm0
	paddd	896(%rsp), %xmm0
	paddd	%xmm12, %xmm0
	movdqa	%xmm0, 80(%rsp)
	movdqa	%xmm3, %xmm2
	pxor	%xmm0, %xmm2
	movdqa	.L1_v2_CPI62_7(%rip), %xmm3
	pshufb	%xmm3, %xmm2
	movdqa	%xmm2, 160(%rsp)
	paddd	%xmm2, %xmm1
	movdqa	%xmm1, 208(%rsp)
	pxor	%xmm1, %xmm12
	movdqa	%xmm12, %xmm0
	psrld	$7, %xmm0
	pslld	$25, %xmm12
	por	%xmm0, %xmm12
	movdqa	(%rsp), %xmm0
	paddd	912(%rsp), %xmm0
	paddd	%xmm11, %xmm0
	movdqa	%xmm0, (%rsp)
	pxor	%xmm0, %xmm15
	pshufb	%xmm3, %xmm15
	movdqa	%xmm15, 64(%rsp)
	paddd	%xmm15, %xmm4
	movdqa	%xmm4, 176(%rsp)
	pxor	%xmm4, %xmm11
	movdqa	%xmm11, %xmm0
	psrld	$7, %xmm0
	pslld	$25, %xmm11
	por	%xmm0, %xmm11
	movdqa	32(%rsp), %xmm0
	paddd	496(%rsp), %xmm0
	paddd	%xmm14, %xmm0
	movdqa	%xmm0, 32(%rsp)
	pxor	%xmm0, %xmm8
	movdqa	.L1_v2_CPI62_5(%rip), %xmm2
	pshufb	%xmm2, %xmm8
	paddd	%xmm8, %xmm9
	pxor	%xmm9, %xmm14
	movdqa	%xmm14, %xmm0
	psrld	$12, %xmm0
	pslld	$20, %xmm14
	por	%xmm0, %xmm14
	movdqa	144(%rsp), %xmm0
	paddd	480(%rsp), %xmm0
	movdqa	400(%rsp), %xmm3
	paddd	%xmm3, %xmm0
	movdqa	336(%rsp), %xmm1
	pxor	%xmm0, %xmm1
	movdqa	%xmm0, %xmm15
	pshufb	%xmm2, %xmm1
	movdqa	192(%rsp), %xmm0
	paddd	%xmm1, %xmm0
	movdqa	%xmm1, %xmm2
	pxor	%xmm0, %xmm3
	movdqa	%xmm0, %xmm1
	movdqa	%xmm3, %xmm0
	psrld	$12, %xmm0
	pslld	$20, %xmm3
	por	%xmm0, %xmm3
	movdqa	%xmm15, %xmm0
	paddd	416(%rsp), %xmm0
	paddd	%xmm3, %xmm0
	movdqa	%xmm0, 144(%rsp)
	movdqa	%xmm3, %xmm15
	pxor	%xmm0, %xmm2
	movdqa	.L1_v2_CPI62_7(%rip), %xmm4
	pshufb	%xmm4, %xmm2
	movdqa	%xmm2, 336(%rsp)
	paddd	%xmm2, %xmm1
	movdqa	%xmm1, 192(%rsp)
	pxor	%xmm1, %xmm15
	movdqa	%xmm15, %xmm0
	psrld	$7, %xmm0
	pslld	$25, %xmm15
	por	%xmm0, %xmm15
	movdqa	32(%rsp), %xmm0
	paddd	592(%rsp), %xmm0
	paddd	%xmm14, %xmm0
	movdqa	%xmm0, 32(%rsp)
	pxor	%xmm0, %xmm8
	pshufb	%xmm4, %xmm8
	movdqa	%xmm8, 272(%rsp)
	paddd	%xmm8, %xmm9
	movdqa	%xmm9, 288(%rsp)
	pxor	%xmm9, %xmm14
	movdqa	%xmm14, %xmm0
	psrld	$7, %xmm0
	pslld	$25, %xmm14
	por	%xmm0, %xmm14
	movdqa	48(%rsp), %xmm3
	paddd	784(%rsp), %xmm3
	paddd	%xmm6, %xmm3
	pxor	%xmm3, %xmm7
	movdqa	.L1_v2_CPI62_5(%rip), %xmm1
	pshufb	%xmm1, %xmm7
	movdqa	112(%rsp), %xmm8
	paddd	%xmm7, %xmm8
	pxor	%xmm8, %xmm6
	movdqa	%xmm6, %xmm0
	psrld	$12, %xmm0
	pslld	$20, %xmm6
	por	%xmm0, %xmm6
	movdqa	96(%rsp), %xmm0
	paddd	576(%rsp), %xmm0
	paddd	%xmm13, %xmm0
	movdqa	224(%rsp), %xmm9
	pxor	%xmm0, %xmm9
	movdqa	%xmm0, %xmm2
	pshufb	%xmm1, %xmm9
	movdqa	304(%rsp), %xmm1
	paddd	%xmm9, %xmm1
	pxor	%xmm1, %xmm13
	movdqa	%xmm13, %xmm0
	psrld	$12, %xmm0
	pslld	$20, %xmm13
	por	%xmm0, %xmm13
	paddd	544(%rsp), %xmm2
	paddd	%xmm13, %xmm2
	movdqa	%xmm2, 96(%rsp)
	movdqa	%xmm9, %xmm0
	pxor	%xmm2, %xmm0
	pshufb	%xmm4, %xmm0
	movdqa	%xmm0, 224(%rsp)
	paddd	%xmm0, %xmm1
	movdqa	%xmm1, 304(%rsp)
	pxor	%xmm1, %xmm13
	movdqa	%xmm13, %xmm0
	psrld	$7, %xmm0
	pslld	$25, %xmm13
	por	%xmm0, %xmm13
	paddd	512(%rsp), %xmm3
	paddd	%xmm6, %xmm3
	movdqa	%xmm3, 48(%rsp)
	pxor	%xmm3, %xmm7
	pshufb	%xmm4, %xmm7
	movdqa	%xmm7, 320(%rsp)
	movdqa	%xmm4, %xmm3
	movdqa	%xmm8, %xmm0
	paddd	%xmm7, %xmm0
	movdqa	%xmm0, 112(%rsp)
	pxor	%xmm0, %xmm6
	movdqa	%xmm6, %xmm0
	psrld	$7, %xmm0
	pslld	$25, %xmm6
	por	%xmm0, %xmm6
	movdqa	16(%rsp), %xmm0
	paddd	832(%rsp), %xmm0
	movdqa	368(%rsp), %xmm4
	paddd	%xmm4, %xmm0
	movdqa	%xmm0, 16(%rsp)
	movdqa	352(%rsp), %xmm2
	pxor	%xmm0, %xmm2
	movdqa	.L1_v2_CPI62_5(%rip), %xmm9
	pshufb	%xmm9, %xmm2
	movdqa	240(%rsp), %xmm8
	paddd	%xmm2, %xmm8
	pxor	%xmm8, %xmm4
	movdqa	%xmm4, %xmm0
	psrld	$12, %xmm0
	pslld	$20, %xmm4
	por	%xmm0, %xmm4
	movdqa	128(%rsp), %xmm0
	paddd	752(%rsp), %xmm0
	paddd	%xmm10, %xmm0
	pxor	%xmm0, %xmm5
	movdqa	%xmm0, %xmm7
	pshufb	%xmm9, %xmm5
	movdqa	256(%rsp), %xmm1
	paddd	%xmm5, %xmm1
	pxor	%xmm1, %xmm10
	movdqa	%xmm10, %xmm0
	psrld	$12, %xmm0
	pslld	$20, %xmm10
	por	%xmm0, %xmm10
	paddd	560(%rsp), %xmm7
	paddd	%xmm10, %xmm7
	movdqa	%xmm7, 128(%rsp)
	pxor	%xmm7, %xmm5
	pshufb	%xmm3, %xmm5
	paddd	%xmm5, %xmm1
	movdqa	%xmm1, 256(%rsp)
	pxor	%xmm1, %xmm10
	movdqa	%xmm10, %xmm0
	psrld	$7, %xmm0
	pslld	$25, %xmm10
	por	%xmm0, %xmm10
	movdqa	16(%rsp), %xmm0
	paddd	432(%rsp), %xmm0
	paddd	%xmm4, %xmm0
	movdqa	%xmm0, 16(%rsp)
	pxor	%xmm0, %xmm2
	pshufb	%xmm3, %xmm2
	paddd	%xmm2, %xmm8
	pxor	%xmm8, %xmm4
	movdqa	%xmm4, %xmm0
	psrld	$7, %xmm0
	pslld	$25, %xmm4
	por	%xmm0, %xmm4
	movdqa	(%rsp), %xmm0
	paddd	640(%rsp), %xmm0
	paddd	%xmm14, %xmm0
	movdqa	%xmm0, (%rsp)
	pxor	%xmm0, %xmm2
	movdqa	%xmm9, %xmm1
	pshufb	%xmm9, %xmm2
	movdqa	112(%rsp), %xmm7
	paddd	%xmm2, %xmm7
	pxor	%xmm7, %xmm14
	movdqa	%xmm14, %xmm0
	psrld	$12, %xmm0
	pslld	$20, %xmm14
	por	%xmm0, %xmm14
	movdqa	80(%rsp), %xmm0
	paddd	768(%rsp), %xmm0
	paddd	%xmm15, %xmm0
	pxor	%xmm0, %xmm5
	movdqa	%xmm0, %xmm9
	pshufb	%xmm1, %xmm5
	movdqa	304(%rsp), %xmm0
	paddd	%xmm5, %xmm0
	pxor	%xmm0, %xmm15
	movdqa	%xmm0, %xmm1
	movdqa	%xmm15, %xmm0
	psrld	$12, %xmm0
	pslld	$20, %xmm15
	por	%xmm0, %xmm15
	paddd	864(%rsp), %xmm9
	paddd	%xmm15, %xmm9
	movdqa	%xmm9, 80(%rsp)
	pxor	%xmm9, %xmm5
	pshufb	%xmm3, %xmm5
	paddd	%xmm5, %xmm1
	movdqa	%xmm1, 304(%rsp)
	pxor	%xmm1, %xmm15
	movdqa	%xmm15, %xmm0
	psrld	$7, %xmm0
	pslld	$25, %xmm15
	por	%xmm0, %xmm15
	movdqa	(%rsp), %xmm0
	paddd	848(%rsp), %xmm0
	paddd	%xmm14, %xmm0
	movdqa	%xmm0, (%rsp)
	pxor	%xmm0, %xmm2
	pshufb	%xmm3, %xmm2
	movdqa	%xmm2, 352(%rsp)
	paddd	%xmm2, %xmm7
	movdqa	%xmm7, 112(%rsp)
	pxor	%xmm7, %xmm14
	movdqa	%xmm14, %xmm0
	psrld	$7, %xmm0
	pslld	$25, %xmm14
	por	%xmm0, %xmm14
	movdqa	32(%rsp), %xmm3
	paddd	816(%rsp), %xmm3
	paddd	%xmm6, %xmm3
	movdqa	64(%rsp), %xmm9
	pxor	%xmm3, %xmm9
	movdqa	.L1_v2_CPI62_5(%rip), %xmm7
	pshufb	%xmm7, %xmm9
	paddd	%xmm9, %xmm8
	pxor	%xmm8, %xmm6
	movdqa	%xmm6, %xmm0
	psrld	$12, %xmm0
	pslld	$20, %xmm6
	por	%xmm0, %xmm6
	movdqa	144(%rsp), %xmm0
	paddd	800(%rsp), %xmm0
	paddd	%xmm13, %xmm0
	movdqa	160(%rsp), %xmm1
	pxor	%xmm0, %xmm1
	movdqa	%xmm0, %xmm2
	pshufb	%xmm7, %xmm1
	movdqa	256(%rsp), %xmm0
	paddd	%xmm1, %xmm0
	movdqa	%xmm1, %xmm7
	pxor	%xmm0, %xmm13
	movdqa	%xmm0, %xmm1
	movdqa	%xmm13, %xmm0
	psrld	$12, %xmm0
	pslld	$20, %xmm13
	por	%xmm0, %xmm13
	paddd	688(%rsp), %xmm2
	paddd	%xmm13, %xmm2
	movdqa	%xmm2, 144(%rsp)
	pxor	%xmm2, %xmm7
	movdqa	.L1_v2_CPI62_7(%rip), %xmm2
	pshufb	%xmm2, %xmm7
	movdqa	%xmm7, 160(%rsp)
	paddd	%xmm7, %xmm1
	movdqa	%xmm1, 256(%rsp)
	pxor	%xmm1, %xmm13
	movdqa	%xmm13, %xmm0
	psrld	$7, %xmm0
	pslld	$25, %xmm13
	por	%xmm0, %xmm13
	movdqa	%xmm3, %xmm1
	paddd	656(%rsp), %xmm1
	paddd	%xmm6, %xmm1
	movdqa	%xmm1, 32(%rsp)
	movdqa	%xmm9, %xmm0
	pxor	%xmm1, %xmm0
	pshufb	%xmm2, %xmm0
	movdqa	%xmm0, 64(%rsp)
	paddd	%xmm0, %xmm8
	movdqa	%xmm8, 240(%rsp)
	pxor	%xmm8, %xmm6
	movdqa	%xmm6, %xmm0
	psrld	$7, %xmm0
	pslld	$25, %xmm6
	por	%xmm0, %xmm6
	movdqa	48(%rsp), %xmm3
	paddd	448(%rsp), %xmm3
	paddd	%xmm4, %xmm3
	movdqa	272(%rsp), %xmm8
	pxor	%xmm3, %xmm8
	movdqa	.L1_v2_CPI62_5(%rip), %xmm1
	pshufb	%xmm1, %xmm8
	movdqa	176(%rsp), %xmm2
	paddd	%xmm8, %xmm2
	pxor	%xmm2, %xmm4
	movdqa	%xmm4, %xmm0
	psrld	$12, %xmm0
	pslld	$20, %xmm4
	por	%xmm0, %xmm4
	movdqa	96(%rsp), %xmm0
	paddd	464(%rsp), %xmm0
	paddd	%xmm10, %xmm0
	movdqa	336(%rsp), %xmm7
	pxor	%xmm0, %xmm7
	movdqa	%xmm0, %xmm9
	pshufb	%xmm1, %xmm7
	movdqa	208(%rsp), %xmm1
	paddd	%xmm7, %xmm1
	pxor	%xmm1, %xmm10
	movdqa	%xmm10, %xmm0
	psrld	$12, %xmm0
	pslld	$20, %xmm10
	por	%xmm0, %xmm10
	paddd	624(%rsp), %xmm9
	paddd	%xmm10, %xmm9
	movdqa	%xmm9, 96(%rsp)
	pxor	%xmm9, %xmm7
	movdqa	.L1_v2_CPI62_7(%rip), %xmm9
	pshufb	%xmm9, %xmm7
	movdqa	%xmm7, 336(%rsp)
	paddd	%xmm7, %xmm1
	movdqa	%xmm1, 208(%rsp)
	pxor	%xmm1, %xmm10
	movdqa	%xmm10, %xmm0
	psrld	$7, %xmm0
	pslld	$25, %xmm10
	por	%xmm0, %xmm10
	paddd	608(%rsp), %xmm3
	movdqa	%xmm4, %xmm1
	paddd	%xmm4, %xmm3
	movdqa	%xmm3, 48(%rsp)
	pxor	%xmm3, %xmm8
	pshufb	%xmm9, %xmm8
	movdqa	%xmm2, %xmm0
	paddd	%xmm8, %xmm0
	movdqa	%xmm0, 176(%rsp)
	pxor	%xmm0, %xmm1
	movdqa	%xmm1, %xmm0
	psrld	$7, %xmm0
	pslld	$25, %xmm1
	por	%xmm0, %xmm1
	movdqa	%xmm1, 368(%rsp)
	movdqa	16(%rsp), %xmm4
	paddd	672(%rsp), %xmm4
	paddd	%xmm11, %xmm4
	movdqa	320(%rsp), %xmm3
	pxor	%xmm4, %xmm3
	movdqa	.L1_v2_CPI62_5(%rip), %xmm2
	pshufb	%xmm2, %xmm3
	movdqa	288(%rsp), %xmm9
	paddd	%xmm3, %xmm9
	pxor	%xmm9, %xmm11
	movdqa	%xmm11, %xmm0
	psrld	$12, %xmm0
	pslld	$20, %xmm11
	por	%xmm0, %xmm11
	movdqa	128(%rsp), %xmm0
	paddd	704(%rsp), %xmm0
	paddd	%xmm12, %xmm0
	movdqa	224(%rsp), %xmm1
	pxor	%xmm0, %xmm1
	movdqa	%xmm0, %xmm7
	pshufb	%xmm2, %xmm1
	movdqa	192(%rsp), %xmm2
	paddd	%xmm1, %xmm2
	pxor	%xmm2, %xmm12
	movdqa	%xmm12, %xmm0
	psrld	$12, %xmm0
	pslld	$20, %xmm12
	por	%xmm0, %xmm12
	paddd	736(%rsp), %xmm7
	paddd	%xmm12, %xmm7
	movdqa	%xmm7, 128(%rsp)
	pxor	%xmm7, %xmm1
	movdqa	.L1_v2_CPI62_7(%rip), %xmm7
	pshufb	%xmm7, %xmm1
	movdqa	%xmm1, 224(%rsp)
	paddd	%xmm1, %xmm2
	movdqa	%xmm2, 192(%rsp)
	pxor	%xmm2, %xmm12
	movdqa	%xmm12, %xmm0
	psrld	$7, %xmm0
	pslld	$25, %xmm12
	por	%xmm0, %xmm12
	paddd	720(%rsp), %xmm4
	paddd	%xmm11, %xmm4
	movdqa	%xmm4, 16(%rsp)
	movdqa	%xmm3, %xmm1
	pxor	%xmm4, %xmm1
	pshufb	%xmm7, %xmm1
	movdqa	%xmm1, 320(%rsp)
	paddd	%xmm1, %xmm9
	pxor	%xmm9, %xmm11
	movdqa	%xmm11, %xmm0
	psrld	$7, %xmm0
	pslld	$25, %xmm11
	por	%xmm0, %xmm11
	movdqa	(%rsp), %xmm1
	paddd	784(%rsp), %xmm1
	paddd	%xmm11, %xmm1
	movdqa	%xmm1, (%rsp)
	movdqa	64(%rsp), %xmm0
	pxor	%xmm1, %xmm0
	movdqa	.L1_v2_CPI62_5(%rip), %xmm3
	pshufb	%xmm3, %xmm0
	movdqa	%xmm0, 64(%rsp)
	movdqa	176(%rsp), %xmm4
	paddd	%xmm0, %xmm4
	pxor	%xmm4, %xmm11
	movdqa	%xmm11, %xmm0
	psrld	$12, %xmm0
	pslld	$20, %xmm11
	por	%xmm0, %xmm11
	movdqa	80(%rsp), %xmm2
	paddd	576(%rsp), %xmm2
	paddd	%xmm12, %xmm2
	movdqa	160(%rsp), %xmm0
	pxor	%xmm2, %xmm0
	pshufb	%xmm3, %xmm0
	movdqa	208(%rsp), %xmm7
	paddd	%xmm0, %xmm7
	movdqa	%xmm0, %xmm3
	pxor	%xmm7, %xmm12
	movdqa	%xmm12, %xmm0
	psrld	$12, %xmm0
	pslld	$20, %xmm12
	por	%xmm0, %xmm12
	paddd	688(%rsp), %xmm2
	paddd	%xmm12, %xmm2
	movdqa	%xmm2, 80(%rsp)
	pxor	%xmm2, %xmm3
	movdqa	.L1_v2_CPI62_7(%rip), %xmm1
	pshufb	%xmm1, %xmm3
	movdqa	%xmm3, 160(%rsp)
	paddd	%xmm3, %xmm7
	movdqa	%xmm7, 208(%rsp)
	pxor	%xmm7, %xmm12
	movdqa	%xmm12, %xmm0
	psrld	$7, %xmm0
	pslld	$25, %xmm12
	por	%xmm0, %xmm12
	movdqa	(%rsp), %xmm0
	paddd	656(%rsp), %xmm0
	paddd	%xmm11, %xmm0
	movdqa	%xmm0, (%rsp)
	movdqa	64(%rsp), %xmm2
	pxor	%xmm0, %xmm2
	pshufb	%xmm1, %xmm2
	movdqa	%xmm2, 64(%rsp)
	movdqa	%xmm4, %xmm0
	paddd	%xmm2, %xmm0
	movdqa	%xmm0, 176(%rsp)
	pxor	%xmm0, %xmm11
	movdqa	%xmm11, %xmm0
	psrld	$7, %xmm0
	pslld	$25, %xmm11
	por	%xmm0, %xmm11
	movdqa	32(%rsp), %xmm1
	paddd	448(%rsp), %xmm1
	paddd	%xmm14, %xmm1
	pxor	%xmm1, %xmm8
	movdqa	.L1_v2_CPI62_5(%rip), %xmm2
	pshufb	%xmm2, %xmm8
	paddd	%xmm8, %xmm9
	pxor	%xmm9, %xmm14
	movdqa	%xmm14, %xmm0
	psrld	$12, %xmm0
	pslld	$20, %xmm14
	por	%xmm0, %xmm14
	movdqa	144(%rsp), %xmm0
	paddd	464(%rsp), %xmm0
	paddd	%xmm15, %xmm0
	movdqa	336(%rsp), %xmm7
	pxor	%xmm0, %xmm7
	movdqa	%xmm0, %xmm3
	pshufb	%xmm2, %xmm7
	movdqa	192(%rsp), %xmm0
	paddd	%xmm7, %xmm0
	pxor	%xmm0, %xmm15
	movdqa	%xmm0, %xmm2
	movdqa	%xmm15, %xmm0
	psrld	$12, %xmm0
	pslld	$20, %xmm15
	por	%xmm0, %xmm15
	paddd	752(%rsp), %xmm3
	paddd	%xmm15, %xmm3
	movdqa	%xmm3, 144(%rsp)
	pxor	%xmm3, %xmm7
	movdqa	.L1_v2_CPI62_7(%rip), %xmm3
	pshufb	%xmm3, %xmm7
	movdqa	%xmm7, 336(%rsp)
	paddd	%xmm7, %xmm2
	movdqa	%xmm2, 192(%rsp)
	pxor	%xmm2, %xmm15
	movdqa	%xmm15, %xmm0
	psrld	$7, %xmm0
	pslld	$25, %xmm15
	por	%xmm0, %xmm15
	movdqa	%xmm1, %xmm0
	paddd	832(%rsp), %xmm0
	paddd	%xmm14, %xmm0
	movdqa	%xmm0, 32(%rsp)
	pxor	%xmm0, %xmm8
	pshufb	%xmm3, %xmm8
	movdqa	%xmm8, 272(%rsp)
	paddd	%xmm8, %xmm9
	movdqa	%xmm9, 288(%rsp)
	pxor	%xmm9, %xmm14
	movdqa	%xmm14, %xmm0
	psrld	$7, %xmm0
	pslld	$25, %xmm14
	por	%xmm0, %xmm14
	movdqa	48(%rsp), %xmm0
	paddd	912(%rsp), %xmm0
	paddd	%xmm6, %xmm0
	movdqa	%xmm0, 48(%rsp)
	movdqa	320(%rsp), %xmm4
	pxor	%xmm0, %xmm4
	movdqa	.L1_v2_CPI62_5(%rip), %xmm8
	pshufb	%xmm8, %xmm4
	movdqa	112(%rsp), %xmm3
	paddd	%xmm4, %xmm3
	pxor	%xmm3, %xmm6
	movdqa	%xmm6, %xmm0
	psrld	$12, %xmm0
	pslld	$20, %xmm6
	por	%xmm0, %xmm6
	movdqa	96(%rsp), %xmm1
	paddd	896(%rsp), %xmm1
	paddd	%xmm13, %xmm1
	movdqa	224(%rsp), %xmm2
	pxor	%xmm1, %xmm2
	pshufb	%xmm8, %xmm2
	movdqa	304(%rsp), %xmm9
	paddd	%xmm2, %xmm9
	pxor	%xmm9, %xmm13
	movdqa	%xmm9, %xmm7
	movdqa	%xmm13, %xmm0
	psrld	$12, %xmm0
	pslld	$20, %xmm13
	por	%xmm0, %xmm13
	movdqa	%xmm1, %xmm0
	paddd	800(%rsp), %xmm0
	paddd	%xmm13, %xmm0
	movdqa	%xmm0, 96(%rsp)
	movdqa	%xmm2, %xmm1
	pxor	%xmm0, %xmm1
	movdqa	.L1_v2_CPI62_7(%rip), %xmm2
	pshufb	%xmm2, %xmm1
	movdqa	%xmm1, 224(%rsp)
	paddd	%xmm1, %xmm7
	movdqa	%xmm7, 304(%rsp)
	pxor	%xmm7, %xmm13
	movdqa	%xmm13, %xmm0
	psrld	$7, %xmm0
	pslld	$25, %xmm13
	por	%xmm0, %xmm13
	movdqa	48(%rsp), %xmm0
	paddd	816(%rsp), %xmm0
	paddd	%xmm6, %xmm0
	movdqa	%xmm0, 48(%rsp)
	pxor	%xmm0, %xmm4
	pshufb	%xmm2, %xmm4
	movdqa	%xmm4, 320(%rsp)
	paddd	%xmm4, %xmm3
	movdqa	%xmm3, 112(%rsp)
	pxor	%xmm3, %xmm6
	movdqa	%xmm6, %xmm0
	psrld	$7, %xmm0
	pslld	$25, %xmm6
	por	%xmm0, %xmm6
	movdqa	16(%rsp), %xmm0
	paddd	608(%rsp), %xmm0
	movdqa	368(%rsp), %xmm4
	paddd	%xmm4, %xmm0
	movdqa	%xmm0, 16(%rsp)
	movdqa	352(%rsp), %xmm2
	pxor	%xmm0, %xmm2
	movdqa	%xmm8, %xmm9
	pshufb	%xmm8, %xmm2
	movdqa	240(%rsp), %xmm7
	paddd	%xmm2, %xmm7
	pxor	%xmm7, %xmm4
	movdqa	%xmm4, %xmm0
	psrld	$12, %xmm0
	pslld	$20, %xmm4
	por	%xmm0, %xmm4
	movdqa	128(%rsp), %xmm1
	paddd	624(%rsp), %xmm1
	paddd	%xmm10, %xmm1
	pxor	%xmm1, %xmm5
	pshufb	%xmm8, %xmm5
	movdqa	256(%rsp), %xmm8
	paddd	%xmm5, %xmm8
	pxor	%xmm8, %xmm10
	movdqa	%xmm10, %xmm0
	psrld	$12, %xmm0
	pslld	$20, %xmm10
	por	%xmm0, %xmm10
	paddd	704(%rsp), %xmm1
	paddd	%xmm10, %xmm1
	movdqa	%xmm1, 128(%rsp)
	pxor	%xmm1, %xmm5
	movdqa	.L1_v2_CPI62_7(%rip), %xmm3
	pshufb	%xmm3, %xmm5
	paddd	%xmm5, %xmm8
	pxor	%xmm8, %xmm10
	movdqa	%xmm10, %xmm0
	psrld	$7, %xmm0
	pslld	$25, %xmm10
	por	%xmm0, %xmm10
	movdqa	16(%rsp), %xmm0
	paddd	672(%rsp), %xmm0
	movdqa	%xmm4, %xmm1
	paddd	%xmm4, %xmm0
	movdqa	%xmm0, 16(%rsp)
	pxor	%xmm0, %xmm2
	pshufb	%xmm3, %xmm2
	paddd	%xmm2, %xmm7
	pxor	%xmm7, %xmm1
	movdqa	%xmm7, %xmm4
	movdqa	%xmm1, %xmm0
	psrld	$7, %xmm0
	pslld	$25, %xmm1
	por	%xmm0, %xmm1
	movdqa	%xmm1, 368(%rsp)
	movdqa	(%rsp), %xmm0
	paddd	512(%rsp), %xmm0
	paddd	%xmm14, %xmm0
	movdqa	%xmm0, (%rsp)
	pxor	%xmm0, %xmm2
	pshufb	%xmm9, %xmm2
	movdqa	112(%rsp), %xmm7
	paddd	%xmm2, %xmm7
	pxor	%xmm7, %xmm14
	movdqa	%xmm14, %xmm0
	psrld	$12, %xmm0
	pslld	$20, %xmm14
	por	%xmm0, %xmm14
	movdqa	80(%rsp), %xmm0
	paddd	544(%rsp), %xmm0
	paddd	%xmm15, %xmm0
	movdqa	%xmm5, %xmm3
	pxor	%xmm0, %xmm3
	movdqa	%xmm0, %xmm5
	pshufb	%xmm9, %xmm3
	movdqa	304(%rsp), %xmm0
	paddd	%xmm3, %xmm0
	pxor	%xmm0, %xmm15
	movdqa	%xmm0, %xmm1
	movdqa	%xmm15, %xmm0
	psrld	$12, %xmm0
	pslld	$20, %xmm15
	por	%xmm0, %xmm15
	movdqa	%xmm5, %xmm0
	paddd	736(%rsp), %xmm0
	paddd	%xmm15, %xmm0
	movdqa	%xmm0, 80(%rsp)
	movdqa	%xmm15, %xmm9
	pxor	%xmm0, %xmm3
	movdqa	.L1_v2_CPI62_7(%rip), %xmm15
	pshufb	%xmm15, %xmm3
	movdqa	%xmm3, 384(%rsp)
	paddd	%xmm3, %xmm1
	movdqa	%xmm1, 304(%rsp)
	pxor	%xmm1, %xmm9
	movdqa	%xmm9, %xmm0
	psrld	$7, %xmm0
	pslld	$25, %xmm9
	por	%xmm0, %xmm9
	movdqa	%xmm9, 400(%rsp)
	movdqa	(%rsp), %xmm0
	paddd	720(%rsp), %xmm0
	paddd	%xmm14, %xmm0
	movdqa	%xmm0, (%rsp)
	movdqa	%xmm2, %xmm1
	pxor	%xmm0, %xmm1
	pshufb	%xmm15, %xmm1
	movdqa	%xmm1, 352(%rsp)
	movdqa	%xmm7, %xmm0
	paddd	%xmm1, %xmm0
	movdqa	%xmm0, 112(%rsp)
	pxor	%xmm0, %xmm14
	movdqa	%xmm14, %xmm0
	psrld	$7, %xmm0
	pslld	$25, %xmm14
	por	%xmm0, %xmm14
	movdqa	32(%rsp), %xmm3
	paddd	592(%rsp), %xmm3
	paddd	%xmm6, %xmm3
	movdqa	64(%rsp), %xmm9
	pxor	%xmm3, %xmm9
	movdqa	.L1_v2_CPI62_5(%rip), %xmm7
	pshufb	%xmm7, %xmm9
	paddd	%xmm9, %xmm4
	pxor	%xmm4, %xmm6
	movdqa	%xmm6, %xmm0
	psrld	$12, %xmm0
	pslld	$20, %xmm6
	por	%xmm0, %xmm6
	movdqa	144(%rsp), %xmm0
	paddd	416(%rsp), %xmm0
	paddd	%xmm13, %xmm0
	movdqa	160(%rsp), %xmm1
	pxor	%xmm0, %xmm1
	movdqa	%xmm0, %xmm2
	pshufb	%xmm7, %xmm1
	paddd	%xmm1, %xmm8
	pxor	%xmm8, %xmm13
	movdqa	%xmm13, %xmm0
	psrld	$12, %xmm0
	pslld	$20, %xmm13
	por	%xmm0, %xmm13
	paddd	480(%rsp), %xmm2
	paddd	%xmm13, %xmm2
	movdqa	%xmm2, 144(%rsp)
	pxor	%xmm2, %xmm1
	pshufb	%xmm15, %xmm1
	movdqa	%xmm1, 160(%rsp)
	paddd	%xmm1, %xmm8
	movdqa	%xmm8, 256(%rsp)
	pxor	%xmm8, %xmm13
	movdqa	%xmm13, %xmm0
	psrld	$7, %xmm0
	pslld	$25, %xmm13
	por	%xmm0, %xmm13
	movdqa	%xmm3, %xmm1
	paddd	496(%rsp), %xmm1
	movdqa	%xmm6, %xmm7
	paddd	%xmm6, %xmm1
	movdqa	%xmm1, 32(%rsp)
	pxor	%xmm1, %xmm9
	pshufb	%xmm15, %xmm9
	movdqa	%xmm9, 64(%rsp)
	movdqa	%xmm4, %xmm1
	paddd	%xmm9, %xmm1
	movdqa	%xmm1, 240(%rsp)
	pxor	%xmm1, %xmm7
	movdqa	%xmm7, %xmm0
	psrld	$7, %xmm0
	pslld	$25, %xmm7
	por	%xmm0, %xmm7
	movdqa	48(%rsp), %xmm3
	paddd	432(%rsp), %xmm3
	movdqa	368(%rsp), %xmm6
	paddd	%xmm6, %xmm3
	movdqa	272(%rsp), %xmm8
	pxor	%xmm3, %xmm8
	movdqa	.L1_v2_CPI62_5(%rip), %xmm1
	pshufb	%xmm1, %xmm8
	movdqa	176(%rsp), %xmm9
	paddd	%xmm8, %xmm9
	pxor	%xmm9, %xmm6
	movdqa	%xmm6, %xmm0
	psrld	$12, %xmm0
	pslld	$20, %xmm6
	por	%xmm0, %xmm6
	movdqa	96(%rsp), %xmm0
	paddd	560(%rsp), %xmm0
	paddd	%xmm10, %xmm0
	movdqa	336(%rsp), %xmm5
	pxor	%xmm0, %xmm5
	movdqa	%xmm0, %xmm2
	pshufb	%xmm1, %xmm5
	movdqa	208(%rsp), %xmm1
	paddd	%xmm5, %xmm1
	pxor	%xmm1, %xmm10
	movdqa	%xmm10, %xmm0
	psrld	$12, %xmm0
	pslld	$20, %xmm10
	por	%xmm0, %xmm10
	paddd	768(%rsp), %xmm2
	paddd	%xmm10, %xmm2
	movdqa	%xmm2, 96(%rsp)
	pxor	%xmm2, %xmm5
	pshufb	%xmm15, %xmm5
	paddd	%xmm5, %xmm1
	movdqa	%xmm1, 208(%rsp)
	pxor	%xmm1, %xmm10
	movdqa	%xmm10, %xmm0
	psrld	$7, %xmm0
	pslld	$25, %xmm10
	por	%xmm0, %xmm10
	movdqa	%xmm3, %xmm0
	paddd	640(%rsp), %xmm0
	paddd	%xmm6, %xmm0
	movdqa	%xmm0, 48(%rsp)
	pxor	%xmm0, %xmm8
	pshufb	%xmm15, %xmm8
	movdqa	%xmm15, %xmm4
	movdqa	%xmm9, %xmm0
	paddd	%xmm8, %xmm0
	movdqa	%xmm0, 176(%rsp)
	pxor	%xmm0, %xmm6
	movdqa	%xmm6, %xmm0
	psrld	$7, %xmm0
	pslld	$25, %xmm6
	por	%xmm0, %xmm6
	movdqa	%xmm6, 368(%rsp)
	movdqa	16(%rsp), %xmm0
	paddd	848(%rsp), %xmm0
	paddd	%xmm11, %xmm0
	movdqa	%xmm0, 16(%rsp)
	movdqa	320(%rsp), %xmm15
	pxor	%xmm0, %xmm15
	movdqa	.L1_v2_CPI62_5(%rip), %xmm2
	pshufb	%xmm2, %xmm15
	movdqa	288(%rsp), %xmm9
	paddd	%xmm15, %xmm9
	pxor	%xmm9, %xmm11
	movdqa	%xmm11, %xmm0
	psrld	$12, %xmm0
	pslld	$20, %xmm11
	por	%xmm0, %xmm11
	movdqa	128(%rsp), %xmm1
	paddd	864(%rsp), %xmm1
	paddd	%xmm12, %xmm1
	movdqa	224(%rsp), %xmm0
	pxor	%xmm1, %xmm0
	movdqa	%xmm1, %xmm3
	pshufb	%xmm2, %xmm0
	movdqa	192(%rsp), %xmm1
	paddd	%xmm0, %xmm1
	movdqa	%xmm0, %xmm2
	pxor	%xmm1, %xmm12
	movdqa	%xmm1, %xmm6
	movdqa	%xmm12, %xmm0
	psrld	$12, %xmm0
	pslld	$20, %xmm12
	por	%xmm0, %xmm12
	paddd	880(%rsp), %xmm3
	paddd	%xmm12, %xmm3
	movdqa	%xmm3, 128(%rsp)
	pxor	%xmm3, %xmm2
	pshufb	%xmm4, %xmm2
	movdqa	%xmm2, 224(%rsp)
	paddd	%xmm2, %xmm6
	movdqa	%xmm6, 192(%rsp)
	pxor	%xmm6, %xmm12
	movdqa	%xmm12, %xmm0
	psrld	$7, %xmm0
	pslld	$25, %xmm12
	por	%xmm0, %xmm12
	movdqa	16(%rsp), %xmm0
	paddd	528(%rsp), %xmm0
	paddd	%xmm11, %xmm0
	movdqa	%xmm0, 16(%rsp)
	pxor	%xmm0, %xmm15
	pshufb	%xmm4, %xmm15
	paddd	%xmm15, %xmm9
	pxor	%xmm9, %xmm11
	movdqa	%xmm11, %xmm0
	psrld	$7, %xmm0
	pslld	$25, %xmm11
	por	%xmm0, %xmm11
	movdqa	(%rsp), %xmm0
	paddd	656(%rsp), %xmm0
	paddd	%xmm11, %xmm0
	movdqa	%xmm0, (%rsp)
	movdqa	64(%rsp), %xmm1
	pxor	%xmm0, %xmm1
	movdqa	.L1_v2_CPI62_5(%rip), %xmm3
	pshufb	%xmm3, %xmm1
	movdqa	%xmm1, 64(%rsp)
	movdqa	176(%rsp), %xmm6
	paddd	%xmm1, %xmm6
	pxor	%xmm6, %xmm11
	movdqa	%xmm11, %xmm0
	psrld	$12, %xmm0
	pslld	$20, %xmm11
	por	%xmm0, %xmm11
	movdqa	80(%rsp), %xmm2
	paddd	688(%rsp), %xmm2
	paddd	%xmm12, %xmm2
	movdqa	160(%rsp), %xmm1
	pxor	%xmm2, %xmm1
	pshufb	%xmm3, %xmm1
	movdqa	208(%rsp), %xmm3
	paddd	%xmm1, %xmm3
	pxor	%xmm3, %xmm12
	movdqa	%xmm12, %xmm0
	psrld	$12, %xmm0
	pslld	$20, %xmm12
	por	%xmm0, %xmm12
	paddd	480(%rsp), %xmm2
	paddd	%xmm12, %xmm2
	movdqa	%xmm2, 80(%rsp)
	movdqa	%xmm1, %xmm0
	pxor	%xmm2, %xmm0
	pshufb	%xmm4, %xmm0
	movdqa	%xmm0, 160(%rsp)
	paddd	%xmm0, %xmm3
	movdqa	%xmm3, 208(%rsp)
	pxor	%xmm3, %xmm12
	movdqa	%xmm12, %xmm0
	psrld	$7, %xmm0
	pslld	$25, %xmm12
	por	%xmm0, %xmm12
	movdqa	(%rsp), %xmm1
	paddd	496(%rsp), %xmm1
	paddd	%xmm11, %xmm1
	movdqa	%xmm1, (%rsp)
	movdqa	64(%rsp), %xmm0
	pxor	%xmm1, %xmm0
	pshufb	%xmm4, %xmm0
	movdqa	%xmm0, 64(%rsp)
	paddd	%xmm0, %xmm6
	movdqa	%xmm6, 176(%rsp)
	pxor	%xmm6, %xmm11
	movdqa	%xmm11, %xmm0
	psrld	$7, %xmm0
	pslld	$25, %xmm11
	por	%xmm0, %xmm11
	movdqa	32(%rsp), %xmm3
	paddd	848(%rsp), %xmm3
	paddd	%xmm14, %xmm3
	pxor	%xmm3, %xmm8
	movdqa	.L1_v2_CPI62_5(%rip), %xmm1
	pshufb	%xmm1, %xmm8
	paddd	%xmm8, %xmm9
	pxor	%xmm9, %xmm14
	movdqa	%xmm14, %xmm0
	psrld	$12, %xmm0
	pslld	$20, %xmm14
	por	%xmm0, %xmm14
	movdqa	144(%rsp), %xmm0
	paddd	864(%rsp), %xmm0
	movdqa	400(%rsp), %xmm4
	paddd	%xmm4, %xmm0
	pxor	%xmm0, %xmm5
	movdqa	%xmm0, %xmm2
	pshufb	%xmm1, %xmm5
	movdqa	192(%rsp), %xmm0
	paddd	%xmm5, %xmm0
	movdqa	%xmm5, %xmm6
	pxor	%xmm0, %xmm4
	movdqa	%xmm0, %xmm1
	movdqa	%xmm4, %xmm0
	psrld	$12, %xmm0
	pslld	$20, %xmm4
	por	%xmm0, %xmm4
	paddd	560(%rsp), %xmm2
	paddd	%xmm4, %xmm2
	movdqa	%xmm4, %xmm5
	movdqa	%xmm2, 144(%rsp)
	movdqa	%xmm6, %xmm0
	pxor	%xmm2, %xmm0
	movdqa	.L1_v2_CPI62_7(%rip), %xmm2
	pshufb	%xmm2, %xmm0
	movdqa	%xmm0, 336(%rsp)
	paddd	%xmm0, %xmm1
	movdqa	%xmm1, 192(%rsp)
	pxor	%xmm1, %xmm5
	movdqa	%xmm5, %xmm0
	psrld	$7, %xmm0
	pslld	$25, %xmm5
	por	%xmm0, %xmm5
	movdqa	%xmm3, %xmm0
	paddd	432(%rsp), %xmm0
	paddd	%xmm14, %xmm0
	movdqa	%xmm0, 32(%rsp)
	pxor	%xmm0, %xmm8
	pshufb	%xmm2, %xmm8
	paddd	%xmm8, %xmm9
	movdqa	%xmm9, 288(%rsp)
	pxor	%xmm9, %xmm14
	movdqa	%xmm14, %xmm0
	psrld	$7, %xmm0
	pslld	$25, %xmm14
	por	%xmm0, %xmm14
	movdqa	48(%rsp), %xmm6
	paddd	640(%rsp), %xmm6
	paddd	%xmm7, %xmm6
	pxor	%xmm6, %xmm15
	movdqa	.L1_v2_CPI62_5(%rip), %xmm4
	pshufb	%xmm4, %xmm15
	movdqa	112(%rsp), %xmm3
	paddd	%xmm15, %xmm3
	pxor	%xmm3, %xmm7
	movdqa	%xmm7, %xmm0
	psrld	$12, %xmm0
	pslld	$20, %xmm7
	por	%xmm0, %xmm7
	movdqa	96(%rsp), %xmm0
	paddd	768(%rsp), %xmm0
	paddd	%xmm13, %xmm0
	movdqa	224(%rsp), %xmm9
	pxor	%xmm0, %xmm9
	movdqa	%xmm0, %xmm2
	pshufb	%xmm4, %xmm9
	movdqa	304(%rsp), %xmm1
	paddd	%xmm9, %xmm1
	pxor	%xmm1, %xmm13
	movdqa	%xmm13, %xmm0
	psrld	$12, %xmm0
	pslld	$20, %xmm13
	por	%xmm0, %xmm13
	paddd	736(%rsp), %xmm2
	paddd	%xmm13, %xmm2
	movdqa	%xmm2, 96(%rsp)
	movdqa	%xmm9, %xmm0
	pxor	%xmm2, %xmm0
	movdqa	.L1_v2_CPI62_7(%rip), %xmm2
	pshufb	%xmm2, %xmm0
	movdqa	%xmm0, 224(%rsp)
	paddd	%xmm0, %xmm1
	movdqa	%xmm1, 304(%rsp)
	pxor	%xmm1, %xmm13
	movdqa	%xmm13, %xmm0
	psrld	$7, %xmm0
	pslld	$25, %xmm13
	por	%xmm0, %xmm13
	paddd	720(%rsp), %xmm6
	paddd	%xmm7, %xmm6
	movdqa	%xmm6, 48(%rsp)
	pxor	%xmm6, %xmm15
	pshufb	%xmm2, %xmm15
	paddd	%xmm15, %xmm3
	movdqa	%xmm3, 112(%rsp)
	pxor	%xmm3, %xmm7
	movdqa	%xmm7, %xmm0
	psrld	$7, %xmm0
	pslld	$25, %xmm7
	por	%xmm0, %xmm7
	movdqa	16(%rsp), %xmm0
	paddd	512(%rsp), %xmm0
	movdqa	368(%rsp), %xmm6
	paddd	%xmm6, %xmm0
	movdqa	%xmm0, 16(%rsp)
	movdqa	352(%rsp), %xmm2
	pxor	%xmm0, %xmm2
	pshufb	%xmm4, %xmm2
	movdqa	240(%rsp), %xmm0
	paddd	%xmm2, %xmm0
	movdqa	%xmm0, 240(%rsp)
	pxor	%xmm0, %xmm6
	movdqa	%xmm6, %xmm0
	psrld	$12, %xmm0
	pslld	$20, %xmm6
	por	%xmm0, %xmm6
	movdqa	128(%rsp), %xmm1
	paddd	544(%rsp), %xmm1
	paddd	%xmm10, %xmm1
	movdqa	384(%rsp), %xmm3
	pxor	%xmm1, %xmm3
	pshufb	%xmm4, %xmm3
	movdqa	256(%rsp), %xmm4
	paddd	%xmm3, %xmm4
	pxor	%xmm4, %xmm10
	movdqa	%xmm10, %xmm0
	psrld	$12, %xmm0
	pslld	$20, %xmm10
	por	%xmm0, %xmm10
	paddd	752(%rsp), %xmm1
	paddd	%xmm10, %xmm1
	movdqa	%xmm1, 128(%rsp)
	pxor	%xmm1, %xmm3
	movdqa	.L1_v2_CPI62_7(%rip), %xmm1
	pshufb	%xmm1, %xmm3
	paddd	%xmm3, %xmm4
	movdqa	%xmm4, 256(%rsp)
	pxor	%xmm4, %xmm10
	movdqa	%xmm10, %xmm0
	psrld	$7, %xmm0
	pslld	$25, %xmm10
	por	%xmm0, %xmm10
	movdqa	16(%rsp), %xmm0
	paddd	832(%rsp), %xmm0
	paddd	%xmm6, %xmm0
	movdqa	%xmm0, 16(%rsp)
	pxor	%xmm0, %xmm2
	pshufb	%xmm1, %xmm2
	movdqa	240(%rsp), %xmm0
	paddd	%xmm2, %xmm0
	movdqa	%xmm0, 240(%rsp)
	pxor	%xmm0, %xmm6
	movdqa	%xmm6, %xmm0
	psrld	$7, %xmm0
	pslld	$25, %xmm6
	por	%xmm0, %xmm6
	movdqa	(%rsp), %xmm0
	paddd	912(%rsp), %xmm0
	paddd	%xmm14, %xmm0
	movdqa	%xmm0, (%rsp)
	pxor	%xmm0, %xmm2
	movdqa	.L1_v2_CPI62_5(%rip), %xmm4
	pshufb	%xmm4, %xmm2
	movdqa	%xmm2, 352(%rsp)
	movdqa	112(%rsp), %xmm9
	paddd	%xmm2, %xmm9
	pxor	%xmm9, %xmm14
	movdqa	%xmm14, %xmm0
	psrld	$12, %xmm0
	pslld	$20, %xmm14
	por	%xmm0, %xmm14
	movdqa	80(%rsp), %xmm1
	paddd	896(%rsp), %xmm1
	paddd	%xmm5, %xmm1
	pxor	%xmm1, %xmm3
	pshufb	%xmm4, %xmm3
	movdqa	304(%rsp), %xmm2
	paddd	%xmm3, %xmm2
	pxor	%xmm2, %xmm5
	movdqa	%xmm5, %xmm0
	psrld	$12, %xmm0
	pslld	$20, %xmm5
	por	%xmm0, %xmm5
	paddd	416(%rsp), %xmm1
	paddd	%xmm5, %xmm1
	movdqa	%xmm1, 80(%rsp)
	pxor	%xmm1, %xmm3
	movdqa	.L1_v2_CPI62_7(%rip), %xmm4
	pshufb	%xmm4, %xmm3
	movdqa	%xmm3, 384(%rsp)
	paddd	%xmm3, %xmm2
	movdqa	%xmm2, 304(%rsp)
	pxor	%xmm2, %xmm5
	movdqa	%xmm5, %xmm0
	psrld	$7, %xmm0
	pslld	$25, %xmm5
	por	%xmm0, %xmm5
	movdqa	%xmm5, 400(%rsp)
	movdqa	(%rsp), %xmm0
	paddd	592(%rsp), %xmm0
	paddd	%xmm14, %xmm0
	movdqa	%xmm0, (%rsp)
	movdqa	352(%rsp), %xmm2
	pxor	%xmm0, %xmm2
	pshufb	%xmm4, %xmm2
	movdqa	%xmm4, %xmm5
	movdqa	%xmm2, 352(%rsp)
	paddd	%xmm2, %xmm9
	movdqa	%xmm9, 112(%rsp)
	pxor	%xmm9, %xmm14
	movdqa	%xmm14, %xmm0
	psrld	$7, %xmm0
	pslld	$25, %xmm14
	por	%xmm0, %xmm14
	movdqa	32(%rsp), %xmm1
	paddd	448(%rsp), %xmm1
	paddd	%xmm7, %xmm1
	movdqa	64(%rsp), %xmm0
	pxor	%xmm1, %xmm0
	movdqa	%xmm1, %xmm4
	movdqa	.L1_v2_CPI62_5(%rip), %xmm3
	pshufb	%xmm3, %xmm0
	movdqa	%xmm0, 64(%rsp)
	movdqa	240(%rsp), %xmm9
	paddd	%xmm0, %xmm9
	pxor	%xmm9, %xmm7
	movdqa	%xmm7, %xmm0
	psrld	$12, %xmm0
	pslld	$20, %xmm7
	por	%xmm0, %xmm7
	movdqa	144(%rsp), %xmm2
	paddd	464(%rsp), %xmm2
	paddd	%xmm13, %xmm2
	movdqa	160(%rsp), %xmm1
	pxor	%xmm2, %xmm1
	pshufb	%xmm3, %xmm1
	movdqa	256(%rsp), %xmm3
	paddd	%xmm1, %xmm3
	pxor	%xmm3, %xmm13
	movdqa	%xmm13, %xmm0
	psrld	$12, %xmm0
	pslld	$20, %xmm13
	por	%xmm0, %xmm13
	paddd	704(%rsp), %xmm2
	paddd	%xmm13, %xmm2
	movdqa	%xmm2, 144(%rsp)
	movdqa	%xmm1, %xmm0
	pxor	%xmm2, %xmm0
	pshufb	%xmm5, %xmm0
	movdqa	%xmm0, 160(%rsp)
	paddd	%xmm0, %xmm3
	movdqa	%xmm3, 256(%rsp)
	pxor	%xmm3, %xmm13
	movdqa	%xmm13, %xmm0
	psrld	$7, %xmm0
	pslld	$25, %xmm13
	por	%xmm0, %xmm13
	movdqa	%xmm4, %xmm0
	paddd	672(%rsp), %xmm0
	paddd	%xmm7, %xmm0
	movdqa	%xmm0, 32(%rsp)
	movdqa	64(%rsp), %xmm1
	pxor	%xmm0, %xmm1
	pshufb	%xmm5, %xmm1
	movdqa	%xmm1, 64(%rsp)
	movdqa	%xmm9, %xmm0
	paddd	%xmm1, %xmm0
	movdqa	%xmm0, 240(%rsp)
	pxor	%xmm0, %xmm7
	movdqa	%xmm7, %xmm0
	psrld	$7, %xmm0
	pslld	$25, %xmm7
	por	%xmm0, %xmm7
	movdqa	%xmm7, %xmm4
	movdqa	48(%rsp), %xmm0
	paddd	528(%rsp), %xmm0
	paddd	%xmm6, %xmm0
	pxor	%xmm0, %xmm8
	movdqa	%xmm0, %xmm2
	movdqa	.L1_v2_CPI62_5(%rip), %xmm3
	pshufb	%xmm3, %xmm8
	movdqa	176(%rsp), %xmm0
	paddd	%xmm8, %xmm0
	pxor	%xmm0, %xmm6
	movdqa	%xmm0, %xmm9
	movdqa	%xmm6, %xmm0
	psrld	$12, %xmm0
	pslld	$20, %xmm6
	por	%xmm0, %xmm6
	movdqa	96(%rsp), %xmm0
	paddd	880(%rsp), %xmm0
	paddd	%xmm10, %xmm0
	movdqa	336(%rsp), %xmm7
	pxor	%xmm0, %xmm7
	movdqa	%xmm0, %xmm1
	pshufb	%xmm3, %xmm7
	movdqa	208(%rsp), %xmm0
	paddd	%xmm7, %xmm0
	pxor	%xmm0, %xmm10
	movdqa	%xmm0, %xmm5
	movdqa	%xmm10, %xmm0
	psrld	$12, %xmm0
	pslld	$20, %xmm10
	por	%xmm0, %xmm10
	paddd	576(%rsp), %xmm1
	paddd	%xmm10, %xmm1
	movdqa	%xmm1, 96(%rsp)
	pxor	%xmm1, %xmm7
	movdqa	.L1_v2_CPI62_7(%rip), %xmm1
	pshufb	%xmm1, %xmm7
	paddd	%xmm7, %xmm5
	pxor	%xmm5, %xmm10
	movdqa	%xmm10, %xmm0
	psrld	$7, %xmm0
	pslld	$25, %xmm10
	por	%xmm0, %xmm10
	paddd	784(%rsp), %xmm2
	paddd	%xmm6, %xmm2
	movdqa	%xmm2, 48(%rsp)
	pxor	%xmm2, %xmm8
	pshufb	%xmm1, %xmm8
	movdqa	%xmm8, 272(%rsp)
	paddd	%xmm8, %xmm9
	movdqa	%xmm9, 176(%rsp)
	pxor	%xmm9, %xmm6
	movdqa	%xmm6, %xmm0
	psrld	$7, %xmm0
	pslld	$25, %xmm6
	por	%xmm0, %xmm6
	movdqa	16(%rsp), %xmm0
	paddd	608(%rsp), %xmm0
	paddd	%xmm11, %xmm0
	movdqa	%xmm0, 16(%rsp)
	pxor	%xmm0, %xmm15
	pshufb	%xmm3, %xmm15
	movdqa	288(%rsp), %xmm2
	paddd	%xmm15, %xmm2
	pxor	%xmm2, %xmm11
	movdqa	%xmm11, %xmm0
	psrld	$12, %xmm0
	pslld	$20, %xmm11
	por	%xmm0, %xmm11
	movdqa	128(%rsp), %xmm1
	paddd	624(%rsp), %xmm1
	paddd	%xmm12, %xmm1
	movdqa	224(%rsp), %xmm0
	pxor	%xmm1, %xmm0
	pshufb	%xmm3, %xmm0
	movdqa	192(%rsp), %xmm8
	paddd	%xmm0, %xmm8
	movdqa	%xmm0, %xmm3
	pxor	%xmm8, %xmm12
	movdqa	%xmm12, %xmm0
	psrld	$12, %xmm0
	pslld	$20, %xmm12
	por	%xmm0, %xmm12
	movdqa	800(%rsp), %xmm9
	paddd	%xmm9, %xmm1
	paddd	%xmm12, %xmm1
	movdqa	%xmm1, 128(%rsp)
	pxor	%xmm1, %xmm3
	movdqa	.L1_v2_CPI62_7(%rip), %xmm1
	pshufb	%xmm1, %xmm3
	movdqa	%xmm3, 224(%rsp)
	paddd	%xmm3, %xmm8
	movdqa	%xmm8, 192(%rsp)
	pxor	%xmm8, %xmm12
	movdqa	%xmm12, %xmm0
	psrld	$7, %xmm0
	pslld	$25, %xmm12
	por	%xmm0, %xmm12
	movdqa	816(%rsp), %xmm8
	movdqa	16(%rsp), %xmm0
	paddd	%xmm8, %xmm0
	paddd	%xmm11, %xmm0
	movdqa	%xmm0, 16(%rsp)
	pxor	%xmm0, %xmm15
	pshufb	%xmm1, %xmm15
	paddd	%xmm15, %xmm2
	movdqa	%xmm2, 288(%rsp)
	pxor	%xmm2, %xmm11
	movdqa	%xmm11, %xmm0
	psrld	$7, %xmm0
	pslld	$25, %xmm11
	por	%xmm0, %xmm11
	movdqa	(%rsp), %xmm1
	paddd	720(%rsp), %xmm1
	paddd	%xmm11, %xmm1
	movdqa	%xmm1, (%rsp)
	movdqa	64(%rsp), %xmm0
	pxor	%xmm1, %xmm0
	movdqa	.L1_v2_CPI62_5(%rip), %xmm2
	pshufb	%xmm2, %xmm0
	movdqa	%xmm0, 64(%rsp)
	movdqa	176(%rsp), %xmm1
	paddd	%xmm0, %xmm1
	movdqa	%xmm1, 176(%rsp)
	pxor	%xmm1, %xmm11
	movdqa	%xmm11, %xmm0
	psrld	$12, %xmm0
	pslld	$20, %xmm11
	por	%xmm0, %xmm11
	movdqa	80(%rsp), %xmm0
	paddd	736(%rsp), %xmm0
	paddd	%xmm12, %xmm0
	movdqa	160(%rsp), %xmm1
	pxor	%xmm0, %xmm1
	movdqa	%xmm0, %xmm3
	pshufb	%xmm2, %xmm1
	movdqa	%xmm5, %xmm0
	paddd	%xmm1, %xmm0
	pxor	%xmm0, %xmm12
	movdqa	%xmm0, %xmm2
	movdqa	%xmm12, %xmm0
	psrld	$12, %xmm0
	pslld	$20, %xmm12
	por	%xmm0, %xmm12
	paddd	%xmm9, %xmm3
	paddd	%xmm12, %xmm3
	movdqa	%xmm3, 80(%rsp)
	movdqa	%xmm1, %xmm0
	pxor	%xmm3, %xmm0
	movdqa	.L1_v2_CPI62_7(%rip), %xmm1
	pshufb	%xmm1, %xmm0
	movdqa	%xmm0, 160(%rsp)
	paddd	%xmm0, %xmm2
	movdqa	%xmm2, 208(%rsp)
	pxor	%xmm2, %xmm12
	movdqa	%xmm12, %xmm0
	psrld	$7, %xmm0
	pslld	$25, %xmm12
	por	%xmm0, %xmm12
	movdqa	(%rsp), %xmm2
	paddd	%xmm8, %xmm2
	paddd	%xmm11, %xmm2
	movdqa	%xmm2, (%rsp)
	movdqa	64(%rsp), %xmm0
	pxor	%xmm2, %xmm0
	pshufb	%xmm1, %xmm0
	movdqa	%xmm0, 64(%rsp)
	movdqa	176(%rsp), %xmm1
	paddd	%xmm0, %xmm1
	movdqa	%xmm1, 176(%rsp)
	pxor	%xmm1, %xmm11
	movdqa	%xmm11, %xmm0
	psrld	$7, %xmm0
	pslld	$25, %xmm11
	por	%xmm0, %xmm11
	movdqa	32(%rsp), %xmm0
	paddd	592(%rsp), %xmm0
	paddd	%xmm14, %xmm0
	movdqa	%xmm0, 32(%rsp)
	movdqa	272(%rsp), %xmm9
	pxor	%xmm0, %xmm9
	movdqa	.L1_v2_CPI62_5(%rip), %xmm1
	pshufb	%xmm1, %xmm9
	movdqa	288(%rsp), %xmm0
	paddd	%xmm9, %xmm0
	pxor	%xmm0, %xmm14
	movdqa	%xmm0, %xmm3
	movdqa	%xmm14, %xmm0
	psrld	$12, %xmm0
	pslld	$20, %xmm14
	por	%xmm0, %xmm14
	movdqa	144(%rsp), %xmm0
	paddd	416(%rsp), %xmm0
	movdqa	400(%rsp), %xmm5
	paddd	%xmm5, %xmm0
	pxor	%xmm0, %xmm7
	movdqa	%xmm0, %xmm8
	pshufb	%xmm1, %xmm7
	movdqa	192(%rsp), %xmm0
	paddd	%xmm7, %xmm0
	pxor	%xmm0, %xmm5
	movdqa	%xmm0, %xmm2
	movdqa	%xmm5, %xmm0
	psrld	$12, %xmm0
	pslld	$20, %xmm5
	por	%xmm0, %xmm5
	paddd	768(%rsp), %xmm8
	paddd	%xmm5, %xmm8
	movdqa	%xmm8, 144(%rsp)
	pxor	%xmm8, %xmm7
	movdqa	.L1_v2_CPI62_7(%rip), %xmm8
	pshufb	%xmm8, %xmm7
	paddd	%xmm7, %xmm2
	movdqa	%xmm2, 192(%rsp)
	pxor	%xmm2, %xmm5
	movdqa	%xmm5, %xmm0
	psrld	$7, %xmm0
	pslld	$25, %xmm5
	por	%xmm0, %xmm5
	movdqa	32(%rsp), %xmm0
	paddd	640(%rsp), %xmm0
	paddd	%xmm14, %xmm0
	movdqa	%xmm0, 32(%rsp)
	pxor	%xmm0, %xmm9
	pshufb	%xmm8, %xmm9
	movdqa	%xmm9, 272(%rsp)
	paddd	%xmm9, %xmm3
	movdqa	%xmm3, 288(%rsp)
	pxor	%xmm3, %xmm14
	movdqa	%xmm14, %xmm0
	psrld	$7, %xmm0
	pslld	$25, %xmm14
	por	%xmm0, %xmm14
	movdqa	48(%rsp), %xmm0
	paddd	656(%rsp), %xmm0
	paddd	%xmm4, %xmm0
	movdqa	%xmm0, 48(%rsp)
	pxor	%xmm0, %xmm15
	movdqa	%xmm1, %xmm9
	pshufb	%xmm1, %xmm15
	movdqa	112(%rsp), %xmm1
	paddd	%xmm15, %xmm1
	pxor	%xmm1, %xmm4
	movdqa	%xmm4, %xmm0
	psrld	$12, %xmm0
	pslld	$20, %xmm4
	por	%xmm0, %xmm4
	movdqa	96(%rsp), %xmm0
	paddd	688(%rsp), %xmm0
	paddd	%xmm13, %xmm0
	movdqa	224(%rsp), %xmm8
	pxor	%xmm0, %xmm8
	movdqa	%xmm0, %xmm2
	pshufb	%xmm9, %xmm8
	movdqa	304(%rsp), %xmm0
	paddd	%xmm8, %xmm0
	pxor	%xmm0, %xmm13
	movdqa	%xmm0, %xmm3
	movdqa	%xmm13, %xmm0
	psrld	$12, %xmm0
	pslld	$20, %xmm13
	por	%xmm0, %xmm13
	paddd	864(%rsp), %xmm2
	paddd	%xmm13, %xmm2
	movdqa	%xmm2, 96(%rsp)
	movdqa	%xmm8, %xmm0
	pxor	%xmm2, %xmm0
	movdqa	.L1_v2_CPI62_7(%rip), %xmm8
	pshufb	%xmm8, %xmm0
	movdqa	%xmm0, 224(%rsp)
	paddd	%xmm0, %xmm3
	movdqa	%xmm3, 304(%rsp)
	pxor	%xmm3, %xmm13
	movdqa	%xmm13, %xmm0
	psrld	$7, %xmm0
	pslld	$25, %xmm13
	por	%xmm0, %xmm13
	movdqa	48(%rsp), %xmm0
	paddd	848(%rsp), %xmm0
	paddd	%xmm4, %xmm0
	movdqa	%xmm0, 48(%rsp)
	pxor	%xmm0, %xmm15
	pshufb	%xmm8, %xmm15
	movdqa	%xmm15, 320(%rsp)
	movdqa	%xmm1, %xmm0
	paddd	%xmm15, %xmm0
	movdqa	%xmm0, 112(%rsp)
	movdqa	%xmm4, %xmm1
	pxor	%xmm0, %xmm1
	movdqa	%xmm1, %xmm0
	psrld	$7, %xmm0
	pslld	$25, %xmm1
	por	%xmm0, %xmm1
	movdqa	%xmm1, %xmm4
	movdqa	16(%rsp), %xmm0
	paddd	672(%rsp), %xmm0
	paddd	%xmm6, %xmm0
	movdqa	%xmm0, 16(%rsp)
	movdqa	352(%rsp), %xmm15
	pxor	%xmm0, %xmm15
	movdqa	%xmm9, %xmm2
	pshufb	%xmm9, %xmm15
	movdqa	240(%rsp), %xmm9
	paddd	%xmm15, %xmm9
	pxor	%xmm9, %xmm6
	movdqa	%xmm6, %xmm0
	psrld	$12, %xmm0
	pslld	$20, %xmm6
	por	%xmm0, %xmm6
	movdqa	128(%rsp), %xmm1
	paddd	704(%rsp), %xmm1
	paddd	%xmm10, %xmm1
	movdqa	384(%rsp), %xmm3
	pxor	%xmm1, %xmm3
	pshufb	%xmm2, %xmm3
	movdqa	256(%rsp), %xmm2
	paddd	%xmm3, %xmm2
	pxor	%xmm2, %xmm10
	movdqa	%xmm10, %xmm0
	psrld	$12, %xmm0
	pslld	$20, %xmm10
	por	%xmm0, %xmm10
	paddd	880(%rsp), %xmm1
	paddd	%xmm10, %xmm1
	movdqa	%xmm1, 128(%rsp)
	pxor	%xmm1, %xmm3
	pshufb	%xmm8, %xmm3
	paddd	%xmm3, %xmm2
	movdqa	%xmm2, 256(%rsp)
	pxor	%xmm2, %xmm10
	movdqa	%xmm10, %xmm0
	psrld	$7, %xmm0
	pslld	$25, %xmm10
	por	%xmm0, %xmm10
	movdqa	16(%rsp), %xmm0
	paddd	528(%rsp), %xmm0
	paddd	%xmm6, %xmm0
	movdqa	%xmm0, 16(%rsp)
	pxor	%xmm0, %xmm15
	pshufb	%xmm8, %xmm15
	paddd	%xmm15, %xmm9
	movdqa	%xmm9, 240(%rsp)
	pxor	%xmm9, %xmm6
	movdqa	%xmm6, %xmm0
	psrld	$7, %xmm0
	pslld	$25, %xmm6
	por	%xmm0, %xmm6
	movdqa	(%rsp), %xmm9
	paddd	496(%rsp), %xmm9
	paddd	%xmm14, %xmm9
	pxor	%xmm9, %xmm15
	movdqa	.L1_v2_CPI62_5(%rip), %xmm2
	pshufb	%xmm2, %xmm15
	movdqa	112(%rsp), %xmm8
	paddd	%xmm15, %xmm8
	pxor	%xmm8, %xmm14
	movdqa	%xmm14, %xmm0
	psrld	$12, %xmm0
	pslld	$20, %xmm14
	por	%xmm0, %xmm14
	movdqa	80(%rsp), %xmm1
	paddd	480(%rsp), %xmm1
	paddd	%xmm5, %xmm1
	pxor	%xmm1, %xmm3
	pshufb	%xmm2, %xmm3
	movdqa	304(%rsp), %xmm2
	paddd	%xmm3, %xmm2
	pxor	%xmm2, %xmm5
	movdqa	%xmm5, %xmm0
	psrld	$12, %xmm0
	pslld	$20, %xmm5
	por	%xmm0, %xmm5
	paddd	896(%rsp), %xmm1
	paddd	%xmm5, %xmm1
	movdqa	%xmm1, 80(%rsp)
	pxor	%xmm1, %xmm3
	movdqa	.L1_v2_CPI62_7(%rip), %xmm1
	pshufb	%xmm1, %xmm3
	movdqa	%xmm3, 384(%rsp)
	paddd	%xmm3, %xmm2
	movdqa	%xmm2, 304(%rsp)
	pxor	%xmm2, %xmm5
	movdqa	%xmm5, %xmm0
	psrld	$7, %xmm0
	pslld	$25, %xmm5
	por	%xmm0, %xmm5
	paddd	912(%rsp), %xmm9
	paddd	%xmm14, %xmm9
	movdqa	%xmm9, (%rsp)
	pxor	%xmm9, %xmm15
	pshufb	%xmm1, %xmm15
	paddd	%xmm15, %xmm8
	movdqa	%xmm8, 112(%rsp)
	pxor	%xmm8, %xmm14
	movdqa	%xmm14, %xmm0
	psrld	$7, %xmm0
	pslld	$25, %xmm14
	por	%xmm0, %xmm14
	movdqa	32(%rsp), %xmm0
	paddd	432(%rsp), %xmm0
	paddd	%xmm4, %xmm0
	movdqa	%xmm0, 32(%rsp)
	movdqa	64(%rsp), %xmm9
	pxor	%xmm0, %xmm9
	movdqa	.L1_v2_CPI62_5(%rip), %xmm2
	pshufb	%xmm2, %xmm9
	movdqa	240(%rsp), %xmm8
	paddd	%xmm9, %xmm8
	pxor	%xmm8, %xmm4
	movdqa	%xmm4, %xmm0
	psrld	$12, %xmm0
	pslld	$20, %xmm4
	por	%xmm0, %xmm4
	movdqa	144(%rsp), %xmm0
	paddd	560(%rsp), %xmm0
	paddd	%xmm13, %xmm0
	movdqa	160(%rsp), %xmm1
	pxor	%xmm0, %xmm1
	movdqa	%xmm0, %xmm3
	pshufb	%xmm2, %xmm1
	movdqa	256(%rsp), %xmm0
	paddd	%xmm1, %xmm0
	movdqa	%xmm1, %xmm2
	pxor	%xmm0, %xmm13
	movdqa	%xmm0, %xmm1
	movdqa	%xmm13, %xmm0
	psrld	$12, %xmm0
	pslld	$20, %xmm13
	por	%xmm0, %xmm13
	paddd	544(%rsp), %xmm3
	paddd	%xmm13, %xmm3
	movdqa	%xmm3, 144(%rsp)
	movdqa	%xmm2, %xmm0
	pxor	%xmm3, %xmm0
	movdqa	.L1_v2_CPI62_7(%rip), %xmm2
	pshufb	%xmm2, %xmm0
	movdqa	%xmm0, 160(%rsp)
	paddd	%xmm0, %xmm1
	movdqa	%xmm1, 256(%rsp)
	pxor	%xmm1, %xmm13
	movdqa	%xmm13, %xmm0
	psrld	$7, %xmm0
	pslld	$25, %xmm13
	por	%xmm0, %xmm13
	movdqa	32(%rsp), %xmm0
	paddd	512(%rsp), %xmm0
	paddd	%xmm4, %xmm0
	movdqa	%xmm0, 32(%rsp)
	movdqa	%xmm9, %xmm1
	pxor	%xmm0, %xmm1
	pshufb	%xmm2, %xmm1
	movdqa	%xmm1, 64(%rsp)
	movdqa	%xmm2, %xmm9
	movdqa	%xmm8, %xmm0
	paddd	%xmm1, %xmm0
	movdqa	%xmm0, 240(%rsp)
	pxor	%xmm0, %xmm4
	movdqa	%xmm4, %xmm0
	psrld	$7, %xmm0
	pslld	$25, %xmm4
	por	%xmm0, %xmm4
	movdqa	%xmm4, 928(%rsp)
	movdqa	48(%rsp), %xmm2
	paddd	608(%rsp), %xmm2
	paddd	%xmm6, %xmm2
	movdqa	272(%rsp), %xmm8
	pxor	%xmm2, %xmm8
	movdqa	.L1_v2_CPI62_5(%rip), %xmm4
	pshufb	%xmm4, %xmm8
	movdqa	176(%rsp), %xmm1
	paddd	%xmm8, %xmm1
	pxor	%xmm1, %xmm6
	movdqa	%xmm6, %xmm0
	psrld	$12, %xmm0
	pslld	$20, %xmm6
	por	%xmm0, %xmm6
	movdqa	96(%rsp), %xmm0
	paddd	624(%rsp), %xmm0
	paddd	%xmm10, %xmm0
	pxor	%xmm0, %xmm7
	movdqa	%xmm0, %xmm3
	pshufb	%xmm4, %xmm7
	movdqa	208(%rsp), %xmm0
	paddd	%xmm7, %xmm0
	pxor	%xmm0, %xmm10
	movdqa	%xmm0, %xmm4
	movdqa	%xmm10, %xmm0
	psrld	$12, %xmm0
	pslld	$20, %xmm10
	por	%xmm0, %xmm10
	paddd	464(%rsp), %xmm3
	paddd	%xmm10, %xmm3
	movdqa	%xmm3, 96(%rsp)
	pxor	%xmm3, %xmm7
	pshufb	%xmm9, %xmm7
	paddd	%xmm7, %xmm4
	movdqa	%xmm4, 208(%rsp)
	pxor	%xmm4, %xmm10
	movdqa	%xmm10, %xmm0
	psrld	$7, %xmm0
	pslld	$25, %xmm10
	por	%xmm0, %xmm10
	movdqa	%xmm2, %xmm0
	paddd	448(%rsp), %xmm0
	movdqa	%xmm6, %xmm2
	paddd	%xmm6, %xmm0
	movdqa	%xmm0, 48(%rsp)
	pxor	%xmm0, %xmm8
	pshufb	%xmm9, %xmm8
	movdqa	%xmm1, %xmm0
	paddd	%xmm8, %xmm0
	pxor	%xmm0, %xmm2
	movdqa	%xmm0, %xmm6
	movdqa	%xmm2, %xmm0
	psrld	$7, %xmm0
	pslld	$25, %xmm2
	por	%xmm0, %xmm2
	movdqa	%xmm2, 368(%rsp)
	movdqa	16(%rsp), %xmm0
	paddd	784(%rsp), %xmm0
	paddd	%xmm11, %xmm0
	movdqa	%xmm0, 16(%rsp)
	movdqa	320(%rsp), %xmm4
	pxor	%xmm0, %xmm4
	movdqa	.L1_v2_CPI62_5(%rip), %xmm3
	pshufb	%xmm3, %xmm4
	movdqa	288(%rsp), %xmm9
	paddd	%xmm4, %xmm9
	pxor	%xmm9, %xmm11
	movdqa	%xmm11, %xmm0
	psrld	$12, %xmm0
	pslld	$20, %xmm11
	por	%xmm0, %xmm11
	movdqa	128(%rsp), %xmm2
	paddd	576(%rsp), %xmm2
	paddd	%xmm12, %xmm2
	movdqa	224(%rsp), %xmm0
	pxor	%xmm2, %xmm0
	pshufb	%xmm3, %xmm0
	movdqa	192(%rsp), %xmm1
	paddd	%xmm0, %xmm1
	movdqa	%xmm0, %xmm3
	pxor	%xmm1, %xmm12
	movdqa	%xmm12, %xmm0
	psrld	$12, %xmm0
	pslld	$20, %xmm12
	por	%xmm0, %xmm12
	paddd	752(%rsp), %xmm2
	paddd	%xmm12, %xmm2
	movdqa	%xmm2, 128(%rsp)
	pxor	%xmm2, %xmm3
	movdqa	.L1_v2_CPI62_7(%rip), %xmm2
	pshufb	%xmm2, %xmm3
	movdqa	%xmm3, 224(%rsp)
	paddd	%xmm3, %xmm1
	movdqa	%xmm1, 192(%rsp)
	pxor	%xmm1, %xmm12
	movdqa	%xmm12, %xmm0
	psrld	$7, %xmm0
	pslld	$25, %xmm12
	por	%xmm0, %xmm12
	movdqa	16(%rsp), %xmm0
	paddd	832(%rsp), %xmm0
	paddd	%xmm11, %xmm0
	movdqa	%xmm0, 16(%rsp)
	pxor	%xmm0, %xmm4
	pshufb	%xmm2, %xmm4
	movdqa	%xmm4, 320(%rsp)
	movdqa	%xmm9, %xmm1
	paddd	%xmm4, %xmm1
	movdqa	%xmm1, 288(%rsp)
	pxor	%xmm1, %xmm11
	movdqa	%xmm11, %xmm0
	psrld	$7, %xmm0
	pslld	$25, %xmm11
	por	%xmm0, %xmm11
	movdqa	(%rsp), %xmm0
	paddd	448(%rsp), %xmm0
	paddd	%xmm11, %xmm0
	movdqa	%xmm0, (%rsp)
	movdqa	64(%rsp), %xmm4
	pxor	%xmm0, %xmm4
	movdqa	.L1_v2_CPI62_5(%rip), %xmm3
	pshufb	%xmm3, %xmm4
	movdqa	%xmm6, %xmm9
	paddd	%xmm4, %xmm9
	movdqa	%xmm4, %xmm6
	pxor	%xmm9, %xmm11
	movdqa	%xmm11, %xmm0
	psrld	$12, %xmm0
	pslld	$20, %xmm11
	por	%xmm0, %xmm11
	movdqa	80(%rsp), %xmm1
	paddd	464(%rsp), %xmm1
	paddd	%xmm12, %xmm1
	movdqa	160(%rsp), %xmm2
	pxor	%xmm1, %xmm2
	pshufb	%xmm3, %xmm2
	movdqa	208(%rsp), %xmm4
	paddd	%xmm2, %xmm4
	pxor	%xmm4, %xmm12
	movdqa	%xmm12, %xmm0
	psrld	$12, %xmm0
	pslld	$20, %xmm12
	por	%xmm0, %xmm12
	paddd	560(%rsp), %xmm1
	paddd	%xmm12, %xmm1
	movdqa	%xmm1, 80(%rsp)
	pxor	%xmm1, %xmm2
	movdqa	.L1_v2_CPI62_7(%rip), %xmm3
	pshufb	%xmm3, %xmm2
	movdqa	%xmm2, 160(%rsp)
	paddd	%xmm2, %xmm4
	movdqa	%xmm4, 208(%rsp)
	pxor	%xmm4, %xmm12
	movdqa	%xmm12, %xmm0
	psrld	$7, %xmm0
	pslld	$25, %xmm12
	por	%xmm0, %xmm12
	movdqa	(%rsp), %xmm0
	paddd	432(%rsp), %xmm0
	paddd	%xmm11, %xmm0
	movdqa	%xmm0, %xmm1
	movdqa	%xmm0, (%rsp)
	movdqa	%xmm6, %xmm0
	pxor	%xmm1, %xmm0
	pshufb	%xmm3, %xmm0
	movdqa	%xmm3, %xmm6
	movdqa	%xmm0, 64(%rsp)
	paddd	%xmm0, %xmm9
	movdqa	%xmm9, 176(%rsp)
	pxor	%xmm9, %xmm11
	movdqa	%xmm11, %xmm0
	psrld	$7, %xmm0
	pslld	$25, %xmm11
	por	%xmm0, %xmm11
	movdqa	32(%rsp), %xmm0
	paddd	640(%rsp), %xmm0
	paddd	%xmm14, %xmm0
	movdqa	%xmm0, 32(%rsp)
	pxor	%xmm0, %xmm8
	movdqa	.L1_v2_CPI62_5(%rip), %xmm2
	pshufb	%xmm2, %xmm8
	movdqa	288(%rsp), %xmm4
	paddd	%xmm8, %xmm4
	pxor	%xmm4, %xmm14
	movdqa	%xmm14, %xmm0
	psrld	$12, %xmm0
	pslld	$20, %xmm14
	por	%xmm0, %xmm14
	movdqa	144(%rsp), %xmm0
	paddd	768(%rsp), %xmm0
	paddd	%xmm5, %xmm0
	pxor	%xmm0, %xmm7
	movdqa	%xmm0, %xmm3
	pshufb	%xmm2, %xmm7
	movdqa	192(%rsp), %xmm0
	paddd	%xmm7, %xmm0
	pxor	%xmm0, %xmm5
	movdqa	%xmm0, %xmm1
	movdqa	%xmm5, %xmm0
	psrld	$12, %xmm0
	pslld	$20, %xmm5
	por	%xmm0, %xmm5
	paddd	880(%rsp), %xmm3
	paddd	%xmm5, %xmm3
	movdqa	%xmm3, 144(%rsp)
	pxor	%xmm3, %xmm7
	pshufb	%xmm6, %xmm7
	paddd	%xmm7, %xmm1
	movdqa	%xmm1, 192(%rsp)
	pxor	%xmm1, %xmm5
	movdqa	%xmm5, %xmm0
	psrld	$7, %xmm0
	pslld	$25, %xmm5
	por	%xmm0, %xmm5
	movdqa	32(%rsp), %xmm0
	paddd	528(%rsp), %xmm0
	paddd	%xmm14, %xmm0
	movdqa	%xmm0, 32(%rsp)
	pxor	%xmm0, %xmm8
	pshufb	%xmm6, %xmm8
	movdqa	%xmm8, 272(%rsp)
	movdqa	%xmm4, %xmm0
	paddd	%xmm8, %xmm0
	movdqa	%xmm0, 288(%rsp)
	pxor	%xmm0, %xmm14
	movdqa	%xmm14, %xmm0
	psrld	$7, %xmm0
	pslld	$25, %xmm14
	por	%xmm0, %xmm14
	movdqa	48(%rsp), %xmm0
	paddd	816(%rsp), %xmm0
	movdqa	928(%rsp), %xmm4
	paddd	%xmm4, %xmm0
	movdqa	%xmm0, 48(%rsp)
	movdqa	320(%rsp), %xmm3
	pxor	%xmm0, %xmm3
	pshufb	%xmm2, %xmm3
	movdqa	112(%rsp), %xmm0
	paddd	%xmm3, %xmm0
	movdqa	%xmm0, 112(%rsp)
	pxor	%xmm0, %xmm4
	movdqa	%xmm4, %xmm0
	psrld	$12, %xmm0
	pslld	$20, %xmm4
	por	%xmm0, %xmm4
	movdqa	96(%rsp), %xmm1
	paddd	800(%rsp), %xmm1
	paddd	%xmm13, %xmm1
	movdqa	224(%rsp), %xmm0
	pxor	%xmm1, %xmm0
	pshufb	%xmm2, %xmm0
	movdqa	304(%rsp), %xmm2
	paddd	%xmm0, %xmm2
	movdqa	%xmm0, %xmm9
	pxor	%xmm2, %xmm13
	movdqa	%xmm13, %xmm0
	psrld	$12, %xmm0
	pslld	$20, %xmm13
	por	%xmm0, %xmm13
	movdqa	%xmm1, %xmm0
	paddd	704(%rsp), %xmm0
	paddd	%xmm13, %xmm0
	movdqa	%xmm0, 96(%rsp)
	movdqa	%xmm9, %xmm1
	pxor	%xmm0, %xmm1
	pshufb	%xmm6, %xmm1
	movdqa	%xmm1, 224(%rsp)
	paddd	%xmm1, %xmm2
	movdqa	%xmm2, 304(%rsp)
	pxor	%xmm2, %xmm13
	movdqa	%xmm13, %xmm0
	psrld	$7, %xmm0
	pslld	$25, %xmm13
	por	%xmm0, %xmm13
	movdqa	48(%rsp), %xmm0
	paddd	672(%rsp), %xmm0
	paddd	%xmm4, %xmm0
	movdqa	%xmm0, 48(%rsp)
	pxor	%xmm0, %xmm3
	pshufb	%xmm6, %xmm3
	movdqa	%xmm3, 320(%rsp)
	movdqa	112(%rsp), %xmm0
	paddd	%xmm3, %xmm0
	movdqa	%xmm0, 112(%rsp)
	movdqa	%xmm4, %xmm1
	pxor	%xmm0, %xmm1
	movdqa	%xmm1, %xmm0
	psrld	$7, %xmm0
	pslld	$25, %xmm1
	por	%xmm0, %xmm1
	movdqa	%xmm1, %xmm4
	movdqa	16(%rsp), %xmm9
	paddd	912(%rsp), %xmm9
	movdqa	368(%rsp), %xmm6
	paddd	%xmm6, %xmm9
	pxor	%xmm9, %xmm15
	movdqa	.L1_v2_CPI62_5(%rip), %xmm8
	pshufb	%xmm8, %xmm15
	movdqa	240(%rsp), %xmm1
	paddd	%xmm15, %xmm1
	pxor	%xmm1, %xmm6
	movdqa	%xmm6, %xmm0
	psrld	$12, %xmm0
	pslld	$20, %xmm6
	por	%xmm0, %xmm6
	movdqa	128(%rsp), %xmm0
	paddd	896(%rsp), %xmm0
	paddd	%xmm10, %xmm0
	movdqa	384(%rsp), %xmm3
	pxor	%xmm0, %xmm3
	movdqa	%xmm0, %xmm2
	pshufb	%xmm8, %xmm3
	movdqa	256(%rsp), %xmm0
	paddd	%xmm3, %xmm0
	pxor	%xmm0, %xmm10
	movdqa	%xmm0, %xmm8
	movdqa	%xmm10, %xmm0
	psrld	$12, %xmm0
	pslld	$20, %xmm10
	por	%xmm0, %xmm10
	paddd	624(%rsp), %xmm2
	paddd	%xmm10, %xmm2
	movdqa	%xmm2, 128(%rsp)
	pxor	%xmm2, %xmm3
	movdqa	.L1_v2_CPI62_7(%rip), %xmm2
	pshufb	%xmm2, %xmm3
	paddd	%xmm3, %xmm8
	movdqa	%xmm8, 256(%rsp)
	pxor	%xmm8, %xmm10
	movdqa	%xmm10, %xmm0
	psrld	$7, %xmm0
	pslld	$25, %xmm10
	por	%xmm0, %xmm10
	paddd	608(%rsp), %xmm9
	paddd	%xmm6, %xmm9
	movdqa	%xmm9, 16(%rsp)
	pxor	%xmm9, %xmm15
	pshufb	%xmm2, %xmm15
	paddd	%xmm15, %xmm1
	movdqa	%xmm1, 240(%rsp)
	pxor	%xmm1, %xmm6
	movdqa	%xmm6, %xmm0
	psrld	$7, %xmm0
	pslld	$25, %xmm6
	por	%xmm0, %xmm6
	movdqa	(%rsp), %xmm9
	paddd	656(%rsp), %xmm9
	paddd	%xmm14, %xmm9
	pxor	%xmm9, %xmm15
	movdqa	.L1_v2_CPI62_5(%rip), %xmm1
	pshufb	%xmm1, %xmm15
	movdqa	112(%rsp), %xmm8
	paddd	%xmm15, %xmm8
	pxor	%xmm8, %xmm14
	movdqa	%xmm14, %xmm0
	psrld	$12, %xmm0
	pslld	$20, %xmm14
	por	%xmm0, %xmm14
	movdqa	80(%rsp), %xmm0
	paddd	688(%rsp), %xmm0
	paddd	%xmm5, %xmm0
	pxor	%xmm0, %xmm3
	movdqa	%xmm0, %xmm2
	pshufb	%xmm1, %xmm3
	movdqa	304(%rsp), %xmm0
	paddd	%xmm3, %xmm0
	pxor	%xmm0, %xmm5
	movdqa	%xmm0, %xmm1
	movdqa	%xmm5, %xmm0
	psrld	$12, %xmm0
	pslld	$20, %xmm5
	por	%xmm0, %xmm5
	paddd	576(%rsp), %xmm2
	paddd	%xmm5, %xmm2
	movdqa	%xmm2, 80(%rsp)
	pxor	%xmm2, %xmm3
	movdqa	.L1_v2_CPI62_7(%rip), %xmm2
	pshufb	%xmm2, %xmm3
	movdqa	%xmm3, 384(%rsp)
	paddd	%xmm3, %xmm1
	movdqa	%xmm1, 304(%rsp)
	pxor	%xmm1, %xmm5
	movdqa	%xmm5, %xmm0
	psrld	$7, %xmm0
	pslld	$25, %xmm5
	por	%xmm0, %xmm5
	movdqa	%xmm5, 400(%rsp)
	movdqa	%xmm9, %xmm0
	paddd	784(%rsp), %xmm0
	paddd	%xmm14, %xmm0
	movdqa	%xmm0, (%rsp)
	movdqa	%xmm15, %xmm1
	pxor	%xmm0, %xmm1
	pshufb	%xmm2, %xmm1
	movdqa	%xmm2, %xmm5
	movdqa	%xmm1, 352(%rsp)
	paddd	%xmm1, %xmm8
	movdqa	%xmm8, 112(%rsp)
	pxor	%xmm8, %xmm14
	movdqa	%xmm14, %xmm0
	psrld	$7, %xmm0
	pslld	$25, %xmm14
	por	%xmm0, %xmm14
	movdqa	32(%rsp), %xmm9
	paddd	720(%rsp), %xmm9
	paddd	%xmm4, %xmm9
	movdqa	64(%rsp), %xmm3
	pxor	%xmm9, %xmm3
	movdqa	.L1_v2_CPI62_5(%rip), %xmm1
	pshufb	%xmm1, %xmm3
	movdqa	240(%rsp), %xmm8
	paddd	%xmm3, %xmm8
	pxor	%xmm8, %xmm4
	movdqa	%xmm4, %xmm0
	psrld	$12, %xmm0
	pslld	$20, %xmm4
	por	%xmm0, %xmm4
	movdqa	144(%rsp), %xmm15
	paddd	736(%rsp), %xmm15
	paddd	%xmm13, %xmm15
	movdqa	160(%rsp), %xmm2
	pxor	%xmm15, %xmm2
	pshufb	%xmm1, %xmm2
	movdqa	256(%rsp), %xmm0
	paddd	%xmm2, %xmm0
	pxor	%xmm0, %xmm13
	movdqa	%xmm0, %xmm1
	movdqa	%xmm13, %xmm0
	psrld	$12, %xmm0
	pslld	$20, %xmm13
	por	%xmm0, %xmm13
	paddd	416(%rsp), %xmm15
	paddd	%xmm13, %xmm15
	pxor	%xmm15, %xmm2
	pshufb	%xmm5, %xmm2
	paddd	%xmm2, %xmm1
	movdqa	%xmm1, 256(%rsp)
	pxor	%xmm1, %xmm13
	movdqa	%xmm13, %xmm0
	psrld	$7, %xmm0
	pslld	$25, %xmm13
	por	%xmm0, %xmm13
	movdqa	%xmm9, %xmm0
	paddd	592(%rsp), %xmm0
	paddd	%xmm4, %xmm0
	movdqa	%xmm0, 32(%rsp)
	pxor	%xmm0, %xmm3
	pshufb	%xmm5, %xmm3
	movdqa	%xmm8, %xmm0
	paddd	%xmm3, %xmm0
	movdqa	%xmm0, 240(%rsp)
	pxor	%xmm0, %xmm4
	movdqa	%xmm4, %xmm0
	psrld	$7, %xmm0
	pslld	$25, %xmm4
	por	%xmm0, %xmm4
	movdqa	%xmm4, 928(%rsp)
	movdqa	48(%rsp), %xmm0
	paddd	848(%rsp), %xmm0
	paddd	%xmm6, %xmm0
	movdqa	%xmm0, 48(%rsp)
	movdqa	272(%rsp), %xmm1
	pxor	%xmm0, %xmm1
	movdqa	.L1_v2_CPI62_5(%rip), %xmm4
	pshufb	%xmm4, %xmm1
	movdqa	176(%rsp), %xmm9
	paddd	%xmm1, %xmm9
	pxor	%xmm9, %xmm6
	movdqa	%xmm6, %xmm0
	psrld	$12, %xmm0
	pslld	$20, %xmm6
	por	%xmm0, %xmm6
	movdqa	96(%rsp), %xmm0
	paddd	864(%rsp), %xmm0
	paddd	%xmm10, %xmm0
	pxor	%xmm0, %xmm7
	movdqa	%xmm0, %xmm8
	pshufb	%xmm4, %xmm7
	movdqa	208(%rsp), %xmm0
	paddd	%xmm7, %xmm0
	pxor	%xmm0, %xmm10
	movdqa	%xmm0, %xmm4
	movdqa	%xmm10, %xmm0
	psrld	$12, %xmm0
	pslld	$20, %xmm10
	por	%xmm0, %xmm10
	paddd	544(%rsp), %xmm8
	paddd	%xmm10, %xmm8
	movdqa	%xmm8, 96(%rsp)
	pxor	%xmm8, %xmm7
	pshufb	%xmm5, %xmm7
	movdqa	%xmm7, 336(%rsp)
	paddd	%xmm7, %xmm4
	movdqa	%xmm4, 208(%rsp)
	pxor	%xmm4, %xmm10
	movdqa	%xmm10, %xmm0
	psrld	$7, %xmm0
	pslld	$25, %xmm10
	por	%xmm0, %xmm10
	movdqa	%xmm10, 976(%rsp)
	movdqa	48(%rsp), %xmm0
	paddd	512(%rsp), %xmm0
	paddd	%xmm6, %xmm0
	movdqa	%xmm0, 48(%rsp)
	pxor	%xmm0, %xmm1
	pshufb	%xmm5, %xmm1
	movdqa	%xmm1, 272(%rsp)
	paddd	%xmm1, %xmm9
	movdqa	%xmm9, 176(%rsp)
	pxor	%xmm9, %xmm6
	movdqa	%xmm6, %xmm0
	psrld	$7, %xmm0
	pslld	$25, %xmm6
	por	%xmm0, %xmm6
	movdqa	%xmm6, 368(%rsp)
	movdqa	832(%rsp), %xmm5
	movdqa	16(%rsp), %xmm0
	paddd	%xmm5, %xmm0
	paddd	%xmm11, %xmm0
	movdqa	%xmm0, 16(%rsp)
	movdqa	320(%rsp), %xmm1
	pxor	%xmm0, %xmm1
	movdqa	.L1_v2_CPI62_5(%rip), %xmm4
	pshufb	%xmm4, %xmm1
	movdqa	288(%rsp), %xmm9
	paddd	%xmm1, %xmm9
	pxor	%xmm9, %xmm11
	movdqa	%xmm11, %xmm0
	psrld	$12, %xmm0
	pslld	$20, %xmm11
	por	%xmm0, %xmm11
	movdqa	752(%rsp), %xmm8
	movdqa	128(%rsp), %xmm0
	paddd	%xmm8, %xmm0
	paddd	%xmm12, %xmm0
	movdqa	224(%rsp), %xmm7
	pxor	%xmm0, %xmm7
	movdqa	%xmm0, %xmm10
	pshufb	%xmm4, %xmm7
	movdqa	192(%rsp), %xmm0
	paddd	%xmm7, %xmm0
	pxor	%xmm0, %xmm12
	movdqa	%xmm0, %xmm4
	movdqa	%xmm12, %xmm0
	psrld	$12, %xmm0
	pslld	$20, %xmm12
	por	%xmm0, %xmm12
	paddd	480(%rsp), %xmm10
	paddd	%xmm12, %xmm10
	movdqa	%xmm10, 128(%rsp)
	pxor	%xmm10, %xmm7
	movdqa	.L1_v2_CPI62_7(%rip), %xmm6
	pshufb	%xmm6, %xmm7
	paddd	%xmm7, %xmm4
	movdqa	%xmm4, 192(%rsp)
	pxor	%xmm4, %xmm12
	movdqa	%xmm12, %xmm0
	psrld	$7, %xmm0
	pslld	$25, %xmm12
	por	%xmm0, %xmm12
	movdqa	16(%rsp), %xmm0
	paddd	496(%rsp), %xmm0
	paddd	%xmm11, %xmm0
	movdqa	%xmm0, 16(%rsp)
	pxor	%xmm0, %xmm1
	pshufb	%xmm6, %xmm1
	movdqa	%xmm9, %xmm10
	paddd	%xmm1, %xmm10
	movdqa	%xmm1, %xmm6
	pxor	%xmm10, %xmm11
	movdqa	%xmm11, %xmm0
	psrld	$7, %xmm0
	pslld	$25, %xmm11
	por	%xmm0, %xmm11
	movdqa	80(%rsp), %xmm1
	paddd	%xmm8, %xmm1
	movdqa	(%rsp), %xmm0
	paddd	%xmm5, %xmm0
	paddd	%xmm11, %xmm0
	pxor	%xmm0, %xmm3
	movdqa	%xmm0, %xmm5
	movdqa	.L1_v2_CPI62_5(%rip), %xmm9
	pshufb	%xmm9, %xmm3
	movdqa	176(%rsp), %xmm4
	paddd	%xmm3, %xmm4
	pxor	%xmm4, %xmm11
	movdqa	%xmm11, %xmm0
	psrld	$12, %xmm0
	pslld	$20, %xmm11
	por	%xmm0, %xmm11
	paddd	%xmm12, %xmm1
	pxor	%xmm1, %xmm2
	pshufb	%xmm9, %xmm2
	movdqa	208(%rsp), %xmm0
	paddd	%xmm2, %xmm0
	pxor	%xmm0, %xmm12
	movdqa	%xmm0, %xmm8
	movdqa	%xmm12, %xmm0
	psrld	$12, %xmm0
	pslld	$20, %xmm12
	por	%xmm0, %xmm12
	paddd	784(%rsp), %xmm5
	paddd	576(%rsp), %xmm1
	paddd	%xmm12, %xmm1
	movdqa	%xmm1, 80(%rsp)
	pxor	%xmm1, %xmm2
	movdqa	%xmm2, %xmm0
	movdqa	.L1_v2_CPI62_7(%rip), %xmm2
	pshufb	%xmm2, %xmm0
	movdqa	%xmm0, 160(%rsp)
	paddd	%xmm0, %xmm8
	movdqa	%xmm8, 208(%rsp)
	pxor	%xmm8, %xmm12
	movdqa	%xmm12, %xmm0
	psrld	$7, %xmm0
	pslld	$25, %xmm12
	por	%xmm0, %xmm12
	movdqa	%xmm12, 960(%rsp)
	paddd	%xmm11, %xmm5
	movdqa	%xmm5, (%rsp)
	pxor	%xmm5, %xmm3
	pshufb	%xmm2, %xmm3
	movdqa	%xmm3, 64(%rsp)
	movdqa	%xmm2, %xmm12
	paddd	%xmm3, %xmm4
	movdqa	%xmm4, 176(%rsp)
	pxor	%xmm4, %xmm11
	movdqa	%xmm11, %xmm0
	psrld	$7, %xmm0
	pslld	$25, %xmm11
	por	%xmm0, %xmm11
	movdqa	%xmm11, 944(%rsp)
	paddd	624(%rsp), %xmm15
	movdqa	32(%rsp), %xmm0
	paddd	608(%rsp), %xmm0
	paddd	%xmm14, %xmm0
	movdqa	272(%rsp), %xmm11
	pxor	%xmm0, %xmm11
	movdqa	%xmm0, %xmm8
	movdqa	%xmm9, %xmm2
	pshufb	%xmm9, %xmm11
	paddd	%xmm11, %xmm10
	pxor	%xmm10, %xmm14
	movdqa	%xmm14, %xmm0
	psrld	$12, %xmm0
	pslld	$20, %xmm14
	por	%xmm0, %xmm14
	movdqa	400(%rsp), %xmm9
	paddd	%xmm9, %xmm15
	movdqa	336(%rsp), %xmm3
	pxor	%xmm15, %xmm3
	pshufb	%xmm2, %xmm3
	movdqa	%xmm2, %xmm4
	movdqa	192(%rsp), %xmm0
	paddd	%xmm3, %xmm0
	pxor	%xmm0, %xmm9
	movdqa	%xmm0, %xmm2
	movdqa	%xmm9, %xmm0
	psrld	$12, %xmm0
	pslld	$20, %xmm9
	por	%xmm0, %xmm9
	paddd	512(%rsp), %xmm8
	paddd	544(%rsp), %xmm15
	paddd	%xmm9, %xmm15
	movdqa	%xmm15, 144(%rsp)
	pxor	%xmm15, %xmm3
	pshufb	%xmm12, %xmm3
	movdqa	%xmm3, 336(%rsp)
	paddd	%xmm3, %xmm2
	movdqa	%xmm2, 192(%rsp)
	pxor	%xmm2, %xmm9
	movdqa	%xmm9, %xmm0
	psrld	$7, %xmm0
	pslld	$25, %xmm9
	por	%xmm0, %xmm9
	paddd	%xmm14, %xmm8
	movdqa	%xmm8, 32(%rsp)
	movdqa	%xmm11, %xmm1
	pxor	%xmm8, %xmm1
	pshufb	%xmm12, %xmm1
	movdqa	%xmm1, 272(%rsp)
	paddd	%xmm1, %xmm10
	movdqa	%xmm10, 288(%rsp)
	pxor	%xmm10, %xmm14
	movdqa	%xmm14, %xmm0
	psrld	$7, %xmm0
	pslld	$25, %xmm14
	por	%xmm0, %xmm14
	movdqa	96(%rsp), %xmm8
	paddd	416(%rsp), %xmm8
	movdqa	48(%rsp), %xmm10
	paddd	592(%rsp), %xmm10
	movdqa	928(%rsp), %xmm1
	paddd	%xmm1, %xmm10
	pxor	%xmm10, %xmm6
	pshufb	%xmm4, %xmm6
	movdqa	112(%rsp), %xmm11
	paddd	%xmm6, %xmm11
	pxor	%xmm11, %xmm1
	movdqa	%xmm1, %xmm0
	psrld	$12, %xmm0
	pslld	$20, %xmm1
	por	%xmm0, %xmm1
	paddd	%xmm13, %xmm8
	pxor	%xmm8, %xmm7
	pshufb	%xmm4, %xmm7
	movdqa	304(%rsp), %xmm0
	paddd	%xmm7, %xmm0
	pxor	%xmm0, %xmm13
	movdqa	%xmm0, %xmm5
	movdqa	%xmm13, %xmm0
	psrld	$12, %xmm0
	pslld	$20, %xmm13
	por	%xmm0, %xmm13
	paddd	448(%rsp), %xmm10
	movdqa	%xmm8, %xmm0
	paddd	464(%rsp), %xmm0
	paddd	%xmm13, %xmm0
	movdqa	%xmm0, 96(%rsp)
	pxor	%xmm0, %xmm7
	pshufb	%xmm12, %xmm7
	movdqa	%xmm7, 224(%rsp)
	paddd	%xmm7, %xmm5
	pxor	%xmm5, %xmm13
	movdqa	%xmm13, %xmm0
	psrld	$7, %xmm0
	pslld	$25, %xmm13
	por	%xmm0, %xmm13
	paddd	%xmm1, %xmm10
	movdqa	%xmm10, 48(%rsp)
	pxor	%xmm10, %xmm6
	pshufb	%xmm12, %xmm6
	movdqa	%xmm6, 320(%rsp)
	paddd	%xmm6, %xmm11
	movdqa	%xmm1, %xmm8
	pxor	%xmm11, %xmm8
	movdqa	%xmm8, %xmm0
	psrld	$7, %xmm0
	pslld	$25, %xmm8
	por	%xmm0, %xmm8
	movdqa	128(%rsp), %xmm1
	paddd	864(%rsp), %xmm1
	movdqa	16(%rsp), %xmm2
	paddd	848(%rsp), %xmm2
	movdqa	368(%rsp), %xmm12
	paddd	%xmm12, %xmm2
	movdqa	352(%rsp), %xmm15
	pxor	%xmm2, %xmm15
	movdqa	%xmm4, %xmm10
	pshufb	%xmm4, %xmm15
	movdqa	240(%rsp), %xmm7
	paddd	%xmm15, %xmm7
	pxor	%xmm7, %xmm12
	movdqa	%xmm12, %xmm0
	psrld	$12, %xmm0
	pslld	$20, %xmm12
	por	%xmm0, %xmm12
	movdqa	976(%rsp), %xmm4
	paddd	%xmm4, %xmm1
	movdqa	384(%rsp), %xmm3
	pxor	%xmm1, %xmm3
	pshufb	%xmm10, %xmm3
	movdqa	256(%rsp), %xmm0
	paddd	%xmm3, %xmm0
	movdqa	%xmm3, %xmm10
	pxor	%xmm0, %xmm4
	movdqa	%xmm0, %xmm6
	movdqa	%xmm4, %xmm0
	psrld	$12, %xmm0
	pslld	$20, %xmm4
	por	%xmm0, %xmm4
	paddd	496(%rsp), %xmm2
	paddd	480(%rsp), %xmm1
	paddd	%xmm4, %xmm1
	movdqa	%xmm1, 128(%rsp)
	movdqa	%xmm4, %xmm3
	pxor	%xmm1, %xmm10
	movdqa	.L1_v2_CPI62_7(%rip), %xmm1
	pshufb	%xmm1, %xmm10
	paddd	%xmm10, %xmm6
	pxor	%xmm6, %xmm3
	movdqa	%xmm3, %xmm0
	psrld	$7, %xmm0
	pslld	$25, %xmm3
	por	%xmm0, %xmm3
	paddd	%xmm12, %xmm2
	movdqa	%xmm2, 16(%rsp)
	pxor	%xmm2, %xmm15
	pshufb	%xmm1, %xmm15
	movdqa	%xmm7, %xmm1
	paddd	%xmm15, %xmm1
	pxor	%xmm1, %xmm12
	movdqa	%xmm12, %xmm0
	psrld	$7, %xmm0
	pslld	$25, %xmm12
	por	%xmm0, %xmm12
	movdqa	80(%rsp), %xmm7
	paddd	560(%rsp), %xmm7
	movdqa	(%rsp), %xmm0
	paddd	432(%rsp), %xmm0
	paddd	%xmm14, %xmm0
	pxor	%xmm0, %xmm15
	movdqa	%xmm0, %xmm4
	movdqa	.L1_v2_CPI62_5(%rip), %xmm2
	pshufb	%xmm2, %xmm15
	paddd	%xmm15, %xmm11
	pxor	%xmm11, %xmm14
	movdqa	%xmm14, %xmm0
	psrld	$12, %xmm0
	pslld	$20, %xmm14
	por	%xmm0, %xmm14
	paddd	%xmm9, %xmm7
	pxor	%xmm7, %xmm10
	pshufb	%xmm2, %xmm10
	paddd	%xmm10, %xmm5
	pxor	%xmm5, %xmm9
	movdqa	%xmm9, %xmm0
	psrld	$12, %xmm0
	pslld	$20, %xmm9
	por	%xmm0, %xmm9
	paddd	816(%rsp), %xmm4
	movdqa	%xmm7, %xmm0
	paddd	800(%rsp), %xmm0
	paddd	%xmm9, %xmm0
	movdqa	%xmm0, 80(%rsp)
	pxor	%xmm0, %xmm10
	movdqa	.L1_v2_CPI62_7(%rip), %xmm7
	pshufb	%xmm7, %xmm10
	paddd	%xmm10, %xmm5
	movdqa	%xmm5, 304(%rsp)
	pxor	%xmm5, %xmm9
	movdqa	%xmm9, %xmm0
	psrld	$7, %xmm0
	pslld	$25, %xmm9
	por	%xmm0, %xmm9
	movdqa	%xmm9, 400(%rsp)
	paddd	%xmm14, %xmm4
	movdqa	%xmm4, (%rsp)
	movdqa	%xmm15, %xmm2
	pxor	%xmm4, %xmm2
	pshufb	%xmm7, %xmm2
	movdqa	%xmm2, 352(%rsp)
	paddd	%xmm2, %xmm11
	movdqa	%xmm11, 112(%rsp)
	pxor	%xmm11, %xmm14
	movdqa	%xmm14, %xmm0
	psrld	$7, %xmm0
	pslld	$25, %xmm14
	por	%xmm0, %xmm14
	movdqa	%xmm14, 384(%rsp)
	movdqa	144(%rsp), %xmm15
	paddd	880(%rsp), %xmm15
	movdqa	32(%rsp), %xmm0
	paddd	528(%rsp), %xmm0
	paddd	%xmm8, %xmm0
	movdqa	64(%rsp), %xmm11
	pxor	%xmm0, %xmm11
	movdqa	%xmm0, %xmm4
	movdqa	.L1_v2_CPI62_5(%rip), %xmm14
	pshufb	%xmm14, %xmm11
	paddd	%xmm11, %xmm1
	pxor	%xmm1, %xmm8
	movdqa	%xmm8, %xmm0
	psrld	$12, %xmm0
	pslld	$20, %xmm8
	por	%xmm0, %xmm8
	paddd	%xmm13, %xmm15
	movdqa	160(%rsp), %xmm9
	pxor	%xmm15, %xmm9
	pshufb	%xmm14, %xmm9
	paddd	%xmm9, %xmm6
	pxor	%xmm6, %xmm13
	movdqa	%xmm13, %xmm0
	psrld	$12, %xmm0
	pslld	$20, %xmm13
	por	%xmm0, %xmm13
	paddd	640(%rsp), %xmm4
	movdqa	%xmm15, %xmm0
	paddd	768(%rsp), %xmm0
	paddd	%xmm13, %xmm0
	movdqa	%xmm0, 144(%rsp)
	pxor	%xmm0, %xmm9
	pshufb	%xmm7, %xmm9
	movdqa	%xmm9, 160(%rsp)
	paddd	%xmm9, %xmm6
	movdqa	%xmm6, 256(%rsp)
	pxor	%xmm6, %xmm13
	movdqa	%xmm13, %xmm0
	psrld	$7, %xmm0
	pslld	$25, %xmm13
	por	%xmm0, %xmm13
	movdqa	%xmm13, 368(%rsp)
	movdqa	%xmm8, %xmm5
	paddd	%xmm8, %xmm4
	movdqa	%xmm4, 32(%rsp)
	movdqa	%xmm11, %xmm6
	pxor	%xmm4, %xmm6
	pshufb	%xmm7, %xmm6
	movdqa	%xmm6, 64(%rsp)
	movdqa	%xmm7, %xmm8
	paddd	%xmm6, %xmm1
	movdqa	%xmm1, 240(%rsp)
	pxor	%xmm1, %xmm5
	movdqa	%xmm5, %xmm0
	psrld	$7, %xmm0
	pslld	$25, %xmm5
	por	%xmm0, %xmm5
	movdqa	%xmm5, 928(%rsp)
	movdqa	96(%rsp), %xmm15
	paddd	704(%rsp), %xmm15
	movdqa	48(%rsp), %xmm7
	paddd	672(%rsp), %xmm7
	paddd	%xmm12, %xmm7
	movdqa	272(%rsp), %xmm11
	pxor	%xmm7, %xmm11
	movdqa	%xmm7, %xmm4
	pshufb	%xmm14, %xmm11
	movdqa	176(%rsp), %xmm1
	paddd	%xmm11, %xmm1
	pxor	%xmm1, %xmm12
	movdqa	%xmm12, %xmm0
	psrld	$12, %xmm0
	pslld	$20, %xmm12
	por	%xmm0, %xmm12
	movdqa	%xmm3, %xmm13
	paddd	%xmm3, %xmm15
	movdqa	336(%rsp), %xmm9
	pxor	%xmm15, %xmm9
	pshufb	%xmm14, %xmm9
	movdqa	208(%rsp), %xmm0
	paddd	%xmm9, %xmm0
	pxor	%xmm0, %xmm13
	movdqa	%xmm0, %xmm2
	movdqa	%xmm13, %xmm0
	psrld	$12, %xmm0
	pslld	$20, %xmm13
	por	%xmm0, %xmm13
	paddd	656(%rsp), %xmm4
	movdqa	%xmm15, %xmm0
	paddd	688(%rsp), %xmm0
	paddd	%xmm13, %xmm0
	movdqa	%xmm0, 96(%rsp)
	pxor	%xmm0, %xmm9
	pshufb	%xmm8, %xmm9
	paddd	%xmm9, %xmm2
	movdqa	%xmm2, 208(%rsp)
	pxor	%xmm2, %xmm13
	movdqa	%xmm13, %xmm0
	psrld	$7, %xmm0
	pslld	$25, %xmm13
	por	%xmm0, %xmm13
	paddd	%xmm12, %xmm4
	movdqa	%xmm4, 48(%rsp)
	movdqa	%xmm11, %xmm2
	pxor	%xmm4, %xmm2
	pshufb	%xmm8, %xmm2
	movdqa	%xmm2, 272(%rsp)
	movdqa	%xmm8, %xmm15
	movdqa	%xmm1, %xmm0
	paddd	%xmm2, %xmm0
	pxor	%xmm0, %xmm12
	movdqa	%xmm0, %xmm11
	movdqa	%xmm12, %xmm0
	psrld	$7, %xmm0
	pslld	$25, %xmm12
	por	%xmm0, %xmm12
	movdqa	128(%rsp), %xmm6
	paddd	736(%rsp), %xmm6
	movdqa	16(%rsp), %xmm5
	paddd	720(%rsp), %xmm5
	movdqa	944(%rsp), %xmm2
	paddd	%xmm2, %xmm5
	movdqa	960(%rsp), %xmm7
	paddd	%xmm7, %xmm6
	movdqa	224(%rsp), %xmm4
	pxor	%xmm6, %xmm4
	movdqa	320(%rsp), %xmm3
	pxor	%xmm5, %xmm3
	pshufb	%xmm14, %xmm4
	pshufb	%xmm14, %xmm3
	movdqa	288(%rsp), %xmm8
	paddd	%xmm3, %xmm8
	pxor	%xmm8, %xmm2
	movdqa	%xmm8, %xmm14
	movdqa	%xmm2, %xmm0
	psrld	$12, %xmm0
	pslld	$20, %xmm2
	por	%xmm0, %xmm2
	movdqa	192(%rsp), %xmm8
	paddd	%xmm4, %xmm8
	pxor	%xmm8, %xmm7
	movdqa	%xmm7, %xmm1
	psrld	$12, %xmm1
	pslld	$20, %xmm7
	por	%xmm1, %xmm7
	paddd	912(%rsp), %xmm5
	paddd	896(%rsp), %xmm6
	paddd	%xmm7, %xmm6
	movdqa	%xmm7, %xmm1
	paddd	%xmm2, %xmm5
	pxor	%xmm5, %xmm3
	pxor	%xmm6, %xmm4
	pshufb	%xmm15, %xmm3
	pshufb	%xmm15, %xmm4
	paddd	%xmm4, %xmm8
	pxor	%xmm8, %xmm1
	movdqa	%xmm1, %xmm0
	psrld	$7, %xmm0
	pslld	$25, %xmm1
	por	%xmm0, %xmm1
	movdqa	%xmm14, %xmm15
	paddd	%xmm3, %xmm15
	pxor	%xmm15, %xmm2
	movdqa	%xmm2, %xmm0
	psrld	$7, %xmm0
	pslld	$25, %xmm2
	por	%xmm0, %xmm2
	movdqa	(%rsp), %xmm7
	pxor	1216(%rsp), %xmm7
	movaps	80(%rsp), %xmm0
	xorps	1184(%rsp), %xmm0
	xorps	208(%rsp), %xmm0
	movaps	%xmm0, 80(%rsp)
	pxor	%xmm11, %xmm7
	movdqa	%xmm7, (%rsp)
	movdqa	32(%rsp), %xmm11
	pxor	1152(%rsp), %xmm11
	movdqa	144(%rsp), %xmm14
	pxor	1120(%rsp), %xmm14
	pxor	%xmm8, %xmm14
	pxor	%xmm15, %xmm11
	movaps	48(%rsp), %xmm7
	xorps	1088(%rsp), %xmm7
	movaps	96(%rsp), %xmm15
	xorps	1056(%rsp), %xmm15
	xorps	304(%rsp), %xmm15
	xorps	112(%rsp), %xmm7
	pxor	1024(%rsp), %xmm5
	pxor	992(%rsp), %xmm6
	pxor	256(%rsp), %xmm6
	pxor	240(%rsp), %xmm5
	movdqa	160(%rsp), %xmm8
	pxor	1200(%rsp), %xmm8
	pxor	%xmm1, %xmm8
	movdqa	64(%rsp), %xmm1
	pxor	1232(%rsp), %xmm1
	pxor	%xmm2, %xmm1
	movdqa	%xmm1, %xmm2
	pxor	1136(%rsp), %xmm9
	pxor	400(%rsp), %xmm9
	movaps	272(%rsp), %xmm0
	xorps	1168(%rsp), %xmm0
	xorps	384(%rsp), %xmm0
	pxor	1072(%rsp), %xmm4
	pxor	368(%rsp), %xmm4
	pxor	1104(%rsp), %xmm3
	pxor	928(%rsp), %xmm3
	pxor	1008(%rsp), %xmm10
	pxor	%xmm13, %xmm10
	movdqa	352(%rsp), %xmm1
	pxor	1040(%rsp), %xmm1
	pxor	%xmm12, %xmm1
	movaps	(%rsp), %xmm12
	movups	%xmm12, 16(%rdi)
	movaps	80(%rsp), %xmm12
	movups	%xmm12, (%rdi)
	movdqu	%xmm11, 48(%rdi)
	movdqu	%xmm14, 32(%rdi)
	movups	%xmm7, 80(%rdi)
	movups	%xmm15, 64(%rdi)
	movdqu	%xmm5, 112(%rdi)
	movdqu	%xmm6, 96(%rdi)
	movdqu	%xmm2, 144(%rdi)
	movdqu	%xmm8, 128(%rdi)
	movups	%xmm0, 176(%rdi)
	movdqu	%xmm9, 160(%rdi)
	movdqu	%xmm3, 208(%rdi)
	movdqu	%xmm4, 192(%rdi)
	movdqu	%xmm1, 240(%rdi)
	movdqu	%xmm10, 224(%rdi)
	addq	$1248, %rsp
	popq	%rbx
	retq
	vj_end	blake2_compress..many..blake2s..compress_each_1_v2

	vj_function	blake2_parallel..lanes..blake2sp..outputs_of_1_v2
	pushq	%rbp
	pushq	%r15
	pushq	%r14
	pushq	%r13
	pushq	%r12
	pushq	%rbx
	subq	$56, %rsp
	movl	64(%rsi), %ebp
	movl	96(%rsi), %r14d
	movdqu	128(%rsi), %xmm2
	movl	192(%rsi), %r11d
	movl	224(%rsi), %ebx
	movdqu	(%rsi), %xmm0
	movdqu	16(%rsi), %xmm4
	movups	32(%rsi), %xmm1
	movaps	%xmm1, 16(%rsp)
	movdqa	%xmm0, %xmm9
	pinsrd	$1, 32(%rsi), %xmm9
	pinsrd	$2, %ebp, %xmm9
	pinsrd	$3, %r14d, %xmm9
	movups	48(%rsi), %xmm1
	movaps	%xmm1, 32(%rsp)
	movdqa	%xmm2, %xmm5
	pinsrd	$1, 160(%rsi), %xmm5
	movzbl	248(%rsi), %eax
	movb	%al, 15(%rsp)
	movzbl	244(%rsi), %eax
	movb	%al, 14(%rsp)
	movdqu	240(%rsi), %xmm1
	movzbl	240(%rsi), %r8d
	movups	64(%rsi), %xmm12
	movdqu	160(%rsi), %xmm14
	movups	192(%rsi), %xmm11
	movzbl	104(%rsi), %r12d
	movzbl	100(%rsi), %eax
	movzbl	232(%rsi), %r15d
	movzbl	228(%rsi), %ecx
	movdqu	112(%rsi), %xmm3
	movdqu	96(%rsi), %xmm15
	movdqu	224(%rsi), %xmm13
	movups	80(%rsi), %xmm7
	movdqu	176(%rsi), %xmm10
	movl	252(%rsi), %edx
	movzbl	120(%rsi), %r9d
	movzbl	116(%rsi), %r10d
	movzbl	112(%rsi), %r13d
	movdqu	144(%rsi), %xmm8
	movups	208(%rsi), %xmm6
	movq	%xmm9, (%rdi)
	movl	%ebp, 8(%rdi)
	movb	%r14b, 12(%rdi)
	pextrb	$13, %xmm9, 13(%rdi)
	pextrb	$14, %xmm9, 14(%rdi)
	pextrb	$15, %xmm9, 15(%rdi)
	pinsrd	$2, %r11d, %xmm5
	pinsrd	$3, %ebx, %xmm5
	movq	%xmm5, 16(%rdi)
	movl	%r11d, 24(%rdi)
	movb	%bl, 28(%rdi)
	pextrb	$13, %xmm5, 29(%rdi)
	pextrb	$14, %xmm5, 30(%rdi)
	pextrb	$15, %xmm5, 31(%rdi)
	pshufd	$85, %xmm0, %xmm5
	movdqa	16(%rsp), %xmm9
	pblendw	$12, %xmm9, %xmm5
	movq	%xmm5, 32(%rdi)
	extractps	$1, %xmm12, 40(%rdi)
	movb	%al, 44(%rdi)
	pextrb	$5, %xmm15, 45(%rdi)
	pshufd	$85, %xmm2, %xmm5
	pblendw	$12, %xmm14, %xmm5
	pextrb	$6, %xmm15, 46(%rdi)
	pextrb	$7, %xmm15, 47(%rdi)
	movq	%xmm5, 48(%rdi)
	extractps	$1, %xmm11, 56(%rdi)
	movb	%cl, 60(%rdi)
	pextrb	$5, %xmm13, 61(%rdi)
	punpckhdq	%xmm9, %xmm0
	pextrb	$6, %xmm13, 62(%rdi)
	pextrb	$7, %xmm13, 63(%rdi)
	movq	%xmm0, 64(%rdi)
	extractps	$2, %xmm12, 72(%rdi)
	movb	%r12b, 76(%rdi)
	pextrb	$9, %xmm15, 77(%rdi)
	punpckhdq	%xmm14, %xmm2
	pextrb	$10, %xmm15, 78(%rdi)
	pextrb	$11, %xmm15, 79(%rdi)
	movq	%xmm2, 80(%rdi)
	extractps	$2, %xmm11, 88(%rdi)
	movb	%r15b, 92(%rdi)
	pextrb	$9, %xmm13, 93(%rdi)
	pextrb	$10, %xmm13, 94(%rdi)
	pextrb	$11, %xmm13, 95(%rdi)
	pextrq	$1, %xmm0, 96(%rdi)
	extractps	$3, %xmm12, 104(%rdi)
	pextrb	$12, %xmm15, 108(%rdi)
	pextrb	$13, %xmm15, 109(%rdi)
	pextrb	$14, %xmm15, 110(%rdi)
	pextrb	$15, %xmm15, 111(%rdi)
	pextrq	$1, %xmm2, 112(%rdi)
	extractps	$3, %xmm11, 120(%rdi)
	pextrb	$12, %xmm13, 124(%rdi)
	pextrb	$13, %xmm13, 125(%rdi)
	pextrb	$14, %xmm13, 126(%rdi)
	pextrb	$15, %xmm13, 127(%rdi)
	movdqa	%xmm4, %xmm0
	movdqa	32(%rsp), %xmm2
	punpckldq	%xmm2, %xmm0
	movq	%xmm0, 128(%rdi)
	movss	%xmm7, 136(%rdi)
	movb	%r13b, 140(%rdi)
	pextrb	$1, %xmm3, 141(%rdi)
	pextrb	$2, %xmm3, 142(%rdi)
	pextrb	$3, %xmm3, 143(%rdi)
	movdqa	%xmm8, %xmm0
	punpckldq	%xmm10, %xmm0
	movq	%xmm0, 144(%rdi)
	movss	%xmm6, 152(%rdi)
	movb	%r8b, 156(%rdi)
	pextrb	$1, %xmm1, 157(%rdi)
	pextrb	$2, %xmm1, 158(%rdi)
	pextrb	$3, %xmm1, 159(%rdi)
	pshufd	$85, %xmm4, %xmm0
	pblendw	$12, %xmm2, %xmm0
	movq	%xmm0, 160(%rdi)
	pshufd	$85, %xmm8, %xmm0
	extractps	$1, %xmm7, 168(%rdi)
	movb	%r10b, 172(%rdi)
	pextrb	$5, %xmm3, 173(%rdi)
	pblendw	$12, %xmm10, %xmm0
	pextrb	$6, %xmm3, 174(%rdi)
	pextrb	$7, %xmm3, 175(%rdi)
	movq	%xmm0, 176(%rdi)
	extractps	$1, %xmm6, 184(%rdi)
	movzbl	14(%rsp), %eax
	movb	%al, 188(%rdi)
	pextrb	$5, %xmm1, 189(%rdi)
	punpckhdq	%xmm2, %xmm4
	pextrb	$6, %xmm1, 190(%rdi)
	pextrb	$7, %xmm1, 191(%rdi)
	movq	%xmm4, 192(%rdi)
	extractps	$2, %xmm7, 200(%rdi)
	movb	%r9b, 204(%rdi)
	pextrb	$9, %xmm3, 205(%rdi)
	punpckhdq	%xmm10, %xmm8
	pextrb	$10, %xmm3, 206(%rdi)
	pextrb	$11, %xmm3, 207(%rdi)
	movq	%xmm8, 208(%rdi)
	extractps	$2, %xmm6, 216(%rdi)
	movzbl	15(%rsp), %eax
	movb	%al, 220(%rdi)
	pextrb	$9, %xmm1, 221(%rdi)
	pextrb	$10, %xmm1, 222(%rdi)
	pextrb	$11, %xmm1, 223(%rdi)
	pextrq	$1, %xmm4, 224(%rdi)
	extractps	$3, %xmm7, 232(%rdi)
	pextrb	$12, %xmm3, 236(%rdi)
	pextrb	$13, %xmm3, 237(%rdi)
	pextrb	$14, %xmm3, 238(%rdi)
	pextrb	$15, %xmm3, 239(%rdi)
	shufps	$254, %xmm6, %xmm8
	pinsrd	$3, %edx, %xmm8
	movq	%xmm8, 240(%rdi)
	extractps	$3, %xmm6, 248(%rdi)
	movb	%dl, 252(%rdi)
	pextrb	$13, %xmm8, 253(%rdi)
	pextrb	$14, %xmm8, 254(%rdi)
	pextrb	$15, %xmm8, 255(%rdi)
	addq	$56, %rsp
	popq	%rbx
	popq	%r12
	popq	%r13
	popq	%r14
	popq	%r15
	popq	%rbp
	retq
	vj_end	blake2_parallel..lanes..blake2sp..outputs_of_1_v2

	vj_function	blake2_ffi..blake2sp..initialize_1_v2
	pushq	%rbp
	pushq	%r15
	pushq	%r14
	pushq	%r13
	pushq	%r12
	pushq	%rbx
	subq	$1640, %rsp
	movq	%r9, 24(%rsp)
	movq	%r8, %r12
	movq	%rcx, %r13
	movq	%rdx, %rbp
	movq	%rsi, %r14
	movq	%rdi, 16(%rsp)
	leaq	32(%rsp), %r15
	xorl	%ebx, %ebx
	movl	$1608, %edx
	movq	%r15, %rdi
	xorl	%esi, %esi
	vj_c_call	memset
	movaps	1696(%rsp), %xmm0
	movups	%xmm0, (%rsp)
	movq	%r15, %rdi
	movq	%r14, %rsi
	movq	%rbp, %rdx
	movq	%r13, %rcx
	movq	%r12, %r8
	movq	24(%rsp), %r9
	callq	blake2_parallel..blake2sp..State..init_salt_personal_1_v2
	cmpb	$0, 32(%rsp)
	je	1f
	movl	$1600, %edx
	movq	16(%rsp), %rdi
	xorl	%esi, %esi
	vj_c_call	memset
	movl	$-1, %ebx
	jmp	2f
1:
	leaq	40(%rsp), %rsi
	movl	$1600, %edx
	movq	16(%rsp), %rdi
	vj_c_call	memcpy
2:
	movl	%ebx, %eax
	addq	$1640, %rsp
	popq	%rbx
	popq	%r12
	popq	%r13
	popq	%r14
	popq	%r15
	popq	%rbp
	retq
	vj_end	blake2_ffi..blake2sp..initialize_1_v2

	vj_constants	16
	.p2align	4, 0x0
.L1_v2_CPI65_0:
	.long	1359893119
	.long	2600822924
	.long	528734635
	.long	1541459225
.L1_v2_CPI65_1:
	.zero	2
	.zero	2
	.zero	2
	.zero	2
	.short	0
	.short	0
	.short	0
	.short	8193
.L1_v2_CPI65_2:
	.long	1779033703
	.long	3144134277
	.long	1013904242
	.long	2773480762
.L1_v2_CPI65_3:
	.zero	2
	.zero	2
	.zero	2
	.zero	2
	.short	0
	.short	0
	.short	0
	.short	8192
.L1_v2_CPI65_4:
	.long	1013904243
	.long	1013904240
	.long	1013904241
	.long	1013904246
	vj_function	blake2_parallel..blake2sp..State..init_salt_personal_1_v2
	pushq	%rbp
	pushq	%r15
	pushq	%r14
	pushq	%r13
	pushq	%r12
	pushq	%rbx
	subq	$1768, %rsp
	movq	%r8, %r14
	movq	%rcx, %r15
	movq	%rdx, %r8
	movq	%rdi, %rbx
	movq	1832(%rsp), %r13
	leaq	-1(%rsi), %rax
	cmpq	$32, %rax
	setb	%al
	cmpq	$33, %rcx
	setb	%cl
	cmpq	$9, %r9
	setb	%dl
	andb	%cl, %dl
	andb	%al, %dl
	cmpq	$9, %r13
	setb	%al
	testb	%al, %dl
	je	1f
	movq	%r9, %rbp
	movq	%rsi, (%rsp)
	movq	1824(%rsp), %r12
	xorps	%xmm0, %xmm0
	movaps	%xmm0, 288(%rsp)
	leaq	288(%rsp), %rdi
	movq	%r14, %rsi
	movq	%r9, %rdx
	movq	%r8, 80(%rsp)
	vj_c_call	memcpy
	leaq	296(%rsp), %rdi
	movq	%r12, %rsi
	movq	%r13, %rdx
	vj_c_call	memcpy
	movaps	288(%rsp), %xmm0
	movaps	%xmm0, 96(%rsp)
	xorps	%xmm0, %xmm0
	movaps	%xmm0, 288(%rsp)
	leaq	288(%rsp), %rdi
	movq	%r14, %rsi
	movq	%rbp, %rdx
	vj_c_call	memcpy
	leaq	296(%rsp), %rdi
	movq	%r12, %rsi
	movq	%r13, %rdx
	vj_c_call	memcpy
	movaps	288(%rsp), %xmm0
	movaps	%xmm0, 112(%rsp)
	xorps	%xmm0, %xmm0
	movaps	%xmm0, 16(%rsp)
	movaps	%xmm0, 32(%rsp)
	movaps	%xmm0, 48(%rsp)
	movaps	%xmm0, 64(%rsp)
	leaq	16(%rsp), %rdi
	movq	80(%rsp), %rsi
	movq	%r15, %rdx
	vj_c_call	memcpy
	testq	%r15, %r15
	je	2f
	movaps	16(%rsp), %xmm0
	movaps	32(%rsp), %xmm1
	movaps	48(%rsp), %xmm2
	movaps	64(%rsp), %xmm3
	movaps	%xmm3, 336(%rsp)
	movaps	%xmm2, 320(%rsp)
	movaps	%xmm1, 304(%rsp)
	movaps	%xmm0, 288(%rsp)
	movaps	%xmm0, 352(%rsp)
	movaps	%xmm1, 368(%rsp)
	movaps	%xmm2, 384(%rsp)
	movaps	%xmm3, 400(%rsp)
	movaps	%xmm0, 416(%rsp)
	movaps	%xmm1, 432(%rsp)
	movaps	%xmm2, 448(%rsp)
	movaps	%xmm3, 464(%rsp)
	movaps	%xmm0, 480(%rsp)
	movaps	%xmm1, 496(%rsp)
	movaps	%xmm2, 512(%rsp)
	movaps	%xmm3, 528(%rsp)
	movaps	16(%rsp), %xmm0
	movaps	32(%rsp), %xmm1
	movaps	48(%rsp), %xmm2
	movaps	64(%rsp), %xmm3
	movaps	%xmm3, 592(%rsp)
	movaps	%xmm2, 576(%rsp)
	movaps	%xmm1, 560(%rsp)
	movaps	%xmm0, 544(%rsp)
	movaps	%xmm3, 656(%rsp)
	movaps	%xmm2, 640(%rsp)
	movaps	%xmm1, 624(%rsp)
	movaps	%xmm0, 608(%rsp)
	movaps	%xmm3, 720(%rsp)
	movaps	%xmm2, 704(%rsp)
	movaps	%xmm1, 688(%rsp)
	movaps	%xmm0, 672(%rsp)
	movaps	%xmm3, 784(%rsp)
	movaps	%xmm2, 768(%rsp)
	movaps	%xmm1, 752(%rsp)
	movaps	%xmm0, 736(%rsp)
	leaq	1320(%rsp), %rdi
	movl	$448, %edx
	xorl	%esi, %esi
	vj_c_call	memset
	leaq	808(%rsp), %rdi
	leaq	288(%rsp), %rsi
	movl	$512, %r14d
	movl	$512, %edx
	vj_c_call	memcpy
	jmp	3f
1:
	movb	$1, (%rbx)
	addq	$8, %rbx
	movl	$1600, %edx
	movq	%rbx, %rdi
	xorl	%esi, %esi
	addq	$1768, %rsp
	popq	%rbx
	popq	%r12
	popq	%r13
	popq	%r14
	popq	%r15
	popq	%rbp
	vj_c_jump	memset
2:
	leaq	808(%rsp), %rdi
	xorl	%r14d, %r14d
	movl	$960, %edx
	xorl	%esi, %esi
	vj_c_call	memset
3:
	movq	(%rsp), %r12
	movdqa	.L1_v2_CPI65_0(%rip), %xmm0
	movdqa	112(%rsp), %xmm1
	pxor	%xmm0, %xmm1
	movdqa	%xmm1, 112(%rsp)
	shll	$8, %r15d
	leal	(%r15,%r12), %eax
	addl	$34078720, %eax
	movd	%eax, %xmm1
	pmovzxdq	%xmm1, %xmm5
	movdqa	.L1_v2_CPI65_1(%rip), %xmm2
	pblendw	$15, %xmm5, %xmm2
	movdqa	.L1_v2_CPI65_2(%rip), %xmm1
	pxor	%xmm1, %xmm2
	movdqa	%xmm2, (%rsp)
	pblendw	$240, .L1_v2_CPI65_3(%rip), %xmm5
	pxor	%xmm1, %xmm5
	movdqa	%xmm5, 176(%rsp)
	movaps	16(%rsp), %xmm1
	movaps	32(%rsp), %xmm2
	movaps	48(%rsp), %xmm3
	movaps	64(%rsp), %xmm4
	movaps	%xmm1, 224(%rsp)
	movaps	%xmm2, 240(%rsp)
	movaps	%xmm3, 256(%rsp)
	movaps	%xmm4, 272(%rsp)
	movb	$0, (%rbx)
	pshufd	$0, %xmm5, %xmm1
	movdqa	%xmm1, 80(%rsp)
	movdqu	%xmm1, 8(%rbx)
	movdqu	%xmm1, 24(%rbx)
	pshufd	$85, %xmm5, %xmm1
	movdqa	%xmm1, 208(%rsp)
	movdqu	%xmm1, 40(%rbx)
	movdqu	%xmm1, 56(%rbx)
	pextrd	$2, %xmm5, 72(%rbx)
	movdqa	96(%rsp), %xmm1
	pxor	%xmm0, %xmm1
	movaps	.L1_v2_CPI65_4(%rip), %xmm0
	movups	%xmm0, 76(%rbx)
	movabsq	$4354685570269508471, %r15
	movq	%r15, 92(%rbx)
	movl	$1013904245, 100(%rbx)
	pshufd	$255, %xmm5, %xmm0
	movdqa	%xmm0, 96(%rsp)
	movdqu	%xmm0, 104(%rbx)
	movdqu	%xmm0, 120(%rbx)
	pshufd	$0, %xmm1, %xmm0
	movdqa	%xmm0, 192(%rsp)
	movdqu	%xmm0, 136(%rbx)
	movdqu	%xmm0, 152(%rbx)
	pshufd	$85, %xmm1, %xmm0
	movdqa	%xmm0, 160(%rsp)
	movdqu	%xmm0, 168(%rbx)
	movdqu	%xmm0, 184(%rbx)
	pshufd	$170, %xmm1, %xmm0
	movdqa	%xmm0, 144(%rsp)
	movdqu	%xmm0, 200(%rbx)
	movdqu	%xmm0, 216(%rbx)
	pshufd	$255, %xmm1, %xmm0
	movdqa	%xmm0, 128(%rsp)
	movdqu	%xmm0, 232(%rbx)
	movdqu	%xmm0, 248(%rbx)
	movq	$0, 264(%rbx)
	movq	%r14, 272(%rbx)
	leaq	280(%rbx), %rdi
	leaq	808(%rsp), %rsi
	movl	$960, %edx
	vj_c_call	memcpy
	movaps	80(%rsp), %xmm0
	movups	%xmm0, 1240(%rbx)
	movups	%xmm0, 1256(%rbx)
	movaps	208(%rsp), %xmm0
	movups	%xmm0, 1272(%rbx)
	movups	%xmm0, 1288(%rbx)
	movaps	176(%rsp), %xmm0
	extractps	$2, %xmm0, 1304(%rbx)
	movaps	.L1_v2_CPI65_4(%rip), %xmm0
	movups	%xmm0, 1308(%rbx)
	movq	%r15, 1324(%rbx)
	movl	$1013904245, 1332(%rbx)
	movaps	96(%rsp), %xmm0
	movups	%xmm0, 1336(%rbx)
	movups	%xmm0, 1352(%rbx)
	movaps	192(%rsp), %xmm0
	movups	%xmm0, 1368(%rbx)
	movups	%xmm0, 1384(%rbx)
	movaps	160(%rsp), %xmm0
	movups	%xmm0, 1400(%rbx)
	movups	%xmm0, 1416(%rbx)
	movaps	144(%rsp), %xmm0
	movups	%xmm0, 1432(%rbx)
	movups	%xmm0, 1448(%rbx)
	movaps	128(%rsp), %xmm0
	movups	%xmm0, 1464(%rbx)
	movups	%xmm0, 1480(%rbx)
	movaps	(%rsp), %xmm0
	movups	%xmm0, 1496(%rbx)
	movaps	112(%rsp), %xmm0
	movups	%xmm0, 1512(%rbx)
	movq	%r14, 1528(%rbx)
	movq	%r12, 1536(%rbx)
	movaps	224(%rsp), %xmm0
	movaps	240(%rsp), %xmm1
	movaps	256(%rsp), %xmm2
	movaps	272(%rsp), %xmm3
	movups	%xmm3, 1592(%rbx)
	movups	%xmm2, 1576(%rbx)
	movups	%xmm1, 1560(%rbx)
	movups	%xmm0, 1544(%rbx)
	addq	$1768, %rsp
	popq	%rbx
	popq	%r12
	popq	%r13
	popq	%r14
	popq	%r15
	popq	%rbp
	retq
	vj_end	blake2_parallel..blake2sp..State..init_salt_personal_1_v2

	vj_function	blake2_ffi..blake2sp..reset_in_frame_1_v2
	pushq	%r15
	pushq	%r14
	pushq	%rbx
	subq	$1728, %rsp
	movq	%rdi, %rbx
	leaq	1232(%rdi), %r14
	movq	1520(%rdi), %r15
	testq	%r15, %r15
	je	1f
	movups	1536(%rbx), %xmm0
	movups	1552(%rbx), %xmm1
	movups	1568(%rbx), %xmm2
	movups	1584(%rbx), %xmm3
	movaps	%xmm3, 48(%rsp)
	movaps	%xmm2, 32(%rsp)
	movaps	%xmm1, 16(%rsp)
	movaps	%xmm0, (%rsp)
	movups	1536(%rbx), %xmm0
	movups	1552(%rbx), %xmm1
	movups	1568(%rbx), %xmm2
	movups	1584(%rbx), %xmm3
	movaps	%xmm3, 112(%rsp)
	movaps	%xmm2, 96(%rsp)
	movaps	%xmm1, 80(%rsp)
	movaps	%xmm0, 64(%rsp)
	movups	1536(%rbx), %xmm0
	movups	1552(%rbx), %xmm1
	movups	1568(%rbx), %xmm2
	movups	1584(%rbx), %xmm3
	movaps	%xmm0, 128(%rsp)
	movaps	%xmm1, 144(%rsp)
	movaps	%xmm2, 160(%rsp)
	movaps	%xmm3, 176(%rsp)
	movups	1536(%rbx), %xmm0
	movups	1552(%rbx), %xmm1
	movups	1568(%rbx), %xmm2
	movaps	%xmm0, 192(%rsp)
	movaps	%xmm1, 208(%rsp)
	movaps	%xmm2, 224(%rsp)
	movups	1584(%rbx), %xmm0
	movaps	%xmm0, 240(%rsp)
	movups	1536(%rbx), %xmm0
	movups	1552(%rbx), %xmm1
	movups	1568(%rbx), %xmm2
	movups	1584(%rbx), %xmm3
	movaps	%xmm0, 256(%rsp)
	movaps	%xmm1, 272(%rsp)
	movaps	%xmm2, 288(%rsp)
	movaps	%xmm3, 304(%rsp)
	movups	1536(%rbx), %xmm0
	movups	1552(%rbx), %xmm1
	movups	1568(%rbx), %xmm2
	movups	1584(%rbx), %xmm3
	movaps	%xmm0, 320(%rsp)
	movaps	%xmm1, 336(%rsp)
	movaps	%xmm2, 352(%rsp)
	movaps	%xmm3, 368(%rsp)
	movups	1536(%rbx), %xmm0
	movups	1552(%rbx), %xmm1
	movups	1568(%rbx), %xmm2
	movups	1584(%rbx), %xmm3
	movaps	%xmm0, 384(%rsp)
	movaps	%xmm1, 400(%rsp)
	movaps	%xmm3, 432(%rsp)
	movaps	%xmm2, 416(%rsp)
	movups	1536(%rbx), %xmm0
	movups	1552(%rbx), %xmm1
	movups	1568(%rbx), %xmm2
	movups	1584(%rbx), %xmm3
	movaps	%xmm0, 448(%rsp)
	movaps	%xmm1, 464(%rsp)
	movaps	%xmm3, 496(%rsp)
	movaps	%xmm2, 480(%rsp)
	leaq	1280(%rsp), %rdi
	movl	$448, %edx
	xorl	%esi, %esi
	vj_c_call	memset
	leaq	768(%rsp), %rdi
	movq	%rsp, %rsi
	movl	$512, %edx
	vj_c_call	memcpy
	leaq	512(%rsp), %rdi
	movl	$256, %edx
	movq	%r14, %rsi
	vj_c_call	memcpy
	jmp	2f
1:
	leaq	512(%rsp), %rdi
	movl	$256, %edx
	movq	%r14, %rsi
	vj_c_call	memcpy
	leaq	768(%rsp), %rdi
	movl	$960, %edx
	xorl	%esi, %esi
	vj_c_call	memset
2:
	leaq	512(%rsp), %rsi
	movl	$256, %edx
	movq	%rbx, %rdi
	vj_c_call	memcpy
	movq	$0, 256(%rbx)
	movq	%r15, 264(%rbx)
	addq	$272, %rbx
	leaq	768(%rsp), %rsi
	movl	$960, %edx
	movq	%rbx, %rdi
	vj_c_call	memcpy
	addq	$1728, %rsp
	popq	%rbx
	popq	%r14
	popq	%r15
	retq
	vj_end	blake2_ffi..blake2sp..reset_in_frame_1_v2

	vj_function	blake2_ffi..blake2sp..update_scrubbed_1_v2
	pushq	%rax
	callq	blake2_ffi..blake2sp..update_in_frame_1_v2
	popq	%rax
	jmp	blake2_digest..wiping..scrub_stack..3072_1_v2
	vj_end	blake2_ffi..blake2sp..update_scrubbed_1_v2

	vj_function	blake2_ffi..blake2sp..update_in_frame_1_v2
	vj_jump	blake2_parallel..lanes..blake2sp..Lanes..update_1_v2
	vj_end	blake2_ffi..blake2sp..update_in_frame_1_v2

	vj_shared	blake2_parallel..lanes..blake2sp..Lanes..update_1_v2
	pushq	%rbp
	pushq	%r15
	pushq	%r14
	pushq	%r13
	pushq	%r12
	pushq	%rbx
	subq	$264, %rsp
	movq	%rdx, %rbx
	movq	%rsi, %r15
	movq	%rdi, %r14
	movq	264(%rdi), %r13
	movl	$960, %eax
	subq	%r13, %rax
	cmpq	%rdx, %rax
	jb	11f
1:
	leaq	(%r14,%r13), %rdi
	addq	$272, %rdi
	movq	%rdi, %rax
	subq	%r15, %rax
	cmpq	%rbx, %rax
	jae	20f
	cmpq	$4, %rbx
	jb	2f
	leaq	(%r14,%r13), %rax
	subq	%r15, %rax
	addq	$272, %rax
	cmpq	$32, %rax
	jae	22f
2:
	xorl	%eax, %eax
3:
	movq	%rbx, %rdx
	movq	%rax, %rcx
	andq	$3, %rdx
	je	5f
	movq	%rax, %rcx
	.p2align	4
4:
	movzbl	(%r15,%rcx), %esi
	movb	%sil, (%rdi,%rcx)
	incq	%rcx
	decq	%rdx
	jne	4b
5:
	subq	%rbx, %rax
	cmpq	$-4, %rax
	ja	21f
	leaq	(%r14,%r13), %rax
	addq	$275, %rax
	.p2align	4
6:
	movzbl	(%r15,%rcx), %edx
	movb	%dl, -3(%rax,%rcx)
	movzbl	1(%r15,%rcx), %edx
	movb	%dl, -2(%rax,%rcx)
	movzbl	2(%r15,%rcx), %edx
	movb	%dl, -1(%rax,%rcx)
	movzbl	3(%r15,%rcx), %edx
	movb	%dl, (%rax,%rcx)
	addq	$4, %rcx
	cmpq	%rcx, %rbx
	jne	6b
	jmp	21f
7:
	movq	%r15, %rsi
	movq	%r12, %rdx
	vj_c_call	memmove
8:
	subq	%r12, %rbx
	addq	%r12, %r15
	movq	$512, 264(%r14)
9:
	movq	%r14, %rdi
	callq	blake2_parallel..lanes..blake2sp..Lanes..compress_held_1_v2
10:
	movq	264(%r14), %r13
	movl	$960, %eax
	subq	%r13, %rax
	cmpq	%rbx, %rax
	jae	1b
11:
	testq	%r13, %r13
	je	12f
	cmpq	$511, %r13
	ja	9b
	movl	$512, %r12d
	subq	%r13, %r12
	leaq	272(%r14), %rax
	leaq	(%rax,%r13), %rdi
	movq	%rdi, %rax
	subq	%r15, %rax
	cmpq	%r12, %rax
	jae	7b
	cmpq	$508, %r13
	jbe	13f
	xorl	%eax, %eax
	jmp	19f
	.p2align	4
12:
	leaq	-449(%rbx), %rbp
	movq	%rbp, %r12
	shrq	$9, %r12
	movups	(%r14), %xmm0
	movups	16(%r14), %xmm1
	movups	32(%r14), %xmm2
	movups	48(%r14), %xmm3
	movups	80(%r14), %xmm4
	movups	64(%r14), %xmm5
	movups	112(%r14), %xmm6
	movups	96(%r14), %xmm7
	movups	144(%r14), %xmm8
	movups	128(%r14), %xmm9
	movups	176(%r14), %xmm10
	movups	160(%r14), %xmm11
	movups	208(%r14), %xmm12
	movups	192(%r14), %xmm13
	movups	224(%r14), %xmm14
	movups	240(%r14), %xmm15
	movaps	%xmm0, (%rsp)
	movaps	%xmm1, 16(%rsp)
	movaps	%xmm2, 32(%rsp)
	movaps	%xmm3, 48(%rsp)
	movaps	%xmm5, 64(%rsp)
	movaps	%xmm4, 80(%rsp)
	movaps	%xmm7, 96(%rsp)
	movaps	%xmm6, 112(%rsp)
	movaps	%xmm9, 128(%rsp)
	movaps	%xmm8, 144(%rsp)
	movaps	%xmm11, 160(%rsp)
	movaps	%xmm10, 176(%rsp)
	movaps	%xmm13, 192(%rsp)
	movaps	%xmm12, 208(%rsp)
	movaps	%xmm15, 240(%rsp)
	movaps	%xmm14, 224(%rsp)
	movq	256(%r14), %r13
	movq	%rsp, %rdi
	movq	%r15, %rsi
	movq	%r13, %rdx
	movq	%r12, %rcx
	callq	blake2_parallel..lanes..blake2sp..compress_in_lanes_1_v2
	movaps	(%rsp), %xmm0
	movups	%xmm0, (%r14)
	movaps	16(%rsp), %xmm0
	movups	%xmm0, 16(%r14)
	movaps	32(%rsp), %xmm0
	movups	%xmm0, 32(%r14)
	movaps	48(%rsp), %xmm0
	movups	%xmm0, 48(%r14)
	movaps	64(%rsp), %xmm0
	movups	%xmm0, 64(%r14)
	movaps	80(%rsp), %xmm0
	movups	%xmm0, 80(%r14)
	movaps	96(%rsp), %xmm0
	movups	%xmm0, 96(%r14)
	movaps	112(%rsp), %xmm0
	movups	%xmm0, 112(%r14)
	movaps	128(%rsp), %xmm0
	movups	%xmm0, 128(%r14)
	movaps	144(%rsp), %xmm0
	movups	%xmm0, 144(%r14)
	movaps	160(%rsp), %xmm0
	movups	%xmm0, 160(%r14)
	movaps	176(%rsp), %xmm0
	movups	%xmm0, 176(%r14)
	movaps	192(%rsp), %xmm0
	movups	%xmm0, 192(%r14)
	movaps	208(%rsp), %xmm0
	movups	%xmm0, 208(%r14)
	movaps	224(%rsp), %xmm0
	movups	%xmm0, 224(%r14)
	movaps	240(%rsp), %xmm0
	movups	%xmm0, 240(%r14)
	shlq	$6, %r12
	addq	%r13, %r12
	movq	%r12, 256(%r14)
	andq	$-512, %rbp
	addq	%rbp, %r15
	subq	%rbp, %rbx
	jmp	10b
13:
	cmpq	$32, %rax
	jae	14f
	xorl	%eax, %eax
	jmp	19f
14:
	cmpq	$480, %r13
	jbe	15f
	xorl	%eax, %eax
	jmp	17f
15:
	movl	%r12d, %eax
	andl	$-32, %eax
	leaq	288(%r14), %rcx
	addq	%rcx, %r13
	xorl	%ecx, %ecx
	.p2align	4
16:
	movups	(%r15,%rcx), %xmm0
	movups	16(%r15,%rcx), %xmm1
	movups	%xmm0, -16(%r13,%rcx)
	movups	%xmm1, (%r13,%rcx)
	addq	$32, %rcx
	cmpq	%rcx, %rax
	jne	16b
	cmpl	%eax, %r12d
	je	8b
	testb	$28, %r12b
	je	19f
17:
	movq	%rax, %rcx
	movl	%r12d, %eax
	andl	$-4, %eax
	.p2align	4
18:
	movl	(%r15,%rcx), %edx
	movl	%edx, (%rdi,%rcx)
	addq	$4, %rcx
	cmpq	%rcx, %rax
	jne	18b
	cmpl	%eax, %r12d
	je	8b
	.p2align	4
19:
	movzbl	(%r15,%rax), %ecx
	movb	%cl, (%rdi,%rax)
	incq	%rax
	cmpq	%rax, %r12
	jne	19b
	jmp	8b
20:
	movq	%r15, %rsi
	movq	%rbx, %rdx
	vj_c_call	memmove
21:
	addq	%rbx, %r13
	movq	%r13, 264(%r14)
	addq	$264, %rsp
	popq	%rbx
	popq	%r12
	popq	%r13
	popq	%r14
	popq	%r15
	popq	%rbp
	retq
22:
	cmpq	$32, %rbx
	jae	23f
	xorl	%eax, %eax
	jmp	25f
23:
	movq	%rbx, %rax
	andq	$-32, %rax
	leaq	(%r14,%r13), %rcx
	addq	$288, %rcx
	xorl	%edx, %edx
	.p2align	4
24:
	movups	(%r15,%rdx), %xmm0
	movups	16(%r15,%rdx), %xmm1
	movups	%xmm0, -16(%rcx,%rdx)
	movups	%xmm1, (%rcx,%rdx)
	addq	$32, %rdx
	cmpq	%rdx, %rax
	jne	24b
	cmpq	%rax, %rbx
	je	21b
	testb	$28, %bl
	je	3b
25:
	movq	%rax, %rcx
	movq	%rbx, %rax
	andq	$-4, %rax
	.p2align	4
26:
	movl	(%r15,%rcx), %edx
	movl	%edx, (%rdi,%rcx)
	addq	$4, %rcx
	cmpq	%rcx, %rax
	jne	26b
	cmpq	%rax, %rbx
	je	21b
	jmp	3b
	vj_end	blake2_parallel..lanes..blake2sp..Lanes..update_1_v2

	vj_constants	16
	.p2align	4, 0x0
.L1_v2_CPI70_0:
	.byte	2
	.byte	3
	.byte	0
	.byte	1
	.byte	6
	.byte	7
	.byte	4
	.byte	5
	.byte	10
	.byte	11
	.byte	8
	.byte	9
	.byte	14
	.byte	15
	.byte	12
	.byte	13
.L1_v2_CPI70_1:
	.long	1779033703
	.long	1779033703
	.long	1779033703
	.long	1779033703
.L1_v2_CPI70_2:
	.byte	1
	.byte	2
	.byte	3
	.byte	0
	.byte	5
	.byte	6
	.byte	7
	.byte	4
	.byte	9
	.byte	10
	.byte	11
	.byte	8
	.byte	13
	.byte	14
	.byte	15
	.byte	12
.L1_v2_CPI70_3:
	.long	3144134277
	.long	3144134277
	.long	3144134277
	.long	3144134277
.L1_v2_CPI70_4:
	.long	528734635
	.long	528734635
	.long	528734635
	.long	528734635
.L1_v2_CPI70_5:
	.long	1013904242
	.long	1013904242
	.long	1013904242
	.long	1013904242
.L1_v2_CPI70_6:
	.long	1541459225
	.long	1541459225
	.long	1541459225
	.long	1541459225
.L1_v2_CPI70_7:
	.long	2773480762
	.long	2773480762
	.long	2773480762
	.long	2773480762
	vj_function	blake2_parallel..lanes..blake2sp..compress_in_lanes_1_v2
	subq	$1208, %rsp
	movdqu	(%rdi), %xmm6
	movdqu	16(%rdi), %xmm9
	movdqu	32(%rdi), %xmm13
	movdqu	48(%rdi), %xmm10
	movdqu	80(%rdi), %xmm14
	movdqu	64(%rdi), %xmm3
	movups	112(%rdi), %xmm8
	movups	96(%rdi), %xmm1
	movdqu	144(%rdi), %xmm7
	movdqu	128(%rdi), %xmm5
	movdqu	176(%rdi), %xmm4
	movdqu	160(%rdi), %xmm11
	movdqu	208(%rdi), %xmm2
	movdqu	192(%rdi), %xmm15
	movdqu	240(%rdi), %xmm0
	movdqu	224(%rdi), %xmm12
	testq	%rcx, %rcx
	movdqa	%xmm9, 1072(%rsp)
	je	2f
	addq	$64, %rdx
	addq	$496, %rsi
	movdqa	%xmm9, 80(%rsp)
	movdqa	%xmm6, 1088(%rsp)
	movdqa	%xmm6, 32(%rsp)
	movdqa	%xmm10, 1120(%rsp)
	movdqa	%xmm10, 128(%rsp)
	movdqa	%xmm13, 1104(%rsp)
	movdqa	%xmm13, 16(%rsp)
	movdqa	%xmm14, 1152(%rsp)
	movdqa	%xmm14, 96(%rsp)
	movdqa	%xmm3, 1136(%rsp)
	movdqa	%xmm3, 48(%rsp)
	movaps	%xmm8, 1184(%rsp)
	movaps	%xmm8, (%rsp)
	movaps	%xmm1, 1168(%rsp)
	movaps	%xmm1, 64(%rsp)
	movdqa	%xmm12, 1056(%rsp)
	movdqa	%xmm15, 1024(%rsp)
	movdqa	%xmm0, 1040(%rsp)
	movdqa	%xmm11, 992(%rsp)
	movdqa	%xmm2, 1008(%rsp)
	movdqa	%xmm5, 960(%rsp)
	movdqa	%xmm4, 976(%rsp)
	movdqa	%xmm7, 944(%rsp)
	.p2align	4
1:
	movdqu	-496(%rsi), %xmm12
	movdqu	-432(%rsi), %xmm0
	movdqa	%xmm12, %xmm7
	punpckldq	%xmm0, %xmm7
	punpckhdq	%xmm0, %xmm12
	movups	-480(%rsi), %xmm1
	movups	-416(%rsi), %xmm0
	movaps	%xmm1, %xmm15
	unpcklps	%xmm0, %xmm15
	unpckhps	%xmm0, %xmm1
	movdqu	-368(%rsi), %xmm2
	movdqu	-304(%rsi), %xmm4
	movdqa	%xmm2, %xmm9
	punpckldq	%xmm4, %xmm9
	punpckhdq	%xmm4, %xmm2
	movups	-352(%rsi), %xmm4
	movups	-288(%rsi), %xmm11
	movaps	%xmm4, %xmm6
	unpckhps	%xmm11, %xmm4
	unpcklps	%xmm11, %xmm6
	movdqu	-240(%rsi), %xmm8
	movdqu	-176(%rsi), %xmm11
	movdqa	%xmm8, %xmm10
	punpckldq	%xmm11, %xmm10
	punpckhdq	%xmm11, %xmm8
	movaps	%xmm1, %xmm0
	unpckhpd	%xmm4, %xmm1
	movaps	%xmm1, 480(%rsp)
	movlhps	%xmm4, %xmm0
	movaps	%xmm0, 864(%rsp)
	movups	-224(%rsi), %xmm0
	movups	-160(%rsi), %xmm4
	movaps	%xmm0, %xmm14
	unpcklps	%xmm4, %xmm14
	unpckhps	%xmm4, %xmm0
	movdqa	%xmm12, %xmm1
	punpckhqdq	%xmm2, %xmm12
	movdqa	%xmm12, 544(%rsp)
	punpcklqdq	%xmm2, %xmm1
	movdqa	%xmm1, 496(%rsp)
	movdqu	-112(%rsi), %xmm11
	movdqu	-48(%rsi), %xmm4
	movdqa	%xmm11, %xmm2
	punpckldq	%xmm4, %xmm2
	punpckhdq	%xmm4, %xmm11
	movups	-96(%rsi), %xmm12
	movups	-32(%rsi), %xmm13
	movaps	%xmm12, %xmm4
	unpcklps	%xmm13, %xmm4
	unpckhps	%xmm13, %xmm12
	movaps	%xmm0, %xmm1
	movlhps	%xmm12, %xmm0
	movaps	%xmm0, 608(%rsp)
	unpckhpd	%xmm12, %xmm1
	movaps	%xmm1, 704(%rsp)
	movdqa	%xmm8, %xmm0
	punpckhqdq	%xmm11, %xmm8
	movdqa	%xmm8, 464(%rsp)
	punpcklqdq	%xmm11, %xmm0
	movdqa	%xmm0, 512(%rsp)
	movups	-464(%rsi), %xmm1
	movups	-400(%rsi), %xmm11
	movaps	%xmm1, %xmm3
	unpcklps	%xmm11, %xmm3
	unpckhps	%xmm11, %xmm1
	movaps	%xmm15, %xmm0
	unpckhpd	%xmm6, %xmm15
	movaps	%xmm15, 448(%rsp)
	movlhps	%xmm6, %xmm0
	movaps	%xmm0, 688(%rsp)
	movups	-448(%rsi), %xmm0
	movups	-384(%rsi), %xmm6
	movaps	%xmm0, %xmm8
	unpcklps	%xmm6, %xmm8
	unpckhps	%xmm6, %xmm0
	movups	-336(%rsi), %xmm12
	movups	-272(%rsi), %xmm11
	movaps	%xmm12, %xmm6
	unpcklps	%xmm11, %xmm6
	unpckhps	%xmm11, %xmm12
	movups	-320(%rsi), %xmm13
	movups	-256(%rsi), %xmm15
	movaps	%xmm13, %xmm11
	unpcklps	%xmm15, %xmm11
	unpckhps	%xmm15, %xmm13
	movaps	%xmm0, %xmm5
	movlhps	%xmm13, %xmm5
	movaps	%xmm5, 560(%rsp)
	unpckhpd	%xmm13, %xmm0
	movaps	%xmm0, 624(%rsp)
	movaps	%xmm1, %xmm0
	movlhps	%xmm12, %xmm0
	movaps	%xmm0, 528(%rsp)
	unpckhpd	%xmm12, %xmm1
	movaps	%xmm1, 848(%rsp)
	movdqa	%xmm7, %xmm0
	movdqa	%xmm7, %xmm12
	punpckhqdq	%xmm9, %xmm0
	movdqa	%xmm0, %xmm5
	movdqa	%xmm0, 816(%rsp)
	punpcklqdq	%xmm9, %xmm12
	movdqa	%xmm12, %xmm9
	movdqa	%xmm12, 912(%rsp)
	movups	-208(%rsi), %xmm15
	movups	-144(%rsi), %xmm0
	movaps	%xmm15, %xmm7
	unpcklps	%xmm0, %xmm7
	unpckhps	%xmm0, %xmm15
	movaps	%xmm14, %xmm0
	movaps	%xmm14, %xmm1
	unpckhpd	%xmm4, %xmm0
	movaps	%xmm0, 432(%rsp)
	movlhps	%xmm4, %xmm1
	movaps	%xmm1, 592(%rsp)
	movups	-192(%rsi), %xmm1
	movups	-128(%rsi), %xmm0
	movaps	%xmm1, %xmm13
	unpcklps	%xmm0, %xmm13
	unpckhps	%xmm0, %xmm1
	movaps	%xmm1, %xmm14
	movdqa	%xmm10, %xmm1
	punpckhqdq	%xmm2, %xmm1
	movdqa	%xmm1, 720(%rsp)
	punpcklqdq	%xmm2, %xmm10
	movdqa	%xmm10, 928(%rsp)
	movups	-80(%rsi), %xmm2
	movups	-16(%rsi), %xmm4
	movaps	%xmm2, %xmm0
	unpcklps	%xmm4, %xmm0
	unpckhps	%xmm4, %xmm2
	movaps	%xmm8, %xmm4
	unpckhpd	%xmm11, %xmm8
	movaps	%xmm8, 784(%rsp)
	movlhps	%xmm11, %xmm4
	movaps	%xmm4, 736(%rsp)
	movups	-64(%rsi), %xmm4
	movups	(%rsi), %xmm11
	movaps	%xmm4, %xmm12
	unpcklps	%xmm11, %xmm12
	unpckhps	%xmm11, %xmm4
	movaps	%xmm3, %xmm8
	unpckhpd	%xmm6, %xmm3
	movaps	%xmm3, 640(%rsp)
	movlhps	%xmm6, %xmm8
	movaps	%xmm8, 672(%rsp)
	movaps	%xmm13, %xmm6
	movlhps	%xmm12, %xmm6
	movaps	%xmm6, 752(%rsp)
	unpckhpd	%xmm12, %xmm13
	movaps	%xmm13, 768(%rsp)
	movaps	%xmm14, %xmm6
	movaps	%xmm14, %xmm1
	movlhps	%xmm4, %xmm1
	movaps	%xmm1, 896(%rsp)
	unpckhpd	%xmm4, %xmm6
	movaps	%xmm6, 576(%rsp)
	movaps	%xmm15, %xmm1
	movlhps	%xmm2, %xmm1
	movaps	%xmm1, 832(%rsp)
	unpckhpd	%xmm2, %xmm15
	movaps	%xmm15, 800(%rsp)
	movaps	%xmm7, %xmm1
	unpckhpd	%xmm0, %xmm7
	movaps	%xmm7, 880(%rsp)
	movlhps	%xmm0, %xmm1
	movaps	%xmm1, 656(%rsp)
	movl	%edx, %eax
	xorl	$1359893119, %eax
	movd	%eax, %xmm0
	pshufd	$0, %xmm0, %xmm14
	movdqa	944(%rsp), %xmm4
	movdqa	80(%rsp), %xmm2
	paddd	%xmm4, %xmm2
	movdqa	%xmm4, 944(%rsp)
	movdqa	960(%rsp), %xmm0
	movdqa	32(%rsp), %xmm7
	paddd	%xmm0, %xmm7
	movdqa	%xmm0, 960(%rsp)
	paddd	%xmm9, %xmm7
	paddd	%xmm10, %xmm2
	movdqa	%xmm2, %xmm1
	movdqa	%xmm2, %xmm9
	pxor	%xmm14, %xmm1
	pxor	%xmm7, %xmm14
	movdqa	.L1_v2_CPI70_0(%rip), %xmm13
	pshufb	%xmm13, %xmm14
	movdqa	.L1_v2_CPI70_1(%rip), %xmm8
	movdqa	%xmm14, %xmm10
	paddd	%xmm8, %xmm10
	movdqa	%xmm10, %xmm2
	pxor	%xmm0, %xmm2
	movdqa	%xmm2, %xmm0
	psrld	$12, %xmm0
	pslld	$20, %xmm2
	por	%xmm0, %xmm2
	pshufb	%xmm13, %xmm1
	paddd	%xmm1, %xmm8
	movdqa	%xmm1, %xmm6
	movdqa	%xmm8, %xmm1
	pxor	%xmm4, %xmm1
	movdqa	%xmm1, %xmm0
	psrld	$12, %xmm0
	pslld	$20, %xmm1
	por	%xmm0, %xmm1
	paddd	720(%rsp), %xmm9
	paddd	%xmm1, %xmm9
	movdqa	%xmm9, 80(%rsp)
	pxor	%xmm9, %xmm6
	movdqa	.L1_v2_CPI70_2(%rip), %xmm15
	pshufb	%xmm15, %xmm6
	movdqa	%xmm6, 416(%rsp)
	paddd	%xmm6, %xmm8
	movdqa	%xmm8, 208(%rsp)
	pxor	%xmm8, %xmm1
	movdqa	%xmm1, %xmm0
	pslld	$25, %xmm1
	psrld	$7, %xmm0
	por	%xmm0, %xmm1
	movdqa	%xmm1, 400(%rsp)
	paddd	%xmm5, %xmm7
	paddd	%xmm2, %xmm7
	movdqa	%xmm7, 32(%rsp)
	pxor	%xmm7, %xmm14
	pshufb	%xmm15, %xmm14
	paddd	%xmm14, %xmm10
	movdqa	%xmm10, 160(%rsp)
	pxor	%xmm10, %xmm2
	movdqa	%xmm2, %xmm0
	psrld	$7, %xmm0
	pslld	$25, %xmm2
	por	%xmm0, %xmm2
	movdqa	%xmm2, 368(%rsp)
	movq	%rdx, %rax
	shrq	$32, %rax
	xorl	$-1694144372, %eax
	movd	%eax, %xmm0
	pshufd	$0, %xmm0, %xmm11
	movdqa	976(%rsp), %xmm8
	movdqa	128(%rsp), %xmm1
	paddd	%xmm8, %xmm1
	movdqa	%xmm8, 976(%rsp)
	movdqa	992(%rsp), %xmm0
	movdqa	16(%rsp), %xmm5
	paddd	%xmm0, %xmm5
	movdqa	%xmm0, 992(%rsp)
	paddd	496(%rsp), %xmm5
	paddd	512(%rsp), %xmm1
	movdqa	%xmm1, %xmm4
	movdqa	%xmm1, %xmm6
	pxor	%xmm11, %xmm4
	pxor	%xmm5, %xmm11
	pshufb	%xmm13, %xmm11
	movdqa	.L1_v2_CPI70_3(%rip), %xmm1
	movdqa	%xmm11, %xmm3
	paddd	%xmm1, %xmm3
	movdqa	%xmm3, %xmm9
	pxor	%xmm0, %xmm9
	movdqa	%xmm9, %xmm0
	pslld	$20, %xmm9
	psrld	$12, %xmm0
	por	%xmm0, %xmm9
	pshufb	%xmm13, %xmm4
	movdqa	%xmm1, %xmm0
	paddd	%xmm4, %xmm0
	movdqa	%xmm0, %xmm1
	movdqa	%xmm0, %xmm2
	pxor	%xmm8, %xmm1
	movdqa	%xmm1, %xmm0
	pslld	$20, %xmm1
	psrld	$12, %xmm0
	por	%xmm0, %xmm1
	paddd	464(%rsp), %xmm6
	paddd	%xmm1, %xmm6
	movdqa	%xmm6, 128(%rsp)
	pxor	%xmm6, %xmm4
	pshufb	%xmm15, %xmm4
	paddd	%xmm4, %xmm2
	movdqa	%xmm2, 224(%rsp)
	pxor	%xmm2, %xmm1
	movdqa	%xmm1, %xmm0
	psrld	$7, %xmm0
	pslld	$25, %xmm1
	por	%xmm0, %xmm1
	movdqa	%xmm1, 304(%rsp)
	paddd	544(%rsp), %xmm5
	paddd	%xmm9, %xmm5
	movdqa	%xmm5, 16(%rsp)
	pxor	%xmm5, %xmm11
	pshufb	%xmm15, %xmm11
	movdqa	%xmm15, %xmm7
	paddd	%xmm11, %xmm3
	movdqa	%xmm3, 256(%rsp)
	pxor	%xmm3, %xmm9
	movdqa	%xmm9, %xmm0
	pslld	$25, %xmm9
	psrld	$7, %xmm0
	por	%xmm0, %xmm9
	movdqa	1008(%rsp), %xmm10
	movdqa	96(%rsp), %xmm3
	paddd	%xmm10, %xmm3
	movdqa	%xmm10, 1008(%rsp)
	movdqa	1024(%rsp), %xmm0
	movdqa	48(%rsp), %xmm1
	paddd	%xmm0, %xmm1
	movdqa	%xmm0, 1024(%rsp)
	paddd	688(%rsp), %xmm1
	paddd	592(%rsp), %xmm3
	movdqa	.L1_v2_CPI70_4(%rip), %xmm15
	movdqa	%xmm3, %xmm2
	movdqa	%xmm3, %xmm5
	pxor	%xmm15, %xmm2
	pxor	%xmm1, %xmm15
	pshufb	%xmm13, %xmm15
	movdqa	.L1_v2_CPI70_5(%rip), %xmm6
	movdqa	%xmm15, %xmm3
	paddd	%xmm6, %xmm3
	movdqa	%xmm3, %xmm8
	pxor	%xmm0, %xmm8
	movdqa	%xmm8, %xmm0
	psrld	$12, %xmm0
	pslld	$20, %xmm8
	por	%xmm0, %xmm8
	pshufb	%xmm13, %xmm2
	paddd	%xmm2, %xmm6
	movdqa	%xmm6, %xmm12
	pxor	%xmm10, %xmm12
	movdqa	%xmm12, %xmm0
	psrld	$12, %xmm0
	pslld	$20, %xmm12
	por	%xmm0, %xmm12
	paddd	432(%rsp), %xmm5
	paddd	%xmm12, %xmm5
	movdqa	%xmm5, 96(%rsp)
	pxor	%xmm5, %xmm2
	pshufb	%xmm7, %xmm2
	paddd	%xmm2, %xmm6
	pxor	%xmm6, %xmm12
	movdqa	%xmm12, %xmm0
	pslld	$25, %xmm12
	psrld	$7, %xmm0
	por	%xmm0, %xmm12
	movdqa	%xmm12, 176(%rsp)
	paddd	448(%rsp), %xmm1
	paddd	%xmm8, %xmm1
	movdqa	%xmm1, 48(%rsp)
	pxor	%xmm1, %xmm15
	pshufb	%xmm7, %xmm15
	paddd	%xmm15, %xmm3
	movdqa	%xmm3, 112(%rsp)
	pxor	%xmm3, %xmm8
	movdqa	%xmm8, %xmm0
	psrld	$7, %xmm0
	pslld	$25, %xmm8
	por	%xmm0, %xmm8
	movdqa	%xmm8, 336(%rsp)
	movdqa	1040(%rsp), %xmm5
	movdqa	(%rsp), %xmm0
	paddd	%xmm5, %xmm0
	movdqa	%xmm5, 1040(%rsp)
	movdqa	1056(%rsp), %xmm8
	movdqa	64(%rsp), %xmm1
	paddd	%xmm8, %xmm1
	movdqa	%xmm8, 1056(%rsp)
	paddd	864(%rsp), %xmm1
	paddd	608(%rsp), %xmm0
	movdqa	%xmm0, (%rsp)
	movdqa	.L1_v2_CPI70_6(%rip), %xmm12
	pxor	%xmm12, %xmm0
	pxor	%xmm1, %xmm12
	movdqa	%xmm13, %xmm10
	pshufb	%xmm13, %xmm12
	movdqa	.L1_v2_CPI70_7(%rip), %xmm7
	movdqa	%xmm12, %xmm13
	paddd	%xmm7, %xmm13
	movdqa	%xmm13, %xmm3
	pxor	%xmm8, %xmm3
	movdqa	%xmm3, %xmm8
	pslld	$20, %xmm3
	psrld	$12, %xmm8
	por	%xmm8, %xmm3
	pshufb	%xmm10, %xmm0
	paddd	%xmm0, %xmm7
	movdqa	%xmm7, %xmm10
	pxor	%xmm5, %xmm10
	movdqa	%xmm10, %xmm8
	pslld	$20, %xmm10
	psrld	$12, %xmm8
	por	%xmm8, %xmm10
	movdqa	(%rsp), %xmm8
	paddd	704(%rsp), %xmm8
	movdqa	%xmm8, (%rsp)
	movdqa	(%rsp), %xmm8
	paddd	%xmm10, %xmm8
	movdqa	%xmm8, (%rsp)
	pxor	(%rsp), %xmm0
	movdqa	.L1_v2_CPI70_2(%rip), %xmm5
	pshufb	%xmm5, %xmm0
	paddd	%xmm0, %xmm7
	movdqa	%xmm7, 192(%rsp)
	pxor	%xmm7, %xmm10
	movdqa	%xmm10, %xmm8
	psrld	$7, %xmm8
	pslld	$25, %xmm10
	por	%xmm8, %xmm10
	paddd	480(%rsp), %xmm1
	paddd	%xmm3, %xmm1
	movdqa	%xmm1, 64(%rsp)
	pxor	%xmm1, %xmm12
	pshufb	%xmm5, %xmm12
	paddd	%xmm12, %xmm13
	pxor	%xmm13, %xmm3
	movdqa	%xmm3, %xmm8
	pslld	$25, %xmm3
	psrld	$7, %xmm8
	por	%xmm8, %xmm3
	movdqa	%xmm3, 384(%rsp)
	movdqa	32(%rsp), %xmm7
	paddd	672(%rsp), %xmm7
	paddd	%xmm9, %xmm7
	pxor	%xmm7, %xmm12
	movdqa	.L1_v2_CPI70_0(%rip), %xmm5
	pshufb	%xmm5, %xmm12
	movdqa	112(%rsp), %xmm1
	paddd	%xmm12, %xmm1
	movdqa	%xmm1, 112(%rsp)
	pxor	%xmm1, %xmm9
	movdqa	%xmm9, %xmm8
	psrld	$12, %xmm8
	pslld	$20, %xmm9
	por	%xmm8, %xmm9
	movdqa	80(%rsp), %xmm3
	paddd	656(%rsp), %xmm3
	movdqa	304(%rsp), %xmm1
	paddd	%xmm1, %xmm3
	pxor	%xmm3, %xmm0
	pshufb	%xmm5, %xmm0
	paddd	%xmm0, %xmm6
	pxor	%xmm6, %xmm1
	movdqa	%xmm1, %xmm8
	pslld	$20, %xmm1
	psrld	$12, %xmm8
	por	%xmm8, %xmm1
	paddd	880(%rsp), %xmm3
	paddd	%xmm1, %xmm3
	movdqa	%xmm3, 80(%rsp)
	pxor	%xmm3, %xmm0
	movdqa	.L1_v2_CPI70_2(%rip), %xmm3
	pshufb	%xmm3, %xmm0
	paddd	%xmm0, %xmm6
	movdqa	%xmm6, 272(%rsp)
	pxor	%xmm6, %xmm1
	movdqa	%xmm1, %xmm8
	psrld	$7, %xmm8
	pslld	$25, %xmm1
	por	%xmm8, %xmm1
	movdqa	%xmm1, 304(%rsp)
	paddd	640(%rsp), %xmm7
	paddd	%xmm9, %xmm7
	movdqa	%xmm7, 32(%rsp)
	pxor	%xmm7, %xmm12
	pshufb	%xmm3, %xmm12
	movdqa	112(%rsp), %xmm1
	paddd	%xmm12, %xmm1
	movdqa	%xmm1, 112(%rsp)
	pxor	%xmm1, %xmm9
	movdqa	%xmm9, %xmm8
	pslld	$25, %xmm9
	psrld	$7, %xmm8
	por	%xmm8, %xmm9
	movdqa	%xmm9, 288(%rsp)
	movdqa	16(%rsp), %xmm3
	paddd	528(%rsp), %xmm3
	movdqa	336(%rsp), %xmm7
	paddd	%xmm7, %xmm3
	movdqa	%xmm3, 16(%rsp)
	pxor	%xmm3, %xmm14
	movdqa	.L1_v2_CPI70_0(%rip), %xmm9
	pshufb	%xmm9, %xmm14
	paddd	%xmm14, %xmm13
	pxor	%xmm13, %xmm7
	movdqa	%xmm7, %xmm8
	psrld	$12, %xmm8
	pslld	$20, %xmm7
	por	%xmm8, %xmm7
	movdqa	128(%rsp), %xmm1
	paddd	832(%rsp), %xmm1
	movdqa	176(%rsp), %xmm5
	paddd	%xmm5, %xmm1
	movdqa	416(%rsp), %xmm6
	pxor	%xmm1, %xmm6
	movdqa	%xmm1, %xmm3
	pshufb	%xmm9, %xmm6
	movdqa	192(%rsp), %xmm1
	paddd	%xmm6, %xmm1
	pxor	%xmm1, %xmm5
	movdqa	%xmm5, %xmm8
	pslld	$20, %xmm5
	psrld	$12, %xmm8
	por	%xmm8, %xmm5
	paddd	800(%rsp), %xmm3
	paddd	%xmm5, %xmm3
	movdqa	%xmm3, 128(%rsp)
	pxor	%xmm3, %xmm6
	movdqa	.L1_v2_CPI70_2(%rip), %xmm9
	pshufb	%xmm9, %xmm6
	paddd	%xmm6, %xmm1
	movdqa	%xmm1, 192(%rsp)
	pxor	%xmm1, %xmm5
	movdqa	%xmm5, %xmm8
	psrld	$7, %xmm8
	pslld	$25, %xmm5
	por	%xmm8, %xmm5
	movdqa	%xmm5, 176(%rsp)
	movdqa	16(%rsp), %xmm3
	paddd	848(%rsp), %xmm3
	paddd	%xmm7, %xmm3
	movdqa	%xmm3, 16(%rsp)
	pxor	%xmm3, %xmm14
	pshufb	%xmm9, %xmm14
	paddd	%xmm14, %xmm13
	movdqa	%xmm13, 240(%rsp)
	pxor	%xmm13, %xmm7
	movdqa	%xmm7, %xmm8
	pslld	$25, %xmm7
	psrld	$7, %xmm8
	por	%xmm8, %xmm7
	movdqa	%xmm7, 336(%rsp)
	movdqa	48(%rsp), %xmm9
	paddd	736(%rsp), %xmm9
	movdqa	384(%rsp), %xmm13
	paddd	%xmm13, %xmm9
	pxor	%xmm9, %xmm11
	movdqa	.L1_v2_CPI70_0(%rip), %xmm5
	pshufb	%xmm5, %xmm11
	movdqa	160(%rsp), %xmm7
	paddd	%xmm11, %xmm7
	pxor	%xmm7, %xmm13
	movdqa	%xmm13, %xmm8
	psrld	$12, %xmm8
	pslld	$20, %xmm13
	por	%xmm8, %xmm13
	movdqa	96(%rsp), %xmm1
	paddd	752(%rsp), %xmm1
	paddd	%xmm10, %xmm1
	pxor	%xmm1, %xmm4
	movdqa	%xmm1, %xmm3
	pshufb	%xmm5, %xmm4
	movdqa	208(%rsp), %xmm1
	paddd	%xmm4, %xmm1
	pxor	%xmm1, %xmm10
	movdqa	%xmm10, %xmm8
	pslld	$20, %xmm10
	psrld	$12, %xmm8
	por	%xmm8, %xmm10
	paddd	768(%rsp), %xmm3
	paddd	%xmm10, %xmm3
	movdqa	%xmm3, 96(%rsp)
	pxor	%xmm3, %xmm4
	movdqa	.L1_v2_CPI70_2(%rip), %xmm5
	pshufb	%xmm5, %xmm4
	movdqa	%xmm4, 352(%rsp)
	paddd	%xmm4, %xmm1
	movdqa	%xmm1, 208(%rsp)
	pxor	%xmm1, %xmm10
	movdqa	%xmm10, %xmm8
	psrld	$7, %xmm8
	pslld	$25, %xmm10
	por	%xmm8, %xmm10
	movdqa	%xmm10, 320(%rsp)
	movdqa	%xmm9, %xmm1
	paddd	784(%rsp), %xmm1
	movdqa	%xmm13, %xmm3
	paddd	%xmm13, %xmm1
	movdqa	%xmm1, 48(%rsp)
	pxor	%xmm1, %xmm11
	pshufb	%xmm5, %xmm11
	movdqa	%xmm7, %xmm1
	paddd	%xmm11, %xmm1
	movdqa	%xmm1, 160(%rsp)
	pxor	%xmm1, %xmm3
	movdqa	%xmm3, %xmm8
	pslld	$25, %xmm3
	psrld	$7, %xmm8
	por	%xmm8, %xmm3
	movdqa	%xmm3, 384(%rsp)
	movdqa	64(%rsp), %xmm10
	paddd	560(%rsp), %xmm10
	movdqa	368(%rsp), %xmm7
	paddd	%xmm7, %xmm10
	pxor	%xmm10, %xmm15
	movdqa	.L1_v2_CPI70_0(%rip), %xmm1
	pshufb	%xmm1, %xmm15
	movdqa	256(%rsp), %xmm9
	paddd	%xmm15, %xmm9
	pxor	%xmm9, %xmm7
	movdqa	%xmm7, %xmm8
	psrld	$12, %xmm8
	pslld	$20, %xmm7
	por	%xmm8, %xmm7
	movdqa	(%rsp), %xmm8
	movdqa	896(%rsp), %xmm13
	paddd	%xmm13, %xmm8
	movdqa	%xmm8, (%rsp)
	movdqa	(%rsp), %xmm8
	movdqa	400(%rsp), %xmm3
	paddd	%xmm3, %xmm8
	movdqa	%xmm8, (%rsp)
	pxor	(%rsp), %xmm2
	pshufb	%xmm1, %xmm2
	movdqa	224(%rsp), %xmm4
	paddd	%xmm2, %xmm4
	pxor	%xmm4, %xmm3
	movdqa	%xmm3, %xmm8
	pslld	$20, %xmm3
	psrld	$12, %xmm8
	por	%xmm8, %xmm3
	movdqa	%xmm3, %xmm1
	movdqa	(%rsp), %xmm8
	paddd	576(%rsp), %xmm8
	movdqa	%xmm8, (%rsp)
	movdqa	(%rsp), %xmm8
	paddd	%xmm3, %xmm8
	movdqa	%xmm8, (%rsp)
	pxor	(%rsp), %xmm2
	movdqa	.L1_v2_CPI70_2(%rip), %xmm5
	pshufb	%xmm5, %xmm2
	paddd	%xmm2, %xmm4
	movdqa	%xmm4, 224(%rsp)
	pxor	%xmm4, %xmm1
	movdqa	%xmm1, %xmm8
	psrld	$7, %xmm8
	pslld	$25, %xmm1
	por	%xmm8, %xmm1
	movdqa	%xmm10, %xmm3
	paddd	624(%rsp), %xmm3
	paddd	%xmm7, %xmm3
	movdqa	%xmm3, 64(%rsp)
	pxor	%xmm3, %xmm15
	pshufb	%xmm5, %xmm15
	movdqa	%xmm9, %xmm3
	paddd	%xmm15, %xmm3
	movdqa	%xmm3, 256(%rsp)
	pxor	%xmm3, %xmm7
	movdqa	%xmm7, %xmm9
	pslld	$25, %xmm7
	psrld	$7, %xmm9
	por	%xmm9, %xmm7
	movdqa	32(%rsp), %xmm3
	paddd	560(%rsp), %xmm3
	paddd	%xmm7, %xmm3
	movdqa	%xmm3, 32(%rsp)
	movdqa	%xmm7, %xmm5
	pxor	%xmm3, %xmm14
	movdqa	.L1_v2_CPI70_0(%rip), %xmm4
	pshufb	%xmm4, %xmm14
	movdqa	160(%rsp), %xmm7
	paddd	%xmm14, %xmm7
	pxor	%xmm7, %xmm5
	movdqa	%xmm5, %xmm8
	psrld	$12, %xmm8
	pslld	$20, %xmm5
	por	%xmm8, %xmm5
	movdqa	80(%rsp), %xmm3
	paddd	%xmm13, %xmm3
	movdqa	%xmm1, %xmm9
	paddd	%xmm1, %xmm3
	movdqa	%xmm6, %xmm10
	pxor	%xmm3, %xmm10
	pshufb	%xmm4, %xmm10
	movdqa	208(%rsp), %xmm1
	paddd	%xmm10, %xmm1
	pxor	%xmm1, %xmm9
	movdqa	%xmm9, %xmm8
	pslld	$20, %xmm9
	psrld	$12, %xmm8
	por	%xmm8, %xmm9
	paddd	832(%rsp), %xmm3
	paddd	%xmm9, %xmm3
	movdqa	%xmm3, 80(%rsp)
	pxor	%xmm3, %xmm10
	movdqa	.L1_v2_CPI70_2(%rip), %xmm13
	pshufb	%xmm13, %xmm10
	paddd	%xmm10, %xmm1
	movdqa	%xmm1, 208(%rsp)
	pxor	%xmm1, %xmm9
	movdqa	%xmm9, %xmm8
	psrld	$7, %xmm8
	pslld	$25, %xmm9
	por	%xmm8, %xmm9
	movdqa	%xmm9, 400(%rsp)
	movdqa	32(%rsp), %xmm1
	paddd	528(%rsp), %xmm1
	paddd	%xmm5, %xmm1
	movdqa	%xmm1, 32(%rsp)
	pxor	%xmm1, %xmm14
	pshufb	%xmm13, %xmm14
	movdqa	%xmm14, 144(%rsp)
	movdqa	%xmm7, %xmm1
	paddd	%xmm14, %xmm1
	movdqa	%xmm1, 160(%rsp)
	pxor	%xmm1, %xmm5
	movdqa	%xmm5, %xmm8
	pslld	$25, %xmm5
	psrld	$7, %xmm8
	por	%xmm8, %xmm5
	movdqa	%xmm5, 368(%rsp)
	movdqa	16(%rsp), %xmm3
	paddd	688(%rsp), %xmm3
	movdqa	288(%rsp), %xmm14
	paddd	%xmm14, %xmm3
	pxor	%xmm3, %xmm11
	movdqa	%xmm4, %xmm6
	pshufb	%xmm4, %xmm11
	movdqa	256(%rsp), %xmm9
	paddd	%xmm11, %xmm9
	pxor	%xmm9, %xmm14
	movdqa	%xmm14, %xmm8
	psrld	$12, %xmm8
	pslld	$20, %xmm14
	por	%xmm8, %xmm14
	movdqa	128(%rsp), %xmm1
	paddd	592(%rsp), %xmm1
	movdqa	304(%rsp), %xmm5
	paddd	%xmm5, %xmm1
	movdqa	352(%rsp), %xmm4
	pxor	%xmm1, %xmm4
	movdqa	%xmm1, %xmm7
	pshufb	%xmm6, %xmm4
	movdqa	224(%rsp), %xmm1
	paddd	%xmm4, %xmm1
	pxor	%xmm1, %xmm5
	movdqa	%xmm5, %xmm8
	pslld	$20, %xmm5
	psrld	$12, %xmm8
	por	%xmm8, %xmm5
	paddd	656(%rsp), %xmm7
	paddd	%xmm5, %xmm7
	movdqa	%xmm7, 128(%rsp)
	pxor	%xmm7, %xmm4
	pshufb	%xmm13, %xmm4
	movdqa	%xmm4, 352(%rsp)
	paddd	%xmm4, %xmm1
	movdqa	%xmm1, 224(%rsp)
	pxor	%xmm1, %xmm5
	movdqa	%xmm5, %xmm8
	psrld	$7, %xmm8
	pslld	$25, %xmm5
	por	%xmm8, %xmm5
	movdqa	%xmm5, 304(%rsp)
	movdqa	%xmm3, %xmm1
	paddd	672(%rsp), %xmm1
	paddd	%xmm14, %xmm1
	movdqa	%xmm1, 16(%rsp)
	pxor	%xmm1, %xmm11
	pshufb	%xmm13, %xmm11
	movdqa	%xmm9, %xmm1
	paddd	%xmm11, %xmm1
	movdqa	%xmm1, 256(%rsp)
	pxor	%xmm1, %xmm14
	movdqa	%xmm14, %xmm8
	pslld	$25, %xmm14
	psrld	$7, %xmm8
	por	%xmm8, %xmm14
	movdqa	48(%rsp), %xmm13
	paddd	640(%rsp), %xmm13
	movdqa	336(%rsp), %xmm7
	paddd	%xmm7, %xmm13
	pxor	%xmm13, %xmm15
	movdqa	%xmm6, %xmm4
	pshufb	%xmm6, %xmm15
	movdqa	112(%rsp), %xmm6
	paddd	%xmm15, %xmm6
	pxor	%xmm6, %xmm7
	movdqa	%xmm7, %xmm8
	psrld	$12, %xmm8
	pslld	$20, %xmm7
	por	%xmm8, %xmm7
	movdqa	96(%rsp), %xmm1
	paddd	880(%rsp), %xmm1
	movdqa	176(%rsp), %xmm9
	paddd	%xmm9, %xmm1
	pxor	%xmm1, %xmm2
	movdqa	%xmm1, %xmm3
	pshufb	%xmm4, %xmm2
	movdqa	272(%rsp), %xmm1
	paddd	%xmm2, %xmm1
	pxor	%xmm1, %xmm9
	movdqa	%xmm1, %xmm5
	movdqa	%xmm9, %xmm8
	pslld	$20, %xmm9
	psrld	$12, %xmm8
	por	%xmm8, %xmm9
	paddd	576(%rsp), %xmm3
	paddd	%xmm9, %xmm3
	movdqa	%xmm3, 96(%rsp)
	pxor	%xmm3, %xmm2
	movdqa	.L1_v2_CPI70_2(%rip), %xmm1
	pshufb	%xmm1, %xmm2
	paddd	%xmm2, %xmm5
	movdqa	%xmm5, 272(%rsp)
	pxor	%xmm5, %xmm9
	movdqa	%xmm9, %xmm8
	psrld	$7, %xmm8
	pslld	$25, %xmm9
	por	%xmm8, %xmm9
	paddd	624(%rsp), %xmm13
	paddd	%xmm7, %xmm13
	movdqa	%xmm13, 48(%rsp)
	pxor	%xmm13, %xmm15
	pshufb	%xmm1, %xmm15
	movdqa	%xmm6, %xmm1
	paddd	%xmm15, %xmm1
	movdqa	%xmm1, 112(%rsp)
	pxor	%xmm1, %xmm7
	movdqa	%xmm7, %xmm8
	pslld	$25, %xmm7
	psrld	$7, %xmm8
	por	%xmm8, %xmm7
	movdqa	64(%rsp), %xmm5
	paddd	784(%rsp), %xmm5
	movdqa	384(%rsp), %xmm13
	paddd	%xmm13, %xmm5
	pxor	%xmm5, %xmm12
	pshufb	%xmm4, %xmm12
	movdqa	240(%rsp), %xmm3
	paddd	%xmm12, %xmm3
	movdqa	%xmm3, 240(%rsp)
	pxor	%xmm3, %xmm13
	movdqa	%xmm13, %xmm8
	psrld	$12, %xmm8
	pslld	$20, %xmm13
	por	%xmm8, %xmm13
	movdqa	(%rsp), %xmm8
	paddd	768(%rsp), %xmm8
	movdqa	%xmm8, (%rsp)
	movdqa	(%rsp), %xmm8
	movdqa	320(%rsp), %xmm6
	paddd	%xmm6, %xmm8
	movdqa	%xmm8, (%rsp)
	pxor	(%rsp), %xmm0
	pshufb	%xmm4, %xmm0
	movdqa	192(%rsp), %xmm1
	paddd	%xmm0, %xmm1
	pxor	%xmm1, %xmm6
	movdqa	%xmm6, %xmm8
	pslld	$20, %xmm6
	psrld	$12, %xmm8
	por	%xmm8, %xmm6
	movdqa	(%rsp), %xmm8
	paddd	608(%rsp), %xmm8
	movdqa	%xmm8, (%rsp)
	movdqa	(%rsp), %xmm8
	paddd	%xmm6, %xmm8
	movdqa	%xmm8, (%rsp)
	pxor	(%rsp), %xmm0
	movdqa	.L1_v2_CPI70_2(%rip), %xmm3
	pshufb	%xmm3, %xmm0
	paddd	%xmm0, %xmm1
	movdqa	%xmm1, 192(%rsp)
	pxor	%xmm1, %xmm6
	movdqa	%xmm6, %xmm8
	psrld	$7, %xmm8
	pslld	$25, %xmm6
	por	%xmm8, %xmm6
	paddd	864(%rsp), %xmm5
	paddd	%xmm13, %xmm5
	movdqa	%xmm5, 64(%rsp)
	pxor	%xmm5, %xmm12
	pshufb	%xmm3, %xmm12
	movdqa	240(%rsp), %xmm3
	paddd	%xmm12, %xmm3
	movdqa	%xmm3, 240(%rsp)
	pxor	%xmm3, %xmm13
	movdqa	%xmm13, %xmm8
	pslld	$25, %xmm13
	psrld	$7, %xmm8
	por	%xmm8, %xmm13
	movdqa	%xmm13, 384(%rsp)
	movdqa	32(%rsp), %xmm1
	paddd	816(%rsp), %xmm1
	paddd	%xmm14, %xmm1
	movdqa	%xmm1, 32(%rsp)
	pxor	%xmm1, %xmm12
	movdqa	%xmm4, %xmm5
	pshufb	%xmm4, %xmm12
	movdqa	112(%rsp), %xmm4
	paddd	%xmm12, %xmm4
	pxor	%xmm4, %xmm14
	movdqa	%xmm14, %xmm8
	psrld	$12, %xmm8
	pslld	$20, %xmm14
	por	%xmm8, %xmm14
	movdqa	80(%rsp), %xmm3
	paddd	720(%rsp), %xmm3
	movdqa	304(%rsp), %xmm1
	paddd	%xmm1, %xmm3
	pxor	%xmm3, %xmm0
	movdqa	%xmm3, %xmm13
	pshufb	%xmm5, %xmm0
	movdqa	272(%rsp), %xmm3
	paddd	%xmm0, %xmm3
	pxor	%xmm3, %xmm1
	movdqa	%xmm1, %xmm8
	pslld	$20, %xmm1
	psrld	$12, %xmm8
	por	%xmm8, %xmm1
	paddd	752(%rsp), %xmm13
	paddd	%xmm1, %xmm13
	movdqa	%xmm13, 80(%rsp)
	pxor	%xmm13, %xmm0
	movdqa	.L1_v2_CPI70_2(%rip), %xmm5
	pshufb	%xmm5, %xmm0
	paddd	%xmm0, %xmm3
	movdqa	%xmm3, 272(%rsp)
	pxor	%xmm3, %xmm1
	movdqa	%xmm1, %xmm8
	psrld	$7, %xmm8
	pslld	$25, %xmm1
	por	%xmm8, %xmm1
	movdqa	%xmm1, 304(%rsp)
	movdqa	32(%rsp), %xmm1
	paddd	736(%rsp), %xmm1
	paddd	%xmm14, %xmm1
	movdqa	%xmm1, 32(%rsp)
	pxor	%xmm1, %xmm12
	pshufb	%xmm5, %xmm12
	paddd	%xmm12, %xmm4
	movdqa	%xmm4, 112(%rsp)
	pxor	%xmm4, %xmm14
	movdqa	%xmm14, %xmm8
	pslld	$25, %xmm14
	psrld	$7, %xmm8
	por	%xmm8, %xmm14
	movdqa	16(%rsp), %xmm3
	paddd	912(%rsp), %xmm3
	paddd	%xmm7, %xmm3
	movdqa	144(%rsp), %xmm4
	pxor	%xmm3, %xmm4
	movdqa	.L1_v2_CPI70_0(%rip), %xmm13
	pshufb	%xmm13, %xmm4
	movdqa	%xmm4, 144(%rsp)
	movdqa	240(%rsp), %xmm5
	paddd	%xmm4, %xmm5
	pxor	%xmm5, %xmm7
	movdqa	%xmm7, %xmm8
	psrld	$12, %xmm8
	pslld	$20, %xmm7
	por	%xmm8, %xmm7
	movdqa	128(%rsp), %xmm1
	paddd	928(%rsp), %xmm1
	paddd	%xmm9, %xmm1
	pxor	%xmm1, %xmm10
	pshufb	%xmm13, %xmm10
	movdqa	%xmm13, %xmm4
	movdqa	192(%rsp), %xmm13
	paddd	%xmm10, %xmm13
	pxor	%xmm13, %xmm9
	movdqa	%xmm9, %xmm8
	pslld	$20, %xmm9
	psrld	$12, %xmm8
	por	%xmm8, %xmm9
	paddd	512(%rsp), %xmm1
	paddd	%xmm9, %xmm1
	movdqa	%xmm1, 128(%rsp)
	pxor	%xmm1, %xmm10
	movdqa	.L1_v2_CPI70_2(%rip), %xmm1
	pshufb	%xmm1, %xmm10
	paddd	%xmm10, %xmm13
	movdqa	%xmm13, 192(%rsp)
	pxor	%xmm13, %xmm9
	movdqa	%xmm9, %xmm8
	psrld	$7, %xmm8
	pslld	$25, %xmm9
	por	%xmm8, %xmm9
	movdqa	%xmm9, 176(%rsp)
	paddd	496(%rsp), %xmm3
	paddd	%xmm7, %xmm3
	movdqa	%xmm3, 16(%rsp)
	movdqa	144(%rsp), %xmm13
	pxor	%xmm3, %xmm13
	pshufb	%xmm1, %xmm13
	paddd	%xmm13, %xmm5
	movdqa	%xmm5, 240(%rsp)
	pxor	%xmm5, %xmm7
	movdqa	%xmm7, %xmm8
	pslld	$25, %xmm7
	psrld	$7, %xmm8
	por	%xmm8, %xmm7
	movdqa	48(%rsp), %xmm1
	paddd	848(%rsp), %xmm1
	movdqa	384(%rsp), %xmm9
	paddd	%xmm9, %xmm1
	movdqa	%xmm1, 48(%rsp)
	pxor	%xmm1, %xmm11
	movdqa	%xmm4, %xmm5
	pshufb	%xmm4, %xmm11
	movdqa	160(%rsp), %xmm4
	paddd	%xmm11, %xmm4
	movdqa	%xmm4, 160(%rsp)
	pxor	%xmm4, %xmm9
	movdqa	%xmm9, %xmm8
	psrld	$12, %xmm8
	pslld	$20, %xmm9
	por	%xmm8, %xmm9
	movdqa	96(%rsp), %xmm3
	paddd	800(%rsp), %xmm3
	paddd	%xmm6, %xmm3
	movdqa	352(%rsp), %xmm4
	pxor	%xmm3, %xmm4
	pshufb	%xmm5, %xmm4
	movdqa	208(%rsp), %xmm1
	paddd	%xmm4, %xmm1
	pxor	%xmm1, %xmm6
	movdqa	%xmm6, %xmm8
	pslld	$20, %xmm6
	psrld	$12, %xmm8
	por	%xmm8, %xmm6
	paddd	704(%rsp), %xmm3
	paddd	%xmm6, %xmm3
	movdqa	%xmm3, 96(%rsp)
	pxor	%xmm3, %xmm4
	movdqa	.L1_v2_CPI70_2(%rip), %xmm5
	pshufb	%xmm5, %xmm4
	movdqa	%xmm4, 352(%rsp)
	paddd	%xmm4, %xmm1
	movdqa	%xmm1, 208(%rsp)
	pxor	%xmm1, %xmm6
	movdqa	%xmm6, %xmm8
	psrld	$7, %xmm8
	pslld	$25, %xmm6
	por	%xmm8, %xmm6
	movdqa	%xmm6, 320(%rsp)
	movdqa	48(%rsp), %xmm3
	paddd	480(%rsp), %xmm3
	paddd	%xmm9, %xmm3
	movdqa	%xmm3, 48(%rsp)
	pxor	%xmm3, %xmm11
	pshufb	%xmm5, %xmm11
	movdqa	%xmm5, %xmm4
	movdqa	160(%rsp), %xmm3
	paddd	%xmm11, %xmm3
	movdqa	%xmm3, 160(%rsp)
	pxor	%xmm3, %xmm9
	movdqa	%xmm9, %xmm8
	pslld	$25, %xmm9
	psrld	$7, %xmm8
	por	%xmm8, %xmm9
	movdqa	%xmm9, 384(%rsp)
	movdqa	64(%rsp), %xmm1
	paddd	448(%rsp), %xmm1
	movdqa	368(%rsp), %xmm6
	paddd	%xmm6, %xmm1
	movdqa	%xmm1, 64(%rsp)
	pxor	%xmm1, %xmm15
	movdqa	.L1_v2_CPI70_0(%rip), %xmm1
	pshufb	%xmm1, %xmm15
	movdqa	256(%rsp), %xmm9
	paddd	%xmm15, %xmm9
	pxor	%xmm9, %xmm6
	movdqa	%xmm6, %xmm8
	psrld	$12, %xmm8
	pslld	$20, %xmm6
	por	%xmm8, %xmm6
	movdqa	(%rsp), %xmm8
	paddd	432(%rsp), %xmm8
	movdqa	%xmm8, (%rsp)
	movdqa	(%rsp), %xmm8
	movdqa	400(%rsp), %xmm5
	paddd	%xmm5, %xmm8
	movdqa	%xmm8, (%rsp)
	pxor	(%rsp), %xmm2
	pshufb	%xmm1, %xmm2
	movdqa	224(%rsp), %xmm3
	paddd	%xmm2, %xmm3
	pxor	%xmm3, %xmm5
	movdqa	%xmm5, %xmm8
	pslld	$20, %xmm5
	psrld	$12, %xmm8
	por	%xmm8, %xmm5
	movdqa	(%rsp), %xmm8
	paddd	464(%rsp), %xmm8
	movdqa	%xmm8, (%rsp)
	movdqa	(%rsp), %xmm8
	paddd	%xmm5, %xmm8
	movdqa	%xmm5, %xmm1
	movdqa	%xmm8, (%rsp)
	pxor	(%rsp), %xmm2
	pshufb	%xmm4, %xmm2
	paddd	%xmm2, %xmm3
	movdqa	%xmm3, 224(%rsp)
	pxor	%xmm3, %xmm1
	movdqa	%xmm1, %xmm8
	psrld	$7, %xmm8
	pslld	$25, %xmm1
	por	%xmm8, %xmm1
	movdqa	64(%rsp), %xmm5
	paddd	544(%rsp), %xmm5
	paddd	%xmm6, %xmm5
	movdqa	%xmm5, 64(%rsp)
	pxor	%xmm5, %xmm15
	pshufb	%xmm4, %xmm15
	paddd	%xmm15, %xmm9
	pxor	%xmm9, %xmm6
	movdqa	%xmm9, %xmm4
	movdqa	%xmm6, %xmm8
	pslld	$25, %xmm6
	psrld	$7, %xmm8
	por	%xmm8, %xmm6
	movdqa	32(%rsp), %xmm3
	paddd	848(%rsp), %xmm3
	paddd	%xmm6, %xmm3
	movdqa	%xmm3, 32(%rsp)
	pxor	%xmm3, %xmm13
	movdqa	.L1_v2_CPI70_0(%rip), %xmm3
	pshufb	%xmm3, %xmm13
	movdqa	160(%rsp), %xmm9
	paddd	%xmm13, %xmm9
	pxor	%xmm9, %xmm6
	movdqa	%xmm6, %xmm8
	psrld	$12, %xmm8
	pslld	$20, %xmm6
	por	%xmm8, %xmm6
	movdqa	80(%rsp), %xmm5
	paddd	800(%rsp), %xmm5
	paddd	%xmm1, %xmm5
	pxor	%xmm5, %xmm10
	pshufb	%xmm3, %xmm10
	movdqa	208(%rsp), %xmm3
	paddd	%xmm10, %xmm3
	pxor	%xmm3, %xmm1
	movdqa	%xmm1, %xmm8
	pslld	$20, %xmm1
	psrld	$12, %xmm8
	por	%xmm8, %xmm1
	paddd	656(%rsp), %xmm5
	paddd	%xmm1, %xmm5
	movdqa	%xmm5, 80(%rsp)
	pxor	%xmm5, %xmm10
	movdqa	.L1_v2_CPI70_2(%rip), %xmm5
	pshufb	%xmm5, %xmm10
	movdqa	%xmm10, 416(%rsp)
	paddd	%xmm10, %xmm3
	movdqa	%xmm3, 208(%rsp)
	pxor	%xmm3, %xmm1
	movdqa	%xmm1, %xmm8
	psrld	$7, %xmm8
	pslld	$25, %xmm1
	por	%xmm8, %xmm1
	movdqa	%xmm1, 400(%rsp)
	movdqa	32(%rsp), %xmm1
	paddd	672(%rsp), %xmm1
	paddd	%xmm6, %xmm1
	movdqa	%xmm1, 32(%rsp)
	pxor	%xmm1, %xmm13
	pshufb	%xmm5, %xmm13
	movdqa	%xmm13, 144(%rsp)
	movdqa	%xmm9, %xmm1
	paddd	%xmm13, %xmm1
	movdqa	%xmm1, 160(%rsp)
	pxor	%xmm1, %xmm6
	movdqa	%xmm6, %xmm8
	pslld	$25, %xmm6
	psrld	$7, %xmm8
	por	%xmm8, %xmm6
	movdqa	%xmm6, 368(%rsp)
	movdqa	16(%rsp), %xmm10
	paddd	736(%rsp), %xmm10
	paddd	%xmm14, %xmm10
	pxor	%xmm10, %xmm11
	movdqa	.L1_v2_CPI70_0(%rip), %xmm9
	pshufb	%xmm9, %xmm11
	movdqa	%xmm4, %xmm13
	paddd	%xmm11, %xmm13
	pxor	%xmm13, %xmm14
	movdqa	%xmm14, %xmm8
	psrld	$12, %xmm8
	pslld	$20, %xmm14
	por	%xmm8, %xmm14
	movdqa	128(%rsp), %xmm1
	paddd	752(%rsp), %xmm1
	movdqa	304(%rsp), %xmm3
	paddd	%xmm3, %xmm1
	movdqa	352(%rsp), %xmm4
	pxor	%xmm1, %xmm4
	movdqa	%xmm1, %xmm6
	pshufb	%xmm9, %xmm4
	movdqa	224(%rsp), %xmm1
	paddd	%xmm4, %xmm1
	pxor	%xmm1, %xmm3
	movdqa	%xmm1, %xmm5
	movdqa	%xmm3, %xmm8
	pslld	$20, %xmm3
	psrld	$12, %xmm8
	por	%xmm8, %xmm3
	movdqa	%xmm6, %xmm1
	paddd	928(%rsp), %xmm1
	paddd	%xmm3, %xmm1
	movdqa	%xmm1, 128(%rsp)
	movdqa	%xmm3, %xmm6
	pxor	%xmm1, %xmm4
	movdqa	.L1_v2_CPI70_2(%rip), %xmm1
	pshufb	%xmm1, %xmm4
	movdqa	%xmm4, 352(%rsp)
	paddd	%xmm4, %xmm5
	movdqa	%xmm5, 224(%rsp)
	pxor	%xmm5, %xmm6
	movdqa	%xmm6, %xmm8
	psrld	$7, %xmm8
	pslld	$25, %xmm6
	por	%xmm8, %xmm6
	movdqa	%xmm10, %xmm3
	paddd	912(%rsp), %xmm3
	paddd	%xmm14, %xmm3
	movdqa	%xmm3, 16(%rsp)
	pxor	%xmm3, %xmm11
	pshufb	%xmm1, %xmm11
	movdqa	%xmm1, %xmm4
	movdqa	%xmm13, %xmm1
	paddd	%xmm11, %xmm1
	movdqa	%xmm1, 256(%rsp)
	movdqa	%xmm14, %xmm3
	pxor	%xmm1, %xmm3
	movdqa	%xmm3, %xmm8
	pslld	$25, %xmm3
	psrld	$7, %xmm8
	por	%xmm8, %xmm3
	movdqa	%xmm3, 288(%rsp)
	movdqa	48(%rsp), %xmm13
	paddd	448(%rsp), %xmm13
	paddd	%xmm7, %xmm13
	pxor	%xmm13, %xmm15
	pshufb	%xmm9, %xmm15
	movdqa	112(%rsp), %xmm5
	paddd	%xmm15, %xmm5
	pxor	%xmm5, %xmm7
	movdqa	%xmm7, %xmm8
	psrld	$12, %xmm8
	pslld	$20, %xmm7
	por	%xmm8, %xmm7
	movdqa	96(%rsp), %xmm1
	paddd	432(%rsp), %xmm1
	movdqa	176(%rsp), %xmm3
	paddd	%xmm3, %xmm1
	pxor	%xmm1, %xmm2
	movdqa	%xmm1, %xmm10
	pshufb	%xmm9, %xmm2
	movdqa	272(%rsp), %xmm1
	paddd	%xmm2, %xmm1
	pxor	%xmm1, %xmm3
	movdqa	%xmm3, %xmm8
	pslld	$20, %xmm3
	psrld	$12, %xmm8
	por	%xmm8, %xmm3
	paddd	512(%rsp), %xmm10
	paddd	%xmm3, %xmm10
	movdqa	%xmm10, 96(%rsp)
	pxor	%xmm10, %xmm2
	pshufb	%xmm4, %xmm2
	paddd	%xmm2, %xmm1
	movdqa	%xmm1, 272(%rsp)
	pxor	%xmm1, %xmm3
	movdqa	%xmm3, %xmm8
	psrld	$7, %xmm8
	pslld	$25, %xmm3
	por	%xmm8, %xmm3
	movdqa	%xmm3, 176(%rsp)
	movdqa	%xmm13, %xmm3
	paddd	496(%rsp), %xmm3
	movdqa	%xmm7, %xmm13
	paddd	%xmm7, %xmm3
	movdqa	%xmm3, 48(%rsp)
	pxor	%xmm3, %xmm15
	pshufb	%xmm4, %xmm15
	paddd	%xmm15, %xmm5
	pxor	%xmm5, %xmm13
	movdqa	%xmm13, %xmm8
	pslld	$25, %xmm13
	psrld	$7, %xmm8
	por	%xmm8, %xmm13
	movdqa	64(%rsp), %xmm7
	paddd	624(%rsp), %xmm7
	movdqa	384(%rsp), %xmm14
	paddd	%xmm14, %xmm7
	pxor	%xmm7, %xmm12
	movdqa	%xmm9, %xmm1
	pshufb	%xmm9, %xmm12
	movdqa	240(%rsp), %xmm9
	paddd	%xmm12, %xmm9
	pxor	%xmm9, %xmm14
	movdqa	%xmm14, %xmm8
	psrld	$12, %xmm8
	pslld	$20, %xmm14
	por	%xmm8, %xmm14
	movdqa	(%rsp), %xmm8
	paddd	576(%rsp), %xmm8
	movdqa	%xmm8, (%rsp)
	movdqa	(%rsp), %xmm8
	movdqa	320(%rsp), %xmm10
	paddd	%xmm10, %xmm8
	movdqa	%xmm8, (%rsp)
	pxor	(%rsp), %xmm0
	pshufb	%xmm1, %xmm0
	movdqa	192(%rsp), %xmm1
	paddd	%xmm0, %xmm1
	pxor	%xmm1, %xmm10
	movdqa	%xmm10, %xmm8
	pslld	$20, %xmm10
	psrld	$12, %xmm8
	por	%xmm8, %xmm10
	movdqa	(%rsp), %xmm8
	paddd	768(%rsp), %xmm8
	movdqa	%xmm8, (%rsp)
	movdqa	(%rsp), %xmm8
	paddd	%xmm10, %xmm8
	movdqa	%xmm8, (%rsp)
	pxor	(%rsp), %xmm0
	pshufb	%xmm4, %xmm0
	paddd	%xmm0, %xmm1
	movdqa	%xmm1, 192(%rsp)
	pxor	%xmm1, %xmm10
	movdqa	%xmm10, %xmm8
	psrld	$7, %xmm8
	pslld	$25, %xmm10
	por	%xmm8, %xmm10
	movdqa	%xmm7, %xmm1
	paddd	784(%rsp), %xmm1
	paddd	%xmm14, %xmm1
	movdqa	%xmm1, 64(%rsp)
	pxor	%xmm1, %xmm12
	pshufb	%xmm4, %xmm12
	movdqa	%xmm9, %xmm1
	paddd	%xmm12, %xmm1
	movdqa	%xmm1, 240(%rsp)
	pxor	%xmm1, %xmm14
	movdqa	%xmm14, %xmm8
	pslld	$25, %xmm14
	psrld	$7, %xmm8
	por	%xmm8, %xmm14
	movdqa	32(%rsp), %xmm3
	paddd	528(%rsp), %xmm3
	movdqa	288(%rsp), %xmm1
	paddd	%xmm1, %xmm3
	movdqa	%xmm3, 32(%rsp)
	pxor	%xmm3, %xmm12
	movdqa	.L1_v2_CPI70_0(%rip), %xmm4
	pshufb	%xmm4, %xmm12
	movdqa	%xmm5, %xmm9
	paddd	%xmm12, %xmm9
	movdqa	%xmm1, %xmm5
	pxor	%xmm9, %xmm5
	movdqa	%xmm5, %xmm8
	psrld	$12, %xmm8
	pslld	$20, %xmm5
	por	%xmm8, %xmm5
	movdqa	80(%rsp), %xmm1
	paddd	832(%rsp), %xmm1
	paddd	%xmm6, %xmm1
	pxor	%xmm1, %xmm0
	movdqa	%xmm1, %xmm3
	pshufb	%xmm4, %xmm0
	movdqa	272(%rsp), %xmm1
	paddd	%xmm0, %xmm1
	pxor	%xmm1, %xmm6
	movdqa	%xmm6, %xmm8
	pslld	$20, %xmm6
	psrld	$12, %xmm8
	por	%xmm8, %xmm6
	paddd	896(%rsp), %xmm3
	paddd	%xmm6, %xmm3
	movdqa	%xmm3, 80(%rsp)
	pxor	%xmm3, %xmm0
	movdqa	.L1_v2_CPI70_2(%rip), %xmm3
	pshufb	%xmm3, %xmm0
	paddd	%xmm0, %xmm1
	movdqa	%xmm1, 272(%rsp)
	pxor	%xmm1, %xmm6
	movdqa	%xmm6, %xmm8
	psrld	$7, %xmm8
	pslld	$25, %xmm6
	por	%xmm8, %xmm6
	movdqa	%xmm6, 304(%rsp)
	movdqa	32(%rsp), %xmm1
	paddd	560(%rsp), %xmm1
	paddd	%xmm5, %xmm1
	movdqa	%xmm1, 32(%rsp)
	pxor	%xmm1, %xmm12
	pshufb	%xmm3, %xmm12
	paddd	%xmm12, %xmm9
	movdqa	%xmm9, 112(%rsp)
	pxor	%xmm9, %xmm5
	movdqa	%xmm5, %xmm8
	pslld	$25, %xmm5
	psrld	$7, %xmm8
	por	%xmm8, %xmm5
	movdqa	%xmm5, 288(%rsp)
	movdqa	16(%rsp), %xmm1
	paddd	544(%rsp), %xmm1
	paddd	%xmm13, %xmm1
	movdqa	%xmm1, 16(%rsp)
	movdqa	144(%rsp), %xmm3
	pxor	%xmm1, %xmm3
	pshufb	%xmm4, %xmm3
	movdqa	%xmm3, 144(%rsp)
	movdqa	240(%rsp), %xmm9
	paddd	%xmm3, %xmm9
	pxor	%xmm9, %xmm13
	movdqa	%xmm13, %xmm8
	psrld	$12, %xmm8
	pslld	$20, %xmm13
	por	%xmm8, %xmm13
	movdqa	128(%rsp), %xmm3
	paddd	464(%rsp), %xmm3
	movdqa	176(%rsp), %xmm1
	paddd	%xmm1, %xmm3
	movdqa	416(%rsp), %xmm6
	pxor	%xmm3, %xmm6
	pshufb	%xmm4, %xmm6
	movdqa	192(%rsp), %xmm5
	paddd	%xmm6, %xmm5
	pxor	%xmm5, %xmm1
	movdqa	%xmm1, %xmm8
	pslld	$20, %xmm1
	psrld	$12, %xmm8
	por	%xmm8, %xmm1
	paddd	608(%rsp), %xmm3
	paddd	%xmm1, %xmm3
	movdqa	%xmm3, 128(%rsp)
	pxor	%xmm3, %xmm6
	movdqa	.L1_v2_CPI70_2(%rip), %xmm7
	pshufb	%xmm7, %xmm6
	paddd	%xmm6, %xmm5
	movdqa	%xmm5, 192(%rsp)
	pxor	%xmm5, %xmm1
	movdqa	%xmm1, %xmm8
	psrld	$7, %xmm8
	pslld	$25, %xmm1
	por	%xmm8, %xmm1
	movdqa	%xmm1, 176(%rsp)
	movdqa	16(%rsp), %xmm1
	paddd	864(%rsp), %xmm1
	paddd	%xmm13, %xmm1
	movdqa	%xmm1, 16(%rsp)
	movdqa	144(%rsp), %xmm3
	pxor	%xmm1, %xmm3
	pshufb	%xmm7, %xmm3
	movdqa	%xmm3, 144(%rsp)
	movdqa	%xmm9, %xmm1
	paddd	%xmm3, %xmm1
	movdqa	%xmm1, 240(%rsp)
	pxor	%xmm1, %xmm13
	movdqa	%xmm13, %xmm8
	pslld	$25, %xmm13
	psrld	$7, %xmm8
	por	%xmm8, %xmm13
	movdqa	%xmm13, 336(%rsp)
	movdqa	48(%rsp), %xmm3
	paddd	480(%rsp), %xmm3
	paddd	%xmm14, %xmm3
	pxor	%xmm3, %xmm11
	movdqa	%xmm4, %xmm5
	pshufb	%xmm4, %xmm11
	movdqa	160(%rsp), %xmm9
	paddd	%xmm11, %xmm9
	pxor	%xmm9, %xmm14
	movdqa	%xmm14, %xmm8
	psrld	$12, %xmm8
	pslld	$20, %xmm14
	por	%xmm8, %xmm14
	movdqa	96(%rsp), %xmm1
	paddd	704(%rsp), %xmm1
	paddd	%xmm10, %xmm1
	movdqa	352(%rsp), %xmm4
	pxor	%xmm1, %xmm4
	pshufb	%xmm5, %xmm4
	movdqa	208(%rsp), %xmm5
	paddd	%xmm4, %xmm5
	pxor	%xmm5, %xmm10
	movdqa	%xmm5, %xmm13
	movdqa	%xmm10, %xmm8
	pslld	$20, %xmm10
	psrld	$12, %xmm8
	por	%xmm8, %xmm10
	paddd	720(%rsp), %xmm1
	paddd	%xmm10, %xmm1
	movdqa	%xmm1, 96(%rsp)
	pxor	%xmm1, %xmm4
	pshufb	%xmm7, %xmm4
	movdqa	%xmm4, 352(%rsp)
	paddd	%xmm4, %xmm13
	movdqa	%xmm13, 208(%rsp)
	pxor	%xmm13, %xmm10
	movdqa	%xmm10, %xmm8
	psrld	$7, %xmm8
	pslld	$25, %xmm10
	por	%xmm8, %xmm10
	movdqa	%xmm10, 320(%rsp)
	movdqa	%xmm3, %xmm1
	paddd	816(%rsp), %xmm1
	paddd	%xmm14, %xmm1
	movdqa	%xmm1, 48(%rsp)
	pxor	%xmm1, %xmm11
	pshufb	%xmm7, %xmm11
	movdqa	%xmm7, %xmm4
	paddd	%xmm11, %xmm9
	pxor	%xmm9, %xmm14
	movdqa	%xmm14, %xmm8
	pslld	$25, %xmm14
	psrld	$7, %xmm8
	por	%xmm8, %xmm14
	movdqa	%xmm14, 384(%rsp)
	movdqa	64(%rsp), %xmm14
	paddd	640(%rsp), %xmm14
	movdqa	368(%rsp), %xmm1
	paddd	%xmm1, %xmm14
	pxor	%xmm14, %xmm15
	movdqa	.L1_v2_CPI70_0(%rip), %xmm10
	pshufb	%xmm10, %xmm15
	movdqa	256(%rsp), %xmm7
	paddd	%xmm15, %xmm7
	pxor	%xmm7, %xmm1
	movdqa	%xmm1, %xmm8
	psrld	$12, %xmm8
	pslld	$20, %xmm1
	por	%xmm8, %xmm1
	movdqa	(%rsp), %xmm8
	movdqa	880(%rsp), %xmm5
	paddd	%xmm5, %xmm8
	movdqa	%xmm8, (%rsp)
	movdqa	(%rsp), %xmm8
	movdqa	400(%rsp), %xmm3
	paddd	%xmm3, %xmm8
	movdqa	%xmm8, (%rsp)
	pxor	(%rsp), %xmm2
	pshufb	%xmm10, %xmm2
	movdqa	224(%rsp), %xmm8
	paddd	%xmm2, %xmm8
	pxor	%xmm8, %xmm3
	movdqa	%xmm8, %xmm10
	movdqa	%xmm3, %xmm8
	pslld	$20, %xmm3
	psrld	$12, %xmm8
	por	%xmm8, %xmm3
	movdqa	(%rsp), %xmm8
	paddd	592(%rsp), %xmm8
	movdqa	%xmm8, (%rsp)
	movdqa	(%rsp), %xmm8
	paddd	%xmm3, %xmm8
	movdqa	%xmm3, %xmm13
	movdqa	%xmm8, (%rsp)
	pxor	(%rsp), %xmm2
	pshufb	%xmm4, %xmm2
	paddd	%xmm2, %xmm10
	movdqa	%xmm10, 224(%rsp)
	pxor	%xmm10, %xmm13
	movdqa	%xmm13, %xmm8
	psrld	$7, %xmm8
	pslld	$25, %xmm13
	por	%xmm8, %xmm13
	movdqa	%xmm14, %xmm3
	paddd	688(%rsp), %xmm3
	paddd	%xmm1, %xmm3
	movdqa	%xmm3, 64(%rsp)
	pxor	%xmm3, %xmm15
	pshufb	%xmm4, %xmm15
	paddd	%xmm15, %xmm7
	movdqa	%xmm7, 256(%rsp)
	pxor	%xmm7, %xmm1
	movdqa	%xmm1, %xmm8
	pslld	$25, %xmm1
	psrld	$7, %xmm8
	por	%xmm8, %xmm1
	movdqa	32(%rsp), %xmm14
	paddd	480(%rsp), %xmm14
	paddd	%xmm1, %xmm14
	movdqa	144(%rsp), %xmm10
	pxor	%xmm14, %xmm10
	movdqa	.L1_v2_CPI70_0(%rip), %xmm4
	pshufb	%xmm4, %xmm10
	paddd	%xmm10, %xmm9
	pxor	%xmm9, %xmm1
	movdqa	%xmm1, %xmm8
	psrld	$12, %xmm8
	pslld	$20, %xmm1
	por	%xmm8, %xmm1
	movdqa	80(%rsp), %xmm3
	paddd	704(%rsp), %xmm3
	paddd	%xmm13, %xmm3
	pxor	%xmm3, %xmm6
	movdqa	%xmm3, %xmm7
	pshufb	%xmm4, %xmm6
	movdqa	208(%rsp), %xmm3
	paddd	%xmm6, %xmm3
	pxor	%xmm3, %xmm13
	movdqa	%xmm13, %xmm8
	pslld	$20, %xmm13
	psrld	$12, %xmm8
	por	%xmm8, %xmm13
	paddd	%xmm5, %xmm7
	paddd	%xmm13, %xmm7
	movdqa	%xmm7, 80(%rsp)
	pxor	%xmm7, %xmm6
	movdqa	.L1_v2_CPI70_2(%rip), %xmm7
	pshufb	%xmm7, %xmm6
	movdqa	%xmm6, 416(%rsp)
	paddd	%xmm6, %xmm3
	movdqa	%xmm3, 208(%rsp)
	pxor	%xmm3, %xmm13
	movdqa	%xmm13, %xmm8
	psrld	$7, %xmm8
	pslld	$25, %xmm13
	por	%xmm8, %xmm13
	movdqa	%xmm13, 400(%rsp)
	movdqa	%xmm14, %xmm6
	paddd	640(%rsp), %xmm6
	movdqa	%xmm1, %xmm3
	paddd	%xmm1, %xmm6
	movdqa	%xmm6, 32(%rsp)
	movdqa	%xmm10, %xmm5
	pxor	%xmm6, %xmm5
	pshufb	%xmm7, %xmm5
	movdqa	%xmm7, %xmm10
	movdqa	%xmm5, 144(%rsp)
	movdqa	%xmm9, %xmm1
	paddd	%xmm5, %xmm1
	movdqa	%xmm1, 160(%rsp)
	pxor	%xmm1, %xmm3
	movdqa	%xmm3, %xmm8
	pslld	$25, %xmm3
	psrld	$7, %xmm8
	por	%xmm8, %xmm3
	movdqa	%xmm3, 368(%rsp)
	movdqa	16(%rsp), %xmm9
	paddd	544(%rsp), %xmm9
	movdqa	288(%rsp), %xmm6
	paddd	%xmm6, %xmm9
	pxor	%xmm9, %xmm11
	movdqa	%xmm4, %xmm13
	pshufb	%xmm4, %xmm11
	movdqa	256(%rsp), %xmm14
	paddd	%xmm11, %xmm14
	pxor	%xmm14, %xmm6
	movdqa	%xmm6, %xmm8
	psrld	$12, %xmm8
	pslld	$20, %xmm6
	por	%xmm8, %xmm6
	movdqa	128(%rsp), %xmm3
	paddd	464(%rsp), %xmm3
	movdqa	304(%rsp), %xmm7
	paddd	%xmm7, %xmm3
	movdqa	352(%rsp), %xmm4
	pxor	%xmm3, %xmm4
	movdqa	%xmm3, %xmm5
	pshufb	%xmm13, %xmm4
	movdqa	224(%rsp), %xmm3
	paddd	%xmm4, %xmm3
	pxor	%xmm3, %xmm7
	movdqa	%xmm7, %xmm8
	pslld	$20, %xmm7
	psrld	$12, %xmm8
	por	%xmm8, %xmm7
	paddd	720(%rsp), %xmm5
	paddd	%xmm7, %xmm5
	movdqa	%xmm5, 128(%rsp)
	pxor	%xmm5, %xmm4
	pshufb	%xmm10, %xmm4
	paddd	%xmm4, %xmm3
	movdqa	%xmm3, 224(%rsp)
	pxor	%xmm3, %xmm7
	movdqa	%xmm7, %xmm8
	psrld	$7, %xmm8
	pslld	$25, %xmm7
	por	%xmm8, %xmm7
	movdqa	%xmm9, %xmm5
	paddd	816(%rsp), %xmm5
	movdqa	%xmm6, %xmm3
	paddd	%xmm6, %xmm5
	movdqa	%xmm5, 16(%rsp)
	pxor	%xmm5, %xmm11
	pshufb	%xmm10, %xmm11
	movdqa	%xmm14, %xmm1
	paddd	%xmm11, %xmm1
	movdqa	%xmm1, 256(%rsp)
	pxor	%xmm1, %xmm3
	movdqa	%xmm3, %xmm8
	pslld	$25, %xmm3
	psrld	$7, %xmm8
	por	%xmm8, %xmm3
	movdqa	%xmm3, 288(%rsp)
	movdqa	48(%rsp), %xmm14
	paddd	784(%rsp), %xmm14
	movdqa	336(%rsp), %xmm6
	paddd	%xmm6, %xmm14
	pxor	%xmm14, %xmm15
	movdqa	%xmm13, %xmm9
	pshufb	%xmm13, %xmm15
	movdqa	112(%rsp), %xmm13
	paddd	%xmm15, %xmm13
	pxor	%xmm13, %xmm6
	movdqa	%xmm6, %xmm8
	psrld	$12, %xmm8
	pslld	$20, %xmm6
	por	%xmm8, %xmm6
	movdqa	96(%rsp), %xmm5
	paddd	768(%rsp), %xmm5
	movdqa	176(%rsp), %xmm3
	paddd	%xmm3, %xmm5
	pxor	%xmm5, %xmm2
	pshufb	%xmm9, %xmm2
	movdqa	272(%rsp), %xmm1
	paddd	%xmm2, %xmm1
	pxor	%xmm1, %xmm3
	movdqa	%xmm1, %xmm10
	movdqa	%xmm3, %xmm8
	pslld	$20, %xmm3
	psrld	$12, %xmm8
	por	%xmm8, %xmm3
	paddd	752(%rsp), %xmm5
	paddd	%xmm3, %xmm5
	movdqa	%xmm5, 96(%rsp)
	movdqa	%xmm3, %xmm1
	pxor	%xmm5, %xmm2
	movdqa	.L1_v2_CPI70_2(%rip), %xmm5
	pshufb	%xmm5, %xmm2
	paddd	%xmm2, %xmm10
	movdqa	%xmm10, 272(%rsp)
	pxor	%xmm10, %xmm1
	movdqa	%xmm1, %xmm8
	psrld	$7, %xmm8
	pslld	$25, %xmm1
	por	%xmm8, %xmm1
	movdqa	%xmm1, 176(%rsp)
	paddd	736(%rsp), %xmm14
	movdqa	%xmm6, %xmm1
	paddd	%xmm6, %xmm14
	movdqa	%xmm14, 48(%rsp)
	pxor	%xmm14, %xmm15
	pshufb	%xmm5, %xmm15
	movdqa	%xmm13, %xmm3
	paddd	%xmm15, %xmm3
	movdqa	%xmm3, 112(%rsp)
	pxor	%xmm3, %xmm1
	movdqa	%xmm1, %xmm8
	pslld	$25, %xmm1
	psrld	$7, %xmm8
	por	%xmm8, %xmm1
	movdqa	%xmm1, %xmm13
	movdqa	64(%rsp), %xmm3
	paddd	848(%rsp), %xmm3
	movdqa	384(%rsp), %xmm6
	paddd	%xmm6, %xmm3
	pxor	%xmm3, %xmm12
	movdqa	%xmm9, %xmm1
	pshufb	%xmm9, %xmm12
	movdqa	240(%rsp), %xmm9
	paddd	%xmm12, %xmm9
	pxor	%xmm9, %xmm6
	movdqa	%xmm6, %xmm8
	psrld	$12, %xmm8
	pslld	$20, %xmm6
	por	%xmm8, %xmm6
	movdqa	(%rsp), %xmm8
	paddd	800(%rsp), %xmm8
	movdqa	%xmm8, (%rsp)
	movdqa	(%rsp), %xmm8
	movdqa	320(%rsp), %xmm14
	paddd	%xmm14, %xmm8
	movdqa	%xmm8, (%rsp)
	pxor	(%rsp), %xmm0
	pshufb	%xmm1, %xmm0
	movdqa	192(%rsp), %xmm1
	paddd	%xmm0, %xmm1
	pxor	%xmm1, %xmm14
	movdqa	%xmm14, %xmm8
	pslld	$20, %xmm14
	psrld	$12, %xmm8
	por	%xmm8, %xmm14
	movdqa	(%rsp), %xmm8
	paddd	896(%rsp), %xmm8
	movdqa	%xmm8, (%rsp)
	movdqa	(%rsp), %xmm8
	paddd	%xmm14, %xmm8
	movdqa	%xmm8, (%rsp)
	pxor	(%rsp), %xmm0
	pshufb	%xmm5, %xmm0
	paddd	%xmm0, %xmm1
	movdqa	%xmm1, 192(%rsp)
	pxor	%xmm1, %xmm14
	movdqa	%xmm14, %xmm8
	psrld	$7, %xmm8
	pslld	$25, %xmm14
	por	%xmm8, %xmm14
	movdqa	%xmm3, %xmm1
	paddd	560(%rsp), %xmm1
	paddd	%xmm6, %xmm1
	movdqa	%xmm1, 64(%rsp)
	pxor	%xmm1, %xmm12
	pshufb	%xmm5, %xmm12
	movdqa	%xmm9, %xmm1
	paddd	%xmm12, %xmm1
	movdqa	%xmm1, 240(%rsp)
	pxor	%xmm1, %xmm6
	movdqa	%xmm6, %xmm8
	pslld	$25, %xmm6
	psrld	$7, %xmm8
	por	%xmm8, %xmm6
	movdqa	%xmm6, %xmm10
	movdqa	32(%rsp), %xmm5
	paddd	496(%rsp), %xmm5
	movdqa	288(%rsp), %xmm3
	paddd	%xmm3, %xmm5
	pxor	%xmm5, %xmm12
	movdqa	.L1_v2_CPI70_0(%rip), %xmm6
	pshufb	%xmm6, %xmm12
	movdqa	112(%rsp), %xmm1
	paddd	%xmm12, %xmm1
	movdqa	%xmm1, 112(%rsp)
	pxor	%xmm1, %xmm3
	movdqa	%xmm3, %xmm8
	psrld	$12, %xmm8
	pslld	$20, %xmm3
	por	%xmm8, %xmm3
	movdqa	80(%rsp), %xmm9
	paddd	512(%rsp), %xmm9
	movdqa	%xmm7, %xmm1
	paddd	%xmm7, %xmm9
	pxor	%xmm9, %xmm0
	pshufb	%xmm6, %xmm0
	movdqa	272(%rsp), %xmm7
	paddd	%xmm0, %xmm7
	pxor	%xmm7, %xmm1
	movdqa	%xmm1, %xmm8
	pslld	$20, %xmm1
	psrld	$12, %xmm8
	por	%xmm8, %xmm1
	paddd	608(%rsp), %xmm9
	paddd	%xmm1, %xmm9
	movdqa	%xmm9, 80(%rsp)
	movdqa	%xmm1, %xmm6
	pxor	%xmm9, %xmm0
	movdqa	.L1_v2_CPI70_2(%rip), %xmm1
	pshufb	%xmm1, %xmm0
	paddd	%xmm0, %xmm7
	movdqa	%xmm7, 272(%rsp)
	pxor	%xmm7, %xmm6
	movdqa	%xmm6, %xmm8
	psrld	$7, %xmm8
	pslld	$25, %xmm6
	por	%xmm8, %xmm6
	movdqa	%xmm6, 304(%rsp)
	paddd	864(%rsp), %xmm5
	paddd	%xmm3, %xmm5
	movdqa	%xmm5, 32(%rsp)
	pxor	%xmm5, %xmm12
	pshufb	%xmm1, %xmm12
	movdqa	112(%rsp), %xmm1
	paddd	%xmm12, %xmm1
	movdqa	%xmm1, 112(%rsp)
	pxor	%xmm1, %xmm3
	movdqa	%xmm3, %xmm8
	pslld	$25, %xmm3
	psrld	$7, %xmm8
	por	%xmm8, %xmm3
	movdqa	%xmm3, 288(%rsp)
	movdqa	16(%rsp), %xmm1
	paddd	448(%rsp), %xmm1
	paddd	%xmm13, %xmm1
	movdqa	%xmm1, 16(%rsp)
	movdqa	144(%rsp), %xmm5
	pxor	%xmm1, %xmm5
	movdqa	.L1_v2_CPI70_0(%rip), %xmm3
	pshufb	%xmm3, %xmm5
	movdqa	%xmm5, 144(%rsp)
	movdqa	240(%rsp), %xmm9
	paddd	%xmm5, %xmm9
	pxor	%xmm9, %xmm13
	movdqa	%xmm13, %xmm8
	psrld	$12, %xmm8
	pslld	$20, %xmm13
	por	%xmm8, %xmm13
	movdqa	128(%rsp), %xmm1
	paddd	432(%rsp), %xmm1
	movdqa	176(%rsp), %xmm7
	paddd	%xmm7, %xmm1
	movdqa	416(%rsp), %xmm6
	pxor	%xmm1, %xmm6
	pshufb	%xmm3, %xmm6
	movdqa	192(%rsp), %xmm5
	paddd	%xmm6, %xmm5
	pxor	%xmm5, %xmm7
	movdqa	%xmm7, %xmm8
	pslld	$20, %xmm7
	psrld	$12, %xmm8
	por	%xmm8, %xmm7
	paddd	832(%rsp), %xmm1
	paddd	%xmm7, %xmm1
	movdqa	%xmm1, 128(%rsp)
	pxor	%xmm1, %xmm6
	movdqa	.L1_v2_CPI70_2(%rip), %xmm3
	pshufb	%xmm3, %xmm6
	paddd	%xmm6, %xmm5
	movdqa	%xmm5, 192(%rsp)
	pxor	%xmm5, %xmm7
	movdqa	%xmm7, %xmm8
	psrld	$7, %xmm8
	pslld	$25, %xmm7
	por	%xmm8, %xmm7
	movdqa	%xmm7, 176(%rsp)
	movdqa	16(%rsp), %xmm1
	paddd	528(%rsp), %xmm1
	paddd	%xmm13, %xmm1
	movdqa	%xmm1, 16(%rsp)
	movdqa	144(%rsp), %xmm5
	pxor	%xmm1, %xmm5
	pshufb	%xmm3, %xmm5
	paddd	%xmm5, %xmm9
	movdqa	%xmm9, 240(%rsp)
	pxor	%xmm9, %xmm13
	movdqa	%xmm13, %xmm8
	pslld	$25, %xmm13
	psrld	$7, %xmm8
	por	%xmm8, %xmm13
	movdqa	%xmm13, 336(%rsp)
	movdqa	48(%rsp), %xmm13
	paddd	688(%rsp), %xmm13
	paddd	%xmm10, %xmm13
	pxor	%xmm13, %xmm11
	movdqa	.L1_v2_CPI70_0(%rip), %xmm1
	pshufb	%xmm1, %xmm11
	movdqa	160(%rsp), %xmm3
	paddd	%xmm11, %xmm3
	pxor	%xmm3, %xmm10
	movdqa	%xmm10, %xmm8
	psrld	$12, %xmm8
	pslld	$20, %xmm10
	por	%xmm8, %xmm10
	movdqa	96(%rsp), %xmm7
	paddd	592(%rsp), %xmm7
	paddd	%xmm14, %xmm7
	pxor	%xmm7, %xmm4
	pshufb	%xmm1, %xmm4
	movdqa	208(%rsp), %xmm1
	paddd	%xmm4, %xmm1
	pxor	%xmm1, %xmm14
	movdqa	%xmm14, %xmm8
	pslld	$20, %xmm14
	psrld	$12, %xmm8
	por	%xmm8, %xmm14
	paddd	928(%rsp), %xmm7
	paddd	%xmm14, %xmm7
	movdqa	%xmm7, 96(%rsp)
	pxor	%xmm7, %xmm4
	movdqa	.L1_v2_CPI70_2(%rip), %xmm7
	pshufb	%xmm7, %xmm4
	paddd	%xmm4, %xmm1
	movdqa	%xmm1, 208(%rsp)
	pxor	%xmm1, %xmm14
	movdqa	%xmm14, %xmm8
	psrld	$7, %xmm8
	pslld	$25, %xmm14
	por	%xmm8, %xmm14
	movdqa	%xmm14, 320(%rsp)
	movdqa	%xmm13, %xmm1
	paddd	912(%rsp), %xmm1
	paddd	%xmm10, %xmm1
	movdqa	%xmm1, 48(%rsp)
	pxor	%xmm1, %xmm11
	pshufb	%xmm7, %xmm11
	movdqa	%xmm3, %xmm1
	paddd	%xmm11, %xmm1
	movdqa	%xmm1, 160(%rsp)
	pxor	%xmm1, %xmm10
	movdqa	%xmm10, %xmm8
	pslld	$25, %xmm10
	psrld	$7, %xmm8
	por	%xmm8, %xmm10
	movdqa	%xmm10, 384(%rsp)
	movdqa	64(%rsp), %xmm9
	paddd	624(%rsp), %xmm9
	movdqa	368(%rsp), %xmm14
	paddd	%xmm14, %xmm9
	pxor	%xmm9, %xmm15
	movdqa	.L1_v2_CPI70_0(%rip), %xmm13
	pshufb	%xmm13, %xmm15
	movdqa	256(%rsp), %xmm7
	paddd	%xmm15, %xmm7
	pxor	%xmm7, %xmm14
	movdqa	%xmm14, %xmm8
	psrld	$12, %xmm8
	pslld	$20, %xmm14
	por	%xmm8, %xmm14
	movdqa	(%rsp), %xmm8
	paddd	576(%rsp), %xmm8
	movdqa	%xmm8, (%rsp)
	movdqa	(%rsp), %xmm8
	movdqa	400(%rsp), %xmm10
	paddd	%xmm10, %xmm8
	movdqa	%xmm8, (%rsp)
	pxor	(%rsp), %xmm2
	pshufb	%xmm13, %xmm2
	movdqa	224(%rsp), %xmm1
	paddd	%xmm2, %xmm1
	pxor	%xmm1, %xmm10
	movdqa	%xmm10, %xmm8
	pslld	$20, %xmm10
	psrld	$12, %xmm8
	por	%xmm8, %xmm10
	movdqa	(%rsp), %xmm8
	paddd	656(%rsp), %xmm8
	movdqa	%xmm8, (%rsp)
	movdqa	(%rsp), %xmm8
	paddd	%xmm10, %xmm8
	movdqa	%xmm8, (%rsp)
	pxor	(%rsp), %xmm2
	movdqa	.L1_v2_CPI70_2(%rip), %xmm3
	pshufb	%xmm3, %xmm2
	paddd	%xmm2, %xmm1
	movdqa	%xmm1, 224(%rsp)
	pxor	%xmm1, %xmm10
	movdqa	%xmm10, %xmm8
	psrld	$7, %xmm8
	pslld	$25, %xmm10
	por	%xmm8, %xmm10
	paddd	672(%rsp), %xmm9
	paddd	%xmm14, %xmm9
	movdqa	%xmm9, 64(%rsp)
	pxor	%xmm9, %xmm15
	pshufb	%xmm3, %xmm15
	paddd	%xmm15, %xmm7
	movdqa	%xmm7, 256(%rsp)
	pxor	%xmm7, %xmm14
	movdqa	%xmm14, %xmm8
	pslld	$25, %xmm14
	psrld	$7, %xmm8
	por	%xmm8, %xmm14
	movdqa	32(%rsp), %xmm1
	paddd	640(%rsp), %xmm1
	paddd	%xmm14, %xmm1
	movdqa	%xmm1, 32(%rsp)
	pxor	%xmm1, %xmm5
	movdqa	%xmm13, %xmm3
	pshufb	%xmm13, %xmm5
	movdqa	160(%rsp), %xmm13
	paddd	%xmm5, %xmm13
	pxor	%xmm13, %xmm14
	movdqa	%xmm14, %xmm8
	psrld	$12, %xmm8
	pslld	$20, %xmm14
	por	%xmm8, %xmm14
	movdqa	80(%rsp), %xmm9
	paddd	880(%rsp), %xmm9
	paddd	%xmm10, %xmm9
	pxor	%xmm9, %xmm6
	movdqa	%xmm9, %xmm7
	pshufb	%xmm3, %xmm6
	movdqa	%xmm3, %xmm9
	movdqa	208(%rsp), %xmm1
	paddd	%xmm6, %xmm1
	pxor	%xmm1, %xmm10
	movdqa	%xmm10, %xmm8
	pslld	$20, %xmm10
	psrld	$12, %xmm8
	por	%xmm8, %xmm10
	paddd	928(%rsp), %xmm7
	paddd	%xmm10, %xmm7
	movdqa	%xmm7, 80(%rsp)
	pxor	%xmm7, %xmm6
	movdqa	.L1_v2_CPI70_2(%rip), %xmm3
	pshufb	%xmm3, %xmm6
	movdqa	%xmm6, 416(%rsp)
	paddd	%xmm6, %xmm1
	movdqa	%xmm1, 208(%rsp)
	pxor	%xmm1, %xmm10
	movdqa	%xmm10, %xmm8
	psrld	$7, %xmm8
	pslld	$25, %xmm10
	por	%xmm8, %xmm10
	movdqa	%xmm10, 400(%rsp)
	movdqa	32(%rsp), %xmm1
	paddd	912(%rsp), %xmm1
	movdqa	%xmm14, %xmm10
	paddd	%xmm14, %xmm1
	movdqa	%xmm1, 32(%rsp)
	pxor	%xmm1, %xmm5
	pshufb	%xmm3, %xmm5
	movdqa	%xmm5, 144(%rsp)
	paddd	%xmm5, %xmm13
	movdqa	%xmm13, 160(%rsp)
	pxor	%xmm13, %xmm10
	movdqa	%xmm10, %xmm8
	pslld	$25, %xmm10
	psrld	$7, %xmm8
	por	%xmm8, %xmm10
	movdqa	%xmm10, 368(%rsp)
	movdqa	16(%rsp), %xmm6
	paddd	448(%rsp), %xmm6
	movdqa	288(%rsp), %xmm7
	paddd	%xmm7, %xmm6
	pxor	%xmm6, %xmm11
	pshufb	%xmm9, %xmm11
	movdqa	256(%rsp), %xmm13
	paddd	%xmm11, %xmm13
	pxor	%xmm13, %xmm7
	movdqa	%xmm7, %xmm8
	psrld	$12, %xmm8
	pslld	$20, %xmm7
	por	%xmm8, %xmm7
	movdqa	128(%rsp), %xmm10
	paddd	432(%rsp), %xmm10
	movdqa	304(%rsp), %xmm1
	paddd	%xmm1, %xmm10
	pxor	%xmm10, %xmm4
	pshufb	%xmm9, %xmm4
	movdqa	%xmm9, %xmm14
	movdqa	224(%rsp), %xmm3
	paddd	%xmm4, %xmm3
	movdqa	%xmm1, %xmm9
	pxor	%xmm3, %xmm9
	movdqa	%xmm3, %xmm5
	movdqa	%xmm9, %xmm8
	pslld	$20, %xmm9
	psrld	$12, %xmm8
	por	%xmm8, %xmm9
	paddd	704(%rsp), %xmm10
	paddd	%xmm9, %xmm10
	movdqa	%xmm10, 128(%rsp)
	pxor	%xmm10, %xmm4
	movdqa	.L1_v2_CPI70_2(%rip), %xmm3
	pshufb	%xmm3, %xmm4
	movdqa	%xmm4, 352(%rsp)
	paddd	%xmm4, %xmm5
	movdqa	%xmm5, 224(%rsp)
	pxor	%xmm5, %xmm9
	movdqa	%xmm9, %xmm8
	psrld	$7, %xmm8
	pslld	$25, %xmm9
	por	%xmm8, %xmm9
	movdqa	%xmm6, %xmm5
	paddd	480(%rsp), %xmm5
	movdqa	%xmm7, %xmm1
	paddd	%xmm7, %xmm5
	movdqa	%xmm5, 16(%rsp)
	pxor	%xmm5, %xmm11
	pshufb	%xmm3, %xmm11
	movdqa	%xmm3, %xmm4
	movdqa	%xmm13, %xmm3
	paddd	%xmm11, %xmm3
	movdqa	%xmm3, 256(%rsp)
	pxor	%xmm3, %xmm1
	movdqa	%xmm1, %xmm8
	pslld	$25, %xmm1
	psrld	$7, %xmm8
	por	%xmm8, %xmm1
	movdqa	%xmm1, %xmm5
	movdqa	48(%rsp), %xmm6
	paddd	496(%rsp), %xmm6
	movdqa	336(%rsp), %xmm13
	paddd	%xmm13, %xmm6
	pxor	%xmm6, %xmm15
	movdqa	%xmm14, %xmm1
	pshufb	%xmm14, %xmm15
	movdqa	112(%rsp), %xmm10
	paddd	%xmm15, %xmm10
	pxor	%xmm10, %xmm13
	movdqa	%xmm13, %xmm8
	psrld	$12, %xmm8
	pslld	$20, %xmm13
	por	%xmm8, %xmm13
	movdqa	96(%rsp), %xmm3
	paddd	512(%rsp), %xmm3
	movdqa	176(%rsp), %xmm7
	paddd	%xmm7, %xmm3
	pxor	%xmm3, %xmm2
	movdqa	%xmm3, %xmm14
	pshufb	%xmm1, %xmm2
	movdqa	272(%rsp), %xmm1
	paddd	%xmm2, %xmm1
	movdqa	%xmm7, %xmm3
	pxor	%xmm1, %xmm3
	movdqa	%xmm1, %xmm7
	movdqa	%xmm3, %xmm8
	pslld	$20, %xmm3
	psrld	$12, %xmm8
	por	%xmm8, %xmm3
	paddd	592(%rsp), %xmm14
	paddd	%xmm3, %xmm14
	movdqa	%xmm14, 96(%rsp)
	pxor	%xmm14, %xmm2
	pshufb	%xmm4, %xmm2
	paddd	%xmm2, %xmm7
	pxor	%xmm7, %xmm3
	movdqa	%xmm3, %xmm8
	psrld	$7, %xmm8
	pslld	$25, %xmm3
	por	%xmm8, %xmm3
	movdqa	%xmm3, 176(%rsp)
	movdqa	%xmm6, %xmm3
	paddd	688(%rsp), %xmm3
	movdqa	%xmm13, %xmm14
	paddd	%xmm13, %xmm3
	movdqa	%xmm3, 48(%rsp)
	pxor	%xmm3, %xmm15
	pshufb	%xmm4, %xmm15
	movdqa	%xmm10, %xmm3
	paddd	%xmm15, %xmm3
	movdqa	%xmm3, 112(%rsp)
	pxor	%xmm3, %xmm14
	movdqa	%xmm14, %xmm8
	pslld	$25, %xmm14
	psrld	$7, %xmm8
	por	%xmm8, %xmm14
	movdqa	64(%rsp), %xmm6
	paddd	528(%rsp), %xmm6
	movdqa	384(%rsp), %xmm13
	paddd	%xmm13, %xmm6
	pxor	%xmm6, %xmm12
	movdqa	.L1_v2_CPI70_0(%rip), %xmm1
	pshufb	%xmm1, %xmm12
	movdqa	240(%rsp), %xmm4
	paddd	%xmm12, %xmm4
	pxor	%xmm4, %xmm13
	movdqa	%xmm13, %xmm8
	psrld	$12, %xmm8
	pslld	$20, %xmm13
	por	%xmm8, %xmm13
	movdqa	(%rsp), %xmm8
	paddd	832(%rsp), %xmm8
	movdqa	%xmm8, (%rsp)
	movdqa	(%rsp), %xmm8
	movdqa	320(%rsp), %xmm10
	paddd	%xmm10, %xmm8
	movdqa	%xmm8, (%rsp)
	pxor	(%rsp), %xmm0
	pshufb	%xmm1, %xmm0
	movdqa	192(%rsp), %xmm1
	paddd	%xmm0, %xmm1
	pxor	%xmm1, %xmm10
	movdqa	%xmm10, %xmm8
	pslld	$20, %xmm10
	psrld	$12, %xmm8
	por	%xmm8, %xmm10
	movdqa	(%rsp), %xmm8
	paddd	576(%rsp), %xmm8
	movdqa	%xmm8, (%rsp)
	movdqa	(%rsp), %xmm8
	paddd	%xmm10, %xmm8
	movdqa	%xmm8, (%rsp)
	pxor	(%rsp), %xmm0
	movdqa	.L1_v2_CPI70_2(%rip), %xmm3
	pshufb	%xmm3, %xmm0
	paddd	%xmm0, %xmm1
	movdqa	%xmm1, 192(%rsp)
	pxor	%xmm1, %xmm10
	movdqa	%xmm10, %xmm8
	psrld	$7, %xmm8
	pslld	$25, %xmm10
	por	%xmm8, %xmm10
	movdqa	%xmm10, 320(%rsp)
	paddd	624(%rsp), %xmm6
	movdqa	%xmm13, %xmm10
	paddd	%xmm13, %xmm6
	movdqa	%xmm6, 64(%rsp)
	pxor	%xmm6, %xmm12
	pshufb	%xmm3, %xmm12
	paddd	%xmm12, %xmm4
	pxor	%xmm4, %xmm10
	movdqa	%xmm4, %xmm3
	movdqa	%xmm10, %xmm8
	pslld	$25, %xmm10
	psrld	$7, %xmm8
	por	%xmm8, %xmm10
	movdqa	32(%rsp), %xmm6
	paddd	560(%rsp), %xmm6
	paddd	%xmm5, %xmm6
	pxor	%xmm6, %xmm12
	movdqa	.L1_v2_CPI70_0(%rip), %xmm4
	pshufb	%xmm4, %xmm12
	movdqa	112(%rsp), %xmm13
	paddd	%xmm12, %xmm13
	pxor	%xmm13, %xmm5
	movdqa	%xmm5, %xmm8
	psrld	$12, %xmm8
	pslld	$20, %xmm5
	por	%xmm8, %xmm5
	movdqa	80(%rsp), %xmm1
	paddd	896(%rsp), %xmm1
	paddd	%xmm9, %xmm1
	pxor	%xmm1, %xmm0
	pshufb	%xmm4, %xmm0
	paddd	%xmm0, %xmm7
	pxor	%xmm7, %xmm9
	movdqa	%xmm9, %xmm8
	pslld	$20, %xmm9
	psrld	$12, %xmm8
	por	%xmm8, %xmm9
	paddd	720(%rsp), %xmm1
	paddd	%xmm9, %xmm1
	movdqa	%xmm1, 80(%rsp)
	pxor	%xmm1, %xmm0
	movdqa	.L1_v2_CPI70_2(%rip), %xmm1
	pshufb	%xmm1, %xmm0
	paddd	%xmm0, %xmm7
	movdqa	%xmm7, 272(%rsp)
	pxor	%xmm7, %xmm9
	movdqa	%xmm9, %xmm8
	psrld	$7, %xmm8
	pslld	$25, %xmm9
	por	%xmm8, %xmm9
	movdqa	%xmm9, 304(%rsp)
	paddd	816(%rsp), %xmm6
	paddd	%xmm5, %xmm6
	movdqa	%xmm6, 32(%rsp)
	pxor	%xmm6, %xmm12
	pshufb	%xmm1, %xmm12
	movdqa	%xmm13, %xmm1
	paddd	%xmm12, %xmm1
	movdqa	%xmm1, 112(%rsp)
	pxor	%xmm1, %xmm5
	movdqa	%xmm5, %xmm8
	pslld	$25, %xmm5
	psrld	$7, %xmm8
	por	%xmm8, %xmm5
	movdqa	%xmm5, 288(%rsp)
	movdqa	16(%rsp), %xmm1
	paddd	848(%rsp), %xmm1
	paddd	%xmm14, %xmm1
	movdqa	%xmm1, 16(%rsp)
	movdqa	144(%rsp), %xmm13
	pxor	%xmm1, %xmm13
	movdqa	%xmm4, %xmm5
	pshufb	%xmm4, %xmm13
	paddd	%xmm13, %xmm3
	pxor	%xmm3, %xmm14
	movdqa	%xmm14, %xmm8
	psrld	$12, %xmm8
	pslld	$20, %xmm14
	por	%xmm8, %xmm14
	movdqa	128(%rsp), %xmm1
	paddd	800(%rsp), %xmm1
	movdqa	176(%rsp), %xmm7
	paddd	%xmm7, %xmm1
	movdqa	416(%rsp), %xmm6
	pxor	%xmm1, %xmm6
	movdqa	%xmm1, %xmm9
	pshufb	%xmm4, %xmm6
	movdqa	192(%rsp), %xmm1
	paddd	%xmm6, %xmm1
	pxor	%xmm1, %xmm7
	movdqa	%xmm7, %xmm8
	pslld	$20, %xmm7
	psrld	$12, %xmm8
	por	%xmm8, %xmm7
	paddd	752(%rsp), %xmm9
	paddd	%xmm7, %xmm9
	movdqa	%xmm9, 128(%rsp)
	pxor	%xmm9, %xmm6
	movdqa	.L1_v2_CPI70_2(%rip), %xmm4
	pshufb	%xmm4, %xmm6
	paddd	%xmm6, %xmm1
	movdqa	%xmm1, 192(%rsp)
	pxor	%xmm1, %xmm7
	movdqa	%xmm7, %xmm8
	psrld	$7, %xmm8
	pslld	$25, %xmm7
	por	%xmm8, %xmm7
	movdqa	%xmm7, 176(%rsp)
	movdqa	16(%rsp), %xmm1
	paddd	736(%rsp), %xmm1
	paddd	%xmm14, %xmm1
	movdqa	%xmm1, 16(%rsp)
	movdqa	%xmm13, %xmm7
	pxor	%xmm1, %xmm7
	pshufb	%xmm4, %xmm7
	movdqa	%xmm7, 144(%rsp)
	movdqa	%xmm3, %xmm1
	paddd	%xmm7, %xmm1
	movdqa	%xmm1, 240(%rsp)
	pxor	%xmm1, %xmm14
	movdqa	%xmm14, %xmm8
	pslld	$25, %xmm14
	psrld	$7, %xmm8
	por	%xmm8, %xmm14
	movdqa	%xmm14, 336(%rsp)
	movdqa	48(%rsp), %xmm14
	paddd	864(%rsp), %xmm14
	paddd	%xmm10, %xmm14
	pxor	%xmm14, %xmm11
	movdqa	%xmm5, %xmm3
	pshufb	%xmm5, %xmm11
	movdqa	160(%rsp), %xmm1
	paddd	%xmm11, %xmm1
	pxor	%xmm1, %xmm10
	movdqa	%xmm10, %xmm8
	psrld	$12, %xmm8
	pslld	$20, %xmm10
	por	%xmm8, %xmm10
	movdqa	96(%rsp), %xmm5
	paddd	608(%rsp), %xmm5
	movdqa	320(%rsp), %xmm9
	paddd	%xmm9, %xmm5
	movdqa	352(%rsp), %xmm4
	pxor	%xmm5, %xmm4
	pshufb	%xmm3, %xmm4
	movdqa	208(%rsp), %xmm8
	paddd	%xmm4, %xmm8
	pxor	%xmm8, %xmm9
	movdqa	%xmm8, %xmm3
	movdqa	%xmm9, %xmm8
	pslld	$20, %xmm9
	psrld	$12, %xmm8
	por	%xmm8, %xmm9
	paddd	656(%rsp), %xmm5
	paddd	%xmm9, %xmm5
	movdqa	%xmm5, 96(%rsp)
	movdqa	%xmm9, %xmm13
	pxor	%xmm5, %xmm4
	movdqa	.L1_v2_CPI70_2(%rip), %xmm5
	pshufb	%xmm5, %xmm4
	movdqa	%xmm4, 352(%rsp)
	paddd	%xmm4, %xmm3
	pxor	%xmm3, %xmm13
	movdqa	%xmm3, %xmm4
	movdqa	%xmm13, %xmm8
	psrld	$7, %xmm8
	pslld	$25, %xmm13
	por	%xmm8, %xmm13
	movdqa	%xmm14, %xmm7
	paddd	672(%rsp), %xmm7
	paddd	%xmm10, %xmm7
	movdqa	%xmm7, 48(%rsp)
	pxor	%xmm7, %xmm11
	pshufb	%xmm5, %xmm11
	paddd	%xmm11, %xmm1
	movdqa	%xmm1, 160(%rsp)
	pxor	%xmm1, %xmm10
	movdqa	%xmm10, %xmm8
	pslld	$25, %xmm10
	psrld	$7, %xmm8
	por	%xmm8, %xmm10
	movdqa	64(%rsp), %xmm1
	paddd	544(%rsp), %xmm1
	movdqa	368(%rsp), %xmm7
	paddd	%xmm7, %xmm1
	movdqa	%xmm1, 64(%rsp)
	pxor	%xmm1, %xmm15
	movdqa	.L1_v2_CPI70_0(%rip), %xmm9
	pshufb	%xmm9, %xmm15
	movdqa	256(%rsp), %xmm3
	paddd	%xmm15, %xmm3
	pxor	%xmm3, %xmm7
	movdqa	%xmm7, %xmm8
	psrld	$12, %xmm8
	pslld	$20, %xmm7
	por	%xmm8, %xmm7
	movdqa	(%rsp), %xmm8
	paddd	464(%rsp), %xmm8
	movdqa	%xmm8, (%rsp)
	movdqa	(%rsp), %xmm8
	movdqa	400(%rsp), %xmm5
	paddd	%xmm5, %xmm8
	movdqa	%xmm8, (%rsp)
	pxor	(%rsp), %xmm2
	pshufb	%xmm9, %xmm2
	movdqa	224(%rsp), %xmm14
	paddd	%xmm2, %xmm14
	pxor	%xmm14, %xmm5
	movdqa	%xmm5, %xmm8
	pslld	$20, %xmm5
	psrld	$12, %xmm8
	por	%xmm8, %xmm5
	movdqa	(%rsp), %xmm8
	paddd	768(%rsp), %xmm8
	movdqa	%xmm8, (%rsp)
	movdqa	(%rsp), %xmm8
	paddd	%xmm5, %xmm8
	movdqa	%xmm5, %xmm9
	movdqa	%xmm8, (%rsp)
	pxor	(%rsp), %xmm2
	movdqa	.L1_v2_CPI70_2(%rip), %xmm1
	pshufb	%xmm1, %xmm2
	paddd	%xmm2, %xmm14
	movdqa	%xmm14, 224(%rsp)
	pxor	%xmm14, %xmm9
	movdqa	%xmm9, %xmm8
	psrld	$7, %xmm8
	pslld	$25, %xmm9
	por	%xmm8, %xmm9
	movdqa	64(%rsp), %xmm5
	paddd	784(%rsp), %xmm5
	paddd	%xmm7, %xmm5
	movdqa	%xmm5, 64(%rsp)
	pxor	%xmm5, %xmm15
	pshufb	%xmm1, %xmm15
	paddd	%xmm15, %xmm3
	movdqa	%xmm3, 256(%rsp)
	pxor	%xmm3, %xmm7
	movdqa	%xmm7, %xmm8
	pslld	$25, %xmm7
	psrld	$7, %xmm8
	por	%xmm8, %xmm7
	movdqa	32(%rsp), %xmm3
	paddd	496(%rsp), %xmm3
	paddd	%xmm7, %xmm3
	movdqa	%xmm3, 32(%rsp)
	movdqa	144(%rsp), %xmm5
	pxor	%xmm3, %xmm5
	movdqa	.L1_v2_CPI70_0(%rip), %xmm3
	pshufb	%xmm3, %xmm5
	movdqa	160(%rsp), %xmm14
	paddd	%xmm5, %xmm14
	pxor	%xmm14, %xmm7
	movdqa	%xmm7, %xmm8
	psrld	$12, %xmm8
	pslld	$20, %xmm7
	por	%xmm8, %xmm7
	movdqa	80(%rsp), %xmm8
	paddd	512(%rsp), %xmm8
	paddd	%xmm9, %xmm8
	pxor	%xmm8, %xmm6
	movdqa	%xmm8, %xmm1
	pshufb	%xmm3, %xmm6
	movdqa	%xmm4, %xmm3
	paddd	%xmm6, %xmm3
	pxor	%xmm3, %xmm9
	movdqa	%xmm9, %xmm8
	pslld	$20, %xmm9
	psrld	$12, %xmm8
	por	%xmm8, %xmm9
	paddd	752(%rsp), %xmm1
	paddd	%xmm9, %xmm1
	movdqa	%xmm1, 80(%rsp)
	pxor	%xmm1, %xmm6
	movdqa	.L1_v2_CPI70_2(%rip), %xmm4
	pshufb	%xmm4, %xmm6
	movdqa	%xmm6, 416(%rsp)
	paddd	%xmm6, %xmm3
	movdqa	%xmm3, 208(%rsp)
	pxor	%xmm3, %xmm9
	movdqa	%xmm9, %xmm8
	psrld	$7, %xmm8
	pslld	$25, %xmm9
	por	%xmm8, %xmm9
	movdqa	32(%rsp), %xmm1
	paddd	736(%rsp), %xmm1
	paddd	%xmm7, %xmm1
	movdqa	%xmm1, 32(%rsp)
	pxor	%xmm1, %xmm5
	pshufb	%xmm4, %xmm5
	movdqa	%xmm5, 144(%rsp)
	paddd	%xmm5, %xmm14
	movdqa	%xmm14, 160(%rsp)
	pxor	%xmm14, %xmm7
	movdqa	%xmm7, %xmm8
	pslld	$25, %xmm7
	psrld	$7, %xmm8
	por	%xmm8, %xmm7
	movdqa	%xmm7, 368(%rsp)
	movdqa	16(%rsp), %xmm1
	paddd	864(%rsp), %xmm1
	movdqa	288(%rsp), %xmm5
	paddd	%xmm5, %xmm1
	movdqa	%xmm1, 16(%rsp)
	pxor	%xmm1, %xmm11
	movdqa	.L1_v2_CPI70_0(%rip), %xmm6
	pshufb	%xmm6, %xmm11
	movdqa	256(%rsp), %xmm14
	paddd	%xmm11, %xmm14
	pxor	%xmm14, %xmm5
	movdqa	%xmm5, %xmm8
	psrld	$12, %xmm8
	pslld	$20, %xmm5
	por	%xmm8, %xmm5
	movdqa	128(%rsp), %xmm3
	paddd	608(%rsp), %xmm3
	movdqa	304(%rsp), %xmm1
	paddd	%xmm1, %xmm3
	movdqa	352(%rsp), %xmm4
	pxor	%xmm3, %xmm4
	movdqa	%xmm3, %xmm7
	pshufb	%xmm6, %xmm4
	movdqa	224(%rsp), %xmm3
	paddd	%xmm4, %xmm3
	pxor	%xmm3, %xmm1
	movdqa	%xmm1, %xmm8
	pslld	$20, %xmm1
	psrld	$12, %xmm8
	por	%xmm8, %xmm1
	paddd	832(%rsp), %xmm7
	paddd	%xmm1, %xmm7
	movdqa	%xmm7, 128(%rsp)
	pxor	%xmm7, %xmm4
	movdqa	.L1_v2_CPI70_2(%rip), %xmm6
	pshufb	%xmm6, %xmm4
	movdqa	%xmm4, 352(%rsp)
	paddd	%xmm4, %xmm3
	movdqa	%xmm3, 224(%rsp)
	pxor	%xmm3, %xmm1
	movdqa	%xmm1, %xmm8
	psrld	$7, %xmm8
	pslld	$25, %xmm1
	por	%xmm8, %xmm1
	movdqa	%xmm1, 304(%rsp)
	movdqa	16(%rsp), %xmm1
	paddd	528(%rsp), %xmm1
	paddd	%xmm5, %xmm1
	movdqa	%xmm1, 16(%rsp)
	pxor	%xmm1, %xmm11
	pshufb	%xmm6, %xmm11
	movdqa	%xmm14, %xmm1
	paddd	%xmm11, %xmm1
	movdqa	%xmm1, 256(%rsp)
	pxor	%xmm1, %xmm5
	movdqa	%xmm5, %xmm8
	pslld	$25, %xmm5
	psrld	$7, %xmm8
	por	%xmm8, %xmm5
	movdqa	48(%rsp), %xmm14
	paddd	912(%rsp), %xmm14
	movdqa	336(%rsp), %xmm7
	paddd	%xmm7, %xmm14
	pxor	%xmm14, %xmm15
	movdqa	.L1_v2_CPI70_0(%rip), %xmm1
	pshufb	%xmm1, %xmm15
	movdqa	112(%rsp), %xmm4
	paddd	%xmm15, %xmm4
	movdqa	%xmm4, 112(%rsp)
	pxor	%xmm4, %xmm7
	movdqa	%xmm7, %xmm8
	psrld	$12, %xmm8
	pslld	$20, %xmm7
	por	%xmm8, %xmm7
	movdqa	96(%rsp), %xmm3
	paddd	928(%rsp), %xmm3
	movdqa	176(%rsp), %xmm6
	paddd	%xmm6, %xmm3
	pxor	%xmm3, %xmm2
	pshufb	%xmm1, %xmm2
	movdqa	272(%rsp), %xmm4
	paddd	%xmm2, %xmm4
	pxor	%xmm4, %xmm6
	movdqa	%xmm6, %xmm8
	pslld	$20, %xmm6
	psrld	$12, %xmm8
	por	%xmm8, %xmm6
	paddd	800(%rsp), %xmm3
	paddd	%xmm6, %xmm3
	movdqa	%xmm3, 96(%rsp)
	pxor	%xmm3, %xmm2
	movdqa	.L1_v2_CPI70_2(%rip), %xmm1
	pshufb	%xmm1, %xmm2
	paddd	%xmm2, %xmm4
	pxor	%xmm4, %xmm6
	movdqa	%xmm6, %xmm8
	psrld	$7, %xmm8
	pslld	$25, %xmm6
	por	%xmm8, %xmm6
	movdqa	%xmm6, 176(%rsp)
	movdqa	%xmm14, %xmm3
	paddd	848(%rsp), %xmm3
	paddd	%xmm7, %xmm3
	movdqa	%xmm3, 48(%rsp)
	pxor	%xmm3, %xmm15
	pshufb	%xmm1, %xmm15
	movdqa	112(%rsp), %xmm1
	paddd	%xmm15, %xmm1
	movdqa	%xmm1, 112(%rsp)
	pxor	%xmm1, %xmm7
	movdqa	%xmm7, %xmm8
	pslld	$25, %xmm7
	psrld	$7, %xmm8
	por	%xmm8, %xmm7
	movdqa	64(%rsp), %xmm3
	paddd	672(%rsp), %xmm3
	paddd	%xmm10, %xmm3
	pxor	%xmm3, %xmm12
	movdqa	.L1_v2_CPI70_0(%rip), %xmm1
	pshufb	%xmm1, %xmm12
	movdqa	240(%rsp), %xmm6
	paddd	%xmm12, %xmm6
	pxor	%xmm6, %xmm10
	movdqa	%xmm10, %xmm8
	psrld	$12, %xmm8
	pslld	$20, %xmm10
	por	%xmm8, %xmm10
	movdqa	(%rsp), %xmm8
	paddd	656(%rsp), %xmm8
	movdqa	%xmm8, (%rsp)
	movdqa	(%rsp), %xmm8
	paddd	%xmm13, %xmm8
	movdqa	%xmm8, (%rsp)
	pxor	(%rsp), %xmm0
	pshufb	%xmm1, %xmm0
	movdqa	192(%rsp), %xmm14
	paddd	%xmm0, %xmm14
	pxor	%xmm14, %xmm13
	movdqa	%xmm13, %xmm8
	pslld	$20, %xmm13
	psrld	$12, %xmm8
	por	%xmm8, %xmm13
	movdqa	(%rsp), %xmm8
	paddd	464(%rsp), %xmm8
	movdqa	%xmm8, (%rsp)
	movdqa	(%rsp), %xmm8
	paddd	%xmm13, %xmm8
	movdqa	%xmm8, (%rsp)
	pxor	(%rsp), %xmm0
	movdqa	.L1_v2_CPI70_2(%rip), %xmm1
	pshufb	%xmm1, %xmm0
	paddd	%xmm0, %xmm14
	movdqa	%xmm14, 192(%rsp)
	pxor	%xmm14, %xmm13
	movdqa	%xmm13, %xmm8
	psrld	$7, %xmm8
	pslld	$25, %xmm13
	por	%xmm8, %xmm13
	paddd	544(%rsp), %xmm3
	paddd	%xmm10, %xmm3
	movdqa	%xmm3, 64(%rsp)
	pxor	%xmm3, %xmm12
	pshufb	%xmm1, %xmm12
	movdqa	%xmm6, %xmm1
	paddd	%xmm12, %xmm1
	movdqa	%xmm1, 240(%rsp)
	pxor	%xmm1, %xmm10
	movdqa	%xmm10, %xmm8
	pslld	$25, %xmm10
	psrld	$7, %xmm8
	por	%xmm8, %xmm10
	movdqa	32(%rsp), %xmm1
	paddd	688(%rsp), %xmm1
	paddd	%xmm5, %xmm1
	movdqa	%xmm1, 32(%rsp)
	pxor	%xmm1, %xmm12
	movdqa	.L1_v2_CPI70_0(%rip), %xmm3
	pshufb	%xmm3, %xmm12
	movdqa	112(%rsp), %xmm14
	paddd	%xmm12, %xmm14
	pxor	%xmm14, %xmm5
	movdqa	%xmm5, %xmm8
	psrld	$12, %xmm8
	pslld	$20, %xmm5
	por	%xmm8, %xmm5
	movdqa	80(%rsp), %xmm1
	paddd	592(%rsp), %xmm1
	movdqa	304(%rsp), %xmm6
	paddd	%xmm6, %xmm1
	pxor	%xmm1, %xmm0
	pshufb	%xmm3, %xmm0
	paddd	%xmm0, %xmm4
	pxor	%xmm4, %xmm6
	movdqa	%xmm6, %xmm8
	pslld	$20, %xmm6
	psrld	$12, %xmm8
	por	%xmm8, %xmm6
	paddd	768(%rsp), %xmm1
	paddd	%xmm6, %xmm1
	movdqa	%xmm1, 80(%rsp)
	pxor	%xmm1, %xmm0
	movdqa	.L1_v2_CPI70_2(%rip), %xmm3
	pshufb	%xmm3, %xmm0
	paddd	%xmm0, %xmm4
	movdqa	%xmm4, 272(%rsp)
	pxor	%xmm4, %xmm6
	movdqa	%xmm6, %xmm8
	psrld	$7, %xmm8
	pslld	$25, %xmm6
	por	%xmm8, %xmm6
	movdqa	%xmm6, 304(%rsp)
	movdqa	32(%rsp), %xmm1
	paddd	784(%rsp), %xmm1
	paddd	%xmm5, %xmm1
	movdqa	%xmm1, 32(%rsp)
	pxor	%xmm1, %xmm12
	pshufb	%xmm3, %xmm12
	movdqa	%xmm14, %xmm1
	paddd	%xmm12, %xmm1
	movdqa	%xmm1, 112(%rsp)
	pxor	%xmm1, %xmm5
	movdqa	%xmm5, %xmm8
	pslld	$25, %xmm5
	psrld	$7, %xmm8
	por	%xmm8, %xmm5
	movdqa	%xmm5, 288(%rsp)
	movdqa	16(%rsp), %xmm3
	paddd	480(%rsp), %xmm3
	paddd	%xmm7, %xmm3
	movdqa	%xmm3, 16(%rsp)
	movdqa	144(%rsp), %xmm1
	pxor	%xmm3, %xmm1
	movdqa	.L1_v2_CPI70_0(%rip), %xmm4
	pshufb	%xmm4, %xmm1
	movdqa	%xmm1, 144(%rsp)
	movdqa	240(%rsp), %xmm14
	paddd	%xmm1, %xmm14
	pxor	%xmm14, %xmm7
	movdqa	%xmm7, %xmm8
	psrld	$12, %xmm8
	pslld	$20, %xmm7
	por	%xmm8, %xmm7
	movdqa	128(%rsp), %xmm8
	paddd	704(%rsp), %xmm8
	movdqa	176(%rsp), %xmm1
	paddd	%xmm1, %xmm8
	movdqa	416(%rsp), %xmm6
	pxor	%xmm8, %xmm6
	movdqa	%xmm8, %xmm3
	pshufb	%xmm4, %xmm6
	movdqa	192(%rsp), %xmm8
	paddd	%xmm6, %xmm8
	pxor	%xmm8, %xmm1
	movdqa	%xmm8, %xmm5
	movdqa	%xmm1, %xmm8
	pslld	$20, %xmm1
	psrld	$12, %xmm8
	por	%xmm8, %xmm1
	paddd	432(%rsp), %xmm3
	paddd	%xmm1, %xmm3
	movdqa	%xmm3, 128(%rsp)
	pxor	%xmm3, %xmm6
	movdqa	.L1_v2_CPI70_2(%rip), %xmm3
	pshufb	%xmm3, %xmm6
	paddd	%xmm6, %xmm5
	movdqa	%xmm5, 192(%rsp)
	pxor	%xmm5, %xmm1
	movdqa	%xmm1, %xmm8
	psrld	$7, %xmm8
	pslld	$25, %xmm1
	por	%xmm8, %xmm1
	movdqa	%xmm1, 176(%rsp)
	movdqa	16(%rsp), %xmm1
	paddd	448(%rsp), %xmm1
	paddd	%xmm7, %xmm1
	movdqa	%xmm1, 16(%rsp)
	movdqa	144(%rsp), %xmm5
	pxor	%xmm1, %xmm5
	pshufb	%xmm3, %xmm5
	paddd	%xmm5, %xmm14
	movdqa	%xmm14, 240(%rsp)
	pxor	%xmm14, %xmm7
	movdqa	%xmm7, %xmm8
	pslld	$25, %xmm7
	psrld	$7, %xmm8
	por	%xmm8, %xmm7
	movdqa	%xmm7, 336(%rsp)
	movdqa	48(%rsp), %xmm1
	paddd	624(%rsp), %xmm1
	paddd	%xmm10, %xmm1
	movdqa	%xmm1, 48(%rsp)
	pxor	%xmm1, %xmm11
	movdqa	%xmm4, %xmm3
	pshufb	%xmm4, %xmm11
	movdqa	160(%rsp), %xmm14
	paddd	%xmm11, %xmm14
	pxor	%xmm14, %xmm10
	movdqa	%xmm10, %xmm8
	psrld	$12, %xmm8
	pslld	$20, %xmm10
	por	%xmm8, %xmm10
	movdqa	96(%rsp), %xmm1
	paddd	576(%rsp), %xmm1
	paddd	%xmm13, %xmm1
	movdqa	352(%rsp), %xmm4
	pxor	%xmm1, %xmm4
	movdqa	%xmm1, %xmm7
	pshufb	%xmm3, %xmm4
	movdqa	208(%rsp), %xmm1
	paddd	%xmm4, %xmm1
	pxor	%xmm1, %xmm13
	movdqa	%xmm13, %xmm8
	pslld	$20, %xmm13
	psrld	$12, %xmm8
	por	%xmm8, %xmm13
	paddd	896(%rsp), %xmm7
	paddd	%xmm13, %xmm7
	movdqa	%xmm7, 96(%rsp)
	pxor	%xmm7, %xmm4
	movdqa	.L1_v2_CPI70_2(%rip), %xmm7
	pshufb	%xmm7, %xmm4
	paddd	%xmm4, %xmm1
	movdqa	%xmm1, 208(%rsp)
	pxor	%xmm1, %xmm13
	movdqa	%xmm13, %xmm8
	psrld	$7, %xmm8
	pslld	$25, %xmm13
	por	%xmm8, %xmm13
	movdqa	%xmm13, 320(%rsp)
	movdqa	48(%rsp), %xmm1
	paddd	560(%rsp), %xmm1
	paddd	%xmm10, %xmm1
	movdqa	%xmm1, 48(%rsp)
	pxor	%xmm1, %xmm11
	pshufb	%xmm7, %xmm11
	paddd	%xmm11, %xmm14
	pxor	%xmm14, %xmm10
	movdqa	%xmm10, %xmm8
	pslld	$25, %xmm10
	psrld	$7, %xmm8
	por	%xmm8, %xmm10
	movdqa	64(%rsp), %xmm1
	paddd	816(%rsp), %xmm1
	movdqa	368(%rsp), %xmm7
	paddd	%xmm7, %xmm1
	movdqa	%xmm1, 64(%rsp)
	pxor	%xmm1, %xmm15
	pshufb	%xmm3, %xmm15
	movdqa	256(%rsp), %xmm13
	paddd	%xmm15, %xmm13
	pxor	%xmm13, %xmm7
	movdqa	%xmm7, %xmm8
	psrld	$12, %xmm8
	pslld	$20, %xmm7
	por	%xmm8, %xmm7
	movdqa	(%rsp), %xmm8
	paddd	720(%rsp), %xmm8
	movdqa	%xmm8, (%rsp)
	movdqa	(%rsp), %xmm8
	paddd	%xmm9, %xmm8
	movdqa	%xmm8, (%rsp)
	pxor	(%rsp), %xmm2
	pshufb	%xmm3, %xmm2
	movdqa	224(%rsp), %xmm3
	paddd	%xmm2, %xmm3
	pxor	%xmm3, %xmm9
	movdqa	%xmm9, %xmm8
	pslld	$20, %xmm9
	psrld	$12, %xmm8
	por	%xmm8, %xmm9
	movdqa	(%rsp), %xmm8
	paddd	880(%rsp), %xmm8
	movdqa	%xmm8, (%rsp)
	movdqa	(%rsp), %xmm8
	paddd	%xmm9, %xmm8
	movdqa	%xmm8, (%rsp)
	pxor	(%rsp), %xmm2
	movdqa	.L1_v2_CPI70_2(%rip), %xmm1
	pshufb	%xmm1, %xmm2
	paddd	%xmm2, %xmm3
	movdqa	%xmm3, 224(%rsp)
	pxor	%xmm3, %xmm9
	movdqa	%xmm9, %xmm8
	psrld	$7, %xmm8
	pslld	$25, %xmm9
	por	%xmm8, %xmm9
	movdqa	64(%rsp), %xmm3
	paddd	640(%rsp), %xmm3
	paddd	%xmm7, %xmm3
	movdqa	%xmm3, 64(%rsp)
	pxor	%xmm3, %xmm15
	pshufb	%xmm1, %xmm15
	paddd	%xmm15, %xmm13
	pxor	%xmm13, %xmm7
	movdqa	%xmm7, %xmm8
	pslld	$25, %xmm7
	psrld	$7, %xmm8
	por	%xmm8, %xmm7
	movdqa	32(%rsp), %xmm1
	paddd	736(%rsp), %xmm1
	paddd	%xmm7, %xmm1
	movdqa	%xmm1, 32(%rsp)
	pxor	%xmm1, %xmm5
	movdqa	.L1_v2_CPI70_0(%rip), %xmm1
	pshufb	%xmm1, %xmm5
	paddd	%xmm5, %xmm14
	pxor	%xmm14, %xmm7
	movdqa	%xmm7, %xmm8
	psrld	$12, %xmm8
	pslld	$20, %xmm7
	por	%xmm8, %xmm7
	movdqa	80(%rsp), %xmm3
	paddd	752(%rsp), %xmm3
	paddd	%xmm9, %xmm3
	pxor	%xmm3, %xmm6
	pshufb	%xmm1, %xmm6
	movdqa	208(%rsp), %xmm1
	paddd	%xmm6, %xmm1
	pxor	%xmm1, %xmm9
	movdqa	%xmm9, %xmm8
	pslld	$20, %xmm9
	psrld	$12, %xmm8
	por	%xmm8, %xmm9
	paddd	432(%rsp), %xmm3
	paddd	%xmm9, %xmm3
	movdqa	%xmm3, 80(%rsp)
	pxor	%xmm3, %xmm6
	movdqa	.L1_v2_CPI70_2(%rip), %xmm3
	pshufb	%xmm3, %xmm6
	movdqa	%xmm6, 416(%rsp)
	paddd	%xmm6, %xmm1
	movdqa	%xmm1, 208(%rsp)
	pxor	%xmm1, %xmm9
	movdqa	%xmm9, %xmm8
	psrld	$7, %xmm8
	pslld	$25, %xmm9
	por	%xmm8, %xmm9
	movdqa	%xmm9, 400(%rsp)
	movdqa	32(%rsp), %xmm1
	paddd	448(%rsp), %xmm1
	paddd	%xmm7, %xmm1
	movdqa	%xmm1, 32(%rsp)
	pxor	%xmm1, %xmm5
	pshufb	%xmm3, %xmm5
	movdqa	%xmm5, 144(%rsp)
	paddd	%xmm5, %xmm14
	movdqa	%xmm14, 160(%rsp)
	pxor	%xmm14, %xmm7
	movdqa	%xmm7, %xmm8
	pslld	$25, %xmm7
	psrld	$7, %xmm8
	por	%xmm8, %xmm7
	movdqa	%xmm7, 368(%rsp)
	movdqa	16(%rsp), %xmm7
	paddd	816(%rsp), %xmm7
	movdqa	288(%rsp), %xmm6
	paddd	%xmm6, %xmm7
	pxor	%xmm7, %xmm11
	movdqa	.L1_v2_CPI70_0(%rip), %xmm1
	pshufb	%xmm1, %xmm11
	movdqa	%xmm13, %xmm5
	paddd	%xmm11, %xmm5
	pxor	%xmm5, %xmm6
	movdqa	%xmm6, %xmm8
	psrld	$12, %xmm8
	pslld	$20, %xmm6
	por	%xmm8, %xmm6
	movdqa	128(%rsp), %xmm8
	paddd	720(%rsp), %xmm8
	movdqa	304(%rsp), %xmm9
	paddd	%xmm9, %xmm8
	pxor	%xmm8, %xmm4
	movdqa	%xmm8, %xmm3
	pshufb	%xmm1, %xmm4
	movdqa	%xmm1, %xmm13
	movdqa	224(%rsp), %xmm1
	paddd	%xmm4, %xmm1
	pxor	%xmm1, %xmm9
	movdqa	%xmm9, %xmm8
	pslld	$20, %xmm9
	psrld	$12, %xmm8
	por	%xmm8, %xmm9
	paddd	576(%rsp), %xmm3
	paddd	%xmm9, %xmm3
	movdqa	%xmm3, 128(%rsp)
	pxor	%xmm3, %xmm4
	movdqa	.L1_v2_CPI70_2(%rip), %xmm14
	pshufb	%xmm14, %xmm4
	paddd	%xmm4, %xmm1
	movdqa	%xmm1, 224(%rsp)
	pxor	%xmm1, %xmm9
	movdqa	%xmm9, %xmm8
	psrld	$7, %xmm8
	pslld	$25, %xmm9
	por	%xmm8, %xmm9
	movdqa	%xmm7, %xmm3
	paddd	624(%rsp), %xmm3
	movdqa	%xmm6, %xmm1
	paddd	%xmm6, %xmm3
	movdqa	%xmm3, 16(%rsp)
	pxor	%xmm3, %xmm11
	pshufb	%xmm14, %xmm11
	paddd	%xmm11, %xmm5
	movdqa	%xmm5, 256(%rsp)
	pxor	%xmm5, %xmm1
	movdqa	%xmm1, %xmm8
	pslld	$25, %xmm1
	psrld	$7, %xmm8
	por	%xmm8, %xmm1
	movdqa	%xmm1, 288(%rsp)
	movdqa	48(%rsp), %xmm1
	paddd	560(%rsp), %xmm1
	movdqa	336(%rsp), %xmm6
	paddd	%xmm6, %xmm1
	movdqa	%xmm1, 48(%rsp)
	pxor	%xmm1, %xmm15
	pshufb	%xmm13, %xmm15
	movdqa	112(%rsp), %xmm14
	paddd	%xmm15, %xmm14
	pxor	%xmm14, %xmm6
	movdqa	%xmm6, %xmm8
	psrld	$12, %xmm8
	pslld	$20, %xmm6
	por	%xmm8, %xmm6
	movdqa	96(%rsp), %xmm5
	paddd	896(%rsp), %xmm5
	movdqa	176(%rsp), %xmm3
	paddd	%xmm3, %xmm5
	pxor	%xmm5, %xmm2
	pshufb	%xmm13, %xmm2
	movdqa	272(%rsp), %xmm1
	paddd	%xmm2, %xmm1
	pxor	%xmm1, %xmm3
	movdqa	%xmm1, %xmm7
	movdqa	%xmm3, %xmm8
	pslld	$20, %xmm3
	psrld	$12, %xmm8
	por	%xmm8, %xmm3
	paddd	768(%rsp), %xmm5
	paddd	%xmm3, %xmm5
	movdqa	%xmm5, 96(%rsp)
	movdqa	%xmm3, %xmm1
	pxor	%xmm5, %xmm2
	movdqa	.L1_v2_CPI70_2(%rip), %xmm3
	pshufb	%xmm3, %xmm2
	paddd	%xmm2, %xmm7
	pxor	%xmm7, %xmm1
	movdqa	%xmm1, %xmm8
	psrld	$7, %xmm8
	pslld	$25, %xmm1
	por	%xmm8, %xmm1
	movdqa	%xmm1, 176(%rsp)
	movdqa	48(%rsp), %xmm1
	paddd	784(%rsp), %xmm1
	paddd	%xmm6, %xmm1
	movdqa	%xmm1, 48(%rsp)
	pxor	%xmm1, %xmm15
	pshufb	%xmm3, %xmm15
	movdqa	%xmm14, %xmm3
	paddd	%xmm15, %xmm3
	movdqa	%xmm3, 112(%rsp)
	pxor	%xmm3, %xmm6
	movdqa	%xmm6, %xmm8
	pslld	$25, %xmm6
	psrld	$7, %xmm8
	por	%xmm8, %xmm6
	movdqa	%xmm6, %xmm5
	movdqa	64(%rsp), %xmm1
	paddd	688(%rsp), %xmm1
	paddd	%xmm10, %xmm1
	pxor	%xmm1, %xmm12
	movdqa	%xmm13, %xmm6
	pshufb	%xmm13, %xmm12
	movdqa	240(%rsp), %xmm3
	paddd	%xmm12, %xmm3
	pxor	%xmm3, %xmm10
	movdqa	%xmm10, %xmm8
	psrld	$12, %xmm8
	pslld	$20, %xmm10
	por	%xmm8, %xmm10
	movdqa	(%rsp), %xmm8
	paddd	592(%rsp), %xmm8
	movdqa	%xmm8, (%rsp)
	movdqa	(%rsp), %xmm8
	movdqa	320(%rsp), %xmm13
	paddd	%xmm13, %xmm8
	movdqa	%xmm8, (%rsp)
	pxor	(%rsp), %xmm0
	pshufb	%xmm6, %xmm0
	movdqa	192(%rsp), %xmm14
	paddd	%xmm0, %xmm14
	pxor	%xmm14, %xmm13
	movdqa	%xmm13, %xmm8
	pslld	$20, %xmm13
	psrld	$12, %xmm8
	por	%xmm8, %xmm13
	movdqa	(%rsp), %xmm8
	paddd	832(%rsp), %xmm8
	movdqa	%xmm8, (%rsp)
	movdqa	(%rsp), %xmm8
	paddd	%xmm13, %xmm8
	movdqa	%xmm8, (%rsp)
	pxor	(%rsp), %xmm0
	movdqa	.L1_v2_CPI70_2(%rip), %xmm6
	pshufb	%xmm6, %xmm0
	paddd	%xmm0, %xmm14
	movdqa	%xmm14, 192(%rsp)
	pxor	%xmm14, %xmm13
	movdqa	%xmm13, %xmm8
	psrld	$7, %xmm8
	pslld	$25, %xmm13
	por	%xmm8, %xmm13
	movdqa	%xmm13, 320(%rsp)
	paddd	528(%rsp), %xmm1
	paddd	%xmm10, %xmm1
	movdqa	%xmm1, 64(%rsp)
	pxor	%xmm1, %xmm12
	pshufb	%xmm6, %xmm12
	paddd	%xmm12, %xmm3
	movdqa	%xmm3, 240(%rsp)
	pxor	%xmm3, %xmm10
	movdqa	%xmm10, %xmm8
	pslld	$25, %xmm10
	psrld	$7, %xmm8
	por	%xmm8, %xmm10
	movdqa	32(%rsp), %xmm3
	paddd	912(%rsp), %xmm3
	movdqa	288(%rsp), %xmm13
	paddd	%xmm13, %xmm3
	pxor	%xmm3, %xmm12
	movdqa	.L1_v2_CPI70_0(%rip), %xmm1
	pshufb	%xmm1, %xmm12
	movdqa	112(%rsp), %xmm14
	paddd	%xmm12, %xmm14
	pxor	%xmm14, %xmm13
	movdqa	%xmm13, %xmm8
	psrld	$12, %xmm8
	pslld	$20, %xmm13
	por	%xmm8, %xmm13
	movdqa	80(%rsp), %xmm8
	paddd	928(%rsp), %xmm8
	paddd	%xmm9, %xmm8
	pxor	%xmm8, %xmm0
	movdqa	%xmm8, %xmm6
	pshufb	%xmm1, %xmm0
	paddd	%xmm0, %xmm7
	pxor	%xmm7, %xmm9
	movdqa	%xmm9, %xmm8
	pslld	$20, %xmm9
	psrld	$12, %xmm8
	por	%xmm8, %xmm9
	paddd	704(%rsp), %xmm6
	paddd	%xmm9, %xmm6
	movdqa	%xmm6, 80(%rsp)
	pxor	%xmm6, %xmm0
	movdqa	.L1_v2_CPI70_2(%rip), %xmm1
	pshufb	%xmm1, %xmm0
	paddd	%xmm0, %xmm7
	movdqa	%xmm7, 272(%rsp)
	pxor	%xmm7, %xmm9
	movdqa	%xmm9, %xmm8
	psrld	$7, %xmm8
	pslld	$25, %xmm9
	por	%xmm8, %xmm9
	movdqa	%xmm9, 304(%rsp)
	paddd	480(%rsp), %xmm3
	paddd	%xmm13, %xmm3
	movdqa	%xmm3, 32(%rsp)
	pxor	%xmm3, %xmm12
	pshufb	%xmm1, %xmm12
	paddd	%xmm12, %xmm14
	movdqa	%xmm14, 112(%rsp)
	pxor	%xmm14, %xmm13
	movdqa	%xmm13, %xmm8
	pslld	$25, %xmm13
	psrld	$7, %xmm8
	por	%xmm8, %xmm13
	movdqa	%xmm13, 288(%rsp)
	movdqa	16(%rsp), %xmm1
	paddd	864(%rsp), %xmm1
	paddd	%xmm5, %xmm1
	movdqa	%xmm1, 16(%rsp)
	movdqa	144(%rsp), %xmm3
	pxor	%xmm1, %xmm3
	movdqa	.L1_v2_CPI70_0(%rip), %xmm14
	pshufb	%xmm14, %xmm3
	movdqa	%xmm3, 144(%rsp)
	movdqa	240(%rsp), %xmm9
	paddd	%xmm3, %xmm9
	pxor	%xmm9, %xmm5
	movdqa	%xmm5, %xmm8
	psrld	$12, %xmm8
	pslld	$20, %xmm5
	por	%xmm8, %xmm5
	movdqa	128(%rsp), %xmm1
	paddd	608(%rsp), %xmm1
	movdqa	176(%rsp), %xmm7
	paddd	%xmm7, %xmm1
	movdqa	416(%rsp), %xmm6
	pxor	%xmm1, %xmm6
	pshufb	%xmm14, %xmm6
	movdqa	192(%rsp), %xmm3
	paddd	%xmm6, %xmm3
	pxor	%xmm3, %xmm7
	movdqa	%xmm7, %xmm8
	pslld	$20, %xmm7
	psrld	$12, %xmm8
	por	%xmm8, %xmm7
	paddd	464(%rsp), %xmm1
	paddd	%xmm7, %xmm1
	movdqa	%xmm1, 128(%rsp)
	pxor	%xmm1, %xmm6
	movdqa	.L1_v2_CPI70_2(%rip), %xmm13
	pshufb	%xmm13, %xmm6
	paddd	%xmm6, %xmm3
	movdqa	%xmm3, 192(%rsp)
	pxor	%xmm3, %xmm7
	movdqa	%xmm7, %xmm8
	psrld	$7, %xmm8
	pslld	$25, %xmm7
	por	%xmm8, %xmm7
	movdqa	%xmm7, 176(%rsp)
	movdqa	16(%rsp), %xmm1
	paddd	544(%rsp), %xmm1
	paddd	%xmm5, %xmm1
	movdqa	%xmm1, 16(%rsp)
	movdqa	144(%rsp), %xmm3
	pxor	%xmm1, %xmm3
	pshufb	%xmm13, %xmm3
	movdqa	%xmm3, 144(%rsp)
	paddd	%xmm3, %xmm9
	movdqa	%xmm9, 240(%rsp)
	pxor	%xmm9, %xmm5
	movdqa	%xmm5, %xmm8
	pslld	$25, %xmm5
	psrld	$7, %xmm8
	por	%xmm8, %xmm5
	movdqa	%xmm5, 336(%rsp)
	movdqa	48(%rsp), %xmm7
	paddd	640(%rsp), %xmm7
	paddd	%xmm10, %xmm7
	pxor	%xmm7, %xmm11
	movdqa	%xmm14, %xmm5
	pshufb	%xmm14, %xmm11
	movdqa	160(%rsp), %xmm14
	paddd	%xmm11, %xmm14
	pxor	%xmm14, %xmm10
	movdqa	%xmm10, %xmm8
	psrld	$12, %xmm8
	pslld	$20, %xmm10
	por	%xmm8, %xmm10
	movdqa	96(%rsp), %xmm1
	paddd	880(%rsp), %xmm1
	movdqa	320(%rsp), %xmm9
	paddd	%xmm9, %xmm1
	pxor	%xmm1, %xmm4
	movdqa	%xmm1, %xmm3
	pshufb	%xmm5, %xmm4
	movdqa	208(%rsp), %xmm1
	paddd	%xmm4, %xmm1
	pxor	%xmm1, %xmm9
	movdqa	%xmm9, %xmm8
	pslld	$20, %xmm9
	psrld	$12, %xmm8
	por	%xmm8, %xmm9
	paddd	512(%rsp), %xmm3
	paddd	%xmm9, %xmm3
	movdqa	%xmm3, 96(%rsp)
	pxor	%xmm3, %xmm4
	pshufb	%xmm13, %xmm4
	paddd	%xmm4, %xmm1
	movdqa	%xmm1, 208(%rsp)
	pxor	%xmm1, %xmm9
	movdqa	%xmm9, %xmm8
	psrld	$7, %xmm8
	pslld	$25, %xmm9
	por	%xmm8, %xmm9
	movdqa	%xmm9, 320(%rsp)
	movdqa	%xmm7, %xmm1
	paddd	496(%rsp), %xmm1
	paddd	%xmm10, %xmm1
	movdqa	%xmm1, 48(%rsp)
	pxor	%xmm1, %xmm11
	pshufb	%xmm13, %xmm11
	movdqa	%xmm14, %xmm1
	paddd	%xmm11, %xmm1
	movdqa	%xmm1, 160(%rsp)
	pxor	%xmm1, %xmm10
	movdqa	%xmm10, %xmm8
	pslld	$25, %xmm10
	psrld	$7, %xmm8
	por	%xmm8, %xmm10
	movdqa	64(%rsp), %xmm1
	paddd	672(%rsp), %xmm1
	movdqa	368(%rsp), %xmm13
	paddd	%xmm13, %xmm1
	movdqa	%xmm1, 64(%rsp)
	pxor	%xmm1, %xmm15
	pshufb	%xmm5, %xmm15
	movdqa	256(%rsp), %xmm7
	paddd	%xmm15, %xmm7
	pxor	%xmm7, %xmm13
	movdqa	%xmm13, %xmm8
	psrld	$12, %xmm8
	pslld	$20, %xmm13
	por	%xmm8, %xmm13
	movdqa	(%rsp), %xmm8
	paddd	656(%rsp), %xmm8
	movdqa	%xmm8, (%rsp)
	movdqa	(%rsp), %xmm8
	movdqa	400(%rsp), %xmm3
	paddd	%xmm3, %xmm8
	movdqa	%xmm8, (%rsp)
	pxor	(%rsp), %xmm2
	pshufb	%xmm5, %xmm2
	movdqa	224(%rsp), %xmm5
	paddd	%xmm2, %xmm5
	pxor	%xmm5, %xmm3
	movdqa	%xmm3, %xmm8
	pslld	$20, %xmm3
	psrld	$12, %xmm8
	por	%xmm8, %xmm3
	movdqa	(%rsp), %xmm8
	movdqa	800(%rsp), %xmm14
	paddd	%xmm14, %xmm8
	movdqa	%xmm8, (%rsp)
	movdqa	(%rsp), %xmm8
	paddd	%xmm3, %xmm8
	movdqa	%xmm3, %xmm9
	movdqa	%xmm8, (%rsp)
	pxor	(%rsp), %xmm2
	movdqa	.L1_v2_CPI70_2(%rip), %xmm1
	pshufb	%xmm1, %xmm2
	paddd	%xmm2, %xmm5
	movdqa	%xmm5, 224(%rsp)
	pxor	%xmm5, %xmm9
	movdqa	%xmm9, %xmm8
	psrld	$7, %xmm8
	pslld	$25, %xmm9
	por	%xmm8, %xmm9
	movdqa	848(%rsp), %xmm5
	movdqa	64(%rsp), %xmm8
	paddd	%xmm5, %xmm8
	movdqa	%xmm13, %xmm3
	paddd	%xmm13, %xmm8
	movdqa	%xmm8, 64(%rsp)
	pxor	%xmm8, %xmm15
	pshufb	%xmm1, %xmm15
	paddd	%xmm15, %xmm7
	movdqa	%xmm7, 256(%rsp)
	pxor	%xmm7, %xmm3
	movdqa	%xmm3, %xmm8
	pslld	$25, %xmm3
	psrld	$7, %xmm8
	por	%xmm8, %xmm3
	movdqa	32(%rsp), %xmm1
	paddd	784(%rsp), %xmm1
	paddd	%xmm3, %xmm1
	movdqa	%xmm1, 32(%rsp)
	movdqa	144(%rsp), %xmm8
	pxor	%xmm1, %xmm8
	movdqa	.L1_v2_CPI70_0(%rip), %xmm7
	pshufb	%xmm7, %xmm8
	movdqa	%xmm8, 144(%rsp)
	movdqa	160(%rsp), %xmm1
	paddd	%xmm8, %xmm1
	movdqa	%xmm1, 160(%rsp)
	pxor	%xmm1, %xmm3
	movdqa	%xmm3, %xmm8
	psrld	$12, %xmm8
	pslld	$20, %xmm3
	por	%xmm8, %xmm3
	movdqa	80(%rsp), %xmm8
	paddd	768(%rsp), %xmm8
	paddd	%xmm9, %xmm8
	pxor	%xmm8, %xmm6
	movdqa	%xmm8, %xmm13
	pshufb	%xmm7, %xmm6
	movdqa	208(%rsp), %xmm7
	paddd	%xmm6, %xmm7
	pxor	%xmm7, %xmm9
	movdqa	%xmm9, %xmm8
	pslld	$20, %xmm9
	psrld	$12, %xmm8
	por	%xmm8, %xmm9
	paddd	%xmm14, %xmm13
	paddd	%xmm9, %xmm13
	movdqa	%xmm13, 80(%rsp)
	pxor	%xmm13, %xmm6
	movdqa	.L1_v2_CPI70_2(%rip), %xmm1
	pshufb	%xmm1, %xmm6
	paddd	%xmm6, %xmm7
	movdqa	%xmm7, 208(%rsp)
	pxor	%xmm7, %xmm9
	movdqa	%xmm9, %xmm8
	psrld	$7, %xmm8
	pslld	$25, %xmm9
	por	%xmm8, %xmm9
	movdqa	%xmm9, 400(%rsp)
	movdqa	32(%rsp), %xmm7
	paddd	%xmm5, %xmm7
	paddd	%xmm3, %xmm7
	movdqa	%xmm7, 32(%rsp)
	movdqa	144(%rsp), %xmm5
	pxor	%xmm7, %xmm5
	pshufb	%xmm1, %xmm5
	movdqa	%xmm5, 144(%rsp)
	movdqa	160(%rsp), %xmm1
	paddd	%xmm5, %xmm1
	movdqa	%xmm1, 160(%rsp)
	pxor	%xmm1, %xmm3
	movdqa	%xmm3, %xmm8
	pslld	$25, %xmm3
	psrld	$7, %xmm8
	por	%xmm8, %xmm3
	movdqa	%xmm3, 368(%rsp)
	movdqa	16(%rsp), %xmm1
	paddd	480(%rsp), %xmm1
	movdqa	288(%rsp), %xmm13
	paddd	%xmm13, %xmm1
	movdqa	%xmm1, 16(%rsp)
	pxor	%xmm1, %xmm11
	movdqa	.L1_v2_CPI70_0(%rip), %xmm1
	pshufb	%xmm1, %xmm11
	movdqa	256(%rsp), %xmm14
	paddd	%xmm11, %xmm14
	pxor	%xmm14, %xmm13
	movdqa	%xmm13, %xmm8
	psrld	$12, %xmm8
	pslld	$20, %xmm13
	por	%xmm8, %xmm13
	movdqa	128(%rsp), %xmm5
	paddd	704(%rsp), %xmm5
	movdqa	304(%rsp), %xmm7
	paddd	%xmm7, %xmm5
	pxor	%xmm5, %xmm4
	pshufb	%xmm1, %xmm4
	movdqa	224(%rsp), %xmm1
	paddd	%xmm4, %xmm1
	pxor	%xmm1, %xmm7
	movdqa	%xmm1, %xmm9
	movdqa	%xmm7, %xmm8
	pslld	$20, %xmm7
	psrld	$12, %xmm8
	por	%xmm8, %xmm7
	paddd	896(%rsp), %xmm5
	paddd	%xmm7, %xmm5
	movdqa	%xmm5, 128(%rsp)
	pxor	%xmm5, %xmm4
	movdqa	.L1_v2_CPI70_2(%rip), %xmm1
	pshufb	%xmm1, %xmm4
	paddd	%xmm4, %xmm9
	movdqa	%xmm9, 224(%rsp)
	pxor	%xmm9, %xmm7
	movdqa	%xmm7, %xmm8
	psrld	$7, %xmm8
	pslld	$25, %xmm7
	por	%xmm8, %xmm7
	movdqa	16(%rsp), %xmm5
	paddd	560(%rsp), %xmm5
	movdqa	%xmm13, %xmm9
	paddd	%xmm13, %xmm5
	movdqa	%xmm5, 16(%rsp)
	pxor	%xmm5, %xmm11
	pshufb	%xmm1, %xmm11
	paddd	%xmm11, %xmm14
	movdqa	%xmm14, 256(%rsp)
	pxor	%xmm14, %xmm9
	movdqa	%xmm9, %xmm8
	pslld	$25, %xmm9
	psrld	$7, %xmm8
	por	%xmm8, %xmm9
	movdqa	48(%rsp), %xmm1
	paddd	736(%rsp), %xmm1
	movdqa	336(%rsp), %xmm5
	paddd	%xmm5, %xmm1
	movdqa	%xmm1, 48(%rsp)
	pxor	%xmm1, %xmm15
	movdqa	.L1_v2_CPI70_0(%rip), %xmm3
	pshufb	%xmm3, %xmm15
	movdqa	112(%rsp), %xmm13
	paddd	%xmm15, %xmm13
	pxor	%xmm13, %xmm5
	movdqa	%xmm5, %xmm8
	psrld	$12, %xmm8
	pslld	$20, %xmm5
	por	%xmm8, %xmm5
	movdqa	96(%rsp), %xmm1
	paddd	752(%rsp), %xmm1
	movdqa	176(%rsp), %xmm14
	paddd	%xmm14, %xmm1
	pxor	%xmm1, %xmm2
	pshufb	%xmm3, %xmm2
	movdqa	272(%rsp), %xmm3
	paddd	%xmm2, %xmm3
	pxor	%xmm3, %xmm14
	movdqa	%xmm14, %xmm8
	pslld	$20, %xmm14
	psrld	$12, %xmm8
	por	%xmm8, %xmm14
	paddd	720(%rsp), %xmm1
	paddd	%xmm14, %xmm1
	movdqa	%xmm1, 96(%rsp)
	pxor	%xmm1, %xmm2
	movdqa	.L1_v2_CPI70_2(%rip), %xmm1
	pshufb	%xmm1, %xmm2
	paddd	%xmm2, %xmm3
	movdqa	%xmm3, 272(%rsp)
	pxor	%xmm3, %xmm14
	movdqa	%xmm14, %xmm8
	psrld	$7, %xmm8
	pslld	$25, %xmm14
	por	%xmm8, %xmm14
	movdqa	%xmm14, 176(%rsp)
	movdqa	48(%rsp), %xmm3
	paddd	816(%rsp), %xmm3
	paddd	%xmm5, %xmm3
	movdqa	%xmm3, 48(%rsp)
	pxor	%xmm3, %xmm15
	pshufb	%xmm1, %xmm15
	movdqa	%xmm13, %xmm1
	paddd	%xmm15, %xmm1
	movdqa	%xmm1, 112(%rsp)
	pxor	%xmm1, %xmm5
	movdqa	%xmm5, %xmm8
	pslld	$25, %xmm5
	psrld	$7, %xmm8
	por	%xmm8, %xmm5
	movdqa	%xmm5, %xmm14
	movdqa	64(%rsp), %xmm1
	paddd	544(%rsp), %xmm1
	paddd	%xmm10, %xmm1
	movdqa	%xmm1, 64(%rsp)
	pxor	%xmm1, %xmm12
	movdqa	.L1_v2_CPI70_0(%rip), %xmm3
	pshufb	%xmm3, %xmm12
	movdqa	240(%rsp), %xmm5
	paddd	%xmm12, %xmm5
	pxor	%xmm5, %xmm10
	movdqa	%xmm10, %xmm8
	psrld	$12, %xmm8
	pslld	$20, %xmm10
	por	%xmm8, %xmm10
	movdqa	(%rsp), %xmm8
	paddd	464(%rsp), %xmm8
	movdqa	%xmm8, (%rsp)
	movdqa	(%rsp), %xmm8
	movdqa	320(%rsp), %xmm13
	paddd	%xmm13, %xmm8
	movdqa	%xmm8, (%rsp)
	pxor	(%rsp), %xmm0
	pshufb	%xmm3, %xmm0
	movdqa	192(%rsp), %xmm3
	paddd	%xmm0, %xmm3
	pxor	%xmm3, %xmm13
	movdqa	%xmm13, %xmm8
	pslld	$20, %xmm13
	psrld	$12, %xmm8
	por	%xmm8, %xmm13
	movdqa	(%rsp), %xmm8
	paddd	880(%rsp), %xmm8
	movdqa	%xmm8, (%rsp)
	movdqa	(%rsp), %xmm8
	paddd	%xmm13, %xmm8
	movdqa	%xmm8, (%rsp)
	pxor	(%rsp), %xmm0
	movdqa	.L1_v2_CPI70_2(%rip), %xmm1
	pshufb	%xmm1, %xmm0
	paddd	%xmm0, %xmm3
	movdqa	%xmm3, 192(%rsp)
	pxor	%xmm3, %xmm13
	movdqa	%xmm13, %xmm8
	psrld	$7, %xmm8
	pslld	$25, %xmm13
	por	%xmm8, %xmm13
	movdqa	%xmm13, 320(%rsp)
	movdqa	64(%rsp), %xmm3
	paddd	640(%rsp), %xmm3
	paddd	%xmm10, %xmm3
	movdqa	%xmm3, 64(%rsp)
	pxor	%xmm3, %xmm12
	pshufb	%xmm1, %xmm12
	paddd	%xmm12, %xmm5
	movdqa	%xmm5, 240(%rsp)
	pxor	%xmm5, %xmm10
	movdqa	%xmm10, %xmm8
	pslld	$25, %xmm10
	psrld	$7, %xmm8
	por	%xmm8, %xmm10
	movdqa	32(%rsp), %xmm1
	paddd	448(%rsp), %xmm1
	paddd	%xmm9, %xmm1
	movdqa	%xmm1, 32(%rsp)
	pxor	%xmm1, %xmm12
	movdqa	.L1_v2_CPI70_0(%rip), %xmm5
	pshufb	%xmm5, %xmm12
	movdqa	112(%rsp), %xmm1
	paddd	%xmm12, %xmm1
	movdqa	%xmm1, 112(%rsp)
	pxor	%xmm1, %xmm9
	movdqa	%xmm9, %xmm8
	psrld	$12, %xmm8
	pslld	$20, %xmm9
	por	%xmm8, %xmm9
	movdqa	80(%rsp), %xmm8
	paddd	432(%rsp), %xmm8
	movdqa	144(%rsp), %xmm13
	paddd	%xmm7, %xmm8
	pxor	%xmm8, %xmm0
	movdqa	%xmm8, %xmm1
	pshufb	%xmm5, %xmm0
	movdqa	272(%rsp), %xmm5
	paddd	%xmm0, %xmm5
	pxor	%xmm5, %xmm7
	movdqa	%xmm7, %xmm8
	pslld	$20, %xmm7
	psrld	$12, %xmm8
	por	%xmm8, %xmm7
	paddd	928(%rsp), %xmm1
	paddd	%xmm7, %xmm1
	movdqa	%xmm1, 80(%rsp)
	pxor	%xmm1, %xmm0
	movdqa	.L1_v2_CPI70_2(%rip), %xmm3
	pshufb	%xmm3, %xmm0
	paddd	%xmm0, %xmm5
	movdqa	%xmm5, 272(%rsp)
	pxor	%xmm5, %xmm7
	movdqa	%xmm7, %xmm8
	psrld	$7, %xmm8
	pslld	$25, %xmm7
	por	%xmm8, %xmm7
	movdqa	%xmm7, 304(%rsp)
	movdqa	32(%rsp), %xmm1
	paddd	912(%rsp), %xmm1
	paddd	%xmm9, %xmm1
	movdqa	%xmm1, 32(%rsp)
	pxor	%xmm1, %xmm12
	pshufb	%xmm3, %xmm12
	movdqa	112(%rsp), %xmm1
	paddd	%xmm12, %xmm1
	movdqa	%xmm1, 112(%rsp)
	pxor	%xmm1, %xmm9
	movdqa	%xmm9, %xmm8
	pslld	$25, %xmm9
	psrld	$7, %xmm8
	por	%xmm8, %xmm9
	movdqa	%xmm9, 288(%rsp)
	movdqa	16(%rsp), %xmm1
	paddd	624(%rsp), %xmm1
	paddd	%xmm14, %xmm1
	movdqa	%xmm1, 16(%rsp)
	pxor	%xmm1, %xmm13
	movdqa	.L1_v2_CPI70_0(%rip), %xmm9
	pshufb	%xmm9, %xmm13
	movdqa	240(%rsp), %xmm3
	paddd	%xmm13, %xmm3
	pxor	%xmm3, %xmm14
	movdqa	%xmm14, %xmm8
	psrld	$12, %xmm8
	pslld	$20, %xmm14
	por	%xmm8, %xmm14
	movdqa	128(%rsp), %xmm5
	paddd	576(%rsp), %xmm5
	movdqa	176(%rsp), %xmm1
	paddd	%xmm1, %xmm5
	pxor	%xmm5, %xmm6
	movdqa	%xmm5, %xmm7
	pshufb	%xmm9, %xmm6
	movdqa	192(%rsp), %xmm8
	paddd	%xmm6, %xmm8
	pxor	%xmm8, %xmm1
	movdqa	%xmm8, %xmm5
	movdqa	%xmm1, %xmm8
	pslld	$20, %xmm1
	psrld	$12, %xmm8
	por	%xmm8, %xmm1
	movdqa	%xmm7, %xmm8
	paddd	592(%rsp), %xmm8
	paddd	%xmm1, %xmm8
	movdqa	%xmm8, 128(%rsp)
	movdqa	%xmm1, %xmm7
	pxor	%xmm8, %xmm6
	movdqa	.L1_v2_CPI70_2(%rip), %xmm1
	pshufb	%xmm1, %xmm6
	paddd	%xmm6, %xmm5
	movdqa	%xmm5, 192(%rsp)
	pxor	%xmm5, %xmm7
	movdqa	%xmm7, %xmm8
	psrld	$7, %xmm8
	pslld	$25, %xmm7
	por	%xmm8, %xmm7
	movdqa	%xmm7, 176(%rsp)
	movdqa	16(%rsp), %xmm5
	paddd	688(%rsp), %xmm5
	paddd	%xmm14, %xmm5
	movdqa	%xmm5, 16(%rsp)
	pxor	%xmm5, %xmm13
	pshufb	%xmm1, %xmm13
	movdqa	%xmm3, %xmm1
	paddd	%xmm13, %xmm1
	movdqa	%xmm1, 240(%rsp)
	pxor	%xmm1, %xmm14
	movdqa	%xmm14, %xmm8
	pslld	$25, %xmm14
	psrld	$7, %xmm8
	por	%xmm8, %xmm14
	movdqa	%xmm14, 336(%rsp)
	movdqa	48(%rsp), %xmm7
	paddd	672(%rsp), %xmm7
	paddd	%xmm10, %xmm7
	pxor	%xmm7, %xmm11
	movdqa	%xmm9, %xmm5
	pshufb	%xmm9, %xmm11
	movdqa	160(%rsp), %xmm14
	paddd	%xmm11, %xmm14
	pxor	%xmm14, %xmm10
	movdqa	%xmm10, %xmm8
	psrld	$12, %xmm8
	pslld	$20, %xmm10
	por	%xmm8, %xmm10
	movdqa	96(%rsp), %xmm1
	paddd	656(%rsp), %xmm1
	movdqa	320(%rsp), %xmm3
	paddd	%xmm3, %xmm1
	pxor	%xmm1, %xmm4
	movdqa	%xmm1, %xmm9
	pshufb	%xmm5, %xmm4
	movdqa	208(%rsp), %xmm1
	paddd	%xmm4, %xmm1
	pxor	%xmm1, %xmm3
	movdqa	%xmm3, %xmm8
	pslld	$20, %xmm3
	psrld	$12, %xmm8
	por	%xmm8, %xmm3
	paddd	608(%rsp), %xmm9
	paddd	%xmm3, %xmm9
	movdqa	%xmm9, 96(%rsp)
	pxor	%xmm9, %xmm4
	movdqa	.L1_v2_CPI70_2(%rip), %xmm9
	pshufb	%xmm9, %xmm4
	movdqa	%xmm4, 352(%rsp)
	paddd	%xmm4, %xmm1
	movdqa	%xmm1, 208(%rsp)
	pxor	%xmm1, %xmm3
	movdqa	%xmm3, %xmm8
	psrld	$7, %xmm8
	pslld	$25, %xmm3
	por	%xmm8, %xmm3
	movdqa	%xmm3, 320(%rsp)
	movdqa	864(%rsp), %xmm5
	movdqa	%xmm7, %xmm1
	paddd	%xmm5, %xmm1
	paddd	%xmm10, %xmm1
	movdqa	%xmm1, 48(%rsp)
	pxor	%xmm1, %xmm11
	pshufb	%xmm9, %xmm11
	movdqa	%xmm9, %xmm4
	movdqa	%xmm14, %xmm1
	paddd	%xmm11, %xmm1
	movdqa	%xmm1, 160(%rsp)
	pxor	%xmm1, %xmm10
	movdqa	%xmm10, %xmm8
	pslld	$25, %xmm10
	psrld	$7, %xmm8
	por	%xmm8, %xmm10
	movdqa	64(%rsp), %xmm1
	paddd	496(%rsp), %xmm1
	movdqa	368(%rsp), %xmm7
	paddd	%xmm7, %xmm1
	movdqa	%xmm1, 64(%rsp)
	pxor	%xmm1, %xmm15
	movdqa	.L1_v2_CPI70_0(%rip), %xmm1
	pshufb	%xmm1, %xmm15
	movdqa	256(%rsp), %xmm14
	paddd	%xmm15, %xmm14
	pxor	%xmm14, %xmm7
	movdqa	%xmm7, %xmm8
	psrld	$12, %xmm8
	pslld	$20, %xmm7
	por	%xmm8, %xmm7
	movdqa	(%rsp), %xmm8
	paddd	512(%rsp), %xmm8
	movdqa	%xmm8, (%rsp)
	movdqa	(%rsp), %xmm8
	movdqa	400(%rsp), %xmm9
	paddd	%xmm9, %xmm8
	movdqa	%xmm8, (%rsp)
	pxor	(%rsp), %xmm2
	pshufb	%xmm1, %xmm2
	movdqa	224(%rsp), %xmm3
	paddd	%xmm2, %xmm3
	pxor	%xmm3, %xmm9
	movdqa	%xmm9, %xmm8
	pslld	$20, %xmm9
	psrld	$12, %xmm8
	por	%xmm8, %xmm9
	movdqa	(%rsp), %xmm8
	paddd	832(%rsp), %xmm8
	movdqa	%xmm8, (%rsp)
	movdqa	(%rsp), %xmm8
	paddd	%xmm9, %xmm8
	movdqa	%xmm9, %xmm1
	movdqa	%xmm8, (%rsp)
	pxor	(%rsp), %xmm2
	pshufb	%xmm4, %xmm2
	paddd	%xmm2, %xmm3
	movdqa	%xmm3, 224(%rsp)
	pxor	%xmm3, %xmm1
	movdqa	%xmm1, %xmm8
	psrld	$7, %xmm8
	pslld	$25, %xmm1
	por	%xmm8, %xmm1
	movdqa	64(%rsp), %xmm3
	paddd	528(%rsp), %xmm3
	movdqa	%xmm7, %xmm9
	paddd	%xmm7, %xmm3
	movdqa	%xmm3, 64(%rsp)
	pxor	%xmm3, %xmm15
	pshufb	%xmm4, %xmm15
	paddd	%xmm15, %xmm14
	pxor	%xmm14, %xmm9
	movdqa	%xmm14, %xmm4
	movdqa	%xmm9, %xmm8
	pslld	$25, %xmm9
	psrld	$7, %xmm8
	por	%xmm8, %xmm9
	movdqa	32(%rsp), %xmm7
	paddd	%xmm5, %xmm7
	paddd	%xmm9, %xmm7
	movdqa	%xmm9, %xmm3
	pxor	%xmm7, %xmm13
	movdqa	.L1_v2_CPI70_0(%rip), %xmm5
	pshufb	%xmm5, %xmm13
	movdqa	160(%rsp), %xmm14
	paddd	%xmm13, %xmm14
	pxor	%xmm14, %xmm3
	movdqa	%xmm3, %xmm8
	psrld	$12, %xmm8
	pslld	$20, %xmm3
	por	%xmm8, %xmm3
	movdqa	80(%rsp), %xmm9
	paddd	608(%rsp), %xmm9
	paddd	%xmm1, %xmm9
	pxor	%xmm9, %xmm6
	pshufb	%xmm5, %xmm6
	movdqa	208(%rsp), %xmm5
	paddd	%xmm6, %xmm5
	pxor	%xmm5, %xmm1
	movdqa	%xmm1, %xmm8
	pslld	$20, %xmm1
	psrld	$12, %xmm8
	por	%xmm8, %xmm1
	paddd	576(%rsp), %xmm9
	paddd	%xmm1, %xmm9
	movdqa	%xmm9, 80(%rsp)
	pxor	%xmm9, %xmm6
	movdqa	.L1_v2_CPI70_2(%rip), %xmm9
	pshufb	%xmm9, %xmm6
	movdqa	%xmm6, 416(%rsp)
	paddd	%xmm6, %xmm5
	movdqa	%xmm5, 208(%rsp)
	pxor	%xmm5, %xmm1
	movdqa	%xmm1, %xmm8
	psrld	$7, %xmm8
	pslld	$25, %xmm1
	por	%xmm8, %xmm1
	movdqa	%xmm1, 400(%rsp)
	movdqa	%xmm7, %xmm1
	paddd	624(%rsp), %xmm1
	paddd	%xmm3, %xmm1
	movdqa	%xmm1, 32(%rsp)
	pxor	%xmm1, %xmm13
	pshufb	%xmm9, %xmm13
	movdqa	%xmm14, %xmm1
	paddd	%xmm13, %xmm1
	movdqa	%xmm1, 160(%rsp)
	pxor	%xmm1, %xmm3
	movdqa	%xmm3, %xmm8
	pslld	$25, %xmm3
	psrld	$7, %xmm8
	por	%xmm8, %xmm3
	movdqa	%xmm3, 368(%rsp)
	movdqa	16(%rsp), %xmm5
	paddd	560(%rsp), %xmm5
	movdqa	288(%rsp), %xmm3
	paddd	%xmm3, %xmm5
	pxor	%xmm5, %xmm11
	movdqa	.L1_v2_CPI70_0(%rip), %xmm1
	pshufb	%xmm1, %xmm11
	movdqa	%xmm4, %xmm9
	paddd	%xmm11, %xmm9
	pxor	%xmm9, %xmm3
	movdqa	%xmm3, %xmm8
	psrld	$12, %xmm8
	pslld	$20, %xmm3
	por	%xmm8, %xmm3
	movdqa	128(%rsp), %xmm7
	paddd	896(%rsp), %xmm7
	movdqa	304(%rsp), %xmm14
	paddd	%xmm14, %xmm7
	movdqa	352(%rsp), %xmm4
	pxor	%xmm7, %xmm4
	pshufb	%xmm1, %xmm4
	movdqa	224(%rsp), %xmm1
	paddd	%xmm4, %xmm1
	pxor	%xmm1, %xmm14
	movdqa	%xmm14, %xmm8
	pslld	$20, %xmm14
	psrld	$12, %xmm8
	por	%xmm8, %xmm14
	movdqa	%xmm7, %xmm6
	paddd	880(%rsp), %xmm6
	paddd	%xmm14, %xmm6
	movdqa	%xmm6, 128(%rsp)
	movdqa	%xmm14, %xmm7
	pxor	%xmm6, %xmm4
	movdqa	.L1_v2_CPI70_2(%rip), %xmm14
	pshufb	%xmm14, %xmm4
	movdqa	%xmm4, 352(%rsp)
	paddd	%xmm4, %xmm1
	movdqa	%xmm1, 224(%rsp)
	pxor	%xmm1, %xmm7
	movdqa	%xmm7, %xmm8
	psrld	$7, %xmm8
	pslld	$25, %xmm7
	por	%xmm8, %xmm7
	paddd	640(%rsp), %xmm5
	movdqa	%xmm3, %xmm1
	paddd	%xmm3, %xmm5
	movdqa	%xmm5, 16(%rsp)
	pxor	%xmm5, %xmm11
	pshufb	%xmm14, %xmm11
	movdqa	%xmm14, %xmm4
	paddd	%xmm11, %xmm9
	movdqa	%xmm9, 256(%rsp)
	pxor	%xmm9, %xmm1
	movdqa	%xmm1, %xmm8
	pslld	$25, %xmm1
	psrld	$7, %xmm8
	por	%xmm8, %xmm1
	movdqa	%xmm1, 288(%rsp)
	movdqa	48(%rsp), %xmm6
	paddd	848(%rsp), %xmm6
	movdqa	336(%rsp), %xmm9
	paddd	%xmm9, %xmm6
	pxor	%xmm6, %xmm15
	movdqa	.L1_v2_CPI70_0(%rip), %xmm14
	pshufb	%xmm14, %xmm15
	movdqa	112(%rsp), %xmm3
	paddd	%xmm15, %xmm3
	movdqa	%xmm3, 112(%rsp)
	pxor	%xmm3, %xmm9
	movdqa	%xmm9, %xmm8
	psrld	$12, %xmm8
	pslld	$20, %xmm9
	por	%xmm8, %xmm9
	movdqa	96(%rsp), %xmm5
	paddd	800(%rsp), %xmm5
	movdqa	176(%rsp), %xmm3
	paddd	%xmm3, %xmm5
	pxor	%xmm5, %xmm2
	pshufb	%xmm14, %xmm2
	movdqa	272(%rsp), %xmm1
	paddd	%xmm2, %xmm1
	pxor	%xmm1, %xmm3
	movdqa	%xmm3, %xmm8
	pslld	$20, %xmm3
	psrld	$12, %xmm8
	por	%xmm8, %xmm3
	paddd	464(%rsp), %xmm5
	paddd	%xmm3, %xmm5
	movdqa	%xmm5, 96(%rsp)
	pxor	%xmm5, %xmm2
	movdqa	%xmm4, %xmm5
	pshufb	%xmm4, %xmm2
	paddd	%xmm2, %xmm1
	pxor	%xmm1, %xmm3
	movdqa	%xmm1, %xmm4
	movdqa	%xmm3, %xmm8
	psrld	$7, %xmm8
	pslld	$25, %xmm3
	por	%xmm8, %xmm3
	movdqa	%xmm3, 176(%rsp)
	paddd	544(%rsp), %xmm6
	paddd	%xmm9, %xmm6
	movdqa	%xmm6, 48(%rsp)
	pxor	%xmm6, %xmm15
	pshufb	%xmm5, %xmm15
	movdqa	%xmm5, %xmm6
	movdqa	112(%rsp), %xmm14
	paddd	%xmm15, %xmm14
	pxor	%xmm14, %xmm9
	movdqa	%xmm9, %xmm8
	pslld	$25, %xmm9
	psrld	$7, %xmm8
	por	%xmm8, %xmm9
	movdqa	%xmm9, 336(%rsp)
	movdqa	64(%rsp), %xmm5
	paddd	912(%rsp), %xmm5
	paddd	%xmm10, %xmm5
	pxor	%xmm5, %xmm12
	movdqa	.L1_v2_CPI70_0(%rip), %xmm3
	pshufb	%xmm3, %xmm12
	movdqa	240(%rsp), %xmm9
	paddd	%xmm12, %xmm9
	pxor	%xmm9, %xmm10
	movdqa	%xmm10, %xmm8
	psrld	$12, %xmm8
	pslld	$20, %xmm10
	por	%xmm8, %xmm10
	movdqa	(%rsp), %xmm8
	paddd	928(%rsp), %xmm8
	movdqa	%xmm8, (%rsp)
	movdqa	(%rsp), %xmm8
	movdqa	320(%rsp), %xmm1
	paddd	%xmm1, %xmm8
	movdqa	%xmm8, (%rsp)
	pxor	(%rsp), %xmm0
	pshufb	%xmm3, %xmm0
	movdqa	192(%rsp), %xmm3
	paddd	%xmm0, %xmm3
	pxor	%xmm3, %xmm1
	movdqa	%xmm1, %xmm8
	pslld	$20, %xmm1
	psrld	$12, %xmm8
	por	%xmm8, %xmm1
	movdqa	(%rsp), %xmm8
	paddd	656(%rsp), %xmm8
	movdqa	%xmm8, (%rsp)
	movdqa	(%rsp), %xmm8
	paddd	%xmm1, %xmm8
	movdqa	%xmm8, (%rsp)
	pxor	(%rsp), %xmm0
	pshufb	%xmm6, %xmm0
	paddd	%xmm0, %xmm3
	movdqa	%xmm3, 192(%rsp)
	pxor	%xmm3, %xmm1
	movdqa	%xmm1, %xmm8
	psrld	$7, %xmm8
	pslld	$25, %xmm1
	por	%xmm8, %xmm1
	movdqa	%xmm1, 320(%rsp)
	movdqa	%xmm5, %xmm1
	paddd	672(%rsp), %xmm1
	paddd	%xmm10, %xmm1
	movdqa	%xmm1, 64(%rsp)
	pxor	%xmm1, %xmm12
	pshufb	%xmm6, %xmm12
	movdqa	%xmm9, %xmm3
	paddd	%xmm12, %xmm3
	pxor	%xmm3, %xmm10
	movdqa	%xmm10, %xmm8
	pslld	$25, %xmm10
	psrld	$7, %xmm8
	por	%xmm8, %xmm10
	movdqa	%xmm10, 384(%rsp)
	movdqa	32(%rsp), %xmm10
	paddd	736(%rsp), %xmm10
	movdqa	288(%rsp), %xmm5
	paddd	%xmm5, %xmm10
	pxor	%xmm10, %xmm12
	movdqa	.L1_v2_CPI70_0(%rip), %xmm1
	pshufb	%xmm1, %xmm12
	paddd	%xmm12, %xmm14
	pxor	%xmm14, %xmm5
	movdqa	%xmm5, %xmm8
	psrld	$12, %xmm8
	pslld	$20, %xmm5
	por	%xmm8, %xmm5
	movdqa	80(%rsp), %xmm9
	paddd	752(%rsp), %xmm9
	paddd	%xmm7, %xmm9
	pxor	%xmm9, %xmm0
	pshufb	%xmm1, %xmm0
	movdqa	%xmm4, %xmm1
	paddd	%xmm0, %xmm1
	pxor	%xmm1, %xmm7
	movdqa	%xmm7, %xmm8
	pslld	$20, %xmm7
	psrld	$12, %xmm8
	por	%xmm8, %xmm7
	paddd	512(%rsp), %xmm9
	paddd	%xmm7, %xmm9
	movdqa	%xmm9, 80(%rsp)
	pxor	%xmm9, %xmm0
	pshufb	%xmm6, %xmm0
	paddd	%xmm0, %xmm1
	movdqa	%xmm1, 272(%rsp)
	pxor	%xmm1, %xmm7
	movdqa	%xmm7, %xmm8
	psrld	$7, %xmm8
	pslld	$25, %xmm7
	por	%xmm8, %xmm7
	movdqa	%xmm7, 304(%rsp)
	movdqa	%xmm10, %xmm1
	paddd	496(%rsp), %xmm1
	paddd	%xmm5, %xmm1
	movdqa	%xmm1, 32(%rsp)
	pxor	%xmm1, %xmm12
	pshufb	%xmm6, %xmm12
	movdqa	%xmm6, %xmm7
	paddd	%xmm12, %xmm14
	movdqa	%xmm14, 112(%rsp)
	pxor	%xmm14, %xmm5
	movdqa	%xmm5, %xmm8
	pslld	$25, %xmm5
	psrld	$7, %xmm8
	por	%xmm8, %xmm5
	movdqa	%xmm5, 288(%rsp)
	movdqa	16(%rsp), %xmm4
	paddd	784(%rsp), %xmm4
	movdqa	336(%rsp), %xmm5
	paddd	%xmm5, %xmm4
	movdqa	%xmm4, 16(%rsp)
	pxor	%xmm4, %xmm13
	movdqa	.L1_v2_CPI70_0(%rip), %xmm4
	pshufb	%xmm4, %xmm13
	paddd	%xmm13, %xmm3
	pxor	%xmm3, %xmm5
	movdqa	%xmm5, %xmm8
	psrld	$12, %xmm8
	pslld	$20, %xmm5
	por	%xmm8, %xmm5
	movdqa	128(%rsp), %xmm9
	paddd	768(%rsp), %xmm9
	movdqa	176(%rsp), %xmm14
	paddd	%xmm14, %xmm9
	movdqa	416(%rsp), %xmm6
	pxor	%xmm9, %xmm6
	pshufb	%xmm4, %xmm6
	movdqa	192(%rsp), %xmm1
	paddd	%xmm6, %xmm1
	pxor	%xmm1, %xmm14
	movdqa	%xmm14, %xmm8
	pslld	$20, %xmm14
	psrld	$12, %xmm8
	por	%xmm8, %xmm14
	paddd	704(%rsp), %xmm9
	paddd	%xmm14, %xmm9
	pxor	%xmm9, %xmm6
	pshufb	%xmm7, %xmm6
	movdqa	%xmm6, 416(%rsp)
	paddd	%xmm6, %xmm1
	movdqa	%xmm1, 192(%rsp)
	pxor	%xmm1, %xmm14
	movdqa	%xmm14, %xmm8
	psrld	$7, %xmm8
	pslld	$25, %xmm14
	por	%xmm8, %xmm14
	movdqa	%xmm14, 176(%rsp)
	movdqa	16(%rsp), %xmm1
	paddd	480(%rsp), %xmm1
	movdqa	%xmm5, %xmm10
	paddd	%xmm5, %xmm1
	movdqa	%xmm1, 16(%rsp)
	pxor	%xmm1, %xmm13
	pshufb	%xmm7, %xmm13
	movdqa	%xmm13, 144(%rsp)
	movdqa	%xmm7, %xmm5
	paddd	%xmm13, %xmm3
	movdqa	%xmm3, 240(%rsp)
	pxor	%xmm3, %xmm10
	movdqa	%xmm10, %xmm8
	pslld	$25, %xmm10
	psrld	$7, %xmm8
	por	%xmm8, %xmm10
	movdqa	%xmm10, 336(%rsp)
	movdqa	48(%rsp), %xmm7
	paddd	816(%rsp), %xmm7
	movdqa	384(%rsp), %xmm13
	paddd	%xmm13, %xmm7
	pxor	%xmm7, %xmm11
	movdqa	%xmm4, %xmm6
	pshufb	%xmm4, %xmm11
	movdqa	160(%rsp), %xmm14
	paddd	%xmm11, %xmm14
	pxor	%xmm14, %xmm13
	movdqa	%xmm13, %xmm8
	psrld	$12, %xmm8
	pslld	$20, %xmm13
	por	%xmm8, %xmm13
	movdqa	96(%rsp), %xmm8
	paddd	720(%rsp), %xmm8
	movdqa	320(%rsp), %xmm3
	paddd	%xmm3, %xmm8
	movdqa	352(%rsp), %xmm4
	pxor	%xmm8, %xmm4
	movdqa	%xmm8, %xmm1
	pshufb	%xmm6, %xmm4
	movdqa	208(%rsp), %xmm8
	paddd	%xmm4, %xmm8
	movdqa	%xmm4, %xmm6
	pxor	%xmm8, %xmm3
	movdqa	%xmm8, %xmm10
	movdqa	%xmm3, %xmm8
	pslld	$20, %xmm3
	psrld	$12, %xmm8
	por	%xmm8, %xmm3
	paddd	592(%rsp), %xmm1
	paddd	%xmm3, %xmm1
	movdqa	%xmm1, 96(%rsp)
	pxor	%xmm1, %xmm6
	pshufb	%xmm5, %xmm6
	paddd	%xmm6, %xmm10
	movdqa	%xmm10, 208(%rsp)
	pxor	%xmm10, %xmm3
	movdqa	%xmm3, %xmm8
	psrld	$7, %xmm8
	pslld	$25, %xmm3
	por	%xmm8, %xmm3
	movdqa	%xmm3, 320(%rsp)
	movdqa	%xmm7, %xmm3
	paddd	688(%rsp), %xmm3
	paddd	%xmm13, %xmm3
	movdqa	%xmm3, 48(%rsp)
	pxor	%xmm3, %xmm11
	pshufb	%xmm5, %xmm11
	movdqa	%xmm5, %xmm4
	movdqa	%xmm14, %xmm3
	paddd	%xmm11, %xmm3
	movdqa	%xmm3, 160(%rsp)
	movdqa	%xmm13, %xmm1
	pxor	%xmm3, %xmm1
	movdqa	%xmm1, %xmm8
	pslld	$25, %xmm1
	psrld	$7, %xmm8
	por	%xmm8, %xmm1
	movdqa	%xmm1, 384(%rsp)
	movdqa	64(%rsp), %xmm5
	paddd	528(%rsp), %xmm5
	movdqa	368(%rsp), %xmm10
	paddd	%xmm10, %xmm5
	pxor	%xmm5, %xmm15
	movdqa	.L1_v2_CPI70_0(%rip), %xmm13
	pshufb	%xmm13, %xmm15
	movdqa	256(%rsp), %xmm7
	paddd	%xmm15, %xmm7
	pxor	%xmm7, %xmm10
	movdqa	%xmm10, %xmm8
	psrld	$12, %xmm8
	pslld	$20, %xmm10
	por	%xmm8, %xmm10
	movdqa	(%rsp), %xmm8
	movdqa	832(%rsp), %xmm1
	paddd	%xmm1, %xmm8
	movdqa	%xmm8, (%rsp)
	movdqa	(%rsp), %xmm8
	movdqa	400(%rsp), %xmm3
	paddd	%xmm3, %xmm8
	movdqa	%xmm8, (%rsp)
	pxor	(%rsp), %xmm2
	pshufb	%xmm13, %xmm2
	movdqa	224(%rsp), %xmm14
	paddd	%xmm2, %xmm14
	pxor	%xmm14, %xmm3
	movdqa	%xmm3, %xmm8
	pslld	$20, %xmm3
	psrld	$12, %xmm8
	por	%xmm8, %xmm3
	movdqa	(%rsp), %xmm8
	paddd	432(%rsp), %xmm8
	movdqa	%xmm8, (%rsp)
	movdqa	(%rsp), %xmm8
	paddd	%xmm3, %xmm8
	movdqa	%xmm8, (%rsp)
	pxor	(%rsp), %xmm2
	movdqa	%xmm4, %xmm13
	pshufb	%xmm4, %xmm2
	paddd	%xmm2, %xmm14
	movdqa	%xmm3, %xmm4
	pxor	%xmm14, %xmm4
	movdqa	%xmm4, %xmm8
	psrld	$7, %xmm8
	pslld	$25, %xmm4
	por	%xmm8, %xmm4
	movdqa	%xmm4, 400(%rsp)
	movdqa	%xmm5, %xmm3
	paddd	448(%rsp), %xmm3
	paddd	%xmm10, %xmm3
	movdqa	%xmm3, 64(%rsp)
	pxor	%xmm3, %xmm15
	pshufb	%xmm13, %xmm15
	movdqa	%xmm7, %xmm3
	paddd	%xmm15, %xmm3
	pxor	%xmm3, %xmm10
	movdqa	%xmm3, %xmm13
	movdqa	%xmm10, %xmm5
	pslld	$25, %xmm5
	psrld	$7, %xmm10
	por	%xmm10, %xmm5
	movdqa	%xmm5, 368(%rsp)
	movdqa	80(%rsp), %xmm3
	paddd	%xmm1, %xmm3
	movdqa	32(%rsp), %xmm1
	paddd	528(%rsp), %xmm1
	paddd	%xmm5, %xmm1
	movdqa	144(%rsp), %xmm5
	pxor	%xmm1, %xmm5
	movdqa	%xmm5, 144(%rsp)
	paddd	496(%rsp), %xmm1
	movdqa	%xmm1, 32(%rsp)
	movdqa	%xmm3, %xmm1
	paddd	%xmm4, %xmm1
	movdqa	416(%rsp), %xmm3
	pxor	%xmm1, %xmm3
	movdqa	%xmm3, 416(%rsp)
	paddd	512(%rsp), %xmm1
	movdqa	%xmm1, 80(%rsp)
	paddd	656(%rsp), %xmm9
	movdqa	16(%rsp), %xmm7
	paddd	672(%rsp), %xmm7
	movdqa	288(%rsp), %xmm1
	paddd	%xmm1, %xmm7
	pxor	%xmm7, %xmm11
	movdqa	.L1_v2_CPI70_0(%rip), %xmm10
	pshufb	%xmm10, %xmm11
	paddd	%xmm11, %xmm13
	movdqa	%xmm13, 256(%rsp)
	pxor	%xmm13, %xmm1
	movdqa	%xmm1, %xmm8
	psrld	$12, %xmm8
	pslld	$20, %xmm1
	por	%xmm8, %xmm1
	movdqa	%xmm1, 288(%rsp)
	movdqa	304(%rsp), %xmm5
	paddd	%xmm5, %xmm9
	pxor	%xmm9, %xmm6
	pshufb	%xmm10, %xmm6
	movdqa	%xmm14, %xmm3
	paddd	%xmm6, %xmm3
	movdqa	%xmm6, %xmm4
	pxor	%xmm3, %xmm5
	movdqa	%xmm5, %xmm8
	pslld	$20, %xmm5
	psrld	$12, %xmm8
	por	%xmm8, %xmm5
	movaps	144(%rsp), %xmm8
	movdqa	%xmm10, %xmm1
	pshufb	%xmm10, %xmm8
	movdqa	%xmm8, 144(%rsp)
	movdqa	160(%rsp), %xmm10
	paddd	%xmm8, %xmm10
	movdqa	%xmm10, 160(%rsp)
	movdqa	368(%rsp), %xmm8
	pxor	%xmm10, %xmm8
	movdqa	%xmm8, %xmm14
	psrld	$12, %xmm14
	pslld	$20, %xmm8
	por	%xmm14, %xmm8
	movdqa	%xmm8, 368(%rsp)
	paddd	688(%rsp), %xmm7
	movaps	416(%rsp), %xmm10
	pshufb	%xmm1, %xmm10
	movdqa	208(%rsp), %xmm13
	paddd	%xmm10, %xmm13
	movdqa	400(%rsp), %xmm14
	pxor	%xmm13, %xmm14
	movdqa	%xmm14, %xmm8
	psrld	$12, %xmm8
	pslld	$20, %xmm14
	por	%xmm8, %xmm14
	paddd	592(%rsp), %xmm9
	paddd	%xmm5, %xmm9
	pxor	%xmm9, %xmm4
	movdqa	%xmm9, 128(%rsp)
	movdqa	.L1_v2_CPI70_2(%rip), %xmm6
	pshufb	%xmm6, %xmm4
	paddd	%xmm4, %xmm3
	movdqa	%xmm3, 224(%rsp)
	pxor	%xmm3, %xmm5
	movdqa	%xmm5, %xmm8
	psrld	$7, %xmm8
	pslld	$25, %xmm5
	por	%xmm8, %xmm5
	movdqa	%xmm5, 304(%rsp)
	movdqa	96(%rsp), %xmm5
	paddd	704(%rsp), %xmm5
	movdqa	288(%rsp), %xmm1
	paddd	%xmm1, %xmm7
	movdqa	%xmm7, 16(%rsp)
	pxor	%xmm7, %xmm11
	pshufb	%xmm6, %xmm11
	movdqa	%xmm11, 352(%rsp)
	movdqa	256(%rsp), %xmm3
	paddd	%xmm11, %xmm3
	movdqa	%xmm3, 256(%rsp)
	pxor	%xmm3, %xmm1
	movdqa	%xmm1, %xmm8
	psrld	$7, %xmm8
	pslld	$25, %xmm1
	por	%xmm8, %xmm1
	movdqa	%xmm1, 288(%rsp)
	movdqa	48(%rsp), %xmm9
	paddd	480(%rsp), %xmm9
	movdqa	336(%rsp), %xmm3
	paddd	%xmm3, %xmm9
	pxor	%xmm9, %xmm15
	movdqa	.L1_v2_CPI70_0(%rip), %xmm7
	pshufb	%xmm7, %xmm15
	movdqa	112(%rsp), %xmm1
	paddd	%xmm15, %xmm1
	movdqa	%xmm1, 112(%rsp)
	pxor	%xmm1, %xmm3
	movdqa	%xmm3, %xmm1
	movdqa	%xmm3, %xmm8
	psrld	$12, %xmm8
	pslld	$20, %xmm1
	por	%xmm8, %xmm1
	movdqa	%xmm1, 336(%rsp)
	movdqa	176(%rsp), %xmm3
	movdqa	%xmm5, %xmm6
	paddd	%xmm3, %xmm6
	pxor	%xmm6, %xmm2
	pshufb	%xmm7, %xmm2
	movdqa	272(%rsp), %xmm1
	paddd	%xmm2, %xmm1
	movdqa	%xmm1, 272(%rsp)
	pxor	%xmm1, %xmm3
	movdqa	%xmm3, %xmm8
	psrld	$12, %xmm8
	pslld	$20, %xmm3
	por	%xmm8, %xmm3
	movdqa	%xmm3, 176(%rsp)
	movdqa	%xmm14, %xmm5
	movdqa	80(%rsp), %xmm3
	paddd	%xmm14, %xmm3
	movdqa	%xmm3, 80(%rsp)
	pxor	%xmm3, %xmm10
	movdqa	.L1_v2_CPI70_2(%rip), %xmm11
	pshufb	%xmm11, %xmm10
	movdqa	%xmm10, 416(%rsp)
	paddd	%xmm10, %xmm13
	movdqa	%xmm13, 208(%rsp)
	pxor	%xmm13, %xmm5
	movdqa	%xmm5, %xmm8
	psrld	$7, %xmm8
	pslld	$25, %xmm5
	por	%xmm8, %xmm5
	movdqa	%xmm5, 400(%rsp)
	paddd	864(%rsp), %xmm9
	movdqa	%xmm9, 48(%rsp)
	paddd	608(%rsp), %xmm6
	movdqa	(%rsp), %xmm8
	paddd	720(%rsp), %xmm8
	movdqa	%xmm8, (%rsp)
	movdqa	368(%rsp), %xmm8
	movdqa	32(%rsp), %xmm7
	paddd	%xmm8, %xmm7
	movdqa	144(%rsp), %xmm1
	pxor	%xmm7, %xmm1
	pshufb	%xmm11, %xmm1
	movdqa	%xmm1, 144(%rsp)
	movdqa	160(%rsp), %xmm3
	paddd	%xmm1, %xmm3
	movdqa	%xmm3, 160(%rsp)
	pxor	%xmm3, %xmm8
	movdqa	%xmm8, %xmm1
	psrld	$7, %xmm1
	pslld	$25, %xmm8
	por	%xmm1, %xmm8
	movdqa	%xmm8, 368(%rsp)
	movdqa	64(%rsp), %xmm1
	paddd	816(%rsp), %xmm1
	movdqa	384(%rsp), %xmm5
	paddd	%xmm5, %xmm1
	pxor	%xmm1, %xmm12
	movdqa	%xmm1, %xmm10
	movdqa	.L1_v2_CPI70_0(%rip), %xmm1
	pshufb	%xmm1, %xmm12
	movdqa	240(%rsp), %xmm14
	paddd	%xmm12, %xmm14
	pxor	%xmm14, %xmm5
	movdqa	%xmm5, %xmm8
	psrld	$12, %xmm8
	pslld	$20, %xmm5
	por	%xmm8, %xmm5
	movdqa	(%rsp), %xmm8
	movdqa	320(%rsp), %xmm13
	paddd	%xmm13, %xmm8
	movdqa	%xmm8, (%rsp)
	pxor	(%rsp), %xmm0
	pshufb	%xmm1, %xmm0
	movdqa	192(%rsp), %xmm1
	paddd	%xmm0, %xmm1
	pxor	%xmm1, %xmm13
	movdqa	%xmm1, %xmm3
	movdqa	%xmm13, %xmm8
	psrld	$12, %xmm8
	pslld	$20, %xmm13
	por	%xmm8, %xmm13
	movdqa	176(%rsp), %xmm1
	paddd	%xmm1, %xmm6
	movdqa	%xmm6, 96(%rsp)
	pxor	%xmm6, %xmm2
	pshufb	%xmm11, %xmm2
	movdqa	272(%rsp), %xmm6
	paddd	%xmm2, %xmm6
	movdqa	%xmm6, 272(%rsp)
	pxor	%xmm6, %xmm1
	movdqa	%xmm1, %xmm8
	psrld	$7, %xmm8
	pslld	$25, %xmm1
	por	%xmm8, %xmm1
	movdqa	%xmm1, 176(%rsp)
	paddd	448(%rsp), %xmm10
	movdqa	(%rsp), %xmm8
	paddd	432(%rsp), %xmm8
	movdqa	%xmm8, (%rsp)
	movdqa	(%rsp), %xmm8
	paddd	%xmm13, %xmm8
	movdqa	%xmm8, (%rsp)
	pxor	(%rsp), %xmm0
	movdqa	%xmm11, %xmm1
	pshufb	%xmm11, %xmm0
	paddd	%xmm0, %xmm3
	movdqa	%xmm3, 192(%rsp)
	pxor	%xmm3, %xmm13
	movdqa	%xmm13, %xmm8
	psrld	$7, %xmm8
	pslld	$25, %xmm13
	por	%xmm8, %xmm13
	movdqa	48(%rsp), %xmm3
	movdqa	336(%rsp), %xmm11
	paddd	%xmm11, %xmm3
	movdqa	%xmm3, 48(%rsp)
	pxor	%xmm3, %xmm15
	pshufb	%xmm1, %xmm15
	movdqa	%xmm1, %xmm3
	movdqa	112(%rsp), %xmm1
	paddd	%xmm15, %xmm1
	movdqa	%xmm1, 112(%rsp)
	pxor	%xmm1, %xmm11
	movdqa	%xmm11, %xmm1
	movdqa	%xmm11, %xmm8
	psrld	$7, %xmm8
	pslld	$25, %xmm1
	por	%xmm8, %xmm1
	movdqa	%xmm1, %xmm9
	movdqa	%xmm1, 336(%rsp)
	paddd	%xmm5, %xmm10
	movdqa	%xmm10, 64(%rsp)
	pxor	%xmm10, %xmm12
	pshufb	%xmm3, %xmm12
	paddd	%xmm12, %xmm14
	movdqa	%xmm14, 240(%rsp)
	pxor	%xmm14, %xmm5
	movdqa	%xmm5, %xmm8
	pslld	$25, %xmm5
	psrld	$7, %xmm8
	por	%xmm8, %xmm5
	movdqa	%xmm5, %xmm3
	movdqa	80(%rsp), %xmm14
	paddd	576(%rsp), %xmm14
	paddd	624(%rsp), %xmm7
	movdqa	288(%rsp), %xmm6
	paddd	%xmm6, %xmm7
	pxor	%xmm7, %xmm12
	paddd	848(%rsp), %xmm7
	movdqa	%xmm7, 32(%rsp)
	paddd	304(%rsp), %xmm14
	pxor	%xmm14, %xmm0
	paddd	800(%rsp), %xmm14
	movdqa	%xmm14, 80(%rsp)
	movdqa	128(%rsp), %xmm1
	paddd	880(%rsp), %xmm1
	movdqa	16(%rsp), %xmm5
	paddd	640(%rsp), %xmm5
	paddd	%xmm9, %xmm5
	movdqa	144(%rsp), %xmm10
	pxor	%xmm5, %xmm10
	paddd	560(%rsp), %xmm5
	movdqa	%xmm5, 16(%rsp)
	paddd	176(%rsp), %xmm1
	movdqa	416(%rsp), %xmm5
	pxor	%xmm1, %xmm5
	paddd	896(%rsp), %xmm1
	movdqa	%xmm1, 128(%rsp)
	movdqa	.L1_v2_CPI70_0(%rip), %xmm8
	pshufb	%xmm8, %xmm12
	movdqa	112(%rsp), %xmm1
	paddd	%xmm12, %xmm1
	movdqa	%xmm1, 112(%rsp)
	pxor	%xmm1, %xmm6
	movdqa	%xmm6, %xmm9
	psrld	$12, %xmm9
	pslld	$20, %xmm6
	por	%xmm9, %xmm6
	movdqa	%xmm6, 288(%rsp)
	movdqa	96(%rsp), %xmm7
	paddd	464(%rsp), %xmm7
	movdqa	%xmm8, %xmm6
	pshufb	%xmm8, %xmm0
	movdqa	272(%rsp), %xmm8
	paddd	%xmm0, %xmm8
	movdqa	%xmm8, 272(%rsp)
	movdqa	304(%rsp), %xmm1
	pxor	%xmm8, %xmm1
	movdqa	%xmm1, %xmm8
	psrld	$12, %xmm8
	pslld	$20, %xmm1
	por	%xmm8, %xmm1
	movdqa	%xmm1, 304(%rsp)
	movdqa	48(%rsp), %xmm14
	paddd	544(%rsp), %xmm14
	paddd	%xmm3, %xmm14
	movdqa	352(%rsp), %xmm11
	pxor	%xmm14, %xmm11
	pshufb	%xmm6, %xmm11
	movdqa	160(%rsp), %xmm1
	paddd	%xmm11, %xmm1
	movdqa	%xmm1, 160(%rsp)
	pxor	%xmm1, %xmm3
	movdqa	%xmm3, %xmm8
	psrld	$12, %xmm8
	pslld	$20, %xmm3
	por	%xmm8, %xmm3
	movdqa	%xmm3, 384(%rsp)
	paddd	736(%rsp), %xmm14
	movdqa	%xmm14, 48(%rsp)
	movdqa	%xmm13, %xmm1
	movdqa	%xmm7, %xmm3
	paddd	%xmm13, %xmm3
	pxor	%xmm3, %xmm4
	movdqa	%xmm3, %xmm7
	movdqa	%xmm6, %xmm3
	pshufb	%xmm6, %xmm4
	movdqa	%xmm4, 352(%rsp)
	movdqa	208(%rsp), %xmm6
	paddd	%xmm4, %xmm6
	movdqa	%xmm6, 208(%rsp)
	pxor	%xmm6, %xmm1
	movdqa	%xmm1, %xmm8
	psrld	$12, %xmm8
	pslld	$20, %xmm1
	por	%xmm8, %xmm1
	movdqa	%xmm1, 320(%rsp)
	paddd	752(%rsp), %xmm7
	movdqa	%xmm7, 96(%rsp)
	pshufb	%xmm3, %xmm10
	movdqa	%xmm10, 144(%rsp)
	movdqa	240(%rsp), %xmm7
	paddd	%xmm10, %xmm7
	movdqa	%xmm7, 240(%rsp)
	movdqa	336(%rsp), %xmm1
	pxor	%xmm7, %xmm1
	movdqa	%xmm1, %xmm8
	psrld	$12, %xmm8
	pslld	$20, %xmm1
	por	%xmm8, %xmm1
	movdqa	%xmm1, 336(%rsp)
	movdqa	(%rsp), %xmm8
	paddd	768(%rsp), %xmm8
	movdqa	%xmm8, (%rsp)
	movdqa	%xmm5, %xmm7
	pshufb	%xmm3, %xmm7
	movdqa	192(%rsp), %xmm4
	paddd	%xmm7, %xmm4
	movdqa	%xmm4, 192(%rsp)
	movdqa	176(%rsp), %xmm1
	pxor	%xmm4, %xmm1
	movdqa	%xmm1, %xmm8
	psrld	$12, %xmm8
	pslld	$20, %xmm1
	por	%xmm8, %xmm1
	movdqa	%xmm1, %xmm4
	movdqa	%xmm1, 176(%rsp)
	movdqa	64(%rsp), %xmm13
	paddd	784(%rsp), %xmm13
	movdqa	368(%rsp), %xmm14
	paddd	%xmm14, %xmm13
	movdqa	(%rsp), %xmm8
	movdqa	400(%rsp), %xmm5
	paddd	%xmm5, %xmm8
	movdqa	%xmm8, (%rsp)
	pxor	(%rsp), %xmm2
	pxor	%xmm13, %xmm15
	pshufb	%xmm3, %xmm2
	pshufb	%xmm3, %xmm15
	movdqa	256(%rsp), %xmm1
	paddd	%xmm15, %xmm1
	movdqa	%xmm1, 256(%rsp)
	pxor	%xmm1, %xmm14
	movdqa	%xmm14, %xmm8
	pslld	$20, %xmm14
	psrld	$12, %xmm8
	por	%xmm8, %xmm14
	paddd	912(%rsp), %xmm13
	movdqa	224(%rsp), %xmm1
	paddd	%xmm2, %xmm1
	movdqa	%xmm1, 224(%rsp)
	pxor	%xmm1, %xmm5
	movdqa	%xmm5, %xmm1
	movdqa	%xmm5, %xmm8
	psrld	$12, %xmm8
	pslld	$20, %xmm1
	por	%xmm8, %xmm1
	movdqa	%xmm1, 400(%rsp)
	movdqa	(%rsp), %xmm8
	paddd	928(%rsp), %xmm8
	movdqa	%xmm8, (%rsp)
	movdqa	80(%rsp), %xmm1
	paddd	304(%rsp), %xmm1
	movdqa	%xmm1, 80(%rsp)
	movdqa	32(%rsp), %xmm10
	paddd	288(%rsp), %xmm10
	pxor	%xmm10, %xmm12
	pxor	%xmm1, %xmm0
	movdqa	.L1_v2_CPI70_2(%rip), %xmm8
	pshufb	%xmm8, %xmm12
	movdqa	128(%rsp), %xmm1
	paddd	%xmm4, %xmm1
	pshufb	%xmm8, %xmm0
	movdqa	16(%rsp), %xmm3
	paddd	336(%rsp), %xmm3
	movdqa	%xmm3, 16(%rsp)
	movdqa	144(%rsp), %xmm6
	pxor	%xmm3, %xmm6
	movdqa	320(%rsp), %xmm3
	movdqa	96(%rsp), %xmm4
	paddd	%xmm3, %xmm4
	movdqa	%xmm4, 96(%rsp)
	pxor	%xmm1, %xmm7
	movdqa	%xmm1, %xmm9
	movdqa	48(%rsp), %xmm5
	movdqa	384(%rsp), %xmm1
	paddd	%xmm1, %xmm5
	movdqa	%xmm5, 48(%rsp)
	pxor	%xmm5, %xmm11
	movdqa	352(%rsp), %xmm5
	pxor	%xmm4, %xmm5
	movdqa	%xmm5, %xmm4
	pshufb	%xmm8, %xmm6
	movdqa	%xmm6, 144(%rsp)
	pshufb	%xmm8, %xmm11
	movdqa	%xmm11, 352(%rsp)
	pshufb	%xmm8, %xmm4
	movdqa	%xmm8, %xmm5
	movdqa	(%rsp), %xmm8
	movdqa	400(%rsp), %xmm6
	paddd	%xmm6, %xmm8
	movdqa	%xmm8, (%rsp)
	pshufb	%xmm5, %xmm7
	paddd	%xmm14, %xmm13
	pxor	%xmm13, %xmm15
	pxor	(%rsp), %xmm2
	pshufb	%xmm5, %xmm15
	pshufb	%xmm5, %xmm2
	pxor	1088(%rsp), %xmm10
	movdqa	80(%rsp), %xmm5
	pxor	1072(%rsp), %xmm5
	movdqa	208(%rsp), %xmm8
	paddd	%xmm4, %xmm8
	pxor	%xmm8, %xmm3
	movdqa	%xmm3, 320(%rsp)
	pxor	%xmm8, %xmm5
	movdqa	%xmm5, 80(%rsp)
	movdqa	160(%rsp), %xmm8
	paddd	%xmm11, %xmm8
	pxor	%xmm8, %xmm1
	movdqa	%xmm1, 384(%rsp)
	pxor	%xmm8, %xmm10
	movdqa	%xmm10, 32(%rsp)
	movdqa	16(%rsp), %xmm3
	pxor	1104(%rsp), %xmm3
	movdqa	%xmm9, %xmm5
	pxor	1120(%rsp), %xmm5
	movdqa	224(%rsp), %xmm1
	paddd	%xmm2, %xmm1
	movdqa	%xmm6, %xmm11
	pxor	%xmm1, %xmm11
	pxor	%xmm1, %xmm5
	movdqa	%xmm5, 128(%rsp)
	movdqa	256(%rsp), %xmm1
	paddd	%xmm15, %xmm1
	pxor	%xmm1, %xmm14
	pxor	%xmm1, %xmm3
	movdqa	%xmm3, 16(%rsp)
	movdqa	48(%rsp), %xmm6
	pxor	1136(%rsp), %xmm6
	movdqa	96(%rsp), %xmm3
	pxor	1152(%rsp), %xmm3
	movdqa	272(%rsp), %xmm1
	paddd	%xmm0, %xmm1
	movdqa	304(%rsp), %xmm5
	pxor	%xmm1, %xmm5
	pxor	%xmm1, %xmm3
	movdqa	%xmm3, 96(%rsp)
	movdqa	112(%rsp), %xmm1
	paddd	%xmm12, %xmm1
	movdqa	288(%rsp), %xmm9
	pxor	%xmm1, %xmm9
	pxor	%xmm1, %xmm6
	movdqa	%xmm6, 48(%rsp)
	pxor	1168(%rsp), %xmm13
	movaps	(%rsp), %xmm8
	xorps	1184(%rsp), %xmm8
	movaps	%xmm8, (%rsp)
	movdqa	192(%rsp), %xmm1
	paddd	%xmm7, %xmm1
	movdqa	176(%rsp), %xmm6
	pxor	%xmm1, %xmm6
	movdqa	(%rsp), %xmm8
	pxor	%xmm1, %xmm8
	movdqa	%xmm8, (%rsp)
	pxor	944(%rsp), %xmm7
	movdqa	240(%rsp), %xmm1
	movdqa	144(%rsp), %xmm10
	paddd	%xmm10, %xmm1
	pxor	960(%rsp), %xmm10
	pxor	976(%rsp), %xmm4
	movdqa	336(%rsp), %xmm3
	pxor	%xmm1, %xmm3
	pxor	%xmm1, %xmm13
	movdqa	%xmm5, %xmm8
	psrld	$7, %xmm8
	pslld	$25, %xmm5
	por	%xmm8, %xmm5
	movdqa	%xmm9, %xmm8
	psrld	$7, %xmm8
	pslld	$25, %xmm9
	por	%xmm8, %xmm9
	movdqa	320(%rsp), %xmm1
	movdqa	%xmm1, %xmm8
	psrld	$7, %xmm8
	pslld	$25, %xmm1
	por	%xmm8, %xmm1
	movdqa	%xmm1, 320(%rsp)
	movdqa	384(%rsp), %xmm1
	movdqa	%xmm1, %xmm8
	psrld	$7, %xmm8
	pslld	$25, %xmm1
	por	%xmm8, %xmm1
	movdqa	%xmm1, 384(%rsp)
	movdqa	%xmm6, %xmm8
	psrld	$7, %xmm8
	pslld	$25, %xmm6
	por	%xmm8, %xmm6
	movdqa	%xmm3, %xmm8
	psrld	$7, %xmm8
	pslld	$25, %xmm3
	por	%xmm8, %xmm3
	movdqa	%xmm11, %xmm1
	movdqa	%xmm11, %xmm8
	psrld	$7, %xmm8
	pslld	$25, %xmm1
	por	%xmm8, %xmm1
	movdqa	%xmm14, %xmm8
	psrld	$7, %xmm8
	pslld	$25, %xmm14
	por	%xmm8, %xmm14
	pxor	%xmm5, %xmm4
	movdqa	352(%rsp), %xmm11
	pxor	992(%rsp), %xmm11
	pxor	1008(%rsp), %xmm2
	pxor	%xmm9, %xmm11
	pxor	1024(%rsp), %xmm15
	pxor	1040(%rsp), %xmm0
	pxor	320(%rsp), %xmm0
	pxor	%xmm1, %xmm7
	pxor	1056(%rsp), %xmm12
	pxor	384(%rsp), %xmm12
	addq	$64, %rdx
	pxor	%xmm14, %xmm10
	addq	$512, %rsi
	movaps	32(%rsp), %xmm1
	movaps	%xmm1, 1088(%rsp)
	movaps	80(%rsp), %xmm1
	movaps	%xmm1, 1072(%rsp)
	pxor	%xmm6, %xmm2
	movaps	16(%rsp), %xmm1
	movaps	%xmm1, 1104(%rsp)
	movaps	128(%rsp), %xmm1
	movaps	%xmm1, 1120(%rsp)
	movaps	48(%rsp), %xmm1
	movaps	%xmm1, 1136(%rsp)
	pxor	%xmm3, %xmm15
	movaps	96(%rsp), %xmm1
	movaps	%xmm1, 1152(%rsp)
	movdqa	%xmm13, 64(%rsp)
	movdqa	%xmm13, 1168(%rsp)
	movaps	(%rsp), %xmm8
	movaps	%xmm8, 1184(%rsp)
	movdqa	%xmm10, %xmm5
	movdqa	%xmm10, 960(%rsp)
	movdqa	%xmm7, %xmm9
	movdqa	%xmm7, 944(%rsp)
	movdqa	%xmm11, 992(%rsp)
	movdqa	%xmm4, 976(%rsp)
	movdqa	%xmm15, 1024(%rsp)
	movdqa	%xmm2, 1008(%rsp)
	movdqa	%xmm12, 1056(%rsp)
	movdqa	%xmm0, 1040(%rsp)
	decq	%rcx
	jne	1b
	jmp	3f
2:
	movdqa	%xmm7, %xmm9
	movaps	%xmm1, 64(%rsp)
	movaps	%xmm8, (%rsp)
	movdqa	%xmm3, 48(%rsp)
	movdqa	%xmm14, 96(%rsp)
	movdqa	%xmm13, 16(%rsp)
	movdqa	%xmm10, 128(%rsp)
	movdqa	%xmm6, 32(%rsp)
	movaps	1072(%rsp), %xmm1
	movaps	%xmm1, 80(%rsp)
3:
	movaps	32(%rsp), %xmm1
	movups	%xmm1, (%rdi)
	movaps	80(%rsp), %xmm1
	movups	%xmm1, 16(%rdi)
	movaps	16(%rsp), %xmm1
	movups	%xmm1, 32(%rdi)
	movaps	128(%rsp), %xmm1
	movups	%xmm1, 48(%rdi)
	movaps	48(%rsp), %xmm1
	movups	%xmm1, 64(%rdi)
	movaps	96(%rsp), %xmm1
	movups	%xmm1, 80(%rdi)
	movaps	64(%rsp), %xmm1
	movups	%xmm1, 96(%rdi)
	movaps	(%rsp), %xmm1
	movups	%xmm1, 112(%rdi)
	movdqu	%xmm5, 128(%rdi)
	movdqu	%xmm9, 144(%rdi)
	movdqu	%xmm11, 160(%rdi)
	movdqu	%xmm4, 176(%rdi)
	movdqu	%xmm15, 192(%rdi)
	movdqu	%xmm2, 208(%rdi)
	movdqu	%xmm12, 224(%rdi)
	movdqu	%xmm0, 240(%rdi)
	addq	$1208, %rsp
	retq
	vj_end	blake2_parallel..lanes..blake2sp..compress_in_lanes_1_v2

	vj_function	blake2_parallel..lanes..blake2sp..Lanes..compress_held_1_v2
	pushq	%rbp
	pushq	%r15
	pushq	%r14
	pushq	%r13
	pushq	%r12
	pushq	%rbx
	subq	$1224, %rsp
	movq	%rdi, %rbx
	movups	(%rdi), %xmm0
	movups	16(%rdi), %xmm1
	movups	32(%rdi), %xmm2
	movups	48(%rdi), %xmm3
	movups	80(%rdi), %xmm4
	movups	64(%rdi), %xmm5
	movups	112(%rdi), %xmm6
	movups	96(%rdi), %xmm7
	movups	144(%rdi), %xmm8
	movups	128(%rdi), %xmm9
	movups	176(%rdi), %xmm10
	movups	160(%rdi), %xmm11
	movups	208(%rdi), %xmm12
	movups	192(%rdi), %xmm13
	movups	224(%rdi), %xmm14
	movups	240(%rdi), %xmm15
	movaps	%xmm0, (%rsp)
	movaps	%xmm1, 16(%rsp)
	movaps	%xmm2, 32(%rsp)
	movaps	%xmm3, 48(%rsp)
	movaps	%xmm5, 64(%rsp)
	movaps	%xmm4, 80(%rsp)
	movaps	%xmm7, 96(%rsp)
	movaps	%xmm6, 112(%rsp)
	movaps	%xmm9, 128(%rsp)
	movaps	%xmm8, 144(%rsp)
	movaps	%xmm11, 160(%rsp)
	movaps	%xmm10, 176(%rsp)
	movaps	%xmm13, 192(%rsp)
	movaps	%xmm12, 208(%rsp)
	movaps	%xmm15, 240(%rsp)
	movaps	%xmm14, 224(%rsp)
	movq	256(%rdi), %r15
	leaq	272(%rdi), %r14
	movq	%rsp, %rdi
	movl	$1, %ecx
	movq	%r14, %rsi
	movq	%r15, %rdx
	callq	blake2_parallel..lanes..blake2sp..compress_in_lanes_1_v2
	leaq	784(%rbx), %rbp
	movq	$-512, %r12
	addq	264(%rbx), %r12
	leaq	264(%rsp), %r13
	movl	$960, %edx
	movq	%r13, %rdi
	xorl	%esi, %esi
	vj_c_call	memset
	movq	%r13, %rdi
	movq	%rbp, %rsi
	movq	%r12, %rdx
	vj_c_call	memcpy
	movaps	(%rsp), %xmm0
	movups	%xmm0, (%rbx)
	movaps	16(%rsp), %xmm0
	movups	%xmm0, 16(%rbx)
	movaps	32(%rsp), %xmm0
	movups	%xmm0, 32(%rbx)
	movaps	48(%rsp), %xmm0
	movups	%xmm0, 48(%rbx)
	movaps	64(%rsp), %xmm0
	movups	%xmm0, 64(%rbx)
	movaps	80(%rsp), %xmm0
	movups	%xmm0, 80(%rbx)
	movaps	96(%rsp), %xmm0
	movups	%xmm0, 96(%rbx)
	movaps	112(%rsp), %xmm0
	movups	%xmm0, 112(%rbx)
	movaps	128(%rsp), %xmm0
	movups	%xmm0, 128(%rbx)
	movaps	144(%rsp), %xmm0
	movups	%xmm0, 144(%rbx)
	movaps	160(%rsp), %xmm0
	movups	%xmm0, 160(%rbx)
	movaps	176(%rsp), %xmm0
	movups	%xmm0, 176(%rbx)
	movaps	192(%rsp), %xmm0
	movups	%xmm0, 192(%rbx)
	movaps	208(%rsp), %xmm0
	movups	%xmm0, 208(%rbx)
	movaps	224(%rsp), %xmm0
	movups	%xmm0, 224(%rbx)
	movaps	240(%rsp), %xmm0
	movups	%xmm0, 240(%rbx)
	addq	$64, %r15
	movq	%r15, 256(%rbx)
	movl	$960, %edx
	movq	%r14, %rdi
	movq	%r13, %rsi
	vj_c_call	memcpy
	movq	%r12, 264(%rbx)
	addq	$1224, %rsp
	popq	%rbx
	popq	%r12
	popq	%r13
	popq	%r14
	popq	%r15
	popq	%rbp
	retq
	vj_end	blake2_parallel..lanes..blake2sp..Lanes..compress_held_1_v2

	vj_function	blake2_ffi..blake2sp..is_digest_of_1_v2
	pushq	%r15
	pushq	%r14
	pushq	%rbx
	subq	$32, %rsp
	movq	%rdx, %rbx
	movq	%rsi, %r14
	movq	%rdi, %r15
	movq	%rsp, %rdi
	movq	%r15, %rsi
	callq	blake2_parallel..blake2sp..State..output_1_v2
	cmpq	1528(%r15), %rbx
	jne	1f
	testq	%rbx, %rbx
	je	2f
	cmpq	$4, %rbx
	jae	3f
	xorl	%ecx, %ecx
	xorl	%eax, %eax
	jmp	8f
1:
	xorl	%eax, %eax
	jmp	11f
2:
	movb	$1, %al
	jmp	11f
3:
	cmpq	$32, %rbx
	jae	4f
	xorl	%eax, %eax
	xorl	%ecx, %ecx
	jmp	6f
4:
	movq	%rbx, %rax
	andq	$-32, %rax
	pxor	%xmm0, %xmm0
	xorl	%ecx, %ecx
	pxor	%xmm1, %xmm1
	.p2align	4
5:
	movdqu	(%r14,%rcx), %xmm2
	movdqu	16(%r14,%rcx), %xmm3
	movdqu	(%rsp,%rcx), %xmm4
	pxor	%xmm2, %xmm4
	por	%xmm4, %xmm1
	movdqu	16(%rsp,%rcx), %xmm2
	pxor	%xmm3, %xmm2
	por	%xmm2, %xmm0
	addq	$32, %rcx
	cmpq	%rcx, %rax
	jne	5b
	por	%xmm1, %xmm0
	pshufd	$238, %xmm0, %xmm1
	por	%xmm0, %xmm1
	pshufd	$85, %xmm1, %xmm0
	por	%xmm1, %xmm0
	movdqa	%xmm0, %xmm1
	psrld	$16, %xmm1
	por	%xmm0, %xmm1
	movdqa	%xmm1, %xmm0
	psrlw	$8, %xmm0
	por	%xmm1, %xmm0
	movd	%xmm0, %ecx
	cmpq	%rax, %rbx
	je	10f
	testb	$28, %bl
	je	8f
6:
	movq	%rax, %rdx
	movq	%rbx, %rax
	andq	$-4, %rax
	movzbl	%cl, %ecx
	movd	%ecx, %xmm0
	.p2align	4
7:
	movl	(%rsp,%rdx), %ecx
	xorl	(%r14,%rdx), %ecx
	movd	%ecx, %xmm1
	por	%xmm1, %xmm0
	addq	$4, %rdx
	cmpq	%rdx, %rax
	jne	7b
	movdqa	%xmm0, %xmm1
	psrld	$16, %xmm1
	por	%xmm0, %xmm1
	movdqa	%xmm1, %xmm0
	psrlw	$8, %xmm0
	por	%xmm1, %xmm0
	movd	%xmm0, %ecx
	jmp	9f
8:
	movzbl	(%rsp,%rax), %edx
	xorb	(%r14,%rax), %dl
	orb	%dl, %cl
	incq	%rax
9:
	cmpq	%rax, %rbx
	jne	8b
10:
	testb	%cl, %cl
	sete	%al
11:
	addq	$32, %rsp
	popq	%rbx
	popq	%r14
	popq	%r15
	retq
	vj_end	blake2_ffi..blake2sp..is_digest_of_1_v2

	vj_constants	16
	.p2align	4, 0x0
.L1_v2_CPI73_0:
	.quad	7640891576956012808
	.quad	-4942790177534073029
.L1_v2_CPI73_1:
	.quad	4354685564936845355
	.quad	-6534734903238641935
.L1_v2_CPI73_2:
	.quad	5840696475078001361
	.quad	-7276294671716946913
.L1_v2_CPI73_3:
	.quad	2270897969802886507
	.quad	6620516959819538809
.L1_v2_CPI73_4:
	.short	64
	.short	257
	.short	0
	.short	0
	.zero	2
	.zero	2
	.zero	2
	.zero	2
.L1_v2_CPI73_5:
	.short	64
	.short	257
	.short	0
	.short	0
	.short	0
	.short	0
	.short	0
	.short	0
	vj_function	blake2_ffi..blake2xb..initialize_1_v2
	pushq	%rbp
	movq	%rsp, %rbp
	pushq	%r15
	pushq	%r14
	pushq	%r13
	pushq	%r12
	pushq	%rbx
	andq	$-32, %rsp
	subq	$480, %rsp
	movq	%rcx, %r13
	movq	%rdx, %r14
	movq	24(%rbp), %r12
	leaq	-1(%rsi), %rax
	movl	$4294967294, %ecx
	cmpq	%rcx, %rax
	seta	%al
	cmpq	$65, %r13
	setae	%cl
	cmpq	$17, %r9
	setae	%dl
	orb	%cl, %dl
	orb	%al, %dl
	cmpq	$17, %r12
	setae	%al
	orb	%dl, %al
	jne	1f
	movq	%r9, %r15
	movq	%rsi, %rbx
	movq	%rdi, 88(%rsp)
	movq	%rsi, %xmm0
	psllq	$32, %xmm0
	xorps	%xmm1, %xmm1
	testq	%r13, %r13
	je	2f
	movaps	%xmm1, 16(%rsp)
	movaps	%xmm1, (%rsp)
	movl	%r13d, %eax
	shll	$8, %eax
	orl	$16842816, %eax
	movd	%eax, %xmm1
	pmovzxdq	%xmm1, %xmm1
	punpcklqdq	%xmm0, %xmm1
	movdqa	%xmm1, 48(%rsp)
	movq	%rsp, %rdi
	movq	%r8, %rsi
	movq	%r15, %rdx
	movq	%r8, 80(%rsp)
	vj_c_call	memcpy
	leaq	16(%rsp), %rdi
	movq	16(%rbp), %rsi
	movq	%r12, %rdx
	vj_c_call	memcpy
	movaps	(%rsp), %xmm0
	movaps	16(%rsp), %xmm1
	movaps	48(%rsp), %xmm2
	xorps	.L1_v2_CPI73_0(%rip), %xmm2
	movaps	%xmm2, 48(%rsp)
	xorps	.L1_v2_CPI73_2(%rip), %xmm0
	movaps	%xmm0, 192(%rsp)
	xorps	.L1_v2_CPI73_3(%rip), %xmm1
	movaps	%xmm1, 176(%rsp)
	movaps	.L1_v2_CPI73_1(%rip), %xmm0
	movaps	%xmm0, 160(%rsp)
	movl	$64, %eax
	subq	%r13, %rax
	xorl	%edx, %edx
	cmpq	$64, %r13
	cmovbq	%rax, %rdx
	leaq	(%rsp,%r13), %rdi
	addq	$96, %rdi
	xorl	%esi, %esi
	vj_c_call	memset
	leaq	96(%rsp), %rdi
	movq	%r14, %rsi
	movq	%r13, %rdx
	movq	80(%rsp), %r13
	vj_c_call	memcpy
	xorps	%xmm0, %xmm0
	movaps	%xmm0, 272(%rsp)
	movaps	%xmm0, 288(%rsp)
	movaps	%xmm0, 304(%rsp)
	movaps	%xmm0, 320(%rsp)
	movups	96(%rsp), %xmm0
	movups	112(%rsp), %xmm1
	movups	128(%rsp), %xmm2
	movups	144(%rsp), %xmm3
	movaps	%xmm0, 208(%rsp)
	movaps	%xmm1, 224(%rsp)
	movaps	%xmm2, 240(%rsp)
	movaps	%xmm3, 256(%rsp)
	movl	$128, %r14d
	jmp	3f
1:
	movl	$464, %edx
	xorl	%esi, %esi
	vj_c_call	memset
	movl	$-1, %eax
	jmp	4f
2:
	movaps	%xmm1, 16(%rsp)
	movaps	%xmm1, (%rsp)
	movd	.L1_v2_CPI73_5(%rip), %xmm1
	punpcklqdq	%xmm0, %xmm1
	movdqa	%xmm1, 48(%rsp)
	movq	%rsp, %rdi
	movq	%r8, %rsi
	movq	%r15, %rdx
	movq	%r8, %r13
	vj_c_call	memcpy
	leaq	16(%rsp), %rdi
	movq	16(%rbp), %rsi
	movq	%r12, %rdx
	vj_c_call	memcpy
	movaps	(%rsp), %xmm0
	movaps	16(%rsp), %xmm1
	movaps	48(%rsp), %xmm2
	xorps	.L1_v2_CPI73_0(%rip), %xmm2
	movaps	%xmm2, 48(%rsp)
	xorps	.L1_v2_CPI73_2(%rip), %xmm0
	movaps	%xmm0, 192(%rsp)
	movaps	.L1_v2_CPI73_1(%rip), %xmm0
	movaps	%xmm0, 160(%rsp)
	xorps	.L1_v2_CPI73_3(%rip), %xmm1
	movaps	%xmm1, 176(%rsp)
	xorps	%xmm0, %xmm0
	movaps	%xmm0, 208(%rsp)
	movaps	%xmm0, 224(%rsp)
	movaps	%xmm0, 240(%rsp)
	movaps	%xmm0, 256(%rsp)
	movaps	%xmm0, 272(%rsp)
	movaps	%xmm0, 288(%rsp)
	movaps	%xmm0, 304(%rsp)
	movaps	%xmm0, 320(%rsp)
	movaps	%xmm0, 96(%rsp)
	movaps	%xmm0, 112(%rsp)
	movaps	%xmm0, 128(%rsp)
	movaps	%xmm0, 144(%rsp)
	xorl	%r14d, %r14d
3:
	xorps	%xmm0, %xmm0
	movaps	%xmm0, 64(%rsp)
	leaq	64(%rsp), %rdi
	movq	%r13, %rsi
	movq	%r15, %rdx
	vj_c_call	memcpy
	movaps	64(%rsp), %xmm0
	movaps	%xmm0, (%rsp)
	xorps	%xmm0, %xmm0
	movaps	%xmm0, 336(%rsp)
	leaq	336(%rsp), %rdi
	movq	16(%rbp), %rsi
	movq	%r12, %rdx
	vj_c_call	memcpy
	movaps	336(%rsp), %xmm0
	movaps	%xmm0, 64(%rsp)
	xorps	%xmm1, %xmm1
	movaps	%xmm1, 352(%rsp)
	movaps	%xmm1, 368(%rsp)
	movaps	%xmm1, 384(%rsp)
	movaps	%xmm1, 400(%rsp)
	xorps	%xmm4, %xmm4
	movaps	(%rsp), %xmm1
	movaps	%xmm1, 416(%rsp)
	movaps	%xmm0, 432(%rsp)
	movq	88(%rsp), %rax
	movaps	48(%rsp), %xmm0
	movups	%xmm0, (%rax)
	movaps	160(%rsp), %xmm3
	movups	%xmm3, 16(%rax)
	movaps	192(%rsp), %xmm1
	movups	%xmm1, 32(%rax)
	movaps	176(%rsp), %xmm2
	movups	%xmm2, 48(%rax)
	movups	%xmm0, 64(%rax)
	movups	%xmm3, 80(%rax)
	movups	%xmm1, 96(%rax)
	movups	%xmm2, 112(%rax)
	movq	$0, 128(%rax)
	movl	%r14d, 136(%rax)
	movl	%r14d, 140(%rax)
	movq	$64, 144(%rax)
	movaps	320(%rsp), %xmm0
	movups	%xmm0, 264(%rax)
	movaps	304(%rsp), %xmm0
	movups	%xmm0, 248(%rax)
	movaps	288(%rsp), %xmm0
	movups	%xmm0, 232(%rax)
	movaps	272(%rsp), %xmm0
	movups	%xmm0, 216(%rax)
	movaps	208(%rsp), %xmm0
	movaps	224(%rsp), %xmm1
	movaps	240(%rsp), %xmm2
	movaps	256(%rsp), %xmm3
	movups	%xmm3, 200(%rax)
	movups	%xmm2, 184(%rax)
	movups	%xmm1, 168(%rax)
	movups	%xmm0, 152(%rax)
	movaps	96(%rsp), %xmm0
	movaps	112(%rsp), %xmm1
	movaps	128(%rsp), %xmm2
	movaps	144(%rsp), %xmm3
	movups	%xmm3, 328(%rax)
	movups	%xmm2, 312(%rax)
	movups	%xmm1, 296(%rax)
	movups	%xmm0, 280(%rax)
	movaps	432(%rsp), %xmm0
	movups	%xmm0, 424(%rax)
	movaps	416(%rsp), %xmm0
	movups	%xmm0, 408(%rax)
	movaps	352(%rsp), %xmm0
	movaps	368(%rsp), %xmm1
	movaps	384(%rsp), %xmm2
	movaps	400(%rsp), %xmm3
	movups	%xmm3, 392(%rax)
	movups	%xmm2, 376(%rax)
	movups	%xmm1, 360(%rax)
	movups	%xmm0, 344(%rax)
	movq	%rbx, 440(%rax)
	movups	%xmm4, 448(%rax)
	xorl	%eax, %eax
4:
	leaq	-40(%rbp), %rsp
	popq	%rbx
	popq	%r12
	popq	%r13
	popq	%r14
	popq	%r15
	popq	%rbp
	retq
	vj_end	blake2_ffi..blake2xb..initialize_1_v2

	vj_function	blake2_digest..wiping..scrub_stack..2304_1_v2
	pushq	%rbx
	subq	$2304, %rsp
	movq	%rsp, %rbx
	movl	$2304, %edx
	movq	%rbx, %rdi
	xorl	%esi, %esi
	vj_c_call	memset
	movq	%rbx, %rdi
	callq	blake2_digest..wiping..settle..2304_1_v2
	addq	$2304, %rsp
	popq	%rbx
	retq
	vj_end	blake2_digest..wiping..scrub_stack..2304_1_v2

	vj_function	blake2_digest..wiping..settle..2304_1_v2
	pxor	%xmm0, %xmm0
	movl	$112, %eax
	pxor	%xmm1, %xmm1
	.p2align	4
1:
	movdqu	-112(%rdi,%rax), %xmm2
	por	%xmm1, %xmm2
	movdqu	-96(%rdi,%rax), %xmm1
	por	%xmm0, %xmm1
	movdqu	-80(%rdi,%rax), %xmm0
	movdqu	-64(%rdi,%rax), %xmm3
	movdqu	-48(%rdi,%rax), %xmm4
	por	%xmm0, %xmm4
	por	%xmm2, %xmm4
	movdqu	-32(%rdi,%rax), %xmm2
	por	%xmm3, %xmm2
	por	%xmm1, %xmm2
	movdqu	-16(%rdi,%rax), %xmm1
	por	%xmm4, %xmm1
	movdqu	(%rdi,%rax), %xmm0
	por	%xmm2, %xmm0
	subq	$-128, %rax
	cmpq	$2416, %rax
	jne	1b
	por	%xmm1, %xmm0
	ptest	%xmm0, %xmm0
	je	2f
	pause
2:
	retq
	vj_end	blake2_digest..wiping..settle..2304_1_v2

	vj_function	blake2_ffi..blake2xb..reset_in_frame_1_v2
	movups	64(%rdi), %xmm0
	movups	80(%rdi), %xmm1
	movups	96(%rdi), %xmm2
	movups	112(%rdi), %xmm3
	movups	%xmm3, 48(%rdi)
	movups	%xmm2, 32(%rdi)
	movups	%xmm1, 16(%rdi)
	movups	%xmm0, (%rdi)
	movq	$0, 128(%rdi)
	movl	140(%rdi), %eax
	movl	%eax, 136(%rdi)
	xorps	%xmm0, %xmm0
	movups	%xmm0, 216(%rdi)
	movups	%xmm0, 232(%rdi)
	movups	%xmm0, 248(%rdi)
	movups	%xmm0, 264(%rdi)
	movups	280(%rdi), %xmm1
	movups	%xmm1, 152(%rdi)
	movups	296(%rdi), %xmm1
	movups	%xmm1, 168(%rdi)
	movups	312(%rdi), %xmm1
	movups	%xmm1, 184(%rdi)
	movups	328(%rdi), %xmm1
	movups	%xmm1, 200(%rdi)
	movups	%xmm0, 392(%rdi)
	movups	%xmm0, 376(%rdi)
	movups	%xmm0, 360(%rdi)
	movups	%xmm0, 344(%rdi)
	movups	%xmm0, 448(%rdi)
	retq
	vj_end	blake2_ffi..blake2xb..reset_in_frame_1_v2

	vj_function	blake2_ffi..blake2xb..read_1_v2
	vj_jump	blake2_xof..blake2xb..State..squeeze_1_v2
	vj_end	blake2_ffi..blake2xb..read_1_v2

	vj_constants	16
	.p2align	4, 0x0
.L1_v2_CPI78_0:
	.zero	1
	.byte	0
	.byte	0
	.byte	0
	.byte	64
	.byte	0
	.byte	0
	.byte	0
	.zero	1
	.zero	1
	.zero	1
	.zero	1
	.zero	1
	.zero	1
	.zero	1
	.zero	1
.L1_v2_CPI78_1:
	.quad	7640891576956012808
	.quad	-4942790177534073029
.L1_v2_CPI78_2:
	.quad	4354685564936828971
	.quad	-6534734903238641935
.L1_v2_CPI78_3:
	.quad	5840696475078001361
	.quad	-7276294671716946913
.L1_v2_CPI78_4:
	.quad	2270897969802886507
	.quad	6620516959819538809
.L1_v2_CPI78_5:
	.byte	0
	.byte	0
	.byte	0
	.byte	0
	.byte	64
	.byte	0
	.byte	0
	.byte	0
	.byte	0
	.byte	0
	.byte	0
	.byte	0
	.byte	0
	.byte	0
	.byte	0
	.byte	0
	vj_shared	blake2_xof..blake2xb..State..squeeze_1_v2
	pushq	%rbp
	pushq	%r15
	pushq	%r14
	pushq	%r13
	pushq	%r12
	pushq	%rbx
	subq	$216, %rsp
	movq	%rdx, %rbp
	movq	%rsi, %r14
	movq	%rdi, %r15
	cmpq	$0, 456(%rdi)
	jne	1f
	leaq	344(%r15), %rsi
	movq	%r15, %rdi
	callq	blake2_state..blake2b..State..write_digest_1_v2
	movq	$1, 456(%r15)
1:
	testq	%rbp, %rbp
	je	3f
	movq	448(%r15), %r13
	xorl	%r12d, %r12d
	movq	%rbp, (%rsp)
	.p2align	4
2:
	movq	%r12, %rbx
	movq	(%rsp), %rbp
	subq	%r12, %rbp
	movq	%r13, %rax
	shrq	$6, %rax
	movq	440(%r15), %rcx
	movq	%rcx, %rdx
	shlq	$32, %rdx
	addq	%rax, %rdx
	movl	$4294967295, %eax
	cmpq	%rax, %rcx
	movabsq	$274877906944, %rax
	cmovneq	%rcx, %rax
	movq	%r13, %rcx
	andq	$-64, %rcx
	xorl	%esi, %esi
	subq	%rcx, %rax
	cmovaeq	%rax, %rsi
	cmpq	$64, %rsi
	movl	$64, %r12d
	cmovaeq	%r12, %rsi
	leaq	(%r14,%rbx), %rax
	movq	%rax, 8(%rsp)
	movq	.L1_v2_CPI78_5(%rip), %xmm0
	pinsrb	$0, %esi, %xmm0
	movq	%rdx, %xmm1
	punpcklqdq	%xmm1, %xmm0
	movups	408(%r15), %xmm1
	movups	424(%r15), %xmm2
	pxor	.L1_v2_CPI78_1(%rip), %xmm0
	xorps	.L1_v2_CPI78_3(%rip), %xmm1
	movaps	.L1_v2_CPI78_2(%rip), %xmm3
	xorps	.L1_v2_CPI78_4(%rip), %xmm2
	movups	%xmm3, 32(%rsp)
	movdqu	%xmm0, 16(%rsp)
	movups	%xmm2, 64(%rsp)
	movups	%xmm1, 48(%rsp)
	pxor	%xmm0, %xmm0
	leaq	144(%rsp), %rax
	movdqu	%xmm0, 48(%rax)
	movdqu	%xmm0, 32(%rax)
	movdqu	%xmm0, 16(%rax)
	movdqu	%xmm0, (%rax)
	leaq	344(%r15), %rax
	movups	(%rax), %xmm0
	movups	16(%rax), %xmm1
	movups	32(%rax), %xmm2
	movups	48(%rax), %xmm3
	movaps	%xmm3, 128(%rsp)
	movaps	%xmm2, 112(%rsp)
	movaps	%xmm1, 96(%rsp)
	movaps	%xmm0, 80(%rsp)
	leaq	16(%rsp), %rdi
	leaq	80(%rsp), %rsi
	movl	$64, %edx
	movl	$1, %ecx
	xorl	%r8d, %r8d
	vj_call	blake2_compress..compress..blake2b..compress_1_v2
	movups	16(%rsp), %xmm0
	movups	32(%rsp), %xmm1
	movups	48(%rsp), %xmm2
	movups	64(%rsp), %xmm3
	movaps	%xmm0, 80(%rsp)
	movaps	%xmm1, 96(%rsp)
	movaps	%xmm2, 112(%rsp)
	movaps	%xmm3, 128(%rsp)
	andl	$63, %r13d
	subq	%r13, %r12
	cmpq	%rbp, %r12
	cmovaeq	%rbp, %r12
	movq	(%rsp), %rbp
	leaq	(%rsp,%r13), %rsi
	addq	$80, %rsi
	movq	8(%rsp), %rdi
	movq	%r12, %rdx
	vj_c_call	memcpy
	movq	448(%r15), %r13
	addq	%r12, %r13
	movq	%r13, 448(%r15)
	addq	%rbx, %r12
	cmpq	%rbp, %r12
	jb	2b
3:
	addq	$216, %rsp
	popq	%rbx
	popq	%r12
	popq	%r13
	popq	%r14
	popq	%r15
	popq	%rbp
	retq
	vj_end	blake2_xof..blake2xb..State..squeeze_1_v2

	vj_function	blake2_digest..wiping..scrub_stack..4096_1_v2
	pushq	%rbx
	subq	$3072, %rsp
	movq	$0, (%rsp)
	subq	$1024, %rsp
	movq	%rsp, %rbx
	movl	$4096, %edx
	movq	%rbx, %rdi
	xorl	%esi, %esi
	vj_c_call	memset
	movq	%rbx, %rdi
	callq	blake2_digest..wiping..settle..4096_1_v2
	addq	$4096, %rsp
	popq	%rbx
	retq
	vj_end	blake2_digest..wiping..scrub_stack..4096_1_v2

	vj_function	blake2_digest..wiping..settle..4096_1_v2
	pxor	%xmm0, %xmm0
	xorl	%eax, %eax
	pxor	%xmm1, %xmm1
	.p2align	4
1:
	movdqu	(%rdi,%rax), %xmm2
	por	%xmm1, %xmm2
	movdqu	16(%rdi,%rax), %xmm1
	por	%xmm0, %xmm1
	movdqu	32(%rdi,%rax), %xmm0
	movdqu	48(%rdi,%rax), %xmm3
	movdqu	64(%rdi,%rax), %xmm4
	por	%xmm0, %xmm4
	por	%xmm2, %xmm4
	movdqu	80(%rdi,%rax), %xmm2
	por	%xmm3, %xmm2
	por	%xmm1, %xmm2
	movdqu	96(%rdi,%rax), %xmm1
	por	%xmm4, %xmm1
	movdqu	112(%rdi,%rax), %xmm0
	por	%xmm2, %xmm0
	subq	$-128, %rax
	cmpq	$4096, %rax
	jne	1b
	por	%xmm1, %xmm0
	ptest	%xmm0, %xmm0
	je	2f
	pause
2:
	retq
	vj_end	blake2_digest..wiping..settle..4096_1_v2

	vj_function	blake2_ffi..blake2xb..update_in_frame_1_v2
	cmpq	$1, %rdx
	jne	blake2_state..blake2b..State..absorb_blocks_1_v2
	movl	136(%rdi), %eax
	cmpq	$128, %rax
	jae	1f
	movzbl	(%rsi), %ecx
	movb	%cl, 152(%rdi,%rax)
	incl	%eax
	movl	%eax, 136(%rdi)
	retq
1:
	movl	$1, %edx
	jmp	blake2_state..blake2b..State..absorb_blocks_1_v2
	vj_end	blake2_ffi..blake2xb..update_in_frame_1_v2

	vj_constants	16
	.p2align	4, 0x0
.L1_v2_CPI82_0:
	.short	32
	.short	257
	.short	0
	.short	0
	.zero	2
	.zero	2
	.zero	2
	.zero	2
.L1_v2_CPI82_1:
	.long	1359893119
	.long	2600822924
	.long	528734635
	.long	1541459225
.L1_v2_CPI82_2:
	.long	1779033703
	.long	3144134277
	.long	1013904242
	.long	2773480762
.L1_v2_CPI82_3:
	.short	32
	.short	257
	.short	0
	.short	0
	.short	0
	.short	0
	.short	0
	.short	0
	vj_function	blake2_ffi..blake2xs..initialize_1_v2
	pushq	%rbp
	pushq	%r15
	pushq	%r14
	pushq	%r13
	pushq	%r12
	pushq	%rbx
	subq	$168, %rsp
	movq	%rcx, %rbp
	movq	%rdx, %r15
	movq	%rdi, %rbx
	movq	232(%rsp), %r13
	leaq	-1(%rsi), %rax
	cmpq	$65535, %rax
	setae	%al
	cmpq	$33, %rcx
	setae	%cl
	cmpq	$9, %r9
	setae	%dl
	orb	%cl, %dl
	orb	%al, %dl
	cmpq	$9, %r13
	setae	%al
	orb	%dl, %al
	jne	1f
	movq	%r9, %r12
	movq	%rsi, %r14
	movq	%rsi, %rax
	shlq	$32, %rax
	pxor	%xmm2, %xmm2
	testq	%rbp, %rbp
	je	2f
	movdqa	%xmm2, (%rsp)
	movl	%ebp, %ecx
	shll	$8, %ecx
	orl	$16842784, %ecx
	movd	%ecx, %xmm0
	pmovzxdq	%xmm0, %xmm1
	movq	%rax, %xmm0
	punpcklqdq	%xmm0, %xmm1
	pblendw	$128, %xmm2, %xmm1
	movdqa	%xmm1, 32(%rsp)
	movq	%rsp, %rdi
	movq	%r8, %rsi
	movq	%r12, %rdx
	movq	%r8, 88(%rsp)
	vj_c_call	memcpy
	leaq	8(%rsp), %rdi
	movq	224(%rsp), %rsi
	movq	%r13, %rdx
	vj_c_call	memcpy
	movaps	(%rsp), %xmm0
	movaps	%xmm0, 16(%rsp)
	movl	$32, %eax
	subq	%rbp, %rax
	xorl	%edx, %edx
	cmpq	$32, %rbp
	cmovbq	%rax, %rdx
	leaq	(%rsp,%rbp), %rdi
	addq	$48, %rdi
	xorl	%esi, %esi
	vj_c_call	memset
	leaq	48(%rsp), %rdi
	movq	%r15, %rsi
	movq	88(%rsp), %r15
	movq	%rbp, %rdx
	vj_c_call	memcpy
	xorps	%xmm0, %xmm0
	movaps	%xmm0, 128(%rsp)
	movaps	%xmm0, 144(%rsp)
	movups	48(%rsp), %xmm0
	movdqu	64(%rsp), %xmm1
	movaps	%xmm0, 96(%rsp)
	movdqa	%xmm1, 112(%rsp)
	movw	$64, %bp
	jmp	3f
1:
	xorps	%xmm0, %xmm0
	movups	%xmm0, 224(%rbx)
	movups	%xmm0, 208(%rbx)
	movups	%xmm0, 192(%rbx)
	movups	%xmm0, 176(%rbx)
	movups	%xmm0, 160(%rbx)
	movups	%xmm0, 144(%rbx)
	movups	%xmm0, 128(%rbx)
	movups	%xmm0, 112(%rbx)
	movups	%xmm0, 96(%rbx)
	movups	%xmm0, 80(%rbx)
	movups	%xmm0, 64(%rbx)
	movups	%xmm0, 48(%rbx)
	movups	%xmm0, 32(%rbx)
	movups	%xmm0, 16(%rbx)
	movups	%xmm0, (%rbx)
	movq	$0, 240(%rbx)
	movl	$-1, %eax
	jmp	4f
2:
	movdqa	%xmm2, (%rsp)
	movq	%rax, %xmm0
	movd	.L1_v2_CPI82_3(%rip), %xmm1
	punpcklqdq	%xmm0, %xmm1
	pblendw	$128, %xmm2, %xmm1
	movdqa	%xmm1, 32(%rsp)
	movq	%rsp, %rdi
	movq	%r8, %rsi
	movq	%r12, %rdx
	movq	%r8, %r15
	vj_c_call	memcpy
	leaq	8(%rsp), %rdi
	movq	224(%rsp), %rsi
	movq	%r13, %rdx
	vj_c_call	memcpy
	movaps	(%rsp), %xmm0
	movaps	%xmm0, 16(%rsp)
	xorps	%xmm0, %xmm0
	movaps	%xmm0, 96(%rsp)
	movaps	%xmm0, 112(%rsp)
	movaps	%xmm0, 128(%rsp)
	movaps	%xmm0, 144(%rsp)
	movaps	%xmm0, 48(%rsp)
	movaps	%xmm0, 64(%rsp)
	xorl	%ebp, %ebp
3:
	movaps	16(%rsp), %xmm0
	xorps	.L1_v2_CPI82_1(%rip), %xmm0
	movaps	%xmm0, 16(%rsp)
	movaps	32(%rsp), %xmm0
	xorps	.L1_v2_CPI82_2(%rip), %xmm0
	movaps	%xmm0, 32(%rsp)
	movq	$0, (%rsp)
	movq	%rsp, %rdi
	movq	%r15, %rsi
	movq	%r12, %rdx
	vj_c_call	memcpy
	movq	(%rsp), %r15
	movq	$0, (%rsp)
	movq	%rsp, %rdi
	movq	224(%rsp), %rsi
	movq	%r13, %rdx
	vj_c_call	memcpy
	movq	(%rsp), %rax
	movaps	32(%rsp), %xmm1
	movups	%xmm1, (%rbx)
	movaps	16(%rsp), %xmm0
	movups	%xmm0, 16(%rbx)
	movups	%xmm1, 32(%rbx)
	movups	%xmm0, 48(%rbx)
	movq	$0, 64(%rbx)
	movw	%bp, 72(%rbx)
	movw	%bp, 74(%rbx)
	movl	$32, 76(%rbx)
	movaps	96(%rsp), %xmm0
	movaps	112(%rsp), %xmm1
	movaps	128(%rsp), %xmm2
	movaps	144(%rsp), %xmm3
	movups	%xmm0, 80(%rbx)
	movups	%xmm1, 96(%rbx)
	movups	%xmm2, 112(%rbx)
	movups	%xmm3, 128(%rbx)
	movaps	48(%rsp), %xmm0
	movaps	64(%rsp), %xmm1
	movups	%xmm0, 144(%rbx)
	movups	%xmm1, 160(%rbx)
	xorps	%xmm0, %xmm0
	movups	%xmm0, 176(%rbx)
	movups	%xmm0, 192(%rbx)
	movq	%r15, 208(%rbx)
	movq	%rax, 216(%rbx)
	movq	%r14, 224(%rbx)
	movups	%xmm0, 232(%rbx)
	xorl	%eax, %eax
4:
	addq	$168, %rsp
	popq	%rbx
	popq	%r12
	popq	%r13
	popq	%r14
	popq	%r15
	popq	%rbp
	retq
	vj_end	blake2_ffi..blake2xs..initialize_1_v2

	vj_function	blake2_ffi..blake2xs..reset_in_frame_1_v2
	movups	32(%rdi), %xmm0
	movups	48(%rdi), %xmm1
	movups	%xmm1, 16(%rdi)
	movups	%xmm0, (%rdi)
	movq	$0, 64(%rdi)
	movzwl	74(%rdi), %eax
	movw	%ax, 72(%rdi)
	xorps	%xmm0, %xmm0
	movups	%xmm0, 112(%rdi)
	movups	%xmm0, 128(%rdi)
	movups	144(%rdi), %xmm1
	movups	%xmm1, 80(%rdi)
	movups	160(%rdi), %xmm1
	movups	%xmm1, 96(%rdi)
	movups	%xmm0, 176(%rdi)
	movups	%xmm0, 192(%rdi)
	movups	%xmm0, 232(%rdi)
	retq
	vj_end	blake2_ffi..blake2xs..reset_in_frame_1_v2

	vj_function	blake2_ffi..blake2xs..read_1_v2
	vj_jump	blake2_xof..blake2xs..State..squeeze_1_v2
	vj_end	blake2_ffi..blake2xs..read_1_v2

	vj_constants	16
	.p2align	4, 0x0
.L1_v2_CPI85_0:
	.zero	1
	.byte	0
	.byte	0
	.byte	0
	.byte	32
	.byte	0
	.byte	0
	.byte	0
	.zero	1
	.zero	1
	.zero	1
	.zero	1
	.zero	1
	.zero	1
	.byte	0
	.zero	1
.L1_v2_CPI85_1:
	.long	1779033703
	.long	3144134277
	.long	1013904242
	.long	2773480762
.L1_v2_CPI85_2:
	.long	1359893119
	.long	2600822924
	.long	528734635
	.long	1541459225
.L1_v2_CPI85_3:
	.quad	32
	.quad	32
.L1_v2_CPI85_4:
	.byte	1
	.byte	0
	.byte	1
	.byte	0
	.byte	1
	.byte	0
	.byte	1
	.byte	0
	.byte	1
	.byte	0
	.byte	1
	.byte	0
	.byte	1
	.byte	0
	.byte	1
	.byte	0
.L1_v2_CPI85_5:
	.byte	0
	.byte	0
	.byte	0
	.byte	0
	.byte	32
	.byte	0
	.byte	0
	.byte	0
	.byte	0
	.byte	0
	.byte	0
	.byte	0
	.byte	0
	.byte	0
	.byte	0
	.byte	0
	vj_shared	blake2_xof..blake2xs..State..squeeze_1_v2
	pushq	%rbp
	pushq	%r15
	pushq	%r14
	pushq	%r13
	pushq	%r12
	pushq	%rbx
	subq	$648, %rsp
	movq	%rdx, %rbx
	movq	%rsi, 8(%rsp)
	movq	%rdi, %r15
	cmpq	$0, 240(%rdi)
	jne	1f
	leaq	176(%r15), %rsi
	movq	%r15, %rdi
	callq	blake2_state..blake2s..State..write_digest_1_v2
	movq	$1, 240(%r15)
1:
	testq	%rbx, %rbx
	je	5f
	movq	232(%r15), %rdi
	xorl	%ebp, %ebp
	movq	%rbx, (%rsp)
	jmp	4f
	.p2align	4
2:
	movq	224(%r15), %rcx
	movq	%rcx, %rdx
	shlq	$32, %rdx
	addq	%rax, %rdx
	cmpq	$65535, %rcx
	movabsq	$137438953472, %rax
	cmoveq	%rax, %rcx
	andq	$-32, %rdi
	xorl	%eax, %eax
	subq	%rdi, %rcx
	cmovaeq	%rcx, %rax
	cmpq	$32, %rax
	movl	$32, %r13d
	cmovaeq	%r13, %rax
	movq	.L1_v2_CPI85_5(%rip), %xmm0
	pinsrb	$0, %eax, %xmm0
	movq	%rdx, %xmm1
	pshufd	$68, %xmm1, %xmm1
	pblendw	$143, %xmm0, %xmm1
	movl	$32, %eax
	pinsrb	$15, %eax, %xmm1
	pxor	.L1_v2_CPI85_1(%rip), %xmm1
	movups	208(%r15), %xmm0
	xorps	.L1_v2_CPI85_2(%rip), %xmm0
	movdqa	%xmm1, 16(%rsp)
	movaps	%xmm0, 32(%rsp)
	xorps	%xmm0, %xmm0
	leaq	112(%rsp), %rax
	movups	%xmm0, 16(%rax)
	movups	%xmm0, (%rax)
	leaq	176(%r15), %rax
	movups	(%rax), %xmm0
	movups	16(%rax), %xmm1
	movaps	%xmm1, 96(%rsp)
	movaps	%xmm0, 80(%rsp)
	leaq	16(%rsp), %rdi
	leaq	80(%rsp), %rsi
	movl	$32, %edx
	movl	$1, %ecx
	xorl	%r8d, %r8d
	vj_call	blake2_compress..compress..blake2s..compress_1_v2
	movdqa	16(%rsp), %xmm0
	movdqa	32(%rsp), %xmm1
	movdqa	%xmm0, 80(%rsp)
	movdqa	%xmm1, 96(%rsp)
	subq	%r14, %r13
	cmpq	%rbx, %r13
	cmovaeq	%rbx, %r13
	leaq	(%rsp,%r14), %rsi
	addq	$80, %rsi
	movq	%r12, %rdi
	movq	%r13, %rdx
	vj_c_call	memcpy
3:
	movq	232(%r15), %rdi
	addq	%r13, %rdi
	movq	%rdi, 232(%r15)
	addq	%r13, %rbp
	movq	(%rsp), %rbx
	cmpq	%rbx, %rbp
	jae	5f
4:
	movq	8(%rsp), %rax
	leaq	(%rax,%rbp), %r12
	subq	%rbp, %rbx
	movl	%edi, %r14d
	andl	$31, %r14d
	movq	%rdi, %rax
	shrq	$5, %rax
	cmpq	$256, %rbx
	jb	2b
	testq	%r14, %r14
	jne	2b
	movq	224(%r15), %rcx
	movq	%rcx, %rsi
	shlq	$32, %rsi
	cmpq	$65535, %rcx
	movabsq	$137438953472, %rdx
	cmoveq	%rdx, %rcx
	xorl	%edx, %edx
	movq	%rcx, %r8
	subq	%rdi, %r8
	cmovbq	%rdx, %r8
	cmpq	$32, %r8
	movl	$32, %edi
	cmovaeq	%rdi, %r8
	movq	.L1_v2_CPI85_5(%rip), %xmm3
	movdqa	%xmm3, %xmm1
	pinsrb	$0, %r8d, %xmm1
	leaq	(%rsi,%rax), %r8
	movq	%r8, %xmm0
	pshufd	$68, %xmm0, %xmm0
	pblendw	$143, %xmm1, %xmm0
	movl	$32, %r8d
	pinsrb	$15, %r8d, %xmm0
	movdqu	208(%r15), %xmm1
	pxor	.L1_v2_CPI85_2(%rip), %xmm1
	leaq	1(%rax), %r9
	shlq	$5, %r9
	movq	%rcx, %r10
	subq	%r9, %r10
	cmovbq	%rdx, %r10
	cmpq	$32, %r10
	cmovaeq	%rdi, %r10
	movdqa	%xmm3, %xmm4
	pinsrb	$0, %r10d, %xmm4
	leaq	(%rsi,%rax), %r9
	incq	%r9
	movq	%r9, %xmm2
	pshufd	$68, %xmm2, %xmm2
	pblendw	$143, %xmm4, %xmm2
	pinsrb	$15, %r8d, %xmm2
	leaq	2(%rax), %r9
	shlq	$5, %r9
	movq	%rcx, %r10
	subq	%r9, %r10
	cmovbq	%rdx, %r10
	cmpq	$32, %r10
	cmovaeq	%rdi, %r10
	movdqa	%xmm3, %xmm5
	pinsrb	$0, %r10d, %xmm5
	leaq	(%rsi,%rax), %r9
	addq	$2, %r9
	movq	%r9, %xmm4
	pshufd	$68, %xmm4, %xmm4
	pblendw	$143, %xmm5, %xmm4
	pinsrb	$15, %r8d, %xmm4
	leaq	3(%rax), %r9
	shlq	$5, %r9
	movq	%rcx, %r10
	subq	%r9, %r10
	cmovbq	%rdx, %r10
	cmpq	$32, %r10
	cmovaeq	%rdi, %r10
	movdqa	%xmm3, %xmm6
	pinsrb	$0, %r10d, %xmm6
	leaq	(%rsi,%rax), %r9
	addq	$3, %r9
	movq	%r9, %xmm5
	pshufd	$68, %xmm5, %xmm5
	pblendw	$143, %xmm6, %xmm5
	pinsrb	$15, %r8d, %xmm5
	leaq	4(%rax), %r9
	shlq	$5, %r9
	movq	%rcx, %r10
	subq	%r9, %r10
	cmovbq	%rdx, %r10
	movdqa	.L1_v2_CPI85_1(%rip), %xmm8
	cmpq	$32, %r10
	cmovaeq	%rdi, %r10
	pxor	%xmm8, %xmm0
	movdqa	%xmm3, %xmm7
	pinsrb	$0, %r10d, %xmm7
	leaq	(%rsi,%rax), %r9
	addq	$4, %r9
	movq	%r9, %xmm6
	pshufd	$68, %xmm6, %xmm6
	pblendw	$143, %xmm7, %xmm6
	pinsrb	$15, %r8d, %xmm6
	leaq	5(%rax), %r9
	shlq	$5, %r9
	movq	%rcx, %r10
	subq	%r9, %r10
	cmovbq	%rdx, %r10
	pxor	%xmm8, %xmm2
	cmpq	$32, %r10
	cmovaeq	%rdi, %r10
	pxor	%xmm8, %xmm4
	movdqa	%xmm3, %xmm9
	pinsrb	$0, %r10d, %xmm9
	leaq	(%rsi,%rax), %r9
	addq	$5, %r9
	movq	%r9, %xmm7
	pshufd	$68, %xmm7, %xmm7
	pblendw	$143, %xmm9, %xmm7
	pinsrb	$15, %r8d, %xmm7
	leaq	6(%rax), %r9
	shlq	$5, %r9
	movq	%rcx, %r10
	subq	%r9, %r10
	cmovbq	%rdx, %r10
	pxor	%xmm8, %xmm5
	cmpq	$32, %r10
	cmovaeq	%rdi, %r10
	pxor	%xmm8, %xmm6
	movdqa	%xmm3, %xmm10
	pinsrb	$0, %r10d, %xmm10
	leaq	(%rsi,%rax), %r9
	addq	$6, %r9
	movq	%r9, %xmm9
	pshufd	$68, %xmm9, %xmm9
	pblendw	$143, %xmm10, %xmm9
	pinsrb	$15, %r8d, %xmm9
	addq	%rax, %rsi
	addq	$7, %rsi
	addq	$7, %rax
	shlq	$5, %rax
	subq	%rax, %rcx
	cmovbq	%rdx, %rcx
	pxor	%xmm8, %xmm7
	cmpq	$32, %rcx
	cmovaeq	%rdi, %rcx
	pxor	%xmm8, %xmm9
	pinsrb	$0, %ecx, %xmm3
	movq	%rsi, %xmm10
	pshufd	$68, %xmm10, %xmm10
	pblendw	$143, %xmm3, %xmm10
	pinsrb	$15, %r8d, %xmm10
	pxor	%xmm8, %xmm10
	movdqa	%xmm0, %xmm8
	punpckldq	%xmm2, %xmm8
	punpcklqdq	%xmm4, %xmm8
	pshufd	$0, %xmm5, %xmm3
	pblendw	$63, %xmm8, %xmm3
	movdqa	%xmm6, %xmm11
	punpckldq	%xmm7, %xmm11
	punpcklqdq	%xmm9, %xmm11
	pshufd	$0, %xmm10, %xmm8
	pblendw	$63, %xmm11, %xmm8
	pshufd	$85, %xmm0, %xmm11
	pblendw	$12, %xmm2, %xmm11
	shufps	$212, %xmm4, %xmm11
	insertps	$112, %xmm5, %xmm11
	pshufd	$85, %xmm6, %xmm12
	pblendw	$12, %xmm7, %xmm12
	shufps	$212, %xmm9, %xmm12
	insertps	$112, %xmm10, %xmm12
	punpckhdq	%xmm2, %xmm0
	movdqa	%xmm0, %xmm13
	pblendw	$240, %xmm4, %xmm13
	pshufd	$170, %xmm5, %xmm2
	pblendw	$63, %xmm13, %xmm2
	pshufd	$255, %xmm6, %xmm14
	punpckhdq	%xmm7, %xmm6
	pblendw	$240, %xmm9, %xmm6
	pshufd	$170, %xmm10, %xmm13
	pblendw	$63, %xmm6, %xmm13
	shufps	$254, %xmm4, %xmm0
	blendps	$8, %xmm5, %xmm0
	pshufd	$238, %xmm7, %xmm4
	pblendw	$243, %xmm14, %xmm4
	shufps	$244, %xmm9, %xmm4
	blendps	$8, %xmm10, %xmm4
	pshufd	$0, %xmm1, %xmm5
	pshufd	$85, %xmm1, %xmm6
	pshufd	$170, %xmm1, %xmm7
	pshufd	$255, %xmm1, %xmm1
	xorps	%xmm9, %xmm9
	leaq	544(%rsp), %rax
	movups	%xmm9, 16(%rax)
	movups	%xmm9, (%rax)
	leaq	176(%r15), %rax
	movups	(%rax), %xmm9
	movups	16(%rax), %xmm10
	movaps	%xmm10, 528(%rsp)
	movaps	%xmm9, 512(%rsp)
	movaps	%xmm9, 448(%rsp)
	movaps	%xmm10, 464(%rsp)
	movaps	544(%rsp), %xmm9
	movaps	560(%rsp), %xmm10
	movaps	%xmm9, 480(%rsp)
	movaps	%xmm10, 496(%rsp)
	movdqu	%xmm8, 96(%rsp)
	movdqu	%xmm3, 80(%rsp)
	movups	%xmm12, 128(%rsp)
	movups	%xmm11, 112(%rsp)
	movdqu	%xmm13, 160(%rsp)
	movdqu	%xmm2, 144(%rsp)
	movups	%xmm0, 176(%rsp)
	movups	%xmm4, 192(%rsp)
	movdqu	%xmm5, 224(%rsp)
	movdqu	%xmm5, 208(%rsp)
	movdqu	%xmm6, 256(%rsp)
	movdqu	%xmm6, 240(%rsp)
	movdqu	%xmm7, 288(%rsp)
	movdqu	%xmm7, 272(%rsp)
	movdqu	%xmm1, 320(%rsp)
	movdqu	%xmm1, 304(%rsp)
	leaq	448(%rsp), %rax
	movq	%rax, 16(%rsp)
	movq	%rax, 24(%rsp)
	movq	%rax, 32(%rsp)
	movq	%rax, 40(%rsp)
	movq	%rax, 48(%rsp)
	movq	%rax, 56(%rsp)
	movq	%rax, 64(%rsp)
	movq	%rax, 72(%rsp)
	movaps	.L1_v2_CPI85_3(%rip), %xmm0
	movups	%xmm0, 600(%rsp)
	movups	%xmm0, 584(%rsp)
	movups	%xmm0, 632(%rsp)
	movups	%xmm0, 616(%rsp)
	movaps	.L1_v2_CPI85_4(%rip), %xmm0
	movaps	%xmm0, 432(%rsp)
	leaq	80(%rsp), %rdi
	leaq	16(%rsp), %rsi
	leaq	584(%rsp), %rdx
	leaq	432(%rsp), %rcx
	callq	blake2_compress..many..blake2s..compress_each_1_v2
	movzbl	196(%rsp), %eax
	movzbl	180(%rsp), %esi
	movups	192(%rsp), %xmm0
	movaps	%xmm0, 416(%rsp)
	movdqu	176(%rsp), %xmm13
	movzbl	308(%rsp), %edx
	movdqu	304(%rsp), %xmm3
	movd	%xmm13, %edi
	movdqu	80(%rsp), %xmm14
	movdqu	96(%rsp), %xmm8
	movdqu	112(%rsp), %xmm6
	movups	128(%rsp), %xmm0
	movaps	%xmm0, 400(%rsp)
	movdqa	%xmm14, %xmm1
	punpckldq	%xmm6, %xmm1
	movdqu	144(%rsp), %xmm10
	movdqa	%xmm1, %xmm2
	punpcklqdq	%xmm10, %xmm2
	pinsrd	$3, %edi, %xmm2
	movdqu	240(%rsp), %xmm15
	movdqu	208(%rsp), %xmm12
	movdqu	272(%rsp), %xmm9
	movups	176(%rsp), %xmm0
	movaps	%xmm0, 352(%rsp)
	movups	304(%rsp), %xmm0
	movaps	%xmm0, 368(%rsp)
	movups	320(%rsp), %xmm0
	movaps	%xmm0, 336(%rsp)
	movzbl	324(%rsp), %ecx
	movdqu	160(%rsp), %xmm7
	movdqu	256(%rsp), %xmm4
	movdqu	224(%rsp), %xmm11
	movdqu	288(%rsp), %xmm5
	movups	192(%rsp), %xmm0
	movaps	%xmm0, 384(%rsp)
	movq	%xmm1, (%r12)
	movdqa	%xmm12, %xmm1
	punpckldq	%xmm15, %xmm1
	movdqa	%xmm1, %xmm0
	palignr	$13, %xmm2, %xmm1
	movd	%xmm10, 8(%r12)
	movb	%dil, 12(%r12)
	movq	%xmm1, 13(%r12)
	punpcklqdq	%xmm9, %xmm0
	movdqa	%xmm0, %xmm1
	psrldq	$5, %xmm0
	movd	%xmm0, 21(%r12)
	movd	%xmm3, %edi
	pinsrd	$3, %edi, %xmm1
	pshufd	$85, %xmm14, %xmm0
	pblendw	$12, %xmm6, %xmm0
	pextrb	$1, %xmm9, 25(%r12)
	pextrb	$2, %xmm9, 26(%r12)
	movdqa	%xmm0, %xmm2
	palignr	$13, %xmm1, %xmm0
	pextrb	$3, %xmm9, 27(%r12)
	movb	%dil, 28(%r12)
	movq	%xmm0, 29(%r12)
	shufps	$212, %xmm10, %xmm2
	psrldq	$5, %xmm2
	movd	%xmm2, 37(%r12)
	pextrb	$5, %xmm10, 41(%r12)
	punpckhdq	%xmm6, %xmm14
	pextrb	$6, %xmm10, 42(%r12)
	pshufd	$85, %xmm12, %xmm0
	pblendw	$12, %xmm15, %xmm0
	pshufd	$68, %xmm13, %xmm1
	movdqa	%xmm0, %xmm2
	palignr	$13, %xmm1, %xmm0
	pextrb	$7, %xmm10, 43(%r12)
	movb	%sil, 44(%r12)
	movq	%xmm0, 45(%r12)
	shufps	$212, %xmm9, %xmm2
	psrldq	$5, %xmm2
	movd	%xmm2, 53(%r12)
	pextrb	$5, %xmm9, 57(%r12)
	pshufd	$68, %xmm3, %xmm2
	movdqa	%xmm14, %xmm6
	pshufd	$238, %xmm14, %xmm1
	movdqa	%xmm14, %xmm0
	palignr	$13, %xmm2, %xmm14
	pextrb	$6, %xmm9, 58(%r12)
	pextrb	$7, %xmm9, 59(%r12)
	movb	%dl, 60(%r12)
	movq	%xmm14, 61(%r12)
	pextrd	$2, %xmm13, %edx
	pblendw	$240, %xmm10, %xmm6
	movdqa	%xmm6, %xmm2
	pinsrd	$3, %edx, %xmm2
	psrldq	$5, %xmm6
	movd	%xmm6, 69(%r12)
	pextrb	$9, %xmm10, 73(%r12)
	punpckhdq	%xmm15, %xmm12
	movdqa	%xmm12, %xmm15
	pshufd	$238, %xmm12, %xmm14
	movdqa	%xmm12, %xmm6
	palignr	$13, %xmm2, %xmm12
	pextrb	$10, %xmm10, 74(%r12)
	pextrb	$11, %xmm10, 75(%r12)
	movb	%dl, 76(%r12)
	movq	%xmm12, 77(%r12)
	movdqa	%xmm3, %xmm12
	pextrd	$2, %xmm3, %edx
	pblendw	$240, %xmm9, %xmm15
	movdqa	%xmm15, %xmm2
	pinsrd	$3, %edx, %xmm2
	psrldq	$5, %xmm15
	movd	%xmm15, 85(%r12)
	pextrb	$9, %xmm9, 89(%r12)
	pextrb	$10, %xmm9, 90(%r12)
	palignr	$13, %xmm2, %xmm1
	pextrb	$11, %xmm9, 91(%r12)
	movb	%dl, 92(%r12)
	movq	%xmm1, 93(%r12)
	shufps	$254, %xmm10, %xmm0
	psrldq	$5, %xmm0
	movd	%xmm0, 101(%r12)
	pextrb	$13, %xmm10, 105(%r12)
	pextrb	$14, %xmm10, 106(%r12)
	pextrb	$15, %xmm10, 107(%r12)
	pextrb	$12, %xmm13, 108(%r12)
	palignr	$13, 352(%rsp), %xmm14
	shufps	$254, %xmm9, %xmm6
	movdqa	416(%rsp), %xmm13
	movd	%xmm13, %edx
	movdqa	336(%rsp), %xmm3
	movd	%xmm3, %esi
	movq	%xmm14, 109(%r12)
	movdqa	%xmm8, %xmm0
	movdqa	400(%rsp), %xmm10
	punpckldq	%xmm10, %xmm0
	psrldq	$5, %xmm6
	movd	%xmm6, 117(%r12)
	pextrb	$13, %xmm9, 121(%r12)
	movdqa	%xmm0, %xmm2
	pextrb	$14, %xmm9, 122(%r12)
	punpcklqdq	%xmm7, %xmm2
	pextrb	$15, %xmm9, 123(%r12)
	movdqa	%xmm2, %xmm6
	pextrb	$12, %xmm12, 124(%r12)
	pinsrd	$3, %edx, %xmm6
	pshufd	$85, %xmm8, %xmm1
	pblendw	$12, %xmm10, %xmm1
	punpckhdq	%xmm10, %xmm8
	movdqa	%xmm11, %xmm9
	punpckldq	%xmm4, %xmm9
	palignr	$13, 368(%rsp), %xmm0
	movdqa	%xmm9, %xmm10
	punpcklqdq	%xmm5, %xmm10
	movq	%xmm0, 125(%r12)
	movdqa	%xmm10, %xmm12
	pinsrd	$3, %esi, %xmm12
	psrldq	$5, %xmm2
	movd	%xmm2, 133(%r12)
	pshufd	$85, %xmm11, %xmm0
	pextrb	$1, %xmm7, 137(%r12)
	pblendw	$12, %xmm4, %xmm0
	pextrb	$2, %xmm7, 138(%r12)
	punpckhdq	%xmm4, %xmm11
	pextrb	$3, %xmm7, 139(%r12)
	palignr	$13, %xmm6, %xmm9
	movb	%dl, 140(%r12)
	movq	%xmm9, 141(%r12)
	movdqa	%xmm1, %xmm2
	shufps	$212, %xmm7, %xmm2
	psrldq	$5, %xmm10
	movd	%xmm10, 149(%r12)
	pshufd	$68, %xmm13, %xmm4
	pextrd	$2, %xmm13, %edi
	pextrd	$2, %xmm3, %edx
	pextrb	$1, %xmm5, 153(%r12)
	palignr	$13, %xmm12, %xmm1
	movdqa	%xmm0, %xmm9
	pextrb	$2, %xmm5, 154(%r12)
	pextrb	$3, %xmm5, 155(%r12)
	movb	%sil, 156(%r12)
	movq	%xmm1, 157(%r12)
	movdqa	%xmm8, %xmm6
	pblendw	$240, %xmm7, %xmm6
	psrldq	$5, %xmm2
	movd	%xmm2, 165(%r12)
	movdqa	%xmm6, %xmm1
	pinsrd	$3, %edi, %xmm1
	shufps	$212, %xmm5, %xmm9
	pextrb	$5, %xmm7, 169(%r12)
	pextrb	$6, %xmm7, 170(%r12)
	palignr	$13, %xmm4, %xmm0
	pshufd	$68, %xmm3, %xmm2
	movdqa	%xmm3, %xmm12
	pextrb	$7, %xmm7, 171(%r12)
	movb	%al, 172(%r12)
	movq	%xmm0, 173(%r12)
	pshufd	$238, %xmm8, %xmm0
	psrldq	$5, %xmm9
	movd	%xmm9, 181(%r12)
	pextrb	$5, %xmm5, 185(%r12)
	movdqa	%xmm8, %xmm4
	pextrb	$6, %xmm5, 186(%r12)
	pextrb	$7, %xmm5, 187(%r12)
	palignr	$13, %xmm2, %xmm8
	movdqa	%xmm11, %xmm2
	movb	%cl, 188(%r12)
	movq	%xmm8, 189(%r12)
	psrldq	$5, %xmm6
	movd	%xmm6, 197(%r12)
	pextrb	$9, %xmm7, 201(%r12)
	pshufd	$238, %xmm11, %xmm3
	pextrb	$10, %xmm7, 202(%r12)
	movdqa	%xmm11, %xmm6
	pextrb	$11, %xmm7, 203(%r12)
	palignr	$13, %xmm1, %xmm11
	pblendw	$240, %xmm5, %xmm2
	movb	%dil, 204(%r12)
	movq	%xmm11, 205(%r12)
	movdqa	%xmm2, %xmm1
	pinsrd	$3, %edx, %xmm1
	psrldq	$5, %xmm2
	movd	%xmm2, 213(%r12)
	pextrb	$9, %xmm5, 217(%r12)
	pextrb	$10, %xmm5, 218(%r12)
	palignr	$13, %xmm1, %xmm0
	pextrb	$11, %xmm5, 219(%r12)
	movb	%dl, 220(%r12)
	movq	%xmm0, 221(%r12)
	shufps	$254, %xmm7, %xmm4
	psrldq	$5, %xmm4
	movd	%xmm4, 229(%r12)
	pextrb	$13, %xmm7, 233(%r12)
	pextrb	$14, %xmm7, 234(%r12)
	pextrb	$15, %xmm7, 235(%r12)
	pextrb	$12, %xmm13, 236(%r12)
	palignr	$13, 384(%rsp), %xmm3
	movq	%xmm3, 237(%r12)
	shufps	$254, %xmm5, %xmm6
	psrldq	$5, %xmm6
	movd	%xmm6, 245(%r12)
	pextrb	$13, %xmm5, 249(%r12)
	pextrb	$14, %xmm5, 250(%r12)
	pextrb	$15, %xmm5, 251(%r12)
	pextrb	$12, %xmm12, 252(%r12)
	pextrb	$13, %xmm12, 253(%r12)
	pextrb	$14, %xmm12, 254(%r12)
	pextrb	$15, %xmm12, 255(%r12)
	movl	$256, %r13d
	jmp	3b
5:
	addq	$648, %rsp
	popq	%rbx
	popq	%r12
	popq	%r13
	popq	%r14
	popq	%r15
	popq	%rbp
	retq
	vj_end	blake2_xof..blake2xs..State..squeeze_1_v2

	vj_function	blake2_ffi..blake2xs..update_in_frame_1_v2
	cmpq	$1, %rdx
	jne	blake2_state..blake2s..State..absorb_blocks_1_v2
	movzwl	72(%rdi), %eax
	cmpq	$64, %rax
	jae	1f
	movzbl	(%rsi), %ecx
	movb	%cl, 80(%rdi,%rax)
	incl	%eax
	movw	%ax, 72(%rdi)
	retq
1:
	movl	$1, %edx
	jmp	blake2_state..blake2s..State..absorb_blocks_1_v2
	vj_end	blake2_ffi..blake2xs..update_in_frame_1_v2

	vj_constants	16
	.p2align	4, 0x0
.L1_v2_CPI87_0:
	.short	64
	.short	512
	.zero	2
	.zero	2
	.zero	2
	.zero	2
	.zero	2
	.zero	2
.L1_v2_CPI87_1:
	.quad	7640891576956012808
	.quad	-4942790177534073029
.L1_v2_CPI87_2:
	.quad	4354685564936845355
	.quad	-6534734903238641935
.L1_v2_CPI87_3:
	.quad	5840696475078001361
	.quad	-7276294671716946913
.L1_v2_CPI87_4:
	.quad	2270897969802886507
	.quad	6620516959819538809
.L1_v2_CPI87_5:
	.quad	4354685564936828971
	.quad	-6534734903238641935
.L1_v2_CPI87_6:
	.short	64
	.short	512
	.short	0
	.short	0
	.short	0
	.short	0
	.short	0
	.short	0
	vj_function	blake2_tree..ranges..hash_leaves_1_v2
	pushq	%rbp
	movq	%rsp, %rbp
	pushq	%r15
	pushq	%r14
	pushq	%r13
	pushq	%r12
	pushq	%rbx
	andq	$-32, %rsp
	subq	$1632, %rsp
	movq	%r9, 72(%rsp)
	movl	%r8d, %r15d
	movq	%rcx, %r13
	movq	%rdx, 48(%rsp)
	movq	%rsi, %rbx
	movq	%rdi, %rsi
	movq	32(%rbp), %r14
	movq	24(%rbp), %r12
	xorps	%xmm0, %xmm0
	movaps	%xmm0, 496(%rsp)
	leaq	496(%rsp), %rdi
	movq	%rbx, %rdx
	vj_c_call	memcpy
	xorps	%xmm0, %xmm0
	movaps	%xmm0, 512(%rsp)
	leaq	512(%rsp), %rdi
	movq	48(%rsp), %rsi
	movq	%r13, %rdx
	vj_c_call	memcpy
	movaps	496(%rsp), %xmm0
	movaps	%xmm0, 96(%rsp)
	movq	%rbx, 80(%rsp)
	movq	%rbx, 112(%rsp)
	movaps	512(%rsp), %xmm0
	movups	%xmm0, 120(%rsp)
	movq	%r13, 24(%rsp)
	movq	%r13, 136(%rsp)
	movl	%r15d, 144(%rsp)
	movl	$0, 148(%rsp)
	leaq	1096(%rsp), %rdi
	xorl	%ebx, %ebx
	movl	$512, %edx
	xorl	%esi, %esi
	vj_c_call	memset
	movl	%r15d, 44(%rsp)
	movl	%r15d, %eax
	movq	%rax, 48(%rsp)
	leaq	(,%rax,4), %rax
	cmpq	%r14, %rax
	jae	2f
	xorl	%r15d, %r15d
	xorl	%ebx, %ebx
	movq	%rax, 32(%rsp)
	.p2align	4
1:
	movq	%r14, %r13
	leaq	1096(%rsp), %r14
	movl	$512, %edx
	movq	%r14, %rdi
	xorl	%esi, %esi
	vj_c_call	memset
	movq	72(%rsp), %rax
	leaq	(%rax,%rbx), %rsi
	leaq	96(%rsp), %rdi
	movq	%r12, %rdx
	movq	%r14, %r8
	vj_call	blake2_tree..nodes..Nodes..hash_next_1_v2
	movq	40(%rbp), %rdi
	movq	%r15, %rsi
	movq	%r14, %rdx
	movq	%r13, %r14
	callq	blake2_tree..nodes..write_at_1_v2
	incq	%rbx
	movq	48(%rsp), %rax
	addq	%rax, %r12
	subq	%rax, %r14
	movq	32(%rsp), %rax
	addq	$64, %r15
	cmpq	%r14, %rax
	jb	1b
2:
	movzbl	16(%rbp), %r13d
	movq	72(%rsp), %rax
	addq	%rbx, %rax
	shlq	$6, %rbx
	movq	40(%rbp), %r15
	addq	%rbx, %r15
	xorps	%xmm0, %xmm0
	movaps	%xmm0, 592(%rsp)
	movaps	%xmm0, 608(%rsp)
	movaps	%xmm0, 624(%rsp)
	movaps	%xmm0, 640(%rsp)
	movaps	%xmm0, 528(%rsp)
	movaps	%xmm0, 544(%rsp)
	movaps	%xmm0, 560(%rsp)
	movaps	%xmm0, 576(%rsp)
	movq	48(%rsp), %rcx
	cmpq	%rcx, %r14
	movq	%r15, 88(%rsp)
	jbe	8f
	leaq	816(%rsp), %r13
	leaq	-1(%rcx), %rdx
	movq	%rdx, %rsi
	andq	$-128, %rsi
	shrq	$7, %rdx
	movq	%rdx, 480(%rsp)
	subq	%rsi, %rcx
	movq	%rcx, 464(%rsp)
	movq	%rsi, 472(%rsp)
	leaq	(%r12,%rsi), %rcx
	movq	%rcx, 456(%rsp)
	movq	112(%rsp), %rcx
	movq	%rcx, 80(%rsp)
	movd	.L1_v2_CPI87_6(%rip), %xmm0
	punpckldq	144(%rsp), %xmm0
	movdqa	%xmm0, 656(%rsp)
	movq	136(%rsp), %rcx
	movq	%rcx, 488(%rsp)
	xorl	%ebx, %ebx
	movq	%rax, 72(%rsp)
	jmp	5f
	.p2align	4
3:
	movq	%r13, %rdi
	movq	%r12, %rsi
	movq	48(%rsp), %r13
	movq	%r13, %rdx
	vj_c_call	memcpy
	movq	%r13, %rbx
4:
	movq	%rbx, 944(%rsp)
	leaq	160(%rsp), %rdi
	leaq	672(%rsp), %rsi
	movl	$280, %edx
	vj_c_call	memcpy
	movq	432(%rsp), %rdx
	movq	288(%rsp), %r14
	addq	%rdx, %r14
	movq	%r14, 288(%rsp)
	pxor	%xmm0, %xmm0
	movdqa	%xmm0, 960(%rsp)
	movdqa	%xmm0, 976(%rsp)
	movdqa	%xmm0, 992(%rsp)
	movdqa	%xmm0, 1008(%rsp)
	movdqa	%xmm0, 1024(%rsp)
	movdqa	%xmm0, 1040(%rsp)
	movdqa	%xmm0, 1056(%rsp)
	movdqa	%xmm0, 1072(%rsp)
	leaq	960(%rsp), %rbx
	movq	%rbx, %rdi
	leaq	304(%rsp), %r15
	movq	%r15, %rsi
	vj_c_call	memcpy
	pxor	%xmm0, %xmm0
	movdqu	%xmm0, (%r15)
	movdqu	%xmm0, 16(%r15)
	movdqu	%xmm0, 32(%r15)
	movdqu	%xmm0, 48(%r15)
	movdqu	%xmm0, 64(%r15)
	movdqu	%xmm0, 80(%r15)
	movdqu	%xmm0, 96(%r15)
	movdqu	%xmm0, 112(%r15)
	movq	$0, 128(%r15)
	movl	296(%rsp), %r8d
	leaq	160(%rsp), %rdi
	movq	%rbx, %rsi
	movq	%r14, %rdx
	movl	$1, %ecx
	vj_call	blake2_compress..compress..blake2b..compress_1_v2
	movdqu	160(%rsp), %xmm0
	movdqu	176(%rsp), %xmm1
	movups	192(%rsp), %xmm2
	movups	208(%rsp), %xmm3
	movdqa	%xmm0, 592(%rsp)
	movdqa	%xmm1, 608(%rsp)
	movaps	%xmm2, 624(%rsp)
	movaps	%xmm3, 640(%rsp)
	movq	32(%rsp), %rbx
	movq	%rbx, %rsi
	shlq	$6, %rsi
	leaq	592(%rsp), %rdx
	movq	88(%rsp), %r15
	movq	%r15, %rdi
	callq	blake2_tree..nodes..write_at_1_v2
	incq	%rbx
	addq	%r13, %r12
	movq	24(%rsp), %r14
	subq	%r13, %r14
	cmpq	%r13, %r14
	movq	72(%rsp), %rax
	leaq	816(%rsp), %r13
	jbe	9f
5:
	movq	%r14, 24(%rsp)
	movq	%rbx, %r15
	addq	%rax, %rbx
	pxor	%xmm0, %xmm0
	movdqa	%xmm0, 176(%rsp)
	movdqa	%xmm0, 160(%rsp)
	leaq	160(%rsp), %rdi
	leaq	96(%rsp), %rsi
	movq	80(%rsp), %rdx
	vj_c_call	memcpy
	leaq	176(%rsp), %rdi
	leaq	120(%rsp), %rsi
	movq	488(%rsp), %rdx
	vj_c_call	memcpy
	movq	%rbx, %xmm0
	movdqa	656(%rsp), %xmm1
	punpcklqdq	%xmm0, %xmm1
	movl	$16384, %eax
	pxor	%xmm0, %xmm0
	pinsrw	$0, %eax, %xmm0
	movaps	160(%rsp), %xmm2
	movaps	176(%rsp), %xmm3
	pxor	.L1_v2_CPI87_1(%rip), %xmm1
	pxor	.L1_v2_CPI87_2(%rip), %xmm0
	xorps	.L1_v2_CPI87_3(%rip), %xmm2
	xorps	.L1_v2_CPI87_4(%rip), %xmm3
	movdqu	%xmm0, 688(%rsp)
	movdqu	%xmm1, 672(%rsp)
	movups	%xmm3, 720(%rsp)
	movups	%xmm2, 704(%rsp)
	movdqu	%xmm0, 752(%rsp)
	movdqu	%xmm1, 736(%rsp)
	movups	%xmm3, 784(%rsp)
	movups	%xmm2, 768(%rsp)
	leaq	800(%rsp), %rax
	pxor	%xmm0, %xmm0
	movdqu	%xmm0, 128(%rax)
	movdqu	%xmm0, 112(%rax)
	movdqu	%xmm0, 96(%rax)
	movdqu	%xmm0, 80(%rax)
	movdqu	%xmm0, 64(%rax)
	movdqu	%xmm0, 48(%rax)
	movdqu	%xmm0, 32(%rax)
	movdqu	%xmm0, 16(%rax)
	movdqu	%xmm0, (%rax)
	movq	$0, 144(%rax)
	cmpl	$129, 44(%rsp)
	movq	%r15, 32(%rsp)
	jb	3b
	imulq	48(%rsp), %r15
	addq	456(%rsp), %r15
	movq	%r12, %r14
	movq	480(%rsp), %rbx
	.p2align	4
6:
	movq	800(%rsp), %rdx
	subq	$-128, %rdx
	movq	%rdx, 800(%rsp)
	leaq	672(%rsp), %rdi
	movq	%r14, %rsi
	xorl	%ecx, %ecx
	xorl	%r8d, %r8d
	vj_call	blake2_compress..compress..blake2b..compress_1_v2
	subq	$-128, %r14
	decq	%rbx
	jne	6b
	movq	472(%rsp), %rax
	leaq	(%r12,%rax), %rsi
	pxor	%xmm0, %xmm0
	movdqu	%xmm0, 112(%r13)
	movdqu	%xmm0, 96(%r13)
	movdqu	%xmm0, 80(%r13)
	movdqu	%xmm0, 64(%r13)
	movdqu	%xmm0, 48(%r13)
	movdqu	%xmm0, 32(%r13)
	movdqu	%xmm0, 16(%r13)
	movdqu	%xmm0, (%r13)
	movq	%r13, %rax
	subq	%rsi, %rax
	movq	464(%rsp), %rbx
	movq	%r13, %rdi
	cmpq	%rbx, %rax
	jae	7f
	movq	%r15, %rsi
7:
	movq	%rbx, %rdx
	vj_c_call	memcpy
	movq	48(%rsp), %r13
	jmp	4b
8:
	xorl	%ebx, %ebx
	movd	44(%rsp), %xmm0
	movq	80(%rsp), %rdx
	jmp	10f
9:
	movdqa	144(%rsp), %xmm0
	movq	112(%rsp), %rdx
	movq	136(%rsp), %rcx
	movq	%rcx, 24(%rsp)
	movzbl	16(%rbp), %r13d
10:
	movq	%rbx, 32(%rsp)
	addq	%rbx, %rax
	pxor	%xmm1, %xmm1
	movdqa	%xmm1, 176(%rsp)
	movdqa	%xmm1, 160(%rsp)
	movd	.L1_v2_CPI87_6(%rip), %xmm1
	punpckldq	%xmm0, %xmm1
	movq	%rax, %xmm0
	punpcklqdq	%xmm0, %xmm1
	movdqa	%xmm1, 48(%rsp)
	leaq	160(%rsp), %rbx
	leaq	96(%rsp), %rsi
	movq	%rbx, %rdi
	vj_c_call	memcpy
	leaq	176(%rsp), %rdi
	leaq	120(%rsp), %rsi
	movq	24(%rsp), %rdx
	vj_c_call	memcpy
	movaps	160(%rsp), %xmm0
	movaps	176(%rsp), %xmm1
	movaps	48(%rsp), %xmm3
	xorps	.L1_v2_CPI87_1(%rip), %xmm3
	xorps	.L1_v2_CPI87_3(%rip), %xmm0
	movaps	.L1_v2_CPI87_5(%rip), %xmm2
	xorps	.L1_v2_CPI87_4(%rip), %xmm1
	movups	%xmm2, 176(%rsp)
	movups	%xmm3, 160(%rsp)
	movups	%xmm1, 208(%rsp)
	movups	%xmm0, 192(%rsp)
	movups	%xmm2, 240(%rsp)
	movups	%xmm3, 224(%rsp)
	movups	%xmm1, 272(%rsp)
	movups	%xmm0, 256(%rsp)
	xorps	%xmm0, %xmm0
	movups	%xmm0, 288(%rsp)
	movups	%xmm0, 304(%rsp)
	movups	%xmm0, 320(%rsp)
	movups	%xmm0, 336(%rsp)
	movups	%xmm0, 352(%rsp)
	movups	%xmm0, 368(%rsp)
	movups	%xmm0, 384(%rsp)
	movups	%xmm0, 400(%rsp)
	movups	%xmm0, 416(%rsp)
	movq	$0, 432(%rsp)
	movb	%r13b, 296(%rsp)
	leaq	304(%rsp), %r13
	cmpq	$128, %r14
	jbe	12f
	movq	%r14, 24(%rsp)
	decq	%r14
	movq	%r14, %r15
	shrq	$7, %r15
	movq	%r12, %rbx
	.p2align	4
11:
	movq	288(%rsp), %rdx
	subq	$-128, %rdx
	movq	%rdx, 288(%rsp)
	leaq	160(%rsp), %rdi
	movq	%rbx, %rsi
	xorl	%ecx, %ecx
	xorl	%r8d, %r8d
	vj_call	blake2_compress..compress..blake2b..compress_1_v2
	subq	$-128, %rbx
	decq	%r15
	jne	11b
	andq	$-128, %r14
	leaq	(%r12,%r14), %rsi
	movq	24(%rsp), %r13
	subq	%r14, %r13
	xorps	%xmm0, %xmm0
	leaq	304(%rsp), %rbx
	movups	%xmm0, 112(%rbx)
	movups	%xmm0, 96(%rbx)
	movups	%xmm0, 80(%rbx)
	movups	%xmm0, 64(%rbx)
	movups	%xmm0, 48(%rbx)
	movups	%xmm0, 32(%rbx)
	movups	%xmm0, 16(%rbx)
	movups	%xmm0, (%rbx)
	movq	%rbx, %rax
	subq	%rsi, %rax
	cmpq	%r13, %rax
	jae	18f
	cmpq	$4, %r13
	movq	88(%rsp), %r15
	jae	20f
	xorl	%eax, %eax
	jmp	31f
12:
	movq	%r13, %rax
	subq	%r12, %rax
	cmpq	%r14, %rax
	jae	19f
	cmpq	$4, %r14
	jb	13f
	subq	%r12, %rbx
	addq	$144, %rbx
	cmpq	$32, %rbx
	jae	21f
13:
	xorl	%eax, %eax
14:
	movq	%r14, %rdx
	movq	%rax, %rcx
	andq	$3, %rdx
	je	16f
	movq	%rax, %rcx
	.p2align	4
15:
	movzbl	(%r12,%rcx), %esi
	movb	%sil, 304(%rsp,%rcx)
	incq	%rcx
	decq	%rdx
	jne	15b
16:
	subq	%r14, %rax
	cmpq	$-4, %rax
	ja	33f
	.p2align	4
17:
	movzbl	(%r12,%rcx), %eax
	movb	%al, 304(%rsp,%rcx)
	movzbl	1(%r12,%rcx), %eax
	movb	%al, 305(%rsp,%rcx)
	movzbl	2(%r12,%rcx), %eax
	movb	%al, 306(%rsp,%rcx)
	movzbl	3(%r12,%rcx), %eax
	movb	%al, 307(%rsp,%rcx)
	addq	$4, %rcx
	cmpq	%rcx, %r14
	jne	17b
	jmp	33f
18:
	movq	%rbx, %rdi
	movq	%r13, %rdx
	vj_c_call	memmove
	movq	%r13, %r14
	movq	88(%rsp), %r15
	movq	%rbx, %r13
	jmp	33f
19:
	movq	%r13, %rdi
	movq	%r12, %rsi
	movq	%r14, %rdx
	vj_c_call	memcpy
	jmp	33f
20:
	movq	%rsi, %rax
	negq	%rax
	addq	%rsp, %rax
	addq	$304, %rax
	cmpq	$32, %rax
	jae	22f
	xorl	%eax, %eax
	jmp	31f
21:
	cmpq	$32, %r14
	jae	23f
	xorl	%eax, %eax
	jmp	25f
22:
	cmpq	$32, %r13
	jae	27f
	xorl	%eax, %eax
	jmp	29f
23:
	movl	%r14d, %eax
	andl	$224, %eax
	xorl	%ecx, %ecx
	.p2align	4
24:
	movups	(%r12,%rcx), %xmm0
	movups	16(%r12,%rcx), %xmm1
	movups	%xmm0, 304(%rsp,%rcx)
	movups	%xmm1, 320(%rsp,%rcx)
	addq	$32, %rcx
	cmpq	%rcx, %rax
	jne	24b
	cmpq	%rax, %r14
	je	33f
	testb	$28, %r14b
	je	14b
25:
	movq	%rax, %rcx
	movl	%r14d, %eax
	andl	$252, %eax
	.p2align	4
26:
	movl	(%r12,%rcx), %edx
	movl	%edx, 304(%rsp,%rcx)
	addq	$4, %rcx
	cmpq	%rcx, %rax
	jne	26b
	cmpq	%rax, %r14
	je	33f
	jmp	14b
27:
	movq	24(%rsp), %rdx
	movl	%edx, %ecx
	andl	$31, %ecx
	movq	%r13, %rax
	subq	%rcx, %rax
	andq	$-32, %rdx
	subq	%r14, %rdx
	leaq	(%r14,%r12), %rdi
	addq	$16, %rdi
	xorl	%r8d, %r8d
	.p2align	4
28:
	movups	-16(%rdi,%r8), %xmm0
	movups	(%rdi,%r8), %xmm1
	movups	%xmm0, 304(%rsp,%r8)
	movups	%xmm1, 320(%rsp,%r8)
	addq	$32, %r8
	cmpq	%r8, %rdx
	jne	28b
	testq	%rcx, %rcx
	je	32f
	cmpl	$4, %ecx
	jb	31f
29:
	movq	%rax, %rcx
	movq	24(%rsp), %rdi
	andl	$3, %edi
	movq	%r13, %rax
	subq	%rdi, %rax
	.p2align	4
30:
	movl	(%rsi,%rcx), %edx
	movl	%edx, 304(%rsp,%rcx)
	addq	$4, %rcx
	cmpq	%rcx, %rax
	jne	30b
	testq	%rdi, %rdi
	je	32f
	.p2align	4
31:
	movzbl	(%rsi,%rax), %ecx
	movb	%cl, 304(%rsp,%rax)
	incq	%rax
	cmpq	%rax, %r13
	jne	31b
32:
	movq	%r13, %r14
	leaq	304(%rsp), %r13
33:
	movq	%r14, 432(%rsp)
	movq	288(%rsp), %rbx
	addq	%r14, %rbx
	movq	%rbx, 288(%rsp)
	xorps	%xmm0, %xmm0
	movaps	%xmm0, 672(%rsp)
	movaps	%xmm0, 688(%rsp)
	movaps	%xmm0, 704(%rsp)
	movaps	%xmm0, 720(%rsp)
	movaps	%xmm0, 736(%rsp)
	movaps	%xmm0, 752(%rsp)
	movaps	%xmm0, 768(%rsp)
	movaps	%xmm0, 784(%rsp)
	movq	%r14, %rdx
	leaq	672(%rsp), %r14
	movq	%r14, %rdi
	movq	%r13, %rsi
	vj_c_call	memcpy
	xorps	%xmm0, %xmm0
	movups	%xmm0, (%r13)
	movups	%xmm0, 16(%r13)
	movups	%xmm0, 32(%r13)
	movups	%xmm0, 48(%r13)
	movups	%xmm0, 64(%r13)
	movups	%xmm0, 80(%r13)
	movups	%xmm0, 96(%r13)
	movups	%xmm0, 112(%r13)
	movq	$0, 128(%r13)
	movl	296(%rsp), %r8d
	leaq	160(%rsp), %rdi
	movq	%r14, %rsi
	movq	%rbx, %rdx
	movl	$1, %ecx
	vj_call	blake2_compress..compress..blake2b..compress_1_v2
	movups	160(%rsp), %xmm0
	movups	176(%rsp), %xmm1
	movups	192(%rsp), %xmm2
	movups	208(%rsp), %xmm3
	movaps	%xmm0, 528(%rsp)
	movaps	%xmm1, 544(%rsp)
	movaps	%xmm2, 560(%rsp)
	movaps	%xmm3, 576(%rsp)
	movq	32(%rsp), %rsi
	shlq	$6, %rsi
	leaq	528(%rsp), %rdx
	movq	%r15, %rdi
	callq	blake2_tree..nodes..write_at_1_v2
	leaq	-40(%rbp), %rsp
	popq	%rbx
	popq	%r12
	popq	%r13
	popq	%r14
	popq	%r15
	popq	%rbp
	retq
	vj_end	blake2_tree..ranges..hash_leaves_1_v2

	vj_constants	16
	.p2align	4, 0x0
.L1_v2_CPI88_0:
	.short	64
	.short	512
	.zero	2
	.zero	2
	.zero	2
	.zero	2
	.zero	2
	.zero	2
.L1_v2_CPI88_1:
	.quad	7640891576956012808
	.quad	-4942790177534073029
.L1_v2_CPI88_2:
	.quad	4354685564936828971
	.quad	-6534734903238641935
.L1_v2_CPI88_3:
	.quad	5840696475078001361
	.quad	-7276294671716946913
.L1_v2_CPI88_4:
	.quad	2270897969802886507
	.quad	6620516959819538809
.L1_v2_CPI88_5:
	.short	64
	.short	512
	.short	0
	.short	0
	.short	0
	.short	0
	.short	0
	.short	0
	vj_shared	blake2_tree..nodes..Nodes..hash_next_1_v2
	pushq	%rbp
	movq	%rsp, %rbp
	pushq	%r15
	pushq	%r14
	pushq	%r13
	pushq	%r12
	pushq	%rbx
	andq	$-32, %rsp
	subq	$480, %rsp
	movq	%r8, 32(%rsp)
	movq	%rdx, %r15
	movq	%rsi, %r12
	movq	%rdi, %rsi
	movl	48(%rdi), %r14d
	leaq	24(%rdi), %r13
	movq	16(%rdi), %rdx
	movq	40(%rdi), %rbx
	xorps	%xmm0, %xmm0
	movaps	%xmm0, 336(%rsp)
	movaps	%xmm0, 320(%rsp)
	leaq	320(%rsp), %rdi
	vj_c_call	memcpy
	leaq	336(%rsp), %rdi
	movq	%r13, %rsi
	movq	%rbx, %rdx
	vj_c_call	memcpy
	movd	%r14d, %xmm0
	movd	.L1_v2_CPI88_5(%rip), %xmm1
	punpckldq	%xmm0, %xmm1
	movq	%r12, %xmm0
	punpcklqdq	%xmm0, %xmm1
	movaps	320(%rsp), %xmm0
	movaps	336(%rsp), %xmm2
	pxor	.L1_v2_CPI88_1(%rip), %xmm1
	movaps	.L1_v2_CPI88_2(%rip), %xmm3
	xorps	.L1_v2_CPI88_3(%rip), %xmm0
	xorps	.L1_v2_CPI88_4(%rip), %xmm2
	movups	%xmm3, 56(%rsp)
	movdqu	%xmm1, 40(%rsp)
	movups	%xmm2, 88(%rsp)
	movups	%xmm0, 72(%rsp)
	movups	%xmm3, 120(%rsp)
	movdqu	%xmm1, 104(%rsp)
	movups	%xmm2, 152(%rsp)
	movups	%xmm0, 136(%rsp)
	leaq	184(%rsp), %r12
	xorps	%xmm0, %xmm0
	movups	%xmm0, 168(%rsp)
	movups	%xmm0, 184(%rsp)
	movups	%xmm0, 200(%rsp)
	movups	%xmm0, 216(%rsp)
	movups	%xmm0, 232(%rsp)
	movups	%xmm0, 248(%rsp)
	movups	%xmm0, 264(%rsp)
	movups	%xmm0, 280(%rsp)
	movups	%xmm0, 296(%rsp)
	movq	$0, 312(%rsp)
	cmpq	$128, %r14
	jbe	2f
	movq	%r15, %r13
	leaq	-1(%r14), %r15
	movq	%r15, %rbx
	shrq	$7, %rbx
	movq	%r13, 24(%rsp)
	.p2align	4
1:
	movq	168(%rsp), %rdx
	subq	$-128, %rdx
	movq	%rdx, 168(%rsp)
	leaq	40(%rsp), %rdi
	movq	%r13, %rsi
	xorl	%ecx, %ecx
	xorl	%r8d, %r8d
	vj_call	blake2_compress..compress..blake2b..compress_1_v2
	subq	$-128, %r13
	decq	%rbx
	jne	1b
	andq	$-128, %r15
	movq	24(%rsp), %rsi
	addq	%r15, %rsi
	subq	%r15, %r14
	xorps	%xmm0, %xmm0
	movups	%xmm0, 112(%r12)
	movups	%xmm0, 96(%r12)
	movups	%xmm0, 80(%r12)
	movups	%xmm0, 64(%r12)
	movups	%xmm0, 48(%r12)
	movups	%xmm0, 32(%r12)
	movups	%xmm0, 16(%r12)
	movups	%xmm0, (%r12)
	movq	%r12, %rdi
	jmp	3f
2:
	movq	%r12, %rdi
	movq	%r15, %rsi
3:
	movq	%r14, %rdx
	vj_c_call	memcpy
	movq	%r14, 312(%rsp)
	leaq	184(%rsp), %rsi
	movq	168(%rsp), %r15
	addq	%r14, %r15
	movq	%r15, 168(%rsp)
	xorps	%xmm0, %xmm0
	movaps	%xmm0, 320(%rsp)
	movaps	%xmm0, 336(%rsp)
	movaps	%xmm0, 352(%rsp)
	movaps	%xmm0, 368(%rsp)
	movaps	%xmm0, 384(%rsp)
	movaps	%xmm0, 400(%rsp)
	movaps	%xmm0, 416(%rsp)
	movaps	%xmm0, 432(%rsp)
	leaq	320(%rsp), %rbx
	movq	%rbx, %rdi
	movq	%r14, %rdx
	vj_c_call	memcpy
	xorps	%xmm0, %xmm0
	movups	%xmm0, 184(%rsp)
	movups	%xmm0, 200(%rsp)
	movups	%xmm0, 216(%rsp)
	movups	%xmm0, 232(%rsp)
	movups	%xmm0, 248(%rsp)
	movups	%xmm0, 264(%rsp)
	movups	%xmm0, 280(%rsp)
	movups	%xmm0, 296(%rsp)
	movq	$0, 312(%rsp)
	movl	176(%rsp), %r8d
	leaq	40(%rsp), %rdi
	movq	%rbx, %rsi
	movq	%r15, %rdx
	movl	$1, %ecx
	vj_call	blake2_compress..compress..blake2b..compress_1_v2
	movups	40(%rsp), %xmm0
	movups	56(%rsp), %xmm1
	movups	72(%rsp), %xmm2
	movups	88(%rsp), %xmm3
	movq	32(%rsp), %rax
	movups	%xmm0, (%rax)
	movups	%xmm1, 16(%rax)
	movups	%xmm2, 32(%rax)
	movups	%xmm3, 48(%rax)
	movl	$1, %eax
	leaq	-40(%rbp), %rsp
	popq	%rbx
	popq	%r12
	popq	%r13
	popq	%r14
	popq	%r15
	popq	%rbp
	retq
	vj_end	blake2_tree..nodes..Nodes..hash_next_1_v2

	vj_function	blake2_tree..nodes..write_at_1_v2
	addq	%rsi, %rdi
	movq	%rdi, %rax
	subq	%rdx, %rax
	cmpq	$63, %rax
	ja	1f
	movzbl	(%rdx), %eax
	movb	%al, (%rdi)
	movzbl	1(%rdx), %eax
	movb	%al, 1(%rdi)
	movzbl	2(%rdx), %eax
	movb	%al, 2(%rdi)
	movzbl	3(%rdx), %eax
	movb	%al, 3(%rdi)
	movzbl	4(%rdx), %eax
	movb	%al, 4(%rdi)
	movzbl	5(%rdx), %eax
	movb	%al, 5(%rdi)
	movzbl	6(%rdx), %eax
	movb	%al, 6(%rdi)
	movzbl	7(%rdx), %eax
	movb	%al, 7(%rdi)
	movzbl	8(%rdx), %eax
	movb	%al, 8(%rdi)
	movzbl	9(%rdx), %eax
	movb	%al, 9(%rdi)
	movzbl	10(%rdx), %eax
	movb	%al, 10(%rdi)
	movzbl	11(%rdx), %eax
	movb	%al, 11(%rdi)
	movzbl	12(%rdx), %eax
	movb	%al, 12(%rdi)
	movzbl	13(%rdx), %eax
	movb	%al, 13(%rdi)
	movzbl	14(%rdx), %eax
	movb	%al, 14(%rdi)
	movzbl	15(%rdx), %eax
	movb	%al, 15(%rdi)
	movzbl	16(%rdx), %eax
	movb	%al, 16(%rdi)
	movzbl	17(%rdx), %eax
	movb	%al, 17(%rdi)
	movzbl	18(%rdx), %eax
	movb	%al, 18(%rdi)
	movzbl	19(%rdx), %eax
	movb	%al, 19(%rdi)
	movzbl	20(%rdx), %eax
	movb	%al, 20(%rdi)
	movzbl	21(%rdx), %eax
	movb	%al, 21(%rdi)
	movzbl	22(%rdx), %eax
	movb	%al, 22(%rdi)
	movzbl	23(%rdx), %eax
	movb	%al, 23(%rdi)
	movzbl	24(%rdx), %eax
	movb	%al, 24(%rdi)
	movzbl	25(%rdx), %eax
	movb	%al, 25(%rdi)
	movzbl	26(%rdx), %eax
	movb	%al, 26(%rdi)
	movzbl	27(%rdx), %eax
	movb	%al, 27(%rdi)
	movzbl	28(%rdx), %eax
	movb	%al, 28(%rdi)
	movzbl	29(%rdx), %eax
	movb	%al, 29(%rdi)
	movzbl	30(%rdx), %eax
	movb	%al, 30(%rdi)
	movzbl	31(%rdx), %eax
	movb	%al, 31(%rdi)
	movzbl	32(%rdx), %eax
	movb	%al, 32(%rdi)
	movzbl	33(%rdx), %eax
	movb	%al, 33(%rdi)
	movzbl	34(%rdx), %eax
	movb	%al, 34(%rdi)
	movzbl	35(%rdx), %eax
	movb	%al, 35(%rdi)
	movzbl	36(%rdx), %eax
	movb	%al, 36(%rdi)
	movzbl	37(%rdx), %eax
	movb	%al, 37(%rdi)
	movzbl	38(%rdx), %eax
	movb	%al, 38(%rdi)
	movzbl	39(%rdx), %eax
	movb	%al, 39(%rdi)
	movzbl	40(%rdx), %eax
	movb	%al, 40(%rdi)
	movzbl	41(%rdx), %eax
	movb	%al, 41(%rdi)
	movzbl	42(%rdx), %eax
	movb	%al, 42(%rdi)
	movzbl	43(%rdx), %eax
	movb	%al, 43(%rdi)
	movzbl	44(%rdx), %eax
	movb	%al, 44(%rdi)
	movzbl	45(%rdx), %eax
	movb	%al, 45(%rdi)
	movzbl	46(%rdx), %eax
	movb	%al, 46(%rdi)
	movzbl	47(%rdx), %eax
	movb	%al, 47(%rdi)
	movzbl	48(%rdx), %eax
	movb	%al, 48(%rdi)
	movzbl	49(%rdx), %eax
	movb	%al, 49(%rdi)
	movzbl	50(%rdx), %eax
	movb	%al, 50(%rdi)
	movzbl	51(%rdx), %eax
	movb	%al, 51(%rdi)
	movzbl	52(%rdx), %eax
	movb	%al, 52(%rdi)
	movzbl	53(%rdx), %eax
	movb	%al, 53(%rdi)
	movzbl	54(%rdx), %eax
	movb	%al, 54(%rdi)
	movzbl	55(%rdx), %eax
	movb	%al, 55(%rdi)
	movzbl	56(%rdx), %eax
	movb	%al, 56(%rdi)
	movzbl	57(%rdx), %eax
	movb	%al, 57(%rdi)
	movzbl	58(%rdx), %eax
	movb	%al, 58(%rdi)
	movzbl	59(%rdx), %eax
	movb	%al, 59(%rdi)
	movzbl	60(%rdx), %eax
	movb	%al, 60(%rdi)
	movzbl	61(%rdx), %eax
	movb	%al, 61(%rdi)
	movzbl	62(%rdx), %eax
	movb	%al, 62(%rdi)
	movzbl	63(%rdx), %eax
	movb	%al, 63(%rdi)
	retq
1:
	movups	(%rdx), %xmm0
	movups	16(%rdx), %xmm1
	movups	32(%rdx), %xmm2
	movups	48(%rdx), %xmm3
	movups	%xmm3, 48(%rdi)
	movups	%xmm2, 32(%rdi)
	movups	%xmm1, 16(%rdi)
	movups	%xmm0, (%rdi)
	retq
	vj_end	blake2_tree..nodes..write_at_1_v2

	vj_function	blake2_tree..thread_plan..Plan..of_1_v2
	pushq	%r15
	pushq	%r14
	pushq	%rbx
	testl	%ecx, %ecx
	je	15f
	movq	%rdx, %r14
	movl	%ecx, %ecx
	movq	16(%rsi), %rax
	movq	%rax, %rdx
	shrq	$32, %rdx
	je	1f
	xorl	%edx, %edx
	divq	%rcx
	movq	%rax, %r11
	jmp	2f
1:
	xorl	%edx, %edx
	divl	%ecx
	movl	%eax, %r11d
2:
	shrq	$2, %r11
	cmpq	$1, %r11
	adcq	$0, %r11
	movq	%r9, %rax
	shrq	$32, %rax
	je	3f
	movq	%r9, %rax
	xorl	%edx, %edx
	divq	%rcx
	movq	%rax, %r10
	jmp	4f
3:
	movl	%r9d, %eax
	xorl	%edx, %edx
	divl	%ecx
	movl	%eax, %r10d
4:
	xorl	%eax, %eax
	testq	%rdx, %rdx
	setne	%al
	leaq	(%r10,%rax), %rdx
	cmpq	$1, %rdx
	adcq	%rax, %r10
	testq	%r14, %r14
	je	15f
	movq	%r10, %rax
	orq	%r14, %rax
	shrq	$32, %rax
	je	5f
	movq	%r10, %rax
	xorl	%edx, %edx
	divq	%r14
	movq	%rax, %rbx
	cmpq	$1, %rdx
	sbbq	$-1, %rbx
	cmpq	$4, %rbx
	jae	6f
	jmp	9f
5:
	movl	%r10d, %eax
	xorl	%edx, %edx
	divl	%r14d
	movl	%eax, %ebx
	cmpq	$1, %rdx
	sbbq	$-1, %rbx
	cmpq	$4, %rbx
	jb	9f
6:
	xorl	%eax, %eax
	testb	$3, %bl
	setne	%al
	leaq	(%rbx,%rax,4), %r15
	andq	$-4, %r15
	je	15f
	movq	%r10, %rax
	orq	%r15, %rax
	shrq	$32, %rax
	je	7f
	movq	%r10, %rax
	xorl	%edx, %edx
	divq	%r15
	jmp	8f
7:
	movl	%r10d, %eax
	xorl	%edx, %edx
	divl	%r15d
8:
	cmpq	$1, %rdx
	sbbq	$-1, %rax
	andq	$-4, %rbx
	cmpq	%rax, %r14
	cmovbeq	%r15, %rbx
9:
	shlq	$2, %r11
	cmpq	%r11, %rbx
	cmovbq	%rbx, %r11
	movq	%r11, %rdx
	imulq	%rcx, %rdx
	movq	24(%rsi), %rax
	cmpq	%rax, %rdx
	jbe	12f
	movq	%rax, %rdx
	shrq	$32, %rdx
	je	10f
	xorl	%edx, %edx
	divq	%rcx
	movq	%rax, %r11
	jmp	11f
10:
	xorl	%edx, %edx
	divl	%ecx
	movl	%eax, %r11d
11:
	andq	$-4, %r11
	cmpq	$1, %r11
	adcq	$0, %r11
12:
	imulq	%rcx, %r11
	testq	%r11, %r11
	je	15f
	movq	32(%rsp), %rsi
	movq	%r9, %rax
	orq	%r11, %rax
	shrq	$32, %rax
	je	13f
	movq	%r9, %rax
	xorl	%edx, %edx
	divq	%r11
	jmp	14f
13:
	movl	%r9d, %eax
	xorl	%edx, %edx
	divl	%r11d
14:
	cmpq	$1, %rdx
	sbbq	$-1, %rax
	cmpq	%rax, %rsi
	cmovaq	%rsi, %rax
	addq	%r8, %r9
	cmpq	%r14, %rax
	cmovbq	%rax, %r14
	shlq	$6, %r10
	testq	%rax, %rax
	cmoveq	%rax, %r10
	movq	%r8, (%rdi)
	movq	%r9, 8(%rdi)
	movq	$0, 16(%rdi)
	movq	%rcx, 24(%rdi)
	movq	%r11, 32(%rdi)
	movq	%rax, 40(%rdi)
	movq	%r14, 48(%rdi)
	movq	%r10, 56(%rdi)
	movq	%rsi, 64(%rdi)
	popq	%rbx
	popq	%r14
	popq	%r15
	retq
15:
	ud2
	vj_end	blake2_tree..thread_plan..Plan..of_1_v2

	vj_constants	16
	.p2align	4, 0x0
.L1_v2_CPI91_0:
	.short	64
	.short	512
	.zero	2
	.zero	2
	.zero	2
	.zero	2
	.zero	2
	.zero	2
.L1_v2_CPI91_1:
	.quad	7640891576956012808
	.quad	-4942790177534073029
.L1_v2_CPI91_2:
	.quad	4354685564936828971
	.quad	-6534734903238641935
.L1_v2_CPI91_3:
	.quad	2270897969802886507
	.quad	6620516959819538809
.L1_v2_CPI91_4:
	.quad	5840696475078001361
	.quad	-7276294671716946913
.L1_v2_CPI91_5:
	.short	64
	.short	512
	.short	0
	.short	0
	.short	0
	.short	0
	.short	0
	.short	0
	vj_function	blake2_state..tree..TreeState..update_1_v2
	pushq	%rbp
	movq	%rsp, %rbp
	pushq	%r15
	pushq	%r14
	pushq	%r13
	pushq	%r12
	pushq	%rbx
	andq	$-32, %rsp
	subq	$800, %rsp
	movq	%rdi, %rbx
	movq	696(%rdi), %rcx
	movl	136(%rdi), %eax
	movq	128(%rdi), %rdi
	addq	%rax, %rdi
	subq	%rdi, %rcx
	cmpq	%rcx, %rdx
	jbe	5f
	.p2align	4
1:
	movq	%rbx, %rdi
	callq	blake2_state..tree..TreeState..close_leaf_1_v2
	movq	%rax, %rsi
	movq	696(%rbx), %r14
	cmpq	%rdx, %r14
	jae	3f
2:
	leaq	(,%r14,4), %rax
	cmpq	%rdx, %rax
	jae	1b
	movq	704(%rbx), %r12
	movq	712(%rbx), %r13
	xorps	%xmm0, %xmm0
	movaps	%xmm0, 64(%rsp)
	leaq	64(%rsp), %rdi
	movq	%rsi, (%rsp)
	leaq	720(%rbx), %rsi
	movq	%rsi, 8(%rsp)
	movq	%rdx, 24(%rsp)
	movq	%r12, %rdx
	vj_c_call	memcpy
	xorps	%xmm0, %xmm0
	movaps	%xmm0, 80(%rsp)
	leaq	80(%rsp), %rdi
	leaq	736(%rbx), %rsi
	movq	%rsi, 16(%rsp)
	movq	%r13, %rdx
	vj_c_call	memcpy
	movaps	64(%rsp), %xmm0
	movaps	%xmm0, 144(%rsp)
	movq	%r12, 160(%rsp)
	movaps	80(%rsp), %xmm0
	leaq	168(%rsp), %rax
	movups	%xmm0, (%rax)
	movq	%r13, 184(%rsp)
	movl	%r14d, 192(%rsp)
	movl	$0, 196(%rsp)
	leaq	264(%rsp), %r15
	movl	$512, %edx
	movq	%r15, %rdi
	xorl	%esi, %esi
	vj_c_call	memset
	movq	688(%rbx), %rsi
	leaq	144(%rsp), %rdi
	movq	(%rsp), %rdx
	movq	%r15, %r8
	vj_call	blake2_tree..nodes..Nodes..hash_next_1_v2
	xorps	%xmm0, %xmm0
	movaps	%xmm0, 96(%rsp)
	leaq	96(%rsp), %rdi
	movq	8(%rsp), %rsi
	movq	%r12, %rdx
	vj_c_call	memcpy
	xorps	%xmm0, %xmm0
	movaps	%xmm0, 112(%rsp)
	leaq	112(%rsp), %rdi
	movq	16(%rsp), %rsi
	movq	%r13, %rdx
	vj_c_call	memcpy
	movaps	96(%rsp), %xmm0
	movaps	%xmm0, 208(%rsp)
	movq	%r12, 224(%rsp)
	movaps	112(%rsp), %xmm0
	leaq	232(%rsp), %r15
	movups	%xmm0, (%r15)
	movq	%r13, 248(%rsp)
	movl	%r14d, 256(%rsp)
	movl	$0, 260(%rsp)
	movl	$64, %edx
	leaq	344(%rbx), %rdi
	leaq	264(%rsp), %rsi
	callq	blake2_state..blake2b..State..absorb_blocks_1_v2
	movq	688(%rbx), %rax
	incq	%rax
	movq	%rax, 688(%rbx)
	xorps	%xmm0, %xmm0
	movaps	%xmm0, 48(%rsp)
	movaps	%xmm0, 32(%rsp)
	movd	%r14d, %xmm0
	movd	.L1_v2_CPI91_5(%rip), %xmm1
	punpckldq	%xmm0, %xmm1
	movq	%rax, %xmm0
	punpcklqdq	%xmm0, %xmm1
	movdqa	%xmm1, 128(%rsp)
	leaq	32(%rsp), %rdi
	leaq	208(%rsp), %rsi
	movq	%r12, %rdx
	vj_c_call	memcpy
	leaq	48(%rsp), %rdi
	movq	%r15, %rsi
	movq	%r13, %rdx
	vj_c_call	memcpy
	movq	24(%rsp), %rdx
	movq	(%rsp), %rsi
	movaps	32(%rsp), %xmm0
	movaps	48(%rsp), %xmm1
	movaps	128(%rsp), %xmm3
	xorps	.L1_v2_CPI91_1(%rip), %xmm3
	xorps	.L1_v2_CPI91_3(%rip), %xmm1
	movaps	.L1_v2_CPI91_2(%rip), %xmm2
	xorps	.L1_v2_CPI91_4(%rip), %xmm0
	movups	%xmm3, (%rbx)
	movups	%xmm2, 16(%rbx)
	movups	%xmm0, 32(%rbx)
	movups	%xmm1, 48(%rbx)
	movups	%xmm3, 64(%rbx)
	movups	%xmm2, 80(%rbx)
	movups	%xmm0, 96(%rbx)
	movups	%xmm1, 112(%rbx)
	leaq	128(%rbx), %rax
	xorps	%xmm0, %xmm0
	movups	%xmm0, (%rax)
	movl	$64, 144(%rbx)
	leaq	148(%rbx), %rax
	movups	%xmm0, 176(%rax)
	movups	%xmm0, 160(%rax)
	movups	%xmm0, 144(%rax)
	movups	%xmm0, 128(%rax)
	movups	%xmm0, 112(%rax)
	movups	%xmm0, 96(%rax)
	movups	%xmm0, 80(%rax)
	movups	%xmm0, 64(%rax)
	movups	%xmm0, 48(%rax)
	movups	%xmm0, 32(%rax)
	movups	%xmm0, 16(%rax)
	movups	%xmm0, (%rax)
	movl	$0, 192(%rax)
	addq	%r14, %rsi
	subq	%r14, %rdx
	movq	696(%rbx), %r14
	cmpq	%rdx, %r14
	jb	2b
3:
	cmpq	$1, %rdx
	jne	7f
	movl	136(%rbx), %eax
	cmpq	$128, %rax
	jae	6f
4:
	movzbl	(%rsi), %ecx
	movb	%cl, 152(%rbx,%rax)
	incl	%eax
	movl	%eax, 136(%rbx)
	jmp	8f
5:
	cmpq	$1, %rdx
	jne	7f
	cmpl	$128, %eax
	jb	4b
6:
	movl	$1, %edx
7:
	movq	%rbx, %rdi
	callq	blake2_state..blake2b..State..absorb_blocks_1_v2
8:
	leaq	-40(%rbp), %rsp
	popq	%rbx
	popq	%r12
	popq	%r13
	popq	%r14
	popq	%r15
	popq	%rbp
	retq
	vj_end	blake2_state..tree..TreeState..update_1_v2

	vj_constants	16
	.p2align	4, 0x0
.L1_v2_CPI92_0:
	.short	64
	.short	512
	.zero	2
	.zero	2
	.zero	2
	.zero	2
	.zero	2
	.zero	2
.L1_v2_CPI92_1:
	.quad	7640891576956012808
	.quad	-4942790177534073029
.L1_v2_CPI92_2:
	.quad	4354685564936828971
	.quad	-6534734903238641935
.L1_v2_CPI92_3:
	.quad	2270897969802886507
	.quad	6620516959819538809
.L1_v2_CPI92_4:
	.quad	5840696475078001361
	.quad	-7276294671716946913
.L1_v2_CPI92_5:
	.short	64
	.short	512
	.short	0
	.short	0
	.short	0
	.short	0
	.short	0
	.short	0
	vj_function	blake2_state..tree..TreeState..close_leaf_1_v2
	pushq	%rbp
	movq	%rsp, %rbp
	pushq	%r15
	pushq	%r14
	pushq	%r13
	pushq	%r12
	pushq	%rbx
	andq	$-32, %rsp
	subq	$288, %rsp
	movq	%rdx, %rbx
	movq	%rsi, %r14
	movq	%rdi, %r15
	movq	696(%rdi), %r12
	movl	136(%rdi), %eax
	movq	128(%rdi), %rcx
	addq	%rax, %rcx
	subq	%rcx, %r12
	cmpq	$1, %r12
	jne	1f
	cmpl	$128, %eax
	jae	2f
	movzbl	(%r14), %ecx
	movb	%cl, 152(%r15,%rax)
	incl	%eax
	movl	%eax, 136(%r15)
	jmp	4f
1:
	movq	%r15, %rdi
	movq	%r14, %rsi
	movq	%r12, %rdx
	jmp	3f
2:
	movl	$1, %edx
	movq	%r15, %rdi
	movq	%r14, %rsi
3:
	callq	blake2_state..blake2b..State..absorb_blocks_1_v2
4:
	subq	%r12, %rbx
	movq	%rbx, 24(%rsp)
	addq	%r12, %r14
	movq	%r14, 16(%rsp)
	movq	704(%r15), %r13
	leaq	720(%r15), %rsi
	movq	712(%r15), %r12
	leaq	736(%r15), %rbx
	movl	696(%r15), %r14d
	xorps	%xmm0, %xmm0
	movaps	%xmm0, 80(%rsp)
	leaq	80(%rsp), %rdi
	movq	%r13, %rdx
	vj_c_call	memcpy
	xorps	%xmm0, %xmm0
	movaps	%xmm0, 96(%rsp)
	leaq	96(%rsp), %rdi
	movq	%rbx, %rsi
	movq	%r12, %rdx
	vj_c_call	memcpy
	movaps	80(%rsp), %xmm0
	movaps	%xmm0, 112(%rsp)
	movq	%r13, 128(%rsp)
	movaps	96(%rsp), %xmm0
	movups	%xmm0, 136(%rsp)
	movq	%r12, 152(%rsp)
	movl	%r14d, 160(%rsp)
	movl	$0, 164(%rsp)
	movl	$0, 148(%r15)
	xorps	%xmm0, %xmm0
	movaps	%xmm0, 240(%rsp)
	movaps	%xmm0, 224(%rsp)
	movaps	%xmm0, 208(%rsp)
	movaps	%xmm0, 192(%rsp)
	leaq	192(%rsp), %rbx
	movq	%r15, %rdi
	movq	%rbx, %rsi
	callq	blake2_state..blake2b..State..write_digest_1_v2
	movl	$64, %edx
	leaq	344(%r15), %rdi
	movq	%rbx, %rsi
	callq	blake2_state..blake2b..State..absorb_blocks_1_v2
	movq	688(%r15), %rax
	incq	%rax
	movq	%rax, 688(%r15)
	xorps	%xmm0, %xmm0
	movaps	%xmm0, 48(%rsp)
	movaps	%xmm0, 32(%rsp)
	movd	%r14d, %xmm0
	movd	.L1_v2_CPI92_5(%rip), %xmm1
	punpckldq	%xmm0, %xmm1
	movq	%rax, %xmm0
	punpcklqdq	%xmm0, %xmm1
	movdqa	%xmm1, 176(%rsp)
	leaq	32(%rsp), %rdi
	leaq	112(%rsp), %rsi
	movq	%r13, %rdx
	vj_c_call	memcpy
	leaq	48(%rsp), %rdi
	leaq	136(%rsp), %rsi
	movq	%r12, %rdx
	vj_c_call	memcpy
	movaps	32(%rsp), %xmm0
	movaps	48(%rsp), %xmm1
	movaps	176(%rsp), %xmm3
	xorps	.L1_v2_CPI92_1(%rip), %xmm3
	xorps	.L1_v2_CPI92_3(%rip), %xmm1
	movaps	.L1_v2_CPI92_2(%rip), %xmm2
	xorps	.L1_v2_CPI92_4(%rip), %xmm0
	movups	%xmm3, (%r15)
	movups	%xmm2, 16(%r15)
	movups	%xmm0, 32(%r15)
	movups	%xmm1, 48(%r15)
	movups	%xmm3, 64(%r15)
	movups	%xmm2, 80(%r15)
	movups	%xmm0, 96(%r15)
	movups	%xmm1, 112(%r15)
	leaq	128(%r15), %rax
	xorps	%xmm0, %xmm0
	movups	%xmm0, (%rax)
	movl	$64, 144(%r15)
	movups	%xmm0, 148(%r15)
	movups	%xmm0, 164(%r15)
	movups	%xmm0, 180(%r15)
	movups	%xmm0, 196(%r15)
	movups	%xmm0, 212(%r15)
	movups	%xmm0, 228(%r15)
	movups	%xmm0, 244(%r15)
	movups	%xmm0, 260(%r15)
	movups	%xmm0, 276(%r15)
	movups	%xmm0, 292(%r15)
	movups	%xmm0, 308(%r15)
	movups	%xmm0, 324(%r15)
	movl	$0, 340(%r15)
	movq	16(%rsp), %rax
	movq	24(%rsp), %rdx
	leaq	-40(%rbp), %rsp
	popq	%rbx
	popq	%r12
	popq	%r13
	popq	%r14
	popq	%r15
	popq	%rbp
	retq
	vj_end	blake2_state..tree..TreeState..close_leaf_1_v2

	vj_constants	16
	.p2align	4, 0x0
.L1_v2_CPI93_0:
	.quad	7640891576956012808
	.quad	-4942790177534073029
.L1_v2_CPI93_1:
	.quad	4354685564936828970
	.quad	-6534734903238641935
.L1_v2_CPI93_2:
	.quad	4354685564936828971
	.quad	-6534734903238641935
.L1_v2_CPI93_3:
	.quad	4354685564936828971
	.quad	4354685564936828971
.L1_v2_CPI93_4:
	.quad	-6534734903238641935
	.quad	-6534734903238641935
.L1_v2_CPI93_5:
	.quad	5840696475078001361
	.quad	5840696475078001361
.L1_v2_CPI93_6:
	.quad	-7276294671716946913
	.quad	-7276294671716946913
.L1_v2_CPI93_7:
	.quad	2270897969802886507
	.quad	2270897969802886507
.L1_v2_CPI93_8:
	.quad	6620516959819538809
	.quad	6620516959819538809
	vj_function	blake2_ffi..blake2bp..write_1_v2
	pushq	%rbp
	pushq	%r15
	pushq	%r14
	pushq	%r13
	pushq	%r12
	pushq	%rbx
	subq	$3072, %rsp
	movq	$0, (%rsp)
	subq	$1064, %rsp
	movq	%r9, %r13
	movq	%r8, %rbp
	movq	%rcx, %r14
	movq	%rdx, %r15
	movq	%rsi, %r12
	movq	%rdi, %rbx
	leaq	2040(%rsp), %rdi
	movl	$304, %edx
	xorl	%esi, %esi
	vj_c_call	memset
	leaq	-1(%r12), %rax
	cmpq	$64, %rax
	setae	%al
	cmpq	$65, %r13
	setae	%cl
	orb	%al, %cl
	jne	1f
	xorps	%xmm0, %xmm0
	movaps	%xmm0, 112(%rsp)
	movaps	%xmm0, 96(%rsp)
	movaps	%xmm0, 80(%rsp)
	movaps	%xmm0, 64(%rsp)
	movaps	%xmm0, 48(%rsp)
	movaps	%xmm0, 32(%rsp)
	movaps	%xmm0, 16(%rsp)
	movaps	%xmm0, (%rsp)
	movq	%rsp, %rdi
	movq	%rbp, %rsi
	movq	%r13, %rdx
	vj_c_call	memcpy
	testq	%r13, %r13
	movq	%rbx, 144(%rsp)
	movq	%r14, 152(%rsp)
	movq	%r15, 136(%rsp)
	je	2f
	movaps	112(%rsp), %xmm0
	movaps	%xmm0, 304(%rsp)
	movaps	96(%rsp), %xmm1
	movaps	%xmm1, 288(%rsp)
	movaps	80(%rsp), %xmm2
	movaps	%xmm2, 272(%rsp)
	movaps	64(%rsp), %xmm3
	movaps	%xmm3, 256(%rsp)
	movaps	(%rsp), %xmm4
	movaps	16(%rsp), %xmm5
	movaps	32(%rsp), %xmm6
	movaps	48(%rsp), %xmm7
	movaps	%xmm7, 240(%rsp)
	movaps	%xmm6, 224(%rsp)
	movaps	%xmm5, 208(%rsp)
	movaps	%xmm4, 192(%rsp)
	movaps	%xmm4, 320(%rsp)
	movaps	%xmm5, 336(%rsp)
	movaps	%xmm6, 352(%rsp)
	movaps	%xmm7, 368(%rsp)
	movaps	%xmm3, 384(%rsp)
	movaps	%xmm2, 400(%rsp)
	movaps	%xmm1, 416(%rsp)
	movaps	%xmm0, 432(%rsp)
	movaps	112(%rsp), %xmm0
	movaps	%xmm0, 560(%rsp)
	movaps	96(%rsp), %xmm1
	movaps	%xmm1, 544(%rsp)
	movaps	80(%rsp), %xmm2
	movaps	%xmm2, 528(%rsp)
	movaps	64(%rsp), %xmm3
	movaps	%xmm3, 512(%rsp)
	movaps	(%rsp), %xmm4
	movaps	16(%rsp), %xmm5
	movaps	32(%rsp), %xmm6
	movaps	48(%rsp), %xmm7
	movaps	%xmm7, 496(%rsp)
	movaps	%xmm6, 480(%rsp)
	movaps	%xmm5, 464(%rsp)
	movaps	%xmm4, 448(%rsp)
	movaps	%xmm0, 688(%rsp)
	movaps	%xmm1, 672(%rsp)
	movaps	%xmm2, 656(%rsp)
	movaps	%xmm3, 640(%rsp)
	movaps	%xmm7, 624(%rsp)
	movaps	%xmm6, 608(%rsp)
	movaps	%xmm5, 592(%rsp)
	movaps	%xmm4, 576(%rsp)
	leaq	2856(%rsp), %rdi
	movl	$384, %edx
	xorl	%esi, %esi
	vj_c_call	memset
	leaq	2344(%rsp), %rdi
	leaq	192(%rsp), %rsi
	movl	$512, %ebp
	movl	$512, %edx
	vj_c_call	memcpy
	jmp	3f
1:
	movl	$-1, %eax
	jmp	4f
2:
	leaq	2344(%rsp), %rdi
	xorl	%ebp, %ebp
	movl	$896, %edx
	xorl	%esi, %esi
	vj_c_call	memset
3:
	shll	$8, %r13d
	leal	(%r12,%r13), %eax
	addl	$33816576, %eax
	movd	%eax, %xmm0
	pxor	.L1_v2_CPI93_0(%rip), %xmm0
	movdqa	%xmm0, 160(%rsp)
	leaq	3240(%rsp), %rdi
	leaq	2344(%rsp), %rsi
	movl	$896, %edx
	vj_c_call	memcpy
	movdqa	160(%rsp), %xmm0
	pshufd	$68, %xmm0, %xmm1
	movdqa	%xmm1, 176(%rsp)
	movdqu	%xmm1, 712(%rsp)
	movq	%xmm0, 728(%rsp)
	movdqu	%xmm0, 736(%rsp)
	movabsq	$-4942790177534073032, %rbx
	leaq	2(%rbx), %rax
	movq	%rax, 752(%rsp)
	leaq	1(%rbx), %r14
	movq	%r14, 760(%rsp)
	movq	%rbx, 768(%rsp)
	movaps	.L1_v2_CPI93_3(%rip), %xmm0
	movups	%xmm0, 776(%rsp)
	movabsq	$4354685564936828971, %r13
	movq	%r13, 792(%rsp)
	movaps	.L1_v2_CPI93_2(%rip), %xmm0
	movups	%xmm0, 800(%rsp)
	movaps	.L1_v2_CPI93_4(%rip), %xmm0
	movups	%xmm0, 816(%rsp)
	movabsq	$-6534734903238641935, %r15
	movq	%r15, 832(%rsp)
	movaps	.L1_v2_CPI93_5(%rip), %xmm0
	movups	%xmm0, 856(%rsp)
	movups	%xmm0, 840(%rsp)
	movaps	.L1_v2_CPI93_6(%rip), %xmm0
	movups	%xmm0, 888(%rsp)
	movups	%xmm0, 872(%rsp)
	movaps	.L1_v2_CPI93_7(%rip), %xmm0
	movups	%xmm0, 920(%rsp)
	movups	%xmm0, 904(%rsp)
	movaps	.L1_v2_CPI93_8(%rip), %xmm0
	movups	%xmm0, 952(%rsp)
	movups	%xmm0, 936(%rsp)
	movq	$0, 968(%rsp)
	movq	%rbp, 976(%rsp)
	leaq	984(%rsp), %rdi
	movl	$896, %edx
	leaq	3240(%rsp), %rsi
	vj_c_call	memcpy
	movaps	176(%rsp), %xmm0
	movups	%xmm0, 1880(%rsp)
	movaps	160(%rsp), %xmm1
	movlps	%xmm1, 1896(%rsp)
	movups	%xmm1, 1904(%rsp)
	leaq	2(%rbx), %rax
	movq	%rax, 1920(%rsp)
	movq	%r14, 1928(%rsp)
	movq	%rbx, 1936(%rsp)
	movq	%r13, 1944(%rsp)
	movq	%r13, 1952(%rsp)
	movq	%r13, 1960(%rsp)
	movaps	.L1_v2_CPI93_2(%rip), %xmm0
	movups	%xmm0, 1968(%rsp)
	movq	%r15, 1984(%rsp)
	movq	%r15, 1992(%rsp)
	movq	%r15, 2000(%rsp)
	movaps	.L1_v2_CPI93_5(%rip), %xmm0
	movups	%xmm0, 2024(%rsp)
	movups	%xmm0, 2008(%rsp)
	movaps	.L1_v2_CPI93_6(%rip), %xmm0
	movups	%xmm0, 2056(%rsp)
	movups	%xmm0, 2040(%rsp)
	movaps	.L1_v2_CPI93_7(%rip), %xmm0
	movups	%xmm0, 2088(%rsp)
	movups	%xmm0, 2072(%rsp)
	movaps	.L1_v2_CPI93_8(%rip), %xmm0
	movups	%xmm0, 2120(%rsp)
	movups	%xmm0, 2104(%rsp)
	movups	%xmm1, 2136(%rsp)
	movaps	.L1_v2_CPI93_1(%rip), %xmm0
	movups	%xmm0, 2152(%rsp)
	movabsq	$5840696475078001361, %rax
	movq	%rax, 2168(%rsp)
	movabsq	$-7276294671716946913, %rax
	movq	%rax, 2176(%rsp)
	movabsq	$2270897969802886507, %rax
	movq	%rax, 2184(%rsp)
	movabsq	$6620516959819538809, %rax
	movq	%rax, 2192(%rsp)
	movq	%rbp, 2200(%rsp)
	movq	%r12, 2208(%rsp)
	movaps	112(%rsp), %xmm0
	movups	%xmm0, 2328(%rsp)
	movaps	96(%rsp), %xmm0
	movups	%xmm0, 2312(%rsp)
	movaps	80(%rsp), %xmm0
	movups	%xmm0, 2296(%rsp)
	movaps	64(%rsp), %xmm0
	movups	%xmm0, 2280(%rsp)
	movaps	(%rsp), %xmm0
	movaps	16(%rsp), %xmm1
	movaps	32(%rsp), %xmm2
	movaps	48(%rsp), %xmm3
	movups	%xmm3, 2264(%rsp)
	movups	%xmm2, 2248(%rsp)
	movups	%xmm1, 2232(%rsp)
	movups	%xmm0, 2216(%rsp)
	movl	$-1, %eax
	movq	152(%rsp), %rdx
	addq	%rdx, %rbp
	jb	4f
	leaq	712(%rsp), %r12
	movq	%r12, %rdi
	movq	136(%rsp), %rsi
	vj_call	blake2_parallel..lanes..blake2bp..Lanes..update_1_v2
	movq	%r12, %rdi
	movq	144(%rsp), %rsi
	callq	blake2_parallel..blake2bp..State..write_digest_1_v2
	xorl	%eax, %eax
4:
	addq	$4136, %rsp
	popq	%rbx
	popq	%r12
	popq	%r13
	popq	%r14
	popq	%r15
	popq	%rbp
	retq
	vj_end	blake2_ffi..blake2bp..write_1_v2

	vj_function	blake2_digest..wiping..scrub_stack..8704_1_v2
	pushq	%rbx
	subq	$3072, %rsp
	movq	$0, (%rsp)
	subq	$3072, %rsp
	movq	$0, (%rsp)
	subq	$2560, %rsp
	movq	%rsp, %rbx
	movl	$8704, %edx
	movq	%rbx, %rdi
	xorl	%esi, %esi
	vj_c_call	memset
	movq	%rbx, %rdi
	callq	blake2_digest..wiping..settle..8704_1_v2
	addq	$8704, %rsp
	popq	%rbx
	retq
	vj_end	blake2_digest..wiping..scrub_stack..8704_1_v2

	vj_function	blake2_digest..wiping..settle..8704_1_v2
	pxor	%xmm0, %xmm0
	movl	$112, %eax
	pxor	%xmm1, %xmm1
	.p2align	4
1:
	movdqu	-112(%rdi,%rax), %xmm2
	por	%xmm1, %xmm2
	movdqu	-96(%rdi,%rax), %xmm1
	por	%xmm0, %xmm1
	movdqu	-80(%rdi,%rax), %xmm0
	movdqu	-64(%rdi,%rax), %xmm3
	movdqu	-48(%rdi,%rax), %xmm4
	por	%xmm0, %xmm4
	por	%xmm2, %xmm4
	movdqu	-32(%rdi,%rax), %xmm2
	por	%xmm3, %xmm2
	por	%xmm1, %xmm2
	movdqu	-16(%rdi,%rax), %xmm1
	por	%xmm4, %xmm1
	movdqu	(%rdi,%rax), %xmm0
	por	%xmm2, %xmm0
	subq	$-128, %rax
	cmpq	$8816, %rax
	jne	1b
	por	%xmm1, %xmm0
	ptest	%xmm0, %xmm0
	je	2f
	pause
2:
	retq
	vj_end	blake2_digest..wiping..settle..8704_1_v2

	vj_function	blake2_ffi..blake2sp..write_1_v2
	pushq	%rbp
	pushq	%r15
	pushq	%r14
	pushq	%r13
	pushq	%r12
	pushq	%rbx
	subq	$3072, %rsp
	movq	$0, (%rsp)
	subq	$200, %rsp
	movq	%r9, %r12
	movq	%r8, %r13
	movq	%rcx, 24(%rsp)
	movq	%rdx, %r14
	movq	%rsi, %rbp
	movq	%rdi, %r15
	leaq	1664(%rsp), %rbx
	movl	$1608, %edx
	movq	%rbx, %rdi
	xorl	%esi, %esi
	vj_c_call	memset
	leaq	.L1_v2_static.2(%rip), %r8
	movq	%r8, (%rsp)
	movq	$0, 8(%rsp)
	movq	%rbx, %rdi
	movq	%rbp, %rsi
	movq	%r13, %rdx
	movq	%r12, %rcx
	xorl	%r9d, %r9d
	callq	blake2_parallel..blake2sp..State..init_salt_personal_1_v2
	movl	$-1, %ebp
	cmpb	$0, 1664(%rsp)
	jne	1f
	leaq	1672(%rsp), %rsi
	leaq	64(%rsp), %rdi
	movl	$1600, %edx
	vj_c_call	memcpy
	movq	320(%rsp), %rax
	shlq	$3, %rax
	addq	328(%rsp), %rax
	movq	24(%rsp), %rdx
	addq	%rdx, %rax
	jb	1f
	leaq	64(%rsp), %rbx
	movq	%rbx, %rdi
	movq	%r14, %rsi
	vj_call	blake2_parallel..lanes..blake2sp..Lanes..update_1_v2
	leaq	32(%rsp), %r14
	movq	%r14, %rdi
	movq	%rbx, %rsi
	callq	blake2_parallel..blake2sp..State..output_1_v2
	movq	1592(%rsp), %rdx
	movq	%r15, %rdi
	movq	%r14, %rsi
	vj_c_call	memcpy
	xorl	%ebp, %ebp
1:
	movl	%ebp, %eax
	addq	$3272, %rsp
	popq	%rbx
	popq	%r12
	popq	%r13
	popq	%r14
	popq	%r15
	popq	%rbp
	retq
	vj_end	blake2_ffi..blake2sp..write_1_v2

	vj_constants	16
	.p2align	4, 0x0
.L1_v2_CPI97_0:
	.quad	7640891576956012808
	.quad	-4942790177534073029
.L1_v2_CPI97_1:
	.quad	4354685564936845355
	.quad	-6534734903238641935
.L1_v2_CPI97_2:
	.short	64
	.short	257
	.short	0
	.short	0
	.zero	2
	.zero	2
	.zero	2
	.zero	2
.L1_v2_CPI97_3:
	.short	64
	.short	257
	.short	0
	.short	0
	.short	0
	.short	0
	.short	0
	.short	0
	vj_function	blake2_ffi..blake2xb..write_1_v2
	movl	$-1, %eax
	movl	$4294967295, %r10d
	cmpq	%r10, %rsi
	jae	7f
	testq	%rsi, %rsi
	sete	%r10b
	cmpq	$65, %r9
	setae	%r11b
	orb	%r10b, %r11b
	jne	7f
	pushq	%rbp
	pushq	%r15
	pushq	%r14
	pushq	%r13
	pushq	%r12
	pushq	%rbx
	subq	$808, %rsp
	movq	%rdi, %rbx
	movq	%rsi, %xmm0
	psllq	$32, %xmm0
	testq	%r9, %r9
	je	1f
	movl	%r9d, %eax
	shll	$8, %eax
	orl	$16842816, %eax
	movd	%eax, %xmm1
	pmovzxdq	%xmm1, %xmm1
	punpcklqdq	%xmm0, %xmm1
	pxor	.L1_v2_CPI97_0(%rip), %xmm1
	movdqa	%xmm1, 192(%rsp)
	movl	$64, %edi
	subq	%r9, %rdi
	xorl	%eax, %eax
	cmpq	$64, %r9
	cmovbq	%rdi, %rax
	leaq	(%rsp,%r9), %rdi
	movq	%rsi, %r12
	xorl	%esi, %esi
	movq	%rdx, %r13
	movq	%rax, %rdx
	movq	%rcx, %rbp
	movq	%r9, %r14
	movq	%r8, %r15
	vj_c_call	memset
	movq	%rsp, %rdi
	movq	%r15, %rsi
	movq	%r14, %r15
	movq	%r14, %rdx
	vj_c_call	memcpy
	movl	$-1, %eax
	movq	%rbp, %rcx
	movq	%r13, %rdx
	movq	%r12, %rsi
	pxor	%xmm0, %xmm0
	movdqa	%xmm0, 128(%rsp)
	movdqa	%xmm0, 144(%rsp)
	movdqa	%xmm0, 160(%rsp)
	movdqa	%xmm0, 176(%rsp)
	movdqu	(%rsp), %xmm0
	movups	16(%rsp), %xmm1
	movups	32(%rsp), %xmm2
	movups	48(%rsp), %xmm3
	movdqa	%xmm0, 64(%rsp)
	movaps	%xmm1, 80(%rsp)
	movdqa	192(%rsp), %xmm1
	movaps	%xmm2, 96(%rsp)
	movaps	.L1_v2_CPI97_1(%rip), %xmm2
	movaps	%xmm3, 112(%rsp)
	movl	$128, %edi
	jmp	2f
1:
	movq	%r9, %r15
	movd	.L1_v2_CPI97_3(%rip), %xmm1
	punpcklqdq	%xmm0, %xmm1
	pxor	.L1_v2_CPI97_0(%rip), %xmm1
	movaps	.L1_v2_CPI97_1(%rip), %xmm2
	pxor	%xmm0, %xmm0
	movdqa	%xmm0, 176(%rsp)
	movdqa	%xmm0, 160(%rsp)
	movdqa	%xmm0, 144(%rsp)
	movdqa	%xmm0, 128(%rsp)
	movdqa	%xmm0, 112(%rsp)
	movdqa	%xmm0, 96(%rsp)
	movdqa	%xmm0, 80(%rsp)
	movdqa	%xmm0, 64(%rsp)
	movdqa	%xmm0, (%rsp)
	movdqa	%xmm0, 16(%rsp)
	movdqa	%xmm0, 32(%rsp)
	movdqa	%xmm0, 48(%rsp)
	xorl	%edi, %edi
2:
	pxor	%xmm0, %xmm0
	movdqa	%xmm0, 208(%rsp)
	movdqa	%xmm0, 224(%rsp)
	movdqa	%xmm0, 240(%rsp)
	movdqa	%xmm0, 256(%rsp)
	movdqa	%xmm0, 272(%rsp)
	movdqa	%xmm0, 288(%rsp)
	movdqa	%xmm1, 304(%rsp)
	movaps	%xmm2, 320(%rsp)
	movabsq	$5840696475078001361, %r8
	movq	%r8, 336(%rsp)
	movabsq	$-7276294671716946913, %r9
	movq	%r9, 344(%rsp)
	movabsq	$2270897969802886507, %r10
	movq	%r10, 352(%rsp)
	movabsq	$6620516959819538809, %r11
	movq	%r11, 360(%rsp)
	movdqa	%xmm1, 368(%rsp)
	movaps	%xmm2, 384(%rsp)
	movq	%r8, 400(%rsp)
	movq	%r9, 408(%rsp)
	movq	%r10, 416(%rsp)
	movq	%r11, 424(%rsp)
	movq	$0, 432(%rsp)
	movl	%edi, 440(%rsp)
	movl	%edi, 444(%rsp)
	movq	$64, 448(%rsp)
	movaps	176(%rsp), %xmm1
	movups	%xmm1, 568(%rsp)
	movaps	160(%rsp), %xmm1
	movups	%xmm1, 552(%rsp)
	movaps	144(%rsp), %xmm1
	movups	%xmm1, 536(%rsp)
	movaps	128(%rsp), %xmm1
	movups	%xmm1, 520(%rsp)
	movaps	64(%rsp), %xmm1
	movaps	80(%rsp), %xmm2
	movaps	96(%rsp), %xmm3
	movaps	112(%rsp), %xmm4
	movups	%xmm4, 504(%rsp)
	movups	%xmm3, 488(%rsp)
	movups	%xmm2, 472(%rsp)
	movups	%xmm1, 456(%rsp)
	movaps	(%rsp), %xmm1
	movaps	16(%rsp), %xmm2
	movaps	32(%rsp), %xmm3
	movaps	48(%rsp), %xmm4
	movups	%xmm1, 584(%rsp)
	movups	%xmm2, 600(%rsp)
	movups	%xmm3, 616(%rsp)
	movups	%xmm4, 632(%rsp)
	movaps	288(%rsp), %xmm1
	movups	%xmm1, 728(%rsp)
	movaps	272(%rsp), %xmm1
	movups	%xmm1, 712(%rsp)
	movaps	208(%rsp), %xmm1
	movaps	224(%rsp), %xmm2
	movaps	240(%rsp), %xmm3
	movaps	256(%rsp), %xmm4
	movups	%xmm4, 696(%rsp)
	movups	%xmm3, 680(%rsp)
	movups	%xmm2, 664(%rsp)
	movups	%xmm1, 648(%rsp)
	movq	%rsi, 744(%rsp)
	movdqa	%xmm0, 752(%rsp)
	movl	%edi, %edi
	movq	%rdi, %r8
	addq	%rcx, %r8
	jb	6f
	movq	%rsi, %r14
	cmpq	$1, %rcx
	jne	3f
	testq	%r15, %r15
	je	4f
	leaq	304(%rsp), %rdi
	movq	%rdx, %rsi
	movl	$1, %edx
	callq	blake2_state..blake2b..State..absorb_blocks_1_v2
	jmp	5f
3:
	leaq	304(%rsp), %rdi
	movq	%rdx, %rsi
	movq	%rcx, %rdx
	callq	blake2_state..blake2b..State..absorb_blocks_1_v2
	jmp	5f
4:
	movzbl	(%rdx), %eax
	movb	%al, 456(%rsp,%rdi)
	orl	$1, %edi
	movl	%edi, 440(%rsp)
5:
	leaq	304(%rsp), %rdi
	movq	%rbx, %rsi
	movq	%r14, %rdx
	vj_call	blake2_xof..blake2xb..State..squeeze_1_v2
	xorl	%eax, %eax
6:
	addq	$808, %rsp
	popq	%rbx
	popq	%r12
	popq	%r13
	popq	%r14
	popq	%r15
	popq	%rbp
7:
	retq
	vj_end	blake2_ffi..blake2xb..write_1_v2

	vj_function	blake2_digest..wiping..scrub_stack..7168_1_v2
	pushq	%rbx
	subq	$3072, %rsp
	movq	$0, (%rsp)
	subq	$3072, %rsp
	movq	$0, (%rsp)
	subq	$1024, %rsp
	movq	%rsp, %rbx
	movl	$7168, %edx
	movq	%rbx, %rdi
	xorl	%esi, %esi
	vj_c_call	memset
	movq	%rbx, %rdi
	callq	blake2_digest..wiping..settle..7168_1_v2
	addq	$7168, %rsp
	popq	%rbx
	retq
	vj_end	blake2_digest..wiping..scrub_stack..7168_1_v2

	vj_function	blake2_digest..wiping..settle..7168_1_v2
	pxor	%xmm0, %xmm0
	movl	$112, %eax
	pxor	%xmm1, %xmm1
	.p2align	4
1:
	movdqu	-112(%rdi,%rax), %xmm2
	por	%xmm1, %xmm2
	movdqu	-96(%rdi,%rax), %xmm1
	por	%xmm0, %xmm1
	movdqu	-80(%rdi,%rax), %xmm0
	movdqu	-64(%rdi,%rax), %xmm3
	movdqu	-48(%rdi,%rax), %xmm4
	por	%xmm0, %xmm4
	por	%xmm2, %xmm4
	movdqu	-32(%rdi,%rax), %xmm2
	por	%xmm3, %xmm2
	por	%xmm1, %xmm2
	movdqu	-16(%rdi,%rax), %xmm1
	por	%xmm4, %xmm1
	movdqu	(%rdi,%rax), %xmm0
	por	%xmm2, %xmm0
	subq	$-128, %rax
	cmpq	$7280, %rax
	jne	1b
	por	%xmm1, %xmm0
	ptest	%xmm0, %xmm0
	je	2f
	pause
2:
	retq
	vj_end	blake2_digest..wiping..settle..7168_1_v2

	vj_constants	16
	.p2align	4, 0x0
.L1_v2_CPI100_0:
	.short	32
	.short	257
	.short	0
	.short	0
	.zero	2
	.zero	2
	.zero	2
	.zero	2
.L1_v2_CPI100_1:
	.long	1779033703
	.long	3144134277
	.long	1013904242
	.long	2773480762
.L1_v2_CPI100_2:
	.long	1359893119
	.long	2600822924
	.long	528734635
	.long	1541459225
.L1_v2_CPI100_3:
	.short	32
	.short	257
	.short	0
	.short	0
	.short	0
	.short	0
	.short	0
	.short	0
	vj_function	blake2_ffi..blake2xs..write_1_v2
	movl	$-1, %eax
	cmpq	$65535, %rsi
	jae	7f
	testq	%rsi, %rsi
	sete	%r10b
	cmpq	$33, %r9
	setae	%r11b
	orb	%r10b, %r11b
	jne	7f
	pushq	%rbp
	pushq	%r15
	pushq	%r14
	pushq	%r13
	pushq	%r12
	pushq	%rbx
	subq	$360, %rsp
	movq	%rdi, %rbx
	movq	%rsi, %rdi
	shlq	$32, %rdi
	testq	%r9, %r9
	je	1f
	movl	%r9d, %eax
	shll	$8, %eax
	orl	$16842784, %eax
	movd	%eax, %xmm0
	pmovzxdq	%xmm0, %xmm1
	movq	%rdi, %xmm0
	punpcklqdq	%xmm0, %xmm1
	pxor	%xmm0, %xmm0
	pblendw	$128, %xmm0, %xmm1
	movdqa	%xmm1, 96(%rsp)
	movl	$32, %edi
	subq	%r9, %rdi
	xorl	%eax, %eax
	cmpq	$32, %r9
	cmovbq	%rdi, %rax
	leaq	(%rsp,%r9), %rdi
	movq	%rsi, %r12
	xorl	%esi, %esi
	movq	%rdx, %r13
	movq	%rax, %rdx
	movq	%rcx, %rbp
	movq	%r9, %r14
	movq	%r8, %r15
	vj_c_call	memset
	movq	%rsp, %rdi
	movq	%r15, %rsi
	movq	%r14, %r15
	movq	%r14, %rdx
	vj_c_call	memcpy
	movl	$-1, %eax
	movq	%rbp, %rcx
	movq	%r13, %rdx
	movq	%r12, %rsi
	pxor	%xmm0, %xmm0
	movdqa	%xmm0, 64(%rsp)
	movdqa	%xmm0, 80(%rsp)
	movdqu	(%rsp), %xmm0
	movups	16(%rsp), %xmm1
	movdqa	%xmm0, 32(%rsp)
	movaps	%xmm1, 48(%rsp)
	movdqa	96(%rsp), %xmm1
	movw	$64, %di
	jmp	2f
1:
	movq	%r9, %r15
	movq	%rdi, %xmm0
	movd	.L1_v2_CPI100_3(%rip), %xmm1
	punpcklqdq	%xmm0, %xmm1
	pxor	%xmm0, %xmm0
	pblendw	$128, %xmm0, %xmm1
	movdqa	%xmm0, 80(%rsp)
	movdqa	%xmm0, 64(%rsp)
	movdqa	%xmm0, 48(%rsp)
	movdqa	%xmm0, 32(%rsp)
	movdqa	%xmm0, (%rsp)
	movdqa	%xmm0, 16(%rsp)
	xorl	%edi, %edi
2:
	pxor	.L1_v2_CPI100_1(%rip), %xmm1
	movdqa	%xmm1, 112(%rsp)
	movaps	.L1_v2_CPI100_2(%rip), %xmm0
	movaps	%xmm0, 128(%rsp)
	movdqa	%xmm1, 144(%rsp)
	movaps	%xmm0, 160(%rsp)
	movq	$0, 176(%rsp)
	movw	%di, 184(%rsp)
	movw	%di, 186(%rsp)
	movl	$32, 188(%rsp)
	movaps	32(%rsp), %xmm0
	movaps	48(%rsp), %xmm1
	movaps	64(%rsp), %xmm2
	movaps	80(%rsp), %xmm3
	movaps	%xmm0, 192(%rsp)
	movaps	%xmm1, 208(%rsp)
	movaps	%xmm2, 224(%rsp)
	movaps	%xmm3, 240(%rsp)
	movaps	(%rsp), %xmm0
	movaps	16(%rsp), %xmm1
	movaps	%xmm0, 256(%rsp)
	movaps	%xmm1, 272(%rsp)
	xorps	%xmm0, %xmm0
	movaps	%xmm0, 320(%rsp)
	movaps	%xmm0, 304(%rsp)
	movaps	%xmm0, 288(%rsp)
	movq	%rsi, 336(%rsp)
	movups	%xmm0, 344(%rsp)
	movzwl	%di, %edi
	movq	%rdi, %r8
	addq	%rcx, %r8
	jb	6f
	movq	%rsi, %r14
	cmpq	$1, %rcx
	jne	3f
	testq	%r15, %r15
	je	4f
	leaq	112(%rsp), %rdi
	movq	%rdx, %rsi
	movl	$1, %edx
	callq	blake2_state..blake2s..State..absorb_blocks_1_v2
	jmp	5f
3:
	leaq	112(%rsp), %rdi
	movq	%rdx, %rsi
	movq	%rcx, %rdx
	callq	blake2_state..blake2s..State..absorb_blocks_1_v2
	jmp	5f
4:
	movzbl	(%rdx), %eax
	movb	%al, 192(%rsp,%rdi)
	orl	$1, %edi
	movw	%di, 184(%rsp)
5:
	leaq	112(%rsp), %rdi
	movq	%rbx, %rsi
	movq	%r14, %rdx
	vj_call	blake2_xof..blake2xs..State..squeeze_1_v2
	xorl	%eax, %eax
6:
	addq	$360, %rsp
	popq	%rbx
	popq	%r12
	popq	%r13
	popq	%r14
	popq	%r15
	popq	%rbp
7:
	retq
	vj_end	blake2_ffi..blake2xs..write_1_v2

	vj_function	blake2_ffi..blake2b..write_keyed_1_v2
	movl	$-1, %eax
	cmpq	$-129, %rcx
	ja	1f
	leaq	-65(%rsi), %r10
	cmpq	$-64, %r10
	jb	1f
	cmpq	$65, %r9
	jae	1f
	subq	$24, %rsp
	movq	$1, (%rsp)
	movq	%r8, 8(%rsp)
	movq	%r9, 16(%rsp)
	movq	%rsp, %r8
	callq	blake2_ffi..blake2b..write_digest_1_v2
	xorl	%eax, %eax
	addq	$24, %rsp
1:
	retq
	vj_end	blake2_ffi..blake2b..write_keyed_1_v2

	vj_function	blake2_digest..wiping..scrub_stack..1536_1_v2
	pushq	%rbx
	subq	$1536, %rsp
	movq	%rsp, %rbx
	movl	$1536, %edx
	movq	%rbx, %rdi
	xorl	%esi, %esi
	vj_c_call	memset
	movq	%rbx, %rdi
	callq	blake2_digest..wiping..settle..1536_1_v2
	addq	$1536, %rsp
	popq	%rbx
	retq
	vj_end	blake2_digest..wiping..scrub_stack..1536_1_v2

	vj_function	blake2_digest..wiping..settle..1536_1_v2
	movdqu	(%rdi), %xmm0
	movdqu	16(%rdi), %xmm1
	movdqu	32(%rdi), %xmm2
	por	%xmm0, %xmm2
	movdqu	48(%rdi), %xmm0
	por	%xmm1, %xmm0
	movdqu	64(%rdi), %xmm1
	movdqu	80(%rdi), %xmm3
	movdqu	96(%rdi), %xmm4
	por	%xmm1, %xmm4
	por	%xmm2, %xmm4
	movdqu	112(%rdi), %xmm1
	por	%xmm3, %xmm1
	por	%xmm0, %xmm1
	movdqu	128(%rdi), %xmm0
	movdqu	144(%rdi), %xmm2
	movdqu	160(%rdi), %xmm3
	por	%xmm0, %xmm3
	movdqu	176(%rdi), %xmm0
	por	%xmm2, %xmm0
	movdqu	192(%rdi), %xmm2
	por	%xmm3, %xmm2
	por	%xmm4, %xmm2
	movdqu	208(%rdi), %xmm4
	por	%xmm0, %xmm4
	por	%xmm1, %xmm4
	movdqu	224(%rdi), %xmm0
	movdqu	240(%rdi), %xmm1
	movdqu	256(%rdi), %xmm3
	por	%xmm0, %xmm3
	movdqu	272(%rdi), %xmm0
	por	%xmm1, %xmm0
	movdqu	288(%rdi), %xmm1
	por	%xmm3, %xmm1
	movdqu	304(%rdi), %xmm5
	por	%xmm0, %xmm5
	movdqu	320(%rdi), %xmm0
	por	%xmm1, %xmm0
	por	%xmm2, %xmm0
	movdqu	336(%rdi), %xmm3
	por	%xmm5, %xmm3
	por	%xmm4, %xmm3
	movdqu	352(%rdi), %xmm1
	movdqu	368(%rdi), %xmm2
	movdqu	384(%rdi), %xmm4
	por	%xmm1, %xmm4
	movdqu	400(%rdi), %xmm1
	por	%xmm2, %xmm1
	movdqu	416(%rdi), %xmm2
	por	%xmm4, %xmm2
	movdqu	432(%rdi), %xmm4
	por	%xmm1, %xmm4
	movdqu	448(%rdi), %xmm5
	por	%xmm2, %xmm5
	movdqu	464(%rdi), %xmm6
	por	%xmm4, %xmm6
	movdqu	480(%rdi), %xmm1
	por	%xmm5, %xmm1
	por	%xmm0, %xmm1
	movdqu	496(%rdi), %xmm2
	por	%xmm6, %xmm2
	por	%xmm3, %xmm2
	movdqu	512(%rdi), %xmm0
	movdqu	528(%rdi), %xmm3
	movdqu	544(%rdi), %xmm4
	por	%xmm0, %xmm4
	movdqu	560(%rdi), %xmm0
	por	%xmm3, %xmm0
	movdqu	576(%rdi), %xmm3
	por	%xmm4, %xmm3
	movdqu	592(%rdi), %xmm4
	por	%xmm0, %xmm4
	movdqu	608(%rdi), %xmm0
	por	%xmm3, %xmm0
	movdqu	624(%rdi), %xmm3
	por	%xmm4, %xmm3
	movdqu	640(%rdi), %xmm4
	por	%xmm0, %xmm4
	movdqu	656(%rdi), %xmm5
	por	%xmm3, %xmm5
	movdqu	672(%rdi), %xmm0
	por	%xmm4, %xmm0
	por	%xmm1, %xmm0
	movdqu	688(%rdi), %xmm3
	por	%xmm5, %xmm3
	por	%xmm2, %xmm3
	movdqu	704(%rdi), %xmm1
	movdqu	720(%rdi), %xmm2
	movdqu	736(%rdi), %xmm4
	por	%xmm1, %xmm4
	movdqu	752(%rdi), %xmm1
	por	%xmm2, %xmm1
	movdqu	768(%rdi), %xmm2
	por	%xmm4, %xmm2
	movdqu	784(%rdi), %xmm4
	por	%xmm1, %xmm4
	movdqu	800(%rdi), %xmm1
	por	%xmm2, %xmm1
	movdqu	816(%rdi), %xmm2
	por	%xmm4, %xmm2
	movdqu	832(%rdi), %xmm4
	por	%xmm1, %xmm4
	movdqu	848(%rdi), %xmm1
	por	%xmm2, %xmm1
	movdqu	864(%rdi), %xmm2
	por	%xmm4, %xmm2
	movdqu	880(%rdi), %xmm4
	por	%xmm1, %xmm4
	movdqu	896(%rdi), %xmm1
	por	%xmm2, %xmm1
	por	%xmm0, %xmm1
	movdqu	912(%rdi), %xmm2
	por	%xmm4, %xmm2
	por	%xmm3, %xmm2
	movdqu	928(%rdi), %xmm0
	movdqu	944(%rdi), %xmm3
	movdqu	960(%rdi), %xmm4
	por	%xmm0, %xmm4
	movdqu	976(%rdi), %xmm0
	por	%xmm3, %xmm0
	movdqu	992(%rdi), %xmm3
	por	%xmm4, %xmm3
	movdqu	1008(%rdi), %xmm4
	por	%xmm0, %xmm4
	movdqu	1024(%rdi), %xmm0
	por	%xmm3, %xmm0
	movdqu	1040(%rdi), %xmm3
	por	%xmm4, %xmm3
	movdqu	1056(%rdi), %xmm4
	por	%xmm0, %xmm4
	movdqu	1072(%rdi), %xmm0
	por	%xmm3, %xmm0
	movdqu	1088(%rdi), %xmm3
	por	%xmm4, %xmm3
	movdqu	1104(%rdi), %xmm4
	por	%xmm0, %xmm4
	movdqu	1120(%rdi), %xmm5
	por	%xmm3, %xmm5
	movdqu	1136(%rdi), %xmm3
	por	%xmm4, %xmm3
	movdqu	1152(%rdi), %xmm0
	por	%xmm5, %xmm0
	por	%xmm1, %xmm0
	movdqu	1168(%rdi), %xmm1
	por	%xmm3, %xmm1
	por	%xmm2, %xmm1
	movdqu	1184(%rdi), %xmm2
	movdqu	1200(%rdi), %xmm3
	movdqu	1216(%rdi), %xmm4
	por	%xmm2, %xmm4
	movdqu	1232(%rdi), %xmm2
	por	%xmm3, %xmm2
	movdqu	1248(%rdi), %xmm3
	por	%xmm4, %xmm3
	movdqu	1264(%rdi), %xmm4
	por	%xmm2, %xmm4
	movdqu	1280(%rdi), %xmm2
	por	%xmm3, %xmm2
	movdqu	1296(%rdi), %xmm3
	por	%xmm4, %xmm3
	movdqu	1312(%rdi), %xmm4
	por	%xmm2, %xmm4
	movdqu	1328(%rdi), %xmm2
	por	%xmm3, %xmm2
	movdqu	1344(%rdi), %xmm3
	por	%xmm4, %xmm3
	movdqu	1360(%rdi), %xmm4
	por	%xmm2, %xmm4
	movdqu	1376(%rdi), %xmm2
	por	%xmm3, %xmm2
	movdqu	1392(%rdi), %xmm3
	por	%xmm4, %xmm3
	movdqu	1408(%rdi), %xmm4
	por	%xmm2, %xmm4
	movdqu	1424(%rdi), %xmm2
	por	%xmm3, %xmm2
	movdqu	1440(%rdi), %xmm3
	por	%xmm4, %xmm3
	por	%xmm0, %xmm3
	movdqu	1456(%rdi), %xmm0
	por	%xmm2, %xmm0
	por	%xmm1, %xmm0
	movdqu	1472(%rdi), %xmm1
	movdqu	1488(%rdi), %xmm2
	movdqu	1504(%rdi), %xmm4
	por	%xmm1, %xmm4
	por	%xmm3, %xmm4
	movdqu	1520(%rdi), %xmm1
	por	%xmm2, %xmm1
	por	%xmm0, %xmm1
	por	%xmm4, %xmm1
	ptest	%xmm1, %xmm1
	je	1f
	pause
1:
	retq
	vj_end	blake2_digest..wiping..settle..1536_1_v2

	vj_function	blake2_compress..whole..blake2b..absorb_keyed_1_v2
	pushq	%rbp
	pushq	%r15
	pushq	%r14
	pushq	%r13
	pushq	%r12
	pushq	%rbx
	subq	$264, %rsp
	movq	%r8, %r14
	movq	%rcx, %r15
	movq	%rdi, %rbx
	xorps	%xmm0, %xmm0
	movaps	%xmm0, 112(%rsp)
	movaps	%xmm0, 96(%rsp)
	movaps	%xmm0, 80(%rsp)
	movaps	%xmm0, 64(%rsp)
	movaps	%xmm0, 48(%rsp)
	movaps	%xmm0, 32(%rsp)
	movaps	%xmm0, 16(%rsp)
	movaps	%xmm0, (%rsp)
	movq	%rsp, %rdi
	vj_c_call	memcpy
	movq	%rsp, %rsi
	movl	$128, %edx
	testq	%r14, %r14
	je	3f
	movq	%rbx, %rdi
	xorl	%ecx, %ecx
	xorl	%r8d, %r8d
	vj_call	blake2_compress..compress..blake2b..compress_1_v2
	leaq	-1(%r14), %r13
	movq	%r13, %rbp
	shrq	$7, %rbp
	je	2f
	movl	$256, %r12d
	.p2align	4
1:
	leaq	(%r15,%r12), %rsi
	addq	$-256, %rsi
	movq	%rbx, %rdi
	movq	%r12, %rdx
	xorl	%ecx, %ecx
	xorl	%r8d, %r8d
	vj_call	blake2_compress..compress..blake2b..compress_1_v2
	subq	$-128, %r12
	decq	%rbp
	jne	1b
2:
	andq	$-128, %r13
	addq	%r13, %r15
	movq	%r14, %rdx
	subq	%r13, %rdx
	xorps	%xmm0, %xmm0
	movaps	%xmm0, 240(%rsp)
	movaps	%xmm0, 224(%rsp)
	movaps	%xmm0, 208(%rsp)
	movaps	%xmm0, 192(%rsp)
	movaps	%xmm0, 176(%rsp)
	movaps	%xmm0, 160(%rsp)
	movaps	%xmm0, 144(%rsp)
	movaps	%xmm0, 128(%rsp)
	leaq	128(%rsp), %r12
	movq	%r12, %rdi
	movq	%r15, %rsi
	vj_c_call	memcpy
	subq	$-128, %r14
	movq	%rbx, %rdi
	movq	%r12, %rsi
	movq	%r14, %rdx
	jmp	4f
3:
	movq	%rbx, %rdi
4:
	movl	$1, %ecx
	xorl	%r8d, %r8d
	vj_call	blake2_compress..compress..blake2b..compress_1_v2
	addq	$264, %rsp
	popq	%rbx
	popq	%r12
	popq	%r13
	popq	%r14
	popq	%r15
	popq	%rbp
	retq
	vj_end	blake2_compress..whole..blake2b..absorb_keyed_1_v2

	vj_constants	16
	.p2align	4, 0x0
.L1_v2_CPI105_0:
	.quad	7640891576956012808
	.quad	-4942790177534073029
.L1_v2_CPI105_1:
	.quad	4354685564936845355
	.quad	-6534734903238641935
.L1_v2_CPI105_2:
	.quad	2270897969802886507
	.quad	6620516959819538809
.L1_v2_CPI105_3:
	.quad	5840696475078001361
	.quad	-7276294671716946913
	vj_function	blake2_ffi..blake2b..write_digest_1_v2
	pushq	%rbp
	pushq	%r15
	pushq	%r14
	pushq	%r13
	pushq	%r12
	pushq	%rbx
	subq	$280, %rsp
	movq	%rcx, %r14
	movq	%rdx, %r12
	movq	%rsi, %rbx
	movq	%rdi, %r15
	movq	8(%r8), %rsi
	movq	16(%r8), %rdx
	movzbl	(%r8), %eax
	movl	%edx, %ecx
	shll	$8, %ecx
	movzwl	%cx, %ecx
	orl	$16842752, %ecx
	testb	%al, %al
	movl	$16842752, %edi
	cmovnel	%ecx, %edi
	movzbl	%bl, %ecx
	orl	%edi, %ecx
	xorps	%xmm0, %xmm0
	movaps	%xmm0, 128(%rsp)
	movaps	%xmm0, 112(%rsp)
	movaps	%xmm0, 96(%rsp)
	movaps	%xmm0, 80(%rsp)
	movd	%ecx, %xmm0
	pxor	.L1_v2_CPI105_0(%rip), %xmm0
	movaps	.L1_v2_CPI105_1(%rip), %xmm1
	movups	%xmm1, 32(%rsp)
	movdqu	%xmm0, 16(%rsp)
	movaps	.L1_v2_CPI105_2(%rip), %xmm0
	movups	%xmm0, 64(%rsp)
	movaps	.L1_v2_CPI105_3(%rip), %xmm0
	movups	%xmm0, 48(%rsp)
	testb	%al, %al
	je	1f
	leaq	16(%rsp), %rdi
	movq	%r12, %rcx
	movq	%r14, %r8
	callq	blake2_compress..whole..blake2b..absorb_keyed_1_v2
	jmp	4f
1:
	movq	%r15, 8(%rsp)
	cmpq	$1, %r14
	movq	%r14, %r15
	adcq	$-1, %r15
	movq	%r15, %rbp
	shrq	$7, %rbp
	je	3f
	movl	$128, %r13d
	.p2align	4
2:
	leaq	(%r12,%r13), %rsi
	addq	$-128, %rsi
	leaq	16(%rsp), %rdi
	movq	%r13, %rdx
	xorl	%ecx, %ecx
	xorl	%r8d, %r8d
	vj_call	blake2_compress..compress..blake2b..compress_1_v2
	subq	$-128, %r13
	decq	%rbp
	jne	2b
3:
	andq	$-128, %r15
	addq	%r15, %r12
	movq	%r14, %rdx
	subq	%r15, %rdx
	xorps	%xmm0, %xmm0
	movaps	%xmm0, 256(%rsp)
	movaps	%xmm0, 240(%rsp)
	movaps	%xmm0, 224(%rsp)
	movaps	%xmm0, 208(%rsp)
	movaps	%xmm0, 192(%rsp)
	movaps	%xmm0, 176(%rsp)
	movaps	%xmm0, 160(%rsp)
	movaps	%xmm0, 144(%rsp)
	leaq	144(%rsp), %r13
	movq	%r13, %rdi
	movq	%r12, %rsi
	vj_c_call	memcpy
	leaq	16(%rsp), %rdi
	movq	%r13, %rsi
	movq	%r14, %rdx
	movl	$1, %ecx
	xorl	%r8d, %r8d
	vj_call	blake2_compress..compress..blake2b..compress_1_v2
	movq	8(%rsp), %r15
4:
	movups	16(%rsp), %xmm0
	movups	32(%rsp), %xmm1
	movups	48(%rsp), %xmm2
	movups	64(%rsp), %xmm3
	movaps	%xmm0, 80(%rsp)
	movaps	%xmm1, 96(%rsp)
	movaps	%xmm2, 112(%rsp)
	movaps	%xmm3, 128(%rsp)
	leaq	80(%rsp), %rsi
	movq	%r15, %rdi
	movq	%rbx, %rdx
	vj_c_call	memcpy
	addq	$280, %rsp
	popq	%rbx
	popq	%r12
	popq	%r13
	popq	%r14
	popq	%r15
	popq	%rbp
	retq
	vj_end	blake2_ffi..blake2b..write_digest_1_v2

	vj_function	blake2_ffi..blake2s..write_keyed_1_v2
	movl	$-1, %eax
	cmpq	$-65, %rcx
	ja	1f
	leaq	-33(%rsi), %r10
	cmpq	$-32, %r10
	jb	1f
	cmpq	$33, %r9
	jae	1f
	subq	$24, %rsp
	movq	$1, (%rsp)
	movq	%r8, 8(%rsp)
	movq	%r9, 16(%rsp)
	movq	%rsp, %r8
	callq	blake2_ffi..blake2s..write_digest_1_v2
	xorl	%eax, %eax
	addq	$24, %rsp
1:
	retq
	vj_end	blake2_ffi..blake2s..write_keyed_1_v2

	vj_function	blake2_compress..whole..blake2s..absorb_keyed_1_v2
	pushq	%rbp
	pushq	%r15
	pushq	%r14
	pushq	%r13
	pushq	%r12
	pushq	%rbx
	subq	$136, %rsp
	movq	%r8, %r14
	movq	%rcx, %r15
	movq	%rdi, %rbx
	xorps	%xmm0, %xmm0
	movaps	%xmm0, 48(%rsp)
	movaps	%xmm0, 32(%rsp)
	movaps	%xmm0, 16(%rsp)
	movaps	%xmm0, (%rsp)
	movq	%rsp, %rdi
	vj_c_call	memcpy
	movq	%rsp, %rsi
	movl	$64, %edx
	testq	%r14, %r14
	je	3f
	movq	%rbx, %rdi
	xorl	%ecx, %ecx
	xorl	%r8d, %r8d
	vj_call	blake2_compress..compress..blake2s..compress_1_v2
	leaq	-1(%r14), %r13
	movq	%r13, %rbp
	shrq	$6, %rbp
	je	2f
	movl	$128, %r12d
	.p2align	4
1:
	leaq	(%r15,%r12), %rsi
	addq	$-128, %rsi
	movq	%rbx, %rdi
	movq	%r12, %rdx
	xorl	%ecx, %ecx
	xorl	%r8d, %r8d
	vj_call	blake2_compress..compress..blake2s..compress_1_v2
	addq	$64, %r12
	decq	%rbp
	jne	1b
2:
	andq	$-64, %r13
	addq	%r13, %r15
	movq	%r14, %rdx
	subq	%r13, %rdx
	xorps	%xmm0, %xmm0
	movaps	%xmm0, 112(%rsp)
	movaps	%xmm0, 96(%rsp)
	movaps	%xmm0, 80(%rsp)
	movaps	%xmm0, 64(%rsp)
	leaq	64(%rsp), %r12
	movq	%r12, %rdi
	movq	%r15, %rsi
	vj_c_call	memcpy
	addq	$64, %r14
	movq	%rbx, %rdi
	movq	%r12, %rsi
	movq	%r14, %rdx
	jmp	4f
3:
	movq	%rbx, %rdi
4:
	movl	$1, %ecx
	xorl	%r8d, %r8d
	vj_call	blake2_compress..compress..blake2s..compress_1_v2
	addq	$136, %rsp
	popq	%rbx
	popq	%r12
	popq	%r13
	popq	%r14
	popq	%r15
	popq	%rbp
	retq
	vj_end	blake2_compress..whole..blake2s..absorb_keyed_1_v2

	vj_constants	16
	.p2align	4, 0x0
.L1_v2_CPI108_0:
	.long	1779033703
	.long	3144134277
	.long	1013904242
	.long	2773480762
.L1_v2_CPI108_1:
	.long	1359893119
	.long	2600822924
	.long	528734635
	.long	1541459225
	vj_function	blake2_ffi..blake2s..write_digest_1_v2
	pushq	%rbp
	pushq	%r15
	pushq	%r14
	pushq	%r13
	pushq	%r12
	pushq	%rbx
	subq	$152, %rsp
	movq	%rcx, %r14
	movq	%rdx, %r12
	movq	%rsi, %rbx
	movq	%rdi, %r15
	movq	8(%r8), %rsi
	movq	16(%r8), %rdx
	movzbl	(%r8), %eax
	movl	%edx, %ecx
	shll	$8, %ecx
	movzwl	%cx, %ecx
	orl	$16842752, %ecx
	testb	%al, %al
	movl	$16842752, %edi
	cmovnel	%ecx, %edi
	movzbl	%bl, %ecx
	orl	%edi, %ecx
	xorps	%xmm0, %xmm0
	movaps	%xmm0, 64(%rsp)
	movaps	%xmm0, 48(%rsp)
	movd	%ecx, %xmm0
	pxor	.L1_v2_CPI108_0(%rip), %xmm0
	movdqa	%xmm0, 16(%rsp)
	movaps	.L1_v2_CPI108_1(%rip), %xmm0
	movaps	%xmm0, 32(%rsp)
	testb	%al, %al
	je	1f
	leaq	16(%rsp), %rdi
	movq	%r12, %rcx
	movq	%r14, %r8
	callq	blake2_compress..whole..blake2s..absorb_keyed_1_v2
	jmp	4f
1:
	movq	%r15, 8(%rsp)
	cmpq	$1, %r14
	movq	%r14, %r15
	adcq	$-1, %r15
	movq	%r15, %rbp
	shrq	$6, %rbp
	je	3f
	movl	$64, %r13d
	.p2align	4
2:
	leaq	(%r12,%r13), %rsi
	addq	$-64, %rsi
	leaq	16(%rsp), %rdi
	movq	%r13, %rdx
	xorl	%ecx, %ecx
	xorl	%r8d, %r8d
	vj_call	blake2_compress..compress..blake2s..compress_1_v2
	addq	$64, %r13
	decq	%rbp
	jne	2b
3:
	andq	$-64, %r15
	addq	%r15, %r12
	movq	%r14, %rdx
	subq	%r15, %rdx
	xorps	%xmm0, %xmm0
	movaps	%xmm0, 128(%rsp)
	movaps	%xmm0, 112(%rsp)
	movaps	%xmm0, 96(%rsp)
	movaps	%xmm0, 80(%rsp)
	leaq	80(%rsp), %r13
	movq	%r13, %rdi
	movq	%r12, %rsi
	vj_c_call	memcpy
	leaq	16(%rsp), %rdi
	movq	%r13, %rsi
	movq	%r14, %rdx
	movl	$1, %ecx
	xorl	%r8d, %r8d
	vj_call	blake2_compress..compress..blake2s..compress_1_v2
	movq	8(%rsp), %r15
4:
	movaps	16(%rsp), %xmm0
	movaps	32(%rsp), %xmm1
	movaps	%xmm0, 48(%rsp)
	movaps	%xmm1, 64(%rsp)
	leaq	48(%rsp), %rsi
	movq	%r15, %rdi
	movq	%rbx, %rdx
	vj_c_call	memcpy
	addq	$152, %rsp
	popq	%rbx
	popq	%r12
	popq	%r13
	popq	%r14
	popq	%r15
	popq	%rbp
	retq
	vj_end	blake2_ffi..blake2s..write_digest_1_v2

	vj_constants	16
	.p2align	4, 0x0
.L1_v2_CPI109_0:
	.quad	7640891576956012808
	.quad	-4942790177534073029
.L1_v2_CPI109_1:
	.quad	4354685564936845355
	.quad	-6534734903238641935
.L1_v2_CPI109_2:
	.quad	5840696475078001361
	.quad	-7276294671716946913
.L1_v2_CPI109_3:
	.quad	2270897969802886507
	.quad	6620516959819538809
	vj_function	blake2_ffi..blake2b..many..write_all_1_v2
	pushq	%rbp
	movq	%rsp, %rbp
	pushq	%r15
	pushq	%r14
	pushq	%r13
	pushq	%r12
	pushq	%rbx
	andq	$-32, %rsp
	subq	$704, %rsp
	movq	%rdi, 168(%rsp)
	testq	%r8, %r8
	je	9f
	movq	%rcx, %r14
	movq	%rdx, %r9
	addq	$8, %r14
	xorl	%r15d, %r15d
	movq	%rdx, 152(%rsp)
	movq	%r8, 160(%rsp)
	jmp	5f
	.p2align	4
1:
	leaq	336(%rsp), %rdi
2:
	movq	24(%rsp), %rsi
	callq	blake2_state..blake2b..State..absorb_blocks_1_v2
3:
	imulq	%r15, %r13
	addq	168(%rsp), %r13
	leaq	336(%rsp), %rdi
	movq	%r13, %rsi
	callq	blake2_state..blake2b..State..write_digest_1_v2
	movq	160(%rsp), %r8
	movq	152(%rsp), %r9
4:
	incq	%r15
	addq	$16, %r14
	cmpq	%r15, %r8
	je	9f
5:
	movq	(%r9), %r13
	movq	16(%r9), %r12
	movq	32(%r9), %rdx
	movq	48(%r9), %rbx
	leaq	-1(%r13), %rax
	cmpq	$64, %rax
	setb	%al
	cmpq	$65, %r12
	setb	%cl
	cmpq	$17, %rdx
	setb	%sil
	andb	%cl, %sil
	andb	%al, %sil
	cmpq	$17, %rbx
	setb	%al
	andb	%sil, %al
	cmpb	$1, %al
	jne	4b
	movq	-8(%r14), %rax
	movq	%rax, 24(%rsp)
	movq	(%r14), %rax
	movq	%rax, 184(%rsp)
	movq	24(%r9), %rsi
	movq	40(%r9), %rax
	movq	%rax, 128(%rsp)
	testq	%r12, %r12
	je	6f
	movq	8(%r9), %rax
	movq	%rax, 176(%rsp)
	xorps	%xmm0, %xmm0
	movaps	%xmm0, 48(%rsp)
	movaps	%xmm0, 32(%rsp)
	movl	%r12d, %eax
	shll	$8, %eax
	addl	%r13d, %eax
	addl	$16842752, %eax
	movd	%eax, %xmm0
	movdqa	%xmm0, 112(%rsp)
	leaq	32(%rsp), %rdi
	vj_c_call	memcpy
	leaq	48(%rsp), %rdi
	movq	128(%rsp), %rsi
	movq	%rbx, %rdx
	vj_c_call	memcpy
	movaps	32(%rsp), %xmm1
	movaps	48(%rsp), %xmm2
	movaps	112(%rsp), %xmm0
	xorps	.L1_v2_CPI109_0(%rip), %xmm0
	movaps	%xmm0, 112(%rsp)
	xorps	.L1_v2_CPI109_2(%rip), %xmm1
	movaps	%xmm1, 128(%rsp)
	xorps	.L1_v2_CPI109_3(%rip), %xmm2
	movaps	%xmm2, 320(%rsp)
	movl	$64, %eax
	subq	%r12, %rax
	xorl	%edx, %edx
	cmpq	$64, %r12
	cmovbq	%rax, %rdx
	leaq	(%rsp,%r12), %rdi
	addq	$32, %rdi
	xorl	%esi, %esi
	vj_c_call	memset
	leaq	32(%rsp), %rdi
	movq	176(%rsp), %rsi
	movq	%r12, %rdx
	vj_c_call	memcpy
	leaq	256(%rsp), %rax
	xorps	%xmm0, %xmm0
	movups	%xmm0, (%rax)
	movups	%xmm0, 16(%rax)
	movups	%xmm0, 32(%rax)
	movups	%xmm0, 48(%rax)
	movups	32(%rsp), %xmm0
	movups	48(%rsp), %xmm1
	movups	64(%rsp), %xmm2
	movups	80(%rsp), %xmm3
	movaps	%xmm3, 240(%rsp)
	movaps	.L1_v2_CPI109_1(%rip), %xmm3
	movaps	%xmm2, 224(%rsp)
	movaps	320(%rsp), %xmm2
	movaps	%xmm1, 208(%rsp)
	movaps	128(%rsp), %xmm1
	movaps	%xmm0, 192(%rsp)
	movaps	112(%rsp), %xmm0
	movl	$128, %eax
	jmp	7f
6:
	xorps	%xmm0, %xmm0
	movaps	%xmm0, 48(%rsp)
	movaps	%xmm0, 32(%rsp)
	movl	%r13d, %eax
	orl	$16842752, %eax
	movd	%eax, %xmm0
	movdqa	%xmm0, 112(%rsp)
	leaq	32(%rsp), %rdi
	vj_c_call	memcpy
	leaq	48(%rsp), %rdi
	movq	128(%rsp), %rsi
	movq	%rbx, %rdx
	vj_c_call	memcpy
	movaps	112(%rsp), %xmm0
	movaps	32(%rsp), %xmm1
	movaps	48(%rsp), %xmm2
	xorps	.L1_v2_CPI109_0(%rip), %xmm0
	xorps	.L1_v2_CPI109_2(%rip), %xmm1
	movaps	.L1_v2_CPI109_1(%rip), %xmm3
	xorps	.L1_v2_CPI109_3(%rip), %xmm2
	xorps	%xmm4, %xmm4
	movaps	%xmm4, 192(%rsp)
	movaps	%xmm4, 208(%rsp)
	movaps	%xmm4, 224(%rsp)
	movaps	%xmm4, 240(%rsp)
	movaps	%xmm4, 256(%rsp)
	movaps	%xmm4, 272(%rsp)
	movaps	%xmm4, 288(%rsp)
	movaps	%xmm4, 304(%rsp)
	movaps	%xmm4, 32(%rsp)
	movaps	%xmm4, 48(%rsp)
	movaps	%xmm4, 64(%rsp)
	movaps	%xmm4, 80(%rsp)
	xorl	%eax, %eax
7:
	movaps	%xmm0, 336(%rsp)
	movaps	%xmm3, 352(%rsp)
	movaps	%xmm1, 368(%rsp)
	movaps	%xmm2, 384(%rsp)
	movaps	%xmm0, 400(%rsp)
	movaps	%xmm3, 416(%rsp)
	movaps	%xmm1, 432(%rsp)
	movaps	%xmm2, 448(%rsp)
	movq	$0, 464(%rsp)
	movl	%eax, 472(%rsp)
	movl	%eax, 476(%rsp)
	movl	%r13d, 480(%rsp)
	movl	$0, 484(%rsp)
	movaps	304(%rsp), %xmm0
	leaq	488(%rsp), %rcx
	movups	%xmm0, 112(%rcx)
	movaps	288(%rsp), %xmm0
	movups	%xmm0, 96(%rcx)
	movaps	272(%rsp), %xmm0
	movups	%xmm0, 80(%rcx)
	movaps	256(%rsp), %xmm0
	movups	%xmm0, 64(%rcx)
	movaps	192(%rsp), %xmm0
	movaps	208(%rsp), %xmm1
	movaps	224(%rsp), %xmm2
	movaps	240(%rsp), %xmm3
	movups	%xmm3, 48(%rcx)
	movups	%xmm2, 32(%rcx)
	movups	%xmm1, 16(%rcx)
	movups	%xmm0, (%rcx)
	movaps	32(%rsp), %xmm0
	movaps	48(%rsp), %xmm1
	movaps	64(%rsp), %xmm2
	movaps	80(%rsp), %xmm3
	movups	%xmm3, 176(%rcx)
	movups	%xmm2, 160(%rcx)
	movups	%xmm1, 144(%rcx)
	movups	%xmm0, 128(%rcx)
	movq	184(%rsp), %rdx
	cmpq	$1, %rdx
	jne	1b
	testq	%r12, %r12
	je	8f
	leaq	336(%rsp), %rdi
	movl	$1, %edx
	jmp	2b
8:
	movq	24(%rsp), %rcx
	movzbl	(%rcx), %ecx
	movl	%eax, %edx
	movb	%cl, 488(%rsp,%rdx)
	orl	$1, %eax
	movl	%eax, 472(%rsp)
	jmp	3b
9:
	leaq	-40(%rbp), %rsp
	popq	%rbx
	popq	%r12
	popq	%r13
	popq	%r14
	popq	%r15
	popq	%rbp
	retq
	vj_end	blake2_ffi..blake2b..many..write_all_1_v2

	vj_constants	16
	.p2align	4, 0x0
.L1_v2_CPI110_0:
	.long	1359893119
	.long	2600822924
	.long	528734635
	.long	1541459225
.L1_v2_CPI110_1:
	.long	1779033703
	.long	3144134277
	.long	1013904242
	.long	2773480762
.L1_v2_CPI110_2:
	.quad	128
	.quad	128
	vj_function	blake2_ffi..blake2s..many..write_all_1_v2
	pushq	%rbp
	pushq	%r15
	pushq	%r14
	pushq	%r13
	pushq	%r12
	pushq	%rbx
	subq	$1912, %rsp
	movq	%r8, %r15
	movq	%rcx, 152(%rsp)
	movq	%rdi, 968(%rsp)
	testq	%r8, %r8
	je	31f
	movq	%rdx, %r8
	xorl	%ecx, %ecx
	movq	%r15, 144(%rsp)
	movq	%rdx, 8(%rsp)
	.p2align	4
1:
	movq	(%r8), %r12
	movq	%r12, %rax
	imulq	%rcx, %rax
	addq	968(%rsp), %rax
	movq	%rax, 72(%rsp)
	movq	%rcx, %rbx
	shlq	$4, %rbx
	movq	%r15, %r14
	movq	%rcx, 120(%rsp)
	subq	%rcx, %r14
	leaq	976(%rsp), %rdi
	movl	$832, %edx
	xorl	%esi, %esi
	vj_c_call	memset
	movq	8(%rsp), %r8
	xorps	%xmm0, %xmm0
	movaps	%xmm0, 432(%rsp)
	movaps	%xmm0, 448(%rsp)
	movaps	%xmm0, 464(%rsp)
	movaps	%xmm0, 480(%rsp)
	movaps	%xmm0, 496(%rsp)
	movaps	%xmm0, 512(%rsp)
	movaps	%xmm0, 528(%rsp)
	movaps	%xmm0, 544(%rsp)
	movaps	%xmm0, 560(%rsp)
	movaps	%xmm0, 576(%rsp)
	movaps	%xmm0, 592(%rsp)
	movaps	%xmm0, 608(%rsp)
	movaps	%xmm0, 624(%rsp)
	movaps	%xmm0, 640(%rsp)
	movaps	%xmm0, 656(%rsp)
	movaps	%xmm0, 672(%rsp)
	cmpq	$8, %r14
	jb	5f
	movq	%r12, 352(%rsp)
	movq	16(%r8), %rdx
	movq	152(%rsp), %rcx
	movq	(%rcx,%rbx), %rsi
	movq	8(%rcx,%rbx), %rax
	movq	%rax, 16(%rsp)
	xorl	%r12d, %r12d
	movq	%rdx, %rbp
	movq	%rdx, 96(%rsp)
	testq	%rdx, %rdx
	setne	%dl
	je	2f
	movq	8(%r8), %rbp
2:
	movq	24(%r8), %r15
	movq	32(%r8), %r11
	movq	40(%r8), %rcx
	movq	48(%r8), %r14
	movb	%dl, %r12b
	movq	152(%rsp), %rdx
	movq	16(%rdx,%rbx), %rax
	movq	%rax, 160(%rsp)
	movq	24(%rdx,%rbx), %rdi
	movq	32(%rdx,%rbx), %rax
	movq	%rax, 32(%rsp)
	movq	40(%rdx,%rbx), %r8
	movq	48(%rdx,%rbx), %rax
	movq	%rax, 80(%rsp)
	movq	56(%rdx,%rbx), %r9
	movq	64(%rdx,%rbx), %rax
	movq	%rax, 48(%rsp)
	movq	72(%rdx,%rbx), %r13
	movq	80(%rdx,%rbx), %rax
	movq	%rax, 304(%rsp)
	movq	88(%rdx,%rbx), %rax
	movq	%rax, 944(%rsp)
	movq	96(%rdx,%rbx), %rax
	movq	%rax, 320(%rsp)
	movq	104(%rdx,%rbx), %r10
	movq	112(%rdx,%rbx), %rax
	movq	%rax, 336(%rsp)
	movq	120(%rdx,%rbx), %rax
	movq	%rax, 128(%rsp)
	movq	%r15, 976(%rsp)
	movq	%r11, 984(%rsp)
	movq	%rcx, 992(%rsp)
	movq	%r14, 1000(%rsp)
	movq	%r12, 1008(%rsp)
	movq	%rbp, 1016(%rsp)
	movq	96(%rsp), %rax
	movq	%rax, 1024(%rsp)
	movw	$257, 1032(%rsp)
	leaq	1034(%rsp), %rdx
	movups	%xmm0, 14(%rdx)
	movups	%xmm0, (%rdx)
	movq	%rsi, 1064(%rsp)
	movq	16(%rsp), %rsi
	movq	%rsi, 1072(%rsp)
	movq	%r15, 1080(%rsp)
	movq	%r11, 1088(%rsp)
	movq	%rcx, 1096(%rsp)
	movq	%r14, 1104(%rsp)
	movq	%r12, 1112(%rsp)
	movq	%rbp, 1120(%rsp)
	movq	%rax, 1128(%rsp)
	movw	$257, 1136(%rsp)
	movups	%xmm0, 118(%rdx)
	movups	%xmm0, 104(%rdx)
	movq	160(%rsp), %rsi
	movq	%rsi, 1168(%rsp)
	movq	%rdi, 160(%rsp)
	movq	%rdi, 1176(%rsp)
	movq	%r15, 1184(%rsp)
	movq	%r11, 1192(%rsp)
	movq	%rcx, 1200(%rsp)
	movq	%r14, 1208(%rsp)
	movq	%r12, 1216(%rsp)
	movq	%rbp, 1224(%rsp)
	movq	%rax, 1232(%rsp)
	movw	$257, 1240(%rsp)
	movups	%xmm0, 222(%rdx)
	movups	%xmm0, 208(%rdx)
	movq	32(%rsp), %rsi
	movq	%rsi, 1272(%rsp)
	movq	944(%rsp), %rsi
	movq	%r8, 32(%rsp)
	movq	%r8, 1280(%rsp)
	movq	%r15, 1288(%rsp)
	movq	%r11, 1296(%rsp)
	movq	%rcx, 1304(%rsp)
	movq	%r14, 1312(%rsp)
	movq	%r12, 1320(%rsp)
	movq	%rbp, 1328(%rsp)
	movq	%rax, 1336(%rsp)
	movw	$257, 1344(%rsp)
	movups	%xmm0, 326(%rdx)
	movups	%xmm0, 312(%rdx)
	movq	80(%rsp), %rdi
	movq	%rdi, 1376(%rsp)
	movq	128(%rsp), %rdi
	movq	%r9, 80(%rsp)
	movq	%r9, 1384(%rsp)
	movq	%r15, 1392(%rsp)
	movq	%r11, 1400(%rsp)
	movq	%rcx, 1408(%rsp)
	movq	%r14, 1416(%rsp)
	movq	%r12, 1424(%rsp)
	movq	%rbp, 1432(%rsp)
	movq	%rax, 1440(%rsp)
	movw	$257, 1448(%rsp)
	movups	%xmm0, 430(%rdx)
	movups	%xmm0, 416(%rdx)
	movq	48(%rsp), %r8
	movq	%r8, 1480(%rsp)
	movq	%r13, 48(%rsp)
	movq	%r13, 1488(%rsp)
	movq	%r15, 1496(%rsp)
	movq	%r11, 1504(%rsp)
	movq	%rcx, 1512(%rsp)
	movq	%r14, 1520(%rsp)
	movq	%r12, 1528(%rsp)
	movq	%rbp, 1536(%rsp)
	movq	%rax, 1544(%rsp)
	movw	$257, 1552(%rsp)
	movups	%xmm0, 534(%rdx)
	movups	%xmm0, 520(%rdx)
	movq	304(%rsp), %r8
	movq	%r8, 1584(%rsp)
	movq	%rsi, 1592(%rsp)
	movq	%r15, 1600(%rsp)
	movq	%r11, 1608(%rsp)
	movq	%rcx, 1616(%rsp)
	movq	%r14, 1624(%rsp)
	movq	%r12, 1632(%rsp)
	movq	%rbp, 1640(%rsp)
	movq	%rax, 1648(%rsp)
	movw	$257, 1656(%rsp)
	movups	%xmm0, 638(%rdx)
	movups	%xmm0, 624(%rdx)
	movq	320(%rsp), %r8
	movq	%r8, 1688(%rsp)
	movq	%r10, %r9
	movq	%r10, 1696(%rsp)
	movq	%r15, 1704(%rsp)
	movq	%r11, 1712(%rsp)
	movq	%rcx, 1720(%rsp)
	movq	%r14, 1728(%rsp)
	movq	%r12, 1736(%rsp)
	movq	%rbp, 1744(%rsp)
	movq	%rax, 1752(%rsp)
	movw	$257, 1760(%rsp)
	movups	%xmm0, 742(%rdx)
	movups	%xmm0, 728(%rdx)
	movq	336(%rsp), %rax
	movq	%rax, 1792(%rsp)
	movq	%rdi, %r10
	movq	%rdi, 1800(%rsp)
	je	3f
	cmpq	$8, %r11
	movq	144(%rsp), %r15
	movq	8(%rsp), %r8
	movq	352(%rsp), %r11
	movq	16(%rsp), %rdi
	ja	5f
	cmpq	$8, %r14
	ja	5f
	cmpq	$32, 96(%rsp)
	ja	5f
	cmpq	$-64, %rdi
	jae	5f
	movq	160(%rsp), %rcx
	cmpq	$-64, %rcx
	setb	%al
	cmpq	%rdi, %rcx
	sete	%cl
	testb	%cl, %al
	je	5f
	cmpq	$-65, 32(%rsp)
	ja	5f
	cmpq	%rdi, 32(%rsp)
	jne	5f
	cmpq	$-65, 80(%rsp)
	ja	5f
	cmpq	%rdi, 80(%rsp)
	jne	5f
	cmpq	$-65, 48(%rsp)
	ja	5f
	cmpq	%rdi, 48(%rsp)
	jne	5f
	cmpq	$-65, %rsi
	ja	5f
	cmpq	%rdi, %rsi
	jne	5f
	cmpq	$-64, %r9
	setb	%al
	cmpq	%rdi, %r9
	sete	%cl
	cmpq	$-64, %r10
	setb	%dl
	andb	%al, %dl
	testb	%cl, %dl
	je	5f
	addq	$64, %rdi
	jmp	4f
3:
	cmpq	$9, %r14
	setb	%al
	cmpq	$9, %r11
	setb	%cl
	testb	%al, %cl
	movq	144(%rsp), %r15
	movq	8(%rsp), %r8
	movq	352(%rsp), %r11
	movq	16(%rsp), %rdi
	je	5f
	cmpq	%rdi, 160(%rsp)
	jne	5f
	cmpq	%rdi, 32(%rsp)
	jne	5f
	cmpq	%rdi, 80(%rsp)
	jne	5f
	cmpq	%rdi, 48(%rsp)
	jne	5f
	cmpq	%rdi, %rsi
	jne	5f
	cmpq	%rdi, %r9
	jne	5f
4:
	leaq	64(%r10), %rax
	cmpq	$0, 96(%rsp)
	cmoveq	%r10, %rax
	cmpq	%rdi, %rax
	jne	5f
	movaps	%xmm0, 928(%rsp)
	movaps	%xmm0, 912(%rsp)
	movaps	%xmm0, 896(%rsp)
	movaps	%xmm0, 880(%rsp)
	movaps	%xmm0, 864(%rsp)
	movaps	%xmm0, 848(%rsp)
	movaps	%xmm0, 832(%rsp)
	movaps	%xmm0, 816(%rsp)
	movaps	%xmm0, 800(%rsp)
	movaps	%xmm0, 784(%rsp)
	movaps	%xmm0, 768(%rsp)
	movaps	%xmm0, 752(%rsp)
	movaps	%xmm0, 736(%rsp)
	movaps	%xmm0, 720(%rsp)
	movaps	%xmm0, 704(%rsp)
	movaps	%xmm0, 688(%rsp)
	xorps	%xmm2, %xmm2
	movl	1024(%rsp), %eax
	shll	$8, %eax
	xorl	%ecx, %ecx
	cmpb	$0, 1008(%rsp)
	movzbl	%r11b, %r12d
	movzwl	%ax, %eax
	cmovel	%ecx, %eax
	movq	976(%rsp), %rsi
	movq	984(%rsp), %rdx
	movq	992(%rsp), %rbx
	movq	1000(%rsp), %r14
	movl	1032(%rsp), %ecx
	shll	$16, %ecx
	orl	%eax, %ecx
	orl	%r12d, %ecx
	movd	%ecx, %xmm1
	pinsrd	$1, 1036(%rsp), %xmm1
	movq	1040(%rsp), %xmm0
	punpcklqdq	%xmm0, %xmm1
	pinsrw	$7, 1048(%rsp), %xmm1
	movdqa	%xmm1, 48(%rsp)
	movaps	%xmm2, 176(%rsp)
	leaq	176(%rsp), %rbp
	movq	%rbp, %rdi
	vj_c_call	memcpy
	leaq	184(%rsp), %r13
	movq	%r13, %rdi
	movq	%rbx, %rsi
	movq	%r14, %rdx
	vj_c_call	memcpy
	movaps	176(%rsp), %xmm0
	movl	1128(%rsp), %eax
	shll	$8, %eax
	cmpb	$0, 1112(%rsp)
	xorps	.L1_v2_CPI110_0(%rip), %xmm0
	movaps	%xmm0, 336(%rsp)
	movzwl	%ax, %eax
	movl	$0, %ecx
	cmovel	%ecx, %eax
	movq	1080(%rsp), %rsi
	movq	1088(%rsp), %rdx
	movq	1096(%rsp), %rbx
	movq	1104(%rsp), %r14
	movl	1136(%rsp), %ecx
	shll	$16, %ecx
	orl	%eax, %ecx
	orl	%r12d, %ecx
	movd	%ecx, %xmm1
	pinsrd	$1, 1140(%rsp), %xmm1
	movq	1144(%rsp), %xmm0
	punpcklqdq	%xmm0, %xmm1
	pinsrw	$7, 1152(%rsp), %xmm1
	movdqa	%xmm1, 128(%rsp)
	pxor	%xmm0, %xmm0
	movdqa	%xmm0, 176(%rsp)
	movq	%rbp, %rdi
	vj_c_call	memcpy
	movq	%r13, %rdi
	movq	%rbx, %rsi
	movq	%r14, %rdx
	vj_c_call	memcpy
	movaps	176(%rsp), %xmm0
	movl	1232(%rsp), %eax
	shll	$8, %eax
	cmpb	$0, 1216(%rsp)
	xorps	.L1_v2_CPI110_0(%rip), %xmm0
	movaps	%xmm0, 320(%rsp)
	movzwl	%ax, %eax
	movl	$0, %ecx
	cmovel	%ecx, %eax
	movq	1184(%rsp), %rsi
	movq	1192(%rsp), %rdx
	movq	1200(%rsp), %rbx
	movq	1208(%rsp), %r14
	movl	1240(%rsp), %ecx
	shll	$16, %ecx
	orl	%eax, %ecx
	orl	%r12d, %ecx
	movd	%ecx, %xmm1
	pinsrd	$1, 1244(%rsp), %xmm1
	movq	1248(%rsp), %xmm0
	punpcklqdq	%xmm0, %xmm1
	pinsrw	$7, 1256(%rsp), %xmm1
	movdqa	%xmm1, 32(%rsp)
	pxor	%xmm0, %xmm0
	movdqa	%xmm0, 176(%rsp)
	movq	%rbp, %rdi
	vj_c_call	memcpy
	movq	%r13, %rdi
	movq	%rbx, %rsi
	movq	%r14, %rdx
	vj_c_call	memcpy
	movaps	176(%rsp), %xmm0
	movl	1336(%rsp), %eax
	shll	$8, %eax
	cmpb	$0, 1320(%rsp)
	xorps	.L1_v2_CPI110_0(%rip), %xmm0
	movaps	%xmm0, 304(%rsp)
	movzwl	%ax, %eax
	movl	$0, %ecx
	cmovel	%ecx, %eax
	movq	1288(%rsp), %rsi
	movq	1296(%rsp), %rdx
	movq	1304(%rsp), %rbx
	movq	1312(%rsp), %r14
	movl	1344(%rsp), %ecx
	shll	$16, %ecx
	orl	%eax, %ecx
	orl	%r12d, %ecx
	movd	%ecx, %xmm1
	pinsrd	$1, 1348(%rsp), %xmm1
	movq	1352(%rsp), %xmm0
	punpcklqdq	%xmm0, %xmm1
	pinsrw	$7, 1360(%rsp), %xmm1
	movdqa	%xmm1, 160(%rsp)
	pxor	%xmm0, %xmm0
	movdqa	%xmm0, 176(%rsp)
	movq	%rbp, %rdi
	vj_c_call	memcpy
	movq	%r13, %rdi
	movq	%rbx, %rsi
	movq	%r14, %rdx
	vj_c_call	memcpy
	movaps	176(%rsp), %xmm0
	movl	1440(%rsp), %eax
	shll	$8, %eax
	cmpb	$0, 1424(%rsp)
	xorps	.L1_v2_CPI110_0(%rip), %xmm0
	movaps	%xmm0, 80(%rsp)
	movzwl	%ax, %eax
	movl	$0, %ecx
	cmovel	%ecx, %eax
	movq	1392(%rsp), %rsi
	movq	1400(%rsp), %rdx
	movq	1408(%rsp), %rbx
	movq	1416(%rsp), %r14
	movl	1448(%rsp), %ecx
	shll	$16, %ecx
	orl	%eax, %ecx
	orl	%r12d, %ecx
	movd	%ecx, %xmm1
	pinsrd	$1, 1452(%rsp), %xmm1
	movq	1456(%rsp), %xmm0
	punpcklqdq	%xmm0, %xmm1
	pinsrw	$7, 1464(%rsp), %xmm1
	movdqa	%xmm1, 16(%rsp)
	pxor	%xmm0, %xmm0
	movdqa	%xmm0, 176(%rsp)
	movq	%rbp, %rdi
	vj_c_call	memcpy
	movq	%r13, %rdi
	movq	%r13, %rbp
	movq	%rbx, %rsi
	movq	%r14, %rdx
	vj_c_call	memcpy
	movaps	176(%rsp), %xmm0
	movl	1544(%rsp), %eax
	shll	$8, %eax
	cmpb	$0, 1528(%rsp)
	xorps	.L1_v2_CPI110_0(%rip), %xmm0
	movaps	%xmm0, 944(%rsp)
	movzwl	%ax, %eax
	movl	$0, %ecx
	cmovel	%ecx, %eax
	movq	1496(%rsp), %rsi
	movq	1504(%rsp), %rdx
	movq	1512(%rsp), %rbx
	movq	1520(%rsp), %r14
	movl	1552(%rsp), %ecx
	shll	$16, %ecx
	orl	%eax, %ecx
	orl	%r12d, %ecx
	movd	%ecx, %xmm1
	pinsrd	$1, 1556(%rsp), %xmm1
	movq	1560(%rsp), %xmm0
	punpcklqdq	%xmm0, %xmm1
	pinsrw	$7, 1568(%rsp), %xmm1
	movdqa	%xmm1, 1856(%rsp)
	pxor	%xmm0, %xmm0
	movdqa	%xmm0, 176(%rsp)
	leaq	176(%rsp), %rdi
	movq	%rdi, %r13
	vj_c_call	memcpy
	movq	%rbp, %rdi
	movq	%rbx, %rsi
	movq	%r14, %rdx
	vj_c_call	memcpy
	movaps	176(%rsp), %xmm0
	movl	1648(%rsp), %eax
	shll	$8, %eax
	cmpb	$0, 1632(%rsp)
	xorps	.L1_v2_CPI110_0(%rip), %xmm0
	movaps	%xmm0, 1888(%rsp)
	movzwl	%ax, %eax
	movl	$0, %ecx
	cmovel	%ecx, %eax
	movq	1600(%rsp), %rsi
	movq	1608(%rsp), %rdx
	movq	1616(%rsp), %rbx
	movq	1624(%rsp), %r14
	movl	1656(%rsp), %ecx
	shll	$16, %ecx
	orl	%eax, %ecx
	orl	%r12d, %ecx
	movd	%ecx, %xmm1
	pinsrd	$1, 1660(%rsp), %xmm1
	movq	1664(%rsp), %xmm0
	punpcklqdq	%xmm0, %xmm1
	pinsrw	$7, 1672(%rsp), %xmm1
	movdqa	%xmm1, 1840(%rsp)
	pxor	%xmm0, %xmm0
	movdqa	%xmm0, 176(%rsp)
	movq	%r13, %rdi
	vj_c_call	memcpy
	movq	%rbp, %rdi
	movq	%rbx, %rsi
	movq	%r14, %rdx
	vj_c_call	memcpy
	movaps	176(%rsp), %xmm0
	movl	1752(%rsp), %eax
	shll	$8, %eax
	cmpb	$0, 1736(%rsp)
	xorps	.L1_v2_CPI110_0(%rip), %xmm0
	movaps	%xmm0, 1872(%rsp)
	movzwl	%ax, %eax
	movl	$0, %ecx
	cmovel	%ecx, %eax
	movq	1704(%rsp), %rsi
	movq	1712(%rsp), %rdx
	movq	1720(%rsp), %rbx
	movq	1728(%rsp), %r14
	movl	1760(%rsp), %ecx
	shll	$16, %ecx
	orl	%eax, %ecx
	orl	%r12d, %ecx
	movd	%ecx, %xmm1
	pinsrd	$1, 1764(%rsp), %xmm1
	movq	1768(%rsp), %xmm0
	punpcklqdq	%xmm0, %xmm1
	pinsrw	$7, 1776(%rsp), %xmm1
	movdqa	%xmm1, 1824(%rsp)
	pxor	%xmm0, %xmm0
	movdqa	%xmm0, 176(%rsp)
	movq	%r13, %rdi
	vj_c_call	memcpy
	movq	%rbp, %rdi
	movq	%rbx, %rsi
	movq	%r14, %rdx
	vj_c_call	memcpy
	movdqa	.L1_v2_CPI110_1(%rip), %xmm0
	movdqa	48(%rsp), %xmm12
	pxor	%xmm0, %xmm12
	movdqa	128(%rsp), %xmm2
	pxor	%xmm0, %xmm2
	movdqa	32(%rsp), %xmm6
	pxor	%xmm0, %xmm6
	movdqa	160(%rsp), %xmm7
	pxor	%xmm0, %xmm7
	movdqa	16(%rsp), %xmm3
	pxor	%xmm0, %xmm3
	movdqa	1856(%rsp), %xmm5
	pxor	%xmm0, %xmm5
	movdqa	1840(%rsp), %xmm8
	pxor	%xmm0, %xmm8
	movdqa	1824(%rsp), %xmm9
	pxor	%xmm0, %xmm9
	movdqa	%xmm3, %xmm1
	movdqa	%xmm3, %xmm4
	punpckldq	%xmm5, %xmm1
	punpcklqdq	%xmm8, %xmm1
	pshufd	$0, %xmm9, %xmm3
	pblendw	$63, %xmm1, %xmm3
	movdqa	%xmm3, 48(%rsp)
	movd	%xmm2, %eax
	pshufd	$85, %xmm12, %xmm1
	pblendw	$12, %xmm2, %xmm1
	movdqa	%xmm2, %xmm3
	movdqa	%xmm12, %xmm2
	punpckhdq	%xmm3, %xmm12
	pshufd	$85, %xmm4, %xmm3
	pblendw	$12, %xmm5, %xmm3
	punpckhdq	%xmm5, %xmm4
	movdqa	%xmm4, %xmm5
	pblendw	$240, %xmm8, %xmm5
	pshufd	$170, %xmm9, %xmm0
	pblendw	$63, %xmm5, %xmm0
	movdqa	%xmm0, 128(%rsp)
	movd	%xmm6, %edi
	pextrd	$1, %xmm6, %ecx
	pshufd	$238, %xmm12, %xmm5
	pblendw	$48, %xmm6, %xmm12
	pextrd	$3, %xmm6, %r9d
	pextrd	$1, %xmm7, %esi
	pextrd	$2, %xmm7, %edx
	movd	%xmm7, %r8d
	pinsrd	$2, %r9d, %xmm5
	pblendw	$192, %xmm7, %xmm5
	shufps	$212, %xmm8, %xmm3
	shufps	$254, %xmm8, %xmm4
	insertps	$112, %xmm9, %xmm3
	blendps	$8, %xmm9, %xmm4
	movaps	%xmm4, 16(%rsp)
	movdqa	.L1_v2_CPI110_0(%rip), %xmm14
	pxor	176(%rsp), %xmm14
	movdqa	944(%rsp), %xmm15
	movdqa	%xmm15, %xmm7
	movdqa	1888(%rsp), %xmm0
	punpckldq	%xmm0, %xmm7
	movdqa	1872(%rsp), %xmm4
	punpcklqdq	%xmm4, %xmm7
	pshufd	$0, %xmm14, %xmm6
	pblendw	$63, %xmm7, %xmm6
	movdqa	%xmm6, 32(%rsp)
	movdqa	320(%rsp), %xmm10
	movd	%xmm10, %r9d
	movdqa	336(%rsp), %xmm9
	pshufd	$85, %xmm9, %xmm7
	pblendw	$12, %xmm10, %xmm7
	movdqa	%xmm9, %xmm8
	movdqa	%xmm9, %xmm13
	punpckhdq	%xmm10, %xmm13
	pshufd	$85, %xmm15, %xmm9
	pblendw	$12, %xmm0, %xmm9
	punpckhdq	%xmm0, %xmm15
	movdqa	%xmm15, %xmm11
	movdqa	%xmm15, %xmm6
	pblendw	$240, %xmm4, %xmm11
	pshufd	$170, %xmm14, %xmm10
	pblendw	$63, %xmm11, %xmm10
	movdqa	304(%rsp), %xmm15
	movd	%xmm15, %ebx
	pextrd	$1, %xmm15, %r10d
	pshufd	$238, %xmm13, %xmm11
	pblendw	$48, %xmm15, %xmm13
	pextrd	$3, %xmm15, %r14d
	movdqa	80(%rsp), %xmm15
	pextrd	$1, %xmm15, %ebp
	pextrd	$2, %xmm15, %r11d
	pinsrd	$2, %r14d, %xmm11
	movd	%xmm15, %r14d
	pblendw	$192, %xmm15, %xmm11
	shufps	$212, %xmm4, %xmm9
	shufps	$254, %xmm4, %xmm6
	insertps	$112, %xmm14, %xmm9
	blendps	$8, %xmm14, %xmm6
	pinsrd	$1, %eax, %xmm2
	pinsrd	$2, %edi, %xmm2
	pinsrd	$3, %r8d, %xmm2
	movaps	48(%rsp), %xmm0
	movaps	%xmm0, 704(%rsp)
	movdqa	%xmm2, 688(%rsp)
	pinsrd	$2, %ecx, %xmm1
	movaps	%xmm3, 736(%rsp)
	pinsrd	$3, %esi, %xmm1
	movdqa	%xmm1, 720(%rsp)
	movaps	128(%rsp), %xmm0
	movaps	%xmm0, 768(%rsp)
	movdqa	%xmm12, %xmm0
	pinsrd	$3, %edx, %xmm0
	movdqa	%xmm0, 752(%rsp)
	movaps	16(%rsp), %xmm0
	movaps	%xmm0, 800(%rsp)
	movdqa	%xmm5, 784(%rsp)
	pinsrd	$1, %r9d, %xmm8
	pinsrd	$2, %ebx, %xmm8
	pinsrd	$3, %r14d, %xmm8
	movdqa	%xmm8, 816(%rsp)
	movaps	32(%rsp), %xmm0
	movaps	%xmm0, 832(%rsp)
	pinsrd	$2, %r10d, %xmm7
	pinsrd	$3, %ebp, %xmm7
	movdqa	%xmm7, 848(%rsp)
	movaps	%xmm9, 864(%rsp)
	pinsrd	$3, %r11d, %xmm13
	movdqa	%xmm13, 880(%rsp)
	movdqa	%xmm10, 896(%rsp)
	movdqa	%xmm11, 912(%rsp)
	movaps	%xmm6, 928(%rsp)
	movq	1072(%rsp), %rax
	leaq	64(%rax), %r12
	cmpq	$0, 96(%rsp)
	cmoveq	%rax, %r12
	cmpq	$1, %r12
	movq	%r12, %r14
	adcq	$-1, %r14
	shrq	$6, %r14
	je	13f
	xorps	%xmm0, %xmm0
	movaps	%xmm0, 1808(%rsp)
	xorl	%r13d, %r13d
	leaq	688(%rsp), %rbx
	leaq	976(%rsp), %rsi
	movl	$64, %ebp
	leaq	1808(%rsp), %r8
	movl	$64, %ecx
	movq	%rbx, %rdi
	xorl	%edx, %edx
	callq	blake2_compress..many..blake2s..compress_at_1_v2
	decq	%r14
	movq	1072(%rsp), %rax
	cmpq	$64, %rax
	movl	$64, %ecx
	cmovbq	%rax, %rcx
	movq	1176(%rsp), %rdx
	leaq	64(%rax), %r12
	cmpb	$0, 1008(%rsp)
	cmovneq	%r13, %rcx
	cmoveq	%rax, %r12
	addq	1064(%rsp), %rcx
	movq	%rcx, 176(%rsp)
	cmpq	$64, %rdx
	cmovaeq	%rbp, %rdx
	cmpb	$0, 1112(%rsp)
	cmovneq	%r13, %rdx
	addq	1168(%rsp), %rdx
	movq	%r14, 184(%rsp)
	movq	%rdx, 192(%rsp)
	movq	1280(%rsp), %rax
	cmpq	$64, %rax
	cmovaeq	%rbp, %rax
	cmpb	$0, 1216(%rsp)
	cmovneq	%r13, %rax
	addq	1272(%rsp), %rax
	movq	%r14, 200(%rsp)
	movq	%rax, 208(%rsp)
	movq	1384(%rsp), %rax
	cmpq	$64, %rax
	cmovaeq	%rbp, %rax
	cmpb	$0, 1320(%rsp)
	cmovneq	%r13, %rax
	addq	1376(%rsp), %rax
	movq	%r14, 216(%rsp)
	movq	%rax, 224(%rsp)
	movq	%r14, 232(%rsp)
	movq	1488(%rsp), %rax
	movq	1592(%rsp), %rcx
	cmpq	$64, %rax
	cmovaeq	%rbp, %rax
	cmpb	$0, 1424(%rsp)
	cmovneq	%r13, %rax
	addq	1480(%rsp), %rax
	movq	%rax, 240(%rsp)
	cmpq	$64, %rcx
	cmovaeq	%rbp, %rcx
	cmpb	$0, 1528(%rsp)
	cmovneq	%r13, %rcx
	addq	1584(%rsp), %rcx
	movq	%r14, 248(%rsp)
	movq	%rcx, 256(%rsp)
	movq	1696(%rsp), %rax
	cmpq	$64, %rax
	cmovaeq	%rbp, %rax
	cmpb	$0, 1632(%rsp)
	cmovneq	%r13, %rax
	addq	1688(%rsp), %rax
	movq	%r14, 264(%rsp)
	movq	%rax, 272(%rsp)
	movq	1800(%rsp), %rax
	cmpq	$64, %rax
	cmovbq	%rax, %rbp
	cmpb	$0, 1736(%rsp)
	cmovneq	%r13, %rbp
	addq	1792(%rsp), %rbp
	movq	%r14, 280(%rsp)
	movq	%rbp, 288(%rsp)
	movq	%r14, 296(%rsp)
	movaps	.L1_v2_CPI110_2(%rip), %xmm0
	movups	%xmm0, 384(%rsp)
	movups	%xmm0, 368(%rsp)
	movups	%xmm0, 416(%rsp)
	movups	%xmm0, 400(%rsp)
	leaq	176(%rsp), %rsi
	leaq	368(%rsp), %rdx
	movq	%rbx, %rdi
	leaq	1808(%rsp), %rcx
	callq	blake2_compress..many..blake2s..compress_blocks_1_v2
	cmpq	$1, %r12
	movq	%r12, %rdx
	adcq	$-1, %rdx
	shrq	$6, %rdx
	leaq	464(%rsp), %rbx
	leaq	496(%rsp), %r14
	jmp	14f
	.p2align	4
5:
	movq	(%r8), %rbp
	movq	16(%r8), %r12
	movq	32(%r8), %rdx
	movq	48(%r8), %r13
	leaq	-33(%rbp), %rax
	cmpq	$-32, %rax
	setb	%al
	cmpq	$33, %r12
	setae	%cl
	cmpq	$9, %rdx
	setae	%sil
	orb	%cl, %sil
	orb	%al, %sil
	cmpq	$9, %r13
	setae	%al
	orb	%sil, %al
	jne	11f
	movq	152(%rsp), %rax
	movq	(%rax,%rbx), %rcx
	movq	%rcx, 16(%rsp)
	movq	8(%rax,%rbx), %rbx
	movq	24(%r8), %rsi
	movq	40(%r8), %r14
	testq	%r12, %r12
	je	6f
	movq	8(%r8), %r15
	movaps	%xmm0, 368(%rsp)
	movl	%r12d, %eax
	shll	$8, %eax
	addl	%ebp, %eax
	addl	$16842752, %eax
	movd	%eax, %xmm0
	movdqa	%xmm0, 96(%rsp)
	leaq	368(%rsp), %rdi
	vj_c_call	memcpy
	leaq	376(%rsp), %rdi
	movq	%r14, %rsi
	movq	%r13, %rdx
	vj_c_call	memcpy
	movaps	368(%rsp), %xmm0
	movaps	%xmm0, 352(%rsp)
	movl	$32, %eax
	subq	%r12, %rax
	xorl	%edx, %edx
	cmpq	$32, %r12
	cmovbq	%rax, %rdx
	leaq	(%rsp,%r12), %rdi
	addq	$368, %rdi
	xorl	%esi, %esi
	vj_c_call	memset
	leaq	368(%rsp), %rdi
	movq	%r15, %rsi
	movq	144(%rsp), %r15
	movq	%r12, %rdx
	vj_c_call	memcpy
	leaq	208(%rsp), %rax
	xorps	%xmm0, %xmm0
	movups	%xmm0, (%rax)
	movups	%xmm0, 16(%rax)
	movdqu	368(%rsp), %xmm0
	movups	384(%rsp), %xmm1
	movaps	%xmm1, 192(%rsp)
	movaps	352(%rsp), %xmm1
	movdqa	%xmm0, 176(%rsp)
	movw	$64, %ax
	jmp	7f
6:
	movaps	%xmm0, 368(%rsp)
	movl	%ebp, %eax
	orl	$16842752, %eax
	movd	%eax, %xmm0
	movdqa	%xmm0, 96(%rsp)
	leaq	368(%rsp), %rdi
	vj_c_call	memcpy
	leaq	376(%rsp), %rdi
	movq	%r14, %rsi
	movq	%r13, %rdx
	vj_c_call	memcpy
	movaps	368(%rsp), %xmm1
	pxor	%xmm0, %xmm0
	movdqa	%xmm0, 176(%rsp)
	movdqa	%xmm0, 192(%rsp)
	movdqa	%xmm0, 208(%rsp)
	movdqa	%xmm0, 224(%rsp)
	movdqa	%xmm0, 368(%rsp)
	movdqa	%xmm0, 384(%rsp)
	xorl	%eax, %eax
7:
	xorps	.L1_v2_CPI110_0(%rip), %xmm1
	movaps	96(%rsp), %xmm0
	xorps	.L1_v2_CPI110_1(%rip), %xmm0
	movaps	%xmm0, 688(%rsp)
	movaps	%xmm1, 704(%rsp)
	movaps	%xmm0, 720(%rsp)
	movaps	%xmm1, 736(%rsp)
	movq	$0, 752(%rsp)
	movw	%ax, 760(%rsp)
	movw	%ax, 762(%rsp)
	movw	%bp, 764(%rsp)
	movw	$0, 766(%rsp)
	movaps	176(%rsp), %xmm0
	movaps	192(%rsp), %xmm1
	movaps	208(%rsp), %xmm2
	movaps	224(%rsp), %xmm3
	leaq	768(%rsp), %rcx
	movups	%xmm3, 48(%rcx)
	movups	%xmm2, 32(%rcx)
	movups	%xmm1, 16(%rcx)
	movups	%xmm0, (%rcx)
	movaps	368(%rsp), %xmm0
	movaps	384(%rsp), %xmm1
	movups	%xmm1, 80(%rcx)
	movups	%xmm0, 64(%rcx)
	cmpq	$1, %rbx
	jne	8f
	testq	%r12, %r12
	je	9f
	leaq	688(%rsp), %rdi
	movl	$1, %edx
	movq	16(%rsp), %rsi
	callq	blake2_state..blake2s..State..absorb_blocks_1_v2
	jmp	10f
	.p2align	4
8:
	leaq	688(%rsp), %rdi
	movq	16(%rsp), %rsi
	movq	%rbx, %rdx
	callq	blake2_state..blake2s..State..absorb_blocks_1_v2
	jmp	10f
9:
	movq	16(%rsp), %rcx
	movzbl	(%rcx), %ecx
	movzwl	%ax, %eax
	movb	%cl, 768(%rsp,%rax)
	orl	$1, %eax
	movw	%ax, 760(%rsp)
	.p2align	4
10:
	movq	72(%rsp), %rsi
	leaq	688(%rsp), %rdi
	callq	blake2_state..blake2s..State..write_digest_1_v2
	movq	8(%rsp), %r8
11:
	movl	$1, %eax
12:
	movq	120(%rsp), %rcx
	addq	%rax, %rcx
	cmpq	%r15, %rcx
	jb	1b
	jmp	31f
13:
	leaq	464(%rsp), %rbx
	leaq	496(%rsp), %r14
	xorl	%edx, %edx
14:
	movl	$1, %eax
	movd	%eax, %xmm0
	pinsrb	$1, 1056(%rsp), %xmm0
	pinsrb	$2, %eax, %xmm0
	pinsrb	$3, 1160(%rsp), %xmm0
	pinsrb	$4, %eax, %xmm0
	pinsrb	$5, 1264(%rsp), %xmm0
	pinsrb	$6, %eax, %xmm0
	pinsrb	$7, 1368(%rsp), %xmm0
	pinsrb	$8, %eax, %xmm0
	pinsrb	$9, 1472(%rsp), %xmm0
	pinsrb	$10, %eax, %xmm0
	pinsrb	$11, 1576(%rsp), %xmm0
	pinsrb	$12, %eax, %xmm0
	pinsrb	$13, 1680(%rsp), %xmm0
	pinsrb	$14, %eax, %xmm0
	pinsrb	$15, 1784(%rsp), %xmm0
	movdqa	%xmm0, 176(%rsp)
	leaq	688(%rsp), %rdi
	leaq	976(%rsp), %rsi
	leaq	176(%rsp), %r8
	movq	%r12, %rcx
	callq	blake2_compress..many..blake2s..compress_at_1_v2
	movaps	688(%rsp), %xmm11
	movaps	704(%rsp), %xmm12
	movaps	720(%rsp), %xmm1
	movaps	%xmm1, 304(%rsp)
	movaps	736(%rsp), %xmm0
	movaps	%xmm0, 320(%rsp)
	movaps	%xmm11, %xmm10
	unpckhps	%xmm1, %xmm10
	movaps	%xmm12, %xmm15
	unpckhps	%xmm0, %xmm15
	movaps	768(%rsp), %xmm8
	movaps	752(%rsp), %xmm13
	movaps	800(%rsp), %xmm2
	movaps	%xmm2, 48(%rsp)
	movaps	784(%rsp), %xmm1
	movaps	%xmm1, 80(%rsp)
	movaps	%xmm13, %xmm0
	unpckhps	%xmm1, %xmm0
	movaps	%xmm8, %xmm1
	unpckhps	%xmm2, %xmm1
	movaps	%xmm15, %xmm2
	unpckhpd	%xmm1, %xmm2
	movaps	%xmm2, 16(%rsp)
	movaps	%xmm10, %xmm2
	unpckhpd	%xmm0, %xmm2
	movaps	%xmm2, 96(%rsp)
	movaps	832(%rsp), %xmm5
	movaps	864(%rsp), %xmm2
	movaps	%xmm2, 128(%rsp)
	movlhps	%xmm1, %xmm15
	movaps	%xmm5, %xmm9
	unpckhps	%xmm2, %xmm9
	movlhps	%xmm0, %xmm10
	movaps	896(%rsp), %xmm4
	movaps	928(%rsp), %xmm1
	movaps	%xmm1, 32(%rsp)
	movaps	%xmm4, %xmm0
	unpckhps	%xmm1, %xmm0
	movaps	%xmm9, %xmm1
	unpckhpd	%xmm0, %xmm1
	movaps	%xmm1, 336(%rsp)
	movlhps	%xmm0, %xmm9
	movaps	816(%rsp), %xmm0
	movaps	848(%rsp), %xmm7
	movaps	%xmm0, %xmm1
	unpckhps	%xmm7, %xmm1
	movaps	880(%rsp), %xmm3
	movaps	912(%rsp), %xmm6
	movaps	%xmm3, %xmm2
	unpckhps	%xmm6, %xmm2
	movaps	%xmm1, %xmm14
	unpckhpd	%xmm2, %xmm14
	movlhps	%xmm2, %xmm1
	unpcklps	304(%rsp), %xmm11
	unpcklps	320(%rsp), %xmm12
	unpcklps	80(%rsp), %xmm13
	unpcklps	48(%rsp), %xmm8
	unpcklps	%xmm7, %xmm0
	unpcklps	128(%rsp), %xmm5
	unpcklps	%xmm6, %xmm3
	unpcklps	32(%rsp), %xmm4
	movaps	%xmm12, %xmm2
	unpckhpd	%xmm8, %xmm2
	movlhps	%xmm8, %xmm12
	movaps	%xmm11, %xmm6
	unpckhpd	%xmm13, %xmm6
	movlhps	%xmm13, %xmm11
	movaps	%xmm5, %xmm7
	unpckhpd	%xmm4, %xmm7
	movlhps	%xmm4, %xmm5
	movaps	%xmm0, %xmm4
	unpckhpd	%xmm3, %xmm4
	movlhps	%xmm3, %xmm0
	movaps	%xmm11, 432(%rsp)
	movaps	%xmm0, 448(%rsp)
	movaps	%xmm6, 464(%rsp)
	movaps	%xmm4, 480(%rsp)
	movaps	%xmm10, 496(%rsp)
	movaps	%xmm1, 512(%rsp)
	movaps	96(%rsp), %xmm0
	movaps	%xmm0, 528(%rsp)
	movaps	%xmm14, 544(%rsp)
	movaps	%xmm12, 560(%rsp)
	movaps	%xmm5, 576(%rsp)
	movaps	%xmm2, 592(%rsp)
	movaps	%xmm7, 608(%rsp)
	movaps	%xmm15, 624(%rsp)
	movaps	%xmm9, 640(%rsp)
	movaps	16(%rsp), %xmm0
	movaps	%xmm0, 656(%rsp)
	movaps	336(%rsp), %xmm0
	movaps	%xmm0, 672(%rsp)
	movq	352(%rsp), %r13
	cmpq	$32, %r13
	jne	15f
	leaq	432(%rsp), %rax
	movq	72(%rsp), %r11
	movq	%r11, %rcx
	subq	%rax, %rcx
	cmpq	$31, %rcx
	ja	16f
	movaps	432(%rsp), %xmm0
	movups	%xmm0, (%r11)
	movaps	448(%rsp), %xmm0
	movups	%xmm0, 16(%r11)
	jmp	17f
15:
	leaq	432(%rsp), %rsi
	movq	72(%rsp), %r12
	movq	%r12, %rdi
	movq	%r13, %rdx
	vj_c_call	memcpy
	leaq	(%r12,%r13), %rdi
	movq	%rbx, %rsi
	movq	%r13, %rdx
	vj_c_call	memcpy
	leaq	(%r12,%r13,2), %rdi
	movq	%r14, %rsi
	movq	%r13, %rdx
	vj_c_call	memcpy
	leaq	(,%r13,2), %rbx
	addq	%r13, %rbx
	leaq	(%r12,%rbx), %rdi
	leaq	528(%rsp), %rsi
	movq	%r13, %rdx
	vj_c_call	memcpy
	leaq	(%r12,%r13,4), %rdi
	leaq	560(%rsp), %rsi
	movq	%r13, %rdx
	vj_c_call	memcpy
	leaq	(,%r13,4), %rdi
	addq	%r13, %rdi
	addq	%r12, %rdi
	leaq	592(%rsp), %rsi
	movq	%r13, %rdx
	vj_c_call	memcpy
	leaq	(%r12,%rbx,2), %rdi
	leaq	624(%rsp), %rsi
	movq	%r13, %rdx
	vj_c_call	memcpy
	leaq	(%r12,%r13,8), %rdi
	subq	%r13, %rdi
	leaq	656(%rsp), %rsi
	movq	%r13, %rdx
	vj_c_call	memcpy
	movl	$8, %eax
	movq	8(%rsp), %r8
	jmp	12b
16:
	movaps	432(%rsp), %xmm0
	movaps	448(%rsp), %xmm1
	movups	%xmm1, 16(%r11)
	movups	%xmm0, (%r11)
17:
	movq	8(%rsp), %r8
	leaq	32(%r11), %rax
	movq	%rax, %rcx
	subq	%rbx, %rcx
	cmpq	$32, %rcx
	jae	18f
	movaps	464(%rsp), %xmm0
	movups	%xmm0, 32(%r11)
	movaps	480(%rsp), %xmm0
	movups	%xmm0, 48(%r11)
	jmp	19f
18:
	movups	(%rbx), %xmm0
	movups	16(%rbx), %xmm1
	movups	%xmm1, 16(%rax)
	movups	%xmm0, (%rax)
19:
	leaq	624(%rsp), %r9
	leaq	656(%rsp), %r10
	leaq	64(%r11), %rax
	movq	%rax, %rcx
	subq	%r14, %rcx
	cmpq	$32, %rcx
	jae	20f
	movaps	496(%rsp), %xmm0
	movups	%xmm0, 64(%r11)
	movaps	512(%rsp), %xmm0
	movups	%xmm0, 80(%r11)
	jmp	21f
20:
	movups	(%r14), %xmm0
	movups	16(%r14), %xmm1
	movups	%xmm1, 16(%rax)
	movups	%xmm0, (%rax)
21:
	leaq	560(%rsp), %rsi
	leaq	592(%rsp), %rdi
	leaq	96(%r11), %rax
	movq	%rax, %rcx
	leaq	528(%rsp), %rdx
	subq	%rdx, %rcx
	cmpq	$32, %rcx
	jae	22f
	movaps	528(%rsp), %xmm0
	movups	%xmm0, 96(%r11)
	movaps	544(%rsp), %xmm0
	movups	%xmm0, 112(%r11)
	jmp	23f
22:
	movups	(%rdx), %xmm0
	movups	16(%rdx), %xmm1
	movups	%xmm1, 16(%rax)
	movups	%xmm0, (%rax)
23:
	leaq	128(%r11), %rax
	movq	%rax, %rcx
	subq	%rsi, %rcx
	cmpq	$32, %rcx
	jae	24f
	movaps	560(%rsp), %xmm0
	movups	%xmm0, 128(%r11)
	movaps	576(%rsp), %xmm0
	movups	%xmm0, 144(%r11)
	jmp	25f
24:
	movups	(%rsi), %xmm0
	movups	16(%rsi), %xmm1
	movups	%xmm1, 16(%rax)
	movups	%xmm0, (%rax)
25:
	leaq	160(%r11), %rax
	movq	%rax, %rcx
	subq	%rdi, %rcx
	cmpq	$32, %rcx
	jae	26f
	movaps	592(%rsp), %xmm0
	movups	%xmm0, 160(%r11)
	movaps	608(%rsp), %xmm0
	movups	%xmm0, 176(%r11)
	jmp	27f
26:
	movups	(%rdi), %xmm0
	movups	16(%rdi), %xmm1
	movups	%xmm1, 16(%rax)
	movups	%xmm0, (%rax)
27:
	leaq	192(%r11), %rax
	movq	%rax, %rcx
	subq	%r9, %rcx
	cmpq	$32, %rcx
	jae	28f
	movaps	624(%rsp), %xmm0
	movups	%xmm0, 192(%r11)
	movaps	640(%rsp), %xmm0
	movups	%xmm0, 208(%r11)
	jmp	29f
28:
	movups	(%r9), %xmm0
	movups	16(%r9), %xmm1
	movups	%xmm1, 16(%rax)
	movups	%xmm0, (%rax)
29:
	leaq	224(%r11), %rax
	movq	%rax, %rcx
	subq	%r10, %rcx
	cmpq	$32, %rcx
	jae	30f
	movaps	656(%rsp), %xmm0
	movups	%xmm0, 224(%r11)
	movaps	672(%rsp), %xmm0
	movups	%xmm0, 240(%r11)
	movl	$8, %eax
	jmp	12b
30:
	movups	(%r10), %xmm0
	movups	16(%r10), %xmm1
	movups	%xmm1, 16(%rax)
	movups	%xmm0, (%rax)
	movl	$8, %eax
	jmp	12b
31:
	addq	$1912, %rsp
	popq	%rbx
	popq	%r12
	popq	%r13
	popq	%r14
	popq	%r15
	popq	%rbp
	retq
	vj_end	blake2_ffi..blake2s..many..write_all_1_v2

	vj_function	blake2_compress..many..blake2s..compress_at_1_v2
	pushq	%r15
	pushq	%r14
	pushq	%r13
	pushq	%r12
	pushq	%rbx
	subq	$1216, %rsp
	movq	%r8, %rbx
	movq	%rcx, %r15
	movq	%rdx, %r12
	movq	%rsi, %r13
	movq	%rdi, %r14
	xorps	%xmm0, %xmm0
	movaps	%xmm0, 752(%rsp)
	movaps	%xmm0, 736(%rsp)
	movaps	%xmm0, 720(%rsp)
	movaps	%xmm0, 704(%rsp)
	movaps	%xmm0, 640(%rsp)
	movaps	%xmm0, 656(%rsp)
	movaps	%xmm0, 672(%rsp)
	movaps	%xmm0, 688(%rsp)
	movaps	%xmm0, 576(%rsp)
	movaps	%xmm0, 592(%rsp)
	movaps	%xmm0, 608(%rsp)
	movaps	%xmm0, 624(%rsp)
	cmpb	$0, 32(%rsi)
	je	1f
	testq	%r12, %r12
	je	2f
	movq	96(%r13), %rax
	movq	%r12, %rsi
	shlq	$6, %rsi
	addq	$-64, %rsi
	subq	%rsi, %rax
	addq	88(%r13), %rsi
	cmpq	$64, %rax
	movl	$64, %edx
	cmovbq	%rax, %rdx
	jmp	3f
1:
	movq	96(%r13), %rax
	movq	%r12, %rsi
	shlq	$6, %rsi
	subq	%rsi, %rax
	addq	88(%r13), %rsi
	cmpq	$64, %rax
	movl	$64, %edx
	cmovbq	%rax, %rdx
	movaps	%xmm0, 48(%rsp)
	movaps	%xmm0, 32(%rsp)
	movaps	%xmm0, 16(%rsp)
	movaps	%xmm0, (%rsp)
	movq	%rsp, %rdi
	vj_c_call	memcpy
	movaps	(%rsp), %xmm0
	movaps	16(%rsp), %xmm1
	movaps	32(%rsp), %xmm2
	movaps	48(%rsp), %xmm3
	movaps	%xmm0, 192(%rsp)
	movaps	%xmm1, 208(%rsp)
	movaps	%xmm2, 224(%rsp)
	movaps	%xmm3, 240(%rsp)
	jmp	4f
2:
	movq	40(%r13), %rsi
	movq	48(%r13), %rdx
3:
	movaps	%xmm0, 48(%rsp)
	movaps	%xmm0, 32(%rsp)
	movaps	%xmm0, 16(%rsp)
	movaps	%xmm0, (%rsp)
	movq	%rsp, %rdi
	vj_c_call	memcpy
	movaps	(%rsp), %xmm0
	movaps	16(%rsp), %xmm1
	movaps	32(%rsp), %xmm2
	movaps	48(%rsp), %xmm3
	movaps	%xmm0, 128(%rsp)
	movaps	%xmm1, 144(%rsp)
	movaps	%xmm2, 160(%rsp)
	movaps	%xmm3, 176(%rsp)
	movaps	128(%rsp), %xmm0
	movaps	144(%rsp), %xmm1
	movaps	160(%rsp), %xmm2
	movaps	176(%rsp), %xmm3
	movaps	%xmm3, 240(%rsp)
	movaps	%xmm2, 224(%rsp)
	movaps	%xmm1, 208(%rsp)
	movaps	%xmm0, 192(%rsp)
4:
	movaps	192(%rsp), %xmm0
	movaps	208(%rsp), %xmm1
	movaps	224(%rsp), %xmm2
	movaps	240(%rsp), %xmm3
	movaps	%xmm3, 816(%rsp)
	movaps	%xmm2, 800(%rsp)
	movaps	%xmm1, 784(%rsp)
	movaps	%xmm0, 768(%rsp)
	cmpb	$0, 136(%r13)
	je	5f
	testq	%r12, %r12
	je	6f
	movq	200(%r13), %rax
	movq	%r12, %rsi
	shlq	$6, %rsi
	addq	$-64, %rsi
	subq	%rsi, %rax
	addq	192(%r13), %rsi
	cmpq	$64, %rax
	movl	$64, %edx
	cmovbq	%rax, %rdx
	jmp	7f
5:
	movq	200(%r13), %rax
	movq	%r12, %rsi
	shlq	$6, %rsi
	subq	%rsi, %rax
	addq	192(%r13), %rsi
	cmpq	$64, %rax
	movl	$64, %edx
	cmovbq	%rax, %rdx
	xorps	%xmm0, %xmm0
	movaps	%xmm0, 48(%rsp)
	movaps	%xmm0, 32(%rsp)
	movaps	%xmm0, 16(%rsp)
	movaps	%xmm0, (%rsp)
	movq	%rsp, %rdi
	vj_c_call	memcpy
	movaps	(%rsp), %xmm0
	movaps	16(%rsp), %xmm1
	movaps	32(%rsp), %xmm2
	movaps	48(%rsp), %xmm3
	movaps	%xmm0, 192(%rsp)
	movaps	%xmm1, 208(%rsp)
	movaps	%xmm2, 224(%rsp)
	movaps	%xmm3, 240(%rsp)
	jmp	8f
6:
	movq	144(%r13), %rsi
	movq	152(%r13), %rdx
7:
	xorps	%xmm0, %xmm0
	movaps	%xmm0, 48(%rsp)
	movaps	%xmm0, 32(%rsp)
	movaps	%xmm0, 16(%rsp)
	movaps	%xmm0, (%rsp)
	movq	%rsp, %rdi
	vj_c_call	memcpy
	movaps	(%rsp), %xmm0
	movaps	16(%rsp), %xmm1
	movaps	32(%rsp), %xmm2
	movaps	48(%rsp), %xmm3
	movaps	%xmm0, 128(%rsp)
	movaps	%xmm1, 144(%rsp)
	movaps	%xmm2, 160(%rsp)
	movaps	%xmm3, 176(%rsp)
	movaps	128(%rsp), %xmm0
	movaps	144(%rsp), %xmm1
	movaps	160(%rsp), %xmm2
	movaps	176(%rsp), %xmm3
	movaps	%xmm3, 240(%rsp)
	movaps	%xmm2, 224(%rsp)
	movaps	%xmm1, 208(%rsp)
	movaps	%xmm0, 192(%rsp)
8:
	movaps	192(%rsp), %xmm0
	movaps	208(%rsp), %xmm1
	movaps	224(%rsp), %xmm2
	movaps	240(%rsp), %xmm3
	movaps	%xmm3, 752(%rsp)
	movaps	%xmm2, 736(%rsp)
	movaps	%xmm1, 720(%rsp)
	movaps	%xmm0, 704(%rsp)
	cmpb	$0, 240(%r13)
	je	9f
	testq	%r12, %r12
	je	10f
	movq	304(%r13), %rax
	movq	%r12, %rsi
	shlq	$6, %rsi
	addq	$-64, %rsi
	subq	%rsi, %rax
	addq	296(%r13), %rsi
	cmpq	$64, %rax
	movl	$64, %edx
	cmovbq	%rax, %rdx
	jmp	11f
9:
	movq	304(%r13), %rax
	movq	%r12, %rsi
	shlq	$6, %rsi
	subq	%rsi, %rax
	addq	296(%r13), %rsi
	cmpq	$64, %rax
	movl	$64, %edx
	cmovbq	%rax, %rdx
	xorps	%xmm0, %xmm0
	movaps	%xmm0, 48(%rsp)
	movaps	%xmm0, 32(%rsp)
	movaps	%xmm0, 16(%rsp)
	movaps	%xmm0, (%rsp)
	movq	%rsp, %rdi
	vj_c_call	memcpy
	movaps	(%rsp), %xmm0
	movaps	16(%rsp), %xmm1
	movaps	32(%rsp), %xmm2
	movaps	48(%rsp), %xmm3
	movaps	%xmm0, 192(%rsp)
	movaps	%xmm1, 208(%rsp)
	movaps	%xmm2, 224(%rsp)
	movaps	%xmm3, 240(%rsp)
	jmp	12f
10:
	movq	248(%r13), %rsi
	movq	256(%r13), %rdx
11:
	xorps	%xmm0, %xmm0
	movaps	%xmm0, 48(%rsp)
	movaps	%xmm0, 32(%rsp)
	movaps	%xmm0, 16(%rsp)
	movaps	%xmm0, (%rsp)
	movq	%rsp, %rdi
	vj_c_call	memcpy
	movaps	(%rsp), %xmm0
	movaps	16(%rsp), %xmm1
	movaps	32(%rsp), %xmm2
	movaps	48(%rsp), %xmm3
	movaps	%xmm0, 128(%rsp)
	movaps	%xmm1, 144(%rsp)
	movaps	%xmm2, 160(%rsp)
	movaps	%xmm3, 176(%rsp)
	movaps	128(%rsp), %xmm0
	movaps	144(%rsp), %xmm1
	movaps	160(%rsp), %xmm2
	movaps	176(%rsp), %xmm3
	movaps	%xmm3, 240(%rsp)
	movaps	%xmm2, 224(%rsp)
	movaps	%xmm1, 208(%rsp)
	movaps	%xmm0, 192(%rsp)
12:
	movaps	192(%rsp), %xmm0
	movaps	208(%rsp), %xmm1
	movaps	224(%rsp), %xmm2
	movaps	240(%rsp), %xmm3
	movaps	%xmm3, 688(%rsp)
	movaps	%xmm2, 672(%rsp)
	movaps	%xmm1, 656(%rsp)
	movaps	%xmm0, 640(%rsp)
	cmpb	$0, 344(%r13)
	je	13f
	testq	%r12, %r12
	je	15f
	movq	408(%r13), %rax
	movq	%r12, %rsi
	shlq	$6, %rsi
	addq	$-64, %rsi
	jmp	14f
13:
	movq	408(%r13), %rax
	movq	%r12, %rsi
	shlq	$6, %rsi
14:
	subq	%rsi, %rax
	addq	400(%r13), %rsi
	cmpq	$64, %rax
	movl	$64, %edx
	cmovbq	%rax, %rdx
	jmp	16f
15:
	movq	352(%r13), %rsi
	movq	360(%r13), %rdx
16:
	xorps	%xmm0, %xmm0
	movaps	%xmm0, 304(%rsp)
	movaps	%xmm0, 288(%rsp)
	movaps	%xmm0, 272(%rsp)
	movaps	%xmm0, 256(%rsp)
	leaq	256(%rsp), %rdi
	vj_c_call	memcpy
	cmpb	$0, 448(%r13)
	je	17f
	testq	%r12, %r12
	je	19f
	movq	512(%r13), %rax
	movq	%r12, %rsi
	shlq	$6, %rsi
	addq	$-64, %rsi
	jmp	18f
17:
	movq	512(%r13), %rax
	movq	%r12, %rsi
	shlq	$6, %rsi
18:
	subq	%rsi, %rax
	addq	504(%r13), %rsi
	cmpq	$64, %rax
	movl	$64, %edx
	cmovbq	%rax, %rdx
	jmp	20f
19:
	movq	456(%r13), %rsi
	movq	464(%r13), %rdx
20:
	xorps	%xmm0, %xmm0
	movaps	%xmm0, 368(%rsp)
	movaps	%xmm0, 352(%rsp)
	movaps	%xmm0, 336(%rsp)
	movaps	%xmm0, 320(%rsp)
	leaq	320(%rsp), %rdi
	vj_c_call	memcpy
	cmpb	$0, 552(%r13)
	je	21f
	testq	%r12, %r12
	je	23f
	movq	616(%r13), %rax
	movq	%r12, %rsi
	shlq	$6, %rsi
	addq	$-64, %rsi
	jmp	22f
21:
	movq	616(%r13), %rax
	movq	%r12, %rsi
	shlq	$6, %rsi
22:
	subq	%rsi, %rax
	addq	608(%r13), %rsi
	cmpq	$64, %rax
	movl	$64, %edx
	cmovbq	%rax, %rdx
	jmp	24f
23:
	movq	560(%r13), %rsi
	movq	568(%r13), %rdx
24:
	xorps	%xmm0, %xmm0
	movaps	%xmm0, 432(%rsp)
	movaps	%xmm0, 416(%rsp)
	movaps	%xmm0, 400(%rsp)
	movaps	%xmm0, 384(%rsp)
	leaq	384(%rsp), %rdi
	vj_c_call	memcpy
	cmpb	$0, 656(%r13)
	je	25f
	testq	%r12, %r12
	je	27f
	movq	720(%r13), %rax
	movq	%r12, %rsi
	shlq	$6, %rsi
	addq	$-64, %rsi
	jmp	26f
25:
	movq	720(%r13), %rax
	movq	%r12, %rsi
	shlq	$6, %rsi
26:
	subq	%rsi, %rax
	addq	712(%r13), %rsi
	cmpq	$64, %rax
	movl	$64, %edx
	cmovbq	%rax, %rdx
	jmp	28f
27:
	movq	664(%r13), %rsi
	movq	672(%r13), %rdx
28:
	xorps	%xmm0, %xmm0
	movaps	%xmm0, 496(%rsp)
	movaps	%xmm0, 480(%rsp)
	movaps	%xmm0, 464(%rsp)
	movaps	%xmm0, 448(%rsp)
	leaq	448(%rsp), %rdi
	vj_c_call	memcpy
	cmpb	$0, 760(%r13)
	je	29f
	testq	%r12, %r12
	je	31f
	movq	824(%r13), %rax
	shlq	$6, %r12
	addq	$-64, %r12
	jmp	30f
29:
	movq	824(%r13), %rax
	shlq	$6, %r12
30:
	subq	%r12, %rax
	addq	816(%r13), %r12
	cmpq	$64, %rax
	movl	$64, %edx
	cmovbq	%rax, %rdx
	xorps	%xmm0, %xmm0
	movaps	%xmm0, 560(%rsp)
	movaps	%xmm0, 544(%rsp)
	movaps	%xmm0, 528(%rsp)
	movaps	%xmm0, 512(%rsp)
	leaq	512(%rsp), %rdi
	movq	%r12, %rsi
	jmp	32f
31:
	movq	768(%r13), %rsi
	movq	776(%r13), %rdx
	xorps	%xmm0, %xmm0
	movaps	%xmm0, 560(%rsp)
	movaps	%xmm0, 544(%rsp)
	movaps	%xmm0, 528(%rsp)
	movaps	%xmm0, 512(%rsp)
	leaq	512(%rsp), %rdi
32:
	vj_c_call	memcpy
	movq	%r15, 576(%rsp)
	movq	%r15, 584(%rsp)
	movq	%r15, 592(%rsp)
	movq	%r15, 600(%rsp)
	movq	%r15, 608(%rsp)
	movq	%r15, 616(%rsp)
	movq	%r15, 624(%rsp)
	movq	%r15, 632(%rsp)
	movaps	768(%rsp), %xmm0
	movaps	784(%rsp), %xmm1
	movaps	800(%rsp), %xmm2
	movaps	816(%rsp), %xmm3
	movaps	%xmm0, 192(%rsp)
	movaps	%xmm1, 208(%rsp)
	movaps	%xmm2, 224(%rsp)
	movaps	%xmm3, 240(%rsp)
	movaps	704(%rsp), %xmm0
	movaps	720(%rsp), %xmm1
	movaps	736(%rsp), %xmm2
	movaps	752(%rsp), %xmm3
	movaps	%xmm0, 128(%rsp)
	movaps	%xmm1, 144(%rsp)
	movaps	%xmm2, 160(%rsp)
	movaps	%xmm3, 176(%rsp)
	movaps	640(%rsp), %xmm0
	movaps	656(%rsp), %xmm1
	movaps	672(%rsp), %xmm2
	movaps	688(%rsp), %xmm3
	movaps	%xmm3, 1200(%rsp)
	movaps	%xmm2, 1184(%rsp)
	movaps	%xmm1, 1168(%rsp)
	movaps	%xmm0, 1152(%rsp)
	movaps	256(%rsp), %xmm0
	movaps	272(%rsp), %xmm1
	movaps	288(%rsp), %xmm2
	movaps	304(%rsp), %xmm3
	movaps	%xmm3, 1136(%rsp)
	movaps	%xmm2, 1120(%rsp)
	movaps	%xmm1, 1104(%rsp)
	movaps	%xmm0, 1088(%rsp)
	movaps	320(%rsp), %xmm0
	movaps	336(%rsp), %xmm1
	movaps	352(%rsp), %xmm2
	movaps	368(%rsp), %xmm3
	movaps	%xmm3, 1072(%rsp)
	movaps	%xmm2, 1056(%rsp)
	movaps	%xmm1, 1040(%rsp)
	movaps	%xmm0, 1024(%rsp)
	movaps	384(%rsp), %xmm0
	movaps	400(%rsp), %xmm1
	movaps	416(%rsp), %xmm2
	movaps	432(%rsp), %xmm3
	movaps	%xmm3, 1008(%rsp)
	movaps	%xmm2, 992(%rsp)
	movaps	%xmm1, 976(%rsp)
	movaps	%xmm0, 960(%rsp)
	movaps	448(%rsp), %xmm0
	movaps	464(%rsp), %xmm1
	movaps	480(%rsp), %xmm2
	movaps	496(%rsp), %xmm3
	movaps	%xmm3, 944(%rsp)
	movaps	%xmm2, 928(%rsp)
	movaps	%xmm1, 912(%rsp)
	movaps	%xmm0, 896(%rsp)
	movaps	512(%rsp), %xmm0
	movaps	528(%rsp), %xmm1
	movaps	544(%rsp), %xmm2
	movaps	560(%rsp), %xmm3
	movaps	%xmm3, 880(%rsp)
	movaps	%xmm2, 864(%rsp)
	movaps	%xmm1, 848(%rsp)
	movaps	%xmm0, 832(%rsp)
	leaq	192(%rsp), %rax
	movq	%rax, (%rsp)
	movq	$1, 8(%rsp)
	leaq	128(%rsp), %rax
	movq	%rax, 16(%rsp)
	movq	$1, 24(%rsp)
	leaq	1152(%rsp), %rax
	movq	%rax, 32(%rsp)
	movq	$1, 40(%rsp)
	leaq	1088(%rsp), %rax
	movq	%rax, 48(%rsp)
	movq	$1, 56(%rsp)
	leaq	1024(%rsp), %rax
	movq	%rax, 64(%rsp)
	movq	$1, 72(%rsp)
	leaq	960(%rsp), %rax
	movq	%rax, 80(%rsp)
	movq	$1, 88(%rsp)
	leaq	896(%rsp), %rax
	movq	%rax, 96(%rsp)
	movq	$1, 104(%rsp)
	leaq	832(%rsp), %rax
	movq	%rax, 112(%rsp)
	movq	$1, 120(%rsp)
	movq	%rsp, %rsi
	leaq	576(%rsp), %rdx
	movq	%r14, %rdi
	movq	%rbx, %rcx
	callq	blake2_compress..many..blake2s..compress_blocks_1_v2
	addq	$1216, %rsp
	popq	%rbx
	popq	%r12
	popq	%r13
	popq	%r14
	popq	%r15
	retq
	vj_end	blake2_compress..many..blake2s..compress_at_1_v2

	vj_export	vulfsjor_ffi_blake2b_count_1_v2
	movl	144(%rdi), %eax
	decl	%eax
	cmpl	$63, %eax
	ja	1f
	movl	136(%rdi), %eax
	cmpq	$128, %rax
	ja	1f
	movl	140(%rdi), %ecx
	cmpq	$128, %rcx
	ja	1f
	movq	128(%rdi), %rdx
	movl	%eax, %esi
	notl	%esi
	movslq	%esi, %rsi
	cmpq	%rsi, %rdx
	jbe	2f
1:
	xorl	%eax, %eax
	retq
2:
	addq	%rax, %rdx
	xorl	%eax, %eax
	subq	%rcx, %rdx
	cmovaeq	%rdx, %rax
	retq
	vj_end	vulfsjor_ffi_blake2b_count_1_v2

	vj_export	vulfsjor_ffi_blake2b_digest_size_1_v2
	movl	144(%rdi), %eax
	leal	-1(%rax), %ecx
	cmpl	$63, %ecx
	ja	1f
	movl	136(%rdi), %ecx
	cmpl	$128, %ecx
	ja	1f
	cmpl	$128, 140(%rdi)
	ja	1f
	notl	%ecx
	movslq	%ecx, %rcx
	xorl	%edx, %edx
	cmpq	%rcx, 128(%rdi)
	cmovaq	%rdx, %rax
	retq
1:
	xorl	%eax, %eax
	retq
	vj_end	vulfsjor_ffi_blake2b_digest_size_1_v2

	vj_export	vulfsjor_ffi_blake2b_final_1_v2
	xorl	%ecx, %ecx
	testq	%rsi, %rsi
	sete	%r8b
	movl	144(%rdi), %r9d
	leal	-1(%r9), %r10d
	movl	$-1, %eax
	cmpl	$63, %r10d
	ja	2f
	movl	136(%rdi), %r10d
	cmpl	$128, %r10d
	ja	2f
	pushq	%r14
	pushq	%rbx
	pushq	%rax
	movl	140(%rdi), %ebx
	cmpq	$128, %rbx
	ja	1f
	movq	128(%rdi), %r14
	notl	%r10d
	movslq	%r10d, %r10
	cmpq	%r10, %r14
	setbe	%r10b
	cmpq	%r9, %rdx
	sete	%dl
	andb	%r10b, %dl
	cmpb	$1, %dl
	jne	1f
	movb	%r8b, %cl
	shll	$12, %ecx
	addq	%rcx, %rsi
	callq	blake2_ffi..blake2b..finalize_1_v2
	xorl	%eax, %eax
	cmpq	%rbx, %r14
	jae	1f
	callq	blake2_digest..wiping..scrub_stack..1664_1_v2
	xorl	%eax, %eax
1:
	addq	$8, %rsp
	popq	%rbx
	popq	%r14
2:
	retq
	vj_end	vulfsjor_ffi_blake2b_final_1_v2

	vj_constants	16
	.p2align	4, 0x0
.L1_v2_CPI115_0:
	.quad	4354685564936845355
	.quad	-6534734903238641935
.L1_v2_CPI115_1:
	.quad	7640891576956012808
	.quad	-4942790177534073029
.L1_v2_CPI115_2:
	.quad	2270897969802886507
	.quad	6620516959819538809
.L1_v2_CPI115_3:
	.quad	5840696475078001361
	.quad	-7276294671716946913
	vj_export	vulfsjor_ffi_blake2b_init_param_1_v2
	xorl	%eax, %eax
	testq	%rsi, %rsi
	sete	%cl
	cmpq	$64, %rdx
	jne	1f
	movb	%cl, %al
	shll	$12, %eax
	movzbl	(%rsi,%rax), %ecx
	addb	$-65, %cl
	cmpb	$-64, %cl
	jb	1f
	cmpb	$64, 1(%rsi,%rax)
	jbe	2f
1:
	pushq	%rax
	movl	$344, %edx
	xorl	%esi, %esi
	vj_c_call	memset
	movl	$-1, %eax
	addq	$8, %rsp
	retq
2:
	movdqu	(%rsi,%rax), %xmm0
	movups	16(%rsi,%rax), %xmm1
	movups	48(%rsi,%rax), %xmm2
	xorps	.L1_v2_CPI115_0(%rip), %xmm1
	pextrb	$0, %xmm0, %ecx
	pxor	.L1_v2_CPI115_1(%rip), %xmm0
	xorps	.L1_v2_CPI115_2(%rip), %xmm2
	movups	32(%rsi,%rax), %xmm3
	xorps	.L1_v2_CPI115_3(%rip), %xmm3
	movdqu	%xmm0, (%rdi)
	movups	%xmm1, 16(%rdi)
	movups	%xmm3, 32(%rdi)
	movups	%xmm2, 48(%rdi)
	movdqu	%xmm0, 64(%rdi)
	movups	%xmm1, 80(%rdi)
	movups	%xmm3, 96(%rdi)
	movups	%xmm2, 112(%rdi)
	pxor	%xmm0, %xmm0
	movdqu	%xmm0, 128(%rdi)
	movl	%ecx, 144(%rdi)
	movdqu	%xmm0, 324(%rdi)
	movdqu	%xmm0, 308(%rdi)
	movdqu	%xmm0, 292(%rdi)
	movdqu	%xmm0, 276(%rdi)
	movdqu	%xmm0, 260(%rdi)
	movdqu	%xmm0, 244(%rdi)
	movdqu	%xmm0, 228(%rdi)
	movdqu	%xmm0, 212(%rdi)
	movdqu	%xmm0, 196(%rdi)
	movdqu	%xmm0, 180(%rdi)
	movdqu	%xmm0, 164(%rdi)
	movdqu	%xmm0, 148(%rdi)
	movl	$0, 340(%rdi)
	xorl	%eax, %eax
	retq
	vj_end	vulfsjor_ffi_blake2b_init_param_1_v2

	vj_export	vulfsjor_ffi_blake2b_init_salt_personal_1_v2
	pushq	%rbx
	subq	$80, %rsp
	movq	%rcx, %rbx
	movq	104(%rsp), %rax
	movq	96(%rsp), %r10
	xorl	%ecx, %ecx
	testq	%rdx, %rdx
	sete	%cl
	shll	$12, %ecx
	addq	%rdx, %rcx
	xorl	%edx, %edx
	testq	%r8, %r8
	sete	%dl
	shll	$12, %edx
	addq	%r8, %rdx
	xorl	%r8d, %r8d
	testq	%r10, %r10
	sete	%r8b
	shll	$12, %r8d
	addq	%r10, %r8
	movq	%rsi, 24(%rsp)
	movq	%rcx, 32(%rsp)
	movq	%rbx, 40(%rsp)
	movq	%rdx, 48(%rsp)
	movq	%r9, 56(%rsp)
	movq	%r8, 64(%rsp)
	movq	%rax, 72(%rsp)
	movw	$257, (%rsp)
	xorps	%xmm0, %xmm0
	movups	%xmm0, 2(%rsp)
	movq	$0, 16(%rsp)
	leaq	24(%rsp), %rsi
	movq	%rsp, %rdx
	callq	blake2_ffi..blake2b..initialize_1_v2
	testq	%rbx, %rbx
	je	1f
	movl	%eax, %ebx
	callq	blake2_digest..wiping..scrub_stack..1024_1_v2
	movl	%ebx, %eax
1:
	addq	$80, %rsp
	popq	%rbx
	retq
	vj_end	vulfsjor_ffi_blake2b_init_salt_personal_1_v2

	vj_export	vulfsjor_ffi_blake2b_init_key_1_v2
	pushq	%rbx
	subq	$80, %rsp
	testq	%rcx, %rcx
	je	1f
	xorl	%eax, %eax
	testq	%rdx, %rdx
	sete	%al
	shll	$12, %eax
	addq	%rdx, %rax
	movq	%rsi, 24(%rsp)
	movq	%rax, 32(%rsp)
	movq	%rcx, 40(%rsp)
	leaq	.L1_v2_static.2(%rip), %rax
	movq	%rax, 48(%rsp)
	movq	$0, 56(%rsp)
	movq	%rax, 64(%rsp)
	movq	$0, 72(%rsp)
	movw	$257, (%rsp)
	xorps	%xmm0, %xmm0
	movups	%xmm0, 2(%rsp)
	movq	$0, 16(%rsp)
	leaq	24(%rsp), %rsi
	movq	%rsp, %rdx
	callq	blake2_ffi..blake2b..initialize_1_v2
	movl	%eax, %ebx
	callq	blake2_digest..wiping..scrub_stack..1024_1_v2
	movl	%ebx, %eax
	addq	$80, %rsp
	popq	%rbx
	retq
1:
	movl	$344, %edx
	xorl	%esi, %esi
	vj_c_call	memset
	movl	$-1, %ebx
	movl	%ebx, %eax
	addq	$80, %rsp
	popq	%rbx
	retq
	vj_end	vulfsjor_ffi_blake2b_init_key_1_v2

	vj_export	vulfsjor_ffi_blake2b_init_tree_1_v2
	pushq	%rbp
	pushq	%r14
	pushq	%rbx
	subq	$80, %rsp
	movq	128(%rsp), %rax
	movzbl	12(%rax), %r10d
	movzbl	13(%rax), %r11d
	movl	8(%rax), %ebx
	movq	(%rax), %r14
	movzbl	14(%rax), %ebp
	movzbl	15(%rax), %eax
	movb	%r10b, (%rsp)
	movb	%r11b, 1(%rsp)
	movw	$0, 2(%rsp)
	movl	%ebx, 4(%rsp)
	movq	%r14, 8(%rsp)
	movb	%bpl, 16(%rsp)
	movb	%al, 17(%rsp)
	movl	$0, 18(%rsp)
	movw	$0, 22(%rsp)
	testb	%r11b, %r11b
	setne	%r10b
	cmpb	$65, %al
	setb	%al
	testb	%al, %r10b
	je	1f
	movq	120(%rsp), %rax
	movq	112(%rsp), %r11
	xorl	%r10d, %r10d
	testq	%r11, %r11
	sete	%r10b
	shll	$12, %r10d
	addq	%r11, %r10
	xorl	%r11d, %r11d
	testq	%r8, %r8
	sete	%r11b
	shll	$12, %r11d
	addq	%r8, %r11
	xorl	%r8d, %r8d
	testq	%rdx, %rdx
	sete	%r8b
	shll	$12, %r8d
	addq	%rdx, %r8
	movq	%rsi, 24(%rsp)
	movq	%r8, 32(%rsp)
	movq	%rcx, 40(%rsp)
	movq	%r11, 48(%rsp)
	movq	%r9, 56(%rsp)
	movq	%r10, 64(%rsp)
	movq	%rax, 72(%rsp)
	leaq	24(%rsp), %rsi
	movq	%rsp, %rdx
	movq	%rcx, %rbx
	callq	blake2_ffi..blake2b..initialize_1_v2
	testq	%rbx, %rbx
	je	2f
	movl	%eax, %ebx
	callq	blake2_digest..wiping..scrub_stack..1024_1_v2
	movl	%ebx, %eax
	jmp	2f
1:
	movl	$344, %edx
	xorl	%esi, %esi
	vj_c_call	memset
	movl	$-1, %eax
2:
	addq	$80, %rsp
	popq	%rbx
	popq	%r14
	popq	%rbp
	retq
	vj_end	vulfsjor_ffi_blake2b_init_tree_1_v2

	vj_export	vulfsjor_ffi_blake2b_load_1_v2
	pushq	%rbp
	pushq	%r15
	pushq	%r14
	pushq	%r13
	pushq	%r12
	pushq	%rbx
	subq	$1064, %rsp
	xorl	%eax, %eax
	testq	%rsi, %rsi
	sete	%cl
	cmpq	$275, %rdx
	jne	2f
	movq	%rsi, %rbx
	movq	%rdi, 24(%rsp)
	movb	%cl, %al
	shll	$12, %eax
	addq	%rax, %rbx
	movq	8(%rbx), %r12
	movq	16(%rbx), %rax
	movq	%rax, 32(%rsp)
	movq	24(%rbx), %rax
	movq	%rax, 40(%rsp)
	movq	32(%rbx), %rdx
	movq	40(%rbx), %rbp
	movq	48(%rbx), %rsi
	movq	56(%rbx), %rdi
	movq	64(%rbx), %r8
	movq	72(%rbx), %r9
	movq	80(%rbx), %r10
	movq	88(%rbx), %r11
	movq	96(%rbx), %r15
	movq	104(%rbx), %r14
	movq	112(%rbx), %rax
	movq	%rax, 152(%rsp)
	movq	120(%rbx), %rax
	movq	%rax, 144(%rsp)
	movq	128(%rbx), %rax
	movq	%rax, 136(%rsp)
	movq	136(%rbx), %rcx
	movzbl	145(%rbx), %r13d
	movzbl	144(%rbx), %eax
	movl	%eax, 16(%rsp)
	movzbl	146(%rbx), %eax
	movl	%eax, 12(%rsp)
	movq	%r12, 64(%rsp)
	movq	%r12, 160(%rsp)
	movq	32(%rsp), %rax
	movq	%rax, 168(%rsp)
	movq	40(%rsp), %rax
	movq	%rax, 176(%rsp)
	movq	%rdx, 128(%rsp)
	movq	%rdx, 184(%rsp)
	movq	%rbp, 56(%rsp)
	movq	%rbp, 192(%rsp)
	movq	136(%rsp), %rbp
	movq	%rsi, 120(%rsp)
	movq	%rsi, 200(%rsp)
	movq	%rdi, 112(%rsp)
	movq	%rdi, 208(%rsp)
	movq	%r8, 104(%rsp)
	movq	%r8, 216(%rsp)
	movq	%r9, 96(%rsp)
	movq	%r9, 224(%rsp)
	movq	%r10, 88(%rsp)
	movq	%r10, 232(%rsp)
	movq	%r11, 80(%rsp)
	movq	%r11, 240(%rsp)
	movq	%r15, 72(%rsp)
	movq	%r15, 248(%rsp)
	movq	152(%rsp), %r15
	movq	%r14, %r12
	movq	%r14, 256(%rsp)
	movq	144(%rsp), %r14
	movq	%r15, 264(%rsp)
	movq	%r14, 272(%rsp)
	movq	%rbp, 280(%rsp)
	movq	%rcx, 48(%rsp)
	movq	%rcx, 288(%rsp)
	movl	%r13d, 20(%rsp)
	movl	%r13d, 296(%rsp)
	movl	$0, 300(%rsp)
	movl	16(%rsp), %eax
	movl	%eax, 304(%rsp)
	movl	12(%rsp), %eax
	movl	%eax, 308(%rsp)
	movups	259(%rbx), %xmm0
	movups	%xmm0, 424(%rsp)
	movups	243(%rbx), %xmm0
	movups	%xmm0, 408(%rsp)
	movups	227(%rbx), %xmm0
	movups	%xmm0, 392(%rsp)
	movups	211(%rbx), %xmm0
	movups	%xmm0, 376(%rsp)
	movups	147(%rbx), %xmm0
	movups	163(%rbx), %xmm1
	movups	179(%rbx), %xmm2
	movups	195(%rbx), %xmm3
	movups	%xmm3, 360(%rsp)
	movups	%xmm2, 344(%rsp)
	movups	%xmm1, 328(%rsp)
	movups	%xmm0, 312(%rsp)
	xorps	%xmm0, %xmm0
	movups	%xmm0, 440(%rsp)
	movups	%xmm0, 456(%rsp)
	movups	%xmm0, 472(%rsp)
	movups	%xmm0, 488(%rsp)
	leaq	788(%rsp), %rdi
	leaq	160(%rsp), %rsi
	callq	blake2_state..blake2b..State..save_1_v2
	cmpb	$1, 788(%rsp)
	jne	1f
	leaq	789(%rsp), %rsi
	leaq	512(%rsp), %rdi
	movl	$275, %edx
	vj_c_call	memcpy
	movl	(%rbx), %eax
	cmpl	512(%rsp), %eax
	jne	1f
	leaq	512(%rsp), %rdx
	movl	$275, %esi
	movq	%rbx, %rdi
	callq	core..cmp..slices..groups_equal..i8.31.core..cmp..numbers..U8PartialEq_1_v2
	testb	%al, %al
	movq	24(%rsp), %rdi
	je	2f
	addq	$147, %rbx
	movups	(%rbx), %xmm0
	movups	16(%rbx), %xmm1
	movups	32(%rbx), %xmm2
	movups	48(%rbx), %xmm3
	movaps	%xmm0, 160(%rsp)
	movaps	%xmm1, 176(%rsp)
	movaps	%xmm2, 192(%rsp)
	movaps	%xmm3, 208(%rsp)
	movups	64(%rbx), %xmm0
	movaps	%xmm0, 224(%rsp)
	movups	80(%rbx), %xmm0
	movaps	%xmm0, 240(%rsp)
	movups	96(%rbx), %xmm0
	movaps	%xmm0, 256(%rsp)
	movups	112(%rbx), %xmm0
	movaps	%xmm0, 272(%rsp)
	movq	64(%rsp), %rax
	movq	%rax, (%rdi)
	movq	32(%rsp), %rax
	movq	%rax, 8(%rdi)
	movq	40(%rsp), %rax
	movq	%rax, 16(%rdi)
	movq	128(%rsp), %rax
	movq	%rax, 24(%rdi)
	movq	56(%rsp), %rax
	movq	%rax, 32(%rdi)
	movq	120(%rsp), %rax
	movq	%rax, 40(%rdi)
	movq	112(%rsp), %rax
	movq	%rax, 48(%rdi)
	movq	104(%rsp), %rax
	movq	%rax, 56(%rdi)
	movq	96(%rsp), %rax
	movq	%rax, 64(%rdi)
	movq	88(%rsp), %rax
	movq	%rax, 72(%rdi)
	movq	80(%rsp), %rax
	movq	%rax, 80(%rdi)
	movq	72(%rsp), %rax
	movq	%rax, 88(%rdi)
	movq	%r12, 96(%rdi)
	movq	%r15, 104(%rdi)
	movq	%r14, 112(%rdi)
	movq	%rbp, 120(%rdi)
	movq	48(%rsp), %rax
	movq	%rax, 128(%rdi)
	movl	20(%rsp), %eax
	movl	%eax, 136(%rdi)
	movl	$0, 140(%rdi)
	movl	16(%rsp), %eax
	movl	%eax, 144(%rdi)
	movl	12(%rsp), %eax
	movl	%eax, 148(%rdi)
	movaps	272(%rsp), %xmm0
	movups	%xmm0, 264(%rdi)
	movaps	256(%rsp), %xmm0
	movups	%xmm0, 248(%rdi)
	movaps	240(%rsp), %xmm0
	movups	%xmm0, 232(%rdi)
	movaps	224(%rsp), %xmm0
	movups	%xmm0, 216(%rdi)
	movaps	160(%rsp), %xmm0
	movaps	176(%rsp), %xmm1
	movaps	192(%rsp), %xmm2
	movaps	208(%rsp), %xmm3
	movups	%xmm3, 200(%rdi)
	movups	%xmm2, 184(%rdi)
	movups	%xmm1, 168(%rdi)
	movups	%xmm0, 152(%rdi)
	xorps	%xmm0, %xmm0
	movups	%xmm0, 328(%rdi)
	movups	%xmm0, 312(%rdi)
	movups	%xmm0, 296(%rdi)
	movups	%xmm0, 280(%rdi)
	xorl	%eax, %eax
	jmp	3f
1:
	movq	24(%rsp), %rdi
2:
	movl	$344, %edx
	xorl	%esi, %esi
	vj_c_call	memset
	movl	$-1, %eax
3:
	addq	$1064, %rsp
	popq	%rbx
	popq	%r12
	popq	%r13
	popq	%r14
	popq	%r15
	popq	%rbp
	retq
	vj_end	vulfsjor_ffi_blake2b_load_1_v2

	vj_export	vulfsjor_ffi_blake2b_reset_1_v2
	movl	144(%rdi), %ecx
	decl	%ecx
	movl	$-1, %eax
	cmpl	$63, %ecx
	ja	1f
	movl	136(%rdi), %edx
	cmpl	$128, %edx
	ja	1f
	movl	140(%rdi), %ecx
	cmpl	$128, %ecx
	ja	1f
	notl	%edx
	movslq	%edx, %rdx
	cmpq	%rdx, 128(%rdi)
	ja	1f
	movups	64(%rdi), %xmm0
	movups	80(%rdi), %xmm1
	movups	96(%rdi), %xmm2
	movups	112(%rdi), %xmm3
	movups	%xmm3, 48(%rdi)
	movups	%xmm2, 32(%rdi)
	movups	%xmm1, 16(%rdi)
	movups	%xmm0, (%rdi)
	movq	$0, 128(%rdi)
	movl	%ecx, 136(%rdi)
	xorps	%xmm0, %xmm0
	movups	%xmm0, 216(%rdi)
	movups	%xmm0, 232(%rdi)
	movups	%xmm0, 248(%rdi)
	movups	%xmm0, 264(%rdi)
	movups	280(%rdi), %xmm0
	movups	%xmm0, 152(%rdi)
	movups	296(%rdi), %xmm0
	movups	%xmm0, 168(%rdi)
	movups	312(%rdi), %xmm0
	movups	%xmm0, 184(%rdi)
	movups	328(%rdi), %xmm0
	movups	%xmm0, 200(%rdi)
	xorl	%eax, %eax
1:
	retq
	vj_end	vulfsjor_ffi_blake2b_reset_1_v2

	vj_export	vulfsjor_ffi_blake2b_save_1_v2
	pushq	%rbp
	pushq	%r15
	pushq	%r14
	pushq	%rbx
	subq	$280, %rsp
	movq	%rsi, %rbx
	xorl	%r14d, %r14d
	testq	%rsi, %rsi
	sete	%r15b
	movl	$-1, %ebp
	cmpq	$275, %rdx
	jne	1f
	movq	%rdi, %rsi
	leaq	4(%rsp), %rdi
	callq	blake2_state..blake2b..State..save_1_v2
	cmpb	$1, 4(%rsp)
	jne	1f
	movb	%r15b, %r14b
	shll	$12, %r14d
	addq	%r14, %rbx
	leaq	5(%rsp), %rsi
	movl	$275, %edx
	movq	%rbx, %rdi
	vj_c_call	memcpy
	xorl	%ebp, %ebp
1:
	movl	%ebp, %eax
	addq	$280, %rsp
	popq	%rbx
	popq	%r14
	popq	%r15
	popq	%rbp
	retq
	vj_end	vulfsjor_ffi_blake2b_save_1_v2

	vj_export	vulfsjor_ffi_blake2b_set_last_node_1_v2
	movl	144(%rdi), %ecx
	decl	%ecx
	movl	$-1, %eax
	cmpl	$63, %ecx
	ja	1f
	movl	136(%rdi), %ecx
	cmpl	$128, %ecx
	ja	1f
	cmpl	$128, 140(%rdi)
	ja	1f
	notl	%ecx
	movslq	%ecx, %rcx
	cmpq	%rcx, 128(%rdi)
	ja	1f
	xorl	%eax, %eax
	testl	%esi, %esi
	setne	%al
	movl	%eax, 148(%rdi)
	xorl	%eax, %eax
1:
	retq
	vj_end	vulfsjor_ffi_blake2b_set_last_node_1_v2

	vj_export	vulfsjor_ffi_blake2b_state_size_1_v2
	movl	$344, %eax
	retq
	vj_end	vulfsjor_ffi_blake2b_state_size_1_v2

	vj_export	vulfsjor_ffi_blake2b_update_1_v2
	xorl	%r8d, %r8d
	testq	%rsi, %rsi
	sete	%r9b
	movl	144(%rdi), %ecx
	decl	%ecx
	movl	$-1, %eax
	cmpl	$63, %ecx
	ja	6f
	movl	136(%rdi), %ecx
	cmpq	$128, %rcx
	ja	6f
	movl	140(%rdi), %r10d
	cmpq	$128, %r10
	ja	6f
	pushq	%rbx
	movq	128(%rdi), %r11
	movl	%ecx, %ebx
	notl	%ebx
	movslq	%ebx, %rbx
	cmpq	%rbx, %r11
	ja	5f
	leaq	(%r11,%rcx), %rbx
	addq	%rdx, %rbx
	jb	5f
	movb	%r9b, %r8b
	shll	$12, %r8d
	addq	%r8, %rsi
	cmpq	%r10, %r11
	jae	1f
	callq	blake2_ffi..blake2b..update_scrubbed_1_v2
	jmp	4f
1:
	cmpq	$1, %rdx
	jne	2f
	cmpl	$128, %ecx
	jne	3f
	movl	$1, %edx
2:
	callq	blake2_state..blake2b..State..absorb_blocks_1_v2
	jmp	4f
3:
	movzbl	(%rsi), %eax
	movb	%al, 152(%rdi,%rcx)
	leal	1(%rcx), %eax
	movl	%eax, 136(%rdi)
4:
	xorl	%eax, %eax
5:
	popq	%rbx
6:
	retq
	vj_end	vulfsjor_ffi_blake2b_update_1_v2

	vj_export	vulfsjor_ffi_blake2b_update_many_1_v2
	xorl	%r8d, %r8d
	testq	%rdi, %rdi
	sete	%r11b
	xorl	%r9d, %r9d
	testq	%rdx, %rdx
	sete	%r10b
	movl	$-1, %eax
	cmpq	%rsi, %rcx
	jne	7f
	pushq	%rbp
	pushq	%r15
	pushq	%r14
	pushq	%rbx
	pushq	%rax
	movb	%r11b, %r8b
	shll	$12, %r8d
	movb	%r10b, %r9b
	shll	$12, %r9d
	testq	%rcx, %rcx
	je	2f
	leaq	(%r9,%rdx), %rsi
	addq	$8, %rsi
	leaq	(%r8,%rdi), %r10
	addq	$144, %r10
	movq	%rcx, %r11
	.p2align	4
1:
	movl	(%r10), %ebx
	decl	%ebx
	cmpl	$63, %ebx
	ja	6f
	movl	-8(%r10), %ebx
	cmpq	$128, %rbx
	ja	6f
	cmpl	$128, -4(%r10)
	ja	6f
	movq	-16(%r10), %r14
	movl	%ebx, %ebp
	notl	%ebp
	movslq	%ebp, %r15
	cmpq	%r15, %r14
	ja	6f
	addq	%rbx, %r14
	addq	(%rsi), %r14
	jb	6f
	addq	$16, %rsi
	addq	$344, %r10
	decq	%r11
	jne	1b
2:
	leaq	(%rdi,%r8), %rax
	addq	%r9, %rdx
	addq	%r8, %rdi
	addq	$140, %rdi
	movq	$-1, %rsi
	.p2align	4
3:
	incq	%rsi
	cmpq	%rsi, %rcx
	je	4f
	movl	(%rdi), %r8d
	cmpq	%r8, -12(%rdi)
	leaq	344(%rdi), %rdi
	jae	3b
	movq	%rax, %rdi
	movq	%rdx, %rsi
	movq	%rcx, %rdx
	callq	blake2_ffi..several..blake2b..update_in_frame_1_v2
	callq	blake2_digest..wiping..scrub_stack..9216_1_v2
	jmp	5f
4:
	movq	%rax, %rdi
	movq	%rdx, %rsi
	movq	%rcx, %rdx
	callq	blake2_ffi..several..blake2b..update_in_frame_1_v2
5:
	xorl	%eax, %eax
6:
	addq	$8, %rsp
	popq	%rbx
	popq	%r14
	popq	%r15
	popq	%rbp
7:
	retq
	vj_end	vulfsjor_ffi_blake2b_update_many_1_v2

	vj_export	vulfsjor_ffi_blake2b_verify_1_v2
	xorl	%ecx, %ecx
	testq	%rsi, %rsi
	sete	%r8b
	movl	144(%rdi), %r9d
	decl	%r9d
	movl	$-1, %eax
	cmpl	$63, %r9d
	ja	3f
	movl	136(%rdi), %r9d
	cmpl	$128, %r9d
	ja	3f
	pushq	%r15
	pushq	%r14
	pushq	%r12
	pushq	%rbx
	pushq	%rax
	movl	140(%rdi), %r15d
	cmpq	$128, %r15
	ja	2f
	movq	128(%rdi), %r12
	notl	%r9d
	movslq	%r9d, %r9
	cmpq	%r9, %r12
	ja	2f
	movzbl	65(%rdi), %r9d
	shll	$8, %r9d
	cmpl	$51456, %r9d
	je	2f
	movb	%r8b, %cl
	shll	$12, %ecx
	addq	%rcx, %rsi
	movq	%rdi, %r14
	callq	blake2_ffi..blake2b..is_digest_of_1_v2
	movl	%eax, %ebx
	movl	$344, %edx
	movq	%r14, %rdi
	xorl	%esi, %esi
	vj_c_call	memset
	cmpq	%r15, %r12
	jae	1f
	callq	blake2_digest..wiping..scrub_stack..1664_1_v2
1:
	movzbl	%bl, %eax
	decl	%eax
2:
	addq	$8, %rsp
	popq	%rbx
	popq	%r12
	popq	%r14
	popq	%r15
3:
	retq
	vj_end	vulfsjor_ffi_blake2b_verify_1_v2

	vj_export	vulfsjor_ffi_blake2b_wipe_1_v2
	movl	$344, %edx
	xorl	%esi, %esi
	vj_c_jump	memset
	vj_end	vulfsjor_ffi_blake2b_wipe_1_v2

	vj_export	vulfsjor_ffi_blake2bp_count_1_v2
	movq	1496(%rdi), %rax
	decq	%rax
	cmpq	$63, %rax
	ja	1f
	movq	264(%rdi), %rax
	cmpq	$896, %rax
	ja	1f
	movq	256(%rdi), %rcx
	movq	%rax, %rdx
	notq	%rdx
	shrq	$2, %rdx
	cmpq	%rdx, %rcx
	ja	1f
	movq	1488(%rdi), %rdx
	cmpq	$512, %rdx
	ja	1f
	leaq	(%rax,%rcx,4), %rcx
	xorl	%eax, %eax
	subq	%rdx, %rcx
	cmovaeq	%rcx, %rax
	retq
1:
	xorl	%eax, %eax
	retq
	vj_end	vulfsjor_ffi_blake2bp_count_1_v2

	vj_export	vulfsjor_ffi_blake2bp_digest_size_1_v2
	movq	1496(%rdi), %rcx
	leaq	-1(%rcx), %rax
	cmpq	$63, %rax
	ja	1f
	movq	264(%rdi), %rax
	cmpq	$896, %rax
	ja	1f
	notq	%rax
	shrq	$2, %rax
	cmpq	%rax, 256(%rdi)
	jbe	2f
1:
	xorl	%eax, %eax
	retq
2:
	xorl	%eax, %eax
	cmpq	$513, 1488(%rdi)
	cmovbq	%rcx, %rax
	retq
	vj_end	vulfsjor_ffi_blake2bp_digest_size_1_v2

	vj_export	vulfsjor_ffi_blake2bp_final_1_v2
	xorl	%ecx, %ecx
	testq	%rsi, %rsi
	sete	%r8b
	movq	1496(%rdi), %r10
	leaq	-1(%r10), %r9
	movl	$-1, %eax
	cmpq	$63, %r9
	ja	4f
	movq	264(%rdi), %r11
	cmpq	$896, %r11
	ja	4f
	movq	256(%rdi), %r9
	notq	%r11
	shrq	$2, %r11
	cmpq	%r11, %r9
	ja	4f
	pushq	%rbx
	movq	1488(%rdi), %rbx
	cmpq	$513, %rbx
	setae	%r11b
	cmpq	%r10, %rdx
	setne	%dl
	orb	%r11b, %dl
	jne	3f
	movb	%r8b, %cl
	shll	$12, %ecx
	addq	%rcx, %rsi
	testq	%r9, %r9
	je	1f
	callq	blake2_ffi..blake2bp..finalize_1_v2
	jmp	2f
1:
	callq	blake2_ffi..blake2bp..finalize_1_v2
	xorl	%eax, %eax
	testq	%rbx, %rbx
	je	3f
	callq	blake2_digest..wiping..scrub_stack..5632_1_v2
2:
	xorl	%eax, %eax
3:
	popq	%rbx
4:
	retq
	vj_end	vulfsjor_ffi_blake2bp_final_1_v2

	vj_export	vulfsjor_ffi_blake2bp_init_salt_personal_1_v2
	pushq	%rbx
	subq	$16, %rsp
	movq	%rcx, %rbx
	movq	40(%rsp), %rax
	movq	32(%rsp), %rcx
	xorl	%r10d, %r10d
	testq	%rdx, %rdx
	sete	%r10b
	shll	$12, %r10d
	addq	%r10, %rdx
	xorl	%r10d, %r10d
	testq	%r8, %r8
	sete	%r10b
	shll	$12, %r10d
	addq	%r10, %r8
	xorl	%r10d, %r10d
	testq	%rcx, %rcx
	sete	%r10b
	shll	$12, %r10d
	addq	%rcx, %r10
	movq	%rax, 8(%rsp)
	movq	%r10, (%rsp)
	movq	%rbx, %rcx
	callq	blake2_ffi..blake2bp..initialize_1_v2
	testq	%rbx, %rbx
	je	1f
	movl	%eax, %ebx
	callq	blake2_digest..wiping..scrub_stack..5120_1_v2
	movl	%ebx, %eax
1:
	addq	$16, %rsp
	popq	%rbx
	retq
	vj_end	vulfsjor_ffi_blake2bp_init_salt_personal_1_v2

	vj_export	vulfsjor_ffi_blake2bp_init_key_1_v2
	pushq	%rbx
	subq	$16, %rsp
	testq	%rcx, %rcx
	je	1f
	xorl	%eax, %eax
	testq	%rdx, %rdx
	sete	%al
	shll	$12, %eax
	addq	%rdx, %rax
	leaq	.L1_v2_static.2(%rip), %r8
	movq	%r8, (%rsp)
	movq	$0, 8(%rsp)
	movq	%rax, %rdx
	xorl	%r9d, %r9d
	callq	blake2_ffi..blake2bp..initialize_1_v2
	movl	%eax, %ebx
	callq	blake2_digest..wiping..scrub_stack..5120_1_v2
	movl	%ebx, %eax
	addq	$16, %rsp
	popq	%rbx
	retq
1:
	movl	$1632, %edx
	xorl	%esi, %esi
	vj_c_call	memset
	movl	$-1, %eax
	addq	$16, %rsp
	popq	%rbx
	retq
	vj_end	vulfsjor_ffi_blake2bp_init_key_1_v2

	vj_export	vulfsjor_ffi_blake2bp_reset_1_v2
	movq	1496(%rdi), %rcx
	decq	%rcx
	movl	$-1, %eax
	cmpq	$63, %rcx
	ja	2f
	movq	264(%rdi), %rcx
	cmpq	$896, %rcx
	ja	2f
	notq	%rcx
	shrq	$2, %rcx
	cmpq	%rcx, 256(%rdi)
	ja	2f
	pushq	%rbx
	movq	1488(%rdi), %rbx
	cmpq	$512, %rbx
	ja	1f
	callq	blake2_ffi..blake2bp..reset_in_frame_1_v2
	xorl	%eax, %eax
	testq	%rbx, %rbx
	je	1f
	callq	blake2_digest..wiping..scrub_stack..1792_1_v2
	xorl	%eax, %eax
1:
	popq	%rbx
2:
	retq
	vj_end	vulfsjor_ffi_blake2bp_reset_1_v2

	vj_export	vulfsjor_ffi_blake2bp_state_size_1_v2
	movl	$1632, %eax
	retq
	vj_end	vulfsjor_ffi_blake2bp_state_size_1_v2

	vj_export	vulfsjor_ffi_blake2bp_update_1_v2
	xorl	%ecx, %ecx
	testq	%rsi, %rsi
	sete	%r8b
	movq	1496(%rdi), %r9
	decq	%r9
	movl	$-1, %eax
	cmpq	$63, %r9
	ja	3f
	movq	264(%rdi), %r11
	cmpq	$896, %r11
	ja	3f
	movq	256(%rdi), %r9
	movq	%r11, %r10
	notq	%r10
	shrq	$2, %r10
	cmpq	%r10, %r9
	ja	3f
	movq	1488(%rdi), %r10
	cmpq	$512, %r10
	ja	3f
	leaq	(%r11,%r9,4), %r11
	addq	%rdx, %r11
	jb	3f
	pushq	%rax
	movb	%r8b, %cl
	shll	$12, %ecx
	addq	%rcx, %rsi
	testq	%r9, %r9
	setne	%al
	testq	%r10, %r10
	sete	%cl
	orb	%al, %cl
	je	1f
	vj_call	blake2_parallel..lanes..blake2bp..Lanes..update_1_v2
	jmp	2f
1:
	callq	blake2_ffi..blake2bp..update_scrubbed_1_v2
2:
	xorl	%eax, %eax
	addq	$8, %rsp
3:
	retq
	vj_end	vulfsjor_ffi_blake2bp_update_1_v2

	vj_export	vulfsjor_ffi_blake2bp_verify_1_v2
	xorl	%ecx, %ecx
	testq	%rsi, %rsi
	sete	%r8b
	movq	1496(%rdi), %r9
	decq	%r9
	movl	$-1, %eax
	cmpq	$63, %r9
	ja	3f
	movq	264(%rdi), %r9
	cmpq	$896, %r9
	ja	3f
	pushq	%r15
	pushq	%r14
	pushq	%rbx
	movq	256(%rdi), %r15
	notq	%r9
	shrq	$2, %r9
	cmpq	%r9, %r15
	ja	2f
	movq	$-513, %r9
	addq	1488(%rdi), %r9
	cmpq	$-512, %r9
	jb	2f
	movb	%r8b, %cl
	shll	$12, %ecx
	addq	%rcx, %rsi
	movq	%rdi, %r14
	callq	blake2_ffi..blake2bp..is_digest_of_1_v2
	movl	%eax, %ebx
	movl	$1632, %edx
	movq	%r14, %rdi
	xorl	%esi, %esi
	vj_c_call	memset
	testq	%r15, %r15
	jne	1f
	callq	blake2_digest..wiping..scrub_stack..5632_1_v2
1:
	movzbl	%bl, %eax
	decl	%eax
2:
	popq	%rbx
	popq	%r14
	popq	%r15
3:
	retq
	vj_end	vulfsjor_ffi_blake2bp_verify_1_v2

	vj_export	vulfsjor_ffi_blake2bp_wipe_1_v2
	movl	$1632, %edx
	xorl	%esi, %esi
	vj_c_jump	memset
	vj_end	vulfsjor_ffi_blake2bp_wipe_1_v2

	vj_export	vulfsjor_ffi_blake2s_count_1_v2
	movzwl	76(%rdi), %eax
	decl	%eax
	cmpw	$31, %ax
	ja	1f
	movzwl	72(%rdi), %eax
	cmpq	$64, %rax
	ja	1f
	movzwl	74(%rdi), %ecx
	cmpq	$64, %rcx
	ja	1f
	movq	64(%rdi), %rdx
	movl	%eax, %esi
	notl	%esi
	movswq	%si, %rsi
	cmpq	%rsi, %rdx
	jbe	2f
1:
	xorl	%eax, %eax
	retq
2:
	addq	%rax, %rdx
	xorl	%eax, %eax
	subq	%rcx, %rdx
	cmovaeq	%rdx, %rax
	retq
	vj_end	vulfsjor_ffi_blake2s_count_1_v2

	vj_export	vulfsjor_ffi_blake2s_digest_size_1_v2
	movzwl	76(%rdi), %eax
	leal	-1(%rax), %ecx
	cmpw	$31, %cx
	ja	1f
	movzwl	72(%rdi), %ecx
	cmpw	$64, %cx
	ja	1f
	cmpw	$64, 74(%rdi)
	ja	1f
	notl	%ecx
	movswq	%cx, %rcx
	xorl	%edx, %edx
	cmpq	%rcx, 64(%rdi)
	cmovaq	%rdx, %rax
	retq
1:
	xorl	%eax, %eax
	retq
	vj_end	vulfsjor_ffi_blake2s_digest_size_1_v2

	vj_export	vulfsjor_ffi_blake2s_final_1_v2
	xorl	%ecx, %ecx
	testq	%rsi, %rsi
	sete	%r8b
	movzwl	76(%rdi), %r9d
	leal	-1(%r9), %r10d
	movl	$-1, %eax
	cmpw	$31, %r10w
	ja	2f
	movzwl	72(%rdi), %r10d
	cmpw	$64, %r10w
	ja	2f
	pushq	%r14
	pushq	%rbx
	pushq	%rax
	movzwl	74(%rdi), %ebx
	cmpq	$64, %rbx
	ja	1f
	movq	64(%rdi), %r14
	notl	%r10d
	movswq	%r10w, %r10
	cmpq	%r10, %r14
	setbe	%r10b
	cmpq	%r9, %rdx
	sete	%dl
	andb	%r10b, %dl
	cmpb	$1, %dl
	jne	1f
	movb	%r8b, %cl
	shll	$12, %ecx
	addq	%rcx, %rsi
	callq	blake2_ffi..blake2s..finalize_1_v2
	xorl	%eax, %eax
	cmpq	%rbx, %r14
	jae	1f
	callq	blake2_digest..wiping..scrub_stack..768_1_v2
	xorl	%eax, %eax
1:
	addq	$8, %rsp
	popq	%rbx
	popq	%r14
2:
	retq
	vj_end	vulfsjor_ffi_blake2s_final_1_v2

	vj_constants	16
	.p2align	4, 0x0
.L1_v2_CPI141_0:
	.long	1779033703
	.long	3144134277
	.long	1013904242
	.long	2773480762
.L1_v2_CPI141_1:
	.long	1359893119
	.long	2600822924
	.long	528734635
	.long	1541459225
	vj_export	vulfsjor_ffi_blake2s_init_param_1_v2
	xorl	%eax, %eax
	testq	%rsi, %rsi
	sete	%cl
	cmpq	$32, %rdx
	jne	1f
	movb	%cl, %al
	shll	$12, %eax
	movzbl	(%rsi,%rax), %ecx
	addb	$-33, %cl
	cmpb	$-32, %cl
	jb	1f
	cmpb	$32, 1(%rsi,%rax)
	jbe	2f
1:
	xorps	%xmm0, %xmm0
	movups	%xmm0, 160(%rdi)
	movups	%xmm0, 144(%rdi)
	movups	%xmm0, 128(%rdi)
	movups	%xmm0, 112(%rdi)
	movups	%xmm0, 96(%rdi)
	movups	%xmm0, 80(%rdi)
	movups	%xmm0, 64(%rdi)
	movups	%xmm0, 48(%rdi)
	movups	%xmm0, 32(%rdi)
	movups	%xmm0, 16(%rdi)
	movups	%xmm0, (%rdi)
	movl	$-1, %eax
	retq
2:
	movdqu	(%rsi,%rax), %xmm0
	movups	16(%rsi,%rax), %xmm1
	pextrb	$0, %xmm0, %eax
	pxor	.L1_v2_CPI141_0(%rip), %xmm0
	xorps	.L1_v2_CPI141_1(%rip), %xmm1
	movdqu	%xmm0, (%rdi)
	movups	%xmm1, 16(%rdi)
	movdqu	%xmm0, 32(%rdi)
	movups	%xmm1, 48(%rdi)
	movq	$0, 64(%rdi)
	movl	$0, 72(%rdi)
	movw	%ax, 76(%rdi)
	pxor	%xmm0, %xmm0
	movdqu	%xmm0, 78(%rdi)
	movdqu	%xmm0, 94(%rdi)
	movdqu	%xmm0, 110(%rdi)
	movdqu	%xmm0, 126(%rdi)
	movdqu	%xmm0, 142(%rdi)
	movdqu	%xmm0, 158(%rdi)
	movw	$0, 174(%rdi)
	xorl	%eax, %eax
	retq
	vj_end	vulfsjor_ffi_blake2s_init_param_1_v2

	vj_export	vulfsjor_ffi_blake2s_init_salt_personal_1_v2
	pushq	%rbx
	subq	$80, %rsp
	movq	%rcx, %rbx
	movq	104(%rsp), %rax
	movq	96(%rsp), %r10
	xorl	%ecx, %ecx
	testq	%rdx, %rdx
	sete	%cl
	shll	$12, %ecx
	addq	%rdx, %rcx
	xorl	%edx, %edx
	testq	%r8, %r8
	sete	%dl
	shll	$12, %edx
	addq	%r8, %rdx
	xorl	%r8d, %r8d
	testq	%r10, %r10
	sete	%r8b
	shll	$12, %r8d
	addq	%r10, %r8
	movq	%rsi, 24(%rsp)
	movq	%rcx, 32(%rsp)
	movq	%rbx, 40(%rsp)
	movq	%rdx, 48(%rsp)
	movq	%r9, 56(%rsp)
	movq	%r8, 64(%rsp)
	movq	%rax, 72(%rsp)
	movw	$257, (%rsp)
	xorps	%xmm0, %xmm0
	movups	%xmm0, 2(%rsp)
	movq	$0, 16(%rsp)
	leaq	24(%rsp), %rsi
	movq	%rsp, %rdx
	callq	blake2_ffi..blake2s..initialize_1_v2
	testq	%rbx, %rbx
	je	1f
	movl	%eax, %ebx
	callq	blake2_digest..wiping..scrub_stack..768_1_v2
	movl	%ebx, %eax
1:
	addq	$80, %rsp
	popq	%rbx
	retq
	vj_end	vulfsjor_ffi_blake2s_init_salt_personal_1_v2

	vj_export	vulfsjor_ffi_blake2s_init_key_1_v2
	pushq	%rbx
	subq	$80, %rsp
	testq	%rcx, %rcx
	je	1f
	xorl	%eax, %eax
	testq	%rdx, %rdx
	sete	%al
	shll	$12, %eax
	addq	%rdx, %rax
	movq	%rsi, 24(%rsp)
	movq	%rax, 32(%rsp)
	movq	%rcx, 40(%rsp)
	leaq	.L1_v2_static.2(%rip), %rax
	movq	%rax, 48(%rsp)
	movq	$0, 56(%rsp)
	movq	%rax, 64(%rsp)
	movq	$0, 72(%rsp)
	movw	$257, (%rsp)
	xorps	%xmm0, %xmm0
	movups	%xmm0, 2(%rsp)
	movq	$0, 16(%rsp)
	leaq	24(%rsp), %rsi
	movq	%rsp, %rdx
	callq	blake2_ffi..blake2s..initialize_1_v2
	movl	%eax, %ebx
	callq	blake2_digest..wiping..scrub_stack..768_1_v2
	movl	%ebx, %eax
	addq	$80, %rsp
	popq	%rbx
	retq
1:
	xorps	%xmm0, %xmm0
	movups	%xmm0, 160(%rdi)
	movups	%xmm0, 144(%rdi)
	movups	%xmm0, 128(%rdi)
	movups	%xmm0, 112(%rdi)
	movups	%xmm0, 96(%rdi)
	movups	%xmm0, 80(%rdi)
	movups	%xmm0, 64(%rdi)
	movups	%xmm0, 48(%rdi)
	movups	%xmm0, 32(%rdi)
	movups	%xmm0, 16(%rdi)
	movups	%xmm0, (%rdi)
	movl	$-1, %ebx
	movl	%ebx, %eax
	addq	$80, %rsp
	popq	%rbx
	retq
	vj_end	vulfsjor_ffi_blake2s_init_key_1_v2

	vj_export	vulfsjor_ffi_blake2s_init_tree_1_v2
	pushq	%rbp
	pushq	%r15
	pushq	%r14
	pushq	%r13
	pushq	%r12
	pushq	%rbx
	subq	$104, %rsp
	movq	%r9, 40(%rsp)
	movq	%rsi, 32(%rsp)
	movq	176(%rsp), %r14
	movq	160(%rsp), %rax
	xorl	%r11d, %r11d
	testq	%rdx, %rdx
	sete	%sil
	xorl	%r10d, %r10d
	testq	%r8, %r8
	movzbl	12(%r14), %ebp
	movzbl	13(%r14), %ebx
	movl	8(%r14), %r15d
	movzbl	14(%r14), %r9d
	movzbl	15(%r14), %r13d
	movq	(%r14), %r12
	movb	%bpl, 8(%rsp)
	sete	%bpl
	movb	%bl, 9(%rsp)
	movw	$0, 10(%rsp)
	movl	%r15d, 12(%rsp)
	xorl	%r14d, %r14d
	testq	%rax, %rax
	movq	%r12, 16(%rsp)
	movb	%r9b, 24(%rsp)
	sete	%r15b
	movb	%r13b, 25(%rsp)
	movl	$0, 26(%rsp)
	movw	$0, 30(%rsp)
	testb	%bl, %bl
	je	1f
	cmpb	$33, %r13b
	setb	%r9b
	shrq	$48, %r12
	sete	%bl
	testb	%r9b, %bl
	je	1f
	movq	168(%rsp), %r9
	movb	%sil, %r11b
	shll	$12, %r11d
	addq	%r11, %rdx
	movb	%bpl, %r10b
	shll	$12, %r10d
	addq	%r10, %r8
	movb	%r15b, %r14b
	shll	$12, %r14d
	addq	%r14, %rax
	movq	32(%rsp), %rsi
	movq	%rsi, 48(%rsp)
	movq	%rdx, 56(%rsp)
	movq	%rcx, 64(%rsp)
	movq	%r8, 72(%rsp)
	movq	40(%rsp), %rdx
	movq	%rdx, 80(%rsp)
	movq	%rax, 88(%rsp)
	movq	%r9, 96(%rsp)
	leaq	48(%rsp), %rsi
	leaq	8(%rsp), %rdx
	movq	%rcx, %rbx
	callq	blake2_ffi..blake2s..initialize_1_v2
	testq	%rbx, %rbx
	je	2f
	movl	%eax, %ebx
	callq	blake2_digest..wiping..scrub_stack..768_1_v2
	movl	%ebx, %eax
	jmp	2f
1:
	xorps	%xmm0, %xmm0
	movups	%xmm0, 160(%rdi)
	movups	%xmm0, 144(%rdi)
	movups	%xmm0, 128(%rdi)
	movups	%xmm0, 112(%rdi)
	movups	%xmm0, 96(%rdi)
	movups	%xmm0, 80(%rdi)
	movups	%xmm0, 64(%rdi)
	movups	%xmm0, 48(%rdi)
	movups	%xmm0, 32(%rdi)
	movups	%xmm0, 16(%rdi)
	movups	%xmm0, (%rdi)
	movl	$-1, %eax
2:
	addq	$104, %rsp
	popq	%rbx
	popq	%r12
	popq	%r13
	popq	%r14
	popq	%r15
	popq	%rbp
	retq
	vj_end	vulfsjor_ffi_blake2s_init_tree_1_v2

	vj_export	vulfsjor_ffi_blake2s_load_1_v2
	pushq	%rbp
	pushq	%r15
	pushq	%r14
	pushq	%r13
	pushq	%r12
	pushq	%rbx
	subq	$536, %rsp
	movq	%rdi, %rbx
	xorl	%eax, %eax
	testq	%rsi, %rsi
	sete	%cl
	cmpq	$147, %rdx
	jne	1f
	movq	%rsi, %r14
	movb	%cl, %al
	shll	$12, %eax
	addq	%rax, %r14
	movups	8(%r14), %xmm0
	movups	24(%r14), %xmm1
	movups	40(%r14), %xmm2
	movups	56(%r14), %xmm3
	movq	72(%r14), %r15
	movzbl	81(%r14), %ebp
	movzbl	80(%r14), %r12d
	movzbl	82(%r14), %r13d
	movaps	%xmm0, 224(%rsp)
	movaps	%xmm0, (%rsp)
	movaps	%xmm1, 208(%rsp)
	movaps	%xmm1, 16(%rsp)
	movaps	%xmm2, 192(%rsp)
	movaps	%xmm2, 32(%rsp)
	movaps	%xmm3, 176(%rsp)
	movaps	%xmm3, 48(%rsp)
	movq	%r15, 64(%rsp)
	movw	%bp, 72(%rsp)
	movw	$0, 74(%rsp)
	movw	%r12w, 76(%rsp)
	movw	%r13w, 78(%rsp)
	movups	83(%r14), %xmm0
	movups	99(%r14), %xmm1
	movups	115(%r14), %xmm2
	movups	131(%r14), %xmm3
	movaps	%xmm0, 80(%rsp)
	movaps	%xmm1, 96(%rsp)
	movaps	%xmm2, 112(%rsp)
	movaps	%xmm3, 128(%rsp)
	xorps	%xmm0, %xmm0
	movaps	%xmm0, 144(%rsp)
	movaps	%xmm0, 160(%rsp)
	leaq	388(%rsp), %rdi
	movq	%rsp, %rsi
	callq	blake2_state..blake2s..State..save_1_v2
	cmpb	$1, 388(%rsp)
	jne	1f
	leaq	389(%rsp), %rsi
	leaq	240(%rsp), %rdi
	movl	$147, %edx
	vj_c_call	memcpy
	movl	(%r14), %eax
	cmpl	240(%rsp), %eax
	jne	1f
	leaq	240(%rsp), %rdx
	movl	$147, %esi
	movq	%r14, %rdi
	callq	core..cmp..slices..groups_equal..i8.31.core..cmp..numbers..U8PartialEq_1_v2
	testb	%al, %al
	je	1f
	addq	$83, %r14
	movups	(%r14), %xmm0
	movups	16(%r14), %xmm1
	movups	32(%r14), %xmm2
	movups	48(%r14), %xmm3
	movaps	%xmm0, (%rsp)
	movaps	%xmm1, 16(%rsp)
	movaps	%xmm2, 32(%rsp)
	movaps	%xmm3, 48(%rsp)
	movaps	224(%rsp), %xmm0
	movups	%xmm0, (%rbx)
	movaps	208(%rsp), %xmm0
	movups	%xmm0, 16(%rbx)
	movaps	192(%rsp), %xmm0
	movups	%xmm0, 32(%rbx)
	movaps	176(%rsp), %xmm0
	movups	%xmm0, 48(%rbx)
	movq	%r15, 64(%rbx)
	movw	%bp, 72(%rbx)
	movw	$0, 74(%rbx)
	movw	%r12w, 76(%rbx)
	movw	%r13w, 78(%rbx)
	movaps	(%rsp), %xmm0
	movaps	16(%rsp), %xmm1
	movaps	32(%rsp), %xmm2
	movaps	48(%rsp), %xmm3
	movups	%xmm0, 80(%rbx)
	movups	%xmm1, 96(%rbx)
	movups	%xmm2, 112(%rbx)
	movups	%xmm3, 128(%rbx)
	xorps	%xmm0, %xmm0
	movups	%xmm0, 144(%rbx)
	movups	%xmm0, 160(%rbx)
	xorl	%eax, %eax
	jmp	2f
1:
	xorps	%xmm0, %xmm0
	movups	%xmm0, 160(%rbx)
	movups	%xmm0, 144(%rbx)
	movups	%xmm0, 128(%rbx)
	movups	%xmm0, 112(%rbx)
	movups	%xmm0, 96(%rbx)
	movups	%xmm0, 80(%rbx)
	movups	%xmm0, 64(%rbx)
	movups	%xmm0, 48(%rbx)
	movups	%xmm0, 32(%rbx)
	movups	%xmm0, 16(%rbx)
	movups	%xmm0, (%rbx)
	movl	$-1, %eax
2:
	addq	$536, %rsp
	popq	%rbx
	popq	%r12
	popq	%r13
	popq	%r14
	popq	%r15
	popq	%rbp
	retq
	vj_end	vulfsjor_ffi_blake2s_load_1_v2

	vj_export	vulfsjor_ffi_blake2s_reset_1_v2
	movzwl	76(%rdi), %ecx
	decl	%ecx
	movl	$-1, %eax
	cmpw	$31, %cx
	ja	1f
	movzwl	72(%rdi), %edx
	cmpw	$64, %dx
	ja	1f
	movzwl	74(%rdi), %ecx
	cmpw	$64, %cx
	ja	1f
	notl	%edx
	movswq	%dx, %rdx
	cmpq	%rdx, 64(%rdi)
	ja	1f
	movups	32(%rdi), %xmm0
	movups	48(%rdi), %xmm1
	movups	144(%rdi), %xmm2
	movups	160(%rdi), %xmm3
	movups	%xmm1, 16(%rdi)
	movups	%xmm0, (%rdi)
	movq	$0, 64(%rdi)
	movw	%cx, 72(%rdi)
	xorps	%xmm0, %xmm0
	movups	%xmm0, 112(%rdi)
	movups	%xmm0, 128(%rdi)
	movups	%xmm2, 80(%rdi)
	movups	%xmm3, 96(%rdi)
	xorl	%eax, %eax
1:
	retq
	vj_end	vulfsjor_ffi_blake2s_reset_1_v2

	vj_export	vulfsjor_ffi_blake2s_save_1_v2
	pushq	%rbp
	pushq	%r15
	pushq	%r14
	pushq	%rbx
	subq	$152, %rsp
	movq	%rsi, %rbx
	xorl	%r14d, %r14d
	testq	%rsi, %rsi
	sete	%r15b
	movl	$-1, %ebp
	cmpq	$147, %rdx
	jne	1f
	movq	%rdi, %rsi
	leaq	4(%rsp), %rdi
	callq	blake2_state..blake2s..State..save_1_v2
	cmpb	$1, 4(%rsp)
	jne	1f
	movb	%r15b, %r14b
	shll	$12, %r14d
	addq	%r14, %rbx
	leaq	5(%rsp), %rsi
	movl	$147, %edx
	movq	%rbx, %rdi
	vj_c_call	memcpy
	xorl	%ebp, %ebp
1:
	movl	%ebp, %eax
	addq	$152, %rsp
	popq	%rbx
	popq	%r14
	popq	%r15
	popq	%rbp
	retq
	vj_end	vulfsjor_ffi_blake2s_save_1_v2

	vj_export	vulfsjor_ffi_blake2s_set_last_node_1_v2
	movzwl	76(%rdi), %ecx
	decl	%ecx
	movl	$-1, %eax
	cmpw	$31, %cx
	ja	1f
	movzwl	72(%rdi), %ecx
	cmpw	$64, %cx
	ja	1f
	cmpw	$64, 74(%rdi)
	ja	1f
	notl	%ecx
	movswq	%cx, %rcx
	cmpq	%rcx, 64(%rdi)
	ja	1f
	xorl	%eax, %eax
	testl	%esi, %esi
	setne	%al
	movw	%ax, 78(%rdi)
	xorl	%eax, %eax
1:
	retq
	vj_end	vulfsjor_ffi_blake2s_set_last_node_1_v2

	vj_export	vulfsjor_ffi_blake2s_state_size_1_v2
	movl	$176, %eax
	retq
	vj_end	vulfsjor_ffi_blake2s_state_size_1_v2

	vj_export	vulfsjor_ffi_blake2s_update_1_v2
	xorl	%r8d, %r8d
	testq	%rsi, %rsi
	sete	%r9b
	movzwl	76(%rdi), %ecx
	decl	%ecx
	movl	$-1, %eax
	cmpw	$31, %cx
	ja	6f
	movzwl	72(%rdi), %ecx
	cmpq	$64, %rcx
	ja	6f
	movzwl	74(%rdi), %r10d
	cmpq	$64, %r10
	ja	6f
	pushq	%rbx
	movq	64(%rdi), %r11
	movl	%ecx, %ebx
	notl	%ebx
	movswq	%bx, %rbx
	cmpq	%rbx, %r11
	ja	5f
	leaq	(%r11,%rcx), %rbx
	addq	%rdx, %rbx
	jb	5f
	movb	%r9b, %r8b
	shll	$12, %r8d
	addq	%r8, %rsi
	cmpq	%r10, %r11
	jae	1f
	callq	blake2_ffi..blake2s..update_scrubbed_1_v2
	jmp	4f
1:
	cmpq	$1, %rdx
	jne	2f
	cmpl	$64, %ecx
	jne	3f
	movl	$1, %edx
2:
	callq	blake2_state..blake2s..State..absorb_blocks_1_v2
	jmp	4f
3:
	movzbl	(%rsi), %eax
	movb	%al, 80(%rdi,%rcx)
	leal	1(%rcx), %eax
	movw	%ax, 72(%rdi)
4:
	xorl	%eax, %eax
5:
	popq	%rbx
6:
	retq
	vj_end	vulfsjor_ffi_blake2s_update_1_v2

	vj_export	vulfsjor_ffi_blake2s_update_many_1_v2
	xorl	%r8d, %r8d
	testq	%rdi, %rdi
	sete	%r11b
	xorl	%r9d, %r9d
	testq	%rdx, %rdx
	sete	%r10b
	movl	$-1, %eax
	cmpq	%rsi, %rcx
	jne	7f
	pushq	%r15
	pushq	%r14
	pushq	%rbx
	movb	%r11b, %r8b
	shll	$12, %r8d
	movb	%r10b, %r9b
	shll	$12, %r9d
	testq	%rcx, %rcx
	je	2f
	leaq	(%r9,%rdx), %rsi
	addq	$8, %rsi
	leaq	(%r8,%rdi), %r10
	addq	$76, %r10
	movq	%rcx, %r11
	.p2align	4
1:
	movzwl	(%r10), %ebx
	decl	%ebx
	cmpw	$31, %bx
	ja	6f
	movzwl	-4(%r10), %ebx
	cmpq	$64, %rbx
	ja	6f
	cmpw	$64, -2(%r10)
	ja	6f
	movq	-12(%r10), %r14
	movl	%ebx, %r15d
	notl	%r15d
	movswq	%r15w, %r15
	cmpq	%r15, %r14
	ja	6f
	addq	%rbx, %r14
	addq	(%rsi), %r14
	jb	6f
	addq	$16, %rsi
	addq	$176, %r10
	decq	%r11
	jne	1b
2:
	leaq	(%rdi,%r8), %rax
	addq	%r9, %rdx
	addq	%r8, %rdi
	addq	$74, %rdi
	movq	$-1, %rsi
	.p2align	4
3:
	incq	%rsi
	cmpq	%rsi, %rcx
	je	4f
	movzwl	(%rdi), %r8d
	cmpq	%r8, -10(%rdi)
	leaq	176(%rdi), %rdi
	jae	3b
	movq	%rax, %rdi
	movq	%rcx, %rsi
	callq	blake2_ffi..several..blake2s..update_in_frame_1_v2
	callq	blake2_digest..wiping..scrub_stack..9216_1_v2
	jmp	5f
4:
	movq	%rax, %rdi
	movq	%rcx, %rsi
	callq	blake2_ffi..several..blake2s..update_in_frame_1_v2
5:
	xorl	%eax, %eax
6:
	popq	%rbx
	popq	%r14
	popq	%r15
7:
	retq
	vj_end	vulfsjor_ffi_blake2s_update_many_1_v2

	vj_export	vulfsjor_ffi_blake2s_verify_1_v2
	xorl	%ecx, %ecx
	testq	%rsi, %rsi
	sete	%r8b
	movzwl	76(%rdi), %r9d
	decl	%r9d
	movl	$-1, %eax
	cmpw	$31, %r9w
	ja	3f
	movzwl	72(%rdi), %r9d
	cmpw	$64, %r9w
	ja	3f
	pushq	%r15
	pushq	%r14
	pushq	%r12
	pushq	%rbx
	pushq	%rax
	movzwl	74(%rdi), %r15d
	cmpq	$64, %r15
	ja	2f
	movq	64(%rdi), %r12
	notl	%r9d
	movswq	%r9w, %r9
	cmpq	%r9, %r12
	ja	2f
	movzbl	33(%rdi), %r9d
	shll	$8, %r9d
	cmpl	$58880, %r9d
	je	2f
	movb	%r8b, %cl
	shll	$12, %ecx
	addq	%rcx, %rsi
	movq	%rdi, %r14
	callq	blake2_ffi..blake2s..is_digest_of_1_v2
	movl	%eax, %ebx
	xorps	%xmm0, %xmm0
	movups	%xmm0, (%r14)
	movups	%xmm0, 16(%r14)
	movups	%xmm0, 32(%r14)
	movups	%xmm0, 48(%r14)
	movups	%xmm0, 64(%r14)
	movups	%xmm0, 80(%r14)
	movups	%xmm0, 96(%r14)
	movups	%xmm0, 112(%r14)
	movups	%xmm0, 128(%r14)
	movups	%xmm0, 144(%r14)
	movups	%xmm0, 160(%r14)
	cmpq	%r15, %r12
	jae	1f
	callq	blake2_digest..wiping..scrub_stack..768_1_v2
1:
	movzbl	%bl, %eax
	decl	%eax
2:
	addq	$8, %rsp
	popq	%rbx
	popq	%r12
	popq	%r14
	popq	%r15
3:
	retq
	vj_end	vulfsjor_ffi_blake2s_verify_1_v2

	vj_export	vulfsjor_ffi_blake2s_wipe_1_v2
	xorps	%xmm0, %xmm0
	movups	%xmm0, 160(%rdi)
	movups	%xmm0, 144(%rdi)
	movups	%xmm0, 128(%rdi)
	movups	%xmm0, 112(%rdi)
	movups	%xmm0, 96(%rdi)
	movups	%xmm0, 80(%rdi)
	movups	%xmm0, 64(%rdi)
	movups	%xmm0, 48(%rdi)
	movups	%xmm0, 32(%rdi)
	movups	%xmm0, 16(%rdi)
	movups	%xmm0, (%rdi)
	retq
	vj_end	vulfsjor_ffi_blake2s_wipe_1_v2

	vj_export	vulfsjor_ffi_blake2sp_count_1_v2
	movq	1528(%rdi), %rax
	decq	%rax
	cmpq	$31, %rax
	ja	1f
	movq	264(%rdi), %rax
	cmpq	$960, %rax
	ja	1f
	movq	256(%rdi), %rcx
	movq	%rax, %rdx
	notq	%rdx
	shrq	$3, %rdx
	cmpq	%rdx, %rcx
	ja	1f
	movq	1520(%rdi), %rdx
	cmpq	$512, %rdx
	ja	1f
	leaq	(%rax,%rcx,8), %rcx
	xorl	%eax, %eax
	subq	%rdx, %rcx
	cmovaeq	%rcx, %rax
	retq
1:
	xorl	%eax, %eax
	retq
	vj_end	vulfsjor_ffi_blake2sp_count_1_v2

	vj_export	vulfsjor_ffi_blake2sp_digest_size_1_v2
	movq	1528(%rdi), %rcx
	leaq	-1(%rcx), %rax
	cmpq	$31, %rax
	ja	1f
	movq	264(%rdi), %rax
	cmpq	$960, %rax
	ja	1f
	notq	%rax
	shrq	$3, %rax
	cmpq	%rax, 256(%rdi)
	jbe	2f
1:
	xorl	%eax, %eax
	retq
2:
	xorl	%eax, %eax
	cmpq	$513, 1520(%rdi)
	cmovbq	%rcx, %rax
	retq
	vj_end	vulfsjor_ffi_blake2sp_digest_size_1_v2

	vj_export	vulfsjor_ffi_blake2sp_final_1_v2
	xorl	%ecx, %ecx
	testq	%rsi, %rsi
	sete	%r8b
	movq	1528(%rdi), %r10
	leaq	-1(%r10), %r9
	movl	$-1, %eax
	cmpq	$31, %r9
	ja	4f
	movq	264(%rdi), %r11
	cmpq	$960, %r11
	ja	4f
	movq	256(%rdi), %r9
	notq	%r11
	shrq	$3, %r11
	cmpq	%r11, %r9
	ja	4f
	pushq	%rbx
	movq	1520(%rdi), %rbx
	cmpq	$513, %rbx
	setae	%r11b
	cmpq	%r10, %rdx
	setne	%dl
	orb	%r11b, %dl
	jne	3f
	movb	%r8b, %cl
	shll	$12, %ecx
	addq	%rcx, %rsi
	testq	%r9, %r9
	je	1f
	callq	blake2_ffi..blake2sp..finalize_1_v2
	jmp	2f
1:
	callq	blake2_ffi..blake2sp..finalize_1_v2
	xorl	%eax, %eax
	testq	%rbx, %rbx
	je	3f
	callq	blake2_digest..wiping..scrub_stack..5632_1_v2
2:
	xorl	%eax, %eax
3:
	popq	%rbx
4:
	retq
	vj_end	vulfsjor_ffi_blake2sp_final_1_v2

	vj_export	vulfsjor_ffi_blake2sp_init_salt_personal_1_v2
	pushq	%rbx
	subq	$16, %rsp
	movq	%rcx, %rbx
	movq	40(%rsp), %rax
	movq	32(%rsp), %rcx
	xorl	%r10d, %r10d
	testq	%rdx, %rdx
	sete	%r10b
	shll	$12, %r10d
	addq	%r10, %rdx
	xorl	%r10d, %r10d
	testq	%r8, %r8
	sete	%r10b
	shll	$12, %r10d
	addq	%r10, %r8
	xorl	%r10d, %r10d
	testq	%rcx, %rcx
	sete	%r10b
	shll	$12, %r10d
	addq	%rcx, %r10
	movq	%rax, 8(%rsp)
	movq	%r10, (%rsp)
	movq	%rbx, %rcx
	callq	blake2_ffi..blake2sp..initialize_1_v2
	testq	%rbx, %rbx
	je	1f
	movl	%eax, %ebx
	callq	blake2_digest..wiping..scrub_stack..5120_1_v2
	movl	%ebx, %eax
1:
	addq	$16, %rsp
	popq	%rbx
	retq
	vj_end	vulfsjor_ffi_blake2sp_init_salt_personal_1_v2

	vj_export	vulfsjor_ffi_blake2sp_init_key_1_v2
	pushq	%rbx
	subq	$16, %rsp
	testq	%rcx, %rcx
	je	1f
	xorl	%eax, %eax
	testq	%rdx, %rdx
	sete	%al
	shll	$12, %eax
	addq	%rdx, %rax
	leaq	.L1_v2_static.2(%rip), %r8
	movq	%r8, (%rsp)
	movq	$0, 8(%rsp)
	movq	%rax, %rdx
	xorl	%r9d, %r9d
	callq	blake2_ffi..blake2sp..initialize_1_v2
	movl	%eax, %ebx
	callq	blake2_digest..wiping..scrub_stack..5120_1_v2
	movl	%ebx, %eax
	addq	$16, %rsp
	popq	%rbx
	retq
1:
	movl	$1600, %edx
	xorl	%esi, %esi
	vj_c_call	memset
	movl	$-1, %eax
	addq	$16, %rsp
	popq	%rbx
	retq
	vj_end	vulfsjor_ffi_blake2sp_init_key_1_v2

	vj_export	vulfsjor_ffi_blake2sp_reset_1_v2
	movq	1528(%rdi), %rcx
	decq	%rcx
	movl	$-1, %eax
	cmpq	$31, %rcx
	ja	2f
	movq	264(%rdi), %rcx
	cmpq	$960, %rcx
	ja	2f
	notq	%rcx
	shrq	$3, %rcx
	cmpq	%rcx, 256(%rdi)
	ja	2f
	pushq	%rbx
	movq	1520(%rdi), %rbx
	cmpq	$512, %rbx
	ja	1f
	callq	blake2_ffi..blake2sp..reset_in_frame_1_v2
	xorl	%eax, %eax
	testq	%rbx, %rbx
	je	1f
	callq	blake2_digest..wiping..scrub_stack..1792_1_v2
	xorl	%eax, %eax
1:
	popq	%rbx
2:
	retq
	vj_end	vulfsjor_ffi_blake2sp_reset_1_v2

	vj_export	vulfsjor_ffi_blake2sp_state_size_1_v2
	movl	$1600, %eax
	retq
	vj_end	vulfsjor_ffi_blake2sp_state_size_1_v2

	vj_export	vulfsjor_ffi_blake2sp_update_1_v2
	xorl	%ecx, %ecx
	testq	%rsi, %rsi
	sete	%r8b
	movq	1528(%rdi), %r9
	decq	%r9
	movl	$-1, %eax
	cmpq	$31, %r9
	ja	3f
	movq	264(%rdi), %r11
	cmpq	$960, %r11
	ja	3f
	movq	256(%rdi), %r9
	movq	%r11, %r10
	notq	%r10
	shrq	$3, %r10
	cmpq	%r10, %r9
	ja	3f
	movq	1520(%rdi), %r10
	cmpq	$512, %r10
	ja	3f
	leaq	(%r11,%r9,8), %r11
	addq	%rdx, %r11
	jb	3f
	pushq	%rax
	movb	%r8b, %cl
	shll	$12, %ecx
	addq	%rcx, %rsi
	testq	%r9, %r9
	setne	%al
	testq	%r10, %r10
	sete	%cl
	orb	%al, %cl
	je	1f
	vj_call	blake2_parallel..lanes..blake2sp..Lanes..update_1_v2
	jmp	2f
1:
	callq	blake2_ffi..blake2sp..update_scrubbed_1_v2
2:
	xorl	%eax, %eax
	addq	$8, %rsp
3:
	retq
	vj_end	vulfsjor_ffi_blake2sp_update_1_v2

	vj_export	vulfsjor_ffi_blake2sp_verify_1_v2
	xorl	%ecx, %ecx
	testq	%rsi, %rsi
	sete	%r8b
	movq	1528(%rdi), %r9
	decq	%r9
	movl	$-1, %eax
	cmpq	$31, %r9
	ja	3f
	movq	264(%rdi), %r9
	cmpq	$960, %r9
	ja	3f
	pushq	%r15
	pushq	%r14
	pushq	%rbx
	movq	256(%rdi), %r15
	notq	%r9
	shrq	$3, %r9
	cmpq	%r9, %r15
	ja	2f
	movq	$-513, %r9
	addq	1520(%rdi), %r9
	cmpq	$-512, %r9
	jb	2f
	movb	%r8b, %cl
	shll	$12, %ecx
	addq	%rcx, %rsi
	movq	%rdi, %r14
	callq	blake2_ffi..blake2sp..is_digest_of_1_v2
	movl	%eax, %ebx
	movl	$1600, %edx
	movq	%r14, %rdi
	xorl	%esi, %esi
	vj_c_call	memset
	testq	%r15, %r15
	jne	1f
	callq	blake2_digest..wiping..scrub_stack..5632_1_v2
1:
	movzbl	%bl, %eax
	decl	%eax
2:
	popq	%rbx
	popq	%r14
	popq	%r15
3:
	retq
	vj_end	vulfsjor_ffi_blake2sp_verify_1_v2

	vj_export	vulfsjor_ffi_blake2sp_wipe_1_v2
	movl	$1600, %edx
	xorl	%esi, %esi
	vj_c_jump	memset
	vj_end	vulfsjor_ffi_blake2sp_wipe_1_v2

	vj_export	vulfsjor_ffi_blake2xb_count_1_v2
	movl	144(%rdi), %edx
	leal	-1(%rdx), %eax
	cmpl	$63, %eax
	ja	1f
	movl	136(%rdi), %eax
	cmpq	$128, %rax
	ja	1f
	movl	140(%rdi), %ecx
	cmpq	$128, %rcx
	ja	1f
	cmpl	$64, %edx
	jne	1f
	movq	128(%rdi), %rdx
	movl	%eax, %esi
	notl	%esi
	movslq	%esi, %rsi
	cmpq	%rsi, %rdx
	ja	1f
	movq	440(%rdi), %rsi
	leaq	-1(%rsi), %r8
	movl	$4294967294, %r9d
	cmpq	%r9, %r8
	ja	1f
	movl	$4294967295, %r8d
	cmpq	%r8, %rsi
	movabsq	$274877906944, %r8
	cmovneq	%rsi, %r8
	cmpq	%r8, 448(%rdi)
	jbe	2f
1:
	xorl	%eax, %eax
	retq
2:
	addq	%rax, %rdx
	xorl	%eax, %eax
	subq	%rcx, %rdx
	cmovaeq	%rdx, %rax
	retq
	vj_end	vulfsjor_ffi_blake2xb_count_1_v2

	vj_export	vulfsjor_ffi_blake2xb_init_salt_personal_1_v2
	pushq	%rbx
	subq	$16, %rsp
	movq	%rcx, %rbx
	movq	40(%rsp), %rax
	movq	32(%rsp), %rcx
	xorl	%r10d, %r10d
	testq	%rdx, %rdx
	sete	%r10b
	shll	$12, %r10d
	addq	%r10, %rdx
	xorl	%r10d, %r10d
	testq	%r8, %r8
	sete	%r10b
	shll	$12, %r10d
	addq	%r10, %r8
	xorl	%r10d, %r10d
	testq	%rcx, %rcx
	sete	%r10b
	shll	$12, %r10d
	addq	%rcx, %r10
	movq	%rax, 8(%rsp)
	movq	%r10, (%rsp)
	movq	%rbx, %rcx
	callq	blake2_ffi..blake2xb..initialize_1_v2
	testq	%rbx, %rbx
	je	1f
	movl	%eax, %ebx
	callq	blake2_digest..wiping..scrub_stack..2304_1_v2
	movl	%ebx, %eax
1:
	addq	$16, %rsp
	popq	%rbx
	retq
	vj_end	vulfsjor_ffi_blake2xb_init_salt_personal_1_v2

	vj_export	vulfsjor_ffi_blake2xb_left_1_v2
	movl	144(%rdi), %eax
	leal	-1(%rax), %ecx
	cmpl	$63, %ecx
	ja	1f
	movl	136(%rdi), %ecx
	cmpl	$128, %ecx
	ja	1f
	cmpl	$128, 140(%rdi)
	ja	1f
	cmpl	$64, %eax
	jne	1f
	notl	%ecx
	movslq	%ecx, %rax
	cmpq	%rax, 128(%rdi)
	ja	1f
	movq	440(%rdi), %rax
	leaq	-1(%rax), %rcx
	movl	$4294967294, %edx
	cmpq	%rdx, %rcx
	ja	1f
	movl	$4294967295, %ecx
	cmpq	%rcx, %rax
	movabsq	$274877906944, %rcx
	cmovneq	%rax, %rcx
	xorl	%eax, %eax
	subq	448(%rdi), %rcx
	cmovaeq	%rcx, %rax
	retq
1:
	xorl	%eax, %eax
	retq
	vj_end	vulfsjor_ffi_blake2xb_left_1_v2

	vj_export	vulfsjor_ffi_blake2xb_reset_1_v2
	movl	144(%rdi), %ecx
	leal	-1(%rcx), %edx
	movl	$-1, %eax
	cmpl	$63, %edx
	ja	2f
	movl	136(%rdi), %edx
	cmpl	$128, %edx
	ja	2f
	pushq	%rbx
	movl	140(%rdi), %ebx
	cmpl	$128, %ebx
	ja	1f
	cmpl	$64, %ecx
	jne	1f
	notl	%edx
	movslq	%edx, %rcx
	cmpq	%rcx, 128(%rdi)
	ja	1f
	movq	440(%rdi), %rcx
	leaq	-1(%rcx), %rdx
	movl	$4294967294, %esi
	cmpq	%rsi, %rdx
	ja	1f
	movl	$4294967295, %edx
	cmpq	%rdx, %rcx
	movabsq	$274877906944, %rdx
	cmovneq	%rcx, %rdx
	cmpq	%rdx, 448(%rdi)
	ja	1f
	callq	blake2_ffi..blake2xb..reset_in_frame_1_v2
	xorl	%eax, %eax
	testl	%ebx, %ebx
	je	1f
	callq	blake2_digest..wiping..scrub_stack..1792_1_v2
	xorl	%eax, %eax
1:
	popq	%rbx
2:
	retq
	vj_end	vulfsjor_ffi_blake2xb_reset_1_v2

	vj_export	vulfsjor_ffi_blake2xb_squeeze_1_v2
	xorl	%ecx, %ecx
	testq	%rsi, %rsi
	sete	%r8b
	movl	144(%rdi), %r9d
	leal	-1(%r9), %r10d
	movl	$-1, %eax
	cmpl	$63, %r10d
	ja	2f
	movl	136(%rdi), %r10d
	cmpl	$128, %r10d
	ja	2f
	pushq	%rbx
	movl	140(%rdi), %ebx
	cmpl	$128, %ebx
	ja	1f
	cmpl	$64, %r9d
	jne	1f
	notl	%r10d
	movslq	%r10d, %r9
	cmpq	%r9, 128(%rdi)
	ja	1f
	movq	440(%rdi), %r9
	leaq	-1(%r9), %r10
	movl	$4294967294, %r11d
	cmpq	%r11, %r10
	ja	1f
	movl	$4294967295, %r10d
	cmpq	%r10, %r9
	movabsq	$274877906944, %r10
	cmovneq	%r9, %r10
	subq	448(%rdi), %r10
	setb	%r9b
	cmpq	%rdx, %r10
	setb	%r10b
	orb	%r9b, %r10b
	jne	1f
	movb	%r8b, %cl
	shll	$12, %ecx
	addq	%rcx, %rsi
	callq	blake2_ffi..blake2xb..read_1_v2
	xorl	%eax, %eax
	testl	%ebx, %ebx
	je	1f
	callq	blake2_digest..wiping..scrub_stack..4096_1_v2
	xorl	%eax, %eax
1:
	popq	%rbx
2:
	retq
	vj_end	vulfsjor_ffi_blake2xb_squeeze_1_v2

	vj_export	vulfsjor_ffi_blake2xb_state_size_1_v2
	movl	$464, %eax
	retq
	vj_end	vulfsjor_ffi_blake2xb_state_size_1_v2

	vj_export	vulfsjor_ffi_blake2xb_update_1_v2
	xorl	%ecx, %ecx
	testq	%rsi, %rsi
	sete	%r8b
	movl	144(%rdi), %r10d
	leal	-1(%r10), %r9d
	movl	$-1, %eax
	cmpl	$63, %r9d
	ja	4f
	movl	136(%rdi), %r9d
	cmpq	$128, %r9
	ja	4f
	pushq	%r15
	pushq	%r14
	pushq	%rbx
	movl	140(%rdi), %ebx
	cmpl	$128, %ebx
	ja	3f
	cmpl	$64, %r10d
	jne	3f
	movq	128(%rdi), %r10
	movl	%r9d, %r11d
	notl	%r11d
	movslq	%r11d, %r11
	cmpq	%r11, %r10
	ja	3f
	movq	440(%rdi), %r11
	leaq	-1(%r11), %r14
	movl	$4294967294, %r15d
	cmpq	%r15, %r14
	ja	3f
	movq	448(%rdi), %r14
	movl	$4294967295, %r15d
	cmpq	%r15, %r11
	movabsq	$274877906944, %r15
	cmovneq	%r11, %r15
	cmpq	%r15, %r14
	ja	3f
	orq	456(%rdi), %r14
	jne	3f
	addq	%r10, %r9
	addq	%rdx, %r9
	jb	3f
	movb	%r8b, %cl
	shll	$12, %ecx
	addq	%rcx, %rsi
	testq	%r10, %r10
	je	1f
	callq	blake2_ffi..blake2xb..update_in_frame_1_v2
	jmp	2f
1:
	callq	blake2_ffi..blake2xb..update_in_frame_1_v2
	xorl	%eax, %eax
	testl	%ebx, %ebx
	je	3f
	callq	blake2_digest..wiping..scrub_stack..3072_1_v2
2:
	xorl	%eax, %eax
3:
	popq	%rbx
	popq	%r14
	popq	%r15
4:
	retq
	vj_end	vulfsjor_ffi_blake2xb_update_1_v2

	vj_export	vulfsjor_ffi_blake2xb_wipe_1_v2
	movl	$464, %edx
	xorl	%esi, %esi
	vj_c_jump	memset
	vj_end	vulfsjor_ffi_blake2xb_wipe_1_v2

	vj_export	vulfsjor_ffi_blake2xs_count_1_v2
	movzwl	76(%rdi), %edx
	leal	-1(%rdx), %eax
	cmpw	$31, %ax
	ja	1f
	movzwl	72(%rdi), %eax
	cmpq	$64, %rax
	ja	1f
	movzwl	74(%rdi), %ecx
	cmpq	$64, %rcx
	ja	1f
	cmpw	$32, %dx
	jne	1f
	movq	64(%rdi), %rdx
	movl	%eax, %esi
	notl	%esi
	movswq	%si, %rsi
	cmpq	%rsi, %rdx
	ja	1f
	movq	224(%rdi), %rsi
	leaq	-1(%rsi), %r8
	cmpq	$65534, %r8
	ja	1f
	cmpq	$65535, %rsi
	movabsq	$137438953472, %r8
	cmovneq	%rsi, %r8
	cmpq	%r8, 232(%rdi)
	jbe	2f
1:
	xorl	%eax, %eax
	retq
2:
	addq	%rax, %rdx
	xorl	%eax, %eax
	subq	%rcx, %rdx
	cmovaeq	%rdx, %rax
	retq
	vj_end	vulfsjor_ffi_blake2xs_count_1_v2

	vj_export	vulfsjor_ffi_blake2xs_init_salt_personal_1_v2
	pushq	%rbx
	subq	$16, %rsp
	movq	%rcx, %rbx
	movq	40(%rsp), %rax
	movq	32(%rsp), %rcx
	xorl	%r10d, %r10d
	testq	%rdx, %rdx
	sete	%r10b
	shll	$12, %r10d
	addq	%r10, %rdx
	xorl	%r10d, %r10d
	testq	%r8, %r8
	sete	%r10b
	shll	$12, %r10d
	addq	%r10, %r8
	xorl	%r10d, %r10d
	testq	%rcx, %rcx
	sete	%r10b
	shll	$12, %r10d
	addq	%rcx, %r10
	movq	%rax, 8(%rsp)
	movq	%r10, (%rsp)
	movq	%rbx, %rcx
	callq	blake2_ffi..blake2xs..initialize_1_v2
	testq	%rbx, %rbx
	je	1f
	movl	%eax, %ebx
	callq	blake2_digest..wiping..scrub_stack..2304_1_v2
	movl	%ebx, %eax
1:
	addq	$16, %rsp
	popq	%rbx
	retq
	vj_end	vulfsjor_ffi_blake2xs_init_salt_personal_1_v2

	vj_export	vulfsjor_ffi_blake2xs_left_1_v2
	movzwl	76(%rdi), %ecx
	leal	-1(%rcx), %eax
	cmpw	$31, %ax
	ja	1f
	movzwl	72(%rdi), %eax
	cmpw	$64, %ax
	ja	1f
	cmpw	$64, 74(%rdi)
	ja	1f
	cmpw	$32, %cx
	jne	1f
	notl	%eax
	movswq	%ax, %rax
	cmpq	%rax, 64(%rdi)
	ja	1f
	movq	224(%rdi), %rax
	leaq	-1(%rax), %rcx
	cmpq	$65534, %rcx
	ja	1f
	cmpq	$65535, %rax
	movabsq	$137438953472, %rcx
	cmovneq	%rax, %rcx
	xorl	%eax, %eax
	subq	232(%rdi), %rcx
	cmovaeq	%rcx, %rax
	retq
1:
	xorl	%eax, %eax
	retq
	vj_end	vulfsjor_ffi_blake2xs_left_1_v2

	vj_export	vulfsjor_ffi_blake2xs_reset_1_v2
	movzwl	76(%rdi), %edx
	leal	-1(%rdx), %ecx
	movl	$-1, %eax
	cmpw	$31, %cx
	ja	2f
	movzwl	72(%rdi), %ecx
	cmpw	$64, %cx
	ja	2f
	pushq	%rbx
	movzwl	74(%rdi), %ebx
	cmpw	$64, %bx
	ja	1f
	cmpw	$32, %dx
	jne	1f
	notl	%ecx
	movswq	%cx, %rcx
	cmpq	%rcx, 64(%rdi)
	ja	1f
	movq	224(%rdi), %rcx
	leaq	-1(%rcx), %rdx
	cmpq	$65534, %rdx
	ja	1f
	cmpq	$65535, %rcx
	movabsq	$137438953472, %rdx
	cmovneq	%rcx, %rdx
	cmpq	%rdx, 232(%rdi)
	ja	1f
	callq	blake2_ffi..blake2xs..reset_in_frame_1_v2
	xorl	%eax, %eax
	testw	%bx, %bx
	je	1f
	callq	blake2_digest..wiping..scrub_stack..1792_1_v2
	xorl	%eax, %eax
1:
	popq	%rbx
2:
	retq
	vj_end	vulfsjor_ffi_blake2xs_reset_1_v2

	vj_export	vulfsjor_ffi_blake2xs_squeeze_1_v2
	xorl	%ecx, %ecx
	testq	%rsi, %rsi
	sete	%r8b
	movzwl	76(%rdi), %r10d
	leal	-1(%r10), %r9d
	movl	$-1, %eax
	cmpw	$31, %r9w
	ja	2f
	movzwl	72(%rdi), %r9d
	cmpw	$64, %r9w
	ja	2f
	pushq	%rbx
	movzwl	74(%rdi), %ebx
	cmpw	$64, %bx
	ja	1f
	cmpw	$32, %r10w
	jne	1f
	notl	%r9d
	movswq	%r9w, %r9
	cmpq	%r9, 64(%rdi)
	ja	1f
	movq	224(%rdi), %r9
	leaq	-1(%r9), %r10
	cmpq	$65534, %r10
	ja	1f
	cmpq	$65535, %r9
	movabsq	$137438953472, %r10
	cmovneq	%r9, %r10
	subq	232(%rdi), %r10
	setb	%r9b
	cmpq	%rdx, %r10
	setb	%r10b
	orb	%r9b, %r10b
	jne	1f
	movb	%r8b, %cl
	shll	$12, %ecx
	addq	%rcx, %rsi
	callq	blake2_ffi..blake2xs..read_1_v2
	xorl	%eax, %eax
	testw	%bx, %bx
	je	1f
	callq	blake2_digest..wiping..scrub_stack..4096_1_v2
	xorl	%eax, %eax
1:
	popq	%rbx
2:
	retq
	vj_end	vulfsjor_ffi_blake2xs_squeeze_1_v2

	vj_export	vulfsjor_ffi_blake2xs_state_size_1_v2
	movl	$248, %eax
	retq
	vj_end	vulfsjor_ffi_blake2xs_state_size_1_v2

	vj_export	vulfsjor_ffi_blake2xs_update_1_v2
	xorl	%ecx, %ecx
	testq	%rsi, %rsi
	sete	%r8b
	movzwl	76(%rdi), %r10d
	leal	-1(%r10), %r9d
	movl	$-1, %eax
	cmpw	$31, %r9w
	ja	4f
	movzwl	72(%rdi), %r9d
	cmpq	$64, %r9
	ja	4f
	pushq	%r15
	pushq	%r14
	pushq	%rbx
	movzwl	74(%rdi), %ebx
	cmpw	$64, %bx
	ja	3f
	cmpw	$32, %r10w
	jne	3f
	movq	64(%rdi), %r10
	movl	%r9d, %r11d
	notl	%r11d
	movswq	%r11w, %r11
	cmpq	%r11, %r10
	ja	3f
	movq	224(%rdi), %r14
	leaq	-1(%r14), %r11
	cmpq	$65534, %r11
	ja	3f
	movq	232(%rdi), %r11
	cmpq	$65535, %r14
	movabsq	$137438953472, %r15
	cmovneq	%r14, %r15
	cmpq	%r15, %r11
	ja	3f
	orq	240(%rdi), %r11
	jne	3f
	addq	%r10, %r9
	addq	%rdx, %r9
	jb	3f
	movb	%r8b, %cl
	shll	$12, %ecx
	addq	%rcx, %rsi
	testq	%r10, %r10
	je	1f
	callq	blake2_ffi..blake2xs..update_in_frame_1_v2
	jmp	2f
1:
	callq	blake2_ffi..blake2xs..update_in_frame_1_v2
	xorl	%eax, %eax
	testw	%bx, %bx
	je	3f
	callq	blake2_digest..wiping..scrub_stack..3072_1_v2
2:
	xorl	%eax, %eax
3:
	popq	%rbx
	popq	%r14
	popq	%r15
4:
	retq
	vj_end	vulfsjor_ffi_blake2xs_update_1_v2

	vj_export	vulfsjor_ffi_blake2xs_wipe_1_v2
	xorps	%xmm0, %xmm0
	movups	%xmm0, 224(%rdi)
	movups	%xmm0, 208(%rdi)
	movups	%xmm0, 192(%rdi)
	movups	%xmm0, 176(%rdi)
	movups	%xmm0, 160(%rdi)
	movups	%xmm0, 144(%rdi)
	movups	%xmm0, 128(%rdi)
	movups	%xmm0, 112(%rdi)
	movups	%xmm0, 96(%rdi)
	movups	%xmm0, 80(%rdi)
	movups	%xmm0, 64(%rdi)
	movups	%xmm0, 48(%rdi)
	movups	%xmm0, 32(%rdi)
	movups	%xmm0, 16(%rdi)
	movups	%xmm0, (%rdi)
	movq	$0, 240(%rdi)
	retq
	vj_end	vulfsjor_ffi_blake2xs_wipe_1_v2

	vj_export	vulfsjor_ffi_memcmp_1_v2
	xorl	%r10d, %r10d
	testq	%rdi, %rdi
	sete	%r9b
	xorl	%r11d, %r11d
	testq	%rdx, %rdx
	sete	%r8b
	movl	$-1, %eax
	cmpq	%rcx, %rsi
	jne	9f
	testq	%rsi, %rsi
	je	10f
	movb	%r9b, %r10b
	shll	$12, %r10d
	leaq	(%rdi,%r10), %rcx
	movb	%r8b, %r11b
	shll	$12, %r11d
	leaq	(%rdx,%r11), %r8
	cmpq	$4, %rsi
	jae	1f
	xorl	%edx, %edx
	xorl	%r9d, %r9d
	jmp	6f
1:
	cmpq	$32, %rsi
	jae	2f
	xorl	%r9d, %r9d
	xorl	%edx, %edx
	jmp	4f
2:
	movq	%rsi, %r9
	andq	$-32, %r9
	addq	%r11, %rdx
	addq	$16, %rdx
	addq	%r10, %rdi
	addq	$16, %rdi
	pxor	%xmm0, %xmm0
	xorl	%r10d, %r10d
	pxor	%xmm1, %xmm1
	.p2align	4
3:
	movdqu	-16(%rdi,%r10), %xmm2
	movdqu	(%rdi,%r10), %xmm3
	movdqu	-16(%rdx,%r10), %xmm4
	pxor	%xmm2, %xmm4
	por	%xmm4, %xmm1
	movdqu	(%rdx,%r10), %xmm2
	pxor	%xmm3, %xmm2
	por	%xmm2, %xmm0
	addq	$32, %r10
	cmpq	%r10, %r9
	jne	3b
	por	%xmm1, %xmm0
	pshufd	$238, %xmm0, %xmm1
	por	%xmm0, %xmm1
	pshufd	$85, %xmm1, %xmm0
	por	%xmm1, %xmm0
	movdqa	%xmm0, %xmm1
	psrld	$16, %xmm1
	por	%xmm0, %xmm1
	movdqa	%xmm1, %xmm0
	psrlw	$8, %xmm0
	por	%xmm1, %xmm0
	movd	%xmm0, %edx
	cmpq	%r9, %rsi
	je	8f
	testb	$28, %sil
	je	6f
4:
	movq	%r9, %rdi
	movq	%rsi, %r9
	andq	$-4, %r9
	movzbl	%dl, %edx
	movd	%edx, %xmm0
	.p2align	4
5:
	movl	(%r8,%rdi), %edx
	xorl	(%rcx,%rdi), %edx
	movd	%edx, %xmm1
	por	%xmm1, %xmm0
	addq	$4, %rdi
	cmpq	%rdi, %r9
	jne	5b
	movdqa	%xmm0, %xmm1
	psrld	$16, %xmm1
	por	%xmm0, %xmm1
	movdqa	%xmm1, %xmm0
	psrlw	$8, %xmm0
	por	%xmm1, %xmm0
	movd	%xmm0, %edx
	jmp	7f
6:
	movzbl	(%r8,%r9), %edi
	xorb	(%rcx,%r9), %dil
	orb	%dil, %dl
	incq	%r9
7:
	cmpq	%r9, %rsi
	jne	6b
8:
	testb	%dl, %dl
	je	10f
9:
	retq
10:
	xorl	%eax, %eax
	retq
	vj_end	vulfsjor_ffi_memcmp_1_v2

	vj_export	vulfsjor_ffi_tree_check_1_v2
	addq	$-65, %rdi
	cmpq	$-64, %rdi
	setb	%al
	cmpq	$17, %rsi
	setae	%sil
	cmpq	$17, %rdx
	setae	%dl
	orb	%sil, %dl
	orb	%al, %dl
	testl	%ecx, %ecx
	sete	%al
	orb	%dl, %al
	movzbl	%al, %eax
	negl	%eax
	retq
	vj_end	vulfsjor_ffi_tree_check_1_v2

	vj_export	vulfsjor_ffi_tree_count_1_v2
	movl	144(%rdi), %r8d
	leal	-1(%r8), %eax
	cmpl	$63, %eax
	ja	4f
	movl	136(%rdi), %edx
	cmpq	$128, %rdx
	ja	4f
	cmpl	$128, 140(%rdi)
	ja	4f
	movq	128(%rdi), %rcx
	movl	%edx, %eax
	notl	%eax
	cltq
	cmpq	%rax, %rcx
	ja	4f
	movl	488(%rdi), %eax
	decl	%eax
	cmpl	$63, %eax
	ja	4f
	movl	480(%rdi), %esi
	cmpq	$128, %rsi
	ja	4f
	cmpl	$128, 484(%rdi)
	ja	4f
	xorl	%eax, %eax
	cmpl	$64, %r8d
	jne	3f
	movq	472(%rdi), %r8
	movl	%esi, %r9d
	notl	%r9d
	movslq	%r9d, %r9
	cmpq	%r9, %r8
	ja	3f
	movq	696(%rdi), %r9
	leaq	-1(%r9), %rax
	movl	$4294967294, %r10d
	cmpq	%r10, %rax
	ja	4f
	cmpq	$16, 704(%rdi)
	ja	4f
	cmpq	$16, 712(%rdi)
	ja	4f
	addq	%rdx, %rcx
	cmpq	%r9, %rcx
	ja	4f
	movabsq	$288230376151711743, %r10
	movq	688(%rdi), %rdi
	movq	%r10, %rax
	subq	%rcx, %rax
	movq	%rax, %rdx
	orq	%r9, %rdx
	shrq	$32, %rdx
	je	1f
	xorl	%edx, %edx
	divq	%r9
	jmp	2f
1:
	xorl	%edx, %edx
	divl	%r9d
2:
	cmpq	%rax, %rdi
	setbe	%al
	cmpq	%r10, %rdi
	setb	%dl
	andb	%al, %dl
	cmpb	$1, %dl
	jne	4f
	addq	%rsi, %r8
	movq	%rdi, %rax
	shlq	$6, %rax
	cmpq	%rax, %r8
	jne	4f
	imulq	%r9, %rdi
	addq	%rdi, %rcx
	movq	%rcx, %rax
3:
	retq
4:
	xorl	%eax, %eax
	retq
	vj_end	vulfsjor_ffi_tree_count_1_v2

	vj_export	vulfsjor_ffi_tree_digest_size_1_v2
	movl	144(%rdi), %r8d
	leal	-1(%r8), %eax
	cmpl	$63, %eax
	ja	4f
	movl	136(%rdi), %edx
	cmpq	$128, %rdx
	ja	4f
	cmpl	$128, 140(%rdi)
	ja	4f
	movq	128(%rdi), %r9
	movl	%edx, %eax
	notl	%eax
	cltq
	cmpq	%rax, %r9
	ja	4f
	movl	488(%rdi), %ecx
	leal	-1(%rcx), %eax
	cmpl	$63, %eax
	ja	4f
	movl	480(%rdi), %esi
	cmpq	$128, %rsi
	ja	4f
	cmpl	$128, 484(%rdi)
	ja	4f
	xorl	%eax, %eax
	cmpl	$64, %r8d
	jne	3f
	movq	472(%rdi), %r8
	movl	%esi, %r10d
	notl	%r10d
	movslq	%r10d, %r10
	cmpq	%r10, %r8
	ja	3f
	movq	696(%rdi), %r10
	leaq	-1(%r10), %rax
	movl	$4294967294, %r11d
	cmpq	%r11, %rax
	ja	4f
	cmpq	$16, 704(%rdi)
	ja	4f
	cmpq	$16, 712(%rdi)
	ja	4f
	addq	%rdx, %r9
	cmpq	%r10, %r9
	ja	4f
	movabsq	$288230376151711743, %r11
	movq	688(%rdi), %rdi
	movq	%r11, %rax
	subq	%r9, %rax
	movq	%rax, %rdx
	orq	%r10, %rdx
	shrq	$32, %rdx
	je	1f
	xorl	%edx, %edx
	divq	%r10
	jmp	2f
1:
	xorl	%edx, %edx
	divl	%r10d
2:
	cmpq	%rax, %rdi
	setbe	%al
	cmpq	%r11, %rdi
	setb	%dl
	andb	%al, %dl
	cmpb	$1, %dl
	jne	4f
	addq	%rsi, %r8
	shlq	$6, %rdi
	xorl	%eax, %eax
	cmpq	%rdi, %r8
	cmoveq	%rcx, %rax
3:
	retq
4:
	xorl	%eax, %eax
	retq
	vj_end	vulfsjor_ffi_tree_digest_size_1_v2

	vj_export	vulfsjor_ffi_tree_final_1_v2
	pushq	%rbp
	pushq	%r15
	pushq	%r14
	pushq	%r13
	pushq	%r12
	pushq	%rbx
	subq	$776, %rsp
	xorl	%r14d, %r14d
	testq	%rsi, %rsi
	sete	%bpl
	movl	144(%rdi), %ebx
	leal	-1(%rbx), %ecx
	movl	$-1, %eax
	cmpl	$63, %ecx
	ja	3f
	movl	136(%rdi), %r10d
	cmpq	$128, %r10
	ja	3f
	movl	140(%rdi), %r11d
	cmpl	$128, %r11d
	ja	3f
	movq	128(%rdi), %r15
	movl	%r10d, %ecx
	notl	%ecx
	movslq	%ecx, %rcx
	cmpq	%rcx, %r15
	ja	3f
	movl	488(%rdi), %ecx
	leal	-1(%rcx), %r8d
	cmpl	$63, %r8d
	ja	3f
	movl	480(%rdi), %r8d
	cmpq	$128, %r8
	ja	3f
	movl	484(%rdi), %r9d
	cmpl	$128, %r9d
	ja	3f
	cmpl	$64, %ebx
	jne	3f
	movq	472(%rdi), %rbx
	movl	%r8d, %r12d
	notl	%r12d
	movslq	%r12d, %r12
	cmpq	%r12, %rbx
	ja	3f
	movq	%rbx, 8(%rsp)
	movq	696(%rdi), %r13
	leaq	-1(%r13), %r12
	movl	$4294967294, %ebx
	cmpq	%rbx, %r12
	ja	3f
	cmpq	$16, 704(%rdi)
	ja	3f
	cmpq	$16, 712(%rdi)
	ja	3f
	leaq	(%r15,%r10), %r12
	cmpq	%r13, %r12
	ja	3f
	movq	%rdx, (%rsp)
	movabsq	$288230376151711743, %rax
	movq	688(%rdi), %rbx
	subq	%r12, %rax
	movq	%rax, %rdx
	orq	%r13, %rdx
	shrq	$32, %rdx
	je	1f
	xorl	%edx, %edx
	divq	%r13
	jmp	2f
1:
	xorl	%edx, %edx
	divl	%r13d
2:
	cmpq	%rax, %rbx
	setbe	%al
	movabsq	$288230376151711743, %rdx
	cmpq	%rdx, %rbx
	setb	%dl
	andb	%al, %dl
	cmpb	$1, %dl
	movl	$-1, %eax
	jne	3f
	movq	%rbx, %r12
	movq	%r8, %rdx
	movq	8(%rsp), %rbx
	addq	%rbx, %rdx
	shlq	$6, %r12
	xorq	%rdx, %r12
	movq	(%rsp), %rdx
	xorq	%rcx, %rdx
	orq	%r12, %rdx
	jne	3f
	movb	%bpl, %r14b
	shll	$12, %r14d
	addq	%r14, %rsi
	movups	(%rdi), %xmm0
	movups	16(%rdi), %xmm1
	movups	32(%rdi), %xmm2
	movups	48(%rdi), %xmm3
	movaps	%xmm0, 432(%rsp)
	movaps	%xmm1, 448(%rsp)
	movaps	%xmm2, 464(%rsp)
	movaps	%xmm3, 480(%rsp)
	movups	64(%rdi), %xmm0
	movups	80(%rdi), %xmm1
	movups	96(%rdi), %xmm2
	movups	112(%rdi), %xmm3
	movaps	%xmm0, 496(%rsp)
	movaps	%xmm1, 512(%rsp)
	movaps	%xmm2, 528(%rsp)
	movaps	%xmm3, 544(%rsp)
	movq	%r15, 560(%rsp)
	movups	264(%rdi), %xmm0
	movups	%xmm0, 696(%rsp)
	movups	248(%rdi), %xmm0
	movups	%xmm0, 680(%rsp)
	movups	232(%rdi), %xmm0
	movups	%xmm0, 664(%rsp)
	movups	216(%rdi), %xmm0
	movups	%xmm0, 648(%rsp)
	movups	152(%rdi), %xmm0
	movups	168(%rdi), %xmm1
	movups	184(%rdi), %xmm2
	movups	200(%rdi), %xmm3
	movups	%xmm3, 632(%rsp)
	movups	%xmm2, 616(%rsp)
	movups	%xmm1, 600(%rsp)
	movups	%xmm0, 584(%rsp)
	movups	280(%rdi), %xmm0
	movups	296(%rdi), %xmm1
	movups	312(%rdi), %xmm2
	movups	328(%rdi), %xmm3
	movups	%xmm0, 712(%rsp)
	movups	%xmm1, 728(%rsp)
	movd	%r10d, %xmm0
	pinsrd	$1, %r11d, %xmm0
	movups	%xmm2, 744(%rsp)
	movl	$64, %eax
	pinsrd	$2, %eax, %xmm0
	movups	%xmm3, 760(%rsp)
	movl	$1, %eax
	pinsrd	$3, %eax, %xmm0
	movdqu	%xmm0, 568(%rsp)
	movups	344(%rdi), %xmm0
	movups	360(%rdi), %xmm1
	movups	376(%rdi), %xmm2
	movups	392(%rdi), %xmm3
	movaps	%xmm3, 64(%rsp)
	movaps	%xmm2, 48(%rsp)
	movaps	%xmm1, 32(%rsp)
	movaps	%xmm0, 16(%rsp)
	movups	408(%rdi), %xmm0
	movups	424(%rdi), %xmm1
	movups	440(%rdi), %xmm2
	movups	456(%rdi), %xmm3
	movaps	%xmm3, 128(%rsp)
	movaps	%xmm2, 112(%rsp)
	movaps	%xmm1, 96(%rsp)
	movaps	%xmm0, 80(%rsp)
	movl	492(%rdi), %eax
	movq	%rbx, 144(%rsp)
	movl	%r8d, 152(%rsp)
	movl	%r9d, 156(%rsp)
	movl	%ecx, 160(%rsp)
	movl	%eax, 164(%rsp)
	movups	496(%rdi), %xmm0
	movups	512(%rdi), %xmm1
	movups	528(%rdi), %xmm2
	movups	544(%rdi), %xmm3
	movups	%xmm0, 168(%rsp)
	movups	%xmm1, 184(%rsp)
	movups	%xmm2, 200(%rsp)
	movups	%xmm3, 216(%rsp)
	movups	560(%rdi), %xmm0
	movups	%xmm0, 232(%rsp)
	movups	576(%rdi), %xmm0
	movups	%xmm0, 248(%rsp)
	movups	592(%rdi), %xmm0
	movups	%xmm0, 264(%rsp)
	movups	608(%rdi), %xmm0
	movups	%xmm0, 280(%rsp)
	movups	624(%rdi), %xmm0
	movups	640(%rdi), %xmm1
	movups	656(%rdi), %xmm2
	movups	672(%rdi), %xmm3
	movups	%xmm0, 296(%rsp)
	movups	%xmm1, 312(%rsp)
	movups	%xmm2, 328(%rsp)
	movups	%xmm3, 344(%rsp)
	xorps	%xmm0, %xmm0
	movaps	%xmm0, 368(%rsp)
	movaps	%xmm0, 384(%rsp)
	movaps	%xmm0, 400(%rsp)
	movaps	%xmm0, 416(%rsp)
	leaq	432(%rsp), %rax
	leaq	368(%rsp), %rbx
	movq	%rdi, %r14
	movq	%rax, %rdi
	movq	%rsi, %r15
	movq	%rbx, %rsi
	callq	blake2_state..blake2b..State..write_digest_1_v2
	leaq	16(%rsp), %r12
	movl	$64, %edx
	movq	%r12, %rdi
	movq	%rbx, %rsi
	callq	blake2_state..blake2b..State..absorb_blocks_1_v2
	movl	$1, 164(%rsp)
	movq	%r12, %rdi
	movq	%r15, %rsi
	callq	blake2_state..blake2b..State..write_digest_1_v2
	movl	$752, %edx
	movq	%r14, %rdi
	xorl	%esi, %esi
	vj_c_call	memset
	xorl	%eax, %eax
3:
	addq	$776, %rsp
	popq	%rbx
	popq	%r12
	popq	%r13
	popq	%r14
	popq	%r15
	popq	%rbp
	retq
	vj_end	vulfsjor_ffi_tree_final_1_v2

	vj_constants	16
	.p2align	4, 0x0
.L1_v2_CPI185_0:
	.short	64
	.short	512
	.zero	2
	.zero	2
	.zero	2
	.zero	2
	.zero	2
	.zero	2
.L1_v2_CPI185_1:
	.quad	2270897969802886507
	.quad	6620516959819538809
.L1_v2_CPI185_2:
	.quad	5840696475078001361
	.quad	-7276294671716946913
.L1_v2_CPI185_3:
	.quad	7640891576956012808
	.quad	-4942790177534073029
.L1_v2_CPI185_4:
	.quad	4354685564936828971
	.quad	-6534734903238641935
.L1_v2_CPI185_5:
	.quad	4354685564936828970
	.quad	-6534734903238641935
.L1_v2_CPI185_6:
	.short	64
	.short	512
	.short	0
	.short	0
	.short	0
	.short	0
	.short	0
	.short	0
	vj_export	vulfsjor_ffi_tree_init_1_v2
	pushq	%rbp
	movq	%rsp, %rbp
	pushq	%r15
	pushq	%r14
	pushq	%r13
	pushq	%r12
	pushq	%rbx
	andq	$-32, %rsp
	subq	$288, %rsp
	movq	%r9, %rbx
	movq	%rcx, %r14
	movq	%rsi, %r9
	leaq	-1(%rsi), %rax
	cmpq	$64, %rax
	setae	%al
	cmpq	$17, %rcx
	setae	%cl
	cmpq	$17, %rbx
	setae	%sil
	orb	%cl, %sil
	orb	%al, %sil
	cmpl	$0, 16(%rbp)
	sete	%al
	orb	%sil, %al
	jne	1f
	xorl	%r12d, %r12d
	testq	%r8, %r8
	sete	%r12b
	shll	$12, %r12d
	addq	%r8, %r12
	xorl	%r13d, %r13d
	testq	%rdx, %rdx
	sete	%r13b
	shll	$12, %r13d
	addq	%rdx, %r13
	xorps	%xmm0, %xmm0
	movaps	%xmm0, 176(%rsp)
	leaq	176(%rsp), %rax
	movq	%rdi, %r15
	movq	%rax, %rdi
	movq	%r13, %rsi
	movq	%r14, %rdx
	movq	%r9, 56(%rsp)
	vj_c_call	memcpy
	xorps	%xmm0, %xmm0
	movaps	%xmm0, 192(%rsp)
	leaq	192(%rsp), %rdi
	movq	%r12, %rsi
	movq	%rbx, %rdx
	vj_c_call	memcpy
	movaps	176(%rsp), %xmm0
	movaps	%xmm0, 112(%rsp)
	movq	%r14, 128(%rsp)
	movaps	192(%rsp), %xmm0
	movups	%xmm0, 136(%rsp)
	movq	%rbx, 152(%rsp)
	movl	16(%rbp), %eax
	movl	%eax, 160(%rsp)
	movl	$0, 164(%rsp)
	xorps	%xmm0, %xmm0
	movaps	%xmm0, 16(%rsp)
	movaps	%xmm0, (%rsp)
	movd	.L1_v2_CPI185_6(%rip), %xmm0
	movd	%eax, %xmm1
	movdqa	%xmm1, 32(%rsp)
	punpckldq	%xmm1, %xmm0
	movq	%xmm0, %xmm0
	movdqa	%xmm0, 64(%rsp)
	movq	%rsp, %rdi
	leaq	112(%rsp), %rsi
	movq	%r14, %rdx
	vj_c_call	memcpy
	leaq	16(%rsp), %rdi
	leaq	136(%rsp), %rsi
	movq	%rbx, %rdx
	vj_c_call	memcpy
	movaps	.L1_v2_CPI185_1(%rip), %xmm0
	movaps	%xmm0, 96(%rsp)
	movaps	16(%rsp), %xmm1
	xorps	%xmm0, %xmm1
	movaps	%xmm1, 240(%rsp)
	movaps	.L1_v2_CPI185_2(%rip), %xmm0
	movaps	%xmm0, 80(%rsp)
	movaps	(%rsp), %xmm1
	xorps	%xmm0, %xmm1
	movaps	%xmm1, 224(%rsp)
	movaps	64(%rsp), %xmm0
	xorps	.L1_v2_CPI185_3(%rip), %xmm0
	movaps	%xmm0, 64(%rsp)
	xorps	%xmm0, %xmm0
	movaps	%xmm0, 16(%rsp)
	movaps	%xmm0, (%rsp)
	movq	56(%rsp), %rax
	orl	$33554432, %eax
	movd	%eax, %xmm0
	punpckldq	32(%rsp), %xmm0
	movq	%xmm0, %xmm0
	movdqa	%xmm0, 32(%rsp)
	movq	%rsp, %rdi
	leaq	112(%rsp), %rsi
	movq	%r14, %rdx
	vj_c_call	memcpy
	leaq	16(%rsp), %rdi
	leaq	136(%rsp), %rsi
	movq	%rbx, %rdx
	vj_c_call	memcpy
	movaps	96(%rsp), %xmm0
	xorps	16(%rsp), %xmm0
	movaps	%xmm0, 96(%rsp)
	movaps	80(%rsp), %xmm0
	xorps	(%rsp), %xmm0
	movaps	%xmm0, 80(%rsp)
	movaps	32(%rsp), %xmm0
	xorps	.L1_v2_CPI185_3(%rip), %xmm0
	movaps	%xmm0, 32(%rsp)
	movl	16(%rbp), %eax
	movq	%rax, 168(%rsp)
	xorps	%xmm0, %xmm0
	movaps	%xmm0, 208(%rsp)
	leaq	208(%rsp), %rdi
	movq	%r13, %rsi
	movq	%r14, %rdx
	vj_c_call	memcpy
	xorps	%xmm0, %xmm0
	movaps	%xmm0, (%rsp)
	movq	%rsp, %rdi
	movq	%r12, %rsi
	movq	%rbx, %rdx
	vj_c_call	memcpy
	movaps	208(%rsp), %xmm0
	movaps	%xmm0, 112(%rsp)
	movaps	(%rsp), %xmm0
	movaps	%xmm0, 128(%rsp)
	movaps	64(%rsp), %xmm0
	movups	%xmm0, (%r15)
	movaps	.L1_v2_CPI185_4(%rip), %xmm3
	movups	%xmm3, 16(%r15)
	movaps	224(%rsp), %xmm2
	movups	%xmm2, 32(%r15)
	movaps	240(%rsp), %xmm1
	movups	%xmm1, 48(%r15)
	movups	%xmm0, 64(%r15)
	movups	%xmm3, 80(%r15)
	movups	%xmm2, 96(%r15)
	movups	%xmm1, 112(%r15)
	xorps	%xmm0, %xmm0
	movups	%xmm0, 128(%r15)
	movl	$64, 144(%r15)
	movups	%xmm0, 148(%r15)
	movups	%xmm0, 164(%r15)
	movups	%xmm0, 180(%r15)
	movups	%xmm0, 196(%r15)
	movups	%xmm0, 212(%r15)
	movups	%xmm0, 228(%r15)
	movups	%xmm0, 244(%r15)
	movups	%xmm0, 260(%r15)
	movups	%xmm0, 276(%r15)
	movups	%xmm0, 292(%r15)
	movups	%xmm0, 308(%r15)
	movups	%xmm0, 324(%r15)
	movl	$0, 340(%r15)
	movaps	32(%rsp), %xmm3
	movups	%xmm3, 344(%r15)
	movaps	.L1_v2_CPI185_5(%rip), %xmm4
	movups	%xmm4, 360(%r15)
	movaps	80(%rsp), %xmm2
	movups	%xmm2, 376(%r15)
	movaps	96(%rsp), %xmm1
	movups	%xmm1, 392(%r15)
	movups	%xmm3, 408(%r15)
	movups	%xmm4, 424(%r15)
	movups	%xmm2, 440(%r15)
	movups	%xmm1, 456(%r15)
	movups	%xmm0, 472(%r15)
	movq	56(%rsp), %rax
	movl	%eax, 488(%r15)
	movups	%xmm0, 492(%r15)
	movups	%xmm0, 508(%r15)
	movups	%xmm0, 524(%r15)
	movups	%xmm0, 540(%r15)
	movups	%xmm0, 556(%r15)
	movups	%xmm0, 572(%r15)
	movups	%xmm0, 588(%r15)
	movups	%xmm0, 604(%r15)
	movups	%xmm0, 620(%r15)
	movups	%xmm0, 636(%r15)
	movups	%xmm0, 652(%r15)
	movups	%xmm0, 668(%r15)
	movups	%xmm0, 680(%r15)
	movq	168(%rsp), %rax
	movq	%rax, 696(%r15)
	movq	%r14, 704(%r15)
	movq	%rbx, 712(%r15)
	movaps	112(%rsp), %xmm0
	movaps	128(%rsp), %xmm1
	movups	%xmm0, 720(%r15)
	movups	%xmm1, 736(%r15)
	xorl	%eax, %eax
	jmp	2f
1:
	movl	$752, %edx
	xorl	%esi, %esi
	vj_c_call	memset
	movl	$-1, %eax
2:
	leaq	-40(%rbp), %rsp
	popq	%rbx
	popq	%r12
	popq	%r13
	popq	%r14
	popq	%r15
	popq	%rbp
	retq
	vj_end	vulfsjor_ffi_tree_init_1_v2

	vj_constants	16
	.p2align	4, 0x0
.L1_v2_CPI186_0:
	.short	64
	.short	512
	.zero	2
	.zero	2
	.zero	2
	.zero	2
	.zero	2
	.zero	2
.L1_v2_CPI186_1:
	.quad	7640891576956012808
	.quad	-4942790177534073029
.L1_v2_CPI186_2:
	.quad	4354685564936828971
	.quad	-6534734903238641935
.L1_v2_CPI186_3:
	.quad	2270897969802886507
	.quad	6620516959819538809
.L1_v2_CPI186_4:
	.quad	5840696475078001361
	.quad	-7276294671716946913
.L1_v2_CPI186_5:
	.short	64
	.short	512
	.short	0
	.short	0
	.short	0
	.short	0
	.short	0
	.short	0
	vj_export	vulfsjor_ffi_tree_init_leaf_1_v2
	pushq	%rbp
	movq	%rsp, %rbp
	pushq	%r15
	pushq	%r14
	pushq	%r13
	pushq	%r12
	pushq	%rbx
	andq	$-32, %rsp
	subq	$192, %rsp
	movq	%rsi, %rbx
	cmpq	$17, %r8
	setb	%al
	cmpq	$17, 16(%rbp)
	setb	%sil
	andb	%al, %sil
	cmpl	$0, 24(%rbp)
	setne	%al
	testb	%al, %sil
	je	1f
	movq	%r8, %r14
	xorl	%r12d, %r12d
	testq	%r9, %r9
	sete	%r12b
	shll	$12, %r12d
	addq	%r9, %r12
	xorl	%esi, %esi
	testq	%rcx, %rcx
	sete	%sil
	shll	$12, %esi
	addq	%rcx, %rsi
	xorl	%r15d, %r15d
	testl	%edx, %edx
	setne	%r15b
	xorps	%xmm0, %xmm0
	movaps	%xmm0, 48(%rsp)
	leaq	48(%rsp), %rax
	movq	%rdi, %r13
	movq	%rax, %rdi
	movq	%r8, %rdx
	vj_c_call	memcpy
	xorps	%xmm0, %xmm0
	movaps	%xmm0, 64(%rsp)
	leaq	64(%rsp), %rdi
	movq	%r12, %rsi
	movq	16(%rbp), %r12
	movq	%r12, %rdx
	vj_c_call	memcpy
	movaps	48(%rsp), %xmm0
	movaps	%xmm0, 80(%rsp)
	movq	%r14, 96(%rsp)
	movaps	64(%rsp), %xmm0
	movups	%xmm0, 104(%rsp)
	movq	%r12, 120(%rsp)
	movl	24(%rbp), %eax
	movl	%eax, 128(%rsp)
	movl	$0, 132(%rsp)
	xorps	%xmm0, %xmm0
	movaps	%xmm0, 16(%rsp)
	movaps	%xmm0, (%rsp)
	movd	%eax, %xmm0
	movd	.L1_v2_CPI186_5(%rip), %xmm1
	punpckldq	%xmm0, %xmm1
	movq	%rbx, %xmm0
	punpcklqdq	%xmm0, %xmm1
	movdqa	%xmm1, 144(%rsp)
	movq	%rsp, %rdi
	leaq	80(%rsp), %rsi
	movq	%r14, %rdx
	vj_c_call	memcpy
	leaq	16(%rsp), %rdi
	leaq	104(%rsp), %rsi
	movq	%r12, %rdx
	vj_c_call	memcpy
	movaps	(%rsp), %xmm0
	movaps	16(%rsp), %xmm1
	movaps	144(%rsp), %xmm3
	xorps	.L1_v2_CPI186_1(%rip), %xmm3
	movaps	.L1_v2_CPI186_2(%rip), %xmm2
	xorps	.L1_v2_CPI186_3(%rip), %xmm1
	xorps	.L1_v2_CPI186_4(%rip), %xmm0
	movups	%xmm3, (%r13)
	movups	%xmm2, 16(%r13)
	movups	%xmm0, 32(%r13)
	movups	%xmm1, 48(%r13)
	movups	%xmm3, 64(%r13)
	movups	%xmm2, 80(%r13)
	movups	%xmm0, 96(%r13)
	movups	%xmm1, 112(%r13)
	xorps	%xmm0, %xmm0
	movups	%xmm0, 128(%r13)
	movl	$64, 144(%r13)
	movl	%r15d, 148(%r13)
	movups	%xmm0, 152(%r13)
	movups	%xmm0, 168(%r13)
	movups	%xmm0, 184(%r13)
	movups	%xmm0, 200(%r13)
	movups	%xmm0, 216(%r13)
	movups	%xmm0, 232(%r13)
	movups	%xmm0, 248(%r13)
	movups	%xmm0, 264(%r13)
	movups	%xmm0, 280(%r13)
	movups	%xmm0, 296(%r13)
	movups	%xmm0, 312(%r13)
	movups	%xmm0, 328(%r13)
	xorl	%eax, %eax
	jmp	2f
1:
	movl	$344, %edx
	xorl	%esi, %esi
	vj_c_call	memset
	movl	$-1, %eax
2:
	leaq	-40(%rbp), %rsp
	popq	%rbx
	popq	%r12
	popq	%r13
	popq	%r14
	popq	%r15
	popq	%rbp
	retq
	vj_end	vulfsjor_ffi_tree_init_leaf_1_v2

	vj_constants	16
	.p2align	4, 0x0
.L1_v2_CPI187_0:
	.quad	7640891576956012808
	.quad	-4942790177534073029
.L1_v2_CPI187_1:
	.quad	4354685564936828970
	.quad	-6534734903238641935
.L1_v2_CPI187_2:
	.quad	2270897969802886507
	.quad	6620516959819538809
.L1_v2_CPI187_3:
	.quad	5840696475078001361
	.quad	-7276294671716946913
	vj_export	vulfsjor_ffi_tree_init_root_1_v2
	pushq	%rbp
	movq	%rsp, %rbp
	pushq	%r15
	pushq	%r14
	pushq	%r13
	pushq	%r12
	pushq	%rbx
	andq	$-32, %rsp
	subq	$192, %rsp
	movq	%r9, %r14
	movq	%rsi, %rbx
	leaq	-1(%rsi), %rax
	cmpq	$64, %rax
	setb	%al
	cmpq	$17, %rcx
	setb	%sil
	cmpq	$17, %r9
	setb	%r9b
	andb	%sil, %r9b
	andb	%al, %r9b
	cmpl	$0, 16(%rbp)
	setne	%al
	testb	%al, %r9b
	je	1f
	xorl	%r12d, %r12d
	testq	%r8, %r8
	sete	%r12b
	shll	$12, %r12d
	addq	%r8, %r12
	xorl	%esi, %esi
	testq	%rdx, %rdx
	sete	%sil
	shll	$12, %esi
	addq	%rdx, %rsi
	xorps	%xmm0, %xmm0
	movaps	%xmm0, 48(%rsp)
	leaq	48(%rsp), %rax
	movq	%rdi, %r13
	movq	%rax, %rdi
	movq	%rcx, %rdx
	movq	%rcx, %r15
	vj_c_call	memcpy
	xorps	%xmm0, %xmm0
	movaps	%xmm0, 64(%rsp)
	leaq	64(%rsp), %rdi
	movq	%r12, %rsi
	movq	%r14, %rdx
	vj_c_call	memcpy
	movaps	48(%rsp), %xmm0
	movaps	%xmm0, 80(%rsp)
	movq	%r15, 96(%rsp)
	leaq	104(%rsp), %r12
	movaps	64(%rsp), %xmm0
	movups	%xmm0, 104(%rsp)
	movq	%r14, 120(%rsp)
	movl	16(%rbp), %ecx
	movl	%ecx, 128(%rsp)
	movl	$0, 132(%rsp)
	xorps	%xmm0, %xmm0
	movaps	%xmm0, 16(%rsp)
	movaps	%xmm0, (%rsp)
	movl	%ebx, %eax
	orl	$33554432, %eax
	movd	%eax, %xmm0
	pinsrd	$1, %ecx, %xmm0
	movq	%xmm0, %xmm0
	movdqa	%xmm0, 144(%rsp)
	movq	%rsp, %rdi
	leaq	80(%rsp), %rsi
	movq	%r15, %rdx
	vj_c_call	memcpy
	leaq	16(%rsp), %rdi
	movq	%r12, %rsi
	movq	%r14, %rdx
	vj_c_call	memcpy
	movaps	(%rsp), %xmm0
	movaps	16(%rsp), %xmm1
	movaps	144(%rsp), %xmm3
	xorps	.L1_v2_CPI187_0(%rip), %xmm3
	movaps	.L1_v2_CPI187_1(%rip), %xmm2
	xorps	.L1_v2_CPI187_2(%rip), %xmm1
	xorps	.L1_v2_CPI187_3(%rip), %xmm0
	movups	%xmm3, (%r13)
	movups	%xmm2, 16(%r13)
	movups	%xmm0, 32(%r13)
	movups	%xmm1, 48(%r13)
	movups	%xmm3, 64(%r13)
	movups	%xmm2, 80(%r13)
	movups	%xmm0, 96(%r13)
	movups	%xmm1, 112(%r13)
	xorps	%xmm0, %xmm0
	movups	%xmm0, 128(%r13)
	movl	%ebx, 144(%r13)
	movl	$1, 148(%r13)
	movups	%xmm0, 152(%r13)
	movups	%xmm0, 168(%r13)
	movups	%xmm0, 184(%r13)
	movups	%xmm0, 200(%r13)
	movups	%xmm0, 216(%r13)
	movups	%xmm0, 232(%r13)
	movups	%xmm0, 248(%r13)
	movups	%xmm0, 264(%r13)
	movups	%xmm0, 280(%r13)
	movups	%xmm0, 296(%r13)
	movups	%xmm0, 312(%r13)
	movups	%xmm0, 328(%r13)
	xorl	%eax, %eax
	jmp	2f
1:
	movl	$344, %edx
	xorl	%esi, %esi
	vj_c_call	memset
	movl	$-1, %eax
2:
	leaq	-40(%rbp), %rsp
	popq	%rbx
	popq	%r12
	popq	%r13
	popq	%r14
	popq	%r15
	popq	%rbp
	retq
	vj_end	vulfsjor_ffi_tree_init_root_1_v2

	vj_export	vulfsjor_ffi_tree_leaf_count_1_v2
	testl	%esi, %esi
	je	1f
	movl	%esi, %ecx
	movq	%rdi, %rax
	shrq	$32, %rax
	je	2f
	movq	%rdi, %rax
	xorl	%edx, %edx
	divq	%rcx
	jmp	3f
1:
	xorl	%eax, %eax
	retq
2:
	movl	%edi, %eax
	xorl	%edx, %edx
	divl	%ecx
3:
	xorl	%ecx, %ecx
	testq	%rdx, %rdx
	setne	%cl
	leaq	(%rax,%rcx), %rdx
	cmpq	$1, %rdx
	adcq	%rcx, %rax
	retq
	vj_end	vulfsjor_ffi_tree_leaf_count_1_v2

	vj_export	vulfsjor_ffi_tree_leaf_length_1_v2
	movl	144(%rdi), %esi
	leal	-1(%rsi), %ecx
	xorl	%eax, %eax
	cmpl	$63, %ecx
	ja	3f
	movl	136(%rdi), %edx
	cmpq	$128, %rdx
	ja	3f
	cmpl	$128, 140(%rdi)
	ja	3f
	movq	128(%rdi), %r9
	movl	%edx, %ecx
	notl	%ecx
	movslq	%ecx, %rcx
	cmpq	%rcx, %r9
	ja	3f
	movl	488(%rdi), %ecx
	decl	%ecx
	cmpl	$63, %ecx
	ja	3f
	movl	480(%rdi), %ecx
	cmpq	$128, %rcx
	ja	3f
	cmpl	$128, 484(%rdi)
	ja	3f
	cmpl	$64, %esi
	jne	3f
	movq	472(%rdi), %rsi
	movl	%ecx, %r8d
	notl	%r8d
	movslq	%r8d, %r8
	cmpq	%r8, %rsi
	ja	3f
	movq	696(%rdi), %r8
	leaq	-1(%r8), %r10
	movl	$4294967294, %r11d
	cmpq	%r11, %r10
	ja	3f
	cmpq	$16, 704(%rdi)
	ja	3f
	cmpq	$16, 712(%rdi)
	ja	3f
	addq	%rdx, %r9
	cmpq	%r8, %r9
	ja	3f
	movabsq	$288230376151711743, %r10
	movq	688(%rdi), %rdi
	movq	%r10, %rax
	subq	%r9, %rax
	movq	%rax, %rdx
	orq	%r8, %rdx
	shrq	$32, %rdx
	je	1f
	xorl	%edx, %edx
	divq	%r8
	jmp	2f
1:
	xorl	%edx, %edx
	divl	%r8d
2:
	cmpq	%rax, %rdi
	setbe	%al
	cmpq	%r10, %rdi
	setb	%dl
	andb	%al, %dl
	cmpb	$1, %dl
	movl	$0, %eax
	jne	3f
	addq	%rcx, %rsi
	shlq	$6, %rdi
	xorl	%eax, %eax
	cmpq	%rdi, %rsi
	cmovnel	%eax, %r8d
	movl	%r8d, %eax
3:
	retq
	vj_end	vulfsjor_ffi_tree_leaf_length_1_v2

	vj_export	vulfsjor_ffi_tree_leaves_1_v2
	pushq	%rbp
	pushq	%r15
	pushq	%r14
	pushq	%r13
	pushq	%r12
	pushq	%rbx
	subq	$56, %rsp
	movq	%rdx, %r10
	movq	%rdi, %r11
	movq	128(%rsp), %r14
	movq	112(%rsp), %rdi
	testq	%r11, %r11
	sete	%bl
	testq	%r8, %r8
	sete	%r15b
	testq	%rdi, %rdi
	sete	%r13b
	testq	%r14, %r14
	sete	47(%rsp)
	cmpq	$17, 120(%rsp)
	setae	%al
	cmpq	$17, 136(%rsp)
	setae	%dl
	orb	%al, %dl
	movl	144(%rsp), %ebp
	testl	%ebp, %ebp
	sete	%al
	orb	%dl, %al
	movl	$-1, %r12d
	jne	8f
	movb	%r13b, 44(%rsp)
	movb	%r15b, 45(%rsp)
	movb	%bl, 46(%rsp)
	movq	%rsi, 48(%rsp)
	testl	%ecx, %ecx
	setne	%r15b
	testq	%r9, %r9
	setne	%bl
	testq	%r10, %r10
	sete	%r13b
	movl	%ebp, %esi
	movb	$1, %dl
	testl	%ecx, %ecx
	jne	3f
	movq	%r9, %rax
	shrq	$32, %rax
	je	1f
	movq	%r9, %rax
	xorl	%edx, %edx
	divq	%rsi
	jmp	2f
1:
	movl	%r9d, %eax
	xorl	%edx, %edx
	divl	%esi
2:
	testq	%rdx, %rdx
	sete	%dl
3:
	movabsq	$288230376151711743, %rax
	leaq	1(%rax), %rbp
	cmpq	%rbp, %r9
	jae	8f
	andb	%r15b, %r13b
	orb	%bl, %r13b
	andb	%dl, %r13b
	je	8f
	subq	%r9, %rax
	movabsq	$288230371856744448, %rdx
	testq	%rdx, %rax
	je	4f
	xorl	%edx, %edx
	divq	%rsi
	jmp	5f
4:
	xorl	%edx, %edx
	divl	%esi
5:
	movq	136(%rsp), %rbx
	movl	144(%rsp), %ebp
	movzbl	45(%rsp), %r15d
	movzbl	44(%rsp), %r13d
	cmpq	%rax, %r10
	ja	8f
	movq	%r9, %rax
	shrq	$32, %rax
	je	6f
	movq	%r9, %rax
	xorl	%edx, %edx
	divq	%rsi
	jmp	7f
6:
	movl	%r9d, %eax
	xorl	%edx, %edx
	divl	%esi
7:
	xorl	%esi, %esi
	testq	%rdx, %rdx
	setne	%sil
	leaq	(%rax,%rsi), %rdx
	cmpq	$1, %rdx
	adcq	%rsi, %rax
	movq	%rax, %rdx
	shrq	$58, %rdx
	shlq	$6, %rax
	movq	48(%rsp), %rsi
	xorq	%rsi, %rax
	orq	%rdx, %rax
	jne	8f
	xorl	%eax, %eax
	movzbl	46(%rsp), %edx
	movb	%dl, %al
	xorl	%edx, %edx
	movb	%r15b, %dl
	xorl	%r15d, %r15d
	movb	%r13b, %r15b
	xorl	%r12d, %r12d
	movzbl	47(%rsp), %r13d
	movb	%r13b, %r12b
	shll	$12, %eax
	shll	$12, %edx
	shll	$12, %r15d
	shll	$12, %r12d
	addq	%rax, %r11
	addq	%rdx, %r8
	addq	%r15, %rdi
	addq	%r12, %r14
	xorl	%eax, %eax
	testl	%ecx, %ecx
	setne	%al
	movq	%rsi, 32(%rsp)
	movq	%r11, 24(%rsp)
	movq	%r9, 16(%rsp)
	movq	%r8, 8(%rsp)
	movl	%eax, (%rsp)
	movq	120(%rsp), %rsi
	movq	%r14, %rdx
	movq	%rbx, %rcx
	movl	%ebp, %r8d
	movq	%r10, %r9
	callq	blake2_tree..ranges..hash_leaves_1_v2
	xorl	%r12d, %r12d
8:
	movl	%r12d, %eax
	addq	$56, %rsp
	popq	%rbx
	popq	%r12
	popq	%r13
	popq	%r14
	popq	%r15
	popq	%rbp
	retq
	vj_end	vulfsjor_ffi_tree_leaves_1_v2

	vj_export	vulfsjor_ffi_tree_leaves_ahead_1_v2
	pushq	%rbp
	pushq	%r15
	pushq	%r14
	pushq	%r13
	pushq	%r12
	pushq	%rbx
	subq	$88, %rsp
	xorl	%r12d, %r12d
	testq	%rsi, %rsi
	sete	%bpl
	xorl	%r13d, %r13d
	testq	%r8, %r8
	sete	%r15b
	movl	144(%rdi), %r11d
	leal	-1(%r11), %r10d
	movl	$-1, %eax
	cmpl	$63, %r10d
	ja	10f
	movl	136(%rdi), %r10d
	cmpq	$128, %r10
	ja	10f
	cmpl	$128, 140(%rdi)
	ja	10f
	movq	128(%rdi), %r14
	movl	%r10d, %ebx
	notl	%ebx
	movslq	%ebx, %rbx
	cmpq	%rbx, %r14
	ja	10f
	movl	488(%rdi), %ebx
	decl	%ebx
	cmpl	$63, %ebx
	ja	10f
	movl	480(%rdi), %ebx
	cmpq	$128, %rbx
	ja	10f
	cmpl	$128, 484(%rdi)
	ja	10f
	cmpl	$64, %r11d
	jne	10f
	movq	%rbx, %r11
	movq	472(%rdi), %rbx
	movq	%r11, 72(%rsp)
	notl	%r11d
	movslq	%r11d, %r11
	movq	%rbx, 80(%rsp)
	cmpq	%r11, %rbx
	ja	10f
	movq	696(%rdi), %rbx
	movq	%rbx, 40(%rsp)
	decq	%rbx
	movl	$4294967294, %r11d
	cmpq	%r11, %rbx
	ja	10f
	movq	704(%rdi), %r11
	cmpq	$16, %r11
	ja	10f
	movq	%rcx, 56(%rsp)
	movq	712(%rdi), %rcx
	cmpq	$16, %rcx
	ja	10f
	movq	%r11, 64(%rsp)
	addq	%r10, %r14
	movq	40(%rsp), %r11
	cmpq	%r11, %r14
	ja	10f
	movq	%rdx, 48(%rsp)
	movabsq	$288230376151711743, %rax
	movq	688(%rdi), %r10
	subq	%r14, %rax
	movq	%rax, %rdx
	orq	%r11, %rdx
	shrq	$32, %rdx
	je	1f
	xorl	%edx, %edx
	divq	%r11
	jmp	2f
1:
	xorl	%edx, %edx
	divl	%r11d
2:
	cmpq	%rax, %r10
	setbe	%al
	movabsq	$288230376151711743, %rdx
	cmpq	%rdx, %r10
	setb	%dl
	andb	%al, %dl
	cmpb	$1, %dl
	jne	9f
	movq	80(%rsp), %rdx
	addq	72(%rsp), %rdx
	movq	%r10, %rax
	shlq	$6, %rax
	cmpq	%rax, %rdx
	jne	9f
	imulq	%r11, %r10
	addq	%r10, %r14
	movq	%r14, %rax
	orq	%r11, %rax
	shrq	$32, %rax
	je	3f
	movq	%r14, %rax
	xorl	%edx, %edx
	divq	40(%rsp)
	movq	%rax, %r11
	jmp	4f
3:
	movl	%r14d, %eax
	xorl	%edx, %edx
	divl	40(%rsp)
	movl	%eax, %r11d
4:
	movabsq	$288230376151711743, %rax
	incq	%rax
	cmpq	%rax, 56(%rsp)
	jae	9f
	testq	%rdx, %rdx
	jne	9f
	movq	%r9, %rax
	orq	40(%rsp), %rax
	shrq	$32, %rax
	je	5f
	movq	%r9, %rax
	xorl	%edx, %edx
	divq	40(%rsp)
	movq	%rax, %r14
	jmp	6f
5:
	movl	%r9d, %eax
	xorl	%edx, %edx
	divl	40(%rsp)
	movl	%eax, %r14d
6:
	leaq	-1(%r9), %rax
	movabsq	$288230376151711743, %r10
	cmpq	%r10, %rax
	jae	9f
	testq	%rdx, %rdx
	jne	9f
	addq	56(%rsp), %r11
	movabsq	$288230376151711743, %rdx
	subq	%r9, %rdx
	movq	%rdx, %rax
	orq	40(%rsp), %rdx
	shrq	$32, %rdx
	je	7f
	xorl	%edx, %edx
	divq	40(%rsp)
	jmp	8f
7:
	xorl	%edx, %edx
	divl	40(%rsp)
8:
	cmpq	%rax, %r11
	jbe	11f
9:
	movl	$-1, %eax
10:
	addq	$88, %rsp
	popq	%rbx
	popq	%r12
	popq	%r13
	popq	%r14
	popq	%r15
	popq	%rbp
	retq
11:
	cmpq	$1, %r14
	adcq	$0, %r14
	shlq	$6, %r14
	cmpq	48(%rsp), %r14
	movl	$-1, %eax
	jne	10b
	movb	%bpl, %r12b
	movb	%r15b, %r13b
	shll	$12, %r12d
	shll	$12, %r13d
	addq	%r12, %rsi
	addq	%r13, %r8
	leaq	736(%rdi), %rdx
	addq	$720, %rdi
	movq	48(%rsp), %rax
	movq	%rax, 32(%rsp)
	movq	%rsi, 24(%rsp)
	movq	%r9, 16(%rsp)
	movq	%r8, 8(%rsp)
	movl	$0, (%rsp)
	movq	64(%rsp), %rsi
	movq	40(%rsp), %r8
	movq	%r11, %r9
	callq	blake2_tree..ranges..hash_leaves_1_v2
	xorl	%eax, %eax
	jmp	10b
	vj_end	vulfsjor_ffi_tree_leaves_ahead_1_v2

	vj_export	vulfsjor_ffi_tree_part_1_v2
	pushq	%rbp
	pushq	%r15
	pushq	%r14
	pushq	%r13
	pushq	%r12
	pushq	%rbx
	movq	24(%rsi), %rbx
	leaq	-1(%rbx), %rcx
	movl	$-1, %eax
	movl	$4294967294, %r8d
	cmpq	%r8, %rcx
	ja	16f
	movq	32(%rsi), %r8
	testq	%r8, %r8
	je	16f
	movq	%rdx, %r11
	movq	%r8, %rax
	orq	%rbx, %rax
	shrq	$32, %rax
	je	1f
	movq	%r8, %rax
	xorl	%edx, %edx
	divq	%rbx
	movq	%rax, %r10
	testq	%rdx, %rdx
	movl	$-1, %eax
	jne	16f
	jmp	2f
1:
	movl	%r8d, %eax
	xorl	%edx, %edx
	divl	%ebx
	movl	%eax, %r10d
	testq	%rdx, %rdx
	movl	$-1, %eax
	jne	16f
2:
	movq	(%rsi), %r14
	movq	8(%rsi), %rcx
	movq	%rcx, %r9
	subq	%r14, %r9
	jb	16f
	movq	%r9, %rdx
	shrq	$58, %rdx
	jne	16f
	movq	64(%rsi), %r12
	cmpq	$1, %r12
	ja	16f
	movq	%r10, %r15
	movq	40(%rsi), %r13
	movq	%r9, %rax
	orq	%r8, %rax
	shrq	$32, %rax
	je	3f
	movq	%r9, %rax
	xorl	%edx, %edx
	divq	%r8
	jmp	4f
3:
	movl	%r9d, %eax
	xorl	%edx, %edx
	divl	%r8d
4:
	cmpq	$1, %rdx
	sbbq	$-1, %rax
	cmpq	%rax, %r12
	cmovaq	%r12, %rax
	cmpq	%rax, %r13
	movl	$-1, %eax
	jne	16f
	testq	%r13, %r13
	je	5f
	movq	%r9, %rax
	orq	%rbx, %rax
	shrq	$32, %rax
	je	6f
	movq	%r9, %rax
	xorl	%edx, %edx
	divq	%rbx
	movq	%rax, %r10
	jmp	7f
5:
	movq	%r11, %rdx
	xorl	%r10d, %r10d
	jmp	8f
6:
	movl	%r9d, %eax
	xorl	%edx, %edx
	divl	%ebx
	movl	%eax, %r10d
7:
	xorl	%eax, %eax
	testq	%rdx, %rdx
	setne	%al
	leaq	(%r10,%rax), %rdx
	cmpq	$1, %rdx
	adcq	%rax, %r10
	shlq	$6, %r10
	movq	%r11, %rdx
	movl	$-1, %eax
8:
	cmpq	%r10, 56(%rsi)
	jne	16f
	movq	48(%rsi), %r10
	cmpq	%r10, %r13
	jb	16f
	testq	%r13, %r13
	setne	%bpl
	testq	%r10, %r10
	sete	%r10b
	testb	%r10b, %bpl
	jne	16f
	cmpq	$1, %r12
	jne	10f
	cmpq	%rdx, %r13
	jbe	16f
	cmpq	$0, 16(%rsi)
	jne	16f
9:
	leaq	1(%rdx), %rax
	xorl	%esi, %esi
	cmpq	%r13, %rax
	cmoveq	%r12, %rsi
	movq	%r8, %rax
	imulq	%rdx, %rax
	addq	%rax, %r14
	subq	%r14, %rcx
	cmpq	%r8, %rcx
	cmovaeq	%r8, %rcx
	movq	%rcx, %rax
	orq	%rbx, %rax
	shrq	$32, %rax
	je	11f
	movq	%rcx, %rax
	xorl	%edx, %edx
	divq	%rbx
	jmp	12f
10:
	cmpq	%rbx, %r14
	jae	16f
	movq	%r9, %rax
	orq	%rbx, %rax
	shrq	$32, %rax
	je	13f
	movq	%r9, %rax
	xorl	%edx, %edx
	divq	%rbx
	jmp	14f
11:
	movl	%ecx, %eax
	xorl	%edx, %edx
	divl	%ebx
12:
	xorl	%r8d, %r8d
	testq	%rdx, %rdx
	setne	%r8b
	leaq	(%rax,%r8), %rdx
	cmpq	$1, %rdx
	adcq	%r8, %rax
	shlq	$6, %rax
	imulq	%r11, %r15
	movq	%r15, (%rdi)
	shlq	$6, %r15
	movq	%r14, 8(%rdi)
	movq	%rcx, 16(%rdi)
	movq	%r15, 24(%rdi)
	movq	%rax, 32(%rdi)
	movq	%rsi, 40(%rdi)
	xorl	%eax, %eax
	jmp	16f
13:
	movl	%r9d, %eax
	xorl	%edx, %edx
	divl	%ebx
14:
	testq	%rdx, %rdx
	movl	$-1, %eax
	jne	16f
	cmpq	%r14, %rcx
	sete	%dl
	movq	16(%rsi), %rax
	testq	%rax, %rax
	setne	%sil
	cmpq	%r11, %r13
	jbe	15f
	orb	%sil, %dl
	je	15f
	cmpq	%rbx, %rax
	ja	15f
	movabsq	$288230376151711744, %rdx
	addq	%rcx, %rax
	cmpq	%rdx, %rax
	movq	%r11, %rdx
	movl	$-1, %eax
	jb	9b
	jmp	16f
15:
	movl	$-1, %eax
16:
	popq	%rbx
	popq	%r12
	popq	%r13
	popq	%r14
	popq	%r15
	popq	%rbp
	retq
	vj_end	vulfsjor_ffi_tree_part_1_v2

	vj_export	vulfsjor_ffi_tree_plan_1_v2
	movl	$-1, %eax
	testl	%ecx, %ecx
	je	4f
	movq	(%r8), %r11
	testq	%r11, %r11
	je	4f
	pushq	%r14
	pushq	%rbx
	subq	$88, %rsp
	movq	8(%r8), %r14
	testq	%r14, %r14
	je	3f
	movq	%rdx, %r9
	shrq	$58, %rdx
	setne	%dl
	movq	%rsi, %r10
	addq	%r9, %r10
	setb	%r10b
	orb	%dl, %r10b
	jne	3f
	xorps	%xmm0, %xmm0
	movaps	%xmm0, 64(%rsp)
	movaps	%xmm0, 48(%rsp)
	movaps	%xmm0, 32(%rsp)
	movaps	%xmm0, 16(%rsp)
	movq	$0, 80(%rsp)
	movq	%r9, %rax
	orq	%r14, %rax
	movq	%rsi, %r10
	movq	%rdi, %rbx
	shrq	$32, %rax
	je	1f
	movq	%r9, %rax
	xorl	%edx, %edx
	divq	%r14
	jmp	2f
1:
	movl	%r9d, %eax
	xorl	%edx, %edx
	divl	%r14d
2:
	cmpq	$1, %rax
	adcq	$0, %rax
	cmpq	%r11, %rax
	cmovaeq	%r11, %rax
	movq	$1, (%rsp)
	leaq	16(%rsp), %rdi
	movq	%r8, %rsi
	movq	%rax, %rdx
	movq	%r10, %r8
	callq	blake2_tree..thread_plan..Plan..of_1_v2
	movq	80(%rsp), %rax
	movq	%rax, 64(%rbx)
	movaps	16(%rsp), %xmm0
	movaps	32(%rsp), %xmm1
	movaps	48(%rsp), %xmm2
	movaps	64(%rsp), %xmm3
	movups	%xmm3, 48(%rbx)
	movups	%xmm2, 32(%rbx)
	movups	%xmm1, 16(%rbx)
	movups	%xmm0, (%rbx)
	xorl	%eax, %eax
3:
	addq	$88, %rsp
	popq	%rbx
	popq	%r14
4:
	retq
	vj_end	vulfsjor_ffi_tree_plan_1_v2

	vj_export	vulfsjor_ffi_tree_plan_update_1_v2
	pushq	%r15
	pushq	%r14
	pushq	%r13
	pushq	%r12
	pushq	%rbx
	subq	$96, %rsp
	movq	(%rcx), %r14
	movl	$-1, %eax
	testq	%r14, %r14
	je	4f
	movq	8(%rcx), %r9
	testq	%r9, %r9
	je	4f
	movl	144(%rsi), %r8d
	leal	-1(%r8), %r10d
	cmpl	$63, %r10d
	ja	4f
	movl	136(%rsi), %r10d
	cmpq	$128, %r10
	ja	4f
	cmpl	$128, 140(%rsi)
	ja	4f
	movq	128(%rsi), %r11
	movl	%r10d, %ebx
	notl	%ebx
	movslq	%ebx, %rbx
	cmpq	%rbx, %r11
	ja	4f
	movl	488(%rsi), %ebx
	decl	%ebx
	cmpl	$63, %ebx
	ja	4f
	movl	480(%rsi), %r15d
	cmpq	$128, %r15
	ja	4f
	cmpl	$128, 484(%rsi)
	ja	4f
	cmpl	$64, %r8d
	jne	4f
	movq	472(%rsi), %r12
	movl	%r15d, %r8d
	notl	%r8d
	movslq	%r8d, %r8
	cmpq	%r8, %r12
	ja	4f
	movq	696(%rsi), %r8
	leaq	-1(%r8), %rbx
	movl	$4294967294, %r13d
	cmpq	%r13, %rbx
	ja	4f
	cmpq	$16, 704(%rsi)
	ja	4f
	cmpq	$16, 712(%rsi)
	ja	4f
	addq	%r10, %r11
	cmpq	%r8, %r11
	ja	4f
	movq	%rdx, %r10
	movq	%rdi, %rbx
	movabsq	$288230376151711743, %rdi
	movq	688(%rsi), %rsi
	movq	%rdi, %rax
	subq	%r11, %rax
	movq	%rax, %rdx
	orq	%r8, %rdx
	shrq	$32, %rdx
	je	1f
	xorl	%edx, %edx
	divq	%r8
	jmp	2f
1:
	xorl	%edx, %edx
	divl	%r8d
2:
	cmpq	%rax, %rsi
	setbe	%al
	cmpq	%rdi, %rsi
	setb	%dl
	andb	%al, %dl
	cmpb	$1, %dl
	jne	3f
	addq	%r15, %r12
	movq	%rsi, %rax
	shlq	$6, %rax
	cmpq	%rax, %r12
	jne	3f
	imulq	%r8, %rsi
	addq	%rsi, %r11
	subq	%r11, %rdi
	cmpq	%r10, %rdi
	movl	$-1, %eax
	jb	4f
	xorps	%xmm0, %xmm0
	movaps	%xmm0, 64(%rsp)
	movaps	%xmm0, 48(%rsp)
	movaps	%xmm0, 32(%rsp)
	movaps	%xmm0, 16(%rsp)
	movq	$0, 80(%rsp)
	movq	%r10, %rax
	orq	%r9, %rax
	shrq	$32, %rax
	je	5f
	movq	%r10, %rax
	xorl	%edx, %edx
	divq	%r9
	movq	%rax, %r9
	jmp	6f
3:
	movl	$-1, %eax
4:
	addq	$96, %rsp
	popq	%rbx
	popq	%r12
	popq	%r13
	popq	%r14
	popq	%r15
	retq
5:
	movl	%r10d, %eax
	xorl	%edx, %edx
	divl	%r9d
	movl	%eax, %r9d
6:
	cmpq	$1, %r9
	adcq	$0, %r9
	cmpq	%r14, %r9
	cmovaeq	%r14, %r9
	movq	%r11, %rax
	orq	%r8, %rax
	shrq	$32, %rax
	je	7f
	movq	%r11, %rax
	xorl	%edx, %edx
	divq	%r8
	jmp	8f
7:
	movl	%r11d, %eax
	xorl	%edx, %edx
	divl	%r8d
8:
	movq	%r8, %rax
	subq	%rdx, %rax
	movq	%rax, %rdx
	orq	%r8, %rdx
	shrq	$32, %rdx
	je	9f
	xorl	%edx, %edx
	divq	%r8
	movq	%rdx, %r11
	jmp	10f
9:
	xorl	%edx, %edx
	divl	%r8d
	movl	%edx, %r11d
10:
	cmpq	%r11, %r10
	cmovbq	%r10, %r11
	subq	%r11, %r10
	cmpq	$1, %r10
	movq	%r10, %rsi
	adcq	$-1, %r10
	movq	%r10, %rax
	orq	%r8, %rax
	shrq	$32, %rax
	je	11f
	movq	%r10, %rax
	xorl	%edx, %edx
	divq	%r8
	jmp	12f
11:
	movl	%r10d, %eax
	xorl	%edx, %edx
	divl	%r8d
12:
	subq	%rdx, %r10
	movq	%rsi, %r14
	subq	%r10, %r14
	movq	$0, (%rsp)
	leaq	16(%rsp), %rdi
	movq	%rcx, %rsi
	movq	%r9, %rdx
	movl	%r8d, %ecx
	movq	%r11, %r8
	movq	%r10, %r9
	callq	blake2_tree..thread_plan..Plan..of_1_v2
	movaps	16(%rsp), %xmm0
	movups	40(%rsp), %xmm1
	movups	56(%rsp), %xmm2
	movups	72(%rsp), %xmm3
	movups	%xmm0, (%rbx)
	movq	%r14, 16(%rbx)
	movups	%xmm1, 24(%rbx)
	movups	%xmm2, 40(%rbx)
	movups	%xmm3, 56(%rbx)
	xorl	%eax, %eax
	jmp	4b
	vj_end	vulfsjor_ffi_tree_plan_update_1_v2

	vj_constants	16
	.p2align	4, 0x0
.L1_v2_CPI195_0:
	.quad	7640891576956012808
	.quad	-4942790177534073029
.L1_v2_CPI195_1:
	.quad	4354685564936828970
	.quad	-6534734903238641935
.L1_v2_CPI195_2:
	.quad	2270897969802886507
	.quad	6620516959819538809
.L1_v2_CPI195_3:
	.quad	5840696475078001361
	.quad	-7276294671716946913
	vj_export	vulfsjor_ffi_tree_root_of_leaves_1_v2
	pushq	%rbp
	movq	%rsp, %rbp
	pushq	%r15
	pushq	%r14
	pushq	%r13
	pushq	%r12
	pushq	%rbx
	andq	$-32, %rsp
	subq	$512, %rsp
	movq	16(%rbp), %r15
	xorl	%r12d, %r12d
	testq	%rdi, %rdi
	sete	48(%rsp)
	xorl	%r13d, %r13d
	testq	%rdx, %rdx
	sete	32(%rsp)
	xorl	%r11d, %r11d
	testq	%r8, %r8
	sete	40(%rsp)
	xorl	%r10d, %r10d
	testq	%r15, %r15
	sete	%bl
	leaq	-1(%rsi), %rax
	cmpq	$64, %rax
	setae	%al
	cmpq	$17, %r9
	setae	%r14b
	orb	%al, %r14b
	cmpq	$17, 24(%rbp)
	setae	%al
	orb	%r14b, %al
	cmpl	$0, 32(%rbp)
	sete	%r14b
	orb	%al, %r14b
	movl	$-1, %eax
	jne	1f
	movb	%bl, 31(%rsp)
	testq	%rcx, %rcx
	sete	%r14b
	testb	$63, %cl
	setne	%bl
	orb	%r14b, %bl
	jne	1f
	movzbl	48(%rsp), %eax
	movb	%al, %r12b
	shll	$12, %r12d
	addq	%r12, %rdi
	movzbl	32(%rsp), %eax
	movb	%al, %r13b
	shll	$12, %r13d
	addq	%r13, %rdx
	movq	%rdx, 32(%rsp)
	movzbl	40(%rsp), %eax
	movb	%al, %r11b
	shll	$12, %r11d
	addq	%r11, %r8
	movzbl	31(%rsp), %eax
	movb	%al, %r10b
	shll	$12, %r10d
	addq	%r10, %r15
	xorps	%xmm0, %xmm0
	movaps	%xmm0, 112(%rsp)
	leaq	112(%rsp), %rax
	movq	%rdi, %r12
	movq	%rax, %rdi
	movq	%rsi, %r13
	movq	%r8, %rsi
	movq	%r9, %rdx
	movq	%rcx, 40(%rsp)
	movq	%r9, %r14
	vj_c_call	memcpy
	xorps	%xmm0, %xmm0
	movaps	%xmm0, 128(%rsp)
	leaq	128(%rsp), %rdi
	movq	%r15, %rsi
	movq	24(%rbp), %rbx
	movq	%rbx, %rdx
	vj_c_call	memcpy
	movaps	112(%rsp), %xmm0
	movaps	%xmm0, 144(%rsp)
	movq	%r14, 160(%rsp)
	leaq	168(%rsp), %r15
	movaps	128(%rsp), %xmm0
	movups	%xmm0, 168(%rsp)
	movq	%rbx, 184(%rsp)
	movl	32(%rbp), %ecx
	movl	%ecx, 192(%rsp)
	movl	$0, 196(%rsp)
	xorps	%xmm0, %xmm0
	movaps	%xmm0, 80(%rsp)
	movaps	%xmm0, 64(%rsp)
	movl	%r13d, %eax
	orl	$33554432, %eax
	movd	%eax, %xmm0
	pinsrd	$1, %ecx, %xmm0
	movq	%xmm0, %xmm0
	movdqa	%xmm0, 48(%rsp)
	leaq	64(%rsp), %rdi
	leaq	144(%rsp), %rsi
	movq	%r14, %rdx
	vj_c_call	memcpy
	leaq	80(%rsp), %rdi
	movq	%r15, %rsi
	movq	%rbx, %rdx
	vj_c_call	memcpy
	movaps	64(%rsp), %xmm0
	movaps	80(%rsp), %xmm1
	movaps	48(%rsp), %xmm3
	xorps	.L1_v2_CPI195_0(%rip), %xmm3
	xorps	.L1_v2_CPI195_2(%rip), %xmm1
	xorps	.L1_v2_CPI195_3(%rip), %xmm0
	movaps	.L1_v2_CPI195_1(%rip), %xmm2
	movaps	%xmm3, 144(%rsp)
	movaps	%xmm2, 160(%rsp)
	movaps	%xmm0, 176(%rsp)
	movaps	%xmm1, 192(%rsp)
	movaps	%xmm3, 208(%rsp)
	movaps	%xmm2, 224(%rsp)
	movaps	%xmm0, 240(%rsp)
	movaps	%xmm1, 256(%rsp)
	xorps	%xmm0, %xmm0
	movaps	%xmm0, 272(%rsp)
	movl	%r13d, 288(%rsp)
	movl	$1, 292(%rsp)
	movups	%xmm0, 296(%rsp)
	movups	%xmm0, 312(%rsp)
	movups	%xmm0, 328(%rsp)
	movups	%xmm0, 344(%rsp)
	movups	%xmm0, 360(%rsp)
	movups	%xmm0, 376(%rsp)
	movups	%xmm0, 392(%rsp)
	movups	%xmm0, 408(%rsp)
	movups	%xmm0, 424(%rsp)
	movups	%xmm0, 440(%rsp)
	movups	%xmm0, 456(%rsp)
	movups	%xmm0, 472(%rsp)
	leaq	144(%rsp), %rbx
	movq	%rbx, %rdi
	movq	32(%rsp), %rsi
	movq	40(%rsp), %rdx
	callq	blake2_state..blake2b..State..absorb_blocks_1_v2
	movq	%rbx, %rdi
	movq	%r12, %rsi
	callq	blake2_state..blake2b..State..write_digest_1_v2
	xorl	%eax, %eax
1:
	leaq	-40(%rbp), %rsp
	popq	%rbx
	popq	%r12
	popq	%r13
	popq	%r14
	popq	%r15
	popq	%rbp
	retq
	vj_end	vulfsjor_ffi_tree_root_of_leaves_1_v2

	vj_export	vulfsjor_ffi_tree_state_size_1_v2
	movl	$752, %eax
	retq
	vj_end	vulfsjor_ffi_tree_state_size_1_v2

	vj_export	vulfsjor_ffi_tree_update_1_v2
	xorl	%r8d, %r8d
	testq	%rsi, %rsi
	sete	%r9b
	movl	144(%rdi), %ecx
	leal	-1(%rcx), %r10d
	movl	$-1, %eax
	cmpl	$63, %r10d
	ja	5f
	movl	136(%rdi), %r10d
	cmpq	$128, %r10
	ja	5f
	cmpl	$128, 140(%rdi)
	ja	5f
	pushq	%rbp
	pushq	%r15
	pushq	%r14
	pushq	%r13
	pushq	%r12
	pushq	%rbx
	pushq	%rax
	movq	128(%rdi), %r11
	movl	%r10d, %ebx
	notl	%ebx
	movslq	%ebx, %rbx
	cmpq	%rbx, %r11
	ja	4f
	movl	488(%rdi), %ebx
	decl	%ebx
	cmpl	$63, %ebx
	ja	4f
	movl	480(%rdi), %ebx
	cmpq	$128, %rbx
	ja	4f
	cmpl	$128, 484(%rdi)
	ja	4f
	cmpl	$64, %ecx
	jne	4f
	movq	472(%rdi), %r14
	movl	%ebx, %ecx
	notl	%ecx
	movslq	%ecx, %rcx
	cmpq	%rcx, %r14
	ja	4f
	movq	696(%rdi), %r15
	leaq	-1(%r15), %rcx
	movl	$4294967294, %r12d
	cmpq	%r12, %rcx
	ja	4f
	cmpq	$16, 704(%rdi)
	ja	4f
	cmpq	$16, 712(%rdi)
	ja	4f
	leaq	(%r11,%r10), %rbp
	cmpq	%r15, %rbp
	ja	4f
	movq	%rdx, %rcx
	movabsq	$288230376151711743, %r13
	movq	688(%rdi), %r12
	movq	%r13, %rax
	subq	%rbp, %rax
	movq	%rax, %rdx
	orq	%r15, %rdx
	shrq	$32, %rdx
	je	1f
	xorl	%edx, %edx
	divq	%r15
	jmp	2f
1:
	xorl	%edx, %edx
	divl	%r15d
2:
	cmpq	%rax, %r12
	setbe	%al
	cmpq	%r13, %r12
	setb	%dl
	andb	%al, %dl
	cmpb	$1, %dl
	jne	3f
	addq	%rbx, %r14
	movq	%r12, %rax
	shlq	$6, %rax
	cmpq	%rax, %r14
	jne	3f
	imulq	%r15, %r12
	xorq	%r13, %r10
	addq	%r12, %r11
	subq	%r11, %r10
	cmpq	%rcx, %r10
	movl	$-1, %eax
	jb	4f
	movb	%r9b, %r8b
	shll	$12, %r8d
	addq	%r8, %rsi
	movq	%rcx, %rdx
	callq	blake2_state..tree..TreeState..update_1_v2
	xorl	%eax, %eax
	jmp	4f
3:
	movl	$-1, %eax
4:
	addq	$8, %rsp
	popq	%rbx
	popq	%r12
	popq	%r13
	popq	%r14
	popq	%r15
	popq	%rbp
5:
	retq
	vj_end	vulfsjor_ffi_tree_update_1_v2

	vj_constants	16
	.p2align	4, 0x0
.L1_v2_CPI198_0:
	.short	64
	.short	512
	.zero	2
	.zero	2
	.zero	2
	.zero	2
	.zero	2
	.zero	2
.L1_v2_CPI198_1:
	.quad	7640891576956012808
	.quad	-4942790177534073029
.L1_v2_CPI198_2:
	.quad	4354685564936828971
	.quad	-6534734903238641935
.L1_v2_CPI198_3:
	.quad	2270897969802886507
	.quad	6620516959819538809
.L1_v2_CPI198_4:
	.quad	5840696475078001361
	.quad	-7276294671716946913
.L1_v2_CPI198_5:
	.short	64
	.short	512
	.short	0
	.short	0
	.short	0
	.short	0
	.short	0
	.short	0
	vj_export	vulfsjor_ffi_tree_update_leaves_1_v2
	pushq	%rbp
	movq	%rsp, %rbp
	pushq	%r15
	pushq	%r14
	pushq	%r13
	pushq	%r12
	pushq	%rbx
	andq	$-32, %rsp
	subq	$352, %rsp
	movq	%rdi, %r14
	xorl	%r10d, %r10d
	testq	%rsi, %rsi
	sete	%r11b
	xorl	%r12d, %r12d
	testq	%rcx, %rcx
	sete	%r13b
	movl	144(%rdi), %ebx
	leal	-1(%rbx), %edi
	movl	$-1, %eax
	cmpl	$63, %edi
	ja	8f
	movl	136(%r14), %r15d
	cmpq	$128, %r15
	ja	8f
	cmpl	$128, 140(%r14)
	ja	8f
	movq	128(%r14), %rdi
	movl	%r15d, %r9d
	notl	%r9d
	movslq	%r9d, %r9
	cmpq	%r9, %rdi
	ja	8f
	movl	488(%r14), %r9d
	decl	%r9d
	cmpl	$63, %r9d
	ja	8f
	movl	480(%r14), %r9d
	cmpq	$128, %r9
	ja	8f
	cmpl	$128, 484(%r14)
	ja	8f
	cmpl	$64, %ebx
	jne	8f
	movq	472(%r14), %rbx
	movq	%rbx, 64(%rsp)
	movl	%r9d, %ebx
	notl	%ebx
	movslq	%ebx, %rbx
	cmpq	%rbx, 64(%rsp)
	ja	8f
	movq	696(%r14), %rbx
	movq	%rbx, 16(%rsp)
	movq	16(%rsp), %rbx
	decq	%rbx
	movq	%rbx, 48(%rsp)
	movl	$4294967294, %ebx
	cmpq	%rbx, 48(%rsp)
	ja	8f
	movq	704(%r14), %rbx
	cmpq	$16, %rbx
	ja	8f
	movq	%rbx, 48(%rsp)
	movq	712(%r14), %rbx
	cmpq	$16, %rbx
	ja	8f
	movq	%rbx, 88(%rsp)
	leaq	(%rdi,%r15), %rbx
	cmpq	16(%rsp), %rbx
	movq	16(%rsp), %rbx
	ja	8f
	movq	%rdx, 32(%rsp)
	movabsq	$288230376151711743, %rax
	movq	688(%r14), %rdx
	movq	%rdx, 40(%rsp)
	subq	%rdi, %rax
	subq	%r15, %rax
	movq	%rax, %rdx
	orq	%rbx, %rdx
	shrq	$32, %rdx
	je	1f
	xorl	%edx, %edx
	divq	%rbx
	jmp	2f
1:
	xorl	%edx, %edx
	divl	%ebx
2:
	movq	40(%rsp), %rbx
	cmpq	%rax, %rbx
	setbe	%al
	movabsq	$288230376151711743, %rdx
	cmpq	%rdx, %rbx
	setb	%dl
	andb	%al, %dl
	cmpb	$1, %dl
	jne	7f
	movq	%rsi, 120(%rsp)
	movq	%rcx, 80(%rsp)
	movq	%r8, 56(%rsp)
	movq	64(%rsp), %rcx
	addq	%r9, %rcx
	movq	%rbx, %rax
	shlq	$6, %rax
	cmpq	%rax, %rcx
	jne	7f
	cmpq	$0, 32(%rsp)
	je	3f
	cmpq	$0, 56(%rsp)
	je	7f
	movq	40(%rsp), %rax
	movq	16(%rsp), %rcx
	imulq	%rcx, %rax
	leaq	(%rdi,%r15), %rdx
	addq	%rax, %rdx
	movq	%rdx, %rax
	orq	%rcx, %rdx
	shrq	$32, %rdx
	je	4f
	xorl	%edx, %edx
	divq	16(%rsp)
	jmp	5f
3:
	movb	$1, %al
	jmp	6f
4:
	xorl	%edx, %edx
	divl	16(%rsp)
5:
	testq	%rdx, %rdx
	sete	%al
6:
	testb	$63, 32(%rsp)
	jne	7f
	testb	%al, %al
	je	7f
	movq	40(%rsp), %rcx
	imulq	16(%rsp), %rcx
	movabsq	$288230376151711743, %rax
	xorq	%r15, %rax
	addq	%rdi, %rcx
	subq	%rcx, %rax
	subq	56(%rsp), %rax
	jae	9f
7:
	movl	$-1, %eax
8:
	leaq	-40(%rbp), %rsp
	popq	%rbx
	popq	%r12
	popq	%r13
	popq	%r14
	popq	%r15
	popq	%rbp
	retq
9:
	movq	32(%rsp), %rcx
	shrq	$6, %rcx
	movq	%rcx, 64(%rsp)
	movq	%rax, %rcx
	orq	16(%rsp), %rcx
	shrq	$32, %rcx
	je	10f
	xorl	%edx, %edx
	divq	16(%rsp)
	jmp	11f
10:
	xorl	%edx, %edx
	divl	16(%rsp)
11:
	cmpq	%rax, 64(%rsp)
	movl	$-1, %eax
	ja	8b
	movb	%r13b, %r12b
	shll	$12, %r12d
	addq	%r12, 80(%rsp)
	cmpq	$0, 32(%rsp)
	je	13f
	movb	%r11b, %r10b
	shll	$12, %r10d
	addq	%r10, 120(%rsp)
	leaq	128(%r14), %rax
	movq	%rax, 40(%rsp)
	negq	%r15
	cmpq	%r15, %rdi
	je	12f
	leaq	720(%r14), %rsi
	leaq	736(%r14), %rbx
	xorps	%xmm0, %xmm0
	movaps	%xmm0, 304(%rsp)
	leaq	304(%rsp), %rdi
	movq	48(%rsp), %r15
	movq	%r15, %rdx
	vj_c_call	memcpy
	xorps	%xmm0, %xmm0
	movaps	%xmm0, 96(%rsp)
	leaq	96(%rsp), %rdi
	movq	%rbx, %rsi
	movq	88(%rsp), %r13
	movq	%r13, %rdx
	vj_c_call	memcpy
	movaps	304(%rsp), %xmm0
	movaps	%xmm0, 160(%rsp)
	movq	%r15, 176(%rsp)
	movaps	96(%rsp), %xmm0
	movups	%xmm0, 184(%rsp)
	movq	%r13, 200(%rsp)
	movq	16(%rsp), %rbx
	movl	%ebx, 208(%rsp)
	movl	$0, 212(%rsp)
	movl	$0, 148(%r14)
	xorps	%xmm0, %xmm0
	movaps	%xmm0, 288(%rsp)
	movaps	%xmm0, 272(%rsp)
	movaps	%xmm0, 256(%rsp)
	movaps	%xmm0, 240(%rsp)
	leaq	240(%rsp), %rsi
	movq	%r14, %rdi
	callq	blake2_state..blake2b..State..write_digest_1_v2
	movl	$64, %edx
	leaq	344(%r14), %rdi
	leaq	240(%rsp), %rsi
	callq	blake2_state..blake2b..State..absorb_blocks_1_v2
	movq	688(%r14), %rax
	incq	%rax
	movq	%rax, 688(%r14)
	xorps	%xmm0, %xmm0
	movaps	%xmm0, 144(%rsp)
	movaps	%xmm0, 128(%rsp)
	movd	%ebx, %xmm0
	movd	.L1_v2_CPI198_5(%rip), %xmm1
	punpckldq	%xmm0, %xmm1
	movq	%rax, %xmm0
	punpcklqdq	%xmm0, %xmm1
	movdqa	%xmm1, 16(%rsp)
	leaq	128(%rsp), %rdi
	leaq	160(%rsp), %rsi
	movq	%r15, %rdx
	vj_c_call	memcpy
	leaq	144(%rsp), %rdi
	leaq	184(%rsp), %rsi
	movq	%r13, %rdx
	vj_c_call	memcpy
	movaps	128(%rsp), %xmm0
	movaps	16(%rsp), %xmm3
	xorps	.L1_v2_CPI198_1(%rip), %xmm3
	movaps	144(%rsp), %xmm1
	movaps	.L1_v2_CPI198_2(%rip), %xmm2
	xorps	.L1_v2_CPI198_3(%rip), %xmm1
	xorps	.L1_v2_CPI198_4(%rip), %xmm0
	movups	%xmm3, (%r14)
	movups	%xmm2, 16(%r14)
	movups	%xmm0, 32(%r14)
	movups	%xmm1, 48(%r14)
	movups	%xmm3, 64(%r14)
	movups	%xmm2, 80(%r14)
	movups	%xmm0, 96(%r14)
	movups	%xmm1, 112(%r14)
	leaq	128(%r14), %rax
	xorps	%xmm0, %xmm0
	movups	%xmm0, (%rax)
	movl	$64, 144(%r14)
	movups	%xmm0, 148(%r14)
	movups	%xmm0, 164(%r14)
	movups	%xmm0, 180(%r14)
	movups	%xmm0, 196(%r14)
	movups	%xmm0, 212(%r14)
	movups	%xmm0, 228(%r14)
	movups	%xmm0, 244(%r14)
	movups	%xmm0, 260(%r14)
	movups	%xmm0, 276(%r14)
	movups	%xmm0, 292(%r14)
	movups	%xmm0, 308(%r14)
	movups	%xmm0, 324(%r14)
	movl	$0, 340(%r14)
	movq	696(%r14), %rax
	movq	%rax, 16(%rsp)
	movq	704(%r14), %rax
	movq	%rax, 48(%rsp)
	movq	712(%r14), %rax
	movq	%rax, 88(%rsp)
12:
	leaq	720(%r14), %rsi
	leaq	736(%r14), %rbx
	xorps	%xmm0, %xmm0
	movaps	%xmm0, 96(%rsp)
	leaq	96(%rsp), %rdi
	movq	48(%rsp), %r15
	movq	%r15, %rdx
	vj_c_call	memcpy
	xorps	%xmm0, %xmm0
	movaps	%xmm0, 128(%rsp)
	leaq	128(%rsp), %rdi
	movq	%rbx, %rsi
	movq	88(%rsp), %r13
	movq	%r13, %rdx
	vj_c_call	memcpy
	movaps	96(%rsp), %xmm0
	movaps	%xmm0, 240(%rsp)
	movq	%r15, 256(%rsp)
	leaq	264(%rsp), %r12
	movaps	128(%rsp), %xmm0
	movups	%xmm0, 264(%rsp)
	movq	%r13, 280(%rsp)
	movq	16(%rsp), %rbx
	movl	%ebx, 288(%rsp)
	movl	$0, 292(%rsp)
	leaq	344(%r14), %rdi
	movq	120(%rsp), %rsi
	movq	32(%rsp), %rdx
	callq	blake2_state..blake2b..State..absorb_blocks_1_v2
	movq	64(%rsp), %rax
	addq	688(%r14), %rax
	movq	%rax, 688(%r14)
	xorps	%xmm0, %xmm0
	movaps	%xmm0, 176(%rsp)
	movaps	%xmm0, 160(%rsp)
	movd	%ebx, %xmm0
	movd	.L1_v2_CPI198_5(%rip), %xmm1
	punpckldq	%xmm0, %xmm1
	movq	%rax, %xmm0
	punpcklqdq	%xmm0, %xmm1
	movdqa	%xmm1, 64(%rsp)
	leaq	160(%rsp), %rdi
	leaq	240(%rsp), %rsi
	movq	%r15, %rdx
	vj_c_call	memcpy
	leaq	176(%rsp), %rdi
	movq	%r12, %rsi
	movq	%r13, %rdx
	vj_c_call	memcpy
	movaps	160(%rsp), %xmm0
	movaps	176(%rsp), %xmm1
	movaps	64(%rsp), %xmm3
	xorps	.L1_v2_CPI198_1(%rip), %xmm3
	xorps	.L1_v2_CPI198_3(%rip), %xmm1
	xorps	.L1_v2_CPI198_4(%rip), %xmm0
	movaps	.L1_v2_CPI198_2(%rip), %xmm2
	movups	%xmm3, (%r14)
	movups	%xmm2, 16(%r14)
	movups	%xmm0, 32(%r14)
	movups	%xmm1, 48(%r14)
	movups	%xmm3, 64(%r14)
	movups	%xmm2, 80(%r14)
	movups	%xmm0, 96(%r14)
	movups	%xmm1, 112(%r14)
	movq	40(%rsp), %rax
	xorps	%xmm0, %xmm0
	movups	%xmm0, (%rax)
	movl	$64, 144(%r14)
	movups	%xmm0, 148(%r14)
	movups	%xmm0, 164(%r14)
	movups	%xmm0, 180(%r14)
	movups	%xmm0, 196(%r14)
	movups	%xmm0, 212(%r14)
	movups	%xmm0, 228(%r14)
	movups	%xmm0, 244(%r14)
	movups	%xmm0, 260(%r14)
	movups	%xmm0, 276(%r14)
	movups	%xmm0, 292(%r14)
	movups	%xmm0, 308(%r14)
	movups	%xmm0, 324(%r14)
	movl	$0, 340(%r14)
13:
	movq	%r14, %rdi
	movq	80(%rsp), %rsi
	movq	56(%rsp), %rdx
	callq	blake2_state..tree..TreeState..update_1_v2
	xorl	%eax, %eax
	jmp	8b
	vj_end	vulfsjor_ffi_tree_update_leaves_1_v2

	vj_export	vulfsjor_ffi_tree_wipe_1_v2
	movl	$752, %edx
	xorl	%esi, %esi
	vj_c_jump	memset
	vj_end	vulfsjor_ffi_tree_wipe_1_v2

	vj_export	vulfsjor_ffi_wipe_1_v2
	xorl	%eax, %eax
	testq	%rdi, %rdi
	sete	%cl
	testq	%rsi, %rsi
	je	2f
	pushq	%r14
	pushq	%rbx
	pushq	%rax
	movq	%rsi, %rbx
	movq	%rdi, %r14
	movb	%cl, %al
	shll	$12, %eax
	addq	%rax, %r14
	decq	%rbx
	je	1f
	movq	%r14, %rdi
	xorl	%esi, %esi
	movq	%rbx, %rdx
	vj_c_call	memset
1:
	movb	$0, (%r14,%rbx)
	addq	$8, %rsp
	popq	%rbx
	popq	%r14
2:
	retq
	vj_end	vulfsjor_ffi_wipe_1_v2

	vj_export	vulfsjor_ffi_blake2bp_1_v2
	pushq	%rbx
	movq	%r9, %rbx
	xorl	%eax, %eax
	testq	%rdi, %rdi
	sete	%al
	shll	$12, %eax
	addq	%rax, %rdi
	xorl	%eax, %eax
	testq	%rdx, %rdx
	sete	%al
	shll	$12, %eax
	addq	%rax, %rdx
	xorl	%eax, %eax
	testq	%r8, %r8
	sete	%al
	shll	$12, %eax
	addq	%rax, %r8
	callq	blake2_ffi..blake2bp..write_1_v2
	testq	%rbx, %rbx
	je	1f
	movl	%eax, %ebx
	callq	blake2_digest..wiping..scrub_stack..8704_1_v2
	movl	%ebx, %eax
1:
	popq	%rbx
	retq
	vj_end	vulfsjor_ffi_blake2bp_1_v2

	vj_export	vulfsjor_ffi_blake2sp_1_v2
	pushq	%rbx
	movq	%r9, %rbx
	xorl	%eax, %eax
	testq	%rdi, %rdi
	sete	%al
	shll	$12, %eax
	addq	%rax, %rdi
	xorl	%eax, %eax
	testq	%rdx, %rdx
	sete	%al
	shll	$12, %eax
	addq	%rax, %rdx
	xorl	%eax, %eax
	testq	%r8, %r8
	sete	%al
	shll	$12, %eax
	addq	%rax, %r8
	callq	blake2_ffi..blake2sp..write_1_v2
	testq	%rbx, %rbx
	je	1f
	movl	%eax, %ebx
	callq	blake2_digest..wiping..scrub_stack..8704_1_v2
	movl	%ebx, %eax
1:
	popq	%rbx
	retq
	vj_end	vulfsjor_ffi_blake2sp_1_v2

	vj_export	vulfsjor_ffi_blake2xb_1_v2
	pushq	%rbx
	movq	%r9, %rbx
	xorl	%eax, %eax
	testq	%rdi, %rdi
	sete	%al
	shll	$12, %eax
	addq	%rax, %rdi
	xorl	%eax, %eax
	testq	%rdx, %rdx
	sete	%al
	shll	$12, %eax
	addq	%rax, %rdx
	xorl	%eax, %eax
	testq	%r8, %r8
	sete	%al
	shll	$12, %eax
	addq	%rax, %r8
	callq	blake2_ffi..blake2xb..write_1_v2
	testq	%rbx, %rbx
	je	1f
	movl	%eax, %ebx
	callq	blake2_digest..wiping..scrub_stack..7168_1_v2
	movl	%ebx, %eax
1:
	popq	%rbx
	retq
	vj_end	vulfsjor_ffi_blake2xb_1_v2

	vj_export	vulfsjor_ffi_blake2xb_derive_key_1_v2
	movq	%rcx, %rax
	testq	%rcx, %rcx
	je	1f
	pushq	%rbx
	movq	%rdx, %rcx
	xorl	%edx, %edx
	testq	%r8, %r8
	sete	%dl
	shll	$12, %edx
	addq	%r8, %rdx
	xorl	%r8d, %r8d
	testq	%rcx, %rcx
	sete	%r8b
	shll	$12, %r8d
	addq	%rcx, %r8
	xorl	%ecx, %ecx
	testq	%rdi, %rdi
	sete	%cl
	shll	$12, %ecx
	addq	%rdi, %rcx
	movq	%rcx, %rdi
	movq	%r9, %rcx
	movq	%rax, %r9
	callq	blake2_ffi..blake2xb..write_1_v2
	movl	%eax, %ebx
	callq	blake2_digest..wiping..scrub_stack..7168_1_v2
	movl	%ebx, %eax
	popq	%rbx
	retq
1:
	movl	$-1, %eax
	retq
	vj_end	vulfsjor_ffi_blake2xb_derive_key_1_v2

	vj_export	vulfsjor_ffi_blake2xs_1_v2
	pushq	%rbx
	movq	%r9, %rbx
	xorl	%eax, %eax
	testq	%rdi, %rdi
	sete	%al
	shll	$12, %eax
	addq	%rax, %rdi
	xorl	%eax, %eax
	testq	%rdx, %rdx
	sete	%al
	shll	$12, %eax
	addq	%rax, %rdx
	xorl	%eax, %eax
	testq	%r8, %r8
	sete	%al
	shll	$12, %eax
	addq	%rax, %r8
	callq	blake2_ffi..blake2xs..write_1_v2
	testq	%rbx, %rbx
	je	1f
	movl	%eax, %ebx
	callq	blake2_digest..wiping..scrub_stack..7168_1_v2
	movl	%ebx, %eax
1:
	popq	%rbx
	retq
	vj_end	vulfsjor_ffi_blake2xs_1_v2

	vj_export	vulfsjor_ffi_blake2xs_derive_key_1_v2
	movq	%rcx, %rax
	testq	%rcx, %rcx
	je	1f
	pushq	%rbx
	movq	%rdx, %rcx
	xorl	%edx, %edx
	testq	%r8, %r8
	sete	%dl
	shll	$12, %edx
	addq	%r8, %rdx
	xorl	%r8d, %r8d
	testq	%rcx, %rcx
	sete	%r8b
	shll	$12, %r8d
	addq	%rcx, %r8
	xorl	%ecx, %ecx
	testq	%rdi, %rdi
	sete	%cl
	shll	$12, %ecx
	addq	%rdi, %rcx
	movq	%rcx, %rdi
	movq	%r9, %rcx
	movq	%rax, %r9
	callq	blake2_ffi..blake2xs..write_1_v2
	movl	%eax, %ebx
	callq	blake2_digest..wiping..scrub_stack..7168_1_v2
	movl	%ebx, %eax
	popq	%rbx
	retq
1:
	movl	$-1, %eax
	retq
	vj_end	vulfsjor_ffi_blake2xs_derive_key_1_v2

	vj_constants	16
	.p2align	4, 0x0
.L1_v2_CPI207_0:
	.quad	4354685564936845355
	.quad	-6534734903238641935
.L1_v2_CPI207_1:
	.quad	7640891576939301192
	.quad	-4942790177534073029
.L1_v2_CPI207_2:
	.quad	2270897969802886507
	.quad	6620516959819538809
.L1_v2_CPI207_3:
	.quad	5840696475078001361
	.quad	-7276294671716946913
	vj_export	vulfsjor_ffi_blake2b_1_v2
	pushq	%rbp
	pushq	%r15
	pushq	%r14
	pushq	%r13
	pushq	%r12
	pushq	%rbx
	subq	$232, %rsp
	movq	%rdi, %rax
	xorl	%edi, %edi
	testq	%rax, %rax
	sete	%dil
	shll	$12, %edi
	addq	%rax, %rdi
	xorl	%ebx, %ebx
	testq	%rdx, %rdx
	sete	%bl
	shll	$12, %ebx
	addq	%rdx, %rbx
	xorps	%xmm0, %xmm0
	movups	%xmm0, 80(%rsp)
	testq	%r9, %r9
	je	1f
	xorl	%eax, %eax
	testq	%r8, %r8
	sete	%al
	shll	$12, %eax
	addq	%r8, %rax
	movq	%rbx, %rdx
	movq	%rax, %r8
	callq	blake2_ffi..blake2b..write_keyed_1_v2
	movl	%eax, %ebx
	callq	blake2_digest..wiping..scrub_stack..1536_1_v2
	movl	%ebx, %eax
	jmp	5f
1:
	leaq	-1(%rsi), %rdx
	movl	$-1, %eax
	cmpq	$63, %rdx
	ja	5f
	cmpq	$64, %rsi
	jne	4f
	movq	%rdi, %r12
	movaps	.L1_v2_CPI207_0(%rip), %xmm0
	movups	%xmm0, 24(%rsp)
	movaps	.L1_v2_CPI207_1(%rip), %xmm0
	movups	%xmm0, 8(%rsp)
	movaps	.L1_v2_CPI207_2(%rip), %xmm0
	movups	%xmm0, 56(%rsp)
	movaps	.L1_v2_CPI207_3(%rip), %xmm0
	movups	%xmm0, 40(%rsp)
	cmpq	$1, %rcx
	movq	%rcx, %r13
	movq	%rcx, %r15
	adcq	$-1, %r15
	movq	%r15, %rbp
	shrq	$7, %rbp
	je	3f
	movl	$128, %r14d
	.p2align	4
2:
	leaq	(%rbx,%r14), %rsi
	addq	$-128, %rsi
	leaq	8(%rsp), %rdi
	movq	%r14, %rdx
	xorl	%ecx, %ecx
	xorl	%r8d, %r8d
	vj_call	blake2_compress..compress..blake2b..compress_1_v2
	subq	$-128, %r14
	decq	%rbp
	jne	2b
3:
	andq	$-128, %r15
	addq	%r15, %rbx
	movq	%r13, %rdx
	subq	%r15, %rdx
	xorps	%xmm0, %xmm0
	movaps	%xmm0, 208(%rsp)
	movaps	%xmm0, 192(%rsp)
	movaps	%xmm0, 176(%rsp)
	movaps	%xmm0, 160(%rsp)
	movaps	%xmm0, 144(%rsp)
	movaps	%xmm0, 128(%rsp)
	movaps	%xmm0, 112(%rsp)
	movaps	%xmm0, 96(%rsp)
	leaq	96(%rsp), %r15
	movq	%r15, %rdi
	movq	%rbx, %rsi
	vj_c_call	memcpy
	leaq	8(%rsp), %rdi
	movq	%r15, %rsi
	movq	%r13, %rdx
	movl	$1, %ecx
	xorl	%r8d, %r8d
	vj_call	blake2_compress..compress..blake2b..compress_1_v2
	xorl	%eax, %eax
	movups	8(%rsp), %xmm0
	movups	24(%rsp), %xmm1
	movups	40(%rsp), %xmm2
	movups	56(%rsp), %xmm3
	movups	%xmm0, (%r12)
	movups	%xmm1, 16(%r12)
	movups	%xmm2, 32(%r12)
	movups	%xmm3, 48(%r12)
	jmp	5f
4:
	movq	$0, 72(%rsp)
	leaq	72(%rsp), %r8
	movq	%rbx, %rdx
	callq	blake2_ffi..blake2b..write_digest_1_v2
	xorl	%eax, %eax
5:
	addq	$232, %rsp
	popq	%rbx
	popq	%r12
	popq	%r13
	popq	%r14
	popq	%r15
	popq	%rbp
	retq
	vj_end	vulfsjor_ffi_blake2b_1_v2

	vj_constants	16
	.p2align	4, 0x0
.L1_v2_CPI208_0:
	.long	1795745351
	.long	3144134277
	.long	1013904242
	.long	2773480762
.L1_v2_CPI208_1:
	.long	1359893119
	.long	2600822924
	.long	528734635
	.long	1541459225
	vj_export	vulfsjor_ffi_blake2s_1_v2
	pushq	%rbp
	pushq	%r15
	pushq	%r14
	pushq	%r13
	pushq	%r12
	pushq	%rbx
	subq	$136, %rsp
	movq	%rdi, %rax
	xorl	%edi, %edi
	testq	%rax, %rax
	sete	%dil
	shll	$12, %edi
	addq	%rax, %rdi
	xorl	%ebx, %ebx
	testq	%rdx, %rdx
	sete	%bl
	shll	$12, %ebx
	addq	%rdx, %rbx
	xorps	%xmm0, %xmm0
	movups	%xmm0, 48(%rsp)
	testq	%r9, %r9
	je	1f
	xorl	%eax, %eax
	testq	%r8, %r8
	sete	%al
	shll	$12, %eax
	addq	%r8, %rax
	movq	%rbx, %rdx
	movq	%rax, %r8
	callq	blake2_ffi..blake2s..write_keyed_1_v2
	movl	%eax, %ebx
	callq	blake2_digest..wiping..scrub_stack..768_1_v2
	movl	%ebx, %eax
	jmp	5f
1:
	leaq	-1(%rsi), %rdx
	movl	$-1, %eax
	cmpq	$31, %rdx
	ja	5f
	cmpq	$32, %rsi
	jne	4f
	movq	%rdi, %r12
	movaps	.L1_v2_CPI208_0(%rip), %xmm0
	movaps	%xmm0, (%rsp)
	movaps	.L1_v2_CPI208_1(%rip), %xmm0
	movaps	%xmm0, 16(%rsp)
	cmpq	$1, %rcx
	movq	%rcx, %r13
	movq	%rcx, %r15
	adcq	$-1, %r15
	movq	%r15, %rbp
	shrq	$6, %rbp
	je	3f
	movl	$64, %r14d
	.p2align	4
2:
	leaq	(%rbx,%r14), %rsi
	addq	$-64, %rsi
	movq	%rsp, %rdi
	movq	%r14, %rdx
	xorl	%ecx, %ecx
	xorl	%r8d, %r8d
	vj_call	blake2_compress..compress..blake2s..compress_1_v2
	addq	$64, %r14
	decq	%rbp
	jne	2b
3:
	andq	$-64, %r15
	addq	%r15, %rbx
	movq	%r13, %rdx
	subq	%r15, %rdx
	xorps	%xmm0, %xmm0
	movaps	%xmm0, 112(%rsp)
	movaps	%xmm0, 96(%rsp)
	movaps	%xmm0, 80(%rsp)
	movaps	%xmm0, 64(%rsp)
	leaq	64(%rsp), %r15
	movq	%r15, %rdi
	movq	%rbx, %rsi
	vj_c_call	memcpy
	movq	%rsp, %rdi
	movq	%r15, %rsi
	movq	%r13, %rdx
	movl	$1, %ecx
	xorl	%r8d, %r8d
	vj_call	blake2_compress..compress..blake2s..compress_1_v2
	xorl	%eax, %eax
	movaps	(%rsp), %xmm0
	movaps	16(%rsp), %xmm1
	movups	%xmm0, (%r12)
	movups	%xmm1, 16(%r12)
	jmp	5f
4:
	movq	$0, 40(%rsp)
	leaq	40(%rsp), %r8
	movq	%rbx, %rdx
	callq	blake2_ffi..blake2s..write_digest_1_v2
	xorl	%eax, %eax
5:
	addq	$136, %rsp
	popq	%rbx
	popq	%r12
	popq	%r13
	popq	%r14
	popq	%r15
	popq	%rbp
	retq
	vj_end	vulfsjor_ffi_blake2s_1_v2

	vj_export	vulfsjor_ffi_blake2b_many_1_v2
	pushq	%rbp
	pushq	%r15
	pushq	%r14
	pushq	%r13
	pushq	%r12
	pushq	%rbx
	subq	$72, %rsp
	movq	128(%rsp), %r10
	movq	160(%rsp), %rax
	movq	144(%rsp), %r15
	movq	152(%rsp), %r12
	movq	136(%rsp), %rbp
	xorl	%ebx, %ebx
	testq	%rdi, %rdi
	sete	%r14b
	xorl	%r11d, %r11d
	testq	%rcx, %rcx
	sete	15(%rsp)
	xorl	%r13d, %r13d
	testq	%r9, %r9
	sete	%r13b
	shll	$12, %r13d
	addq	%r9, %r13
	xorl	%r9d, %r9d
	testq	%rbp, %rbp
	sete	%r9b
	shll	$12, %r9d
	addq	%rbp, %r9
	xorl	%ebp, %ebp
	testq	%r12, %r12
	sete	%bpl
	shll	$12, %ebp
	addq	%r12, %rbp
	movq	%rdx, 16(%rsp)
	movq	%r13, 24(%rsp)
	movq	%r10, 32(%rsp)
	movq	%r9, 40(%rsp)
	movq	%r15, 48(%rsp)
	movq	%rbp, 56(%rsp)
	movq	%rax, 64(%rsp)
	leaq	-1(%rdx), %r9
	cmpq	$64, %r9
	setae	%r9b
	cmpq	$65, %r10
	setae	%bpl
	orb	%r9b, %bpl
	cmpq	$17, %r15
	setae	%r15b
	cmpq	$17, %rax
	setae	%al
	movl	$-1, %r9d
	orb	%r15b, %al
	orb	%bpl, %al
	jne	5f
	movq	%r8, %rax
	mulq	%rdx
	xorq	%rsi, %rax
	orq	%rdx, %rax
	jne	5f
	movb	%r14b, %bl
	shll	$12, %ebx
	addq	%rbx, %rdi
	movzbl	15(%rsp), %eax
	movb	%al, %r11b
	shll	$12, %r11d
	leaq	(%rcx,%r11), %rax
	testq	%r10, %r10
	je	2f
	leaq	(%r11,%rcx), %rdx
	addq	$8, %rdx
	movq	$-1, %rcx
	.p2align	4
1:
	incq	%rcx
	cmpq	%rcx, %r8
	je	3f
	cmpq	$-129, (%rdx)
	leaq	16(%rdx), %rdx
	jbe	1b
	jmp	5f
2:
	leaq	16(%rsp), %rdx
	movq	%rax, %rcx
	callq	blake2_ffi..blake2b..many..write_all_1_v2
	jmp	4f
3:
	leaq	16(%rsp), %rdx
	movq	%rax, %rcx
	callq	blake2_ffi..blake2b..many..write_all_1_v2
	callq	blake2_digest..wiping..scrub_stack..9216_1_v2
4:
	xorl	%r9d, %r9d
5:
	movl	%r9d, %eax
	addq	$72, %rsp
	popq	%rbx
	popq	%r12
	popq	%r13
	popq	%r14
	popq	%r15
	popq	%rbp
	retq
	vj_end	vulfsjor_ffi_blake2b_many_1_v2

	vj_export	vulfsjor_ffi_blake2s_many_1_v2
	pushq	%rbp
	pushq	%r15
	pushq	%r14
	pushq	%r13
	pushq	%r12
	pushq	%rbx
	subq	$72, %rsp
	movq	128(%rsp), %r10
	movq	160(%rsp), %rax
	movq	144(%rsp), %r15
	movq	152(%rsp), %r12
	movq	136(%rsp), %rbp
	xorl	%ebx, %ebx
	testq	%rdi, %rdi
	sete	%r14b
	xorl	%r11d, %r11d
	testq	%rcx, %rcx
	sete	15(%rsp)
	xorl	%r13d, %r13d
	testq	%r9, %r9
	sete	%r13b
	shll	$12, %r13d
	addq	%r9, %r13
	xorl	%r9d, %r9d
	testq	%rbp, %rbp
	sete	%r9b
	shll	$12, %r9d
	addq	%rbp, %r9
	xorl	%ebp, %ebp
	testq	%r12, %r12
	sete	%bpl
	shll	$12, %ebp
	addq	%r12, %rbp
	movq	%rdx, 16(%rsp)
	movq	%r13, 24(%rsp)
	movq	%r10, 32(%rsp)
	movq	%r9, 40(%rsp)
	movq	%r15, 48(%rsp)
	movq	%rbp, 56(%rsp)
	movq	%rax, 64(%rsp)
	leaq	-1(%rdx), %r9
	cmpq	$32, %r9
	setae	%r9b
	cmpq	$33, %r10
	setae	%bpl
	orb	%r9b, %bpl
	cmpq	$9, %r15
	setae	%r15b
	cmpq	$9, %rax
	setae	%al
	movl	$-1, %r9d
	orb	%r15b, %al
	orb	%bpl, %al
	jne	5f
	movq	%r8, %rax
	mulq	%rdx
	xorq	%rsi, %rax
	orq	%rdx, %rax
	jne	5f
	movb	%r14b, %bl
	shll	$12, %ebx
	addq	%rbx, %rdi
	movzbl	15(%rsp), %eax
	movb	%al, %r11b
	shll	$12, %r11d
	leaq	(%rcx,%r11), %rax
	testq	%r10, %r10
	je	2f
	leaq	(%r11,%rcx), %rdx
	addq	$8, %rdx
	movq	$-1, %rcx
	.p2align	4
1:
	incq	%rcx
	cmpq	%rcx, %r8
	je	3f
	cmpq	$-65, (%rdx)
	leaq	16(%rdx), %rdx
	jbe	1b
	jmp	5f
2:
	leaq	16(%rsp), %rdx
	movq	%rax, %rcx
	callq	blake2_ffi..blake2s..many..write_all_1_v2
	jmp	4f
3:
	leaq	16(%rsp), %rdx
	movq	%rax, %rcx
	callq	blake2_ffi..blake2s..many..write_all_1_v2
	callq	blake2_digest..wiping..scrub_stack..5632_1_v2
4:
	xorl	%r9d, %r9d
5:
	movl	%r9d, %eax
	addq	$72, %rsp
	popq	%rbx
	popq	%r12
	popq	%r13
	popq	%r14
	popq	%r15
	popq	%rbp
	retq
	vj_end	vulfsjor_ffi_blake2s_many_1_v2

	vj_constants	16
	.p2align	4, 0x0
.L1_v2_CPI211_0:
	.short	64
	.short	512
	.zero	2
	.zero	2
	.zero	2
	.zero	2
	.zero	2
	.zero	2
.L1_v2_CPI211_1:
	.quad	5840696475078001361
	.quad	-7276294671716946913
.L1_v2_CPI211_2:
	.quad	2270897969802886507
	.quad	6620516959819538809
.L1_v2_CPI211_3:
	.quad	7640891576956012808
	.quad	-4942790177534073029
.L1_v2_CPI211_4:
	.quad	4354685564936828971
	.quad	-6534734903238641935
.L1_v2_CPI211_5:
	.quad	4354685564936828970
	.quad	-6534734903238641935
.L1_v2_CPI211_6:
	.short	32
	.short	512
	.zero	2
	.zero	2
	.zero	2
	.zero	2
	.zero	2
	.zero	2
.L1_v2_CPI211_7:
	.short	64
	.short	512
	.short	0
	.short	0
	.short	0
	.short	0
	.short	0
	.short	0
.L1_v2_CPI211_8:
	.short	32
	.short	512
	.short	0
	.short	0
	.short	0
	.short	0
	.short	0
	.short	0
	vj_export	vulfsjor_ffi_tree_root_1_v2
	pushq	%rbp
	movq	%rsp, %rbp
	pushq	%r15
	pushq	%r14
	pushq	%r13
	pushq	%r12
	pushq	%rbx
	andq	$-32, %rsp
	subq	$2080, %rsp
	movq	%r9, 16(%rsp)
	xorl	%r12d, %r12d
	testq	%rdi, %rdi
	sete	%r13b
	xorl	%r11d, %r11d
	movq	%rdx, 48(%rsp)
	testq	%rdx, %rdx
	sete	%bl
	xorl	%edx, %edx
	testq	%r8, %r8
	sete	%r14b
	xorl	%r9d, %r9d
	cmpq	$0, 16(%rbp)
	sete	%r10b
	movq	%rcx, %rax
	shrq	$58, %rax
	movl	$-1, %eax
	jne	18f
	movb	%r10b, 64(%rsp)
	movq	%rcx, 40(%rsp)
	movl	32(%rbp), %ecx
	leaq	-1(%rsi), %r15
	cmpq	$64, %r15
	setae	%r15b
	cmpq	$17, 16(%rsp)
	setae	%r10b
	orb	%r15b, %r10b
	cmpq	$17, 24(%rbp)
	setae	%r15b
	orb	%r10b, %r15b
	testl	%ecx, %ecx
	sete	%r10b
	orb	%r15b, %r10b
	jne	18f
	movb	%r13b, %r12b
	shll	$12, %r12d
	addq	%r12, %rdi
	movb	%bl, %r11b
	shll	$12, %r11d
	movq	48(%rsp), %r15
	addq	%r11, %r15
	movb	%r14b, %dl
	shll	$12, %edx
	addq	%rdx, %r8
	movzbl	64(%rsp), %eax
	movb	%al, %r9b
	shll	$12, %r9d
	movq	16(%rbp), %rbx
	addq	%r9, %rbx
	cmpq	$64, %rsi
	movq	%rdi, 168(%rsp)
	movq	%r15, 48(%rsp)
	je	2f
	movl	%ecx, %r13d
	xorps	%xmm0, %xmm0
	cmpq	$32, %rsi
	jne	4f
	movaps	%xmm0, 80(%rsp)
	leaq	80(%rsp), %rdi
	movq	%r8, %rsi
	movq	16(%rsp), %r12
	movq	%r12, %rdx
	vj_c_call	memcpy
	xorps	%xmm0, %xmm0
	movaps	%xmm0, 96(%rsp)
	leaq	96(%rsp), %rdi
	movq	%rbx, %rsi
	movq	24(%rbp), %r15
	movq	%r15, %rdx
	vj_c_call	memcpy
	movaps	80(%rsp), %xmm0
	movaps	%xmm0, 176(%rsp)
	movq	%r12, 192(%rsp)
	leaq	200(%rsp), %rbx
	movaps	96(%rsp), %xmm0
	movups	%xmm0, 200(%rsp)
	movq	%r15, 216(%rsp)
	movl	%r13d, 224(%rsp)
	movl	$0, 228(%rsp)
	xorps	%xmm0, %xmm0
	movaps	%xmm0, 944(%rsp)
	movaps	%xmm0, 928(%rsp)
	movd	%r13d, %xmm1
	movdqa	%xmm1, 112(%rsp)
	movd	.L1_v2_CPI211_7(%rip), %xmm0
	punpckldq	%xmm1, %xmm0
	movq	%xmm0, %xmm0
	movdqa	%xmm0, 64(%rsp)
	leaq	928(%rsp), %rdi
	leaq	176(%rsp), %r14
	movq	%r14, %rsi
	movq	%r12, %rdx
	vj_c_call	memcpy
	leaq	944(%rsp), %rdi
	movq	%rbx, %rsi
	movq	%r15, %rdx
	vj_c_call	memcpy
	movaps	928(%rsp), %xmm1
	xorps	.L1_v2_CPI211_1(%rip), %xmm1
	movaps	%xmm1, 144(%rsp)
	movaps	944(%rsp), %xmm1
	xorps	.L1_v2_CPI211_2(%rip), %xmm1
	movaps	%xmm1, 128(%rsp)
	movaps	64(%rsp), %xmm0
	xorps	.L1_v2_CPI211_3(%rip), %xmm0
	movaps	%xmm0, 64(%rsp)
	xorps	%xmm0, %xmm0
	movaps	%xmm0, 944(%rsp)
	movaps	%xmm0, 928(%rsp)
	movd	.L1_v2_CPI211_8(%rip), %xmm0
	punpckldq	112(%rsp), %xmm0
	movq	%xmm0, %xmm0
	movdqa	%xmm0, 112(%rsp)
	leaq	928(%rsp), %rdi
	movq	%r14, %rsi
	movq	%r12, %rdx
	vj_c_call	memcpy
	leaq	944(%rsp), %rdi
	movq	%rbx, %rsi
	movq	%r15, %rdx
	vj_c_call	memcpy
	movaps	.L1_v2_CPI211_4(%rip), %xmm2
	movaps	.L1_v2_CPI211_1(%rip), %xmm3
	xorps	928(%rsp), %xmm3
	movaps	.L1_v2_CPI211_2(%rip), %xmm4
	xorps	944(%rsp), %xmm4
	movaps	112(%rsp), %xmm5
	xorps	.L1_v2_CPI211_3(%rip), %xmm5
	movaps	.L1_v2_CPI211_5(%rip), %xmm0
	movaps	80(%rsp), %xmm1
	movaps	%xmm1, 176(%rsp)
	movq	%r12, 192(%rsp)
	movaps	96(%rsp), %xmm1
	movups	%xmm1, 200(%rsp)
	movq	%r15, 216(%rsp)
	movl	%r13d, 224(%rsp)
	movl	$0, 228(%rsp)
	movq	$0, 232(%rsp)
	movaps	%xmm2, 256(%rsp)
	movaps	64(%rsp), %xmm1
	movaps	%xmm1, 240(%rsp)
	movaps	128(%rsp), %xmm7
	movaps	%xmm7, 288(%rsp)
	movaps	144(%rsp), %xmm6
	movaps	%xmm6, 272(%rsp)
	movaps	%xmm2, 320(%rsp)
	movaps	%xmm1, 304(%rsp)
	movaps	%xmm7, 352(%rsp)
	movaps	%xmm6, 336(%rsp)
	xorps	%xmm1, %xmm1
	movaps	%xmm1, 368(%rsp)
	movaps	%xmm1, 384(%rsp)
	movaps	%xmm1, 400(%rsp)
	movaps	%xmm1, 416(%rsp)
	movaps	%xmm1, 432(%rsp)
	movaps	%xmm1, 448(%rsp)
	movaps	%xmm1, 464(%rsp)
	movaps	%xmm1, 480(%rsp)
	movaps	%xmm1, 496(%rsp)
	movq	$0, 512(%rsp)
	leaq	520(%rsp), %rbx
	movups	%xmm0, 536(%rsp)
	movups	%xmm5, 520(%rsp)
	movups	%xmm4, 568(%rsp)
	movups	%xmm3, 552(%rsp)
	movups	%xmm0, 600(%rsp)
	movups	%xmm5, 584(%rsp)
	movups	%xmm4, 632(%rsp)
	movups	%xmm3, 616(%rsp)
	movups	%xmm1, 648(%rsp)
	movups	%xmm1, 664(%rsp)
	movups	%xmm1, 680(%rsp)
	movups	%xmm1, 696(%rsp)
	movups	%xmm1, 712(%rsp)
	movups	%xmm1, 728(%rsp)
	movups	%xmm1, 744(%rsp)
	movups	%xmm1, 760(%rsp)
	movups	%xmm1, 776(%rsp)
	movq	$0, 792(%rsp)
	movl	%r13d, %r13d
	leaq	(,%r13,4), %rax
	movq	40(%rsp), %rcx
	xorl	%r14d, %r14d
	xorl	%r12d, %r12d
	cmpq	%rcx, %rax
	jae	5f
	movq	48(%rsp), %r15
	.p2align	4
1:
	movq	%rcx, 40(%rsp)
	movq	%r13, 16(%rsp)
	leaq	928(%rsp), %r13
	movl	$512, %edx
	movq	%r13, %rdi
	xorl	%esi, %esi
	vj_c_call	memset
	leaq	176(%rsp), %rdi
	movq	%r12, %rsi
	movq	%r15, %rdx
	movq	%r13, %r8
	vj_call	blake2_tree..nodes..Nodes..hash_next_1_v2
	movl	$64, %ecx
	leaq	664(%rsp), %rdi
	movq	%r14, %rsi
	movq	%r13, %rdx
	movq	%rbx, %r8
	callq	blake2_digest..buffer..digest_into..33c1e97afcdf8a5d_1_v2
	movq	%rax, %r14
	movq	%rax, 792(%rsp)
	movq	232(%rsp), %r12
	incq	%r12
	movq	%r12, 232(%rsp)
	movq	192(%rsp), %rdx
	movq	216(%rsp), %rbx
	movd	.L1_v2_CPI211_7(%rip), %xmm1
	punpckldq	224(%rsp), %xmm1
	movl	224(%rsp), %r13d
	xorps	%xmm0, %xmm0
	movaps	%xmm0, 1616(%rsp)
	movaps	%xmm0, 1600(%rsp)
	movq	%r12, %xmm0
	punpcklqdq	%xmm0, %xmm1
	movdqa	%xmm1, 48(%rsp)
	leaq	1600(%rsp), %rdi
	leaq	176(%rsp), %rsi
	vj_c_call	memcpy
	leaq	1616(%rsp), %rdi
	leaq	200(%rsp), %rsi
	movq	%rbx, %rdx
	leaq	520(%rsp), %rbx
	vj_c_call	memcpy
	movaps	.L1_v2_CPI211_4(%rip), %xmm2
	movq	40(%rsp), %rcx
	leaq	200(%rsp), %rax
	movaps	1600(%rsp), %xmm0
	movaps	1616(%rsp), %xmm1
	movaps	48(%rsp), %xmm3
	xorps	.L1_v2_CPI211_3(%rip), %xmm3
	xorps	.L1_v2_CPI211_1(%rip), %xmm0
	xorps	.L1_v2_CPI211_2(%rip), %xmm1
	movaps	%xmm2, 256(%rsp)
	movaps	%xmm3, 240(%rsp)
	movaps	%xmm1, 288(%rsp)
	movaps	%xmm0, 272(%rsp)
	movaps	%xmm2, 320(%rsp)
	movaps	%xmm3, 304(%rsp)
	movaps	%xmm1, 352(%rsp)
	movaps	%xmm0, 336(%rsp)
	xorps	%xmm0, %xmm0
	movups	%xmm0, 296(%rax)
	movups	%xmm0, 280(%rax)
	movups	%xmm0, 264(%rax)
	movups	%xmm0, 248(%rax)
	movups	%xmm0, 232(%rax)
	movups	%xmm0, 216(%rax)
	movups	%xmm0, 200(%rax)
	movups	%xmm0, 184(%rax)
	movups	%xmm0, 168(%rax)
	movq	$0, 312(%rax)
	movq	16(%rsp), %rax
	addq	%rax, %r15
	subq	%rax, %rcx
	leaq	(,%r13,4), %rax
	cmpq	%rcx, %rax
	jb	1b
	movq	%r14, 16(%rsp)
	xorl	%esi, %esi
	cmpq	%rcx, %r13
	jb	6f
	jmp	10f
2:
	xorps	%xmm0, %xmm0
	movaps	%xmm0, 80(%rsp)
	leaq	80(%rsp), %rdi
	movq	%r8, %rsi
	movq	16(%rsp), %r12
	movq	%r12, %rdx
	movl	%ecx, %r13d
	vj_c_call	memcpy
	xorps	%xmm0, %xmm0
	movaps	%xmm0, 96(%rsp)
	leaq	96(%rsp), %rdi
	movq	%rbx, %rsi
	movq	24(%rbp), %rbx
	movq	%rbx, %rdx
	vj_c_call	memcpy
	movaps	80(%rsp), %xmm0
	movaps	%xmm0, 176(%rsp)
	movq	%r12, 192(%rsp)
	leaq	200(%rsp), %r15
	movaps	96(%rsp), %xmm0
	movups	%xmm0, 200(%rsp)
	movq	%rbx, 216(%rsp)
	movl	%r13d, 224(%rsp)
	movl	$0, 228(%rsp)
	xorps	%xmm0, %xmm0
	movaps	%xmm0, 944(%rsp)
	movaps	%xmm0, 928(%rsp)
	movd	%r13d, %xmm0
	movd	.L1_v2_CPI211_7(%rip), %xmm1
	punpckldq	%xmm0, %xmm1
	movq	%xmm1, %xmm0
	movdqa	%xmm0, 64(%rsp)
	leaq	928(%rsp), %rdi
	leaq	176(%rsp), %r14
	movq	%r14, %rsi
	movq	%r12, %rdx
	vj_c_call	memcpy
	leaq	944(%rsp), %rdi
	movq	%r15, %rsi
	movq	%rbx, %rdx
	vj_c_call	memcpy
	movaps	928(%rsp), %xmm1
	xorps	.L1_v2_CPI211_1(%rip), %xmm1
	movaps	%xmm1, 144(%rsp)
	movaps	944(%rsp), %xmm2
	movaps	64(%rsp), %xmm1
	xorps	.L1_v2_CPI211_3(%rip), %xmm1
	movaps	%xmm1, 64(%rsp)
	xorps	.L1_v2_CPI211_2(%rip), %xmm2
	movaps	%xmm2, 128(%rsp)
	pxor	%xmm0, %xmm0
	movdqa	%xmm0, 944(%rsp)
	movdqa	%xmm0, 928(%rsp)
	leaq	928(%rsp), %rdi
	movq	%r14, %rsi
	movq	%r12, %rdx
	vj_c_call	memcpy
	leaq	944(%rsp), %rdi
	movq	%r15, %rsi
	movq	%rbx, %rdx
	vj_c_call	memcpy
	movaps	.L1_v2_CPI211_4(%rip), %xmm2
	movaps	.L1_v2_CPI211_1(%rip), %xmm3
	xorps	928(%rsp), %xmm3
	movaps	.L1_v2_CPI211_2(%rip), %xmm4
	xorps	944(%rsp), %xmm4
	movaps	.L1_v2_CPI211_5(%rip), %xmm0
	movaps	80(%rsp), %xmm1
	movaps	%xmm1, 176(%rsp)
	movq	%r12, 192(%rsp)
	movaps	96(%rsp), %xmm1
	movups	%xmm1, 200(%rsp)
	movq	%rbx, 216(%rsp)
	movl	%r13d, 224(%rsp)
	movl	$0, 228(%rsp)
	movq	$0, 232(%rsp)
	movaps	%xmm2, 256(%rsp)
	movaps	64(%rsp), %xmm1
	movaps	%xmm1, 240(%rsp)
	movaps	128(%rsp), %xmm6
	movaps	%xmm6, 288(%rsp)
	movaps	144(%rsp), %xmm5
	movaps	%xmm5, 272(%rsp)
	movaps	%xmm2, 320(%rsp)
	movaps	%xmm1, 304(%rsp)
	movaps	%xmm1, %xmm2
	movaps	%xmm6, 352(%rsp)
	movaps	%xmm5, 336(%rsp)
	xorps	%xmm1, %xmm1
	movaps	%xmm1, 368(%rsp)
	movaps	%xmm1, 384(%rsp)
	movaps	%xmm1, 400(%rsp)
	movaps	%xmm1, 416(%rsp)
	movaps	%xmm1, 432(%rsp)
	movaps	%xmm1, 448(%rsp)
	movaps	%xmm1, 464(%rsp)
	movaps	%xmm1, 480(%rsp)
	movaps	%xmm1, 496(%rsp)
	movq	$0, 512(%rsp)
	movups	%xmm0, 536(%rsp)
	movups	%xmm2, 520(%rsp)
	movups	%xmm4, 568(%rsp)
	movups	%xmm3, 552(%rsp)
	movups	%xmm0, 600(%rsp)
	movups	%xmm2, 584(%rsp)
	movups	%xmm4, 632(%rsp)
	movups	%xmm3, 616(%rsp)
	movups	%xmm1, 648(%rsp)
	movups	%xmm1, 664(%rsp)
	movups	%xmm1, 680(%rsp)
	movups	%xmm1, 696(%rsp)
	movups	%xmm1, 712(%rsp)
	movups	%xmm1, 728(%rsp)
	movups	%xmm1, 744(%rsp)
	movups	%xmm1, 760(%rsp)
	movups	%xmm1, 776(%rsp)
	movq	$0, 792(%rsp)
	movl	%r13d, %r13d
	leaq	(,%r13,4), %rax
	movq	40(%rsp), %rcx
	xorl	%r14d, %r14d
	xorl	%r15d, %r15d
	cmpq	%rcx, %rax
	jae	11f
	movq	48(%rsp), %r12
	.p2align	4
3:
	movq	%rcx, 40(%rsp)
	movq	%r13, 16(%rsp)
	leaq	928(%rsp), %rbx
	movl	$512, %edx
	movq	%rbx, %rdi
	xorl	%esi, %esi
	vj_c_call	memset
	leaq	176(%rsp), %rdi
	movq	%r15, %rsi
	movq	%r12, %rdx
	movq	%rbx, %r8
	vj_call	blake2_tree..nodes..Nodes..hash_next_1_v2
	movl	$64, %ecx
	leaq	664(%rsp), %rdi
	movq	%r14, %rsi
	movq	%rbx, %rdx
	leaq	520(%rsp), %r8
	callq	blake2_digest..buffer..digest_into..33c1e97afcdf8a5d_1_v2
	movq	%rax, %r14
	movq	%rax, 792(%rsp)
	movq	232(%rsp), %r15
	incq	%r15
	movq	%r15, 232(%rsp)
	movq	192(%rsp), %rdx
	movq	216(%rsp), %rbx
	movd	.L1_v2_CPI211_7(%rip), %xmm1
	punpckldq	224(%rsp), %xmm1
	movl	224(%rsp), %r13d
	xorps	%xmm0, %xmm0
	movaps	%xmm0, 1616(%rsp)
	movaps	%xmm0, 1600(%rsp)
	movq	%r15, %xmm0
	punpcklqdq	%xmm0, %xmm1
	movdqa	%xmm1, 48(%rsp)
	leaq	1600(%rsp), %rdi
	leaq	176(%rsp), %rsi
	vj_c_call	memcpy
	leaq	1616(%rsp), %rdi
	leaq	200(%rsp), %rsi
	movq	%rbx, %rdx
	vj_c_call	memcpy
	movaps	.L1_v2_CPI211_4(%rip), %xmm2
	movq	40(%rsp), %rcx
	leaq	200(%rsp), %rax
	movaps	1600(%rsp), %xmm0
	movaps	1616(%rsp), %xmm1
	movaps	48(%rsp), %xmm3
	xorps	.L1_v2_CPI211_3(%rip), %xmm3
	xorps	.L1_v2_CPI211_1(%rip), %xmm0
	xorps	.L1_v2_CPI211_2(%rip), %xmm1
	movaps	%xmm2, 256(%rsp)
	movaps	%xmm3, 240(%rsp)
	movaps	%xmm1, 288(%rsp)
	movaps	%xmm0, 272(%rsp)
	movaps	%xmm2, 320(%rsp)
	movaps	%xmm3, 304(%rsp)
	movaps	%xmm1, 352(%rsp)
	movaps	%xmm0, 336(%rsp)
	xorps	%xmm0, %xmm0
	movups	%xmm0, 296(%rax)
	movups	%xmm0, 280(%rax)
	movups	%xmm0, 264(%rax)
	movups	%xmm0, 248(%rax)
	movups	%xmm0, 232(%rax)
	movups	%xmm0, 216(%rax)
	movups	%xmm0, 200(%rax)
	movups	%xmm0, 184(%rax)
	movups	%xmm0, 168(%rax)
	movq	$0, 312(%rax)
	movq	16(%rsp), %rax
	addq	%rax, %r12
	subq	%rax, %rcx
	leaq	(,%r13,4), %rax
	cmpq	%rcx, %rax
	jb	3b
	movq	%r14, 16(%rsp)
	xorl	%esi, %esi
	cmpq	%rcx, %r13
	jb	12f
	jmp	16f
4:
	movaps	%xmm0, 1440(%rsp)
	leaq	1440(%rsp), %rdi
	movq	%rsi, %r14
	movq	%rsi, 1584(%rsp)
	movq	%r8, %rsi
	movq	16(%rsp), %r12
	movq	%r12, %rdx
	movq	%r8, 1592(%rsp)
	vj_c_call	memcpy
	xorps	%xmm0, %xmm0
	movaps	%xmm0, 1600(%rsp)
	leaq	1600(%rsp), %rdi
	movq	%rbx, 1576(%rsp)
	movq	%rbx, %rsi
	movq	24(%rbp), %r15
	movq	%r15, %rdx
	vj_c_call	memcpy
	movaps	1440(%rsp), %xmm0
	movaps	%xmm0, 176(%rsp)
	movq	%r12, 192(%rsp)
	leaq	200(%rsp), %rbx
	movaps	1600(%rsp), %xmm0
	movups	%xmm0, 200(%rsp)
	movq	%r15, 216(%rsp)
	movl	%r13d, 224(%rsp)
	movl	$0, 228(%rsp)
	xorps	%xmm0, %xmm0
	movaps	%xmm0, 944(%rsp)
	movaps	%xmm0, 928(%rsp)
	movd	.L1_v2_CPI211_7(%rip), %xmm0
	movd	%r13d, %xmm1
	movdqa	%xmm1, 112(%rsp)
	punpckldq	%xmm1, %xmm0
	movq	%xmm0, %xmm0
	movdqa	%xmm0, 128(%rsp)
	leaq	928(%rsp), %rdi
	leaq	176(%rsp), %r13
	movq	%r13, %rsi
	movq	%r12, %rdx
	vj_c_call	memcpy
	leaq	944(%rsp), %rdi
	movq	%rbx, %rsi
	movq	%r15, %rdx
	vj_c_call	memcpy
	movaps	.L1_v2_CPI211_2(%rip), %xmm0
	movaps	%xmm0, 64(%rsp)
	movaps	944(%rsp), %xmm1
	xorps	%xmm0, %xmm1
	movaps	%xmm1, 2032(%rsp)
	movaps	.L1_v2_CPI211_1(%rip), %xmm0
	movaps	%xmm0, 144(%rsp)
	movaps	928(%rsp), %xmm1
	xorps	%xmm0, %xmm1
	movaps	%xmm1, 2016(%rsp)
	movaps	128(%rsp), %xmm0
	xorps	.L1_v2_CPI211_3(%rip), %xmm0
	movaps	%xmm0, 128(%rsp)
	xorps	%xmm0, %xmm0
	movaps	%xmm0, 944(%rsp)
	movaps	%xmm0, 928(%rsp)
	movl	%r14d, %eax
	orl	$33554432, %eax
	movd	%eax, %xmm0
	punpckldq	112(%rsp), %xmm0
	movq	%xmm0, %xmm0
	movdqa	%xmm0, 112(%rsp)
	leaq	928(%rsp), %rdi
	movq	%r13, %rsi
	movq	%r12, %rdx
	vj_c_call	memcpy
	leaq	944(%rsp), %rdi
	movq	%rbx, %rsi
	movq	%r15, %rdx
	vj_c_call	memcpy
	movaps	64(%rsp), %xmm0
	xorps	944(%rsp), %xmm0
	movaps	%xmm0, 64(%rsp)
	movaps	144(%rsp), %xmm0
	xorps	928(%rsp), %xmm0
	movaps	%xmm0, 144(%rsp)
	movaps	112(%rsp), %xmm0
	xorps	.L1_v2_CPI211_3(%rip), %xmm0
	movaps	%xmm0, 112(%rsp)
	movl	32(%rbp), %r14d
	xorps	%xmm0, %xmm0
	movaps	%xmm0, 80(%rsp)
	leaq	80(%rsp), %rdi
	movq	1592(%rsp), %rsi
	movq	%r12, %rdx
	vj_c_call	memcpy
	xorps	%xmm0, %xmm0
	movaps	%xmm0, 96(%rsp)
	leaq	96(%rsp), %rdi
	movq	1576(%rsp), %rsi
	movq	%r15, %rdx
	vj_c_call	memcpy
	movaps	80(%rsp), %xmm0
	movaps	%xmm0, 1952(%rsp)
	movaps	96(%rsp), %xmm0
	movaps	%xmm0, 1968(%rsp)
	movaps	128(%rsp), %xmm0
	movaps	%xmm0, 176(%rsp)
	movaps	.L1_v2_CPI211_4(%rip), %xmm3
	movaps	%xmm3, 192(%rsp)
	movaps	2016(%rsp), %xmm2
	movaps	%xmm2, 208(%rsp)
	movaps	2032(%rsp), %xmm1
	movaps	%xmm1, 224(%rsp)
	movaps	%xmm0, 240(%rsp)
	movaps	%xmm3, 256(%rsp)
	movaps	%xmm2, 272(%rsp)
	movaps	%xmm1, 288(%rsp)
	xorps	%xmm0, %xmm0
	movaps	%xmm0, 304(%rsp)
	movl	$64, 320(%rsp)
	movups	%xmm0, 500(%rsp)
	movups	%xmm0, 484(%rsp)
	movups	%xmm0, 468(%rsp)
	movups	%xmm0, 452(%rsp)
	movups	%xmm0, 436(%rsp)
	movups	%xmm0, 420(%rsp)
	movups	%xmm0, 404(%rsp)
	movups	%xmm0, 388(%rsp)
	movups	%xmm0, 372(%rsp)
	movups	%xmm0, 356(%rsp)
	movups	%xmm0, 340(%rsp)
	movups	%xmm0, 324(%rsp)
	movl	$0, 516(%rsp)
	movaps	112(%rsp), %xmm3
	movups	%xmm3, 520(%rsp)
	movaps	.L1_v2_CPI211_5(%rip), %xmm4
	movups	%xmm4, 536(%rsp)
	movaps	144(%rsp), %xmm2
	movups	%xmm2, 552(%rsp)
	movaps	64(%rsp), %xmm1
	movups	%xmm1, 568(%rsp)
	movups	%xmm3, 584(%rsp)
	movups	%xmm4, 600(%rsp)
	movups	%xmm2, 616(%rsp)
	movups	%xmm1, 632(%rsp)
	movups	%xmm0, 648(%rsp)
	movq	1584(%rsp), %rax
	movl	%eax, 664(%rsp)
	movups	%xmm0, 668(%rsp)
	movups	%xmm0, 684(%rsp)
	movups	%xmm0, 700(%rsp)
	movups	%xmm0, 716(%rsp)
	movups	%xmm0, 732(%rsp)
	movups	%xmm0, 748(%rsp)
	movups	%xmm0, 764(%rsp)
	movups	%xmm0, 780(%rsp)
	movups	%xmm0, 796(%rsp)
	movups	%xmm0, 812(%rsp)
	movups	%xmm0, 828(%rsp)
	movups	%xmm0, 844(%rsp)
	movups	%xmm0, 856(%rsp)
	movq	%r14, 872(%rsp)
	movq	%r12, 880(%rsp)
	movq	%r15, 888(%rsp)
	movaps	1952(%rsp), %xmm0
	movaps	1968(%rsp), %xmm1
	movaps	%xmm0, 896(%rsp)
	movaps	%xmm1, 912(%rsp)
	leaq	176(%rsp), %rdi
	movq	48(%rsp), %rsi
	movq	40(%rsp), %rdx
	callq	blake2_state..tree..TreeState..update_1_v2
	movaps	176(%rsp), %xmm0
	movaps	192(%rsp), %xmm1
	movaps	208(%rsp), %xmm2
	movaps	224(%rsp), %xmm3
	movaps	%xmm0, 928(%rsp)
	movaps	%xmm1, 944(%rsp)
	movaps	%xmm2, 960(%rsp)
	movaps	%xmm3, 976(%rsp)
	movaps	240(%rsp), %xmm0
	movaps	%xmm0, 992(%rsp)
	movaps	256(%rsp), %xmm0
	movaps	%xmm0, 1008(%rsp)
	movaps	272(%rsp), %xmm0
	movaps	%xmm0, 1024(%rsp)
	movaps	288(%rsp), %xmm0
	movaps	%xmm0, 1040(%rsp)
	movaps	304(%rsp), %xmm0
	movl	320(%rsp), %eax
	movaps	%xmm0, 1056(%rsp)
	movl	%eax, 1072(%rsp)
	movups	328(%rsp), %xmm0
	movups	%xmm0, 1080(%rsp)
	movups	344(%rsp), %xmm0
	movups	%xmm0, 1096(%rsp)
	movups	360(%rsp), %xmm0
	movups	%xmm0, 1112(%rsp)
	movups	376(%rsp), %xmm0
	movups	%xmm0, 1128(%rsp)
	movups	392(%rsp), %xmm0
	movups	%xmm0, 1144(%rsp)
	movups	408(%rsp), %xmm0
	movups	%xmm0, 1160(%rsp)
	movups	424(%rsp), %xmm0
	movups	%xmm0, 1176(%rsp)
	movups	440(%rsp), %xmm0
	movups	%xmm0, 1192(%rsp)
	movups	456(%rsp), %xmm0
	movups	472(%rsp), %xmm1
	movups	488(%rsp), %xmm2
	movups	504(%rsp), %xmm3
	movups	%xmm3, 1256(%rsp)
	movups	%xmm2, 1240(%rsp)
	movups	%xmm1, 1224(%rsp)
	movups	%xmm0, 1208(%rsp)
	movl	$1, 1076(%rsp)
	movups	568(%rsp), %xmm0
	movaps	%xmm0, 1648(%rsp)
	movups	552(%rsp), %xmm0
	movaps	%xmm0, 1632(%rsp)
	movups	536(%rsp), %xmm0
	movaps	%xmm0, 1616(%rsp)
	movups	520(%rsp), %xmm0
	movaps	%xmm0, 1600(%rsp)
	movups	632(%rsp), %xmm0
	movaps	%xmm0, 1712(%rsp)
	movups	616(%rsp), %xmm0
	movaps	%xmm0, 1696(%rsp)
	movups	600(%rsp), %xmm0
	movaps	%xmm0, 1680(%rsp)
	movups	584(%rsp), %xmm0
	movaps	%xmm0, 1664(%rsp)
	movq	648(%rsp), %rax
	movq	%rax, 1728(%rsp)
	movaps	656(%rsp), %xmm0
	movups	%xmm0, 1736(%rsp)
	movaps	784(%rsp), %xmm0
	movups	%xmm0, 1864(%rsp)
	movaps	768(%rsp), %xmm0
	movups	%xmm0, 1848(%rsp)
	movaps	752(%rsp), %xmm0
	movups	%xmm0, 1832(%rsp)
	movaps	736(%rsp), %xmm0
	movups	%xmm0, 1816(%rsp)
	movaps	672(%rsp), %xmm0
	movaps	688(%rsp), %xmm1
	movaps	704(%rsp), %xmm2
	movaps	720(%rsp), %xmm3
	movups	%xmm3, 1800(%rsp)
	movups	%xmm2, 1784(%rsp)
	movups	%xmm1, 1768(%rsp)
	movups	%xmm0, 1752(%rsp)
	movaps	800(%rsp), %xmm0
	movaps	816(%rsp), %xmm1
	movaps	832(%rsp), %xmm2
	movaps	848(%rsp), %xmm3
	movups	%xmm3, 1928(%rsp)
	movups	%xmm2, 1912(%rsp)
	movups	%xmm1, 1896(%rsp)
	movups	%xmm0, 1880(%rsp)
	xorps	%xmm0, %xmm0
	movaps	%xmm0, 1488(%rsp)
	movaps	%xmm0, 1472(%rsp)
	movaps	%xmm0, 1456(%rsp)
	movaps	%xmm0, 1440(%rsp)
	leaq	928(%rsp), %rdi
	leaq	1440(%rsp), %rbx
	movq	%rbx, %rsi
	callq	blake2_state..blake2b..State..write_digest_1_v2
	leaq	1600(%rsp), %r14
	movl	$64, %edx
	movq	%r14, %rdi
	movq	%rbx, %rsi
	callq	blake2_state..blake2b..State..absorb_blocks_1_v2
	movl	$1, 1748(%rsp)
	movq	%r14, %rdi
	movq	168(%rsp), %rsi
	callq	blake2_state..blake2b..State..write_digest_1_v2
	jmp	17f
5:
	movq	48(%rsp), %r15
	movq	%r14, 16(%rsp)
	xorl	%esi, %esi
	cmpq	%rcx, %r13
	jae	10f
6:
	xorl	%eax, %eax
	movq	%r13, %r14
	jmp	9f
	.p2align	4
7:
	leaq	384(%rsp), %rdi
	movq	%r15, %rdx
	movq	%r13, %rcx
	leaq	240(%rsp), %r14
	movq	%r14, %r8
	callq	blake2_digest..buffer..digest_into..33c1e97afcdf8a5d_1_v2
	movq	%rax, 512(%rsp)
	movq	232(%rsp), %rax
	incq	%rax
	movq	192(%rsp), %rdx
	movq	216(%rsp), %rbx
	movd	.L1_v2_CPI211_7(%rip), %xmm1
	punpckldq	224(%rsp), %xmm1
	xorps	%xmm0, %xmm0
	movaps	%xmm0, 944(%rsp)
	movaps	%xmm0, 928(%rsp)
	movq	%rax, %xmm0
	punpcklqdq	%xmm0, %xmm1
	movdqa	%xmm1, 16(%rsp)
	leaq	928(%rsp), %rdi
	leaq	176(%rsp), %rsi
	vj_c_call	memcpy
	leaq	944(%rsp), %rdi
	leaq	200(%rsp), %rsi
	movq	%rbx, %rdx
	vj_c_call	memcpy
	movaps	928(%rsp), %xmm1
	movaps	944(%rsp), %xmm2
	movaps	16(%rsp), %xmm0
	xorps	.L1_v2_CPI211_3(%rip), %xmm0
	movaps	%xmm0, 16(%rsp)
	xorps	.L1_v2_CPI211_1(%rip), %xmm1
	movaps	%xmm1, 48(%rsp)
	xorps	.L1_v2_CPI211_2(%rip), %xmm2
	movaps	%xmm2, 64(%rsp)
	leaq	928(%rsp), %rdi
	movl	$280, %edx
	movq	%r14, %rsi
	vj_c_call	memcpy
	movaps	.L1_v2_CPI211_4(%rip), %xmm0
	movaps	%xmm0, 256(%rsp)
	movaps	16(%rsp), %xmm1
	movaps	%xmm1, 240(%rsp)
	movaps	64(%rsp), %xmm3
	movaps	%xmm3, 288(%rsp)
	movaps	48(%rsp), %xmm2
	movaps	%xmm2, 272(%rsp)
	movaps	%xmm0, 320(%rsp)
	movaps	%xmm1, 304(%rsp)
	movaps	%xmm3, 352(%rsp)
	movaps	%xmm2, 336(%rsp)
	leaq	200(%rsp), %rax
	xorps	%xmm0, %xmm0
	movups	%xmm0, 168(%rax)
	movups	%xmm0, 184(%rax)
	movups	%xmm0, 200(%rax)
	movups	%xmm0, 216(%rax)
	movups	%xmm0, 232(%rax)
	movups	%xmm0, 248(%rax)
	movups	%xmm0, 264(%rax)
	movups	%xmm0, 280(%rax)
	movups	%xmm0, 296(%rax)
	movq	$0, 312(%rax)
	movq	1200(%rsp), %rdx
	movq	1056(%rsp), %r14
	addq	%rdx, %r14
	movq	%r14, 1056(%rsp)
	movaps	%xmm0, 1600(%rsp)
	movaps	%xmm0, 1616(%rsp)
	movaps	%xmm0, 1632(%rsp)
	movaps	%xmm0, 1648(%rsp)
	movaps	%xmm0, 1664(%rsp)
	movaps	%xmm0, 1680(%rsp)
	movaps	%xmm0, 1696(%rsp)
	movaps	%xmm0, 1712(%rsp)
	leaq	1600(%rsp), %rbx
	movq	%rbx, %rdi
	leaq	1072(%rsp), %r12
	movq	%r12, %rsi
	vj_c_call	memcpy
	xorps	%xmm0, %xmm0
	movups	%xmm0, (%r12)
	movups	%xmm0, 16(%r12)
	movups	%xmm0, 32(%r12)
	movups	%xmm0, 48(%r12)
	movups	%xmm0, 64(%r12)
	movups	%xmm0, 80(%r12)
	movups	%xmm0, 96(%r12)
	movups	%xmm0, 112(%r12)
	movq	$0, 128(%r12)
	movl	1064(%rsp), %r8d
	leaq	928(%rsp), %rdi
	movq	%rbx, %rsi
	movq	%r14, %rdx
	movl	$1, %ecx
	vj_call	blake2_compress..compress..blake2b..compress_1_v2
	movups	928(%rsp), %xmm0
	movups	944(%rsp), %xmm1
	movups	960(%rsp), %xmm2
	movups	976(%rsp), %xmm3
	movaps	%xmm0, 928(%rsp)
	movaps	%xmm1, 944(%rsp)
	movaps	%xmm2, 960(%rsp)
	movaps	%xmm3, 976(%rsp)
	movq	792(%rsp), %rsi
	leaq	928(%rsp), %rdx
	movl	$64, %ecx
	leaq	664(%rsp), %rdi
	leaq	520(%rsp), %r8
	callq	blake2_digest..buffer..digest_into..33c1e97afcdf8a5d_1_v2
	movq	%rax, 16(%rsp)
	movq	%rax, 792(%rsp)
	movq	232(%rsp), %r12
	incq	%r12
	movq	%r12, 232(%rsp)
	movl	224(%rsp), %edx
	movq	368(%rsp), %rax
	movq	512(%rsp), %rsi
8:
	movq	40(%rsp), %rcx
	subq	%r13, %rcx
	addq	%r13, %r15
	movl	%edx, %r14d
	movq	%r14, %r13
	subq	%rax, %r13
	subq	%rsi, %r13
	cmpq	%rcx, %r13
	jae	10f
9:
	addq	%rsi, %rax
	movq	%rcx, 40(%rsp)
	jne	7b
	leaq	(,%r14,4), %rax
	cmpq	%rcx, %rax
	jae	7b
	leaq	928(%rsp), %rbx
	movl	$512, %edx
	movq	%rbx, %rdi
	xorl	%esi, %esi
	vj_c_call	memset
	leaq	176(%rsp), %rdi
	movq	%r12, %rsi
	movq	%r15, %rdx
	movq	%rbx, %r8
	vj_call	blake2_tree..nodes..Nodes..hash_next_1_v2
	movl	$64, %ecx
	leaq	664(%rsp), %rdi
	movq	16(%rsp), %rsi
	movq	%rbx, %rdx
	leaq	520(%rsp), %r8
	callq	blake2_digest..buffer..digest_into..33c1e97afcdf8a5d_1_v2
	movq	%rax, 16(%rsp)
	movq	%rax, 792(%rsp)
	movq	232(%rsp), %r12
	incq	%r12
	movq	%r12, 232(%rsp)
	movq	192(%rsp), %rdx
	movq	216(%rsp), %rbx
	movd	.L1_v2_CPI211_7(%rip), %xmm1
	punpckldq	224(%rsp), %xmm1
	movl	224(%rsp), %r13d
	xorps	%xmm0, %xmm0
	movaps	%xmm0, 1616(%rsp)
	movaps	%xmm0, 1600(%rsp)
	movq	%r12, %xmm0
	punpcklqdq	%xmm0, %xmm1
	movdqa	%xmm1, 48(%rsp)
	leaq	1600(%rsp), %rdi
	leaq	176(%rsp), %rsi
	vj_c_call	memcpy
	leaq	1616(%rsp), %rdi
	leaq	200(%rsp), %rsi
	movq	%rbx, %rdx
	vj_c_call	memcpy
	movl	%r13d, %edx
	xorl	%esi, %esi
	movaps	1600(%rsp), %xmm0
	movaps	1616(%rsp), %xmm1
	movaps	48(%rsp), %xmm3
	xorps	.L1_v2_CPI211_3(%rip), %xmm3
	xorps	.L1_v2_CPI211_1(%rip), %xmm0
	xorps	.L1_v2_CPI211_2(%rip), %xmm1
	movaps	.L1_v2_CPI211_4(%rip), %xmm2
	movaps	%xmm2, 256(%rsp)
	movaps	%xmm3, 240(%rsp)
	movaps	%xmm1, 288(%rsp)
	movaps	%xmm0, 272(%rsp)
	movaps	%xmm2, 320(%rsp)
	movaps	%xmm3, 304(%rsp)
	movaps	%xmm1, 352(%rsp)
	movaps	%xmm0, 336(%rsp)
	leaq	200(%rsp), %rax
	xorps	%xmm0, %xmm0
	movups	%xmm0, 296(%rax)
	movups	%xmm0, 280(%rax)
	movups	%xmm0, 264(%rax)
	movups	%xmm0, 248(%rax)
	movups	%xmm0, 232(%rax)
	movups	%xmm0, 216(%rax)
	movups	%xmm0, 200(%rax)
	movups	%xmm0, 184(%rax)
	movups	%xmm0, 168(%rax)
	movq	$0, 312(%rax)
	xorl	%eax, %eax
	movq	%r14, %r13
	jmp	8b
10:
	leaq	384(%rsp), %rdi
	movq	%r15, %rdx
	leaq	240(%rsp), %rbx
	movq	%rbx, %r8
	callq	blake2_digest..buffer..digest_into..33c1e97afcdf8a5d_1_v2
	movq	%rax, 512(%rsp)
	leaq	928(%rsp), %r14
	movl	$136, %edx
	movq	%r14, %rdi
	movq	%rbx, %rsi
	vj_c_call	memcpy
	leaq	1065(%rsp), %rdi
	leaq	377(%rsp), %rsi
	movl	$143, %edx
	vj_c_call	memcpy
	leaq	1600(%rsp), %rbx
	movl	$280, %edx
	movq	%rbx, %rdi
	leaq	520(%rsp), %rsi
	vj_c_call	memcpy
	movb	$1, 1064(%rsp)
	leaq	1072(%rsp), %rsi
	movq	1200(%rsp), %rdx
	movq	1056(%rsp), %r15
	addq	%rdx, %r15
	movq	%r15, 1056(%rsp)
	xorps	%xmm0, %xmm0
	movaps	%xmm0, 1440(%rsp)
	movaps	%xmm0, 1456(%rsp)
	movaps	%xmm0, 1472(%rsp)
	movaps	%xmm0, 1488(%rsp)
	movaps	%xmm0, 1504(%rsp)
	movaps	%xmm0, 1520(%rsp)
	movaps	%xmm0, 1536(%rsp)
	movaps	%xmm0, 1552(%rsp)
	leaq	1440(%rsp), %r12
	movq	%r12, %rdi
	vj_c_call	memcpy
	xorps	%xmm0, %xmm0
	movups	%xmm0, 1072(%rsp)
	movups	%xmm0, 1088(%rsp)
	movups	%xmm0, 1104(%rsp)
	movups	%xmm0, 1120(%rsp)
	movups	%xmm0, 1136(%rsp)
	movups	%xmm0, 1152(%rsp)
	movups	%xmm0, 1168(%rsp)
	movups	%xmm0, 1184(%rsp)
	movq	$0, 1200(%rsp)
	movq	%r14, %rdi
	movq	%r12, %rsi
	movq	%r15, %rdx
	movl	$1, %ecx
	movl	$1, %r8d
	vj_call	blake2_compress..compress..blake2b..compress_1_v2
	movups	928(%rsp), %xmm0
	movups	944(%rsp), %xmm1
	movups	960(%rsp), %xmm2
	movups	976(%rsp), %xmm3
	movaps	%xmm0, 1952(%rsp)
	movaps	%xmm1, 1968(%rsp)
	movaps	%xmm2, 1984(%rsp)
	movaps	%xmm3, 2000(%rsp)
	leaq	1744(%rsp), %rdi
	movq	1872(%rsp), %rsi
	leaq	1952(%rsp), %rdx
	movl	$64, %ecx
	movq	%rbx, %r8
	callq	blake2_digest..buffer..digest_into..33c1e97afcdf8a5d_1_v2
	movq	%rax, 1872(%rsp)
	movb	$1, 1736(%rsp)
	leaq	928(%rsp), %r14
	movl	$280, %edx
	movq	%r14, %rdi
	movq	%rbx, %rsi
	vj_c_call	memcpy
	leaq	1072(%rsp), %rsi
	movq	1200(%rsp), %rdx
	movq	1056(%rsp), %rbx
	addq	%rdx, %rbx
	movq	%rbx, 1056(%rsp)
	xorps	%xmm0, %xmm0
	movaps	%xmm0, 1440(%rsp)
	movaps	%xmm0, 1456(%rsp)
	movaps	%xmm0, 1472(%rsp)
	movaps	%xmm0, 1488(%rsp)
	movaps	%xmm0, 1504(%rsp)
	movaps	%xmm0, 1520(%rsp)
	movaps	%xmm0, 1536(%rsp)
	movaps	%xmm0, 1552(%rsp)
	leaq	1440(%rsp), %r15
	movq	%r15, %rdi
	vj_c_call	memcpy
	xorps	%xmm0, %xmm0
	movups	%xmm0, 1072(%rsp)
	movups	%xmm0, 1088(%rsp)
	movups	%xmm0, 1104(%rsp)
	movups	%xmm0, 1120(%rsp)
	movups	%xmm0, 1136(%rsp)
	movups	%xmm0, 1152(%rsp)
	movups	%xmm0, 1168(%rsp)
	movups	%xmm0, 1184(%rsp)
	movq	$0, 1200(%rsp)
	movl	1064(%rsp), %r8d
	movq	%r14, %rdi
	movq	%r15, %rsi
	movq	%rbx, %rdx
	movl	$1, %ecx
	vj_call	blake2_compress..compress..blake2b..compress_1_v2
	movups	928(%rsp), %xmm0
	movups	944(%rsp), %xmm1
	movq	168(%rsp), %rax
	movups	%xmm0, (%rax)
	movups	%xmm1, 16(%rax)
	jmp	17f
11:
	movq	48(%rsp), %r12
	movq	%r14, 16(%rsp)
	xorl	%esi, %esi
	cmpq	%rcx, %r13
	jae	16f
12:
	xorl	%eax, %eax
	movq	%r13, %r14
	jmp	15f
	.p2align	4
13:
	leaq	384(%rsp), %rdi
	movq	%r12, %rdx
	movq	%r13, %rcx
	leaq	240(%rsp), %r14
	movq	%r14, %r8
	callq	blake2_digest..buffer..digest_into..33c1e97afcdf8a5d_1_v2
	movq	%rax, 512(%rsp)
	movq	232(%rsp), %rax
	incq	%rax
	movq	192(%rsp), %rdx
	movq	216(%rsp), %rbx
	movd	.L1_v2_CPI211_7(%rip), %xmm1
	punpckldq	224(%rsp), %xmm1
	xorps	%xmm0, %xmm0
	movaps	%xmm0, 944(%rsp)
	movaps	%xmm0, 928(%rsp)
	movq	%rax, %xmm0
	punpcklqdq	%xmm0, %xmm1
	movdqa	%xmm1, 16(%rsp)
	leaq	928(%rsp), %rdi
	leaq	176(%rsp), %rsi
	vj_c_call	memcpy
	leaq	944(%rsp), %rdi
	leaq	200(%rsp), %rsi
	movq	%rbx, %rdx
	vj_c_call	memcpy
	movaps	928(%rsp), %xmm1
	movaps	944(%rsp), %xmm2
	movaps	16(%rsp), %xmm0
	xorps	.L1_v2_CPI211_3(%rip), %xmm0
	movaps	%xmm0, 16(%rsp)
	xorps	.L1_v2_CPI211_1(%rip), %xmm1
	movaps	%xmm1, 48(%rsp)
	xorps	.L1_v2_CPI211_2(%rip), %xmm2
	movaps	%xmm2, 64(%rsp)
	leaq	928(%rsp), %rdi
	movl	$280, %edx
	movq	%r14, %rsi
	vj_c_call	memcpy
	movaps	.L1_v2_CPI211_4(%rip), %xmm0
	movaps	%xmm0, 256(%rsp)
	movaps	16(%rsp), %xmm1
	movaps	%xmm1, 240(%rsp)
	movaps	64(%rsp), %xmm3
	movaps	%xmm3, 288(%rsp)
	movaps	48(%rsp), %xmm2
	movaps	%xmm2, 272(%rsp)
	movaps	%xmm0, 320(%rsp)
	movaps	%xmm1, 304(%rsp)
	movaps	%xmm3, 352(%rsp)
	movaps	%xmm2, 336(%rsp)
	leaq	200(%rsp), %rax
	xorps	%xmm0, %xmm0
	movups	%xmm0, 168(%rax)
	movups	%xmm0, 184(%rax)
	movups	%xmm0, 200(%rax)
	movups	%xmm0, 216(%rax)
	movups	%xmm0, 232(%rax)
	movups	%xmm0, 248(%rax)
	movups	%xmm0, 264(%rax)
	movups	%xmm0, 280(%rax)
	movups	%xmm0, 296(%rax)
	movq	$0, 312(%rax)
	movq	1200(%rsp), %rdx
	movq	1056(%rsp), %r14
	addq	%rdx, %r14
	movq	%r14, 1056(%rsp)
	movaps	%xmm0, 1600(%rsp)
	movaps	%xmm0, 1616(%rsp)
	movaps	%xmm0, 1632(%rsp)
	movaps	%xmm0, 1648(%rsp)
	movaps	%xmm0, 1664(%rsp)
	movaps	%xmm0, 1680(%rsp)
	movaps	%xmm0, 1696(%rsp)
	movaps	%xmm0, 1712(%rsp)
	leaq	1600(%rsp), %rbx
	movq	%rbx, %rdi
	leaq	1072(%rsp), %r15
	movq	%r15, %rsi
	vj_c_call	memcpy
	xorps	%xmm0, %xmm0
	movups	%xmm0, (%r15)
	movups	%xmm0, 16(%r15)
	movups	%xmm0, 32(%r15)
	movups	%xmm0, 48(%r15)
	movups	%xmm0, 64(%r15)
	movups	%xmm0, 80(%r15)
	movups	%xmm0, 96(%r15)
	movups	%xmm0, 112(%r15)
	movq	$0, 128(%r15)
	movl	1064(%rsp), %r8d
	leaq	928(%rsp), %rdi
	movq	%rbx, %rsi
	movq	%r14, %rdx
	movl	$1, %ecx
	vj_call	blake2_compress..compress..blake2b..compress_1_v2
	movups	928(%rsp), %xmm0
	movups	944(%rsp), %xmm1
	movups	960(%rsp), %xmm2
	movups	976(%rsp), %xmm3
	movaps	%xmm0, 928(%rsp)
	movaps	%xmm1, 944(%rsp)
	movaps	%xmm2, 960(%rsp)
	movaps	%xmm3, 976(%rsp)
	movq	792(%rsp), %rsi
	leaq	928(%rsp), %rdx
	movl	$64, %ecx
	leaq	664(%rsp), %rdi
	leaq	520(%rsp), %r8
	callq	blake2_digest..buffer..digest_into..33c1e97afcdf8a5d_1_v2
	movq	%rax, 16(%rsp)
	movq	%rax, 792(%rsp)
	movq	232(%rsp), %r15
	incq	%r15
	movq	%r15, 232(%rsp)
	movl	224(%rsp), %edx
	movq	368(%rsp), %rax
	movq	512(%rsp), %rsi
14:
	movq	40(%rsp), %rcx
	subq	%r13, %rcx
	addq	%r13, %r12
	movl	%edx, %r14d
	movq	%r14, %r13
	subq	%rax, %r13
	subq	%rsi, %r13
	cmpq	%rcx, %r13
	jae	16f
15:
	addq	%rsi, %rax
	movq	%rcx, 40(%rsp)
	jne	13b
	leaq	(,%r14,4), %rax
	cmpq	%rcx, %rax
	jae	13b
	leaq	928(%rsp), %rbx
	movl	$512, %edx
	movq	%rbx, %rdi
	xorl	%esi, %esi
	vj_c_call	memset
	leaq	176(%rsp), %rdi
	movq	%r15, %rsi
	movq	%r12, %rdx
	movq	%rbx, %r8
	vj_call	blake2_tree..nodes..Nodes..hash_next_1_v2
	movl	$64, %ecx
	leaq	664(%rsp), %rdi
	movq	16(%rsp), %rsi
	movq	%rbx, %rdx
	leaq	520(%rsp), %r8
	callq	blake2_digest..buffer..digest_into..33c1e97afcdf8a5d_1_v2
	movq	%rax, 16(%rsp)
	movq	%rax, 792(%rsp)
	movq	232(%rsp), %r15
	incq	%r15
	movq	%r15, 232(%rsp)
	movq	192(%rsp), %rdx
	movq	216(%rsp), %rbx
	movd	.L1_v2_CPI211_7(%rip), %xmm1
	punpckldq	224(%rsp), %xmm1
	movl	224(%rsp), %r13d
	xorps	%xmm0, %xmm0
	movaps	%xmm0, 1616(%rsp)
	movaps	%xmm0, 1600(%rsp)
	movq	%r15, %xmm0
	punpcklqdq	%xmm0, %xmm1
	movdqa	%xmm1, 48(%rsp)
	leaq	1600(%rsp), %rdi
	leaq	176(%rsp), %rsi
	vj_c_call	memcpy
	leaq	1616(%rsp), %rdi
	leaq	200(%rsp), %rsi
	movq	%rbx, %rdx
	vj_c_call	memcpy
	movl	%r13d, %edx
	xorl	%esi, %esi
	movaps	1600(%rsp), %xmm0
	movaps	1616(%rsp), %xmm1
	movaps	48(%rsp), %xmm3
	xorps	.L1_v2_CPI211_3(%rip), %xmm3
	xorps	.L1_v2_CPI211_1(%rip), %xmm0
	xorps	.L1_v2_CPI211_2(%rip), %xmm1
	movaps	.L1_v2_CPI211_4(%rip), %xmm2
	movaps	%xmm2, 256(%rsp)
	movaps	%xmm3, 240(%rsp)
	movaps	%xmm1, 288(%rsp)
	movaps	%xmm0, 272(%rsp)
	movaps	%xmm2, 320(%rsp)
	movaps	%xmm3, 304(%rsp)
	movaps	%xmm1, 352(%rsp)
	movaps	%xmm0, 336(%rsp)
	leaq	200(%rsp), %rax
	xorps	%xmm0, %xmm0
	movups	%xmm0, 296(%rax)
	movups	%xmm0, 280(%rax)
	movups	%xmm0, 264(%rax)
	movups	%xmm0, 248(%rax)
	movups	%xmm0, 232(%rax)
	movups	%xmm0, 216(%rax)
	movups	%xmm0, 200(%rax)
	movups	%xmm0, 184(%rax)
	movups	%xmm0, 168(%rax)
	movq	$0, 312(%rax)
	xorl	%eax, %eax
	movq	%r14, %r13
	jmp	14b
16:
	leaq	384(%rsp), %rdi
	movq	%r12, %rdx
	leaq	240(%rsp), %rbx
	movq	%rbx, %r8
	callq	blake2_digest..buffer..digest_into..33c1e97afcdf8a5d_1_v2
	movq	%rax, 512(%rsp)
	leaq	928(%rsp), %r14
	movl	$136, %edx
	movq	%r14, %rdi
	movq	%rbx, %rsi
	vj_c_call	memcpy
	leaq	1065(%rsp), %rdi
	leaq	377(%rsp), %rsi
	movl	$143, %edx
	vj_c_call	memcpy
	leaq	1600(%rsp), %rbx
	movl	$280, %edx
	movq	%rbx, %rdi
	leaq	520(%rsp), %rsi
	vj_c_call	memcpy
	movb	$1, 1064(%rsp)
	leaq	1072(%rsp), %rsi
	movq	1200(%rsp), %rdx
	movq	1056(%rsp), %r15
	addq	%rdx, %r15
	movq	%r15, 1056(%rsp)
	xorps	%xmm0, %xmm0
	movaps	%xmm0, 1440(%rsp)
	movaps	%xmm0, 1456(%rsp)
	movaps	%xmm0, 1472(%rsp)
	movaps	%xmm0, 1488(%rsp)
	movaps	%xmm0, 1504(%rsp)
	movaps	%xmm0, 1520(%rsp)
	movaps	%xmm0, 1536(%rsp)
	movaps	%xmm0, 1552(%rsp)
	leaq	1440(%rsp), %r12
	movq	%r12, %rdi
	vj_c_call	memcpy
	xorps	%xmm0, %xmm0
	movups	%xmm0, 1072(%rsp)
	movups	%xmm0, 1088(%rsp)
	movups	%xmm0, 1104(%rsp)
	movups	%xmm0, 1120(%rsp)
	movups	%xmm0, 1136(%rsp)
	movups	%xmm0, 1152(%rsp)
	movups	%xmm0, 1168(%rsp)
	movups	%xmm0, 1184(%rsp)
	movq	$0, 1200(%rsp)
	movq	%r14, %rdi
	movq	%r12, %rsi
	movq	%r15, %rdx
	movl	$1, %ecx
	movl	$1, %r8d
	vj_call	blake2_compress..compress..blake2b..compress_1_v2
	movups	928(%rsp), %xmm0
	movups	944(%rsp), %xmm1
	movups	960(%rsp), %xmm2
	movups	976(%rsp), %xmm3
	movaps	%xmm0, 1952(%rsp)
	movaps	%xmm1, 1968(%rsp)
	movaps	%xmm2, 1984(%rsp)
	movaps	%xmm3, 2000(%rsp)
	leaq	1744(%rsp), %rdi
	movq	1872(%rsp), %rsi
	leaq	1952(%rsp), %rdx
	movl	$64, %ecx
	movq	%rbx, %r8
	callq	blake2_digest..buffer..digest_into..33c1e97afcdf8a5d_1_v2
	movq	%rax, 1872(%rsp)
	movb	$1, 1736(%rsp)
	leaq	928(%rsp), %r14
	movl	$280, %edx
	movq	%r14, %rdi
	movq	%rbx, %rsi
	vj_c_call	memcpy
	leaq	1072(%rsp), %rsi
	movq	1200(%rsp), %rdx
	movq	1056(%rsp), %rbx
	addq	%rdx, %rbx
	movq	%rbx, 1056(%rsp)
	xorps	%xmm0, %xmm0
	movaps	%xmm0, 1440(%rsp)
	movaps	%xmm0, 1456(%rsp)
	movaps	%xmm0, 1472(%rsp)
	movaps	%xmm0, 1488(%rsp)
	movaps	%xmm0, 1504(%rsp)
	movaps	%xmm0, 1520(%rsp)
	movaps	%xmm0, 1536(%rsp)
	movaps	%xmm0, 1552(%rsp)
	leaq	1440(%rsp), %r15
	movq	%r15, %rdi
	vj_c_call	memcpy
	xorps	%xmm0, %xmm0
	movups	%xmm0, 1072(%rsp)
	movups	%xmm0, 1088(%rsp)
	movups	%xmm0, 1104(%rsp)
	movups	%xmm0, 1120(%rsp)
	movups	%xmm0, 1136(%rsp)
	movups	%xmm0, 1152(%rsp)
	movups	%xmm0, 1168(%rsp)
	movups	%xmm0, 1184(%rsp)
	movq	$0, 1200(%rsp)
	movl	1064(%rsp), %r8d
	movq	%r14, %rdi
	movq	%r15, %rsi
	movq	%rbx, %rdx
	movl	$1, %ecx
	vj_call	blake2_compress..compress..blake2b..compress_1_v2
	movups	928(%rsp), %xmm0
	movups	944(%rsp), %xmm1
	movups	960(%rsp), %xmm2
	movups	976(%rsp), %xmm3
	movq	168(%rsp), %rax
	movups	%xmm0, (%rax)
	movups	%xmm1, 16(%rax)
	movups	%xmm2, 32(%rax)
	movups	%xmm3, 48(%rax)
17:
	xorl	%eax, %eax
18:
	leaq	-40(%rbp), %rsp
	popq	%rbx
	popq	%r12
	popq	%r13
	popq	%r14
	popq	%r15
	popq	%rbp
	retq
	vj_end	vulfsjor_ffi_tree_root_1_v2

	vj_data	static.2_1_v2
.L1_v2_static.2:

