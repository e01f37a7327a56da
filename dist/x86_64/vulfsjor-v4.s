/* Made by tools/dist.sh from the proved crate blake2_ffi. dist/README.md says how. */
	vj_function	blake2_ffi..blake2b..finalize_1_v4
	pushq	%rbx
	movq	%rdi, %rbx
	callq	blake2_state..blake2b..State..write_digest_1_v4
	vxorps	%xmm0, %xmm0, %xmm0
	vmovups	%ymm0, 312(%rbx)
	vmovups	%ymm0, 288(%rbx)
	vmovups	%ymm0, 256(%rbx)
	vmovups	%ymm0, 224(%rbx)
	vmovups	%ymm0, 192(%rbx)
	vmovups	%ymm0, 160(%rbx)
	vmovups	%ymm0, 128(%rbx)
	vmovups	%ymm0, 96(%rbx)
	vmovups	%ymm0, 64(%rbx)
	vmovups	%ymm0, 32(%rbx)
	vmovups	%ymm0, (%rbx)
	popq	%rbx
	vzeroupper
	retq
	vj_end	blake2_ffi..blake2b..finalize_1_v4

	vj_function	blake2_state..blake2b..State..write_digest_1_v4
	pushq	%r15
	pushq	%r14
	pushq	%r12
	pushq	%rbx
	subq	$264, %rsp
	movq	%rsi, %rbx
	movq	%rdi, %r14
	vxorps	%xmm0, %xmm0, %xmm0
	vmovups	%ymm0, 32(%rsp)
	vmovups	%ymm0, (%rsp)
	vmovups	(%rdi), %ymm1
	vmovups	32(%rdi), %ymm2
	vmovups	%ymm1, 64(%rsp)
	vmovups	%ymm2, 96(%rsp)
	movl	136(%rdi), %r15d
	leaq	152(%rdi), %rsi
	vmovups	%ymm0, 224(%rsp)
	vmovups	%ymm0, 192(%rsp)
	vmovups	%ymm0, 160(%rsp)
	vmovups	%ymm0, 128(%rsp)
	leaq	128(%rsp), %r12
	movq	%r12, %rdi
	movq	%r15, %rdx
	vzeroupper
	vj_c_call	memcpy
	xorl	%r8d, %r8d
	cmpl	$0, 148(%r14)
	setne	%r8b
	addq	128(%r14), %r15
	leaq	64(%rsp), %rdi
	movq	%r12, %rsi
	movq	%r15, %rdx
	movl	$1, %ecx
	vj_call	blake2_compress..compress..blake2b..compress_1_v4
	vmovups	64(%rsp), %ymm0
	vmovups	%ymm0, (%rsp)
	vmovups	96(%rsp), %ymm0
	vmovups	%ymm0, 32(%rsp)
	movl	144(%r14), %edx
	movq	%rsp, %rsi
	movq	%rbx, %rdi
	vzeroupper
	vj_c_call	memcpy
	addq	$264, %rsp
	popq	%rbx
	popq	%r12
	popq	%r14
	popq	%r15
	retq
	vj_end	blake2_state..blake2b..State..write_digest_1_v4

	vj_constants	32
	.p2align	5, 0x0
.L1_v4_CPI2_0:
	.quad	0
	.quad	0
	.quad	-1
	.quad	0
.L1_v4_CPI2_1:
	.quad	0
	.quad	0
	.quad	0
	.quad	-1
.L1_v4_CPI2_2:
	.quad	1
	.quad	3
	.quad	5
	.quad	7
.L1_v4_CPI2_3:
	.quad	5840696475078001361
	.quad	-7276294671716946913
	.quad	2270897969802886507
	.quad	6620516959819538809
.L1_v4_CPI2_4:
	.quad	7640891576956012808
	.quad	-4942790177534073029
	.quad	4354685564936845355
	.quad	-6534734903238641935
.L1_v4_CPI2_5:
	.quad	2
	.quad	4
	.quad	6
	.quad	0
.L1_v4_CPI2_6:
	.quad	2
	.quad	0
	.quad	3
	.quad	7
.L1_v4_CPI2_7:
	.quad	4
	.quad	1
	.quad	0
	.zero	8
.L1_v4_CPI2_8:
	.quad	3
	.quad	4
	.quad	2
	.zero	8
.L1_v4_CPI2_9:
	.quad	4
	.quad	0
	.quad	2
	.zero	8
.L1_v4_CPI2_10:
	.quad	1
	.quad	2
	.quad	7
	.zero	8
.L1_v4_CPI2_11:
	.quad	0
	.quad	1
	.quad	4
	.quad	6
.L1_v4_CPI2_12:
	.quad	2
	.quad	3
	.quad	5
	.quad	4
.L1_v4_CPI2_13:
	.quad	4
	.quad	3
	.quad	0
	.zero	8
.L1_v4_CPI2_15:
	.quad	2
	.quad	3
	.quad	0
	.quad	4
.L1_v4_CPI2_16:
	.quad	4
	.quad	2
	.quad	3
	.zero	8
.L1_v4_CPI2_17:
	.quad	5
	.quad	0
	.quad	3
	.zero	8
.L1_v4_CPI2_18:
	.quad	0
	.quad	1
	.quad	2
	.quad	4
.L1_v4_CPI2_19:
	.quad	0
	.quad	3
	.quad	1
	.quad	7
.L1_v4_CPI2_20:
	.quad	2
	.quad	3
	.quad	7
	.quad	6
.L1_v4_CPI2_21:
	.quad	1
	.quad	7
	.quad	0
	.zero	8
.L1_v4_CPI2_22:
	.quad	2
	.quad	0
	.quad	1
	.quad	7
.L1_v4_CPI2_23:
	.quad	1
	.quad	6
	.quad	3
	.quad	0
.L1_v4_CPI2_24:
	.quad	6
	.quad	0
	.quad	2
	.quad	1
.L1_v4_CPI2_25:
	.quad	0
	.quad	2
	.quad	1
	.quad	7
.L1_v4_CPI2_26:
	.quad	0
	.quad	1
	.quad	6
	.quad	4
	vj_constants	16
	.p2align	4, 0x0
.L1_v4_CPI2_14:
	.quad	1
	.quad	5
	vj_shared	blake2_compress..compress..blake2b..compress_1_v4
	vpxor	%xmm0, %xmm0, %xmm0
	testb	$1, %cl
	jne	1f
	vpxor	%xmm1, %xmm1, %xmm1
	jmp	2f
1:
	vmovdqa	.L1_v4_CPI2_0(%rip), %ymm1
2:
	vmovdqu	(%rsi), %ymm10
	vmovdqu	32(%rsi), %ymm11
	vmovdqu	64(%rsi), %ymm12
	vmovdqu	96(%rsi), %ymm13
	vmovdqu	(%rdi), %ymm3
	vmovdqu64	32(%rdi), %ymm19
	testb	$1, %r8b
	je	3f
	vmovdqa	.L1_v4_CPI2_1(%rip), %ymm0
3:
	subq	$248, %rsp
	vmovq	%rdx, %xmm2
	vpternlogq	$150, %ymm1, %ymm0, %ymm2
	vpunpcklqdq	%ymm11, %ymm10, %ymm23
	vpermq	$216, %ymm23, %ymm1
	vmovdqu	%ymm1, 16(%rsp)
	vmovdqa64	.L1_v4_CPI2_2(%rip), %ymm27
	vpermi2q	%ymm11, %ymm10, %ymm27
	vpaddq	%ymm19, %ymm3, %ymm0
	vpaddq	%ymm1, %ymm0, %ymm0
	vpternlogq	$150, .L1_v4_CPI2_3(%rip), %ymm0, %ymm2
	vprolq	$32, %ymm2, %ymm1
	vpaddq	.L1_v4_CPI2_4(%rip), %ymm1, %ymm2
	vmovdqu	%ymm3, 208(%rsp)
	vpxorq	%ymm19, %ymm2, %ymm3
	vprolq	$40, %ymm3, %ymm3
	vpaddq	%ymm27, %ymm0, %ymm0
	vpaddq	%ymm3, %ymm0, %ymm0
	vpxor	%ymm1, %ymm0, %ymm1
	vprolq	$48, %ymm1, %ymm1
	vpaddq	%ymm2, %ymm1, %ymm2
	vpxor	%ymm3, %ymm2, %ymm3
	vprolq	$1, %ymm3, %ymm3
	vpermq	$147, %ymm0, %ymm0
	vpermq	$57, %ymm2, %ymm2
	vpermq	$78, %ymm1, %ymm1
	vmovdqa64	.L1_v4_CPI2_5(%rip), %ymm28
	vpermi2q	%ymm12, %ymm13, %ymm28
	vmovdqu64	112(%rsi), %xmm18
	vmovdqu	(%rsi), %xmm15
	vmovdqu64	32(%rsi), %xmm20
	vpunpckhqdq	%ymm12, %ymm13, %ymm24
	vpermq	$54, %ymm24, %ymm4
	vmovdqu	%ymm4, 48(%rsp)
	vpaddq	%ymm28, %ymm0, %ymm0
	vpaddq	%ymm3, %ymm0, %ymm0
	vpxor	%ymm1, %ymm0, %ymm1
	vprolq	$32, %ymm1, %ymm1
	vpaddq	%ymm2, %ymm1, %ymm2
	vpxor	%ymm3, %ymm2, %ymm3
	vprolq	$40, %ymm3, %ymm3
	vpaddq	%ymm4, %ymm0, %ymm0
	vpaddq	%ymm3, %ymm0, %ymm0
	vpxor	%ymm1, %ymm0, %ymm1
	vprolq	$48, %ymm1, %ymm1
	vpaddq	%ymm2, %ymm1, %ymm2
	vpxor	%ymm3, %ymm2, %ymm3
	vprolq	$1, %ymm3, %ymm3
	vpermq	$57, %ymm0, %ymm4
	vpermq	$147, %ymm2, %ymm2
	vpermq	$78, %ymm1, %ymm5
	vpunpcklqdq	%xmm20, %xmm18, %xmm0
	vpbroadcastq	72(%rsi), %ymm1
	vpblendd	$240, %ymm1, %ymm0, %ymm0
	vmovdqu64	96(%rsi), %xmm25
	vinserti32x4	$1, %xmm25, %ymm0, %ymm1
	vpblendd	$192, %ymm1, %ymm0, %ymm6
	vmovdqu	%ymm6, 80(%rsp)
	vpbroadcastq	48(%rsi), %ymm7
	vpblendd	$204, %ymm13, %ymm12, %ymm0
	vmovdqa	.L1_v4_CPI2_6(%rip), %ymm8
	vpermt2q	%ymm7, %ymm8, %ymm0
	vmovdqu	%ymm0, 144(%rsp)
	vpaddq	%ymm6, %ymm4, %ymm4
	vpaddq	%ymm3, %ymm4, %ymm4
	vpxor	%ymm5, %ymm4, %ymm5
	vprolq	$32, %ymm5, %ymm5
	vpaddq	%ymm2, %ymm5, %ymm2
	vpxor	%ymm3, %ymm2, %ymm3
	vprolq	$40, %ymm3, %ymm3
	vpaddq	%ymm0, %ymm4, %ymm4
	vpaddq	%ymm3, %ymm4, %ymm4
	vpxor	%ymm5, %ymm4, %ymm5
	vprolq	$48, %ymm5, %ymm5
	vpaddq	%ymm2, %ymm5, %ymm2
	vpxor	%ymm3, %ymm2, %ymm3
	vprolq	$1, %ymm3, %ymm3
	vpermq	$147, %ymm4, %ymm4
	vpermq	$57, %ymm2, %ymm14
	vpermq	$78, %ymm5, %ymm5
	vmovdqa	.L1_v4_CPI2_7(%rip), %ymm8
	vpbroadcastq	40(%rsi), %ymm2
	vpermi2q	%ymm2, %ymm10, %ymm8
	vpblendd	$192, %ymm12, %ymm8, %ymm6
	vmovdqu	%ymm6, 112(%rsp)
	vmovdqa	.L1_v4_CPI2_8(%rip), %ymm8
	vpermi2q	%ymm13, %ymm10, %ymm8
	vpblendd	$192, %ymm11, %ymm8, %ymm0
	vmovdqu	%ymm0, 176(%rsp)
	vpaddq	%ymm6, %ymm4, %ymm4
	vpaddq	%ymm3, %ymm4, %ymm4
	vpxor	%ymm5, %ymm4, %ymm5
	vprolq	$32, %ymm5, %ymm5
	vpaddq	%ymm5, %ymm14, %ymm8
	vpxor	%ymm3, %ymm8, %ymm3
	vprolq	$40, %ymm3, %ymm3
	vpaddq	%ymm0, %ymm4, %ymm4
	vpaddq	%ymm3, %ymm4, %ymm4
	vpxor	%ymm5, %ymm4, %ymm5
	vprolq	$48, %ymm5, %ymm5
	vpaddq	%ymm5, %ymm8, %ymm8
	vpxor	%ymm3, %ymm8, %ymm3
	vprolq	$1, %ymm3, %ymm3
	vpermq	$57, %ymm4, %ymm4
	vpermq	$147, %ymm8, %ymm8
	vpermq	$78, %ymm5, %ymm14
	vmovdqu	80(%rsi), %xmm0
	vmovdqa	%xmm0, (%rsp)
	valignq	$1, %xmm0, %xmm25, %xmm9
	vpblendd	$240, %ymm2, %ymm9, %ymm9
	vpblendd	$192, %ymm13, %ymm9, %ymm9
	vmovdqa	.L1_v4_CPI2_9(%rip), %ymm6
	vpermi2q	%ymm12, %ymm10, %ymm6
	vpblendd	$192, %ymm1, %ymm6, %ymm1
	vpaddq	%ymm4, %ymm9, %ymm4
	vpaddq	%ymm3, %ymm4, %ymm4
	vpxor	%ymm4, %ymm14, %ymm6
	vprolq	$32, %ymm6, %ymm6
	vpaddq	%ymm6, %ymm8, %ymm8
	vpxor	%ymm3, %ymm8, %ymm3
	vprolq	$40, %ymm3, %ymm3
	vpaddq	%ymm1, %ymm4, %ymm1
	vpaddq	%ymm3, %ymm1, %ymm1
	vpxor	%ymm6, %ymm1, %ymm4
	vprolq	$48, %ymm4, %ymm6
	vpaddq	%ymm6, %ymm8, %ymm8
	vpxor	%ymm3, %ymm8, %ymm3
	vprolq	$1, %ymm3, %ymm9
	vpermq	$147, %ymm1, %ymm1
	vmovdqa	.L1_v4_CPI2_10(%rip), %ymm3
	vpermi2q	%ymm10, %ymm12, %ymm3
	vpblendd	$192, %ymm11, %ymm3, %ymm3
	vpbroadcastq	112(%rsi), %ymm4
	vpunpcklqdq	%ymm4, %ymm11, %ymm14
	vpaddq	%ymm3, %ymm1, %ymm1
	vinserti128	$1, %xmm15, %ymm0, %ymm0
	vpblendd	$192, %ymm0, %ymm14, %ymm14
	vmovdqa64	%ymm0, %ymm22
	vpaddq	%ymm1, %ymm9, %ymm1
	vpaddq	%ymm1, %ymm14, %ymm14
	vpbroadcastq	104(%rsi), %ymm0
	vpunpckhqdq	%ymm10, %ymm11, %ymm5
	vperm2i128	$49, %ymm0, %ymm5, %ymm0
	vpermq	$78, %ymm6, %ymm5
	vpxor	%ymm5, %ymm1, %ymm1
	vmovdqu64	64(%rsi), %xmm21
	vpermq	$57, %ymm8, %ymm5
	vprolq	$32, %ymm1, %ymm1
	vpaddq	%ymm5, %ymm1, %ymm5
	vpxor	%ymm5, %ymm9, %ymm6
	vprolq	$40, %ymm6, %ymm6
	vpaddq	%ymm6, %ymm14, %ymm8
	vpxor	%ymm1, %ymm8, %ymm1
	vprolq	$48, %ymm1, %ymm1
	vpaddq	%ymm5, %ymm1, %ymm5
	vpxor	%ymm6, %ymm5, %ymm6
	vprolq	$1, %ymm6, %ymm6
	vpermq	$57, %ymm8, %ymm8
	vpermq	$78, %ymm1, %ymm1
	vpblendd	$192, %ymm12, %ymm0, %ymm0
	vpaddq	%ymm0, %ymm8, %ymm0
	vpunpckhqdq	%xmm15, %xmm21, %xmm8
	vmovdqa	.L1_v4_CPI2_11(%rip), %ymm3
	vpermt2q	%ymm13, %ymm3, %ymm8
	vpaddq	%ymm6, %ymm0, %ymm0
	vpxor	%ymm1, %ymm0, %ymm1
	vpaddq	%ymm0, %ymm8, %ymm0
	vpalignr	$8, %ymm13, %ymm10, %ymm8
	vmovdqa	.L1_v4_CPI2_12(%rip), %ymm9
	vpermi2q	%ymm11, %ymm8, %ymm9
	vpermq	$147, %ymm5, %ymm5
	vprolq	$32, %ymm1, %ymm1
	vpaddq	%ymm5, %ymm1, %ymm5
	vpxor	%ymm6, %ymm5, %ymm6
	vprolq	$40, %ymm6, %ymm6
	vpaddq	%ymm6, %ymm0, %ymm0
	vpxor	%ymm1, %ymm0, %ymm1
	vpermq	$147, %ymm0, %ymm0
	vpaddq	%ymm0, %ymm9, %ymm0
	vprolq	$48, %ymm1, %ymm1
	vpaddq	%ymm5, %ymm1, %ymm5
	vpxor	%ymm6, %ymm5, %ymm6
	vprolq	$1, %ymm6, %ymm6
	vpunpcklqdq	%ymm7, %ymm12, %ymm8
	vpbroadcastq	%xmm15, %ymm14
	vpblendd	$192, %ymm14, %ymm8, %ymm8
	vpaddq	%ymm6, %ymm0, %ymm0
	vpaddq	%ymm0, %ymm8, %ymm8
	vpermq	$78, %ymm1, %ymm1
	vpxor	%ymm1, %ymm0, %ymm0
	vpermq	$57, %ymm5, %ymm1
	vprolq	$32, %ymm0, %ymm30
	vpaddq	%ymm1, %ymm30, %ymm29
	vpxorq	%ymm6, %ymm29, %ymm0
	vprolq	$40, %ymm0, %ymm31
	vpaddq	%ymm31, %ymm8, %ymm17
	vpunpckhqdq	%xmm20, %xmm21, %xmm0
	vpblendd	$15, %ymm0, %ymm10, %ymm0
	vpbroadcastq	80(%rsi), %ymm1
	vpblendd	$192, %ymm1, %ymm0, %ymm0
	vpermq	$57, %ymm17, %ymm5
	vpaddq	%ymm0, %ymm5, %ymm16
	vpunpckhqdq	%ymm13, %ymm11, %ymm0
	vmovdqa64	.L1_v4_CPI2_19(%rip), %ymm26
	vpermi2q	%ymm1, %ymm0, %ymm26
	vpalignr	$8, %ymm10, %ymm13, %ymm0
	vpbroadcastq	88(%rsi), %ymm1
	vperm2i128	$49, %ymm1, %ymm0, %ymm0
	vpblendd	$192, %ymm7, %ymm0, %ymm0
	vpxorq	%ymm30, %ymm17, %ymm5
	vprolq	$48, %ymm5, %ymm5
	vpaddq	%ymm29, %ymm5, %ymm6
	vpxorq	%ymm31, %ymm6, %ymm7
	vprolq	$1, %ymm7, %ymm7
	vmovdqa	.L1_v4_CPI2_13(%rip), %ymm8
	vpermi2q	%ymm10, %ymm11, %ymm8
	vpblendd	$192, %ymm13, %ymm8, %ymm8
	vpaddq	%ymm7, %ymm16, %ymm9
	vpaddq	%ymm8, %ymm9, %ymm8
	vpermq	$78, %ymm5, %ymm5
	vpxor	%ymm5, %ymm9, %ymm5
	vpermq	$147, %ymm6, %ymm6
	vprolq	$32, %ymm5, %ymm5
	vpaddq	%ymm6, %ymm5, %ymm6
	vpxor	%ymm7, %ymm6, %ymm7
	vprolq	$40, %ymm7, %ymm7
	vpaddq	%ymm7, %ymm8, %ymm8
	vpermq	$147, %ymm8, %ymm9
	vpaddq	%ymm0, %ymm9, %ymm9
	vpunpckhqdq	%xmm25, %xmm21, %xmm0
	vpblendd	$240, %ymm2, %ymm0, %ymm2
	vpxor	%ymm5, %ymm8, %ymm0
	vprolq	$48, %ymm0, %ymm5
	vpaddq	%ymm6, %ymm5, %ymm6
	vpxor	%ymm7, %ymm6, %ymm0
	vprolq	$1, %ymm0, %ymm7
	vmovdqa	.L1_v4_CPI2_14(%rip), %xmm8
	vpermi2q	%ymm10, %ymm13, %ymm8
	vpbroadcastq	%xmm21, %ymm0
	vpblendd	$192, %ymm0, %ymm8, %ymm8
	vpaddq	%ymm7, %ymm9, %ymm9
	vpaddq	%ymm8, %ymm9, %ymm8
	vpermq	$78, %ymm5, %ymm5
	vpxor	%ymm5, %ymm9, %ymm5
	vmovdqa	.L1_v4_CPI2_15(%rip), %ymm9
	vpermi2q	%ymm12, %ymm23, %ymm9
	vpermq	$57, %ymm6, %ymm6
	vprolq	$32, %ymm5, %ymm5
	vpaddq	%ymm6, %ymm5, %ymm6
	vpxor	%ymm7, %ymm6, %ymm7
	vprolq	$40, %ymm7, %ymm7
	vpaddq	%ymm7, %ymm8, %ymm8
	vpxor	%ymm5, %ymm8, %ymm5
	vpermq	$57, %ymm8, %ymm8
	vpaddq	%ymm9, %ymm8, %ymm8
	vprolq	$48, %ymm5, %ymm5
	vpaddq	%ymm6, %ymm5, %ymm6
	vpxor	%ymm7, %ymm6, %ymm7
	vprolq	$1, %ymm7, %ymm7
	vmovdqa	.L1_v4_CPI2_16(%rip), %ymm9
	vpermi2q	%ymm13, %ymm12, %ymm9
	vpblendd	$192, %ymm10, %ymm9, %ymm9
	vpaddq	%ymm7, %ymm8, %ymm8
	vpaddq	%ymm9, %ymm8, %ymm9
	vpblendd	$192, %ymm4, %ymm2, %ymm2
	vpermq	$78, %ymm5, %ymm4
	vpxor	%ymm4, %ymm8, %ymm4
	vpermq	$147, %ymm6, %ymm5
	vprolq	$32, %ymm4, %ymm4
	vpaddq	%ymm5, %ymm4, %ymm5
	vpxor	%ymm7, %ymm5, %ymm6
	vprolq	$40, %ymm6, %ymm6
	vpaddq	%ymm6, %ymm9, %ymm7
	vmovdqa	.L1_v4_CPI2_17(%rip), %ymm8
	vpermi2q	%ymm10, %ymm11, %ymm8
	vpblendd	$192, %ymm13, %ymm8, %ymm8
	vpermq	$147, %ymm7, %ymm9
	vpaddq	%ymm8, %ymm9, %ymm8
	vpxor	%ymm4, %ymm7, %ymm4
	vprolq	$48, %ymm4, %ymm4
	vpaddq	%ymm5, %ymm4, %ymm5
	vpxor	%ymm6, %ymm5, %ymm6
	vprolq	$1, %ymm6, %ymm6
	vpermq	$78, %ymm4, %ymm4
	vpaddq	%ymm6, %ymm8, %ymm7
	vpxor	%ymm4, %ymm7, %ymm4
	vpaddq	%ymm2, %ymm7, %ymm2
	vpblendd	$12, %ymm10, %ymm13, %ymm7
	vmovdqa	.L1_v4_CPI2_18(%rip), %ymm8
	vpermi2q	%ymm11, %ymm7, %ymm8
	vpermq	$57, %ymm5, %ymm5
	vprolq	$32, %ymm4, %ymm4
	vpaddq	%ymm5, %ymm4, %ymm5
	vpxor	%ymm6, %ymm5, %ymm6
	vprolq	$40, %ymm6, %ymm6
	vpaddq	%ymm6, %ymm2, %ymm2
	vpxor	%ymm4, %ymm2, %ymm4
	vpermq	$57, %ymm2, %ymm2
	vpaddq	%ymm2, %ymm8, %ymm2
	vpunpcklqdq	%xmm15, %xmm21, %xmm7
	vprolq	$48, %ymm4, %ymm4
	vpaddq	%ymm5, %ymm4, %ymm5
	vpxor	%ymm6, %ymm5, %ymm6
	vprolq	$1, %ymm6, %ymm6
	vpermq	$147, %ymm5, %ymm5
	vpermq	$78, %ymm4, %ymm4
	vpaddq	%ymm6, %ymm2, %ymm2
	vpxor	%ymm4, %ymm2, %ymm4
	vprolq	$32, %ymm4, %ymm4
	vpaddq	%ymm5, %ymm4, %ymm5
	vpxor	%ymm6, %ymm5, %ymm6
	vprolq	$40, %ymm6, %ymm6
	vpaddq	%ymm26, %ymm2, %ymm2
	vpaddq	%ymm6, %ymm2, %ymm8
	vpblendd	$15, %ymm7, %ymm11, %ymm2
	vinserti32x4	$1, %xmm21, %ymm0, %ymm7
	vpblendd	$192, %ymm7, %ymm2, %ymm2
	vpermq	$147, %ymm8, %ymm9
	vpaddq	%ymm2, %ymm9, %ymm9
	vpalignr	$8, %ymm12, %ymm13, %ymm2
	vpbroadcastq	8(%rsi), %ymm3
	vperm2i128	$49, %ymm3, %ymm2, %ymm2
	vpblendd	$192, %ymm7, %ymm2, %ymm2
	vpxor	%ymm4, %ymm8, %ymm3
	vpunpckhqdq	%ymm11, %ymm12, %ymm4
	vmovdqa	.L1_v4_CPI2_20(%rip), %ymm7
	vpermi2q	%ymm10, %ymm4, %ymm7
	vprolq	$48, %ymm3, %ymm3
	vpaddq	%ymm5, %ymm3, %ymm4
	vpxor	%ymm6, %ymm4, %ymm5
	vprolq	$1, %ymm5, %ymm5
	vpermq	$57, %ymm4, %ymm4
	vpermq	$78, %ymm3, %ymm3
	vpaddq	%ymm5, %ymm9, %ymm6
	vpxor	%ymm3, %ymm6, %ymm3
	vprolq	$32, %ymm3, %ymm3
	vpaddq	%ymm4, %ymm3, %ymm4
	vpxor	%ymm5, %ymm4, %ymm5
	vprolq	$40, %ymm5, %ymm5
	vpaddq	%ymm7, %ymm6, %ymm6
	vpaddq	%ymm5, %ymm6, %ymm6
	vmovdqa	.L1_v4_CPI2_21(%rip), %ymm7
	vpermi2q	%ymm11, %ymm13, %ymm7
	vpblendd	$192, %ymm10, %ymm7, %ymm7
	vpermq	$57, %ymm6, %ymm8
	vpaddq	%ymm7, %ymm8, %ymm7
	vpxor	%ymm3, %ymm6, %ymm3
	vprolq	$48, %ymm3, %ymm3
	vpaddq	%ymm4, %ymm3, %ymm4
	vpxor	%ymm5, %ymm4, %ymm5
	vprolq	$1, %ymm5, %ymm5
	vpaddq	%ymm5, %ymm7, %ymm6
	vmovdqa64	%xmm20, %xmm7
	vpblendd	$3, 16(%rsi), %xmm7, %xmm7
	vpaddq	%ymm2, %ymm6, %ymm2
	vpbroadcastq	120(%rsi), %ymm8
	vpblendd	$240, %ymm8, %ymm7, %ymm7
	vpermq	$147, %ymm4, %ymm4
	vpermq	$78, %ymm3, %ymm3
	vpxor	%ymm3, %ymm6, %ymm3
	vprolq	$32, %ymm3, %ymm3
	vpaddq	%ymm4, %ymm3, %ymm4
	vpxor	%ymm5, %ymm4, %ymm5
	vprolq	$40, %ymm5, %ymm5
	vpaddq	%ymm5, %ymm2, %ymm2
	vpermq	$147, %ymm2, %ymm6
	vpblendd	$192, %ymm0, %ymm7, %ymm7
	vpaddq	%ymm7, %ymm6, %ymm6
	vpunpcklqdq	%ymm13, %ymm11, %ymm7
	vperm2i128	$49, %ymm1, %ymm7, %ymm1
	vpblendd	$192, %ymm14, %ymm1, %ymm1
	vpbroadcastq	24(%rsi), %ymm7
	vpunpckhqdq	%xmm21, %xmm18, %xmm8
	vpblendd	$240, %ymm7, %ymm8, %ymm7
	vpblendd	$192, %ymm0, %ymm7, %ymm7
	vpxor	%ymm3, %ymm2, %ymm0
	vmovdqa	(%rsp), %xmm8
	vpunpcklqdq	%xmm15, %xmm8, %xmm2
	vmovdqa	.L1_v4_CPI2_11(%rip), %ymm3
	vpermt2q	%ymm11, %ymm3, %ymm2
	vprolq	$48, %ymm0, %ymm0
	vpaddq	%ymm4, %ymm0, %ymm3
	vpxor	%ymm5, %ymm3, %ymm4
	vprolq	$1, %ymm4, %ymm4
	vpermq	$57, %ymm3, %ymm3
	vpermq	$78, %ymm0, %ymm0
	vpaddq	%ymm4, %ymm6, %ymm5
	vpxor	%ymm0, %ymm5, %ymm0
	vprolq	$32, %ymm0, %ymm0
	vpaddq	%ymm3, %ymm0, %ymm3
	vpxor	%ymm4, %ymm3, %ymm4
	vprolq	$40, %ymm4, %ymm4
	vpaddq	%ymm2, %ymm5, %ymm2
	vpaddq	%ymm4, %ymm2, %ymm2
	vpermq	$57, %ymm2, %ymm5
	vpaddq	%ymm1, %ymm5, %ymm5
	vpxor	%ymm0, %ymm2, %ymm0
	vprolq	$48, %ymm0, %ymm2
	vpaddq	%ymm3, %ymm2, %ymm1
	vpxor	%ymm4, %ymm1, %ymm0
	vprolq	$1, %ymm0, %ymm0
	vpaddq	%ymm0, %ymm5, %ymm4
	vpaddq	%ymm7, %ymm4, %ymm7
	vpblendd	$12, %xmm8, %xmm15, %xmm3
	vmovdqa	.L1_v4_CPI2_26(%rip), %ymm5
	vpermi2q	%ymm13, %ymm3, %ymm5
	vpblendd	$240, %ymm12, %ymm13, %ymm3
	vmovdqa	.L1_v4_CPI2_22(%rip), %ymm6
	vpermi2q	%ymm22, %ymm3, %ymm6
	vpblendd	$204, %ymm11, %ymm12, %ymm3
	vmovdqa	.L1_v4_CPI2_6(%rip), %ymm8
	vpermt2q	%ymm22, %ymm8, %ymm3
	vpermq	$78, %ymm2, %ymm2
	vpxor	%ymm2, %ymm4, %ymm2
	vpermq	$147, %ymm1, %ymm1
	vprolq	$32, %ymm2, %ymm2
	vpaddq	%ymm1, %ymm2, %ymm1
	vpxor	%ymm0, %ymm1, %ymm0
	vprolq	$40, %ymm0, %ymm0
	vpaddq	%ymm0, %ymm7, %ymm4
	vpxor	%ymm2, %ymm4, %ymm2
	vprolq	$48, %ymm2, %ymm2
	vpaddq	%ymm1, %ymm2, %ymm1
	vpxor	%ymm0, %ymm1, %ymm0
	vprolq	$1, %ymm0, %ymm0
	vpermq	$147, %ymm4, %ymm4
	vpermq	$57, %ymm1, %ymm1
	vpermq	$78, %ymm2, %ymm2
	vpaddq	%ymm6, %ymm4, %ymm4
	vmovdqa	.L1_v4_CPI2_23(%rip), %ymm6
	vpermi2q	%ymm10, %ymm11, %ymm6
	vpaddq	%ymm0, %ymm4, %ymm4
	vpxor	%ymm2, %ymm4, %ymm2
	vprolq	$32, %ymm2, %ymm2
	vpaddq	%ymm1, %ymm2, %ymm1
	vpxor	%ymm0, %ymm1, %ymm0
	vprolq	$40, %ymm0, %ymm0
	vpaddq	%ymm6, %ymm4, %ymm4
	vpaddq	%ymm0, %ymm4, %ymm4
	vpermq	$57, %ymm4, %ymm6
	vpaddq	%ymm3, %ymm6, %ymm3
	vmovdqa	.L1_v4_CPI2_24(%rip), %ymm6
	vpermi2q	%ymm10, %ymm11, %ymm6
	vmovdqa	.L1_v4_CPI2_25(%rip), %ymm7
	vpermi2q	%ymm10, %ymm24, %ymm7
	vpxor	%ymm2, %ymm4, %ymm2
	vprolq	$48, %ymm2, %ymm2
	vpaddq	%ymm1, %ymm2, %ymm1
	vpxor	%ymm0, %ymm1, %ymm0
	vprolq	$1, %ymm0, %ymm0
	vpermq	$78, %ymm2, %ymm2
	vpaddq	%ymm0, %ymm3, %ymm3
	vpxor	%ymm2, %ymm3, %ymm2
	vpaddq	%ymm6, %ymm3, %ymm3
	vpermq	$147, %ymm1, %ymm1
	vprolq	$32, %ymm2, %ymm2
	vpaddq	%ymm1, %ymm2, %ymm1
	vpxor	%ymm0, %ymm1, %ymm0
	vprolq	$40, %ymm0, %ymm0
	vpaddq	%ymm0, %ymm3, %ymm3
	vpxor	%ymm2, %ymm3, %ymm2
	vpermq	$147, %ymm3, %ymm3
	vpaddq	%ymm7, %ymm3, %ymm3
	vprolq	$48, %ymm2, %ymm2
	vpaddq	%ymm1, %ymm2, %ymm1
	vpxor	%ymm0, %ymm1, %ymm0
	vprolq	$1, %ymm0, %ymm0
	vpermq	$78, %ymm2, %ymm2
	vpaddq	%ymm0, %ymm3, %ymm3
	vpxor	%ymm2, %ymm3, %ymm2
	vpaddq	%ymm5, %ymm3, %ymm3
	vpermq	$57, %ymm1, %ymm1
	vprolq	$32, %ymm2, %ymm2
	vpaddq	%ymm1, %ymm2, %ymm1
	vpxor	%ymm0, %ymm1, %ymm0
	vprolq	$40, %ymm0, %ymm0
	vpaddq	%ymm0, %ymm3, %ymm3
	vpxor	%ymm2, %ymm3, %ymm2
	vpermq	$57, %ymm3, %ymm3
	vpaddq	16(%rsp), %ymm3, %ymm3
	vprolq	$48, %ymm2, %ymm2
	vpaddq	%ymm1, %ymm2, %ymm1
	vpxor	%ymm0, %ymm1, %ymm0
	vprolq	$1, %ymm0, %ymm0
	vpermq	$78, %ymm2, %ymm2
	vpaddq	%ymm0, %ymm3, %ymm3
	vpxor	%ymm2, %ymm3, %ymm2
	vpaddq	%ymm27, %ymm3, %ymm3
	vpermq	$147, %ymm1, %ymm1
	vprolq	$32, %ymm2, %ymm2
	vpaddq	%ymm1, %ymm2, %ymm1
	vpxor	%ymm0, %ymm1, %ymm0
	vprolq	$40, %ymm0, %ymm0
	vpaddq	%ymm0, %ymm3, %ymm3
	vpxor	%ymm2, %ymm3, %ymm2
	vpermq	$147, %ymm3, %ymm3
	vpaddq	%ymm28, %ymm3, %ymm3
	vprolq	$48, %ymm2, %ymm2
	vpaddq	%ymm1, %ymm2, %ymm1
	vpxor	%ymm0, %ymm1, %ymm0
	vprolq	$1, %ymm0, %ymm0
	vpermq	$57, %ymm1, %ymm1
	vpermq	$78, %ymm2, %ymm2
	vpaddq	%ymm0, %ymm3, %ymm3
	vpxor	%ymm2, %ymm3, %ymm2
	vprolq	$32, %ymm2, %ymm2
	vpaddq	%ymm1, %ymm2, %ymm1
	vpxor	%ymm0, %ymm1, %ymm0
	vprolq	$40, %ymm0, %ymm0
	vpaddq	48(%rsp), %ymm3, %ymm3
	vpaddq	%ymm0, %ymm3, %ymm3
	vpermq	$57, %ymm3, %ymm4
	vpaddq	80(%rsp), %ymm4, %ymm4
	vpxor	%ymm2, %ymm3, %ymm2
	vprolq	$48, %ymm2, %ymm2
	vpaddq	%ymm1, %ymm2, %ymm1
	vpxor	%ymm0, %ymm1, %ymm0
	vprolq	$1, %ymm0, %ymm0
	vpaddq	%ymm0, %ymm4, %ymm3
	vpaddq	144(%rsp), %ymm3, %ymm4
	vpermq	$147, %ymm1, %ymm1
	vpermq	$78, %ymm2, %ymm2
	vpxor	%ymm2, %ymm3, %ymm2
	vprolq	$32, %ymm2, %ymm2
	vpaddq	%ymm1, %ymm2, %ymm1
	vpxor	%ymm0, %ymm1, %ymm0
	vprolq	$40, %ymm0, %ymm0
	vpaddq	%ymm0, %ymm4, %ymm3
	vpermq	$147, %ymm3, %ymm4
	vpaddq	112(%rsp), %ymm4, %ymm4
	vpxor	%ymm2, %ymm3, %ymm2
	vprolq	$48, %ymm2, %ymm2
	vpaddq	%ymm1, %ymm2, %ymm1
	vpxor	%ymm0, %ymm1, %ymm0
	vprolq	$1, %ymm0, %ymm0
	vpaddq	%ymm0, %ymm4, %ymm3
	vpaddq	176(%rsp), %ymm3, %ymm4
	vpermq	$57, %ymm1, %ymm1
	vpermq	$78, %ymm2, %ymm2
	vpxor	%ymm2, %ymm3, %ymm2
	vprolq	$32, %ymm2, %ymm2
	vpaddq	%ymm1, %ymm2, %ymm1
	vpxor	%ymm0, %ymm1, %ymm0
	vprolq	$40, %ymm0, %ymm0
	vpaddq	%ymm0, %ymm4, %ymm3
	vpxor	%ymm2, %ymm3, %ymm2
	vprolq	$48, %ymm2, %ymm2
	vpaddq	%ymm1, %ymm2, %ymm1
	vpermq	$57, %ymm3, %ymm3
	vpermq	$147, %ymm1, %ymm4
	vpternlogq	$150, 208(%rsp), %ymm3, %ymm4
	vpxor	%ymm0, %ymm1, %ymm0
	vprolq	$1, %ymm0, %ymm0
	vpermq	$78, %ymm2, %ymm1
	vpternlogq	$150, %ymm0, %ymm19, %ymm1
	vmovdqu	%ymm4, (%rdi)
	vmovdqu	%ymm1, 32(%rdi)
	addq	$248, %rsp
	vzeroupper
	vpxord	%xmm16, %xmm16, %xmm16
	vpxord	%xmm17, %xmm17, %xmm17
	vpxord	%xmm18, %xmm18, %xmm18
	vpxord	%xmm19, %xmm19, %xmm19
	vpxord	%xmm20, %xmm20, %xmm20
	vpxord	%xmm21, %xmm21, %xmm21
	vpxord	%xmm22, %xmm22, %xmm22
	vpxord	%xmm23, %xmm23, %xmm23
	vpxord	%xmm24, %xmm24, %xmm24
	vpxord	%xmm25, %xmm25, %xmm25
	vpxord	%xmm26, %xmm26, %xmm26
	vpxord	%xmm27, %xmm27, %xmm27
	vpxord	%xmm28, %xmm28, %xmm28
	vpxord	%xmm29, %xmm29, %xmm29
	vpxord	%xmm30, %xmm30, %xmm30
	vpxord	%xmm31, %xmm31, %xmm31
	retq
	vj_end	blake2_compress..compress..blake2b..compress_1_v4

	vj_function	blake2_digest..wiping..scrub_stack..1664_1_v4
	pushq	%rbx
	subq	$1664, %rsp
	movq	%rsp, %rbx
	movl	$1664, %edx
	movq	%rbx, %rdi
	xorl	%esi, %esi
	vj_c_call	memset
	movq	%rbx, %rdi
	callq	blake2_digest..wiping..settle..1664_1_v4
	addq	$1664, %rsp
	popq	%rbx
	vpxord	%xmm16, %xmm16, %xmm16
	vpxord	%xmm17, %xmm17, %xmm17
	vpxord	%xmm18, %xmm18, %xmm18
	vpxord	%xmm19, %xmm19, %xmm19
	vpxord	%xmm20, %xmm20, %xmm20
	vpxord	%xmm21, %xmm21, %xmm21
	vpxord	%xmm22, %xmm22, %xmm22
	vpxord	%xmm23, %xmm23, %xmm23
	vpxord	%xmm24, %xmm24, %xmm24
	vpxord	%xmm25, %xmm25, %xmm25
	vpxord	%xmm26, %xmm26, %xmm26
	vpxord	%xmm27, %xmm27, %xmm27
	vpxord	%xmm28, %xmm28, %xmm28
	vpxord	%xmm29, %xmm29, %xmm29
	vpxord	%xmm30, %xmm30, %xmm30
	vpxord	%xmm31, %xmm31, %xmm31
	retq
	vj_end	blake2_digest..wiping..scrub_stack..1664_1_v4

	vj_function	blake2_digest..wiping..settle..1664_1_v4
	vmovdqu	128(%rdi), %ymm0
	vmovdqu	160(%rdi), %ymm1
	vmovdqu	192(%rdi), %ymm2
	vpor	(%rdi), %ymm0, %ymm0
	vmovdqu	224(%rdi), %ymm3
	vmovdqu	256(%rdi), %ymm4
	vmovdqu	288(%rdi), %ymm5
	vmovdqu	320(%rdi), %ymm6
	vpternlogq	$254, 32(%rdi), %ymm1, %ymm5
	vpternlogq	$254, 64(%rdi), %ymm2, %ymm6
	vmovdqu	352(%rdi), %ymm1
	vpternlogq	$254, 96(%rdi), %ymm3, %ymm1
	vmovdqu	416(%rdi), %ymm2
	vmovdqu	448(%rdi), %ymm3
	vmovdqu	480(%rdi), %ymm7
	vpternlogq	$254, 384(%rdi), %ymm0, %ymm4
	vpternlogq	$254, 544(%rdi), %ymm5, %ymm2
	vpternlogq	$254, 576(%rdi), %ymm6, %ymm3
	vmovdqu	512(%rdi), %ymm0
	vpternlogq	$254, 608(%rdi), %ymm1, %ymm7
	vmovdqu	672(%rdi), %ymm1
	vmovdqu	704(%rdi), %ymm5
	vmovdqu	736(%rdi), %ymm6
	vpternlogq	$254, 640(%rdi), %ymm4, %ymm0
	vpternlogq	$254, 800(%rdi), %ymm2, %ymm1
	vpternlogq	$254, 832(%rdi), %ymm3, %ymm5
	vmovdqu	768(%rdi), %ymm2
	vpternlogq	$254, 864(%rdi), %ymm7, %ymm6
	vmovdqu	928(%rdi), %ymm3
	vmovdqu	960(%rdi), %ymm4
	vmovdqu	992(%rdi), %ymm7
	vpternlogq	$254, 896(%rdi), %ymm0, %ymm2
	vpternlogq	$254, 1056(%rdi), %ymm1, %ymm3
	vpternlogq	$254, 1088(%rdi), %ymm5, %ymm4
	vmovdqu	1024(%rdi), %ymm0
	vpternlogq	$254, 1120(%rdi), %ymm6, %ymm7
	vmovdqu	1184(%rdi), %ymm1
	vmovdqu	1216(%rdi), %ymm5
	vmovdqu	1248(%rdi), %ymm6
	vpternlogq	$254, 1152(%rdi), %ymm2, %ymm0
	vpternlogq	$254, 1312(%rdi), %ymm3, %ymm1
	vpternlogq	$254, 1344(%rdi), %ymm4, %ymm5
	vmovdqu	1280(%rdi), %ymm2
	vpternlogq	$254, 1376(%rdi), %ymm7, %ymm6
	vmovdqu	1440(%rdi), %ymm3
	vmovdqu	1472(%rdi), %ymm4
	vmovdqu	1504(%rdi), %ymm7
	vpternlogq	$254, 1408(%rdi), %ymm0, %ymm2
	vpternlogq	$254, 1568(%rdi), %ymm1, %ymm3
	vpternlogq	$254, 1600(%rdi), %ymm5, %ymm4
	vpternlogq	$254, 1632(%rdi), %ymm6, %ymm7
	vpternlogq	$254, 1536(%rdi), %ymm2, %ymm3
	vpternlogq	$254, %ymm7, %ymm4, %ymm3
	vptest	%ymm3, %ymm3
	je	1f
	pause
1:
	vzeroupper
	retq
	vj_end	blake2_digest..wiping..settle..1664_1_v4

	vj_constants	32
	.p2align	5, 0x0
.L1_v4_CPI5_0:
	.long	0
	.long	8
	.long	2
	.long	3
	.long	4
	.long	5
	.long	6
	.long	7
.L1_v4_CPI5_1:
	.quad	5840696475078001361
	.quad	-7276294671716946913
	.quad	2270897969802886507
	.quad	6620516959819538809
.L1_v4_CPI5_2:
	.quad	7640891576956012808
	.quad	-4942790177534073029
	.quad	4354685564936845355
	.quad	-6534734903238641935
	vj_function	blake2_ffi..blake2b..initialize_1_v4
	pushq	%rbp
	movq	%rsp, %rbp
	pushq	%r15
	pushq	%r14
	pushq	%r13
	pushq	%r12
	pushq	%rbx
	andq	$-32, %rsp
	subq	$544, %rsp
	movq	%rdx, %rcx
	movq	%rsi, %rax
	movq	%rdi, %rbx
	movq	(%rsi), %r13
	movq	16(%rsi), %r15
	movq	32(%rsi), %rdx
	movq	48(%rsi), %r14
	movzwl	16(%rcx), %edi
	movzwl	(%rcx), %r8d
	leaq	-1(%r13), %rsi
	cmpq	$64, %rsi
	setb	%sil
	cmpq	$65, %r15
	setb	%r9b
	cmpq	$17, %rdx
	setb	%r10b
	andb	%r9b, %r10b
	andb	%sil, %r10b
	cmpq	$17, %r14
	setb	%sil
	cmpl	$256, %r8d
	setae	%r9b
	andb	%sil, %r9b
	andb	%r10b, %r9b
	movzwl	%di, %esi
	cmpl	$16640, %esi
	setb	%sil
	andb	%r9b, %sil
	cmpb	$1, %sil
	jne	1f
	movq	24(%rax), %rsi
	movq	40(%rax), %r12
	vmovd	4(%rcx), %xmm1
	vmovq	8(%rcx), %xmm0
	testq	%r15, %r15
	je	2f
	movq	8(%rax), %rax
	movq	%rax, 56(%rsp)
	shll	$16, %r8d
	vxorps	%xmm2, %xmm2, %xmm2
	vmovaps	%ymm2, (%rsp)
	movl	%r15d, %eax
	shll	$8, %eax
	movzwl	%ax, %eax
	orl	%r8d, %eax
	orl	%r13d, %eax
	vmovd	%eax, %xmm2
	vmovq	%xmm2, %xmm2
	vmovdqa	.L1_v4_CPI5_0(%rip), %ymm3
	vpermi2d	%ymm1, %ymm2, %ymm3
	vpunpcklqdq	%xmm0, %xmm3, %xmm0
	vpbroadcastw	%edi, %ymm1
	vpblendw	$1, %ymm1, %ymm3, %ymm1
	vpblendd	$240, %ymm1, %ymm0, %ymm0
	vmovdqa	%ymm0, 64(%rsp)
	movq	%rsp, %rdi
	vzeroupper
	vj_c_call	memcpy
	leaq	16(%rsp), %rdi
	movq	%r12, %rsi
	movq	%r14, %rdx
	vj_c_call	memcpy
	vmovaps	(%rsp), %ymm0
	vmovaps	%ymm0, 288(%rsp)
	movl	$64, %eax
	subq	%r15, %rax
	xorl	%edx, %edx
	cmpq	$64, %r15
	cmovbq	%rax, %rdx
	leaq	(%rsp,%r15), %rdi
	addq	$320, %rdi
	xorl	%esi, %esi
	vzeroupper
	vj_c_call	memset
	leaq	320(%rsp), %rdi
	movq	56(%rsp), %rsi
	movq	%r15, %rdx
	vj_c_call	memcpy
	vpxor	%xmm2, %xmm2, %xmm2
	vmovdqa	%ymm2, 448(%rsp)
	vmovdqa	%ymm2, 480(%rsp)
	vmovups	320(%rsp), %ymm0
	vmovdqu	352(%rsp), %ymm1
	vmovaps	%ymm0, 384(%rsp)
	vmovdqa	%ymm1, 416(%rsp)
	vmovdqa	%ymm2, 224(%rsp)
	vmovdqa	%ymm2, 256(%rsp)
	vmovaps	%ymm0, 160(%rsp)
	vmovdqa	%ymm1, 192(%rsp)
	vmovaps	%ymm0, 96(%rsp)
	vmovaps	288(%rsp), %ymm0
	vmovdqa	%ymm1, 128(%rsp)
	movl	$128, %eax
	jmp	3f
1:
	vxorps	%xmm0, %xmm0, %xmm0
	vmovups	%ymm0, 312(%rbx)
	vmovups	%ymm0, 288(%rbx)
	vmovups	%ymm0, 256(%rbx)
	vmovups	%ymm0, 224(%rbx)
	vmovups	%ymm0, 192(%rbx)
	vmovups	%ymm0, 160(%rbx)
	vmovups	%ymm0, 128(%rbx)
	vmovups	%ymm0, 96(%rbx)
	vmovups	%ymm0, 64(%rbx)
	vmovups	%ymm0, 32(%rbx)
	vmovups	%ymm0, (%rbx)
	movl	$-1, %eax
	jmp	4f
2:
	shll	$16, %r8d
	vxorps	%xmm2, %xmm2, %xmm2
	vmovaps	%ymm2, (%rsp)
	orl	%r13d, %r8d
	vmovd	%r8d, %xmm2
	vmovq	%xmm2, %xmm2
	vmovdqa	.L1_v4_CPI5_0(%rip), %ymm3
	vpermi2d	%ymm1, %ymm2, %ymm3
	vpunpcklqdq	%xmm0, %xmm3, %xmm0
	vpbroadcastw	%edi, %ymm1
	vpblendw	$1, %ymm1, %ymm3, %ymm1
	vpblendd	$240, %ymm1, %ymm0, %ymm0
	vmovdqa	%ymm0, 64(%rsp)
	movq	%rsp, %rdi
	vzeroupper
	vj_c_call	memcpy
	leaq	16(%rsp), %rdi
	movq	%r12, %rsi
	movq	%r14, %rdx
	vj_c_call	memcpy
	vpxor	%xmm0, %xmm0, %xmm0
	vmovdqa	%ymm0, 160(%rsp)
	vmovdqa	%ymm0, 192(%rsp)
	vmovdqa	%ymm0, 224(%rsp)
	vmovdqa	%ymm0, 256(%rsp)
	vmovdqa	%ymm0, 96(%rsp)
	vpxor	%xmm1, %xmm1, %xmm1
	vmovaps	(%rsp), %ymm0
	vmovdqa	%ymm1, 128(%rsp)
	xorl	%eax, %eax
3:
	vxorps	.L1_v4_CPI5_1(%rip), %ymm0, %ymm0
	vmovaps	64(%rsp), %ymm1
	vxorps	.L1_v4_CPI5_2(%rip), %ymm1, %ymm1
	vmovups	%ymm1, (%rbx)
	vmovups	%ymm0, 32(%rbx)
	vmovups	%ymm1, 64(%rbx)
	vmovups	%ymm0, 96(%rbx)
	movq	$0, 128(%rbx)
	movl	%eax, 136(%rbx)
	movl	%eax, 140(%rbx)
	movl	%r13d, 144(%rbx)
	movl	$0, 148(%rbx)
	vmovaps	160(%rsp), %ymm0
	vmovaps	192(%rsp), %ymm1
	vmovaps	224(%rsp), %ymm2
	vmovaps	256(%rsp), %ymm3
	vmovups	%ymm0, 152(%rbx)
	vmovups	%ymm1, 184(%rbx)
	vmovups	%ymm2, 216(%rbx)
	vmovups	%ymm3, 248(%rbx)
	vmovaps	96(%rsp), %ymm0
	vmovaps	128(%rsp), %ymm1
	vmovups	%ymm0, 280(%rbx)
	vmovups	%ymm1, 312(%rbx)
	xorl	%eax, %eax
4:
	leaq	-40(%rbp), %rsp
	popq	%rbx
	popq	%r12
	popq	%r13
	popq	%r14
	popq	%r15
	popq	%rbp
	vzeroupper
	retq
	vj_end	blake2_ffi..blake2b..initialize_1_v4

	vj_function	blake2_digest..wiping..scrub_stack..1024_1_v4
	pushq	%rbx
	subq	$1024, %rsp
	movq	%rsp, %rbx
	movl	$1024, %edx
	movq	%rbx, %rdi
	xorl	%esi, %esi
	vj_c_call	memset
	movq	%rbx, %rdi
	callq	blake2_digest..wiping..settle..1024_1_v4
	addq	$1024, %rsp
	popq	%rbx
	vpxord	%xmm16, %xmm16, %xmm16
	vpxord	%xmm17, %xmm17, %xmm17
	vpxord	%xmm18, %xmm18, %xmm18
	vpxord	%xmm19, %xmm19, %xmm19
	vpxord	%xmm20, %xmm20, %xmm20
	vpxord	%xmm21, %xmm21, %xmm21
	vpxord	%xmm22, %xmm22, %xmm22
	vpxord	%xmm23, %xmm23, %xmm23
	vpxord	%xmm24, %xmm24, %xmm24
	vpxord	%xmm25, %xmm25, %xmm25
	vpxord	%xmm26, %xmm26, %xmm26
	vpxord	%xmm27, %xmm27, %xmm27
	vpxord	%xmm28, %xmm28, %xmm28
	vpxord	%xmm29, %xmm29, %xmm29
	vpxord	%xmm30, %xmm30, %xmm30
	vpxord	%xmm31, %xmm31, %xmm31
	retq
	vj_end	blake2_digest..wiping..scrub_stack..1024_1_v4

	vj_function	blake2_digest..wiping..settle..1024_1_v4
	vmovdqu	128(%rdi), %ymm0
	vmovdqu	160(%rdi), %ymm1
	vmovdqu	192(%rdi), %ymm2
	vmovdqu	224(%rdi), %ymm3
	vpor	32(%rdi), %ymm1, %ymm1
	vpor	64(%rdi), %ymm2, %ymm2
	vpor	96(%rdi), %ymm3, %ymm3
	vmovdqu	256(%rdi), %ymm4
	vmovdqu	288(%rdi), %ymm5
	vmovdqu	320(%rdi), %ymm6
	vmovdqu	352(%rdi), %ymm7
	vpternlogq	$254, (%rdi), %ymm0, %ymm4
	vpternlogq	$254, 416(%rdi), %ymm1, %ymm5
	vpternlogq	$254, 448(%rdi), %ymm2, %ymm6
	vmovdqu	384(%rdi), %ymm0
	vpternlogq	$254, 480(%rdi), %ymm3, %ymm7
	vmovdqu	544(%rdi), %ymm1
	vmovdqu	576(%rdi), %ymm2
	vmovdqu	608(%rdi), %ymm3
	vpternlogq	$254, 512(%rdi), %ymm4, %ymm0
	vpternlogq	$254, 672(%rdi), %ymm5, %ymm1
	vpternlogq	$254, 704(%rdi), %ymm6, %ymm2
	vmovdqu	640(%rdi), %ymm4
	vpternlogq	$254, 736(%rdi), %ymm7, %ymm3
	vmovdqu	800(%rdi), %ymm5
	vmovdqu	832(%rdi), %ymm6
	vmovdqu	864(%rdi), %ymm7
	vpternlogq	$254, 768(%rdi), %ymm0, %ymm4
	vpternlogq	$254, 928(%rdi), %ymm1, %ymm5
	vpternlogq	$254, 960(%rdi), %ymm2, %ymm6
	vpternlogq	$254, 992(%rdi), %ymm3, %ymm7
	vpternlogq	$254, 896(%rdi), %ymm4, %ymm5
	vpternlogq	$254, %ymm7, %ymm6, %ymm5
	vptest	%ymm5, %ymm5
	je	1f
	pause
1:
	vzeroupper
	retq
	vj_end	blake2_digest..wiping..settle..1024_1_v4

	vj_function	blake2_state..blake2b..State..save_1_v4
	pushq	%rbp
	pushq	%r15
	pushq	%r14
	pushq	%r13
	pushq	%r12
	pushq	%rbx
	subq	$536, %rsp
	movl	144(%rsi), %r14d
	leal	-1(%r14), %eax
	cmpl	$63, %eax
	ja	1f
	movl	136(%rsi), %ebx
	cmpq	$128, %rbx
	ja	1f
	movl	140(%rsi), %eax
	cmpl	$128, %eax
	ja	1f
	movl	%ebx, %ecx
	notl	%ecx
	movslq	%ecx, %rcx
	cmpq	%rcx, 128(%rsi)
	ja	1f
	movq	64(%rsi), %rbp
	movl	%ebp, %ecx
	andl	$65280, %ecx
	cmpl	$51456, %ecx
	sete	%cl
	testl	%eax, %eax
	sete	%al
	testb	%cl, %al
	je	1f
	movl	148(%rsi), %eax
	movl	%eax, 4(%rsp)
	vxorps	%xmm0, %xmm0, %xmm0
	vmovups	%ymm0, 208(%rsp)
	vmovups	%ymm0, 176(%rsp)
	vmovups	%ymm0, 144(%rsp)
	vmovups	%ymm0, 112(%rsp)
	movzbl	24(%rsi), %r13d
	movzbl	56(%rsi), %eax
	movb	%al, 2(%rsp)
	vmovups	72(%rsi), %xmm0
	vmovups	%ymm0, 240(%rsp)
	movq	88(%rsi), %r12
	movzbl	120(%rsi), %eax
	movb	%al, 3(%rsp)
	movq	128(%rsi), %rax
	movq	%rax, 8(%rsp)
	leaq	152(%rsi), %rax
	vmovups	32(%rsi), %xmm0
	vmovaps	%xmm0, 64(%rsp)
	vmovups	(%rsi), %xmm0
	vmovaps	%xmm0, 32(%rsp)
	vmovups	16(%rsi), %xmm0
	vmovaps	%xmm0, 16(%rsp)
	vmovups	48(%rsi), %xmm0
	vmovaps	%xmm0, 48(%rsp)
	vmovups	96(%rsi), %xmm0
	vmovaps	%xmm0, 80(%rsp)
	vmovups	112(%rsi), %xmm0
	vmovaps	%xmm0, 96(%rsp)
	leaq	112(%rsp), %rcx
	movq	%rdi, %r15
	movq	%rcx, %rdi
	movq	%rax, %rsi
	movq	%rbx, %rdx
	vzeroupper
	vj_c_call	memcpy
	vmovups	112(%rsp), %ymm0
	vmovups	144(%rsp), %ymm1
	vmovups	176(%rsp), %ymm2
	vmovups	208(%rsp), %ymm3
	vmovups	%ymm3, 496(%rsp)
	vmovups	%ymm2, 464(%rsp)
	vmovups	%ymm1, 432(%rsp)
	vmovups	%ymm0, 400(%rsp)
	vmovups	%ymm0, 272(%rsp)
	vmovups	%ymm1, 304(%rsp)
	vmovups	%ymm2, 336(%rsp)
	vmovups	%ymm3, 368(%rsp)
	movb	$1, (%r15)
	movabsq	$99697414952275010, %rax
	movq	%rax, 1(%r15)
	vmovaps	32(%rsp), %xmm0
	vmovups	%xmm0, 9(%r15)
	vmovdqa	16(%rsp), %xmm0
	vmovq	%xmm0, 25(%r15)
	movb	%r13b, 33(%r15)
	vmovdqa	64(%rsp), %xmm1
	vpalignr	$9, %xmm0, %xmm1, %xmm0
	vmovdqu	%xmm0, 34(%r15)
	vmovdqa	48(%rsp), %xmm2
	vpalignr	$9, %xmm1, %xmm2, %xmm0
	vmovq	%xmm0, 50(%r15)
	vpsrlq	$8, %xmm2, %xmm0
	vmovd	%xmm0, 58(%r15)
	vmovq	%rbp, %xmm0
	vpextrb	$5, %xmm2, 62(%r15)
	vpermq	$208, 240(%rsp), %ymm1
	vpextrb	$6, %xmm2, 63(%r15)
	vpblendd	$3, %xmm0, %xmm1, %xmm0
	vpextrb	$7, %xmm2, 64(%r15)
	movzbl	2(%rsp), %eax
	movb	%al, 65(%r15)
	vpalignr	$9, %xmm2, %xmm0, %xmm2
	vmovdqu	%xmm2, 66(%r15)
	vextracti128	$1, %ymm1, %xmm1
	vpalignr	$9, %xmm0, %xmm1, %xmm0
	vmovq	%xmm0, 82(%r15)
	vpsrlq	$8, %xmm1, %xmm0
	vmovd	%xmm0, 90(%r15)
	vpextrb	$5, %xmm1, 94(%r15)
	vpextrb	$6, %xmm1, 95(%r15)
	vpbroadcastq	%r12, %xmm0
	vpextrb	$7, %xmm1, 96(%r15)
	movb	%r12b, 97(%r15)
	vmovdqa	80(%rsp), %xmm2
	vpalignr	$9, %xmm0, %xmm2, %xmm0
	vmovdqu	%xmm0, 98(%r15)
	vmovdqa	96(%rsp), %xmm1
	vpalignr	$9, %xmm2, %xmm1, %xmm0
	vmovq	%xmm0, 114(%r15)
	vpsrlq	$8, %xmm1, %xmm0
	vmovd	%xmm0, 122(%r15)
	vpextrb	$5, %xmm1, 126(%r15)
	vpextrb	$6, %xmm1, 127(%r15)
	vpextrb	$7, %xmm1, 128(%r15)
	movzbl	3(%rsp), %eax
	movb	%al, 129(%r15)
	vpsrldq	$9, %xmm1, %xmm0
	vmovss	%xmm0, 130(%r15)
	vpextrb	$13, %xmm1, 134(%r15)
	vpextrb	$14, %xmm1, 135(%r15)
	vpextrb	$15, %xmm1, 136(%r15)
	cmpl	$0, 4(%rsp)
	movq	8(%rsp), %rax
	movq	%rax, 137(%r15)
	movb	%r14b, 145(%r15)
	movb	%bl, 146(%r15)
	setne	147(%r15)
	vmovups	272(%rsp), %ymm0
	vmovups	304(%rsp), %ymm1
	vmovups	336(%rsp), %ymm2
	vmovups	368(%rsp), %ymm3
	vmovups	%ymm3, 244(%r15)
	vmovups	%ymm2, 212(%r15)
	vmovups	%ymm1, 180(%r15)
	vmovups	%ymm0, 148(%r15)
	jmp	2f
1:
	vxorps	%xmm0, %xmm0, %xmm0
	vmovups	%ymm0, 244(%rdi)
	vmovups	%ymm0, 224(%rdi)
	vmovups	%ymm0, 192(%rdi)
	vmovups	%ymm0, 160(%rdi)
	vmovups	%ymm0, 128(%rdi)
	vmovups	%ymm0, 96(%rdi)
	vmovups	%ymm0, 64(%rdi)
	vmovups	%ymm0, 32(%rdi)
	vmovups	%ymm0, (%rdi)
2:
	addq	$536, %rsp
	popq	%rbx
	popq	%r12
	popq	%r13
	popq	%r14
	popq	%r15
	popq	%rbp
	vzeroupper
	retq
	vj_end	blake2_state..blake2b..State..save_1_v4

	vj_constants	32
	.p2align	5, 0x0
.L1_v4_CPI9_0:
	.quad	0
	.quad	2
	.quad	4
	.quad	6
	vj_function	core..cmp..slices..groups_equal..i8.31.core..cmp..numbers..U8PartialEq_1_v4
	cmpq	$8, %rsi
	ja	1f
	vmovd	(%rdi), %xmm0
	vpinsrd	$1, -4(%rdi,%rsi), %xmm0, %xmm0
	vmovd	(%rdx), %xmm1
	vpinsrd	$1, -4(%rdx,%rsi), %xmm1, %xmm1
	vmovq	%xmm0, %rax
	vmovq	%xmm1, %rcx
	cmpq	%rcx, %rax
	jmp	9f
1:
	cmpq	$32, %rsi
	ja	2f
	leaq	-8(%rsi), %rax
	cmpq	$8, %rax
	movl	$8, %ecx
	cmovbq	%rax, %rcx
	cmpq	$16, %rax
	movl	$16, %r8d
	cmovbq	%rax, %r8
	vmovq	(%rdi), %xmm0
	vmovq	(%rdx), %xmm1
	vmovq	(%rdi,%rcx), %xmm2
	vmovq	(%rdx,%rcx), %xmm3
	vmovq	(%rdi,%r8), %xmm4
	vmovq	(%rdx,%r8), %xmm5
	vmovq	-8(%rdi,%rsi), %xmm6
	vmovq	-8(%rdx,%rsi), %xmm7
	vinserti128	$1, %xmm2, %ymm0, %ymm0
	vinserti128	$1, %xmm6, %ymm4, %ymm2
	vmovdqa	.L1_v4_CPI9_0(%rip), %ymm4
	vpermt2q	%ymm2, %ymm4, %ymm0
	vinserti128	$1, %xmm3, %ymm1, %ymm1
	vinserti128	$1, %xmm7, %ymm5, %ymm2
	vpermt2q	%ymm2, %ymm4, %ymm1
	vpxor	%ymm1, %ymm0, %ymm0
	jmp	8f
2:
	cmpq	$65, %rsi
	jae	3f
	vmovdqu	(%rdi), %ymm0
	vmovdqu	-32(%rdi,%rsi), %ymm1
	vpxor	(%rdx), %ymm0, %ymm0
	vpternlogq	$246, -32(%rdx,%rsi), %ymm1, %ymm0
	jmp	8f
3:
	movq	%rsi, %rcx
	andq	$-64, %rcx
	xorl	%eax, %eax
	movq	%rsi, %r8
	.p2align	4
4:
	vmovdqu	32(%rdi,%rax), %ymm0
	vpcmpneqb	32(%rdx,%rax), %ymm0, %k0
	vmovdqu	(%rdi,%rax), %ymm0
	vpcmpneqb	(%rdx,%rax), %ymm0, %k1
	kortestd	%k1, %k0
	jne	5f
	addq	$64, %rax
	addq	$-64, %r8
	cmpq	$63, %r8
	ja	4b
	movq	%rcx, %rax
5:
	movq	%rsi, %rcx
	subq	%rax, %rcx
	cmpq	$32, %rcx
	jb	7f
	.p2align	4
6:
	vmovdqu	(%rdi,%rax), %ymm0
	vpxor	(%rdx,%rax), %ymm0, %ymm0
	vptest	%ymm0, %ymm0
	jne	11f
	addq	$32, %rax
	addq	$-32, %rcx
	cmpq	$32, %rcx
	jae	6b
7:
	vmovdqu	-32(%rdi,%rsi), %ymm0
	vpxor	-32(%rdx,%rsi), %ymm0, %ymm0
8:
	vptest	%ymm0, %ymm0
9:
	setne	%al
10:
	xorb	$1, %al
	vzeroupper
	retq
11:
	movb	$1, %al
	cmpq	$31, %rcx
	jbe	7b
	jmp	10b
	vj_end	core..cmp..slices..groups_equal..i8.31.core..cmp..numbers..U8PartialEq_1_v4

	vj_function	blake2_ffi..blake2b..update_scrubbed_1_v4
	pushq	%rax
	callq	blake2_ffi..blake2b..update_in_frame_1_v4
	popq	%rax
	jmp	blake2_digest..wiping..scrub_stack..1152_1_v4
	vj_end	blake2_ffi..blake2b..update_scrubbed_1_v4

	vj_function	blake2_ffi..blake2b..update_in_frame_1_v4
	cmpq	$1, %rdx
	jne	blake2_state..blake2b..State..absorb_blocks_1_v4
	movl	136(%rdi), %eax
	cmpq	$128, %rax
	jae	1f
	movzbl	(%rsi), %ecx
	movb	%cl, 152(%rdi,%rax)
	incl	%eax
	movl	%eax, 136(%rdi)
	retq
1:
	movl	$1, %edx
	jmp	blake2_state..blake2b..State..absorb_blocks_1_v4
	vj_end	blake2_ffi..blake2b..update_in_frame_1_v4

	vj_function	blake2_digest..wiping..scrub_stack..1152_1_v4
	pushq	%rbx
	subq	$1152, %rsp
	movq	%rsp, %rbx
	movl	$1152, %edx
	movq	%rbx, %rdi
	xorl	%esi, %esi
	vj_c_call	memset
	movq	%rbx, %rdi
	callq	blake2_digest..wiping..settle..1152_1_v4
	addq	$1152, %rsp
	popq	%rbx
	vpxord	%xmm16, %xmm16, %xmm16
	vpxord	%xmm17, %xmm17, %xmm17
	vpxord	%xmm18, %xmm18, %xmm18
	vpxord	%xmm19, %xmm19, %xmm19
	vpxord	%xmm20, %xmm20, %xmm20
	vpxord	%xmm21, %xmm21, %xmm21
	vpxord	%xmm22, %xmm22, %xmm22
	vpxord	%xmm23, %xmm23, %xmm23
	vpxord	%xmm24, %xmm24, %xmm24
	vpxord	%xmm25, %xmm25, %xmm25
	vpxord	%xmm26, %xmm26, %xmm26
	vpxord	%xmm27, %xmm27, %xmm27
	vpxord	%xmm28, %xmm28, %xmm28
	vpxord	%xmm29, %xmm29, %xmm29
	vpxord	%xmm30, %xmm30, %xmm30
	vpxord	%xmm31, %xmm31, %xmm31
	retq
	vj_end	blake2_digest..wiping..scrub_stack..1152_1_v4

	vj_function	blake2_digest..wiping..settle..1152_1_v4
	vmovdqu	128(%rdi), %ymm0
	vmovdqu	160(%rdi), %ymm1
	vmovdqu	192(%rdi), %ymm2
	vpor	(%rdi), %ymm0, %ymm0
	vmovdqu	224(%rdi), %ymm3
	vmovdqu	256(%rdi), %ymm4
	vmovdqu	288(%rdi), %ymm5
	vmovdqu	320(%rdi), %ymm6
	vpternlogq	$254, 32(%rdi), %ymm1, %ymm5
	vpternlogq	$254, 64(%rdi), %ymm2, %ymm6
	vmovdqu	352(%rdi), %ymm1
	vpternlogq	$254, 96(%rdi), %ymm3, %ymm1
	vmovdqu	416(%rdi), %ymm2
	vmovdqu	448(%rdi), %ymm3
	vmovdqu	480(%rdi), %ymm7
	vpternlogq	$254, 384(%rdi), %ymm0, %ymm4
	vpternlogq	$254, 544(%rdi), %ymm5, %ymm2
	vpternlogq	$254, 576(%rdi), %ymm6, %ymm3
	vmovdqu	512(%rdi), %ymm0
	vpternlogq	$254, 608(%rdi), %ymm1, %ymm7
	vmovdqu	672(%rdi), %ymm1
	vmovdqu	704(%rdi), %ymm5
	vmovdqu	736(%rdi), %ymm6
	vpternlogq	$254, 640(%rdi), %ymm4, %ymm0
	vpternlogq	$254, 800(%rdi), %ymm2, %ymm1
	vpternlogq	$254, 832(%rdi), %ymm3, %ymm5
	vmovdqu	768(%rdi), %ymm2
	vpternlogq	$254, 864(%rdi), %ymm7, %ymm6
	vmovdqu	928(%rdi), %ymm3
	vmovdqu	960(%rdi), %ymm4
	vmovdqu	992(%rdi), %ymm7
	vpternlogq	$254, 896(%rdi), %ymm0, %ymm2
	vpternlogq	$254, 1056(%rdi), %ymm1, %ymm3
	vpternlogq	$254, 1088(%rdi), %ymm5, %ymm4
	vpternlogq	$254, 1120(%rdi), %ymm6, %ymm7
	vpternlogq	$254, 1024(%rdi), %ymm2, %ymm3
	vpternlogq	$254, %ymm7, %ymm4, %ymm3
	vptest	%ymm3, %ymm3
	je	1f
	pause
1:
	vzeroupper
	retq
	vj_end	blake2_digest..wiping..settle..1152_1_v4

	vj_function	blake2_state..blake2b..State..absorb_blocks_1_v4
	pushq	%r15
	pushq	%r14
	pushq	%rbx
	subq	$144, %rsp
	movq	%rdx, %r14
	movq	%rsi, %rdx
	movq	%rdi, %rbx
	movl	136(%rdi), %r15d
	movl	$128, %eax
	subq	%r15, %rax
	cmpq	%rax, %r14
	jbe	1f
	movq	128(%rbx), %rax
	vmovups	(%rbx), %ymm0
	vmovups	32(%rbx), %ymm1
	vmovups	64(%rbx), %ymm2
	vmovups	96(%rbx), %ymm3
	xorl	%ecx, %ecx
	cmpl	$0, 148(%rbx)
	vmovups	%ymm0, (%rsp)
	vmovups	%ymm1, 32(%rsp)
	vmovups	%ymm2, 64(%rsp)
	vmovups	%ymm3, 96(%rsp)
	setne	%cl
	movq	%rax, 128(%rsp)
	movq	%rcx, 136(%rsp)
	leaq	152(%rbx), %rdi
	movq	%rsp, %r8
	movq	%r15, %rsi
	movq	%r14, %rcx
	vzeroupper
	callq	blake2_digest..buffer..digest_into..33c1e97afcdf8a5d_1_v4
	movl	%eax, 136(%rbx)
	vmovups	(%rsp), %ymm0
	vmovups	%ymm0, (%rbx)
	vmovups	32(%rsp), %ymm0
	vmovups	%ymm0, 32(%rbx)
	movq	128(%rsp), %rax
	movq	%rax, 128(%rbx)
	jmp	9f
1:
	leaq	(%rbx,%r15), %rdi
	addq	$152, %rdi
	movq	%rdi, %rax
	subq	%rdx, %rax
	cmpq	%r14, %rax
	jae	7f
	cmpq	$8, %r14
	jb	2f
	leaq	(%rbx,%r15), %rax
	subq	%rdx, %rax
	addq	$152, %rax
	cmpq	$128, %rax
	jae	10f
2:
	xorl	%eax, %eax
3:
	movq	%r14, %rsi
	movq	%rax, %rcx
	andq	$7, %rsi
	je	5f
	movq	%rax, %rcx
	.p2align	4
4:
	movzbl	(%rdx,%rcx), %r8d
	movb	%r8b, (%rdi,%rcx)
	incq	%rcx
	decq	%rsi
	jne	4b
5:
	subq	%r14, %rax
	cmpq	$-8, %rax
	ja	8f
	leaq	(%r15,%rbx), %rax
	addq	$159, %rax
	.p2align	4
6:
	movzbl	(%rdx,%rcx), %esi
	movb	%sil, -7(%rax,%rcx)
	movzbl	1(%rdx,%rcx), %esi
	movb	%sil, -6(%rax,%rcx)
	movzbl	2(%rdx,%rcx), %esi
	movb	%sil, -5(%rax,%rcx)
	movzbl	3(%rdx,%rcx), %esi
	movb	%sil, -4(%rax,%rcx)
	movzbl	4(%rdx,%rcx), %esi
	movb	%sil, -3(%rax,%rcx)
	movzbl	5(%rdx,%rcx), %esi
	movb	%sil, -2(%rax,%rcx)
	movzbl	6(%rdx,%rcx), %esi
	movb	%sil, -1(%rax,%rcx)
	movzbl	7(%rdx,%rcx), %esi
	movb	%sil, (%rax,%rcx)
	addq	$8, %rcx
	cmpq	%rcx, %r14
	jne	6b
	jmp	8f
7:
	movq	%rdx, %rsi
	movq	%r14, %rdx
	vj_c_call	memmove
8:
	addl	%r15d, %r14d
	movl	%r14d, 136(%rbx)
9:
	addq	$144, %rsp
	popq	%rbx
	popq	%r14
	popq	%r15
	vzeroupper
	retq
10:
	cmpq	$128, %r14
	jae	11f
	xorl	%eax, %eax
	jmp	13f
11:
	movq	%r14, %rax
	andq	$-128, %rax
	leaq	(%r15,%rbx), %rcx
	addq	$248, %rcx
	xorl	%esi, %esi
	.p2align	4
12:
	vmovups	(%rdx,%rsi), %ymm0
	vmovups	32(%rdx,%rsi), %ymm1
	vmovups	64(%rdx,%rsi), %ymm2
	vmovups	96(%rdx,%rsi), %ymm3
	vmovups	%ymm0, -96(%rcx,%rsi)
	vmovups	%ymm1, -64(%rcx,%rsi)
	vmovups	%ymm2, -32(%rcx,%rsi)
	vmovups	%ymm3, (%rcx,%rsi)
	subq	$-128, %rsi
	cmpq	%rsi, %rax
	jne	12b
	cmpq	%rax, %r14
	je	8b
	testb	$120, %r14b
	je	3b
13:
	movq	%rax, %rcx
	movq	%r14, %rax
	andq	$-8, %rax
	.p2align	4
14:
	movq	(%rdx,%rcx), %rsi
	movq	%rsi, (%rdi,%rcx)
	addq	$8, %rcx
	cmpq	%rcx, %rax
	jne	14b
	cmpq	%rax, %r14
	je	8b
	jmp	3b
	vj_end	blake2_state..blake2b..State..absorb_blocks_1_v4

	vj_function	blake2_digest..buffer..digest_into..33c1e97afcdf8a5d_1_v4
	pushq	%rbp
	pushq	%r15
	pushq	%r14
	pushq	%r13
	pushq	%r12
	pushq	%rbx
	pushq	%rax
	movq	%rcx, %r15
	movq	%rdx, %rbx
	movq	%rdi, %r14
	movl	$128, %r13d
	subq	%rsi, %r13
	subq	%r13, %rcx
	jbe	6f
	movq	%r8, %r12
	testq	%rsi, %rsi
	je	16f
	leaq	(%r14,%rsi), %rdi
	movq	%rdi, %rax
	subq	%rbx, %rax
	cmpq	%r13, %rax
	jae	14f
	cmpq	$8, %r13
	jb	1f
	cmpq	$128, %rax
	jae	28f
1:
	movq	%rcx, %r15
	xorl	%eax, %eax
2:
	movl	%esi, %edx
	negl	%edx
	leaq	(%rax,%rsi), %rcx
	andl	$7, %edx
	je	4f
	.p2align	4
3:
	movzbl	(%rbx,%rax), %r8d
	movb	%r8b, (%rdi,%rax)
	incq	%rax
	decq	%rdx
	jne	3b
4:
	addq	$-121, %rcx
	cmpq	$7, %rcx
	jb	15f
	leaq	(%rsi,%r14), %rcx
	addq	$7, %rcx
	.p2align	4
5:
	movzbl	(%rbx,%rax), %edx
	movb	%dl, -7(%rcx,%rax)
	movzbl	1(%rbx,%rax), %edx
	movb	%dl, -6(%rcx,%rax)
	movzbl	2(%rbx,%rax), %edx
	movb	%dl, -5(%rcx,%rax)
	movzbl	3(%rbx,%rax), %edx
	movb	%dl, -4(%rcx,%rax)
	movzbl	4(%rbx,%rax), %edx
	movb	%dl, -3(%rcx,%rax)
	movzbl	5(%rbx,%rax), %edx
	movb	%dl, -2(%rcx,%rax)
	movzbl	6(%rbx,%rax), %edx
	movb	%dl, -1(%rcx,%rax)
	movzbl	7(%rbx,%rax), %edx
	movb	%dl, (%rcx,%rax)
	addq	$8, %rax
	cmpq	%rax, %r13
	jne	5b
	jmp	15f
6:
	leaq	(%r14,%rsi), %rdi
	movq	%rdi, %rax
	subq	%rbx, %rax
	cmpq	%r15, %rax
	jae	12f
	cmpq	$8, %r15
	jb	7f
	cmpq	$128, %rax
	jae	26f
7:
	xorl	%eax, %eax
8:
	movq	%r15, %rdx
	movq	%rax, %rcx
	andq	$7, %rdx
	je	10f
	movq	%rax, %rcx
	.p2align	4
9:
	movzbl	(%rbx,%rcx), %r8d
	movb	%r8b, (%rdi,%rcx)
	incq	%rcx
	decq	%rdx
	jne	9b
10:
	subq	%r15, %rax
	cmpq	$-8, %rax
	ja	13f
	leaq	(%rsi,%r14), %rax
	addq	$7, %rax
	.p2align	4
11:
	movzbl	(%rbx,%rcx), %edx
	movb	%dl, -7(%rax,%rcx)
	movzbl	1(%rbx,%rcx), %edx
	movb	%dl, -6(%rax,%rcx)
	movzbl	2(%rbx,%rcx), %edx
	movb	%dl, -5(%rax,%rcx)
	movzbl	3(%rbx,%rcx), %edx
	movb	%dl, -4(%rax,%rcx)
	movzbl	4(%rbx,%rcx), %edx
	movb	%dl, -3(%rax,%rcx)
	movzbl	5(%rbx,%rcx), %edx
	movb	%dl, -2(%rax,%rcx)
	movzbl	6(%rbx,%rcx), %edx
	movb	%dl, -1(%rax,%rcx)
	movzbl	7(%rbx,%rcx), %edx
	movb	%dl, (%rax,%rcx)
	addq	$8, %rcx
	cmpq	%rcx, %r15
	jne	11b
	jmp	13f
12:
	movq	%rsi, %r14
	movq	%rbx, %rsi
	movq	%r15, %rdx
	vj_c_call	memmove
	movq	%r14, %rsi
13:
	addq	%rsi, %r15
	jmp	25f
14:
	movq	%rcx, %r15
	movq	%rbx, %rsi
	movq	%r13, %rdx
	vj_c_call	memmove
15:
	addq	%r13, %rbx
	movq	128(%r12), %rdx
	subq	$-128, %rdx
	movq	%rdx, 128(%r12)
	movq	%r12, %rdi
	movq	%r14, %rsi
	xorl	%ecx, %ecx
	xorl	%r8d, %r8d
	vzeroupper
	vj_call	blake2_compress..compress..blake2b..compress_1_v4
16:
	movq	%r15, %r13
	cmpq	$1, %r15
	movq	%r15, (%rsp)
	adcq	$-1, %r13
	movq	%r13, %rbp
	andq	$-128, %rbp
	shrq	$7, %r13
	je	18f
	movq	%rbx, %r15
	.p2align	4
17:
	movq	128(%r12), %rdx
	subq	$-128, %rdx
	movq	%rdx, 128(%r12)
	movq	%r12, %rdi
	movq	%r15, %rsi
	xorl	%ecx, %ecx
	xorl	%r8d, %r8d
	vj_call	blake2_compress..compress..blake2b..compress_1_v4
	subq	$-128, %r15
	decq	%r13
	jne	17b
18:
	leaq	(%rbx,%rbp), %rsi
	movq	(%rsp), %r9
	movq	%r9, %r15
	subq	%rbp, %r15
	vxorps	%xmm0, %xmm0, %xmm0
	vmovups	%ymm0, 96(%r14)
	vmovups	%ymm0, 64(%r14)
	vmovups	%ymm0, 32(%r14)
	vmovups	%ymm0, (%r14)
	movq	%r14, %rax
	subq	%rsi, %rax
	cmpq	%r15, %rax
	jae	24f
	cmpq	$8, %r15
	jb	19f
	cmpq	$128, %rax
	jae	27f
19:
	xorl	%eax, %eax
20:
	movl	%r9d, %edx
	subl	%eax, %edx
	movq	%rax, %rcx
	andl	$7, %edx
	je	22f
	movq	%rax, %rcx
	.p2align	4
21:
	movzbl	(%rsi,%rcx), %edi
	movb	%dil, (%r14,%rcx)
	incq	%rcx
	decq	%rdx
	jne	21b
22:
	subq	%r9, %rax
	addq	%rbp, %rax
	cmpq	$-8, %rax
	ja	25f
	leaq	(%rbx,%rbp), %rax
	addq	$7, %rax
	.p2align	4
23:
	movzbl	-7(%rax,%rcx), %edx
	movb	%dl, (%r14,%rcx)
	movzbl	-6(%rax,%rcx), %edx
	movb	%dl, 1(%r14,%rcx)
	movzbl	-5(%rax,%rcx), %edx
	movb	%dl, 2(%r14,%rcx)
	movzbl	-4(%rax,%rcx), %edx
	movb	%dl, 3(%r14,%rcx)
	movzbl	-3(%rax,%rcx), %edx
	movb	%dl, 4(%r14,%rcx)
	movzbl	-2(%rax,%rcx), %edx
	movb	%dl, 5(%r14,%rcx)
	movzbl	-1(%rax,%rcx), %edx
	movb	%dl, 6(%r14,%rcx)
	movzbl	(%rax,%rcx), %edx
	movb	%dl, 7(%r14,%rcx)
	addq	$8, %rcx
	cmpq	%rcx, %r15
	jne	23b
	jmp	25f
24:
	movq	%r14, %rdi
	movq	%r15, %rdx
	vzeroupper
	vj_c_call	memmove
25:
	movq	%r15, %rax
	addq	$8, %rsp
	popq	%rbx
	popq	%r12
	popq	%r13
	popq	%r14
	popq	%r15
	popq	%rbp
	vzeroupper
	retq
26:
	cmpq	$128, %r15
	jae	29f
	xorl	%eax, %eax
	jmp	31f
27:
	cmpq	$128, %r15
	jae	33f
	xorl	%eax, %eax
	jmp	35f
28:
	movq	%rcx, %r15
	cmpq	$129, %rsi
	jae	37f
	xorl	%eax, %eax
	jmp	39f
29:
	movq	%r15, %rax
	andq	$-128, %rax
	leaq	(%rsi,%r14), %rcx
	addq	$96, %rcx
	xorl	%edx, %edx
	.p2align	4
30:
	vmovups	(%rbx,%rdx), %ymm0
	vmovups	32(%rbx,%rdx), %ymm1
	vmovups	64(%rbx,%rdx), %ymm2
	vmovups	96(%rbx,%rdx), %ymm3
	vmovups	%ymm0, -96(%rcx,%rdx)
	vmovups	%ymm1, -64(%rcx,%rdx)
	vmovups	%ymm2, -32(%rcx,%rdx)
	vmovups	%ymm3, (%rcx,%rdx)
	subq	$-128, %rdx
	cmpq	%rdx, %rax
	jne	30b
	cmpq	%rax, %r15
	je	13b
	testb	$120, %r15b
	je	8b
31:
	movq	%rax, %rcx
	movq	%r15, %rax
	andq	$-8, %rax
	.p2align	4
32:
	movq	(%rbx,%rcx), %rdx
	movq	%rdx, (%rdi,%rcx)
	addq	$8, %rcx
	cmpq	%rcx, %rax
	jne	32b
	cmpq	%rax, %r15
	je	13b
	jmp	8b
33:
	movl	%r9d, %ecx
	andl	$127, %ecx
	movq	%r15, %rax
	subq	%rcx, %rax
	movq	%r9, %rdx
	andq	$-128, %rdx
	subq	%rbp, %rdx
	leaq	(%rbx,%rbp), %rdi
	addq	$96, %rdi
	xorl	%r8d, %r8d
	.p2align	4
34:
	vmovups	-96(%rdi,%r8), %ymm0
	vmovups	-64(%rdi,%r8), %ymm1
	vmovups	-32(%rdi,%r8), %ymm2
	vmovups	(%rdi,%r8), %ymm3
	vmovups	%ymm0, (%r14,%r8)
	vmovups	%ymm1, 32(%r14,%r8)
	vmovups	%ymm2, 64(%r14,%r8)
	vmovups	%ymm3, 96(%r14,%r8)
	subq	$-128, %r8
	cmpq	%r8, %rdx
	jne	34b
	testq	%rcx, %rcx
	je	25b
	cmpl	$8, %ecx
	jb	20b
35:
	movq	%rax, %rcx
	movl	%r9d, %edx
	andl	$7, %edx
	movq	%r15, %rax
	subq	%rdx, %rax
	.p2align	4
36:
	movq	(%rsi,%rcx), %rdi
	movq	%rdi, (%r14,%rcx)
	addq	$8, %rcx
	cmpq	%rcx, %rax
	jne	36b
	testq	%rdx, %rdx
	jne	20b
	jmp	25b
37:
	movq	%r13, %rax
	andq	$-128, %rax
	leaq	(%rsi,%r14), %rcx
	addq	$96, %rcx
	xorl	%edx, %edx
	.p2align	4
38:
	vmovups	(%rbx,%rdx), %ymm0
	vmovups	32(%rbx,%rdx), %ymm1
	vmovups	64(%rbx,%rdx), %ymm2
	vmovups	96(%rbx,%rdx), %ymm3
	vmovups	%ymm0, -96(%rcx,%rdx)
	vmovups	%ymm1, -64(%rcx,%rdx)
	vmovups	%ymm2, -32(%rcx,%rdx)
	vmovups	%ymm3, (%rcx,%rdx)
	subq	$-128, %rdx
	cmpq	%rdx, %rax
	jne	38b
	cmpq	%rax, %r13
	je	15b
	testb	$120, %r13b
	je	2b
39:
	movq	%rax, %rcx
	movq	%r13, %rax
	andq	$-8, %rax
	.p2align	4
40:
	movq	(%rbx,%rcx), %rdx
	movq	%rdx, (%rdi,%rcx)
	addq	$8, %rcx
	cmpq	%rcx, %rax
	jne	40b
	cmpq	%rax, %r13
	jne	2b
	jmp	15b
	vj_end	blake2_digest..buffer..digest_into..33c1e97afcdf8a5d_1_v4

	vj_function	blake2_ffi..several..blake2b..update_in_frame_1_v4
	vj_jump	blake2_state..many..blake2b..update_many_1_v4
	vj_end	blake2_ffi..several..blake2b..update_in_frame_1_v4

	vj_shared	blake2_state..many..blake2b..update_many_1_v4
	testq	%rcx, %rcx
	je	37f
	pushq	%rbp
	pushq	%r15
	pushq	%r14
	pushq	%r13
	pushq	%r12
	pushq	%rbx
	subq	$3072, %rsp
	movq	$0, (%rsp)
	subq	$1640, %rsp
	movq	%rcx, %r15
	movq	%rdx, %r9
	movq	%rdi, %r14
	leaq	8(%rdx), %rax
	movq	%rax, 1120(%rsp)
	xorl	%r13d, %r13d
	movq	%rcx, 104(%rsp)
	movq	%rdx, 56(%rsp)
	movq	%rdi, 80(%rsp)
	jmp	4f
	.p2align	4
1:
	movq	%rbp, %rdi
	movq	%r9, %rbx
	vzeroupper
	callq	blake2_state..blake2b..State..absorb_blocks_1_v4
	movq	%rbx, %r9
2:
	movl	$1, %ebx
3:
	addq	%rbx, %r13
	cmpq	%r15, %r13
	jae	36f
4:
	movq	%r15, %rax
	subq	%r13, %rax
	movq	%r13, %r8
	shlq	$4, %r8
	imulq	$344, %r13, %rbp
	cmpq	$8, %rax
	jb	11f
	movq	8(%r9,%r8), %rdx
	movl	136(%r14,%rbp), %eax
	movl	480(%r14,%rbp), %r10d
	leaq	(%rdx,%rax), %rcx
	movq	24(%r9,%r8), %rsi
	movq	%r10, 16(%rsp)
	addq	%r10, %rsi
	cmpq	%rcx, %rsi
	cmovaeq	%rcx, %rsi
	leaq	16(%r8), %rcx
	movq	%rcx, 40(%rsp)
	leaq	32(%r8), %rcx
	movq	%rcx, 24(%rsp)
	movl	824(%r14,%rbp), %r10d
	movq	40(%r9,%r8), %rcx
	movq	%r10, 48(%rsp)
	addq	%r10, %rcx
	cmpq	%rsi, %rcx
	cmovaeq	%rsi, %rcx
	movl	1168(%r14,%rbp), %esi
	movq	56(%r9,%r8), %rbx
	movq	%rsi, 72(%rsp)
	addq	%rsi, %rbx
	cmpq	%rcx, %rbx
	cmovaeq	%rcx, %rbx
	movl	1512(%r14,%rbp), %esi
	movq	72(%r9,%r8), %rcx
	movq	%rsi, 88(%rsp)
	addq	%rsi, %rcx
	cmpq	%rbx, %rcx
	cmovaeq	%rbx, %rcx
	movl	1856(%r14,%rbp), %r10d
	movq	88(%r9,%r8), %rsi
	movq	%r10, 32(%rsp)
	addq	%r10, %rsi
	cmpq	%rcx, %rsi
	cmovaeq	%rcx, %rsi
	movl	2200(%r14,%rbp), %r12d
	movq	104(%r9,%r8), %rcx
	addq	%r12, %rcx
	cmpq	%rsi, %rcx
	cmovaeq	%rsi, %rcx
	movl	2544(%r14,%rbp), %r10d
	movq	120(%r9,%r8), %r11
	addq	%r10, %r11
	cmpq	%rcx, %r11
	cmovaeq	%rcx, %r11
	leaq	48(%r8), %rcx
	cmpq	$129, %r11
	jb	13f
	movq	%r13, 96(%rsp)
	leaq	(%r14,%rbp), %rdx
	vxorps	%xmm0, %xmm0, %xmm0
	vmovups	%ymm0, 1344(%rsp)
	vmovups	%ymm0, 1376(%rsp)
	vmovups	%ymm0, 1408(%rsp)
	vmovups	%ymm0, 1440(%rsp)
	vmovups	%ymm0, 1472(%rsp)
	vmovups	%ymm0, 1504(%rsp)
	vmovups	%ymm0, 1536(%rsp)
	vmovups	%ymm0, 1568(%rsp)
	vmovups	%ymm0, 1600(%rsp)
	vmovups	%ymm0, 1632(%rsp)
	vmovups	%ymm0, 1664(%rsp)
	vmovups	%ymm0, 1696(%rsp)
	vmovups	%ymm0, 1728(%rsp)
	vmovups	%ymm0, 1760(%rsp)
	vmovups	%ymm0, 1792(%rsp)
	vmovups	%ymm0, 1824(%rsp)
	leaq	344(%r14,%rbp), %r15
	vmovsd	2064(%r15), %xmm0
	vmovsd	1720(%r15), %xmm1
	vmovlhps	%xmm0, %xmm1, %xmm0
	vmovaps	%xmm0, 640(%rsp)
	vmovsd	1376(%r15), %xmm0
	vmovsd	1032(%r15), %xmm1
	vmovlhps	%xmm0, %xmm1, %xmm0
	vmovaps	%xmm0, 944(%rsp)
	vmovsd	688(%r15), %xmm0
	vmovsd	344(%r15), %xmm1
	vmovlhps	%xmm0, %xmm1, %xmm0
	vmovaps	%xmm0, 928(%rsp)
	vmovsd	(%r15), %xmm0
	movq	%rdx, 1192(%rsp)
	vmovsd	(%rdx), %xmm1
	vmovlhps	%xmm0, %xmm1, %xmm0
	vmovaps	%xmm0, 912(%rsp)
	vmovsd	2072(%r15), %xmm0
	vmovsd	1728(%r15), %xmm1
	vmovlhps	%xmm0, %xmm1, %xmm0
	vmovaps	%xmm0, 896(%rsp)
	vmovsd	1384(%r15), %xmm0
	vmovsd	1040(%r15), %xmm1
	vmovlhps	%xmm0, %xmm1, %xmm0
	vmovaps	%xmm0, 880(%rsp)
	vmovsd	696(%r15), %xmm0
	vmovsd	352(%r15), %xmm1
	vmovlhps	%xmm0, %xmm1, %xmm0
	vmovaps	%xmm0, 864(%rsp)
	vmovsd	8(%r15), %xmm0
	vmovsd	8(%rdx), %xmm1
	vmovlhps	%xmm0, %xmm1, %xmm0
	vmovaps	%xmm0, 848(%rsp)
	vmovsd	2080(%r15), %xmm0
	vmovsd	1736(%r15), %xmm1
	vmovlhps	%xmm0, %xmm1, %xmm0
	vmovaps	%xmm0, 832(%rsp)
	vmovsd	1392(%r15), %xmm0
	vmovsd	1048(%r15), %xmm1
	vmovlhps	%xmm0, %xmm1, %xmm0
	vmovaps	%xmm0, 816(%rsp)
	vmovsd	704(%r15), %xmm0
	vmovsd	360(%r15), %xmm1
	vmovlhps	%xmm0, %xmm1, %xmm0
	vmovaps	%xmm0, 800(%rsp)
	vmovsd	16(%r15), %xmm0
	vmovsd	16(%rdx), %xmm1
	vmovlhps	%xmm0, %xmm1, %xmm0
	vmovaps	%xmm0, 784(%rsp)
	vmovsd	2088(%r15), %xmm0
	vmovsd	1744(%r15), %xmm1
	vmovlhps	%xmm0, %xmm1, %xmm0
	vmovaps	%xmm0, 768(%rsp)
	vmovsd	1400(%r15), %xmm0
	vmovsd	1056(%r15), %xmm1
	vmovlhps	%xmm0, %xmm1, %xmm0
	vmovaps	%xmm0, 752(%rsp)
	vmovsd	712(%r15), %xmm0
	vmovsd	368(%r15), %xmm1
	vmovlhps	%xmm0, %xmm1, %xmm0
	vmovaps	%xmm0, 736(%rsp)
	vmovsd	24(%r15), %xmm0
	vmovsd	24(%rdx), %xmm1
	vmovlhps	%xmm0, %xmm1, %xmm0
	vmovaps	%xmm0, 720(%rsp)
	vmovsd	2096(%r15), %xmm0
	vmovsd	1752(%r15), %xmm1
	vmovlhps	%xmm0, %xmm1, %xmm0
	vmovaps	%xmm0, 704(%rsp)
	vmovsd	1408(%r15), %xmm0
	vmovsd	1064(%r15), %xmm1
	vmovlhps	%xmm0, %xmm1, %xmm0
	vmovaps	%xmm0, 688(%rsp)
	vmovsd	720(%r15), %xmm0
	vmovsd	376(%r15), %xmm1
	vmovlhps	%xmm0, %xmm1, %xmm0
	vmovaps	%xmm0, 672(%rsp)
	vmovsd	32(%r15), %xmm0
	vmovsd	32(%rdx), %xmm1
	vmovlhps	%xmm0, %xmm1, %xmm0
	vmovaps	%xmm0, 656(%rsp)
	vmovsd	2104(%r15), %xmm0
	vmovsd	1760(%r15), %xmm1
	vmovlhps	%xmm0, %xmm1, %xmm0
	vmovaps	%xmm0, 1104(%rsp)
	vmovsd	1416(%r15), %xmm0
	vmovsd	1072(%r15), %xmm1
	vmovlhps	%xmm0, %xmm1, %xmm0
	vmovaps	%xmm0, 1088(%rsp)
	vmovsd	728(%r15), %xmm0
	vmovsd	384(%r15), %xmm1
	vmovlhps	%xmm0, %xmm1, %xmm0
	vmovaps	%xmm0, 2256(%rsp)
	vmovsd	40(%r15), %xmm0
	vmovsd	40(%rdx), %xmm1
	vmovlhps	%xmm0, %xmm1, %xmm0
	vmovaps	%xmm0, 2240(%rsp)
	vmovsd	2112(%r15), %xmm0
	vmovsd	1768(%r15), %xmm1
	vmovlhps	%xmm0, %xmm1, %xmm0
	vmovaps	%xmm0, 2224(%rsp)
	vmovsd	1424(%r15), %xmm0
	vmovsd	1080(%r15), %xmm1
	vmovlhps	%xmm0, %xmm1, %xmm0
	vmovaps	%xmm0, 2208(%rsp)
	vmovsd	736(%r15), %xmm0
	vmovsd	392(%r15), %xmm1
	vmovlhps	%xmm0, %xmm1, %xmm0
	vmovaps	%xmm0, 2192(%rsp)
	vmovsd	48(%r15), %xmm0
	vmovsd	48(%rdx), %xmm1
	vmovlhps	%xmm0, %xmm1, %xmm0
	vmovaps	%xmm0, 2176(%rsp)
	vmovsd	2120(%r15), %xmm0
	vmovsd	1776(%r15), %xmm1
	vmovlhps	%xmm0, %xmm1, %xmm0
	vmovaps	%xmm0, 2160(%rsp)
	vmovsd	1432(%r15), %xmm0
	vmovsd	1088(%r15), %xmm1
	vmovlhps	%xmm0, %xmm1, %xmm0
	vmovaps	%xmm0, 2144(%rsp)
	vmovsd	744(%r15), %xmm0
	vmovsd	400(%r15), %xmm1
	vmovlhps	%xmm0, %xmm1, %xmm0
	vmovaps	%xmm0, 2128(%rsp)
	vmovsd	56(%r15), %xmm0
	vmovsd	56(%rdx), %xmm1
	vmovlhps	%xmm0, %xmm1, %xmm0
	vmovaps	%xmm0, 2112(%rsp)
	movq	(%r9,%r8), %rsi
	movq	%rsi, 1184(%rsp)
	vmovups	152(%rdx), %ymm0
	vmovups	184(%rdx), %ymm1
	vmovups	216(%rdx), %ymm2
	vmovups	248(%rdx), %ymm3
	vmovups	%ymm3, 208(%rsp)
	vmovups	%ymm2, 176(%rsp)
	vmovups	%ymm1, 144(%rsp)
	vmovups	%ymm0, 112(%rsp)
	leaq	64(%r8), %r14
	leaq	80(%r8), %rdx
	movq	%rdx, 1136(%rsp)
	leaq	96(%r8), %rdx
	movq	%rdx, 1160(%rsp)
	movq	%r8, 64(%rsp)
	leaq	112(%r8), %rdx
	movq	%rdx, 632(%rsp)
	decq	%r11
	shrq	$7, %r11
	movq	%r11, 8(%rsp)
	leaq	(%rsp,%rax), %rdi
	addq	$112, %rdi
	movl	$128, %edx
	subq	%rax, %rdx
	movq	%rdx, 1176(%rsp)
	movq	%r9, %rbp
	movq	%rcx, %rbx
	movq	%r12, 1152(%rsp)
	movq	72(%rsp), %r12
	movq	%r10, 1168(%rsp)
	vzeroupper
	vj_c_call	memcpy
	vmovups	112(%rsp), %ymm0
	vmovups	144(%rsp), %ymm1
	vmovups	176(%rsp), %ymm2
	vmovups	208(%rsp), %ymm3
	vmovups	%ymm3, 1056(%rsp)
	vmovups	%ymm2, 1024(%rsp)
	vmovups	%ymm1, 992(%rsp)
	vmovups	%ymm0, 960(%rsp)
	vmovups	%ymm0, 3680(%rsp)
	vmovups	%ymm1, 3712(%rsp)
	vmovups	%ymm2, 3744(%rsp)
	vmovups	%ymm3, 3776(%rsp)
	movq	40(%rsp), %rax
	movq	(%rbp,%rax), %rsi
	movq	%rsi, 40(%rsp)
	vmovups	152(%r15), %ymm0
	vmovups	184(%r15), %ymm1
	vmovups	216(%r15), %ymm2
	vmovups	248(%r15), %ymm3
	vmovups	%ymm3, 208(%rsp)
	vmovups	%ymm2, 176(%rsp)
	vmovups	%ymm1, 144(%rsp)
	vmovups	%ymm0, 112(%rsp)
	movq	16(%rsp), %rax
	leaq	(%rsp,%rax), %rdi
	addq	$112, %rdi
	movl	$128, %edx
	subq	%rax, %rdx
	movq	%rdx, 16(%rsp)
	vzeroupper
	vj_c_call	memcpy
	vmovups	112(%rsp), %ymm0
	vmovups	144(%rsp), %ymm1
	vmovups	176(%rsp), %ymm2
	vmovups	208(%rsp), %ymm3
	vmovups	%ymm3, 1056(%rsp)
	vmovups	%ymm2, 1024(%rsp)
	vmovups	%ymm1, 992(%rsp)
	vmovups	%ymm0, 960(%rsp)
	leaq	3808(%rsp), %r13
	vmovups	%ymm3, 96(%r13)
	vmovups	%ymm2, 64(%r13)
	vmovups	%ymm1, 32(%r13)
	vmovups	%ymm0, (%r13)
	movq	24(%rsp), %rax
	movq	(%rbp,%rax), %rsi
	movq	%rsi, 24(%rsp)
	vmovups	496(%r15), %ymm0
	vmovups	528(%r15), %ymm1
	vmovups	560(%r15), %ymm2
	vmovups	592(%r15), %ymm3
	vmovups	%ymm3, 208(%rsp)
	vmovups	%ymm2, 176(%rsp)
	vmovups	%ymm1, 144(%rsp)
	vmovups	%ymm0, 112(%rsp)
	movq	48(%rsp), %rax
	leaq	(%rsp,%rax), %rdi
	addq	$112, %rdi
	movl	$128, %edx
	subq	%rax, %rdx
	movq	%rdx, 48(%rsp)
	vzeroupper
	vj_c_call	memcpy
	vmovups	112(%rsp), %ymm0
	vmovups	144(%rsp), %ymm1
	vmovups	176(%rsp), %ymm2
	vmovups	208(%rsp), %ymm3
	vmovups	%ymm3, 1056(%rsp)
	vmovups	%ymm2, 1024(%rsp)
	vmovups	%ymm1, 992(%rsp)
	vmovups	%ymm0, 960(%rsp)
	vmovups	%ymm3, 224(%r13)
	vmovups	%ymm2, 192(%r13)
	vmovups	%ymm1, 160(%r13)
	vmovups	%ymm0, 128(%r13)
	movq	(%rbp,%rbx), %rsi
	movq	%rsi, 1144(%rsp)
	vmovups	840(%r15), %ymm0
	vmovups	872(%r15), %ymm1
	vmovups	904(%r15), %ymm2
	vmovups	936(%r15), %ymm3
	vmovups	%ymm3, 208(%rsp)
	vmovups	%ymm2, 176(%rsp)
	vmovups	%ymm1, 144(%rsp)
	vmovups	%ymm0, 112(%rsp)
	leaq	(%rsp,%r12), %rdi
	addq	$112, %rdi
	movl	$128, %edx
	subq	%r12, %rdx
	movq	%rdx, 72(%rsp)
	vzeroupper
	vj_c_call	memcpy
	vmovups	112(%rsp), %ymm0
	vmovups	144(%rsp), %ymm1
	vmovups	176(%rsp), %ymm2
	vmovups	208(%rsp), %ymm3
	vmovups	%ymm3, 1056(%rsp)
	vmovups	%ymm2, 1024(%rsp)
	vmovups	%ymm1, 992(%rsp)
	vmovups	%ymm0, 960(%rsp)
	vmovups	%ymm3, 352(%r13)
	vmovups	%ymm2, 320(%r13)
	vmovups	%ymm1, 288(%r13)
	vmovups	%ymm0, 256(%r13)
	movq	(%rbp,%r14), %rsi
	movq	%rsi, 1128(%rsp)
	vmovups	1184(%r15), %ymm0
	vmovups	1216(%r15), %ymm1
	vmovups	1248(%r15), %ymm2
	vmovups	1280(%r15), %ymm3
	vmovups	%ymm3, 208(%rsp)
	vmovups	%ymm2, 176(%rsp)
	vmovups	%ymm1, 144(%rsp)
	vmovups	%ymm0, 112(%rsp)
	movq	88(%rsp), %rax
	leaq	(%rsp,%rax), %rdi
	addq	$112, %rdi
	movl	$128, %r14d
	subq	%rax, %r14
	movq	%r14, %rdx
	vzeroupper
	vj_c_call	memcpy
	vmovups	112(%rsp), %ymm0
	vmovups	144(%rsp), %ymm1
	vmovups	176(%rsp), %ymm2
	vmovups	208(%rsp), %ymm3
	vmovups	%ymm3, 1056(%rsp)
	vmovups	%ymm2, 1024(%rsp)
	vmovups	%ymm1, 992(%rsp)
	vmovups	%ymm0, 960(%rsp)
	vmovups	%ymm3, 480(%r13)
	vmovups	%ymm2, 448(%r13)
	vmovups	%ymm1, 416(%r13)
	vmovups	%ymm0, 384(%r13)
	movq	1136(%rsp), %rax
	movq	(%rbp,%rax), %rsi
	movq	%rsi, 88(%rsp)
	vmovups	1528(%r15), %ymm0
	vmovups	1560(%r15), %ymm1
	vmovups	1592(%r15), %ymm2
	vmovups	1624(%r15), %ymm3
	vmovups	%ymm3, 208(%rsp)
	vmovups	%ymm2, 176(%rsp)
	vmovups	%ymm1, 144(%rsp)
	vmovups	%ymm0, 112(%rsp)
	movq	32(%rsp), %rax
	leaq	(%rsp,%rax), %rdi
	addq	$112, %rdi
	movl	$128, %ebx
	subq	%rax, %rbx
	movq	%rbx, %rdx
	vzeroupper
	vj_c_call	memcpy
	vmovups	112(%rsp), %ymm0
	vmovups	144(%rsp), %ymm1
	vmovups	176(%rsp), %ymm2
	vmovups	208(%rsp), %ymm3
	vmovups	%ymm3, 1056(%rsp)
	vmovups	%ymm2, 1024(%rsp)
	vmovups	%ymm1, 992(%rsp)
	vmovups	%ymm0, 960(%rsp)
	vmovups	%ymm3, 608(%r13)
	vmovups	%ymm2, 576(%r13)
	vmovups	%ymm1, 544(%r13)
	vmovups	%ymm0, 512(%r13)
	movq	1160(%rsp), %rax
	movq	(%rbp,%rax), %rsi
	movq	%rsi, 32(%rsp)
	vmovups	1872(%r15), %ymm0
	vmovups	1904(%r15), %ymm1
	vmovups	1936(%r15), %ymm2
	vmovups	1968(%r15), %ymm3
	vmovups	%ymm3, 208(%rsp)
	vmovups	%ymm2, 176(%rsp)
	vmovups	%ymm1, 144(%rsp)
	vmovups	%ymm0, 112(%rsp)
	movq	1152(%rsp), %rax
	leaq	(%rsp,%rax), %rdi
	addq	$112, %rdi
	movl	$128, %r12d
	subq	%rax, %r12
	movq	%r12, %rdx
	vzeroupper
	vj_c_call	memcpy
	vmovups	112(%rsp), %ymm0
	vmovups	144(%rsp), %ymm1
	vmovups	176(%rsp), %ymm2
	vmovups	208(%rsp), %ymm3
	vmovups	%ymm3, 1056(%rsp)
	vmovups	%ymm2, 1024(%rsp)
	vmovups	%ymm1, 992(%rsp)
	vmovups	%ymm0, 960(%rsp)
	vmovups	%ymm3, 736(%r13)
	vmovups	%ymm2, 704(%r13)
	vmovups	%ymm1, 672(%r13)
	vmovups	%ymm0, 640(%r13)
	movq	632(%rsp), %rax
	movq	(%rbp,%rax), %rsi
	movq	%rsi, 632(%rsp)
	vmovups	2216(%r15), %ymm0
	vmovups	2248(%r15), %ymm1
	vmovups	2280(%r15), %ymm2
	vmovups	2312(%r15), %ymm3
	vmovups	%ymm3, 208(%rsp)
	vmovups	%ymm2, 176(%rsp)
	vmovups	%ymm1, 144(%rsp)
	vmovups	%ymm0, 112(%rsp)
	movq	1168(%rsp), %rax
	leaq	(%rsp,%rax), %rdi
	addq	$112, %rdi
	movl	$128, %ebp
	subq	%rax, %rbp
	movq	%rbp, %rdx
	vzeroupper
	vj_c_call	memcpy
	vmovups	208(%rsp), %ymm0
	vmovups	%ymm0, 1056(%rsp)
	vmovups	%ymm0, 864(%r13)
	vmovups	176(%rsp), %ymm0
	vmovups	%ymm0, 1024(%rsp)
	vmovups	%ymm0, 832(%r13)
	vmovups	144(%rsp), %ymm0
	vmovups	%ymm0, 992(%rsp)
	vmovups	%ymm0, 800(%r13)
	vmovups	112(%rsp), %ymm0
	vmovups	%ymm0, 960(%rsp)
	vmovups	%ymm0, 768(%r13)
	movq	1176(%rsp), %rax
	addq	1184(%rsp), %rax
	movq	16(%rsp), %rcx
	addq	40(%rsp), %rcx
	movq	48(%rsp), %rdx
	addq	24(%rsp), %rdx
	movq	72(%rsp), %rsi
	addq	1144(%rsp), %rsi
	addq	1128(%rsp), %r14
	addq	88(%rsp), %rbx
	addq	32(%rsp), %r12
	addq	632(%rsp), %rbp
	movq	%rax, 1856(%rsp)
	movq	8(%rsp), %rax
	decq	%rax
	movq	%rax, 1864(%rsp)
	movq	%rcx, 1872(%rsp)
	movq	%rax, 1880(%rsp)
	movq	%rdx, 1888(%rsp)
	movq	%rax, 1896(%rsp)
	movq	%rsi, 1904(%rsp)
	movq	%rax, 1912(%rsp)
	movq	%r14, 1920(%rsp)
	movq	%rax, 1928(%rsp)
	movq	%rbx, 1936(%rsp)
	movq	%rax, 1944(%rsp)
	movq	%r12, 1952(%rsp)
	movq	%rax, 1960(%rsp)
	movq	%rbp, 1968(%rsp)
	movq	%rax, 1976(%rsp)
	movq	1192(%rsp), %rax
	movq	128(%rax), %rdx
	movq	128(%r15), %rsi
	movq	472(%r15), %r8
	movq	816(%r15), %r9
	movq	1160(%r15), %rax
	movq	1504(%r15), %rcx
	movq	1848(%r15), %rdi
	movq	2192(%r15), %r10
	vxorps	%xmm0, %xmm0, %xmm0
	vmovups	%ymm0, 1248(%rsp)
	vmovups	%ymm0, 1216(%rsp)
	vmovaps	640(%rsp), %xmm0
	vmovups	%xmm0, 160(%rsp)
	vmovaps	944(%rsp), %xmm0
	vmovups	%xmm0, 144(%rsp)
	vmovaps	928(%rsp), %xmm0
	vmovups	%xmm0, 128(%rsp)
	vmovaps	912(%rsp), %xmm0
	vmovups	%xmm0, 112(%rsp)
	vmovaps	896(%rsp), %xmm0
	vmovups	%xmm0, 224(%rsp)
	vmovaps	880(%rsp), %xmm0
	vmovups	%xmm0, 208(%rsp)
	vmovaps	864(%rsp), %xmm0
	vmovups	%xmm0, 192(%rsp)
	vmovaps	848(%rsp), %xmm0
	vmovups	%xmm0, 176(%rsp)
	vmovaps	832(%rsp), %xmm0
	vmovups	%xmm0, 288(%rsp)
	vmovaps	816(%rsp), %xmm0
	vmovups	%xmm0, 272(%rsp)
	vmovaps	800(%rsp), %xmm0
	vmovups	%xmm0, 256(%rsp)
	vmovaps	784(%rsp), %xmm0
	vmovups	%xmm0, 240(%rsp)
	vmovaps	768(%rsp), %xmm0
	vmovups	%xmm0, 352(%rsp)
	vmovaps	752(%rsp), %xmm0
	vmovups	%xmm0, 336(%rsp)
	vmovaps	736(%rsp), %xmm0
	vmovups	%xmm0, 320(%rsp)
	vmovaps	720(%rsp), %xmm0
	vmovups	%xmm0, 304(%rsp)
	vmovaps	704(%rsp), %xmm0
	vmovups	%xmm0, 416(%rsp)
	vmovaps	688(%rsp), %xmm0
	vmovups	%xmm0, 400(%rsp)
	vmovaps	672(%rsp), %xmm0
	vmovups	%xmm0, 384(%rsp)
	vmovaps	656(%rsp), %xmm0
	vmovups	%xmm0, 368(%rsp)
	vmovaps	1104(%rsp), %xmm0
	vmovups	%xmm0, 480(%rsp)
	vmovaps	1088(%rsp), %xmm0
	vmovups	%xmm0, 464(%rsp)
	vmovaps	2256(%rsp), %xmm0
	vmovups	%xmm0, 448(%rsp)
	vmovaps	2240(%rsp), %xmm0
	vmovups	%xmm0, 432(%rsp)
	vmovaps	2224(%rsp), %xmm0
	vmovups	%xmm0, 544(%rsp)
	vmovaps	2208(%rsp), %xmm0
	vmovups	%xmm0, 528(%rsp)
	vmovaps	2192(%rsp), %xmm0
	vmovups	%xmm0, 512(%rsp)
	vmovaps	2176(%rsp), %xmm0
	vmovups	%xmm0, 496(%rsp)
	vmovaps	2160(%rsp), %xmm0
	vmovups	%xmm0, 608(%rsp)
	vmovaps	2144(%rsp), %xmm0
	vmovups	%xmm0, 592(%rsp)
	vmovaps	2128(%rsp), %xmm0
	vmovups	%xmm0, 576(%rsp)
	vmovaps	2112(%rsp), %xmm0
	vmovups	%xmm0, 560(%rsp)
	vxorps	%xmm0, %xmm0, %xmm0
	vmovaps	%xmm0, 1200(%rsp)
	vmovups	3776(%rsp), %ymm0
	vmovups	%ymm0, 1056(%rsp)
	vmovups	3744(%rsp), %ymm0
	vmovups	%ymm0, 1024(%rsp)
	vmovups	3712(%rsp), %ymm0
	vmovups	%ymm0, 992(%rsp)
	vmovups	3680(%rsp), %ymm0
	vmovups	%ymm0, 960(%rsp)
	vmovups	96(%r13), %ymm0
	vmovups	%ymm0, 3008(%rsp)
	vmovups	64(%r13), %ymm0
	vmovups	%ymm0, 2976(%rsp)
	vmovups	32(%r13), %ymm0
	vmovups	%ymm0, 2944(%rsp)
	vmovups	(%r13), %ymm0
	vmovups	%ymm0, 2912(%rsp)
	vmovups	224(%r13), %ymm0
	vmovups	%ymm0, 2880(%rsp)
	vmovups	192(%r13), %ymm0
	vmovups	%ymm0, 2848(%rsp)
	vmovups	160(%r13), %ymm0
	vmovups	%ymm0, 2816(%rsp)
	vmovups	128(%r13), %ymm0
	vmovups	%ymm0, 2784(%rsp)
	vmovups	352(%r13), %ymm0
	vmovups	%ymm0, 2496(%rsp)
	vmovups	320(%r13), %ymm0
	vmovups	%ymm0, 2464(%rsp)
	vmovups	288(%r13), %ymm0
	vmovups	%ymm0, 2432(%rsp)
	vmovups	256(%r13), %ymm0
	vmovups	%ymm0, 2400(%rsp)
	vmovups	480(%r13), %ymm0
	vmovups	%ymm0, 2368(%rsp)
	vmovups	448(%r13), %ymm0
	vmovups	%ymm0, 2336(%rsp)
	vmovups	416(%r13), %ymm0
	vmovups	%ymm0, 2304(%rsp)
	vmovups	384(%r13), %ymm0
	vmovups	%ymm0, 2272(%rsp)
	vmovups	608(%r13), %ymm0
	vmovups	%ymm0, 2752(%rsp)
	vmovups	576(%r13), %ymm0
	vmovups	%ymm0, 2720(%rsp)
	vmovups	544(%r13), %ymm0
	vmovups	%ymm0, 2688(%rsp)
	vmovups	512(%r13), %ymm0
	vmovups	%ymm0, 2656(%rsp)
	vmovups	736(%r13), %ymm0
	vmovups	%ymm0, 2624(%rsp)
	vmovups	704(%r13), %ymm0
	vmovups	%ymm0, 2592(%rsp)
	vmovups	672(%r13), %ymm0
	vmovups	%ymm0, 2560(%rsp)
	vmovups	640(%r13), %ymm0
	vmovups	%ymm0, 2528(%rsp)
	vmovups	864(%r13), %ymm0
	vmovups	%ymm0, 3136(%rsp)
	vmovups	832(%r13), %ymm0
	vmovups	%ymm0, 3104(%rsp)
	vmovups	800(%r13), %ymm0
	vmovups	%ymm0, 3072(%rsp)
	vmovups	768(%r13), %ymm0
	movq	%rax, %r13
	vmovups	%ymm0, 3040(%rsp)
	movq	%rdx, %r14
	leaq	128(%rdx), %rax
	movq	%rax, 1280(%rsp)
	movq	%rsi, %r15
	leaq	128(%rsi), %rax
	movq	%rax, 1288(%rsp)
	movq	%r8, %rbp
	leaq	128(%r8), %rax
	movq	%rax, 1296(%rsp)
	movq	%r9, 24(%rsp)
	leaq	128(%r9), %rax
	movq	%rax, 1304(%rsp)
	leaq	128(%r13), %rax
	movq	%rax, 1312(%rsp)
	movq	%rcx, %rbx
	leaq	128(%rcx), %rax
	movq	%rax, 1320(%rsp)
	movq	%rdi, %r12
	leaq	128(%rdi), %rax
	movq	%rax, 1328(%rsp)
	movq	%r10, 40(%rsp)
	leaq	128(%r10), %rax
	movq	%rax, 1336(%rsp)
	leaq	960(%rsp), %rax
	movq	%rax, 1984(%rsp)
	movq	$1, 1992(%rsp)
	leaq	2912(%rsp), %rax
	movq	%rax, 2000(%rsp)
	movq	$1, 2008(%rsp)
	leaq	2784(%rsp), %rax
	movq	%rax, 2016(%rsp)
	movq	$1, 2024(%rsp)
	leaq	2400(%rsp), %rax
	movq	%rax, 2032(%rsp)
	movq	$1, 2040(%rsp)
	leaq	2272(%rsp), %rax
	movq	%rax, 2048(%rsp)
	movq	$1, 2056(%rsp)
	leaq	2656(%rsp), %rax
	movq	%rax, 2064(%rsp)
	movq	$1, 2072(%rsp)
	leaq	2528(%rsp), %rax
	movq	%rax, 2080(%rsp)
	movq	$1, 2088(%rsp)
	leaq	3040(%rsp), %rax
	movq	%rax, 2096(%rsp)
	movq	$1, 2104(%rsp)
	leaq	112(%rsp), %rdi
	leaq	1984(%rsp), %rsi
	leaq	1280(%rsp), %rdx
	leaq	1200(%rsp), %rcx
	vzeroupper
	callq	blake2_compress..many..blake2b..eight..compress_blocks_1_v4
	movq	8(%rsp), %rcx
	decq	%rcx
	je	5f
	addq	$256, %r14
	addq	$256, %r15
	addq	$256, %rbp
	movq	24(%rsp), %rax
	addq	$256, %rax
	addq	$256, %r13
	addq	$256, %rbx
	addq	$256, %r12
	movq	40(%rsp), %rdx
	addq	$256, %rdx
	movq	%r14, 1216(%rsp)
	movq	%r15, 1224(%rsp)
	movq	%rbp, 1232(%rsp)
	movq	%rax, 1240(%rsp)
	movq	%r13, 1248(%rsp)
	movq	%rbx, 1256(%rsp)
	movq	%r12, 1264(%rsp)
	movq	%rdx, 1272(%rsp)
	leaq	112(%rsp), %rdi
	movq	%rcx, %rbx
	leaq	1856(%rsp), %rsi
	leaq	1216(%rsp), %rdx
	leaq	1200(%rsp), %rcx
	callq	blake2_compress..many..blake2b..eight..compress_blocks_1_v4
	movq	%rbx, %rcx
5:
	vmovups	176(%rsp), %xmm0
	vmovups	304(%rsp), %xmm1
	vmovups	240(%rsp), %xmm2
	vmovups	432(%rsp), %xmm3
	vmovups	112(%rsp), %xmm4
	vmovlhps	%xmm0, %xmm4, %xmm5
	vmovaps	%xmm5, 1344(%rsp)
	vmovups	368(%rsp), %xmm5
	vmovlhps	%xmm1, %xmm2, %xmm6
	vmovaps	%xmm6, 1360(%rsp)
	vmovups	560(%rsp), %xmm6
	vmovlhps	%xmm3, %xmm5, %xmm7
	vmovaps	%xmm7, 1376(%rsp)
	vmovups	496(%rsp), %xmm7
	vmovlhps	%xmm6, %xmm7, %xmm8
	vmovaps	%xmm8, 1392(%rsp)
	vmovups	192(%rsp), %xmm8
	vunpckhpd	%xmm0, %xmm4, %xmm0
	vmovaps	%xmm0, 1408(%rsp)
	vmovups	320(%rsp), %xmm0
	vunpckhpd	%xmm1, %xmm2, %xmm1
	vmovaps	%xmm1, 1424(%rsp)
	vmovups	256(%rsp), %xmm1
	vunpckhpd	%xmm3, %xmm5, %xmm2
	vmovaps	%xmm2, 1440(%rsp)
	vmovups	448(%rsp), %xmm2
	vunpckhpd	%xmm6, %xmm7, %xmm3
	vmovaps	%xmm3, 1456(%rsp)
	vmovups	128(%rsp), %xmm3
	vmovlhps	%xmm8, %xmm3, %xmm4
	vmovaps	%xmm4, 1472(%rsp)
	vmovups	384(%rsp), %xmm4
	vmovlhps	%xmm0, %xmm1, %xmm5
	vmovaps	%xmm5, 1488(%rsp)
	vmovups	576(%rsp), %xmm5
	vmovlhps	%xmm2, %xmm4, %xmm6
	vmovaps	%xmm6, 1504(%rsp)
	vmovups	512(%rsp), %xmm6
	vmovlhps	%xmm5, %xmm6, %xmm7
	vmovaps	%xmm7, 1520(%rsp)
	vmovups	208(%rsp), %xmm7
	vunpckhpd	%xmm8, %xmm3, %xmm3
	vmovaps	%xmm3, 1536(%rsp)
	vmovups	336(%rsp), %xmm3
	vunpckhpd	%xmm0, %xmm1, %xmm0
	vmovaps	%xmm0, 1552(%rsp)
	vmovups	272(%rsp), %xmm0
	vunpckhpd	%xmm2, %xmm4, %xmm1
	vmovaps	%xmm1, 1568(%rsp)
	vmovups	464(%rsp), %xmm1
	vunpckhpd	%xmm5, %xmm6, %xmm2
	vmovaps	%xmm2, 1584(%rsp)
	vmovups	144(%rsp), %xmm2
	vmovlhps	%xmm7, %xmm2, %xmm4
	vmovaps	%xmm4, 1600(%rsp)
	vmovups	400(%rsp), %xmm4
	vmovlhps	%xmm3, %xmm0, %xmm5
	vmovaps	%xmm5, 1616(%rsp)
	vmovups	592(%rsp), %xmm5
	vmovlhps	%xmm1, %xmm4, %xmm6
	vmovaps	%xmm6, 1632(%rsp)
	vmovups	528(%rsp), %xmm6
	vmovlhps	%xmm5, %xmm6, %xmm8
	vmovaps	%xmm8, 1648(%rsp)
	vmovups	224(%rsp), %xmm8
	vunpckhpd	%xmm7, %xmm2, %xmm2
	vmovaps	%xmm2, 1664(%rsp)
	vmovups	160(%rsp), %xmm2
	vunpckhpd	%xmm3, %xmm0, %xmm0
	vmovaps	%xmm0, 1680(%rsp)
	vmovups	352(%rsp), %xmm0
	vunpckhpd	%xmm1, %xmm4, %xmm1
	vmovaps	%xmm1, 1696(%rsp)
	vmovups	288(%rsp), %xmm1
	vunpckhpd	%xmm5, %xmm6, %xmm3
	vmovaps	%xmm3, 1712(%rsp)
	vmovups	480(%rsp), %xmm3
	vmovlhps	%xmm8, %xmm2, %xmm4
	vmovaps	%xmm4, 1728(%rsp)
	vmovups	416(%rsp), %xmm4
	vmovlhps	%xmm0, %xmm1, %xmm5
	vmovaps	%xmm5, 1744(%rsp)
	vmovups	608(%rsp), %xmm5
	vmovlhps	%xmm3, %xmm4, %xmm6
	vmovaps	%xmm6, 1760(%rsp)
	vmovups	544(%rsp), %xmm6
	vmovlhps	%xmm5, %xmm6, %xmm7
	vmovaps	%xmm7, 1776(%rsp)
	vunpckhpd	%xmm8, %xmm2, %xmm2
	vmovaps	%xmm2, 1792(%rsp)
	vunpckhpd	%xmm0, %xmm1, %xmm0
	vmovaps	%xmm0, 1808(%rsp)
	vunpckhpd	%xmm3, %xmm4, %xmm0
	vmovaps	%xmm0, 1824(%rsp)
	vunpckhpd	%xmm5, %xmm6, %xmm0
	vmovaps	%xmm0, 1840(%rsp)
	shlq	$7, %rcx
	leaq	128(%rcx), %rax
	movq	%rax, 24(%rsp)
	movq	64(%rsp), %rax
	addq	1120(%rsp), %rax
	imulq	$344, 96(%rsp), %r13
	addq	80(%rsp), %r13
	xorl	%ebp, %ebp
	xorl	%ebx, %ebx
	movq	%rax, 64(%rsp)
	movq	%rcx, 8(%rsp)
	jmp	9f
	.p2align	4
6:
	movq	%r14, %rsi
	movq	%r12, %rdx
7:
	vzeroupper
	callq	blake2_state..blake2b..State..absorb_blocks_1_v4
8:
	movq	64(%rsp), %rax
	movq	8(%rsp), %rcx
	addq	$344, %rbx
	addq	$16, %rbp
	cmpq	$2752, %rbx
	je	16f
9:
	movq	-8(%rax,%rbp), %r14
	movq	(%rax,%rbp), %r12
	movl	136(%r13,%rbx), %eax
	subq	%rax, %rcx
	leaq	256(%rcx), %r15
	cmpq	%r15, %r12
	cmovbq	%r12, %r15
	subq	%r15, %r12
	leaq	(%r14,%rcx), %rsi
	addq	$128, %rsi
	vmovups	1344(%rsp,%rbp,4), %ymm0
	vmovups	1376(%rsp,%rbp,4), %ymm1
	vmovups	%ymm1, 32(%r13,%rbx)
	vmovups	%ymm0, (%r13,%rbx)
	subq	$-128, %rcx
	movq	24(%rsp), %rax
	addq	%rax, 128(%r13,%rbx)
	addq	%r15, %r14
	subq	%rcx, %r15
	movl	%r15d, 136(%r13,%rbx)
	vxorps	%xmm0, %xmm0, %xmm0
	vmovups	%ymm0, 208(%rsp)
	vmovups	%ymm0, 176(%rsp)
	vmovups	%ymm0, 144(%rsp)
	vmovups	%ymm0, 112(%rsp)
	leaq	112(%rsp), %rdi
	movq	%r15, %rdx
	vzeroupper
	vj_c_call	memcpy
	vmovups	112(%rsp), %ymm0
	vmovups	144(%rsp), %ymm1
	vmovups	176(%rsp), %ymm2
	vmovups	208(%rsp), %ymm3
	vmovups	%ymm0, 152(%r13,%rbx)
	vmovups	%ymm1, 184(%r13,%rbx)
	vmovups	%ymm2, 216(%r13,%rbx)
	vmovups	%ymm3, 248(%r13,%rbx)
	leaq	(%rbx,%r13), %rdi
	cmpq	$1, %r12
	jne	6b
	cmpl	$128, %r15d
	jae	10f
	movzbl	(%r14), %eax
	movl	%r15d, %ecx
	andl	$127, %ecx
	movb	%al, 152(%rcx,%rdi)
	leal	1(%r15), %eax
	movl	%eax, 136(%r13,%rbx)
	jmp	8b
	.p2align	4
10:
	movl	$1, %edx
	movq	%r14, %rsi
	jmp	7b
	.p2align	4
11:
	cmpq	$3, %rax
	jbe	17f
	leaq	344(%rbp), %r10
	leaq	688(%rbp), %rbx
	leaq	32(%r8), %rax
	movq	%rax, 24(%rsp)
	leaq	1032(%rbp), %r11
	movq	8(%r9,%r8), %rdx
	movl	136(%r14,%rbp), %eax
	movq	%r14, %rdi
	movl	480(%r14,%rbp), %r14d
	movl	824(%rdi,%rbp), %r12d
	leaq	(%rdx,%rax), %rcx
	movq	24(%r9,%r8), %rsi
	movq	%r14, 16(%rsp)
	addq	%r14, %rsi
	cmpq	%rcx, %rsi
	cmovaeq	%rcx, %rsi
	movl	1168(%rdi,%rbp), %r14d
	movq	%rbx, %rdi
	movq	40(%r9,%r8), %rcx
	movq	%r12, 48(%rsp)
	addq	%r12, %rcx
	leaq	16(%r8), %r12
	cmpq	%rsi, %rcx
	cmovaeq	%rsi, %rcx
	movq	56(%r9,%r8), %rbx
	movq	%r14, 72(%rsp)
	addq	%r14, %rbx
	cmpq	%rcx, %rbx
	cmovaeq	%rcx, %rbx
	leaq	48(%r8), %rcx
	cmpq	$129, %rbx
	jae	14f
12:
	movq	80(%rsp), %r14
	addq	%r14, %rbp
	movq	(%r9,%r8), %rsi
	cmpq	$1, %rdx
	jne	1b
	jmp	18f
	.p2align	4
13:
	leaq	344(%rbp), %r10
	leaq	688(%rbp), %rdi
	leaq	1032(%rbp), %r11
	leaq	16(%r8), %r12
	cmpq	$129, %rbx
	jb	12b
14:
	movq	%r13, 96(%rsp)
	movq	%rcx, 88(%rsp)
	movq	80(%rsp), %rcx
	addq	%rcx, %rbp
	movq	%r10, %r15
	addq	%rcx, %r15
	addq	%rcx, %rdi
	addq	%rcx, %r11
	movq	%r11, 8(%rsp)
	decq	%rbx
	shrq	$7, %rbx
	movq	%rbx, 640(%rsp)
	vmovsd	(%r11), %xmm0
	vmovsd	(%rdi), %xmm1
	vmovlhps	%xmm0, %xmm1, %xmm0
	vmovaps	%xmm0, 944(%rsp)
	vmovsd	(%r15), %xmm0
	vmovsd	(%rbp), %xmm1
	vmovlhps	%xmm0, %xmm1, %xmm0
	vmovaps	%xmm0, 928(%rsp)
	vmovsd	8(%r11), %xmm0
	vmovsd	8(%rdi), %xmm1
	vmovlhps	%xmm0, %xmm1, %xmm0
	vmovaps	%xmm0, 912(%rsp)
	vmovsd	8(%r15), %xmm0
	vmovsd	8(%rbp), %xmm1
	vmovlhps	%xmm0, %xmm1, %xmm0
	vmovaps	%xmm0, 896(%rsp)
	vmovsd	16(%r11), %xmm0
	vmovsd	16(%rdi), %xmm1
	vmovlhps	%xmm0, %xmm1, %xmm0
	vmovaps	%xmm0, 880(%rsp)
	vmovsd	16(%r15), %xmm0
	vmovsd	16(%rbp), %xmm1
	vmovlhps	%xmm0, %xmm1, %xmm0
	vmovaps	%xmm0, 864(%rsp)
	vmovsd	24(%r11), %xmm0
	vmovsd	24(%rdi), %xmm1
	vmovlhps	%xmm0, %xmm1, %xmm0
	vmovaps	%xmm0, 848(%rsp)
	vmovsd	24(%r15), %xmm0
	vmovsd	24(%rbp), %xmm1
	vmovlhps	%xmm0, %xmm1, %xmm0
	vmovaps	%xmm0, 832(%rsp)
	vmovsd	32(%r11), %xmm0
	vmovsd	32(%rdi), %xmm1
	vmovlhps	%xmm0, %xmm1, %xmm0
	vmovaps	%xmm0, 816(%rsp)
	vmovsd	32(%r15), %xmm0
	vmovsd	32(%rbp), %xmm1
	vmovlhps	%xmm0, %xmm1, %xmm0
	vmovaps	%xmm0, 800(%rsp)
	vmovsd	40(%r11), %xmm0
	vmovsd	40(%rdi), %xmm1
	vmovlhps	%xmm0, %xmm1, %xmm0
	vmovaps	%xmm0, 784(%rsp)
	vmovsd	40(%r15), %xmm0
	vmovsd	40(%rbp), %xmm1
	vmovlhps	%xmm0, %xmm1, %xmm0
	vmovaps	%xmm0, 768(%rsp)
	vmovsd	48(%r11), %xmm0
	vmovsd	48(%rdi), %xmm1
	vmovlhps	%xmm0, %xmm1, %xmm0
	vmovaps	%xmm0, 752(%rsp)
	vmovsd	48(%r15), %xmm0
	vmovsd	48(%rbp), %xmm1
	vmovlhps	%xmm0, %xmm1, %xmm0
	vmovaps	%xmm0, 736(%rsp)
	vmovsd	56(%r11), %xmm0
	vmovsd	56(%rdi), %xmm1
	vmovlhps	%xmm0, %xmm1, %xmm0
	vmovaps	%xmm0, 720(%rsp)
	vmovsd	56(%r15), %xmm0
	vmovsd	56(%rbp), %xmm1
	vmovlhps	%xmm0, %xmm1, %xmm0
	vmovaps	%xmm0, 704(%rsp)
	movq	%r8, 64(%rsp)
	movq	(%r9,%r8), %rsi
	movq	%rsi, 688(%rsp)
	vmovups	152(%rbp), %ymm0
	vmovups	184(%rbp), %ymm1
	vmovups	216(%rbp), %ymm2
	vmovups	248(%rbp), %ymm3
	vmovups	%ymm3, 208(%rsp)
	vmovups	%ymm2, 176(%rsp)
	vmovups	%ymm1, 144(%rsp)
	vmovups	%ymm0, 112(%rsp)
	movq	%rdi, %r14
	leaq	(%rsp,%rax), %rdi
	addq	$112, %rdi
	movl	$128, %edx
	subq	%rax, %rdx
	movq	%rdx, 672(%rsp)
	movq	%r9, %rbx
	vzeroupper
	vj_c_call	memcpy
	vmovups	112(%rsp), %ymm0
	vmovups	144(%rsp), %ymm1
	vmovups	176(%rsp), %ymm2
	vmovups	208(%rsp), %ymm3
	vmovups	%ymm3, 1440(%rsp)
	vmovups	%ymm2, 1408(%rsp)
	vmovups	%ymm1, 1376(%rsp)
	vmovups	%ymm0, 1344(%rsp)
	vmovups	%ymm0, 3168(%rsp)
	vmovups	%ymm1, 3200(%rsp)
	vmovups	%ymm2, 3232(%rsp)
	vmovups	%ymm3, 3264(%rsp)
	movq	%r12, 40(%rsp)
	movq	(%rbx,%r12), %rsi
	movq	%rsi, 656(%rsp)
	vmovups	152(%r15), %ymm0
	vmovups	184(%r15), %ymm1
	vmovups	216(%r15), %ymm2
	vmovups	248(%r15), %ymm3
	vmovups	%ymm3, 208(%rsp)
	vmovups	%ymm2, 176(%rsp)
	vmovups	%ymm1, 144(%rsp)
	vmovups	%ymm0, 112(%rsp)
	movq	16(%rsp), %rax
	leaq	(%rsp,%rax), %rdi
	addq	$112, %rdi
	movl	$128, %r12d
	subq	%rax, %r12
	movq	%r12, %rdx
	vzeroupper
	vj_c_call	memcpy
	vmovups	112(%rsp), %ymm0
	vmovups	144(%rsp), %ymm1
	vmovups	176(%rsp), %ymm2
	vmovups	208(%rsp), %ymm3
	vmovups	%ymm3, 1440(%rsp)
	vmovups	%ymm2, 1408(%rsp)
	vmovups	%ymm1, 1376(%rsp)
	vmovups	%ymm0, 1344(%rsp)
	leaq	3296(%rsp), %r13
	vmovups	%ymm3, 96(%r13)
	vmovups	%ymm2, 64(%r13)
	vmovups	%ymm1, 32(%r13)
	vmovups	%ymm0, (%r13)
	movq	24(%rsp), %rax
	movq	(%rbx,%rax), %rsi
	movq	%rsi, 16(%rsp)
	movq	%r14, 32(%rsp)
	vmovups	152(%r14), %ymm0
	vmovups	184(%r14), %ymm1
	vmovups	216(%r14), %ymm2
	vmovups	248(%r14), %ymm3
	vmovups	%ymm3, 208(%rsp)
	vmovups	%ymm2, 176(%rsp)
	vmovups	%ymm1, 144(%rsp)
	vmovups	%ymm0, 112(%rsp)
	movq	48(%rsp), %rax
	leaq	(%rsp,%rax), %rdi
	addq	$112, %rdi
	movl	$128, %r14d
	subq	%rax, %r14
	movq	%r14, %rdx
	vzeroupper
	vj_c_call	memcpy
	vmovups	112(%rsp), %ymm0
	vmovups	144(%rsp), %ymm1
	vmovups	176(%rsp), %ymm2
	vmovups	208(%rsp), %ymm3
	vmovups	%ymm3, 1440(%rsp)
	vmovups	%ymm2, 1408(%rsp)
	vmovups	%ymm1, 1376(%rsp)
	vmovups	%ymm0, 1344(%rsp)
	vmovups	%ymm3, 224(%r13)
	vmovups	%ymm2, 192(%r13)
	vmovups	%ymm1, 160(%r13)
	vmovups	%ymm0, 128(%r13)
	movq	88(%rsp), %rax
	movq	(%rbx,%rax), %rsi
	movq	%rsi, 48(%rsp)
	movq	8(%rsp), %rax
	vmovups	152(%rax), %ymm0
	vmovups	184(%rax), %ymm1
	vmovups	216(%rax), %ymm2
	vmovups	248(%rax), %ymm3
	vmovups	%ymm3, 208(%rsp)
	vmovups	%ymm2, 176(%rsp)
	vmovups	%ymm1, 144(%rsp)
	vmovups	%ymm0, 112(%rsp)
	movq	72(%rsp), %rax
	leaq	(%rsp,%rax), %rdi
	addq	$112, %rdi
	movl	$128, %ebx
	subq	%rax, %rbx
	movq	%rbx, %rdx
	vzeroupper
	vj_c_call	memcpy
	vmovups	112(%rsp), %ymm0
	vmovups	144(%rsp), %ymm1
	vmovups	176(%rsp), %ymm2
	vmovups	208(%rsp), %ymm3
	vmovups	%ymm3, 1440(%rsp)
	vmovups	%ymm2, 1408(%rsp)
	vmovups	%ymm1, 1376(%rsp)
	vmovups	%ymm0, 1344(%rsp)
	vmovups	%ymm3, 352(%r13)
	vmovups	%ymm2, 320(%r13)
	vmovups	%ymm1, 288(%r13)
	vmovups	%ymm0, 256(%r13)
	movq	672(%rsp), %rax
	addq	688(%rsp), %rax
	addq	656(%rsp), %r12
	addq	16(%rsp), %r14
	addq	48(%rsp), %rbx
	movq	%rax, 2272(%rsp)
	movq	640(%rsp), %rax
	decq	%rax
	movq	%rax, 2280(%rsp)
	movq	%r12, 2288(%rsp)
	movq	%rax, 2296(%rsp)
	movq	%r14, 2304(%rsp)
	movq	%rax, 2312(%rsp)
	movq	%rbx, 2320(%rsp)
	movq	640(%rsp), %rbx
	movq	%rax, 2328(%rsp)
	movq	128(%rbp), %rax
	movq	%r15, 48(%rsp)
	movq	128(%r15), %r14
	movq	32(%rsp), %rcx
	movq	128(%rcx), %r15
	movq	8(%rsp), %rcx
	movq	128(%rcx), %r12
	vxorps	%xmm0, %xmm0, %xmm0
	vmovups	%ymm0, 2528(%rsp)
	vmovaps	944(%rsp), %xmm0
	vmovups	%xmm0, 128(%rsp)
	vmovaps	928(%rsp), %xmm0
	vmovups	%xmm0, 112(%rsp)
	vmovaps	912(%rsp), %xmm0
	vmovups	%xmm0, 160(%rsp)
	vmovaps	896(%rsp), %xmm0
	vmovups	%xmm0, 144(%rsp)
	vmovaps	880(%rsp), %xmm0
	vmovups	%xmm0, 192(%rsp)
	vmovaps	864(%rsp), %xmm0
	vmovups	%xmm0, 176(%rsp)
	vmovaps	848(%rsp), %xmm0
	vmovups	%xmm0, 224(%rsp)
	vmovaps	832(%rsp), %xmm0
	vmovups	%xmm0, 208(%rsp)
	vmovaps	816(%rsp), %xmm0
	vmovups	%xmm0, 256(%rsp)
	vmovaps	800(%rsp), %xmm0
	vmovups	%xmm0, 240(%rsp)
	vmovaps	784(%rsp), %xmm0
	vmovups	%xmm0, 288(%rsp)
	vmovaps	768(%rsp), %xmm0
	vmovups	%xmm0, 272(%rsp)
	vmovaps	752(%rsp), %xmm0
	vmovups	%xmm0, 320(%rsp)
	vmovaps	736(%rsp), %xmm0
	vmovups	%xmm0, 304(%rsp)
	vmovaps	720(%rsp), %xmm0
	vmovups	%xmm0, 352(%rsp)
	vmovaps	704(%rsp), %xmm0
	vmovups	%xmm0, 336(%rsp)
	movq	$0, 3040(%rsp)
	movq	%rax, 16(%rsp)
	leaq	128(%rax), %rax
	leaq	128(%r14), %rcx
	leaq	128(%r15), %rdx
	leaq	128(%r12), %rsi
	movq	%rax, 2656(%rsp)
	movq	%rcx, 2664(%rsp)
	movq	%rdx, 2672(%rsp)
	movq	%rsi, 2680(%rsp)
	vmovups	3168(%rsp), %ymm0
	vmovups	3200(%rsp), %ymm1
	vmovups	3232(%rsp), %ymm2
	vmovups	3264(%rsp), %ymm3
	vmovups	%ymm3, 1440(%rsp)
	vmovups	%ymm2, 1408(%rsp)
	vmovups	%ymm1, 1376(%rsp)
	vmovups	%ymm0, 1344(%rsp)
	vmovups	(%r13), %ymm0
	vmovups	32(%r13), %ymm1
	vmovups	64(%r13), %ymm2
	vmovups	96(%r13), %ymm3
	vmovups	%ymm3, 1056(%rsp)
	vmovups	%ymm2, 1024(%rsp)
	vmovups	%ymm1, 992(%rsp)
	vmovups	%ymm0, 960(%rsp)
	vmovups	128(%r13), %ymm0
	vmovups	160(%r13), %ymm1
	vmovups	192(%r13), %ymm2
	vmovups	224(%r13), %ymm3
	vmovups	%ymm3, 3008(%rsp)
	vmovups	%ymm2, 2976(%rsp)
	vmovups	%ymm1, 2944(%rsp)
	vmovups	%ymm0, 2912(%rsp)
	vmovups	256(%r13), %ymm0
	vmovups	288(%r13), %ymm1
	vmovups	320(%r13), %ymm2
	vmovups	352(%r13), %ymm3
	vmovups	%ymm3, 2880(%rsp)
	vmovups	%ymm2, 2848(%rsp)
	vmovups	%ymm1, 2816(%rsp)
	vmovups	%ymm0, 2784(%rsp)
	leaq	1344(%rsp), %rax
	movq	%rax, 2400(%rsp)
	movq	$1, 2408(%rsp)
	leaq	960(%rsp), %rax
	movq	%rax, 2416(%rsp)
	movq	$1, 2424(%rsp)
	leaq	2912(%rsp), %rax
	movq	%rax, 2432(%rsp)
	movq	$1, 2440(%rsp)
	leaq	2784(%rsp), %rax
	movq	%rax, 2448(%rsp)
	movq	$1, 2456(%rsp)
	leaq	112(%rsp), %rdi
	leaq	2400(%rsp), %rsi
	leaq	2656(%rsp), %rdx
	leaq	3040(%rsp), %rcx
	vzeroupper
	callq	blake2_compress..many..blake2b..compress_blocks_1_v4
	decq	%rbx
	je	15f
	movq	16(%rsp), %rax
	addq	$256, %rax
	addq	$256, %r14
	addq	$256, %r15
	addq	$256, %r12
	movq	%rax, 2528(%rsp)
	movq	%r14, 2536(%rsp)
	movq	%r15, 2544(%rsp)
	movq	%r12, 2552(%rsp)
	leaq	112(%rsp), %rdi
	leaq	2272(%rsp), %rsi
	leaq	2528(%rsp), %rdx
	leaq	3040(%rsp), %rcx
	callq	blake2_compress..many..blake2b..compress_blocks_1_v4
15:
	movq	112(%rsp), %rax
	movq	120(%rsp), %rcx
	movq	%rcx, 736(%rsp)
	movq	128(%rsp), %rcx
	movq	%rcx, 864(%rsp)
	movq	136(%rsp), %rcx
	movq	%rcx, 72(%rsp)
	movq	144(%rsp), %rcx
	movq	152(%rsp), %rdx
	movq	%rdx, 720(%rsp)
	movq	160(%rsp), %rdx
	movq	%rdx, 848(%rsp)
	movq	168(%rsp), %rdx
	movq	%rdx, 640(%rsp)
	movq	208(%rsp), %rdx
	shlq	$7, %rbx
	movq	64(%rsp), %rsi
	movq	56(%rsp), %rdi
	movq	(%rdi,%rsi), %r14
	movq	8(%rdi,%rsi), %r12
	movl	136(%rbp), %esi
	movq	%rbx, %rdi
	subq	%rsi, %rdi
	leaq	256(%rdi), %r15
	cmpq	%r15, %r12
	cmovbq	%r12, %r15
	subq	%r15, %r12
	leaq	(%r14,%rdi), %rsi
	addq	$128, %rsi
	subq	$-128, %rdi
	addq	%r15, %r14
	subq	%rdi, %r15
	movq	216(%rsp), %rdi
	movq	%rdi, 704(%rsp)
	movq	224(%rsp), %rdi
	movq	%rdi, 832(%rsp)
	movq	232(%rsp), %rdi
	movq	%rdi, 64(%rsp)
	movq	176(%rsp), %rdi
	movq	240(%rsp), %r8
	movq	248(%rsp), %r9
	movq	%r9, 688(%rsp)
	movq	256(%rsp), %r9
	movq	%r9, 816(%rsp)
	movq	264(%rsp), %r9
	movq	%r9, 944(%rsp)
	movq	272(%rsp), %r9
	movq	280(%rsp), %r10
	movq	%r10, 656(%rsp)
	movq	288(%rsp), %r10
	movq	%r10, 784(%rsp)
	movq	296(%rsp), %r10
	movq	%r10, 912(%rsp)
	movq	336(%rsp), %r10
	movq	344(%rsp), %r11
	movq	%r11, 672(%rsp)
	movq	352(%rsp), %r11
	movq	%r11, 800(%rsp)
	movq	360(%rsp), %r11
	movq	%r11, 928(%rsp)
	movq	304(%rsp), %r11
	movq	184(%rsp), %r13
	movq	%r13, 1088(%rsp)
	movq	312(%rsp), %r13
	movq	%r13, 1104(%rsp)
	movq	192(%rsp), %r13
	movq	%r13, 752(%rsp)
	movq	320(%rsp), %r13
	movq	%r13, 768(%rsp)
	movq	200(%rsp), %r13
	movq	%r13, 880(%rsp)
	movq	328(%rsp), %r13
	movq	%r13, 896(%rsp)
	movq	%rax, (%rbp)
	movq	%rcx, 8(%rbp)
	movq	%rdi, 16(%rbp)
	movq	%rdx, 24(%rbp)
	movq	%r8, 32(%rbp)
	movq	%r9, 40(%rbp)
	movq	%r11, 48(%rbp)
	movq	%r10, 56(%rbp)
	movq	16(%rsp), %rax
	leaq	128(%rax,%rbx), %rax
	movq	%rax, 128(%rbp)
	movl	%r15d, 136(%rbp)
	vxorps	%xmm0, %xmm0, %xmm0
	vmovups	%ymm0, 208(%rsp)
	vmovups	%ymm0, 176(%rsp)
	vmovups	%ymm0, 144(%rsp)
	vmovups	%ymm0, 112(%rsp)
	movq	48(%rsp), %rax
	leaq	152(%rax), %r13
	leaq	128(%rbx), %rax
	movq	%rax, 16(%rsp)
	leaq	112(%rsp), %rdi
	movq	%r15, %rdx
	vzeroupper
	vj_c_call	memcpy
	vmovups	112(%rsp), %ymm0
	vmovups	144(%rsp), %ymm1
	vmovups	176(%rsp), %ymm2
	vmovups	208(%rsp), %ymm3
	leaq	152(%rbp), %rax
	vmovups	%ymm0, (%rax)
	vmovups	%ymm1, 32(%rax)
	vmovups	%ymm2, 64(%rax)
	vmovups	%ymm3, 96(%rax)
	cmpq	$1, %r12
	jne	19f
	cmpl	$128, %r15d
	jae	21f
	movzbl	(%r14), %eax
	movl	%r15d, %ecx
	andl	$127, %ecx
	movb	%al, 152(%rbp,%rcx)
	leal	1(%r15), %eax
	movl	%eax, 136(%rbp)
	jmp	23f
	.p2align	4
16:
	movl	$8, %ebx
	jmp	33f
	.p2align	4
17:
	movq	8(%r9,%r8), %rdx
	addq	%r14, %rbp
	movq	(%r9,%r8), %rsi
	cmpq	$1, %rdx
	jne	1b
18:
	movl	136(%rbp), %eax
	cmpq	$128, %rax
	jae	20f
	movzbl	(%rsi), %ecx
	movb	%cl, 152(%rbp,%rax)
	incl	%eax
	movl	%eax, 136(%rbp)
	jmp	2b
19:
	movq	%rbp, %rdi
	movq	%r14, %rsi
	movq	%r12, %rdx
	jmp	22f
20:
	movl	$1, %ebx
	movl	$1, %edx
	movq	%rbp, %rdi
	movq	%r9, %r12
	vzeroupper
	callq	blake2_state..blake2b..State..absorb_blocks_1_v4
	movq	%r12, %r9
	jmp	3b
21:
	movl	$1, %edx
	movq	%rbp, %rdi
	movq	%r14, %rsi
22:
	vzeroupper
	callq	blake2_state..blake2b..State..absorb_blocks_1_v4
23:
	movq	40(%rsp), %rdx
	movq	32(%rsp), %rdi
	movq	48(%rsp), %rbp
	movl	136(%rbp), %ecx
	movq	%rbx, %rax
	subq	%rcx, %rax
	movq	56(%rsp), %rcx
	movq	(%rcx,%rdx), %r14
	movq	8(%rcx,%rdx), %r15
	movq	736(%rsp), %rcx
	movq	%rcx, (%rbp)
	movq	720(%rsp), %rcx
	movq	%rcx, 8(%rbp)
	movq	1088(%rsp), %rcx
	movq	%rcx, 16(%rbp)
	movq	704(%rsp), %rcx
	movq	%rcx, 24(%rbp)
	movq	688(%rsp), %rcx
	movq	%rcx, 32(%rbp)
	movq	656(%rsp), %rcx
	movq	%rcx, 40(%rbp)
	movq	1104(%rsp), %rcx
	movq	%rcx, 48(%rbp)
	leaq	256(%rax), %r12
	cmpq	%r12, %r15
	cmovbq	%r15, %r12
	subq	%r12, %r15
	movq	672(%rsp), %rcx
	movq	%rcx, 56(%rbp)
	leaq	(%r14,%rax), %rsi
	addq	$128, %rsi
	subq	$-128, %rax
	addq	%r12, %r14
	leaq	128(%rbx), %rcx
	addq	%rcx, 128(%rbp)
	subq	%rax, %r12
	leaq	152(%rdi), %rax
	movq	%rax, 40(%rsp)
	movl	%r12d, 136(%rbp)
	vxorps	%xmm0, %xmm0, %xmm0
	vmovups	%ymm0, 208(%rsp)
	vmovups	%ymm0, 176(%rsp)
	vmovups	%ymm0, 144(%rsp)
	vmovups	%ymm0, 112(%rsp)
	leaq	112(%rsp), %rdi
	movq	%r12, %rdx
	vzeroupper
	vj_c_call	memcpy
	vmovups	112(%rsp), %ymm0
	vmovups	144(%rsp), %ymm1
	vmovups	176(%rsp), %ymm2
	vmovups	208(%rsp), %ymm3
	vmovups	%ymm0, (%r13)
	vmovups	%ymm1, 32(%r13)
	vmovups	%ymm2, 64(%r13)
	vmovups	%ymm3, 96(%r13)
	cmpq	$1, %r15
	jne	24f
	cmpl	$128, %r12d
	jae	25f
	movzbl	(%r14), %eax
	movl	%r12d, %ecx
	andl	$127, %ecx
	movb	%al, 152(%rbp,%rcx)
	leal	1(%r12), %eax
	movl	%eax, 136(%rbp)
	jmp	27f
24:
	movq	%rbp, %rdi
	movq	%r14, %rsi
	movq	%r15, %rdx
	jmp	26f
25:
	movl	$1, %edx
	movq	%rbp, %rdi
	movq	%r14, %rsi
26:
	vzeroupper
	callq	blake2_state..blake2b..State..absorb_blocks_1_v4
27:
	movq	56(%rsp), %rdx
	movq	24(%rsp), %rsi
	movq	8(%rsp), %rdi
	movq	32(%rsp), %rbp
	movl	136(%rbp), %ecx
	movq	%rbx, %rax
	subq	%rcx, %rax
	movq	(%rdx,%rsi), %r12
	movq	8(%rdx,%rsi), %r14
	movq	864(%rsp), %rcx
	movq	%rcx, (%rbp)
	movq	848(%rsp), %rcx
	movq	%rcx, 8(%rbp)
	movq	752(%rsp), %rcx
	movq	%rcx, 16(%rbp)
	movq	832(%rsp), %rcx
	movq	%rcx, 24(%rbp)
	movq	816(%rsp), %rcx
	movq	%rcx, 32(%rbp)
	movq	784(%rsp), %rcx
	movq	%rcx, 40(%rbp)
	movq	768(%rsp), %rcx
	movq	%rcx, 48(%rbp)
	leaq	256(%rax), %r15
	cmpq	%r15, %r14
	cmovbq	%r14, %r15
	subq	%r15, %r14
	movq	800(%rsp), %rcx
	movq	%rcx, 56(%rbp)
	leaq	(%r12,%rax), %rsi
	addq	$128, %rsi
	subq	$-128, %rax
	addq	%r15, %r12
	leaq	128(%rbx), %rcx
	addq	%rcx, 128(%rbp)
	subq	%rax, %r15
	leaq	152(%rdi), %r13
	movl	%r15d, 136(%rbp)
	vxorps	%xmm0, %xmm0, %xmm0
	vmovups	%ymm0, 208(%rsp)
	vmovups	%ymm0, 176(%rsp)
	vmovups	%ymm0, 144(%rsp)
	vmovups	%ymm0, 112(%rsp)
	leaq	112(%rsp), %rdi
	movq	%r15, %rdx
	vzeroupper
	vj_c_call	memcpy
	vmovups	112(%rsp), %ymm0
	vmovups	144(%rsp), %ymm1
	vmovups	176(%rsp), %ymm2
	vmovups	208(%rsp), %ymm3
	movq	40(%rsp), %rax
	vmovups	%ymm0, (%rax)
	vmovups	%ymm1, 32(%rax)
	vmovups	%ymm2, 64(%rax)
	vmovups	%ymm3, 96(%rax)
	cmpq	$1, %r14
	jne	28f
	cmpl	$128, %r15d
	jae	29f
	movzbl	(%r12), %eax
	movl	%r15d, %ecx
	andl	$127, %ecx
	movq	32(%rsp), %rdx
	movb	%al, 152(%rdx,%rcx)
	leal	1(%r15), %eax
	movl	%eax, 136(%rdx)
	jmp	31f
28:
	movq	%rbp, %rdi
	movq	%r12, %rsi
	movq	%r14, %rdx
	jmp	30f
29:
	movl	$1, %edx
	movq	32(%rsp), %rdi
	movq	%r12, %rsi
30:
	vzeroupper
	callq	blake2_state..blake2b..State..absorb_blocks_1_v4
31:
	movq	8(%rsp), %r8
	movl	136(%r8), %eax
	subq	%rax, %rbx
	movq	56(%rsp), %rax
	movq	88(%rsp), %rcx
	movq	(%rax,%rcx), %r12
	movq	8(%rax,%rcx), %r14
	movq	72(%rsp), %rax
	movq	%rax, (%r8)
	movq	640(%rsp), %rax
	movq	%rax, 8(%r8)
	movq	880(%rsp), %rax
	movq	%rax, 16(%r8)
	movq	64(%rsp), %rax
	movq	%rax, 24(%r8)
	movq	944(%rsp), %rax
	movq	%rax, 32(%r8)
	movq	912(%rsp), %rax
	movq	%rax, 40(%r8)
	movq	896(%rsp), %rax
	movq	%rax, 48(%r8)
	leaq	256(%rbx), %r15
	cmpq	%r15, %r14
	cmovbq	%r14, %r15
	movq	928(%rsp), %rax
	movq	%rax, 56(%r8)
	movq	16(%rsp), %rax
	addq	%rax, 128(%r8)
	subq	%r15, %r14
	leaq	(%r12,%rbx), %rsi
	addq	$128, %rsi
	subq	$-128, %rbx
	addq	%r15, %r12
	subq	%rbx, %r15
	movl	%r15d, 136(%r8)
	vxorps	%xmm0, %xmm0, %xmm0
	vmovups	%ymm0, 208(%rsp)
	vmovups	%ymm0, 176(%rsp)
	vmovups	%ymm0, 144(%rsp)
	vmovups	%ymm0, 112(%rsp)
	leaq	112(%rsp), %rdi
	movq	%r15, %rdx
	movq	%r8, %rbx
	vzeroupper
	vj_c_call	memcpy
	vmovups	112(%rsp), %ymm0
	vmovups	144(%rsp), %ymm1
	vmovups	176(%rsp), %ymm2
	vmovups	208(%rsp), %ymm3
	vmovups	%ymm0, (%r13)
	vmovups	%ymm1, 32(%r13)
	vmovups	%ymm2, 64(%r13)
	vmovups	%ymm3, 96(%r13)
	cmpq	$1, %r14
	jne	32f
	cmpl	$128, %r15d
	movq	96(%rsp), %r13
	jae	34f
	movzbl	(%r12), %eax
	movl	%r15d, %ecx
	andl	$127, %ecx
	movq	8(%rsp), %rdx
	movb	%al, 152(%rdx,%rcx)
	leal	1(%r15), %eax
	movl	%eax, 136(%rdx)
	jmp	35f
32:
	movq	%rbx, %rdi
	movq	%r12, %rsi
	movq	%r14, %rdx
	vzeroupper
	callq	blake2_state..blake2b..State..absorb_blocks_1_v4
	movl	$4, %ebx
33:
	movq	104(%rsp), %r15
	movq	56(%rsp), %r9
	movq	80(%rsp), %r14
	movq	96(%rsp), %r13
	jmp	3b
34:
	movl	$1, %edx
	movq	8(%rsp), %rdi
	movq	%r12, %rsi
	vzeroupper
	callq	blake2_state..blake2b..State..absorb_blocks_1_v4
35:
	movl	$4, %ebx
	movq	104(%rsp), %r15
	movq	56(%rsp), %r9
	movq	80(%rsp), %r14
	jmp	3b
36:
	addq	$4712, %rsp
	popq	%rbx
	popq	%r12
	popq	%r13
	popq	%r14
	popq	%r15
	popq	%rbp
37:
	vzeroupper
	retq
	vj_end	blake2_state..many..blake2b..update_many_1_v4

	vj_constants	8
	.p2align	3, 0x0
.L1_v4_CPI18_0:
	.quad	2270897969802886507
.L1_v4_CPI18_1:
	.quad	-2270897969802886508
.L1_v4_CPI18_2:
	.quad	6620516959819538809
.L1_v4_CPI18_3:
	.quad	-6620516959819538810
.L1_v4_CPI18_4:
	.quad	5840696475078001361
.L1_v4_CPI18_5:
	.quad	7640891576956012808
.L1_v4_CPI18_6:
	.quad	-7276294671716946913
.L1_v4_CPI18_7:
	.quad	-4942790177534073029
.L1_v4_CPI18_8:
	.quad	4354685564936845355
.L1_v4_CPI18_9:
	.quad	-6534734903238641935
	vj_function	blake2_compress..many..blake2b..eight..compress_blocks_1_v4
	movq	8(%rsi), %rax
	vmovdqu64	(%rdi), %zmm13
	vmovdqu64	64(%rdi), %zmm29
	vmovdqu64	128(%rdi), %zmm22
	vmovdqu64	192(%rdi), %zmm27
	vmovdqu64	256(%rdi), %zmm4
	vmovdqu64	320(%rdi), %zmm23
	vmovdqu64	384(%rdi), %zmm10
	vmovdqu64	448(%rdi), %zmm26
	testq	%rax, %rax
	je	2f
	pushq	%rbp
	pushq	%r14
	pushq	%rbx
	subq	$1600, %rsp
	movq	(%rsi), %r8
	movq	16(%rsi), %r9
	movq	32(%rsi), %r10
	movq	48(%rsi), %r11
	movw	$21845, %bx
	kmovd	%ebx, %k5
	vmovdqu8	(%rcx), %xmm0 {%k5} {z}
	vpextrb	$4, %xmm0, %ebp
	vpextrb	$2, %xmm0, %ebx
	kmovd	%ebx, %k2
	vmovd	%xmm0, %ebx
	kmovd	%ebx, %k4
	movb	$-5, %bl
	kmovd	%ebx, %k3
	movq	64(%rsi), %rbx
	kmovd	%ebp, %k7
	movb	$-9, %bpl
	kmovd	%ebp, %k1
	vpextrb	$6, %xmm0, %ebp
	kmovd	%ebp, %k6
	movb	$-17, %bpl
	kmovd	%ebp, %k0
	vpextrb	$8, %xmm0, %ebp
	kshiftlb	$7, %k2, %k2
	kshiftrb	$6, %k2, %k2
	kshiftlb	$7, %k4, %k4
	kshiftrb	$7, %k4, %k4
	korb	%k2, %k4, %k2
	kandb	%k3, %k2, %k2
	kshiftlb	$7, %k7, %k4
	kshiftrb	$5, %k4, %k4
	korb	%k4, %k2, %k4
	kmovd	%ebp, %k7
	movb	$-33, %bpl
	kmovd	%ebp, %k2
	vpextrb	$10, %xmm0, %ebp
	kandb	%k1, %k4, %k4
	kshiftlb	$7, %k6, %k6
	kshiftrb	$4, %k6, %k6
	korb	%k6, %k4, %k4
	kandb	%k0, %k4, %k4
	kshiftlb	$7, %k7, %k6
	kshiftrb	$3, %k6, %k6
	korb	%k6, %k4, %k6
	kmovd	%ebp, %k7
	movb	$-65, %bpl
	kmovd	%ebp, %k4
	vpextrb	$12, %xmm0, %ebp
	kandb	%k2, %k6, %k6
	kshiftlb	$7, %k7, %k7
	kshiftrb	$2, %k7, %k7
	korb	%k7, %k6, %k6
	kmovd	%ebp, %k7
	vpextrb	$14, %xmm0, %ebp
	kandb	%k4, %k6, %k6
	kshiftlb	$6, %k7, %k7
	korb	%k7, %k6, %k6
	kmovd	%ebp, %k7
	movq	80(%rsi), %r14
	kshiftlb	$1, %k6, %k6
	kshiftrb	$1, %k6, %k6
	kshiftlb	$7, %k7, %k7
	korb	%k7, %k6, %k6
	vpbroadcastq	.L1_v4_CPI18_0(%rip), %zmm0
	vpbroadcastq	.L1_v4_CPI18_1(%rip), %zmm0 {%k6}
	vmovdqu64	%zmm0, 768(%rsp)
	vmovdqu8	1(%rcx), %xmm0 {%k5} {z}
	vpextrb	$2, %xmm0, %ecx
	kmovd	%ecx, %k5
	vmovd	%xmm0, %ecx
	kmovd	%ecx, %k7
	vpextrb	$4, %xmm0, %ecx
	kmovd	%ecx, %k6
	vpextrb	$6, %xmm0, %ecx
	kshiftlb	$7, %k5, %k5
	kshiftrb	$6, %k5, %k5
	kshiftlb	$7, %k7, %k7
	kshiftrb	$7, %k7, %k7
	korb	%k5, %k7, %k7
	kmovd	%ecx, %k5
	vpextrb	$8, %xmm0, %ecx
	kandb	%k3, %k7, %k7
	kmovd	%ecx, %k3
	vpextrb	$10, %xmm0, %ecx
	kshiftlb	$7, %k6, %k6
	kshiftrb	$5, %k6, %k6
	korb	%k6, %k7, %k7
	kmovd	%ecx, %k6
	vpextrb	$12, %xmm0, %ecx
	kandb	%k1, %k7, %k7
	kmovd	%ecx, %k1
	vpextrb	$14, %xmm0, %ecx
	kshiftlb	$7, %k5, %k5
	kshiftrb	$4, %k5, %k5
	korb	%k5, %k7, %k5
	kmovd	%ecx, %k7
	movq	96(%rsi), %rcx
	movq	112(%rsi), %rsi
	kandb	%k0, %k5, %k0
	kshiftlb	$7, %k3, %k3
	kshiftrb	$3, %k3, %k3
	korb	%k3, %k0, %k0
	kandb	%k2, %k0, %k0
	kshiftlb	$7, %k6, %k2
	kshiftrb	$2, %k2, %k2
	korb	%k2, %k0, %k0
	kandb	%k4, %k0, %k0
	kshiftlb	$6, %k1, %k1
	korb	%k1, %k0, %k0
	kshiftlb	$1, %k0, %k0
	kshiftrb	$1, %k0, %k0
	kshiftlb	$7, %k7, %k1
	korb	%k1, %k0, %k1
	vpbroadcastq	.L1_v4_CPI18_2(%rip), %zmm0
	vpbroadcastq	.L1_v4_CPI18_3(%rip), %zmm0 {%k1}
	vmovdqu64	%zmm0, 704(%rsp)
	vmovdqu64	(%rdx), %zmm0
	vmovdqu64	%zmm0, 640(%rsp)
	xorl	%edx, %edx
	.p2align	4
1:
	vmovdqa64	%zmm13, %zmm17
	vmovdqu64	%zmm13, 1344(%rsp)
	vmovdqu64	%zmm29, 1472(%rsp)
	vmovdqu64	%zmm22, 1280(%rsp)
	vmovdqa64	%zmm4, %zmm30
	vmovdqa64	%zmm10, %zmm31
	vmovdqu64	(%r8,%rdx), %zmm0
	vmovdqu64	64(%r8,%rdx), %zmm1
	vmovdqu64	(%r9,%rdx), %zmm2
	vmovdqu64	64(%r9,%rdx), %zmm3
	vmovdqu64	(%r10,%rdx), %zmm4
	vpunpcklqdq	%zmm2, %zmm0, %zmm5
	vmovdqu64	64(%r10,%rdx), %zmm6
	vmovdqu64	(%r11,%rdx), %zmm7
	vmovdqu64	64(%r11,%rdx), %zmm8
	vpunpckhqdq	%zmm2, %zmm0, %zmm0
	vpunpcklqdq	%zmm7, %zmm4, %zmm2
	vpunpckhqdq	%zmm7, %zmm4, %zmm4
	vmovdqu64	(%rbx,%rdx), %zmm7
	vshufi64x2	$136, %zmm2, %zmm5, %zmm9
	vmovdqu64	64(%rbx,%rdx), %zmm13
	vmovdqu64	(%r14,%rdx), %zmm10
	vmovdqu64	64(%r14,%rdx), %zmm15
	vshufi64x2	$136, %zmm4, %zmm0, %zmm12
	vpunpcklqdq	%zmm10, %zmm7, %zmm11
	vpunpckhqdq	%zmm10, %zmm7, %zmm7
	vmovdqu64	(%rcx,%rdx), %zmm10
	vshufi64x2	$221, %zmm2, %zmm5, %zmm2
	vmovdqu64	64(%rcx,%rdx), %zmm5
	vmovdqu64	(%rsi,%rdx), %zmm14
	vmovdqu64	64(%rsi,%rdx), %zmm16
	vshufi64x2	$221, %zmm4, %zmm0, %zmm0
	vpunpcklqdq	%zmm14, %zmm10, %zmm4
	vpunpckhqdq	%zmm14, %zmm10, %zmm10
	vshufi64x2	$136, %zmm4, %zmm11, %zmm18
	vshufi64x2	$136, %zmm10, %zmm7, %zmm19
	vshufi64x2	$221, %zmm4, %zmm11, %zmm4
	vshufi64x2	$221, %zmm10, %zmm7, %zmm7
	vshufi64x2	$136, %zmm18, %zmm9, %zmm28
	vmovdqu64	%zmm28, (%rsp)
	vshufi64x2	$136, %zmm19, %zmm12, %zmm24
	vshufi64x2	$136, %zmm4, %zmm2, %zmm10
	vmovdqu64	%zmm10, 192(%rsp)
	vpunpcklqdq	%zmm3, %zmm1, %zmm20
	vpunpckhqdq	%zmm3, %zmm1, %zmm1
	vshufi64x2	$136, %zmm7, %zmm0, %zmm11
	vmovdqu64	%zmm11, 128(%rsp)
	vpunpcklqdq	%zmm8, %zmm6, %zmm3
	vpunpckhqdq	%zmm8, %zmm6, %zmm6
	vshufi64x2	$136, %zmm3, %zmm20, %zmm8
	vshufi64x2	$221, %zmm18, %zmm9, %zmm14
	vshufi64x2	$136, %zmm6, %zmm1, %zmm9
	vshufi64x2	$221, %zmm3, %zmm20, %zmm3
	vshufi64x2	$221, %zmm6, %zmm1, %zmm1
	vshufi64x2	$221, %zmm19, %zmm12, %zmm21
	vmovdqu64	%zmm21, 64(%rsp)
	vpunpcklqdq	%zmm15, %zmm13, %zmm6
	vpunpckhqdq	%zmm15, %zmm13, %zmm15
	vpunpcklqdq	%zmm16, %zmm5, %zmm18
	vshufi64x2	$221, %zmm4, %zmm2, %zmm13
	vpunpckhqdq	%zmm16, %zmm5, %zmm2
	vshufi64x2	$136, %zmm18, %zmm6, %zmm4
	vshufi64x2	$136, %zmm2, %zmm15, %zmm5
	vshufi64x2	$221, %zmm7, %zmm0, %zmm12
	vshufi64x2	$221, %zmm18, %zmm6, %zmm0
	vshufi64x2	$221, %zmm2, %zmm15, %zmm2
	vshufi64x2	$136, %zmm4, %zmm8, %zmm18
	vshufi64x2	$136, %zmm5, %zmm9, %zmm20
	vshufi64x2	$136, %zmm0, %zmm3, %zmm15
	vshufi64x2	$136, %zmm2, %zmm1, %zmm25
	vshufi64x2	$221, %zmm4, %zmm8, %zmm4
	vmovdqu64	%zmm4, 832(%rsp)
	vshufi64x2	$221, %zmm5, %zmm9, %zmm4
	vmovdqu64	%zmm4, 320(%rsp)
	vshufi64x2	$221, %zmm0, %zmm3, %zmm0
	vmovdqu64	%zmm0, 256(%rsp)
	vpbroadcastq	%rdx, %zmm0
	vpaddq	640(%rsp), %zmm0, %zmm3
	vshufi64x2	$221, %zmm2, %zmm1, %zmm0
	vmovdqu64	%zmm0, 512(%rsp)
	vmovdqu64	%zmm30, 1216(%rsp)
	vpaddq	%zmm30, %zmm17, %zmm0
	vpaddq	%zmm28, %zmm0, %zmm1
	vmovdqu64	%zmm23, 1536(%rsp)
	vpaddq	%zmm23, %zmm29, %zmm0
	vpaddq	%zmm10, %zmm0, %zmm0
	vpxorq	.L1_v4_CPI18_6(%rip){1to8}, %zmm0, %zmm2
	vpternlogq	$150, .L1_v4_CPI18_4(%rip){1to8}, %zmm1, %zmm3
	vprolq	$32, %zmm2, %zmm4
	vpaddq	.L1_v4_CPI18_7(%rip){1to8}, %zmm4, %zmm6
	vpxorq	%zmm23, %zmm6, %zmm2
	vpaddq	%zmm11, %zmm0, %zmm0
	vmovdqu64	%zmm31, 1408(%rsp)
	vpaddq	%zmm31, %zmm22, %zmm5
	vpaddq	%zmm14, %zmm5, %zmm5
	vmovdqa64	%zmm14, %zmm19
	vmovdqu64	%zmm14, 384(%rsp)
	vprolq	$40, %zmm2, %zmm7
	vpxorq	768(%rsp), %zmm5, %zmm2
	vprolq	$32, %zmm2, %zmm2
	vpaddq	.L1_v4_CPI18_8(%rip){1to8}, %zmm2, %zmm8
	vpxorq	%zmm31, %zmm8, %zmm9
	vprolq	$40, %zmm9, %zmm9
	vpaddq	%zmm21, %zmm5, %zmm5
	vpaddq	%zmm7, %zmm0, %zmm16
	vpaddq	%zmm9, %zmm5, %zmm10
	vpxorq	%zmm2, %zmm10, %zmm2
	vprolq	$48, %zmm2, %zmm11
	vpxorq	%zmm4, %zmm16, %zmm29
	vpaddq	%zmm8, %zmm11, %zmm4
	vpxorq	%zmm9, %zmm4, %zmm5
	vprolq	$1, %zmm5, %zmm5
	vmovdqa64	%zmm15, %zmm22
	vpaddq	%zmm5, %zmm15, %zmm8
	vpaddq	%zmm8, %zmm16, %zmm8
	vmovdqa64	%zmm27, %zmm2
	vmovdqu64	%zmm27, 1088(%rsp)
	vmovdqu64	%zmm26, 1152(%rsp)
	vprolq	$32, %zmm3, %zmm3
	vpaddq	.L1_v4_CPI18_5(%rip){1to8}, %zmm3, %zmm9
	vpxorq	%zmm30, %zmm9, %zmm27
	vprolq	$40, %zmm27, %zmm27
	vmovdqa64	%zmm24, %zmm17
	vpaddq	%zmm24, %zmm1, %zmm1
	vpaddq	%zmm27, %zmm1, %zmm1
	vpxorq	%zmm3, %zmm1, %zmm3
	vprolq	$48, %zmm3, %zmm3
	vprolq	$48, %zmm29, %zmm28
	vpaddq	%zmm9, %zmm3, %zmm9
	vpaddq	%zmm6, %zmm28, %zmm6
	vpaddq	%zmm26, %zmm2, %zmm29
	vmovdqa64	%zmm13, %zmm15
	vpaddq	%zmm13, %zmm29, %zmm29
	vpxorq	%zmm7, %zmm6, %zmm7
	vpxorq	704(%rsp), %zmm29, %zmm30
	vprolq	$32, %zmm30, %zmm30
	vpaddq	.L1_v4_CPI18_9(%rip){1to8}, %zmm30, %zmm31
	vpxorq	%zmm26, %zmm31, %zmm16
	vprolq	$40, %zmm16, %zmm16
	vpaddq	%zmm12, %zmm29, %zmm29
	vmovdqa64	%zmm12, %zmm21
	vpxorq	%zmm27, %zmm9, %zmm27
	vpaddq	%zmm16, %zmm29, %zmm29
	vpxorq	%zmm30, %zmm29, %zmm30
	vprolq	$48, %zmm30, %zmm30
	vprolq	$1, %zmm7, %zmm7
	vpaddq	%zmm31, %zmm30, %zmm31
	vpxorq	%zmm16, %zmm31, %zmm16
	vprolq	$1, %zmm16, %zmm16
	vprolq	$1, %zmm27, %zmm27
	vmovdqa64	%zmm18, %zmm23
	vpaddq	%zmm18, %zmm1, %zmm1
	vpaddq	%zmm7, %zmm1, %zmm1
	vpxorq	%zmm30, %zmm1, %zmm30
	vprolq	$32, %zmm30, %zmm30
	vmovdqa64	%zmm20, %zmm24
	vmovdqu64	%zmm20, 576(%rsp)
	vpaddq	%zmm20, %zmm1, %zmm1
	vpxorq	%zmm3, %zmm8, %zmm3
	vprolq	$32, %zmm3, %zmm3
	vpaddq	%zmm4, %zmm30, %zmm0
	vpaddq	%zmm31, %zmm3, %zmm4
	vpxorq	%zmm5, %zmm4, %zmm5
	vprolq	$40, %zmm5, %zmm5
	vpxorq	%zmm7, %zmm0, %zmm7
	vmovdqa64	%zmm25, %zmm20
	vpaddq	%zmm25, %zmm8, %zmm8
	vpaddq	%zmm5, %zmm8, %zmm8
	vpxorq	%zmm3, %zmm8, %zmm3
	vprolq	$40, %zmm7, %zmm31
	vprolq	$48, %zmm3, %zmm2
	vmovdqu64	832(%rsp), %zmm12
	vpaddq	%zmm12, %zmm10, %zmm3
	vpaddq	%zmm16, %zmm3, %zmm3
	vpaddq	%zmm31, %zmm1, %zmm1
	vpxorq	%zmm28, %zmm3, %zmm7
	vprolq	$32, %zmm7, %zmm10
	vpaddq	%zmm9, %zmm10, %zmm9
	vpaddq	%zmm4, %zmm2, %zmm7
	vpxorq	%zmm16, %zmm9, %zmm4
	vprolq	$40, %zmm4, %zmm4
	vmovdqu64	320(%rsp), %zmm26
	vpaddq	%zmm26, %zmm3, %zmm3
	vpxorq	%zmm30, %zmm1, %zmm16
	vpaddq	%zmm4, %zmm3, %zmm28
	vpxorq	%zmm10, %zmm28, %zmm3
	vprolq	$48, %zmm3, %zmm10
	vpxorq	%zmm5, %zmm7, %zmm5
	vpaddq	%zmm9, %zmm10, %zmm9
	vpxorq	%zmm4, %zmm9, %zmm3
	vprolq	$1, %zmm3, %zmm3
	vprolq	$48, %zmm16, %zmm4
	vmovdqu64	256(%rsp), %zmm25
	vpaddq	%zmm25, %zmm29, %zmm16
	vpaddq	%zmm27, %zmm16, %zmm16
	vpxorq	%zmm11, %zmm16, %zmm11
	vprolq	$1, %zmm5, %zmm29
	vprolq	$32, %zmm11, %zmm5
	vpaddq	%zmm6, %zmm5, %zmm6
	vpxorq	%zmm27, %zmm6, %zmm11
	vpaddq	%zmm0, %zmm4, %zmm0
	vprolq	$40, %zmm11, %zmm11
	vmovdqu64	512(%rsp), %zmm14
	vpaddq	%zmm14, %zmm16, %zmm16
	vpaddq	%zmm11, %zmm16, %zmm16
	vpxorq	%zmm31, %zmm0, %zmm27
	vpxorq	%zmm5, %zmm16, %zmm5
	vprolq	$48, %zmm5, %zmm5
	vpaddq	%zmm6, %zmm5, %zmm6
	vprolq	$1, %zmm27, %zmm27
	vpxorq	%zmm11, %zmm6, %zmm11
	vprolq	$1, %zmm11, %zmm11
	vpaddq	%zmm25, %zmm1, %zmm1
	vpaddq	%zmm11, %zmm1, %zmm1
	vpxorq	%zmm2, %zmm1, %zmm2
	vprolq	$32, %zmm2, %zmm2
	vpaddq	%zmm22, %zmm1, %zmm1
	vpaddq	%zmm9, %zmm2, %zmm9
	vpaddq	%zmm19, %zmm8, %zmm8
	vpaddq	%zmm27, %zmm8, %zmm8
	vpxorq	%zmm10, %zmm8, %zmm10
	vpxorq	%zmm11, %zmm9, %zmm11
	vprolq	$32, %zmm10, %zmm10
	vpaddq	%zmm6, %zmm10, %zmm6
	vpxorq	%zmm27, %zmm6, %zmm27
	vprolq	$40, %zmm11, %zmm11
	vprolq	$40, %zmm27, %zmm27
	vpaddq	%zmm18, %zmm8, %zmm8
	vmovdqu64	%zmm18, 1024(%rsp)
	vpaddq	%zmm27, %zmm8, %zmm8
	vpaddq	%zmm11, %zmm1, %zmm30
	vpxorq	%zmm10, %zmm8, %zmm1
	vpaddq	%zmm24, %zmm28, %zmm10
	vpaddq	%zmm29, %zmm10, %zmm10
	vpxorq	%zmm2, %zmm30, %zmm2
	vpxorq	%zmm5, %zmm10, %zmm5
	vprolq	$32, %zmm5, %zmm28
	vpaddq	%zmm0, %zmm28, %zmm0
	vprolq	$48, %zmm1, %zmm5
	vpxorq	%zmm29, %zmm0, %zmm1
	vprolq	$40, %zmm1, %zmm29
	vpaddq	%zmm14, %zmm10, %zmm1
	vprolq	$48, %zmm2, %zmm10
	vpaddq	%zmm29, %zmm1, %zmm31
	vpxorq	%zmm28, %zmm31, %zmm1
	vprolq	$48, %zmm1, %zmm2
	vpaddq	%zmm6, %zmm5, %zmm1
	vpaddq	%zmm0, %zmm2, %zmm0
	vpxorq	%zmm29, %zmm0, %zmm6
	vprolq	$1, %zmm6, %zmm6
	vpaddq	%zmm9, %zmm10, %zmm9
	vpaddq	%zmm26, %zmm16, %zmm16
	vpaddq	%zmm3, %zmm16, %zmm16
	vpxorq	%zmm4, %zmm16, %zmm4
	vpxorq	%zmm27, %zmm1, %zmm27
	vprolq	$32, %zmm4, %zmm4
	vpaddq	%zmm7, %zmm4, %zmm7
	vpxorq	%zmm3, %zmm7, %zmm3
	vpxorq	%zmm11, %zmm9, %zmm11
	vprolq	$40, %zmm3, %zmm3
	vpaddq	%zmm13, %zmm16, %zmm16
	vpaddq	%zmm3, %zmm16, %zmm16
	vprolq	$1, %zmm27, %zmm27
	vpxorq	%zmm4, %zmm16, %zmm4
	vprolq	$48, %zmm4, %zmm4
	vpaddq	%zmm7, %zmm4, %zmm7
	vprolq	$1, %zmm11, %zmm11
	vpxorq	%zmm3, %zmm7, %zmm3
	vprolq	$1, %zmm3, %zmm3
	vpaddq	%zmm17, %zmm30, %zmm28
	vmovdqa64	%zmm17, %zmm18
	vpaddq	%zmm27, %zmm28, %zmm28
	vpxorq	%zmm4, %zmm28, %zmm4
	vprolq	$32, %zmm4, %zmm4
	vpaddq	%zmm12, %zmm28, %zmm28
	vmovdqa64	%zmm12, %zmm19
	vpaddq	%zmm0, %zmm4, %zmm29
	vmovdqu64	(%rsp), %zmm24
	vpaddq	%zmm24, %zmm8, %zmm0
	vpaddq	%zmm6, %zmm0, %zmm0
	vpxorq	%zmm10, %zmm0, %zmm8
	vpxorq	%zmm27, %zmm29, %zmm10
	vprolq	$32, %zmm8, %zmm8
	vpaddq	%zmm7, %zmm8, %zmm7
	vpxorq	%zmm6, %zmm7, %zmm6
	vprolq	$40, %zmm10, %zmm10
	vprolq	$40, %zmm6, %zmm6
	vmovdqu64	192(%rsp), %zmm17
	vpaddq	%zmm17, %zmm0, %zmm0
	vpaddq	%zmm6, %zmm0, %zmm27
	vpaddq	%zmm10, %zmm28, %zmm28
	vpxorq	%zmm8, %zmm27, %zmm0
	vprolq	$48, %zmm0, %zmm8
	vpaddq	%zmm20, %zmm31, %zmm30
	vpaddq	%zmm7, %zmm8, %zmm0
	vpaddq	%zmm3, %zmm30, %zmm7
	vpxorq	%zmm5, %zmm7, %zmm5
	vprolq	$32, %zmm5, %zmm5
	vpxorq	%zmm4, %zmm28, %zmm4
	vpaddq	%zmm9, %zmm5, %zmm9
	vpxorq	%zmm3, %zmm9, %zmm3
	vprolq	$40, %zmm3, %zmm30
	vpxorq	%zmm6, %zmm0, %zmm6
	vmovdqa64	%zmm21, %zmm13
	vpaddq	%zmm21, %zmm7, %zmm3
	vpaddq	%zmm30, %zmm3, %zmm7
	vpxorq	%zmm5, %zmm7, %zmm5
	vprolq	$48, %zmm4, %zmm3
	vprolq	$48, %zmm5, %zmm5
	vpaddq	%zmm9, %zmm5, %zmm9
	vpxorq	%zmm30, %zmm9, %zmm4
	vprolq	$1, %zmm6, %zmm6
	vmovdqu64	64(%rsp), %zmm12
	vpaddq	%zmm12, %zmm16, %zmm16
	vpaddq	%zmm11, %zmm16, %zmm16
	vpxorq	%zmm2, %zmm16, %zmm2
	vprolq	$1, %zmm4, %zmm4
	vprolq	$32, %zmm2, %zmm2
	vpaddq	%zmm1, %zmm2, %zmm1
	vpxorq	%zmm11, %zmm1, %zmm11
	vpaddq	%zmm29, %zmm3, %zmm29
	vprolq	$40, %zmm11, %zmm11
	vmovdqu64	128(%rsp), %zmm21
	vpaddq	%zmm21, %zmm16, %zmm16
	vpaddq	%zmm11, %zmm16, %zmm16
	vpxorq	%zmm10, %zmm29, %zmm10
	vpxorq	%zmm2, %zmm16, %zmm2
	vprolq	$48, %zmm2, %zmm2
	vpaddq	%zmm1, %zmm2, %zmm1
	vprolq	$1, %zmm10, %zmm10
	vpxorq	%zmm11, %zmm1, %zmm11
	vprolq	$1, %zmm11, %zmm11
	vpaddq	%zmm20, %zmm28, %zmm28
	vpaddq	%zmm11, %zmm28, %zmm28
	vpxorq	%zmm8, %zmm28, %zmm8
	vprolq	$32, %zmm8, %zmm8
	vpaddq	%zmm23, %zmm28, %zmm28
	vpaddq	%zmm9, %zmm8, %zmm9
	vpaddq	%zmm19, %zmm27, %zmm27
	vpaddq	%zmm10, %zmm27, %zmm27
	vpxorq	%zmm5, %zmm27, %zmm5
	vpxorq	%zmm11, %zmm9, %zmm11
	vprolq	$32, %zmm5, %zmm5
	vpaddq	%zmm1, %zmm5, %zmm1
	vpxorq	%zmm10, %zmm1, %zmm10
	vprolq	$40, %zmm11, %zmm11
	vprolq	$40, %zmm10, %zmm10
	vpaddq	%zmm24, %zmm27, %zmm27
	vpaddq	%zmm10, %zmm27, %zmm27
	vpaddq	%zmm11, %zmm28, %zmm28
	vpxorq	%zmm5, %zmm27, %zmm5
	vpaddq	%zmm12, %zmm7, %zmm7
	vmovdqa64	%zmm12, %zmm23
	vpaddq	%zmm6, %zmm7, %zmm7
	vpxorq	%zmm8, %zmm28, %zmm8
	vpxorq	%zmm2, %zmm7, %zmm2
	vprolq	$32, %zmm2, %zmm2
	vpaddq	%zmm29, %zmm2, %zmm29
	vprolq	$48, %zmm5, %zmm5
	vpxorq	%zmm6, %zmm29, %zmm6
	vprolq	$40, %zmm6, %zmm6
	vpaddq	%zmm17, %zmm7, %zmm7
	vmovdqa64	%zmm17, %zmm30
	vprolq	$48, %zmm8, %zmm8
	vpaddq	%zmm6, %zmm7, %zmm7
	vpxorq	%zmm2, %zmm7, %zmm2
	vprolq	$48, %zmm2, %zmm2
	vpaddq	%zmm1, %zmm5, %zmm1
	vpaddq	%zmm29, %zmm2, %zmm29
	vpxorq	%zmm6, %zmm29, %zmm6
	vprolq	$1, %zmm6, %zmm6
	vpaddq	%zmm9, %zmm8, %zmm9
	vpaddq	%zmm14, %zmm16, %zmm16
	vmovdqa64	%zmm14, %zmm31
	vpaddq	%zmm4, %zmm16, %zmm16
	vpxorq	%zmm3, %zmm16, %zmm3
	vpxorq	%zmm10, %zmm1, %zmm10
	vprolq	$32, %zmm3, %zmm3
	vpaddq	%zmm0, %zmm3, %zmm0
	vpxorq	%zmm4, %zmm0, %zmm4
	vpxorq	%zmm11, %zmm9, %zmm11
	vprolq	$40, %zmm4, %zmm4
	vmovdqa64	%zmm26, %zmm12
	vpaddq	%zmm26, %zmm16, %zmm16
	vpaddq	%zmm4, %zmm16, %zmm16
	vprolq	$1, %zmm10, %zmm10
	vpxorq	%zmm3, %zmm16, %zmm3
	vprolq	$48, %zmm3, %zmm3
	vpaddq	%zmm0, %zmm3, %zmm0
	vprolq	$1, %zmm11, %zmm11
	vpxorq	%zmm4, %zmm0, %zmm4
	vprolq	$1, %zmm4, %zmm4
	vpaddq	%zmm22, %zmm28, %zmm28
	vpaddq	%zmm10, %zmm28, %zmm28
	vpxorq	%zmm3, %zmm28, %zmm3
	vprolq	$32, %zmm3, %zmm3
	vmovdqa64	%zmm25, %zmm17
	vpaddq	%zmm25, %zmm28, %zmm28
	vpaddq	%zmm29, %zmm3, %zmm29
	vpaddq	%zmm21, %zmm27, %zmm27
	vpaddq	%zmm6, %zmm27, %zmm27
	vpxorq	%zmm8, %zmm27, %zmm8
	vpxorq	%zmm10, %zmm29, %zmm10
	vprolq	$32, %zmm8, %zmm8
	vpaddq	%zmm0, %zmm8, %zmm0
	vpxorq	%zmm6, %zmm0, %zmm6
	vprolq	$40, %zmm10, %zmm10
	vprolq	$40, %zmm6, %zmm6
	vmovdqa64	%zmm15, %zmm26
	vpaddq	%zmm15, %zmm27, %zmm27
	vpaddq	%zmm6, %zmm27, %zmm27
	vpaddq	%zmm10, %zmm28, %zmm28
	vpxorq	%zmm8, %zmm27, %zmm8
	vprolq	$48, %zmm8, %zmm8
	vpaddq	%zmm13, %zmm7, %zmm7
	vpaddq	%zmm0, %zmm8, %zmm0
	vpaddq	%zmm4, %zmm7, %zmm7
	vpxorq	%zmm5, %zmm7, %zmm5
	vprolq	$32, %zmm5, %zmm5
	vpxorq	%zmm3, %zmm28, %zmm3
	vpaddq	%zmm9, %zmm5, %zmm9
	vpxorq	%zmm4, %zmm9, %zmm4
	vprolq	$40, %zmm4, %zmm4
	vpxorq	%zmm6, %zmm0, %zmm6
	vmovdqa64	%zmm18, %zmm14
	vpaddq	%zmm18, %zmm7, %zmm7
	vpaddq	%zmm4, %zmm7, %zmm7
	vpxorq	%zmm5, %zmm7, %zmm5
	vprolq	$48, %zmm3, %zmm3
	vprolq	$48, %zmm5, %zmm5
	vpaddq	%zmm9, %zmm5, %zmm9
	vpxorq	%zmm4, %zmm9, %zmm4
	vprolq	$1, %zmm6, %zmm6
	vmovdqu64	576(%rsp), %zmm15
	vpaddq	%zmm15, %zmm16, %zmm16
	vpaddq	%zmm11, %zmm16, %zmm16
	vpxorq	%zmm2, %zmm16, %zmm2
	vprolq	$1, %zmm4, %zmm4
	vprolq	$32, %zmm2, %zmm2
	vpaddq	%zmm1, %zmm2, %zmm1
	vpxorq	%zmm11, %zmm1, %zmm11
	vpaddq	%zmm29, %zmm3, %zmm29
	vprolq	$40, %zmm11, %zmm11
	vmovdqu64	384(%rsp), %zmm25
	vpaddq	%zmm25, %zmm16, %zmm16
	vpaddq	%zmm11, %zmm16, %zmm16
	vpxorq	%zmm10, %zmm29, %zmm10
	vpxorq	%zmm2, %zmm16, %zmm2
	vprolq	$48, %zmm2, %zmm2
	vpaddq	%zmm1, %zmm2, %zmm1
	vprolq	$1, %zmm10, %zmm10
	vpxorq	%zmm11, %zmm1, %zmm11
	vprolq	$1, %zmm11, %zmm11
	vpaddq	%zmm13, %zmm28, %zmm28
	vpaddq	%zmm11, %zmm28, %zmm28
	vpxorq	%zmm8, %zmm28, %zmm8
	vprolq	$32, %zmm8, %zmm8
	vpaddq	%zmm15, %zmm28, %zmm28
	vpaddq	%zmm9, %zmm8, %zmm9
	vpaddq	%zmm21, %zmm27, %zmm27
	vpaddq	%zmm10, %zmm27, %zmm27
	vpxorq	%zmm5, %zmm27, %zmm5
	vpxorq	%zmm11, %zmm9, %zmm11
	vprolq	$32, %zmm5, %zmm5
	vpaddq	%zmm1, %zmm5, %zmm1
	vpxorq	%zmm10, %zmm1, %zmm10
	vprolq	$40, %zmm11, %zmm11
	vprolq	$40, %zmm10, %zmm10
	vpaddq	%zmm18, %zmm27, %zmm27
	vpaddq	%zmm10, %zmm27, %zmm27
	vpaddq	%zmm11, %zmm28, %zmm28
	vpxorq	%zmm5, %zmm27, %zmm5
	vpaddq	%zmm12, %zmm7, %zmm7
	vmovdqa64	%zmm12, %zmm21
	vpaddq	%zmm6, %zmm7, %zmm7
	vpxorq	%zmm8, %zmm28, %zmm8
	vpxorq	%zmm2, %zmm7, %zmm2
	vprolq	$32, %zmm2, %zmm2
	vpaddq	%zmm29, %zmm2, %zmm29
	vprolq	$48, %zmm5, %zmm5
	vpxorq	%zmm6, %zmm29, %zmm6
	vprolq	$40, %zmm6, %zmm6
	vpaddq	%zmm19, %zmm7, %zmm7
	vprolq	$48, %zmm8, %zmm8
	vpaddq	%zmm6, %zmm7, %zmm7
	vpxorq	%zmm2, %zmm7, %zmm2
	vprolq	$48, %zmm2, %zmm2
	vpaddq	%zmm1, %zmm5, %zmm1
	vpaddq	%zmm29, %zmm2, %zmm29
	vpxorq	%zmm6, %zmm29, %zmm6
	vprolq	$1, %zmm6, %zmm6
	vpaddq	%zmm9, %zmm8, %zmm9
	vpaddq	%zmm20, %zmm16, %zmm16
	vpaddq	%zmm4, %zmm16, %zmm16
	vpxorq	%zmm3, %zmm16, %zmm3
	vpxorq	%zmm10, %zmm1, %zmm10
	vprolq	$32, %zmm3, %zmm3
	vpaddq	%zmm0, %zmm3, %zmm0
	vpxorq	%zmm4, %zmm0, %zmm4
	vpxorq	%zmm11, %zmm9, %zmm11
	vprolq	$40, %zmm4, %zmm4
	vmovdqa64	%zmm17, %zmm18
	vpaddq	%zmm17, %zmm16, %zmm16
	vpaddq	%zmm4, %zmm16, %zmm16
	vprolq	$1, %zmm10, %zmm10
	vpxorq	%zmm3, %zmm16, %zmm3
	vprolq	$48, %zmm3, %zmm3
	vpaddq	%zmm0, %zmm3, %zmm0
	vprolq	$1, %zmm11, %zmm11
	vpxorq	%zmm4, %zmm0, %zmm4
	vprolq	$1, %zmm4, %zmm4
	vpaddq	%zmm30, %zmm28, %zmm28
	vpaddq	%zmm10, %zmm28, %zmm28
	vpxorq	%zmm3, %zmm28, %zmm3
	vprolq	$32, %zmm3, %zmm3
	vpaddq	%zmm26, %zmm28, %zmm28
	vpaddq	%zmm29, %zmm3, %zmm29
	vmovdqa64	%zmm23, %zmm17
	vpaddq	%zmm23, %zmm27, %zmm27
	vpaddq	%zmm6, %zmm27, %zmm27
	vpxorq	%zmm8, %zmm27, %zmm8
	vpxorq	%zmm10, %zmm29, %zmm10
	vprolq	$32, %zmm8, %zmm8
	vpaddq	%zmm0, %zmm8, %zmm0
	vpxorq	%zmm6, %zmm0, %zmm6
	vprolq	$40, %zmm10, %zmm10
	vprolq	$40, %zmm6, %zmm6
	vpaddq	%zmm22, %zmm27, %zmm27
	vpaddq	%zmm6, %zmm27, %zmm27
	vpaddq	%zmm10, %zmm28, %zmm28
	vpxorq	%zmm8, %zmm27, %zmm8
	vprolq	$48, %zmm8, %zmm8
	vmovdqa64	%zmm25, %zmm24
	vpaddq	%zmm25, %zmm7, %zmm7
	vpaddq	%zmm0, %zmm8, %zmm0
	vpaddq	%zmm4, %zmm7, %zmm7
	vpxorq	%zmm5, %zmm7, %zmm5
	vprolq	$32, %zmm5, %zmm5
	vpxorq	%zmm3, %zmm28, %zmm3
	vpaddq	%zmm9, %zmm5, %zmm9
	vpxorq	%zmm4, %zmm9, %zmm4
	vprolq	$40, %zmm4, %zmm4
	vpxorq	%zmm6, %zmm0, %zmm6
	vmovdqu64	(%rsp), %zmm25
	vpaddq	%zmm25, %zmm7, %zmm7
	vpaddq	%zmm4, %zmm7, %zmm7
	vpxorq	%zmm5, %zmm7, %zmm5
	vprolq	$48, %zmm3, %zmm3
	vprolq	$48, %zmm5, %zmm5
	vpaddq	%zmm9, %zmm5, %zmm9
	vpxorq	%zmm4, %zmm9, %zmm4
	vprolq	$1, %zmm6, %zmm6
	vmovdqa64	%zmm31, %zmm23
	vpaddq	%zmm31, %zmm16, %zmm16
	vpaddq	%zmm11, %zmm16, %zmm16
	vpxorq	%zmm2, %zmm16, %zmm2
	vprolq	$1, %zmm4, %zmm4
	vprolq	$32, %zmm2, %zmm2
	vpaddq	%zmm1, %zmm2, %zmm1
	vpxorq	%zmm11, %zmm1, %zmm11
	vpaddq	%zmm29, %zmm3, %zmm29
	vprolq	$40, %zmm11, %zmm11
	vmovdqu64	1024(%rsp), %zmm12
	vpaddq	%zmm12, %zmm16, %zmm16
	vpaddq	%zmm11, %zmm16, %zmm16
	vpxorq	%zmm10, %zmm29, %zmm10
	vpxorq	%zmm2, %zmm16, %zmm2
	vprolq	$48, %zmm2, %zmm2
	vpaddq	%zmm1, %zmm2, %zmm1
	vprolq	$1, %zmm10, %zmm10
	vpxorq	%zmm11, %zmm1, %zmm11
	vprolq	$1, %zmm11, %zmm11
	vpaddq	%zmm15, %zmm28, %zmm28
	vpaddq	%zmm11, %zmm28, %zmm28
	vpxorq	%zmm8, %zmm28, %zmm8
	vprolq	$32, %zmm8, %zmm8
	vpaddq	%zmm25, %zmm28, %zmm28
	vpaddq	%zmm9, %zmm8, %zmm9
	vpaddq	%zmm17, %zmm27, %zmm27
	vpaddq	%zmm10, %zmm27, %zmm27
	vpxorq	%zmm5, %zmm27, %zmm5
	vpxorq	%zmm11, %zmm9, %zmm11
	vprolq	$32, %zmm5, %zmm5
	vpaddq	%zmm1, %zmm5, %zmm1
	vpxorq	%zmm10, %zmm1, %zmm10
	vprolq	$40, %zmm11, %zmm11
	vprolq	$40, %zmm10, %zmm10
	vpaddq	%zmm13, %zmm27, %zmm27
	vmovdqa64	%zmm13, %zmm31
	vpaddq	%zmm10, %zmm27, %zmm27
	vpaddq	%zmm11, %zmm28, %zmm28
	vpxorq	%zmm5, %zmm27, %zmm5
	vpaddq	%zmm30, %zmm7, %zmm7
	vpaddq	%zmm6, %zmm7, %zmm7
	vpxorq	%zmm8, %zmm28, %zmm8
	vpxorq	%zmm2, %zmm7, %zmm2
	vprolq	$32, %zmm2, %zmm2
	vpaddq	%zmm29, %zmm2, %zmm29
	vprolq	$48, %zmm5, %zmm5
	vpxorq	%zmm6, %zmm29, %zmm6
	vprolq	$40, %zmm6, %zmm6
	vpaddq	%zmm24, %zmm7, %zmm7
	vprolq	$48, %zmm8, %zmm8
	vpaddq	%zmm6, %zmm7, %zmm7
	vpxorq	%zmm2, %zmm7, %zmm2
	vprolq	$48, %zmm2, %zmm2
	vpaddq	%zmm1, %zmm5, %zmm1
	vpaddq	%zmm29, %zmm2, %zmm29
	vpxorq	%zmm6, %zmm29, %zmm6
	vprolq	$1, %zmm6, %zmm6
	vpaddq	%zmm9, %zmm8, %zmm9
	vpaddq	%zmm22, %zmm16, %zmm16
	vmovdqa64	%zmm22, %zmm13
	vpaddq	%zmm4, %zmm16, %zmm16
	vpxorq	%zmm3, %zmm16, %zmm3
	vpxorq	%zmm10, %zmm1, %zmm10
	vprolq	$32, %zmm3, %zmm3
	vpaddq	%zmm0, %zmm3, %zmm0
	vpxorq	%zmm4, %zmm0, %zmm4
	vpxorq	%zmm11, %zmm9, %zmm11
	vprolq	$40, %zmm4, %zmm4
	vpaddq	%zmm23, %zmm16, %zmm16
	vpaddq	%zmm4, %zmm16, %zmm16
	vprolq	$1, %zmm10, %zmm10
	vpxorq	%zmm3, %zmm16, %zmm3
	vprolq	$48, %zmm3, %zmm3
	vpaddq	%zmm0, %zmm3, %zmm0
	vprolq	$1, %zmm11, %zmm11
	vpxorq	%zmm4, %zmm0, %zmm4
	vprolq	$1, %zmm4, %zmm4
	vpaddq	%zmm18, %zmm28, %zmm28
	vpaddq	%zmm10, %zmm28, %zmm28
	vpxorq	%zmm3, %zmm28, %zmm3
	vprolq	$32, %zmm3, %zmm3
	vpaddq	%zmm14, %zmm28, %zmm28
	vmovdqa64	%zmm14, %zmm17
	vpaddq	%zmm29, %zmm3, %zmm29
	vmovdqu64	%zmm20, 960(%rsp)
	vpaddq	%zmm20, %zmm27, %zmm27
	vpaddq	%zmm6, %zmm27, %zmm27
	vpxorq	%zmm8, %zmm27, %zmm8
	vpxorq	%zmm10, %zmm29, %zmm10
	vprolq	$32, %zmm8, %zmm8
	vpaddq	%zmm0, %zmm8, %zmm0
	vpxorq	%zmm6, %zmm0, %zmm6
	vprolq	$40, %zmm10, %zmm10
	vprolq	$40, %zmm6, %zmm6
	vpaddq	%zmm19, %zmm27, %zmm27
	vpaddq	%zmm6, %zmm27, %zmm27
	vpaddq	%zmm10, %zmm28, %zmm28
	vpxorq	%zmm8, %zmm27, %zmm8
	vprolq	$48, %zmm8, %zmm8
	vmovdqa64	%zmm26, %zmm15
	vpaddq	%zmm26, %zmm7, %zmm7
	vpaddq	%zmm0, %zmm8, %zmm0
	vpaddq	%zmm4, %zmm7, %zmm7
	vpxorq	%zmm5, %zmm7, %zmm5
	vprolq	$32, %zmm5, %zmm5
	vpxorq	%zmm3, %zmm28, %zmm3
	vpaddq	%zmm9, %zmm5, %zmm9
	vpxorq	%zmm4, %zmm9, %zmm4
	vprolq	$40, %zmm4, %zmm4
	vpxorq	%zmm6, %zmm0, %zmm6
	vpaddq	%zmm12, %zmm7, %zmm7
	vpaddq	%zmm4, %zmm7, %zmm7
	vpxorq	%zmm5, %zmm7, %zmm5
	vprolq	$48, %zmm3, %zmm3
	vprolq	$48, %zmm5, %zmm5
	vpaddq	%zmm9, %zmm5, %zmm9
	vpxorq	%zmm4, %zmm9, %zmm4
	vprolq	$1, %zmm6, %zmm6
	vmovdqu64	128(%rsp), %zmm26
	vpaddq	%zmm26, %zmm16, %zmm16
	vpaddq	%zmm11, %zmm16, %zmm16
	vpxorq	%zmm2, %zmm16, %zmm2
	vprolq	$1, %zmm4, %zmm4
	vprolq	$32, %zmm2, %zmm2
	vpaddq	%zmm1, %zmm2, %zmm1
	vpxorq	%zmm11, %zmm1, %zmm11
	vpaddq	%zmm29, %zmm3, %zmm29
	vprolq	$40, %zmm11, %zmm11
	vpaddq	%zmm21, %zmm16, %zmm16
	vpaddq	%zmm11, %zmm16, %zmm16
	vpxorq	%zmm10, %zmm29, %zmm10
	vpxorq	%zmm2, %zmm16, %zmm2
	vprolq	$48, %zmm2, %zmm2
	vpaddq	%zmm1, %zmm2, %zmm1
	vprolq	$1, %zmm10, %zmm10
	vpxorq	%zmm11, %zmm1, %zmm11
	vprolq	$1, %zmm11, %zmm11
	vpaddq	%zmm30, %zmm28, %zmm28
	vpaddq	%zmm11, %zmm28, %zmm28
	vpxorq	%zmm8, %zmm28, %zmm8
	vprolq	$32, %zmm8, %zmm8
	vpaddq	%zmm19, %zmm28, %zmm28
	vpaddq	%zmm9, %zmm8, %zmm9
	vpaddq	%zmm15, %zmm27, %zmm27
	vpaddq	%zmm10, %zmm27, %zmm27
	vpxorq	%zmm5, %zmm27, %zmm5
	vpxorq	%zmm11, %zmm9, %zmm11
	vprolq	$32, %zmm5, %zmm5
	vpaddq	%zmm1, %zmm5, %zmm1
	vpxorq	%zmm10, %zmm1, %zmm10
	vprolq	$40, %zmm11, %zmm11
	vprolq	$40, %zmm10, %zmm10
	vpaddq	%zmm13, %zmm27, %zmm27
	vmovdqu64	%zmm13, 448(%rsp)
	vpaddq	%zmm10, %zmm27, %zmm27
	vpaddq	%zmm11, %zmm28, %zmm28
	vpxorq	%zmm5, %zmm27, %zmm5
	vmovdqa64	%zmm25, %zmm30
	vpaddq	%zmm25, %zmm7, %zmm7
	vpaddq	%zmm6, %zmm7, %zmm7
	vpxorq	%zmm8, %zmm28, %zmm8
	vpxorq	%zmm2, %zmm7, %zmm2
	vprolq	$32, %zmm2, %zmm2
	vpaddq	%zmm29, %zmm2, %zmm29
	vprolq	$48, %zmm5, %zmm5
	vpxorq	%zmm6, %zmm29, %zmm6
	vprolq	$40, %zmm6, %zmm6
	vpaddq	%zmm20, %zmm7, %zmm7
	vprolq	$48, %zmm8, %zmm8
	vpaddq	%zmm6, %zmm7, %zmm7
	vpxorq	%zmm2, %zmm7, %zmm2
	vprolq	$48, %zmm2, %zmm2
	vpaddq	%zmm1, %zmm5, %zmm1
	vpaddq	%zmm29, %zmm2, %zmm29
	vpxorq	%zmm6, %zmm29, %zmm6
	vprolq	$1, %zmm6, %zmm6
	vpaddq	%zmm9, %zmm8, %zmm9
	vpaddq	%zmm12, %zmm16, %zmm16
	vmovdqa64	%zmm12, %zmm25
	vpaddq	%zmm4, %zmm16, %zmm16
	vpxorq	%zmm3, %zmm16, %zmm3
	vpxorq	%zmm10, %zmm1, %zmm10
	vprolq	$32, %zmm3, %zmm3
	vpaddq	%zmm0, %zmm3, %zmm0
	vpxorq	%zmm4, %zmm0, %zmm4
	vpxorq	%zmm11, %zmm9, %zmm11
	vprolq	$40, %zmm4, %zmm4
	vpaddq	%zmm26, %zmm16, %zmm16
	vpaddq	%zmm4, %zmm16, %zmm16
	vprolq	$1, %zmm10, %zmm10
	vpxorq	%zmm3, %zmm16, %zmm3
	vprolq	$48, %zmm3, %zmm3
	vpaddq	%zmm0, %zmm3, %zmm0
	vprolq	$1, %zmm11, %zmm11
	vpxorq	%zmm4, %zmm0, %zmm4
	vprolq	$1, %zmm4, %zmm4
	vmovdqa64	%zmm24, %zmm14
	vpaddq	%zmm24, %zmm28, %zmm28
	vpaddq	%zmm10, %zmm28, %zmm28
	vpxorq	%zmm3, %zmm28, %zmm3
	vprolq	$32, %zmm3, %zmm3
	vpaddq	%zmm21, %zmm28, %zmm28
	vpaddq	%zmm29, %zmm3, %zmm29
	vpaddq	%zmm31, %zmm27, %zmm27
	vpaddq	%zmm6, %zmm27, %zmm27
	vpxorq	%zmm8, %zmm27, %zmm8
	vpxorq	%zmm10, %zmm29, %zmm10
	vprolq	$32, %zmm8, %zmm8
	vpaddq	%zmm0, %zmm8, %zmm0
	vpxorq	%zmm6, %zmm0, %zmm6
	vprolq	$40, %zmm10, %zmm10
	vprolq	$40, %zmm6, %zmm6
	vmovdqu64	64(%rsp), %zmm22
	vpaddq	%zmm22, %zmm27, %zmm27
	vpaddq	%zmm6, %zmm27, %zmm27
	vpaddq	%zmm10, %zmm28, %zmm28
	vpxorq	%zmm8, %zmm27, %zmm8
	vprolq	$48, %zmm8, %zmm8
	vpaddq	%zmm23, %zmm7, %zmm7
	vpaddq	%zmm0, %zmm8, %zmm0
	vpaddq	%zmm4, %zmm7, %zmm7
	vpxorq	%zmm5, %zmm7, %zmm5
	vprolq	$32, %zmm5, %zmm5
	vpxorq	%zmm3, %zmm28, %zmm3
	vpaddq	%zmm9, %zmm5, %zmm9
	vpxorq	%zmm4, %zmm9, %zmm4
	vprolq	$40, %zmm4, %zmm4
	vpxorq	%zmm6, %zmm0, %zmm6
	vpaddq	%zmm18, %zmm7, %zmm7
	vpaddq	%zmm4, %zmm7, %zmm7
	vpxorq	%zmm5, %zmm7, %zmm5
	vprolq	$48, %zmm3, %zmm3
	vprolq	$48, %zmm5, %zmm5
	vpaddq	%zmm9, %zmm5, %zmm9
	vpxorq	%zmm4, %zmm9, %zmm4
	vprolq	$1, %zmm6, %zmm6
	vpaddq	%zmm17, %zmm16, %zmm16
	vpaddq	%zmm11, %zmm16, %zmm16
	vpxorq	%zmm2, %zmm16, %zmm2
	vprolq	$1, %zmm4, %zmm4
	vprolq	$32, %zmm2, %zmm2
	vpaddq	%zmm1, %zmm2, %zmm1
	vpxorq	%zmm11, %zmm1, %zmm11
	vpaddq	%zmm29, %zmm3, %zmm29
	vprolq	$40, %zmm11, %zmm11
	vmovdqu64	576(%rsp), %zmm24
	vpaddq	%zmm24, %zmm16, %zmm16
	vpaddq	%zmm11, %zmm16, %zmm16
	vpxorq	%zmm10, %zmm29, %zmm10
	vpxorq	%zmm2, %zmm16, %zmm2
	vprolq	$48, %zmm2, %zmm2
	vpaddq	%zmm1, %zmm2, %zmm1
	vprolq	$1, %zmm10, %zmm10
	vpxorq	%zmm11, %zmm1, %zmm11
	vprolq	$1, %zmm11, %zmm11
	vpaddq	%zmm19, %zmm28, %zmm28
	vpaddq	%zmm11, %zmm28, %zmm28
	vpxorq	%zmm8, %zmm28, %zmm8
	vprolq	$32, %zmm8, %zmm8
	vpaddq	%zmm22, %zmm28, %zmm28
	vpaddq	%zmm9, %zmm8, %zmm9
	vpaddq	%zmm17, %zmm27, %zmm27
	vmovdqu64	%zmm17, 896(%rsp)
	vpaddq	%zmm10, %zmm27, %zmm27
	vpxorq	%zmm5, %zmm27, %zmm5
	vpxorq	%zmm11, %zmm9, %zmm11
	vprolq	$32, %zmm5, %zmm5
	vpaddq	%zmm1, %zmm5, %zmm1
	vpxorq	%zmm10, %zmm1, %zmm10
	vprolq	$40, %zmm11, %zmm11
	vprolq	$40, %zmm10, %zmm10
	vpaddq	%zmm23, %zmm27, %zmm27
	vpaddq	%zmm10, %zmm27, %zmm27
	vpaddq	%zmm11, %zmm28, %zmm28
	vpxorq	%zmm5, %zmm27, %zmm5
	vpaddq	%zmm18, %zmm7, %zmm7
	vpaddq	%zmm6, %zmm7, %zmm7
	vpxorq	%zmm8, %zmm28, %zmm8
	vpxorq	%zmm2, %zmm7, %zmm2
	vprolq	$32, %zmm2, %zmm2
	vpaddq	%zmm29, %zmm2, %zmm29
	vprolq	$48, %zmm5, %zmm5
	vpxorq	%zmm6, %zmm29, %zmm6
	vprolq	$40, %zmm6, %zmm6
	vpaddq	%zmm21, %zmm7, %zmm7
	vprolq	$48, %zmm8, %zmm8
	vpaddq	%zmm6, %zmm7, %zmm7
	vpxorq	%zmm2, %zmm7, %zmm2
	vprolq	$48, %zmm2, %zmm2
	vpaddq	%zmm1, %zmm5, %zmm1
	vpaddq	%zmm29, %zmm2, %zmm29
	vpxorq	%zmm6, %zmm29, %zmm6
	vprolq	$1, %zmm6, %zmm6
	vpaddq	%zmm9, %zmm8, %zmm9
	vpaddq	%zmm14, %zmm16, %zmm16
	vpaddq	%zmm4, %zmm16, %zmm16
	vpxorq	%zmm3, %zmm16, %zmm3
	vpxorq	%zmm10, %zmm1, %zmm10
	vprolq	$32, %zmm3, %zmm3
	vpaddq	%zmm0, %zmm3, %zmm0
	vpxorq	%zmm4, %zmm0, %zmm4
	vpxorq	%zmm11, %zmm9, %zmm11
	vprolq	$40, %zmm4, %zmm4
	vpaddq	%zmm13, %zmm16, %zmm16
	vpaddq	%zmm4, %zmm16, %zmm16
	vprolq	$1, %zmm10, %zmm10
	vpxorq	%zmm3, %zmm16, %zmm3
	vprolq	$48, %zmm3, %zmm3
	vpaddq	%zmm0, %zmm3, %zmm0
	vprolq	$1, %zmm11, %zmm11
	vpxorq	%zmm4, %zmm0, %zmm4
	vprolq	$1, %zmm4, %zmm4
	vpaddq	%zmm30, %zmm28, %zmm28
	vpaddq	%zmm10, %zmm28, %zmm28
	vpxorq	%zmm3, %zmm28, %zmm3
	vprolq	$32, %zmm3, %zmm3
	vmovdqa64	%zmm31, %zmm20
	vpaddq	%zmm31, %zmm28, %zmm28
	vpaddq	%zmm29, %zmm3, %zmm29
	vmovdqa64	%zmm15, %zmm31
	vpaddq	%zmm15, %zmm27, %zmm27
	vpaddq	%zmm6, %zmm27, %zmm27
	vpxorq	%zmm8, %zmm27, %zmm8
	vpxorq	%zmm10, %zmm29, %zmm10
	vprolq	$32, %zmm8, %zmm8
	vpaddq	%zmm0, %zmm8, %zmm0
	vpxorq	%zmm6, %zmm0, %zmm6
	vprolq	$40, %zmm10, %zmm10
	vprolq	$40, %zmm6, %zmm6
	vpaddq	%zmm26, %zmm27, %zmm27
	vpaddq	%zmm6, %zmm27, %zmm27
	vpaddq	%zmm10, %zmm28, %zmm28
	vpxorq	%zmm8, %zmm27, %zmm8
	vprolq	$48, %zmm8, %zmm8
	vpaddq	%zmm24, %zmm7, %zmm7
	vpaddq	%zmm0, %zmm8, %zmm0
	vpaddq	%zmm4, %zmm7, %zmm7
	vpxorq	%zmm5, %zmm7, %zmm5
	vprolq	$32, %zmm5, %zmm5
	vpxorq	%zmm3, %zmm28, %zmm3
	vpaddq	%zmm9, %zmm5, %zmm9
	vpxorq	%zmm4, %zmm9, %zmm4
	vprolq	$40, %zmm4, %zmm4
	vpxorq	%zmm6, %zmm0, %zmm6
	vmovdqu64	192(%rsp), %zmm14
	vpaddq	%zmm14, %zmm7, %zmm7
	vpaddq	%zmm4, %zmm7, %zmm7
	vpxorq	%zmm5, %zmm7, %zmm5
	vprolq	$48, %zmm3, %zmm3
	vprolq	$48, %zmm5, %zmm5
	vpaddq	%zmm9, %zmm5, %zmm9
	vpxorq	%zmm4, %zmm9, %zmm4
	vprolq	$1, %zmm6, %zmm6
	vpaddq	%zmm25, %zmm16, %zmm16
	vmovdqa64	%zmm25, %zmm13
	vpaddq	%zmm11, %zmm16, %zmm16
	vpxorq	%zmm2, %zmm16, %zmm2
	vprolq	$1, %zmm4, %zmm4
	vprolq	$32, %zmm2, %zmm2
	vpaddq	%zmm1, %zmm2, %zmm1
	vpxorq	%zmm11, %zmm1, %zmm11
	vpaddq	%zmm29, %zmm3, %zmm29
	vprolq	$40, %zmm11, %zmm11
	vmovdqu64	960(%rsp), %zmm15
	vpaddq	%zmm15, %zmm16, %zmm16
	vpaddq	%zmm11, %zmm16, %zmm16
	vpxorq	%zmm10, %zmm29, %zmm10
	vpxorq	%zmm2, %zmm16, %zmm2
	vprolq	$48, %zmm2, %zmm2
	vpaddq	%zmm1, %zmm2, %zmm1
	vprolq	$1, %zmm10, %zmm10
	vpxorq	%zmm11, %zmm1, %zmm11
	vprolq	$1, %zmm11, %zmm11
	vpaddq	%zmm21, %zmm28, %zmm28
	vpaddq	%zmm11, %zmm28, %zmm28
	vpxorq	%zmm8, %zmm28, %zmm8
	vprolq	$32, %zmm8, %zmm8
	vpaddq	%zmm15, %zmm28, %zmm28
	vmovdqa64	%zmm15, %zmm12
	vpaddq	%zmm9, %zmm8, %zmm9
	vpaddq	%zmm20, %zmm27, %zmm27
	vmovdqa64	%zmm20, %zmm25
	vpaddq	%zmm10, %zmm27, %zmm27
	vpxorq	%zmm5, %zmm27, %zmm5
	vpxorq	%zmm11, %zmm9, %zmm11
	vprolq	$32, %zmm5, %zmm5
	vpaddq	%zmm1, %zmm5, %zmm1
	vpxorq	%zmm10, %zmm1, %zmm10
	vprolq	$40, %zmm11, %zmm11
	vprolq	$40, %zmm10, %zmm10
	vpaddq	%zmm18, %zmm27, %zmm27
	vpaddq	%zmm10, %zmm27, %zmm27
	vpaddq	%zmm11, %zmm28, %zmm28
	vpxorq	%zmm5, %zmm27, %zmm5
	vmovdqa64	%zmm19, %zmm15
	vpaddq	%zmm19, %zmm7, %zmm7
	vpaddq	%zmm6, %zmm7, %zmm7
	vpxorq	%zmm8, %zmm28, %zmm8
	vpxorq	%zmm2, %zmm7, %zmm2
	vprolq	$32, %zmm2, %zmm2
	vpaddq	%zmm29, %zmm2, %zmm29
	vprolq	$48, %zmm5, %zmm5
	vpxorq	%zmm6, %zmm29, %zmm6
	vprolq	$40, %zmm6, %zmm6
	vpaddq	%zmm17, %zmm7, %zmm7
	vprolq	$48, %zmm8, %zmm8
	vpaddq	%zmm6, %zmm7, %zmm7
	vpxorq	%zmm2, %zmm7, %zmm2
	vprolq	$48, %zmm2, %zmm2
	vpaddq	%zmm1, %zmm5, %zmm1
	vpaddq	%zmm29, %zmm2, %zmm29
	vpxorq	%zmm6, %zmm29, %zmm6
	vprolq	$1, %zmm6, %zmm6
	vpaddq	%zmm9, %zmm8, %zmm9
	vpaddq	%zmm26, %zmm16, %zmm16
	vpaddq	%zmm4, %zmm16, %zmm16
	vpxorq	%zmm3, %zmm16, %zmm3
	vpxorq	%zmm10, %zmm1, %zmm10
	vprolq	$32, %zmm3, %zmm3
	vpaddq	%zmm0, %zmm3, %zmm0
	vpxorq	%zmm4, %zmm0, %zmm4
	vpxorq	%zmm11, %zmm9, %zmm11
	vprolq	$40, %zmm4, %zmm4
	vpaddq	%zmm24, %zmm16, %zmm16
	vpaddq	%zmm4, %zmm16, %zmm16
	vprolq	$1, %zmm10, %zmm10
	vpxorq	%zmm3, %zmm16, %zmm3
	vprolq	$48, %zmm3, %zmm3
	vpaddq	%zmm0, %zmm3, %zmm0
	vprolq	$1, %zmm11, %zmm11
	vpxorq	%zmm4, %zmm0, %zmm4
	vprolq	$1, %zmm4, %zmm4
	vpaddq	%zmm22, %zmm28, %zmm28
	vpaddq	%zmm10, %zmm28, %zmm28
	vpxorq	%zmm3, %zmm28, %zmm3
	vprolq	$32, %zmm3, %zmm3
	vpaddq	%zmm30, %zmm28, %zmm28
	vpaddq	%zmm29, %zmm3, %zmm29
	vpaddq	%zmm23, %zmm27, %zmm27
	vpaddq	%zmm6, %zmm27, %zmm27
	vpxorq	%zmm8, %zmm27, %zmm8
	vpxorq	%zmm10, %zmm29, %zmm10
	vprolq	$32, %zmm8, %zmm8
	vpaddq	%zmm0, %zmm8, %zmm0
	vpxorq	%zmm6, %zmm0, %zmm6
	vprolq	$40, %zmm10, %zmm10
	vprolq	$40, %zmm6, %zmm6
	vmovdqu64	384(%rsp), %zmm19
	vpaddq	%zmm19, %zmm27, %zmm27
	vpaddq	%zmm6, %zmm27, %zmm27
	vpaddq	%zmm10, %zmm28, %zmm28
	vpxorq	%zmm8, %zmm27, %zmm8
	vprolq	$48, %zmm8, %zmm8
	vpaddq	%zmm13, %zmm7, %zmm7
	vpaddq	%zmm0, %zmm8, %zmm0
	vpaddq	%zmm4, %zmm7, %zmm7
	vpxorq	%zmm5, %zmm7, %zmm5
	vprolq	$32, %zmm5, %zmm5
	vpxorq	%zmm3, %zmm28, %zmm3
	vpaddq	%zmm9, %zmm5, %zmm9
	vpxorq	%zmm4, %zmm9, %zmm4
	vprolq	$40, %zmm4, %zmm4
	vpxorq	%zmm6, %zmm0, %zmm6
	vmovdqa64	%zmm31, %zmm21
	vpaddq	%zmm31, %zmm7, %zmm7
	vpaddq	%zmm4, %zmm7, %zmm7
	vpxorq	%zmm5, %zmm7, %zmm5
	vprolq	$48, %zmm3, %zmm3
	vprolq	$48, %zmm5, %zmm5
	vpaddq	%zmm9, %zmm5, %zmm9
	vpxorq	%zmm4, %zmm9, %zmm4
	vprolq	$1, %zmm6, %zmm6
	vmovdqa64	%zmm14, %zmm20
	vpaddq	%zmm14, %zmm16, %zmm16
	vpaddq	%zmm11, %zmm16, %zmm16
	vpxorq	%zmm2, %zmm16, %zmm2
	vprolq	$1, %zmm4, %zmm4
	vprolq	$32, %zmm2, %zmm2
	vpaddq	%zmm1, %zmm2, %zmm1
	vpxorq	%zmm11, %zmm1, %zmm11
	vpaddq	%zmm29, %zmm3, %zmm29
	vprolq	$40, %zmm11, %zmm11
	vmovdqu64	448(%rsp), %zmm14
	vpaddq	%zmm14, %zmm16, %zmm16
	vpaddq	%zmm11, %zmm16, %zmm16
	vpxorq	%zmm10, %zmm29, %zmm10
	vpxorq	%zmm2, %zmm16, %zmm2
	vprolq	$48, %zmm2, %zmm2
	vpaddq	%zmm1, %zmm2, %zmm1
	vprolq	$1, %zmm10, %zmm10
	vpxorq	%zmm11, %zmm1, %zmm11
	vprolq	$1, %zmm11, %zmm11
	vpaddq	%zmm31, %zmm28, %zmm28
	vpaddq	%zmm11, %zmm28, %zmm28
	vpxorq	%zmm8, %zmm28, %zmm8
	vprolq	$32, %zmm8, %zmm8
	vpaddq	%zmm23, %zmm28, %zmm28
	vpaddq	%zmm9, %zmm8, %zmm9
	vpaddq	%zmm18, %zmm27, %zmm27
	vpaddq	%zmm10, %zmm27, %zmm27
	vpxorq	%zmm5, %zmm27, %zmm5
	vpxorq	%zmm11, %zmm9, %zmm11
	vprolq	$32, %zmm5, %zmm5
	vpaddq	%zmm1, %zmm5, %zmm1
	vpxorq	%zmm10, %zmm1, %zmm10
	vprolq	$40, %zmm11, %zmm11
	vprolq	$40, %zmm10, %zmm10
	vpaddq	%zmm24, %zmm27, %zmm27
	vpaddq	%zmm10, %zmm27, %zmm27
	vpaddq	%zmm11, %zmm28, %zmm28
	vpxorq	%zmm5, %zmm27, %zmm5
	vmovdqa64	%zmm12, %zmm18
	vpaddq	%zmm12, %zmm7, %zmm7
	vpaddq	%zmm6, %zmm7, %zmm7
	vpxorq	%zmm8, %zmm28, %zmm8
	vpxorq	%zmm2, %zmm7, %zmm2
	vprolq	$32, %zmm2, %zmm2
	vpaddq	%zmm29, %zmm2, %zmm29
	vprolq	$48, %zmm5, %zmm5
	vpxorq	%zmm6, %zmm29, %zmm6
	vprolq	$40, %zmm6, %zmm6
	vpaddq	%zmm26, %zmm7, %zmm7
	vmovdqa64	%zmm26, %zmm31
	vprolq	$48, %zmm8, %zmm8
	vpaddq	%zmm6, %zmm7, %zmm7
	vpxorq	%zmm2, %zmm7, %zmm2
	vprolq	$48, %zmm2, %zmm2
	vpaddq	%zmm1, %zmm5, %zmm1
	vpaddq	%zmm29, %zmm2, %zmm29
	vpxorq	%zmm6, %zmm29, %zmm6
	vprolq	$1, %zmm6, %zmm6
	vpaddq	%zmm9, %zmm8, %zmm9
	vpaddq	%zmm30, %zmm16, %zmm16
	vpaddq	%zmm4, %zmm16, %zmm16
	vpxorq	%zmm3, %zmm16, %zmm3
	vpxorq	%zmm10, %zmm1, %zmm10
	vprolq	$32, %zmm3, %zmm3
	vpaddq	%zmm0, %zmm3, %zmm0
	vpxorq	%zmm4, %zmm0, %zmm4
	vpxorq	%zmm11, %zmm9, %zmm11
	vprolq	$40, %zmm4, %zmm4
	vpaddq	%zmm13, %zmm16, %zmm16
	vmovdqa64	%zmm13, %zmm26
	vpaddq	%zmm4, %zmm16, %zmm16
	vprolq	$1, %zmm10, %zmm10
	vpxorq	%zmm3, %zmm16, %zmm3
	vprolq	$48, %zmm3, %zmm3
	vpaddq	%zmm0, %zmm3, %zmm0
	vprolq	$1, %zmm11, %zmm11
	vpxorq	%zmm4, %zmm0, %zmm4
	vprolq	$1, %zmm4, %zmm4
	vpaddq	%zmm15, %zmm28, %zmm28
	vmovdqa64	%zmm15, %zmm17
	vpaddq	%zmm10, %zmm28, %zmm28
	vpxorq	%zmm3, %zmm28, %zmm3
	vprolq	$32, %zmm3, %zmm3
	vpaddq	%zmm20, %zmm28, %zmm28
	vpaddq	%zmm29, %zmm3, %zmm29
	vmovdqu64	320(%rsp), %zmm12
	vpaddq	%zmm12, %zmm27, %zmm27
	vpaddq	%zmm6, %zmm27, %zmm27
	vpxorq	%zmm8, %zmm27, %zmm8
	vpxorq	%zmm10, %zmm29, %zmm10
	vprolq	$32, %zmm8, %zmm8
	vpaddq	%zmm0, %zmm8, %zmm0
	vpxorq	%zmm6, %zmm0, %zmm6
	vprolq	$40, %zmm10, %zmm10
	vprolq	$40, %zmm6, %zmm6
	vmovdqa64	%zmm25, %zmm13
	vpaddq	%zmm25, %zmm27, %zmm27
	vpaddq	%zmm6, %zmm27, %zmm27
	vpaddq	%zmm10, %zmm28, %zmm28
	vpxorq	%zmm8, %zmm27, %zmm8
	vprolq	$48, %zmm8, %zmm8
	vmovdqu64	896(%rsp), %zmm15
	vpaddq	%zmm15, %zmm7, %zmm7
	vpaddq	%zmm0, %zmm8, %zmm0
	vpaddq	%zmm4, %zmm7, %zmm7
	vpxorq	%zmm5, %zmm7, %zmm5
	vprolq	$32, %zmm5, %zmm5
	vpxorq	%zmm3, %zmm28, %zmm3
	vpaddq	%zmm9, %zmm5, %zmm9
	vpxorq	%zmm4, %zmm9, %zmm4
	vprolq	$40, %zmm4, %zmm4
	vpxorq	%zmm6, %zmm0, %zmm6
	vpaddq	%zmm19, %zmm7, %zmm7
	vpaddq	%zmm4, %zmm7, %zmm7
	vpxorq	%zmm5, %zmm7, %zmm5
	vprolq	$48, %zmm3, %zmm3
	vprolq	$48, %zmm5, %zmm5
	vpaddq	%zmm9, %zmm5, %zmm9
	vpxorq	%zmm4, %zmm9, %zmm4
	vprolq	$1, %zmm6, %zmm6
	vpaddq	%zmm14, %zmm16, %zmm16
	vpaddq	%zmm11, %zmm16, %zmm16
	vpxorq	%zmm2, %zmm16, %zmm30
	vprolq	$1, %zmm4, %zmm2
	vprolq	$32, %zmm30, %zmm4
	vpaddq	%zmm1, %zmm4, %zmm1
	vpxorq	%zmm11, %zmm1, %zmm11
	vpaddq	%zmm29, %zmm3, %zmm29
	vprolq	$40, %zmm11, %zmm11
	vpaddq	%zmm22, %zmm16, %zmm16
	vpaddq	%zmm11, %zmm16, %zmm16
	vpxorq	%zmm10, %zmm29, %zmm10
	vpxorq	%zmm4, %zmm16, %zmm4
	vprolq	$48, %zmm4, %zmm4
	vpaddq	%zmm1, %zmm4, %zmm1
	vprolq	$1, %zmm10, %zmm10
	vpxorq	%zmm11, %zmm1, %zmm11
	vprolq	$1, %zmm11, %zmm11
	vpaddq	%zmm14, %zmm28, %zmm28
	vpaddq	%zmm11, %zmm28, %zmm28
	vpxorq	%zmm8, %zmm28, %zmm8
	vprolq	$32, %zmm8, %zmm8
	vpaddq	%zmm20, %zmm28, %zmm28
	vpaddq	%zmm9, %zmm8, %zmm9
	vpaddq	%zmm26, %zmm27, %zmm27
	vpaddq	%zmm10, %zmm27, %zmm27
	vpxorq	%zmm5, %zmm27, %zmm5
	vpxorq	%zmm11, %zmm9, %zmm11
	vprolq	$32, %zmm5, %zmm5
	vpaddq	%zmm1, %zmm5, %zmm1
	vpxorq	%zmm10, %zmm1, %zmm10
	vprolq	$40, %zmm11, %zmm11
	vprolq	$40, %zmm10, %zmm10
	vpaddq	%zmm19, %zmm27, %zmm27
	vpaddq	%zmm10, %zmm27, %zmm27
	vpaddq	%zmm11, %zmm28, %zmm28
	vpxorq	%zmm5, %zmm27, %zmm5
	vpaddq	%zmm25, %zmm7, %zmm7
	vpaddq	%zmm6, %zmm7, %zmm7
	vpxorq	%zmm8, %zmm28, %zmm8
	vpxorq	%zmm4, %zmm7, %zmm4
	vprolq	$32, %zmm4, %zmm4
	vpaddq	%zmm29, %zmm4, %zmm29
	vprolq	$48, %zmm5, %zmm5
	vpxorq	%zmm6, %zmm29, %zmm6
	vprolq	$40, %zmm6, %zmm6
	vmovdqa64	%zmm21, %zmm14
	vpaddq	%zmm21, %zmm7, %zmm7
	vprolq	$48, %zmm8, %zmm8
	vpaddq	%zmm6, %zmm7, %zmm7
	vpxorq	%zmm4, %zmm7, %zmm4
	vprolq	$48, %zmm4, %zmm4
	vpaddq	%zmm1, %zmm5, %zmm1
	vpaddq	%zmm29, %zmm4, %zmm29
	vpxorq	%zmm6, %zmm29, %zmm6
	vprolq	$1, %zmm6, %zmm6
	vpaddq	%zmm9, %zmm8, %zmm9
	vpaddq	%zmm15, %zmm16, %zmm16
	vpaddq	%zmm2, %zmm16, %zmm16
	vpxorq	%zmm3, %zmm16, %zmm3
	vpxorq	%zmm10, %zmm1, %zmm10
	vprolq	$32, %zmm3, %zmm3
	vpaddq	%zmm0, %zmm3, %zmm0
	vpxorq	%zmm2, %zmm0, %zmm2
	vpxorq	%zmm11, %zmm9, %zmm11
	vprolq	$40, %zmm2, %zmm2
	vpaddq	%zmm22, %zmm16, %zmm16
	vpaddq	%zmm2, %zmm16, %zmm16
	vprolq	$1, %zmm10, %zmm10
	vpxorq	%zmm3, %zmm16, %zmm3
	vprolq	$48, %zmm3, %zmm3
	vpaddq	%zmm0, %zmm3, %zmm0
	vprolq	$1, %zmm11, %zmm11
	vpxorq	%zmm2, %zmm0, %zmm2
	vprolq	$1, %zmm2, %zmm30
	vpaddq	%zmm23, %zmm28, %zmm2
	vpaddq	%zmm10, %zmm2, %zmm2
	vpxorq	%zmm3, %zmm2, %zmm3
	vprolq	$32, %zmm3, %zmm3
	vpaddq	%zmm18, %zmm2, %zmm2
	vpaddq	%zmm29, %zmm3, %zmm28
	vmovdqa64	%zmm24, %zmm25
	vpaddq	%zmm24, %zmm27, %zmm27
	vpaddq	%zmm6, %zmm27, %zmm27
	vpxorq	%zmm8, %zmm27, %zmm8
	vpxorq	%zmm10, %zmm28, %zmm10
	vprolq	$32, %zmm8, %zmm8
	vpaddq	%zmm0, %zmm8, %zmm0
	vpxorq	%zmm6, %zmm0, %zmm6
	vprolq	$40, %zmm10, %zmm10
	vprolq	$40, %zmm6, %zmm6
	vmovdqu64	256(%rsp), %zmm23
	vpaddq	%zmm23, %zmm27, %zmm27
	vpaddq	%zmm6, %zmm27, %zmm27
	vpaddq	%zmm10, %zmm2, %zmm29
	vpxorq	%zmm8, %zmm27, %zmm2
	vprolq	$48, %zmm2, %zmm8
	vmovdqa64	%zmm31, %zmm21
	vpaddq	%zmm31, %zmm7, %zmm7
	vpaddq	%zmm0, %zmm8, %zmm2
	vpaddq	%zmm30, %zmm7, %zmm0
	vpxorq	%zmm5, %zmm0, %zmm5
	vprolq	$32, %zmm5, %zmm5
	vpxorq	%zmm3, %zmm29, %zmm3
	vpaddq	%zmm9, %zmm5, %zmm7
	vpxorq	%zmm30, %zmm7, %zmm9
	vprolq	$40, %zmm9, %zmm9
	vpxorq	%zmm6, %zmm2, %zmm6
	vpaddq	%zmm17, %zmm0, %zmm0
	vmovdqa64	%zmm17, %zmm24
	vpaddq	%zmm9, %zmm0, %zmm0
	vpxorq	%zmm5, %zmm0, %zmm5
	vprolq	$48, %zmm3, %zmm3
	vprolq	$48, %zmm5, %zmm5
	vpaddq	%zmm7, %zmm5, %zmm7
	vpxorq	%zmm9, %zmm7, %zmm9
	vprolq	$1, %zmm6, %zmm31
	vpaddq	%zmm12, %zmm16, %zmm6
	vpaddq	%zmm11, %zmm6, %zmm16
	vpxorq	%zmm4, %zmm16, %zmm4
	vprolq	$1, %zmm9, %zmm6
	vprolq	$32, %zmm4, %zmm4
	vpaddq	%zmm1, %zmm4, %zmm1
	vpxorq	%zmm11, %zmm1, %zmm9
	vpaddq	%zmm28, %zmm3, %zmm11
	vprolq	$40, %zmm9, %zmm9
	vmovdqu64	(%rsp), %zmm17
	vpaddq	%zmm17, %zmm16, %zmm16
	vpaddq	%zmm9, %zmm16, %zmm16
	vpxorq	%zmm10, %zmm11, %zmm10
	vpxorq	%zmm4, %zmm16, %zmm4
	vprolq	$48, %zmm4, %zmm4
	vpaddq	%zmm1, %zmm4, %zmm1
	vprolq	$1, %zmm10, %zmm10
	vpxorq	%zmm9, %zmm1, %zmm9
	vprolq	$1, %zmm9, %zmm9
	vpaddq	%zmm17, %zmm29, %zmm28
	vpaddq	%zmm9, %zmm28, %zmm28
	vpxorq	%zmm8, %zmm28, %zmm8
	vprolq	$32, %zmm8, %zmm8
	vpaddq	%zmm15, %zmm28, %zmm28
	vpaddq	%zmm7, %zmm8, %zmm30
	vpaddq	%zmm20, %zmm27, %zmm7
	vpaddq	%zmm10, %zmm7, %zmm7
	vpxorq	%zmm5, %zmm7, %zmm5
	vpxorq	%zmm9, %zmm30, %zmm9
	vprolq	$32, %zmm5, %zmm5
	vpaddq	%zmm1, %zmm5, %zmm27
	vpxorq	%zmm10, %zmm27, %zmm1
	vprolq	$40, %zmm1, %zmm1
	vpaddq	%zmm21, %zmm7, %zmm7
	vpaddq	%zmm19, %zmm0, %zmm0
	vpaddq	%zmm31, %zmm0, %zmm0
	vprolq	$40, %zmm9, %zmm29
	vpxorq	%zmm4, %zmm0, %zmm4
	vprolq	$32, %zmm4, %zmm9
	vpaddq	%zmm11, %zmm9, %zmm10
	vpaddq	%zmm1, %zmm7, %zmm4
	vpxorq	%zmm31, %zmm10, %zmm7
	vprolq	$40, %zmm7, %zmm7
	vpaddq	%zmm22, %zmm0, %zmm0
	vpaddq	%zmm29, %zmm28, %zmm28
	vpaddq	%zmm7, %zmm0, %zmm31
	vpxorq	%zmm9, %zmm31, %zmm0
	vprolq	$48, %zmm0, %zmm11
	vpxorq	%zmm5, %zmm4, %zmm0
	vpaddq	%zmm10, %zmm11, %zmm5
	vpxorq	%zmm7, %zmm5, %zmm10
	vpaddq	%zmm14, %zmm16, %zmm9
	vpxorq	%zmm8, %zmm28, %zmm7
	vpaddq	%zmm6, %zmm9, %zmm9
	vpxorq	%zmm3, %zmm9, %zmm3
	vprolq	$32, %zmm3, %zmm16
	vprolq	$48, %zmm0, %zmm3
	vpaddq	%zmm2, %zmm16, %zmm0
	vpxorq	%zmm6, %zmm0, %zmm2
	vprolq	$40, %zmm2, %zmm8
	vpaddq	%zmm27, %zmm3, %zmm27
	vpaddq	%zmm13, %zmm9, %zmm2
	vpaddq	%zmm8, %zmm2, %zmm6
	vpxorq	%zmm16, %zmm6, %zmm2
	vpxorq	%zmm1, %zmm27, %zmm1
	vprolq	$48, %zmm2, %zmm2
	vpaddq	%zmm0, %zmm2, %zmm0
	vmovdqa64	%zmm26, %zmm21
	vpaddq	%zmm26, %zmm28, %zmm9
	vprolq	$1, %zmm1, %zmm1
	vpaddq	%zmm1, %zmm9, %zmm9
	vpxorq	%zmm2, %zmm9, %zmm2
	vprolq	$32, %zmm2, %zmm16
	vpaddq	%zmm5, %zmm16, %zmm5
	vpxorq	%zmm1, %zmm5, %zmm1
	vprolq	$40, %zmm1, %zmm2
	vpaddq	%zmm25, %zmm9, %zmm1
	vmovdqa64	%zmm25, %zmm17
	vpaddq	%zmm2, %zmm1, %zmm1
	vpxorq	%zmm16, %zmm1, %zmm9
	vpaddq	%zmm23, %zmm6, %zmm6
	vpaddq	%zmm23, %zmm1, %zmm26
	vprolq	$48, %zmm7, %zmm1
	vprolq	$1, %zmm10, %zmm7
	vpxorq	%zmm8, %zmm0, %zmm8
	vmovdqu64	448(%rsp), %zmm20
	vpaddq	%zmm20, %zmm4, %zmm4
	vpaddq	%zmm30, %zmm1, %zmm10
	vpaddq	%zmm7, %zmm4, %zmm4
	vpxorq	%zmm1, %zmm4, %zmm1
	vprolq	$32, %zmm1, %zmm1
	vpaddq	%zmm0, %zmm1, %zmm0
	vpxorq	%zmm7, %zmm0, %zmm7
	vprolq	$40, %zmm7, %zmm7
	vpaddq	%zmm18, %zmm4, %zmm4
	vmovdqa64	%zmm18, %zmm30
	vpaddq	%zmm7, %zmm4, %zmm4
	vpxorq	%zmm1, %zmm4, %zmm1
	vpaddq	%zmm19, %zmm4, %zmm4
	vprolq	$1, %zmm8, %zmm8
	vpxorq	%zmm29, %zmm10, %zmm16
	vmovdqa64	%zmm24, %zmm18
	vpaddq	%zmm24, %zmm31, %zmm25
	vpaddq	%zmm8, %zmm25, %zmm25
	vpxorq	%zmm3, %zmm25, %zmm3
	vprolq	$32, %zmm3, %zmm3
	vpaddq	%zmm10, %zmm3, %zmm10
	vpxorq	%zmm8, %zmm10, %zmm8
	vpaddq	%zmm12, %zmm25, %zmm25
	vprolq	$40, %zmm8, %zmm8
	vpaddq	%zmm8, %zmm25, %zmm25
	vpxorq	%zmm3, %zmm25, %zmm28
	vpaddq	%zmm17, %zmm25, %zmm24
	vprolq	$48, %zmm9, %zmm9
	vpaddq	%zmm5, %zmm9, %zmm3
	vpxorq	%zmm2, %zmm3, %zmm2
	vprolq	$48, %zmm28, %zmm5
	vprolq	$1, %zmm2, %zmm2
	vpaddq	%zmm10, %zmm5, %zmm10
	vpaddq	%zmm2, %zmm4, %zmm4
	vpxorq	%zmm5, %zmm4, %zmm25
	vpaddq	%zmm21, %zmm4, %zmm23
	vprolq	$1, %zmm16, %zmm4
	vprolq	$48, %zmm1, %zmm1
	vpaddq	%zmm4, %zmm6, %zmm5
	vpaddq	%zmm0, %zmm1, %zmm6
	vpxorq	%zmm11, %zmm5, %zmm0
	vprolq	$32, %zmm0, %zmm0
	vpaddq	%zmm27, %zmm0, %zmm11
	vpxorq	%zmm7, %zmm6, %zmm7
	vpxorq	%zmm4, %zmm11, %zmm4
	vprolq	$40, %zmm4, %zmm16
	vmovdqu64	512(%rsp), %zmm17
	vpaddq	%zmm17, %zmm5, %zmm5
	vprolq	$1, %zmm7, %zmm4
	vpaddq	%zmm16, %zmm5, %zmm7
	vpxorq	%zmm0, %zmm7, %zmm0
	vprolq	$48, %zmm0, %zmm0
	vpaddq	%zmm11, %zmm0, %zmm11
	vpaddq	%zmm4, %zmm24, %zmm24
	vpxorq	%zmm0, %zmm24, %zmm5
	vpaddq	%zmm17, %zmm24, %zmm22
	vpxorq	%zmm16, %zmm11, %zmm0
	vprolq	$1, %zmm0, %zmm0
	vpaddq	%zmm0, %zmm26, %zmm16
	vpxorq	%zmm1, %zmm16, %zmm1
	vpaddq	%zmm20, %zmm16, %zmm16
	vpaddq	%zmm12, %zmm7, %zmm7
	vpxorq	%zmm8, %zmm10, %zmm8
	vprolq	$1, %zmm8, %zmm8
	vpaddq	%zmm8, %zmm7, %zmm7
	vpxorq	%zmm9, %zmm7, %zmm9
	vpaddq	%zmm14, %zmm7, %zmm7
	vprolq	$32, %zmm1, %zmm1
	vpaddq	%zmm10, %zmm1, %zmm10
	vpxorq	%zmm0, %zmm10, %zmm0
	vprolq	$40, %zmm0, %zmm19
	vpaddq	%zmm19, %zmm16, %zmm0
	vpxorq	%zmm1, %zmm0, %zmm16
	vpaddq	%zmm15, %zmm0, %zmm20
	vprolq	$32, %zmm25, %zmm1
	vpaddq	%zmm11, %zmm1, %zmm11
	vpxorq	%zmm2, %zmm11, %zmm0
	vprolq	$40, %zmm0, %zmm2
	vpaddq	%zmm2, %zmm23, %zmm0
	vpxorq	%zmm1, %zmm0, %zmm1
	vprolq	$48, %zmm1, %zmm21
	vpaddq	%zmm11, %zmm21, %zmm17
	vprolq	$32, %zmm9, %zmm1
	vpaddq	%zmm6, %zmm1, %zmm6
	vpxorq	%zmm2, %zmm17, %zmm9
	vpxorq	%zmm8, %zmm6, %zmm2
	vprolq	$40, %zmm2, %zmm8
	vpaddq	%zmm8, %zmm7, %zmm2
	vprolq	$1, %zmm9, %zmm9
	vpxorq	%zmm1, %zmm2, %zmm1
	vprolq	$48, %zmm1, %zmm7
	vpaddq	%zmm6, %zmm7, %zmm1
	vpaddq	%zmm9, %zmm20, %zmm6
	vpxorq	%zmm7, %zmm6, %zmm11
	vpaddq	%zmm18, %zmm6, %zmm18
	vprolq	$32, %zmm5, %zmm6
	vpaddq	%zmm3, %zmm6, %zmm7
	vpxorq	%zmm4, %zmm7, %zmm3
	vprolq	$40, %zmm3, %zmm5
	vpaddq	%zmm5, %zmm22, %zmm20
	vprolq	$48, %zmm16, %zmm4
	vpxorq	%zmm6, %zmm20, %zmm3
	vprolq	$48, %zmm3, %zmm3
	vpaddq	%zmm7, %zmm3, %zmm7
	vpaddq	%zmm10, %zmm4, %zmm6
	vpxorq	%zmm8, %zmm1, %zmm8
	vprolq	$1, %zmm8, %zmm8
	vpaddq	%zmm30, %zmm20, %zmm10
	vprolq	$32, %zmm11, %zmm11
	vpaddq	%zmm7, %zmm11, %zmm15
	vpaddq	%zmm8, %zmm10, %zmm10
	vpxorq	%zmm21, %zmm10, %zmm16
	vpxorq	%zmm9, %zmm15, %zmm9
	vprolq	$32, %zmm16, %zmm16
	vpaddq	%zmm13, %zmm10, %zmm10
	vpaddq	%zmm6, %zmm16, %zmm13
	vprolq	$40, %zmm9, %zmm9
	vpxorq	%zmm8, %zmm13, %zmm8
	vprolq	$40, %zmm8, %zmm8
	vpaddq	%zmm8, %zmm10, %zmm10
	vpaddq	%zmm9, %zmm18, %zmm20
	vpxorq	%zmm16, %zmm10, %zmm16
	vprolq	$48, %zmm16, %zmm18
	vpaddq	%zmm13, %zmm18, %zmm13
	vpxorq	%zmm8, %zmm13, %zmm8
	vpternlogq	$150, 1344(%rsp), %zmm20, %zmm13
	vpxorq	%zmm11, %zmm20, %zmm11
	vprolq	$48, %zmm11, %zmm11
	vpaddq	%zmm15, %zmm11, %zmm22
	vpxorq	%zmm9, %zmm22, %zmm9
	vpternlogq	$150, 1280(%rsp), %zmm10, %zmm22
	vpxorq	%zmm5, %zmm7, %zmm5
	vpxorq	%zmm19, %zmm6, %zmm6
	vpaddq	(%rsp), %zmm0, %zmm0
	vprolq	$1, %zmm5, %zmm5
	vpaddq	%zmm5, %zmm0, %zmm0
	vpxorq	%zmm4, %zmm0, %zmm4
	vpaddq	192(%rsp), %zmm0, %zmm0
	vpaddq	64(%rsp), %zmm2, %zmm2
	vprolq	$1, %zmm6, %zmm6
	vpaddq	%zmm6, %zmm2, %zmm2
	vpxorq	%zmm3, %zmm2, %zmm3
	vpaddq	128(%rsp), %zmm2, %zmm2
	vprolq	$32, %zmm4, %zmm4
	vpaddq	%zmm1, %zmm4, %zmm1
	vpxorq	%zmm5, %zmm1, %zmm5
	vprolq	$40, %zmm5, %zmm5
	vprolq	$32, %zmm3, %zmm3
	vpaddq	%zmm5, %zmm0, %zmm0
	vpaddq	%zmm17, %zmm3, %zmm7
	vpxorq	%zmm6, %zmm7, %zmm6
	vprolq	$40, %zmm6, %zmm6
	vpaddq	%zmm6, %zmm2, %zmm2
	vpxorq	%zmm3, %zmm2, %zmm3
	vprolq	$48, %zmm3, %zmm3
	vpaddq	%zmm7, %zmm3, %zmm29
	vpxorq	%zmm6, %zmm29, %zmm6
	vpternlogq	$150, 1472(%rsp), %zmm0, %zmm29
	vpxorq	%zmm4, %zmm0, %zmm0
	vprolq	$48, %zmm0, %zmm0
	vpaddq	%zmm1, %zmm0, %zmm27
	vpxorq	%zmm5, %zmm27, %zmm1
	vpternlogq	$150, 1088(%rsp), %zmm2, %zmm27
	vprolq	$1, %zmm9, %zmm23
	vpternlogq	$150, 1536(%rsp), %zmm18, %zmm23
	vprolq	$1, %zmm1, %zmm10
	vpternlogq	$150, 1408(%rsp), %zmm3, %zmm10
	vprolq	$1, %zmm6, %zmm4
	vpternlogq	$150, 1216(%rsp), %zmm0, %zmm4
	vprolq	$1, %zmm8, %zmm26
	vpternlogq	$150, 1152(%rsp), %zmm11, %zmm26
	subq	$-128, %rdx
	decq	%rax
	jne	1b
	addq	$1600, %rsp
	popq	%rbx
	popq	%r14
	popq	%rbp
2:
	vmovdqu64	%zmm13, (%rdi)
	vmovdqu64	%zmm29, 64(%rdi)
	vmovdqu64	%zmm22, 128(%rdi)
	vmovdqu64	%zmm27, 192(%rdi)
	vmovdqu64	%zmm4, 256(%rdi)
	vmovdqu64	%zmm23, 320(%rdi)
	vmovdqu64	%zmm10, 384(%rdi)
	vmovdqu64	%zmm26, 448(%rdi)
	vzeroupper
	vpxord	%xmm16, %xmm16, %xmm16
	vpxord	%xmm17, %xmm17, %xmm17
	vpxord	%xmm18, %xmm18, %xmm18
	vpxord	%xmm19, %xmm19, %xmm19
	vpxord	%xmm20, %xmm20, %xmm20
	vpxord	%xmm21, %xmm21, %xmm21
	vpxord	%xmm22, %xmm22, %xmm22
	vpxord	%xmm23, %xmm23, %xmm23
	vpxord	%xmm24, %xmm24, %xmm24
	vpxord	%xmm25, %xmm25, %xmm25
	vpxord	%xmm26, %xmm26, %xmm26
	vpxord	%xmm27, %xmm27, %xmm27
	vpxord	%xmm28, %xmm28, %xmm28
	vpxord	%xmm29, %xmm29, %xmm29
	vpxord	%xmm30, %xmm30, %xmm30
	vpxord	%xmm31, %xmm31, %xmm31
	retq
	vj_end	blake2_compress..many..blake2b..eight..compress_blocks_1_v4

	vj_constants	8
	.p2align	3, 0x0
.L1_v4_CPI19_0:
	.quad	2270897969802886507
.L1_v4_CPI19_1:
	.quad	-2270897969802886508
.L1_v4_CPI19_2:
	.quad	6620516959819538809
.L1_v4_CPI19_3:
	.quad	-6620516959819538810
.L1_v4_CPI19_4:
	.quad	5840696475078001361
.L1_v4_CPI19_5:
	.quad	7640891576956012808
.L1_v4_CPI19_6:
	.quad	-7276294671716946913
.L1_v4_CPI19_7:
	.quad	-4942790177534073029
.L1_v4_CPI19_8:
	.quad	4354685564936845355
.L1_v4_CPI19_9:
	.quad	-6534734903238641935
	vj_function	blake2_compress..many..blake2b..compress_blocks_1_v4
	movq	8(%rsi), %rax
	vmovdqu	(%rdi), %ymm13
	vmovdqu	32(%rdi), %ymm7
	vmovdqu	64(%rdi), %ymm15
	vmovdqu64	96(%rdi), %ymm27
	vmovdqu	128(%rdi), %ymm4
	vmovdqu	160(%rdi), %ymm9
	vmovdqu	192(%rdi), %ymm10
	vmovdqu64	224(%rdi), %ymm26
	testq	%rax, %rax
	je	2f
	pushq	%rbp
	pushq	%rbx
	subq	$808, %rsp
	movq	(%rsi), %r8
	movq	16(%rsi), %r9
	movw	$85, %r10w
	kmovd	%r10d, %k1
	vmovdqu8	(%rcx), %xmm0 {%k1} {z}
	vpextrb	$6, %xmm0, %r10d
	vpextrb	$4, %xmm0, %r11d
	vmovd	%xmm0, %ebx
	vpextrb	$2, %xmm0, %ebp
	kmovd	%ebp, %k0
	kshiftlb	$7, %k0, %k0
	kshiftrb	$6, %k0, %k0
	kmovd	%ebx, %k2
	kshiftlb	$7, %k2, %k2
	kshiftrb	$7, %k2, %k2
	korb	%k0, %k2, %k2
	movb	$-5, %bl
	kmovd	%ebx, %k0
	kandb	%k0, %k2, %k2
	kmovd	%r11d, %k3
	kshiftlb	$2, %k3, %k3
	korb	%k3, %k2, %k2
	kshiftlb	$5, %k2, %k2
	kshiftrb	$5, %k2, %k2
	kmovd	%r10d, %k3
	kshiftlb	$3, %k3, %k3
	korw	%k3, %k2, %k2
	vpbroadcastq	.L1_v4_CPI19_0(%rip), %ymm0
	vpbroadcastq	.L1_v4_CPI19_1(%rip), %ymm0 {%k2}
	vmovdqu	%ymm0, 384(%rsp)
	movq	32(%rsi), %r10
	vmovdqu8	1(%rcx), %xmm0 {%k1} {z}
	vpextrb	$6, %xmm0, %r11d
	movq	48(%rsi), %rcx
	vpextrb	$4, %xmm0, %esi
	vmovd	%xmm0, %ebx
	vpextrb	$2, %xmm0, %ebp
	kmovd	%ebp, %k1
	kshiftlb	$7, %k1, %k1
	kshiftrb	$6, %k1, %k1
	kmovd	%ebx, %k2
	kshiftlb	$7, %k2, %k2
	kshiftrb	$7, %k2, %k2
	korb	%k1, %k2, %k1
	kandb	%k0, %k1, %k0
	kmovd	%esi, %k1
	kshiftlb	$2, %k1, %k1
	korb	%k1, %k0, %k0
	kshiftlb	$5, %k0, %k0
	kshiftrb	$5, %k0, %k0
	kmovd	%r11d, %k1
	kshiftlb	$3, %k1, %k1
	korw	%k1, %k0, %k1
	vpbroadcastq	.L1_v4_CPI19_2(%rip), %ymm0
	vpbroadcastq	.L1_v4_CPI19_3(%rip), %ymm0 {%k1}
	vmovdqu	%ymm0, 352(%rsp)
	vmovdqu	(%rdx), %ymm0
	vmovdqu	%ymm0, 320(%rsp)
	xorl	%edx, %edx
	.p2align	4
1:
	vmovdqa	%ymm13, %ymm14
	vmovdqu	%ymm13, 672(%rsp)
	vmovdqa64	%ymm7, %ymm31
	vmovdqu	%ymm7, 736(%rsp)
	vmovdqa64	%ymm15, %ymm17
	vmovdqu	%ymm15, 640(%rsp)
	vmovdqa	%ymm4, %ymm11
	vmovdqa64	%ymm9, %ymm30
	vmovdqa64	%ymm10, %ymm29
	vmovdqu	(%r8,%rdx), %ymm0
	vmovdqu	32(%r8,%rdx), %ymm1
	vmovdqu	64(%r8,%rdx), %ymm2
	vmovdqu	96(%r8,%rdx), %ymm3
	vmovdqu	(%r9,%rdx), %ymm4
	vmovdqu	32(%r9,%rdx), %ymm5
	vmovdqu	64(%r9,%rdx), %ymm6
	vmovdqu	96(%r9,%rdx), %ymm7
	vmovdqu	(%r10,%rdx), %ymm8
	vmovdqu	32(%r10,%rdx), %ymm9
	vmovdqu	64(%r10,%rdx), %ymm15
	vmovdqu64	96(%r10,%rdx), %ymm16
	vmovdqu	(%rcx,%rdx), %ymm10
	vmovdqu	32(%rcx,%rdx), %ymm12
	vmovdqu64	64(%rcx,%rdx), %ymm18
	vmovdqu64	96(%rcx,%rdx), %ymm21
	vpunpcklqdq	%ymm4, %ymm0, %ymm13
	vpunpckhqdq	%ymm4, %ymm0, %ymm0
	vpunpcklqdq	%ymm10, %ymm8, %ymm4
	vpunpckhqdq	%ymm10, %ymm8, %ymm8
	vinserti32x4	$1, %xmm4, %ymm13, %ymm22
	vmovdqu64	%ymm22, 32(%rsp)
	vinserti32x4	$1, %xmm8, %ymm0, %ymm19
	vperm2i128	$49, %ymm4, %ymm13, %ymm10
	vmovdqu	%ymm10, 288(%rsp)
	vpunpcklqdq	%ymm5, %ymm1, %ymm4
	vpunpckhqdq	%ymm5, %ymm1, %ymm1
	vperm2i128	$49, %ymm8, %ymm0, %ymm8
	vmovdqu	%ymm8, 192(%rsp)
	vpunpcklqdq	%ymm12, %ymm9, %ymm0
	vpunpckhqdq	%ymm12, %ymm9, %ymm5
	vinserti128	$1, %xmm0, %ymm4, %ymm9
	vinserti128	$1, %xmm5, %ymm1, %ymm13
	vmovdqu	%ymm13, 128(%rsp)
	vshufi64x2	$3, %ymm0, %ymm4, %ymm20
	vpunpcklqdq	%ymm6, %ymm2, %ymm0
	vpunpckhqdq	%ymm6, %ymm2, %ymm2
	vperm2i128	$49, %ymm5, %ymm1, %ymm12
	vmovdqu	%ymm12, 96(%rsp)
	vpunpcklqdq	%ymm18, %ymm15, %ymm1
	vpunpckhqdq	%ymm18, %ymm15, %ymm4
	vinserti128	$1, %xmm1, %ymm0, %ymm15
	vinserti32x4	$1, %xmm4, %ymm2, %ymm24
	vshufi64x2	$3, %ymm1, %ymm0, %ymm18
	vpunpcklqdq	%ymm7, %ymm3, %ymm0
	vpunpckhqdq	%ymm7, %ymm3, %ymm1
	vshufi64x2	$3, %ymm4, %ymm2, %ymm23
	vpunpcklqdq	%ymm21, %ymm16, %ymm2
	vpunpckhqdq	%ymm21, %ymm16, %ymm4
	vinserti32x4	$1, %xmm2, %ymm0, %ymm21
	vinserti32x4	$1, %xmm4, %ymm1, %ymm25
	vperm2i128	$49, %ymm2, %ymm0, %ymm0
	vmovdqu	%ymm0, 64(%rsp)
	vpbroadcastq	%rdx, %ymm0
	vpaddq	320(%rsp), %ymm0, %ymm3
	vperm2i128	$49, %ymm4, %ymm1, %ymm0
	vmovdqu	%ymm0, (%rsp)
	vpaddq	%ymm11, %ymm14, %ymm0
	vmovdqu	%ymm11, 608(%rsp)
	vpaddq	%ymm22, %ymm0, %ymm1
	vmovdqu64	%ymm30, 768(%rsp)
	vpaddq	%ymm30, %ymm31, %ymm0
	vpaddq	%ymm0, %ymm10, %ymm0
	vpxorq	.L1_v4_CPI19_6(%rip){1to4}, %ymm0, %ymm2
	vpternlogq	$150, .L1_v4_CPI19_4(%rip){1to4}, %ymm1, %ymm3
	vprolq	$32, %ymm2, %ymm4
	vpaddq	.L1_v4_CPI19_7(%rip){1to4}, %ymm4, %ymm6
	vpxorq	%ymm30, %ymm6, %ymm2
	vpaddq	%ymm0, %ymm8, %ymm0
	vmovdqu64	%ymm29, 704(%rsp)
	vpaddq	%ymm29, %ymm17, %ymm5
	vpaddq	%ymm5, %ymm9, %ymm5
	vmovdqa64	%ymm9, %ymm22
	vmovdqu	%ymm9, 224(%rsp)
	vprolq	$40, %ymm2, %ymm7
	vpxor	384(%rsp), %ymm5, %ymm2
	vprolq	$32, %ymm2, %ymm2
	vpaddq	.L1_v4_CPI19_8(%rip){1to4}, %ymm2, %ymm8
	vpxorq	%ymm29, %ymm8, %ymm9
	vprolq	$40, %ymm9, %ymm9
	vpaddq	%ymm5, %ymm13, %ymm5
	vpaddq	%ymm7, %ymm0, %ymm16
	vpaddq	%ymm5, %ymm9, %ymm10
	vpxor	%ymm2, %ymm10, %ymm2
	vprolq	$48, %ymm2, %ymm17
	vpxorq	%ymm4, %ymm16, %ymm29
	vpaddq	%ymm17, %ymm8, %ymm4
	vpxor	%ymm4, %ymm9, %ymm5
	vprolq	$1, %ymm5, %ymm5
	vpaddq	%ymm5, %ymm18, %ymm8
	vmovdqu64	%ymm18, 160(%rsp)
	vpaddq	%ymm8, %ymm16, %ymm8
	vmovdqa64	%ymm27, %ymm2
	vmovdqu64	%ymm27, 544(%rsp)
	vmovdqu64	%ymm26, 576(%rsp)
	vprolq	$32, %ymm3, %ymm3
	vpaddq	.L1_v4_CPI19_5(%rip){1to4}, %ymm3, %ymm9
	vpxorq	%ymm11, %ymm9, %ymm27
	vprolq	$40, %ymm27, %ymm27
	vpaddq	%ymm19, %ymm1, %ymm1
	vpaddq	%ymm27, %ymm1, %ymm1
	vpxor	%ymm3, %ymm1, %ymm3
	vprolq	$48, %ymm3, %ymm3
	vprolq	$48, %ymm29, %ymm28
	vpaddq	%ymm3, %ymm9, %ymm9
	vpaddq	%ymm28, %ymm6, %ymm6
	vpaddq	%ymm26, %ymm2, %ymm29
	vpaddq	%ymm20, %ymm29, %ymm29
	vpxor	%ymm7, %ymm6, %ymm7
	vpxorq	352(%rsp), %ymm29, %ymm30
	vprolq	$32, %ymm30, %ymm30
	vpaddq	.L1_v4_CPI19_9(%rip){1to4}, %ymm30, %ymm31
	vpxorq	%ymm26, %ymm31, %ymm16
	vprolq	$40, %ymm16, %ymm16
	vpaddq	%ymm12, %ymm29, %ymm29
	vpxorq	%ymm27, %ymm9, %ymm27
	vpaddq	%ymm16, %ymm29, %ymm29
	vpxorq	%ymm30, %ymm29, %ymm30
	vprolq	$48, %ymm30, %ymm30
	vprolq	$1, %ymm7, %ymm7
	vpaddq	%ymm30, %ymm31, %ymm31
	vpxorq	%ymm16, %ymm31, %ymm16
	vprolq	$1, %ymm16, %ymm16
	vprolq	$1, %ymm27, %ymm27
	vmovdqa	%ymm15, %ymm13
	vpaddq	%ymm1, %ymm15, %ymm1
	vpaddq	%ymm7, %ymm1, %ymm1
	vpxorq	%ymm30, %ymm1, %ymm30
	vprolq	$32, %ymm30, %ymm30
	vmovdqu64	%ymm24, 256(%rsp)
	vpaddq	%ymm24, %ymm1, %ymm1
	vpxor	%ymm3, %ymm8, %ymm3
	vprolq	$32, %ymm3, %ymm3
	vpaddq	%ymm4, %ymm30, %ymm0
	vpaddq	%ymm31, %ymm3, %ymm4
	vpxor	%ymm5, %ymm4, %ymm5
	vprolq	$40, %ymm5, %ymm5
	vpxor	%ymm7, %ymm0, %ymm7
	vpaddq	%ymm23, %ymm8, %ymm8
	vpaddq	%ymm5, %ymm8, %ymm8
	vpxor	%ymm3, %ymm8, %ymm3
	vprolq	$40, %ymm7, %ymm31
	vprolq	$48, %ymm3, %ymm2
	vpaddq	%ymm21, %ymm10, %ymm3
	vpaddq	%ymm16, %ymm3, %ymm3
	vpaddq	%ymm31, %ymm1, %ymm1
	vpxorq	%ymm28, %ymm3, %ymm7
	vprolq	$32, %ymm7, %ymm10
	vpaddq	%ymm9, %ymm10, %ymm9
	vpaddq	%ymm2, %ymm4, %ymm7
	vpxorq	%ymm16, %ymm9, %ymm4
	vprolq	$40, %ymm4, %ymm4
	vpaddq	%ymm25, %ymm3, %ymm3
	vpxorq	%ymm30, %ymm1, %ymm16
	vpaddq	%ymm4, %ymm3, %ymm28
	vpxorq	%ymm10, %ymm28, %ymm3
	vprolq	$48, %ymm3, %ymm10
	vpxor	%ymm5, %ymm7, %ymm5
	vpaddq	%ymm10, %ymm9, %ymm9
	vpxor	%ymm4, %ymm9, %ymm3
	vprolq	$1, %ymm3, %ymm3
	vprolq	$48, %ymm16, %ymm4
	vmovdqu	64(%rsp), %ymm15
	vpaddq	%ymm15, %ymm29, %ymm16
	vpaddq	%ymm27, %ymm16, %ymm16
	vpxorq	%ymm17, %ymm16, %ymm11
	vprolq	$1, %ymm5, %ymm29
	vprolq	$32, %ymm11, %ymm5
	vpaddq	%ymm6, %ymm5, %ymm6
	vpxorq	%ymm27, %ymm6, %ymm11
	vpaddq	%ymm4, %ymm0, %ymm0
	vprolq	$40, %ymm11, %ymm11
	vmovdqu	(%rsp), %ymm12
	vpaddq	%ymm12, %ymm16, %ymm16
	vpaddq	%ymm11, %ymm16, %ymm16
	vpxorq	%ymm31, %ymm0, %ymm27
	vpxorq	%ymm5, %ymm16, %ymm5
	vprolq	$48, %ymm5, %ymm5
	vpaddq	%ymm5, %ymm6, %ymm6
	vprolq	$1, %ymm27, %ymm27
	vpxor	%ymm6, %ymm11, %ymm11
	vprolq	$1, %ymm11, %ymm11
	vpaddq	%ymm1, %ymm15, %ymm1
	vpaddq	%ymm1, %ymm11, %ymm1
	vpxor	%ymm2, %ymm1, %ymm2
	vprolq	$32, %ymm2, %ymm2
	vpaddq	%ymm18, %ymm1, %ymm1
	vpaddq	%ymm2, %ymm9, %ymm9
	vpaddq	%ymm22, %ymm8, %ymm8
	vpaddq	%ymm27, %ymm8, %ymm8
	vpxor	%ymm10, %ymm8, %ymm10
	vpxor	%ymm11, %ymm9, %ymm11
	vprolq	$32, %ymm10, %ymm10
	vpaddq	%ymm6, %ymm10, %ymm6
	vpxorq	%ymm27, %ymm6, %ymm27
	vprolq	$40, %ymm11, %ymm11
	vprolq	$40, %ymm27, %ymm27
	vpaddq	%ymm13, %ymm8, %ymm8
	vmovdqu	%ymm13, 512(%rsp)
	vpaddq	%ymm27, %ymm8, %ymm8
	vpaddq	%ymm11, %ymm1, %ymm30
	vpxor	%ymm10, %ymm8, %ymm1
	vpaddq	%ymm24, %ymm28, %ymm10
	vpaddq	%ymm29, %ymm10, %ymm10
	vpxorq	%ymm2, %ymm30, %ymm2
	vpxor	%ymm5, %ymm10, %ymm5
	vprolq	$32, %ymm5, %ymm28
	vpaddq	%ymm0, %ymm28, %ymm0
	vprolq	$48, %ymm1, %ymm5
	vpxorq	%ymm29, %ymm0, %ymm1
	vprolq	$40, %ymm1, %ymm29
	vpaddq	%ymm12, %ymm10, %ymm1
	vprolq	$48, %ymm2, %ymm10
	vpaddq	%ymm29, %ymm1, %ymm31
	vpxorq	%ymm28, %ymm31, %ymm1
	vprolq	$48, %ymm1, %ymm2
	vpaddq	%ymm5, %ymm6, %ymm1
	vpaddq	%ymm2, %ymm0, %ymm0
	vpxorq	%ymm29, %ymm0, %ymm6
	vprolq	$1, %ymm6, %ymm6
	vpaddq	%ymm10, %ymm9, %ymm9
	vpaddq	%ymm25, %ymm16, %ymm16
	vpaddq	%ymm3, %ymm16, %ymm16
	vpxorq	%ymm4, %ymm16, %ymm4
	vpxorq	%ymm27, %ymm1, %ymm27
	vprolq	$32, %ymm4, %ymm4
	vpaddq	%ymm7, %ymm4, %ymm7
	vpxor	%ymm3, %ymm7, %ymm3
	vpxor	%ymm11, %ymm9, %ymm11
	vprolq	$40, %ymm3, %ymm3
	vpaddq	%ymm20, %ymm16, %ymm16
	vpaddq	%ymm3, %ymm16, %ymm16
	vprolq	$1, %ymm27, %ymm27
	vpxorq	%ymm4, %ymm16, %ymm4
	vprolq	$48, %ymm4, %ymm4
	vpaddq	%ymm4, %ymm7, %ymm7
	vprolq	$1, %ymm11, %ymm11
	vpxor	%ymm3, %ymm7, %ymm3
	vprolq	$1, %ymm3, %ymm3
	vpaddq	%ymm19, %ymm30, %ymm28
	vmovdqa64	%ymm19, %ymm18
	vpaddq	%ymm27, %ymm28, %ymm28
	vpxorq	%ymm4, %ymm28, %ymm4
	vprolq	$32, %ymm4, %ymm4
	vpaddq	%ymm21, %ymm28, %ymm28
	vpaddq	%ymm0, %ymm4, %ymm29
	vmovdqu64	32(%rsp), %ymm19
	vpaddq	%ymm19, %ymm8, %ymm0
	vpaddq	%ymm6, %ymm0, %ymm0
	vpxor	%ymm0, %ymm10, %ymm8
	vpxorq	%ymm27, %ymm29, %ymm10
	vprolq	$32, %ymm8, %ymm8
	vpaddq	%ymm7, %ymm8, %ymm7
	vpxor	%ymm6, %ymm7, %ymm6
	vprolq	$40, %ymm10, %ymm10
	vprolq	$40, %ymm6, %ymm6
	vmovdqu	288(%rsp), %ymm15
	vpaddq	%ymm0, %ymm15, %ymm0
	vpaddq	%ymm6, %ymm0, %ymm27
	vpaddq	%ymm10, %ymm28, %ymm28
	vpxorq	%ymm8, %ymm27, %ymm0
	vprolq	$48, %ymm0, %ymm8
	vpaddq	%ymm23, %ymm31, %ymm30
	vpaddq	%ymm7, %ymm8, %ymm0
	vpaddq	%ymm3, %ymm30, %ymm7
	vpxor	%ymm5, %ymm7, %ymm5
	vprolq	$32, %ymm5, %ymm5
	vpxorq	%ymm4, %ymm28, %ymm4
	vpaddq	%ymm5, %ymm9, %ymm9
	vpxor	%ymm3, %ymm9, %ymm3
	vprolq	$40, %ymm3, %ymm30
	vpxor	%ymm6, %ymm0, %ymm6
	vmovdqu64	96(%rsp), %ymm24
	vpaddq	%ymm24, %ymm7, %ymm3
	vpaddq	%ymm30, %ymm3, %ymm7
	vpxor	%ymm5, %ymm7, %ymm5
	vprolq	$48, %ymm4, %ymm3
	vprolq	$48, %ymm5, %ymm5
	vpaddq	%ymm5, %ymm9, %ymm9
	vpxorq	%ymm30, %ymm9, %ymm4
	vprolq	$1, %ymm6, %ymm6
	vmovdqu64	128(%rsp), %ymm30
	vpaddq	%ymm30, %ymm16, %ymm16
	vpaddq	%ymm11, %ymm16, %ymm16
	vpxorq	%ymm2, %ymm16, %ymm2
	vprolq	$1, %ymm4, %ymm4
	vprolq	$32, %ymm2, %ymm2
	vpaddq	%ymm1, %ymm2, %ymm1
	vpxor	%ymm1, %ymm11, %ymm11
	vpaddq	%ymm3, %ymm29, %ymm29
	vprolq	$40, %ymm11, %ymm11
	vmovdqu	192(%rsp), %ymm14
	vpaddq	%ymm14, %ymm16, %ymm16
	vpaddq	%ymm11, %ymm16, %ymm16
	vpxorq	%ymm10, %ymm29, %ymm10
	vpxorq	%ymm2, %ymm16, %ymm2
	vprolq	$48, %ymm2, %ymm2
	vpaddq	%ymm2, %ymm1, %ymm1
	vprolq	$1, %ymm10, %ymm10
	vpxor	%ymm1, %ymm11, %ymm11
	vprolq	$1, %ymm11, %ymm11
	vpaddq	%ymm23, %ymm28, %ymm28
	vpaddq	%ymm11, %ymm28, %ymm28
	vpxorq	%ymm8, %ymm28, %ymm8
	vprolq	$32, %ymm8, %ymm8
	vpaddq	%ymm13, %ymm28, %ymm28
	vpaddq	%ymm9, %ymm8, %ymm9
	vpaddq	%ymm21, %ymm27, %ymm27
	vmovdqa64	%ymm21, %ymm31
	vpaddq	%ymm10, %ymm27, %ymm27
	vpxorq	%ymm5, %ymm27, %ymm5
	vpxor	%ymm11, %ymm9, %ymm11
	vprolq	$32, %ymm5, %ymm5
	vpaddq	%ymm1, %ymm5, %ymm1
	vpxor	%ymm1, %ymm10, %ymm10
	vprolq	$40, %ymm11, %ymm11
	vprolq	$40, %ymm10, %ymm10
	vpaddq	%ymm19, %ymm27, %ymm27
	vpaddq	%ymm10, %ymm27, %ymm27
	vpaddq	%ymm11, %ymm28, %ymm28
	vpxorq	%ymm5, %ymm27, %ymm5
	vpaddq	%ymm30, %ymm7, %ymm7
	vpaddq	%ymm6, %ymm7, %ymm7
	vpxorq	%ymm8, %ymm28, %ymm8
	vpxor	%ymm2, %ymm7, %ymm2
	vprolq	$32, %ymm2, %ymm2
	vpaddq	%ymm29, %ymm2, %ymm29
	vprolq	$48, %ymm5, %ymm5
	vpxorq	%ymm6, %ymm29, %ymm6
	vprolq	$40, %ymm6, %ymm6
	vpaddq	%ymm7, %ymm15, %ymm7
	vprolq	$48, %ymm8, %ymm8
	vpaddq	%ymm6, %ymm7, %ymm7
	vpxor	%ymm2, %ymm7, %ymm2
	vprolq	$48, %ymm2, %ymm2
	vpaddq	%ymm5, %ymm1, %ymm1
	vpaddq	%ymm2, %ymm29, %ymm29
	vpxorq	%ymm6, %ymm29, %ymm6
	vprolq	$1, %ymm6, %ymm6
	vpaddq	%ymm8, %ymm9, %ymm9
	vpaddq	%ymm12, %ymm16, %ymm16
	vpaddq	%ymm4, %ymm16, %ymm16
	vpxorq	%ymm3, %ymm16, %ymm3
	vpxor	%ymm1, %ymm10, %ymm10
	vprolq	$32, %ymm3, %ymm3
	vpaddq	%ymm0, %ymm3, %ymm0
	vpxor	%ymm4, %ymm0, %ymm4
	vpxor	%ymm11, %ymm9, %ymm11
	vprolq	$40, %ymm4, %ymm4
	vpaddq	%ymm25, %ymm16, %ymm16
	vpaddq	%ymm4, %ymm16, %ymm16
	vprolq	$1, %ymm10, %ymm10
	vpxorq	%ymm3, %ymm16, %ymm3
	vprolq	$48, %ymm3, %ymm3
	vpaddq	%ymm3, %ymm0, %ymm0
	vprolq	$1, %ymm11, %ymm11
	vpxor	%ymm4, %ymm0, %ymm4
	vprolq	$1, %ymm4, %ymm4
	vpaddq	160(%rsp), %ymm28, %ymm28
	vpaddq	%ymm10, %ymm28, %ymm28
	vpxorq	%ymm3, %ymm28, %ymm3
	vprolq	$32, %ymm3, %ymm3
	vmovdqu64	64(%rsp), %ymm26
	vpaddq	%ymm26, %ymm28, %ymm28
	vpaddq	%ymm29, %ymm3, %ymm29
	vpaddq	%ymm14, %ymm27, %ymm27
	vpaddq	%ymm6, %ymm27, %ymm27
	vpxorq	%ymm8, %ymm27, %ymm8
	vpxorq	%ymm10, %ymm29, %ymm10
	vprolq	$32, %ymm8, %ymm8
	vpaddq	%ymm0, %ymm8, %ymm0
	vpxor	%ymm6, %ymm0, %ymm6
	vprolq	$40, %ymm10, %ymm10
	vprolq	$40, %ymm6, %ymm6
	vmovdqa64	%ymm20, %ymm22
	vpaddq	%ymm20, %ymm27, %ymm27
	vpaddq	%ymm6, %ymm27, %ymm27
	vpaddq	%ymm10, %ymm28, %ymm28
	vpxorq	%ymm8, %ymm27, %ymm8
	vprolq	$48, %ymm8, %ymm8
	vpaddq	%ymm24, %ymm7, %ymm7
	vpaddq	%ymm0, %ymm8, %ymm0
	vpaddq	%ymm4, %ymm7, %ymm7
	vpxor	%ymm5, %ymm7, %ymm5
	vprolq	$32, %ymm5, %ymm5
	vpxorq	%ymm3, %ymm28, %ymm3
	vpaddq	%ymm5, %ymm9, %ymm9
	vpxor	%ymm4, %ymm9, %ymm4
	vprolq	$40, %ymm4, %ymm4
	vpxor	%ymm6, %ymm0, %ymm6
	vmovdqa64	%ymm18, %ymm17
	vpaddq	%ymm18, %ymm7, %ymm7
	vpaddq	%ymm4, %ymm7, %ymm7
	vpxor	%ymm5, %ymm7, %ymm5
	vprolq	$48, %ymm3, %ymm3
	vprolq	$48, %ymm5, %ymm5
	vpaddq	%ymm5, %ymm9, %ymm9
	vpxor	%ymm4, %ymm9, %ymm4
	vprolq	$1, %ymm6, %ymm6
	vmovdqu64	256(%rsp), %ymm19
	vpaddq	%ymm19, %ymm16, %ymm16
	vpaddq	%ymm11, %ymm16, %ymm16
	vpxorq	%ymm2, %ymm16, %ymm2
	vprolq	$1, %ymm4, %ymm4
	vprolq	$32, %ymm2, %ymm2
	vpaddq	%ymm1, %ymm2, %ymm1
	vpxor	%ymm1, %ymm11, %ymm11
	vpaddq	%ymm3, %ymm29, %ymm29
	vprolq	$40, %ymm11, %ymm11
	vmovdqu	224(%rsp), %ymm13
	vpaddq	%ymm13, %ymm16, %ymm16
	vpaddq	%ymm11, %ymm16, %ymm16
	vpxorq	%ymm10, %ymm29, %ymm10
	vpxorq	%ymm2, %ymm16, %ymm2
	vprolq	$48, %ymm2, %ymm2
	vpaddq	%ymm2, %ymm1, %ymm1
	vprolq	$1, %ymm10, %ymm10
	vpxor	%ymm1, %ymm11, %ymm11
	vprolq	$1, %ymm11, %ymm11
	vpaddq	%ymm24, %ymm28, %ymm28
	vpaddq	%ymm11, %ymm28, %ymm28
	vpxorq	%ymm8, %ymm28, %ymm8
	vprolq	$32, %ymm8, %ymm8
	vpaddq	%ymm19, %ymm28, %ymm28
	vpaddq	%ymm9, %ymm8, %ymm9
	vpaddq	%ymm14, %ymm27, %ymm27
	vpaddq	%ymm10, %ymm27, %ymm27
	vpxorq	%ymm5, %ymm27, %ymm5
	vpxor	%ymm11, %ymm9, %ymm11
	vprolq	$32, %ymm5, %ymm5
	vpaddq	%ymm1, %ymm5, %ymm1
	vpxor	%ymm1, %ymm10, %ymm10
	vprolq	$40, %ymm11, %ymm11
	vprolq	$40, %ymm10, %ymm10
	vpaddq	%ymm18, %ymm27, %ymm27
	vpaddq	%ymm10, %ymm27, %ymm27
	vpaddq	%ymm11, %ymm28, %ymm28
	vpxorq	%ymm5, %ymm27, %ymm5
	vpaddq	%ymm25, %ymm7, %ymm7
	vmovdqa64	%ymm25, %ymm21
	vpaddq	%ymm6, %ymm7, %ymm7
	vpxorq	%ymm8, %ymm28, %ymm8
	vpxor	%ymm2, %ymm7, %ymm2
	vprolq	$32, %ymm2, %ymm2
	vpaddq	%ymm29, %ymm2, %ymm29
	vprolq	$48, %ymm5, %ymm5
	vpxorq	%ymm6, %ymm29, %ymm6
	vprolq	$40, %ymm6, %ymm6
	vpaddq	%ymm31, %ymm7, %ymm7
	vmovdqa64	%ymm31, %ymm18
	vprolq	$48, %ymm8, %ymm8
	vpaddq	%ymm6, %ymm7, %ymm7
	vpxor	%ymm2, %ymm7, %ymm2
	vprolq	$48, %ymm2, %ymm2
	vpaddq	%ymm5, %ymm1, %ymm1
	vpaddq	%ymm2, %ymm29, %ymm29
	vpxorq	%ymm6, %ymm29, %ymm6
	vprolq	$1, %ymm6, %ymm6
	vpaddq	%ymm8, %ymm9, %ymm9
	vpaddq	%ymm23, %ymm16, %ymm16
	vmovdqa64	%ymm23, %ymm31
	vpaddq	%ymm4, %ymm16, %ymm16
	vpxorq	%ymm3, %ymm16, %ymm3
	vpxor	%ymm1, %ymm10, %ymm10
	vprolq	$32, %ymm3, %ymm3
	vpaddq	%ymm0, %ymm3, %ymm0
	vpxor	%ymm4, %ymm0, %ymm4
	vpxor	%ymm11, %ymm9, %ymm11
	vprolq	$40, %ymm4, %ymm4
	vpaddq	%ymm26, %ymm16, %ymm16
	vpaddq	%ymm4, %ymm16, %ymm16
	vprolq	$1, %ymm10, %ymm10
	vpxorq	%ymm3, %ymm16, %ymm3
	vprolq	$48, %ymm3, %ymm3
	vpaddq	%ymm3, %ymm0, %ymm0
	vprolq	$1, %ymm11, %ymm11
	vpxor	%ymm4, %ymm0, %ymm4
	vprolq	$1, %ymm4, %ymm4
	vmovdqa64	%ymm15, %ymm20
	vpaddq	%ymm15, %ymm28, %ymm28
	vpaddq	%ymm10, %ymm28, %ymm28
	vpxorq	%ymm3, %ymm28, %ymm3
	vprolq	$32, %ymm3, %ymm3
	vpaddq	%ymm22, %ymm28, %ymm28
	vmovdqa64	%ymm22, %ymm23
	vpaddq	%ymm29, %ymm3, %ymm29
	vpaddq	%ymm30, %ymm27, %ymm27
	vpaddq	%ymm6, %ymm27, %ymm27
	vpxorq	%ymm8, %ymm27, %ymm8
	vpxorq	%ymm10, %ymm29, %ymm10
	vprolq	$32, %ymm8, %ymm8
	vpaddq	%ymm0, %ymm8, %ymm0
	vpxor	%ymm6, %ymm0, %ymm6
	vprolq	$40, %ymm10, %ymm10
	vprolq	$40, %ymm6, %ymm6
	vmovdqu	160(%rsp), %ymm15
	vpaddq	%ymm15, %ymm27, %ymm27
	vpaddq	%ymm6, %ymm27, %ymm27
	vpaddq	%ymm10, %ymm28, %ymm28
	vpxorq	%ymm8, %ymm27, %ymm8
	vprolq	$48, %ymm8, %ymm8
	vmovdqa	%ymm13, %ymm14
	vpaddq	%ymm7, %ymm13, %ymm7
	vpaddq	%ymm0, %ymm8, %ymm0
	vpaddq	%ymm4, %ymm7, %ymm7
	vpxor	%ymm5, %ymm7, %ymm5
	vprolq	$32, %ymm5, %ymm5
	vpxorq	%ymm3, %ymm28, %ymm3
	vpaddq	%ymm5, %ymm9, %ymm9
	vpxor	%ymm4, %ymm9, %ymm4
	vprolq	$40, %ymm4, %ymm4
	vpxor	%ymm6, %ymm0, %ymm6
	vmovdqu64	32(%rsp), %ymm22
	vpaddq	%ymm22, %ymm7, %ymm7
	vpaddq	%ymm4, %ymm7, %ymm7
	vpxor	%ymm5, %ymm7, %ymm5
	vprolq	$48, %ymm3, %ymm3
	vprolq	$48, %ymm5, %ymm5
	vpaddq	%ymm5, %ymm9, %ymm9
	vpxor	%ymm4, %ymm9, %ymm4
	vprolq	$1, %ymm6, %ymm6
	vmovdqu	(%rsp), %ymm12
	vpaddq	%ymm12, %ymm16, %ymm16
	vpaddq	%ymm11, %ymm16, %ymm16
	vpxorq	%ymm2, %ymm16, %ymm2
	vprolq	$1, %ymm4, %ymm4
	vprolq	$32, %ymm2, %ymm2
	vpaddq	%ymm1, %ymm2, %ymm1
	vpxor	%ymm1, %ymm11, %ymm11
	vpaddq	%ymm3, %ymm29, %ymm29
	vprolq	$40, %ymm11, %ymm11
	vmovdqu	512(%rsp), %ymm13
	vpaddq	%ymm13, %ymm16, %ymm16
	vpaddq	%ymm11, %ymm16, %ymm16
	vpxorq	%ymm10, %ymm29, %ymm10
	vpxorq	%ymm2, %ymm16, %ymm2
	vprolq	$48, %ymm2, %ymm2
	vpaddq	%ymm2, %ymm1, %ymm1
	vprolq	$1, %ymm10, %ymm10
	vpxor	%ymm1, %ymm11, %ymm11
	vprolq	$1, %ymm11, %ymm11
	vpaddq	%ymm19, %ymm28, %ymm28
	vpaddq	%ymm11, %ymm28, %ymm28
	vpxorq	%ymm8, %ymm28, %ymm8
	vprolq	$32, %ymm8, %ymm8
	vpaddq	%ymm22, %ymm28, %ymm28
	vpaddq	%ymm9, %ymm8, %ymm9
	vpaddq	%ymm30, %ymm27, %ymm27
	vpaddq	%ymm10, %ymm27, %ymm27
	vpxorq	%ymm5, %ymm27, %ymm5
	vpxor	%ymm11, %ymm9, %ymm11
	vprolq	$32, %ymm5, %ymm5
	vpaddq	%ymm1, %ymm5, %ymm1
	vpxor	%ymm1, %ymm10, %ymm10
	vprolq	$40, %ymm11, %ymm11
	vprolq	$40, %ymm10, %ymm10
	vpaddq	%ymm24, %ymm27, %ymm27
	vpaddq	%ymm10, %ymm27, %ymm27
	vpaddq	%ymm11, %ymm28, %ymm28
	vpxorq	%ymm5, %ymm27, %ymm5
	vpaddq	%ymm20, %ymm7, %ymm7
	vpaddq	%ymm6, %ymm7, %ymm7
	vpxorq	%ymm8, %ymm28, %ymm8
	vpxor	%ymm2, %ymm7, %ymm2
	vprolq	$32, %ymm2, %ymm2
	vpaddq	%ymm29, %ymm2, %ymm29
	vprolq	$48, %ymm5, %ymm5
	vpxorq	%ymm6, %ymm29, %ymm6
	vprolq	$40, %ymm6, %ymm6
	vpaddq	%ymm7, %ymm14, %ymm7
	vmovdqa64	%ymm14, %ymm25
	vprolq	$48, %ymm8, %ymm8
	vpaddq	%ymm6, %ymm7, %ymm7
	vpxor	%ymm2, %ymm7, %ymm2
	vprolq	$48, %ymm2, %ymm2
	vpaddq	%ymm5, %ymm1, %ymm1
	vpaddq	%ymm2, %ymm29, %ymm29
	vpxorq	%ymm6, %ymm29, %ymm6
	vprolq	$1, %ymm6, %ymm6
	vpaddq	%ymm8, %ymm9, %ymm9
	vpaddq	%ymm15, %ymm16, %ymm16
	vmovdqa64	%ymm15, %ymm30
	vpaddq	%ymm4, %ymm16, %ymm16
	vpxorq	%ymm3, %ymm16, %ymm3
	vpxor	%ymm1, %ymm10, %ymm10
	vprolq	$32, %ymm3, %ymm3
	vpaddq	%ymm0, %ymm3, %ymm0
	vpxor	%ymm4, %ymm0, %ymm4
	vpxor	%ymm11, %ymm9, %ymm11
	vprolq	$40, %ymm4, %ymm4
	vpaddq	%ymm12, %ymm16, %ymm16
	vmovdqa64	%ymm12, %ymm19
	vpaddq	%ymm4, %ymm16, %ymm16
	vprolq	$1, %ymm10, %ymm10
	vpxorq	%ymm3, %ymm16, %ymm3
	vprolq	$48, %ymm3, %ymm3
	vpaddq	%ymm3, %ymm0, %ymm0
	vprolq	$1, %ymm11, %ymm11
	vpxor	%ymm4, %ymm0, %ymm4
	vprolq	$1, %ymm4, %ymm4
	vpaddq	%ymm26, %ymm28, %ymm28
	vpaddq	%ymm10, %ymm28, %ymm28
	vpxorq	%ymm3, %ymm28, %ymm3
	vprolq	$32, %ymm3, %ymm3
	vpaddq	%ymm17, %ymm28, %ymm28
	vmovdqa64	%ymm17, %ymm24
	vpaddq	%ymm29, %ymm3, %ymm29
	vmovdqu64	%ymm31, 480(%rsp)
	vpaddq	%ymm31, %ymm27, %ymm27
	vpaddq	%ymm6, %ymm27, %ymm27
	vpxorq	%ymm8, %ymm27, %ymm8
	vpxorq	%ymm10, %ymm29, %ymm10
	vprolq	$32, %ymm8, %ymm8
	vpaddq	%ymm0, %ymm8, %ymm0
	vpxor	%ymm6, %ymm0, %ymm6
	vprolq	$40, %ymm10, %ymm10
	vprolq	$40, %ymm6, %ymm6
	vmovdqa64	%ymm18, %ymm17
	vpaddq	%ymm18, %ymm27, %ymm27
	vpaddq	%ymm6, %ymm27, %ymm27
	vpaddq	%ymm10, %ymm28, %ymm28
	vpxorq	%ymm8, %ymm27, %ymm8
	vprolq	$48, %ymm8, %ymm8
	vmovdqu64	%ymm23, 448(%rsp)
	vpaddq	%ymm23, %ymm7, %ymm7
	vpaddq	%ymm0, %ymm8, %ymm0
	vpaddq	%ymm4, %ymm7, %ymm7
	vpxor	%ymm5, %ymm7, %ymm5
	vprolq	$32, %ymm5, %ymm5
	vpxorq	%ymm3, %ymm28, %ymm3
	vpaddq	%ymm5, %ymm9, %ymm9
	vpxor	%ymm4, %ymm9, %ymm4
	vprolq	$40, %ymm4, %ymm4
	vpxor	%ymm6, %ymm0, %ymm6
	vpaddq	%ymm7, %ymm13, %ymm7
	vpaddq	%ymm4, %ymm7, %ymm7
	vpxor	%ymm5, %ymm7, %ymm5
	vprolq	$48, %ymm3, %ymm3
	vprolq	$48, %ymm5, %ymm5
	vpaddq	%ymm5, %ymm9, %ymm9
	vpxor	%ymm4, %ymm9, %ymm4
	vprolq	$1, %ymm6, %ymm6
	vmovdqu	192(%rsp), %ymm14
	vpaddq	%ymm14, %ymm16, %ymm16
	vpaddq	%ymm11, %ymm16, %ymm16
	vpxorq	%ymm2, %ymm16, %ymm2
	vprolq	$1, %ymm4, %ymm4
	vprolq	$32, %ymm2, %ymm2
	vpaddq	%ymm1, %ymm2, %ymm1
	vpxor	%ymm1, %ymm11, %ymm11
	vpaddq	%ymm3, %ymm29, %ymm29
	vprolq	$40, %ymm11, %ymm11
	vmovdqa64	%ymm21, %ymm18
	vpaddq	%ymm21, %ymm16, %ymm16
	vpaddq	%ymm11, %ymm16, %ymm16
	vpxorq	%ymm10, %ymm29, %ymm10
	vpxorq	%ymm2, %ymm16, %ymm2
	vprolq	$48, %ymm2, %ymm2
	vpaddq	%ymm2, %ymm1, %ymm1
	vprolq	$1, %ymm10, %ymm10
	vpxor	%ymm1, %ymm11, %ymm11
	vprolq	$1, %ymm11, %ymm11
	vpaddq	%ymm20, %ymm28, %ymm28
	vpaddq	%ymm11, %ymm28, %ymm28
	vpxorq	%ymm8, %ymm28, %ymm8
	vprolq	$32, %ymm8, %ymm8
	vpaddq	%ymm17, %ymm28, %ymm28
	vmovdqa64	%ymm17, %ymm21
	vpaddq	%ymm9, %ymm8, %ymm9
	vpaddq	%ymm23, %ymm27, %ymm27
	vpaddq	%ymm10, %ymm27, %ymm27
	vpxorq	%ymm5, %ymm27, %ymm5
	vpxor	%ymm11, %ymm9, %ymm11
	vprolq	$32, %ymm5, %ymm5
	vpaddq	%ymm1, %ymm5, %ymm1
	vpxor	%ymm1, %ymm10, %ymm10
	vprolq	$40, %ymm11, %ymm11
	vprolq	$40, %ymm10, %ymm10
	vpaddq	%ymm15, %ymm27, %ymm27
	vpaddq	%ymm10, %ymm27, %ymm27
	vpaddq	%ymm11, %ymm28, %ymm28
	vpxorq	%ymm5, %ymm27, %ymm5
	vpaddq	%ymm22, %ymm7, %ymm7
	vpaddq	%ymm6, %ymm7, %ymm7
	vpxorq	%ymm8, %ymm28, %ymm8
	vpxor	%ymm2, %ymm7, %ymm2
	vprolq	$32, %ymm2, %ymm2
	vpaddq	%ymm29, %ymm2, %ymm29
	vprolq	$48, %ymm5, %ymm5
	vpxorq	%ymm6, %ymm29, %ymm6
	vprolq	$40, %ymm6, %ymm6
	vpaddq	%ymm31, %ymm7, %ymm7
	vprolq	$48, %ymm8, %ymm8
	vpaddq	%ymm6, %ymm7, %ymm7
	vpxor	%ymm2, %ymm7, %ymm2
	vprolq	$48, %ymm2, %ymm2
	vpaddq	%ymm5, %ymm1, %ymm1
	vpaddq	%ymm2, %ymm29, %ymm29
	vpxorq	%ymm6, %ymm29, %ymm6
	vprolq	$1, %ymm6, %ymm6
	vpaddq	%ymm8, %ymm9, %ymm9
	vpaddq	%ymm13, %ymm16, %ymm16
	vmovdqa64	%ymm13, %ymm31
	vpaddq	%ymm4, %ymm16, %ymm16
	vpxorq	%ymm3, %ymm16, %ymm3
	vpxor	%ymm1, %ymm10, %ymm10
	vprolq	$32, %ymm3, %ymm3
	vpaddq	%ymm0, %ymm3, %ymm0
	vpxor	%ymm4, %ymm0, %ymm4
	vpxor	%ymm11, %ymm9, %ymm11
	vprolq	$40, %ymm4, %ymm4
	vpaddq	%ymm14, %ymm16, %ymm16
	vpaddq	%ymm4, %ymm16, %ymm16
	vprolq	$1, %ymm10, %ymm10
	vpxorq	%ymm3, %ymm16, %ymm3
	vprolq	$48, %ymm3, %ymm3
	vpaddq	%ymm3, %ymm0, %ymm0
	vprolq	$1, %ymm11, %ymm11
	vpxor	%ymm4, %ymm0, %ymm4
	vprolq	$1, %ymm4, %ymm4
	vmovdqa64	%ymm25, %ymm12
	vpaddq	%ymm25, %ymm28, %ymm28
	vpaddq	%ymm10, %ymm28, %ymm28
	vpxorq	%ymm3, %ymm28, %ymm3
	vprolq	$32, %ymm3, %ymm3
	vpaddq	%ymm18, %ymm28, %ymm28
	vpaddq	%ymm29, %ymm3, %ymm29
	vmovdqu64	96(%rsp), %ymm23
	vpaddq	%ymm23, %ymm27, %ymm27
	vpaddq	%ymm6, %ymm27, %ymm27
	vpxorq	%ymm8, %ymm27, %ymm8
	vpxorq	%ymm10, %ymm29, %ymm10
	vprolq	$32, %ymm8, %ymm8
	vpaddq	%ymm0, %ymm8, %ymm0
	vpxor	%ymm6, %ymm0, %ymm6
	vprolq	$40, %ymm10, %ymm10
	vprolq	$40, %ymm6, %ymm6
	vmovdqu	128(%rsp), %ymm13
	vpaddq	%ymm13, %ymm27, %ymm27
	vpaddq	%ymm6, %ymm27, %ymm27
	vpaddq	%ymm10, %ymm28, %ymm28
	vpxorq	%ymm8, %ymm27, %ymm8
	vprolq	$48, %ymm8, %ymm8
	vmovdqa64	%ymm19, %ymm15
	vpaddq	%ymm19, %ymm7, %ymm7
	vpaddq	%ymm0, %ymm8, %ymm0
	vpaddq	%ymm4, %ymm7, %ymm7
	vpxor	%ymm5, %ymm7, %ymm5
	vprolq	$32, %ymm5, %ymm5
	vpxorq	%ymm3, %ymm28, %ymm3
	vpaddq	%ymm5, %ymm9, %ymm9
	vpxor	%ymm4, %ymm9, %ymm4
	vprolq	$40, %ymm4, %ymm4
	vpxor	%ymm6, %ymm0, %ymm6
	vpaddq	%ymm26, %ymm7, %ymm7
	vpaddq	%ymm4, %ymm7, %ymm7
	vpxor	%ymm5, %ymm7, %ymm5
	vprolq	$48, %ymm3, %ymm3
	vprolq	$48, %ymm5, %ymm5
	vpaddq	%ymm5, %ymm9, %ymm9
	vpxor	%ymm4, %ymm9, %ymm4
	vprolq	$1, %ymm6, %ymm6
	vmovdqa64	%ymm24, %ymm19
	vpaddq	%ymm24, %ymm16, %ymm16
	vpaddq	%ymm11, %ymm16, %ymm16
	vpxorq	%ymm2, %ymm16, %ymm2
	vprolq	$1, %ymm4, %ymm4
	vprolq	$32, %ymm2, %ymm2
	vpaddq	%ymm1, %ymm2, %ymm1
	vpxor	%ymm1, %ymm11, %ymm11
	vpaddq	%ymm3, %ymm29, %ymm29
	vprolq	$40, %ymm11, %ymm11
	vmovdqu64	256(%rsp), %ymm17
	vpaddq	%ymm17, %ymm16, %ymm16
	vpaddq	%ymm11, %ymm16, %ymm16
	vpxorq	%ymm10, %ymm29, %ymm10
	vpxorq	%ymm2, %ymm16, %ymm2
	vprolq	$48, %ymm2, %ymm2
	vpaddq	%ymm2, %ymm1, %ymm1
	vprolq	$1, %ymm10, %ymm10
	vpxor	%ymm1, %ymm11, %ymm11
	vprolq	$1, %ymm11, %ymm11
	vpaddq	%ymm21, %ymm28, %ymm28
	vmovdqa64	%ymm21, %ymm25
	vpaddq	%ymm11, %ymm28, %ymm28
	vpxorq	%ymm8, %ymm28, %ymm8
	vprolq	$32, %ymm8, %ymm8
	vpaddq	%ymm13, %ymm28, %ymm28
	vmovdqa64	%ymm13, %ymm21
	vpaddq	%ymm9, %ymm8, %ymm9
	vpaddq	%ymm24, %ymm27, %ymm27
	vmovdqu64	%ymm24, 416(%rsp)
	vpaddq	%ymm10, %ymm27, %ymm27
	vpxorq	%ymm5, %ymm27, %ymm5
	vpxor	%ymm11, %ymm9, %ymm11
	vprolq	$32, %ymm5, %ymm5
	vpaddq	%ymm1, %ymm5, %ymm1
	vpxor	%ymm1, %ymm10, %ymm10
	vprolq	$40, %ymm11, %ymm11
	vprolq	$40, %ymm10, %ymm10
	vpaddq	%ymm15, %ymm27, %ymm27
	vpaddq	%ymm10, %ymm27, %ymm27
	vpaddq	%ymm11, %ymm28, %ymm28
	vpxorq	%ymm5, %ymm27, %ymm5
	vpaddq	%ymm26, %ymm7, %ymm7
	vpaddq	%ymm6, %ymm7, %ymm7
	vpxorq	%ymm8, %ymm28, %ymm8
	vpxor	%ymm2, %ymm7, %ymm2
	vprolq	$32, %ymm2, %ymm2
	vpaddq	%ymm29, %ymm2, %ymm29
	vprolq	$48, %ymm5, %ymm5
	vpxorq	%ymm6, %ymm29, %ymm6
	vprolq	$40, %ymm6, %ymm6
	vpaddq	%ymm18, %ymm7, %ymm7
	vprolq	$48, %ymm8, %ymm8
	vpaddq	%ymm6, %ymm7, %ymm7
	vpxor	%ymm2, %ymm7, %ymm2
	vprolq	$48, %ymm2, %ymm2
	vpaddq	%ymm5, %ymm1, %ymm1
	vpaddq	%ymm2, %ymm29, %ymm29
	vpxorq	%ymm6, %ymm29, %ymm6
	vprolq	$1, %ymm6, %ymm6
	vpaddq	%ymm8, %ymm9, %ymm9
	vpaddq	%ymm12, %ymm16, %ymm16
	vpaddq	%ymm4, %ymm16, %ymm16
	vpxorq	%ymm3, %ymm16, %ymm3
	vpxor	%ymm1, %ymm10, %ymm10
	vprolq	$32, %ymm3, %ymm3
	vpaddq	%ymm0, %ymm3, %ymm0
	vpxor	%ymm4, %ymm0, %ymm4
	vpxor	%ymm11, %ymm9, %ymm11
	vprolq	$40, %ymm4, %ymm4
	vpaddq	%ymm30, %ymm16, %ymm16
	vpaddq	%ymm4, %ymm16, %ymm16
	vprolq	$1, %ymm10, %ymm10
	vpxorq	%ymm3, %ymm16, %ymm3
	vprolq	$48, %ymm3, %ymm3
	vpaddq	%ymm3, %ymm0, %ymm0
	vprolq	$1, %ymm11, %ymm11
	vpxor	%ymm4, %ymm0, %ymm4
	vprolq	$1, %ymm4, %ymm4
	vpaddq	%ymm22, %ymm28, %ymm28
	vpaddq	%ymm10, %ymm28, %ymm28
	vpxorq	%ymm3, %ymm28, %ymm3
	vprolq	$32, %ymm3, %ymm3
	vmovdqa64	%ymm23, %ymm24
	vpaddq	%ymm23, %ymm28, %ymm28
	vpaddq	%ymm29, %ymm3, %ymm29
	vmovdqu64	448(%rsp), %ymm23
	vpaddq	%ymm23, %ymm27, %ymm27
	vpaddq	%ymm6, %ymm27, %ymm27
	vpxorq	%ymm8, %ymm27, %ymm8
	vpxorq	%ymm10, %ymm29, %ymm10
	vprolq	$32, %ymm8, %ymm8
	vpaddq	%ymm0, %ymm8, %ymm0
	vpxor	%ymm6, %ymm0, %ymm6
	vprolq	$40, %ymm10, %ymm10
	vprolq	$40, %ymm6, %ymm6
	vpaddq	%ymm14, %ymm27, %ymm27
	vpaddq	%ymm6, %ymm27, %ymm27
	vpaddq	%ymm10, %ymm28, %ymm28
	vpxorq	%ymm8, %ymm27, %ymm8
	vprolq	$48, %ymm8, %ymm8
	vmovdqa64	%ymm17, %ymm13
	vpaddq	%ymm17, %ymm7, %ymm7
	vpaddq	%ymm0, %ymm8, %ymm0
	vpaddq	%ymm4, %ymm7, %ymm7
	vpxor	%ymm5, %ymm7, %ymm5
	vprolq	$32, %ymm5, %ymm5
	vpxorq	%ymm3, %ymm28, %ymm3
	vpaddq	%ymm5, %ymm9, %ymm9
	vpxor	%ymm4, %ymm9, %ymm4
	vprolq	$40, %ymm4, %ymm4
	vpxor	%ymm6, %ymm0, %ymm6
	vmovdqa64	%ymm20, %ymm12
	vpaddq	%ymm20, %ymm7, %ymm7
	vpaddq	%ymm4, %ymm7, %ymm7
	vpxor	%ymm5, %ymm7, %ymm5
	vprolq	$48, %ymm3, %ymm3
	vprolq	$48, %ymm5, %ymm5
	vpaddq	%ymm5, %ymm9, %ymm9
	vpxor	%ymm4, %ymm9, %ymm4
	vprolq	$1, %ymm6, %ymm6
	vmovdqa64	%ymm31, %ymm20
	vpaddq	%ymm31, %ymm16, %ymm16
	vpaddq	%ymm11, %ymm16, %ymm16
	vpxorq	%ymm2, %ymm16, %ymm2
	vprolq	$1, %ymm4, %ymm4
	vprolq	$32, %ymm2, %ymm2
	vpaddq	%ymm1, %ymm2, %ymm1
	vpxor	%ymm1, %ymm11, %ymm11
	vpaddq	%ymm3, %ymm29, %ymm29
	vprolq	$40, %ymm11, %ymm11
	vmovdqu64	480(%rsp), %ymm17
	vpaddq	%ymm17, %ymm16, %ymm16
	vpaddq	%ymm11, %ymm16, %ymm16
	vpxorq	%ymm10, %ymm29, %ymm10
	vpxorq	%ymm2, %ymm16, %ymm2
	vprolq	$48, %ymm2, %ymm2
	vpaddq	%ymm2, %ymm1, %ymm1
	vprolq	$1, %ymm10, %ymm10
	vpxor	%ymm1, %ymm11, %ymm11
	vprolq	$1, %ymm11, %ymm11
	vpaddq	%ymm18, %ymm28, %ymm28
	vmovdqa64	%ymm18, %ymm31
	vpaddq	%ymm11, %ymm28, %ymm28
	vpxorq	%ymm8, %ymm28, %ymm8
	vprolq	$32, %ymm8, %ymm8
	vpaddq	%ymm17, %ymm28, %ymm28
	vpaddq	%ymm9, %ymm8, %ymm9
	vpaddq	%ymm24, %ymm27, %ymm27
	vpaddq	%ymm10, %ymm27, %ymm27
	vpxorq	%ymm5, %ymm27, %ymm5
	vpxor	%ymm11, %ymm9, %ymm11
	vprolq	$32, %ymm5, %ymm5
	vpaddq	%ymm1, %ymm5, %ymm1
	vpxor	%ymm1, %ymm10, %ymm10
	vprolq	$40, %ymm11, %ymm11
	vprolq	$40, %ymm10, %ymm10
	vpaddq	%ymm26, %ymm27, %ymm27
	vpaddq	%ymm10, %ymm27, %ymm27
	vpaddq	%ymm11, %ymm28, %ymm28
	vpxorq	%ymm5, %ymm27, %ymm5
	vpaddq	%ymm25, %ymm7, %ymm7
	vpaddq	%ymm6, %ymm7, %ymm7
	vpxorq	%ymm8, %ymm28, %ymm8
	vpxor	%ymm2, %ymm7, %ymm2
	vprolq	$32, %ymm2, %ymm2
	vpaddq	%ymm29, %ymm2, %ymm29
	vprolq	$48, %ymm5, %ymm5
	vpxorq	%ymm6, %ymm29, %ymm6
	vprolq	$40, %ymm6, %ymm6
	vpaddq	%ymm19, %ymm7, %ymm7
	vprolq	$48, %ymm8, %ymm8
	vpaddq	%ymm6, %ymm7, %ymm7
	vpxor	%ymm2, %ymm7, %ymm2
	vprolq	$48, %ymm2, %ymm2
	vpaddq	%ymm5, %ymm1, %ymm1
	vpaddq	%ymm2, %ymm29, %ymm29
	vpxorq	%ymm6, %ymm29, %ymm6
	vprolq	$1, %ymm6, %ymm6
	vpaddq	%ymm8, %ymm9, %ymm9
	vpaddq	%ymm14, %ymm16, %ymm16
	vpaddq	%ymm4, %ymm16, %ymm16
	vpxorq	%ymm3, %ymm16, %ymm3
	vpxor	%ymm1, %ymm10, %ymm10
	vprolq	$32, %ymm3, %ymm3
	vpaddq	%ymm0, %ymm3, %ymm0
	vpxor	%ymm4, %ymm0, %ymm4
	vpxor	%ymm11, %ymm9, %ymm11
	vprolq	$40, %ymm4, %ymm4
	vpaddq	%ymm13, %ymm16, %ymm16
	vmovdqa64	%ymm13, %ymm24
	vpaddq	%ymm4, %ymm16, %ymm16
	vprolq	$1, %ymm10, %ymm10
	vpxorq	%ymm3, %ymm16, %ymm3
	vprolq	$48, %ymm3, %ymm3
	vpaddq	%ymm3, %ymm0, %ymm0
	vprolq	$1, %ymm11, %ymm11
	vpxor	%ymm4, %ymm0, %ymm4
	vprolq	$1, %ymm4, %ymm4
	vpaddq	%ymm21, %ymm28, %ymm28
	vpaddq	%ymm10, %ymm28, %ymm28
	vpxorq	%ymm3, %ymm28, %ymm3
	vprolq	$32, %ymm3, %ymm3
	vpaddq	%ymm22, %ymm28, %ymm28
	vpaddq	%ymm29, %ymm3, %ymm29
	vmovdqu64	(%rsp), %ymm18
	vpaddq	%ymm18, %ymm27, %ymm27
	vpaddq	%ymm6, %ymm27, %ymm27
	vpxorq	%ymm8, %ymm27, %ymm8
	vpxorq	%ymm10, %ymm29, %ymm10
	vprolq	$32, %ymm8, %ymm8
	vpaddq	%ymm0, %ymm8, %ymm0
	vpxor	%ymm6, %ymm0, %ymm6
	vprolq	$40, %ymm10, %ymm10
	vprolq	$40, %ymm6, %ymm6
	vmovdqu64	224(%rsp), %ymm21
	vpaddq	%ymm21, %ymm27, %ymm27
	vpaddq	%ymm6, %ymm27, %ymm27
	vpaddq	%ymm10, %ymm28, %ymm28
	vpxorq	%ymm8, %ymm27, %ymm8
	vprolq	$48, %ymm8, %ymm8
	vpaddq	%ymm20, %ymm7, %ymm7
	vpaddq	%ymm0, %ymm8, %ymm0
	vpaddq	%ymm4, %ymm7, %ymm7
	vpxor	%ymm5, %ymm7, %ymm5
	vprolq	$32, %ymm5, %ymm5
	vpxorq	%ymm3, %ymm28, %ymm3
	vpaddq	%ymm5, %ymm9, %ymm9
	vpxor	%ymm4, %ymm9, %ymm4
	vprolq	$40, %ymm4, %ymm4
	vpxor	%ymm6, %ymm0, %ymm6
	vpaddq	%ymm23, %ymm7, %ymm7
	vpaddq	%ymm4, %ymm7, %ymm7
	vpxor	%ymm5, %ymm7, %ymm5
	vprolq	$48, %ymm3, %ymm3
	vprolq	$48, %ymm5, %ymm5
	vpaddq	%ymm5, %ymm9, %ymm9
	vpxor	%ymm4, %ymm9, %ymm4
	vprolq	$1, %ymm6, %ymm6
	vpaddq	%ymm12, %ymm16, %ymm16
	vpaddq	%ymm11, %ymm16, %ymm16
	vpxorq	%ymm2, %ymm16, %ymm2
	vprolq	$1, %ymm4, %ymm4
	vprolq	$32, %ymm2, %ymm2
	vpaddq	%ymm1, %ymm2, %ymm1
	vpxor	%ymm1, %ymm11, %ymm11
	vpaddq	%ymm3, %ymm29, %ymm29
	vprolq	$40, %ymm11, %ymm11
	vpaddq	%ymm30, %ymm16, %ymm16
	vpaddq	%ymm11, %ymm16, %ymm16
	vpxorq	%ymm10, %ymm29, %ymm10
	vpxorq	%ymm2, %ymm16, %ymm2
	vprolq	$48, %ymm2, %ymm2
	vpaddq	%ymm2, %ymm1, %ymm1
	vprolq	$1, %ymm10, %ymm10
	vpxor	%ymm1, %ymm11, %ymm11
	vprolq	$1, %ymm11, %ymm11
	vpaddq	%ymm23, %ymm28, %ymm28
	vmovdqa64	%ymm23, %ymm19
	vpaddq	%ymm11, %ymm28, %ymm28
	vpxorq	%ymm8, %ymm28, %ymm8
	vprolq	$32, %ymm8, %ymm8
	vpaddq	%ymm18, %ymm28, %ymm28
	vpaddq	%ymm9, %ymm8, %ymm9
	vpaddq	%ymm26, %ymm27, %ymm27
	vpaddq	%ymm10, %ymm27, %ymm27
	vpxorq	%ymm5, %ymm27, %ymm5
	vpxor	%ymm11, %ymm9, %ymm11
	vprolq	$32, %ymm5, %ymm5
	vpaddq	%ymm1, %ymm5, %ymm1
	vpxor	%ymm1, %ymm10, %ymm10
	vprolq	$40, %ymm11, %ymm11
	vprolq	$40, %ymm10, %ymm10
	vpaddq	%ymm13, %ymm27, %ymm27
	vpaddq	%ymm10, %ymm27, %ymm27
	vpaddq	%ymm11, %ymm28, %ymm28
	vpxorq	%ymm5, %ymm27, %ymm5
	vpaddq	%ymm17, %ymm7, %ymm7
	vpaddq	%ymm6, %ymm7, %ymm7
	vpxorq	%ymm8, %ymm28, %ymm8
	vpxor	%ymm2, %ymm7, %ymm2
	vprolq	$32, %ymm2, %ymm2
	vpaddq	%ymm29, %ymm2, %ymm29
	vprolq	$48, %ymm5, %ymm5
	vpxorq	%ymm6, %ymm29, %ymm6
	vprolq	$40, %ymm6, %ymm6
	vpaddq	%ymm7, %ymm14, %ymm7
	vprolq	$48, %ymm8, %ymm8
	vpaddq	%ymm6, %ymm7, %ymm7
	vpxor	%ymm2, %ymm7, %ymm2
	vprolq	$48, %ymm2, %ymm2
	vpaddq	%ymm5, %ymm1, %ymm1
	vpaddq	%ymm2, %ymm29, %ymm29
	vpxorq	%ymm6, %ymm29, %ymm6
	vprolq	$1, %ymm6, %ymm6
	vpaddq	%ymm8, %ymm9, %ymm9
	vpaddq	%ymm22, %ymm16, %ymm16
	vpaddq	%ymm4, %ymm16, %ymm16
	vpxorq	%ymm3, %ymm16, %ymm3
	vpxor	%ymm1, %ymm10, %ymm10
	vprolq	$32, %ymm3, %ymm3
	vpaddq	%ymm0, %ymm3, %ymm0
	vpxor	%ymm4, %ymm0, %ymm4
	vpxor	%ymm11, %ymm9, %ymm11
	vprolq	$40, %ymm4, %ymm4
	vpaddq	%ymm20, %ymm16, %ymm16
	vmovdqa64	%ymm20, %ymm26
	vpaddq	%ymm4, %ymm16, %ymm16
	vprolq	$1, %ymm10, %ymm10
	vpxorq	%ymm3, %ymm16, %ymm3
	vprolq	$48, %ymm3, %ymm3
	vpaddq	%ymm3, %ymm0, %ymm0
	vprolq	$1, %ymm11, %ymm11
	vpxor	%ymm4, %ymm0, %ymm4
	vprolq	$1, %ymm4, %ymm4
	vpaddq	%ymm25, %ymm28, %ymm28
	vpaddq	%ymm10, %ymm28, %ymm28
	vpxorq	%ymm3, %ymm28, %ymm3
	vprolq	$32, %ymm3, %ymm3
	vmovdqa64	%ymm12, %ymm22
	vpaddq	%ymm12, %ymm28, %ymm28
	vpaddq	%ymm29, %ymm3, %ymm29
	vpaddq	%ymm31, %ymm27, %ymm27
	vmovdqa64	%ymm31, %ymm23
	vpaddq	%ymm6, %ymm27, %ymm27
	vpxorq	%ymm8, %ymm27, %ymm8
	vpxorq	%ymm10, %ymm29, %ymm10
	vprolq	$32, %ymm8, %ymm8
	vpaddq	%ymm0, %ymm8, %ymm0
	vpxor	%ymm6, %ymm0, %ymm6
	vprolq	$40, %ymm10, %ymm10
	vprolq	$40, %ymm6, %ymm6
	vmovdqu64	96(%rsp), %ymm20
	vpaddq	%ymm20, %ymm27, %ymm27
	vpaddq	%ymm6, %ymm27, %ymm27
	vpaddq	%ymm10, %ymm28, %ymm28
	vpxorq	%ymm8, %ymm27, %ymm8
	vprolq	$48, %ymm8, %ymm8
	vmovdqu	416(%rsp), %ymm12
	vpaddq	%ymm7, %ymm12, %ymm7
	vpaddq	%ymm0, %ymm8, %ymm0
	vpaddq	%ymm4, %ymm7, %ymm7
	vpxor	%ymm5, %ymm7, %ymm5
	vprolq	$32, %ymm5, %ymm5
	vpxorq	%ymm3, %ymm28, %ymm3
	vpaddq	%ymm5, %ymm9, %ymm9
	vpxor	%ymm4, %ymm9, %ymm4
	vprolq	$40, %ymm4, %ymm4
	vpxor	%ymm6, %ymm0, %ymm6
	vpaddq	%ymm21, %ymm7, %ymm7
	vpaddq	%ymm4, %ymm7, %ymm7
	vpxor	%ymm5, %ymm7, %ymm5
	vprolq	$48, %ymm3, %ymm3
	vprolq	$48, %ymm5, %ymm5
	vpaddq	%ymm5, %ymm9, %ymm9
	vpxor	%ymm4, %ymm9, %ymm4
	vprolq	$1, %ymm6, %ymm6
	vmovdqa64	%ymm30, %ymm15
	vpaddq	%ymm30, %ymm16, %ymm16
	vpaddq	%ymm11, %ymm16, %ymm16
	vpxorq	%ymm2, %ymm16, %ymm30
	vprolq	$1, %ymm4, %ymm2
	vprolq	$32, %ymm30, %ymm4
	vpaddq	%ymm1, %ymm4, %ymm1
	vpxor	%ymm1, %ymm11, %ymm11
	vpaddq	%ymm3, %ymm29, %ymm29
	vprolq	$40, %ymm11, %ymm11
	vmovdqu	128(%rsp), %ymm13
	vpaddq	%ymm13, %ymm16, %ymm16
	vpaddq	%ymm11, %ymm16, %ymm16
	vpxorq	%ymm10, %ymm29, %ymm10
	vpxorq	%ymm4, %ymm16, %ymm4
	vprolq	$48, %ymm4, %ymm4
	vpaddq	%ymm4, %ymm1, %ymm1
	vprolq	$1, %ymm10, %ymm10
	vpxor	%ymm1, %ymm11, %ymm11
	vprolq	$1, %ymm11, %ymm11
	vpaddq	%ymm15, %ymm28, %ymm28
	vpaddq	%ymm11, %ymm28, %ymm28
	vpxorq	%ymm8, %ymm28, %ymm8
	vprolq	$32, %ymm8, %ymm8
	vpaddq	%ymm22, %ymm28, %ymm28
	vmovdqa64	%ymm22, %ymm15
	vpaddq	%ymm9, %ymm8, %ymm9
	vpaddq	%ymm26, %ymm27, %ymm27
	vpaddq	%ymm10, %ymm27, %ymm27
	vpxorq	%ymm5, %ymm27, %ymm5
	vpxor	%ymm11, %ymm9, %ymm11
	vprolq	$32, %ymm5, %ymm5
	vpaddq	%ymm1, %ymm5, %ymm1
	vpxor	%ymm1, %ymm10, %ymm10
	vprolq	$40, %ymm11, %ymm11
	vprolq	$40, %ymm10, %ymm10
	vpaddq	%ymm21, %ymm27, %ymm27
	vpaddq	%ymm10, %ymm27, %ymm27
	vpaddq	%ymm11, %ymm28, %ymm28
	vpxorq	%ymm5, %ymm27, %ymm5
	vpaddq	%ymm20, %ymm7, %ymm7
	vpaddq	%ymm6, %ymm7, %ymm7
	vpxorq	%ymm8, %ymm28, %ymm8
	vpxor	%ymm4, %ymm7, %ymm4
	vprolq	$32, %ymm4, %ymm4
	vpaddq	%ymm29, %ymm4, %ymm29
	vprolq	$48, %ymm5, %ymm5
	vpxorq	%ymm6, %ymm29, %ymm6
	vprolq	$40, %ymm6, %ymm6
	vpaddq	%ymm19, %ymm7, %ymm7
	vprolq	$48, %ymm8, %ymm8
	vpaddq	%ymm6, %ymm7, %ymm7
	vpxor	%ymm4, %ymm7, %ymm4
	vprolq	$48, %ymm4, %ymm4
	vpaddq	%ymm5, %ymm1, %ymm1
	vpaddq	%ymm4, %ymm29, %ymm29
	vpxorq	%ymm6, %ymm29, %ymm6
	vprolq	$1, %ymm6, %ymm6
	vpaddq	%ymm8, %ymm9, %ymm9
	vpaddq	%ymm12, %ymm16, %ymm16
	vpaddq	%ymm2, %ymm16, %ymm16
	vpxorq	%ymm3, %ymm16, %ymm3
	vpxor	%ymm1, %ymm10, %ymm10
	vprolq	$32, %ymm3, %ymm3
	vpaddq	%ymm0, %ymm3, %ymm0
	vpxor	%ymm2, %ymm0, %ymm2
	vpxor	%ymm11, %ymm9, %ymm11
	vprolq	$40, %ymm2, %ymm2
	vpaddq	%ymm13, %ymm16, %ymm16
	vpaddq	%ymm2, %ymm16, %ymm16
	vprolq	$1, %ymm10, %ymm10
	vpxorq	%ymm3, %ymm16, %ymm3
	vprolq	$48, %ymm3, %ymm3
	vpaddq	%ymm3, %ymm0, %ymm0
	vprolq	$1, %ymm11, %ymm11
	vpxor	%ymm2, %ymm0, %ymm2
	vprolq	$1, %ymm2, %ymm30
	vpaddq	%ymm18, %ymm28, %ymm2
	vpaddq	%ymm2, %ymm10, %ymm2
	vpxor	%ymm3, %ymm2, %ymm3
	vprolq	$32, %ymm3, %ymm3
	vmovdqa64	%ymm17, %ymm22
	vpaddq	%ymm17, %ymm2, %ymm2
	vpaddq	%ymm29, %ymm3, %ymm28
	vpaddq	%ymm24, %ymm27, %ymm27
	vpaddq	%ymm6, %ymm27, %ymm27
	vpxorq	%ymm8, %ymm27, %ymm8
	vpxorq	%ymm10, %ymm28, %ymm10
	vprolq	$32, %ymm8, %ymm8
	vpaddq	%ymm0, %ymm8, %ymm0
	vpxor	%ymm6, %ymm0, %ymm6
	vprolq	$40, %ymm10, %ymm10
	vprolq	$40, %ymm6, %ymm6
	vmovdqu64	64(%rsp), %ymm18
	vpaddq	%ymm18, %ymm27, %ymm27
	vpaddq	%ymm6, %ymm27, %ymm27
	vpaddq	%ymm10, %ymm2, %ymm29
	vpxorq	%ymm8, %ymm27, %ymm2
	vprolq	$48, %ymm2, %ymm8
	vpaddq	%ymm7, %ymm14, %ymm7
	vpaddq	%ymm0, %ymm8, %ymm2
	vpaddq	%ymm30, %ymm7, %ymm0
	vpxor	%ymm5, %ymm0, %ymm5
	vprolq	$32, %ymm5, %ymm5
	vpxorq	%ymm3, %ymm29, %ymm3
	vpaddq	%ymm5, %ymm9, %ymm7
	vpxorq	%ymm30, %ymm7, %ymm9
	vprolq	$40, %ymm9, %ymm9
	vpxor	%ymm6, %ymm2, %ymm6
	vpaddq	%ymm25, %ymm0, %ymm0
	vpaddq	%ymm0, %ymm9, %ymm0
	vpxor	%ymm5, %ymm0, %ymm5
	vprolq	$48, %ymm3, %ymm3
	vprolq	$48, %ymm5, %ymm5
	vpaddq	%ymm5, %ymm7, %ymm7
	vpxor	%ymm7, %ymm9, %ymm9
	vprolq	$1, %ymm6, %ymm31
	vpaddq	%ymm23, %ymm16, %ymm6
	vpaddq	%ymm11, %ymm6, %ymm16
	vpxorq	%ymm4, %ymm16, %ymm4
	vprolq	$1, %ymm9, %ymm6
	vprolq	$32, %ymm4, %ymm4
	vpaddq	%ymm1, %ymm4, %ymm1
	vpxor	%ymm1, %ymm11, %ymm9
	vpaddq	%ymm3, %ymm28, %ymm11
	vprolq	$40, %ymm9, %ymm9
	vmovdqu64	32(%rsp), %ymm17
	vpaddq	%ymm17, %ymm16, %ymm16
	vpaddq	%ymm9, %ymm16, %ymm16
	vpxor	%ymm10, %ymm11, %ymm10
	vpxorq	%ymm4, %ymm16, %ymm4
	vprolq	$48, %ymm4, %ymm4
	vpaddq	%ymm4, %ymm1, %ymm1
	vprolq	$1, %ymm10, %ymm10
	vpxor	%ymm1, %ymm9, %ymm9
	vprolq	$1, %ymm9, %ymm9
	vpaddq	%ymm17, %ymm29, %ymm28
	vpaddq	%ymm9, %ymm28, %ymm28
	vpxorq	%ymm8, %ymm28, %ymm8
	vprolq	$32, %ymm8, %ymm8
	vpaddq	%ymm12, %ymm28, %ymm28
	vpaddq	%ymm7, %ymm8, %ymm30
	vpaddq	%ymm15, %ymm27, %ymm7
	vpaddq	%ymm7, %ymm10, %ymm7
	vpxor	%ymm5, %ymm7, %ymm5
	vpxorq	%ymm9, %ymm30, %ymm9
	vprolq	$32, %ymm5, %ymm5
	vpaddq	%ymm1, %ymm5, %ymm27
	vpxorq	%ymm10, %ymm27, %ymm1
	vprolq	$40, %ymm1, %ymm1
	vpaddq	%ymm7, %ymm14, %ymm7
	vpaddq	%ymm21, %ymm0, %ymm0
	vpaddq	%ymm31, %ymm0, %ymm0
	vprolq	$40, %ymm9, %ymm29
	vpxor	%ymm4, %ymm0, %ymm4
	vprolq	$32, %ymm4, %ymm9
	vpaddq	%ymm11, %ymm9, %ymm10
	vpaddq	%ymm1, %ymm7, %ymm4
	vpxorq	%ymm31, %ymm10, %ymm7
	vprolq	$40, %ymm7, %ymm7
	vpaddq	%ymm0, %ymm13, %ymm0
	vmovdqa	%ymm13, %ymm14
	vpaddq	%ymm29, %ymm28, %ymm28
	vpaddq	%ymm7, %ymm0, %ymm31
	vpxorq	%ymm9, %ymm31, %ymm0
	vprolq	$48, %ymm0, %ymm11
	vpxor	%ymm5, %ymm4, %ymm0
	vpaddq	%ymm11, %ymm10, %ymm5
	vpxor	%ymm7, %ymm5, %ymm10
	vpaddq	%ymm19, %ymm16, %ymm9
	vpxorq	%ymm8, %ymm28, %ymm7
	vpaddq	%ymm6, %ymm9, %ymm9
	vpxor	%ymm3, %ymm9, %ymm3
	vprolq	$32, %ymm3, %ymm16
	vprolq	$48, %ymm0, %ymm3
	vpaddq	%ymm2, %ymm16, %ymm0
	vpxor	%ymm6, %ymm0, %ymm2
	vprolq	$40, %ymm2, %ymm8
	vpaddq	%ymm3, %ymm27, %ymm27
	vmovdqa64	%ymm20, %ymm13
	vpaddq	%ymm20, %ymm9, %ymm2
	vpaddq	%ymm2, %ymm8, %ymm6
	vpxorq	%ymm16, %ymm6, %ymm2
	vpxorq	%ymm1, %ymm27, %ymm1
	vprolq	$48, %ymm2, %ymm2
	vpaddq	%ymm2, %ymm0, %ymm0
	vmovdqa64	%ymm26, %ymm17
	vpaddq	%ymm26, %ymm28, %ymm9
	vprolq	$1, %ymm1, %ymm1
	vpaddq	%ymm1, %ymm9, %ymm9
	vpxor	%ymm2, %ymm9, %ymm2
	vprolq	$32, %ymm2, %ymm16
	vpaddq	%ymm5, %ymm16, %ymm5
	vpxor	%ymm1, %ymm5, %ymm1
	vprolq	$40, %ymm1, %ymm2
	vpaddq	%ymm24, %ymm9, %ymm1
	vpaddq	%ymm2, %ymm1, %ymm1
	vpxorq	%ymm16, %ymm1, %ymm9
	vpaddq	%ymm18, %ymm6, %ymm6
	vpaddq	%ymm18, %ymm1, %ymm26
	vprolq	$48, %ymm7, %ymm1
	vprolq	$1, %ymm10, %ymm7
	vpxor	%ymm0, %ymm8, %ymm8
	vmovdqu64	160(%rsp), %ymm20
	vpaddq	%ymm20, %ymm4, %ymm4
	vpaddq	%ymm1, %ymm30, %ymm10
	vpaddq	%ymm7, %ymm4, %ymm4
	vpxor	%ymm1, %ymm4, %ymm1
	vprolq	$32, %ymm1, %ymm1
	vpaddq	%ymm0, %ymm1, %ymm0
	vpxor	%ymm7, %ymm0, %ymm7
	vprolq	$40, %ymm7, %ymm7
	vpaddq	%ymm22, %ymm4, %ymm4
	vmovdqa64	%ymm22, %ymm15
	vpaddq	%ymm7, %ymm4, %ymm4
	vpxor	%ymm1, %ymm4, %ymm1
	vpaddq	%ymm21, %ymm4, %ymm4
	vprolq	$1, %ymm8, %ymm8
	vpxorq	%ymm29, %ymm10, %ymm16
	vmovdqa64	%ymm25, %ymm29
	vpaddq	%ymm25, %ymm31, %ymm25
	vpaddq	%ymm8, %ymm25, %ymm25
	vpxorq	%ymm3, %ymm25, %ymm3
	vprolq	$32, %ymm3, %ymm3
	vpaddq	%ymm3, %ymm10, %ymm10
	vpxor	%ymm8, %ymm10, %ymm8
	vmovdqa64	%ymm23, %ymm18
	vpaddq	%ymm23, %ymm25, %ymm25
	vprolq	$40, %ymm8, %ymm8
	vpaddq	%ymm8, %ymm25, %ymm25
	vpxorq	%ymm3, %ymm25, %ymm28
	vpaddq	%ymm24, %ymm25, %ymm24
	vprolq	$48, %ymm9, %ymm9
	vpaddq	%ymm5, %ymm9, %ymm3
	vpxor	%ymm2, %ymm3, %ymm2
	vprolq	$48, %ymm28, %ymm5
	vprolq	$1, %ymm2, %ymm2
	vpaddq	%ymm5, %ymm10, %ymm10
	vpaddq	%ymm2, %ymm4, %ymm4
	vpxorq	%ymm5, %ymm4, %ymm25
	vpaddq	%ymm17, %ymm4, %ymm23
	vprolq	$1, %ymm16, %ymm4
	vprolq	$48, %ymm1, %ymm1
	vpaddq	%ymm4, %ymm6, %ymm5
	vpaddq	%ymm1, %ymm0, %ymm6
	vpxor	%ymm5, %ymm11, %ymm0
	vprolq	$32, %ymm0, %ymm0
	vpaddq	%ymm27, %ymm0, %ymm11
	vpxor	%ymm7, %ymm6, %ymm7
	vpxor	%ymm4, %ymm11, %ymm4
	vprolq	$40, %ymm4, %ymm16
	vmovdqu64	(%rsp), %ymm17
	vpaddq	%ymm17, %ymm5, %ymm5
	vprolq	$1, %ymm7, %ymm4
	vpaddq	%ymm16, %ymm5, %ymm7
	vpxor	%ymm0, %ymm7, %ymm0
	vprolq	$48, %ymm0, %ymm0
	vpaddq	%ymm0, %ymm11, %ymm11
	vpaddq	%ymm4, %ymm24, %ymm24
	vpxorq	%ymm0, %ymm24, %ymm5
	vpaddq	%ymm17, %ymm24, %ymm22
	vpxorq	%ymm16, %ymm11, %ymm0
	vprolq	$1, %ymm0, %ymm0
	vpaddq	%ymm0, %ymm26, %ymm16
	vpxorq	%ymm1, %ymm16, %ymm1
	vpaddq	%ymm20, %ymm16, %ymm16
	vpaddq	%ymm18, %ymm7, %ymm7
	vpxor	%ymm8, %ymm10, %ymm8
	vprolq	$1, %ymm8, %ymm8
	vpaddq	%ymm7, %ymm8, %ymm7
	vpxor	%ymm7, %ymm9, %ymm9
	vpaddq	%ymm19, %ymm7, %ymm7
	vprolq	$32, %ymm1, %ymm1
	vpaddq	%ymm1, %ymm10, %ymm10
	vpxor	%ymm0, %ymm10, %ymm0
	vprolq	$40, %ymm0, %ymm19
	vpaddq	%ymm19, %ymm16, %ymm0
	vpxorq	%ymm1, %ymm0, %ymm16
	vpaddq	%ymm12, %ymm0, %ymm20
	vprolq	$32, %ymm25, %ymm1
	vpaddq	%ymm1, %ymm11, %ymm11
	vpxor	%ymm2, %ymm11, %ymm0
	vprolq	$40, %ymm0, %ymm2
	vpaddq	%ymm2, %ymm23, %ymm0
	vpxor	%ymm1, %ymm0, %ymm1
	vprolq	$48, %ymm1, %ymm21
	vpaddq	%ymm21, %ymm11, %ymm17
	vprolq	$32, %ymm9, %ymm1
	vpaddq	%ymm6, %ymm1, %ymm6
	vpxorq	%ymm2, %ymm17, %ymm9
	vpxor	%ymm6, %ymm8, %ymm2
	vprolq	$40, %ymm2, %ymm8
	vpaddq	%ymm7, %ymm8, %ymm2
	vprolq	$1, %ymm9, %ymm9
	vpxor	%ymm1, %ymm2, %ymm1
	vprolq	$48, %ymm1, %ymm7
	vpaddq	%ymm7, %ymm6, %ymm1
	vpaddq	%ymm9, %ymm20, %ymm6
	vpxor	%ymm7, %ymm6, %ymm11
	vpaddq	%ymm29, %ymm6, %ymm18
	vprolq	$32, %ymm5, %ymm6
	vpaddq	%ymm3, %ymm6, %ymm7
	vpxor	%ymm4, %ymm7, %ymm3
	vprolq	$40, %ymm3, %ymm5
	vpaddq	%ymm5, %ymm22, %ymm20
	vprolq	$48, %ymm16, %ymm4
	vpxorq	%ymm6, %ymm20, %ymm3
	vprolq	$48, %ymm3, %ymm3
	vpaddq	%ymm3, %ymm7, %ymm7
	vpaddq	%ymm4, %ymm10, %ymm6
	vpxor	%ymm1, %ymm8, %ymm8
	vprolq	$1, %ymm8, %ymm8
	vpaddq	%ymm15, %ymm20, %ymm10
	vprolq	$32, %ymm11, %ymm11
	vpaddq	%ymm7, %ymm11, %ymm15
	vpaddq	%ymm8, %ymm10, %ymm10
	vpxorq	%ymm21, %ymm10, %ymm16
	vpxor	%ymm9, %ymm15, %ymm9
	vprolq	$32, %ymm16, %ymm16
	vpaddq	%ymm13, %ymm10, %ymm10
	vpaddq	%ymm6, %ymm16, %ymm13
	vprolq	$40, %ymm9, %ymm9
	vpxor	%ymm8, %ymm13, %ymm8
	vprolq	$40, %ymm8, %ymm8
	vpaddq	%ymm8, %ymm10, %ymm10
	vpaddq	%ymm9, %ymm18, %ymm20
	vpxorq	%ymm16, %ymm10, %ymm16
	vprolq	$48, %ymm16, %ymm18
	vpaddq	%ymm18, %ymm13, %ymm13
	vpxor	%ymm8, %ymm13, %ymm8
	vpternlogq	$150, 672(%rsp), %ymm20, %ymm13
	vpxorq	%ymm11, %ymm20, %ymm11
	vprolq	$48, %ymm11, %ymm11
	vpaddq	%ymm11, %ymm15, %ymm15
	vpxor	%ymm9, %ymm15, %ymm9
	vpternlogq	$150, 640(%rsp), %ymm10, %ymm15
	vpxor	%ymm5, %ymm7, %ymm5
	vpxorq	%ymm19, %ymm6, %ymm6
	vpaddq	32(%rsp), %ymm0, %ymm0
	vprolq	$1, %ymm5, %ymm5
	vpaddq	%ymm5, %ymm0, %ymm0
	vpxor	%ymm4, %ymm0, %ymm4
	vpaddq	288(%rsp), %ymm0, %ymm0
	vpaddq	%ymm2, %ymm14, %ymm2
	vprolq	$1, %ymm6, %ymm6
	vpaddq	%ymm6, %ymm2, %ymm2
	vpxor	%ymm3, %ymm2, %ymm3
	vpaddq	192(%rsp), %ymm2, %ymm2
	vprolq	$32, %ymm4, %ymm4
	vpaddq	%ymm1, %ymm4, %ymm1
	vpxor	%ymm5, %ymm1, %ymm5
	vprolq	$40, %ymm5, %ymm5
	vprolq	$32, %ymm3, %ymm3
	vpaddq	%ymm5, %ymm0, %ymm0
	vpaddq	%ymm17, %ymm3, %ymm7
	vpxor	%ymm6, %ymm7, %ymm6
	vprolq	$40, %ymm6, %ymm6
	vpaddq	%ymm6, %ymm2, %ymm2
	vpxor	%ymm3, %ymm2, %ymm3
	vprolq	$48, %ymm3, %ymm3
	vpaddq	%ymm3, %ymm7, %ymm7
	vpxor	%ymm6, %ymm7, %ymm6
	vpternlogq	$150, 736(%rsp), %ymm0, %ymm7
	vpxor	%ymm4, %ymm0, %ymm0
	vprolq	$48, %ymm0, %ymm0
	vpaddq	%ymm0, %ymm1, %ymm27
	vpxorq	%ymm5, %ymm27, %ymm1
	vpternlogq	$150, 544(%rsp), %ymm2, %ymm27
	vprolq	$1, %ymm9, %ymm9
	vpternlogq	$150, 768(%rsp), %ymm18, %ymm9
	vprolq	$1, %ymm1, %ymm10
	vpternlogq	$150, 704(%rsp), %ymm3, %ymm10
	vprolq	$1, %ymm6, %ymm4
	vpternlogq	$150, 608(%rsp), %ymm0, %ymm4
	vprolq	$1, %ymm8, %ymm26
	vpternlogq	$150, 576(%rsp), %ymm11, %ymm26
	subq	$-128, %rdx
	decq	%rax
	jne	1b
	addq	$808, %rsp
	popq	%rbx
	popq	%rbp
2:
	vmovdqu	%ymm13, (%rdi)
	vmovdqu	%ymm7, 32(%rdi)
	vmovdqu	%ymm15, 64(%rdi)
	vmovdqu64	%ymm27, 96(%rdi)
	vmovdqu	%ymm4, 128(%rdi)
	vmovdqu	%ymm9, 160(%rdi)
	vmovdqu	%ymm10, 192(%rdi)
	vmovdqu64	%ymm26, 224(%rdi)
	vzeroupper
	vpxord	%xmm16, %xmm16, %xmm16
	vpxord	%xmm17, %xmm17, %xmm17
	vpxord	%xmm18, %xmm18, %xmm18
	vpxord	%xmm19, %xmm19, %xmm19
	vpxord	%xmm20, %xmm20, %xmm20
	vpxord	%xmm21, %xmm21, %xmm21
	vpxord	%xmm22, %xmm22, %xmm22
	vpxord	%xmm23, %xmm23, %xmm23
	vpxord	%xmm24, %xmm24, %xmm24
	vpxord	%xmm25, %xmm25, %xmm25
	vpxord	%xmm26, %xmm26, %xmm26
	vpxord	%xmm27, %xmm27, %xmm27
	vpxord	%xmm28, %xmm28, %xmm28
	vpxord	%xmm29, %xmm29, %xmm29
	vpxord	%xmm30, %xmm30, %xmm30
	vpxord	%xmm31, %xmm31, %xmm31
	retq
	vj_end	blake2_compress..many..blake2b..compress_blocks_1_v4

	vj_function	blake2_digest..wiping..scrub_stack..9216_1_v4
	pushq	%rbx
	subq	$3072, %rsp
	movq	$0, (%rsp)
	subq	$3072, %rsp
	movq	$0, (%rsp)
	subq	$3072, %rsp
	movq	%rsp, %rbx
	movl	$9216, %edx
	movq	%rbx, %rdi
	xorl	%esi, %esi
	vj_c_call	memset
	movq	%rbx, %rdi
	callq	blake2_digest..wiping..settle..9216_1_v4
	addq	$9216, %rsp
	popq	%rbx
	vpxord	%xmm16, %xmm16, %xmm16
	vpxord	%xmm17, %xmm17, %xmm17
	vpxord	%xmm18, %xmm18, %xmm18
	vpxord	%xmm19, %xmm19, %xmm19
	vpxord	%xmm20, %xmm20, %xmm20
	vpxord	%xmm21, %xmm21, %xmm21
	vpxord	%xmm22, %xmm22, %xmm22
	vpxord	%xmm23, %xmm23, %xmm23
	vpxord	%xmm24, %xmm24, %xmm24
	vpxord	%xmm25, %xmm25, %xmm25
	vpxord	%xmm26, %xmm26, %xmm26
	vpxord	%xmm27, %xmm27, %xmm27
	vpxord	%xmm28, %xmm28, %xmm28
	vpxord	%xmm29, %xmm29, %xmm29
	vpxord	%xmm30, %xmm30, %xmm30
	vpxord	%xmm31, %xmm31, %xmm31
	retq
	vj_end	blake2_digest..wiping..scrub_stack..9216_1_v4

	vj_function	blake2_digest..wiping..settle..9216_1_v4
	vpxor	%xmm0, %xmm0, %xmm0
	movl	$480, %eax
	vpxor	%xmm2, %xmm2, %xmm2
	vpxor	%xmm3, %xmm3, %xmm3
	vpxor	%xmm1, %xmm1, %xmm1
	.p2align	4
1:
	vmovdqu	-480(%rdi,%rax), %ymm4
	vmovdqu	-448(%rdi,%rax), %ymm5
	vmovdqu	-416(%rdi,%rax), %ymm6
	vmovdqu	-384(%rdi,%rax), %ymm7
	vpternlogq	$254, -352(%rdi,%rax), %ymm2, %ymm4
	vpternlogq	$254, -320(%rdi,%rax), %ymm3, %ymm5
	vpternlogq	$254, -288(%rdi,%rax), %ymm1, %ymm6
	vpternlogq	$254, -256(%rdi,%rax), %ymm0, %ymm7
	vmovdqu	-224(%rdi,%rax), %ymm2
	vmovdqu	-192(%rdi,%rax), %ymm3
	vmovdqu	-160(%rdi,%rax), %ymm1
	vmovdqu	-128(%rdi,%rax), %ymm0
	vpternlogq	$254, -96(%rdi,%rax), %ymm4, %ymm2
	vpternlogq	$254, -64(%rdi,%rax), %ymm5, %ymm3
	vpternlogq	$254, -32(%rdi,%rax), %ymm6, %ymm1
	vpternlogq	$254, (%rdi,%rax), %ymm7, %ymm0
	addq	$512, %rax
	cmpq	$9696, %rax
	jne	1b
	vpor	%ymm2, %ymm3, %ymm2
	vpternlogq	$254, %ymm2, %ymm1, %ymm0
	vptest	%ymm0, %ymm0
	je	2f
	pause
2:
	vzeroupper
	retq
	vj_end	blake2_digest..wiping..settle..9216_1_v4

	vj_function	blake2_ffi..blake2b..is_digest_of_1_v4
	pushq	%r15
	pushq	%r14
	pushq	%rbx
	subq	$64, %rsp
	movq	%rdx, %rbx
	movq	%rsi, %r14
	movq	%rdi, %r15
	vpxor	%xmm0, %xmm0, %xmm0
	vmovdqu	%ymm0, 32(%rsp)
	vmovdqu	%ymm0, (%rsp)
	movq	%rsp, %rsi
	vzeroupper
	callq	blake2_state..blake2b..State..write_digest_1_v4
	movl	144(%r15), %eax
	cmpq	%rax, %rbx
	jne	1f
	testq	%rbx, %rbx
	je	2f
	cmpq	$8, %rbx
	jae	3f
	xorl	%ecx, %ecx
	xorl	%eax, %eax
	jmp	8f
1:
	xorl	%eax, %eax
	jmp	11f
2:
	movb	$1, %al
	jmp	11f
3:
	cmpq	$128, %rbx
	jae	4f
	xorl	%eax, %eax
	xorl	%ecx, %ecx
	jmp	6f
4:
	movq	%rbx, %rax
	andq	$-128, %rax
	vpxor	%xmm0, %xmm0, %xmm0
	xorl	%ecx, %ecx
	vpxor	%xmm1, %xmm1, %xmm1
	vpxor	%xmm3, %xmm3, %xmm3
	vpxor	%xmm2, %xmm2, %xmm2
	.p2align	4
5:
	vmovdqu	(%rsp,%rcx), %ymm4
	vmovdqu	32(%rsp,%rcx), %ymm5
	vmovdqu	64(%rsp,%rcx), %ymm6
	vmovdqu	96(%rsp,%rcx), %ymm7
	vpternlogq	$246, (%r14,%rcx), %ymm4, %ymm1
	vpternlogq	$246, 32(%r14,%rcx), %ymm5, %ymm3
	vpternlogq	$246, 64(%r14,%rcx), %ymm6, %ymm2
	vpternlogq	$246, 96(%r14,%rcx), %ymm7, %ymm0
	subq	$-128, %rcx
	cmpq	%rcx, %rax
	jne	5b
	vpor	%ymm1, %ymm3, %ymm1
	vpternlogq	$254, %ymm1, %ymm2, %ymm0
	vextracti128	$1, %ymm0, %xmm1
	vpor	%xmm1, %xmm0, %xmm0
	vpshufd	$238, %xmm0, %xmm1
	vpor	%xmm1, %xmm0, %xmm0
	vpshufd	$85, %xmm0, %xmm1
	vpor	%xmm1, %xmm0, %xmm0
	vpsrld	$16, %xmm0, %xmm1
	vpor	%xmm1, %xmm0, %xmm0
	vpsrlw	$8, %xmm0, %xmm1
	vpor	%xmm1, %xmm0, %xmm0
	vmovd	%xmm0, %ecx
	cmpq	%rax, %rbx
	je	10f
	testb	$120, %bl
	je	8f
6:
	movq	%rax, %rdx
	movq	%rbx, %rax
	andq	$-8, %rax
	movzbl	%cl, %ecx
	vmovd	%ecx, %xmm0
	.p2align	4
7:
	movq	(%rsp,%rdx), %rcx
	xorq	(%r14,%rdx), %rcx
	vmovq	%rcx, %xmm1
	vpor	%xmm0, %xmm1, %xmm0
	addq	$8, %rdx
	cmpq	%rdx, %rax
	jne	7b
	vpshufd	$85, %xmm0, %xmm1
	vpor	%xmm1, %xmm0, %xmm0
	vpsrld	$16, %xmm0, %xmm1
	vpor	%xmm1, %xmm0, %xmm0
	vpsrlw	$8, %xmm0, %xmm1
	vpor	%xmm1, %xmm0, %xmm0
	vmovd	%xmm0, %ecx
	jmp	9f
8:
	movzbl	(%rsp,%rax), %edx
	xorb	(%r14,%rax), %dl
	orb	%dl, %cl
	incq	%rax
9:
	cmpq	%rax, %rbx
	jne	8b
10:
	testb	%cl, %cl
	sete	%al
11:
	addq	$64, %rsp
	popq	%rbx
	popq	%r14
	popq	%r15
	vzeroupper
	retq
	vj_end	blake2_ffi..blake2b..is_digest_of_1_v4

	vj_function	blake2_ffi..blake2bp..finalize_1_v4
	pushq	%rbx
	movq	%rdi, %rbx
	callq	blake2_parallel..blake2bp..State..write_digest_1_v4
	movl	$1632, %edx
	movq	%rbx, %rdi
	xorl	%esi, %esi
	popq	%rbx
	vj_c_jump	memset
	vj_end	blake2_ffi..blake2bp..finalize_1_v4

	vj_function	blake2_parallel..blake2bp..State..write_digest_1_v4
	pushq	%r15
	pushq	%r14
	pushq	%r13
	pushq	%r12
	pushq	%rbx
	subq	$384, %rsp
	movq	%rsi, %rbx
	movq	%rdi, %r14
	vxorps	%xmm0, %xmm0, %xmm0
	vmovups	%ymm0, 32(%rsp)
	vmovups	%ymm0, (%rsp)
	leaq	128(%rsp), %r15
	movq	%r15, %rdi
	movq	%r14, %rsi
	vzeroupper
	vj_call	blake2_parallel..lanes..blake2bp..Lanes..outputs_1_v4
	vmovups	1424(%r14), %ymm0
	vmovups	1456(%r14), %ymm1
	vmovups	%ymm0, 64(%rsp)
	vmovups	%ymm1, 96(%rsp)
	leaq	256(%rsp), %r12
	leaq	64(%rsp), %r13
	movl	$128, %edx
	movq	%r13, %rdi
	movq	%r15, %rsi
	xorl	%ecx, %ecx
	xorl	%r8d, %r8d
	vzeroupper
	vj_call	blake2_compress..compress..blake2b..compress_1_v4
	movl	$256, %edx
	movq	%r13, %rdi
	movq	%r12, %rsi
	movl	$1, %ecx
	movl	$1, %r8d
	vj_call	blake2_compress..compress..blake2b..compress_1_v4
	vmovups	64(%rsp), %ymm0
	vmovups	%ymm0, (%rsp)
	vmovups	96(%rsp), %ymm0
	vmovups	%ymm0, 32(%rsp)
	movq	1496(%r14), %rdx
	movq	%rsp, %rsi
	movq	%rbx, %rdi
	vzeroupper
	vj_c_call	memcpy
	addq	$384, %rsp
	popq	%rbx
	popq	%r12
	popq	%r13
	popq	%r14
	popq	%r15
	retq
	vj_end	blake2_parallel..blake2bp..State..write_digest_1_v4

	vj_shared	blake2_parallel..lanes..blake2bp..Lanes..outputs_1_v4
	pushq	%rbp
	pushq	%r15
	pushq	%r14
	pushq	%r13
	pushq	%r12
	pushq	%rbx
	subq	$472, %rsp
	movq	%rsi, %r15
	movq	264(%rsi), %rbp
	cmpq	$512, %rbp
	movl	$512, %r12d
	cmovbq	%rbp, %r12
	movq	%rdi, %rbx
	movq	%rbp, %r14
	subq	%r12, %r14
	vmovups	(%rsi), %ymm0
	vmovups	32(%rsi), %ymm1
	vmovups	64(%rsi), %ymm2
	vmovups	96(%rsi), %ymm3
	vmovups	128(%rsi), %ymm4
	vmovups	160(%rsi), %ymm5
	vmovups	192(%rsi), %ymm6
	vmovups	224(%rsi), %ymm7
	movq	256(%rsi), %rcx
	movq	$0, 8(%rsp)
	cmpq	$513, %rbp
	setb	8(%rsp)
	cmpq	$129, %r14
	setb	10(%rsp)
	cmpq	$257, %r14
	setb	12(%rsp)
	cmpq	$385, %r14
	setb	14(%rsp)
	leaq	272(%rsi), %r13
	setb	15(%rsp)
	vmovups	%ymm0, 16(%rsp)
	vmovups	%ymm1, 48(%rsp)
	vmovups	%ymm2, 80(%rsp)
	vmovups	%ymm3, 112(%rsp)
	vmovups	%ymm4, 144(%rsp)
	vmovups	%ymm5, 176(%rsp)
	vmovups	%ymm6, 208(%rsp)
	vmovups	%ymm7, 240(%rsp)
	leaq	16(%rsp), %rdi
	leaq	8(%rsp), %r8
	movq	%r13, %rsi
	movq	%r12, %rdx
	vzeroupper
	callq	blake2_parallel..lanes..blake2bp..compress_short_1_v4
	vmovdqu	16(%rsp), %ymm0
	vmovdqu	48(%rsp), %ymm1
	vmovdqu	80(%rsp), %ymm2
	vmovdqu	112(%rsp), %ymm3
	vmovdqu	144(%rsp), %ymm4
	vmovdqu	176(%rsp), %ymm5
	vmovdqu	208(%rsp), %ymm6
	vmovdqu	240(%rsp), %ymm7
	vpunpcklqdq	%ymm1, %ymm0, %ymm8
	vpunpckhqdq	%ymm1, %ymm0, %ymm12
	vpunpcklqdq	%ymm3, %ymm2, %ymm9
	vpunpckhqdq	%ymm3, %ymm2, %ymm13
	vpunpcklqdq	%ymm5, %ymm4, %ymm10
	vpunpckhqdq	%ymm5, %ymm4, %ymm14
	vpunpcklqdq	%ymm7, %ymm6, %ymm11
	vpunpckhqdq	%ymm7, %ymm6, %ymm15
	vinserti32x4	$1, %xmm13, %ymm12, %ymm19
	vinserti32x4	$1, %xmm15, %ymm14, %ymm18
	vshufi64x2	$3, %ymm9, %ymm8, %ymm16
	vshufi64x2	$3, %ymm11, %ymm10, %ymm17
	vperm2i128	$49, %ymm13, %ymm12, %ymm12
	vperm2i128	$49, %ymm15, %ymm14, %ymm13
	cmpq	$513, %rbp
	jae	1f
	vinserti128	$1, %xmm11, %ymm10, %ymm0
	vinserti128	$1, %xmm9, %ymm8, %ymm1
	vmovdqu	%ymm1, (%rbx)
	vmovdqu	%ymm0, 32(%rbx)
	vmovdqu64	%ymm19, 64(%rbx)
	vmovdqu64	%ymm18, 96(%rbx)
	vmovdqu64	%ymm16, 128(%rbx)
	vmovdqu64	%ymm17, 160(%rbx)
	vmovdqu	%ymm12, 192(%rbx)
	vmovdqu	%ymm13, 224(%rbx)
	jmp	6f
1:
	vmovdqu64	%ymm19, 272(%rsp)
	vmovdqu64	%ymm18, 304(%rsp)
	vmovdqu64	%ymm17, 336(%rsp)
	vmovdqu64	%ymm16, 368(%rsp)
	vmovdqu	%ymm13, 400(%rsp)
	vmovdqu	%ymm12, 432(%rsp)
	addq	%r12, %r13
	movq	256(%r15), %rcx
	subq	$-128, %rcx
	movabsq	$72339073309671425, %rax
	movq	%rax, 8(%rsp)
	vmovdqu	%ymm0, 16(%rsp)
	vmovdqu	%ymm1, 48(%rsp)
	vmovdqu	%ymm2, 80(%rsp)
	vmovdqu	%ymm3, 112(%rsp)
	vmovdqu	%ymm4, 144(%rsp)
	vmovdqu	%ymm5, 176(%rsp)
	vmovdqu	%ymm6, 208(%rsp)
	vmovdqu	%ymm7, 240(%rsp)
	leaq	16(%rsp), %rdi
	leaq	8(%rsp), %r8
	movq	%r13, %rsi
	movq	%r14, %rdx
	vzeroupper
	callq	blake2_parallel..lanes..blake2bp..compress_short_1_v4
	vmovdqu	16(%rsp), %ymm6
	vmovdqu	48(%rsp), %ymm7
	vmovdqu	80(%rsp), %ymm1
	vmovdqu	112(%rsp), %ymm2
	vmovdqu	144(%rsp), %ymm8
	vmovdqu	176(%rsp), %ymm9
	vmovdqu	208(%rsp), %ymm3
	vmovdqu	240(%rsp), %ymm10
	vpunpckhqdq	%ymm7, %ymm6, %ymm0
	vpunpcklqdq	%ymm2, %ymm1, %ymm4
	vpunpckhqdq	%ymm2, %ymm1, %ymm1
	vpunpckhqdq	%ymm9, %ymm8, %ymm2
	vpunpcklqdq	%ymm10, %ymm3, %ymm5
	vpunpckhqdq	%ymm10, %ymm3, %ymm3
	cmpq	$129, %r14
	jae	2f
	vmovdqu	304(%rsp), %ymm12
	vmovdqu	272(%rsp), %ymm13
	jmp	3f
2:
	vinserti128	$1, %xmm3, %ymm2, %ymm12
	vinserti128	$1, %xmm1, %ymm0, %ymm13
3:
	vpunpcklqdq	%ymm7, %ymm6, %ymm6
	vpunpcklqdq	%ymm9, %ymm8, %ymm7
	cmpq	$257, %r14
	vmovdqu	432(%rsp), %ymm8
	vmovdqu	400(%rsp), %ymm9
	vmovdqu	368(%rsp), %ymm10
	vmovdqu	336(%rsp), %ymm11
	jb	4f
	vperm2i128	$49, %ymm4, %ymm6, %ymm10
	vperm2i128	$49, %ymm5, %ymm7, %ymm11
4:
	vinserti128	$1, %xmm4, %ymm6, %ymm4
	vinserti128	$1, %xmm5, %ymm7, %ymm5
	cmpq	$385, %r14
	jb	5f
	vperm2i128	$49, %ymm1, %ymm0, %ymm8
	vperm2i128	$49, %ymm3, %ymm2, %ymm9
5:
	vmovdqu	%ymm4, (%rbx)
	vmovdqu	%ymm5, 32(%rbx)
	vmovdqu	%ymm13, 64(%rbx)
	vmovdqu	%ymm12, 96(%rbx)
	vmovdqu	%ymm10, 128(%rbx)
	vmovdqu	%ymm11, 160(%rbx)
	vmovdqu	%ymm8, 192(%rbx)
	vmovdqu	%ymm9, 224(%rbx)
6:
	addq	$472, %rsp
	popq	%rbx
	popq	%r12
	popq	%r13
	popq	%r14
	popq	%r15
	popq	%rbp
	vzeroupper
	vpxord	%xmm16, %xmm16, %xmm16
	vpxord	%xmm17, %xmm17, %xmm17
	vpxord	%xmm18, %xmm18, %xmm18
	vpxord	%xmm19, %xmm19, %xmm19
	retq
	vj_end	blake2_parallel..lanes..blake2bp..Lanes..outputs_1_v4

	vj_constants	16
	.p2align	4, 0x0
.L1_v4_CPI26_0:
	.quad	256
	.quad	384
	vj_constants	8
	.p2align	3, 0x0
.L1_v4_CPI26_1:
	.quad	128
	vj_function	blake2_parallel..lanes..blake2bp..compress_short_1_v4
	pushq	%rbp
	pushq	%r15
	pushq	%r14
	pushq	%r13
	pushq	%r12
	pushq	%rbx
	subq	$1576, %rsp
	movq	%r8, %rbx
	movq	%rcx, %r14
	cmpq	$512, %rdx
	jne	1f
	leaq	128(%rsi), %rax
	leaq	256(%rsi), %rcx
	movq	%rsi, 32(%rsp)
	addq	$384, %rsi
	movq	%rax, 40(%rsp)
	movq	%rcx, 48(%rsp)
	movq	%rsi, 56(%rsp)
	subq	$-128, %r14
	vpbroadcastq	%r14, %ymm0
	vmovdqu	%ymm0, (%rsp)
	leaq	32(%rsp), %rsi
	movq	%rsp, %rdx
	jmp	2f
1:
	vxorps	%xmm0, %xmm0, %xmm0
	vmovups	%ymm0, 512(%rsp)
	vmovups	%ymm0, 480(%rsp)
	vmovups	%ymm0, 448(%rsp)
	vmovups	%ymm0, 416(%rsp)
	vmovups	%ymm0, 384(%rsp)
	vmovups	%ymm0, 352(%rsp)
	vmovups	%ymm0, 320(%rsp)
	vmovups	%ymm0, 288(%rsp)
	vmovups	%ymm0, 256(%rsp)
	vmovups	%ymm0, 224(%rsp)
	vmovups	%ymm0, 192(%rsp)
	vmovups	%ymm0, 160(%rsp)
	vmovups	%ymm0, 128(%rsp)
	vmovups	%ymm0, 96(%rsp)
	vmovups	%ymm0, 64(%rsp)
	vmovups	%ymm0, 32(%rsp)
	leaq	32(%rsp), %r13
	movq	%rdi, %r15
	movq	%r13, %rdi
	movq	%rdx, %r12
	vzeroupper
	vj_c_call	memcpy
	leaq	1064(%rsp), %rbp
	movl	$512, %edx
	movq	%rbp, %rdi
	movq	%r13, %rsi
	vj_c_call	memcpy
	leaq	552(%rsp), %r13
	movl	$512, %edx
	movq	%r13, %rdi
	movq	%rbp, %rsi
	vj_c_call	memcpy
	leaq	680(%rsp), %rax
	leaq	808(%rsp), %rcx
	leaq	936(%rsp), %rdx
	movq	%r13, 32(%rsp)
	movq	%rax, 40(%rsp)
	movq	%rcx, 48(%rsp)
	movq	%rdx, 56(%rsp)
	xorl	%eax, %eax
	vpbroadcastq	%r12, %xmm0
	subq	$128, %r12
	cmovaeq	%r12, %rax
	vmovq	%rax, %xmm1
	vpunpcklqdq	%xmm1, %xmm0, %xmm1
	vmovdqa	.L1_v4_CPI26_0(%rip), %xmm2
	vpmaxuq	%xmm2, %xmm0, %xmm0
	vpsubq	%xmm2, %xmm0, %xmm0
	vinserti128	$1, %xmm0, %ymm1, %ymm0
	vpminuq	.L1_v4_CPI26_1(%rip){1to4}, %ymm0, %ymm0
	vpbroadcastq	%r14, %ymm1
	vpaddq	%ymm0, %ymm1, %ymm0
	vmovdqu	%ymm0, (%rsp)
	leaq	32(%rsp), %rsi
	movq	%rsp, %rdx
	movq	%r15, %rdi
2:
	movq	%rbx, %rcx
	vzeroupper
	callq	blake2_compress..many..blake2b..compress_each_1_v4
	addq	$1576, %rsp
	popq	%rbx
	popq	%r12
	popq	%r13
	popq	%r14
	popq	%r15
	popq	%rbp
	retq
	vj_end	blake2_parallel..lanes..blake2bp..compress_short_1_v4

	vj_constants	8
	.p2align	3, 0x0
.L1_v4_CPI27_0:
	.quad	2270897969802886507
.L1_v4_CPI27_1:
	.quad	-2270897969802886508
.L1_v4_CPI27_2:
	.quad	6620516959819538809
.L1_v4_CPI27_3:
	.quad	-6620516959819538810
.L1_v4_CPI27_4:
	.quad	5840696475078001361
.L1_v4_CPI27_5:
	.quad	7640891576956012808
.L1_v4_CPI27_6:
	.quad	-7276294671716946913
.L1_v4_CPI27_7:
	.quad	-4942790177534073029
.L1_v4_CPI27_8:
	.quad	4354685564936845355
.L1_v4_CPI27_9:
	.quad	-6534734903238641935
	vj_function	blake2_compress..many..blake2b..compress_each_1_v4
	subq	$712, %rsp
	movq	(%rsi), %rax
	movq	8(%rsi), %r8
	vmovdqu	(%rax), %ymm0
	vmovdqu	32(%rax), %ymm1
	vmovdqu	64(%rax), %ymm2
	vmovdqu	96(%rax), %ymm3
	vmovdqu	(%r8), %ymm4
	vmovdqu	32(%r8), %ymm5
	vmovdqu	64(%r8), %ymm6
	vmovdqu	96(%r8), %ymm11
	movq	16(%rsi), %rax
	vmovdqu	(%rax), %ymm7
	vmovdqu	32(%rax), %ymm8
	vmovdqu	64(%rax), %ymm14
	vmovdqu	96(%rax), %ymm15
	movq	24(%rsi), %rax
	vmovdqu	(%rax), %ymm9
	vmovdqu64	32(%rax), %ymm16
	vmovdqu64	64(%rax), %ymm17
	vmovdqu64	96(%rax), %ymm18
	vpunpcklqdq	%ymm4, %ymm0, %ymm12
	vpunpckhqdq	%ymm4, %ymm0, %ymm0
	vpunpcklqdq	%ymm9, %ymm7, %ymm4
	vpunpckhqdq	%ymm9, %ymm7, %ymm7
	vinserti128	$1, %xmm4, %ymm12, %ymm10
	vmovdqu	%ymm10, 32(%rsp)
	vinserti32x4	$1, %xmm7, %ymm0, %ymm24
	vshufi64x2	$3, %ymm4, %ymm12, %ymm25
	vmovdqu64	%ymm25, 192(%rsp)
	vshufi64x2	$3, %ymm7, %ymm0, %ymm20
	vmovdqu64	%ymm20, (%rsp)
	vpunpcklqdq	%ymm5, %ymm1, %ymm0
	vpunpckhqdq	%ymm5, %ymm1, %ymm1
	vpunpcklqdq	%ymm16, %ymm8, %ymm4
	vpunpckhqdq	%ymm16, %ymm8, %ymm5
	vinserti32x4	$1, %xmm4, %ymm0, %ymm28
	vinserti128	$1, %xmm5, %ymm1, %ymm12
	vmovdqu	%ymm12, 160(%rsp)
	vshufi64x2	$3, %ymm4, %ymm0, %ymm19
	vperm2i128	$49, %ymm5, %ymm1, %ymm13
	vpunpcklqdq	%ymm6, %ymm2, %ymm0
	vpunpckhqdq	%ymm6, %ymm2, %ymm1
	vpunpcklqdq	%ymm17, %ymm14, %ymm2
	vpunpckhqdq	%ymm17, %ymm14, %ymm4
	vinserti128	$1, %xmm2, %ymm0, %ymm9
	vinserti32x4	$1, %xmm4, %ymm1, %ymm17
	vshufi64x2	$3, %ymm2, %ymm0, %ymm16
	vperm2i128	$49, %ymm4, %ymm1, %ymm0
	vmovdqu	%ymm0, 224(%rsp)
	vpunpcklqdq	%ymm11, %ymm3, %ymm2
	vpunpckhqdq	%ymm11, %ymm3, %ymm0
	vpunpcklqdq	%ymm18, %ymm15, %ymm4
	vpunpckhqdq	%ymm18, %ymm15, %ymm1
	vinserti32x4	$1, %xmm4, %ymm2, %ymm22
	movw	$85, %ax
	kmovd	%eax, %k1
	vmovdqu8	(%rcx), %xmm3 {%k1} {z}
	vpextrb	$6, %xmm3, %eax
	vinserti128	$1, %xmm1, %ymm0, %ymm11
	vpextrb	$4, %xmm3, %esi
	vmovd	%xmm3, %r8d
	vpextrb	$2, %xmm3, %r9d
	kmovd	%r9d, %k0
	kshiftlb	$7, %k0, %k0
	kshiftrb	$6, %k0, %k0
	kmovd	%r8d, %k2
	kshiftlb	$7, %k2, %k2
	kshiftrb	$7, %k2, %k2
	korb	%k0, %k2, %k2
	movb	$-5, %r8b
	kmovd	%r8d, %k0
	kandb	%k0, %k2, %k2
	kmovd	%esi, %k3
	kshiftlb	$2, %k3, %k3
	korb	%k3, %k2, %k2
	kshiftlb	$5, %k2, %k2
	kshiftrb	$5, %k2, %k2
	kmovd	%eax, %k3
	kshiftlb	$3, %k3, %k3
	vpbroadcastq	.L1_v4_CPI27_0(%rip), %ymm3
	korw	%k3, %k2, %k2
	vpbroadcastq	.L1_v4_CPI27_1(%rip), %ymm3 {%k2}
	vmovdqu8	1(%rcx), %xmm5 {%k1} {z}
	vpextrb	$6, %xmm5, %eax
	vpextrb	$4, %xmm5, %ecx
	vshufi64x2	$3, %ymm4, %ymm2, %ymm23
	vmovd	%xmm5, %esi
	vpextrb	$2, %xmm5, %r8d
	kmovd	%r8d, %k1
	kshiftlb	$7, %k1, %k1
	kshiftrb	$6, %k1, %k1
	kmovd	%esi, %k2
	kshiftlb	$7, %k2, %k2
	kshiftrb	$7, %k2, %k2
	korb	%k1, %k2, %k1
	kandb	%k0, %k1, %k0
	kmovd	%ecx, %k1
	kshiftlb	$2, %k1, %k1
	korb	%k1, %k0, %k0
	kshiftlb	$5, %k0, %k0
	kshiftrb	$5, %k0, %k0
	kmovd	%eax, %k1
	kshiftlb	$3, %k1, %k1
	korw	%k1, %k0, %k1
	vpbroadcastq	.L1_v4_CPI27_2(%rip), %ymm4
	vpbroadcastq	.L1_v4_CPI27_3(%rip), %ymm4 {%k1}
	vshufi64x2	$3, %ymm1, %ymm0, %ymm21
	vmovdqu	(%rdx), %ymm0
	vmovdqu	(%rdi), %ymm1
	vmovdqu	%ymm1, 512(%rsp)
	vmovdqu	32(%rdi), %ymm14
	vmovdqu	%ymm14, 608(%rsp)
	vmovdqu	64(%rdi), %ymm15
	vmovdqu	%ymm15, 448(%rsp)
	vmovdqu	128(%rdi), %ymm5
	vmovdqu	%ymm5, 672(%rsp)
	vmovdqu	160(%rdi), %ymm8
	vmovdqu	192(%rdi), %ymm6
	vpaddq	%ymm5, %ymm1, %ymm1
	vpaddq	%ymm1, %ymm10, %ymm1
	vpternlogq	$150, .L1_v4_CPI27_4(%rip){1to4}, %ymm1, %ymm0
	vprolq	$32, %ymm0, %ymm0
	vpaddq	.L1_v4_CPI27_5(%rip){1to4}, %ymm0, %ymm2
	vpxor	%ymm5, %ymm2, %ymm5
	vprolq	$40, %ymm5, %ymm5
	vpaddq	%ymm24, %ymm1, %ymm1
	vmovdqa64	%ymm24, %ymm10
	vpaddq	%ymm5, %ymm1, %ymm1
	vpxor	%ymm0, %ymm1, %ymm0
	vprolq	$48, %ymm0, %ymm26
	vpaddq	%ymm26, %ymm2, %ymm2
	vpxor	%ymm5, %ymm2, %ymm0
	vprolq	$1, %ymm0, %ymm7
	vmovdqu	%ymm8, 640(%rsp)
	vpaddq	%ymm8, %ymm14, %ymm5
	vpaddq	%ymm25, %ymm5, %ymm5
	vpxorq	.L1_v4_CPI27_6(%rip){1to4}, %ymm5, %ymm14
	vprolq	$32, %ymm14, %ymm14
	vpaddq	.L1_v4_CPI27_7(%rip){1to4}, %ymm14, %ymm24
	vpxorq	%ymm8, %ymm24, %ymm25
	vprolq	$40, %ymm25, %ymm25
	vpaddq	%ymm20, %ymm5, %ymm5
	vpaddq	%ymm25, %ymm5, %ymm5
	vpxor	%ymm5, %ymm14, %ymm14
	vprolq	$48, %ymm14, %ymm27
	vpaddq	%ymm27, %ymm24, %ymm24
	vpxorq	%ymm25, %ymm24, %ymm14
	vprolq	$1, %ymm14, %ymm25
	vmovdqu	%ymm6, 576(%rsp)
	vpaddq	%ymm6, %ymm15, %ymm14
	vmovdqa64	%ymm28, %ymm18
	vmovdqu64	%ymm28, 352(%rsp)
	vpaddq	%ymm28, %ymm14, %ymm14
	vpxor	%ymm3, %ymm14, %ymm3
	vprolq	$32, %ymm3, %ymm3
	vpaddq	.L1_v4_CPI27_8(%rip){1to4}, %ymm3, %ymm28
	vpxorq	%ymm6, %ymm28, %ymm29
	vprolq	$40, %ymm29, %ymm29
	vpaddq	%ymm12, %ymm14, %ymm14
	vpaddq	%ymm29, %ymm14, %ymm30
	vpxorq	%ymm3, %ymm30, %ymm3
	vprolq	$48, %ymm3, %ymm3
	vpaddq	%ymm3, %ymm28, %ymm28
	vpxorq	%ymm29, %ymm28, %ymm14
	vprolq	$1, %ymm14, %ymm29
	vmovdqu	96(%rdi), %ymm0
	vmovdqu	%ymm0, 480(%rsp)
	vmovdqu	224(%rdi), %ymm6
	vmovdqu	%ymm6, 544(%rsp)
	vpaddq	%ymm6, %ymm0, %ymm31
	vpaddq	%ymm19, %ymm31, %ymm31
	vpxorq	%ymm4, %ymm31, %ymm4
	vprolq	$32, %ymm4, %ymm4
	vpaddq	.L1_v4_CPI27_9(%rip){1to4}, %ymm4, %ymm0
	vpxor	%ymm6, %ymm0, %ymm15
	vprolq	$40, %ymm15, %ymm15
	vpaddq	%ymm13, %ymm31, %ymm31
	vpaddq	%ymm15, %ymm31, %ymm31
	vpxorq	%ymm4, %ymm31, %ymm4
	vprolq	$48, %ymm4, %ymm4
	vpaddq	%ymm4, %ymm0, %ymm0
	vpxor	%ymm0, %ymm15, %ymm15
	vprolq	$1, %ymm15, %ymm15
	vpaddq	%ymm1, %ymm9, %ymm1
	vpaddq	%ymm25, %ymm1, %ymm1
	vpxor	%ymm4, %ymm1, %ymm4
	vprolq	$32, %ymm4, %ymm4
	vpaddq	%ymm28, %ymm4, %ymm28
	vpxorq	%ymm25, %ymm28, %ymm25
	vprolq	$40, %ymm25, %ymm25
	vmovdqu64	%ymm17, 128(%rsp)
	vpaddq	%ymm17, %ymm1, %ymm1
	vpaddq	%ymm25, %ymm1, %ymm1
	vpxor	%ymm4, %ymm1, %ymm4
	vprolq	$48, %ymm4, %ymm6
	vpaddq	%ymm6, %ymm28, %ymm4
	vpxorq	%ymm25, %ymm4, %ymm25
	vprolq	$1, %ymm25, %ymm25
	vpaddq	%ymm16, %ymm5, %ymm5
	vpaddq	%ymm29, %ymm5, %ymm5
	vpxorq	%ymm26, %ymm5, %ymm26
	vprolq	$32, %ymm26, %ymm26
	vpaddq	%ymm0, %ymm26, %ymm0
	vpxorq	%ymm29, %ymm0, %ymm28
	vprolq	$40, %ymm28, %ymm28
	vmovdqu	224(%rsp), %ymm12
	vpaddq	%ymm5, %ymm12, %ymm5
	vpaddq	%ymm28, %ymm5, %ymm5
	vpxorq	%ymm26, %ymm5, %ymm26
	vprolq	$48, %ymm26, %ymm29
	vpaddq	%ymm29, %ymm0, %ymm26
	vpxorq	%ymm28, %ymm26, %ymm0
	vprolq	$1, %ymm0, %ymm28
	vpaddq	%ymm22, %ymm30, %ymm0
	vpaddq	%ymm0, %ymm15, %ymm0
	vpxorq	%ymm27, %ymm0, %ymm27
	vprolq	$32, %ymm27, %ymm27
	vpaddq	%ymm2, %ymm27, %ymm2
	vpxor	%ymm2, %ymm15, %ymm15
	vprolq	$40, %ymm15, %ymm15
	vmovdqa	%ymm11, %ymm14
	vpaddq	%ymm0, %ymm11, %ymm0
	vpaddq	%ymm15, %ymm0, %ymm30
	vpxorq	%ymm27, %ymm30, %ymm0
	vprolq	$48, %ymm0, %ymm27
	vpaddq	%ymm27, %ymm2, %ymm0
	vpxor	%ymm0, %ymm15, %ymm2
	vprolq	$1, %ymm2, %ymm15
	vmovdqu64	%ymm23, 64(%rsp)
	vpaddq	%ymm23, %ymm31, %ymm2
	vpaddq	%ymm7, %ymm2, %ymm2
	vpxor	%ymm3, %ymm2, %ymm3
	vprolq	$32, %ymm3, %ymm3
	vpaddq	%ymm24, %ymm3, %ymm24
	vpxorq	%ymm7, %ymm24, %ymm7
	vprolq	$40, %ymm7, %ymm7
	vmovdqa64	%ymm21, %ymm20
	vpaddq	%ymm21, %ymm2, %ymm2
	vpaddq	%ymm7, %ymm2, %ymm31
	vpxorq	%ymm3, %ymm31, %ymm2
	vprolq	$48, %ymm2, %ymm3
	vpaddq	%ymm3, %ymm24, %ymm24
	vpxorq	%ymm7, %ymm24, %ymm2
	vprolq	$1, %ymm2, %ymm2
	vpaddq	%ymm23, %ymm1, %ymm1
	vpaddq	%ymm2, %ymm1, %ymm1
	vpxorq	%ymm29, %ymm1, %ymm7
	vprolq	$32, %ymm7, %ymm7
	vpaddq	%ymm0, %ymm7, %ymm0
	vpxor	%ymm2, %ymm0, %ymm2
	vprolq	$40, %ymm2, %ymm29
	vpaddq	%ymm16, %ymm1, %ymm1
	vmovdqa64	%ymm16, %ymm23
	vpaddq	%ymm29, %ymm1, %ymm1
	vpxor	%ymm7, %ymm1, %ymm2
	vprolq	$48, %ymm2, %ymm7
	vpaddq	%ymm7, %ymm0, %ymm2
	vpxorq	%ymm29, %ymm2, %ymm0
	vprolq	$1, %ymm0, %ymm8
	vpaddq	%ymm18, %ymm5, %ymm5
	vpaddq	%ymm25, %ymm5, %ymm5
	vpxorq	%ymm27, %ymm5, %ymm27
	vprolq	$32, %ymm27, %ymm27
	vpaddq	%ymm24, %ymm27, %ymm24
	vpxorq	%ymm25, %ymm24, %ymm25
	vprolq	$40, %ymm25, %ymm25
	vpaddq	%ymm5, %ymm9, %ymm5
	vmovdqa	%ymm9, %ymm11
	vmovdqu	%ymm9, 384(%rsp)
	vpaddq	%ymm25, %ymm5, %ymm5
	vpxorq	%ymm27, %ymm5, %ymm27
	vprolq	$48, %ymm27, %ymm27
	vpaddq	%ymm27, %ymm24, %ymm24
	vpxorq	%ymm25, %ymm24, %ymm25
	vprolq	$1, %ymm25, %ymm25
	vpaddq	%ymm17, %ymm30, %ymm29
	vpaddq	%ymm28, %ymm29, %ymm29
	vpxorq	%ymm3, %ymm29, %ymm3
	vprolq	$32, %ymm3, %ymm3
	vpaddq	%ymm4, %ymm3, %ymm4
	vpxorq	%ymm28, %ymm4, %ymm28
	vprolq	$40, %ymm28, %ymm28
	vpaddq	%ymm21, %ymm29, %ymm29
	vmovdqu64	%ymm21, 288(%rsp)
	vpaddq	%ymm28, %ymm29, %ymm29
	vpxorq	%ymm3, %ymm29, %ymm3
	vprolq	$48, %ymm3, %ymm3
	vpaddq	%ymm3, %ymm4, %ymm4
	vpxorq	%ymm28, %ymm4, %ymm28
	vprolq	$1, %ymm28, %ymm28
	vpaddq	%ymm14, %ymm31, %ymm30
	vmovdqa64	%ymm14, %ymm21
	vpaddq	%ymm15, %ymm30, %ymm30
	vpxorq	%ymm6, %ymm30, %ymm6
	vprolq	$32, %ymm6, %ymm6
	vpaddq	%ymm26, %ymm6, %ymm26
	vpxorq	%ymm15, %ymm26, %ymm15
	vprolq	$40, %ymm15, %ymm15
	vpaddq	%ymm19, %ymm30, %ymm30
	vpaddq	%ymm15, %ymm30, %ymm30
	vpxorq	%ymm6, %ymm30, %ymm6
	vprolq	$48, %ymm6, %ymm6
	vpaddq	%ymm6, %ymm26, %ymm26
	vpxorq	%ymm15, %ymm26, %ymm15
	vprolq	$1, %ymm15, %ymm15
	vpaddq	%ymm1, %ymm10, %ymm1
	vpaddq	%ymm25, %ymm1, %ymm1
	vpxor	%ymm6, %ymm1, %ymm6
	vprolq	$32, %ymm6, %ymm6
	vpaddq	%ymm4, %ymm6, %ymm4
	vpxorq	%ymm25, %ymm4, %ymm25
	vprolq	$40, %ymm25, %ymm31
	vmovdqa64	%ymm22, %ymm18
	vmovdqu64	%ymm22, 96(%rsp)
	vpaddq	%ymm22, %ymm1, %ymm1
	vpaddq	%ymm31, %ymm1, %ymm0
	vpxor	%ymm6, %ymm0, %ymm1
	vprolq	$48, %ymm1, %ymm1
	vpaddq	%ymm1, %ymm4, %ymm25
	vpxorq	%ymm31, %ymm25, %ymm4
	vprolq	$1, %ymm4, %ymm4
	vmovdqu64	32(%rsp), %ymm16
	vpaddq	%ymm16, %ymm5, %ymm5
	vpaddq	%ymm28, %ymm5, %ymm5
	vpxor	%ymm7, %ymm5, %ymm6
	vprolq	$32, %ymm6, %ymm6
	vpaddq	%ymm26, %ymm6, %ymm7
	vpxorq	%ymm28, %ymm7, %ymm26
	vprolq	$40, %ymm26, %ymm28
	vmovdqu64	192(%rsp), %ymm31
	vpaddq	%ymm31, %ymm5, %ymm5
	vpaddq	%ymm28, %ymm5, %ymm5
	vpxor	%ymm6, %ymm5, %ymm6
	vprolq	$48, %ymm6, %ymm6
	vpaddq	%ymm6, %ymm7, %ymm26
	vpxorq	%ymm28, %ymm26, %ymm7
	vprolq	$1, %ymm7, %ymm7
	vmovdqa	%ymm12, %ymm9
	vpaddq	%ymm12, %ymm29, %ymm28
	vpaddq	%ymm15, %ymm28, %ymm28
	vpxorq	%ymm27, %ymm28, %ymm27
	vprolq	$32, %ymm27, %ymm27
	vpaddq	%ymm2, %ymm27, %ymm2
	vpxor	%ymm2, %ymm15, %ymm15
	vprolq	$40, %ymm15, %ymm15
	vpaddq	%ymm13, %ymm28, %ymm28
	vpaddq	%ymm15, %ymm28, %ymm28
	vpxorq	%ymm27, %ymm28, %ymm27
	vprolq	$48, %ymm27, %ymm27
	vpaddq	%ymm27, %ymm2, %ymm2
	vpxor	%ymm2, %ymm15, %ymm15
	vprolq	$1, %ymm15, %ymm15
	vmovdqu	160(%rsp), %ymm12
	vpaddq	%ymm12, %ymm30, %ymm29
	vpaddq	%ymm8, %ymm29, %ymm29
	vpxorq	%ymm3, %ymm29, %ymm3
	vprolq	$32, %ymm3, %ymm3
	vpaddq	%ymm24, %ymm3, %ymm24
	vpxorq	%ymm8, %ymm24, %ymm8
	vprolq	$40, %ymm8, %ymm8
	vmovdqu	(%rsp), %ymm14
	vpaddq	%ymm14, %ymm29, %ymm29
	vpaddq	%ymm8, %ymm29, %ymm29
	vpxorq	%ymm3, %ymm29, %ymm3
	vprolq	$48, %ymm3, %ymm3
	vpaddq	%ymm3, %ymm24, %ymm24
	vpxorq	%ymm8, %ymm24, %ymm8
	vprolq	$1, %ymm8, %ymm8
	vpaddq	%ymm0, %ymm9, %ymm0
	vmovdqa64	%ymm9, %ymm22
	vpaddq	%ymm0, %ymm8, %ymm0
	vpxor	%ymm6, %ymm0, %ymm6
	vprolq	$32, %ymm6, %ymm6
	vpaddq	%ymm2, %ymm6, %ymm2
	vpxor	%ymm2, %ymm8, %ymm8
	vprolq	$40, %ymm8, %ymm8
	vpaddq	%ymm0, %ymm11, %ymm0
	vpaddq	%ymm8, %ymm0, %ymm30
	vpxorq	%ymm6, %ymm30, %ymm0
	vprolq	$48, %ymm0, %ymm6
	vpaddq	%ymm6, %ymm2, %ymm2
	vpxor	%ymm2, %ymm8, %ymm0
	vprolq	$1, %ymm0, %ymm0
	vpaddq	%ymm18, %ymm5, %ymm5
	vpaddq	%ymm4, %ymm5, %ymm5
	vpxorq	%ymm27, %ymm5, %ymm8
	vprolq	$32, %ymm8, %ymm8
	vpaddq	%ymm24, %ymm8, %ymm24
	vpxorq	%ymm4, %ymm24, %ymm4
	vprolq	$40, %ymm4, %ymm4
	vpaddq	%ymm16, %ymm5, %ymm5
	vpaddq	%ymm4, %ymm5, %ymm5
	vpxor	%ymm5, %ymm8, %ymm8
	vprolq	$48, %ymm8, %ymm8
	vpaddq	%ymm8, %ymm24, %ymm24
	vpxorq	%ymm4, %ymm24, %ymm4
	vprolq	$1, %ymm4, %ymm4
	vpaddq	%ymm12, %ymm28, %ymm27
	vpaddq	%ymm7, %ymm27, %ymm27
	vpxorq	%ymm3, %ymm27, %ymm3
	vprolq	$32, %ymm3, %ymm3
	vpaddq	%ymm25, %ymm3, %ymm25
	vpxorq	%ymm7, %ymm25, %ymm7
	vprolq	$40, %ymm7, %ymm7
	vpaddq	%ymm31, %ymm27, %ymm27
	vpaddq	%ymm7, %ymm27, %ymm27
	vpxorq	%ymm3, %ymm27, %ymm3
	vprolq	$48, %ymm3, %ymm3
	vpaddq	%ymm3, %ymm25, %ymm25
	vpxorq	%ymm7, %ymm25, %ymm7
	vprolq	$1, %ymm7, %ymm7
	vpaddq	%ymm20, %ymm29, %ymm28
	vpaddq	%ymm15, %ymm28, %ymm28
	vpxorq	%ymm1, %ymm28, %ymm1
	vprolq	$32, %ymm1, %ymm1
	vpaddq	%ymm26, %ymm1, %ymm26
	vpxorq	%ymm15, %ymm26, %ymm15
	vprolq	$40, %ymm15, %ymm15
	vmovdqa64	%ymm21, %ymm11
	vmovdqu64	%ymm21, 256(%rsp)
	vpaddq	%ymm21, %ymm28, %ymm28
	vpaddq	%ymm15, %ymm28, %ymm28
	vpxorq	%ymm1, %ymm28, %ymm1
	vprolq	$48, %ymm1, %ymm1
	vpaddq	%ymm1, %ymm26, %ymm26
	vpxorq	%ymm15, %ymm26, %ymm15
	vprolq	$1, %ymm15, %ymm15
	vmovdqa64	%ymm23, %ymm20
	vpaddq	%ymm23, %ymm30, %ymm29
	vpaddq	%ymm4, %ymm29, %ymm29
	vpxorq	%ymm1, %ymm29, %ymm1
	vprolq	$32, %ymm1, %ymm1
	vpaddq	%ymm25, %ymm1, %ymm25
	vpxorq	%ymm4, %ymm25, %ymm4
	vprolq	$40, %ymm4, %ymm4
	vmovdqu64	64(%rsp), %ymm23
	vpaddq	%ymm23, %ymm29, %ymm29
	vpaddq	%ymm4, %ymm29, %ymm29
	vpxorq	%ymm1, %ymm29, %ymm1
	vprolq	$48, %ymm1, %ymm1
	vpaddq	%ymm1, %ymm25, %ymm25
	vpxorq	%ymm4, %ymm25, %ymm4
	vprolq	$1, %ymm4, %ymm4
	vmovdqa	%ymm14, %ymm9
	vpaddq	%ymm5, %ymm14, %ymm5
	vpaddq	%ymm7, %ymm5, %ymm5
	vpxor	%ymm6, %ymm5, %ymm6
	vprolq	$32, %ymm6, %ymm6
	vpaddq	%ymm26, %ymm6, %ymm26
	vpxorq	%ymm7, %ymm26, %ymm7
	vprolq	$40, %ymm7, %ymm7
	vmovdqa64	%ymm19, %ymm14
	vpaddq	%ymm19, %ymm5, %ymm5
	vpaddq	%ymm7, %ymm5, %ymm5
	vpxor	%ymm6, %ymm5, %ymm6
	vprolq	$48, %ymm6, %ymm6
	vpaddq	%ymm6, %ymm26, %ymm26
	vpxorq	%ymm7, %ymm26, %ymm7
	vprolq	$1, %ymm7, %ymm7
	vmovdqa64	%ymm13, %ymm18
	vpaddq	%ymm13, %ymm27, %ymm27
	vpaddq	%ymm15, %ymm27, %ymm27
	vpxorq	%ymm8, %ymm27, %ymm8
	vprolq	$32, %ymm8, %ymm8
	vpaddq	%ymm2, %ymm8, %ymm2
	vpxor	%ymm2, %ymm15, %ymm15
	vprolq	$40, %ymm15, %ymm15
	vpaddq	%ymm10, %ymm27, %ymm27
	vpaddq	%ymm15, %ymm27, %ymm27
	vpxorq	%ymm8, %ymm27, %ymm8
	vprolq	$48, %ymm8, %ymm8
	vpaddq	%ymm2, %ymm8, %ymm2
	vpxor	%ymm2, %ymm15, %ymm15
	vprolq	$1, %ymm15, %ymm15
	vmovdqu64	128(%rsp), %ymm17
	vpaddq	%ymm17, %ymm28, %ymm28
	vpaddq	%ymm0, %ymm28, %ymm28
	vpxorq	%ymm3, %ymm28, %ymm3
	vprolq	$32, %ymm3, %ymm3
	vpaddq	%ymm24, %ymm3, %ymm24
	vpxorq	%ymm0, %ymm24, %ymm0
	vprolq	$40, %ymm0, %ymm0
	vmovdqu64	352(%rsp), %ymm21
	vpaddq	%ymm21, %ymm28, %ymm28
	vpaddq	%ymm0, %ymm28, %ymm28
	vpxorq	%ymm3, %ymm28, %ymm3
	vprolq	$48, %ymm3, %ymm3
	vpaddq	%ymm3, %ymm24, %ymm24
	vpxorq	%ymm0, %ymm24, %ymm0
	vprolq	$1, %ymm0, %ymm0
	vpaddq	%ymm13, %ymm29, %ymm29
	vpaddq	%ymm0, %ymm29, %ymm29
	vpxorq	%ymm6, %ymm29, %ymm6
	vprolq	$32, %ymm6, %ymm6
	vpaddq	%ymm2, %ymm6, %ymm2
	vpxor	%ymm0, %ymm2, %ymm0
	vprolq	$40, %ymm0, %ymm0
	vpaddq	%ymm17, %ymm29, %ymm29
	vpaddq	%ymm0, %ymm29, %ymm29
	vpxorq	%ymm6, %ymm29, %ymm6
	vprolq	$48, %ymm6, %ymm6
	vpaddq	%ymm6, %ymm2, %ymm2
	vpxor	%ymm0, %ymm2, %ymm0
	vprolq	$1, %ymm0, %ymm0
	vpaddq	%ymm5, %ymm9, %ymm5
	vpaddq	%ymm4, %ymm5, %ymm5
	vpxor	%ymm5, %ymm8, %ymm8
	vprolq	$32, %ymm8, %ymm8
	vpaddq	%ymm24, %ymm8, %ymm24
	vpxorq	%ymm4, %ymm24, %ymm4
	vprolq	$40, %ymm4, %ymm4
	vpaddq	%ymm5, %ymm10, %ymm5
	vmovdqa64	%ymm10, %ymm19
	vmovdqu	%ymm10, 320(%rsp)
	vpaddq	%ymm4, %ymm5, %ymm5
	vpxor	%ymm5, %ymm8, %ymm8
	vprolq	$48, %ymm8, %ymm8
	vpaddq	%ymm8, %ymm24, %ymm24
	vpxorq	%ymm4, %ymm24, %ymm4
	vprolq	$1, %ymm4, %ymm4
	vpaddq	%ymm11, %ymm27, %ymm27
	vpaddq	%ymm7, %ymm27, %ymm27
	vpxorq	%ymm3, %ymm27, %ymm3
	vprolq	$32, %ymm3, %ymm3
	vpaddq	%ymm25, %ymm3, %ymm25
	vpxorq	%ymm7, %ymm25, %ymm7
	vprolq	$40, %ymm7, %ymm7
	vmovdqu	96(%rsp), %ymm10
	vpaddq	%ymm10, %ymm27, %ymm27
	vpaddq	%ymm7, %ymm27, %ymm27
	vpxorq	%ymm3, %ymm27, %ymm3
	vprolq	$48, %ymm3, %ymm3
	vpaddq	%ymm3, %ymm25, %ymm25
	vpxorq	%ymm7, %ymm25, %ymm7
	vprolq	$1, %ymm7, %ymm7
	vpaddq	%ymm22, %ymm28, %ymm28
	vmovdqa64	%ymm22, %ymm16
	vpaddq	%ymm15, %ymm28, %ymm28
	vpxorq	%ymm1, %ymm28, %ymm1
	vprolq	$32, %ymm1, %ymm1
	vpaddq	%ymm26, %ymm1, %ymm26
	vpxorq	%ymm15, %ymm26, %ymm15
	vprolq	$40, %ymm15, %ymm15
	vpaddq	%ymm23, %ymm28, %ymm28
	vpaddq	%ymm15, %ymm28, %ymm28
	vpxorq	%ymm1, %ymm28, %ymm1
	vprolq	$48, %ymm1, %ymm1
	vpaddq	%ymm1, %ymm26, %ymm26
	vpxorq	%ymm15, %ymm26, %ymm15
	vprolq	$1, %ymm15, %ymm15
	vpaddq	%ymm31, %ymm29, %ymm29
	vpaddq	%ymm4, %ymm29, %ymm29
	vpxorq	%ymm1, %ymm29, %ymm1
	vprolq	$32, %ymm1, %ymm1
	vpaddq	%ymm25, %ymm1, %ymm25
	vpxorq	%ymm4, %ymm25, %ymm4
	vprolq	$40, %ymm4, %ymm4
	vpaddq	%ymm14, %ymm29, %ymm29
	vmovdqa64	%ymm14, %ymm30
	vpaddq	%ymm4, %ymm29, %ymm29
	vpxorq	%ymm1, %ymm29, %ymm1
	vprolq	$48, %ymm1, %ymm1
	vpaddq	%ymm1, %ymm25, %ymm25
	vpxorq	%ymm4, %ymm25, %ymm4
	vprolq	$1, %ymm4, %ymm4
	vpaddq	%ymm5, %ymm12, %ymm5
	vpaddq	%ymm7, %ymm5, %ymm5
	vpxor	%ymm6, %ymm5, %ymm6
	vprolq	$32, %ymm6, %ymm6
	vpaddq	%ymm26, %ymm6, %ymm26
	vpxorq	%ymm7, %ymm26, %ymm7
	vprolq	$40, %ymm7, %ymm7
	vmovdqa64	%ymm20, %ymm11
	vpaddq	%ymm20, %ymm5, %ymm5
	vpaddq	%ymm7, %ymm5, %ymm5
	vpxor	%ymm6, %ymm5, %ymm6
	vprolq	$48, %ymm6, %ymm6
	vpaddq	%ymm6, %ymm26, %ymm26
	vpxorq	%ymm7, %ymm26, %ymm7
	vprolq	$1, %ymm7, %ymm7
	vpaddq	%ymm21, %ymm27, %ymm27
	vpaddq	%ymm15, %ymm27, %ymm27
	vpxorq	%ymm8, %ymm27, %ymm8
	vprolq	$32, %ymm8, %ymm8
	vpaddq	%ymm2, %ymm8, %ymm2
	vpxor	%ymm2, %ymm15, %ymm15
	vprolq	$40, %ymm15, %ymm15
	vmovdqu	32(%rsp), %ymm14
	vpaddq	%ymm14, %ymm27, %ymm27
	vpaddq	%ymm15, %ymm27, %ymm27
	vpxorq	%ymm8, %ymm27, %ymm8
	vprolq	$48, %ymm8, %ymm8
	vpaddq	%ymm2, %ymm8, %ymm2
	vpxor	%ymm2, %ymm15, %ymm15
	vprolq	$1, %ymm15, %ymm15
	vmovdqu64	288(%rsp), %ymm22
	vpaddq	%ymm22, %ymm28, %ymm28
	vpaddq	%ymm0, %ymm28, %ymm28
	vpxorq	%ymm3, %ymm28, %ymm3
	vprolq	$32, %ymm3, %ymm3
	vpaddq	%ymm24, %ymm3, %ymm24
	vpxorq	%ymm0, %ymm24, %ymm0
	vprolq	$40, %ymm0, %ymm0
	vmovdqu64	384(%rsp), %ymm20
	vpaddq	%ymm20, %ymm28, %ymm28
	vpaddq	%ymm0, %ymm28, %ymm28
	vpxorq	%ymm3, %ymm28, %ymm3
	vprolq	$48, %ymm3, %ymm3
	vpaddq	%ymm3, %ymm24, %ymm24
	vpxorq	%ymm0, %ymm24, %ymm0
	vprolq	$1, %ymm0, %ymm0
	vpaddq	%ymm17, %ymm29, %ymm29
	vpaddq	%ymm0, %ymm29, %ymm29
	vpxorq	%ymm6, %ymm29, %ymm6
	vprolq	$32, %ymm6, %ymm6
	vpaddq	%ymm2, %ymm6, %ymm2
	vpxor	%ymm0, %ymm2, %ymm0
	vprolq	$40, %ymm0, %ymm0
	vpaddq	%ymm14, %ymm29, %ymm29
	vpaddq	%ymm0, %ymm29, %ymm29
	vpxorq	%ymm6, %ymm29, %ymm6
	vprolq	$48, %ymm6, %ymm6
	vpaddq	%ymm6, %ymm2, %ymm2
	vpxor	%ymm0, %ymm2, %ymm0
	vprolq	$1, %ymm0, %ymm0
	vpaddq	%ymm5, %ymm12, %ymm5
	vpaddq	%ymm4, %ymm5, %ymm5
	vpxor	%ymm5, %ymm8, %ymm8
	vprolq	$32, %ymm8, %ymm8
	vpaddq	%ymm24, %ymm8, %ymm24
	vpxorq	%ymm4, %ymm24, %ymm4
	vprolq	$40, %ymm4, %ymm4
	vpaddq	%ymm5, %ymm13, %ymm5
	vpaddq	%ymm4, %ymm5, %ymm5
	vpxor	%ymm5, %ymm8, %ymm8
	vprolq	$48, %ymm8, %ymm8
	vpaddq	%ymm8, %ymm24, %ymm24
	vpxorq	%ymm4, %ymm24, %ymm4
	vprolq	$1, %ymm4, %ymm4
	vpaddq	%ymm31, %ymm27, %ymm27
	vpaddq	%ymm7, %ymm27, %ymm27
	vpxorq	%ymm3, %ymm27, %ymm3
	vprolq	$32, %ymm3, %ymm3
	vpaddq	%ymm25, %ymm3, %ymm25
	vpxorq	%ymm7, %ymm25, %ymm7
	vprolq	$40, %ymm7, %ymm7
	vpaddq	%ymm21, %ymm27, %ymm27
	vpaddq	%ymm7, %ymm27, %ymm27
	vpxorq	%ymm3, %ymm27, %ymm3
	vprolq	$48, %ymm3, %ymm3
	vpaddq	%ymm3, %ymm25, %ymm25
	vpxorq	%ymm7, %ymm25, %ymm7
	vprolq	$1, %ymm7, %ymm7
	vpaddq	%ymm11, %ymm28, %ymm28
	vpaddq	%ymm15, %ymm28, %ymm28
	vpxorq	%ymm1, %ymm28, %ymm1
	vprolq	$32, %ymm1, %ymm1
	vpaddq	%ymm26, %ymm1, %ymm26
	vpxorq	%ymm15, %ymm26, %ymm15
	vprolq	$40, %ymm15, %ymm15
	vpaddq	%ymm22, %ymm28, %ymm28
	vpaddq	%ymm15, %ymm28, %ymm28
	vpxorq	%ymm1, %ymm28, %ymm1
	vprolq	$48, %ymm1, %ymm1
	vpaddq	%ymm1, %ymm26, %ymm26
	vpxorq	%ymm15, %ymm26, %ymm15
	vprolq	$1, %ymm15, %ymm15
	vpaddq	%ymm23, %ymm29, %ymm29
	vpaddq	%ymm4, %ymm29, %ymm29
	vpxorq	%ymm1, %ymm29, %ymm1
	vprolq	$32, %ymm1, %ymm1
	vpaddq	%ymm25, %ymm1, %ymm25
	vpxorq	%ymm4, %ymm25, %ymm4
	vprolq	$40, %ymm4, %ymm4
	vpaddq	%ymm19, %ymm29, %ymm29
	vpaddq	%ymm4, %ymm29, %ymm29
	vpxorq	%ymm1, %ymm29, %ymm1
	vprolq	$48, %ymm1, %ymm1
	vpaddq	%ymm1, %ymm25, %ymm25
	vpxorq	%ymm4, %ymm25, %ymm4
	vprolq	$1, %ymm4, %ymm4
	vmovdqa64	%ymm16, %ymm13
	vpaddq	%ymm16, %ymm5, %ymm5
	vpaddq	%ymm7, %ymm5, %ymm5
	vpxor	%ymm6, %ymm5, %ymm6
	vprolq	$32, %ymm6, %ymm6
	vpaddq	%ymm26, %ymm6, %ymm26
	vpxorq	%ymm7, %ymm26, %ymm7
	vprolq	$40, %ymm7, %ymm7
	vpaddq	%ymm5, %ymm10, %ymm5
	vpaddq	%ymm7, %ymm5, %ymm5
	vpxor	%ymm6, %ymm5, %ymm6
	vprolq	$48, %ymm6, %ymm6
	vpaddq	%ymm6, %ymm26, %ymm26
	vpxorq	%ymm7, %ymm26, %ymm7
	vprolq	$1, %ymm7, %ymm7
	vpaddq	%ymm30, %ymm27, %ymm27
	vpaddq	%ymm15, %ymm27, %ymm27
	vpxorq	%ymm8, %ymm27, %ymm8
	vprolq	$32, %ymm8, %ymm8
	vpaddq	%ymm2, %ymm8, %ymm2
	vpxor	%ymm2, %ymm15, %ymm15
	vprolq	$40, %ymm15, %ymm15
	vpaddq	%ymm20, %ymm27, %ymm27
	vpaddq	%ymm15, %ymm27, %ymm27
	vpxorq	%ymm8, %ymm27, %ymm8
	vprolq	$48, %ymm8, %ymm8
	vpaddq	%ymm2, %ymm8, %ymm2
	vpxor	%ymm2, %ymm15, %ymm15
	vprolq	$1, %ymm15, %ymm15
	vmovdqu	(%rsp), %ymm9
	vpaddq	%ymm9, %ymm28, %ymm28
	vpaddq	%ymm0, %ymm28, %ymm28
	vpxorq	%ymm3, %ymm28, %ymm3
	vprolq	$32, %ymm3, %ymm3
	vpaddq	%ymm24, %ymm3, %ymm24
	vpxorq	%ymm0, %ymm24, %ymm0
	vprolq	$40, %ymm0, %ymm0
	vmovdqu64	256(%rsp), %ymm16
	vpaddq	%ymm16, %ymm28, %ymm28
	vpaddq	%ymm0, %ymm28, %ymm28
	vpxorq	%ymm3, %ymm28, %ymm3
	vprolq	$48, %ymm3, %ymm3
	vpaddq	%ymm3, %ymm24, %ymm24
	vpxorq	%ymm0, %ymm24, %ymm0
	vprolq	$1, %ymm0, %ymm0
	vpaddq	%ymm31, %ymm29, %ymm29
	vpaddq	%ymm0, %ymm29, %ymm29
	vpxorq	%ymm6, %ymm29, %ymm6
	vprolq	$32, %ymm6, %ymm6
	vpaddq	%ymm2, %ymm6, %ymm2
	vpxor	%ymm0, %ymm2, %ymm0
	vprolq	$40, %ymm0, %ymm0
	vpaddq	%ymm10, %ymm29, %ymm29
	vpaddq	%ymm0, %ymm29, %ymm29
	vpxorq	%ymm6, %ymm29, %ymm6
	vprolq	$48, %ymm6, %ymm6
	vpaddq	%ymm6, %ymm2, %ymm2
	vpxor	%ymm0, %ymm2, %ymm0
	vprolq	$1, %ymm0, %ymm0
	vpaddq	%ymm30, %ymm5, %ymm5
	vmovdqa64	%ymm30, %ymm23
	vpaddq	%ymm4, %ymm5, %ymm5
	vpxor	%ymm5, %ymm8, %ymm8
	vprolq	$32, %ymm8, %ymm8
	vpaddq	%ymm24, %ymm8, %ymm24
	vpxorq	%ymm4, %ymm24, %ymm4
	vprolq	$40, %ymm4, %ymm4
	vpaddq	%ymm5, %ymm11, %ymm5
	vmovdqa64	%ymm11, %ymm19
	vpaddq	%ymm4, %ymm5, %ymm5
	vpxor	%ymm5, %ymm8, %ymm8
	vprolq	$48, %ymm8, %ymm8
	vpaddq	%ymm8, %ymm24, %ymm24
	vpxorq	%ymm4, %ymm24, %ymm4
	vprolq	$1, %ymm4, %ymm4
	vpaddq	%ymm14, %ymm27, %ymm27
	vpaddq	%ymm7, %ymm27, %ymm27
	vpxorq	%ymm3, %ymm27, %ymm3
	vprolq	$32, %ymm3, %ymm3
	vpaddq	%ymm25, %ymm3, %ymm25
	vpxorq	%ymm7, %ymm25, %ymm7
	vprolq	$40, %ymm7, %ymm7
	vpaddq	%ymm13, %ymm27, %ymm27
	vpaddq	%ymm7, %ymm27, %ymm27
	vpxorq	%ymm3, %ymm27, %ymm3
	vprolq	$48, %ymm3, %ymm3
	vpaddq	%ymm3, %ymm25, %ymm25
	vpxorq	%ymm7, %ymm25, %ymm7
	vprolq	$1, %ymm7, %ymm7
	vpaddq	%ymm20, %ymm28, %ymm28
	vpaddq	%ymm15, %ymm28, %ymm28
	vpxorq	%ymm1, %ymm28, %ymm1
	vprolq	$32, %ymm1, %ymm1
	vpaddq	%ymm26, %ymm1, %ymm26
	vpxorq	%ymm15, %ymm26, %ymm15
	vprolq	$40, %ymm15, %ymm15
	vpaddq	%ymm9, %ymm28, %ymm28
	vpaddq	%ymm15, %ymm28, %ymm28
	vpxorq	%ymm1, %ymm28, %ymm1
	vprolq	$48, %ymm1, %ymm1
	vpaddq	%ymm1, %ymm26, %ymm26
	vpxorq	%ymm15, %ymm26, %ymm15
	vprolq	$1, %ymm15, %ymm15
	vpaddq	%ymm21, %ymm29, %ymm29
	vpaddq	%ymm4, %ymm29, %ymm29
	vpxorq	%ymm1, %ymm29, %ymm1
	vprolq	$32, %ymm1, %ymm1
	vpaddq	%ymm25, %ymm1, %ymm25
	vpxorq	%ymm4, %ymm25, %ymm4
	vprolq	$40, %ymm4, %ymm4
	vpaddq	%ymm16, %ymm29, %ymm29
	vpaddq	%ymm4, %ymm29, %ymm29
	vpxorq	%ymm1, %ymm29, %ymm1
	vprolq	$48, %ymm1, %ymm1
	vpaddq	%ymm1, %ymm25, %ymm25
	vpxorq	%ymm4, %ymm25, %ymm4
	vprolq	$1, %ymm4, %ymm4
	vpaddq	%ymm18, %ymm5, %ymm5
	vpaddq	%ymm7, %ymm5, %ymm5
	vpxor	%ymm6, %ymm5, %ymm6
	vprolq	$32, %ymm6, %ymm6
	vpaddq	%ymm26, %ymm6, %ymm26
	vpxorq	%ymm7, %ymm26, %ymm7
	vprolq	$40, %ymm7, %ymm7
	vpaddq	%ymm5, %ymm12, %ymm5
	vpaddq	%ymm7, %ymm5, %ymm5
	vpxor	%ymm6, %ymm5, %ymm6
	vprolq	$48, %ymm6, %ymm6
	vpaddq	%ymm6, %ymm26, %ymm26
	vpxorq	%ymm7, %ymm26, %ymm7
	vprolq	$1, %ymm7, %ymm7
	vpaddq	%ymm22, %ymm27, %ymm27
	vpaddq	%ymm15, %ymm27, %ymm27
	vpxorq	%ymm8, %ymm27, %ymm8
	vprolq	$32, %ymm8, %ymm8
	vpaddq	%ymm2, %ymm8, %ymm2
	vpxor	%ymm2, %ymm15, %ymm15
	vprolq	$40, %ymm15, %ymm15
	vmovdqu	64(%rsp), %ymm11
	vpaddq	%ymm11, %ymm27, %ymm27
	vpaddq	%ymm15, %ymm27, %ymm27
	vpxorq	%ymm8, %ymm27, %ymm8
	vprolq	$48, %ymm8, %ymm8
	vpaddq	%ymm2, %ymm8, %ymm2
	vpxor	%ymm2, %ymm15, %ymm15
	vprolq	$1, %ymm15, %ymm15
	vmovdqu64	320(%rsp), %ymm30
	vpaddq	%ymm30, %ymm28, %ymm28
	vpaddq	%ymm0, %ymm28, %ymm28
	vpxorq	%ymm3, %ymm28, %ymm3
	vprolq	$32, %ymm3, %ymm3
	vpaddq	%ymm24, %ymm3, %ymm24
	vpxorq	%ymm0, %ymm24, %ymm0
	vprolq	$40, %ymm0, %ymm0
	vmovdqu64	128(%rsp), %ymm17
	vpaddq	%ymm17, %ymm28, %ymm28
	vpaddq	%ymm0, %ymm28, %ymm28
	vpxorq	%ymm3, %ymm28, %ymm3
	vprolq	$48, %ymm3, %ymm3
	vpaddq	%ymm3, %ymm24, %ymm24
	vpxorq	%ymm0, %ymm24, %ymm0
	vprolq	$1, %ymm0, %ymm0
	vpaddq	%ymm10, %ymm29, %ymm29
	vpaddq	%ymm0, %ymm29, %ymm29
	vpxorq	%ymm6, %ymm29, %ymm6
	vprolq	$32, %ymm6, %ymm6
	vpaddq	%ymm2, %ymm6, %ymm2
	vpxor	%ymm0, %ymm2, %ymm0
	vprolq	$40, %ymm0, %ymm0
	vpaddq	%ymm12, %ymm29, %ymm29
	vpaddq	%ymm0, %ymm29, %ymm29
	vpxorq	%ymm6, %ymm29, %ymm6
	vprolq	$48, %ymm6, %ymm6
	vpaddq	%ymm6, %ymm2, %ymm2
	vpxor	%ymm0, %ymm2, %ymm0
	vprolq	$1, %ymm0, %ymm0
	vpaddq	%ymm30, %ymm5, %ymm5
	vpaddq	%ymm4, %ymm5, %ymm5
	vpxor	%ymm5, %ymm8, %ymm8
	vprolq	$32, %ymm8, %ymm8
	vpaddq	%ymm24, %ymm8, %ymm24
	vpxorq	%ymm4, %ymm24, %ymm4
	vprolq	$40, %ymm4, %ymm4
	vpaddq	%ymm22, %ymm5, %ymm5
	vpaddq	%ymm4, %ymm5, %ymm5
	vpxor	%ymm5, %ymm8, %ymm8
	vprolq	$48, %ymm8, %ymm8
	vpaddq	%ymm8, %ymm24, %ymm24
	vpxorq	%ymm4, %ymm24, %ymm4
	vprolq	$1, %ymm4, %ymm4
	vpaddq	%ymm11, %ymm27, %ymm27
	vpaddq	%ymm7, %ymm27, %ymm27
	vpxorq	%ymm3, %ymm27, %ymm3
	vprolq	$32, %ymm3, %ymm3
	vpaddq	%ymm25, %ymm3, %ymm25
	vpxorq	%ymm7, %ymm25, %ymm7
	vprolq	$40, %ymm7, %ymm7
	vpaddq	%ymm16, %ymm27, %ymm27
	vpaddq	%ymm7, %ymm27, %ymm27
	vpxorq	%ymm3, %ymm27, %ymm3
	vprolq	$48, %ymm3, %ymm3
	vpaddq	%ymm3, %ymm25, %ymm25
	vpxorq	%ymm7, %ymm25, %ymm7
	vprolq	$1, %ymm7, %ymm7
	vpaddq	%ymm21, %ymm28, %ymm28
	vpaddq	%ymm15, %ymm28, %ymm28
	vpxorq	%ymm1, %ymm28, %ymm1
	vprolq	$32, %ymm1, %ymm1
	vpaddq	%ymm26, %ymm1, %ymm26
	vpxorq	%ymm15, %ymm26, %ymm15
	vprolq	$40, %ymm15, %ymm15
	vpaddq	%ymm19, %ymm28, %ymm28
	vpaddq	%ymm15, %ymm28, %ymm28
	vpxorq	%ymm1, %ymm28, %ymm1
	vprolq	$48, %ymm1, %ymm1
	vpaddq	%ymm1, %ymm26, %ymm26
	vpxorq	%ymm15, %ymm26, %ymm15
	vprolq	$1, %ymm15, %ymm15
	vpaddq	%ymm14, %ymm29, %ymm29
	vpaddq	%ymm4, %ymm29, %ymm29
	vpxorq	%ymm1, %ymm29, %ymm1
	vprolq	$32, %ymm1, %ymm1
	vpaddq	%ymm25, %ymm1, %ymm25
	vpxorq	%ymm4, %ymm25, %ymm4
	vprolq	$40, %ymm4, %ymm4
	vpaddq	%ymm18, %ymm29, %ymm29
	vpaddq	%ymm4, %ymm29, %ymm29
	vpxorq	%ymm1, %ymm29, %ymm1
	vprolq	$48, %ymm1, %ymm1
	vpaddq	%ymm1, %ymm25, %ymm25
	vpxorq	%ymm4, %ymm25, %ymm4
	vprolq	$1, %ymm4, %ymm4
	vpaddq	%ymm23, %ymm5, %ymm5
	vpaddq	%ymm7, %ymm5, %ymm5
	vpxor	%ymm6, %ymm5, %ymm6
	vprolq	$32, %ymm6, %ymm6
	vpaddq	%ymm26, %ymm6, %ymm26
	vpxorq	%ymm7, %ymm26, %ymm7
	vprolq	$40, %ymm7, %ymm7
	vpaddq	%ymm5, %ymm9, %ymm5
	vpaddq	%ymm7, %ymm5, %ymm5
	vpxor	%ymm6, %ymm5, %ymm6
	vprolq	$48, %ymm6, %ymm6
	vpaddq	%ymm6, %ymm26, %ymm26
	vpxorq	%ymm7, %ymm26, %ymm7
	vprolq	$1, %ymm7, %ymm7
	vpaddq	%ymm17, %ymm27, %ymm27
	vpaddq	%ymm15, %ymm27, %ymm27
	vpxorq	%ymm8, %ymm27, %ymm8
	vprolq	$32, %ymm8, %ymm8
	vpaddq	%ymm2, %ymm8, %ymm2
	vpxor	%ymm2, %ymm15, %ymm15
	vprolq	$40, %ymm15, %ymm15
	vmovdqu64	192(%rsp), %ymm31
	vpaddq	%ymm31, %ymm27, %ymm27
	vpaddq	%ymm15, %ymm27, %ymm27
	vpxorq	%ymm8, %ymm27, %ymm8
	vprolq	$48, %ymm8, %ymm8
	vpaddq	%ymm2, %ymm8, %ymm2
	vpxor	%ymm2, %ymm15, %ymm15
	vprolq	$1, %ymm15, %ymm15
	vpaddq	%ymm20, %ymm28, %ymm28
	vpaddq	%ymm0, %ymm28, %ymm28
	vpxorq	%ymm3, %ymm28, %ymm3
	vprolq	$32, %ymm3, %ymm3
	vpaddq	%ymm24, %ymm3, %ymm24
	vpxorq	%ymm0, %ymm24, %ymm0
	vprolq	$40, %ymm0, %ymm0
	vmovdqu	224(%rsp), %ymm10
	vpaddq	%ymm10, %ymm28, %ymm28
	vpaddq	%ymm0, %ymm28, %ymm28
	vpxorq	%ymm3, %ymm28, %ymm3
	vprolq	$48, %ymm3, %ymm3
	vpaddq	%ymm3, %ymm24, %ymm24
	vpxorq	%ymm0, %ymm24, %ymm0
	vprolq	$1, %ymm0, %ymm0
	vpaddq	%ymm16, %ymm29, %ymm29
	vpaddq	%ymm0, %ymm29, %ymm29
	vpxorq	%ymm6, %ymm29, %ymm6
	vprolq	$32, %ymm6, %ymm6
	vpaddq	%ymm2, %ymm6, %ymm2
	vpxor	%ymm0, %ymm2, %ymm0
	vprolq	$40, %ymm0, %ymm0
	vpaddq	%ymm10, %ymm29, %ymm29
	vpaddq	%ymm0, %ymm29, %ymm29
	vpxorq	%ymm6, %ymm29, %ymm6
	vprolq	$48, %ymm6, %ymm6
	vpaddq	%ymm6, %ymm2, %ymm2
	vpxor	%ymm0, %ymm2, %ymm0
	vprolq	$1, %ymm0, %ymm0
	vpaddq	%ymm18, %ymm5, %ymm5
	vmovdqa64	%ymm18, %ymm16
	vpaddq	%ymm4, %ymm5, %ymm5
	vpxor	%ymm5, %ymm8, %ymm8
	vprolq	$32, %ymm8, %ymm8
	vpaddq	%ymm24, %ymm8, %ymm24
	vpxorq	%ymm4, %ymm24, %ymm4
	vprolq	$40, %ymm4, %ymm4
	vpaddq	%ymm5, %ymm11, %ymm5
	vpaddq	%ymm4, %ymm5, %ymm5
	vpxor	%ymm5, %ymm8, %ymm8
	vprolq	$48, %ymm8, %ymm8
	vpaddq	%ymm8, %ymm24, %ymm24
	vpxorq	%ymm4, %ymm24, %ymm4
	vprolq	$1, %ymm4, %ymm4
	vmovdqu	96(%rsp), %ymm13
	vpaddq	%ymm13, %ymm27, %ymm27
	vpaddq	%ymm7, %ymm27, %ymm27
	vpxorq	%ymm3, %ymm27, %ymm3
	vprolq	$32, %ymm3, %ymm3
	vpaddq	%ymm25, %ymm3, %ymm25
	vpxorq	%ymm7, %ymm25, %ymm7
	vprolq	$40, %ymm7, %ymm7
	vpaddq	%ymm30, %ymm27, %ymm27
	vpaddq	%ymm7, %ymm27, %ymm27
	vpxorq	%ymm3, %ymm27, %ymm3
	vprolq	$48, %ymm3, %ymm3
	vpaddq	%ymm3, %ymm25, %ymm25
	vpxorq	%ymm7, %ymm25, %ymm7
	vprolq	$1, %ymm7, %ymm7
	vpaddq	%ymm9, %ymm28, %ymm28
	vpaddq	%ymm15, %ymm28, %ymm28
	vpxorq	%ymm1, %ymm28, %ymm1
	vprolq	$32, %ymm1, %ymm1
	vpaddq	%ymm26, %ymm1, %ymm26
	vpxorq	%ymm15, %ymm26, %ymm15
	vprolq	$40, %ymm15, %ymm15
	vpaddq	%ymm17, %ymm28, %ymm28
	vpaddq	%ymm15, %ymm28, %ymm28
	vpxorq	%ymm1, %ymm28, %ymm1
	vprolq	$48, %ymm1, %ymm1
	vpaddq	%ymm1, %ymm26, %ymm26
	vpxorq	%ymm15, %ymm26, %ymm15
	vprolq	$1, %ymm15, %ymm15
	vpaddq	%ymm12, %ymm29, %ymm29
	vpaddq	%ymm4, %ymm29, %ymm29
	vpxorq	%ymm1, %ymm29, %ymm1
	vprolq	$32, %ymm1, %ymm1
	vpaddq	%ymm25, %ymm1, %ymm25
	vpxorq	%ymm4, %ymm25, %ymm4
	vprolq	$40, %ymm4, %ymm4
	vpaddq	%ymm14, %ymm29, %ymm29
	vpaddq	%ymm4, %ymm29, %ymm29
	vpxorq	%ymm1, %ymm29, %ymm1
	vprolq	$48, %ymm1, %ymm1
	vpaddq	%ymm1, %ymm25, %ymm25
	vpxorq	%ymm4, %ymm25, %ymm4
	vprolq	$1, %ymm4, %ymm4
	vpaddq	%ymm22, %ymm5, %ymm5
	vpaddq	%ymm7, %ymm5, %ymm5
	vpxor	%ymm6, %ymm5, %ymm6
	vprolq	$32, %ymm6, %ymm6
	vpaddq	%ymm26, %ymm6, %ymm26
	vpxorq	%ymm7, %ymm26, %ymm7
	vprolq	$40, %ymm7, %ymm7
	vpaddq	%ymm21, %ymm5, %ymm5
	vpaddq	%ymm7, %ymm5, %ymm5
	vpxor	%ymm6, %ymm5, %ymm6
	vprolq	$48, %ymm6, %ymm6
	vpaddq	%ymm6, %ymm26, %ymm26
	vpxorq	%ymm7, %ymm26, %ymm7
	vprolq	$1, %ymm7, %ymm7
	vpaddq	%ymm20, %ymm27, %ymm27
	vpaddq	%ymm15, %ymm27, %ymm27
	vpxorq	%ymm8, %ymm27, %ymm8
	vprolq	$32, %ymm8, %ymm8
	vpaddq	%ymm2, %ymm8, %ymm2
	vpxor	%ymm2, %ymm15, %ymm15
	vprolq	$40, %ymm15, %ymm15
	vpaddq	%ymm23, %ymm27, %ymm27
	vpaddq	%ymm15, %ymm27, %ymm27
	vpxorq	%ymm8, %ymm27, %ymm8
	vprolq	$48, %ymm8, %ymm8
	vpaddq	%ymm2, %ymm8, %ymm2
	vpxor	%ymm2, %ymm15, %ymm15
	vprolq	$1, %ymm15, %ymm15
	vpaddq	%ymm31, %ymm28, %ymm28
	vpaddq	%ymm0, %ymm28, %ymm28
	vpxorq	%ymm3, %ymm28, %ymm3
	vprolq	$32, %ymm3, %ymm3
	vpaddq	%ymm24, %ymm3, %ymm24
	vpxorq	%ymm0, %ymm24, %ymm0
	vprolq	$40, %ymm0, %ymm0
	vpaddq	%ymm19, %ymm28, %ymm28
	vpaddq	%ymm0, %ymm28, %ymm28
	vpxorq	%ymm3, %ymm28, %ymm3
	vprolq	$48, %ymm3, %ymm3
	vpaddq	%ymm3, %ymm24, %ymm24
	vpxorq	%ymm0, %ymm24, %ymm0
	vprolq	$1, %ymm0, %ymm0
	vpaddq	%ymm23, %ymm29, %ymm29
	vmovdqa64	%ymm23, %ymm12
	vpaddq	%ymm0, %ymm29, %ymm29
	vpxorq	%ymm6, %ymm29, %ymm6
	vprolq	$32, %ymm6, %ymm6
	vpaddq	%ymm2, %ymm6, %ymm2
	vpxor	%ymm0, %ymm2, %ymm0
	vprolq	$40, %ymm0, %ymm0
	vpaddq	%ymm22, %ymm29, %ymm29
	vmovdqa64	%ymm22, %ymm23
	vpaddq	%ymm0, %ymm29, %ymm29
	vpxorq	%ymm6, %ymm29, %ymm6
	vprolq	$48, %ymm6, %ymm6
	vpaddq	%ymm6, %ymm2, %ymm2
	vpxor	%ymm0, %ymm2, %ymm0
	vprolq	$1, %ymm0, %ymm0
	vpaddq	%ymm5, %ymm11, %ymm5
	vpaddq	%ymm4, %ymm5, %ymm5
	vpxor	%ymm5, %ymm8, %ymm8
	vprolq	$32, %ymm8, %ymm8
	vpaddq	%ymm24, %ymm8, %ymm24
	vpxorq	%ymm4, %ymm24, %ymm4
	vprolq	$40, %ymm4, %ymm4
	vpaddq	%ymm17, %ymm5, %ymm5
	vpaddq	%ymm4, %ymm5, %ymm5
	vpxor	%ymm5, %ymm8, %ymm8
	vprolq	$48, %ymm8, %ymm8
	vpaddq	%ymm8, %ymm24, %ymm24
	vpxorq	%ymm4, %ymm24, %ymm4
	vprolq	$1, %ymm4, %ymm4
	vpaddq	%ymm10, %ymm27, %ymm27
	vmovdqa64	%ymm10, %ymm17
	vpaddq	%ymm7, %ymm27, %ymm27
	vpxorq	%ymm3, %ymm27, %ymm3
	vprolq	$32, %ymm3, %ymm3
	vpaddq	%ymm25, %ymm3, %ymm25
	vpxorq	%ymm7, %ymm25, %ymm7
	vprolq	$40, %ymm7, %ymm7
	vpaddq	%ymm9, %ymm27, %ymm27
	vpaddq	%ymm7, %ymm27, %ymm27
	vpxorq	%ymm3, %ymm27, %ymm3
	vprolq	$48, %ymm3, %ymm3
	vpaddq	%ymm3, %ymm25, %ymm25
	vpxorq	%ymm7, %ymm25, %ymm7
	vprolq	$1, %ymm7, %ymm7
	vpaddq	%ymm14, %ymm28, %ymm28
	vpaddq	%ymm15, %ymm28, %ymm28
	vpxorq	%ymm1, %ymm28, %ymm1
	vprolq	$32, %ymm1, %ymm1
	vpaddq	%ymm26, %ymm1, %ymm26
	vpxorq	%ymm15, %ymm26, %ymm15
	vprolq	$40, %ymm15, %ymm15
	vpaddq	%ymm20, %ymm28, %ymm28
	vpaddq	%ymm15, %ymm28, %ymm28
	vpxorq	%ymm1, %ymm28, %ymm1
	vprolq	$48, %ymm1, %ymm1
	vpaddq	%ymm1, %ymm26, %ymm26
	vpxorq	%ymm15, %ymm26, %ymm15
	vprolq	$1, %ymm15, %ymm15
	vpaddq	%ymm13, %ymm29, %ymm29
	vpaddq	%ymm4, %ymm29, %ymm29
	vpxorq	%ymm1, %ymm29, %ymm1
	vprolq	$32, %ymm1, %ymm1
	vpaddq	%ymm25, %ymm1, %ymm25
	vpxorq	%ymm4, %ymm25, %ymm4
	vprolq	$40, %ymm4, %ymm4
	vpaddq	%ymm31, %ymm29, %ymm29
	vpaddq	%ymm4, %ymm29, %ymm29
	vpxorq	%ymm1, %ymm29, %ymm1
	vprolq	$48, %ymm1, %ymm10
	vpaddq	%ymm10, %ymm25, %ymm25
	vpxorq	%ymm4, %ymm25, %ymm4
	vprolq	$1, %ymm4, %ymm4
	vmovdqu64	256(%rsp), %ymm22
	vpaddq	%ymm22, %ymm5, %ymm5
	vpaddq	%ymm7, %ymm5, %ymm5
	vpxor	%ymm6, %ymm5, %ymm6
	vprolq	$32, %ymm6, %ymm6
	vpaddq	%ymm26, %ymm6, %ymm26
	vpxorq	%ymm7, %ymm26, %ymm7
	vprolq	$40, %ymm7, %ymm7
	vpaddq	%ymm16, %ymm5, %ymm5
	vpaddq	%ymm7, %ymm5, %ymm5
	vpxor	%ymm6, %ymm5, %ymm6
	vprolq	$48, %ymm6, %ymm6
	vpaddq	%ymm6, %ymm26, %ymm26
	vpxorq	%ymm7, %ymm26, %ymm7
	vprolq	$1, %ymm7, %ymm7
	vmovdqa64	%ymm30, %ymm1
	vpaddq	%ymm30, %ymm27, %ymm27
	vpaddq	%ymm15, %ymm27, %ymm27
	vpxorq	%ymm8, %ymm27, %ymm8
	vprolq	$32, %ymm8, %ymm8
	vpaddq	%ymm2, %ymm8, %ymm2
	vpxor	%ymm2, %ymm15, %ymm15
	vprolq	$40, %ymm15, %ymm15
	vmovdqa64	%ymm21, %ymm18
	vpaddq	%ymm21, %ymm27, %ymm27
	vpaddq	%ymm15, %ymm27, %ymm30
	vpxorq	%ymm8, %ymm30, %ymm8
	vprolq	$48, %ymm8, %ymm8
	vpaddq	%ymm2, %ymm8, %ymm2
	vpxor	%ymm2, %ymm15, %ymm15
	vprolq	$1, %ymm15, %ymm15
	vmovdqu64	%ymm19, 416(%rsp)
	vpaddq	%ymm19, %ymm28, %ymm27
	vpaddq	%ymm0, %ymm27, %ymm27
	vpxorq	%ymm3, %ymm27, %ymm3
	vprolq	$32, %ymm3, %ymm3
	vpaddq	%ymm24, %ymm3, %ymm24
	vpxorq	%ymm0, %ymm24, %ymm0
	vprolq	$40, %ymm0, %ymm0
	vmovdqu	160(%rsp), %ymm11
	vpaddq	%ymm11, %ymm27, %ymm27
	vpaddq	%ymm0, %ymm27, %ymm28
	vpxorq	%ymm3, %ymm28, %ymm3
	vprolq	$48, %ymm3, %ymm3
	vpaddq	%ymm3, %ymm24, %ymm27
	vpxorq	%ymm0, %ymm27, %ymm0
	vprolq	$1, %ymm0, %ymm0
	vpaddq	%ymm19, %ymm29, %ymm24
	vpaddq	%ymm0, %ymm24, %ymm24
	vpxorq	%ymm6, %ymm24, %ymm6
	vprolq	$32, %ymm6, %ymm6
	vpaddq	%ymm2, %ymm6, %ymm2
	vpxor	%ymm0, %ymm2, %ymm0
	vprolq	$40, %ymm0, %ymm0
	vpaddq	%ymm31, %ymm24, %ymm24
	vmovdqa64	%ymm31, %ymm21
	vpaddq	%ymm0, %ymm24, %ymm29
	vpxorq	%ymm6, %ymm29, %ymm6
	vprolq	$48, %ymm6, %ymm6
	vpaddq	%ymm6, %ymm2, %ymm24
	vpxorq	%ymm0, %ymm24, %ymm0
	vprolq	$1, %ymm0, %ymm9
	vpaddq	%ymm20, %ymm5, %ymm2
	vpaddq	%ymm4, %ymm2, %ymm2
	vpxor	%ymm2, %ymm8, %ymm5
	vprolq	$32, %ymm5, %ymm5
	vpaddq	%ymm27, %ymm5, %ymm8
	vpxor	%ymm4, %ymm8, %ymm4
	vprolq	$40, %ymm4, %ymm4
	vpaddq	%ymm18, %ymm2, %ymm2
	vpaddq	%ymm4, %ymm2, %ymm31
	vpxorq	%ymm5, %ymm31, %ymm2
	vprolq	$48, %ymm2, %ymm5
	vpaddq	%ymm5, %ymm8, %ymm27
	vpxorq	%ymm4, %ymm27, %ymm2
	vprolq	$1, %ymm2, %ymm2
	vpaddq	%ymm16, %ymm30, %ymm4
	vmovdqa64	%ymm16, %ymm14
	vpaddq	%ymm7, %ymm4, %ymm4
	vpxor	%ymm3, %ymm4, %ymm3
	vprolq	$32, %ymm3, %ymm3
	vpaddq	%ymm25, %ymm3, %ymm8
	vpxor	%ymm7, %ymm8, %ymm7
	vprolq	$40, %ymm7, %ymm7
	vpaddq	%ymm4, %ymm12, %ymm4
	vpaddq	%ymm7, %ymm4, %ymm4
	vpxor	%ymm3, %ymm4, %ymm3
	vprolq	$48, %ymm3, %ymm3
	vpaddq	%ymm3, %ymm8, %ymm8
	vpxor	%ymm7, %ymm8, %ymm7
	vprolq	$1, %ymm7, %ymm7
	vmovdqa64	%ymm1, %ymm16
	vpaddq	%ymm1, %ymm28, %ymm25
	vpaddq	%ymm15, %ymm25, %ymm25
	vpxorq	%ymm10, %ymm25, %ymm1
	vprolq	$32, %ymm1, %ymm1
	vpaddq	%ymm26, %ymm1, %ymm26
	vpxorq	%ymm15, %ymm26, %ymm15
	vprolq	$40, %ymm15, %ymm15
	vpaddq	%ymm11, %ymm25, %ymm25
	vpaddq	%ymm15, %ymm25, %ymm28
	vpxorq	%ymm1, %ymm28, %ymm1
	vprolq	$48, %ymm1, %ymm1
	vpaddq	%ymm1, %ymm26, %ymm26
	vpxorq	%ymm15, %ymm26, %ymm15
	vprolq	$1, %ymm15, %ymm15
	vpaddq	%ymm23, %ymm29, %ymm25
	vpaddq	%ymm2, %ymm25, %ymm25
	vpxorq	%ymm1, %ymm25, %ymm1
	vprolq	$32, %ymm1, %ymm1
	vpaddq	%ymm1, %ymm8, %ymm8
	vpxor	%ymm2, %ymm8, %ymm2
	vprolq	$40, %ymm2, %ymm29
	vmovdqa64	%ymm17, %ymm10
	vpaddq	%ymm17, %ymm25, %ymm2
	vpaddq	%ymm29, %ymm2, %ymm0
	vpxor	%ymm1, %ymm0, %ymm1
	vprolq	$48, %ymm1, %ymm2
	vpaddq	%ymm2, %ymm8, %ymm25
	vpxorq	%ymm29, %ymm25, %ymm1
	vprolq	$1, %ymm1, %ymm1
	vmovdqu64	128(%rsp), %ymm19
	vpaddq	%ymm19, %ymm31, %ymm8
	vpaddq	%ymm7, %ymm8, %ymm8
	vpxor	%ymm6, %ymm8, %ymm6
	vprolq	$32, %ymm6, %ymm6
	vpaddq	%ymm26, %ymm6, %ymm26
	vpxorq	%ymm7, %ymm26, %ymm7
	vprolq	$40, %ymm7, %ymm7
	vmovdqu64	64(%rsp), %ymm23
	vpaddq	%ymm23, %ymm8, %ymm8
	vpaddq	%ymm7, %ymm8, %ymm8
	vpxor	%ymm6, %ymm8, %ymm6
	vprolq	$48, %ymm6, %ymm6
	vpaddq	%ymm6, %ymm26, %ymm30
	vpxorq	%ymm7, %ymm30, %ymm7
	vprolq	$1, %ymm7, %ymm7
	vmovdqu64	(%rsp), %ymm17
	vpaddq	%ymm17, %ymm4, %ymm4
	vpaddq	%ymm4, %ymm15, %ymm4
	vpxor	%ymm5, %ymm4, %ymm5
	vprolq	$32, %ymm5, %ymm5
	vpaddq	%ymm24, %ymm5, %ymm24
	vpxorq	%ymm15, %ymm24, %ymm15
	vprolq	$40, %ymm15, %ymm15
	vpaddq	%ymm4, %ymm13, %ymm4
	vpaddq	%ymm15, %ymm4, %ymm31
	vpxorq	%ymm5, %ymm31, %ymm4
	vprolq	$48, %ymm4, %ymm4
	vpaddq	%ymm4, %ymm24, %ymm5
	vpxor	%ymm5, %ymm15, %ymm15
	vprolq	$1, %ymm15, %ymm15
	vpaddq	%ymm22, %ymm28, %ymm24
	vpaddq	%ymm9, %ymm24, %ymm24
	vpxorq	%ymm3, %ymm24, %ymm3
	vprolq	$32, %ymm3, %ymm3
	vpaddq	%ymm27, %ymm3, %ymm26
	vpxorq	%ymm9, %ymm26, %ymm9
	vprolq	$40, %ymm9, %ymm9
	vmovdqu	32(%rsp), %ymm13
	vpaddq	%ymm13, %ymm24, %ymm24
	vpaddq	%ymm9, %ymm24, %ymm29
	vpxorq	%ymm3, %ymm29, %ymm3
	vprolq	$48, %ymm3, %ymm3
	vpaddq	%ymm3, %ymm26, %ymm24
	vpxorq	%ymm9, %ymm24, %ymm9
	vprolq	$1, %ymm9, %ymm9
	vpaddq	%ymm0, %ymm13, %ymm0
	vpaddq	%ymm0, %ymm9, %ymm0
	vpxor	%ymm6, %ymm0, %ymm6
	vprolq	$32, %ymm6, %ymm6
	vpaddq	%ymm5, %ymm6, %ymm26
	vpxorq	%ymm9, %ymm26, %ymm5
	vprolq	$40, %ymm5, %ymm27
	vpaddq	%ymm16, %ymm0, %ymm0
	vpaddq	%ymm27, %ymm0, %ymm9
	vpxor	%ymm6, %ymm9, %ymm6
	vpaddq	%ymm21, %ymm8, %ymm0
	vpaddq	%ymm1, %ymm0, %ymm0
	vpxor	%ymm4, %ymm0, %ymm4
	vprolq	$32, %ymm4, %ymm5
	vpaddq	%ymm24, %ymm5, %ymm8
	vpxor	%ymm1, %ymm8, %ymm1
	vprolq	$40, %ymm1, %ymm1
	vpaddq	%ymm17, %ymm0, %ymm0
	vpaddq	%ymm1, %ymm0, %ymm4
	vpxor	%ymm5, %ymm4, %ymm0
	vprolq	$48, %ymm0, %ymm24
	vpaddq	%ymm24, %ymm8, %ymm28
	vpxorq	%ymm1, %ymm28, %ymm0
	vprolq	$1, %ymm0, %ymm8
	vpaddq	%ymm18, %ymm31, %ymm0
	vpaddq	%ymm7, %ymm0, %ymm0
	vpxor	%ymm3, %ymm0, %ymm1
	vprolq	$32, %ymm1, %ymm1
	vpaddq	%ymm25, %ymm1, %ymm5
	vpxor	%ymm7, %ymm5, %ymm3
	vprolq	$40, %ymm3, %ymm7
	vpaddq	%ymm0, %ymm11, %ymm0
	vpaddq	%ymm7, %ymm0, %ymm25
	vpxorq	%ymm1, %ymm25, %ymm0
	vprolq	$48, %ymm0, %ymm3
	vpaddq	%ymm3, %ymm5, %ymm31
	vpxorq	%ymm7, %ymm31, %ymm5
	vpaddq	%ymm12, %ymm29, %ymm0
	vpaddq	%ymm0, %ymm15, %ymm1
	vpxor	%ymm2, %ymm1, %ymm0
	vprolq	$32, %ymm0, %ymm2
	vpaddq	%ymm30, %ymm2, %ymm7
	vpxor	%ymm7, %ymm15, %ymm0
	vprolq	$40, %ymm0, %ymm0
	vpaddq	%ymm1, %ymm14, %ymm1
	vpaddq	%ymm0, %ymm1, %ymm15
	vpxor	%ymm2, %ymm15, %ymm1
	vprolq	$48, %ymm1, %ymm2
	vpaddq	%ymm2, %ymm7, %ymm1
	vmovdqa64	%ymm20, %ymm17
	vpaddq	%ymm20, %ymm9, %ymm7
	vpaddq	%ymm7, %ymm8, %ymm7
	vpxor	%ymm2, %ymm7, %ymm2
	vprolq	$32, %ymm2, %ymm2
	vpaddq	%ymm31, %ymm2, %ymm30
	vpxorq	%ymm8, %ymm30, %ymm8
	vprolq	$40, %ymm8, %ymm31
	vpaddq	%ymm19, %ymm7, %ymm7
	vpaddq	%ymm31, %ymm7, %ymm7
	vpxor	%ymm2, %ymm7, %ymm2
	vpaddq	%ymm23, %ymm15, %ymm8
	vpaddq	%ymm23, %ymm7, %ymm7
	vprolq	$48, %ymm6, %ymm6
	vpaddq	%ymm6, %ymm26, %ymm9
	vpxorq	%ymm27, %ymm9, %ymm15
	vprolq	$1, %ymm15, %ymm15
	vprolq	$1, %ymm5, %ymm5
	vpxorq	%ymm0, %ymm1, %ymm27
	vmovdqu	416(%rsp), %ymm11
	vpaddq	%ymm4, %ymm11, %ymm0
	vpaddq	%ymm5, %ymm0, %ymm0
	vpxor	%ymm6, %ymm0, %ymm4
	vprolq	$32, %ymm4, %ymm4
	vpaddq	%ymm1, %ymm4, %ymm1
	vpxor	%ymm5, %ymm1, %ymm5
	vprolq	$40, %ymm5, %ymm5
	vpaddq	%ymm0, %ymm10, %ymm0
	vmovdqa	%ymm10, %ymm13
	vpaddq	%ymm5, %ymm0, %ymm6
	vpxor	%ymm4, %ymm6, %ymm0
	vprolq	$48, %ymm0, %ymm4
	vpaddq	%ymm4, %ymm1, %ymm23
	vpaddq	%ymm15, %ymm8, %ymm0
	vpxor	%ymm3, %ymm0, %ymm1
	vprolq	$32, %ymm1, %ymm1
	vpaddq	%ymm28, %ymm1, %ymm3
	vpxor	%ymm3, %ymm15, %ymm8
	vprolq	$40, %ymm8, %ymm8
	vmovdqu64	288(%rsp), %ymm16
	vpaddq	%ymm16, %ymm0, %ymm0
	vpaddq	%ymm8, %ymm0, %ymm26
	vpxorq	%ymm1, %ymm26, %ymm0
	vprolq	$48, %ymm0, %ymm15
	vpaddq	%ymm3, %ymm15, %ymm0
	vpxor	%ymm0, %ymm8, %ymm1
	vprolq	$1, %ymm1, %ymm1
	vpaddq	%ymm1, %ymm7, %ymm7
	vpxor	%ymm4, %ymm7, %ymm3
	vpaddq	%ymm7, %ymm11, %ymm4
	vpaddq	%ymm18, %ymm6, %ymm6
	vprolq	$1, %ymm27, %ymm7
	vprolq	$48, %ymm2, %ymm8
	vpaddq	%ymm8, %ymm30, %ymm20
	vpxorq	%ymm31, %ymm20, %ymm2
	vprolq	$1, %ymm2, %ymm2
	vmovdqu	96(%rsp), %ymm11
	vpaddq	%ymm11, %ymm25, %ymm21
	vpaddq	%ymm7, %ymm21, %ymm21
	vpxorq	%ymm24, %ymm21, %ymm24
	vprolq	$32, %ymm24, %ymm24
	vpaddq	%ymm9, %ymm24, %ymm9
	vpxor	%ymm7, %ymm9, %ymm7
	vprolq	$40, %ymm7, %ymm7
	vpaddq	%ymm22, %ymm21, %ymm21
	vpaddq	%ymm7, %ymm21, %ymm21
	vpxorq	%ymm24, %ymm21, %ymm24
	vprolq	$48, %ymm24, %ymm24
	vpaddq	%ymm24, %ymm9, %ymm9
	vpaddq	%ymm2, %ymm6, %ymm6
	vpxorq	%ymm24, %ymm6, %ymm24
	vpaddq	%ymm17, %ymm6, %ymm6
	vpaddq	%ymm19, %ymm21, %ymm17
	vpxorq	%ymm5, %ymm23, %ymm5
	vprolq	$1, %ymm5, %ymm5
	vpaddq	%ymm5, %ymm17, %ymm17
	vpxorq	%ymm15, %ymm17, %ymm15
	vpaddq	%ymm16, %ymm17, %ymm19
	vpaddq	%ymm22, %ymm26, %ymm17
	vpxor	%ymm7, %ymm9, %ymm7
	vprolq	$1, %ymm7, %ymm7
	vpaddq	%ymm7, %ymm17, %ymm17
	vpxorq	%ymm8, %ymm17, %ymm8
	vpaddq	%ymm12, %ymm17, %ymm18
	vprolq	$32, %ymm3, %ymm3
	vpaddq	%ymm3, %ymm9, %ymm9
	vpxor	%ymm1, %ymm9, %ymm1
	vprolq	$40, %ymm1, %ymm16
	vpaddq	%ymm16, %ymm4, %ymm1
	vpxor	%ymm3, %ymm1, %ymm3
	vpaddq	320(%rsp), %ymm1, %ymm1
	vprolq	$32, %ymm24, %ymm4
	vpaddq	%ymm0, %ymm4, %ymm0
	vpxor	%ymm2, %ymm0, %ymm2
	vprolq	$40, %ymm2, %ymm2
	vpaddq	%ymm2, %ymm6, %ymm17
	vpxorq	%ymm4, %ymm17, %ymm4
	vprolq	$48, %ymm4, %ymm4
	vpaddq	%ymm4, %ymm0, %ymm10
	vpxor	%ymm2, %ymm10, %ymm0
	vprolq	$1, %ymm0, %ymm6
	vprolq	$32, %ymm8, %ymm2
	vpaddq	%ymm23, %ymm2, %ymm8
	vpxor	%ymm7, %ymm8, %ymm0
	vprolq	$40, %ymm0, %ymm7
	vpaddq	%ymm7, %ymm18, %ymm0
	vpxor	%ymm2, %ymm0, %ymm2
	vprolq	$48, %ymm2, %ymm2
	vpaddq	%ymm2, %ymm8, %ymm18
	vpaddq	%ymm6, %ymm1, %ymm1
	vpxor	%ymm2, %ymm1, %ymm8
	vpaddq	%ymm11, %ymm1, %ymm21
	vprolq	$48, %ymm3, %ymm1
	vpaddq	%ymm1, %ymm9, %ymm3
	vprolq	$32, %ymm15, %ymm2
	vpaddq	%ymm20, %ymm2, %ymm9
	vpxor	%ymm5, %ymm9, %ymm5
	vprolq	$40, %ymm5, %ymm11
	vpaddq	%ymm11, %ymm19, %ymm15
	vpxor	%ymm2, %ymm15, %ymm2
	vprolq	$48, %ymm2, %ymm2
	vpaddq	%ymm2, %ymm9, %ymm5
	vpxorq	%ymm7, %ymm18, %ymm7
	vprolq	$1, %ymm7, %ymm7
	vprolq	$32, %ymm8, %ymm8
	vpaddq	%ymm13, %ymm15, %ymm9
	vpaddq	%ymm5, %ymm8, %ymm12
	vpxor	%ymm6, %ymm12, %ymm6
	vprolq	$40, %ymm6, %ymm15
	vpaddq	%ymm15, %ymm21, %ymm19
	vpaddq	%ymm7, %ymm9, %ymm6
	vpxor	%ymm4, %ymm6, %ymm4
	vprolq	$32, %ymm4, %ymm4
	vpaddq	%ymm6, %ymm14, %ymm6
	vpaddq	%ymm3, %ymm4, %ymm9
	vpxor	%ymm7, %ymm9, %ymm7
	vprolq	$40, %ymm7, %ymm13
	vpaddq	%ymm13, %ymm6, %ymm20
	vpxorq	%ymm4, %ymm20, %ymm4
	vprolq	$48, %ymm4, %ymm7
	vpaddq	%ymm7, %ymm9, %ymm4
	vpxor	%ymm4, %ymm13, %ymm6
	vpternlogq	$150, 512(%rsp), %ymm19, %ymm4
	vpxorq	%ymm8, %ymm19, %ymm8
	vprolq	$48, %ymm8, %ymm8
	vpaddq	%ymm8, %ymm12, %ymm9
	vpxor	%ymm15, %ymm9, %ymm12
	vpternlogq	$150, 448(%rsp), %ymm20, %ymm9
	vpxorq	%ymm16, %ymm3, %ymm3
	vpxor	%ymm5, %ymm11, %ymm5
	vpaddq	32(%rsp), %ymm17, %ymm11
	vprolq	$1, %ymm5, %ymm5
	vpaddq	%ymm5, %ymm11, %ymm11
	vpxor	%ymm1, %ymm11, %ymm1
	vpaddq	192(%rsp), %ymm11, %ymm11
	vpaddq	160(%rsp), %ymm0, %ymm0
	vprolq	$1, %ymm3, %ymm3
	vpaddq	%ymm3, %ymm0, %ymm0
	vpxor	%ymm2, %ymm0, %ymm2
	vpaddq	(%rsp), %ymm0, %ymm0
	vprolq	$32, %ymm1, %ymm1
	vpaddq	%ymm18, %ymm1, %ymm13
	vpxor	%ymm5, %ymm13, %ymm5
	vprolq	$40, %ymm5, %ymm5
	vpaddq	%ymm5, %ymm11, %ymm11
	vprolq	$32, %ymm2, %ymm2
	vpaddq	%ymm2, %ymm10, %ymm10
	vpxor	%ymm3, %ymm10, %ymm3
	vprolq	$40, %ymm3, %ymm3
	vpaddq	%ymm3, %ymm0, %ymm0
	vpxor	%ymm2, %ymm0, %ymm2
	vprolq	$48, %ymm2, %ymm2
	vpaddq	%ymm2, %ymm10, %ymm10
	vpxor	%ymm3, %ymm10, %ymm3
	vpternlogq	$150, 608(%rsp), %ymm11, %ymm10
	vpxor	%ymm1, %ymm11, %ymm1
	vprolq	$48, %ymm1, %ymm1
	vpaddq	%ymm1, %ymm13, %ymm11
	vpxor	%ymm5, %ymm11, %ymm5
	vpternlogq	$150, 480(%rsp), %ymm0, %ymm11
	vprolq	$1, %ymm3, %ymm0
	vpternlogq	$150, 672(%rsp), %ymm1, %ymm0
	vprolq	$1, %ymm12, %ymm1
	vpternlogq	$150, 640(%rsp), %ymm7, %ymm1
	vprolq	$1, %ymm5, %ymm3
	vpternlogq	$150, 576(%rsp), %ymm2, %ymm3
	vprolq	$1, %ymm6, %ymm2
	vpternlogq	$150, 544(%rsp), %ymm8, %ymm2
	vmovdqu	%ymm4, (%rdi)
	vmovdqu	%ymm10, 32(%rdi)
	vmovdqu	%ymm9, 64(%rdi)
	vmovdqu	%ymm11, 96(%rdi)
	vmovdqu	%ymm0, 128(%rdi)
	vmovdqu	%ymm1, 160(%rdi)
	vmovdqu	%ymm3, 192(%rdi)
	vmovdqu	%ymm2, 224(%rdi)
	addq	$712, %rsp
	vzeroupper
	vpxord	%xmm16, %xmm16, %xmm16
	vpxord	%xmm17, %xmm17, %xmm17
	vpxord	%xmm18, %xmm18, %xmm18
	vpxord	%xmm19, %xmm19, %xmm19
	vpxord	%xmm20, %xmm20, %xmm20
	vpxord	%xmm21, %xmm21, %xmm21
	vpxord	%xmm22, %xmm22, %xmm22
	vpxord	%xmm23, %xmm23, %xmm23
	vpxord	%xmm24, %xmm24, %xmm24
	vpxord	%xmm25, %xmm25, %xmm25
	vpxord	%xmm26, %xmm26, %xmm26
	vpxord	%xmm27, %xmm27, %xmm27
	vpxord	%xmm28, %xmm28, %xmm28
	vpxord	%xmm29, %xmm29, %xmm29
	vpxord	%xmm30, %xmm30, %xmm30
	vpxord	%xmm31, %xmm31, %xmm31
	retq
	vj_end	blake2_compress..many..blake2b..compress_each_1_v4

	vj_function	blake2_digest..wiping..scrub_stack..5632_1_v4
	pushq	%rbx
	subq	$3072, %rsp
	movq	$0, (%rsp)
	subq	$2560, %rsp
	movq	%rsp, %rbx
	movl	$5632, %edx
	movq	%rbx, %rdi
	xorl	%esi, %esi
	vj_c_call	memset
	movq	%rbx, %rdi
	callq	blake2_digest..wiping..settle..5632_1_v4
	addq	$5632, %rsp
	popq	%rbx
	vpxord	%xmm16, %xmm16, %xmm16
	vpxord	%xmm17, %xmm17, %xmm17
	vpxord	%xmm18, %xmm18, %xmm18
	vpxord	%xmm19, %xmm19, %xmm19
	vpxord	%xmm20, %xmm20, %xmm20
	vpxord	%xmm21, %xmm21, %xmm21
	vpxord	%xmm22, %xmm22, %xmm22
	vpxord	%xmm23, %xmm23, %xmm23
	vpxord	%xmm24, %xmm24, %xmm24
	vpxord	%xmm25, %xmm25, %xmm25
	vpxord	%xmm26, %xmm26, %xmm26
	vpxord	%xmm27, %xmm27, %xmm27
	vpxord	%xmm28, %xmm28, %xmm28
	vpxord	%xmm29, %xmm29, %xmm29
	vpxord	%xmm30, %xmm30, %xmm30
	vpxord	%xmm31, %xmm31, %xmm31
	retq
	vj_end	blake2_digest..wiping..scrub_stack..5632_1_v4

	vj_function	blake2_digest..wiping..settle..5632_1_v4
	vpxor	%xmm0, %xmm0, %xmm0
	movl	$480, %eax
	vpxor	%xmm2, %xmm2, %xmm2
	vpxor	%xmm3, %xmm3, %xmm3
	vpxor	%xmm1, %xmm1, %xmm1
	.p2align	4
1:
	vmovdqu	-480(%rdi,%rax), %ymm4
	vmovdqu	-448(%rdi,%rax), %ymm5
	vmovdqu	-416(%rdi,%rax), %ymm6
	vmovdqu	-384(%rdi,%rax), %ymm7
	vpternlogq	$254, -352(%rdi,%rax), %ymm2, %ymm4
	vpternlogq	$254, -320(%rdi,%rax), %ymm3, %ymm5
	vpternlogq	$254, -288(%rdi,%rax), %ymm1, %ymm6
	vpternlogq	$254, -256(%rdi,%rax), %ymm0, %ymm7
	vmovdqu	-224(%rdi,%rax), %ymm2
	vmovdqu	-192(%rdi,%rax), %ymm3
	vmovdqu	-160(%rdi,%rax), %ymm1
	vmovdqu	-128(%rdi,%rax), %ymm0
	vpternlogq	$254, -96(%rdi,%rax), %ymm4, %ymm2
	vpternlogq	$254, -64(%rdi,%rax), %ymm5, %ymm3
	vpternlogq	$254, -32(%rdi,%rax), %ymm6, %ymm1
	vpternlogq	$254, (%rdi,%rax), %ymm7, %ymm0
	addq	$512, %rax
	cmpq	$6112, %rax
	jne	1b
	vpor	%ymm2, %ymm3, %ymm2
	vpternlogq	$254, %ymm2, %ymm1, %ymm0
	vptest	%ymm0, %ymm0
	je	2f
	pause
2:
	vzeroupper
	retq
	vj_end	blake2_digest..wiping..settle..5632_1_v4

	vj_constants	32
	.p2align	5, 0x0
.L1_v4_CPI30_0:
	.quad	5840696475078001361
	.quad	-7276294671716946913
	.quad	2270897969802886507
	.quad	6620516959819538809
.L1_v4_CPI30_1:
	.zero	2
	.zero	2
	.zero	2
	.zero	2
	.short	0
	.short	0
	.short	0
	.short	0
	.short	16385
	.zero	2
	.zero	2
	.zero	2
	.zero	2
	.zero	2
	.zero	2
	.zero	2
.L1_v4_CPI30_2:
	.quad	7640891576956012808
	.quad	-4942790177534073029
	.quad	4354685564936845355
	.quad	-6534734903238641935
.L1_v4_CPI30_3:
	.zero	2
	.zero	2
	.zero	2
	.zero	2
	.short	0
	.short	0
	.short	0
	.short	0
	.short	16384
	.zero	2
	.zero	2
	.zero	2
	.zero	2
	.zero	2
	.zero	2
	.zero	2
	vj_function	blake2_ffi..blake2bp..initialize_1_v4
	pushq	%rbp
	movq	%rsp, %rbp
	pushq	%r15
	pushq	%r14
	pushq	%r13
	pushq	%r12
	pushq	%rbx
	andq	$-32, %rsp
	subq	$2816, %rsp
	movq	%r8, %rbx
	movq	%rcx, %r14
	movq	%rdx, %r8
	movq	24(%rbp), %r12
	movq	%rsi, 24(%rsp)
	leaq	-1(%rsi), %rax
	cmpq	$64, %rax
	setae	%al
	cmpq	$65, %rcx
	setae	%cl
	cmpq	$17, %r9
	setae	%dl
	orb	%cl, %dl
	orb	%al, %dl
	cmpq	$17, %r12
	setae	%al
	orb	%dl, %al
	jne	1f
	movq	%r9, %r13
	movq	%rdi, 16(%rsp)
	movq	16(%rbp), %r15
	vxorps	%xmm0, %xmm0, %xmm0
	vmovaps	%ymm0, 480(%rsp)
	leaq	480(%rsp), %rdi
	movq	%rbx, %rsi
	movq	%r9, %rdx
	movq	%r8, 8(%rsp)
	vzeroupper
	vj_c_call	memcpy
	leaq	496(%rsp), %rdi
	movq	%r15, %rsi
	movq	%r12, %rdx
	vj_c_call	memcpy
	vmovaps	480(%rsp), %ymm0
	vmovaps	%ymm0, 96(%rsp)
	vxorps	%xmm0, %xmm0, %xmm0
	vmovaps	%ymm0, 480(%rsp)
	leaq	480(%rsp), %rdi
	movq	%rbx, %rsi
	movq	%r13, %rdx
	vzeroupper
	vj_c_call	memcpy
	leaq	496(%rsp), %rdi
	movq	%r15, %rsi
	movq	%r12, %rdx
	vj_c_call	memcpy
	vmovaps	480(%rsp), %ymm0
	vmovaps	%ymm0, 32(%rsp)
	vxorps	%xmm0, %xmm0, %xmm0
	vmovaps	%ymm0, 128(%rsp)
	vmovaps	%ymm0, 160(%rsp)
	vmovaps	%ymm0, 192(%rsp)
	vmovaps	%ymm0, 224(%rsp)
	leaq	128(%rsp), %rdi
	movq	8(%rsp), %rsi
	movq	%r14, %rdx
	vzeroupper
	vj_c_call	memcpy
	testq	%r14, %r14
	je	2f
	vmovaps	128(%rsp), %ymm0
	vmovaps	160(%rsp), %ymm1
	vmovaps	192(%rsp), %ymm2
	vmovaps	224(%rsp), %ymm3
	vmovaps	%ymm3, 576(%rsp)
	vmovaps	%ymm2, 544(%rsp)
	vmovaps	%ymm1, 512(%rsp)
	vmovaps	%ymm0, 480(%rsp)
	vmovaps	%ymm0, 608(%rsp)
	vmovaps	%ymm1, 640(%rsp)
	vmovaps	%ymm2, 672(%rsp)
	vmovaps	%ymm3, 704(%rsp)
	vmovaps	%ymm0, 736(%rsp)
	vmovaps	%ymm1, 768(%rsp)
	vmovaps	%ymm2, 800(%rsp)
	vmovaps	%ymm3, 832(%rsp)
	vmovaps	%ymm0, 864(%rsp)
	vmovaps	%ymm1, 896(%rsp)
	vmovaps	%ymm2, 928(%rsp)
	vmovaps	%ymm3, 960(%rsp)
	vxorps	%xmm0, %xmm0, %xmm0
	vmovups	%ymm0, 1864(%rsp)
	vmovups	%ymm0, 1832(%rsp)
	vmovups	%ymm0, 1800(%rsp)
	vmovups	%ymm0, 1768(%rsp)
	vmovups	%ymm0, 1736(%rsp)
	vmovups	%ymm0, 1704(%rsp)
	vmovups	%ymm0, 1672(%rsp)
	vmovups	%ymm0, 1640(%rsp)
	vmovups	%ymm0, 1608(%rsp)
	vmovups	%ymm0, 1576(%rsp)
	vmovups	%ymm0, 1544(%rsp)
	vmovups	%ymm0, 1512(%rsp)
	leaq	1000(%rsp), %rdi
	leaq	480(%rsp), %rsi
	movl	$512, %eax
	movq	%rax, 8(%rsp)
	movl	$512, %edx
	vzeroupper
	vj_c_call	memcpy
	jmp	3f
1:
	movl	$1632, %edx
	xorl	%esi, %esi
	vj_c_call	memset
	movl	$-1, %eax
	jmp	4f
2:
	leaq	1000(%rsp), %rdi
	movq	$0, 8(%rsp)
	movl	$896, %edx
	xorl	%esi, %esi
	vj_c_call	memset
3:
	vmovaps	.L1_v4_CPI30_0(%rip), %ymm0
	vxorps	32(%rsp), %ymm0, %ymm1
	vmovaps	%ymm1, 448(%rsp)
	shll	$8, %r14d
	movq	24(%rsp), %r15
	leal	(%r14,%r15), %eax
	addl	$33816576, %eax
	vmovd	%eax, %xmm1
	movw	$496, %ax
	kmovd	%eax, %k1
	vpblendmw	.L1_v4_CPI30_1(%rip), %ymm1, %ymm2 {%k1}
	vmovdqa	.L1_v4_CPI30_2(%rip), %ymm3
	vpxor	%ymm3, %ymm2, %ymm2
	vmovdqa	%ymm2, 416(%rsp)
	vmovdqu16	.L1_v4_CPI30_3(%rip), %ymm1 {%k1}
	vpxor	%ymm3, %ymm1, %ymm1
	vmovdqa	%ymm1, 32(%rsp)
	vxorps	96(%rsp), %ymm0, %ymm0
	vmovaps	%ymm0, 64(%rsp)
	leaq	1896(%rsp), %rdi
	leaq	1000(%rsp), %rsi
	movl	$896, %edx
	vzeroupper
	vj_c_call	memcpy
	vmovdqa	32(%rsp), %ymm0
	vpbroadcastq	%xmm0, %ymm1
	vmovdqa	%ymm1, 96(%rsp)
	movq	16(%rsp), %r14
	vmovdqu	%ymm1, (%r14)
	vpextrq	$1, %xmm0, 32(%r14)
	movabsq	$-4942790177534073032, %r12
	leaq	2(%r12), %rax
	movq	%rax, 40(%r14)
	leaq	1(%r12), %rbx
	movq	%rbx, 48(%r14)
	movq	%r12, 56(%r14)
	vpermq	$170, %ymm0, %ymm1
	vmovdqa	%ymm1, 384(%rsp)
	vmovdqu	%ymm1, 64(%r14)
	vpermq	$255, %ymm0, %ymm1
	vmovdqa	%ymm1, 352(%rsp)
	vmovdqu	%ymm1, 96(%r14)
	vmovaps	64(%rsp), %ymm0
	vbroadcastsd	%xmm0, %ymm1
	vmovaps	%ymm1, 320(%rsp)
	vmovups	%ymm1, 128(%r14)
	vpermpd	$85, %ymm0, %ymm1
	vmovaps	%ymm1, 288(%rsp)
	vmovups	%ymm1, 160(%r14)
	vpermpd	$170, %ymm0, %ymm1
	vmovaps	%ymm1, 256(%rsp)
	vmovups	%ymm1, 192(%r14)
	vpermpd	$255, %ymm0, %ymm0
	vmovaps	%ymm0, 64(%rsp)
	vmovups	%ymm0, 224(%r14)
	movq	$0, 256(%r14)
	movq	8(%rsp), %r13
	movq	%r13, 264(%r14)
	leaq	272(%r14), %rdi
	movl	$896, %edx
	leaq	1896(%rsp), %rsi
	vzeroupper
	vj_c_call	memcpy
	vmovaps	96(%rsp), %ymm0
	vmovups	%ymm0, 1168(%r14)
	vmovdqa	32(%rsp), %ymm0
	vpextrq	$1, %xmm0, 1200(%r14)
	leaq	2(%r12), %rax
	movq	%rax, 1208(%r14)
	movq	%rbx, 1216(%r14)
	movq	%r12, 1224(%r14)
	vmovaps	384(%rsp), %ymm0
	vmovups	%ymm0, 1232(%r14)
	vmovaps	352(%rsp), %ymm0
	vmovups	%ymm0, 1264(%r14)
	vmovaps	320(%rsp), %ymm0
	vmovups	%ymm0, 1296(%r14)
	vmovaps	288(%rsp), %ymm0
	vmovups	%ymm0, 1328(%r14)
	vmovaps	256(%rsp), %ymm0
	vmovups	%ymm0, 1360(%r14)
	vmovaps	64(%rsp), %ymm0
	vmovups	%ymm0, 1392(%r14)
	vmovaps	416(%rsp), %ymm0
	vmovups	%ymm0, 1424(%r14)
	vmovaps	448(%rsp), %ymm0
	vmovups	%ymm0, 1456(%r14)
	movq	%r13, 1488(%r14)
	movq	%r15, 1496(%r14)
	vmovaps	128(%rsp), %ymm0
	vmovaps	160(%rsp), %ymm1
	vmovaps	192(%rsp), %ymm2
	vmovaps	224(%rsp), %ymm3
	vmovups	%ymm0, 1504(%r14)
	vmovups	%ymm1, 1536(%r14)
	vmovups	%ymm2, 1568(%r14)
	vmovups	%ymm3, 1600(%r14)
	xorl	%eax, %eax
4:
	leaq	-40(%rbp), %rsp
	popq	%rbx
	popq	%r12
	popq	%r13
	popq	%r14
	popq	%r15
	popq	%rbp
	vzeroupper
	retq
	vj_end	blake2_ffi..blake2bp..initialize_1_v4

	vj_function	blake2_digest..wiping..scrub_stack..5120_1_v4
	pushq	%rbx
	subq	$3072, %rsp
	movq	$0, (%rsp)
	subq	$2048, %rsp
	movq	%rsp, %rbx
	movl	$5120, %edx
	movq	%rbx, %rdi
	xorl	%esi, %esi
	vj_c_call	memset
	movq	%rbx, %rdi
	callq	blake2_digest..wiping..settle..5120_1_v4
	addq	$5120, %rsp
	popq	%rbx
	vpxord	%xmm16, %xmm16, %xmm16
	vpxord	%xmm17, %xmm17, %xmm17
	vpxord	%xmm18, %xmm18, %xmm18
	vpxord	%xmm19, %xmm19, %xmm19
	vpxord	%xmm20, %xmm20, %xmm20
	vpxord	%xmm21, %xmm21, %xmm21
	vpxord	%xmm22, %xmm22, %xmm22
	vpxord	%xmm23, %xmm23, %xmm23
	vpxord	%xmm24, %xmm24, %xmm24
	vpxord	%xmm25, %xmm25, %xmm25
	vpxord	%xmm26, %xmm26, %xmm26
	vpxord	%xmm27, %xmm27, %xmm27
	vpxord	%xmm28, %xmm28, %xmm28
	vpxord	%xmm29, %xmm29, %xmm29
	vpxord	%xmm30, %xmm30, %xmm30
	vpxord	%xmm31, %xmm31, %xmm31
	retq
	vj_end	blake2_digest..wiping..scrub_stack..5120_1_v4

	vj_function	blake2_digest..wiping..settle..5120_1_v4
	vpxor	%xmm0, %xmm0, %xmm0
	movl	$608, %eax
	vpxor	%xmm1, %xmm1, %xmm1
	vpxor	%xmm3, %xmm3, %xmm3
	vpxor	%xmm2, %xmm2, %xmm2
	.p2align	4
1:
	vpor	-608(%rdi,%rax), %ymm1, %ymm1
	vpor	-576(%rdi,%rax), %ymm3, %ymm3
	vpor	-544(%rdi,%rax), %ymm2, %ymm2
	vpor	-512(%rdi,%rax), %ymm0, %ymm0
	vmovdqu	-480(%rdi,%rax), %ymm4
	vmovdqu	-448(%rdi,%rax), %ymm5
	vmovdqu	-416(%rdi,%rax), %ymm6
	vmovdqu	-384(%rdi,%rax), %ymm7
	vpternlogq	$254, -352(%rdi,%rax), %ymm1, %ymm4
	vpternlogq	$254, -320(%rdi,%rax), %ymm3, %ymm5
	vpternlogq	$254, -288(%rdi,%rax), %ymm2, %ymm6
	vpternlogq	$254, -256(%rdi,%rax), %ymm0, %ymm7
	vmovdqu	-224(%rdi,%rax), %ymm1
	vmovdqu	-192(%rdi,%rax), %ymm3
	vmovdqu	-160(%rdi,%rax), %ymm2
	vmovdqu	-128(%rdi,%rax), %ymm0
	vpternlogq	$254, -96(%rdi,%rax), %ymm4, %ymm1
	vpternlogq	$254, -64(%rdi,%rax), %ymm5, %ymm3
	vpternlogq	$254, -32(%rdi,%rax), %ymm6, %ymm2
	vpternlogq	$254, (%rdi,%rax), %ymm7, %ymm0
	addq	$640, %rax
	cmpq	$5728, %rax
	jne	1b
	vpor	%ymm1, %ymm3, %ymm1
	vpternlogq	$254, %ymm1, %ymm2, %ymm0
	vptest	%ymm0, %ymm0
	je	2f
	pause
2:
	vzeroupper
	retq
	vj_end	blake2_digest..wiping..settle..5120_1_v4

	vj_function	blake2_ffi..blake2bp..reset_in_frame_1_v4
	pushq	%r15
	pushq	%r14
	pushq	%rbx
	subq	$1664, %rsp
	movq	%rdi, %rbx
	leaq	1168(%rdi), %r15
	movq	1488(%rdi), %r14
	testq	%r14, %r14
	je	1f
	vmovups	1504(%rbx), %ymm0
	vmovups	1536(%rbx), %ymm1
	vmovups	1568(%rbx), %ymm2
	vmovups	1600(%rbx), %ymm3
	vmovups	%ymm3, 352(%rsp)
	vmovups	%ymm2, 320(%rsp)
	vmovups	%ymm1, 288(%rsp)
	vmovups	%ymm0, 256(%rsp)
	vmovups	1504(%rbx), %ymm0
	vmovups	1536(%rbx), %ymm1
	vmovups	1568(%rbx), %ymm2
	vmovups	1600(%rbx), %ymm3
	vmovups	%ymm3, 480(%rsp)
	vmovups	%ymm2, 448(%rsp)
	vmovups	%ymm1, 416(%rsp)
	vmovups	%ymm0, 384(%rsp)
	vmovups	1504(%rbx), %ymm0
	vmovups	1536(%rbx), %ymm1
	vmovups	1568(%rbx), %ymm2
	vmovups	1600(%rbx), %ymm3
	vmovups	%ymm0, 512(%rsp)
	vmovups	%ymm1, 544(%rsp)
	vmovups	%ymm2, 576(%rsp)
	vmovups	%ymm3, 608(%rsp)
	vmovups	1504(%rbx), %ymm0
	vmovups	1536(%rbx), %ymm1
	vmovups	1568(%rbx), %ymm2
	vmovups	%ymm0, 640(%rsp)
	vmovups	%ymm1, 672(%rsp)
	vmovups	%ymm2, 704(%rsp)
	vmovups	1600(%rbx), %ymm0
	vmovups	%ymm0, 736(%rsp)
	vxorps	%xmm0, %xmm0, %xmm0
	vmovups	%ymm0, 1280(%rsp)
	vmovups	%ymm0, 1312(%rsp)
	vmovups	%ymm0, 1344(%rsp)
	vmovups	%ymm0, 1376(%rsp)
	vmovups	%ymm0, 1408(%rsp)
	vmovups	%ymm0, 1440(%rsp)
	vmovups	%ymm0, 1472(%rsp)
	vmovups	%ymm0, 1504(%rsp)
	vmovups	%ymm0, 1536(%rsp)
	vmovups	%ymm0, 1568(%rsp)
	vmovups	%ymm0, 1600(%rsp)
	vmovups	%ymm0, 1632(%rsp)
	leaq	768(%rsp), %rdi
	leaq	256(%rsp), %rsi
	movl	$512, %edx
	vzeroupper
	vj_c_call	memcpy
	vmovups	(%r15), %ymm0
	vmovups	32(%r15), %ymm1
	vmovups	64(%r15), %ymm2
	vmovups	96(%r15), %ymm3
	vmovups	%ymm0, (%rsp)
	vmovups	%ymm1, 32(%rsp)
	vmovups	%ymm2, 64(%rsp)
	vmovups	%ymm3, 96(%rsp)
	vmovups	128(%r15), %ymm0
	vmovups	%ymm0, 128(%rsp)
	vmovups	160(%r15), %ymm0
	vmovups	%ymm0, 160(%rsp)
	vmovups	192(%r15), %ymm0
	vmovups	%ymm0, 192(%rsp)
	vmovups	224(%r15), %ymm0
	vmovups	%ymm0, 224(%rsp)
	jmp	2f
1:
	vmovups	224(%r15), %ymm0
	vmovups	%ymm0, 224(%rsp)
	vmovups	192(%r15), %ymm0
	vmovups	%ymm0, 192(%rsp)
	vmovups	160(%r15), %ymm0
	vmovups	%ymm0, 160(%rsp)
	vmovups	128(%r15), %ymm0
	vmovups	%ymm0, 128(%rsp)
	vmovups	(%r15), %ymm0
	vmovups	32(%r15), %ymm1
	vmovups	64(%r15), %ymm2
	vmovups	96(%r15), %ymm3
	vmovups	%ymm3, 96(%rsp)
	vmovups	%ymm2, 64(%rsp)
	vmovups	%ymm1, 32(%rsp)
	vmovups	%ymm0, (%rsp)
	leaq	768(%rsp), %rdi
	movl	$896, %edx
	xorl	%esi, %esi
	vzeroupper
	vj_c_call	memset
2:
	vmovups	224(%rsp), %ymm0
	vmovups	%ymm0, 224(%rbx)
	vmovups	192(%rsp), %ymm0
	vmovups	%ymm0, 192(%rbx)
	vmovups	160(%rsp), %ymm0
	vmovups	%ymm0, 160(%rbx)
	vmovups	128(%rsp), %ymm0
	vmovups	%ymm0, 128(%rbx)
	vmovups	(%rsp), %ymm0
	vmovups	32(%rsp), %ymm1
	vmovups	64(%rsp), %ymm2
	vmovups	96(%rsp), %ymm3
	vmovups	%ymm3, 96(%rbx)
	vmovups	%ymm2, 64(%rbx)
	vmovups	%ymm1, 32(%rbx)
	vmovups	%ymm0, (%rbx)
	movq	$0, 256(%rbx)
	movq	%r14, 264(%rbx)
	addq	$272, %rbx
	leaq	768(%rsp), %rsi
	movl	$896, %edx
	movq	%rbx, %rdi
	vzeroupper
	vj_c_call	memcpy
	addq	$1664, %rsp
	popq	%rbx
	popq	%r14
	popq	%r15
	retq
	vj_end	blake2_ffi..blake2bp..reset_in_frame_1_v4

	vj_function	blake2_digest..wiping..scrub_stack..1792_1_v4
	pushq	%rbx
	subq	$1792, %rsp
	movq	%rsp, %rbx
	movl	$1792, %edx
	movq	%rbx, %rdi
	xorl	%esi, %esi
	vj_c_call	memset
	movq	%rbx, %rdi
	callq	blake2_digest..wiping..settle..1792_1_v4
	addq	$1792, %rsp
	popq	%rbx
	vpxord	%xmm16, %xmm16, %xmm16
	vpxord	%xmm17, %xmm17, %xmm17
	vpxord	%xmm18, %xmm18, %xmm18
	vpxord	%xmm19, %xmm19, %xmm19
	vpxord	%xmm20, %xmm20, %xmm20
	vpxord	%xmm21, %xmm21, %xmm21
	vpxord	%xmm22, %xmm22, %xmm22
	vpxord	%xmm23, %xmm23, %xmm23
	vpxord	%xmm24, %xmm24, %xmm24
	vpxord	%xmm25, %xmm25, %xmm25
	vpxord	%xmm26, %xmm26, %xmm26
	vpxord	%xmm27, %xmm27, %xmm27
	vpxord	%xmm28, %xmm28, %xmm28
	vpxord	%xmm29, %xmm29, %xmm29
	vpxord	%xmm30, %xmm30, %xmm30
	vpxord	%xmm31, %xmm31, %xmm31
	retq
	vj_end	blake2_digest..wiping..scrub_stack..1792_1_v4

	vj_function	blake2_digest..wiping..settle..1792_1_v4
	vmovdqu	128(%rdi), %ymm0
	vmovdqu	160(%rdi), %ymm1
	vmovdqu	192(%rdi), %ymm2
	vmovdqu	224(%rdi), %ymm3
	vpor	32(%rdi), %ymm1, %ymm1
	vpor	64(%rdi), %ymm2, %ymm2
	vpor	96(%rdi), %ymm3, %ymm3
	vmovdqu	256(%rdi), %ymm4
	vmovdqu	288(%rdi), %ymm5
	vmovdqu	320(%rdi), %ymm6
	vmovdqu	352(%rdi), %ymm7
	vpternlogq	$254, (%rdi), %ymm0, %ymm4
	vpternlogq	$254, 416(%rdi), %ymm1, %ymm5
	vpternlogq	$254, 448(%rdi), %ymm2, %ymm6
	vmovdqu	384(%rdi), %ymm0
	vpternlogq	$254, 480(%rdi), %ymm3, %ymm7
	vmovdqu	544(%rdi), %ymm1
	vmovdqu	576(%rdi), %ymm2
	vmovdqu	608(%rdi), %ymm3
	vpternlogq	$254, 512(%rdi), %ymm4, %ymm0
	vpternlogq	$254, 672(%rdi), %ymm5, %ymm1
	vpternlogq	$254, 704(%rdi), %ymm6, %ymm2
	vmovdqu	640(%rdi), %ymm4
	vpternlogq	$254, 736(%rdi), %ymm7, %ymm3
	vmovdqu	800(%rdi), %ymm5
	vmovdqu	832(%rdi), %ymm6
	vmovdqu	864(%rdi), %ymm7
	vpternlogq	$254, 768(%rdi), %ymm0, %ymm4
	vpternlogq	$254, 928(%rdi), %ymm1, %ymm5
	vpternlogq	$254, 960(%rdi), %ymm2, %ymm6
	vmovdqu	896(%rdi), %ymm0
	vpternlogq	$254, 992(%rdi), %ymm3, %ymm7
	vmovdqu	1056(%rdi), %ymm1
	vmovdqu	1088(%rdi), %ymm2
	vmovdqu	1120(%rdi), %ymm3
	vpternlogq	$254, 1024(%rdi), %ymm4, %ymm0
	vpternlogq	$254, 1184(%rdi), %ymm5, %ymm1
	vpternlogq	$254, 1216(%rdi), %ymm6, %ymm2
	vmovdqu	1152(%rdi), %ymm4
	vpternlogq	$254, 1248(%rdi), %ymm7, %ymm3
	vmovdqu	1312(%rdi), %ymm5
	vmovdqu	1344(%rdi), %ymm6
	vmovdqu	1376(%rdi), %ymm7
	vpternlogq	$254, 1280(%rdi), %ymm0, %ymm4
	vpternlogq	$254, 1440(%rdi), %ymm1, %ymm5
	vpternlogq	$254, 1472(%rdi), %ymm2, %ymm6
	vmovdqu	1408(%rdi), %ymm0
	vpternlogq	$254, 1504(%rdi), %ymm3, %ymm7
	vmovdqu	1568(%rdi), %ymm1
	vmovdqu	1600(%rdi), %ymm2
	vmovdqu	1632(%rdi), %ymm3
	vpternlogq	$254, 1536(%rdi), %ymm4, %ymm0
	vpternlogq	$254, 1696(%rdi), %ymm5, %ymm1
	vpternlogq	$254, 1728(%rdi), %ymm6, %ymm2
	vpternlogq	$254, 1760(%rdi), %ymm7, %ymm3
	vpternlogq	$254, 1664(%rdi), %ymm0, %ymm1
	vpternlogq	$254, %ymm3, %ymm2, %ymm1
	vptest	%ymm1, %ymm1
	je	1f
	pause
1:
	vzeroupper
	retq
	vj_end	blake2_digest..wiping..settle..1792_1_v4

	vj_function	blake2_ffi..blake2bp..update_scrubbed_1_v4
	pushq	%rax
	callq	blake2_ffi..blake2bp..update_in_frame_1_v4
	popq	%rax
	jmp	blake2_digest..wiping..scrub_stack..3072_1_v4
	vj_end	blake2_ffi..blake2bp..update_scrubbed_1_v4

	vj_function	blake2_ffi..blake2bp..update_in_frame_1_v4
	vj_jump	blake2_parallel..lanes..blake2bp..Lanes..update_1_v4
	vj_end	blake2_ffi..blake2bp..update_in_frame_1_v4

	vj_function	blake2_digest..wiping..scrub_stack..3072_1_v4
	pushq	%rbx
	subq	$3072, %rsp
	movq	%rsp, %rbx
	movl	$3072, %edx
	movq	%rbx, %rdi
	xorl	%esi, %esi
	vj_c_call	memset
	movq	%rbx, %rdi
	callq	blake2_digest..wiping..settle..3072_1_v4
	addq	$3072, %rsp
	popq	%rbx
	vpxord	%xmm16, %xmm16, %xmm16
	vpxord	%xmm17, %xmm17, %xmm17
	vpxord	%xmm18, %xmm18, %xmm18
	vpxord	%xmm19, %xmm19, %xmm19
	vpxord	%xmm20, %xmm20, %xmm20
	vpxord	%xmm21, %xmm21, %xmm21
	vpxord	%xmm22, %xmm22, %xmm22
	vpxord	%xmm23, %xmm23, %xmm23
	vpxord	%xmm24, %xmm24, %xmm24
	vpxord	%xmm25, %xmm25, %xmm25
	vpxord	%xmm26, %xmm26, %xmm26
	vpxord	%xmm27, %xmm27, %xmm27
	vpxord	%xmm28, %xmm28, %xmm28
	vpxord	%xmm29, %xmm29, %xmm29
	vpxord	%xmm30, %xmm30, %xmm30
	vpxord	%xmm31, %xmm31, %xmm31
	retq
	vj_end	blake2_digest..wiping..scrub_stack..3072_1_v4

	vj_function	blake2_digest..wiping..settle..3072_1_v4
	vmovdqu	128(%rdi), %ymm0
	vmovdqu	160(%rdi), %ymm1
	vmovdqu	192(%rdi), %ymm2
	vmovdqu	224(%rdi), %ymm3
	vpor	32(%rdi), %ymm1, %ymm1
	vpor	64(%rdi), %ymm2, %ymm2
	vpor	96(%rdi), %ymm3, %ymm3
	vmovdqu	256(%rdi), %ymm4
	vmovdqu	288(%rdi), %ymm5
	vmovdqu	320(%rdi), %ymm6
	vmovdqu	352(%rdi), %ymm7
	vpternlogq	$254, (%rdi), %ymm0, %ymm4
	vpternlogq	$254, 416(%rdi), %ymm1, %ymm5
	vpternlogq	$254, 448(%rdi), %ymm2, %ymm6
	vmovdqu	384(%rdi), %ymm0
	vpternlogq	$254, 480(%rdi), %ymm3, %ymm7
	vmovdqu	544(%rdi), %ymm1
	vmovdqu	576(%rdi), %ymm2
	vmovdqu	608(%rdi), %ymm3
	vpternlogq	$254, 512(%rdi), %ymm4, %ymm0
	vpternlogq	$254, 672(%rdi), %ymm5, %ymm1
	vpternlogq	$254, 704(%rdi), %ymm6, %ymm2
	vmovdqu	640(%rdi), %ymm4
	vpternlogq	$254, 736(%rdi), %ymm7, %ymm3
	vmovdqu	800(%rdi), %ymm5
	vmovdqu	832(%rdi), %ymm6
	vmovdqu	864(%rdi), %ymm7
	vpternlogq	$254, 768(%rdi), %ymm0, %ymm4
	vpternlogq	$254, 928(%rdi), %ymm1, %ymm5
	vpternlogq	$254, 960(%rdi), %ymm2, %ymm6
	vmovdqu	896(%rdi), %ymm0
	vpternlogq	$254, 992(%rdi), %ymm3, %ymm7
	vmovdqu	1056(%rdi), %ymm1
	vmovdqu	1088(%rdi), %ymm2
	vmovdqu	1120(%rdi), %ymm3
	vpternlogq	$254, 1024(%rdi), %ymm4, %ymm0
	vpternlogq	$254, 1184(%rdi), %ymm5, %ymm1
	vpternlogq	$254, 1216(%rdi), %ymm6, %ymm2
	vmovdqu	1152(%rdi), %ymm4
	vpternlogq	$254, 1248(%rdi), %ymm7, %ymm3
	vmovdqu	1312(%rdi), %ymm5
	vmovdqu	1344(%rdi), %ymm6
	vmovdqu	1376(%rdi), %ymm7
	vpternlogq	$254, 1280(%rdi), %ymm0, %ymm4
	vpternlogq	$254, 1440(%rdi), %ymm1, %ymm5
	vpternlogq	$254, 1472(%rdi), %ymm2, %ymm6
	vmovdqu	1408(%rdi), %ymm0
	vpternlogq	$254, 1504(%rdi), %ymm3, %ymm7
	vmovdqu	1568(%rdi), %ymm1
	vmovdqu	1600(%rdi), %ymm2
	vmovdqu	1632(%rdi), %ymm3
	vpternlogq	$254, 1536(%rdi), %ymm4, %ymm0
	vpternlogq	$254, 1696(%rdi), %ymm5, %ymm1
	vpternlogq	$254, 1728(%rdi), %ymm6, %ymm2
	vmovdqu	1664(%rdi), %ymm4
	vpternlogq	$254, 1760(%rdi), %ymm7, %ymm3
	vmovdqu	1824(%rdi), %ymm5
	vmovdqu	1856(%rdi), %ymm6
	vmovdqu	1888(%rdi), %ymm7
	vpternlogq	$254, 1792(%rdi), %ymm0, %ymm4
	vpternlogq	$254, 1952(%rdi), %ymm1, %ymm5
	vpternlogq	$254, 1984(%rdi), %ymm2, %ymm6
	vmovdqu	1920(%rdi), %ymm0
	vpternlogq	$254, 2016(%rdi), %ymm3, %ymm7
	vmovdqu	2080(%rdi), %ymm1
	vmovdqu	2112(%rdi), %ymm2
	vmovdqu	2144(%rdi), %ymm3
	vpternlogq	$254, 2048(%rdi), %ymm4, %ymm0
	vpternlogq	$254, 2208(%rdi), %ymm5, %ymm1
	vpternlogq	$254, 2240(%rdi), %ymm6, %ymm2
	vmovdqu	2176(%rdi), %ymm4
	vpternlogq	$254, 2272(%rdi), %ymm7, %ymm3
	vmovdqu	2336(%rdi), %ymm5
	vmovdqu	2368(%rdi), %ymm6
	vmovdqu	2400(%rdi), %ymm7
	vpternlogq	$254, 2304(%rdi), %ymm0, %ymm4
	vpternlogq	$254, 2464(%rdi), %ymm1, %ymm5
	vpternlogq	$254, 2496(%rdi), %ymm2, %ymm6
	vmovdqu	2432(%rdi), %ymm0
	vpternlogq	$254, 2528(%rdi), %ymm3, %ymm7
	vmovdqu	2592(%rdi), %ymm1
	vmovdqu	2624(%rdi), %ymm2
	vmovdqu	2656(%rdi), %ymm3
	vpternlogq	$254, 2560(%rdi), %ymm4, %ymm0
	vpternlogq	$254, 2720(%rdi), %ymm5, %ymm1
	vpternlogq	$254, 2752(%rdi), %ymm6, %ymm2
	vmovdqu	2688(%rdi), %ymm4
	vpternlogq	$254, 2784(%rdi), %ymm7, %ymm3
	vmovdqu	2848(%rdi), %ymm5
	vmovdqu	2880(%rdi), %ymm6
	vmovdqu	2912(%rdi), %ymm7
	vpternlogq	$254, 2816(%rdi), %ymm0, %ymm4
	vpternlogq	$254, 2976(%rdi), %ymm1, %ymm5
	vpternlogq	$254, 3008(%rdi), %ymm2, %ymm6
	vpternlogq	$254, 3040(%rdi), %ymm3, %ymm7
	vpternlogq	$254, 2944(%rdi), %ymm4, %ymm5
	vpternlogq	$254, %ymm7, %ymm6, %ymm5
	vptest	%ymm5, %ymm5
	je	1f
	pause
1:
	vzeroupper
	retq
	vj_end	blake2_digest..wiping..settle..3072_1_v4

	vj_shared	blake2_parallel..lanes..blake2bp..Lanes..update_1_v4
	pushq	%rbp
	pushq	%r15
	pushq	%r14
	pushq	%r13
	pushq	%r12
	pushq	%rbx
	subq	$264, %rsp
	movq	%rdx, %rbx
	movq	%rsi, %r15
	movq	%rdi, %r14
	movq	264(%rdi), %r13
	movl	$896, %eax
	subq	%r13, %rax
	cmpq	%rdx, %rax
	jb	11f
1:
	leaq	(%r14,%r13), %rdi
	addq	$272, %rdi
	movq	%rdi, %rax
	subq	%r15, %rax
	cmpq	%rbx, %rax
	jae	23f
	cmpq	$8, %rbx
	jb	2f
	leaq	(%r14,%r13), %rax
	subq	%r15, %rax
	addq	$272, %rax
	cmpq	$128, %rax
	jae	25f
2:
	xorl	%eax, %eax
3:
	movq	%rbx, %rdx
	movq	%rax, %rcx
	andq	$7, %rdx
	je	5f
	movq	%rax, %rcx
	.p2align	4
4:
	movzbl	(%r15,%rcx), %esi
	movb	%sil, (%rdi,%rcx)
	incq	%rcx
	decq	%rdx
	jne	4b
5:
	subq	%rbx, %rax
	cmpq	$-8, %rax
	ja	24f
	leaq	(%r14,%r13), %rax
	addq	$279, %rax
	.p2align	4
6:
	movzbl	(%r15,%rcx), %edx
	movb	%dl, -7(%rax,%rcx)
	movzbl	1(%r15,%rcx), %edx
	movb	%dl, -6(%rax,%rcx)
	movzbl	2(%r15,%rcx), %edx
	movb	%dl, -5(%rax,%rcx)
	movzbl	3(%r15,%rcx), %edx
	movb	%dl, -4(%rax,%rcx)
	movzbl	4(%r15,%rcx), %edx
	movb	%dl, -3(%rax,%rcx)
	movzbl	5(%r15,%rcx), %edx
	movb	%dl, -2(%rax,%rcx)
	movzbl	6(%r15,%rcx), %edx
	movb	%dl, -1(%rax,%rcx)
	movzbl	7(%r15,%rcx), %edx
	movb	%dl, (%rax,%rcx)
	addq	$8, %rcx
	cmpq	%rcx, %rbx
	jne	6b
	jmp	24f
7:
	movq	%r15, %rsi
	movq	%r12, %rdx
	vzeroupper
	vj_c_call	memmove
8:
	subq	%r12, %rbx
	addq	%r12, %r15
	movq	$512, 264(%r14)
9:
	movq	%r14, %rdi
	vzeroupper
	callq	blake2_parallel..lanes..blake2bp..Lanes..compress_held_1_v4
10:
	movq	264(%r14), %r13
	movl	$896, %eax
	subq	%r13, %rax
	cmpq	%rbx, %rax
	jae	1b
11:
	testq	%r13, %r13
	je	17f
	cmpq	$511, %r13
	ja	9b
	movl	$512, %r12d
	subq	%r13, %r12
	leaq	272(%r14), %rax
	leaq	(%rax,%r13), %rdi
	movq	%rdi, %rax
	subq	%r15, %rax
	cmpq	%r12, %rax
	jae	7b
	cmpq	$504, %r13
	ja	12f
	cmpq	$64, %rax
	jae	18f
12:
	xorl	%eax, %eax
13:
	movl	%r13d, %edx
	negl	%edx
	movq	%rax, %rcx
	andl	$7, %edx
	je	15f
	movq	%rax, %rcx
	.p2align	4
14:
	movzbl	(%r15,%rcx), %esi
	movb	%sil, (%rdi,%rcx)
	incq	%rcx
	decq	%rdx
	jne	14b
15:
	addq	%r13, %rax
	addq	$-505, %rax
	cmpq	$7, %rax
	jb	8b
	leaq	279(%r14), %rax
	addq	%rax, %r13
	.p2align	4
16:
	movzbl	(%r15,%rcx), %eax
	movb	%al, -7(%r13,%rcx)
	movzbl	1(%r15,%rcx), %eax
	movb	%al, -6(%r13,%rcx)
	movzbl	2(%r15,%rcx), %eax
	movb	%al, -5(%r13,%rcx)
	movzbl	3(%r15,%rcx), %eax
	movb	%al, -4(%r13,%rcx)
	movzbl	4(%r15,%rcx), %eax
	movb	%al, -3(%r13,%rcx)
	movzbl	5(%r15,%rcx), %eax
	movb	%al, -2(%r13,%rcx)
	movzbl	6(%r15,%rcx), %eax
	movb	%al, -1(%r13,%rcx)
	movzbl	7(%r15,%rcx), %eax
	movb	%al, (%r13,%rcx)
	addq	$8, %rcx
	cmpq	%rcx, %r12
	jne	16b
	jmp	8b
	.p2align	4
17:
	leaq	-385(%rbx), %rbp
	movq	%rbp, %r12
	vmovups	(%r14), %ymm0
	vmovups	32(%r14), %ymm1
	vmovups	64(%r14), %ymm2
	vmovups	96(%r14), %ymm3
	vmovups	128(%r14), %ymm4
	vmovups	160(%r14), %ymm5
	vmovups	192(%r14), %ymm6
	vmovups	224(%r14), %ymm7
	vmovups	%ymm0, 8(%rsp)
	vmovups	%ymm1, 40(%rsp)
	vmovups	%ymm2, 72(%rsp)
	vmovups	%ymm3, 104(%rsp)
	vmovups	%ymm4, 136(%rsp)
	vmovups	%ymm5, 168(%rsp)
	vmovups	%ymm6, 200(%rsp)
	shrq	$9, %r12
	vmovups	%ymm7, 232(%rsp)
	movq	256(%r14), %r13
	leaq	8(%rsp), %rdi
	movq	%r15, %rsi
	movq	%r13, %rdx
	movq	%r12, %rcx
	vzeroupper
	callq	blake2_parallel..lanes..blake2bp..compress_in_lanes_1_v4
	vmovups	8(%rsp), %ymm0
	vmovups	%ymm0, (%r14)
	vmovups	40(%rsp), %ymm0
	vmovups	%ymm0, 32(%r14)
	vmovups	72(%rsp), %ymm0
	vmovups	%ymm0, 64(%r14)
	vmovups	104(%rsp), %ymm0
	vmovups	%ymm0, 96(%r14)
	vmovups	136(%rsp), %ymm0
	vmovups	%ymm0, 128(%r14)
	vmovups	168(%rsp), %ymm0
	vmovups	%ymm0, 160(%r14)
	vmovups	200(%rsp), %ymm0
	vmovups	%ymm0, 192(%r14)
	vmovups	232(%rsp), %ymm0
	vmovups	%ymm0, 224(%r14)
	shlq	$7, %r12
	addq	%r13, %r12
	movq	%r12, 256(%r14)
	andq	$-512, %rbp
	addq	%rbp, %r15
	subq	%rbp, %rbx
	jmp	10b
18:
	cmpq	$448, %r13
	jbe	19f
	xorl	%eax, %eax
	jmp	21f
19:
	movl	%r12d, %eax
	vmovups	(%r15), %ymm0
	vmovups	32(%r15), %ymm1
	vmovups	%ymm0, (%rdi)
	andl	$-64, %eax
	vmovups	%ymm1, 32(%rdi)
	cmpq	$64, %rax
	je	20f
	vmovups	64(%r15), %ymm0
	vmovups	96(%r15), %ymm1
	vmovups	%ymm0, 64(%rdi)
	vmovups	%ymm1, 96(%rdi)
	cmpl	$128, %eax
	je	20f
	vmovups	128(%r15), %ymm0
	vmovups	160(%r15), %ymm1
	vmovups	%ymm0, 128(%rdi)
	vmovups	%ymm1, 160(%rdi)
	cmpl	$192, %eax
	je	20f
	vmovups	192(%r15), %ymm0
	vmovups	224(%r15), %ymm1
	vmovups	%ymm0, 192(%rdi)
	vmovups	%ymm1, 224(%rdi)
	cmpl	$256, %eax
	je	20f
	vmovups	256(%r15), %ymm0
	vmovups	288(%r15), %ymm1
	vmovups	%ymm0, 256(%rdi)
	vmovups	%ymm1, 288(%rdi)
	cmpl	$320, %eax
	je	20f
	vmovups	320(%r15), %ymm0
	vmovups	352(%r15), %ymm1
	vmovups	%ymm0, 320(%rdi)
	vmovups	%ymm1, 352(%rdi)
	cmpl	$384, %eax
	je	20f
	vmovups	384(%r15), %ymm0
	vmovups	416(%r15), %ymm1
	vmovups	%ymm0, 384(%rdi)
	vmovups	%ymm1, 416(%rdi)
20:
	cmpl	%eax, %r12d
	je	8b
	testb	$56, %r12b
	je	13b
21:
	movq	%rax, %rcx
	movl	%r12d, %eax
	andl	$-8, %eax
	.p2align	4
22:
	movq	(%r15,%rcx), %rdx
	movq	%rdx, (%rdi,%rcx)
	addq	$8, %rcx
	cmpq	%rcx, %rax
	jne	22b
	cmpl	%eax, %r12d
	je	8b
	jmp	13b
23:
	movq	%r15, %rsi
	movq	%rbx, %rdx
	vzeroupper
	vj_c_call	memmove
24:
	addq	%rbx, %r13
	movq	%r13, 264(%r14)
	addq	$264, %rsp
	popq	%rbx
	popq	%r12
	popq	%r13
	popq	%r14
	popq	%r15
	popq	%rbp
	vzeroupper
	retq
25:
	cmpq	$128, %rbx
	jae	26f
	xorl	%eax, %eax
	jmp	28f
26:
	movq	%rbx, %rax
	andq	$-128, %rax
	leaq	(%r14,%r13), %rcx
	addq	$368, %rcx
	xorl	%edx, %edx
	.p2align	4
27:
	vmovups	(%r15,%rdx), %ymm0
	vmovups	32(%r15,%rdx), %ymm1
	vmovups	64(%r15,%rdx), %ymm2
	vmovups	96(%r15,%rdx), %ymm3
	vmovups	%ymm0, -96(%rcx,%rdx)
	vmovups	%ymm1, -64(%rcx,%rdx)
	vmovups	%ymm2, -32(%rcx,%rdx)
	vmovups	%ymm3, (%rcx,%rdx)
	subq	$-128, %rdx
	cmpq	%rdx, %rax
	jne	27b
	cmpq	%rax, %rbx
	je	24b
	testb	$120, %bl
	je	3b
28:
	movq	%rax, %rcx
	movq	%rbx, %rax
	andq	$-8, %rax
	.p2align	4
29:
	movq	(%r15,%rcx), %rdx
	movq	%rdx, (%rdi,%rcx)
	addq	$8, %rcx
	cmpq	%rcx, %rax
	jne	29b
	cmpq	%rax, %rbx
	je	24b
	jmp	3b
	vj_end	blake2_parallel..lanes..blake2bp..Lanes..update_1_v4

	vj_constants	8
	.p2align	3, 0x0
.L1_v4_CPI41_0:
	.quad	7640891576956012808
.L1_v4_CPI41_1:
	.quad	-7276294671716946913
.L1_v4_CPI41_2:
	.quad	-4942790177534073029
.L1_v4_CPI41_3:
	.quad	2270897969802886507
.L1_v4_CPI41_4:
	.quad	4354685564936845355
.L1_v4_CPI41_5:
	.quad	6620516959819538809
.L1_v4_CPI41_6:
	.quad	-6534734903238641935
	vj_function	blake2_parallel..lanes..blake2bp..compress_in_lanes_1_v4
	vmovdqu	(%rdi), %ymm8
	vmovdqu64	32(%rdi), %ymm25
	vmovdqu64	64(%rdi), %ymm24
	vmovdqu	96(%rdi), %ymm1
	vmovdqu	128(%rdi), %ymm0
	vmovdqu	160(%rdi), %ymm14
	vmovdqu	192(%rdi), %ymm12
	vmovdqu	224(%rdi), %ymm2
	testq	%rcx, %rcx
	je	2f
	subq	$776, %rsp
	shlq	$7, %rcx
	subq	$-128, %rdx
	xorl	%eax, %eax
	.p2align	4
1:
	vmovdqa64	%ymm2, %ymm27
	vmovdqa64	%ymm0, %ymm26
	vmovdqa64	%ymm1, %ymm28
	vmovdqu	%ymm1, 672(%rsp)
	vmovdqa64	%ymm8, %ymm29
	vmovdqu	%ymm8, 640(%rsp)
	leaq	(%rdx,%rax), %r8
	vmovdqu	(%rsi,%rax,4), %ymm0
	vmovdqu	32(%rsi,%rax,4), %ymm1
	vmovdqu	64(%rsi,%rax,4), %ymm2
	vmovdqu	96(%rsi,%rax,4), %ymm3
	vmovdqu	128(%rsi,%rax,4), %ymm4
	vmovdqu	160(%rsi,%rax,4), %ymm5
	vmovdqu	192(%rsi,%rax,4), %ymm8
	vmovdqu	224(%rsi,%rax,4), %ymm9
	vmovdqu	256(%rsi,%rax,4), %ymm6
	vmovdqu	288(%rsi,%rax,4), %ymm7
	vmovdqu	320(%rsi,%rax,4), %ymm13
	vmovdqu64	352(%rsi,%rax,4), %ymm17
	vmovdqu	384(%rsi,%rax,4), %ymm10
	vmovdqu	416(%rsi,%rax,4), %ymm11
	vmovdqu64	448(%rsi,%rax,4), %ymm18
	vmovdqu64	480(%rsi,%rax,4), %ymm20
	vpunpcklqdq	%ymm4, %ymm0, %ymm15
	vpunpckhqdq	%ymm4, %ymm0, %ymm0
	vpunpcklqdq	%ymm10, %ymm6, %ymm4
	vpunpckhqdq	%ymm10, %ymm6, %ymm19
	vinserti128	$1, %xmm4, %ymm15, %ymm6
	vmovdqu	%ymm6, 32(%rsp)
	vinserti32x4	$1, %xmm19, %ymm0, %ymm10
	vmovdqu	%ymm10, 256(%rsp)
	vpunpcklqdq	%ymm5, %ymm1, %ymm22
	vperm2i128	$49, %ymm4, %ymm15, %ymm15
	vpunpckhqdq	%ymm5, %ymm1, %ymm1
	vpunpcklqdq	%ymm11, %ymm7, %ymm4
	vpunpckhqdq	%ymm11, %ymm7, %ymm5
	vshufi64x2	$3, %ymm19, %ymm0, %ymm21
	vmovdqu64	%ymm21, (%rsp)
	vinserti32x4	$1, %xmm4, %ymm22, %ymm31
	vinserti128	$1, %xmm5, %ymm1, %ymm7
	vpunpcklqdq	%ymm8, %ymm2, %ymm0
	vshufi64x2	$3, %ymm4, %ymm22, %ymm16
	vmovdqu64	%ymm16, 128(%rsp)
	vpunpckhqdq	%ymm8, %ymm2, %ymm2
	vpunpcklqdq	%ymm18, %ymm13, %ymm4
	vpunpckhqdq	%ymm18, %ymm13, %ymm13
	vshufi64x2	$3, %ymm5, %ymm1, %ymm22
	vinserti128	$1, %xmm4, %ymm0, %ymm8
	vinserti32x4	$1, %xmm13, %ymm2, %ymm19
	vpunpcklqdq	%ymm9, %ymm3, %ymm1
	vperm2i128	$49, %ymm4, %ymm0, %ymm11
	vpunpckhqdq	%ymm9, %ymm3, %ymm0
	vpunpcklqdq	%ymm20, %ymm17, %ymm3
	vpunpckhqdq	%ymm20, %ymm17, %ymm4
	vshufi64x2	$3, %ymm13, %ymm2, %ymm20
	vinserti128	$1, %xmm3, %ymm1, %ymm9
	vinserti32x4	$1, %xmm4, %ymm0, %ymm18
	movabsq	$5840696475078001361, %r9
	vshufi64x2	$3, %ymm3, %ymm1, %ymm23
	xorq	%r8, %r9
	vpbroadcastq	%r9, %ymm1
	vmovdqu64	%ymm26, 736(%rsp)
	vpaddq	%ymm26, %ymm29, %ymm2
	vpaddq	%ymm6, %ymm2, %ymm2
	vpxor	%ymm1, %ymm2, %ymm1
	vprolq	$32, %ymm1, %ymm1
	vpaddq	.L1_v4_CPI41_0(%rip){1to4}, %ymm1, %ymm3
	vperm2i128	$49, %ymm4, %ymm0, %ymm13
	vpxorq	%ymm26, %ymm3, %ymm0
	vpaddq	%ymm2, %ymm10, %ymm2
	vprolq	$40, %ymm0, %ymm4
	vpaddq	%ymm4, %ymm2, %ymm26
	vpxorq	%ymm1, %ymm26, %ymm0
	vmovdqa64	%ymm27, %ymm5
	vmovdqu64	%ymm27, 704(%rsp)
	vpaddq	%ymm27, %ymm28, %ymm1
	vprolq	$48, %ymm0, %ymm29
	vpaddq	%ymm16, %ymm1, %ymm1
	vpxorq	.L1_v4_CPI41_5(%rip){1to4}, %ymm1, %ymm0
	vpaddq	%ymm29, %ymm3, %ymm28
	vprolq	$32, %ymm0, %ymm2
	vpaddq	.L1_v4_CPI41_6(%rip){1to4}, %ymm2, %ymm6
	vpxorq	%ymm4, %ymm28, %ymm3
	vprolq	$1, %ymm3, %ymm27
	vpxor	%ymm5, %ymm6, %ymm3
	vpaddq	%ymm22, %ymm1, %ymm4
	vprolq	$40, %ymm3, %ymm1
	vpaddq	%ymm1, %ymm4, %ymm3
	vpxor	%ymm2, %ymm3, %ymm2
	vpaddq	%ymm27, %ymm23, %ymm4
	vpaddq	%ymm4, %ymm3, %ymm30
	vmovdqu	%ymm12, 544(%rsp)
	vmovdqu	%ymm14, 608(%rsp)
	vmovdqa64	%ymm24, %ymm0
	vmovdqu64	%ymm24, 512(%rsp)
	vmovdqu64	%ymm25, 576(%rsp)
	vpaddq	%ymm14, %ymm25, %ymm3
	vpaddq	%ymm3, %ymm15, %ymm3
	vmovdqa	%ymm15, %ymm10
	vpxorq	.L1_v4_CPI41_1(%rip){1to4}, %ymm3, %ymm4
	vprolq	$32, %ymm4, %ymm4
	vpaddq	.L1_v4_CPI41_2(%rip){1to4}, %ymm4, %ymm5
	vpxorq	%ymm14, %ymm5, %ymm24
	vprolq	$40, %ymm24, %ymm24
	vpaddq	%ymm21, %ymm3, %ymm3
	vpaddq	%ymm24, %ymm3, %ymm3
	vpxor	%ymm4, %ymm3, %ymm4
	vpaddq	%ymm12, %ymm0, %ymm25
	vmovdqa64	%ymm31, %ymm17
	vmovdqu64	%ymm31, 224(%rsp)
	vpaddq	%ymm31, %ymm25, %ymm25
	vpxorq	.L1_v4_CPI41_3(%rip){1to4}, %ymm25, %ymm31
	vprolq	$48, %ymm4, %ymm4
	vprolq	$32, %ymm31, %ymm31
	vpaddq	.L1_v4_CPI41_4(%rip){1to4}, %ymm31, %ymm0
	vpaddq	%ymm4, %ymm5, %ymm5
	vpxor	%ymm0, %ymm12, %ymm14
	vprolq	$40, %ymm14, %ymm14
	vpxorq	%ymm24, %ymm5, %ymm24
	vpaddq	%ymm7, %ymm25, %ymm25
	vmovdqa	%ymm7, %ymm15
	vpaddq	%ymm14, %ymm25, %ymm25
	vpxorq	%ymm31, %ymm25, %ymm31
	vprolq	$1, %ymm24, %ymm24
	vprolq	$48, %ymm31, %ymm31
	vpaddq	%ymm31, %ymm0, %ymm0
	vpxor	%ymm0, %ymm14, %ymm14
	vprolq	$1, %ymm14, %ymm14
	vprolq	$48, %ymm2, %ymm2
	vpaddq	%ymm2, %ymm6, %ymm6
	vpxor	%ymm1, %ymm6, %ymm1
	vprolq	$1, %ymm1, %ymm1
	vmovdqa	%ymm8, %ymm12
	vpaddq	%ymm8, %ymm26, %ymm26
	vpaddq	%ymm24, %ymm26, %ymm26
	vpxorq	%ymm2, %ymm26, %ymm2
	vprolq	$32, %ymm2, %ymm2
	vpaddq	%ymm0, %ymm2, %ymm0
	vpxorq	%ymm24, %ymm0, %ymm24
	vmovdqu64	%ymm19, 64(%rsp)
	vpaddq	%ymm19, %ymm26, %ymm26
	vprolq	$40, %ymm24, %ymm24
	vpaddq	%ymm3, %ymm11, %ymm3
	vpaddq	%ymm3, %ymm14, %ymm3
	vpxorq	%ymm29, %ymm3, %ymm29
	vpaddq	%ymm24, %ymm26, %ymm26
	vprolq	$32, %ymm29, %ymm29
	vpaddq	%ymm6, %ymm29, %ymm6
	vpxor	%ymm6, %ymm14, %ymm14
	vpxorq	%ymm2, %ymm26, %ymm2
	vprolq	$40, %ymm14, %ymm14
	vpaddq	%ymm20, %ymm3, %ymm3
	vpaddq	%ymm3, %ymm14, %ymm3
	vprolq	$48, %ymm2, %ymm8
	vpxorq	%ymm29, %ymm3, %ymm2
	vpaddq	%ymm9, %ymm25, %ymm25
	vpaddq	%ymm1, %ymm25, %ymm25
	vprolq	$48, %ymm2, %ymm2
	vpxorq	%ymm4, %ymm25, %ymm4
	vprolq	$32, %ymm4, %ymm4
	vpaddq	%ymm28, %ymm4, %ymm28
	vpaddq	%ymm8, %ymm0, %ymm29
	vpxorq	%ymm1, %ymm28, %ymm0
	vprolq	$40, %ymm0, %ymm0
	vpaddq	%ymm18, %ymm25, %ymm1
	vpaddq	%ymm2, %ymm6, %ymm25
	vpaddq	%ymm0, %ymm1, %ymm1
	vpxor	%ymm4, %ymm1, %ymm4
	vprolq	$48, %ymm4, %ymm4
	vpxorq	%ymm24, %ymm29, %ymm6
	vpaddq	%ymm4, %ymm28, %ymm24
	vpxorq	%ymm31, %ymm30, %ymm28
	vprolq	$32, %ymm28, %ymm28
	vpxorq	%ymm14, %ymm25, %ymm14
	vpaddq	%ymm5, %ymm28, %ymm5
	vpxorq	%ymm27, %ymm5, %ymm27
	vprolq	$40, %ymm27, %ymm27
	vpxorq	%ymm0, %ymm24, %ymm0
	vmovdqa64	%ymm13, %ymm21
	vpaddq	%ymm13, %ymm30, %ymm30
	vpaddq	%ymm27, %ymm30, %ymm30
	vpxorq	%ymm28, %ymm30, %ymm28
	vprolq	$1, %ymm6, %ymm6
	vprolq	$48, %ymm28, %ymm28
	vpaddq	%ymm28, %ymm5, %ymm5
	vpxorq	%ymm27, %ymm5, %ymm27
	vprolq	$1, %ymm14, %ymm14
	vprolq	$1, %ymm27, %ymm27
	vpaddq	%ymm23, %ymm26, %ymm26
	vpaddq	%ymm27, %ymm26, %ymm26
	vprolq	$1, %ymm0, %ymm31
	vpxorq	%ymm2, %ymm26, %ymm0
	vprolq	$32, %ymm0, %ymm0
	vpaddq	%ymm24, %ymm0, %ymm2
	vpxorq	%ymm27, %ymm2, %ymm24
	vprolq	$40, %ymm24, %ymm24
	vpaddq	%ymm11, %ymm26, %ymm26
	vpaddq	%ymm24, %ymm26, %ymm7
	vpxor	%ymm0, %ymm7, %ymm0
	vprolq	$48, %ymm0, %ymm27
	vpaddq	%ymm17, %ymm3, %ymm0
	vpaddq	%ymm6, %ymm0, %ymm3
	vpaddq	%ymm27, %ymm2, %ymm0
	vpxor	%ymm4, %ymm3, %ymm2
	vprolq	$32, %ymm2, %ymm2
	vpaddq	%ymm5, %ymm2, %ymm4
	vpxorq	%ymm24, %ymm0, %ymm5
	vpxor	%ymm6, %ymm4, %ymm6
	vprolq	$40, %ymm6, %ymm6
	vpaddq	%ymm3, %ymm12, %ymm3
	vmovdqa	%ymm12, %ymm13
	vmovdqu	%ymm12, 416(%rsp)
	vprolq	$1, %ymm5, %ymm24
	vpaddq	%ymm6, %ymm3, %ymm3
	vpaddq	%ymm19, %ymm1, %ymm1
	vpaddq	%ymm1, %ymm14, %ymm1
	vpxor	%ymm2, %ymm3, %ymm2
	vpxorq	%ymm28, %ymm1, %ymm5
	vprolq	$32, %ymm5, %ymm5
	vpaddq	%ymm29, %ymm5, %ymm28
	vprolq	$48, %ymm2, %ymm29
	vpxorq	%ymm14, %ymm28, %ymm2
	vprolq	$40, %ymm2, %ymm14
	vpaddq	%ymm21, %ymm1, %ymm1
	vmovdqa64	%ymm21, %ymm17
	vpaddq	%ymm29, %ymm4, %ymm2
	vpaddq	%ymm1, %ymm14, %ymm1
	vpxor	%ymm5, %ymm1, %ymm4
	vprolq	$48, %ymm4, %ymm26
	vpaddq	%ymm26, %ymm28, %ymm4
	vpaddq	%ymm18, %ymm30, %ymm5
	vpaddq	%ymm31, %ymm5, %ymm5
	vpxor	%ymm5, %ymm8, %ymm8
	vpxor	%ymm6, %ymm2, %ymm6
	vprolq	$32, %ymm8, %ymm8
	vpaddq	%ymm25, %ymm8, %ymm25
	vpxorq	%ymm31, %ymm25, %ymm28
	vpxor	%ymm4, %ymm14, %ymm14
	vprolq	$40, %ymm28, %ymm28
	vmovdqu64	128(%rsp), %ymm19
	vpaddq	%ymm19, %ymm5, %ymm5
	vpaddq	%ymm28, %ymm5, %ymm5
	vprolq	$1, %ymm6, %ymm6
	vpxor	%ymm5, %ymm8, %ymm8
	vprolq	$48, %ymm8, %ymm8
	vpaddq	%ymm8, %ymm25, %ymm25
	vprolq	$1, %ymm14, %ymm14
	vpxorq	%ymm28, %ymm25, %ymm28
	vprolq	$1, %ymm28, %ymm28
	vmovdqu64	256(%rsp), %ymm21
	vpaddq	%ymm21, %ymm7, %ymm7
	vpaddq	%ymm6, %ymm7, %ymm7
	vpxor	%ymm7, %ymm8, %ymm8
	vprolq	$32, %ymm8, %ymm8
	vpaddq	%ymm4, %ymm8, %ymm4
	vpxor	%ymm6, %ymm4, %ymm6
	vpaddq	%ymm7, %ymm9, %ymm7
	vmovdqu64	32(%rsp), %ymm31
	vpaddq	%ymm31, %ymm3, %ymm3
	vpaddq	%ymm3, %ymm14, %ymm3
	vprolq	$40, %ymm6, %ymm6
	vpxorq	%ymm27, %ymm3, %ymm27
	vprolq	$32, %ymm27, %ymm27
	vpaddq	%ymm25, %ymm27, %ymm25
	vpaddq	%ymm6, %ymm7, %ymm7
	vpxorq	%ymm14, %ymm25, %ymm14
	vprolq	$40, %ymm14, %ymm14
	vpaddq	%ymm3, %ymm10, %ymm3
	vpxor	%ymm7, %ymm8, %ymm8
	vpaddq	%ymm14, %ymm3, %ymm30
	vpxorq	%ymm27, %ymm30, %ymm3
	vpaddq	%ymm20, %ymm1, %ymm27
	vprolq	$48, %ymm8, %ymm1
	vpaddq	%ymm28, %ymm27, %ymm8
	vpxorq	%ymm29, %ymm8, %ymm27
	vprolq	$32, %ymm27, %ymm27
	vprolq	$48, %ymm3, %ymm29
	vpaddq	%ymm0, %ymm27, %ymm0
	vpxorq	%ymm28, %ymm0, %ymm3
	vprolq	$40, %ymm3, %ymm28
	vpaddq	%ymm1, %ymm4, %ymm3
	vpaddq	%ymm22, %ymm8, %ymm4
	vpaddq	%ymm28, %ymm4, %ymm4
	vpxorq	%ymm27, %ymm4, %ymm8
	vpaddq	%ymm29, %ymm25, %ymm25
	vprolq	$48, %ymm8, %ymm8
	vpaddq	%ymm0, %ymm8, %ymm0
	vpaddq	%ymm5, %ymm15, %ymm5
	vpxor	%ymm6, %ymm3, %ymm6
	vpaddq	%ymm24, %ymm5, %ymm5
	vpxorq	%ymm26, %ymm5, %ymm26
	vprolq	$32, %ymm26, %ymm26
	vpxorq	%ymm14, %ymm25, %ymm14
	vpaddq	%ymm2, %ymm26, %ymm2
	vpxorq	%ymm24, %ymm2, %ymm24
	vprolq	$40, %ymm24, %ymm24
	vpxorq	%ymm28, %ymm0, %ymm27
	vmovdqu	(%rsp), %ymm12
	vpaddq	%ymm5, %ymm12, %ymm5
	vpaddq	%ymm24, %ymm5, %ymm5
	vpxorq	%ymm26, %ymm5, %ymm26
	vprolq	$1, %ymm6, %ymm6
	vprolq	$48, %ymm26, %ymm26
	vpaddq	%ymm26, %ymm2, %ymm2
	vpxorq	%ymm24, %ymm2, %ymm24
	vprolq	$1, %ymm14, %ymm14
	vprolq	$1, %ymm24, %ymm24
	vpaddq	%ymm20, %ymm7, %ymm7
	vpaddq	%ymm24, %ymm7, %ymm7
	vprolq	$1, %ymm27, %ymm28
	vpxorq	%ymm29, %ymm7, %ymm27
	vprolq	$32, %ymm27, %ymm27
	vpaddq	%ymm0, %ymm27, %ymm0
	vpxorq	%ymm24, %ymm0, %ymm24
	vprolq	$40, %ymm24, %ymm24
	vpaddq	%ymm7, %ymm13, %ymm7
	vpaddq	%ymm24, %ymm7, %ymm7
	vpxorq	%ymm27, %ymm7, %ymm27
	vprolq	$48, %ymm27, %ymm27
	vpaddq	%ymm9, %ymm30, %ymm29
	vmovdqa64	%ymm9, %ymm30
	vmovdqu	%ymm9, 96(%rsp)
	vpaddq	%ymm6, %ymm29, %ymm29
	vpaddq	%ymm27, %ymm0, %ymm0
	vpxorq	%ymm8, %ymm29, %ymm8
	vprolq	$32, %ymm8, %ymm8
	vpaddq	%ymm2, %ymm8, %ymm2
	vpxorq	%ymm24, %ymm0, %ymm24
	vpxor	%ymm6, %ymm2, %ymm6
	vprolq	$40, %ymm6, %ymm6
	vpaddq	%ymm31, %ymm29, %ymm29
	vprolq	$1, %ymm24, %ymm24
	vpaddq	%ymm6, %ymm29, %ymm29
	vpaddq	%ymm4, %ymm15, %ymm4
	vpaddq	%ymm4, %ymm14, %ymm4
	vpxorq	%ymm8, %ymm29, %ymm8
	vpxorq	%ymm26, %ymm4, %ymm26
	vprolq	$32, %ymm26, %ymm26
	vpaddq	%ymm3, %ymm26, %ymm3
	vprolq	$48, %ymm8, %ymm8
	vpxor	%ymm3, %ymm14, %ymm14
	vprolq	$40, %ymm14, %ymm14
	vpaddq	%ymm4, %ymm10, %ymm4
	vmovdqa	%ymm10, %ymm9
	vpaddq	%ymm2, %ymm8, %ymm2
	vpaddq	%ymm4, %ymm14, %ymm4
	vpxorq	%ymm26, %ymm4, %ymm26
	vprolq	$48, %ymm26, %ymm26
	vpaddq	%ymm26, %ymm3, %ymm3
	vpaddq	%ymm17, %ymm5, %ymm5
	vpaddq	%ymm28, %ymm5, %ymm5
	vpxor	%ymm1, %ymm5, %ymm1
	vpxor	%ymm6, %ymm2, %ymm6
	vprolq	$32, %ymm1, %ymm1
	vpaddq	%ymm25, %ymm1, %ymm25
	vpxorq	%ymm28, %ymm25, %ymm28
	vpxor	%ymm3, %ymm14, %ymm14
	vprolq	$40, %ymm28, %ymm28
	vmovdqa64	%ymm18, %ymm13
	vmovdqu64	%ymm18, 192(%rsp)
	vpaddq	%ymm18, %ymm5, %ymm5
	vpaddq	%ymm28, %ymm5, %ymm5
	vprolq	$1, %ymm6, %ymm6
	vpxor	%ymm1, %ymm5, %ymm1
	vprolq	$48, %ymm1, %ymm1
	vpaddq	%ymm1, %ymm25, %ymm25
	vprolq	$1, %ymm14, %ymm14
	vpxorq	%ymm28, %ymm25, %ymm28
	vprolq	$1, %ymm28, %ymm28
	vpaddq	%ymm7, %ymm11, %ymm7
	vpaddq	%ymm6, %ymm7, %ymm7
	vpxor	%ymm1, %ymm7, %ymm1
	vprolq	$32, %ymm1, %ymm1
	vpaddq	%ymm3, %ymm1, %ymm3
	vpxor	%ymm6, %ymm3, %ymm6
	vpaddq	%ymm23, %ymm7, %ymm7
	vpaddq	%ymm12, %ymm29, %ymm29
	vpaddq	%ymm14, %ymm29, %ymm29
	vprolq	$40, %ymm6, %ymm6
	vpxorq	%ymm27, %ymm29, %ymm27
	vprolq	$32, %ymm27, %ymm27
	vpaddq	%ymm25, %ymm27, %ymm25
	vpaddq	%ymm6, %ymm7, %ymm7
	vpxorq	%ymm14, %ymm25, %ymm14
	vprolq	$40, %ymm14, %ymm14
	vmovdqa64	%ymm19, %ymm31
	vpaddq	%ymm19, %ymm29, %ymm29
	vpxor	%ymm1, %ymm7, %ymm1
	vpaddq	%ymm14, %ymm29, %ymm29
	vpxorq	%ymm27, %ymm29, %ymm27
	vpaddq	%ymm22, %ymm4, %ymm4
	vprolq	$48, %ymm1, %ymm1
	vpaddq	%ymm28, %ymm4, %ymm4
	vpxor	%ymm4, %ymm8, %ymm8
	vprolq	$32, %ymm8, %ymm8
	vprolq	$48, %ymm27, %ymm27
	vpaddq	%ymm0, %ymm8, %ymm0
	vpxorq	%ymm28, %ymm0, %ymm28
	vprolq	$40, %ymm28, %ymm28
	vpaddq	%ymm1, %ymm3, %ymm3
	vpaddq	%ymm21, %ymm4, %ymm4
	vpaddq	%ymm28, %ymm4, %ymm4
	vpxor	%ymm4, %ymm8, %ymm8
	vpaddq	%ymm27, %ymm25, %ymm25
	vprolq	$48, %ymm8, %ymm8
	vpaddq	%ymm0, %ymm8, %ymm0
	vmovdqu64	64(%rsp), %ymm18
	vpaddq	%ymm18, %ymm5, %ymm5
	vpxor	%ymm6, %ymm3, %ymm6
	vpaddq	%ymm24, %ymm5, %ymm5
	vpxorq	%ymm26, %ymm5, %ymm26
	vprolq	$32, %ymm26, %ymm26
	vpxorq	%ymm14, %ymm25, %ymm14
	vpaddq	%ymm2, %ymm26, %ymm2
	vpxorq	%ymm24, %ymm2, %ymm24
	vprolq	$40, %ymm24, %ymm24
	vpxorq	%ymm28, %ymm0, %ymm28
	vmovdqu64	224(%rsp), %ymm19
	vpaddq	%ymm19, %ymm5, %ymm5
	vpaddq	%ymm24, %ymm5, %ymm5
	vpxorq	%ymm26, %ymm5, %ymm26
	vprolq	$1, %ymm6, %ymm6
	vprolq	$48, %ymm26, %ymm26
	vpaddq	%ymm26, %ymm2, %ymm2
	vpxorq	%ymm24, %ymm2, %ymm24
	vprolq	$1, %ymm14, %ymm14
	vprolq	$1, %ymm24, %ymm24
	vpaddq	%ymm22, %ymm7, %ymm7
	vpaddq	%ymm24, %ymm7, %ymm7
	vprolq	$1, %ymm28, %ymm28
	vpxorq	%ymm27, %ymm7, %ymm27
	vprolq	$32, %ymm27, %ymm27
	vpaddq	%ymm0, %ymm27, %ymm0
	vpxorq	%ymm24, %ymm0, %ymm24
	vprolq	$40, %ymm24, %ymm24
	vpaddq	%ymm18, %ymm7, %ymm7
	vpaddq	%ymm24, %ymm7, %ymm7
	vpxorq	%ymm27, %ymm7, %ymm27
	vprolq	$48, %ymm27, %ymm27
	vpaddq	%ymm12, %ymm29, %ymm29
	vpaddq	%ymm6, %ymm29, %ymm29
	vpaddq	%ymm27, %ymm0, %ymm0
	vpxorq	%ymm8, %ymm29, %ymm8
	vprolq	$32, %ymm8, %ymm8
	vpaddq	%ymm2, %ymm8, %ymm2
	vpxorq	%ymm24, %ymm0, %ymm24
	vpxor	%ymm6, %ymm2, %ymm6
	vprolq	$40, %ymm6, %ymm6
	vpaddq	%ymm21, %ymm29, %ymm29
	vprolq	$1, %ymm24, %ymm24
	vpaddq	%ymm6, %ymm29, %ymm29
	vpaddq	%ymm4, %ymm13, %ymm4
	vpaddq	%ymm4, %ymm14, %ymm4
	vpxorq	%ymm8, %ymm29, %ymm8
	vpxorq	%ymm26, %ymm4, %ymm26
	vprolq	$32, %ymm26, %ymm26
	vpaddq	%ymm3, %ymm26, %ymm3
	vprolq	$48, %ymm8, %ymm8
	vpxor	%ymm3, %ymm14, %ymm14
	vprolq	$40, %ymm14, %ymm14
	vpaddq	%ymm30, %ymm4, %ymm4
	vpaddq	%ymm2, %ymm8, %ymm2
	vpaddq	%ymm4, %ymm14, %ymm4
	vpxorq	%ymm26, %ymm4, %ymm26
	vprolq	$48, %ymm26, %ymm26
	vpaddq	%ymm26, %ymm3, %ymm3
	vpaddq	%ymm20, %ymm5, %ymm5
	vmovdqa64	%ymm20, %ymm30
	vpaddq	%ymm28, %ymm5, %ymm5
	vpxor	%ymm1, %ymm5, %ymm1
	vpxor	%ymm6, %ymm2, %ymm6
	vprolq	$32, %ymm1, %ymm1
	vpaddq	%ymm25, %ymm1, %ymm25
	vpxorq	%ymm28, %ymm25, %ymm28
	vpxor	%ymm3, %ymm14, %ymm14
	vprolq	$40, %ymm28, %ymm28
	vpaddq	%ymm23, %ymm5, %ymm5
	vmovdqa64	%ymm23, %ymm10
	vmovdqu64	%ymm23, 160(%rsp)
	vpaddq	%ymm28, %ymm5, %ymm5
	vprolq	$1, %ymm6, %ymm6
	vpxor	%ymm1, %ymm5, %ymm1
	vprolq	$48, %ymm1, %ymm1
	vpaddq	%ymm1, %ymm25, %ymm25
	vprolq	$1, %ymm14, %ymm14
	vpxorq	%ymm28, %ymm25, %ymm28
	vprolq	$1, %ymm28, %ymm28
	vmovdqa64	%ymm9, %ymm23
	vpaddq	%ymm7, %ymm9, %ymm7
	vpaddq	%ymm6, %ymm7, %ymm7
	vpxor	%ymm1, %ymm7, %ymm1
	vprolq	$32, %ymm1, %ymm1
	vpaddq	%ymm3, %ymm1, %ymm3
	vpxor	%ymm6, %ymm3, %ymm6
	vpaddq	%ymm31, %ymm7, %ymm7
	vmovdqu	%ymm15, 288(%rsp)
	vpaddq	%ymm15, %ymm29, %ymm29
	vpaddq	%ymm14, %ymm29, %ymm29
	vprolq	$40, %ymm6, %ymm6
	vpxorq	%ymm27, %ymm29, %ymm27
	vprolq	$32, %ymm27, %ymm27
	vpaddq	%ymm25, %ymm27, %ymm25
	vpaddq	%ymm6, %ymm7, %ymm7
	vpxorq	%ymm14, %ymm25, %ymm14
	vprolq	$40, %ymm14, %ymm14
	vpaddq	%ymm11, %ymm29, %ymm29
	vpxor	%ymm1, %ymm7, %ymm1
	vpaddq	%ymm14, %ymm29, %ymm29
	vpxorq	%ymm27, %ymm29, %ymm27
	vpaddq	%ymm19, %ymm4, %ymm4
	vprolq	$48, %ymm1, %ymm1
	vpaddq	%ymm28, %ymm4, %ymm4
	vpxor	%ymm4, %ymm8, %ymm8
	vprolq	$32, %ymm8, %ymm8
	vprolq	$48, %ymm27, %ymm27
	vpaddq	%ymm0, %ymm8, %ymm0
	vpxorq	%ymm28, %ymm0, %ymm28
	vprolq	$40, %ymm28, %ymm28
	vpaddq	%ymm1, %ymm3, %ymm3
	vmovdqu64	32(%rsp), %ymm16
	vpaddq	%ymm16, %ymm4, %ymm4
	vpaddq	%ymm28, %ymm4, %ymm4
	vpxor	%ymm4, %ymm8, %ymm8
	vpaddq	%ymm27, %ymm25, %ymm25
	vprolq	$48, %ymm8, %ymm8
	vpaddq	%ymm0, %ymm8, %ymm0
	vmovdqa64	%ymm17, %ymm20
	vpaddq	%ymm17, %ymm5, %ymm5
	vpxor	%ymm6, %ymm3, %ymm6
	vpaddq	%ymm24, %ymm5, %ymm5
	vpxorq	%ymm26, %ymm5, %ymm26
	vprolq	$32, %ymm26, %ymm26
	vpxorq	%ymm14, %ymm25, %ymm14
	vpaddq	%ymm2, %ymm26, %ymm2
	vpxorq	%ymm24, %ymm2, %ymm24
	vprolq	$40, %ymm24, %ymm24
	vpxorq	%ymm28, %ymm0, %ymm28
	vmovdqu64	416(%rsp), %ymm17
	vpaddq	%ymm17, %ymm5, %ymm5
	vpaddq	%ymm24, %ymm5, %ymm5
	vpxorq	%ymm26, %ymm5, %ymm26
	vprolq	$1, %ymm6, %ymm6
	vprolq	$48, %ymm26, %ymm26
	vpaddq	%ymm26, %ymm2, %ymm2
	vpxorq	%ymm24, %ymm2, %ymm24
	vprolq	$1, %ymm14, %ymm14
	vprolq	$1, %ymm24, %ymm24
	vpaddq	%ymm18, %ymm7, %ymm7
	vpaddq	%ymm24, %ymm7, %ymm7
	vprolq	$1, %ymm28, %ymm28
	vpxorq	%ymm27, %ymm7, %ymm27
	vprolq	$32, %ymm27, %ymm27
	vpaddq	%ymm0, %ymm27, %ymm0
	vpxorq	%ymm24, %ymm0, %ymm24
	vprolq	$40, %ymm24, %ymm24
	vpaddq	%ymm16, %ymm7, %ymm7
	vmovdqa64	%ymm16, %ymm18
	vpaddq	%ymm24, %ymm7, %ymm7
	vpxorq	%ymm27, %ymm7, %ymm27
	vprolq	$48, %ymm27, %ymm27
	vpaddq	%ymm15, %ymm29, %ymm29
	vpaddq	%ymm6, %ymm29, %ymm29
	vpaddq	%ymm27, %ymm0, %ymm0
	vpxorq	%ymm8, %ymm29, %ymm8
	vprolq	$32, %ymm8, %ymm8
	vpaddq	%ymm2, %ymm8, %ymm2
	vpxorq	%ymm24, %ymm0, %ymm24
	vpxor	%ymm6, %ymm2, %ymm6
	vprolq	$40, %ymm6, %ymm6
	vpaddq	%ymm22, %ymm29, %ymm29
	vmovdqa64	%ymm22, %ymm15
	vprolq	$1, %ymm24, %ymm24
	vpaddq	%ymm6, %ymm29, %ymm29
	vpaddq	%ymm4, %ymm9, %ymm4
	vpaddq	%ymm4, %ymm14, %ymm4
	vpxorq	%ymm8, %ymm29, %ymm8
	vpxorq	%ymm26, %ymm4, %ymm26
	vprolq	$32, %ymm26, %ymm26
	vpaddq	%ymm3, %ymm26, %ymm3
	vprolq	$48, %ymm8, %ymm8
	vpxor	%ymm3, %ymm14, %ymm14
	vprolq	$40, %ymm14, %ymm14
	vpaddq	%ymm19, %ymm4, %ymm4
	vmovdqa64	%ymm19, %ymm9
	vpaddq	%ymm2, %ymm8, %ymm2
	vpaddq	%ymm4, %ymm14, %ymm4
	vpxorq	%ymm26, %ymm4, %ymm26
	vprolq	$48, %ymm26, %ymm26
	vpaddq	%ymm26, %ymm3, %ymm3
	vpaddq	%ymm5, %ymm11, %ymm5
	vmovdqa64	%ymm11, %ymm16
	vpaddq	%ymm28, %ymm5, %ymm5
	vpxor	%ymm1, %ymm5, %ymm1
	vpxor	%ymm6, %ymm2, %ymm6
	vprolq	$32, %ymm1, %ymm1
	vpaddq	%ymm25, %ymm1, %ymm25
	vpxorq	%ymm28, %ymm25, %ymm28
	vpxor	%ymm3, %ymm14, %ymm14
	vprolq	$40, %ymm28, %ymm28
	vpaddq	%ymm20, %ymm5, %ymm5
	vmovdqa64	%ymm20, %ymm13
	vpaddq	%ymm28, %ymm5, %ymm5
	vprolq	$1, %ymm6, %ymm6
	vpxor	%ymm1, %ymm5, %ymm1
	vprolq	$48, %ymm1, %ymm1
	vpaddq	%ymm1, %ymm25, %ymm25
	vprolq	$1, %ymm14, %ymm14
	vpxorq	%ymm28, %ymm25, %ymm28
	vprolq	$1, %ymm28, %ymm28
	vpaddq	%ymm7, %ymm10, %ymm7
	vpaddq	%ymm6, %ymm7, %ymm7
	vpxor	%ymm1, %ymm7, %ymm1
	vprolq	$32, %ymm1, %ymm1
	vpaddq	%ymm3, %ymm1, %ymm3
	vpxor	%ymm6, %ymm3, %ymm6
	vpaddq	%ymm21, %ymm7, %ymm7
	vmovdqa64	%ymm30, %ymm12
	vmovdqu64	%ymm30, 384(%rsp)
	vpaddq	%ymm30, %ymm29, %ymm29
	vpaddq	%ymm14, %ymm29, %ymm29
	vprolq	$40, %ymm6, %ymm6
	vpxorq	%ymm27, %ymm29, %ymm27
	vprolq	$32, %ymm27, %ymm27
	vpaddq	%ymm25, %ymm27, %ymm25
	vpaddq	%ymm6, %ymm7, %ymm7
	vpxorq	%ymm14, %ymm25, %ymm14
	vprolq	$40, %ymm14, %ymm14
	vmovdqu64	96(%rsp), %ymm30
	vpaddq	%ymm30, %ymm29, %ymm29
	vpxor	%ymm1, %ymm7, %ymm1
	vpaddq	%ymm14, %ymm29, %ymm29
	vpxorq	%ymm27, %ymm29, %ymm27
	vpaddq	%ymm31, %ymm4, %ymm4
	vprolq	$48, %ymm1, %ymm1
	vpaddq	%ymm28, %ymm4, %ymm4
	vpxor	%ymm4, %ymm8, %ymm8
	vprolq	$32, %ymm8, %ymm8
	vprolq	$48, %ymm27, %ymm27
	vpaddq	%ymm0, %ymm8, %ymm0
	vpxorq	%ymm28, %ymm0, %ymm28
	vprolq	$40, %ymm28, %ymm28
	vpaddq	%ymm1, %ymm3, %ymm3
	vmovdqa64	%ymm17, %ymm20
	vpaddq	%ymm17, %ymm4, %ymm4
	vpaddq	%ymm28, %ymm4, %ymm4
	vpxor	%ymm4, %ymm8, %ymm8
	vpaddq	%ymm27, %ymm25, %ymm25
	vprolq	$48, %ymm8, %ymm8
	vpaddq	%ymm0, %ymm8, %ymm0
	vmovdqu64	(%rsp), %ymm22
	vpaddq	%ymm22, %ymm5, %ymm5
	vpxor	%ymm6, %ymm3, %ymm6
	vpaddq	%ymm24, %ymm5, %ymm5
	vpxorq	%ymm26, %ymm5, %ymm26
	vprolq	$32, %ymm26, %ymm26
	vpxorq	%ymm14, %ymm25, %ymm14
	vpaddq	%ymm2, %ymm26, %ymm2
	vpxorq	%ymm24, %ymm2, %ymm24
	vprolq	$40, %ymm24, %ymm24
	vpxorq	%ymm28, %ymm0, %ymm28
	vmovdqu	192(%rsp), %ymm11
	vpaddq	%ymm5, %ymm11, %ymm5
	vpaddq	%ymm24, %ymm5, %ymm5
	vpxorq	%ymm26, %ymm5, %ymm26
	vprolq	$1, %ymm6, %ymm6
	vprolq	$48, %ymm26, %ymm26
	vpaddq	%ymm26, %ymm2, %ymm2
	vpxorq	%ymm24, %ymm2, %ymm24
	vprolq	$1, %ymm14, %ymm14
	vprolq	$1, %ymm24, %ymm24
	vpaddq	%ymm23, %ymm7, %ymm7
	vpaddq	%ymm24, %ymm7, %ymm7
	vprolq	$1, %ymm28, %ymm28
	vpxorq	%ymm27, %ymm7, %ymm27
	vprolq	$32, %ymm27, %ymm27
	vpaddq	%ymm0, %ymm27, %ymm0
	vpxorq	%ymm24, %ymm0, %ymm24
	vprolq	$40, %ymm24, %ymm24
	vpaddq	%ymm30, %ymm7, %ymm7
	vpaddq	%ymm24, %ymm7, %ymm7
	vpxorq	%ymm27, %ymm7, %ymm27
	vprolq	$48, %ymm27, %ymm27
	vpaddq	%ymm31, %ymm29, %ymm29
	vpaddq	%ymm6, %ymm29, %ymm29
	vpaddq	%ymm27, %ymm0, %ymm0
	vpxorq	%ymm8, %ymm29, %ymm8
	vprolq	$32, %ymm8, %ymm8
	vpaddq	%ymm2, %ymm8, %ymm2
	vpxorq	%ymm24, %ymm0, %ymm24
	vpxor	%ymm6, %ymm2, %ymm6
	vprolq	$40, %ymm6, %ymm6
	vpaddq	%ymm16, %ymm29, %ymm29
	vmovdqa64	%ymm16, %ymm31
	vprolq	$1, %ymm24, %ymm24
	vpaddq	%ymm6, %ymm29, %ymm29
	vpaddq	%ymm18, %ymm4, %ymm4
	vmovdqa64	%ymm18, %ymm19
	vpaddq	%ymm4, %ymm14, %ymm4
	vpxorq	%ymm8, %ymm29, %ymm8
	vpxorq	%ymm26, %ymm4, %ymm26
	vprolq	$32, %ymm26, %ymm26
	vpaddq	%ymm3, %ymm26, %ymm3
	vprolq	$48, %ymm8, %ymm8
	vpxor	%ymm3, %ymm14, %ymm14
	vprolq	$40, %ymm14, %ymm14
	vpaddq	%ymm4, %ymm12, %ymm4
	vpaddq	%ymm2, %ymm8, %ymm2
	vpaddq	%ymm4, %ymm14, %ymm4
	vpxorq	%ymm26, %ymm4, %ymm26
	vprolq	$48, %ymm26, %ymm26
	vpaddq	%ymm26, %ymm3, %ymm3
	vpaddq	%ymm17, %ymm5, %ymm5
	vpaddq	%ymm28, %ymm5, %ymm5
	vpxor	%ymm1, %ymm5, %ymm1
	vpxor	%ymm6, %ymm2, %ymm6
	vprolq	$32, %ymm1, %ymm1
	vpaddq	%ymm25, %ymm1, %ymm25
	vpxorq	%ymm28, %ymm25, %ymm28
	vpxor	%ymm3, %ymm14, %ymm14
	vprolq	$40, %ymm28, %ymm28
	vpaddq	%ymm22, %ymm5, %ymm5
	vpaddq	%ymm28, %ymm5, %ymm5
	vprolq	$1, %ymm6, %ymm6
	vpxor	%ymm1, %ymm5, %ymm1
	vprolq	$48, %ymm1, %ymm1
	vpaddq	%ymm1, %ymm25, %ymm25
	vprolq	$1, %ymm14, %ymm14
	vpxorq	%ymm28, %ymm25, %ymm28
	vprolq	$1, %ymm28, %ymm28
	vpaddq	%ymm7, %ymm9, %ymm7
	vpaddq	%ymm6, %ymm7, %ymm7
	vpxor	%ymm1, %ymm7, %ymm1
	vprolq	$32, %ymm1, %ymm1
	vpaddq	%ymm3, %ymm1, %ymm3
	vpxor	%ymm6, %ymm3, %ymm6
	vpaddq	%ymm7, %ymm11, %ymm7
	vpaddq	%ymm15, %ymm29, %ymm29
	vpaddq	%ymm14, %ymm29, %ymm29
	vprolq	$40, %ymm6, %ymm6
	vpxorq	%ymm27, %ymm29, %ymm27
	vprolq	$32, %ymm27, %ymm27
	vpaddq	%ymm25, %ymm27, %ymm25
	vpaddq	%ymm6, %ymm7, %ymm7
	vpxorq	%ymm14, %ymm25, %ymm14
	vprolq	$40, %ymm14, %ymm14
	vmovdqu64	288(%rsp), %ymm16
	vpaddq	%ymm16, %ymm29, %ymm29
	vpxor	%ymm1, %ymm7, %ymm1
	vpaddq	%ymm14, %ymm29, %ymm29
	vpxorq	%ymm27, %ymm29, %ymm27
	vmovdqa64	%ymm13, %ymm17
	vpaddq	%ymm4, %ymm13, %ymm4
	vprolq	$48, %ymm1, %ymm1
	vpaddq	%ymm28, %ymm4, %ymm4
	vpxor	%ymm4, %ymm8, %ymm8
	vprolq	$32, %ymm8, %ymm8
	vprolq	$48, %ymm27, %ymm27
	vpaddq	%ymm0, %ymm8, %ymm0
	vpxorq	%ymm28, %ymm0, %ymm28
	vprolq	$40, %ymm28, %ymm28
	vpaddq	%ymm1, %ymm3, %ymm3
	vmovdqu	160(%rsp), %ymm10
	vpaddq	%ymm4, %ymm10, %ymm4
	vpaddq	%ymm28, %ymm4, %ymm4
	vpxor	%ymm4, %ymm8, %ymm8
	vpaddq	%ymm27, %ymm25, %ymm25
	vprolq	$48, %ymm8, %ymm8
	vpaddq	%ymm0, %ymm8, %ymm0
	vpaddq	%ymm21, %ymm5, %ymm5
	vpxor	%ymm6, %ymm3, %ymm6
	vpaddq	%ymm24, %ymm5, %ymm5
	vpxorq	%ymm26, %ymm5, %ymm26
	vprolq	$32, %ymm26, %ymm26
	vpxorq	%ymm14, %ymm25, %ymm14
	vpaddq	%ymm2, %ymm26, %ymm2
	vpxorq	%ymm24, %ymm2, %ymm24
	vprolq	$40, %ymm24, %ymm24
	vpxorq	%ymm28, %ymm0, %ymm28
	vmovdqu64	64(%rsp), %ymm18
	vpaddq	%ymm18, %ymm5, %ymm5
	vpaddq	%ymm24, %ymm5, %ymm5
	vpxorq	%ymm26, %ymm5, %ymm26
	vprolq	$1, %ymm6, %ymm6
	vprolq	$48, %ymm26, %ymm26
	vpaddq	%ymm26, %ymm2, %ymm2
	vpxorq	%ymm24, %ymm2, %ymm24
	vprolq	$1, %ymm14, %ymm14
	vprolq	$1, %ymm24, %ymm24
	vpaddq	%ymm30, %ymm7, %ymm7
	vpaddq	%ymm24, %ymm7, %ymm7
	vprolq	$1, %ymm28, %ymm28
	vpxorq	%ymm27, %ymm7, %ymm27
	vprolq	$32, %ymm27, %ymm27
	vpaddq	%ymm0, %ymm27, %ymm0
	vpxorq	%ymm24, %ymm0, %ymm24
	vprolq	$40, %ymm24, %ymm24
	vpaddq	%ymm16, %ymm7, %ymm7
	vpaddq	%ymm24, %ymm7, %ymm7
	vpxorq	%ymm27, %ymm7, %ymm27
	vprolq	$48, %ymm27, %ymm27
	vpaddq	%ymm21, %ymm29, %ymm29
	vpaddq	%ymm6, %ymm29, %ymm29
	vpaddq	%ymm27, %ymm0, %ymm0
	vpxorq	%ymm8, %ymm29, %ymm8
	vprolq	$32, %ymm8, %ymm8
	vpaddq	%ymm2, %ymm8, %ymm2
	vpxorq	%ymm24, %ymm0, %ymm24
	vpxor	%ymm6, %ymm2, %ymm6
	vprolq	$40, %ymm6, %ymm6
	vpaddq	%ymm13, %ymm29, %ymm29
	vprolq	$1, %ymm24, %ymm24
	vpaddq	%ymm6, %ymm29, %ymm29
	vpaddq	%ymm4, %ymm10, %ymm4
	vpaddq	%ymm4, %ymm14, %ymm4
	vpxorq	%ymm8, %ymm29, %ymm8
	vpxorq	%ymm26, %ymm4, %ymm26
	vprolq	$32, %ymm26, %ymm26
	vpaddq	%ymm3, %ymm26, %ymm3
	vprolq	$48, %ymm8, %ymm8
	vpxor	%ymm3, %ymm14, %ymm14
	vprolq	$40, %ymm14, %ymm14
	vpaddq	%ymm4, %ymm11, %ymm4
	vpaddq	%ymm2, %ymm8, %ymm2
	vpaddq	%ymm4, %ymm14, %ymm4
	vpxorq	%ymm26, %ymm4, %ymm26
	vprolq	$48, %ymm26, %ymm26
	vpaddq	%ymm26, %ymm3, %ymm3
	vpaddq	%ymm5, %ymm9, %ymm5
	vpaddq	%ymm28, %ymm5, %ymm5
	vpxor	%ymm1, %ymm5, %ymm1
	vpxor	%ymm6, %ymm2, %ymm6
	vprolq	$32, %ymm1, %ymm1
	vpaddq	%ymm25, %ymm1, %ymm25
	vpxorq	%ymm28, %ymm25, %ymm28
	vpxor	%ymm3, %ymm14, %ymm14
	vprolq	$40, %ymm28, %ymm28
	vpaddq	%ymm31, %ymm5, %ymm5
	vpaddq	%ymm28, %ymm5, %ymm5
	vprolq	$1, %ymm6, %ymm6
	vpxor	%ymm1, %ymm5, %ymm1
	vprolq	$48, %ymm1, %ymm1
	vpaddq	%ymm1, %ymm25, %ymm25
	vprolq	$1, %ymm14, %ymm14
	vpxorq	%ymm28, %ymm25, %ymm28
	vprolq	$1, %ymm28, %ymm28
	vpaddq	%ymm19, %ymm7, %ymm7
	vpaddq	%ymm6, %ymm7, %ymm7
	vpxor	%ymm1, %ymm7, %ymm1
	vprolq	$32, %ymm1, %ymm1
	vpaddq	%ymm3, %ymm1, %ymm3
	vpxor	%ymm6, %ymm3, %ymm6
	vmovdqa	%ymm15, %ymm9
	vmovdqu	%ymm15, 352(%rsp)
	vpaddq	%ymm7, %ymm15, %ymm7
	vmovdqu	128(%rsp), %ymm15
	vpaddq	%ymm15, %ymm29, %ymm29
	vpaddq	%ymm14, %ymm29, %ymm29
	vprolq	$40, %ymm6, %ymm6
	vpxorq	%ymm27, %ymm29, %ymm27
	vprolq	$32, %ymm27, %ymm27
	vpaddq	%ymm25, %ymm27, %ymm25
	vpaddq	%ymm6, %ymm7, %ymm7
	vpxorq	%ymm14, %ymm25, %ymm14
	vprolq	$40, %ymm14, %ymm14
	vpaddq	%ymm22, %ymm29, %ymm29
	vpxor	%ymm1, %ymm7, %ymm1
	vpaddq	%ymm14, %ymm29, %ymm29
	vpxorq	%ymm27, %ymm29, %ymm27
	vpaddq	%ymm18, %ymm4, %ymm4
	vprolq	$48, %ymm1, %ymm1
	vpaddq	%ymm28, %ymm4, %ymm4
	vpxor	%ymm4, %ymm8, %ymm8
	vprolq	$32, %ymm8, %ymm8
	vprolq	$48, %ymm27, %ymm27
	vpaddq	%ymm0, %ymm8, %ymm0
	vpxorq	%ymm28, %ymm0, %ymm28
	vprolq	$40, %ymm28, %ymm28
	vpaddq	%ymm1, %ymm3, %ymm3
	vpaddq	%ymm23, %ymm4, %ymm4
	vpaddq	%ymm28, %ymm4, %ymm4
	vpxor	%ymm4, %ymm8, %ymm8
	vpaddq	%ymm27, %ymm25, %ymm25
	vprolq	$48, %ymm8, %ymm8
	vpaddq	%ymm0, %ymm8, %ymm0
	vpaddq	%ymm20, %ymm5, %ymm5
	vpxor	%ymm6, %ymm3, %ymm6
	vpaddq	%ymm24, %ymm5, %ymm5
	vpxorq	%ymm26, %ymm5, %ymm26
	vprolq	$32, %ymm26, %ymm26
	vpxorq	%ymm14, %ymm25, %ymm14
	vpaddq	%ymm2, %ymm26, %ymm2
	vpxorq	%ymm24, %ymm2, %ymm24
	vprolq	$40, %ymm24, %ymm24
	vpxorq	%ymm28, %ymm0, %ymm28
	vmovdqu	384(%rsp), %ymm13
	vpaddq	%ymm5, %ymm13, %ymm5
	vpaddq	%ymm24, %ymm5, %ymm5
	vpxorq	%ymm26, %ymm5, %ymm26
	vprolq	$1, %ymm6, %ymm6
	vprolq	$48, %ymm26, %ymm26
	vpaddq	%ymm26, %ymm2, %ymm2
	vpxorq	%ymm24, %ymm2, %ymm24
	vprolq	$1, %ymm14, %ymm14
	vprolq	$1, %ymm24, %ymm24
	vpaddq	%ymm7, %ymm11, %ymm7
	vpaddq	%ymm24, %ymm7, %ymm7
	vprolq	$1, %ymm28, %ymm28
	vpxorq	%ymm27, %ymm7, %ymm27
	vprolq	$32, %ymm27, %ymm27
	vpaddq	%ymm0, %ymm27, %ymm0
	vpxorq	%ymm24, %ymm0, %ymm24
	vprolq	$40, %ymm24, %ymm24
	vpaddq	%ymm7, %ymm13, %ymm7
	vpaddq	%ymm24, %ymm7, %ymm7
	vpxorq	%ymm27, %ymm7, %ymm27
	vprolq	$48, %ymm27, %ymm27
	vpaddq	%ymm9, %ymm29, %ymm29
	vpaddq	%ymm6, %ymm29, %ymm29
	vpaddq	%ymm27, %ymm0, %ymm0
	vpxorq	%ymm8, %ymm29, %ymm8
	vprolq	$32, %ymm8, %ymm8
	vpaddq	%ymm2, %ymm8, %ymm2
	vpxorq	%ymm24, %ymm0, %ymm24
	vpxor	%ymm6, %ymm2, %ymm6
	vprolq	$40, %ymm6, %ymm6
	vpaddq	%ymm10, %ymm29, %ymm29
	vprolq	$1, %ymm24, %ymm24
	vpaddq	%ymm6, %ymm29, %ymm29
	vmovdqa64	%ymm30, %ymm11
	vpaddq	%ymm30, %ymm4, %ymm4
	vpaddq	%ymm4, %ymm14, %ymm4
	vpxorq	%ymm8, %ymm29, %ymm8
	vpxorq	%ymm26, %ymm4, %ymm26
	vprolq	$32, %ymm26, %ymm26
	vpaddq	%ymm3, %ymm26, %ymm3
	vprolq	$48, %ymm8, %ymm8
	vpxor	%ymm3, %ymm14, %ymm14
	vprolq	$40, %ymm14, %ymm14
	vpaddq	%ymm21, %ymm4, %ymm4
	vmovdqa64	%ymm21, %ymm9
	vpaddq	%ymm2, %ymm8, %ymm2
	vpaddq	%ymm4, %ymm14, %ymm4
	vpxorq	%ymm26, %ymm4, %ymm26
	vprolq	$48, %ymm26, %ymm26
	vpaddq	%ymm26, %ymm3, %ymm3
	vpaddq	%ymm22, %ymm5, %ymm5
	vpaddq	%ymm28, %ymm5, %ymm5
	vpxor	%ymm1, %ymm5, %ymm1
	vpxor	%ymm6, %ymm2, %ymm6
	vprolq	$32, %ymm1, %ymm1
	vpaddq	%ymm25, %ymm1, %ymm25
	vpxorq	%ymm28, %ymm25, %ymm28
	vpxor	%ymm3, %ymm14, %ymm14
	vprolq	$40, %ymm28, %ymm28
	vpaddq	%ymm18, %ymm5, %ymm5
	vpaddq	%ymm28, %ymm5, %ymm5
	vprolq	$1, %ymm6, %ymm6
	vpxor	%ymm1, %ymm5, %ymm1
	vprolq	$48, %ymm1, %ymm1
	vpaddq	%ymm1, %ymm25, %ymm25
	vprolq	$1, %ymm14, %ymm14
	vpxorq	%ymm28, %ymm25, %ymm28
	vprolq	$1, %ymm28, %ymm28
	vpaddq	%ymm16, %ymm7, %ymm7
	vmovdqa64	%ymm16, %ymm21
	vpaddq	%ymm6, %ymm7, %ymm7
	vpxor	%ymm1, %ymm7, %ymm1
	vprolq	$32, %ymm1, %ymm1
	vpaddq	%ymm3, %ymm1, %ymm3
	vpxor	%ymm6, %ymm3, %ymm6
	vmovdqa64	%ymm19, %ymm16
	vpaddq	%ymm19, %ymm7, %ymm7
	vmovdqu64	%ymm17, 320(%rsp)
	vpaddq	%ymm17, %ymm29, %ymm29
	vpaddq	%ymm14, %ymm29, %ymm29
	vprolq	$40, %ymm6, %ymm6
	vpxorq	%ymm27, %ymm29, %ymm27
	vprolq	$32, %ymm27, %ymm27
	vpaddq	%ymm25, %ymm27, %ymm25
	vpaddq	%ymm6, %ymm7, %ymm7
	vpxorq	%ymm14, %ymm25, %ymm14
	vprolq	$40, %ymm14, %ymm14
	vmovdqu64	224(%rsp), %ymm19
	vpaddq	%ymm19, %ymm29, %ymm29
	vpxor	%ymm1, %ymm7, %ymm1
	vpaddq	%ymm14, %ymm29, %ymm29
	vpxorq	%ymm27, %ymm29, %ymm27
	vpaddq	%ymm20, %ymm4, %ymm4
	vprolq	$48, %ymm1, %ymm1
	vpaddq	%ymm28, %ymm4, %ymm4
	vpxor	%ymm4, %ymm8, %ymm8
	vprolq	$32, %ymm8, %ymm8
	vprolq	$48, %ymm27, %ymm27
	vpaddq	%ymm0, %ymm8, %ymm0
	vpxorq	%ymm28, %ymm0, %ymm28
	vprolq	$40, %ymm28, %ymm28
	vpaddq	%ymm1, %ymm3, %ymm3
	vpaddq	%ymm4, %ymm15, %ymm4
	vpaddq	%ymm28, %ymm4, %ymm4
	vpxor	%ymm4, %ymm8, %ymm8
	vpaddq	%ymm27, %ymm25, %ymm25
	vprolq	$48, %ymm8, %ymm8
	vpaddq	%ymm0, %ymm8, %ymm0
	vpaddq	%ymm23, %ymm5, %ymm5
	vpxor	%ymm6, %ymm3, %ymm6
	vpaddq	%ymm24, %ymm5, %ymm5
	vpxorq	%ymm26, %ymm5, %ymm26
	vprolq	$32, %ymm26, %ymm26
	vpxorq	%ymm14, %ymm25, %ymm14
	vpaddq	%ymm2, %ymm26, %ymm2
	vpxorq	%ymm24, %ymm2, %ymm24
	vprolq	$40, %ymm24, %ymm24
	vpxorq	%ymm28, %ymm0, %ymm28
	vpaddq	%ymm31, %ymm5, %ymm5
	vpaddq	%ymm24, %ymm5, %ymm5
	vpxorq	%ymm26, %ymm5, %ymm26
	vprolq	$1, %ymm6, %ymm6
	vprolq	$48, %ymm26, %ymm30
	vpaddq	%ymm30, %ymm2, %ymm2
	vpxorq	%ymm24, %ymm2, %ymm24
	vprolq	$1, %ymm14, %ymm14
	vprolq	$1, %ymm24, %ymm24
	vpaddq	%ymm7, %ymm15, %ymm7
	vpaddq	%ymm24, %ymm7, %ymm7
	vprolq	$1, %ymm28, %ymm28
	vpxorq	%ymm27, %ymm7, %ymm26
	vprolq	$32, %ymm26, %ymm26
	vpaddq	%ymm0, %ymm26, %ymm0
	vpxorq	%ymm24, %ymm0, %ymm24
	vprolq	$40, %ymm24, %ymm24
	vpaddq	%ymm17, %ymm7, %ymm7
	vpaddq	%ymm24, %ymm7, %ymm7
	vpxorq	%ymm26, %ymm7, %ymm26
	vprolq	$48, %ymm26, %ymm26
	vpaddq	%ymm10, %ymm29, %ymm27
	vpaddq	%ymm6, %ymm27, %ymm27
	vpaddq	%ymm26, %ymm0, %ymm0
	vpxorq	%ymm8, %ymm27, %ymm8
	vprolq	$32, %ymm8, %ymm8
	vpaddq	%ymm2, %ymm8, %ymm2
	vpxorq	%ymm24, %ymm0, %ymm24
	vpxor	%ymm6, %ymm2, %ymm6
	vprolq	$40, %ymm6, %ymm6
	vpaddq	%ymm18, %ymm27, %ymm27
	vprolq	$1, %ymm24, %ymm24
	vpaddq	%ymm6, %ymm27, %ymm29
	vpaddq	%ymm4, %ymm13, %ymm4
	vpaddq	%ymm4, %ymm14, %ymm4
	vpxorq	%ymm8, %ymm29, %ymm8
	vpxorq	%ymm30, %ymm4, %ymm27
	vprolq	$32, %ymm27, %ymm27
	vpaddq	%ymm3, %ymm27, %ymm3
	vprolq	$48, %ymm8, %ymm8
	vpxor	%ymm3, %ymm14, %ymm14
	vprolq	$40, %ymm14, %ymm14
	vpaddq	%ymm22, %ymm4, %ymm4
	vpaddq	%ymm2, %ymm8, %ymm2
	vpaddq	%ymm4, %ymm14, %ymm4
	vpxorq	%ymm27, %ymm4, %ymm27
	vprolq	$48, %ymm27, %ymm27
	vpaddq	%ymm27, %ymm3, %ymm3
	vpaddq	%ymm16, %ymm5, %ymm5
	vpaddq	%ymm28, %ymm5, %ymm5
	vpxor	%ymm1, %ymm5, %ymm1
	vpxor	%ymm6, %ymm2, %ymm6
	vprolq	$32, %ymm1, %ymm1
	vpaddq	%ymm25, %ymm1, %ymm25
	vpxorq	%ymm28, %ymm25, %ymm28
	vpxor	%ymm3, %ymm14, %ymm14
	vprolq	$40, %ymm28, %ymm28
	vpaddq	%ymm20, %ymm5, %ymm5
	vmovdqa64	%ymm20, %ymm16
	vpaddq	%ymm28, %ymm5, %ymm5
	vprolq	$1, %ymm6, %ymm6
	vpxor	%ymm1, %ymm5, %ymm1
	vprolq	$48, %ymm1, %ymm1
	vpaddq	%ymm1, %ymm25, %ymm25
	vprolq	$1, %ymm14, %ymm14
	vpxorq	%ymm28, %ymm25, %ymm28
	vprolq	$1, %ymm28, %ymm28
	vpaddq	%ymm7, %ymm11, %ymm7
	vmovdqa	%ymm11, %ymm10
	vpaddq	%ymm6, %ymm7, %ymm7
	vpxor	%ymm1, %ymm7, %ymm1
	vprolq	$32, %ymm1, %ymm1
	vpaddq	%ymm3, %ymm1, %ymm3
	vpxor	%ymm6, %ymm3, %ymm6
	vpaddq	%ymm23, %ymm7, %ymm7
	vmovdqu64	192(%rsp), %ymm20
	vpaddq	%ymm20, %ymm29, %ymm29
	vpaddq	%ymm14, %ymm29, %ymm29
	vprolq	$40, %ymm6, %ymm6
	vpxorq	%ymm26, %ymm29, %ymm26
	vprolq	$32, %ymm26, %ymm26
	vpaddq	%ymm25, %ymm26, %ymm25
	vpaddq	%ymm6, %ymm7, %ymm7
	vpxorq	%ymm14, %ymm25, %ymm14
	vprolq	$40, %ymm14, %ymm14
	vmovdqu	352(%rsp), %ymm11
	vpaddq	%ymm11, %ymm29, %ymm29
	vpxor	%ymm1, %ymm7, %ymm1
	vpaddq	%ymm14, %ymm29, %ymm29
	vpxorq	%ymm26, %ymm29, %ymm26
	vpaddq	%ymm4, %ymm9, %ymm4
	vprolq	$48, %ymm1, %ymm1
	vpaddq	%ymm28, %ymm4, %ymm4
	vpxor	%ymm4, %ymm8, %ymm8
	vprolq	$32, %ymm8, %ymm8
	vprolq	$48, %ymm26, %ymm30
	vpaddq	%ymm0, %ymm8, %ymm0
	vpxorq	%ymm28, %ymm0, %ymm26
	vprolq	$40, %ymm26, %ymm28
	vpaddq	%ymm1, %ymm3, %ymm3
	vpaddq	%ymm19, %ymm4, %ymm4
	vpaddq	%ymm28, %ymm4, %ymm4
	vpxor	%ymm4, %ymm8, %ymm8
	vpaddq	%ymm30, %ymm25, %ymm26
	vprolq	$48, %ymm8, %ymm8
	vpaddq	%ymm0, %ymm8, %ymm0
	vmovdqu64	%ymm31, 448(%rsp)
	vpaddq	%ymm31, %ymm5, %ymm5
	vpxor	%ymm6, %ymm3, %ymm6
	vpaddq	%ymm24, %ymm5, %ymm5
	vpxorq	%ymm27, %ymm5, %ymm25
	vprolq	$32, %ymm25, %ymm25
	vpxorq	%ymm14, %ymm26, %ymm14
	vpaddq	%ymm2, %ymm25, %ymm2
	vpxorq	%ymm24, %ymm2, %ymm24
	vprolq	$40, %ymm24, %ymm24
	vpxorq	%ymm28, %ymm0, %ymm27
	vpaddq	%ymm21, %ymm5, %ymm5
	vpaddq	%ymm24, %ymm5, %ymm5
	vpxorq	%ymm25, %ymm5, %ymm25
	vprolq	$1, %ymm6, %ymm6
	vprolq	$48, %ymm25, %ymm25
	vpaddq	%ymm25, %ymm2, %ymm28
	vpxorq	%ymm24, %ymm28, %ymm2
	vprolq	$1, %ymm14, %ymm14
	vprolq	$1, %ymm2, %ymm2
	vpaddq	%ymm31, %ymm7, %ymm7
	vpaddq	%ymm2, %ymm7, %ymm7
	vprolq	$1, %ymm27, %ymm31
	vpxorq	%ymm30, %ymm7, %ymm24
	vprolq	$32, %ymm24, %ymm24
	vpaddq	%ymm0, %ymm24, %ymm0
	vpxor	%ymm2, %ymm0, %ymm2
	vprolq	$40, %ymm2, %ymm27
	vpaddq	%ymm23, %ymm7, %ymm2
	vmovdqu64	%ymm23, 480(%rsp)
	vpaddq	%ymm27, %ymm2, %ymm7
	vpxorq	%ymm24, %ymm7, %ymm2
	vprolq	$48, %ymm2, %ymm2
	vpaddq	%ymm16, %ymm29, %ymm24
	vpaddq	%ymm6, %ymm24, %ymm24
	vpaddq	%ymm2, %ymm0, %ymm0
	vpxorq	%ymm8, %ymm24, %ymm8
	vprolq	$32, %ymm8, %ymm8
	vpaddq	%ymm28, %ymm8, %ymm28
	vpxorq	%ymm27, %ymm0, %ymm27
	vpxorq	%ymm6, %ymm28, %ymm6
	vprolq	$40, %ymm6, %ymm6
	vpaddq	%ymm19, %ymm24, %ymm29
	vprolq	$1, %ymm27, %ymm24
	vpaddq	%ymm6, %ymm29, %ymm29
	vpaddq	%ymm4, %ymm11, %ymm4
	vpaddq	%ymm4, %ymm14, %ymm4
	vpxorq	%ymm8, %ymm29, %ymm8
	vpxorq	%ymm25, %ymm4, %ymm25
	vprolq	$32, %ymm25, %ymm27
	vpaddq	%ymm3, %ymm27, %ymm3
	vprolq	$48, %ymm8, %ymm8
	vpxor	%ymm3, %ymm14, %ymm14
	vprolq	$40, %ymm14, %ymm14
	vpaddq	%ymm4, %ymm15, %ymm4
	vpaddq	%ymm8, %ymm28, %ymm25
	vpaddq	%ymm4, %ymm14, %ymm4
	vpxorq	%ymm27, %ymm4, %ymm27
	vprolq	$48, %ymm27, %ymm27
	vpaddq	%ymm27, %ymm3, %ymm3
	vmovdqa	%ymm9, %ymm12
	vpaddq	%ymm5, %ymm9, %ymm5
	vpaddq	%ymm31, %ymm5, %ymm5
	vpxor	%ymm1, %ymm5, %ymm1
	vpxorq	%ymm6, %ymm25, %ymm6
	vprolq	$32, %ymm1, %ymm1
	vpaddq	%ymm26, %ymm1, %ymm26
	vpxorq	%ymm31, %ymm26, %ymm28
	vpxor	%ymm3, %ymm14, %ymm14
	vprolq	$40, %ymm28, %ymm28
	vpaddq	%ymm21, %ymm5, %ymm5
	vpaddq	%ymm28, %ymm5, %ymm5
	vprolq	$1, %ymm6, %ymm6
	vpxor	%ymm1, %ymm5, %ymm1
	vprolq	$48, %ymm1, %ymm1
	vpaddq	%ymm1, %ymm26, %ymm26
	vprolq	$1, %ymm14, %ymm14
	vpxorq	%ymm28, %ymm26, %ymm28
	vprolq	$1, %ymm28, %ymm28
	vmovdqu64	320(%rsp), %ymm22
	vpaddq	%ymm22, %ymm7, %ymm7
	vpaddq	%ymm6, %ymm7, %ymm7
	vpxor	%ymm1, %ymm7, %ymm1
	vprolq	$32, %ymm1, %ymm1
	vpaddq	%ymm3, %ymm1, %ymm3
	vpxor	%ymm6, %ymm3, %ymm6
	vpaddq	%ymm7, %ymm13, %ymm7
	vmovdqu64	64(%rsp), %ymm18
	vpaddq	%ymm18, %ymm29, %ymm29
	vpaddq	%ymm14, %ymm29, %ymm29
	vprolq	$40, %ymm6, %ymm6
	vpxorq	%ymm2, %ymm29, %ymm2
	vprolq	$32, %ymm2, %ymm2
	vpaddq	%ymm26, %ymm2, %ymm26
	vpaddq	%ymm6, %ymm7, %ymm7
	vpxorq	%ymm14, %ymm26, %ymm14
	vprolq	$40, %ymm14, %ymm14
	vmovdqu	160(%rsp), %ymm9
	vpaddq	%ymm9, %ymm29, %ymm29
	vpxor	%ymm1, %ymm7, %ymm1
	vpaddq	%ymm14, %ymm29, %ymm30
	vpxorq	%ymm2, %ymm30, %ymm29
	vmovdqu64	(%rsp), %ymm17
	vpaddq	%ymm17, %ymm4, %ymm4
	vprolq	$48, %ymm1, %ymm2
	vpaddq	%ymm28, %ymm4, %ymm1
	vpxor	%ymm1, %ymm8, %ymm4
	vprolq	$32, %ymm4, %ymm4
	vprolq	$48, %ymm29, %ymm8
	vpaddq	%ymm0, %ymm4, %ymm31
	vpxorq	%ymm28, %ymm31, %ymm0
	vprolq	$40, %ymm0, %ymm28
	vpaddq	%ymm2, %ymm3, %ymm0
	vpaddq	%ymm1, %ymm10, %ymm1
	vpaddq	%ymm28, %ymm1, %ymm1
	vpxor	%ymm4, %ymm1, %ymm3
	vpaddq	%ymm8, %ymm26, %ymm29
	vprolq	$48, %ymm3, %ymm3
	vpaddq	%ymm3, %ymm31, %ymm4
	vpaddq	%ymm20, %ymm5, %ymm5
	vpxor	%ymm6, %ymm0, %ymm6
	vpaddq	%ymm24, %ymm5, %ymm5
	vpxorq	%ymm27, %ymm5, %ymm26
	vprolq	$32, %ymm26, %ymm26
	vpxorq	%ymm14, %ymm29, %ymm14
	vpaddq	%ymm25, %ymm26, %ymm25
	vpxorq	%ymm24, %ymm25, %ymm24
	vprolq	$40, %ymm24, %ymm24
	vpxorq	%ymm28, %ymm4, %ymm27
	vmovdqu	32(%rsp), %ymm10
	vpaddq	%ymm5, %ymm10, %ymm5
	vpaddq	%ymm24, %ymm5, %ymm5
	vpxorq	%ymm26, %ymm5, %ymm26
	vprolq	$1, %ymm6, %ymm6
	vprolq	$48, %ymm26, %ymm31
	vpaddq	%ymm31, %ymm25, %ymm25
	vpxorq	%ymm24, %ymm25, %ymm24
	vprolq	$1, %ymm14, %ymm14
	vprolq	$1, %ymm24, %ymm24
	vpaddq	%ymm7, %ymm10, %ymm7
	vpaddq	%ymm24, %ymm7, %ymm7
	vprolq	$1, %ymm27, %ymm28
	vpxor	%ymm7, %ymm8, %ymm8
	vprolq	$32, %ymm8, %ymm8
	vpaddq	%ymm4, %ymm8, %ymm26
	vpxorq	%ymm24, %ymm26, %ymm4
	vprolq	$40, %ymm4, %ymm27
	vpaddq	%ymm7, %ymm12, %ymm4
	vpaddq	%ymm23, %ymm30, %ymm7
	vpaddq	%ymm27, %ymm4, %ymm30
	vpaddq	%ymm6, %ymm7, %ymm4
	vpxor	%ymm3, %ymm4, %ymm3
	vprolq	$32, %ymm3, %ymm3
	vpxorq	%ymm8, %ymm30, %ymm7
	vpaddq	%ymm25, %ymm3, %ymm8
	vpxor	%ymm6, %ymm8, %ymm6
	vpaddq	%ymm17, %ymm4, %ymm4
	vprolq	$40, %ymm6, %ymm6
	vpaddq	%ymm19, %ymm1, %ymm1
	vpaddq	%ymm1, %ymm14, %ymm1
	vpxorq	%ymm31, %ymm1, %ymm24
	vpaddq	%ymm6, %ymm4, %ymm31
	vprolq	$32, %ymm24, %ymm4
	vpaddq	%ymm0, %ymm4, %ymm0
	vpxor	%ymm0, %ymm14, %ymm14
	vpxorq	%ymm3, %ymm31, %ymm3
	vprolq	$40, %ymm14, %ymm14
	vpaddq	%ymm21, %ymm1, %ymm1
	vpaddq	%ymm14, %ymm1, %ymm25
	vprolq	$48, %ymm3, %ymm24
	vpxorq	%ymm4, %ymm25, %ymm1
	vprolq	$48, %ymm1, %ymm4
	vpaddq	%ymm5, %ymm15, %ymm1
	vpaddq	%ymm24, %ymm8, %ymm3
	vpaddq	%ymm28, %ymm1, %ymm5
	vpxor	%ymm2, %ymm5, %ymm1
	vprolq	$32, %ymm1, %ymm2
	vpaddq	%ymm4, %ymm0, %ymm8
	vpaddq	%ymm29, %ymm2, %ymm0
	vpxorq	%ymm28, %ymm0, %ymm1
	vprolq	$40, %ymm1, %ymm1
	vpxor	%ymm6, %ymm3, %ymm6
	vpaddq	%ymm5, %ymm11, %ymm5
	vpaddq	%ymm1, %ymm5, %ymm28
	vpxorq	%ymm2, %ymm28, %ymm5
	vpxor	%ymm14, %ymm8, %ymm2
	vprolq	$48, %ymm5, %ymm5
	vpaddq	%ymm5, %ymm0, %ymm0
	vpaddq	%ymm16, %ymm30, %ymm14
	vprolq	$1, %ymm6, %ymm6
	vpaddq	%ymm6, %ymm14, %ymm14
	vpxor	%ymm5, %ymm14, %ymm5
	vprolq	$32, %ymm5, %ymm5
	vpaddq	%ymm8, %ymm5, %ymm30
	vpxorq	%ymm6, %ymm30, %ymm6
	vprolq	$40, %ymm6, %ymm29
	vpaddq	%ymm18, %ymm14, %ymm6
	vpaddq	%ymm29, %ymm6, %ymm6
	vpxor	%ymm5, %ymm6, %ymm5
	vpaddq	%ymm9, %ymm28, %ymm8
	vpaddq	%ymm6, %ymm9, %ymm6
	vprolq	$48, %ymm7, %ymm7
	vpaddq	%ymm7, %ymm26, %ymm14
	vpxorq	%ymm27, %ymm14, %ymm23
	vprolq	$1, %ymm23, %ymm23
	vprolq	$1, %ymm2, %ymm2
	vpxor	%ymm1, %ymm0, %ymm1
	vmovdqu	448(%rsp), %ymm9
	vpaddq	%ymm9, %ymm31, %ymm26
	vpaddq	%ymm2, %ymm26, %ymm26
	vpxorq	%ymm7, %ymm26, %ymm7
	vprolq	$32, %ymm7, %ymm7
	vpaddq	%ymm0, %ymm7, %ymm0
	vpxor	%ymm2, %ymm0, %ymm2
	vprolq	$40, %ymm2, %ymm2
	vmovdqa64	%ymm13, %ymm31
	vpaddq	%ymm13, %ymm26, %ymm26
	vpaddq	%ymm23, %ymm8, %ymm8
	vpxor	%ymm4, %ymm8, %ymm4
	vpaddq	%ymm2, %ymm26, %ymm27
	vprolq	$32, %ymm4, %ymm4
	vpaddq	%ymm3, %ymm4, %ymm3
	vpxorq	%ymm23, %ymm3, %ymm23
	vpxorq	%ymm7, %ymm27, %ymm7
	vprolq	$40, %ymm23, %ymm28
	vpaddq	%ymm22, %ymm8, %ymm8
	vpaddq	%ymm28, %ymm8, %ymm26
	vprolq	$48, %ymm7, %ymm7
	vpxorq	%ymm4, %ymm26, %ymm4
	vprolq	$48, %ymm4, %ymm8
	vpaddq	%ymm8, %ymm3, %ymm23
	vpaddq	%ymm7, %ymm0, %ymm0
	vpxorq	%ymm28, %ymm23, %ymm3
	vprolq	$1, %ymm3, %ymm3
	vpaddq	%ymm3, %ymm6, %ymm6
	vpxor	%ymm7, %ymm6, %ymm4
	vpaddq	%ymm9, %ymm6, %ymm28
	vpaddq	%ymm19, %ymm27, %ymm6
	vprolq	$1, %ymm1, %ymm7
	vprolq	$48, %ymm5, %ymm5
	vmovdqu	96(%rsp), %ymm9
	vpaddq	%ymm9, %ymm25, %ymm1
	vpaddq	%ymm7, %ymm1, %ymm21
	vpxorq	%ymm24, %ymm21, %ymm24
	vpaddq	%ymm5, %ymm30, %ymm1
	vprolq	$32, %ymm24, %ymm24
	vpaddq	%ymm14, %ymm24, %ymm14
	vpxor	%ymm7, %ymm14, %ymm7
	vpxorq	%ymm29, %ymm1, %ymm25
	vprolq	$40, %ymm7, %ymm7
	vmovdqa64	%ymm20, %ymm12
	vpaddq	%ymm20, %ymm21, %ymm21
	vpaddq	%ymm7, %ymm21, %ymm21
	vprolq	$1, %ymm25, %ymm25
	vpxorq	%ymm24, %ymm21, %ymm24
	vprolq	$48, %ymm24, %ymm24
	vpaddq	%ymm24, %ymm14, %ymm14
	vpaddq	%ymm25, %ymm6, %ymm6
	vpxorq	%ymm24, %ymm6, %ymm24
	vpaddq	%ymm16, %ymm6, %ymm6
	vpaddq	%ymm18, %ymm21, %ymm18
	vpxor	%ymm2, %ymm0, %ymm2
	vprolq	$1, %ymm2, %ymm2
	vpaddq	%ymm2, %ymm18, %ymm18
	vpxorq	%ymm8, %ymm18, %ymm8
	vpaddq	%ymm22, %ymm18, %ymm20
	vpaddq	%ymm12, %ymm26, %ymm17
	vpxor	%ymm7, %ymm14, %ymm7
	vprolq	$1, %ymm7, %ymm7
	vpaddq	%ymm7, %ymm17, %ymm17
	vpxorq	%ymm5, %ymm17, %ymm5
	vpaddq	%ymm15, %ymm17, %ymm18
	vprolq	$32, %ymm4, %ymm4
	vpaddq	%ymm4, %ymm14, %ymm14
	vpxor	%ymm3, %ymm14, %ymm3
	vprolq	$40, %ymm3, %ymm15
	vpaddq	%ymm15, %ymm28, %ymm3
	vpxor	%ymm4, %ymm3, %ymm4
	vpaddq	256(%rsp), %ymm3, %ymm3
	vprolq	$32, %ymm24, %ymm10
	vpaddq	%ymm23, %ymm10, %ymm19
	vpxorq	%ymm25, %ymm19, %ymm17
	vprolq	$40, %ymm17, %ymm21
	vpaddq	%ymm21, %ymm6, %ymm17
	vpxorq	%ymm10, %ymm17, %ymm6
	vprolq	$48, %ymm6, %ymm6
	vpaddq	%ymm6, %ymm19, %ymm10
	vprolq	$32, %ymm5, %ymm5
	vpaddq	%ymm0, %ymm5, %ymm0
	vpxorq	%ymm21, %ymm10, %ymm21
	vpxor	%ymm7, %ymm0, %ymm7
	vprolq	$40, %ymm7, %ymm7
	vpaddq	%ymm7, %ymm18, %ymm19
	vprolq	$1, %ymm21, %ymm21
	vpxorq	%ymm5, %ymm19, %ymm5
	vprolq	$48, %ymm5, %ymm5
	vpaddq	%ymm5, %ymm0, %ymm18
	vpaddq	%ymm21, %ymm3, %ymm0
	vpxor	%ymm5, %ymm0, %ymm5
	vpaddq	%ymm0, %ymm9, %ymm13
	vprolq	$32, %ymm8, %ymm8
	vprolq	$48, %ymm4, %ymm0
	vpaddq	%ymm1, %ymm8, %ymm4
	vpxor	%ymm2, %ymm4, %ymm1
	vprolq	$40, %ymm1, %ymm2
	vpaddq	%ymm0, %ymm14, %ymm3
	vpaddq	%ymm2, %ymm20, %ymm14
	vpxor	%ymm8, %ymm14, %ymm1
	vprolq	$48, %ymm1, %ymm1
	vpaddq	%ymm1, %ymm4, %ymm4
	vpxorq	%ymm7, %ymm18, %ymm7
	vprolq	$1, %ymm7, %ymm7
	vpaddq	%ymm31, %ymm14, %ymm8
	vprolq	$32, %ymm5, %ymm14
	vpaddq	%ymm4, %ymm14, %ymm20
	vpxorq	%ymm21, %ymm20, %ymm5
	vpaddq	%ymm7, %ymm8, %ymm8
	vprolq	$40, %ymm5, %ymm21
	vpxor	%ymm6, %ymm8, %ymm5
	vprolq	$32, %ymm5, %ymm5
	vpaddq	%ymm11, %ymm8, %ymm6
	vpaddq	%ymm21, %ymm13, %ymm11
	vpaddq	%ymm3, %ymm5, %ymm8
	vpxor	%ymm7, %ymm8, %ymm7
	vprolq	$40, %ymm7, %ymm7
	vpaddq	%ymm7, %ymm6, %ymm6
	vpxor	%ymm5, %ymm6, %ymm5
	vprolq	$48, %ymm5, %ymm5
	vpaddq	%ymm5, %ymm8, %ymm8
	vpxor	%ymm7, %ymm8, %ymm9
	vpternlogq	$150, 640(%rsp), %ymm11, %ymm8
	vpxor	%ymm14, %ymm11, %ymm7
	vprolq	$48, %ymm7, %ymm7
	vpaddq	%ymm7, %ymm20, %ymm24
	vpxorq	%ymm21, %ymm24, %ymm11
	vpternlogq	$150, 512(%rsp), %ymm6, %ymm24
	vpxor	%ymm3, %ymm15, %ymm3
	vpxor	%ymm2, %ymm4, %ymm2
	vpaddq	32(%rsp), %ymm17, %ymm4
	vprolq	$1, %ymm2, %ymm2
	vpaddq	%ymm2, %ymm4, %ymm4
	vpxor	%ymm0, %ymm4, %ymm0
	vpaddq	480(%rsp), %ymm4, %ymm4
	vpaddq	288(%rsp), %ymm19, %ymm6
	vprolq	$1, %ymm3, %ymm3
	vpaddq	%ymm3, %ymm6, %ymm6
	vpxor	%ymm1, %ymm6, %ymm1
	vpaddq	(%rsp), %ymm6, %ymm6
	vprolq	$32, %ymm0, %ymm0
	vpaddq	%ymm18, %ymm0, %ymm13
	vpxor	%ymm2, %ymm13, %ymm2
	vprolq	$32, %ymm1, %ymm1
	vpaddq	%ymm1, %ymm10, %ymm10
	vprolq	$40, %ymm2, %ymm2
	vpxor	%ymm3, %ymm10, %ymm3
	vprolq	$40, %ymm3, %ymm3
	vpaddq	%ymm3, %ymm6, %ymm6
	vpaddq	%ymm2, %ymm4, %ymm4
	vpxor	%ymm1, %ymm6, %ymm1
	vprolq	$48, %ymm1, %ymm15
	vpaddq	%ymm15, %ymm10, %ymm25
	vpxorq	%ymm3, %ymm25, %ymm1
	vpternlogq	$150, 576(%rsp), %ymm4, %ymm25
	vpxor	%ymm0, %ymm4, %ymm0
	vprolq	$48, %ymm0, %ymm3
	vprolq	$1, %ymm1, %ymm0
	vpternlogq	$150, 736(%rsp), %ymm3, %ymm0
	vpaddq	%ymm3, %ymm13, %ymm1
	vpxor	%ymm2, %ymm1, %ymm2
	vpternlogq	$150, 672(%rsp), %ymm6, %ymm1
	vprolq	$1, %ymm11, %ymm14
	vpternlogq	$150, 608(%rsp), %ymm5, %ymm14
	vprolq	$1, %ymm2, %ymm12
	vpternlogq	$150, 544(%rsp), %ymm15, %ymm12
	vprolq	$1, %ymm9, %ymm2
	vpternlogq	$150, 704(%rsp), %ymm7, %ymm2
	subq	$-128, %rax
	cmpq	%rax, %rcx
	jne	1b
	addq	$776, %rsp
2:
	vmovdqu	%ymm8, (%rdi)
	vmovdqu64	%ymm25, 32(%rdi)
	vmovdqu64	%ymm24, 64(%rdi)
	vmovdqu	%ymm1, 96(%rdi)
	vmovdqu	%ymm0, 128(%rdi)
	vmovdqu	%ymm14, 160(%rdi)
	vmovdqu	%ymm12, 192(%rdi)
	vmovdqu	%ymm2, 224(%rdi)
	vzeroupper
	vpxord	%xmm16, %xmm16, %xmm16
	vpxord	%xmm17, %xmm17, %xmm17
	vpxord	%xmm18, %xmm18, %xmm18
	vpxord	%xmm19, %xmm19, %xmm19
	vpxord	%xmm20, %xmm20, %xmm20
	vpxord	%xmm21, %xmm21, %xmm21
	vpxord	%xmm22, %xmm22, %xmm22
	vpxord	%xmm23, %xmm23, %xmm23
	vpxord	%xmm24, %xmm24, %xmm24
	vpxord	%xmm25, %xmm25, %xmm25
	vpxord	%xmm26, %xmm26, %xmm26
	vpxord	%xmm27, %xmm27, %xmm27
	vpxord	%xmm28, %xmm28, %xmm28
	vpxord	%xmm29, %xmm29, %xmm29
	vpxord	%xmm30, %xmm30, %xmm30
	vpxord	%xmm31, %xmm31, %xmm31
	retq
	vj_end	blake2_parallel..lanes..blake2bp..compress_in_lanes_1_v4

	vj_function	blake2_parallel..lanes..blake2bp..Lanes..compress_held_1_v4
	pushq	%rbp
	pushq	%r15
	pushq	%r14
	pushq	%r13
	pushq	%r12
	pushq	%rbx
	subq	$1160, %rsp
	movq	%rdi, %rbx
	vmovups	(%rdi), %ymm0
	vmovups	32(%rdi), %ymm1
	vmovups	64(%rdi), %ymm2
	vmovups	96(%rdi), %ymm3
	vmovups	128(%rdi), %ymm4
	vmovups	160(%rdi), %ymm5
	vmovups	192(%rdi), %ymm6
	vmovups	224(%rdi), %ymm7
	vmovups	%ymm0, 8(%rsp)
	vmovups	%ymm1, 40(%rsp)
	vmovups	%ymm2, 72(%rsp)
	vmovups	%ymm3, 104(%rsp)
	vmovups	%ymm4, 136(%rsp)
	vmovups	%ymm5, 168(%rsp)
	vmovups	%ymm6, 200(%rsp)
	vmovups	%ymm7, 232(%rsp)
	movq	256(%rdi), %r15
	leaq	272(%rdi), %r14
	leaq	8(%rsp), %rdi
	movl	$1, %ecx
	movq	%r14, %rsi
	movq	%r15, %rdx
	vzeroupper
	callq	blake2_parallel..lanes..blake2bp..compress_in_lanes_1_v4
	leaq	784(%rbx), %rbp
	movq	$-512, %r12
	addq	264(%rbx), %r12
	leaq	264(%rsp), %r13
	movl	$896, %edx
	movq	%r13, %rdi
	xorl	%esi, %esi
	vj_c_call	memset
	movq	%r13, %rdi
	movq	%rbp, %rsi
	movq	%r12, %rdx
	vj_c_call	memcpy
	vmovups	8(%rsp), %ymm0
	vmovups	%ymm0, (%rbx)
	vmovups	40(%rsp), %ymm0
	vmovups	%ymm0, 32(%rbx)
	vmovups	72(%rsp), %ymm0
	vmovups	%ymm0, 64(%rbx)
	vmovups	104(%rsp), %ymm0
	vmovups	%ymm0, 96(%rbx)
	vmovups	136(%rsp), %ymm0
	vmovups	%ymm0, 128(%rbx)
	vmovups	168(%rsp), %ymm0
	vmovups	%ymm0, 160(%rbx)
	vmovups	200(%rsp), %ymm0
	vmovups	%ymm0, 192(%rbx)
	vmovups	232(%rsp), %ymm0
	vmovups	%ymm0, 224(%rbx)
	subq	$-128, %r15
	movq	%r15, 256(%rbx)
	movl	$896, %edx
	movq	%r14, %rdi
	movq	%r13, %rsi
	vzeroupper
	vj_c_call	memcpy
	movq	%r12, 264(%rbx)
	addq	$1160, %rsp
	popq	%rbx
	popq	%r12
	popq	%r13
	popq	%r14
	popq	%r15
	popq	%rbp
	retq
	vj_end	blake2_parallel..lanes..blake2bp..Lanes..compress_held_1_v4

	vj_function	blake2_ffi..blake2bp..is_digest_of_1_v4
	pushq	%rbp
	pushq	%r15
	pushq	%r14
	pushq	%r13
	pushq	%r12
	pushq	%rbx
	subq	$392, %rsp
	movq	%rdx, %rbx
	movq	%rsi, %r14
	movq	%rdi, %r15
	vxorps	%xmm0, %xmm0, %xmm0
	vmovups	%ymm0, 32(%rsp)
	vmovups	%ymm0, (%rsp)
	leaq	136(%rsp), %r12
	movq	%r12, %rdi
	movq	%r15, %rsi
	vzeroupper
	vj_call	blake2_parallel..lanes..blake2bp..Lanes..outputs_1_v4
	vmovups	1424(%r15), %ymm0
	vmovups	1456(%r15), %ymm1
	vmovups	%ymm0, 72(%rsp)
	vmovups	%ymm1, 104(%rsp)
	leaq	72(%rsp), %r13
	xorl	%ebp, %ebp
	movl	$128, %edx
	movq	%r13, %rdi
	movq	%r12, %rsi
	xorl	%ecx, %ecx
	xorl	%r8d, %r8d
	vzeroupper
	vj_call	blake2_compress..compress..blake2b..compress_1_v4
	movl	$256, %edx
	movq	%r13, %rdi
	leaq	264(%rsp), %rsi
	movl	$1, %ecx
	movl	$1, %r8d
	vj_call	blake2_compress..compress..blake2b..compress_1_v4
	vmovdqu	72(%rsp), %ymm0
	vmovdqu	104(%rsp), %ymm1
	vmovdqu	%ymm0, (%rsp)
	vmovdqu	%ymm1, 32(%rsp)
	cmpq	1496(%r15), %rbx
	jne	10f
	testq	%rbx, %rbx
	je	1f
	cmpq	$8, %rbx
	jae	2f
	xorl	%ecx, %ecx
	xorl	%eax, %eax
	jmp	7f
1:
	movb	$1, %bpl
	jmp	10f
2:
	cmpq	$128, %rbx
	jae	3f
	xorl	%eax, %eax
	xorl	%ecx, %ecx
	jmp	5f
3:
	movq	%rbx, %rax
	andq	$-128, %rax
	vpxor	%xmm0, %xmm0, %xmm0
	xorl	%ecx, %ecx
	vpxor	%xmm1, %xmm1, %xmm1
	vpxor	%xmm3, %xmm3, %xmm3
	vpxor	%xmm2, %xmm2, %xmm2
	.p2align	4
4:
	vmovdqu	(%rsp,%rcx), %ymm4
	vmovdqu	32(%rsp,%rcx), %ymm5
	vmovdqu	64(%rsp,%rcx), %ymm6
	vmovdqu	96(%rsp,%rcx), %ymm7
	vpternlogq	$246, (%r14,%rcx), %ymm4, %ymm1
	vpternlogq	$246, 32(%r14,%rcx), %ymm5, %ymm3
	vpternlogq	$246, 64(%r14,%rcx), %ymm6, %ymm2
	vpternlogq	$246, 96(%r14,%rcx), %ymm7, %ymm0
	subq	$-128, %rcx
	cmpq	%rcx, %rax
	jne	4b
	vpor	%ymm1, %ymm3, %ymm1
	vpternlogq	$254, %ymm1, %ymm2, %ymm0
	vextracti128	$1, %ymm0, %xmm1
	vpor	%xmm1, %xmm0, %xmm0
	vpshufd	$238, %xmm0, %xmm1
	vpor	%xmm1, %xmm0, %xmm0
	vpshufd	$85, %xmm0, %xmm1
	vpor	%xmm1, %xmm0, %xmm0
	vpsrld	$16, %xmm0, %xmm1
	vpor	%xmm1, %xmm0, %xmm0
	vpsrlw	$8, %xmm0, %xmm1
	vpor	%xmm1, %xmm0, %xmm0
	vmovd	%xmm0, %ecx
	cmpq	%rax, %rbx
	je	9f
	testb	$120, %bl
	je	7f
5:
	movq	%rax, %rdx
	movq	%rbx, %rax
	andq	$-8, %rax
	movzbl	%cl, %ecx
	vmovd	%ecx, %xmm0
	.p2align	4
6:
	movq	(%rsp,%rdx), %rcx
	xorq	(%r14,%rdx), %rcx
	vmovq	%rcx, %xmm1
	vpor	%xmm0, %xmm1, %xmm0
	addq	$8, %rdx
	cmpq	%rdx, %rax
	jne	6b
	vpshufd	$85, %xmm0, %xmm1
	vpor	%xmm1, %xmm0, %xmm0
	vpsrld	$16, %xmm0, %xmm1
	vpor	%xmm1, %xmm0, %xmm0
	vpsrlw	$8, %xmm0, %xmm1
	vpor	%xmm1, %xmm0, %xmm0
	vmovd	%xmm0, %ecx
	jmp	8f
7:
	movzbl	(%rsp,%rax), %edx
	xorb	(%r14,%rax), %dl
	orb	%dl, %cl
	incq	%rax
8:
	cmpq	%rax, %rbx
	jne	7b
9:
	testb	%cl, %cl
	sete	%bpl
10:
	movl	%ebp, %eax
	addq	$392, %rsp
	popq	%rbx
	popq	%r12
	popq	%r13
	popq	%r14
	popq	%r15
	popq	%rbp
	vzeroupper
	retq
	vj_end	blake2_ffi..blake2bp..is_digest_of_1_v4

	vj_function	blake2_ffi..blake2s..finalize_1_v4
	pushq	%rbx
	movq	%rdi, %rbx
	callq	blake2_state..blake2s..State..write_digest_1_v4
	vxorps	%xmm0, %xmm0, %xmm0
	vmovups	%ymm0, 144(%rbx)
	vmovups	%ymm0, 128(%rbx)
	vmovups	%ymm0, 96(%rbx)
	vmovups	%ymm0, 64(%rbx)
	vmovups	%ymm0, 32(%rbx)
	vmovups	%ymm0, (%rbx)
	popq	%rbx
	vzeroupper
	retq
	vj_end	blake2_ffi..blake2s..finalize_1_v4

	vj_function	blake2_state..blake2s..State..write_digest_1_v4
	pushq	%r15
	pushq	%r14
	pushq	%r12
	pushq	%rbx
	subq	$136, %rsp
	movq	%rsi, %rbx
	movq	%rdi, %r14
	vxorps	%xmm0, %xmm0, %xmm0
	vmovups	%ymm0, (%rsp)
	vmovups	(%rdi), %ymm1
	vmovups	%ymm1, 32(%rsp)
	movzwl	72(%rdi), %r15d
	leaq	80(%rdi), %rsi
	vmovups	%ymm0, 96(%rsp)
	vmovups	%ymm0, 64(%rsp)
	leaq	64(%rsp), %r12
	movq	%r12, %rdi
	movq	%r15, %rdx
	vzeroupper
	vj_c_call	memcpy
	xorl	%r8d, %r8d
	cmpw	$0, 78(%r14)
	setne	%r8b
	addq	64(%r14), %r15
	leaq	32(%rsp), %rdi
	movq	%r12, %rsi
	movq	%r15, %rdx
	movl	$1, %ecx
	vj_call	blake2_compress..compress..blake2s..compress_1_v4
	vmovups	32(%rsp), %ymm0
	vmovups	%ymm0, (%rsp)
	movzwl	76(%r14), %edx
	movq	%rsp, %rsi
	movq	%rbx, %rdi
	vzeroupper
	vj_c_call	memcpy
	addq	$136, %rsp
	popq	%rbx
	popq	%r12
	popq	%r14
	popq	%r15
	retq
	vj_end	blake2_state..blake2s..State..write_digest_1_v4

	vj_constants	16
	.p2align	4, 0x0
.L1_v4_CPI46_0:
	.long	0
	.long	0
	.long	0
	.long	4294967295
.L1_v4_CPI46_1:
	.long	1359893119
	.long	2600822924
	.long	3766232660
	.long	1541459225
.L1_v4_CPI46_2:
	.long	1359893119
	.long	2600822924
	.long	528734635
	.long	1541459225
.L1_v4_CPI46_3:
	.long	1779033703
	.long	3144134277
	.long	1013904242
	.long	2773480762
.L1_v4_CPI46_4:
	.long	6
	.long	0
	.long	2
	.long	4
.L1_v4_CPI46_5:
	.long	7
	.long	1
	.zero	4
	.zero	4
.L1_v4_CPI46_6:
	.long	7
	.long	1
	.long	3
	.long	5
.L1_v4_CPI46_8:
	.long	5
	.long	1
	.long	0
	.long	5
.L1_v4_CPI46_9:
	.long	3
	.long	4
	.long	2
	.zero	4
.L1_v4_CPI46_10:
	.long	4
	.long	0
	.long	2
	.zero	4
.L1_v4_CPI46_11:
	.long	0
	.long	6
	.long	2
	.zero	4
.L1_v4_CPI46_12:
	.long	7
	.long	3
	.long	7
	.long	3
.L1_v4_CPI46_13:
	.long	4
	.long	2
	.long	6
	.zero	4
.L1_v4_CPI46_14:
	.long	0
	.long	1
	.long	2
	.long	4
.L1_v4_CPI46_15:
	.long	0
	.long	7
	.long	4
	.zero	4
.L1_v4_CPI46_17:
	.long	1
	.long	5
	.long	0
	.zero	4
.L1_v4_CPI46_18:
	.long	2
	.long	6
	.long	0
	.zero	4
.L1_v4_CPI46_19:
	.long	4
	.long	2
	.long	3
	.zero	4
.L1_v4_CPI46_20:
	.long	1
	.long	4
	.long	7
	.long	7
.L1_v4_CPI46_21:
	.long	5
	.long	3
	.long	1
	.zero	4
.L1_v4_CPI46_22:
	.long	1
	.long	7
	.long	0
	.zero	4
.L1_v4_CPI46_23:
	.long	3
	.long	6
	.zero	4
	.zero	4
.L1_v4_CPI46_24:
	.long	2
	.long	0
	.long	1
	.long	7
.L1_v4_CPI46_25:
	.long	5
	.long	2
	.long	7
	.long	4
.L1_v4_CPI46_26:
	.long	4
	.long	0
	.long	2
	.long	1
.L1_v4_CPI46_27:
	.long	7
	.long	1
	.long	0
	.long	0
.L1_v4_CPI46_28:
	.long	1
	.long	5
	.long	0
	.long	0
.L1_v4_CPI46_29:
	.long	2
	.long	6
	.long	0
	.long	0
.L1_v4_CPI46_30:
	.long	1
	.long	7
	.long	0
	.long	0
.L1_v4_CPI46_31:
	.long	3
	.long	6
	.long	0
	.long	0
	vj_constants	8
	.p2align	3, 0x0
.L1_v4_CPI46_7:
	.long	2
	.long	4
.L1_v4_CPI46_16:
	.long	3
	.long	6
	vj_shared	blake2_compress..compress..blake2s..compress_1_v4
	vmovups	(%rsi), %xmm2
	vmovups	16(%rsi), %xmm5
	vmovdqu64	(%rdi), %xmm21
	vmovdqu64	16(%rdi), %xmm18
	testb	$1, %r8b
	jne	1f
	vpxor	%xmm7, %xmm7, %xmm7
	jmp	2f
1:
	vmovdqa	.L1_v4_CPI46_0(%rip), %xmm7
2:
	vmovups	32(%rsi), %xmm4
	vmovdqu	48(%rsi), %xmm3
	vmovq	%rdx, %xmm11
	vmovdqu	(%rsi), %ymm6
	vmovdqu64	16(%rsi), %ymm19
	vmovdqu	32(%rsi), %ymm8
	vpmovqd	%ymm6, %xmm12
	vshufps	$221, %xmm5, %xmm2, %xmm10
	vpaddd	%xmm18, %xmm21, %xmm13
	vpaddd	%xmm12, %xmm13, %xmm12
	testb	$1, %cl
	jne	3f
	vmovdqa	.L1_v4_CPI46_2(%rip), %xmm13
	jmp	4f
3:
	vmovdqa	.L1_v4_CPI46_1(%rip), %xmm13
4:
	vpxor	%xmm11, %xmm13, %xmm11
	vpternlogd	$150, %xmm7, %xmm12, %xmm11
	vprold	$16, %xmm11, %xmm7
	vpaddd	.L1_v4_CPI46_3(%rip), %xmm7, %xmm11
	vpxord	%xmm18, %xmm11, %xmm13
	vprold	$20, %xmm13, %xmm13
	vpaddd	%xmm10, %xmm12, %xmm10
	vpaddd	%xmm13, %xmm10, %xmm10
	vpxor	%xmm7, %xmm10, %xmm7
	vprold	$24, %xmm7, %xmm12
	vpaddd	%xmm11, %xmm12, %xmm11
	vpxor	%xmm13, %xmm11, %xmm12
	vprold	$25, %xmm12, %xmm12
	vpshufd	$147, %xmm10, %xmm10
	vpshufd	$57, %xmm11, %xmm11
	vpshufd	$78, %xmm7, %xmm7
	vprold	$24, %xmm7, %xmm13
	vmovdqa	.L1_v4_CPI46_4(%rip), %xmm7
	vpermd	%ymm8, %ymm7, %ymm14
	vmovq	.L1_v4_CPI46_27(%rip), %xmm7
	vpermd	%ymm8, %ymm7, %ymm17
	vmovdqa	.L1_v4_CPI46_6(%rip), %xmm15
	vpermd	%ymm8, %ymm15, %ymm15
	vpaddd	%xmm14, %xmm10, %xmm10
	vpaddd	%xmm12, %xmm10, %xmm10
	vpxor	%xmm13, %xmm10, %xmm13
	vprold	$16, %xmm13, %xmm13
	vpaddd	%xmm11, %xmm13, %xmm11
	vpxor	%xmm12, %xmm11, %xmm12
	vprold	$20, %xmm12, %xmm12
	vpaddd	%xmm15, %xmm10, %xmm10
	vpaddd	%xmm12, %xmm10, %xmm10
	vpxor	%xmm13, %xmm10, %xmm13
	vprold	$24, %xmm13, %xmm14
	vpaddd	%xmm11, %xmm14, %xmm11
	vpxor	%xmm12, %xmm11, %xmm12
	vprold	$25, %xmm12, %xmm12
	vpshufd	$57, %xmm10, %xmm14
	vpshufd	$147, %xmm11, %xmm11
	vpshufd	$78, %xmm13, %xmm10
	vprold	$24, %xmm10, %xmm13
	vpbroadcastq	.L1_v4_CPI46_7(%rip), %xmm10
	vpermi2d	%xmm5, %xmm3, %xmm10
	vshufps	$212, %xmm4, %xmm10, %xmm15
	vbroadcastss	52(%rsi), %xmm10
	vblendps	$8, %xmm10, %xmm15, %xmm15
	vshufps	$242, %xmm3, %xmm4, %xmm16
	vinsertps	$176, %xmm5, %xmm16, %xmm16
	vpaddd	%xmm15, %xmm14, %xmm14
	vpaddd	%xmm12, %xmm14, %xmm14
	vpxor	%xmm13, %xmm14, %xmm13
	vprold	$16, %xmm13, %xmm13
	vpaddd	%xmm11, %xmm13, %xmm11
	vpxor	%xmm12, %xmm11, %xmm12
	vprold	$20, %xmm12, %xmm12
	vpaddd	%xmm16, %xmm14, %xmm14
	vpaddd	%xmm12, %xmm14, %xmm14
	vpxor	%xmm13, %xmm14, %xmm13
	vprold	$24, %xmm13, %xmm15
	vpaddd	%xmm11, %xmm15, %xmm11
	vpxor	%xmm12, %xmm11, %xmm12
	vprold	$25, %xmm12, %xmm12
	vpshufd	$147, %xmm14, %xmm14
	vpshufd	$57, %xmm11, %xmm11
	vpshufd	$78, %xmm13, %xmm13
	vprold	$24, %xmm13, %xmm13
	vmovdqa	.L1_v4_CPI46_8(%rip), %xmm15
	vpermd	%ymm6, %ymm15, %ymm15
	vpblendd	$8, %xmm4, %xmm15, %xmm15
	vmovdqa	.L1_v4_CPI46_9(%rip), %xmm7
	vpermi2d	%xmm3, %xmm2, %xmm7
	vpblendd	$8, %xmm5, %xmm7, %xmm7
	vpaddd	%xmm15, %xmm14, %xmm14
	vpaddd	%xmm12, %xmm14, %xmm14
	vpxor	%xmm13, %xmm14, %xmm13
	vprold	$16, %xmm13, %xmm13
	vpaddd	%xmm11, %xmm13, %xmm11
	vpxor	%xmm12, %xmm11, %xmm12
	vprold	$20, %xmm12, %xmm12
	vpaddd	%xmm7, %xmm14, %xmm7
	vpaddd	%xmm7, %xmm12, %xmm7
	vpxor	%xmm7, %xmm13, %xmm13
	vprold	$24, %xmm13, %xmm14
	vpaddd	%xmm11, %xmm14, %xmm11
	vpxor	%xmm12, %xmm11, %xmm12
	vprold	$25, %xmm12, %xmm12
	vpshufd	$57, %xmm7, %xmm7
	vpshufd	$147, %xmm11, %xmm14
	vpshufd	$78, %xmm13, %xmm11
	vprold	$24, %xmm11, %xmm13
	vpalignr	$12, %xmm4, %xmm3, %xmm11
	vshufps	$212, %xmm5, %xmm11, %xmm11
	vblendps	$8, %xmm3, %xmm11, %xmm15
	vpunpckldq	%xmm2, %xmm4, %xmm22
	vmovdqa	.L1_v4_CPI46_10(%rip), %xmm1
	vpermi2d	%xmm4, %xmm2, %xmm1
	vpblendd	$8, %xmm10, %xmm1, %xmm1
	vpaddd	%xmm7, %xmm15, %xmm7
	vpaddd	%xmm7, %xmm12, %xmm7
	vpxor	%xmm7, %xmm13, %xmm10
	vprold	$16, %xmm10, %xmm10
	vpaddd	%xmm14, %xmm10, %xmm13
	vpxor	%xmm12, %xmm13, %xmm12
	vprold	$20, %xmm12, %xmm12
	vpaddd	%xmm1, %xmm7, %xmm1
	vpaddd	%xmm1, %xmm12, %xmm1
	vpxor	%xmm1, %xmm10, %xmm7
	vprold	$24, %xmm7, %xmm10
	vpaddd	%xmm13, %xmm10, %xmm10
	vpxor	%xmm12, %xmm10, %xmm12
	vprold	$25, %xmm12, %xmm12
	vpshufd	$147, %xmm1, %xmm1
	vpshufd	$57, %xmm10, %xmm13
	vpshufd	$78, %xmm7, %xmm7
	vprold	$24, %xmm7, %xmm7
	vshufps	$249, %xmm2, %xmm4, %xmm10
	vblendps	$8, %xmm5, %xmm10, %xmm14
	vmovdqa	.L1_v4_CPI46_11(%rip), %xmm15
	vpermi2d	%xmm3, %xmm5, %xmm15
	vpbroadcastd	4(%rsi), %xmm10
	vpblendd	$8, %xmm10, %xmm15, %xmm15
	vpaddd	%xmm1, %xmm14, %xmm1
	vpaddd	%xmm1, %xmm12, %xmm1
	vpxor	%xmm7, %xmm1, %xmm7
	vprold	$16, %xmm7, %xmm7
	vpaddd	%xmm7, %xmm13, %xmm13
	vpxor	%xmm12, %xmm13, %xmm12
	vprold	$20, %xmm12, %xmm12
	vpaddd	%xmm1, %xmm15, %xmm1
	vpaddd	%xmm1, %xmm12, %xmm1
	vpxor	%xmm7, %xmm1, %xmm7
	vprold	$24, %xmm7, %xmm14
	vpaddd	%xmm13, %xmm14, %xmm13
	vpxor	%xmm12, %xmm13, %xmm12
	vprold	$25, %xmm12, %xmm14
	vpshufd	$57, %xmm1, %xmm1
	vpshufd	$147, %xmm13, %xmm15
	vpshufd	$78, %xmm7, %xmm7
	vprold	$24, %xmm7, %xmm7
	vmovdqa64	.L1_v4_CPI46_12(%rip), %xmm16
	vpermd	%ymm6, %ymm16, %ymm13
	vshufps	$212, %xmm3, %xmm13, %xmm13
	vblendps	$8, %xmm4, %xmm13, %xmm12
	vshufps	$85, %xmm4, %xmm4, %xmm13
	vblendps	$2, %xmm2, %xmm13, %xmm11
	vshufps	$132, %xmm3, %xmm11, %xmm11
	vpaddd	%xmm1, %xmm12, %xmm1
	vpaddd	%xmm1, %xmm14, %xmm1
	vpxor	%xmm7, %xmm1, %xmm7
	vprold	$16, %xmm7, %xmm7
	vpaddd	%xmm7, %xmm15, %xmm12
	vpxor	%xmm14, %xmm12, %xmm14
	vprold	$20, %xmm14, %xmm14
	vpaddd	%xmm1, %xmm11, %xmm1
	vpaddd	%xmm1, %xmm14, %xmm1
	vpxor	%xmm7, %xmm1, %xmm7
	vprold	$24, %xmm7, %xmm11
	vpaddd	%xmm12, %xmm11, %xmm11
	vpxor	%xmm14, %xmm11, %xmm12
	vprold	$25, %xmm12, %xmm12
	vpshufd	$147, %xmm1, %xmm1
	vpshufd	$57, %xmm11, %xmm11
	vpshufd	$78, %xmm7, %xmm7
	vprold	$24, %xmm7, %xmm7
	vblendps	$8, %xmm3, %xmm2, %xmm14
	vshufps	$27, %xmm5, %xmm14, %xmm14
	vpaddd	%xmm1, %xmm14, %xmm1
	vmovdqa	.L1_v4_CPI46_13(%rip), %xmm14
	vpermd	%ymm19, %ymm14, %ymm15
	vmovdqa	.L1_v4_CPI46_14(%rip), %xmm14
	vpermt2d	%xmm2, %xmm14, %xmm15
	vpaddd	%xmm1, %xmm12, %xmm1
	vpxor	%xmm7, %xmm1, %xmm7
	vprold	$16, %xmm7, %xmm7
	vpaddd	%xmm7, %xmm11, %xmm11
	vpxor	%xmm12, %xmm11, %xmm12
	vprold	$20, %xmm12, %xmm12
	vpaddd	%xmm1, %xmm15, %xmm1
	vpaddd	%xmm1, %xmm12, %xmm1
	vpxor	%xmm7, %xmm1, %xmm7
	vprold	$24, %xmm7, %xmm15
	vpaddd	%xmm11, %xmm15, %xmm11
	vpxor	%xmm12, %xmm11, %xmm12
	vprold	$25, %xmm12, %xmm12
	vpshufd	$57, %xmm1, %xmm1
	vpshufd	$147, %xmm11, %xmm11
	vpshufd	$78, %xmm7, %xmm7
	vprold	$24, %xmm7, %xmm7
	vblendps	$2, %xmm5, %xmm13, %xmm15
	vblendps	$12, %xmm2, %xmm15, %xmm9
	vshufps	$170, %xmm4, %xmm4, %xmm15
	vblendps	$8, %xmm15, %xmm9, %xmm9
	vmovdqa64	.L1_v4_CPI46_15(%rip), %xmm20
	vpermd	%ymm6, %ymm20, %ymm0
	vpblendd	$8, %xmm3, %xmm0, %xmm0
	vpaddd	%xmm1, %xmm9, %xmm1
	vpaddd	%xmm1, %xmm12, %xmm1
	vpxor	%xmm7, %xmm1, %xmm7
	vprold	$16, %xmm7, %xmm7
	vpaddd	%xmm7, %xmm11, %xmm9
	vpxor	%xmm12, %xmm9, %xmm11
	vprold	$20, %xmm11, %xmm11
	vpaddd	%xmm0, %xmm1, %xmm0
	vpaddd	%xmm0, %xmm11, %xmm0
	vpxor	%xmm7, %xmm0, %xmm1
	vprold	$24, %xmm1, %xmm7
	vpaddd	%xmm7, %xmm9, %xmm7
	vpxor	%xmm7, %xmm11, %xmm9
	vprold	$25, %xmm9, %xmm9
	vpshufd	$147, %xmm0, %xmm0
	vpshufd	$57, %xmm7, %xmm7
	vpshufd	$78, %xmm1, %xmm1
	vpbroadcastq	.L1_v4_CPI46_16(%rip), %xmm11
	vprold	$24, %xmm1, %xmm1
	vpermi2d	%xmm3, %xmm2, %xmm11
	vshufps	$244, %xmm4, %xmm11, %xmm11
	vinsertps	$176, %xmm5, %xmm11, %xmm11
	vpaddd	%xmm0, %xmm11, %xmm0
	vmovq	.L1_v4_CPI46_28(%rip), %xmm11
	vpermi2d	%xmm2, %xmm3, %xmm11
	vpbroadcastd	%xmm4, %xmm12
	vpblendd	$8, %xmm12, %xmm11, %xmm11
	vpaddd	%xmm0, %xmm9, %xmm0
	vpxor	%xmm1, %xmm0, %xmm1
	vprold	$16, %xmm1, %xmm1
	vpaddd	%xmm7, %xmm1, %xmm7
	vpxor	%xmm7, %xmm9, %xmm9
	vprold	$20, %xmm9, %xmm9
	vpaddd	%xmm0, %xmm11, %xmm0
	vpaddd	%xmm0, %xmm9, %xmm0
	vpxor	%xmm1, %xmm0, %xmm1
	vprold	$24, %xmm1, %xmm11
	vpaddd	%xmm7, %xmm11, %xmm7
	vpxor	%xmm7, %xmm9, %xmm9
	vprold	$25, %xmm9, %xmm9
	vpshufd	$57, %xmm0, %xmm0
	vpshufd	$147, %xmm7, %xmm7
	vpshufd	$78, %xmm1, %xmm1
	vprold	$24, %xmm1, %xmm1
	vmovq	.L1_v4_CPI46_29(%rip), %xmm11
	vpermd	%ymm6, %ymm11, %ymm11
	vpblendd	$8, %xmm12, %xmm11, %xmm11
	vmovdqa	.L1_v4_CPI46_19(%rip), %xmm12
	vpermd	%ymm8, %ymm12, %ymm12
	vpblendd	$8, %xmm2, %xmm12, %xmm12
	vpaddd	%xmm0, %xmm11, %xmm0
	vpaddd	%xmm0, %xmm9, %xmm0
	vpxor	%xmm1, %xmm0, %xmm1
	vprold	$16, %xmm1, %xmm1
	vpaddd	%xmm7, %xmm1, %xmm7
	vpxor	%xmm7, %xmm9, %xmm9
	vprold	$20, %xmm9, %xmm9
	vpaddd	%xmm0, %xmm12, %xmm0
	vpaddd	%xmm0, %xmm9, %xmm0
	vpxor	%xmm1, %xmm0, %xmm1
	vprold	$24, %xmm1, %xmm11
	vpaddd	%xmm7, %xmm11, %xmm7
	vpxor	%xmm7, %xmm9, %xmm9
	vprold	$25, %xmm9, %xmm9
	vpshufd	$147, %xmm0, %xmm0
	vpshufd	$57, %xmm7, %xmm7
	vpshufd	$78, %xmm1, %xmm1
	vprold	$24, %xmm1, %xmm1
	vmovdqa	.L1_v4_CPI46_20(%rip), %xmm11
	vpermd	%ymm6, %ymm11, %ymm11
	vpblendd	$8, %xmm3, %xmm11, %xmm11
	vblendps	$2, %xmm3, %xmm13, %xmm12
	vshufps	$212, %xmm5, %xmm12, %xmm12
	vinsertps	$176, %xmm3, %xmm12, %xmm12
	vpaddd	%xmm0, %xmm11, %xmm0
	vpaddd	%xmm0, %xmm9, %xmm0
	vpxor	%xmm1, %xmm0, %xmm1
	vprold	$16, %xmm1, %xmm1
	vpaddd	%xmm7, %xmm1, %xmm7
	vpxor	%xmm7, %xmm9, %xmm9
	vprold	$20, %xmm9, %xmm9
	vpaddd	%xmm0, %xmm12, %xmm0
	vpaddd	%xmm0, %xmm9, %xmm0
	vpxor	%xmm1, %xmm0, %xmm1
	vprold	$24, %xmm1, %xmm11
	vpaddd	%xmm7, %xmm11, %xmm7
	vpxor	%xmm7, %xmm9, %xmm9
	vprold	$25, %xmm9, %xmm9
	vpshufd	$57, %xmm0, %xmm0
	vpshufd	$147, %xmm7, %xmm7
	vpshufd	$78, %xmm1, %xmm1
	vprold	$24, %xmm1, %xmm1
	vpblendd	$2, %xmm2, %xmm3, %xmm11
	vpermt2d	%xmm5, %xmm14, %xmm11
	vpaddd	%xmm0, %xmm11, %xmm0
	vmovdqa	.L1_v4_CPI46_21(%rip), %xmm11
	vpermi2d	%xmm5, %xmm3, %xmm11
	vpblendd	$8, %xmm15, %xmm11, %xmm11
	vpaddd	%xmm0, %xmm9, %xmm0
	vpxor	%xmm1, %xmm0, %xmm1
	vprold	$16, %xmm1, %xmm1
	vpaddd	%xmm7, %xmm1, %xmm7
	vpxor	%xmm7, %xmm9, %xmm9
	vprold	$20, %xmm9, %xmm9
	vpaddd	%xmm0, %xmm11, %xmm0
	vpaddd	%xmm0, %xmm9, %xmm0
	vpxor	%xmm1, %xmm0, %xmm1
	vprold	$24, %xmm1, %xmm11
	vpaddd	%xmm7, %xmm11, %xmm7
	vpxor	%xmm7, %xmm9, %xmm9
	vprold	$25, %xmm9, %xmm9
	vpshufd	$147, %xmm0, %xmm0
	vpshufd	$57, %xmm7, %xmm7
	vpshufd	$78, %xmm1, %xmm1
	vprold	$24, %xmm1, %xmm1
	vmovdqa64	%xmm22, %xmm11
	vpblendd	$12, %xmm5, %xmm11, %xmm11
	vpbroadcastd	36(%rsi), %xmm12
	vpblendd	$8, %xmm12, %xmm11, %xmm11
	vpermd	%ymm19, %ymm16, %ymm13
	vshufps	$180, %xmm2, %xmm13, %xmm13
	vpaddd	%xmm0, %xmm11, %xmm0
	vpaddd	%xmm0, %xmm9, %xmm0
	vpxor	%xmm1, %xmm0, %xmm1
	vprold	$16, %xmm1, %xmm1
	vpaddd	%xmm7, %xmm1, %xmm7
	vpxor	%xmm7, %xmm9, %xmm9
	vprold	$20, %xmm9, %xmm9
	vpaddd	%xmm0, %xmm13, %xmm0
	vpaddd	%xmm0, %xmm9, %xmm0
	vpxor	%xmm1, %xmm0, %xmm1
	vprold	$24, %xmm1, %xmm11
	vpaddd	%xmm7, %xmm11, %xmm7
	vpxor	%xmm7, %xmm9, %xmm9
	vprold	$25, %xmm9, %xmm9
	vpshufd	$57, %xmm0, %xmm0
	vpshufd	$147, %xmm7, %xmm7
	vpshufd	$78, %xmm1, %xmm1
	vprold	$24, %xmm1, %xmm1
	vmovq	.L1_v4_CPI46_30(%rip), %xmm11
	vpermi2d	%xmm5, %xmm3, %xmm11
	vpblendd	$8, %xmm2, %xmm11, %xmm11
	vmovq	.L1_v4_CPI46_31(%rip), %xmm13
	vpermd	%ymm8, %ymm13, %ymm8
	vshufps	$212, %xmm2, %xmm8, %xmm8
	vblendps	$8, %xmm12, %xmm8, %xmm8
	vpaddd	%xmm0, %xmm11, %xmm0
	vpaddd	%xmm0, %xmm9, %xmm0
	vpxor	%xmm1, %xmm0, %xmm1
	vprold	$16, %xmm1, %xmm1
	vpaddd	%xmm7, %xmm1, %xmm7
	vpxor	%xmm7, %xmm9, %xmm9
	vprold	$20, %xmm9, %xmm9
	vpaddd	%xmm0, %xmm8, %xmm0
	vpaddd	%xmm0, %xmm9, %xmm0
	vpxor	%xmm1, %xmm0, %xmm1
	vprold	$24, %xmm1, %xmm8
	vpaddd	%xmm7, %xmm8, %xmm7
	vpxor	%xmm7, %xmm9, %xmm8
	vprold	$25, %xmm8, %xmm9
	vpshufd	$147, %xmm0, %xmm0
	vpshufd	$57, %xmm7, %xmm7
	vpshufd	$78, %xmm1, %xmm1
	vprold	$24, %xmm1, %xmm1
	vbroadcastss	8(%rsi), %xmm8
	vblendps	$2, %xmm5, %xmm8, %xmm11
	vshufps	$244, %xmm3, %xmm11, %xmm11
	vinsertps	$48, %xmm4, %xmm11, %xmm11
	vpaddd	%xmm0, %xmm11, %xmm0
	vblendps	$12, %xmm4, %xmm2, %xmm11
	vshufps	$130, %xmm5, %xmm11, %xmm11
	vpaddd	%xmm0, %xmm9, %xmm0
	vpxor	%xmm1, %xmm0, %xmm1
	vprold	$16, %xmm1, %xmm1
	vpaddd	%xmm7, %xmm1, %xmm7
	vpxor	%xmm7, %xmm9, %xmm9
	vprold	$20, %xmm9, %xmm9
	vpaddd	%xmm0, %xmm11, %xmm0
	vpaddd	%xmm0, %xmm9, %xmm0
	vpxor	%xmm1, %xmm0, %xmm1
	vprold	$24, %xmm1, %xmm11
	vpaddd	%xmm7, %xmm11, %xmm7
	vpxor	%xmm7, %xmm9, %xmm9
	vprold	$25, %xmm9, %xmm9
	vpshufd	$57, %xmm0, %xmm0
	vpshufd	$147, %xmm7, %xmm7
	vpshufd	$78, %xmm1, %xmm1
	vprold	$24, %xmm1, %xmm1
	vunpckhps	%xmm3, %xmm5, %xmm11
	vshufps	$244, %xmm4, %xmm11, %xmm11
	vinsertps	$48, %xmm2, %xmm11, %xmm11
	vpaddd	%xmm0, %xmm11, %xmm0
	vshufps	$244, %xmm2, %xmm17, %xmm11
	vinsertps	$48, %xmm4, %xmm11, %xmm11
	vpaddd	%xmm0, %xmm9, %xmm0
	vpxor	%xmm1, %xmm0, %xmm1
	vprold	$16, %xmm1, %xmm1
	vpaddd	%xmm7, %xmm1, %xmm7
	vpxor	%xmm7, %xmm9, %xmm9
	vprold	$20, %xmm9, %xmm9
	vpaddd	%xmm0, %xmm11, %xmm0
	vpaddd	%xmm0, %xmm9, %xmm0
	vpxor	%xmm1, %xmm0, %xmm1
	vprold	$24, %xmm1, %xmm11
	vpaddd	%xmm7, %xmm11, %xmm7
	vpxor	%xmm7, %xmm9, %xmm9
	vprold	$25, %xmm9, %xmm9
	vpshufd	$147, %xmm0, %xmm0
	vpshufd	$57, %xmm7, %xmm7
	vpshufd	$78, %xmm1, %xmm1
	vprold	$24, %xmm1, %xmm1
	vpblendd	$12, %xmm4, %xmm3, %xmm11
	vmovdqa	.L1_v4_CPI46_24(%rip), %xmm12
	vpermi2d	%xmm10, %xmm11, %xmm12
	vpaddd	%xmm0, %xmm12, %xmm0
	vmovdqa	.L1_v4_CPI46_25(%rip), %xmm11
	vpermd	%ymm6, %ymm11, %ymm6
	vpaddd	%xmm0, %xmm9, %xmm0
	vpxor	%xmm1, %xmm0, %xmm1
	vprold	$16, %xmm1, %xmm1
	vpaddd	%xmm7, %xmm1, %xmm7
	vpxor	%xmm7, %xmm9, %xmm9
	vprold	$20, %xmm9, %xmm9
	vpaddd	%xmm6, %xmm0, %xmm0
	vpaddd	%xmm0, %xmm9, %xmm0
	vpxor	%xmm1, %xmm0, %xmm1
	vprold	$24, %xmm1, %xmm6
	vpaddd	%xmm7, %xmm6, %xmm6
	vpxor	%xmm6, %xmm9, %xmm7
	vprold	$25, %xmm7, %xmm7
	vpshufd	$57, %xmm0, %xmm0
	vpshufd	$147, %xmm6, %xmm6
	vpshufd	$78, %xmm1, %xmm1
	vprold	$24, %xmm1, %xmm1
	vshufps	$242, %xmm5, %xmm4, %xmm9
	vblendps	$8, %xmm10, %xmm9, %xmm9
	vmovdqa	.L1_v4_CPI46_26(%rip), %xmm10
	vpermi2d	%xmm8, %xmm5, %xmm10
	vpaddd	%xmm0, %xmm9, %xmm0
	vpaddd	%xmm7, %xmm0, %xmm0
	vpxor	%xmm1, %xmm0, %xmm1
	vprold	$16, %xmm1, %xmm1
	vpaddd	%xmm6, %xmm1, %xmm5
	vpxor	%xmm7, %xmm5, %xmm6
	vprold	$20, %xmm6, %xmm6
	vpaddd	%xmm0, %xmm10, %xmm0
	vpaddd	%xmm6, %xmm0, %xmm0
	vpxor	%xmm1, %xmm0, %xmm1
	vprold	$24, %xmm1, %xmm7
	vpaddd	%xmm5, %xmm7, %xmm5
	vpxor	%xmm6, %xmm5, %xmm6
	vprold	$25, %xmm6, %xmm6
	vpshufd	$147, %xmm0, %xmm0
	vpshufd	$57, %xmm5, %xmm5
	vpshufd	$78, %xmm1, %xmm1
	vprold	$24, %xmm1, %xmm1
	vshufps	$221, %xmm4, %xmm3, %xmm4
	vblendps	$8, %xmm2, %xmm4, %xmm4
	vpunpckldq	44(%rsi){1to4}, %xmm2, %xmm2
	vshufps	$36, %xmm3, %xmm2, %xmm2
	vpaddd	%xmm4, %xmm0, %xmm0
	vpaddd	%xmm6, %xmm0, %xmm0
	vpxor	%xmm1, %xmm0, %xmm1
	vprold	$16, %xmm1, %xmm1
	vpaddd	%xmm5, %xmm1, %xmm3
	vpxor	%xmm6, %xmm3, %xmm4
	vprold	$20, %xmm4, %xmm4
	vpaddd	%xmm2, %xmm0, %xmm0
	vpaddd	%xmm4, %xmm0, %xmm0
	vpxor	%xmm1, %xmm0, %xmm1
	vprold	$24, %xmm1, %xmm2
	vpaddd	%xmm3, %xmm2, %xmm2
	vpxor	%xmm4, %xmm2, %xmm3
	vprold	$25, %xmm3, %xmm3
	vpshufd	$57, %xmm0, %xmm0
	vpshufd	$147, %xmm2, %xmm2
	vpshufd	$78, %xmm1, %xmm1
	vprold	$24, %xmm1, %xmm1
	vpternlogd	$150, %xmm2, %xmm0, %xmm21
	vpternlogd	$150, %xmm3, %xmm18, %xmm1
	vmovdqu64	%xmm21, (%rdi)
	vmovdqu	%xmm1, 16(%rdi)
	vzeroupper
	vpxord	%xmm16, %xmm16, %xmm16
	vpxord	%xmm17, %xmm17, %xmm17
	vpxord	%xmm18, %xmm18, %xmm18
	vpxord	%xmm19, %xmm19, %xmm19
	vpxord	%xmm20, %xmm20, %xmm20
	vpxord	%xmm21, %xmm21, %xmm21
	vpxord	%xmm22, %xmm22, %xmm22
	retq
	vj_end	blake2_compress..compress..blake2s..compress_1_v4

	vj_function	blake2_digest..wiping..scrub_stack..768_1_v4
	pushq	%rbx
	subq	$768, %rsp
	movq	%rsp, %rbx
	movl	$768, %edx
	movq	%rbx, %rdi
	xorl	%esi, %esi
	vj_c_call	memset
	movq	%rbx, %rdi
	callq	blake2_digest..wiping..settle..768_1_v4
	addq	$768, %rsp
	popq	%rbx
	vpxord	%xmm16, %xmm16, %xmm16
	vpxord	%xmm17, %xmm17, %xmm17
	vpxord	%xmm18, %xmm18, %xmm18
	vpxord	%xmm19, %xmm19, %xmm19
	vpxord	%xmm20, %xmm20, %xmm20
	vpxord	%xmm21, %xmm21, %xmm21
	vpxord	%xmm22, %xmm22, %xmm22
	vpxord	%xmm23, %xmm23, %xmm23
	vpxord	%xmm24, %xmm24, %xmm24
	vpxord	%xmm25, %xmm25, %xmm25
	vpxord	%xmm26, %xmm26, %xmm26
	vpxord	%xmm27, %xmm27, %xmm27
	vpxord	%xmm28, %xmm28, %xmm28
	vpxord	%xmm29, %xmm29, %xmm29
	vpxord	%xmm30, %xmm30, %xmm30
	vpxord	%xmm31, %xmm31, %xmm31
	retq
	vj_end	blake2_digest..wiping..scrub_stack..768_1_v4

	vj_function	blake2_digest..wiping..settle..768_1_v4
	vmovdqu	128(%rdi), %ymm0
	vmovdqu	160(%rdi), %ymm1
	vmovdqu	192(%rdi), %ymm2
	vmovdqu	224(%rdi), %ymm3
	vpor	32(%rdi), %ymm1, %ymm1
	vpor	64(%rdi), %ymm2, %ymm2
	vpor	96(%rdi), %ymm3, %ymm3
	vmovdqu	256(%rdi), %ymm4
	vmovdqu	288(%rdi), %ymm5
	vmovdqu	320(%rdi), %ymm6
	vmovdqu	352(%rdi), %ymm7
	vpternlogq	$254, (%rdi), %ymm0, %ymm4
	vpternlogq	$254, 416(%rdi), %ymm1, %ymm5
	vpternlogq	$254, 448(%rdi), %ymm2, %ymm6
	vmovdqu	384(%rdi), %ymm0
	vpternlogq	$254, 480(%rdi), %ymm3, %ymm7
	vmovdqu	544(%rdi), %ymm1
	vmovdqu	576(%rdi), %ymm2
	vmovdqu	608(%rdi), %ymm3
	vpternlogq	$254, 512(%rdi), %ymm4, %ymm0
	vpternlogq	$254, 672(%rdi), %ymm5, %ymm1
	vpternlogq	$254, 704(%rdi), %ymm6, %ymm2
	vpternlogq	$254, 736(%rdi), %ymm7, %ymm3
	vpternlogq	$254, 640(%rdi), %ymm0, %ymm1
	vpternlogq	$254, %ymm3, %ymm2, %ymm1
	vptest	%ymm1, %ymm1
	je	1f
	pause
1:
	vzeroupper
	retq
	vj_end	blake2_digest..wiping..settle..768_1_v4

	vj_constants	32
	.p2align	5, 0x0
.L1_v4_CPI49_0:
	.long	1779033703
	.long	3144134277
	.long	1013904242
	.long	2773480762
	.long	1359893119
	.long	2600822924
	.long	528734635
	.long	1541459225
	vj_function	blake2_ffi..blake2s..initialize_1_v4
	pushq	%rbp
	pushq	%r15
	pushq	%r14
	pushq	%r13
	pushq	%r12
	pushq	%rbx
	subq	$248, %rsp
	movq	%rdx, %rcx
	movq	(%rsi), %r13
	movq	16(%rsi), %r14
	movq	32(%rsi), %rdx
	movq	48(%rsi), %rbx
	movzwl	(%rcx), %r8d
	leaq	-33(%r13), %rax
	cmpq	$-32, %rax
	setb	%al
	cmpq	$33, %r14
	setae	%r9b
	cmpq	$9, %rdx
	setae	%r10b
	orb	%r9b, %r10b
	orb	%al, %r10b
	cmpq	$9, %rbx
	setae	%al
	cmpl	$256, %r8d
	setb	%r9b
	orb	%al, %r9b
	orb	%r10b, %r9b
	jne	1f
	movq	8(%rcx), %r10
	movzwl	16(%rcx), %r9d
	movzwl	%r9w, %eax
	cmpl	$8448, %eax
	setb	%al
	movq	%r10, %r11
	shrq	$48, %r11
	sete	%r11b
	andb	%al, %r11b
	cmpb	$1, %r11b
	jne	1f
	movq	%rdi, %rbp
	movq	24(%rsi), %rax
	movq	40(%rsi), %r15
	vmovd	4(%rcx), %xmm0
	testq	%r14, %r14
	je	2f
	movq	8(%rsi), %r12
	shll	$16, %r8d
	vxorps	%xmm1, %xmm1, %xmm1
	vmovaps	%xmm1, (%rsp)
	movl	%r14d, %ecx
	shll	$8, %ecx
	movzwl	%cx, %ecx
	orl	%r8d, %ecx
	orl	%r13d, %ecx
	vmovd	%ecx, %xmm1
	vpunpckldq	%xmm0, %xmm1, %xmm0
	vmovq	%r10, %xmm1
	vpunpcklqdq	%xmm1, %xmm0, %xmm0
	vpinsrw	$7, %r9d, %xmm0, %xmm0
	vmovdqu	%ymm0, 16(%rsp)
	movq	%rsp, %rdi
	movq	%rax, %rsi
	vzeroupper
	vj_c_call	memcpy
	leaq	8(%rsp), %rdi
	movq	%r15, %rsi
	movq	%rbx, %rdx
	vj_c_call	memcpy
	vmovups	16(%rsp), %ymm0
	vinsertf128	$1, (%rsp), %ymm0, %ymm0
	vmovups	%ymm0, 16(%rsp)
	movl	$32, %eax
	subq	%r14, %rax
	xorl	%edx, %edx
	cmpq	$32, %r14
	cmovbq	%rax, %rdx
	leaq	(%rsp,%r14), %rdi
	addq	$144, %rdi
	xorl	%esi, %esi
	vzeroupper
	vj_c_call	memset
	leaq	144(%rsp), %rdi
	movq	%r12, %rsi
	movq	%r14, %rdx
	vj_c_call	memcpy
	vxorps	%xmm0, %xmm0, %xmm0
	vmovups	%ymm0, 208(%rsp)
	vmovdqu	144(%rsp), %ymm1
	vmovdqu	%ymm1, 176(%rsp)
	vmovups	%ymm0, 112(%rsp)
	vmovdqu	%ymm1, 80(%rsp)
	vmovdqu	%ymm1, 48(%rsp)
	vmovups	16(%rsp), %ymm0
	vxorps	.L1_v4_CPI49_0(%rip), %ymm0, %ymm0
	movw	$64, %ax
	jmp	3f
1:
	vxorps	%xmm0, %xmm0, %xmm0
	vmovups	%ymm0, 144(%rdi)
	vmovups	%ymm0, 128(%rdi)
	vmovups	%ymm0, 96(%rdi)
	vmovups	%ymm0, 64(%rdi)
	vmovups	%ymm0, 32(%rdi)
	vmovups	%ymm0, (%rdi)
	movl	$-1, %eax
	jmp	4f
2:
	vxorps	%xmm1, %xmm1, %xmm1
	vmovaps	%xmm1, (%rsp)
	shll	$16, %r8d
	movl	%r13d, %ecx
	orl	%r8d, %ecx
	vmovd	%ecx, %xmm1
	vpunpckldq	%xmm0, %xmm1, %xmm0
	vmovq	%r10, %xmm1
	vpunpcklqdq	%xmm1, %xmm0, %xmm0
	vpinsrw	$7, %r9d, %xmm0, %xmm0
	vmovdqu	%ymm0, 16(%rsp)
	movq	%rsp, %rdi
	movq	%rax, %rsi
	vzeroupper
	vj_c_call	memcpy
	leaq	8(%rsp), %rdi
	movq	%r15, %rsi
	movq	%rbx, %rdx
	vj_c_call	memcpy
	vmovups	16(%rsp), %ymm0
	vinsertf128	$1, (%rsp), %ymm0, %ymm0
	vpxor	%xmm1, %xmm1, %xmm1
	vmovdqu	%ymm1, 80(%rsp)
	vmovdqu	%ymm1, 112(%rsp)
	vmovdqu	%ymm1, 48(%rsp)
	vxorps	.L1_v4_CPI49_0(%rip), %ymm0, %ymm0
	xorl	%eax, %eax
3:
	vmovups	%ymm0, (%rbp)
	vmovups	%ymm0, 32(%rbp)
	movq	$0, 64(%rbp)
	movw	%ax, 72(%rbp)
	movw	%ax, 74(%rbp)
	movw	%r13w, 76(%rbp)
	movw	$0, 78(%rbp)
	vmovups	80(%rsp), %ymm0
	vmovups	112(%rsp), %ymm1
	vmovups	%ymm0, 80(%rbp)
	vmovups	%ymm1, 112(%rbp)
	vmovups	48(%rsp), %ymm0
	vmovups	%ymm0, 144(%rbp)
	xorl	%eax, %eax
4:
	addq	$248, %rsp
	popq	%rbx
	popq	%r12
	popq	%r13
	popq	%r14
	popq	%r15
	popq	%rbp
	vzeroupper
	retq
	vj_end	blake2_ffi..blake2s..initialize_1_v4

	vj_function	blake2_state..blake2s..State..save_1_v4
	pushq	%rbp
	pushq	%r15
	pushq	%r14
	pushq	%r13
	pushq	%r12
	pushq	%rbx
	subq	$216, %rsp
	movzwl	76(%rsi), %r14d
	leal	-1(%r14), %eax
	cmpw	$31, %ax
	ja	1f
	movzwl	72(%rsi), %ebx
	cmpq	$64, %rbx
	ja	1f
	movzwl	74(%rsi), %ecx
	cmpw	$64, %cx
	ja	1f
	movl	%ebx, %eax
	notl	%eax
	movswq	%ax, %rax
	cmpq	%rax, 64(%rsi)
	ja	1f
	movl	32(%rsi), %eax
	movl	%eax, %edx
	andl	$65280, %edx
	cmpl	$58880, %edx
	sete	%dl
	testw	%cx, %cx
	sete	%cl
	testb	%dl, %cl
	je	1f
	movzwl	78(%rsi), %r13d
	vxorps	%xmm0, %xmm0, %xmm0
	vmovups	%ymm0, 112(%rsp)
	vmovups	%ymm0, 80(%rsp)
	movzbl	12(%rsi), %ecx
	movb	%cl, 4(%rsp)
	vmovups	(%rsi), %xmm0
	vmovaps	%xmm0, 16(%rsp)
	movzbl	28(%rsi), %ecx
	movb	%cl, 5(%rsp)
	vmovups	16(%rsi), %xmm0
	vmovaps	%xmm0, 32(%rsp)
	movzbl	44(%rsi), %ecx
	movb	%cl, 6(%rsp)
	movq	40(%rsi), %r12
	vmovd	%eax, %xmm0
	vpinsrd	$1, 36(%rsi), %xmm0, %xmm0
	vmovdqa	%xmm0, 48(%rsp)
	movzbl	60(%rsi), %eax
	movb	%al, 7(%rsp)
	vmovups	48(%rsi), %xmm0
	vmovaps	%xmm0, 64(%rsp)
	movq	64(%rsi), %rax
	movq	%rax, 8(%rsp)
	movl	8(%rsi), %r15d
	addq	$80, %rsi
	leaq	80(%rsp), %rax
	movq	%rdi, %rbp
	movq	%rax, %rdi
	movq	%rbx, %rdx
	vzeroupper
	vj_c_call	memcpy
	vmovups	80(%rsp), %ymm0
	vmovups	112(%rsp), %ymm1
	vmovups	%ymm0, 144(%rsp)
	vmovups	%ymm1, 176(%rsp)
	testw	%r13w, %r13w
	setne	83(%rbp)
	movb	$1, (%rbp)
	movabsq	$104482489556356162, %rax
	movq	%rax, 1(%rbp)
	vmovdqa	16(%rsp), %xmm0
	vmovq	%xmm0, 9(%rbp)
	movl	%r15d, 17(%rbp)
	movzbl	4(%rsp), %eax
	movb	%al, 21(%rbp)
	vmovdqa	32(%rsp), %xmm1
	vpalignr	$13, %xmm0, %xmm1, %xmm0
	vmovq	%xmm0, 22(%rbp)
	vpsrldq	$5, %xmm1, %xmm0
	vmovss	%xmm0, 30(%rbp)
	vpextrb	$9, %xmm1, 34(%rbp)
	vmovq	%r12, %xmm0
	vpextrb	$10, %xmm1, 35(%rbp)
	vmovdqa	48(%rsp), %xmm2
	vpunpcklqdq	%xmm0, %xmm2, %xmm0
	movl	%r12d, %eax
	vpextrb	$11, %xmm1, 36(%rbp)
	movzbl	5(%rsp), %ecx
	movb	%cl, 37(%rbp)
	vpalignr	$13, %xmm1, %xmm2, %xmm1
	vmovq	%xmm1, 38(%rbp)
	shrl	$16, %eax
	movl	%r12d, %ecx
	movq	%r12, %rdx
	vpsrldq	$5, %xmm0, %xmm1
	vmovss	%xmm1, 46(%rbp)
	shrl	$24, %ecx
	movb	%dh, 50(%rbp)
	movb	%al, 51(%rbp)
	movb	%cl, 52(%rbp)
	movzbl	6(%rsp), %eax
	movb	%al, 53(%rbp)
	vmovdqa	64(%rsp), %xmm1
	vpalignr	$13, %xmm0, %xmm1, %xmm0
	vmovq	%xmm0, 54(%rbp)
	vpsrldq	$5, %xmm1, %xmm0
	vmovss	%xmm0, 62(%rbp)
	vpextrb	$9, %xmm1, 66(%rbp)
	vpextrb	$10, %xmm1, 67(%rbp)
	vpextrb	$11, %xmm1, 68(%rbp)
	movzbl	7(%rsp), %eax
	movb	%al, 69(%rbp)
	vpextrb	$13, %xmm1, 70(%rbp)
	vpextrb	$14, %xmm1, 71(%rbp)
	vpextrb	$15, %xmm1, 72(%rbp)
	movq	8(%rsp), %rax
	movq	%rax, 73(%rbp)
	movb	%r14b, 81(%rbp)
	movb	%bl, 82(%rbp)
	vmovups	144(%rsp), %ymm0
	vmovups	176(%rsp), %ymm1
	vmovups	%ymm1, 116(%rbp)
	vmovups	%ymm0, 84(%rbp)
	jmp	2f
1:
	vxorps	%xmm0, %xmm0, %xmm0
	vmovups	%ymm0, 116(%rdi)
	vmovups	%ymm0, 96(%rdi)
	vmovups	%ymm0, 64(%rdi)
	vmovups	%ymm0, 32(%rdi)
	vmovups	%ymm0, (%rdi)
2:
	addq	$216, %rsp
	popq	%rbx
	popq	%r12
	popq	%r13
	popq	%r14
	popq	%r15
	popq	%rbp
	vzeroupper
	retq
	vj_end	blake2_state..blake2s..State..save_1_v4

	vj_function	blake2_ffi..blake2s..update_scrubbed_1_v4
	pushq	%rax
	callq	blake2_ffi..blake2s..update_in_frame_1_v4
	popq	%rax
	jmp	blake2_digest..wiping..scrub_stack..512_1_v4
	vj_end	blake2_ffi..blake2s..update_scrubbed_1_v4

	vj_function	blake2_ffi..blake2s..update_in_frame_1_v4
	cmpq	$1, %rdx
	jne	blake2_state..blake2s..State..absorb_blocks_1_v4
	movzwl	72(%rdi), %eax
	cmpq	$64, %rax
	jae	1f
	movzbl	(%rsi), %ecx
	movb	%cl, 80(%rdi,%rax)
	incl	%eax
	movw	%ax, 72(%rdi)
	retq
1:
	movl	$1, %edx
	jmp	blake2_state..blake2s..State..absorb_blocks_1_v4
	vj_end	blake2_ffi..blake2s..update_in_frame_1_v4

	vj_function	blake2_digest..wiping..scrub_stack..512_1_v4
	subq	$520, %rsp
	vxorps	%xmm0, %xmm0, %xmm0
	vmovups	%ymm0, 480(%rsp)
	vmovups	%ymm0, 448(%rsp)
	vmovups	%ymm0, 416(%rsp)
	vmovups	%ymm0, 384(%rsp)
	vmovups	%ymm0, 352(%rsp)
	vmovups	%ymm0, 320(%rsp)
	vmovups	%ymm0, 288(%rsp)
	vmovups	%ymm0, 256(%rsp)
	vmovups	%ymm0, 224(%rsp)
	vmovups	%ymm0, 192(%rsp)
	vmovups	%ymm0, 160(%rsp)
	vmovups	%ymm0, 128(%rsp)
	vmovups	%ymm0, 96(%rsp)
	vmovups	%ymm0, 64(%rsp)
	vmovups	%ymm0, 32(%rsp)
	vmovups	%ymm0, (%rsp)
	movq	%rsp, %rdi
	vzeroupper
	callq	blake2_digest..wiping..settle..512_1_v4
	addq	$520, %rsp
	vpxord	%xmm16, %xmm16, %xmm16
	vpxord	%xmm17, %xmm17, %xmm17
	vpxord	%xmm18, %xmm18, %xmm18
	vpxord	%xmm19, %xmm19, %xmm19
	vpxord	%xmm20, %xmm20, %xmm20
	vpxord	%xmm21, %xmm21, %xmm21
	vpxord	%xmm22, %xmm22, %xmm22
	vpxord	%xmm23, %xmm23, %xmm23
	vpxord	%xmm24, %xmm24, %xmm24
	vpxord	%xmm25, %xmm25, %xmm25
	vpxord	%xmm26, %xmm26, %xmm26
	vpxord	%xmm27, %xmm27, %xmm27
	vpxord	%xmm28, %xmm28, %xmm28
	vpxord	%xmm29, %xmm29, %xmm29
	vpxord	%xmm30, %xmm30, %xmm30
	vpxord	%xmm31, %xmm31, %xmm31
	retq
	vj_end	blake2_digest..wiping..scrub_stack..512_1_v4

	vj_function	blake2_digest..wiping..settle..512_1_v4
	vmovdqu	128(%rdi), %ymm0
	vmovdqu	160(%rdi), %ymm1
	vmovdqu	192(%rdi), %ymm2
	vmovdqu	224(%rdi), %ymm3
	vpor	32(%rdi), %ymm1, %ymm1
	vpor	64(%rdi), %ymm2, %ymm2
	vpor	96(%rdi), %ymm3, %ymm3
	vmovdqu	256(%rdi), %ymm4
	vmovdqu	288(%rdi), %ymm5
	vmovdqu	320(%rdi), %ymm6
	vmovdqu	352(%rdi), %ymm7
	vpternlogq	$254, (%rdi), %ymm0, %ymm4
	vpternlogq	$254, 416(%rdi), %ymm1, %ymm5
	vpternlogq	$254, 448(%rdi), %ymm2, %ymm6
	vpternlogq	$254, 480(%rdi), %ymm3, %ymm7
	vpternlogq	$254, 384(%rdi), %ymm4, %ymm5
	vpternlogq	$254, %ymm7, %ymm6, %ymm5
	vptest	%ymm5, %ymm5
	je	1f
	pause
1:
	vzeroupper
	retq
	vj_end	blake2_digest..wiping..settle..512_1_v4

	vj_function	blake2_state..blake2s..State..absorb_blocks_1_v4
	pushq	%rbp
	pushq	%r15
	pushq	%r14
	pushq	%r13
	pushq	%r12
	pushq	%rbx
	subq	$88, %rsp
	movq	%rsi, %r14
	movq	%rdi, %rbx
	movzwl	72(%rdi), %r13d
	movl	$64, %r12d
	subq	%r13, %r12
	movq	%rdx, %rbp
	subq	%r12, %rbp
	jbe	6f
	movq	64(%rbx), %r9
	vmovups	(%rbx), %ymm0
	vmovups	32(%rbx), %ymm1
	xorl	%eax, %eax
	cmpw	$0, 78(%rbx)
	setne	%al
	vmovups	%ymm0, (%rsp)
	vmovups	%ymm1, 32(%rsp)
	movq	%r9, 64(%rsp)
	movq	%rax, 72(%rsp)
	leaq	80(%rbx), %r8
	testq	%r13, %r13
	je	14f
	leaq	(%r8,%r13), %rdi
	movq	%rdi, %rax
	subq	%r14, %rax
	cmpq	%r12, %rax
	jae	15f
	cmpl	$8, %r12d
	jb	1f
	leaq	(%rbx,%r13), %rax
	subq	%r14, %rax
	addq	$80, %rax
	cmpq	$128, %rax
	jae	30f
1:
	xorl	%eax, %eax
2:
	movl	%r13d, %edx
	negl	%edx
	leaq	(%rax,%r13), %rcx
	andl	$7, %edx
	je	4f
	.p2align	4
3:
	movzbl	(%r14,%rax), %esi
	movb	%sil, (%rdi,%rax)
	incq	%rax
	decq	%rdx
	jne	3b
4:
	addl	$-57, %ecx
	cmpl	$7, %ecx
	jb	16f
	leaq	(%rbx,%r13), %rcx
	addq	$87, %rcx
	.p2align	4
5:
	movzbl	(%r14,%rax), %edx
	movb	%dl, -7(%rcx,%rax)
	movzbl	1(%r14,%rax), %edx
	movb	%dl, -6(%rcx,%rax)
	movzbl	2(%r14,%rax), %edx
	movb	%dl, -5(%rcx,%rax)
	movzbl	3(%r14,%rax), %edx
	movb	%dl, -4(%rcx,%rax)
	movzbl	4(%r14,%rax), %edx
	movb	%dl, -3(%rcx,%rax)
	movzbl	5(%r14,%rax), %edx
	movb	%dl, -2(%rcx,%rax)
	movzbl	6(%r14,%rax), %edx
	movb	%dl, -1(%rcx,%rax)
	movzbl	7(%r14,%rax), %edx
	movb	%dl, (%rcx,%rax)
	addq	$8, %rax
	cmpq	%rax, %r12
	jne	5b
	jmp	16f
6:
	leaq	(%rbx,%r13), %rdi
	addq	$80, %rdi
	movq	%rdi, %rax
	subq	%r14, %rax
	cmpq	%rdx, %rax
	jae	12f
	cmpq	$8, %rdx
	jb	7f
	leaq	(%rbx,%r13), %rax
	subq	%r14, %rax
	addq	$80, %rax
	cmpq	$128, %rax
	jae	28f
7:
	xorl	%eax, %eax
8:
	movq	%rdx, %rsi
	movq	%rax, %rcx
	andq	$7, %rsi
	je	10f
	movq	%rax, %rcx
	.p2align	4
9:
	movzbl	(%r14,%rcx), %r8d
	movb	%r8b, (%rdi,%rcx)
	incq	%rcx
	decq	%rsi
	jne	9b
10:
	subq	%rdx, %rax
	cmpq	$-8, %rax
	ja	13f
	leaq	(%rbx,%r13), %rax
	addq	$87, %rax
	.p2align	4
11:
	movzbl	(%r14,%rcx), %esi
	movb	%sil, -7(%rax,%rcx)
	movzbl	1(%r14,%rcx), %esi
	movb	%sil, -6(%rax,%rcx)
	movzbl	2(%r14,%rcx), %esi
	movb	%sil, -5(%rax,%rcx)
	movzbl	3(%r14,%rcx), %esi
	movb	%sil, -4(%rax,%rcx)
	movzbl	4(%r14,%rcx), %esi
	movb	%sil, -3(%rax,%rcx)
	movzbl	5(%r14,%rcx), %esi
	movb	%sil, -2(%rax,%rcx)
	movzbl	6(%r14,%rcx), %esi
	movb	%sil, -1(%rax,%rcx)
	movzbl	7(%r14,%rcx), %esi
	movb	%sil, (%rax,%rcx)
	addq	$8, %rcx
	cmpq	%rcx, %rdx
	jne	11b
	jmp	13f
12:
	movq	%r14, %rsi
	movq	%rdx, %r14
	vj_c_call	memmove
	movq	%r14, %rdx
13:
	addl	%r13d, %edx
	movw	%dx, 72(%rbx)
	jmp	27f
14:
	movq	%rdx, %rbp
	jmp	17f
15:
	movq	%r14, %rsi
	movq	%r12, %rdx
	movq	%r8, %r15
	movq	%r9, %r13
	vzeroupper
	vj_c_call	memmove
	movq	%r13, %r9
	movq	%r15, %r8
16:
	addq	%r12, %r14
	addq	$64, %r9
	movq	%r9, 64(%rsp)
	movq	%rsp, %rdi
	movq	%r8, %rsi
	movq	%r9, %rdx
	xorl	%ecx, %ecx
	xorl	%r8d, %r8d
	vzeroupper
	vj_call	blake2_compress..compress..blake2s..compress_1_v4
17:
	cmpq	$1, %rbp
	movq	%rbp, %r13
	adcq	$-1, %r13
	movq	%r13, %r15
	andq	$-64, %r15
	shrq	$6, %r13
	je	19f
	movq	%r14, %r12
	.p2align	4
18:
	movq	64(%rsp), %rdx
	addq	$64, %rdx
	movq	%rdx, 64(%rsp)
	movq	%rsp, %rdi
	movq	%r12, %rsi
	xorl	%ecx, %ecx
	xorl	%r8d, %r8d
	vzeroupper
	vj_call	blake2_compress..compress..blake2s..compress_1_v4
	addq	$64, %r12
	decq	%r13
	jne	18b
19:
	leaq	(%r14,%r15), %rsi
	movq	%rbp, %r12
	subq	%r15, %r12
	vxorps	%xmm0, %xmm0, %xmm0
	leaq	80(%rbx), %rdi
	vmovups	%ymm0, 32(%rdi)
	vmovups	%ymm0, (%rdi)
	movq	%rdi, %rax
	subq	%rsi, %rax
	cmpq	%r12, %rax
	jae	25f
	cmpq	$8, %r12
	jb	20f
	movq	%rbx, %rax
	subq	%rsi, %rax
	addq	$80, %rax
	cmpq	$128, %rax
	jae	29f
20:
	xorl	%eax, %eax
21:
	movl	%ebp, %edx
	subl	%eax, %edx
	movq	%rax, %rcx
	andl	$7, %edx
	je	23f
	movq	%rax, %rcx
	.p2align	4
22:
	movzbl	(%rsi,%rcx), %r8d
	movb	%r8b, (%rdi,%rcx)
	incq	%rcx
	decq	%rdx
	jne	22b
23:
	subq	%rbp, %rax
	addq	%r15, %rax
	cmpq	$-8, %rax
	ja	26f
	leaq	(%r15,%r14), %rax
	addq	$7, %rax
	.p2align	4
24:
	movzbl	-7(%rax,%rcx), %edx
	movb	%dl, 80(%rbx,%rcx)
	movzbl	-6(%rax,%rcx), %edx
	movb	%dl, 81(%rbx,%rcx)
	movzbl	-5(%rax,%rcx), %edx
	movb	%dl, 82(%rbx,%rcx)
	movzbl	-4(%rax,%rcx), %edx
	movb	%dl, 83(%rbx,%rcx)
	movzbl	-3(%rax,%rcx), %edx
	movb	%dl, 84(%rbx,%rcx)
	movzbl	-2(%rax,%rcx), %edx
	movb	%dl, 85(%rbx,%rcx)
	movzbl	-1(%rax,%rcx), %edx
	movb	%dl, 86(%rbx,%rcx)
	movzbl	(%rax,%rcx), %edx
	movb	%dl, 87(%rbx,%rcx)
	addq	$8, %rcx
	cmpq	%rcx, %r12
	jne	24b
	jmp	26f
25:
	movq	%r12, %rdx
	vzeroupper
	vj_c_call	memmove
26:
	movw	%r12w, 72(%rbx)
	vmovups	(%rsp), %ymm0
	vmovups	%ymm0, (%rbx)
	movq	64(%rsp), %rax
	movq	%rax, 64(%rbx)
27:
	addq	$88, %rsp
	popq	%rbx
	popq	%r12
	popq	%r13
	popq	%r14
	popq	%r15
	popq	%rbp
	vzeroupper
	retq
28:
	cmpq	$128, %rdx
	jae	31f
	xorl	%eax, %eax
	jmp	33f
29:
	cmpq	$128, %r12
	jae	35f
	xorl	%eax, %eax
	jmp	37f
30:
	cmpl	$128, %r12d
	jae	39f
	xorl	%eax, %eax
	jmp	41f
31:
	movq	%rdx, %rax
	andq	$-128, %rax
	leaq	(%rbx,%r13), %rcx
	addq	$176, %rcx
	xorl	%esi, %esi
	.p2align	4
32:
	vmovups	(%r14,%rsi), %ymm0
	vmovups	32(%r14,%rsi), %ymm1
	vmovups	64(%r14,%rsi), %ymm2
	vmovups	96(%r14,%rsi), %ymm3
	vmovups	%ymm0, -96(%rcx,%rsi)
	vmovups	%ymm1, -64(%rcx,%rsi)
	vmovups	%ymm2, -32(%rcx,%rsi)
	vmovups	%ymm3, (%rcx,%rsi)
	subq	$-128, %rsi
	cmpq	%rsi, %rax
	jne	32b
	cmpq	%rax, %rdx
	je	13b
	testb	$120, %dl
	je	8b
33:
	movq	%rax, %rcx
	movq	%rdx, %rax
	andq	$-8, %rax
	.p2align	4
34:
	movq	(%r14,%rcx), %rsi
	movq	%rsi, (%rdi,%rcx)
	addq	$8, %rcx
	cmpq	%rcx, %rax
	jne	34b
	cmpq	%rax, %rdx
	je	13b
	jmp	8b
35:
	movq	%r12, %rax
	andq	$-128, %rax
	leaq	(%r15,%r14), %rcx
	addq	$96, %rcx
	xorl	%edx, %edx
	.p2align	4
36:
	vmovups	-96(%rcx,%rdx), %ymm0
	vmovups	-64(%rcx,%rdx), %ymm1
	vmovups	-32(%rcx,%rdx), %ymm2
	vmovups	(%rcx,%rdx), %ymm3
	vmovups	%ymm0, 80(%rbx,%rdx)
	vmovups	%ymm1, 112(%rbx,%rdx)
	vmovups	%ymm2, 144(%rbx,%rdx)
	vmovups	%ymm3, 176(%rbx,%rdx)
	subq	$-128, %rdx
	cmpq	%rdx, %rax
	jne	36b
	cmpq	%rax, %r12
	je	26b
	testb	$120, %r12b
	je	21b
37:
	movq	%rax, %rcx
	movl	%ebp, %edx
	andl	$7, %edx
	movq	%r12, %rax
	subq	%rdx, %rax
	.p2align	4
38:
	movq	(%rsi,%rcx), %r8
	movq	%r8, (%rdi,%rcx)
	addq	$8, %rcx
	cmpq	%rcx, %rax
	jne	38b
	testq	%rdx, %rdx
	jne	21b
	jmp	26b
39:
	movq	%r12, %rax
	andq	$-128, %rax
	leaq	(%rbx,%r13), %rcx
	addq	$176, %rcx
	xorl	%edx, %edx
	.p2align	4
40:
	vmovups	(%r14,%rdx), %ymm0
	vmovups	32(%r14,%rdx), %ymm1
	vmovups	64(%r14,%rdx), %ymm2
	vmovups	96(%r14,%rdx), %ymm3
	vmovups	%ymm0, -96(%rcx,%rdx)
	vmovups	%ymm1, -64(%rcx,%rdx)
	vmovups	%ymm2, -32(%rcx,%rdx)
	vmovups	%ymm3, (%rcx,%rdx)
	subq	$-128, %rdx
	cmpq	%rdx, %rax
	jne	40b
	cmpl	%eax, %r12d
	je	16b
	testb	$120, %r12b
	je	2b
41:
	movq	%rax, %rcx
	movq	%r12, %rax
	andq	$-8, %rax
	.p2align	4
42:
	movq	(%r14,%rcx), %rdx
	movq	%rdx, (%rdi,%rcx)
	addq	$8, %rcx
	cmpq	%rcx, %rax
	jne	42b
	cmpl	%eax, %r12d
	je	16b
	jmp	2b
	vj_end	blake2_state..blake2s..State..absorb_blocks_1_v4

	vj_function	blake2_ffi..several..blake2s..update_in_frame_1_v4
	vj_jump	blake2_state..many..blake2s..update_many_1_v4
	vj_end	blake2_ffi..several..blake2s..update_in_frame_1_v4

	vj_constants	16
	.p2align	4, 0x0
.L1_v4_CPI57_0:
	.long	0
	.long	1
	.long	2
	.long	4
.L1_v4_CPI57_2:
	.long	0
	.long	1
	.long	2
	.long	6
	vj_constants	8
	.p2align	3, 0x0
.L1_v4_CPI57_1:
	.long	1
	.long	5
	vj_shared	blake2_state..many..blake2s..update_many_1_v4
	testq	%rcx, %rcx
	je	17f
	pushq	%rbp
	pushq	%r15
	pushq	%r14
	pushq	%r13
	pushq	%r12
	pushq	%rbx
	subq	$2392, %rsp
	movq	%rcx, %r15
	movq	%rdx, %r13
	movq	%rdi, %rbp
	leaq	8(%rdx), %rax
	movq	%rax, 496(%rsp)
	xorl	%r14d, %r14d
	movq	%rcx, 520(%rsp)
	movq	%rdx, 512(%rsp)
	movq	%rdi, 504(%rsp)
	jmp	3f
	.p2align	4
1:
	movl	$8, %ebx
	movq	520(%rsp), %r15
	movq	512(%rsp), %r13
	movq	504(%rsp), %rbp
	movq	64(%rsp), %r14
2:
	addq	%rbx, %r14
	cmpq	%r15, %r14
	jae	16f
3:
	movq	%r15, %rax
	subq	%r14, %rax
	imulq	$176, %r14, %rdi
	cmpq	$7, %rax
	jbe	10f
	movq	%r14, 64(%rsp)
	movq	%r14, %rax
	shlq	$4, %rax
	movq	8(%r13,%rax), %rdx
	movzwl	72(%rbp,%rdi), %ecx
	leaq	(%rdx,%rcx), %rsi
	movzwl	248(%rdi,%rbp), %r14d
	movq	24(%r13,%rax), %r8
	addq	%r14, %r8
	cmpq	%rsi, %r8
	cmovaeq	%rsi, %r8
	movzwl	424(%rdi,%rbp), %ebx
	movq	40(%r13,%rax), %rsi
	addq	%rbx, %rsi
	cmpq	%r8, %rsi
	cmovaeq	%r8, %rsi
	movzwl	600(%rdi,%rbp), %r12d
	movq	56(%r13,%rax), %r8
	addq	%r12, %r8
	cmpq	%rsi, %r8
	cmovaeq	%rsi, %r8
	movzwl	776(%rdi,%rbp), %r9d
	movq	72(%r13,%rax), %rsi
	movq	%r9, 8(%rsp)
	addq	%r9, %rsi
	cmpq	%r8, %rsi
	cmovaeq	%r8, %rsi
	movzwl	952(%rdi,%rbp), %r11d
	movq	88(%r13,%rax), %r8
	addq	%r11, %r8
	cmpq	%rsi, %r8
	cmovaeq	%rsi, %r8
	movzwl	1128(%rdi,%rbp), %r10d
	movq	104(%r13,%rax), %rsi
	addq	%r10, %rsi
	cmpq	%r8, %rsi
	cmovaeq	%r8, %rsi
	movzwl	1304(%rdi,%rbp), %r9d
	movq	120(%r13,%rax), %r8
	addq	%r9, %r8
	cmpq	%rsi, %r8
	cmovaeq	%rsi, %r8
	cmpq	$65, %r8
	jb	12f
	leaq	(%rdi,%rbp), %rdx
	vxorps	%xmm0, %xmm0, %xmm0
	vmovups	%ymm0, 1104(%rsp)
	vmovups	%ymm0, 1136(%rsp)
	vmovups	%ymm0, 1168(%rsp)
	vmovups	%ymm0, 1200(%rsp)
	vmovups	%ymm0, 1232(%rsp)
	vmovups	%ymm0, 1264(%rsp)
	vmovups	%ymm0, 1296(%rsp)
	vmovups	%ymm0, 1328(%rsp)
	leaq	176(%rdi,%rbp), %r15
	vmovd	(%rdx), %xmm0
	vpinsrd	$1, (%r15), %xmm0, %xmm0
	vpinsrd	$2, 176(%r15), %xmm0, %xmm0
	vpinsrd	$3, 352(%r15), %xmm0, %xmm0
	vmovdqa	%xmm0, 96(%rsp)
	vmovd	528(%r15), %xmm0
	vpinsrd	$1, 704(%r15), %xmm0, %xmm0
	vpinsrd	$2, 880(%r15), %xmm0, %xmm0
	vpinsrd	$3, 1056(%r15), %xmm0, %xmm0
	vmovdqa	%xmm0, 80(%rsp)
	vmovd	4(%rdx), %xmm0
	vpinsrd	$1, 4(%r15), %xmm0, %xmm0
	vpinsrd	$2, 180(%r15), %xmm0, %xmm0
	vpinsrd	$3, 356(%r15), %xmm0, %xmm0
	vmovdqa	%xmm0, 1088(%rsp)
	vmovd	532(%r15), %xmm0
	vpinsrd	$1, 708(%r15), %xmm0, %xmm0
	vpinsrd	$2, 884(%r15), %xmm0, %xmm0
	vpinsrd	$3, 1060(%r15), %xmm0, %xmm0
	vmovdqa	%xmm0, 1072(%rsp)
	vmovd	8(%rdx), %xmm0
	vpinsrd	$1, 8(%r15), %xmm0, %xmm0
	vpinsrd	$2, 184(%r15), %xmm0, %xmm0
	vpinsrd	$3, 360(%r15), %xmm0, %xmm0
	vmovdqa	%xmm0, 1056(%rsp)
	vmovd	536(%r15), %xmm0
	vpinsrd	$1, 712(%r15), %xmm0, %xmm0
	vpinsrd	$2, 888(%r15), %xmm0, %xmm0
	vpinsrd	$3, 1064(%r15), %xmm0, %xmm0
	vmovdqa	%xmm0, 1040(%rsp)
	vmovd	12(%rdx), %xmm0
	vpinsrd	$1, 12(%r15), %xmm0, %xmm0
	vpinsrd	$2, 188(%r15), %xmm0, %xmm0
	vpinsrd	$3, 364(%r15), %xmm0, %xmm0
	vmovdqa	%xmm0, 1024(%rsp)
	vmovd	540(%r15), %xmm0
	vpinsrd	$1, 716(%r15), %xmm0, %xmm0
	vpinsrd	$2, 892(%r15), %xmm0, %xmm0
	vpinsrd	$3, 1068(%r15), %xmm0, %xmm0
	vmovdqa	%xmm0, 1008(%rsp)
	leaq	16(%rax), %rbp
	vmovd	16(%rdx), %xmm0
	vpinsrd	$1, 16(%r15), %xmm0, %xmm0
	vpinsrd	$2, 192(%r15), %xmm0, %xmm0
	vpinsrd	$3, 368(%r15), %xmm0, %xmm0
	vmovdqa	%xmm0, 992(%rsp)
	leaq	32(%rax), %rsi
	movq	%rsi, 40(%rsp)
	vmovd	544(%r15), %xmm0
	vpinsrd	$1, 720(%r15), %xmm0, %xmm0
	vpinsrd	$2, 896(%r15), %xmm0, %xmm0
	vpinsrd	$3, 1072(%r15), %xmm0, %xmm0
	vmovdqa	%xmm0, 976(%rsp)
	leaq	48(%rax), %rsi
	movq	%rsi, 24(%rsp)
	vmovd	20(%rdx), %xmm0
	vpinsrd	$1, 20(%r15), %xmm0, %xmm0
	vpinsrd	$2, 196(%r15), %xmm0, %xmm0
	vpinsrd	$3, 372(%r15), %xmm0, %xmm0
	vmovdqa	%xmm0, 960(%rsp)
	leaq	64(%rax), %rsi
	movq	%rsi, 32(%rsp)
	vmovd	548(%r15), %xmm0
	vpinsrd	$1, 724(%r15), %xmm0, %xmm0
	vpinsrd	$2, 900(%r15), %xmm0, %xmm0
	vpinsrd	$3, 1076(%r15), %xmm0, %xmm0
	vmovdqa	%xmm0, 944(%rsp)
	leaq	80(%rax), %rsi
	movq	%rsi, 560(%rsp)
	vmovd	24(%rdx), %xmm0
	vpinsrd	$1, 24(%r15), %xmm0, %xmm0
	vpinsrd	$2, 200(%r15), %xmm0, %xmm0
	vpinsrd	$3, 376(%r15), %xmm0, %xmm0
	vmovdqa	%xmm0, 928(%rsp)
	leaq	96(%rax), %rsi
	movq	%rsi, 48(%rsp)
	vmovd	552(%r15), %xmm0
	vpinsrd	$1, 728(%r15), %xmm0, %xmm0
	vpinsrd	$2, 904(%r15), %xmm0, %xmm0
	vpinsrd	$3, 1080(%r15), %xmm0, %xmm0
	vmovdqa	%xmm0, 912(%rsp)
	leaq	112(%rax), %rsi
	movq	%rsi, 56(%rsp)
	vmovd	28(%rdx), %xmm0
	vpinsrd	$1, 28(%r15), %xmm0, %xmm0
	vpinsrd	$2, 204(%r15), %xmm0, %xmm0
	vpinsrd	$3, 380(%r15), %xmm0, %xmm0
	vmovdqa	%xmm0, 896(%rsp)
	decq	%r8
	vmovd	556(%r15), %xmm0
	vpinsrd	$1, 732(%r15), %xmm0, %xmm0
	vpinsrd	$2, 908(%r15), %xmm0, %xmm0
	vpinsrd	$3, 1084(%r15), %xmm0, %xmm0
	vmovdqa	%xmm0, 880(%rsp)
	shrq	$6, %r8
	movq	%r8, 16(%rsp)
	movq	(%r13,%rax), %rsi
	movq	%rsi, 600(%rsp)
	movq	%rdx, 72(%rsp)
	vmovups	80(%rdx), %ymm0
	vmovups	112(%rdx), %ymm1
	vmovups	%ymm1, 144(%rsp)
	vmovups	%ymm0, 112(%rsp)
	leaq	(%rsp,%rcx), %rdi
	addq	$112, %rdi
	movl	$64, %edx
	subq	%rcx, %rdx
	movq	%rdx, 592(%rsp)
	movq	%r9, 584(%rsp)
	movq	%r10, 544(%rsp)
	movq	%r11, 528(%rsp)
	vzeroupper
	vj_c_call	memcpy
	vmovups	112(%rsp), %ymm0
	vmovups	144(%rsp), %ymm1
	vmovups	%ymm1, 400(%rsp)
	vmovups	%ymm0, 368(%rsp)
	vmovups	%ymm0, 1872(%rsp)
	vmovups	%ymm1, 1904(%rsp)
	movq	(%r13,%rbp), %rsi
	movq	%rsi, 576(%rsp)
	vmovups	80(%r15), %ymm0
	vmovups	112(%r15), %ymm1
	vmovups	%ymm1, 144(%rsp)
	vmovups	%ymm0, 112(%rsp)
	leaq	(%rsp,%r14), %rdi
	addq	$112, %rdi
	movl	$64, %edx
	subq	%r14, %rdx
	movq	%rdx, 568(%rsp)
	vzeroupper
	vj_c_call	memcpy
	vmovups	112(%rsp), %ymm0
	vmovups	144(%rsp), %ymm1
	vmovups	%ymm1, 400(%rsp)
	vmovups	%ymm0, 368(%rsp)
	leaq	1936(%rsp), %rbp
	vmovups	%ymm1, 32(%rbp)
	vmovups	%ymm0, (%rbp)
	movq	40(%rsp), %rax
	movq	(%r13,%rax), %rsi
	movq	%rsi, 40(%rsp)
	vmovups	256(%r15), %ymm0
	vmovups	288(%r15), %ymm1
	vmovups	%ymm1, 144(%rsp)
	vmovups	%ymm0, 112(%rsp)
	leaq	(%rsp,%rbx), %rdi
	addq	$112, %rdi
	movl	$64, %edx
	subq	%rbx, %rdx
	movq	%rdx, 552(%rsp)
	vzeroupper
	vj_c_call	memcpy
	vmovups	112(%rsp), %ymm0
	vmovups	144(%rsp), %ymm1
	vmovups	%ymm1, 400(%rsp)
	vmovups	%ymm0, 368(%rsp)
	vmovups	%ymm1, 96(%rbp)
	vmovups	%ymm0, 64(%rbp)
	movq	24(%rsp), %rax
	movq	(%r13,%rax), %rsi
	movq	%rsi, 24(%rsp)
	vmovups	432(%r15), %ymm0
	vmovups	464(%r15), %ymm1
	vmovups	%ymm1, 144(%rsp)
	vmovups	%ymm0, 112(%rsp)
	leaq	(%rsp,%r12), %rdi
	addq	$112, %rdi
	movl	$64, %edx
	subq	%r12, %rdx
	movq	%rdx, 536(%rsp)
	vzeroupper
	vj_c_call	memcpy
	vmovups	112(%rsp), %ymm0
	vmovups	144(%rsp), %ymm1
	vmovups	%ymm1, 400(%rsp)
	vmovups	%ymm0, 368(%rsp)
	vmovups	%ymm1, 160(%rbp)
	vmovups	%ymm0, 128(%rbp)
	movq	32(%rsp), %rax
	movq	(%r13,%rax), %rsi
	movq	%rsi, 32(%rsp)
	vmovups	608(%r15), %ymm0
	vmovups	640(%r15), %ymm1
	vmovups	%ymm1, 144(%rsp)
	vmovups	%ymm0, 112(%rsp)
	movq	8(%rsp), %rax
	leaq	(%rsp,%rax), %rdi
	addq	$112, %rdi
	movl	$64, %r12d
	subq	%rax, %r12
	movq	%r12, %rdx
	vzeroupper
	vj_c_call	memcpy
	vmovups	112(%rsp), %ymm0
	vmovups	144(%rsp), %ymm1
	vmovups	%ymm1, 400(%rsp)
	vmovups	%ymm0, 368(%rsp)
	vmovups	%ymm1, 224(%rbp)
	vmovups	%ymm0, 192(%rbp)
	movq	560(%rsp), %rax
	movq	(%r13,%rax), %rsi
	movq	%rsi, 8(%rsp)
	vmovups	784(%r15), %ymm0
	vmovups	816(%r15), %ymm1
	vmovups	%ymm1, 144(%rsp)
	vmovups	%ymm0, 112(%rsp)
	movq	528(%rsp), %rax
	leaq	(%rsp,%rax), %rdi
	addq	$112, %rdi
	movl	$64, %r14d
	subq	%rax, %r14
	movq	%r14, %rdx
	vzeroupper
	vj_c_call	memcpy
	vmovups	112(%rsp), %ymm0
	vmovups	144(%rsp), %ymm1
	vmovups	%ymm1, 400(%rsp)
	vmovups	%ymm0, 368(%rsp)
	vmovups	%ymm1, 288(%rbp)
	vmovups	%ymm0, 256(%rbp)
	movq	48(%rsp), %rax
	movq	(%r13,%rax), %rsi
	movq	%rsi, 48(%rsp)
	vmovups	960(%r15), %ymm0
	vmovups	992(%r15), %ymm1
	vmovups	%ymm1, 144(%rsp)
	vmovups	%ymm0, 112(%rsp)
	movq	544(%rsp), %rax
	leaq	(%rsp,%rax), %rdi
	addq	$112, %rdi
	movl	$64, %ebx
	subq	%rax, %rbx
	movq	%rbx, %rdx
	vzeroupper
	vj_c_call	memcpy
	vmovups	112(%rsp), %ymm0
	vmovups	144(%rsp), %ymm1
	vmovups	%ymm1, 400(%rsp)
	vmovups	%ymm0, 368(%rsp)
	vmovups	%ymm1, 352(%rbp)
	vmovups	%ymm0, 320(%rbp)
	movq	56(%rsp), %rax
	movq	(%r13,%rax), %rsi
	movq	%rsi, 56(%rsp)
	vmovups	1136(%r15), %ymm0
	vmovups	1168(%r15), %ymm1
	vmovups	%ymm1, 144(%rsp)
	vmovups	%ymm0, 112(%rsp)
	movq	584(%rsp), %rax
	leaq	(%rsp,%rax), %rdi
	addq	$112, %rdi
	movl	$64, %edx
	subq	%rax, %rdx
	movq	%rdx, %r13
	vzeroupper
	vj_c_call	memcpy
	movq	592(%rsp), %rax
	addq	600(%rsp), %rax
	movq	568(%rsp), %rcx
	addq	576(%rsp), %rcx
	movq	552(%rsp), %rdx
	addq	40(%rsp), %rdx
	movq	536(%rsp), %rsi
	addq	24(%rsp), %rsi
	addq	32(%rsp), %r12
	addq	8(%rsp), %r14
	addq	48(%rsp), %rbx
	vmovups	112(%rsp), %ymm0
	vmovups	144(%rsp), %ymm1
	vmovups	%ymm1, 400(%rsp)
	vmovups	%ymm0, 368(%rsp)
	vmovups	%ymm1, 416(%rbp)
	addq	56(%rsp), %r13
	vmovups	%ymm0, 384(%rbp)
	movq	%rax, 752(%rsp)
	movq	16(%rsp), %rax
	decq	%rax
	movq	%rax, 760(%rsp)
	movq	%rcx, 768(%rsp)
	movq	%rax, 776(%rsp)
	movq	%rdx, 784(%rsp)
	movq	%rax, 792(%rsp)
	movq	%rsi, 800(%rsp)
	movq	%rax, 808(%rsp)
	movq	%r12, 816(%rsp)
	movq	%rax, 824(%rsp)
	movq	%r14, 832(%rsp)
	movq	%rax, 840(%rsp)
	movq	%rbx, 848(%rsp)
	movq	%rax, 856(%rsp)
	movq	%r13, 864(%rsp)
	movq	%rax, 872(%rsp)
	movq	72(%rsp), %rax
	movq	64(%rax), %rbx
	movq	64(%r15), %r14
	movq	240(%r15), %r12
	movq	416(%r15), %r13
	movq	592(%r15), %rcx
	movq	768(%r15), %rdx
	movq	944(%r15), %rsi
	movq	1120(%r15), %r15
	vxorps	%xmm0, %xmm0, %xmm0
	vmovups	%ymm0, 656(%rsp)
	vmovups	%ymm0, 624(%rsp)
	vmovaps	80(%rsp), %xmm0
	vmovups	%xmm0, 128(%rsp)
	vmovaps	96(%rsp), %xmm0
	vmovups	%xmm0, 112(%rsp)
	vmovaps	1072(%rsp), %xmm0
	vmovups	%xmm0, 160(%rsp)
	vmovaps	1088(%rsp), %xmm0
	vmovups	%xmm0, 144(%rsp)
	vmovaps	1040(%rsp), %xmm0
	vmovups	%xmm0, 192(%rsp)
	vmovaps	1056(%rsp), %xmm0
	vmovups	%xmm0, 176(%rsp)
	vmovaps	1008(%rsp), %xmm0
	vmovups	%xmm0, 224(%rsp)
	vmovaps	1024(%rsp), %xmm0
	vmovups	%xmm0, 208(%rsp)
	vmovaps	976(%rsp), %xmm0
	vmovups	%xmm0, 256(%rsp)
	vmovaps	992(%rsp), %xmm0
	vmovups	%xmm0, 240(%rsp)
	vmovaps	944(%rsp), %xmm0
	vmovups	%xmm0, 288(%rsp)
	vmovaps	960(%rsp), %xmm0
	vmovups	%xmm0, 272(%rsp)
	vmovaps	912(%rsp), %xmm0
	vmovups	%xmm0, 320(%rsp)
	vmovaps	928(%rsp), %xmm0
	vmovups	%xmm0, 304(%rsp)
	vmovaps	880(%rsp), %xmm0
	vmovups	%xmm0, 352(%rsp)
	vmovaps	896(%rsp), %xmm0
	vmovups	%xmm0, 336(%rsp)
	vxorps	%xmm0, %xmm0, %xmm0
	vmovaps	%xmm0, 608(%rsp)
	leaq	64(%rbx), %rax
	movq	%rax, 688(%rsp)
	leaq	64(%r14), %rax
	movq	%rax, 696(%rsp)
	leaq	64(%r12), %rax
	movq	%rax, 704(%rsp)
	leaq	64(%r13), %rax
	movq	%rax, 712(%rsp)
	movq	%rcx, 8(%rsp)
	leaq	64(%rcx), %rax
	movq	%rax, 720(%rsp)
	movq	%rdx, 96(%rsp)
	leaq	64(%rdx), %rax
	movq	%rax, 728(%rsp)
	movq	%rsi, 80(%rsp)
	leaq	64(%rsi), %rax
	movq	%rax, 736(%rsp)
	leaq	64(%r15), %rax
	movq	%rax, 744(%rsp)
	vmovups	1872(%rsp), %ymm0
	vmovups	1904(%rsp), %ymm1
	vmovups	%ymm1, 1840(%rsp)
	vmovups	%ymm0, 1808(%rsp)
	vmovups	(%rbp), %ymm0
	vmovups	32(%rbp), %ymm1
	vmovups	%ymm1, 1776(%rsp)
	vmovups	%ymm0, 1744(%rsp)
	vmovups	64(%rbp), %ymm0
	vmovups	96(%rbp), %ymm1
	vmovups	%ymm1, 1712(%rsp)
	vmovups	%ymm0, 1680(%rsp)
	vmovups	128(%rbp), %ymm0
	vmovups	160(%rbp), %ymm1
	vmovups	%ymm1, 1648(%rsp)
	vmovups	%ymm0, 1616(%rsp)
	vmovups	192(%rbp), %ymm0
	vmovups	224(%rbp), %ymm1
	vmovups	%ymm1, 1584(%rsp)
	vmovups	%ymm0, 1552(%rsp)
	vmovups	256(%rbp), %ymm0
	vmovups	288(%rbp), %ymm1
	vmovups	%ymm1, 1520(%rsp)
	vmovups	%ymm0, 1488(%rsp)
	vmovups	320(%rbp), %ymm0
	vmovups	352(%rbp), %ymm1
	vmovups	%ymm1, 1456(%rsp)
	vmovups	%ymm0, 1424(%rsp)
	leaq	1808(%rsp), %rax
	movq	%rax, 368(%rsp)
	movq	$1, 376(%rsp)
	leaq	1744(%rsp), %rax
	movq	%rax, 384(%rsp)
	movq	$1, 392(%rsp)
	leaq	1680(%rsp), %rax
	movq	%rax, 400(%rsp)
	movq	$1, 408(%rsp)
	leaq	1616(%rsp), %rax
	movq	%rax, 416(%rsp)
	movq	$1, 424(%rsp)
	leaq	1552(%rsp), %rax
	movq	%rax, 432(%rsp)
	movq	$1, 440(%rsp)
	leaq	1488(%rsp), %rax
	movq	%rax, 448(%rsp)
	movq	$1, 456(%rsp)
	leaq	1424(%rsp), %rax
	movq	%rax, 464(%rsp)
	movq	$1, 472(%rsp)
	leaq	1360(%rsp), %rax
	movq	%rax, 480(%rsp)
	vmovups	416(%rbp), %ymm0
	vmovups	%ymm0, 1392(%rsp)
	vmovups	384(%rbp), %ymm0
	vmovups	%ymm0, 1360(%rsp)
	movq	$1, 488(%rsp)
	leaq	112(%rsp), %rdi
	leaq	368(%rsp), %rsi
	leaq	688(%rsp), %rdx
	leaq	608(%rsp), %rcx
	vzeroupper
	callq	blake2_compress..many..blake2s..compress_blocks_1_v4
	movq	16(%rsp), %r8
	decq	%r8
	je	4f
	subq	$-128, %rbx
	subq	$-128, %r14
	subq	$-128, %r12
	subq	$-128, %r13
	movq	8(%rsp), %rax
	subq	$-128, %rax
	movq	96(%rsp), %rcx
	subq	$-128, %rcx
	movq	80(%rsp), %rdx
	subq	$-128, %rdx
	subq	$-128, %r15
	movq	%rbx, 624(%rsp)
	movq	%r14, 632(%rsp)
	movq	%r12, 640(%rsp)
	movq	%r13, 648(%rsp)
	movq	%rax, 656(%rsp)
	movq	%rcx, 664(%rsp)
	movq	%rdx, 672(%rsp)
	movq	%r15, 680(%rsp)
	leaq	112(%rsp), %rdi
	leaq	752(%rsp), %rsi
	leaq	624(%rsp), %rdx
	leaq	608(%rsp), %rcx
	movq	%r8, %rbx
	callq	blake2_compress..many..blake2s..compress_blocks_1_v4
	movq	%rbx, %r8
4:
	vmovdqu	176(%rsp), %xmm10
	vmovdqu	208(%rsp), %xmm11
	vmovdqu64	272(%rsp), %xmm16
	vmovdqu64	240(%rsp), %xmm17
	vmovdqu	304(%rsp), %xmm12
	vmovdqu	336(%rsp), %xmm13
	vbroadcastss	212(%rsp), %xmm15
	vbroadcastss	340(%rsp), %xmm14
	vmovdqu64	112(%rsp), %xmm18
	vmovdqu	128(%rsp), %xmm5
	vmovdqu64	144(%rsp), %xmm19
	vmovdqu	160(%rsp), %xmm6
	vmovdqu	192(%rsp), %xmm0
	vmovdqu	224(%rsp), %xmm1
	vmovdqu64	288(%rsp), %xmm21
	vmovdqu	256(%rsp), %xmm3
	vbroadcastss	228(%rsp), %xmm8
	vbroadcastss	356(%rsp), %xmm22
	vpunpckldq	%xmm19, %xmm18, %xmm4
	vpunpcklqdq	%xmm10, %xmm4, %xmm4
	vmovdqa64	.L1_v4_CPI57_0(%rip), %xmm20
	vpermt2d	%xmm11, %xmm20, %xmm4
	vmovdqa	%xmm4, 1104(%rsp)
	vmovdqu	320(%rsp), %xmm4
	vpunpckldq	%xmm16, %xmm17, %xmm9
	vpunpcklqdq	%xmm12, %xmm9, %xmm9
	vpermt2d	%xmm13, %xmm20, %xmm9
	vmovdqa	%xmm9, 1120(%rsp)
	vpbroadcastq	.L1_v4_CPI57_1(%rip), %xmm9
	vpunpckhdq	%xmm19, %xmm18, %xmm2
	vpermt2d	%xmm19, %xmm9, %xmm18
	vshufps	$212, %xmm10, %xmm18, %xmm7
	vblendps	$8, %xmm15, %xmm7, %xmm7
	vmovaps	%xmm7, 1136(%rsp)
	vpunpckhdq	%xmm16, %xmm17, %xmm7
	vpermt2d	%xmm16, %xmm9, %xmm17
	vshufps	$212, %xmm12, %xmm17, %xmm15
	vblendps	$8, %xmm14, %xmm15, %xmm14
	vmovaps	%xmm14, 1152(%rsp)
	vmovdqu	352(%rsp), %xmm14
	vpblendd	$12, %xmm10, %xmm2, %xmm15
	vmovdqa64	.L1_v4_CPI57_2(%rip), %xmm16
	vpermt2d	%xmm11, %xmm16, %xmm15
	vmovdqa	%xmm15, 1168(%rsp)
	vpblendd	$12, %xmm12, %xmm7, %xmm15
	vpermt2d	%xmm13, %xmm16, %xmm15
	vmovdqa	%xmm15, 1184(%rsp)
	vshufps	$254, %xmm10, %xmm2, %xmm2
	vblendps	$8, %xmm11, %xmm2, %xmm2
	vmovaps	%xmm2, 1200(%rsp)
	vshufps	$254, %xmm12, %xmm7, %xmm2
	vblendps	$8, %xmm13, %xmm2, %xmm2
	vmovaps	%xmm2, 1216(%rsp)
	vpunpckldq	%xmm6, %xmm5, %xmm2
	vpunpcklqdq	%xmm0, %xmm2, %xmm2
	vpermt2d	%xmm1, %xmm20, %xmm2
	vmovdqa	%xmm2, 1232(%rsp)
	vpunpckldq	%xmm21, %xmm3, %xmm2
	vpunpcklqdq	%xmm4, %xmm2, %xmm2
	vpermt2d	%xmm14, %xmm20, %xmm2
	vmovdqa	%xmm2, 1248(%rsp)
	vpunpckhdq	%xmm6, %xmm5, %xmm2
	vpermt2d	%xmm6, %xmm9, %xmm5
	vshufps	$212, %xmm0, %xmm5, %xmm5
	vblendps	$8, %xmm8, %xmm5, %xmm5
	vmovaps	%xmm5, 1264(%rsp)
	vpermi2d	%xmm21, %xmm3, %xmm9
	vshufps	$212, %xmm4, %xmm9, %xmm5
	vmovaps	%xmm22, %xmm6
	vblendps	$8, %xmm6, %xmm5, %xmm5
	vmovaps	%xmm5, 1280(%rsp)
	vpblendd	$12, %xmm0, %xmm2, %xmm5
	vpermt2d	%xmm1, %xmm16, %xmm5
	vmovdqa	%xmm5, 1296(%rsp)
	vpunpckhdq	%xmm21, %xmm3, %xmm3
	vpblendd	$12, %xmm4, %xmm3, %xmm5
	vpermt2d	%xmm14, %xmm16, %xmm5
	vmovdqa	%xmm5, 1312(%rsp)
	vshufps	$254, %xmm0, %xmm2, %xmm0
	vblendps	$8, %xmm1, %xmm0, %xmm0
	vmovaps	%xmm0, 1328(%rsp)
	vshufps	$254, %xmm4, %xmm3, %xmm0
	vblendps	$8, %xmm14, %xmm0, %xmm0
	vmovaps	%xmm0, 1344(%rsp)
	shlq	$6, %r8
	leaq	64(%r8), %rax
	movq	%rax, 96(%rsp)
	movq	64(%rsp), %rax
	shlq	$4, %rax
	addq	496(%rsp), %rax
	movq	%rax, 80(%rsp)
	xorl	%r13d, %r13d
	xorl	%ebx, %ebx
	movq	%r8, 16(%rsp)
	jmp	8f
	.p2align	4
5:
	movq	8(%rsp), %rdi
	movq	%r14, %rsi
	movq	%r12, %rdx
6:
	vzeroupper
	callq	blake2_state..blake2s..State..absorb_blocks_1_v4
7:
	movq	16(%rsp), %r8
	addq	$176, %rbx
	addq	$16, %r13
	cmpq	$1408, %rbx
	je	1b
8:
	movq	72(%rsp), %rbp
	leaq	(%rbx,%rbp), %rax
	movq	%rax, 8(%rsp)
	movq	80(%rsp), %rax
	movq	-8(%rax,%r13), %r14
	movq	(%rax,%r13), %r12
	movzwl	72(%rbp,%rbx), %eax
	movq	%r8, %rcx
	subq	%rax, %rcx
	leaq	128(%rcx), %r15
	cmpq	%r15, %r12
	cmovbq	%r12, %r15
	subq	%r15, %r12
	leaq	(%r14,%rcx), %rsi
	addq	$64, %rsi
	vmovups	1104(%rsp,%r13,2), %ymm0
	vmovups	%ymm0, (%rbp,%rbx)
	addq	$64, %rcx
	movq	96(%rsp), %rax
	addq	%rax, 64(%rbp,%rbx)
	addq	%r15, %r14
	subq	%rcx, %r15
	movw	%r15w, 72(%rbp,%rbx)
	vxorps	%xmm0, %xmm0, %xmm0
	vmovups	%ymm0, 144(%rsp)
	vmovups	%ymm0, 112(%rsp)
	leaq	112(%rsp), %rdi
	movq	%r15, %rdx
	vzeroupper
	vj_c_call	memcpy
	vmovups	112(%rsp), %ymm0
	vmovups	144(%rsp), %ymm1
	vmovups	%ymm0, 80(%rbp,%rbx)
	vmovups	%ymm1, 112(%rbp,%rbx)
	cmpq	$1, %r12
	jne	5b
	movq	8(%rsp), %rdi
	cmpw	$64, %r15w
	jae	9f
	movzbl	(%r14), %eax
	movl	%r15d, %ecx
	andl	$63, %ecx
	movb	%al, 80(%rcx,%rdi)
	incl	%r15d
	movq	72(%rsp), %rax
	movw	%r15w, 72(%rax,%rbx)
	jmp	7b
	.p2align	4
9:
	movl	$1, %edx
	movq	%r14, %rsi
	jmp	6b
	.p2align	4
10:
	movq	%r14, %rax
	shlq	$4, %rax
	movq	8(%r13,%rax), %rdx
	addq	%rbp, %rdi
	movq	(%r13,%rax), %rsi
	cmpq	$1, %rdx
	jne	13f
11:
	movzwl	72(%rdi), %eax
	cmpq	$64, %rax
	jae	15f
	movzbl	(%rsi), %ecx
	movb	%cl, 80(%rdi,%rax)
	incl	%eax
	movw	%ax, 72(%rdi)
	jmp	14f
	.p2align	4
12:
	movq	64(%rsp), %r14
	addq	%rbp, %rdi
	movq	(%r13,%rax), %rsi
	cmpq	$1, %rdx
	je	11b
13:
	vzeroupper
	callq	blake2_state..blake2s..State..absorb_blocks_1_v4
14:
	movl	$1, %ebx
	jmp	2b
15:
	movl	$1, %ebx
	movl	$1, %edx
	vzeroupper
	callq	blake2_state..blake2s..State..absorb_blocks_1_v4
	jmp	2b
16:
	addq	$2392, %rsp
	popq	%rbx
	popq	%r12
	popq	%r13
	popq	%r14
	popq	%r15
	popq	%rbp
17:
	vzeroupper
	vpxord	%xmm16, %xmm16, %xmm16
	vpxord	%xmm17, %xmm17, %xmm17
	vpxord	%xmm18, %xmm18, %xmm18
	vpxord	%xmm19, %xmm19, %xmm19
	vpxord	%xmm20, %xmm20, %xmm20
	vpxord	%xmm21, %xmm21, %xmm21
	vpxord	%xmm22, %xmm22, %xmm22
	retq
	vj_end	blake2_state..many..blake2s..update_many_1_v4

	vj_constants	4
	.p2align	2, 0x0
.L1_v4_CPI58_0:
	.long	528734635
.L1_v4_CPI58_1:
	.long	3766232660
.L1_v4_CPI58_2:
	.long	1541459225
.L1_v4_CPI58_3:
	.long	2753508070
.L1_v4_CPI58_4:
	.long	1359893119
.L1_v4_CPI58_5:
	.long	1779033703
.L1_v4_CPI58_6:
	.long	2600822924
.L1_v4_CPI58_7:
	.long	3144134277
.L1_v4_CPI58_8:
	.long	1013904242
.L1_v4_CPI58_9:
	.long	2773480762
	vj_function	blake2_compress..many..blake2s..compress_blocks_1_v4
	movq	8(%rsi), %rax
	vmovdqu	(%rdi), %ymm14
	vmovdqu64	32(%rdi), %ymm20
	vmovdqu64	64(%rdi), %ymm21
	vmovdqu64	96(%rdi), %ymm28
	vmovdqu64	128(%rdi), %ymm17
	vmovdqu	160(%rdi), %ymm5
	vmovdqu	192(%rdi), %ymm11
	vmovdqu64	224(%rdi), %ymm25
	testq	%rax, %rax
	je	2f
	pushq	%rbp
	pushq	%r14
	pushq	%rbx
	subq	$896, %rsp
	movq	(%rsi), %r8
	movw	$21845, %r9w
	kmovd	%r9d, %k5
	vmovdqu8	(%rcx), %xmm0 {%k5} {z}
	vpextrb	$14, %xmm0, %r11d
	vpextrb	$12, %xmm0, %ebx
	vpextrb	$6, %xmm0, %ebp
	movq	16(%rsi), %r9
	vpextrb	$2, %xmm0, %r10d
	kmovd	%r10d, %k2
	vmovd	%xmm0, %r10d
	kmovd	%r10d, %k4
	movb	$-5, %r10b
	kmovd	%r10d, %k3
	vpextrb	$4, %xmm0, %r10d
	kmovd	%r10d, %k7
	movb	$-9, %r10b
	kmovd	%r10d, %k1
	movq	32(%rsi), %r10
	kmovd	%ebp, %k6
	movb	$-17, %bpl
	kmovd	%ebp, %k0
	vpextrb	$8, %xmm0, %ebp
	kshiftlb	$7, %k2, %k2
	kshiftrb	$6, %k2, %k2
	kshiftlb	$7, %k4, %k4
	kshiftrb	$7, %k4, %k4
	korb	%k2, %k4, %k2
	kandb	%k3, %k2, %k2
	kshiftlb	$7, %k7, %k4
	kshiftrb	$5, %k4, %k4
	korb	%k4, %k2, %k4
	kmovd	%ebp, %k7
	movb	$-33, %bpl
	kmovd	%ebp, %k2
	vpextrb	$10, %xmm0, %ebp
	kandb	%k1, %k4, %k4
	kshiftlb	$7, %k6, %k6
	kshiftrb	$4, %k6, %k6
	korb	%k6, %k4, %k4
	kandb	%k0, %k4, %k4
	kshiftlb	$7, %k7, %k6
	kshiftrb	$3, %k6, %k6
	korb	%k6, %k4, %k4
	kandb	%k2, %k4, %k4
	kmovd	%ebp, %k6
	kshiftlb	$7, %k6, %k6
	kshiftrb	$2, %k6, %k6
	korb	%k6, %k4, %k6
	movb	$-65, %bpl
	kmovd	%ebp, %k4
	kandb	%k4, %k6, %k6
	kmovd	%ebx, %k7
	kshiftlb	$6, %k7, %k7
	korb	%k7, %k6, %k6
	kshiftlb	$1, %k6, %k6
	kshiftrb	$1, %k6, %k6
	kmovd	%r11d, %k7
	kshiftlb	$7, %k7, %k7
	korb	%k7, %k6, %k6
	vpbroadcastd	.L1_v4_CPI58_0(%rip), %ymm0
	vpbroadcastd	.L1_v4_CPI58_1(%rip), %ymm0 {%k6}
	vmovdqu	%ymm0, 512(%rsp)
	movq	48(%rsi), %r11
	vmovdqu8	1(%rcx), %xmm0 {%k5} {z}
	vpextrb	$14, %xmm0, %ebp
	movq	64(%rsi), %rcx
	vpextrb	$2, %xmm0, %ebx
	kmovd	%ebx, %k5
	vmovd	%xmm0, %ebx
	kmovd	%ebx, %k7
	vpextrb	$4, %xmm0, %ebx
	kmovd	%ebx, %k6
	vpextrb	$6, %xmm0, %ebx
	kshiftlb	$7, %k5, %k5
	kshiftrb	$6, %k5, %k5
	kshiftlb	$7, %k7, %k7
	kshiftrb	$7, %k7, %k7
	korb	%k5, %k7, %k7
	kmovd	%ebx, %k5
	vpextrb	$8, %xmm0, %ebx
	kandb	%k3, %k7, %k7
	kmovd	%ebx, %k3
	vpextrb	$10, %xmm0, %ebx
	kshiftlb	$7, %k6, %k6
	kshiftrb	$5, %k6, %k6
	korb	%k6, %k7, %k7
	kmovd	%ebx, %k6
	vpextrb	$12, %xmm0, %ebx
	kandb	%k1, %k7, %k7
	kmovd	%ebx, %k1
	movq	80(%rsi), %rbx
	kshiftlb	$7, %k5, %k5
	kshiftrb	$4, %k5, %k5
	korb	%k5, %k7, %k5
	kmovd	%ebp, %k7
	movq	96(%rsi), %r14
	kandb	%k0, %k5, %k0
	kshiftlb	$7, %k3, %k3
	kshiftrb	$3, %k3, %k3
	korb	%k3, %k0, %k0
	kandb	%k2, %k0, %k0
	kshiftlb	$7, %k6, %k2
	kshiftrb	$2, %k2, %k2
	korb	%k2, %k0, %k0
	kandb	%k4, %k0, %k0
	kshiftlb	$6, %k1, %k1
	korb	%k1, %k0, %k0
	kshiftlb	$1, %k0, %k0
	kshiftrb	$1, %k0, %k0
	kshiftlb	$7, %k7, %k1
	korb	%k1, %k0, %k1
	vpbroadcastd	.L1_v4_CPI58_2(%rip), %ymm0
	vpbroadcastd	.L1_v4_CPI58_3(%rip), %ymm0 {%k1}
	vmovdqu	%ymm0, 480(%rsp)
	movq	112(%rsi), %rsi
	vmovups	(%rdx), %ymm0
	vmovups	%ymm0, 448(%rsp)
	vmovdqu	32(%rdx), %ymm0
	vmovdqu	%ymm0, 416(%rsp)
	xorl	%edx, %edx
	.p2align	4
1:
	vmovdqa64	%ymm14, %ymm19
	vmovdqu	%ymm14, 768(%rsp)
	vmovdqu64	%ymm20, 832(%rsp)
	vmovdqu64	%ymm21, 736(%rsp)
	vmovdqa64	%ymm5, %ymm30
	vmovdqa64	%ymm11, %ymm31
	vmovdqu	(%r8,%rdx), %ymm0
	vmovdqu	32(%r8,%rdx), %ymm1
	vmovdqu	(%r9,%rdx), %ymm2
	vmovdqu	32(%r9,%rdx), %ymm3
	vpunpckldq	%ymm2, %ymm0, %ymm4
	vmovdqu	(%r10,%rdx), %ymm5
	vpunpckhdq	%ymm2, %ymm0, %ymm0
	vmovdqu	32(%r10,%rdx), %ymm2
	vmovdqu	(%r11,%rdx), %ymm6
	vmovdqu	32(%r11,%rdx), %ymm7
	vpunpckldq	%ymm6, %ymm5, %ymm8
	vpunpckhdq	%ymm6, %ymm5, %ymm5
	vmovdqu	(%rcx,%rdx), %ymm6
	vmovdqu	32(%rcx,%rdx), %ymm9
	vpunpcklqdq	%ymm8, %ymm4, %ymm11
	vmovdqu	(%rbx,%rdx), %ymm10
	vmovdqu	32(%rbx,%rdx), %ymm12
	vpunpckldq	%ymm10, %ymm6, %ymm13
	vpunpckhqdq	%ymm8, %ymm4, %ymm4
	vpunpckhdq	%ymm10, %ymm6, %ymm6
	vmovdqu	(%r14,%rdx), %ymm8
	vmovdqu	32(%r14,%rdx), %ymm15
	vpunpcklqdq	%ymm5, %ymm0, %ymm16
	vmovdqu	(%rsi,%rdx), %ymm10
	vmovdqu64	32(%rsi,%rdx), %ymm18
	vpunpckldq	%ymm10, %ymm8, %ymm14
	vpunpckhqdq	%ymm5, %ymm0, %ymm0
	vpunpckhdq	%ymm10, %ymm8, %ymm5
	vpunpcklqdq	%ymm14, %ymm13, %ymm8
	vpunpckhqdq	%ymm14, %ymm13, %ymm13
	vpunpcklqdq	%ymm5, %ymm6, %ymm22
	vpunpckhqdq	%ymm5, %ymm6, %ymm5
	vinserti32x4	$1, %xmm8, %ymm11, %ymm26
	vmovdqu64	%ymm26, 64(%rsp)
	vinserti32x4	$1, %xmm13, %ymm4, %ymm24
	vinserti32x4	$1, %xmm22, %ymm16, %ymm27
	vmovdqu64	%ymm27, 256(%rsp)
	vpunpckldq	%ymm3, %ymm1, %ymm6
	vpunpckhdq	%ymm3, %ymm1, %ymm1
	vpunpckldq	%ymm7, %ymm2, %ymm3
	vinserti32x4	$1, %xmm5, %ymm0, %ymm29
	vpunpckhdq	%ymm7, %ymm2, %ymm2
	vpunpcklqdq	%ymm3, %ymm6, %ymm7
	vpunpckhqdq	%ymm3, %ymm6, %ymm3
	vperm2i128	$49, %ymm8, %ymm11, %ymm10
	vpunpcklqdq	%ymm2, %ymm1, %ymm6
	vpunpckhqdq	%ymm2, %ymm1, %ymm1
	vpunpckldq	%ymm12, %ymm9, %ymm2
	vperm2i128	$49, %ymm13, %ymm4, %ymm11
	vmovdqu	%ymm11, (%rsp)
	vpunpckhdq	%ymm12, %ymm9, %ymm4
	vpunpckldq	%ymm18, %ymm15, %ymm8
	vpunpckhdq	%ymm18, %ymm15, %ymm9
	vshufi64x2	$3, %ymm22, %ymm16, %ymm14
	vpunpcklqdq	%ymm8, %ymm2, %ymm12
	vpunpckhqdq	%ymm8, %ymm2, %ymm2
	vpunpcklqdq	%ymm9, %ymm4, %ymm8
	vshufi64x2	$3, %ymm5, %ymm0, %ymm18
	vpunpckhqdq	%ymm9, %ymm4, %ymm0
	vinserti32x4	$1, %xmm12, %ymm7, %ymm22
	vinserti32x4	$1, %xmm2, %ymm3, %ymm23
	vinserti128	$1, %xmm8, %ymm6, %ymm13
	vinserti128	$1, %xmm0, %ymm1, %ymm4
	vmovdqu	%ymm4, 192(%rsp)
	vpbroadcastq	%rdx, %ymm4
	vpaddq	448(%rsp), %ymm4, %ymm5
	vperm2i128	$49, %ymm12, %ymm7, %ymm12
	vpaddq	416(%rsp), %ymm4, %ymm4
	vpsrlq	$32, %ymm4, %ymm7
	vpsrlq	$32, %ymm5, %ymm9
	vperm2i128	$49, %ymm2, %ymm3, %ymm2
	vmovdqu	%ymm2, 32(%rsp)
	vpmovqd	%ymm9, %xmm2
	vpmovqd	%ymm7, %xmm3
	vinserti128	$1, %xmm3, %ymm2, %ymm2
	vperm2i128	$49, %ymm8, %ymm6, %ymm3
	vmovdqu	%ymm3, 128(%rsp)
	vpmovqd	%ymm5, %xmm3
	vpmovqd	%ymm4, %xmm4
	vinserti128	$1, %xmm4, %ymm3, %ymm3
	vperm2i128	$49, %ymm0, %ymm1, %ymm0
	vmovdqu	%ymm0, 160(%rsp)
	vmovdqu64	%ymm17, 704(%rsp)
	vpaddd	%ymm17, %ymm19, %ymm0
	vpaddd	%ymm26, %ymm0, %ymm1
	vpternlogd	$150, .L1_v4_CPI58_4(%rip){1to8}, %ymm1, %ymm3
	vmovdqu64	%ymm30, 864(%rsp)
	vpaddd	%ymm30, %ymm20, %ymm0
	vpaddd	%ymm27, %ymm0, %ymm0
	vpternlogd	$150, .L1_v4_CPI58_6(%rip){1to8}, %ymm0, %ymm2
	vprold	$16, %ymm2, %ymm4
	vpaddd	.L1_v4_CPI58_7(%rip){1to8}, %ymm4, %ymm6
	vpxord	%ymm30, %ymm6, %ymm2
	vpaddd	%ymm29, %ymm0, %ymm0
	vmovdqa64	%ymm29, %ymm26
	vmovdqu64	%ymm31, 800(%rsp)
	vpaddd	%ymm31, %ymm21, %ymm5
	vpaddd	%ymm5, %ymm10, %ymm5
	vmovdqa64	%ymm10, %ymm20
	vmovdqu	%ymm10, 608(%rsp)
	vprold	$20, %ymm2, %ymm7
	vpxor	512(%rsp), %ymm5, %ymm2
	vprold	$16, %ymm2, %ymm8
	vpaddd	.L1_v4_CPI58_8(%rip){1to8}, %ymm8, %ymm9
	vpxord	%ymm31, %ymm9, %ymm2
	vprold	$20, %ymm2, %ymm16
	vpaddd	%ymm5, %ymm11, %ymm2
	vpaddd	%ymm7, %ymm0, %ymm30
	vpaddd	%ymm16, %ymm2, %ymm10
	vpxor	%ymm8, %ymm10, %ymm0
	vprold	$24, %ymm0, %ymm11
	vpxord	%ymm4, %ymm30, %ymm8
	vpaddd	%ymm11, %ymm9, %ymm4
	vpxord	%ymm16, %ymm4, %ymm5
	vprold	$25, %ymm5, %ymm5
	vmovdqu	%ymm13, 544(%rsp)
	vpaddd	%ymm5, %ymm13, %ymm9
	vpaddd	%ymm9, %ymm30, %ymm9
	vmovdqa64	%ymm28, %ymm0
	vmovdqu64	%ymm28, 640(%rsp)
	vmovdqa64	%ymm25, %ymm2
	vmovdqu64	%ymm25, 672(%rsp)
	vprold	$16, %ymm3, %ymm3
	vpaddd	.L1_v4_CPI58_5(%rip){1to8}, %ymm3, %ymm28
	vpxord	%ymm17, %ymm28, %ymm29
	vprold	$20, %ymm29, %ymm29
	vmovdqa64	%ymm24, %ymm25
	vpaddd	%ymm24, %ymm1, %ymm1
	vpaddd	%ymm29, %ymm1, %ymm1
	vpxor	%ymm3, %ymm1, %ymm3
	vprold	$24, %ymm3, %ymm3
	vprold	$24, %ymm8, %ymm8
	vpaddd	%ymm3, %ymm28, %ymm28
	vpaddd	%ymm6, %ymm8, %ymm6
	vpaddd	%ymm2, %ymm0, %ymm30
	vmovdqa64	%ymm14, %ymm21
	vpaddd	%ymm14, %ymm30, %ymm30
	vpxord	%ymm29, %ymm28, %ymm29
	vpxord	480(%rsp), %ymm30, %ymm31
	vprold	$16, %ymm31, %ymm31
	vpaddd	.L1_v4_CPI58_9(%rip){1to8}, %ymm31, %ymm0
	vpxord	%ymm2, %ymm0, %ymm16
	vprold	$20, %ymm16, %ymm16
	vpaddd	%ymm18, %ymm30, %ymm30
	vpxor	%ymm7, %ymm6, %ymm7
	vpaddd	%ymm16, %ymm30, %ymm30
	vpxord	%ymm31, %ymm30, %ymm31
	vprold	$24, %ymm31, %ymm31
	vprold	$25, %ymm29, %ymm29
	vpaddd	%ymm31, %ymm0, %ymm0
	vpxord	%ymm16, %ymm0, %ymm16
	vprold	$25, %ymm16, %ymm16
	vprold	$25, %ymm7, %ymm7
	vmovdqa64	%ymm22, %ymm17
	vpaddd	%ymm22, %ymm1, %ymm1
	vpaddd	%ymm7, %ymm1, %ymm1
	vpxord	%ymm31, %ymm1, %ymm31
	vprold	$16, %ymm31, %ymm31
	vmovdqa64	%ymm23, %ymm22
	vmovdqu64	%ymm23, 96(%rsp)
	vpaddd	%ymm23, %ymm1, %ymm2
	vpxor	%ymm3, %ymm9, %ymm3
	vprold	$16, %ymm3, %ymm3
	vpaddd	%ymm4, %ymm31, %ymm4
	vpaddd	%ymm0, %ymm3, %ymm0
	vpxor	%ymm5, %ymm0, %ymm5
	vprold	$20, %ymm5, %ymm5
	vpxor	%ymm7, %ymm4, %ymm7
	vmovdqu	192(%rsp), %ymm15
	vpaddd	%ymm15, %ymm9, %ymm9
	vpaddd	%ymm5, %ymm9, %ymm9
	vpxor	%ymm3, %ymm9, %ymm3
	vprold	$20, %ymm7, %ymm1
	vprold	$24, %ymm3, %ymm3
	vpaddd	%ymm3, %ymm0, %ymm7
	vmovdqa64	%ymm12, %ymm23
	vpaddd	%ymm12, %ymm10, %ymm0
	vpaddd	%ymm1, %ymm2, %ymm2
	vpaddd	%ymm16, %ymm0, %ymm0
	vpxor	%ymm0, %ymm8, %ymm8
	vprold	$16, %ymm8, %ymm8
	vpxor	%ymm5, %ymm7, %ymm5
	vpaddd	%ymm28, %ymm8, %ymm10
	vpxord	%ymm16, %ymm10, %ymm16
	vprold	$20, %ymm16, %ymm16
	vpxord	%ymm31, %ymm2, %ymm28
	vmovdqu	32(%rsp), %ymm12
	vpaddd	%ymm0, %ymm12, %ymm0
	vpaddd	%ymm16, %ymm0, %ymm31
	vpxord	%ymm8, %ymm31, %ymm0
	vprold	$25, %ymm5, %ymm8
	vprold	$24, %ymm0, %ymm5
	vpaddd	%ymm5, %ymm10, %ymm10
	vpxord	%ymm16, %ymm10, %ymm0
	vprold	$25, %ymm0, %ymm16
	vmovdqu64	128(%rsp), %ymm27
	vpaddd	%ymm27, %ymm30, %ymm0
	vpaddd	%ymm29, %ymm0, %ymm30
	vpxord	%ymm11, %ymm30, %ymm11
	vprold	$24, %ymm28, %ymm0
	vprold	$16, %ymm11, %ymm11
	vpaddd	%ymm6, %ymm11, %ymm6
	vpxord	%ymm29, %ymm6, %ymm28
	vpaddd	%ymm0, %ymm4, %ymm4
	vprold	$20, %ymm28, %ymm28
	vmovdqu	160(%rsp), %ymm14
	vpaddd	%ymm14, %ymm30, %ymm29
	vpaddd	%ymm28, %ymm29, %ymm29
	vpxor	%ymm1, %ymm4, %ymm1
	vpxord	%ymm11, %ymm29, %ymm11
	vprold	$24, %ymm11, %ymm11
	vpaddd	%ymm6, %ymm11, %ymm6
	vprold	$25, %ymm1, %ymm1
	vpxord	%ymm28, %ymm6, %ymm28
	vprold	$25, %ymm28, %ymm28
	vpaddd	%ymm27, %ymm2, %ymm2
	vpaddd	%ymm28, %ymm2, %ymm2
	vpxor	%ymm3, %ymm2, %ymm3
	vprold	$16, %ymm3, %ymm3
	vpaddd	%ymm3, %ymm10, %ymm10
	vpxord	%ymm28, %ymm10, %ymm28
	vpaddd	%ymm2, %ymm13, %ymm2
	vpaddd	%ymm20, %ymm9, %ymm9
	vpaddd	%ymm1, %ymm9, %ymm9
	vprold	$20, %ymm28, %ymm28
	vpxor	%ymm5, %ymm9, %ymm5
	vprold	$16, %ymm5, %ymm5
	vpaddd	%ymm6, %ymm5, %ymm6
	vpaddd	%ymm28, %ymm2, %ymm30
	vpxor	%ymm1, %ymm6, %ymm1
	vprold	$20, %ymm1, %ymm1
	vpaddd	%ymm17, %ymm9, %ymm2
	vmovdqa64	%ymm17, %ymm13
	vmovdqu64	%ymm17, 288(%rsp)
	vpxord	%ymm3, %ymm30, %ymm3
	vpaddd	%ymm1, %ymm2, %ymm9
	vpaddd	%ymm22, %ymm31, %ymm2
	vpaddd	%ymm2, %ymm8, %ymm2
	vpxor	%ymm5, %ymm9, %ymm5
	vpxor	%ymm2, %ymm11, %ymm11
	vprold	$16, %ymm11, %ymm11
	vpaddd	%ymm4, %ymm11, %ymm4
	vprold	$24, %ymm3, %ymm3
	vpxor	%ymm4, %ymm8, %ymm8
	vprold	$20, %ymm8, %ymm8
	vpaddd	%ymm2, %ymm14, %ymm2
	vmovdqa64	%ymm14, %ymm17
	vprold	$24, %ymm5, %ymm5
	vpaddd	%ymm8, %ymm2, %ymm31
	vpxord	%ymm11, %ymm31, %ymm2
	vprold	$24, %ymm2, %ymm2
	vpaddd	%ymm3, %ymm10, %ymm10
	vpaddd	%ymm2, %ymm4, %ymm11
	vpxor	%ymm8, %ymm11, %ymm4
	vprold	$25, %ymm4, %ymm8
	vpaddd	%ymm5, %ymm6, %ymm4
	vpaddd	%ymm12, %ymm29, %ymm6
	vpaddd	%ymm16, %ymm6, %ymm6
	vpxor	%ymm0, %ymm6, %ymm0
	vpxord	%ymm28, %ymm10, %ymm28
	vprold	$16, %ymm0, %ymm0
	vpaddd	%ymm7, %ymm0, %ymm7
	vpxord	%ymm16, %ymm7, %ymm16
	vpxor	%ymm1, %ymm4, %ymm1
	vprold	$20, %ymm16, %ymm16
	vpaddd	%ymm21, %ymm6, %ymm6
	vpaddd	%ymm16, %ymm6, %ymm6
	vprold	$25, %ymm28, %ymm28
	vpxor	%ymm0, %ymm6, %ymm0
	vprold	$24, %ymm0, %ymm0
	vpaddd	%ymm0, %ymm7, %ymm7
	vprold	$25, %ymm1, %ymm1
	vpxord	%ymm16, %ymm7, %ymm16
	vprold	$25, %ymm16, %ymm16
	vpaddd	%ymm24, %ymm30, %ymm29
	vpaddd	%ymm1, %ymm29, %ymm29
	vpxord	%ymm0, %ymm29, %ymm0
	vmovdqa64	%ymm23, %ymm22
	vpaddd	%ymm23, %ymm29, %ymm29
	vmovdqu64	64(%rsp), %ymm19
	vpaddd	%ymm19, %ymm9, %ymm9
	vprold	$16, %ymm0, %ymm30
	vpaddd	%ymm8, %ymm9, %ymm0
	vpxor	%ymm3, %ymm0, %ymm3
	vprold	$16, %ymm3, %ymm3
	vpaddd	%ymm11, %ymm30, %ymm9
	vpaddd	%ymm7, %ymm3, %ymm7
	vpxor	%ymm7, %ymm8, %ymm8
	vprold	$20, %ymm8, %ymm8
	vpxor	%ymm1, %ymm9, %ymm1
	vmovdqu64	256(%rsp), %ymm23
	vpaddd	%ymm23, %ymm0, %ymm0
	vpaddd	%ymm0, %ymm8, %ymm11
	vpxor	%ymm3, %ymm11, %ymm0
	vprold	$20, %ymm1, %ymm1
	vprold	$24, %ymm0, %ymm0
	vpaddd	%ymm0, %ymm7, %ymm7
	vpaddd	%ymm15, %ymm31, %ymm3
	vpaddd	%ymm1, %ymm29, %ymm29
	vpaddd	%ymm16, %ymm3, %ymm3
	vpxor	%ymm5, %ymm3, %ymm5
	vprold	$16, %ymm5, %ymm5
	vpxor	%ymm7, %ymm8, %ymm8
	vpaddd	%ymm5, %ymm10, %ymm10
	vpxord	%ymm16, %ymm10, %ymm16
	vprold	$20, %ymm16, %ymm16
	vpxord	%ymm30, %ymm29, %ymm30
	vpaddd	%ymm18, %ymm3, %ymm3
	vmovdqa64	%ymm18, %ymm20
	vpaddd	%ymm16, %ymm3, %ymm31
	vpxord	%ymm5, %ymm31, %ymm3
	vprold	$25, %ymm8, %ymm5
	vprold	$24, %ymm3, %ymm8
	vpaddd	%ymm8, %ymm10, %ymm10
	vpxord	%ymm16, %ymm10, %ymm3
	vprold	$25, %ymm3, %ymm3
	vmovdqu	(%rsp), %ymm14
	vpaddd	%ymm6, %ymm14, %ymm6
	vpaddd	%ymm28, %ymm6, %ymm6
	vpxord	%ymm2, %ymm6, %ymm16
	vprold	$24, %ymm30, %ymm2
	vprold	$16, %ymm16, %ymm16
	vpaddd	%ymm4, %ymm16, %ymm4
	vpxord	%ymm28, %ymm4, %ymm28
	vpaddd	%ymm2, %ymm9, %ymm9
	vprold	$20, %ymm28, %ymm28
	vmovdqa64	%ymm26, %ymm24
	vpaddd	%ymm26, %ymm6, %ymm6
	vpaddd	%ymm28, %ymm6, %ymm6
	vpxor	%ymm1, %ymm9, %ymm1
	vpxord	%ymm16, %ymm6, %ymm16
	vprold	$24, %ymm16, %ymm16
	vpaddd	%ymm16, %ymm4, %ymm4
	vprold	$25, %ymm1, %ymm1
	vpxord	%ymm28, %ymm4, %ymm28
	vprold	$25, %ymm28, %ymm28
	vpaddd	%ymm15, %ymm29, %ymm29
	vmovdqa64	%ymm15, %ymm26
	vpaddd	%ymm28, %ymm29, %ymm29
	vpxord	%ymm0, %ymm29, %ymm0
	vprold	$16, %ymm0, %ymm0
	vpaddd	%ymm0, %ymm10, %ymm10
	vpxord	%ymm28, %ymm10, %ymm28
	vpaddd	%ymm13, %ymm29, %ymm29
	vpaddd	%ymm22, %ymm11, %ymm11
	vmovdqu64	%ymm22, 224(%rsp)
	vpaddd	%ymm1, %ymm11, %ymm11
	vprold	$20, %ymm28, %ymm28
	vpxor	%ymm8, %ymm11, %ymm8
	vprold	$16, %ymm8, %ymm8
	vpaddd	%ymm4, %ymm8, %ymm4
	vpaddd	%ymm28, %ymm29, %ymm29
	vpxor	%ymm1, %ymm4, %ymm1
	vprold	$20, %ymm1, %ymm30
	vpaddd	%ymm19, %ymm11, %ymm1
	vpxord	%ymm0, %ymm29, %ymm0
	vpaddd	%ymm30, %ymm1, %ymm11
	vpaddd	%ymm14, %ymm31, %ymm1
	vpaddd	%ymm5, %ymm1, %ymm1
	vpxor	%ymm8, %ymm11, %ymm8
	vpxord	%ymm16, %ymm1, %ymm16
	vprold	$16, %ymm16, %ymm16
	vpaddd	%ymm9, %ymm16, %ymm9
	vprold	$24, %ymm0, %ymm0
	vpxor	%ymm5, %ymm9, %ymm5
	vprold	$20, %ymm5, %ymm5
	vpaddd	%ymm23, %ymm1, %ymm1
	vmovdqa64	%ymm23, %ymm19
	vprold	$24, %ymm8, %ymm8
	vpaddd	%ymm5, %ymm1, %ymm31
	vpxord	%ymm16, %ymm31, %ymm1
	vprold	$24, %ymm1, %ymm1
	vpaddd	%ymm0, %ymm10, %ymm10
	vpaddd	%ymm1, %ymm9, %ymm9
	vpxor	%ymm5, %ymm9, %ymm5
	vprold	$25, %ymm5, %ymm5
	vpaddd	%ymm4, %ymm8, %ymm4
	vpaddd	%ymm17, %ymm6, %ymm6
	vpaddd	%ymm3, %ymm6, %ymm6
	vpxor	%ymm2, %ymm6, %ymm2
	vpxord	%ymm28, %ymm10, %ymm16
	vprold	$16, %ymm2, %ymm2
	vpaddd	%ymm7, %ymm2, %ymm7
	vpxor	%ymm3, %ymm7, %ymm3
	vpxord	%ymm30, %ymm4, %ymm28
	vprold	$20, %ymm3, %ymm3
	vpaddd	%ymm6, %ymm12, %ymm6
	vpaddd	%ymm3, %ymm6, %ymm6
	vprold	$25, %ymm16, %ymm16
	vpxor	%ymm2, %ymm6, %ymm2
	vprold	$24, %ymm2, %ymm2
	vpaddd	%ymm2, %ymm7, %ymm7
	vprold	$25, %ymm28, %ymm28
	vpxor	%ymm3, %ymm7, %ymm3
	vprold	$25, %ymm3, %ymm3
	vmovdqu64	544(%rsp), %ymm18
	vpaddd	%ymm18, %ymm29, %ymm29
	vpaddd	%ymm28, %ymm29, %ymm29
	vpxord	%ymm2, %ymm29, %ymm2
	vmovdqa64	%ymm27, %ymm17
	vpaddd	%ymm27, %ymm29, %ymm29
	vmovdqu64	%ymm24, 320(%rsp)
	vpaddd	%ymm24, %ymm11, %ymm11
	vprold	$16, %ymm2, %ymm2
	vpaddd	%ymm5, %ymm11, %ymm11
	vpxor	%ymm0, %ymm11, %ymm0
	vprold	$16, %ymm0, %ymm0
	vpaddd	%ymm2, %ymm9, %ymm9
	vpaddd	%ymm7, %ymm0, %ymm7
	vpxor	%ymm5, %ymm7, %ymm5
	vprold	$20, %ymm5, %ymm5
	vpxord	%ymm28, %ymm9, %ymm28
	vpaddd	%ymm21, %ymm11, %ymm11
	vpaddd	%ymm5, %ymm11, %ymm11
	vpxor	%ymm0, %ymm11, %ymm0
	vprold	$20, %ymm28, %ymm28
	vprold	$24, %ymm0, %ymm30
	vpaddd	%ymm30, %ymm7, %ymm27
	vpaddd	%ymm20, %ymm31, %ymm7
	vpaddd	%ymm28, %ymm29, %ymm29
	vpaddd	%ymm3, %ymm7, %ymm7
	vpxor	%ymm7, %ymm8, %ymm8
	vprold	$16, %ymm8, %ymm8
	vpxord	%ymm5, %ymm27, %ymm5
	vpaddd	%ymm10, %ymm8, %ymm10
	vpxor	%ymm3, %ymm10, %ymm3
	vprold	$20, %ymm3, %ymm3
	vpxord	%ymm2, %ymm29, %ymm31
	vmovdqu64	%ymm25, 384(%rsp)
	vpaddd	%ymm25, %ymm7, %ymm2
	vpaddd	%ymm3, %ymm2, %ymm7
	vpxor	%ymm7, %ymm8, %ymm2
	vprold	$25, %ymm5, %ymm8
	vprold	$24, %ymm2, %ymm0
	vpaddd	%ymm0, %ymm10, %ymm10
	vpxor	%ymm3, %ymm10, %ymm2
	vprold	$25, %ymm2, %ymm2
	vmovdqu	96(%rsp), %ymm13
	vpaddd	%ymm6, %ymm13, %ymm3
	vpaddd	%ymm16, %ymm3, %ymm3
	vpxor	%ymm1, %ymm3, %ymm1
	vprold	$24, %ymm31, %ymm5
	vprold	$16, %ymm1, %ymm1
	vpaddd	%ymm4, %ymm1, %ymm4
	vpxord	%ymm16, %ymm4, %ymm6
	vpaddd	%ymm5, %ymm9, %ymm9
	vprold	$20, %ymm6, %ymm6
	vmovdqu64	608(%rsp), %ymm23
	vpaddd	%ymm23, %ymm3, %ymm3
	vpaddd	%ymm6, %ymm3, %ymm16
	vpxord	%ymm28, %ymm9, %ymm3
	vpxord	%ymm1, %ymm16, %ymm1
	vprold	$24, %ymm1, %ymm1
	vpaddd	%ymm1, %ymm4, %ymm4
	vprold	$25, %ymm3, %ymm3
	vpxor	%ymm6, %ymm4, %ymm6
	vprold	$25, %ymm6, %ymm6
	vpaddd	%ymm20, %ymm29, %ymm28
	vmovdqa64	%ymm20, %ymm15
	vmovdqu64	%ymm20, 352(%rsp)
	vpaddd	%ymm6, %ymm28, %ymm28
	vpxord	%ymm30, %ymm28, %ymm29
	vprold	$16, %ymm29, %ymm29
	vpaddd	%ymm10, %ymm29, %ymm10
	vpxor	%ymm6, %ymm10, %ymm6
	vpaddd	%ymm13, %ymm28, %ymm28
	vpaddd	%ymm24, %ymm11, %ymm11
	vpaddd	%ymm3, %ymm11, %ymm11
	vprold	$20, %ymm6, %ymm6
	vpxor	%ymm0, %ymm11, %ymm0
	vprold	$16, %ymm0, %ymm0
	vpaddd	%ymm4, %ymm0, %ymm4
	vpaddd	%ymm6, %ymm28, %ymm28
	vpxor	%ymm3, %ymm4, %ymm3
	vprold	$20, %ymm3, %ymm30
	vpaddd	%ymm25, %ymm11, %ymm3
	vpxord	%ymm29, %ymm28, %ymm11
	vpaddd	%ymm30, %ymm3, %ymm29
	vpaddd	%ymm7, %ymm12, %ymm3
	vpaddd	%ymm3, %ymm8, %ymm3
	vpxord	%ymm0, %ymm29, %ymm0
	vpxor	%ymm1, %ymm3, %ymm1
	vprold	$16, %ymm1, %ymm1
	vpaddd	%ymm1, %ymm9, %ymm7
	vprold	$24, %ymm11, %ymm9
	vpxor	%ymm7, %ymm8, %ymm8
	vprold	$20, %ymm8, %ymm8
	vpaddd	%ymm22, %ymm3, %ymm3
	vprold	$24, %ymm0, %ymm11
	vpaddd	%ymm8, %ymm3, %ymm31
	vpxord	%ymm1, %ymm31, %ymm0
	vprold	$24, %ymm0, %ymm1
	vpaddd	%ymm9, %ymm10, %ymm10
	vpaddd	%ymm1, %ymm7, %ymm0
	vpxor	%ymm0, %ymm8, %ymm3
	vprold	$25, %ymm3, %ymm7
	vpaddd	%ymm4, %ymm11, %ymm3
	vpaddd	%ymm26, %ymm16, %ymm4
	vpaddd	%ymm2, %ymm4, %ymm4
	vpxor	%ymm5, %ymm4, %ymm5
	vpxor	%ymm6, %ymm10, %ymm6
	vprold	$16, %ymm5, %ymm5
	vpaddd	%ymm27, %ymm5, %ymm8
	vpxor	%ymm2, %ymm8, %ymm2
	vpxord	%ymm30, %ymm3, %ymm12
	vprold	$20, %ymm2, %ymm2
	vmovdqa64	%ymm17, %ymm20
	vpaddd	%ymm17, %ymm4, %ymm4
	vpaddd	%ymm2, %ymm4, %ymm4
	vprold	$25, %ymm6, %ymm6
	vpxor	%ymm5, %ymm4, %ymm5
	vprold	$24, %ymm5, %ymm5
	vpaddd	%ymm5, %ymm8, %ymm8
	vprold	$25, %ymm12, %ymm12
	vpxor	%ymm2, %ymm8, %ymm2
	vprold	$25, %ymm2, %ymm2
	vpaddd	%ymm19, %ymm28, %ymm16
	vpaddd	%ymm12, %ymm16, %ymm16
	vpxord	%ymm5, %ymm16, %ymm5
	vpaddd	%ymm21, %ymm16, %ymm16
	vmovdqu64	(%rsp), %ymm17
	vpaddd	%ymm17, %ymm29, %ymm28
	vprold	$16, %ymm5, %ymm5
	vpaddd	%ymm7, %ymm28, %ymm28
	vpxord	%ymm9, %ymm28, %ymm9
	vprold	$16, %ymm9, %ymm9
	vpaddd	%ymm0, %ymm5, %ymm29
	vpaddd	%ymm8, %ymm9, %ymm0
	vpxor	%ymm7, %ymm0, %ymm7
	vprold	$20, %ymm7, %ymm7
	vpxord	%ymm12, %ymm29, %ymm8
	vpaddd	%ymm18, %ymm28, %ymm12
	vpaddd	%ymm7, %ymm12, %ymm12
	vpxor	%ymm9, %ymm12, %ymm9
	vprold	$20, %ymm8, %ymm8
	vprold	$24, %ymm9, %ymm9
	vpaddd	%ymm0, %ymm9, %ymm0
	vpaddd	%ymm23, %ymm31, %ymm28
	vpaddd	%ymm8, %ymm16, %ymm16
	vpaddd	%ymm2, %ymm28, %ymm28
	vpxord	%ymm11, %ymm28, %ymm11
	vprold	$16, %ymm11, %ymm11
	vpxor	%ymm7, %ymm0, %ymm7
	vpaddd	%ymm10, %ymm11, %ymm10
	vpxor	%ymm2, %ymm10, %ymm2
	vprold	$20, %ymm2, %ymm2
	vpxord	%ymm5, %ymm16, %ymm5
	vmovdqu64	64(%rsp), %ymm31
	vpaddd	%ymm31, %ymm28, %ymm28
	vpaddd	%ymm2, %ymm28, %ymm28
	vpxord	%ymm11, %ymm28, %ymm11
	vprold	$25, %ymm7, %ymm7
	vprold	$24, %ymm11, %ymm11
	vpaddd	%ymm11, %ymm10, %ymm10
	vpxor	%ymm2, %ymm10, %ymm2
	vprold	$25, %ymm2, %ymm2
	vmovdqu64	160(%rsp), %ymm24
	vpaddd	%ymm24, %ymm4, %ymm4
	vpaddd	%ymm6, %ymm4, %ymm30
	vpxord	%ymm1, %ymm30, %ymm1
	vprold	$24, %ymm5, %ymm4
	vprold	$16, %ymm1, %ymm1
	vpaddd	%ymm3, %ymm1, %ymm3
	vpxor	%ymm6, %ymm3, %ymm5
	vpaddd	%ymm4, %ymm29, %ymm6
	vprold	$20, %ymm5, %ymm5
	vmovdqu64	288(%rsp), %ymm25
	vpaddd	%ymm25, %ymm30, %ymm29
	vpaddd	%ymm5, %ymm29, %ymm29
	vpxor	%ymm6, %ymm8, %ymm8
	vpxord	%ymm1, %ymm29, %ymm1
	vprold	$24, %ymm1, %ymm1
	vpaddd	%ymm1, %ymm3, %ymm3
	vprold	$25, %ymm8, %ymm8
	vpxor	%ymm5, %ymm3, %ymm5
	vprold	$25, %ymm5, %ymm5
	vpaddd	%ymm13, %ymm16, %ymm16
	vpaddd	%ymm5, %ymm16, %ymm16
	vpxord	%ymm9, %ymm16, %ymm9
	vprold	$16, %ymm9, %ymm9
	vpaddd	%ymm10, %ymm9, %ymm10
	vpxor	%ymm5, %ymm10, %ymm5
	vpaddd	%ymm31, %ymm16, %ymm16
	vpaddd	%ymm17, %ymm12, %ymm12
	vpaddd	%ymm8, %ymm12, %ymm12
	vprold	$20, %ymm5, %ymm5
	vpxor	%ymm11, %ymm12, %ymm11
	vprold	$16, %ymm11, %ymm11
	vpaddd	%ymm3, %ymm11, %ymm3
	vpaddd	%ymm5, %ymm16, %ymm16
	vpxor	%ymm3, %ymm8, %ymm8
	vprold	$20, %ymm8, %ymm8
	vpaddd	%ymm15, %ymm12, %ymm12
	vpxord	%ymm9, %ymm16, %ymm9
	vpaddd	%ymm8, %ymm12, %ymm12
	vpaddd	%ymm19, %ymm28, %ymm28
	vpaddd	%ymm7, %ymm28, %ymm28
	vpxor	%ymm11, %ymm12, %ymm11
	vpxord	%ymm1, %ymm28, %ymm1
	vprold	$16, %ymm1, %ymm1
	vpaddd	%ymm6, %ymm1, %ymm6
	vprold	$24, %ymm9, %ymm9
	vpxor	%ymm7, %ymm6, %ymm7
	vprold	$20, %ymm7, %ymm7
	vpaddd	%ymm23, %ymm28, %ymm28
	vmovdqa64	%ymm23, %ymm30
	vprold	$24, %ymm11, %ymm11
	vpaddd	%ymm7, %ymm28, %ymm28
	vpxord	%ymm1, %ymm28, %ymm1
	vprold	$24, %ymm1, %ymm1
	vpaddd	%ymm9, %ymm10, %ymm10
	vpaddd	%ymm1, %ymm6, %ymm6
	vpxor	%ymm7, %ymm6, %ymm7
	vprold	$25, %ymm7, %ymm7
	vpaddd	%ymm3, %ymm11, %ymm3
	vpaddd	%ymm18, %ymm29, %ymm29
	vmovdqa64	%ymm18, %ymm23
	vpaddd	%ymm2, %ymm29, %ymm29
	vpxord	%ymm4, %ymm29, %ymm4
	vpxor	%ymm5, %ymm10, %ymm5
	vprold	$16, %ymm4, %ymm4
	vpaddd	%ymm0, %ymm4, %ymm0
	vpxor	%ymm2, %ymm0, %ymm2
	vpxor	%ymm3, %ymm8, %ymm8
	vprold	$20, %ymm2, %ymm2
	vpaddd	%ymm24, %ymm29, %ymm29
	vpaddd	%ymm2, %ymm29, %ymm29
	vprold	$25, %ymm5, %ymm5
	vpxord	%ymm4, %ymm29, %ymm4
	vprold	$24, %ymm4, %ymm4
	vpaddd	%ymm4, %ymm0, %ymm0
	vprold	$25, %ymm8, %ymm8
	vpxor	%ymm2, %ymm0, %ymm2
	vprold	$25, %ymm2, %ymm2
	vpaddd	%ymm20, %ymm16, %ymm16
	vpaddd	%ymm8, %ymm16, %ymm16
	vpxord	%ymm4, %ymm16, %ymm4
	vmovdqu64	384(%rsp), %ymm20
	vpaddd	%ymm20, %ymm16, %ymm16
	vpaddd	%ymm26, %ymm12, %ymm12
	vprold	$16, %ymm4, %ymm4
	vpaddd	%ymm7, %ymm12, %ymm12
	vpxor	%ymm9, %ymm12, %ymm9
	vprold	$16, %ymm9, %ymm9
	vpaddd	%ymm6, %ymm4, %ymm6
	vpaddd	%ymm0, %ymm9, %ymm0
	vpxor	%ymm7, %ymm0, %ymm7
	vprold	$20, %ymm7, %ymm7
	vpxor	%ymm6, %ymm8, %ymm8
	vmovdqu64	224(%rsp), %ymm18
	vpaddd	%ymm18, %ymm12, %ymm12
	vpaddd	%ymm7, %ymm12, %ymm12
	vpxor	%ymm9, %ymm12, %ymm9
	vprold	$20, %ymm8, %ymm8
	vprold	$24, %ymm9, %ymm9
	vpaddd	%ymm0, %ymm9, %ymm0
	vmovdqu64	%ymm21, 576(%rsp)
	vpaddd	%ymm21, %ymm28, %ymm28
	vpaddd	%ymm8, %ymm16, %ymm16
	vpaddd	%ymm2, %ymm28, %ymm28
	vpxord	%ymm11, %ymm28, %ymm11
	vprold	$16, %ymm11, %ymm11
	vpxor	%ymm7, %ymm0, %ymm7
	vpaddd	%ymm10, %ymm11, %ymm10
	vpxor	%ymm2, %ymm10, %ymm2
	vprold	$20, %ymm2, %ymm2
	vpxord	%ymm4, %ymm16, %ymm4
	vpaddd	%ymm25, %ymm28, %ymm28
	vpaddd	%ymm2, %ymm28, %ymm28
	vpxord	%ymm11, %ymm28, %ymm11
	vprold	$25, %ymm7, %ymm7
	vprold	$24, %ymm11, %ymm11
	vpaddd	%ymm11, %ymm10, %ymm10
	vpxor	%ymm2, %ymm10, %ymm2
	vprold	$25, %ymm2, %ymm2
	vmovdqu	320(%rsp), %ymm14
	vpaddd	%ymm14, %ymm29, %ymm29
	vpaddd	%ymm5, %ymm29, %ymm29
	vpxord	%ymm1, %ymm29, %ymm1
	vprold	$24, %ymm4, %ymm4
	vprold	$16, %ymm1, %ymm1
	vpaddd	%ymm3, %ymm1, %ymm3
	vpxor	%ymm5, %ymm3, %ymm5
	vpaddd	%ymm4, %ymm6, %ymm6
	vprold	$20, %ymm5, %ymm5
	vmovdqu64	32(%rsp), %ymm17
	vpaddd	%ymm17, %ymm29, %ymm29
	vpaddd	%ymm5, %ymm29, %ymm29
	vpxor	%ymm6, %ymm8, %ymm8
	vpxord	%ymm1, %ymm29, %ymm1
	vprold	$24, %ymm1, %ymm1
	vpaddd	%ymm1, %ymm3, %ymm3
	vprold	$25, %ymm8, %ymm8
	vpxor	%ymm5, %ymm3, %ymm5
	vprold	$25, %ymm5, %ymm5
	vpaddd	%ymm19, %ymm16, %ymm16
	vpaddd	%ymm5, %ymm16, %ymm16
	vpxord	%ymm9, %ymm16, %ymm9
	vprold	$16, %ymm9, %ymm9
	vpaddd	%ymm10, %ymm9, %ymm10
	vpxor	%ymm5, %ymm10, %ymm5
	vpaddd	%ymm18, %ymm16, %ymm16
	vpaddd	%ymm21, %ymm12, %ymm12
	vpaddd	%ymm8, %ymm12, %ymm12
	vprold	$20, %ymm5, %ymm5
	vpxor	%ymm11, %ymm12, %ymm11
	vprold	$16, %ymm11, %ymm11
	vpaddd	%ymm3, %ymm11, %ymm3
	vpaddd	%ymm5, %ymm16, %ymm16
	vpxor	%ymm3, %ymm8, %ymm8
	vprold	$20, %ymm8, %ymm8
	vpaddd	%ymm23, %ymm12, %ymm12
	vmovdqa64	%ymm23, %ymm27
	vpxord	%ymm9, %ymm16, %ymm9
	vpaddd	%ymm8, %ymm12, %ymm12
	vpaddd	%ymm31, %ymm28, %ymm28
	vpaddd	%ymm7, %ymm28, %ymm28
	vpxor	%ymm11, %ymm12, %ymm11
	vpxord	%ymm1, %ymm28, %ymm1
	vprold	$16, %ymm1, %ymm1
	vpaddd	%ymm6, %ymm1, %ymm6
	vprold	$24, %ymm9, %ymm9
	vpxor	%ymm7, %ymm6, %ymm7
	vprold	$20, %ymm7, %ymm7
	vpaddd	%ymm26, %ymm28, %ymm28
	vprold	$24, %ymm11, %ymm11
	vpaddd	%ymm7, %ymm28, %ymm28
	vpxord	%ymm1, %ymm28, %ymm1
	vprold	$24, %ymm1, %ymm1
	vpaddd	%ymm9, %ymm10, %ymm10
	vpaddd	%ymm1, %ymm6, %ymm6
	vpxor	%ymm7, %ymm6, %ymm7
	vprold	$25, %ymm7, %ymm7
	vpaddd	%ymm3, %ymm11, %ymm3
	vpaddd	%ymm25, %ymm29, %ymm29
	vpaddd	%ymm2, %ymm29, %ymm29
	vpxord	%ymm4, %ymm29, %ymm4
	vpxor	%ymm5, %ymm10, %ymm5
	vprold	$16, %ymm4, %ymm4
	vpaddd	%ymm0, %ymm4, %ymm0
	vpxor	%ymm2, %ymm0, %ymm2
	vpxor	%ymm3, %ymm8, %ymm8
	vprold	$20, %ymm2, %ymm2
	vpaddd	%ymm14, %ymm29, %ymm29
	vmovdqa64	%ymm14, %ymm23
	vpaddd	%ymm2, %ymm29, %ymm29
	vprold	$25, %ymm5, %ymm5
	vpxord	%ymm4, %ymm29, %ymm4
	vprold	$24, %ymm4, %ymm4
	vpaddd	%ymm4, %ymm0, %ymm0
	vprold	$25, %ymm8, %ymm8
	vpxor	%ymm2, %ymm0, %ymm2
	vprold	$25, %ymm2, %ymm2
	vpaddd	%ymm30, %ymm16, %ymm16
	vpaddd	%ymm8, %ymm16, %ymm16
	vpxord	%ymm4, %ymm16, %ymm4
	vpaddd	%ymm17, %ymm16, %ymm16
	vmovdqu64	352(%rsp), %ymm26
	vpaddd	%ymm26, %ymm12, %ymm12
	vprold	$16, %ymm4, %ymm4
	vpaddd	%ymm7, %ymm12, %ymm12
	vpxor	%ymm9, %ymm12, %ymm9
	vprold	$16, %ymm9, %ymm9
	vpaddd	%ymm6, %ymm4, %ymm6
	vpaddd	%ymm0, %ymm9, %ymm0
	vpxor	%ymm7, %ymm0, %ymm7
	vprold	$20, %ymm7, %ymm7
	vpxor	%ymm6, %ymm8, %ymm8
	vmovdqu64	(%rsp), %ymm22
	vpaddd	%ymm22, %ymm12, %ymm12
	vpaddd	%ymm7, %ymm12, %ymm12
	vpxor	%ymm9, %ymm12, %ymm9
	vprold	$20, %ymm8, %ymm8
	vprold	$24, %ymm9, %ymm9
	vpaddd	%ymm0, %ymm9, %ymm0
	vpaddd	%ymm24, %ymm28, %ymm28
	vpaddd	%ymm8, %ymm16, %ymm16
	vpaddd	%ymm2, %ymm28, %ymm28
	vpxord	%ymm11, %ymm28, %ymm11
	vprold	$16, %ymm11, %ymm11
	vpxor	%ymm7, %ymm0, %ymm7
	vpaddd	%ymm10, %ymm11, %ymm10
	vpxor	%ymm2, %ymm10, %ymm2
	vprold	$20, %ymm2, %ymm2
	vpxord	%ymm4, %ymm16, %ymm4
	vmovdqu	128(%rsp), %ymm14
	vpaddd	%ymm14, %ymm28, %ymm28
	vpaddd	%ymm2, %ymm28, %ymm28
	vpxord	%ymm11, %ymm28, %ymm11
	vprold	$25, %ymm7, %ymm7
	vprold	$24, %ymm11, %ymm11
	vpaddd	%ymm11, %ymm10, %ymm10
	vpxor	%ymm2, %ymm10, %ymm2
	vprold	$25, %ymm2, %ymm2
	vpaddd	%ymm20, %ymm29, %ymm29
	vpaddd	%ymm5, %ymm29, %ymm29
	vpxord	%ymm1, %ymm29, %ymm1
	vprold	$24, %ymm4, %ymm4
	vprold	$16, %ymm1, %ymm1
	vpaddd	%ymm3, %ymm1, %ymm3
	vpxor	%ymm5, %ymm3, %ymm5
	vpaddd	%ymm4, %ymm6, %ymm6
	vprold	$20, %ymm5, %ymm5
	vmovdqu	96(%rsp), %ymm13
	vpaddd	%ymm13, %ymm29, %ymm29
	vpaddd	%ymm5, %ymm29, %ymm29
	vpxor	%ymm6, %ymm8, %ymm8
	vpxord	%ymm1, %ymm29, %ymm1
	vprold	$24, %ymm1, %ymm1
	vpaddd	%ymm1, %ymm3, %ymm3
	vprold	$25, %ymm8, %ymm8
	vpxor	%ymm5, %ymm3, %ymm5
	vprold	$25, %ymm5, %ymm5
	vpaddd	%ymm18, %ymm16, %ymm16
	vpaddd	%ymm5, %ymm16, %ymm16
	vpxord	%ymm9, %ymm16, %ymm9
	vprold	$16, %ymm9, %ymm9
	vpaddd	%ymm10, %ymm9, %ymm10
	vpxor	%ymm5, %ymm10, %ymm5
	vpaddd	%ymm22, %ymm16, %ymm16
	vpaddd	%ymm20, %ymm12, %ymm12
	vpaddd	%ymm8, %ymm12, %ymm12
	vprold	$20, %ymm5, %ymm5
	vpxor	%ymm11, %ymm12, %ymm11
	vprold	$16, %ymm11, %ymm11
	vpaddd	%ymm3, %ymm11, %ymm3
	vpaddd	%ymm5, %ymm16, %ymm16
	vpxor	%ymm3, %ymm8, %ymm8
	vprold	$20, %ymm8, %ymm8
	vpaddd	%ymm24, %ymm12, %ymm12
	vmovdqa64	%ymm24, %ymm25
	vpxord	%ymm9, %ymm16, %ymm9
	vpaddd	%ymm8, %ymm12, %ymm12
	vpaddd	%ymm14, %ymm28, %ymm28
	vpaddd	%ymm7, %ymm28, %ymm28
	vpxor	%ymm11, %ymm12, %ymm11
	vpxord	%ymm1, %ymm28, %ymm1
	vprold	$16, %ymm1, %ymm1
	vpaddd	%ymm6, %ymm1, %ymm6
	vprold	$24, %ymm9, %ymm9
	vpxor	%ymm7, %ymm6, %ymm7
	vprold	$20, %ymm7, %ymm7
	vpaddd	%ymm17, %ymm28, %ymm28
	vprold	$24, %ymm11, %ymm11
	vpaddd	%ymm7, %ymm28, %ymm28
	vpxord	%ymm1, %ymm28, %ymm1
	vprold	$24, %ymm1, %ymm1
	vpaddd	%ymm9, %ymm10, %ymm10
	vpaddd	%ymm1, %ymm6, %ymm6
	vpxor	%ymm7, %ymm6, %ymm7
	vprold	$25, %ymm7, %ymm7
	vpaddd	%ymm3, %ymm11, %ymm3
	vpaddd	%ymm30, %ymm29, %ymm29
	vmovdqa64	%ymm30, %ymm21
	vpaddd	%ymm2, %ymm29, %ymm29
	vpxord	%ymm4, %ymm29, %ymm4
	vpxor	%ymm5, %ymm10, %ymm5
	vprold	$16, %ymm4, %ymm4
	vpaddd	%ymm0, %ymm4, %ymm0
	vpxor	%ymm2, %ymm0, %ymm2
	vpxor	%ymm3, %ymm8, %ymm8
	vprold	$20, %ymm2, %ymm2
	vpaddd	%ymm27, %ymm29, %ymm29
	vpaddd	%ymm2, %ymm29, %ymm29
	vprold	$25, %ymm5, %ymm5
	vpxord	%ymm4, %ymm29, %ymm4
	vprold	$24, %ymm4, %ymm4
	vpaddd	%ymm4, %ymm0, %ymm0
	vprold	$25, %ymm8, %ymm8
	vpxor	%ymm2, %ymm0, %ymm2
	vprold	$25, %ymm2, %ymm2
	vpaddd	%ymm31, %ymm16, %ymm16
	vpaddd	%ymm8, %ymm16, %ymm16
	vpxord	%ymm4, %ymm16, %ymm4
	vmovdqa64	%ymm26, %ymm30
	vpaddd	%ymm26, %ymm16, %ymm16
	vmovdqu64	576(%rsp), %ymm24
	vpaddd	%ymm24, %ymm12, %ymm12
	vprold	$16, %ymm4, %ymm4
	vpaddd	%ymm7, %ymm12, %ymm12
	vpxor	%ymm9, %ymm12, %ymm9
	vprold	$16, %ymm9, %ymm9
	vpaddd	%ymm6, %ymm4, %ymm6
	vpaddd	%ymm0, %ymm9, %ymm0
	vpxor	%ymm7, %ymm0, %ymm7
	vprold	$20, %ymm7, %ymm7
	vpxor	%ymm6, %ymm8, %ymm8
	vpaddd	%ymm23, %ymm12, %ymm12
	vpaddd	%ymm7, %ymm12, %ymm12
	vpxor	%ymm9, %ymm12, %ymm9
	vprold	$20, %ymm8, %ymm8
	vprold	$24, %ymm9, %ymm9
	vpaddd	%ymm0, %ymm9, %ymm0
	vpaddd	%ymm13, %ymm28, %ymm28
	vpaddd	%ymm8, %ymm16, %ymm16
	vpaddd	%ymm2, %ymm28, %ymm28
	vpxord	%ymm11, %ymm28, %ymm11
	vprold	$16, %ymm11, %ymm11
	vpxor	%ymm7, %ymm0, %ymm7
	vpaddd	%ymm10, %ymm11, %ymm10
	vpxor	%ymm2, %ymm10, %ymm2
	vprold	$20, %ymm2, %ymm2
	vpxord	%ymm4, %ymm16, %ymm4
	vmovdqu64	256(%rsp), %ymm19
	vpaddd	%ymm19, %ymm28, %ymm28
	vpaddd	%ymm2, %ymm28, %ymm28
	vpxord	%ymm11, %ymm28, %ymm11
	vprold	$25, %ymm7, %ymm7
	vprold	$24, %ymm11, %ymm11
	vpaddd	%ymm11, %ymm10, %ymm10
	vpxor	%ymm2, %ymm10, %ymm2
	vprold	$25, %ymm2, %ymm2
	vmovdqu64	288(%rsp), %ymm26
	vpaddd	%ymm26, %ymm29, %ymm29
	vpaddd	%ymm5, %ymm29, %ymm29
	vpxord	%ymm1, %ymm29, %ymm1
	vprold	$24, %ymm4, %ymm4
	vprold	$16, %ymm1, %ymm1
	vpaddd	%ymm3, %ymm1, %ymm3
	vpxor	%ymm5, %ymm3, %ymm5
	vpaddd	%ymm4, %ymm6, %ymm6
	vprold	$20, %ymm5, %ymm5
	vmovdqu	192(%rsp), %ymm15
	vpaddd	%ymm15, %ymm29, %ymm29
	vpaddd	%ymm5, %ymm29, %ymm29
	vpxor	%ymm6, %ymm8, %ymm8
	vpxord	%ymm1, %ymm29, %ymm1
	vprold	$24, %ymm1, %ymm1
	vpaddd	%ymm1, %ymm3, %ymm3
	vprold	$25, %ymm8, %ymm8
	vpxor	%ymm5, %ymm3, %ymm5
	vprold	$25, %ymm5, %ymm5
	vpaddd	%ymm17, %ymm16, %ymm16
	vpaddd	%ymm5, %ymm16, %ymm16
	vpxord	%ymm9, %ymm16, %ymm9
	vprold	$16, %ymm9, %ymm9
	vpaddd	%ymm10, %ymm9, %ymm10
	vpxor	%ymm5, %ymm10, %ymm5
	vpaddd	%ymm15, %ymm16, %ymm16
	vpaddd	%ymm30, %ymm12, %ymm12
	vpaddd	%ymm8, %ymm12, %ymm12
	vprold	$20, %ymm5, %ymm5
	vpxor	%ymm11, %ymm12, %ymm11
	vprold	$16, %ymm11, %ymm11
	vpaddd	%ymm3, %ymm11, %ymm3
	vpaddd	%ymm5, %ymm16, %ymm16
	vpxor	%ymm3, %ymm8, %ymm8
	vprold	$20, %ymm8, %ymm8
	vpaddd	%ymm14, %ymm12, %ymm12
	vpxord	%ymm9, %ymm16, %ymm9
	vpaddd	%ymm8, %ymm12, %ymm12
	vpaddd	%ymm18, %ymm28, %ymm28
	vpaddd	%ymm7, %ymm28, %ymm28
	vpxor	%ymm11, %ymm12, %ymm11
	vpxord	%ymm1, %ymm28, %ymm1
	vprold	$16, %ymm1, %ymm1
	vpaddd	%ymm6, %ymm1, %ymm6
	vprold	$24, %ymm9, %ymm9
	vpxor	%ymm7, %ymm6, %ymm7
	vprold	$20, %ymm7, %ymm7
	vpaddd	%ymm20, %ymm28, %ymm28
	vprold	$24, %ymm11, %ymm11
	vpaddd	%ymm7, %ymm28, %ymm30
	vpxord	%ymm1, %ymm30, %ymm1
	vprold	$24, %ymm1, %ymm1
	vpaddd	%ymm9, %ymm10, %ymm10
	vpaddd	%ymm1, %ymm6, %ymm6
	vpxor	%ymm7, %ymm6, %ymm7
	vprold	$25, %ymm7, %ymm7
	vpaddd	%ymm3, %ymm11, %ymm3
	vpaddd	%ymm23, %ymm29, %ymm28
	vmovdqa64	%ymm23, %ymm20
	vpaddd	%ymm2, %ymm28, %ymm28
	vpxord	%ymm4, %ymm28, %ymm4
	vpxor	%ymm5, %ymm10, %ymm5
	vprold	$16, %ymm4, %ymm4
	vpaddd	%ymm0, %ymm4, %ymm0
	vpxor	%ymm2, %ymm0, %ymm2
	vpxor	%ymm3, %ymm8, %ymm8
	vprold	$20, %ymm2, %ymm2
	vpaddd	%ymm13, %ymm28, %ymm28
	vmovdqa64	%ymm13, %ymm17
	vpaddd	%ymm2, %ymm28, %ymm29
	vprold	$25, %ymm5, %ymm5
	vpxord	%ymm4, %ymm29, %ymm4
	vprold	$24, %ymm4, %ymm4
	vpaddd	%ymm4, %ymm0, %ymm0
	vprold	$25, %ymm8, %ymm8
	vpxor	%ymm2, %ymm0, %ymm2
	vprold	$25, %ymm2, %ymm2
	vpaddd	%ymm22, %ymm16, %ymm16
	vpaddd	%ymm8, %ymm16, %ymm16
	vpxord	%ymm4, %ymm16, %ymm4
	vmovdqa64	%ymm31, %ymm13
	vpaddd	%ymm31, %ymm16, %ymm16
	vpaddd	%ymm25, %ymm12, %ymm12
	vprold	$16, %ymm4, %ymm4
	vpaddd	%ymm7, %ymm12, %ymm12
	vpxor	%ymm9, %ymm12, %ymm9
	vprold	$16, %ymm9, %ymm9
	vpaddd	%ymm6, %ymm4, %ymm6
	vpaddd	%ymm0, %ymm9, %ymm0
	vpxor	%ymm7, %ymm0, %ymm7
	vprold	$20, %ymm7, %ymm7
	vpxor	%ymm6, %ymm8, %ymm8
	vpaddd	%ymm21, %ymm12, %ymm12
	vpaddd	%ymm7, %ymm12, %ymm12
	vpxor	%ymm9, %ymm12, %ymm9
	vprold	$20, %ymm8, %ymm8
	vprold	$24, %ymm9, %ymm9
	vpaddd	%ymm9, %ymm0, %ymm28
	vpaddd	%ymm26, %ymm30, %ymm0
	vmovdqa64	%ymm26, %ymm22
	vpaddd	%ymm8, %ymm16, %ymm16
	vpaddd	%ymm2, %ymm0, %ymm0
	vpxor	%ymm0, %ymm11, %ymm11
	vprold	$16, %ymm11, %ymm11
	vpxord	%ymm7, %ymm28, %ymm7
	vpaddd	%ymm10, %ymm11, %ymm10
	vpxor	%ymm2, %ymm10, %ymm2
	vprold	$20, %ymm2, %ymm2
	vpxord	%ymm4, %ymm16, %ymm4
	vpaddd	%ymm24, %ymm0, %ymm0
	vpaddd	%ymm2, %ymm0, %ymm30
	vpxord	%ymm11, %ymm30, %ymm0
	vprold	$25, %ymm7, %ymm7
	vprold	$24, %ymm0, %ymm11
	vpaddd	%ymm11, %ymm10, %ymm10
	vpxor	%ymm2, %ymm10, %ymm0
	vprold	$25, %ymm0, %ymm0
	vmovdqa64	%ymm19, %ymm23
	vpaddd	%ymm19, %ymm29, %ymm2
	vpaddd	%ymm5, %ymm2, %ymm2
	vpxord	%ymm1, %ymm2, %ymm29
	vprold	$24, %ymm4, %ymm1
	vprold	$16, %ymm29, %ymm4
	vpaddd	%ymm3, %ymm4, %ymm3
	vpxor	%ymm5, %ymm3, %ymm5
	vpaddd	%ymm1, %ymm6, %ymm29
	vprold	$20, %ymm5, %ymm5
	vpaddd	%ymm27, %ymm2, %ymm2
	vpaddd	%ymm5, %ymm2, %ymm2
	vpxord	%ymm8, %ymm29, %ymm6
	vpxor	%ymm4, %ymm2, %ymm4
	vprold	$24, %ymm4, %ymm4
	vpaddd	%ymm4, %ymm3, %ymm3
	vprold	$25, %ymm6, %ymm8
	vpxor	%ymm5, %ymm3, %ymm5
	vprold	$25, %ymm5, %ymm5
	vpaddd	%ymm24, %ymm16, %ymm6
	vpaddd	%ymm5, %ymm6, %ymm6
	vpxor	%ymm6, %ymm9, %ymm9
	vprold	$16, %ymm9, %ymm9
	vpaddd	%ymm25, %ymm6, %ymm16
	vpaddd	%ymm10, %ymm9, %ymm6
	vpaddd	%ymm14, %ymm12, %ymm10
	vmovdqa64	%ymm14, %ymm26
	vpaddd	%ymm8, %ymm10, %ymm10
	vpxor	%ymm11, %ymm10, %ymm11
	vpxor	%ymm5, %ymm6, %ymm5
	vprold	$16, %ymm11, %ymm11
	vpaddd	%ymm3, %ymm11, %ymm12
	vpxor	%ymm8, %ymm12, %ymm3
	vprold	$20, %ymm5, %ymm5
	vpaddd	%ymm17, %ymm10, %ymm8
	vmovdqa64	%ymm15, %ymm17
	vpaddd	%ymm15, %ymm30, %ymm10
	vpaddd	%ymm7, %ymm10, %ymm10
	vprold	$20, %ymm3, %ymm31
	vpxor	%ymm4, %ymm10, %ymm3
	vprold	$16, %ymm3, %ymm4
	vpaddd	%ymm29, %ymm4, %ymm29
	vpaddd	%ymm5, %ymm16, %ymm16
	vpxord	%ymm7, %ymm29, %ymm3
	vprold	$20, %ymm3, %ymm7
	vpaddd	%ymm20, %ymm10, %ymm10
	vpaddd	%ymm31, %ymm8, %ymm3
	vpaddd	%ymm7, %ymm10, %ymm30
	vpxord	%ymm4, %ymm30, %ymm4
	vprold	$24, %ymm4, %ymm4
	vpxord	%ymm9, %ymm16, %ymm8
	vpaddd	%ymm4, %ymm29, %ymm10
	vpxor	%ymm7, %ymm10, %ymm9
	vpaddd	%ymm2, %ymm13, %ymm2
	vpxor	%ymm3, %ymm11, %ymm7
	vpaddd	%ymm0, %ymm2, %ymm11
	vpxor	%ymm1, %ymm11, %ymm1
	vprold	$16, %ymm1, %ymm1
	vprold	$24, %ymm7, %ymm7
	vpaddd	%ymm28, %ymm1, %ymm28
	vpxord	%ymm0, %ymm28, %ymm0
	vprold	$20, %ymm0, %ymm0
	vpaddd	%ymm7, %ymm12, %ymm2
	vpaddd	%ymm22, %ymm11, %ymm11
	vpaddd	%ymm0, %ymm11, %ymm11
	vpxor	%ymm1, %ymm11, %ymm1
	vpxord	%ymm31, %ymm2, %ymm12
	vprold	$24, %ymm1, %ymm29
	vpaddd	%ymm29, %ymm28, %ymm1
	vpaddd	%ymm18, %ymm16, %ymm16
	vprold	$25, %ymm12, %ymm12
	vpaddd	%ymm12, %ymm16, %ymm16
	vpxord	%ymm29, %ymm16, %ymm28
	vprold	$16, %ymm28, %ymm31
	vpaddd	%ymm10, %ymm31, %ymm28
	vpxord	%ymm12, %ymm28, %ymm10
	vprold	$20, %ymm10, %ymm29
	vpaddd	%ymm19, %ymm16, %ymm10
	vpaddd	%ymm29, %ymm10, %ymm10
	vpxord	%ymm31, %ymm10, %ymm31
	vpaddd	%ymm27, %ymm11, %ymm11
	vpaddd	%ymm27, %ymm10, %ymm10
	vprold	$24, %ymm8, %ymm8
	vpaddd	%ymm6, %ymm8, %ymm6
	vprold	$25, %ymm9, %ymm9
	vpxor	%ymm0, %ymm1, %ymm12
	vpxor	%ymm5, %ymm6, %ymm0
	vmovdqu	32(%rsp), %ymm13
	vpaddd	%ymm3, %ymm13, %ymm3
	vpaddd	%ymm3, %ymm9, %ymm3
	vpxor	%ymm3, %ymm8, %ymm5
	vprold	$25, %ymm0, %ymm0
	vprold	$16, %ymm5, %ymm5
	vpaddd	%ymm1, %ymm5, %ymm1
	vpxor	%ymm1, %ymm9, %ymm8
	vprold	$20, %ymm8, %ymm8
	vmovdqu64	352(%rsp), %ymm19
	vpaddd	%ymm19, %ymm3, %ymm3
	vpaddd	%ymm3, %ymm8, %ymm9
	vpxor	%ymm5, %ymm9, %ymm3
	vprold	$24, %ymm3, %ymm3
	vpaddd	%ymm0, %ymm11, %ymm5
	vpxor	%ymm4, %ymm5, %ymm4
	vprold	$16, %ymm4, %ymm4
	vpaddd	%ymm3, %ymm1, %ymm27
	vpaddd	%ymm2, %ymm4, %ymm1
	vpxor	%ymm0, %ymm1, %ymm0
	vmovdqu	(%rsp), %ymm14
	vpaddd	%ymm5, %ymm14, %ymm2
	vprold	$20, %ymm0, %ymm0
	vpaddd	%ymm0, %ymm2, %ymm5
	vpxor	%ymm4, %ymm5, %ymm2
	vprold	$24, %ymm2, %ymm11
	vpaddd	%ymm1, %ymm11, %ymm1
	vpxor	%ymm0, %ymm1, %ymm0
	vprold	$25, %ymm0, %ymm0
	vpaddd	%ymm0, %ymm10, %ymm4
	vpxor	%ymm3, %ymm4, %ymm2
	vpaddd	%ymm23, %ymm4, %ymm3
	vpaddd	%ymm22, %ymm9, %ymm9
	vmovdqu	384(%rsp), %ymm15
	vpaddd	%ymm15, %ymm30, %ymm4
	vprold	$25, %ymm12, %ymm10
	vpaddd	%ymm4, %ymm10, %ymm4
	vpxor	%ymm7, %ymm4, %ymm7
	vprold	$16, %ymm7, %ymm7
	vpaddd	%ymm6, %ymm7, %ymm12
	vpxor	%ymm10, %ymm12, %ymm6
	vprold	$20, %ymm6, %ymm10
	vpaddd	%ymm21, %ymm4, %ymm4
	vpaddd	%ymm4, %ymm10, %ymm4
	vpxord	%ymm7, %ymm4, %ymm16
	vpaddd	%ymm19, %ymm4, %ymm6
	vpxord	%ymm8, %ymm27, %ymm4
	vprold	$25, %ymm4, %ymm4
	vpaddd	%ymm4, %ymm6, %ymm7
	vpxor	%ymm7, %ymm11, %ymm6
	vpaddd	%ymm24, %ymm7, %ymm7
	vprold	$24, %ymm31, %ymm8
	vpaddd	%ymm8, %ymm28, %ymm11
	vpxord	%ymm29, %ymm11, %ymm23
	vprold	$24, %ymm16, %ymm16
	vprold	$25, %ymm23, %ymm23
	vpaddd	%ymm16, %ymm12, %ymm12
	vpaddd	%ymm23, %ymm9, %ymm9
	vpxord	%ymm16, %ymm9, %ymm16
	vpaddd	%ymm21, %ymm9, %ymm9
	vpaddd	%ymm5, %ymm15, %ymm5
	vpxor	%ymm10, %ymm12, %ymm10
	vprold	$25, %ymm10, %ymm10
	vpaddd	%ymm5, %ymm10, %ymm5
	vpxor	%ymm5, %ymm8, %ymm8
	vpaddd	%ymm5, %ymm14, %ymm5
	vprold	$16, %ymm2, %ymm19
	vpaddd	%ymm12, %ymm19, %ymm12
	vpxor	%ymm0, %ymm12, %ymm0
	vprold	$20, %ymm0, %ymm2
	vpaddd	%ymm2, %ymm3, %ymm0
	vpxord	%ymm19, %ymm0, %ymm20
	vpaddd	%ymm25, %ymm0, %ymm21
	vprold	$16, %ymm16, %ymm0
	vpaddd	%ymm1, %ymm0, %ymm1
	vpxord	%ymm23, %ymm1, %ymm3
	vprold	$20, %ymm3, %ymm16
	vpaddd	%ymm16, %ymm9, %ymm19
	vpxord	%ymm0, %ymm19, %ymm0
	vprold	$24, %ymm0, %ymm9
	vpaddd	%ymm1, %ymm9, %ymm3
	vprold	$16, %ymm8, %ymm0
	vpaddd	%ymm27, %ymm0, %ymm8
	vpxord	%ymm16, %ymm3, %ymm16
	vpxor	%ymm10, %ymm8, %ymm1
	vprold	$20, %ymm1, %ymm10
	vpaddd	%ymm5, %ymm10, %ymm1
	vprold	$25, %ymm16, %ymm16
	vpxor	%ymm0, %ymm1, %ymm0
	vprold	$24, %ymm0, %ymm5
	vpaddd	%ymm5, %ymm8, %ymm0
	vpaddd	%ymm16, %ymm21, %ymm8
	vpxord	%ymm5, %ymm8, %ymm21
	vpaddd	%ymm17, %ymm8, %ymm18
	vprold	$16, %ymm6, %ymm8
	vpaddd	%ymm11, %ymm8, %ymm11
	vpxor	%ymm4, %ymm11, %ymm4
	vprold	$20, %ymm4, %ymm6
	vpaddd	%ymm6, %ymm7, %ymm22
	vprold	$24, %ymm20, %ymm5
	vpxord	%ymm8, %ymm22, %ymm4
	vprold	$24, %ymm4, %ymm4
	vpaddd	%ymm4, %ymm11, %ymm8
	vpaddd	%ymm5, %ymm12, %ymm7
	vpxor	%ymm0, %ymm10, %ymm10
	vprold	$25, %ymm10, %ymm10
	vpaddd	320(%rsp), %ymm22, %ymm11
	vprold	$16, %ymm21, %ymm12
	vpaddd	%ymm8, %ymm12, %ymm20
	vpaddd	%ymm10, %ymm11, %ymm11
	vpxor	%ymm9, %ymm11, %ymm9
	vpxord	%ymm16, %ymm20, %ymm14
	vprold	$16, %ymm9, %ymm9
	vpaddd	224(%rsp), %ymm11, %ymm11
	vpaddd	%ymm7, %ymm9, %ymm15
	vprold	$20, %ymm14, %ymm16
	vpxor	%ymm10, %ymm15, %ymm10
	vprold	$20, %ymm10, %ymm10
	vpaddd	%ymm10, %ymm11, %ymm11
	vpaddd	%ymm16, %ymm18, %ymm21
	vpxor	%ymm9, %ymm11, %ymm9
	vprold	$24, %ymm9, %ymm9
	vpaddd	%ymm9, %ymm15, %ymm14
	vpxord	%ymm10, %ymm14, %ymm18
	vpternlogd	$150, 768(%rsp), %ymm21, %ymm14
	vpxord	%ymm12, %ymm21, %ymm10
	vprold	$24, %ymm10, %ymm12
	vpaddd	%ymm12, %ymm20, %ymm21
	vpxord	%ymm16, %ymm21, %ymm16
	vpternlogd	$150, 736(%rsp), %ymm11, %ymm21
	vpxor	%ymm6, %ymm8, %ymm6
	vpxor	%ymm2, %ymm7, %ymm2
	vpaddd	96(%rsp), %ymm19, %ymm7
	vprold	$25, %ymm6, %ymm6
	vpaddd	%ymm6, %ymm7, %ymm7
	vpxor	%ymm5, %ymm7, %ymm5
	vpaddd	%ymm26, %ymm7, %ymm7
	vpaddd	%ymm1, %ymm13, %ymm1
	vprold	$25, %ymm2, %ymm2
	vpaddd	%ymm2, %ymm1, %ymm1
	vpxor	%ymm4, %ymm1, %ymm4
	vpaddd	64(%rsp), %ymm1, %ymm1
	vprold	$16, %ymm5, %ymm5
	vpaddd	%ymm0, %ymm5, %ymm0
	vpxor	%ymm6, %ymm0, %ymm6
	vprold	$20, %ymm6, %ymm6
	vprold	$16, %ymm4, %ymm4
	vpaddd	%ymm6, %ymm7, %ymm7
	vpaddd	%ymm3, %ymm4, %ymm3
	vpxor	%ymm2, %ymm3, %ymm2
	vprold	$20, %ymm2, %ymm2
	vpaddd	%ymm2, %ymm1, %ymm1
	vpxor	%ymm4, %ymm1, %ymm4
	vprold	$24, %ymm4, %ymm4
	vpaddd	%ymm4, %ymm3, %ymm20
	vpxord	%ymm2, %ymm20, %ymm2
	vpternlogd	$150, 832(%rsp), %ymm7, %ymm20
	vpxor	%ymm5, %ymm7, %ymm3
	vprold	$24, %ymm3, %ymm3
	vpaddd	%ymm3, %ymm0, %ymm28
	vpxord	%ymm6, %ymm28, %ymm0
	vpternlogd	$150, 640(%rsp), %ymm1, %ymm28
	vprold	$25, %ymm2, %ymm17
	vpternlogd	$150, 704(%rsp), %ymm3, %ymm17
	vprold	$25, %ymm0, %ymm11
	vpternlogd	$150, 800(%rsp), %ymm4, %ymm11
	vprold	$25, %ymm16, %ymm5
	vpternlogd	$150, 864(%rsp), %ymm9, %ymm5
	vprold	$25, %ymm18, %ymm25
	vpternlogd	$150, 672(%rsp), %ymm12, %ymm25
	addq	$64, %rdx
	decq	%rax
	jne	1b
	addq	$896, %rsp
	popq	%rbx
	popq	%r14
	popq	%rbp
2:
	vmovdqu	%ymm14, (%rdi)
	vmovdqu64	%ymm20, 32(%rdi)
	vmovdqu64	%ymm21, 64(%rdi)
	vmovdqu64	%ymm28, 96(%rdi)
	vmovdqu64	%ymm17, 128(%rdi)
	vmovdqu	%ymm5, 160(%rdi)
	vmovdqu	%ymm11, 192(%rdi)
	vmovdqu64	%ymm25, 224(%rdi)
	vzeroupper
	vpxord	%xmm16, %xmm16, %xmm16
	vpxord	%xmm17, %xmm17, %xmm17
	vpxord	%xmm18, %xmm18, %xmm18
	vpxord	%xmm19, %xmm19, %xmm19
	vpxord	%xmm20, %xmm20, %xmm20
	vpxord	%xmm21, %xmm21, %xmm21
	vpxord	%xmm22, %xmm22, %xmm22
	vpxord	%xmm23, %xmm23, %xmm23
	vpxord	%xmm24, %xmm24, %xmm24
	vpxord	%xmm25, %xmm25, %xmm25
	vpxord	%xmm26, %xmm26, %xmm26
	vpxord	%xmm27, %xmm27, %xmm27
	vpxord	%xmm28, %xmm28, %xmm28
	vpxord	%xmm29, %xmm29, %xmm29
	vpxord	%xmm30, %xmm30, %xmm30
	vpxord	%xmm31, %xmm31, %xmm31
	retq
	vj_end	blake2_compress..many..blake2s..compress_blocks_1_v4

	vj_function	blake2_ffi..blake2s..is_digest_of_1_v4
	pushq	%r15
	pushq	%r14
	pushq	%rbx
	subq	$32, %rsp
	movq	%rdx, %rbx
	movq	%rsi, %r14
	movq	%rdi, %r15
	vpxor	%xmm0, %xmm0, %xmm0
	vmovdqu	%ymm0, (%rsp)
	movq	%rsp, %rsi
	vzeroupper
	callq	blake2_state..blake2s..State..write_digest_1_v4
	movzwl	76(%r15), %eax
	cmpq	%rax, %rbx
	jne	1f
	testq	%rbx, %rbx
	je	2f
	cmpq	$8, %rbx
	jae	3f
	xorl	%ecx, %ecx
	xorl	%eax, %eax
	jmp	8f
1:
	xorl	%eax, %eax
	jmp	11f
2:
	movb	$1, %al
	jmp	11f
3:
	cmpq	$128, %rbx
	jae	4f
	xorl	%eax, %eax
	xorl	%ecx, %ecx
	jmp	6f
4:
	movq	%rbx, %rax
	andq	$-128, %rax
	vpxor	%xmm0, %xmm0, %xmm0
	xorl	%ecx, %ecx
	vpxor	%xmm1, %xmm1, %xmm1
	vpxor	%xmm3, %xmm3, %xmm3
	vpxor	%xmm2, %xmm2, %xmm2
	.p2align	4
5:
	vmovdqu	(%rsp,%rcx), %ymm4
	vmovdqu	32(%rsp,%rcx), %ymm5
	vmovdqu	64(%rsp,%rcx), %ymm6
	vmovdqu	96(%rsp,%rcx), %ymm7
	vpternlogq	$246, (%r14,%rcx), %ymm4, %ymm1
	vpternlogq	$246, 32(%r14,%rcx), %ymm5, %ymm3
	vpternlogq	$246, 64(%r14,%rcx), %ymm6, %ymm2
	vpternlogq	$246, 96(%r14,%rcx), %ymm7, %ymm0
	subq	$-128, %rcx
	cmpq	%rcx, %rax
	jne	5b
	vpor	%ymm1, %ymm3, %ymm1
	vpternlogq	$254, %ymm1, %ymm2, %ymm0
	vextracti128	$1, %ymm0, %xmm1
	vpor	%xmm1, %xmm0, %xmm0
	vpshufd	$238, %xmm0, %xmm1
	vpor	%xmm1, %xmm0, %xmm0
	vpshufd	$85, %xmm0, %xmm1
	vpor	%xmm1, %xmm0, %xmm0
	vpsrld	$16, %xmm0, %xmm1
	vpor	%xmm1, %xmm0, %xmm0
	vpsrlw	$8, %xmm0, %xmm1
	vpor	%xmm1, %xmm0, %xmm0
	vmovd	%xmm0, %ecx
	cmpq	%rax, %rbx
	je	10f
	testb	$120, %bl
	je	8f
6:
	movq	%rax, %rdx
	movq	%rbx, %rax
	andq	$-8, %rax
	movzbl	%cl, %ecx
	vmovd	%ecx, %xmm0
	.p2align	4
7:
	movq	(%rsp,%rdx), %rcx
	xorq	(%r14,%rdx), %rcx
	vmovq	%rcx, %xmm1
	vpor	%xmm0, %xmm1, %xmm0
	addq	$8, %rdx
	cmpq	%rdx, %rax
	jne	7b
	vpshufd	$85, %xmm0, %xmm1
	vpor	%xmm1, %xmm0, %xmm0
	vpsrld	$16, %xmm0, %xmm1
	vpor	%xmm1, %xmm0, %xmm0
	vpsrlw	$8, %xmm0, %xmm1
	vpor	%xmm1, %xmm0, %xmm0
	vmovd	%xmm0, %ecx
	jmp	9f
8:
	movzbl	(%rsp,%rax), %edx
	xorb	(%r14,%rax), %dl
	orb	%dl, %cl
	incq	%rax
9:
	cmpq	%rax, %rbx
	jne	8b
10:
	testb	%cl, %cl
	sete	%al
11:
	addq	$32, %rsp
	popq	%rbx
	popq	%r14
	popq	%r15
	vzeroupper
	retq
	vj_end	blake2_ffi..blake2s..is_digest_of_1_v4

	vj_function	blake2_ffi..blake2sp..finalize_1_v4
	pushq	%r15
	pushq	%r14
	pushq	%rbx
	subq	$32, %rsp
	movq	%rsi, %rbx
	movq	%rdi, %r14
	movq	%rsp, %r15
	movq	%r15, %rdi
	movq	%r14, %rsi
	callq	blake2_parallel..blake2sp..State..output_1_v4
	movq	1528(%r14), %rdx
	movq	%rbx, %rdi
	movq	%r15, %rsi
	vj_c_call	memcpy
	movl	$1600, %edx
	movq	%r14, %rdi
	xorl	%esi, %esi
	addq	$32, %rsp
	popq	%rbx
	popq	%r14
	popq	%r15
	vj_c_jump	memset
	vj_end	blake2_ffi..blake2sp..finalize_1_v4

	vj_function	blake2_parallel..blake2sp..State..output_1_v4
	pushq	%r15
	pushq	%r14
	pushq	%rbx
	subq	$288, %rsp
	movq	%rsi, %r14
	movq	%rdi, %rbx
	leaq	32(%rsp), %r15
	movq	%r15, %rdi
	vj_call	blake2_parallel..lanes..blake2sp..Lanes..outputs_1_v4
	vmovups	1488(%r14), %ymm0
	vmovups	%ymm0, (%rsp)
	movq	%rsp, %r14
	movl	$64, %edx
	movq	%r14, %rdi
	movq	%r15, %rsi
	xorl	%ecx, %ecx
	xorl	%r8d, %r8d
	vzeroupper
	vj_call	blake2_compress..compress..blake2s..compress_1_v4
	leaq	96(%rsp), %rsi
	movl	$128, %edx
	movq	%r14, %rdi
	xorl	%ecx, %ecx
	xorl	%r8d, %r8d
	vj_call	blake2_compress..compress..blake2s..compress_1_v4
	leaq	160(%rsp), %rsi
	movl	$192, %edx
	movq	%r14, %rdi
	xorl	%ecx, %ecx
	xorl	%r8d, %r8d
	vj_call	blake2_compress..compress..blake2s..compress_1_v4
	leaq	224(%rsp), %rsi
	movl	$256, %edx
	movq	%r14, %rdi
	movl	$1, %ecx
	movl	$1, %r8d
	vj_call	blake2_compress..compress..blake2s..compress_1_v4
	vmovups	(%rsp), %ymm0
	vmovups	%ymm0, (%rbx)
	addq	$288, %rsp
	popq	%rbx
	popq	%r14
	popq	%r15
	vzeroupper
	retq
	vj_end	blake2_parallel..blake2sp..State..output_1_v4

	vj_constants	16
	.p2align	4, 0x0
.L1_v4_CPI62_0:
	.byte	1
	.byte	0
	.byte	1
	.byte	0
	.byte	1
	.byte	0
	.byte	1
	.byte	0
	.byte	1
	.byte	0
	.byte	1
	.byte	0
	.byte	1
	.byte	0
	.byte	1
	.byte	1
	vj_shared	blake2_parallel..lanes..blake2sp..Lanes..outputs_1_v4
	pushq	%rbp
	pushq	%r15
	pushq	%r14
	pushq	%r13
	pushq	%r12
	pushq	%rbx
	subq	$1832, %rsp
	vxorps	%xmm0, %xmm0, %xmm0
	vmovups	%ymm0, 1248(%rsp)
	vmovups	%ymm0, 1216(%rsp)
	vmovups	%ymm0, 1184(%rsp)
	vmovups	%ymm0, 1152(%rsp)
	vmovups	%ymm0, 1120(%rsp)
	vmovups	%ymm0, 1088(%rsp)
	vmovups	%ymm0, 1056(%rsp)
	vmovups	%ymm0, 1024(%rsp)
	vmovups	%ymm0, 1280(%rsp)
	vmovups	%ymm0, 1312(%rsp)
	vmovups	%ymm0, 1344(%rsp)
	vmovups	%ymm0, 1376(%rsp)
	vmovups	%ymm0, 1408(%rsp)
	vmovups	%ymm0, 1440(%rsp)
	vmovups	%ymm0, 1472(%rsp)
	vmovups	%ymm0, 1504(%rsp)
	vmovups	%ymm0, 992(%rsp)
	vmovups	%ymm0, 960(%rsp)
	vmovups	%ymm0, 928(%rsp)
	vmovups	%ymm0, 896(%rsp)
	vmovups	%ymm0, 864(%rsp)
	vmovups	%ymm0, 832(%rsp)
	vmovups	%ymm0, 800(%rsp)
	vmovups	%ymm0, 1536(%rsp)
	movq	%rsi, %r12
	movq	264(%rsi), %r14
	cmpq	$512, %r14
	movl	$512, %r15d
	cmovbq	%r14, %r15
	movq	%r14, %rbx
	subq	%r15, %rbx
	vmovups	(%rsi), %ymm0
	vmovups	32(%rsi), %ymm1
	vmovups	64(%rsi), %ymm2
	vmovups	96(%rsi), %ymm3
	vmovups	128(%rsi), %ymm4
	vmovups	160(%rsi), %ymm5
	vmovups	192(%rsi), %ymm6
	vmovups	224(%rsi), %ymm7
	movq	256(%rsi), %rcx
	cmpq	$513, %r14
	setb	16(%rsp)
	cmpq	$65, %rbx
	setb	18(%rsp)
	cmpq	$129, %rbx
	setb	20(%rsp)
	cmpq	$193, %rbx
	setb	22(%rsp)
	cmpq	$257, %rbx
	setb	24(%rsp)
	cmpq	$321, %rbx
	setb	26(%rsp)
	cmpq	$385, %rbx
	setb	28(%rsp)
	movq	%rdi, %r13
	cmpq	$449, %rbx
	movb	$0, 17(%rsp)
	movb	$0, 19(%rsp)
	movb	$0, 21(%rsp)
	movb	$0, 23(%rsp)
	movb	$0, 25(%rsp)
	movb	$0, 27(%rsp)
	movb	$0, 29(%rsp)
	setb	30(%rsp)
	leaq	272(%rsi), %rsi
	setb	31(%rsp)
	vmovups	%ymm0, 544(%rsp)
	vmovups	%ymm1, 576(%rsp)
	vmovups	%ymm2, 608(%rsp)
	vmovups	%ymm3, 640(%rsp)
	vmovups	%ymm4, 672(%rsp)
	vmovups	%ymm5, 704(%rsp)
	vmovups	%ymm6, 736(%rsp)
	vmovups	%ymm7, 768(%rsp)
	leaq	544(%rsp), %rbp
	leaq	16(%rsp), %r8
	movq	%rbp, %rdi
	movq	%rsi, 8(%rsp)
	movq	%r15, %rdx
	vzeroupper
	callq	blake2_parallel..lanes..blake2sp..compress_short_1_v4
	leaq	288(%rsp), %rdi
	movq	%rbp, %rsi
	callq	blake2_parallel..lanes..blake2sp..outputs_of_1_v4
	vmovups	512(%rsp), %ymm0
	vmovups	%ymm0, 1792(%rsp)
	vmovups	480(%rsp), %ymm0
	vmovups	%ymm0, 1760(%rsp)
	vmovups	448(%rsp), %ymm0
	vmovups	%ymm0, 1728(%rsp)
	vmovups	416(%rsp), %ymm0
	vmovups	%ymm0, 1696(%rsp)
	vmovups	320(%rsp), %ymm0
	vmovups	352(%rsp), %ymm1
	vmovups	384(%rsp), %ymm2
	vmovups	%ymm2, 1664(%rsp)
	vmovups	%ymm1, 1632(%rsp)
	vmovups	%ymm0, 1600(%rsp)
	vmovups	288(%rsp), %ymm0
	vmovups	%ymm0, 1568(%rsp)
	cmpq	$513, %r14
	jae	1f
	vmovups	512(%rsp), %ymm0
	vmovups	%ymm0, 224(%r13)
	vmovups	480(%rsp), %ymm0
	vmovups	%ymm0, 192(%r13)
	vmovups	448(%rsp), %ymm0
	vmovups	%ymm0, 160(%r13)
	vmovups	416(%rsp), %ymm0
	vmovups	%ymm0, 128(%r13)
	vmovups	288(%rsp), %ymm0
	vmovups	320(%rsp), %ymm1
	vmovups	352(%rsp), %ymm2
	vmovups	384(%rsp), %ymm3
	jmp	16f
1:
	movq	256(%r12), %rcx
	vmovaps	.L1_v4_CPI62_0(%rip), %xmm0
	vmovaps	%xmm0, 272(%rsp)
	vmovups	544(%rsp), %ymm0
	vmovups	576(%rsp), %ymm1
	vmovups	608(%rsp), %ymm2
	vmovups	640(%rsp), %ymm3
	vmovups	%ymm0, 16(%rsp)
	vmovups	%ymm1, 48(%rsp)
	vmovups	%ymm2, 80(%rsp)
	vmovups	%ymm3, 112(%rsp)
	vmovups	672(%rsp), %ymm0
	vmovups	%ymm0, 144(%rsp)
	vmovups	704(%rsp), %ymm0
	vmovups	%ymm0, 176(%rsp)
	movq	8(%rsp), %rsi
	addq	%r15, %rsi
	vmovups	736(%rsp), %ymm0
	vmovups	%ymm0, 208(%rsp)
	addq	$64, %rcx
	vmovups	768(%rsp), %ymm0
	vmovups	%ymm0, 240(%rsp)
	leaq	16(%rsp), %rdi
	leaq	272(%rsp), %r8
	movq	%rbx, %rdx
	vzeroupper
	callq	blake2_parallel..lanes..blake2sp..compress_short_1_v4
	vmovups	240(%rsp), %ymm0
	vmovups	%ymm0, 768(%rsp)
	vmovups	208(%rsp), %ymm0
	vmovups	%ymm0, 736(%rsp)
	vmovups	176(%rsp), %ymm0
	vmovups	%ymm0, 704(%rsp)
	vmovups	144(%rsp), %ymm0
	vmovups	%ymm0, 672(%rsp)
	vmovups	16(%rsp), %ymm0
	vmovups	48(%rsp), %ymm1
	vmovups	80(%rsp), %ymm2
	vmovups	112(%rsp), %ymm3
	vmovups	%ymm3, 640(%rsp)
	vmovups	%ymm2, 608(%rsp)
	vmovups	%ymm1, 576(%rsp)
	vmovups	%ymm0, 544(%rsp)
	leaq	288(%rsp), %rdi
	leaq	544(%rsp), %rsi
	vzeroupper
	callq	blake2_parallel..lanes..blake2sp..outputs_of_1_v4
	vmovups	512(%rsp), %ymm0
	vmovups	%ymm0, 1504(%rsp)
	vmovups	480(%rsp), %ymm0
	vmovups	%ymm0, 1472(%rsp)
	vmovups	448(%rsp), %ymm0
	vmovups	%ymm0, 1440(%rsp)
	vmovups	416(%rsp), %ymm0
	vmovups	%ymm0, 1408(%rsp)
	vmovups	288(%rsp), %ymm0
	vmovups	320(%rsp), %ymm1
	vmovups	352(%rsp), %ymm2
	vmovups	384(%rsp), %ymm3
	vmovups	%ymm3, 1376(%rsp)
	vmovups	%ymm2, 1344(%rsp)
	vmovups	%ymm1, 1312(%rsp)
	vmovups	%ymm0, 1280(%rsp)
	vmovups	%ymm0, 992(%rsp)
	cmpq	$65, %rbx
	jb	2f
	vmovups	320(%rsp), %ymm0
	jmp	3f
2:
	vmovups	1600(%rsp), %ymm0
3:
	vmovups	%ymm0, 16(%rsp)
	vmovups	16(%rsp), %ymm0
	vmovups	%ymm0, 960(%rsp)
	cmpq	$129, %rbx
	jb	4f
	vmovups	352(%rsp), %ymm0
	jmp	5f
4:
	vmovups	1632(%rsp), %ymm0
5:
	vmovups	%ymm0, 16(%rsp)
	vmovups	16(%rsp), %ymm0
	vmovups	%ymm0, 928(%rsp)
	cmpq	$193, %rbx
	jb	6f
	vmovups	384(%rsp), %ymm0
	jmp	7f
6:
	vmovups	1664(%rsp), %ymm0
7:
	vmovups	%ymm0, 16(%rsp)
	vmovups	16(%rsp), %ymm0
	vmovups	%ymm0, 896(%rsp)
	cmpq	$257, %rbx
	jb	8f
	vmovups	1408(%rsp), %ymm0
	jmp	9f
8:
	vmovups	1696(%rsp), %ymm0
9:
	vmovups	%ymm0, 16(%rsp)
	vmovups	16(%rsp), %ymm0
	vmovups	%ymm0, 864(%rsp)
	cmpq	$321, %rbx
	jb	10f
	vmovups	1440(%rsp), %ymm0
	jmp	11f
10:
	vmovups	1728(%rsp), %ymm0
11:
	vmovups	%ymm0, 16(%rsp)
	vmovups	16(%rsp), %ymm0
	vmovups	%ymm0, 832(%rsp)
	cmpq	$385, %rbx
	jb	12f
	vmovups	1472(%rsp), %ymm0
	jmp	13f
12:
	vmovups	1760(%rsp), %ymm0
13:
	vmovups	%ymm0, 16(%rsp)
	vmovups	16(%rsp), %ymm0
	vmovups	%ymm0, 800(%rsp)
	cmpq	$449, %rbx
	jb	14f
	vmovups	1504(%rsp), %ymm0
	jmp	15f
14:
	vmovups	1792(%rsp), %ymm0
15:
	vmovups	%ymm0, 16(%rsp)
	vmovups	16(%rsp), %ymm0
	vmovups	%ymm0, 1536(%rsp)
	vmovups	992(%rsp), %ymm1
	vmovups	%ymm1, 1024(%rsp)
	vmovups	960(%rsp), %ymm1
	vmovups	%ymm1, 1056(%rsp)
	vmovups	928(%rsp), %ymm1
	vmovups	%ymm1, 1088(%rsp)
	vmovups	896(%rsp), %ymm1
	vmovups	%ymm1, 1120(%rsp)
	vmovups	864(%rsp), %ymm1
	vmovups	%ymm1, 1152(%rsp)
	vmovups	832(%rsp), %ymm1
	vmovups	%ymm1, 1184(%rsp)
	vmovups	800(%rsp), %ymm1
	vmovups	%ymm1, 1216(%rsp)
	vmovups	%ymm0, 1248(%rsp)
	vmovups	%ymm0, 224(%r13)
	vmovups	1216(%rsp), %ymm0
	vmovups	%ymm0, 192(%r13)
	vmovups	1184(%rsp), %ymm0
	vmovups	%ymm0, 160(%r13)
	vmovups	1152(%rsp), %ymm0
	vmovups	%ymm0, 128(%r13)
	vmovups	1024(%rsp), %ymm0
	vmovups	1056(%rsp), %ymm1
	vmovups	1088(%rsp), %ymm2
	vmovups	1120(%rsp), %ymm3
16:
	vmovups	%ymm3, 96(%r13)
	vmovups	%ymm2, 64(%r13)
	vmovups	%ymm1, 32(%r13)
	vmovups	%ymm0, (%r13)
	addq	$1832, %rsp
	popq	%rbx
	popq	%r12
	popq	%r13
	popq	%r14
	popq	%r15
	popq	%rbp
	vzeroupper
	retq
	vj_end	blake2_parallel..lanes..blake2sp..Lanes..outputs_1_v4

	vj_constants	32
	.p2align	5, 0x0
.L1_v4_CPI63_0:
	.quad	64
	.quad	128
	.quad	192
	.quad	256
.L1_v4_CPI63_1:
	.quad	256
	.quad	320
	.quad	384
	.quad	448
	vj_constants	16
	.p2align	4, 0x0
.L1_v4_CPI63_2:
	.quad	128
	.quad	192
	vj_constants	8
	.p2align	3, 0x0
.L1_v4_CPI63_3:
	.quad	64
	vj_function	blake2_parallel..lanes..blake2sp..compress_short_1_v4
	pushq	%rbp
	pushq	%r15
	pushq	%r14
	pushq	%r13
	pushq	%r12
	pushq	%rbx
	subq	$1608, %rsp
	movq	%r8, %rbx
	movq	%rcx, %r14
	cmpq	$512, %rdx
	jne	1f
	vpbroadcastq	%rsi, %ymm0
	vpaddq	.L1_v4_CPI63_0(%rip), %ymm0, %ymm0
	leaq	320(%rsi), %rax
	leaq	384(%rsi), %rcx
	movq	%rsi, 64(%rsp)
	addq	$448, %rsi
	vmovdqu	%ymm0, 72(%rsp)
	movq	%rax, 104(%rsp)
	movq	%rcx, 112(%rsp)
	movq	%rsi, 120(%rsp)
	addq	$64, %r14
	vpbroadcastq	%r14, %ymm0
	vmovdqu	%ymm0, (%rsp)
	vmovdqu	%ymm0, 32(%rsp)
	leaq	64(%rsp), %rsi
	movq	%rsp, %rdx
	jmp	2f
1:
	vxorps	%xmm0, %xmm0, %xmm0
	vmovups	%ymm0, 544(%rsp)
	vmovups	%ymm0, 512(%rsp)
	vmovups	%ymm0, 480(%rsp)
	vmovups	%ymm0, 448(%rsp)
	vmovups	%ymm0, 416(%rsp)
	vmovups	%ymm0, 384(%rsp)
	vmovups	%ymm0, 352(%rsp)
	vmovups	%ymm0, 320(%rsp)
	vmovups	%ymm0, 288(%rsp)
	vmovups	%ymm0, 256(%rsp)
	vmovups	%ymm0, 224(%rsp)
	vmovups	%ymm0, 192(%rsp)
	vmovups	%ymm0, 160(%rsp)
	vmovups	%ymm0, 128(%rsp)
	vmovups	%ymm0, 96(%rsp)
	vmovups	%ymm0, 64(%rsp)
	leaq	64(%rsp), %r13
	movq	%rdi, %r15
	movq	%r13, %rdi
	movq	%rdx, %r12
	vzeroupper
	vj_c_call	memcpy
	leaq	1096(%rsp), %rbp
	movl	$512, %edx
	movq	%rbp, %rdi
	movq	%r13, %rsi
	vj_c_call	memcpy
	leaq	584(%rsp), %r13
	movl	$512, %edx
	movq	%r13, %rdi
	movq	%rbp, %rsi
	vj_c_call	memcpy
	vpbroadcastq	%r13, %ymm0
	vpaddq	.L1_v4_CPI63_0(%rip), %ymm0, %ymm0
	leaq	904(%rsp), %rax
	leaq	968(%rsp), %rcx
	leaq	1032(%rsp), %rdx
	movq	%r13, 64(%rsp)
	vmovdqu	%ymm0, 72(%rsp)
	movq	%rax, 104(%rsp)
	movq	%rcx, 112(%rsp)
	movq	%rdx, 120(%rsp)
	xorl	%eax, %eax
	vpbroadcastq	%r12, %ymm0
	subq	$64, %r12
	cmovaeq	%r12, %rax
	vmovdqa	.L1_v4_CPI63_1(%rip), %ymm1
	vpmaxuq	%ymm1, %ymm0, %ymm2
	vpinsrq	$1, %rax, %xmm0, %xmm3
	vpsubq	%ymm1, %ymm2, %ymm1
	vmovdqa	.L1_v4_CPI63_2(%rip), %xmm2
	vpmaxuq	%xmm2, %xmm0, %xmm0
	vpsubq	%xmm2, %xmm0, %xmm0
	vinserti128	$1, %xmm0, %ymm3, %ymm0
	vpbroadcastq	.L1_v4_CPI63_3(%rip), %ymm2
	vpminuq	%ymm2, %ymm0, %ymm0
	vpbroadcastq	%r14, %ymm3
	vpaddq	%ymm0, %ymm3, %ymm0
	vmovdqu	%ymm0, (%rsp)
	vpminuq	%ymm2, %ymm1, %ymm0
	vpaddq	%ymm3, %ymm0, %ymm0
	vmovdqu	%ymm0, 32(%rsp)
	leaq	64(%rsp), %rsi
	movq	%rsp, %rdx
	movq	%r15, %rdi
2:
	movq	%rbx, %rcx
	vzeroupper
	callq	blake2_compress..many..blake2s..compress_each_1_v4
	addq	$1608, %rsp
	popq	%rbx
	popq	%r12
	popq	%r13
	popq	%r14
	popq	%r15
	popq	%rbp
	retq
	vj_end	blake2_parallel..lanes..blake2sp..compress_short_1_v4

	vj_constants	4
	.p2align	2, 0x0
.L1_v4_CPI64_0:
	.long	528734635
.L1_v4_CPI64_1:
	.long	3766232660
.L1_v4_CPI64_2:
	.long	1541459225
.L1_v4_CPI64_3:
	.long	2753508070
.L1_v4_CPI64_4:
	.long	1359893119
.L1_v4_CPI64_5:
	.long	1779033703
.L1_v4_CPI64_6:
	.long	2600822924
.L1_v4_CPI64_7:
	.long	3144134277
.L1_v4_CPI64_8:
	.long	1013904242
.L1_v4_CPI64_9:
	.long	2773480762
	vj_function	blake2_compress..many..blake2s..compress_each_1_v4
	pushq	%rbp
	pushq	%r14
	pushq	%rbx
	subq	$736, %rsp
	movq	(%rsi), %rax
	movq	8(%rsi), %r8
	movq	16(%rsi), %r9
	movq	24(%rsi), %r10
	movq	32(%rsi), %r11
	movq	40(%rsi), %rbx
	movq	48(%rsi), %r14
	movq	56(%rsi), %rsi
	vmovdqu	(%rax), %ymm0
	vmovdqu	32(%rax), %ymm1
	vmovdqu	(%r8), %ymm2
	vmovdqu	32(%r8), %ymm3
	vpunpckldq	%ymm2, %ymm0, %ymm4
	vpunpckhdq	%ymm2, %ymm0, %ymm0
	vmovdqu	(%r9), %ymm2
	vmovdqu	32(%r9), %ymm5
	vmovdqu	(%r10), %ymm6
	vmovdqu	32(%r10), %ymm10
	vpunpckldq	%ymm6, %ymm2, %ymm7
	vpunpckhdq	%ymm6, %ymm2, %ymm2
	vpunpcklqdq	%ymm7, %ymm4, %ymm6
	vpunpckhqdq	%ymm7, %ymm4, %ymm4
	vpunpcklqdq	%ymm2, %ymm0, %ymm9
	vpunpckhqdq	%ymm2, %ymm0, %ymm0
	vmovdqu	(%r11), %ymm2
	vmovdqu	32(%r11), %ymm11
	vmovdqu	(%rbx), %ymm7
	vmovdqu	32(%rbx), %ymm14
	vpunpckldq	%ymm7, %ymm2, %ymm8
	vpunpckhdq	%ymm7, %ymm2, %ymm2
	vmovdqu	(%r14), %ymm7
	vmovdqu64	32(%r14), %ymm16
	vmovdqu	(%rsi), %ymm12
	vmovdqu64	32(%rsi), %ymm18
	vpunpckldq	%ymm12, %ymm7, %ymm13
	vpunpckhdq	%ymm12, %ymm7, %ymm7
	vpunpcklqdq	%ymm13, %ymm8, %ymm12
	vpunpckhqdq	%ymm13, %ymm8, %ymm19
	vpunpcklqdq	%ymm7, %ymm2, %ymm20
	vpunpckhqdq	%ymm7, %ymm2, %ymm2
	vinserti32x4	$1, %xmm12, %ymm6, %ymm25
	vmovdqu64	%ymm25, 224(%rsp)
	vinserti32x4	$1, %xmm19, %ymm4, %ymm21
	vinserti32x4	$1, %xmm20, %ymm9, %ymm15
	vinserti32x4	$1, %xmm2, %ymm0, %ymm23
	vmovdqu64	%ymm23, 128(%rsp)
	vperm2i128	$49, %ymm12, %ymm6, %ymm12
	vshufi64x2	$3, %ymm19, %ymm4, %ymm8
	vshufi64x2	$3, %ymm20, %ymm9, %ymm20
	vshufi64x2	$3, %ymm2, %ymm0, %ymm29
	vpunpckldq	%ymm3, %ymm1, %ymm0
	vpunpckhdq	%ymm3, %ymm1, %ymm1
	vpunpckldq	%ymm10, %ymm5, %ymm2
	vpunpckhdq	%ymm10, %ymm5, %ymm3
	vpunpcklqdq	%ymm2, %ymm0, %ymm4
	vpunpckhqdq	%ymm2, %ymm0, %ymm2
	vpunpcklqdq	%ymm3, %ymm1, %ymm5
	vpunpckhqdq	%ymm3, %ymm1, %ymm10
	vpunpckldq	%ymm14, %ymm11, %ymm0
	vpunpckhdq	%ymm14, %ymm11, %ymm1
	vpunpckldq	%ymm18, %ymm16, %ymm3
	vpunpckhdq	%ymm18, %ymm16, %ymm6
	vpunpcklqdq	%ymm3, %ymm0, %ymm11
	vpunpckhqdq	%ymm3, %ymm0, %ymm3
	vpunpcklqdq	%ymm6, %ymm1, %ymm14
	vpunpckhqdq	%ymm6, %ymm1, %ymm0
	vinserti128	$1, %xmm11, %ymm4, %ymm13
	vinserti32x4	$1, %xmm3, %ymm2, %ymm19
	vinserti32x4	$1, %xmm14, %ymm5, %ymm18
	vinserti128	$1, %xmm0, %ymm10, %ymm9
	vperm2i128	$49, %ymm11, %ymm4, %ymm1
	vmovdqu	%ymm1, 256(%rsp)
	vperm2i128	$49, %ymm3, %ymm2, %ymm1
	vmovdqu	%ymm1, 64(%rsp)
	movw	$21845, %ax
	kmovd	%eax, %k1
	vmovdqu8	(%rcx), %xmm1 {%k1} {z}
	vpextrb	$14, %xmm1, %eax
	vpextrb	$12, %xmm1, %esi
	vpextrb	$10, %xmm1, %r8d
	vpextrb	$8, %xmm1, %r9d
	vpextrb	$6, %xmm1, %r10d
	vperm2i128	$49, %ymm14, %ymm5, %ymm14
	vpextrb	$4, %xmm1, %r11d
	vmovd	%xmm1, %ebx
	vpextrb	$2, %xmm1, %ebp
	kmovd	%ebp, %k0
	kshiftlb	$7, %k0, %k0
	kshiftrb	$6, %k0, %k0
	kmovd	%ebx, %k2
	kshiftlb	$7, %k2, %k2
	kshiftrb	$7, %k2, %k2
	korb	%k0, %k2, %k2
	movb	$-5, %bl
	kmovd	%ebx, %k0
	kandb	%k0, %k2, %k2
	kmovd	%r11d, %k3
	kshiftlb	$7, %k3, %k3
	kshiftrb	$5, %k3, %k3
	korb	%k3, %k2, %k3
	movb	$-9, %r11b
	kmovd	%r11d, %k2
	kandb	%k2, %k3, %k3
	kmovd	%r10d, %k4
	kshiftlb	$7, %k4, %k4
	kshiftrb	$4, %k4, %k4
	korb	%k4, %k3, %k4
	movb	$-17, %r10b
	kmovd	%r10d, %k3
	kandb	%k3, %k4, %k4
	kmovd	%r9d, %k5
	kshiftlb	$7, %k5, %k5
	kshiftrb	$3, %k5, %k5
	korb	%k5, %k4, %k5
	movb	$-33, %r9b
	kmovd	%r9d, %k4
	kandb	%k4, %k5, %k5
	kmovd	%r8d, %k6
	kshiftlb	$7, %k6, %k6
	kshiftrb	$2, %k6, %k6
	korb	%k6, %k5, %k6
	movb	$-65, %r8b
	kmovd	%r8d, %k5
	kandb	%k5, %k6, %k6
	kmovd	%esi, %k7
	kshiftlb	$6, %k7, %k7
	korb	%k7, %k6, %k6
	kshiftlb	$1, %k6, %k6
	kshiftrb	$1, %k6, %k6
	kmovd	%eax, %k7
	kshiftlb	$7, %k7, %k7
	vpbroadcastd	.L1_v4_CPI64_0(%rip), %ymm24
	korb	%k7, %k6, %k6
	vpbroadcastd	.L1_v4_CPI64_1(%rip), %ymm24 {%k6}
	vmovdqu8	1(%rcx), %xmm1 {%k1} {z}
	vpextrb	$14, %xmm1, %eax
	vpextrb	$12, %xmm1, %ecx
	vpextrb	$10, %xmm1, %esi
	vpextrb	$8, %xmm1, %r8d
	vpextrb	$6, %xmm1, %r9d
	vpextrb	$4, %xmm1, %r10d
	vshufi64x2	$3, %ymm0, %ymm10, %ymm17
	vmovd	%xmm1, %r11d
	vpextrb	$2, %xmm1, %ebx
	kmovd	%ebx, %k1
	kshiftlb	$7, %k1, %k1
	kshiftrb	$6, %k1, %k1
	kmovd	%r11d, %k6
	kshiftlb	$7, %k6, %k6
	kshiftrb	$7, %k6, %k6
	korb	%k1, %k6, %k1
	kandb	%k0, %k1, %k0
	kmovd	%r10d, %k1
	kshiftlb	$7, %k1, %k1
	kshiftrb	$5, %k1, %k1
	korb	%k1, %k0, %k0
	kandb	%k2, %k0, %k0
	kmovd	%r9d, %k1
	kshiftlb	$7, %k1, %k1
	kshiftrb	$4, %k1, %k1
	korb	%k1, %k0, %k0
	kandb	%k3, %k0, %k0
	kmovd	%r8d, %k1
	kshiftlb	$7, %k1, %k1
	kshiftrb	$3, %k1, %k1
	korb	%k1, %k0, %k0
	kandb	%k4, %k0, %k0
	kmovd	%esi, %k1
	kshiftlb	$7, %k1, %k1
	kshiftrb	$2, %k1, %k1
	korb	%k1, %k0, %k0
	kandb	%k5, %k0, %k0
	kmovd	%ecx, %k1
	kshiftlb	$6, %k1, %k1
	korb	%k1, %k0, %k0
	kshiftlb	$1, %k0, %k0
	kshiftrb	$1, %k0, %k0
	kmovd	%eax, %k1
	kshiftlb	$7, %k1, %k1
	korb	%k1, %k0, %k1
	vpbroadcastd	.L1_v4_CPI64_2(%rip), %ymm1
	vpbroadcastd	.L1_v4_CPI64_3(%rip), %ymm1 {%k1}
	vmovdqu	(%rdx), %ymm0
	vmovdqu	32(%rdx), %ymm2
	vpsrlq	$32, %ymm2, %ymm3
	vpsrlq	$32, %ymm0, %ymm4
	vpmovqd	%ymm4, %xmm4
	vpmovqd	%ymm3, %xmm3
	vinserti32x4	$1, %xmm3, %ymm4, %ymm22
	vpmovqd	%ymm0, %xmm0
	vpmovqd	%ymm2, %xmm2
	vinserti128	$1, %xmm2, %ymm0, %ymm0
	vmovdqu	(%rdi), %ymm2
	vmovdqu	%ymm2, 608(%rsp)
	vmovdqu	32(%rdi), %ymm7
	vmovdqu	%ymm7, 672(%rsp)
	vmovdqu	96(%rdi), %ymm10
	vmovdqu	%ymm10, 576(%rsp)
	vmovdqu	128(%rdi), %ymm4
	vmovdqu	%ymm4, 704(%rsp)
	vmovdqu	160(%rdi), %ymm6
	vmovdqu	224(%rdi), %ymm5
	vpaddd	%ymm4, %ymm2, %ymm2
	vpaddd	%ymm25, %ymm2, %ymm2
	vpternlogd	$150, .L1_v4_CPI64_4(%rip){1to8}, %ymm2, %ymm0
	vprold	$16, %ymm0, %ymm0
	vpaddd	.L1_v4_CPI64_5(%rip){1to8}, %ymm0, %ymm3
	vpxor	%ymm4, %ymm3, %ymm4
	vprold	$20, %ymm4, %ymm4
	vpaddd	%ymm21, %ymm2, %ymm2
	vpaddd	%ymm4, %ymm2, %ymm28
	vpxord	%ymm0, %ymm28, %ymm0
	vprold	$24, %ymm0, %ymm27
	vpaddd	%ymm27, %ymm3, %ymm26
	vpxord	%ymm4, %ymm26, %ymm0
	vprold	$25, %ymm0, %ymm25
	vpaddd	%ymm6, %ymm7, %ymm0
	vmovdqa	%ymm6, %ymm7
	vmovdqu	%ymm6, 544(%rsp)
	vpaddd	%ymm0, %ymm15, %ymm0
	vpternlogd	$150, .L1_v4_CPI64_6(%rip){1to8}, %ymm0, %ymm22
	vmovdqu	%ymm5, 640(%rsp)
	vpaddd	%ymm5, %ymm10, %ymm2
	vpaddd	%ymm20, %ymm2, %ymm3
	vpxor	%ymm1, %ymm3, %ymm1
	vprold	$16, %ymm1, %ymm4
	vpaddd	.L1_v4_CPI64_9(%rip){1to8}, %ymm4, %ymm6
	vpxor	%ymm5, %ymm6, %ymm2
	vprold	$20, %ymm2, %ymm2
	vpaddd	%ymm29, %ymm3, %ymm3
	vmovdqa64	%ymm29, %ymm16
	vpaddd	%ymm2, %ymm3, %ymm5
	vpxor	%ymm4, %ymm5, %ymm3
	vmovdqu	%ymm14, 288(%rsp)
	vpaddd	%ymm25, %ymm14, %ymm4
	vpaddd	%ymm4, %ymm5, %ymm29
	vprold	$16, %ymm22, %ymm4
	vpaddd	.L1_v4_CPI64_7(%rip){1to8}, %ymm4, %ymm5
	vpxord	%ymm7, %ymm5, %ymm22
	vprold	$20, %ymm22, %ymm22
	vpaddd	%ymm23, %ymm0, %ymm0
	vpaddd	%ymm22, %ymm0, %ymm30
	vpxord	%ymm4, %ymm30, %ymm0
	vprold	$24, %ymm0, %ymm4
	vpaddd	%ymm4, %ymm5, %ymm7
	vpxord	%ymm22, %ymm7, %ymm5
	vmovdqu	64(%rdi), %ymm0
	vmovdqu	%ymm0, 480(%rsp)
	vmovdqu	192(%rdi), %ymm1
	vmovdqu	%ymm1, 512(%rsp)
	vpaddd	%ymm1, %ymm0, %ymm31
	vmovdqu	%ymm12, (%rsp)
	vpaddd	%ymm12, %ymm31, %ymm31
	vpxord	%ymm24, %ymm31, %ymm24
	vprold	$16, %ymm24, %ymm24
	vpaddd	.L1_v4_CPI64_8(%rip){1to8}, %ymm24, %ymm0
	vprold	$25, %ymm5, %ymm5
	vpxor	%ymm1, %ymm0, %ymm10
	vprold	$20, %ymm10, %ymm10
	vmovdqa64	%ymm8, %ymm22
	vpaddd	%ymm8, %ymm31, %ymm31
	vpaddd	%ymm10, %ymm31, %ymm31
	vpxord	%ymm24, %ymm31, %ymm24
	vprold	$24, %ymm24, %ymm24
	vpaddd	%ymm24, %ymm0, %ymm0
	vpxor	%ymm0, %ymm10, %ymm10
	vprold	$25, %ymm10, %ymm10
	vprold	$24, %ymm3, %ymm3
	vpaddd	%ymm3, %ymm6, %ymm6
	vpxor	%ymm2, %ymm6, %ymm2
	vprold	$25, %ymm2, %ymm2
	vpaddd	%ymm13, %ymm28, %ymm28
	vpaddd	%ymm5, %ymm28, %ymm28
	vpxord	%ymm3, %ymm28, %ymm3
	vprold	$16, %ymm3, %ymm3
	vpaddd	%ymm0, %ymm3, %ymm0
	vpxor	%ymm5, %ymm0, %ymm5
	vprold	$20, %ymm5, %ymm5
	vmovdqu64	%ymm19, 32(%rsp)
	vpaddd	%ymm19, %ymm28, %ymm28
	vpaddd	%ymm5, %ymm28, %ymm1
	vpxor	%ymm3, %ymm1, %ymm3
	vprold	$24, %ymm3, %ymm28
	vpaddd	%ymm28, %ymm0, %ymm3
	vpxor	%ymm5, %ymm3, %ymm0
	vprold	$25, %ymm0, %ymm5
	vmovdqa64	%ymm18, %ymm23
	vpaddd	%ymm18, %ymm30, %ymm0
	vpaddd	%ymm0, %ymm10, %ymm0
	vpxord	%ymm27, %ymm0, %ymm27
	vprold	$16, %ymm27, %ymm27
	vpaddd	%ymm6, %ymm27, %ymm6
	vpxor	%ymm6, %ymm10, %ymm10
	vprold	$20, %ymm10, %ymm10
	vmovdqa	%ymm9, %ymm11
	vpaddd	%ymm0, %ymm9, %ymm0
	vpaddd	%ymm10, %ymm0, %ymm30
	vpxord	%ymm27, %ymm30, %ymm0
	vprold	$24, %ymm0, %ymm0
	vpaddd	%ymm0, %ymm6, %ymm27
	vpxord	%ymm10, %ymm27, %ymm6
	vprold	$25, %ymm6, %ymm6
	vmovdqu	256(%rsp), %ymm9
	vpaddd	%ymm9, %ymm31, %ymm10
	vpaddd	%ymm2, %ymm10, %ymm10
	vpxor	%ymm4, %ymm10, %ymm4
	vprold	$16, %ymm4, %ymm4
	vpaddd	%ymm26, %ymm4, %ymm26
	vpxord	%ymm2, %ymm26, %ymm2
	vprold	$20, %ymm2, %ymm2
	vmovdqu64	64(%rsp), %ymm18
	vpaddd	%ymm18, %ymm10, %ymm10
	vpaddd	%ymm2, %ymm10, %ymm10
	vpxor	%ymm4, %ymm10, %ymm4
	vprold	$24, %ymm4, %ymm4
	vpaddd	%ymm4, %ymm26, %ymm26
	vpxord	%ymm2, %ymm26, %ymm2
	vprold	$25, %ymm2, %ymm31
	vpxord	%ymm24, %ymm29, %ymm2
	vprold	$16, %ymm2, %ymm2
	vpaddd	%ymm7, %ymm2, %ymm7
	vpxord	%ymm25, %ymm7, %ymm24
	vprold	$20, %ymm24, %ymm24
	vpaddd	%ymm17, %ymm29, %ymm25
	vpaddd	%ymm24, %ymm25, %ymm25
	vpxord	%ymm2, %ymm25, %ymm2
	vprold	$24, %ymm2, %ymm29
	vpaddd	%ymm29, %ymm7, %ymm7
	vpxord	%ymm24, %ymm7, %ymm2
	vprold	$25, %ymm2, %ymm2
	vpaddd	%ymm1, %ymm14, %ymm1
	vpaddd	%ymm2, %ymm1, %ymm1
	vpxor	%ymm0, %ymm1, %ymm0
	vprold	$16, %ymm0, %ymm0
	vpaddd	%ymm26, %ymm0, %ymm24
	vpxord	%ymm2, %ymm24, %ymm2
	vprold	$20, %ymm2, %ymm26
	vpaddd	%ymm23, %ymm1, %ymm1
	vpaddd	%ymm26, %ymm1, %ymm1
	vpxor	%ymm0, %ymm1, %ymm0
	vprold	$24, %ymm0, %ymm0
	vpaddd	%ymm0, %ymm24, %ymm2
	vpxord	%ymm26, %ymm2, %ymm8
	vprold	$25, %ymm8, %ymm8
	vpaddd	%ymm12, %ymm30, %ymm24
	vpaddd	%ymm5, %ymm24, %ymm24
	vpxord	%ymm4, %ymm24, %ymm4
	vprold	$16, %ymm4, %ymm4
	vpaddd	%ymm7, %ymm4, %ymm7
	vpxor	%ymm5, %ymm7, %ymm5
	vprold	$20, %ymm5, %ymm5
	vpaddd	%ymm13, %ymm24, %ymm24
	vmovdqu	%ymm13, 416(%rsp)
	vpaddd	%ymm5, %ymm24, %ymm26
	vpxord	%ymm4, %ymm26, %ymm4
	vprold	$24, %ymm4, %ymm4
	vpaddd	%ymm4, %ymm7, %ymm24
	vpxord	%ymm5, %ymm24, %ymm5
	vprold	$25, %ymm5, %ymm5
	vpaddd	%ymm19, %ymm10, %ymm7
	vpaddd	%ymm6, %ymm7, %ymm7
	vpxord	%ymm29, %ymm7, %ymm10
	vprold	$16, %ymm10, %ymm10
	vpaddd	%ymm3, %ymm10, %ymm3
	vpxor	%ymm6, %ymm3, %ymm6
	vprold	$20, %ymm6, %ymm6
	vpaddd	%ymm17, %ymm7, %ymm7
	vmovdqu64	%ymm17, 160(%rsp)
	vpaddd	%ymm6, %ymm7, %ymm7
	vpxor	%ymm7, %ymm10, %ymm10
	vprold	$24, %ymm10, %ymm10
	vpaddd	%ymm3, %ymm10, %ymm3
	vpxor	%ymm6, %ymm3, %ymm6
	vprold	$25, %ymm6, %ymm6
	vpaddd	%ymm18, %ymm25, %ymm25
	vmovdqa64	%ymm18, %ymm14
	vpaddd	%ymm31, %ymm25, %ymm25
	vpxord	%ymm28, %ymm25, %ymm28
	vprold	$16, %ymm28, %ymm28
	vpaddd	%ymm27, %ymm28, %ymm27
	vpxord	%ymm31, %ymm27, %ymm29
	vprold	$20, %ymm29, %ymm29
	vpaddd	%ymm20, %ymm25, %ymm25
	vpaddd	%ymm29, %ymm25, %ymm30
	vpxord	%ymm28, %ymm30, %ymm25
	vprold	$24, %ymm25, %ymm25
	vpaddd	%ymm25, %ymm27, %ymm27
	vpxord	%ymm29, %ymm27, %ymm28
	vprold	$25, %ymm28, %ymm28
	vpaddd	%ymm21, %ymm1, %ymm1
	vpaddd	%ymm5, %ymm1, %ymm1
	vpxord	%ymm25, %ymm1, %ymm25
	vprold	$16, %ymm25, %ymm25
	vpaddd	%ymm3, %ymm25, %ymm3
	vpxor	%ymm5, %ymm3, %ymm5
	vprold	$20, %ymm5, %ymm5
	vpaddd	%ymm1, %ymm9, %ymm1
	vpaddd	%ymm5, %ymm1, %ymm29
	vpxord	%ymm25, %ymm29, %ymm1
	vprold	$24, %ymm1, %ymm1
	vpaddd	%ymm1, %ymm3, %ymm25
	vpxord	%ymm5, %ymm25, %ymm3
	vprold	$25, %ymm3, %ymm3
	vmovdqu64	224(%rsp), %ymm31
	vpaddd	%ymm31, %ymm26, %ymm5
	vpaddd	%ymm6, %ymm5, %ymm5
	vpxor	%ymm0, %ymm5, %ymm0
	vprold	$16, %ymm0, %ymm0
	vpaddd	%ymm27, %ymm0, %ymm26
	vpxord	%ymm6, %ymm26, %ymm6
	vprold	$20, %ymm6, %ymm6
	vpaddd	%ymm5, %ymm15, %ymm5
	vpaddd	%ymm6, %ymm5, %ymm5
	vpxor	%ymm0, %ymm5, %ymm0
	vprold	$24, %ymm0, %ymm0
	vpaddd	%ymm0, %ymm26, %ymm26
	vpxord	%ymm6, %ymm26, %ymm6
	vprold	$25, %ymm6, %ymm6
	vmovdqa64	%ymm11, %ymm19
	vpaddd	%ymm7, %ymm11, %ymm7
	vpaddd	%ymm28, %ymm7, %ymm7
	vpxor	%ymm4, %ymm7, %ymm4
	vprold	$16, %ymm4, %ymm4
	vpaddd	%ymm2, %ymm4, %ymm2
	vpxord	%ymm28, %ymm2, %ymm27
	vprold	$20, %ymm27, %ymm27
	vmovdqa64	%ymm16, %ymm18
	vpaddd	%ymm16, %ymm7, %ymm7
	vpaddd	%ymm27, %ymm7, %ymm7
	vpxor	%ymm4, %ymm7, %ymm4
	vprold	$24, %ymm4, %ymm4
	vpaddd	%ymm4, %ymm2, %ymm2
	vpxord	%ymm27, %ymm2, %ymm27
	vprold	$25, %ymm27, %ymm27
	vpaddd	%ymm22, %ymm30, %ymm28
	vpaddd	%ymm8, %ymm28, %ymm28
	vpxord	%ymm10, %ymm28, %ymm10
	vprold	$16, %ymm10, %ymm10
	vpaddd	%ymm24, %ymm10, %ymm24
	vpxord	%ymm8, %ymm24, %ymm8
	vprold	$20, %ymm8, %ymm8
	vmovdqu	128(%rsp), %ymm11
	vpaddd	%ymm11, %ymm28, %ymm28
	vpaddd	%ymm8, %ymm28, %ymm28
	vpxord	%ymm10, %ymm28, %ymm10
	vprold	$24, %ymm10, %ymm10
	vpaddd	%ymm10, %ymm24, %ymm24
	vpxord	%ymm8, %ymm24, %ymm8
	vprold	$25, %ymm8, %ymm8
	vpaddd	%ymm19, %ymm29, %ymm29
	vpaddd	%ymm8, %ymm29, %ymm29
	vpxord	%ymm0, %ymm29, %ymm0
	vprold	$16, %ymm0, %ymm0
	vpaddd	%ymm2, %ymm0, %ymm2
	vpxor	%ymm2, %ymm8, %ymm8
	vprold	$20, %ymm8, %ymm8
	vpaddd	%ymm13, %ymm29, %ymm29
	vpaddd	%ymm8, %ymm29, %ymm29
	vpxord	%ymm0, %ymm29, %ymm0
	vprold	$24, %ymm0, %ymm30
	vpaddd	%ymm30, %ymm2, %ymm2
	vpxor	%ymm2, %ymm8, %ymm0
	vprold	$25, %ymm0, %ymm0
	vpaddd	%ymm5, %ymm9, %ymm5
	vpaddd	%ymm3, %ymm5, %ymm5
	vpxor	%ymm4, %ymm5, %ymm4
	vprold	$16, %ymm4, %ymm4
	vpaddd	%ymm24, %ymm4, %ymm8
	vpxor	%ymm3, %ymm8, %ymm3
	vprold	$20, %ymm3, %ymm3
	vpaddd	%ymm31, %ymm5, %ymm5
	vpaddd	%ymm3, %ymm5, %ymm5
	vpxor	%ymm4, %ymm5, %ymm4
	vprold	$24, %ymm4, %ymm4
	vpaddd	%ymm4, %ymm8, %ymm24
	vpxord	%ymm3, %ymm24, %ymm3
	vprold	$25, %ymm3, %ymm3
	vpaddd	%ymm22, %ymm7, %ymm7
	vmovdqa64	%ymm22, %ymm31
	vpaddd	%ymm6, %ymm7, %ymm7
	vpxor	%ymm7, %ymm10, %ymm8
	vprold	$16, %ymm8, %ymm8
	vpaddd	%ymm25, %ymm8, %ymm10
	vpxor	%ymm6, %ymm10, %ymm6
	vprold	$20, %ymm6, %ymm6
	vpaddd	%ymm7, %ymm15, %ymm7
	vmovdqa64	%ymm15, %ymm16
	vpaddd	%ymm6, %ymm7, %ymm7
	vpxor	%ymm7, %ymm8, %ymm8
	vprold	$24, %ymm8, %ymm8
	vpaddd	%ymm8, %ymm10, %ymm10
	vpxor	%ymm6, %ymm10, %ymm6
	vprold	$25, %ymm6, %ymm6
	vpaddd	%ymm17, %ymm28, %ymm25
	vpaddd	%ymm27, %ymm25, %ymm25
	vpxord	%ymm1, %ymm25, %ymm1
	vprold	$16, %ymm1, %ymm1
	vpaddd	%ymm26, %ymm1, %ymm26
	vpxord	%ymm27, %ymm26, %ymm27
	vprold	$20, %ymm27, %ymm27
	vmovdqa64	%ymm14, %ymm17
	vpaddd	%ymm14, %ymm25, %ymm25
	vpaddd	%ymm27, %ymm25, %ymm28
	vpxord	%ymm1, %ymm28, %ymm1
	vprold	$24, %ymm1, %ymm1
	vpaddd	%ymm1, %ymm26, %ymm26
	vpxord	%ymm27, %ymm26, %ymm25
	vprold	$25, %ymm25, %ymm27
	vpaddd	%ymm23, %ymm29, %ymm25
	vpaddd	%ymm3, %ymm25, %ymm25
	vpxord	%ymm1, %ymm25, %ymm1
	vprold	$16, %ymm1, %ymm1
	vpaddd	%ymm1, %ymm10, %ymm10
	vpxor	%ymm3, %ymm10, %ymm3
	vprold	$20, %ymm3, %ymm3
	vmovdqu	288(%rsp), %ymm14
	vpaddd	%ymm14, %ymm25, %ymm25
	vpaddd	%ymm3, %ymm25, %ymm29
	vpxord	%ymm1, %ymm29, %ymm1
	vprold	$24, %ymm1, %ymm1
	vpaddd	%ymm1, %ymm10, %ymm25
	vpxord	%ymm3, %ymm25, %ymm3
	vprold	$25, %ymm3, %ymm3
	vpaddd	%ymm5, %ymm11, %ymm5
	vmovdqa	%ymm11, %ymm15
	vpaddd	%ymm6, %ymm5, %ymm5
	vpxord	%ymm30, %ymm5, %ymm10
	vprold	$16, %ymm10, %ymm10
	vpaddd	%ymm26, %ymm10, %ymm26
	vpxord	%ymm6, %ymm26, %ymm6
	vprold	$20, %ymm6, %ymm6
	vmovdqa64	%ymm20, %ymm12
	vpaddd	%ymm20, %ymm5, %ymm5
	vpaddd	%ymm6, %ymm5, %ymm5
	vpxor	%ymm5, %ymm10, %ymm10
	vprold	$24, %ymm10, %ymm10
	vpaddd	%ymm10, %ymm26, %ymm26
	vpxord	%ymm6, %ymm26, %ymm6
	vprold	$25, %ymm6, %ymm6
	vpaddd	%ymm18, %ymm7, %ymm7
	vpaddd	%ymm27, %ymm7, %ymm7
	vpxor	%ymm4, %ymm7, %ymm4
	vprold	$16, %ymm4, %ymm4
	vpaddd	%ymm2, %ymm4, %ymm2
	vpxord	%ymm27, %ymm2, %ymm27
	vprold	$20, %ymm27, %ymm27
	vmovdqa64	%ymm21, %ymm11
	vpaddd	%ymm21, %ymm7, %ymm7
	vpaddd	%ymm27, %ymm7, %ymm7
	vpxor	%ymm4, %ymm7, %ymm4
	vprold	$24, %ymm4, %ymm4
	vpaddd	%ymm4, %ymm2, %ymm2
	vpxord	%ymm27, %ymm2, %ymm27
	vprold	$25, %ymm27, %ymm27
	vmovdqu64	32(%rsp), %ymm22
	vpaddd	%ymm22, %ymm28, %ymm28
	vpaddd	%ymm0, %ymm28, %ymm28
	vpxord	%ymm8, %ymm28, %ymm8
	vprold	$16, %ymm8, %ymm8
	vpaddd	%ymm24, %ymm8, %ymm24
	vpxord	%ymm0, %ymm24, %ymm0
	vprold	$20, %ymm0, %ymm0
	vmovdqu64	(%rsp), %ymm20
	vpaddd	%ymm20, %ymm28, %ymm28
	vpaddd	%ymm0, %ymm28, %ymm28
	vpxord	%ymm8, %ymm28, %ymm8
	vprold	$24, %ymm8, %ymm8
	vpaddd	%ymm8, %ymm24, %ymm24
	vpxord	%ymm0, %ymm24, %ymm0
	vprold	$25, %ymm0, %ymm0
	vpaddd	%ymm18, %ymm29, %ymm29
	vpaddd	%ymm0, %ymm29, %ymm29
	vpxord	%ymm10, %ymm29, %ymm10
	vprold	$16, %ymm10, %ymm10
	vpaddd	%ymm2, %ymm10, %ymm2
	vpxor	%ymm0, %ymm2, %ymm0
	vprold	$20, %ymm0, %ymm0
	vpaddd	%ymm22, %ymm29, %ymm29
	vpaddd	%ymm0, %ymm29, %ymm29
	vpxord	%ymm10, %ymm29, %ymm10
	vprold	$24, %ymm10, %ymm10
	vpaddd	%ymm2, %ymm10, %ymm2
	vpxor	%ymm0, %ymm2, %ymm0
	vprold	$25, %ymm0, %ymm0
	vpaddd	%ymm5, %ymm15, %ymm5
	vpaddd	%ymm3, %ymm5, %ymm5
	vpxor	%ymm4, %ymm5, %ymm4
	vprold	$16, %ymm4, %ymm4
	vpaddd	%ymm24, %ymm4, %ymm24
	vpxord	%ymm3, %ymm24, %ymm3
	vprold	$20, %ymm3, %ymm3
	vpaddd	%ymm21, %ymm5, %ymm5
	vpaddd	%ymm3, %ymm5, %ymm5
	vpxor	%ymm4, %ymm5, %ymm4
	vprold	$24, %ymm4, %ymm4
	vpaddd	%ymm4, %ymm24, %ymm24
	vpxord	%ymm3, %ymm24, %ymm3
	vprold	$25, %ymm3, %ymm3
	vpaddd	%ymm17, %ymm7, %ymm7
	vpaddd	%ymm6, %ymm7, %ymm7
	vpxor	%ymm7, %ymm8, %ymm8
	vprold	$16, %ymm8, %ymm8
	vpaddd	%ymm25, %ymm8, %ymm25
	vpxord	%ymm6, %ymm25, %ymm6
	vprold	$20, %ymm6, %ymm6
	vpaddd	%ymm7, %ymm9, %ymm7
	vmovdqa	%ymm9, %ymm15
	vpaddd	%ymm6, %ymm7, %ymm7
	vpxor	%ymm7, %ymm8, %ymm8
	vprold	$24, %ymm8, %ymm8
	vpaddd	%ymm8, %ymm25, %ymm25
	vpxord	%ymm6, %ymm25, %ymm6
	vprold	$25, %ymm6, %ymm6
	vmovdqa64	%ymm19, %ymm17
	vpaddd	%ymm19, %ymm28, %ymm28
	vpaddd	%ymm27, %ymm28, %ymm28
	vpxord	%ymm1, %ymm28, %ymm1
	vprold	$16, %ymm1, %ymm1
	vpaddd	%ymm26, %ymm1, %ymm26
	vpxord	%ymm27, %ymm26, %ymm27
	vprold	$20, %ymm27, %ymm27
	vpaddd	%ymm14, %ymm28, %ymm28
	vmovdqa64	%ymm14, %ymm30
	vpaddd	%ymm27, %ymm28, %ymm28
	vpxord	%ymm1, %ymm28, %ymm1
	vprold	$24, %ymm1, %ymm1
	vpaddd	%ymm1, %ymm26, %ymm26
	vpxord	%ymm27, %ymm26, %ymm27
	vprold	$25, %ymm27, %ymm27
	vpaddd	%ymm16, %ymm29, %ymm29
	vpaddd	%ymm3, %ymm29, %ymm29
	vpxord	%ymm1, %ymm29, %ymm1
	vprold	$16, %ymm1, %ymm1
	vpaddd	%ymm25, %ymm1, %ymm25
	vpxord	%ymm3, %ymm25, %ymm3
	vprold	$20, %ymm3, %ymm3
	vpaddd	%ymm12, %ymm29, %ymm29
	vmovdqa64	%ymm12, %ymm19
	vpaddd	%ymm3, %ymm29, %ymm29
	vpxord	%ymm1, %ymm29, %ymm1
	vprold	$24, %ymm1, %ymm1
	vpaddd	%ymm1, %ymm25, %ymm25
	vpxord	%ymm3, %ymm25, %ymm3
	vprold	$25, %ymm3, %ymm3
	vmovdqa64	%ymm31, %ymm12
	vmovdqu64	%ymm31, 96(%rsp)
	vpaddd	%ymm31, %ymm5, %ymm5
	vpaddd	%ymm6, %ymm5, %ymm5
	vpxor	%ymm5, %ymm10, %ymm10
	vprold	$16, %ymm10, %ymm10
	vpaddd	%ymm26, %ymm10, %ymm26
	vpxord	%ymm6, %ymm26, %ymm6
	vprold	$20, %ymm6, %ymm6
	vpaddd	%ymm23, %ymm5, %ymm5
	vpaddd	%ymm6, %ymm5, %ymm5
	vpxor	%ymm5, %ymm10, %ymm10
	vprold	$24, %ymm10, %ymm10
	vpaddd	%ymm10, %ymm26, %ymm26
	vpxord	%ymm6, %ymm26, %ymm6
	vprold	$25, %ymm6, %ymm6
	vpaddd	%ymm20, %ymm7, %ymm7
	vpaddd	%ymm27, %ymm7, %ymm7
	vpxor	%ymm4, %ymm7, %ymm4
	vprold	$16, %ymm4, %ymm4
	vpaddd	%ymm2, %ymm4, %ymm2
	vpxord	%ymm27, %ymm2, %ymm27
	vprold	$20, %ymm27, %ymm27
	vmovdqu64	224(%rsp), %ymm31
	vpaddd	%ymm31, %ymm7, %ymm7
	vpaddd	%ymm27, %ymm7, %ymm7
	vpxor	%ymm4, %ymm7, %ymm4
	vprold	$24, %ymm4, %ymm4
	vpaddd	%ymm4, %ymm2, %ymm2
	vpxord	%ymm27, %ymm2, %ymm27
	vprold	$25, %ymm27, %ymm27
	vmovdqu	160(%rsp), %ymm9
	vpaddd	%ymm9, %ymm28, %ymm28
	vpaddd	%ymm0, %ymm28, %ymm28
	vpxord	%ymm8, %ymm28, %ymm8
	vprold	$16, %ymm8, %ymm8
	vpaddd	%ymm24, %ymm8, %ymm24
	vpxord	%ymm0, %ymm24, %ymm0
	vprold	$20, %ymm0, %ymm0
	vmovdqu	416(%rsp), %ymm13
	vpaddd	%ymm13, %ymm28, %ymm28
	vpaddd	%ymm0, %ymm28, %ymm28
	vpxord	%ymm8, %ymm28, %ymm8
	vprold	$24, %ymm8, %ymm8
	vpaddd	%ymm8, %ymm24, %ymm24
	vpxord	%ymm0, %ymm24, %ymm0
	vprold	$25, %ymm0, %ymm0
	vpaddd	%ymm22, %ymm29, %ymm29
	vpaddd	%ymm0, %ymm29, %ymm29
	vpxord	%ymm10, %ymm29, %ymm10
	vprold	$16, %ymm10, %ymm10
	vpaddd	%ymm2, %ymm10, %ymm2
	vpxor	%ymm0, %ymm2, %ymm0
	vprold	$20, %ymm0, %ymm0
	vpaddd	%ymm31, %ymm29, %ymm29
	vpaddd	%ymm0, %ymm29, %ymm29
	vpxord	%ymm10, %ymm29, %ymm10
	vprold	$24, %ymm10, %ymm10
	vpaddd	%ymm2, %ymm10, %ymm2
	vpxor	%ymm0, %ymm2, %ymm0
	vprold	$25, %ymm0, %ymm0
	vpaddd	%ymm5, %ymm12, %ymm5
	vpaddd	%ymm3, %ymm5, %ymm5
	vpxor	%ymm4, %ymm5, %ymm4
	vprold	$16, %ymm4, %ymm4
	vpaddd	%ymm24, %ymm4, %ymm24
	vpxord	%ymm3, %ymm24, %ymm3
	vprold	$20, %ymm3, %ymm3
	vpaddd	%ymm18, %ymm5, %ymm5
	vmovdqa64	%ymm18, %ymm21
	vpaddd	%ymm3, %ymm5, %ymm5
	vpxor	%ymm4, %ymm5, %ymm4
	vprold	$24, %ymm4, %ymm4
	vpaddd	%ymm4, %ymm24, %ymm24
	vpxord	%ymm3, %ymm24, %ymm3
	vprold	$25, %ymm3, %ymm3
	vpaddd	%ymm16, %ymm7, %ymm7
	vmovdqa64	%ymm16, %ymm22
	vmovdqu64	%ymm16, 384(%rsp)
	vpaddd	%ymm6, %ymm7, %ymm7
	vpxor	%ymm7, %ymm8, %ymm8
	vprold	$16, %ymm8, %ymm8
	vpaddd	%ymm25, %ymm8, %ymm25
	vpxord	%ymm6, %ymm25, %ymm6
	vprold	$20, %ymm6, %ymm6
	vpaddd	%ymm20, %ymm7, %ymm7
	vpaddd	%ymm6, %ymm7, %ymm7
	vpxor	%ymm7, %ymm8, %ymm8
	vprold	$24, %ymm8, %ymm8
	vpaddd	%ymm8, %ymm25, %ymm25
	vpxord	%ymm6, %ymm25, %ymm6
	vprold	$25, %ymm6, %ymm6
	vpaddd	%ymm23, %ymm28, %ymm28
	vmovdqa64	%ymm23, %ymm12
	vpaddd	%ymm27, %ymm28, %ymm28
	vpxord	%ymm1, %ymm28, %ymm1
	vprold	$16, %ymm1, %ymm1
	vpaddd	%ymm26, %ymm1, %ymm26
	vpxord	%ymm27, %ymm26, %ymm27
	vprold	$20, %ymm27, %ymm27
	vpaddd	%ymm9, %ymm28, %ymm28
	vmovdqa64	%ymm9, %ymm18
	vpaddd	%ymm27, %ymm28, %ymm28
	vpxord	%ymm1, %ymm28, %ymm1
	vprold	$24, %ymm1, %ymm1
	vpaddd	%ymm1, %ymm26, %ymm26
	vpxord	%ymm27, %ymm26, %ymm27
	vprold	$25, %ymm27, %ymm27
	vpaddd	%ymm14, %ymm29, %ymm29
	vpaddd	%ymm3, %ymm29, %ymm29
	vpxord	%ymm1, %ymm29, %ymm1
	vprold	$16, %ymm1, %ymm1
	vpaddd	%ymm25, %ymm1, %ymm25
	vpxord	%ymm3, %ymm25, %ymm3
	vprold	$20, %ymm3, %ymm3
	vpaddd	%ymm11, %ymm29, %ymm29
	vpaddd	%ymm3, %ymm29, %ymm29
	vpxord	%ymm1, %ymm29, %ymm1
	vprold	$24, %ymm1, %ymm1
	vpaddd	%ymm1, %ymm25, %ymm25
	vpxord	%ymm3, %ymm25, %ymm3
	vprold	$25, %ymm3, %ymm3
	vmovdqu64	%ymm17, 192(%rsp)
	vpaddd	%ymm17, %ymm5, %ymm5
	vpaddd	%ymm6, %ymm5, %ymm5
	vpxor	%ymm5, %ymm10, %ymm10
	vprold	$16, %ymm10, %ymm10
	vpaddd	%ymm26, %ymm10, %ymm26
	vpxord	%ymm6, %ymm26, %ymm6
	vprold	$20, %ymm6, %ymm6
	vpaddd	%ymm5, %ymm15, %ymm5
	vpaddd	%ymm6, %ymm5, %ymm5
	vpxor	%ymm5, %ymm10, %ymm10
	vprold	$24, %ymm10, %ymm10
	vpaddd	%ymm10, %ymm26, %ymm26
	vpxord	%ymm6, %ymm26, %ymm6
	vprold	$25, %ymm6, %ymm6
	vmovdqa64	%ymm19, %ymm16
	vpaddd	%ymm19, %ymm7, %ymm7
	vpaddd	%ymm27, %ymm7, %ymm7
	vpxor	%ymm4, %ymm7, %ymm4
	vprold	$16, %ymm4, %ymm4
	vpaddd	%ymm2, %ymm4, %ymm2
	vpxord	%ymm27, %ymm2, %ymm27
	vprold	$20, %ymm27, %ymm27
	vmovdqa64	%ymm13, %ymm23
	vpaddd	%ymm7, %ymm13, %ymm7
	vpaddd	%ymm27, %ymm7, %ymm7
	vpxor	%ymm4, %ymm7, %ymm4
	vprold	$24, %ymm4, %ymm4
	vpaddd	%ymm4, %ymm2, %ymm2
	vpxord	%ymm27, %ymm2, %ymm27
	vprold	$25, %ymm27, %ymm27
	vmovdqu	128(%rsp), %ymm13
	vpaddd	%ymm13, %ymm28, %ymm28
	vpaddd	%ymm0, %ymm28, %ymm28
	vpxord	%ymm8, %ymm28, %ymm8
	vprold	$16, %ymm8, %ymm8
	vpaddd	%ymm24, %ymm8, %ymm24
	vpxord	%ymm0, %ymm24, %ymm0
	vprold	$20, %ymm0, %ymm0
	vmovdqu	64(%rsp), %ymm9
	vpaddd	%ymm9, %ymm28, %ymm28
	vpaddd	%ymm0, %ymm28, %ymm28
	vpxord	%ymm8, %ymm28, %ymm8
	vprold	$24, %ymm8, %ymm8
	vpaddd	%ymm8, %ymm24, %ymm24
	vpxord	%ymm0, %ymm24, %ymm0
	vprold	$25, %ymm0, %ymm0
	vpaddd	%ymm22, %ymm29, %ymm29
	vpaddd	%ymm0, %ymm29, %ymm29
	vpxord	%ymm10, %ymm29, %ymm10
	vprold	$16, %ymm10, %ymm10
	vpaddd	%ymm2, %ymm10, %ymm2
	vpxor	%ymm0, %ymm2, %ymm0
	vprold	$20, %ymm0, %ymm0
	vpaddd	%ymm15, %ymm29, %ymm29
	vmovdqa64	%ymm15, %ymm19
	vpaddd	%ymm0, %ymm29, %ymm29
	vpxord	%ymm10, %ymm29, %ymm10
	vprold	$24, %ymm10, %ymm10
	vpaddd	%ymm2, %ymm10, %ymm2
	vpxor	%ymm0, %ymm2, %ymm0
	vprold	$25, %ymm0, %ymm0
	vpaddd	%ymm16, %ymm5, %ymm5
	vmovdqa64	%ymm16, %ymm22
	vmovdqu64	%ymm16, 320(%rsp)
	vpaddd	%ymm3, %ymm5, %ymm5
	vpxor	%ymm4, %ymm5, %ymm4
	vprold	$16, %ymm4, %ymm4
	vpaddd	%ymm24, %ymm4, %ymm24
	vpxord	%ymm3, %ymm24, %ymm3
	vprold	$20, %ymm3, %ymm3
	vpaddd	%ymm5, %ymm12, %ymm5
	vmovdqa	%ymm12, %ymm15
	vmovdqu	%ymm12, 352(%rsp)
	vpaddd	%ymm3, %ymm5, %ymm5
	vpxor	%ymm4, %ymm5, %ymm4
	vprold	$24, %ymm4, %ymm4
	vpaddd	%ymm4, %ymm24, %ymm24
	vpxord	%ymm3, %ymm24, %ymm3
	vprold	$25, %ymm3, %ymm3
	vpaddd	%ymm31, %ymm7, %ymm7
	vpaddd	%ymm6, %ymm7, %ymm7
	vpxor	%ymm7, %ymm8, %ymm8
	vprold	$16, %ymm8, %ymm8
	vpaddd	%ymm25, %ymm8, %ymm25
	vpxord	%ymm6, %ymm25, %ymm6
	vprold	$20, %ymm6, %ymm6
	vpaddd	%ymm17, %ymm7, %ymm7
	vpaddd	%ymm6, %ymm7, %ymm7
	vpxor	%ymm7, %ymm8, %ymm8
	vprold	$24, %ymm8, %ymm8
	vpaddd	%ymm8, %ymm25, %ymm25
	vpxord	%ymm6, %ymm25, %ymm6
	vprold	$25, %ymm6, %ymm6
	vpaddd	%ymm23, %ymm28, %ymm28
	vpaddd	%ymm27, %ymm28, %ymm28
	vpxord	%ymm1, %ymm28, %ymm1
	vprold	$16, %ymm1, %ymm1
	vpaddd	%ymm26, %ymm1, %ymm26
	vpxord	%ymm27, %ymm26, %ymm27
	vprold	$20, %ymm27, %ymm27
	vpaddd	%ymm13, %ymm28, %ymm28
	vmovdqa	%ymm13, %ymm12
	vpaddd	%ymm27, %ymm28, %ymm28
	vpxord	%ymm1, %ymm28, %ymm1
	vprold	$24, %ymm1, %ymm1
	vpaddd	%ymm1, %ymm26, %ymm26
	vpxord	%ymm27, %ymm26, %ymm27
	vprold	$25, %ymm27, %ymm27
	vpaddd	%ymm20, %ymm29, %ymm29
	vpaddd	%ymm3, %ymm29, %ymm29
	vpxord	%ymm1, %ymm29, %ymm1
	vprold	$16, %ymm1, %ymm1
	vpaddd	%ymm25, %ymm1, %ymm25
	vpxord	%ymm3, %ymm25, %ymm3
	vprold	$20, %ymm3, %ymm3
	vmovdqa	%ymm9, %ymm13
	vpaddd	%ymm9, %ymm29, %ymm29
	vpaddd	%ymm3, %ymm29, %ymm29
	vpxord	%ymm1, %ymm29, %ymm1
	vprold	$24, %ymm1, %ymm1
	vpaddd	%ymm1, %ymm25, %ymm25
	vpxord	%ymm3, %ymm25, %ymm3
	vprold	$25, %ymm3, %ymm3
	vmovdqa64	%ymm21, %ymm14
	vpaddd	%ymm21, %ymm5, %ymm5
	vpaddd	%ymm6, %ymm5, %ymm5
	vpxor	%ymm5, %ymm10, %ymm10
	vprold	$16, %ymm10, %ymm10
	vpaddd	%ymm26, %ymm10, %ymm26
	vpxord	%ymm6, %ymm26, %ymm6
	vprold	$20, %ymm6, %ymm6
	vmovdqu64	96(%rsp), %ymm16
	vpaddd	%ymm16, %ymm5, %ymm5
	vpaddd	%ymm6, %ymm5, %ymm5
	vpxor	%ymm5, %ymm10, %ymm10
	vprold	$24, %ymm10, %ymm10
	vpaddd	%ymm10, %ymm26, %ymm26
	vpxord	%ymm6, %ymm26, %ymm6
	vprold	$25, %ymm6, %ymm6
	vpaddd	%ymm18, %ymm7, %ymm7
	vpaddd	%ymm27, %ymm7, %ymm7
	vpxor	%ymm4, %ymm7, %ymm4
	vprold	$16, %ymm4, %ymm4
	vpaddd	%ymm2, %ymm4, %ymm2
	vpxord	%ymm27, %ymm2, %ymm27
	vprold	$20, %ymm27, %ymm27
	vpaddd	%ymm30, %ymm7, %ymm7
	vpaddd	%ymm27, %ymm7, %ymm7
	vpxor	%ymm4, %ymm7, %ymm4
	vprold	$24, %ymm4, %ymm4
	vpaddd	%ymm4, %ymm2, %ymm2
	vpxord	%ymm27, %ymm2, %ymm27
	vprold	$25, %ymm27, %ymm27
	vpaddd	%ymm11, %ymm28, %ymm28
	vpaddd	%ymm0, %ymm28, %ymm28
	vpxord	%ymm8, %ymm28, %ymm8
	vprold	$16, %ymm8, %ymm8
	vpaddd	%ymm24, %ymm8, %ymm24
	vpxord	%ymm0, %ymm24, %ymm0
	vprold	$20, %ymm0, %ymm0
	vmovdqu	32(%rsp), %ymm9
	vpaddd	%ymm9, %ymm28, %ymm28
	vpaddd	%ymm0, %ymm28, %ymm28
	vpxord	%ymm8, %ymm28, %ymm8
	vprold	$24, %ymm8, %ymm8
	vpaddd	%ymm8, %ymm24, %ymm24
	vpxord	%ymm0, %ymm24, %ymm0
	vprold	$25, %ymm0, %ymm0
	vpaddd	%ymm19, %ymm29, %ymm29
	vpaddd	%ymm0, %ymm29, %ymm29
	vpxord	%ymm10, %ymm29, %ymm10
	vprold	$16, %ymm10, %ymm10
	vpaddd	%ymm2, %ymm10, %ymm2
	vpxor	%ymm0, %ymm2, %ymm0
	vprold	$20, %ymm0, %ymm0
	vpaddd	%ymm16, %ymm29, %ymm29
	vpaddd	%ymm0, %ymm29, %ymm29
	vpxord	%ymm10, %ymm29, %ymm10
	vprold	$24, %ymm10, %ymm10
	vpaddd	%ymm2, %ymm10, %ymm2
	vpxor	%ymm0, %ymm2, %ymm0
	vprold	$25, %ymm0, %ymm0
	vpaddd	%ymm5, %ymm11, %ymm5
	vmovdqa64	%ymm11, %ymm16
	vmovdqu	%ymm11, 448(%rsp)
	vpaddd	%ymm3, %ymm5, %ymm5
	vpxor	%ymm4, %ymm5, %ymm4
	vprold	$16, %ymm4, %ymm4
	vpaddd	%ymm24, %ymm4, %ymm24
	vpxord	%ymm3, %ymm24, %ymm3
	vprold	$20, %ymm3, %ymm3
	vpaddd	%ymm18, %ymm5, %ymm5
	vmovdqa64	%ymm18, %ymm21
	vpaddd	%ymm3, %ymm5, %ymm5
	vpxor	%ymm4, %ymm5, %ymm4
	vprold	$24, %ymm4, %ymm4
	vpaddd	%ymm4, %ymm24, %ymm24
	vpxord	%ymm3, %ymm24, %ymm3
	vprold	$25, %ymm3, %ymm3
	vpaddd	%ymm30, %ymm7, %ymm7
	vmovdqa64	%ymm30, %ymm11
	vpaddd	%ymm6, %ymm7, %ymm7
	vpxor	%ymm7, %ymm8, %ymm8
	vprold	$16, %ymm8, %ymm8
	vpaddd	%ymm25, %ymm8, %ymm25
	vpxord	%ymm6, %ymm25, %ymm6
	vprold	$20, %ymm6, %ymm6
	vpaddd	%ymm7, %ymm13, %ymm7
	vpaddd	%ymm6, %ymm7, %ymm7
	vpxor	%ymm7, %ymm8, %ymm8
	vprold	$24, %ymm8, %ymm8
	vpaddd	%ymm8, %ymm25, %ymm25
	vpxord	%ymm6, %ymm25, %ymm6
	vprold	$25, %ymm6, %ymm6
	vpaddd	%ymm20, %ymm28, %ymm28
	vpaddd	%ymm27, %ymm28, %ymm28
	vpxord	%ymm1, %ymm28, %ymm1
	vprold	$16, %ymm1, %ymm1
	vpaddd	%ymm26, %ymm1, %ymm26
	vpxord	%ymm27, %ymm26, %ymm27
	vprold	$20, %ymm27, %ymm27
	vpaddd	%ymm15, %ymm28, %ymm28
	vpaddd	%ymm27, %ymm28, %ymm28
	vpxord	%ymm1, %ymm28, %ymm1
	vprold	$24, %ymm1, %ymm1
	vpaddd	%ymm1, %ymm26, %ymm26
	vpxord	%ymm27, %ymm26, %ymm27
	vprold	$25, %ymm27, %ymm27
	vpaddd	%ymm31, %ymm29, %ymm29
	vmovdqa64	%ymm31, %ymm18
	vpaddd	%ymm3, %ymm29, %ymm29
	vpxord	%ymm1, %ymm29, %ymm1
	vprold	$16, %ymm1, %ymm1
	vpaddd	%ymm25, %ymm1, %ymm25
	vpxord	%ymm3, %ymm25, %ymm3
	vprold	$20, %ymm3, %ymm3
	vmovdqa64	%ymm14, %ymm20
	vpaddd	%ymm14, %ymm29, %ymm29
	vpaddd	%ymm3, %ymm29, %ymm29
	vpxord	%ymm1, %ymm29, %ymm1
	vprold	$24, %ymm1, %ymm1
	vpaddd	%ymm1, %ymm25, %ymm25
	vpxord	%ymm3, %ymm25, %ymm3
	vprold	$25, %ymm3, %ymm3
	vpaddd	%ymm22, %ymm5, %ymm5
	vpaddd	%ymm6, %ymm5, %ymm5
	vpxor	%ymm5, %ymm10, %ymm10
	vprold	$16, %ymm10, %ymm10
	vpaddd	%ymm26, %ymm10, %ymm26
	vpxord	%ymm6, %ymm26, %ymm6
	vprold	$20, %ymm6, %ymm6
	vmovdqa	%ymm12, %ymm14
	vpaddd	%ymm5, %ymm12, %ymm5
	vpaddd	%ymm6, %ymm5, %ymm5
	vpxor	%ymm5, %ymm10, %ymm10
	vprold	$24, %ymm10, %ymm10
	vpaddd	%ymm10, %ymm26, %ymm26
	vpxord	%ymm6, %ymm26, %ymm6
	vprold	$25, %ymm6, %ymm6
	vpaddd	%ymm7, %ymm9, %ymm7
	vmovdqa	%ymm9, %ymm15
	vpaddd	%ymm27, %ymm7, %ymm7
	vpxor	%ymm4, %ymm7, %ymm4
	vprold	$16, %ymm4, %ymm4
	vpaddd	%ymm2, %ymm4, %ymm2
	vpxord	%ymm27, %ymm2, %ymm27
	vprold	$20, %ymm27, %ymm27
	vmovdqu64	384(%rsp), %ymm22
	vpaddd	%ymm22, %ymm7, %ymm7
	vpaddd	%ymm27, %ymm7, %ymm7
	vpxor	%ymm4, %ymm7, %ymm4
	vprold	$24, %ymm4, %ymm4
	vpaddd	%ymm4, %ymm2, %ymm2
	vpxord	%ymm27, %ymm2, %ymm27
	vprold	$25, %ymm27, %ymm30
	vpaddd	%ymm23, %ymm28, %ymm27
	vpaddd	%ymm0, %ymm27, %ymm27
	vpxord	%ymm8, %ymm27, %ymm8
	vprold	$16, %ymm8, %ymm8
	vpaddd	%ymm24, %ymm8, %ymm24
	vpxord	%ymm0, %ymm24, %ymm0
	vprold	$20, %ymm0, %ymm0
	vmovdqu64	192(%rsp), %ymm17
	vpaddd	%ymm17, %ymm27, %ymm27
	vpaddd	%ymm0, %ymm27, %ymm28
	vpxord	%ymm8, %ymm28, %ymm8
	vprold	$24, %ymm8, %ymm8
	vpaddd	%ymm8, %ymm24, %ymm27
	vpxord	%ymm0, %ymm27, %ymm0
	vprold	$25, %ymm0, %ymm0
	vpaddd	%ymm13, %ymm29, %ymm24
	vpaddd	%ymm0, %ymm24, %ymm24
	vpxord	%ymm10, %ymm24, %ymm10
	vprold	$16, %ymm10, %ymm10
	vpaddd	%ymm2, %ymm10, %ymm2
	vpxor	%ymm0, %ymm2, %ymm0
	vprold	$20, %ymm0, %ymm0
	vpaddd	%ymm17, %ymm24, %ymm24
	vpaddd	%ymm0, %ymm24, %ymm29
	vpxord	%ymm10, %ymm29, %ymm10
	vprold	$24, %ymm10, %ymm10
	vpaddd	%ymm10, %ymm2, %ymm24
	vpxord	%ymm0, %ymm24, %ymm0
	vprold	$25, %ymm0, %ymm9
	vpaddd	%ymm20, %ymm5, %ymm2
	vpaddd	%ymm3, %ymm2, %ymm2
	vpxor	%ymm4, %ymm2, %ymm4
	vprold	$16, %ymm4, %ymm4
	vpaddd	%ymm27, %ymm4, %ymm5
	vpxor	%ymm3, %ymm5, %ymm3
	vprold	$20, %ymm3, %ymm3
	vpaddd	%ymm2, %ymm11, %ymm2
	vpaddd	%ymm3, %ymm2, %ymm31
	vpxord	%ymm4, %ymm31, %ymm2
	vprold	$24, %ymm2, %ymm4
	vpaddd	%ymm4, %ymm5, %ymm27
	vpxord	%ymm3, %ymm27, %ymm2
	vprold	$25, %ymm2, %ymm2
	vpaddd	%ymm19, %ymm7, %ymm3
	vpaddd	%ymm6, %ymm3, %ymm3
	vpxor	%ymm3, %ymm8, %ymm5
	vprold	$16, %ymm5, %ymm5
	vpaddd	%ymm25, %ymm5, %ymm7
	vpxor	%ymm6, %ymm7, %ymm6
	vprold	$20, %ymm6, %ymm6
	vpaddd	%ymm16, %ymm3, %ymm3
	vpaddd	%ymm6, %ymm3, %ymm3
	vpxor	%ymm5, %ymm3, %ymm5
	vprold	$24, %ymm5, %ymm5
	vpaddd	%ymm5, %ymm7, %ymm7
	vpxor	%ymm6, %ymm7, %ymm6
	vprold	$25, %ymm6, %ymm6
	vpaddd	%ymm12, %ymm28, %ymm8
	vpaddd	%ymm30, %ymm8, %ymm8
	vpxor	%ymm1, %ymm8, %ymm1
	vprold	$16, %ymm1, %ymm1
	vpaddd	%ymm26, %ymm1, %ymm25
	vpxord	%ymm30, %ymm25, %ymm26
	vprold	$20, %ymm26, %ymm26
	vmovdqa	%ymm15, %ymm12
	vpaddd	%ymm15, %ymm8, %ymm8
	vpaddd	%ymm26, %ymm8, %ymm8
	vpxor	%ymm1, %ymm8, %ymm1
	vprold	$24, %ymm1, %ymm1
	vpaddd	%ymm1, %ymm25, %ymm28
	vpxord	%ymm26, %ymm28, %ymm25
	vprold	$25, %ymm25, %ymm26
	vmovdqu	96(%rsp), %ymm15
	vpaddd	%ymm15, %ymm29, %ymm25
	vpaddd	%ymm2, %ymm25, %ymm25
	vpxord	%ymm1, %ymm25, %ymm1
	vprold	$16, %ymm1, %ymm1
	vpaddd	%ymm7, %ymm1, %ymm7
	vpxor	%ymm2, %ymm7, %ymm2
	vprold	$20, %ymm2, %ymm29
	vpaddd	%ymm18, %ymm25, %ymm2
	vpaddd	%ymm29, %ymm2, %ymm0
	vpxor	%ymm1, %ymm0, %ymm1
	vprold	$24, %ymm1, %ymm2
	vpaddd	%ymm2, %ymm7, %ymm25
	vpxord	%ymm29, %ymm25, %ymm1
	vprold	$25, %ymm1, %ymm1
	vpaddd	%ymm21, %ymm31, %ymm7
	vpaddd	%ymm6, %ymm7, %ymm7
	vpxor	%ymm7, %ymm10, %ymm10
	vprold	$16, %ymm10, %ymm10
	vpaddd	%ymm28, %ymm10, %ymm28
	vpxord	%ymm6, %ymm28, %ymm6
	vprold	$20, %ymm6, %ymm6
	vpaddd	(%rsp), %ymm7, %ymm7
	vpaddd	%ymm6, %ymm7, %ymm7
	vpxor	%ymm7, %ymm10, %ymm10
	vprold	$24, %ymm10, %ymm10
	vpaddd	%ymm10, %ymm28, %ymm30
	vpxord	%ymm6, %ymm30, %ymm6
	vprold	$25, %ymm6, %ymm6
	vpaddd	%ymm23, %ymm3, %ymm3
	vpaddd	%ymm26, %ymm3, %ymm3
	vpxor	%ymm4, %ymm3, %ymm4
	vprold	$16, %ymm4, %ymm4
	vpaddd	%ymm24, %ymm4, %ymm24
	vpxord	%ymm26, %ymm24, %ymm26
	vprold	$20, %ymm26, %ymm26
	vmovdqu	320(%rsp), %ymm13
	vpaddd	%ymm3, %ymm13, %ymm3
	vpaddd	%ymm26, %ymm3, %ymm3
	vpxor	%ymm4, %ymm3, %ymm4
	vprold	$24, %ymm4, %ymm4
	vpaddd	%ymm4, %ymm24, %ymm24
	vpxord	%ymm26, %ymm24, %ymm26
	vprold	$25, %ymm26, %ymm31
	vpaddd	%ymm22, %ymm8, %ymm8
	vpaddd	%ymm9, %ymm8, %ymm8
	vpxor	%ymm5, %ymm8, %ymm5
	vprold	$16, %ymm5, %ymm5
	vpaddd	%ymm27, %ymm5, %ymm26
	vpxord	%ymm9, %ymm26, %ymm9
	vprold	$20, %ymm9, %ymm9
	vmovdqu64	352(%rsp), %ymm16
	vpaddd	%ymm16, %ymm8, %ymm8
	vpaddd	%ymm9, %ymm8, %ymm8
	vpxor	%ymm5, %ymm8, %ymm5
	vprold	$24, %ymm5, %ymm5
	vpaddd	%ymm5, %ymm26, %ymm28
	vpxord	%ymm9, %ymm28, %ymm9
	vprold	$25, %ymm9, %ymm9
	vpaddd	%ymm0, %ymm13, %ymm0
	vpaddd	%ymm0, %ymm9, %ymm0
	vpxor	%ymm0, %ymm10, %ymm10
	vprold	$16, %ymm10, %ymm10
	vpaddd	%ymm24, %ymm10, %ymm26
	vpxord	%ymm9, %ymm26, %ymm9
	vprold	$20, %ymm9, %ymm27
	vpaddd	%ymm21, %ymm0, %ymm0
	vpaddd	%ymm27, %ymm0, %ymm9
	vpxord	%ymm10, %ymm9, %ymm29
	vpaddd	%ymm7, %ymm11, %ymm0
	vpaddd	%ymm1, %ymm0, %ymm0
	vpxor	%ymm4, %ymm0, %ymm4
	vprold	$16, %ymm4, %ymm7
	vpaddd	%ymm28, %ymm7, %ymm10
	vpxor	%ymm1, %ymm10, %ymm1
	vprold	$20, %ymm1, %ymm1
	vpaddd	%ymm0, %ymm12, %ymm0
	vpaddd	%ymm1, %ymm0, %ymm4
	vpxor	%ymm7, %ymm4, %ymm0
	vprold	$24, %ymm0, %ymm24
	vpaddd	%ymm24, %ymm10, %ymm28
	vpxord	%ymm1, %ymm28, %ymm0
	vprold	$25, %ymm0, %ymm7
	vpaddd	%ymm17, %ymm3, %ymm0
	vpaddd	%ymm6, %ymm0, %ymm0
	vpxor	%ymm5, %ymm0, %ymm1
	vprold	$16, %ymm1, %ymm1
	vpaddd	%ymm25, %ymm1, %ymm5
	vpxor	%ymm6, %ymm5, %ymm3
	vprold	$20, %ymm3, %ymm6
	vpaddd	%ymm0, %ymm14, %ymm0
	vpaddd	%ymm6, %ymm0, %ymm25
	vpxord	%ymm1, %ymm25, %ymm0
	vprold	$24, %ymm0, %ymm3
	vpaddd	%ymm3, %ymm5, %ymm10
	vpxor	%ymm6, %ymm10, %ymm5
	vpaddd	%ymm18, %ymm8, %ymm0
	vpaddd	%ymm31, %ymm0, %ymm1
	vpxor	%ymm2, %ymm1, %ymm0
	vprold	$16, %ymm0, %ymm2
	vpaddd	%ymm30, %ymm2, %ymm6
	vpxord	%ymm31, %ymm6, %ymm0
	vprold	$20, %ymm0, %ymm0
	vpaddd	%ymm23, %ymm1, %ymm1
	vpaddd	%ymm0, %ymm1, %ymm8
	vpxor	%ymm2, %ymm8, %ymm1
	vprold	$24, %ymm1, %ymm2
	vpaddd	%ymm2, %ymm6, %ymm1
	vpaddd	%ymm19, %ymm9, %ymm6
	vpaddd	%ymm7, %ymm6, %ymm6
	vpxor	%ymm2, %ymm6, %ymm2
	vprold	$16, %ymm2, %ymm2
	vpaddd	%ymm10, %ymm2, %ymm30
	vpxord	%ymm7, %ymm30, %ymm7
	vprold	$20, %ymm7, %ymm31
	vpaddd	%ymm22, %ymm6, %ymm6
	vpaddd	%ymm31, %ymm6, %ymm6
	vpxor	%ymm2, %ymm6, %ymm2
	vpaddd	%ymm16, %ymm8, %ymm7
	vpaddd	%ymm16, %ymm6, %ymm6
	vprold	$24, %ymm29, %ymm8
	vpaddd	%ymm8, %ymm26, %ymm9
	vpxord	%ymm27, %ymm9, %ymm10
	vprold	$25, %ymm10, %ymm10
	vprold	$25, %ymm5, %ymm5
	vpxord	%ymm0, %ymm1, %ymm27
	vmovdqu64	64(%rsp), %ymm29
	vpaddd	%ymm29, %ymm4, %ymm0
	vpaddd	%ymm5, %ymm0, %ymm0
	vpxor	%ymm0, %ymm8, %ymm4
	vprold	$16, %ymm4, %ymm4
	vpaddd	%ymm1, %ymm4, %ymm1
	vpxor	%ymm5, %ymm1, %ymm5
	vprold	$20, %ymm5, %ymm5
	vpaddd	%ymm20, %ymm0, %ymm0
	vpaddd	%ymm5, %ymm0, %ymm8
	vpxor	%ymm4, %ymm8, %ymm0
	vprold	$24, %ymm0, %ymm4
	vpaddd	%ymm4, %ymm1, %ymm21
	vpaddd	%ymm7, %ymm10, %ymm0
	vpxor	%ymm3, %ymm0, %ymm1
	vprold	$16, %ymm1, %ymm1
	vpaddd	%ymm28, %ymm1, %ymm3
	vpxor	%ymm3, %ymm10, %ymm7
	vprold	$20, %ymm7, %ymm7
	vmovdqa	%ymm15, %ymm11
	vpaddd	%ymm0, %ymm15, %ymm0
	vpaddd	%ymm7, %ymm0, %ymm26
	vpxord	%ymm1, %ymm26, %ymm0
	vprold	$24, %ymm0, %ymm10
	vpaddd	%ymm3, %ymm10, %ymm0
	vpxor	%ymm7, %ymm0, %ymm1
	vprold	$25, %ymm1, %ymm1
	vpaddd	%ymm1, %ymm6, %ymm6
	vpxor	%ymm4, %ymm6, %ymm3
	vpaddd	%ymm22, %ymm6, %ymm4
	vpaddd	%ymm23, %ymm8, %ymm6
	vprold	$25, %ymm27, %ymm7
	vprold	$24, %ymm2, %ymm8
	vpaddd	%ymm8, %ymm30, %ymm17
	vpxord	%ymm31, %ymm17, %ymm2
	vprold	$25, %ymm2, %ymm2
	vmovdqu	448(%rsp), %ymm15
	vpaddd	%ymm15, %ymm25, %ymm19
	vpaddd	%ymm7, %ymm19, %ymm19
	vpxord	%ymm24, %ymm19, %ymm24
	vprold	$16, %ymm24, %ymm24
	vpaddd	%ymm9, %ymm24, %ymm9
	vpxor	%ymm7, %ymm9, %ymm7
	vprold	$20, %ymm7, %ymm7
	vmovdqu	(%rsp), %ymm12
	vpaddd	%ymm12, %ymm19, %ymm19
	vpaddd	%ymm7, %ymm19, %ymm19
	vpxord	%ymm24, %ymm19, %ymm24
	vprold	$24, %ymm24, %ymm24
	vpaddd	%ymm24, %ymm9, %ymm9
	vpaddd	%ymm2, %ymm6, %ymm6
	vpxord	%ymm24, %ymm6, %ymm24
	vpaddd	%ymm6, %ymm12, %ymm6
	vpaddd	%ymm20, %ymm19, %ymm12
	vpxord	%ymm5, %ymm21, %ymm5
	vprold	$25, %ymm5, %ymm5
	vpaddd	%ymm5, %ymm12, %ymm12
	vpxor	%ymm10, %ymm12, %ymm10
	vpaddd	%ymm13, %ymm12, %ymm13
	vpaddd	%ymm15, %ymm26, %ymm12
	vpxor	%ymm7, %ymm9, %ymm7
	vprold	$25, %ymm7, %ymm15
	vpaddd	%ymm15, %ymm12, %ymm7
	vpxor	%ymm7, %ymm8, %ymm12
	vpaddd	%ymm11, %ymm7, %ymm19
	vprold	$16, %ymm3, %ymm3
	vpaddd	%ymm9, %ymm3, %ymm23
	vpxord	%ymm1, %ymm23, %ymm1
	vprold	$20, %ymm1, %ymm8
	vpaddd	%ymm4, %ymm8, %ymm1
	vpxor	%ymm3, %ymm1, %ymm3
	vpaddd	160(%rsp), %ymm1, %ymm1
	vprold	$16, %ymm24, %ymm4
	vpaddd	%ymm0, %ymm4, %ymm0
	vpxor	%ymm2, %ymm0, %ymm2
	vprold	$20, %ymm2, %ymm2
	vpaddd	%ymm2, %ymm6, %ymm9
	vpxor	%ymm4, %ymm9, %ymm4
	vprold	$24, %ymm4, %ymm4
	vpaddd	%ymm4, %ymm0, %ymm7
	vpxor	%ymm2, %ymm7, %ymm0
	vprold	$25, %ymm0, %ymm20
	vprold	$16, %ymm12, %ymm2
	vpaddd	%ymm21, %ymm2, %ymm6
	vpxor	%ymm6, %ymm15, %ymm0
	vprold	$20, %ymm0, %ymm15
	vpaddd	%ymm15, %ymm19, %ymm0
	vpxor	%ymm2, %ymm0, %ymm2
	vprold	$24, %ymm2, %ymm2
	vpaddd	%ymm2, %ymm6, %ymm12
	vpaddd	%ymm20, %ymm1, %ymm1
	vpxord	%ymm2, %ymm1, %ymm19
	vpaddd	192(%rsp), %ymm1, %ymm16
	vprold	$24, %ymm3, %ymm1
	vpaddd	%ymm1, %ymm23, %ymm3
	vprold	$16, %ymm10, %ymm2
	vpaddd	%ymm17, %ymm2, %ymm10
	vpxor	%ymm5, %ymm10, %ymm5
	vprold	$20, %ymm5, %ymm6
	vpaddd	%ymm6, %ymm13, %ymm13
	vpxor	%ymm2, %ymm13, %ymm2
	vprold	$24, %ymm2, %ymm2
	vpaddd	%ymm2, %ymm10, %ymm5
	vpxor	%ymm15, %ymm12, %ymm10
	vprold	$25, %ymm10, %ymm10
	vprold	$16, %ymm19, %ymm15
	vpaddd	%ymm14, %ymm13, %ymm13
	vpaddd	%ymm5, %ymm15, %ymm17
	vpxord	%ymm20, %ymm17, %ymm19
	vprold	$20, %ymm19, %ymm19
	vpaddd	%ymm19, %ymm16, %ymm16
	vpaddd	%ymm10, %ymm13, %ymm13
	vpxor	%ymm4, %ymm13, %ymm4
	vprold	$16, %ymm4, %ymm4
	vpaddd	256(%rsp), %ymm13, %ymm11
	vpaddd	%ymm3, %ymm4, %ymm20
	vpxord	%ymm10, %ymm20, %ymm10
	vprold	$20, %ymm10, %ymm10
	vpaddd	%ymm10, %ymm11, %ymm21
	vpxord	%ymm4, %ymm21, %ymm4
	vprold	$24, %ymm4, %ymm13
	vpaddd	%ymm13, %ymm20, %ymm4
	vpxor	%ymm4, %ymm10, %ymm11
	vpternlogd	$150, 608(%rsp), %ymm16, %ymm4
	vpxord	%ymm15, %ymm16, %ymm10
	vprold	$24, %ymm10, %ymm10
	vpaddd	%ymm10, %ymm17, %ymm15
	vpxord	%ymm19, %ymm15, %ymm16
	vpternlogd	$150, 480(%rsp), %ymm21, %ymm15
	vpxor	%ymm3, %ymm8, %ymm3
	vpxor	%ymm6, %ymm5, %ymm5
	vpaddd	32(%rsp), %ymm9, %ymm6
	vprold	$25, %ymm5, %ymm5
	vpaddd	%ymm5, %ymm6, %ymm6
	vpxor	%ymm1, %ymm6, %ymm1
	vpaddd	288(%rsp), %ymm6, %ymm6
	vpaddd	%ymm29, %ymm0, %ymm0
	vprold	$25, %ymm3, %ymm3
	vpaddd	%ymm3, %ymm0, %ymm0
	vpxor	%ymm2, %ymm0, %ymm2
	vpaddd	%ymm18, %ymm0, %ymm0
	vprold	$16, %ymm1, %ymm1
	vpaddd	%ymm1, %ymm12, %ymm8
	vpxor	%ymm5, %ymm8, %ymm5
	vprold	$20, %ymm5, %ymm5
	vpaddd	%ymm5, %ymm6, %ymm6
	vprold	$16, %ymm2, %ymm2
	vpaddd	%ymm7, %ymm2, %ymm7
	vpxor	%ymm3, %ymm7, %ymm3
	vprold	$20, %ymm3, %ymm3
	vpaddd	%ymm3, %ymm0, %ymm0
	vpxor	%ymm2, %ymm0, %ymm2
	vprold	$24, %ymm2, %ymm2
	vpaddd	%ymm2, %ymm7, %ymm7
	vpxor	%ymm3, %ymm7, %ymm3
	vpternlogd	$150, 672(%rsp), %ymm6, %ymm7
	vpxor	%ymm1, %ymm6, %ymm1
	vprold	$24, %ymm1, %ymm1
	vpaddd	%ymm1, %ymm8, %ymm6
	vpxor	%ymm5, %ymm6, %ymm5
	vpternlogd	$150, 576(%rsp), %ymm0, %ymm6
	vprold	$25, %ymm3, %ymm0
	vpternlogd	$150, 704(%rsp), %ymm1, %ymm0
	vprold	$25, %ymm16, %ymm1
	vpternlogd	$150, 544(%rsp), %ymm13, %ymm1
	vprold	$25, %ymm5, %ymm3
	vpternlogd	$150, 512(%rsp), %ymm2, %ymm3
	vprold	$25, %ymm11, %ymm2
	vpternlogd	$150, 640(%rsp), %ymm10, %ymm2
	vmovdqu	%ymm4, (%rdi)
	vmovdqu	%ymm7, 32(%rdi)
	vmovdqu	%ymm15, 64(%rdi)
	vmovdqu	%ymm6, 96(%rdi)
	vmovdqu	%ymm0, 128(%rdi)
	vmovdqu	%ymm1, 160(%rdi)
	vmovdqu	%ymm3, 192(%rdi)
	vmovdqu	%ymm2, 224(%rdi)
	addq	$736, %rsp
	popq	%rbx
	popq	%r14
	popq	%rbp
	vzeroupper
	vpxord	%xmm16, %xmm16, %xmm16
	vpxord	%xmm17, %xmm17, %xmm17
	vpxord	%xmm18, %xmm18, %xmm18
	vpxord	%xmm19, %xmm19, %xmm19
	vpxord	%xmm20, %xmm20, %xmm20
	vpxord	%xmm21, %xmm21, %xmm21
	vpxord	%xmm22, %xmm22, %xmm22
	vpxord	%xmm23, %xmm23, %xmm23
	vpxord	%xmm24, %xmm24, %xmm24
	vpxord	%xmm25, %xmm25, %xmm25
	vpxord	%xmm26, %xmm26, %xmm26
	vpxord	%xmm27, %xmm27, %xmm27
	vpxord	%xmm28, %xmm28, %xmm28
	vpxord	%xmm29, %xmm29, %xmm29
	vpxord	%xmm30, %xmm30, %xmm30
	vpxord	%xmm31, %xmm31, %xmm31
	retq
	vj_end	blake2_compress..many..blake2s..compress_each_1_v4

	vj_constants	8
	.p2align	3, 0x0
.L1_v4_CPI65_0:
	.long	1
	.long	5
	vj_function	blake2_parallel..lanes..blake2sp..outputs_of_1_v4
	pushq	%rbp
	pushq	%r15
	pushq	%r14
	pushq	%r12
	pushq	%rbx
	movl	64(%rsi), %r15d
	movl	96(%rsi), %r12d
	vmovdqu	128(%rsi), %xmm9
	movl	192(%rsi), %ebp
	movl	224(%rsi), %r14d
	vmovdqu	(%rsi), %xmm12
	vmovdqu	16(%rsi), %xmm0
	vmovdqu	32(%rsi), %xmm15
	vmovdqu	48(%rsi), %xmm1
	vpinsrd	$1, 32(%rsi), %xmm12, %xmm2
	vpinsrd	$2, %r15d, %xmm2, %xmm2
	vpinsrd	$3, %r12d, %xmm2, %xmm17
	vpinsrd	$1, 160(%rsi), %xmm9, %xmm2
	vpinsrd	$2, %ebp, %xmm2, %xmm2
	vpinsrd	$3, %r14d, %xmm2, %xmm18
	vpbroadcastq	.L1_v4_CPI65_0(%rip), %xmm4
	vmovups	64(%rsi), %xmm13
	vmovdqu	96(%rsi), %xmm11
	vpbroadcastd	100(%rsi), %xmm19
	vmovdqu64	160(%rsi), %xmm16
	vmovups	192(%rsi), %xmm14
	vmovdqu	224(%rsi), %xmm10
	vpbroadcastd	228(%rsi), %xmm20
	movzbl	124(%rsi), %eax
	movzbl	120(%rsi), %r8d
	movzbl	116(%rsi), %r10d
	vmovdqu	112(%rsi), %xmm2
	movzbl	112(%rsi), %ebx
	movzbl	248(%rsi), %ecx
	movzbl	244(%rsi), %r9d
	vmovdqu	240(%rsi), %xmm5
	movzbl	240(%rsi), %r11d
	vmovups	80(%rsi), %xmm6
	vmovdqu	176(%rsi), %xmm7
	vmovdqu	144(%rsi), %xmm8
	vmovups	208(%rsi), %xmm3
	movl	252(%rsi), %edx
	vmovq	%xmm17, (%rdi)
	movl	%r15d, 8(%rdi)
	movb	%r12b, 12(%rdi)
	vpextrb	$13, %xmm17, 13(%rdi)
	vpextrb	$14, %xmm17, 14(%rdi)
	vpextrb	$15, %xmm17, 15(%rdi)
	vmovq	%xmm18, 16(%rdi)
	movl	%ebp, 24(%rdi)
	movb	%r14b, 28(%rdi)
	vpextrb	$13, %xmm18, 29(%rdi)
	vpextrb	$14, %xmm18, 30(%rdi)
	vpextrb	$15, %xmm18, 31(%rdi)
	vmovdqa64	%xmm12, %xmm17
	vpermt2d	%xmm15, %xmm4, %xmm17
	vmovq	%xmm17, 32(%rdi)
	vextractps	$1, %xmm13, 40(%rdi)
	vpextrb	$4, %xmm11, 44(%rdi)
	vpextrb	$13, %xmm19, 45(%rdi)
	vpextrb	$14, %xmm19, 46(%rdi)
	vpextrb	$15, %xmm19, 47(%rdi)
	vmovdqa64	%xmm9, %xmm17
	vpermt2d	%xmm16, %xmm4, %xmm17
	vmovq	%xmm17, 48(%rdi)
	vextractps	$1, %xmm14, 56(%rdi)
	vpextrb	$4, %xmm10, 60(%rdi)
	vpextrb	$13, %xmm20, 61(%rdi)
	vpextrb	$14, %xmm20, 62(%rdi)
	vpextrb	$15, %xmm20, 63(%rdi)
	vpunpckhdq	%xmm15, %xmm12, %xmm12
	vmovq	%xmm12, 64(%rdi)
	vextractps	$2, %xmm13, 72(%rdi)
	vpextrb	$8, %xmm11, 76(%rdi)
	vpextrb	$9, %xmm11, 77(%rdi)
	vpextrb	$10, %xmm11, 78(%rdi)
	vpextrb	$11, %xmm11, 79(%rdi)
	vpunpckhdq	%xmm16, %xmm9, %xmm9
	vmovq	%xmm9, 80(%rdi)
	vextractps	$2, %xmm14, 88(%rdi)
	vpextrb	$8, %xmm10, 92(%rdi)
	vpextrb	$9, %xmm10, 93(%rdi)
	vpextrb	$10, %xmm10, 94(%rdi)
	vpextrb	$11, %xmm10, 95(%rdi)
	vpextrq	$1, %xmm12, 96(%rdi)
	vextractps	$3, %xmm13, 104(%rdi)
	vpextrb	$12, %xmm11, 108(%rdi)
	vpextrb	$13, %xmm11, 109(%rdi)
	vpextrb	$14, %xmm11, 110(%rdi)
	vpextrb	$15, %xmm11, 111(%rdi)
	vpextrq	$1, %xmm9, 112(%rdi)
	vextractps	$3, %xmm14, 120(%rdi)
	vpextrb	$12, %xmm10, 124(%rdi)
	vpextrb	$13, %xmm10, 125(%rdi)
	vpextrb	$14, %xmm10, 126(%rdi)
	vpunpckldq	%xmm1, %xmm0, %xmm9
	vpextrb	$15, %xmm10, 127(%rdi)
	vmovq	%xmm9, 128(%rdi)
	vmovss	%xmm6, 136(%rdi)
	movb	%bl, 140(%rdi)
	vpextrb	$1, %xmm2, 141(%rdi)
	vpextrb	$2, %xmm2, 142(%rdi)
	vpunpckldq	%xmm7, %xmm8, %xmm9
	vpextrb	$3, %xmm2, 143(%rdi)
	vmovq	%xmm9, 144(%rdi)
	vmovss	%xmm3, 152(%rdi)
	movb	%r11b, 156(%rdi)
	vpextrb	$1, %xmm5, 157(%rdi)
	vpextrb	$2, %xmm5, 158(%rdi)
	vpextrb	$3, %xmm5, 159(%rdi)
	vmovdqa	%xmm0, %xmm9
	vpermt2d	%xmm1, %xmm4, %xmm9
	vmovq	%xmm9, 160(%rdi)
	vextractps	$1, %xmm6, 168(%rdi)
	movb	%r10b, 172(%rdi)
	vpextrb	$5, %xmm2, 173(%rdi)
	vpextrb	$6, %xmm2, 174(%rdi)
	vpextrb	$7, %xmm2, 175(%rdi)
	vpermi2d	%xmm7, %xmm8, %xmm4
	vmovq	%xmm4, 176(%rdi)
	vextractps	$1, %xmm3, 184(%rdi)
	movb	%r9b, 188(%rdi)
	vpextrb	$5, %xmm5, 189(%rdi)
	vpextrb	$6, %xmm5, 190(%rdi)
	vpextrb	$7, %xmm5, 191(%rdi)
	vpunpckhdq	%xmm1, %xmm0, %xmm0
	vmovq	%xmm0, 192(%rdi)
	vextractps	$2, %xmm6, 200(%rdi)
	movb	%r8b, 204(%rdi)
	vpextrb	$9, %xmm2, 205(%rdi)
	vpextrb	$10, %xmm2, 206(%rdi)
	vpextrb	$11, %xmm2, 207(%rdi)
	vpunpckhdq	%xmm7, %xmm8, %xmm1
	vmovq	%xmm1, 208(%rdi)
	vextractps	$2, %xmm3, 216(%rdi)
	movb	%cl, 220(%rdi)
	vpextrb	$9, %xmm5, 221(%rdi)
	vpextrb	$10, %xmm5, 222(%rdi)
	vpextrb	$11, %xmm5, 223(%rdi)
	vpextrq	$1, %xmm0, 224(%rdi)
	vextractps	$3, %xmm6, 232(%rdi)
	movb	%al, 236(%rdi)
	vpextrb	$13, %xmm2, 237(%rdi)
	vpextrb	$14, %xmm2, 238(%rdi)
	vshufps	$254, %xmm3, %xmm1, %xmm0
	vpextrb	$15, %xmm2, 239(%rdi)
	vpinsrd	$3, %edx, %xmm0, %xmm0
	vmovq	%xmm0, 240(%rdi)
	vextractps	$3, %xmm3, 248(%rdi)
	movb	%dl, 252(%rdi)
	vpextrb	$13, %xmm0, 253(%rdi)
	vpextrb	$14, %xmm0, 254(%rdi)
	vpextrb	$15, %xmm0, 255(%rdi)
	popq	%rbx
	popq	%r12
	popq	%r14
	popq	%r15
	popq	%rbp
	vpxord	%xmm16, %xmm16, %xmm16
	vpxord	%xmm17, %xmm17, %xmm17
	vpxord	%xmm18, %xmm18, %xmm18
	vpxord	%xmm19, %xmm19, %xmm19
	vpxord	%xmm20, %xmm20, %xmm20
	retq
	vj_end	blake2_parallel..lanes..blake2sp..outputs_of_1_v4

	vj_function	blake2_ffi..blake2sp..initialize_1_v4
	pushq	%rbp
	pushq	%r15
	pushq	%r14
	pushq	%r13
	pushq	%r12
	pushq	%rbx
	subq	$1640, %rsp
	movq	%r9, 24(%rsp)
	movq	%r8, %r12
	movq	%rcx, %r13
	movq	%rdx, %rbp
	movq	%rsi, %r14
	movq	%rdi, 16(%rsp)
	leaq	32(%rsp), %r15
	xorl	%ebx, %ebx
	movl	$1608, %edx
	movq	%r15, %rdi
	xorl	%esi, %esi
	vj_c_call	memset
	vmovaps	1696(%rsp), %xmm0
	vmovups	%xmm0, (%rsp)
	movq	%r15, %rdi
	movq	%r14, %rsi
	movq	%rbp, %rdx
	movq	%r13, %rcx
	movq	%r12, %r8
	movq	24(%rsp), %r9
	callq	blake2_parallel..blake2sp..State..init_salt_personal_1_v4
	cmpb	$0, 32(%rsp)
	je	1f
	movl	$1600, %edx
	movq	16(%rsp), %rdi
	xorl	%esi, %esi
	vj_c_call	memset
	movl	$-1, %ebx
	jmp	2f
1:
	leaq	40(%rsp), %rsi
	movl	$1600, %edx
	movq	16(%rsp), %rdi
	vj_c_call	memcpy
2:
	movl	%ebx, %eax
	addq	$1640, %rsp
	popq	%rbx
	popq	%r12
	popq	%r13
	popq	%r14
	popq	%r15
	popq	%rbp
	retq
	vj_end	blake2_ffi..blake2sp..initialize_1_v4

	vj_constants	16
	.p2align	4, 0x0
.L1_v4_CPI67_0:
	.zero	2
	.zero	2
	.zero	2
	.zero	2
	.short	0
	.short	0
	.short	0
	.short	8193
.L1_v4_CPI67_2:
	.zero	2
	.zero	2
	.zero	2
	.zero	2
	.short	0
	.short	0
	.short	0
	.short	8192
.L1_v4_CPI67_3:
	.long	1359893119
	.long	2600822924
	.long	528734635
	.long	1541459225
.L1_v4_CPI67_5:
	.long	1013904243
	.long	1013904240
	.long	1013904241
	.long	1013904246
	vj_constants	32
	.p2align	5, 0x0
.L1_v4_CPI67_1:
	.long	1779033703
	.long	3144134277
	.long	1013904242
	.long	2773480762
	.long	1359893119
	.long	2600822924
	.long	528734635
	.long	1541459225
	vj_constants	4
	.p2align	2, 0x0
.L1_v4_CPI67_4:
	.long	3144134277
.L1_v4_CPI67_6:
	.long	3
.L1_v4_CPI67_7:
	.long	1
.L1_v4_CPI67_8:
	.long	2
	vj_function	blake2_parallel..blake2sp..State..init_salt_personal_1_v4
	pushq	%rbp
	pushq	%r15
	pushq	%r14
	pushq	%r13
	pushq	%r12
	pushq	%rbx
	subq	$1880, %rsp
	movq	%r8, %r14
	movq	%rcx, %r15
	movq	%rdx, %r8
	movq	%rdi, %rbx
	movq	1944(%rsp), %r13
	leaq	-1(%rsi), %rax
	cmpq	$32, %rax
	setb	%al
	cmpq	$33, %rcx
	setb	%cl
	cmpq	$9, %r9
	setb	%dl
	andb	%cl, %dl
	andb	%al, %dl
	cmpq	$9, %r13
	setb	%al
	testb	%al, %dl
	je	1f
	movq	%r9, %rbp
	movq	%rsi, (%rsp)
	movq	1936(%rsp), %r12
	vxorps	%xmm0, %xmm0, %xmm0
	vmovaps	%xmm0, 400(%rsp)
	leaq	400(%rsp), %rdi
	movq	%r14, %rsi
	movq	%r9, %rdx
	movq	%r8, 32(%rsp)
	vj_c_call	memcpy
	leaq	408(%rsp), %rdi
	movq	%r12, %rsi
	movq	%r13, %rdx
	vj_c_call	memcpy
	vmovaps	400(%rsp), %xmm0
	vmovaps	%xmm0, 64(%rsp)
	vxorps	%xmm0, %xmm0, %xmm0
	vmovaps	%xmm0, 400(%rsp)
	leaq	400(%rsp), %rdi
	movq	%r14, %rsi
	movq	%rbp, %rdx
	vj_c_call	memcpy
	leaq	408(%rsp), %rdi
	movq	%r12, %rsi
	movq	%r13, %rdx
	vj_c_call	memcpy
	vmovaps	400(%rsp), %xmm0
	vmovaps	%xmm0, 96(%rsp)
	vxorps	%xmm0, %xmm0, %xmm0
	vmovups	%ymm0, 112(%rsp)
	vmovups	%ymm0, 144(%rsp)
	leaq	112(%rsp), %rdi
	movq	32(%rsp), %rsi
	movq	%r15, %rdx
	vzeroupper
	vj_c_call	memcpy
	testq	%r15, %r15
	je	2f
	vmovups	112(%rsp), %ymm0
	vmovups	144(%rsp), %ymm1
	vmovups	%ymm1, 432(%rsp)
	vmovups	%ymm0, 400(%rsp)
	vmovups	%ymm0, 464(%rsp)
	vmovups	%ymm1, 496(%rsp)
	vmovups	%ymm0, 528(%rsp)
	vmovups	%ymm1, 560(%rsp)
	vmovups	%ymm0, 592(%rsp)
	vmovups	%ymm1, 624(%rsp)
	vmovups	%ymm0, 656(%rsp)
	vmovups	%ymm1, 688(%rsp)
	vmovups	%ymm0, 720(%rsp)
	vmovups	%ymm1, 752(%rsp)
	vmovups	%ymm0, 784(%rsp)
	vmovups	%ymm1, 816(%rsp)
	vmovups	%ymm0, 848(%rsp)
	vmovups	%ymm1, 880(%rsp)
	vxorps	%xmm0, %xmm0, %xmm0
	vmovups	%ymm0, 1848(%rsp)
	vmovups	%ymm0, 1816(%rsp)
	vmovups	%ymm0, 1784(%rsp)
	vmovups	%ymm0, 1752(%rsp)
	vmovups	%ymm0, 1720(%rsp)
	vmovups	%ymm0, 1688(%rsp)
	vmovups	%ymm0, 1656(%rsp)
	vmovups	%ymm0, 1624(%rsp)
	vmovups	%ymm0, 1592(%rsp)
	vmovups	%ymm0, 1560(%rsp)
	vmovups	%ymm0, 1528(%rsp)
	vmovups	%ymm0, 1496(%rsp)
	vmovups	%ymm0, 1464(%rsp)
	vmovups	%ymm0, 1432(%rsp)
	leaq	920(%rsp), %rdi
	leaq	400(%rsp), %rsi
	movl	$512, %r14d
	movl	$512, %edx
	vzeroupper
	vj_c_call	memcpy
	jmp	3f
1:
	movb	$1, (%rbx)
	addq	$8, %rbx
	movl	$1600, %edx
	movq	%rbx, %rdi
	xorl	%esi, %esi
	addq	$1880, %rsp
	popq	%rbx
	popq	%r12
	popq	%r13
	popq	%r14
	popq	%r15
	popq	%rbp
	vj_c_jump	memset
2:
	leaq	920(%rsp), %rdi
	xorl	%r14d, %r14d
	movl	$960, %edx
	xorl	%esi, %esi
	vj_c_call	memset
3:
	movq	(%rsp), %r12
	shll	$8, %r15d
	leal	(%r15,%r12), %eax
	addl	$34078720, %eax
	vmovd	%eax, %xmm0
	vpmovzxdq	%xmm0, %xmm0
	vpblendd	$12, .L1_v4_CPI67_0(%rip), %xmm0, %xmm1
	vmovdqu	%ymm1, (%rsp)
	vmovdqa	.L1_v4_CPI67_1(%rip), %ymm1
	vpblendd	$12, .L1_v4_CPI67_2(%rip), %xmm0, %xmm0
	vpxor	%xmm1, %xmm0, %xmm3
	vmovdqu	%ymm3, 272(%rsp)
	vmovdqa	64(%rsp), %xmm0
	vpxor	.L1_v4_CPI67_3(%rip), %xmm0, %xmm0
	vmovups	112(%rsp), %ymm1
	vmovups	144(%rsp), %ymm2
	vmovups	%ymm1, 336(%rsp)
	vmovups	%ymm2, 368(%rsp)
	movb	$0, (%rbx)
	vpbroadcastd	%xmm3, %ymm1
	vmovdqu	%ymm1, 64(%rsp)
	vmovdqu	%ymm1, 8(%rbx)
	vbroadcastss	.L1_v4_CPI67_4(%rip), %ymm1
	vmovups	%ymm1, 40(%rbx)
	vpextrd	$2, %xmm3, 72(%rbx)
	vmovaps	.L1_v4_CPI67_5(%rip), %xmm1
	vmovups	%xmm1, 76(%rbx)
	movabsq	$4354685570269508471, %r15
	movq	%r15, 92(%rbx)
	vpbroadcastd	.L1_v4_CPI67_6(%rip), %ymm1
	movl	$1013904245, 100(%rbx)
	vpermd	%ymm3, %ymm1, %ymm2
	vmovdqu	%ymm2, 32(%rsp)
	vmovdqu	%ymm2, 104(%rbx)
	vpbroadcastd	%xmm0, %ymm2
	vmovdqu	%ymm2, 304(%rsp)
	vmovdqu	%ymm2, 136(%rbx)
	vpbroadcastd	.L1_v4_CPI67_7(%rip), %ymm2
	vpermd	%ymm0, %ymm2, %ymm2
	vmovdqu	%ymm2, 240(%rsp)
	vmovdqu	%ymm2, 168(%rbx)
	vpbroadcastd	.L1_v4_CPI67_8(%rip), %ymm2
	vpermd	%ymm0, %ymm2, %ymm2
	vmovdqu	%ymm2, 208(%rsp)
	vmovdqu	%ymm2, 200(%rbx)
	vpermd	%ymm0, %ymm1, %ymm0
	vmovdqu	%ymm0, 176(%rsp)
	vmovdqu	%ymm0, 232(%rbx)
	movq	$0, 264(%rbx)
	movq	%r14, 272(%rbx)
	leaq	280(%rbx), %rdi
	leaq	920(%rsp), %rsi
	movl	$960, %edx
	vzeroupper
	vj_c_call	memcpy
	vmovups	64(%rsp), %ymm0
	vmovups	%ymm0, 1240(%rbx)
	vbroadcastss	.L1_v4_CPI67_4(%rip), %ymm0
	vmovups	%ymm0, 1272(%rbx)
	vmovups	272(%rsp), %ymm0
	vextractps	$2, %xmm0, 1304(%rbx)
	vmovaps	.L1_v4_CPI67_5(%rip), %xmm0
	vmovups	%xmm0, 1308(%rbx)
	movq	%r15, 1324(%rbx)
	movl	$1013904245, 1332(%rbx)
	vmovups	32(%rsp), %ymm0
	vmovups	%ymm0, 1336(%rbx)
	vmovups	304(%rsp), %ymm0
	vmovups	%ymm0, 1368(%rbx)
	vmovups	240(%rsp), %ymm0
	vmovups	%ymm0, 1400(%rbx)
	vmovups	208(%rsp), %ymm0
	vmovups	%ymm0, 1432(%rbx)
	vmovups	176(%rsp), %ymm0
	vmovups	%ymm0, 1464(%rbx)
	vmovups	(%rsp), %ymm0
	vinsertf128	$1, 96(%rsp), %ymm0, %ymm0
	vxorps	.L1_v4_CPI67_1(%rip), %ymm0, %ymm0
	vmovups	%ymm0, 1496(%rbx)
	movq	%r14, 1528(%rbx)
	movq	%r12, 1536(%rbx)
	vmovups	336(%rsp), %ymm0
	vmovups	368(%rsp), %ymm1
	vmovups	%ymm0, 1544(%rbx)
	vmovups	%ymm1, 1576(%rbx)
	addq	$1880, %rsp
	popq	%rbx
	popq	%r12
	popq	%r13
	popq	%r14
	popq	%r15
	popq	%rbp
	vzeroupper
	retq
	vj_end	blake2_parallel..blake2sp..State..init_salt_personal_1_v4

	vj_function	blake2_ffi..blake2sp..reset_in_frame_1_v4
	pushq	%r15
	pushq	%r14
	pushq	%rbx
	subq	$1728, %rsp
	movq	%rdi, %rbx
	leaq	1232(%rdi), %r15
	movq	1520(%rdi), %r14
	testq	%r14, %r14
	je	1f
	vmovups	1536(%rbx), %ymm0
	vmovups	1568(%rbx), %ymm1
	vmovups	%ymm1, 288(%rsp)
	vmovups	%ymm0, 256(%rsp)
	vmovups	1536(%rbx), %ymm0
	vmovups	1568(%rbx), %ymm1
	vmovups	%ymm1, 352(%rsp)
	vmovups	%ymm0, 320(%rsp)
	vmovups	1536(%rbx), %ymm0
	vmovups	1568(%rbx), %ymm1
	vmovups	%ymm1, 416(%rsp)
	vmovups	%ymm0, 384(%rsp)
	vmovups	1536(%rbx), %ymm0
	vmovups	1568(%rbx), %ymm1
	vmovups	%ymm1, 480(%rsp)
	vmovups	%ymm0, 448(%rsp)
	vmovups	1536(%rbx), %ymm0
	vmovups	1568(%rbx), %ymm1
	vmovups	%ymm1, 544(%rsp)
	vmovups	%ymm0, 512(%rsp)
	vmovups	1536(%rbx), %ymm0
	vmovups	1568(%rbx), %ymm1
	vmovups	%ymm0, 576(%rsp)
	vmovups	%ymm1, 608(%rsp)
	vmovups	1536(%rbx), %ymm0
	vmovups	1568(%rbx), %ymm1
	vmovups	%ymm0, 640(%rsp)
	vmovups	%ymm1, 672(%rsp)
	vmovups	1536(%rbx), %ymm0
	vmovups	1568(%rbx), %ymm1
	vmovups	%ymm1, 736(%rsp)
	vmovups	%ymm0, 704(%rsp)
	vxorps	%xmm0, %xmm0, %xmm0
	vmovups	%ymm0, 1280(%rsp)
	vmovups	%ymm0, 1312(%rsp)
	vmovups	%ymm0, 1344(%rsp)
	vmovups	%ymm0, 1376(%rsp)
	vmovups	%ymm0, 1408(%rsp)
	vmovups	%ymm0, 1440(%rsp)
	vmovups	%ymm0, 1472(%rsp)
	vmovups	%ymm0, 1504(%rsp)
	vmovups	%ymm0, 1536(%rsp)
	vmovups	%ymm0, 1568(%rsp)
	vmovups	%ymm0, 1600(%rsp)
	vmovups	%ymm0, 1632(%rsp)
	vmovups	%ymm0, 1664(%rsp)
	vmovups	%ymm0, 1696(%rsp)
	leaq	768(%rsp), %rdi
	leaq	256(%rsp), %rsi
	movl	$512, %edx
	vzeroupper
	vj_c_call	memcpy
	vmovups	(%r15), %ymm0
	vmovups	32(%r15), %ymm1
	vmovups	64(%r15), %ymm2
	vmovups	96(%r15), %ymm3
	vmovups	%ymm0, (%rsp)
	vmovups	%ymm1, 32(%rsp)
	vmovups	%ymm2, 64(%rsp)
	vmovups	%ymm3, 96(%rsp)
	vmovups	128(%r15), %ymm0
	vmovups	%ymm0, 128(%rsp)
	vmovups	160(%r15), %ymm0
	vmovups	%ymm0, 160(%rsp)
	vmovups	192(%r15), %ymm0
	vmovups	%ymm0, 192(%rsp)
	vmovups	224(%r15), %ymm0
	vmovups	%ymm0, 224(%rsp)
	jmp	2f
1:
	vmovups	224(%r15), %ymm0
	vmovups	%ymm0, 224(%rsp)
	vmovups	192(%r15), %ymm0
	vmovups	%ymm0, 192(%rsp)
	vmovups	160(%r15), %ymm0
	vmovups	%ymm0, 160(%rsp)
	vmovups	128(%r15), %ymm0
	vmovups	%ymm0, 128(%rsp)
	vmovups	(%r15), %ymm0
	vmovups	32(%r15), %ymm1
	vmovups	64(%r15), %ymm2
	vmovups	96(%r15), %ymm3
	vmovups	%ymm3, 96(%rsp)
	vmovups	%ymm2, 64(%rsp)
	vmovups	%ymm1, 32(%rsp)
	vmovups	%ymm0, (%rsp)
	leaq	768(%rsp), %rdi
	movl	$960, %edx
	xorl	%esi, %esi
	vzeroupper
	vj_c_call	memset
2:
	vmovups	224(%rsp), %ymm0
	vmovups	%ymm0, 224(%rbx)
	vmovups	192(%rsp), %ymm0
	vmovups	%ymm0, 192(%rbx)
	vmovups	160(%rsp), %ymm0
	vmovups	%ymm0, 160(%rbx)
	vmovups	128(%rsp), %ymm0
	vmovups	%ymm0, 128(%rbx)
	vmovups	(%rsp), %ymm0
	vmovups	32(%rsp), %ymm1
	vmovups	64(%rsp), %ymm2
	vmovups	96(%rsp), %ymm3
	vmovups	%ymm3, 96(%rbx)
	vmovups	%ymm2, 64(%rbx)
	vmovups	%ymm1, 32(%rbx)
	vmovups	%ymm0, (%rbx)
	movq	$0, 256(%rbx)
	movq	%r14, 264(%rbx)
	addq	$272, %rbx
	leaq	768(%rsp), %rsi
	movl	$960, %edx
	movq	%rbx, %rdi
	vzeroupper
	vj_c_call	memcpy
	addq	$1728, %rsp
	popq	%rbx
	popq	%r14
	popq	%r15
	retq
	vj_end	blake2_ffi..blake2sp..reset_in_frame_1_v4

	vj_function	blake2_ffi..blake2sp..update_scrubbed_1_v4
	pushq	%rax
	callq	blake2_ffi..blake2sp..update_in_frame_1_v4
	popq	%rax
	jmp	blake2_digest..wiping..scrub_stack..3072_1_v4
	vj_end	blake2_ffi..blake2sp..update_scrubbed_1_v4

	vj_function	blake2_ffi..blake2sp..update_in_frame_1_v4
	vj_jump	blake2_parallel..lanes..blake2sp..Lanes..update_1_v4
	vj_end	blake2_ffi..blake2sp..update_in_frame_1_v4

	vj_shared	blake2_parallel..lanes..blake2sp..Lanes..update_1_v4
	pushq	%rbp
	pushq	%r15
	pushq	%r14
	pushq	%r13
	pushq	%r12
	pushq	%rbx
	subq	$264, %rsp
	movq	%rdx, %rbx
	movq	%rsi, %r15
	movq	%rdi, %r14
	movq	264(%rdi), %r13
	movl	$960, %eax
	subq	%r13, %rax
	cmpq	%rdx, %rax
	jb	11f
1:
	leaq	(%r14,%r13), %rdi
	addq	$272, %rdi
	movq	%rdi, %rax
	subq	%r15, %rax
	cmpq	%rbx, %rax
	jae	23f
	cmpq	$8, %rbx
	jb	2f
	leaq	(%r14,%r13), %rax
	subq	%r15, %rax
	addq	$272, %rax
	cmpq	$128, %rax
	jae	25f
2:
	xorl	%eax, %eax
3:
	movq	%rbx, %rdx
	movq	%rax, %rcx
	andq	$7, %rdx
	je	5f
	movq	%rax, %rcx
	.p2align	4
4:
	movzbl	(%r15,%rcx), %esi
	movb	%sil, (%rdi,%rcx)
	incq	%rcx
	decq	%rdx
	jne	4b
5:
	subq	%rbx, %rax
	cmpq	$-8, %rax
	ja	24f
	leaq	(%r14,%r13), %rax
	addq	$279, %rax
	.p2align	4
6:
	movzbl	(%r15,%rcx), %edx
	movb	%dl, -7(%rax,%rcx)
	movzbl	1(%r15,%rcx), %edx
	movb	%dl, -6(%rax,%rcx)
	movzbl	2(%r15,%rcx), %edx
	movb	%dl, -5(%rax,%rcx)
	movzbl	3(%r15,%rcx), %edx
	movb	%dl, -4(%rax,%rcx)
	movzbl	4(%r15,%rcx), %edx
	movb	%dl, -3(%rax,%rcx)
	movzbl	5(%r15,%rcx), %edx
	movb	%dl, -2(%rax,%rcx)
	movzbl	6(%r15,%rcx), %edx
	movb	%dl, -1(%rax,%rcx)
	movzbl	7(%r15,%rcx), %edx
	movb	%dl, (%rax,%rcx)
	addq	$8, %rcx
	cmpq	%rcx, %rbx
	jne	6b
	jmp	24f
7:
	movq	%r15, %rsi
	movq	%r12, %rdx
	vzeroupper
	vj_c_call	memmove
8:
	subq	%r12, %rbx
	addq	%r12, %r15
	movq	$512, 264(%r14)
9:
	movq	%r14, %rdi
	vzeroupper
	callq	blake2_parallel..lanes..blake2sp..Lanes..compress_held_1_v4
10:
	movq	264(%r14), %r13
	movl	$960, %eax
	subq	%r13, %rax
	cmpq	%rbx, %rax
	jae	1b
11:
	testq	%r13, %r13
	je	17f
	cmpq	$511, %r13
	ja	9b
	movl	$512, %r12d
	subq	%r13, %r12
	leaq	272(%r14), %rax
	leaq	(%rax,%r13), %rdi
	movq	%rdi, %rax
	subq	%r15, %rax
	cmpq	%r12, %rax
	jae	7b
	cmpq	$504, %r13
	ja	12f
	cmpq	$64, %rax
	jae	18f
12:
	xorl	%eax, %eax
13:
	movl	%r13d, %edx
	negl	%edx
	movq	%rax, %rcx
	andl	$7, %edx
	je	15f
	movq	%rax, %rcx
	.p2align	4
14:
	movzbl	(%r15,%rcx), %esi
	movb	%sil, (%rdi,%rcx)
	incq	%rcx
	decq	%rdx
	jne	14b
15:
	addq	%r13, %rax
	addq	$-505, %rax
	cmpq	$7, %rax
	jb	8b
	leaq	279(%r14), %rax
	addq	%rax, %r13
	.p2align	4
16:
	movzbl	(%r15,%rcx), %eax
	movb	%al, -7(%r13,%rcx)
	movzbl	1(%r15,%rcx), %eax
	movb	%al, -6(%r13,%rcx)
	movzbl	2(%r15,%rcx), %eax
	movb	%al, -5(%r13,%rcx)
	movzbl	3(%r15,%rcx), %eax
	movb	%al, -4(%r13,%rcx)
	movzbl	4(%r15,%rcx), %eax
	movb	%al, -3(%r13,%rcx)
	movzbl	5(%r15,%rcx), %eax
	movb	%al, -2(%r13,%rcx)
	movzbl	6(%r15,%rcx), %eax
	movb	%al, -1(%r13,%rcx)
	movzbl	7(%r15,%rcx), %eax
	movb	%al, (%r13,%rcx)
	addq	$8, %rcx
	cmpq	%rcx, %r12
	jne	16b
	jmp	8b
	.p2align	4
17:
	leaq	-449(%rbx), %rbp
	movq	%rbp, %r12
	vmovups	(%r14), %ymm0
	vmovups	32(%r14), %ymm1
	vmovups	64(%r14), %ymm2
	vmovups	96(%r14), %ymm3
	vmovups	128(%r14), %ymm4
	vmovups	160(%r14), %ymm5
	vmovups	192(%r14), %ymm6
	vmovups	224(%r14), %ymm7
	vmovups	%ymm0, 8(%rsp)
	vmovups	%ymm1, 40(%rsp)
	vmovups	%ymm2, 72(%rsp)
	vmovups	%ymm3, 104(%rsp)
	vmovups	%ymm4, 136(%rsp)
	vmovups	%ymm5, 168(%rsp)
	vmovups	%ymm6, 200(%rsp)
	shrq	$9, %r12
	vmovups	%ymm7, 232(%rsp)
	movq	256(%r14), %r13
	leaq	8(%rsp), %rdi
	movq	%r15, %rsi
	movq	%r13, %rdx
	movq	%r12, %rcx
	vzeroupper
	callq	blake2_parallel..lanes..blake2sp..compress_in_lanes_1_v4
	vmovups	8(%rsp), %ymm0
	vmovups	%ymm0, (%r14)
	vmovups	40(%rsp), %ymm0
	vmovups	%ymm0, 32(%r14)
	vmovups	72(%rsp), %ymm0
	vmovups	%ymm0, 64(%r14)
	vmovups	104(%rsp), %ymm0
	vmovups	%ymm0, 96(%r14)
	vmovups	136(%rsp), %ymm0
	vmovups	%ymm0, 128(%r14)
	vmovups	168(%rsp), %ymm0
	vmovups	%ymm0, 160(%r14)
	vmovups	200(%rsp), %ymm0
	vmovups	%ymm0, 192(%r14)
	vmovups	232(%rsp), %ymm0
	vmovups	%ymm0, 224(%r14)
	shlq	$6, %r12
	addq	%r13, %r12
	movq	%r12, 256(%r14)
	andq	$-512, %rbp
	addq	%rbp, %r15
	subq	%rbp, %rbx
	jmp	10b
18:
	cmpq	$448, %r13
	jbe	19f
	xorl	%eax, %eax
	jmp	21f
19:
	movl	%r12d, %eax
	vmovups	(%r15), %ymm0
	vmovups	32(%r15), %ymm1
	vmovups	%ymm0, (%rdi)
	andl	$-64, %eax
	vmovups	%ymm1, 32(%rdi)
	cmpq	$64, %rax
	je	20f
	vmovups	64(%r15), %ymm0
	vmovups	96(%r15), %ymm1
	vmovups	%ymm0, 64(%rdi)
	vmovups	%ymm1, 96(%rdi)
	cmpl	$128, %eax
	je	20f
	vmovups	128(%r15), %ymm0
	vmovups	160(%r15), %ymm1
	vmovups	%ymm0, 128(%rdi)
	vmovups	%ymm1, 160(%rdi)
	cmpl	$192, %eax
	je	20f
	vmovups	192(%r15), %ymm0
	vmovups	224(%r15), %ymm1
	vmovups	%ymm0, 192(%rdi)
	vmovups	%ymm1, 224(%rdi)
	cmpl	$256, %eax
	je	20f
	vmovups	256(%r15), %ymm0
	vmovups	288(%r15), %ymm1
	vmovups	%ymm0, 256(%rdi)
	vmovups	%ymm1, 288(%rdi)
	cmpl	$320, %eax
	je	20f
	vmovups	320(%r15), %ymm0
	vmovups	352(%r15), %ymm1
	vmovups	%ymm0, 320(%rdi)
	vmovups	%ymm1, 352(%rdi)
	cmpl	$384, %eax
	je	20f
	vmovups	384(%r15), %ymm0
	vmovups	416(%r15), %ymm1
	vmovups	%ymm0, 384(%rdi)
	vmovups	%ymm1, 416(%rdi)
20:
	cmpl	%eax, %r12d
	je	8b
	testb	$56, %r12b
	je	13b
21:
	movq	%rax, %rcx
	movl	%r12d, %eax
	andl	$-8, %eax
	.p2align	4
22:
	movq	(%r15,%rcx), %rdx
	movq	%rdx, (%rdi,%rcx)
	addq	$8, %rcx
	cmpq	%rcx, %rax
	jne	22b
	cmpl	%eax, %r12d
	je	8b
	jmp	13b
23:
	movq	%r15, %rsi
	movq	%rbx, %rdx
	vzeroupper
	vj_c_call	memmove
24:
	addq	%rbx, %r13
	movq	%r13, 264(%r14)
	addq	$264, %rsp
	popq	%rbx
	popq	%r12
	popq	%r13
	popq	%r14
	popq	%r15
	popq	%rbp
	vzeroupper
	retq
25:
	cmpq	$128, %rbx
	jae	26f
	xorl	%eax, %eax
	jmp	28f
26:
	movq	%rbx, %rax
	andq	$-128, %rax
	leaq	(%r14,%r13), %rcx
	addq	$368, %rcx
	xorl	%edx, %edx
	.p2align	4
27:
	vmovups	(%r15,%rdx), %ymm0
	vmovups	32(%r15,%rdx), %ymm1
	vmovups	64(%r15,%rdx), %ymm2
	vmovups	96(%r15,%rdx), %ymm3
	vmovups	%ymm0, -96(%rcx,%rdx)
	vmovups	%ymm1, -64(%rcx,%rdx)
	vmovups	%ymm2, -32(%rcx,%rdx)
	vmovups	%ymm3, (%rcx,%rdx)
	subq	$-128, %rdx
	cmpq	%rdx, %rax
	jne	27b
	cmpq	%rax, %rbx
	je	24b
	testb	$120, %bl
	je	3b
28:
	movq	%rax, %rcx
	movq	%rbx, %rax
	andq	$-8, %rax
	.p2align	4
29:
	movq	(%r15,%rcx), %rdx
	movq	%rdx, (%rdi,%rcx)
	addq	$8, %rcx
	cmpq	%rcx, %rax
	jne	29b
	cmpq	%rax, %rbx
	je	24b
	jmp	3b
	vj_end	blake2_parallel..lanes..blake2sp..Lanes..update_1_v4

	vj_constants	4
	.p2align	2, 0x0
.L1_v4_CPI72_0:
	.long	1779033703
.L1_v4_CPI72_1:
	.long	3144134277
.L1_v4_CPI72_2:
	.long	528734635
.L1_v4_CPI72_3:
	.long	1013904242
.L1_v4_CPI72_4:
	.long	1541459225
.L1_v4_CPI72_5:
	.long	2773480762
	vj_function	blake2_parallel..lanes..blake2sp..compress_in_lanes_1_v4
	vmovdqu	(%rdi), %ymm8
	vmovdqu64	32(%rdi), %ymm25
	vmovdqu64	64(%rdi), %ymm24
	vmovdqu	96(%rdi), %ymm0
	vmovdqu	128(%rdi), %ymm1
	vmovdqu	160(%rdi), %ymm13
	vmovdqu	192(%rdi), %ymm12
	vmovdqu	224(%rdi), %ymm2
	testq	%rcx, %rcx
	je	2f
	subq	$776, %rsp
	addq	$64, %rdx
	addq	$496, %rsi
	.p2align	4
1:
	vmovdqa64	%ymm2, %ymm28
	vmovdqa64	%ymm1, %ymm29
	vmovdqa64	%ymm0, %ymm30
	vmovdqu	%ymm0, 640(%rsp)
	vmovdqa64	%ymm8, %ymm31
	vmovdqu	%ymm8, 672(%rsp)
	vmovdqu	-368(%rsi), %ymm0
	vmovdqu	-304(%rsi), %ymm1
	vmovdqu	-240(%rsi), %ymm2
	vmovdqu	-176(%rsi), %ymm3
	vmovdqu	-112(%rsi), %ymm4
	vmovdqu	-48(%rsi), %ymm5
	vmovdqu	-496(%rsi), %ymm6
	vmovdqu	-464(%rsi), %ymm7
	vmovdqu	-432(%rsi), %ymm8
	vmovdqu	-400(%rsi), %ymm9
	vpunpckldq	%ymm8, %ymm6, %ymm10
	vpunpckhdq	%ymm8, %ymm6, %ymm6
	vpunpckldq	%ymm1, %ymm0, %ymm8
	vpunpckhdq	%ymm1, %ymm0, %ymm0
	vpunpcklqdq	%ymm8, %ymm10, %ymm1
	vpunpckhqdq	%ymm8, %ymm10, %ymm11
	vpunpckldq	%ymm3, %ymm2, %ymm8
	vpunpcklqdq	%ymm0, %ymm6, %ymm16
	vpunpckhdq	%ymm3, %ymm2, %ymm2
	vpunpckldq	%ymm5, %ymm4, %ymm3
	vpunpckhdq	%ymm5, %ymm4, %ymm4
	vpunpckhqdq	%ymm0, %ymm6, %ymm0
	vpunpcklqdq	%ymm3, %ymm8, %ymm5
	vpunpckhqdq	%ymm3, %ymm8, %ymm3
	vpunpcklqdq	%ymm4, %ymm2, %ymm6
	vpunpckhqdq	%ymm4, %ymm2, %ymm2
	vinserti32x4	$1, %xmm5, %ymm1, %ymm19
	vmovdqu64	%ymm19, 32(%rsp)
	vmovdqu	-336(%rsi), %ymm4
	vmovdqu	-272(%rsi), %ymm15
	vinserti128	$1, %xmm3, %ymm11, %ymm8
	vmovdqu	%ymm8, (%rsp)
	vmovdqu64	-208(%rsi), %ymm17
	vmovdqu64	-144(%rsi), %ymm18
	vmovdqu64	-80(%rsi), %ymm20
	vinserti32x4	$1, %xmm6, %ymm16, %ymm14
	vmovdqu64	-16(%rsi), %ymm22
	vpunpckldq	%ymm9, %ymm7, %ymm23
	vpunpckhdq	%ymm9, %ymm7, %ymm7
	vinserti32x4	$1, %xmm2, %ymm0, %ymm21
	vmovdqu64	%ymm21, 224(%rsp)
	vpunpckldq	%ymm15, %ymm4, %ymm9
	vpunpckhdq	%ymm15, %ymm4, %ymm4
	vpunpcklqdq	%ymm9, %ymm23, %ymm26
	vperm2i128	$49, %ymm5, %ymm1, %ymm10
	vpunpckhqdq	%ymm9, %ymm23, %ymm1
	vpunpcklqdq	%ymm4, %ymm7, %ymm27
	vpunpckhqdq	%ymm4, %ymm7, %ymm4
	vperm2i128	$49, %ymm3, %ymm11, %ymm15
	vpunpckldq	%ymm18, %ymm17, %ymm3
	vpunpckhdq	%ymm18, %ymm17, %ymm5
	vpunpckldq	%ymm22, %ymm20, %ymm7
	vshufi64x2	$3, %ymm6, %ymm16, %ymm17
	vpunpckhdq	%ymm22, %ymm20, %ymm6
	vpunpcklqdq	%ymm7, %ymm3, %ymm9
	vpunpckhqdq	%ymm7, %ymm3, %ymm3
	vshufi64x2	$3, %ymm2, %ymm0, %ymm18
	vmovdqu64	%ymm18, 256(%rsp)
	vpunpcklqdq	%ymm6, %ymm5, %ymm0
	vpunpckhqdq	%ymm6, %ymm5, %ymm2
	vinserti32x4	$1, %xmm9, %ymm26, %ymm6
	vinserti128	$1, %xmm3, %ymm1, %ymm7
	vinserti32x4	$1, %xmm0, %ymm27, %ymm11
	vinserti32x4	$1, %xmm2, %ymm4, %ymm20
	vshufi64x2	$3, %ymm9, %ymm26, %ymm9
	vperm2i128	$49, %ymm3, %ymm1, %ymm1
	vmovdqu	%ymm1, 160(%rsp)
	vshufi64x2	$3, %ymm0, %ymm27, %ymm16
	movl	%edx, %eax
	xorl	$1359893119, %eax
	vpbroadcastd	%eax, %ymm0
	vshufi64x2	$3, %ymm2, %ymm4, %ymm23
	vmovdqu64	%ymm29, 736(%rsp)
	vpaddd	%ymm29, %ymm31, %ymm1
	vpaddd	%ymm19, %ymm1, %ymm1
	vpxor	%ymm0, %ymm1, %ymm0
	vprold	$16, %ymm0, %ymm0
	vpaddd	.L1_v4_CPI72_0(%rip){1to8}, %ymm0, %ymm2
	vpxord	%ymm29, %ymm2, %ymm3
	vprold	$20, %ymm3, %ymm3
	vpaddd	%ymm1, %ymm8, %ymm1
	vpaddd	%ymm3, %ymm1, %ymm29
	vpxord	%ymm0, %ymm29, %ymm0
	vprold	$24, %ymm0, %ymm27
	vpaddd	%ymm27, %ymm2, %ymm26
	vmovdqa64	%ymm28, %ymm4
	vmovdqu64	%ymm28, 704(%rsp)
	vpaddd	%ymm28, %ymm30, %ymm0
	vpaddd	%ymm17, %ymm0, %ymm2
	vmovdqa64	%ymm17, %ymm19
	vpxord	%ymm3, %ymm26, %ymm0
	vpxord	.L1_v4_CPI72_4(%rip){1to8}, %ymm2, %ymm1
	vprold	$16, %ymm1, %ymm3
	vprold	$25, %ymm0, %ymm28
	vpaddd	.L1_v4_CPI72_5(%rip){1to8}, %ymm3, %ymm5
	vpxor	%ymm4, %ymm5, %ymm1
	vprold	$20, %ymm1, %ymm1
	vpaddd	%ymm18, %ymm2, %ymm2
	vpaddd	%ymm1, %ymm2, %ymm2
	vpxord	%ymm3, %ymm2, %ymm30
	vmovdqu64	%ymm16, 288(%rsp)
	vpaddd	%ymm28, %ymm16, %ymm3
	vpaddd	%ymm3, %ymm2, %ymm31
	vmovdqu	%ymm13, 608(%rsp)
	vmovdqa64	%ymm24, %ymm0
	vmovdqu64	%ymm24, 512(%rsp)
	vmovdqu64	%ymm25, 576(%rsp)
	movq	%rdx, %rax
	shrq	$32, %rax
	xorl	$-1694144372, %eax
	vpaddd	%ymm13, %ymm25, %ymm2
	vpaddd	%ymm2, %ymm14, %ymm2
	vmovdqa64	%ymm14, %ymm22
	vpbroadcastd	%eax, %ymm3
	vpxor	%ymm3, %ymm2, %ymm3
	vprold	$16, %ymm3, %ymm3
	vpaddd	.L1_v4_CPI72_1(%rip){1to8}, %ymm3, %ymm4
	vpxord	%ymm13, %ymm4, %ymm24
	vprold	$20, %ymm24, %ymm24
	vpaddd	%ymm21, %ymm2, %ymm2
	vpaddd	%ymm24, %ymm2, %ymm2
	vpxor	%ymm3, %ymm2, %ymm3
	vprold	$24, %ymm3, %ymm3
	vpaddd	%ymm3, %ymm4, %ymm4
	vmovdqu	%ymm12, 544(%rsp)
	vpaddd	%ymm12, %ymm0, %ymm25
	vmovdqu	%ymm10, 448(%rsp)
	vpaddd	%ymm10, %ymm25, %ymm25
	vpxord	%ymm24, %ymm4, %ymm24
	vpxord	.L1_v4_CPI72_2(%rip){1to8}, %ymm25, %ymm13
	vprold	$16, %ymm13, %ymm13
	vprold	$25, %ymm24, %ymm24
	vpaddd	.L1_v4_CPI72_3(%rip){1to8}, %ymm13, %ymm0
	vpxord	%ymm12, %ymm0, %ymm18
	vprold	$20, %ymm18, %ymm18
	vpaddd	%ymm15, %ymm25, %ymm25
	vpaddd	%ymm18, %ymm25, %ymm25
	vpxord	%ymm13, %ymm25, %ymm13
	vprold	$24, %ymm13, %ymm13
	vpaddd	%ymm0, %ymm13, %ymm0
	vpxord	%ymm18, %ymm0, %ymm18
	vprold	$24, %ymm30, %ymm30
	vprold	$25, %ymm18, %ymm18
	vpaddd	%ymm30, %ymm5, %ymm5
	vpxor	%ymm1, %ymm5, %ymm1
	vmovdqa	%ymm6, %ymm12
	vpaddd	%ymm6, %ymm29, %ymm29
	vprold	$25, %ymm1, %ymm1
	vpaddd	%ymm24, %ymm29, %ymm29
	vpxord	%ymm30, %ymm29, %ymm30
	vprold	$16, %ymm30, %ymm30
	vpaddd	%ymm0, %ymm30, %ymm0
	vpxord	%ymm24, %ymm0, %ymm24
	vprold	$20, %ymm24, %ymm24
	vmovdqu	%ymm7, 64(%rsp)
	vpaddd	%ymm7, %ymm29, %ymm29
	vpaddd	%ymm24, %ymm29, %ymm29
	vpxord	%ymm30, %ymm29, %ymm30
	vpaddd	%ymm2, %ymm11, %ymm2
	vpaddd	%ymm18, %ymm2, %ymm2
	vprold	$24, %ymm30, %ymm30
	vpxord	%ymm27, %ymm2, %ymm27
	vprold	$16, %ymm27, %ymm27
	vpaddd	%ymm5, %ymm27, %ymm5
	vpaddd	%ymm30, %ymm0, %ymm6
	vpxord	%ymm18, %ymm5, %ymm18
	vprold	$20, %ymm18, %ymm18
	vmovdqa64	%ymm20, %ymm14
	vpaddd	%ymm20, %ymm2, %ymm2
	vpxord	%ymm24, %ymm6, %ymm24
	vpaddd	%ymm18, %ymm2, %ymm2
	vpaddd	%ymm9, %ymm25, %ymm25
	vpaddd	%ymm1, %ymm25, %ymm25
	vprold	$25, %ymm24, %ymm0
	vpxord	%ymm3, %ymm25, %ymm3
	vprold	$16, %ymm3, %ymm3
	vpaddd	%ymm26, %ymm3, %ymm26
	vpxord	%ymm27, %ymm2, %ymm24
	vpxord	%ymm1, %ymm26, %ymm1
	vprold	$20, %ymm1, %ymm1
	vmovdqu64	160(%rsp), %ymm20
	vpaddd	%ymm20, %ymm25, %ymm25
	vprold	$24, %ymm24, %ymm27
	vpaddd	%ymm1, %ymm25, %ymm25
	vpxord	%ymm3, %ymm25, %ymm3
	vprold	$24, %ymm3, %ymm3
	vpaddd	%ymm27, %ymm5, %ymm24
	vpxord	%ymm13, %ymm31, %ymm5
	vprold	$16, %ymm5, %ymm5
	vpaddd	%ymm4, %ymm5, %ymm4
	vpaddd	%ymm3, %ymm26, %ymm13
	vpxord	%ymm28, %ymm4, %ymm26
	vprold	$20, %ymm26, %ymm26
	vmovdqa64	%ymm23, %ymm8
	vpaddd	%ymm23, %ymm31, %ymm28
	vpxord	%ymm18, %ymm24, %ymm18
	vpaddd	%ymm26, %ymm28, %ymm31
	vpxord	%ymm5, %ymm31, %ymm5
	vprold	$24, %ymm5, %ymm5
	vpxor	%ymm1, %ymm13, %ymm1
	vpaddd	%ymm5, %ymm4, %ymm4
	vpxord	%ymm26, %ymm4, %ymm26
	vprold	$25, %ymm26, %ymm26
	vprold	$25, %ymm18, %ymm18
	vpaddd	%ymm16, %ymm29, %ymm28
	vpaddd	%ymm26, %ymm28, %ymm28
	vpxord	%ymm27, %ymm28, %ymm27
	vprold	$25, %ymm1, %ymm29
	vprold	$16, %ymm27, %ymm1
	vpaddd	%ymm1, %ymm13, %ymm13
	vpxord	%ymm26, %ymm13, %ymm26
	vprold	$20, %ymm26, %ymm26
	vpaddd	%ymm11, %ymm28, %ymm27
	vmovdqa64	%ymm11, %ymm23
	vpaddd	%ymm26, %ymm27, %ymm27
	vpaddd	%ymm2, %ymm10, %ymm2
	vpxord	%ymm1, %ymm27, %ymm1
	vpaddd	%ymm0, %ymm2, %ymm28
	vpxord	%ymm3, %ymm28, %ymm2
	vprold	$16, %ymm2, %ymm2
	vprold	$24, %ymm1, %ymm3
	vpaddd	%ymm4, %ymm2, %ymm1
	vpxor	%ymm0, %ymm1, %ymm0
	vprold	$20, %ymm0, %ymm0
	vpaddd	%ymm3, %ymm13, %ymm4
	vpaddd	%ymm12, %ymm28, %ymm13
	vmovdqa64	%ymm12, %ymm17
	vmovdqu	%ymm12, 480(%rsp)
	vpaddd	%ymm0, %ymm13, %ymm13
	vpxor	%ymm2, %ymm13, %ymm2
	vpxord	%ymm26, %ymm4, %ymm26
	vprold	$24, %ymm2, %ymm28
	vpaddd	%ymm28, %ymm1, %ymm1
	vpaddd	%ymm7, %ymm25, %ymm2
	vpxor	%ymm0, %ymm1, %ymm0
	vpaddd	%ymm18, %ymm2, %ymm2
	vpxor	%ymm5, %ymm2, %ymm5
	vprold	$16, %ymm5, %ymm5
	vprold	$25, %ymm26, %ymm26
	vpaddd	%ymm6, %ymm5, %ymm6
	vpxord	%ymm18, %ymm6, %ymm18
	vprold	$20, %ymm18, %ymm18
	vprold	$25, %ymm0, %ymm25
	vpaddd	%ymm2, %ymm8, %ymm0
	vmovdqa	%ymm8, %ymm12
	vmovdqu	%ymm8, 128(%rsp)
	vpaddd	%ymm18, %ymm0, %ymm2
	vpaddd	%ymm20, %ymm31, %ymm0
	vpxor	%ymm5, %ymm2, %ymm5
	vpaddd	%ymm29, %ymm0, %ymm31
	vpxord	%ymm30, %ymm31, %ymm0
	vprold	$16, %ymm0, %ymm30
	vprold	$24, %ymm5, %ymm0
	vpaddd	%ymm24, %ymm30, %ymm5
	vpxord	%ymm29, %ymm5, %ymm24
	vprold	$20, %ymm24, %ymm24
	vpaddd	%ymm0, %ymm6, %ymm6
	vmovdqa64	%ymm19, %ymm7
	vpaddd	%ymm19, %ymm31, %ymm29
	vpaddd	%ymm24, %ymm29, %ymm29
	vpxord	%ymm30, %ymm29, %ymm30
	vpxord	%ymm18, %ymm6, %ymm18
	vprold	$24, %ymm30, %ymm30
	vpaddd	%ymm30, %ymm5, %ymm5
	vpxord	%ymm24, %ymm5, %ymm24
	vprold	$25, %ymm18, %ymm18
	vmovdqu	(%rsp), %ymm10
	vpaddd	%ymm10, %ymm27, %ymm27
	vpaddd	%ymm25, %ymm27, %ymm27
	vpxord	%ymm30, %ymm27, %ymm30
	vprold	$25, %ymm24, %ymm31
	vprold	$16, %ymm30, %ymm24
	vpaddd	%ymm6, %ymm24, %ymm6
	vpxord	%ymm25, %ymm6, %ymm25
	vprold	$20, %ymm25, %ymm30
	vpaddd	%ymm9, %ymm27, %ymm25
	vpaddd	%ymm30, %ymm25, %ymm27
	vpxord	%ymm24, %ymm27, %ymm24
	vprold	$24, %ymm24, %ymm24
	vmovdqu64	32(%rsp), %ymm19
	vpaddd	%ymm19, %ymm13, %ymm13
	vpaddd	%ymm18, %ymm13, %ymm13
	vpxor	%ymm3, %ymm13, %ymm3
	vpaddd	%ymm24, %ymm6, %ymm25
	vprold	$16, %ymm3, %ymm3
	vpaddd	%ymm5, %ymm3, %ymm5
	vpxord	%ymm18, %ymm5, %ymm6
	vpxord	%ymm30, %ymm25, %ymm18
	vprold	$20, %ymm6, %ymm6
	vpaddd	%ymm22, %ymm13, %ymm13
	vpaddd	%ymm2, %ymm14, %ymm2
	vpaddd	%ymm6, %ymm13, %ymm13
	vpaddd	%ymm31, %ymm2, %ymm2
	vpxord	%ymm28, %ymm2, %ymm28
	vprold	$16, %ymm28, %ymm28
	vprold	$25, %ymm18, %ymm18
	vpaddd	%ymm4, %ymm28, %ymm4
	vpxord	%ymm31, %ymm4, %ymm30
	vprold	$20, %ymm30, %ymm30
	vpxor	%ymm3, %ymm13, %ymm3
	vmovdqu	256(%rsp), %ymm11
	vpaddd	%ymm2, %ymm11, %ymm2
	vpaddd	%ymm30, %ymm2, %ymm31
	vpxord	%ymm28, %ymm31, %ymm2
	vprold	$24, %ymm3, %ymm3
	vprold	$24, %ymm2, %ymm2
	vpaddd	%ymm15, %ymm29, %ymm28
	vpaddd	%ymm26, %ymm28, %ymm29
	vpaddd	%ymm3, %ymm5, %ymm28
	vpxord	%ymm0, %ymm29, %ymm0
	vprold	$16, %ymm0, %ymm0
	vpaddd	%ymm1, %ymm0, %ymm1
	vpaddd	%ymm2, %ymm4, %ymm4
	vpxord	%ymm26, %ymm1, %ymm5
	vprold	$20, %ymm5, %ymm5
	vmovdqu	224(%rsp), %ymm8
	vpaddd	%ymm8, %ymm29, %ymm26
	vpxord	%ymm6, %ymm28, %ymm6
	vpaddd	%ymm5, %ymm26, %ymm29
	vpxord	%ymm0, %ymm29, %ymm0
	vprold	$24, %ymm0, %ymm26
	vpxord	%ymm30, %ymm4, %ymm0
	vpaddd	%ymm26, %ymm1, %ymm30
	vpxord	%ymm5, %ymm30, %ymm1
	vprold	$25, %ymm1, %ymm1
	vprold	$25, %ymm6, %ymm5
	vpaddd	%ymm14, %ymm27, %ymm6
	vmovdqa64	%ymm14, %ymm16
	vpaddd	%ymm1, %ymm6, %ymm6
	vpxor	%ymm3, %ymm6, %ymm3
	vprold	$25, %ymm0, %ymm0
	vprold	$16, %ymm3, %ymm3
	vpaddd	%ymm4, %ymm3, %ymm4
	vpxor	%ymm1, %ymm4, %ymm1
	vprold	$20, %ymm1, %ymm27
	vpaddd	%ymm17, %ymm6, %ymm1
	vpaddd	%ymm27, %ymm1, %ymm6
	vpaddd	%ymm9, %ymm13, %ymm1
	vmovdqu	%ymm9, 320(%rsp)
	vpxor	%ymm3, %ymm6, %ymm3
	vpaddd	%ymm18, %ymm1, %ymm13
	vpxor	%ymm2, %ymm13, %ymm1
	vprold	$16, %ymm1, %ymm2
	vprold	$24, %ymm3, %ymm1
	vpaddd	%ymm30, %ymm2, %ymm3
	vpxord	%ymm18, %ymm3, %ymm18
	vprold	$20, %ymm18, %ymm30
	vpaddd	%ymm1, %ymm4, %ymm18
	vpaddd	%ymm19, %ymm13, %ymm4
	vpaddd	%ymm30, %ymm4, %ymm13
	vpxor	%ymm2, %ymm13, %ymm2
	vpxord	%ymm27, %ymm18, %ymm27
	vprold	$24, %ymm2, %ymm2
	vpaddd	%ymm2, %ymm3, %ymm4
	vpaddd	%ymm15, %ymm31, %ymm3
	vpxord	%ymm30, %ymm4, %ymm30
	vpaddd	%ymm5, %ymm3, %ymm3
	vpxord	%ymm26, %ymm3, %ymm26
	vprold	$16, %ymm26, %ymm31
	vprold	$25, %ymm27, %ymm26
	vpaddd	%ymm25, %ymm31, %ymm25
	vpxord	%ymm5, %ymm25, %ymm5
	vprold	$20, %ymm5, %ymm5
	vprold	$25, %ymm30, %ymm27
	vpaddd	%ymm22, %ymm3, %ymm3
	vmovdqa64	%ymm22, %ymm19
	vpaddd	%ymm5, %ymm3, %ymm30
	vpaddd	%ymm12, %ymm29, %ymm3
	vpxord	%ymm31, %ymm30, %ymm29
	vpaddd	%ymm0, %ymm3, %ymm31
	vpxord	%ymm24, %ymm31, %ymm3
	vprold	$16, %ymm3, %ymm24
	vprold	$24, %ymm29, %ymm3
	vpaddd	%ymm28, %ymm24, %ymm28
	vpxord	%ymm0, %ymm28, %ymm0
	vprold	$20, %ymm0, %ymm0
	vpaddd	%ymm3, %ymm25, %ymm25
	vpaddd	%ymm20, %ymm31, %ymm29
	vpaddd	%ymm0, %ymm29, %ymm29
	vpxord	%ymm24, %ymm29, %ymm24
	vpxord	%ymm5, %ymm25, %ymm5
	vprold	$24, %ymm24, %ymm24
	vpaddd	%ymm24, %ymm28, %ymm28
	vpxord	%ymm0, %ymm28, %ymm0
	vprold	$25, %ymm5, %ymm5
	vpaddd	%ymm23, %ymm6, %ymm6
	vpaddd	%ymm27, %ymm6, %ymm6
	vpxord	%ymm24, %ymm6, %ymm24
	vprold	$25, %ymm0, %ymm0
	vprold	$16, %ymm24, %ymm24
	vpaddd	%ymm25, %ymm24, %ymm25
	vpxord	%ymm27, %ymm25, %ymm27
	vprold	$20, %ymm27, %ymm27
	vmovdqu	288(%rsp), %ymm12
	vpaddd	%ymm6, %ymm12, %ymm6
	vpaddd	%ymm27, %ymm6, %ymm6
	vpxord	%ymm24, %ymm6, %ymm24
	vprold	$24, %ymm24, %ymm24
	vpaddd	%ymm8, %ymm13, %ymm13
	vpaddd	%ymm5, %ymm13, %ymm13
	vpxord	%ymm1, %ymm13, %ymm31
	vpaddd	%ymm24, %ymm25, %ymm1
	vprold	$16, %ymm31, %ymm25
	vpaddd	%ymm28, %ymm25, %ymm28
	vpxord	%ymm5, %ymm28, %ymm5
	vpxord	%ymm27, %ymm1, %ymm27
	vprold	$20, %ymm5, %ymm5
	vpaddd	%ymm7, %ymm13, %ymm13
	vpaddd	%ymm11, %ymm30, %ymm30
	vpaddd	%ymm5, %ymm13, %ymm13
	vpaddd	%ymm0, %ymm30, %ymm30
	vpxord	%ymm2, %ymm30, %ymm2
	vprold	$16, %ymm2, %ymm2
	vprold	$25, %ymm27, %ymm31
	vpaddd	%ymm18, %ymm2, %ymm18
	vpxord	%ymm0, %ymm18, %ymm0
	vprold	$20, %ymm0, %ymm0
	vpxord	%ymm25, %ymm13, %ymm25
	vpaddd	%ymm10, %ymm30, %ymm27
	vpaddd	%ymm0, %ymm27, %ymm30
	vpxord	%ymm2, %ymm30, %ymm2
	vprold	$24, %ymm25, %ymm25
	vprold	$24, %ymm2, %ymm2
	vmovdqu64	64(%rsp), %ymm21
	vpaddd	%ymm21, %ymm29, %ymm27
	vpaddd	%ymm26, %ymm27, %ymm29
	vpaddd	%ymm25, %ymm28, %ymm27
	vpxord	%ymm3, %ymm29, %ymm3
	vprold	$16, %ymm3, %ymm3
	vpaddd	%ymm4, %ymm3, %ymm4
	vpaddd	%ymm2, %ymm18, %ymm18
	vpxord	%ymm26, %ymm4, %ymm26
	vprold	$20, %ymm26, %ymm26
	vmovdqu64	448(%rsp), %ymm22
	vpaddd	%ymm22, %ymm29, %ymm28
	vpxord	%ymm5, %ymm27, %ymm5
	vpaddd	%ymm26, %ymm28, %ymm28
	vpxord	%ymm3, %ymm28, %ymm3
	vprold	$24, %ymm3, %ymm29
	vpxord	%ymm0, %ymm18, %ymm0
	vpaddd	%ymm29, %ymm4, %ymm4
	vpxord	%ymm26, %ymm4, %ymm3
	vprold	$25, %ymm3, %ymm3
	vprold	$25, %ymm5, %ymm5
	vpaddd	%ymm6, %ymm11, %ymm6
	vpaddd	%ymm3, %ymm6, %ymm6
	vpxord	%ymm25, %ymm6, %ymm25
	vprold	$25, %ymm0, %ymm0
	vprold	$16, %ymm25, %ymm25
	vpaddd	%ymm18, %ymm25, %ymm18
	vpxord	%ymm3, %ymm18, %ymm3
	vprold	$20, %ymm3, %ymm26
	vpaddd	%ymm21, %ymm6, %ymm3
	vpaddd	%ymm26, %ymm3, %ymm6
	vpaddd	%ymm8, %ymm13, %ymm3
	vpxord	%ymm25, %ymm6, %ymm13
	vpaddd	%ymm31, %ymm3, %ymm25
	vpxord	%ymm2, %ymm25, %ymm2
	vprold	$16, %ymm2, %ymm2
	vprold	$24, %ymm13, %ymm3
	vpaddd	%ymm4, %ymm2, %ymm4
	vpxord	%ymm31, %ymm4, %ymm13
	vprold	$20, %ymm13, %ymm31
	vpaddd	%ymm3, %ymm18, %ymm13
	vpaddd	%ymm10, %ymm25, %ymm18
	vpaddd	%ymm31, %ymm18, %ymm18
	vpxord	%ymm2, %ymm18, %ymm2
	vpxord	%ymm26, %ymm13, %ymm25
	vprold	$24, %ymm2, %ymm2
	vpaddd	%ymm2, %ymm4, %ymm26
	vpaddd	%ymm20, %ymm30, %ymm4
	vpxord	%ymm31, %ymm26, %ymm30
	vpaddd	%ymm5, %ymm4, %ymm4
	vpxord	%ymm29, %ymm4, %ymm29
	vprold	$16, %ymm29, %ymm29
	vprold	$25, %ymm25, %ymm25
	vpaddd	%ymm1, %ymm29, %ymm1
	vpxor	%ymm5, %ymm1, %ymm5
	vprold	$20, %ymm5, %ymm5
	vprold	$25, %ymm30, %ymm30
	vpaddd	%ymm4, %ymm9, %ymm4
	vpaddd	%ymm5, %ymm4, %ymm31
	vpaddd	%ymm14, %ymm28, %ymm4
	vpxord	%ymm29, %ymm31, %ymm28
	vpaddd	%ymm0, %ymm4, %ymm29
	vpxord	%ymm24, %ymm29, %ymm4
	vprold	$16, %ymm4, %ymm24
	vprold	$24, %ymm28, %ymm4
	vpaddd	%ymm27, %ymm24, %ymm27
	vpxord	%ymm0, %ymm27, %ymm0
	vprold	$20, %ymm0, %ymm0
	vpaddd	%ymm4, %ymm1, %ymm1
	vpaddd	%ymm12, %ymm29, %ymm28
	vpaddd	%ymm0, %ymm28, %ymm28
	vpxord	%ymm24, %ymm28, %ymm24
	vpxor	%ymm5, %ymm1, %ymm5
	vprold	$24, %ymm24, %ymm24
	vpaddd	%ymm24, %ymm27, %ymm27
	vpxord	%ymm0, %ymm27, %ymm0
	vprold	$25, %ymm5, %ymm5
	vpaddd	%ymm19, %ymm6, %ymm6
	vpaddd	%ymm30, %ymm6, %ymm6
	vpxord	%ymm24, %ymm6, %ymm24
	vprold	$25, %ymm0, %ymm0
	vprold	$16, %ymm24, %ymm24
	vpaddd	%ymm1, %ymm24, %ymm1
	vpxord	%ymm30, %ymm1, %ymm29
	vprold	$20, %ymm29, %ymm29
	vpaddd	%ymm7, %ymm6, %ymm6
	vpaddd	%ymm29, %ymm6, %ymm6
	vpxord	%ymm24, %ymm6, %ymm24
	vprold	$24, %ymm24, %ymm24
	vmovdqu	%ymm15, 96(%rsp)
	vpaddd	%ymm15, %ymm18, %ymm18
	vpaddd	%ymm5, %ymm18, %ymm18
	vpxord	%ymm3, %ymm18, %ymm3
	vpaddd	%ymm24, %ymm1, %ymm1
	vprold	$16, %ymm3, %ymm3
	vpaddd	%ymm27, %ymm3, %ymm27
	vpxord	%ymm5, %ymm27, %ymm5
	vpxord	%ymm29, %ymm1, %ymm29
	vprold	$20, %ymm5, %ymm5
	vpaddd	%ymm23, %ymm18, %ymm18
	vmovdqa64	%ymm22, %ymm14
	vpaddd	%ymm22, %ymm31, %ymm30
	vpaddd	%ymm5, %ymm18, %ymm18
	vpaddd	%ymm0, %ymm30, %ymm30
	vpxord	%ymm2, %ymm30, %ymm2
	vprold	$16, %ymm2, %ymm2
	vprold	$25, %ymm29, %ymm29
	vpaddd	%ymm2, %ymm13, %ymm13
	vpxor	%ymm0, %ymm13, %ymm0
	vprold	$20, %ymm0, %ymm0
	vpxord	%ymm3, %ymm18, %ymm3
	vmovdqu	32(%rsp), %ymm8
	vpaddd	%ymm8, %ymm30, %ymm30
	vpaddd	%ymm0, %ymm30, %ymm30
	vpxord	%ymm2, %ymm30, %ymm2
	vprold	$24, %ymm3, %ymm3
	vprold	$24, %ymm2, %ymm2
	vmovdqu64	128(%rsp), %ymm22
	vpaddd	%ymm22, %ymm28, %ymm28
	vpaddd	%ymm25, %ymm28, %ymm28
	vpaddd	%ymm3, %ymm27, %ymm27
	vpxord	%ymm4, %ymm28, %ymm4
	vprold	$16, %ymm4, %ymm4
	vpaddd	%ymm26, %ymm4, %ymm26
	vpaddd	%ymm2, %ymm13, %ymm13
	vpxord	%ymm25, %ymm26, %ymm25
	vprold	$20, %ymm25, %ymm25
	vmovdqu	480(%rsp), %ymm10
	vpaddd	%ymm10, %ymm28, %ymm28
	vpxord	%ymm5, %ymm27, %ymm5
	vpaddd	%ymm25, %ymm28, %ymm28
	vpxord	%ymm4, %ymm28, %ymm4
	vprold	$24, %ymm4, %ymm4
	vpxor	%ymm0, %ymm13, %ymm0
	vpaddd	%ymm4, %ymm26, %ymm26
	vpxord	%ymm25, %ymm26, %ymm25
	vprold	$25, %ymm25, %ymm25
	vprold	$25, %ymm5, %ymm5
	vpaddd	%ymm21, %ymm6, %ymm6
	vpaddd	%ymm25, %ymm6, %ymm6
	vpxor	%ymm3, %ymm6, %ymm3
	vprold	$25, %ymm0, %ymm31
	vprold	$16, %ymm3, %ymm0
	vpaddd	%ymm0, %ymm13, %ymm13
	vpxord	%ymm25, %ymm13, %ymm3
	vprold	$20, %ymm3, %ymm25
	vpaddd	%ymm6, %ymm8, %ymm3
	vpaddd	%ymm25, %ymm3, %ymm6
	vpaddd	%ymm15, %ymm18, %ymm3
	vpxor	%ymm0, %ymm6, %ymm0
	vpaddd	%ymm29, %ymm3, %ymm18
	vpxord	%ymm2, %ymm18, %ymm2
	vprold	$16, %ymm2, %ymm2
	vprold	$24, %ymm0, %ymm3
	vpaddd	%ymm26, %ymm2, %ymm0
	vpxord	%ymm29, %ymm0, %ymm26
	vprold	$20, %ymm26, %ymm29
	vpaddd	%ymm3, %ymm13, %ymm26
	vpaddd	%ymm11, %ymm18, %ymm13
	vpaddd	%ymm29, %ymm13, %ymm13
	vpxor	%ymm2, %ymm13, %ymm2
	vpxord	%ymm25, %ymm26, %ymm18
	vprold	$24, %ymm2, %ymm2
	vpaddd	%ymm2, %ymm0, %ymm0
	vpaddd	%ymm19, %ymm30, %ymm25
	vmovdqa64	%ymm19, %ymm15
	vmovdqu64	%ymm19, 416(%rsp)
	vpxord	%ymm29, %ymm0, %ymm29
	vpaddd	%ymm5, %ymm25, %ymm30
	vpxord	%ymm4, %ymm30, %ymm4
	vprold	$16, %ymm4, %ymm4
	vprold	$25, %ymm18, %ymm25
	vpaddd	%ymm1, %ymm4, %ymm1
	vpxor	%ymm5, %ymm1, %ymm5
	vprold	$20, %ymm5, %ymm5
	vprold	$25, %ymm29, %ymm18
	vpaddd	%ymm14, %ymm30, %ymm29
	vpaddd	%ymm5, %ymm29, %ymm29
	vpaddd	%ymm23, %ymm28, %ymm28
	vpxord	%ymm4, %ymm29, %ymm4
	vpaddd	%ymm31, %ymm28, %ymm28
	vpxord	%ymm24, %ymm28, %ymm24
	vprold	$16, %ymm24, %ymm24
	vprold	$24, %ymm4, %ymm4
	vpaddd	%ymm27, %ymm24, %ymm27
	vpxord	%ymm31, %ymm27, %ymm30
	vprold	$20, %ymm30, %ymm30
	vpaddd	%ymm4, %ymm1, %ymm1
	vpaddd	%ymm22, %ymm28, %ymm28
	vpaddd	%ymm30, %ymm28, %ymm28
	vpxord	%ymm24, %ymm28, %ymm24
	vpxor	%ymm5, %ymm1, %ymm5
	vprold	$24, %ymm24, %ymm24
	vpaddd	%ymm24, %ymm27, %ymm27
	vpxord	%ymm30, %ymm27, %ymm30
	vprold	$25, %ymm5, %ymm5
	vpaddd	%ymm6, %ymm12, %ymm6
	vmovdqa64	%ymm12, %ymm21
	vpaddd	%ymm18, %ymm6, %ymm6
	vpxord	%ymm24, %ymm6, %ymm24
	vprold	$25, %ymm30, %ymm30
	vprold	$16, %ymm24, %ymm24
	vpaddd	%ymm1, %ymm24, %ymm1
	vpxord	%ymm18, %ymm1, %ymm18
	vprold	$20, %ymm18, %ymm18
	vmovdqu64	(%rsp), %ymm17
	vpaddd	%ymm17, %ymm6, %ymm6
	vpaddd	%ymm18, %ymm6, %ymm6
	vpxord	%ymm24, %ymm6, %ymm24
	vprold	$24, %ymm24, %ymm24
	vmovdqu64	%ymm16, 192(%rsp)
	vpaddd	%ymm16, %ymm13, %ymm13
	vpaddd	%ymm5, %ymm13, %ymm13
	vpxor	%ymm3, %ymm13, %ymm3
	vpaddd	%ymm24, %ymm1, %ymm1
	vprold	$16, %ymm3, %ymm3
	vpaddd	%ymm27, %ymm3, %ymm27
	vpxord	%ymm5, %ymm27, %ymm5
	vpxord	%ymm18, %ymm1, %ymm18
	vprold	$20, %ymm5, %ymm5
	vmovdqu64	320(%rsp), %ymm31
	vpaddd	%ymm31, %ymm13, %ymm13
	vmovdqu	%ymm7, 384(%rsp)
	vpaddd	%ymm7, %ymm29, %ymm29
	vpaddd	%ymm5, %ymm13, %ymm13
	vpaddd	%ymm30, %ymm29, %ymm29
	vpxord	%ymm2, %ymm29, %ymm2
	vprold	$16, %ymm2, %ymm2
	vprold	$25, %ymm18, %ymm18
	vpaddd	%ymm26, %ymm2, %ymm26
	vpxord	%ymm30, %ymm26, %ymm30
	vprold	$20, %ymm30, %ymm30
	vpxor	%ymm3, %ymm13, %ymm3
	vmovdqa64	%ymm10, %ymm19
	vpaddd	%ymm10, %ymm29, %ymm29
	vpaddd	%ymm30, %ymm29, %ymm29
	vpxord	%ymm2, %ymm29, %ymm2
	vprold	$24, %ymm3, %ymm3
	vprold	$24, %ymm2, %ymm2
	vmovdqu	224(%rsp), %ymm10
	vpaddd	%ymm10, %ymm28, %ymm28
	vpaddd	%ymm25, %ymm28, %ymm28
	vpaddd	%ymm3, %ymm27, %ymm27
	vpxord	%ymm4, %ymm28, %ymm4
	vprold	$16, %ymm4, %ymm4
	vpaddd	%ymm0, %ymm4, %ymm0
	vpaddd	%ymm2, %ymm26, %ymm26
	vpxord	%ymm25, %ymm0, %ymm25
	vprold	$20, %ymm25, %ymm25
	vmovdqu	160(%rsp), %ymm12
	vpaddd	%ymm12, %ymm28, %ymm28
	vpxord	%ymm5, %ymm27, %ymm5
	vpaddd	%ymm25, %ymm28, %ymm28
	vpxord	%ymm4, %ymm28, %ymm4
	vprold	$24, %ymm4, %ymm4
	vpxord	%ymm30, %ymm26, %ymm30
	vpaddd	%ymm4, %ymm0, %ymm0
	vpxord	%ymm25, %ymm0, %ymm25
	vprold	$25, %ymm25, %ymm25
	vprold	$25, %ymm5, %ymm5
	vpaddd	%ymm6, %ymm15, %ymm6
	vpaddd	%ymm25, %ymm6, %ymm6
	vpxor	%ymm3, %ymm6, %ymm3
	vprold	$25, %ymm30, %ymm30
	vprold	$16, %ymm3, %ymm3
	vpaddd	%ymm26, %ymm3, %ymm26
	vpxord	%ymm25, %ymm26, %ymm25
	vprold	$20, %ymm25, %ymm25
	vpaddd	%ymm31, %ymm6, %ymm6
	vpaddd	%ymm25, %ymm6, %ymm6
	vpaddd	%ymm7, %ymm13, %ymm13
	vpxor	%ymm3, %ymm6, %ymm3
	vpaddd	%ymm18, %ymm13, %ymm13
	vpxor	%ymm2, %ymm13, %ymm2
	vprold	$16, %ymm2, %ymm2
	vprold	$24, %ymm3, %ymm3
	vpaddd	%ymm0, %ymm2, %ymm0
	vpxord	%ymm18, %ymm0, %ymm18
	vprold	$20, %ymm18, %ymm18
	vpaddd	%ymm3, %ymm26, %ymm26
	vpaddd	%ymm23, %ymm13, %ymm13
	vmovdqa64	%ymm23, %ymm20
	vmovdqu64	%ymm23, 352(%rsp)
	vpaddd	%ymm18, %ymm13, %ymm13
	vpxor	%ymm2, %ymm13, %ymm2
	vpxord	%ymm25, %ymm26, %ymm25
	vprold	$24, %ymm2, %ymm2
	vpaddd	%ymm2, %ymm0, %ymm0
	vpaddd	%ymm8, %ymm29, %ymm29
	vpxord	%ymm18, %ymm0, %ymm18
	vpaddd	%ymm5, %ymm29, %ymm29
	vpxord	%ymm4, %ymm29, %ymm4
	vprold	$16, %ymm4, %ymm4
	vprold	$25, %ymm25, %ymm25
	vpaddd	%ymm1, %ymm4, %ymm1
	vpxor	%ymm5, %ymm1, %ymm5
	vprold	$20, %ymm5, %ymm5
	vprold	$25, %ymm18, %ymm18
	vpaddd	%ymm16, %ymm29, %ymm29
	vpaddd	%ymm5, %ymm29, %ymm29
	vpaddd	%ymm19, %ymm28, %ymm28
	vmovdqa64	%ymm19, %ymm23
	vpxord	%ymm4, %ymm29, %ymm4
	vpaddd	%ymm30, %ymm28, %ymm28
	vpxord	%ymm24, %ymm28, %ymm24
	vprold	$16, %ymm24, %ymm24
	vprold	$24, %ymm4, %ymm4
	vpaddd	%ymm27, %ymm24, %ymm27
	vpxord	%ymm30, %ymm27, %ymm30
	vprold	$20, %ymm30, %ymm30
	vpaddd	%ymm4, %ymm1, %ymm1
	vpaddd	%ymm10, %ymm28, %ymm28
	vpaddd	%ymm30, %ymm28, %ymm28
	vpxord	%ymm24, %ymm28, %ymm24
	vpxor	%ymm5, %ymm1, %ymm5
	vprold	$24, %ymm24, %ymm24
	vpaddd	%ymm24, %ymm27, %ymm27
	vpxord	%ymm30, %ymm27, %ymm30
	vprold	$25, %ymm5, %ymm5
	vmovdqa	%ymm14, %ymm7
	vpaddd	%ymm6, %ymm14, %ymm6
	vpaddd	%ymm18, %ymm6, %ymm6
	vpxord	%ymm24, %ymm6, %ymm24
	vprold	$25, %ymm30, %ymm30
	vprold	$16, %ymm24, %ymm24
	vpaddd	%ymm1, %ymm24, %ymm1
	vpxord	%ymm18, %ymm1, %ymm18
	vprold	$20, %ymm18, %ymm18
	vpaddd	%ymm6, %ymm12, %ymm6
	vpaddd	%ymm18, %ymm6, %ymm6
	vpxord	%ymm24, %ymm6, %ymm24
	vprold	$24, %ymm24, %ymm24
	vpaddd	%ymm11, %ymm13, %ymm13
	vpaddd	%ymm5, %ymm13, %ymm13
	vpxor	%ymm3, %ymm13, %ymm3
	vpaddd	%ymm24, %ymm1, %ymm1
	vprold	$16, %ymm3, %ymm3
	vpaddd	%ymm27, %ymm3, %ymm27
	vpxord	%ymm5, %ymm27, %ymm5
	vpxord	%ymm18, %ymm1, %ymm18
	vprold	$20, %ymm5, %ymm5
	vmovdqu	96(%rsp), %ymm14
	vpaddd	%ymm14, %ymm13, %ymm13
	vpaddd	%ymm22, %ymm29, %ymm29
	vpaddd	%ymm5, %ymm13, %ymm13
	vpaddd	%ymm30, %ymm29, %ymm29
	vpxord	%ymm2, %ymm29, %ymm2
	vprold	$16, %ymm2, %ymm2
	vprold	$25, %ymm18, %ymm18
	vpaddd	%ymm26, %ymm2, %ymm26
	vpxord	%ymm30, %ymm26, %ymm30
	vprold	$20, %ymm30, %ymm30
	vpxor	%ymm3, %ymm13, %ymm3
	vmovdqa64	%ymm21, %ymm9
	vpaddd	%ymm21, %ymm29, %ymm29
	vpaddd	%ymm30, %ymm29, %ymm29
	vpxord	%ymm2, %ymm29, %ymm2
	vprold	$24, %ymm3, %ymm3
	vprold	$24, %ymm2, %ymm2
	vpaddd	%ymm17, %ymm28, %ymm28
	vpaddd	%ymm25, %ymm28, %ymm28
	vpaddd	%ymm3, %ymm27, %ymm27
	vpxord	%ymm4, %ymm28, %ymm4
	vprold	$16, %ymm4, %ymm4
	vpaddd	%ymm0, %ymm4, %ymm0
	vpaddd	%ymm2, %ymm26, %ymm26
	vpxord	%ymm25, %ymm0, %ymm25
	vprold	$20, %ymm25, %ymm25
	vmovdqu64	64(%rsp), %ymm21
	vpaddd	%ymm21, %ymm28, %ymm28
	vpxord	%ymm5, %ymm27, %ymm5
	vpaddd	%ymm25, %ymm28, %ymm28
	vpxord	%ymm4, %ymm28, %ymm4
	vprold	$24, %ymm4, %ymm4
	vpxord	%ymm30, %ymm26, %ymm30
	vpaddd	%ymm4, %ymm0, %ymm0
	vpxord	%ymm25, %ymm0, %ymm25
	vprold	$25, %ymm25, %ymm25
	vprold	$25, %ymm5, %ymm5
	vpaddd	%ymm31, %ymm6, %ymm6
	vpaddd	%ymm25, %ymm6, %ymm6
	vpxor	%ymm3, %ymm6, %ymm3
	vprold	$25, %ymm30, %ymm30
	vprold	$16, %ymm3, %ymm3
	vpaddd	%ymm26, %ymm3, %ymm26
	vpxord	%ymm25, %ymm26, %ymm25
	vprold	$20, %ymm25, %ymm25
	vpaddd	%ymm6, %ymm14, %ymm6
	vpaddd	%ymm25, %ymm6, %ymm6
	vpaddd	%ymm17, %ymm13, %ymm13
	vmovdqa64	%ymm17, %ymm19
	vpxor	%ymm3, %ymm6, %ymm3
	vpaddd	%ymm18, %ymm13, %ymm13
	vpxor	%ymm2, %ymm13, %ymm2
	vprold	$16, %ymm2, %ymm2
	vprold	$24, %ymm3, %ymm3
	vpaddd	%ymm0, %ymm2, %ymm0
	vpxord	%ymm18, %ymm0, %ymm18
	vprold	$20, %ymm18, %ymm18
	vpaddd	%ymm3, %ymm26, %ymm26
	vpaddd	%ymm22, %ymm13, %ymm13
	vpaddd	%ymm18, %ymm13, %ymm13
	vpxor	%ymm2, %ymm13, %ymm2
	vpxord	%ymm25, %ymm26, %ymm25
	vprold	$24, %ymm2, %ymm2
	vpaddd	%ymm2, %ymm0, %ymm0
	vpaddd	%ymm9, %ymm29, %ymm29
	vpxord	%ymm18, %ymm0, %ymm18
	vpaddd	%ymm5, %ymm29, %ymm29
	vpxord	%ymm4, %ymm29, %ymm4
	vprold	$16, %ymm4, %ymm4
	vprold	$25, %ymm25, %ymm25
	vpaddd	%ymm1, %ymm4, %ymm1
	vpxor	%ymm5, %ymm1, %ymm5
	vprold	$20, %ymm5, %ymm5
	vprold	$25, %ymm18, %ymm18
	vpaddd	%ymm12, %ymm29, %ymm29
	vpaddd	%ymm5, %ymm29, %ymm29
	vpaddd	%ymm7, %ymm28, %ymm28
	vmovdqa64	%ymm7, %ymm22
	vpxord	%ymm4, %ymm29, %ymm4
	vpaddd	%ymm30, %ymm28, %ymm28
	vpxord	%ymm24, %ymm28, %ymm24
	vprold	$16, %ymm24, %ymm24
	vprold	$24, %ymm4, %ymm4
	vpaddd	%ymm27, %ymm24, %ymm27
	vpxord	%ymm30, %ymm27, %ymm30
	vprold	$20, %ymm30, %ymm30
	vpaddd	%ymm4, %ymm1, %ymm1
	vpaddd	%ymm20, %ymm28, %ymm28
	vpaddd	%ymm30, %ymm28, %ymm28
	vpxord	%ymm24, %ymm28, %ymm24
	vpxor	%ymm5, %ymm1, %ymm5
	vprold	$24, %ymm24, %ymm24
	vpaddd	%ymm24, %ymm27, %ymm27
	vpxord	%ymm30, %ymm27, %ymm30
	vprold	$25, %ymm5, %ymm5
	vpaddd	%ymm6, %ymm8, %ymm6
	vmovdqa64	%ymm8, %ymm20
	vpaddd	%ymm18, %ymm6, %ymm6
	vpxord	%ymm24, %ymm6, %ymm24
	vprold	$25, %ymm30, %ymm30
	vprold	$16, %ymm24, %ymm24
	vpaddd	%ymm1, %ymm24, %ymm1
	vpxord	%ymm18, %ymm1, %ymm18
	vprold	$20, %ymm18, %ymm18
	vmovdqa	%ymm11, %ymm8
	vpaddd	%ymm6, %ymm11, %ymm6
	vpaddd	%ymm18, %ymm6, %ymm6
	vpxord	%ymm24, %ymm6, %ymm24
	vprold	$24, %ymm24, %ymm24
	vmovdqu64	384(%rsp), %ymm16
	vpaddd	%ymm16, %ymm13, %ymm13
	vpaddd	%ymm5, %ymm13, %ymm13
	vpxor	%ymm3, %ymm13, %ymm3
	vpaddd	%ymm24, %ymm1, %ymm1
	vprold	$16, %ymm3, %ymm3
	vpaddd	%ymm27, %ymm3, %ymm27
	vpxord	%ymm5, %ymm27, %ymm5
	vpxord	%ymm18, %ymm1, %ymm18
	vprold	$20, %ymm5, %ymm5
	vpaddd	%ymm10, %ymm13, %ymm13
	vmovdqa64	%ymm21, %ymm7
	vpaddd	%ymm21, %ymm29, %ymm29
	vpaddd	%ymm5, %ymm13, %ymm13
	vpaddd	%ymm30, %ymm29, %ymm29
	vpxord	%ymm2, %ymm29, %ymm2
	vprold	$16, %ymm2, %ymm2
	vprold	$25, %ymm18, %ymm18
	vpaddd	%ymm26, %ymm2, %ymm26
	vpxord	%ymm30, %ymm26, %ymm30
	vprold	$20, %ymm30, %ymm30
	vpxor	%ymm3, %ymm13, %ymm3
	vmovdqu	416(%rsp), %ymm11
	vpaddd	%ymm11, %ymm29, %ymm29
	vpaddd	%ymm30, %ymm29, %ymm29
	vpxord	%ymm2, %ymm29, %ymm2
	vprold	$24, %ymm3, %ymm3
	vprold	$24, %ymm2, %ymm2
	vpaddd	%ymm23, %ymm28, %ymm28
	vpaddd	%ymm25, %ymm28, %ymm28
	vpaddd	%ymm3, %ymm27, %ymm27
	vpxord	%ymm4, %ymm28, %ymm4
	vprold	$16, %ymm4, %ymm4
	vpaddd	%ymm0, %ymm4, %ymm0
	vpaddd	%ymm2, %ymm26, %ymm26
	vpxord	%ymm25, %ymm0, %ymm25
	vprold	$20, %ymm25, %ymm25
	vmovdqu64	192(%rsp), %ymm17
	vpaddd	%ymm17, %ymm28, %ymm28
	vpxord	%ymm5, %ymm27, %ymm5
	vpaddd	%ymm25, %ymm28, %ymm28
	vpxord	%ymm4, %ymm28, %ymm4
	vprold	$24, %ymm4, %ymm4
	vpxord	%ymm30, %ymm26, %ymm30
	vpaddd	%ymm4, %ymm0, %ymm0
	vpxord	%ymm25, %ymm0, %ymm25
	vprold	$25, %ymm25, %ymm25
	vprold	$25, %ymm5, %ymm5
	vpaddd	%ymm6, %ymm12, %ymm6
	vmovdqa64	%ymm12, %ymm21
	vpaddd	%ymm25, %ymm6, %ymm6
	vpxor	%ymm3, %ymm6, %ymm3
	vprold	$25, %ymm30, %ymm30
	vprold	$16, %ymm3, %ymm3
	vpaddd	%ymm26, %ymm3, %ymm26
	vpxord	%ymm25, %ymm26, %ymm25
	vprold	$20, %ymm25, %ymm25
	vpaddd	%ymm17, %ymm6, %ymm6
	vpaddd	%ymm25, %ymm6, %ymm6
	vpaddd	%ymm8, %ymm13, %ymm13
	vpxor	%ymm3, %ymm6, %ymm3
	vpaddd	%ymm18, %ymm13, %ymm13
	vpxor	%ymm2, %ymm13, %ymm2
	vprold	$16, %ymm2, %ymm2
	vprold	$24, %ymm3, %ymm3
	vpaddd	%ymm0, %ymm2, %ymm0
	vpxord	%ymm18, %ymm0, %ymm18
	vprold	$20, %ymm18, %ymm18
	vpaddd	%ymm3, %ymm26, %ymm26
	vmovdqa	%ymm9, %ymm8
	vpaddd	%ymm9, %ymm13, %ymm13
	vpaddd	%ymm18, %ymm13, %ymm13
	vpxor	%ymm2, %ymm13, %ymm2
	vpxord	%ymm25, %ymm26, %ymm25
	vprold	$24, %ymm2, %ymm2
	vpaddd	%ymm2, %ymm0, %ymm0
	vmovdqa64	%ymm31, %ymm9
	vpaddd	%ymm31, %ymm29, %ymm29
	vpxord	%ymm18, %ymm0, %ymm18
	vpaddd	%ymm5, %ymm29, %ymm29
	vpxord	%ymm4, %ymm29, %ymm4
	vprold	$16, %ymm4, %ymm4
	vprold	$25, %ymm25, %ymm25
	vpaddd	%ymm1, %ymm4, %ymm1
	vpxor	%ymm5, %ymm1, %ymm5
	vprold	$20, %ymm5, %ymm5
	vprold	$25, %ymm18, %ymm18
	vpaddd	%ymm19, %ymm29, %ymm29
	vpaddd	%ymm5, %ymm29, %ymm29
	vpaddd	%ymm10, %ymm28, %ymm28
	vpxord	%ymm4, %ymm29, %ymm4
	vpaddd	%ymm30, %ymm28, %ymm28
	vpxord	%ymm24, %ymm28, %ymm24
	vprold	$16, %ymm24, %ymm24
	vprold	$24, %ymm4, %ymm4
	vpaddd	%ymm27, %ymm24, %ymm27
	vpxord	%ymm30, %ymm27, %ymm30
	vprold	$20, %ymm30, %ymm30
	vpaddd	%ymm4, %ymm1, %ymm1
	vmovdqa	%ymm7, %ymm14
	vpaddd	%ymm7, %ymm28, %ymm28
	vpaddd	%ymm30, %ymm28, %ymm28
	vpxord	%ymm24, %ymm28, %ymm24
	vpxor	%ymm5, %ymm1, %ymm5
	vprold	$24, %ymm24, %ymm24
	vpaddd	%ymm24, %ymm27, %ymm31
	vpxord	%ymm30, %ymm31, %ymm27
	vprold	$25, %ymm5, %ymm5
	vpaddd	96(%rsp), %ymm6, %ymm6
	vpaddd	%ymm18, %ymm6, %ymm6
	vpxord	%ymm24, %ymm6, %ymm24
	vprold	$25, %ymm27, %ymm30
	vprold	$16, %ymm24, %ymm24
	vpaddd	%ymm1, %ymm24, %ymm1
	vpxord	%ymm18, %ymm1, %ymm18
	vprold	$20, %ymm18, %ymm18
	vpaddd	%ymm20, %ymm6, %ymm6
	vpaddd	%ymm18, %ymm6, %ymm6
	vpxord	%ymm24, %ymm6, %ymm24
	vprold	$24, %ymm24, %ymm27
	vmovdqu	128(%rsp), %ymm15
	vpaddd	%ymm15, %ymm13, %ymm13
	vpaddd	%ymm5, %ymm13, %ymm13
	vpxor	%ymm3, %ymm13, %ymm3
	vpaddd	%ymm27, %ymm1, %ymm7
	vprold	$16, %ymm3, %ymm3
	vpaddd	%ymm31, %ymm3, %ymm24
	vpxord	%ymm5, %ymm24, %ymm5
	vpxord	%ymm18, %ymm7, %ymm18
	vprold	$20, %ymm5, %ymm5
	vpaddd	%ymm22, %ymm13, %ymm13
	vmovdqa64	%ymm22, %ymm19
	vpaddd	%ymm23, %ymm29, %ymm29
	vpaddd	%ymm5, %ymm13, %ymm13
	vpaddd	%ymm30, %ymm29, %ymm29
	vpxord	%ymm2, %ymm29, %ymm2
	vprold	$16, %ymm2, %ymm2
	vprold	$25, %ymm18, %ymm18
	vpaddd	%ymm26, %ymm2, %ymm26
	vpxord	%ymm30, %ymm26, %ymm30
	vprold	$20, %ymm30, %ymm30
	vpxor	%ymm3, %ymm13, %ymm3
	vpaddd	%ymm16, %ymm29, %ymm29
	vpaddd	%ymm30, %ymm29, %ymm29
	vpxord	%ymm2, %ymm29, %ymm2
	vprold	$24, %ymm3, %ymm3
	vprold	$24, %ymm2, %ymm2
	vmovdqa	%ymm11, %ymm12
	vpaddd	%ymm11, %ymm28, %ymm28
	vpaddd	%ymm25, %ymm28, %ymm28
	vpaddd	%ymm3, %ymm24, %ymm31
	vpxord	%ymm4, %ymm28, %ymm4
	vprold	$16, %ymm4, %ymm4
	vpaddd	%ymm0, %ymm4, %ymm0
	vpaddd	%ymm2, %ymm26, %ymm24
	vpxord	%ymm25, %ymm0, %ymm25
	vprold	$20, %ymm25, %ymm25
	vmovdqu64	352(%rsp), %ymm22
	vpaddd	%ymm22, %ymm28, %ymm26
	vpxord	%ymm5, %ymm31, %ymm5
	vpaddd	%ymm25, %ymm26, %ymm26
	vpxord	%ymm4, %ymm26, %ymm4
	vprold	$24, %ymm4, %ymm4
	vpxord	%ymm30, %ymm24, %ymm28
	vpaddd	%ymm4, %ymm0, %ymm0
	vpxord	%ymm25, %ymm0, %ymm25
	vprold	$25, %ymm25, %ymm25
	vprold	$25, %ymm5, %ymm5
	vpaddd	%ymm16, %ymm6, %ymm6
	vpaddd	%ymm25, %ymm6, %ymm30
	vpxord	%ymm3, %ymm30, %ymm3
	vprold	$25, %ymm28, %ymm1
	vprold	$16, %ymm3, %ymm3
	vpaddd	%ymm24, %ymm3, %ymm6
	vpaddd	%ymm15, %ymm30, %ymm24
	vpxord	%ymm25, %ymm6, %ymm25
	vpaddd	%ymm8, %ymm13, %ymm13
	vpaddd	%ymm18, %ymm13, %ymm13
	vpxor	%ymm2, %ymm13, %ymm2
	vprold	$20, %ymm25, %ymm28
	vprold	$16, %ymm2, %ymm25
	vpaddd	%ymm0, %ymm25, %ymm0
	vpxord	%ymm18, %ymm0, %ymm2
	vpaddd	%ymm28, %ymm24, %ymm18
	vprold	$20, %ymm2, %ymm30
	vpaddd	%ymm14, %ymm13, %ymm2
	vpaddd	%ymm30, %ymm2, %ymm13
	vpxord	%ymm3, %ymm18, %ymm2
	vpxord	%ymm25, %ymm13, %ymm3
	vpaddd	%ymm17, %ymm29, %ymm24
	vpaddd	%ymm5, %ymm24, %ymm25
	vprold	$24, %ymm3, %ymm24
	vpxord	%ymm4, %ymm25, %ymm3
	vprold	$16, %ymm3, %ymm3
	vpaddd	%ymm7, %ymm3, %ymm4
	vpaddd	%ymm24, %ymm0, %ymm7
	vpxor	%ymm5, %ymm4, %ymm0
	vprold	$20, %ymm0, %ymm5
	vpaddd	%ymm10, %ymm25, %ymm0
	vpxord	%ymm30, %ymm7, %ymm29
	vpaddd	%ymm5, %ymm0, %ymm25
	vpaddd	%ymm20, %ymm26, %ymm0
	vpaddd	%ymm1, %ymm0, %ymm0
	vprold	$25, %ymm29, %ymm26
	vpxord	%ymm27, %ymm0, %ymm27
	vprold	$16, %ymm27, %ymm27
	vpaddd	%ymm31, %ymm27, %ymm29
	vpxord	%ymm3, %ymm25, %ymm3
	vpxord	%ymm1, %ymm29, %ymm1
	vprold	$20, %ymm1, %ymm1
	vpaddd	%ymm23, %ymm0, %ymm0
	vmovdqa64	%ymm23, %ymm11
	vprold	$24, %ymm3, %ymm3
	vpaddd	%ymm1, %ymm0, %ymm30
	vpxord	%ymm27, %ymm30, %ymm0
	vprold	$24, %ymm0, %ymm27
	vpaddd	%ymm3, %ymm4, %ymm4
	vpaddd	%ymm27, %ymm29, %ymm0
	vpaddd	%ymm9, %ymm18, %ymm18
	vpaddd	%ymm26, %ymm18, %ymm18
	vpxor	%ymm5, %ymm4, %ymm5
	vpxord	%ymm27, %ymm18, %ymm27
	vprold	$16, %ymm27, %ymm29
	vpaddd	%ymm4, %ymm29, %ymm31
	vpxord	%ymm26, %ymm31, %ymm4
	vprold	$20, %ymm4, %ymm27
	vpaddd	%ymm12, %ymm18, %ymm4
	vmovdqa	%ymm12, %ymm8
	vpaddd	%ymm27, %ymm4, %ymm18
	vpxord	%ymm29, %ymm18, %ymm4
	vpaddd	%ymm22, %ymm30, %ymm26
	vpaddd	%ymm22, %ymm18, %ymm18
	vprold	$24, %ymm2, %ymm2
	vpaddd	%ymm2, %ymm6, %ymm6
	vpxord	%ymm28, %ymm6, %ymm23
	vprold	$25, %ymm23, %ymm23
	vpxord	%ymm1, %ymm0, %ymm30
	vprold	$25, %ymm5, %ymm1
	vpaddd	%ymm21, %ymm13, %ymm5
	vmovdqa64	%ymm21, %ymm12
	vpaddd	%ymm1, %ymm5, %ymm5
	vpxor	%ymm2, %ymm5, %ymm2
	vprold	$16, %ymm2, %ymm13
	vpaddd	%ymm0, %ymm13, %ymm0
	vpxor	%ymm1, %ymm0, %ymm1
	vmovdqu	256(%rsp), %ymm14
	vpaddd	%ymm5, %ymm14, %ymm5
	vprold	$20, %ymm1, %ymm2
	vpaddd	%ymm23, %ymm26, %ymm1
	vpxor	%ymm3, %ymm1, %ymm3
	vprold	$16, %ymm3, %ymm3
	vpaddd	%ymm2, %ymm5, %ymm5
	vpaddd	%ymm7, %ymm3, %ymm7
	vpxord	%ymm23, %ymm7, %ymm23
	vprold	$20, %ymm23, %ymm26
	vpxor	%ymm5, %ymm13, %ymm13
	vmovdqu64	96(%rsp), %ymm20
	vpaddd	%ymm20, %ymm1, %ymm1
	vpaddd	%ymm26, %ymm1, %ymm29
	vpxord	%ymm3, %ymm29, %ymm1
	vprold	$24, %ymm13, %ymm3
	vprold	$24, %ymm1, %ymm28
	vpaddd	%ymm28, %ymm7, %ymm23
	vpxord	%ymm26, %ymm23, %ymm1
	vpaddd	%ymm3, %ymm0, %ymm0
	vprold	$25, %ymm1, %ymm26
	vpaddd	%ymm26, %ymm18, %ymm7
	vpxor	%ymm3, %ymm7, %ymm1
	vpaddd	%ymm7, %ymm8, %ymm3
	vpaddd	%ymm5, %ymm11, %ymm5
	vprold	$25, %ymm30, %ymm7
	vprold	$24, %ymm4, %ymm4
	vpaddd	%ymm4, %ymm31, %ymm21
	vmovdqu	(%rsp), %ymm11
	vpaddd	%ymm11, %ymm25, %ymm13
	vpaddd	%ymm7, %ymm13, %ymm13
	vpxord	%ymm24, %ymm13, %ymm18
	vpxord	%ymm27, %ymm21, %ymm22
	vprold	$16, %ymm18, %ymm18
	vpaddd	%ymm6, %ymm18, %ymm6
	vpxor	%ymm7, %ymm6, %ymm7
	vprold	$25, %ymm22, %ymm22
	vprold	$20, %ymm7, %ymm7
	vpaddd	%ymm19, %ymm13, %ymm13
	vpaddd	%ymm7, %ymm13, %ymm13
	vpxord	%ymm18, %ymm13, %ymm18
	vprold	$24, %ymm18, %ymm18
	vpaddd	%ymm18, %ymm6, %ymm6
	vpaddd	%ymm22, %ymm5, %ymm5
	vpxord	%ymm18, %ymm5, %ymm18
	vpaddd	%ymm19, %ymm5, %ymm5
	vpaddd	%ymm14, %ymm13, %ymm13
	vpaddd	%ymm11, %ymm29, %ymm14
	vpxor	%ymm2, %ymm0, %ymm2
	vprold	$25, %ymm2, %ymm2
	vpaddd	%ymm2, %ymm13, %ymm13
	vpxord	%ymm28, %ymm13, %ymm19
	vpaddd	%ymm16, %ymm13, %ymm13
	vpxor	%ymm7, %ymm6, %ymm7
	vprold	$25, %ymm7, %ymm7
	vpaddd	%ymm7, %ymm14, %ymm14
	vpxor	%ymm4, %ymm14, %ymm4
	vpaddd	%ymm20, %ymm14, %ymm20
	vprold	$16, %ymm1, %ymm1
	vpaddd	%ymm6, %ymm1, %ymm6
	vpxord	%ymm26, %ymm6, %ymm14
	vprold	$20, %ymm14, %ymm14
	vpaddd	%ymm3, %ymm14, %ymm3
	vpxor	%ymm1, %ymm3, %ymm1
	vpaddd	%ymm3, %ymm15, %ymm3
	vprold	$16, %ymm18, %ymm15
	vpaddd	%ymm23, %ymm15, %ymm17
	vpxord	%ymm22, %ymm17, %ymm16
	vprold	$20, %ymm16, %ymm18
	vpaddd	%ymm18, %ymm5, %ymm16
	vpxord	%ymm15, %ymm16, %ymm5
	vprold	$24, %ymm5, %ymm5
	vpaddd	%ymm5, %ymm17, %ymm15
	vpxord	%ymm18, %ymm15, %ymm17
	vprold	$16, %ymm4, %ymm4
	vpaddd	%ymm0, %ymm4, %ymm0
	vprold	$25, %ymm17, %ymm18
	vpxor	%ymm7, %ymm0, %ymm7
	vprold	$20, %ymm7, %ymm7
	vpaddd	%ymm7, %ymm20, %ymm17
	vpxord	%ymm4, %ymm17, %ymm4
	vprold	$24, %ymm4, %ymm4
	vpaddd	%ymm4, %ymm0, %ymm0
	vpaddd	%ymm18, %ymm3, %ymm3
	vpxor	%ymm4, %ymm3, %ymm4
	vpaddd	192(%rsp), %ymm3, %ymm20
	vprold	$24, %ymm1, %ymm1
	vprold	$16, %ymm19, %ymm3
	vpaddd	%ymm1, %ymm6, %ymm11
	vpaddd	%ymm21, %ymm3, %ymm6
	vpxor	%ymm2, %ymm6, %ymm2
	vprold	$20, %ymm2, %ymm19
	vpaddd	%ymm19, %ymm13, %ymm13
	vpxor	%ymm3, %ymm13, %ymm2
	vprold	$24, %ymm2, %ymm2
	vpaddd	%ymm2, %ymm6, %ymm3
	vpxor	%ymm7, %ymm0, %ymm6
	vprold	$25, %ymm6, %ymm6
	vprold	$16, %ymm4, %ymm7
	vpaddd	%ymm10, %ymm13, %ymm4
	vpaddd	%ymm3, %ymm7, %ymm13
	vpxord	%ymm18, %ymm13, %ymm8
	vprold	$20, %ymm8, %ymm18
	vpaddd	%ymm6, %ymm4, %ymm4
	vpaddd	%ymm18, %ymm20, %ymm20
	vpxor	%ymm5, %ymm4, %ymm5
	vprold	$16, %ymm5, %ymm5
	vpaddd	%ymm4, %ymm9, %ymm4
	vpaddd	%ymm5, %ymm11, %ymm8
	vpxor	%ymm6, %ymm8, %ymm6
	vprold	$20, %ymm6, %ymm6
	vpaddd	%ymm6, %ymm4, %ymm21
	vpxord	%ymm5, %ymm21, %ymm4
	vprold	$24, %ymm4, %ymm9
	vpaddd	%ymm9, %ymm8, %ymm8
	vpxor	%ymm6, %ymm8, %ymm4
	vpternlogd	$150, 672(%rsp), %ymm20, %ymm8
	vpxord	%ymm7, %ymm20, %ymm5
	vprold	$24, %ymm5, %ymm5
	vpaddd	%ymm5, %ymm13, %ymm24
	vpxord	%ymm18, %ymm24, %ymm6
	vpternlogd	$150, 512(%rsp), %ymm21, %ymm24
	vpxor	%ymm14, %ymm11, %ymm7
	vpxord	%ymm19, %ymm3, %ymm3
	vpaddd	64(%rsp), %ymm16, %ymm11
	vprold	$25, %ymm3, %ymm3
	vpaddd	%ymm3, %ymm11, %ymm11
	vpxor	%ymm1, %ymm11, %ymm1
	vpaddd	288(%rsp), %ymm11, %ymm10
	vpaddd	%ymm12, %ymm17, %ymm11
	vprold	$25, %ymm7, %ymm7
	vpaddd	%ymm7, %ymm11, %ymm11
	vpxor	%ymm2, %ymm11, %ymm2
	vpaddd	32(%rsp), %ymm11, %ymm11
	vprold	$16, %ymm1, %ymm1
	vpaddd	%ymm0, %ymm1, %ymm0
	vpxor	%ymm3, %ymm0, %ymm3
	vprold	$20, %ymm3, %ymm3
	vprold	$16, %ymm2, %ymm2
	vpaddd	%ymm2, %ymm15, %ymm13
	vpaddd	%ymm3, %ymm10, %ymm10
	vpxor	%ymm7, %ymm13, %ymm7
	vprold	$20, %ymm7, %ymm7
	vpaddd	%ymm7, %ymm11, %ymm11
	vpxor	%ymm2, %ymm11, %ymm2
	vprold	$24, %ymm2, %ymm2
	vpaddd	%ymm2, %ymm13, %ymm25
	vpxord	%ymm7, %ymm25, %ymm7
	vpternlogd	$150, 576(%rsp), %ymm10, %ymm25
	vpxor	%ymm1, %ymm10, %ymm1
	vprold	$24, %ymm1, %ymm10
	vpaddd	%ymm0, %ymm10, %ymm0
	vpxor	%ymm3, %ymm0, %ymm3
	vpternlogd	$150, 640(%rsp), %ymm11, %ymm0
	vprold	$25, %ymm7, %ymm1
	vpternlogd	$150, 736(%rsp), %ymm10, %ymm1
	vprold	$25, %ymm6, %ymm13
	vpternlogd	$150, 608(%rsp), %ymm9, %ymm13
	vprold	$25, %ymm3, %ymm12
	vpternlogd	$150, 544(%rsp), %ymm2, %ymm12
	vprold	$25, %ymm4, %ymm2
	vpternlogd	$150, 704(%rsp), %ymm5, %ymm2
	addq	$64, %rdx
	addq	$512, %rsi
	decq	%rcx
	jne	1b
	addq	$776, %rsp
2:
	vmovdqu	%ymm8, (%rdi)
	vmovdqu64	%ymm25, 32(%rdi)
	vmovdqu64	%ymm24, 64(%rdi)
	vmovdqu	%ymm0, 96(%rdi)
	vmovdqu	%ymm1, 128(%rdi)
	vmovdqu	%ymm13, 160(%rdi)
	vmovdqu	%ymm12, 192(%rdi)
	vmovdqu	%ymm2, 224(%rdi)
	vzeroupper
	vpxord	%xmm16, %xmm16, %xmm16
	vpxord	%xmm17, %xmm17, %xmm17
	vpxord	%xmm18, %xmm18, %xmm18
	vpxord	%xmm19, %xmm19, %xmm19
	vpxord	%xmm20, %xmm20, %xmm20
	vpxord	%xmm21, %xmm21, %xmm21
	vpxord	%xmm22, %xmm22, %xmm22
	vpxord	%xmm23, %xmm23, %xmm23
	vpxord	%xmm24, %xmm24, %xmm24
	vpxord	%xmm25, %xmm25, %xmm25
	vpxord	%xmm26, %xmm26, %xmm26
	vpxord	%xmm27, %xmm27, %xmm27
	vpxord	%xmm28, %xmm28, %xmm28
	vpxord	%xmm29, %xmm29, %xmm29
	vpxord	%xmm30, %xmm30, %xmm30
	vpxord	%xmm31, %xmm31, %xmm31
	retq
	vj_end	blake2_parallel..lanes..blake2sp..compress_in_lanes_1_v4

	vj_function	blake2_parallel..lanes..blake2sp..Lanes..compress_held_1_v4
	pushq	%rbp
	pushq	%r15
	pushq	%r14
	pushq	%r13
	pushq	%r12
	pushq	%rbx
	subq	$1224, %rsp
	movq	%rdi, %rbx
	vmovups	(%rdi), %ymm0
	vmovups	32(%rdi), %ymm1
	vmovups	64(%rdi), %ymm2
	vmovups	96(%rdi), %ymm3
	vmovups	128(%rdi), %ymm4
	vmovups	160(%rdi), %ymm5
	vmovups	192(%rdi), %ymm6
	vmovups	224(%rdi), %ymm7
	vmovups	%ymm0, 8(%rsp)
	vmovups	%ymm1, 40(%rsp)
	vmovups	%ymm2, 72(%rsp)
	vmovups	%ymm3, 104(%rsp)
	vmovups	%ymm4, 136(%rsp)
	vmovups	%ymm5, 168(%rsp)
	vmovups	%ymm6, 200(%rsp)
	vmovups	%ymm7, 232(%rsp)
	movq	256(%rdi), %r15
	leaq	272(%rdi), %r14
	leaq	8(%rsp), %rdi
	movl	$1, %ecx
	movq	%r14, %rsi
	movq	%r15, %rdx
	vzeroupper
	callq	blake2_parallel..lanes..blake2sp..compress_in_lanes_1_v4
	leaq	784(%rbx), %rbp
	movq	$-512, %r12
	addq	264(%rbx), %r12
	leaq	264(%rsp), %r13
	movl	$960, %edx
	movq	%r13, %rdi
	xorl	%esi, %esi
	vj_c_call	memset
	movq	%r13, %rdi
	movq	%rbp, %rsi
	movq	%r12, %rdx
	vj_c_call	memcpy
	vmovups	8(%rsp), %ymm0
	vmovups	%ymm0, (%rbx)
	vmovups	40(%rsp), %ymm0
	vmovups	%ymm0, 32(%rbx)
	vmovups	72(%rsp), %ymm0
	vmovups	%ymm0, 64(%rbx)
	vmovups	104(%rsp), %ymm0
	vmovups	%ymm0, 96(%rbx)
	vmovups	136(%rsp), %ymm0
	vmovups	%ymm0, 128(%rbx)
	vmovups	168(%rsp), %ymm0
	vmovups	%ymm0, 160(%rbx)
	vmovups	200(%rsp), %ymm0
	vmovups	%ymm0, 192(%rbx)
	vmovups	232(%rsp), %ymm0
	vmovups	%ymm0, 224(%rbx)
	addq	$64, %r15
	movq	%r15, 256(%rbx)
	movl	$960, %edx
	movq	%r14, %rdi
	movq	%r13, %rsi
	vzeroupper
	vj_c_call	memcpy
	movq	%r12, 264(%rbx)
	addq	$1224, %rsp
	popq	%rbx
	popq	%r12
	popq	%r13
	popq	%r14
	popq	%r15
	popq	%rbp
	retq
	vj_end	blake2_parallel..lanes..blake2sp..Lanes..compress_held_1_v4

	vj_function	blake2_ffi..blake2sp..is_digest_of_1_v4
	pushq	%r15
	pushq	%r14
	pushq	%rbx
	subq	$32, %rsp
	movq	%rdx, %rbx
	movq	%rsi, %r14
	movq	%rdi, %r15
	movq	%rsp, %rdi
	movq	%r15, %rsi
	callq	blake2_parallel..blake2sp..State..output_1_v4
	cmpq	1528(%r15), %rbx
	jne	1f
	testq	%rbx, %rbx
	je	2f
	cmpq	$8, %rbx
	jae	3f
	xorl	%ecx, %ecx
	xorl	%eax, %eax
	jmp	8f
1:
	xorl	%eax, %eax
	jmp	11f
2:
	movb	$1, %al
	jmp	11f
3:
	cmpq	$128, %rbx
	jae	4f
	xorl	%eax, %eax
	xorl	%ecx, %ecx
	jmp	6f
4:
	movq	%rbx, %rax
	andq	$-128, %rax
	vpxor	%xmm0, %xmm0, %xmm0
	xorl	%ecx, %ecx
	vpxor	%xmm1, %xmm1, %xmm1
	vpxor	%xmm3, %xmm3, %xmm3
	vpxor	%xmm2, %xmm2, %xmm2
	.p2align	4
5:
	vmovdqu	(%rsp,%rcx), %ymm4
	vmovdqu	32(%rsp,%rcx), %ymm5
	vmovdqu	64(%rsp,%rcx), %ymm6
	vmovdqu	96(%rsp,%rcx), %ymm7
	vpternlogq	$246, (%r14,%rcx), %ymm4, %ymm1
	vpternlogq	$246, 32(%r14,%rcx), %ymm5, %ymm3
	vpternlogq	$246, 64(%r14,%rcx), %ymm6, %ymm2
	vpternlogq	$246, 96(%r14,%rcx), %ymm7, %ymm0
	subq	$-128, %rcx
	cmpq	%rcx, %rax
	jne	5b
	vpor	%ymm1, %ymm3, %ymm1
	vpternlogq	$254, %ymm1, %ymm2, %ymm0
	vextracti128	$1, %ymm0, %xmm1
	vpor	%xmm1, %xmm0, %xmm0
	vpshufd	$238, %xmm0, %xmm1
	vpor	%xmm1, %xmm0, %xmm0
	vpshufd	$85, %xmm0, %xmm1
	vpor	%xmm1, %xmm0, %xmm0
	vpsrld	$16, %xmm0, %xmm1
	vpor	%xmm1, %xmm0, %xmm0
	vpsrlw	$8, %xmm0, %xmm1
	vpor	%xmm1, %xmm0, %xmm0
	vmovd	%xmm0, %ecx
	cmpq	%rax, %rbx
	je	10f
	testb	$120, %bl
	je	8f
6:
	movq	%rax, %rdx
	movq	%rbx, %rax
	andq	$-8, %rax
	movzbl	%cl, %ecx
	vmovd	%ecx, %xmm0
	.p2align	4
7:
	movq	(%rsp,%rdx), %rcx
	xorq	(%r14,%rdx), %rcx
	vmovq	%rcx, %xmm1
	vpor	%xmm0, %xmm1, %xmm0
	addq	$8, %rdx
	cmpq	%rdx, %rax
	jne	7b
	vpshufd	$85, %xmm0, %xmm1
	vpor	%xmm1, %xmm0, %xmm0
	vpsrld	$16, %xmm0, %xmm1
	vpor	%xmm1, %xmm0, %xmm0
	vpsrlw	$8, %xmm0, %xmm1
	vpor	%xmm1, %xmm0, %xmm0
	vmovd	%xmm0, %ecx
	jmp	9f
8:
	movzbl	(%rsp,%rax), %edx
	xorb	(%r14,%rax), %dl
	orb	%dl, %cl
	incq	%rax
9:
	cmpq	%rax, %rbx
	jne	8b
10:
	testb	%cl, %cl
	sete	%al
11:
	addq	$32, %rsp
	popq	%rbx
	popq	%r14
	popq	%r15
	vzeroupper
	retq
	vj_end	blake2_ffi..blake2sp..is_digest_of_1_v4

	vj_constants	32
	.p2align	5, 0x0
.L1_v4_CPI75_0:
	.quad	0
	.quad	4
	.quad	2
	.quad	3
.L1_v4_CPI75_1:
	.short	65535
	.short	65535
	.short	65535
	.short	65535
	.short	65535
	.short	65535
	.short	65535
	.short	65535
	.short	0
	.short	65535
	.short	65535
	.short	65535
	.short	65535
	.short	65535
	.short	65535
	.short	65535
.L1_v4_CPI75_2:
	.quad	4
	.quad	0
	.quad	6
	.quad	7
.L1_v4_CPI75_3:
	.short	64
	.short	257
	.short	0
	.short	0
	.zero	2
	.zero	2
	.zero	2
	.zero	2
	.zero	2
	.short	0
	.short	0
	.short	0
	.short	0
	.short	0
	.short	0
	.short	0
.L1_v4_CPI75_4:
	.quad	5840696475078001361
	.quad	-7276294671716946913
	.quad	2270897969802886507
	.quad	6620516959819538809
.L1_v4_CPI75_5:
	.quad	7640891576956012808
	.quad	-4942790177534073029
	.quad	4354685564936845355
	.quad	-6534734903238641935
	vj_function	blake2_ffi..blake2xb..initialize_1_v4
	pushq	%rbp
	movq	%rsp, %rbp
	pushq	%r15
	pushq	%r14
	pushq	%r13
	pushq	%r12
	pushq	%rbx
	andq	$-32, %rsp
	subq	$480, %rsp
	movq	%r9, %r12
	movq	%rcx, %r15
	movq	%rdx, %r9
	movq	%rdi, %rbx
	movq	24(%rbp), %r13
	leaq	-1(%rsi), %rax
	movl	$4294967294, %ecx
	cmpq	%rcx, %rax
	seta	%al
	cmpq	$65, %r15
	setae	%cl
	cmpq	$17, %r12
	setae	%dl
	orb	%cl, %dl
	orb	%al, %dl
	cmpq	$17, %r13
	setae	%al
	orb	%dl, %al
	jne	1f
	movq	%rsi, %r14
	vmovq	%rsi, %xmm0
	vpsllq	$32, %xmm0, %xmm0
	testq	%r15, %r15
	movq	%r8, 72(%rsp)
	vxorps	%xmm1, %xmm1, %xmm1
	je	2f
	vmovaps	%ymm1, (%rsp)
	movl	%r15d, %eax
	shll	$8, %eax
	orl	$16842816, %eax
	vmovd	%eax, %xmm1
	vmovdqa	.L1_v4_CPI75_0(%rip), %ymm2
	vpermi2q	%ymm0, %ymm1, %ymm2
	vpand	.L1_v4_CPI75_1(%rip), %ymm2, %ymm0
	vmovdqa	%ymm0, 96(%rsp)
	movq	%rsp, %rdi
	movq	%r8, %rsi
	movq	%r12, %rdx
	movq	%r9, 64(%rsp)
	vzeroupper
	vj_c_call	memcpy
	leaq	16(%rsp), %rdi
	movq	16(%rbp), %rsi
	movq	%r13, %rdx
	vj_c_call	memcpy
	vmovaps	(%rsp), %ymm0
	vmovaps	%ymm0, 128(%rsp)
	movl	$64, %eax
	subq	%r15, %rax
	xorl	%edx, %edx
	cmpq	$64, %r15
	cmovbq	%rax, %rdx
	leaq	(%rsp,%r15), %rdi
	addq	$160, %rdi
	xorl	%esi, %esi
	vzeroupper
	vj_c_call	memset
	leaq	160(%rsp), %rdi
	movq	64(%rsp), %rsi
	movq	%r15, %rdx
	vj_c_call	memcpy
	vxorps	%xmm0, %xmm0, %xmm0
	vmovaps	%ymm0, 288(%rsp)
	vmovaps	%ymm0, 320(%rsp)
	vmovups	160(%rsp), %ymm0
	vmovaps	%ymm0, 224(%rsp)
	vmovups	192(%rsp), %ymm0
	vmovaps	%ymm0, 256(%rsp)
	vmovaps	128(%rsp), %ymm0
	movl	$128, %r15d
	jmp	3f
1:
	vxorps	%xmm0, %xmm0, %xmm0
	vmovups	%ymm0, 432(%rbx)
	vmovups	%ymm0, 416(%rbx)
	vmovups	%ymm0, 384(%rbx)
	vmovups	%ymm0, 352(%rbx)
	vmovups	%ymm0, 320(%rbx)
	vmovups	%ymm0, 288(%rbx)
	vmovups	%ymm0, 256(%rbx)
	vmovups	%ymm0, 224(%rbx)
	vmovups	%ymm0, 192(%rbx)
	vmovups	%ymm0, 160(%rbx)
	vmovups	%ymm0, 128(%rbx)
	vmovups	%ymm0, 96(%rbx)
	vmovups	%ymm0, 64(%rbx)
	vmovups	%ymm0, 32(%rbx)
	vmovups	%ymm0, (%rbx)
	movl	$-1, %eax
	jmp	4f
2:
	vmovaps	%ymm1, (%rsp)
	vmovdqa	.L1_v4_CPI75_2(%rip), %ymm1
	vpermi2q	.L1_v4_CPI75_3(%rip), %ymm0, %ymm1
	vpand	.L1_v4_CPI75_1(%rip), %ymm1, %ymm0
	vmovdqa	%ymm0, 96(%rsp)
	movq	%rsp, %rdi
	movq	%r8, %rsi
	movq	%r12, %rdx
	vzeroupper
	vj_c_call	memcpy
	leaq	16(%rsp), %rdi
	movq	16(%rbp), %rsi
	movq	%r13, %rdx
	vj_c_call	memcpy
	vpxor	%xmm0, %xmm0, %xmm0
	vmovdqa	%ymm0, 224(%rsp)
	vmovdqa	%ymm0, 256(%rsp)
	vmovdqa	%ymm0, 288(%rsp)
	vmovdqa	%ymm0, 320(%rsp)
	vmovdqa	%ymm0, 160(%rsp)
	vpxor	%xmm1, %xmm1, %xmm1
	vmovaps	(%rsp), %ymm0
	vmovdqa	%ymm1, 192(%rsp)
	xorl	%r15d, %r15d
3:
	vxorps	.L1_v4_CPI75_4(%rip), %ymm0, %ymm0
	vmovaps	%ymm0, 128(%rsp)
	vmovaps	96(%rsp), %ymm0
	vxorps	.L1_v4_CPI75_5(%rip), %ymm0, %ymm0
	vmovaps	%ymm0, 96(%rsp)
	vxorps	%xmm0, %xmm0, %xmm0
	vmovaps	%xmm0, 48(%rsp)
	leaq	48(%rsp), %rdi
	movq	72(%rsp), %rsi
	movq	%r12, %rdx
	vzeroupper
	vj_c_call	memcpy
	vmovaps	48(%rsp), %xmm0
	vmovaps	%xmm0, (%rsp)
	vxorps	%xmm0, %xmm0, %xmm0
	vmovaps	%xmm0, 80(%rsp)
	leaq	80(%rsp), %rdi
	movq	16(%rbp), %rsi
	movq	%r13, %rdx
	vj_c_call	memcpy
	vmovaps	80(%rsp), %xmm0
	vmovaps	%xmm0, 48(%rsp)
	vmovaps	%xmm0, 16(%rsp)
	vxorps	%xmm0, %xmm0, %xmm0
	vmovaps	%ymm0, 352(%rsp)
	vmovaps	%ymm0, 384(%rsp)
	vmovups	(%rsp), %xmm0
	vmovups	%xmm0, 416(%rsp)
	vmovups	16(%rsp), %xmm0
	vmovups	%xmm0, 432(%rsp)
	vmovaps	96(%rsp), %ymm1
	vmovups	%ymm1, (%rbx)
	vmovaps	128(%rsp), %ymm0
	vmovups	%ymm0, 32(%rbx)
	vmovups	%ymm1, 64(%rbx)
	vmovups	%ymm0, 96(%rbx)
	movq	$0, 128(%rbx)
	movl	%r15d, 136(%rbx)
	movl	%r15d, 140(%rbx)
	movq	$64, 144(%rbx)
	vmovaps	224(%rsp), %ymm0
	vmovaps	256(%rsp), %ymm1
	vmovaps	288(%rsp), %ymm2
	vmovaps	320(%rsp), %ymm3
	vmovups	%ymm3, 248(%rbx)
	vmovups	%ymm2, 216(%rbx)
	vmovups	%ymm1, 184(%rbx)
	vmovups	%ymm0, 152(%rbx)
	vmovaps	160(%rsp), %ymm0
	vmovaps	192(%rsp), %ymm1
	vmovups	%ymm0, 280(%rbx)
	vmovups	%ymm1, 312(%rbx)
	vmovaps	352(%rsp), %ymm0
	vmovaps	384(%rsp), %ymm1
	vmovaps	416(%rsp), %ymm2
	vmovups	%ymm1, 376(%rbx)
	vmovups	%ymm2, 408(%rbx)
	vmovups	%ymm0, 344(%rbx)
	movq	%r14, 440(%rbx)
	vxorps	%xmm0, %xmm0, %xmm0
	vmovups	%xmm0, 448(%rbx)
	xorl	%eax, %eax
4:
	leaq	-40(%rbp), %rsp
	popq	%rbx
	popq	%r12
	popq	%r13
	popq	%r14
	popq	%r15
	popq	%rbp
	vzeroupper
	retq
	vj_end	blake2_ffi..blake2xb..initialize_1_v4

	vj_function	blake2_digest..wiping..scrub_stack..2304_1_v4
	pushq	%rbx
	subq	$2304, %rsp
	movq	%rsp, %rbx
	movl	$2304, %edx
	movq	%rbx, %rdi
	xorl	%esi, %esi
	vj_c_call	memset
	movq	%rbx, %rdi
	callq	blake2_digest..wiping..settle..2304_1_v4
	addq	$2304, %rsp
	popq	%rbx
	vpxord	%xmm16, %xmm16, %xmm16
	vpxord	%xmm17, %xmm17, %xmm17
	vpxord	%xmm18, %xmm18, %xmm18
	vpxord	%xmm19, %xmm19, %xmm19
	vpxord	%xmm20, %xmm20, %xmm20
	vpxord	%xmm21, %xmm21, %xmm21
	vpxord	%xmm22, %xmm22, %xmm22
	vpxord	%xmm23, %xmm23, %xmm23
	vpxord	%xmm24, %xmm24, %xmm24
	vpxord	%xmm25, %xmm25, %xmm25
	vpxord	%xmm26, %xmm26, %xmm26
	vpxord	%xmm27, %xmm27, %xmm27
	vpxord	%xmm28, %xmm28, %xmm28
	vpxord	%xmm29, %xmm29, %xmm29
	vpxord	%xmm30, %xmm30, %xmm30
	vpxord	%xmm31, %xmm31, %xmm31
	retq
	vj_end	blake2_digest..wiping..scrub_stack..2304_1_v4

	vj_function	blake2_digest..wiping..settle..2304_1_v4
	vmovdqu	128(%rdi), %ymm0
	vmovdqu	160(%rdi), %ymm1
	vmovdqu	192(%rdi), %ymm2
	vmovdqu	224(%rdi), %ymm3
	vpor	32(%rdi), %ymm1, %ymm1
	vpor	64(%rdi), %ymm2, %ymm2
	vpor	96(%rdi), %ymm3, %ymm3
	vmovdqu	256(%rdi), %ymm4
	vmovdqu	288(%rdi), %ymm5
	vmovdqu	320(%rdi), %ymm6
	vmovdqu	352(%rdi), %ymm7
	vpternlogq	$254, (%rdi), %ymm0, %ymm4
	vpternlogq	$254, 416(%rdi), %ymm1, %ymm5
	vpternlogq	$254, 448(%rdi), %ymm2, %ymm6
	vmovdqu	384(%rdi), %ymm0
	vpternlogq	$254, 480(%rdi), %ymm3, %ymm7
	vmovdqu	544(%rdi), %ymm1
	vmovdqu	576(%rdi), %ymm2
	vmovdqu	608(%rdi), %ymm3
	vpternlogq	$254, 512(%rdi), %ymm4, %ymm0
	vpternlogq	$254, 672(%rdi), %ymm5, %ymm1
	vpternlogq	$254, 704(%rdi), %ymm6, %ymm2
	vmovdqu	640(%rdi), %ymm4
	vpternlogq	$254, 736(%rdi), %ymm7, %ymm3
	vmovdqu	800(%rdi), %ymm5
	vmovdqu	832(%rdi), %ymm6
	vmovdqu	864(%rdi), %ymm7
	vpternlogq	$254, 768(%rdi), %ymm0, %ymm4
	vpternlogq	$254, 928(%rdi), %ymm1, %ymm5
	vpternlogq	$254, 960(%rdi), %ymm2, %ymm6
	vmovdqu	896(%rdi), %ymm0
	vpternlogq	$254, 992(%rdi), %ymm3, %ymm7
	vmovdqu	1056(%rdi), %ymm1
	vmovdqu	1088(%rdi), %ymm2
	vmovdqu	1120(%rdi), %ymm3
	vpternlogq	$254, 1024(%rdi), %ymm4, %ymm0
	vpternlogq	$254, 1184(%rdi), %ymm5, %ymm1
	vpternlogq	$254, 1216(%rdi), %ymm6, %ymm2
	vmovdqu	1152(%rdi), %ymm4
	vpternlogq	$254, 1248(%rdi), %ymm7, %ymm3
	vmovdqu	1312(%rdi), %ymm5
	vmovdqu	1344(%rdi), %ymm6
	vmovdqu	1376(%rdi), %ymm7
	vpternlogq	$254, 1280(%rdi), %ymm0, %ymm4
	vpternlogq	$254, 1440(%rdi), %ymm1, %ymm5
	vpternlogq	$254, 1472(%rdi), %ymm2, %ymm6
	vmovdqu	1408(%rdi), %ymm0
	vpternlogq	$254, 1504(%rdi), %ymm3, %ymm7
	vmovdqu	1568(%rdi), %ymm1
	vmovdqu	1600(%rdi), %ymm2
	vmovdqu	1632(%rdi), %ymm3
	vpternlogq	$254, 1536(%rdi), %ymm4, %ymm0
	vpternlogq	$254, 1696(%rdi), %ymm5, %ymm1
	vpternlogq	$254, 1728(%rdi), %ymm6, %ymm2
	vmovdqu	1664(%rdi), %ymm4
	vpternlogq	$254, 1760(%rdi), %ymm7, %ymm3
	vmovdqu	1824(%rdi), %ymm5
	vmovdqu	1856(%rdi), %ymm6
	vmovdqu	1888(%rdi), %ymm7
	vpternlogq	$254, 1792(%rdi), %ymm0, %ymm4
	vpternlogq	$254, 1952(%rdi), %ymm1, %ymm5
	vpternlogq	$254, 1984(%rdi), %ymm2, %ymm6
	vmovdqu	1920(%rdi), %ymm0
	vpternlogq	$254, 2016(%rdi), %ymm3, %ymm7
	vmovdqu	2080(%rdi), %ymm1
	vmovdqu	2112(%rdi), %ymm2
	vmovdqu	2144(%rdi), %ymm3
	vpternlogq	$254, 2048(%rdi), %ymm4, %ymm0
	vpternlogq	$254, 2208(%rdi), %ymm5, %ymm1
	vpternlogq	$254, 2240(%rdi), %ymm6, %ymm2
	vpternlogq	$254, 2272(%rdi), %ymm7, %ymm3
	vpternlogq	$254, 2176(%rdi), %ymm0, %ymm1
	vpternlogq	$254, %ymm3, %ymm2, %ymm1
	vptest	%ymm1, %ymm1
	je	1f
	pause
1:
	vzeroupper
	retq
	vj_end	blake2_digest..wiping..settle..2304_1_v4

	vj_function	blake2_ffi..blake2xb..reset_in_frame_1_v4
	vmovups	64(%rdi), %ymm0
	vmovups	96(%rdi), %ymm1
	vmovups	%ymm1, 32(%rdi)
	vmovups	%ymm0, (%rdi)
	movq	$0, 128(%rdi)
	movl	140(%rdi), %eax
	movl	%eax, 136(%rdi)
	vxorps	%xmm0, %xmm0, %xmm0
	vmovups	%ymm0, 216(%rdi)
	vmovups	%ymm0, 248(%rdi)
	vmovups	280(%rdi), %ymm1
	vmovups	%ymm1, 152(%rdi)
	vmovups	312(%rdi), %ymm1
	vmovups	%ymm1, 184(%rdi)
	vmovups	%ymm0, 344(%rdi)
	vmovups	%ymm0, 376(%rdi)
	vxorps	%xmm0, %xmm0, %xmm0
	vmovups	%xmm0, 448(%rdi)
	vzeroupper
	retq
	vj_end	blake2_ffi..blake2xb..reset_in_frame_1_v4

	vj_function	blake2_ffi..blake2xb..read_1_v4
	vj_jump	blake2_xof..blake2xb..State..squeeze_1_v4
	vj_end	blake2_ffi..blake2xb..read_1_v4

	vj_constants	32
	.p2align	5, 0x0
.L1_v4_CPI80_0:
	.zero	1
	.byte	0
	.byte	0
	.byte	0
	.byte	64
	.byte	0
	.byte	0
	.byte	0
	.zero	1
	.zero	1
	.zero	1
	.zero	1
	.zero	1
	.zero	1
	.zero	1
	.zero	1
	.byte	0
	.zero	1
	.byte	0
	.byte	0
	.byte	0
	.byte	0
	.byte	0
	.byte	0
	.byte	0
	.byte	0
	.byte	0
	.byte	0
	.byte	0
	.byte	0
	.byte	0
	.byte	0
.L1_v4_CPI80_1:
	.quad	7640891576956012808
	.quad	-4942790177534073029
	.quad	4354685564936845355
	.quad	-6534734903238641935
.L1_v4_CPI80_2:
	.quad	5840696475078001361
	.quad	-7276294671716946913
	.quad	2270897969802886507
	.quad	6620516959819538809
.L1_v4_CPI80_4:
	.quad	0
	.quad	1
	.quad	2
	.quad	4
.L1_v4_CPI80_5:
	.quad	0
	.quad	1
	.quad	5
	.zero	8
.L1_v4_CPI80_6:
	.quad	0
	.quad	1
	.quad	2
	.quad	5
.L1_v4_CPI80_7:
	.quad	0
	.quad	1
	.quad	2
	.quad	6
.L1_v4_CPI80_8:
	.quad	2
	.quad	3
	.quad	7
	.zero	8
	vj_constants	4
	.p2align	2, 0x0
.L1_v4_CPI80_3:
	.byte	64
	.byte	0
	.byte	0
	.byte	0
	vj_constants	8
	.p2align	3, 0x0
.L1_v4_CPI80_9:
	.quad	64
	vj_constants	16
	.p2align	3, 0x0
.L1_v4_CPI80_10:
	.byte	0
	.byte	0
	.byte	0
	.byte	0
	.byte	64
	.byte	0
	.byte	0
	.byte	0
	.byte	0
	.byte	0
	.byte	0
	.byte	0
	.byte	0
	.byte	0
	.byte	0
	.byte	0
	vj_shared	blake2_xof..blake2xb..State..squeeze_1_v4
	pushq	%rbp
	pushq	%r15
	pushq	%r14
	pushq	%r13
	pushq	%r12
	pushq	%rbx
	subq	$648, %rsp
	movq	%rdx, %rbx
	movq	%rsi, 16(%rsp)
	movq	%rdi, %r15
	cmpq	$0, 456(%rdi)
	jne	1f
	leaq	344(%r15), %rsi
	movq	%r15, %rdi
	callq	blake2_state..blake2b..State..write_digest_1_v4
	movq	$1, 456(%r15)
1:
	testq	%rbx, %rbx
	je	9f
	movq	448(%r15), %rsi
	leaq	512(%rsp), %rax
	vpbroadcastq	%rax, %ymm0
	vmovdqu	%ymm0, 416(%rsp)
	xorl	%r14d, %r14d
	jmp	3f
	.p2align	4
2:
	shlq	$32, %rcx
	addq	%rax, %rcx
	vmovq	.L1_v4_CPI80_10(%rip), %xmm0
	vpinsrb	$0, %edx, %xmm0, %xmm0
	vmovq	%rcx, %xmm1
	vpunpcklqdq	%xmm1, %xmm0, %xmm0
	vmovdqa	.L1_v4_CPI80_0+16(%rip), %xmm1
	movl	$64, %eax
	vpinsrb	$1, %eax, %xmm1, %xmm1
	vinserti128	$1, %xmm1, %ymm0, %ymm0
	vmovups	408(%r15), %ymm1
	vpxor	.L1_v4_CPI80_1(%rip), %ymm0, %ymm0
	vxorps	.L1_v4_CPI80_2(%rip), %ymm1, %ymm1
	vmovdqu	%ymm0, 288(%rsp)
	vmovups	%ymm1, 320(%rsp)
	vpxor	%xmm0, %xmm0, %xmm0
	leaq	96(%rsp), %rax
	vmovdqu	%ymm0, 32(%rax)
	vmovdqu	%ymm0, (%rax)
	leaq	344(%r15), %rax
	vmovups	(%rax), %ymm0
	vmovdqu	32(%rax), %ymm1
	vmovdqu	%ymm1, 64(%rsp)
	vmovups	%ymm0, 32(%rsp)
	leaq	288(%rsp), %rdi
	leaq	32(%rsp), %rsi
	movl	$64, %edx
	movl	$1, %ecx
	xorl	%r8d, %r8d
	vzeroupper
	vj_call	blake2_compress..compress..blake2b..compress_1_v4
	vmovups	288(%rsp), %ymm0
	vmovups	%ymm0, 32(%rsp)
	vmovdqu	320(%rsp), %ymm0
	vmovdqu	%ymm0, 64(%rsp)
	subq	%rbp, %r13
	cmpq	%rbx, %r13
	cmovaeq	%rbx, %r13
	leaq	32(%rsp,%rbp), %rsi
	movq	8(%rsp), %rdi
	movq	%r13, %rdx
	vzeroupper
	vj_c_call	memcpy
	movq	448(%r15), %rsi
	addq	%r13, %rsi
	movq	%r12, %rbx
	movq	%rsi, 448(%r15)
	addq	%r13, %r14
	cmpq	%rbx, %r14
	jae	9f
3:
	movq	16(%rsp), %rax
	leaq	(%rax,%r14), %r13
	movq	%rbx, %r12
	subq	%r14, %rbx
	movl	%esi, %ebp
	andl	$63, %ebp
	movq	%rsi, %rax
	shrq	$6, %rax
	cmpq	$256, %rbx
	jb	8f
	testq	%rbp, %rbp
	jne	8f
	movq	440(%r15), %rcx
	movl	$4294967295, %edx
	cmpq	%rdx, %rcx
	movq	%rcx, %rdx
	movabsq	$274877906944, %rdi
	cmoveq	%rdi, %rdx
	xorl	%r9d, %r9d
	movq	%rdx, %rdi
	subq	%rsi, %rdi
	cmovbq	%r9, %rdi
	cmpq	$64, %rdi
	jb	4f
	movl	$64, %edi
4:
	leaq	1(%rax), %r8
	shlq	$6, %r8
	movq	%rdx, %rsi
	subq	%r8, %rsi
	cmovbq	%r9, %rsi
	cmpq	$64, %rsi
	movq	%r12, %rbx
	jb	5f
	movl	$64, %esi
5:
	leaq	2(%rax), %r10
	shlq	$6, %r10
	movq	%rdx, %r8
	subq	%r10, %r8
	cmovbq	%r9, %r8
	cmpq	$64, %r8
	jb	6f
	movl	$64, %r8d
6:
	leaq	3(%rax), %r10
	shlq	$6, %r10
	subq	%r10, %rdx
	cmovbq	%r9, %rdx
	cmpq	$64, %rdx
	jb	7f
	movl	$64, %edx
7:
	shlq	$32, %rcx
	vpbroadcastd	.L1_v4_CPI80_3(%rip), %xmm1
	vpinsrb	$0, %edi, %xmm1, %xmm0
	leaq	(%rcx,%rax), %rdi
	vmovq	%rdi, %xmm2
	vpunpcklqdq	%xmm2, %xmm0, %xmm0
	vpxor	%xmm2, %xmm2, %xmm2
	movl	$64, %edi
	vpinsrb	$1, %edi, %xmm2, %xmm2
	vinserti128	$1, %xmm2, %ymm0, %ymm0
	vmovups	408(%r15), %ymm3
	vmovdqa	.L1_v4_CPI80_1(%rip), %ymm4
	vxorps	.L1_v4_CPI80_2(%rip), %ymm3, %ymm3
	vpxor	%ymm4, %ymm0, %ymm5
	leaq	1(%rcx,%rax), %rdi
	vpinsrb	$0, %esi, %xmm1, %xmm0
	vmovq	%rdi, %xmm6
	vpunpcklqdq	%xmm6, %xmm0, %xmm0
	vinserti128	$1, %xmm2, %ymm0, %ymm0
	vpxor	%ymm4, %ymm0, %ymm6
	leaq	2(%rcx,%rax), %rsi
	vpinsrb	$0, %r8d, %xmm1, %xmm0
	vmovq	%rsi, %xmm7
	vpunpcklqdq	%xmm7, %xmm0, %xmm0
	vinserti128	$1, %xmm2, %ymm0, %ymm0
	vpxor	%ymm4, %ymm0, %ymm0
	leaq	3(%rcx,%rax), %rax
	vpinsrb	$0, %edx, %xmm1, %xmm1
	vmovq	%rax, %xmm7
	vpunpcklqdq	%xmm7, %xmm1, %xmm1
	vinserti128	$1, %xmm2, %ymm1, %ymm1
	vpxor	%ymm4, %ymm1, %ymm1
	vpunpcklqdq	%xmm6, %xmm5, %xmm2
	vinserti128	$1, %xmm0, %ymm2, %ymm2
	vmovdqa	.L1_v4_CPI80_4(%rip), %ymm4
	vpermi2q	%ymm1, %ymm2, %ymm4
	vpunpckhqdq	%xmm6, %xmm5, %xmm2
	vmovdqa	.L1_v4_CPI80_5(%rip), %ymm7
	vpermi2q	%ymm0, %ymm2, %ymm7
	vmovdqa	.L1_v4_CPI80_6(%rip), %ymm2
	vpermi2q	%ymm1, %ymm7, %ymm2
	vpunpcklqdq	%ymm6, %ymm5, %ymm7
	vperm2i128	$49, %ymm0, %ymm7, %ymm7
	vmovdqa	.L1_v4_CPI80_7(%rip), %ymm8
	vpermi2q	%ymm1, %ymm7, %ymm8
	vpunpckhqdq	%ymm6, %ymm5, %ymm5
	vmovdqa	.L1_v4_CPI80_8(%rip), %ymm6
	vpermi2q	%ymm0, %ymm5, %ymm6
	vpblendd	$192, %ymm1, %ymm6, %ymm0
	vbroadcastsd	%xmm3, %ymm1
	vpermpd	$85, %ymm3, %ymm5
	vpermpd	$170, %ymm3, %ymm6
	vpermpd	$255, %ymm3, %ymm3
	vpxor	%xmm7, %xmm7, %xmm7
	leaq	352(%rsp), %rax
	vmovdqu	%ymm7, 32(%rax)
	vmovdqu	%ymm7, (%rax)
	leaq	344(%r15), %rax
	vmovups	(%rax), %ymm7
	vmovups	32(%rax), %ymm9
	vmovups	%ymm9, 320(%rsp)
	vmovups	%ymm7, 288(%rsp)
	vmovups	%ymm7, 512(%rsp)
	vmovups	%ymm9, 544(%rsp)
	vmovups	352(%rsp), %ymm7
	vmovups	384(%rsp), %ymm9
	vmovups	%ymm7, 576(%rsp)
	vmovups	%ymm9, 608(%rsp)
	movabsq	$281479271743489, %rax
	movq	%rax, 24(%rsp)
	vmovdqu	%ymm4, 32(%rsp)
	vmovdqu	%ymm2, 64(%rsp)
	vmovdqu	%ymm8, 96(%rsp)
	vmovdqu	%ymm0, 128(%rsp)
	vmovups	%ymm1, 160(%rsp)
	vmovups	%ymm5, 192(%rsp)
	vmovups	%ymm6, 224(%rsp)
	vmovups	%ymm3, 256(%rsp)
	vmovups	416(%rsp), %ymm0
	vmovups	%ymm0, 480(%rsp)
	vbroadcastsd	.L1_v4_CPI80_9(%rip), %ymm0
	vmovups	%ymm0, 448(%rsp)
	leaq	32(%rsp), %rdi
	leaq	480(%rsp), %rsi
	leaq	448(%rsp), %rdx
	leaq	24(%rsp), %rcx
	vzeroupper
	callq	blake2_compress..many..blake2b..compress_each_1_v4
	vmovdqu	32(%rsp), %ymm0
	vmovdqu	64(%rsp), %ymm1
	vmovdqu	96(%rsp), %ymm2
	vmovdqu	128(%rsp), %ymm3
	vpunpcklqdq	%ymm1, %ymm0, %ymm4
	vpunpcklqdq	%ymm3, %ymm2, %ymm5
	vinserti128	$1, %xmm5, %ymm4, %ymm6
	vmovdqu	160(%rsp), %ymm7
	vmovdqu	192(%rsp), %ymm8
	vmovdqu	224(%rsp), %ymm9
	vmovdqu	256(%rsp), %ymm10
	vpunpcklqdq	%ymm8, %ymm7, %ymm11
	vpunpcklqdq	%ymm10, %ymm9, %ymm12
	vinserti128	$1, %xmm12, %ymm11, %ymm13
	vpunpckhqdq	%ymm1, %ymm0, %ymm0
	vpunpckhqdq	%ymm3, %ymm2, %ymm1
	vinserti128	$1, %xmm1, %ymm0, %ymm2
	vpunpckhqdq	%ymm8, %ymm7, %ymm3
	vpunpckhqdq	%ymm10, %ymm9, %ymm7
	vinserti128	$1, %xmm7, %ymm3, %ymm8
	vperm2i128	$49, %ymm5, %ymm4, %ymm4
	vperm2i128	$49, %ymm12, %ymm11, %ymm5
	vperm2i128	$49, %ymm1, %ymm0, %ymm0
	vperm2i128	$49, %ymm7, %ymm3, %ymm1
	vmovdqu	%ymm6, (%r13)
	vmovdqu	%ymm13, 32(%r13)
	vmovdqu	%ymm2, 64(%r13)
	vmovdqu	%ymm8, 96(%r13)
	vmovdqu	%ymm4, 128(%r13)
	vmovdqu	%ymm5, 160(%r13)
	vmovdqu	%ymm0, 192(%r13)
	vmovdqu	%ymm1, 224(%r13)
	movl	$256, %r13d
	movq	448(%r15), %rsi
	addq	%r13, %rsi
	movq	%rsi, 448(%r15)
	addq	%r13, %r14
	cmpq	%rbx, %r14
	jb	3b
	jmp	9f
	.p2align	4
8:
	movq	%r13, 8(%rsp)
	movq	440(%r15), %rcx
	movl	$4294967295, %edx
	cmpq	%rdx, %rcx
	movq	%rcx, %rdi
	movabsq	$274877906944, %rdx
	cmoveq	%rdx, %rdi
	andq	$-64, %rsi
	xorl	%edx, %edx
	subq	%rsi, %rdi
	cmovaeq	%rdi, %rdx
	movl	$64, %r13d
	cmpq	$64, %rdx
	jb	2b
	movl	$64, %edx
	jmp	2b
9:
	addq	$648, %rsp
	popq	%rbx
	popq	%r12
	popq	%r13
	popq	%r14
	popq	%r15
	popq	%rbp
	vzeroupper
	retq
	vj_end	blake2_xof..blake2xb..State..squeeze_1_v4

	vj_function	blake2_digest..wiping..scrub_stack..4096_1_v4
	pushq	%rbx
	subq	$3072, %rsp
	movq	$0, (%rsp)
	subq	$1024, %rsp
	movq	%rsp, %rbx
	movl	$4096, %edx
	movq	%rbx, %rdi
	xorl	%esi, %esi
	vj_c_call	memset
	movq	%rbx, %rdi
	callq	blake2_digest..wiping..settle..4096_1_v4
	addq	$4096, %rsp
	popq	%rbx
	vpxord	%xmm16, %xmm16, %xmm16
	vpxord	%xmm17, %xmm17, %xmm17
	vpxord	%xmm18, %xmm18, %xmm18
	vpxord	%xmm19, %xmm19, %xmm19
	vpxord	%xmm20, %xmm20, %xmm20
	vpxord	%xmm21, %xmm21, %xmm21
	vpxord	%xmm22, %xmm22, %xmm22
	vpxord	%xmm23, %xmm23, %xmm23
	vpxord	%xmm24, %xmm24, %xmm24
	vpxord	%xmm25, %xmm25, %xmm25
	vpxord	%xmm26, %xmm26, %xmm26
	vpxord	%xmm27, %xmm27, %xmm27
	vpxord	%xmm28, %xmm28, %xmm28
	vpxord	%xmm29, %xmm29, %xmm29
	vpxord	%xmm30, %xmm30, %xmm30
	vpxord	%xmm31, %xmm31, %xmm31
	retq
	vj_end	blake2_digest..wiping..scrub_stack..4096_1_v4

	vj_function	blake2_digest..wiping..settle..4096_1_v4
	vmovdqu	128(%rdi), %ymm0
	vmovdqu	160(%rdi), %ymm1
	vmovdqu	192(%rdi), %ymm2
	vmovdqu	224(%rdi), %ymm3
	vpor	32(%rdi), %ymm1, %ymm1
	vpor	64(%rdi), %ymm2, %ymm2
	vpor	96(%rdi), %ymm3, %ymm3
	vmovdqu	256(%rdi), %ymm4
	vmovdqu	288(%rdi), %ymm5
	vmovdqu	320(%rdi), %ymm6
	vmovdqu	352(%rdi), %ymm7
	vpternlogq	$254, (%rdi), %ymm0, %ymm4
	vpternlogq	$254, 416(%rdi), %ymm1, %ymm5
	vpternlogq	$254, 448(%rdi), %ymm2, %ymm6
	vmovdqu	384(%rdi), %ymm0
	vpternlogq	$254, 480(%rdi), %ymm3, %ymm7
	vmovdqu	544(%rdi), %ymm1
	vmovdqu	576(%rdi), %ymm2
	vmovdqu	608(%rdi), %ymm3
	vpternlogq	$254, 512(%rdi), %ymm4, %ymm0
	vpternlogq	$254, 672(%rdi), %ymm5, %ymm1
	vpternlogq	$254, 704(%rdi), %ymm6, %ymm2
	vmovdqu	640(%rdi), %ymm4
	vpternlogq	$254, 736(%rdi), %ymm7, %ymm3
	vmovdqu	800(%rdi), %ymm5
	vmovdqu	832(%rdi), %ymm6
	vmovdqu	864(%rdi), %ymm7
	vpternlogq	$254, 768(%rdi), %ymm0, %ymm4
	vpternlogq	$254, 928(%rdi), %ymm1, %ymm5
	vpternlogq	$254, 960(%rdi), %ymm2, %ymm6
	vmovdqu	896(%rdi), %ymm0
	vpternlogq	$254, 992(%rdi), %ymm3, %ymm7
	vmovdqu	1056(%rdi), %ymm1
	vmovdqu	1088(%rdi), %ymm2
	vmovdqu	1120(%rdi), %ymm3
	vpternlogq	$254, 1024(%rdi), %ymm4, %ymm0
	vpternlogq	$254, 1184(%rdi), %ymm5, %ymm1
	vpternlogq	$254, 1216(%rdi), %ymm6, %ymm2
	vmovdqu	1152(%rdi), %ymm4
	vpternlogq	$254, 1248(%rdi), %ymm7, %ymm3
	vmovdqu	1312(%rdi), %ymm5
	vmovdqu	1344(%rdi), %ymm6
	vmovdqu	1376(%rdi), %ymm7
	vpternlogq	$254, 1280(%rdi), %ymm0, %ymm4
	vpternlogq	$254, 1440(%rdi), %ymm1, %ymm5
	vpternlogq	$254, 1472(%rdi), %ymm2, %ymm6
	vmovdqu	1408(%rdi), %ymm0
	vpternlogq	$254, 1504(%rdi), %ymm3, %ymm7
	vmovdqu	1568(%rdi), %ymm1
	vmovdqu	1600(%rdi), %ymm2
	vmovdqu	1632(%rdi), %ymm3
	vpternlogq	$254, 1536(%rdi), %ymm4, %ymm0
	vpternlogq	$254, 1696(%rdi), %ymm5, %ymm1
	vpternlogq	$254, 1728(%rdi), %ymm6, %ymm2
	vmovdqu	1664(%rdi), %ymm4
	vpternlogq	$254, 1760(%rdi), %ymm7, %ymm3
	vmovdqu	1824(%rdi), %ymm5
	vmovdqu	1856(%rdi), %ymm6
	vmovdqu	1888(%rdi), %ymm7
	vpternlogq	$254, 1792(%rdi), %ymm0, %ymm4
	vpternlogq	$254, 1952(%rdi), %ymm1, %ymm5
	vpternlogq	$254, 1984(%rdi), %ymm2, %ymm6
	vmovdqu	1920(%rdi), %ymm0
	vpternlogq	$254, 2016(%rdi), %ymm3, %ymm7
	vmovdqu	2080(%rdi), %ymm1
	vmovdqu	2112(%rdi), %ymm2
	vmovdqu	2144(%rdi), %ymm3
	vpternlogq	$254, 2048(%rdi), %ymm4, %ymm0
	vpternlogq	$254, 2208(%rdi), %ymm5, %ymm1
	vpternlogq	$254, 2240(%rdi), %ymm6, %ymm2
	vmovdqu	2176(%rdi), %ymm4
	vpternlogq	$254, 2272(%rdi), %ymm7, %ymm3
	vmovdqu	2336(%rdi), %ymm5
	vmovdqu	2368(%rdi), %ymm6
	vmovdqu	2400(%rdi), %ymm7
	vpternlogq	$254, 2304(%rdi), %ymm0, %ymm4
	vpternlogq	$254, 2464(%rdi), %ymm1, %ymm5
	vpternlogq	$254, 2496(%rdi), %ymm2, %ymm6
	vmovdqu	2432(%rdi), %ymm0
	vpternlogq	$254, 2528(%rdi), %ymm3, %ymm7
	vmovdqu	2592(%rdi), %ymm1
	vmovdqu	2624(%rdi), %ymm2
	vmovdqu	2656(%rdi), %ymm3
	vpternlogq	$254, 2560(%rdi), %ymm4, %ymm0
	vpternlogq	$254, 2720(%rdi), %ymm5, %ymm1
	vpternlogq	$254, 2752(%rdi), %ymm6, %ymm2
	vmovdqu	2688(%rdi), %ymm4
	vpternlogq	$254, 2784(%rdi), %ymm7, %ymm3
	vmovdqu	2848(%rdi), %ymm5
	vmovdqu	2880(%rdi), %ymm6
	vmovdqu	2912(%rdi), %ymm7
	vpternlogq	$254, 2816(%rdi), %ymm0, %ymm4
	vpternlogq	$254, 2976(%rdi), %ymm1, %ymm5
	vpternlogq	$254, 3008(%rdi), %ymm2, %ymm6
	vmovdqu	2944(%rdi), %ymm0
	vpternlogq	$254, 3040(%rdi), %ymm3, %ymm7
	vmovdqu	3104(%rdi), %ymm1
	vmovdqu	3136(%rdi), %ymm2
	vmovdqu	3168(%rdi), %ymm3
	vpternlogq	$254, 3072(%rdi), %ymm4, %ymm0
	vpternlogq	$254, 3232(%rdi), %ymm5, %ymm1
	vpternlogq	$254, 3264(%rdi), %ymm6, %ymm2
	vmovdqu	3200(%rdi), %ymm4
	vpternlogq	$254, 3296(%rdi), %ymm7, %ymm3
	vmovdqu	3360(%rdi), %ymm5
	vmovdqu	3392(%rdi), %ymm6
	vmovdqu	3424(%rdi), %ymm7
	vpternlogq	$254, 3328(%rdi), %ymm0, %ymm4
	vpternlogq	$254, 3488(%rdi), %ymm1, %ymm5
	vpternlogq	$254, 3520(%rdi), %ymm2, %ymm6
	vmovdqu	3456(%rdi), %ymm0
	vpternlogq	$254, 3552(%rdi), %ymm3, %ymm7
	vmovdqu	3616(%rdi), %ymm1
	vmovdqu	3648(%rdi), %ymm2
	vmovdqu	3680(%rdi), %ymm3
	vpternlogq	$254, 3584(%rdi), %ymm4, %ymm0
	vpternlogq	$254, 3744(%rdi), %ymm5, %ymm1
	vpternlogq	$254, 3776(%rdi), %ymm6, %ymm2
	vmovdqu	3712(%rdi), %ymm4
	vpternlogq	$254, 3808(%rdi), %ymm7, %ymm3
	vmovdqu	3872(%rdi), %ymm5
	vmovdqu	3904(%rdi), %ymm6
	vmovdqu	3936(%rdi), %ymm7
	vpternlogq	$254, 3840(%rdi), %ymm0, %ymm4
	vpternlogq	$254, 4000(%rdi), %ymm1, %ymm5
	vpternlogq	$254, 4032(%rdi), %ymm2, %ymm6
	vpternlogq	$254, 4064(%rdi), %ymm3, %ymm7
	vpternlogq	$254, 3968(%rdi), %ymm4, %ymm5
	vpternlogq	$254, %ymm7, %ymm6, %ymm5
	vptest	%ymm5, %ymm5
	je	1f
	pause
1:
	vzeroupper
	retq
	vj_end	blake2_digest..wiping..settle..4096_1_v4

	vj_function	blake2_ffi..blake2xb..update_in_frame_1_v4
	cmpq	$1, %rdx
	jne	blake2_state..blake2b..State..absorb_blocks_1_v4
	movl	136(%rdi), %eax
	cmpq	$128, %rax
	jae	1f
	movzbl	(%rsi), %ecx
	movb	%cl, 152(%rdi,%rax)
	incl	%eax
	movl	%eax, 136(%rdi)
	retq
1:
	movl	$1, %edx
	jmp	blake2_state..blake2b..State..absorb_blocks_1_v4
	vj_end	blake2_ffi..blake2xb..update_in_frame_1_v4

	vj_constants	32
	.p2align	5, 0x0
.L1_v4_CPI84_0:
	.long	1779033703
	.long	3144134277
	.long	1013904242
	.long	2773480762
	.long	1359893119
	.long	2600822924
	.long	528734635
	.long	1541459225
	vj_constants	16
	.p2align	4, 0x0
.L1_v4_CPI84_1:
	.short	32
	.short	257
	.short	0
	.short	0
	.zero	2
	.zero	2
	.zero	2
	.zero	2
.L1_v4_CPI84_2:
	.short	32
	.short	257
	.short	0
	.short	0
	.short	0
	.short	0
	.short	0
	.short	0
	vj_function	blake2_ffi..blake2xs..initialize_1_v4
	pushq	%rbp
	pushq	%r15
	pushq	%r14
	pushq	%r13
	pushq	%r12
	pushq	%rbx
	subq	$168, %rsp
	movq	%rcx, %rbp
	movq	%rdx, %r15
	movq	%rdi, %rbx
	movq	232(%rsp), %r13
	leaq	-1(%rsi), %rax
	cmpq	$65535, %rax
	setae	%al
	cmpq	$33, %rcx
	setae	%cl
	cmpq	$9, %r9
	setae	%dl
	orb	%cl, %dl
	orb	%al, %dl
	cmpq	$9, %r13
	setae	%al
	orb	%dl, %al
	jne	1f
	movq	%r9, %r12
	movq	%rsi, %r14
	movq	%rsi, %rax
	shlq	$32, %rax
	vpxor	%xmm0, %xmm0, %xmm0
	testq	%rbp, %rbp
	je	2f
	vmovdqa	%xmm0, (%rsp)
	movl	%ebp, %ecx
	shll	$8, %ecx
	orl	$16842784, %ecx
	vmovd	%ecx, %xmm1
	vpmovzxdq	%xmm1, %xmm1
	vmovq	%rax, %xmm2
	vpunpcklqdq	%xmm2, %xmm1, %xmm1
	vpblendw	$128, %xmm0, %xmm1, %xmm0
	vmovdqu	%ymm0, 16(%rsp)
	movq	%rsp, %rdi
	movq	%r8, %rsi
	movq	%r12, %rdx
	movq	%r8, 56(%rsp)
	vzeroupper
	vj_c_call	memcpy
	leaq	8(%rsp), %rdi
	movq	224(%rsp), %rsi
	movq	%r13, %rdx
	vj_c_call	memcpy
	vmovups	16(%rsp), %ymm0
	vinsertf128	$1, (%rsp), %ymm0, %ymm0
	vmovups	%ymm0, 16(%rsp)
	movl	$32, %eax
	subq	%rbp, %rax
	xorl	%edx, %edx
	cmpq	$32, %rbp
	cmovbq	%rax, %rdx
	leaq	(%rsp,%rbp), %rdi
	addq	$64, %rdi
	xorl	%esi, %esi
	vzeroupper
	vj_c_call	memset
	leaq	64(%rsp), %rdi
	movq	%r15, %rsi
	movq	56(%rsp), %r15
	movq	%rbp, %rdx
	vj_c_call	memcpy
	vxorps	%xmm0, %xmm0, %xmm0
	vmovups	%ymm0, 128(%rsp)
	vmovups	64(%rsp), %ymm0
	vmovups	%ymm0, 96(%rsp)
	vmovups	16(%rsp), %ymm0
	vxorps	.L1_v4_CPI84_0(%rip), %ymm0, %ymm0
	vmovups	%ymm0, 16(%rsp)
	movw	$64, %bp
	jmp	3f
1:
	vxorps	%xmm0, %xmm0, %xmm0
	vmovups	%ymm0, 216(%rbx)
	vmovups	%ymm0, 192(%rbx)
	vmovups	%ymm0, 160(%rbx)
	vmovups	%ymm0, 128(%rbx)
	vmovups	%ymm0, 96(%rbx)
	vmovups	%ymm0, 64(%rbx)
	vmovups	%ymm0, 32(%rbx)
	vmovups	%ymm0, (%rbx)
	movl	$-1, %eax
	jmp	4f
2:
	vmovdqa	%xmm0, (%rsp)
	vmovq	%rax, %xmm1
	vmovd	.L1_v4_CPI84_2(%rip), %xmm2
	vpunpcklqdq	%xmm1, %xmm2, %xmm1
	vpblendw	$128, %xmm0, %xmm1, %xmm0
	vmovdqu	%ymm0, 16(%rsp)
	movq	%rsp, %rdi
	movq	%r8, %rsi
	movq	%r12, %rdx
	movq	%r8, %r15
	vzeroupper
	vj_c_call	memcpy
	leaq	8(%rsp), %rdi
	movq	224(%rsp), %rsi
	movq	%r13, %rdx
	vj_c_call	memcpy
	vmovups	16(%rsp), %ymm0
	vinsertf128	$1, (%rsp), %ymm0, %ymm0
	vpxor	%xmm1, %xmm1, %xmm1
	vmovdqu	%ymm1, 96(%rsp)
	vmovdqu	%ymm1, 128(%rsp)
	vmovdqu	%ymm1, 64(%rsp)
	vxorps	.L1_v4_CPI84_0(%rip), %ymm0, %ymm0
	vmovups	%ymm0, 16(%rsp)
	xorl	%ebp, %ebp
3:
	movq	$0, (%rsp)
	movq	%rsp, %rdi
	movq	%r15, %rsi
	movq	%r12, %rdx
	vzeroupper
	vj_c_call	memcpy
	movq	(%rsp), %r15
	movq	$0, (%rsp)
	movq	%rsp, %rdi
	movq	224(%rsp), %rsi
	movq	%r13, %rdx
	vj_c_call	memcpy
	movq	(%rsp), %rax
	vmovups	16(%rsp), %ymm0
	vmovups	%ymm0, (%rbx)
	vmovups	%ymm0, 32(%rbx)
	movq	$0, 64(%rbx)
	movw	%bp, 72(%rbx)
	movw	%bp, 74(%rbx)
	movl	$32, 76(%rbx)
	vmovups	96(%rsp), %ymm0
	vmovups	128(%rsp), %ymm1
	vmovups	%ymm0, 80(%rbx)
	vmovups	%ymm1, 112(%rbx)
	vmovups	64(%rsp), %ymm0
	vmovups	%ymm0, 144(%rbx)
	vxorps	%xmm0, %xmm0, %xmm0
	vmovups	%ymm0, 176(%rbx)
	movq	%r15, 208(%rbx)
	movq	%rax, 216(%rbx)
	movq	%r14, 224(%rbx)
	vxorps	%xmm0, %xmm0, %xmm0
	vmovups	%xmm0, 232(%rbx)
	xorl	%eax, %eax
4:
	addq	$168, %rsp
	popq	%rbx
	popq	%r12
	popq	%r13
	popq	%r14
	popq	%r15
	popq	%rbp
	vzeroupper
	retq
	vj_end	blake2_ffi..blake2xs..initialize_1_v4

	vj_function	blake2_ffi..blake2xs..reset_in_frame_1_v4
	vmovups	32(%rdi), %ymm0
	vmovups	%ymm0, (%rdi)
	movq	$0, 64(%rdi)
	movzwl	74(%rdi), %eax
	movw	%ax, 72(%rdi)
	vxorps	%xmm0, %xmm0, %xmm0
	vmovups	%ymm0, 112(%rdi)
	vmovups	144(%rdi), %ymm1
	vmovups	%ymm1, 80(%rdi)
	vmovups	%ymm0, 176(%rdi)
	vxorps	%xmm0, %xmm0, %xmm0
	vmovups	%xmm0, 232(%rdi)
	vzeroupper
	retq
	vj_end	blake2_ffi..blake2xs..reset_in_frame_1_v4

	vj_function	blake2_ffi..blake2xs..read_1_v4
	vj_jump	blake2_xof..blake2xs..State..squeeze_1_v4
	vj_end	blake2_ffi..blake2xs..read_1_v4

	vj_constants	16
	.p2align	4, 0x0
.L1_v4_CPI87_0:
	.zero	1
	.byte	0
	.byte	0
	.byte	0
	.byte	32
	.byte	0
	.byte	0
	.byte	0
	.zero	1
	.zero	1
	.zero	1
	.zero	1
	.zero	1
	.zero	1
	.byte	0
	.zero	1
.L1_v4_CPI87_1:
	.long	1779033703
	.long	3144134277
	.long	1013904242
	.long	2773480762
.L1_v4_CPI87_2:
	.long	1359893119
	.long	2600822924
	.long	528734635
	.long	1541459225
.L1_v4_CPI87_4:
	.long	0
	.long	1
	.long	2
	.long	4
.L1_v4_CPI87_21:
	.byte	1
	.byte	0
	.byte	1
	.byte	0
	.byte	1
	.byte	0
	.byte	1
	.byte	0
	.byte	1
	.byte	0
	.byte	1
	.byte	0
	.byte	1
	.byte	0
	.byte	1
	.byte	0
.L1_v4_CPI87_22:
	.long	1
	.long	5
	.long	1
	.long	1
.L1_v4_CPI87_23:
	.long	0
	.long	1
	.long	2
	.long	6
.L1_v4_CPI87_24:
	.byte	0
	.byte	0
	.byte	0
	.byte	0
	.byte	32
	.byte	0
	.byte	0
	.byte	0
	.byte	0
	.byte	0
	.byte	0
	.byte	0
	.byte	0
	.byte	0
	.byte	0
	.byte	0
	vj_constants	4
	.p2align	2, 0x0
.L1_v4_CPI87_3:
	.byte	32
	.byte	0
	.byte	0
	.byte	0
.L1_v4_CPI87_17:
	.long	1
.L1_v4_CPI87_18:
	.long	2
.L1_v4_CPI87_19:
	.long	3
	vj_constants	32
	.p2align	5, 0x0
.L1_v4_CPI87_5:
	.long	0
	.long	1
	.long	2
	.long	3
	.long	4
	.long	8
	.zero	4
	.zero	4
.L1_v4_CPI87_6:
	.quad	0
	.quad	1
	.quad	2
	.quad	4
.L1_v4_CPI87_7:
	.long	0
	.long	1
	.long	2
	.long	3
	.long	4
	.long	5
	.long	6
	.long	8
.L1_v4_CPI87_9:
	.long	0
	.zero	4
	.long	2
	.long	9
	.long	5
	.zero	4
	.zero	4
	.zero	4
.L1_v4_CPI87_10:
	.long	0
	.long	1
	.long	2
	.long	3
	.long	4
	.long	5
	.long	9
	.zero	4
.L1_v4_CPI87_11:
	.long	0
	.long	1
	.long	2
	.long	3
	.long	4
	.long	5
	.long	6
	.long	9
.L1_v4_CPI87_12:
	.long	0
	.long	1
	.long	2
	.long	10
	.long	6
	.zero	4
	.zero	4
	.zero	4
.L1_v4_CPI87_13:
	.long	0
	.long	1
	.long	2
	.long	3
	.long	4
	.long	10
	.zero	4
	.zero	4
.L1_v4_CPI87_14:
	.long	0
	.long	1
	.long	2
	.long	3
	.long	4
	.long	5
	.long	6
	.long	10
.L1_v4_CPI87_15:
	.long	0
	.long	1
	.long	2
	.zero	4
	.long	7
	.long	11
	.zero	4
	.zero	4
.L1_v4_CPI87_16:
	.long	0
	.long	1
	.long	2
	.zero	4
	.long	4
	.long	5
	.long	11
	.zero	4
	vj_constants	8
	.p2align	3, 0x0
.L1_v4_CPI87_8:
	.long	1
	.long	5
.L1_v4_CPI87_20:
	.quad	32
	vj_shared	blake2_xof..blake2xs..State..squeeze_1_v4
	pushq	%rbp
	pushq	%r15
	pushq	%r14
	pushq	%r13
	pushq	%r12
	pushq	%rbx
	subq	$584, %rsp
	movq	%rdx, %rbx
	movq	%rsi, 8(%rsp)
	movq	%rdi, %r15
	cmpq	$0, 240(%rdi)
	jne	1f
	leaq	176(%r15), %rsi
	movq	%r15, %rdi
	callq	blake2_state..blake2s..State..write_digest_1_v4
	movq	$1, 240(%r15)
1:
	testq	%rbx, %rbx
	je	14f
	movq	232(%r15), %r8
	leaq	384(%rsp), %rax
	vpbroadcastq	%rax, %ymm0
	vmovdqu	%ymm0, 352(%rsp)
	xorl	%ebp, %ebp
	movq	%rbx, (%rsp)
	jmp	4f
	.p2align	4
2:
	shlq	$32, %rcx
	addq	%rax, %rcx
	vmovq	.L1_v4_CPI87_24(%rip), %xmm0
	vpinsrb	$0, %edx, %xmm0, %xmm0
	vpbroadcastq	%rcx, %xmm1
	vpblendw	$112, %xmm1, %xmm0, %xmm0
	movl	$32, %eax
	vpinsrb	$15, %eax, %xmm0, %xmm0
	vmovupd	208(%r15), %xmm1
	vpxor	.L1_v4_CPI87_1(%rip), %xmm0, %xmm0
	vxorpd	.L1_v4_CPI87_2(%rip), %xmm1, %xmm1
	vmovdqa	%xmm0, 288(%rsp)
	vmovapd	%xmm1, 304(%rsp)
	vpxor	%xmm0, %xmm0, %xmm0
	leaq	48(%rsp), %rax
	vmovdqu	%ymm0, (%rax)
	leaq	176(%r15), %rax
	vmovups	(%rax), %ymm0
	vmovups	%ymm0, 16(%rsp)
	leaq	288(%rsp), %rdi
	leaq	16(%rsp), %rsi
	movl	$32, %edx
	movl	$1, %ecx
	xorl	%r8d, %r8d
	vzeroupper
	vj_call	blake2_compress..compress..blake2s..compress_1_v4
	vmovdqu	288(%rsp), %ymm0
	vmovdqu	%ymm0, 16(%rsp)
	subq	%r14, %r13
	cmpq	%rbx, %r13
	cmovaeq	%rbx, %r13
	leaq	16(%rsp,%r14), %rsi
	movq	%r12, %rdi
	movq	%r13, %rdx
	vzeroupper
	vj_c_call	memcpy
3:
	movq	232(%r15), %r8
	addq	%r13, %r8
	movq	(%rsp), %rbx
	movq	%r8, 232(%r15)
	addq	%r13, %rbp
	cmpq	%rbx, %rbp
	jae	14f
4:
	movq	8(%rsp), %rax
	leaq	(%rax,%rbp), %r12
	subq	%rbp, %rbx
	movl	%r8d, %r14d
	andl	$31, %r14d
	movq	%r8, %rax
	shrq	$5, %rax
	cmpq	$256, %rbx
	jb	13f
	testq	%r14, %r14
	jne	13f
	movq	224(%r15), %rcx
	cmpq	$65535, %rcx
	movq	%rcx, %rdx
	movabsq	$137438953472, %rsi
	cmoveq	%rsi, %rdx
	xorl	%esi, %esi
	movq	%rdx, %rdi
	subq	%r8, %rdi
	cmovbq	%rsi, %rdi
	cmpq	$32, %rdi
	jb	5f
	movl	$32, %edi
5:
	leaq	1(%rax), %r9
	shlq	$5, %r9
	movq	%rdx, %r8
	subq	%r9, %r8
	cmovbq	%rsi, %r8
	cmpq	$32, %r8
	jb	6f
	movl	$32, %r8d
6:
	leaq	2(%rax), %r10
	shlq	$5, %r10
	movq	%rdx, %r9
	subq	%r10, %r9
	cmovbq	%rsi, %r9
	cmpq	$32, %r9
	jb	7f
	movl	$32, %r9d
7:
	leaq	3(%rax), %r11
	shlq	$5, %r11
	movq	%rdx, %r10
	subq	%r11, %r10
	cmovbq	%rsi, %r10
	cmpq	$32, %r10
	jb	8f
	movl	$32, %r10d
8:
	leaq	4(%rax), %rbx
	shlq	$5, %rbx
	movq	%rdx, %r11
	subq	%rbx, %r11
	cmovbq	%rsi, %r11
	cmpq	$32, %r11
	jb	9f
	movl	$32, %r11d
9:
	leaq	5(%rax), %rbx
	shlq	$5, %rbx
	movq	%rdx, %r13
	subq	%rbx, %r13
	cmovbq	%rsi, %r13
	cmpq	$32, %r13
	jb	10f
	movl	$32, %r13d
10:
	leaq	6(%rax), %r14
	shlq	$5, %r14
	movq	%rdx, %rbx
	subq	%r14, %rbx
	cmovbq	%rsi, %rbx
	cmpq	$32, %rbx
	jb	11f
	movl	$32, %ebx
11:
	shlq	$32, %rcx
	vpbroadcastd	.L1_v4_CPI87_3(%rip), %xmm6
	leaq	(%rcx,%rax), %r14
	vpinsrb	$0, %edi, %xmm6, %xmm0
	vpbroadcastq	%r14, %xmm1
	vpblendw	$112, %xmm1, %xmm0, %xmm0
	movl	$32, %edi
	vpinsrb	$15, %edi, %xmm0, %xmm1
	vmovdqu	208(%r15), %xmm0
	vpxor	.L1_v4_CPI87_2(%rip), %xmm0, %xmm0
	vmovdqa	.L1_v4_CPI87_1(%rip), %xmm9
	leaq	1(%rcx,%rax), %r14
	vpinsrb	$0, %r8d, %xmm6, %xmm2
	vpbroadcastq	%r14, %xmm3
	vpblendw	$112, %xmm3, %xmm2, %xmm2
	vpinsrb	$15, %edi, %xmm2, %xmm2
	vpxor	%xmm1, %xmm9, %xmm1
	leaq	2(%rcx,%rax), %r8
	vpinsrb	$0, %r9d, %xmm6, %xmm3
	vpbroadcastq	%r8, %xmm4
	vpblendw	$112, %xmm4, %xmm3, %xmm3
	vpinsrb	$15, %edi, %xmm3, %xmm3
	vpxor	%xmm2, %xmm9, %xmm4
	leaq	3(%rcx,%rax), %r8
	vpinsrb	$0, %r10d, %xmm6, %xmm2
	vpbroadcastq	%r8, %xmm5
	vpblendw	$112, %xmm5, %xmm2, %xmm2
	vpinsrb	$15, %edi, %xmm2, %xmm5
	vpxor	%xmm3, %xmm9, %xmm2
	leaq	4(%rcx,%rax), %r8
	vpinsrb	$0, %r11d, %xmm6, %xmm3
	vpbroadcastq	%r8, %xmm7
	vpblendw	$112, %xmm7, %xmm3, %xmm3
	vpinsrb	$15, %edi, %xmm3, %xmm7
	vpxor	%xmm5, %xmm9, %xmm3
	leaq	5(%rcx,%rax), %r8
	vpinsrb	$0, %r13d, %xmm6, %xmm5
	vpbroadcastq	%r8, %xmm8
	vpblendw	$112, %xmm8, %xmm5, %xmm5
	vpinsrb	$15, %edi, %xmm5, %xmm8
	vpxor	%xmm7, %xmm9, %xmm5
	leaq	6(%rcx,%rax), %r8
	vpinsrb	$0, %ebx, %xmm6, %xmm7
	vpbroadcastq	%r8, %xmm10
	vpblendw	$112, %xmm10, %xmm7, %xmm7
	vpinsrb	$15, %edi, %xmm7, %xmm7
	vpxor	%xmm9, %xmm8, %xmm8
	vpxor	%xmm7, %xmm9, %xmm7
	leaq	7(%rax), %r8
	shlq	$5, %r8
	subq	%r8, %rdx
	cmovbq	%rsi, %rdx
	cmpq	$32, %rdx
	jb	12f
	movl	$32, %edx
12:
	addq	%rcx, %rax
	addq	$7, %rax
	vpinsrb	$0, %edx, %xmm6, %xmm6
	vpbroadcastq	%rax, %xmm10
	vpblendw	$112, %xmm10, %xmm6, %xmm6
	vpinsrb	$15, %edi, %xmm6, %xmm6
	vpxor	%xmm6, %xmm9, %xmm6
	vpunpckldq	%xmm4, %xmm1, %xmm9
	vpunpcklqdq	%xmm2, %xmm9, %xmm9
	vmovdqa	.L1_v4_CPI87_4(%rip), %xmm10
	vpermt2d	%xmm3, %xmm10, %xmm9
	vinserti128	$1, %xmm5, %ymm9, %ymm9
	vmovdqa	.L1_v4_CPI87_5(%rip), %ymm10
	vpermi2d	%ymm8, %ymm9, %ymm10
	vmovdqa	.L1_v4_CPI87_6(%rip), %ymm9
	vpermi2q	%ymm7, %ymm10, %ymm9
	vmovdqa	.L1_v4_CPI87_7(%rip), %ymm10
	vpermi2d	%ymm6, %ymm9, %ymm10
	vpbroadcastq	.L1_v4_CPI87_8(%rip), %xmm9
	vpermi2d	%xmm4, %xmm1, %xmm9
	vshufps	$212, %xmm2, %xmm9, %xmm9
	vinsertf128	$1, %xmm5, %ymm9, %ymm11
	vmovdqa	.L1_v4_CPI87_9(%rip), %ymm12
	vpermi2d	%ymm3, %ymm11, %ymm12
	vinsertf128	$1, %xmm8, %ymm9, %ymm9
	vpblendd	$34, %ymm9, %ymm12, %ymm9
	vmovdqa	.L1_v4_CPI87_10(%rip), %ymm11
	vpermi2d	%ymm7, %ymm9, %ymm11
	vmovdqa	.L1_v4_CPI87_11(%rip), %ymm9
	vpermi2d	%ymm6, %ymm11, %ymm9
	vpunpckhdq	%xmm4, %xmm1, %xmm1
	vpblendd	$12, %xmm2, %xmm1, %xmm4
	vinserti128	$1, %xmm5, %ymm4, %ymm4
	vmovdqa	.L1_v4_CPI87_12(%rip), %ymm11
	vpermi2d	%ymm3, %ymm4, %ymm11
	vmovdqa	.L1_v4_CPI87_13(%rip), %ymm4
	vpermi2d	%ymm8, %ymm11, %ymm4
	vinserti128	$1, %xmm7, %ymm0, %ymm11
	vpblendd	$192, %ymm11, %ymm4, %ymm4
	vmovdqa	.L1_v4_CPI87_14(%rip), %ymm11
	vpermi2d	%ymm6, %ymm4, %ymm11
	vshufps	$254, %xmm2, %xmm1, %xmm1
	vinsertf128	$1, %xmm5, %ymm1, %ymm1
	vmovdqa	.L1_v4_CPI87_15(%rip), %ymm2
	vpermi2d	%ymm8, %ymm1, %ymm2
	vmovdqa	.L1_v4_CPI87_16(%rip), %ymm1
	vpermi2d	%ymm7, %ymm2, %ymm1
	vinserti128	$1, %xmm6, %ymm3, %ymm2
	vpblendd	$136, %ymm2, %ymm1, %ymm1
	vpbroadcastd	%xmm0, %ymm2
	vpbroadcastd	.L1_v4_CPI87_17(%rip), %ymm3
	vpbroadcastd	.L1_v4_CPI87_18(%rip), %ymm4
	vpbroadcastd	.L1_v4_CPI87_19(%rip), %ymm5
	vpermd	%ymm0, %ymm3, %ymm3
	vpxor	%xmm6, %xmm6, %xmm6
	leaq	480(%rsp), %rax
	vmovdqu	%ymm6, (%rax)
	vpermd	%ymm0, %ymm4, %ymm4
	leaq	176(%r15), %rax
	vmovups	(%rax), %ymm6
	vmovups	%ymm6, 448(%rsp)
	vpermd	%ymm0, %ymm5, %ymm0
	vmovups	%ymm6, 384(%rsp)
	vmovups	480(%rsp), %ymm5
	vmovups	%ymm5, 416(%rsp)
	vmovdqu	%ymm10, 16(%rsp)
	vmovdqu	%ymm9, 48(%rsp)
	vmovdqu	%ymm11, 80(%rsp)
	vmovdqu	%ymm1, 112(%rsp)
	vmovdqu	%ymm2, 144(%rsp)
	vmovdqu	%ymm3, 176(%rsp)
	vmovdqu	%ymm4, 208(%rsp)
	vmovdqu	%ymm0, 240(%rsp)
	vmovups	352(%rsp), %ymm0
	vmovups	%ymm0, 288(%rsp)
	vmovups	%ymm0, 320(%rsp)
	vbroadcastsd	.L1_v4_CPI87_20(%rip), %ymm0
	vmovups	%ymm0, 520(%rsp)
	vmovups	%ymm0, 552(%rsp)
	vmovaps	.L1_v4_CPI87_21(%rip), %xmm0
	vmovaps	%xmm0, 272(%rsp)
	leaq	16(%rsp), %rdi
	leaq	288(%rsp), %rsi
	leaq	520(%rsp), %rdx
	leaq	272(%rsp), %rcx
	vzeroupper
	callq	blake2_compress..many..blake2s..compress_each_1_v4
	vmovdqu	16(%rsp), %xmm12
	vmovdqu	32(%rsp), %xmm3
	vmovdqu	48(%rsp), %xmm13
	vmovdqu	64(%rsp), %xmm5
	vpunpckldq	%xmm13, %xmm12, %xmm19
	vmovdqu	80(%rsp), %xmm11
	vpunpcklqdq	%xmm11, %xmm19, %xmm16
	vmovdqu	112(%rsp), %xmm10
	vmovdqu	176(%rsp), %xmm14
	vmovdqu	144(%rsp), %xmm15
	vmovdqu	208(%rsp), %xmm9
	vmovdqu	240(%rsp), %xmm8
	vpbroadcastd	116(%rsp), %xmm18
	vpbroadcastd	244(%rsp), %xmm17
	vmovdqu	128(%rsp), %xmm1
	movzbl	140(%rsp), %ecx
	movzbl	132(%rsp), %esi
	vmovdqu	256(%rsp), %xmm0
	movzbl	268(%rsp), %eax
	movzbl	260(%rsp), %edx
	vmovdqu	96(%rsp), %xmm4
	vmovdqu	192(%rsp), %xmm6
	vmovdqu	160(%rsp), %xmm7
	vmovdqu	224(%rsp), %xmm2
	vmovq	%xmm19, (%r12)
	vmovd	%xmm11, 8(%r12)
	vmovdqa64	.L1_v4_CPI87_4(%rip), %xmm20
	vpermt2d	%xmm10, %xmm20, %xmm16
	vpextrb	$0, %xmm10, 12(%r12)
	vpunpckldq	%xmm14, %xmm15, %xmm19
	vpalignr	$13, %xmm16, %xmm19, %xmm16
	vmovq	%xmm16, 13(%r12)
	vpunpcklqdq	%xmm9, %xmm19, %xmm16
	vpsrldq	$5, %xmm16, %xmm19
	vmovss	%xmm19, 21(%r12)
	vpextrb	$1, %xmm9, 25(%r12)
	vpextrb	$2, %xmm9, 26(%r12)
	vpermi2d	%xmm8, %xmm16, %xmm20
	vpextrb	$3, %xmm9, 27(%r12)
	vmovdqa64	.L1_v4_CPI87_22(%rip), %xmm16
	vmovdqa64	%xmm12, %xmm19
	vpextrb	$0, %xmm8, 28(%r12)
	vpermt2d	%xmm13, %xmm16, %xmm19
	vpalignr	$13, %xmm20, %xmm19, %xmm20
	vmovq	%xmm20, 29(%r12)
	vshufps	$212, %xmm11, %xmm19, %xmm19
	vpsrldq	$5, %xmm19, %xmm19
	vmovss	%xmm19, 37(%r12)
	vpextrb	$5, %xmm11, 41(%r12)
	vpextrb	$6, %xmm11, 42(%r12)
	vpextrb	$7, %xmm11, 43(%r12)
	vmovdqa64	%xmm15, %xmm19
	vpextrb	$4, %xmm10, 44(%r12)
	vpermt2d	%xmm14, %xmm16, %xmm19
	vpalignr	$13, %xmm18, %xmm19, %xmm18
	vmovq	%xmm18, 45(%r12)
	vshufps	$212, %xmm9, %xmm19, %xmm18
	vpsrldq	$5, %xmm18, %xmm18
	vmovss	%xmm18, 53(%r12)
	vpextrb	$5, %xmm9, 57(%r12)
	vpextrb	$6, %xmm9, 58(%r12)
	vpextrb	$7, %xmm9, 59(%r12)
	vpextrb	$4, %xmm8, 60(%r12)
	vpunpckhdq	%xmm13, %xmm12, %xmm12
	vpalignr	$13, %xmm17, %xmm12, %xmm13
	vmovq	%xmm13, 61(%r12)
	vpblendd	$12, %xmm11, %xmm12, %xmm13
	vpsrldq	$5, %xmm13, %xmm17
	vmovss	%xmm17, 69(%r12)
	vpextrb	$9, %xmm11, 73(%r12)
	vpextrb	$10, %xmm11, 74(%r12)
	vpunpckhdq	%xmm14, %xmm15, %xmm14
	vpextrb	$11, %xmm11, 75(%r12)
	vmovdqa	.L1_v4_CPI87_23(%rip), %xmm15
	vpextrb	$8, %xmm10, 76(%r12)
	vpermt2d	%xmm10, %xmm15, %xmm13
	vpalignr	$13, %xmm13, %xmm14, %xmm13
	vmovq	%xmm13, 77(%r12)
	vpblendd	$12, %xmm9, %xmm14, %xmm13
	vpsrldq	$5, %xmm13, %xmm17
	vmovss	%xmm17, 85(%r12)
	vpextrb	$9, %xmm9, 89(%r12)
	vpextrb	$10, %xmm9, 90(%r12)
	vpextrb	$11, %xmm9, 91(%r12)
	vpermi2d	%xmm8, %xmm13, %xmm15
	vpextrb	$8, %xmm8, 92(%r12)
	vpshufd	$238, %xmm12, %xmm13
	vpalignr	$13, %xmm15, %xmm13, %xmm13
	vmovq	%xmm13, 93(%r12)
	vshufps	$254, %xmm11, %xmm12, %xmm12
	vpsrldq	$5, %xmm12, %xmm12
	vmovss	%xmm12, 101(%r12)
	vpextrb	$13, %xmm11, 105(%r12)
	vpextrb	$14, %xmm11, 106(%r12)
	vpextrb	$15, %xmm11, 107(%r12)
	vpextrb	$12, %xmm10, 108(%r12)
	vpshufd	$238, %xmm14, %xmm11
	vpalignr	$13, %xmm10, %xmm11, %xmm10
	vmovq	%xmm10, 109(%r12)
	vshufps	$254, %xmm9, %xmm14, %xmm10
	vpsrldq	$5, %xmm10, %xmm10
	vmovss	%xmm10, 117(%r12)
	vpextrb	$13, %xmm9, 121(%r12)
	vpextrb	$14, %xmm9, 122(%r12)
	vpextrb	$15, %xmm9, 123(%r12)
	vmovd	%xmm1, %edi
	vpextrb	$12, %xmm8, 124(%r12)
	vmovd	%xmm0, %r8d
	vpunpckldq	%xmm5, %xmm3, %xmm9
	vpalignr	$13, %xmm8, %xmm9, %xmm8
	vpunpcklqdq	%xmm4, %xmm9, %xmm9
	vmovq	%xmm8, 125(%r12)
	vpinsrd	$3, %edi, %xmm9, %xmm8
	vpsrldq	$5, %xmm9, %xmm9
	vmovss	%xmm9, 133(%r12)
	vpunpckldq	%xmm6, %xmm7, %xmm9
	vpextrb	$1, %xmm4, 137(%r12)
	vpalignr	$13, %xmm8, %xmm9, %xmm8
	vpunpcklqdq	%xmm2, %xmm9, %xmm9
	vpextrb	$2, %xmm4, 138(%r12)
	vpextrb	$3, %xmm4, 139(%r12)
	movb	%dil, 140(%r12)
	vmovq	%xmm8, 141(%r12)
	vpinsrd	$3, %r8d, %xmm9, %xmm8
	vpsrldq	$5, %xmm9, %xmm9
	vmovss	%xmm9, 149(%r12)
	vpextrb	$1, %xmm2, 153(%r12)
	vmovdqa	%xmm3, %xmm9
	vpextrb	$2, %xmm2, 154(%r12)
	vpermt2d	%xmm5, %xmm16, %xmm9
	vpextrb	$3, %xmm2, 155(%r12)
	movb	%r8b, 156(%r12)
	vpalignr	$13, %xmm8, %xmm9, %xmm8
	vmovq	%xmm8, 157(%r12)
	vshufps	$212, %xmm4, %xmm9, %xmm8
	vpsrldq	$5, %xmm8, %xmm8
	vmovss	%xmm8, 165(%r12)
	vpunpckhdq	%xmm5, %xmm3, %xmm3
	vpextrb	$5, %xmm4, 169(%r12)
	vpbroadcastq	%xmm1, %xmm5
	vpextrb	$6, %xmm4, 170(%r12)
	vpermi2d	%xmm6, %xmm7, %xmm16
	vpextrb	$7, %xmm4, 171(%r12)
	movb	%sil, 172(%r12)
	vpalignr	$13, %xmm5, %xmm16, %xmm5
	vmovq	%xmm5, 173(%r12)
	vshufps	$212, %xmm2, %xmm16, %xmm5
	vpsrldq	$5, %xmm5, %xmm5
	vmovss	%xmm5, 181(%r12)
	vpbroadcastq	%xmm0, %xmm5
	vpextrb	$5, %xmm2, 185(%r12)
	vpblendd	$12, %xmm4, %xmm3, %xmm8
	vpextrb	$6, %xmm2, 186(%r12)
	vpextrb	$7, %xmm2, 187(%r12)
	movb	%dl, 188(%r12)
	vpalignr	$13, %xmm5, %xmm3, %xmm5
	vmovq	%xmm5, 189(%r12)
	vpsrldq	$5, %xmm8, %xmm5
	vmovss	%xmm5, 197(%r12)
	vpextrd	$2, %xmm1, %edx
	vpextrd	$2, %xmm0, %esi
	vpinsrd	$3, %edx, %xmm8, %xmm5
	vpextrb	$9, %xmm4, 201(%r12)
	vpextrb	$10, %xmm4, 202(%r12)
	vpextrb	$11, %xmm4, 203(%r12)
	vpunpckhdq	%xmm6, %xmm7, %xmm6
	vpblendd	$12, %xmm2, %xmm6, %xmm7
	movb	%dl, 204(%r12)
	vpalignr	$13, %xmm5, %xmm6, %xmm5
	vmovq	%xmm5, 205(%r12)
	vpinsrd	$3, %esi, %xmm7, %xmm5
	vpsrldq	$5, %xmm7, %xmm7
	vmovss	%xmm7, 213(%r12)
	vpextrb	$9, %xmm2, 217(%r12)
	vpextrb	$10, %xmm2, 218(%r12)
	vpshufd	$238, %xmm3, %xmm7
	vpextrb	$11, %xmm2, 219(%r12)
	vpalignr	$13, %xmm5, %xmm7, %xmm5
	movb	%sil, 220(%r12)
	vmovq	%xmm5, 221(%r12)
	vshufps	$254, %xmm4, %xmm3, %xmm3
	vpsrldq	$5, %xmm3, %xmm3
	vmovss	%xmm3, 229(%r12)
	vpextrb	$13, %xmm4, 233(%r12)
	vpextrb	$14, %xmm4, 234(%r12)
	vpextrb	$15, %xmm4, 235(%r12)
	vpshufd	$238, %xmm6, %xmm3
	vpalignr	$13, %xmm1, %xmm3, %xmm1
	movb	%cl, 236(%r12)
	vmovq	%xmm1, 237(%r12)
	vshufps	$254, %xmm2, %xmm6, %xmm1
	vpsrldq	$5, %xmm1, %xmm1
	vmovss	%xmm1, 245(%r12)
	vpextrb	$13, %xmm2, 249(%r12)
	vpextrb	$14, %xmm2, 250(%r12)
	vpextrb	$15, %xmm2, 251(%r12)
	movb	%al, 252(%r12)
	vpextrb	$13, %xmm0, 253(%r12)
	vpextrb	$14, %xmm0, 254(%r12)
	vpextrb	$15, %xmm0, 255(%r12)
	movl	$256, %r13d
	jmp	3b
	.p2align	4
13:
	movq	224(%r15), %rcx
	cmpq	$65535, %rcx
	movq	%rcx, %rsi
	movabsq	$137438953472, %rdx
	cmoveq	%rdx, %rsi
	andq	$-32, %r8
	xorl	%edx, %edx
	subq	%r8, %rsi
	cmovaeq	%rsi, %rdx
	movl	$32, %r13d
	cmpq	$32, %rdx
	jb	2b
	movl	$32, %edx
	jmp	2b
14:
	addq	$584, %rsp
	popq	%rbx
	popq	%r12
	popq	%r13
	popq	%r14
	popq	%r15
	popq	%rbp
	vpxord	%xmm16, %xmm16, %xmm16
	vpxord	%xmm17, %xmm17, %xmm17
	vpxord	%xmm18, %xmm18, %xmm18
	vpxord	%xmm19, %xmm19, %xmm19
	vpxord	%xmm20, %xmm20, %xmm20
	retq
	vj_end	blake2_xof..blake2xs..State..squeeze_1_v4

	vj_function	blake2_ffi..blake2xs..update_in_frame_1_v4
	cmpq	$1, %rdx
	jne	blake2_state..blake2s..State..absorb_blocks_1_v4
	movzwl	72(%rdi), %eax
	cmpq	$64, %rax
	jae	1f
	movzbl	(%rsi), %ecx
	movb	%cl, 80(%rdi,%rax)
	incl	%eax
	movw	%ax, 72(%rdi)
	retq
1:
	movl	$1, %edx
	jmp	blake2_state..blake2s..State..absorb_blocks_1_v4
	vj_end	blake2_ffi..blake2xs..update_in_frame_1_v4

	vj_constants	32
	.p2align	5, 0x0
.L1_v4_CPI89_0:
	.long	8
	.long	0
	.long	10
	.long	11
	.long	12
	.long	13
	.long	14
	.long	15
.L1_v4_CPI89_1:
	.short	64
	.short	512
	.zero	2
	.zero	2
	.zero	2
	.zero	2
	.zero	2
	.zero	2
	.zero	2
	.short	0
	.short	0
	.short	0
	.short	0
	.short	0
	.short	0
	.short	0
.L1_v4_CPI89_2:
	.short	16384
	.short	16384
	.short	16384
	.short	16384
	.short	16384
	.short	16384
	.short	16384
	.short	16384
	.short	16384
	.short	16384
	.short	16384
	.short	16384
	.short	16384
	.short	16384
	.short	16384
	.short	16384
.L1_v4_CPI89_3:
	.quad	7640891576956012808
	.quad	-4942790177534073029
	.quad	4354685564936845355
	.quad	-6534734903238641935
.L1_v4_CPI89_4:
	.quad	5840696475078001361
	.quad	-7276294671716946913
	.quad	2270897969802886507
	.quad	6620516959819538809
.L1_v4_CPI89_5:
	.short	16384
	.short	512
	.zero	2
	.zero	2
	.zero	2
	.zero	2
	.zero	2
	.zero	2
	.short	16384
	.short	0
	.short	0
	.short	0
	.short	0
	.short	0
	.short	0
	.short	0
	vj_constants	16
	.p2align	2, 0x0
.L1_v4_CPI89_6:
	.short	64
	.short	512
	.short	0
	.short	0
	.short	0
	.short	0
	.short	0
	.short	0
	vj_function	blake2_tree..ranges..hash_leaves_1_v4
	pushq	%rbp
	movq	%rsp, %rbp
	pushq	%r15
	pushq	%r14
	pushq	%r13
	pushq	%r12
	pushq	%rbx
	andq	$-32, %rsp
	subq	$1888, %rsp
	movq	%r9, 576(%rsp)
	movl	%r8d, %r14d
	movq	%rcx, %r15
	movq	%rdx, %rbx
	movq	%rsi, %r13
	movq	%rdi, %rsi
	movq	32(%rbp), %r12
	vxorps	%xmm0, %xmm0, %xmm0
	vmovaps	%xmm0, 608(%rsp)
	leaq	608(%rsp), %rdi
	movq	%r13, %rdx
	vj_c_call	memcpy
	vxorps	%xmm0, %xmm0, %xmm0
	vmovaps	%xmm0, 624(%rsp)
	leaq	624(%rsp), %rdi
	movq	%rbx, %rsi
	movq	%r15, %rdx
	vj_c_call	memcpy
	movq	%r14, %r8
	movq	%r12, %rbx
	vmovaps	608(%rsp), %xmm0
	vmovaps	%xmm0, 32(%rsp)
	movq	%r13, 48(%rsp)
	vmovaps	624(%rsp), %xmm0
	vmovups	%xmm0, 56(%rsp)
	movq	%r15, 72(%rsp)
	movl	%r8d, 80(%rsp)
	vxorps	%xmm0, %xmm0, %xmm0
	vmovaps	%ymm0, 1824(%rsp)
	vmovaps	%ymm0, 1792(%rsp)
	vmovaps	%ymm0, 1760(%rsp)
	vmovaps	%ymm0, 1728(%rsp)
	vmovaps	%ymm0, 1696(%rsp)
	vmovaps	%ymm0, 1664(%rsp)
	vmovaps	%ymm0, 1632(%rsp)
	vmovaps	%ymm0, 1600(%rsp)
	vmovaps	%ymm0, 1568(%rsp)
	vmovaps	%ymm0, 1536(%rsp)
	vmovaps	%ymm0, 1504(%rsp)
	vmovaps	%ymm0, 1472(%rsp)
	vmovaps	%ymm0, 1440(%rsp)
	vmovaps	%ymm0, 1408(%rsp)
	vmovaps	%ymm0, 1376(%rsp)
	vmovaps	%ymm0, 1344(%rsp)
	movl	$0, 84(%rsp)
	movl	%r8d, %edx
	leaq	(,%rdx,4), %rax
	cmpq	%r12, %rax
	jae	2f
	leaq	1600(%rsp), %r13
	xorl	%r14d, %r14d
	movq	24(%rbp), %r12
	.p2align	4
1:
	vxorps	%xmm0, %xmm0, %xmm0
	vmovups	%ymm0, 224(%r13)
	vmovups	%ymm0, 192(%r13)
	vmovups	%ymm0, 160(%r13)
	vmovups	%ymm0, 128(%r13)
	vmovups	%ymm0, 96(%r13)
	vmovups	%ymm0, 64(%r13)
	vmovups	%ymm0, 32(%r13)
	vmovups	%ymm0, (%r13)
	movq	576(%rsp), %rax
	leaq	(%r14,%rax), %rsi
	leaq	32(%rsp), %rdi
	leaq	1344(%rsp), %r8
	movq	%r12, %rdx
	movq	%rbx, %rcx
	vzeroupper
	vj_call	blake2_tree..nodes..Nodes..hash_next_1_v4
	movq	%rax, %r15
	movq	%r14, %rdi
	shlq	$6, %rdi
	movq	%rax, %rdx
	shlq	$6, %rdx
	addq	40(%rbp), %rdi
	leaq	1344(%rsp), %rsi
	vj_c_call	memcpy
	addq	%r15, %r14
	movl	80(%rsp), %r8d
	imulq	%r8, %r15
	addq	%r15, %r12
	subq	%r15, %rbx
	leaq	(,%r8,4), %rax
	movq	%r8, %rdx
	cmpq	%rbx, %rax
	jb	1b
	jmp	3f
2:
	xorl	%r14d, %r14d
	movq	24(%rbp), %r12
3:
	movq	%rdx, 16(%rsp)
	movzbl	16(%rbp), %r15d
	leaq	56(%rsp), %r10
	movq	576(%rsp), %rdi
	addq	%r14, %rdi
	shlq	$6, %r14
	vxorps	%xmm0, %xmm0, %xmm0
	vmovaps	%ymm0, 864(%rsp)
	vmovaps	%ymm0, 832(%rsp)
	vmovaps	%ymm0, 800(%rsp)
	vmovaps	%ymm0, 768(%rsp)
	vmovaps	%ymm0, 736(%rsp)
	vmovaps	%ymm0, 704(%rsp)
	vmovaps	%ymm0, 672(%rsp)
	movq	40(%rbp), %rcx
	addq	%r14, %rcx
	vmovaps	%ymm0, 640(%rsp)
	cmpq	%rax, %rbx
	jne	4f
	movq	%rcx, %rbx
	movq	48(%rsp), %rcx
	movq	72(%rsp), %rax
	leaq	32(%rsp), %rdx
	movq	%rdx, 96(%rsp)
	movq	%rcx, 104(%rsp)
	movq	%r10, 112(%rsp)
	movq	%rax, 120(%rsp)
	vxorps	%xmm0, %xmm0, %xmm0
	vmovups	%xmm0, 128(%rsp)
	leaq	1(%rdi), %rsi
	vmovups	%xmm0, 137(%rsp)
	movb	$2, 153(%rsp)
	movw	$0, 154(%rsp)
	movl	%r8d, 156(%rsp)
	movq	%rdi, 160(%rsp)
	movw	$16384, 168(%rsp)
	movq	$0, 170(%rsp)
	movq	$0, 176(%rsp)
	movq	%r12, 184(%rsp)
	movq	16(%rsp), %r9
	movq	%r9, 192(%rsp)
	movq	%rdx, 200(%rsp)
	movq	%rcx, 208(%rsp)
	movq	%r10, 216(%rsp)
	movq	%rax, 224(%rsp)
	vmovups	%xmm0, 241(%rsp)
	vmovups	%xmm0, 232(%rsp)
	movb	$2, 257(%rsp)
	movw	$0, 258(%rsp)
	movl	%r8d, 260(%rsp)
	movq	%rsi, 264(%rsp)
	leaq	(%r12,%r9), %rsi
	movw	$16384, 272(%rsp)
	movq	$0, 280(%rsp)
	movq	$0, 274(%rsp)
	movq	%rsi, 288(%rsp)
	movq	%r9, 296(%rsp)
	movq	%rdx, 304(%rsp)
	movq	%rcx, 312(%rsp)
	movq	%r10, 320(%rsp)
	movq	%rax, 328(%rsp)
	vmovups	%xmm0, 345(%rsp)
	leaq	2(%rdi), %rsi
	vmovups	%xmm0, 336(%rsp)
	movb	$2, 361(%rsp)
	movw	$0, 362(%rsp)
	movl	%r8d, 364(%rsp)
	movq	%rsi, 368(%rsp)
	leaq	(%r12,%r9,2), %rsi
	movw	$16384, 376(%rsp)
	movq	$0, 384(%rsp)
	movq	$0, 378(%rsp)
	movq	%rsi, 392(%rsp)
	movq	%r9, 400(%rsp)
	movq	%rdx, 408(%rsp)
	movq	%rcx, 416(%rsp)
	movq	%r10, 424(%rsp)
	movq	%rax, 432(%rsp)
	leaq	(%r9,%r9,2), %rax
	vmovups	%xmm0, 449(%rsp)
	addq	%r12, %rax
	vmovups	%xmm0, 440(%rsp)
	movb	$2, 465(%rsp)
	movw	$0, 466(%rsp)
	movl	%r8d, 468(%rsp)
	leaq	3(%rdi), %rcx
	movq	%rcx, 472(%rsp)
	movw	$16384, 480(%rsp)
	movl	$0, 482(%rsp)
	movw	$0, 486(%rsp)
	movb	%r15b, 488(%rsp)
	movl	$0, 492(%rsp)
	movl	$0, 489(%rsp)
	movq	%rax, 496(%rsp)
	movq	%r9, 504(%rsp)
	leaq	640(%rsp), %rdi
	leaq	96(%rsp), %rdx
	movl	$64, %esi
	vzeroupper
	callq	blake2_compress..many..blake2b..outputs..64_1_v4
	vmovaps	864(%rsp), %ymm0
	vmovups	%ymm0, 224(%rbx)
	vmovaps	832(%rsp), %ymm0
	vmovups	%ymm0, 192(%rbx)
	vmovaps	800(%rsp), %ymm0
	vmovups	%ymm0, 160(%rbx)
	vmovaps	768(%rsp), %ymm0
	vmovups	%ymm0, 128(%rbx)
	vmovaps	640(%rsp), %ymm0
	vmovaps	672(%rsp), %ymm1
	vmovaps	704(%rsp), %ymm2
	vmovaps	736(%rsp), %ymm3
	vmovups	%ymm3, 96(%rbx)
	vmovups	%ymm2, 64(%rbx)
	vmovups	%ymm1, 32(%rbx)
	vmovups	%ymm0, (%rbx)
	jmp	36f
4:
	movq	16(%rsp), %rax
	cmpq	%rax, %rbx
	movq	%r12, %r14
	movq	%rcx, 8(%rsp)
	jbe	10f
	movq	%r8, 568(%rsp)
	leaq	1072(%rsp), %r13
	leaq	-1(%rax), %rdx
	movq	%rdx, %rsi
	andq	$-128, %rsi
	shrq	$7, %rdx
	movq	%rdx, 544(%rsp)
	subq	%rsi, %rax
	movq	%rax, 528(%rsp)
	movq	%rsi, 536(%rsp)
	leaq	(%r14,%rsi), %rax
	movq	%rax, 520(%rsp)
	vmovdqa	80(%rsp), %xmm0
	movq	48(%rsp), %rax
	movq	%rax, 560(%rsp)
	movq	72(%rsp), %rax
	movq	%rax, 552(%rsp)
	vmovdqa	.L1_v4_CPI89_0(%rip), %ymm1
	vpermi2d	.L1_v4_CPI89_1(%rip), %ymm0, %ymm1
	vmovdqa	%ymm1, 896(%rsp)
	xorl	%r15d, %r15d
	movq	%rdi, 576(%rsp)
	jmp	7f
	.p2align	4
5:
	movq	%r13, %rdi
	movq	%r14, %rsi
	movq	16(%rsp), %r13
	movq	%r13, %rdx
	vzeroupper
	vj_c_call	memcpy
	movq	%r13, %rbx
	movq	%r14, %r12
6:
	movq	%r15, %r14
	shlq	$6, %r14
	movq	%rbx, 1200(%rsp)
	leaq	96(%rsp), %rdi
	leaq	928(%rsp), %rsi
	movl	$280, %edx
	vj_c_call	memcpy
	movq	368(%rsp), %rdx
	movq	224(%rsp), %rbx
	addq	%rdx, %rbx
	movq	%rbx, 224(%rsp)
	vpxor	%xmm0, %xmm0, %xmm0
	vmovdqa	%ymm0, 1216(%rsp)
	vmovdqa	%ymm0, 1248(%rsp)
	vmovdqa	%ymm0, 1280(%rsp)
	vmovdqa	%ymm0, 1312(%rsp)
	leaq	1216(%rsp), %rdi
	leaq	240(%rsp), %r15
	movq	%r15, %rsi
	vzeroupper
	vj_c_call	memcpy
	vpxor	%xmm0, %xmm0, %xmm0
	vmovdqu	%ymm0, (%r15)
	vmovdqu	%ymm0, 32(%r15)
	vmovdqu	%ymm0, 64(%r15)
	vmovdqu	%ymm0, 96(%r15)
	movq	$0, 128(%r15)
	movl	232(%rsp), %r8d
	leaq	96(%rsp), %rdi
	leaq	1216(%rsp), %rsi
	movq	(%rsp), %r15
	movq	%rbx, %rdx
	movl	$1, %ecx
	vzeroupper
	vj_call	blake2_compress..compress..blake2b..compress_1_v4
	vmovdqu	96(%rsp), %ymm0
	vmovdqu	128(%rsp), %ymm1
	movq	8(%rsp), %rcx
	vmovdqu	%ymm0, (%rcx,%r14)
	vmovdqu	%ymm1, 32(%rcx,%r14)
	incq	%r15
	addq	%r13, %r12
	movq	24(%rsp), %rbx
	subq	%r13, %rbx
	cmpq	%r13, %rbx
	movq	%r12, %r14
	movq	576(%rsp), %rdi
	leaq	1072(%rsp), %r13
	jbe	11f
7:
	movq	%rbx, 24(%rsp)
	leaq	(%r15,%rdi), %rbx
	vpxor	%xmm0, %xmm0, %xmm0
	vmovdqa	%ymm0, 96(%rsp)
	leaq	96(%rsp), %rdi
	leaq	32(%rsp), %rsi
	movq	560(%rsp), %rdx
	vzeroupper
	vj_c_call	memcpy
	leaq	112(%rsp), %rdi
	leaq	56(%rsp), %rsi
	movq	552(%rsp), %rdx
	vj_c_call	memcpy
	vmovq	%rbx, %xmm0
	vmovdqa	896(%rsp), %ymm1
	vpunpcklqdq	%xmm0, %xmm1, %xmm0
	vpblendw	$1, .L1_v4_CPI89_2(%rip), %ymm1, %ymm1
	vpblendd	$240, %ymm1, %ymm0, %ymm0
	vmovdqa	96(%rsp), %ymm1
	vpxor	.L1_v4_CPI89_3(%rip), %ymm0, %ymm0
	vpxor	.L1_v4_CPI89_4(%rip), %ymm1, %ymm1
	vmovdqu	%ymm0, 928(%rsp)
	vmovdqu	%ymm1, 960(%rsp)
	vmovdqu	%ymm0, 992(%rsp)
	vmovdqu	%ymm1, 1024(%rsp)
	leaq	1056(%rsp), %rax
	vpxor	%xmm0, %xmm0, %xmm0
	vmovdqu	%ymm0, 120(%rax)
	vmovdqu	%ymm0, 96(%rax)
	vmovdqu	%ymm0, 64(%rax)
	vmovdqu	%ymm0, 32(%rax)
	vmovdqu	%ymm0, (%rax)
	cmpl	$129, 568(%rsp)
	movq	%r15, (%rsp)
	jb	5b
	imulq	16(%rsp), %r15
	addq	520(%rsp), %r15
	movq	%r14, %r12
	movq	%r14, %rbx
	movq	544(%rsp), %r14
	.p2align	4
8:
	movq	1056(%rsp), %rdx
	subq	$-128, %rdx
	movq	%rdx, 1056(%rsp)
	leaq	928(%rsp), %rdi
	movq	%rbx, %rsi
	xorl	%ecx, %ecx
	xorl	%r8d, %r8d
	vzeroupper
	vj_call	blake2_compress..compress..blake2b..compress_1_v4
	subq	$-128, %rbx
	decq	%r14
	jne	8b
	movq	536(%rsp), %rax
	leaq	(%r12,%rax), %rsi
	vpxor	%xmm0, %xmm0, %xmm0
	vmovdqu	%ymm0, 96(%r13)
	vmovdqu	%ymm0, 64(%r13)
	vmovdqu	%ymm0, 32(%r13)
	vmovdqu	%ymm0, (%r13)
	movq	%r13, %rax
	subq	%rsi, %rax
	movq	528(%rsp), %rbx
	movq	%r13, %rdi
	cmpq	%rbx, %rax
	jae	9f
	movq	%r15, %rsi
9:
	movq	%rbx, %rdx
	vzeroupper
	vj_c_call	memcpy
	movq	(%rsp), %r15
	movq	16(%rsp), %r13
	jmp	6b
10:
	movq	%rcx, %r13
	movq	%rbx, 24(%rsp)
	xorl	%eax, %eax
	vmovd	%r8d, %xmm0
	jmp	12f
11:
	movq	%rcx, %r13
	movq	%r15, %rax
	movq	%rbx, 24(%rsp)
	vmovdqa	80(%rsp), %xmm0
	movzbl	16(%rbp), %r15d
12:
	movq	%rax, (%rsp)
	addq	%rax, %rdi
	movq	48(%rsp), %rdx
	movq	72(%rsp), %rbx
	vpxor	%xmm1, %xmm1, %xmm1
	vmovdqa	%ymm1, 96(%rsp)
	vmovd	.L1_v4_CPI89_6(%rip), %xmm1
	vpunpckldq	%xmm0, %xmm1, %xmm0
	vmovq	%rdi, %xmm1
	vpunpcklqdq	%xmm1, %xmm0, %xmm0
	vpblendd	$240, .L1_v4_CPI89_5(%rip), %ymm0, %ymm0
	vmovdqa	%ymm0, 576(%rsp)
	leaq	96(%rsp), %r12
	leaq	32(%rsp), %rsi
	movq	%r12, %rdi
	vzeroupper
	vj_c_call	memcpy
	leaq	112(%rsp), %rdi
	leaq	56(%rsp), %rsi
	movq	%rbx, %rdx
	vj_c_call	memcpy
	vmovaps	96(%rsp), %ymm0
	vmovaps	576(%rsp), %ymm1
	vxorps	.L1_v4_CPI89_3(%rip), %ymm1, %ymm1
	vxorps	.L1_v4_CPI89_4(%rip), %ymm0, %ymm0
	vmovups	%ymm1, 96(%rsp)
	vmovups	%ymm0, 128(%rsp)
	vmovups	%ymm1, 160(%rsp)
	vmovups	%ymm0, 192(%rsp)
	vxorps	%xmm0, %xmm0, %xmm0
	vmovups	%ymm0, 224(%rsp)
	vmovups	%ymm0, 256(%rsp)
	vmovups	%ymm0, 288(%rsp)
	vmovups	%ymm0, 320(%rsp)
	vmovups	%ymm0, 344(%rsp)
	movb	%r15b, 232(%rsp)
	leaq	240(%rsp), %r15
	movq	24(%rsp), %rdx
	cmpq	$128, %rdx
	jbe	14f
	leaq	-1(%rdx), %r13
	movq	%r14, %rbx
	movq	%r13, %r14
	shrq	$7, %r14
	movq	%rbx, %r12
	.p2align	4
13:
	movq	224(%rsp), %rdx
	subq	$-128, %rdx
	movq	%rdx, 224(%rsp)
	leaq	96(%rsp), %rdi
	movq	%rbx, %rsi
	xorl	%ecx, %ecx
	xorl	%r8d, %r8d
	vzeroupper
	vj_call	blake2_compress..compress..blake2b..compress_1_v4
	subq	$-128, %rbx
	decq	%r14
	jne	13b
	andq	$-128, %r13
	movq	%r12, %r9
	leaq	(%r12,%r13), %rsi
	movq	24(%rsp), %r10
	movq	%r10, %r12
	subq	%r13, %r12
	vxorps	%xmm0, %xmm0, %xmm0
	leaq	240(%rsp), %r15
	vmovups	%ymm0, 96(%r15)
	vmovups	%ymm0, 64(%r15)
	vmovups	%ymm0, 32(%r15)
	vmovups	%ymm0, (%r15)
	movq	%r15, %rax
	subq	%rsi, %rax
	cmpq	%r12, %rax
	jae	15f
	cmpq	$8, %r12
	jae	17f
	xorl	%eax, %eax
	movq	(%rsp), %r14
	jmp	30f
14:
	movq	%r15, %rax
	subq	%r14, %rax
	cmpq	%rdx, %rax
	jae	16f
	cmpq	$8, %rdx
	jae	18f
	xorl	%eax, %eax
	movq	(%rsp), %r8
	jmp	19f
15:
	movq	%r15, %rdi
	movq	%r12, %rdx
	vzeroupper
	vj_c_call	memmove
	movq	%r12, %rdx
	movq	8(%rsp), %r13
	movq	(%rsp), %r14
	jmp	35f
16:
	movq	%r15, %rdi
	movq	%r14, %rsi
	vzeroupper
	vj_c_call	memcpy
	movq	24(%rsp), %rdx
	movq	(%rsp), %r14
	jmp	35f
17:
	movq	%rsi, %rax
	negq	%rax
	addq	%rsp, %rax
	addq	$240, %rax
	cmpq	$128, %rax
	movq	(%rsp), %r14
	jae	24f
	xorl	%eax, %eax
	jmp	30f
18:
	subq	%r14, %r12
	addq	$144, %r12
	cmpq	$128, %r12
	movq	(%rsp), %r8
	jae	25f
	xorl	%eax, %eax
19:
	movq	%rdx, %rdi
	movq	%rax, %rcx
	andq	$7, %rdi
	je	21f
	movq	%rax, %rcx
	.p2align	4
20:
	movzbl	(%r14,%rcx), %esi
	movb	%sil, 240(%rsp,%rcx)
	incq	%rcx
	decq	%rdi
	jne	20b
21:
	subq	%rdx, %rax
	cmpq	$-8, %rax
	ja	23f
	.p2align	4
22:
	movzbl	(%r14,%rcx), %eax
	movb	%al, 240(%rsp,%rcx)
	movzbl	1(%r14,%rcx), %eax
	movb	%al, 241(%rsp,%rcx)
	movzbl	2(%r14,%rcx), %eax
	movb	%al, 242(%rsp,%rcx)
	movzbl	3(%r14,%rcx), %eax
	movb	%al, 243(%rsp,%rcx)
	movzbl	4(%r14,%rcx), %eax
	movb	%al, 244(%rsp,%rcx)
	movzbl	5(%r14,%rcx), %eax
	movb	%al, 245(%rsp,%rcx)
	movzbl	6(%r14,%rcx), %eax
	movb	%al, 246(%rsp,%rcx)
	movzbl	7(%r14,%rcx), %eax
	movb	%al, 247(%rsp,%rcx)
	addq	$8, %rcx
	cmpq	%rcx, %rdx
	jne	22b
23:
	movq	%r8, %r14
	jmp	35f
24:
	cmpq	$128, %r12
	jae	26f
	xorl	%eax, %eax
	jmp	28f
25:
	cmpq	$128, %rdx
	jne	37f
	vmovups	(%r14), %ymm0
	vmovups	32(%r14), %ymm1
	vmovups	64(%r14), %ymm2
	vmovups	96(%r14), %ymm3
	vmovups	%ymm0, 240(%rsp)
	vmovups	%ymm1, 272(%rsp)
	vmovups	%ymm2, 304(%rsp)
	vmovups	%ymm3, 336(%rsp)
	movq	%r8, %r14
	jmp	35f
26:
	movl	%r10d, %ecx
	andl	$127, %ecx
	movq	%r12, %rax
	subq	%rcx, %rax
	movq	%r10, %rdx
	andq	$-128, %rdx
	subq	%r13, %rdx
	leaq	(%r9,%r13), %rdi
	addq	$96, %rdi
	xorl	%r8d, %r8d
	.p2align	4
27:
	vmovups	-96(%rdi,%r8), %ymm0
	vmovups	-64(%rdi,%r8), %ymm1
	vmovups	-32(%rdi,%r8), %ymm2
	vmovups	(%rdi,%r8), %ymm3
	vmovups	%ymm0, 240(%rsp,%r8)
	vmovups	%ymm1, 272(%rsp,%r8)
	vmovups	%ymm2, 304(%rsp,%r8)
	vmovups	%ymm3, 336(%rsp,%r8)
	subq	$-128, %r8
	cmpq	%r8, %rdx
	jne	27b
	testq	%rcx, %rcx
	je	34f
	cmpl	$8, %ecx
	jb	30f
28:
	movq	%rax, %rcx
	movl	%r10d, %edx
	andl	$7, %edx
	movq	%r12, %rax
	subq	%rdx, %rax
	.p2align	4
29:
	movq	(%rsi,%rcx), %rdi
	movq	%rdi, 240(%rsp,%rcx)
	addq	$8, %rcx
	cmpq	%rcx, %rax
	jne	29b
	testq	%rdx, %rdx
	je	34f
30:
	movl	%r10d, %edx
	subl	%eax, %edx
	movq	%rax, %rcx
	andl	$7, %edx
	je	32f
	movq	%rax, %rcx
	.p2align	4
31:
	movzbl	(%rsi,%rcx), %edi
	movb	%dil, 240(%rsp,%rcx)
	incq	%rcx
	decq	%rdx
	jne	31b
32:
	subq	%r10, %rax
	addq	%r13, %rax
	cmpq	$-8, %rax
	ja	34f
	leaq	(%r9,%r13), %rax
	addq	$7, %rax
	.p2align	4
33:
	movzbl	-7(%rax,%rcx), %edx
	movb	%dl, 240(%rsp,%rcx)
	movzbl	-6(%rax,%rcx), %edx
	movb	%dl, 241(%rsp,%rcx)
	movzbl	-5(%rax,%rcx), %edx
	movb	%dl, 242(%rsp,%rcx)
	movzbl	-4(%rax,%rcx), %edx
	movb	%dl, 243(%rsp,%rcx)
	movzbl	-3(%rax,%rcx), %edx
	movb	%dl, 244(%rsp,%rcx)
	movzbl	-2(%rax,%rcx), %edx
	movb	%dl, 245(%rsp,%rcx)
	movzbl	-1(%rax,%rcx), %edx
	movb	%dl, 246(%rsp,%rcx)
	movzbl	(%rax,%rcx), %edx
	movb	%dl, 247(%rsp,%rcx)
	addq	$8, %rcx
	cmpq	%rcx, %r12
	jne	33b
34:
	movq	%r12, %rdx
	movq	8(%rsp), %r13
	leaq	240(%rsp), %r15
35:
	movq	%rdx, 368(%rsp)
	movq	224(%rsp), %rbx
	addq	%rdx, %rbx
	movq	%rbx, 224(%rsp)
	vxorps	%xmm0, %xmm0, %xmm0
	vmovaps	%ymm0, 928(%rsp)
	vmovaps	%ymm0, 960(%rsp)
	vmovaps	%ymm0, 992(%rsp)
	vmovaps	%ymm0, 1024(%rsp)
	leaq	928(%rsp), %r12
	movq	%r12, %rdi
	movq	%r15, %rsi
	vzeroupper
	vj_c_call	memcpy
	vxorps	%xmm0, %xmm0, %xmm0
	vmovups	%ymm0, (%r15)
	vmovups	%ymm0, 32(%r15)
	vmovups	%ymm0, 64(%r15)
	vmovups	%ymm0, 96(%r15)
	movq	$0, 128(%r15)
	movl	232(%rsp), %r8d
	leaq	96(%rsp), %rdi
	movq	%r12, %rsi
	movq	%rbx, %rdx
	movl	$1, %ecx
	vzeroupper
	vj_call	blake2_compress..compress..blake2b..compress_1_v4
	vmovups	96(%rsp), %ymm0
	vmovups	128(%rsp), %ymm1
	shlq	$6, %r14
	vmovups	%ymm0, (%r13,%r14)
	vmovups	%ymm1, 32(%r13,%r14)
36:
	leaq	-40(%rbp), %rsp
	popq	%rbx
	popq	%r12
	popq	%r13
	popq	%r14
	popq	%r15
	popq	%rbp
	vzeroupper
	retq
37:
	movl	%edx, %eax
	andl	$248, %eax
	xorl	%ecx, %ecx
	.p2align	4
38:
	movq	(%r14,%rcx), %rsi
	movq	%rsi, 240(%rsp,%rcx)
	addq	$8, %rcx
	cmpq	%rcx, %rax
	jne	38b
	cmpq	%rax, %rdx
	jne	19b
	jmp	23b
	vj_end	blake2_tree..ranges..hash_leaves_1_v4

	vj_shared	blake2_tree..nodes..Nodes..hash_next_1_v4
	pushq	%r15
	pushq	%r14
	pushq	%r12
	pushq	%rbx
	subq	$2680, %rsp
	vxorps	%xmm0, %xmm0, %xmm0
	vmovups	%ymm0, 1616(%rsp)
	vmovups	%ymm0, 1584(%rsp)
	vmovups	%ymm0, 1552(%rsp)
	vmovups	%ymm0, 1520(%rsp)
	vmovups	%ymm0, 1488(%rsp)
	vmovups	%ymm0, 1456(%rsp)
	vmovups	%ymm0, 1424(%rsp)
	vmovups	%ymm0, 1392(%rsp)
	vmovups	%ymm0, 1360(%rsp)
	vmovups	%ymm0, 1328(%rsp)
	vmovups	%ymm0, 1296(%rsp)
	vmovups	%ymm0, 1264(%rsp)
	vmovups	%ymm0, 1232(%rsp)
	vmovups	%ymm0, 1200(%rsp)
	vmovups	%ymm0, 1168(%rsp)
	vmovups	%ymm0, 1136(%rsp)
	vmovups	%ymm0, 880(%rsp)
	vmovups	%ymm0, 912(%rsp)
	vmovups	%ymm0, 944(%rsp)
	vmovups	%ymm0, 976(%rsp)
	vmovups	%ymm0, 1008(%rsp)
	vmovups	%ymm0, 1040(%rsp)
	vmovups	%ymm0, 1072(%rsp)
	vmovups	%ymm0, 1104(%rsp)
	movq	%r8, %rbx
	movl	48(%rdi), %eax
	leaq	(,%rax,8), %r8
	cmpq	%rcx, %r8
	jae	1f
	vmovups	%ymm0, 1648(%rsp)
	vmovups	%ymm0, 1680(%rsp)
	vmovups	%ymm0, 1712(%rsp)
	vmovups	%ymm0, 1744(%rsp)
	vmovups	%ymm0, 1776(%rsp)
	vmovups	%ymm0, 1808(%rsp)
	vmovups	%ymm0, 1840(%rsp)
	vmovups	%ymm0, 1872(%rsp)
	vmovups	%ymm0, 1904(%rsp)
	vmovups	%ymm0, 1936(%rsp)
	vmovups	%ymm0, 1968(%rsp)
	vmovups	%ymm0, 2000(%rsp)
	vmovups	%ymm0, 2032(%rsp)
	vmovups	%ymm0, 2064(%rsp)
	vmovups	%ymm0, 2096(%rsp)
	vmovups	%ymm0, 2128(%rsp)
	vmovups	%ymm0, 816(%rsp)
	vmovups	%ymm0, 784(%rsp)
	vmovups	%ymm0, 752(%rsp)
	vmovups	%ymm0, 720(%rsp)
	vmovups	%ymm0, 688(%rsp)
	vmovups	%ymm0, 656(%rsp)
	leaq	24(%rdi), %rcx
	movq	16(%rdi), %r9
	movq	40(%rdi), %r8
	vxorps	%xmm1, %xmm1, %xmm1
	movq	%rdi, 16(%rsp)
	movq	%r9, 24(%rsp)
	movq	%rcx, 32(%rsp)
	movq	%r8, 40(%rsp)
	vmovups	%xmm1, 48(%rsp)
	vmovups	%xmm1, 57(%rsp)
	leaq	(%rdx,%rax,4), %r10
	movb	$2, 73(%rsp)
	movw	$0, 74(%rsp)
	movl	%eax, 76(%rsp)
	movq	%rsi, 80(%rsp)
	movw	$16384, 88(%rsp)
	movq	$0, 96(%rsp)
	movq	$0, 90(%rsp)
	movq	%rdx, 104(%rsp)
	movq	%rax, 112(%rsp)
	movq	%rdi, 120(%rsp)
	movq	%r9, 128(%rsp)
	movq	%rcx, 136(%rsp)
	movq	%r8, 144(%rsp)
	vmovups	%xmm1, 152(%rsp)
	leaq	1(%rsi), %r11
	vmovups	%xmm1, 161(%rsp)
	movb	$2, 177(%rsp)
	movw	$0, 178(%rsp)
	movl	%eax, 180(%rsp)
	movq	%r11, 184(%rsp)
	leaq	(%rdx,%rax), %r11
	movw	$16384, 192(%rsp)
	movq	$0, 200(%rsp)
	movq	$0, 194(%rsp)
	movq	%r11, 208(%rsp)
	leaq	2(%rsi), %r11
	movq	%rax, 216(%rsp)
	movq	%rdi, 224(%rsp)
	movq	%r9, 232(%rsp)
	movq	%rcx, 240(%rsp)
	movq	%r8, 248(%rsp)
	vmovups	%xmm1, 265(%rsp)
	vmovups	%xmm1, 256(%rsp)
	movb	$2, 281(%rsp)
	movw	$0, 282(%rsp)
	movl	%eax, 284(%rsp)
	movq	%r11, 288(%rsp)
	leaq	(%rdx,%rax,2), %r11
	movw	$16384, 296(%rsp)
	movq	$0, 304(%rsp)
	movq	$0, 298(%rsp)
	movq	%r11, 312(%rsp)
	movq	%rax, 320(%rsp)
	movq	%rdi, 328(%rsp)
	movq	%r9, 336(%rsp)
	movq	%rcx, 344(%rsp)
	movq	%r8, 352(%rsp)
	vmovups	%xmm1, 369(%rsp)
	vmovups	%xmm1, 360(%rsp)
	leaq	3(%rsi), %r11
	movb	$2, 385(%rsp)
	movw	$0, 386(%rsp)
	movl	%eax, 388(%rsp)
	movq	%r11, 392(%rsp)
	leaq	(%rax,%rax,2), %r11
	leaq	(%rdx,%r11), %rdx
	movw	$16384, 400(%rsp)
	movq	$0, 408(%rsp)
	movq	$0, 402(%rsp)
	movq	%rdx, 416(%rsp)
	movq	%rax, 424(%rsp)
	movq	%rdi, 432(%rsp)
	movq	%r9, 440(%rsp)
	movq	%rcx, 448(%rsp)
	movq	%r8, 456(%rsp)
	vmovups	%xmm1, 473(%rsp)
	vmovups	%xmm1, 464(%rsp)
	leaq	4(%rsi), %rdx
	movb	$2, 489(%rsp)
	movw	$0, 490(%rsp)
	movl	%eax, 492(%rsp)
	movq	%rdx, 496(%rsp)
	movw	$16384, 504(%rsp)
	movq	$0, 512(%rsp)
	movq	$0, 506(%rsp)
	movq	%r10, 520(%rsp)
	movq	%rax, 528(%rsp)
	movq	%rdi, 536(%rsp)
	movq	%r9, 544(%rsp)
	movq	%rcx, 552(%rsp)
	movq	%r8, 560(%rsp)
	vmovups	%xmm1, 577(%rsp)
	leaq	5(%rsi), %rdx
	vmovups	%xmm1, 568(%rsp)
	movb	$2, 593(%rsp)
	movw	$0, 594(%rsp)
	movl	%eax, 596(%rsp)
	movq	%rdx, 600(%rsp)
	leaq	(%r10,%rax), %rdx
	movw	$16384, 608(%rsp)
	movq	$0, 616(%rsp)
	movq	$0, 610(%rsp)
	movq	%rdx, 624(%rsp)
	leaq	6(%rsi), %rdx
	movq	%rax, 632(%rsp)
	movq	%rdi, 640(%rsp)
	movq	%r9, 648(%rsp)
	movq	%rcx, 656(%rsp)
	movq	%r8, 664(%rsp)
	vmovups	%xmm1, 681(%rsp)
	vmovups	%xmm1, 672(%rsp)
	movb	$2, 697(%rsp)
	movw	$0, 698(%rsp)
	movl	%eax, 700(%rsp)
	movq	%rdx, 704(%rsp)
	addq	%r10, %r11
	leaq	(%r10,%rax,2), %rdx
	movw	$16384, 712(%rsp)
	movq	$0, 720(%rsp)
	movq	$0, 714(%rsp)
	movq	%rdx, 728(%rsp)
	movq	%rax, 736(%rsp)
	movq	%rdi, 744(%rsp)
	movq	%r9, 752(%rsp)
	movq	%rcx, 760(%rsp)
	movq	%r8, 768(%rsp)
	leaq	7(%rsi), %rcx
	vmovups	%xmm1, 857(%rsp)
	vmovaps	%xmm1, 848(%rsp)
	movl	$0, (%rsp)
	movw	$0, 4(%rsp)
	movl	$0, 8(%rsp)
	vmovups	857(%rsp), %xmm1
	vmovups	%xmm1, 785(%rsp)
	movl	$0, 11(%rsp)
	vmovaps	848(%rsp), %xmm1
	vmovups	%xmm1, 776(%rsp)
	movb	$2, 801(%rsp)
	movw	$0, 802(%rsp)
	movl	%eax, 804(%rsp)
	movq	%rcx, 808(%rsp)
	movw	$16384, 816(%rsp)
	movzwl	4(%rsp), %ecx
	movw	%cx, 822(%rsp)
	movl	(%rsp), %ecx
	movl	%ecx, 818(%rsp)
	movb	$0, 824(%rsp)
	movl	11(%rsp), %ecx
	movl	%ecx, 828(%rsp)
	movl	8(%rsp), %ecx
	movl	%ecx, 825(%rsp)
	movq	%r11, 832(%rsp)
	movq	%rax, 840(%rsp)
	vmovups	%ymm0, 2640(%rsp)
	vmovups	%ymm0, 2608(%rsp)
	vmovups	%ymm0, 2576(%rsp)
	vmovups	%ymm0, 2544(%rsp)
	vmovups	%ymm0, 2512(%rsp)
	vmovups	%ymm0, 2480(%rsp)
	vmovups	%ymm0, 2448(%rsp)
	vmovups	%ymm0, 2416(%rsp)
	vmovups	%ymm0, 2384(%rsp)
	vmovups	%ymm0, 2352(%rsp)
	vmovups	%ymm0, 2320(%rsp)
	vmovups	%ymm0, 2288(%rsp)
	vmovups	%ymm0, 2256(%rsp)
	vmovups	%ymm0, 2224(%rsp)
	vmovups	%ymm0, 2192(%rsp)
	vmovups	%ymm0, 2160(%rsp)
	leaq	2160(%rsp), %r14
	leaq	16(%rsp), %rdx
	movl	$64, %esi
	movq	%r14, %rdi
	vzeroupper
	callq	blake2_compress..many..blake2b..eight..outputs..64_1_v4
	leaq	1648(%rsp), %r15
	movl	$512, %edx
	movq	%r15, %rdi
	movq	%r14, %rsi
	vj_c_call	memcpy
	leaq	1136(%rsp), %r14
	movl	$512, %edx
	movq	%r14, %rdi
	movq	%r15, %rsi
	vj_c_call	memcpy
	movl	$512, %edx
	movq	%rbx, %rdi
	movq	%r14, %rsi
	vj_c_call	memcpy
	movl	$8, %eax
	jmp	2f
1:
	leaq	24(%rdi), %rcx
	movq	16(%rdi), %r9
	movq	40(%rdi), %r8
	leaq	1(%rsi), %r15
	leaq	(%rdx,%rax), %r14
	leaq	2(%rsi), %r11
	movq	%rdi, 16(%rsp)
	movq	%r9, 24(%rsp)
	movq	%rcx, 32(%rsp)
	movq	%r8, 40(%rsp)
	vxorps	%xmm0, %xmm0, %xmm0
	vmovups	%xmm0, 48(%rsp)
	vmovups	%xmm0, 57(%rsp)
	leaq	(%rax,%rax,2), %r10
	movb	$2, 73(%rsp)
	movw	$0, 74(%rsp)
	movl	%eax, 76(%rsp)
	movq	%rsi, 80(%rsp)
	movw	$16384, 88(%rsp)
	movq	$0, 90(%rsp)
	movq	$0, 96(%rsp)
	movq	%rdx, 104(%rsp)
	movq	%rax, 112(%rsp)
	movq	%rdi, 120(%rsp)
	movq	%r9, 128(%rsp)
	movq	%rcx, 136(%rsp)
	movq	%r8, 144(%rsp)
	vmovups	%xmm0, 161(%rsp)
	leaq	(%rdx,%rax,2), %r12
	vmovups	%xmm0, 152(%rsp)
	movb	$2, 177(%rsp)
	movw	$0, 178(%rsp)
	movl	%eax, 180(%rsp)
	movq	%r15, 184(%rsp)
	movw	$16384, 192(%rsp)
	movq	$0, 200(%rsp)
	movq	$0, 194(%rsp)
	movq	%r14, 208(%rsp)
	movq	%rax, 216(%rsp)
	movq	%rdi, 224(%rsp)
	movq	%r9, 232(%rsp)
	movq	%rcx, 240(%rsp)
	movq	%r8, 248(%rsp)
	vmovups	%xmm0, 256(%rsp)
	vmovups	%xmm0, 265(%rsp)
	leaq	3(%rsi), %rsi
	movb	$2, 281(%rsp)
	movw	$0, 282(%rsp)
	movl	%eax, 284(%rsp)
	movq	%r11, 288(%rsp)
	movw	$16384, 296(%rsp)
	movq	$0, 304(%rsp)
	movq	$0, 298(%rsp)
	movq	%r12, 312(%rsp)
	movq	%rax, 320(%rsp)
	movq	%rdi, 328(%rsp)
	movq	%r9, 336(%rsp)
	movq	%rcx, 344(%rsp)
	movq	%r8, 352(%rsp)
	vmovups	%xmm0, 369(%rsp)
	addq	%rdx, %r10
	vmovups	%xmm0, 360(%rsp)
	movb	$2, 385(%rsp)
	movw	$0, 386(%rsp)
	movl	%eax, 388(%rsp)
	movq	%rsi, 392(%rsp)
	movw	$16384, 400(%rsp)
	movq	$0, 408(%rsp)
	movq	$0, 402(%rsp)
	movq	%r10, 416(%rsp)
	movq	%rax, 424(%rsp)
	leaq	880(%rsp), %rdi
	leaq	16(%rsp), %rdx
	movl	$64, %esi
	vzeroupper
	callq	blake2_compress..many..blake2b..outputs..64_1_v4
	vmovups	1104(%rsp), %ymm0
	vmovups	%ymm0, 224(%rbx)
	vmovups	1072(%rsp), %ymm0
	vmovups	%ymm0, 192(%rbx)
	vmovups	1040(%rsp), %ymm0
	vmovups	%ymm0, 160(%rbx)
	vmovups	1008(%rsp), %ymm0
	vmovups	%ymm0, 128(%rbx)
	vmovups	880(%rsp), %ymm0
	vmovups	912(%rsp), %ymm1
	vmovups	944(%rsp), %ymm2
	vmovups	976(%rsp), %ymm3
	vmovups	%ymm3, 96(%rbx)
	vmovups	%ymm2, 64(%rbx)
	vmovups	%ymm1, 32(%rbx)
	vmovups	%ymm0, (%rbx)
	movl	$4, %eax
2:
	addq	$2680, %rsp
	popq	%rbx
	popq	%r12
	popq	%r14
	popq	%r15
	vzeroupper
	retq
	vj_end	blake2_tree..nodes..Nodes..hash_next_1_v4

	vj_constants	32
	.p2align	5, 0x0
.L1_v4_CPI91_0:
	.quad	7640891576956012808
	.quad	-4942790177534073029
	.quad	4354685564936845355
	.quad	-6534734903238641935
.L1_v4_CPI91_1:
	.quad	5840696475078001361
	.quad	-7276294671716946913
	.quad	2270897969802886507
	.quad	6620516959819538809
.L1_v4_CPI91_2:
	.quad	0
	.quad	1
	.quad	2
	.quad	4
.L1_v4_CPI91_3:
	.quad	0
	.quad	1
	.quad	5
	.zero	8
.L1_v4_CPI91_4:
	.quad	0
	.quad	1
	.quad	2
	.quad	5
.L1_v4_CPI91_5:
	.quad	0
	.quad	1
	.quad	2
	.quad	6
.L1_v4_CPI91_6:
	.quad	2
	.quad	3
	.quad	7
	.quad	7
	vj_constants	8
	.p2align	3, 0x0
.L1_v4_CPI91_7:
	.quad	256
	vj_function	blake2_compress..many..blake2b..eight..outputs..64_1_v4
	pushq	%rbp
	movq	%rsp, %rbp
	pushq	%r15
	pushq	%r14
	pushq	%r13
	pushq	%r12
	pushq	%rbx
	andq	$-32, %rsp
	subq	$1920, %rsp
	vpxor	%xmm2, %xmm2, %xmm2
	vmovdqa	%ymm2, 1280(%rsp)
	vmovdqa	%ymm2, 1248(%rsp)
	vmovdqa	%ymm2, 1216(%rsp)
	vmovdqa	%ymm2, 1184(%rsp)
	vmovdqa	%ymm2, 1152(%rsp)
	vmovdqa	%ymm2, 1120(%rsp)
	vmovdqa	%ymm2, 1088(%rsp)
	vmovdqa	%ymm2, 1056(%rsp)
	vmovdqa	%ymm2, 1024(%rsp)
	vmovdqa	%ymm2, 992(%rsp)
	vmovdqa	%ymm2, 960(%rsp)
	vmovdqa	%ymm2, 928(%rsp)
	vmovdqa	%ymm2, 896(%rsp)
	vmovdqa	%ymm2, 864(%rsp)
	vmovdqa	%ymm2, 832(%rsp)
	vmovdqa	%ymm2, 800(%rsp)
	vmovdqa	%ymm2, 1312(%rsp)
	vmovdqa	%ymm2, 1344(%rsp)
	vmovdqa	%ymm2, 1376(%rsp)
	vmovdqa	%ymm2, 1408(%rsp)
	vmovdqa	%ymm2, 1440(%rsp)
	vmovdqa	%ymm2, 1472(%rsp)
	vmovdqa	%ymm2, 1504(%rsp)
	vmovdqa	%ymm2, 1536(%rsp)
	vmovdqa	%ymm2, 1568(%rsp)
	vmovdqa	%ymm2, 1600(%rsp)
	vmovdqa	%ymm2, 1632(%rsp)
	vmovdqa	%ymm2, 1664(%rsp)
	vmovdqa	%ymm2, 1696(%rsp)
	vmovdqa	%ymm2, 1728(%rsp)
	vmovdqa	%ymm2, 1760(%rsp)
	vmovdqa	%ymm2, 1792(%rsp)
	vmovdqa	%ymm2, 288(%rsp)
	vmovdqa	%ymm2, 256(%rsp)
	vmovdqa	%ymm2, 192(%rsp)
	movq	%rdx, %r14
	movq	%rdi, 568(%rsp)
	vmovdqa	%ymm2, 224(%rsp)
	movzbl	%sil, %r13d
	xorl	%ebx, %ebx
	cmpb	$0, 32(%rdx)
	movl	$0, %eax
	je	1f
	movl	48(%r14), %eax
	shll	$8, %eax
	movzwl	%ax, %eax
1:
	movq	(%r14), %rsi
	movq	8(%r14), %rdx
	movq	16(%r14), %r15
	movq	24(%r14), %r12
	movzwl	56(%r14), %ecx
	shll	$16, %ecx
	orl	%eax, %ecx
	orl	%r13d, %ecx
	vmovd	%ecx, %xmm0
	vpbroadcastd	60(%r14), %xmm1
	vmovq	%xmm0, %xmm0
	vpblendd	$2, %ymm1, %ymm0, %ymm0
	vpunpcklqdq	64(%r14){1to2}, %xmm0, %xmm0
	vmovdqa	%ymm0, 512(%rsp)
	vpbroadcastw	72(%r14), %ymm0
	vmovdqa	%ymm0, 160(%rsp)
	vmovdqa	%ymm2, (%rsp)
	movq	%rsp, %rdi
	vzeroupper
	vj_c_call	memcpy
	leaq	16(%rsp), %rdi
	movq	%r15, %rsi
	movq	%r12, %rdx
	vj_c_call	memcpy
	cmpb	$0, 136(%r14)
	je	2f
	movl	152(%r14), %eax
	shll	$8, %eax
	movzwl	%ax, %ebx
2:
	vmovaps	(%rsp), %ymm0
	vmovaps	%ymm0, 704(%rsp)
	movq	104(%r14), %rsi
	movq	112(%r14), %rdx
	movq	120(%r14), %r15
	movzwl	160(%r14), %eax
	shll	$16, %eax
	orl	%ebx, %eax
	orl	%r13d, %eax
	vmovd	%eax, %xmm0
	vmovq	%xmm0, %xmm0
	vpbroadcastd	164(%r14), %xmm1
	vpblendd	$2, %ymm1, %ymm0, %ymm0
	vpunpcklqdq	168(%r14){1to2}, %xmm0, %xmm0
	vmovdqa	%ymm0, 480(%rsp)
	vpbroadcastw	176(%r14), %ymm0
	vmovdqa	%ymm0, 448(%rsp)
	movq	128(%r14), %r12
	vpxor	%xmm0, %xmm0, %xmm0
	vmovdqa	%ymm0, (%rsp)
	movq	%rsp, %rdi
	vzeroupper
	vj_c_call	memcpy
	leaq	16(%rsp), %rdi
	movq	%r15, %rsi
	movq	%r12, %rdx
	vj_c_call	memcpy
	xorl	%ebx, %ebx
	cmpb	$0, 240(%r14)
	movl	$0, %eax
	je	3f
	movl	256(%r14), %eax
	shll	$8, %eax
	movzwl	%ax, %eax
3:
	vmovaps	(%rsp), %ymm0
	vmovaps	%ymm0, 672(%rsp)
	movq	208(%r14), %rsi
	movq	216(%r14), %rdx
	movq	224(%r14), %r15
	movq	232(%r14), %r12
	movzwl	264(%r14), %ecx
	shll	$16, %ecx
	orl	%eax, %ecx
	orl	%r13d, %ecx
	vmovd	%ecx, %xmm0
	vpbroadcastd	268(%r14), %xmm1
	vmovq	%xmm0, %xmm0
	vpblendd	$2, %ymm1, %ymm0, %ymm0
	vpunpcklqdq	272(%r14){1to2}, %xmm0, %xmm0
	vmovdqa	%ymm0, 128(%rsp)
	vpbroadcastw	280(%r14), %ymm0
	vmovdqa	%ymm0, 416(%rsp)
	vpxor	%xmm0, %xmm0, %xmm0
	vmovdqa	%ymm0, (%rsp)
	movq	%rsp, %rdi
	vzeroupper
	vj_c_call	memcpy
	leaq	16(%rsp), %rdi
	movq	%r15, %rsi
	movq	%r12, %rdx
	vj_c_call	memcpy
	cmpb	$0, 344(%r14)
	je	4f
	movl	360(%r14), %eax
	shll	$8, %eax
	movzwl	%ax, %ebx
4:
	vmovaps	(%rsp), %ymm0
	vmovaps	%ymm0, 640(%rsp)
	movq	312(%r14), %rsi
	movq	320(%r14), %rdx
	movq	328(%r14), %r15
	movzwl	368(%r14), %eax
	shll	$16, %eax
	orl	%ebx, %eax
	orl	%r13d, %eax
	vmovd	%eax, %xmm0
	vmovq	%xmm0, %xmm0
	vpbroadcastd	372(%r14), %xmm1
	vpblendd	$2, %ymm1, %ymm0, %ymm0
	vpunpcklqdq	376(%r14){1to2}, %xmm0, %xmm0
	vmovdqa	%ymm0, 608(%rsp)
	vpbroadcastw	384(%r14), %ymm0
	vmovdqa	%ymm0, 352(%rsp)
	movq	336(%r14), %r12
	vpxor	%xmm0, %xmm0, %xmm0
	vmovdqa	%ymm0, (%rsp)
	movq	%rsp, %rdi
	vzeroupper
	vj_c_call	memcpy
	leaq	16(%rsp), %rdi
	movq	%r15, %rsi
	movq	%r12, %rdx
	vj_c_call	memcpy
	xorl	%ebx, %ebx
	cmpb	$0, 448(%r14)
	movl	$0, %eax
	je	5f
	movl	464(%r14), %eax
	shll	$8, %eax
	movzwl	%ax, %eax
5:
	vpxor	%xmm0, %xmm0, %xmm0
	vpblendw	$1, 160(%rsp), %ymm0, %ymm0
	vmovdqa	%ymm0, 160(%rsp)
	vpxor	%xmm0, %xmm0, %xmm0
	vpblendw	$1, 448(%rsp), %ymm0, %ymm1
	vmovdqa	%ymm1, 384(%rsp)
	vpblendw	$1, 416(%rsp), %ymm0, %ymm0
	vmovdqa	%ymm0, 576(%rsp)
	vpxor	%xmm2, %xmm2, %xmm2
	vpblendw	$1, 352(%rsp), %ymm2, %ymm0
	vmovdqa	%ymm0, 352(%rsp)
	vmovaps	(%rsp), %ymm0
	vmovaps	%ymm0, 416(%rsp)
	movq	416(%r14), %rsi
	movq	424(%r14), %rdx
	movq	432(%r14), %r15
	movzwl	472(%r14), %ecx
	shll	$16, %ecx
	orl	%eax, %ecx
	orl	%r13d, %ecx
	vmovd	%ecx, %xmm0
	vmovq	%xmm0, %xmm0
	vpbroadcastd	476(%r14), %xmm1
	vpblendd	$2, %ymm1, %ymm0, %ymm0
	vpunpcklqdq	480(%r14){1to2}, %xmm0, %xmm0
	vmovdqa	%ymm0, 320(%rsp)
	vpbroadcastw	488(%r14), %ymm0
	movq	440(%r14), %r12
	vmovdqa	%ymm2, (%rsp)
	vpblendw	$1, %ymm0, %ymm2, %ymm0
	vmovdqa	%ymm0, 768(%rsp)
	movq	%rsp, %rdi
	vzeroupper
	vj_c_call	memcpy
	leaq	16(%rsp), %rdi
	movq	%r15, %rsi
	movq	%r12, %rdx
	vj_c_call	memcpy
	cmpb	$0, 552(%r14)
	je	6f
	movl	568(%r14), %eax
	shll	$8, %eax
	movzwl	%ax, %ebx
6:
	vmovaps	160(%rsp), %ymm0
	vblendps	$15, 512(%rsp), %ymm0, %ymm0
	vmovaps	%ymm0, 448(%rsp)
	vmovaps	384(%rsp), %ymm0
	vblendps	$15, 480(%rsp), %ymm0, %ymm0
	vmovaps	%ymm0, 512(%rsp)
	vmovaps	576(%rsp), %ymm0
	vblendps	$15, 128(%rsp), %ymm0, %ymm0
	vmovaps	%ymm0, 160(%rsp)
	vmovaps	352(%rsp), %ymm0
	vblendps	$15, 608(%rsp), %ymm0, %ymm0
	vmovaps	%ymm0, 384(%rsp)
	vmovaps	768(%rsp), %ymm0
	vblendps	$15, 320(%rsp), %ymm0, %ymm0
	vmovaps	%ymm0, 480(%rsp)
	vmovaps	(%rsp), %ymm0
	vmovaps	%ymm0, 128(%rsp)
	movq	520(%r14), %rsi
	movq	528(%r14), %rdx
	movq	536(%r14), %r15
	movzwl	576(%r14), %eax
	shll	$16, %eax
	orl	%ebx, %eax
	orl	%r13d, %eax
	vmovd	%eax, %xmm0
	vpbroadcastd	580(%r14), %xmm1
	vmovq	%xmm0, %xmm0
	vpblendd	$2, %ymm1, %ymm0, %ymm0
	vpunpcklqdq	584(%r14){1to2}, %xmm0, %xmm0
	movq	544(%r14), %r12
	vpbroadcastw	592(%r14), %ymm1
	vpxor	%xmm2, %xmm2, %xmm2
	vmovdqa	%ymm2, (%rsp)
	vpblendw	$1, %ymm1, %ymm2, %ymm1
	vpblendd	$240, %ymm1, %ymm0, %ymm0
	vmovdqa	%ymm0, 320(%rsp)
	movq	%rsp, %rdi
	vzeroupper
	vj_c_call	memcpy
	leaq	16(%rsp), %rdi
	movq	%r15, %rsi
	movq	%r12, %rdx
	vj_c_call	memcpy
	vmovaps	(%rsp), %ymm0
	xorl	%ebx, %ebx
	cmpb	$0, 656(%r14)
	movl	$0, %eax
	je	7f
	movl	672(%r14), %eax
	shll	$8, %eax
	movzwl	%ax, %eax
7:
	vmovaps	448(%rsp), %ymm1
	vxorps	.L1_v4_CPI91_0(%rip), %ymm1, %ymm1
	vmovaps	%ymm1, 448(%rsp)
	vmovaps	704(%rsp), %ymm1
	vxorps	.L1_v4_CPI91_1(%rip), %ymm1, %ymm1
	vmovaps	%ymm1, 704(%rsp)
	vmovaps	512(%rsp), %ymm1
	vxorps	.L1_v4_CPI91_0(%rip), %ymm1, %ymm1
	vmovaps	%ymm1, 608(%rsp)
	vmovaps	672(%rsp), %ymm1
	vxorps	.L1_v4_CPI91_1(%rip), %ymm1, %ymm1
	vmovaps	%ymm1, 512(%rsp)
	vmovaps	160(%rsp), %ymm1
	vxorps	.L1_v4_CPI91_0(%rip), %ymm1, %ymm1
	vmovaps	%ymm1, 352(%rsp)
	vmovaps	640(%rsp), %ymm1
	vxorps	.L1_v4_CPI91_1(%rip), %ymm1, %ymm1
	vmovaps	%ymm1, 160(%rsp)
	vmovaps	384(%rsp), %ymm1
	vxorps	.L1_v4_CPI91_0(%rip), %ymm1, %ymm1
	vmovaps	%ymm1, 576(%rsp)
	vmovaps	416(%rsp), %ymm1
	vxorps	.L1_v4_CPI91_1(%rip), %ymm1, %ymm1
	vmovaps	%ymm1, 640(%rsp)
	vmovaps	480(%rsp), %ymm1
	vxorps	.L1_v4_CPI91_0(%rip), %ymm1, %ymm1
	vmovaps	%ymm1, 416(%rsp)
	vmovaps	128(%rsp), %ymm1
	vxorps	.L1_v4_CPI91_1(%rip), %ymm1, %ymm1
	vmovaps	%ymm1, 672(%rsp)
	vmovaps	320(%rsp), %ymm1
	vxorps	.L1_v4_CPI91_0(%rip), %ymm1, %ymm1
	vmovaps	%ymm1, 384(%rsp)
	vxorps	.L1_v4_CPI91_1(%rip), %ymm0, %ymm0
	vmovaps	%ymm0, 480(%rsp)
	movq	624(%r14), %rsi
	movq	632(%r14), %rdx
	movq	640(%r14), %r15
	movq	648(%r14), %r12
	movzwl	680(%r14), %ecx
	shll	$16, %ecx
	orl	%eax, %ecx
	orl	%r13d, %ecx
	vmovd	%ecx, %xmm0
	vmovq	%xmm0, %xmm0
	vpbroadcastd	684(%r14), %xmm1
	vpblendd	$2, %ymm1, %ymm0, %ymm0
	vpunpcklqdq	688(%r14){1to2}, %xmm0, %xmm0
	vpbroadcastw	696(%r14), %ymm1
	vpxor	%xmm2, %xmm2, %xmm2
	vmovdqa	%ymm2, (%rsp)
	vpblendw	$1, %ymm1, %ymm2, %ymm1
	vpblendd	$240, %ymm1, %ymm0, %ymm0
	vmovdqa	%ymm0, 128(%rsp)
	movq	%rsp, %rdi
	vzeroupper
	vj_c_call	memcpy
	leaq	16(%rsp), %rdi
	movq	%r15, %rsi
	movq	%r12, %rdx
	vj_c_call	memcpy
	vmovaps	(%rsp), %ymm0
	vmovaps	128(%rsp), %ymm1
	vxorps	.L1_v4_CPI91_0(%rip), %ymm1, %ymm1
	vmovaps	%ymm1, 320(%rsp)
	vxorps	.L1_v4_CPI91_1(%rip), %ymm0, %ymm0
	vmovaps	%ymm0, 128(%rsp)
	cmpb	$0, 760(%r14)
	je	8f
	movl	776(%r14), %eax
	shll	$8, %eax
	movzwl	%ax, %ebx
8:
	movq	728(%r14), %rsi
	movq	736(%r14), %rdx
	movq	744(%r14), %r15
	movzwl	784(%r14), %eax
	shll	$16, %eax
	orl	%ebx, %eax
	orl	%r13d, %eax
	vmovd	%eax, %xmm0
	vpbroadcastd	788(%r14), %xmm1
	vmovq	%xmm0, %xmm0
	vpblendd	$2, %ymm1, %ymm0, %ymm0
	vpunpcklqdq	792(%r14){1to2}, %xmm0, %xmm0
	movq	752(%r14), %r12
	vpbroadcastw	800(%r14), %ymm1
	vpxor	%xmm2, %xmm2, %xmm2
	vmovdqa	%ymm2, (%rsp)
	vpblendw	$1, %ymm1, %ymm2, %ymm1
	vpblendd	$240, %ymm1, %ymm0, %ymm0
	vmovdqa	%ymm0, 768(%rsp)
	movq	%rsp, %rdi
	vzeroupper
	vj_c_call	memcpy
	leaq	16(%rsp), %rdi
	movq	%r15, %rsi
	movq	%r12, %rdx
	vj_c_call	memcpy
	vmovdqa	(%rsp), %ymm0
	vmovdqa	768(%rsp), %ymm1
	vpxor	.L1_v4_CPI91_0(%rip), %ymm1, %ymm9
	vpxor	.L1_v4_CPI91_1(%rip), %ymm0, %ymm0
	vmovdqa	448(%rsp), %ymm13
	vmovdqa	608(%rsp), %ymm14
	vpunpcklqdq	%xmm14, %xmm13, %xmm1
	vmovdqa	352(%rsp), %ymm11
	vperm2i128	$32, %ymm11, %ymm1, %ymm1
	vmovdqa	.L1_v4_CPI91_2(%rip), %ymm7
	vmovdqa	576(%rsp), %ymm6
	vpermt2q	%ymm6, %ymm7, %ymm1
	vmovdqa	416(%rsp), %ymm15
	vmovdqa64	384(%rsp), %ymm16
	vpunpcklqdq	%xmm16, %xmm15, %xmm2
	vmovdqa	320(%rsp), %ymm12
	vinserti128	$1, %xmm12, %ymm2, %ymm2
	vpermt2q	%ymm9, %ymm7, %ymm2
	vpextrq	$1, %xmm11, %rax
	vpextrq	$1, %xmm6, %rcx
	vpunpckhqdq	%xmm14, %xmm13, %xmm3
	vpbroadcastq	%rax, %ymm4
	vpblendd	$48, %ymm4, %ymm3, %ymm3
	vpbroadcastq	%rcx, %ymm4
	vpblendd	$192, %ymm4, %ymm3, %ymm3
	vmovdqa64	%ymm3, %ymm25
	vpunpckhqdq	%xmm16, %xmm15, %xmm4
	vmovdqa64	.L1_v4_CPI91_3(%rip), %ymm23
	vpermt2q	%ymm12, %ymm23, %ymm4
	vmovdqa64	.L1_v4_CPI91_4(%rip), %ymm24
	vpermt2q	%ymm9, %ymm24, %ymm4
	vextracti128	$1, %ymm11, %xmm8
	vextracti128	$1, %ymm6, %xmm10
	vpunpcklqdq	%ymm14, %ymm13, %ymm5
	vperm2i128	$49, %ymm11, %ymm5, %ymm5
	vmovdqa64	.L1_v4_CPI91_5(%rip), %ymm22
	vpermt2q	%ymm6, %ymm22, %ymm5
	vpunpcklqdq	%ymm16, %ymm15, %ymm6
	vperm2i128	$49, %ymm12, %ymm6, %ymm6
	vpextrq	$1, %xmm8, %rax
	vpermt2q	%ymm9, %ymm22, %ymm6
	vpextrq	$1, %xmm10, %rcx
	vpunpckhqdq	%ymm14, %ymm13, %ymm8
	vpbroadcastq	%rax, %ymm10
	vperm2i128	$49, %ymm10, %ymm8, %ymm8
	vpbroadcastq	%rcx, %ymm10
	vpblendd	$192, %ymm10, %ymm8, %ymm3
	vmovdqa64	%ymm3, %ymm26
	vpunpckhqdq	%ymm16, %ymm15, %ymm10
	vmovdqa64	.L1_v4_CPI91_6(%rip), %ymm16
	vpermt2q	%ymm12, %ymm16, %ymm10
	vpblendd	$192, %ymm9, %ymm10, %ymm9
	vmovdqa64	704(%rsp), %ymm17
	vmovdqa64	512(%rsp), %ymm18
	vpunpcklqdq	%xmm18, %xmm17, %xmm10
	vmovdqa	160(%rsp), %ymm8
	vperm2i128	$32, %ymm8, %ymm10, %ymm10
	vmovdqa64	640(%rsp), %ymm21
	vpermt2q	%ymm21, %ymm7, %ymm10
	vmovdqa64	672(%rsp), %ymm19
	vmovdqa64	480(%rsp), %ymm20
	vpunpcklqdq	%xmm20, %xmm19, %xmm15
	vmovdqa	128(%rsp), %ymm13
	vinserti128	$1, %xmm13, %ymm15, %ymm15
	vpermt2q	%ymm0, %ymm7, %ymm15
	vpextrq	$1, %xmm8, %rax
	vpextrq	$1, %xmm21, %rcx
	vpunpckhqdq	%xmm18, %xmm17, %xmm7
	vpbroadcastq	%rax, %ymm3
	vpblendd	$48, %ymm3, %ymm7, %ymm3
	vpbroadcastq	%rcx, %ymm7
	vpblendd	$192, %ymm7, %ymm3, %ymm7
	vpunpckhqdq	%xmm20, %xmm19, %xmm3
	vpermt2q	%ymm13, %ymm23, %ymm3
	vpermt2q	%ymm0, %ymm24, %ymm3
	vextracti128	$1, %ymm8, %xmm11
	vextracti32x4	$1, %ymm21, %xmm12
	vpunpcklqdq	%ymm18, %ymm17, %ymm14
	vperm2i128	$49, %ymm8, %ymm14, %ymm14
	vpermt2q	%ymm21, %ymm22, %ymm14
	vpunpcklqdq	%ymm20, %ymm19, %ymm8
	vperm2i128	$49, %ymm13, %ymm8, %ymm8
	vpermt2q	%ymm0, %ymm22, %ymm8
	vpextrq	$1, %xmm11, %rax
	vpextrq	$1, %xmm12, %rcx
	vpunpckhqdq	%ymm18, %ymm17, %ymm11
	vpbroadcastq	%rax, %ymm12
	vperm2i128	$49, %ymm12, %ymm11, %ymm11
	vpbroadcastq	%rcx, %ymm12
	vpblendd	$192, %ymm12, %ymm11, %ymm11
	vpunpckhqdq	%ymm20, %ymm19, %ymm12
	vpermt2q	%ymm13, %ymm16, %ymm12
	vpblendd	$192, %ymm0, %ymm12, %ymm0
	vmovdqa	%ymm2, 832(%rsp)
	vmovdqa	%ymm1, 800(%rsp)
	vmovdqa	%ymm4, 896(%rsp)
	vmovdqa64	%ymm25, 864(%rsp)
	vmovdqa	%ymm6, 960(%rsp)
	vmovdqa	%ymm5, 928(%rsp)
	vmovdqa	%ymm9, 1024(%rsp)
	vmovdqa64	%ymm26, 992(%rsp)
	vmovdqa	%ymm10, 1056(%rsp)
	vmovdqa	%ymm15, 1088(%rsp)
	vmovdqa	%ymm7, 1120(%rsp)
	vmovdqa	%ymm3, 1152(%rsp)
	vmovdqa	%ymm14, 1184(%rsp)
	vmovdqa	%ymm8, 1216(%rsp)
	vmovdqa	%ymm11, 1248(%rsp)
	vmovdqa	%ymm0, 1280(%rsp)
	movq	96(%r14), %rax
	leaq	128(%rax), %rcx
	cmpb	$0, 32(%r14)
	cmoveq	%rax, %rcx
	cmpq	$1, %rcx
	movq	%rcx, %r13
	adcq	$-1, %r13
	shrq	$7, %r13
	je	9f
	vpxor	%xmm0, %xmm0, %xmm0
	vmovdqa	%xmm0, 752(%rsp)
	xorl	%ebx, %ebx
	leaq	800(%rsp), %rdi
	movl	$128, %r15d
	leaq	752(%rsp), %r8
	movl	$128, %ecx
	movq	%r14, %rsi
	xorl	%edx, %edx
	vzeroupper
	callq	blake2_compress..many..blake2b..eight..compress_at_1_v4
	decq	%r13
	movq	96(%r14), %rax
	cmpq	$128, %rax
	movl	$128, %ecx
	cmovbq	%rax, %rcx
	leaq	128(%rax), %r12
	cmpb	$0, 32(%r14)
	cmovneq	%rbx, %rcx
	cmoveq	%rax, %r12
	addq	88(%r14), %rcx
	movq	%rcx, (%rsp)
	movq	%r13, 8(%rsp)
	movq	200(%r14), %rax
	cmpq	$128, %rax
	cmovaeq	%r15, %rax
	cmpb	$0, 136(%r14)
	cmovneq	%rbx, %rax
	addq	192(%r14), %rax
	movq	%rax, 16(%rsp)
	movq	%r13, 24(%rsp)
	movq	304(%r14), %rax
	cmpq	$128, %rax
	cmovaeq	%r15, %rax
	cmpb	$0, 240(%r14)
	cmovneq	%rbx, %rax
	addq	296(%r14), %rax
	movq	%rax, 32(%rsp)
	movq	%r13, 40(%rsp)
	movq	408(%r14), %rax
	cmpq	$128, %rax
	cmovaeq	%r15, %rax
	cmpb	$0, 344(%r14)
	cmovneq	%rbx, %rax
	addq	400(%r14), %rax
	movq	%rax, 48(%rsp)
	movq	%r13, 56(%rsp)
	movq	512(%r14), %rax
	cmpq	$128, %rax
	cmovaeq	%r15, %rax
	cmpb	$0, 448(%r14)
	cmovneq	%rbx, %rax
	addq	504(%r14), %rax
	movq	%rax, 64(%rsp)
	movq	%r13, 72(%rsp)
	movq	616(%r14), %rax
	cmpq	$128, %rax
	cmovaeq	%r15, %rax
	cmpb	$0, 552(%r14)
	cmovneq	%rbx, %rax
	addq	608(%r14), %rax
	movq	%rax, 80(%rsp)
	movq	%r13, 88(%rsp)
	movq	720(%r14), %rax
	cmpq	$128, %rax
	cmovaeq	%r15, %rax
	cmpb	$0, 656(%r14)
	cmovneq	%rbx, %rax
	addq	712(%r14), %rax
	movq	%rax, 96(%rsp)
	movq	%r13, 104(%rsp)
	movq	824(%r14), %rax
	cmpq	$128, %rax
	cmovbq	%rax, %r15
	cmpb	$0, 760(%r14)
	cmovneq	%rbx, %r15
	addq	816(%r14), %r15
	movq	%r15, 112(%rsp)
	movq	%r13, 120(%rsp)
	vpbroadcastq	.L1_v4_CPI91_7(%rip), %ymm0
	vmovdqu	%ymm0, 1832(%rsp)
	vmovdqu	%ymm0, 1864(%rsp)
	movq	%rsp, %rsi
	leaq	1832(%rsp), %rdx
	leaq	800(%rsp), %rdi
	leaq	752(%rsp), %rcx
	vzeroupper
	callq	blake2_compress..many..blake2b..eight..compress_blocks_1_v4
	movq	%r12, %rcx
	cmpq	$1, %r12
	movq	%r12, %rdx
	adcq	$-1, %rdx
	shrq	$7, %rdx
	jmp	10f
9:
	xorl	%edx, %edx
10:
	movl	$1, %eax
	vmovd	%eax, %xmm0
	vpinsrb	$1, 80(%r14), %xmm0, %xmm0
	vpinsrb	$2, %eax, %xmm0, %xmm0
	vpinsrb	$3, 184(%r14), %xmm0, %xmm0
	vpinsrb	$4, %eax, %xmm0, %xmm0
	vpinsrb	$5, 288(%r14), %xmm0, %xmm0
	vpinsrb	$6, %eax, %xmm0, %xmm0
	vpinsrb	$7, 392(%r14), %xmm0, %xmm0
	vpinsrb	$8, %eax, %xmm0, %xmm0
	vpinsrb	$9, 496(%r14), %xmm0, %xmm0
	vpinsrb	$10, %eax, %xmm0, %xmm0
	vpinsrb	$11, 600(%r14), %xmm0, %xmm0
	vpinsrb	$12, %eax, %xmm0, %xmm0
	vpinsrb	$13, 704(%r14), %xmm0, %xmm0
	vpinsrb	$14, %eax, %xmm0, %xmm0
	vpinsrb	$15, 808(%r14), %xmm0, %xmm0
	vmovdqa	%xmm0, (%rsp)
	leaq	800(%rsp), %rdi
	movq	%rsp, %r8
	movq	%r14, %rsi
	vzeroupper
	callq	blake2_compress..many..blake2b..eight..compress_at_1_v4
	vmovdqa	800(%rsp), %ymm0
	vmovdqa	832(%rsp), %ymm1
	vmovdqa	864(%rsp), %ymm2
	vmovdqa	896(%rsp), %ymm3
	vmovdqa	928(%rsp), %ymm4
	vmovdqa	960(%rsp), %ymm5
	vmovdqa	992(%rsp), %ymm6
	vmovdqa	1024(%rsp), %ymm7
	vmovdqa	1056(%rsp), %ymm8
	vmovdqa	1088(%rsp), %ymm9
	vmovdqa	1120(%rsp), %ymm10
	vmovdqa	1152(%rsp), %ymm11
	vmovdqa	1184(%rsp), %ymm12
	vmovdqa	1216(%rsp), %ymm13
	vmovdqa	1248(%rsp), %ymm14
	vmovdqa	1280(%rsp), %ymm15
	vpunpcklqdq	%ymm3, %ymm1, %ymm16
	vpunpcklqdq	%ymm2, %ymm0, %ymm17
	vpunpckhqdq	%ymm3, %ymm1, %ymm1
	vpunpckhqdq	%ymm2, %ymm0, %ymm0
	vpunpcklqdq	%ymm7, %ymm5, %ymm2
	vpunpcklqdq	%ymm6, %ymm4, %ymm3
	vpunpckhqdq	%ymm7, %ymm5, %ymm5
	vpunpckhqdq	%ymm6, %ymm4, %ymm4
	vpunpcklqdq	%ymm11, %ymm9, %ymm6
	vpunpcklqdq	%ymm10, %ymm8, %ymm7
	vpunpckhqdq	%ymm11, %ymm9, %ymm9
	vpunpckhqdq	%ymm10, %ymm8, %ymm8
	vpunpcklqdq	%ymm15, %ymm13, %ymm10
	vpunpcklqdq	%ymm14, %ymm12, %ymm11
	vpunpckhqdq	%ymm15, %ymm13, %ymm13
	vpunpckhqdq	%ymm14, %ymm12, %ymm12
	vinserti128	$1, %xmm11, %ymm7, %ymm14
	vinserti32x4	$1, %xmm3, %ymm17, %ymm15
	vinserti32x4	$1, %xmm12, %ymm8, %ymm18
	vmovdqa64	%ymm18, 352(%rsp)
	vinserti32x4	$1, %xmm4, %ymm0, %ymm18
	vmovdqa64	%ymm18, 320(%rsp)
	vperm2i128	$49, %ymm11, %ymm7, %ymm7
	vmovdqa	%ymm7, 384(%rsp)
	vshufi64x2	$3, %ymm3, %ymm17, %ymm3
	vmovdqa	%ymm3, 576(%rsp)
	vperm2i128	$49, %ymm12, %ymm8, %ymm3
	vmovdqa	%ymm3, 608(%rsp)
	vperm2i128	$49, %ymm4, %ymm0, %ymm0
	vmovdqa	%ymm0, 416(%rsp)
	vinserti128	$1, %xmm10, %ymm6, %ymm0
	vmovdqa	%ymm0, 128(%rsp)
	vinserti32x4	$1, %xmm2, %ymm16, %ymm0
	vmovdqa	%ymm0, 448(%rsp)
	vinserti128	$1, %xmm13, %ymm9, %ymm0
	vmovdqa	%ymm0, 160(%rsp)
	vinserti128	$1, %xmm5, %ymm1, %ymm0
	vmovdqa	%ymm0, 640(%rsp)
	vperm2i128	$49, %ymm10, %ymm6, %ymm0
	vmovdqa	%ymm0, 672(%rsp)
	vshufi64x2	$3, %ymm2, %ymm16, %ymm0
	vmovdqa	%ymm0, 480(%rsp)
	vperm2i128	$49, %ymm13, %ymm9, %ymm0
	vmovdqa	%ymm0, 704(%rsp)
	vperm2i128	$49, %ymm5, %ymm1, %ymm0
	vmovdqa	%ymm0, 512(%rsp)
	vmovdqa	%ymm15, 192(%rsp)
	vmovdqa	%ymm14, 224(%rsp)
	leaq	256(%rsp), %r14
	leaq	192(%rsp), %r15
	movq	%r14, %rdi
	movq	%r15, %rsi
	vzeroupper
	callq	blake2_compress..many..blake2b..output..64_1_v4
	vmovaps	256(%rsp), %ymm0
	vmovaps	288(%rsp), %ymm1
	vmovaps	%ymm1, 1344(%rsp)
	vmovaps	%ymm0, 1312(%rsp)
	vmovaps	320(%rsp), %ymm0
	vmovaps	%ymm0, 192(%rsp)
	vmovaps	352(%rsp), %ymm0
	vmovaps	%ymm0, 224(%rsp)
	movq	%r14, %rdi
	movq	%r15, %rsi
	vzeroupper
	callq	blake2_compress..many..blake2b..output..64_1_v4
	vmovaps	256(%rsp), %ymm0
	vmovaps	288(%rsp), %ymm1
	vmovaps	%ymm1, 1408(%rsp)
	vmovaps	%ymm0, 1376(%rsp)
	vmovaps	576(%rsp), %ymm0
	vmovaps	%ymm0, 192(%rsp)
	vmovaps	384(%rsp), %ymm0
	vmovaps	%ymm0, 224(%rsp)
	movq	%r14, %rdi
	movq	%r15, %rsi
	vzeroupper
	callq	blake2_compress..many..blake2b..output..64_1_v4
	vmovaps	256(%rsp), %ymm0
	vmovaps	288(%rsp), %ymm1
	vmovaps	%ymm1, 1472(%rsp)
	vmovaps	%ymm0, 1440(%rsp)
	vmovaps	416(%rsp), %ymm0
	vmovaps	%ymm0, 192(%rsp)
	vmovaps	608(%rsp), %ymm0
	vmovaps	%ymm0, 224(%rsp)
	movq	%r14, %rdi
	movq	%r15, %rsi
	vzeroupper
	callq	blake2_compress..many..blake2b..output..64_1_v4
	vmovaps	256(%rsp), %ymm0
	vmovaps	288(%rsp), %ymm1
	vmovaps	%ymm1, 1536(%rsp)
	vmovaps	%ymm0, 1504(%rsp)
	vmovaps	448(%rsp), %ymm0
	vmovaps	%ymm0, 192(%rsp)
	vmovaps	128(%rsp), %ymm0
	vmovaps	%ymm0, 224(%rsp)
	movq	%r14, %rdi
	movq	%r15, %rsi
	vzeroupper
	callq	blake2_compress..many..blake2b..output..64_1_v4
	vmovaps	256(%rsp), %ymm0
	vmovaps	288(%rsp), %ymm1
	vmovaps	%ymm1, 1600(%rsp)
	vmovaps	%ymm0, 1568(%rsp)
	vmovaps	640(%rsp), %ymm0
	vmovaps	%ymm0, 192(%rsp)
	vmovaps	160(%rsp), %ymm0
	vmovaps	%ymm0, 224(%rsp)
	movq	%r14, %rdi
	movq	%r15, %rsi
	vzeroupper
	callq	blake2_compress..many..blake2b..output..64_1_v4
	vmovaps	256(%rsp), %ymm0
	vmovaps	288(%rsp), %ymm1
	vmovaps	%ymm1, 1664(%rsp)
	vmovaps	%ymm0, 1632(%rsp)
	vmovaps	480(%rsp), %ymm0
	vmovaps	%ymm0, 192(%rsp)
	vmovaps	672(%rsp), %ymm0
	vmovaps	%ymm0, 224(%rsp)
	movq	%r14, %rdi
	movq	%r15, %rsi
	vzeroupper
	callq	blake2_compress..many..blake2b..output..64_1_v4
	vmovaps	256(%rsp), %ymm0
	vmovaps	288(%rsp), %ymm1
	vmovaps	%ymm1, 1728(%rsp)
	vmovaps	%ymm0, 1696(%rsp)
	vmovaps	512(%rsp), %ymm0
	vmovaps	%ymm0, 192(%rsp)
	vmovaps	704(%rsp), %ymm0
	vmovaps	%ymm0, 224(%rsp)
	movq	%r14, %rdi
	movq	%r15, %rsi
	vzeroupper
	callq	blake2_compress..many..blake2b..output..64_1_v4
	vmovaps	256(%rsp), %ymm0
	vmovaps	288(%rsp), %ymm1
	vmovaps	%ymm1, 1792(%rsp)
	vmovaps	%ymm0, 1760(%rsp)
	leaq	1312(%rsp), %rsi
	movl	$512, %edx
	movq	568(%rsp), %rdi
	vzeroupper
	vj_c_call	memcpy
	leaq	-40(%rbp), %rsp
	popq	%rbx
	popq	%r12
	popq	%r13
	popq	%r14
	popq	%r15
	popq	%rbp
	vpxord	%xmm16, %xmm16, %xmm16
	vpxord	%xmm17, %xmm17, %xmm17
	vpxord	%xmm18, %xmm18, %xmm18
	vpxord	%xmm19, %xmm19, %xmm19
	vpxord	%xmm20, %xmm20, %xmm20
	vpxord	%xmm21, %xmm21, %xmm21
	vpxord	%xmm22, %xmm22, %xmm22
	vpxord	%xmm23, %xmm23, %xmm23
	vpxord	%xmm24, %xmm24, %xmm24
	vpxord	%xmm25, %xmm25, %xmm25
	vpxord	%xmm26, %xmm26, %xmm26
	retq
	vj_end	blake2_compress..many..blake2b..eight..outputs..64_1_v4

	vj_function	blake2_compress..many..blake2b..eight..compress_at_1_v4
	pushq	%r15
	pushq	%r14
	pushq	%r13
	pushq	%r12
	pushq	%rbx
	subq	$2240, %rsp
	movq	%r8, %rbx
	movq	%rcx, %r15
	movq	%rdx, %r12
	movq	%rsi, %r13
	movq	%rdi, %r14
	vxorps	%xmm0, %xmm0, %xmm0
	vmovups	%ymm0, 1376(%rsp)
	vmovups	%ymm0, 1344(%rsp)
	vmovups	%ymm0, 1312(%rsp)
	vmovups	%ymm0, 1280(%rsp)
	vmovups	%ymm0, 1152(%rsp)
	vmovups	%ymm0, 1184(%rsp)
	vmovups	%ymm0, 1216(%rsp)
	vmovups	%ymm0, 1248(%rsp)
	vmovups	%ymm0, 1408(%rsp)
	vmovups	%ymm0, 1440(%rsp)
	cmpb	$0, 32(%rsi)
	je	1f
	testq	%r12, %r12
	je	2f
	movq	96(%r13), %rax
	movq	%r12, %rsi
	shlq	$7, %rsi
	addq	$-128, %rsi
	subq	%rsi, %rax
	addq	88(%r13), %rsi
	cmpq	$128, %rax
	movl	$128, %edx
	cmovbq	%rax, %rdx
	jmp	3f
1:
	movq	96(%r13), %rax
	movq	%r12, %rsi
	shlq	$7, %rsi
	subq	%rsi, %rax
	addq	88(%r13), %rsi
	cmpq	$128, %rax
	movl	$128, %edx
	cmovbq	%rax, %rdx
	vmovups	%ymm0, 96(%rsp)
	vmovups	%ymm0, 64(%rsp)
	vmovups	%ymm0, 32(%rsp)
	vmovups	%ymm0, (%rsp)
	movq	%rsp, %rdi
	vzeroupper
	vj_c_call	memcpy
	vmovups	(%rsp), %ymm0
	vmovups	32(%rsp), %ymm1
	vmovups	64(%rsp), %ymm2
	vmovups	96(%rsp), %ymm3
	vmovups	%ymm0, 256(%rsp)
	vmovups	%ymm1, 288(%rsp)
	vmovups	%ymm2, 320(%rsp)
	vmovups	%ymm3, 352(%rsp)
	jmp	4f
2:
	movq	40(%r13), %rsi
	movq	48(%r13), %rdx
3:
	vmovups	%ymm0, 96(%rsp)
	vmovups	%ymm0, 64(%rsp)
	vmovups	%ymm0, 32(%rsp)
	vmovups	%ymm0, (%rsp)
	movq	%rsp, %rdi
	vzeroupper
	vj_c_call	memcpy
	vmovups	(%rsp), %ymm0
	vmovups	32(%rsp), %ymm1
	vmovups	64(%rsp), %ymm2
	vmovups	96(%rsp), %ymm3
	vmovups	%ymm0, 128(%rsp)
	vmovups	%ymm1, 160(%rsp)
	vmovups	%ymm2, 192(%rsp)
	vmovups	%ymm3, 224(%rsp)
	vmovups	128(%rsp), %ymm0
	vmovups	160(%rsp), %ymm1
	vmovups	192(%rsp), %ymm2
	vmovups	224(%rsp), %ymm3
	vmovups	%ymm3, 352(%rsp)
	vmovups	%ymm2, 320(%rsp)
	vmovups	%ymm1, 288(%rsp)
	vmovups	%ymm0, 256(%rsp)
4:
	vmovups	256(%rsp), %ymm0
	vmovups	288(%rsp), %ymm1
	vmovups	320(%rsp), %ymm2
	vmovups	352(%rsp), %ymm3
	vmovups	%ymm3, 1568(%rsp)
	vmovups	%ymm2, 1536(%rsp)
	vmovups	%ymm1, 1504(%rsp)
	vmovups	%ymm0, 1472(%rsp)
	cmpb	$0, 136(%r13)
	je	5f
	testq	%r12, %r12
	je	6f
	movq	200(%r13), %rax
	movq	%r12, %rsi
	shlq	$7, %rsi
	addq	$-128, %rsi
	subq	%rsi, %rax
	addq	192(%r13), %rsi
	cmpq	$128, %rax
	movl	$128, %edx
	cmovbq	%rax, %rdx
	jmp	7f
5:
	movq	200(%r13), %rax
	movq	%r12, %rsi
	shlq	$7, %rsi
	subq	%rsi, %rax
	addq	192(%r13), %rsi
	cmpq	$128, %rax
	movl	$128, %edx
	cmovbq	%rax, %rdx
	vxorps	%xmm0, %xmm0, %xmm0
	vmovups	%ymm0, 96(%rsp)
	vmovups	%ymm0, 64(%rsp)
	vmovups	%ymm0, 32(%rsp)
	vmovups	%ymm0, (%rsp)
	movq	%rsp, %rdi
	vzeroupper
	vj_c_call	memcpy
	vmovups	(%rsp), %ymm0
	vmovups	32(%rsp), %ymm1
	vmovups	64(%rsp), %ymm2
	vmovups	96(%rsp), %ymm3
	vmovups	%ymm0, 256(%rsp)
	vmovups	%ymm1, 288(%rsp)
	vmovups	%ymm2, 320(%rsp)
	vmovups	%ymm3, 352(%rsp)
	jmp	8f
6:
	movq	144(%r13), %rsi
	movq	152(%r13), %rdx
7:
	vxorps	%xmm0, %xmm0, %xmm0
	vmovups	%ymm0, 96(%rsp)
	vmovups	%ymm0, 64(%rsp)
	vmovups	%ymm0, 32(%rsp)
	vmovups	%ymm0, (%rsp)
	movq	%rsp, %rdi
	vzeroupper
	vj_c_call	memcpy
	vmovups	(%rsp), %ymm0
	vmovups	32(%rsp), %ymm1
	vmovups	64(%rsp), %ymm2
	vmovups	96(%rsp), %ymm3
	vmovups	%ymm0, 128(%rsp)
	vmovups	%ymm1, 160(%rsp)
	vmovups	%ymm2, 192(%rsp)
	vmovups	%ymm3, 224(%rsp)
	vmovups	128(%rsp), %ymm0
	vmovups	160(%rsp), %ymm1
	vmovups	192(%rsp), %ymm2
	vmovups	224(%rsp), %ymm3
	vmovups	%ymm3, 352(%rsp)
	vmovups	%ymm2, 320(%rsp)
	vmovups	%ymm1, 288(%rsp)
	vmovups	%ymm0, 256(%rsp)
8:
	vmovups	256(%rsp), %ymm0
	vmovups	288(%rsp), %ymm1
	vmovups	320(%rsp), %ymm2
	vmovups	352(%rsp), %ymm3
	vmovups	%ymm3, 1376(%rsp)
	vmovups	%ymm2, 1344(%rsp)
	vmovups	%ymm1, 1312(%rsp)
	vmovups	%ymm0, 1280(%rsp)
	cmpb	$0, 240(%r13)
	je	9f
	testq	%r12, %r12
	je	10f
	movq	304(%r13), %rax
	movq	%r12, %rsi
	shlq	$7, %rsi
	addq	$-128, %rsi
	subq	%rsi, %rax
	addq	296(%r13), %rsi
	cmpq	$128, %rax
	movl	$128, %edx
	cmovbq	%rax, %rdx
	jmp	11f
9:
	movq	304(%r13), %rax
	movq	%r12, %rsi
	shlq	$7, %rsi
	subq	%rsi, %rax
	addq	296(%r13), %rsi
	cmpq	$128, %rax
	movl	$128, %edx
	cmovbq	%rax, %rdx
	vxorps	%xmm0, %xmm0, %xmm0
	vmovups	%ymm0, 96(%rsp)
	vmovups	%ymm0, 64(%rsp)
	vmovups	%ymm0, 32(%rsp)
	vmovups	%ymm0, (%rsp)
	movq	%rsp, %rdi
	vzeroupper
	vj_c_call	memcpy
	vmovups	(%rsp), %ymm0
	vmovups	32(%rsp), %ymm1
	vmovups	64(%rsp), %ymm2
	vmovups	96(%rsp), %ymm3
	vmovups	%ymm0, 256(%rsp)
	vmovups	%ymm1, 288(%rsp)
	vmovups	%ymm2, 320(%rsp)
	vmovups	%ymm3, 352(%rsp)
	jmp	12f
10:
	movq	248(%r13), %rsi
	movq	256(%r13), %rdx
11:
	vxorps	%xmm0, %xmm0, %xmm0
	vmovups	%ymm0, 96(%rsp)
	vmovups	%ymm0, 64(%rsp)
	vmovups	%ymm0, 32(%rsp)
	vmovups	%ymm0, (%rsp)
	movq	%rsp, %rdi
	vzeroupper
	vj_c_call	memcpy
	vmovups	(%rsp), %ymm0
	vmovups	32(%rsp), %ymm1
	vmovups	64(%rsp), %ymm2
	vmovups	96(%rsp), %ymm3
	vmovups	%ymm0, 128(%rsp)
	vmovups	%ymm1, 160(%rsp)
	vmovups	%ymm2, 192(%rsp)
	vmovups	%ymm3, 224(%rsp)
	vmovups	128(%rsp), %ymm0
	vmovups	160(%rsp), %ymm1
	vmovups	192(%rsp), %ymm2
	vmovups	224(%rsp), %ymm3
	vmovups	%ymm3, 352(%rsp)
	vmovups	%ymm2, 320(%rsp)
	vmovups	%ymm1, 288(%rsp)
	vmovups	%ymm0, 256(%rsp)
12:
	vmovups	256(%rsp), %ymm0
	vmovups	288(%rsp), %ymm1
	vmovups	320(%rsp), %ymm2
	vmovups	352(%rsp), %ymm3
	vmovups	%ymm3, 1248(%rsp)
	vmovups	%ymm2, 1216(%rsp)
	vmovups	%ymm1, 1184(%rsp)
	vmovups	%ymm0, 1152(%rsp)
	cmpb	$0, 344(%r13)
	je	13f
	testq	%r12, %r12
	je	15f
	movq	408(%r13), %rax
	movq	%r12, %rsi
	shlq	$7, %rsi
	addq	$-128, %rsi
	jmp	14f
13:
	movq	408(%r13), %rax
	movq	%r12, %rsi
	shlq	$7, %rsi
14:
	subq	%rsi, %rax
	addq	400(%r13), %rsi
	cmpq	$128, %rax
	movl	$128, %edx
	cmovbq	%rax, %rdx
	jmp	16f
15:
	movq	352(%r13), %rsi
	movq	360(%r13), %rdx
16:
	vxorps	%xmm0, %xmm0, %xmm0
	vmovups	%ymm0, 480(%rsp)
	vmovups	%ymm0, 448(%rsp)
	vmovups	%ymm0, 416(%rsp)
	vmovups	%ymm0, 384(%rsp)
	leaq	384(%rsp), %rdi
	vzeroupper
	vj_c_call	memcpy
	cmpb	$0, 448(%r13)
	je	17f
	testq	%r12, %r12
	je	19f
	movq	512(%r13), %rax
	movq	%r12, %rsi
	shlq	$7, %rsi
	addq	$-128, %rsi
	jmp	18f
17:
	movq	512(%r13), %rax
	movq	%r12, %rsi
	shlq	$7, %rsi
18:
	subq	%rsi, %rax
	addq	504(%r13), %rsi
	cmpq	$128, %rax
	movl	$128, %edx
	cmovbq	%rax, %rdx
	jmp	20f
19:
	movq	456(%r13), %rsi
	movq	464(%r13), %rdx
20:
	vxorps	%xmm0, %xmm0, %xmm0
	vmovups	%ymm0, 608(%rsp)
	vmovups	%ymm0, 576(%rsp)
	vmovups	%ymm0, 544(%rsp)
	vmovups	%ymm0, 512(%rsp)
	leaq	512(%rsp), %rdi
	vzeroupper
	vj_c_call	memcpy
	cmpb	$0, 552(%r13)
	je	21f
	testq	%r12, %r12
	je	23f
	movq	616(%r13), %rax
	movq	%r12, %rsi
	shlq	$7, %rsi
	addq	$-128, %rsi
	jmp	22f
21:
	movq	616(%r13), %rax
	movq	%r12, %rsi
	shlq	$7, %rsi
22:
	subq	%rsi, %rax
	addq	608(%r13), %rsi
	cmpq	$128, %rax
	movl	$128, %edx
	cmovbq	%rax, %rdx
	jmp	24f
23:
	movq	560(%r13), %rsi
	movq	568(%r13), %rdx
24:
	vxorps	%xmm0, %xmm0, %xmm0
	vmovups	%ymm0, 736(%rsp)
	vmovups	%ymm0, 704(%rsp)
	vmovups	%ymm0, 672(%rsp)
	vmovups	%ymm0, 640(%rsp)
	leaq	640(%rsp), %rdi
	vzeroupper
	vj_c_call	memcpy
	cmpb	$0, 656(%r13)
	je	25f
	testq	%r12, %r12
	je	27f
	movq	720(%r13), %rax
	movq	%r12, %rsi
	shlq	$7, %rsi
	addq	$-128, %rsi
	jmp	26f
25:
	movq	720(%r13), %rax
	movq	%r12, %rsi
	shlq	$7, %rsi
26:
	subq	%rsi, %rax
	addq	712(%r13), %rsi
	cmpq	$128, %rax
	movl	$128, %edx
	cmovbq	%rax, %rdx
	jmp	28f
27:
	movq	664(%r13), %rsi
	movq	672(%r13), %rdx
28:
	vxorps	%xmm0, %xmm0, %xmm0
	vmovups	%ymm0, 864(%rsp)
	vmovups	%ymm0, 832(%rsp)
	vmovups	%ymm0, 800(%rsp)
	vmovups	%ymm0, 768(%rsp)
	leaq	768(%rsp), %rdi
	vzeroupper
	vj_c_call	memcpy
	cmpb	$0, 760(%r13)
	je	29f
	testq	%r12, %r12
	je	31f
	movq	824(%r13), %rax
	shlq	$7, %r12
	addq	$-128, %r12
	jmp	30f
29:
	movq	824(%r13), %rax
	shlq	$7, %r12
30:
	subq	%r12, %rax
	addq	816(%r13), %r12
	cmpq	$128, %rax
	movl	$128, %edx
	cmovbq	%rax, %rdx
	vxorps	%xmm0, %xmm0, %xmm0
	vmovups	%ymm0, 992(%rsp)
	vmovups	%ymm0, 960(%rsp)
	vmovups	%ymm0, 928(%rsp)
	vmovups	%ymm0, 896(%rsp)
	leaq	896(%rsp), %rdi
	movq	%r12, %rsi
	jmp	32f
31:
	movq	768(%r13), %rsi
	movq	776(%r13), %rdx
	vxorps	%xmm0, %xmm0, %xmm0
	vmovups	%ymm0, 992(%rsp)
	vmovups	%ymm0, 960(%rsp)
	vmovups	%ymm0, 928(%rsp)
	vmovups	%ymm0, 896(%rsp)
	leaq	896(%rsp), %rdi
32:
	vzeroupper
	vj_c_call	memcpy
	vpbroadcastq	%r15, %ymm0
	vmovdqu	%ymm0, 1408(%rsp)
	vmovdqu	%ymm0, 1440(%rsp)
	vmovups	1472(%rsp), %ymm0
	vmovups	1504(%rsp), %ymm1
	vmovups	1536(%rsp), %ymm2
	vmovups	1568(%rsp), %ymm3
	vmovups	%ymm0, (%rsp)
	vmovups	%ymm1, 32(%rsp)
	vmovups	%ymm2, 64(%rsp)
	vmovups	%ymm3, 96(%rsp)
	vmovups	1280(%rsp), %ymm0
	vmovups	1312(%rsp), %ymm1
	vmovups	1344(%rsp), %ymm2
	vmovups	1376(%rsp), %ymm3
	vmovups	%ymm0, 256(%rsp)
	vmovups	%ymm1, 288(%rsp)
	vmovups	%ymm2, 320(%rsp)
	vmovups	%ymm3, 352(%rsp)
	vmovups	1152(%rsp), %ymm0
	vmovups	1184(%rsp), %ymm1
	vmovups	1216(%rsp), %ymm2
	vmovups	1248(%rsp), %ymm3
	vmovups	%ymm3, 224(%rsp)
	vmovups	%ymm2, 192(%rsp)
	vmovups	%ymm1, 160(%rsp)
	vmovups	%ymm0, 128(%rsp)
	vmovups	384(%rsp), %ymm0
	vmovups	416(%rsp), %ymm1
	vmovups	448(%rsp), %ymm2
	vmovups	480(%rsp), %ymm3
	vmovups	%ymm3, 2208(%rsp)
	vmovups	%ymm2, 2176(%rsp)
	vmovups	%ymm1, 2144(%rsp)
	vmovups	%ymm0, 2112(%rsp)
	vmovups	512(%rsp), %ymm0
	vmovups	544(%rsp), %ymm1
	vmovups	576(%rsp), %ymm2
	vmovups	608(%rsp), %ymm3
	vmovups	%ymm3, 2080(%rsp)
	vmovups	%ymm2, 2048(%rsp)
	vmovups	%ymm1, 2016(%rsp)
	vmovups	%ymm0, 1984(%rsp)
	vmovups	640(%rsp), %ymm0
	vmovups	672(%rsp), %ymm1
	vmovups	704(%rsp), %ymm2
	vmovups	736(%rsp), %ymm3
	vmovups	%ymm3, 1952(%rsp)
	vmovups	%ymm2, 1920(%rsp)
	vmovups	%ymm1, 1888(%rsp)
	vmovups	%ymm0, 1856(%rsp)
	vmovups	768(%rsp), %ymm0
	vmovups	800(%rsp), %ymm1
	vmovups	832(%rsp), %ymm2
	vmovups	864(%rsp), %ymm3
	vmovups	%ymm3, 1824(%rsp)
	vmovups	%ymm2, 1792(%rsp)
	vmovups	%ymm1, 1760(%rsp)
	vmovups	%ymm0, 1728(%rsp)
	vmovups	896(%rsp), %ymm0
	vmovups	928(%rsp), %ymm1
	vmovups	960(%rsp), %ymm2
	vmovups	992(%rsp), %ymm3
	vmovups	%ymm3, 1696(%rsp)
	vmovups	%ymm2, 1664(%rsp)
	vmovups	%ymm1, 1632(%rsp)
	vmovups	%ymm0, 1600(%rsp)
	movq	%rsp, %rax
	movq	%rax, 1024(%rsp)
	movq	$1, 1032(%rsp)
	leaq	256(%rsp), %rax
	movq	%rax, 1040(%rsp)
	movq	$1, 1048(%rsp)
	leaq	128(%rsp), %rax
	movq	%rax, 1056(%rsp)
	movq	$1, 1064(%rsp)
	leaq	2112(%rsp), %rax
	movq	%rax, 1072(%rsp)
	movq	$1, 1080(%rsp)
	leaq	1984(%rsp), %rax
	movq	%rax, 1088(%rsp)
	movq	$1, 1096(%rsp)
	leaq	1856(%rsp), %rax
	movq	%rax, 1104(%rsp)
	movq	$1, 1112(%rsp)
	leaq	1728(%rsp), %rax
	movq	%rax, 1120(%rsp)
	movq	$1, 1128(%rsp)
	leaq	1600(%rsp), %rax
	movq	%rax, 1136(%rsp)
	movq	$1, 1144(%rsp)
	leaq	1024(%rsp), %rsi
	leaq	1408(%rsp), %rdx
	movq	%r14, %rdi
	movq	%rbx, %rcx
	vzeroupper
	callq	blake2_compress..many..blake2b..eight..compress_blocks_1_v4
	addq	$2240, %rsp
	popq	%rbx
	popq	%r12
	popq	%r13
	popq	%r14
	popq	%r15
	retq
	vj_end	blake2_compress..many..blake2b..eight..compress_at_1_v4

	vj_function	blake2_compress..many..blake2b..output..64_1_v4
	vmovups	(%rsi), %ymm0
	vmovups	32(%rsi), %ymm1
	vmovups	%ymm0, (%rdi)
	vmovups	%ymm1, 32(%rdi)
	vzeroupper
	retq
	vj_end	blake2_compress..many..blake2b..output..64_1_v4

	vj_constants	32
	.p2align	5, 0x0
.L1_v4_CPI94_0:
	.quad	5840696475078001361
	.quad	-7276294671716946913
	.quad	2270897969802886507
	.quad	6620516959819538809
.L1_v4_CPI94_1:
	.long	0
	.long	8
	.long	2
	.long	3
	.long	4
	.long	5
	.long	6
	.long	7
.L1_v4_CPI94_2:
	.quad	7640891576956012808
	.quad	-4942790177534073029
	.quad	4354685564936845355
	.quad	-6534734903238641935
.L1_v4_CPI94_3:
	.quad	0
	.quad	1
	.quad	2
	.quad	4
.L1_v4_CPI94_4:
	.quad	0
	.quad	1
	.quad	5
	.zero	8
.L1_v4_CPI94_5:
	.quad	0
	.quad	1
	.quad	2
	.quad	5
.L1_v4_CPI94_6:
	.quad	0
	.quad	1
	.quad	2
	.quad	6
.L1_v4_CPI94_7:
	.quad	2
	.quad	3
	.quad	7
	.quad	7
	vj_constants	8
	.p2align	3, 0x0
.L1_v4_CPI94_8:
	.quad	256
	vj_function	blake2_compress..many..blake2b..outputs..64_1_v4
	pushq	%rbp
	movq	%rsp, %rbp
	pushq	%r15
	pushq	%r14
	pushq	%r13
	pushq	%r12
	pushq	%rbx
	andq	$-32, %rsp
	subq	$1344, %rsp
	movq	%rdx, %r14
	movq	%rsi, 416(%rsp)
	movq	%rdi, 120(%rsp)
	vxorps	%xmm0, %xmm0, %xmm0
	vmovaps	%ymm0, 832(%rsp)
	vmovaps	%ymm0, 800(%rsp)
	vmovaps	%ymm0, 768(%rsp)
	vmovaps	%ymm0, 736(%rsp)
	vmovaps	%ymm0, 704(%rsp)
	vmovaps	%ymm0, 672(%rsp)
	vmovaps	%ymm0, 640(%rsp)
	vmovaps	%ymm0, 608(%rsp)
	vmovaps	%ymm0, 864(%rsp)
	vmovaps	%ymm0, 896(%rsp)
	vmovaps	%ymm0, 928(%rsp)
	vmovaps	%ymm0, 960(%rsp)
	vmovaps	%ymm0, 992(%rsp)
	vmovaps	%ymm0, 1024(%rsp)
	vmovaps	%ymm0, 1056(%rsp)
	vmovaps	%ymm0, 1088(%rsp)
	vmovaps	%ymm0, 256(%rsp)
	vmovaps	%ymm0, 288(%rsp)
	vmovaps	%ymm0, 224(%rsp)
	vmovaps	%ymm0, 192(%rsp)
	movzbl	32(%rdx), %eax
	xorl	%ebx, %ebx
	movl	$0, %ecx
	movb	%al, 544(%rsp)
	testb	%al, %al
	je	1f
	movl	48(%r14), %eax
	shll	$8, %eax
	movzwl	%ax, %ecx
1:
	movl	%ecx, 160(%rsp)
	movq	(%r14), %rsi
	movq	8(%r14), %rdx
	movq	16(%r14), %r12
	movq	24(%r14), %r13
	movzwl	56(%r14), %eax
	movl	%eax, 448(%rsp)
	vmovss	60(%r14), %xmm1
	vmovaps	%ymm1, 480(%rsp)
	vmovsd	64(%r14), %xmm1
	vmovaps	%xmm1, 512(%rsp)
	movzwl	72(%r14), %eax
	movl	%eax, 128(%rsp)
	vmovaps	%ymm0, 32(%rsp)
	leaq	32(%rsp), %rdi
	vzeroupper
	vj_c_call	memcpy
	leaq	48(%rsp), %rdi
	movq	%r12, %rsi
	movq	%r13, %rdx
	vj_c_call	memcpy
	cmpb	$0, 136(%r14)
	je	2f
	movl	152(%r14), %eax
	shll	$8, %eax
	movzwl	%ax, %ebx
2:
	movl	%ebx, 384(%rsp)
	vmovaps	32(%rsp), %ymm0
	vmovaps	%ymm0, 1216(%rsp)
	movq	104(%r14), %rsi
	movq	112(%r14), %rdx
	movq	120(%r14), %r12
	movq	128(%r14), %r13
	movzwl	160(%r14), %ebx
	vmovss	164(%r14), %xmm0
	vmovaps	%ymm0, 1184(%rsp)
	vmovsd	168(%r14), %xmm0
	vmovaps	%xmm0, 592(%rsp)
	movzwl	176(%r14), %eax
	movl	%eax, 352(%rsp)
	vxorps	%xmm0, %xmm0, %xmm0
	vmovaps	%ymm0, 32(%rsp)
	leaq	32(%rsp), %rdi
	vzeroupper
	vj_c_call	memcpy
	leaq	48(%rsp), %rdi
	movq	%r12, %rsi
	movq	%r13, %rdx
	vj_c_call	memcpy
	cmpb	$0, 240(%r14)
	movl	$0, %eax
	je	3f
	movl	256(%r14), %eax
	shll	$8, %eax
	movzwl	%ax, %eax
3:
	movl	%eax, 28(%rsp)
	vmovaps	32(%rsp), %ymm0
	vmovaps	%ymm0, 1152(%rsp)
	movq	208(%r14), %rsi
	movq	216(%r14), %rdx
	movq	224(%r14), %r12
	movq	232(%r14), %r13
	movzwl	264(%r14), %r15d
	vmovss	268(%r14), %xmm0
	vmovaps	%ymm0, 1120(%rsp)
	vmovsd	272(%r14), %xmm0
	vmovaps	%xmm0, 576(%rsp)
	movzwl	280(%r14), %eax
	movl	%eax, 320(%rsp)
	vxorps	%xmm0, %xmm0, %xmm0
	vmovaps	%ymm0, 32(%rsp)
	leaq	32(%rsp), %rdi
	vzeroupper
	vj_c_call	memcpy
	leaq	48(%rsp), %rdi
	movq	%r12, %rsi
	movq	%r13, %rdx
	vj_c_call	memcpy
	vmovaps	32(%rsp), %ymm0
	cmpb	$0, 344(%r14)
	movl	$0, %edi
	je	4f
	movl	360(%r14), %eax
	shll	$8, %eax
	movzwl	%ax, %edi
4:
	vmovaps	.L1_v4_CPI94_0(%rip), %ymm4
	vxorps	%ymm4, %ymm0, %ymm0
	vmovaps	%ymm0, 1248(%rsp)
	shll	$16, %r15d
	addl	28(%rsp), %r15d
	movzbl	416(%rsp), %eax
	orl	%eax, %r15d
	vmovd	%r15d, %xmm0
	vmovq	%xmm0, %xmm1
	vpxor	%xmm0, %xmm0, %xmm0
	vmovdqa	.L1_v4_CPI94_1(%rip), %ymm2
	vpermt2d	1120(%rsp), %ymm2, %ymm1
	vpunpcklqdq	576(%rsp), %xmm1, %xmm1
	movl	320(%rsp), %ecx
	vpbroadcastw	%ecx, %ymm3
	vpblendw	$1, %ymm3, %ymm0, %ymm3
	vpblendd	$240, %ymm3, %ymm1, %ymm1
	vmovdqa	.L1_v4_CPI94_2(%rip), %ymm5
	vpxor	%ymm5, %ymm1, %ymm1
	vmovdqa	%ymm1, 320(%rsp)
	vxorps	1152(%rsp), %ymm4, %ymm1
	vmovaps	%ymm1, 416(%rsp)
	shll	$16, %ebx
	addl	384(%rsp), %ebx
	orl	%eax, %ebx
	vmovd	%ebx, %xmm1
	vmovq	%xmm1, %xmm1
	vpermt2d	1184(%rsp), %ymm2, %ymm1
	vpunpcklqdq	592(%rsp), %xmm1, %xmm1
	movl	352(%rsp), %ecx
	vpbroadcastw	%ecx, %ymm3
	vpblendw	$1, %ymm3, %ymm0, %ymm3
	vpblendd	$240, %ymm3, %ymm1, %ymm1
	vpxor	%ymm5, %ymm1, %ymm1
	vmovdqa	%ymm1, 352(%rsp)
	vxorps	1216(%rsp), %ymm4, %ymm1
	vmovaps	%ymm1, 384(%rsp)
	movl	448(%rsp), %ecx
	shll	$16, %ecx
	addl	160(%rsp), %ecx
	orl	%eax, %ecx
	vmovd	%ecx, %xmm1
	vmovq	%xmm1, %xmm1
	vpermt2d	480(%rsp), %ymm2, %ymm1
	vpunpcklqdq	512(%rsp), %xmm1, %xmm1
	movl	128(%rsp), %ecx
	vpbroadcastw	%ecx, %ymm2
	vpblendw	$1, %ymm2, %ymm0, %ymm2
	vpblendd	$240, %ymm2, %ymm1, %ymm1
	vpxor	%ymm5, %ymm1, %ymm1
	vmovdqa	%ymm1, 160(%rsp)
	movq	312(%r14), %rsi
	movq	320(%r14), %rdx
	movq	328(%r14), %r15
	movq	336(%r14), %r12
	movzwl	368(%r14), %ecx
	shll	$16, %ecx
	orl	%edi, %ecx
	orl	%eax, %ecx
	vmovd	%ecx, %xmm1
	vmovq	%xmm1, %xmm1
	vpbroadcastd	372(%r14), %xmm2
	vpblendd	$2, %ymm2, %ymm1, %ymm1
	vpunpcklqdq	376(%r14){1to2}, %xmm1, %xmm1
	vpbroadcastw	384(%r14), %ymm2
	vmovdqa	%ymm0, 32(%rsp)
	vpblendw	$1, %ymm2, %ymm0, %ymm0
	vpblendd	$240, %ymm0, %ymm1, %ymm0
	vmovdqa	%ymm0, 128(%rsp)
	leaq	32(%rsp), %rdi
	vzeroupper
	vj_c_call	memcpy
	leaq	48(%rsp), %rdi
	movq	%r15, %rsi
	movq	%r12, %rdx
	vj_c_call	memcpy
	vmovdqa	.L1_v4_CPI94_0(%rip), %ymm0
	vpxor	32(%rsp), %ymm0, %ymm0
	vmovdqa	128(%rsp), %ymm1
	vpxor	.L1_v4_CPI94_2(%rip), %ymm1, %ymm2
	vmovdqa	352(%rsp), %ymm9
	vmovdqa	160(%rsp), %ymm10
	vpunpcklqdq	%xmm9, %xmm10, %xmm1
	vmovdqa	320(%rsp), %ymm8
	vinserti128	$1, %xmm8, %ymm1, %ymm3
	vmovdqa	.L1_v4_CPI94_3(%rip), %ymm4
	vpermt2q	%ymm2, %ymm4, %ymm3
	vpunpckhqdq	%xmm9, %xmm10, %xmm5
	vmovdqa	.L1_v4_CPI94_4(%rip), %ymm6
	vpermt2q	%ymm8, %ymm6, %ymm5
	vmovdqa	.L1_v4_CPI94_5(%rip), %ymm7
	vpermt2q	%ymm2, %ymm7, %ymm5
	vpunpcklqdq	%ymm9, %ymm10, %ymm1
	vperm2i128	$49, %ymm8, %ymm1, %ymm1
	vmovdqa	%ymm8, %ymm11
	vmovdqa	.L1_v4_CPI94_6(%rip), %ymm8
	vpermt2q	%ymm2, %ymm8, %ymm1
	vpunpckhqdq	%ymm9, %ymm10, %ymm9
	vmovdqa	.L1_v4_CPI94_7(%rip), %ymm10
	vpermt2q	%ymm11, %ymm10, %ymm9
	vpblendd	$192, %ymm2, %ymm9, %ymm2
	vmovdqa	416(%rsp), %ymm12
	vmovdqa	384(%rsp), %ymm13
	vpunpcklqdq	%xmm12, %xmm13, %xmm9
	vmovdqa	1248(%rsp), %ymm11
	vinserti128	$1, %xmm11, %ymm9, %ymm9
	vpermt2q	%ymm0, %ymm4, %ymm9
	vpunpckhqdq	%xmm12, %xmm13, %xmm4
	vpermt2q	%ymm11, %ymm6, %ymm4
	vpermt2q	%ymm0, %ymm7, %ymm4
	vpunpcklqdq	%ymm12, %ymm13, %ymm6
	vperm2i128	$49, %ymm11, %ymm6, %ymm6
	vpermt2q	%ymm0, %ymm8, %ymm6
	vpunpckhqdq	%ymm12, %ymm13, %ymm7
	vpermt2q	%ymm11, %ymm10, %ymm7
	vmovdqa	%ymm3, 608(%rsp)
	vmovdqa	%ymm5, 640(%rsp)
	vmovdqa	%ymm1, 672(%rsp)
	vmovdqa	%ymm2, 704(%rsp)
	vmovdqa	%ymm9, 736(%rsp)
	vmovdqa	%ymm4, 768(%rsp)
	vmovdqa	%ymm6, 800(%rsp)
	vpblendd	$192, %ymm0, %ymm7, %ymm0
	vmovdqa	%ymm0, 832(%rsp)
	movq	96(%r14), %rax
	leaq	128(%rax), %rcx
	cmpb	$0, 544(%rsp)
	cmoveq	%rax, %rcx
	cmpq	$1, %rcx
	movq	%rcx, %rbx
	adcq	$-1, %rbx
	shrq	$7, %rbx
	je	5f
	movq	$0, 112(%rsp)
	xorl	%r13d, %r13d
	leaq	608(%rsp), %rdi
	movl	$128, %r15d
	leaq	112(%rsp), %r8
	movl	$128, %ecx
	movq	%r14, %rsi
	xorl	%edx, %edx
	vzeroupper
	callq	blake2_compress..many..blake2b..compress_at_1_v4
	decq	%rbx
	movq	96(%r14), %rax
	cmpq	$128, %rax
	movl	$128, %ecx
	cmovbq	%rax, %rcx
	leaq	128(%rax), %r12
	cmpb	$0, 32(%r14)
	cmovneq	%r13, %rcx
	cmoveq	%rax, %r12
	addq	88(%r14), %rcx
	movq	%rcx, 32(%rsp)
	movq	%rbx, 40(%rsp)
	movq	200(%r14), %rax
	cmpq	$128, %rax
	cmovaeq	%r15, %rax
	cmpb	$0, 136(%r14)
	cmovneq	%r13, %rax
	addq	192(%r14), %rax
	movq	%rax, 48(%rsp)
	movq	%rbx, 56(%rsp)
	movq	304(%r14), %rax
	cmpq	$128, %rax
	cmovaeq	%r15, %rax
	cmpb	$0, 240(%r14)
	cmovneq	%r13, %rax
	addq	296(%r14), %rax
	movq	%rax, 64(%rsp)
	movq	%rbx, 72(%rsp)
	movq	408(%r14), %rax
	cmpq	$128, %rax
	cmovbq	%rax, %r15
	cmpb	$0, 344(%r14)
	cmovneq	%r13, %r15
	addq	400(%r14), %r15
	movq	%r15, 80(%rsp)
	movq	%rbx, 88(%rsp)
	vpbroadcastq	.L1_v4_CPI94_8(%rip), %ymm0
	vmovdqu	%ymm0, 1288(%rsp)
	leaq	32(%rsp), %rsi
	leaq	1288(%rsp), %rdx
	leaq	608(%rsp), %rdi
	leaq	112(%rsp), %rcx
	vzeroupper
	callq	blake2_compress..many..blake2b..compress_blocks_1_v4
	movq	%r12, %rcx
	cmpq	$1, %r12
	movq	%r12, %rdx
	adcq	$-1, %rdx
	shrq	$7, %rdx
	jmp	6f
5:
	xorl	%edx, %edx
6:
	movzbl	80(%r14), %eax
	movzbl	288(%r14), %esi
	movzbl	392(%r14), %edi
	shlq	$56, %rdi
	shlq	$40, %rsi
	movzbl	184(%r14), %r8d
	shll	$24, %r8d
	shll	$8, %eax
	orl	%r8d, %eax
	orq	%rsi, %rax
	orq	%rdi, %rax
	movabsq	$281479271743489, %rsi
	orq	%rax, %rsi
	movq	%rsi, 32(%rsp)
	leaq	608(%rsp), %rdi
	leaq	32(%rsp), %r8
	movq	%r14, %rsi
	vzeroupper
	callq	blake2_compress..many..blake2b..compress_at_1_v4
	vmovdqa	608(%rsp), %ymm0
	vmovdqa	640(%rsp), %ymm1
	vmovdqa	672(%rsp), %ymm2
	vmovdqa	704(%rsp), %ymm3
	vpunpcklqdq	%ymm1, %ymm0, %ymm4
	vpunpckhqdq	%ymm1, %ymm0, %ymm0
	vpunpcklqdq	%ymm3, %ymm2, %ymm1
	vpunpckhqdq	%ymm3, %ymm2, %ymm2
	vinserti128	$1, %xmm1, %ymm4, %ymm3
	vinserti128	$1, %xmm2, %ymm0, %ymm5
	vmovdqa	%ymm5, 512(%rsp)
	vperm2i128	$49, %ymm1, %ymm4, %ymm1
	vmovdqa	%ymm1, 160(%rsp)
	vperm2i128	$49, %ymm2, %ymm0, %ymm0
	vmovdqa	%ymm0, 544(%rsp)
	vmovdqa	736(%rsp), %ymm0
	vmovdqa	768(%rsp), %ymm1
	vmovdqa	800(%rsp), %ymm2
	vmovdqa	832(%rsp), %ymm4
	vpunpcklqdq	%ymm1, %ymm0, %ymm5
	vpunpckhqdq	%ymm1, %ymm0, %ymm0
	vpunpcklqdq	%ymm4, %ymm2, %ymm1
	vpunpckhqdq	%ymm4, %ymm2, %ymm2
	vinserti128	$1, %xmm1, %ymm5, %ymm4
	vinserti128	$1, %xmm2, %ymm0, %ymm6
	vmovdqa	%ymm6, 448(%rsp)
	vperm2i128	$49, %ymm1, %ymm5, %ymm1
	vmovdqa	%ymm1, 480(%rsp)
	vperm2i128	$49, %ymm2, %ymm0, %ymm0
	vmovdqa	%ymm0, 128(%rsp)
	vmovdqa	%ymm3, 192(%rsp)
	vmovdqa	%ymm4, 224(%rsp)
	leaq	256(%rsp), %r14
	leaq	192(%rsp), %r15
	movq	%r14, %rdi
	movq	%r15, %rsi
	vzeroupper
	callq	blake2_compress..many..blake2b..output..64_1_v4
	vmovaps	256(%rsp), %ymm0
	vmovaps	288(%rsp), %ymm1
	vmovaps	%ymm1, 896(%rsp)
	vmovaps	%ymm0, 864(%rsp)
	vmovaps	512(%rsp), %ymm0
	vmovaps	%ymm0, 192(%rsp)
	vmovaps	448(%rsp), %ymm0
	vmovaps	%ymm0, 224(%rsp)
	movq	%r14, %rdi
	movq	%r15, %rsi
	vzeroupper
	callq	blake2_compress..many..blake2b..output..64_1_v4
	vmovaps	256(%rsp), %ymm0
	vmovaps	288(%rsp), %ymm1
	vmovaps	%ymm1, 960(%rsp)
	vmovaps	%ymm0, 928(%rsp)
	vmovaps	160(%rsp), %ymm0
	vmovaps	%ymm0, 192(%rsp)
	vmovaps	480(%rsp), %ymm0
	vmovaps	%ymm0, 224(%rsp)
	movq	%r14, %rdi
	movq	%r15, %rsi
	vzeroupper
	callq	blake2_compress..many..blake2b..output..64_1_v4
	vmovaps	256(%rsp), %ymm0
	vmovaps	288(%rsp), %ymm1
	vmovaps	%ymm1, 1024(%rsp)
	vmovaps	%ymm0, 992(%rsp)
	vmovaps	544(%rsp), %ymm0
	vmovaps	%ymm0, 192(%rsp)
	vmovaps	128(%rsp), %ymm0
	vmovaps	%ymm0, 224(%rsp)
	movq	%r14, %rdi
	movq	%r15, %rsi
	vzeroupper
	callq	blake2_compress..many..blake2b..output..64_1_v4
	vmovaps	256(%rsp), %ymm0
	vmovaps	288(%rsp), %ymm1
	vmovaps	%ymm1, 1088(%rsp)
	vmovaps	%ymm0, 1056(%rsp)
	movq	120(%rsp), %rax
	vmovups	%ymm1, 224(%rax)
	vmovups	%ymm0, 192(%rax)
	vmovaps	1024(%rsp), %ymm0
	vmovups	%ymm0, 160(%rax)
	vmovaps	992(%rsp), %ymm0
	vmovups	%ymm0, 128(%rax)
	vmovaps	864(%rsp), %ymm0
	vmovaps	896(%rsp), %ymm1
	vmovaps	928(%rsp), %ymm2
	vmovaps	960(%rsp), %ymm3
	vmovups	%ymm3, 96(%rax)
	vmovups	%ymm2, 64(%rax)
	vmovups	%ymm1, 32(%rax)
	vmovups	%ymm0, (%rax)
	leaq	-40(%rbp), %rsp
	popq	%rbx
	popq	%r12
	popq	%r13
	popq	%r14
	popq	%r15
	popq	%rbp
	vzeroupper
	retq
	vj_end	blake2_compress..many..blake2b..outputs..64_1_v4

	vj_function	blake2_compress..many..blake2b..compress_at_1_v4
	pushq	%r15
	pushq	%r14
	pushq	%r13
	pushq	%r12
	pushq	%rbx
	subq	$1120, %rsp
	movq	%r8, %rbx
	movq	%rcx, %r15
	movq	%rdx, %r12
	movq	%rsi, %r13
	movq	%rdi, %r14
	vxorps	%xmm0, %xmm0, %xmm0
	vmovups	%ymm0, 576(%rsp)
	cmpb	$0, 32(%rsi)
	je	1f
	testq	%r12, %r12
	je	3f
	movq	96(%r13), %rax
	movq	%r12, %rsi
	shlq	$7, %rsi
	addq	$-128, %rsi
	jmp	2f
1:
	movq	96(%r13), %rax
	movq	%r12, %rsi
	shlq	$7, %rsi
2:
	subq	%rsi, %rax
	addq	88(%r13), %rsi
	cmpq	$128, %rax
	movl	$128, %edx
	cmovbq	%rax, %rdx
	jmp	4f
3:
	movq	40(%r13), %rsi
	movq	48(%r13), %rdx
4:
	vmovups	%ymm0, 96(%rsp)
	vmovups	%ymm0, 64(%rsp)
	vmovups	%ymm0, 32(%rsp)
	vmovups	%ymm0, (%rsp)
	movq	%rsp, %rdi
	vzeroupper
	vj_c_call	memcpy
	cmpb	$0, 136(%r13)
	je	5f
	testq	%r12, %r12
	je	7f
	movq	200(%r13), %rax
	movq	%r12, %rsi
	shlq	$7, %rsi
	addq	$-128, %rsi
	jmp	6f
5:
	movq	200(%r13), %rax
	movq	%r12, %rsi
	shlq	$7, %rsi
6:
	subq	%rsi, %rax
	addq	192(%r13), %rsi
	cmpq	$128, %rax
	movl	$128, %edx
	cmovbq	%rax, %rdx
	jmp	8f
7:
	movq	144(%r13), %rsi
	movq	152(%r13), %rdx
8:
	vxorps	%xmm0, %xmm0, %xmm0
	vmovups	%ymm0, 224(%rsp)
	vmovups	%ymm0, 192(%rsp)
	vmovups	%ymm0, 160(%rsp)
	vmovups	%ymm0, 128(%rsp)
	leaq	128(%rsp), %rdi
	vzeroupper
	vj_c_call	memcpy
	cmpb	$0, 240(%r13)
	je	9f
	testq	%r12, %r12
	je	11f
	movq	304(%r13), %rax
	movq	%r12, %rsi
	shlq	$7, %rsi
	addq	$-128, %rsi
	jmp	10f
9:
	movq	304(%r13), %rax
	movq	%r12, %rsi
	shlq	$7, %rsi
10:
	subq	%rsi, %rax
	addq	296(%r13), %rsi
	cmpq	$128, %rax
	movl	$128, %edx
	cmovbq	%rax, %rdx
	jmp	12f
11:
	movq	248(%r13), %rsi
	movq	256(%r13), %rdx
12:
	vxorps	%xmm0, %xmm0, %xmm0
	vmovups	%ymm0, 352(%rsp)
	vmovups	%ymm0, 320(%rsp)
	vmovups	%ymm0, 288(%rsp)
	vmovups	%ymm0, 256(%rsp)
	leaq	256(%rsp), %rdi
	vzeroupper
	vj_c_call	memcpy
	cmpb	$0, 344(%r13)
	je	13f
	testq	%r12, %r12
	je	15f
	movq	408(%r13), %rax
	shlq	$7, %r12
	addq	$-128, %r12
	jmp	14f
13:
	movq	408(%r13), %rax
	shlq	$7, %r12
14:
	subq	%r12, %rax
	addq	400(%r13), %r12
	cmpq	$128, %rax
	movl	$128, %edx
	cmovbq	%rax, %rdx
	vxorps	%xmm0, %xmm0, %xmm0
	vmovups	%ymm0, 480(%rsp)
	vmovups	%ymm0, 448(%rsp)
	vmovups	%ymm0, 416(%rsp)
	vmovups	%ymm0, 384(%rsp)
	leaq	384(%rsp), %rdi
	movq	%r12, %rsi
	jmp	16f
15:
	movq	352(%r13), %rsi
	movq	360(%r13), %rdx
	vxorps	%xmm0, %xmm0, %xmm0
	vmovups	%ymm0, 480(%rsp)
	vmovups	%ymm0, 448(%rsp)
	vmovups	%ymm0, 416(%rsp)
	vmovups	%ymm0, 384(%rsp)
	leaq	384(%rsp), %rdi
16:
	vzeroupper
	vj_c_call	memcpy
	vpbroadcastq	%r15, %ymm0
	vmovdqu	%ymm0, 576(%rsp)
	vmovups	(%rsp), %ymm0
	vmovups	32(%rsp), %ymm1
	vmovups	64(%rsp), %ymm2
	vmovups	96(%rsp), %ymm3
	vmovups	%ymm0, 992(%rsp)
	vmovups	%ymm1, 1024(%rsp)
	vmovups	%ymm2, 1056(%rsp)
	vmovups	%ymm3, 1088(%rsp)
	vmovups	128(%rsp), %ymm0
	vmovups	160(%rsp), %ymm1
	vmovups	192(%rsp), %ymm2
	vmovups	224(%rsp), %ymm3
	vmovups	%ymm0, 864(%rsp)
	vmovups	%ymm1, 896(%rsp)
	vmovups	%ymm2, 928(%rsp)
	vmovups	%ymm3, 960(%rsp)
	vmovups	256(%rsp), %ymm0
	vmovups	288(%rsp), %ymm1
	vmovups	320(%rsp), %ymm2
	vmovups	352(%rsp), %ymm3
	vmovups	%ymm3, 832(%rsp)
	vmovups	%ymm2, 800(%rsp)
	vmovups	%ymm1, 768(%rsp)
	vmovups	%ymm0, 736(%rsp)
	vmovups	384(%rsp), %ymm0
	vmovups	416(%rsp), %ymm1
	vmovups	448(%rsp), %ymm2
	vmovups	480(%rsp), %ymm3
	vmovups	%ymm3, 704(%rsp)
	vmovups	%ymm2, 672(%rsp)
	vmovups	%ymm1, 640(%rsp)
	vmovups	%ymm0, 608(%rsp)
	leaq	992(%rsp), %rax
	movq	%rax, 512(%rsp)
	movq	$1, 520(%rsp)
	leaq	864(%rsp), %rax
	movq	%rax, 528(%rsp)
	movq	$1, 536(%rsp)
	leaq	736(%rsp), %rax
	movq	%rax, 544(%rsp)
	movq	$1, 552(%rsp)
	leaq	608(%rsp), %rax
	movq	%rax, 560(%rsp)
	movq	$1, 568(%rsp)
	leaq	512(%rsp), %rsi
	leaq	576(%rsp), %rdx
	movq	%r14, %rdi
	movq	%rbx, %rcx
	vzeroupper
	callq	blake2_compress..many..blake2b..compress_blocks_1_v4
	addq	$1120, %rsp
	popq	%rbx
	popq	%r12
	popq	%r13
	popq	%r14
	popq	%r15
	retq
	vj_end	blake2_compress..many..blake2b..compress_at_1_v4

	vj_function	blake2_tree..thread_plan..Plan..of_1_v4
	pushq	%r15
	pushq	%r14
	pushq	%rbx
	testl	%ecx, %ecx
	je	15f
	movq	%rdx, %r14
	movl	%ecx, %ecx
	movq	16(%rsi), %rax
	movq	%rax, %rdx
	shrq	$32, %rdx
	je	1f
	xorl	%edx, %edx
	divq	%rcx
	movq	%rax, %r11
	jmp	2f
1:
	xorl	%edx, %edx
	divl	%ecx
	movl	%eax, %r11d
2:
	shrq	$2, %r11
	cmpq	$1, %r11
	adcq	$0, %r11
	movq	%r9, %rax
	shrq	$32, %rax
	je	3f
	movq	%r9, %rax
	xorl	%edx, %edx
	divq	%rcx
	movq	%rax, %r10
	jmp	4f
3:
	movl	%r9d, %eax
	xorl	%edx, %edx
	divl	%ecx
	movl	%eax, %r10d
4:
	xorl	%eax, %eax
	testq	%rdx, %rdx
	setne	%al
	leaq	(%r10,%rax), %rdx
	cmpq	$1, %rdx
	adcq	%rax, %r10
	testq	%r14, %r14
	je	15f
	movq	%r10, %rax
	orq	%r14, %rax
	shrq	$32, %rax
	je	5f
	movq	%r10, %rax
	xorl	%edx, %edx
	divq	%r14
	movq	%rax, %rbx
	cmpq	$1, %rdx
	sbbq	$-1, %rbx
	cmpq	$4, %rbx
	jae	6f
	jmp	9f
5:
	movl	%r10d, %eax
	xorl	%edx, %edx
	divl	%r14d
	movl	%eax, %ebx
	cmpq	$1, %rdx
	sbbq	$-1, %rbx
	cmpq	$4, %rbx
	jb	9f
6:
	xorl	%eax, %eax
	testb	$3, %bl
	setne	%al
	leaq	(%rbx,%rax,4), %r15
	andq	$-4, %r15
	je	15f
	movq	%r10, %rax
	orq	%r15, %rax
	shrq	$32, %rax
	je	7f
	movq	%r10, %rax
	xorl	%edx, %edx
	divq	%r15
	jmp	8f
7:
	movl	%r10d, %eax
	xorl	%edx, %edx
	divl	%r15d
8:
	cmpq	$1, %rdx
	sbbq	$-1, %rax
	andq	$-4, %rbx
	cmpq	%rax, %r14
	cmovbeq	%r15, %rbx
9:
	shlq	$2, %r11
	cmpq	%r11, %rbx
	cmovbq	%rbx, %r11
	movq	%r11, %rdx
	imulq	%rcx, %rdx
	movq	24(%rsi), %rax
	cmpq	%rax, %rdx
	jbe	12f
	movq	%rax, %rdx
	shrq	$32, %rdx
	je	10f
	xorl	%edx, %edx
	divq	%rcx
	movq	%rax, %r11
	jmp	11f
10:
	xorl	%edx, %edx
	divl	%ecx
	movl	%eax, %r11d
11:
	andq	$-4, %r11
	cmpq	$1, %r11
	adcq	$0, %r11
12:
	imulq	%rcx, %r11
	testq	%r11, %r11
	je	15f
	movq	32(%rsp), %rsi
	movq	%r9, %rax
	orq	%r11, %rax
	shrq	$32, %rax
	je	13f
	movq	%r9, %rax
	xorl	%edx, %edx
	divq	%r11
	jmp	14f
13:
	movl	%r9d, %eax
	xorl	%edx, %edx
	divl	%r11d
14:
	cmpq	$1, %rdx
	sbbq	$-1, %rax
	cmpq	%rax, %rsi
	cmovaq	%rsi, %rax
	addq	%r8, %r9
	cmpq	%r14, %rax
	cmovbq	%rax, %r14
	shlq	$6, %r10
	testq	%rax, %rax
	cmoveq	%rax, %r10
	movq	%r8, (%rdi)
	movq	%r9, 8(%rdi)
	movq	$0, 16(%rdi)
	movq	%rcx, 24(%rdi)
	movq	%r11, 32(%rdi)
	movq	%rax, 40(%rdi)
	movq	%r14, 48(%rdi)
	movq	%r10, 56(%rdi)
	movq	%rsi, 64(%rdi)
	popq	%rbx
	popq	%r14
	popq	%r15
	retq
15:
	ud2
	vj_end	blake2_tree..thread_plan..Plan..of_1_v4

	vj_constants	32
	.p2align	5, 0x0
.L1_v4_CPI97_0:
	.short	64
	.short	512
	.zero	2
	.zero	2
	.zero	2
	.zero	2
	.zero	2
	.zero	2
	.zero	2
	.short	0
	.short	0
	.short	0
	.short	0
	.short	0
	.short	0
	.short	0
.L1_v4_CPI97_1:
	.short	16384
	.short	512
	.zero	2
	.zero	2
	.zero	2
	.zero	2
	.zero	2
	.zero	2
	.short	16384
	.short	0
	.short	0
	.short	0
	.short	0
	.short	0
	.short	0
	.short	0
.L1_v4_CPI97_2:
	.quad	7640891576956012808
	.quad	-4942790177534073029
	.quad	4354685564936845355
	.quad	-6534734903238641935
.L1_v4_CPI97_3:
	.quad	5840696475078001361
	.quad	-7276294671716946913
	.quad	2270897969802886507
	.quad	6620516959819538809
	vj_constants	16
	.p2align	2, 0x0
.L1_v4_CPI97_4:
	.short	64
	.short	512
	.short	0
	.short	0
	.short	0
	.short	0
	.short	0
	.short	0
	vj_function	blake2_state..tree..TreeState..update_1_v4
	pushq	%rbp
	movq	%rsp, %rbp
	pushq	%r15
	pushq	%r14
	pushq	%r13
	pushq	%r12
	pushq	%rbx
	andq	$-32, %rsp
	subq	$864, %rsp
	movq	%rdi, %rbx
	movq	696(%rdi), %rcx
	movl	136(%rdi), %eax
	movq	128(%rdi), %rdi
	addq	%rax, %rdi
	subq	%rdi, %rcx
	cmpq	%rcx, %rdx
	jbe	5f
	movq	%rbx, %rdi
	jmp	2f
	.p2align	4
1:
	movq	%rbx, %rdi
	movq	%r13, %rsi
2:
	vzeroupper
	callq	blake2_state..tree..TreeState..close_leaf_1_v4
	movq	%rax, %r13
	movq	696(%rbx), %r12
	cmpq	%rdx, %r12
	jae	4f
3:
	leaq	(,%r12,4), %rax
	cmpq	%rdx, %rax
	jae	1b
	movq	704(%rbx), %r14
	movq	712(%rbx), %r15
	vxorps	%xmm0, %xmm0, %xmm0
	vmovaps	%xmm0, 64(%rsp)
	leaq	64(%rsp), %rdi
	leaq	720(%rbx), %rsi
	movq	%rsi, 40(%rsp)
	movq	%rdx, 16(%rsp)
	movq	%r14, %rdx
	vzeroupper
	vj_c_call	memcpy
	vxorps	%xmm0, %xmm0, %xmm0
	vmovaps	%xmm0, 80(%rsp)
	leaq	80(%rsp), %rdi
	leaq	736(%rbx), %rsi
	movq	%rsi, 32(%rsp)
	movq	%r15, %rdx
	vj_c_call	memcpy
	vmovaps	64(%rsp), %xmm0
	vmovaps	%xmm0, 272(%rsp)
	movq	%r14, 288(%rsp)
	vmovaps	80(%rsp), %xmm0
	leaq	296(%rsp), %rax
	vmovups	%xmm0, (%rax)
	movq	%r15, 312(%rsp)
	movl	%r12d, 320(%rsp)
	vxorps	%xmm0, %xmm0, %xmm0
	leaq	584(%rsp), %rax
	vmovups	%ymm0, 224(%rax)
	vmovups	%ymm0, 192(%rax)
	vmovups	%ymm0, 160(%rax)
	vmovups	%ymm0, 128(%rax)
	vmovups	%ymm0, 96(%rax)
	vmovups	%ymm0, 64(%rax)
	vmovups	%ymm0, 32(%rax)
	movl	$0, 324(%rsp)
	vmovups	%ymm0, (%rax)
	movq	688(%rbx), %rsi
	leaq	272(%rsp), %rdi
	leaq	328(%rsp), %r8
	movq	%r13, %rdx
	movq	16(%rsp), %rcx
	vzeroupper
	vj_call	blake2_tree..nodes..Nodes..hash_next_1_v4
	movq	%rax, %r14
	movq	%r13, 56(%rsp)
	movq	696(%rbx), %rax
	movq	%rax, 192(%rsp)
	imulq	%r14, %rax
	movq	%rax, 48(%rsp)
	movq	%r14, %r15
	shlq	$6, %r15
	movq	704(%rbx), %r13
	movq	712(%rbx), %r12
	movq	%r12, 24(%rsp)
	vxorps	%xmm0, %xmm0, %xmm0
	vmovaps	%xmm0, 96(%rsp)
	leaq	96(%rsp), %rdi
	movq	40(%rsp), %rsi
	movq	%r13, %rdx
	vj_c_call	memcpy
	vxorps	%xmm0, %xmm0, %xmm0
	vmovaps	%xmm0, 112(%rsp)
	leaq	112(%rsp), %rdi
	movq	32(%rsp), %rsi
	movq	%r12, %rdx
	vj_c_call	memcpy
	vmovaps	96(%rsp), %xmm0
	vmovaps	%xmm0, 128(%rsp)
	movq	%r13, 144(%rsp)
	vmovaps	112(%rsp), %xmm0
	leaq	152(%rsp), %rax
	vmovups	%xmm0, (%rax)
	movq	%r12, 168(%rsp)
	movq	192(%rsp), %r12
	movl	%r12d, 176(%rsp)
	movl	$0, 180(%rsp)
	leaq	344(%rbx), %rdi
	leaq	328(%rsp), %rsi
	movq	%r15, %rdx
	callq	blake2_state..blake2b..State..absorb_blocks_1_v4
	addq	688(%rbx), %r14
	movq	%r14, 688(%rbx)
	vxorps	%xmm0, %xmm0, %xmm0
	vmovaps	%ymm0, 224(%rsp)
	vpbroadcastd	%r12d, %xmm0
	movq	56(%rsp), %r15
	vmovd	.L1_v4_CPI97_4(%rip), %xmm1
	vpunpckldq	%xmm0, %xmm1, %xmm0
	vmovq	%r14, %xmm1
	vpunpcklqdq	%xmm1, %xmm0, %xmm0
	vpblendd	$240, .L1_v4_CPI97_1(%rip), %ymm0, %ymm0
	vmovdqa	%ymm0, 192(%rsp)
	leaq	224(%rsp), %rdi
	leaq	128(%rsp), %rsi
	movq	%r13, %rdx
	vzeroupper
	vj_c_call	memcpy
	leaq	240(%rsp), %rdi
	leaq	152(%rsp), %rsi
	movq	24(%rsp), %rdx
	vj_c_call	memcpy
	movq	16(%rsp), %rdx
	vmovaps	224(%rsp), %ymm0
	vmovaps	192(%rsp), %ymm1
	vxorps	.L1_v4_CPI97_2(%rip), %ymm1, %ymm1
	vxorps	.L1_v4_CPI97_3(%rip), %ymm0, %ymm0
	vmovups	%ymm1, (%rbx)
	vmovups	%ymm0, 32(%rbx)
	vmovups	%ymm1, 64(%rbx)
	vmovups	%ymm0, 96(%rbx)
	leaq	128(%rbx), %rax
	vxorps	%xmm0, %xmm0, %xmm0
	vmovups	%xmm0, (%rax)
	movl	$64, 144(%rbx)
	leaq	148(%rbx), %rax
	vxorps	%xmm0, %xmm0, %xmm0
	vmovups	%ymm0, 160(%rax)
	vmovups	%ymm0, 128(%rax)
	vmovups	%ymm0, 96(%rax)
	vmovups	%ymm0, 64(%rax)
	vmovups	%ymm0, 32(%rax)
	vmovups	%ymm0, (%rax)
	movl	$0, 192(%rax)
	movq	48(%rsp), %rax
	addq	%rax, %r15
	movq	%r15, %r13
	subq	%rax, %rdx
	movq	696(%rbx), %r12
	cmpq	%rdx, %r12
	jb	3b
4:
	cmpq	$1, %rdx
	jne	8f
	movl	136(%rbx), %eax
	cmpq	$128, %rax
	jae	7f
	movzbl	(%r13), %ecx
	jmp	6f
5:
	cmpq	$1, %rdx
	jne	10f
	cmpl	$128, %eax
	jae	9f
	movzbl	(%rsi), %ecx
6:
	movb	%cl, 152(%rbx,%rax)
	incl	%eax
	movl	%eax, 136(%rbx)
	jmp	12f
7:
	movl	$1, %edx
8:
	movq	%rbx, %rdi
	movq	%r13, %rsi
	jmp	11f
9:
	movl	$1, %edx
10:
	movq	%rbx, %rdi
11:
	vzeroupper
	callq	blake2_state..blake2b..State..absorb_blocks_1_v4
12:
	leaq	-40(%rbp), %rsp
	popq	%rbx
	popq	%r12
	popq	%r13
	popq	%r14
	popq	%r15
	popq	%rbp
	vzeroupper
	retq
	vj_end	blake2_state..tree..TreeState..update_1_v4

	vj_constants	32
	.p2align	5, 0x0
.L1_v4_CPI98_0:
	.short	64
	.short	512
	.zero	2
	.zero	2
	.zero	2
	.zero	2
	.zero	2
	.zero	2
	.zero	2
	.short	0
	.short	0
	.short	0
	.short	0
	.short	0
	.short	0
	.short	0
.L1_v4_CPI98_1:
	.short	16384
	.short	512
	.zero	2
	.zero	2
	.zero	2
	.zero	2
	.zero	2
	.zero	2
	.short	16384
	.short	0
	.short	0
	.short	0
	.short	0
	.short	0
	.short	0
	.short	0
.L1_v4_CPI98_2:
	.quad	7640891576956012808
	.quad	-4942790177534073029
	.quad	4354685564936845355
	.quad	-6534734903238641935
.L1_v4_CPI98_3:
	.quad	5840696475078001361
	.quad	-7276294671716946913
	.quad	2270897969802886507
	.quad	6620516959819538809
	vj_constants	16
	.p2align	2, 0x0
.L1_v4_CPI98_4:
	.short	64
	.short	512
	.short	0
	.short	0
	.short	0
	.short	0
	.short	0
	.short	0
	vj_function	blake2_state..tree..TreeState..close_leaf_1_v4
	pushq	%rbp
	movq	%rsp, %rbp
	pushq	%r15
	pushq	%r14
	pushq	%r13
	pushq	%r12
	pushq	%rbx
	andq	$-32, %rsp
	subq	$288, %rsp
	movq	%rdx, %rbx
	movq	%rsi, %r14
	movq	%rdi, %r15
	movq	696(%rdi), %r12
	movl	136(%rdi), %eax
	movq	128(%rdi), %rcx
	addq	%rax, %rcx
	subq	%rcx, %r12
	cmpq	$1, %r12
	jne	1f
	cmpl	$128, %eax
	jae	2f
	movzbl	(%r14), %ecx
	movb	%cl, 152(%r15,%rax)
	incl	%eax
	movl	%eax, 136(%r15)
	jmp	4f
1:
	movq	%r15, %rdi
	movq	%r14, %rsi
	movq	%r12, %rdx
	jmp	3f
2:
	movl	$1, %edx
	movq	%r15, %rdi
	movq	%r14, %rsi
3:
	callq	blake2_state..blake2b..State..absorb_blocks_1_v4
4:
	subq	%r12, %rbx
	movq	%rbx, 24(%rsp)
	addq	%r12, %r14
	movq	%r14, 16(%rsp)
	movq	704(%r15), %r13
	leaq	720(%r15), %rsi
	movq	712(%r15), %r12
	leaq	736(%r15), %rbx
	movl	696(%r15), %r14d
	vxorps	%xmm0, %xmm0, %xmm0
	vmovaps	%xmm0, 32(%rsp)
	leaq	32(%rsp), %rdi
	movq	%r13, %rdx
	vj_c_call	memcpy
	vxorps	%xmm0, %xmm0, %xmm0
	vmovaps	%xmm0, 48(%rsp)
	leaq	48(%rsp), %rdi
	movq	%rbx, %rsi
	movq	%r12, %rdx
	vj_c_call	memcpy
	vmovaps	32(%rsp), %xmm0
	vmovaps	%xmm0, 64(%rsp)
	movq	%r13, 80(%rsp)
	vmovaps	48(%rsp), %xmm0
	vmovups	%xmm0, 88(%rsp)
	movq	%r12, 104(%rsp)
	movl	%r14d, 112(%rsp)
	movl	$0, 116(%rsp)
	movl	$0, 148(%r15)
	vxorps	%xmm0, %xmm0, %xmm0
	vmovaps	%ymm0, 224(%rsp)
	vmovaps	%ymm0, 192(%rsp)
	leaq	192(%rsp), %rbx
	movq	%r15, %rdi
	movq	%rbx, %rsi
	vzeroupper
	callq	blake2_state..blake2b..State..write_digest_1_v4
	movl	$64, %edx
	leaq	344(%r15), %rdi
	movq	%rbx, %rsi
	callq	blake2_state..blake2b..State..absorb_blocks_1_v4
	movq	688(%r15), %rax
	incq	%rax
	movq	%rax, 688(%r15)
	vxorps	%xmm0, %xmm0, %xmm0
	vmovaps	%ymm0, 128(%rsp)
	vpbroadcastd	%r14d, %xmm0
	vmovd	.L1_v4_CPI98_4(%rip), %xmm1
	vpunpckldq	%xmm0, %xmm1, %xmm0
	vmovq	%rax, %xmm1
	vpunpcklqdq	%xmm1, %xmm0, %xmm0
	vpblendd	$240, .L1_v4_CPI98_1(%rip), %ymm0, %ymm0
	vmovdqa	%ymm0, 160(%rsp)
	leaq	128(%rsp), %rdi
	leaq	64(%rsp), %rsi
	movq	%r13, %rdx
	vzeroupper
	vj_c_call	memcpy
	leaq	144(%rsp), %rdi
	leaq	88(%rsp), %rsi
	movq	%r12, %rdx
	vj_c_call	memcpy
	vmovaps	128(%rsp), %ymm0
	vmovaps	160(%rsp), %ymm1
	vxorps	.L1_v4_CPI98_2(%rip), %ymm1, %ymm1
	vxorps	.L1_v4_CPI98_3(%rip), %ymm0, %ymm0
	vmovups	%ymm1, (%r15)
	vmovups	%ymm0, 32(%r15)
	vmovups	%ymm1, 64(%r15)
	vmovups	%ymm0, 96(%r15)
	leaq	128(%r15), %rax
	vxorps	%xmm0, %xmm0, %xmm0
	vmovups	%xmm0, (%rax)
	movl	$64, 144(%r15)
	vxorps	%xmm0, %xmm0, %xmm0
	vmovups	%ymm0, 148(%r15)
	vmovups	%ymm0, 180(%r15)
	vmovups	%ymm0, 212(%r15)
	vmovups	%ymm0, 244(%r15)
	vmovups	%ymm0, 276(%r15)
	vmovups	%ymm0, 308(%r15)
	movl	$0, 340(%r15)
	movq	16(%rsp), %rax
	movq	24(%rsp), %rdx
	leaq	-40(%rbp), %rsp
	popq	%rbx
	popq	%r12
	popq	%r13
	popq	%r14
	popq	%r15
	popq	%rbp
	vzeroupper
	retq
	vj_end	blake2_state..tree..TreeState..close_leaf_1_v4

	vj_constants	32
	.p2align	5, 0x0
.L1_v4_CPI99_0:
	.zero	2
	.zero	2
	.zero	2
	.zero	2
	.short	0
	.short	0
	.short	0
	.short	0
	.short	16385
	.zero	2
	.zero	2
	.zero	2
	.zero	2
	.zero	2
	.zero	2
	.zero	2
.L1_v4_CPI99_1:
	.quad	7640891576956012808
	.quad	-4942790177534073029
	.quad	4354685564936845355
	.quad	-6534734903238641935
.L1_v4_CPI99_2:
	.zero	2
	.zero	2
	.zero	2
	.zero	2
	.short	0
	.short	0
	.short	0
	.short	0
	.short	16384
	.zero	2
	.zero	2
	.zero	2
	.zero	2
	.zero	2
	.zero	2
	.zero	2
.L1_v4_CPI99_7:
	.quad	5840696475078001361
	.quad	-7276294671716946913
	.quad	2270897969802886507
	.quad	6620516959819538809
	vj_constants	8
	.p2align	3, 0x0
.L1_v4_CPI99_3:
	.quad	5840696475078001361
.L1_v4_CPI99_4:
	.quad	-7276294671716946913
.L1_v4_CPI99_5:
	.quad	2270897969802886507
.L1_v4_CPI99_6:
	.quad	6620516959819538809
	vj_function	blake2_ffi..blake2bp..write_1_v4
	pushq	%rbp
	pushq	%r15
	pushq	%r14
	pushq	%r13
	pushq	%r12
	pushq	%rbx
	subq	$3072, %rsp
	movq	$0, (%rsp)
	subq	$1192, %rsp
	movq	%rsi, %r12
	vxorps	%xmm0, %xmm0, %xmm0
	vmovups	%ymm0, 2440(%rsp)
	vmovups	%ymm0, 2424(%rsp)
	vmovups	%ymm0, 2392(%rsp)
	vmovups	%ymm0, 2360(%rsp)
	vmovups	%ymm0, 2328(%rsp)
	vmovups	%ymm0, 2296(%rsp)
	vmovups	%ymm0, 2264(%rsp)
	vmovups	%ymm0, 2232(%rsp)
	vmovups	%ymm0, 2200(%rsp)
	vmovups	%ymm0, 2168(%rsp)
	leaq	-1(%rsi), %rax
	cmpq	$64, %rax
	setae	%al
	cmpq	$65, %r9
	setae	%sil
	orb	%al, %sil
	jne	1f
	movq	%r9, %r13
	movq	%rdx, 8(%rsp)
	movq	%rcx, 24(%rsp)
	movq	%rdi, 16(%rsp)
	vmovups	%ymm0, 128(%rsp)
	vmovups	%ymm0, 96(%rsp)
	vmovups	%ymm0, 64(%rsp)
	vmovups	%ymm0, 32(%rsp)
	leaq	32(%rsp), %rdi
	movq	%r8, %rsi
	movq	%r9, %rdx
	vzeroupper
	vj_c_call	memcpy
	testq	%r13, %r13
	je	2f
	vmovups	32(%rsp), %ymm0
	vmovups	64(%rsp), %ymm1
	vmovups	96(%rsp), %ymm2
	vmovups	128(%rsp), %ymm3
	vmovups	%ymm3, 416(%rsp)
	vmovups	%ymm2, 384(%rsp)
	vmovups	%ymm1, 352(%rsp)
	vmovups	%ymm0, 320(%rsp)
	vmovups	%ymm0, 448(%rsp)
	vmovups	%ymm1, 480(%rsp)
	vmovups	%ymm2, 512(%rsp)
	vmovups	%ymm3, 544(%rsp)
	vmovups	%ymm0, 576(%rsp)
	vmovups	%ymm1, 608(%rsp)
	vmovups	%ymm2, 640(%rsp)
	vmovups	%ymm3, 672(%rsp)
	vmovups	%ymm0, 704(%rsp)
	vmovups	%ymm1, 736(%rsp)
	vmovups	%ymm2, 768(%rsp)
	vmovups	%ymm3, 800(%rsp)
	vxorps	%xmm0, %xmm0, %xmm0
	vmovups	%ymm0, 3336(%rsp)
	vmovups	%ymm0, 3304(%rsp)
	vmovups	%ymm0, 3272(%rsp)
	vmovups	%ymm0, 3240(%rsp)
	vmovups	%ymm0, 3208(%rsp)
	vmovups	%ymm0, 3176(%rsp)
	vmovups	%ymm0, 3144(%rsp)
	vmovups	%ymm0, 3112(%rsp)
	vmovups	%ymm0, 3080(%rsp)
	vmovups	%ymm0, 3048(%rsp)
	vmovups	%ymm0, 3016(%rsp)
	vmovups	%ymm0, 2984(%rsp)
	leaq	2472(%rsp), %rdi
	leaq	320(%rsp), %rsi
	movl	$512, %ebp
	movl	$512, %edx
	vzeroupper
	vj_c_call	memcpy
	jmp	3f
1:
	movl	$-1, %eax
	jmp	4f
2:
	leaq	2472(%rsp), %rdi
	xorl	%ebp, %ebp
	movl	$896, %edx
	xorl	%esi, %esi
	vj_c_call	memset
3:
	shll	$8, %r13d
	leal	(%r12,%r13), %eax
	addl	$33816576, %eax
	vmovd	%eax, %xmm0
	movw	$496, %ax
	kmovd	%eax, %k1
	vpblendmw	.L1_v4_CPI99_0(%rip), %ymm0, %ymm1 {%k1}
	vmovdqa	.L1_v4_CPI99_1(%rip), %ymm2
	vpxor	%ymm2, %ymm1, %ymm1
	vmovdqu	%ymm1, 288(%rsp)
	vmovdqu16	.L1_v4_CPI99_2(%rip), %ymm0 {%k1}
	vpxor	%ymm2, %ymm0, %ymm0
	vmovdqu	%ymm0, 160(%rsp)
	leaq	3368(%rsp), %r13
	leaq	2472(%rsp), %rsi
	movl	$896, %edx
	movq	%r13, %rdi
	vzeroupper
	vj_c_call	memcpy
	vmovdqu	160(%rsp), %ymm0
	vpbroadcastq	%xmm0, %ymm1
	vmovdqu	%ymm1, 256(%rsp)
	vmovdqu	%ymm1, 840(%rsp)
	vpextrq	$1, %xmm0, 872(%rsp)
	movabsq	$-4942790177534073032, %rbx
	leaq	2(%rbx), %r15
	movq	%r15, 880(%rsp)
	leaq	1(%rbx), %r14
	movq	%r14, 888(%rsp)
	movq	%rbx, 896(%rsp)
	vpermq	$170, %ymm0, %ymm1
	vmovdqu	%ymm1, 224(%rsp)
	vmovdqu	%ymm1, 904(%rsp)
	vpermq	$255, %ymm0, %ymm1
	vmovdqu	%ymm1, 192(%rsp)
	vmovdqu	%ymm1, 936(%rsp)
	vbroadcastsd	.L1_v4_CPI99_3(%rip), %ymm0
	vmovups	%ymm0, 968(%rsp)
	vbroadcastsd	.L1_v4_CPI99_4(%rip), %ymm0
	vmovups	%ymm0, 1000(%rsp)
	vbroadcastsd	.L1_v4_CPI99_5(%rip), %ymm0
	vmovups	%ymm0, 1032(%rsp)
	vbroadcastsd	.L1_v4_CPI99_6(%rip), %ymm0
	vmovups	%ymm0, 1064(%rsp)
	movq	$0, 1096(%rsp)
	movq	%rbp, 1104(%rsp)
	leaq	1112(%rsp), %rdi
	movl	$896, %edx
	movq	%r13, %rsi
	vzeroupper
	vj_c_call	memcpy
	vmovups	256(%rsp), %ymm0
	vmovups	%ymm0, 2008(%rsp)
	vmovdqu	160(%rsp), %ymm0
	vpextrq	$1, %xmm0, 2040(%rsp)
	movq	%r15, 2048(%rsp)
	movq	%r14, 2056(%rsp)
	movq	%rbx, 2064(%rsp)
	vmovups	224(%rsp), %ymm0
	vmovups	%ymm0, 2072(%rsp)
	vmovups	192(%rsp), %ymm0
	vmovups	%ymm0, 2104(%rsp)
	vbroadcastsd	.L1_v4_CPI99_3(%rip), %ymm0
	vmovups	%ymm0, 2136(%rsp)
	vbroadcastsd	.L1_v4_CPI99_4(%rip), %ymm0
	vmovups	%ymm0, 2168(%rsp)
	vbroadcastsd	.L1_v4_CPI99_5(%rip), %ymm0
	vmovups	%ymm0, 2200(%rsp)
	vbroadcastsd	.L1_v4_CPI99_6(%rip), %ymm0
	vmovups	%ymm0, 2232(%rsp)
	vmovups	288(%rsp), %ymm0
	vmovups	%ymm0, 2264(%rsp)
	vmovaps	.L1_v4_CPI99_7(%rip), %ymm0
	vmovups	%ymm0, 2296(%rsp)
	movq	%rbp, 2328(%rsp)
	movq	%r12, 2336(%rsp)
	vmovups	32(%rsp), %ymm0
	vmovups	64(%rsp), %ymm1
	vmovups	96(%rsp), %ymm2
	vmovups	128(%rsp), %ymm3
	vmovups	%ymm0, 2344(%rsp)
	vmovups	%ymm1, 2376(%rsp)
	vmovups	%ymm2, 2408(%rsp)
	vmovups	%ymm3, 2440(%rsp)
	movl	$-1, %eax
	movq	24(%rsp), %rdx
	addq	%rdx, %rbp
	jb	4f
	leaq	840(%rsp), %r12
	movq	%r12, %rdi
	movq	8(%rsp), %rsi
	vzeroupper
	vj_call	blake2_parallel..lanes..blake2bp..Lanes..update_1_v4
	movq	%r12, %rdi
	movq	16(%rsp), %rsi
	callq	blake2_parallel..blake2bp..State..write_digest_1_v4
	xorl	%eax, %eax
4:
	addq	$4264, %rsp
	popq	%rbx
	popq	%r12
	popq	%r13
	popq	%r14
	popq	%r15
	popq	%rbp
	vzeroupper
	retq
	vj_end	blake2_ffi..blake2bp..write_1_v4

	vj_function	blake2_digest..wiping..scrub_stack..8704_1_v4
	pushq	%rbx
	subq	$3072, %rsp
	movq	$0, (%rsp)
	subq	$3072, %rsp
	movq	$0, (%rsp)
	subq	$2560, %rsp
	movq	%rsp, %rbx
	movl	$8704, %edx
	movq	%rbx, %rdi
	xorl	%esi, %esi
	vj_c_call	memset
	movq	%rbx, %rdi
	callq	blake2_digest..wiping..settle..8704_1_v4
	addq	$8704, %rsp
	popq	%rbx
	vpxord	%xmm16, %xmm16, %xmm16
	vpxord	%xmm17, %xmm17, %xmm17
	vpxord	%xmm18, %xmm18, %xmm18
	vpxord	%xmm19, %xmm19, %xmm19
	vpxord	%xmm20, %xmm20, %xmm20
	vpxord	%xmm21, %xmm21, %xmm21
	vpxord	%xmm22, %xmm22, %xmm22
	vpxord	%xmm23, %xmm23, %xmm23
	vpxord	%xmm24, %xmm24, %xmm24
	vpxord	%xmm25, %xmm25, %xmm25
	vpxord	%xmm26, %xmm26, %xmm26
	vpxord	%xmm27, %xmm27, %xmm27
	vpxord	%xmm28, %xmm28, %xmm28
	vpxord	%xmm29, %xmm29, %xmm29
	vpxord	%xmm30, %xmm30, %xmm30
	vpxord	%xmm31, %xmm31, %xmm31
	retq
	vj_end	blake2_digest..wiping..scrub_stack..8704_1_v4

	vj_function	blake2_digest..wiping..settle..8704_1_v4
	vpxor	%xmm0, %xmm0, %xmm0
	movl	$480, %eax
	vpxor	%xmm2, %xmm2, %xmm2
	vpxor	%xmm3, %xmm3, %xmm3
	vpxor	%xmm1, %xmm1, %xmm1
	.p2align	4
1:
	vmovdqu	-480(%rdi,%rax), %ymm4
	vmovdqu	-448(%rdi,%rax), %ymm5
	vmovdqu	-416(%rdi,%rax), %ymm6
	vmovdqu	-384(%rdi,%rax), %ymm7
	vpternlogq	$254, -352(%rdi,%rax), %ymm2, %ymm4
	vpternlogq	$254, -320(%rdi,%rax), %ymm3, %ymm5
	vpternlogq	$254, -288(%rdi,%rax), %ymm1, %ymm6
	vpternlogq	$254, -256(%rdi,%rax), %ymm0, %ymm7
	vmovdqu	-224(%rdi,%rax), %ymm2
	vmovdqu	-192(%rdi,%rax), %ymm3
	vmovdqu	-160(%rdi,%rax), %ymm1
	vmovdqu	-128(%rdi,%rax), %ymm0
	vpternlogq	$254, -96(%rdi,%rax), %ymm4, %ymm2
	vpternlogq	$254, -64(%rdi,%rax), %ymm5, %ymm3
	vpternlogq	$254, -32(%rdi,%rax), %ymm6, %ymm1
	vpternlogq	$254, (%rdi,%rax), %ymm7, %ymm0
	addq	$512, %rax
	cmpq	$9184, %rax
	jne	1b
	vpor	%ymm2, %ymm3, %ymm2
	vpternlogq	$254, %ymm2, %ymm1, %ymm0
	vptest	%ymm0, %ymm0
	je	2f
	pause
2:
	vzeroupper
	retq
	vj_end	blake2_digest..wiping..settle..8704_1_v4

	vj_function	blake2_ffi..blake2sp..write_1_v4
	pushq	%rbp
	pushq	%r15
	pushq	%r14
	pushq	%r13
	pushq	%r12
	pushq	%rbx
	subq	$3072, %rsp
	movq	$0, (%rsp)
	subq	$200, %rsp
	movq	%r9, %r12
	movq	%r8, %r13
	movq	%rcx, 24(%rsp)
	movq	%rdx, %r14
	movq	%rsi, %rbp
	movq	%rdi, %r15
	leaq	1664(%rsp), %rbx
	movl	$1608, %edx
	movq	%rbx, %rdi
	xorl	%esi, %esi
	vj_c_call	memset
	leaq	.L1_v4_static.2(%rip), %r8
	movq	%r8, (%rsp)
	movq	$0, 8(%rsp)
	movq	%rbx, %rdi
	movq	%rbp, %rsi
	movq	%r13, %rdx
	movq	%r12, %rcx
	xorl	%r9d, %r9d
	callq	blake2_parallel..blake2sp..State..init_salt_personal_1_v4
	movl	$-1, %ebp
	cmpb	$0, 1664(%rsp)
	jne	1f
	leaq	1672(%rsp), %rsi
	leaq	64(%rsp), %rdi
	movl	$1600, %edx
	vj_c_call	memcpy
	movq	320(%rsp), %rax
	shlq	$3, %rax
	addq	328(%rsp), %rax
	movq	24(%rsp), %rdx
	addq	%rdx, %rax
	jb	1f
	leaq	64(%rsp), %rbx
	movq	%rbx, %rdi
	movq	%r14, %rsi
	vj_call	blake2_parallel..lanes..blake2sp..Lanes..update_1_v4
	leaq	32(%rsp), %r14
	movq	%r14, %rdi
	movq	%rbx, %rsi
	callq	blake2_parallel..blake2sp..State..output_1_v4
	movq	1592(%rsp), %rdx
	movq	%r15, %rdi
	movq	%r14, %rsi
	vj_c_call	memcpy
	xorl	%ebp, %ebp
1:
	movl	%ebp, %eax
	addq	$3272, %rsp
	popq	%rbx
	popq	%r12
	popq	%r13
	popq	%r14
	popq	%r15
	popq	%rbp
	retq
	vj_end	blake2_ffi..blake2sp..write_1_v4

	vj_constants	32
	.p2align	5, 0x0
.L1_v4_CPI103_0:
	.quad	0
	.quad	4
	.quad	2
	.quad	3
.L1_v4_CPI103_1:
	.short	65535
	.short	65535
	.short	65535
	.short	65535
	.short	65535
	.short	65535
	.short	65535
	.short	65535
	.short	0
	.short	65535
	.short	65535
	.short	65535
	.short	65535
	.short	65535
	.short	65535
	.short	65535
.L1_v4_CPI103_2:
	.quad	4
	.quad	0
	.quad	6
	.quad	7
.L1_v4_CPI103_3:
	.short	64
	.short	257
	.short	0
	.short	0
	.zero	2
	.zero	2
	.zero	2
	.zero	2
	.zero	2
	.short	0
	.short	0
	.short	0
	.short	0
	.short	0
	.short	0
	.short	0
.L1_v4_CPI103_4:
	.quad	7640891576956012808
	.quad	-4942790177534073029
	.quad	4354685564936845355
	.quad	-6534734903238641935
.L1_v4_CPI103_5:
	.quad	5840696475078001361
	.quad	-7276294671716946913
	.quad	2270897969802886507
	.quad	6620516959819538809
	vj_function	blake2_ffi..blake2xb..write_1_v4
	movl	$-1, %eax
	movl	$4294967295, %r10d
	cmpq	%r10, %rsi
	jae	7f
	testq	%rsi, %rsi
	sete	%r10b
	cmpq	$65, %r9
	setae	%r11b
	orb	%r10b, %r11b
	jne	7f
	pushq	%rbp
	pushq	%r15
	pushq	%r14
	pushq	%r13
	pushq	%r12
	pushq	%rbx
	subq	$824, %rsp
	movq	%rdi, %rbx
	vmovq	%rsi, %xmm0
	vpsllq	$32, %xmm0, %xmm0
	testq	%r9, %r9
	je	1f
	movl	%r9d, %eax
	shll	$8, %eax
	orl	$16842816, %eax
	vmovd	%eax, %xmm1
	vmovdqa	.L1_v4_CPI103_0(%rip), %ymm2
	vpermi2q	%ymm0, %ymm1, %ymm2
	vpand	.L1_v4_CPI103_1(%rip), %ymm2, %ymm0
	vmovdqu	%ymm0, 192(%rsp)
	movl	$64, %edi
	subq	%r9, %rdi
	xorl	%eax, %eax
	cmpq	$64, %r9
	cmovbq	%rdi, %rax
	leaq	(%rsp,%r9), %rdi
	movq	%rsi, %r12
	xorl	%esi, %esi
	movq	%rdx, %r13
	movq	%rax, %rdx
	movq	%rcx, %rbp
	movq	%r9, %r14
	movq	%r8, %r15
	vzeroupper
	vj_c_call	memset
	movq	%rsp, %rdi
	movq	%r15, %rsi
	movq	%r14, %r15
	movq	%r14, %rdx
	vj_c_call	memcpy
	vmovdqu	192(%rsp), %ymm1
	movl	$-1, %eax
	movq	%rbp, %rcx
	movq	%r13, %rdx
	movq	%r12, %rsi
	vpxor	%xmm0, %xmm0, %xmm0
	vmovdqu	%ymm0, 128(%rsp)
	vmovdqu	%ymm0, 160(%rsp)
	vmovups	(%rsp), %ymm0
	vmovups	%ymm0, 64(%rsp)
	vmovdqu	32(%rsp), %ymm0
	vmovdqu	%ymm0, 96(%rsp)
	movl	$128, %edi
	jmp	2f
1:
	movq	%r9, %r15
	vmovdqa	.L1_v4_CPI103_2(%rip), %ymm1
	vpermi2q	.L1_v4_CPI103_3(%rip), %ymm0, %ymm1
	vpand	.L1_v4_CPI103_1(%rip), %ymm1, %ymm1
	vpxor	%xmm0, %xmm0, %xmm0
	vmovdqu	%ymm0, 160(%rsp)
	vmovdqu	%ymm0, 128(%rsp)
	vmovdqu	%ymm0, 96(%rsp)
	vmovdqu	%ymm0, 64(%rsp)
	vmovdqu	%ymm0, (%rsp)
	vmovdqu	%ymm0, 32(%rsp)
	xorl	%edi, %edi
2:
	vpxor	.L1_v4_CPI103_4(%rip), %ymm1, %ymm0
	vpxor	%xmm1, %xmm1, %xmm1
	vmovdqu	%ymm1, 224(%rsp)
	vmovdqu	%ymm1, 256(%rsp)
	vmovdqu	%ymm1, 288(%rsp)
	vmovdqu	%ymm0, 320(%rsp)
	vpxor	%xmm1, %xmm1, %xmm1
	vmovaps	.L1_v4_CPI103_5(%rip), %ymm2
	vmovups	%ymm2, 352(%rsp)
	vmovdqu	%ymm0, 384(%rsp)
	vmovups	%ymm2, 416(%rsp)
	movq	$0, 448(%rsp)
	movl	%edi, 456(%rsp)
	movl	%edi, 460(%rsp)
	movq	$64, 464(%rsp)
	vmovups	64(%rsp), %ymm0
	vmovups	96(%rsp), %ymm2
	vmovups	128(%rsp), %ymm3
	vmovups	160(%rsp), %ymm4
	vmovups	%ymm0, 472(%rsp)
	vmovups	%ymm2, 504(%rsp)
	vmovups	%ymm3, 536(%rsp)
	vmovups	%ymm4, 568(%rsp)
	vmovups	(%rsp), %ymm0
	vmovups	32(%rsp), %ymm2
	vmovups	%ymm2, 632(%rsp)
	vmovups	%ymm0, 600(%rsp)
	vmovups	256(%rsp), %ymm0
	vmovups	288(%rsp), %ymm2
	vmovups	%ymm2, 728(%rsp)
	vmovups	%ymm0, 696(%rsp)
	vmovups	224(%rsp), %ymm0
	vmovups	%ymm0, 664(%rsp)
	movq	%rsi, 760(%rsp)
	vmovdqu	%xmm1, 768(%rsp)
	movl	%edi, %edi
	movq	%rdi, %r8
	addq	%rcx, %r8
	jb	6f
	movq	%rsi, %r14
	cmpq	$1, %rcx
	jne	3f
	testq	%r15, %r15
	je	4f
	leaq	320(%rsp), %rdi
	movq	%rdx, %rsi
	movl	$1, %edx
	vzeroupper
	callq	blake2_state..blake2b..State..absorb_blocks_1_v4
	jmp	5f
3:
	leaq	320(%rsp), %rdi
	movq	%rdx, %rsi
	movq	%rcx, %rdx
	vzeroupper
	callq	blake2_state..blake2b..State..absorb_blocks_1_v4
	jmp	5f
4:
	movzbl	(%rdx), %eax
	movb	%al, 472(%rsp,%rdi)
	orl	$1, %edi
	movl	%edi, 456(%rsp)
5:
	leaq	320(%rsp), %rdi
	movq	%rbx, %rsi
	movq	%r14, %rdx
	vzeroupper
	vj_call	blake2_xof..blake2xb..State..squeeze_1_v4
	xorl	%eax, %eax
6:
	addq	$824, %rsp
	popq	%rbx
	popq	%r12
	popq	%r13
	popq	%r14
	popq	%r15
	popq	%rbp
7:
	vzeroupper
	retq
	vj_end	blake2_ffi..blake2xb..write_1_v4

	vj_function	blake2_digest..wiping..scrub_stack..7168_1_v4
	pushq	%rbx
	subq	$3072, %rsp
	movq	$0, (%rsp)
	subq	$3072, %rsp
	movq	$0, (%rsp)
	subq	$1024, %rsp
	movq	%rsp, %rbx
	movl	$7168, %edx
	movq	%rbx, %rdi
	xorl	%esi, %esi
	vj_c_call	memset
	movq	%rbx, %rdi
	callq	blake2_digest..wiping..settle..7168_1_v4
	addq	$7168, %rsp
	popq	%rbx
	vpxord	%xmm16, %xmm16, %xmm16
	vpxord	%xmm17, %xmm17, %xmm17
	vpxord	%xmm18, %xmm18, %xmm18
	vpxord	%xmm19, %xmm19, %xmm19
	vpxord	%xmm20, %xmm20, %xmm20
	vpxord	%xmm21, %xmm21, %xmm21
	vpxord	%xmm22, %xmm22, %xmm22
	vpxord	%xmm23, %xmm23, %xmm23
	vpxord	%xmm24, %xmm24, %xmm24
	vpxord	%xmm25, %xmm25, %xmm25
	vpxord	%xmm26, %xmm26, %xmm26
	vpxord	%xmm27, %xmm27, %xmm27
	vpxord	%xmm28, %xmm28, %xmm28
	vpxord	%xmm29, %xmm29, %xmm29
	vpxord	%xmm30, %xmm30, %xmm30
	vpxord	%xmm31, %xmm31, %xmm31
	retq
	vj_end	blake2_digest..wiping..scrub_stack..7168_1_v4

	vj_function	blake2_digest..wiping..settle..7168_1_v4
	vpxor	%xmm0, %xmm0, %xmm0
	movl	$480, %eax
	vpxor	%xmm2, %xmm2, %xmm2
	vpxor	%xmm3, %xmm3, %xmm3
	vpxor	%xmm1, %xmm1, %xmm1
	.p2align	4
1:
	vmovdqu	-480(%rdi,%rax), %ymm4
	vmovdqu	-448(%rdi,%rax), %ymm5
	vmovdqu	-416(%rdi,%rax), %ymm6
	vmovdqu	-384(%rdi,%rax), %ymm7
	vpternlogq	$254, -352(%rdi,%rax), %ymm2, %ymm4
	vpternlogq	$254, -320(%rdi,%rax), %ymm3, %ymm5
	vpternlogq	$254, -288(%rdi,%rax), %ymm1, %ymm6
	vpternlogq	$254, -256(%rdi,%rax), %ymm0, %ymm7
	vmovdqu	-224(%rdi,%rax), %ymm2
	vmovdqu	-192(%rdi,%rax), %ymm3
	vmovdqu	-160(%rdi,%rax), %ymm1
	vmovdqu	-128(%rdi,%rax), %ymm0
	vpternlogq	$254, -96(%rdi,%rax), %ymm4, %ymm2
	vpternlogq	$254, -64(%rdi,%rax), %ymm5, %ymm3
	vpternlogq	$254, -32(%rdi,%rax), %ymm6, %ymm1
	vpternlogq	$254, (%rdi,%rax), %ymm7, %ymm0
	addq	$512, %rax
	cmpq	$7648, %rax
	jne	1b
	vpor	%ymm2, %ymm3, %ymm2
	vpternlogq	$254, %ymm2, %ymm1, %ymm0
	vptest	%ymm0, %ymm0
	je	2f
	pause
2:
	vzeroupper
	retq
	vj_end	blake2_digest..wiping..settle..7168_1_v4

	vj_constants	16
	.p2align	4, 0x0
.L1_v4_CPI106_0:
	.short	32
	.short	257
	.short	0
	.short	0
	.zero	2
	.zero	2
	.zero	2
	.zero	2
.L1_v4_CPI106_1:
	.long	1779033703
	.long	3144134277
	.long	1013904242
	.long	2773480762
.L1_v4_CPI106_2:
	.long	1359893119
	.long	2600822924
	.long	528734635
	.long	1541459225
.L1_v4_CPI106_3:
	.short	32
	.short	257
	.short	0
	.short	0
	.short	0
	.short	0
	.short	0
	.short	0
	vj_function	blake2_ffi..blake2xs..write_1_v4
	movl	$-1, %eax
	cmpq	$65535, %rsi
	jae	7f
	testq	%rsi, %rsi
	sete	%r10b
	cmpq	$33, %r9
	setae	%r11b
	orb	%r10b, %r11b
	jne	7f
	pushq	%rbp
	pushq	%r15
	pushq	%r14
	pushq	%r13
	pushq	%r12
	pushq	%rbx
	subq	$360, %rsp
	movq	%rdi, %rbx
	movq	%rsi, %rdi
	shlq	$32, %rdi
	testq	%r9, %r9
	je	1f
	movl	%r9d, %eax
	shll	$8, %eax
	orl	$16842784, %eax
	vmovd	%eax, %xmm0
	vpmovzxdq	%xmm0, %xmm0
	vmovq	%rdi, %xmm1
	vpunpcklqdq	%xmm1, %xmm0, %xmm0
	vpxor	%xmm1, %xmm1, %xmm1
	vpblendw	$128, %xmm1, %xmm0, %xmm0
	vmovdqa	%xmm0, 32(%rsp)
	movl	$32, %edi
	subq	%r9, %rdi
	xorl	%eax, %eax
	cmpq	$32, %r9
	cmovbq	%rdi, %rax
	leaq	(%rsp,%r9), %rdi
	movq	%rsi, %r12
	xorl	%esi, %esi
	movq	%rdx, %r13
	movq	%rax, %rdx
	movq	%rcx, %rbp
	movq	%r9, %r14
	movq	%r8, %r15
	vj_c_call	memset
	movq	%rsp, %rdi
	movq	%r15, %rsi
	movq	%r14, %r15
	movq	%r14, %rdx
	vj_c_call	memcpy
	movl	$-1, %eax
	movq	%rbp, %rcx
	movq	%r13, %rdx
	movq	%r12, %rsi
	vpxor	%xmm0, %xmm0, %xmm0
	vmovdqu	%ymm0, 80(%rsp)
	vmovups	(%rsp), %ymm0
	vmovups	%ymm0, 48(%rsp)
	vmovdqa	32(%rsp), %xmm0
	movw	$64, %di
	jmp	2f
1:
	movq	%r9, %r15
	vmovq	%rdi, %xmm0
	vmovd	.L1_v4_CPI106_3(%rip), %xmm1
	vpunpcklqdq	%xmm0, %xmm1, %xmm0
	vpxor	%xmm1, %xmm1, %xmm1
	vxorps	%xmm2, %xmm2, %xmm2
	vmovups	%ymm2, 80(%rsp)
	vmovups	%ymm2, 48(%rsp)
	vpblendw	$128, %xmm1, %xmm0, %xmm0
	vmovups	%ymm2, (%rsp)
	xorl	%edi, %edi
2:
	vpxor	.L1_v4_CPI106_1(%rip), %xmm0, %xmm0
	vmovdqa	%xmm0, 112(%rsp)
	vmovaps	.L1_v4_CPI106_2(%rip), %xmm1
	vmovaps	%xmm1, 128(%rsp)
	vmovdqa	%xmm0, 144(%rsp)
	vmovaps	%xmm1, 160(%rsp)
	movq	$0, 176(%rsp)
	movw	%di, 184(%rsp)
	movw	%di, 186(%rsp)
	movl	$32, 188(%rsp)
	vmovups	48(%rsp), %ymm0
	vmovups	80(%rsp), %ymm1
	vmovups	%ymm0, 192(%rsp)
	vmovups	%ymm1, 224(%rsp)
	vmovups	(%rsp), %ymm0
	vmovups	%ymm0, 256(%rsp)
	vxorps	%xmm0, %xmm0, %xmm0
	vmovups	%ymm0, 288(%rsp)
	vmovups	%ymm0, 304(%rsp)
	movq	%rsi, 336(%rsp)
	vxorps	%xmm0, %xmm0, %xmm0
	vmovups	%xmm0, 344(%rsp)
	movzwl	%di, %edi
	movq	%rdi, %r8
	addq	%rcx, %r8
	jb	6f
	movq	%rsi, %r14
	cmpq	$1, %rcx
	jne	3f
	testq	%r15, %r15
	je	4f
	leaq	112(%rsp), %rdi
	movq	%rdx, %rsi
	movl	$1, %edx
	vzeroupper
	callq	blake2_state..blake2s..State..absorb_blocks_1_v4
	jmp	5f
3:
	leaq	112(%rsp), %rdi
	movq	%rdx, %rsi
	movq	%rcx, %rdx
	vzeroupper
	callq	blake2_state..blake2s..State..absorb_blocks_1_v4
	jmp	5f
4:
	movzbl	(%rdx), %eax
	movb	%al, 192(%rsp,%rdi)
	orl	$1, %edi
	movw	%di, 184(%rsp)
5:
	leaq	112(%rsp), %rdi
	movq	%rbx, %rsi
	movq	%r14, %rdx
	vzeroupper
	vj_call	blake2_xof..blake2xs..State..squeeze_1_v4
	xorl	%eax, %eax
6:
	addq	$360, %rsp
	popq	%rbx
	popq	%r12
	popq	%r13
	popq	%r14
	popq	%r15
	popq	%rbp
7:
	vzeroupper
	retq
	vj_end	blake2_ffi..blake2xs..write_1_v4

	vj_function	blake2_ffi..blake2b..write_keyed_1_v4
	movl	$-1, %eax
	cmpq	$-129, %rcx
	ja	1f
	leaq	-65(%rsi), %r10
	cmpq	$-64, %r10
	jb	1f
	cmpq	$65, %r9
	jae	1f
	subq	$24, %rsp
	movq	$1, (%rsp)
	movq	%r8, 8(%rsp)
	movq	%r9, 16(%rsp)
	movq	%rsp, %r8
	callq	blake2_ffi..blake2b..write_digest_1_v4
	xorl	%eax, %eax
	addq	$24, %rsp
1:
	retq
	vj_end	blake2_ffi..blake2b..write_keyed_1_v4

	vj_function	blake2_digest..wiping..scrub_stack..1536_1_v4
	pushq	%rbx
	subq	$1536, %rsp
	movq	%rsp, %rbx
	movl	$1536, %edx
	movq	%rbx, %rdi
	xorl	%esi, %esi
	vj_c_call	memset
	movq	%rbx, %rdi
	callq	blake2_digest..wiping..settle..1536_1_v4
	addq	$1536, %rsp
	popq	%rbx
	vpxord	%xmm16, %xmm16, %xmm16
	vpxord	%xmm17, %xmm17, %xmm17
	vpxord	%xmm18, %xmm18, %xmm18
	vpxord	%xmm19, %xmm19, %xmm19
	vpxord	%xmm20, %xmm20, %xmm20
	vpxord	%xmm21, %xmm21, %xmm21
	vpxord	%xmm22, %xmm22, %xmm22
	vpxord	%xmm23, %xmm23, %xmm23
	vpxord	%xmm24, %xmm24, %xmm24
	vpxord	%xmm25, %xmm25, %xmm25
	vpxord	%xmm26, %xmm26, %xmm26
	vpxord	%xmm27, %xmm27, %xmm27
	vpxord	%xmm28, %xmm28, %xmm28
	vpxord	%xmm29, %xmm29, %xmm29
	vpxord	%xmm30, %xmm30, %xmm30
	vpxord	%xmm31, %xmm31, %xmm31
	retq
	vj_end	blake2_digest..wiping..scrub_stack..1536_1_v4

	vj_function	blake2_digest..wiping..settle..1536_1_v4
	vmovdqu	128(%rdi), %ymm0
	vmovdqu	160(%rdi), %ymm1
	vmovdqu	192(%rdi), %ymm2
	vmovdqu	224(%rdi), %ymm3
	vpor	32(%rdi), %ymm1, %ymm1
	vpor	64(%rdi), %ymm2, %ymm2
	vpor	96(%rdi), %ymm3, %ymm3
	vmovdqu	256(%rdi), %ymm4
	vmovdqu	288(%rdi), %ymm5
	vmovdqu	320(%rdi), %ymm6
	vmovdqu	352(%rdi), %ymm7
	vpternlogq	$254, (%rdi), %ymm0, %ymm4
	vpternlogq	$254, 416(%rdi), %ymm1, %ymm5
	vpternlogq	$254, 448(%rdi), %ymm2, %ymm6
	vmovdqu	384(%rdi), %ymm0
	vpternlogq	$254, 480(%rdi), %ymm3, %ymm7
	vmovdqu	544(%rdi), %ymm1
	vmovdqu	576(%rdi), %ymm2
	vmovdqu	608(%rdi), %ymm3
	vpternlogq	$254, 512(%rdi), %ymm4, %ymm0
	vpternlogq	$254, 672(%rdi), %ymm5, %ymm1
	vpternlogq	$254, 704(%rdi), %ymm6, %ymm2
	vmovdqu	640(%rdi), %ymm4
	vpternlogq	$254, 736(%rdi), %ymm7, %ymm3
	vmovdqu	800(%rdi), %ymm5
	vmovdqu	832(%rdi), %ymm6
	vmovdqu	864(%rdi), %ymm7
	vpternlogq	$254, 768(%rdi), %ymm0, %ymm4
	vpternlogq	$254, 928(%rdi), %ymm1, %ymm5
	vpternlogq	$254, 960(%rdi), %ymm2, %ymm6
	vmovdqu	896(%rdi), %ymm0
	vpternlogq	$254, 992(%rdi), %ymm3, %ymm7
	vmovdqu	1056(%rdi), %ymm1
	vmovdqu	1088(%rdi), %ymm2
	vmovdqu	1120(%rdi), %ymm3
	vpternlogq	$254, 1024(%rdi), %ymm4, %ymm0
	vpternlogq	$254, 1184(%rdi), %ymm5, %ymm1
	vpternlogq	$254, 1216(%rdi), %ymm6, %ymm2
	vmovdqu	1152(%rdi), %ymm4
	vpternlogq	$254, 1248(%rdi), %ymm7, %ymm3
	vmovdqu	1312(%rdi), %ymm5
	vmovdqu	1344(%rdi), %ymm6
	vmovdqu	1376(%rdi), %ymm7
	vpternlogq	$254, 1280(%rdi), %ymm0, %ymm4
	vpternlogq	$254, 1440(%rdi), %ymm1, %ymm5
	vpternlogq	$254, 1472(%rdi), %ymm2, %ymm6
	vpternlogq	$254, 1504(%rdi), %ymm3, %ymm7
	vpternlogq	$254, 1408(%rdi), %ymm4, %ymm5
	vpternlogq	$254, %ymm7, %ymm6, %ymm5
	vptest	%ymm5, %ymm5
	je	1f
	pause
1:
	vzeroupper
	retq
	vj_end	blake2_digest..wiping..settle..1536_1_v4

	vj_function	blake2_compress..whole..blake2b..absorb_keyed_1_v4
	pushq	%rbp
	pushq	%r15
	pushq	%r14
	pushq	%r13
	pushq	%r12
	pushq	%rbx
	subq	$264, %rsp
	movq	%r8, %r14
	movq	%rcx, %r15
	movq	%rdi, %rbx
	vxorps	%xmm0, %xmm0, %xmm0
	vmovups	%ymm0, 96(%rsp)
	vmovups	%ymm0, 64(%rsp)
	vmovups	%ymm0, 32(%rsp)
	vmovups	%ymm0, (%rsp)
	movq	%rsp, %rdi
	vzeroupper
	vj_c_call	memcpy
	movq	%rsp, %rsi
	movl	$128, %edx
	testq	%r14, %r14
	je	3f
	movq	%rbx, %rdi
	xorl	%ecx, %ecx
	xorl	%r8d, %r8d
	vj_call	blake2_compress..compress..blake2b..compress_1_v4
	leaq	-1(%r14), %r13
	movq	%r13, %rbp
	shrq	$7, %rbp
	je	2f
	movl	$256, %r12d
	.p2align	4
1:
	leaq	(%r15,%r12), %rsi
	addq	$-256, %rsi
	movq	%rbx, %rdi
	movq	%r12, %rdx
	xorl	%ecx, %ecx
	xorl	%r8d, %r8d
	vj_call	blake2_compress..compress..blake2b..compress_1_v4
	subq	$-128, %r12
	decq	%rbp
	jne	1b
2:
	andq	$-128, %r13
	addq	%r13, %r15
	movq	%r14, %rdx
	subq	%r13, %rdx
	vxorps	%xmm0, %xmm0, %xmm0
	vmovups	%ymm0, 224(%rsp)
	vmovups	%ymm0, 192(%rsp)
	vmovups	%ymm0, 160(%rsp)
	vmovups	%ymm0, 128(%rsp)
	leaq	128(%rsp), %r12
	movq	%r12, %rdi
	movq	%r15, %rsi
	vzeroupper
	vj_c_call	memcpy
	subq	$-128, %r14
	movq	%rbx, %rdi
	movq	%r12, %rsi
	movq	%r14, %rdx
	jmp	4f
3:
	movq	%rbx, %rdi
4:
	movl	$1, %ecx
	xorl	%r8d, %r8d
	vj_call	blake2_compress..compress..blake2b..compress_1_v4
	addq	$264, %rsp
	popq	%rbx
	popq	%r12
	popq	%r13
	popq	%r14
	popq	%r15
	popq	%rbp
	retq
	vj_end	blake2_compress..whole..blake2b..absorb_keyed_1_v4

	vj_constants	32
	.p2align	5, 0x0
.L1_v4_CPI111_0:
	.quad	7640891576956012808
	.quad	-4942790177534073029
	.quad	4354685564936845355
	.quad	-6534734903238641935
.L1_v4_CPI111_1:
	.quad	5840696475078001361
	.quad	-7276294671716946913
	.quad	2270897969802886507
	.quad	6620516959819538809
	vj_function	blake2_ffi..blake2b..write_digest_1_v4
	pushq	%rbp
	pushq	%r15
	pushq	%r14
	pushq	%r13
	pushq	%r12
	pushq	%rbx
	subq	$280, %rsp
	movq	%rcx, %r14
	movq	%rdx, %r12
	movq	%rsi, %rbx
	movq	%rdi, %r15
	movq	8(%r8), %rsi
	movq	16(%r8), %rdx
	movzbl	(%r8), %eax
	movl	%edx, %ecx
	shll	$8, %ecx
	movzwl	%cx, %ecx
	orl	$16842752, %ecx
	testb	%al, %al
	movl	$16842752, %edi
	cmovnel	%ecx, %edi
	movzbl	%bl, %ecx
	vxorps	%xmm0, %xmm0, %xmm0
	vmovups	%ymm0, 112(%rsp)
	orl	%edi, %ecx
	vmovups	%ymm0, 80(%rsp)
	vmovd	%ecx, %xmm0
	vpxor	.L1_v4_CPI111_0(%rip), %ymm0, %ymm0
	vmovdqu	%ymm0, 16(%rsp)
	vmovaps	.L1_v4_CPI111_1(%rip), %ymm0
	vmovups	%ymm0, 48(%rsp)
	testb	%al, %al
	je	1f
	leaq	16(%rsp), %rdi
	movq	%r12, %rcx
	movq	%r14, %r8
	vzeroupper
	callq	blake2_compress..whole..blake2b..absorb_keyed_1_v4
	jmp	4f
1:
	movq	%r15, 8(%rsp)
	cmpq	$1, %r14
	movq	%r14, %r15
	adcq	$-1, %r15
	movq	%r15, %rbp
	shrq	$7, %rbp
	je	3f
	movl	$128, %r13d
	.p2align	4
2:
	leaq	(%r12,%r13), %rsi
	addq	$-128, %rsi
	leaq	16(%rsp), %rdi
	movq	%r13, %rdx
	xorl	%ecx, %ecx
	xorl	%r8d, %r8d
	vzeroupper
	vj_call	blake2_compress..compress..blake2b..compress_1_v4
	subq	$-128, %r13
	decq	%rbp
	jne	2b
3:
	andq	$-128, %r15
	addq	%r15, %r12
	movq	%r14, %rdx
	subq	%r15, %rdx
	vxorps	%xmm0, %xmm0, %xmm0
	vmovups	%ymm0, 240(%rsp)
	vmovups	%ymm0, 208(%rsp)
	vmovups	%ymm0, 176(%rsp)
	vmovups	%ymm0, 144(%rsp)
	leaq	144(%rsp), %r13
	movq	%r13, %rdi
	movq	%r12, %rsi
	vzeroupper
	vj_c_call	memcpy
	leaq	16(%rsp), %rdi
	movq	%r13, %rsi
	movq	%r14, %rdx
	movl	$1, %ecx
	xorl	%r8d, %r8d
	vj_call	blake2_compress..compress..blake2b..compress_1_v4
	movq	8(%rsp), %r15
4:
	vmovups	16(%rsp), %ymm0
	vmovups	48(%rsp), %ymm1
	vmovups	%ymm0, 80(%rsp)
	vmovups	%ymm1, 112(%rsp)
	leaq	80(%rsp), %rsi
	movq	%r15, %rdi
	movq	%rbx, %rdx
	vzeroupper
	vj_c_call	memcpy
	addq	$280, %rsp
	popq	%rbx
	popq	%r12
	popq	%r13
	popq	%r14
	popq	%r15
	popq	%rbp
	retq
	vj_end	blake2_ffi..blake2b..write_digest_1_v4

	vj_function	blake2_ffi..blake2s..write_keyed_1_v4
	movl	$-1, %eax
	cmpq	$-65, %rcx
	ja	1f
	leaq	-33(%rsi), %r10
	cmpq	$-32, %r10
	jb	1f
	cmpq	$33, %r9
	jae	1f
	subq	$24, %rsp
	movq	$1, (%rsp)
	movq	%r8, 8(%rsp)
	movq	%r9, 16(%rsp)
	movq	%rsp, %r8
	callq	blake2_ffi..blake2s..write_digest_1_v4
	xorl	%eax, %eax
	addq	$24, %rsp
1:
	retq
	vj_end	blake2_ffi..blake2s..write_keyed_1_v4

	vj_function	blake2_compress..whole..blake2s..absorb_keyed_1_v4
	pushq	%rbp
	pushq	%r15
	pushq	%r14
	pushq	%r13
	pushq	%r12
	pushq	%rbx
	subq	$136, %rsp
	movq	%r8, %r14
	movq	%rcx, %r15
	movq	%rdi, %rbx
	vxorps	%xmm0, %xmm0, %xmm0
	vmovups	%ymm0, 32(%rsp)
	vmovups	%ymm0, (%rsp)
	movq	%rsp, %rdi
	vzeroupper
	vj_c_call	memcpy
	movq	%rsp, %rsi
	movl	$64, %edx
	testq	%r14, %r14
	je	3f
	movq	%rbx, %rdi
	xorl	%ecx, %ecx
	xorl	%r8d, %r8d
	vj_call	blake2_compress..compress..blake2s..compress_1_v4
	leaq	-1(%r14), %r13
	movq	%r13, %rbp
	shrq	$6, %rbp
	je	2f
	movl	$128, %r12d
	.p2align	4
1:
	leaq	(%r15,%r12), %rsi
	addq	$-128, %rsi
	movq	%rbx, %rdi
	movq	%r12, %rdx
	xorl	%ecx, %ecx
	xorl	%r8d, %r8d
	vj_call	blake2_compress..compress..blake2s..compress_1_v4
	addq	$64, %r12
	decq	%rbp
	jne	1b
2:
	andq	$-64, %r13
	addq	%r13, %r15
	movq	%r14, %rdx
	subq	%r13, %rdx
	vxorps	%xmm0, %xmm0, %xmm0
	vmovups	%ymm0, 96(%rsp)
	vmovups	%ymm0, 64(%rsp)
	leaq	64(%rsp), %r12
	movq	%r12, %rdi
	movq	%r15, %rsi
	vzeroupper
	vj_c_call	memcpy
	addq	$64, %r14
	movq	%rbx, %rdi
	movq	%r12, %rsi
	movq	%r14, %rdx
	jmp	4f
3:
	movq	%rbx, %rdi
4:
	movl	$1, %ecx
	xorl	%r8d, %r8d
	vj_call	blake2_compress..compress..blake2s..compress_1_v4
	addq	$136, %rsp
	popq	%rbx
	popq	%r12
	popq	%r13
	popq	%r14
	popq	%r15
	popq	%rbp
	retq
	vj_end	blake2_compress..whole..blake2s..absorb_keyed_1_v4

	vj_constants	16
	.p2align	4, 0x0
.L1_v4_CPI114_0:
	.long	1779033703
	.long	3144134277
	.long	1013904242
	.long	2773480762
.L1_v4_CPI114_1:
	.long	1359893119
	.long	2600822924
	.long	528734635
	.long	1541459225
	vj_function	blake2_ffi..blake2s..write_digest_1_v4
	pushq	%rbp
	pushq	%r15
	pushq	%r14
	pushq	%r13
	pushq	%r12
	pushq	%rbx
	subq	$152, %rsp
	movq	%rcx, %r14
	movq	%rdx, %r12
	movq	%rsi, %rbx
	movq	%rdi, %r15
	movq	8(%r8), %rsi
	movq	16(%r8), %rdx
	movzbl	(%r8), %eax
	movl	%edx, %ecx
	shll	$8, %ecx
	movzwl	%cx, %ecx
	orl	$16842752, %ecx
	testb	%al, %al
	movl	$16842752, %edi
	cmovnel	%ecx, %edi
	movzbl	%bl, %ecx
	orl	%edi, %ecx
	vxorps	%xmm0, %xmm0, %xmm0
	vmovups	%ymm0, 48(%rsp)
	vmovd	%ecx, %xmm0
	vpxor	.L1_v4_CPI114_0(%rip), %xmm0, %xmm0
	vmovdqa	%xmm0, 16(%rsp)
	vmovaps	.L1_v4_CPI114_1(%rip), %xmm0
	vmovaps	%xmm0, 32(%rsp)
	testb	%al, %al
	je	1f
	leaq	16(%rsp), %rdi
	movq	%r12, %rcx
	movq	%r14, %r8
	vzeroupper
	callq	blake2_compress..whole..blake2s..absorb_keyed_1_v4
	jmp	4f
1:
	movq	%r15, 8(%rsp)
	cmpq	$1, %r14
	movq	%r14, %r15
	adcq	$-1, %r15
	movq	%r15, %rbp
	shrq	$6, %rbp
	je	3f
	movl	$64, %r13d
	.p2align	4
2:
	leaq	(%r12,%r13), %rsi
	addq	$-64, %rsi
	leaq	16(%rsp), %rdi
	movq	%r13, %rdx
	xorl	%ecx, %ecx
	xorl	%r8d, %r8d
	vzeroupper
	vj_call	blake2_compress..compress..blake2s..compress_1_v4
	addq	$64, %r13
	decq	%rbp
	jne	2b
3:
	andq	$-64, %r15
	addq	%r15, %r12
	movq	%r14, %rdx
	subq	%r15, %rdx
	vxorps	%xmm0, %xmm0, %xmm0
	vmovups	%ymm0, 112(%rsp)
	vmovups	%ymm0, 80(%rsp)
	leaq	80(%rsp), %r13
	movq	%r13, %rdi
	movq	%r12, %rsi
	vzeroupper
	vj_c_call	memcpy
	leaq	16(%rsp), %rdi
	movq	%r13, %rsi
	movq	%r14, %rdx
	movl	$1, %ecx
	xorl	%r8d, %r8d
	vj_call	blake2_compress..compress..blake2s..compress_1_v4
	movq	8(%rsp), %r15
4:
	vmovups	16(%rsp), %ymm0
	vmovups	%ymm0, 48(%rsp)
	leaq	48(%rsp), %rsi
	movq	%r15, %rdi
	movq	%rbx, %rdx
	vzeroupper
	vj_c_call	memcpy
	addq	$152, %rsp
	popq	%rbx
	popq	%r12
	popq	%r13
	popq	%r14
	popq	%r15
	popq	%rbp
	retq
	vj_end	blake2_ffi..blake2s..write_digest_1_v4

	vj_constants	32
	.p2align	5, 0x0
.L1_v4_CPI115_0:
	.quad	5840696475078001361
	.quad	-7276294671716946913
	.quad	2270897969802886507
	.quad	6620516959819538809
.L1_v4_CPI115_1:
	.quad	7640891576956012808
	.quad	-4942790177534073029
	.quad	4354685564936845355
	.quad	-6534734903238641935
	vj_function	blake2_ffi..blake2b..many..write_all_1_v4
	pushq	%rbp
	movq	%rsp, %rbp
	pushq	%r15
	pushq	%r14
	pushq	%r13
	pushq	%r12
	pushq	%rbx
	andq	$-32, %rsp
	subq	$2816, %rsp
	movq	%rcx, 40(%rsp)
	movq	%rdi, 280(%rsp)
	testq	%r8, %r8
	je	23f
	movq	%rdx, %r11
	xorl	%edx, %edx
	movq	%r11, 8(%rsp)
	movq	%r8, 88(%rsp)
	.p2align	4
1:
	movq	(%r11), %r13
	movq	%r13, %rax
	imulq	%rdx, %rax
	addq	280(%rsp), %rax
	movq	%rax, 72(%rsp)
	movq	%rdx, %rax
	shlq	$4, %rax
	movq	%r8, %rcx
	subq	%rdx, %rcx
	cmpq	$8, %rcx
	movq	%rdx, 80(%rsp)
	jb	3f
	movq	%r13, 128(%rsp)
	vxorps	%xmm0, %xmm0, %xmm0
	leaq	1040(%rsp), %rcx
	vmovups	%ymm0, 48(%rcx)
	vmovups	%ymm0, 32(%rcx)
	vmovups	%ymm0, (%rcx)
	vmovaps	%ymm0, 1728(%rsp)
	vmovaps	%ymm0, 1696(%rsp)
	vmovaps	%ymm0, 1664(%rsp)
	vmovaps	%ymm0, 1632(%rsp)
	vmovaps	%ymm0, 1600(%rsp)
	vmovaps	%ymm0, 1568(%rsp)
	vmovaps	%ymm0, 1536(%rsp)
	vmovaps	%ymm0, 1504(%rsp)
	vmovaps	%ymm0, 1472(%rsp)
	vmovaps	%ymm0, 1440(%rsp)
	vmovaps	%ymm0, 1408(%rsp)
	vmovaps	%ymm0, 1376(%rsp)
	vmovaps	%ymm0, 1344(%rsp)
	vmovaps	%ymm0, 1312(%rsp)
	vmovaps	%ymm0, 1280(%rsp)
	vmovaps	%ymm0, 1248(%rsp)
	vmovaps	%ymm0, 2272(%rsp)
	vmovaps	%ymm0, 2304(%rsp)
	vmovaps	%ymm0, 2336(%rsp)
	vmovaps	%ymm0, 2368(%rsp)
	vmovaps	%ymm0, 2400(%rsp)
	vmovaps	%ymm0, 2432(%rsp)
	vmovaps	%ymm0, 2464(%rsp)
	vmovaps	%ymm0, 2496(%rsp)
	vmovaps	%ymm0, 2528(%rsp)
	vmovaps	%ymm0, 2560(%rsp)
	vmovaps	%ymm0, 2592(%rsp)
	vmovaps	%ymm0, 2624(%rsp)
	vmovaps	%ymm0, 2656(%rsp)
	vmovaps	%ymm0, 2688(%rsp)
	vmovaps	%ymm0, 2720(%rsp)
	vmovaps	%ymm0, 2752(%rsp)
	movq	16(%r11), %r15
	movq	40(%rsp), %rcx
	movq	(%rcx,%rax), %rdx
	movq	%rdx, 48(%rsp)
	movq	8(%rcx,%rax), %rcx
	movq	%rcx, (%rsp)
	xorl	%esi, %esi
	movq	%r15, %rcx
	testq	%r15, %r15
	setne	%r10b
	je	2f
	movq	8(%r11), %rcx
2:
	movq	24(%r11), %r9
	movq	32(%r11), %r12
	movq	40(%r11), %r8
	movq	48(%r11), %r13
	movb	%r10b, %sil
	movq	40(%rsp), %rdx
	movq	16(%rdx,%rax), %rdi
	movq	%rdi, 248(%rsp)
	movq	24(%rdx,%rax), %rdi
	movq	32(%rdx,%rax), %r10
	movq	%r10, 24(%rsp)
	movq	40(%rdx,%rax), %r10
	movq	48(%rdx,%rax), %r11
	movq	%r11, 272(%rsp)
	movq	56(%rdx,%rax), %r11
	movq	64(%rdx,%rax), %rbx
	movq	%rbx, 32(%rsp)
	movq	72(%rdx,%rax), %r14
	movq	80(%rdx,%rax), %rbx
	movq	%rbx, 56(%rsp)
	movq	88(%rdx,%rax), %rbx
	movq	%rbx, 264(%rsp)
	movq	96(%rdx,%rax), %rbx
	movq	%rbx, 16(%rsp)
	movq	104(%rdx,%rax), %rbx
	movq	%rbx, 256(%rsp)
	movq	112(%rdx,%rax), %rbx
	movq	%rbx, 96(%rsp)
	movq	120(%rdx,%rax), %rdx
	movq	%rdx, 64(%rsp)
	movq	%r9, 288(%rsp)
	movq	%r12, 296(%rsp)
	movq	%r8, 304(%rsp)
	movq	%r13, 312(%rsp)
	movq	%rsi, 320(%rsp)
	movq	%rcx, 328(%rsp)
	movq	%r15, 336(%rsp)
	movw	$257, 344(%rsp)
	vxorps	%xmm0, %xmm0, %xmm0
	leaq	1040(%rsp), %rdx
	vmovups	%xmm0, -680(%rdx)
	vmovups	%xmm0, -694(%rdx)
	movq	48(%rsp), %rbx
	movq	%rbx, 376(%rsp)
	movq	(%rsp), %rbx
	movq	%rbx, 384(%rsp)
	movq	%r9, 392(%rsp)
	movq	%r12, 400(%rsp)
	movq	%r8, 408(%rsp)
	movq	%r13, 416(%rsp)
	movq	%rsi, 424(%rsp)
	movq	%rcx, 432(%rsp)
	movq	%r15, 440(%rsp)
	movw	$257, 448(%rsp)
	vmovups	%xmm0, -576(%rdx)
	vmovups	%xmm0, -590(%rdx)
	movq	248(%rsp), %rbx
	movq	%rbx, 480(%rsp)
	movq	%rdi, 48(%rsp)
	movq	%rdi, 488(%rsp)
	movq	%r9, 496(%rsp)
	movq	%r12, 504(%rsp)
	movq	%r8, 512(%rsp)
	movq	%r13, 520(%rsp)
	movq	%rsi, 528(%rsp)
	movq	%rcx, 536(%rsp)
	movq	%r15, 544(%rsp)
	movw	$257, 552(%rsp)
	vmovups	%xmm0, -472(%rdx)
	vmovups	%xmm0, -486(%rdx)
	movq	24(%rsp), %rdi
	movq	%rdi, 584(%rsp)
	movq	264(%rsp), %rbx
	movq	256(%rsp), %rdi
	movq	%r10, 24(%rsp)
	movq	%r10, 592(%rsp)
	movq	%r9, 600(%rsp)
	movq	%r12, 608(%rsp)
	movq	%r8, 616(%rsp)
	movq	%r13, 624(%rsp)
	movq	%rsi, 632(%rsp)
	movq	%rcx, 640(%rsp)
	movq	%r15, 648(%rsp)
	movw	$257, 656(%rsp)
	vmovups	%xmm0, -368(%rdx)
	vmovups	%xmm0, -382(%rdx)
	movq	272(%rsp), %r10
	movq	%r10, 688(%rsp)
	movq	%r11, 696(%rsp)
	movq	%r9, 704(%rsp)
	movq	%r12, 712(%rsp)
	movq	%r8, 720(%rsp)
	movq	%r13, 728(%rsp)
	movq	%rsi, 736(%rsp)
	movq	%rcx, 744(%rsp)
	movq	%r15, 752(%rsp)
	movw	$257, 760(%rsp)
	vmovups	%xmm0, -264(%rdx)
	vmovups	%xmm0, -278(%rdx)
	movq	32(%rsp), %r10
	movq	%r10, 792(%rsp)
	movq	%r14, 32(%rsp)
	movq	%r14, 800(%rsp)
	movq	%r9, 808(%rsp)
	movq	%r12, 816(%rsp)
	movq	%r8, 824(%rsp)
	movq	%r13, 832(%rsp)
	movq	%rsi, 840(%rsp)
	movq	%rcx, 848(%rsp)
	movq	%r15, 856(%rsp)
	movw	$257, 864(%rsp)
	vmovups	%xmm0, -160(%rdx)
	vmovups	%xmm0, -174(%rdx)
	movq	56(%rsp), %r10
	movq	%r10, 896(%rsp)
	movq	%rbx, 904(%rsp)
	movq	%r9, 912(%rsp)
	movq	%r12, 920(%rsp)
	movq	%r8, 928(%rsp)
	movq	%r13, 936(%rsp)
	movq	%rsi, 944(%rsp)
	movq	%rcx, 952(%rsp)
	movq	%r15, 960(%rsp)
	movw	$257, 968(%rsp)
	vmovups	%xmm0, -56(%rdx)
	vmovups	%xmm0, -70(%rdx)
	movq	16(%rsp), %r10
	movq	%r10, 1000(%rsp)
	movq	%rdi, 1008(%rsp)
	movq	%r9, 1016(%rsp)
	movq	64(%rsp), %r9
	movq	%r12, 1024(%rsp)
	movq	%r8, 1032(%rsp)
	movq	%r13, 1040(%rsp)
	movq	%rsi, 1048(%rsp)
	movq	%rcx, 1056(%rsp)
	movq	%r15, 1064(%rsp)
	movw	$257, 1072(%rsp)
	vmovups	%xmm0, 48(%rdx)
	vmovups	%xmm0, 34(%rdx)
	movq	96(%rsp), %rcx
	movq	%rcx, 1104(%rsp)
	movq	%r9, 1112(%rsp)
	je	4f
	cmpq	$16, %r12
	movq	(%rsp), %r8
	ja	6f
	cmpq	$16, %r13
	ja	6f
	cmpq	$64, %r15
	ja	6f
	movq	%r8, %rcx
	subq	$-128, %rcx
	jae	6f
	movq	48(%rsp), %rsi
	cmpq	$-128, %rsi
	setb	%dl
	cmpq	%r8, %rsi
	sete	%sil
	testb	%sil, %dl
	je	6f
	cmpq	$-129, 24(%rsp)
	ja	6f
	cmpq	%r8, 24(%rsp)
	jne	6f
	cmpq	$-129, %r11
	ja	6f
	cmpq	%r8, %r11
	jne	6f
	cmpq	$-129, 32(%rsp)
	ja	6f
	cmpq	%r8, 32(%rsp)
	jne	6f
	cmpq	$-129, %rbx
	ja	6f
	cmpq	%r8, %rbx
	jne	6f
	cmpq	$-128, %rdi
	setb	%dl
	cmpq	%r8, %rdi
	sete	%sil
	cmpq	$-128, %r9
	setb	%r8b
	andb	%dl, %r8b
	movq	%rcx, %rdx
	testb	%sil, %r8b
	jne	5f
	jmp	6f
	.p2align	4
3:
	vxorps	%xmm0, %xmm0, %xmm0
	vmovaps	%ymm0, 1248(%rsp)
	vmovaps	%ymm0, 1280(%rsp)
	vmovaps	%ymm0, 1312(%rsp)
	vmovaps	%ymm0, 1344(%rsp)
	vmovaps	%ymm0, 1376(%rsp)
	vmovaps	%ymm0, 1408(%rsp)
	vmovaps	%ymm0, 1440(%rsp)
	vmovaps	%ymm0, 1472(%rsp)
	movq	24(%r11), %rdx
	movq	%rdx, 16(%rsp)
	movq	32(%r11), %rdx
	movq	40(%r11), %rsi
	movq	%rsi, 96(%rsp)
	movq	48(%r11), %r14
	cmpq	$3, %rcx
	ja	7f
	movq	40(%rsp), %rsi
	movq	(%rsi,%rax), %rcx
	movq	%rcx, (%rsp)
	movq	8(%rsi,%rax), %rsi
	movq	16(%r11), %r12
	jmp	14f
4:
	cmpq	$17, %r13
	setb	%cl
	cmpq	$17, %r12
	setb	%dl
	testb	%cl, %dl
	movq	(%rsp), %rdx
	je	6f
	movq	48(%rsp), %rsi
	xorq	%rdx, %rsi
	movq	24(%rsp), %rcx
	xorq	%rdx, %rcx
	orq	%rsi, %rcx
	xorq	%rdx, %r11
	orq	%rcx, %r11
	jne	6f
	movq	32(%rsp), %rcx
	xorq	%rdx, %rcx
	xorq	%rdx, %rbx
	orq	%rcx, %rbx
	xorq	%rdx, %rdi
	orq	%rbx, %rdi
	jne	6f
5:
	leaq	128(%r9), %rcx
	testq	%r15, %r15
	cmoveq	%r9, %rcx
	cmpq	%rdx, %rcx
	jne	6f
	vxorps	%xmm0, %xmm0, %xmm0
	vmovaps	%ymm0, 2240(%rsp)
	vmovaps	%ymm0, 2208(%rsp)
	vmovaps	%ymm0, 2176(%rsp)
	vmovaps	%ymm0, 2144(%rsp)
	vmovaps	%ymm0, 2112(%rsp)
	vmovaps	%ymm0, 2080(%rsp)
	vmovaps	%ymm0, 2048(%rsp)
	vmovaps	%ymm0, 2016(%rsp)
	vmovaps	%ymm0, 1984(%rsp)
	vmovaps	%ymm0, 1952(%rsp)
	vmovaps	%ymm0, 1920(%rsp)
	vmovaps	%ymm0, 1888(%rsp)
	vmovaps	%ymm0, 1856(%rsp)
	vmovaps	%ymm0, 1824(%rsp)
	vmovaps	%ymm0, 1792(%rsp)
	vmovaps	%ymm0, 1760(%rsp)
	leaq	1760(%rsp), %rbx
	leaq	288(%rsp), %rdx
	movq	%rbx, %rdi
	movq	128(%rsp), %r13
	movq	%r13, %rsi
	vzeroupper
	callq	blake2_compress..many..blake2b..eight..outputs..64_1_v4
	leaq	1248(%rsp), %r12
	movl	$512, %edx
	movq	%r12, %rdi
	movq	%rbx, %rsi
	vj_c_call	memcpy
	leaq	2272(%rsp), %rbx
	movl	$512, %edx
	movq	%rbx, %rdi
	movq	%r12, %rsi
	vj_c_call	memcpy
	movl	$8, %r15d
	movl	$8, %ecx
	movq	72(%rsp), %rdi
	movq	%r13, %rsi
	movq	%rbx, %rdx
	callq	blake2_ffi..many..write_digests..64_1_v4
	movq	88(%rsp), %r8
	movq	8(%rsp), %r11
	movq	80(%rsp), %rdx
	addq	%r15, %rdx
	cmpq	%r8, %rdx
	jb	1b
	jmp	23f
	.p2align	4
6:
	vxorps	%xmm0, %xmm0, %xmm0
	vmovaps	%ymm0, 1248(%rsp)
	vmovaps	%ymm0, 1280(%rsp)
	vmovaps	%ymm0, 1312(%rsp)
	vmovaps	%ymm0, 1344(%rsp)
	vmovaps	%ymm0, 1376(%rsp)
	vmovaps	%ymm0, 1408(%rsp)
	vmovaps	%ymm0, 1440(%rsp)
	vmovaps	%ymm0, 1472(%rsp)
	movq	8(%rsp), %r11
	movq	(%r11), %r13
	movq	24(%r11), %rcx
	movq	%rcx, 16(%rsp)
	movq	32(%r11), %rdx
	movq	40(%r11), %rcx
	movq	%rcx, 96(%rsp)
	movq	48(%r11), %r14
7:
	movq	%r13, 128(%rsp)
	movq	16(%r11), %rdi
	movq	40(%rsp), %rsi
	movq	(%rsi,%rax), %rcx
	movq	%rcx, (%rsp)
	movq	8(%rsi,%rax), %rcx
	movq	%rcx, 64(%rsp)
	xorl	%r8d, %r8d
	movq	%rdi, %r9
	movq	%rdi, %r12
	testq	%rdi, %rdi
	setne	%cl
	je	8f
	movq	8(%r11), %r9
8:
	movb	%cl, %r8b
	movq	40(%rsp), %rsi
	movq	16(%rsi,%rax), %r15
	movq	24(%rsi,%rax), %rdi
	movq	32(%rsi,%rax), %r11
	movq	40(%rsi,%rax), %r10
	movq	48(%rsi,%rax), %rcx
	movq	%rcx, 56(%rsp)
	movq	56(%rsi,%rax), %rcx
	movq	16(%rsp), %r13
	movq	%r13, 288(%rsp)
	movq	%rdx, 296(%rsp)
	movq	96(%rsp), %rax
	movq	%rax, 304(%rsp)
	movq	%r14, 312(%rsp)
	movq	%r8, 320(%rsp)
	movq	%r9, 328(%rsp)
	movq	%r12, 336(%rsp)
	movw	$257, 344(%rsp)
	vxorps	%xmm0, %xmm0, %xmm0
	leaq	1040(%rsp), %rbx
	vmovups	%xmm0, -680(%rbx)
	vmovups	%xmm0, -694(%rbx)
	movq	(%rsp), %rsi
	movq	%rsi, 376(%rsp)
	movq	64(%rsp), %rsi
	movq	%rsi, 384(%rsp)
	movq	%r13, 392(%rsp)
	movq	%rdx, 400(%rsp)
	movq	%rax, 408(%rsp)
	movq	%r14, 416(%rsp)
	movq	%r8, 424(%rsp)
	movq	%r9, 432(%rsp)
	movq	%r12, 440(%rsp)
	movw	$257, 448(%rsp)
	vmovups	%xmm0, -576(%rbx)
	vmovups	%xmm0, -590(%rbx)
	movq	%r15, 480(%rsp)
	movq	%rdi, 488(%rsp)
	movq	%r13, 496(%rsp)
	movq	%rdx, 504(%rsp)
	movq	%rax, 512(%rsp)
	movq	%r14, 520(%rsp)
	movq	%r8, 528(%rsp)
	movq	%r9, 536(%rsp)
	movq	%r12, 544(%rsp)
	movw	$257, 552(%rsp)
	vmovups	%xmm0, -472(%rbx)
	vmovups	%xmm0, -486(%rbx)
	movq	%r11, 584(%rsp)
	movq	%r10, 592(%rsp)
	movq	%r13, 600(%rsp)
	movq	%rdx, 608(%rsp)
	movq	%rax, 616(%rsp)
	movq	%rcx, %rax
	movq	%r14, 624(%rsp)
	movq	%r8, 632(%rsp)
	movq	%r9, 640(%rsp)
	movq	%r12, 648(%rsp)
	movw	$257, 656(%rsp)
	vmovups	%xmm0, -368(%rbx)
	vmovups	%xmm0, -382(%rbx)
	movq	56(%rsp), %rcx
	movq	%rcx, 688(%rsp)
	movq	%rax, 696(%rsp)
	je	9f
	cmpq	$16, %rdx
	movq	128(%rsp), %r13
	ja	12f
	cmpq	$16, %r14
	movq	8(%rsp), %r11
	ja	14f
	cmpq	$64, %r12
	ja	14f
	movq	%rsi, %r8
	subq	$-128, %r8
	jae	14f
	cmpq	$-128, %rdi
	setb	%r9b
	cmpq	%rsi, %rdi
	sete	%dil
	testb	%dil, %r9b
	je	14f
	cmpq	$-128, %r10
	setb	%dil
	cmpq	%rsi, %r10
	sete	%cl
	cmpq	$-128, %rax
	setb	%r9b
	andb	%dil, %r9b
	testb	%cl, %r9b
	jne	10f
	jmp	14f
	.p2align	4
9:
	cmpq	$17, %r14
	setb	%r8b
	cmpq	$17, %rdx
	setb	%r9b
	testb	%r8b, %r9b
	movq	128(%rsp), %r13
	je	11f
	xorq	%rsi, %rdi
	xorq	%rsi, %r10
	orq	%rdi, %r10
	movq	%rsi, %r8
	movq	8(%rsp), %r11
	jne	13f
10:
	leaq	128(%rax), %rcx
	testq	%r12, %r12
	cmoveq	%rax, %rcx
	cmpq	%r8, %rcx
	jne	14f
	leaq	1248(%rsp), %rdi
	leaq	288(%rsp), %rdx
	movq	%r13, %rsi
	vzeroupper
	callq	blake2_compress..many..blake2b..outputs..64_1_v4
	vmovaps	1472(%rsp), %ymm0
	vmovaps	%ymm0, 2496(%rsp)
	vmovaps	1440(%rsp), %ymm0
	vmovaps	%ymm0, 2464(%rsp)
	vmovaps	1408(%rsp), %ymm0
	vmovaps	%ymm0, 2432(%rsp)
	vmovaps	1376(%rsp), %ymm0
	vmovaps	%ymm0, 2400(%rsp)
	vmovaps	1248(%rsp), %ymm0
	vmovaps	1280(%rsp), %ymm1
	vmovaps	1312(%rsp), %ymm2
	vmovaps	1344(%rsp), %ymm3
	vmovaps	%ymm3, 2368(%rsp)
	vmovaps	%ymm2, 2336(%rsp)
	vmovaps	%ymm1, 2304(%rsp)
	vmovaps	%ymm0, 2272(%rsp)
	leaq	2272(%rsp), %rdx
	movl	$4, %r15d
	movl	$4, %ecx
	movq	72(%rsp), %rdi
	movq	%r13, %rsi
	vzeroupper
	callq	blake2_ffi..many..write_digests..64_1_v4
	movq	8(%rsp), %r11
	jmp	21f
11:
	xorl	%r12d, %r12d
12:
	movq	8(%rsp), %r11
	jmp	14f
13:
	xorl	%r12d, %r12d
	.p2align	4
14:
	leaq	-1(%r13), %rax
	cmpq	$64, %rax
	setb	%al
	cmpq	$65, %r12
	setb	%cl
	cmpq	$17, %rdx
	setb	%dil
	andb	%cl, %dil
	andb	%al, %dil
	cmpq	$17, %r14
	setb	%al
	andb	%dil, %al
	cmpb	$1, %al
	jne	20f
	movq	%rsi, %r15
	testq	%r12, %r12
	je	15f
	movq	8(%r11), %rbx
	vxorps	%xmm0, %xmm0, %xmm0
	vmovaps	%ymm0, 160(%rsp)
	movl	%r12d, %eax
	shll	$8, %eax
	addl	%r13d, %eax
	addl	$16842752, %eax
	vmovd	%eax, %xmm0
	vmovdqa	%ymm0, 128(%rsp)
	leaq	160(%rsp), %rdi
	movq	16(%rsp), %rsi
	vzeroupper
	vj_c_call	memcpy
	leaq	176(%rsp), %rdi
	movq	96(%rsp), %rsi
	movq	%r14, %rdx
	vj_c_call	memcpy
	vmovaps	160(%rsp), %ymm0
	vmovaps	%ymm0, 96(%rsp)
	movl	$64, %eax
	subq	%r12, %rax
	xorl	%edx, %edx
	cmpq	$64, %r12
	cmovbq	%rax, %rdx
	leaq	(%rsp,%r12), %rdi
	addq	$160, %rdi
	xorl	%esi, %esi
	vzeroupper
	vj_c_call	memset
	leaq	160(%rsp), %rdi
	movq	%rbx, %rsi
	movq	%r12, %rdx
	vj_c_call	memcpy
	leaq	1184(%rsp), %rax
	vxorps	%xmm0, %xmm0, %xmm0
	vmovups	%ymm0, (%rax)
	vmovups	%ymm0, 32(%rax)
	vmovups	192(%rsp), %ymm0
	vmovaps	%ymm0, 1152(%rsp)
	vmovups	160(%rsp), %ymm0
	vmovaps	%ymm0, 1120(%rsp)
	vmovaps	96(%rsp), %ymm0
	movl	$128, %eax
	jmp	16f
15:
	vxorps	%xmm0, %xmm0, %xmm0
	vmovaps	%ymm0, 160(%rsp)
	movl	%r13d, %eax
	orl	$16842752, %eax
	vmovd	%eax, %xmm0
	vmovdqa	%ymm0, 128(%rsp)
	leaq	160(%rsp), %rdi
	movq	16(%rsp), %rsi
	vzeroupper
	vj_c_call	memcpy
	leaq	176(%rsp), %rdi
	movq	96(%rsp), %rsi
	movq	%r14, %rdx
	vj_c_call	memcpy
	vmovaps	160(%rsp), %ymm0
	vxorps	%xmm1, %xmm1, %xmm1
	vmovaps	%ymm1, 1120(%rsp)
	vmovaps	%ymm1, 1152(%rsp)
	vmovaps	%ymm1, 1184(%rsp)
	vmovaps	%ymm1, 1216(%rsp)
	vmovaps	%ymm1, 160(%rsp)
	vmovaps	%ymm1, 192(%rsp)
	xorl	%eax, %eax
16:
	vxorps	.L1_v4_CPI115_0(%rip), %ymm0, %ymm0
	vmovaps	128(%rsp), %ymm1
	vxorps	.L1_v4_CPI115_1(%rip), %ymm1, %ymm1
	vmovups	%ymm1, 1760(%rsp)
	vmovups	%ymm0, 1792(%rsp)
	vmovups	%ymm1, 1824(%rsp)
	vmovups	%ymm0, 1856(%rsp)
	movq	$0, 1888(%rsp)
	movl	%eax, 1896(%rsp)
	movl	%eax, 1900(%rsp)
	movl	%r13d, 1904(%rsp)
	movl	$0, 1908(%rsp)
	vmovaps	1120(%rsp), %ymm0
	vmovaps	1152(%rsp), %ymm1
	vmovaps	1184(%rsp), %ymm2
	vmovaps	1216(%rsp), %ymm3
	leaq	1912(%rsp), %rcx
	vmovups	%ymm3, 96(%rcx)
	vmovups	%ymm2, 64(%rcx)
	vmovups	%ymm1, 32(%rcx)
	vmovups	%ymm0, (%rcx)
	vmovaps	192(%rsp), %ymm0
	vmovups	%ymm0, 160(%rcx)
	vmovaps	160(%rsp), %ymm0
	vmovups	%ymm0, 128(%rcx)
	cmpq	$1, %r15
	jne	17f
	testq	%r12, %r12
	je	22f
	leaq	1760(%rsp), %rdi
	movl	$1, %edx
	jmp	18f
	.p2align	4
17:
	leaq	1760(%rsp), %rdi
	movq	%r15, %rdx
18:
	movq	(%rsp), %rsi
	vzeroupper
	callq	blake2_state..blake2b..State..absorb_blocks_1_v4
19:
	leaq	1760(%rsp), %rdi
	movq	72(%rsp), %rsi
	vzeroupper
	callq	blake2_state..blake2b..State..write_digest_1_v4
	movq	8(%rsp), %r11
20:
	movl	$1, %r15d
21:
	movq	80(%rsp), %rdx
	movq	88(%rsp), %r8
	addq	%r15, %rdx
	cmpq	%r8, %rdx
	jb	1b
	jmp	23f
22:
	movq	(%rsp), %rcx
	movzbl	(%rcx), %ecx
	movl	%eax, %edx
	movb	%cl, 1912(%rsp,%rdx)
	orl	$1, %eax
	movl	%eax, 1896(%rsp)
	jmp	19b
23:
	leaq	-40(%rbp), %rsp
	popq	%rbx
	popq	%r12
	popq	%r13
	popq	%r14
	popq	%r15
	popq	%rbp
	vzeroupper
	retq
	vj_end	blake2_ffi..blake2b..many..write_all_1_v4

	vj_function	blake2_ffi..many..write_digests..64_1_v4
	pushq	%rbp
	pushq	%r15
	pushq	%r14
	pushq	%r13
	pushq	%r12
	pushq	%rbx
	subq	$56, %rsp
	movq	%rcx, %r8
	movq	%rdx, %r12
	movq	%rdi, %r13
	cmpq	$64, %rsi
	je	3f
	movq	%rsi, %rdx
	movq	%r8, %rax
	imulq	%rsi, %rax
	addq	%r13, %rax
	movq	%r8, %rcx
	shlq	$6, %rcx
	addq	%r12, %rsi
	addq	%rsi, %rcx
	addq	$-64, %rcx
	cmpq	%rcx, %r13
	setb	%cl
	cmpq	%rax, %r12
	setb	%al
	andb	%cl, %al
	testq	%rdx, %rdx
	sets	%cl
	orb	%al, %cl
	movb	%cl, 7(%rsp)
	movabsq	$9223372036854775680, %r9
	movq	%rdx, %r10
	andq	%r9, %r10
	orq	$120, %r9
	andq	%rdx, %r9
	movl	%edx, %eax
	andl	$7, %eax
	movq	%rax, 8(%rsp)
	leaq	96(%r12), %rbx
	leaq	96(%r13), %rbp
	xorl	%r11d, %r11d
	movq	%r13, %r15
	movq	%r12, %r14
	movq	%r8, 40(%rsp)
	movq	%rdx, 32(%rsp)
	movq	%r9, 24(%rsp)
	movq	%r10, 16(%rsp)
	jmp	6f
	.p2align	4
1:
	vmovups	(%r12), %ymm0
	vmovups	32(%r12), %ymm1
	vmovups	%ymm1, 32(%r13)
	vmovups	%ymm0, (%r13)
2:
	addq	$64, %r13
	addq	$64, %r12
	decq	%r8
	je	14f
3:
	movq	%r13, %rax
	subq	%r12, %rax
	cmpq	$63, %rax
	ja	1b
	movzbl	(%r12), %eax
	movb	%al, (%r13)
	movzbl	1(%r12), %eax
	movb	%al, 1(%r13)
	movzbl	2(%r12), %eax
	movb	%al, 2(%r13)
	movzbl	3(%r12), %eax
	movb	%al, 3(%r13)
	movzbl	4(%r12), %eax
	movb	%al, 4(%r13)
	movzbl	5(%r12), %eax
	movb	%al, 5(%r13)
	movzbl	6(%r12), %eax
	movb	%al, 6(%r13)
	movzbl	7(%r12), %eax
	movb	%al, 7(%r13)
	movzbl	8(%r12), %eax
	movb	%al, 8(%r13)
	movzbl	9(%r12), %eax
	movb	%al, 9(%r13)
	movzbl	10(%r12), %eax
	movb	%al, 10(%r13)
	movzbl	11(%r12), %eax
	movb	%al, 11(%r13)
	movzbl	12(%r12), %eax
	movb	%al, 12(%r13)
	movzbl	13(%r12), %eax
	movb	%al, 13(%r13)
	movzbl	14(%r12), %eax
	movb	%al, 14(%r13)
	movzbl	15(%r12), %eax
	movb	%al, 15(%r13)
	movzbl	16(%r12), %eax
	movb	%al, 16(%r13)
	movzbl	17(%r12), %eax
	movb	%al, 17(%r13)
	movzbl	18(%r12), %eax
	movb	%al, 18(%r13)
	movzbl	19(%r12), %eax
	movb	%al, 19(%r13)
	movzbl	20(%r12), %eax
	movb	%al, 20(%r13)
	movzbl	21(%r12), %eax
	movb	%al, 21(%r13)
	movzbl	22(%r12), %eax
	movb	%al, 22(%r13)
	movzbl	23(%r12), %eax
	movb	%al, 23(%r13)
	movzbl	24(%r12), %eax
	movb	%al, 24(%r13)
	movzbl	25(%r12), %eax
	movb	%al, 25(%r13)
	movzbl	26(%r12), %eax
	movb	%al, 26(%r13)
	movzbl	27(%r12), %eax
	movb	%al, 27(%r13)
	movzbl	28(%r12), %eax
	movb	%al, 28(%r13)
	movzbl	29(%r12), %eax
	movb	%al, 29(%r13)
	movzbl	30(%r12), %eax
	movb	%al, 30(%r13)
	movzbl	31(%r12), %eax
	movb	%al, 31(%r13)
	movzbl	32(%r12), %eax
	movb	%al, 32(%r13)
	movzbl	33(%r12), %eax
	movb	%al, 33(%r13)
	movzbl	34(%r12), %eax
	movb	%al, 34(%r13)
	movzbl	35(%r12), %eax
	movb	%al, 35(%r13)
	movzbl	36(%r12), %eax
	movb	%al, 36(%r13)
	movzbl	37(%r12), %eax
	movb	%al, 37(%r13)
	movzbl	38(%r12), %eax
	movb	%al, 38(%r13)
	movzbl	39(%r12), %eax
	movb	%al, 39(%r13)
	movzbl	40(%r12), %eax
	movb	%al, 40(%r13)
	movzbl	41(%r12), %eax
	movb	%al, 41(%r13)
	movzbl	42(%r12), %eax
	movb	%al, 42(%r13)
	movzbl	43(%r12), %eax
	movb	%al, 43(%r13)
	movzbl	44(%r12), %eax
	movb	%al, 44(%r13)
	movzbl	45(%r12), %eax
	movb	%al, 45(%r13)
	movzbl	46(%r12), %eax
	movb	%al, 46(%r13)
	movzbl	47(%r12), %eax
	movb	%al, 47(%r13)
	movzbl	48(%r12), %eax
	movb	%al, 48(%r13)
	movzbl	49(%r12), %eax
	movb	%al, 49(%r13)
	movzbl	50(%r12), %eax
	movb	%al, 50(%r13)
	movzbl	51(%r12), %eax
	movb	%al, 51(%r13)
	movzbl	52(%r12), %eax
	movb	%al, 52(%r13)
	movzbl	53(%r12), %eax
	movb	%al, 53(%r13)
	movzbl	54(%r12), %eax
	movb	%al, 54(%r13)
	movzbl	55(%r12), %eax
	movb	%al, 55(%r13)
	movzbl	56(%r12), %eax
	movb	%al, 56(%r13)
	movzbl	57(%r12), %eax
	movb	%al, 57(%r13)
	movzbl	58(%r12), %eax
	movb	%al, 58(%r13)
	movzbl	59(%r12), %eax
	movb	%al, 59(%r13)
	movzbl	60(%r12), %eax
	movb	%al, 60(%r13)
	movzbl	61(%r12), %eax
	movb	%al, 61(%r13)
	movzbl	62(%r12), %eax
	movb	%al, 62(%r13)
	movzbl	63(%r12), %eax
	movb	%al, 63(%r13)
	jmp	2b
	.p2align	4
4:
	movq	%r11, 48(%rsp)
	vzeroupper
	vj_c_call	memmove
	movq	48(%rsp), %r11
	movq	16(%rsp), %r10
	movq	24(%rsp), %r9
	movq	32(%rsp), %rdx
	movq	40(%rsp), %r8
5:
	incq	%r11
	addq	$64, %rbx
	addq	%rdx, %rbp
	addq	$64, %r14
	addq	%rdx, %r15
	cmpq	%r8, %r11
	je	14f
6:
	movq	%r11, %rdi
	imulq	%rdx, %rdi
	addq	%r13, %rdi
	movq	%r11, %rsi
	shlq	$6, %rsi
	addq	%r12, %rsi
	movq	%rdi, %rax
	subq	%rsi, %rax
	cmpq	%rdx, %rax
	jae	4b
	cmpq	$8, %rdx
	setb	%al
	orb	7(%rsp), %al
	testb	$1, %al
	je	7f
	xorl	%ecx, %ecx
	jmp	10f
	.p2align	4
7:
	xorl	%eax, %eax
	cmpq	$128, %rdx
	jb	9f
	.p2align	4
8:
	vmovups	-96(%rbx,%rax), %ymm0
	vmovups	-64(%rbx,%rax), %ymm1
	vmovups	-32(%rbx,%rax), %ymm2
	vmovups	(%rbx,%rax), %ymm3
	vmovups	%ymm0, -96(%rbp,%rax)
	vmovups	%ymm1, -64(%rbp,%rax)
	vmovups	%ymm2, -32(%rbp,%rax)
	vmovups	%ymm3, (%rbp,%rax)
	subq	$-128, %rax
	cmpq	%rax, %r10
	jne	8b
	cmpq	%r10, %rdx
	je	5b
	movq	%r10, %rax
	movq	%r10, %rcx
	testb	$120, %dl
	je	10f
	.p2align	4
9:
	movq	(%r14,%rax), %rcx
	movq	%rcx, (%r15,%rax)
	addq	$8, %rax
	cmpq	%rax, %r9
	jne	9b
	movq	%r9, %rcx
	cmpq	%r9, %rdx
	je	5b
10:
	movq	%rcx, %rax
	cmpq	$0, 8(%rsp)
	je	12f
	movq	8(%rsp), %rdi
	movq	%rcx, %rax
	.p2align	4
11:
	movzbl	(%r14,%rax), %esi
	movb	%sil, (%r15,%rax)
	incq	%rax
	decq	%rdi
	jne	11b
12:
	subq	%rdx, %rcx
	cmpq	$-8, %rcx
	ja	5b
	.p2align	4
13:
	movzbl	(%r14,%rax), %ecx
	movb	%cl, (%r15,%rax)
	movzbl	1(%r14,%rax), %ecx
	movb	%cl, 1(%r15,%rax)
	movzbl	2(%r14,%rax), %ecx
	movb	%cl, 2(%r15,%rax)
	movzbl	3(%r14,%rax), %ecx
	movb	%cl, 3(%r15,%rax)
	movzbl	4(%r14,%rax), %ecx
	movb	%cl, 4(%r15,%rax)
	movzbl	5(%r14,%rax), %ecx
	movb	%cl, 5(%r15,%rax)
	movzbl	6(%r14,%rax), %ecx
	movb	%cl, 6(%r15,%rax)
	movzbl	7(%r14,%rax), %ecx
	movb	%cl, 7(%r15,%rax)
	addq	$8, %rax
	cmpq	%rax, %rdx
	jne	13b
	jmp	5b
14:
	addq	$56, %rsp
	popq	%rbx
	popq	%r12
	popq	%r13
	popq	%r14
	popq	%r15
	popq	%rbp
	vzeroupper
	retq
	vj_end	blake2_ffi..many..write_digests..64_1_v4

	vj_constants	32
	.p2align	5, 0x0
.L1_v4_CPI117_0:
	.long	1779033703
	.long	3144134277
	.long	1013904242
	.long	2773480762
	.long	1359893119
	.long	2600822924
	.long	528734635
	.long	1541459225
.L1_v4_CPI117_2:
	.long	0
	.long	1
	.long	2
	.long	3
	.long	4
	.long	8
	.zero	4
	.zero	4
.L1_v4_CPI117_3:
	.quad	0
	.quad	1
	.quad	2
	.quad	4
.L1_v4_CPI117_4:
	.long	0
	.long	1
	.long	2
	.long	3
	.long	4
	.long	5
	.long	6
	.long	8
.L1_v4_CPI117_5:
	.long	0
	.long	1
	.long	2
	.long	3
	.long	4
	.long	5
	.long	6
	.long	9
.L1_v4_CPI117_6:
	.long	0
	.long	1
	.long	2
	.long	3
	.long	4
	.long	5
	.long	6
	.long	10
	vj_constants	16
	.p2align	4, 0x0
.L1_v4_CPI117_1:
	.long	1359893119
	.long	2600822924
	.long	528734635
	.long	1541459225
	vj_constants	8
	.p2align	3, 0x0
.L1_v4_CPI117_7:
	.quad	128
	vj_function	blake2_ffi..blake2s..many..write_all_1_v4
	pushq	%rbp
	pushq	%r15
	pushq	%r14
	pushq	%r13
	pushq	%r12
	pushq	%rbx
	subq	$1896, %rsp
	movq	%r8, %rbp
	movq	%rcx, 104(%rsp)
	movq	%rdi, 472(%rsp)
	testq	%r8, %r8
	je	30f
	movq	%rdx, %r8
	xorl	%ecx, %ecx
	movq	%rbp, 88(%rsp)
	movq	%rdx, (%rsp)
	.p2align	4
1:
	movq	(%r8), %r15
	movq	%r15, %rax
	imulq	%rcx, %rax
	addq	472(%rsp), %rax
	movq	%rax, 8(%rsp)
	movq	%rcx, %rbx
	shlq	$4, %rbx
	movq	%rbp, %r14
	movq	%rcx, 80(%rsp)
	subq	%rcx, %r14
	leaq	480(%rsp), %rdi
	movl	$832, %edx
	xorl	%esi, %esi
	vzeroupper
	vj_c_call	memset
	movq	(%rsp), %r8
	vpxor	%xmm0, %xmm0, %xmm0
	vmovdqu	%ymm0, 1328(%rsp)
	vmovdqu	%ymm0, 1360(%rsp)
	vmovdqu	%ymm0, 1392(%rsp)
	vmovdqu	%ymm0, 1424(%rsp)
	vmovdqu	%ymm0, 1456(%rsp)
	vmovdqu	%ymm0, 1488(%rsp)
	vmovdqu	%ymm0, 1520(%rsp)
	vmovdqu	%ymm0, 1552(%rsp)
	cmpq	$8, %r14
	jb	5f
	movq	%r15, 96(%rsp)
	movq	16(%r8), %rcx
	movq	104(%rsp), %rax
	movq	(%rax,%rbx), %r9
	movq	8(%rax,%rbx), %rax
	movq	%rax, 112(%rsp)
	xorl	%r15d, %r15d
	movq	%rcx, %r12
	movq	%rcx, 288(%rsp)
	testq	%rcx, %rcx
	setne	%al
	je	2f
	movq	8(%r8), %r12
2:
	movq	24(%r8), %rbp
	movq	32(%r8), %r11
	movq	40(%r8), %rcx
	movq	48(%r8), %r14
	movb	%al, %r15b
	movq	104(%rsp), %r13
	movq	16(%r13,%rbx), %rax
	movq	%rax, 144(%rsp)
	movq	24(%r13,%rbx), %rdx
	movq	32(%r13,%rbx), %rax
	movq	%rax, 336(%rsp)
	movq	40(%r13,%rbx), %rsi
	movq	48(%r13,%rbx), %rax
	movq	%rax, 384(%rsp)
	movq	56(%r13,%rbx), %rdi
	movq	64(%r13,%rbx), %rax
	movq	%rax, 416(%rsp)
	movq	72(%r13,%rbx), %r10
	movq	80(%r13,%rbx), %rax
	movq	%rax, 432(%rsp)
	movq	88(%r13,%rbx), %rax
	movq	%rax, 368(%rsp)
	movq	96(%r13,%rbx), %rax
	movq	%rax, 448(%rsp)
	movq	104(%r13,%rbx), %rax
	movq	%rax, 320(%rsp)
	movq	112(%r13,%rbx), %rax
	movq	%rax, 1856(%rsp)
	movq	120(%r13,%rbx), %r8
	movq	%rbp, 480(%rsp)
	movq	%r11, 488(%rsp)
	movq	%rcx, 496(%rsp)
	movq	%r14, 504(%rsp)
	movq	%r15, 512(%rsp)
	movq	%r12, 520(%rsp)
	movq	288(%rsp), %rax
	movq	%rax, 528(%rsp)
	movw	$257, 536(%rsp)
	vpxor	%xmm0, %xmm0, %xmm0
	leaq	538(%rsp), %r13
	vmovdqu	%xmm0, 14(%r13)
	vmovdqu	%xmm0, (%r13)
	movq	%r9, 568(%rsp)
	movq	112(%rsp), %r9
	movq	%r9, 576(%rsp)
	movq	%rbp, 584(%rsp)
	movq	%r11, 592(%rsp)
	movq	%rcx, 600(%rsp)
	movq	%r14, 608(%rsp)
	movq	%r15, 616(%rsp)
	movq	%r12, 624(%rsp)
	movq	%rax, 632(%rsp)
	movw	$257, 640(%rsp)
	vmovdqu	%xmm0, 118(%r13)
	vmovdqu	%xmm0, 104(%r13)
	movq	144(%rsp), %r9
	movq	%r9, 672(%rsp)
	movq	%rdx, 144(%rsp)
	movq	%rdx, 680(%rsp)
	movq	%rbp, 688(%rsp)
	movq	%r11, 696(%rsp)
	movq	%rcx, 704(%rsp)
	movq	%r14, 712(%rsp)
	movq	%r15, 720(%rsp)
	movq	%r12, 728(%rsp)
	movq	%rax, 736(%rsp)
	movw	$257, 744(%rsp)
	vmovdqu	%xmm0, 222(%r13)
	vmovdqu	%xmm0, 208(%r13)
	movq	336(%rsp), %rdx
	movq	%rdx, 776(%rsp)
	movq	320(%rsp), %r9
	movq	%rsi, 336(%rsp)
	movq	%rsi, 784(%rsp)
	movq	%rbp, 792(%rsp)
	movq	%r11, 800(%rsp)
	movq	%rcx, 808(%rsp)
	movq	%r14, 816(%rsp)
	movq	%r15, 824(%rsp)
	movq	%r12, 832(%rsp)
	movq	%rax, 840(%rsp)
	movw	$257, 848(%rsp)
	vmovdqu	%xmm0, 326(%r13)
	vmovdqu	%xmm0, 312(%r13)
	movq	384(%rsp), %rdx
	movq	%rdx, 880(%rsp)
	movq	368(%rsp), %rdx
	movq	%rdi, 384(%rsp)
	movq	%rdi, 888(%rsp)
	movq	%rbp, 896(%rsp)
	movq	%r11, 904(%rsp)
	movq	%rcx, 912(%rsp)
	movq	%r14, 920(%rsp)
	movq	%r15, 928(%rsp)
	movq	%r12, 936(%rsp)
	movq	%rax, 944(%rsp)
	movw	$257, 952(%rsp)
	vmovdqu	%xmm0, 430(%r13)
	vmovdqu	%xmm0, 416(%r13)
	movq	416(%rsp), %rsi
	movq	%rsi, 984(%rsp)
	movq	%r10, 992(%rsp)
	movq	%rbp, 1000(%rsp)
	movq	%r11, 1008(%rsp)
	movq	%rcx, 1016(%rsp)
	movq	%r14, 1024(%rsp)
	movq	%r15, 1032(%rsp)
	movq	%r12, 1040(%rsp)
	movq	%rax, 1048(%rsp)
	movw	$257, 1056(%rsp)
	vmovdqu	%xmm0, 534(%r13)
	vmovdqu	%xmm0, 520(%r13)
	movq	432(%rsp), %rsi
	movq	%rsi, 1088(%rsp)
	movq	%rdx, 1096(%rsp)
	movq	%rbp, 1104(%rsp)
	movq	%r11, 1112(%rsp)
	movq	%rcx, 1120(%rsp)
	movq	%r14, 1128(%rsp)
	movq	%r15, 1136(%rsp)
	movq	%r12, 1144(%rsp)
	movq	%rax, 1152(%rsp)
	movw	$257, 1160(%rsp)
	vmovdqu	%xmm0, 638(%r13)
	vmovdqu	%xmm0, 624(%r13)
	movq	448(%rsp), %rsi
	movq	%rsi, 1192(%rsp)
	movq	%r9, %rsi
	movq	%r9, 1200(%rsp)
	movq	%rbp, 1208(%rsp)
	movq	%r11, 1216(%rsp)
	movq	%rcx, 1224(%rsp)
	movq	%r14, 1232(%rsp)
	movq	%r15, 1240(%rsp)
	movq	%r12, 1248(%rsp)
	movq	%rax, 1256(%rsp)
	movw	$257, 1264(%rsp)
	vmovdqu	%xmm0, 742(%r13)
	vmovdqu	%xmm0, 728(%r13)
	movq	1856(%rsp), %rax
	movq	%rax, 1296(%rsp)
	movq	%r8, %r15
	movq	%r8, 1304(%rsp)
	je	3f
	cmpq	$8, %r11
	movq	88(%rsp), %rbp
	movq	(%rsp), %r8
	movq	96(%rsp), %r13
	movq	112(%rsp), %r9
	ja	5f
	cmpq	$8, %r14
	ja	5f
	cmpq	$32, 288(%rsp)
	ja	5f
	cmpq	$-64, %r9
	jae	5f
	movq	144(%rsp), %rcx
	cmpq	$-64, %rcx
	setb	%al
	cmpq	%r9, %rcx
	sete	%cl
	testb	%cl, %al
	je	5f
	cmpq	$-65, 336(%rsp)
	ja	5f
	cmpq	%r9, 336(%rsp)
	jne	5f
	cmpq	$-65, 384(%rsp)
	ja	5f
	cmpq	%r9, 384(%rsp)
	jne	5f
	cmpq	$-65, %r10
	ja	5f
	cmpq	%r9, %r10
	jne	5f
	cmpq	$-65, %rdx
	ja	5f
	cmpq	%r9, %rdx
	jne	5f
	cmpq	$-64, %rsi
	setb	%al
	cmpq	%r9, %rsi
	sete	%cl
	cmpq	$-64, %r15
	setb	%dl
	andb	%al, %dl
	testb	%cl, %dl
	movq	112(%rsp), %r9
	je	5f
	addq	$64, %r9
	jmp	4f
3:
	cmpq	$9, %r14
	setb	%al
	cmpq	$9, %r11
	setb	%cl
	testb	%al, %cl
	movq	88(%rsp), %rbp
	movq	(%rsp), %r8
	movq	96(%rsp), %r13
	movq	112(%rsp), %r9
	je	5f
	cmpq	%r9, 144(%rsp)
	jne	5f
	cmpq	%r9, 336(%rsp)
	jne	5f
	cmpq	%r9, 384(%rsp)
	jne	5f
	cmpq	%r9, %r10
	jne	5f
	cmpq	%r9, %rdx
	jne	5f
	cmpq	%r9, %rsi
	jne	5f
4:
	leaq	64(%r15), %rax
	cmpq	$0, 288(%rsp)
	cmoveq	%r15, %rax
	cmpq	%r9, %rax
	jne	5f
	vpxor	%xmm0, %xmm0, %xmm0
	vmovdqu	%ymm0, 1808(%rsp)
	vmovdqu	%ymm0, 1776(%rsp)
	vmovdqu	%ymm0, 1744(%rsp)
	vmovdqu	%ymm0, 1712(%rsp)
	vmovdqu	%ymm0, 1680(%rsp)
	vmovdqu	%ymm0, 1648(%rsp)
	vmovdqu	%ymm0, 1616(%rsp)
	vmovdqu	%ymm0, 1584(%rsp)
	movzbl	%r13b, %r12d
	vmovdqu	%ymm0, 192(%rsp)
	vmovdqu	%ymm0, 160(%rsp)
	movl	528(%rsp), %eax
	shll	$8, %eax
	xorl	%ecx, %ecx
	cmpb	$0, 512(%rsp)
	movzwl	%ax, %eax
	cmovel	%ecx, %eax
	movq	480(%rsp), %rsi
	movq	488(%rsp), %rdx
	movq	496(%rsp), %rbx
	movl	536(%rsp), %ecx
	shll	$16, %ecx
	orl	%eax, %ecx
	orl	%r12d, %ecx
	vmovd	%ecx, %xmm0
	vpinsrd	$1, 540(%rsp), %xmm0, %xmm0
	vmovq	544(%rsp), %xmm1
	vpunpcklqdq	%xmm1, %xmm0, %xmm0
	vpinsrw	$7, 552(%rsp), %xmm0, %xmm0
	vmovdqu	%ymm0, 112(%rsp)
	movq	504(%rsp), %r15
	vpxor	%xmm0, %xmm0, %xmm0
	vmovdqa	%xmm0, 16(%rsp)
	leaq	16(%rsp), %rdi
	vzeroupper
	vj_c_call	memcpy
	leaq	24(%rsp), %rdi
	movq	%rbx, %rsi
	movq	%r15, %rdx
	vj_c_call	memcpy
	vmovups	112(%rsp), %ymm0
	vinsertf128	$1, 16(%rsp), %ymm0, %ymm0
	vxorps	.L1_v4_CPI117_0(%rip), %ymm0, %ymm0
	vmovups	%ymm0, 160(%rsp)
	movl	632(%rsp), %eax
	shll	$8, %eax
	cmpb	$0, 616(%rsp)
	movzwl	%ax, %eax
	movl	$0, %ecx
	cmovel	%ecx, %eax
	movq	584(%rsp), %rsi
	movq	592(%rsp), %rdx
	movq	600(%rsp), %rbx
	movq	608(%rsp), %r15
	movl	640(%rsp), %ecx
	shll	$16, %ecx
	orl	%eax, %ecx
	orl	%r12d, %ecx
	vmovd	%ecx, %xmm0
	vpinsrd	$1, 644(%rsp), %xmm0, %xmm0
	vmovq	648(%rsp), %xmm1
	vpunpcklqdq	%xmm1, %xmm0, %xmm0
	vpinsrw	$7, 656(%rsp), %xmm0, %xmm0
	vmovdqu	%ymm0, 112(%rsp)
	vpxor	%xmm0, %xmm0, %xmm0
	vmovdqa	%xmm0, 16(%rsp)
	leaq	16(%rsp), %r14
	movq	%r14, %rdi
	vzeroupper
	vj_c_call	memcpy
	leaq	24(%rsp), %rdi
	movq	%rbx, %rsi
	movq	%r15, %rdx
	vj_c_call	memcpy
	vmovups	112(%rsp), %ymm0
	vinsertf128	$1, 16(%rsp), %ymm0, %ymm0
	vxorps	.L1_v4_CPI117_0(%rip), %ymm0, %ymm0
	vmovups	%ymm0, 192(%rsp)
	movl	736(%rsp), %eax
	shll	$8, %eax
	cmpb	$0, 720(%rsp)
	movzwl	%ax, %eax
	movl	$0, %ecx
	cmovel	%ecx, %eax
	movq	688(%rsp), %rsi
	movq	696(%rsp), %rdx
	movq	704(%rsp), %rbx
	movq	712(%rsp), %r15
	movl	744(%rsp), %ecx
	shll	$16, %ecx
	orl	%eax, %ecx
	orl	%r12d, %ecx
	vmovd	%ecx, %xmm0
	vpinsrd	$1, 748(%rsp), %xmm0, %xmm0
	vmovq	752(%rsp), %xmm1
	vpunpcklqdq	%xmm1, %xmm0, %xmm0
	vpinsrw	$7, 760(%rsp), %xmm0, %xmm0
	vmovdqa	%xmm0, 448(%rsp)
	vpxor	%xmm0, %xmm0, %xmm0
	vmovdqa	%xmm0, 16(%rsp)
	movq	%r14, %rdi
	vzeroupper
	vj_c_call	memcpy
	leaq	24(%rsp), %rdi
	movq	%rbx, %rsi
	movq	%r15, %rdx
	vj_c_call	memcpy
	vmovaps	.L1_v4_CPI117_1(%rip), %xmm0
	vxorps	16(%rsp), %xmm0, %xmm0
	vmovaps	%xmm0, 112(%rsp)
	movl	840(%rsp), %eax
	shll	$8, %eax
	cmpb	$0, 824(%rsp)
	movzwl	%ax, %eax
	movl	$0, %ecx
	cmovel	%ecx, %eax
	movq	792(%rsp), %rsi
	movq	800(%rsp), %rdx
	movq	808(%rsp), %rbx
	movq	816(%rsp), %r15
	movl	848(%rsp), %ecx
	shll	$16, %ecx
	orl	%eax, %ecx
	orl	%r12d, %ecx
	vmovd	%ecx, %xmm0
	vpinsrd	$1, 852(%rsp), %xmm0, %xmm0
	vmovq	856(%rsp), %xmm1
	vpunpcklqdq	%xmm1, %xmm0, %xmm0
	vpinsrw	$7, 864(%rsp), %xmm0, %xmm0
	vmovdqa	%xmm0, 416(%rsp)
	vpxor	%xmm0, %xmm0, %xmm0
	vmovdqa	%xmm0, 16(%rsp)
	movq	%r14, %rdi
	vj_c_call	memcpy
	leaq	24(%rsp), %r14
	movq	%r14, %rdi
	movq	%rbx, %rsi
	movq	%r15, %rdx
	vj_c_call	memcpy
	vmovaps	.L1_v4_CPI117_1(%rip), %xmm0
	vxorps	16(%rsp), %xmm0, %xmm0
	vmovups	%ymm0, 1856(%rsp)
	movl	944(%rsp), %eax
	shll	$8, %eax
	cmpb	$0, 928(%rsp)
	movzwl	%ax, %eax
	movl	$0, %ecx
	cmovel	%ecx, %eax
	movq	896(%rsp), %rsi
	movq	904(%rsp), %rdx
	movq	912(%rsp), %rbx
	movq	920(%rsp), %r15
	movl	952(%rsp), %ecx
	shll	$16, %ecx
	orl	%eax, %ecx
	orl	%r12d, %ecx
	vmovd	%ecx, %xmm0
	vpinsrd	$1, 956(%rsp), %xmm0, %xmm0
	vmovq	960(%rsp), %xmm1
	vpunpcklqdq	%xmm1, %xmm0, %xmm0
	vpinsrw	$7, 968(%rsp), %xmm0, %xmm0
	vmovdqa	%xmm0, 368(%rsp)
	vpxor	%xmm0, %xmm0, %xmm0
	vmovdqa	%xmm0, 16(%rsp)
	leaq	16(%rsp), %rdi
	vzeroupper
	vj_c_call	memcpy
	movq	%r14, %rdi
	movq	%rbx, %rsi
	movq	%r15, %rdx
	vj_c_call	memcpy
	vmovaps	.L1_v4_CPI117_1(%rip), %xmm0
	vxorps	16(%rsp), %xmm0, %xmm0
	vmovaps	%xmm0, 432(%rsp)
	movl	1048(%rsp), %eax
	shll	$8, %eax
	cmpb	$0, 1032(%rsp)
	movzwl	%ax, %eax
	movl	$0, %ecx
	cmovel	%ecx, %eax
	movq	1000(%rsp), %rsi
	movq	1008(%rsp), %rdx
	movq	1016(%rsp), %rbx
	movq	1024(%rsp), %r15
	movl	1056(%rsp), %ecx
	shll	$16, %ecx
	orl	%eax, %ecx
	orl	%r12d, %ecx
	vmovd	%ecx, %xmm0
	vpinsrd	$1, 1060(%rsp), %xmm0, %xmm0
	vmovq	1064(%rsp), %xmm1
	vpunpcklqdq	%xmm1, %xmm0, %xmm0
	vpinsrw	$7, 1072(%rsp), %xmm0, %xmm0
	vmovdqa	%xmm0, 320(%rsp)
	vpxor	%xmm0, %xmm0, %xmm0
	vmovdqa	%xmm0, 16(%rsp)
	leaq	16(%rsp), %rdi
	vj_c_call	memcpy
	movq	%r14, %rdi
	movq	%rbx, %rsi
	movq	%r15, %rdx
	vj_c_call	memcpy
	vmovaps	.L1_v4_CPI117_1(%rip), %xmm0
	vxorps	16(%rsp), %xmm0, %xmm0
	vmovups	%ymm0, 384(%rsp)
	movl	1152(%rsp), %eax
	shll	$8, %eax
	cmpb	$0, 1136(%rsp)
	movzwl	%ax, %eax
	movl	$0, %ecx
	cmovel	%ecx, %eax
	movq	1104(%rsp), %rsi
	movq	1112(%rsp), %rdx
	movq	1120(%rsp), %rbx
	movq	1128(%rsp), %r15
	movl	1160(%rsp), %ecx
	shll	$16, %ecx
	orl	%eax, %ecx
	orl	%r12d, %ecx
	vmovd	%ecx, %xmm0
	vpinsrd	$1, 1164(%rsp), %xmm0, %xmm0
	vmovq	1168(%rsp), %xmm1
	vpunpcklqdq	%xmm1, %xmm0, %xmm0
	vpinsrw	$7, 1176(%rsp), %xmm0, %xmm0
	vmovdqa	%xmm0, 144(%rsp)
	vpxor	%xmm0, %xmm0, %xmm0
	vmovdqa	%xmm0, 16(%rsp)
	leaq	16(%rsp), %rdi
	vzeroupper
	vj_c_call	memcpy
	movq	%r14, %rdi
	movq	%rbx, %rsi
	movq	%r15, %rdx
	vj_c_call	memcpy
	vmovaps	.L1_v4_CPI117_1(%rip), %xmm0
	vxorps	16(%rsp), %xmm0, %xmm0
	vmovups	%ymm0, 336(%rsp)
	movl	1256(%rsp), %eax
	shll	$8, %eax
	cmpb	$0, 1240(%rsp)
	movzwl	%ax, %eax
	movl	$0, %ecx
	cmovel	%ecx, %eax
	movq	1208(%rsp), %rsi
	movq	1216(%rsp), %rdx
	movq	1224(%rsp), %rbx
	movq	1232(%rsp), %r15
	movl	1264(%rsp), %ecx
	shll	$16, %ecx
	orl	%eax, %ecx
	orl	%r12d, %ecx
	vmovd	%ecx, %xmm0
	vpinsrd	$1, 1268(%rsp), %xmm0, %xmm0
	vmovq	1272(%rsp), %xmm1
	vpunpcklqdq	%xmm1, %xmm0, %xmm0
	vpinsrw	$7, 1280(%rsp), %xmm0, %xmm0
	vmovdqa	%xmm0, 1840(%rsp)
	vpxor	%xmm0, %xmm0, %xmm0
	vmovdqa	%xmm0, 16(%rsp)
	leaq	16(%rsp), %rdi
	vzeroupper
	vj_c_call	memcpy
	movq	%r14, %rdi
	movq	%rbx, %rsi
	movq	%r15, %rdx
	vj_c_call	memcpy
	vmovdqa	.L1_v4_CPI117_1(%rip), %xmm0
	vpxor	16(%rsp), %xmm0, %xmm0
	vmovdqa	160(%rsp), %xmm1
	vpinsrd	$1, 192(%rsp), %xmm1, %xmm2
	vmovdqu	164(%rsp), %xmm1
	vpinsrd	$1, 196(%rsp), %xmm1, %xmm5
	vmovdqu	168(%rsp), %xmm1
	vpinsrd	$1, 200(%rsp), %xmm1, %xmm7
	vmovdqu	172(%rsp), %xmm1
	vpinsrd	$1, 204(%rsp), %xmm1, %xmm8
	vmovdqa	176(%rsp), %xmm1
	vpinsrd	$1, 208(%rsp), %xmm1, %xmm6
	vmovdqu	180(%rsp), %xmm1
	vpinsrd	$1, 212(%rsp), %xmm1, %xmm4
	vmovdqu	184(%rsp), %xmm1
	vpinsrd	$1, 216(%rsp), %xmm1, %xmm3
	vmovdqu	188(%rsp), %xmm1
	vpinsrd	$1, 220(%rsp), %xmm1, %xmm1
	movq	576(%rsp), %rax
	leaq	64(%rax), %r12
	cmpq	$0, 288(%rsp)
	vmovdqa	.L1_v4_CPI117_0(%rip), %ymm10
	vpxor	448(%rsp), %xmm10, %xmm15
	vpxor	416(%rsp), %xmm10, %xmm9
	vpxord	368(%rsp), %xmm10, %xmm16
	vpxord	320(%rsp), %xmm10, %xmm17
	vpxord	144(%rsp), %xmm10, %xmm18
	vmovd	%xmm15, %ecx
	vmovd	%xmm9, %edx
	vpinsrd	$2, %ecx, %xmm2, %xmm2
	vpinsrd	$3, %edx, %xmm2, %xmm2
	vpxord	1840(%rsp), %xmm10, %xmm19
	vinserti32x4	$1, %xmm16, %ymm2, %ymm2
	vmovdqa	.L1_v4_CPI117_2(%rip), %ymm11
	vpermt2d	%ymm17, %ymm11, %ymm2
	vmovdqa	.L1_v4_CPI117_3(%rip), %ymm12
	vpermt2q	%ymm18, %ymm12, %ymm2
	vmovdqa	.L1_v4_CPI117_4(%rip), %ymm10
	vpermt2d	%ymm19, %ymm10, %ymm2
	vpextrd	$1, %xmm15, %ecx
	vpextrd	$1, %xmm9, %edx
	vpextrd	$1, %xmm16, %esi
	vpextrd	$1, %xmm17, %edi
	vpextrd	$1, %xmm18, %r8d
	vpinsrd	$2, %ecx, %xmm5, %xmm5
	vpinsrd	$3, %edx, %xmm5, %xmm5
	vpbroadcastd	%esi, %ymm13
	vpblendd	$16, %ymm13, %ymm5, %ymm5
	vpbroadcastd	%edi, %ymm13
	vpblendd	$32, %ymm13, %ymm5, %ymm5
	vpbroadcastd	%r8d, %ymm13
	vpblendd	$64, %ymm13, %ymm5, %ymm5
	vpextrd	$2, %xmm9, %ecx
	vpextrd	$2, %xmm16, %edx
	vpextrd	$2, %xmm17, %esi
	vpextrd	$2, %xmm18, %edi
	vmovdqa	.L1_v4_CPI117_5(%rip), %ymm13
	vpblendd	$4, %xmm15, %xmm7, %xmm7
	vpinsrd	$3, %ecx, %xmm7, %xmm7
	vpermt2d	%ymm19, %ymm13, %ymm5
	vpbroadcastd	%edx, %ymm14
	vpblendd	$16, %ymm14, %ymm7, %ymm7
	vpbroadcastd	%esi, %ymm14
	vpblendd	$32, %ymm14, %ymm7, %ymm7
	vpbroadcastd	%edi, %ymm14
	vpblendd	$64, %ymm14, %ymm7, %ymm7
	vmovdqa	.L1_v4_CPI117_6(%rip), %ymm14
	vpextrd	$3, %xmm15, %ecx
	vpextrd	$3, %xmm16, %edx
	vpextrd	$3, %xmm17, %esi
	vpextrd	$3, %xmm18, %edi
	vpermt2d	%ymm19, %ymm14, %ymm7
	vpinsrd	$2, %ecx, %xmm8, %xmm8
	vpbroadcastd	%edx, %ymm15
	vpblendd	$240, %ymm15, %ymm8, %ymm8
	vpbroadcastd	%esi, %ymm15
	vpblendd	$32, %ymm15, %ymm8, %ymm8
	vpbroadcastd	%edi, %ymm15
	vpblendd	$64, %ymm15, %ymm8, %ymm8
	vinserti32x4	$1, %xmm19, %ymm9, %ymm9
	vmovdqa64	112(%rsp), %xmm16
	vmovd	%xmm16, %ecx
	vmovdqu64	1856(%rsp), %ymm17
	vmovd	%xmm17, %edx
	vpinsrd	$2, %ecx, %xmm6, %xmm6
	vpinsrd	$3, %edx, %xmm6, %xmm15
	vpblendd	$136, %ymm9, %ymm8, %ymm6
	vmovdqa	432(%rsp), %xmm9
	vinserti128	$1, %xmm9, %ymm15, %ymm8
	vmovdqu	384(%rsp), %ymm15
	vpermt2d	%ymm15, %ymm11, %ymm8
	vmovdqu64	336(%rsp), %ymm18
	vpermt2q	%ymm18, %ymm12, %ymm8
	vpextrd	$1, %xmm16, %ecx
	vmovdqa64	%xmm16, %xmm11
	vpextrd	$1, %xmm17, %edx
	vpextrd	$1, %xmm9, %esi
	vmovdqa	%xmm9, %xmm12
	vpextrd	$1, %xmm15, %edi
	vpextrd	$1, %xmm18, %r8d
	vpinsrd	$2, %ecx, %xmm4, %xmm4
	vpermt2d	%ymm0, %ymm10, %ymm8
	vpinsrd	$3, %edx, %xmm4, %xmm4
	vpbroadcastd	%esi, %ymm9
	vpblendd	$16, %ymm9, %ymm4, %ymm4
	vpbroadcastd	%edi, %ymm9
	vpblendd	$32, %ymm9, %ymm4, %ymm4
	vpbroadcastd	%r8d, %ymm9
	vpextrd	$2, %xmm17, %ecx
	vpextrd	$2, %xmm12, %edx
	vpextrd	$2, %xmm15, %esi
	vpextrd	$2, %xmm18, %edi
	vpblendd	$64, %ymm9, %ymm4, %ymm4
	vpblendd	$4, %xmm11, %xmm3, %xmm3
	vpinsrd	$3, %ecx, %xmm3, %xmm3
	vpermt2d	%ymm0, %ymm13, %ymm4
	vpbroadcastd	%edx, %ymm9
	vpblendd	$16, %ymm9, %ymm3, %ymm3
	vpbroadcastd	%esi, %ymm9
	vpblendd	$32, %ymm9, %ymm3, %ymm3
	vpbroadcastd	%edi, %ymm9
	vpblendd	$64, %ymm9, %ymm3, %ymm3
	vpermt2d	%ymm0, %ymm14, %ymm3
	vpextrd	$3, %xmm16, %ecx
	vpextrd	$3, %xmm12, %edx
	vpextrd	$3, %xmm15, %esi
	vpextrd	$3, %xmm18, %edi
	vpinsrd	$2, %ecx, %xmm1, %xmm1
	vpbroadcastd	%edx, %ymm9
	vpblendd	$240, %ymm9, %ymm1, %ymm1
	vpbroadcastd	%esi, %ymm9
	vpblendd	$32, %ymm9, %ymm1, %ymm1
	vpbroadcastd	%edi, %ymm9
	vpblendd	$64, %ymm9, %ymm1, %ymm1
	vinserti32x4	$1, %xmm0, %ymm17, %ymm0
	vpblendd	$136, %ymm0, %ymm1, %ymm0
	vmovdqu	%ymm2, 1584(%rsp)
	vmovdqu	%ymm5, 1616(%rsp)
	vmovdqu	%ymm7, 1648(%rsp)
	vmovdqu	%ymm6, 1680(%rsp)
	vmovdqu	%ymm8, 1712(%rsp)
	vmovdqu	%ymm4, 1744(%rsp)
	vmovdqu	%ymm3, 1776(%rsp)
	vmovdqu	%ymm0, 1808(%rsp)
	cmoveq	%rax, %r12
	cmpq	$1, %r12
	movq	%r12, %r14
	adcq	$-1, %r14
	shrq	$6, %r14
	je	13f
	vpxor	%xmm0, %xmm0, %xmm0
	vmovdqa	%xmm0, 1312(%rsp)
	xorl	%r15d, %r15d
	leaq	1584(%rsp), %rbx
	leaq	480(%rsp), %rsi
	movl	$64, %r13d
	leaq	1312(%rsp), %r8
	movl	$64, %ecx
	movq	%rbx, %rdi
	xorl	%edx, %edx
	vzeroupper
	callq	blake2_compress..many..blake2s..compress_at_1_v4
	decq	%r14
	movq	576(%rsp), %rax
	cmpq	$64, %rax
	movl	$64, %ecx
	cmovbq	%rax, %rcx
	leaq	64(%rax), %r12
	cmpb	$0, 512(%rsp)
	cmovneq	%r15, %rcx
	cmoveq	%rax, %r12
	addq	568(%rsp), %rcx
	movq	680(%rsp), %rax
	movq	%rcx, 160(%rsp)
	movq	%r14, 168(%rsp)
	cmpq	$64, %rax
	cmovaeq	%r13, %rax
	cmpb	$0, 616(%rsp)
	cmovneq	%r15, %rax
	addq	672(%rsp), %rax
	movq	%rax, 176(%rsp)
	movq	%r14, 184(%rsp)
	movq	784(%rsp), %rax
	cmpq	$64, %rax
	cmovaeq	%r13, %rax
	cmpb	$0, 720(%rsp)
	cmovneq	%r15, %rax
	addq	776(%rsp), %rax
	movq	%rax, 192(%rsp)
	movq	%r14, 200(%rsp)
	movq	888(%rsp), %rax
	cmpq	$64, %rax
	cmovaeq	%r13, %rax
	cmpb	$0, 824(%rsp)
	cmovneq	%r15, %rax
	addq	880(%rsp), %rax
	movq	%rax, 208(%rsp)
	movq	%r14, 216(%rsp)
	movq	992(%rsp), %rax
	cmpq	$64, %rax
	cmovaeq	%r13, %rax
	cmpb	$0, 928(%rsp)
	cmovneq	%r15, %rax
	addq	984(%rsp), %rax
	movq	1096(%rsp), %rcx
	movq	%rax, 224(%rsp)
	movq	%r14, 232(%rsp)
	cmpq	$64, %rcx
	cmovaeq	%r13, %rcx
	cmpb	$0, 1032(%rsp)
	cmovneq	%r15, %rcx
	addq	1088(%rsp), %rcx
	movq	%rcx, 240(%rsp)
	movq	%r14, 248(%rsp)
	movq	1200(%rsp), %rax
	cmpq	$64, %rax
	cmovaeq	%r13, %rax
	cmpb	$0, 1136(%rsp)
	cmovneq	%r15, %rax
	addq	1192(%rsp), %rax
	movq	%rax, 256(%rsp)
	movq	%r14, 264(%rsp)
	movq	1304(%rsp), %rax
	cmpq	$64, %rax
	cmovbq	%rax, %r13
	cmpb	$0, 1240(%rsp)
	cmovneq	%r15, %r13
	addq	1296(%rsp), %r13
	movq	%r13, 272(%rsp)
	movq	96(%rsp), %r13
	movq	%r14, 280(%rsp)
	vpbroadcastq	.L1_v4_CPI117_7(%rip), %ymm0
	vmovdqu	%ymm0, 16(%rsp)
	vmovdqu	%ymm0, 48(%rsp)
	leaq	160(%rsp), %rsi
	leaq	16(%rsp), %rdx
	movq	%rbx, %rdi
	leaq	1312(%rsp), %rcx
	vzeroupper
	callq	blake2_compress..many..blake2s..compress_blocks_1_v4
	cmpq	$1, %r12
	movq	%r12, %rdx
	adcq	$-1, %rdx
	shrq	$6, %rdx
	leaq	1360(%rsp), %rbx
	leaq	1392(%rsp), %r14
	jmp	14f
	.p2align	4
5:
	movq	(%r8), %r14
	movq	16(%r8), %r12
	movq	32(%r8), %rdx
	movq	48(%r8), %r13
	leaq	-33(%r14), %rax
	cmpq	$-32, %rax
	setb	%al
	cmpq	$33, %r12
	setae	%cl
	cmpq	$9, %rdx
	setae	%sil
	orb	%cl, %sil
	orb	%al, %sil
	cmpq	$9, %r13
	setae	%al
	orb	%sil, %al
	jne	11f
	movq	104(%rsp), %rax
	movq	(%rax,%rbx), %rcx
	movq	%rcx, 112(%rsp)
	movq	8(%rax,%rbx), %rbx
	movq	24(%r8), %rsi
	movq	40(%r8), %r15
	testq	%r12, %r12
	je	6f
	movq	8(%r8), %rbp
	vpxor	%xmm0, %xmm0, %xmm0
	vmovdqa	%xmm0, 16(%rsp)
	movl	%r12d, %eax
	shll	$8, %eax
	addl	%r14d, %eax
	addl	$16842752, %eax
	vmovd	%eax, %xmm0
	vmovdqu	%ymm0, 288(%rsp)
	leaq	16(%rsp), %rdi
	vzeroupper
	vj_c_call	memcpy
	leaq	24(%rsp), %rdi
	movq	%r15, %rsi
	movq	%r13, %rdx
	vj_c_call	memcpy
	vmovups	288(%rsp), %ymm0
	vinsertf128	$1, 16(%rsp), %ymm0, %ymm0
	vmovups	%ymm0, 288(%rsp)
	movl	$32, %eax
	subq	%r12, %rax
	xorl	%edx, %edx
	cmpq	$32, %r12
	cmovbq	%rax, %rdx
	leaq	(%rsp,%r12), %rdi
	addq	$16, %rdi
	xorl	%esi, %esi
	vzeroupper
	vj_c_call	memset
	leaq	16(%rsp), %rdi
	movq	%rbp, %rsi
	movq	88(%rsp), %rbp
	movq	%r12, %rdx
	vj_c_call	memcpy
	vxorps	%xmm0, %xmm0, %xmm0
	leaq	192(%rsp), %rax
	vmovups	%ymm0, (%rax)
	vmovups	16(%rsp), %ymm0
	vmovups	%ymm0, 160(%rsp)
	vmovups	288(%rsp), %ymm0
	vxorps	.L1_v4_CPI117_0(%rip), %ymm0, %ymm0
	movw	$64, %ax
	jmp	7f
6:
	vpxor	%xmm0, %xmm0, %xmm0
	vmovdqa	%xmm0, 16(%rsp)
	movl	%r14d, %eax
	orl	$16842752, %eax
	vmovd	%eax, %xmm0
	vmovdqu	%ymm0, 288(%rsp)
	leaq	16(%rsp), %rdi
	vzeroupper
	vj_c_call	memcpy
	leaq	24(%rsp), %rdi
	movq	%r15, %rsi
	movq	%r13, %rdx
	vj_c_call	memcpy
	vmovups	288(%rsp), %ymm0
	vinsertf128	$1, 16(%rsp), %ymm0, %ymm0
	vxorps	%xmm1, %xmm1, %xmm1
	vmovups	%ymm1, 160(%rsp)
	vmovups	%ymm1, 192(%rsp)
	vmovups	%ymm1, 16(%rsp)
	vxorps	.L1_v4_CPI117_0(%rip), %ymm0, %ymm0
	xorl	%eax, %eax
7:
	vmovups	%ymm0, 1584(%rsp)
	vmovups	%ymm0, 1616(%rsp)
	movq	$0, 1648(%rsp)
	movw	%ax, 1656(%rsp)
	movw	%ax, 1658(%rsp)
	movw	%r14w, 1660(%rsp)
	movw	$0, 1662(%rsp)
	vmovups	160(%rsp), %ymm0
	vmovdqu	192(%rsp), %ymm1
	leaq	1664(%rsp), %rcx
	vmovdqu	%ymm1, 32(%rcx)
	vmovups	%ymm0, (%rcx)
	vmovdqu	16(%rsp), %ymm0
	vmovdqu	%ymm0, 64(%rcx)
	cmpq	$1, %rbx
	jne	8f
	testq	%r12, %r12
	je	9f
	leaq	1584(%rsp), %rdi
	movl	$1, %edx
	movq	112(%rsp), %rsi
	vzeroupper
	callq	blake2_state..blake2s..State..absorb_blocks_1_v4
	jmp	10f
	.p2align	4
8:
	leaq	1584(%rsp), %rdi
	movq	112(%rsp), %rsi
	movq	%rbx, %rdx
	vzeroupper
	callq	blake2_state..blake2s..State..absorb_blocks_1_v4
	jmp	10f
9:
	movq	112(%rsp), %rcx
	movzbl	(%rcx), %ecx
	movzwl	%ax, %eax
	movb	%cl, 1664(%rsp,%rax)
	orl	$1, %eax
	movw	%ax, 1656(%rsp)
	.p2align	4
10:
	movq	8(%rsp), %rsi
	leaq	1584(%rsp), %rdi
	vzeroupper
	callq	blake2_state..blake2s..State..write_digest_1_v4
	movq	(%rsp), %r8
11:
	movl	$1, %eax
12:
	movq	80(%rsp), %rcx
	addq	%rax, %rcx
	cmpq	%rbp, %rcx
	jb	1b
	jmp	30f
13:
	leaq	1360(%rsp), %rbx
	leaq	1392(%rsp), %r14
	xorl	%edx, %edx
14:
	movl	$1, %eax
	vmovd	%eax, %xmm0
	vpinsrb	$1, 560(%rsp), %xmm0, %xmm0
	vpinsrb	$2, %eax, %xmm0, %xmm0
	vpinsrb	$3, 664(%rsp), %xmm0, %xmm0
	vpinsrb	$4, %eax, %xmm0, %xmm0
	vpinsrb	$5, 768(%rsp), %xmm0, %xmm0
	vpinsrb	$6, %eax, %xmm0, %xmm0
	vpinsrb	$7, 872(%rsp), %xmm0, %xmm0
	vpinsrb	$8, %eax, %xmm0, %xmm0
	vpinsrb	$9, 976(%rsp), %xmm0, %xmm0
	vpinsrb	$10, %eax, %xmm0, %xmm0
	vpinsrb	$11, 1080(%rsp), %xmm0, %xmm0
	vpinsrb	$12, %eax, %xmm0, %xmm0
	vpinsrb	$13, 1184(%rsp), %xmm0, %xmm0
	vpinsrb	$14, %eax, %xmm0, %xmm0
	vpinsrb	$15, 1288(%rsp), %xmm0, %xmm0
	vmovdqa	%xmm0, 160(%rsp)
	leaq	1584(%rsp), %rdi
	leaq	480(%rsp), %rsi
	leaq	160(%rsp), %r8
	movq	%r12, %rcx
	vzeroupper
	callq	blake2_compress..many..blake2s..compress_at_1_v4
	vmovdqu	1584(%rsp), %ymm0
	vmovdqu	1616(%rsp), %ymm1
	vmovdqu	1648(%rsp), %ymm2
	vmovdqu	1680(%rsp), %ymm3
	vpunpckhdq	%ymm1, %ymm0, %ymm4
	vpunpckhdq	%ymm3, %ymm2, %ymm5
	vpunpckhqdq	%ymm5, %ymm4, %ymm6
	vmovdqu	1712(%rsp), %ymm7
	vmovdqu	1744(%rsp), %ymm8
	vpunpckhdq	%ymm8, %ymm7, %ymm9
	vmovdqu	1776(%rsp), %ymm10
	vmovdqu	1808(%rsp), %ymm11
	vpunpckhdq	%ymm11, %ymm10, %ymm12
	vpunpckhqdq	%ymm12, %ymm9, %ymm13
	vpunpcklqdq	%ymm5, %ymm4, %ymm4
	vpunpcklqdq	%ymm12, %ymm9, %ymm5
	vperm2i128	$49, %ymm5, %ymm4, %ymm9
	vpunpckldq	%ymm1, %ymm0, %ymm0
	vpunpckldq	%ymm3, %ymm2, %ymm1
	vpunpckhqdq	%ymm1, %ymm0, %ymm2
	vpunpckldq	%ymm8, %ymm7, %ymm3
	vpunpckldq	%ymm11, %ymm10, %ymm7
	vpunpckhqdq	%ymm7, %ymm3, %ymm8
	vperm2i128	$49, %ymm8, %ymm2, %ymm10
	vpunpcklqdq	%ymm1, %ymm0, %ymm0
	vpunpcklqdq	%ymm7, %ymm3, %ymm1
	vperm2i128	$49, %ymm1, %ymm0, %ymm3
	vinserti128	$1, %xmm13, %ymm6, %ymm7
	vinserti128	$1, %xmm5, %ymm4, %ymm4
	vinserti128	$1, %xmm8, %ymm2, %ymm2
	vinserti128	$1, %xmm1, %ymm0, %ymm0
	vmovdqu	%ymm0, 1328(%rsp)
	vmovdqu	%ymm2, 1360(%rsp)
	vmovdqu	%ymm4, 1392(%rsp)
	vmovdqu	%ymm7, 1424(%rsp)
	vmovdqu	%ymm3, 1456(%rsp)
	vmovdqu	%ymm10, 1488(%rsp)
	vmovdqu	%ymm9, 1520(%rsp)
	vperm2i128	$49, %ymm13, %ymm6, %ymm0
	vmovdqu	%ymm0, 1552(%rsp)
	cmpq	$32, %r13
	jne	15f
	leaq	1328(%rsp), %rax
	movq	8(%rsp), %r11
	movq	%r11, %rcx
	subq	%rax, %rcx
	cmpq	$31, %rcx
	vmovups	1328(%rsp), %ymm0
	vmovups	%ymm0, (%r11)
	movq	(%rsp), %r8
	leaq	32(%r11), %rax
	movq	%rax, %rcx
	subq	%rbx, %rcx
	cmpq	$32, %rcx
	jae	16f
	vmovups	1360(%rsp), %ymm0
	jmp	17f
15:
	leaq	1328(%rsp), %rsi
	movq	8(%rsp), %r15
	movq	%r15, %rdi
	movq	%r13, %rdx
	vzeroupper
	vj_c_call	memcpy
	leaq	(%r15,%r13), %rdi
	movq	%rbx, %rsi
	movq	%r13, %rdx
	vj_c_call	memcpy
	leaq	(%r15,%r13,2), %rdi
	movq	%r14, %rsi
	movq	%r13, %rdx
	vj_c_call	memcpy
	leaq	(,%r13,2), %rbx
	addq	%r13, %rbx
	leaq	(%r15,%rbx), %rdi
	leaq	1424(%rsp), %rsi
	movq	%r13, %rdx
	vj_c_call	memcpy
	leaq	(%r15,%r13,4), %rdi
	leaq	1456(%rsp), %rsi
	movq	%r13, %rdx
	vj_c_call	memcpy
	leaq	(,%r13,4), %rdi
	addq	%r13, %rdi
	addq	%r15, %rdi
	leaq	1488(%rsp), %rsi
	movq	%r13, %rdx
	vj_c_call	memcpy
	leaq	(%r15,%rbx,2), %rdi
	leaq	1520(%rsp), %rsi
	movq	%r13, %rdx
	vj_c_call	memcpy
	leaq	(%r15,%r13,8), %rdi
	subq	%r13, %rdi
	leaq	1552(%rsp), %rsi
	movq	%r13, %rdx
	vj_c_call	memcpy
	movl	$8, %eax
	movq	(%rsp), %r8
	jmp	12b
16:
	vmovups	(%rbx), %ymm0
17:
	vmovups	%ymm0, (%rax)
	leaq	1520(%rsp), %r9
	leaq	1552(%rsp), %r10
	leaq	64(%r11), %rax
	movq	%rax, %rcx
	subq	%r14, %rcx
	cmpq	$32, %rcx
	jae	18f
	vmovups	1392(%rsp), %ymm0
	jmp	19f
18:
	vmovups	(%r14), %ymm0
19:
	vmovups	%ymm0, (%rax)
	leaq	1456(%rsp), %rsi
	leaq	1488(%rsp), %rdi
	leaq	96(%r11), %rax
	movq	%rax, %rcx
	leaq	1424(%rsp), %rdx
	subq	%rdx, %rcx
	cmpq	$32, %rcx
	jae	20f
	vmovups	1424(%rsp), %ymm0
	jmp	21f
20:
	vmovups	(%rdx), %ymm0
21:
	vmovups	%ymm0, (%rax)
	leaq	128(%r11), %rax
	movq	%rax, %rcx
	subq	%rsi, %rcx
	cmpq	$32, %rcx
	jae	22f
	vmovups	1456(%rsp), %ymm0
	jmp	23f
22:
	vmovups	(%rsi), %ymm0
23:
	vmovups	%ymm0, (%rax)
	leaq	160(%r11), %rax
	movq	%rax, %rcx
	subq	%rdi, %rcx
	cmpq	$32, %rcx
	jae	24f
	vmovups	1488(%rsp), %ymm0
	jmp	25f
24:
	vmovups	(%rdi), %ymm0
25:
	vmovups	%ymm0, (%rax)
	leaq	192(%r11), %rax
	movq	%rax, %rcx
	subq	%r9, %rcx
	cmpq	$32, %rcx
	jae	26f
	vmovups	1520(%rsp), %ymm0
	jmp	27f
26:
	vmovups	(%r9), %ymm0
27:
	vmovups	%ymm0, (%rax)
	movq	80(%rsp), %rcx
	addq	$224, %r11
	movq	%r11, %rax
	subq	%r10, %rax
	cmpq	$32, %rax
	jae	28f
	vmovdqu	1552(%rsp), %ymm0
	jmp	29f
28:
	vmovdqu	(%r10), %ymm0
29:
	vmovdqu	%ymm0, (%r11)
	movl	$8, %eax
	addq	%rax, %rcx
	cmpq	%rbp, %rcx
	jb	1b
30:
	addq	$1896, %rsp
	popq	%rbx
	popq	%r12
	popq	%r13
	popq	%r14
	popq	%r15
	popq	%rbp
	vzeroupper
	vpxord	%xmm16, %xmm16, %xmm16
	vpxord	%xmm17, %xmm17, %xmm17
	vpxord	%xmm18, %xmm18, %xmm18
	vpxord	%xmm19, %xmm19, %xmm19
	retq
	vj_end	blake2_ffi..blake2s..many..write_all_1_v4

	vj_function	blake2_compress..many..blake2s..compress_at_1_v4
	pushq	%r15
	pushq	%r14
	pushq	%r13
	pushq	%r12
	pushq	%rbx
	subq	$1216, %rsp
	movq	%r8, %rbx
	movq	%rcx, %r15
	movq	%rdx, %r12
	movq	%rsi, %r13
	movq	%rdi, %r14
	vxorps	%xmm0, %xmm0, %xmm0
	vmovups	%ymm0, 672(%rsp)
	vmovups	%ymm0, 640(%rsp)
	vmovups	%ymm0, 576(%rsp)
	vmovups	%ymm0, 608(%rsp)
	vmovups	%ymm0, 704(%rsp)
	vmovups	%ymm0, 736(%rsp)
	cmpb	$0, 32(%rsi)
	je	1f
	testq	%r12, %r12
	je	2f
	movq	96(%r13), %rax
	movq	%r12, %rsi
	shlq	$6, %rsi
	addq	$-64, %rsi
	subq	%rsi, %rax
	addq	88(%r13), %rsi
	cmpq	$64, %rax
	movl	$64, %edx
	cmovbq	%rax, %rdx
	jmp	3f
1:
	movq	96(%r13), %rax
	movq	%r12, %rsi
	shlq	$6, %rsi
	subq	%rsi, %rax
	addq	88(%r13), %rsi
	cmpq	$64, %rax
	movl	$64, %edx
	cmovbq	%rax, %rdx
	vmovups	%ymm0, 32(%rsp)
	vmovups	%ymm0, (%rsp)
	movq	%rsp, %rdi
	vzeroupper
	vj_c_call	memcpy
	vmovups	(%rsp), %ymm0
	vmovups	32(%rsp), %ymm1
	vmovups	%ymm0, 192(%rsp)
	vmovups	%ymm1, 224(%rsp)
	jmp	4f
2:
	movq	40(%r13), %rsi
	movq	48(%r13), %rdx
3:
	vmovups	%ymm0, 32(%rsp)
	vmovups	%ymm0, (%rsp)
	movq	%rsp, %rdi
	vzeroupper
	vj_c_call	memcpy
	vmovups	(%rsp), %ymm0
	vmovups	32(%rsp), %ymm1
	vmovups	%ymm0, 128(%rsp)
	vmovups	%ymm1, 160(%rsp)
	vmovups	128(%rsp), %ymm0
	vmovups	160(%rsp), %ymm1
	vmovups	%ymm1, 224(%rsp)
	vmovups	%ymm0, 192(%rsp)
4:
	vmovups	192(%rsp), %ymm0
	vmovups	224(%rsp), %ymm1
	vmovups	%ymm1, 800(%rsp)
	vmovups	%ymm0, 768(%rsp)
	cmpb	$0, 136(%r13)
	je	5f
	testq	%r12, %r12
	je	6f
	movq	200(%r13), %rax
	movq	%r12, %rsi
	shlq	$6, %rsi
	addq	$-64, %rsi
	subq	%rsi, %rax
	addq	192(%r13), %rsi
	cmpq	$64, %rax
	movl	$64, %edx
	cmovbq	%rax, %rdx
	jmp	7f
5:
	movq	200(%r13), %rax
	movq	%r12, %rsi
	shlq	$6, %rsi
	subq	%rsi, %rax
	addq	192(%r13), %rsi
	cmpq	$64, %rax
	movl	$64, %edx
	cmovbq	%rax, %rdx
	vxorps	%xmm0, %xmm0, %xmm0
	vmovups	%ymm0, 32(%rsp)
	vmovups	%ymm0, (%rsp)
	movq	%rsp, %rdi
	vzeroupper
	vj_c_call	memcpy
	vmovups	(%rsp), %ymm0
	vmovups	32(%rsp), %ymm1
	vmovups	%ymm0, 192(%rsp)
	vmovups	%ymm1, 224(%rsp)
	jmp	8f
6:
	movq	144(%r13), %rsi
	movq	152(%r13), %rdx
7:
	vxorps	%xmm0, %xmm0, %xmm0
	vmovups	%ymm0, 32(%rsp)
	vmovups	%ymm0, (%rsp)
	movq	%rsp, %rdi
	vzeroupper
	vj_c_call	memcpy
	vmovups	(%rsp), %ymm0
	vmovups	32(%rsp), %ymm1
	vmovups	%ymm0, 128(%rsp)
	vmovups	%ymm1, 160(%rsp)
	vmovups	128(%rsp), %ymm0
	vmovups	160(%rsp), %ymm1
	vmovups	%ymm1, 224(%rsp)
	vmovups	%ymm0, 192(%rsp)
8:
	vmovups	192(%rsp), %ymm0
	vmovups	224(%rsp), %ymm1
	vmovups	%ymm1, 672(%rsp)
	vmovups	%ymm0, 640(%rsp)
	cmpb	$0, 240(%r13)
	je	9f
	testq	%r12, %r12
	je	10f
	movq	304(%r13), %rax
	movq	%r12, %rsi
	shlq	$6, %rsi
	addq	$-64, %rsi
	subq	%rsi, %rax
	addq	296(%r13), %rsi
	cmpq	$64, %rax
	movl	$64, %edx
	cmovbq	%rax, %rdx
	jmp	11f
9:
	movq	304(%r13), %rax
	movq	%r12, %rsi
	shlq	$6, %rsi
	subq	%rsi, %rax
	addq	296(%r13), %rsi
	cmpq	$64, %rax
	movl	$64, %edx
	cmovbq	%rax, %rdx
	vxorps	%xmm0, %xmm0, %xmm0
	vmovups	%ymm0, 32(%rsp)
	vmovups	%ymm0, (%rsp)
	movq	%rsp, %rdi
	vzeroupper
	vj_c_call	memcpy
	vmovups	(%rsp), %ymm0
	vmovups	32(%rsp), %ymm1
	vmovups	%ymm0, 192(%rsp)
	vmovups	%ymm1, 224(%rsp)
	jmp	12f
10:
	movq	248(%r13), %rsi
	movq	256(%r13), %rdx
11:
	vxorps	%xmm0, %xmm0, %xmm0
	vmovups	%ymm0, 32(%rsp)
	vmovups	%ymm0, (%rsp)
	movq	%rsp, %rdi
	vzeroupper
	vj_c_call	memcpy
	vmovups	(%rsp), %ymm0
	vmovups	32(%rsp), %ymm1
	vmovups	%ymm0, 128(%rsp)
	vmovups	%ymm1, 160(%rsp)
	vmovups	128(%rsp), %ymm0
	vmovups	160(%rsp), %ymm1
	vmovups	%ymm1, 224(%rsp)
	vmovups	%ymm0, 192(%rsp)
12:
	vmovups	192(%rsp), %ymm0
	vmovups	224(%rsp), %ymm1
	vmovups	%ymm1, 608(%rsp)
	vmovups	%ymm0, 576(%rsp)
	cmpb	$0, 344(%r13)
	je	13f
	testq	%r12, %r12
	je	15f
	movq	408(%r13), %rax
	movq	%r12, %rsi
	shlq	$6, %rsi
	addq	$-64, %rsi
	jmp	14f
13:
	movq	408(%r13), %rax
	movq	%r12, %rsi
	shlq	$6, %rsi
14:
	subq	%rsi, %rax
	addq	400(%r13), %rsi
	cmpq	$64, %rax
	movl	$64, %edx
	cmovbq	%rax, %rdx
	jmp	16f
15:
	movq	352(%r13), %rsi
	movq	360(%r13), %rdx
16:
	vxorps	%xmm0, %xmm0, %xmm0
	vmovups	%ymm0, 288(%rsp)
	vmovups	%ymm0, 256(%rsp)
	leaq	256(%rsp), %rdi
	vzeroupper
	vj_c_call	memcpy
	cmpb	$0, 448(%r13)
	je	17f
	testq	%r12, %r12
	je	19f
	movq	512(%r13), %rax
	movq	%r12, %rsi
	shlq	$6, %rsi
	addq	$-64, %rsi
	jmp	18f
17:
	movq	512(%r13), %rax
	movq	%r12, %rsi
	shlq	$6, %rsi
18:
	subq	%rsi, %rax
	addq	504(%r13), %rsi
	cmpq	$64, %rax
	movl	$64, %edx
	cmovbq	%rax, %rdx
	jmp	20f
19:
	movq	456(%r13), %rsi
	movq	464(%r13), %rdx
20:
	vxorps	%xmm0, %xmm0, %xmm0
	vmovups	%ymm0, 352(%rsp)
	vmovups	%ymm0, 320(%rsp)
	leaq	320(%rsp), %rdi
	vzeroupper
	vj_c_call	memcpy
	cmpb	$0, 552(%r13)
	je	21f
	testq	%r12, %r12
	je	23f
	movq	616(%r13), %rax
	movq	%r12, %rsi
	shlq	$6, %rsi
	addq	$-64, %rsi
	jmp	22f
21:
	movq	616(%r13), %rax
	movq	%r12, %rsi
	shlq	$6, %rsi
22:
	subq	%rsi, %rax
	addq	608(%r13), %rsi
	cmpq	$64, %rax
	movl	$64, %edx
	cmovbq	%rax, %rdx
	jmp	24f
23:
	movq	560(%r13), %rsi
	movq	568(%r13), %rdx
24:
	vxorps	%xmm0, %xmm0, %xmm0
	vmovups	%ymm0, 416(%rsp)
	vmovups	%ymm0, 384(%rsp)
	leaq	384(%rsp), %rdi
	vzeroupper
	vj_c_call	memcpy
	cmpb	$0, 656(%r13)
	je	25f
	testq	%r12, %r12
	je	27f
	movq	720(%r13), %rax
	movq	%r12, %rsi
	shlq	$6, %rsi
	addq	$-64, %rsi
	jmp	26f
25:
	movq	720(%r13), %rax
	movq	%r12, %rsi
	shlq	$6, %rsi
26:
	subq	%rsi, %rax
	addq	712(%r13), %rsi
	cmpq	$64, %rax
	movl	$64, %edx
	cmovbq	%rax, %rdx
	jmp	28f
27:
	movq	664(%r13), %rsi
	movq	672(%r13), %rdx
28:
	vxorps	%xmm0, %xmm0, %xmm0
	vmovups	%ymm0, 480(%rsp)
	vmovups	%ymm0, 448(%rsp)
	leaq	448(%rsp), %rdi
	vzeroupper
	vj_c_call	memcpy
	cmpb	$0, 760(%r13)
	je	29f
	testq	%r12, %r12
	je	31f
	movq	824(%r13), %rax
	shlq	$6, %r12
	addq	$-64, %r12
	jmp	30f
29:
	movq	824(%r13), %rax
	shlq	$6, %r12
30:
	subq	%r12, %rax
	addq	816(%r13), %r12
	cmpq	$64, %rax
	movl	$64, %edx
	cmovbq	%rax, %rdx
	vxorps	%xmm0, %xmm0, %xmm0
	vmovups	%ymm0, 544(%rsp)
	vmovups	%ymm0, 512(%rsp)
	leaq	512(%rsp), %rdi
	movq	%r12, %rsi
	jmp	32f
31:
	movq	768(%r13), %rsi
	movq	776(%r13), %rdx
	vxorps	%xmm0, %xmm0, %xmm0
	vmovups	%ymm0, 544(%rsp)
	vmovups	%ymm0, 512(%rsp)
	leaq	512(%rsp), %rdi
32:
	vzeroupper
	vj_c_call	memcpy
	vpbroadcastq	%r15, %ymm0
	vmovdqu	%ymm0, 704(%rsp)
	vmovdqu	%ymm0, 736(%rsp)
	vmovups	768(%rsp), %ymm0
	vmovups	800(%rsp), %ymm1
	vmovups	%ymm0, 192(%rsp)
	vmovups	%ymm1, 224(%rsp)
	vmovups	640(%rsp), %ymm0
	vmovups	672(%rsp), %ymm1
	vmovups	%ymm0, 128(%rsp)
	vmovups	%ymm1, 160(%rsp)
	vmovups	576(%rsp), %ymm0
	vmovups	608(%rsp), %ymm1
	vmovups	%ymm0, 1152(%rsp)
	vmovups	%ymm1, 1184(%rsp)
	vmovups	256(%rsp), %ymm0
	vmovups	288(%rsp), %ymm1
	vmovups	%ymm1, 1120(%rsp)
	vmovups	%ymm0, 1088(%rsp)
	vmovups	320(%rsp), %ymm0
	vmovups	352(%rsp), %ymm1
	vmovups	%ymm1, 1056(%rsp)
	vmovups	%ymm0, 1024(%rsp)
	vmovups	384(%rsp), %ymm0
	vmovups	416(%rsp), %ymm1
	vmovups	%ymm1, 992(%rsp)
	vmovups	%ymm0, 960(%rsp)
	vmovups	448(%rsp), %ymm0
	vmovups	480(%rsp), %ymm1
	vmovups	%ymm1, 928(%rsp)
	vmovups	%ymm0, 896(%rsp)
	vmovups	512(%rsp), %ymm0
	vmovups	544(%rsp), %ymm1
	vmovups	%ymm1, 864(%rsp)
	vmovups	%ymm0, 832(%rsp)
	leaq	192(%rsp), %rax
	movq	%rax, (%rsp)
	movq	$1, 8(%rsp)
	leaq	128(%rsp), %rax
	movq	%rax, 16(%rsp)
	movq	$1, 24(%rsp)
	leaq	1152(%rsp), %rax
	movq	%rax, 32(%rsp)
	movq	$1, 40(%rsp)
	leaq	1088(%rsp), %rax
	movq	%rax, 48(%rsp)
	movq	$1, 56(%rsp)
	leaq	1024(%rsp), %rax
	movq	%rax, 64(%rsp)
	movq	$1, 72(%rsp)
	leaq	960(%rsp), %rax
	movq	%rax, 80(%rsp)
	movq	$1, 88(%rsp)
	leaq	896(%rsp), %rax
	movq	%rax, 96(%rsp)
	movq	$1, 104(%rsp)
	leaq	832(%rsp), %rax
	movq	%rax, 112(%rsp)
	movq	$1, 120(%rsp)
	movq	%rsp, %rsi
	leaq	704(%rsp), %rdx
	movq	%r14, %rdi
	movq	%rbx, %rcx
	vzeroupper
	callq	blake2_compress..many..blake2s..compress_blocks_1_v4
	addq	$1216, %rsp
	popq	%rbx
	popq	%r12
	popq	%r13
	popq	%r14
	popq	%r15
	retq
	vj_end	blake2_compress..many..blake2s..compress_at_1_v4

	vj_export	vulfsjor_ffi_blake2b_count_1_v4
	movl	144(%rdi), %eax
	decl	%eax
	cmpl	$63, %eax
	ja	1f
	movl	136(%rdi), %eax
	cmpq	$128, %rax
	ja	1f
	movl	140(%rdi), %ecx
	cmpq	$128, %rcx
	ja	1f
	movq	128(%rdi), %rdx
	movl	%eax, %esi
	notl	%esi
	movslq	%esi, %rsi
	cmpq	%rsi, %rdx
	jbe	2f
1:
	xorl	%eax, %eax
	retq
2:
	addq	%rax, %rdx
	xorl	%eax, %eax
	subq	%rcx, %rdx
	cmovaeq	%rdx, %rax
	retq
	vj_end	vulfsjor_ffi_blake2b_count_1_v4

	vj_export	vulfsjor_ffi_blake2b_digest_size_1_v4
	movl	144(%rdi), %eax
	leal	-1(%rax), %ecx
	cmpl	$63, %ecx
	ja	1f
	movl	136(%rdi), %ecx
	cmpl	$128, %ecx
	ja	1f
	cmpl	$128, 140(%rdi)
	ja	1f
	notl	%ecx
	movslq	%ecx, %rcx
	xorl	%edx, %edx
	cmpq	%rcx, 128(%rdi)
	cmovaq	%rdx, %rax
	retq
1:
	xorl	%eax, %eax
	retq
	vj_end	vulfsjor_ffi_blake2b_digest_size_1_v4

	vj_export	vulfsjor_ffi_blake2b_final_1_v4
	xorl	%ecx, %ecx
	testq	%rsi, %rsi
	sete	%r8b
	movl	144(%rdi), %r9d
	leal	-1(%r9), %r10d
	movl	$-1, %eax
	cmpl	$63, %r10d
	ja	2f
	movl	136(%rdi), %r10d
	cmpl	$128, %r10d
	ja	2f
	pushq	%r14
	pushq	%rbx
	pushq	%rax
	movl	140(%rdi), %ebx
	cmpq	$128, %rbx
	ja	1f
	movq	128(%rdi), %r14
	notl	%r10d
	movslq	%r10d, %r10
	cmpq	%r10, %r14
	setbe	%r10b
	cmpq	%r9, %rdx
	sete	%dl
	andb	%r10b, %dl
	cmpb	$1, %dl
	jne	1f
	movb	%r8b, %cl
	shll	$12, %ecx
	addq	%rcx, %rsi
	callq	blake2_ffi..blake2b..finalize_1_v4
	xorl	%eax, %eax
	cmpq	%rbx, %r14
	jae	1f
	callq	blake2_digest..wiping..scrub_stack..1664_1_v4
	xorl	%eax, %eax
1:
	addq	$8, %rsp
	popq	%rbx
	popq	%r14
2:
	retq
	vj_end	vulfsjor_ffi_blake2b_final_1_v4

	vj_constants	32
	.p2align	5, 0x0
.L1_v4_CPI122_0:
	.quad	7640891576956012808
	.quad	-4942790177534073029
	.quad	4354685564936845355
	.quad	-6534734903238641935
.L1_v4_CPI122_1:
	.quad	5840696475078001361
	.quad	-7276294671716946913
	.quad	2270897969802886507
	.quad	6620516959819538809
	vj_export	vulfsjor_ffi_blake2b_init_param_1_v4
	xorl	%eax, %eax
	testq	%rsi, %rsi
	sete	%cl
	cmpq	$64, %rdx
	jne	1f
	movb	%cl, %al
	shll	$12, %eax
	movzbl	(%rsi,%rax), %ecx
	addb	$-65, %cl
	cmpb	$-64, %cl
	jb	1f
	cmpb	$64, 1(%rsi,%rax)
	jbe	2f
1:
	vxorps	%xmm0, %xmm0, %xmm0
	vmovups	%ymm0, 312(%rdi)
	vmovups	%ymm0, 288(%rdi)
	vmovups	%ymm0, 256(%rdi)
	vmovups	%ymm0, 224(%rdi)
	vmovups	%ymm0, 192(%rdi)
	vmovups	%ymm0, 160(%rdi)
	vmovups	%ymm0, 128(%rdi)
	vmovups	%ymm0, 96(%rdi)
	vmovups	%ymm0, 64(%rdi)
	vmovups	%ymm0, 32(%rdi)
	vmovups	%ymm0, (%rdi)
	movl	$-1, %eax
	vzeroupper
	retq
2:
	vmovdqu	(%rsi,%rax), %ymm0
	vmovups	32(%rsi,%rax), %ymm1
	vpxor	.L1_v4_CPI122_0(%rip), %ymm0, %ymm2
	vxorps	.L1_v4_CPI122_1(%rip), %ymm1, %ymm1
	vpextrb	$0, %xmm0, %eax
	vmovdqu	%ymm2, (%rdi)
	vmovups	%ymm1, 32(%rdi)
	vmovdqu	%ymm2, 64(%rdi)
	vmovups	%ymm1, 96(%rdi)
	vpxor	%xmm0, %xmm0, %xmm0
	vmovdqu	%xmm0, 128(%rdi)
	movl	%eax, 144(%rdi)
	vpxor	%xmm0, %xmm0, %xmm0
	vmovdqu	%ymm0, 148(%rdi)
	vmovdqu	%ymm0, 180(%rdi)
	vmovdqu	%ymm0, 212(%rdi)
	vmovdqu	%ymm0, 244(%rdi)
	vmovdqu	%ymm0, 276(%rdi)
	vmovdqu	%ymm0, 308(%rdi)
	movl	$0, 340(%rdi)
	xorl	%eax, %eax
	vzeroupper
	retq
	vj_end	vulfsjor_ffi_blake2b_init_param_1_v4

	vj_export	vulfsjor_ffi_blake2b_init_salt_personal_1_v4
	pushq	%rbx
	subq	$80, %rsp
	movq	%rcx, %rbx
	movq	104(%rsp), %rax
	movq	96(%rsp), %r10
	xorl	%ecx, %ecx
	testq	%rdx, %rdx
	sete	%cl
	shll	$12, %ecx
	addq	%rdx, %rcx
	xorl	%edx, %edx
	testq	%r8, %r8
	sete	%dl
	shll	$12, %edx
	addq	%r8, %rdx
	xorl	%r8d, %r8d
	testq	%r10, %r10
	sete	%r8b
	shll	$12, %r8d
	addq	%r10, %r8
	movq	%rsi, 24(%rsp)
	movq	%rcx, 32(%rsp)
	movq	%rbx, 40(%rsp)
	movq	%rdx, 48(%rsp)
	movq	%r9, 56(%rsp)
	movq	%r8, 64(%rsp)
	movq	%rax, 72(%rsp)
	movw	$257, (%rsp)
	vxorps	%xmm0, %xmm0, %xmm0
	vmovups	%xmm0, 2(%rsp)
	movq	$0, 16(%rsp)
	leaq	24(%rsp), %rsi
	movq	%rsp, %rdx
	callq	blake2_ffi..blake2b..initialize_1_v4
	testq	%rbx, %rbx
	je	1f
	movl	%eax, %ebx
	callq	blake2_digest..wiping..scrub_stack..1024_1_v4
	movl	%ebx, %eax
1:
	addq	$80, %rsp
	popq	%rbx
	retq
	vj_end	vulfsjor_ffi_blake2b_init_salt_personal_1_v4

	vj_export	vulfsjor_ffi_blake2b_init_key_1_v4
	pushq	%rbx
	subq	$80, %rsp
	testq	%rcx, %rcx
	je	1f
	xorl	%eax, %eax
	testq	%rdx, %rdx
	sete	%al
	shll	$12, %eax
	addq	%rdx, %rax
	movq	%rsi, 24(%rsp)
	movq	%rax, 32(%rsp)
	movq	%rcx, 40(%rsp)
	leaq	.L1_v4_static.2(%rip), %rax
	movq	%rax, 48(%rsp)
	movq	$0, 56(%rsp)
	movq	%rax, 64(%rsp)
	movq	$0, 72(%rsp)
	movw	$257, (%rsp)
	vxorps	%xmm0, %xmm0, %xmm0
	vmovups	%xmm0, 2(%rsp)
	movq	$0, 16(%rsp)
	leaq	24(%rsp), %rsi
	movq	%rsp, %rdx
	callq	blake2_ffi..blake2b..initialize_1_v4
	movl	%eax, %ebx
	callq	blake2_digest..wiping..scrub_stack..1024_1_v4
	movl	%ebx, %eax
	addq	$80, %rsp
	popq	%rbx
	retq
1:
	vxorps	%xmm0, %xmm0, %xmm0
	vmovups	%ymm0, 312(%rdi)
	vmovups	%ymm0, 288(%rdi)
	vmovups	%ymm0, 256(%rdi)
	vmovups	%ymm0, 224(%rdi)
	vmovups	%ymm0, 192(%rdi)
	vmovups	%ymm0, 160(%rdi)
	vmovups	%ymm0, 128(%rdi)
	vmovups	%ymm0, 96(%rdi)
	vmovups	%ymm0, 64(%rdi)
	vmovups	%ymm0, 32(%rdi)
	vmovups	%ymm0, (%rdi)
	movl	$-1, %ebx
	movl	%ebx, %eax
	addq	$80, %rsp
	popq	%rbx
	vzeroupper
	retq
	vj_end	vulfsjor_ffi_blake2b_init_key_1_v4

	vj_export	vulfsjor_ffi_blake2b_init_tree_1_v4
	pushq	%rbp
	pushq	%r14
	pushq	%rbx
	subq	$80, %rsp
	movq	128(%rsp), %rax
	movzbl	12(%rax), %r10d
	movzbl	13(%rax), %r11d
	movl	8(%rax), %ebx
	movq	(%rax), %r14
	movzbl	14(%rax), %ebp
	movzbl	15(%rax), %eax
	movb	%r10b, (%rsp)
	movb	%r11b, 1(%rsp)
	movw	$0, 2(%rsp)
	movl	%ebx, 4(%rsp)
	movq	%r14, 8(%rsp)
	movb	%bpl, 16(%rsp)
	movb	%al, 17(%rsp)
	movl	$0, 18(%rsp)
	movw	$0, 22(%rsp)
	testb	%r11b, %r11b
	setne	%r10b
	cmpb	$65, %al
	setb	%al
	testb	%al, %r10b
	je	1f
	movq	120(%rsp), %rax
	movq	112(%rsp), %r11
	xorl	%r10d, %r10d
	testq	%r11, %r11
	sete	%r10b
	shll	$12, %r10d
	addq	%r11, %r10
	xorl	%r11d, %r11d
	testq	%r8, %r8
	sete	%r11b
	shll	$12, %r11d
	addq	%r8, %r11
	xorl	%r8d, %r8d
	testq	%rdx, %rdx
	sete	%r8b
	shll	$12, %r8d
	addq	%rdx, %r8
	movq	%rsi, 24(%rsp)
	movq	%r8, 32(%rsp)
	movq	%rcx, 40(%rsp)
	movq	%r11, 48(%rsp)
	movq	%r9, 56(%rsp)
	movq	%r10, 64(%rsp)
	movq	%rax, 72(%rsp)
	leaq	24(%rsp), %rsi
	movq	%rsp, %rdx
	movq	%rcx, %rbx
	callq	blake2_ffi..blake2b..initialize_1_v4
	testq	%rbx, %rbx
	je	2f
	movl	%eax, %ebx
	callq	blake2_digest..wiping..scrub_stack..1024_1_v4
	movl	%ebx, %eax
	jmp	2f
1:
	vxorps	%xmm0, %xmm0, %xmm0
	vmovups	%ymm0, 312(%rdi)
	vmovups	%ymm0, 288(%rdi)
	vmovups	%ymm0, 256(%rdi)
	vmovups	%ymm0, 224(%rdi)
	vmovups	%ymm0, 192(%rdi)
	vmovups	%ymm0, 160(%rdi)
	vmovups	%ymm0, 128(%rdi)
	vmovups	%ymm0, 96(%rdi)
	vmovups	%ymm0, 64(%rdi)
	vmovups	%ymm0, 32(%rdi)
	vmovups	%ymm0, (%rdi)
	movl	$-1, %eax
2:
	addq	$80, %rsp
	popq	%rbx
	popq	%r14
	popq	%rbp
	vzeroupper
	retq
	vj_end	vulfsjor_ffi_blake2b_init_tree_1_v4

	vj_export	vulfsjor_ffi_blake2b_load_1_v4
	pushq	%rbp
	pushq	%r15
	pushq	%r14
	pushq	%r13
	pushq	%r12
	pushq	%rbx
	subq	$1064, %rsp
	movq	%rdi, %rbx
	xorl	%eax, %eax
	testq	%rsi, %rsi
	sete	%cl
	cmpq	$275, %rdx
	jne	1f
	movq	%rsi, %r14
	movb	%cl, %al
	shll	$12, %eax
	addq	%rax, %r14
	movq	8(%r14), %r13
	movq	16(%r14), %rax
	movq	%rax, 24(%rsp)
	movq	24(%r14), %r12
	movq	32(%r14), %rax
	movq	%rax, 152(%rsp)
	movq	40(%r14), %rdx
	movq	48(%r14), %rsi
	movq	56(%r14), %rdi
	movq	64(%r14), %r8
	movq	72(%r14), %r9
	movq	80(%r14), %r10
	movq	88(%r14), %r11
	movq	96(%r14), %r15
	movq	104(%r14), %rax
	movq	%rax, 144(%rsp)
	movq	112(%r14), %rax
	movq	%rax, 32(%rsp)
	movq	120(%r14), %rcx
	movq	128(%r14), %rax
	movq	%rax, 136(%rsp)
	movq	136(%r14), %rbp
	movzbl	145(%r14), %eax
	movl	%eax, 20(%rsp)
	movzbl	144(%r14), %eax
	movl	%eax, 16(%rsp)
	movzbl	146(%r14), %eax
	movl	%eax, 12(%rsp)
	movq	%r13, 56(%rsp)
	movq	%r13, 160(%rsp)
	movq	24(%rsp), %rax
	movq	%rax, 168(%rsp)
	movq	%r12, 64(%rsp)
	movq	%r12, 176(%rsp)
	movq	152(%rsp), %r12
	movq	%r12, 184(%rsp)
	movq	%rdx, 128(%rsp)
	movq	%rdx, 192(%rsp)
	movq	%rsi, 120(%rsp)
	movq	%rsi, 200(%rsp)
	movq	%rdi, 112(%rsp)
	movq	%rdi, 208(%rsp)
	movq	%r8, 104(%rsp)
	movq	%r8, 216(%rsp)
	movq	%r9, 96(%rsp)
	movq	%r9, 224(%rsp)
	movq	%r10, 88(%rsp)
	movq	%r10, 232(%rsp)
	movq	%r11, 80(%rsp)
	movq	%r11, 240(%rsp)
	movq	%r15, 72(%rsp)
	movq	%r15, 248(%rsp)
	movq	144(%rsp), %r15
	movq	%r15, 256(%rsp)
	movq	32(%rsp), %rax
	movq	%rax, 264(%rsp)
	movq	136(%rsp), %r13
	movq	%rcx, 48(%rsp)
	movq	%rcx, 272(%rsp)
	movq	%r13, 280(%rsp)
	movq	%rbp, 40(%rsp)
	movq	%rbp, 288(%rsp)
	movl	20(%rsp), %ebp
	movl	%ebp, 296(%rsp)
	movl	$0, 300(%rsp)
	movl	16(%rsp), %eax
	movl	%eax, 304(%rsp)
	movl	12(%rsp), %eax
	movl	%eax, 308(%rsp)
	vmovups	147(%r14), %ymm0
	vmovups	179(%r14), %ymm1
	vmovups	211(%r14), %ymm2
	vmovups	243(%r14), %ymm3
	vmovups	%ymm3, 408(%rsp)
	vmovups	%ymm2, 376(%rsp)
	vmovups	%ymm1, 344(%rsp)
	vmovups	%ymm0, 312(%rsp)
	vxorps	%xmm0, %xmm0, %xmm0
	vmovups	%ymm0, 440(%rsp)
	vmovups	%ymm0, 472(%rsp)
	leaq	788(%rsp), %rdi
	leaq	160(%rsp), %rsi
	vzeroupper
	callq	blake2_state..blake2b..State..save_1_v4
	cmpb	$1, 788(%rsp)
	jne	1f
	leaq	789(%rsp), %rsi
	leaq	512(%rsp), %rdi
	movl	$275, %edx
	vj_c_call	memcpy
	movl	(%r14), %eax
	cmpl	512(%rsp), %eax
	jne	1f
	leaq	512(%rsp), %rdx
	movl	$275, %esi
	movq	%r14, %rdi
	callq	core..cmp..slices..groups_equal..i8.31.core..cmp..numbers..U8PartialEq_1_v4
	testb	%al, %al
	je	1f
	addq	$147, %r14
	vmovups	(%r14), %ymm0
	vmovups	32(%r14), %ymm1
	vmovups	64(%r14), %ymm2
	vmovups	96(%r14), %ymm3
	vmovups	%ymm0, 160(%rsp)
	vmovups	%ymm1, 192(%rsp)
	vmovups	%ymm2, 224(%rsp)
	vmovups	%ymm3, 256(%rsp)
	movq	56(%rsp), %rax
	movq	%rax, (%rbx)
	movq	24(%rsp), %rax
	movq	%rax, 8(%rbx)
	movq	64(%rsp), %rax
	movq	%rax, 16(%rbx)
	movq	%r12, 24(%rbx)
	movq	128(%rsp), %rax
	movq	%rax, 32(%rbx)
	movq	120(%rsp), %rax
	movq	%rax, 40(%rbx)
	movq	112(%rsp), %rax
	movq	%rax, 48(%rbx)
	movq	104(%rsp), %rax
	movq	%rax, 56(%rbx)
	movq	96(%rsp), %rax
	movq	%rax, 64(%rbx)
	movq	88(%rsp), %rax
	movq	%rax, 72(%rbx)
	movq	80(%rsp), %rax
	movq	%rax, 80(%rbx)
	movq	72(%rsp), %rax
	movq	%rax, 88(%rbx)
	movq	%r15, 96(%rbx)
	movq	32(%rsp), %rax
	movq	%rax, 104(%rbx)
	movq	48(%rsp), %rax
	movq	%rax, 112(%rbx)
	movq	%r13, 120(%rbx)
	movq	40(%rsp), %rax
	movq	%rax, 128(%rbx)
	movl	%ebp, 136(%rbx)
	movl	$0, 140(%rbx)
	movl	16(%rsp), %eax
	movl	%eax, 144(%rbx)
	movl	12(%rsp), %eax
	movl	%eax, 148(%rbx)
	vmovups	160(%rsp), %ymm0
	vmovups	192(%rsp), %ymm1
	vmovups	224(%rsp), %ymm2
	vmovups	256(%rsp), %ymm3
	vmovups	%ymm3, 248(%rbx)
	vmovups	%ymm2, 216(%rbx)
	vmovups	%ymm1, 184(%rbx)
	vmovups	%ymm0, 152(%rbx)
	vxorps	%xmm0, %xmm0, %xmm0
	vmovups	%ymm0, 312(%rbx)
	vmovups	%ymm0, 280(%rbx)
	xorl	%eax, %eax
	jmp	2f
1:
	vxorps	%xmm0, %xmm0, %xmm0
	vmovups	%ymm0, 312(%rbx)
	vmovups	%ymm0, 288(%rbx)
	vmovups	%ymm0, 256(%rbx)
	vmovups	%ymm0, 224(%rbx)
	vmovups	%ymm0, 192(%rbx)
	vmovups	%ymm0, 160(%rbx)
	vmovups	%ymm0, 128(%rbx)
	vmovups	%ymm0, 96(%rbx)
	vmovups	%ymm0, 64(%rbx)
	vmovups	%ymm0, 32(%rbx)
	vmovups	%ymm0, (%rbx)
	movl	$-1, %eax
2:
	addq	$1064, %rsp
	popq	%rbx
	popq	%r12
	popq	%r13
	popq	%r14
	popq	%r15
	popq	%rbp
	vzeroupper
	retq
	vj_end	vulfsjor_ffi_blake2b_load_1_v4

	vj_export	vulfsjor_ffi_blake2b_reset_1_v4
	movl	144(%rdi), %ecx
	decl	%ecx
	movl	$-1, %eax
	cmpl	$63, %ecx
	ja	1f
	movl	136(%rdi), %edx
	cmpl	$128, %edx
	ja	1f
	movl	140(%rdi), %ecx
	cmpl	$128, %ecx
	ja	1f
	notl	%edx
	movslq	%edx, %rdx
	cmpq	%rdx, 128(%rdi)
	ja	1f
	vmovups	64(%rdi), %ymm0
	vmovups	96(%rdi), %ymm1
	vmovups	280(%rdi), %ymm2
	vmovups	312(%rdi), %ymm3
	vmovups	%ymm1, 32(%rdi)
	vmovups	%ymm0, (%rdi)
	movq	$0, 128(%rdi)
	movl	%ecx, 136(%rdi)
	vxorps	%xmm0, %xmm0, %xmm0
	vmovups	%ymm0, 216(%rdi)
	vmovups	%ymm0, 248(%rdi)
	vmovups	%ymm2, 152(%rdi)
	vmovups	%ymm3, 184(%rdi)
	xorl	%eax, %eax
1:
	vzeroupper
	retq
	vj_end	vulfsjor_ffi_blake2b_reset_1_v4

	vj_export	vulfsjor_ffi_blake2b_save_1_v4
	pushq	%rbp
	pushq	%r15
	pushq	%r14
	pushq	%rbx
	subq	$280, %rsp
	movq	%rsi, %rbx
	xorl	%r14d, %r14d
	testq	%rsi, %rsi
	sete	%r15b
	movl	$-1, %ebp
	cmpq	$275, %rdx
	jne	1f
	movq	%rdi, %rsi
	leaq	4(%rsp), %rdi
	callq	blake2_state..blake2b..State..save_1_v4
	cmpb	$1, 4(%rsp)
	jne	1f
	movb	%r15b, %r14b
	shll	$12, %r14d
	addq	%r14, %rbx
	leaq	5(%rsp), %rsi
	movl	$275, %edx
	movq	%rbx, %rdi
	vj_c_call	memcpy
	xorl	%ebp, %ebp
1:
	movl	%ebp, %eax
	addq	$280, %rsp
	popq	%rbx
	popq	%r14
	popq	%r15
	popq	%rbp
	retq
	vj_end	vulfsjor_ffi_blake2b_save_1_v4

	vj_export	vulfsjor_ffi_blake2b_set_last_node_1_v4
	movl	144(%rdi), %ecx
	decl	%ecx
	movl	$-1, %eax
	cmpl	$63, %ecx
	ja	1f
	movl	136(%rdi), %ecx
	cmpl	$128, %ecx
	ja	1f
	cmpl	$128, 140(%rdi)
	ja	1f
	notl	%ecx
	movslq	%ecx, %rcx
	cmpq	%rcx, 128(%rdi)
	ja	1f
	xorl	%eax, %eax
	testl	%esi, %esi
	setne	%al
	movl	%eax, 148(%rdi)
	xorl	%eax, %eax
1:
	retq
	vj_end	vulfsjor_ffi_blake2b_set_last_node_1_v4

	vj_export	vulfsjor_ffi_blake2b_state_size_1_v4
	movl	$344, %eax
	retq
	vj_end	vulfsjor_ffi_blake2b_state_size_1_v4

	vj_export	vulfsjor_ffi_blake2b_update_1_v4
	xorl	%r8d, %r8d
	testq	%rsi, %rsi
	sete	%r9b
	movl	144(%rdi), %ecx
	decl	%ecx
	movl	$-1, %eax
	cmpl	$63, %ecx
	ja	6f
	movl	136(%rdi), %ecx
	cmpq	$128, %rcx
	ja	6f
	movl	140(%rdi), %r10d
	cmpq	$128, %r10
	ja	6f
	pushq	%rbx
	movq	128(%rdi), %r11
	movl	%ecx, %ebx
	notl	%ebx
	movslq	%ebx, %rbx
	cmpq	%rbx, %r11
	ja	5f
	leaq	(%r11,%rcx), %rbx
	addq	%rdx, %rbx
	jb	5f
	movb	%r9b, %r8b
	shll	$12, %r8d
	addq	%r8, %rsi
	cmpq	%r10, %r11
	jae	1f
	callq	blake2_ffi..blake2b..update_scrubbed_1_v4
	jmp	4f
1:
	cmpq	$1, %rdx
	jne	2f
	cmpl	$128, %ecx
	jne	3f
	movl	$1, %edx
2:
	callq	blake2_state..blake2b..State..absorb_blocks_1_v4
	jmp	4f
3:
	movzbl	(%rsi), %eax
	movb	%al, 152(%rdi,%rcx)
	leal	1(%rcx), %eax
	movl	%eax, 136(%rdi)
4:
	xorl	%eax, %eax
5:
	popq	%rbx
6:
	retq
	vj_end	vulfsjor_ffi_blake2b_update_1_v4

	vj_export	vulfsjor_ffi_blake2b_update_many_1_v4
	xorl	%r8d, %r8d
	testq	%rdi, %rdi
	sete	%r11b
	xorl	%r9d, %r9d
	testq	%rdx, %rdx
	sete	%r10b
	movl	$-1, %eax
	cmpq	%rsi, %rcx
	jne	7f
	pushq	%rbp
	pushq	%r15
	pushq	%r14
	pushq	%rbx
	pushq	%rax
	movb	%r11b, %r8b
	shll	$12, %r8d
	movb	%r10b, %r9b
	shll	$12, %r9d
	testq	%rcx, %rcx
	je	2f
	leaq	(%r9,%rdx), %rsi
	addq	$8, %rsi
	leaq	(%r8,%rdi), %r10
	addq	$144, %r10
	movq	%rcx, %r11
	.p2align	4
1:
	movl	(%r10), %ebx
	decl	%ebx
	cmpl	$63, %ebx
	ja	6f
	movl	-8(%r10), %ebx
	cmpq	$128, %rbx
	ja	6f
	cmpl	$128, -4(%r10)
	ja	6f
	movq	-16(%r10), %r14
	movl	%ebx, %ebp
	notl	%ebp
	movslq	%ebp, %r15
	cmpq	%r15, %r14
	ja	6f
	addq	%rbx, %r14
	addq	(%rsi), %r14
	jb	6f
	addq	$16, %rsi
	addq	$344, %r10
	decq	%r11
	jne	1b
2:
	leaq	(%rdi,%r8), %rax
	addq	%r9, %rdx
	addq	%r8, %rdi
	addq	$140, %rdi
	movq	$-1, %rsi
	.p2align	4
3:
	incq	%rsi
	cmpq	%rsi, %rcx
	je	4f
	movl	(%rdi), %r8d
	cmpq	%r8, -12(%rdi)
	leaq	344(%rdi), %rdi
	jae	3b
	movq	%rax, %rdi
	movq	%rcx, %rsi
	callq	blake2_ffi..several..blake2b..update_in_frame_1_v4
	callq	blake2_digest..wiping..scrub_stack..9216_1_v4
	jmp	5f
4:
	movq	%rax, %rdi
	movq	%rcx, %rsi
	callq	blake2_ffi..several..blake2b..update_in_frame_1_v4
5:
	xorl	%eax, %eax
6:
	addq	$8, %rsp
	popq	%rbx
	popq	%r14
	popq	%r15
	popq	%rbp
7:
	retq
	vj_end	vulfsjor_ffi_blake2b_update_many_1_v4

	vj_export	vulfsjor_ffi_blake2b_verify_1_v4
	xorl	%ecx, %ecx
	testq	%rsi, %rsi
	sete	%r8b
	movl	144(%rdi), %r9d
	decl	%r9d
	movl	$-1, %eax
	cmpl	$63, %r9d
	ja	3f
	movl	136(%rdi), %r9d
	cmpl	$128, %r9d
	ja	3f
	pushq	%r15
	pushq	%r14
	pushq	%r12
	pushq	%rbx
	pushq	%rax
	movl	140(%rdi), %r15d
	cmpq	$128, %r15
	ja	2f
	movq	128(%rdi), %r12
	notl	%r9d
	movslq	%r9d, %r9
	cmpq	%r9, %r12
	ja	2f
	movzbl	65(%rdi), %r9d
	shll	$8, %r9d
	cmpl	$51456, %r9d
	je	2f
	movb	%r8b, %cl
	shll	$12, %ecx
	addq	%rcx, %rsi
	movq	%rdi, %r14
	callq	blake2_ffi..blake2b..is_digest_of_1_v4
	vxorps	%xmm0, %xmm0, %xmm0
	vmovups	%ymm0, (%r14)
	vmovups	%ymm0, 32(%r14)
	vmovups	%ymm0, 64(%r14)
	vmovups	%ymm0, 96(%r14)
	vmovups	%ymm0, 128(%r14)
	vmovups	%ymm0, 160(%r14)
	vmovups	%ymm0, 192(%r14)
	vmovups	%ymm0, 224(%r14)
	vmovups	%ymm0, 256(%r14)
	vmovups	%ymm0, 288(%r14)
	movl	%eax, %ebx
	vmovups	%ymm0, 312(%r14)
	cmpq	%r15, %r12
	jae	1f
	vzeroupper
	callq	blake2_digest..wiping..scrub_stack..1664_1_v4
1:
	movzbl	%bl, %eax
	decl	%eax
2:
	addq	$8, %rsp
	popq	%rbx
	popq	%r12
	popq	%r14
	popq	%r15
3:
	vzeroupper
	retq
	vj_end	vulfsjor_ffi_blake2b_verify_1_v4

	vj_export	vulfsjor_ffi_blake2b_wipe_1_v4
	vxorps	%xmm0, %xmm0, %xmm0
	vmovups	%ymm0, 312(%rdi)
	vmovups	%ymm0, 288(%rdi)
	vmovups	%ymm0, 256(%rdi)
	vmovups	%ymm0, 224(%rdi)
	vmovups	%ymm0, 192(%rdi)
	vmovups	%ymm0, 160(%rdi)
	vmovups	%ymm0, 128(%rdi)
	vmovups	%ymm0, 96(%rdi)
	vmovups	%ymm0, 64(%rdi)
	vmovups	%ymm0, 32(%rdi)
	vmovups	%ymm0, (%rdi)
	vzeroupper
	retq
	vj_end	vulfsjor_ffi_blake2b_wipe_1_v4

	vj_export	vulfsjor_ffi_blake2bp_count_1_v4
	movq	1496(%rdi), %rax
	decq	%rax
	cmpq	$63, %rax
	ja	1f
	movq	264(%rdi), %rax
	cmpq	$896, %rax
	ja	1f
	movq	256(%rdi), %rcx
	movq	%rax, %rdx
	notq	%rdx
	shrq	$2, %rdx
	cmpq	%rdx, %rcx
	ja	1f
	movq	1488(%rdi), %rdx
	cmpq	$512, %rdx
	ja	1f
	leaq	(%rax,%rcx,4), %rcx
	xorl	%eax, %eax
	subq	%rdx, %rcx
	cmovaeq	%rcx, %rax
	retq
1:
	xorl	%eax, %eax
	retq
	vj_end	vulfsjor_ffi_blake2bp_count_1_v4

	vj_export	vulfsjor_ffi_blake2bp_digest_size_1_v4
	movq	1496(%rdi), %rcx
	leaq	-1(%rcx), %rax
	cmpq	$63, %rax
	ja	1f
	movq	264(%rdi), %rax
	cmpq	$896, %rax
	ja	1f
	notq	%rax
	shrq	$2, %rax
	cmpq	%rax, 256(%rdi)
	jbe	2f
1:
	xorl	%eax, %eax
	retq
2:
	xorl	%eax, %eax
	cmpq	$513, 1488(%rdi)
	cmovbq	%rcx, %rax
	retq
	vj_end	vulfsjor_ffi_blake2bp_digest_size_1_v4

	vj_export	vulfsjor_ffi_blake2bp_final_1_v4
	xorl	%ecx, %ecx
	testq	%rsi, %rsi
	sete	%r8b
	movq	1496(%rdi), %r10
	leaq	-1(%r10), %r9
	movl	$-1, %eax
	cmpq	$63, %r9
	ja	4f
	movq	264(%rdi), %r11
	cmpq	$896, %r11
	ja	4f
	movq	256(%rdi), %r9
	notq	%r11
	shrq	$2, %r11
	cmpq	%r11, %r9
	ja	4f
	pushq	%rbx
	movq	1488(%rdi), %rbx
	cmpq	$513, %rbx
	setae	%r11b
	cmpq	%r10, %rdx
	setne	%dl
	orb	%r11b, %dl
	jne	3f
	movb	%r8b, %cl
	shll	$12, %ecx
	addq	%rcx, %rsi
	testq	%r9, %r9
	je	1f
	callq	blake2_ffi..blake2bp..finalize_1_v4
	jmp	2f
1:
	callq	blake2_ffi..blake2bp..finalize_1_v4
	xorl	%eax, %eax
	testq	%rbx, %rbx
	je	3f
	callq	blake2_digest..wiping..scrub_stack..5632_1_v4
2:
	xorl	%eax, %eax
3:
	popq	%rbx
4:
	retq
	vj_end	vulfsjor_ffi_blake2bp_final_1_v4

	vj_export	vulfsjor_ffi_blake2bp_init_salt_personal_1_v4
	pushq	%rbx
	subq	$16, %rsp
	movq	%rcx, %rbx
	movq	40(%rsp), %rax
	movq	32(%rsp), %rcx
	xorl	%r10d, %r10d
	testq	%rdx, %rdx
	sete	%r10b
	shll	$12, %r10d
	addq	%r10, %rdx
	xorl	%r10d, %r10d
	testq	%r8, %r8
	sete	%r10b
	shll	$12, %r10d
	addq	%r10, %r8
	xorl	%r10d, %r10d
	testq	%rcx, %rcx
	sete	%r10b
	shll	$12, %r10d
	addq	%rcx, %r10
	movq	%rax, 8(%rsp)
	movq	%r10, (%rsp)
	movq	%rbx, %rcx
	callq	blake2_ffi..blake2bp..initialize_1_v4
	testq	%rbx, %rbx
	je	1f
	movl	%eax, %ebx
	callq	blake2_digest..wiping..scrub_stack..5120_1_v4
	movl	%ebx, %eax
1:
	addq	$16, %rsp
	popq	%rbx
	retq
	vj_end	vulfsjor_ffi_blake2bp_init_salt_personal_1_v4

	vj_export	vulfsjor_ffi_blake2bp_init_key_1_v4
	pushq	%rbx
	subq	$16, %rsp
	testq	%rcx, %rcx
	je	1f
	xorl	%eax, %eax
	testq	%rdx, %rdx
	sete	%al
	shll	$12, %eax
	addq	%rdx, %rax
	leaq	.L1_v4_static.2(%rip), %r8
	movq	%r8, (%rsp)
	movq	$0, 8(%rsp)
	movq	%rax, %rdx
	xorl	%r9d, %r9d
	callq	blake2_ffi..blake2bp..initialize_1_v4
	movl	%eax, %ebx
	callq	blake2_digest..wiping..scrub_stack..5120_1_v4
	movl	%ebx, %eax
	addq	$16, %rsp
	popq	%rbx
	retq
1:
	movl	$1632, %edx
	xorl	%esi, %esi
	vj_c_call	memset
	movl	$-1, %eax
	addq	$16, %rsp
	popq	%rbx
	retq
	vj_end	vulfsjor_ffi_blake2bp_init_key_1_v4

	vj_export	vulfsjor_ffi_blake2bp_reset_1_v4
	movq	1496(%rdi), %rcx
	decq	%rcx
	movl	$-1, %eax
	cmpq	$63, %rcx
	ja	2f
	movq	264(%rdi), %rcx
	cmpq	$896, %rcx
	ja	2f
	notq	%rcx
	shrq	$2, %rcx
	cmpq	%rcx, 256(%rdi)
	ja	2f
	pushq	%rbx
	movq	1488(%rdi), %rbx
	cmpq	$512, %rbx
	ja	1f
	callq	blake2_ffi..blake2bp..reset_in_frame_1_v4
	xorl	%eax, %eax
	testq	%rbx, %rbx
	je	1f
	callq	blake2_digest..wiping..scrub_stack..1792_1_v4
	xorl	%eax, %eax
1:
	popq	%rbx
2:
	retq
	vj_end	vulfsjor_ffi_blake2bp_reset_1_v4

	vj_export	vulfsjor_ffi_blake2bp_state_size_1_v4
	movl	$1632, %eax
	retq
	vj_end	vulfsjor_ffi_blake2bp_state_size_1_v4

	vj_export	vulfsjor_ffi_blake2bp_update_1_v4
	xorl	%ecx, %ecx
	testq	%rsi, %rsi
	sete	%r8b
	movq	1496(%rdi), %r9
	decq	%r9
	movl	$-1, %eax
	cmpq	$63, %r9
	ja	3f
	movq	264(%rdi), %r11
	cmpq	$896, %r11
	ja	3f
	movq	256(%rdi), %r9
	movq	%r11, %r10
	notq	%r10
	shrq	$2, %r10
	cmpq	%r10, %r9
	ja	3f
	movq	1488(%rdi), %r10
	cmpq	$512, %r10
	ja	3f
	leaq	(%r11,%r9,4), %r11
	addq	%rdx, %r11
	jb	3f
	pushq	%rax
	movb	%r8b, %cl
	shll	$12, %ecx
	addq	%rcx, %rsi
	testq	%r9, %r9
	setne	%al
	testq	%r10, %r10
	sete	%cl
	orb	%al, %cl
	je	1f
	vj_call	blake2_parallel..lanes..blake2bp..Lanes..update_1_v4
	jmp	2f
1:
	callq	blake2_ffi..blake2bp..update_scrubbed_1_v4
2:
	xorl	%eax, %eax
	addq	$8, %rsp
3:
	retq
	vj_end	vulfsjor_ffi_blake2bp_update_1_v4

	vj_export	vulfsjor_ffi_blake2bp_verify_1_v4
	xorl	%ecx, %ecx
	testq	%rsi, %rsi
	sete	%r8b
	movq	1496(%rdi), %r9
	decq	%r9
	movl	$-1, %eax
	cmpq	$63, %r9
	ja	3f
	movq	264(%rdi), %r9
	cmpq	$896, %r9
	ja	3f
	pushq	%r15
	pushq	%r14
	pushq	%rbx
	movq	256(%rdi), %r15
	notq	%r9
	shrq	$2, %r9
	cmpq	%r9, %r15
	ja	2f
	movq	$-513, %r9
	addq	1488(%rdi), %r9
	cmpq	$-512, %r9
	jb	2f
	movb	%r8b, %cl
	shll	$12, %ecx
	addq	%rcx, %rsi
	movq	%rdi, %r14
	callq	blake2_ffi..blake2bp..is_digest_of_1_v4
	movl	%eax, %ebx
	movl	$1632, %edx
	movq	%r14, %rdi
	xorl	%esi, %esi
	vj_c_call	memset
	testq	%r15, %r15
	jne	1f
	callq	blake2_digest..wiping..scrub_stack..5632_1_v4
1:
	movzbl	%bl, %eax
	decl	%eax
2:
	popq	%rbx
	popq	%r14
	popq	%r15
3:
	retq
	vj_end	vulfsjor_ffi_blake2bp_verify_1_v4

	vj_export	vulfsjor_ffi_blake2bp_wipe_1_v4
	movl	$1632, %edx
	xorl	%esi, %esi
	vj_c_jump	memset
	vj_end	vulfsjor_ffi_blake2bp_wipe_1_v4

	vj_export	vulfsjor_ffi_blake2s_count_1_v4
	movzwl	76(%rdi), %eax
	decl	%eax
	cmpw	$31, %ax
	ja	1f
	movzwl	72(%rdi), %eax
	cmpq	$64, %rax
	ja	1f
	movzwl	74(%rdi), %ecx
	cmpq	$64, %rcx
	ja	1f
	movq	64(%rdi), %rdx
	movl	%eax, %esi
	notl	%esi
	movswq	%si, %rsi
	cmpq	%rsi, %rdx
	jbe	2f
1:
	xorl	%eax, %eax
	retq
2:
	addq	%rax, %rdx
	xorl	%eax, %eax
	subq	%rcx, %rdx
	cmovaeq	%rdx, %rax
	retq
	vj_end	vulfsjor_ffi_blake2s_count_1_v4

	vj_export	vulfsjor_ffi_blake2s_digest_size_1_v4
	movzwl	76(%rdi), %eax
	leal	-1(%rax), %ecx
	cmpw	$31, %cx
	ja	1f
	movzwl	72(%rdi), %ecx
	cmpw	$64, %cx
	ja	1f
	cmpw	$64, 74(%rdi)
	ja	1f
	notl	%ecx
	movswq	%cx, %rcx
	xorl	%edx, %edx
	cmpq	%rcx, 64(%rdi)
	cmovaq	%rdx, %rax
	retq
1:
	xorl	%eax, %eax
	retq
	vj_end	vulfsjor_ffi_blake2s_digest_size_1_v4

	vj_export	vulfsjor_ffi_blake2s_final_1_v4
	xorl	%ecx, %ecx
	testq	%rsi, %rsi
	sete	%r8b
	movzwl	76(%rdi), %r9d
	leal	-1(%r9), %r10d
	movl	$-1, %eax
	cmpw	$31, %r10w
	ja	2f
	movzwl	72(%rdi), %r10d
	cmpw	$64, %r10w
	ja	2f
	pushq	%r14
	pushq	%rbx
	pushq	%rax
	movzwl	74(%rdi), %ebx
	cmpq	$64, %rbx
	ja	1f
	movq	64(%rdi), %r14
	notl	%r10d
	movswq	%r10w, %r10
	cmpq	%r10, %r14
	setbe	%r10b
	cmpq	%r9, %rdx
	sete	%dl
	andb	%r10b, %dl
	cmpb	$1, %dl
	jne	1f
	movb	%r8b, %cl
	shll	$12, %ecx
	addq	%rcx, %rsi
	callq	blake2_ffi..blake2s..finalize_1_v4
	xorl	%eax, %eax
	cmpq	%rbx, %r14
	jae	1f
	callq	blake2_digest..wiping..scrub_stack..768_1_v4
	xorl	%eax, %eax
1:
	addq	$8, %rsp
	popq	%rbx
	popq	%r14
2:
	retq
	vj_end	vulfsjor_ffi_blake2s_final_1_v4

	vj_constants	32
	.p2align	5, 0x0
.L1_v4_CPI148_0:
	.long	1779033703
	.long	3144134277
	.long	1013904242
	.long	2773480762
	.long	1359893119
	.long	2600822924
	.long	528734635
	.long	1541459225
	vj_export	vulfsjor_ffi_blake2s_init_param_1_v4
	xorl	%eax, %eax
	testq	%rsi, %rsi
	sete	%cl
	cmpq	$32, %rdx
	jne	1f
	movb	%cl, %al
	shll	$12, %eax
	movzbl	(%rsi,%rax), %ecx
	addb	$-33, %cl
	cmpb	$-32, %cl
	jb	1f
	cmpb	$32, 1(%rsi,%rax)
	jbe	2f
1:
	vxorps	%xmm0, %xmm0, %xmm0
	vmovups	%ymm0, 144(%rdi)
	vmovups	%ymm0, 128(%rdi)
	vmovups	%ymm0, 96(%rdi)
	vmovups	%ymm0, 64(%rdi)
	vmovups	%ymm0, 32(%rdi)
	vmovups	%ymm0, (%rdi)
	movl	$-1, %eax
	vzeroupper
	retq
2:
	vmovdqu	(%rsi,%rax), %xmm0
	vpextrb	$0, %xmm0, %ecx
	vmovups	(%rsi,%rax), %ymm0
	vxorps	.L1_v4_CPI148_0(%rip), %ymm0, %ymm0
	vmovups	%ymm0, (%rdi)
	vmovups	%ymm0, 32(%rdi)
	movq	$0, 64(%rdi)
	movl	$0, 72(%rdi)
	movw	%cx, 76(%rdi)
	vxorps	%xmm0, %xmm0, %xmm0
	vmovups	%ymm0, 78(%rdi)
	vmovups	%ymm0, 110(%rdi)
	vmovups	%ymm0, 142(%rdi)
	movw	$0, 174(%rdi)
	xorl	%eax, %eax
	vzeroupper
	retq
	vj_end	vulfsjor_ffi_blake2s_init_param_1_v4

	vj_export	vulfsjor_ffi_blake2s_init_salt_personal_1_v4
	pushq	%rbx
	subq	$80, %rsp
	movq	%rcx, %rbx
	movq	104(%rsp), %rax
	movq	96(%rsp), %r10
	xorl	%ecx, %ecx
	testq	%rdx, %rdx
	sete	%cl
	shll	$12, %ecx
	addq	%rdx, %rcx
	xorl	%edx, %edx
	testq	%r8, %r8
	sete	%dl
	shll	$12, %edx
	addq	%r8, %rdx
	xorl	%r8d, %r8d
	testq	%r10, %r10
	sete	%r8b
	shll	$12, %r8d
	addq	%r10, %r8
	movq	%rsi, 24(%rsp)
	movq	%rcx, 32(%rsp)
	movq	%rbx, 40(%rsp)
	movq	%rdx, 48(%rsp)
	movq	%r9, 56(%rsp)
	movq	%r8, 64(%rsp)
	movq	%rax, 72(%rsp)
	movw	$257, (%rsp)
	vxorps	%xmm0, %xmm0, %xmm0
	vmovups	%xmm0, 2(%rsp)
	movq	$0, 16(%rsp)
	leaq	24(%rsp), %rsi
	movq	%rsp, %rdx
	callq	blake2_ffi..blake2s..initialize_1_v4
	testq	%rbx, %rbx
	je	1f
	movl	%eax, %ebx
	callq	blake2_digest..wiping..scrub_stack..768_1_v4
	movl	%ebx, %eax
1:
	addq	$80, %rsp
	popq	%rbx
	retq
	vj_end	vulfsjor_ffi_blake2s_init_salt_personal_1_v4

	vj_export	vulfsjor_ffi_blake2s_init_key_1_v4
	pushq	%rbx
	subq	$80, %rsp
	testq	%rcx, %rcx
	je	1f
	xorl	%eax, %eax
	testq	%rdx, %rdx
	sete	%al
	shll	$12, %eax
	addq	%rdx, %rax
	movq	%rsi, 24(%rsp)
	movq	%rax, 32(%rsp)
	movq	%rcx, 40(%rsp)
	leaq	.L1_v4_static.2(%rip), %rax
	movq	%rax, 48(%rsp)
	movq	$0, 56(%rsp)
	movq	%rax, 64(%rsp)
	movq	$0, 72(%rsp)
	movw	$257, (%rsp)
	vxorps	%xmm0, %xmm0, %xmm0
	vmovups	%xmm0, 2(%rsp)
	movq	$0, 16(%rsp)
	leaq	24(%rsp), %rsi
	movq	%rsp, %rdx
	callq	blake2_ffi..blake2s..initialize_1_v4
	movl	%eax, %ebx
	callq	blake2_digest..wiping..scrub_stack..768_1_v4
	movl	%ebx, %eax
	addq	$80, %rsp
	popq	%rbx
	retq
1:
	vxorps	%xmm0, %xmm0, %xmm0
	vmovups	%ymm0, 144(%rdi)
	vmovups	%ymm0, 128(%rdi)
	vmovups	%ymm0, 96(%rdi)
	vmovups	%ymm0, 64(%rdi)
	vmovups	%ymm0, 32(%rdi)
	vmovups	%ymm0, (%rdi)
	movl	$-1, %ebx
	movl	%ebx, %eax
	addq	$80, %rsp
	popq	%rbx
	vzeroupper
	retq
	vj_end	vulfsjor_ffi_blake2s_init_key_1_v4

	vj_export	vulfsjor_ffi_blake2s_init_tree_1_v4
	pushq	%rbp
	pushq	%r15
	pushq	%r14
	pushq	%r13
	pushq	%r12
	pushq	%rbx
	subq	$104, %rsp
	movq	%r9, 40(%rsp)
	movq	%rsi, 32(%rsp)
	movq	176(%rsp), %r14
	movq	160(%rsp), %rax
	xorl	%r11d, %r11d
	testq	%rdx, %rdx
	sete	%sil
	xorl	%r10d, %r10d
	testq	%r8, %r8
	movzbl	12(%r14), %ebp
	movzbl	13(%r14), %ebx
	movl	8(%r14), %r15d
	movzbl	14(%r14), %r9d
	movzbl	15(%r14), %r13d
	movq	(%r14), %r12
	movb	%bpl, 8(%rsp)
	sete	%bpl
	movb	%bl, 9(%rsp)
	movw	$0, 10(%rsp)
	movl	%r15d, 12(%rsp)
	xorl	%r14d, %r14d
	testq	%rax, %rax
	movq	%r12, 16(%rsp)
	movb	%r9b, 24(%rsp)
	sete	%r15b
	movb	%r13b, 25(%rsp)
	movl	$0, 26(%rsp)
	movw	$0, 30(%rsp)
	testb	%bl, %bl
	je	1f
	cmpb	$33, %r13b
	setb	%r9b
	shrq	$48, %r12
	sete	%bl
	testb	%r9b, %bl
	je	1f
	movq	168(%rsp), %r9
	movb	%sil, %r11b
	shll	$12, %r11d
	addq	%r11, %rdx
	movb	%bpl, %r10b
	shll	$12, %r10d
	addq	%r10, %r8
	movb	%r15b, %r14b
	shll	$12, %r14d
	addq	%r14, %rax
	movq	32(%rsp), %rsi
	movq	%rsi, 48(%rsp)
	movq	%rdx, 56(%rsp)
	movq	%rcx, 64(%rsp)
	movq	%r8, 72(%rsp)
	movq	40(%rsp), %rdx
	movq	%rdx, 80(%rsp)
	movq	%rax, 88(%rsp)
	movq	%r9, 96(%rsp)
	leaq	48(%rsp), %rsi
	leaq	8(%rsp), %rdx
	movq	%rcx, %rbx
	callq	blake2_ffi..blake2s..initialize_1_v4
	testq	%rbx, %rbx
	je	2f
	movl	%eax, %ebx
	callq	blake2_digest..wiping..scrub_stack..768_1_v4
	movl	%ebx, %eax
	jmp	2f
1:
	vxorps	%xmm0, %xmm0, %xmm0
	vmovups	%ymm0, 144(%rdi)
	vmovups	%ymm0, 128(%rdi)
	vmovups	%ymm0, 96(%rdi)
	vmovups	%ymm0, 64(%rdi)
	vmovups	%ymm0, 32(%rdi)
	vmovups	%ymm0, (%rdi)
	movl	$-1, %eax
2:
	addq	$104, %rsp
	popq	%rbx
	popq	%r12
	popq	%r13
	popq	%r14
	popq	%r15
	popq	%rbp
	vzeroupper
	retq
	vj_end	vulfsjor_ffi_blake2s_init_tree_1_v4

	vj_export	vulfsjor_ffi_blake2s_load_1_v4
	pushq	%rbp
	pushq	%r15
	pushq	%r14
	pushq	%r13
	pushq	%r12
	pushq	%rbx
	subq	$536, %rsp
	movq	%rdi, %rbx
	xorl	%eax, %eax
	testq	%rsi, %rsi
	sete	%cl
	cmpq	$147, %rdx
	jne	1f
	movq	%rsi, %r14
	movb	%cl, %al
	shll	$12, %eax
	addq	%rax, %r14
	vmovups	8(%r14), %ymm0
	vmovups	40(%r14), %ymm1
	movq	72(%r14), %r15
	movzbl	81(%r14), %ebp
	movzbl	80(%r14), %r12d
	movzbl	82(%r14), %r13d
	vmovups	%ymm0, 208(%rsp)
	vmovups	%ymm0, (%rsp)
	vmovups	%ymm1, 176(%rsp)
	vmovups	%ymm1, 32(%rsp)
	movq	%r15, 64(%rsp)
	movw	%bp, 72(%rsp)
	movw	$0, 74(%rsp)
	movw	%r12w, 76(%rsp)
	movw	%r13w, 78(%rsp)
	vmovups	83(%r14), %ymm0
	vmovups	115(%r14), %ymm1
	vmovups	%ymm0, 80(%rsp)
	vmovups	%ymm1, 112(%rsp)
	vxorps	%xmm0, %xmm0, %xmm0
	vmovups	%ymm0, 144(%rsp)
	leaq	388(%rsp), %rdi
	movq	%rsp, %rsi
	vzeroupper
	callq	blake2_state..blake2s..State..save_1_v4
	cmpb	$1, 388(%rsp)
	jne	1f
	vmovups	504(%rsp), %ymm0
	vmovups	%ymm0, 355(%rsp)
	vmovups	389(%rsp), %ymm0
	vmovups	421(%rsp), %ymm1
	vmovups	453(%rsp), %ymm2
	vmovups	485(%rsp), %ymm3
	vmovups	%ymm3, 336(%rsp)
	vmovups	%ymm2, 304(%rsp)
	vmovups	%ymm1, 272(%rsp)
	vmovups	%ymm0, 240(%rsp)
	movl	(%r14), %eax
	cmpl	240(%rsp), %eax
	jne	1f
	leaq	240(%rsp), %rdx
	movl	$147, %esi
	movq	%r14, %rdi
	vzeroupper
	callq	core..cmp..slices..groups_equal..i8.31.core..cmp..numbers..U8PartialEq_1_v4
	testb	%al, %al
	je	1f
	addq	$83, %r14
	vmovups	(%r14), %ymm0
	vmovups	32(%r14), %ymm1
	vmovups	%ymm0, (%rsp)
	vmovups	%ymm1, 32(%rsp)
	vmovups	208(%rsp), %ymm0
	vmovups	%ymm0, (%rbx)
	vmovups	176(%rsp), %ymm0
	vmovups	%ymm0, 32(%rbx)
	movq	%r15, 64(%rbx)
	movw	%bp, 72(%rbx)
	movw	$0, 74(%rbx)
	movw	%r12w, 76(%rbx)
	movw	%r13w, 78(%rbx)
	vmovups	(%rsp), %ymm0
	vmovups	32(%rsp), %ymm1
	vmovups	%ymm0, 80(%rbx)
	vmovups	%ymm1, 112(%rbx)
	vxorps	%xmm0, %xmm0, %xmm0
	vmovups	%ymm0, 144(%rbx)
	xorl	%eax, %eax
	jmp	2f
1:
	vxorps	%xmm0, %xmm0, %xmm0
	vmovups	%ymm0, 144(%rbx)
	vmovups	%ymm0, 128(%rbx)
	vmovups	%ymm0, 96(%rbx)
	vmovups	%ymm0, 64(%rbx)
	vmovups	%ymm0, 32(%rbx)
	vmovups	%ymm0, (%rbx)
	movl	$-1, %eax
2:
	addq	$536, %rsp
	popq	%rbx
	popq	%r12
	popq	%r13
	popq	%r14
	popq	%r15
	popq	%rbp
	vzeroupper
	retq
	vj_end	vulfsjor_ffi_blake2s_load_1_v4

	vj_export	vulfsjor_ffi_blake2s_reset_1_v4
	movzwl	76(%rdi), %ecx
	decl	%ecx
	movl	$-1, %eax
	cmpw	$31, %cx
	ja	1f
	movzwl	72(%rdi), %edx
	cmpw	$64, %dx
	ja	1f
	movzwl	74(%rdi), %ecx
	cmpw	$64, %cx
	ja	1f
	notl	%edx
	movswq	%dx, %rdx
	cmpq	%rdx, 64(%rdi)
	ja	1f
	vmovups	32(%rdi), %ymm0
	vmovups	144(%rdi), %ymm1
	vmovups	%ymm0, (%rdi)
	movq	$0, 64(%rdi)
	movw	%cx, 72(%rdi)
	vxorps	%xmm0, %xmm0, %xmm0
	vmovups	%ymm0, 112(%rdi)
	vmovups	%ymm1, 80(%rdi)
	xorl	%eax, %eax
1:
	vzeroupper
	retq
	vj_end	vulfsjor_ffi_blake2s_reset_1_v4

	vj_export	vulfsjor_ffi_blake2s_save_1_v4
	pushq	%rbp
	pushq	%r15
	pushq	%r14
	pushq	%rbx
	subq	$152, %rsp
	movq	%rsi, %rbx
	xorl	%r14d, %r14d
	testq	%rsi, %rsi
	sete	%r15b
	movl	$-1, %ebp
	cmpq	$147, %rdx
	jne	1f
	movq	%rdi, %rsi
	leaq	4(%rsp), %rdi
	callq	blake2_state..blake2s..State..save_1_v4
	cmpb	$1, 4(%rsp)
	jne	1f
	movb	%r15b, %r14b
	shll	$12, %r14d
	addq	%r14, %rbx
	vmovups	120(%rsp), %ymm0
	vmovups	%ymm0, 115(%rbx)
	vmovups	5(%rsp), %ymm0
	vmovups	37(%rsp), %ymm1
	vmovups	69(%rsp), %ymm2
	vmovups	101(%rsp), %ymm3
	vmovups	%ymm3, 96(%rbx)
	vmovups	%ymm2, 64(%rbx)
	vmovups	%ymm1, 32(%rbx)
	vmovups	%ymm0, (%rbx)
	xorl	%ebp, %ebp
1:
	movl	%ebp, %eax
	addq	$152, %rsp
	popq	%rbx
	popq	%r14
	popq	%r15
	popq	%rbp
	vzeroupper
	retq
	vj_end	vulfsjor_ffi_blake2s_save_1_v4

	vj_export	vulfsjor_ffi_blake2s_set_last_node_1_v4
	movzwl	76(%rdi), %ecx
	decl	%ecx
	movl	$-1, %eax
	cmpw	$31, %cx
	ja	1f
	movzwl	72(%rdi), %ecx
	cmpw	$64, %cx
	ja	1f
	cmpw	$64, 74(%rdi)
	ja	1f
	notl	%ecx
	movswq	%cx, %rcx
	cmpq	%rcx, 64(%rdi)
	ja	1f
	xorl	%eax, %eax
	testl	%esi, %esi
	setne	%al
	movw	%ax, 78(%rdi)
	xorl	%eax, %eax
1:
	retq
	vj_end	vulfsjor_ffi_blake2s_set_last_node_1_v4

	vj_export	vulfsjor_ffi_blake2s_state_size_1_v4
	movl	$176, %eax
	retq
	vj_end	vulfsjor_ffi_blake2s_state_size_1_v4

	vj_export	vulfsjor_ffi_blake2s_update_1_v4
	xorl	%r8d, %r8d
	testq	%rsi, %rsi
	sete	%r9b
	movzwl	76(%rdi), %ecx
	decl	%ecx
	movl	$-1, %eax
	cmpw	$31, %cx
	ja	6f
	movzwl	72(%rdi), %ecx
	cmpq	$64, %rcx
	ja	6f
	movzwl	74(%rdi), %r10d
	cmpq	$64, %r10
	ja	6f
	pushq	%rbx
	movq	64(%rdi), %r11
	movl	%ecx, %ebx
	notl	%ebx
	movswq	%bx, %rbx
	cmpq	%rbx, %r11
	ja	5f
	leaq	(%r11,%rcx), %rbx
	addq	%rdx, %rbx
	jb	5f
	movb	%r9b, %r8b
	shll	$12, %r8d
	addq	%r8, %rsi
	cmpq	%r10, %r11
	jae	1f
	callq	blake2_ffi..blake2s..update_scrubbed_1_v4
	jmp	4f
1:
	cmpq	$1, %rdx
	jne	2f
	cmpl	$64, %ecx
	jne	3f
	movl	$1, %edx
2:
	callq	blake2_state..blake2s..State..absorb_blocks_1_v4
	jmp	4f
3:
	movzbl	(%rsi), %eax
	movb	%al, 80(%rdi,%rcx)
	leal	1(%rcx), %eax
	movw	%ax, 72(%rdi)
4:
	xorl	%eax, %eax
5:
	popq	%rbx
6:
	retq
	vj_end	vulfsjor_ffi_blake2s_update_1_v4

	vj_export	vulfsjor_ffi_blake2s_update_many_1_v4
	xorl	%r8d, %r8d
	testq	%rdi, %rdi
	sete	%r11b
	xorl	%r9d, %r9d
	testq	%rdx, %rdx
	sete	%r10b
	movl	$-1, %eax
	cmpq	%rsi, %rcx
	jne	7f
	pushq	%r15
	pushq	%r14
	pushq	%rbx
	movb	%r11b, %r8b
	shll	$12, %r8d
	movb	%r10b, %r9b
	shll	$12, %r9d
	testq	%rcx, %rcx
	je	2f
	leaq	(%r9,%rdx), %rsi
	addq	$8, %rsi
	leaq	(%r8,%rdi), %r10
	addq	$76, %r10
	movq	%rcx, %r11
	.p2align	4
1:
	movzwl	(%r10), %ebx
	decl	%ebx
	cmpw	$31, %bx
	ja	6f
	movzwl	-4(%r10), %ebx
	cmpq	$64, %rbx
	ja	6f
	cmpw	$64, -2(%r10)
	ja	6f
	movq	-12(%r10), %r14
	movl	%ebx, %r15d
	notl	%r15d
	movswq	%r15w, %r15
	cmpq	%r15, %r14
	ja	6f
	addq	%rbx, %r14
	addq	(%rsi), %r14
	jb	6f
	addq	$16, %rsi
	addq	$176, %r10
	decq	%r11
	jne	1b
2:
	leaq	(%rdi,%r8), %rax
	addq	%r9, %rdx
	addq	%r8, %rdi
	addq	$74, %rdi
	movq	$-1, %rsi
	.p2align	4
3:
	incq	%rsi
	cmpq	%rsi, %rcx
	je	4f
	movzwl	(%rdi), %r8d
	cmpq	%r8, -10(%rdi)
	leaq	176(%rdi), %rdi
	jae	3b
	movq	%rax, %rdi
	movq	%rcx, %rsi
	callq	blake2_ffi..several..blake2s..update_in_frame_1_v4
	callq	blake2_digest..wiping..scrub_stack..9216_1_v4
	jmp	5f
4:
	movq	%rax, %rdi
	movq	%rcx, %rsi
	callq	blake2_ffi..several..blake2s..update_in_frame_1_v4
5:
	xorl	%eax, %eax
6:
	popq	%rbx
	popq	%r14
	popq	%r15
7:
	retq
	vj_end	vulfsjor_ffi_blake2s_update_many_1_v4

	vj_export	vulfsjor_ffi_blake2s_verify_1_v4
	xorl	%ecx, %ecx
	testq	%rsi, %rsi
	sete	%r8b
	movzwl	76(%rdi), %r9d
	decl	%r9d
	movl	$-1, %eax
	cmpw	$31, %r9w
	ja	3f
	movzwl	72(%rdi), %r9d
	cmpw	$64, %r9w
	ja	3f
	pushq	%r15
	pushq	%r14
	pushq	%r12
	pushq	%rbx
	pushq	%rax
	movzwl	74(%rdi), %r15d
	cmpq	$64, %r15
	ja	2f
	movq	64(%rdi), %r12
	notl	%r9d
	movswq	%r9w, %r9
	cmpq	%r9, %r12
	ja	2f
	movzbl	33(%rdi), %r9d
	shll	$8, %r9d
	cmpl	$58880, %r9d
	je	2f
	movb	%r8b, %cl
	shll	$12, %ecx
	addq	%rcx, %rsi
	movq	%rdi, %r14
	callq	blake2_ffi..blake2s..is_digest_of_1_v4
	vxorps	%xmm0, %xmm0, %xmm0
	vmovups	%ymm0, (%r14)
	vmovups	%ymm0, 32(%r14)
	vmovups	%ymm0, 64(%r14)
	vmovups	%ymm0, 96(%r14)
	vmovups	%ymm0, 128(%r14)
	movl	%eax, %ebx
	vmovups	%ymm0, 144(%r14)
	cmpq	%r15, %r12
	jae	1f
	vzeroupper
	callq	blake2_digest..wiping..scrub_stack..768_1_v4
1:
	movzbl	%bl, %eax
	decl	%eax
2:
	addq	$8, %rsp
	popq	%rbx
	popq	%r12
	popq	%r14
	popq	%r15
3:
	vzeroupper
	retq
	vj_end	vulfsjor_ffi_blake2s_verify_1_v4

	vj_export	vulfsjor_ffi_blake2s_wipe_1_v4
	vxorps	%xmm0, %xmm0, %xmm0
	vmovups	%ymm0, 144(%rdi)
	vmovups	%ymm0, 128(%rdi)
	vmovups	%ymm0, 96(%rdi)
	vmovups	%ymm0, 64(%rdi)
	vmovups	%ymm0, 32(%rdi)
	vmovups	%ymm0, (%rdi)
	vzeroupper
	retq
	vj_end	vulfsjor_ffi_blake2s_wipe_1_v4

	vj_export	vulfsjor_ffi_blake2sp_count_1_v4
	movq	1528(%rdi), %rax
	decq	%rax
	cmpq	$31, %rax
	ja	1f
	movq	264(%rdi), %rax
	cmpq	$960, %rax
	ja	1f
	movq	256(%rdi), %rcx
	movq	%rax, %rdx
	notq	%rdx
	shrq	$3, %rdx
	cmpq	%rdx, %rcx
	ja	1f
	movq	1520(%rdi), %rdx
	cmpq	$512, %rdx
	ja	1f
	leaq	(%rax,%rcx,8), %rcx
	xorl	%eax, %eax
	subq	%rdx, %rcx
	cmovaeq	%rcx, %rax
	retq
1:
	xorl	%eax, %eax
	retq
	vj_end	vulfsjor_ffi_blake2sp_count_1_v4

	vj_export	vulfsjor_ffi_blake2sp_digest_size_1_v4
	movq	1528(%rdi), %rcx
	leaq	-1(%rcx), %rax
	cmpq	$31, %rax
	ja	1f
	movq	264(%rdi), %rax
	cmpq	$960, %rax
	ja	1f
	notq	%rax
	shrq	$3, %rax
	cmpq	%rax, 256(%rdi)
	jbe	2f
1:
	xorl	%eax, %eax
	retq
2:
	xorl	%eax, %eax
	cmpq	$513, 1520(%rdi)
	cmovbq	%rcx, %rax
	retq
	vj_end	vulfsjor_ffi_blake2sp_digest_size_1_v4

	vj_export	vulfsjor_ffi_blake2sp_final_1_v4
	xorl	%ecx, %ecx
	testq	%rsi, %rsi
	sete	%r8b
	movq	1528(%rdi), %r10
	leaq	-1(%r10), %r9
	movl	$-1, %eax
	cmpq	$31, %r9
	ja	4f
	movq	264(%rdi), %r11
	cmpq	$960, %r11
	ja	4f
	movq	256(%rdi), %r9
	notq	%r11
	shrq	$3, %r11
	cmpq	%r11, %r9
	ja	4f
	pushq	%rbx
	movq	1520(%rdi), %rbx
	cmpq	$513, %rbx
	setae	%r11b
	cmpq	%r10, %rdx
	setne	%dl
	orb	%r11b, %dl
	jne	3f
	movb	%r8b, %cl
	shll	$12, %ecx
	addq	%rcx, %rsi
	testq	%r9, %r9
	je	1f
	callq	blake2_ffi..blake2sp..finalize_1_v4
	jmp	2f
1:
	callq	blake2_ffi..blake2sp..finalize_1_v4
	xorl	%eax, %eax
	testq	%rbx, %rbx
	je	3f
	callq	blake2_digest..wiping..scrub_stack..5632_1_v4
2:
	xorl	%eax, %eax
3:
	popq	%rbx
4:
	retq
	vj_end	vulfsjor_ffi_blake2sp_final_1_v4

	vj_export	vulfsjor_ffi_blake2sp_init_salt_personal_1_v4
	pushq	%rbx
	subq	$16, %rsp
	movq	%rcx, %rbx
	movq	40(%rsp), %rax
	movq	32(%rsp), %rcx
	xorl	%r10d, %r10d
	testq	%rdx, %rdx
	sete	%r10b
	shll	$12, %r10d
	addq	%r10, %rdx
	xorl	%r10d, %r10d
	testq	%r8, %r8
	sete	%r10b
	shll	$12, %r10d
	addq	%r10, %r8
	xorl	%r10d, %r10d
	testq	%rcx, %rcx
	sete	%r10b
	shll	$12, %r10d
	addq	%rcx, %r10
	movq	%rax, 8(%rsp)
	movq	%r10, (%rsp)
	movq	%rbx, %rcx
	callq	blake2_ffi..blake2sp..initialize_1_v4
	testq	%rbx, %rbx
	je	1f
	movl	%eax, %ebx
	callq	blake2_digest..wiping..scrub_stack..5120_1_v4
	movl	%ebx, %eax
1:
	addq	$16, %rsp
	popq	%rbx
	retq
	vj_end	vulfsjor_ffi_blake2sp_init_salt_personal_1_v4

	vj_export	vulfsjor_ffi_blake2sp_init_key_1_v4
	pushq	%rbx
	subq	$16, %rsp
	testq	%rcx, %rcx
	je	1f
	xorl	%eax, %eax
	testq	%rdx, %rdx
	sete	%al
	shll	$12, %eax
	addq	%rdx, %rax
	leaq	.L1_v4_static.2(%rip), %r8
	movq	%r8, (%rsp)
	movq	$0, 8(%rsp)
	movq	%rax, %rdx
	xorl	%r9d, %r9d
	callq	blake2_ffi..blake2sp..initialize_1_v4
	movl	%eax, %ebx
	callq	blake2_digest..wiping..scrub_stack..5120_1_v4
	movl	%ebx, %eax
	addq	$16, %rsp
	popq	%rbx
	retq
1:
	movl	$1600, %edx
	xorl	%esi, %esi
	vj_c_call	memset
	movl	$-1, %eax
	addq	$16, %rsp
	popq	%rbx
	retq
	vj_end	vulfsjor_ffi_blake2sp_init_key_1_v4

	vj_export	vulfsjor_ffi_blake2sp_reset_1_v4
	movq	1528(%rdi), %rcx
	decq	%rcx
	movl	$-1, %eax
	cmpq	$31, %rcx
	ja	2f
	movq	264(%rdi), %rcx
	cmpq	$960, %rcx
	ja	2f
	notq	%rcx
	shrq	$3, %rcx
	cmpq	%rcx, 256(%rdi)
	ja	2f
	pushq	%rbx
	movq	1520(%rdi), %rbx
	cmpq	$512, %rbx
	ja	1f
	callq	blake2_ffi..blake2sp..reset_in_frame_1_v4
	xorl	%eax, %eax
	testq	%rbx, %rbx
	je	1f
	callq	blake2_digest..wiping..scrub_stack..1792_1_v4
	xorl	%eax, %eax
1:
	popq	%rbx
2:
	retq
	vj_end	vulfsjor_ffi_blake2sp_reset_1_v4

	vj_export	vulfsjor_ffi_blake2sp_state_size_1_v4
	movl	$1600, %eax
	retq
	vj_end	vulfsjor_ffi_blake2sp_state_size_1_v4

	vj_export	vulfsjor_ffi_blake2sp_update_1_v4
	xorl	%ecx, %ecx
	testq	%rsi, %rsi
	sete	%r8b
	movq	1528(%rdi), %r9
	decq	%r9
	movl	$-1, %eax
	cmpq	$31, %r9
	ja	3f
	movq	264(%rdi), %r11
	cmpq	$960, %r11
	ja	3f
	movq	256(%rdi), %r9
	movq	%r11, %r10
	notq	%r10
	shrq	$3, %r10
	cmpq	%r10, %r9
	ja	3f
	movq	1520(%rdi), %r10
	cmpq	$512, %r10
	ja	3f
	leaq	(%r11,%r9,8), %r11
	addq	%rdx, %r11
	jb	3f
	pushq	%rax
	movb	%r8b, %cl
	shll	$12, %ecx
	addq	%rcx, %rsi
	testq	%r9, %r9
	setne	%al
	testq	%r10, %r10
	sete	%cl
	orb	%al, %cl
	je	1f
	vj_call	blake2_parallel..lanes..blake2sp..Lanes..update_1_v4
	jmp	2f
1:
	callq	blake2_ffi..blake2sp..update_scrubbed_1_v4
2:
	xorl	%eax, %eax
	addq	$8, %rsp
3:
	retq
	vj_end	vulfsjor_ffi_blake2sp_update_1_v4

	vj_export	vulfsjor_ffi_blake2sp_verify_1_v4
	xorl	%ecx, %ecx
	testq	%rsi, %rsi
	sete	%r8b
	movq	1528(%rdi), %r9
	decq	%r9
	movl	$-1, %eax
	cmpq	$31, %r9
	ja	3f
	movq	264(%rdi), %r9
	cmpq	$960, %r9
	ja	3f
	pushq	%r15
	pushq	%r14
	pushq	%rbx
	movq	256(%rdi), %r15
	notq	%r9
	shrq	$3, %r9
	cmpq	%r9, %r15
	ja	2f
	movq	$-513, %r9
	addq	1520(%rdi), %r9
	cmpq	$-512, %r9
	jb	2f
	movb	%r8b, %cl
	shll	$12, %ecx
	addq	%rcx, %rsi
	movq	%rdi, %r14
	callq	blake2_ffi..blake2sp..is_digest_of_1_v4
	movl	%eax, %ebx
	movl	$1600, %edx
	movq	%r14, %rdi
	xorl	%esi, %esi
	vj_c_call	memset
	testq	%r15, %r15
	jne	1f
	callq	blake2_digest..wiping..scrub_stack..5632_1_v4
1:
	movzbl	%bl, %eax
	decl	%eax
2:
	popq	%rbx
	popq	%r14
	popq	%r15
3:
	retq
	vj_end	vulfsjor_ffi_blake2sp_verify_1_v4

	vj_export	vulfsjor_ffi_blake2sp_wipe_1_v4
	movl	$1600, %edx
	xorl	%esi, %esi
	vj_c_jump	memset
	vj_end	vulfsjor_ffi_blake2sp_wipe_1_v4

	vj_export	vulfsjor_ffi_blake2xb_count_1_v4
	movl	144(%rdi), %edx
	leal	-1(%rdx), %eax
	cmpl	$63, %eax
	ja	1f
	movl	136(%rdi), %eax
	cmpq	$128, %rax
	ja	1f
	movl	140(%rdi), %ecx
	cmpq	$128, %rcx
	ja	1f
	cmpl	$64, %edx
	jne	1f
	movq	128(%rdi), %rdx
	movl	%eax, %esi
	notl	%esi
	movslq	%esi, %rsi
	cmpq	%rsi, %rdx
	ja	1f
	movq	440(%rdi), %rsi
	leaq	-1(%rsi), %r8
	movl	$4294967294, %r9d
	cmpq	%r9, %r8
	ja	1f
	movl	$4294967295, %r8d
	cmpq	%r8, %rsi
	movabsq	$274877906944, %r8
	cmovneq	%rsi, %r8
	cmpq	%r8, 448(%rdi)
	jbe	2f
1:
	xorl	%eax, %eax
	retq
2:
	addq	%rax, %rdx
	xorl	%eax, %eax
	subq	%rcx, %rdx
	cmovaeq	%rdx, %rax
	retq
	vj_end	vulfsjor_ffi_blake2xb_count_1_v4

	vj_export	vulfsjor_ffi_blake2xb_init_salt_personal_1_v4
	pushq	%rbx
	subq	$16, %rsp
	movq	%rcx, %rbx
	movq	40(%rsp), %rax
	movq	32(%rsp), %rcx
	xorl	%r10d, %r10d
	testq	%rdx, %rdx
	sete	%r10b
	shll	$12, %r10d
	addq	%r10, %rdx
	xorl	%r10d, %r10d
	testq	%r8, %r8
	sete	%r10b
	shll	$12, %r10d
	addq	%r10, %r8
	xorl	%r10d, %r10d
	testq	%rcx, %rcx
	sete	%r10b
	shll	$12, %r10d
	addq	%rcx, %r10
	movq	%rax, 8(%rsp)
	movq	%r10, (%rsp)
	movq	%rbx, %rcx
	callq	blake2_ffi..blake2xb..initialize_1_v4
	testq	%rbx, %rbx
	je	1f
	movl	%eax, %ebx
	callq	blake2_digest..wiping..scrub_stack..2304_1_v4
	movl	%ebx, %eax
1:
	addq	$16, %rsp
	popq	%rbx
	retq
	vj_end	vulfsjor_ffi_blake2xb_init_salt_personal_1_v4

	vj_export	vulfsjor_ffi_blake2xb_left_1_v4
	movl	144(%rdi), %eax
	leal	-1(%rax), %ecx
	cmpl	$63, %ecx
	ja	1f
	movl	136(%rdi), %ecx
	cmpl	$128, %ecx
	ja	1f
	cmpl	$128, 140(%rdi)
	ja	1f
	cmpl	$64, %eax
	jne	1f
	notl	%ecx
	movslq	%ecx, %rax
	cmpq	%rax, 128(%rdi)
	ja	1f
	movq	440(%rdi), %rax
	leaq	-1(%rax), %rcx
	movl	$4294967294, %edx
	cmpq	%rdx, %rcx
	ja	1f
	movl	$4294967295, %ecx
	cmpq	%rcx, %rax
	movabsq	$274877906944, %rcx
	cmovneq	%rax, %rcx
	xorl	%eax, %eax
	subq	448(%rdi), %rcx
	cmovaeq	%rcx, %rax
	retq
1:
	xorl	%eax, %eax
	retq
	vj_end	vulfsjor_ffi_blake2xb_left_1_v4

	vj_export	vulfsjor_ffi_blake2xb_reset_1_v4
	movl	144(%rdi), %ecx
	leal	-1(%rcx), %edx
	movl	$-1, %eax
	cmpl	$63, %edx
	ja	2f
	movl	136(%rdi), %edx
	cmpl	$128, %edx
	ja	2f
	pushq	%rbx
	movl	140(%rdi), %ebx
	cmpl	$128, %ebx
	ja	1f
	cmpl	$64, %ecx
	jne	1f
	notl	%edx
	movslq	%edx, %rcx
	cmpq	%rcx, 128(%rdi)
	ja	1f
	movq	440(%rdi), %rcx
	leaq	-1(%rcx), %rdx
	movl	$4294967294, %esi
	cmpq	%rsi, %rdx
	ja	1f
	movl	$4294967295, %edx
	cmpq	%rdx, %rcx
	movabsq	$274877906944, %rdx
	cmovneq	%rcx, %rdx
	cmpq	%rdx, 448(%rdi)
	ja	1f
	callq	blake2_ffi..blake2xb..reset_in_frame_1_v4
	xorl	%eax, %eax
	testl	%ebx, %ebx
	je	1f
	callq	blake2_digest..wiping..scrub_stack..1792_1_v4
	xorl	%eax, %eax
1:
	popq	%rbx
2:
	retq
	vj_end	vulfsjor_ffi_blake2xb_reset_1_v4

	vj_export	vulfsjor_ffi_blake2xb_squeeze_1_v4
	xorl	%ecx, %ecx
	testq	%rsi, %rsi
	sete	%r8b
	movl	144(%rdi), %r9d
	leal	-1(%r9), %r10d
	movl	$-1, %eax
	cmpl	$63, %r10d
	ja	2f
	movl	136(%rdi), %r10d
	cmpl	$128, %r10d
	ja	2f
	pushq	%rbx
	movl	140(%rdi), %ebx
	cmpl	$128, %ebx
	ja	1f
	cmpl	$64, %r9d
	jne	1f
	notl	%r10d
	movslq	%r10d, %r9
	cmpq	%r9, 128(%rdi)
	ja	1f
	movq	440(%rdi), %r9
	leaq	-1(%r9), %r10
	movl	$4294967294, %r11d
	cmpq	%r11, %r10
	ja	1f
	movl	$4294967295, %r10d
	cmpq	%r10, %r9
	movabsq	$274877906944, %r10
	cmovneq	%r9, %r10
	subq	448(%rdi), %r10
	setb	%r9b
	cmpq	%rdx, %r10
	setb	%r10b
	orb	%r9b, %r10b
	jne	1f
	movb	%r8b, %cl
	shll	$12, %ecx
	addq	%rcx, %rsi
	callq	blake2_ffi..blake2xb..read_1_v4
	xorl	%eax, %eax
	testl	%ebx, %ebx
	je	1f
	callq	blake2_digest..wiping..scrub_stack..4096_1_v4
	xorl	%eax, %eax
1:
	popq	%rbx
2:
	retq
	vj_end	vulfsjor_ffi_blake2xb_squeeze_1_v4

	vj_export	vulfsjor_ffi_blake2xb_state_size_1_v4
	movl	$464, %eax
	retq
	vj_end	vulfsjor_ffi_blake2xb_state_size_1_v4

	vj_export	vulfsjor_ffi_blake2xb_update_1_v4
	xorl	%ecx, %ecx
	testq	%rsi, %rsi
	sete	%r8b
	movl	144(%rdi), %r10d
	leal	-1(%r10), %r9d
	movl	$-1, %eax
	cmpl	$63, %r9d
	ja	4f
	movl	136(%rdi), %r9d
	cmpq	$128, %r9
	ja	4f
	pushq	%r15
	pushq	%r14
	pushq	%rbx
	movl	140(%rdi), %ebx
	cmpl	$128, %ebx
	ja	3f
	cmpl	$64, %r10d
	jne	3f
	movq	128(%rdi), %r10
	movl	%r9d, %r11d
	notl	%r11d
	movslq	%r11d, %r11
	cmpq	%r11, %r10
	ja	3f
	movq	440(%rdi), %r11
	leaq	-1(%r11), %r14
	movl	$4294967294, %r15d
	cmpq	%r15, %r14
	ja	3f
	movq	448(%rdi), %r14
	movl	$4294967295, %r15d
	cmpq	%r15, %r11
	movabsq	$274877906944, %r15
	cmovneq	%r11, %r15
	cmpq	%r15, %r14
	ja	3f
	orq	456(%rdi), %r14
	jne	3f
	addq	%r10, %r9
	addq	%rdx, %r9
	jb	3f
	movb	%r8b, %cl
	shll	$12, %ecx
	addq	%rcx, %rsi
	testq	%r10, %r10
	je	1f
	callq	blake2_ffi..blake2xb..update_in_frame_1_v4
	jmp	2f
1:
	callq	blake2_ffi..blake2xb..update_in_frame_1_v4
	xorl	%eax, %eax
	testl	%ebx, %ebx
	je	3f
	callq	blake2_digest..wiping..scrub_stack..3072_1_v4
2:
	xorl	%eax, %eax
3:
	popq	%rbx
	popq	%r14
	popq	%r15
4:
	retq
	vj_end	vulfsjor_ffi_blake2xb_update_1_v4

	vj_export	vulfsjor_ffi_blake2xb_wipe_1_v4
	vxorps	%xmm0, %xmm0, %xmm0
	vmovups	%ymm0, 432(%rdi)
	vmovups	%ymm0, 416(%rdi)
	vmovups	%ymm0, 384(%rdi)
	vmovups	%ymm0, 352(%rdi)
	vmovups	%ymm0, 320(%rdi)
	vmovups	%ymm0, 288(%rdi)
	vmovups	%ymm0, 256(%rdi)
	vmovups	%ymm0, 224(%rdi)
	vmovups	%ymm0, 192(%rdi)
	vmovups	%ymm0, 160(%rdi)
	vmovups	%ymm0, 128(%rdi)
	vmovups	%ymm0, 96(%rdi)
	vmovups	%ymm0, 64(%rdi)
	vmovups	%ymm0, 32(%rdi)
	vmovups	%ymm0, (%rdi)
	vzeroupper
	retq
	vj_end	vulfsjor_ffi_blake2xb_wipe_1_v4

	vj_export	vulfsjor_ffi_blake2xs_count_1_v4
	movzwl	76(%rdi), %edx
	leal	-1(%rdx), %eax
	cmpw	$31, %ax
	ja	1f
	movzwl	72(%rdi), %eax
	cmpq	$64, %rax
	ja	1f
	movzwl	74(%rdi), %ecx
	cmpq	$64, %rcx
	ja	1f
	cmpw	$32, %dx
	jne	1f
	movq	64(%rdi), %rdx
	movl	%eax, %esi
	notl	%esi
	movswq	%si, %rsi
	cmpq	%rsi, %rdx
	ja	1f
	movq	224(%rdi), %rsi
	leaq	-1(%rsi), %r8
	cmpq	$65534, %r8
	ja	1f
	cmpq	$65535, %rsi
	movabsq	$137438953472, %r8
	cmovneq	%rsi, %r8
	cmpq	%r8, 232(%rdi)
	jbe	2f
1:
	xorl	%eax, %eax
	retq
2:
	addq	%rax, %rdx
	xorl	%eax, %eax
	subq	%rcx, %rdx
	cmovaeq	%rdx, %rax
	retq
	vj_end	vulfsjor_ffi_blake2xs_count_1_v4

	vj_export	vulfsjor_ffi_blake2xs_init_salt_personal_1_v4
	pushq	%rbx
	subq	$16, %rsp
	movq	%rcx, %rbx
	movq	40(%rsp), %rax
	movq	32(%rsp), %rcx
	xorl	%r10d, %r10d
	testq	%rdx, %rdx
	sete	%r10b
	shll	$12, %r10d
	addq	%r10, %rdx
	xorl	%r10d, %r10d
	testq	%r8, %r8
	sete	%r10b
	shll	$12, %r10d
	addq	%r10, %r8
	xorl	%r10d, %r10d
	testq	%rcx, %rcx
	sete	%r10b
	shll	$12, %r10d
	addq	%rcx, %r10
	movq	%rax, 8(%rsp)
	movq	%r10, (%rsp)
	movq	%rbx, %rcx
	callq	blake2_ffi..blake2xs..initialize_1_v4
	testq	%rbx, %rbx
	je	1f
	movl	%eax, %ebx
	callq	blake2_digest..wiping..scrub_stack..2304_1_v4
	movl	%ebx, %eax
1:
	addq	$16, %rsp
	popq	%rbx
	retq
	vj_end	vulfsjor_ffi_blake2xs_init_salt_personal_1_v4

	vj_export	vulfsjor_ffi_blake2xs_left_1_v4
	movzwl	76(%rdi), %ecx
	leal	-1(%rcx), %eax
	cmpw	$31, %ax
	ja	1f
	movzwl	72(%rdi), %eax
	cmpw	$64, %ax
	ja	1f
	cmpw	$64, 74(%rdi)
	ja	1f
	cmpw	$32, %cx
	jne	1f
	notl	%eax
	movswq	%ax, %rax
	cmpq	%rax, 64(%rdi)
	ja	1f
	movq	224(%rdi), %rax
	leaq	-1(%rax), %rcx
	cmpq	$65534, %rcx
	ja	1f
	cmpq	$65535, %rax
	movabsq	$137438953472, %rcx
	cmovneq	%rax, %rcx
	xorl	%eax, %eax
	subq	232(%rdi), %rcx
	cmovaeq	%rcx, %rax
	retq
1:
	xorl	%eax, %eax
	retq
	vj_end	vulfsjor_ffi_blake2xs_left_1_v4

	vj_export	vulfsjor_ffi_blake2xs_reset_1_v4
	movzwl	76(%rdi), %edx
	leal	-1(%rdx), %ecx
	movl	$-1, %eax
	cmpw	$31, %cx
	ja	2f
	movzwl	72(%rdi), %ecx
	cmpw	$64, %cx
	ja	2f
	pushq	%rbx
	movzwl	74(%rdi), %ebx
	cmpw	$64, %bx
	ja	1f
	cmpw	$32, %dx
	jne	1f
	notl	%ecx
	movswq	%cx, %rcx
	cmpq	%rcx, 64(%rdi)
	ja	1f
	movq	224(%rdi), %rcx
	leaq	-1(%rcx), %rdx
	cmpq	$65534, %rdx
	ja	1f
	cmpq	$65535, %rcx
	movabsq	$137438953472, %rdx
	cmovneq	%rcx, %rdx
	cmpq	%rdx, 232(%rdi)
	ja	1f
	callq	blake2_ffi..blake2xs..reset_in_frame_1_v4
	xorl	%eax, %eax
	testw	%bx, %bx
	je	1f
	callq	blake2_digest..wiping..scrub_stack..1792_1_v4
	xorl	%eax, %eax
1:
	popq	%rbx
2:
	retq
	vj_end	vulfsjor_ffi_blake2xs_reset_1_v4

	vj_export	vulfsjor_ffi_blake2xs_squeeze_1_v4
	xorl	%ecx, %ecx
	testq	%rsi, %rsi
	sete	%r8b
	movzwl	76(%rdi), %r10d
	leal	-1(%r10), %r9d
	movl	$-1, %eax
	cmpw	$31, %r9w
	ja	2f
	movzwl	72(%rdi), %r9d
	cmpw	$64, %r9w
	ja	2f
	pushq	%rbx
	movzwl	74(%rdi), %ebx
	cmpw	$64, %bx
	ja	1f
	cmpw	$32, %r10w
	jne	1f
	notl	%r9d
	movswq	%r9w, %r9
	cmpq	%r9, 64(%rdi)
	ja	1f
	movq	224(%rdi), %r9
	leaq	-1(%r9), %r10
	cmpq	$65534, %r10
	ja	1f
	cmpq	$65535, %r9
	movabsq	$137438953472, %r10
	cmovneq	%r9, %r10
	subq	232(%rdi), %r10
	setb	%r9b
	cmpq	%rdx, %r10
	setb	%r10b
	orb	%r9b, %r10b
	jne	1f
	movb	%r8b, %cl
	shll	$12, %ecx
	addq	%rcx, %rsi
	callq	blake2_ffi..blake2xs..read_1_v4
	xorl	%eax, %eax
	testw	%bx, %bx
	je	1f
	callq	blake2_digest..wiping..scrub_stack..4096_1_v4
	xorl	%eax, %eax
1:
	popq	%rbx
2:
	retq
	vj_end	vulfsjor_ffi_blake2xs_squeeze_1_v4

	vj_export	vulfsjor_ffi_blake2xs_state_size_1_v4
	movl	$248, %eax
	retq
	vj_end	vulfsjor_ffi_blake2xs_state_size_1_v4

	vj_export	vulfsjor_ffi_blake2xs_update_1_v4
	xorl	%ecx, %ecx
	testq	%rsi, %rsi
	sete	%r8b
	movzwl	76(%rdi), %r10d
	leal	-1(%r10), %r9d
	movl	$-1, %eax
	cmpw	$31, %r9w
	ja	4f
	movzwl	72(%rdi), %r9d
	cmpq	$64, %r9
	ja	4f
	pushq	%r15
	pushq	%r14
	pushq	%rbx
	movzwl	74(%rdi), %ebx
	cmpw	$64, %bx
	ja	3f
	cmpw	$32, %r10w
	jne	3f
	movq	64(%rdi), %r10
	movl	%r9d, %r11d
	notl	%r11d
	movswq	%r11w, %r11
	cmpq	%r11, %r10
	ja	3f
	movq	224(%rdi), %r14
	leaq	-1(%r14), %r11
	cmpq	$65534, %r11
	ja	3f
	movq	232(%rdi), %r11
	cmpq	$65535, %r14
	movabsq	$137438953472, %r15
	cmovneq	%r14, %r15
	cmpq	%r15, %r11
	ja	3f
	orq	240(%rdi), %r11
	jne	3f
	addq	%r10, %r9
	addq	%rdx, %r9
	jb	3f
	movb	%r8b, %cl
	shll	$12, %ecx
	addq	%rcx, %rsi
	testq	%r10, %r10
	je	1f
	callq	blake2_ffi..blake2xs..update_in_frame_1_v4
	jmp	2f
1:
	callq	blake2_ffi..blake2xs..update_in_frame_1_v4
	xorl	%eax, %eax
	testw	%bx, %bx
	je	3f
	callq	blake2_digest..wiping..scrub_stack..3072_1_v4
2:
	xorl	%eax, %eax
3:
	popq	%rbx
	popq	%r14
	popq	%r15
4:
	retq
	vj_end	vulfsjor_ffi_blake2xs_update_1_v4

	vj_export	vulfsjor_ffi_blake2xs_wipe_1_v4
	vxorps	%xmm0, %xmm0, %xmm0
	vmovups	%ymm0, 216(%rdi)
	vmovups	%ymm0, 192(%rdi)
	vmovups	%ymm0, 160(%rdi)
	vmovups	%ymm0, 128(%rdi)
	vmovups	%ymm0, 96(%rdi)
	vmovups	%ymm0, 64(%rdi)
	vmovups	%ymm0, 32(%rdi)
	vmovups	%ymm0, (%rdi)
	vzeroupper
	retq
	vj_end	vulfsjor_ffi_blake2xs_wipe_1_v4

	vj_export	vulfsjor_ffi_memcmp_1_v4
	xorl	%r10d, %r10d
	testq	%rdi, %rdi
	sete	%r9b
	xorl	%r11d, %r11d
	testq	%rdx, %rdx
	sete	%r8b
	movl	$-1, %eax
	cmpq	%rcx, %rsi
	jne	9f
	testq	%rsi, %rsi
	je	10f
	movb	%r9b, %r10b
	shll	$12, %r10d
	leaq	(%rdi,%r10), %rcx
	movb	%r8b, %r11b
	shll	$12, %r11d
	leaq	(%rdx,%r11), %r8
	cmpq	$8, %rsi
	jae	1f
	xorl	%edx, %edx
	xorl	%r9d, %r9d
	jmp	6f
1:
	cmpq	$128, %rsi
	jae	2f
	xorl	%r9d, %r9d
	xorl	%edx, %edx
	jmp	4f
2:
	movq	%rsi, %r9
	andq	$-128, %r9
	addq	%r11, %rdx
	addq	$96, %rdx
	addq	%r10, %rdi
	addq	$96, %rdi
	vpxor	%xmm0, %xmm0, %xmm0
	xorl	%r10d, %r10d
	vpxor	%xmm1, %xmm1, %xmm1
	vpxor	%xmm3, %xmm3, %xmm3
	vpxor	%xmm2, %xmm2, %xmm2
	.p2align	4
3:
	vmovdqu	-96(%rdx,%r10), %ymm4
	vmovdqu	-64(%rdx,%r10), %ymm5
	vmovdqu	-32(%rdx,%r10), %ymm6
	vmovdqu	(%rdx,%r10), %ymm7
	vpternlogq	$246, -96(%rdi,%r10), %ymm4, %ymm1
	vpternlogq	$246, -64(%rdi,%r10), %ymm5, %ymm3
	vpternlogq	$246, -32(%rdi,%r10), %ymm6, %ymm2
	vpternlogq	$246, (%rdi,%r10), %ymm7, %ymm0
	subq	$-128, %r10
	cmpq	%r10, %r9
	jne	3b
	vpor	%ymm1, %ymm3, %ymm1
	vpternlogq	$254, %ymm1, %ymm2, %ymm0
	vextracti128	$1, %ymm0, %xmm1
	vpor	%xmm1, %xmm0, %xmm0
	vpshufd	$238, %xmm0, %xmm1
	vpor	%xmm1, %xmm0, %xmm0
	vpshufd	$85, %xmm0, %xmm1
	vpor	%xmm1, %xmm0, %xmm0
	vpsrld	$16, %xmm0, %xmm1
	vpor	%xmm1, %xmm0, %xmm0
	vpsrlw	$8, %xmm0, %xmm1
	vpor	%xmm1, %xmm0, %xmm0
	vmovd	%xmm0, %edx
	cmpq	%r9, %rsi
	je	8f
	testb	$120, %sil
	je	6f
4:
	movq	%r9, %rdi
	movq	%rsi, %r9
	andq	$-8, %r9
	movzbl	%dl, %edx
	vmovd	%edx, %xmm0
	.p2align	4
5:
	movq	(%r8,%rdi), %rdx
	xorq	(%rcx,%rdi), %rdx
	vmovq	%rdx, %xmm1
	vpor	%xmm0, %xmm1, %xmm0
	addq	$8, %rdi
	cmpq	%rdi, %r9
	jne	5b
	vpshufd	$85, %xmm0, %xmm1
	vpor	%xmm1, %xmm0, %xmm0
	vpsrld	$16, %xmm0, %xmm1
	vpor	%xmm1, %xmm0, %xmm0
	vpsrlw	$8, %xmm0, %xmm1
	vpor	%xmm1, %xmm0, %xmm0
	vmovd	%xmm0, %edx
	jmp	7f
6:
	movzbl	(%r8,%r9), %edi
	xorb	(%rcx,%r9), %dil
	orb	%dil, %dl
	incq	%r9
7:
	cmpq	%r9, %rsi
	jne	6b
8:
	testb	%dl, %dl
	je	10f
9:
	vzeroupper
	retq
10:
	xorl	%eax, %eax
	vzeroupper
	retq
	vj_end	vulfsjor_ffi_memcmp_1_v4

	vj_export	vulfsjor_ffi_tree_check_1_v4
	addq	$-65, %rdi
	cmpq	$-64, %rdi
	setb	%al
	cmpq	$17, %rsi
	setae	%sil
	cmpq	$17, %rdx
	setae	%dl
	orb	%sil, %dl
	orb	%al, %dl
	testl	%ecx, %ecx
	sete	%al
	orb	%dl, %al
	movzbl	%al, %eax
	negl	%eax
	retq
	vj_end	vulfsjor_ffi_tree_check_1_v4

	vj_export	vulfsjor_ffi_tree_count_1_v4
	movl	144(%rdi), %r8d
	leal	-1(%r8), %eax
	cmpl	$63, %eax
	ja	4f
	movl	136(%rdi), %edx
	cmpq	$128, %rdx
	ja	4f
	cmpl	$128, 140(%rdi)
	ja	4f
	movq	128(%rdi), %rcx
	movl	%edx, %eax
	notl	%eax
	cltq
	cmpq	%rax, %rcx
	ja	4f
	movl	488(%rdi), %eax
	decl	%eax
	cmpl	$63, %eax
	ja	4f
	movl	480(%rdi), %esi
	cmpq	$128, %rsi
	ja	4f
	cmpl	$128, 484(%rdi)
	ja	4f
	xorl	%eax, %eax
	cmpl	$64, %r8d
	jne	3f
	movq	472(%rdi), %r8
	movl	%esi, %r9d
	notl	%r9d
	movslq	%r9d, %r9
	cmpq	%r9, %r8
	ja	3f
	movq	696(%rdi), %r9
	leaq	-1(%r9), %rax
	movl	$4294967294, %r10d
	cmpq	%r10, %rax
	ja	4f
	cmpq	$16, 704(%rdi)
	ja	4f
	cmpq	$16, 712(%rdi)
	ja	4f
	addq	%rdx, %rcx
	cmpq	%r9, %rcx
	ja	4f
	movabsq	$288230376151711743, %r10
	movq	688(%rdi), %rdi
	movq	%r10, %rax
	subq	%rcx, %rax
	movq	%rax, %rdx
	orq	%r9, %rdx
	shrq	$32, %rdx
	je	1f
	xorl	%edx, %edx
	divq	%r9
	jmp	2f
1:
	xorl	%edx, %edx
	divl	%r9d
2:
	cmpq	%rax, %rdi
	setbe	%al
	cmpq	%r10, %rdi
	setb	%dl
	andb	%al, %dl
	cmpb	$1, %dl
	jne	4f
	addq	%rsi, %r8
	movq	%rdi, %rax
	shlq	$6, %rax
	cmpq	%rax, %r8
	jne	4f
	imulq	%r9, %rdi
	addq	%rdi, %rcx
	movq	%rcx, %rax
3:
	retq
4:
	xorl	%eax, %eax
	retq
	vj_end	vulfsjor_ffi_tree_count_1_v4

	vj_export	vulfsjor_ffi_tree_digest_size_1_v4
	movl	144(%rdi), %r8d
	leal	-1(%r8), %eax
	cmpl	$63, %eax
	ja	4f
	movl	136(%rdi), %edx
	cmpq	$128, %rdx
	ja	4f
	cmpl	$128, 140(%rdi)
	ja	4f
	movq	128(%rdi), %r9
	movl	%edx, %eax
	notl	%eax
	cltq
	cmpq	%rax, %r9
	ja	4f
	movl	488(%rdi), %ecx
	leal	-1(%rcx), %eax
	cmpl	$63, %eax
	ja	4f
	movl	480(%rdi), %esi
	cmpq	$128, %rsi
	ja	4f
	cmpl	$128, 484(%rdi)
	ja	4f
	xorl	%eax, %eax
	cmpl	$64, %r8d
	jne	3f
	movq	472(%rdi), %r8
	movl	%esi, %r10d
	notl	%r10d
	movslq	%r10d, %r10
	cmpq	%r10, %r8
	ja	3f
	movq	696(%rdi), %r10
	leaq	-1(%r10), %rax
	movl	$4294967294, %r11d
	cmpq	%r11, %rax
	ja	4f
	cmpq	$16, 704(%rdi)
	ja	4f
	cmpq	$16, 712(%rdi)
	ja	4f
	addq	%rdx, %r9
	cmpq	%r10, %r9
	ja	4f
	movabsq	$288230376151711743, %r11
	movq	688(%rdi), %rdi
	movq	%r11, %rax
	subq	%r9, %rax
	movq	%rax, %rdx
	orq	%r10, %rdx
	shrq	$32, %rdx
	je	1f
	xorl	%edx, %edx
	divq	%r10
	jmp	2f
1:
	xorl	%edx, %edx
	divl	%r10d
2:
	cmpq	%rax, %rdi
	setbe	%al
	cmpq	%r11, %rdi
	setb	%dl
	andb	%al, %dl
	cmpb	$1, %dl
	jne	4f
	addq	%rsi, %r8
	shlq	$6, %rdi
	xorl	%eax, %eax
	cmpq	%rdi, %r8
	cmoveq	%rcx, %rax
3:
	retq
4:
	xorl	%eax, %eax
	retq
	vj_end	vulfsjor_ffi_tree_digest_size_1_v4

	vj_export	vulfsjor_ffi_tree_final_1_v4
	pushq	%rbp
	pushq	%r15
	pushq	%r14
	pushq	%r13
	pushq	%r12
	pushq	%rbx
	subq	$776, %rsp
	xorl	%ecx, %ecx
	testq	%rsi, %rsi
	sete	%r8b
	movl	144(%rdi), %r14d
	leal	-1(%r14), %r9d
	movl	$-1, %eax
	cmpl	$63, %r9d
	ja	3f
	movl	136(%rdi), %r10d
	cmpq	$128, %r10
	ja	3f
	movl	140(%rdi), %r11d
	cmpl	$128, %r11d
	ja	3f
	movq	128(%rdi), %r15
	movl	%r10d, %r9d
	notl	%r9d
	movslq	%r9d, %r9
	cmpq	%r9, %r15
	ja	3f
	movl	488(%rdi), %r9d
	leal	-1(%r9), %ebx
	cmpl	$63, %ebx
	ja	3f
	movl	480(%rdi), %ebx
	cmpq	$128, %rbx
	ja	3f
	movl	484(%rdi), %ebp
	cmpl	$128, %ebp
	ja	3f
	cmpl	$64, %r14d
	jne	3f
	movq	472(%rdi), %r14
	movl	%ebx, %r12d
	notl	%r12d
	movslq	%r12d, %r12
	cmpq	%r12, %r14
	ja	3f
	movq	%r14, 8(%rsp)
	movq	696(%rdi), %r13
	leaq	-1(%r13), %r12
	movl	$4294967294, %r14d
	cmpq	%r14, %r12
	ja	3f
	cmpq	$16, 704(%rdi)
	ja	3f
	cmpq	$16, 712(%rdi)
	ja	3f
	leaq	(%r15,%r10), %r12
	cmpq	%r13, %r12
	ja	3f
	movq	%rdx, (%rsp)
	movabsq	$288230376151711743, %rax
	movq	688(%rdi), %r14
	subq	%r12, %rax
	movq	%rax, %rdx
	orq	%r13, %rdx
	shrq	$32, %rdx
	je	1f
	xorl	%edx, %edx
	divq	%r13
	jmp	2f
1:
	xorl	%edx, %edx
	divl	%r13d
2:
	cmpq	%rax, %r14
	setbe	%al
	movabsq	$288230376151711743, %rdx
	cmpq	%rdx, %r14
	setb	%dl
	andb	%al, %dl
	cmpb	$1, %dl
	movl	$-1, %eax
	jne	3f
	movq	%r14, %r12
	movq	%rbx, %rdx
	movq	8(%rsp), %r14
	addq	%r14, %rdx
	shlq	$6, %r12
	xorq	%rdx, %r12
	movq	(%rsp), %rdx
	xorq	%r9, %rdx
	orq	%r12, %rdx
	jne	3f
	vmovups	(%rdi), %ymm0
	vmovups	32(%rdi), %ymm1
	vmovups	%ymm0, 432(%rsp)
	vmovups	%ymm1, 464(%rsp)
	vmovups	64(%rdi), %ymm0
	vmovups	96(%rdi), %ymm1
	vmovups	%ymm0, 496(%rsp)
	vmovups	%ymm1, 528(%rsp)
	movq	%r15, 560(%rsp)
	vmovups	152(%rdi), %ymm0
	vmovups	184(%rdi), %ymm1
	vmovups	216(%rdi), %ymm2
	vmovups	248(%rdi), %ymm3
	vmovups	%ymm0, 584(%rsp)
	vmovups	%ymm1, 616(%rsp)
	vmovups	%ymm2, 648(%rsp)
	vmovups	%ymm3, 680(%rsp)
	vmovups	280(%rdi), %ymm0
	vmovups	312(%rdi), %ymm1
	vmovups	%ymm0, 712(%rsp)
	vmovups	%ymm1, 744(%rsp)
	vmovd	%r10d, %xmm0
	vpinsrd	$1, %r11d, %xmm0, %xmm0
	movb	%r8b, %cl
	movl	$64, %eax
	vpinsrd	$2, %eax, %xmm0, %xmm0
	shll	$12, %ecx
	movl	$1, %eax
	vpinsrd	$3, %eax, %xmm0, %xmm0
	vmovdqu	%xmm0, 568(%rsp)
	vmovups	344(%rdi), %ymm0
	vmovups	376(%rdi), %ymm1
	vmovups	%ymm1, 48(%rsp)
	vmovups	%ymm0, 16(%rsp)
	vmovups	408(%rdi), %ymm0
	vmovups	440(%rdi), %ymm1
	vmovups	%ymm0, 80(%rsp)
	vmovups	%ymm1, 112(%rsp)
	movl	492(%rdi), %eax
	movq	%r14, 144(%rsp)
	movl	%ebx, 152(%rsp)
	movl	%ebp, 156(%rsp)
	movl	%r9d, 160(%rsp)
	movl	%eax, 164(%rsp)
	vmovups	496(%rdi), %ymm0
	vmovups	528(%rdi), %ymm1
	vmovups	560(%rdi), %ymm2
	vmovups	592(%rdi), %ymm3
	vmovups	%ymm0, 168(%rsp)
	vmovups	%ymm1, 200(%rsp)
	vmovups	%ymm2, 232(%rsp)
	vmovups	%ymm3, 264(%rsp)
	vmovups	624(%rdi), %ymm0
	vmovups	656(%rdi), %ymm1
	vmovups	%ymm0, 296(%rsp)
	addq	%rcx, %rsi
	vmovups	%ymm1, 328(%rsp)
	vxorps	%xmm0, %xmm0, %xmm0
	vmovups	%ymm0, 368(%rsp)
	vmovups	%ymm0, 400(%rsp)
	leaq	432(%rsp), %rax
	leaq	368(%rsp), %rbx
	movq	%rdi, %r14
	movq	%rax, %rdi
	movq	%rsi, %r15
	movq	%rbx, %rsi
	vzeroupper
	callq	blake2_state..blake2b..State..write_digest_1_v4
	leaq	16(%rsp), %r12
	movl	$64, %edx
	movq	%r12, %rdi
	movq	%rbx, %rsi
	callq	blake2_state..blake2b..State..absorb_blocks_1_v4
	movl	$1, 164(%rsp)
	movq	%r12, %rdi
	movq	%r15, %rsi
	callq	blake2_state..blake2b..State..write_digest_1_v4
	movl	$752, %edx
	movq	%r14, %rdi
	xorl	%esi, %esi
	vj_c_call	memset
	xorl	%eax, %eax
3:
	addq	$776, %rsp
	popq	%rbx
	popq	%r12
	popq	%r13
	popq	%r14
	popq	%r15
	popq	%rbp
	retq
	vj_end	vulfsjor_ffi_tree_final_1_v4

	vj_constants	32
	.p2align	5, 0x0
.L1_v4_CPI192_0:
	.short	64
	.short	512
	.zero	2
	.zero	2
	.zero	2
	.zero	2
	.zero	2
	.zero	2
	.zero	2
	.short	0
	.short	0
	.short	0
	.short	0
	.short	0
	.short	0
	.short	0
.L1_v4_CPI192_1:
	.zero	2
	.zero	2
	.zero	2
	.zero	2
	.short	0
	.short	0
	.short	0
	.short	0
	.short	16384
	.zero	2
	.zero	2
	.zero	2
	.zero	2
	.zero	2
	.zero	2
	.zero	2
.L1_v4_CPI192_2:
	.quad	5840696475078001361
	.quad	-7276294671716946913
	.quad	2270897969802886507
	.quad	6620516959819538809
.L1_v4_CPI192_3:
	.quad	7640891576956012808
	.quad	-4942790177534073029
	.quad	4354685564936845355
	.quad	-6534734903238641935
.L1_v4_CPI192_4:
	.zero	2
	.zero	2
	.zero	2
	.zero	2
	.short	0
	.short	0
	.short	0
	.short	0
	.short	16385
	.zero	2
	.zero	2
	.zero	2
	.zero	2
	.zero	2
	.zero	2
	.zero	2
	vj_export	vulfsjor_ffi_tree_init_1_v4
	pushq	%rbp
	movq	%rsp, %rbp
	pushq	%r15
	pushq	%r14
	pushq	%r13
	pushq	%r12
	pushq	%rbx
	andq	$-32, %rsp
	subq	$352, %rsp
	movq	%r9, %rbx
	movq	%rcx, %r14
	movq	%rsi, %r9
	leaq	-1(%rsi), %rax
	cmpq	$64, %rax
	setae	%al
	cmpq	$17, %rcx
	setae	%cl
	cmpq	$17, %rbx
	setae	%sil
	orb	%cl, %sil
	orb	%al, %sil
	cmpl	$0, 16(%rbp)
	sete	%al
	orb	%sil, %al
	jne	1f
	xorl	%r12d, %r12d
	testq	%r8, %r8
	sete	%r12b
	shll	$12, %r12d
	addq	%r8, %r12
	xorl	%r13d, %r13d
	testq	%rdx, %rdx
	sete	%r13b
	shll	$12, %r13d
	addq	%rdx, %r13
	vxorps	%xmm0, %xmm0, %xmm0
	vmovaps	%xmm0, 176(%rsp)
	leaq	176(%rsp), %rax
	movq	%rdi, %r15
	movq	%rax, %rdi
	movq	%r13, %rsi
	movq	%r14, %rdx
	movq	%r9, 24(%rsp)
	vj_c_call	memcpy
	vxorps	%xmm0, %xmm0, %xmm0
	vmovaps	%xmm0, 192(%rsp)
	leaq	192(%rsp), %rdi
	movq	%r12, %rsi
	movq	%rbx, %rdx
	vj_c_call	memcpy
	vmovaps	176(%rsp), %xmm0
	vmovaps	%xmm0, 64(%rsp)
	movq	%r14, 80(%rsp)
	vmovaps	192(%rsp), %xmm0
	vmovups	%xmm0, 88(%rsp)
	movq	%rbx, 104(%rsp)
	movl	16(%rbp), %eax
	movl	%eax, 112(%rsp)
	movl	$0, 116(%rsp)
	vxorps	%xmm0, %xmm0, %xmm0
	vmovaps	%ymm0, 32(%rsp)
	vpbroadcastd	%eax, %xmm0
	vmovdqa	%ymm0, 224(%rsp)
	vpblendd	$253, .L1_v4_CPI192_0(%rip), %ymm0, %ymm0
	movw	$496, %ax
	kmovd	%eax, %k1
	kmovw	%k1, 128(%rsp)
	vmovdqu16	.L1_v4_CPI192_1(%rip), %ymm0 {%k1}
	vmovdqa	%ymm0, 256(%rsp)
	leaq	32(%rsp), %rdi
	leaq	64(%rsp), %rsi
	movq	%r14, %rdx
	vzeroupper
	vj_c_call	memcpy
	leaq	48(%rsp), %rdi
	leaq	88(%rsp), %rsi
	movq	%rbx, %rdx
	vj_c_call	memcpy
	vmovaps	.L1_v4_CPI192_2(%rip), %ymm0
	vxorps	32(%rsp), %ymm0, %ymm0
	vmovaps	%ymm0, 288(%rsp)
	vmovaps	256(%rsp), %ymm0
	vxorps	.L1_v4_CPI192_3(%rip), %ymm0, %ymm0
	vmovaps	%ymm0, 256(%rsp)
	vxorps	%xmm0, %xmm0, %xmm0
	vmovaps	%ymm0, 32(%rsp)
	movq	24(%rsp), %rax
	orl	$33554432, %eax
	vmovd	%eax, %xmm0
	vmovq	%xmm0, %xmm0
	vpblendd	$2, 224(%rsp), %ymm0, %ymm0
	kmovw	128(%rsp), %k1
	vmovdqu16	.L1_v4_CPI192_4(%rip), %ymm0 {%k1}
	vmovdqa	%ymm0, 128(%rsp)
	leaq	32(%rsp), %rdi
	leaq	64(%rsp), %rsi
	movq	%r14, %rdx
	vzeroupper
	vj_c_call	memcpy
	leaq	48(%rsp), %rdi
	leaq	88(%rsp), %rsi
	movq	%rbx, %rdx
	vj_c_call	memcpy
	vmovaps	.L1_v4_CPI192_2(%rip), %ymm0
	vxorps	32(%rsp), %ymm0, %ymm0
	vmovaps	%ymm0, 224(%rsp)
	vmovaps	128(%rsp), %ymm0
	vxorps	.L1_v4_CPI192_3(%rip), %ymm0, %ymm0
	vmovaps	%ymm0, 128(%rsp)
	vxorps	%xmm0, %xmm0, %xmm0
	vmovaps	%xmm0, 208(%rsp)
	leaq	208(%rsp), %rdi
	movq	%r13, %rsi
	movq	%r14, %rdx
	vzeroupper
	vj_c_call	memcpy
	vxorps	%xmm0, %xmm0, %xmm0
	vmovaps	%xmm0, 32(%rsp)
	leaq	32(%rsp), %rdi
	movq	%r12, %rsi
	movq	%rbx, %rdx
	vj_c_call	memcpy
	vmovaps	208(%rsp), %xmm0
	vmovaps	%xmm0, 64(%rsp)
	vmovaps	32(%rsp), %xmm0
	vmovaps	%xmm0, 80(%rsp)
	vmovaps	256(%rsp), %ymm1
	vmovups	%ymm1, (%r15)
	vmovaps	288(%rsp), %ymm0
	vmovups	%ymm0, 32(%r15)
	vmovups	%ymm1, 64(%r15)
	vmovups	%ymm0, 96(%r15)
	vxorps	%xmm0, %xmm0, %xmm0
	vmovups	%xmm0, 128(%r15)
	movl	$64, 144(%r15)
	vxorps	%xmm1, %xmm1, %xmm1
	vmovups	%ymm1, 148(%r15)
	vmovups	%ymm1, 180(%r15)
	vmovups	%ymm1, 212(%r15)
	vmovups	%ymm1, 244(%r15)
	vmovups	%ymm1, 276(%r15)
	vmovups	%ymm1, 308(%r15)
	movl	$0, 340(%r15)
	vmovaps	128(%rsp), %ymm3
	vmovups	%ymm3, 344(%r15)
	vmovaps	224(%rsp), %ymm2
	vmovups	%ymm2, 376(%r15)
	vmovups	%ymm3, 408(%r15)
	vmovups	%ymm2, 440(%r15)
	vmovups	%xmm0, 472(%r15)
	movq	24(%rsp), %rax
	movl	%eax, 488(%r15)
	vmovups	%ymm1, 664(%r15)
	vmovups	%ymm1, 652(%r15)
	vmovups	%ymm1, 620(%r15)
	vmovups	%ymm1, 588(%r15)
	vmovups	%ymm1, 556(%r15)
	vmovups	%ymm1, 524(%r15)
	vmovups	%ymm1, 492(%r15)
	movl	16(%rbp), %eax
	movq	%rax, 696(%r15)
	movq	%r14, 704(%r15)
	movq	%rbx, 712(%r15)
	vmovups	64(%rsp), %ymm0
	vmovups	%ymm0, 720(%r15)
	xorl	%eax, %eax
	jmp	2f
1:
	movl	$752, %edx
	xorl	%esi, %esi
	vj_c_call	memset
	movl	$-1, %eax
2:
	leaq	-40(%rbp), %rsp
	popq	%rbx
	popq	%r12
	popq	%r13
	popq	%r14
	popq	%r15
	popq	%rbp
	vzeroupper
	retq
	vj_end	vulfsjor_ffi_tree_init_1_v4

	vj_constants	32
	.p2align	5, 0x0
.L1_v4_CPI193_0:
	.short	64
	.short	512
	.zero	2
	.zero	2
	.zero	2
	.zero	2
	.zero	2
	.zero	2
	.zero	2
	.short	0
	.short	0
	.short	0
	.short	0
	.short	0
	.short	0
	.short	0
.L1_v4_CPI193_1:
	.short	16384
	.short	512
	.zero	2
	.zero	2
	.zero	2
	.zero	2
	.zero	2
	.zero	2
	.short	16384
	.short	0
	.short	0
	.short	0
	.short	0
	.short	0
	.short	0
	.short	0
.L1_v4_CPI193_2:
	.quad	7640891576956012808
	.quad	-4942790177534073029
	.quad	4354685564936845355
	.quad	-6534734903238641935
.L1_v4_CPI193_3:
	.quad	5840696475078001361
	.quad	-7276294671716946913
	.quad	2270897969802886507
	.quad	6620516959819538809
	vj_constants	16
	.p2align	2, 0x0
.L1_v4_CPI193_4:
	.short	64
	.short	512
	.short	0
	.short	0
	.short	0
	.short	0
	.short	0
	.short	0
	vj_export	vulfsjor_ffi_tree_init_leaf_1_v4
	pushq	%rbp
	movq	%rsp, %rbp
	pushq	%r15
	pushq	%r14
	pushq	%r13
	pushq	%r12
	pushq	%rbx
	andq	$-32, %rsp
	subq	$192, %rsp
	movq	%rsi, %r12
	movq	%rdi, %rbx
	cmpq	$17, %r8
	setb	%al
	cmpq	$17, 16(%rbp)
	setb	%sil
	andb	%al, %sil
	cmpl	$0, 24(%rbp)
	setne	%al
	testb	%al, %sil
	je	1f
	movq	%r8, %r15
	xorl	%r13d, %r13d
	testq	%r9, %r9
	sete	%r13b
	shll	$12, %r13d
	addq	%r9, %r13
	xorl	%esi, %esi
	testq	%rcx, %rcx
	sete	%sil
	shll	$12, %esi
	addq	%rcx, %rsi
	xorl	%r14d, %r14d
	testl	%edx, %edx
	setne	%r14b
	vxorps	%xmm0, %xmm0, %xmm0
	vmovaps	%xmm0, (%rsp)
	movq	%rsp, %rdi
	movq	%r8, %rdx
	vj_c_call	memcpy
	vxorps	%xmm0, %xmm0, %xmm0
	vmovaps	%xmm0, 16(%rsp)
	leaq	16(%rsp), %rdi
	movq	%r13, %rsi
	movq	16(%rbp), %r13
	movq	%r13, %rdx
	vj_c_call	memcpy
	vmovaps	(%rsp), %xmm0
	vmovaps	%xmm0, 32(%rsp)
	movq	%r15, 48(%rsp)
	vmovaps	16(%rsp), %xmm0
	vmovups	%xmm0, 56(%rsp)
	movq	%r13, 72(%rsp)
	movl	24(%rbp), %eax
	movl	%eax, 80(%rsp)
	vxorps	%xmm0, %xmm0, %xmm0
	vmovaps	%ymm0, 96(%rsp)
	movl	$0, 84(%rsp)
	vmovd	%eax, %xmm0
	vmovd	.L1_v4_CPI193_4(%rip), %xmm1
	vpunpckldq	%xmm0, %xmm1, %xmm0
	vmovq	%r12, %xmm1
	vpunpcklqdq	%xmm1, %xmm0, %xmm0
	vpblendd	$240, .L1_v4_CPI193_1(%rip), %ymm0, %ymm0
	vmovdqa	%ymm0, 128(%rsp)
	leaq	96(%rsp), %rdi
	leaq	32(%rsp), %rsi
	movq	%r15, %rdx
	vzeroupper
	vj_c_call	memcpy
	leaq	112(%rsp), %rdi
	leaq	56(%rsp), %rsi
	movq	%r13, %rdx
	vj_c_call	memcpy
	vmovaps	96(%rsp), %ymm0
	vmovaps	128(%rsp), %ymm1
	vxorps	.L1_v4_CPI193_2(%rip), %ymm1, %ymm1
	vxorps	.L1_v4_CPI193_3(%rip), %ymm0, %ymm0
	vmovups	%ymm1, (%rbx)
	vmovups	%ymm0, 32(%rbx)
	vmovups	%ymm1, 64(%rbx)
	vmovups	%ymm0, 96(%rbx)
	vxorps	%xmm0, %xmm0, %xmm0
	vmovups	%xmm0, 128(%rbx)
	movl	$64, 144(%rbx)
	movl	%r14d, 148(%rbx)
	vxorps	%xmm0, %xmm0, %xmm0
	vmovups	%ymm0, 152(%rbx)
	vmovups	%ymm0, 184(%rbx)
	vmovups	%ymm0, 216(%rbx)
	vmovups	%ymm0, 248(%rbx)
	vmovups	%ymm0, 280(%rbx)
	vmovups	%ymm0, 312(%rbx)
	xorl	%eax, %eax
	jmp	2f
1:
	vxorps	%xmm0, %xmm0, %xmm0
	vmovups	%ymm0, 312(%rbx)
	vmovups	%ymm0, 288(%rbx)
	vmovups	%ymm0, 256(%rbx)
	vmovups	%ymm0, 224(%rbx)
	vmovups	%ymm0, 192(%rbx)
	vmovups	%ymm0, 160(%rbx)
	vmovups	%ymm0, 128(%rbx)
	vmovups	%ymm0, 96(%rbx)
	vmovups	%ymm0, 64(%rbx)
	vmovups	%ymm0, 32(%rbx)
	vmovups	%ymm0, (%rbx)
	movl	$-1, %eax
2:
	leaq	-40(%rbp), %rsp
	popq	%rbx
	popq	%r12
	popq	%r13
	popq	%r14
	popq	%r15
	popq	%rbp
	vzeroupper
	retq
	vj_end	vulfsjor_ffi_tree_init_leaf_1_v4

	vj_constants	32
	.p2align	5, 0x0
.L1_v4_CPI194_0:
	.long	0
	.long	8
	.long	2
	.long	3
	.long	4
	.long	5
	.long	6
	.long	7
.L1_v4_CPI194_1:
	.zero	2
	.zero	2
	.zero	2
	.zero	2
	.short	0
	.short	0
	.short	0
	.short	0
	.short	16385
	.zero	2
	.zero	2
	.zero	2
	.zero	2
	.zero	2
	.zero	2
	.zero	2
.L1_v4_CPI194_2:
	.quad	7640891576956012808
	.quad	-4942790177534073029
	.quad	4354685564936845355
	.quad	-6534734903238641935
.L1_v4_CPI194_3:
	.quad	5840696475078001361
	.quad	-7276294671716946913
	.quad	2270897969802886507
	.quad	6620516959819538809
	vj_export	vulfsjor_ffi_tree_init_root_1_v4
	pushq	%rbp
	movq	%rsp, %rbp
	pushq	%r15
	pushq	%r14
	pushq	%r13
	pushq	%r12
	pushq	%rbx
	andq	$-32, %rsp
	subq	$192, %rsp
	movq	%rsi, %r14
	movq	%rdi, %rbx
	leaq	-1(%rsi), %rax
	cmpq	$64, %rax
	setb	%al
	cmpq	$17, %rcx
	setb	%sil
	cmpq	$17, %r9
	setb	%dil
	andb	%sil, %dil
	andb	%al, %dil
	cmpl	$0, 16(%rbp)
	setne	%al
	testb	%al, %dil
	je	1f
	movq	%r9, %r15
	xorl	%r13d, %r13d
	testq	%r8, %r8
	sete	%r13b
	shll	$12, %r13d
	addq	%r8, %r13
	xorl	%esi, %esi
	testq	%rdx, %rdx
	sete	%sil
	shll	$12, %esi
	addq	%rdx, %rsi
	vxorps	%xmm0, %xmm0, %xmm0
	vmovaps	%xmm0, (%rsp)
	movq	%rsp, %rdi
	movq	%rcx, %rdx
	movq	%rcx, %r12
	vj_c_call	memcpy
	vxorps	%xmm0, %xmm0, %xmm0
	vmovaps	%xmm0, 16(%rsp)
	leaq	16(%rsp), %rdi
	movq	%r13, %rsi
	movq	%r15, %rdx
	vj_c_call	memcpy
	vmovaps	(%rsp), %xmm0
	vmovaps	%xmm0, 32(%rsp)
	movq	%r12, 48(%rsp)
	leaq	56(%rsp), %r13
	vmovaps	16(%rsp), %xmm0
	vmovups	%xmm0, 56(%rsp)
	movq	%r15, 72(%rsp)
	movl	16(%rbp), %ecx
	movl	%ecx, 80(%rsp)
	movl	$0, 84(%rsp)
	vxorps	%xmm0, %xmm0, %xmm0
	vmovaps	%ymm0, 96(%rsp)
	movl	%r14d, %eax
	orl	$33554432, %eax
	vmovd	%eax, %xmm0
	vmovq	%xmm0, %xmm0
	vmovd	%ecx, %xmm1
	vmovdqa	.L1_v4_CPI194_0(%rip), %ymm2
	vpermi2d	%ymm1, %ymm0, %ymm2
	movw	$496, %ax
	kmovd	%eax, %k1
	vmovdqu16	.L1_v4_CPI194_1(%rip), %ymm2 {%k1}
	vmovdqa	%ymm2, 128(%rsp)
	leaq	96(%rsp), %rdi
	leaq	32(%rsp), %rsi
	movq	%r12, %rdx
	vzeroupper
	vj_c_call	memcpy
	leaq	112(%rsp), %rdi
	movq	%r13, %rsi
	movq	%r15, %rdx
	vj_c_call	memcpy
	vmovaps	96(%rsp), %ymm0
	vmovaps	128(%rsp), %ymm1
	vxorps	.L1_v4_CPI194_2(%rip), %ymm1, %ymm1
	vxorps	.L1_v4_CPI194_3(%rip), %ymm0, %ymm0
	vmovups	%ymm1, (%rbx)
	vmovups	%ymm0, 32(%rbx)
	vmovups	%ymm1, 64(%rbx)
	vmovups	%ymm0, 96(%rbx)
	vxorps	%xmm0, %xmm0, %xmm0
	vmovups	%xmm0, 128(%rbx)
	movl	%r14d, 144(%rbx)
	movl	$1, 148(%rbx)
	vxorps	%xmm0, %xmm0, %xmm0
	vmovups	%ymm0, 152(%rbx)
	vmovups	%ymm0, 184(%rbx)
	vmovups	%ymm0, 216(%rbx)
	vmovups	%ymm0, 248(%rbx)
	vmovups	%ymm0, 280(%rbx)
	vmovups	%ymm0, 312(%rbx)
	xorl	%eax, %eax
	jmp	2f
1:
	vxorps	%xmm0, %xmm0, %xmm0
	vmovups	%ymm0, 312(%rbx)
	vmovups	%ymm0, 288(%rbx)
	vmovups	%ymm0, 256(%rbx)
	vmovups	%ymm0, 224(%rbx)
	vmovups	%ymm0, 192(%rbx)
	vmovups	%ymm0, 160(%rbx)
	vmovups	%ymm0, 128(%rbx)
	vmovups	%ymm0, 96(%rbx)
	vmovups	%ymm0, 64(%rbx)
	vmovups	%ymm0, 32(%rbx)
	vmovups	%ymm0, (%rbx)
	movl	$-1, %eax
2:
	leaq	-40(%rbp), %rsp
	popq	%rbx
	popq	%r12
	popq	%r13
	popq	%r14
	popq	%r15
	popq	%rbp
	vzeroupper
	retq
	vj_end	vulfsjor_ffi_tree_init_root_1_v4

	vj_export	vulfsjor_ffi_tree_leaf_count_1_v4
	testl	%esi, %esi
	je	1f
	movl	%esi, %ecx
	movq	%rdi, %rax
	shrq	$32, %rax
	je	2f
	movq	%rdi, %rax
	xorl	%edx, %edx
	divq	%rcx
	jmp	3f
1:
	xorl	%eax, %eax
	retq
2:
	movl	%edi, %eax
	xorl	%edx, %edx
	divl	%ecx
3:
	xorl	%ecx, %ecx
	testq	%rdx, %rdx
	setne	%cl
	leaq	(%rax,%rcx), %rdx
	cmpq	$1, %rdx
	adcq	%rcx, %rax
	retq
	vj_end	vulfsjor_ffi_tree_leaf_count_1_v4

	vj_export	vulfsjor_ffi_tree_leaf_length_1_v4
	movl	144(%rdi), %esi
	leal	-1(%rsi), %ecx
	xorl	%eax, %eax
	cmpl	$63, %ecx
	ja	3f
	movl	136(%rdi), %edx
	cmpq	$128, %rdx
	ja	3f
	cmpl	$128, 140(%rdi)
	ja	3f
	movq	128(%rdi), %r9
	movl	%edx, %ecx
	notl	%ecx
	movslq	%ecx, %rcx
	cmpq	%rcx, %r9
	ja	3f
	movl	488(%rdi), %ecx
	decl	%ecx
	cmpl	$63, %ecx
	ja	3f
	movl	480(%rdi), %ecx
	cmpq	$128, %rcx
	ja	3f
	cmpl	$128, 484(%rdi)
	ja	3f
	cmpl	$64, %esi
	jne	3f
	movq	472(%rdi), %rsi
	movl	%ecx, %r8d
	notl	%r8d
	movslq	%r8d, %r8
	cmpq	%r8, %rsi
	ja	3f
	movq	696(%rdi), %r8
	leaq	-1(%r8), %r10
	movl	$4294967294, %r11d
	cmpq	%r11, %r10
	ja	3f
	cmpq	$16, 704(%rdi)
	ja	3f
	cmpq	$16, 712(%rdi)
	ja	3f
	addq	%rdx, %r9
	cmpq	%r8, %r9
	ja	3f
	movabsq	$288230376151711743, %r10
	movq	688(%rdi), %rdi
	movq	%r10, %rax
	subq	%r9, %rax
	movq	%rax, %rdx
	orq	%r8, %rdx
	shrq	$32, %rdx
	je	1f
	xorl	%edx, %edx
	divq	%r8
	jmp	2f
1:
	xorl	%edx, %edx
	divl	%r8d
2:
	cmpq	%rax, %rdi
	setbe	%al
	cmpq	%r10, %rdi
	setb	%dl
	andb	%al, %dl
	cmpb	$1, %dl
	movl	$0, %eax
	jne	3f
	addq	%rcx, %rsi
	shlq	$6, %rdi
	xorl	%eax, %eax
	cmpq	%rdi, %rsi
	cmovnel	%eax, %r8d
	movl	%r8d, %eax
3:
	retq
	vj_end	vulfsjor_ffi_tree_leaf_length_1_v4

	vj_export	vulfsjor_ffi_tree_leaves_1_v4
	pushq	%rbp
	pushq	%r15
	pushq	%r14
	pushq	%r13
	pushq	%r12
	pushq	%rbx
	subq	$56, %rsp
	movq	%rdx, %r10
	movq	%rdi, %r11
	movq	128(%rsp), %rbx
	movq	112(%rsp), %rdi
	testq	%r11, %r11
	sete	%r14b
	testq	%r8, %r8
	sete	%r15b
	testq	%rdi, %rdi
	sete	%r13b
	testq	%rbx, %rbx
	sete	47(%rsp)
	cmpq	$17, 120(%rsp)
	setae	%al
	cmpq	$17, 136(%rsp)
	setae	%dl
	orb	%al, %dl
	movl	144(%rsp), %ebp
	testl	%ebp, %ebp
	sete	%al
	orb	%dl, %al
	movl	$-1, %r12d
	jne	8f
	movb	%r13b, 44(%rsp)
	movb	%r15b, 45(%rsp)
	movb	%r14b, 46(%rsp)
	movq	%rsi, 48(%rsp)
	testl	%ecx, %ecx
	setne	%r14b
	testq	%r9, %r9
	setne	%r15b
	testq	%r10, %r10
	sete	%sil
	movl	%ebp, %r13d
	movb	$1, %dl
	testl	%ecx, %ecx
	jne	3f
	movq	%r9, %rax
	shrq	$32, %rax
	je	1f
	movq	%r9, %rax
	xorl	%edx, %edx
	divq	%r13
	jmp	2f
1:
	movl	%r9d, %eax
	xorl	%edx, %edx
	divl	%r13d
2:
	testq	%rdx, %rdx
	sete	%dl
3:
	movabsq	$288230376151711743, %rax
	leaq	1(%rax), %rbp
	cmpq	%rbp, %r9
	jae	8f
	andb	%r14b, %sil
	orb	%r15b, %sil
	andb	%dl, %sil
	je	8f
	subq	%r9, %rax
	movabsq	$288230371856744448, %rdx
	testq	%rdx, %rax
	je	4f
	xorl	%edx, %edx
	divq	%r13
	cmpq	%rax, %r10
	jbe	5f
	jmp	8f
4:
	xorl	%edx, %edx
	divl	%r13d
	cmpq	%rax, %r10
	ja	8f
5:
	movq	%r9, %rax
	shrq	$32, %rax
	je	6f
	movq	%r9, %rax
	xorl	%edx, %edx
	divq	%r13
	jmp	7f
6:
	movl	%r9d, %eax
	xorl	%edx, %edx
	divl	%r13d
7:
	xorl	%esi, %esi
	testq	%rdx, %rdx
	setne	%sil
	leaq	(%rax,%rsi), %rdx
	cmpq	$1, %rdx
	adcq	%rsi, %rax
	movq	%rax, %rdx
	shrq	$58, %rdx
	shlq	$6, %rax
	xorq	48(%rsp), %rax
	orq	%rdx, %rax
	movl	144(%rsp), %ebp
	movzbl	46(%rsp), %edx
	movzbl	45(%rsp), %esi
	movzbl	44(%rsp), %r14d
	jne	8f
	xorl	%eax, %eax
	movb	%dl, %al
	xorl	%edx, %edx
	movb	%sil, %dl
	xorl	%esi, %esi
	movb	%r14b, %sil
	xorl	%r14d, %r14d
	movzbl	47(%rsp), %r15d
	movb	%r15b, %r14b
	shll	$12, %eax
	shll	$12, %edx
	shll	$12, %esi
	shll	$12, %r14d
	addq	%rax, %r11
	addq	%rdx, %r8
	addq	%rsi, %rdi
	addq	%r14, %rbx
	xorl	%eax, %eax
	testl	%ecx, %ecx
	setne	%al
	movq	%r11, 24(%rsp)
	movq	%r9, 16(%rsp)
	movq	%r8, 8(%rsp)
	movl	%eax, (%rsp)
	movq	120(%rsp), %rsi
	movq	%rbx, %rdx
	movq	136(%rsp), %rcx
	movl	%ebp, %r8d
	movq	%r10, %r9
	callq	blake2_tree..ranges..hash_leaves_1_v4
	xorl	%r12d, %r12d
8:
	movl	%r12d, %eax
	addq	$56, %rsp
	popq	%rbx
	popq	%r12
	popq	%r13
	popq	%r14
	popq	%r15
	popq	%rbp
	retq
	vj_end	vulfsjor_ffi_tree_leaves_1_v4

	vj_export	vulfsjor_ffi_tree_leaves_ahead_1_v4
	pushq	%rbp
	pushq	%r15
	pushq	%r14
	pushq	%r13
	pushq	%r12
	pushq	%rbx
	subq	$88, %rsp
	xorl	%r12d, %r12d
	testq	%rsi, %rsi
	sete	%bpl
	xorl	%r13d, %r13d
	testq	%r8, %r8
	sete	%r15b
	movl	144(%rdi), %r11d
	leal	-1(%r11), %r10d
	movl	$-1, %eax
	cmpl	$63, %r10d
	ja	10f
	movl	136(%rdi), %r10d
	cmpq	$128, %r10
	ja	10f
	cmpl	$128, 140(%rdi)
	ja	10f
	movq	128(%rdi), %r14
	movl	%r10d, %ebx
	notl	%ebx
	movslq	%ebx, %rbx
	cmpq	%rbx, %r14
	ja	10f
	movl	488(%rdi), %ebx
	decl	%ebx
	cmpl	$63, %ebx
	ja	10f
	movl	480(%rdi), %ebx
	cmpq	$128, %rbx
	ja	10f
	cmpl	$128, 484(%rdi)
	ja	10f
	cmpl	$64, %r11d
	jne	10f
	movq	%rbx, %r11
	movq	472(%rdi), %rbx
	movq	%r11, 72(%rsp)
	notl	%r11d
	movslq	%r11d, %r11
	movq	%rbx, 80(%rsp)
	cmpq	%r11, %rbx
	ja	10f
	movq	696(%rdi), %rbx
	movq	%rbx, 40(%rsp)
	decq	%rbx
	movl	$4294967294, %r11d
	cmpq	%r11, %rbx
	ja	10f
	movq	704(%rdi), %r11
	cmpq	$16, %r11
	ja	10f
	movq	%rcx, 48(%rsp)
	movq	712(%rdi), %rcx
	cmpq	$16, %rcx
	ja	10f
	movq	%r11, 64(%rsp)
	addq	%r10, %r14
	movq	40(%rsp), %r11
	cmpq	%r11, %r14
	ja	10f
	movq	%rdx, 56(%rsp)
	movabsq	$288230376151711743, %rax
	movq	688(%rdi), %r10
	subq	%r14, %rax
	movq	%rax, %rdx
	orq	%r11, %rdx
	shrq	$32, %rdx
	je	1f
	xorl	%edx, %edx
	divq	%r11
	jmp	2f
1:
	xorl	%edx, %edx
	divl	%r11d
2:
	cmpq	%rax, %r10
	setbe	%al
	movabsq	$288230376151711743, %rdx
	cmpq	%rdx, %r10
	setb	%dl
	andb	%al, %dl
	cmpb	$1, %dl
	jne	9f
	movq	80(%rsp), %rdx
	addq	72(%rsp), %rdx
	movq	%r10, %rax
	shlq	$6, %rax
	cmpq	%rax, %rdx
	jne	9f
	imulq	%r11, %r10
	addq	%r10, %r14
	movq	%r14, %rax
	orq	%r11, %rax
	shrq	$32, %rax
	je	3f
	movq	%r14, %rax
	xorl	%edx, %edx
	divq	40(%rsp)
	movq	%rax, %r11
	jmp	4f
3:
	movl	%r14d, %eax
	xorl	%edx, %edx
	divl	40(%rsp)
	movl	%eax, %r11d
4:
	movabsq	$288230376151711743, %rax
	incq	%rax
	cmpq	%rax, 48(%rsp)
	jae	9f
	testq	%rdx, %rdx
	jne	9f
	movq	%r9, %rax
	orq	40(%rsp), %rax
	shrq	$32, %rax
	je	5f
	movq	%r9, %rax
	xorl	%edx, %edx
	divq	40(%rsp)
	movq	%rax, %r14
	jmp	6f
5:
	movl	%r9d, %eax
	xorl	%edx, %edx
	divl	40(%rsp)
	movl	%eax, %r14d
6:
	leaq	-1(%r9), %rax
	movabsq	$288230376151711743, %r10
	cmpq	%r10, %rax
	jae	9f
	testq	%rdx, %rdx
	jne	9f
	addq	48(%rsp), %r11
	movabsq	$288230376151711743, %rdx
	subq	%r9, %rdx
	movq	%rdx, %rax
	orq	40(%rsp), %rdx
	shrq	$32, %rdx
	je	7f
	xorl	%edx, %edx
	divq	40(%rsp)
	jmp	8f
7:
	xorl	%edx, %edx
	divl	40(%rsp)
8:
	cmpq	%rax, %r11
	jbe	11f
9:
	movl	$-1, %eax
10:
	addq	$88, %rsp
	popq	%rbx
	popq	%r12
	popq	%r13
	popq	%r14
	popq	%r15
	popq	%rbp
	retq
11:
	cmpq	$1, %r14
	adcq	$0, %r14
	shlq	$6, %r14
	cmpq	56(%rsp), %r14
	movl	$-1, %eax
	jne	10b
	movb	%bpl, %r12b
	movb	%r15b, %r13b
	shll	$12, %r12d
	shll	$12, %r13d
	addq	%r12, %rsi
	addq	%r13, %r8
	leaq	736(%rdi), %rdx
	addq	$720, %rdi
	movq	%rsi, 24(%rsp)
	movq	%r9, 16(%rsp)
	movq	%r8, 8(%rsp)
	movl	$0, (%rsp)
	movq	64(%rsp), %rsi
	movq	40(%rsp), %r8
	movq	%r11, %r9
	callq	blake2_tree..ranges..hash_leaves_1_v4
	xorl	%eax, %eax
	jmp	10b
	vj_end	vulfsjor_ffi_tree_leaves_ahead_1_v4

	vj_export	vulfsjor_ffi_tree_part_1_v4
	pushq	%rbp
	pushq	%r15
	pushq	%r14
	pushq	%r13
	pushq	%r12
	pushq	%rbx
	movq	24(%rsi), %rbx
	leaq	-1(%rbx), %rcx
	movl	$-1, %eax
	movl	$4294967294, %r8d
	cmpq	%r8, %rcx
	ja	16f
	movq	32(%rsi), %r8
	testq	%r8, %r8
	je	16f
	movq	%rdx, %r11
	movq	%r8, %rax
	orq	%rbx, %rax
	shrq	$32, %rax
	je	1f
	movq	%r8, %rax
	xorl	%edx, %edx
	divq	%rbx
	movq	%rax, %r10
	testq	%rdx, %rdx
	movl	$-1, %eax
	jne	16f
	jmp	2f
1:
	movl	%r8d, %eax
	xorl	%edx, %edx
	divl	%ebx
	movl	%eax, %r10d
	testq	%rdx, %rdx
	movl	$-1, %eax
	jne	16f
2:
	movq	(%rsi), %r14
	movq	8(%rsi), %rcx
	movq	%rcx, %r9
	subq	%r14, %r9
	jb	16f
	movq	%r9, %rdx
	shrq	$58, %rdx
	jne	16f
	movq	64(%rsi), %r12
	cmpq	$1, %r12
	ja	16f
	movq	%r10, %r15
	movq	40(%rsi), %r13
	movq	%r9, %rax
	orq	%r8, %rax
	shrq	$32, %rax
	je	3f
	movq	%r9, %rax
	xorl	%edx, %edx
	divq	%r8
	jmp	4f
3:
	movl	%r9d, %eax
	xorl	%edx, %edx
	divl	%r8d
4:
	cmpq	$1, %rdx
	sbbq	$-1, %rax
	cmpq	%rax, %r12
	cmovaq	%r12, %rax
	cmpq	%rax, %r13
	movl	$-1, %eax
	jne	16f
	testq	%r13, %r13
	je	5f
	movq	%r9, %rax
	orq	%rbx, %rax
	shrq	$32, %rax
	je	6f
	movq	%r9, %rax
	xorl	%edx, %edx
	divq	%rbx
	movq	%rax, %r10
	jmp	7f
5:
	movq	%r11, %rdx
	xorl	%r10d, %r10d
	jmp	8f
6:
	movl	%r9d, %eax
	xorl	%edx, %edx
	divl	%ebx
	movl	%eax, %r10d
7:
	xorl	%eax, %eax
	testq	%rdx, %rdx
	setne	%al
	leaq	(%r10,%rax), %rdx
	cmpq	$1, %rdx
	adcq	%rax, %r10
	shlq	$6, %r10
	movq	%r11, %rdx
	movl	$-1, %eax
8:
	cmpq	%r10, 56(%rsi)
	jne	16f
	movq	48(%rsi), %r10
	cmpq	%r10, %r13
	jb	16f
	testq	%r13, %r13
	setne	%bpl
	testq	%r10, %r10
	sete	%r10b
	testb	%r10b, %bpl
	jne	16f
	cmpq	$1, %r12
	jne	10f
	cmpq	%rdx, %r13
	jbe	16f
	cmpq	$0, 16(%rsi)
	jne	16f
9:
	leaq	1(%rdx), %rax
	xorl	%esi, %esi
	cmpq	%r13, %rax
	cmoveq	%r12, %rsi
	movq	%r8, %rax
	imulq	%rdx, %rax
	addq	%rax, %r14
	subq	%r14, %rcx
	cmpq	%r8, %rcx
	cmovaeq	%r8, %rcx
	movq	%rcx, %rax
	orq	%rbx, %rax
	shrq	$32, %rax
	je	11f
	movq	%rcx, %rax
	xorl	%edx, %edx
	divq	%rbx
	jmp	12f
10:
	cmpq	%rbx, %r14
	jae	16f
	movq	%r9, %rax
	orq	%rbx, %rax
	shrq	$32, %rax
	je	13f
	movq	%r9, %rax
	xorl	%edx, %edx
	divq	%rbx
	jmp	14f
11:
	movl	%ecx, %eax
	xorl	%edx, %edx
	divl	%ebx
12:
	xorl	%r8d, %r8d
	testq	%rdx, %rdx
	setne	%r8b
	leaq	(%rax,%r8), %rdx
	cmpq	$1, %rdx
	adcq	%r8, %rax
	shlq	$6, %rax
	imulq	%r11, %r15
	movq	%r15, (%rdi)
	shlq	$6, %r15
	movq	%r14, 8(%rdi)
	movq	%rcx, 16(%rdi)
	movq	%r15, 24(%rdi)
	movq	%rax, 32(%rdi)
	movq	%rsi, 40(%rdi)
	xorl	%eax, %eax
	jmp	16f
13:
	movl	%r9d, %eax
	xorl	%edx, %edx
	divl	%ebx
14:
	testq	%rdx, %rdx
	movl	$-1, %eax
	jne	16f
	cmpq	%r14, %rcx
	sete	%dl
	movq	16(%rsi), %rax
	testq	%rax, %rax
	setne	%sil
	cmpq	%r11, %r13
	jbe	15f
	orb	%sil, %dl
	je	15f
	cmpq	%rbx, %rax
	ja	15f
	movabsq	$288230376151711744, %rdx
	addq	%rcx, %rax
	cmpq	%rdx, %rax
	movq	%r11, %rdx
	movl	$-1, %eax
	jb	9b
	jmp	16f
15:
	movl	$-1, %eax
16:
	popq	%rbx
	popq	%r12
	popq	%r13
	popq	%r14
	popq	%r15
	popq	%rbp
	retq
	vj_end	vulfsjor_ffi_tree_part_1_v4

	vj_export	vulfsjor_ffi_tree_plan_1_v4
	movl	$-1, %eax
	testl	%ecx, %ecx
	je	4f
	movq	(%r8), %r11
	testq	%r11, %r11
	je	4f
	pushq	%r14
	pushq	%rbx
	subq	$88, %rsp
	movq	8(%r8), %r14
	testq	%r14, %r14
	je	3f
	movq	%rdx, %r9
	shrq	$58, %rdx
	setne	%dl
	movq	%rsi, %r10
	addq	%r9, %r10
	setb	%r10b
	orb	%dl, %r10b
	jne	3f
	vxorps	%xmm0, %xmm0, %xmm0
	vmovups	%ymm0, 48(%rsp)
	vmovups	%ymm0, 16(%rsp)
	movq	$0, 80(%rsp)
	movq	%r9, %rax
	orq	%r14, %rax
	movq	%rsi, %r10
	movq	%rdi, %rbx
	shrq	$32, %rax
	je	1f
	movq	%r9, %rax
	xorl	%edx, %edx
	divq	%r14
	jmp	2f
1:
	movl	%r9d, %eax
	xorl	%edx, %edx
	divl	%r14d
2:
	cmpq	$1, %rax
	adcq	$0, %rax
	cmpq	%r11, %rax
	cmovaeq	%r11, %rax
	movq	$1, (%rsp)
	leaq	16(%rsp), %rdi
	movq	%r8, %rsi
	movq	%rax, %rdx
	movq	%r10, %r8
	vzeroupper
	callq	blake2_tree..thread_plan..Plan..of_1_v4
	movq	80(%rsp), %rax
	movq	%rax, 64(%rbx)
	vmovups	16(%rsp), %ymm0
	vmovups	48(%rsp), %ymm1
	vmovups	%ymm1, 32(%rbx)
	vmovups	%ymm0, (%rbx)
	xorl	%eax, %eax
3:
	addq	$88, %rsp
	popq	%rbx
	popq	%r14
4:
	vzeroupper
	retq
	vj_end	vulfsjor_ffi_tree_plan_1_v4

	vj_export	vulfsjor_ffi_tree_plan_update_1_v4
	pushq	%r15
	pushq	%r14
	pushq	%r13
	pushq	%r12
	pushq	%rbx
	subq	$96, %rsp
	movq	(%rcx), %r14
	movl	$-1, %eax
	testq	%r14, %r14
	je	4f
	movq	8(%rcx), %r9
	testq	%r9, %r9
	je	4f
	movl	144(%rsi), %r8d
	leal	-1(%r8), %r10d
	cmpl	$63, %r10d
	ja	4f
	movl	136(%rsi), %r10d
	cmpq	$128, %r10
	ja	4f
	cmpl	$128, 140(%rsi)
	ja	4f
	movq	128(%rsi), %r11
	movl	%r10d, %ebx
	notl	%ebx
	movslq	%ebx, %rbx
	cmpq	%rbx, %r11
	ja	4f
	movl	488(%rsi), %ebx
	decl	%ebx
	cmpl	$63, %ebx
	ja	4f
	movl	480(%rsi), %r15d
	cmpq	$128, %r15
	ja	4f
	cmpl	$128, 484(%rsi)
	ja	4f
	cmpl	$64, %r8d
	jne	4f
	movq	472(%rsi), %r12
	movl	%r15d, %r8d
	notl	%r8d
	movslq	%r8d, %r8
	cmpq	%r8, %r12
	ja	4f
	movq	696(%rsi), %r8
	leaq	-1(%r8), %rbx
	movl	$4294967294, %r13d
	cmpq	%r13, %rbx
	ja	4f
	cmpq	$16, 704(%rsi)
	ja	4f
	cmpq	$16, 712(%rsi)
	ja	4f
	addq	%r10, %r11
	cmpq	%r8, %r11
	ja	4f
	movq	%rdx, %r10
	movq	%rdi, %rbx
	movabsq	$288230376151711743, %rdi
	movq	688(%rsi), %rsi
	movq	%rdi, %rax
	subq	%r11, %rax
	movq	%rax, %rdx
	orq	%r8, %rdx
	shrq	$32, %rdx
	je	1f
	xorl	%edx, %edx
	divq	%r8
	jmp	2f
1:
	xorl	%edx, %edx
	divl	%r8d
2:
	cmpq	%rax, %rsi
	setbe	%al
	cmpq	%rdi, %rsi
	setb	%dl
	andb	%al, %dl
	cmpb	$1, %dl
	jne	3f
	addq	%r15, %r12
	movq	%rsi, %rax
	shlq	$6, %rax
	cmpq	%rax, %r12
	jne	3f
	imulq	%r8, %rsi
	addq	%rsi, %r11
	subq	%r11, %rdi
	cmpq	%r10, %rdi
	movl	$-1, %eax
	jb	4f
	vxorps	%xmm0, %xmm0, %xmm0
	vmovups	%ymm0, 48(%rsp)
	vmovups	%ymm0, 16(%rsp)
	movq	$0, 80(%rsp)
	movq	%r10, %rax
	orq	%r9, %rax
	shrq	$32, %rax
	je	5f
	movq	%r10, %rax
	xorl	%edx, %edx
	divq	%r9
	movq	%rax, %r9
	jmp	6f
3:
	movl	$-1, %eax
4:
	addq	$96, %rsp
	popq	%rbx
	popq	%r12
	popq	%r13
	popq	%r14
	popq	%r15
	vzeroupper
	retq
5:
	movl	%r10d, %eax
	xorl	%edx, %edx
	divl	%r9d
	movl	%eax, %r9d
6:
	cmpq	$1, %r9
	adcq	$0, %r9
	cmpq	%r14, %r9
	cmovaeq	%r14, %r9
	movq	%r11, %rax
	orq	%r8, %rax
	shrq	$32, %rax
	je	7f
	movq	%r11, %rax
	xorl	%edx, %edx
	divq	%r8
	jmp	8f
7:
	movl	%r11d, %eax
	xorl	%edx, %edx
	divl	%r8d
8:
	movq	%r8, %rax
	subq	%rdx, %rax
	movq	%rax, %rdx
	orq	%r8, %rdx
	shrq	$32, %rdx
	je	9f
	xorl	%edx, %edx
	divq	%r8
	movq	%rdx, %r11
	jmp	10f
9:
	xorl	%edx, %edx
	divl	%r8d
	movl	%edx, %r11d
10:
	cmpq	%r11, %r10
	cmovbq	%r10, %r11
	subq	%r11, %r10
	cmpq	$1, %r10
	movq	%r10, %rsi
	adcq	$-1, %r10
	movq	%r10, %rax
	orq	%r8, %rax
	shrq	$32, %rax
	je	11f
	movq	%r10, %rax
	xorl	%edx, %edx
	divq	%r8
	jmp	12f
11:
	movl	%r10d, %eax
	xorl	%edx, %edx
	divl	%r8d
12:
	subq	%rdx, %r10
	movq	%rsi, %r14
	subq	%r10, %r14
	movq	$0, (%rsp)
	leaq	16(%rsp), %rdi
	movq	%rcx, %rsi
	movq	%r9, %rdx
	movl	%r8d, %ecx
	movq	%r11, %r8
	movq	%r10, %r9
	vzeroupper
	callq	blake2_tree..thread_plan..Plan..of_1_v4
	vmovaps	16(%rsp), %xmm0
	vmovups	40(%rsp), %ymm1
	vmovups	72(%rsp), %xmm2
	vmovups	%xmm0, (%rbx)
	movq	%r14, 16(%rbx)
	vmovups	%ymm1, 24(%rbx)
	vmovups	%xmm2, 56(%rbx)
	xorl	%eax, %eax
	jmp	4b
	vj_end	vulfsjor_ffi_tree_plan_update_1_v4

	vj_constants	32
	.p2align	5, 0x0
.L1_v4_CPI202_0:
	.long	0
	.long	8
	.long	2
	.long	3
	.long	4
	.long	5
	.long	6
	.long	7
.L1_v4_CPI202_1:
	.zero	2
	.zero	2
	.zero	2
	.zero	2
	.short	0
	.short	0
	.short	0
	.short	0
	.short	16385
	.zero	2
	.zero	2
	.zero	2
	.zero	2
	.zero	2
	.zero	2
	.zero	2
.L1_v4_CPI202_2:
	.quad	7640891576956012808
	.quad	-4942790177534073029
	.quad	4354685564936845355
	.quad	-6534734903238641935
.L1_v4_CPI202_3:
	.quad	5840696475078001361
	.quad	-7276294671716946913
	.quad	2270897969802886507
	.quad	6620516959819538809
	vj_export	vulfsjor_ffi_tree_root_of_leaves_1_v4
	pushq	%rbp
	movq	%rsp, %rbp
	pushq	%r15
	pushq	%r14
	pushq	%r13
	pushq	%r12
	pushq	%rbx
	andq	$-32, %rsp
	subq	$512, %rsp
	movq	16(%rbp), %r14
	xorl	%r12d, %r12d
	testq	%rdi, %rdi
	sete	64(%rsp)
	xorl	%r13d, %r13d
	testq	%rdx, %rdx
	sete	16(%rsp)
	xorl	%r11d, %r11d
	testq	%r8, %r8
	sete	24(%rsp)
	xorl	%r10d, %r10d
	testq	%r14, %r14
	sete	%bl
	leaq	-1(%rsi), %rax
	cmpq	$64, %rax
	setae	%al
	cmpq	$17, %r9
	setae	%r15b
	orb	%al, %r15b
	cmpq	$17, 24(%rbp)
	setae	%al
	orb	%r15b, %al
	cmpl	$0, 32(%rbp)
	sete	%r15b
	orb	%al, %r15b
	movl	$-1, %eax
	jne	1f
	movb	%bl, 15(%rsp)
	testq	%rcx, %rcx
	sete	%r15b
	testb	$63, %cl
	setne	%bl
	orb	%r15b, %bl
	jne	1f
	movzbl	64(%rsp), %eax
	movb	%al, %r12b
	shll	$12, %r12d
	addq	%r12, %rdi
	movzbl	16(%rsp), %eax
	movb	%al, %r13b
	shll	$12, %r13d
	addq	%r13, %rdx
	movq	%rdx, 16(%rsp)
	movzbl	24(%rsp), %eax
	movb	%al, %r11b
	shll	$12, %r11d
	addq	%r11, %r8
	movzbl	15(%rsp), %eax
	movb	%al, %r10b
	shll	$12, %r10d
	addq	%r10, %r14
	vxorps	%xmm0, %xmm0, %xmm0
	vmovaps	%xmm0, 32(%rsp)
	leaq	32(%rsp), %rax
	movq	%rdi, %r12
	movq	%rax, %rdi
	movq	%rsi, %r13
	movq	%r8, %rsi
	movq	%r9, %rdx
	movq	%rcx, 24(%rsp)
	movq	%r9, %r15
	vj_c_call	memcpy
	vxorps	%xmm0, %xmm0, %xmm0
	vmovaps	%xmm0, 48(%rsp)
	leaq	48(%rsp), %rdi
	movq	%r14, %rsi
	movq	24(%rbp), %rbx
	movq	%rbx, %rdx
	vj_c_call	memcpy
	vmovaps	32(%rsp), %xmm0
	vmovaps	%xmm0, 144(%rsp)
	movq	%r15, 160(%rsp)
	leaq	168(%rsp), %r14
	vmovaps	48(%rsp), %xmm0
	vmovups	%xmm0, 168(%rsp)
	movq	%rbx, 184(%rsp)
	movl	32(%rbp), %ecx
	movl	%ecx, 192(%rsp)
	movl	$0, 196(%rsp)
	vxorps	%xmm0, %xmm0, %xmm0
	vmovaps	%ymm0, 96(%rsp)
	movl	%r13d, %eax
	orl	$33554432, %eax
	vmovd	%eax, %xmm0
	vmovq	%xmm0, %xmm0
	vmovd	%ecx, %xmm1
	vmovdqa	.L1_v4_CPI202_0(%rip), %ymm2
	vpermi2d	%ymm1, %ymm0, %ymm2
	movw	$496, %ax
	kmovd	%eax, %k1
	vmovdqu16	.L1_v4_CPI202_1(%rip), %ymm2 {%k1}
	vmovdqa	%ymm2, 64(%rsp)
	leaq	96(%rsp), %rdi
	leaq	144(%rsp), %rsi
	movq	%r15, %rdx
	vzeroupper
	vj_c_call	memcpy
	leaq	112(%rsp), %rdi
	movq	%r14, %rsi
	movq	%rbx, %rdx
	vj_c_call	memcpy
	vmovaps	96(%rsp), %ymm0
	vmovaps	64(%rsp), %ymm1
	vxorps	.L1_v4_CPI202_2(%rip), %ymm1, %ymm1
	vxorps	.L1_v4_CPI202_3(%rip), %ymm0, %ymm0
	vmovups	%ymm1, 144(%rsp)
	vmovups	%ymm0, 176(%rsp)
	vmovups	%ymm1, 208(%rsp)
	vmovups	%ymm0, 240(%rsp)
	vxorps	%xmm0, %xmm0, %xmm0
	vmovups	%xmm0, 272(%rsp)
	movl	%r13d, 288(%rsp)
	movl	$1, 292(%rsp)
	vxorps	%xmm0, %xmm0, %xmm0
	vmovups	%ymm0, 296(%rsp)
	vmovups	%ymm0, 328(%rsp)
	vmovups	%ymm0, 360(%rsp)
	vmovups	%ymm0, 392(%rsp)
	vmovups	%ymm0, 424(%rsp)
	vmovups	%ymm0, 456(%rsp)
	leaq	144(%rsp), %rbx
	movq	%rbx, %rdi
	movq	16(%rsp), %rsi
	movq	24(%rsp), %rdx
	vzeroupper
	callq	blake2_state..blake2b..State..absorb_blocks_1_v4
	movq	%rbx, %rdi
	movq	%r12, %rsi
	callq	blake2_state..blake2b..State..write_digest_1_v4
	xorl	%eax, %eax
1:
	leaq	-40(%rbp), %rsp
	popq	%rbx
	popq	%r12
	popq	%r13
	popq	%r14
	popq	%r15
	popq	%rbp
	retq
	vj_end	vulfsjor_ffi_tree_root_of_leaves_1_v4

	vj_export	vulfsjor_ffi_tree_state_size_1_v4
	movl	$752, %eax
	retq
	vj_end	vulfsjor_ffi_tree_state_size_1_v4

	vj_export	vulfsjor_ffi_tree_update_1_v4
	xorl	%r8d, %r8d
	testq	%rsi, %rsi
	sete	%r9b
	movl	144(%rdi), %ecx
	leal	-1(%rcx), %r10d
	movl	$-1, %eax
	cmpl	$63, %r10d
	ja	5f
	movl	136(%rdi), %r10d
	cmpq	$128, %r10
	ja	5f
	cmpl	$128, 140(%rdi)
	ja	5f
	pushq	%rbp
	pushq	%r15
	pushq	%r14
	pushq	%r13
	pushq	%r12
	pushq	%rbx
	pushq	%rax
	movq	128(%rdi), %r11
	movl	%r10d, %ebx
	notl	%ebx
	movslq	%ebx, %rbx
	cmpq	%rbx, %r11
	ja	4f
	movl	488(%rdi), %ebx
	decl	%ebx
	cmpl	$63, %ebx
	ja	4f
	movl	480(%rdi), %ebx
	cmpq	$128, %rbx
	ja	4f
	cmpl	$128, 484(%rdi)
	ja	4f
	cmpl	$64, %ecx
	jne	4f
	movq	472(%rdi), %r14
	movl	%ebx, %ecx
	notl	%ecx
	movslq	%ecx, %rcx
	cmpq	%rcx, %r14
	ja	4f
	movq	696(%rdi), %r15
	leaq	-1(%r15), %rcx
	movl	$4294967294, %r12d
	cmpq	%r12, %rcx
	ja	4f
	cmpq	$16, 704(%rdi)
	ja	4f
	cmpq	$16, 712(%rdi)
	ja	4f
	leaq	(%r11,%r10), %rbp
	cmpq	%r15, %rbp
	ja	4f
	movq	%rdx, %rcx
	movabsq	$288230376151711743, %r13
	movq	688(%rdi), %r12
	movq	%r13, %rax
	subq	%rbp, %rax
	movq	%rax, %rdx
	orq	%r15, %rdx
	shrq	$32, %rdx
	je	1f
	xorl	%edx, %edx
	divq	%r15
	jmp	2f
1:
	xorl	%edx, %edx
	divl	%r15d
2:
	cmpq	%rax, %r12
	setbe	%al
	cmpq	%r13, %r12
	setb	%dl
	andb	%al, %dl
	cmpb	$1, %dl
	jne	3f
	addq	%rbx, %r14
	movq	%r12, %rax
	shlq	$6, %rax
	cmpq	%rax, %r14
	jne	3f
	imulq	%r15, %r12
	xorq	%r13, %r10
	addq	%r12, %r11
	subq	%r11, %r10
	cmpq	%rcx, %r10
	movl	$-1, %eax
	jb	4f
	movb	%r9b, %r8b
	shll	$12, %r8d
	addq	%r8, %rsi
	movq	%rcx, %rdx
	callq	blake2_state..tree..TreeState..update_1_v4
	xorl	%eax, %eax
	jmp	4f
3:
	movl	$-1, %eax
4:
	addq	$8, %rsp
	popq	%rbx
	popq	%r12
	popq	%r13
	popq	%r14
	popq	%r15
	popq	%rbp
5:
	retq
	vj_end	vulfsjor_ffi_tree_update_1_v4

	vj_constants	32
	.p2align	5, 0x0
.L1_v4_CPI205_0:
	.short	64
	.short	512
	.zero	2
	.zero	2
	.zero	2
	.zero	2
	.zero	2
	.zero	2
	.zero	2
	.short	0
	.short	0
	.short	0
	.short	0
	.short	0
	.short	0
	.short	0
.L1_v4_CPI205_1:
	.short	16384
	.short	512
	.zero	2
	.zero	2
	.zero	2
	.zero	2
	.zero	2
	.zero	2
	.short	16384
	.short	0
	.short	0
	.short	0
	.short	0
	.short	0
	.short	0
	.short	0
.L1_v4_CPI205_2:
	.quad	7640891576956012808
	.quad	-4942790177534073029
	.quad	4354685564936845355
	.quad	-6534734903238641935
.L1_v4_CPI205_3:
	.quad	5840696475078001361
	.quad	-7276294671716946913
	.quad	2270897969802886507
	.quad	6620516959819538809
	vj_constants	16
	.p2align	2, 0x0
.L1_v4_CPI205_4:
	.short	64
	.short	512
	.short	0
	.short	0
	.short	0
	.short	0
	.short	0
	.short	0
	vj_export	vulfsjor_ffi_tree_update_leaves_1_v4
	pushq	%rbp
	movq	%rsp, %rbp
	pushq	%r15
	pushq	%r14
	pushq	%r13
	pushq	%r12
	pushq	%rbx
	andq	$-32, %rsp
	subq	$384, %rsp
	movq	%rdi, %r15
	xorl	%r10d, %r10d
	testq	%rsi, %rsi
	sete	%r11b
	xorl	%ebx, %ebx
	testq	%rcx, %rcx
	sete	%r12b
	movl	144(%rdi), %r14d
	leal	-1(%r14), %edi
	movl	$-1, %eax
	cmpl	$63, %edi
	ja	8f
	movl	136(%r15), %r13d
	cmpq	$128, %r13
	ja	8f
	cmpl	$128, 140(%r15)
	ja	8f
	movq	128(%r15), %rdi
	movl	%r13d, %r9d
	notl	%r9d
	movslq	%r9d, %r9
	cmpq	%r9, %rdi
	ja	8f
	movl	488(%r15), %r9d
	decl	%r9d
	cmpl	$63, %r9d
	ja	8f
	movl	480(%r15), %r9d
	cmpq	$128, %r9
	ja	8f
	cmpl	$128, 484(%r15)
	ja	8f
	cmpl	$64, %r14d
	jne	8f
	movq	472(%r15), %r14
	movq	%r14, 128(%rsp)
	movl	%r9d, %r14d
	notl	%r14d
	movslq	%r14d, %r14
	cmpq	%r14, 128(%rsp)
	ja	8f
	movq	696(%r15), %r14
	movq	%r14, 32(%rsp)
	movq	32(%rsp), %r14
	decq	%r14
	movq	%r14, 16(%rsp)
	movl	$4294967294, %r14d
	cmpq	%r14, 16(%rsp)
	ja	8f
	movq	704(%r15), %r14
	cmpq	$16, %r14
	ja	8f
	movq	%r14, 16(%rsp)
	movq	712(%r15), %r14
	cmpq	$16, %r14
	ja	8f
	movq	%r14, 88(%rsp)
	leaq	(%rdi,%r13), %r14
	cmpq	32(%rsp), %r14
	movq	32(%rsp), %r14
	ja	8f
	movq	%rdx, (%rsp)
	movabsq	$288230376151711743, %rax
	movq	688(%r15), %rdx
	movq	%rdx, 8(%rsp)
	subq	%rdi, %rax
	subq	%r13, %rax
	movq	%rax, %rdx
	orq	%r14, %rdx
	shrq	$32, %rdx
	je	1f
	xorl	%edx, %edx
	divq	%r14
	jmp	2f
1:
	xorl	%edx, %edx
	divl	%r14d
2:
	movq	8(%rsp), %r14
	cmpq	%rax, %r14
	setbe	%al
	movabsq	$288230376151711743, %rdx
	cmpq	%rdx, %r14
	setb	%dl
	andb	%al, %dl
	cmpb	$1, %dl
	jne	7f
	movq	%rsi, 120(%rsp)
	movq	%rcx, 80(%rsp)
	movq	%r8, 24(%rsp)
	movq	128(%rsp), %rcx
	addq	%r9, %rcx
	movq	%r14, %rax
	shlq	$6, %rax
	cmpq	%rax, %rcx
	jne	7f
	cmpq	$0, (%rsp)
	je	3f
	cmpq	$0, 24(%rsp)
	je	7f
	movq	8(%rsp), %rax
	movq	32(%rsp), %rcx
	imulq	%rcx, %rax
	leaq	(%rdi,%r13), %rdx
	addq	%rax, %rdx
	movq	%rdx, %rax
	orq	%rcx, %rdx
	shrq	$32, %rdx
	je	4f
	xorl	%edx, %edx
	divq	32(%rsp)
	jmp	5f
3:
	movb	$1, %al
	jmp	6f
4:
	xorl	%edx, %edx
	divl	32(%rsp)
5:
	testq	%rdx, %rdx
	sete	%al
6:
	testb	$63, (%rsp)
	jne	7f
	testb	%al, %al
	je	7f
	movq	8(%rsp), %rcx
	imulq	32(%rsp), %rcx
	movabsq	$288230376151711743, %rax
	xorq	%r13, %rax
	addq	%rdi, %rcx
	subq	%rcx, %rax
	subq	24(%rsp), %rax
	jae	9f
7:
	movl	$-1, %eax
8:
	leaq	-40(%rbp), %rsp
	popq	%rbx
	popq	%r12
	popq	%r13
	popq	%r14
	popq	%r15
	popq	%rbp
	retq
9:
	movq	(%rsp), %rcx
	shrq	$6, %rcx
	movq	%rcx, 128(%rsp)
	movq	%rax, %rcx
	orq	32(%rsp), %rcx
	shrq	$32, %rcx
	je	10f
	xorl	%edx, %edx
	divq	32(%rsp)
	jmp	11f
10:
	xorl	%edx, %edx
	divl	32(%rsp)
11:
	cmpq	%rax, 128(%rsp)
	movl	$-1, %eax
	ja	8b
	movb	%r12b, %bl
	shll	$12, %ebx
	addq	%rbx, 80(%rsp)
	cmpq	$0, (%rsp)
	je	13f
	movb	%r11b, %r10b
	shll	$12, %r10d
	addq	%r10, 120(%rsp)
	leaq	128(%r15), %rax
	movq	%rax, 8(%rsp)
	negq	%r13
	cmpq	%r13, %rdi
	je	12f
	leaq	720(%r15), %rsi
	leaq	736(%r15), %r14
	vxorps	%xmm0, %xmm0, %xmm0
	vmovaps	%xmm0, 336(%rsp)
	leaq	336(%rsp), %rdi
	movq	16(%rsp), %r12
	movq	%r12, %rdx
	vj_c_call	memcpy
	vxorps	%xmm0, %xmm0, %xmm0
	vmovaps	%xmm0, 96(%rsp)
	leaq	96(%rsp), %rdi
	movq	%r14, %rsi
	movq	88(%rsp), %r13
	movq	%r13, %rdx
	vj_c_call	memcpy
	vmovaps	336(%rsp), %xmm0
	vmovaps	%xmm0, 192(%rsp)
	movq	%r12, 208(%rsp)
	vmovaps	96(%rsp), %xmm0
	vmovups	%xmm0, 216(%rsp)
	movq	%r13, 232(%rsp)
	movq	32(%rsp), %r14
	movl	%r14d, 240(%rsp)
	movl	$0, 244(%rsp)
	movl	$0, 148(%r15)
	vxorps	%xmm0, %xmm0, %xmm0
	vmovaps	%ymm0, 288(%rsp)
	vmovaps	%ymm0, 256(%rsp)
	leaq	256(%rsp), %rsi
	movq	%r15, %rdi
	vzeroupper
	callq	blake2_state..blake2b..State..write_digest_1_v4
	movl	$64, %edx
	leaq	344(%r15), %rdi
	leaq	256(%rsp), %rsi
	callq	blake2_state..blake2b..State..absorb_blocks_1_v4
	movq	688(%r15), %rax
	incq	%rax
	movq	%rax, 688(%r15)
	vxorps	%xmm0, %xmm0, %xmm0
	vmovaps	%ymm0, 160(%rsp)
	vmovd	%r14d, %xmm0
	vmovd	.L1_v4_CPI205_4(%rip), %xmm1
	vpunpckldq	%xmm0, %xmm1, %xmm0
	vmovq	%rax, %xmm1
	vpunpcklqdq	%xmm1, %xmm0, %xmm0
	vpblendd	$240, .L1_v4_CPI205_1(%rip), %ymm0, %ymm0
	vmovdqa	%ymm0, 32(%rsp)
	leaq	160(%rsp), %rdi
	leaq	192(%rsp), %rsi
	movq	%r12, %rdx
	vzeroupper
	vj_c_call	memcpy
	leaq	176(%rsp), %rdi
	leaq	216(%rsp), %rsi
	movq	%r13, %rdx
	vj_c_call	memcpy
	vmovaps	160(%rsp), %ymm0
	vmovaps	32(%rsp), %ymm1
	vxorps	.L1_v4_CPI205_2(%rip), %ymm1, %ymm1
	vxorps	.L1_v4_CPI205_3(%rip), %ymm0, %ymm0
	vmovups	%ymm1, (%r15)
	vmovups	%ymm0, 32(%r15)
	vmovups	%ymm1, 64(%r15)
	vmovups	%ymm0, 96(%r15)
	leaq	128(%r15), %rax
	vxorps	%xmm0, %xmm0, %xmm0
	vmovups	%xmm0, (%rax)
	movl	$64, 144(%r15)
	vxorps	%xmm0, %xmm0, %xmm0
	vmovups	%ymm0, 148(%r15)
	vmovups	%ymm0, 180(%r15)
	vmovups	%ymm0, 212(%r15)
	vmovups	%ymm0, 244(%r15)
	vmovups	%ymm0, 276(%r15)
	vmovups	%ymm0, 308(%r15)
	movl	$0, 340(%r15)
	movq	696(%r15), %rax
	movq	%rax, 32(%rsp)
	movq	704(%r15), %rax
	movq	%rax, 16(%rsp)
	movq	712(%r15), %rax
	movq	%rax, 88(%rsp)
12:
	leaq	720(%r15), %rsi
	leaq	736(%r15), %rbx
	vxorps	%xmm0, %xmm0, %xmm0
	vmovaps	%xmm0, 96(%rsp)
	leaq	96(%rsp), %rdi
	movq	16(%rsp), %r12
	movq	%r12, %rdx
	vzeroupper
	vj_c_call	memcpy
	vxorps	%xmm0, %xmm0, %xmm0
	vmovaps	%xmm0, 160(%rsp)
	leaq	160(%rsp), %rdi
	movq	%rbx, %rsi
	movq	88(%rsp), %r13
	movq	%r13, %rdx
	vj_c_call	memcpy
	vmovaps	96(%rsp), %xmm0
	vmovaps	%xmm0, 256(%rsp)
	movq	%r12, 272(%rsp)
	leaq	280(%rsp), %rbx
	vmovaps	160(%rsp), %xmm0
	vmovups	%xmm0, 280(%rsp)
	movq	%r13, 296(%rsp)
	movq	32(%rsp), %r14
	movl	%r14d, 304(%rsp)
	movl	$0, 308(%rsp)
	leaq	344(%r15), %rdi
	movq	120(%rsp), %rsi
	movq	(%rsp), %rdx
	callq	blake2_state..blake2b..State..absorb_blocks_1_v4
	movq	128(%rsp), %rax
	addq	688(%r15), %rax
	movq	%rax, 688(%r15)
	vxorps	%xmm0, %xmm0, %xmm0
	vmovaps	%ymm0, 192(%rsp)
	vmovd	%r14d, %xmm0
	vmovd	.L1_v4_CPI205_4(%rip), %xmm1
	vpunpckldq	%xmm0, %xmm1, %xmm0
	vmovq	%rax, %xmm1
	vpunpcklqdq	%xmm1, %xmm0, %xmm0
	vpblendd	$240, .L1_v4_CPI205_1(%rip), %ymm0, %ymm0
	vmovdqa	%ymm0, 128(%rsp)
	leaq	192(%rsp), %rdi
	leaq	256(%rsp), %rsi
	movq	%r12, %rdx
	vzeroupper
	vj_c_call	memcpy
	leaq	208(%rsp), %rdi
	movq	%rbx, %rsi
	movq	%r13, %rdx
	vj_c_call	memcpy
	vmovaps	192(%rsp), %ymm0
	vmovaps	128(%rsp), %ymm1
	vxorps	.L1_v4_CPI205_2(%rip), %ymm1, %ymm1
	vxorps	.L1_v4_CPI205_3(%rip), %ymm0, %ymm0
	vmovups	%ymm1, (%r15)
	vmovups	%ymm0, 32(%r15)
	vmovups	%ymm1, 64(%r15)
	vmovups	%ymm0, 96(%r15)
	movq	8(%rsp), %rax
	vxorps	%xmm0, %xmm0, %xmm0
	vmovups	%xmm0, (%rax)
	movl	$64, 144(%r15)
	vxorps	%xmm0, %xmm0, %xmm0
	vmovups	%ymm0, 148(%r15)
	vmovups	%ymm0, 180(%r15)
	vmovups	%ymm0, 212(%r15)
	vmovups	%ymm0, 244(%r15)
	vmovups	%ymm0, 276(%r15)
	vmovups	%ymm0, 308(%r15)
	movl	$0, 340(%r15)
13:
	movq	%r15, %rdi
	movq	80(%rsp), %rsi
	movq	24(%rsp), %rdx
	vzeroupper
	callq	blake2_state..tree..TreeState..update_1_v4
	xorl	%eax, %eax
	jmp	8b
	vj_end	vulfsjor_ffi_tree_update_leaves_1_v4

	vj_export	vulfsjor_ffi_tree_wipe_1_v4
	movl	$752, %edx
	xorl	%esi, %esi
	vj_c_jump	memset
	vj_end	vulfsjor_ffi_tree_wipe_1_v4

	vj_export	vulfsjor_ffi_wipe_1_v4
	xorl	%eax, %eax
	testq	%rdi, %rdi
	sete	%cl
	testq	%rsi, %rsi
	je	2f
	pushq	%r14
	pushq	%rbx
	pushq	%rax
	movq	%rsi, %rbx
	movq	%rdi, %r14
	movb	%cl, %al
	shll	$12, %eax
	addq	%rax, %r14
	decq	%rbx
	je	1f
	movq	%r14, %rdi
	xorl	%esi, %esi
	movq	%rbx, %rdx
	vj_c_call	memset
1:
	movb	$0, (%r14,%rbx)
	addq	$8, %rsp
	popq	%rbx
	popq	%r14
2:
	retq
	vj_end	vulfsjor_ffi_wipe_1_v4

	vj_export	vulfsjor_ffi_blake2bp_1_v4
	pushq	%rbx
	movq	%r9, %rbx
	xorl	%eax, %eax
	testq	%rdi, %rdi
	sete	%al
	shll	$12, %eax
	addq	%rax, %rdi
	xorl	%eax, %eax
	testq	%rdx, %rdx
	sete	%al
	shll	$12, %eax
	addq	%rax, %rdx
	xorl	%eax, %eax
	testq	%r8, %r8
	sete	%al
	shll	$12, %eax
	addq	%rax, %r8
	callq	blake2_ffi..blake2bp..write_1_v4
	testq	%rbx, %rbx
	je	1f
	movl	%eax, %ebx
	callq	blake2_digest..wiping..scrub_stack..8704_1_v4
	movl	%ebx, %eax
1:
	popq	%rbx
	retq
	vj_end	vulfsjor_ffi_blake2bp_1_v4

	vj_export	vulfsjor_ffi_blake2sp_1_v4
	pushq	%rbx
	movq	%r9, %rbx
	xorl	%eax, %eax
	testq	%rdi, %rdi
	sete	%al
	shll	$12, %eax
	addq	%rax, %rdi
	xorl	%eax, %eax
	testq	%rdx, %rdx
	sete	%al
	shll	$12, %eax
	addq	%rax, %rdx
	xorl	%eax, %eax
	testq	%r8, %r8
	sete	%al
	shll	$12, %eax
	addq	%rax, %r8
	callq	blake2_ffi..blake2sp..write_1_v4
	testq	%rbx, %rbx
	je	1f
	movl	%eax, %ebx
	callq	blake2_digest..wiping..scrub_stack..8704_1_v4
	movl	%ebx, %eax
1:
	popq	%rbx
	retq
	vj_end	vulfsjor_ffi_blake2sp_1_v4

	vj_export	vulfsjor_ffi_blake2xb_1_v4
	pushq	%rbx
	movq	%r9, %rbx
	xorl	%eax, %eax
	testq	%rdi, %rdi
	sete	%al
	shll	$12, %eax
	addq	%rax, %rdi
	xorl	%eax, %eax
	testq	%rdx, %rdx
	sete	%al
	shll	$12, %eax
	addq	%rax, %rdx
	xorl	%eax, %eax
	testq	%r8, %r8
	sete	%al
	shll	$12, %eax
	addq	%rax, %r8
	callq	blake2_ffi..blake2xb..write_1_v4
	testq	%rbx, %rbx
	je	1f
	movl	%eax, %ebx
	callq	blake2_digest..wiping..scrub_stack..7168_1_v4
	movl	%ebx, %eax
1:
	popq	%rbx
	retq
	vj_end	vulfsjor_ffi_blake2xb_1_v4

	vj_export	vulfsjor_ffi_blake2xb_derive_key_1_v4
	movq	%rcx, %rax
	testq	%rcx, %rcx
	je	1f
	pushq	%rbx
	movq	%rdx, %rcx
	xorl	%edx, %edx
	testq	%r8, %r8
	sete	%dl
	shll	$12, %edx
	addq	%r8, %rdx
	xorl	%r8d, %r8d
	testq	%rcx, %rcx
	sete	%r8b
	shll	$12, %r8d
	addq	%rcx, %r8
	xorl	%ecx, %ecx
	testq	%rdi, %rdi
	sete	%cl
	shll	$12, %ecx
	addq	%rdi, %rcx
	movq	%rcx, %rdi
	movq	%r9, %rcx
	movq	%rax, %r9
	callq	blake2_ffi..blake2xb..write_1_v4
	movl	%eax, %ebx
	callq	blake2_digest..wiping..scrub_stack..7168_1_v4
	movl	%ebx, %eax
	popq	%rbx
	retq
1:
	movl	$-1, %eax
	retq
	vj_end	vulfsjor_ffi_blake2xb_derive_key_1_v4

	vj_export	vulfsjor_ffi_blake2xs_1_v4
	pushq	%rbx
	movq	%r9, %rbx
	xorl	%eax, %eax
	testq	%rdi, %rdi
	sete	%al
	shll	$12, %eax
	addq	%rax, %rdi
	xorl	%eax, %eax
	testq	%rdx, %rdx
	sete	%al
	shll	$12, %eax
	addq	%rax, %rdx
	xorl	%eax, %eax
	testq	%r8, %r8
	sete	%al
	shll	$12, %eax
	addq	%rax, %r8
	callq	blake2_ffi..blake2xs..write_1_v4
	testq	%rbx, %rbx
	je	1f
	movl	%eax, %ebx
	callq	blake2_digest..wiping..scrub_stack..7168_1_v4
	movl	%ebx, %eax
1:
	popq	%rbx
	retq
	vj_end	vulfsjor_ffi_blake2xs_1_v4

	vj_export	vulfsjor_ffi_blake2xs_derive_key_1_v4
	movq	%rcx, %rax
	testq	%rcx, %rcx
	je	1f
	pushq	%rbx
	movq	%rdx, %rcx
	xorl	%edx, %edx
	testq	%r8, %r8
	sete	%dl
	shll	$12, %edx
	addq	%r8, %rdx
	xorl	%r8d, %r8d
	testq	%rcx, %rcx
	sete	%r8b
	shll	$12, %r8d
	addq	%rcx, %r8
	xorl	%ecx, %ecx
	testq	%rdi, %rdi
	sete	%cl
	shll	$12, %ecx
	addq	%rdi, %rcx
	movq	%rcx, %rdi
	movq	%r9, %rcx
	movq	%rax, %r9
	callq	blake2_ffi..blake2xs..write_1_v4
	movl	%eax, %ebx
	callq	blake2_digest..wiping..scrub_stack..7168_1_v4
	movl	%ebx, %eax
	popq	%rbx
	retq
1:
	movl	$-1, %eax
	retq
	vj_end	vulfsjor_ffi_blake2xs_derive_key_1_v4

	vj_constants	32
	.p2align	5, 0x0
.L1_v4_CPI214_0:
	.quad	7640891576939301192
	.quad	-4942790177534073029
	.quad	4354685564936845355
	.quad	-6534734903238641935
.L1_v4_CPI214_1:
	.quad	5840696475078001361
	.quad	-7276294671716946913
	.quad	2270897969802886507
	.quad	6620516959819538809
	vj_export	vulfsjor_ffi_blake2b_1_v4
	pushq	%rbp
	pushq	%r15
	pushq	%r14
	pushq	%r13
	pushq	%r12
	pushq	%rbx
	subq	$232, %rsp
	movq	%rdi, %rax
	xorl	%edi, %edi
	testq	%rax, %rax
	sete	%dil
	shll	$12, %edi
	addq	%rax, %rdi
	xorl	%ebx, %ebx
	testq	%rdx, %rdx
	sete	%bl
	shll	$12, %ebx
	addq	%rdx, %rbx
	vxorps	%xmm0, %xmm0, %xmm0
	vmovups	%xmm0, 16(%rsp)
	testq	%r9, %r9
	je	1f
	xorl	%eax, %eax
	testq	%r8, %r8
	sete	%al
	shll	$12, %eax
	addq	%r8, %rax
	movq	%rbx, %rdx
	movq	%rax, %r8
	callq	blake2_ffi..blake2b..write_keyed_1_v4
	movl	%eax, %ebx
	callq	blake2_digest..wiping..scrub_stack..1536_1_v4
	movl	%ebx, %eax
	jmp	5f
1:
	leaq	-1(%rsi), %rdx
	movl	$-1, %eax
	cmpq	$63, %rdx
	ja	5f
	cmpq	$64, %rsi
	jne	4f
	movq	%rdi, %r12
	vmovaps	.L1_v4_CPI214_0(%rip), %ymm0
	vmovups	%ymm0, 32(%rsp)
	vmovaps	.L1_v4_CPI214_1(%rip), %ymm0
	vmovups	%ymm0, 64(%rsp)
	cmpq	$1, %rcx
	movq	%rcx, %r13
	movq	%rcx, %r15
	adcq	$-1, %r15
	movq	%r15, %rbp
	shrq	$7, %rbp
	je	3f
	movl	$128, %r14d
	.p2align	4
2:
	leaq	(%rbx,%r14), %rsi
	addq	$-128, %rsi
	leaq	32(%rsp), %rdi
	movq	%r14, %rdx
	xorl	%ecx, %ecx
	xorl	%r8d, %r8d
	vzeroupper
	vj_call	blake2_compress..compress..blake2b..compress_1_v4
	subq	$-128, %r14
	decq	%rbp
	jne	2b
3:
	andq	$-128, %r15
	addq	%r15, %rbx
	movq	%r13, %rdx
	subq	%r15, %rdx
	vxorps	%xmm0, %xmm0, %xmm0
	vmovups	%ymm0, 192(%rsp)
	vmovups	%ymm0, 160(%rsp)
	vmovups	%ymm0, 128(%rsp)
	vmovups	%ymm0, 96(%rsp)
	leaq	96(%rsp), %r15
	movq	%r15, %rdi
	movq	%rbx, %rsi
	vzeroupper
	vj_c_call	memcpy
	leaq	32(%rsp), %rdi
	movq	%r15, %rsi
	movq	%r13, %rdx
	movl	$1, %ecx
	xorl	%r8d, %r8d
	vj_call	blake2_compress..compress..blake2b..compress_1_v4
	xorl	%eax, %eax
	vmovups	32(%rsp), %ymm0
	vmovups	64(%rsp), %ymm1
	vmovups	%ymm0, (%r12)
	vmovups	%ymm1, 32(%r12)
	jmp	5f
4:
	movq	$0, 8(%rsp)
	leaq	8(%rsp), %r8
	movq	%rbx, %rdx
	callq	blake2_ffi..blake2b..write_digest_1_v4
	xorl	%eax, %eax
5:
	addq	$232, %rsp
	popq	%rbx
	popq	%r12
	popq	%r13
	popq	%r14
	popq	%r15
	popq	%rbp
	vzeroupper
	retq
	vj_end	vulfsjor_ffi_blake2b_1_v4

	vj_constants	16
	.p2align	4, 0x0
.L1_v4_CPI215_0:
	.long	1795745351
	.long	3144134277
	.long	1013904242
	.long	2773480762
.L1_v4_CPI215_1:
	.long	1359893119
	.long	2600822924
	.long	528734635
	.long	1541459225
	vj_export	vulfsjor_ffi_blake2s_1_v4
	pushq	%rbp
	pushq	%r15
	pushq	%r14
	pushq	%r13
	pushq	%r12
	pushq	%rbx
	subq	$136, %rsp
	movq	%rdi, %rax
	xorl	%edi, %edi
	testq	%rax, %rax
	sete	%dil
	shll	$12, %edi
	addq	%rax, %rdi
	xorl	%ebx, %ebx
	testq	%rdx, %rdx
	sete	%bl
	shll	$12, %ebx
	addq	%rdx, %rbx
	vxorps	%xmm0, %xmm0, %xmm0
	vmovups	%xmm0, 48(%rsp)
	testq	%r9, %r9
	je	1f
	xorl	%eax, %eax
	testq	%r8, %r8
	sete	%al
	shll	$12, %eax
	addq	%r8, %rax
	movq	%rbx, %rdx
	movq	%rax, %r8
	callq	blake2_ffi..blake2s..write_keyed_1_v4
	movl	%eax, %ebx
	callq	blake2_digest..wiping..scrub_stack..768_1_v4
	movl	%ebx, %eax
	jmp	5f
1:
	leaq	-1(%rsi), %rdx
	movl	$-1, %eax
	cmpq	$31, %rdx
	ja	5f
	cmpq	$32, %rsi
	jne	4f
	movq	%rdi, %r12
	vmovaps	.L1_v4_CPI215_0(%rip), %xmm0
	vmovaps	%xmm0, (%rsp)
	vmovaps	.L1_v4_CPI215_1(%rip), %xmm0
	vmovaps	%xmm0, 16(%rsp)
	cmpq	$1, %rcx
	movq	%rcx, %r13
	movq	%rcx, %r15
	adcq	$-1, %r15
	movq	%r15, %rbp
	shrq	$6, %rbp
	je	3f
	movl	$64, %r14d
	.p2align	4
2:
	leaq	(%rbx,%r14), %rsi
	addq	$-64, %rsi
	movq	%rsp, %rdi
	movq	%r14, %rdx
	xorl	%ecx, %ecx
	xorl	%r8d, %r8d
	vj_call	blake2_compress..compress..blake2s..compress_1_v4
	addq	$64, %r14
	decq	%rbp
	jne	2b
3:
	andq	$-64, %r15
	addq	%r15, %rbx
	movq	%r13, %rdx
	subq	%r15, %rdx
	vxorps	%xmm0, %xmm0, %xmm0
	vmovups	%ymm0, 96(%rsp)
	vmovups	%ymm0, 64(%rsp)
	leaq	64(%rsp), %r15
	movq	%r15, %rdi
	movq	%rbx, %rsi
	vzeroupper
	vj_c_call	memcpy
	movq	%rsp, %rdi
	movq	%r15, %rsi
	movq	%r13, %rdx
	movl	$1, %ecx
	xorl	%r8d, %r8d
	vj_call	blake2_compress..compress..blake2s..compress_1_v4
	xorl	%eax, %eax
	vmovups	(%rsp), %ymm0
	vmovups	%ymm0, (%r12)
	jmp	5f
4:
	movq	$0, 40(%rsp)
	leaq	40(%rsp), %r8
	movq	%rbx, %rdx
	callq	blake2_ffi..blake2s..write_digest_1_v4
	xorl	%eax, %eax
5:
	addq	$136, %rsp
	popq	%rbx
	popq	%r12
	popq	%r13
	popq	%r14
	popq	%r15
	popq	%rbp
	vzeroupper
	retq
	vj_end	vulfsjor_ffi_blake2s_1_v4

	vj_export	vulfsjor_ffi_blake2b_many_1_v4
	pushq	%rbp
	pushq	%r15
	pushq	%r14
	pushq	%r13
	pushq	%r12
	pushq	%rbx
	subq	$72, %rsp
	movq	%rdx, %r10
	movq	128(%rsp), %r11
	movq	160(%rsp), %rax
	movq	144(%rsp), %rdx
	movq	152(%rsp), %r12
	movq	136(%rsp), %rbp
	xorl	%r14d, %r14d
	testq	%rdi, %rdi
	sete	%r15b
	xorl	%ebx, %ebx
	testq	%rcx, %rcx
	sete	15(%rsp)
	xorl	%r13d, %r13d
	testq	%r9, %r9
	sete	%r13b
	shll	$12, %r13d
	addq	%r9, %r13
	xorl	%r9d, %r9d
	testq	%rbp, %rbp
	sete	%r9b
	shll	$12, %r9d
	addq	%rbp, %r9
	xorl	%ebp, %ebp
	testq	%r12, %r12
	sete	%bpl
	shll	$12, %ebp
	addq	%r12, %rbp
	movq	%r10, 16(%rsp)
	movq	%r13, 24(%rsp)
	movq	%r11, 32(%rsp)
	movq	%r9, 40(%rsp)
	movq	%rdx, 48(%rsp)
	movq	%rbp, 56(%rsp)
	movq	%rax, 64(%rsp)
	leaq	-1(%r10), %r9
	cmpq	$64, %r9
	setae	%r9b
	cmpq	$65, %r11
	setae	%bpl
	orb	%r9b, %bpl
	cmpq	$17, %rdx
	setae	%dl
	cmpq	$17, %rax
	setae	%r9b
	movl	$-1, %eax
	orb	%dl, %r9b
	orb	%bpl, %r9b
	jne	5f
	movq	%r8, %rdx
	mulxq	%r10, %r9, %rdx
	xorq	%rsi, %r9
	orq	%rdx, %r9
	jne	5f
	movb	%r15b, %r14b
	shll	$12, %r14d
	addq	%r14, %rdi
	movzbl	15(%rsp), %edx
	movb	%dl, %bl
	shll	$12, %ebx
	leaq	(%rcx,%rbx), %r9
	testq	%r11, %r11
	je	2f
	leaq	(%rbx,%rcx), %rdx
	addq	$8, %rdx
	movq	$-1, %rcx
	.p2align	4
1:
	incq	%rcx
	cmpq	%rcx, %r8
	je	3f
	cmpq	$-129, (%rdx)
	leaq	16(%rdx), %rdx
	jbe	1b
	jmp	5f
2:
	leaq	16(%rsp), %rdx
	movq	%r9, %rcx
	callq	blake2_ffi..blake2b..many..write_all_1_v4
	jmp	4f
3:
	leaq	16(%rsp), %rdx
	movq	%r9, %rcx
	callq	blake2_ffi..blake2b..many..write_all_1_v4
	callq	blake2_digest..wiping..scrub_stack..9216_1_v4
4:
	xorl	%eax, %eax
5:
	addq	$72, %rsp
	popq	%rbx
	popq	%r12
	popq	%r13
	popq	%r14
	popq	%r15
	popq	%rbp
	retq
	vj_end	vulfsjor_ffi_blake2b_many_1_v4

	vj_export	vulfsjor_ffi_blake2s_many_1_v4
	pushq	%rbp
	pushq	%r15
	pushq	%r14
	pushq	%r13
	pushq	%r12
	pushq	%rbx
	subq	$72, %rsp
	movq	%rdx, %r10
	movq	128(%rsp), %r11
	movq	160(%rsp), %rax
	movq	144(%rsp), %rdx
	movq	152(%rsp), %r12
	movq	136(%rsp), %rbp
	xorl	%r14d, %r14d
	testq	%rdi, %rdi
	sete	%r15b
	xorl	%ebx, %ebx
	testq	%rcx, %rcx
	sete	15(%rsp)
	xorl	%r13d, %r13d
	testq	%r9, %r9
	sete	%r13b
	shll	$12, %r13d
	addq	%r9, %r13
	xorl	%r9d, %r9d
	testq	%rbp, %rbp
	sete	%r9b
	shll	$12, %r9d
	addq	%rbp, %r9
	xorl	%ebp, %ebp
	testq	%r12, %r12
	sete	%bpl
	shll	$12, %ebp
	addq	%r12, %rbp
	movq	%r10, 16(%rsp)
	movq	%r13, 24(%rsp)
	movq	%r11, 32(%rsp)
	movq	%r9, 40(%rsp)
	movq	%rdx, 48(%rsp)
	movq	%rbp, 56(%rsp)
	movq	%rax, 64(%rsp)
	leaq	-1(%r10), %r9
	cmpq	$32, %r9
	setae	%r9b
	cmpq	$33, %r11
	setae	%bpl
	orb	%r9b, %bpl
	cmpq	$9, %rdx
	setae	%dl
	cmpq	$9, %rax
	setae	%r9b
	movl	$-1, %eax
	orb	%dl, %r9b
	orb	%bpl, %r9b
	jne	5f
	movq	%r8, %rdx
	mulxq	%r10, %r9, %rdx
	xorq	%rsi, %r9
	orq	%rdx, %r9
	jne	5f
	movb	%r15b, %r14b
	shll	$12, %r14d
	addq	%r14, %rdi
	movzbl	15(%rsp), %edx
	movb	%dl, %bl
	shll	$12, %ebx
	leaq	(%rcx,%rbx), %r9
	testq	%r11, %r11
	je	2f
	leaq	(%rbx,%rcx), %rdx
	addq	$8, %rdx
	movq	$-1, %rcx
	.p2align	4
1:
	incq	%rcx
	cmpq	%rcx, %r8
	je	3f
	cmpq	$-65, (%rdx)
	leaq	16(%rdx), %rdx
	jbe	1b
	jmp	5f
2:
	leaq	16(%rsp), %rdx
	movq	%r9, %rcx
	callq	blake2_ffi..blake2s..many..write_all_1_v4
	jmp	4f
3:
	leaq	16(%rsp), %rdx
	movq	%r9, %rcx
	callq	blake2_ffi..blake2s..many..write_all_1_v4
	callq	blake2_digest..wiping..scrub_stack..5632_1_v4
4:
	xorl	%eax, %eax
5:
	addq	$72, %rsp
	popq	%rbx
	popq	%r12
	popq	%r13
	popq	%r14
	popq	%r15
	popq	%rbp
	retq
	vj_end	vulfsjor_ffi_blake2s_many_1_v4

	vj_constants	32
	.p2align	5, 0x0
.L1_v4_CPI218_0:
	.long	8
	.long	0
	.zero	4
	.zero	4
	.long	12
	.long	13
	.long	14
	.long	15
.L1_v4_CPI218_1:
	.short	64
	.short	512
	.zero	2
	.zero	2
	.zero	2
	.zero	2
	.zero	2
	.zero	2
	.zero	2
	.short	0
	.short	0
	.short	0
	.short	0
	.short	0
	.short	0
	.short	0
.L1_v4_CPI218_2:
	.short	16384
	.short	512
	.zero	2
	.zero	2
	.zero	2
	.zero	2
	.zero	2
	.zero	2
	.short	16384
	.short	0
	.short	0
	.short	0
	.short	0
	.short	0
	.short	0
	.short	0
.L1_v4_CPI218_3:
	.quad	5840696475078001361
	.quad	-7276294671716946913
	.quad	2270897969802886507
	.quad	6620516959819538809
.L1_v4_CPI218_4:
	.quad	7640891576956012808
	.quad	-4942790177534073029
	.quad	4354685564936845355
	.quad	-6534734903238641935
.L1_v4_CPI218_5:
	.short	16385
	.short	512
	.zero	2
	.zero	2
	.zero	2
	.zero	2
	.zero	2
	.zero	2
	.short	16385
	.short	0
	.short	0
	.short	0
	.short	0
	.short	0
	.short	0
	.short	0
.L1_v4_CPI218_6:
	.zero	2
	.zero	2
	.zero	2
	.zero	2
	.short	0
	.short	0
	.short	0
	.short	0
	.short	16384
	.zero	2
	.zero	2
	.zero	2
	.zero	2
	.zero	2
	.zero	2
	.zero	2
.L1_v4_CPI218_7:
	.short	32
	.short	512
	.zero	2
	.zero	2
	.zero	2
	.zero	2
	.zero	2
	.zero	2
	.zero	2
	.short	0
	.short	0
	.short	0
	.short	0
	.short	0
	.short	0
	.short	0
.L1_v4_CPI218_8:
	.zero	2
	.zero	2
	.zero	2
	.zero	2
	.short	0
	.short	0
	.short	0
	.short	0
	.short	16385
	.zero	2
	.zero	2
	.zero	2
	.zero	2
	.zero	2
	.zero	2
	.zero	2
	vj_constants	16
	.p2align	2, 0x0
.L1_v4_CPI218_9:
	.short	64
	.short	512
	.short	0
	.short	0
	.short	0
	.short	0
	.short	0
	.short	0
	vj_export	vulfsjor_ffi_tree_root_1_v4
	pushq	%rbp
	movq	%rsp, %rbp
	pushq	%r15
	pushq	%r14
	pushq	%r13
	pushq	%r12
	pushq	%rbx
	andq	$-32, %rsp
	subq	$2816, %rsp
	movq	%r9, 512(%rsp)
	xorl	%r12d, %r12d
	testq	%rdi, %rdi
	sete	%bl
	xorl	%r11d, %r11d
	testq	%rdx, %rdx
	sete	%r13b
	xorl	%r9d, %r9d
	testq	%r8, %r8
	sete	%r15b
	xorl	%r14d, %r14d
	cmpq	$0, 16(%rbp)
	sete	%r10b
	movq	%rcx, %rax
	shrq	$58, %rax
	movl	$-1, %eax
	jne	22f
	movb	%r15b, 576(%rsp)
	movb	%r10b, 2016(%rsp)
	movq	%rcx, 32(%rsp)
	movq	24(%rbp), %rcx
	leaq	-1(%rsi), %r15
	cmpq	$64, %r15
	setae	%r15b
	cmpq	$17, 512(%rsp)
	setae	%r10b
	orb	%r15b, %r10b
	cmpq	$17, %rcx
	setae	%r15b
	orb	%r10b, %r15b
	cmpl	$0, 32(%rbp)
	sete	%r10b
	orb	%r15b, %r10b
	jne	22f
	movb	%bl, %r12b
	shll	$12, %r12d
	addq	%r12, %rdi
	movb	%r13b, %r11b
	shll	$12, %r11d
	addq	%r11, %rdx
	movzbl	576(%rsp), %eax
	movb	%al, %r9b
	shll	$12, %r9d
	addq	%r9, %r8
	movzbl	2016(%rsp), %eax
	movb	%al, %r14b
	shll	$12, %r14d
	movq	16(%rbp), %r15
	addq	%r14, %r15
	cmpq	$64, %rsi
	movq	%rdi, 88(%rsp)
	movq	%rdx, 8(%rsp)
	je	3f
	movq	%rcx, %rbx
	vxorps	%xmm0, %xmm0, %xmm0
	cmpq	$32, %rsi
	jne	6f
	vmovaps	%xmm0, 64(%rsp)
	leaq	64(%rsp), %rdi
	movq	%r8, %rsi
	movq	512(%rsp), %r13
	movq	%r13, %rdx
	vj_c_call	memcpy
	vxorps	%xmm0, %xmm0, %xmm0
	vmovaps	%xmm0, 16(%rsp)
	leaq	16(%rsp), %rdi
	movq	%r15, %rsi
	movq	%rbx, %rdx
	vj_c_call	memcpy
	vmovaps	64(%rsp), %xmm0
	vmovaps	%xmm0, 1248(%rsp)
	movq	%r13, 1264(%rsp)
	vmovaps	16(%rsp), %xmm0
	vmovups	%xmm0, 1272(%rsp)
	leaq	1272(%rsp), %r15
	movq	%rbx, 1288(%rsp)
	movl	32(%rbp), %r14d
	movl	%r14d, 1296(%rsp)
	movl	$0, 1300(%rsp)
	vxorps	%xmm0, %xmm0, %xmm0
	vmovaps	%ymm0, 608(%rsp)
	vpbroadcastd	%r14d, %xmm0
	vmovdqa	%ymm0, 544(%rsp)
	vpblendd	$253, .L1_v4_CPI218_1(%rip), %ymm0, %ymm0
	movw	$496, %ax
	kmovd	%eax, %k1
	kmovw	%k1, 2080(%rsp)
	vmovdqu16	.L1_v4_CPI218_6(%rip), %ymm0 {%k1}
	vmovdqa	%ymm0, 576(%rsp)
	leaq	608(%rsp), %rdi
	leaq	1248(%rsp), %r12
	movq	%r12, %rsi
	movq	%r13, %rdx
	vzeroupper
	vj_c_call	memcpy
	leaq	624(%rsp), %rdi
	movq	%r15, %rsi
	movq	%rbx, %rdx
	vj_c_call	memcpy
	vmovaps	.L1_v4_CPI218_3(%rip), %ymm0
	vxorps	608(%rsp), %ymm0, %ymm0
	vmovaps	%ymm0, 2016(%rsp)
	vmovaps	.L1_v4_CPI218_4(%rip), %ymm1
	vxorps	%xmm0, %xmm0, %xmm0
	vmovaps	%ymm0, 608(%rsp)
	vxorps	576(%rsp), %ymm1, %ymm0
	vmovaps	%ymm0, 576(%rsp)
	vmovdqa	544(%rsp), %ymm0
	vpblendd	$253, .L1_v4_CPI218_7(%rip), %ymm0, %ymm0
	kmovw	2080(%rsp), %k1
	vmovdqu16	.L1_v4_CPI218_8(%rip), %ymm0 {%k1}
	vmovdqa	%ymm0, 544(%rsp)
	leaq	608(%rsp), %rdi
	movq	%r12, %rsi
	movq	%r13, %rdx
	vzeroupper
	vj_c_call	memcpy
	leaq	624(%rsp), %rdi
	movq	%r15, %rsi
	movq	%rbx, %rdx
	vj_c_call	memcpy
	vmovaps	.L1_v4_CPI218_3(%rip), %ymm0
	vxorps	608(%rsp), %ymm0, %ymm0
	vmovaps	544(%rsp), %ymm1
	vxorps	.L1_v4_CPI218_4(%rip), %ymm1, %ymm1
	vmovaps	64(%rsp), %xmm2
	vmovaps	%xmm2, 608(%rsp)
	movq	%r13, 624(%rsp)
	vmovaps	16(%rsp), %xmm2
	vmovups	%xmm2, 632(%rsp)
	movq	%rbx, 648(%rsp)
	movl	%r14d, 656(%rsp)
	movl	$0, 660(%rsp)
	movq	$0, 664(%rsp)
	vmovaps	576(%rsp), %ymm3
	vmovups	%ymm3, 672(%rsp)
	vmovaps	2016(%rsp), %ymm2
	vmovups	%ymm2, 704(%rsp)
	vmovups	%ymm3, 736(%rsp)
	vmovups	%ymm2, 768(%rsp)
	vxorps	%xmm2, %xmm2, %xmm2
	vmovups	%ymm2, 800(%rsp)
	vmovups	%ymm2, 832(%rsp)
	vmovups	%ymm2, 864(%rsp)
	vmovups	%ymm2, 896(%rsp)
	vmovups	%ymm2, 920(%rsp)
	vmovups	%ymm1, 952(%rsp)
	vmovups	%ymm0, 984(%rsp)
	vmovups	%ymm1, 1016(%rsp)
	vmovups	%ymm0, 1048(%rsp)
	vmovups	%ymm2, 1080(%rsp)
	vmovups	%ymm2, 1112(%rsp)
	vmovups	%ymm2, 1144(%rsp)
	vmovups	%ymm2, 1176(%rsp)
	vmovups	%ymm2, 1200(%rsp)
	leaq	952(%rsp), %rbx
	movl	%r14d, %r13d
	leaq	(,%r13,4), %rax
	movq	32(%rsp), %r9
	xorl	%r15d, %r15d
	cmpq	%r9, %rax
	jae	7f
	movq	8(%rsp), %rdx
	.p2align	4
1:
	movq	%r9, 32(%rsp)
	movq	%rdx, 8(%rsp)
	vxorps	%xmm0, %xmm0, %xmm0
	leaq	1504(%rsp), %rax
	vmovups	%ymm0, 224(%rax)
	vmovups	%ymm0, 192(%rax)
	vmovups	%ymm0, 160(%rax)
	vmovups	%ymm0, 128(%rax)
	vmovups	%ymm0, 96(%rax)
	vmovups	%ymm0, 64(%rax)
	vmovups	%ymm0, 32(%rax)
	vmovups	%ymm0, (%rax)
	leaq	608(%rsp), %rdi
	leaq	1248(%rsp), %r13
	movq	%r15, %rsi
	movq	%r9, %rcx
	movq	%r13, %r8
	vzeroupper
	vj_call	blake2_tree..nodes..Nodes..hash_next_1_v4
	movq	%rax, %r15
	movl	656(%rsp), %r12d
	imulq	%rax, %r12
	movq	%rax, %rcx
	shlq	$6, %rcx
	movq	1224(%rsp), %rsi
	leaq	1096(%rsp), %rdi
	movq	%r13, %rdx
	movq	%rbx, %r8
	callq	blake2_digest..buffer..digest_into..33c1e97afcdf8a5d_1_v4
	movq	%rax, 1224(%rsp)
	addq	664(%rsp), %r15
	movq	%r15, 664(%rsp)
	movq	624(%rsp), %rdx
	movq	%rbx, %r14
	movq	648(%rsp), %rbx
	movl	656(%rsp), %r13d
	vmovd	.L1_v4_CPI218_9(%rip), %xmm0
	vpunpckldq	656(%rsp), %xmm0, %xmm0
	vxorps	%xmm1, %xmm1, %xmm1
	vmovaps	%ymm1, 96(%rsp)
	vmovq	%r15, %xmm1
	vpunpcklqdq	%xmm1, %xmm0, %xmm0
	vpblendd	$240, .L1_v4_CPI218_2(%rip), %ymm0, %ymm0
	vmovdqa	%ymm0, 512(%rsp)
	leaq	96(%rsp), %rdi
	leaq	608(%rsp), %rsi
	vzeroupper
	vj_c_call	memcpy
	leaq	112(%rsp), %rdi
	leaq	632(%rsp), %rsi
	movq	%rbx, %rdx
	leaq	608(%rsp), %rbx
	vj_c_call	memcpy
	movq	32(%rsp), %r9
	movq	8(%rsp), %rdx
	vmovaps	96(%rsp), %ymm0
	vmovaps	512(%rsp), %ymm1
	vxorps	.L1_v4_CPI218_4(%rip), %ymm1, %ymm1
	vxorps	.L1_v4_CPI218_3(%rip), %ymm0, %ymm0
	vmovups	%ymm1, 672(%rsp)
	vmovups	%ymm0, 704(%rsp)
	vmovups	%ymm1, 736(%rsp)
	vmovups	%ymm0, 768(%rsp)
	vxorps	%xmm0, %xmm0, %xmm0
	vmovups	%ymm0, 312(%rbx)
	vmovups	%ymm0, 288(%rbx)
	vmovups	%ymm0, 256(%rbx)
	vmovups	%ymm0, 224(%rbx)
	vmovups	%ymm0, 192(%rbx)
	movq	%r14, %rbx
	addq	%r12, %rdx
	subq	%r12, %r9
	leaq	(,%r13,4), %rax
	cmpq	%r9, %rax
	jb	1b
	cmpq	%rax, %r9
	jne	8f
2:
	leaq	608(%rsp), %rsi
	movq	%rdx, %rbx
	movl	$624, %edx
	leaq	1248(%rsp), %r15
	movq	%r15, %rdi
	vzeroupper
	vj_c_call	memcpy
	movq	1304(%rsp), %r10
	movl	1296(%rsp), %eax
	movq	1264(%rsp), %rsi
	movq	1288(%rsp), %rdx
	leaq	1(%r10), %r11
	leaq	(%rbx,%rax), %r9
	leaq	2(%r10), %rdi
	leaq	(%rax,%rax,2), %rcx
	movq	%r15, 96(%rsp)
	movq	%rsi, 104(%rsp)
	leaq	1272(%rsp), %r14
	movq	%r14, 112(%rsp)
	movq	%rdx, 120(%rsp)
	vxorps	%xmm0, %xmm0, %xmm0
	vmovups	%xmm0, 128(%rsp)
	leaq	(%rbx,%rax,2), %r8
	vmovups	%xmm0, 137(%rsp)
	movb	$2, 153(%rsp)
	movw	$0, 154(%rsp)
	movl	%eax, 156(%rsp)
	movq	%r10, 160(%rsp)
	movw	$16384, 168(%rsp)
	movq	$0, 170(%rsp)
	movq	$0, 176(%rsp)
	movq	%rbx, 184(%rsp)
	movq	%rax, 192(%rsp)
	movq	%r15, 200(%rsp)
	movq	%rsi, 208(%rsp)
	movq	%r14, 216(%rsp)
	movq	%rdx, 224(%rsp)
	vmovups	%xmm0, 241(%rsp)
	vmovups	%xmm0, 232(%rsp)
	leaq	3(%r10), %r10
	movb	$2, 257(%rsp)
	movw	$0, 258(%rsp)
	movl	%eax, 260(%rsp)
	movq	%r11, 264(%rsp)
	movw	$16384, 272(%rsp)
	movq	$0, 280(%rsp)
	movq	$0, 274(%rsp)
	movq	%r9, 288(%rsp)
	movq	%rax, 296(%rsp)
	movq	%r15, 304(%rsp)
	movq	%rsi, 312(%rsp)
	movq	%r14, 320(%rsp)
	movq	%rdx, 328(%rsp)
	vmovups	%xmm0, 345(%rsp)
	addq	%rbx, %rcx
	vmovups	%xmm0, 336(%rsp)
	movb	$2, 361(%rsp)
	movw	$0, 362(%rsp)
	movl	%eax, 364(%rsp)
	movq	%rdi, 368(%rsp)
	movw	$16384, 376(%rsp)
	movq	$0, 384(%rsp)
	movq	$0, 378(%rsp)
	movq	%r8, 392(%rsp)
	movq	%rax, 400(%rsp)
	movq	%r15, 408(%rsp)
	movq	%rsi, 416(%rsp)
	movq	%r14, 424(%rsp)
	movq	%rdx, 432(%rsp)
	vmovups	%xmm0, 449(%rsp)
	vmovups	%xmm0, 440(%rsp)
	movb	$2, 465(%rsp)
	movw	$0, 466(%rsp)
	movl	%eax, 468(%rsp)
	movq	%r10, 472(%rsp)
	movw	$16384, 480(%rsp)
	movl	$0, 482(%rsp)
	movw	$0, 486(%rsp)
	movb	$1, 488(%rsp)
	movl	$0, 492(%rsp)
	movl	$0, 489(%rsp)
	movq	%rcx, 496(%rsp)
	movq	%rax, 504(%rsp)
	leaq	2528(%rsp), %rbx
	leaq	96(%rsp), %rdx
	movl	$64, %esi
	movq	%rbx, %rdi
	callq	blake2_compress..many..blake2b..outputs..64_1_v4
	leaq	1592(%rsp), %rsi
	leaq	2112(%rsp), %r14
	movl	$280, %edx
	movq	%r14, %rdi
	vj_c_call	memcpy
	leaq	2256(%rsp), %rdi
	movq	2384(%rsp), %rsi
	movl	$256, %ecx
	movq	%rbx, %rdx
	movq	%r14, %r8
	callq	blake2_digest..buffer..digest_into..33c1e97afcdf8a5d_1_v4
	movq	%rax, 2384(%rsp)
	movb	$1, 2248(%rsp)
	leaq	96(%rsp), %rbx
	movl	$280, %edx
	movq	%rbx, %rdi
	movq	%r14, %rsi
	vj_c_call	memcpy
	leaq	240(%rsp), %rsi
	movq	368(%rsp), %rdx
	movq	224(%rsp), %r14
	addq	%rdx, %r14
	movq	%r14, 224(%rsp)
	vxorps	%xmm0, %xmm0, %xmm0
	vmovaps	%ymm0, 2400(%rsp)
	vmovaps	%ymm0, 2432(%rsp)
	vmovaps	%ymm0, 2464(%rsp)
	vmovaps	%ymm0, 2496(%rsp)
	leaq	2400(%rsp), %r15
	movq	%r15, %rdi
	vzeroupper
	vj_c_call	memcpy
	vxorps	%xmm0, %xmm0, %xmm0
	vmovups	%ymm0, 240(%rsp)
	vmovups	%ymm0, 272(%rsp)
	vmovups	%ymm0, 304(%rsp)
	vmovups	%ymm0, 336(%rsp)
	movq	$0, 368(%rsp)
	movl	232(%rsp), %r8d
	movq	%rbx, %rdi
	movq	%r15, %rsi
	movq	%r14, %rdx
	movl	$1, %ecx
	vzeroupper
	vj_call	blake2_compress..compress..blake2b..compress_1_v4
	vmovups	96(%rsp), %ymm0
	jmp	13f
3:
	vxorps	%xmm0, %xmm0, %xmm0
	vmovaps	%xmm0, 64(%rsp)
	leaq	64(%rsp), %rdi
	movq	%r8, %rsi
	movq	512(%rsp), %r12
	movq	%r12, %rdx
	movq	%rcx, %r14
	vj_c_call	memcpy
	vxorps	%xmm0, %xmm0, %xmm0
	vmovaps	%xmm0, 16(%rsp)
	leaq	16(%rsp), %rdi
	movq	%r15, %rsi
	movq	%r14, %rdx
	vj_c_call	memcpy
	vmovaps	64(%rsp), %xmm0
	vmovaps	%xmm0, 1248(%rsp)
	movq	%r12, 1264(%rsp)
	leaq	1272(%rsp), %r13
	vmovaps	16(%rsp), %xmm0
	vmovups	%xmm0, 1272(%rsp)
	movq	%r14, 1288(%rsp)
	movl	32(%rbp), %r15d
	movl	%r15d, 1296(%rsp)
	vpxor	%xmm2, %xmm2, %xmm2
	vmovdqa	%ymm2, 608(%rsp)
	vmovd	%r15d, %xmm0
	vmovdqa	.L1_v4_CPI218_0(%rip), %ymm1
	vpermi2d	.L1_v4_CPI218_1(%rip), %ymm0, %ymm1
	movl	$0, 1300(%rsp)
	vpblendd	$12, %ymm2, %ymm1, %ymm0
	vmovdqa	%ymm0, 544(%rsp)
	vpblendd	$240, .L1_v4_CPI218_2(%rip), %ymm0, %ymm0
	vmovdqa	%ymm0, 576(%rsp)
	leaq	608(%rsp), %rdi
	leaq	1248(%rsp), %rbx
	movq	%rbx, %rsi
	movq	%r12, %rdx
	vzeroupper
	vj_c_call	memcpy
	leaq	624(%rsp), %rdi
	movq	%r13, %rsi
	movq	%r14, %rdx
	vj_c_call	memcpy
	vmovaps	.L1_v4_CPI218_3(%rip), %ymm0
	vxorps	608(%rsp), %ymm0, %ymm0
	vmovaps	%ymm0, 2016(%rsp)
	vmovaps	.L1_v4_CPI218_4(%rip), %ymm0
	vxorps	576(%rsp), %ymm0, %ymm0
	vmovaps	%ymm0, 576(%rsp)
	vxorps	%xmm0, %xmm0, %xmm0
	vmovaps	%ymm0, 608(%rsp)
	vmovaps	544(%rsp), %ymm0
	vblendps	$240, .L1_v4_CPI218_5(%rip), %ymm0, %ymm0
	vmovaps	%ymm0, 544(%rsp)
	leaq	608(%rsp), %rdi
	movq	%rbx, %rsi
	movq	%r12, %rdx
	vzeroupper
	vj_c_call	memcpy
	leaq	624(%rsp), %rdi
	movq	%r13, %rsi
	movq	%r14, %rdx
	vj_c_call	memcpy
	vmovaps	.L1_v4_CPI218_3(%rip), %ymm0
	vxorps	608(%rsp), %ymm0, %ymm0
	vmovaps	544(%rsp), %ymm1
	vxorps	.L1_v4_CPI218_4(%rip), %ymm1, %ymm1
	vmovaps	64(%rsp), %xmm2
	vmovaps	%xmm2, 608(%rsp)
	movq	%r12, 624(%rsp)
	vmovaps	16(%rsp), %xmm2
	vmovups	%xmm2, 632(%rsp)
	movq	%r14, 648(%rsp)
	movl	%r15d, 656(%rsp)
	movl	$0, 660(%rsp)
	movq	$0, 664(%rsp)
	vmovaps	576(%rsp), %ymm3
	vmovups	%ymm3, 672(%rsp)
	vmovaps	2016(%rsp), %ymm2
	vmovups	%ymm2, 704(%rsp)
	vmovups	%ymm3, 736(%rsp)
	vmovups	%ymm2, 768(%rsp)
	vxorps	%xmm2, %xmm2, %xmm2
	vmovups	%ymm2, 800(%rsp)
	vmovups	%ymm2, 832(%rsp)
	vmovups	%ymm2, 864(%rsp)
	vmovups	%ymm2, 896(%rsp)
	vmovups	%ymm2, 920(%rsp)
	vmovups	%ymm1, 952(%rsp)
	vmovups	%ymm0, 984(%rsp)
	vmovups	%ymm1, 1016(%rsp)
	vmovups	%ymm0, 1048(%rsp)
	vmovups	%ymm2, 1080(%rsp)
	vmovups	%ymm2, 1112(%rsp)
	vmovups	%ymm2, 1144(%rsp)
	vmovups	%ymm2, 1176(%rsp)
	vmovups	%ymm2, 1200(%rsp)
	movl	%r15d, %r13d
	leaq	(,%r13,4), %rax
	movq	32(%rsp), %r9
	cmpq	%r9, %rax
	jae	14f
	leaq	1504(%rsp), %r14
	xorl	%r12d, %r12d
	movq	8(%rsp), %rdx
	.p2align	4
4:
	movq	%r9, 32(%rsp)
	movq	%rdx, 8(%rsp)
	vxorps	%xmm0, %xmm0, %xmm0
	vmovups	%ymm0, 224(%r14)
	vmovups	%ymm0, 192(%r14)
	vmovups	%ymm0, 160(%r14)
	vmovups	%ymm0, 128(%r14)
	vmovups	%ymm0, 96(%r14)
	vmovups	%ymm0, 64(%r14)
	vmovups	%ymm0, 32(%r14)
	vmovups	%ymm0, (%r14)
	leaq	608(%rsp), %rdi
	leaq	1248(%rsp), %rbx
	movq	%r12, %rsi
	movq	%r9, %rcx
	movq	%rbx, %r8
	vzeroupper
	vj_call	blake2_tree..nodes..Nodes..hash_next_1_v4
	movq	%rax, %r12
	movl	656(%rsp), %r15d
	imulq	%rax, %r15
	movq	%rax, %rcx
	shlq	$6, %rcx
	movq	1224(%rsp), %rsi
	leaq	1096(%rsp), %rdi
	movq	%rbx, %rdx
	leaq	952(%rsp), %r8
	callq	blake2_digest..buffer..digest_into..33c1e97afcdf8a5d_1_v4
	movq	%rax, 1224(%rsp)
	addq	664(%rsp), %r12
	movq	%r12, 664(%rsp)
	movq	624(%rsp), %rdx
	movq	648(%rsp), %rbx
	movl	656(%rsp), %r13d
	vmovd	.L1_v4_CPI218_9(%rip), %xmm0
	vpunpckldq	656(%rsp), %xmm0, %xmm0
	vxorps	%xmm1, %xmm1, %xmm1
	vmovaps	%ymm1, 96(%rsp)
	vmovq	%r12, %xmm1
	vpunpcklqdq	%xmm1, %xmm0, %xmm0
	vpblendd	$240, .L1_v4_CPI218_2(%rip), %ymm0, %ymm0
	vmovdqa	%ymm0, 512(%rsp)
	leaq	96(%rsp), %rdi
	leaq	608(%rsp), %rsi
	vzeroupper
	vj_c_call	memcpy
	leaq	112(%rsp), %rdi
	leaq	632(%rsp), %rsi
	movq	%rbx, %rdx
	vj_c_call	memcpy
	movq	32(%rsp), %r9
	movq	8(%rsp), %rdx
	vmovaps	96(%rsp), %ymm0
	vmovaps	512(%rsp), %ymm1
	vxorps	.L1_v4_CPI218_4(%rip), %ymm1, %ymm1
	vxorps	.L1_v4_CPI218_3(%rip), %ymm0, %ymm0
	vmovups	%ymm1, 672(%rsp)
	vmovups	%ymm0, 704(%rsp)
	vmovups	%ymm1, 736(%rsp)
	vmovups	%ymm0, 768(%rsp)
	leaq	608(%rsp), %rax
	vxorps	%xmm0, %xmm0, %xmm0
	vmovups	%ymm0, 312(%rax)
	vmovups	%ymm0, 288(%rax)
	vmovups	%ymm0, 256(%rax)
	vmovups	%ymm0, 224(%rax)
	vmovups	%ymm0, 192(%rax)
	addq	%r15, %rdx
	subq	%r15, %r9
	leaq	(,%r13,4), %rax
	cmpq	%r9, %rax
	jb	4b
	cmpq	%rax, %r9
	jne	15f
5:
	leaq	608(%rsp), %rsi
	movq	%rdx, %rbx
	movl	$624, %edx
	leaq	1248(%rsp), %r15
	movq	%r15, %rdi
	vzeroupper
	vj_c_call	memcpy
	movq	1304(%rsp), %r10
	movl	1296(%rsp), %eax
	movq	1264(%rsp), %rsi
	movq	1288(%rsp), %rdx
	leaq	1(%r10), %r11
	leaq	(%rbx,%rax), %r9
	leaq	2(%r10), %rdi
	leaq	(%rax,%rax,2), %rcx
	movq	%r15, 96(%rsp)
	movq	%rsi, 104(%rsp)
	leaq	1272(%rsp), %r14
	movq	%r14, 112(%rsp)
	movq	%rdx, 120(%rsp)
	vxorps	%xmm0, %xmm0, %xmm0
	vmovups	%xmm0, 128(%rsp)
	leaq	(%rbx,%rax,2), %r8
	vmovups	%xmm0, 137(%rsp)
	movb	$2, 153(%rsp)
	movw	$0, 154(%rsp)
	movl	%eax, 156(%rsp)
	movq	%r10, 160(%rsp)
	movw	$16384, 168(%rsp)
	movq	$0, 170(%rsp)
	movq	$0, 176(%rsp)
	movq	%rbx, 184(%rsp)
	movq	%rax, 192(%rsp)
	movq	%r15, 200(%rsp)
	movq	%rsi, 208(%rsp)
	movq	%r14, 216(%rsp)
	movq	%rdx, 224(%rsp)
	vmovups	%xmm0, 241(%rsp)
	vmovups	%xmm0, 232(%rsp)
	leaq	3(%r10), %r10
	movb	$2, 257(%rsp)
	movw	$0, 258(%rsp)
	movl	%eax, 260(%rsp)
	movq	%r11, 264(%rsp)
	movw	$16384, 272(%rsp)
	movq	$0, 280(%rsp)
	movq	$0, 274(%rsp)
	movq	%r9, 288(%rsp)
	movq	%rax, 296(%rsp)
	movq	%r15, 304(%rsp)
	movq	%rsi, 312(%rsp)
	movq	%r14, 320(%rsp)
	movq	%rdx, 328(%rsp)
	vmovups	%xmm0, 345(%rsp)
	addq	%rbx, %rcx
	vmovups	%xmm0, 336(%rsp)
	movb	$2, 361(%rsp)
	movw	$0, 362(%rsp)
	movl	%eax, 364(%rsp)
	movq	%rdi, 368(%rsp)
	movw	$16384, 376(%rsp)
	movq	$0, 384(%rsp)
	movq	$0, 378(%rsp)
	movq	%r8, 392(%rsp)
	movq	%rax, 400(%rsp)
	movq	%r15, 408(%rsp)
	movq	%rsi, 416(%rsp)
	movq	%r14, 424(%rsp)
	movq	%rdx, 432(%rsp)
	vmovups	%xmm0, 449(%rsp)
	vmovups	%xmm0, 440(%rsp)
	movb	$2, 465(%rsp)
	movw	$0, 466(%rsp)
	movl	%eax, 468(%rsp)
	movq	%r10, 472(%rsp)
	movw	$16384, 480(%rsp)
	movl	$0, 482(%rsp)
	movw	$0, 486(%rsp)
	movb	$1, 488(%rsp)
	movl	$0, 492(%rsp)
	movl	$0, 489(%rsp)
	movq	%rcx, 496(%rsp)
	movq	%rax, 504(%rsp)
	leaq	2528(%rsp), %rbx
	leaq	96(%rsp), %rdx
	movl	$64, %esi
	movq	%rbx, %rdi
	callq	blake2_compress..many..blake2b..outputs..64_1_v4
	leaq	1592(%rsp), %rsi
	leaq	2112(%rsp), %r14
	movl	$280, %edx
	movq	%r14, %rdi
	vj_c_call	memcpy
	leaq	2256(%rsp), %rdi
	movq	2384(%rsp), %rsi
	movl	$256, %ecx
	movq	%rbx, %rdx
	movq	%r14, %r8
	callq	blake2_digest..buffer..digest_into..33c1e97afcdf8a5d_1_v4
	movq	%rax, 2384(%rsp)
	movb	$1, 2248(%rsp)
	leaq	96(%rsp), %rbx
	movl	$280, %edx
	movq	%rbx, %rdi
	movq	%r14, %rsi
	vj_c_call	memcpy
	leaq	240(%rsp), %rsi
	movq	368(%rsp), %rdx
	movq	224(%rsp), %r14
	addq	%rdx, %r14
	movq	%r14, 224(%rsp)
	vxorps	%xmm0, %xmm0, %xmm0
	vmovaps	%ymm0, 2400(%rsp)
	vmovaps	%ymm0, 2432(%rsp)
	vmovaps	%ymm0, 2464(%rsp)
	vmovaps	%ymm0, 2496(%rsp)
	leaq	2400(%rsp), %r15
	movq	%r15, %rdi
	vzeroupper
	vj_c_call	memcpy
	vxorps	%xmm0, %xmm0, %xmm0
	vmovups	%ymm0, 240(%rsp)
	vmovups	%ymm0, 272(%rsp)
	vmovups	%ymm0, 304(%rsp)
	vmovups	%ymm0, 336(%rsp)
	movq	$0, 368(%rsp)
	movl	232(%rsp), %r8d
	movq	%rbx, %rdi
	movq	%r15, %rsi
	movq	%r14, %rdx
	movl	$1, %ecx
	vzeroupper
	vj_call	blake2_compress..compress..blake2b..compress_1_v4
	vmovups	96(%rsp), %ymm0
	vmovups	128(%rsp), %ymm1
	jmp	20f
6:
	vmovaps	%xmm0, 2112(%rsp)
	leaq	2112(%rsp), %rdi
	movq	%rsi, %r14
	movq	%r8, %rsi
	movq	512(%rsp), %r12
	movq	%r12, %rdx
	movq	%r8, 2016(%rsp)
	vj_c_call	memcpy
	vxorps	%xmm0, %xmm0, %xmm0
	vmovaps	%xmm0, 96(%rsp)
	leaq	96(%rsp), %rdi
	movq	%r15, %rsi
	movq	%rbx, %rdx
	vj_c_call	memcpy
	vmovaps	2112(%rsp), %xmm0
	vmovaps	%xmm0, 1248(%rsp)
	movq	%r12, 1264(%rsp)
	vmovaps	96(%rsp), %xmm0
	vmovups	%xmm0, 1272(%rsp)
	leaq	1272(%rsp), %r13
	movq	%rbx, 1288(%rsp)
	movl	32(%rbp), %ebx
	movl	%ebx, 1296(%rsp)
	movl	$0, 1300(%rsp)
	vxorps	%xmm0, %xmm0, %xmm0
	vmovaps	%ymm0, 608(%rsp)
	vpbroadcastd	%ebx, %xmm0
	vmovdqa	%ymm0, 2080(%rsp)
	vpblendd	$253, .L1_v4_CPI218_1(%rip), %ymm0, %ymm0
	movw	$496, %ax
	kmovd	%eax, %k1
	kmovw	%k1, 2048(%rsp)
	vmovdqu16	.L1_v4_CPI218_6(%rip), %ymm0 {%k1}
	vmovdqa	%ymm0, 544(%rsp)
	leaq	608(%rsp), %rdi
	leaq	1248(%rsp), %rsi
	movq	%r12, %rdx
	vzeroupper
	vj_c_call	memcpy
	leaq	624(%rsp), %rdi
	movq	%r13, %rsi
	movq	24(%rbp), %rbx
	movq	%rbx, %rdx
	vj_c_call	memcpy
	vmovaps	.L1_v4_CPI218_3(%rip), %ymm0
	vxorps	608(%rsp), %ymm0, %ymm0
	vmovaps	%ymm0, 576(%rsp)
	vmovaps	544(%rsp), %ymm0
	vxorps	.L1_v4_CPI218_4(%rip), %ymm0, %ymm0
	vmovaps	%ymm0, 544(%rsp)
	vxorps	%xmm0, %xmm0, %xmm0
	vmovaps	%ymm0, 608(%rsp)
	movl	%r14d, %eax
	orl	$33554432, %eax
	vmovd	%eax, %xmm0
	vmovq	%xmm0, %xmm0
	vpblendd	$2, 2080(%rsp), %ymm0, %ymm0
	kmovw	2048(%rsp), %k1
	vmovdqu16	.L1_v4_CPI218_8(%rip), %ymm0 {%k1}
	vmovdqa	%ymm0, 2048(%rsp)
	leaq	608(%rsp), %rdi
	leaq	1248(%rsp), %rsi
	movq	%r12, %rdx
	vzeroupper
	vj_c_call	memcpy
	leaq	624(%rsp), %rdi
	movq	%r13, %rsi
	movq	%rbx, %rdx
	movq	%rbx, %r13
	vj_c_call	memcpy
	vmovaps	.L1_v4_CPI218_3(%rip), %ymm0
	vxorps	608(%rsp), %ymm0, %ymm0
	vmovaps	%ymm0, 2080(%rsp)
	vmovaps	2048(%rsp), %ymm0
	vxorps	.L1_v4_CPI218_4(%rip), %ymm0, %ymm0
	vmovaps	%ymm0, 2048(%rsp)
	movl	32(%rbp), %ebx
	vxorps	%xmm0, %xmm0, %xmm0
	vmovaps	%xmm0, 16(%rsp)
	leaq	16(%rsp), %rdi
	movq	2016(%rsp), %rsi
	movq	%r12, %rdx
	vzeroupper
	vj_c_call	memcpy
	vxorps	%xmm0, %xmm0, %xmm0
	vmovaps	%xmm0, 2400(%rsp)
	leaq	2400(%rsp), %rdi
	movq	%r15, %rsi
	movq	%r13, %rdx
	vj_c_call	memcpy
	vmovaps	16(%rsp), %xmm0
	vmovaps	%xmm0, 2528(%rsp)
	vmovaps	2400(%rsp), %xmm0
	vmovaps	%xmm0, 2544(%rsp)
	vmovaps	544(%rsp), %ymm1
	vmovups	%ymm1, 1248(%rsp)
	vmovaps	576(%rsp), %ymm0
	vmovups	%ymm0, 1280(%rsp)
	vmovups	%ymm1, 1312(%rsp)
	vmovups	%ymm0, 1344(%rsp)
	vxorps	%xmm1, %xmm1, %xmm1
	vmovups	%xmm1, 1376(%rsp)
	movl	$64, 1392(%rsp)
	vxorps	%xmm0, %xmm0, %xmm0
	vmovups	%ymm0, 1396(%rsp)
	vmovups	%ymm0, 1428(%rsp)
	vmovups	%ymm0, 1460(%rsp)
	vmovups	%ymm0, 1492(%rsp)
	vmovups	%ymm0, 1524(%rsp)
	vmovups	%ymm0, 1556(%rsp)
	movl	$0, 1588(%rsp)
	vmovaps	2048(%rsp), %ymm3
	vmovups	%ymm3, 1592(%rsp)
	vmovaps	2080(%rsp), %ymm2
	vmovups	%ymm2, 1624(%rsp)
	vmovups	%ymm3, 1656(%rsp)
	vmovups	%ymm2, 1688(%rsp)
	vmovups	%xmm1, 1720(%rsp)
	movl	%r14d, 1736(%rsp)
	vmovups	%ymm0, 1740(%rsp)
	vmovups	%ymm0, 1772(%rsp)
	vmovups	%ymm0, 1804(%rsp)
	vmovups	%ymm0, 1836(%rsp)
	vmovups	%ymm0, 1868(%rsp)
	vmovups	%ymm0, 1900(%rsp)
	vmovups	%ymm0, 1912(%rsp)
	movq	%rbx, 1944(%rsp)
	movq	%r12, 1952(%rsp)
	movq	%r13, 1960(%rsp)
	vmovups	2528(%rsp), %ymm0
	vmovups	%ymm0, 1968(%rsp)
	leaq	1248(%rsp), %rdi
	movq	8(%rsp), %rsi
	movq	32(%rsp), %rdx
	vzeroupper
	callq	blake2_state..tree..TreeState..update_1_v4
	vmovups	1248(%rsp), %ymm0
	vmovups	1280(%rsp), %ymm1
	vmovups	1312(%rsp), %ymm2
	vmovups	1344(%rsp), %ymm3
	vmovaps	%ymm0, 608(%rsp)
	vmovaps	%ymm1, 640(%rsp)
	vmovaps	%ymm2, 672(%rsp)
	vmovaps	%ymm3, 704(%rsp)
	vmovups	1376(%rsp), %xmm0
	movl	1392(%rsp), %eax
	vmovaps	%xmm0, 736(%rsp)
	movl	%eax, 752(%rsp)
	vmovups	1400(%rsp), %ymm0
	vmovups	%ymm0, 760(%rsp)
	vmovups	1432(%rsp), %ymm0
	vmovups	%ymm0, 792(%rsp)
	vmovups	1464(%rsp), %ymm0
	vmovups	%ymm0, 824(%rsp)
	vmovups	1496(%rsp), %ymm0
	vmovups	%ymm0, 856(%rsp)
	vmovups	1528(%rsp), %ymm0
	vmovups	1560(%rsp), %ymm1
	vmovups	1592(%rsp), %ymm2
	vmovups	1624(%rsp), %ymm3
	vmovups	%ymm1, 920(%rsp)
	vmovups	%ymm0, 888(%rsp)
	vmovaps	%ymm2, 96(%rsp)
	vmovaps	%ymm3, 128(%rsp)
	vmovups	1656(%rsp), %ymm0
	vmovaps	%ymm0, 160(%rsp)
	vmovups	1688(%rsp), %ymm0
	vmovaps	%ymm0, 192(%rsp)
	movq	1720(%rsp), %rax
	movq	%rax, 224(%rsp)
	vmovups	1728(%rsp), %xmm0
	vmovups	%xmm0, 232(%rsp)
	vmovups	1840(%rsp), %ymm0
	vmovups	%ymm0, 344(%rsp)
	movl	$1, 756(%rsp)
	vmovups	1808(%rsp), %ymm0
	vmovups	%ymm0, 312(%rsp)
	vmovups	1776(%rsp), %ymm0
	vmovups	%ymm0, 280(%rsp)
	vmovups	1744(%rsp), %ymm0
	vmovups	%ymm0, 248(%rsp)
	vmovups	1872(%rsp), %ymm0
	vmovups	1904(%rsp), %ymm1
	vmovups	%ymm1, 408(%rsp)
	vmovups	%ymm0, 376(%rsp)
	vxorps	%xmm0, %xmm0, %xmm0
	vmovaps	%ymm0, 2144(%rsp)
	vmovaps	%ymm0, 2112(%rsp)
	leaq	608(%rsp), %rdi
	leaq	2112(%rsp), %rbx
	movq	%rbx, %rsi
	vzeroupper
	callq	blake2_state..blake2b..State..write_digest_1_v4
	leaq	96(%rsp), %r14
	movl	$64, %edx
	movq	%r14, %rdi
	movq	%rbx, %rsi
	callq	blake2_state..blake2b..State..absorb_blocks_1_v4
	movl	$1, 244(%rsp)
	movq	%r14, %rdi
	movq	88(%rsp), %rsi
	callq	blake2_state..blake2b..State..write_digest_1_v4
	jmp	21f
7:
	movq	8(%rsp), %rdx
	cmpq	%rax, %r9
	je	2b
8:
	xorl	%esi, %esi
	cmpq	%r9, %r13
	jae	12f
	xorl	%eax, %eax
	movq	%r13, %rcx
	jmp	11f
	.p2align	4
9:
	leaq	816(%rsp), %rdi
	movq	%r13, %rcx
	leaq	672(%rsp), %r14
	movq	%r14, %r8
	movq	%r9, %r12
	vzeroupper
	callq	blake2_digest..buffer..digest_into..33c1e97afcdf8a5d_1_v4
	movq	%rax, 944(%rsp)
	movq	664(%rsp), %rax
	incq	%rax
	movq	624(%rsp), %rdx
	vmovd	.L1_v4_CPI218_9(%rip), %xmm0
	vpunpckldq	656(%rsp), %xmm0, %xmm0
	movq	648(%rsp), %rbx
	vxorps	%xmm1, %xmm1, %xmm1
	vmovaps	%ymm1, 1248(%rsp)
	vmovq	%rax, %xmm1
	vpunpcklqdq	%xmm1, %xmm0, %xmm0
	vpblendd	$240, .L1_v4_CPI218_2(%rip), %ymm0, %ymm0
	vmovdqa	%ymm0, 32(%rsp)
	leaq	1248(%rsp), %rdi
	leaq	608(%rsp), %rsi
	vzeroupper
	vj_c_call	memcpy
	leaq	1264(%rsp), %rdi
	leaq	632(%rsp), %rsi
	movq	%rbx, %rdx
	vj_c_call	memcpy
	vmovaps	1248(%rsp), %ymm0
	vmovaps	32(%rsp), %ymm1
	vxorps	.L1_v4_CPI218_4(%rip), %ymm1, %ymm1
	vmovaps	%ymm1, 32(%rsp)
	vxorps	.L1_v4_CPI218_3(%rip), %ymm0, %ymm0
	vmovaps	%ymm0, 512(%rsp)
	leaq	1248(%rsp), %rdi
	movl	$280, %edx
	movq	%r14, %rsi
	vzeroupper
	vj_c_call	memcpy
	vmovaps	32(%rsp), %ymm0
	vmovups	%ymm0, 672(%rsp)
	vmovaps	512(%rsp), %ymm1
	vmovups	%ymm1, 704(%rsp)
	vmovups	%ymm0, 736(%rsp)
	vmovups	%ymm1, 768(%rsp)
	leaq	608(%rsp), %rax
	vxorps	%xmm0, %xmm0, %xmm0
	vmovups	%ymm0, 192(%rax)
	vmovups	%ymm0, 224(%rax)
	vmovups	%ymm0, 256(%rax)
	vmovups	%ymm0, 288(%rax)
	vmovups	%ymm0, 312(%rax)
	movq	1520(%rsp), %rdx
	movq	1376(%rsp), %rbx
	addq	%rdx, %rbx
	movq	%rbx, 1376(%rsp)
	vmovaps	%ymm0, 96(%rsp)
	vmovaps	%ymm0, 128(%rsp)
	vmovaps	%ymm0, 160(%rsp)
	vmovaps	%ymm0, 192(%rsp)
	leaq	96(%rsp), %r14
	movq	%r14, %rdi
	leaq	1392(%rsp), %r15
	movq	%r15, %rsi
	vzeroupper
	vj_c_call	memcpy
	vxorps	%xmm0, %xmm0, %xmm0
	vmovups	%ymm0, (%r15)
	vmovups	%ymm0, 32(%r15)
	vmovups	%ymm0, 64(%r15)
	vmovups	%ymm0, 96(%r15)
	movq	$0, 128(%r15)
	movl	1384(%rsp), %r8d
	leaq	1248(%rsp), %rdi
	movq	%r14, %rsi
	movq	%rbx, %rdx
	movl	$1, %ecx
	vzeroupper
	vj_call	blake2_compress..compress..blake2b..compress_1_v4
	vmovups	1248(%rsp), %ymm0
	vmovups	1280(%rsp), %ymm1
	vmovups	%ymm0, 1248(%rsp)
	vmovups	%ymm1, 1280(%rsp)
	movq	1224(%rsp), %rsi
	leaq	1248(%rsp), %rdx
	movl	$64, %ecx
	leaq	1096(%rsp), %rdi
	leaq	952(%rsp), %r8
	vzeroupper
	callq	blake2_digest..buffer..digest_into..33c1e97afcdf8a5d_1_v4
	movq	%rax, 1224(%rsp)
	movq	664(%rsp), %r15
	incq	%r15
	movq	%r15, 664(%rsp)
	movl	656(%rsp), %r14d
	movq	800(%rsp), %rax
	movq	944(%rsp), %rsi
10:
	subq	%r13, %r12
	movq	8(%rsp), %rdi
	addq	%r13, %rdi
	movl	%r14d, %ecx
	movq	%rcx, %r13
	subq	%rax, %r13
	subq	%rsi, %r13
	cmpq	%r12, %r13
	movq	%rdi, %rdx
	movq	%r12, %r9
	jae	12f
11:
	addq	%rsi, %rax
	movq	%rdx, 8(%rsp)
	jne	9b
	shlq	$2, %rcx
	cmpq	%r9, %rcx
	jae	9b
	vxorps	%xmm0, %xmm0, %xmm0
	leaq	1392(%rsp), %rax
	vmovups	%ymm0, 336(%rax)
	vmovups	%ymm0, 304(%rax)
	vmovups	%ymm0, 272(%rax)
	vmovups	%ymm0, 240(%rax)
	vmovups	%ymm0, 208(%rax)
	vmovups	%ymm0, 176(%rax)
	vmovups	%ymm0, 144(%rax)
	vmovups	%ymm0, 112(%rax)
	leaq	608(%rsp), %rdi
	leaq	1248(%rsp), %rbx
	movq	%r15, %rsi
	movq	%r9, %rcx
	movq	%rbx, %r8
	movq	%r9, %r12
	vzeroupper
	vj_call	blake2_tree..nodes..Nodes..hash_next_1_v4
	movq	%rax, %r15
	movl	656(%rsp), %r13d
	imulq	%rax, %r13
	movq	%rax, %rcx
	shlq	$6, %rcx
	movq	1224(%rsp), %rsi
	leaq	1096(%rsp), %rdi
	movq	%rbx, %rdx
	leaq	952(%rsp), %r8
	callq	blake2_digest..buffer..digest_into..33c1e97afcdf8a5d_1_v4
	movq	%rax, 1224(%rsp)
	addq	664(%rsp), %r15
	movq	%r15, 664(%rsp)
	movq	624(%rsp), %rdx
	vmovd	.L1_v4_CPI218_9(%rip), %xmm0
	vpunpckldq	656(%rsp), %xmm0, %xmm0
	movq	648(%rsp), %rbx
	movl	656(%rsp), %r14d
	vxorps	%xmm1, %xmm1, %xmm1
	vmovaps	%ymm1, 96(%rsp)
	vmovq	%r15, %xmm1
	vpunpcklqdq	%xmm1, %xmm0, %xmm0
	vpblendd	$240, .L1_v4_CPI218_2(%rip), %ymm0, %ymm0
	vmovdqa	%ymm0, 32(%rsp)
	leaq	96(%rsp), %rdi
	leaq	608(%rsp), %rsi
	vzeroupper
	vj_c_call	memcpy
	leaq	112(%rsp), %rdi
	leaq	632(%rsp), %rsi
	movq	%rbx, %rdx
	vj_c_call	memcpy
	vmovaps	96(%rsp), %ymm0
	vmovaps	32(%rsp), %ymm1
	vxorps	.L1_v4_CPI218_4(%rip), %ymm1, %ymm1
	vxorps	.L1_v4_CPI218_3(%rip), %ymm0, %ymm0
	vmovups	%ymm1, 672(%rsp)
	vmovups	%ymm0, 704(%rsp)
	vmovups	%ymm1, 736(%rsp)
	vmovups	%ymm0, 768(%rsp)
	leaq	608(%rsp), %rax
	vxorps	%xmm0, %xmm0, %xmm0
	vmovups	%ymm0, 312(%rax)
	vmovups	%ymm0, 288(%rax)
	vmovups	%ymm0, 256(%rax)
	vmovups	%ymm0, 224(%rax)
	vmovups	%ymm0, 192(%rax)
	xorl	%esi, %esi
	xorl	%eax, %eax
	jmp	10b
12:
	leaq	816(%rsp), %rdi
	movq	%r9, %rcx
	leaq	672(%rsp), %rbx
	movq	%rbx, %r8
	vzeroupper
	callq	blake2_digest..buffer..digest_into..33c1e97afcdf8a5d_1_v4
	movq	%rax, 944(%rsp)
	movq	128(%rbx), %rax
	movq	%rax, 1376(%rsp)
	vmovups	(%rbx), %ymm0
	vmovups	32(%rbx), %ymm1
	vmovups	64(%rbx), %ymm2
	vmovups	96(%rbx), %ymm3
	vmovaps	%ymm3, 1344(%rsp)
	vmovaps	%ymm2, 1312(%rsp)
	vmovaps	%ymm1, 1280(%rsp)
	vmovaps	%ymm0, 1248(%rsp)
	vmovups	809(%rsp), %ymm0
	vmovups	841(%rsp), %ymm1
	vmovups	873(%rsp), %ymm2
	vmovups	905(%rsp), %ymm3
	vmovups	%ymm0, 1385(%rsp)
	vmovups	%ymm1, 1417(%rsp)
	vmovups	%ymm2, 1449(%rsp)
	vmovups	%ymm3, 1481(%rsp)
	vmovups	920(%rsp), %xmm0
	vmovups	%xmm0, 1496(%rsp)
	movq	936(%rsp), %rax
	movq	%rax, 1512(%rsp)
	movq	944(%rsp), %rax
	movq	%rax, 1520(%rsp)
	leaq	96(%rsp), %rbx
	movl	$280, %edx
	movq	%rbx, %rdi
	leaq	952(%rsp), %rsi
	vzeroupper
	vj_c_call	memcpy
	movb	$1, 1384(%rsp)
	leaq	1392(%rsp), %rsi
	movq	1520(%rsp), %rdx
	movq	1376(%rsp), %r14
	addq	%rdx, %r14
	movq	%r14, 1376(%rsp)
	vxorps	%xmm0, %xmm0, %xmm0
	vmovaps	%ymm0, 2112(%rsp)
	vmovaps	%ymm0, 2144(%rsp)
	vmovaps	%ymm0, 2176(%rsp)
	vmovaps	%ymm0, 2208(%rsp)
	leaq	2112(%rsp), %r15
	movq	%r15, %rdi
	vzeroupper
	vj_c_call	memcpy
	vxorps	%xmm0, %xmm0, %xmm0
	vmovups	%ymm0, 1392(%rsp)
	vmovups	%ymm0, 1424(%rsp)
	vmovups	%ymm0, 1456(%rsp)
	vmovups	%ymm0, 1488(%rsp)
	movq	$0, 1520(%rsp)
	leaq	1248(%rsp), %rdi
	movq	%r15, %rsi
	movq	%r14, %rdx
	movl	$1, %ecx
	movl	$1, %r8d
	vzeroupper
	vj_call	blake2_compress..compress..blake2b..compress_1_v4
	vmovaps	1248(%rsp), %ymm0
	vmovaps	1280(%rsp), %ymm1
	vmovups	%ymm0, 2528(%rsp)
	vmovups	%ymm1, 2560(%rsp)
	leaq	240(%rsp), %rdi
	movq	368(%rsp), %rsi
	leaq	2528(%rsp), %rdx
	movl	$64, %ecx
	movq	%rbx, %r8
	vzeroupper
	callq	blake2_digest..buffer..digest_into..33c1e97afcdf8a5d_1_v4
	movq	%rax, 368(%rsp)
	movb	$1, 232(%rsp)
	leaq	1248(%rsp), %r14
	movl	$280, %edx
	movq	%r14, %rdi
	movq	%rbx, %rsi
	vj_c_call	memcpy
	leaq	1392(%rsp), %rsi
	movq	1520(%rsp), %rdx
	movq	1376(%rsp), %rbx
	addq	%rdx, %rbx
	movq	%rbx, 1376(%rsp)
	vxorps	%xmm0, %xmm0, %xmm0
	vmovaps	%ymm0, 2112(%rsp)
	vmovaps	%ymm0, 2144(%rsp)
	vmovaps	%ymm0, 2176(%rsp)
	vmovaps	%ymm0, 2208(%rsp)
	leaq	2112(%rsp), %r15
	movq	%r15, %rdi
	vzeroupper
	vj_c_call	memcpy
	vxorps	%xmm0, %xmm0, %xmm0
	vmovups	%ymm0, 1392(%rsp)
	vmovups	%ymm0, 1424(%rsp)
	vmovups	%ymm0, 1456(%rsp)
	vmovups	%ymm0, 1488(%rsp)
	movq	$0, 1520(%rsp)
	movl	1384(%rsp), %r8d
	movq	%r14, %rdi
	movq	%r15, %rsi
	movq	%rbx, %rdx
	movl	$1, %ecx
	vzeroupper
	vj_call	blake2_compress..compress..blake2b..compress_1_v4
	vmovups	1248(%rsp), %ymm0
13:
	movq	88(%rsp), %rax
	vmovups	%ymm0, (%rax)
	jmp	21f
14:
	xorl	%r12d, %r12d
	movq	8(%rsp), %rdx
	cmpq	%rax, %r9
	je	5b
15:
	xorl	%esi, %esi
	cmpq	%r9, %r13
	jae	19f
	xorl	%eax, %eax
	movq	%r13, %rcx
	jmp	18f
	.p2align	4
16:
	leaq	816(%rsp), %rdi
	movq	%r13, %rcx
	leaq	672(%rsp), %r12
	movq	%r12, %r8
	movq	%r9, %r15
	vzeroupper
	callq	blake2_digest..buffer..digest_into..33c1e97afcdf8a5d_1_v4
	movq	%rax, 944(%rsp)
	movq	664(%rsp), %rax
	incq	%rax
	movq	624(%rsp), %rdx
	vmovd	.L1_v4_CPI218_9(%rip), %xmm0
	vpunpckldq	656(%rsp), %xmm0, %xmm0
	movq	648(%rsp), %rbx
	vxorps	%xmm1, %xmm1, %xmm1
	vmovaps	%ymm1, 1248(%rsp)
	vmovq	%rax, %xmm1
	vpunpcklqdq	%xmm1, %xmm0, %xmm0
	vpblendd	$240, .L1_v4_CPI218_2(%rip), %ymm0, %ymm0
	vmovdqa	%ymm0, 32(%rsp)
	leaq	1248(%rsp), %rdi
	leaq	608(%rsp), %rsi
	vzeroupper
	vj_c_call	memcpy
	leaq	1264(%rsp), %rdi
	leaq	632(%rsp), %rsi
	movq	%rbx, %rdx
	vj_c_call	memcpy
	vmovaps	1248(%rsp), %ymm0
	vmovaps	32(%rsp), %ymm1
	vxorps	.L1_v4_CPI218_4(%rip), %ymm1, %ymm1
	vmovaps	%ymm1, 32(%rsp)
	vxorps	.L1_v4_CPI218_3(%rip), %ymm0, %ymm0
	vmovaps	%ymm0, 512(%rsp)
	leaq	1248(%rsp), %rdi
	movl	$280, %edx
	movq	%r12, %rsi
	vzeroupper
	vj_c_call	memcpy
	vmovaps	32(%rsp), %ymm0
	vmovups	%ymm0, 672(%rsp)
	vmovaps	512(%rsp), %ymm1
	vmovups	%ymm1, 704(%rsp)
	vmovups	%ymm0, 736(%rsp)
	vmovups	%ymm1, 768(%rsp)
	leaq	608(%rsp), %rax
	vxorps	%xmm0, %xmm0, %xmm0
	vmovups	%ymm0, 192(%rax)
	vmovups	%ymm0, 224(%rax)
	vmovups	%ymm0, 256(%rax)
	vmovups	%ymm0, 288(%rax)
	vmovups	%ymm0, 312(%rax)
	movq	1520(%rsp), %rdx
	movq	1376(%rsp), %rbx
	addq	%rdx, %rbx
	movq	%rbx, 1376(%rsp)
	vmovaps	%ymm0, 96(%rsp)
	vmovaps	%ymm0, 128(%rsp)
	vmovaps	%ymm0, 160(%rsp)
	vmovaps	%ymm0, 192(%rsp)
	leaq	96(%rsp), %r12
	movq	%r12, %rdi
	leaq	1392(%rsp), %r14
	movq	%r14, %rsi
	vzeroupper
	vj_c_call	memcpy
	vxorps	%xmm0, %xmm0, %xmm0
	vmovups	%ymm0, (%r14)
	vmovups	%ymm0, 32(%r14)
	vmovups	%ymm0, 64(%r14)
	vmovups	%ymm0, 96(%r14)
	movq	$0, 128(%r14)
	movl	1384(%rsp), %r8d
	leaq	1248(%rsp), %rdi
	movq	%r12, %rsi
	movq	%rbx, %rdx
	movl	$1, %ecx
	vzeroupper
	vj_call	blake2_compress..compress..blake2b..compress_1_v4
	vmovups	1248(%rsp), %ymm0
	vmovups	1280(%rsp), %ymm1
	vmovups	%ymm0, 1248(%rsp)
	vmovups	%ymm1, 1280(%rsp)
	movq	1224(%rsp), %rsi
	leaq	1248(%rsp), %rdx
	movl	$64, %ecx
	leaq	1096(%rsp), %rdi
	leaq	952(%rsp), %r8
	vzeroupper
	callq	blake2_digest..buffer..digest_into..33c1e97afcdf8a5d_1_v4
	movq	%rax, 1224(%rsp)
	movq	664(%rsp), %r12
	incq	%r12
	movq	%r12, 664(%rsp)
	movl	656(%rsp), %r14d
	movq	800(%rsp), %rax
	movq	944(%rsp), %rsi
17:
	subq	%r13, %r15
	movq	8(%rsp), %rdi
	addq	%r13, %rdi
	movl	%r14d, %ecx
	movq	%rcx, %r13
	subq	%rax, %r13
	subq	%rsi, %r13
	cmpq	%r15, %r13
	movq	%rdi, %rdx
	movq	%r15, %r9
	jae	19f
18:
	addq	%rsi, %rax
	movq	%rdx, 8(%rsp)
	jne	16b
	shlq	$2, %rcx
	cmpq	%r9, %rcx
	jae	16b
	vxorps	%xmm0, %xmm0, %xmm0
	leaq	1392(%rsp), %rax
	vmovups	%ymm0, 336(%rax)
	vmovups	%ymm0, 304(%rax)
	vmovups	%ymm0, 272(%rax)
	vmovups	%ymm0, 240(%rax)
	vmovups	%ymm0, 208(%rax)
	vmovups	%ymm0, 176(%rax)
	vmovups	%ymm0, 144(%rax)
	vmovups	%ymm0, 112(%rax)
	leaq	608(%rsp), %rdi
	leaq	1248(%rsp), %rbx
	movq	%r12, %rsi
	movq	%r9, %rcx
	movq	%rbx, %r8
	movq	%r9, %r15
	vzeroupper
	vj_call	blake2_tree..nodes..Nodes..hash_next_1_v4
	movq	%rax, %r12
	movl	656(%rsp), %r13d
	imulq	%rax, %r13
	movq	%rax, %rcx
	shlq	$6, %rcx
	movq	1224(%rsp), %rsi
	leaq	1096(%rsp), %rdi
	movq	%rbx, %rdx
	leaq	952(%rsp), %r8
	callq	blake2_digest..buffer..digest_into..33c1e97afcdf8a5d_1_v4
	movq	%rax, 1224(%rsp)
	addq	664(%rsp), %r12
	movq	%r12, 664(%rsp)
	movq	624(%rsp), %rdx
	vmovd	.L1_v4_CPI218_9(%rip), %xmm0
	vpunpckldq	656(%rsp), %xmm0, %xmm0
	movq	648(%rsp), %rbx
	movl	656(%rsp), %r14d
	vxorps	%xmm1, %xmm1, %xmm1
	vmovaps	%ymm1, 96(%rsp)
	vmovq	%r12, %xmm1
	vpunpcklqdq	%xmm1, %xmm0, %xmm0
	vpblendd	$240, .L1_v4_CPI218_2(%rip), %ymm0, %ymm0
	vmovdqa	%ymm0, 32(%rsp)
	leaq	96(%rsp), %rdi
	leaq	608(%rsp), %rsi
	vzeroupper
	vj_c_call	memcpy
	leaq	112(%rsp), %rdi
	leaq	632(%rsp), %rsi
	movq	%rbx, %rdx
	vj_c_call	memcpy
	vmovaps	96(%rsp), %ymm0
	vmovaps	32(%rsp), %ymm1
	vxorps	.L1_v4_CPI218_4(%rip), %ymm1, %ymm1
	vxorps	.L1_v4_CPI218_3(%rip), %ymm0, %ymm0
	vmovups	%ymm1, 672(%rsp)
	vmovups	%ymm0, 704(%rsp)
	vmovups	%ymm1, 736(%rsp)
	vmovups	%ymm0, 768(%rsp)
	leaq	608(%rsp), %rax
	vxorps	%xmm0, %xmm0, %xmm0
	vmovups	%ymm0, 312(%rax)
	vmovups	%ymm0, 288(%rax)
	vmovups	%ymm0, 256(%rax)
	vmovups	%ymm0, 224(%rax)
	vmovups	%ymm0, 192(%rax)
	xorl	%esi, %esi
	xorl	%eax, %eax
	jmp	17b
19:
	leaq	816(%rsp), %rdi
	movq	%r9, %rcx
	leaq	672(%rsp), %rbx
	movq	%rbx, %r8
	vzeroupper
	callq	blake2_digest..buffer..digest_into..33c1e97afcdf8a5d_1_v4
	movq	%rax, 944(%rsp)
	movq	128(%rbx), %rax
	movq	%rax, 1376(%rsp)
	vmovups	(%rbx), %ymm0
	vmovups	32(%rbx), %ymm1
	vmovups	64(%rbx), %ymm2
	vmovups	96(%rbx), %ymm3
	vmovaps	%ymm3, 1344(%rsp)
	vmovaps	%ymm2, 1312(%rsp)
	vmovaps	%ymm1, 1280(%rsp)
	vmovaps	%ymm0, 1248(%rsp)
	vmovups	809(%rsp), %ymm0
	vmovups	841(%rsp), %ymm1
	vmovups	873(%rsp), %ymm2
	vmovups	905(%rsp), %ymm3
	vmovups	%ymm0, 1385(%rsp)
	vmovups	%ymm1, 1417(%rsp)
	vmovups	%ymm2, 1449(%rsp)
	vmovups	%ymm3, 1481(%rsp)
	vmovups	920(%rsp), %xmm0
	vmovups	%xmm0, 1496(%rsp)
	movq	936(%rsp), %rax
	movq	%rax, 1512(%rsp)
	movq	944(%rsp), %rax
	movq	%rax, 1520(%rsp)
	leaq	96(%rsp), %rbx
	movl	$280, %edx
	movq	%rbx, %rdi
	leaq	952(%rsp), %rsi
	vzeroupper
	vj_c_call	memcpy
	movb	$1, 1384(%rsp)
	leaq	1392(%rsp), %rsi
	movq	1520(%rsp), %rdx
	movq	1376(%rsp), %r14
	addq	%rdx, %r14
	movq	%r14, 1376(%rsp)
	vxorps	%xmm0, %xmm0, %xmm0
	vmovaps	%ymm0, 2112(%rsp)
	vmovaps	%ymm0, 2144(%rsp)
	vmovaps	%ymm0, 2176(%rsp)
	vmovaps	%ymm0, 2208(%rsp)
	leaq	2112(%rsp), %r15
	movq	%r15, %rdi
	vzeroupper
	vj_c_call	memcpy
	vxorps	%xmm0, %xmm0, %xmm0
	vmovups	%ymm0, 1392(%rsp)
	vmovups	%ymm0, 1424(%rsp)
	vmovups	%ymm0, 1456(%rsp)
	vmovups	%ymm0, 1488(%rsp)
	movq	$0, 1520(%rsp)
	leaq	1248(%rsp), %rdi
	movq	%r15, %rsi
	movq	%r14, %rdx
	movl	$1, %ecx
	movl	$1, %r8d
	vzeroupper
	vj_call	blake2_compress..compress..blake2b..compress_1_v4
	vmovaps	1248(%rsp), %ymm0
	vmovaps	1280(%rsp), %ymm1
	vmovups	%ymm0, 2528(%rsp)
	vmovups	%ymm1, 2560(%rsp)
	leaq	240(%rsp), %rdi
	movq	368(%rsp), %rsi
	leaq	2528(%rsp), %rdx
	movl	$64, %ecx
	movq	%rbx, %r8
	vzeroupper
	callq	blake2_digest..buffer..digest_into..33c1e97afcdf8a5d_1_v4
	movq	%rax, 368(%rsp)
	movb	$1, 232(%rsp)
	leaq	1248(%rsp), %r14
	movl	$280, %edx
	movq	%r14, %rdi
	movq	%rbx, %rsi
	vj_c_call	memcpy
	leaq	1392(%rsp), %rsi
	movq	1520(%rsp), %rdx
	movq	1376(%rsp), %rbx
	addq	%rdx, %rbx
	movq	%rbx, 1376(%rsp)
	vxorps	%xmm0, %xmm0, %xmm0
	vmovaps	%ymm0, 2112(%rsp)
	vmovaps	%ymm0, 2144(%rsp)
	vmovaps	%ymm0, 2176(%rsp)
	vmovaps	%ymm0, 2208(%rsp)
	leaq	2112(%rsp), %r15
	movq	%r15, %rdi
	vzeroupper
	vj_c_call	memcpy
	vxorps	%xmm0, %xmm0, %xmm0
	vmovups	%ymm0, 1392(%rsp)
	vmovups	%ymm0, 1424(%rsp)
	vmovups	%ymm0, 1456(%rsp)
	vmovups	%ymm0, 1488(%rsp)
	movq	$0, 1520(%rsp)
	movl	1384(%rsp), %r8d
	movq	%r14, %rdi
	movq	%r15, %rsi
	movq	%rbx, %rdx
	movl	$1, %ecx
	vzeroupper
	vj_call	blake2_compress..compress..blake2b..compress_1_v4
	vmovups	1248(%rsp), %ymm0
	vmovups	1280(%rsp), %ymm1
20:
	movq	88(%rsp), %rax
	vmovups	%ymm0, (%rax)
	vmovups	%ymm1, 32(%rax)
21:
	xorl	%eax, %eax
22:
	leaq	-40(%rbp), %rsp
	popq	%rbx
	popq	%r12
	popq	%r13
	popq	%r14
	popq	%r15
	popq	%rbp
	vzeroupper
	retq
	vj_end	vulfsjor_ffi_tree_root_1_v4

	vj_data	static.2_1_v4
.L1_v4_static.2:

