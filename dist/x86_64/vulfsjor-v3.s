/* Made by tools/dist.sh from the proved crate blake2_ffi. dist/README.md says how. */
	vj_function	blake2_ffi..blake2b..finalize_1_v3
	pushq	%rbx
	movq	%rdi, %rbx
	callq	blake2_state..blake2b..State..write_digest_1_v3
	vxorps	%xmm0, %xmm0, %xmm0
	vmovups	%ymm0, 312(%rbx)
	vmovups	%ymm0, 288(%rbx)
	vmovups	%ymm0, 256(%rbx)
	vmovups	%ymm0, 224(%rbx)
	vmovups	%ymm0, 192(%rbx)
	vmovups	%ymm0, 160(%rbx)
	vmovups	%ymm0, 128(%rbx)
	vmovups	%ymm0, 96(%rbx)
	vmovups	%ymm0, 64(%rbx)
	vmovups	%ymm0, 32(%rbx)
	vmovups	%ymm0, (%rbx)
	popq	%rbx
	vzeroupper
	retq
	vj_end	blake2_ffi..blake2b..finalize_1_v3

	vj_function	blake2_state..blake2b..State..write_digest_1_v3
	pushq	%r15
	pushq	%r14
	pushq	%r12
	pushq	%rbx
	subq	$264, %rsp
	movq	%rsi, %rbx
	movq	%rdi, %r14
	vxorps	%xmm0, %xmm0, %xmm0
	vmovups	%ymm0, 32(%rsp)
	vmovups	%ymm0, (%rsp)
	vmovups	(%rdi), %ymm1
	vmovups	32(%rdi), %ymm2
	vmovups	%ymm1, 64(%rsp)
	vmovups	%ymm2, 96(%rsp)
	movl	136(%rdi), %r15d
	leaq	152(%rdi), %rsi
	vmovups	%ymm0, 224(%rsp)
	vmovups	%ymm0, 192(%rsp)
	vmovups	%ymm0, 160(%rsp)
	vmovups	%ymm0, 128(%rsp)
	leaq	128(%rsp), %r12
	movq	%r12, %rdi
	movq	%r15, %rdx
	vzeroupper
	vj_c_call	memcpy
	xorl	%r8d, %r8d
	cmpl	$0, 148(%r14)
	setne	%r8b
	addq	128(%r14), %r15
	leaq	64(%rsp), %rdi
	movq	%r12, %rsi
	movq	%r15, %rdx
	movl	$1, %ecx
	vj_call	blake2_compress..compress..blake2b..compress_1_v3
	vmovups	64(%rsp), %ymm0
	vmovups	%ymm0, (%rsp)
	vmovups	96(%rsp), %ymm0
	vmovups	%ymm0, 32(%rsp)
	movl	144(%r14), %edx
	movq	%rsp, %rsi
	movq	%rbx, %rdi
	vzeroupper
	vj_c_call	memcpy
	addq	$264, %rsp
	popq	%rbx
	popq	%r12
	popq	%r14
	popq	%r15
	retq
	vj_end	blake2_state..blake2b..State..write_digest_1_v3

	vj_constants	32
	.p2align	5, 0x0
.L1_v3_CPI2_0:
	.quad	0
	.quad	0
	.quad	-1
	.quad	0
.L1_v3_CPI2_1:
	.quad	0
	.quad	0
	.quad	0
	.quad	-1
.L1_v3_CPI2_2:
	.long	1359893119
	.long	2917565137
	.long	2600822924
	.long	725511199
	.long	528734635
	.long	4215389547
	.long	1541459225
	.long	327033209
.L1_v3_CPI2_3:
	.quad	7640891576956012808
	.quad	-4942790177534073029
	.quad	4354685564936845355
	.quad	-6534734903238641935
.L1_v3_CPI2_4:
	.byte	3
	.byte	4
	.byte	5
	.byte	6
	.byte	7
	.byte	0
	.byte	1
	.byte	2
	.byte	11
	.byte	12
	.byte	13
	.byte	14
	.byte	15
	.byte	8
	.byte	9
	.byte	10
	.byte	19
	.byte	20
	.byte	21
	.byte	22
	.byte	23
	.byte	16
	.byte	17
	.byte	18
	.byte	27
	.byte	28
	.byte	29
	.byte	30
	.byte	31
	.byte	24
	.byte	25
	.byte	26
.L1_v3_CPI2_5:
	.byte	2
	.byte	3
	.byte	4
	.byte	5
	.byte	6
	.byte	7
	.byte	0
	.byte	1
	.byte	10
	.byte	11
	.byte	12
	.byte	13
	.byte	14
	.byte	15
	.byte	8
	.byte	9
	.byte	18
	.byte	19
	.byte	20
	.byte	21
	.byte	22
	.byte	23
	.byte	16
	.byte	17
	.byte	26
	.byte	27
	.byte	28
	.byte	29
	.byte	30
	.byte	31
	.byte	24
	.byte	25
.L1_v3_CPI2_6:
	.long	5
	.long	4
	.long	7
	.long	6
	.long	1
	.long	0
	.long	3
	.long	2
	vj_shared	blake2_compress..compress..blake2b..compress_1_v3
	vpxor	%xmm0, %xmm0, %xmm0
	testb	$1, %cl
	jne	1f
	vpxor	%xmm1, %xmm1, %xmm1
	jmp	2f
1:
	vmovdqa	.L1_v3_CPI2_0(%rip), %ymm1
2:
	subq	$824, %rsp
	vmovdqu	(%rsi), %ymm9
	vmovdqu	32(%rsi), %ymm7
	vmovdqu	64(%rsi), %ymm10
	vmovups	96(%rsi), %ymm2
	vmovups	%ymm2, 176(%rsp)
	vmovdqu	(%rdi), %ymm4
	vmovdqu	32(%rdi), %ymm3
	testb	$1, %r8b
	je	3f
	vmovdqa	.L1_v3_CPI2_1(%rip), %ymm0
3:
	vmovq	%rdx, %xmm2
	vpxor	%ymm1, %ymm2, %ymm1
	vpxor	%ymm0, %ymm1, %ymm0
	vpunpcklqdq	%ymm7, %ymm9, %ymm1
	vmovdqu	%ymm1, 368(%rsp)
	vpermq	$216, %ymm1, %ymm2
	vmovdqu	%ymm2, 688(%rsp)
	vpunpckhqdq	%ymm7, %ymm9, %ymm1
	vpermq	$216, %ymm1, %ymm6
	vmovdqu	%ymm6, 720(%rsp)
	vpaddq	%ymm3, %ymm4, %ymm1
	vpaddq	%ymm2, %ymm1, %ymm1
	vpxor	%ymm1, %ymm0, %ymm0
	vpshufd	$177, %ymm0, %ymm0
	vpxor	.L1_v3_CPI2_2(%rip), %ymm0, %ymm0
	vmovdqu	%ymm4, 752(%rsp)
	vpaddq	.L1_v3_CPI2_3(%rip), %ymm0, %ymm4
	vmovdqu	%ymm3, 784(%rsp)
	vpxor	%ymm3, %ymm4, %ymm3
	vmovdqa	.L1_v3_CPI2_4(%rip), %ymm13
	vpshufb	%ymm13, %ymm3, %ymm5
	vpaddq	%ymm6, %ymm1, %ymm1
	vpaddq	%ymm5, %ymm1, %ymm1
	vpxor	%ymm0, %ymm1, %ymm0
	vmovdqa	.L1_v3_CPI2_5(%rip), %ymm3
	vpshufb	%ymm3, %ymm0, %ymm6
	vpaddq	%ymm4, %ymm6, %ymm8
	vpxor	%ymm5, %ymm8, %ymm0
	vpsrlq	$63, %ymm0, %ymm4
	vpaddq	%ymm0, %ymm0, %ymm0
	vpor	%ymm4, %ymm0, %ymm5
	vmovdqu	112(%rsi), %xmm0
	vpshufd	$68, %ymm10, %ymm4
	vpblendd	$3, %ymm0, %ymm4, %ymm4
	vmovdqu	96(%rsi), %xmm15
	vpbroadcastq	%xmm15, %ymm11
	vpblendd	$192, %ymm11, %ymm4, %ymm2
	vmovdqu	%ymm2, 656(%rsp)
	vpermq	$147, %ymm1, %ymm1
	vpaddq	%ymm2, %ymm1, %ymm1
	vpaddq	%ymm5, %ymm1, %ymm11
	vmovdqa	.L1_v3_CPI2_6(%rip), %ymm1
	vpermd	%ymm6, %ymm1, %ymm1
	vpshufd	$177, %ymm11, %ymm6
	vpxor	%ymm1, %ymm6, %ymm6
	vpermq	$57, %ymm8, %ymm8
	vpbroadcastq	120(%rsi), %ymm4
	vpshufd	$238, %ymm10, %ymm1
	vpblendd	$3, %ymm4, %ymm1, %ymm12
	vmovdqu	%ymm4, 432(%rsp)
	vinserti128	$1, %xmm15, %ymm0, %ymm1
	vmovdqa	%xmm15, 80(%rsp)
	vpblendd	$192, %ymm1, %ymm12, %ymm2
	vmovdqu	%ymm2, 624(%rsp)
	vpaddq	%ymm6, %ymm8, %ymm8
	vpxor	%ymm5, %ymm8, %ymm5
	vpshufb	%ymm13, %ymm5, %ymm5
	vpaddq	%ymm2, %ymm11, %ymm11
	vpaddq	%ymm5, %ymm11, %ymm11
	vpshufb	%ymm3, %ymm6, %ymm6
	vpshufb	%ymm3, %ymm11, %ymm12
	vpxor	%ymm6, %ymm12, %ymm6
	vpaddq	%ymm6, %ymm8, %ymm8
	vpxor	%ymm5, %ymm8, %ymm5
	vpsrlq	$63, %ymm5, %ymm12
	vpaddq	%ymm5, %ymm5, %ymm5
	vpor	%ymm5, %ymm12, %ymm12
	vpermq	$57, %ymm11, %ymm11
	vmovdqu	32(%rsi), %xmm2
	vmovdqa	%xmm2, (%rsp)
	vpunpcklqdq	%xmm2, %xmm0, %xmm0
	vpbroadcastq	72(%rsi), %ymm2
	vmovdqu	%ymm2, 144(%rsp)
	vpblendd	$240, %ymm2, %ymm0, %ymm0
	vpblendd	$192, %ymm1, %ymm0, %ymm0
	vmovdqu	%ymm0, 592(%rsp)
	vpaddq	%ymm0, %ymm11, %ymm0
	vpaddq	%ymm0, %ymm12, %ymm11
	vmovdqa	.L1_v3_CPI2_6(%rip), %ymm5
	vpermd	%ymm6, %ymm5, %ymm0
	vpshufd	$177, %ymm11, %ymm6
	vpxor	%ymm0, %ymm6, %ymm6
	vpermq	$147, %ymm8, %ymm8
	vpermq	$226, %ymm10, %ymm0
	vmovdqu	%ymm0, 464(%rsp)
	vpblendd	$240, %ymm4, %ymm0, %ymm14
	vpbroadcastq	48(%rsi), %ymm0
	vmovdqu	%ymm0, 32(%rsp)
	vpblendd	$192, %ymm0, %ymm14, %ymm0
	vmovdqu	%ymm0, 560(%rsp)
	vpaddq	%ymm6, %ymm8, %ymm8
	vpxor	%ymm12, %ymm8, %ymm12
	vmovdqa	.L1_v3_CPI2_4(%rip), %ymm4
	vpshufb	%ymm4, %ymm12, %ymm12
	vpaddq	%ymm0, %ymm11, %ymm11
	vpaddq	%ymm12, %ymm11, %ymm11
	vpshufb	%ymm3, %ymm6, %ymm6
	vpshufb	%ymm3, %ymm11, %ymm14
	vpxor	%ymm6, %ymm14, %ymm6
	vpaddq	%ymm6, %ymm8, %ymm8
	vpxor	%ymm12, %ymm8, %ymm12
	vpsrlq	$63, %ymm12, %ymm14
	vpaddq	%ymm12, %ymm12, %ymm12
	vpor	%ymm14, %ymm12, %ymm12
	vpermq	$147, %ymm11, %ymm14
	vpermq	$196, %ymm9, %ymm0
	vpbroadcastq	40(%rsi), %ymm11
	vpblendd	$3, %ymm11, %ymm0, %ymm0
	vmovdqu	%ymm11, 272(%rsp)
	vpblendd	$192, %ymm10, %ymm0, %ymm0
	vmovdqu	%ymm0, 528(%rsp)
	vpaddq	%ymm0, %ymm14, %ymm0
	vpaddq	%ymm0, %ymm12, %ymm0
	vpermd	%ymm6, %ymm5, %ymm6
	vpshufd	$177, %ymm0, %ymm14
	vpxor	%ymm6, %ymm14, %ymm6
	vpermq	$57, %ymm8, %ymm8
	vmovdqu	176(%rsp), %ymm13
	vpblendd	$15, %ymm13, %ymm9, %ymm14
	vpermq	$227, %ymm14, %ymm14
	vpblendd	$192, %ymm7, %ymm14, %ymm2
	vmovdqu	%ymm2, 496(%rsp)
	vpaddq	%ymm6, %ymm8, %ymm8
	vpxor	%ymm12, %ymm8, %ymm12
	vpshufb	%ymm4, %ymm12, %ymm12
	vpaddq	%ymm2, %ymm0, %ymm0
	vpaddq	%ymm0, %ymm12, %ymm0
	vpshufb	%ymm3, %ymm6, %ymm6
	vpshufb	%ymm3, %ymm0, %ymm14
	vmovdqa	%ymm10, %ymm4
	vpxor	%ymm6, %ymm14, %ymm10
	vpaddq	%ymm8, %ymm10, %ymm8
	vpxor	%ymm12, %ymm8, %ymm6
	vpsrlq	$63, %ymm6, %ymm12
	vpaddq	%ymm6, %ymm6, %ymm6
	vpor	%ymm6, %ymm12, %ymm12
	vpermq	$57, %ymm0, %ymm0
	vmovdqu	80(%rsi), %xmm2
	vmovdqa	%xmm2, 16(%rsp)
	vpalignr	$8, %xmm2, %xmm15, %xmm6
	vpblendd	$240, %ymm11, %ymm6, %ymm6
	vpblendd	$192, %ymm13, %ymm6, %ymm6
	vpaddq	%ymm6, %ymm0, %ymm0
	vmovdqu	64(%rsi), %xmm6
	vmovdqa	%xmm6, 64(%rsp)
	vmovdqu	(%rsi), %xmm2
	vpunpcklqdq	%xmm2, %xmm6, %xmm11
	vmovdqu	%ymm11, 336(%rsp)
	vpblendd	$15, %ymm11, %ymm9, %ymm14
	vpblendd	$192, %ymm1, %ymm14, %ymm1
	vpaddq	%ymm0, %ymm12, %ymm0
	vpermd	%ymm10, %ymm5, %ymm10
	vpshufd	$177, %ymm0, %ymm14
	vpxor	%ymm10, %ymm14, %ymm10
	vpaddq	%ymm1, %ymm0, %ymm0
	vpermq	$147, %ymm8, %ymm1
	vpaddq	%ymm1, %ymm10, %ymm1
	vpxor	%ymm1, %ymm12, %ymm8
	vmovdqa	.L1_v3_CPI2_4(%rip), %ymm11
	vpshufb	%ymm11, %ymm8, %ymm8
	vpaddq	%ymm0, %ymm8, %ymm0
	vpshufb	%ymm3, %ymm10, %ymm10
	vpshufb	%ymm3, %ymm0, %ymm12
	vpxor	%ymm10, %ymm12, %ymm10
	vpaddq	%ymm1, %ymm10, %ymm1
	vpxor	%ymm1, %ymm8, %ymm8
	vpsrlq	$63, %ymm8, %ymm12
	vpaddq	%ymm8, %ymm8, %ymm8
	vpor	%ymm12, %ymm8, %ymm12
	vpermq	$147, %ymm0, %ymm0
	vpblendd	$192, %ymm9, %ymm4, %ymm8
	vpermq	$249, %ymm8, %ymm8
	vpblendd	$192, %ymm7, %ymm8, %ymm8
	vpaddq	%ymm0, %ymm8, %ymm0
	vpaddq	%ymm0, %ymm12, %ymm0
	vpermd	%ymm10, %ymm5, %ymm8
	vpshufd	$177, %ymm0, %ymm10
	vpxor	%ymm8, %ymm10, %ymm10
	vpbroadcastq	112(%rsi), %ymm6
	vmovdqu	%ymm6, 208(%rsp)
	vpunpcklqdq	%ymm6, %ymm7, %ymm14
	vinserti128	$1, %xmm2, %ymm0, %ymm6
	vmovdqu	%ymm6, 400(%rsp)
	vpblendd	$192, %ymm6, %ymm14, %ymm14
	vpaddq	%ymm0, %ymm14, %ymm0
	vpermq	$57, %ymm1, %ymm1
	vpaddq	%ymm1, %ymm10, %ymm1
	vpxor	%ymm1, %ymm12, %ymm12
	vmovdqa	%ymm11, %ymm6
	vpshufb	%ymm11, %ymm12, %ymm12
	vpaddq	%ymm0, %ymm12, %ymm0
	vpshufb	%ymm3, %ymm10, %ymm10
	vpshufb	%ymm3, %ymm0, %ymm14
	vpxor	%ymm10, %ymm14, %ymm10
	vpaddq	%ymm1, %ymm10, %ymm1
	vpxor	%ymm1, %ymm12, %ymm12
	vpsrlq	$63, %ymm12, %ymm14
	vpaddq	%ymm12, %ymm12, %ymm12
	vpor	%ymm14, %ymm12, %ymm12
	vpunpckhqdq	%ymm9, %ymm7, %ymm14
	vpbroadcastq	104(%rsi), %ymm11
	vperm2i128	$49, %ymm11, %ymm14, %ymm11
	vpermq	$57, %ymm0, %ymm0
	vmovdqu	%ymm4, 112(%rsp)
	vpblendd	$192, %ymm4, %ymm11, %ymm11
	vpaddq	%ymm0, %ymm11, %ymm0
	vmovdqu	144(%rsp), %ymm15
	vpblendd	$12, %xmm2, %xmm15, %xmm11
	vmovdqa	%xmm2, 96(%rsp)
	vpermq	$132, %ymm13, %ymm14
	vpblendd	$240, %ymm14, %ymm11, %ymm11
	vpaddq	%ymm0, %ymm12, %ymm0
	vpermd	%ymm10, %ymm5, %ymm10
	vpshufd	$177, %ymm0, %ymm14
	vpxor	%ymm10, %ymm14, %ymm10
	vpaddq	%ymm0, %ymm11, %ymm0
	vpermq	$147, %ymm1, %ymm1
	vpaddq	%ymm1, %ymm10, %ymm1
	vpxor	%ymm1, %ymm12, %ymm11
	vpshufb	%ymm6, %ymm11, %ymm11
	vpaddq	%ymm0, %ymm11, %ymm0
	vpshufb	%ymm3, %ymm10, %ymm10
	vpshufb	%ymm3, %ymm0, %ymm12
	vpxor	%ymm10, %ymm12, %ymm10
	vpaddq	%ymm1, %ymm10, %ymm1
	vpxor	%ymm1, %ymm11, %ymm11
	vpsrlq	$63, %ymm11, %ymm12
	vpaddq	%ymm11, %ymm11, %ymm11
	vpor	%ymm12, %ymm11, %ymm11
	vpalignr	$8, %ymm13, %ymm9, %ymm12
	vpermq	$20, %ymm7, %ymm14
	vperm2i128	$49, %ymm14, %ymm12, %ymm12
	vpermq	$147, %ymm0, %ymm0
	vpaddq	%ymm0, %ymm12, %ymm0
	vpaddq	%ymm0, %ymm11, %ymm0
	vpermd	%ymm10, %ymm5, %ymm10
	vmovdqa	%ymm5, %ymm8
	vpshufd	$177, %ymm0, %ymm12
	vpxor	%ymm10, %ymm12, %ymm10
	vmovdqu	32(%rsp), %ymm5
	vpunpcklqdq	%ymm5, %ymm4, %ymm12
	vpbroadcastq	%xmm2, %ymm4
	vmovdqu	%ymm4, 304(%rsp)
	vpblendd	$192, %ymm4, %ymm12, %ymm12
	vpaddq	%ymm0, %ymm12, %ymm0
	vpermq	$57, %ymm1, %ymm1
	vpaddq	%ymm1, %ymm10, %ymm1
	vpxor	%ymm1, %ymm11, %ymm11
	vpshufb	%ymm6, %ymm11, %ymm11
	vpaddq	%ymm0, %ymm11, %ymm0
	vpshufb	%ymm3, %ymm10, %ymm10
	vpshufb	%ymm3, %ymm0, %ymm12
	vpxor	%ymm10, %ymm12, %ymm10
	vpaddq	%ymm1, %ymm10, %ymm12
	vpxor	%ymm11, %ymm12, %ymm1
	vpsrlq	$63, %ymm1, %ymm11
	vpaddq	%ymm1, %ymm1, %ymm1
	vpor	%ymm1, %ymm11, %ymm11
	vpermq	$57, %ymm0, %ymm0
	vpblendd	$12, (%rsp), %xmm15, %xmm1
	vpblendd	$15, %ymm1, %ymm9, %ymm14
	vpbroadcastq	80(%rsi), %ymm1
	vpblendd	$192, %ymm1, %ymm14, %ymm14
	vpaddq	%ymm0, %ymm14, %ymm0
	vpaddq	%ymm0, %ymm11, %ymm0
	vpermd	%ymm10, %ymm8, %ymm10
	vpshufd	$177, %ymm0, %ymm14
	vpxor	%ymm10, %ymm14, %ymm10
	vpermq	$204, %ymm7, %ymm14
	vpblendd	$3, %ymm9, %ymm14, %ymm14
	vpblendd	$192, %ymm13, %ymm14, %ymm14
	vpaddq	%ymm0, %ymm14, %ymm0
	vpermq	$147, %ymm12, %ymm12
	vpaddq	%ymm12, %ymm10, %ymm12
	vpxor	%ymm11, %ymm12, %ymm11
	vpshufb	%ymm6, %ymm11, %ymm11
	vpaddq	%ymm0, %ymm11, %ymm0
	vpshufb	%ymm3, %ymm10, %ymm10
	vpshufb	%ymm3, %ymm0, %ymm14
	vpxor	%ymm10, %ymm14, %ymm10
	vpaddq	%ymm12, %ymm10, %ymm14
	vpxor	%ymm11, %ymm14, %ymm11
	vpsrlq	$63, %ymm11, %ymm12
	vpaddq	%ymm11, %ymm11, %ymm11
	vpor	%ymm12, %ymm11, %ymm11
	vpalignr	$8, %ymm9, %ymm13, %ymm15
	vpbroadcastq	88(%rsi), %ymm2
	vmovdqu	%ymm2, 240(%rsp)
	vperm2i128	$49, %ymm2, %ymm15, %ymm15
	vpblendd	$192, %ymm5, %ymm15, %ymm5
	vpermq	$147, %ymm0, %ymm0
	vpaddq	%ymm5, %ymm0, %ymm0
	vpaddq	%ymm0, %ymm11, %ymm5
	vpermd	%ymm10, %ymm8, %ymm0
	vpshufd	$177, %ymm5, %ymm10
	vpxor	%ymm0, %ymm10, %ymm10
	vpermq	$197, %ymm13, %ymm0
	vpblendd	$12, %ymm9, %ymm0, %ymm15
	vmovdqa	64(%rsp), %xmm0
	vpbroadcastq	%xmm0, %ymm12
	vpblendd	$192, %ymm12, %ymm15, %ymm15
	vmovdqu	%ymm12, 32(%rsp)
	vpaddq	%ymm5, %ymm15, %ymm5
	vpermq	$57, %ymm14, %ymm14
	vpaddq	%ymm14, %ymm10, %ymm14
	vpxor	%ymm11, %ymm14, %ymm11
	vpshufb	%ymm6, %ymm11, %ymm11
	vpaddq	%ymm5, %ymm11, %ymm5
	vpshufb	%ymm3, %ymm10, %ymm10
	vpshufb	%ymm3, %ymm5, %ymm15
	vpxor	%ymm10, %ymm15, %ymm10
	vpaddq	%ymm14, %ymm10, %ymm14
	vpxor	%ymm11, %ymm14, %ymm11
	vpsrlq	$63, %ymm11, %ymm15
	vpaddq	%ymm11, %ymm11, %ymm11
	vpor	%ymm15, %ymm11, %ymm11
	vpermq	$57, %ymm5, %ymm5
	vpermq	$206, 368(%rsp), %ymm15
	vpblendd	$192, %ymm12, %ymm15, %ymm15
	vpaddq	%ymm5, %ymm15, %ymm5
	vpaddq	%ymm5, %ymm11, %ymm5
	vpermd	%ymm10, %ymm8, %ymm10
	vmovdqa	%ymm8, %ymm2
	vpshufd	$177, %ymm5, %ymm15
	vpxor	%ymm10, %ymm15, %ymm10
	vmovdqu	112(%rsp), %ymm4
	vpermq	$248, %ymm4, %ymm15
	vpblendd	$3, %ymm13, %ymm15, %ymm15
	vpblendd	$192, %ymm9, %ymm15, %ymm15
	vpaddq	%ymm5, %ymm15, %ymm5
	vpermq	$147, %ymm14, %ymm14
	vpaddq	%ymm14, %ymm10, %ymm14
	vpxor	%ymm11, %ymm14, %ymm11
	vpshufb	%ymm6, %ymm11, %ymm11
	vpaddq	%ymm5, %ymm11, %ymm5
	vpshufb	%ymm3, %ymm10, %ymm10
	vpshufb	%ymm3, %ymm5, %ymm15
	vpxor	%ymm10, %ymm15, %ymm10
	vpaddq	%ymm14, %ymm10, %ymm14
	vpxor	%ymm11, %ymm14, %ymm11
	vpsrlq	$63, %ymm11, %ymm15
	vpaddq	%ymm11, %ymm11, %ymm11
	vpor	%ymm15, %ymm11, %ymm11
	vpermq	$147, %ymm5, %ymm5
	vpblendd	$12, %ymm9, %ymm7, %ymm15
	vpshufd	$78, %ymm15, %ymm15
	vpblendd	$192, %ymm13, %ymm15, %ymm15
	vpaddq	%ymm5, %ymm15, %ymm5
	vmovdqu	144(%rsp), %ymm8
	vpblendd	$12, 80(%rsp), %xmm8, %xmm15
	vpblendd	$240, 272(%rsp), %ymm15, %ymm15
	vpblendd	$192, 208(%rsp), %ymm15, %ymm8
	vpaddq	%ymm5, %ymm11, %ymm5
	vpermd	%ymm10, %ymm2, %ymm10
	vpshufd	$177, %ymm5, %ymm15
	vpxor	%ymm10, %ymm15, %ymm10
	vpaddq	%ymm5, %ymm8, %ymm5
	vpermq	$57, %ymm14, %ymm8
	vpaddq	%ymm8, %ymm10, %ymm8
	vpxor	%ymm11, %ymm8, %ymm11
	vpshufb	%ymm6, %ymm11, %ymm11
	vpaddq	%ymm5, %ymm11, %ymm5
	vpshufb	%ymm3, %ymm10, %ymm10
	vpshufb	%ymm3, %ymm5, %ymm14
	vpxor	%ymm10, %ymm14, %ymm10
	vpaddq	%ymm8, %ymm10, %ymm8
	vpxor	%ymm11, %ymm8, %ymm11
	vpsrlq	$63, %ymm11, %ymm14
	vpaddq	%ymm11, %ymm11, %ymm11
	vpor	%ymm14, %ymm11, %ymm11
	vpblendd	$12, %ymm9, %ymm13, %ymm14
	vmovdqa	(%rsp), %xmm12
	vpbroadcastq	%xmm12, %ymm15
	vpblendd	$192, %ymm15, %ymm14, %ymm14
	vpermq	$57, %ymm5, %ymm5
	vpaddq	%ymm5, %ymm14, %ymm5
	vpunpckhqdq	%ymm13, %ymm7, %ymm14
	vpermq	$220, %ymm14, %ymm14
	vpblendd	$192, %ymm1, %ymm14, %ymm1
	vpaddq	%ymm5, %ymm11, %ymm5
	vpermd	%ymm10, %ymm2, %ymm10
	vpshufd	$177, %ymm5, %ymm14
	vpxor	%ymm10, %ymm14, %ymm10
	vpaddq	%ymm1, %ymm5, %ymm1
	vpermq	$147, %ymm8, %ymm5
	vpaddq	%ymm5, %ymm10, %ymm5
	vpxor	%ymm5, %ymm11, %ymm8
	vpshufb	%ymm6, %ymm8, %ymm8
	vpaddq	%ymm1, %ymm8, %ymm1
	vpshufb	%ymm3, %ymm10, %ymm10
	vpshufb	%ymm3, %ymm1, %ymm11
	vpxor	%ymm10, %ymm11, %ymm10
	vpaddq	%ymm5, %ymm10, %ymm5
	vpxor	%ymm5, %ymm8, %ymm8
	vpsrlq	$63, %ymm8, %ymm11
	vpaddq	%ymm8, %ymm8, %ymm8
	vpor	%ymm11, %ymm8, %ymm8
	vpermq	$147, %ymm1, %ymm11
	vpblendd	$15, 336(%rsp), %ymm7, %ymm14
	vinserti128	$1, %xmm0, %ymm0, %ymm1
	vpblendd	$192, %ymm1, %ymm14, %ymm14
	vpaddq	%ymm14, %ymm11, %ymm11
	vpunpckhqdq	%ymm7, %ymm4, %ymm14
	vpshufd	$78, %ymm9, %ymm15
	vperm2i128	$49, %ymm15, %ymm14, %ymm14
	vpaddq	%ymm8, %ymm11, %ymm11
	vpermd	%ymm10, %ymm2, %ymm10
	vpshufd	$177, %ymm11, %ymm15
	vpxor	%ymm10, %ymm15, %ymm10
	vpaddq	%ymm14, %ymm11, %ymm11
	vpermq	$57, %ymm5, %ymm5
	vpaddq	%ymm5, %ymm10, %ymm5
	vpxor	%ymm5, %ymm8, %ymm8
	vpshufb	%ymm6, %ymm8, %ymm8
	vpaddq	%ymm8, %ymm11, %ymm11
	vpshufb	%ymm3, %ymm10, %ymm10
	vpshufb	%ymm3, %ymm11, %ymm14
	vpxor	%ymm10, %ymm14, %ymm10
	vpaddq	%ymm5, %ymm10, %ymm5
	vpxor	%ymm5, %ymm8, %ymm8
	vpsrlq	$63, %ymm8, %ymm14
	vpaddq	%ymm8, %ymm8, %ymm8
	vpor	%ymm14, %ymm8, %ymm8
	vpermq	$57, %ymm11, %ymm11
	vpblendd	$240, %ymm7, %ymm13, %ymm14
	vpermq	$205, %ymm14, %ymm14
	vpblendd	$192, %ymm9, %ymm14, %ymm14
	vpaddq	%ymm14, %ymm11, %ymm11
	vpalignr	$8, %ymm4, %ymm13, %ymm14
	vpbroadcastq	8(%rsi), %ymm15
	vperm2i128	$49, %ymm15, %ymm14, %ymm14
	vpblendd	$192, %ymm1, %ymm14, %ymm1
	vpaddq	%ymm8, %ymm11, %ymm11
	vpermd	%ymm10, %ymm2, %ymm10
	vmovdqa	%ymm2, %ymm4
	vpshufd	$177, %ymm11, %ymm14
	vpxor	%ymm10, %ymm14, %ymm10
	vpaddq	%ymm1, %ymm11, %ymm1
	vpermq	$147, %ymm5, %ymm5
	vpaddq	%ymm5, %ymm10, %ymm5
	vpxor	%ymm5, %ymm8, %ymm8
	vpshufb	%ymm6, %ymm8, %ymm8
	vpaddq	%ymm1, %ymm8, %ymm11
	vpshufb	%ymm3, %ymm10, %ymm1
	vpshufb	%ymm3, %ymm11, %ymm10
	vpxor	%ymm1, %ymm10, %ymm10
	vpaddq	%ymm5, %ymm10, %ymm14
	vpxor	%ymm8, %ymm14, %ymm1
	vpsrlq	$63, %ymm1, %ymm5
	vpaddq	%ymm1, %ymm1, %ymm1
	vpor	%ymm5, %ymm1, %ymm8
	vmovdqu	432(%rsp), %ymm2
	vpblendd	$12, %xmm0, %xmm2, %xmm5
	vmovdqu	16(%rsi), %xmm1
	vpblendd	$12, %xmm12, %xmm1, %xmm15
	vpblendd	$240, %ymm2, %ymm15, %ymm15
	vpermq	$147, %ymm11, %ymm11
	vmovdqu	32(%rsp), %ymm0
	vpblendd	$192, %ymm0, %ymm15, %ymm15
	vpaddq	%ymm15, %ymm11, %ymm11
	vmovdqa	96(%rsp), %xmm2
	vmovdqa	16(%rsp), %xmm12
	vpunpcklqdq	%xmm2, %xmm12, %xmm15
	vpermq	$132, %ymm7, %ymm12
	vpblendd	$240, %ymm12, %ymm15, %ymm12
	vpaddq	%ymm8, %ymm11, %ymm11
	vpermd	%ymm10, %ymm4, %ymm10
	vpshufd	$177, %ymm11, %ymm15
	vpxor	%ymm10, %ymm15, %ymm10
	vpaddq	%ymm12, %ymm11, %ymm11
	vpermq	$57, %ymm14, %ymm12
	vpaddq	%ymm12, %ymm10, %ymm12
	vpxor	%ymm8, %ymm12, %ymm8
	vpshufb	%ymm6, %ymm8, %ymm8
	vpaddq	%ymm8, %ymm11, %ymm11
	vpshufb	%ymm3, %ymm10, %ymm10
	vpshufb	%ymm3, %ymm11, %ymm14
	vpxor	%ymm10, %ymm14, %ymm10
	vpaddq	%ymm12, %ymm10, %ymm12
	vpxor	%ymm8, %ymm12, %ymm8
	vpsrlq	$63, %ymm8, %ymm14
	vpaddq	%ymm8, %ymm8, %ymm8
	vpor	%ymm14, %ymm8, %ymm8
	vpunpcklqdq	%ymm13, %ymm7, %ymm14
	vperm2i128	$49, 240(%rsp), %ymm14, %ymm14
	vpblendd	$192, 304(%rsp), %ymm14, %ymm14
	vpermq	$57, %ymm11, %ymm11
	vpaddq	%ymm14, %ymm11, %ymm11
	vpbroadcastq	24(%rsi), %ymm14
	vpblendd	$240, %ymm14, %ymm5, %ymm5
	vpblendd	$192, %ymm0, %ymm5, %ymm0
	vpaddq	%ymm8, %ymm11, %ymm5
	vpermd	%ymm10, %ymm4, %ymm10
	vpshufd	$177, %ymm5, %ymm11
	vpxor	%ymm10, %ymm11, %ymm10
	vpaddq	%ymm0, %ymm5, %ymm0
	vpermq	$147, %ymm12, %ymm5
	vpaddq	%ymm5, %ymm10, %ymm5
	vpxor	%ymm5, %ymm8, %ymm8
	vpshufb	%ymm6, %ymm8, %ymm8
	vmovdqa	%ymm6, %ymm12
	vpaddq	%ymm0, %ymm8, %ymm0
	vpshufb	%ymm3, %ymm10, %ymm10
	vpshufb	%ymm3, %ymm0, %ymm11
	vpxor	%ymm10, %ymm11, %ymm10
	vpaddq	%ymm5, %ymm10, %ymm5
	vpxor	%ymm5, %ymm8, %ymm8
	vpsrlq	$63, %ymm8, %ymm11
	vpaddq	%ymm8, %ymm8, %ymm8
	vpor	%ymm11, %ymm8, %ymm8
	vpermq	$147, %ymm0, %ymm0
	vmovdqu	112(%rsp), %ymm15
	vpblendd	$240, %ymm15, %ymm13, %ymm11
	vpermq	$210, %ymm11, %ymm11
	vmovdqu	400(%rsp), %ymm6
	vpblendd	$192, %ymm6, %ymm11, %ymm11
	vpaddq	%ymm0, %ymm11, %ymm0
	vpaddq	%ymm0, %ymm8, %ymm0
	vpermd	%ymm10, %ymm4, %ymm10
	vpshufd	$177, %ymm0, %ymm11
	vpxor	%ymm10, %ymm11, %ymm10
	vpblendd	$48, %ymm9, %ymm7, %ymm11
	vpermq	$57, %ymm11, %ymm11
	vpaddq	%ymm0, %ymm11, %ymm0
	vpermq	$57, %ymm5, %ymm5
	vpaddq	%ymm5, %ymm10, %ymm5
	vpxor	%ymm5, %ymm8, %ymm8
	vpshufb	%ymm12, %ymm8, %ymm8
	vpaddq	%ymm0, %ymm8, %ymm0
	vpshufb	%ymm3, %ymm10, %ymm10
	vpshufb	%ymm3, %ymm0, %ymm11
	vpxor	%ymm10, %ymm11, %ymm10
	vpaddq	%ymm5, %ymm10, %ymm5
	vpxor	%ymm5, %ymm8, %ymm8
	vpsrlq	$63, %ymm8, %ymm11
	vpaddq	%ymm8, %ymm8, %ymm8
	vpor	%ymm11, %ymm8, %ymm8
	vpbroadcastq	56(%rsi), %ymm11
	vpblendd	$15, 464(%rsp), %ymm11, %ymm11
	vpblendd	$192, %ymm6, %ymm11, %ymm11
	vpermq	$57, %ymm0, %ymm0
	vpaddq	%ymm0, %ymm11, %ymm0
	vpermq	$96, %ymm7, %ymm11
	vpblendd	$3, %ymm1, %ymm11, %ymm1
	vpaddq	%ymm0, %ymm8, %ymm0
	vpermd	%ymm10, %ymm4, %ymm10
	vpshufd	$177, %ymm0, %ymm11
	vpxor	%ymm10, %ymm11, %ymm10
	vpaddq	%ymm1, %ymm0, %ymm0
	vpermq	$147, %ymm5, %ymm1
	vpaddq	%ymm1, %ymm10, %ymm1
	vpxor	%ymm1, %ymm8, %ymm5
	vpshufb	%ymm12, %ymm5, %ymm5
	vpaddq	%ymm5, %ymm0, %ymm0
	vpshufb	%ymm3, %ymm10, %ymm8
	vpshufb	%ymm3, %ymm0, %ymm10
	vpxor	%ymm8, %ymm10, %ymm8
	vpaddq	%ymm1, %ymm8, %ymm1
	vpxor	%ymm5, %ymm1, %ymm5
	vpsrlq	$63, %ymm5, %ymm10
	vpaddq	%ymm5, %ymm5, %ymm5
	vpor	%ymm5, %ymm10, %ymm5
	vpunpckhqdq	%ymm15, %ymm13, %ymm10
	vpermq	$216, %ymm10, %ymm10
	vpblendd	$192, %ymm9, %ymm10, %ymm9
	vpermq	$147, %ymm0, %ymm0
	vpaddq	%ymm0, %ymm9, %ymm0
	vpblendd	$12, 16(%rsp), %xmm2, %xmm6
	vpermq	$36, %ymm13, %ymm7
	vpblendd	$240, %ymm7, %ymm6, %ymm6
	vpaddq	%ymm5, %ymm0, %ymm0
	vpermd	%ymm8, %ymm4, %ymm7
	vpshufd	$177, %ymm0, %ymm8
	vpxor	%ymm7, %ymm8, %ymm7
	vpaddq	%ymm6, %ymm0, %ymm0
	vpermq	$57, %ymm1, %ymm1
	vpaddq	%ymm1, %ymm7, %ymm1
	vpxor	%ymm5, %ymm1, %ymm5
	vpshufb	%ymm12, %ymm5, %ymm5
	vpaddq	%ymm5, %ymm0, %ymm0
	vpshufb	%ymm3, %ymm7, %ymm6
	vpshufb	%ymm3, %ymm0, %ymm7
	vpxor	%ymm6, %ymm7, %ymm6
	vpaddq	%ymm1, %ymm6, %ymm1
	vpxor	%ymm5, %ymm1, %ymm5
	vpsrlq	$63, %ymm5, %ymm7
	vpaddq	%ymm5, %ymm5, %ymm5
	vpor	%ymm7, %ymm5, %ymm5
	vpermq	$57, %ymm0, %ymm0
	vpaddq	688(%rsp), %ymm0, %ymm0
	vpaddq	%ymm5, %ymm0, %ymm0
	vpermd	%ymm6, %ymm4, %ymm6
	vpshufd	$177, %ymm0, %ymm7
	vpxor	%ymm6, %ymm7, %ymm6
	vpermq	$147, %ymm1, %ymm1
	vpaddq	%ymm1, %ymm6, %ymm1
	vpxor	%ymm5, %ymm1, %ymm5
	vpshufb	%ymm12, %ymm5, %ymm5
	vpaddq	720(%rsp), %ymm0, %ymm0
	vpaddq	%ymm5, %ymm0, %ymm0
	vpshufb	%ymm3, %ymm0, %ymm7
	vpshufb	%ymm3, %ymm6, %ymm6
	vpxor	%ymm6, %ymm7, %ymm6
	vpaddq	%ymm1, %ymm6, %ymm1
	vpxor	%ymm5, %ymm1, %ymm5
	vpsrlq	$63, %ymm5, %ymm7
	vpaddq	%ymm5, %ymm5, %ymm5
	vpor	%ymm7, %ymm5, %ymm5
	vpermq	$147, %ymm0, %ymm0
	vpaddq	656(%rsp), %ymm0, %ymm0
	vpaddq	%ymm5, %ymm0, %ymm0
	vpshufd	$177, %ymm0, %ymm7
	vpermd	%ymm6, %ymm4, %ymm6
	vpxor	%ymm6, %ymm7, %ymm6
	vpermq	$57, %ymm1, %ymm1
	vpaddq	%ymm1, %ymm6, %ymm1
	vpxor	%ymm5, %ymm1, %ymm5
	vpshufb	%ymm12, %ymm5, %ymm5
	vpaddq	624(%rsp), %ymm0, %ymm0
	vpaddq	%ymm5, %ymm0, %ymm0
	vpshufb	%ymm3, %ymm0, %ymm7
	vpshufb	%ymm3, %ymm6, %ymm6
	vpxor	%ymm6, %ymm7, %ymm6
	vpaddq	%ymm1, %ymm6, %ymm1
	vpxor	%ymm5, %ymm1, %ymm5
	vpsrlq	$63, %ymm5, %ymm7
	vpaddq	%ymm5, %ymm5, %ymm5
	vpor	%ymm7, %ymm5, %ymm5
	vpermq	$57, %ymm0, %ymm0
	vpaddq	592(%rsp), %ymm0, %ymm0
	vpaddq	%ymm5, %ymm0, %ymm0
	vpshufd	$177, %ymm0, %ymm7
	vpermd	%ymm6, %ymm4, %ymm6
	vpxor	%ymm6, %ymm7, %ymm6
	vpermq	$147, %ymm1, %ymm1
	vpaddq	%ymm1, %ymm6, %ymm1
	vpxor	%ymm5, %ymm1, %ymm5
	vpshufb	%ymm12, %ymm5, %ymm5
	vpaddq	560(%rsp), %ymm0, %ymm0
	vpaddq	%ymm5, %ymm0, %ymm0
	vpshufb	%ymm3, %ymm0, %ymm7
	vpshufb	%ymm3, %ymm6, %ymm6
	vpxor	%ymm6, %ymm7, %ymm6
	vpaddq	%ymm1, %ymm6, %ymm1
	vpxor	%ymm5, %ymm1, %ymm5
	vpsrlq	$63, %ymm5, %ymm7
	vpaddq	%ymm5, %ymm5, %ymm5
	vpor	%ymm7, %ymm5, %ymm5
	vpermq	$147, %ymm0, %ymm0
	vpaddq	528(%rsp), %ymm0, %ymm0
	vpaddq	%ymm5, %ymm0, %ymm0
	vpermd	%ymm6, %ymm4, %ymm4
	vpshufd	$177, %ymm0, %ymm6
	vpxor	%ymm4, %ymm6, %ymm4
	vpermq	$57, %ymm1, %ymm1
	vpaddq	%ymm1, %ymm4, %ymm1
	vpxor	%ymm5, %ymm1, %ymm5
	vpshufb	%ymm12, %ymm5, %ymm2
	vpaddq	496(%rsp), %ymm0, %ymm0
	vpaddq	%ymm2, %ymm0, %ymm0
	vpshufb	%ymm3, %ymm4, %ymm4
	vpshufb	%ymm3, %ymm0, %ymm3
	vpxor	%ymm4, %ymm3, %ymm3
	vpaddq	%ymm1, %ymm3, %ymm1
	vpxor	%ymm2, %ymm1, %ymm2
	vpsrlq	$63, %ymm2, %ymm4
	vpaddq	%ymm2, %ymm2, %ymm2
	vpor	%ymm4, %ymm2, %ymm2
	vpermq	$57, %ymm0, %ymm0
	vpxor	752(%rsp), %ymm0, %ymm0
	vpermq	$147, %ymm1, %ymm1
	vpxor	%ymm1, %ymm0, %ymm0
	vpermq	$78, %ymm3, %ymm1
	vpxor	784(%rsp), %ymm1, %ymm1
	vpxor	%ymm2, %ymm1, %ymm1
	vmovdqu	%ymm0, (%rdi)
	vmovdqu	%ymm1, 32(%rdi)
	addq	$824, %rsp
	vzeroupper
	retq
	vj_end	blake2_compress..compress..blake2b..compress_1_v3

	vj_function	blake2_digest..wiping..scrub_stack..1664_1_v3
	pushq	%rbx
	subq	$1664, %rsp
	movq	%rsp, %rbx
	movl	$1664, %edx
	movq	%rbx, %rdi
	xorl	%esi, %esi
	vj_c_call	memset
	movq	%rbx, %rdi
	callq	blake2_digest..wiping..settle..1664_1_v3
	addq	$1664, %rsp
	popq	%rbx
	retq
	vj_end	blake2_digest..wiping..scrub_stack..1664_1_v3

	vj_function	blake2_digest..wiping..settle..1664_1_v3
	vmovdqu	128(%rdi), %ymm0
	vmovdqu	160(%rdi), %ymm1
	vmovdqu	192(%rdi), %ymm2
	vmovdqu	224(%rdi), %ymm3
	vpor	(%rdi), %ymm0, %ymm0
	vpor	32(%rdi), %ymm1, %ymm1
	vpor	64(%rdi), %ymm2, %ymm2
	vpor	96(%rdi), %ymm3, %ymm3
	vpor	256(%rdi), %ymm0, %ymm0
	vpor	288(%rdi), %ymm1, %ymm1
	vpor	320(%rdi), %ymm2, %ymm2
	vpor	352(%rdi), %ymm3, %ymm3
	vpor	384(%rdi), %ymm0, %ymm0
	vpor	416(%rdi), %ymm1, %ymm1
	vpor	448(%rdi), %ymm2, %ymm2
	vpor	480(%rdi), %ymm3, %ymm3
	vpor	512(%rdi), %ymm0, %ymm0
	vpor	544(%rdi), %ymm1, %ymm1
	vpor	576(%rdi), %ymm2, %ymm2
	vpor	608(%rdi), %ymm3, %ymm3
	vpor	640(%rdi), %ymm0, %ymm0
	vpor	672(%rdi), %ymm1, %ymm1
	vpor	704(%rdi), %ymm2, %ymm2
	vpor	736(%rdi), %ymm3, %ymm3
	vpor	768(%rdi), %ymm0, %ymm0
	vpor	800(%rdi), %ymm1, %ymm1
	vpor	832(%rdi), %ymm2, %ymm2
	vpor	864(%rdi), %ymm3, %ymm3
	vpor	896(%rdi), %ymm0, %ymm0
	vpor	928(%rdi), %ymm1, %ymm1
	vpor	960(%rdi), %ymm2, %ymm2
	vpor	992(%rdi), %ymm3, %ymm3
	vpor	1024(%rdi), %ymm0, %ymm0
	vpor	1056(%rdi), %ymm1, %ymm1
	vpor	1088(%rdi), %ymm2, %ymm2
	vpor	1120(%rdi), %ymm3, %ymm3
	vpor	1152(%rdi), %ymm0, %ymm0
	vpor	1184(%rdi), %ymm1, %ymm1
	vpor	1216(%rdi), %ymm2, %ymm2
	vpor	1248(%rdi), %ymm3, %ymm3
	vpor	1280(%rdi), %ymm0, %ymm0
	vpor	1312(%rdi), %ymm1, %ymm1
	vpor	1344(%rdi), %ymm2, %ymm2
	vpor	1376(%rdi), %ymm3, %ymm3
	vpor	1408(%rdi), %ymm0, %ymm0
	vpor	1440(%rdi), %ymm1, %ymm1
	vpor	1472(%rdi), %ymm2, %ymm2
	vpor	1504(%rdi), %ymm3, %ymm3
	vpor	1536(%rdi), %ymm0, %ymm0
	vpor	1568(%rdi), %ymm1, %ymm1
	vpor	%ymm0, %ymm1, %ymm0
	vpor	1600(%rdi), %ymm2, %ymm1
	vpor	1632(%rdi), %ymm3, %ymm2
	vpor	%ymm1, %ymm2, %ymm1
	vpor	%ymm0, %ymm1, %ymm0
	vptest	%ymm0, %ymm0
	je	1f
	pause
1:
	vzeroupper
	retq
	vj_end	blake2_digest..wiping..settle..1664_1_v3

	vj_constants	32
	.p2align	5, 0x0
.L1_v3_CPI5_0:
	.quad	5840696475078001361
	.quad	-7276294671716946913
	.quad	2270897969802886507
	.quad	6620516959819538809
.L1_v3_CPI5_1:
	.quad	7640891576956012808
	.quad	-4942790177534073029
	.quad	4354685564936845355
	.quad	-6534734903238641935
	vj_function	blake2_ffi..blake2b..initialize_1_v3
	pushq	%rbp
	movq	%rsp, %rbp
	pushq	%r15
	pushq	%r14
	pushq	%r13
	pushq	%r12
	pushq	%rbx
	andq	$-32, %rsp
	subq	$544, %rsp
	movq	%rdx, %rcx
	movq	%rsi, %rax
	movq	%rdi, %rbx
	movq	(%rsi), %r13
	movq	16(%rsi), %r15
	movq	32(%rsi), %rdx
	movq	48(%rsi), %r14
	movzwl	16(%rcx), %edi
	movzwl	(%rcx), %r8d
	leaq	-1(%r13), %rsi
	cmpq	$64, %rsi
	setb	%sil
	cmpq	$65, %r15
	setb	%r9b
	cmpq	$17, %rdx
	setb	%r10b
	andb	%r9b, %r10b
	andb	%sil, %r10b
	cmpq	$17, %r14
	setb	%sil
	cmpl	$256, %r8d
	setae	%r9b
	andb	%sil, %r9b
	andb	%r10b, %r9b
	movzwl	%di, %esi
	cmpl	$16640, %esi
	setb	%sil
	andb	%r9b, %sil
	cmpb	$1, %sil
	jne	1f
	movq	24(%rax), %rsi
	movq	40(%rax), %r12
	vmovd	4(%rcx), %xmm1
	vmovq	8(%rcx), %xmm0
	testq	%r15, %r15
	je	2f
	movq	8(%rax), %rax
	movq	%rax, 56(%rsp)
	shll	$16, %r8d
	vxorps	%xmm2, %xmm2, %xmm2
	vmovaps	%ymm2, (%rsp)
	movl	%r15d, %eax
	shll	$8, %eax
	movzwl	%ax, %eax
	orl	%r8d, %eax
	orl	%r13d, %eax
	vmovd	%eax, %xmm2
	vmovq	%xmm2, %xmm2
	vpbroadcastd	%xmm1, %xmm1
	vpblendd	$2, %ymm1, %ymm2, %ymm1
	vpunpcklqdq	%xmm0, %xmm1, %xmm0
	vmovd	%edi, %xmm2
	vpbroadcastw	%xmm2, %ymm2
	vpblendw	$1, %ymm2, %ymm1, %ymm1
	vpblendd	$240, %ymm1, %ymm0, %ymm0
	vmovdqa	%ymm0, 64(%rsp)
	movq	%rsp, %rdi
	vzeroupper
	vj_c_call	memcpy
	leaq	16(%rsp), %rdi
	movq	%r12, %rsi
	movq	%r14, %rdx
	vj_c_call	memcpy
	vmovaps	(%rsp), %ymm0
	vmovaps	%ymm0, 288(%rsp)
	movl	$64, %eax
	subq	%r15, %rax
	xorl	%edx, %edx
	cmpq	$64, %r15
	cmovbq	%rax, %rdx
	leaq	(%rsp,%r15), %rdi
	addq	$320, %rdi
	xorl	%esi, %esi
	vzeroupper
	vj_c_call	memset
	leaq	320(%rsp), %rdi
	movq	56(%rsp), %rsi
	movq	%r15, %rdx
	vj_c_call	memcpy
	vpxor	%xmm2, %xmm2, %xmm2
	vmovdqa	%ymm2, 448(%rsp)
	vmovdqa	%ymm2, 480(%rsp)
	vmovups	320(%rsp), %ymm0
	vmovdqu	352(%rsp), %ymm1
	vmovaps	%ymm0, 384(%rsp)
	vmovdqa	%ymm1, 416(%rsp)
	vmovdqa	%ymm2, 224(%rsp)
	vmovdqa	%ymm2, 256(%rsp)
	vmovaps	%ymm0, 160(%rsp)
	vmovdqa	%ymm1, 192(%rsp)
	vmovaps	%ymm0, 96(%rsp)
	vmovaps	288(%rsp), %ymm0
	vmovdqa	%ymm1, 128(%rsp)
	movl	$128, %eax
	jmp	3f
1:
	vxorps	%xmm0, %xmm0, %xmm0
	vmovups	%ymm0, 312(%rbx)
	vmovups	%ymm0, 288(%rbx)
	vmovups	%ymm0, 256(%rbx)
	vmovups	%ymm0, 224(%rbx)
	vmovups	%ymm0, 192(%rbx)
	vmovups	%ymm0, 160(%rbx)
	vmovups	%ymm0, 128(%rbx)
	vmovups	%ymm0, 96(%rbx)
	vmovups	%ymm0, 64(%rbx)
	vmovups	%ymm0, 32(%rbx)
	vmovups	%ymm0, (%rbx)
	movl	$-1, %eax
	jmp	4f
2:
	shll	$16, %r8d
	vxorps	%xmm2, %xmm2, %xmm2
	vmovaps	%ymm2, (%rsp)
	orl	%r13d, %r8d
	vmovd	%r8d, %xmm2
	vmovq	%xmm2, %xmm2
	vpbroadcastd	%xmm1, %xmm1
	vpblendd	$2, %ymm1, %ymm2, %ymm1
	vpunpcklqdq	%xmm0, %xmm1, %xmm0
	vmovd	%edi, %xmm2
	vpbroadcastw	%xmm2, %ymm2
	vpblendw	$1, %ymm2, %ymm1, %ymm1
	vpblendd	$240, %ymm1, %ymm0, %ymm0
	vmovdqa	%ymm0, 64(%rsp)
	movq	%rsp, %rdi
	vzeroupper
	vj_c_call	memcpy
	leaq	16(%rsp), %rdi
	movq	%r12, %rsi
	movq	%r14, %rdx
	vj_c_call	memcpy
	vpxor	%xmm0, %xmm0, %xmm0
	vmovdqa	%ymm0, 160(%rsp)
	vmovdqa	%ymm0, 192(%rsp)
	vmovdqa	%ymm0, 224(%rsp)
	vmovdqa	%ymm0, 256(%rsp)
	vmovdqa	%ymm0, 96(%rsp)
	vpxor	%xmm1, %xmm1, %xmm1
	vmovaps	(%rsp), %ymm0
	vmovdqa	%ymm1, 128(%rsp)
	xorl	%eax, %eax
3:
	vxorps	.L1_v3_CPI5_0(%rip), %ymm0, %ymm0
	vmovaps	64(%rsp), %ymm1
	vxorps	.L1_v3_CPI5_1(%rip), %ymm1, %ymm1
	vmovups	%ymm1, (%rbx)
	vmovups	%ymm0, 32(%rbx)
	vmovups	%ymm1, 64(%rbx)
	vmovups	%ymm0, 96(%rbx)
	movq	$0, 128(%rbx)
	movl	%eax, 136(%rbx)
	movl	%eax, 140(%rbx)
	movl	%r13d, 144(%rbx)
	movl	$0, 148(%rbx)
	vmovaps	160(%rsp), %ymm0
	vmovaps	192(%rsp), %ymm1
	vmovaps	224(%rsp), %ymm2
	vmovaps	256(%rsp), %ymm3
	vmovups	%ymm0, 152(%rbx)
	vmovups	%ymm1, 184(%rbx)
	vmovups	%ymm2, 216(%rbx)
	vmovups	%ymm3, 248(%rbx)
	vmovaps	96(%rsp), %ymm0
	vmovaps	128(%rsp), %ymm1
	vmovups	%ymm0, 280(%rbx)
	vmovups	%ymm1, 312(%rbx)
	xorl	%eax, %eax
4:
	leaq	-40(%rbp), %rsp
	popq	%rbx
	popq	%r12
	popq	%r13
	popq	%r14
	popq	%r15
	popq	%rbp
	vzeroupper
	retq
	vj_end	blake2_ffi..blake2b..initialize_1_v3

	vj_function	blake2_digest..wiping..scrub_stack..1024_1_v3
	pushq	%rbx
	subq	$1024, %rsp
	movq	%rsp, %rbx
	movl	$1024, %edx
	movq	%rbx, %rdi
	xorl	%esi, %esi
	vj_c_call	memset
	movq	%rbx, %rdi
	callq	blake2_digest..wiping..settle..1024_1_v3
	addq	$1024, %rsp
	popq	%rbx
	retq
	vj_end	blake2_digest..wiping..scrub_stack..1024_1_v3

	vj_function	blake2_digest..wiping..settle..1024_1_v3
	vmovdqu	128(%rdi), %ymm0
	vmovdqu	160(%rdi), %ymm1
	vmovdqu	192(%rdi), %ymm2
	vmovdqu	224(%rdi), %ymm3
	vpor	(%rdi), %ymm0, %ymm0
	vpor	32(%rdi), %ymm1, %ymm1
	vpor	64(%rdi), %ymm2, %ymm2
	vpor	96(%rdi), %ymm3, %ymm3
	vpor	256(%rdi), %ymm0, %ymm0
	vpor	288(%rdi), %ymm1, %ymm1
	vpor	320(%rdi), %ymm2, %ymm2
	vpor	352(%rdi), %ymm3, %ymm3
	vpor	384(%rdi), %ymm0, %ymm0
	vpor	416(%rdi), %ymm1, %ymm1
	vpor	448(%rdi), %ymm2, %ymm2
	vpor	480(%rdi), %ymm3, %ymm3
	vpor	512(%rdi), %ymm0, %ymm0
	vpor	544(%rdi), %ymm1, %ymm1
	vpor	576(%rdi), %ymm2, %ymm2
	vpor	608(%rdi), %ymm3, %ymm3
	vpor	640(%rdi), %ymm0, %ymm0
	vpor	672(%rdi), %ymm1, %ymm1
	vpor	704(%rdi), %ymm2, %ymm2
	vpor	736(%rdi), %ymm3, %ymm3
	vpor	768(%rdi), %ymm0, %ymm0
	vpor	800(%rdi), %ymm1, %ymm1
	vpor	832(%rdi), %ymm2, %ymm2
	vpor	864(%rdi), %ymm3, %ymm3
	vpor	896(%rdi), %ymm0, %ymm0
	vpor	928(%rdi), %ymm1, %ymm1
	vpor	%ymm0, %ymm1, %ymm0
	vpor	960(%rdi), %ymm2, %ymm1
	vpor	992(%rdi), %ymm3, %ymm2
	vpor	%ymm1, %ymm2, %ymm1
	vpor	%ymm0, %ymm1, %ymm0
	vptest	%ymm0, %ymm0
	je	1f
	pause
1:
	vzeroupper
	retq
	vj_end	blake2_digest..wiping..settle..1024_1_v3

	vj_function	blake2_state..blake2b..State..save_1_v3
	pushq	%rbp
	pushq	%r15
	pushq	%r14
	pushq	%r13
	pushq	%r12
	pushq	%rbx
	subq	$536, %rsp
	movl	144(%rsi), %r14d
	leal	-1(%r14), %eax
	cmpl	$63, %eax
	ja	1f
	movl	136(%rsi), %ebx
	cmpq	$128, %rbx
	ja	1f
	movl	140(%rsi), %eax
	cmpl	$128, %eax
	ja	1f
	movl	%ebx, %ecx
	notl	%ecx
	movslq	%ecx, %rcx
	cmpq	%rcx, 128(%rsi)
	ja	1f
	movq	64(%rsi), %rbp
	movl	%ebp, %ecx
	andl	$65280, %ecx
	cmpl	$51456, %ecx
	sete	%cl
	testl	%eax, %eax
	sete	%al
	testb	%cl, %al
	je	1f
	movl	148(%rsi), %eax
	movl	%eax, 4(%rsp)
	vxorps	%xmm0, %xmm0, %xmm0
	vmovups	%ymm0, 208(%rsp)
	vmovups	%ymm0, 176(%rsp)
	vmovups	%ymm0, 144(%rsp)
	vmovups	%ymm0, 112(%rsp)
	movzbl	24(%rsi), %r13d
	movzbl	56(%rsi), %eax
	movb	%al, 2(%rsp)
	vmovups	72(%rsi), %xmm0
	vmovups	%ymm0, 240(%rsp)
	movq	88(%rsi), %r12
	movzbl	120(%rsi), %eax
	movb	%al, 3(%rsp)
	movq	128(%rsi), %rax
	movq	%rax, 8(%rsp)
	leaq	152(%rsi), %rax
	vmovups	32(%rsi), %xmm0
	vmovaps	%xmm0, 64(%rsp)
	vmovups	(%rsi), %xmm0
	vmovaps	%xmm0, 32(%rsp)
	vmovups	16(%rsi), %xmm0
	vmovaps	%xmm0, 16(%rsp)
	vmovups	48(%rsi), %xmm0
	vmovaps	%xmm0, 48(%rsp)
	vmovups	96(%rsi), %xmm0
	vmovaps	%xmm0, 80(%rsp)
	vmovups	112(%rsi), %xmm0
	vmovaps	%xmm0, 96(%rsp)
	leaq	112(%rsp), %rcx
	movq	%rdi, %r15
	movq	%rcx, %rdi
	movq	%rax, %rsi
	movq	%rbx, %rdx
	vzeroupper
	vj_c_call	memcpy
	vmovups	112(%rsp), %ymm0
	vmovups	144(%rsp), %ymm1
	vmovups	176(%rsp), %ymm2
	vmovups	208(%rsp), %ymm3
	vmovups	%ymm3, 496(%rsp)
	vmovups	%ymm2, 464(%rsp)
	vmovups	%ymm1, 432(%rsp)
	vmovups	%ymm0, 400(%rsp)
	vmovups	%ymm0, 272(%rsp)
	vmovups	%ymm1, 304(%rsp)
	vmovups	%ymm2, 336(%rsp)
	vmovups	%ymm3, 368(%rsp)
	movb	$1, (%r15)
	movabsq	$99697414952275010, %rax
	movq	%rax, 1(%r15)
	vmovaps	32(%rsp), %xmm0
	vmovups	%xmm0, 9(%r15)
	vmovdqa	16(%rsp), %xmm0
	vmovq	%xmm0, 25(%r15)
	movb	%r13b, 33(%r15)
	vmovdqa	64(%rsp), %xmm1
	vpalignr	$9, %xmm0, %xmm1, %xmm0
	vmovdqu	%xmm0, 34(%r15)
	vmovdqa	48(%rsp), %xmm2
	vpalignr	$9, %xmm1, %xmm2, %xmm0
	vmovq	%xmm0, 50(%r15)
	vpsrlq	$8, %xmm2, %xmm0
	vmovd	%xmm0, 58(%r15)
	vmovq	%rbp, %xmm0
	vpextrb	$5, %xmm2, 62(%r15)
	vpermq	$208, 240(%rsp), %ymm1
	vpextrb	$6, %xmm2, 63(%r15)
	vpblendd	$3, %xmm0, %xmm1, %xmm0
	vpextrb	$7, %xmm2, 64(%r15)
	movzbl	2(%rsp), %eax
	movb	%al, 65(%r15)
	vpalignr	$9, %xmm2, %xmm0, %xmm2
	vmovdqu	%xmm2, 66(%r15)
	vextracti128	$1, %ymm1, %xmm1
	vpalignr	$9, %xmm0, %xmm1, %xmm0
	vmovq	%xmm0, 82(%r15)
	vpsrlq	$8, %xmm1, %xmm0
	vmovd	%xmm0, 90(%r15)
	vpextrb	$5, %xmm1, 94(%r15)
	vmovq	%r12, %xmm0
	vpextrb	$6, %xmm1, 95(%r15)
	vpbroadcastq	%xmm0, %xmm0
	vpextrb	$7, %xmm1, 96(%r15)
	movb	%r12b, 97(%r15)
	vmovdqa	80(%rsp), %xmm2
	vpalignr	$9, %xmm0, %xmm2, %xmm0
	vmovdqu	%xmm0, 98(%r15)
	vmovdqa	96(%rsp), %xmm1
	vpalignr	$9, %xmm2, %xmm1, %xmm0
	vmovq	%xmm0, 114(%r15)
	vpsrlq	$8, %xmm1, %xmm0
	vmovd	%xmm0, 122(%r15)
	vpextrb	$5, %xmm1, 126(%r15)
	vpextrb	$6, %xmm1, 127(%r15)
	vpextrb	$7, %xmm1, 128(%r15)
	movzbl	3(%rsp), %eax
	movb	%al, 129(%r15)
	vpsrldq	$9, %xmm1, %xmm0
	vmovd	%xmm0, 130(%r15)
	vpextrb	$13, %xmm1, 134(%r15)
	vpextrb	$14, %xmm1, 135(%r15)
	vpextrb	$15, %xmm1, 136(%r15)
	cmpl	$0, 4(%rsp)
	movq	8(%rsp), %rax
	movq	%rax, 137(%r15)
	movb	%r14b, 145(%r15)
	movb	%bl, 146(%r15)
	setne	147(%r15)
	vmovups	272(%rsp), %ymm0
	vmovups	304(%rsp), %ymm1
	vmovups	336(%rsp), %ymm2
	vmovups	368(%rsp), %ymm3
	vmovups	%ymm3, 244(%r15)
	vmovups	%ymm2, 212(%r15)
	vmovups	%ymm1, 180(%r15)
	vmovups	%ymm0, 148(%r15)
	jmp	2f
1:
	vxorps	%xmm0, %xmm0, %xmm0
	vmovups	%ymm0, 244(%rdi)
	vmovups	%ymm0, 224(%rdi)
	vmovups	%ymm0, 192(%rdi)
	vmovups	%ymm0, 160(%rdi)
	vmovups	%ymm0, 128(%rdi)
	vmovups	%ymm0, 96(%rdi)
	vmovups	%ymm0, 64(%rdi)
	vmovups	%ymm0, 32(%rdi)
	vmovups	%ymm0, (%rdi)
2:
	addq	$536, %rsp
	popq	%rbx
	popq	%r12
	popq	%r13
	popq	%r14
	popq	%r15
	popq	%rbp
	vzeroupper
	retq
	vj_end	blake2_state..blake2b..State..save_1_v3

	vj_function	core..cmp..slices..groups_equal..i8.31.core..cmp..numbers..U8PartialEq_1_v3
	cmpq	$8, %rsi
	ja	1f
	vmovd	(%rdi), %xmm0
	vpinsrd	$1, -4(%rdi,%rsi), %xmm0, %xmm0
	vmovd	(%rdx), %xmm1
	vpinsrd	$1, -4(%rdx,%rsi), %xmm1, %xmm1
	vmovq	%xmm0, %rax
	vmovq	%xmm1, %rcx
	cmpq	%rcx, %rax
	jmp	10f
1:
	cmpq	$32, %rsi
	ja	2f
	leaq	-8(%rsi), %rax
	cmpq	$8, %rax
	movl	$8, %ecx
	cmovbq	%rax, %rcx
	cmpq	$16, %rax
	movl	$16, %r8d
	cmovbq	%rax, %r8
	vmovq	(%rdi), %xmm0
	vmovq	(%rdx), %xmm1
	vmovq	(%rdi,%rcx), %xmm2
	vmovq	(%rdx,%rcx), %xmm3
	vmovq	(%rdi,%r8), %xmm4
	vmovq	(%rdx,%r8), %xmm5
	vmovq	-8(%rdi,%rsi), %xmm6
	vmovq	-8(%rdx,%rsi), %xmm7
	vinserti128	$1, %xmm2, %ymm0, %ymm0
	vinserti128	$1, %xmm6, %ymm4, %ymm2
	vpunpcklqdq	%ymm2, %ymm0, %ymm0
	vpermq	$216, %ymm0, %ymm0
	vinserti128	$1, %xmm3, %ymm1, %ymm1
	vinserti128	$1, %xmm7, %ymm5, %ymm2
	vpunpcklqdq	%ymm2, %ymm1, %ymm1
	vpermq	$216, %ymm1, %ymm1
	vpxor	%ymm1, %ymm0, %ymm0
	jmp	9f
2:
	cmpq	$65, %rsi
	jae	3f
	vmovdqu	(%rdi), %ymm0
	vmovdqu	-32(%rdi,%rsi), %ymm1
	vpxor	-32(%rdx,%rsi), %ymm1, %ymm1
	vpxor	(%rdx), %ymm0, %ymm0
	vpor	%ymm1, %ymm0, %ymm0
	jmp	9f
3:
	xorl	%eax, %eax
	movq	%rsi, %rcx
	.p2align	4
4:
	vmovdqu	(%rdi,%rax), %ymm0
	vmovdqu	32(%rdi,%rax), %ymm1
	vpxor	32(%rdx,%rax), %ymm1, %ymm1
	vpxor	(%rdx,%rax), %ymm0, %ymm0
	vpor	%ymm0, %ymm1, %ymm0
	vptest	%ymm0, %ymm0
	jne	5f
	addq	$64, %rax
	addq	$-64, %rcx
	cmpq	$63, %rcx
	ja	4b
5:
	cmpq	$32, %rcx
	jb	8f
	movq	%rsi, %rcx
	subq	%rax, %rcx
	.p2align	4
6:
	vmovdqu	(%rdi,%rax), %ymm0
	vpxor	(%rdx,%rax), %ymm0, %ymm0
	vptest	%ymm0, %ymm0
	jne	7f
	addq	$32, %rax
	addq	$-32, %rcx
	cmpq	$32, %rcx
	jae	6b
	jmp	8f
7:
	movb	$1, %al
	cmpq	$31, %rcx
	ja	11f
8:
	vmovdqu	-32(%rdi,%rsi), %ymm0
	vpxor	-32(%rdx,%rsi), %ymm0, %ymm0
9:
	vptest	%ymm0, %ymm0
10:
	setne	%al
11:
	xorb	$1, %al
	vzeroupper
	retq
	vj_end	core..cmp..slices..groups_equal..i8.31.core..cmp..numbers..U8PartialEq_1_v3

	vj_function	blake2_ffi..blake2b..update_scrubbed_1_v3
	pushq	%rax
	callq	blake2_ffi..blake2b..update_in_frame_1_v3
	popq	%rax
	jmp	blake2_digest..wiping..scrub_stack..1152_1_v3
	vj_end	blake2_ffi..blake2b..update_scrubbed_1_v3

	vj_function	blake2_ffi..blake2b..update_in_frame_1_v3
	cmpq	$1, %rdx
	jne	blake2_state..blake2b..State..absorb_blocks_1_v3
	movl	136(%rdi), %eax
	cmpq	$128, %rax
	jae	1f
	movzbl	(%rsi), %ecx
	movb	%cl, 152(%rdi,%rax)
	incl	%eax
	movl	%eax, 136(%rdi)
	retq
1:
	movl	$1, %edx
	jmp	blake2_state..blake2b..State..absorb_blocks_1_v3
	vj_end	blake2_ffi..blake2b..update_in_frame_1_v3

	vj_function	blake2_digest..wiping..scrub_stack..1152_1_v3
	pushq	%rbx
	subq	$1152, %rsp
	movq	%rsp, %rbx
	movl	$1152, %edx
	movq	%rbx, %rdi
	xorl	%esi, %esi
	vj_c_call	memset
	movq	%rbx, %rdi
	callq	blake2_digest..wiping..settle..1152_1_v3
	addq	$1152, %rsp
	popq	%rbx
	retq
	vj_end	blake2_digest..wiping..scrub_stack..1152_1_v3

	vj_function	blake2_digest..wiping..settle..1152_1_v3
	vmovdqu	128(%rdi), %ymm0
	vmovdqu	160(%rdi), %ymm1
	vmovdqu	192(%rdi), %ymm2
	vmovdqu	224(%rdi), %ymm3
	vpor	(%rdi), %ymm0, %ymm0
	vpor	32(%rdi), %ymm1, %ymm1
	vpor	64(%rdi), %ymm2, %ymm2
	vpor	96(%rdi), %ymm3, %ymm3
	vpor	256(%rdi), %ymm0, %ymm0
	vpor	288(%rdi), %ymm1, %ymm1
	vpor	320(%rdi), %ymm2, %ymm2
	vpor	352(%rdi), %ymm3, %ymm3
	vpor	384(%rdi), %ymm0, %ymm0
	vpor	416(%rdi), %ymm1, %ymm1
	vpor	448(%rdi), %ymm2, %ymm2
	vpor	480(%rdi), %ymm3, %ymm3
	vpor	512(%rdi), %ymm0, %ymm0
	vpor	544(%rdi), %ymm1, %ymm1
	vpor	576(%rdi), %ymm2, %ymm2
	vpor	608(%rdi), %ymm3, %ymm3
	vpor	640(%rdi), %ymm0, %ymm0
	vpor	672(%rdi), %ymm1, %ymm1
	vpor	704(%rdi), %ymm2, %ymm2
	vpor	736(%rdi), %ymm3, %ymm3
	vpor	768(%rdi), %ymm0, %ymm0
	vpor	800(%rdi), %ymm1, %ymm1
	vpor	832(%rdi), %ymm2, %ymm2
	vpor	864(%rdi), %ymm3, %ymm3
	vpor	896(%rdi), %ymm0, %ymm0
	vpor	928(%rdi), %ymm1, %ymm1
	vpor	960(%rdi), %ymm2, %ymm2
	vpor	992(%rdi), %ymm3, %ymm3
	vpor	1024(%rdi), %ymm0, %ymm0
	vpor	1056(%rdi), %ymm1, %ymm1
	vpor	%ymm0, %ymm1, %ymm0
	vpor	1088(%rdi), %ymm2, %ymm1
	vpor	1120(%rdi), %ymm3, %ymm2
	vpor	%ymm1, %ymm2, %ymm1
	vpor	%ymm0, %ymm1, %ymm0
	vptest	%ymm0, %ymm0
	je	1f
	pause
1:
	vzeroupper
	retq
	vj_end	blake2_digest..wiping..settle..1152_1_v3

	vj_function	blake2_state..blake2b..State..absorb_blocks_1_v3
	pushq	%r15
	pushq	%r14
	pushq	%rbx
	subq	$144, %rsp
	movq	%rdx, %r14
	movq	%rsi, %rdx
	movq	%rdi, %rbx
	movl	136(%rdi), %r15d
	movl	$128, %eax
	subq	%r15, %rax
	cmpq	%rax, %r14
	jbe	1f
	movq	128(%rbx), %rax
	vmovups	(%rbx), %ymm0
	vmovups	32(%rbx), %ymm1
	vmovups	64(%rbx), %ymm2
	vmovups	96(%rbx), %ymm3
	xorl	%ecx, %ecx
	cmpl	$0, 148(%rbx)
	vmovups	%ymm0, (%rsp)
	vmovups	%ymm1, 32(%rsp)
	vmovups	%ymm2, 64(%rsp)
	vmovups	%ymm3, 96(%rsp)
	setne	%cl
	movq	%rax, 128(%rsp)
	movq	%rcx, 136(%rsp)
	leaq	152(%rbx), %rdi
	movq	%rsp, %r8
	movq	%r15, %rsi
	movq	%r14, %rcx
	vzeroupper
	callq	blake2_digest..buffer..digest_into..33c1e97afcdf8a5d_1_v3
	movl	%eax, 136(%rbx)
	vmovups	(%rsp), %ymm0
	vmovups	%ymm0, (%rbx)
	vmovups	32(%rsp), %ymm0
	vmovups	%ymm0, 32(%rbx)
	movq	128(%rsp), %rax
	movq	%rax, 128(%rbx)
	jmp	9f
1:
	leaq	(%rbx,%r15), %rdi
	addq	$152, %rdi
	movq	%rdi, %rax
	subq	%rdx, %rax
	cmpq	%r14, %rax
	jae	7f
	cmpq	$8, %r14
	jb	2f
	leaq	(%rbx,%r15), %rax
	subq	%rdx, %rax
	addq	$152, %rax
	cmpq	$128, %rax
	jae	10f
2:
	xorl	%eax, %eax
3:
	movq	%r14, %rsi
	movq	%rax, %rcx
	andq	$7, %rsi
	je	5f
	movq	%rax, %rcx
	.p2align	4
4:
	movzbl	(%rdx,%rcx), %r8d
	movb	%r8b, (%rdi,%rcx)
	incq	%rcx
	decq	%rsi
	jne	4b
5:
	subq	%r14, %rax
	cmpq	$-8, %rax
	ja	8f
	leaq	(%r15,%rbx), %rax
	addq	$159, %rax
	.p2align	4
6:
	movzbl	(%rdx,%rcx), %esi
	movb	%sil, -7(%rax,%rcx)
	movzbl	1(%rdx,%rcx), %esi
	movb	%sil, -6(%rax,%rcx)
	movzbl	2(%rdx,%rcx), %esi
	movb	%sil, -5(%rax,%rcx)
	movzbl	3(%rdx,%rcx), %esi
	movb	%sil, -4(%rax,%rcx)
	movzbl	4(%rdx,%rcx), %esi
	movb	%sil, -3(%rax,%rcx)
	movzbl	5(%rdx,%rcx), %esi
	movb	%sil, -2(%rax,%rcx)
	movzbl	6(%rdx,%rcx), %esi
	movb	%sil, -1(%rax,%rcx)
	movzbl	7(%rdx,%rcx), %esi
	movb	%sil, (%rax,%rcx)
	addq	$8, %rcx
	cmpq	%rcx, %r14
	jne	6b
	jmp	8f
7:
	movq	%rdx, %rsi
	movq	%r14, %rdx
	vj_c_call	memmove
8:
	addl	%r15d, %r14d
	movl	%r14d, 136(%rbx)
9:
	addq	$144, %rsp
	popq	%rbx
	popq	%r14
	popq	%r15
	vzeroupper
	retq
10:
	cmpq	$128, %r14
	jae	11f
	xorl	%eax, %eax
	jmp	13f
11:
	movq	%r14, %rax
	andq	$-128, %rax
	leaq	(%r15,%rbx), %rcx
	addq	$248, %rcx
	xorl	%esi, %esi
	.p2align	4
12:
	vmovups	(%rdx,%rsi), %ymm0
	vmovups	32(%rdx,%rsi), %ymm1
	vmovups	64(%rdx,%rsi), %ymm2
	vmovups	96(%rdx,%rsi), %ymm3
	vmovups	%ymm0, -96(%rcx,%rsi)
	vmovups	%ymm1, -64(%rcx,%rsi)
	vmovups	%ymm2, -32(%rcx,%rsi)
	vmovups	%ymm3, (%rcx,%rsi)
	subq	$-128, %rsi
	cmpq	%rsi, %rax
	jne	12b
	cmpq	%rax, %r14
	je	8b
	testb	$120, %r14b
	je	3b
13:
	movq	%rax, %rcx
	movq	%r14, %rax
	andq	$-8, %rax
	.p2align	4
14:
	movq	(%rdx,%rcx), %rsi
	movq	%rsi, (%rdi,%rcx)
	addq	$8, %rcx
	cmpq	%rcx, %rax
	jne	14b
	cmpq	%rax, %r14
	je	8b
	jmp	3b
	vj_end	blake2_state..blake2b..State..absorb_blocks_1_v3

	vj_function	blake2_digest..buffer..digest_into..33c1e97afcdf8a5d_1_v3
	pushq	%rbp
	pushq	%r15
	pushq	%r14
	pushq	%r13
	pushq	%r12
	pushq	%rbx
	pushq	%rax
	movq	%rcx, %r15
	movq	%rdx, %r14
	movq	%rdi, %rbx
	movl	$128, %r13d
	subq	%rsi, %r13
	movq	%rcx, %rbp
	subq	%r13, %rbp
	jbe	2f
	movq	%r8, %r12
	testq	%rsi, %rsi
	je	10f
	leaq	(%rbx,%rsi), %rdi
	movq	%rdi, %rax
	subq	%r14, %rax
	cmpq	%r13, %rax
	jae	11f
	cmpq	$8, %r13
	jb	1f
	cmpq	$128, %rax
	jae	13f
1:
	xorl	%eax, %eax
	jmp	22f
2:
	leaq	(%rbx,%rsi), %rdi
	movq	%rdi, %rax
	subq	%r14, %rax
	cmpq	%r15, %rax
	jae	8f
	cmpq	$8, %r15
	jb	3f
	cmpq	$128, %rax
	jae	12f
3:
	xorl	%eax, %eax
4:
	movq	%r15, %rdx
	movq	%rax, %rcx
	andq	$7, %rdx
	je	6f
	movq	%rax, %rcx
	.p2align	4
5:
	movzbl	(%r14,%rcx), %r8d
	movb	%r8b, (%rdi,%rcx)
	incq	%rcx
	decq	%rdx
	jne	5b
6:
	subq	%r15, %rax
	cmpq	$-8, %rax
	ja	9f
	leaq	(%rsi,%rbx), %rax
	addq	$7, %rax
	.p2align	4
7:
	movzbl	(%r14,%rcx), %edx
	movb	%dl, -7(%rax,%rcx)
	movzbl	1(%r14,%rcx), %edx
	movb	%dl, -6(%rax,%rcx)
	movzbl	2(%r14,%rcx), %edx
	movb	%dl, -5(%rax,%rcx)
	movzbl	3(%r14,%rcx), %edx
	movb	%dl, -4(%rax,%rcx)
	movzbl	4(%r14,%rcx), %edx
	movb	%dl, -3(%rax,%rcx)
	movzbl	5(%r14,%rcx), %edx
	movb	%dl, -2(%rax,%rcx)
	movzbl	6(%r14,%rcx), %edx
	movb	%dl, -1(%rax,%rcx)
	movzbl	7(%r14,%rcx), %edx
	movb	%dl, (%rax,%rcx)
	addq	$8, %rcx
	cmpq	%rcx, %r15
	jne	7b
	jmp	9f
8:
	movq	%rsi, %rbx
	movq	%r14, %rsi
	movq	%r15, %rdx
	vj_c_call	memmove
	movq	%rbx, %rsi
9:
	addq	%rsi, %r15
	jmp	36f
10:
	movq	%r15, %rbp
	jmp	25f
11:
	movq	%r14, %rsi
	movq	%r13, %rdx
	vj_c_call	memmove
	jmp	24f
12:
	cmpq	$128, %r15
	jae	14f
	xorl	%eax, %eax
	jmp	16f
13:
	cmpq	$129, %rsi
	jae	18f
	xorl	%eax, %eax
	jmp	20f
14:
	movq	%r15, %rax
	andq	$-128, %rax
	leaq	(%rsi,%rbx), %rcx
	addq	$96, %rcx
	xorl	%edx, %edx
	.p2align	4
15:
	vmovups	(%r14,%rdx), %ymm0
	vmovups	32(%r14,%rdx), %ymm1
	vmovups	64(%r14,%rdx), %ymm2
	vmovups	96(%r14,%rdx), %ymm3
	vmovups	%ymm0, -96(%rcx,%rdx)
	vmovups	%ymm1, -64(%rcx,%rdx)
	vmovups	%ymm2, -32(%rcx,%rdx)
	vmovups	%ymm3, (%rcx,%rdx)
	subq	$-128, %rdx
	cmpq	%rdx, %rax
	jne	15b
	cmpq	%rax, %r15
	je	9b
	testb	$120, %r15b
	je	4b
16:
	movq	%rax, %rcx
	movq	%r15, %rax
	andq	$-8, %rax
	.p2align	4
17:
	movq	(%r14,%rcx), %rdx
	movq	%rdx, (%rdi,%rcx)
	addq	$8, %rcx
	cmpq	%rcx, %rax
	jne	17b
	cmpq	%rax, %r15
	je	9b
	jmp	4b
18:
	movq	%r13, %rax
	andq	$-128, %rax
	leaq	(%rsi,%rbx), %rcx
	addq	$96, %rcx
	xorl	%edx, %edx
	.p2align	4
19:
	vmovups	(%r14,%rdx), %ymm0
	vmovups	32(%r14,%rdx), %ymm1
	vmovups	64(%r14,%rdx), %ymm2
	vmovups	96(%r14,%rdx), %ymm3
	vmovups	%ymm0, -96(%rcx,%rdx)
	vmovups	%ymm1, -64(%rcx,%rdx)
	vmovups	%ymm2, -32(%rcx,%rdx)
	vmovups	%ymm3, (%rcx,%rdx)
	subq	$-128, %rdx
	cmpq	%rdx, %rax
	jne	19b
	cmpq	%rax, %r13
	je	24f
	testb	$120, %r13b
	je	22f
20:
	movq	%rax, %rcx
	movq	%r13, %rax
	andq	$-8, %rax
	.p2align	4
21:
	movq	(%r14,%rcx), %rdx
	movq	%rdx, (%rdi,%rcx)
	addq	$8, %rcx
	cmpq	%rcx, %rax
	jne	21b
	jmp	23f
22:
	movzbl	(%r14,%rax), %ecx
	movb	%cl, (%rdi,%rax)
	incq	%rax
23:
	cmpq	%rax, %r13
	jne	22b
24:
	addq	%r13, %r14
	movq	128(%r12), %rdx
	subq	$-128, %rdx
	movq	%rdx, 128(%r12)
	movq	%r12, %rdi
	movq	%rbx, %rsi
	xorl	%ecx, %ecx
	xorl	%r8d, %r8d
	vzeroupper
	vj_call	blake2_compress..compress..blake2b..compress_1_v3
25:
	cmpq	$1, %rbp
	movq	%rbp, (%rsp)
	movq	%rbp, %r13
	adcq	$-1, %r13
	movq	%r13, %rbp
	andq	$-128, %rbp
	shrq	$7, %r13
	je	27f
	movq	%r14, %r15
	.p2align	4
26:
	movq	128(%r12), %rdx
	subq	$-128, %rdx
	movq	%rdx, 128(%r12)
	movq	%r12, %rdi
	movq	%r15, %rsi
	xorl	%ecx, %ecx
	xorl	%r8d, %r8d
	vj_call	blake2_compress..compress..blake2b..compress_1_v3
	subq	$-128, %r15
	decq	%r13
	jne	26b
27:
	leaq	(%r14,%rbp), %rsi
	movq	(%rsp), %r15
	subq	%rbp, %r15
	vxorps	%xmm0, %xmm0, %xmm0
	vmovups	%ymm0, 96(%rbx)
	vmovups	%ymm0, 64(%rbx)
	vmovups	%ymm0, 32(%rbx)
	vmovups	%ymm0, (%rbx)
	movq	%rbx, %rax
	subq	%rsi, %rax
	cmpq	%r15, %rax
	jae	28f
	cmpq	$8, %r15
	jae	29f
	xorl	%eax, %eax
	jmp	35f
28:
	movq	%rbx, %rdi
	movq	%r15, %rdx
	vzeroupper
	vj_c_call	memmove
	jmp	36f
29:
	cmpq	$128, %rax
	jae	30f
	xorl	%eax, %eax
	jmp	35f
30:
	cmpq	$128, %r15
	jae	31f
	xorl	%eax, %eax
	jmp	33f
31:
	movq	(%rsp), %rdx
	movl	%edx, %ecx
	andl	$127, %ecx
	movq	%r15, %rax
	subq	%rcx, %rax
	andq	$-128, %rdx
	subq	%rbp, %rdx
	leaq	(%r14,%rbp), %rdi
	addq	$96, %rdi
	xorl	%r8d, %r8d
	.p2align	4
32:
	vmovups	-96(%rdi,%r8), %ymm0
	vmovups	-64(%rdi,%r8), %ymm1
	vmovups	-32(%rdi,%r8), %ymm2
	vmovups	(%rdi,%r8), %ymm3
	vmovups	%ymm0, (%rbx,%r8)
	vmovups	%ymm1, 32(%rbx,%r8)
	vmovups	%ymm2, 64(%rbx,%r8)
	vmovups	%ymm3, 96(%rbx,%r8)
	subq	$-128, %r8
	cmpq	%r8, %rdx
	jne	32b
	testq	%rcx, %rcx
	je	36f
	cmpl	$8, %ecx
	jb	35f
33:
	movq	%rax, %rcx
	movq	(%rsp), %rdi
	andl	$7, %edi
	movq	%r15, %rax
	subq	%rdi, %rax
	.p2align	4
34:
	movq	(%rsi,%rcx), %rdx
	movq	%rdx, (%rbx,%rcx)
	addq	$8, %rcx
	cmpq	%rcx, %rax
	jne	34b
	testq	%rdi, %rdi
	je	36f
	.p2align	4
35:
	movzbl	(%rsi,%rax), %ecx
	movb	%cl, (%rbx,%rax)
	incq	%rax
	cmpq	%rax, %r15
	jne	35b
36:
	movq	%r15, %rax
	addq	$8, %rsp
	popq	%rbx
	popq	%r12
	popq	%r13
	popq	%r14
	popq	%r15
	popq	%rbp
	vzeroupper
	retq
	vj_end	blake2_digest..buffer..digest_into..33c1e97afcdf8a5d_1_v3

	vj_function	blake2_ffi..several..blake2b..update_in_frame_1_v3
	vj_jump	blake2_state..many..blake2b..update_many_1_v3
	vj_end	blake2_ffi..several..blake2b..update_in_frame_1_v3

	vj_constants	8
	.p2align	3, 0x0
.L1_v3_CPI17_0:
	.quad	128
.L1_v3_CPI17_1:
	.quad	256
	vj_shared	blake2_state..many..blake2b..update_many_1_v3
	testq	%rcx, %rcx
	je	30f
	pushq	%rbp
	pushq	%r15
	pushq	%r14
	pushq	%r13
	pushq	%r12
	pushq	%rbx
	subq	$1944, %rsp
	movq	%rcx, %r14
	movq	%rdx, %r12
	movq	%rdi, %rbp
	xorl	%r13d, %r13d
	movq	%rcx, 56(%rsp)
	movq	%rdx, (%rsp)
	movq	%rdi, 384(%rsp)
	jmp	4f
	.p2align	4
1:
	vzeroupper
	callq	blake2_state..blake2b..State..absorb_blocks_1_v3
2:
	movl	$1, %ebx
3:
	addq	%rbx, %r13
	cmpq	%r14, %r13
	jae	29f
4:
	movq	%r14, %rax
	subq	%r13, %rax
	imulq	$344, %r13, %rdi
	cmpq	$3, %rax
	jbe	7f
	movq	%r13, 120(%rsp)
	movq	%r13, %r15
	shlq	$4, %r15
	movq	8(%r12,%r15), %rdx
	movl	136(%rbp,%rdi), %eax
	leaq	(%rdx,%rax), %rcx
	movl	480(%rdi,%rbp), %r13d
	movl	824(%rdi,%rbp), %r10d
	movq	24(%r12,%r15), %rsi
	addq	%r13, %rsi
	cmpq	%rcx, %rsi
	cmovaeq	%rcx, %rsi
	movq	40(%r12,%r15), %rcx
	addq	%r10, %rcx
	cmpq	%rsi, %rcx
	cmovaeq	%rsi, %rcx
	movl	1168(%rdi,%rbp), %r9d
	movq	%rbp, %rsi
	movq	56(%r12,%r15), %r8
	addq	%r9, %r8
	cmpq	%rcx, %r8
	cmovaeq	%rcx, %r8
	cmpq	$129, %r8
	jb	8f
	leaq	(%rsi,%rdi), %rcx
	movq	%r12, %rbp
	leaq	(%rdi,%rsi), %r12
	addq	$344, %r12
	leaq	688(%rdi,%rsi), %rbx
	leaq	1032(%rdi,%rsi), %r14
	vmovsd	(%r14), %xmm0
	vmovsd	(%rbx), %xmm1
	vmovlhps	%xmm0, %xmm1, %xmm0
	vmovaps	%xmm0, 32(%rsp)
	vmovsd	(%r12), %xmm0
	movq	%rcx, 664(%rsp)
	vmovsd	(%rcx), %xmm1
	vmovlhps	%xmm0, %xmm1, %xmm0
	vmovaps	%xmm0, 688(%rsp)
	vmovsd	8(%r14), %xmm0
	vmovsd	8(%rbx), %xmm1
	vmovlhps	%xmm0, %xmm1, %xmm0
	vmovaps	%xmm0, 608(%rsp)
	vmovsd	8(%r12), %xmm0
	vmovsd	8(%rcx), %xmm1
	vmovlhps	%xmm0, %xmm1, %xmm0
	vmovaps	%xmm0, 592(%rsp)
	vmovsd	16(%r14), %xmm0
	vmovsd	16(%rbx), %xmm1
	vmovlhps	%xmm0, %xmm1, %xmm0
	vmovaps	%xmm0, 576(%rsp)
	vmovsd	16(%r12), %xmm0
	vmovsd	16(%rcx), %xmm1
	vmovlhps	%xmm0, %xmm1, %xmm0
	vmovaps	%xmm0, 560(%rsp)
	vmovsd	24(%r14), %xmm0
	vmovsd	24(%rbx), %xmm1
	vmovlhps	%xmm0, %xmm1, %xmm0
	vmovaps	%xmm0, 544(%rsp)
	vmovsd	24(%r12), %xmm0
	vmovsd	24(%rcx), %xmm1
	vmovlhps	%xmm0, %xmm1, %xmm0
	vmovaps	%xmm0, 528(%rsp)
	vmovsd	32(%r14), %xmm0
	vmovsd	32(%rbx), %xmm1
	vmovlhps	%xmm0, %xmm1, %xmm0
	vmovaps	%xmm0, 512(%rsp)
	vmovsd	32(%r12), %xmm0
	vmovsd	32(%rcx), %xmm1
	vmovlhps	%xmm0, %xmm1, %xmm0
	vmovaps	%xmm0, 496(%rsp)
	vmovsd	40(%r14), %xmm0
	vmovsd	40(%rbx), %xmm1
	vmovlhps	%xmm0, %xmm1, %xmm0
	vmovaps	%xmm0, 480(%rsp)
	vmovsd	40(%r12), %xmm0
	vmovsd	40(%rcx), %xmm1
	vmovlhps	%xmm0, %xmm1, %xmm0
	vmovaps	%xmm0, 464(%rsp)
	vmovsd	48(%r14), %xmm0
	vmovsd	48(%rbx), %xmm1
	vmovlhps	%xmm0, %xmm1, %xmm0
	vmovaps	%xmm0, 448(%rsp)
	vmovsd	48(%r12), %xmm0
	vmovsd	48(%rcx), %xmm1
	vmovlhps	%xmm0, %xmm1, %xmm0
	vmovaps	%xmm0, 432(%rsp)
	vmovsd	56(%r14), %xmm0
	vmovsd	56(%rbx), %xmm1
	vmovlhps	%xmm0, %xmm1, %xmm0
	vmovaps	%xmm0, 416(%rsp)
	vmovsd	56(%r12), %xmm0
	movq	(%rbp,%r15), %rsi
	movq	%rsi, 24(%rsp)
	vmovsd	56(%rcx), %xmm1
	vmovups	152(%rcx), %ymm2
	vmovups	184(%rcx), %ymm3
	vmovups	216(%rcx), %ymm4
	vmovups	248(%rcx), %ymm5
	vmovups	%ymm5, 224(%rsp)
	vmovups	%ymm4, 192(%rsp)
	vmovups	%ymm3, 160(%rsp)
	vmovlhps	%xmm0, %xmm1, %xmm0
	vmovaps	%xmm0, 400(%rsp)
	vmovups	%ymm2, 128(%rsp)
	decq	%r8
	shrq	$7, %r8
	movq	%r8, 16(%rsp)
	leaq	(%rsp,%rax), %rdi
	addq	$128, %rdi
	movl	$128, %edx
	subq	%rax, %rdx
	movq	%rdx, 104(%rsp)
	movq	%r9, 80(%rsp)
	movq	%r10, 112(%rsp)
	vzeroupper
	vj_c_call	memcpy
	vmovups	128(%rsp), %ymm0
	vmovups	160(%rsp), %ymm1
	vmovups	192(%rsp), %ymm2
	vmovups	224(%rsp), %ymm3
	vmovups	%ymm3, 816(%rsp)
	vmovups	%ymm2, 784(%rsp)
	vmovups	%ymm1, 752(%rsp)
	vmovups	%ymm0, 720(%rsp)
	vmovups	%ymm0, 1424(%rsp)
	vmovups	%ymm1, 1456(%rsp)
	vmovups	%ymm2, 1488(%rsp)
	vmovups	%ymm3, 1520(%rsp)
	leaq	16(%r15), %rax
	movq	%rax, 672(%rsp)
	leaq	16(%r15), %rax
	movq	(%rbp,%rax), %rsi
	movq	%rsi, 96(%rsp)
	vmovups	152(%r12), %ymm0
	vmovups	184(%r12), %ymm1
	vmovups	216(%r12), %ymm2
	vmovups	248(%r12), %ymm3
	vmovups	%ymm3, 224(%rsp)
	vmovups	%ymm2, 192(%rsp)
	vmovups	%ymm1, 160(%rsp)
	vmovups	%ymm0, 128(%rsp)
	leaq	128(%rsp,%r13), %rdi
	movq	%r13, %rax
	movq	%rbp, %r13
	movl	$128, %edx
	subq	%rax, %rdx
	movq	%rdx, 88(%rsp)
	vzeroupper
	vj_c_call	memcpy
	vmovups	128(%rsp), %ymm0
	vmovups	160(%rsp), %ymm1
	vmovups	192(%rsp), %ymm2
	vmovups	224(%rsp), %ymm3
	vmovups	%ymm3, 816(%rsp)
	vmovups	%ymm2, 784(%rsp)
	vmovups	%ymm1, 752(%rsp)
	vmovups	%ymm0, 720(%rsp)
	leaq	1552(%rsp), %rbp
	vmovups	%ymm3, 96(%rbp)
	vmovups	%ymm2, 64(%rbp)
	vmovups	%ymm1, 32(%rbp)
	vmovups	%ymm0, (%rbp)
	leaq	32(%r15), %rax
	movq	%rax, 680(%rsp)
	leaq	32(%r15), %rax
	movq	(%r13,%rax), %rsi
	movq	%rsi, 72(%rsp)
	movq	%rbx, 8(%rsp)
	vmovups	152(%rbx), %ymm0
	vmovups	184(%rbx), %ymm1
	vmovups	216(%rbx), %ymm2
	vmovups	248(%rbx), %ymm3
	vmovups	%ymm3, 224(%rsp)
	vmovups	%ymm2, 192(%rsp)
	vmovups	%ymm1, 160(%rsp)
	vmovups	%ymm0, 128(%rsp)
	movq	112(%rsp), %rax
	leaq	(%rsp,%rax), %rdi
	addq	$128, %rdi
	movl	$128, %r13d
	subq	%rax, %r13
	movq	%r13, %rdx
	vzeroupper
	vj_c_call	memcpy
	vmovups	128(%rsp), %ymm0
	vmovups	160(%rsp), %ymm1
	vmovups	192(%rsp), %ymm2
	vmovups	224(%rsp), %ymm3
	vmovups	%ymm3, 816(%rsp)
	vmovups	%ymm2, 784(%rsp)
	vmovups	%ymm1, 752(%rsp)
	vmovups	%ymm0, 720(%rsp)
	vmovups	%ymm3, 224(%rbp)
	vmovups	%ymm2, 192(%rbp)
	vmovups	%ymm1, 160(%rbp)
	vmovups	%ymm0, 128(%rbp)
	leaq	48(%r15), %rax
	movq	%rax, 112(%rsp)
	leaq	48(%r15), %rax
	movq	(%rsp), %rcx
	movq	(%rcx,%rax), %rsi
	movq	%rsi, 64(%rsp)
	vmovups	152(%r14), %ymm0
	vmovups	184(%r14), %ymm1
	vmovups	216(%r14), %ymm2
	vmovups	248(%r14), %ymm3
	vmovups	%ymm3, 224(%rsp)
	vmovups	%ymm2, 192(%rsp)
	vmovups	%ymm1, 160(%rsp)
	vmovups	%ymm0, 128(%rsp)
	movq	80(%rsp), %rax
	leaq	(%rsp,%rax), %rdi
	addq	$128, %rdi
	movl	$128, %ebx
	subq	%rax, %rbx
	movq	%rbx, %rdx
	vzeroupper
	vj_c_call	memcpy
	vmovups	224(%rsp), %ymm0
	vmovups	%ymm0, 816(%rsp)
	vmovups	%ymm0, 352(%rbp)
	vmovups	192(%rsp), %ymm0
	vmovups	%ymm0, 784(%rsp)
	vmovups	%ymm0, 320(%rbp)
	vmovups	160(%rsp), %ymm0
	vmovups	%ymm0, 752(%rsp)
	vmovups	%ymm0, 288(%rbp)
	vmovups	128(%rsp), %ymm0
	vmovups	%ymm0, 720(%rsp)
	vmovups	%ymm0, 256(%rbp)
	movq	104(%rsp), %rax
	addq	24(%rsp), %rax
	movq	88(%rsp), %rcx
	addq	96(%rsp), %rcx
	addq	72(%rsp), %r13
	addq	64(%rsp), %rbx
	movq	%rax, 848(%rsp)
	movq	16(%rsp), %rax
	decq	%rax
	movq	%rax, 856(%rsp)
	movq	%rcx, 864(%rsp)
	movq	%rax, 872(%rsp)
	movq	%r13, 880(%rsp)
	movq	%rax, 888(%rsp)
	movq	%rbx, 896(%rsp)
	movq	%rax, 904(%rsp)
	movq	664(%rsp), %rax
	movq	%rax, %rbx
	movq	128(%rax), %rax
	movq	%r12, 104(%rsp)
	vmovq	128(%r12), %xmm0
	movq	%r14, 24(%rsp)
	vmovq	128(%r14), %xmm1
	movq	8(%rsp), %rcx
	vmovq	128(%rcx), %xmm2
	vxorps	%xmm3, %xmm3, %xmm3
	vmovups	%ymm3, 976(%rsp)
	vmovaps	32(%rsp), %xmm3
	vmovups	%xmm3, 144(%rsp)
	vmovaps	688(%rsp), %xmm3
	vmovups	%xmm3, 128(%rsp)
	vmovaps	608(%rsp), %xmm3
	vmovups	%xmm3, 176(%rsp)
	vmovaps	592(%rsp), %xmm3
	vmovups	%xmm3, 160(%rsp)
	vmovaps	576(%rsp), %xmm3
	vmovups	%xmm3, 208(%rsp)
	vmovaps	560(%rsp), %xmm3
	vmovups	%xmm3, 192(%rsp)
	vmovaps	544(%rsp), %xmm3
	vmovups	%xmm3, 240(%rsp)
	vmovaps	528(%rsp), %xmm3
	vmovups	%xmm3, 224(%rsp)
	vmovaps	512(%rsp), %xmm3
	vmovups	%xmm3, 272(%rsp)
	vmovaps	496(%rsp), %xmm3
	vmovups	%xmm3, 256(%rsp)
	vmovaps	480(%rsp), %xmm3
	vmovups	%xmm3, 304(%rsp)
	vmovaps	464(%rsp), %xmm3
	vmovups	%xmm3, 288(%rsp)
	vmovaps	448(%rsp), %xmm3
	vmovups	%xmm3, 336(%rsp)
	vmovaps	432(%rsp), %xmm3
	vmovups	%xmm3, 320(%rsp)
	vmovaps	416(%rsp), %xmm3
	vmovups	%xmm3, 368(%rsp)
	vmovaps	400(%rsp), %xmm3
	vmovups	%xmm3, 352(%rsp)
	vpunpcklqdq	%xmm1, %xmm2, %xmm1
	movq	%rax, 32(%rsp)
	vmovq	%rax, %xmm2
	vpunpcklqdq	%xmm0, %xmm2, %xmm0
	vinserti128	$1, %xmm1, %ymm0, %ymm1
	vpbroadcastq	.L1_v3_CPI17_0(%rip), %ymm0
	vmovdqu	%ymm1, 688(%rsp)
	vpaddq	%ymm0, %ymm1, %ymm0
	vmovdqu	%ymm0, 1008(%rsp)
	vmovups	1520(%rsp), %ymm0
	vmovups	%ymm0, 816(%rsp)
	vmovups	1488(%rsp), %ymm0
	vmovups	%ymm0, 784(%rsp)
	vmovups	1456(%rsp), %ymm0
	vmovups	%ymm0, 752(%rsp)
	vmovups	1424(%rsp), %ymm0
	vmovups	%ymm0, 720(%rsp)
	vmovups	96(%rbp), %ymm0
	vmovups	%ymm0, 1392(%rsp)
	vmovups	64(%rbp), %ymm0
	vmovups	%ymm0, 1360(%rsp)
	vmovups	32(%rbp), %ymm0
	vmovups	%ymm0, 1328(%rsp)
	vmovups	(%rbp), %ymm0
	vmovups	%ymm0, 1296(%rsp)
	vmovups	224(%rbp), %ymm0
	vmovups	%ymm0, 1264(%rsp)
	vmovups	192(%rbp), %ymm0
	vmovups	%ymm0, 1232(%rsp)
	vmovups	160(%rbp), %ymm0
	vmovups	%ymm0, 1200(%rsp)
	vmovups	128(%rbp), %ymm0
	vmovups	%ymm0, 1168(%rsp)
	vmovups	352(%rbp), %ymm0
	vmovups	%ymm0, 1136(%rsp)
	vmovups	320(%rbp), %ymm0
	vmovups	%ymm0, 1104(%rsp)
	vmovups	288(%rbp), %ymm0
	vmovups	%ymm0, 1072(%rsp)
	vmovdqu	256(%rbp), %ymm0
	movq	16(%rsp), %rbp
	vmovdqu	%ymm0, 1040(%rsp)
	movq	$0, 392(%rsp)
	leaq	720(%rsp), %rax
	movq	%rax, 912(%rsp)
	movq	$1, 920(%rsp)
	leaq	1296(%rsp), %rax
	movq	%rax, 928(%rsp)
	movq	$1, 936(%rsp)
	leaq	1168(%rsp), %rax
	movq	%rax, 944(%rsp)
	movq	$1, 952(%rsp)
	leaq	1040(%rsp), %rax
	movq	%rax, 960(%rsp)
	movq	$1, 968(%rsp)
	leaq	128(%rsp), %rdi
	leaq	912(%rsp), %rsi
	leaq	1008(%rsp), %rdx
	leaq	392(%rsp), %rcx
	vzeroupper
	callq	blake2_compress..many..blake2b..compress_blocks_1_v3
	decq	%rbp
	je	5f
	vpbroadcastq	.L1_v3_CPI17_1(%rip), %ymm0
	vpaddq	688(%rsp), %ymm0, %ymm0
	vmovdqu	%ymm0, 976(%rsp)
	leaq	128(%rsp), %rdi
	leaq	848(%rsp), %rsi
	leaq	976(%rsp), %rdx
	leaq	392(%rsp), %rcx
	vzeroupper
	callq	blake2_compress..many..blake2b..compress_blocks_1_v3
5:
	movq	128(%rsp), %rax
	movq	136(%rsp), %rcx
	movq	%rcx, 88(%rsp)
	movq	144(%rsp), %rcx
	movq	%rcx, 496(%rsp)
	movq	152(%rsp), %rcx
	movq	%rcx, 688(%rsp)
	movq	160(%rsp), %rcx
	movq	168(%rsp), %rdx
	movq	%rdx, 80(%rsp)
	movq	176(%rsp), %rdx
	movq	%rdx, 480(%rsp)
	movq	184(%rsp), %rdx
	movq	%rdx, 608(%rsp)
	movq	224(%rsp), %rdx
	movq	232(%rsp), %rsi
	movq	%rsi, 72(%rsp)
	movq	240(%rsp), %rsi
	movq	%rsi, 464(%rsp)
	shlq	$7, %rbp
	movl	136(%rbx), %esi
	movq	%rbp, %rdi
	subq	%rsi, %rdi
	movq	(%rsp), %rsi
	movq	(%rsi,%r15), %r14
	movq	8(%rsi,%r15), %r15
	movq	248(%rsp), %rsi
	movq	%rsi, 592(%rsp)
	movq	192(%rsp), %r9
	movq	256(%rsp), %r8
	movq	264(%rsp), %rsi
	movq	%rsi, 64(%rsp)
	movq	272(%rsp), %rsi
	movq	%rsi, 448(%rsp)
	movq	280(%rsp), %rsi
	movq	%rsi, 576(%rsp)
	movq	288(%rsp), %r10
	movq	296(%rsp), %rsi
	movq	%rsi, 656(%rsp)
	movq	304(%rsp), %rsi
	movq	%rsi, 432(%rsp)
	movq	312(%rsp), %rsi
	movq	%rsi, 560(%rsp)
	movq	352(%rsp), %r11
	movq	360(%rsp), %rsi
	movq	%rsi, 648(%rsp)
	movq	368(%rsp), %rsi
	movq	%rsi, 416(%rsp)
	movq	376(%rsp), %rsi
	movq	%rsi, 544(%rsp)
	movq	320(%rsp), %r13
	movq	200(%rsp), %rsi
	movq	%rsi, 632(%rsp)
	movq	328(%rsp), %rsi
	movq	%rsi, 640(%rsp)
	movq	208(%rsp), %rsi
	movq	%rsi, 96(%rsp)
	movq	336(%rsp), %rsi
	movq	%rsi, 400(%rsp)
	movq	216(%rsp), %rsi
	movq	%rsi, 512(%rsp)
	movq	344(%rsp), %rsi
	movq	%rsi, 528(%rsp)
	leaq	256(%rdi), %rsi
	movq	%r15, %r12
	cmpq	%rsi, %r15
	jb	6f
	movq	%rsi, %r12
6:
	subq	%r12, %r15
	leaq	(%r14,%rdi), %rsi
	addq	$128, %rsi
	subq	$-128, %rdi
	addq	%r12, %r14
	subq	%rdi, %r12
	movq	%rax, (%rbx)
	movq	%rcx, 8(%rbx)
	movq	%r9, 16(%rbx)
	movq	%rdx, 24(%rbx)
	movq	%r8, 32(%rbx)
	movq	%r10, 40(%rbx)
	movq	%r13, 48(%rbx)
	movq	%r11, 56(%rbx)
	movq	%rbp, 16(%rsp)
	movq	32(%rsp), %rax
	leaq	128(%rax,%rbp), %rax
	movq	%rax, 128(%rbx)
	movl	%r12d, 136(%rbx)
	vpxor	%xmm0, %xmm0, %xmm0
	vmovdqu	%ymm0, 224(%rsp)
	vmovdqu	%ymm0, 192(%rsp)
	vmovdqu	%ymm0, 160(%rsp)
	vmovdqu	%ymm0, 128(%rsp)
	leaq	128(%rsp), %rdi
	movq	%r12, %rdx
	vzeroupper
	vj_c_call	memcpy
	vmovups	128(%rsp), %ymm0
	vmovups	160(%rsp), %ymm1
	vmovups	192(%rsp), %ymm2
	vmovups	224(%rsp), %ymm3
	leaq	152(%rbx), %rax
	vmovups	%ymm0, (%rax)
	vmovups	%ymm1, 32(%rax)
	vmovups	%ymm2, 64(%rax)
	vmovups	%ymm3, 96(%rax)
	cmpq	$1, %r15
	movq	24(%rsp), %rbp
	jne	11f
	cmpl	$128, %r12d
	jae	12f
	movzbl	(%r14), %eax
	movl	%r12d, %ecx
	andl	$127, %ecx
	movb	%al, 152(%rbx,%rcx)
	leal	1(%r12), %eax
	movl	%eax, 136(%rbx)
	jmp	14f
	.p2align	4
7:
	movq	%r13, %r15
	shlq	$4, %r15
	movq	8(%r12,%r15), %rdx
	addq	%rbp, %rdi
	movq	(%r12,%r15), %rsi
	cmpq	$1, %rdx
	je	9f
	jmp	1b
	.p2align	4
8:
	movq	%rsi, %rbp
	movq	120(%rsp), %r13
	addq	%rbp, %rdi
	movq	(%r12,%r15), %rsi
	cmpq	$1, %rdx
	jne	1b
9:
	movl	136(%rdi), %eax
	cmpq	$128, %rax
	jae	10f
	movzbl	(%rsi), %ecx
	movb	%cl, 152(%rdi,%rax)
	incl	%eax
	movl	%eax, 136(%rdi)
	jmp	2b
10:
	movl	$1, %ebx
	movl	$1, %edx
	vzeroupper
	callq	blake2_state..blake2b..State..absorb_blocks_1_v3
	jmp	3b
11:
	movq	%rbx, %rdi
	movq	%r14, %rsi
	movq	%r15, %rdx
	jmp	13f
12:
	movl	$1, %edx
	movq	%rbx, %rdi
	movq	%r14, %rsi
13:
	vzeroupper
	callq	blake2_state..blake2b..State..absorb_blocks_1_v3
14:
	movq	104(%rsp), %r12
	leaq	152(%r12), %r13
	movq	16(%rsp), %rdx
	leaq	128(%rdx), %rax
	movq	%rax, 32(%rsp)
	movq	(%rsp), %rax
	movq	672(%rsp), %rcx
	movq	(%rax,%rcx), %rbx
	movq	8(%rax,%rcx), %r14
	movl	136(%r12), %ecx
	movq	%rdx, %rax
	subq	%rcx, %rax
	leaq	256(%rax), %rcx
	movq	%r14, %r15
	cmpq	%rcx, %r14
	jb	15f
	movq	%rcx, %r15
15:
	subq	%r15, %r14
	leaq	(%rbx,%rax), %rsi
	addq	$128, %rsi
	subq	$-128, %rax
	movq	88(%rsp), %rcx
	movq	%rcx, (%r12)
	movq	80(%rsp), %rcx
	movq	%rcx, 8(%r12)
	movq	632(%rsp), %rcx
	movq	%rcx, 16(%r12)
	movq	72(%rsp), %rcx
	movq	%rcx, 24(%r12)
	movq	64(%rsp), %rcx
	movq	%rcx, 32(%r12)
	movq	656(%rsp), %rcx
	movq	%rcx, 40(%r12)
	movq	640(%rsp), %rcx
	movq	%rcx, 48(%r12)
	movq	648(%rsp), %rcx
	movq	%rcx, 56(%r12)
	movq	32(%rsp), %rcx
	addq	%rcx, 128(%r12)
	addq	%r15, %rbx
	subq	%rax, %r15
	movl	%r15d, 136(%r12)
	vxorps	%xmm0, %xmm0, %xmm0
	vmovups	%ymm0, 224(%rsp)
	vmovups	%ymm0, 192(%rsp)
	vmovups	%ymm0, 160(%rsp)
	vmovups	%ymm0, 128(%rsp)
	leaq	128(%rsp), %rdi
	movq	%r15, %rdx
	vzeroupper
	vj_c_call	memcpy
	vmovups	128(%rsp), %ymm0
	vmovups	160(%rsp), %ymm1
	vmovups	192(%rsp), %ymm2
	vmovups	224(%rsp), %ymm3
	vmovups	%ymm0, (%r13)
	vmovups	%ymm1, 32(%r13)
	vmovups	%ymm2, 64(%r13)
	vmovups	%ymm3, 96(%r13)
	cmpq	$1, %r14
	jne	16f
	cmpl	$128, %r15d
	jae	17f
	movzbl	(%rbx), %eax
	movl	%r15d, %ecx
	andl	$127, %ecx
	movb	%al, 152(%r12,%rcx)
	leal	1(%r15), %eax
	movl	%eax, 136(%r12)
	jmp	19f
16:
	movq	%r12, %rdi
	movq	%rbx, %rsi
	movq	%r14, %rdx
	jmp	18f
17:
	movl	$1, %edx
	movq	%r12, %rdi
	movq	%rbx, %rsi
18:
	vzeroupper
	callq	blake2_state..blake2b..State..absorb_blocks_1_v3
19:
	movq	8(%rsp), %r12
	leaq	152(%r12), %r13
	movq	(%rsp), %rax
	movq	680(%rsp), %rcx
	movq	(%rax,%rcx), %rbx
	movq	8(%rax,%rcx), %r14
	movl	136(%r12), %ecx
	movq	16(%rsp), %rax
	subq	%rcx, %rax
	leaq	256(%rax), %rcx
	movq	%r14, %r15
	cmpq	%rcx, %r14
	jb	20f
	movq	%rcx, %r15
20:
	subq	%r15, %r14
	leaq	(%rbx,%rax), %rsi
	addq	$128, %rsi
	subq	$-128, %rax
	movq	496(%rsp), %rcx
	movq	%rcx, (%r12)
	movq	480(%rsp), %rcx
	movq	%rcx, 8(%r12)
	movq	96(%rsp), %rcx
	movq	%rcx, 16(%r12)
	movq	464(%rsp), %rcx
	movq	%rcx, 24(%r12)
	movq	448(%rsp), %rcx
	movq	%rcx, 32(%r12)
	movq	432(%rsp), %rcx
	movq	%rcx, 40(%r12)
	movq	400(%rsp), %rcx
	movq	%rcx, 48(%r12)
	movq	416(%rsp), %rcx
	movq	%rcx, 56(%r12)
	movq	32(%rsp), %rcx
	addq	%rcx, 128(%r12)
	addq	%r15, %rbx
	subq	%rax, %r15
	movl	%r15d, 136(%r12)
	vxorps	%xmm0, %xmm0, %xmm0
	vmovups	%ymm0, 224(%rsp)
	vmovups	%ymm0, 192(%rsp)
	vmovups	%ymm0, 160(%rsp)
	vmovups	%ymm0, 128(%rsp)
	leaq	128(%rsp), %rdi
	movq	%r15, %rdx
	vzeroupper
	vj_c_call	memcpy
	vmovups	128(%rsp), %ymm0
	vmovups	160(%rsp), %ymm1
	vmovups	192(%rsp), %ymm2
	vmovups	224(%rsp), %ymm3
	vmovups	%ymm0, (%r13)
	vmovups	%ymm1, 32(%r13)
	vmovups	%ymm2, 64(%r13)
	vmovups	%ymm3, 96(%r13)
	cmpq	$1, %r14
	jne	21f
	cmpl	$128, %r15d
	jae	22f
	movzbl	(%rbx), %eax
	movl	%r15d, %ecx
	andl	$127, %ecx
	movq	8(%rsp), %rdx
	movb	%al, 152(%rdx,%rcx)
	leal	1(%r15), %eax
	movl	%eax, 136(%rdx)
	jmp	24f
21:
	movq	%r12, %rdi
	movq	%rbx, %rsi
	movq	%r14, %rdx
	jmp	23f
22:
	movl	$1, %edx
	movq	8(%rsp), %rdi
	movq	%rbx, %rsi
23:
	vzeroupper
	callq	blake2_state..blake2b..State..absorb_blocks_1_v3
24:
	leaq	152(%rbp), %r13
	movq	(%rsp), %rax
	movq	112(%rsp), %rcx
	movq	(%rax,%rcx), %rbx
	movq	8(%rax,%rcx), %r14
	movl	136(%rbp), %eax
	movq	16(%rsp), %rdx
	subq	%rax, %rdx
	movq	%rdx, %rcx
	leaq	256(%rdx), %rax
	movq	%r14, %r15
	cmpq	%rax, %r14
	jb	25f
	movq	%rax, %r15
25:
	subq	%r15, %r14
	leaq	(%rbx,%rcx), %rsi
	addq	$128, %rsi
	subq	$-128, %rcx
	movq	688(%rsp), %rax
	movq	%rax, (%rbp)
	movq	608(%rsp), %rax
	movq	%rax, 8(%rbp)
	movq	512(%rsp), %rax
	movq	%rax, 16(%rbp)
	movq	592(%rsp), %rax
	movq	%rax, 24(%rbp)
	movq	576(%rsp), %rax
	movq	%rax, 32(%rbp)
	movq	560(%rsp), %rax
	movq	%rax, 40(%rbp)
	movq	528(%rsp), %rax
	movq	%rax, 48(%rbp)
	movq	544(%rsp), %rax
	movq	%rax, 56(%rbp)
	movq	32(%rsp), %rax
	addq	%rax, 128(%rbp)
	addq	%r15, %rbx
	subq	%rcx, %r15
	movl	%r15d, 136(%rbp)
	vxorps	%xmm0, %xmm0, %xmm0
	vmovups	%ymm0, 224(%rsp)
	vmovups	%ymm0, 192(%rsp)
	vmovups	%ymm0, 160(%rsp)
	vmovups	%ymm0, 128(%rsp)
	leaq	128(%rsp), %rdi
	movq	%r15, %rdx
	vzeroupper
	vj_c_call	memcpy
	vmovups	128(%rsp), %ymm0
	vmovups	160(%rsp), %ymm1
	vmovups	192(%rsp), %ymm2
	vmovups	224(%rsp), %ymm3
	vmovups	%ymm0, (%r13)
	vmovups	%ymm1, 32(%r13)
	vmovups	%ymm2, 64(%r13)
	vmovups	%ymm3, 96(%r13)
	cmpq	$1, %r14
	jne	26f
	cmpl	$128, %r15d
	movq	(%rsp), %r12
	movq	384(%rsp), %rbp
	movq	120(%rsp), %r13
	jae	27f
	movzbl	(%rbx), %eax
	movl	%r15d, %ecx
	andl	$127, %ecx
	movq	24(%rsp), %rdx
	movb	%al, 152(%rdx,%rcx)
	leal	1(%r15), %eax
	movl	%eax, 136(%rdx)
	jmp	28f
26:
	movq	%rbp, %rdi
	movq	%rbx, %rsi
	movq	%r14, %rdx
	vzeroupper
	callq	blake2_state..blake2b..State..absorb_blocks_1_v3
	movl	$4, %ebx
	movq	56(%rsp), %r14
	movq	(%rsp), %r12
	movq	384(%rsp), %rbp
	movq	120(%rsp), %r13
	jmp	3b
27:
	movl	$1, %edx
	movq	24(%rsp), %rdi
	movq	%rbx, %rsi
	vzeroupper
	callq	blake2_state..blake2b..State..absorb_blocks_1_v3
28:
	movl	$4, %ebx
	movq	56(%rsp), %r14
	jmp	3b
29:
	addq	$1944, %rsp
	popq	%rbx
	popq	%r12
	popq	%r13
	popq	%r14
	popq	%r15
	popq	%rbp
30:
	vzeroupper
	retq
	vj_end	blake2_state..many..blake2b..update_many_1_v3

	vj_constants	8
	.p2align	3, 0x0
.L1_v3_CPI18_0:
	.quad	-2270897969802886508
.L1_v3_CPI18_1:
	.quad	2270897969802886507
.L1_v3_CPI18_2:
	.quad	-6620516959819538810
.L1_v3_CPI18_3:
	.quad	6620516959819538809
.L1_v3_CPI18_4:
	.quad	5840696475078001361
.L1_v3_CPI18_5:
	.quad	7640891576956012808
.L1_v3_CPI18_8:
	.quad	-7276294671716946913
.L1_v3_CPI18_9:
	.quad	-4942790177534073029
.L1_v3_CPI18_10:
	.quad	4354685564936845355
.L1_v3_CPI18_11:
	.quad	-6534734903238641935
	vj_constants	32
	.p2align	5, 0x0
.L1_v3_CPI18_6:
	.byte	3
	.byte	4
	.byte	5
	.byte	6
	.byte	7
	.byte	0
	.byte	1
	.byte	2
	.byte	11
	.byte	12
	.byte	13
	.byte	14
	.byte	15
	.byte	8
	.byte	9
	.byte	10
	.byte	19
	.byte	20
	.byte	21
	.byte	22
	.byte	23
	.byte	16
	.byte	17
	.byte	18
	.byte	27
	.byte	28
	.byte	29
	.byte	30
	.byte	31
	.byte	24
	.byte	25
	.byte	26
.L1_v3_CPI18_7:
	.byte	2
	.byte	3
	.byte	4
	.byte	5
	.byte	6
	.byte	7
	.byte	0
	.byte	1
	.byte	10
	.byte	11
	.byte	12
	.byte	13
	.byte	14
	.byte	15
	.byte	8
	.byte	9
	.byte	18
	.byte	19
	.byte	20
	.byte	21
	.byte	22
	.byte	23
	.byte	16
	.byte	17
	.byte	26
	.byte	27
	.byte	28
	.byte	29
	.byte	30
	.byte	31
	.byte	24
	.byte	25
	vj_function	blake2_compress..many..blake2b..compress_blocks_1_v3
	subq	$1288, %rsp
	movq	8(%rsi), %rax
	vmovdqu	(%rdi), %ymm15
	vmovdqu	32(%rdi), %ymm12
	vmovups	64(%rdi), %ymm0
	vmovups	%ymm0, 928(%rsp)
	vmovdqu	96(%rdi), %ymm6
	vmovdqu	128(%rdi), %ymm3
	vmovdqu	160(%rdi), %ymm10
	vmovdqu	192(%rdi), %ymm9
	vmovdqu	224(%rdi), %ymm0
	vmovdqu	%ymm0, 896(%rsp)
	testq	%rax, %rax
	je	2f
	movzbl	2(%rcx), %r8d
	movzbl	(%rcx), %r9d
	vmovd	%r9d, %xmm0
	vpinsrd	$1, %r8d, %xmm0, %xmm0
	movzbl	4(%rcx), %r8d
	vpinsrd	$2, %r8d, %xmm0, %xmm0
	movq	(%rsi), %r8
	movzbl	6(%rcx), %r9d
	vpinsrd	$3, %r9d, %xmm0, %xmm0
	movq	16(%rsi), %r9
	vpslld	$31, %xmm0, %xmm0
	vpmovsxdq	%xmm0, %ymm0
	vbroadcastsd	.L1_v3_CPI18_0(%rip), %ymm1
	vbroadcastsd	.L1_v3_CPI18_1(%rip), %ymm2
	vblendvpd	%ymm0, %ymm1, %ymm2, %ymm0
	vmovupd	%ymm0, 1088(%rsp)
	movzbl	3(%rcx), %r10d
	movzbl	1(%rcx), %r11d
	vmovd	%r11d, %xmm0
	vpinsrd	$1, %r10d, %xmm0, %xmm0
	movq	32(%rsi), %r10
	movzbl	5(%rcx), %r11d
	vpinsrd	$2, %r11d, %xmm0, %xmm0
	movq	48(%rsi), %rsi
	movzbl	7(%rcx), %ecx
	vpinsrd	$3, %ecx, %xmm0, %xmm0
	vpslld	$31, %xmm0, %xmm0
	vpmovsxdq	%xmm0, %ymm0
	vbroadcastsd	.L1_v3_CPI18_2(%rip), %ymm1
	vbroadcastsd	.L1_v3_CPI18_3(%rip), %ymm2
	vblendvpd	%ymm0, %ymm1, %ymm2, %ymm0
	vmovupd	%ymm0, 1056(%rsp)
	vmovdqu	(%rdx), %ymm0
	vmovdqu	%ymm0, 1024(%rsp)
	xorl	%ecx, %ecx
	.p2align	4
1:
	vmovdqu	%ymm6, 992(%rsp)
	vmovdqu	%ymm15, 1120(%rsp)
	vmovdqu	%ymm12, 1152(%rsp)
	vmovdqu	%ymm9, 1184(%rsp)
	vmovdqu	%ymm10, 1216(%rsp)
	vmovdqa	%ymm3, %ymm14
	vmovdqu	%ymm3, 1248(%rsp)
	vmovdqu	(%r8,%rcx), %ymm0
	vmovdqu	32(%r8,%rcx), %ymm1
	vmovdqu	(%r9,%rcx), %ymm2
	vmovdqu	32(%r9,%rcx), %ymm3
	vmovdqu	(%r10,%rcx), %ymm4
	vmovdqu	32(%r10,%rcx), %ymm5
	vmovdqu	(%rsi,%rcx), %ymm6
	vpunpcklqdq	%ymm2, %ymm0, %ymm7
	vpunpckhqdq	%ymm2, %ymm0, %ymm0
	vpunpcklqdq	%ymm6, %ymm4, %ymm2
	vpunpckhqdq	%ymm6, %ymm4, %ymm4
	vinserti128	$1, %xmm2, %ymm7, %ymm11
	vmovdqu	%ymm11, 768(%rsp)
	vperm2i128	$49, %ymm2, %ymm7, %ymm8
	vmovdqu	%ymm8, 704(%rsp)
	vinserti128	$1, %xmm4, %ymm0, %ymm7
	vmovdqu	%ymm7, 672(%rsp)
	vperm2i128	$49, %ymm4, %ymm0, %ymm6
	vmovdqu	%ymm6, 736(%rsp)
	vpunpcklqdq	%ymm3, %ymm1, %ymm0
	vpunpckhqdq	%ymm3, %ymm1, %ymm1
	vmovdqu	32(%rsi,%rcx), %ymm2
	vpunpcklqdq	%ymm2, %ymm5, %ymm3
	vpunpckhqdq	%ymm2, %ymm5, %ymm2
	vinserti128	$1, %xmm3, %ymm0, %ymm5
	vmovdqu	%ymm5, 640(%rsp)
	vperm2i128	$49, %ymm3, %ymm0, %ymm0
	vmovdqu	%ymm0, 544(%rsp)
	vinserti128	$1, %xmm2, %ymm1, %ymm13
	vmovdqu	%ymm13, 864(%rsp)
	vperm2i128	$49, %ymm2, %ymm1, %ymm0
	vmovdqu	%ymm0, 608(%rsp)
	vmovups	64(%r8,%rcx), %ymm0
	vmovups	64(%r9,%rcx), %ymm1
	vunpcklpd	%ymm1, %ymm0, %ymm2
	vunpckhpd	%ymm1, %ymm0, %ymm0
	vmovups	64(%r10,%rcx), %ymm1
	vmovups	64(%rsi,%rcx), %ymm3
	vunpcklpd	%ymm3, %ymm1, %ymm4
	vunpckhpd	%ymm3, %ymm1, %ymm1
	vinsertf128	$1, %xmm4, %ymm2, %ymm3
	vmovups	%ymm3, 320(%rsp)
	vperm2f128	$49, %ymm4, %ymm2, %ymm2
	vmovups	%ymm2, 512(%rsp)
	vinsertf128	$1, %xmm1, %ymm0, %ymm2
	vmovups	%ymm2, 352(%rsp)
	vperm2f128	$49, %ymm1, %ymm0, %ymm0
	vmovups	%ymm0, 416(%rsp)
	vmovups	96(%r8,%rcx), %ymm0
	vmovups	96(%r9,%rcx), %ymm1
	vunpcklpd	%ymm1, %ymm0, %ymm2
	vunpckhpd	%ymm1, %ymm0, %ymm0
	vmovups	96(%r10,%rcx), %ymm1
	vmovups	96(%rsi,%rcx), %ymm3
	vunpcklpd	%ymm3, %ymm1, %ymm4
	vunpckhpd	%ymm3, %ymm1, %ymm1
	vinsertf128	$1, %xmm4, %ymm2, %ymm3
	vmovups	%ymm3, 448(%rsp)
	vperm2f128	$49, %ymm4, %ymm2, %ymm2
	vmovups	%ymm2, 480(%rsp)
	vinsertf128	$1, %xmm1, %ymm0, %ymm2
	vmovups	%ymm2, 384(%rsp)
	vperm2f128	$49, %ymm1, %ymm0, %ymm0
	vmovups	%ymm0, 832(%rsp)
	vmovq	%rcx, %xmm0
	vpbroadcastq	%xmm0, %ymm0
	vpaddq	1024(%rsp), %ymm0, %ymm0
	vpbroadcastq	.L1_v3_CPI18_4(%rip), %ymm1
	vpxor	%ymm1, %ymm0, %ymm0
	vpaddq	%ymm14, %ymm15, %ymm1
	vpaddq	%ymm1, %ymm11, %ymm1
	vpxor	%ymm1, %ymm0, %ymm0
	vpshufd	$177, %ymm0, %ymm0
	vpbroadcastq	.L1_v3_CPI18_5(%rip), %ymm2
	vpaddq	%ymm2, %ymm0, %ymm2
	vpxor	%ymm2, %ymm14, %ymm3
	vmovdqa	.L1_v3_CPI18_6(%rip), %ymm14
	vpshufb	%ymm14, %ymm3, %ymm3
	vpaddq	%ymm7, %ymm1, %ymm1
	vpaddq	%ymm3, %ymm1, %ymm11
	vpxor	%ymm0, %ymm11, %ymm0
	vmovdqa	.L1_v3_CPI18_7(%rip), %ymm7
	vpshufb	%ymm7, %ymm0, %ymm1
	vpaddq	%ymm1, %ymm2, %ymm0
	vmovdqu	%ymm0, 160(%rsp)
	vpxor	%ymm3, %ymm0, %ymm0
	vpsrlq	$63, %ymm0, %ymm2
	vpaddq	%ymm0, %ymm0, %ymm0
	vpor	%ymm2, %ymm0, %ymm0
	vmovdqu	%ymm0, 224(%rsp)
	vpaddq	%ymm10, %ymm12, %ymm0
	vpaddq	%ymm0, %ymm8, %ymm0
	vpbroadcastq	.L1_v3_CPI18_8(%rip), %ymm2
	vpxor	%ymm2, %ymm0, %ymm2
	vpshufd	$177, %ymm2, %ymm2
	vpbroadcastq	.L1_v3_CPI18_9(%rip), %ymm3
	vpaddq	%ymm3, %ymm2, %ymm3
	vpaddq	%ymm6, %ymm0, %ymm0
	vpxor	%ymm3, %ymm10, %ymm4
	vpshufb	%ymm14, %ymm4, %ymm4
	vpaddq	%ymm4, %ymm0, %ymm10
	vpxor	%ymm2, %ymm10, %ymm0
	vpshufb	%ymm7, %ymm0, %ymm6
	vpaddq	%ymm6, %ymm3, %ymm0
	vmovdqu	%ymm0, 128(%rsp)
	vpxor	%ymm4, %ymm0, %ymm0
	vpsrlq	$63, %ymm0, %ymm2
	vpaddq	%ymm0, %ymm0, %ymm0
	vpor	%ymm2, %ymm0, %ymm2
	vpaddq	928(%rsp), %ymm9, %ymm0
	vpaddq	%ymm5, %ymm0, %ymm0
	vpxor	1088(%rsp), %ymm0, %ymm3
	vpshufd	$177, %ymm3, %ymm3
	vpbroadcastq	.L1_v3_CPI18_10(%rip), %ymm4
	vpaddq	%ymm4, %ymm3, %ymm4
	vpxor	%ymm4, %ymm9, %ymm5
	vpshufb	%ymm14, %ymm5, %ymm5
	vpaddq	%ymm0, %ymm13, %ymm0
	vpaddq	%ymm5, %ymm0, %ymm12
	vpxor	%ymm3, %ymm12, %ymm0
	vpshufb	%ymm7, %ymm0, %ymm9
	vpaddq	%ymm4, %ymm9, %ymm3
	vpxor	%ymm5, %ymm3, %ymm0
	vpsrlq	$63, %ymm0, %ymm4
	vpaddq	%ymm0, %ymm0, %ymm0
	vpor	%ymm4, %ymm0, %ymm8
	vmovdqu	896(%rsp), %ymm13
	vpaddq	992(%rsp), %ymm13, %ymm0
	vpaddq	544(%rsp), %ymm0, %ymm0
	vpxor	1056(%rsp), %ymm0, %ymm4
	vpshufd	$177, %ymm4, %ymm4
	vpbroadcastq	.L1_v3_CPI18_11(%rip), %ymm5
	vpaddq	%ymm5, %ymm4, %ymm5
	vpxor	%ymm5, %ymm13, %ymm13
	vpshufb	%ymm14, %ymm13, %ymm15
	vpaddq	608(%rsp), %ymm0, %ymm0
	vpaddq	%ymm0, %ymm15, %ymm13
	vpxor	%ymm4, %ymm13, %ymm0
	vpshufb	%ymm7, %ymm0, %ymm4
	vpaddq	%ymm4, %ymm5, %ymm5
	vpxor	%ymm5, %ymm15, %ymm0
	vpsrlq	$63, %ymm0, %ymm15
	vpaddq	%ymm0, %ymm0, %ymm0
	vpor	%ymm0, %ymm15, %ymm0
	vpaddq	320(%rsp), %ymm11, %ymm11
	vpaddq	%ymm2, %ymm11, %ymm11
	vpxor	%ymm4, %ymm11, %ymm4
	vpshufd	$177, %ymm4, %ymm15
	vpaddq	%ymm3, %ymm15, %ymm3
	vpxor	%ymm2, %ymm3, %ymm2
	vpshufb	%ymm14, %ymm2, %ymm2
	vpaddq	352(%rsp), %ymm11, %ymm4
	vpaddq	%ymm2, %ymm4, %ymm14
	vpxor	%ymm15, %ymm14, %ymm11
	vpshufb	%ymm7, %ymm11, %ymm4
	vmovdqu	%ymm4, 192(%rsp)
	vpaddq	%ymm4, %ymm3, %ymm3
	vmovdqu	%ymm3, 96(%rsp)
	vpxor	%ymm2, %ymm3, %ymm2
	vpsrlq	$63, %ymm2, %ymm3
	vpaddq	%ymm2, %ymm2, %ymm2
	vpor	%ymm3, %ymm2, %ymm2
	vmovdqu	%ymm2, (%rsp)
	vmovdqu	512(%rsp), %ymm11
	vpaddq	%ymm11, %ymm10, %ymm2
	vpaddq	%ymm2, %ymm8, %ymm2
	vpxor	%ymm1, %ymm2, %ymm1
	vpshufd	$177, %ymm1, %ymm1
	vpaddq	%ymm5, %ymm1, %ymm5
	vpxor	%ymm5, %ymm8, %ymm3
	vmovdqa	.L1_v3_CPI18_6(%rip), %ymm8
	vpshufb	%ymm8, %ymm3, %ymm10
	vpaddq	416(%rsp), %ymm2, %ymm2
	vpaddq	%ymm2, %ymm10, %ymm2
	vmovdqu	%ymm2, 256(%rsp)
	vpxor	%ymm1, %ymm2, %ymm1
	vpshufb	%ymm7, %ymm1, %ymm4
	vmovdqa	%ymm7, %ymm3
	vpaddq	%ymm4, %ymm5, %ymm1
	vmovdqu	%ymm1, 64(%rsp)
	vpxor	%ymm1, %ymm10, %ymm2
	vpsrlq	$63, %ymm2, %ymm5
	vpaddq	%ymm2, %ymm2, %ymm2
	vpor	%ymm5, %ymm2, %ymm1
	vmovdqu	%ymm1, 288(%rsp)
	vpaddq	448(%rsp), %ymm12, %ymm2
	vpaddq	%ymm0, %ymm2, %ymm2
	vpxor	%ymm6, %ymm2, %ymm5
	vpshufd	$177, %ymm5, %ymm5
	vpaddq	160(%rsp), %ymm5, %ymm6
	vpxor	%ymm0, %ymm6, %ymm0
	vpshufb	%ymm8, %ymm0, %ymm0
	vmovdqa	%ymm8, %ymm10
	vmovdqu	384(%rsp), %ymm8
	vpaddq	%ymm2, %ymm8, %ymm2
	vpaddq	%ymm0, %ymm2, %ymm12
	vpxor	%ymm5, %ymm12, %ymm2
	vpshufb	%ymm7, %ymm2, %ymm7
	vmovdqa	%ymm3, %ymm15
	vpaddq	%ymm7, %ymm6, %ymm6
	vpxor	%ymm0, %ymm6, %ymm0
	vpsrlq	$63, %ymm0, %ymm2
	vpaddq	%ymm0, %ymm0, %ymm0
	vpor	%ymm2, %ymm0, %ymm0
	vmovdqu	%ymm0, 32(%rsp)
	vmovdqu	480(%rsp), %ymm3
	vpaddq	%ymm3, %ymm13, %ymm0
	vmovdqu	224(%rsp), %ymm1
	vpaddq	%ymm1, %ymm0, %ymm0
	vpxor	%ymm0, %ymm9, %ymm2
	vpshufd	$177, %ymm2, %ymm2
	vpaddq	128(%rsp), %ymm2, %ymm9
	vpxor	%ymm1, %ymm9, %ymm13
	vpshufb	%ymm10, %ymm13, %ymm1
	vmovdqu	832(%rsp), %ymm5
	vpaddq	%ymm5, %ymm0, %ymm0
	vpaddq	%ymm1, %ymm0, %ymm13
	vpxor	%ymm2, %ymm13, %ymm0
	vpshufb	%ymm15, %ymm0, %ymm2
	vmovdqa	%ymm15, %ymm10
	vpaddq	%ymm2, %ymm9, %ymm0
	vpxor	%ymm1, %ymm0, %ymm1
	vpsrlq	$63, %ymm1, %ymm9
	vpaddq	%ymm1, %ymm1, %ymm1
	vpor	%ymm1, %ymm9, %ymm1
	vpaddq	%ymm3, %ymm14, %ymm9
	vpaddq	%ymm1, %ymm9, %ymm9
	vpxor	%ymm4, %ymm9, %ymm4
	vpshufd	$177, %ymm4, %ymm4
	vpaddq	%ymm6, %ymm4, %ymm14
	vpxor	%ymm1, %ymm14, %ymm1
	vmovdqa	.L1_v3_CPI18_6(%rip), %ymm15
	vpshufb	%ymm15, %ymm1, %ymm1
	vpaddq	%ymm11, %ymm9, %ymm6
	vpaddq	%ymm1, %ymm6, %ymm6
	vpxor	%ymm4, %ymm6, %ymm4
	vpshufb	%ymm10, %ymm4, %ymm3
	vmovdqu	%ymm3, 576(%rsp)
	vpaddq	%ymm3, %ymm14, %ymm3
	vmovdqu	%ymm3, 128(%rsp)
	vpxor	%ymm1, %ymm3, %ymm1
	vpsrlq	$63, %ymm1, %ymm4
	vpaddq	%ymm1, %ymm1, %ymm1
	vpor	%ymm4, %ymm1, %ymm1
	vmovdqu	%ymm1, 160(%rsp)
	vmovdqu	256(%rsp), %ymm1
	vpaddq	640(%rsp), %ymm1, %ymm1
	vmovdqu	(%rsp), %ymm4
	vpaddq	%ymm4, %ymm1, %ymm1
	vpxor	%ymm7, %ymm1, %ymm3
	vpshufd	$177, %ymm3, %ymm3
	vpaddq	%ymm0, %ymm3, %ymm0
	vpxor	%ymm4, %ymm0, %ymm4
	vpshufb	%ymm15, %ymm4, %ymm7
	vpaddq	320(%rsp), %ymm1, %ymm1
	vpaddq	%ymm7, %ymm1, %ymm1
	vpxor	%ymm3, %ymm1, %ymm3
	vmovdqa	%ymm10, %ymm14
	vpshufb	%ymm10, %ymm3, %ymm11
	vpaddq	%ymm0, %ymm11, %ymm0
	vmovdqu	%ymm0, (%rsp)
	vpxor	%ymm7, %ymm0, %ymm0
	vpsrlq	$63, %ymm0, %ymm3
	vpaddq	%ymm0, %ymm0, %ymm0
	vpor	%ymm3, %ymm0, %ymm3
	vpaddq	352(%rsp), %ymm12, %ymm0
	vmovdqu	288(%rsp), %ymm4
	vpaddq	%ymm4, %ymm0, %ymm0
	vpxor	%ymm2, %ymm0, %ymm2
	vpshufd	$177, %ymm2, %ymm2
	vpaddq	96(%rsp), %ymm2, %ymm7
	vpxor	%ymm4, %ymm7, %ymm10
	vpshufb	%ymm15, %ymm10, %ymm10
	vpaddq	%ymm5, %ymm0, %ymm0
	vpaddq	%ymm0, %ymm10, %ymm9
	vpxor	%ymm2, %ymm9, %ymm0
	vpshufb	%ymm14, %ymm0, %ymm0
	vmovdqu	%ymm0, 288(%rsp)
	vmovdqa	%ymm14, %ymm4
	vpaddq	%ymm0, %ymm7, %ymm7
	vpxor	%ymm7, %ymm10, %ymm2
	vpsrlq	$63, %ymm2, %ymm10
	vpaddq	%ymm2, %ymm2, %ymm2
	vpor	%ymm2, %ymm10, %ymm2
	vpaddq	%ymm8, %ymm13, %ymm10
	vmovdqu	32(%rsp), %ymm5
	vpaddq	%ymm5, %ymm10, %ymm10
	vpxor	192(%rsp), %ymm10, %ymm13
	vpshufd	$177, %ymm13, %ymm14
	vpaddq	64(%rsp), %ymm14, %ymm8
	vpxor	%ymm5, %ymm8, %ymm5
	vpshufb	%ymm15, %ymm5, %ymm5
	vpaddq	544(%rsp), %ymm10, %ymm10
	vpaddq	%ymm5, %ymm10, %ymm0
	vmovdqu	%ymm0, 192(%rsp)
	vpxor	%ymm0, %ymm14, %ymm10
	vpshufb	%ymm4, %ymm10, %ymm10
	vpaddq	%ymm10, %ymm8, %ymm14
	vpxor	%ymm5, %ymm14, %ymm5
	vpsrlq	$63, %ymm5, %ymm8
	vpaddq	%ymm5, %ymm5, %ymm5
	vpor	%ymm5, %ymm8, %ymm5
	vpaddq	672(%rsp), %ymm6, %ymm6
	vpaddq	%ymm3, %ymm6, %ymm6
	vpxor	%ymm6, %ymm10, %ymm8
	vpshufd	$177, %ymm8, %ymm8
	vpaddq	%ymm7, %ymm8, %ymm7
	vpxor	%ymm3, %ymm7, %ymm3
	vpshufb	%ymm15, %ymm3, %ymm3
	vmovdqa	%ymm15, %ymm10
	vmovdqu	448(%rsp), %ymm12
	vpaddq	%ymm6, %ymm12, %ymm6
	vpaddq	%ymm3, %ymm6, %ymm15
	vpxor	%ymm8, %ymm15, %ymm6
	vpshufb	%ymm4, %ymm6, %ymm6
	vmovdqu	%ymm6, 224(%rsp)
	vpaddq	%ymm6, %ymm7, %ymm6
	vmovdqu	%ymm6, 96(%rsp)
	vpxor	%ymm3, %ymm6, %ymm3
	vpsrlq	$63, %ymm3, %ymm6
	vpaddq	%ymm3, %ymm3, %ymm3
	vpor	%ymm6, %ymm3, %ymm3
	vmovdqu	%ymm3, 32(%rsp)
	vmovdqu	768(%rsp), %ymm13
	vpaddq	%ymm1, %ymm13, %ymm1
	vpaddq	%ymm2, %ymm1, %ymm1
	vpxor	576(%rsp), %ymm1, %ymm3
	vpshufd	$177, %ymm3, %ymm3
	vpaddq	%ymm3, %ymm14, %ymm7
	vpxor	%ymm2, %ymm7, %ymm2
	vmovdqa	%ymm10, %ymm8
	vpshufb	%ymm10, %ymm2, %ymm2
	vmovdqu	704(%rsp), %ymm14
	vpaddq	%ymm1, %ymm14, %ymm1
	vpaddq	%ymm2, %ymm1, %ymm1
	vmovdqu	%ymm1, 576(%rsp)
	vpxor	%ymm3, %ymm1, %ymm3
	vpshufb	%ymm4, %ymm3, %ymm6
	vpaddq	%ymm6, %ymm7, %ymm1
	vmovdqu	%ymm1, 64(%rsp)
	vpxor	%ymm2, %ymm1, %ymm2
	vpsrlq	$63, %ymm2, %ymm3
	vpaddq	%ymm2, %ymm2, %ymm2
	vpor	%ymm3, %ymm2, %ymm1
	vmovdqu	%ymm1, 256(%rsp)
	vmovdqu	416(%rsp), %ymm1
	vpaddq	%ymm1, %ymm9, %ymm2
	vpaddq	%ymm5, %ymm2, %ymm2
	vpxor	%ymm2, %ymm11, %ymm3
	vpshufd	$177, %ymm3, %ymm3
	vpaddq	128(%rsp), %ymm3, %ymm9
	vpxor	%ymm5, %ymm9, %ymm5
	vpshufb	%ymm10, %ymm5, %ymm11
	vpaddq	608(%rsp), %ymm2, %ymm2
	vpaddq	%ymm2, %ymm11, %ymm0
	vmovdqu	%ymm0, 800(%rsp)
	vpxor	%ymm3, %ymm0, %ymm2
	vpshufb	%ymm4, %ymm2, %ymm10
	vpaddq	%ymm10, %ymm9, %ymm2
	vpxor	%ymm2, %ymm11, %ymm3
	vpsrlq	$63, %ymm3, %ymm9
	vpaddq	%ymm3, %ymm3, %ymm3
	vpor	%ymm3, %ymm9, %ymm0
	vmovdqu	%ymm0, 960(%rsp)
	vmovdqu	864(%rsp), %ymm5
	vpaddq	192(%rsp), %ymm5, %ymm3
	vmovdqu	160(%rsp), %ymm7
	vpaddq	%ymm7, %ymm3, %ymm3
	vpxor	288(%rsp), %ymm3, %ymm0
	vpshufd	$177, %ymm0, %ymm0
	vpaddq	(%rsp), %ymm0, %ymm4
	vpxor	%ymm7, %ymm4, %ymm9
	vpshufb	%ymm8, %ymm9, %ymm9
	vpaddq	736(%rsp), %ymm3, %ymm3
	vpaddq	%ymm3, %ymm9, %ymm11
	vpxor	%ymm0, %ymm11, %ymm0
	vmovdqa	.L1_v3_CPI18_7(%rip), %ymm7
	vpshufb	%ymm7, %ymm0, %ymm0
	vpaddq	%ymm0, %ymm4, %ymm3
	vpxor	%ymm3, %ymm9, %ymm4
	vpsrlq	$63, %ymm4, %ymm9
	vpaddq	%ymm4, %ymm4, %ymm4
	vpor	%ymm4, %ymm9, %ymm4
	vpaddq	%ymm1, %ymm15, %ymm9
	vpaddq	%ymm4, %ymm9, %ymm9
	vpxor	%ymm6, %ymm9, %ymm6
	vpshufd	$177, %ymm6, %ymm6
	vpaddq	%ymm2, %ymm6, %ymm2
	vpxor	%ymm4, %ymm2, %ymm4
	vpshufb	%ymm8, %ymm4, %ymm4
	vpaddq	320(%rsp), %ymm9, %ymm9
	vpaddq	%ymm4, %ymm9, %ymm15
	vpxor	%ymm6, %ymm15, %ymm6
	vpshufb	%ymm7, %ymm6, %ymm1
	vmovdqu	%ymm1, 288(%rsp)
	vmovdqa	%ymm7, %ymm6
	vpaddq	%ymm1, %ymm2, %ymm1
	vmovdqu	%ymm1, 160(%rsp)
	vpxor	%ymm4, %ymm1, %ymm2
	vpsrlq	$63, %ymm2, %ymm4
	vpaddq	%ymm2, %ymm2, %ymm2
	vpor	%ymm4, %ymm2, %ymm1
	vmovdqu	%ymm1, 192(%rsp)
	vpaddq	576(%rsp), %ymm12, %ymm1
	vmovdqu	32(%rsp), %ymm7
	vpaddq	%ymm7, %ymm1, %ymm1
	vpxor	%ymm1, %ymm10, %ymm2
	vpshufd	$177, %ymm2, %ymm2
	vpaddq	%ymm3, %ymm2, %ymm4
	vpxor	%ymm7, %ymm4, %ymm3
	vmovdqa	%ymm8, %ymm12
	vpshufb	%ymm8, %ymm3, %ymm9
	vpaddq	%ymm1, %ymm13, %ymm1
	vpaddq	%ymm1, %ymm9, %ymm3
	vpxor	%ymm2, %ymm3, %ymm1
	vpshufb	%ymm6, %ymm1, %ymm8
	vpaddq	%ymm4, %ymm8, %ymm1
	vmovdqu	%ymm1, 128(%rsp)
	vpxor	%ymm1, %ymm9, %ymm1
	vpsrlq	$63, %ymm1, %ymm2
	vpaddq	%ymm1, %ymm1, %ymm1
	vpor	%ymm2, %ymm1, %ymm1
	vpaddq	800(%rsp), %ymm5, %ymm2
	vmovdqu	256(%rsp), %ymm5
	vpaddq	%ymm5, %ymm2, %ymm2
	vpxor	%ymm0, %ymm2, %ymm0
	vpshufd	$177, %ymm0, %ymm0
	vpaddq	96(%rsp), %ymm0, %ymm4
	vpxor	%ymm5, %ymm4, %ymm7
	vpshufb	%ymm12, %ymm7, %ymm9
	vpaddq	%ymm2, %ymm14, %ymm2
	vpaddq	%ymm2, %ymm9, %ymm7
	vpxor	%ymm0, %ymm7, %ymm0
	vpshufb	%ymm6, %ymm0, %ymm0
	vmovdqu	%ymm0, (%rsp)
	vpaddq	%ymm0, %ymm4, %ymm4
	vpxor	%ymm4, %ymm9, %ymm0
	vpsrlq	$63, %ymm0, %ymm2
	vpaddq	%ymm0, %ymm0, %ymm0
	vpor	%ymm2, %ymm0, %ymm0
	vpaddq	832(%rsp), %ymm11, %ymm2
	vmovdqu	960(%rsp), %ymm11
	vpaddq	%ymm2, %ymm11, %ymm2
	vpxor	224(%rsp), %ymm2, %ymm9
	vpshufd	$177, %ymm9, %ymm9
	vpaddq	64(%rsp), %ymm9, %ymm10
	vpxor	%ymm11, %ymm10, %ymm11
	vpshufb	%ymm12, %ymm11, %ymm11
	vpaddq	384(%rsp), %ymm2, %ymm2
	vpaddq	%ymm2, %ymm11, %ymm13
	vpxor	%ymm9, %ymm13, %ymm2
	vpshufb	%ymm6, %ymm2, %ymm9
	vpaddq	%ymm9, %ymm10, %ymm14
	vpxor	%ymm11, %ymm14, %ymm2
	vpsrlq	$63, %ymm2, %ymm10
	vpaddq	%ymm2, %ymm2, %ymm2
	vpor	%ymm2, %ymm10, %ymm2
	vpaddq	512(%rsp), %ymm15, %ymm10
	vpaddq	%ymm1, %ymm10, %ymm10
	vpxor	%ymm9, %ymm10, %ymm9
	vpshufd	$177, %ymm9, %ymm9
	vpaddq	%ymm4, %ymm9, %ymm4
	vpxor	%ymm1, %ymm4, %ymm1
	vmovdqa	%ymm12, %ymm11
	vpshufb	%ymm12, %ymm1, %ymm1
	vpaddq	480(%rsp), %ymm10, %ymm10
	vpaddq	%ymm1, %ymm10, %ymm15
	vpxor	%ymm9, %ymm15, %ymm9
	vmovdqa	%ymm6, %ymm10
	vpshufb	%ymm6, %ymm9, %ymm5
	vmovdqu	%ymm5, 224(%rsp)
	vpaddq	%ymm5, %ymm4, %ymm4
	vmovdqu	%ymm4, 96(%rsp)
	vpxor	%ymm1, %ymm4, %ymm1
	vpsrlq	$63, %ymm1, %ymm4
	vpaddq	%ymm1, %ymm1, %ymm1
	vpor	%ymm4, %ymm1, %ymm1
	vmovdqu	%ymm1, 32(%rsp)
	vmovdqu	736(%rsp), %ymm12
	vpaddq	%ymm3, %ymm12, %ymm1
	vpaddq	%ymm0, %ymm1, %ymm1
	vpxor	288(%rsp), %ymm1, %ymm3
	vpshufd	$177, %ymm3, %ymm3
	vpaddq	%ymm3, %ymm14, %ymm6
	vpxor	%ymm0, %ymm6, %ymm0
	vpshufb	%ymm11, %ymm0, %ymm0
	vmovdqa	%ymm11, %ymm4
	vpaddq	544(%rsp), %ymm1, %ymm1
	vpaddq	%ymm0, %ymm1, %ymm11
	vpxor	%ymm3, %ymm11, %ymm1
	vpshufb	%ymm10, %ymm1, %ymm3
	vpaddq	%ymm3, %ymm6, %ymm1
	vmovdqu	%ymm1, 64(%rsp)
	vpxor	%ymm0, %ymm1, %ymm0
	vpsrlq	$63, %ymm0, %ymm1
	vpaddq	%ymm0, %ymm0, %ymm0
	vpor	%ymm1, %ymm0, %ymm0
	vmovdqu	%ymm0, 256(%rsp)
	vmovdqu	608(%rsp), %ymm14
	vpaddq	%ymm7, %ymm14, %ymm0
	vpaddq	%ymm2, %ymm0, %ymm0
	vpxor	%ymm0, %ymm8, %ymm1
	vpshufd	$177, %ymm1, %ymm1
	vpaddq	160(%rsp), %ymm1, %ymm8
	vpxor	%ymm2, %ymm8, %ymm2
	vpshufb	%ymm4, %ymm2, %ymm2
	vmovdqu	672(%rsp), %ymm6
	vpaddq	%ymm6, %ymm0, %ymm0
	vpaddq	%ymm2, %ymm0, %ymm0
	vmovdqu	%ymm0, 288(%rsp)
	vpxor	%ymm1, %ymm0, %ymm0
	vpshufb	%ymm10, %ymm0, %ymm10
	vpaddq	%ymm10, %ymm8, %ymm9
	vpxor	%ymm2, %ymm9, %ymm1
	vpsrlq	$63, %ymm1, %ymm2
	vpaddq	%ymm1, %ymm1, %ymm1
	vpor	%ymm2, %ymm1, %ymm0
	vmovdqu	%ymm0, 800(%rsp)
	vmovdqu	352(%rsp), %ymm0
	vpaddq	%ymm0, %ymm13, %ymm1
	vmovdqu	192(%rsp), %ymm4
	vpaddq	%ymm4, %ymm1, %ymm1
	vpxor	(%rsp), %ymm1, %ymm2
	vpshufd	$177, %ymm2, %ymm2
	vpaddq	128(%rsp), %ymm2, %ymm5
	vpxor	%ymm4, %ymm5, %ymm7
	vmovdqa	.L1_v3_CPI18_6(%rip), %ymm8
	vpshufb	%ymm8, %ymm7, %ymm7
	vpaddq	640(%rsp), %ymm1, %ymm1
	vpaddq	%ymm7, %ymm1, %ymm13
	vpxor	%ymm2, %ymm13, %ymm1
	vmovdqa	.L1_v3_CPI18_7(%rip), %ymm4
	vpshufb	%ymm4, %ymm1, %ymm1
	vpaddq	%ymm1, %ymm5, %ymm2
	vpxor	%ymm7, %ymm2, %ymm5
	vpsrlq	$63, %ymm5, %ymm7
	vpaddq	%ymm5, %ymm5, %ymm5
	vpor	%ymm7, %ymm5, %ymm5
	vpaddq	%ymm14, %ymm15, %ymm7
	vpaddq	%ymm5, %ymm7, %ymm7
	vpxor	%ymm3, %ymm7, %ymm3
	vpshufd	$177, %ymm3, %ymm3
	vpaddq	%ymm3, %ymm9, %ymm9
	vpxor	%ymm5, %ymm9, %ymm5
	vpshufb	%ymm8, %ymm5, %ymm5
	vpaddq	%ymm0, %ymm7, %ymm7
	vpaddq	%ymm5, %ymm7, %ymm15
	vpxor	%ymm3, %ymm15, %ymm3
	vpshufb	%ymm4, %ymm3, %ymm7
	vmovdqa	%ymm4, %ymm14
	vpaddq	%ymm7, %ymm9, %ymm0
	vmovdqu	%ymm0, 160(%rsp)
	vpxor	%ymm5, %ymm0, %ymm3
	vpsrlq	$63, %ymm3, %ymm5
	vpaddq	%ymm3, %ymm3, %ymm3
	vpor	%ymm5, %ymm3, %ymm0
	vmovdqu	%ymm0, 192(%rsp)
	vpaddq	%ymm12, %ymm11, %ymm3
	vmovdqu	32(%rsp), %ymm5
	vpaddq	%ymm5, %ymm3, %ymm3
	vpxor	%ymm3, %ymm10, %ymm0
	vpshufd	$177, %ymm0, %ymm4
	vpaddq	%ymm2, %ymm4, %ymm2
	vpxor	%ymm5, %ymm2, %ymm0
	vpshufb	%ymm8, %ymm0, %ymm9
	vpaddq	%ymm6, %ymm3, %ymm0
	vpaddq	%ymm0, %ymm9, %ymm0
	vpxor	%ymm4, %ymm0, %ymm3
	vpshufb	%ymm14, %ymm3, %ymm11
	vpaddq	%ymm2, %ymm11, %ymm2
	vmovdqu	%ymm2, 128(%rsp)
	vpxor	%ymm2, %ymm9, %ymm2
	vpsrlq	$63, %ymm2, %ymm3
	vpaddq	%ymm2, %ymm2, %ymm2
	vpor	%ymm3, %ymm2, %ymm3
	vmovdqu	288(%rsp), %ymm2
	vpaddq	384(%rsp), %ymm2, %ymm2
	vmovdqu	256(%rsp), %ymm6
	vpaddq	%ymm6, %ymm2, %ymm2
	vpxor	%ymm1, %ymm2, %ymm1
	vpshufd	$177, %ymm1, %ymm1
	vpaddq	96(%rsp), %ymm1, %ymm4
	vpxor	%ymm6, %ymm4, %ymm6
	vpshufb	%ymm8, %ymm6, %ymm9
	vmovdqa	%ymm8, %ymm12
	vpaddq	448(%rsp), %ymm2, %ymm2
	vpaddq	%ymm2, %ymm9, %ymm5
	vpxor	%ymm1, %ymm5, %ymm1
	vpshufb	%ymm14, %ymm1, %ymm1
	vmovdqu	%ymm1, 576(%rsp)
	vpaddq	%ymm1, %ymm4, %ymm2
	vpxor	%ymm2, %ymm9, %ymm1
	vpsrlq	$63, %ymm1, %ymm4
	vpaddq	%ymm1, %ymm1, %ymm1
	vpor	%ymm4, %ymm1, %ymm1
	vpaddq	416(%rsp), %ymm13, %ymm4
	vmovdqu	800(%rsp), %ymm6
	vpaddq	%ymm6, %ymm4, %ymm4
	vpxor	224(%rsp), %ymm4, %ymm9
	vpshufd	$177, %ymm9, %ymm9
	vpaddq	64(%rsp), %ymm9, %ymm10
	vpxor	%ymm6, %ymm10, %ymm8
	vpshufb	%ymm12, %ymm8, %ymm8
	vmovdqa	%ymm12, %ymm13
	vpaddq	480(%rsp), %ymm4, %ymm4
	vpaddq	%ymm4, %ymm8, %ymm6
	vpxor	%ymm6, %ymm9, %ymm4
	vpshufb	%ymm14, %ymm4, %ymm9
	vmovdqa	%ymm14, %ymm12
	vpaddq	%ymm9, %ymm10, %ymm10
	vpxor	%ymm8, %ymm10, %ymm4
	vpsrlq	$63, %ymm4, %ymm8
	vpaddq	%ymm4, %ymm4, %ymm4
	vpor	%ymm4, %ymm8, %ymm4
	vpaddq	704(%rsp), %ymm15, %ymm8
	vpaddq	%ymm3, %ymm8, %ymm8
	vpxor	%ymm9, %ymm8, %ymm9
	vpshufd	$177, %ymm9, %ymm9
	vpaddq	%ymm2, %ymm9, %ymm2
	vpxor	%ymm3, %ymm2, %ymm3
	vpshufb	%ymm13, %ymm3, %ymm14
	vpaddq	544(%rsp), %ymm8, %ymm3
	vpaddq	%ymm3, %ymm14, %ymm15
	vpxor	%ymm9, %ymm15, %ymm3
	vpshufb	%ymm12, %ymm3, %ymm3
	vmovdqu	%ymm3, 224(%rsp)
	vpaddq	%ymm3, %ymm2, %ymm2
	vmovdqu	%ymm2, 96(%rsp)
	vpxor	%ymm2, %ymm14, %ymm2
	vpsrlq	$63, %ymm2, %ymm8
	vpaddq	%ymm2, %ymm2, %ymm2
	vpor	%ymm2, %ymm8, %ymm2
	vmovdqu	%ymm2, (%rsp)
	vmovdqu	864(%rsp), %ymm12
	vpaddq	%ymm0, %ymm12, %ymm0
	vpaddq	%ymm1, %ymm0, %ymm0
	vpxor	%ymm7, %ymm0, %ymm2
	vpshufd	$177, %ymm2, %ymm7
	vpaddq	%ymm7, %ymm10, %ymm9
	vpxor	%ymm1, %ymm9, %ymm1
	vpshufb	%ymm13, %ymm1, %ymm1
	vpaddq	512(%rsp), %ymm0, %ymm0
	vpaddq	%ymm1, %ymm0, %ymm0
	vmovdqu	%ymm0, 256(%rsp)
	vpxor	%ymm7, %ymm0, %ymm0
	vmovdqa	.L1_v3_CPI18_7(%rip), %ymm14
	vpshufb	%ymm14, %ymm0, %ymm2
	vpaddq	%ymm2, %ymm9, %ymm0
	vmovdqu	%ymm0, 64(%rsp)
	vpxor	%ymm1, %ymm0, %ymm1
	vpsrlq	$63, %ymm1, %ymm7
	vpaddq	%ymm1, %ymm1, %ymm1
	vpor	%ymm7, %ymm1, %ymm0
	vmovdqu	%ymm0, 32(%rsp)
	vmovdqu	640(%rsp), %ymm10
	vpaddq	%ymm5, %ymm10, %ymm1
	vpaddq	%ymm4, %ymm1, %ymm1
	vpxor	%ymm1, %ymm11, %ymm9
	vpshufd	$177, %ymm9, %ymm9
	vpaddq	160(%rsp), %ymm9, %ymm11
	vpxor	%ymm4, %ymm11, %ymm4
	vpshufb	%ymm13, %ymm4, %ymm4
	vmovdqa	%ymm13, %ymm7
	vmovdqu	768(%rsp), %ymm3
	vpaddq	%ymm3, %ymm1, %ymm1
	vpaddq	%ymm4, %ymm1, %ymm0
	vmovdqu	%ymm0, 288(%rsp)
	vpxor	%ymm0, %ymm9, %ymm1
	vpshufb	%ymm14, %ymm1, %ymm8
	vmovdqa	%ymm14, %ymm1
	vpaddq	%ymm8, %ymm11, %ymm9
	vpxor	%ymm4, %ymm9, %ymm4
	vpsrlq	$63, %ymm4, %ymm11
	vpaddq	%ymm4, %ymm4, %ymm4
	vpor	%ymm4, %ymm11, %ymm0
	vmovdqu	%ymm0, 800(%rsp)
	vmovdqu	832(%rsp), %ymm13
	vpaddq	%ymm6, %ymm13, %ymm4
	vmovdqu	192(%rsp), %ymm0
	vpaddq	%ymm0, %ymm4, %ymm4
	vpxor	576(%rsp), %ymm4, %ymm6
	vpshufd	$177, %ymm6, %ymm6
	vpaddq	128(%rsp), %ymm6, %ymm14
	vpxor	%ymm0, %ymm14, %ymm5
	vpshufb	%ymm7, %ymm5, %ymm0
	vpaddq	320(%rsp), %ymm4, %ymm4
	vpaddq	%ymm0, %ymm4, %ymm11
	vpxor	%ymm6, %ymm11, %ymm4
	vpshufb	%ymm1, %ymm4, %ymm5
	vpaddq	%ymm5, %ymm14, %ymm14
	vpxor	%ymm0, %ymm14, %ymm0
	vpsrlq	$63, %ymm0, %ymm4
	vpaddq	%ymm0, %ymm0, %ymm0
	vpor	%ymm4, %ymm0, %ymm0
	vpaddq	352(%rsp), %ymm15, %ymm4
	vpaddq	%ymm0, %ymm4, %ymm4
	vpxor	%ymm2, %ymm4, %ymm2
	vpshufd	$177, %ymm2, %ymm2
	vpaddq	%ymm2, %ymm9, %ymm9
	vpxor	%ymm0, %ymm9, %ymm0
	vpshufb	%ymm7, %ymm0, %ymm0
	vpaddq	%ymm3, %ymm4, %ymm4
	vpaddq	%ymm0, %ymm4, %ymm15
	vpxor	%ymm2, %ymm15, %ymm2
	vpshufb	%ymm1, %ymm2, %ymm6
	vmovdqa	%ymm1, %ymm7
	vpaddq	%ymm6, %ymm9, %ymm1
	vmovdqu	%ymm1, 160(%rsp)
	vpxor	%ymm0, %ymm1, %ymm0
	vpsrlq	$63, %ymm0, %ymm2
	vpaddq	%ymm0, %ymm0, %ymm0
	vpor	%ymm2, %ymm0, %ymm0
	vmovdqu	%ymm0, 192(%rsp)
	vpaddq	256(%rsp), %ymm12, %ymm0
	vmovdqu	(%rsp), %ymm2
	vpaddq	%ymm2, %ymm0, %ymm0
	vpxor	%ymm0, %ymm8, %ymm1
	vpshufd	$177, %ymm1, %ymm1
	vpaddq	%ymm1, %ymm14, %ymm3
	vpxor	%ymm2, %ymm3, %ymm2
	vmovdqa	.L1_v3_CPI18_6(%rip), %ymm12
	vpshufb	%ymm12, %ymm2, %ymm9
	vpaddq	608(%rsp), %ymm0, %ymm0
	vpaddq	%ymm0, %ymm9, %ymm2
	vpxor	%ymm1, %ymm2, %ymm0
	vpshufb	%ymm7, %ymm0, %ymm0
	vmovdqa	%ymm7, %ymm8
	vmovdqu	%ymm0, (%rsp)
	vpaddq	%ymm0, %ymm3, %ymm0
	vmovdqu	%ymm0, 128(%rsp)
	vpxor	%ymm0, %ymm9, %ymm0
	vpsrlq	$63, %ymm0, %ymm1
	vpaddq	%ymm0, %ymm0, %ymm0
	vpor	%ymm1, %ymm0, %ymm0
	vmovdqu	704(%rsp), %ymm14
	vpaddq	288(%rsp), %ymm14, %ymm1
	vmovdqu	32(%rsp), %ymm7
	vpaddq	%ymm7, %ymm1, %ymm1
	vpxor	%ymm5, %ymm1, %ymm3
	vpshufd	$177, %ymm3, %ymm3
	vpaddq	96(%rsp), %ymm3, %ymm5
	vpxor	%ymm7, %ymm5, %ymm7
	vpshufb	%ymm12, %ymm7, %ymm9
	vpaddq	%ymm1, %ymm10, %ymm1
	vpaddq	%ymm1, %ymm9, %ymm4
	vpxor	%ymm3, %ymm4, %ymm1
	vpshufb	%ymm8, %ymm1, %ymm7
	vpaddq	%ymm7, %ymm5, %ymm3
	vpxor	%ymm3, %ymm9, %ymm1
	vpsrlq	$63, %ymm1, %ymm5
	vpaddq	%ymm1, %ymm1, %ymm1
	vpor	%ymm5, %ymm1, %ymm5
	vpaddq	512(%rsp), %ymm11, %ymm1
	vmovdqu	800(%rsp), %ymm11
	vpaddq	%ymm1, %ymm11, %ymm1
	vpxor	224(%rsp), %ymm1, %ymm9
	vpshufd	$177, %ymm9, %ymm9
	vpaddq	64(%rsp), %ymm9, %ymm10
	vpxor	%ymm11, %ymm10, %ymm11
	vpshufb	%ymm12, %ymm11, %ymm11
	vpaddq	%ymm1, %ymm13, %ymm1
	vpaddq	%ymm1, %ymm11, %ymm13
	vpxor	%ymm9, %ymm13, %ymm1
	vpshufb	%ymm8, %ymm1, %ymm9
	vpaddq	%ymm9, %ymm10, %ymm10
	vpxor	%ymm11, %ymm10, %ymm1
	vpsrlq	$63, %ymm1, %ymm11
	vpaddq	%ymm1, %ymm1, %ymm1
	vpor	%ymm1, %ymm11, %ymm1
	vpaddq	480(%rsp), %ymm15, %ymm11
	vpaddq	%ymm0, %ymm11, %ymm11
	vpxor	%ymm9, %ymm11, %ymm9
	vpshufd	$177, %ymm9, %ymm9
	vpaddq	%ymm3, %ymm9, %ymm3
	vpxor	%ymm0, %ymm3, %ymm0
	vpshufb	%ymm12, %ymm0, %ymm0
	vpaddq	672(%rsp), %ymm11, %ymm11
	vpaddq	%ymm0, %ymm11, %ymm15
	vpxor	%ymm9, %ymm15, %ymm9
	vpshufb	%ymm8, %ymm9, %ymm9
	vmovdqu	%ymm9, 224(%rsp)
	vpaddq	%ymm3, %ymm9, %ymm3
	vmovdqu	%ymm3, 96(%rsp)
	vpxor	%ymm0, %ymm3, %ymm0
	vpsrlq	$63, %ymm0, %ymm3
	vpaddq	%ymm0, %ymm0, %ymm0
	vpor	%ymm3, %ymm0, %ymm0
	vmovdqu	%ymm0, 32(%rsp)
	vpaddq	416(%rsp), %ymm2, %ymm0
	vpaddq	%ymm5, %ymm0, %ymm0
	vpxor	%ymm6, %ymm0, %ymm2
	vpshufd	$177, %ymm2, %ymm2
	vpaddq	%ymm2, %ymm10, %ymm3
	vpxor	%ymm5, %ymm3, %ymm5
	vpshufb	%ymm12, %ymm5, %ymm6
	vmovdqu	448(%rsp), %ymm5
	vpaddq	%ymm5, %ymm0, %ymm0
	vpaddq	%ymm6, %ymm0, %ymm0
	vmovdqu	%ymm0, 288(%rsp)
	vpxor	%ymm2, %ymm0, %ymm0
	vpshufb	%ymm8, %ymm0, %ymm2
	vmovdqa	%ymm8, %ymm10
	vpaddq	%ymm2, %ymm3, %ymm0
	vmovdqu	%ymm0, 64(%rsp)
	vpxor	%ymm6, %ymm0, %ymm0
	vpsrlq	$63, %ymm0, %ymm3
	vpaddq	%ymm0, %ymm0, %ymm0
	vpor	%ymm3, %ymm0, %ymm0
	vmovdqu	%ymm0, 256(%rsp)
	vmovdqu	544(%rsp), %ymm6
	vpaddq	%ymm6, %ymm4, %ymm0
	vpaddq	%ymm1, %ymm0, %ymm0
	vpxor	(%rsp), %ymm0, %ymm3
	vpshufd	$177, %ymm3, %ymm3
	vpaddq	160(%rsp), %ymm3, %ymm4
	vpxor	%ymm1, %ymm4, %ymm1
	vpshufb	%ymm12, %ymm1, %ymm8
	vmovdqa	%ymm12, %ymm1
	vmovdqu	320(%rsp), %ymm12
	vpaddq	%ymm0, %ymm12, %ymm0
	vpaddq	%ymm0, %ymm8, %ymm0
	vmovdqu	%ymm0, 576(%rsp)
	vpxor	%ymm3, %ymm0, %ymm0
	vpshufb	%ymm10, %ymm0, %ymm10
	vpaddq	%ymm4, %ymm10, %ymm3
	vpxor	%ymm3, %ymm8, %ymm0
	vpsrlq	$63, %ymm0, %ymm4
	vpaddq	%ymm0, %ymm0, %ymm0
	vpor	%ymm4, %ymm0, %ymm0
	vmovdqu	%ymm0, 800(%rsp)
	vmovdqu	736(%rsp), %ymm11
	vpaddq	%ymm11, %ymm13, %ymm0
	vmovdqu	192(%rsp), %ymm9
	vpaddq	%ymm0, %ymm9, %ymm0
	vpxor	%ymm7, %ymm0, %ymm4
	vpshufd	$177, %ymm4, %ymm4
	vpaddq	128(%rsp), %ymm4, %ymm7
	vpxor	%ymm7, %ymm9, %ymm9
	vpshufb	%ymm1, %ymm9, %ymm9
	vpaddq	384(%rsp), %ymm0, %ymm0
	vpaddq	%ymm0, %ymm9, %ymm13
	vpxor	%ymm4, %ymm13, %ymm0
	vmovdqa	.L1_v3_CPI18_7(%rip), %ymm8
	vpshufb	%ymm8, %ymm0, %ymm0
	vpaddq	%ymm0, %ymm7, %ymm4
	vpxor	%ymm4, %ymm9, %ymm7
	vpsrlq	$63, %ymm7, %ymm9
	vpaddq	%ymm7, %ymm7, %ymm7
	vpor	%ymm7, %ymm9, %ymm7
	vpaddq	%ymm14, %ymm15, %ymm9
	vpaddq	%ymm7, %ymm9, %ymm9
	vpxor	%ymm2, %ymm9, %ymm2
	vpshufd	$177, %ymm2, %ymm2
	vpaddq	%ymm3, %ymm2, %ymm3
	vpxor	%ymm7, %ymm3, %ymm7
	vpshufb	%ymm1, %ymm7, %ymm14
	vpaddq	%ymm5, %ymm9, %ymm7
	vpaddq	%ymm7, %ymm14, %ymm15
	vpxor	%ymm2, %ymm15, %ymm2
	vpshufb	%ymm8, %ymm2, %ymm1
	vmovdqu	%ymm1, 960(%rsp)
	vpaddq	%ymm1, %ymm3, %ymm1
	vmovdqu	%ymm1, 160(%rsp)
	vpxor	%ymm1, %ymm14, %ymm2
	vpsrlq	$63, %ymm2, %ymm3
	vpaddq	%ymm2, %ymm2, %ymm2
	vpor	%ymm3, %ymm2, %ymm2
	vmovdqu	%ymm2, 192(%rsp)
	vpaddq	288(%rsp), %ymm6, %ymm2
	vmovdqu	32(%rsp), %ymm3
	vpaddq	%ymm3, %ymm2, %ymm2
	vpxor	%ymm2, %ymm10, %ymm1
	vpshufd	$177, %ymm1, %ymm1
	vpaddq	%ymm4, %ymm1, %ymm4
	vpxor	%ymm3, %ymm4, %ymm3
	vmovdqa	.L1_v3_CPI18_6(%rip), %ymm10
	vpshufb	%ymm10, %ymm3, %ymm9
	vpaddq	512(%rsp), %ymm2, %ymm2
	vpaddq	%ymm2, %ymm9, %ymm7
	vpxor	%ymm1, %ymm7, %ymm1
	vpshufb	%ymm8, %ymm1, %ymm1
	vmovdqu	%ymm1, (%rsp)
	vpaddq	%ymm1, %ymm4, %ymm1
	vmovdqu	%ymm1, 128(%rsp)
	vpxor	%ymm1, %ymm9, %ymm1
	vpsrlq	$63, %ymm1, %ymm2
	vpaddq	%ymm1, %ymm1, %ymm1
	vpor	%ymm2, %ymm1, %ymm1
	vmovdqu	576(%rsp), %ymm2
	vpaddq	768(%rsp), %ymm2, %ymm2
	vmovdqu	256(%rsp), %ymm5
	vpaddq	%ymm5, %ymm2, %ymm2
	vpxor	%ymm0, %ymm2, %ymm0
	vpshufd	$177, %ymm0, %ymm0
	vpaddq	96(%rsp), %ymm0, %ymm4
	vpxor	%ymm5, %ymm4, %ymm6
	vpshufb	%ymm10, %ymm6, %ymm9
	vmovdqa	%ymm10, %ymm3
	vpaddq	416(%rsp), %ymm2, %ymm2
	vpaddq	%ymm2, %ymm9, %ymm5
	vpxor	%ymm0, %ymm5, %ymm0
	vpshufb	%ymm8, %ymm0, %ymm6
	vmovdqa	%ymm8, %ymm14
	vpaddq	%ymm6, %ymm4, %ymm4
	vpxor	%ymm4, %ymm9, %ymm0
	vpsrlq	$63, %ymm0, %ymm2
	vpaddq	%ymm0, %ymm0, %ymm0
	vpor	%ymm2, %ymm0, %ymm0
	vpaddq	%ymm12, %ymm13, %ymm2
	vmovdqu	800(%rsp), %ymm8
	vpaddq	%ymm2, %ymm8, %ymm2
	vpxor	224(%rsp), %ymm2, %ymm9
	vpshufd	$177, %ymm9, %ymm9
	vpaddq	64(%rsp), %ymm9, %ymm10
	vpxor	%ymm8, %ymm10, %ymm8
	vpshufb	%ymm3, %ymm8, %ymm8
	vpaddq	%ymm2, %ymm11, %ymm2
	vpaddq	%ymm2, %ymm8, %ymm13
	vpxor	%ymm9, %ymm13, %ymm2
	vpshufb	%ymm14, %ymm2, %ymm9
	vmovdqa	%ymm14, %ymm11
	vpaddq	%ymm9, %ymm10, %ymm14
	vpxor	%ymm8, %ymm14, %ymm2
	vpsrlq	$63, %ymm2, %ymm8
	vpaddq	%ymm2, %ymm2, %ymm2
	vpor	%ymm2, %ymm8, %ymm2
	vpaddq	640(%rsp), %ymm15, %ymm8
	vpaddq	%ymm1, %ymm8, %ymm8
	vpxor	%ymm9, %ymm8, %ymm9
	vpshufd	$177, %ymm9, %ymm9
	vpaddq	%ymm4, %ymm9, %ymm4
	vpxor	%ymm1, %ymm4, %ymm1
	vmovdqa	%ymm3, %ymm10
	vpshufb	%ymm3, %ymm1, %ymm1
	vpaddq	384(%rsp), %ymm8, %ymm8
	vpaddq	%ymm1, %ymm8, %ymm15
	vpxor	%ymm9, %ymm15, %ymm8
	vpshufb	%ymm11, %ymm8, %ymm8
	vmovdqu	%ymm8, 224(%rsp)
	vpaddq	%ymm4, %ymm8, %ymm4
	vmovdqu	%ymm4, 96(%rsp)
	vpxor	%ymm1, %ymm4, %ymm1
	vpsrlq	$63, %ymm1, %ymm4
	vpaddq	%ymm1, %ymm1, %ymm1
	vpor	%ymm4, %ymm1, %ymm1
	vmovdqu	%ymm1, 32(%rsp)
	vpaddq	608(%rsp), %ymm7, %ymm1
	vpaddq	%ymm0, %ymm1, %ymm1
	vpxor	960(%rsp), %ymm1, %ymm3
	vpshufd	$177, %ymm3, %ymm3
	vpaddq	%ymm3, %ymm14, %ymm7
	vpxor	%ymm0, %ymm7, %ymm0
	vpshufb	%ymm10, %ymm0, %ymm0
	vmovdqa	%ymm10, %ymm4
	vmovdqu	864(%rsp), %ymm14
	vpaddq	%ymm1, %ymm14, %ymm1
	vpaddq	%ymm0, %ymm1, %ymm1
	vmovdqu	%ymm1, 288(%rsp)
	vpxor	%ymm3, %ymm1, %ymm1
	vpshufb	%ymm11, %ymm1, %ymm3
	vmovdqa	%ymm11, %ymm10
	vpaddq	%ymm3, %ymm7, %ymm1
	vmovdqu	%ymm1, 64(%rsp)
	vpxor	%ymm0, %ymm1, %ymm0
	vpsrlq	$63, %ymm0, %ymm1
	vpaddq	%ymm0, %ymm0, %ymm0
	vpor	%ymm1, %ymm0, %ymm0
	vmovdqu	%ymm0, 256(%rsp)
	vmovdqu	832(%rsp), %ymm7
	vpaddq	%ymm7, %ymm5, %ymm0
	vpaddq	%ymm2, %ymm0, %ymm0
	vpxor	(%rsp), %ymm0, %ymm1
	vpshufd	$177, %ymm1, %ymm1
	vpaddq	160(%rsp), %ymm1, %ymm9
	vpxor	%ymm2, %ymm9, %ymm2
	vpshufb	%ymm4, %ymm2, %ymm2
	vmovdqu	480(%rsp), %ymm8
	vpaddq	%ymm0, %ymm8, %ymm0
	vpaddq	%ymm2, %ymm0, %ymm12
	vpxor	%ymm1, %ymm12, %ymm0
	vpshufb	%ymm11, %ymm0, %ymm11
	vpaddq	%ymm11, %ymm9, %ymm9
	vpxor	%ymm2, %ymm9, %ymm1
	vpsrlq	$63, %ymm1, %ymm2
	vpaddq	%ymm1, %ymm1, %ymm1
	vpor	%ymm2, %ymm1, %ymm0
	vmovdqu	%ymm0, (%rsp)
	vmovdqu	672(%rsp), %ymm0
	vpaddq	%ymm0, %ymm13, %ymm1
	vmovdqu	192(%rsp), %ymm13
	vpaddq	%ymm1, %ymm13, %ymm1
	vpxor	%ymm6, %ymm1, %ymm2
	vpshufd	$177, %ymm2, %ymm2
	vpaddq	128(%rsp), %ymm2, %ymm5
	vpxor	%ymm5, %ymm13, %ymm6
	vpshufb	%ymm4, %ymm6, %ymm6
	vpaddq	352(%rsp), %ymm1, %ymm1
	vpaddq	%ymm6, %ymm1, %ymm13
	vpxor	%ymm2, %ymm13, %ymm1
	vpshufb	%ymm10, %ymm1, %ymm1
	vpaddq	%ymm1, %ymm5, %ymm2
	vpxor	%ymm6, %ymm2, %ymm5
	vpsrlq	$63, %ymm5, %ymm6
	vpaddq	%ymm5, %ymm5, %ymm5
	vpor	%ymm6, %ymm5, %ymm5
	vpaddq	448(%rsp), %ymm15, %ymm6
	vpaddq	%ymm5, %ymm6, %ymm6
	vpxor	%ymm3, %ymm6, %ymm3
	vpshufd	$177, %ymm3, %ymm3
	vpaddq	%ymm3, %ymm9, %ymm9
	vpxor	%ymm5, %ymm9, %ymm5
	vpshufb	%ymm4, %ymm5, %ymm5
	vmovdqa	%ymm4, %ymm10
	vpaddq	%ymm6, %ymm14, %ymm6
	vpaddq	%ymm5, %ymm6, %ymm15
	vpxor	%ymm3, %ymm15, %ymm3
	vmovdqa	.L1_v3_CPI18_7(%rip), %ymm14
	vpshufb	%ymm14, %ymm3, %ymm6
	vpaddq	%ymm6, %ymm9, %ymm3
	vmovdqu	%ymm3, 160(%rsp)
	vpxor	%ymm5, %ymm3, %ymm3
	vpsrlq	$63, %ymm3, %ymm5
	vpaddq	%ymm3, %ymm3, %ymm3
	vpor	%ymm5, %ymm3, %ymm3
	vmovdqu	%ymm3, 192(%rsp)
	vpaddq	288(%rsp), %ymm0, %ymm3
	vmovdqu	32(%rsp), %ymm5
	vpaddq	%ymm5, %ymm3, %ymm3
	vpxor	%ymm3, %ymm11, %ymm0
	vpshufd	$177, %ymm0, %ymm4
	vpaddq	%ymm2, %ymm4, %ymm2
	vpxor	%ymm5, %ymm2, %ymm0
	vpshufb	%ymm10, %ymm0, %ymm9
	vpaddq	%ymm7, %ymm3, %ymm0
	vpaddq	%ymm0, %ymm9, %ymm0
	vpxor	%ymm4, %ymm0, %ymm3
	vpshufb	%ymm14, %ymm3, %ymm5
	vpaddq	%ymm5, %ymm2, %ymm2
	vmovdqu	%ymm2, 128(%rsp)
	vpxor	%ymm2, %ymm9, %ymm2
	vpsrlq	$63, %ymm2, %ymm3
	vpaddq	%ymm2, %ymm2, %ymm2
	vpor	%ymm3, %ymm2, %ymm3
	vpaddq	%ymm8, %ymm12, %ymm2
	vmovdqu	256(%rsp), %ymm7
	vpaddq	%ymm7, %ymm2, %ymm2
	vpxor	%ymm1, %ymm2, %ymm1
	vpshufd	$177, %ymm1, %ymm1
	vpaddq	96(%rsp), %ymm1, %ymm4
	vpxor	%ymm7, %ymm4, %ymm7
	vpshufb	%ymm10, %ymm7, %ymm9
	vmovdqa	%ymm10, %ymm12
	vpaddq	384(%rsp), %ymm2, %ymm2
	vpaddq	%ymm2, %ymm9, %ymm8
	vpxor	%ymm1, %ymm8, %ymm1
	vpshufb	%ymm14, %ymm1, %ymm7
	vpaddq	%ymm7, %ymm4, %ymm2
	vpxor	%ymm2, %ymm9, %ymm1
	vpsrlq	$63, %ymm1, %ymm4
	vpaddq	%ymm1, %ymm1, %ymm1
	vpor	%ymm4, %ymm1, %ymm1
	vpaddq	640(%rsp), %ymm13, %ymm4
	vmovdqu	(%rsp), %ymm11
	vpaddq	%ymm4, %ymm11, %ymm4
	vpxor	224(%rsp), %ymm4, %ymm9
	vpshufd	$177, %ymm9, %ymm9
	vpaddq	64(%rsp), %ymm9, %ymm10
	vpxor	%ymm11, %ymm10, %ymm11
	vpshufb	%ymm12, %ymm11, %ymm11
	vpaddq	512(%rsp), %ymm4, %ymm4
	vpaddq	%ymm4, %ymm11, %ymm13
	vpxor	%ymm9, %ymm13, %ymm4
	vpshufb	%ymm14, %ymm4, %ymm9
	vpaddq	%ymm9, %ymm10, %ymm10
	vpxor	%ymm11, %ymm10, %ymm4
	vpsrlq	$63, %ymm4, %ymm11
	vpaddq	%ymm4, %ymm4, %ymm4
	vpor	%ymm4, %ymm11, %ymm4
	vpaddq	768(%rsp), %ymm15, %ymm11
	vpaddq	%ymm3, %ymm11, %ymm11
	vpxor	%ymm9, %ymm11, %ymm9
	vpshufd	$177, %ymm9, %ymm9
	vpaddq	%ymm2, %ymm9, %ymm2
	vpxor	%ymm3, %ymm2, %ymm3
	vpshufb	%ymm12, %ymm3, %ymm14
	vmovdqu	608(%rsp), %ymm12
	vpaddq	%ymm12, %ymm11, %ymm3
	vpaddq	%ymm3, %ymm14, %ymm15
	vpxor	%ymm9, %ymm15, %ymm3
	vmovdqa	.L1_v3_CPI18_7(%rip), %ymm11
	vpshufb	%ymm11, %ymm3, %ymm3
	vmovdqu	%ymm3, 224(%rsp)
	vpaddq	%ymm3, %ymm2, %ymm2
	vmovdqu	%ymm2, 96(%rsp)
	vpxor	%ymm2, %ymm14, %ymm2
	vpsrlq	$63, %ymm2, %ymm9
	vpaddq	%ymm2, %ymm2, %ymm2
	vpor	%ymm2, %ymm9, %ymm2
	vmovdqu	%ymm2, (%rsp)
	vpaddq	544(%rsp), %ymm0, %ymm0
	vpaddq	%ymm1, %ymm0, %ymm0
	vpxor	%ymm6, %ymm0, %ymm2
	vpshufd	$177, %ymm2, %ymm6
	vpaddq	%ymm6, %ymm10, %ymm9
	vpxor	%ymm1, %ymm9, %ymm1
	vmovdqa	.L1_v3_CPI18_6(%rip), %ymm3
	vpshufb	%ymm3, %ymm1, %ymm1
	vpaddq	736(%rsp), %ymm0, %ymm0
	vpaddq	%ymm1, %ymm0, %ymm10
	vpxor	%ymm6, %ymm10, %ymm0
	vpshufb	%ymm11, %ymm0, %ymm2
	vmovdqa	%ymm11, %ymm0
	vpaddq	%ymm2, %ymm9, %ymm6
	vmovdqu	%ymm6, 64(%rsp)
	vpxor	%ymm1, %ymm6, %ymm1
	vpsrlq	$63, %ymm1, %ymm6
	vpaddq	%ymm1, %ymm1, %ymm1
	vpor	%ymm6, %ymm1, %ymm1
	vmovdqu	%ymm1, 32(%rsp)
	vpaddq	352(%rsp), %ymm8, %ymm1
	vpaddq	%ymm4, %ymm1, %ymm1
	vpxor	%ymm5, %ymm1, %ymm8
	vpshufd	$177, %ymm8, %ymm8
	vpaddq	160(%rsp), %ymm8, %ymm9
	vpxor	%ymm4, %ymm9, %ymm4
	vpshufb	%ymm3, %ymm4, %ymm4
	vmovdqa	%ymm3, %ymm6
	vpaddq	704(%rsp), %ymm1, %ymm1
	vpaddq	%ymm4, %ymm1, %ymm11
	vpxor	%ymm8, %ymm11, %ymm1
	vpshufb	%ymm0, %ymm1, %ymm3
	vpaddq	%ymm3, %ymm9, %ymm9
	vpxor	%ymm4, %ymm9, %ymm4
	vpsrlq	$63, %ymm4, %ymm8
	vpaddq	%ymm4, %ymm4, %ymm4
	vpor	%ymm4, %ymm8, %ymm8
	vpaddq	320(%rsp), %ymm13, %ymm4
	vmovdqu	192(%rsp), %ymm0
	vpaddq	%ymm0, %ymm4, %ymm4
	vpxor	%ymm7, %ymm4, %ymm7
	vpshufd	$177, %ymm7, %ymm7
	vpaddq	128(%rsp), %ymm7, %ymm14
	vpxor	%ymm0, %ymm14, %ymm5
	vpshufb	%ymm6, %ymm5, %ymm0
	vmovdqu	416(%rsp), %ymm1
	vpaddq	%ymm1, %ymm4, %ymm4
	vpaddq	%ymm0, %ymm4, %ymm13
	vpxor	%ymm7, %ymm13, %ymm4
	vmovdqa	.L1_v3_CPI18_7(%rip), %ymm6
	vpshufb	%ymm6, %ymm4, %ymm5
	vpaddq	%ymm5, %ymm14, %ymm14
	vpxor	%ymm0, %ymm14, %ymm0
	vpsrlq	$63, %ymm0, %ymm4
	vpaddq	%ymm0, %ymm0, %ymm0
	vpor	%ymm4, %ymm0, %ymm0
	vpaddq	384(%rsp), %ymm15, %ymm4
	vpaddq	%ymm0, %ymm4, %ymm4
	vpxor	%ymm2, %ymm4, %ymm2
	vpshufd	$177, %ymm2, %ymm2
	vpaddq	%ymm2, %ymm9, %ymm9
	vpxor	%ymm0, %ymm9, %ymm0
	vmovdqa	.L1_v3_CPI18_6(%rip), %ymm7
	vpshufb	%ymm7, %ymm0, %ymm0
	vpaddq	%ymm1, %ymm4, %ymm4
	vpaddq	%ymm0, %ymm4, %ymm15
	vpxor	%ymm2, %ymm15, %ymm2
	vpshufb	%ymm6, %ymm2, %ymm1
	vmovdqu	%ymm1, 256(%rsp)
	vpaddq	%ymm1, %ymm9, %ymm1
	vmovdqu	%ymm1, 160(%rsp)
	vpxor	%ymm0, %ymm1, %ymm0
	vpsrlq	$63, %ymm0, %ymm2
	vpaddq	%ymm0, %ymm0, %ymm0
	vpor	%ymm2, %ymm0, %ymm0
	vmovdqu	%ymm0, 192(%rsp)
	vpaddq	%ymm12, %ymm10, %ymm0
	vmovdqu	(%rsp), %ymm2
	vpaddq	%ymm2, %ymm0, %ymm0
	vpxor	%ymm3, %ymm0, %ymm1
	vpshufd	$177, %ymm1, %ymm1
	vpaddq	%ymm1, %ymm14, %ymm3
	vpxor	%ymm2, %ymm3, %ymm2
	vmovdqa	%ymm7, %ymm10
	vpshufb	%ymm7, %ymm2, %ymm9
	vpaddq	480(%rsp), %ymm0, %ymm0
	vpaddq	%ymm0, %ymm9, %ymm7
	vpxor	%ymm1, %ymm7, %ymm0
	vpshufb	%ymm6, %ymm0, %ymm14
	vmovdqa	%ymm6, %ymm4
	vpaddq	%ymm3, %ymm14, %ymm0
	vmovdqu	%ymm0, 128(%rsp)
	vpxor	%ymm0, %ymm9, %ymm0
	vpsrlq	$63, %ymm0, %ymm1
	vpaddq	%ymm0, %ymm0, %ymm0
	vpor	%ymm1, %ymm0, %ymm0
	vpaddq	448(%rsp), %ymm11, %ymm1
	vmovdqu	32(%rsp), %ymm6
	vpaddq	%ymm6, %ymm1, %ymm1
	vpxor	%ymm5, %ymm1, %ymm3
	vpshufd	$177, %ymm3, %ymm3
	vpaddq	96(%rsp), %ymm3, %ymm5
	vpxor	%ymm6, %ymm5, %ymm6
	vpshufb	%ymm10, %ymm6, %ymm9
	vmovdqa	%ymm10, %ymm2
	vpaddq	672(%rsp), %ymm1, %ymm1
	vpaddq	%ymm1, %ymm9, %ymm12
	vpxor	%ymm3, %ymm12, %ymm1
	vpshufb	%ymm4, %ymm1, %ymm6
	vpaddq	%ymm6, %ymm5, %ymm3
	vpxor	%ymm3, %ymm9, %ymm1
	vpsrlq	$63, %ymm1, %ymm5
	vpaddq	%ymm1, %ymm1, %ymm1
	vpor	%ymm5, %ymm1, %ymm5
	vpaddq	736(%rsp), %ymm13, %ymm1
	vpaddq	%ymm1, %ymm8, %ymm1
	vpxor	224(%rsp), %ymm1, %ymm9
	vpshufd	$177, %ymm9, %ymm9
	vpaddq	64(%rsp), %ymm9, %ymm10
	vpxor	%ymm8, %ymm10, %ymm8
	vpshufb	%ymm2, %ymm8, %ymm8
	vpaddq	352(%rsp), %ymm1, %ymm1
	vpaddq	%ymm1, %ymm8, %ymm13
	vpxor	%ymm9, %ymm13, %ymm1
	vpshufb	%ymm4, %ymm1, %ymm9
	vpaddq	%ymm9, %ymm10, %ymm10
	vpxor	%ymm8, %ymm10, %ymm1
	vpsrlq	$63, %ymm1, %ymm8
	vpaddq	%ymm1, %ymm1, %ymm1
	vpor	%ymm1, %ymm8, %ymm1
	vpaddq	864(%rsp), %ymm15, %ymm8
	vpaddq	%ymm0, %ymm8, %ymm8
	vpxor	%ymm9, %ymm8, %ymm9
	vpshufd	$177, %ymm9, %ymm9
	vpaddq	%ymm3, %ymm9, %ymm3
	vpxor	%ymm0, %ymm3, %ymm0
	vpshufb	%ymm2, %ymm0, %ymm0
	vmovdqa	%ymm2, %ymm11
	vpaddq	768(%rsp), %ymm8, %ymm8
	vpaddq	%ymm0, %ymm8, %ymm15
	vpxor	%ymm9, %ymm15, %ymm8
	vpshufb	%ymm4, %ymm8, %ymm8
	vmovdqu	%ymm8, 224(%rsp)
	vpaddq	%ymm3, %ymm8, %ymm3
	vmovdqu	%ymm3, 96(%rsp)
	vpxor	%ymm0, %ymm3, %ymm0
	vpsrlq	$63, %ymm0, %ymm3
	vpaddq	%ymm0, %ymm0, %ymm0
	vpor	%ymm3, %ymm0, %ymm0
	vmovdqu	%ymm0, (%rsp)
	vmovdqu	832(%rsp), %ymm8
	vpaddq	%ymm7, %ymm8, %ymm0
	vpaddq	%ymm5, %ymm0, %ymm0
	vpxor	256(%rsp), %ymm0, %ymm2
	vpshufd	$177, %ymm2, %ymm2
	vpaddq	%ymm2, %ymm10, %ymm3
	vpxor	%ymm5, %ymm3, %ymm5
	vpshufb	%ymm11, %ymm5, %ymm7
	vmovdqa	%ymm11, %ymm5
	vpaddq	640(%rsp), %ymm0, %ymm0
	vpaddq	%ymm7, %ymm0, %ymm0
	vmovdqu	%ymm0, 32(%rsp)
	vpxor	%ymm2, %ymm0, %ymm0
	vpshufb	%ymm4, %ymm0, %ymm2
	vmovdqa	%ymm4, %ymm11
	vpaddq	%ymm2, %ymm3, %ymm0
	vmovdqu	%ymm0, 64(%rsp)
	vpxor	%ymm7, %ymm0, %ymm0
	vpsrlq	$63, %ymm0, %ymm3
	vpaddq	%ymm0, %ymm0, %ymm0
	vpor	%ymm3, %ymm0, %ymm7
	vpaddq	320(%rsp), %ymm12, %ymm0
	vpaddq	%ymm1, %ymm0, %ymm0
	vpxor	%ymm0, %ymm14, %ymm3
	vpshufd	$177, %ymm3, %ymm3
	vpaddq	160(%rsp), %ymm3, %ymm4
	vpxor	%ymm1, %ymm4, %ymm1
	vmovdqa	%ymm5, %ymm14
	vpshufb	%ymm5, %ymm1, %ymm9
	vmovdqu	544(%rsp), %ymm1
	vpaddq	%ymm1, %ymm0, %ymm0
	vpaddq	%ymm0, %ymm9, %ymm12
	vpxor	%ymm3, %ymm12, %ymm0
	vpshufb	%ymm11, %ymm0, %ymm5
	vpaddq	%ymm5, %ymm4, %ymm3
	vpxor	%ymm3, %ymm9, %ymm0
	vpsrlq	$63, %ymm0, %ymm4
	vpaddq	%ymm0, %ymm0, %ymm0
	vpor	%ymm4, %ymm0, %ymm0
	vmovdqu	%ymm0, 256(%rsp)
	vpaddq	704(%rsp), %ymm13, %ymm0
	vmovdqu	192(%rsp), %ymm9
	vpaddq	%ymm0, %ymm9, %ymm0
	vpxor	%ymm6, %ymm0, %ymm4
	vpshufd	$177, %ymm4, %ymm4
	vpaddq	128(%rsp), %ymm4, %ymm6
	vpxor	%ymm6, %ymm9, %ymm9
	vpshufb	%ymm14, %ymm9, %ymm9
	vmovdqa	%ymm14, %ymm10
	vpaddq	512(%rsp), %ymm0, %ymm0
	vpaddq	%ymm0, %ymm9, %ymm13
	vpxor	%ymm4, %ymm13, %ymm0
	vpshufb	%ymm11, %ymm0, %ymm0
	vpaddq	%ymm0, %ymm6, %ymm14
	vpxor	%ymm9, %ymm14, %ymm4
	vpsrlq	$63, %ymm4, %ymm6
	vpaddq	%ymm4, %ymm4, %ymm4
	vpor	%ymm6, %ymm4, %ymm4
	vpaddq	%ymm1, %ymm15, %ymm6
	vpaddq	%ymm4, %ymm6, %ymm6
	vpxor	%ymm2, %ymm6, %ymm2
	vpshufd	$177, %ymm2, %ymm2
	vpaddq	%ymm3, %ymm2, %ymm3
	vpxor	%ymm4, %ymm3, %ymm4
	vpshufb	%ymm10, %ymm4, %ymm9
	vpaddq	%ymm6, %ymm8, %ymm4
	vpaddq	%ymm4, %ymm9, %ymm15
	vpxor	%ymm2, %ymm15, %ymm2
	vpshufb	%ymm11, %ymm2, %ymm6
	vpaddq	%ymm6, %ymm3, %ymm1
	vmovdqu	%ymm1, 160(%rsp)
	vpxor	%ymm1, %ymm9, %ymm2
	vpsrlq	$63, %ymm2, %ymm3
	vpaddq	%ymm2, %ymm2, %ymm2
	vpor	%ymm3, %ymm2, %ymm1
	vmovdqu	%ymm1, 192(%rsp)
	vmovdqu	32(%rsp), %ymm1
	vpaddq	480(%rsp), %ymm1, %ymm2
	vmovdqu	(%rsp), %ymm3
	vpaddq	%ymm3, %ymm2, %ymm2
	vpxor	%ymm5, %ymm2, %ymm1
	vpshufd	$177, %ymm1, %ymm1
	vpaddq	%ymm1, %ymm14, %ymm5
	vpxor	%ymm3, %ymm5, %ymm3
	vmovdqa	.L1_v3_CPI18_6(%rip), %ymm4
	vpshufb	%ymm4, %ymm3, %ymm9
	vpaddq	352(%rsp), %ymm2, %ymm2
	vpaddq	%ymm2, %ymm9, %ymm3
	vpxor	%ymm1, %ymm3, %ymm1
	vpshufb	%ymm11, %ymm1, %ymm8
	vpaddq	%ymm5, %ymm8, %ymm1
	vmovdqu	%ymm1, 128(%rsp)
	vpxor	%ymm1, %ymm9, %ymm1
	vpsrlq	$63, %ymm1, %ymm2
	vpaddq	%ymm1, %ymm1, %ymm1
	vpor	%ymm2, %ymm1, %ymm1
	vpaddq	416(%rsp), %ymm12, %ymm2
	vpaddq	%ymm7, %ymm2, %ymm2
	vpxor	%ymm0, %ymm2, %ymm0
	vpshufd	$177, %ymm0, %ymm0
	vpaddq	96(%rsp), %ymm0, %ymm9
	vpxor	%ymm7, %ymm9, %ymm7
	vpshufb	%ymm4, %ymm7, %ymm14
	vmovdqa	%ymm4, %ymm5
	vpaddq	736(%rsp), %ymm2, %ymm2
	vpaddq	%ymm2, %ymm14, %ymm4
	vpxor	%ymm0, %ymm4, %ymm0
	vmovdqa	%ymm11, %ymm12
	vpshufb	%ymm11, %ymm0, %ymm7
	vpaddq	%ymm7, %ymm9, %ymm9
	vpxor	%ymm14, %ymm9, %ymm0
	vpsrlq	$63, %ymm0, %ymm2
	vpaddq	%ymm0, %ymm0, %ymm0
	vpor	%ymm2, %ymm0, %ymm0
	vpaddq	768(%rsp), %ymm13, %ymm2
	vmovdqu	256(%rsp), %ymm11
	vpaddq	%ymm2, %ymm11, %ymm2
	vpxor	224(%rsp), %ymm2, %ymm13
	vpshufd	$177, %ymm13, %ymm14
	vpaddq	64(%rsp), %ymm14, %ymm10
	vpxor	%ymm11, %ymm10, %ymm11
	vpshufb	%ymm5, %ymm11, %ymm11
	vpaddq	320(%rsp), %ymm2, %ymm2
	vpaddq	%ymm2, %ymm11, %ymm13
	vpxor	%ymm14, %ymm13, %ymm2
	vpshufb	%ymm12, %ymm2, %ymm14
	vpaddq	%ymm14, %ymm10, %ymm10
	vpxor	%ymm11, %ymm10, %ymm2
	vpsrlq	$63, %ymm2, %ymm11
	vpaddq	%ymm2, %ymm2, %ymm2
	vpor	%ymm2, %ymm11, %ymm2
	vpaddq	448(%rsp), %ymm15, %ymm11
	vpaddq	%ymm1, %ymm11, %ymm11
	vpxor	%ymm14, %ymm11, %ymm14
	vpshufd	$177, %ymm14, %ymm14
	vpaddq	%ymm9, %ymm14, %ymm9
	vpxor	%ymm1, %ymm9, %ymm1
	vpshufb	%ymm5, %ymm1, %ymm1
	vmovdqu	704(%rsp), %ymm12
	vpaddq	%ymm12, %ymm11, %ymm11
	vpaddq	%ymm1, %ymm11, %ymm15
	vpxor	%ymm14, %ymm15, %ymm11
	vmovdqa	.L1_v3_CPI18_7(%rip), %ymm14
	vpshufb	%ymm14, %ymm11, %ymm11
	vmovdqu	%ymm11, 224(%rsp)
	vpaddq	%ymm11, %ymm9, %ymm9
	vmovdqu	%ymm9, 96(%rsp)
	vpxor	%ymm1, %ymm9, %ymm1
	vpsrlq	$63, %ymm1, %ymm11
	vpaddq	%ymm1, %ymm1, %ymm1
	vpor	%ymm1, %ymm11, %ymm1
	vmovdqu	%ymm1, (%rsp)
	vpaddq	384(%rsp), %ymm3, %ymm1
	vpaddq	%ymm0, %ymm1, %ymm1
	vpxor	%ymm6, %ymm1, %ymm3
	vpshufd	$177, %ymm3, %ymm3
	vpaddq	%ymm3, %ymm10, %ymm6
	vpxor	%ymm0, %ymm6, %ymm0
	vmovdqa	%ymm5, %ymm11
	vpshufb	%ymm5, %ymm0, %ymm0
	vmovdqu	608(%rsp), %ymm9
	vpaddq	%ymm1, %ymm9, %ymm1
	vpaddq	%ymm0, %ymm1, %ymm1
	vmovdqu	%ymm1, 288(%rsp)
	vpxor	%ymm3, %ymm1, %ymm3
	vpshufb	%ymm14, %ymm3, %ymm3
	vmovdqa	%ymm14, %ymm1
	vpaddq	%ymm3, %ymm6, %ymm5
	vmovdqu	%ymm5, 64(%rsp)
	vpxor	%ymm0, %ymm5, %ymm0
	vpsrlq	$63, %ymm0, %ymm6
	vpaddq	%ymm0, %ymm0, %ymm0
	vpor	%ymm6, %ymm0, %ymm0
	vmovdqu	%ymm0, 32(%rsp)
	vpaddq	672(%rsp), %ymm4, %ymm0
	vpaddq	%ymm2, %ymm0, %ymm0
	vpxor	%ymm0, %ymm8, %ymm8
	vpshufd	$177, %ymm8, %ymm8
	vpaddq	160(%rsp), %ymm8, %ymm4
	vpxor	%ymm2, %ymm4, %ymm2
	vpshufb	%ymm11, %ymm2, %ymm10
	vmovdqu	640(%rsp), %ymm6
	vpaddq	%ymm6, %ymm0, %ymm0
	vpaddq	%ymm0, %ymm10, %ymm0
	vmovdqu	%ymm0, 256(%rsp)
	vpxor	%ymm0, %ymm8, %ymm0
	vpshufb	%ymm14, %ymm0, %ymm2
	vpaddq	%ymm2, %ymm4, %ymm4
	vpxor	%ymm4, %ymm10, %ymm0
	vpsrlq	$63, %ymm0, %ymm8
	vpaddq	%ymm0, %ymm0, %ymm0
	vpor	%ymm0, %ymm8, %ymm0
	vmovdqu	%ymm0, 576(%rsp)
	vmovdqu	512(%rsp), %ymm14
	vpaddq	%ymm14, %ymm13, %ymm0
	vmovdqu	192(%rsp), %ymm10
	vpaddq	%ymm0, %ymm10, %ymm0
	vpxor	%ymm7, %ymm0, %ymm7
	vpshufd	$177, %ymm7, %ymm7
	vpaddq	128(%rsp), %ymm7, %ymm5
	vpxor	%ymm5, %ymm10, %ymm10
	vpshufb	%ymm11, %ymm10, %ymm10
	vmovdqa	%ymm11, %ymm8
	vmovdqu	864(%rsp), %ymm11
	vpaddq	%ymm0, %ymm11, %ymm0
	vpaddq	%ymm0, %ymm10, %ymm13
	vpxor	%ymm7, %ymm13, %ymm0
	vpshufb	%ymm1, %ymm0, %ymm0
	vpaddq	%ymm0, %ymm5, %ymm5
	vpxor	%ymm5, %ymm10, %ymm7
	vpsrlq	$63, %ymm7, %ymm10
	vpaddq	%ymm7, %ymm7, %ymm7
	vpor	%ymm7, %ymm10, %ymm7
	vpaddq	%ymm14, %ymm15, %ymm10
	vpaddq	%ymm7, %ymm10, %ymm10
	vpxor	%ymm3, %ymm10, %ymm3
	vpshufd	$177, %ymm3, %ymm3
	vpaddq	%ymm4, %ymm3, %ymm4
	vpxor	%ymm7, %ymm4, %ymm7
	vpshufb	%ymm8, %ymm7, %ymm14
	vpaddq	%ymm12, %ymm10, %ymm7
	vpaddq	%ymm7, %ymm14, %ymm15
	vpxor	%ymm3, %ymm15, %ymm3
	vpshufb	%ymm1, %ymm3, %ymm7
	vpaddq	%ymm7, %ymm4, %ymm3
	vmovdqu	%ymm3, 160(%rsp)
	vpxor	%ymm3, %ymm14, %ymm3
	vpsrlq	$63, %ymm3, %ymm10
	vpaddq	%ymm3, %ymm3, %ymm3
	vpor	%ymm3, %ymm10, %ymm3
	vmovdqu	%ymm3, 192(%rsp)
	vmovdqu	288(%rsp), %ymm1
	vpaddq	320(%rsp), %ymm1, %ymm1
	vmovdqu	(%rsp), %ymm3
	vpaddq	%ymm3, %ymm1, %ymm1
	vpxor	%ymm2, %ymm1, %ymm2
	vpshufd	$177, %ymm2, %ymm2
	vpaddq	%ymm5, %ymm2, %ymm5
	vpxor	%ymm3, %ymm5, %ymm3
	vpshufb	%ymm8, %ymm3, %ymm10
	vpaddq	%ymm6, %ymm1, %ymm1
	vpaddq	%ymm1, %ymm10, %ymm3
	vpxor	%ymm2, %ymm3, %ymm1
	vmovdqa	.L1_v3_CPI18_7(%rip), %ymm4
	vpshufb	%ymm4, %ymm1, %ymm1
	vmovdqu	%ymm1, (%rsp)
	vpaddq	%ymm1, %ymm5, %ymm1
	vmovdqu	%ymm1, 128(%rsp)
	vpxor	%ymm1, %ymm10, %ymm1
	vpsrlq	$63, %ymm1, %ymm2
	vpaddq	%ymm1, %ymm1, %ymm1
	vpor	%ymm2, %ymm1, %ymm2
	vpaddq	256(%rsp), %ymm9, %ymm1
	vmovdqu	32(%rsp), %ymm5
	vpaddq	%ymm5, %ymm1, %ymm1
	vpxor	%ymm0, %ymm1, %ymm0
	vpshufd	$177, %ymm0, %ymm0
	vpaddq	96(%rsp), %ymm0, %ymm9
	vpxor	%ymm5, %ymm9, %ymm6
	vpshufb	%ymm8, %ymm6, %ymm10
	vmovdqa	%ymm8, %ymm5
	vpaddq	544(%rsp), %ymm1, %ymm1
	vpaddq	%ymm1, %ymm10, %ymm12
	vpxor	%ymm0, %ymm12, %ymm0
	vpshufb	%ymm4, %ymm0, %ymm6
	vpaddq	%ymm6, %ymm9, %ymm9
	vpxor	%ymm10, %ymm9, %ymm0
	vpsrlq	$63, %ymm0, %ymm1
	vpaddq	%ymm0, %ymm0, %ymm0
	vpor	%ymm1, %ymm0, %ymm0
	vpaddq	672(%rsp), %ymm13, %ymm1
	vmovdqu	576(%rsp), %ymm8
	vpaddq	%ymm1, %ymm8, %ymm1
	vpxor	224(%rsp), %ymm1, %ymm10
	vpshufd	$177, %ymm10, %ymm13
	vpaddq	64(%rsp), %ymm13, %ymm14
	vpxor	%ymm8, %ymm14, %ymm8
	vpshufb	%ymm5, %ymm8, %ymm8
	vpaddq	%ymm1, %ymm11, %ymm1
	vpaddq	%ymm1, %ymm8, %ymm10
	vpxor	%ymm13, %ymm10, %ymm1
	vpshufb	%ymm4, %ymm1, %ymm13
	vpaddq	%ymm13, %ymm14, %ymm14
	vpxor	%ymm8, %ymm14, %ymm1
	vpsrlq	$63, %ymm1, %ymm8
	vpaddq	%ymm1, %ymm1, %ymm1
	vpor	%ymm1, %ymm8, %ymm1
	vpaddq	832(%rsp), %ymm15, %ymm8
	vpaddq	%ymm2, %ymm8, %ymm8
	vpxor	%ymm13, %ymm8, %ymm13
	vpshufd	$177, %ymm13, %ymm13
	vpaddq	%ymm9, %ymm13, %ymm9
	vpxor	%ymm2, %ymm9, %ymm2
	vpshufb	%ymm5, %ymm2, %ymm2
	vpaddq	416(%rsp), %ymm8, %ymm8
	vpaddq	%ymm2, %ymm8, %ymm15
	vpxor	%ymm13, %ymm15, %ymm8
	vmovdqa	%ymm4, %ymm13
	vpshufb	%ymm4, %ymm8, %ymm4
	vmovdqu	%ymm4, 224(%rsp)
	vpaddq	%ymm4, %ymm9, %ymm4
	vmovdqu	%ymm4, 96(%rsp)
	vpxor	%ymm2, %ymm4, %ymm2
	vpsrlq	$63, %ymm2, %ymm8
	vpaddq	%ymm2, %ymm2, %ymm2
	vpor	%ymm2, %ymm8, %ymm2
	vmovdqu	%ymm2, 32(%rsp)
	vpaddq	352(%rsp), %ymm3, %ymm2
	vpaddq	%ymm0, %ymm2, %ymm2
	vpxor	%ymm7, %ymm2, %ymm3
	vpshufd	$177, %ymm3, %ymm3
	vpaddq	%ymm3, %ymm14, %ymm7
	vpxor	%ymm0, %ymm7, %ymm0
	vpshufb	%ymm5, %ymm0, %ymm9
	vpaddq	480(%rsp), %ymm2, %ymm0
	vpaddq	%ymm0, %ymm9, %ymm0
	vmovdqu	%ymm0, 256(%rsp)
	vpxor	%ymm3, %ymm0, %ymm2
	vpshufb	%ymm13, %ymm2, %ymm3
	vmovdqa	%ymm13, %ymm8
	vpaddq	%ymm3, %ymm7, %ymm0
	vmovdqu	%ymm0, 64(%rsp)
	vpxor	%ymm0, %ymm9, %ymm2
	vpsrlq	$63, %ymm2, %ymm7
	vpaddq	%ymm2, %ymm2, %ymm2
	vpor	%ymm7, %ymm2, %ymm13
	vmovdqu	736(%rsp), %ymm7
	vpaddq	%ymm7, %ymm12, %ymm2
	vpaddq	%ymm1, %ymm2, %ymm2
	vpxor	(%rsp), %ymm2, %ymm9
	vpshufd	$177, %ymm9, %ymm9
	vpaddq	160(%rsp), %ymm9, %ymm4
	vpxor	%ymm1, %ymm4, %ymm1
	vpshufb	%ymm5, %ymm1, %ymm11
	vpaddq	448(%rsp), %ymm2, %ymm1
	vpaddq	%ymm1, %ymm11, %ymm12
	vpxor	%ymm9, %ymm12, %ymm1
	vpshufb	%ymm8, %ymm1, %ymm1
	vpaddq	%ymm1, %ymm4, %ymm9
	vpxor	%ymm11, %ymm9, %ymm2
	vpsrlq	$63, %ymm2, %ymm4
	vpaddq	%ymm2, %ymm2, %ymm2
	vpor	%ymm4, %ymm2, %ymm11
	vpaddq	384(%rsp), %ymm10, %ymm2
	vmovdqu	192(%rsp), %ymm0
	vpaddq	%ymm0, %ymm2, %ymm2
	vpxor	%ymm6, %ymm2, %ymm4
	vpshufd	$177, %ymm4, %ymm4
	vpaddq	128(%rsp), %ymm4, %ymm5
	vpxor	%ymm0, %ymm5, %ymm6
	vmovdqa	.L1_v3_CPI18_6(%rip), %ymm0
	vpshufb	%ymm0, %ymm6, %ymm6
	vmovdqu	768(%rsp), %ymm14
	vpaddq	%ymm2, %ymm14, %ymm2
	vpaddq	%ymm6, %ymm2, %ymm2
	vpxor	%ymm4, %ymm2, %ymm4
	vpshufb	%ymm8, %ymm4, %ymm4
	vpaddq	%ymm4, %ymm5, %ymm5
	vpxor	%ymm6, %ymm5, %ymm6
	vpsrlq	$63, %ymm6, %ymm10
	vpaddq	%ymm6, %ymm6, %ymm6
	vpor	%ymm6, %ymm10, %ymm6
	vpaddq	%ymm14, %ymm15, %ymm10
	vpaddq	%ymm6, %ymm10, %ymm10
	vpxor	%ymm3, %ymm10, %ymm3
	vpshufd	$177, %ymm3, %ymm3
	vpaddq	%ymm3, %ymm9, %ymm9
	vpxor	%ymm6, %ymm9, %ymm6
	vpshufb	%ymm0, %ymm6, %ymm14
	vpaddq	672(%rsp), %ymm10, %ymm6
	vpaddq	%ymm6, %ymm14, %ymm15
	vpxor	%ymm3, %ymm15, %ymm3
	vmovdqa	%ymm8, %ymm10
	vpshufb	%ymm8, %ymm3, %ymm6
	vpaddq	%ymm6, %ymm9, %ymm0
	vmovdqu	%ymm0, (%rsp)
	vpxor	%ymm0, %ymm14, %ymm3
	vpsrlq	$63, %ymm3, %ymm9
	vpaddq	%ymm3, %ymm3, %ymm3
	vpor	%ymm3, %ymm9, %ymm0
	vmovdqu	%ymm0, 128(%rsp)
	vmovdqu	256(%rsp), %ymm0
	vpaddq	704(%rsp), %ymm0, %ymm0
	vmovdqu	32(%rsp), %ymm8
	vpaddq	%ymm0, %ymm8, %ymm0
	vpxor	%ymm1, %ymm0, %ymm1
	vpshufd	$177, %ymm1, %ymm1
	vpaddq	%ymm5, %ymm1, %ymm3
	vpxor	%ymm3, %ymm8, %ymm5
	vmovdqa	.L1_v3_CPI18_6(%rip), %ymm14
	vpshufb	%ymm14, %ymm5, %ymm5
	vpaddq	%ymm7, %ymm0, %ymm0
	vpaddq	%ymm5, %ymm0, %ymm0
	vpxor	%ymm1, %ymm0, %ymm1
	vpshufb	%ymm10, %ymm1, %ymm8
	vpaddq	%ymm3, %ymm8, %ymm1
	vmovdqu	%ymm1, 32(%rsp)
	vpxor	%ymm5, %ymm1, %ymm1
	vpsrlq	$63, %ymm1, %ymm3
	vpaddq	%ymm1, %ymm1, %ymm1
	vpor	%ymm3, %ymm1, %ymm3
	vpaddq	640(%rsp), %ymm12, %ymm1
	vpaddq	%ymm1, %ymm13, %ymm1
	vpxor	%ymm4, %ymm1, %ymm4
	vpshufd	$177, %ymm4, %ymm4
	vpaddq	96(%rsp), %ymm4, %ymm5
	vpxor	%ymm5, %ymm13, %ymm7
	vpshufb	%ymm14, %ymm7, %ymm9
	vpaddq	864(%rsp), %ymm1, %ymm1
	vpaddq	%ymm1, %ymm9, %ymm12
	vpxor	%ymm4, %ymm12, %ymm1
	vpshufb	%ymm10, %ymm1, %ymm7
	vpaddq	%ymm7, %ymm5, %ymm1
	vpxor	%ymm1, %ymm9, %ymm4
	vpsrlq	$63, %ymm4, %ymm5
	vpaddq	%ymm4, %ymm4, %ymm4
	vpor	%ymm5, %ymm4, %ymm4
	vpaddq	544(%rsp), %ymm2, %ymm2
	vpaddq	%ymm2, %ymm11, %ymm2
	vpxor	224(%rsp), %ymm2, %ymm5
	vpshufd	$177, %ymm5, %ymm9
	vpaddq	64(%rsp), %ymm9, %ymm13
	vpxor	%ymm11, %ymm13, %ymm5
	vpshufb	%ymm14, %ymm5, %ymm11
	vpaddq	608(%rsp), %ymm2, %ymm2
	vpaddq	%ymm2, %ymm11, %ymm5
	vpxor	%ymm5, %ymm9, %ymm2
	vpshufb	%ymm10, %ymm2, %ymm2
	vpaddq	%ymm2, %ymm13, %ymm9
	vpxor	%ymm11, %ymm9, %ymm11
	vpsrlq	$63, %ymm11, %ymm13
	vpaddq	%ymm11, %ymm11, %ymm11
	vpor	%ymm13, %ymm11, %ymm11
	vpaddq	320(%rsp), %ymm15, %ymm13
	vpaddq	%ymm3, %ymm13, %ymm13
	vpxor	%ymm2, %ymm13, %ymm2
	vpshufd	$177, %ymm2, %ymm14
	vpaddq	%ymm1, %ymm14, %ymm1
	vpxor	%ymm3, %ymm1, %ymm2
	vmovdqa	.L1_v3_CPI18_6(%rip), %ymm15
	vpshufb	%ymm15, %ymm2, %ymm3
	vpaddq	352(%rsp), %ymm13, %ymm2
	vpaddq	%ymm3, %ymm2, %ymm2
	vpxor	%ymm2, %ymm14, %ymm13
	vmovdqa	%ymm10, %ymm14
	vpshufb	%ymm10, %ymm13, %ymm13
	vmovdqu	%ymm13, 224(%rsp)
	vpaddq	%ymm1, %ymm13, %ymm1
	vmovdqu	%ymm1, 160(%rsp)
	vpxor	%ymm3, %ymm1, %ymm1
	vpsrlq	$63, %ymm1, %ymm3
	vpaddq	%ymm1, %ymm1, %ymm1
	vpor	%ymm3, %ymm1, %ymm1
	vmovdqu	%ymm1, 64(%rsp)
	vmovdqu	512(%rsp), %ymm13
	vpaddq	%ymm0, %ymm13, %ymm0
	vpaddq	%ymm4, %ymm0, %ymm0
	vpxor	%ymm6, %ymm0, %ymm1
	vpshufd	$177, %ymm1, %ymm1
	vpaddq	%ymm1, %ymm9, %ymm6
	vpxor	%ymm4, %ymm6, %ymm3
	vpshufb	%ymm15, %ymm3, %ymm4
	vmovdqa	%ymm15, %ymm10
	vpaddq	416(%rsp), %ymm0, %ymm0
	vpaddq	%ymm4, %ymm0, %ymm15
	vpxor	%ymm1, %ymm15, %ymm0
	vpshufb	%ymm14, %ymm0, %ymm3
	vpaddq	%ymm3, %ymm6, %ymm0
	vmovdqu	%ymm0, 192(%rsp)
	vpxor	%ymm4, %ymm0, %ymm0
	vpsrlq	$63, %ymm0, %ymm4
	vpaddq	%ymm0, %ymm0, %ymm0
	vpor	%ymm4, %ymm0, %ymm0
	vmovdqu	%ymm0, 96(%rsp)
	vpaddq	448(%rsp), %ymm12, %ymm0
	vpaddq	%ymm0, %ymm11, %ymm0
	vpxor	%ymm0, %ymm8, %ymm4
	vpshufd	$177, %ymm4, %ymm8
	vpaddq	(%rsp), %ymm8, %ymm9
	vpxor	%ymm11, %ymm9, %ymm4
	vmovdqa	%ymm10, %ymm1
	vpshufb	%ymm10, %ymm4, %ymm11
	vpaddq	384(%rsp), %ymm0, %ymm0
	vpaddq	%ymm0, %ymm11, %ymm6
	vpxor	%ymm6, %ymm8, %ymm0
	vpshufb	%ymm14, %ymm0, %ymm8
	vpaddq	%ymm8, %ymm9, %ymm10
	vpxor	%ymm11, %ymm10, %ymm0
	vpsrlq	$63, %ymm0, %ymm9
	vpaddq	%ymm0, %ymm0, %ymm0
	vpor	%ymm0, %ymm9, %ymm0
	vmovdqu	%ymm0, (%rsp)
	vmovdqu	480(%rsp), %ymm14
	vpaddq	%ymm5, %ymm14, %ymm0
	vmovdqu	128(%rsp), %ymm4
	vpaddq	%ymm4, %ymm0, %ymm0
	vpxor	%ymm7, %ymm0, %ymm5
	vpshufd	$177, %ymm5, %ymm7
	vpaddq	32(%rsp), %ymm7, %ymm9
	vpxor	%ymm4, %ymm9, %ymm5
	vpshufb	%ymm1, %ymm5, %ymm12
	vmovdqu	832(%rsp), %ymm5
	vpaddq	%ymm5, %ymm0, %ymm0
	vpaddq	%ymm0, %ymm12, %ymm11
	vpxor	%ymm7, %ymm11, %ymm0
	vmovdqa	.L1_v3_CPI18_7(%rip), %ymm4
	vpshufb	%ymm4, %ymm0, %ymm7
	vpaddq	%ymm7, %ymm9, %ymm0
	vpxor	%ymm0, %ymm12, %ymm9
	vpsrlq	$63, %ymm9, %ymm12
	vpaddq	%ymm9, %ymm9, %ymm9
	vpor	%ymm12, %ymm9, %ymm9
	vpaddq	%ymm2, %ymm14, %ymm2
	vpaddq	%ymm2, %ymm9, %ymm2
	vpxor	%ymm3, %ymm2, %ymm1
	vpaddq	%ymm2, %ymm13, %ymm2
	vpshufd	$177, %ymm1, %ymm1
	vpaddq	%ymm1, %ymm10, %ymm14
	vpxor	%ymm9, %ymm14, %ymm9
	vmovdqa	.L1_v3_CPI18_6(%rip), %ymm13
	vpshufb	%ymm13, %ymm9, %ymm9
	vpaddq	%ymm2, %ymm9, %ymm10
	vpxor	%ymm1, %ymm10, %ymm1
	vpshufb	%ymm4, %ymm1, %ymm12
	vpaddq	%ymm12, %ymm14, %ymm1
	vmovdqu	%ymm1, 480(%rsp)
	vpxor	%ymm1, %ymm9, %ymm1
	vpsrlq	$63, %ymm1, %ymm2
	vpaddq	%ymm1, %ymm1, %ymm1
	vpor	%ymm2, %ymm1, %ymm1
	vmovdqu	%ymm1, 512(%rsp)
	vpaddq	640(%rsp), %ymm15, %ymm1
	vmovdqu	64(%rsp), %ymm9
	vpaddq	%ymm1, %ymm9, %ymm1
	vpxor	%ymm1, %ymm8, %ymm2
	vpaddq	320(%rsp), %ymm1, %ymm1
	vpshufd	$177, %ymm2, %ymm2
	vpaddq	%ymm0, %ymm2, %ymm3
	vpxor	%ymm3, %ymm9, %ymm0
	vpshufb	%ymm13, %ymm0, %ymm9
	vpaddq	%ymm1, %ymm9, %ymm0
	vpxor	%ymm2, %ymm0, %ymm1
	vmovdqa	%ymm4, %ymm14
	vpshufb	%ymm4, %ymm1, %ymm8
	vpaddq	%ymm3, %ymm8, %ymm1
	vmovdqu	%ymm1, 320(%rsp)
	vpxor	%ymm1, %ymm9, %ymm1
	vpsrlq	$63, %ymm1, %ymm2
	vpaddq	%ymm1, %ymm1, %ymm1
	vpor	%ymm2, %ymm1, %ymm15
	vpaddq	352(%rsp), %ymm6, %ymm1
	vmovdqu	96(%rsp), %ymm6
	vpaddq	%ymm6, %ymm1, %ymm1
	vpxor	%ymm7, %ymm1, %ymm2
	vpaddq	%ymm5, %ymm1, %ymm1
	vpshufd	$177, %ymm2, %ymm2
	vpaddq	160(%rsp), %ymm2, %ymm3
	vpxor	%ymm6, %ymm3, %ymm4
	vpshufb	%ymm13, %ymm4, %ymm6
	vpaddq	%ymm6, %ymm1, %ymm7
	vpxor	%ymm2, %ymm7, %ymm1
	vpshufb	%ymm14, %ymm1, %ymm4
	vpaddq	%ymm4, %ymm3, %ymm3
	vpxor	%ymm6, %ymm3, %ymm1
	vpsrlq	$63, %ymm1, %ymm2
	vpaddq	%ymm1, %ymm1, %ymm1
	vpor	%ymm2, %ymm1, %ymm2
	vpaddq	384(%rsp), %ymm11, %ymm1
	vmovdqu	(%rsp), %ymm9
	vpaddq	%ymm1, %ymm9, %ymm1
	vpxor	224(%rsp), %ymm1, %ymm5
	vpaddq	544(%rsp), %ymm1, %ymm1
	vpshufd	$177, %ymm5, %ymm5
	vpaddq	192(%rsp), %ymm5, %ymm6
	vpxor	%ymm6, %ymm9, %ymm9
	vpshufb	%ymm13, %ymm9, %ymm9
	vpaddq	%ymm1, %ymm9, %ymm13
	vpxor	%ymm5, %ymm13, %ymm1
	vpshufb	%ymm14, %ymm1, %ymm1
	vpaddq	%ymm1, %ymm6, %ymm11
	vpxor	%ymm9, %ymm11, %ymm5
	vpsrlq	$63, %ymm5, %ymm6
	vpaddq	%ymm5, %ymm5, %ymm5
	vpor	%ymm6, %ymm5, %ymm6
	vpaddq	672(%rsp), %ymm10, %ymm5
	vpaddq	%ymm5, %ymm15, %ymm5
	vpxor	%ymm1, %ymm5, %ymm10
	vpaddq	448(%rsp), %ymm5, %ymm1
	vmovdqu	%ymm1, 384(%rsp)
	vpaddq	768(%rsp), %ymm0, %ymm0
	vpaddq	%ymm2, %ymm0, %ymm1
	vpxor	%ymm1, %ymm12, %ymm0
	vpaddq	704(%rsp), %ymm1, %ymm1
	vmovdqu	%ymm1, 352(%rsp)
	vpaddq	416(%rsp), %ymm7, %ymm5
	vpaddq	%ymm6, %ymm5, %ymm5
	vpxor	%ymm5, %ymm8, %ymm8
	vpaddq	608(%rsp), %ymm5, %ymm7
	vpaddq	864(%rsp), %ymm13, %ymm9
	vpshufd	$177, %ymm10, %ymm12
	vpaddq	%ymm3, %ymm12, %ymm3
	vmovdqu	%ymm3, 416(%rsp)
	vpshufd	$177, %ymm0, %ymm13
	vpaddq	%ymm11, %ymm13, %ymm1
	vmovdqu	%ymm1, 448(%rsp)
	vpxor	%ymm3, %ymm15, %ymm0
	vpxor	%ymm2, %ymm1, %ymm2
	vpshufd	$177, %ymm8, %ymm14
	vpaddq	480(%rsp), %ymm14, %ymm10
	vmovdqa	.L1_v3_CPI18_6(%rip), %ymm1
	vpshufb	%ymm1, %ymm0, %ymm8
	vpxor	%ymm6, %ymm10, %ymm0
	vmovdqu	512(%rsp), %ymm3
	vpaddq	%ymm3, %ymm9, %ymm6
	vpxor	%ymm4, %ymm6, %ymm4
	vpshufb	%ymm1, %ymm2, %ymm5
	vmovdqa	%ymm1, %ymm2
	vpshufd	$177, %ymm4, %ymm15
	vpaddq	320(%rsp), %ymm15, %ymm11
	vpxor	%ymm3, %ymm11, %ymm4
	vpshufb	%ymm1, %ymm0, %ymm1
	vpshufb	%ymm2, %ymm4, %ymm9
	vpaddq	736(%rsp), %ymm6, %ymm4
	vpaddq	384(%rsp), %ymm8, %ymm6
	vpxor	%ymm6, %ymm12, %ymm12
	vmovdqa	.L1_v3_CPI18_7(%rip), %ymm2
	vpshufb	%ymm2, %ymm12, %ymm0
	vmovdqu	%ymm0, 320(%rsp)
	vpaddq	352(%rsp), %ymm5, %ymm0
	vpxor	%ymm0, %ymm13, %ymm3
	vpshufb	%ymm2, %ymm3, %ymm3
	vmovdqa	%ymm2, %ymm12
	vpaddq	%ymm1, %ymm7, %ymm2
	vpxor	%ymm2, %ymm14, %ymm13
	vpaddq	%ymm4, %ymm9, %ymm7
	vpshufb	%ymm12, %ymm13, %ymm4
	vpxor	%ymm7, %ymm15, %ymm13
	vpshufb	%ymm12, %ymm13, %ymm13
	vpxor	1120(%rsp), %ymm6, %ymm6
	vpaddq	%ymm4, %ymm10, %ymm10
	vpxor	%ymm1, %ymm10, %ymm1
	vpxor	%ymm6, %ymm10, %ymm15
	vpxor	1152(%rsp), %ymm0, %ymm0
	vmovdqu	320(%rsp), %ymm14
	vpaddq	416(%rsp), %ymm14, %ymm6
	vpxor	%ymm6, %ymm8, %ymm8
	vpsrlq	$63, %ymm8, %ymm10
	vpaddq	%ymm8, %ymm8, %ymm8
	vpor	%ymm10, %ymm8, %ymm8
	vpaddq	%ymm13, %ymm11, %ymm10
	vpxor	%ymm9, %ymm10, %ymm9
	vpxor	%ymm0, %ymm10, %ymm12
	vpaddq	448(%rsp), %ymm3, %ymm0
	vpxor	%ymm5, %ymm0, %ymm5
	vpsrlq	$63, %ymm5, %ymm10
	vpaddq	%ymm5, %ymm5, %ymm5
	vpor	%ymm5, %ymm10, %ymm5
	vpxor	928(%rsp), %ymm2, %ymm2
	vpsrlq	$63, %ymm1, %ymm10
	vpaddq	%ymm1, %ymm1, %ymm1
	vpor	%ymm1, %ymm10, %ymm1
	vpxor	%ymm6, %ymm2, %ymm2
	vmovdqu	%ymm2, 928(%rsp)
	vpsrlq	$63, %ymm9, %ymm2
	vpaddq	%ymm9, %ymm9, %ymm6
	vpor	%ymm2, %ymm6, %ymm2
	vpxor	992(%rsp), %ymm7, %ymm6
	vpxor	%ymm0, %ymm6, %ymm6
	vpxor	1248(%rsp), %ymm3, %ymm0
	vpxor	%ymm0, %ymm2, %ymm3
	vpxor	1216(%rsp), %ymm4, %ymm0
	vpxor	%ymm0, %ymm8, %ymm10
	vpxor	1184(%rsp), %ymm13, %ymm0
	vpxor	%ymm0, %ymm5, %ymm9
	vpxor	896(%rsp), %ymm14, %ymm0
	vpxor	%ymm0, %ymm1, %ymm0
	vmovdqu	%ymm0, 896(%rsp)
	subq	$-128, %rcx
	decq	%rax
	jne	1b
2:
	vmovdqu	%ymm15, (%rdi)
	vmovdqu	%ymm12, 32(%rdi)
	vmovups	928(%rsp), %ymm0
	vmovups	%ymm0, 64(%rdi)
	vmovdqu	%ymm6, 96(%rdi)
	vmovdqu	%ymm3, 128(%rdi)
	vmovdqu	%ymm10, 160(%rdi)
	vmovdqu	%ymm9, 192(%rdi)
	vmovups	896(%rsp), %ymm0
	vmovups	%ymm0, 224(%rdi)
	addq	$1288, %rsp
	vzeroupper
	retq
	vj_end	blake2_compress..many..blake2b..compress_blocks_1_v3

	vj_function	blake2_digest..wiping..scrub_stack..9216_1_v3
	pushq	%rbx
	subq	$3072, %rsp
	movq	$0, (%rsp)
	subq	$3072, %rsp
	movq	$0, (%rsp)
	subq	$3072, %rsp
	movq	%rsp, %rbx
	movl	$9216, %edx
	movq	%rbx, %rdi
	xorl	%esi, %esi
	vj_c_call	memset
	movq	%rbx, %rdi
	callq	blake2_digest..wiping..settle..9216_1_v3
	addq	$9216, %rsp
	popq	%rbx
	retq
	vj_end	blake2_digest..wiping..scrub_stack..9216_1_v3

	vj_function	blake2_digest..wiping..settle..9216_1_v3
	vpxor	%xmm0, %xmm0, %xmm0
	movl	$480, %eax
	vpxor	%xmm1, %xmm1, %xmm1
	vpxor	%xmm2, %xmm2, %xmm2
	vpxor	%xmm3, %xmm3, %xmm3
	.p2align	4
1:
	vpor	-480(%rdi,%rax), %ymm0, %ymm0
	vpor	-448(%rdi,%rax), %ymm1, %ymm1
	vpor	-416(%rdi,%rax), %ymm2, %ymm2
	vpor	-384(%rdi,%rax), %ymm3, %ymm3
	vpor	-352(%rdi,%rax), %ymm0, %ymm0
	vpor	-320(%rdi,%rax), %ymm1, %ymm1
	vpor	-288(%rdi,%rax), %ymm2, %ymm2
	vpor	-256(%rdi,%rax), %ymm3, %ymm3
	vpor	-224(%rdi,%rax), %ymm0, %ymm0
	vpor	-192(%rdi,%rax), %ymm1, %ymm1
	vpor	-160(%rdi,%rax), %ymm2, %ymm2
	vpor	-128(%rdi,%rax), %ymm3, %ymm3
	vpor	-96(%rdi,%rax), %ymm0, %ymm0
	vpor	-64(%rdi,%rax), %ymm1, %ymm1
	vpor	-32(%rdi,%rax), %ymm2, %ymm2
	vpor	(%rdi,%rax), %ymm3, %ymm3
	addq	$512, %rax
	cmpq	$9696, %rax
	jne	1b
	vpor	%ymm0, %ymm1, %ymm0
	vpor	%ymm2, %ymm3, %ymm1
	vpor	%ymm0, %ymm1, %ymm0
	vptest	%ymm0, %ymm0
	je	2f
	pause
2:
	vzeroupper
	retq
	vj_end	blake2_digest..wiping..settle..9216_1_v3

	vj_function	blake2_ffi..blake2b..is_digest_of_1_v3
	pushq	%r15
	pushq	%r14
	pushq	%rbx
	subq	$64, %rsp
	movq	%rdx, %rbx
	movq	%rsi, %r14
	movq	%rdi, %r15
	vpxor	%xmm0, %xmm0, %xmm0
	vmovdqu	%ymm0, 32(%rsp)
	vmovdqu	%ymm0, (%rsp)
	movq	%rsp, %rsi
	vzeroupper
	callq	blake2_state..blake2b..State..write_digest_1_v3
	movl	144(%r15), %eax
	cmpq	%rax, %rbx
	jne	1f
	testq	%rbx, %rbx
	je	2f
	cmpq	$8, %rbx
	jae	3f
	xorl	%ecx, %ecx
	xorl	%eax, %eax
	jmp	8f
1:
	xorl	%eax, %eax
	jmp	11f
2:
	movb	$1, %al
	jmp	11f
3:
	cmpq	$128, %rbx
	jae	4f
	xorl	%eax, %eax
	xorl	%ecx, %ecx
	jmp	6f
4:
	movq	%rbx, %rax
	andq	$-128, %rax
	vpxor	%xmm0, %xmm0, %xmm0
	xorl	%ecx, %ecx
	vpxor	%xmm1, %xmm1, %xmm1
	vpxor	%xmm2, %xmm2, %xmm2
	vpxor	%xmm3, %xmm3, %xmm3
	.p2align	4
5:
	vmovdqu	(%rsp,%rcx), %ymm4
	vmovdqu	32(%rsp,%rcx), %ymm5
	vmovdqu	64(%rsp,%rcx), %ymm6
	vmovdqu	96(%rsp,%rcx), %ymm7
	vpxor	(%r14,%rcx), %ymm4, %ymm4
	vpor	%ymm0, %ymm4, %ymm0
	vpxor	32(%r14,%rcx), %ymm5, %ymm4
	vpor	%ymm1, %ymm4, %ymm1
	vpxor	64(%r14,%rcx), %ymm6, %ymm4
	vpxor	96(%r14,%rcx), %ymm7, %ymm5
	vpor	%ymm2, %ymm4, %ymm2
	vpor	%ymm3, %ymm5, %ymm3
	subq	$-128, %rcx
	cmpq	%rcx, %rax
	jne	5b
	vpor	%ymm0, %ymm1, %ymm0
	vpor	%ymm0, %ymm2, %ymm0
	vpor	%ymm0, %ymm3, %ymm0
	vextracti128	$1, %ymm0, %xmm1
	vpor	%xmm1, %xmm0, %xmm0
	vpshufd	$238, %xmm0, %xmm1
	vpor	%xmm1, %xmm0, %xmm0
	vpshufd	$85, %xmm0, %xmm1
	vpor	%xmm1, %xmm0, %xmm0
	vpsrld	$16, %xmm0, %xmm1
	vpor	%xmm1, %xmm0, %xmm0
	vpsrlw	$8, %xmm0, %xmm1
	vpor	%xmm1, %xmm0, %xmm0
	vmovd	%xmm0, %ecx
	cmpq	%rax, %rbx
	je	10f
	testb	$120, %bl
	je	8f
6:
	movq	%rax, %rdx
	movq	%rbx, %rax
	andq	$-8, %rax
	movzbl	%cl, %ecx
	vmovd	%ecx, %xmm0
	.p2align	4
7:
	movq	(%rsp,%rdx), %rcx
	xorq	(%r14,%rdx), %rcx
	vmovq	%rcx, %xmm1
	vpor	%xmm0, %xmm1, %xmm0
	addq	$8, %rdx
	cmpq	%rdx, %rax
	jne	7b
	vpshufd	$85, %xmm0, %xmm1
	vpor	%xmm1, %xmm0, %xmm0
	vpsrld	$16, %xmm0, %xmm1
	vpor	%xmm1, %xmm0, %xmm0
	vpsrlw	$8, %xmm0, %xmm1
	vpor	%xmm1, %xmm0, %xmm0
	vmovd	%xmm0, %ecx
	jmp	9f
8:
	movzbl	(%rsp,%rax), %edx
	xorb	(%r14,%rax), %dl
	orb	%dl, %cl
	incq	%rax
9:
	cmpq	%rax, %rbx
	jne	8b
10:
	testb	%cl, %cl
	sete	%al
11:
	addq	$64, %rsp
	popq	%rbx
	popq	%r14
	popq	%r15
	vzeroupper
	retq
	vj_end	blake2_ffi..blake2b..is_digest_of_1_v3

	vj_function	blake2_ffi..blake2bp..finalize_1_v3
	pushq	%rbx
	movq	%rdi, %rbx
	callq	blake2_parallel..blake2bp..State..write_digest_1_v3
	movl	$1632, %edx
	movq	%rbx, %rdi
	xorl	%esi, %esi
	popq	%rbx
	vj_c_jump	memset
	vj_end	blake2_ffi..blake2bp..finalize_1_v3

	vj_function	blake2_parallel..blake2bp..State..write_digest_1_v3
	pushq	%r15
	pushq	%r14
	pushq	%r13
	pushq	%r12
	pushq	%rbx
	subq	$384, %rsp
	movq	%rsi, %rbx
	movq	%rdi, %r14
	vxorps	%xmm0, %xmm0, %xmm0
	vmovups	%ymm0, 32(%rsp)
	vmovups	%ymm0, (%rsp)
	leaq	128(%rsp), %r15
	movq	%r15, %rdi
	movq	%r14, %rsi
	vzeroupper
	vj_call	blake2_parallel..lanes..blake2bp..Lanes..outputs_1_v3
	vmovups	1424(%r14), %ymm0
	vmovups	1456(%r14), %ymm1
	vmovups	%ymm0, 64(%rsp)
	vmovups	%ymm1, 96(%rsp)
	leaq	256(%rsp), %r12
	leaq	64(%rsp), %r13
	movl	$128, %edx
	movq	%r13, %rdi
	movq	%r15, %rsi
	xorl	%ecx, %ecx
	xorl	%r8d, %r8d
	vzeroupper
	vj_call	blake2_compress..compress..blake2b..compress_1_v3
	movl	$256, %edx
	movq	%r13, %rdi
	movq	%r12, %rsi
	movl	$1, %ecx
	movl	$1, %r8d
	vj_call	blake2_compress..compress..blake2b..compress_1_v3
	vmovups	64(%rsp), %ymm0
	vmovups	%ymm0, (%rsp)
	vmovups	96(%rsp), %ymm0
	vmovups	%ymm0, 32(%rsp)
	movq	1496(%r14), %rdx
	movq	%rsp, %rsi
	movq	%rbx, %rdi
	vzeroupper
	vj_c_call	memcpy
	addq	$384, %rsp
	popq	%rbx
	popq	%r12
	popq	%r13
	popq	%r14
	popq	%r15
	retq
	vj_end	blake2_parallel..blake2bp..State..write_digest_1_v3

	vj_shared	blake2_parallel..lanes..blake2bp..Lanes..outputs_1_v3
	pushq	%rbp
	pushq	%r15
	pushq	%r14
	pushq	%r13
	pushq	%r12
	pushq	%rbx
	subq	$472, %rsp
	movq	%rsi, %r15
	movq	264(%rsi), %rbp
	cmpq	$512, %rbp
	movl	$512, %r12d
	cmovbq	%rbp, %r12
	movq	%rdi, %rbx
	movq	%rbp, %r14
	subq	%r12, %r14
	vmovups	(%rsi), %ymm0
	vmovups	32(%rsi), %ymm1
	vmovups	64(%rsi), %ymm2
	vmovups	96(%rsi), %ymm3
	vmovups	128(%rsi), %ymm4
	vmovups	160(%rsi), %ymm5
	vmovups	192(%rsi), %ymm6
	vmovups	224(%rsi), %ymm7
	movq	256(%rsi), %rcx
	movq	$0, 8(%rsp)
	cmpq	$513, %rbp
	setb	8(%rsp)
	cmpq	$129, %r14
	setb	10(%rsp)
	cmpq	$257, %r14
	setb	12(%rsp)
	cmpq	$385, %r14
	setb	14(%rsp)
	leaq	272(%rsi), %r13
	setb	15(%rsp)
	vmovups	%ymm0, 16(%rsp)
	vmovups	%ymm1, 48(%rsp)
	vmovups	%ymm2, 80(%rsp)
	vmovups	%ymm3, 112(%rsp)
	vmovups	%ymm4, 144(%rsp)
	vmovups	%ymm5, 176(%rsp)
	vmovups	%ymm6, 208(%rsp)
	vmovups	%ymm7, 240(%rsp)
	leaq	16(%rsp), %rdi
	leaq	8(%rsp), %r8
	movq	%r13, %rsi
	movq	%r12, %rdx
	vzeroupper
	callq	blake2_parallel..lanes..blake2bp..compress_short_1_v3
	vmovups	16(%rsp), %ymm0
	vmovups	48(%rsp), %ymm1
	vmovups	80(%rsp), %ymm2
	vmovups	112(%rsp), %ymm3
	vmovups	144(%rsp), %ymm4
	vmovups	176(%rsp), %ymm5
	vmovups	208(%rsp), %ymm6
	vmovups	240(%rsp), %ymm7
	vunpcklpd	%ymm1, %ymm0, %ymm8
	vunpckhpd	%ymm1, %ymm0, %ymm11
	vunpcklpd	%ymm3, %ymm2, %ymm9
	vunpckhpd	%ymm3, %ymm2, %ymm12
	vunpcklpd	%ymm5, %ymm4, %ymm10
	vunpckhpd	%ymm5, %ymm4, %ymm13
	vunpckhpd	%ymm7, %ymm6, %ymm14
	vinsertf128	$1, %xmm12, %ymm11, %ymm15
	vmovups	%ymm15, 304(%rsp)
	vperm2f128	$49, %ymm12, %ymm11, %ymm11
	vmovups	%ymm11, 336(%rsp)
	vinsertf128	$1, %xmm14, %ymm13, %ymm15
	vperm2f128	$49, %ymm14, %ymm13, %ymm13
	vunpcklpd	%ymm7, %ymm6, %ymm11
	vperm2f128	$49, %ymm9, %ymm8, %ymm14
	vperm2f128	$49, %ymm11, %ymm10, %ymm12
	cmpq	$513, %rbp
	jae	1f
	vinsertf128	$1, %xmm11, %ymm10, %ymm0
	vinsertf128	$1, %xmm9, %ymm8, %ymm1
	vmovups	%ymm1, (%rbx)
	vmovups	%ymm0, 32(%rbx)
	vmovups	304(%rsp), %ymm0
	vmovups	%ymm0, 64(%rbx)
	vmovups	%ymm15, 96(%rbx)
	vmovups	%ymm14, 128(%rbx)
	vmovups	%ymm12, 160(%rbx)
	vmovups	336(%rsp), %ymm0
	vmovups	%ymm0, 192(%rbx)
	vmovups	%ymm13, 224(%rbx)
	jmp	6f
1:
	vmovups	%ymm12, 272(%rsp)
	vmovups	%ymm14, 400(%rsp)
	vmovups	%ymm15, 368(%rsp)
	vmovups	%ymm13, 432(%rsp)
	addq	%r12, %r13
	movq	256(%r15), %rcx
	subq	$-128, %rcx
	movabsq	$72339073309671425, %rax
	movq	%rax, 8(%rsp)
	vmovups	%ymm0, 16(%rsp)
	vmovups	%ymm1, 48(%rsp)
	vmovups	%ymm2, 80(%rsp)
	vmovups	%ymm3, 112(%rsp)
	vmovups	%ymm4, 144(%rsp)
	vmovups	%ymm5, 176(%rsp)
	vmovups	%ymm6, 208(%rsp)
	vmovups	%ymm7, 240(%rsp)
	leaq	16(%rsp), %rdi
	leaq	8(%rsp), %r8
	movq	%r13, %rsi
	movq	%r14, %rdx
	vzeroupper
	callq	blake2_parallel..lanes..blake2bp..compress_short_1_v3
	vmovups	16(%rsp), %ymm6
	vmovups	48(%rsp), %ymm7
	vmovups	80(%rsp), %ymm1
	vmovups	112(%rsp), %ymm2
	vmovups	144(%rsp), %ymm8
	vmovups	176(%rsp), %ymm9
	vmovups	208(%rsp), %ymm3
	vmovups	240(%rsp), %ymm10
	vunpckhpd	%ymm7, %ymm6, %ymm0
	vunpcklpd	%ymm2, %ymm1, %ymm4
	vunpckhpd	%ymm2, %ymm1, %ymm1
	vunpckhpd	%ymm9, %ymm8, %ymm2
	vunpcklpd	%ymm10, %ymm3, %ymm5
	vunpckhpd	%ymm10, %ymm3, %ymm3
	cmpq	$129, %r14
	jae	2f
	vmovups	304(%rsp), %ymm10
	vmovups	368(%rsp), %ymm11
	jmp	3f
2:
	vinsertf128	$1, %xmm3, %ymm2, %ymm11
	vinsertf128	$1, %xmm1, %ymm0, %ymm10
3:
	vmovups	272(%rsp), %ymm13
	vunpcklpd	%ymm7, %ymm6, %ymm6
	vunpcklpd	%ymm9, %ymm8, %ymm7
	cmpq	$257, %r14
	vmovups	336(%rsp), %ymm8
	vmovups	432(%rsp), %ymm9
	vmovups	400(%rsp), %ymm12
	jb	4f
	vperm2f128	$49, %ymm4, %ymm6, %ymm12
	vperm2f128	$49, %ymm5, %ymm7, %ymm13
4:
	vinsertf128	$1, %xmm4, %ymm6, %ymm4
	vinsertf128	$1, %xmm5, %ymm7, %ymm5
	cmpq	$385, %r14
	jb	5f
	vperm2f128	$49, %ymm1, %ymm0, %ymm8
	vperm2f128	$49, %ymm3, %ymm2, %ymm9
5:
	vmovups	%ymm4, (%rbx)
	vmovups	%ymm5, 32(%rbx)
	vmovups	%ymm10, 64(%rbx)
	vmovups	%ymm11, 96(%rbx)
	vmovups	%ymm12, 128(%rbx)
	vmovups	%ymm13, 160(%rbx)
	vmovups	%ymm8, 192(%rbx)
	vmovups	%ymm9, 224(%rbx)
6:
	addq	$472, %rsp
	popq	%rbx
	popq	%r12
	popq	%r13
	popq	%r14
	popq	%r15
	popq	%rbp
	vzeroupper
	retq
	vj_end	blake2_parallel..lanes..blake2bp..Lanes..outputs_1_v3

	vj_constants	8
	.p2align	3, 0x0
.L1_v3_CPI25_0:
	.quad	-9223372036854775808
.L1_v3_CPI25_3:
	.quad	-9223372036854775681
.L1_v3_CPI25_4:
	.quad	128
	vj_constants	16
	.p2align	4, 0x0
.L1_v3_CPI25_1:
	.quad	-9223372036854775552
	.quad	-9223372036854775424
.L1_v3_CPI25_2:
	.quad	256
	.quad	384
	vj_function	blake2_parallel..lanes..blake2bp..compress_short_1_v3
	pushq	%rbp
	pushq	%r15
	pushq	%r14
	pushq	%r13
	pushq	%r12
	pushq	%rbx
	subq	$1576, %rsp
	movq	%r8, %rbx
	movq	%rcx, %r14
	cmpq	$512, %rdx
	jne	1f
	leaq	128(%rsi), %rax
	leaq	256(%rsi), %rcx
	movq	%rsi, 32(%rsp)
	addq	$384, %rsi
	movq	%rax, 40(%rsp)
	movq	%rcx, 48(%rsp)
	movq	%rsi, 56(%rsp)
	subq	$-128, %r14
	vmovq	%r14, %xmm0
	vpbroadcastq	%xmm0, %ymm0
	vmovdqu	%ymm0, (%rsp)
	leaq	32(%rsp), %rsi
	movq	%rsp, %rdx
	jmp	2f
1:
	vxorps	%xmm0, %xmm0, %xmm0
	vmovups	%ymm0, 512(%rsp)
	vmovups	%ymm0, 480(%rsp)
	vmovups	%ymm0, 448(%rsp)
	vmovups	%ymm0, 416(%rsp)
	vmovups	%ymm0, 384(%rsp)
	vmovups	%ymm0, 352(%rsp)
	vmovups	%ymm0, 320(%rsp)
	vmovups	%ymm0, 288(%rsp)
	vmovups	%ymm0, 256(%rsp)
	vmovups	%ymm0, 224(%rsp)
	vmovups	%ymm0, 192(%rsp)
	vmovups	%ymm0, 160(%rsp)
	vmovups	%ymm0, 128(%rsp)
	vmovups	%ymm0, 96(%rsp)
	vmovups	%ymm0, 64(%rsp)
	vmovups	%ymm0, 32(%rsp)
	leaq	32(%rsp), %r13
	movq	%rdi, %r15
	movq	%r13, %rdi
	movq	%rdx, %r12
	vzeroupper
	vj_c_call	memcpy
	leaq	1064(%rsp), %rbp
	movl	$512, %edx
	movq	%rbp, %rdi
	movq	%r13, %rsi
	vj_c_call	memcpy
	leaq	552(%rsp), %r13
	movl	$512, %edx
	movq	%r13, %rdi
	movq	%rbp, %rsi
	vj_c_call	memcpy
	leaq	680(%rsp), %rax
	leaq	808(%rsp), %rcx
	leaq	936(%rsp), %rdx
	movq	%r13, 32(%rsp)
	movq	%rax, 40(%rsp)
	xorl	%eax, %eax
	vmovq	%r12, %xmm0
	subq	$128, %r12
	cmovaeq	%r12, %rax
	movq	%rcx, 48(%rsp)
	vpbroadcastq	%xmm0, %xmm0
	vpbroadcastq	.L1_v3_CPI25_0(%rip), %ymm1
	vpxor	%xmm1, %xmm0, %xmm2
	vpcmpgtq	.L1_v3_CPI25_1(%rip), %xmm2, %xmm2
	vpsubq	.L1_v3_CPI25_2(%rip), %xmm0, %xmm3
	movq	%rdx, 56(%rsp)
	vpand	%xmm3, %xmm2, %xmm2
	vmovq	%rax, %xmm3
	vpunpcklqdq	%xmm3, %xmm0, %xmm0
	vinserti128	$1, %xmm2, %ymm0, %ymm0
	vpxor	%ymm1, %ymm0, %ymm1
	vpbroadcastq	.L1_v3_CPI25_3(%rip), %ymm2
	vpcmpgtq	%ymm2, %ymm1, %ymm1
	vbroadcastsd	.L1_v3_CPI25_4(%rip), %ymm2
	vblendvpd	%ymm1, %ymm2, %ymm0, %ymm0
	vmovq	%r14, %xmm1
	vpbroadcastq	%xmm1, %ymm1
	vpaddq	%ymm0, %ymm1, %ymm0
	vmovdqu	%ymm0, (%rsp)
	leaq	32(%rsp), %rsi
	movq	%rsp, %rdx
	movq	%r15, %rdi
2:
	movq	%rbx, %rcx
	vzeroupper
	callq	blake2_compress..many..blake2b..compress_each_1_v3
	addq	$1576, %rsp
	popq	%rbx
	popq	%r12
	popq	%r13
	popq	%r14
	popq	%r15
	popq	%rbp
	retq
	vj_end	blake2_parallel..lanes..blake2bp..compress_short_1_v3

	vj_constants	8
	.p2align	3, 0x0
.L1_v3_CPI26_0:
	.quad	-2270897969802886508
.L1_v3_CPI26_1:
	.quad	2270897969802886507
.L1_v3_CPI26_2:
	.quad	-6620516959819538810
.L1_v3_CPI26_3:
	.quad	6620516959819538809
.L1_v3_CPI26_4:
	.quad	5840696475078001361
.L1_v3_CPI26_5:
	.quad	7640891576956012808
.L1_v3_CPI26_8:
	.quad	-7276294671716946913
.L1_v3_CPI26_9:
	.quad	-4942790177534073029
.L1_v3_CPI26_10:
	.quad	4354685564936845355
.L1_v3_CPI26_11:
	.quad	-6534734903238641935
	vj_constants	32
	.p2align	5, 0x0
.L1_v3_CPI26_6:
	.byte	3
	.byte	4
	.byte	5
	.byte	6
	.byte	7
	.byte	0
	.byte	1
	.byte	2
	.byte	11
	.byte	12
	.byte	13
	.byte	14
	.byte	15
	.byte	8
	.byte	9
	.byte	10
	.byte	19
	.byte	20
	.byte	21
	.byte	22
	.byte	23
	.byte	16
	.byte	17
	.byte	18
	.byte	27
	.byte	28
	.byte	29
	.byte	30
	.byte	31
	.byte	24
	.byte	25
	.byte	26
.L1_v3_CPI26_7:
	.byte	2
	.byte	3
	.byte	4
	.byte	5
	.byte	6
	.byte	7
	.byte	0
	.byte	1
	.byte	10
	.byte	11
	.byte	12
	.byte	13
	.byte	14
	.byte	15
	.byte	8
	.byte	9
	.byte	18
	.byte	19
	.byte	20
	.byte	21
	.byte	22
	.byte	23
	.byte	16
	.byte	17
	.byte	26
	.byte	27
	.byte	28
	.byte	29
	.byte	30
	.byte	31
	.byte	24
	.byte	25
	vj_function	blake2_compress..many..blake2b..compress_each_1_v3
	subq	$1160, %rsp
	movq	(%rsi), %r8
	movq	8(%rsi), %rax
	vmovdqu	(%r8), %ymm4
	vmovdqu	32(%r8), %ymm3
	vmovups	64(%r8), %ymm2
	vmovups	96(%r8), %ymm0
	vmovdqu	(%rax), %ymm6
	movzbl	(%rcx), %r8d
	vmovd	%r8d, %xmm1
	movzbl	2(%rcx), %r8d
	vpinsrd	$1, %r8d, %xmm1, %xmm5
	vmovdqu	32(%rax), %ymm1
	movzbl	4(%rcx), %r8d
	vpinsrd	$2, %r8d, %xmm5, %xmm5
	movzbl	6(%rcx), %r8d
	vpinsrd	$3, %r8d, %xmm5, %xmm5
	movzbl	1(%rcx), %r8d
	vmovd	%r8d, %xmm7
	movzbl	3(%rcx), %r8d
	vpinsrd	$1, %r8d, %xmm7, %xmm8
	vmovups	64(%rax), %ymm7
	movzbl	5(%rcx), %r8d
	vpinsrd	$2, %r8d, %xmm8, %xmm9
	movq	16(%rsi), %r8
	vmovdqu	(%r8), %ymm10
	vmovdqu	32(%r8), %ymm11
	vmovups	64(%r8), %ymm8
	movq	24(%rsi), %rsi
	vmovdqu	(%rsi), %ymm12
	vpslld	$31, %xmm5, %xmm5
	vpmovsxdq	%xmm5, %ymm5
	vbroadcastsd	.L1_v3_CPI26_0(%rip), %ymm13
	vbroadcastsd	.L1_v3_CPI26_1(%rip), %ymm14
	vblendvpd	%ymm5, %ymm13, %ymm14, %ymm5
	vmovupd	%ymm5, 896(%rsp)
	vmovdqu	32(%rsi), %ymm14
	movzbl	7(%rcx), %ecx
	vpinsrd	$3, %ecx, %xmm9, %xmm9
	vpslld	$31, %xmm9, %xmm9
	vpmovsxdq	%xmm9, %ymm9
	vbroadcastsd	.L1_v3_CPI26_2(%rip), %ymm13
	vbroadcastsd	.L1_v3_CPI26_3(%rip), %ymm15
	vblendvpd	%ymm9, %ymm13, %ymm15, %ymm5
	vmovupd	%ymm5, 64(%rsp)
	vmovups	64(%rsi), %ymm9
	vpunpcklqdq	%ymm6, %ymm4, %ymm15
	vpunpckhqdq	%ymm6, %ymm4, %ymm4
	vpunpcklqdq	%ymm12, %ymm10, %ymm6
	vpunpckhqdq	%ymm12, %ymm10, %ymm10
	vinserti128	$1, %xmm6, %ymm15, %ymm5
	vmovdqu	%ymm5, 768(%rsp)
	vperm2i128	$49, %ymm6, %ymm15, %ymm12
	vmovdqu	%ymm12, 704(%rsp)
	vinserti128	$1, %xmm10, %ymm4, %ymm15
	vmovdqu	%ymm15, 608(%rsp)
	vperm2i128	$49, %ymm10, %ymm4, %ymm10
	vmovdqu	%ymm10, 736(%rsp)
	vpunpcklqdq	%ymm1, %ymm3, %ymm4
	vpunpckhqdq	%ymm1, %ymm3, %ymm1
	vpunpcklqdq	%ymm14, %ymm11, %ymm3
	vpunpckhqdq	%ymm14, %ymm11, %ymm6
	vinserti128	$1, %xmm3, %ymm4, %ymm11
	vmovdqu	%ymm11, 672(%rsp)
	vperm2i128	$49, %ymm3, %ymm4, %ymm3
	vmovdqu	%ymm3, 512(%rsp)
	vinserti128	$1, %xmm6, %ymm1, %ymm13
	vmovdqu	%ymm13, 864(%rsp)
	vperm2i128	$49, %ymm6, %ymm1, %ymm1
	vmovdqu	%ymm1, 640(%rsp)
	vunpcklpd	%ymm7, %ymm2, %ymm1
	vunpckhpd	%ymm7, %ymm2, %ymm2
	vunpcklpd	%ymm9, %ymm8, %ymm3
	vunpckhpd	%ymm9, %ymm8, %ymm4
	vinsertf128	$1, %xmm3, %ymm1, %ymm6
	vmovups	%ymm6, 384(%rsp)
	vperm2f128	$49, %ymm3, %ymm1, %ymm1
	vmovups	%ymm1, 480(%rsp)
	vinsertf128	$1, %xmm4, %ymm2, %ymm1
	vmovups	%ymm1, 416(%rsp)
	vperm2f128	$49, %ymm4, %ymm2, %ymm1
	vmovups	%ymm1, 544(%rsp)
	vmovups	96(%rax), %ymm1
	vunpcklpd	%ymm1, %ymm0, %ymm2
	vunpckhpd	%ymm1, %ymm0, %ymm0
	vmovups	96(%r8), %ymm1
	vmovups	96(%rsi), %ymm3
	vunpcklpd	%ymm3, %ymm1, %ymm4
	vunpckhpd	%ymm3, %ymm1, %ymm1
	vinsertf128	$1, %xmm4, %ymm2, %ymm3
	vmovups	%ymm3, 576(%rsp)
	vperm2f128	$49, %ymm4, %ymm2, %ymm2
	vmovups	%ymm2, 448(%rsp)
	vinsertf128	$1, %xmm1, %ymm0, %ymm2
	vmovups	%ymm2, 352(%rsp)
	vperm2f128	$49, %ymm1, %ymm0, %ymm0
	vmovups	%ymm0, 832(%rsp)
	vmovdqu	(%rdi), %ymm0
	vmovdqu	%ymm0, 1120(%rsp)
	vmovdqu	128(%rdi), %ymm3
	vmovdqu	%ymm3, 1088(%rsp)
	vpaddq	%ymm3, %ymm0, %ymm0
	vpaddq	%ymm5, %ymm0, %ymm0
	vpxor	(%rdx), %ymm0, %ymm1
	vpbroadcastq	.L1_v3_CPI26_4(%rip), %ymm2
	vpxor	%ymm2, %ymm1, %ymm1
	vpshufd	$177, %ymm1, %ymm1
	vpbroadcastq	.L1_v3_CPI26_5(%rip), %ymm2
	vpaddq	%ymm2, %ymm1, %ymm2
	vpxor	%ymm3, %ymm2, %ymm3
	vmovdqa	.L1_v3_CPI26_6(%rip), %ymm9
	vpshufb	%ymm9, %ymm3, %ymm4
	vpaddq	%ymm0, %ymm15, %ymm0
	vpaddq	%ymm4, %ymm0, %ymm14
	vpxor	%ymm1, %ymm14, %ymm0
	vmovdqa	.L1_v3_CPI26_7(%rip), %ymm6
	vpshufb	%ymm6, %ymm0, %ymm15
	vpaddq	%ymm2, %ymm15, %ymm0
	vmovdqu	%ymm0, 224(%rsp)
	vpxor	%ymm4, %ymm0, %ymm0
	vpsrlq	$63, %ymm0, %ymm1
	vpaddq	%ymm0, %ymm0, %ymm0
	vpor	%ymm1, %ymm0, %ymm0
	vmovdqu	%ymm0, 256(%rsp)
	vmovdqu	32(%rdi), %ymm0
	vmovdqu	%ymm0, 1056(%rsp)
	vmovdqu	160(%rdi), %ymm3
	vmovdqu	%ymm3, 1024(%rsp)
	vpaddq	%ymm3, %ymm0, %ymm0
	vpaddq	%ymm0, %ymm12, %ymm0
	vpbroadcastq	.L1_v3_CPI26_8(%rip), %ymm1
	vpxor	%ymm1, %ymm0, %ymm1
	vpshufd	$177, %ymm1, %ymm1
	vpbroadcastq	.L1_v3_CPI26_9(%rip), %ymm2
	vpaddq	%ymm2, %ymm1, %ymm2
	vpxor	%ymm3, %ymm2, %ymm4
	vpshufb	%ymm9, %ymm4, %ymm4
	vpaddq	%ymm0, %ymm10, %ymm0
	vpaddq	%ymm4, %ymm0, %ymm7
	vpxor	%ymm1, %ymm7, %ymm0
	vpshufb	%ymm6, %ymm0, %ymm12
	vpaddq	%ymm2, %ymm12, %ymm0
	vmovdqu	%ymm0, 192(%rsp)
	vpxor	%ymm4, %ymm0, %ymm0
	vpsrlq	$63, %ymm0, %ymm1
	vpaddq	%ymm0, %ymm0, %ymm0
	vpor	%ymm1, %ymm0, %ymm3
	vmovdqu	64(%rdi), %ymm0
	vmovdqu	%ymm0, 960(%rsp)
	vmovdqu	192(%rdi), %ymm2
	vmovdqu	%ymm2, 992(%rsp)
	vpaddq	%ymm2, %ymm0, %ymm0
	vpaddq	%ymm0, %ymm11, %ymm0
	vpxor	896(%rsp), %ymm0, %ymm1
	vpshufd	$177, %ymm1, %ymm1
	vpbroadcastq	.L1_v3_CPI26_10(%rip), %ymm4
	vpaddq	%ymm4, %ymm1, %ymm4
	vpxor	%ymm2, %ymm4, %ymm5
	vpshufb	%ymm9, %ymm5, %ymm8
	vmovdqa	%ymm9, %ymm10
	vpaddq	%ymm0, %ymm13, %ymm0
	vpaddq	%ymm0, %ymm8, %ymm11
	vpxor	%ymm1, %ymm11, %ymm0
	vpshufb	%ymm6, %ymm0, %ymm0
	vmovdqu	%ymm0, (%rsp)
	vpaddq	%ymm0, %ymm4, %ymm5
	vpxor	%ymm5, %ymm8, %ymm0
	vpsrlq	$63, %ymm0, %ymm1
	vpaddq	%ymm0, %ymm0, %ymm0
	vpor	%ymm1, %ymm0, %ymm9
	vmovdqu	96(%rdi), %ymm0
	vmovdqu	%ymm0, 896(%rsp)
	vmovdqu	224(%rdi), %ymm1
	vpaddq	%ymm1, %ymm0, %ymm0
	vmovdqu	%ymm1, 928(%rsp)
	vpaddq	512(%rsp), %ymm0, %ymm2
	vpxor	64(%rsp), %ymm2, %ymm4
	vpshufd	$177, %ymm4, %ymm8
	vpbroadcastq	.L1_v3_CPI26_11(%rip), %ymm4
	vpaddq	%ymm4, %ymm8, %ymm13
	vpxor	%ymm1, %ymm13, %ymm4
	vpshufb	%ymm10, %ymm4, %ymm0
	vpaddq	640(%rsp), %ymm2, %ymm1
	vpaddq	%ymm0, %ymm1, %ymm4
	vpxor	%ymm4, %ymm8, %ymm1
	vmovdqa	%ymm6, %ymm2
	vpshufb	%ymm6, %ymm1, %ymm1
	vpaddq	%ymm1, %ymm13, %ymm8
	vpxor	%ymm0, %ymm8, %ymm0
	vpsrlq	$63, %ymm0, %ymm13
	vpaddq	%ymm0, %ymm0, %ymm0
	vpor	%ymm0, %ymm13, %ymm0
	vpaddq	384(%rsp), %ymm3, %ymm13
	vpaddq	%ymm13, %ymm14, %ymm6
	vpxor	%ymm1, %ymm6, %ymm1
	vpshufd	$177, %ymm1, %ymm1
	vpaddq	%ymm5, %ymm1, %ymm5
	vpxor	%ymm3, %ymm5, %ymm3
	vpshufb	%ymm10, %ymm3, %ymm3
	vpaddq	416(%rsp), %ymm6, %ymm6
	vpaddq	%ymm3, %ymm6, %ymm6
	vpxor	%ymm1, %ymm6, %ymm1
	vpshufb	%ymm2, %ymm1, %ymm1
	vmovdqu	%ymm1, 64(%rsp)
	vmovdqa	%ymm2, %ymm13
	vpaddq	%ymm1, %ymm5, %ymm1
	vmovdqu	%ymm1, 160(%rsp)
	vpxor	%ymm3, %ymm1, %ymm1
	vpsrlq	$63, %ymm1, %ymm3
	vpaddq	%ymm1, %ymm1, %ymm1
	vpor	%ymm3, %ymm1, %ymm1
	vmovdqu	%ymm1, 32(%rsp)
	vmovdqu	480(%rsp), %ymm5
	vpaddq	%ymm5, %ymm7, %ymm1
	vpaddq	%ymm1, %ymm9, %ymm1
	vpxor	%ymm1, %ymm15, %ymm3
	vpshufd	$177, %ymm3, %ymm3
	vpaddq	%ymm3, %ymm8, %ymm7
	vpxor	%ymm7, %ymm9, %ymm2
	vpshufb	%ymm10, %ymm2, %ymm8
	vmovdqa	%ymm10, %ymm2
	vpaddq	544(%rsp), %ymm1, %ymm1
	vpaddq	%ymm1, %ymm8, %ymm1
	vmovdqu	%ymm1, 800(%rsp)
	vpxor	%ymm3, %ymm1, %ymm1
	vpshufb	%ymm13, %ymm1, %ymm10
	vpaddq	%ymm7, %ymm10, %ymm1
	vmovdqu	%ymm1, 128(%rsp)
	vpxor	%ymm1, %ymm8, %ymm3
	vpsrlq	$63, %ymm3, %ymm8
	vpaddq	%ymm3, %ymm3, %ymm3
	vpor	%ymm3, %ymm8, %ymm1
	vmovdqu	%ymm1, 96(%rsp)
	vpaddq	576(%rsp), %ymm11, %ymm3
	vpaddq	%ymm0, %ymm3, %ymm3
	vpxor	%ymm3, %ymm12, %ymm8
	vpshufd	$177, %ymm8, %ymm8
	vpaddq	224(%rsp), %ymm8, %ymm12
	vpxor	%ymm0, %ymm12, %ymm0
	vmovdqa	%ymm2, %ymm7
	vpshufb	%ymm2, %ymm0, %ymm15
	vmovdqu	352(%rsp), %ymm11
	vpaddq	%ymm3, %ymm11, %ymm0
	vpaddq	%ymm0, %ymm15, %ymm0
	vmovdqu	%ymm0, 288(%rsp)
	vpxor	%ymm0, %ymm8, %ymm0
	vpshufb	%ymm13, %ymm0, %ymm2
	vpaddq	%ymm2, %ymm12, %ymm3
	vpxor	%ymm3, %ymm15, %ymm8
	vpsrlq	$63, %ymm8, %ymm12
	vpaddq	%ymm8, %ymm8, %ymm8
	vpor	%ymm12, %ymm8, %ymm0
	vmovdqu	%ymm0, 320(%rsp)
	vmovdqu	448(%rsp), %ymm1
	vpaddq	%ymm1, %ymm4, %ymm4
	vmovdqu	256(%rsp), %ymm0
	vpaddq	%ymm0, %ymm4, %ymm4
	vpxor	(%rsp), %ymm4, %ymm8
	vpshufd	$177, %ymm8, %ymm8
	vpaddq	192(%rsp), %ymm8, %ymm9
	vpxor	%ymm0, %ymm9, %ymm14
	vpshufb	%ymm7, %ymm14, %ymm0
	vmovdqa	%ymm7, %ymm13
	vmovdqu	832(%rsp), %ymm7
	vpaddq	%ymm7, %ymm4, %ymm4
	vpaddq	%ymm0, %ymm4, %ymm15
	vpxor	%ymm8, %ymm15, %ymm4
	vmovdqa	.L1_v3_CPI26_7(%rip), %ymm12
	vpshufb	%ymm12, %ymm4, %ymm14
	vpaddq	%ymm14, %ymm9, %ymm4
	vpxor	%ymm0, %ymm4, %ymm0
	vpsrlq	$63, %ymm0, %ymm8
	vpaddq	%ymm0, %ymm0, %ymm0
	vpor	%ymm0, %ymm8, %ymm0
	vpaddq	%ymm1, %ymm6, %ymm6
	vpaddq	%ymm0, %ymm6, %ymm6
	vpxor	%ymm6, %ymm10, %ymm1
	vpshufd	$177, %ymm1, %ymm1
	vpaddq	%ymm3, %ymm1, %ymm8
	vpxor	%ymm0, %ymm8, %ymm0
	vpshufb	%ymm13, %ymm0, %ymm0
	vpaddq	%ymm5, %ymm6, %ymm3
	vpaddq	%ymm0, %ymm3, %ymm3
	vpxor	%ymm1, %ymm3, %ymm1
	vpshufb	%ymm12, %ymm1, %ymm6
	vpaddq	%ymm6, %ymm8, %ymm1
	vmovdqu	%ymm1, 192(%rsp)
	vpxor	%ymm0, %ymm1, %ymm0
	vpsrlq	$63, %ymm0, %ymm1
	vpaddq	%ymm0, %ymm0, %ymm0
	vpor	%ymm1, %ymm0, %ymm0
	vmovdqu	%ymm0, 224(%rsp)
	vmovdqu	800(%rsp), %ymm0
	vpaddq	672(%rsp), %ymm0, %ymm0
	vmovdqu	32(%rsp), %ymm8
	vpaddq	%ymm0, %ymm8, %ymm0
	vpxor	%ymm2, %ymm0, %ymm1
	vpshufd	$177, %ymm1, %ymm1
	vpaddq	%ymm4, %ymm1, %ymm5
	vpxor	%ymm5, %ymm8, %ymm2
	vmovdqa	%ymm13, %ymm4
	vpshufb	%ymm13, %ymm2, %ymm8
	vpaddq	384(%rsp), %ymm0, %ymm0
	vpaddq	%ymm0, %ymm8, %ymm2
	vpxor	%ymm1, %ymm2, %ymm0
	vpshufb	%ymm12, %ymm0, %ymm0
	vmovdqu	%ymm0, (%rsp)
	vmovdqa	%ymm12, %ymm13
	vpaddq	%ymm0, %ymm5, %ymm0
	vmovdqu	%ymm0, 32(%rsp)
	vpxor	%ymm0, %ymm8, %ymm0
	vpsrlq	$63, %ymm0, %ymm1
	vpaddq	%ymm0, %ymm0, %ymm0
	vpor	%ymm1, %ymm0, %ymm0
	vmovdqu	288(%rsp), %ymm1
	vpaddq	416(%rsp), %ymm1, %ymm1
	vmovdqu	96(%rsp), %ymm5
	vpaddq	%ymm5, %ymm1, %ymm1
	vpxor	%ymm1, %ymm14, %ymm8
	vpshufd	$177, %ymm8, %ymm8
	vpaddq	160(%rsp), %ymm8, %ymm9
	vpxor	%ymm5, %ymm9, %ymm10
	vpshufb	%ymm4, %ymm10, %ymm10
	vmovdqa	%ymm4, %ymm12
	vpaddq	%ymm7, %ymm1, %ymm1
	vpaddq	%ymm1, %ymm10, %ymm4
	vpxor	%ymm4, %ymm8, %ymm1
	vpshufb	%ymm13, %ymm1, %ymm5
	vpaddq	%ymm5, %ymm9, %ymm8
	vpxor	%ymm10, %ymm8, %ymm1
	vpsrlq	$63, %ymm1, %ymm9
	vpaddq	%ymm1, %ymm1, %ymm1
	vpor	%ymm1, %ymm9, %ymm14
	vpaddq	%ymm11, %ymm15, %ymm1
	vmovdqu	320(%rsp), %ymm10
	vpaddq	%ymm1, %ymm10, %ymm1
	vpxor	64(%rsp), %ymm1, %ymm9
	vpshufd	$177, %ymm9, %ymm9
	vpaddq	128(%rsp), %ymm9, %ymm7
	vpxor	%ymm7, %ymm10, %ymm10
	vpshufb	%ymm12, %ymm10, %ymm10
	vmovdqa	%ymm12, %ymm11
	vpaddq	512(%rsp), %ymm1, %ymm1
	vpaddq	%ymm1, %ymm10, %ymm15
	vpxor	%ymm9, %ymm15, %ymm1
	vpshufb	%ymm13, %ymm1, %ymm9
	vpaddq	%ymm7, %ymm9, %ymm12
	vpxor	%ymm10, %ymm12, %ymm1
	vpsrlq	$63, %ymm1, %ymm7
	vpaddq	%ymm1, %ymm1, %ymm1
	vpor	%ymm7, %ymm1, %ymm1
	vpaddq	608(%rsp), %ymm3, %ymm3
	vpaddq	%ymm0, %ymm3, %ymm3
	vpxor	%ymm3, %ymm9, %ymm7
	vpshufd	$177, %ymm7, %ymm7
	vpaddq	%ymm7, %ymm8, %ymm8
	vpxor	%ymm0, %ymm8, %ymm0
	vmovdqa	%ymm11, %ymm9
	vpshufb	%ymm11, %ymm0, %ymm0
	vmovdqu	576(%rsp), %ymm10
	vpaddq	%ymm3, %ymm10, %ymm3
	vpaddq	%ymm0, %ymm3, %ymm3
	vmovdqu	%ymm3, 64(%rsp)
	vpxor	%ymm7, %ymm3, %ymm7
	vpshufb	%ymm13, %ymm7, %ymm7
	vmovdqu	%ymm7, 256(%rsp)
	vmovdqa	%ymm13, %ymm11
	vpaddq	%ymm7, %ymm8, %ymm7
	vmovdqu	%ymm7, 160(%rsp)
	vpxor	%ymm0, %ymm7, %ymm0
	vpsrlq	$63, %ymm0, %ymm8
	vpaddq	%ymm0, %ymm0, %ymm0
	vpor	%ymm0, %ymm8, %ymm0
	vmovdqu	%ymm0, 96(%rsp)
	vmovdqu	768(%rsp), %ymm13
	vpaddq	%ymm2, %ymm13, %ymm0
	vpaddq	%ymm0, %ymm14, %ymm0
	vpxor	%ymm6, %ymm0, %ymm2
	vpshufd	$177, %ymm2, %ymm2
	vpaddq	%ymm2, %ymm12, %ymm6
	vpxor	%ymm6, %ymm14, %ymm8
	vpshufb	%ymm9, %ymm8, %ymm8
	vmovdqa	%ymm9, %ymm3
	vmovdqu	704(%rsp), %ymm12
	vpaddq	%ymm0, %ymm12, %ymm0
	vpaddq	%ymm0, %ymm8, %ymm14
	vpxor	%ymm2, %ymm14, %ymm0
	vpshufb	%ymm11, %ymm0, %ymm7
	vpaddq	%ymm7, %ymm6, %ymm0
	vmovdqu	%ymm0, 128(%rsp)
	vpxor	%ymm0, %ymm8, %ymm0
	vpsrlq	$63, %ymm0, %ymm8
	vpaddq	%ymm0, %ymm0, %ymm0
	vpor	%ymm0, %ymm8, %ymm0
	vmovdqu	%ymm0, 288(%rsp)
	vmovdqu	544(%rsp), %ymm2
	vpaddq	%ymm2, %ymm4, %ymm0
	vpaddq	%ymm1, %ymm0, %ymm0
	vpxor	(%rsp), %ymm0, %ymm4
	vpshufd	$177, %ymm4, %ymm4
	vpaddq	192(%rsp), %ymm4, %ymm8
	vpxor	%ymm1, %ymm8, %ymm1
	vpshufb	%ymm9, %ymm1, %ymm9
	vpaddq	640(%rsp), %ymm0, %ymm0
	vpaddq	%ymm0, %ymm9, %ymm0
	vmovdqu	%ymm0, 320(%rsp)
	vpxor	%ymm4, %ymm0, %ymm0
	vpshufb	%ymm11, %ymm0, %ymm6
	vmovdqa	%ymm11, %ymm1
	vpaddq	%ymm6, %ymm8, %ymm8
	vpxor	%ymm9, %ymm8, %ymm0
	vpsrlq	$63, %ymm0, %ymm4
	vpaddq	%ymm0, %ymm0, %ymm0
	vpor	%ymm4, %ymm0, %ymm0
	vmovdqu	%ymm0, (%rsp)
	vmovdqu	864(%rsp), %ymm4
	vpaddq	%ymm4, %ymm15, %ymm0
	vmovdqu	224(%rsp), %ymm11
	vpaddq	%ymm0, %ymm11, %ymm0
	vpxor	%ymm5, %ymm0, %ymm9
	vpshufd	$177, %ymm9, %ymm9
	vpaddq	32(%rsp), %ymm9, %ymm5
	vpxor	%ymm5, %ymm11, %ymm11
	vpshufb	%ymm3, %ymm11, %ymm15
	vpaddq	736(%rsp), %ymm0, %ymm0
	vpaddq	%ymm0, %ymm15, %ymm11
	vpxor	%ymm9, %ymm11, %ymm0
	vpshufb	%ymm1, %ymm0, %ymm0
	vpaddq	%ymm0, %ymm5, %ymm9
	vpxor	%ymm15, %ymm9, %ymm5
	vpsrlq	$63, %ymm5, %ymm15
	vpaddq	%ymm5, %ymm5, %ymm5
	vpor	%ymm5, %ymm15, %ymm5
	vpaddq	64(%rsp), %ymm2, %ymm3
	vpaddq	%ymm5, %ymm3, %ymm3
	vpxor	%ymm7, %ymm3, %ymm2
	vpshufd	$177, %ymm2, %ymm2
	vpaddq	%ymm2, %ymm8, %ymm8
	vpxor	%ymm5, %ymm8, %ymm5
	vmovdqa	.L1_v3_CPI26_6(%rip), %ymm7
	vpshufb	%ymm7, %ymm5, %ymm15
	vpaddq	384(%rsp), %ymm3, %ymm3
	vpaddq	%ymm3, %ymm15, %ymm3
	vpxor	%ymm2, %ymm3, %ymm2
	vpshufb	%ymm1, %ymm2, %ymm5
	vpaddq	%ymm5, %ymm8, %ymm2
	vmovdqu	%ymm2, 224(%rsp)
	vpxor	%ymm2, %ymm15, %ymm8
	vpsrlq	$63, %ymm8, %ymm15
	vpaddq	%ymm8, %ymm8, %ymm8
	vpor	%ymm15, %ymm8, %ymm2
	vmovdqu	%ymm2, 64(%rsp)
	vpaddq	%ymm10, %ymm14, %ymm8
	vmovdqu	96(%rsp), %ymm2
	vpaddq	%ymm2, %ymm8, %ymm8
	vpxor	%ymm6, %ymm8, %ymm1
	vpshufd	$177, %ymm1, %ymm1
	vpaddq	%ymm1, %ymm9, %ymm9
	vpxor	%ymm2, %ymm9, %ymm10
	vpshufb	%ymm7, %ymm10, %ymm14
	vmovdqa	%ymm7, %ymm6
	vpaddq	%ymm13, %ymm8, %ymm8
	vpaddq	%ymm14, %ymm8, %ymm15
	vpxor	%ymm1, %ymm15, %ymm1
	vmovdqa	.L1_v3_CPI26_7(%rip), %ymm2
	vpshufb	%ymm2, %ymm1, %ymm1
	vmovdqu	%ymm1, 96(%rsp)
	vpaddq	%ymm1, %ymm9, %ymm1
	vmovdqu	%ymm1, 192(%rsp)
	vpxor	%ymm1, %ymm14, %ymm1
	vpsrlq	$63, %ymm1, %ymm9
	vpaddq	%ymm1, %ymm1, %ymm1
	vpor	%ymm1, %ymm9, %ymm1
	vpaddq	320(%rsp), %ymm4, %ymm9
	vmovdqu	288(%rsp), %ymm4
	vpaddq	%ymm4, %ymm9, %ymm9
	vpxor	%ymm0, %ymm9, %ymm0
	vpshufd	$177, %ymm0, %ymm0
	vpaddq	160(%rsp), %ymm0, %ymm13
	vpxor	%ymm4, %ymm13, %ymm7
	vmovdqa	%ymm6, %ymm8
	vpshufb	%ymm6, %ymm7, %ymm14
	vpaddq	%ymm12, %ymm9, %ymm7
	vpaddq	%ymm7, %ymm14, %ymm7
	vpxor	%ymm0, %ymm7, %ymm0
	vpshufb	%ymm2, %ymm0, %ymm12
	vpaddq	%ymm12, %ymm13, %ymm9
	vpxor	%ymm14, %ymm9, %ymm0
	vpsrlq	$63, %ymm0, %ymm13
	vpaddq	%ymm0, %ymm0, %ymm0
	vpor	%ymm0, %ymm13, %ymm0
	vpaddq	832(%rsp), %ymm11, %ymm11
	vmovdqu	(%rsp), %ymm4
	vpaddq	%ymm4, %ymm11, %ymm11
	vpxor	256(%rsp), %ymm11, %ymm13
	vpshufd	$177, %ymm13, %ymm13
	vpaddq	128(%rsp), %ymm13, %ymm6
	vpxor	%ymm4, %ymm6, %ymm4
	vpshufb	%ymm8, %ymm4, %ymm4
	vpaddq	352(%rsp), %ymm11, %ymm11
	vpaddq	%ymm4, %ymm11, %ymm11
	vpxor	%ymm13, %ymm11, %ymm13
	vpshufb	%ymm2, %ymm13, %ymm13
	vpaddq	%ymm6, %ymm13, %ymm14
	vpxor	%ymm4, %ymm14, %ymm4
	vpsrlq	$63, %ymm4, %ymm6
	vpaddq	%ymm4, %ymm4, %ymm4
	vpor	%ymm6, %ymm4, %ymm4
	vpaddq	480(%rsp), %ymm3, %ymm3
	vpaddq	%ymm1, %ymm3, %ymm3
	vpxor	%ymm3, %ymm13, %ymm6
	vpshufd	$177, %ymm6, %ymm6
	vpaddq	%ymm6, %ymm9, %ymm9
	vpxor	%ymm1, %ymm9, %ymm1
	vpshufb	%ymm8, %ymm1, %ymm1
	vpaddq	448(%rsp), %ymm3, %ymm3
	vpaddq	%ymm1, %ymm3, %ymm13
	vpxor	%ymm6, %ymm13, %ymm3
	vpshufb	%ymm2, %ymm3, %ymm3
	vmovdqu	%ymm3, 256(%rsp)
	vpaddq	%ymm3, %ymm9, %ymm3
	vmovdqu	%ymm3, 160(%rsp)
	vpxor	%ymm1, %ymm3, %ymm1
	vpsrlq	$63, %ymm1, %ymm6
	vpaddq	%ymm1, %ymm1, %ymm1
	vpor	%ymm6, %ymm1, %ymm1
	vmovdqu	%ymm1, 32(%rsp)
	vmovdqu	736(%rsp), %ymm10
	vpaddq	%ymm10, %ymm15, %ymm1
	vpaddq	%ymm0, %ymm1, %ymm1
	vpxor	%ymm5, %ymm1, %ymm5
	vpshufd	$177, %ymm5, %ymm5
	vpaddq	%ymm5, %ymm14, %ymm9
	vpxor	%ymm0, %ymm9, %ymm0
	vmovdqa	%ymm8, %ymm3
	vpshufb	%ymm8, %ymm0, %ymm14
	vpaddq	512(%rsp), %ymm1, %ymm0
	vpaddq	%ymm0, %ymm14, %ymm15
	vpxor	%ymm5, %ymm15, %ymm0
	vpshufb	%ymm2, %ymm0, %ymm0
	vmovdqa	%ymm2, %ymm8
	vpaddq	%ymm0, %ymm9, %ymm1
	vmovdqu	%ymm1, 128(%rsp)
	vpxor	%ymm1, %ymm14, %ymm1
	vpsrlq	$63, %ymm1, %ymm5
	vpaddq	%ymm1, %ymm1, %ymm1
	vpor	%ymm5, %ymm1, %ymm1
	vmovdqu	%ymm1, (%rsp)
	vmovdqu	640(%rsp), %ymm14
	vpaddq	%ymm7, %ymm14, %ymm1
	vpaddq	%ymm4, %ymm1, %ymm1
	vpxor	96(%rsp), %ymm1, %ymm7
	vpshufd	$177, %ymm7, %ymm9
	vpaddq	224(%rsp), %ymm9, %ymm2
	vpxor	%ymm4, %ymm2, %ymm4
	vpshufb	%ymm3, %ymm4, %ymm4
	vmovdqa	%ymm3, %ymm7
	vmovdqu	608(%rsp), %ymm3
	vpaddq	%ymm3, %ymm1, %ymm1
	vpaddq	%ymm4, %ymm1, %ymm1
	vmovdqu	%ymm1, 288(%rsp)
	vpxor	%ymm1, %ymm9, %ymm1
	vpshufb	%ymm8, %ymm1, %ymm6
	vmovdqa	%ymm8, %ymm5
	vpaddq	%ymm6, %ymm2, %ymm9
	vpxor	%ymm4, %ymm9, %ymm2
	vpsrlq	$63, %ymm2, %ymm4
	vpaddq	%ymm2, %ymm2, %ymm2
	vpor	%ymm4, %ymm2, %ymm1
	vmovdqu	%ymm1, 96(%rsp)
	vmovdqu	416(%rsp), %ymm1
	vpaddq	%ymm1, %ymm11, %ymm2
	vmovdqu	64(%rsp), %ymm11
	vpaddq	%ymm2, %ymm11, %ymm2
	vpxor	%ymm2, %ymm12, %ymm4
	vpshufd	$177, %ymm4, %ymm4
	vpaddq	192(%rsp), %ymm4, %ymm8
	vpxor	%ymm11, %ymm8, %ymm11
	vpshufb	%ymm7, %ymm11, %ymm12
	vpaddq	672(%rsp), %ymm2, %ymm2
	vpaddq	%ymm2, %ymm12, %ymm11
	vpxor	%ymm4, %ymm11, %ymm2
	vpshufb	%ymm5, %ymm2, %ymm2
	vpaddq	%ymm2, %ymm8, %ymm8
	vpxor	%ymm12, %ymm8, %ymm4
	vpsrlq	$63, %ymm4, %ymm12
	vpaddq	%ymm4, %ymm4, %ymm4
	vpor	%ymm4, %ymm12, %ymm4
	vpaddq	%ymm14, %ymm13, %ymm12
	vpaddq	%ymm4, %ymm12, %ymm12
	vpxor	%ymm0, %ymm12, %ymm0
	vpshufd	$177, %ymm0, %ymm0
	vpaddq	%ymm0, %ymm9, %ymm9
	vpxor	%ymm4, %ymm9, %ymm4
	vpshufb	%ymm7, %ymm4, %ymm14
	vpaddq	%ymm1, %ymm12, %ymm4
	vpaddq	%ymm4, %ymm14, %ymm13
	vpxor	%ymm0, %ymm13, %ymm0
	vpshufb	%ymm5, %ymm0, %ymm12
	vpaddq	%ymm12, %ymm9, %ymm0
	vmovdqu	%ymm0, 224(%rsp)
	vpxor	%ymm0, %ymm14, %ymm0
	vpsrlq	$63, %ymm0, %ymm9
	vpaddq	%ymm0, %ymm0, %ymm0
	vpor	%ymm0, %ymm9, %ymm0
	vmovdqu	%ymm0, 64(%rsp)
	vpaddq	%ymm10, %ymm15, %ymm0
	vmovdqu	32(%rsp), %ymm4
	vpaddq	%ymm4, %ymm0, %ymm0
	vpxor	%ymm6, %ymm0, %ymm1
	vpshufd	$177, %ymm1, %ymm1
	vpaddq	%ymm1, %ymm8, %ymm8
	vpxor	%ymm4, %ymm8, %ymm6
	vmovdqa	%ymm7, %ymm4
	vpshufb	%ymm7, %ymm6, %ymm9
	vpaddq	%ymm3, %ymm0, %ymm0
	vpaddq	%ymm0, %ymm9, %ymm15
	vpxor	%ymm1, %ymm15, %ymm0
	vmovdqa	%ymm5, %ymm7
	vpshufb	%ymm5, %ymm0, %ymm6
	vpaddq	%ymm6, %ymm8, %ymm0
	vmovdqu	%ymm0, 192(%rsp)
	vpxor	%ymm0, %ymm9, %ymm0
	vpsrlq	$63, %ymm0, %ymm1
	vpaddq	%ymm0, %ymm0, %ymm0
	vpor	%ymm1, %ymm0, %ymm0
	vmovdqu	288(%rsp), %ymm1
	vpaddq	352(%rsp), %ymm1, %ymm1
	vmovdqu	(%rsp), %ymm5
	vpaddq	%ymm5, %ymm1, %ymm1
	vpxor	%ymm2, %ymm1, %ymm2
	vpshufd	$177, %ymm2, %ymm2
	vpaddq	160(%rsp), %ymm2, %ymm3
	vpxor	%ymm5, %ymm3, %ymm5
	vpshufb	%ymm4, %ymm5, %ymm8
	vmovdqa	%ymm4, %ymm14
	vpaddq	576(%rsp), %ymm1, %ymm1
	vpaddq	%ymm1, %ymm8, %ymm4
	vpxor	%ymm2, %ymm4, %ymm1
	vpshufb	%ymm7, %ymm1, %ymm1
	vmovdqu	%ymm1, 288(%rsp)
	vpaddq	%ymm1, %ymm3, %ymm3
	vpxor	%ymm3, %ymm8, %ymm1
	vpsrlq	$63, %ymm1, %ymm2
	vpaddq	%ymm1, %ymm1, %ymm1
	vpor	%ymm2, %ymm1, %ymm2
	vpaddq	544(%rsp), %ymm11, %ymm1
	vmovdqu	96(%rsp), %ymm5
	vpaddq	%ymm5, %ymm1, %ymm1
	vpxor	256(%rsp), %ymm1, %ymm8
	vpshufd	$177, %ymm8, %ymm8
	vpaddq	128(%rsp), %ymm8, %ymm9
	vpxor	%ymm5, %ymm9, %ymm10
	vmovdqa	%ymm14, %ymm5
	vpshufb	%ymm14, %ymm10, %ymm10
	vpaddq	448(%rsp), %ymm1, %ymm1
	vpaddq	%ymm1, %ymm10, %ymm14
	vpxor	%ymm8, %ymm14, %ymm1
	vpshufb	%ymm7, %ymm1, %ymm8
	vpaddq	%ymm8, %ymm9, %ymm9
	vpxor	%ymm10, %ymm9, %ymm1
	vpsrlq	$63, %ymm1, %ymm10
	vpaddq	%ymm1, %ymm1, %ymm1
	vpor	%ymm1, %ymm10, %ymm1
	vpaddq	704(%rsp), %ymm13, %ymm10
	vpaddq	%ymm0, %ymm10, %ymm10
	vpxor	%ymm8, %ymm10, %ymm8
	vpshufd	$177, %ymm8, %ymm8
	vpaddq	%ymm3, %ymm8, %ymm3
	vpxor	%ymm0, %ymm3, %ymm0
	vpshufb	%ymm5, %ymm0, %ymm0
	vpaddq	512(%rsp), %ymm10, %ymm10
	vpaddq	%ymm0, %ymm10, %ymm10
	vmovdqu	%ymm10, 800(%rsp)
	vpxor	%ymm8, %ymm10, %ymm8
	vmovdqa	%ymm7, %ymm13
	vpshufb	%ymm7, %ymm8, %ymm7
	vmovdqu	%ymm7, 256(%rsp)
	vpaddq	%ymm7, %ymm3, %ymm3
	vmovdqu	%ymm3, 160(%rsp)
	vpxor	%ymm0, %ymm3, %ymm0
	vpsrlq	$63, %ymm0, %ymm8
	vpaddq	%ymm0, %ymm0, %ymm0
	vpor	%ymm0, %ymm8, %ymm0
	vmovdqu	%ymm0, 32(%rsp)
	vmovdqu	864(%rsp), %ymm11
	vpaddq	%ymm11, %ymm15, %ymm0
	vpaddq	%ymm2, %ymm0, %ymm0
	vpxor	%ymm0, %ymm12, %ymm8
	vpshufd	$177, %ymm8, %ymm8
	vpaddq	%ymm9, %ymm8, %ymm9
	vpxor	%ymm2, %ymm9, %ymm2
	vmovdqa	%ymm5, %ymm3
	vpshufb	%ymm5, %ymm2, %ymm12
	vpaddq	480(%rsp), %ymm0, %ymm0
	vpaddq	%ymm0, %ymm12, %ymm15
	vpxor	%ymm8, %ymm15, %ymm0
	vpshufb	%ymm13, %ymm0, %ymm2
	vpaddq	%ymm2, %ymm9, %ymm0
	vmovdqu	%ymm0, 128(%rsp)
	vpxor	%ymm0, %ymm12, %ymm0
	vpsrlq	$63, %ymm0, %ymm8
	vpaddq	%ymm0, %ymm0, %ymm0
	vpor	%ymm0, %ymm8, %ymm0
	vmovdqu	%ymm0, (%rsp)
	vmovdqu	672(%rsp), %ymm10
	vpaddq	%ymm4, %ymm10, %ymm0
	vpaddq	%ymm1, %ymm0, %ymm0
	vpxor	%ymm6, %ymm0, %ymm6
	vpshufd	$177, %ymm6, %ymm6
	vpaddq	224(%rsp), %ymm6, %ymm4
	vpxor	%ymm1, %ymm4, %ymm1
	vpshufb	%ymm5, %ymm1, %ymm8
	vmovdqu	768(%rsp), %ymm1
	vpaddq	%ymm1, %ymm0, %ymm0
	vpaddq	%ymm0, %ymm8, %ymm0
	vmovdqu	%ymm0, 320(%rsp)
	vpxor	%ymm6, %ymm0, %ymm0
	vpshufb	%ymm13, %ymm0, %ymm7
	vpaddq	%ymm7, %ymm4, %ymm4
	vpxor	%ymm4, %ymm8, %ymm0
	vpsrlq	$63, %ymm0, %ymm6
	vpaddq	%ymm0, %ymm0, %ymm0
	vpor	%ymm6, %ymm0, %ymm0
	vmovdqu	%ymm0, 96(%rsp)
	vmovdqu	832(%rsp), %ymm12
	vpaddq	%ymm12, %ymm14, %ymm0
	vmovdqu	64(%rsp), %ymm6
	vpaddq	%ymm6, %ymm0, %ymm0
	vpxor	288(%rsp), %ymm0, %ymm5
	vpshufd	$177, %ymm5, %ymm5
	vpaddq	192(%rsp), %ymm5, %ymm8
	vpxor	%ymm6, %ymm8, %ymm9
	vpshufb	%ymm3, %ymm9, %ymm9
	vpaddq	384(%rsp), %ymm0, %ymm0
	vpaddq	%ymm0, %ymm9, %ymm0
	vmovdqu	%ymm0, 288(%rsp)
	vpxor	%ymm5, %ymm0, %ymm0
	vpshufb	%ymm13, %ymm0, %ymm6
	vmovdqa	%ymm13, %ymm0
	vpaddq	%ymm6, %ymm8, %ymm8
	vpxor	%ymm9, %ymm8, %ymm5
	vpsrlq	$63, %ymm5, %ymm9
	vpaddq	%ymm5, %ymm5, %ymm5
	vpor	%ymm5, %ymm9, %ymm5
	vmovdqu	800(%rsp), %ymm9
	vpaddq	416(%rsp), %ymm9, %ymm9
	vpaddq	%ymm5, %ymm9, %ymm9
	vpxor	%ymm2, %ymm9, %ymm2
	vpshufd	$177, %ymm2, %ymm2
	vpaddq	%ymm4, %ymm2, %ymm4
	vpxor	%ymm5, %ymm4, %ymm5
	vpshufb	%ymm3, %ymm5, %ymm14
	vpaddq	%ymm1, %ymm9, %ymm5
	vpaddq	%ymm5, %ymm14, %ymm13
	vpxor	%ymm2, %ymm13, %ymm2
	vpshufb	%ymm0, %ymm2, %ymm5
	vpaddq	%ymm5, %ymm4, %ymm1
	vmovdqu	%ymm1, 224(%rsp)
	vpxor	%ymm1, %ymm14, %ymm2
	vpsrlq	$63, %ymm2, %ymm9
	vpaddq	%ymm2, %ymm2, %ymm2
	vpor	%ymm2, %ymm9, %ymm1
	vmovdqu	%ymm1, 64(%rsp)
	vpaddq	%ymm11, %ymm15, %ymm2
	vmovdqu	32(%rsp), %ymm4
	vpaddq	%ymm4, %ymm2, %ymm2
	vpxor	%ymm7, %ymm2, %ymm1
	vpshufd	$177, %ymm1, %ymm1
	vpaddq	%ymm1, %ymm8, %ymm8
	vpxor	%ymm4, %ymm8, %ymm9
	vmovdqa	%ymm3, %ymm14
	vpshufb	%ymm3, %ymm9, %ymm9
	vpaddq	640(%rsp), %ymm2, %ymm2
	vpaddq	%ymm2, %ymm9, %ymm15
	vpxor	%ymm1, %ymm15, %ymm1
	vpshufb	%ymm0, %ymm1, %ymm4
	vmovdqa	%ymm0, %ymm11
	vpaddq	%ymm4, %ymm8, %ymm0
	vmovdqu	%ymm0, 192(%rsp)
	vpxor	%ymm0, %ymm9, %ymm1
	vpsrlq	$63, %ymm1, %ymm2
	vpaddq	%ymm1, %ymm1, %ymm1
	vpor	%ymm2, %ymm1, %ymm1
	vmovdqu	320(%rsp), %ymm0
	vpaddq	704(%rsp), %ymm0, %ymm2
	vmovdqu	(%rsp), %ymm7
	vpaddq	%ymm7, %ymm2, %ymm2
	vpxor	%ymm6, %ymm2, %ymm0
	vpshufd	$177, %ymm0, %ymm0
	vpaddq	160(%rsp), %ymm0, %ymm3
	vpxor	%ymm7, %ymm3, %ymm7
	vpshufb	%ymm14, %ymm7, %ymm8
	vpaddq	%ymm2, %ymm10, %ymm2
	vpaddq	%ymm2, %ymm8, %ymm7
	vpxor	%ymm0, %ymm7, %ymm0
	vmovdqa	%ymm11, %ymm10
	vpshufb	%ymm11, %ymm0, %ymm0
	vmovdqu	%ymm0, 320(%rsp)
	vpaddq	%ymm0, %ymm3, %ymm3
	vpxor	%ymm3, %ymm8, %ymm0
	vpsrlq	$63, %ymm0, %ymm2
	vpaddq	%ymm0, %ymm0, %ymm0
	vpor	%ymm2, %ymm0, %ymm0
	vmovdqu	288(%rsp), %ymm2
	vpaddq	480(%rsp), %ymm2, %ymm2
	vmovdqu	96(%rsp), %ymm6
	vpaddq	%ymm6, %ymm2, %ymm2
	vpxor	256(%rsp), %ymm2, %ymm8
	vpshufd	$177, %ymm8, %ymm8
	vpaddq	128(%rsp), %ymm8, %ymm9
	vpxor	%ymm6, %ymm9, %ymm6
	vpshufb	%ymm14, %ymm6, %ymm6
	vpaddq	%ymm2, %ymm12, %ymm2
	vpaddq	%ymm6, %ymm2, %ymm11
	vpxor	%ymm8, %ymm11, %ymm2
	vpshufb	%ymm10, %ymm2, %ymm8
	vpaddq	%ymm8, %ymm9, %ymm9
	vpxor	%ymm6, %ymm9, %ymm2
	vpsrlq	$63, %ymm2, %ymm6
	vpaddq	%ymm2, %ymm2, %ymm2
	vpor	%ymm6, %ymm2, %ymm2
	vpaddq	448(%rsp), %ymm13, %ymm6
	vpaddq	%ymm1, %ymm6, %ymm6
	vpxor	%ymm6, %ymm8, %ymm8
	vpshufd	$177, %ymm8, %ymm8
	vpaddq	%ymm3, %ymm8, %ymm3
	vpxor	%ymm1, %ymm3, %ymm1
	vpshufb	%ymm14, %ymm1, %ymm1
	vpaddq	608(%rsp), %ymm6, %ymm6
	vpaddq	%ymm1, %ymm6, %ymm6
	vmovdqu	%ymm6, 32(%rsp)
	vpxor	%ymm6, %ymm8, %ymm6
	vpshufb	%ymm10, %ymm6, %ymm6
	vmovdqu	%ymm6, 256(%rsp)
	vpaddq	%ymm6, %ymm3, %ymm3
	vmovdqu	%ymm3, 160(%rsp)
	vpxor	%ymm1, %ymm3, %ymm1
	vpsrlq	$63, %ymm1, %ymm6
	vpaddq	%ymm1, %ymm1, %ymm1
	vpor	%ymm6, %ymm1, %ymm1
	vmovdqu	%ymm1, (%rsp)
	vpaddq	544(%rsp), %ymm15, %ymm1
	vpaddq	%ymm0, %ymm1, %ymm1
	vpxor	%ymm5, %ymm1, %ymm5
	vpshufd	$177, %ymm5, %ymm5
	vpaddq	%ymm5, %ymm9, %ymm8
	vpxor	%ymm0, %ymm8, %ymm0
	vpshufb	%ymm14, %ymm0, %ymm9
	vmovdqu	576(%rsp), %ymm3
	vpaddq	%ymm3, %ymm1, %ymm0
	vpaddq	%ymm0, %ymm9, %ymm15
	vpxor	%ymm5, %ymm15, %ymm0
	vmovdqa	%ymm10, %ymm6
	vpshufb	%ymm10, %ymm0, %ymm0
	vpaddq	%ymm0, %ymm8, %ymm1
	vmovdqu	%ymm1, 128(%rsp)
	vpxor	%ymm1, %ymm9, %ymm1
	vpsrlq	$63, %ymm1, %ymm5
	vpaddq	%ymm1, %ymm1, %ymm1
	vpor	%ymm5, %ymm1, %ymm1
	vmovdqu	%ymm1, 288(%rsp)
	vmovdqu	512(%rsp), %ymm5
	vpaddq	%ymm5, %ymm7, %ymm1
	vpaddq	%ymm2, %ymm1, %ymm1
	vpxor	%ymm4, %ymm1, %ymm7
	vpshufd	$177, %ymm7, %ymm8
	vpaddq	224(%rsp), %ymm8, %ymm4
	vpxor	%ymm2, %ymm4, %ymm2
	vpshufb	%ymm14, %ymm2, %ymm2
	vmovdqa	%ymm14, %ymm7
	vmovdqu	384(%rsp), %ymm14
	vpaddq	%ymm1, %ymm14, %ymm1
	vpaddq	%ymm2, %ymm1, %ymm1
	vmovdqu	%ymm1, 800(%rsp)
	vpxor	%ymm1, %ymm8, %ymm1
	vpshufb	%ymm10, %ymm1, %ymm10
	vmovdqa	%ymm6, %ymm1
	vpaddq	%ymm4, %ymm10, %ymm4
	vpxor	%ymm2, %ymm4, %ymm2
	vpsrlq	$63, %ymm2, %ymm8
	vpaddq	%ymm2, %ymm2, %ymm2
	vpor	%ymm2, %ymm8, %ymm2
	vmovdqu	%ymm2, 96(%rsp)
	vmovdqu	736(%rsp), %ymm13
	vpaddq	%ymm13, %ymm11, %ymm2
	vmovdqu	64(%rsp), %ymm6
	vpaddq	%ymm6, %ymm2, %ymm2
	vpxor	320(%rsp), %ymm2, %ymm8
	vpshufd	$177, %ymm8, %ymm8
	vpaddq	192(%rsp), %ymm8, %ymm9
	vpxor	%ymm6, %ymm9, %ymm11
	vpshufb	%ymm7, %ymm11, %ymm12
	vpaddq	352(%rsp), %ymm2, %ymm2
	vpaddq	%ymm2, %ymm12, %ymm11
	vpxor	%ymm8, %ymm11, %ymm2
	vpshufb	%ymm1, %ymm2, %ymm2
	vpaddq	%ymm2, %ymm9, %ymm8
	vpxor	%ymm12, %ymm8, %ymm9
	vpsrlq	$63, %ymm9, %ymm12
	vpaddq	%ymm9, %ymm9, %ymm9
	vpor	%ymm12, %ymm9, %ymm9
	vmovdqu	32(%rsp), %ymm6
	vpaddq	704(%rsp), %ymm6, %ymm12
	vpaddq	%ymm9, %ymm12, %ymm12
	vpxor	%ymm0, %ymm12, %ymm0
	vpshufd	$177, %ymm0, %ymm0
	vpaddq	%ymm4, %ymm0, %ymm4
	vpxor	%ymm4, %ymm9, %ymm9
	vpshufb	%ymm7, %ymm9, %ymm9
	vpaddq	%ymm3, %ymm12, %ymm12
	vpaddq	%ymm9, %ymm12, %ymm12
	vpxor	%ymm0, %ymm12, %ymm0
	vpshufb	%ymm1, %ymm0, %ymm0
	vmovdqu	%ymm0, 32(%rsp)
	vpaddq	%ymm0, %ymm4, %ymm0
	vmovdqu	%ymm0, 224(%rsp)
	vpxor	%ymm0, %ymm9, %ymm0
	vpsrlq	$63, %ymm0, %ymm9
	vpaddq	%ymm0, %ymm0, %ymm0
	vpor	%ymm0, %ymm9, %ymm0
	vmovdqu	%ymm0, 64(%rsp)
	vpaddq	%ymm5, %ymm15, %ymm0
	vmovdqu	(%rsp), %ymm3
	vpaddq	%ymm3, %ymm0, %ymm0
	vpxor	%ymm0, %ymm10, %ymm1
	vpshufd	$177, %ymm1, %ymm1
	vpaddq	%ymm1, %ymm8, %ymm8
	vpxor	%ymm3, %ymm8, %ymm6
	vpshufb	%ymm7, %ymm6, %ymm9
	vpaddq	480(%rsp), %ymm0, %ymm0
	vpaddq	%ymm0, %ymm9, %ymm15
	vpxor	%ymm1, %ymm15, %ymm0
	vmovdqa	.L1_v3_CPI26_7(%rip), %ymm4
	vpshufb	%ymm4, %ymm0, %ymm0
	vmovdqu	%ymm0, 320(%rsp)
	vpaddq	%ymm0, %ymm8, %ymm0
	vmovdqu	%ymm0, 192(%rsp)
	vpxor	%ymm0, %ymm9, %ymm0
	vpsrlq	$63, %ymm0, %ymm1
	vpaddq	%ymm0, %ymm0, %ymm0
	vpor	%ymm1, %ymm0, %ymm0
	vmovdqu	800(%rsp), %ymm1
	vpaddq	768(%rsp), %ymm1, %ymm1
	vmovdqu	288(%rsp), %ymm5
	vpaddq	%ymm5, %ymm1, %ymm1
	vpxor	%ymm2, %ymm1, %ymm2
	vpshufd	$177, %ymm2, %ymm2
	vpaddq	160(%rsp), %ymm2, %ymm3
	vpxor	%ymm5, %ymm3, %ymm5
	vpshufb	%ymm7, %ymm5, %ymm8
	vpaddq	544(%rsp), %ymm1, %ymm1
	vpaddq	%ymm1, %ymm8, %ymm6
	vpxor	%ymm2, %ymm6, %ymm1
	vpshufb	%ymm4, %ymm1, %ymm1
	vmovdqu	%ymm1, (%rsp)
	vpaddq	%ymm1, %ymm3, %ymm3
	vpxor	%ymm3, %ymm8, %ymm1
	vpsrlq	$63, %ymm1, %ymm2
	vpaddq	%ymm1, %ymm1, %ymm1
	vpor	%ymm2, %ymm1, %ymm2
	vpaddq	%ymm14, %ymm11, %ymm1
	vmovdqu	96(%rsp), %ymm5
	vpaddq	%ymm5, %ymm1, %ymm1
	vpxor	256(%rsp), %ymm1, %ymm8
	vpshufd	$177, %ymm8, %ymm8
	vpaddq	128(%rsp), %ymm8, %ymm9
	vpxor	%ymm5, %ymm9, %ymm10
	vpshufb	%ymm7, %ymm10, %ymm10
	vmovdqa	%ymm7, %ymm11
	vpaddq	%ymm1, %ymm13, %ymm1
	vpaddq	%ymm1, %ymm10, %ymm5
	vpxor	%ymm5, %ymm8, %ymm1
	vpshufb	%ymm4, %ymm1, %ymm8
	vpaddq	%ymm8, %ymm9, %ymm9
	vpxor	%ymm10, %ymm9, %ymm1
	vpsrlq	$63, %ymm1, %ymm10
	vpaddq	%ymm1, %ymm1, %ymm1
	vpor	%ymm1, %ymm10, %ymm1
	vpaddq	672(%rsp), %ymm12, %ymm10
	vpaddq	%ymm0, %ymm10, %ymm10
	vpxor	%ymm8, %ymm10, %ymm8
	vpshufd	$177, %ymm8, %ymm8
	vpaddq	%ymm3, %ymm8, %ymm3
	vpxor	%ymm0, %ymm3, %ymm0
	vpshufb	%ymm7, %ymm0, %ymm0
	vpaddq	352(%rsp), %ymm10, %ymm10
	vpaddq	%ymm0, %ymm10, %ymm13
	vpxor	%ymm8, %ymm13, %ymm8
	vmovdqa	%ymm4, %ymm7
	vpshufb	%ymm4, %ymm8, %ymm4
	vmovdqu	%ymm4, 256(%rsp)
	vpaddq	%ymm4, %ymm3, %ymm3
	vmovdqu	%ymm3, 160(%rsp)
	vpxor	%ymm0, %ymm3, %ymm0
	vpsrlq	$63, %ymm0, %ymm8
	vpaddq	%ymm0, %ymm0, %ymm0
	vpor	%ymm0, %ymm8, %ymm0
	vmovdqu	%ymm0, 96(%rsp)
	vpaddq	640(%rsp), %ymm15, %ymm0
	vpaddq	%ymm2, %ymm0, %ymm0
	vpxor	32(%rsp), %ymm0, %ymm8
	vpshufd	$177, %ymm8, %ymm8
	vpaddq	%ymm9, %ymm8, %ymm9
	vpxor	%ymm2, %ymm9, %ymm2
	vmovdqa	%ymm11, %ymm10
	vpshufb	%ymm11, %ymm2, %ymm12
	vmovdqu	864(%rsp), %ymm3
	vpaddq	%ymm3, %ymm0, %ymm0
	vpaddq	%ymm0, %ymm12, %ymm15
	vpxor	%ymm8, %ymm15, %ymm0
	vpshufb	%ymm7, %ymm0, %ymm2
	vmovdqa	%ymm7, %ymm11
	vpaddq	%ymm2, %ymm9, %ymm0
	vmovdqu	%ymm0, 128(%rsp)
	vpxor	%ymm0, %ymm12, %ymm0
	vpsrlq	$63, %ymm0, %ymm8
	vpaddq	%ymm0, %ymm0, %ymm0
	vpor	%ymm0, %ymm8, %ymm0
	vmovdqu	%ymm0, 32(%rsp)
	vmovdqu	832(%rsp), %ymm7
	vpaddq	%ymm7, %ymm6, %ymm0
	vpaddq	%ymm1, %ymm0, %ymm0
	vpxor	320(%rsp), %ymm0, %ymm6
	vpshufd	$177, %ymm6, %ymm6
	vpaddq	224(%rsp), %ymm6, %ymm4
	vpxor	%ymm1, %ymm4, %ymm1
	vpshufb	%ymm10, %ymm1, %ymm8
	vmovdqa	%ymm10, %ymm14
	vmovdqu	448(%rsp), %ymm10
	vpaddq	%ymm0, %ymm10, %ymm0
	vpaddq	%ymm0, %ymm8, %ymm0
	vmovdqu	%ymm0, 320(%rsp)
	vpxor	%ymm6, %ymm0, %ymm0
	vpshufb	%ymm11, %ymm0, %ymm12
	vpaddq	%ymm4, %ymm12, %ymm4
	vpxor	%ymm4, %ymm8, %ymm0
	vpsrlq	$63, %ymm0, %ymm6
	vpaddq	%ymm0, %ymm0, %ymm0
	vpor	%ymm6, %ymm0, %ymm0
	vmovdqu	%ymm0, 288(%rsp)
	vmovdqu	608(%rsp), %ymm1
	vpaddq	%ymm1, %ymm5, %ymm0
	vmovdqu	64(%rsp), %ymm6
	vpaddq	%ymm6, %ymm0, %ymm0
	vpxor	(%rsp), %ymm0, %ymm5
	vpshufd	$177, %ymm5, %ymm5
	vpaddq	192(%rsp), %ymm5, %ymm8
	vpxor	%ymm6, %ymm8, %ymm9
	vpshufb	%ymm14, %ymm9, %ymm9
	vmovdqa	%ymm14, %ymm6
	vpaddq	416(%rsp), %ymm0, %ymm0
	vpaddq	%ymm0, %ymm9, %ymm0
	vmovdqu	%ymm0, (%rsp)
	vpxor	%ymm5, %ymm0, %ymm0
	vpshufb	%ymm11, %ymm0, %ymm0
	vpaddq	%ymm0, %ymm8, %ymm8
	vpxor	%ymm9, %ymm8, %ymm5
	vpsrlq	$63, %ymm5, %ymm9
	vpaddq	%ymm5, %ymm5, %ymm5
	vpor	%ymm5, %ymm9, %ymm5
	vpaddq	576(%rsp), %ymm13, %ymm9
	vpaddq	%ymm5, %ymm9, %ymm9
	vpxor	%ymm2, %ymm9, %ymm2
	vpshufd	$177, %ymm2, %ymm2
	vpaddq	%ymm4, %ymm2, %ymm4
	vpxor	%ymm5, %ymm4, %ymm5
	vpshufb	%ymm14, %ymm5, %ymm14
	vpaddq	%ymm3, %ymm9, %ymm5
	vpaddq	%ymm5, %ymm14, %ymm13
	vpxor	%ymm2, %ymm13, %ymm2
	vpshufb	%ymm11, %ymm2, %ymm5
	vpaddq	%ymm5, %ymm4, %ymm2
	vmovdqu	%ymm2, 224(%rsp)
	vpxor	%ymm2, %ymm14, %ymm2
	vpsrlq	$63, %ymm2, %ymm9
	vpaddq	%ymm2, %ymm2, %ymm2
	vpor	%ymm2, %ymm9, %ymm2
	vmovdqu	%ymm2, 64(%rsp)
	vpaddq	%ymm1, %ymm15, %ymm2
	vmovdqu	96(%rsp), %ymm3
	vpaddq	%ymm3, %ymm2, %ymm2
	vpxor	%ymm2, %ymm12, %ymm1
	vpshufd	$177, %ymm1, %ymm1
	vpaddq	%ymm1, %ymm8, %ymm8
	vpxor	%ymm3, %ymm8, %ymm9
	vpshufb	%ymm6, %ymm9, %ymm9
	vpaddq	%ymm7, %ymm2, %ymm2
	vpaddq	%ymm2, %ymm9, %ymm15
	vpxor	%ymm1, %ymm15, %ymm1
	vmovdqa	.L1_v3_CPI26_7(%rip), %ymm14
	vpshufb	%ymm14, %ymm1, %ymm4
	vpaddq	%ymm4, %ymm8, %ymm1
	vmovdqu	%ymm1, 192(%rsp)
	vpxor	%ymm1, %ymm9, %ymm1
	vpsrlq	$63, %ymm1, %ymm2
	vpaddq	%ymm1, %ymm1, %ymm1
	vpor	%ymm2, %ymm1, %ymm1
	vpaddq	320(%rsp), %ymm10, %ymm2
	vmovdqu	32(%rsp), %ymm7
	vpaddq	%ymm7, %ymm2, %ymm2
	vpxor	%ymm0, %ymm2, %ymm0
	vpshufd	$177, %ymm0, %ymm0
	vpaddq	160(%rsp), %ymm0, %ymm3
	vpxor	%ymm7, %ymm3, %ymm7
	vpshufb	%ymm6, %ymm7, %ymm8
	vmovdqa	%ymm6, %ymm11
	vpaddq	352(%rsp), %ymm2, %ymm2
	vpaddq	%ymm2, %ymm8, %ymm7
	vpxor	%ymm0, %ymm7, %ymm0
	vpshufb	%ymm14, %ymm0, %ymm12
	vpaddq	%ymm3, %ymm12, %ymm3
	vpxor	%ymm3, %ymm8, %ymm0
	vpsrlq	$63, %ymm0, %ymm2
	vpaddq	%ymm0, %ymm0, %ymm0
	vpor	%ymm2, %ymm0, %ymm0
	vmovdqu	(%rsp), %ymm2
	vpaddq	672(%rsp), %ymm2, %ymm2
	vmovdqu	288(%rsp), %ymm6
	vpaddq	%ymm6, %ymm2, %ymm2
	vpxor	256(%rsp), %ymm2, %ymm8
	vpshufd	$177, %ymm8, %ymm8
	vpaddq	128(%rsp), %ymm8, %ymm9
	vpxor	%ymm6, %ymm9, %ymm6
	vpshufb	%ymm11, %ymm6, %ymm6
	vmovdqa	%ymm11, %ymm10
	vpaddq	480(%rsp), %ymm2, %ymm2
	vpaddq	%ymm6, %ymm2, %ymm11
	vpxor	%ymm8, %ymm11, %ymm2
	vpshufb	%ymm14, %ymm2, %ymm8
	vpaddq	%ymm8, %ymm9, %ymm9
	vpxor	%ymm6, %ymm9, %ymm2
	vpsrlq	$63, %ymm2, %ymm6
	vpaddq	%ymm2, %ymm2, %ymm2
	vpor	%ymm6, %ymm2, %ymm2
	vpaddq	768(%rsp), %ymm13, %ymm6
	vpaddq	%ymm1, %ymm6, %ymm6
	vpxor	%ymm6, %ymm8, %ymm8
	vpshufd	$177, %ymm8, %ymm8
	vpaddq	%ymm3, %ymm8, %ymm3
	vpxor	%ymm1, %ymm3, %ymm1
	vpshufb	%ymm10, %ymm1, %ymm1
	vmovdqu	640(%rsp), %ymm10
	vpaddq	%ymm6, %ymm10, %ymm6
	vpaddq	%ymm1, %ymm6, %ymm13
	vpxor	%ymm8, %ymm13, %ymm6
	vpshufb	%ymm14, %ymm6, %ymm6
	vmovdqu	%ymm6, 256(%rsp)
	vpaddq	%ymm6, %ymm3, %ymm3
	vmovdqu	%ymm3, 160(%rsp)
	vpxor	%ymm1, %ymm3, %ymm1
	vpsrlq	$63, %ymm1, %ymm6
	vpaddq	%ymm1, %ymm1, %ymm1
	vpor	%ymm6, %ymm1, %ymm1
	vmovdqu	%ymm1, 32(%rsp)
	vpaddq	512(%rsp), %ymm15, %ymm1
	vpaddq	%ymm0, %ymm1, %ymm1
	vpxor	%ymm5, %ymm1, %ymm5
	vpshufd	$177, %ymm5, %ymm5
	vpaddq	%ymm5, %ymm9, %ymm8
	vpxor	%ymm0, %ymm8, %ymm0
	vmovdqa	.L1_v3_CPI26_6(%rip), %ymm6
	vpshufb	%ymm6, %ymm0, %ymm9
	vpaddq	736(%rsp), %ymm1, %ymm0
	vpaddq	%ymm0, %ymm9, %ymm15
	vpxor	%ymm5, %ymm15, %ymm0
	vpshufb	%ymm14, %ymm0, %ymm0
	vpaddq	%ymm0, %ymm8, %ymm1
	vmovdqu	%ymm1, 128(%rsp)
	vpxor	%ymm1, %ymm9, %ymm1
	vpsrlq	$63, %ymm1, %ymm5
	vpaddq	%ymm1, %ymm1, %ymm1
	vpor	%ymm5, %ymm1, %ymm5
	vpaddq	416(%rsp), %ymm7, %ymm1
	vpaddq	%ymm2, %ymm1, %ymm1
	vpxor	%ymm4, %ymm1, %ymm7
	vpshufd	$177, %ymm7, %ymm8
	vpaddq	224(%rsp), %ymm8, %ymm4
	vpxor	%ymm2, %ymm4, %ymm2
	vpshufb	%ymm6, %ymm2, %ymm2
	vpaddq	704(%rsp), %ymm1, %ymm1
	vpaddq	%ymm2, %ymm1, %ymm7
	vpxor	%ymm7, %ymm8, %ymm1
	vpshufb	%ymm14, %ymm1, %ymm1
	vmovdqa	%ymm14, %ymm3
	vpaddq	%ymm1, %ymm4, %ymm4
	vpxor	%ymm2, %ymm4, %ymm2
	vpsrlq	$63, %ymm2, %ymm8
	vpaddq	%ymm2, %ymm2, %ymm2
	vpor	%ymm2, %ymm8, %ymm2
	vmovdqu	%ymm2, (%rsp)
	vpaddq	384(%rsp), %ymm11, %ymm2
	vmovdqu	64(%rsp), %ymm11
	vpaddq	%ymm2, %ymm11, %ymm2
	vpxor	%ymm2, %ymm12, %ymm8
	vpshufd	$177, %ymm8, %ymm8
	vpaddq	192(%rsp), %ymm8, %ymm9
	vpxor	%ymm11, %ymm9, %ymm11
	vpshufb	%ymm6, %ymm11, %ymm12
	vmovdqu	544(%rsp), %ymm14
	vpaddq	%ymm2, %ymm14, %ymm2
	vpaddq	%ymm2, %ymm12, %ymm11
	vpxor	%ymm8, %ymm11, %ymm2
	vpshufb	%ymm3, %ymm2, %ymm2
	vpaddq	%ymm2, %ymm9, %ymm8
	vpxor	%ymm12, %ymm8, %ymm9
	vpsrlq	$63, %ymm9, %ymm12
	vpaddq	%ymm9, %ymm9, %ymm9
	vpor	%ymm12, %ymm9, %ymm9
	vpaddq	352(%rsp), %ymm13, %ymm12
	vpaddq	%ymm9, %ymm12, %ymm12
	vpxor	%ymm0, %ymm12, %ymm0
	vpshufd	$177, %ymm0, %ymm0
	vpaddq	%ymm4, %ymm0, %ymm4
	vpxor	%ymm4, %ymm9, %ymm9
	vpshufb	%ymm6, %ymm9, %ymm9
	vpaddq	%ymm14, %ymm12, %ymm12
	vpaddq	%ymm9, %ymm12, %ymm13
	vpxor	%ymm0, %ymm13, %ymm0
	vmovdqa	%ymm3, %ymm14
	vpshufb	%ymm3, %ymm0, %ymm12
	vpaddq	%ymm4, %ymm12, %ymm0
	vmovdqu	%ymm0, 224(%rsp)
	vpxor	%ymm0, %ymm9, %ymm0
	vpsrlq	$63, %ymm0, %ymm9
	vpaddq	%ymm0, %ymm0, %ymm0
	vpor	%ymm0, %ymm9, %ymm0
	vmovdqu	%ymm0, 64(%rsp)
	vpaddq	%ymm10, %ymm15, %ymm0
	vmovdqu	32(%rsp), %ymm3
	vpaddq	%ymm3, %ymm0, %ymm0
	vpxor	%ymm1, %ymm0, %ymm1
	vpshufd	$177, %ymm1, %ymm1
	vpaddq	%ymm1, %ymm8, %ymm8
	vpxor	%ymm3, %ymm8, %ymm6
	vmovdqa	.L1_v3_CPI26_6(%rip), %ymm10
	vpshufb	%ymm10, %ymm6, %ymm9
	vpaddq	448(%rsp), %ymm0, %ymm0
	vpaddq	%ymm0, %ymm9, %ymm15
	vpxor	%ymm1, %ymm15, %ymm0
	vpshufb	%ymm14, %ymm0, %ymm6
	vpaddq	%ymm6, %ymm8, %ymm0
	vmovdqu	%ymm0, 192(%rsp)
	vpxor	%ymm0, %ymm9, %ymm0
	vpsrlq	$63, %ymm0, %ymm1
	vpaddq	%ymm0, %ymm0, %ymm0
	vpor	%ymm1, %ymm0, %ymm0
	vpaddq	576(%rsp), %ymm7, %ymm1
	vpaddq	%ymm5, %ymm1, %ymm1
	vpxor	%ymm2, %ymm1, %ymm2
	vpshufd	$177, %ymm2, %ymm2
	vpaddq	160(%rsp), %ymm2, %ymm3
	vpxor	%ymm5, %ymm3, %ymm5
	vpshufb	%ymm10, %ymm5, %ymm8
	vmovdqa	%ymm10, %ymm5
	vpaddq	608(%rsp), %ymm1, %ymm1
	vpaddq	%ymm1, %ymm8, %ymm4
	vpxor	%ymm2, %ymm4, %ymm1
	vpshufb	%ymm14, %ymm1, %ymm1
	vmovdqu	%ymm1, 96(%rsp)
	vpaddq	%ymm1, %ymm3, %ymm3
	vpxor	%ymm3, %ymm8, %ymm1
	vpsrlq	$63, %ymm1, %ymm2
	vpaddq	%ymm1, %ymm1, %ymm1
	vpor	%ymm2, %ymm1, %ymm2
	vpaddq	736(%rsp), %ymm11, %ymm1
	vmovdqu	(%rsp), %ymm7
	vpaddq	%ymm7, %ymm1, %ymm1
	vpxor	256(%rsp), %ymm1, %ymm8
	vpshufd	$177, %ymm8, %ymm8
	vpaddq	128(%rsp), %ymm8, %ymm9
	vpxor	%ymm7, %ymm9, %ymm10
	vmovdqa	%ymm5, %ymm11
	vpshufb	%ymm5, %ymm10, %ymm10
	vpaddq	416(%rsp), %ymm1, %ymm1
	vpaddq	%ymm1, %ymm10, %ymm5
	vpxor	%ymm5, %ymm8, %ymm1
	vpshufb	%ymm14, %ymm1, %ymm8
	vpaddq	%ymm8, %ymm9, %ymm9
	vpxor	%ymm10, %ymm9, %ymm1
	vpsrlq	$63, %ymm1, %ymm10
	vpaddq	%ymm1, %ymm1, %ymm1
	vpor	%ymm1, %ymm10, %ymm1
	vpaddq	864(%rsp), %ymm13, %ymm10
	vpaddq	%ymm0, %ymm10, %ymm10
	vpxor	%ymm8, %ymm10, %ymm8
	vpshufd	$177, %ymm8, %ymm8
	vpaddq	%ymm3, %ymm8, %ymm3
	vpxor	%ymm0, %ymm3, %ymm0
	vpshufb	%ymm11, %ymm0, %ymm0
	vpaddq	768(%rsp), %ymm10, %ymm10
	vpaddq	%ymm0, %ymm10, %ymm13
	vpxor	%ymm8, %ymm13, %ymm8
	vpshufb	%ymm14, %ymm8, %ymm7
	vmovdqu	%ymm7, 256(%rsp)
	vpaddq	%ymm7, %ymm3, %ymm3
	vmovdqu	%ymm3, 160(%rsp)
	vpxor	%ymm0, %ymm3, %ymm0
	vpsrlq	$63, %ymm0, %ymm8
	vpaddq	%ymm0, %ymm0, %ymm0
	vpor	%ymm0, %ymm8, %ymm0
	vmovdqu	%ymm0, 32(%rsp)
	vmovdqu	832(%rsp), %ymm10
	vpaddq	%ymm10, %ymm15, %ymm0
	vpaddq	%ymm2, %ymm0, %ymm0
	vpxor	%ymm0, %ymm12, %ymm8
	vpshufd	$177, %ymm8, %ymm8
	vpaddq	%ymm9, %ymm8, %ymm9
	vpxor	%ymm2, %ymm9, %ymm2
	vpshufb	%ymm11, %ymm2, %ymm12
	vpaddq	672(%rsp), %ymm0, %ymm0
	vpaddq	%ymm0, %ymm12, %ymm15
	vpxor	%ymm8, %ymm15, %ymm0
	vpshufb	%ymm14, %ymm0, %ymm2
	vpaddq	%ymm2, %ymm9, %ymm0
	vmovdqu	%ymm0, 128(%rsp)
	vpxor	%ymm0, %ymm12, %ymm0
	vpsrlq	$63, %ymm0, %ymm8
	vpaddq	%ymm0, %ymm0, %ymm0
	vpor	%ymm0, %ymm8, %ymm0
	vmovdqu	%ymm0, (%rsp)
	vpaddq	384(%rsp), %ymm4, %ymm0
	vpaddq	%ymm1, %ymm0, %ymm0
	vpxor	%ymm6, %ymm0, %ymm6
	vpshufd	$177, %ymm6, %ymm6
	vpaddq	224(%rsp), %ymm6, %ymm4
	vpxor	%ymm1, %ymm4, %ymm1
	vpshufb	%ymm11, %ymm1, %ymm8
	vmovdqa	%ymm11, %ymm7
	vmovdqu	512(%rsp), %ymm1
	vpaddq	%ymm1, %ymm0, %ymm0
	vpaddq	%ymm0, %ymm8, %ymm12
	vpxor	%ymm6, %ymm12, %ymm0
	vpshufb	%ymm14, %ymm0, %ymm11
	vpaddq	%ymm4, %ymm11, %ymm4
	vpxor	%ymm4, %ymm8, %ymm0
	vpsrlq	$63, %ymm0, %ymm6
	vpaddq	%ymm0, %ymm0, %ymm0
	vpor	%ymm6, %ymm0, %ymm0
	vmovdqu	%ymm0, 288(%rsp)
	vpaddq	704(%rsp), %ymm5, %ymm0
	vmovdqu	64(%rsp), %ymm3
	vpaddq	%ymm3, %ymm0, %ymm0
	vpxor	96(%rsp), %ymm0, %ymm5
	vpshufd	$177, %ymm5, %ymm5
	vpaddq	192(%rsp), %ymm5, %ymm8
	vpxor	%ymm3, %ymm8, %ymm9
	vmovdqa	%ymm7, %ymm3
	vpshufb	%ymm7, %ymm9, %ymm9
	vpaddq	480(%rsp), %ymm0, %ymm0
	vpaddq	%ymm0, %ymm9, %ymm6
	vpxor	%ymm5, %ymm6, %ymm0
	vmovdqa	%ymm14, %ymm7
	vpshufb	%ymm14, %ymm0, %ymm0
	vpaddq	%ymm0, %ymm8, %ymm8
	vpxor	%ymm9, %ymm8, %ymm5
	vpsrlq	$63, %ymm5, %ymm9
	vpaddq	%ymm5, %ymm5, %ymm5
	vpor	%ymm5, %ymm9, %ymm5
	vpaddq	%ymm1, %ymm13, %ymm9
	vpaddq	%ymm5, %ymm9, %ymm9
	vpxor	%ymm2, %ymm9, %ymm2
	vpshufd	$177, %ymm2, %ymm2
	vpaddq	%ymm4, %ymm2, %ymm4
	vpxor	%ymm5, %ymm4, %ymm5
	vpshufb	%ymm3, %ymm5, %ymm14
	vpaddq	%ymm10, %ymm9, %ymm5
	vpaddq	%ymm5, %ymm14, %ymm13
	vpxor	%ymm2, %ymm13, %ymm2
	vpshufb	%ymm7, %ymm2, %ymm5
	vpaddq	%ymm5, %ymm4, %ymm1
	vmovdqu	%ymm1, 224(%rsp)
	vpxor	%ymm1, %ymm14, %ymm2
	vpsrlq	$63, %ymm2, %ymm9
	vpaddq	%ymm2, %ymm2, %ymm2
	vpor	%ymm2, %ymm9, %ymm1
	vmovdqu	%ymm1, 64(%rsp)
	vpaddq	448(%rsp), %ymm15, %ymm2
	vmovdqu	32(%rsp), %ymm3
	vpaddq	%ymm3, %ymm2, %ymm2
	vpxor	%ymm2, %ymm11, %ymm1
	vpshufd	$177, %ymm1, %ymm1
	vpaddq	%ymm1, %ymm8, %ymm8
	vpxor	%ymm3, %ymm8, %ymm9
	vmovdqa	.L1_v3_CPI26_6(%rip), %ymm10
	vpshufb	%ymm10, %ymm9, %ymm9
	vpaddq	416(%rsp), %ymm2, %ymm2
	vpaddq	%ymm2, %ymm9, %ymm15
	vpxor	%ymm1, %ymm15, %ymm1
	vmovdqa	%ymm7, %ymm14
	vpshufb	%ymm7, %ymm1, %ymm4
	vpaddq	%ymm4, %ymm8, %ymm1
	vmovdqu	%ymm1, 192(%rsp)
	vpxor	%ymm1, %ymm9, %ymm1
	vpsrlq	$63, %ymm1, %ymm2
	vpaddq	%ymm1, %ymm1, %ymm1
	vpor	%ymm2, %ymm1, %ymm1
	vpaddq	544(%rsp), %ymm12, %ymm2
	vmovdqu	(%rsp), %ymm7
	vpaddq	%ymm7, %ymm2, %ymm2
	vpxor	%ymm0, %ymm2, %ymm0
	vpshufd	$177, %ymm0, %ymm0
	vpaddq	160(%rsp), %ymm0, %ymm3
	vpxor	%ymm7, %ymm3, %ymm7
	vpshufb	%ymm10, %ymm7, %ymm8
	vmovdqa	%ymm10, %ymm12
	vpaddq	736(%rsp), %ymm2, %ymm2
	vpaddq	%ymm2, %ymm8, %ymm7
	vpxor	%ymm0, %ymm7, %ymm0
	vpshufb	%ymm14, %ymm0, %ymm0
	vmovdqu	%ymm0, 32(%rsp)
	vpaddq	%ymm0, %ymm3, %ymm3
	vpxor	%ymm3, %ymm8, %ymm0
	vpsrlq	$63, %ymm0, %ymm2
	vpaddq	%ymm0, %ymm0, %ymm0
	vpor	%ymm2, %ymm0, %ymm0
	vpaddq	768(%rsp), %ymm6, %ymm2
	vmovdqu	288(%rsp), %ymm6
	vpaddq	%ymm6, %ymm2, %ymm2
	vpxor	256(%rsp), %ymm2, %ymm8
	vpshufd	$177, %ymm8, %ymm8
	vpaddq	128(%rsp), %ymm8, %ymm9
	vpxor	%ymm6, %ymm9, %ymm6
	vpshufb	%ymm10, %ymm6, %ymm6
	vpaddq	384(%rsp), %ymm2, %ymm2
	vpaddq	%ymm6, %ymm2, %ymm11
	vpxor	%ymm8, %ymm11, %ymm2
	vpshufb	%ymm14, %ymm2, %ymm8
	vpaddq	%ymm8, %ymm9, %ymm9
	vpxor	%ymm6, %ymm9, %ymm2
	vpsrlq	$63, %ymm2, %ymm6
	vpaddq	%ymm2, %ymm2, %ymm2
	vpor	%ymm6, %ymm2, %ymm10
	vpaddq	576(%rsp), %ymm13, %ymm6
	vpaddq	%ymm1, %ymm6, %ymm6
	vpxor	%ymm6, %ymm8, %ymm8
	vpshufd	$177, %ymm8, %ymm8
	vpaddq	%ymm3, %ymm8, %ymm3
	vpxor	%ymm1, %ymm3, %ymm1
	vpshufb	%ymm12, %ymm1, %ymm1
	vmovdqu	704(%rsp), %ymm13
	vpaddq	%ymm6, %ymm13, %ymm6
	vpaddq	%ymm1, %ymm6, %ymm2
	vmovdqu	%ymm2, 800(%rsp)
	vpxor	%ymm2, %ymm8, %ymm6
	vmovdqa	%ymm14, %ymm2
	vpshufb	%ymm14, %ymm6, %ymm6
	vmovdqu	%ymm6, 256(%rsp)
	vpaddq	%ymm6, %ymm3, %ymm3
	vmovdqu	%ymm3, 160(%rsp)
	vpxor	%ymm1, %ymm3, %ymm1
	vpsrlq	$63, %ymm1, %ymm6
	vpaddq	%ymm1, %ymm1, %ymm1
	vpor	%ymm6, %ymm1, %ymm1
	vmovdqu	%ymm1, 96(%rsp)
	vpaddq	352(%rsp), %ymm15, %ymm1
	vpaddq	%ymm0, %ymm1, %ymm1
	vpxor	%ymm5, %ymm1, %ymm5
	vpshufd	$177, %ymm5, %ymm5
	vpaddq	%ymm5, %ymm9, %ymm8
	vpxor	%ymm0, %ymm8, %ymm0
	vpshufb	%ymm12, %ymm0, %ymm9
	vmovdqu	640(%rsp), %ymm14
	vpaddq	%ymm1, %ymm14, %ymm0
	vpaddq	%ymm0, %ymm9, %ymm15
	vpxor	%ymm5, %ymm15, %ymm0
	vpshufb	%ymm2, %ymm0, %ymm6
	vpaddq	%ymm6, %ymm8, %ymm0
	vmovdqu	%ymm0, 128(%rsp)
	vpxor	%ymm0, %ymm9, %ymm1
	vpsrlq	$63, %ymm1, %ymm5
	vpaddq	%ymm1, %ymm1, %ymm1
	vpor	%ymm5, %ymm1, %ymm0
	vmovdqu	%ymm0, (%rsp)
	vpaddq	608(%rsp), %ymm7, %ymm1
	vpaddq	%ymm1, %ymm10, %ymm1
	vpxor	%ymm4, %ymm1, %ymm7
	vpshufd	$177, %ymm7, %ymm8
	vpaddq	224(%rsp), %ymm8, %ymm4
	vpxor	%ymm4, %ymm10, %ymm2
	vmovdqa	%ymm12, %ymm7
	vpshufb	%ymm12, %ymm2, %ymm9
	vmovdqu	672(%rsp), %ymm3
	vpaddq	%ymm3, %ymm1, %ymm1
	vpaddq	%ymm1, %ymm9, %ymm0
	vmovdqu	%ymm0, 320(%rsp)
	vpxor	%ymm0, %ymm8, %ymm1
	vmovdqa	.L1_v3_CPI26_7(%rip), %ymm2
	vpshufb	%ymm2, %ymm1, %ymm5
	vpaddq	%ymm5, %ymm4, %ymm4
	vpxor	%ymm4, %ymm9, %ymm1
	vpsrlq	$63, %ymm1, %ymm8
	vpaddq	%ymm1, %ymm1, %ymm1
	vpor	%ymm1, %ymm8, %ymm0
	vmovdqu	%ymm0, 288(%rsp)
	vmovdqu	480(%rsp), %ymm0
	vpaddq	%ymm0, %ymm11, %ymm1
	vmovdqu	64(%rsp), %ymm11
	vpaddq	%ymm1, %ymm11, %ymm1
	vpxor	32(%rsp), %ymm1, %ymm8
	vpshufd	$177, %ymm8, %ymm8
	vpaddq	192(%rsp), %ymm8, %ymm9
	vpxor	%ymm11, %ymm9, %ymm11
	vpshufb	%ymm12, %ymm11, %ymm12
	vmovdqa	%ymm7, %ymm10
	vmovdqu	864(%rsp), %ymm7
	vpaddq	%ymm7, %ymm1, %ymm1
	vpaddq	%ymm1, %ymm12, %ymm11
	vpxor	%ymm8, %ymm11, %ymm1
	vpshufb	%ymm2, %ymm1, %ymm1
	vpaddq	%ymm1, %ymm9, %ymm8
	vpxor	%ymm12, %ymm8, %ymm9
	vpsrlq	$63, %ymm9, %ymm12
	vpaddq	%ymm9, %ymm9, %ymm9
	vpor	%ymm12, %ymm9, %ymm9
	vpaddq	800(%rsp), %ymm0, %ymm12
	vpaddq	%ymm9, %ymm12, %ymm12
	vpxor	%ymm6, %ymm12, %ymm0
	vpshufd	$177, %ymm0, %ymm0
	vpaddq	%ymm4, %ymm0, %ymm4
	vpxor	%ymm4, %ymm9, %ymm9
	vpshufb	%ymm10, %ymm9, %ymm9
	vpaddq	%ymm13, %ymm12, %ymm12
	vpaddq	%ymm9, %ymm12, %ymm12
	vpxor	%ymm0, %ymm12, %ymm0
	vmovdqa	%ymm2, %ymm10
	vpshufb	%ymm2, %ymm0, %ymm0
	vmovdqu	%ymm0, 32(%rsp)
	vpaddq	%ymm0, %ymm4, %ymm0
	vmovdqu	%ymm0, 224(%rsp)
	vpxor	%ymm0, %ymm9, %ymm0
	vpsrlq	$63, %ymm0, %ymm9
	vpaddq	%ymm0, %ymm0, %ymm0
	vpor	%ymm0, %ymm9, %ymm0
	vmovdqu	%ymm0, 64(%rsp)
	vpaddq	384(%rsp), %ymm15, %ymm0
	vmovdqu	96(%rsp), %ymm4
	vpaddq	%ymm4, %ymm0, %ymm0
	vpxor	%ymm5, %ymm0, %ymm2
	vpshufd	$177, %ymm2, %ymm2
	vpaddq	%ymm2, %ymm8, %ymm8
	vpxor	%ymm4, %ymm8, %ymm6
	vmovdqa	.L1_v3_CPI26_6(%rip), %ymm13
	vpshufb	%ymm13, %ymm6, %ymm9
	vpaddq	%ymm3, %ymm0, %ymm0
	vpaddq	%ymm0, %ymm9, %ymm15
	vpxor	%ymm2, %ymm15, %ymm0
	vpshufb	%ymm10, %ymm0, %ymm6
	vpaddq	%ymm6, %ymm8, %ymm0
	vmovdqu	%ymm0, 192(%rsp)
	vpxor	%ymm0, %ymm9, %ymm0
	vpsrlq	$63, %ymm0, %ymm2
	vpaddq	%ymm0, %ymm0, %ymm0
	vpor	%ymm2, %ymm0, %ymm2
	vpaddq	320(%rsp), %ymm14, %ymm0
	vmovdqu	(%rsp), %ymm5
	vpaddq	%ymm5, %ymm0, %ymm0
	vpxor	%ymm1, %ymm0, %ymm1
	vpshufd	$177, %ymm1, %ymm1
	vpaddq	160(%rsp), %ymm1, %ymm3
	vpxor	%ymm5, %ymm3, %ymm5
	vpshufb	%ymm13, %ymm5, %ymm8
	vpaddq	512(%rsp), %ymm0, %ymm0
	vpaddq	%ymm0, %ymm8, %ymm4
	vpxor	%ymm1, %ymm4, %ymm0
	vpshufb	%ymm10, %ymm0, %ymm5
	vmovdqa	%ymm10, %ymm14
	vpaddq	%ymm5, %ymm3, %ymm1
	vpxor	%ymm1, %ymm8, %ymm0
	vpsrlq	$63, %ymm0, %ymm3
	vpaddq	%ymm0, %ymm0, %ymm0
	vpor	%ymm3, %ymm0, %ymm3
	vpaddq	608(%rsp), %ymm11, %ymm0
	vmovdqu	288(%rsp), %ymm10
	vpaddq	%ymm0, %ymm10, %ymm0
	vpxor	256(%rsp), %ymm0, %ymm8
	vpshufd	$177, %ymm8, %ymm8
	vpaddq	128(%rsp), %ymm8, %ymm9
	vpxor	%ymm10, %ymm9, %ymm10
	vpshufb	%ymm13, %ymm10, %ymm10
	vpaddq	%ymm7, %ymm0, %ymm0
	vpaddq	%ymm0, %ymm10, %ymm11
	vpxor	%ymm8, %ymm11, %ymm0
	vpshufb	%ymm14, %ymm0, %ymm8
	vpaddq	%ymm8, %ymm9, %ymm9
	vpxor	%ymm10, %ymm9, %ymm0
	vpsrlq	$63, %ymm0, %ymm10
	vpaddq	%ymm0, %ymm0, %ymm0
	vpor	%ymm0, %ymm10, %ymm0
	vpaddq	832(%rsp), %ymm12, %ymm10
	vpaddq	%ymm2, %ymm10, %ymm10
	vpxor	%ymm8, %ymm10, %ymm8
	vpshufd	$177, %ymm8, %ymm8
	vpaddq	%ymm1, %ymm8, %ymm1
	vpxor	%ymm2, %ymm1, %ymm2
	vpshufb	%ymm13, %ymm2, %ymm2
	vmovdqa	%ymm13, %ymm7
	vpaddq	544(%rsp), %ymm10, %ymm10
	vpaddq	%ymm2, %ymm10, %ymm13
	vpxor	%ymm8, %ymm13, %ymm8
	vpshufb	%ymm14, %ymm8, %ymm8
	vmovdqu	%ymm8, 256(%rsp)
	vpaddq	%ymm1, %ymm8, %ymm1
	vmovdqu	%ymm1, 160(%rsp)
	vpxor	%ymm2, %ymm1, %ymm2
	vpsrlq	$63, %ymm2, %ymm8
	vpaddq	%ymm2, %ymm2, %ymm2
	vpor	%ymm2, %ymm8, %ymm1
	vmovdqu	%ymm1, (%rsp)
	vpaddq	416(%rsp), %ymm15, %ymm2
	vpaddq	%ymm3, %ymm2, %ymm2
	vpxor	32(%rsp), %ymm2, %ymm8
	vpshufd	$177, %ymm8, %ymm8
	vpaddq	%ymm9, %ymm8, %ymm9
	vpxor	%ymm3, %ymm9, %ymm3
	vpshufb	%ymm7, %ymm3, %ymm3
	vmovdqa	%ymm7, %ymm1
	vpaddq	448(%rsp), %ymm2, %ymm2
	vpaddq	%ymm3, %ymm2, %ymm15
	vpxor	%ymm8, %ymm15, %ymm2
	vpshufb	%ymm14, %ymm2, %ymm2
	vmovdqa	%ymm14, %ymm12
	vpaddq	%ymm2, %ymm9, %ymm7
	vmovdqu	%ymm7, 128(%rsp)
	vpxor	%ymm3, %ymm7, %ymm3
	vpsrlq	$63, %ymm3, %ymm8
	vpaddq	%ymm3, %ymm3, %ymm3
	vpor	%ymm3, %ymm8, %ymm3
	vmovdqu	%ymm3, 288(%rsp)
	vmovdqu	736(%rsp), %ymm7
	vpaddq	%ymm7, %ymm4, %ymm3
	vpaddq	%ymm0, %ymm3, %ymm3
	vpxor	%ymm6, %ymm3, %ymm6
	vpshufd	$177, %ymm6, %ymm6
	vpaddq	224(%rsp), %ymm6, %ymm4
	vpxor	%ymm0, %ymm4, %ymm0
	vpshufb	%ymm1, %ymm0, %ymm0
	vmovdqa	%ymm1, %ymm14
	vpaddq	576(%rsp), %ymm3, %ymm3
	vpaddq	%ymm0, %ymm3, %ymm10
	vpxor	%ymm6, %ymm10, %ymm3
	vmovdqa	%ymm12, %ymm1
	vpshufb	%ymm12, %ymm3, %ymm3
	vpaddq	%ymm3, %ymm4, %ymm8
	vpxor	%ymm0, %ymm8, %ymm0
	vpsrlq	$63, %ymm0, %ymm4
	vpaddq	%ymm0, %ymm0, %ymm0
	vpor	%ymm4, %ymm0, %ymm6
	vpaddq	352(%rsp), %ymm11, %ymm0
	vmovdqu	64(%rsp), %ymm11
	vpaddq	%ymm0, %ymm11, %ymm0
	vpxor	%ymm5, %ymm0, %ymm4
	vpshufd	$177, %ymm4, %ymm4
	vpaddq	192(%rsp), %ymm4, %ymm9
	vpxor	%ymm11, %ymm9, %ymm5
	vpshufb	%ymm14, %ymm5, %ymm11
	vmovdqa	%ymm14, %ymm12
	vmovdqu	768(%rsp), %ymm14
	vpaddq	%ymm0, %ymm14, %ymm0
	vpaddq	%ymm0, %ymm11, %ymm5
	vpxor	%ymm4, %ymm5, %ymm0
	vpshufb	%ymm1, %ymm0, %ymm4
	vpaddq	%ymm4, %ymm9, %ymm0
	vpxor	%ymm0, %ymm11, %ymm9
	vpsrlq	$63, %ymm9, %ymm11
	vpaddq	%ymm9, %ymm9, %ymm9
	vpor	%ymm11, %ymm9, %ymm9
	vpaddq	%ymm14, %ymm13, %ymm11
	vpaddq	%ymm9, %ymm11, %ymm11
	vpxor	%ymm2, %ymm11, %ymm2
	vpshufd	$177, %ymm2, %ymm2
	vpaddq	%ymm2, %ymm8, %ymm14
	vpxor	%ymm9, %ymm14, %ymm8
	vpshufb	%ymm12, %ymm8, %ymm9
	vpaddq	608(%rsp), %ymm11, %ymm8
	vpaddq	%ymm9, %ymm8, %ymm13
	vpxor	%ymm2, %ymm13, %ymm2
	vmovdqa	%ymm1, %ymm11
	vpshufb	%ymm1, %ymm2, %ymm8
	vpaddq	%ymm8, %ymm14, %ymm1
	vmovdqu	%ymm1, 32(%rsp)
	vpxor	%ymm1, %ymm9, %ymm2
	vpsrlq	$63, %ymm2, %ymm9
	vpaddq	%ymm2, %ymm2, %ymm2
	vpor	%ymm2, %ymm9, %ymm2
	vmovdqu	%ymm2, 192(%rsp)
	vpaddq	704(%rsp), %ymm15, %ymm2
	vmovdqu	(%rsp), %ymm1
	vpaddq	%ymm1, %ymm2, %ymm2
	vpxor	%ymm3, %ymm2, %ymm3
	vpshufd	$177, %ymm3, %ymm3
	vpaddq	%ymm0, %ymm3, %ymm0
	vpxor	%ymm1, %ymm0, %ymm9
	vmovdqa	%ymm12, %ymm14
	vpshufb	%ymm12, %ymm9, %ymm9
	vpaddq	%ymm7, %ymm2, %ymm2
	vpaddq	%ymm2, %ymm9, %ymm15
	vpxor	%ymm3, %ymm15, %ymm2
	vpshufb	%ymm11, %ymm2, %ymm1
	vmovdqu	%ymm1, 96(%rsp)
	vpaddq	%ymm1, %ymm0, %ymm0
	vmovdqu	%ymm0, (%rsp)
	vpxor	%ymm0, %ymm9, %ymm0
	vpsrlq	$63, %ymm0, %ymm3
	vpaddq	%ymm0, %ymm0, %ymm0
	vpor	%ymm3, %ymm0, %ymm2
	vpaddq	672(%rsp), %ymm10, %ymm3
	vmovdqu	288(%rsp), %ymm0
	vpaddq	%ymm0, %ymm3, %ymm3
	vpxor	%ymm4, %ymm3, %ymm4
	vpshufd	$177, %ymm4, %ymm4
	vpaddq	160(%rsp), %ymm4, %ymm7
	vpxor	%ymm0, %ymm7, %ymm1
	vpshufb	%ymm12, %ymm1, %ymm9
	vpaddq	864(%rsp), %ymm3, %ymm1
	vpaddq	%ymm1, %ymm9, %ymm1
	vpxor	%ymm4, %ymm1, %ymm3
	vpshufb	%ymm11, %ymm3, %ymm3
	vpaddq	%ymm3, %ymm7, %ymm7
	vpxor	%ymm7, %ymm9, %ymm4
	vpsrlq	$63, %ymm4, %ymm9
	vpaddq	%ymm4, %ymm4, %ymm4
	vpor	%ymm4, %ymm9, %ymm4
	vpaddq	512(%rsp), %ymm5, %ymm5
	vpaddq	%ymm6, %ymm5, %ymm5
	vpxor	256(%rsp), %ymm5, %ymm9
	vpshufd	$177, %ymm9, %ymm9
	vpaddq	128(%rsp), %ymm9, %ymm12
	vpxor	%ymm6, %ymm12, %ymm6
	vpshufb	%ymm14, %ymm6, %ymm0
	vpaddq	640(%rsp), %ymm5, %ymm5
	vpaddq	%ymm0, %ymm5, %ymm6
	vpxor	%ymm6, %ymm9, %ymm5
	vpshufb	%ymm11, %ymm5, %ymm9
	vpaddq	%ymm9, %ymm12, %ymm12
	vpxor	%ymm0, %ymm12, %ymm0
	vpsrlq	$63, %ymm0, %ymm5
	vpaddq	%ymm0, %ymm0, %ymm0
	vpor	%ymm5, %ymm0, %ymm5
	vpaddq	384(%rsp), %ymm13, %ymm0
	vpaddq	%ymm2, %ymm0, %ymm0
	vpxor	%ymm0, %ymm9, %ymm9
	vpshufd	$177, %ymm9, %ymm9
	vpaddq	%ymm7, %ymm9, %ymm7
	vpxor	%ymm2, %ymm7, %ymm2
	vpshufb	%ymm14, %ymm2, %ymm2
	vpaddq	416(%rsp), %ymm0, %ymm0
	vpaddq	%ymm2, %ymm0, %ymm13
	vpxor	%ymm9, %ymm13, %ymm0
	vpshufb	%ymm11, %ymm0, %ymm0
	vmovdqu	%ymm0, 256(%rsp)
	vpaddq	%ymm0, %ymm7, %ymm0
	vmovdqu	%ymm0, 224(%rsp)
	vpxor	%ymm2, %ymm0, %ymm0
	vpsrlq	$63, %ymm0, %ymm2
	vpaddq	%ymm0, %ymm0, %ymm0
	vpor	%ymm2, %ymm0, %ymm0
	vmovdqu	%ymm0, 128(%rsp)
	vmovdqu	480(%rsp), %ymm7
	vpaddq	%ymm7, %ymm15, %ymm0
	vpaddq	%ymm4, %ymm0, %ymm0
	vpxor	%ymm0, %ymm8, %ymm2
	vpshufd	$177, %ymm2, %ymm2
	vpaddq	%ymm2, %ymm12, %ymm12
	vpxor	%ymm4, %ymm12, %ymm4
	vpshufb	%ymm14, %ymm4, %ymm4
	vpaddq	544(%rsp), %ymm0, %ymm0
	vpaddq	%ymm4, %ymm0, %ymm9
	vpxor	%ymm2, %ymm9, %ymm2
	vmovdqa	%ymm11, %ymm0
	vpshufb	%ymm11, %ymm2, %ymm8
	vpaddq	%ymm8, %ymm12, %ymm2
	vmovdqu	%ymm2, 64(%rsp)
	vpxor	%ymm4, %ymm2, %ymm2
	vpsrlq	$63, %ymm2, %ymm4
	vpaddq	%ymm2, %ymm2, %ymm2
	vpor	%ymm4, %ymm2, %ymm2
	vmovdqu	%ymm2, 160(%rsp)
	vpaddq	576(%rsp), %ymm1, %ymm1
	vpaddq	%ymm5, %ymm1, %ymm1
	vpxor	96(%rsp), %ymm1, %ymm2
	vpshufd	$177, %ymm2, %ymm10
	vpaddq	32(%rsp), %ymm10, %ymm12
	vpxor	%ymm5, %ymm12, %ymm2
	vmovdqa	%ymm14, %ymm4
	vpshufb	%ymm14, %ymm2, %ymm5
	vpaddq	352(%rsp), %ymm1, %ymm1
	vpaddq	%ymm5, %ymm1, %ymm1
	vmovdqu	%ymm1, 32(%rsp)
	vpxor	%ymm1, %ymm10, %ymm1
	vpshufb	%ymm11, %ymm1, %ymm11
	vmovdqa	%ymm0, %ymm14
	vpaddq	%ymm11, %ymm12, %ymm15
	vpxor	%ymm5, %ymm15, %ymm1
	vpsrlq	$63, %ymm1, %ymm5
	vpaddq	%ymm1, %ymm1, %ymm1
	vpor	%ymm5, %ymm1, %ymm0
	vmovdqu	%ymm0, 96(%rsp)
	vmovdqu	448(%rsp), %ymm0
	vpaddq	%ymm0, %ymm6, %ymm1
	vmovdqu	192(%rsp), %ymm10
	vpaddq	%ymm1, %ymm10, %ymm1
	vpxor	%ymm3, %ymm1, %ymm3
	vpshufd	$177, %ymm3, %ymm3
	vpaddq	(%rsp), %ymm3, %ymm6
	vpxor	%ymm6, %ymm10, %ymm10
	vpshufb	%ymm4, %ymm10, %ymm12
	vmovdqa	%ymm4, %ymm2
	vmovdqu	832(%rsp), %ymm4
	vpaddq	%ymm4, %ymm1, %ymm1
	vpaddq	%ymm1, %ymm12, %ymm5
	vpxor	%ymm3, %ymm5, %ymm3
	vpshufb	%ymm14, %ymm3, %ymm3
	vmovdqa	%ymm14, %ymm1
	vpaddq	%ymm3, %ymm6, %ymm10
	vpxor	%ymm12, %ymm10, %ymm6
	vpsrlq	$63, %ymm6, %ymm12
	vpaddq	%ymm6, %ymm6, %ymm6
	vpor	%ymm6, %ymm12, %ymm6
	vpaddq	%ymm0, %ymm13, %ymm12
	vpaddq	%ymm6, %ymm12, %ymm12
	vpxor	%ymm8, %ymm12, %ymm8
	vpaddq	%ymm7, %ymm12, %ymm12
	vpshufd	$177, %ymm8, %ymm8
	vpaddq	%ymm15, %ymm8, %ymm14
	vpxor	%ymm6, %ymm14, %ymm6
	vpshufb	%ymm2, %ymm6, %ymm15
	vpaddq	%ymm15, %ymm12, %ymm13
	vpxor	%ymm8, %ymm13, %ymm6
	vpshufb	%ymm1, %ymm6, %ymm6
	vpaddq	%ymm6, %ymm14, %ymm0
	vmovdqu	%ymm0, 448(%rsp)
	vpxor	%ymm0, %ymm15, %ymm8
	vpsrlq	$63, %ymm8, %ymm12
	vpaddq	%ymm8, %ymm8, %ymm8
	vpor	%ymm12, %ymm8, %ymm0
	vmovdqu	%ymm0, 480(%rsp)
	vpaddq	672(%rsp), %ymm9, %ymm0
	vmovdqu	128(%rsp), %ymm7
	vpaddq	%ymm7, %ymm0, %ymm0
	vpxor	%ymm0, %ymm11, %ymm8
	vpaddq	384(%rsp), %ymm0, %ymm0
	vpshufd	$177, %ymm8, %ymm8
	vpaddq	%ymm10, %ymm8, %ymm10
	vpxor	%ymm7, %ymm10, %ymm7
	vmovdqa	%ymm2, %ymm12
	vpshufb	%ymm2, %ymm7, %ymm11
	vpaddq	%ymm0, %ymm11, %ymm15
	vpxor	%ymm8, %ymm15, %ymm0
	vpshufb	%ymm1, %ymm0, %ymm7
	vpaddq	%ymm7, %ymm10, %ymm0
	vmovdqu	%ymm0, 384(%rsp)
	vpxor	%ymm0, %ymm11, %ymm0
	vpsrlq	$63, %ymm0, %ymm8
	vpaddq	%ymm0, %ymm0, %ymm0
	vpor	%ymm0, %ymm8, %ymm10
	vmovdqu	32(%rsp), %ymm0
	vpaddq	416(%rsp), %ymm0, %ymm0
	vmovdqu	160(%rsp), %ymm11
	vpaddq	%ymm0, %ymm11, %ymm0
	vpxor	%ymm3, %ymm0, %ymm2
	vpaddq	%ymm4, %ymm0, %ymm0
	vpshufd	$177, %ymm2, %ymm3
	vpaddq	224(%rsp), %ymm3, %ymm8
	vpxor	%ymm11, %ymm8, %ymm2
	vpshufb	%ymm12, %ymm2, %ymm4
	vpaddq	%ymm4, %ymm0, %ymm2
	vpxor	%ymm3, %ymm2, %ymm0
	vpshufb	%ymm1, %ymm0, %ymm11
	vmovdqa	%ymm1, %ymm14
	vpaddq	%ymm11, %ymm8, %ymm0
	vpxor	%ymm4, %ymm0, %ymm3
	vpsrlq	$63, %ymm3, %ymm4
	vpaddq	%ymm3, %ymm3, %ymm3
	vpor	%ymm4, %ymm3, %ymm4
	vpaddq	352(%rsp), %ymm5, %ymm1
	vmovdqu	96(%rsp), %ymm5
	vpaddq	%ymm5, %ymm1, %ymm1
	vpxor	256(%rsp), %ymm1, %ymm3
	vpaddq	512(%rsp), %ymm1, %ymm1
	vpshufd	$177, %ymm3, %ymm8
	vpaddq	64(%rsp), %ymm8, %ymm9
	vpxor	%ymm5, %ymm9, %ymm3
	vpshufb	%ymm12, %ymm3, %ymm5
	vpaddq	%ymm5, %ymm1, %ymm3
	vpxor	%ymm3, %ymm8, %ymm1
	vpshufb	%ymm14, %ymm1, %ymm1
	vpaddq	%ymm1, %ymm9, %ymm8
	vpxor	%ymm5, %ymm8, %ymm5
	vpsrlq	$63, %ymm5, %ymm9
	vpaddq	%ymm5, %ymm5, %ymm5
	vpor	%ymm5, %ymm9, %ymm5
	vpaddq	608(%rsp), %ymm13, %ymm9
	vpaddq	%ymm10, %ymm9, %ymm9
	vpxor	%ymm1, %ymm9, %ymm1
	vpaddq	576(%rsp), %ymm9, %ymm9
	vpshufd	$177, %ymm1, %ymm1
	vpaddq	%ymm0, %ymm1, %ymm0
	vpxor	%ymm0, %ymm10, %ymm10
	vpshufb	%ymm12, %ymm10, %ymm13
	vpaddq	%ymm13, %ymm9, %ymm10
	vpxor	%ymm1, %ymm10, %ymm1
	vpshufb	%ymm14, %ymm1, %ymm1
	vmovdqu	%ymm1, 416(%rsp)
	vpaddq	%ymm1, %ymm0, %ymm12
	vpxor	%ymm13, %ymm12, %ymm0
	vpsrlq	$63, %ymm0, %ymm9
	vpaddq	%ymm0, %ymm0, %ymm0
	vpor	%ymm0, %ymm9, %ymm0
	vmovdqu	%ymm0, 352(%rsp)
	vpaddq	768(%rsp), %ymm15, %ymm0
	vpaddq	%ymm4, %ymm0, %ymm0
	vpxor	%ymm6, %ymm0, %ymm6
	vpaddq	704(%rsp), %ymm0, %ymm0
	vpshufd	$177, %ymm6, %ymm6
	vpaddq	%ymm6, %ymm8, %ymm8
	vpxor	%ymm4, %ymm8, %ymm4
	vmovdqa	.L1_v3_CPI26_6(%rip), %ymm13
	vpshufb	%ymm13, %ymm4, %ymm9
	vpaddq	%ymm0, %ymm9, %ymm15
	vpxor	%ymm6, %ymm15, %ymm0
	vpshufb	%ymm14, %ymm0, %ymm4
	vpaddq	%ymm4, %ymm8, %ymm1
	vpxor	%ymm1, %ymm9, %ymm6
	vpsrlq	$63, %ymm6, %ymm8
	vpaddq	%ymm6, %ymm6, %ymm6
	vpor	%ymm6, %ymm8, %ymm6
	vpaddq	544(%rsp), %ymm2, %ymm2
	vpaddq	%ymm5, %ymm2, %ymm2
	vpxor	%ymm7, %ymm2, %ymm7
	vpaddq	640(%rsp), %ymm2, %ymm2
	vpshufd	$177, %ymm7, %ymm8
	vpaddq	448(%rsp), %ymm8, %ymm9
	vpxor	%ymm5, %ymm9, %ymm5
	vpshufb	%ymm13, %ymm5, %ymm5
	vpaddq	%ymm5, %ymm2, %ymm7
	vpxor	%ymm7, %ymm8, %ymm2
	vpshufb	%ymm14, %ymm2, %ymm2
	vpaddq	%ymm2, %ymm9, %ymm8
	vpxor	%ymm5, %ymm8, %ymm5
	vpsrlq	$63, %ymm5, %ymm9
	vpaddq	%ymm5, %ymm5, %ymm5
	vpor	%ymm5, %ymm9, %ymm5
	vpaddq	864(%rsp), %ymm3, %ymm3
	vmovdqu	480(%rsp), %ymm0
	vpaddq	%ymm0, %ymm3, %ymm3
	vpxor	%ymm3, %ymm11, %ymm9
	vpshufd	$177, %ymm9, %ymm9
	vpaddq	384(%rsp), %ymm9, %ymm11
	vpxor	%ymm0, %ymm11, %ymm14
	vpshufb	%ymm13, %ymm14, %ymm14
	vpaddq	736(%rsp), %ymm3, %ymm3
	vpaddq	%ymm3, %ymm14, %ymm3
	vpxor	%ymm3, %ymm9, %ymm9
	vpshufb	.L1_v3_CPI26_7(%rip), %ymm9, %ymm9
	vpaddq	%ymm9, %ymm11, %ymm11
	vpxor	%ymm14, %ymm11, %ymm14
	vpsrlq	$63, %ymm14, %ymm0
	vpaddq	%ymm14, %ymm14, %ymm14
	vpor	%ymm0, %ymm14, %ymm0
	vpxor	1120(%rsp), %ymm10, %ymm10
	vpxor	%ymm8, %ymm10, %ymm8
	vpxor	1056(%rsp), %ymm15, %ymm10
	vpxor	%ymm11, %ymm10, %ymm10
	vpxor	960(%rsp), %ymm7, %ymm7
	vpxor	%ymm7, %ymm12, %ymm7
	vpxor	896(%rsp), %ymm1, %ymm1
	vpxor	%ymm1, %ymm3, %ymm1
	vpxor	1088(%rsp), %ymm4, %ymm3
	vpxor	%ymm3, %ymm0, %ymm0
	vpxor	1024(%rsp), %ymm2, %ymm2
	vpxor	352(%rsp), %ymm2, %ymm2
	vpxor	992(%rsp), %ymm6, %ymm3
	vpxor	%ymm3, %ymm9, %ymm3
	vmovdqu	416(%rsp), %ymm4
	vpxor	928(%rsp), %ymm4, %ymm4
	vpxor	%ymm4, %ymm5, %ymm4
	vmovdqu	%ymm8, (%rdi)
	vmovdqu	%ymm10, 32(%rdi)
	vmovdqu	%ymm7, 64(%rdi)
	vmovdqu	%ymm1, 96(%rdi)
	vmovdqu	%ymm0, 128(%rdi)
	vmovdqu	%ymm2, 160(%rdi)
	vmovdqu	%ymm3, 192(%rdi)
	vmovdqu	%ymm4, 224(%rdi)
	addq	$1160, %rsp
	vzeroupper
	retq
	vj_end	blake2_compress..many..blake2b..compress_each_1_v3

	vj_function	blake2_digest..wiping..scrub_stack..5632_1_v3
	pushq	%rbx
	subq	$3072, %rsp
	movq	$0, (%rsp)
	subq	$2560, %rsp
	movq	%rsp, %rbx
	movl	$5632, %edx
	movq	%rbx, %rdi
	xorl	%esi, %esi
	vj_c_call	memset
	movq	%rbx, %rdi
	callq	blake2_digest..wiping..settle..5632_1_v3
	addq	$5632, %rsp
	popq	%rbx
	retq
	vj_end	blake2_digest..wiping..scrub_stack..5632_1_v3

	vj_function	blake2_digest..wiping..settle..5632_1_v3
	vpxor	%xmm0, %xmm0, %xmm0
	movl	$480, %eax
	vpxor	%xmm1, %xmm1, %xmm1
	vpxor	%xmm2, %xmm2, %xmm2
	vpxor	%xmm3, %xmm3, %xmm3
	.p2align	4
1:
	vpor	-480(%rdi,%rax), %ymm0, %ymm0
	vpor	-448(%rdi,%rax), %ymm1, %ymm1
	vpor	-416(%rdi,%rax), %ymm2, %ymm2
	vpor	-384(%rdi,%rax), %ymm3, %ymm3
	vpor	-352(%rdi,%rax), %ymm0, %ymm0
	vpor	-320(%rdi,%rax), %ymm1, %ymm1
	vpor	-288(%rdi,%rax), %ymm2, %ymm2
	vpor	-256(%rdi,%rax), %ymm3, %ymm3
	vpor	-224(%rdi,%rax), %ymm0, %ymm0
	vpor	-192(%rdi,%rax), %ymm1, %ymm1
	vpor	-160(%rdi,%rax), %ymm2, %ymm2
	vpor	-128(%rdi,%rax), %ymm3, %ymm3
	vpor	-96(%rdi,%rax), %ymm0, %ymm0
	vpor	-64(%rdi,%rax), %ymm1, %ymm1
	vpor	-32(%rdi,%rax), %ymm2, %ymm2
	vpor	(%rdi,%rax), %ymm3, %ymm3
	addq	$512, %rax
	cmpq	$6112, %rax
	jne	1b
	vpor	%ymm0, %ymm1, %ymm0
	vpor	%ymm2, %ymm3, %ymm1
	vpor	%ymm0, %ymm1, %ymm0
	vptest	%ymm0, %ymm0
	je	2f
	pause
2:
	vzeroupper
	retq
	vj_end	blake2_digest..wiping..settle..5632_1_v3

	vj_constants	32
	.p2align	5, 0x0
.L1_v3_CPI29_0:
	.quad	5840696475078001361
	.quad	-7276294671716946913
	.quad	2270897969802886507
	.quad	6620516959819538809
.L1_v3_CPI29_1:
	.byte	255
	.byte	255
	.byte	255
	.byte	255
	.byte	255
	.byte	255
	.byte	255
	.byte	255
	.byte	0
	.byte	0
	.byte	0
	.byte	0
	.byte	0
	.byte	0
	.byte	0
	.byte	0
	.byte	0
	.byte	0
	.byte	255
	.byte	255
	.byte	255
	.byte	255
	.byte	255
	.byte	255
	.byte	255
	.byte	255
	.byte	255
	.byte	255
	.byte	255
	.byte	255
	.byte	255
	.byte	255
.L1_v3_CPI29_2:
	.zero	2
	.zero	2
	.zero	2
	.zero	2
	.short	0
	.short	0
	.short	0
	.short	0
	.short	16385
	.zero	2
	.zero	2
	.zero	2
	.zero	2
	.zero	2
	.zero	2
	.zero	2
.L1_v3_CPI29_3:
	.quad	7640891576956012808
	.quad	-4942790177534073029
	.quad	4354685564936845355
	.quad	-6534734903238641935
.L1_v3_CPI29_4:
	.zero	2
	.zero	2
	.zero	2
	.zero	2
	.short	0
	.short	0
	.short	0
	.short	0
	.short	16384
	.zero	2
	.zero	2
	.zero	2
	.zero	2
	.zero	2
	.zero	2
	.zero	2
	vj_constants	16
	.p2align	4, 0x0
.L1_v3_CPI29_5:
	.short	16385
	.short	0
	.short	0
	.short	0
	.short	0
	.short	0
	.short	0
	.short	0
.L1_v3_CPI29_6:
	.short	16384
	.short	0
	.short	0
	.short	0
	.short	0
	.short	0
	.short	0
	.short	0
	vj_function	blake2_ffi..blake2bp..initialize_1_v3
	pushq	%rbp
	movq	%rsp, %rbp
	pushq	%r15
	pushq	%r14
	pushq	%r13
	pushq	%r12
	pushq	%rbx
	andq	$-32, %rsp
	subq	$2816, %rsp
	movq	%r8, %rbx
	movq	%rcx, %r14
	movq	%rdx, %r8
	movq	24(%rbp), %r12
	movq	%rsi, 24(%rsp)
	leaq	-1(%rsi), %rax
	cmpq	$64, %rax
	setae	%al
	cmpq	$65, %rcx
	setae	%cl
	cmpq	$17, %r9
	setae	%dl
	orb	%cl, %dl
	orb	%al, %dl
	cmpq	$17, %r12
	setae	%al
	orb	%dl, %al
	jne	1f
	movq	%r9, %r13
	movq	%rdi, 16(%rsp)
	movq	16(%rbp), %r15
	vxorps	%xmm0, %xmm0, %xmm0
	vmovaps	%ymm0, 480(%rsp)
	leaq	480(%rsp), %rdi
	movq	%rbx, %rsi
	movq	%r9, %rdx
	movq	%r8, 8(%rsp)
	vzeroupper
	vj_c_call	memcpy
	leaq	496(%rsp), %rdi
	movq	%r15, %rsi
	movq	%r12, %rdx
	vj_c_call	memcpy
	vmovaps	480(%rsp), %ymm0
	vmovaps	%ymm0, 96(%rsp)
	vxorps	%xmm0, %xmm0, %xmm0
	vmovaps	%ymm0, 480(%rsp)
	leaq	480(%rsp), %rdi
	movq	%rbx, %rsi
	movq	%r13, %rdx
	vzeroupper
	vj_c_call	memcpy
	leaq	496(%rsp), %rdi
	movq	%r15, %rsi
	movq	%r12, %rdx
	vj_c_call	memcpy
	vmovaps	480(%rsp), %ymm0
	vmovaps	%ymm0, 32(%rsp)
	vxorps	%xmm0, %xmm0, %xmm0
	vmovaps	%ymm0, 128(%rsp)
	vmovaps	%ymm0, 160(%rsp)
	vmovaps	%ymm0, 192(%rsp)
	vmovaps	%ymm0, 224(%rsp)
	leaq	128(%rsp), %rdi
	movq	8(%rsp), %rsi
	movq	%r14, %rdx
	vzeroupper
	vj_c_call	memcpy
	testq	%r14, %r14
	je	2f
	vmovaps	128(%rsp), %ymm0
	vmovaps	160(%rsp), %ymm1
	vmovaps	192(%rsp), %ymm2
	vmovaps	224(%rsp), %ymm3
	vmovaps	%ymm3, 576(%rsp)
	vmovaps	%ymm2, 544(%rsp)
	vmovaps	%ymm1, 512(%rsp)
	vmovaps	%ymm0, 480(%rsp)
	vmovaps	%ymm0, 608(%rsp)
	vmovaps	%ymm1, 640(%rsp)
	vmovaps	%ymm2, 672(%rsp)
	vmovaps	%ymm3, 704(%rsp)
	vmovaps	%ymm0, 736(%rsp)
	vmovaps	%ymm1, 768(%rsp)
	vmovaps	%ymm2, 800(%rsp)
	vmovaps	%ymm3, 832(%rsp)
	vmovaps	%ymm0, 864(%rsp)
	vmovaps	%ymm1, 896(%rsp)
	vmovaps	%ymm2, 928(%rsp)
	vmovaps	%ymm3, 960(%rsp)
	vxorps	%xmm0, %xmm0, %xmm0
	vmovups	%ymm0, 1864(%rsp)
	vmovups	%ymm0, 1832(%rsp)
	vmovups	%ymm0, 1800(%rsp)
	vmovups	%ymm0, 1768(%rsp)
	vmovups	%ymm0, 1736(%rsp)
	vmovups	%ymm0, 1704(%rsp)
	vmovups	%ymm0, 1672(%rsp)
	vmovups	%ymm0, 1640(%rsp)
	vmovups	%ymm0, 1608(%rsp)
	vmovups	%ymm0, 1576(%rsp)
	vmovups	%ymm0, 1544(%rsp)
	vmovups	%ymm0, 1512(%rsp)
	leaq	1000(%rsp), %rdi
	leaq	480(%rsp), %rsi
	movl	$512, %eax
	movq	%rax, 8(%rsp)
	movl	$512, %edx
	vzeroupper
	vj_c_call	memcpy
	jmp	3f
1:
	movl	$1632, %edx
	xorl	%esi, %esi
	vj_c_call	memset
	movl	$-1, %eax
	jmp	4f
2:
	leaq	1000(%rsp), %rdi
	movq	$0, 8(%rsp)
	movl	$896, %edx
	xorl	%esi, %esi
	vj_c_call	memset
3:
	vmovaps	.L1_v3_CPI29_0(%rip), %ymm0
	shll	$8, %r14d
	movq	24(%rsp), %r15
	leal	(%r14,%r15), %eax
	addl	$33816576, %eax
	vmovd	%eax, %xmm1
	vmovdqa	.L1_v3_CPI29_1(%rip), %ymm2
	vbroadcasti128	.L1_v3_CPI29_5(%rip), %ymm3
	vpblendvb	%ymm2, %ymm1, %ymm3, %ymm3
	vxorps	32(%rsp), %ymm0, %ymm4
	vmovaps	%ymm4, 448(%rsp)
	vmovdqa	.L1_v3_CPI29_3(%rip), %ymm4
	vpxor	%ymm4, %ymm3, %ymm3
	vmovdqa	%ymm3, 416(%rsp)
	vbroadcasti128	.L1_v3_CPI29_6(%rip), %ymm3
	vpblendvb	%ymm2, %ymm1, %ymm3, %ymm1
	vpxor	%ymm4, %ymm1, %ymm1
	vmovdqa	%ymm1, 32(%rsp)
	vxorps	96(%rsp), %ymm0, %ymm0
	vmovaps	%ymm0, 64(%rsp)
	leaq	1896(%rsp), %rdi
	leaq	1000(%rsp), %rsi
	movl	$896, %edx
	vzeroupper
	vj_c_call	memcpy
	vmovdqa	32(%rsp), %ymm0
	vpbroadcastq	%xmm0, %ymm1
	vmovdqa	%ymm1, 96(%rsp)
	movq	16(%rsp), %r14
	vmovdqu	%ymm1, (%r14)
	vpextrq	$1, %xmm0, 32(%r14)
	movabsq	$-4942790177534073032, %r12
	leaq	2(%r12), %rax
	movq	%rax, 40(%r14)
	leaq	1(%r12), %rbx
	movq	%rbx, 48(%r14)
	movq	%r12, 56(%r14)
	vpermq	$170, %ymm0, %ymm1
	vmovdqa	%ymm1, 384(%rsp)
	vmovdqu	%ymm1, 64(%r14)
	vpermq	$255, %ymm0, %ymm1
	vmovdqa	%ymm1, 352(%rsp)
	vmovdqu	%ymm1, 96(%r14)
	vmovaps	64(%rsp), %ymm0
	vbroadcastsd	%xmm0, %ymm1
	vmovaps	%ymm1, 320(%rsp)
	vmovups	%ymm1, 128(%r14)
	vpermpd	$85, %ymm0, %ymm1
	vmovaps	%ymm1, 288(%rsp)
	vmovups	%ymm1, 160(%r14)
	vpermpd	$170, %ymm0, %ymm1
	vmovaps	%ymm1, 256(%rsp)
	vmovups	%ymm1, 192(%r14)
	vpermpd	$255, %ymm0, %ymm0
	vmovaps	%ymm0, 64(%rsp)
	vmovups	%ymm0, 224(%r14)
	movq	$0, 256(%r14)
	movq	8(%rsp), %r13
	movq	%r13, 264(%r14)
	leaq	272(%r14), %rdi
	movl	$896, %edx
	leaq	1896(%rsp), %rsi
	vzeroupper
	vj_c_call	memcpy
	vmovaps	96(%rsp), %ymm0
	vmovups	%ymm0, 1168(%r14)
	vmovdqa	32(%rsp), %ymm0
	vpextrq	$1, %xmm0, 1200(%r14)
	leaq	2(%r12), %rax
	movq	%rax, 1208(%r14)
	movq	%rbx, 1216(%r14)
	movq	%r12, 1224(%r14)
	vmovaps	384(%rsp), %ymm0
	vmovups	%ymm0, 1232(%r14)
	vmovaps	352(%rsp), %ymm0
	vmovups	%ymm0, 1264(%r14)
	vmovaps	320(%rsp), %ymm0
	vmovups	%ymm0, 1296(%r14)
	vmovaps	288(%rsp), %ymm0
	vmovups	%ymm0, 1328(%r14)
	vmovaps	256(%rsp), %ymm0
	vmovups	%ymm0, 1360(%r14)
	vmovaps	64(%rsp), %ymm0
	vmovups	%ymm0, 1392(%r14)
	vmovaps	416(%rsp), %ymm0
	vmovups	%ymm0, 1424(%r14)
	vmovaps	448(%rsp), %ymm0
	vmovups	%ymm0, 1456(%r14)
	movq	%r13, 1488(%r14)
	movq	%r15, 1496(%r14)
	vmovaps	128(%rsp), %ymm0
	vmovaps	160(%rsp), %ymm1
	vmovaps	192(%rsp), %ymm2
	vmovaps	224(%rsp), %ymm3
	vmovups	%ymm0, 1504(%r14)
	vmovups	%ymm1, 1536(%r14)
	vmovups	%ymm2, 1568(%r14)
	vmovups	%ymm3, 1600(%r14)
	xorl	%eax, %eax
4:
	leaq	-40(%rbp), %rsp
	popq	%rbx
	popq	%r12
	popq	%r13
	popq	%r14
	popq	%r15
	popq	%rbp
	vzeroupper
	retq
	vj_end	blake2_ffi..blake2bp..initialize_1_v3

	vj_function	blake2_digest..wiping..scrub_stack..5120_1_v3
	pushq	%rbx
	subq	$3072, %rsp
	movq	$0, (%rsp)
	subq	$2048, %rsp
	movq	%rsp, %rbx
	movl	$5120, %edx
	movq	%rbx, %rdi
	xorl	%esi, %esi
	vj_c_call	memset
	movq	%rbx, %rdi
	callq	blake2_digest..wiping..settle..5120_1_v3
	addq	$5120, %rsp
	popq	%rbx
	retq
	vj_end	blake2_digest..wiping..scrub_stack..5120_1_v3

	vj_function	blake2_digest..wiping..settle..5120_1_v3
	vpxor	%xmm0, %xmm0, %xmm0
	movl	$608, %eax
	vpxor	%xmm1, %xmm1, %xmm1
	vpxor	%xmm2, %xmm2, %xmm2
	vpxor	%xmm3, %xmm3, %xmm3
	.p2align	4
1:
	vpor	-608(%rdi,%rax), %ymm0, %ymm0
	vpor	-576(%rdi,%rax), %ymm1, %ymm1
	vpor	-544(%rdi,%rax), %ymm2, %ymm2
	vpor	-512(%rdi,%rax), %ymm3, %ymm3
	vpor	-480(%rdi,%rax), %ymm0, %ymm0
	vpor	-448(%rdi,%rax), %ymm1, %ymm1
	vpor	-416(%rdi,%rax), %ymm2, %ymm2
	vpor	-384(%rdi,%rax), %ymm3, %ymm3
	vpor	-352(%rdi,%rax), %ymm0, %ymm0
	vpor	-320(%rdi,%rax), %ymm1, %ymm1
	vpor	-288(%rdi,%rax), %ymm2, %ymm2
	vpor	-256(%rdi,%rax), %ymm3, %ymm3
	vpor	-224(%rdi,%rax), %ymm0, %ymm0
	vpor	-192(%rdi,%rax), %ymm1, %ymm1
	vpor	-160(%rdi,%rax), %ymm2, %ymm2
	vpor	-128(%rdi,%rax), %ymm3, %ymm3
	vpor	-96(%rdi,%rax), %ymm0, %ymm0
	vpor	-64(%rdi,%rax), %ymm1, %ymm1
	vpor	-32(%rdi,%rax), %ymm2, %ymm2
	vpor	(%rdi,%rax), %ymm3, %ymm3
	addq	$640, %rax
	cmpq	$5728, %rax
	jne	1b
	vpor	%ymm0, %ymm1, %ymm0
	vpor	%ymm2, %ymm3, %ymm1
	vpor	%ymm0, %ymm1, %ymm0
	vptest	%ymm0, %ymm0
	je	2f
	pause
2:
	vzeroupper
	retq
	vj_end	blake2_digest..wiping..settle..5120_1_v3

	vj_function	blake2_ffi..blake2bp..reset_in_frame_1_v3
	pushq	%r15
	pushq	%r14
	pushq	%rbx
	subq	$1664, %rsp
	movq	%rdi, %rbx
	leaq	1168(%rdi), %r15
	movq	1488(%rdi), %r14
	testq	%r14, %r14
	je	1f
	vmovups	1504(%rbx), %ymm0
	vmovups	1536(%rbx), %ymm1
	vmovups	1568(%rbx), %ymm2
	vmovups	1600(%rbx), %ymm3
	vmovups	%ymm3, 352(%rsp)
	vmovups	%ymm2, 320(%rsp)
	vmovups	%ymm1, 288(%rsp)
	vmovups	%ymm0, 256(%rsp)
	vmovups	1504(%rbx), %ymm0
	vmovups	1536(%rbx), %ymm1
	vmovups	1568(%rbx), %ymm2
	vmovups	1600(%rbx), %ymm3
	vmovups	%ymm3, 480(%rsp)
	vmovups	%ymm2, 448(%rsp)
	vmovups	%ymm1, 416(%rsp)
	vmovups	%ymm0, 384(%rsp)
	vmovups	1504(%rbx), %ymm0
	vmovups	1536(%rbx), %ymm1
	vmovups	1568(%rbx), %ymm2
	vmovups	1600(%rbx), %ymm3
	vmovups	%ymm0, 512(%rsp)
	vmovups	%ymm1, 544(%rsp)
	vmovups	%ymm2, 576(%rsp)
	vmovups	%ymm3, 608(%rsp)
	vmovups	1504(%rbx), %ymm0
	vmovups	1536(%rbx), %ymm1
	vmovups	1568(%rbx), %ymm2
	vmovups	%ymm0, 640(%rsp)
	vmovups	%ymm1, 672(%rsp)
	vmovups	%ymm2, 704(%rsp)
	vmovups	1600(%rbx), %ymm0
	vmovups	%ymm0, 736(%rsp)
	vxorps	%xmm0, %xmm0, %xmm0
	vmovups	%ymm0, 1280(%rsp)
	vmovups	%ymm0, 1312(%rsp)
	vmovups	%ymm0, 1344(%rsp)
	vmovups	%ymm0, 1376(%rsp)
	vmovups	%ymm0, 1408(%rsp)
	vmovups	%ymm0, 1440(%rsp)
	vmovups	%ymm0, 1472(%rsp)
	vmovups	%ymm0, 1504(%rsp)
	vmovups	%ymm0, 1536(%rsp)
	vmovups	%ymm0, 1568(%rsp)
	vmovups	%ymm0, 1600(%rsp)
	vmovups	%ymm0, 1632(%rsp)
	leaq	768(%rsp), %rdi
	leaq	256(%rsp), %rsi
	movl	$512, %edx
	vzeroupper
	vj_c_call	memcpy
	vmovups	(%r15), %ymm0
	vmovups	32(%r15), %ymm1
	vmovups	64(%r15), %ymm2
	vmovups	96(%r15), %ymm3
	vmovups	%ymm0, (%rsp)
	vmovups	%ymm1, 32(%rsp)
	vmovups	%ymm2, 64(%rsp)
	vmovups	%ymm3, 96(%rsp)
	vmovups	128(%r15), %ymm0
	vmovups	%ymm0, 128(%rsp)
	vmovups	160(%r15), %ymm0
	vmovups	%ymm0, 160(%rsp)
	vmovups	192(%r15), %ymm0
	vmovups	%ymm0, 192(%rsp)
	vmovups	224(%r15), %ymm0
	vmovups	%ymm0, 224(%rsp)
	jmp	2f
1:
	vmovups	224(%r15), %ymm0
	vmovups	%ymm0, 224(%rsp)
	vmovups	192(%r15), %ymm0
	vmovups	%ymm0, 192(%rsp)
	vmovups	160(%r15), %ymm0
	vmovups	%ymm0, 160(%rsp)
	vmovups	128(%r15), %ymm0
	vmovups	%ymm0, 128(%rsp)
	vmovups	(%r15), %ymm0
	vmovups	32(%r15), %ymm1
	vmovups	64(%r15), %ymm2
	vmovups	96(%r15), %ymm3
	vmovups	%ymm3, 96(%rsp)
	vmovups	%ymm2, 64(%rsp)
	vmovups	%ymm1, 32(%rsp)
	vmovups	%ymm0, (%rsp)
	leaq	768(%rsp), %rdi
	movl	$896, %edx
	xorl	%esi, %esi
	vzeroupper
	vj_c_call	memset
2:
	vmovups	224(%rsp), %ymm0
	vmovups	%ymm0, 224(%rbx)
	vmovups	192(%rsp), %ymm0
	vmovups	%ymm0, 192(%rbx)
	vmovups	160(%rsp), %ymm0
	vmovups	%ymm0, 160(%rbx)
	vmovups	128(%rsp), %ymm0
	vmovups	%ymm0, 128(%rbx)
	vmovups	(%rsp), %ymm0
	vmovups	32(%rsp), %ymm1
	vmovups	64(%rsp), %ymm2
	vmovups	96(%rsp), %ymm3
	vmovups	%ymm3, 96(%rbx)
	vmovups	%ymm2, 64(%rbx)
	vmovups	%ymm1, 32(%rbx)
	vmovups	%ymm0, (%rbx)
	movq	$0, 256(%rbx)
	movq	%r14, 264(%rbx)
	addq	$272, %rbx
	leaq	768(%rsp), %rsi
	movl	$896, %edx
	movq	%rbx, %rdi
	vzeroupper
	vj_c_call	memcpy
	addq	$1664, %rsp
	popq	%rbx
	popq	%r14
	popq	%r15
	retq
	vj_end	blake2_ffi..blake2bp..reset_in_frame_1_v3

	vj_function	blake2_digest..wiping..scrub_stack..1792_1_v3
	pushq	%rbx
	subq	$1792, %rsp
	movq	%rsp, %rbx
	movl	$1792, %edx
	movq	%rbx, %rdi
	xorl	%esi, %esi
	vj_c_call	memset
	movq	%rbx, %rdi
	callq	blake2_digest..wiping..settle..1792_1_v3
	addq	$1792, %rsp
	popq	%rbx
	retq
	vj_end	blake2_digest..wiping..scrub_stack..1792_1_v3

	vj_function	blake2_digest..wiping..settle..1792_1_v3
	vmovdqu	128(%rdi), %ymm0
	vmovdqu	160(%rdi), %ymm1
	vmovdqu	192(%rdi), %ymm2
	vmovdqu	224(%rdi), %ymm3
	vpor	(%rdi), %ymm0, %ymm0
	vpor	32(%rdi), %ymm1, %ymm1
	vpor	64(%rdi), %ymm2, %ymm2
	vpor	96(%rdi), %ymm3, %ymm3
	vpor	256(%rdi), %ymm0, %ymm0
	vpor	288(%rdi), %ymm1, %ymm1
	vpor	320(%rdi), %ymm2, %ymm2
	vpor	352(%rdi), %ymm3, %ymm3
	vpor	384(%rdi), %ymm0, %ymm0
	vpor	416(%rdi), %ymm1, %ymm1
	vpor	448(%rdi), %ymm2, %ymm2
	vpor	480(%rdi), %ymm3, %ymm3
	vpor	512(%rdi), %ymm0, %ymm0
	vpor	544(%rdi), %ymm1, %ymm1
	vpor	576(%rdi), %ymm2, %ymm2
	vpor	608(%rdi), %ymm3, %ymm3
	vpor	640(%rdi), %ymm0, %ymm0
	vpor	672(%rdi), %ymm1, %ymm1
	vpor	704(%rdi), %ymm2, %ymm2
	vpor	736(%rdi), %ymm3, %ymm3
	vpor	768(%rdi), %ymm0, %ymm0
	vpor	800(%rdi), %ymm1, %ymm1
	vpor	832(%rdi), %ymm2, %ymm2
	vpor	864(%rdi), %ymm3, %ymm3
	vpor	896(%rdi), %ymm0, %ymm0
	vpor	928(%rdi), %ymm1, %ymm1
	vpor	960(%rdi), %ymm2, %ymm2
	vpor	992(%rdi), %ymm3, %ymm3
	vpor	1024(%rdi), %ymm0, %ymm0
	vpor	1056(%rdi), %ymm1, %ymm1
	vpor	1088(%rdi), %ymm2, %ymm2
	vpor	1120(%rdi), %ymm3, %ymm3
	vpor	1152(%rdi), %ymm0, %ymm0
	vpor	1184(%rdi), %ymm1, %ymm1
	vpor	1216(%rdi), %ymm2, %ymm2
	vpor	1248(%rdi), %ymm3, %ymm3
	vpor	1280(%rdi), %ymm0, %ymm0
	vpor	1312(%rdi), %ymm1, %ymm1
	vpor	1344(%rdi), %ymm2, %ymm2
	vpor	1376(%rdi), %ymm3, %ymm3
	vpor	1408(%rdi), %ymm0, %ymm0
	vpor	1440(%rdi), %ymm1, %ymm1
	vpor	1472(%rdi), %ymm2, %ymm2
	vpor	1504(%rdi), %ymm3, %ymm3
	vpor	1536(%rdi), %ymm0, %ymm0
	vpor	1568(%rdi), %ymm1, %ymm1
	vpor	1600(%rdi), %ymm2, %ymm2
	vpor	1632(%rdi), %ymm3, %ymm3
	vpor	1664(%rdi), %ymm0, %ymm0
	vpor	1696(%rdi), %ymm1, %ymm1
	vpor	%ymm0, %ymm1, %ymm0
	vpor	1728(%rdi), %ymm2, %ymm1
	vpor	1760(%rdi), %ymm3, %ymm2
	vpor	%ymm1, %ymm2, %ymm1
	vpor	%ymm0, %ymm1, %ymm0
	vptest	%ymm0, %ymm0
	je	1f
	pause
1:
	vzeroupper
	retq
	vj_end	blake2_digest..wiping..settle..1792_1_v3

	vj_function	blake2_ffi..blake2bp..update_scrubbed_1_v3
	pushq	%rax
	callq	blake2_ffi..blake2bp..update_in_frame_1_v3
	popq	%rax
	jmp	blake2_digest..wiping..scrub_stack..3072_1_v3
	vj_end	blake2_ffi..blake2bp..update_scrubbed_1_v3

	vj_function	blake2_ffi..blake2bp..update_in_frame_1_v3
	vj_jump	blake2_parallel..lanes..blake2bp..Lanes..update_1_v3
	vj_end	blake2_ffi..blake2bp..update_in_frame_1_v3

	vj_function	blake2_digest..wiping..scrub_stack..3072_1_v3
	pushq	%rbx
	subq	$3072, %rsp
	movq	%rsp, %rbx
	movl	$3072, %edx
	movq	%rbx, %rdi
	xorl	%esi, %esi
	vj_c_call	memset
	movq	%rbx, %rdi
	callq	blake2_digest..wiping..settle..3072_1_v3
	addq	$3072, %rsp
	popq	%rbx
	retq
	vj_end	blake2_digest..wiping..scrub_stack..3072_1_v3

	vj_function	blake2_digest..wiping..settle..3072_1_v3
	vmovdqu	128(%rdi), %ymm0
	vmovdqu	160(%rdi), %ymm1
	vmovdqu	192(%rdi), %ymm2
	vmovdqu	224(%rdi), %ymm3
	vpor	(%rdi), %ymm0, %ymm0
	vpor	32(%rdi), %ymm1, %ymm1
	vpor	64(%rdi), %ymm2, %ymm2
	vpor	96(%rdi), %ymm3, %ymm3
	vpor	256(%rdi), %ymm0, %ymm0
	vpor	288(%rdi), %ymm1, %ymm1
	vpor	320(%rdi), %ymm2, %ymm2
	vpor	352(%rdi), %ymm3, %ymm3
	vpor	384(%rdi), %ymm0, %ymm0
	vpor	416(%rdi), %ymm1, %ymm1
	vpor	448(%rdi), %ymm2, %ymm2
	vpor	480(%rdi), %ymm3, %ymm3
	vpor	512(%rdi), %ymm0, %ymm0
	vpor	544(%rdi), %ymm1, %ymm1
	vpor	576(%rdi), %ymm2, %ymm2
	vpor	608(%rdi), %ymm3, %ymm3
	vpor	640(%rdi), %ymm0, %ymm0
	vpor	672(%rdi), %ymm1, %ymm1
	vpor	704(%rdi), %ymm2, %ymm2
	vpor	736(%rdi), %ymm3, %ymm3
	vpor	768(%rdi), %ymm0, %ymm0
	vpor	800(%rdi), %ymm1, %ymm1
	vpor	832(%rdi), %ymm2, %ymm2
	vpor	864(%rdi), %ymm3, %ymm3
	vpor	896(%rdi), %ymm0, %ymm0
	vpor	928(%rdi), %ymm1, %ymm1
	vpor	960(%rdi), %ymm2, %ymm2
	vpor	992(%rdi), %ymm3, %ymm3
	vpor	1024(%rdi), %ymm0, %ymm0
	vpor	1056(%rdi), %ymm1, %ymm1
	vpor	1088(%rdi), %ymm2, %ymm2
	vpor	1120(%rdi), %ymm3, %ymm3
	vpor	1152(%rdi), %ymm0, %ymm0
	vpor	1184(%rdi), %ymm1, %ymm1
	vpor	1216(%rdi), %ymm2, %ymm2
	vpor	1248(%rdi), %ymm3, %ymm3
	vpor	1280(%rdi), %ymm0, %ymm0
	vpor	1312(%rdi), %ymm1, %ymm1
	vpor	1344(%rdi), %ymm2, %ymm2
	vpor	1376(%rdi), %ymm3, %ymm3
	vpor	1408(%rdi), %ymm0, %ymm0
	vpor	1440(%rdi), %ymm1, %ymm1
	vpor	1472(%rdi), %ymm2, %ymm2
	vpor	1504(%rdi), %ymm3, %ymm3
	vpor	1536(%rdi), %ymm0, %ymm0
	vpor	1568(%rdi), %ymm1, %ymm1
	vpor	1600(%rdi), %ymm2, %ymm2
	vpor	1632(%rdi), %ymm3, %ymm3
	vpor	1664(%rdi), %ymm0, %ymm0
	vpor	1696(%rdi), %ymm1, %ymm1
	vpor	1728(%rdi), %ymm2, %ymm2
	vpor	1760(%rdi), %ymm3, %ymm3
	vpor	1792(%rdi), %ymm0, %ymm0
	vpor	1824(%rdi), %ymm1, %ymm1
	vpor	1856(%rdi), %ymm2, %ymm2
	vpor	1888(%rdi), %ymm3, %ymm3
	vpor	1920(%rdi), %ymm0, %ymm0
	vpor	1952(%rdi), %ymm1, %ymm1
	vpor	1984(%rdi), %ymm2, %ymm2
	vpor	2016(%rdi), %ymm3, %ymm3
	vpor	2048(%rdi), %ymm0, %ymm0
	vpor	2080(%rdi), %ymm1, %ymm1
	vpor	2112(%rdi), %ymm2, %ymm2
	vpor	2144(%rdi), %ymm3, %ymm3
	vpor	2176(%rdi), %ymm0, %ymm0
	vpor	2208(%rdi), %ymm1, %ymm1
	vpor	2240(%rdi), %ymm2, %ymm2
	vpor	2272(%rdi), %ymm3, %ymm3
	vpor	2304(%rdi), %ymm0, %ymm0
	vpor	2336(%rdi), %ymm1, %ymm1
	vpor	2368(%rdi), %ymm2, %ymm2
	vpor	2400(%rdi), %ymm3, %ymm3
	vpor	2432(%rdi), %ymm0, %ymm0
	vpor	2464(%rdi), %ymm1, %ymm1
	vpor	2496(%rdi), %ymm2, %ymm2
	vpor	2528(%rdi), %ymm3, %ymm3
	vpor	2560(%rdi), %ymm0, %ymm0
	vpor	2592(%rdi), %ymm1, %ymm1
	vpor	2624(%rdi), %ymm2, %ymm2
	vpor	2656(%rdi), %ymm3, %ymm3
	vpor	2688(%rdi), %ymm0, %ymm0
	vpor	2720(%rdi), %ymm1, %ymm1
	vpor	2752(%rdi), %ymm2, %ymm2
	vpor	2784(%rdi), %ymm3, %ymm3
	vpor	2816(%rdi), %ymm0, %ymm0
	vpor	2848(%rdi), %ymm1, %ymm1
	vpor	2880(%rdi), %ymm2, %ymm2
	vpor	2912(%rdi), %ymm3, %ymm3
	vpor	2944(%rdi), %ymm0, %ymm0
	vpor	2976(%rdi), %ymm1, %ymm1
	vpor	%ymm0, %ymm1, %ymm0
	vpor	3008(%rdi), %ymm2, %ymm1
	vpor	3040(%rdi), %ymm3, %ymm2
	vpor	%ymm1, %ymm2, %ymm1
	vpor	%ymm0, %ymm1, %ymm0
	vptest	%ymm0, %ymm0
	je	1f
	pause
1:
	vzeroupper
	retq
	vj_end	blake2_digest..wiping..settle..3072_1_v3

	vj_shared	blake2_parallel..lanes..blake2bp..Lanes..update_1_v3
	pushq	%rbp
	pushq	%r15
	pushq	%r14
	pushq	%r13
	pushq	%r12
	pushq	%rbx
	subq	$264, %rsp
	movq	%rdx, %rbx
	movq	%rsi, %r15
	movq	%rdi, %r14
	movq	264(%rdi), %r13
	movl	$896, %eax
	subq	%r13, %rax
	cmpq	%rdx, %rax
	jb	11f
1:
	leaq	(%r14,%r13), %rdi
	addq	$272, %rdi
	movq	%rdi, %rax
	subq	%r15, %rax
	cmpq	%rbx, %rax
	jae	20f
	cmpq	$8, %rbx
	jb	2f
	leaq	(%r14,%r13), %rax
	subq	%r15, %rax
	addq	$272, %rax
	cmpq	$128, %rax
	jae	22f
2:
	xorl	%eax, %eax
3:
	movq	%rbx, %rdx
	movq	%rax, %rcx
	andq	$7, %rdx
	je	5f
	movq	%rax, %rcx
	.p2align	4
4:
	movzbl	(%r15,%rcx), %esi
	movb	%sil, (%rdi,%rcx)
	incq	%rcx
	decq	%rdx
	jne	4b
5:
	subq	%rbx, %rax
	cmpq	$-8, %rax
	ja	21f
	leaq	(%r14,%r13), %rax
	addq	$279, %rax
	.p2align	4
6:
	movzbl	(%r15,%rcx), %edx
	movb	%dl, -7(%rax,%rcx)
	movzbl	1(%r15,%rcx), %edx
	movb	%dl, -6(%rax,%rcx)
	movzbl	2(%r15,%rcx), %edx
	movb	%dl, -5(%rax,%rcx)
	movzbl	3(%r15,%rcx), %edx
	movb	%dl, -4(%rax,%rcx)
	movzbl	4(%r15,%rcx), %edx
	movb	%dl, -3(%rax,%rcx)
	movzbl	5(%r15,%rcx), %edx
	movb	%dl, -2(%rax,%rcx)
	movzbl	6(%r15,%rcx), %edx
	movb	%dl, -1(%rax,%rcx)
	movzbl	7(%r15,%rcx), %edx
	movb	%dl, (%rax,%rcx)
	addq	$8, %rcx
	cmpq	%rcx, %rbx
	jne	6b
	jmp	21f
7:
	movq	%r15, %rsi
	movq	%r12, %rdx
	vzeroupper
	vj_c_call	memmove
8:
	subq	%r12, %rbx
	addq	%r12, %r15
	movq	$512, 264(%r14)
9:
	movq	%r14, %rdi
	vzeroupper
	callq	blake2_parallel..lanes..blake2bp..Lanes..compress_held_1_v3
10:
	movq	264(%r14), %r13
	movl	$896, %eax
	subq	%r13, %rax
	cmpq	%rbx, %rax
	jae	1b
11:
	testq	%r13, %r13
	je	12f
	cmpq	$511, %r13
	ja	9b
	movl	$512, %r12d
	subq	%r13, %r12
	leaq	272(%r14), %rax
	leaq	(%rax,%r13), %rdi
	movq	%rdi, %rax
	subq	%r15, %rax
	cmpq	%r12, %rax
	jae	7b
	cmpq	$504, %r13
	jbe	13f
	xorl	%eax, %eax
	jmp	19f
	.p2align	4
12:
	leaq	-385(%rbx), %rbp
	movq	%rbp, %r12
	vmovups	(%r14), %ymm0
	vmovups	32(%r14), %ymm1
	vmovups	64(%r14), %ymm2
	vmovups	96(%r14), %ymm3
	vmovups	128(%r14), %ymm4
	vmovups	160(%r14), %ymm5
	vmovups	192(%r14), %ymm6
	vmovups	224(%r14), %ymm7
	vmovups	%ymm0, 8(%rsp)
	vmovups	%ymm1, 40(%rsp)
	vmovups	%ymm2, 72(%rsp)
	vmovups	%ymm3, 104(%rsp)
	vmovups	%ymm4, 136(%rsp)
	vmovups	%ymm5, 168(%rsp)
	vmovups	%ymm6, 200(%rsp)
	shrq	$9, %r12
	vmovups	%ymm7, 232(%rsp)
	movq	256(%r14), %r13
	leaq	8(%rsp), %rdi
	movq	%r15, %rsi
	movq	%r13, %rdx
	movq	%r12, %rcx
	vzeroupper
	callq	blake2_parallel..lanes..blake2bp..compress_in_lanes_1_v3
	vmovups	8(%rsp), %ymm0
	vmovups	%ymm0, (%r14)
	vmovups	40(%rsp), %ymm0
	vmovups	%ymm0, 32(%r14)
	vmovups	72(%rsp), %ymm0
	vmovups	%ymm0, 64(%r14)
	vmovups	104(%rsp), %ymm0
	vmovups	%ymm0, 96(%r14)
	vmovups	136(%rsp), %ymm0
	vmovups	%ymm0, 128(%r14)
	vmovups	168(%rsp), %ymm0
	vmovups	%ymm0, 160(%r14)
	vmovups	200(%rsp), %ymm0
	vmovups	%ymm0, 192(%r14)
	vmovups	232(%rsp), %ymm0
	vmovups	%ymm0, 224(%r14)
	shlq	$7, %r12
	addq	%r13, %r12
	movq	%r12, 256(%r14)
	andq	$-512, %rbp
	addq	%rbp, %r15
	subq	%rbp, %rbx
	jmp	10b
13:
	cmpq	$64, %rax
	jae	14f
	xorl	%eax, %eax
	jmp	19f
14:
	cmpq	$448, %r13
	jbe	15f
	xorl	%eax, %eax
	jmp	17f
15:
	movl	%r12d, %eax
	vmovups	(%r15), %ymm0
	vmovups	32(%r15), %ymm1
	vmovups	%ymm0, (%rdi)
	andl	$-64, %eax
	vmovups	%ymm1, 32(%rdi)
	cmpq	$64, %rax
	je	16f
	vmovups	64(%r15), %ymm0
	vmovups	96(%r15), %ymm1
	vmovups	%ymm0, 64(%rdi)
	vmovups	%ymm1, 96(%rdi)
	cmpl	$128, %eax
	je	16f
	vmovups	128(%r15), %ymm0
	vmovups	160(%r15), %ymm1
	vmovups	%ymm0, 128(%rdi)
	vmovups	%ymm1, 160(%rdi)
	cmpl	$192, %eax
	je	16f
	vmovups	192(%r15), %ymm0
	vmovups	224(%r15), %ymm1
	vmovups	%ymm0, 192(%rdi)
	vmovups	%ymm1, 224(%rdi)
	cmpl	$256, %eax
	je	16f
	vmovups	256(%r15), %ymm0
	vmovups	288(%r15), %ymm1
	vmovups	%ymm0, 256(%rdi)
	vmovups	%ymm1, 288(%rdi)
	cmpl	$320, %eax
	je	16f
	vmovups	320(%r15), %ymm0
	vmovups	352(%r15), %ymm1
	vmovups	%ymm0, 320(%rdi)
	vmovups	%ymm1, 352(%rdi)
	cmpl	$384, %eax
	je	16f
	vmovups	384(%r15), %ymm0
	vmovups	416(%r15), %ymm1
	vmovups	%ymm0, 384(%rdi)
	vmovups	%ymm1, 416(%rdi)
16:
	cmpl	%eax, %r12d
	je	8b
	testb	$56, %r12b
	je	19f
17:
	movq	%rax, %rcx
	movl	%r12d, %eax
	andl	$-8, %eax
	.p2align	4
18:
	movq	(%r15,%rcx), %rdx
	movq	%rdx, (%rdi,%rcx)
	addq	$8, %rcx
	cmpq	%rcx, %rax
	jne	18b
	cmpl	%eax, %r12d
	je	8b
	.p2align	4
19:
	movzbl	(%r15,%rax), %ecx
	movb	%cl, (%rdi,%rax)
	incq	%rax
	cmpq	%rax, %r12
	jne	19b
	jmp	8b
20:
	movq	%r15, %rsi
	movq	%rbx, %rdx
	vzeroupper
	vj_c_call	memmove
21:
	addq	%rbx, %r13
	movq	%r13, 264(%r14)
	addq	$264, %rsp
	popq	%rbx
	popq	%r12
	popq	%r13
	popq	%r14
	popq	%r15
	popq	%rbp
	vzeroupper
	retq
22:
	cmpq	$128, %rbx
	jae	23f
	xorl	%eax, %eax
	jmp	25f
23:
	movq	%rbx, %rax
	andq	$-128, %rax
	leaq	(%r14,%r13), %rcx
	addq	$368, %rcx
	xorl	%edx, %edx
	.p2align	4
24:
	vmovups	(%r15,%rdx), %ymm0
	vmovups	32(%r15,%rdx), %ymm1
	vmovups	64(%r15,%rdx), %ymm2
	vmovups	96(%r15,%rdx), %ymm3
	vmovups	%ymm0, -96(%rcx,%rdx)
	vmovups	%ymm1, -64(%rcx,%rdx)
	vmovups	%ymm2, -32(%rcx,%rdx)
	vmovups	%ymm3, (%rcx,%rdx)
	subq	$-128, %rdx
	cmpq	%rdx, %rax
	jne	24b
	cmpq	%rax, %rbx
	je	21b
	testb	$120, %bl
	je	3b
25:
	movq	%rax, %rcx
	movq	%rbx, %rax
	andq	$-8, %rax
	.p2align	4
26:
	movq	(%r15,%rcx), %rdx
	movq	%rdx, (%rdi,%rcx)
	addq	$8, %rcx
	cmpq	%rcx, %rax
	jne	26b
	cmpq	%rax, %rbx
	je	21b
	jmp	3b
	vj_end	blake2_parallel..lanes..blake2bp..Lanes..update_1_v3

	vj_constants	8
	.p2align	3, 0x0
.L1_v3_CPI40_0:
	.quad	7640891576956012808
.L1_v3_CPI40_3:
	.quad	-7276294671716946913
.L1_v3_CPI40_4:
	.quad	-4942790177534073029
.L1_v3_CPI40_5:
	.quad	2270897969802886507
.L1_v3_CPI40_6:
	.quad	4354685564936845355
.L1_v3_CPI40_7:
	.quad	6620516959819538809
.L1_v3_CPI40_8:
	.quad	-6534734903238641935
	vj_constants	32
	.p2align	5, 0x0
.L1_v3_CPI40_1:
	.byte	3
	.byte	4
	.byte	5
	.byte	6
	.byte	7
	.byte	0
	.byte	1
	.byte	2
	.byte	11
	.byte	12
	.byte	13
	.byte	14
	.byte	15
	.byte	8
	.byte	9
	.byte	10
	.byte	19
	.byte	20
	.byte	21
	.byte	22
	.byte	23
	.byte	16
	.byte	17
	.byte	18
	.byte	27
	.byte	28
	.byte	29
	.byte	30
	.byte	31
	.byte	24
	.byte	25
	.byte	26
.L1_v3_CPI40_2:
	.byte	2
	.byte	3
	.byte	4
	.byte	5
	.byte	6
	.byte	7
	.byte	0
	.byte	1
	.byte	10
	.byte	11
	.byte	12
	.byte	13
	.byte	14
	.byte	15
	.byte	8
	.byte	9
	.byte	18
	.byte	19
	.byte	20
	.byte	21
	.byte	22
	.byte	23
	.byte	16
	.byte	17
	.byte	26
	.byte	27
	.byte	28
	.byte	29
	.byte	30
	.byte	31
	.byte	24
	.byte	25
	vj_function	blake2_parallel..lanes..blake2bp..compress_in_lanes_1_v3
	subq	$1160, %rsp
	vmovdqu	(%rdi), %ymm13
	vmovdqu	32(%rdi), %ymm8
	vmovups	64(%rdi), %ymm0
	vmovups	%ymm0, 896(%rsp)
	vmovdqu	96(%rdi), %ymm3
	vmovdqu	128(%rdi), %ymm10
	vmovdqu	160(%rdi), %ymm11
	vmovups	192(%rdi), %ymm0
	vmovups	%ymm0, 928(%rsp)
	vmovdqu	224(%rdi), %ymm0
	vmovdqu	%ymm0, 864(%rsp)
	testq	%rcx, %rcx
	je	2f
	shlq	$7, %rcx
	subq	$-128, %rdx
	xorl	%eax, %eax
	.p2align	4
1:
	vmovdqu	%ymm8, 992(%rsp)
	vmovdqu	%ymm3, 960(%rsp)
	vmovdqa	%ymm13, %ymm8
	vmovdqu	%ymm13, 1056(%rsp)
	vmovdqu	%ymm11, 1088(%rsp)
	vmovdqu	%ymm10, 1120(%rsp)
	vmovdqu	(%rsi,%rax,4), %ymm0
	vmovdqu	32(%rsi,%rax,4), %ymm1
	vmovdqu	128(%rsi,%rax,4), %ymm2
	vmovdqu	160(%rsi,%rax,4), %ymm3
	vmovdqu	256(%rsi,%rax,4), %ymm4
	vmovdqu	288(%rsi,%rax,4), %ymm5
	vmovdqu	384(%rsi,%rax,4), %ymm6
	vpunpcklqdq	%ymm2, %ymm0, %ymm7
	vpunpckhqdq	%ymm2, %ymm0, %ymm0
	vpunpcklqdq	%ymm6, %ymm4, %ymm2
	vpunpckhqdq	%ymm6, %ymm4, %ymm4
	vinserti128	$1, %xmm2, %ymm7, %ymm13
	vmovdqu	%ymm13, 768(%rsp)
	vperm2i128	$49, %ymm2, %ymm7, %ymm7
	vmovdqu	%ymm7, 608(%rsp)
	vpunpcklqdq	%ymm3, %ymm1, %ymm2
	vpunpckhqdq	%ymm3, %ymm1, %ymm1
	vmovdqu	416(%rsi,%rax,4), %ymm3
	vpunpcklqdq	%ymm3, %ymm5, %ymm6
	vpunpckhqdq	%ymm3, %ymm5, %ymm3
	vinserti128	$1, %xmm4, %ymm0, %ymm14
	vmovdqu	%ymm14, 672(%rsp)
	vperm2i128	$49, %ymm4, %ymm0, %ymm12
	vmovdqu	%ymm12, 704(%rsp)
	vinserti128	$1, %xmm6, %ymm2, %ymm15
	vmovdqu	%ymm15, 736(%rsp)
	vperm2i128	$49, %ymm6, %ymm2, %ymm0
	vmovdqu	%ymm0, 544(%rsp)
	vmovups	64(%rsi,%rax,4), %ymm0
	vmovups	192(%rsi,%rax,4), %ymm2
	vunpcklpd	%ymm2, %ymm0, %ymm4
	vunpckhpd	%ymm2, %ymm0, %ymm0
	vmovups	320(%rsi,%rax,4), %ymm2
	vmovups	448(%rsi,%rax,4), %ymm5
	vunpcklpd	%ymm5, %ymm2, %ymm6
	vunpckhpd	%ymm5, %ymm2, %ymm2
	vinserti128	$1, %xmm3, %ymm1, %ymm9
	vmovdqu	%ymm9, 832(%rsp)
	vperm2i128	$49, %ymm3, %ymm1, %ymm1
	vmovdqu	%ymm1, 512(%rsp)
	vinsertf128	$1, %xmm6, %ymm4, %ymm1
	vmovups	%ymm1, 384(%rsp)
	vperm2f128	$49, %ymm6, %ymm4, %ymm1
	vmovups	%ymm1, 480(%rsp)
	vmovups	96(%rsi,%rax,4), %ymm1
	vmovups	224(%rsi,%rax,4), %ymm3
	vunpcklpd	%ymm3, %ymm1, %ymm4
	vunpckhpd	%ymm3, %ymm1, %ymm1
	vmovups	352(%rsi,%rax,4), %ymm3
	vmovups	480(%rsi,%rax,4), %ymm5
	vunpcklpd	%ymm5, %ymm3, %ymm6
	vunpckhpd	%ymm5, %ymm3, %ymm3
	vinsertf128	$1, %xmm2, %ymm0, %ymm5
	vmovups	%ymm5, 416(%rsp)
	vperm2f128	$49, %ymm2, %ymm0, %ymm0
	vmovups	%ymm0, 576(%rsp)
	vinsertf128	$1, %xmm6, %ymm4, %ymm0
	vmovups	%ymm0, 640(%rsp)
	vperm2f128	$49, %ymm6, %ymm4, %ymm0
	vmovups	%ymm0, 448(%rsp)
	vinsertf128	$1, %xmm3, %ymm1, %ymm0
	vmovups	%ymm0, 320(%rsp)
	vperm2f128	$49, %ymm3, %ymm1, %ymm0
	vmovups	%ymm0, 800(%rsp)
	leaq	(%rdx,%rax), %r8
	movabsq	$5840696475078001361, %r9
	xorq	%r8, %r9
	vmovq	%r9, %xmm0
	vpbroadcastq	%xmm0, %ymm0
	vpaddq	%ymm10, %ymm8, %ymm1
	vpaddq	%ymm1, %ymm13, %ymm1
	vpxor	%ymm0, %ymm1, %ymm0
	vpshufd	$177, %ymm0, %ymm0
	vpbroadcastq	.L1_v3_CPI40_0(%rip), %ymm2
	vpaddq	%ymm2, %ymm0, %ymm2
	vpxor	%ymm2, %ymm10, %ymm3
	vmovdqa	.L1_v3_CPI40_1(%rip), %ymm5
	vpshufb	%ymm5, %ymm3, %ymm3
	vpaddq	%ymm1, %ymm14, %ymm1
	vpaddq	%ymm3, %ymm1, %ymm6
	vpxor	%ymm0, %ymm6, %ymm0
	vmovdqa	.L1_v3_CPI40_2(%rip), %ymm8
	vpshufb	%ymm8, %ymm0, %ymm0
	vmovdqu	%ymm0, 96(%rsp)
	vpaddq	%ymm0, %ymm2, %ymm0
	vmovdqu	%ymm0, 192(%rsp)
	vpxor	%ymm3, %ymm0, %ymm0
	vpsrlq	$63, %ymm0, %ymm2
	vpaddq	%ymm0, %ymm0, %ymm0
	vpor	%ymm2, %ymm0, %ymm0
	vmovdqu	%ymm0, 224(%rsp)
	vpaddq	992(%rsp), %ymm11, %ymm0
	vpaddq	%ymm7, %ymm0, %ymm0
	vpbroadcastq	.L1_v3_CPI40_3(%rip), %ymm2
	vpxor	%ymm2, %ymm0, %ymm2
	vpshufd	$177, %ymm2, %ymm2
	vpbroadcastq	.L1_v3_CPI40_4(%rip), %ymm3
	vpaddq	%ymm3, %ymm2, %ymm4
	vpxor	%ymm4, %ymm11, %ymm3
	vpshufb	%ymm5, %ymm3, %ymm7
	vpaddq	%ymm0, %ymm12, %ymm0
	vpaddq	%ymm7, %ymm0, %ymm13
	vpxor	%ymm2, %ymm13, %ymm0
	vpshufb	%ymm8, %ymm0, %ymm14
	vmovdqa	%ymm8, %ymm11
	vpaddq	%ymm4, %ymm14, %ymm0
	vmovdqu	%ymm0, 160(%rsp)
	vpxor	%ymm7, %ymm0, %ymm0
	vpsrlq	$63, %ymm0, %ymm2
	vpaddq	%ymm0, %ymm0, %ymm0
	vpor	%ymm2, %ymm0, %ymm3
	vmovdqu	928(%rsp), %ymm8
	vpaddq	896(%rsp), %ymm8, %ymm0
	vpaddq	%ymm0, %ymm15, %ymm0
	vpbroadcastq	.L1_v3_CPI40_5(%rip), %ymm4
	vpxor	%ymm4, %ymm0, %ymm4
	vpshufd	$177, %ymm4, %ymm4
	vpbroadcastq	.L1_v3_CPI40_6(%rip), %ymm7
	vpaddq	%ymm7, %ymm4, %ymm7
	vpaddq	%ymm0, %ymm9, %ymm0
	vpxor	%ymm7, %ymm8, %ymm8
	vpshufb	%ymm5, %ymm8, %ymm10
	vpaddq	%ymm0, %ymm10, %ymm9
	vpxor	%ymm4, %ymm9, %ymm0
	vpshufb	%ymm11, %ymm0, %ymm15
	vpaddq	%ymm7, %ymm15, %ymm4
	vpxor	%ymm4, %ymm10, %ymm0
	vpsrlq	$63, %ymm0, %ymm7
	vpaddq	%ymm0, %ymm0, %ymm0
	vpor	%ymm7, %ymm0, %ymm8
	vmovdqu	864(%rsp), %ymm2
	vpaddq	960(%rsp), %ymm2, %ymm0
	vpaddq	544(%rsp), %ymm0, %ymm1
	vpbroadcastq	.L1_v3_CPI40_7(%rip), %ymm10
	vpxor	%ymm1, %ymm10, %ymm10
	vpshufd	$177, %ymm10, %ymm10
	vpbroadcastq	.L1_v3_CPI40_8(%rip), %ymm11
	vpaddq	%ymm11, %ymm10, %ymm12
	vpxor	%ymm2, %ymm12, %ymm11
	vpshufb	%ymm5, %ymm11, %ymm0
	vpaddq	512(%rsp), %ymm1, %ymm1
	vpaddq	%ymm0, %ymm1, %ymm11
	vpxor	%ymm10, %ymm11, %ymm1
	vmovdqa	.L1_v3_CPI40_2(%rip), %ymm7
	vpshufb	%ymm7, %ymm1, %ymm1
	vpaddq	%ymm1, %ymm12, %ymm2
	vpxor	%ymm0, %ymm2, %ymm0
	vpsrlq	$63, %ymm0, %ymm10
	vpaddq	%ymm0, %ymm0, %ymm0
	vpor	%ymm0, %ymm10, %ymm0
	vpaddq	384(%rsp), %ymm6, %ymm6
	vpaddq	%ymm3, %ymm6, %ymm6
	vpxor	%ymm1, %ymm6, %ymm1
	vpshufd	$177, %ymm1, %ymm1
	vpaddq	%ymm4, %ymm1, %ymm10
	vpxor	%ymm3, %ymm10, %ymm3
	vmovdqa	%ymm5, %ymm12
	vpshufb	%ymm5, %ymm3, %ymm3
	vpaddq	416(%rsp), %ymm6, %ymm4
	vpaddq	%ymm3, %ymm4, %ymm4
	vpxor	%ymm1, %ymm4, %ymm1
	vpshufb	%ymm7, %ymm1, %ymm1
	vmovdqu	%ymm1, 256(%rsp)
	vpaddq	%ymm1, %ymm10, %ymm1
	vmovdqu	%ymm1, 128(%rsp)
	vpxor	%ymm3, %ymm1, %ymm1
	vpsrlq	$63, %ymm1, %ymm3
	vpaddq	%ymm1, %ymm1, %ymm1
	vpor	%ymm3, %ymm1, %ymm1
	vmovdqu	%ymm1, (%rsp)
	vmovdqu	480(%rsp), %ymm7
	vpaddq	%ymm7, %ymm13, %ymm1
	vpaddq	%ymm1, %ymm8, %ymm1
	vpxor	96(%rsp), %ymm1, %ymm3
	vpshufd	$177, %ymm3, %ymm5
	vpaddq	%ymm2, %ymm5, %ymm2
	vpxor	%ymm2, %ymm8, %ymm3
	vpshufb	%ymm12, %ymm3, %ymm6
	vpaddq	576(%rsp), %ymm1, %ymm1
	vpaddq	%ymm6, %ymm1, %ymm1
	vmovdqu	%ymm1, 64(%rsp)
	vpxor	%ymm5, %ymm1, %ymm1
	vmovdqa	.L1_v3_CPI40_2(%rip), %ymm3
	vpshufb	%ymm3, %ymm1, %ymm1
	vpaddq	%ymm1, %ymm2, %ymm2
	vmovdqu	%ymm2, 96(%rsp)
	vpxor	%ymm6, %ymm2, %ymm2
	vpsrlq	$63, %ymm2, %ymm5
	vpaddq	%ymm2, %ymm2, %ymm2
	vpor	%ymm5, %ymm2, %ymm2
	vmovdqu	%ymm2, 288(%rsp)
	vpaddq	640(%rsp), %ymm9, %ymm2
	vpaddq	%ymm0, %ymm2, %ymm2
	vpxor	%ymm2, %ymm14, %ymm6
	vpshufd	$177, %ymm6, %ymm6
	vpaddq	192(%rsp), %ymm6, %ymm13
	vpxor	%ymm0, %ymm13, %ymm0
	vpshufb	%ymm12, %ymm0, %ymm14
	vmovdqu	320(%rsp), %ymm10
	vpaddq	%ymm2, %ymm10, %ymm0
	vpaddq	%ymm0, %ymm14, %ymm0
	vmovdqu	%ymm0, 352(%rsp)
	vpxor	%ymm6, %ymm0, %ymm0
	vpshufb	%ymm3, %ymm0, %ymm8
	vpaddq	%ymm8, %ymm13, %ymm13
	vpxor	%ymm14, %ymm13, %ymm2
	vpsrlq	$63, %ymm2, %ymm6
	vpaddq	%ymm2, %ymm2, %ymm2
	vpor	%ymm6, %ymm2, %ymm0
	vmovdqu	%ymm0, 32(%rsp)
	vmovdqu	448(%rsp), %ymm0
	vpaddq	%ymm0, %ymm11, %ymm2
	vmovdqu	224(%rsp), %ymm6
	vpaddq	%ymm6, %ymm2, %ymm2
	vpxor	%ymm2, %ymm15, %ymm9
	vpshufd	$177, %ymm9, %ymm9
	vpaddq	160(%rsp), %ymm9, %ymm11
	vpxor	%ymm6, %ymm11, %ymm14
	vpshufb	%ymm12, %ymm14, %ymm14
	vmovdqu	800(%rsp), %ymm6
	vpaddq	%ymm6, %ymm2, %ymm2
	vpaddq	%ymm2, %ymm14, %ymm15
	vpxor	%ymm9, %ymm15, %ymm2
	vpshufb	%ymm3, %ymm2, %ymm5
	vpaddq	%ymm5, %ymm11, %ymm11
	vpxor	%ymm14, %ymm11, %ymm9
	vpsrlq	$63, %ymm9, %ymm14
	vpaddq	%ymm9, %ymm9, %ymm9
	vpor	%ymm14, %ymm9, %ymm9
	vpaddq	%ymm0, %ymm4, %ymm4
	vpaddq	%ymm4, %ymm9, %ymm4
	vpxor	%ymm1, %ymm4, %ymm1
	vpshufd	$177, %ymm1, %ymm1
	vpaddq	%ymm1, %ymm13, %ymm14
	vpxor	%ymm9, %ymm14, %ymm9
	vpshufb	%ymm12, %ymm9, %ymm0
	vpaddq	%ymm7, %ymm4, %ymm4
	vpaddq	%ymm0, %ymm4, %ymm13
	vpxor	%ymm1, %ymm13, %ymm1
	vmovdqa	%ymm3, %ymm2
	vpshufb	%ymm3, %ymm1, %ymm9
	vpaddq	%ymm9, %ymm14, %ymm1
	vmovdqu	%ymm1, 160(%rsp)
	vpxor	%ymm0, %ymm1, %ymm0
	vpsrlq	$63, %ymm0, %ymm1
	vpaddq	%ymm0, %ymm0, %ymm0
	vpor	%ymm1, %ymm0, %ymm0
	vmovdqu	%ymm0, 192(%rsp)
	vmovdqu	64(%rsp), %ymm0
	vpaddq	736(%rsp), %ymm0, %ymm0
	vmovdqu	(%rsp), %ymm4
	vpaddq	%ymm4, %ymm0, %ymm0
	vpxor	%ymm0, %ymm8, %ymm1
	vpshufd	$177, %ymm1, %ymm3
	vpaddq	%ymm3, %ymm11, %ymm7
	vpxor	%ymm4, %ymm7, %ymm1
	vmovdqa	%ymm12, %ymm14
	vpshufb	%ymm12, %ymm1, %ymm11
	vpaddq	384(%rsp), %ymm0, %ymm0
	vpaddq	%ymm0, %ymm11, %ymm4
	vpxor	%ymm3, %ymm4, %ymm0
	vpshufb	%ymm2, %ymm0, %ymm0
	vmovdqu	%ymm0, 64(%rsp)
	vmovdqa	%ymm2, %ymm12
	vpaddq	%ymm0, %ymm7, %ymm0
	vmovdqu	%ymm0, (%rsp)
	vpxor	%ymm0, %ymm11, %ymm0
	vpsrlq	$63, %ymm0, %ymm3
	vpaddq	%ymm0, %ymm0, %ymm0
	vpor	%ymm3, %ymm0, %ymm1
	vmovdqu	352(%rsp), %ymm0
	vpaddq	416(%rsp), %ymm0, %ymm3
	vmovdqu	288(%rsp), %ymm0
	vpaddq	%ymm0, %ymm3, %ymm3
	vpxor	%ymm5, %ymm3, %ymm2
	vpshufd	$177, %ymm2, %ymm2
	vpaddq	128(%rsp), %ymm2, %ymm7
	vpxor	%ymm0, %ymm7, %ymm5
	vpshufb	%ymm14, %ymm5, %ymm5
	vmovdqa	%ymm14, %ymm8
	vpaddq	%ymm6, %ymm3, %ymm3
	vpaddq	%ymm5, %ymm3, %ymm14
	vpxor	%ymm2, %ymm14, %ymm2
	vmovdqa	%ymm12, %ymm0
	vpshufb	%ymm12, %ymm2, %ymm2
	vmovdqu	%ymm2, 352(%rsp)
	vpaddq	%ymm2, %ymm7, %ymm2
	vpxor	%ymm5, %ymm2, %ymm5
	vpsrlq	$63, %ymm5, %ymm7
	vpaddq	%ymm5, %ymm5, %ymm5
	vpor	%ymm7, %ymm5, %ymm5
	vpaddq	%ymm10, %ymm15, %ymm7
	vmovdqu	32(%rsp), %ymm3
	vpaddq	%ymm3, %ymm7, %ymm7
	vpxor	256(%rsp), %ymm7, %ymm11
	vpshufd	$177, %ymm11, %ymm11
	vpaddq	96(%rsp), %ymm11, %ymm12
	vpxor	%ymm3, %ymm12, %ymm6
	vmovdqa	%ymm8, %ymm10
	vpshufb	%ymm8, %ymm6, %ymm6
	vpaddq	544(%rsp), %ymm7, %ymm7
	vpaddq	%ymm6, %ymm7, %ymm7
	vpxor	%ymm7, %ymm11, %ymm11
	vpshufb	%ymm0, %ymm11, %ymm11
	vmovdqa	%ymm0, %ymm8
	vpaddq	%ymm11, %ymm12, %ymm0
	vpxor	%ymm6, %ymm0, %ymm6
	vpsrlq	$63, %ymm6, %ymm12
	vpaddq	%ymm6, %ymm6, %ymm6
	vpor	%ymm6, %ymm12, %ymm6
	vpaddq	672(%rsp), %ymm13, %ymm12
	vpaddq	%ymm1, %ymm12, %ymm12
	vpxor	%ymm11, %ymm12, %ymm11
	vpshufd	$177, %ymm11, %ymm11
	vpaddq	%ymm2, %ymm11, %ymm2
	vpxor	%ymm1, %ymm2, %ymm1
	vpshufb	%ymm10, %ymm1, %ymm1
	vmovdqu	640(%rsp), %ymm15
	vpaddq	%ymm15, %ymm12, %ymm12
	vpaddq	%ymm1, %ymm12, %ymm13
	vpxor	%ymm11, %ymm13, %ymm11
	vpshufb	%ymm8, %ymm11, %ymm3
	vmovdqu	%ymm3, 224(%rsp)
	vmovdqa	%ymm8, %ymm11
	vpaddq	%ymm3, %ymm2, %ymm2
	vmovdqu	%ymm2, 128(%rsp)
	vpxor	%ymm1, %ymm2, %ymm1
	vpsrlq	$63, %ymm1, %ymm2
	vpaddq	%ymm1, %ymm1, %ymm1
	vpor	%ymm2, %ymm1, %ymm1
	vmovdqu	%ymm1, 32(%rsp)
	vmovdqu	768(%rsp), %ymm12
	vpaddq	%ymm4, %ymm12, %ymm1
	vpaddq	%ymm5, %ymm1, %ymm1
	vpxor	%ymm1, %ymm9, %ymm2
	vpshufd	$177, %ymm2, %ymm2
	vpaddq	%ymm0, %ymm2, %ymm4
	vpxor	%ymm5, %ymm4, %ymm0
	vmovdqa	%ymm10, %ymm5
	vpshufb	%ymm10, %ymm0, %ymm9
	vpaddq	608(%rsp), %ymm1, %ymm0
	vpaddq	%ymm0, %ymm9, %ymm0
	vmovdqu	%ymm0, 1024(%rsp)
	vpxor	%ymm2, %ymm0, %ymm0
	vpshufb	%ymm8, %ymm0, %ymm8
	vmovdqa	%ymm11, %ymm1
	vpaddq	%ymm4, %ymm8, %ymm0
	vmovdqu	%ymm0, 96(%rsp)
	vpxor	%ymm0, %ymm9, %ymm2
	vpsrlq	$63, %ymm2, %ymm4
	vpaddq	%ymm2, %ymm2, %ymm2
	vpor	%ymm4, %ymm2, %ymm0
	vmovdqu	%ymm0, 288(%rsp)
	vmovdqu	576(%rsp), %ymm0
	vpaddq	%ymm0, %ymm14, %ymm2
	vpaddq	%ymm6, %ymm2, %ymm2
	vpxor	64(%rsp), %ymm2, %ymm4
	vpshufd	$177, %ymm4, %ymm4
	vpaddq	160(%rsp), %ymm4, %ymm10
	vpxor	%ymm6, %ymm10, %ymm6
	vpshufb	%ymm5, %ymm6, %ymm11
	vpaddq	512(%rsp), %ymm2, %ymm2
	vpaddq	%ymm2, %ymm11, %ymm9
	vpxor	%ymm4, %ymm9, %ymm2
	vpshufb	%ymm1, %ymm2, %ymm6
	vpaddq	%ymm6, %ymm10, %ymm4
	vpxor	%ymm4, %ymm11, %ymm2
	vpsrlq	$63, %ymm2, %ymm10
	vpaddq	%ymm2, %ymm2, %ymm2
	vpor	%ymm2, %ymm10, %ymm2
	vmovdqu	%ymm2, 64(%rsp)
	vmovdqu	832(%rsp), %ymm2
	vpaddq	%ymm2, %ymm7, %ymm7
	vmovdqu	192(%rsp), %ymm11
	vpaddq	%ymm7, %ymm11, %ymm7
	vpxor	352(%rsp), %ymm7, %ymm3
	vpshufd	$177, %ymm3, %ymm3
	vpaddq	(%rsp), %ymm3, %ymm10
	vpxor	%ymm11, %ymm10, %ymm11
	vpshufb	%ymm5, %ymm11, %ymm14
	vpaddq	704(%rsp), %ymm7, %ymm7
	vpaddq	%ymm7, %ymm14, %ymm11
	vpxor	%ymm3, %ymm11, %ymm3
	vpshufb	%ymm1, %ymm3, %ymm3
	vpaddq	%ymm3, %ymm10, %ymm10
	vpxor	%ymm14, %ymm10, %ymm7
	vpsrlq	$63, %ymm7, %ymm14
	vpaddq	%ymm7, %ymm7, %ymm7
	vpor	%ymm7, %ymm14, %ymm7
	vpaddq	%ymm0, %ymm13, %ymm14
	vpaddq	%ymm7, %ymm14, %ymm14
	vpxor	%ymm8, %ymm14, %ymm0
	vpshufd	$177, %ymm0, %ymm0
	vpaddq	%ymm4, %ymm0, %ymm4
	vpxor	%ymm7, %ymm4, %ymm7
	vpshufb	%ymm5, %ymm7, %ymm7
	vpaddq	384(%rsp), %ymm14, %ymm14
	vpaddq	%ymm7, %ymm14, %ymm14
	vpxor	%ymm0, %ymm14, %ymm0
	vmovdqa	%ymm1, %ymm13
	vpshufb	%ymm1, %ymm0, %ymm0
	vmovdqu	%ymm0, (%rsp)
	vpaddq	%ymm0, %ymm4, %ymm0
	vmovdqu	%ymm0, 192(%rsp)
	vpxor	%ymm7, %ymm0, %ymm0
	vpsrlq	$63, %ymm0, %ymm7
	vpaddq	%ymm0, %ymm0, %ymm0
	vpor	%ymm7, %ymm0, %ymm0
	vmovdqu	%ymm0, 256(%rsp)
	vpaddq	1024(%rsp), %ymm15, %ymm0
	vmovdqu	32(%rsp), %ymm4
	vpaddq	%ymm4, %ymm0, %ymm0
	vpxor	%ymm6, %ymm0, %ymm1
	vpshufd	$177, %ymm1, %ymm6
	vpaddq	%ymm6, %ymm10, %ymm7
	vpxor	%ymm4, %ymm7, %ymm1
	vpshufb	%ymm5, %ymm1, %ymm10
	vpaddq	%ymm0, %ymm12, %ymm0
	vpaddq	%ymm0, %ymm10, %ymm1
	vpxor	%ymm6, %ymm1, %ymm0
	vpshufb	%ymm13, %ymm0, %ymm6
	vpaddq	%ymm6, %ymm7, %ymm0
	vmovdqu	%ymm0, 160(%rsp)
	vpxor	%ymm0, %ymm10, %ymm0
	vpsrlq	$63, %ymm0, %ymm7
	vpaddq	%ymm0, %ymm0, %ymm0
	vpor	%ymm7, %ymm0, %ymm0
	vpaddq	%ymm2, %ymm9, %ymm7
	vmovdqu	288(%rsp), %ymm2
	vpaddq	%ymm2, %ymm7, %ymm7
	vpxor	%ymm3, %ymm7, %ymm3
	vpshufd	$177, %ymm3, %ymm3
	vpaddq	128(%rsp), %ymm3, %ymm10
	vpxor	%ymm2, %ymm10, %ymm8
	vpshufb	%ymm5, %ymm8, %ymm12
	vmovdqa	%ymm5, %ymm8
	vpaddq	608(%rsp), %ymm7, %ymm7
	vpaddq	%ymm7, %ymm12, %ymm4
	vpxor	%ymm3, %ymm4, %ymm3
	vpshufb	%ymm13, %ymm3, %ymm9
	vpaddq	%ymm9, %ymm10, %ymm3
	vpxor	%ymm3, %ymm12, %ymm7
	vpsrlq	$63, %ymm7, %ymm10
	vpaddq	%ymm7, %ymm7, %ymm7
	vpor	%ymm7, %ymm10, %ymm10
	vpaddq	800(%rsp), %ymm11, %ymm7
	vmovdqu	64(%rsp), %ymm2
	vpaddq	%ymm2, %ymm7, %ymm7
	vpxor	224(%rsp), %ymm7, %ymm11
	vpshufd	$177, %ymm11, %ymm11
	vpaddq	96(%rsp), %ymm11, %ymm5
	vpxor	%ymm2, %ymm5, %ymm2
	vpshufb	%ymm8, %ymm2, %ymm2
	vpaddq	320(%rsp), %ymm7, %ymm7
	vpaddq	%ymm2, %ymm7, %ymm12
	vpxor	%ymm11, %ymm12, %ymm7
	vpshufb	%ymm13, %ymm7, %ymm7
	vpaddq	%ymm7, %ymm5, %ymm11
	vpxor	%ymm2, %ymm11, %ymm2
	vpsrlq	$63, %ymm2, %ymm5
	vpaddq	%ymm2, %ymm2, %ymm2
	vpor	%ymm5, %ymm2, %ymm2
	vpaddq	480(%rsp), %ymm14, %ymm5
	vpaddq	%ymm0, %ymm5, %ymm5
	vpxor	%ymm7, %ymm5, %ymm7
	vpshufd	$177, %ymm7, %ymm7
	vpaddq	%ymm3, %ymm7, %ymm3
	vpxor	%ymm0, %ymm3, %ymm0
	vpshufb	%ymm8, %ymm0, %ymm0
	vpaddq	448(%rsp), %ymm5, %ymm5
	vpaddq	%ymm0, %ymm5, %ymm5
	vmovdqu	%ymm5, 288(%rsp)
	vpxor	%ymm7, %ymm5, %ymm5
	vpshufb	%ymm13, %ymm5, %ymm5
	vmovdqu	%ymm5, 224(%rsp)
	vpaddq	%ymm5, %ymm3, %ymm3
	vmovdqu	%ymm3, 128(%rsp)
	vpxor	%ymm0, %ymm3, %ymm0
	vpsrlq	$63, %ymm0, %ymm3
	vpaddq	%ymm0, %ymm0, %ymm0
	vpor	%ymm3, %ymm0, %ymm0
	vmovdqu	%ymm0, 64(%rsp)
	vmovdqu	704(%rsp), %ymm15
	vpaddq	%ymm1, %ymm15, %ymm0
	vpaddq	%ymm0, %ymm10, %ymm0
	vpxor	(%rsp), %ymm0, %ymm1
	vpshufd	$177, %ymm1, %ymm3
	vpaddq	%ymm3, %ymm11, %ymm7
	vpxor	%ymm7, %ymm10, %ymm1
	vpshufb	%ymm8, %ymm1, %ymm14
	vpaddq	544(%rsp), %ymm0, %ymm0
	vpaddq	%ymm0, %ymm14, %ymm11
	vpxor	%ymm3, %ymm11, %ymm0
	vpshufb	%ymm13, %ymm0, %ymm10
	vpaddq	%ymm7, %ymm10, %ymm0
	vmovdqu	%ymm0, 96(%rsp)
	vpxor	%ymm0, %ymm14, %ymm0
	vpsrlq	$63, %ymm0, %ymm3
	vpaddq	%ymm0, %ymm0, %ymm0
	vpor	%ymm3, %ymm0, %ymm0
	vmovdqu	%ymm0, (%rsp)
	vmovdqu	512(%rsp), %ymm5
	vpaddq	%ymm5, %ymm4, %ymm0
	vpaddq	%ymm2, %ymm0, %ymm0
	vpxor	%ymm6, %ymm0, %ymm3
	vpshufd	$177, %ymm3, %ymm3
	vpaddq	192(%rsp), %ymm3, %ymm4
	vpxor	%ymm2, %ymm4, %ymm2
	vpshufb	%ymm8, %ymm2, %ymm6
	vmovdqu	672(%rsp), %ymm7
	vpaddq	%ymm7, %ymm0, %ymm0
	vpaddq	%ymm6, %ymm0, %ymm0
	vmovdqu	%ymm0, 352(%rsp)
	vpxor	%ymm3, %ymm0, %ymm0
	vmovdqa	%ymm13, %ymm14
	vpshufb	%ymm13, %ymm0, %ymm2
	vpaddq	%ymm2, %ymm4, %ymm3
	vpxor	%ymm6, %ymm3, %ymm0
	vpsrlq	$63, %ymm0, %ymm4
	vpaddq	%ymm0, %ymm0, %ymm0
	vpor	%ymm4, %ymm0, %ymm0
	vmovdqu	%ymm0, 32(%rsp)
	vmovdqu	416(%rsp), %ymm1
	vpaddq	%ymm1, %ymm12, %ymm0
	vmovdqu	256(%rsp), %ymm6
	vpaddq	%ymm6, %ymm0, %ymm0
	vpxor	%ymm0, %ymm9, %ymm4
	vpshufd	$177, %ymm4, %ymm4
	vpaddq	160(%rsp), %ymm4, %ymm9
	vpxor	%ymm6, %ymm9, %ymm12
	vpshufb	%ymm8, %ymm12, %ymm13
	vpaddq	736(%rsp), %ymm0, %ymm0
	vpaddq	%ymm0, %ymm13, %ymm12
	vpxor	%ymm4, %ymm12, %ymm0
	vpshufb	%ymm14, %ymm0, %ymm6
	vmovdqa	%ymm14, %ymm0
	vpaddq	%ymm6, %ymm9, %ymm14
	vpxor	%ymm13, %ymm14, %ymm4
	vpsrlq	$63, %ymm4, %ymm9
	vpaddq	%ymm4, %ymm4, %ymm4
	vpor	%ymm4, %ymm9, %ymm4
	vpaddq	288(%rsp), %ymm5, %ymm9
	vpaddq	%ymm4, %ymm9, %ymm9
	vpxor	%ymm10, %ymm9, %ymm10
	vpshufd	$177, %ymm10, %ymm10
	vpaddq	%ymm3, %ymm10, %ymm3
	vpxor	%ymm4, %ymm3, %ymm4
	vpshufb	%ymm8, %ymm4, %ymm13
	vpaddq	%ymm1, %ymm9, %ymm4
	vpaddq	%ymm4, %ymm13, %ymm9
	vpxor	%ymm10, %ymm9, %ymm4
	vpshufb	%ymm0, %ymm4, %ymm1
	vmovdqu	%ymm1, 288(%rsp)
	vpaddq	%ymm1, %ymm3, %ymm1
	vmovdqu	%ymm1, 192(%rsp)
	vpxor	%ymm1, %ymm13, %ymm3
	vpsrlq	$63, %ymm3, %ymm10
	vpaddq	%ymm3, %ymm3, %ymm3
	vpor	%ymm3, %ymm10, %ymm1
	vmovdqu	%ymm1, 256(%rsp)
	vpaddq	%ymm15, %ymm11, %ymm1
	vmovdqu	64(%rsp), %ymm3
	vpaddq	%ymm3, %ymm1, %ymm1
	vpxor	%ymm2, %ymm1, %ymm2
	vpshufd	$177, %ymm2, %ymm2
	vpaddq	%ymm2, %ymm14, %ymm10
	vpxor	%ymm3, %ymm10, %ymm3
	vmovdqa	%ymm8, %ymm13
	vpshufb	%ymm8, %ymm3, %ymm14
	vpaddq	%ymm7, %ymm1, %ymm1
	vpaddq	%ymm1, %ymm14, %ymm3
	vpxor	%ymm2, %ymm3, %ymm1
	vpshufb	%ymm0, %ymm1, %ymm5
	vmovdqa	%ymm0, %ymm8
	vpaddq	%ymm5, %ymm10, %ymm0
	vmovdqu	%ymm0, 160(%rsp)
	vpxor	%ymm0, %ymm14, %ymm1
	vpsrlq	$63, %ymm1, %ymm2
	vpaddq	%ymm1, %ymm1, %ymm1
	vpor	%ymm2, %ymm1, %ymm2
	vmovdqu	352(%rsp), %ymm0
	vpaddq	320(%rsp), %ymm0, %ymm1
	vmovdqu	(%rsp), %ymm4
	vpaddq	%ymm4, %ymm1, %ymm1
	vpxor	%ymm6, %ymm1, %ymm0
	vpshufd	$177, %ymm0, %ymm0
	vpaddq	128(%rsp), %ymm0, %ymm10
	vpxor	%ymm4, %ymm10, %ymm7
	vpshufb	%ymm13, %ymm7, %ymm14
	vpaddq	640(%rsp), %ymm1, %ymm1
	vpaddq	%ymm1, %ymm14, %ymm4
	vpxor	%ymm0, %ymm4, %ymm0
	vpshufb	%ymm8, %ymm0, %ymm7
	vpaddq	%ymm7, %ymm10, %ymm10
	vpxor	%ymm14, %ymm10, %ymm0
	vpsrlq	$63, %ymm0, %ymm1
	vpaddq	%ymm0, %ymm0, %ymm0
	vpor	%ymm1, %ymm0, %ymm0
	vpaddq	576(%rsp), %ymm12, %ymm1
	vmovdqu	32(%rsp), %ymm6
	vpaddq	%ymm6, %ymm1, %ymm1
	vpxor	224(%rsp), %ymm1, %ymm12
	vpshufd	$177, %ymm12, %ymm14
	vpaddq	96(%rsp), %ymm14, %ymm11
	vpxor	%ymm6, %ymm11, %ymm6
	vpshufb	%ymm13, %ymm6, %ymm6
	vpaddq	448(%rsp), %ymm1, %ymm1
	vpaddq	%ymm6, %ymm1, %ymm12
	vpxor	%ymm14, %ymm12, %ymm1
	vpshufb	%ymm8, %ymm1, %ymm14
	vpaddq	%ymm14, %ymm11, %ymm11
	vpxor	%ymm6, %ymm11, %ymm1
	vpsrlq	$63, %ymm1, %ymm6
	vpaddq	%ymm1, %ymm1, %ymm1
	vpor	%ymm6, %ymm1, %ymm1
	vpaddq	608(%rsp), %ymm9, %ymm6
	vpaddq	%ymm2, %ymm6, %ymm6
	vpxor	%ymm6, %ymm14, %ymm14
	vpshufd	$177, %ymm14, %ymm14
	vpaddq	%ymm10, %ymm14, %ymm10
	vpxor	%ymm2, %ymm10, %ymm2
	vpshufb	%ymm13, %ymm2, %ymm2
	vpaddq	544(%rsp), %ymm6, %ymm6
	vpaddq	%ymm2, %ymm6, %ymm6
	vmovdqu	%ymm6, (%rsp)
	vpxor	%ymm6, %ymm14, %ymm6
	vpshufb	%ymm8, %ymm6, %ymm6
	vmovdqa	%ymm8, %ymm15
	vmovdqu	%ymm6, 224(%rsp)
	vpaddq	%ymm6, %ymm10, %ymm6
	vmovdqu	%ymm6, 128(%rsp)
	vpxor	%ymm2, %ymm6, %ymm2
	vpsrlq	$63, %ymm2, %ymm6
	vpaddq	%ymm2, %ymm2, %ymm2
	vpor	%ymm6, %ymm2, %ymm2
	vmovdqu	%ymm2, 64(%rsp)
	vmovdqu	832(%rsp), %ymm8
	vpaddq	%ymm3, %ymm8, %ymm2
	vpaddq	%ymm0, %ymm2, %ymm2
	vpxor	288(%rsp), %ymm2, %ymm3
	vpshufd	$177, %ymm3, %ymm9
	vpaddq	%ymm11, %ymm9, %ymm10
	vpxor	%ymm0, %ymm10, %ymm0
	vpshufb	%ymm13, %ymm0, %ymm11
	vpaddq	480(%rsp), %ymm2, %ymm0
	vpaddq	%ymm0, %ymm11, %ymm14
	vpxor	%ymm9, %ymm14, %ymm0
	vpshufb	%ymm15, %ymm0, %ymm0
	vpaddq	%ymm0, %ymm10, %ymm2
	vmovdqu	%ymm2, 96(%rsp)
	vpxor	%ymm2, %ymm11, %ymm2
	vpsrlq	$63, %ymm2, %ymm9
	vpaddq	%ymm2, %ymm2, %ymm2
	vpor	%ymm2, %ymm9, %ymm2
	vmovdqu	%ymm2, 32(%rsp)
	vmovdqu	736(%rsp), %ymm9
	vpaddq	%ymm4, %ymm9, %ymm2
	vpaddq	%ymm1, %ymm2, %ymm2
	vpxor	%ymm5, %ymm2, %ymm5
	vpshufd	$177, %ymm5, %ymm5
	vpaddq	192(%rsp), %ymm5, %ymm4
	vpxor	%ymm1, %ymm4, %ymm1
	vpshufb	%ymm13, %ymm1, %ymm11
	vmovdqu	768(%rsp), %ymm3
	vpaddq	%ymm3, %ymm2, %ymm1
	vpaddq	%ymm1, %ymm11, %ymm1
	vmovdqu	%ymm1, 352(%rsp)
	vpxor	%ymm5, %ymm1, %ymm1
	vpshufb	%ymm15, %ymm1, %ymm6
	vmovdqa	%ymm15, %ymm10
	vpaddq	%ymm6, %ymm4, %ymm4
	vpxor	%ymm4, %ymm11, %ymm2
	vpsrlq	$63, %ymm2, %ymm5
	vpaddq	%ymm2, %ymm2, %ymm2
	vpor	%ymm5, %ymm2, %ymm1
	vmovdqu	%ymm1, 288(%rsp)
	vmovdqu	800(%rsp), %ymm15
	vpaddq	%ymm15, %ymm12, %ymm2
	vmovdqu	256(%rsp), %ymm1
	vpaddq	%ymm1, %ymm2, %ymm2
	vpxor	%ymm7, %ymm2, %ymm7
	vpshufd	$177, %ymm7, %ymm7
	vpaddq	160(%rsp), %ymm7, %ymm11
	vpxor	%ymm1, %ymm11, %ymm12
	vmovdqa	%ymm13, %ymm5
	vpshufb	%ymm13, %ymm12, %ymm13
	vpaddq	384(%rsp), %ymm2, %ymm2
	vpaddq	%ymm2, %ymm13, %ymm12
	vpxor	%ymm7, %ymm12, %ymm2
	vpshufb	%ymm10, %ymm2, %ymm2
	vpaddq	%ymm2, %ymm11, %ymm11
	vpxor	%ymm13, %ymm11, %ymm7
	vpsrlq	$63, %ymm7, %ymm13
	vpaddq	%ymm7, %ymm7, %ymm7
	vpor	%ymm7, %ymm13, %ymm7
	vmovdqu	(%rsp), %ymm1
	vpaddq	416(%rsp), %ymm1, %ymm13
	vpaddq	%ymm7, %ymm13, %ymm13
	vpxor	%ymm0, %ymm13, %ymm0
	vpshufd	$177, %ymm0, %ymm0
	vpaddq	%ymm4, %ymm0, %ymm4
	vpxor	%ymm7, %ymm4, %ymm7
	vpshufb	%ymm5, %ymm7, %ymm1
	vpaddq	%ymm3, %ymm13, %ymm7
	vpaddq	%ymm1, %ymm7, %ymm7
	vpxor	%ymm0, %ymm7, %ymm0
	vpshufb	%ymm10, %ymm0, %ymm0
	vmovdqu	%ymm0, (%rsp)
	vpaddq	%ymm0, %ymm4, %ymm0
	vmovdqu	%ymm0, 192(%rsp)
	vpxor	%ymm1, %ymm0, %ymm0
	vpsrlq	$63, %ymm0, %ymm1
	vpaddq	%ymm0, %ymm0, %ymm0
	vpor	%ymm1, %ymm0, %ymm0
	vmovdqu	%ymm0, 256(%rsp)
	vpaddq	%ymm8, %ymm14, %ymm0
	vmovdqu	64(%rsp), %ymm4
	vpaddq	%ymm4, %ymm0, %ymm0
	vpxor	%ymm6, %ymm0, %ymm1
	vpshufd	$177, %ymm1, %ymm3
	vpaddq	%ymm3, %ymm11, %ymm11
	vpxor	%ymm4, %ymm11, %ymm1
	vpshufb	%ymm5, %ymm1, %ymm14
	vpaddq	512(%rsp), %ymm0, %ymm0
	vpaddq	%ymm0, %ymm14, %ymm1
	vpxor	%ymm3, %ymm1, %ymm0
	vpshufb	%ymm10, %ymm0, %ymm6
	vmovdqa	%ymm10, %ymm13
	vpaddq	%ymm6, %ymm11, %ymm0
	vmovdqu	%ymm0, 160(%rsp)
	vpxor	%ymm0, %ymm14, %ymm0
	vpsrlq	$63, %ymm0, %ymm3
	vpaddq	%ymm0, %ymm0, %ymm0
	vpor	%ymm3, %ymm0, %ymm0
	vmovdqu	352(%rsp), %ymm3
	vpaddq	608(%rsp), %ymm3, %ymm3
	vmovdqu	32(%rsp), %ymm8
	vpaddq	%ymm3, %ymm8, %ymm3
	vpxor	%ymm2, %ymm3, %ymm2
	vpshufd	$177, %ymm2, %ymm2
	vpaddq	128(%rsp), %ymm2, %ymm11
	vpxor	%ymm8, %ymm11, %ymm8
	vpshufb	%ymm5, %ymm8, %ymm14
	vmovdqa	%ymm5, %ymm4
	vpaddq	%ymm3, %ymm9, %ymm3
	vpaddq	%ymm3, %ymm14, %ymm8
	vpxor	%ymm2, %ymm8, %ymm2
	vpshufb	%ymm10, %ymm2, %ymm9
	vpaddq	%ymm9, %ymm11, %ymm3
	vpxor	%ymm3, %ymm14, %ymm2
	vpsrlq	$63, %ymm2, %ymm11
	vpaddq	%ymm2, %ymm2, %ymm2
	vpor	%ymm2, %ymm11, %ymm2
	vpaddq	480(%rsp), %ymm12, %ymm11
	vmovdqu	288(%rsp), %ymm5
	vpaddq	%ymm5, %ymm11, %ymm11
	vpxor	224(%rsp), %ymm11, %ymm12
	vpshufd	$177, %ymm12, %ymm14
	vpaddq	96(%rsp), %ymm14, %ymm10
	vpxor	%ymm5, %ymm10, %ymm5
	vpshufb	%ymm4, %ymm5, %ymm5
	vpaddq	%ymm15, %ymm11, %ymm11
	vpaddq	%ymm5, %ymm11, %ymm12
	vpxor	%ymm14, %ymm12, %ymm11
	vpshufb	%ymm13, %ymm11, %ymm11
	vpaddq	%ymm11, %ymm10, %ymm14
	vpxor	%ymm5, %ymm14, %ymm5
	vpsrlq	$63, %ymm5, %ymm10
	vpaddq	%ymm5, %ymm5, %ymm5
	vpor	%ymm5, %ymm10, %ymm10
	vpaddq	448(%rsp), %ymm7, %ymm5
	vpaddq	%ymm0, %ymm5, %ymm5
	vpxor	%ymm5, %ymm11, %ymm11
	vpshufd	$177, %ymm11, %ymm11
	vpaddq	%ymm3, %ymm11, %ymm3
	vpxor	%ymm0, %ymm3, %ymm0
	vpshufb	%ymm4, %ymm0, %ymm0
	vmovdqa	%ymm4, %ymm15
	vpaddq	672(%rsp), %ymm5, %ymm5
	vpaddq	%ymm0, %ymm5, %ymm4
	vmovdqu	%ymm4, 32(%rsp)
	vpxor	%ymm4, %ymm11, %ymm5
	vpshufb	%ymm13, %ymm5, %ymm4
	vmovdqu	%ymm4, 224(%rsp)
	vpaddq	%ymm4, %ymm3, %ymm3
	vmovdqu	%ymm3, 128(%rsp)
	vpxor	%ymm0, %ymm3, %ymm0
	vpsrlq	$63, %ymm0, %ymm5
	vpaddq	%ymm0, %ymm0, %ymm0
	vpor	%ymm5, %ymm0, %ymm0
	vmovdqu	%ymm0, 64(%rsp)
	vpaddq	576(%rsp), %ymm1, %ymm0
	vpaddq	%ymm2, %ymm0, %ymm0
	vpxor	(%rsp), %ymm0, %ymm1
	vpshufd	$177, %ymm1, %ymm7
	vpaddq	%ymm7, %ymm14, %ymm11
	vpxor	%ymm2, %ymm11, %ymm1
	vpshufb	%ymm15, %ymm1, %ymm14
	vmovdqa	%ymm15, %ymm5
	vmovdqu	640(%rsp), %ymm1
	vpaddq	%ymm1, %ymm0, %ymm0
	vpaddq	%ymm0, %ymm14, %ymm0
	vmovdqu	%ymm0, 288(%rsp)
	vpxor	%ymm7, %ymm0, %ymm0
	vpshufb	%ymm13, %ymm0, %ymm15
	vpaddq	%ymm15, %ymm11, %ymm0
	vmovdqu	%ymm0, 96(%rsp)
	vpxor	%ymm0, %ymm14, %ymm0
	vpsrlq	$63, %ymm0, %ymm7
	vpaddq	%ymm0, %ymm0, %ymm0
	vpor	%ymm7, %ymm0, %ymm7
	vmovdqu	544(%rsp), %ymm3
	vpaddq	%ymm3, %ymm8, %ymm0
	vpaddq	%ymm0, %ymm10, %ymm0
	vpxor	%ymm6, %ymm0, %ymm6
	vpshufd	$177, %ymm6, %ymm6
	vpaddq	192(%rsp), %ymm6, %ymm4
	vpxor	%ymm4, %ymm10, %ymm8
	vpshufb	%ymm5, %ymm8, %ymm14
	vmovdqu	384(%rsp), %ymm11
	vpaddq	%ymm0, %ymm11, %ymm0
	vpaddq	%ymm0, %ymm14, %ymm8
	vpxor	%ymm6, %ymm8, %ymm0
	vmovdqa	%ymm13, %ymm2
	vpshufb	%ymm13, %ymm0, %ymm10
	vpaddq	%ymm4, %ymm10, %ymm4
	vpxor	%ymm4, %ymm14, %ymm0
	vpsrlq	$63, %ymm0, %ymm6
	vpaddq	%ymm0, %ymm0, %ymm0
	vpor	%ymm6, %ymm0, %ymm0
	vmovdqu	%ymm0, 352(%rsp)
	vpaddq	704(%rsp), %ymm12, %ymm0
	vmovdqu	256(%rsp), %ymm12
	vpaddq	%ymm0, %ymm12, %ymm0
	vpxor	%ymm0, %ymm9, %ymm9
	vpshufd	$177, %ymm9, %ymm9
	vpaddq	160(%rsp), %ymm9, %ymm13
	vpxor	%ymm12, %ymm13, %ymm12
	vpshufb	%ymm5, %ymm12, %ymm14
	vpaddq	320(%rsp), %ymm0, %ymm0
	vpaddq	%ymm0, %ymm14, %ymm12
	vpxor	%ymm9, %ymm12, %ymm0
	vpshufb	%ymm2, %ymm0, %ymm0
	vmovdqa	%ymm2, %ymm6
	vpaddq	%ymm0, %ymm13, %ymm13
	vpxor	%ymm14, %ymm13, %ymm9
	vpsrlq	$63, %ymm9, %ymm14
	vpaddq	%ymm9, %ymm9, %ymm9
	vpor	%ymm14, %ymm9, %ymm9
	vmovdqu	32(%rsp), %ymm2
	vpaddq	608(%rsp), %ymm2, %ymm14
	vpaddq	%ymm9, %ymm14, %ymm14
	vpxor	%ymm15, %ymm14, %ymm2
	vpshufd	$177, %ymm2, %ymm2
	vpaddq	%ymm4, %ymm2, %ymm4
	vpxor	%ymm4, %ymm9, %ymm9
	vpshufb	%ymm5, %ymm9, %ymm9
	vmovdqa	%ymm5, %ymm15
	vpaddq	%ymm1, %ymm14, %ymm14
	vpaddq	%ymm9, %ymm14, %ymm1
	vmovdqu	%ymm1, 32(%rsp)
	vpxor	%ymm2, %ymm1, %ymm2
	vpshufb	%ymm6, %ymm2, %ymm1
	vmovdqu	%ymm1, (%rsp)
	vpaddq	%ymm1, %ymm4, %ymm1
	vmovdqu	%ymm1, 192(%rsp)
	vpxor	%ymm1, %ymm9, %ymm9
	vpsrlq	$63, %ymm9, %ymm14
	vpaddq	%ymm9, %ymm9, %ymm9
	vpor	%ymm14, %ymm9, %ymm1
	vmovdqu	%ymm1, 256(%rsp)
	vpaddq	288(%rsp), %ymm3, %ymm1
	vmovdqu	64(%rsp), %ymm2
	vpaddq	%ymm2, %ymm1, %ymm1
	vpxor	%ymm1, %ymm10, %ymm9
	vpshufd	$177, %ymm9, %ymm9
	vpaddq	%ymm13, %ymm9, %ymm10
	vpxor	%ymm2, %ymm10, %ymm5
	vmovdqa	%ymm15, %ymm13
	vpshufb	%ymm15, %ymm5, %ymm14
	vpaddq	480(%rsp), %ymm1, %ymm1
	vpaddq	%ymm1, %ymm14, %ymm2
	vpxor	%ymm2, %ymm9, %ymm5
	vpshufb	%ymm6, %ymm5, %ymm5
	vpaddq	%ymm5, %ymm10, %ymm1
	vmovdqu	%ymm1, 160(%rsp)
	vpxor	%ymm1, %ymm14, %ymm9
	vpsrlq	$63, %ymm9, %ymm10
	vpaddq	%ymm9, %ymm9, %ymm9
	vpor	%ymm10, %ymm9, %ymm10
	vpaddq	768(%rsp), %ymm8, %ymm8
	vpaddq	%ymm7, %ymm8, %ymm8
	vpxor	%ymm0, %ymm8, %ymm0
	vpshufd	$177, %ymm0, %ymm0
	vpaddq	128(%rsp), %ymm0, %ymm3
	vpxor	%ymm7, %ymm3, %ymm7
	vpshufb	%ymm15, %ymm7, %ymm9
	vpaddq	576(%rsp), %ymm8, %ymm7
	vpaddq	%ymm7, %ymm9, %ymm8
	vpxor	%ymm0, %ymm8, %ymm0
	vpshufb	%ymm6, %ymm0, %ymm7
	vmovdqa	%ymm6, %ymm4
	vpaddq	%ymm7, %ymm3, %ymm3
	vpxor	%ymm3, %ymm9, %ymm0
	vpsrlq	$63, %ymm0, %ymm9
	vpaddq	%ymm0, %ymm0, %ymm0
	vpor	%ymm0, %ymm9, %ymm1
	vpaddq	%ymm11, %ymm12, %ymm9
	vmovdqu	352(%rsp), %ymm0
	vpaddq	%ymm0, %ymm9, %ymm9
	vpxor	224(%rsp), %ymm9, %ymm12
	vpshufd	$177, %ymm12, %ymm14
	vpaddq	96(%rsp), %ymm14, %ymm11
	vpxor	%ymm0, %ymm11, %ymm6
	vpshufb	%ymm15, %ymm6, %ymm6
	vpaddq	704(%rsp), %ymm9, %ymm9
	vpaddq	%ymm6, %ymm9, %ymm12
	vpxor	%ymm14, %ymm12, %ymm9
	vpshufb	%ymm4, %ymm9, %ymm9
	vpaddq	%ymm9, %ymm11, %ymm14
	vpxor	%ymm6, %ymm14, %ymm6
	vpsrlq	$63, %ymm6, %ymm11
	vpaddq	%ymm6, %ymm6, %ymm6
	vpor	%ymm6, %ymm11, %ymm11
	vmovdqu	32(%rsp), %ymm0
	vpaddq	736(%rsp), %ymm0, %ymm6
	vpaddq	%ymm6, %ymm10, %ymm6
	vpxor	%ymm6, %ymm9, %ymm9
	vpshufd	$177, %ymm9, %ymm9
	vpaddq	%ymm3, %ymm9, %ymm3
	vpxor	%ymm3, %ymm10, %ymm10
	vpshufb	%ymm15, %ymm10, %ymm0
	vpaddq	320(%rsp), %ymm6, %ymm6
	vpaddq	%ymm0, %ymm6, %ymm15
	vpxor	%ymm9, %ymm15, %ymm6
	vpshufb	%ymm4, %ymm6, %ymm6
	vmovdqu	%ymm6, 224(%rsp)
	vpaddq	%ymm6, %ymm3, %ymm3
	vmovdqu	%ymm3, 128(%rsp)
	vpxor	%ymm0, %ymm3, %ymm0
	vpsrlq	$63, %ymm0, %ymm6
	vpaddq	%ymm0, %ymm0, %ymm0
	vpor	%ymm6, %ymm0, %ymm0
	vmovdqu	%ymm0, 64(%rsp)
	vpaddq	512(%rsp), %ymm2, %ymm0
	vpaddq	%ymm1, %ymm0, %ymm0
	vpxor	(%rsp), %ymm0, %ymm2
	vpshufd	$177, %ymm2, %ymm2
	vpaddq	%ymm2, %ymm14, %ymm9
	vpxor	%ymm1, %ymm9, %ymm1
	vpshufb	%ymm13, %ymm1, %ymm14
	vmovdqu	832(%rsp), %ymm3
	vpaddq	%ymm3, %ymm0, %ymm0
	vpaddq	%ymm0, %ymm14, %ymm10
	vpxor	%ymm2, %ymm10, %ymm0
	vmovdqa	%ymm4, %ymm2
	vpshufb	%ymm4, %ymm0, %ymm1
	vpaddq	%ymm1, %ymm9, %ymm0
	vmovdqu	%ymm0, 96(%rsp)
	vpxor	%ymm0, %ymm14, %ymm9
	vpsrlq	$63, %ymm9, %ymm14
	vpaddq	%ymm9, %ymm9, %ymm9
	vpor	%ymm14, %ymm9, %ymm0
	vmovdqu	%ymm0, (%rsp)
	vmovdqu	800(%rsp), %ymm6
	vpaddq	%ymm6, %ymm8, %ymm8
	vpaddq	%ymm11, %ymm8, %ymm8
	vpxor	%ymm5, %ymm8, %ymm5
	vpshufd	$177, %ymm5, %ymm5
	vpaddq	192(%rsp), %ymm5, %ymm4
	vpxor	%ymm4, %ymm11, %ymm11
	vmovdqa	%ymm13, %ymm0
	vpshufb	%ymm13, %ymm11, %ymm14
	vmovdqu	448(%rsp), %ymm9
	vpaddq	%ymm9, %ymm8, %ymm8
	vpaddq	%ymm14, %ymm8, %ymm8
	vmovdqu	%ymm8, 352(%rsp)
	vpxor	%ymm5, %ymm8, %ymm5
	vpshufb	%ymm2, %ymm5, %ymm11
	vmovdqa	%ymm2, %ymm8
	vpaddq	%ymm4, %ymm11, %ymm4
	vpxor	%ymm4, %ymm14, %ymm5
	vpsrlq	$63, %ymm5, %ymm14
	vpaddq	%ymm5, %ymm5, %ymm5
	vpor	%ymm5, %ymm14, %ymm2
	vmovdqu	%ymm2, 288(%rsp)
	vmovdqu	672(%rsp), %ymm2
	vpaddq	%ymm2, %ymm12, %ymm12
	vmovdqu	256(%rsp), %ymm14
	vpaddq	%ymm14, %ymm12, %ymm12
	vpxor	%ymm7, %ymm12, %ymm7
	vpshufd	$177, %ymm7, %ymm7
	vpaddq	160(%rsp), %ymm7, %ymm13
	vpxor	%ymm14, %ymm13, %ymm14
	vpshufb	%ymm0, %ymm14, %ymm14
	vmovdqa	%ymm0, %ymm5
	vpaddq	416(%rsp), %ymm12, %ymm12
	vpaddq	%ymm14, %ymm12, %ymm12
	vpxor	%ymm7, %ymm12, %ymm7
	vpshufb	%ymm8, %ymm7, %ymm7
	vpaddq	%ymm7, %ymm13, %ymm13
	vpxor	%ymm14, %ymm13, %ymm14
	vpsrlq	$63, %ymm14, %ymm0
	vpaddq	%ymm14, %ymm14, %ymm14
	vpor	%ymm0, %ymm14, %ymm0
	vpaddq	640(%rsp), %ymm15, %ymm14
	vpaddq	%ymm0, %ymm14, %ymm14
	vpxor	%ymm1, %ymm14, %ymm1
	vpshufd	$177, %ymm1, %ymm1
	vpaddq	%ymm4, %ymm1, %ymm4
	vpxor	%ymm0, %ymm4, %ymm0
	vpshufb	%ymm5, %ymm0, %ymm0
	vpaddq	%ymm3, %ymm14, %ymm14
	vpaddq	%ymm0, %ymm14, %ymm15
	vpxor	%ymm1, %ymm15, %ymm1
	vpshufb	%ymm8, %ymm1, %ymm14
	vpaddq	%ymm4, %ymm14, %ymm1
	vmovdqu	%ymm1, 32(%rsp)
	vpxor	%ymm0, %ymm1, %ymm0
	vpsrlq	$63, %ymm0, %ymm1
	vpaddq	%ymm0, %ymm0, %ymm0
	vpor	%ymm1, %ymm0, %ymm0
	vmovdqu	%ymm0, 256(%rsp)
	vpaddq	%ymm2, %ymm10, %ymm0
	vmovdqu	64(%rsp), %ymm2
	vpaddq	%ymm2, %ymm0, %ymm0
	vpxor	%ymm0, %ymm11, %ymm1
	vpshufd	$177, %ymm1, %ymm3
	vpaddq	%ymm3, %ymm13, %ymm11
	vpxor	%ymm2, %ymm11, %ymm1
	vmovdqa	.L1_v3_CPI40_1(%rip), %ymm2
	vpshufb	%ymm2, %ymm1, %ymm13
	vpaddq	%ymm6, %ymm0, %ymm0
	vpaddq	%ymm0, %ymm13, %ymm1
	vpxor	%ymm3, %ymm1, %ymm0
	vpshufb	%ymm8, %ymm0, %ymm6
	vmovdqa	%ymm8, %ymm5
	vpaddq	%ymm6, %ymm11, %ymm0
	vmovdqu	%ymm0, 192(%rsp)
	vpxor	%ymm0, %ymm13, %ymm3
	vpsrlq	$63, %ymm3, %ymm11
	vpaddq	%ymm3, %ymm3, %ymm3
	vpor	%ymm3, %ymm11, %ymm11
	vpaddq	352(%rsp), %ymm9, %ymm3
	vmovdqu	(%rsp), %ymm0
	vpaddq	%ymm0, %ymm3, %ymm3
	vpxor	%ymm7, %ymm3, %ymm7
	vpshufd	$177, %ymm7, %ymm7
	vpaddq	128(%rsp), %ymm7, %ymm10
	vpxor	%ymm0, %ymm10, %ymm8
	vpshufb	%ymm2, %ymm8, %ymm13
	vpaddq	320(%rsp), %ymm3, %ymm3
	vpaddq	%ymm3, %ymm13, %ymm0
	vpxor	%ymm7, %ymm0, %ymm3
	vmovdqa	%ymm5, %ymm8
	vpshufb	%ymm5, %ymm3, %ymm9
	vpaddq	%ymm9, %ymm10, %ymm3
	vpxor	%ymm3, %ymm13, %ymm7
	vpsrlq	$63, %ymm7, %ymm10
	vpaddq	%ymm7, %ymm7, %ymm7
	vpor	%ymm7, %ymm10, %ymm7
	vpaddq	736(%rsp), %ymm12, %ymm10
	vmovdqu	288(%rsp), %ymm4
	vpaddq	%ymm4, %ymm10, %ymm10
	vpxor	224(%rsp), %ymm10, %ymm12
	vpshufd	$177, %ymm12, %ymm13
	vpaddq	96(%rsp), %ymm13, %ymm2
	vpxor	%ymm4, %ymm2, %ymm5
	vmovdqa	.L1_v3_CPI40_1(%rip), %ymm4
	vpshufb	%ymm4, %ymm5, %ymm5
	vpaddq	480(%rsp), %ymm10, %ymm10
	vpaddq	%ymm5, %ymm10, %ymm12
	vpxor	%ymm13, %ymm12, %ymm10
	vpshufb	%ymm8, %ymm10, %ymm10
	vpaddq	%ymm2, %ymm10, %ymm13
	vpxor	%ymm5, %ymm13, %ymm2
	vpsrlq	$63, %ymm2, %ymm5
	vpaddq	%ymm2, %ymm2, %ymm2
	vpor	%ymm5, %ymm2, %ymm2
	vpaddq	768(%rsp), %ymm15, %ymm5
	vpaddq	%ymm5, %ymm11, %ymm5
	vpxor	%ymm5, %ymm10, %ymm10
	vpshufd	$177, %ymm10, %ymm10
	vpaddq	%ymm3, %ymm10, %ymm3
	vpxor	%ymm3, %ymm11, %ymm11
	vpshufb	%ymm4, %ymm11, %ymm11
	vmovdqu	512(%rsp), %ymm8
	vpaddq	%ymm5, %ymm8, %ymm5
	vpaddq	%ymm5, %ymm11, %ymm15
	vpxor	%ymm10, %ymm15, %ymm5
	vmovdqa	.L1_v3_CPI40_2(%rip), %ymm10
	vpshufb	%ymm10, %ymm5, %ymm5
	vmovdqu	%ymm5, 224(%rsp)
	vpaddq	%ymm5, %ymm3, %ymm3
	vmovdqu	%ymm3, 160(%rsp)
	vpxor	%ymm3, %ymm11, %ymm3
	vpsrlq	$63, %ymm3, %ymm5
	vpaddq	%ymm3, %ymm3, %ymm3
	vpor	%ymm5, %ymm3, %ymm3
	vmovdqu	%ymm3, 96(%rsp)
	vpaddq	544(%rsp), %ymm1, %ymm1
	vpaddq	%ymm7, %ymm1, %ymm1
	vpxor	%ymm1, %ymm14, %ymm3
	vpshufd	$177, %ymm3, %ymm3
	vpaddq	%ymm3, %ymm13, %ymm11
	vpxor	%ymm7, %ymm11, %ymm7
	vpshufb	%ymm4, %ymm7, %ymm7
	vmovdqa	%ymm4, %ymm13
	vpaddq	704(%rsp), %ymm1, %ymm1
	vpaddq	%ymm7, %ymm1, %ymm1
	vmovdqu	%ymm1, (%rsp)
	vpxor	%ymm3, %ymm1, %ymm3
	vmovdqa	%ymm10, %ymm5
	vpshufb	%ymm10, %ymm3, %ymm10
	vpaddq	%ymm10, %ymm11, %ymm1
	vmovdqu	%ymm1, 128(%rsp)
	vpxor	%ymm7, %ymm1, %ymm3
	vpsrlq	$63, %ymm3, %ymm7
	vpaddq	%ymm3, %ymm3, %ymm3
	vpor	%ymm7, %ymm3, %ymm11
	vpaddq	416(%rsp), %ymm0, %ymm3
	vpaddq	%ymm2, %ymm3, %ymm3
	vpxor	%ymm6, %ymm3, %ymm6
	vpshufd	$177, %ymm6, %ymm6
	vpaddq	32(%rsp), %ymm6, %ymm4
	vpxor	%ymm2, %ymm4, %ymm2
	vmovdqa	%ymm13, %ymm1
	vpshufb	%ymm13, %ymm2, %ymm13
	vpaddq	608(%rsp), %ymm3, %ymm2
	vpaddq	%ymm2, %ymm13, %ymm7
	vpxor	%ymm6, %ymm7, %ymm2
	vpshufb	%ymm5, %ymm2, %ymm2
	vpaddq	%ymm2, %ymm4, %ymm3
	vpxor	%ymm3, %ymm13, %ymm4
	vpsrlq	$63, %ymm4, %ymm6
	vpaddq	%ymm4, %ymm4, %ymm4
	vpor	%ymm6, %ymm4, %ymm0
	vmovdqu	%ymm0, 64(%rsp)
	vpaddq	384(%rsp), %ymm12, %ymm4
	vmovdqu	256(%rsp), %ymm0
	vpaddq	%ymm0, %ymm4, %ymm4
	vpxor	%ymm4, %ymm9, %ymm9
	vpshufd	$177, %ymm9, %ymm9
	vpaddq	192(%rsp), %ymm9, %ymm13
	vpxor	%ymm0, %ymm13, %ymm0
	vpshufb	%ymm1, %ymm0, %ymm14
	vmovdqa	%ymm1, %ymm6
	vmovdqu	576(%rsp), %ymm1
	vpaddq	%ymm1, %ymm4, %ymm0
	vpaddq	%ymm0, %ymm14, %ymm12
	vpxor	%ymm9, %ymm12, %ymm0
	vpshufb	%ymm5, %ymm0, %ymm0
	vpaddq	%ymm0, %ymm13, %ymm13
	vpxor	%ymm14, %ymm13, %ymm4
	vpsrlq	$63, %ymm4, %ymm9
	vpaddq	%ymm4, %ymm4, %ymm4
	vpor	%ymm4, %ymm9, %ymm4
	vpaddq	320(%rsp), %ymm15, %ymm9
	vpaddq	%ymm4, %ymm9, %ymm9
	vpxor	%ymm10, %ymm9, %ymm10
	vpshufd	$177, %ymm10, %ymm10
	vpaddq	%ymm3, %ymm10, %ymm3
	vpxor	%ymm4, %ymm3, %ymm4
	vpshufb	%ymm6, %ymm4, %ymm14
	vpaddq	%ymm1, %ymm9, %ymm4
	vpaddq	%ymm4, %ymm14, %ymm15
	vpxor	%ymm10, %ymm15, %ymm4
	vpshufb	%ymm5, %ymm4, %ymm9
	vmovdqa	%ymm5, %ymm4
	vpaddq	%ymm3, %ymm9, %ymm1
	vmovdqu	%ymm1, 192(%rsp)
	vpxor	%ymm1, %ymm14, %ymm3
	vpsrlq	$63, %ymm3, %ymm10
	vpaddq	%ymm3, %ymm3, %ymm3
	vpor	%ymm3, %ymm10, %ymm1
	vmovdqu	%ymm1, 256(%rsp)
	vpaddq	(%rsp), %ymm8, %ymm1
	vmovdqu	96(%rsp), %ymm3
	vpaddq	%ymm3, %ymm1, %ymm1
	vpxor	%ymm2, %ymm1, %ymm2
	vpshufd	$177, %ymm2, %ymm2
	vpaddq	%ymm2, %ymm13, %ymm10
	vpxor	%ymm3, %ymm10, %ymm3
	vpshufb	%ymm6, %ymm3, %ymm14
	vpaddq	448(%rsp), %ymm1, %ymm1
	vpaddq	%ymm1, %ymm14, %ymm5
	vpxor	%ymm2, %ymm5, %ymm1
	vpshufb	%ymm4, %ymm1, %ymm1
	vmovdqu	%ymm1, 32(%rsp)
	vpaddq	%ymm1, %ymm10, %ymm1
	vmovdqu	%ymm1, 96(%rsp)
	vpxor	%ymm1, %ymm14, %ymm1
	vpsrlq	$63, %ymm1, %ymm2
	vpaddq	%ymm1, %ymm1, %ymm1
	vpor	%ymm2, %ymm1, %ymm2
	vpaddq	640(%rsp), %ymm7, %ymm1
	vpaddq	%ymm1, %ymm11, %ymm1
	vpxor	%ymm0, %ymm1, %ymm0
	vpshufd	$177, %ymm0, %ymm0
	vpaddq	160(%rsp), %ymm0, %ymm10
	vpxor	%ymm11, %ymm10, %ymm7
	vpshufb	%ymm6, %ymm7, %ymm14
	vmovdqa	%ymm6, %ymm13
	vpaddq	672(%rsp), %ymm1, %ymm1
	vpaddq	%ymm1, %ymm14, %ymm8
	vpxor	%ymm0, %ymm8, %ymm0
	vpshufb	%ymm4, %ymm0, %ymm7
	vpaddq	%ymm7, %ymm10, %ymm10
	vpxor	%ymm14, %ymm10, %ymm0
	vpsrlq	$63, %ymm0, %ymm1
	vpaddq	%ymm0, %ymm0, %ymm0
	vpor	%ymm1, %ymm0, %ymm0
	vpaddq	704(%rsp), %ymm12, %ymm1
	vmovdqu	64(%rsp), %ymm6
	vpaddq	%ymm6, %ymm1, %ymm1
	vpxor	224(%rsp), %ymm1, %ymm12
	vpshufd	$177, %ymm12, %ymm14
	vpaddq	128(%rsp), %ymm14, %ymm11
	vpxor	%ymm6, %ymm11, %ymm6
	vpshufb	%ymm13, %ymm6, %ymm6
	vpaddq	416(%rsp), %ymm1, %ymm1
	vpaddq	%ymm6, %ymm1, %ymm12
	vpxor	%ymm14, %ymm12, %ymm1
	vpshufb	%ymm4, %ymm1, %ymm14
	vpaddq	%ymm14, %ymm11, %ymm11
	vpxor	%ymm6, %ymm11, %ymm1
	vpsrlq	$63, %ymm1, %ymm6
	vpaddq	%ymm1, %ymm1, %ymm1
	vpor	%ymm6, %ymm1, %ymm1
	vpaddq	832(%rsp), %ymm15, %ymm6
	vpaddq	%ymm2, %ymm6, %ymm6
	vpxor	%ymm6, %ymm14, %ymm14
	vpshufd	$177, %ymm14, %ymm14
	vpaddq	%ymm10, %ymm14, %ymm10
	vpxor	%ymm2, %ymm10, %ymm2
	vpshufb	%ymm13, %ymm2, %ymm2
	vpaddq	768(%rsp), %ymm6, %ymm6
	vpaddq	%ymm2, %ymm6, %ymm15
	vpxor	%ymm14, %ymm15, %ymm6
	vpshufb	%ymm4, %ymm6, %ymm6
	vmovdqu	%ymm6, 224(%rsp)
	vpaddq	%ymm6, %ymm10, %ymm3
	vmovdqu	%ymm3, 160(%rsp)
	vpxor	%ymm2, %ymm3, %ymm2
	vpsrlq	$63, %ymm2, %ymm6
	vpaddq	%ymm2, %ymm2, %ymm2
	vpor	%ymm6, %ymm2, %ymm2
	vmovdqu	%ymm2, (%rsp)
	vmovdqu	800(%rsp), %ymm6
	vpaddq	%ymm6, %ymm5, %ymm2
	vpaddq	%ymm0, %ymm2, %ymm2
	vpxor	%ymm2, %ymm9, %ymm3
	vpshufd	$177, %ymm3, %ymm9
	vpaddq	%ymm11, %ymm9, %ymm10
	vpxor	%ymm0, %ymm10, %ymm0
	vpshufb	%ymm13, %ymm0, %ymm11
	vpaddq	736(%rsp), %ymm2, %ymm0
	vpaddq	%ymm0, %ymm11, %ymm0
	vmovdqu	%ymm0, 64(%rsp)
	vpxor	%ymm0, %ymm9, %ymm0
	vpshufb	%ymm4, %ymm0, %ymm3
	vmovdqa	%ymm4, %ymm0
	vpaddq	%ymm3, %ymm10, %ymm2
	vmovdqu	%ymm2, 128(%rsp)
	vpxor	%ymm2, %ymm11, %ymm2
	vpsrlq	$63, %ymm2, %ymm9
	vpaddq	%ymm2, %ymm2, %ymm2
	vpor	%ymm2, %ymm9, %ymm10
	vpaddq	384(%rsp), %ymm8, %ymm2
	vpaddq	%ymm1, %ymm2, %ymm2
	vpxor	32(%rsp), %ymm2, %ymm5
	vpshufd	$177, %ymm5, %ymm5
	vpaddq	192(%rsp), %ymm5, %ymm4
	vpxor	%ymm1, %ymm4, %ymm1
	vpshufb	%ymm13, %ymm1, %ymm11
	vmovdqu	544(%rsp), %ymm14
	vpaddq	%ymm2, %ymm14, %ymm1
	vpaddq	%ymm1, %ymm11, %ymm9
	vpxor	%ymm5, %ymm9, %ymm1
	vpshufb	%ymm0, %ymm1, %ymm8
	vpaddq	%ymm4, %ymm8, %ymm4
	vpxor	%ymm4, %ymm11, %ymm2
	vpsrlq	$63, %ymm2, %ymm5
	vpaddq	%ymm2, %ymm2, %ymm2
	vpor	%ymm5, %ymm2, %ymm1
	vmovdqu	%ymm1, 32(%rsp)
	vpaddq	608(%rsp), %ymm12, %ymm2
	vmovdqu	256(%rsp), %ymm12
	vpaddq	%ymm2, %ymm12, %ymm2
	vpxor	%ymm7, %ymm2, %ymm7
	vpshufd	$177, %ymm7, %ymm7
	vpaddq	96(%rsp), %ymm7, %ymm11
	vpxor	%ymm12, %ymm11, %ymm12
	vmovdqa	%ymm13, %ymm5
	vpshufb	%ymm13, %ymm12, %ymm13
	vpaddq	480(%rsp), %ymm2, %ymm2
	vpaddq	%ymm2, %ymm13, %ymm12
	vpxor	%ymm7, %ymm12, %ymm2
	vpshufb	%ymm0, %ymm2, %ymm2
	vpaddq	%ymm2, %ymm11, %ymm11
	vpxor	%ymm13, %ymm11, %ymm7
	vpsrlq	$63, %ymm7, %ymm13
	vpaddq	%ymm7, %ymm7, %ymm7
	vpor	%ymm7, %ymm13, %ymm7
	vpaddq	%ymm14, %ymm15, %ymm13
	vpaddq	%ymm7, %ymm13, %ymm13
	vpxor	%ymm3, %ymm13, %ymm0
	vpshufd	$177, %ymm0, %ymm0
	vpaddq	%ymm4, %ymm0, %ymm4
	vpxor	%ymm7, %ymm4, %ymm7
	vpshufb	%ymm5, %ymm7, %ymm7
	vpaddq	%ymm6, %ymm13, %ymm13
	vpaddq	%ymm7, %ymm13, %ymm15
	vpxor	%ymm0, %ymm15, %ymm0
	vmovdqa	.L1_v3_CPI40_2(%rip), %ymm6
	vpshufb	%ymm6, %ymm0, %ymm14
	vpaddq	%ymm4, %ymm14, %ymm0
	vmovdqu	%ymm0, 192(%rsp)
	vpxor	%ymm7, %ymm0, %ymm7
	vpsrlq	$63, %ymm7, %ymm13
	vpaddq	%ymm7, %ymm7, %ymm7
	vpor	%ymm7, %ymm13, %ymm0
	vmovdqu	%ymm0, 256(%rsp)
	vmovdqu	64(%rsp), %ymm0
	vpaddq	448(%rsp), %ymm0, %ymm3
	vmovdqu	(%rsp), %ymm0
	vpaddq	%ymm0, %ymm3, %ymm3
	vpxor	%ymm3, %ymm8, %ymm1
	vpshufd	$177, %ymm1, %ymm7
	vpaddq	%ymm7, %ymm11, %ymm11
	vpxor	%ymm0, %ymm11, %ymm1
	vpshufb	%ymm5, %ymm1, %ymm0
	vpaddq	416(%rsp), %ymm3, %ymm1
	vpaddq	%ymm0, %ymm1, %ymm4
	vpxor	%ymm7, %ymm4, %ymm3
	vpshufb	%ymm6, %ymm3, %ymm13
	vpaddq	%ymm13, %ymm11, %ymm1
	vmovdqu	%ymm1, 96(%rsp)
	vpxor	%ymm0, %ymm1, %ymm0
	vpsrlq	$63, %ymm0, %ymm3
	vpaddq	%ymm0, %ymm0, %ymm0
	vpor	%ymm3, %ymm0, %ymm3
	vpaddq	576(%rsp), %ymm9, %ymm0
	vpaddq	%ymm0, %ymm10, %ymm0
	vpxor	%ymm2, %ymm0, %ymm2
	vpshufd	$177, %ymm2, %ymm2
	vpaddq	160(%rsp), %ymm2, %ymm7
	vpxor	%ymm7, %ymm10, %ymm8
	vmovdqa	%ymm5, %ymm1
	vpshufb	%ymm5, %ymm8, %ymm11
	vpaddq	704(%rsp), %ymm0, %ymm0
	vpaddq	%ymm0, %ymm11, %ymm8
	vpxor	%ymm2, %ymm8, %ymm0
	vpshufb	%ymm6, %ymm0, %ymm0
	vmovdqu	%ymm0, (%rsp)
	vmovdqa	%ymm6, %ymm9
	vpaddq	%ymm0, %ymm7, %ymm0
	vpxor	%ymm0, %ymm11, %ymm2
	vpsrlq	$63, %ymm2, %ymm7
	vpaddq	%ymm2, %ymm2, %ymm2
	vpor	%ymm7, %ymm2, %ymm2
	vpaddq	768(%rsp), %ymm12, %ymm7
	vmovdqu	32(%rsp), %ymm5
	vpaddq	%ymm5, %ymm7, %ymm7
	vpxor	224(%rsp), %ymm7, %ymm11
	vpshufd	$177, %ymm11, %ymm11
	vpaddq	128(%rsp), %ymm11, %ymm10
	vpxor	%ymm5, %ymm10, %ymm5
	vpshufb	%ymm1, %ymm5, %ymm5
	vmovdqa	%ymm1, %ymm6
	vpaddq	384(%rsp), %ymm7, %ymm7
	vpaddq	%ymm5, %ymm7, %ymm12
	vpxor	%ymm11, %ymm12, %ymm7
	vpshufb	%ymm9, %ymm7, %ymm7
	vpaddq	%ymm7, %ymm10, %ymm11
	vpxor	%ymm5, %ymm11, %ymm5
	vpsrlq	$63, %ymm5, %ymm10
	vpaddq	%ymm5, %ymm5, %ymm5
	vpor	%ymm5, %ymm10, %ymm10
	vpaddq	640(%rsp), %ymm15, %ymm5
	vpaddq	%ymm3, %ymm5, %ymm5
	vpxor	%ymm7, %ymm5, %ymm7
	vpshufd	$177, %ymm7, %ymm7
	vpaddq	%ymm0, %ymm7, %ymm1
	vpxor	%ymm3, %ymm1, %ymm3
	vpshufb	%ymm6, %ymm3, %ymm0
	vmovdqu	608(%rsp), %ymm15
	vpaddq	%ymm5, %ymm15, %ymm3
	vpaddq	%ymm0, %ymm3, %ymm5
	vpxor	%ymm7, %ymm5, %ymm3
	vpshufb	%ymm9, %ymm3, %ymm3
	vmovdqu	%ymm3, 224(%rsp)
	vpaddq	%ymm3, %ymm1, %ymm1
	vmovdqu	%ymm1, 160(%rsp)
	vpxor	%ymm0, %ymm1, %ymm0
	vpsrlq	$63, %ymm0, %ymm1
	vpaddq	%ymm0, %ymm0, %ymm0
	vpor	%ymm1, %ymm0, %ymm0
	vmovdqu	%ymm0, 32(%rsp)
	vpaddq	320(%rsp), %ymm4, %ymm0
	vpaddq	%ymm2, %ymm0, %ymm0
	vpxor	%ymm0, %ymm14, %ymm1
	vpshufd	$177, %ymm1, %ymm4
	vpaddq	%ymm4, %ymm11, %ymm7
	vpxor	%ymm2, %ymm7, %ymm1
	vpshufb	%ymm6, %ymm1, %ymm2
	vmovdqa	%ymm6, %ymm3
	vpaddq	512(%rsp), %ymm0, %ymm0
	vpaddq	%ymm2, %ymm0, %ymm0
	vmovdqu	%ymm0, 288(%rsp)
	vpxor	%ymm4, %ymm0, %ymm0
	vmovdqa	.L1_v3_CPI40_2(%rip), %ymm1
	vpshufb	%ymm1, %ymm0, %ymm0
	vpaddq	%ymm0, %ymm7, %ymm4
	vmovdqu	%ymm4, 128(%rsp)
	vpxor	%ymm2, %ymm4, %ymm2
	vpsrlq	$63, %ymm2, %ymm4
	vpaddq	%ymm2, %ymm2, %ymm2
	vpor	%ymm4, %ymm2, %ymm2
	vmovdqu	%ymm2, 64(%rsp)
	vpaddq	672(%rsp), %ymm8, %ymm2
	vpaddq	%ymm2, %ymm10, %ymm2
	vpxor	%ymm2, %ymm13, %ymm4
	vpshufd	$177, %ymm4, %ymm4
	vpaddq	192(%rsp), %ymm4, %ymm6
	vpxor	%ymm6, %ymm10, %ymm8
	vpshufb	%ymm3, %ymm8, %ymm14
	vmovdqu	736(%rsp), %ymm7
	vpaddq	%ymm7, %ymm2, %ymm2
	vpaddq	%ymm2, %ymm14, %ymm8
	vpxor	%ymm4, %ymm8, %ymm2
	vpshufb	%ymm1, %ymm2, %ymm10
	vpaddq	%ymm6, %ymm10, %ymm4
	vpxor	%ymm4, %ymm14, %ymm2
	vpsrlq	$63, %ymm2, %ymm6
	vpaddq	%ymm2, %ymm2, %ymm2
	vpor	%ymm6, %ymm2, %ymm1
	vmovdqu	%ymm1, 352(%rsp)
	vmovdqu	480(%rsp), %ymm1
	vpaddq	%ymm1, %ymm12, %ymm2
	vmovdqu	256(%rsp), %ymm13
	vpaddq	%ymm2, %ymm13, %ymm2
	vpxor	(%rsp), %ymm2, %ymm9
	vpshufd	$177, %ymm9, %ymm9
	vpaddq	96(%rsp), %ymm9, %ymm12
	vpxor	%ymm13, %ymm12, %ymm13
	vpshufb	%ymm3, %ymm13, %ymm14
	vmovdqu	832(%rsp), %ymm11
	vpaddq	%ymm2, %ymm11, %ymm2
	vpaddq	%ymm2, %ymm14, %ymm6
	vpxor	%ymm6, %ymm9, %ymm9
	vmovdqa	.L1_v3_CPI40_2(%rip), %ymm2
	vpshufb	%ymm2, %ymm9, %ymm13
	vpaddq	%ymm13, %ymm12, %ymm12
	vpxor	%ymm14, %ymm12, %ymm9
	vpsrlq	$63, %ymm9, %ymm14
	vpaddq	%ymm9, %ymm9, %ymm9
	vpor	%ymm14, %ymm9, %ymm9
	vpaddq	%ymm1, %ymm5, %ymm14
	vpaddq	%ymm9, %ymm14, %ymm14
	vpxor	%ymm0, %ymm14, %ymm0
	vpshufd	$177, %ymm0, %ymm0
	vpaddq	%ymm4, %ymm0, %ymm4
	vpxor	%ymm4, %ymm9, %ymm9
	vpshufb	%ymm3, %ymm9, %ymm1
	vpaddq	%ymm15, %ymm14, %ymm9
	vpaddq	%ymm1, %ymm9, %ymm15
	vpxor	%ymm0, %ymm15, %ymm0
	vpshufb	%ymm2, %ymm0, %ymm14
	vpaddq	%ymm4, %ymm14, %ymm0
	vmovdqu	%ymm0, 192(%rsp)
	vpxor	%ymm1, %ymm0, %ymm0
	vpsrlq	$63, %ymm0, %ymm1
	vpaddq	%ymm0, %ymm0, %ymm0
	vpor	%ymm1, %ymm0, %ymm0
	vmovdqu	%ymm0, 256(%rsp)
	vmovdqu	288(%rsp), %ymm0
	vpaddq	384(%rsp), %ymm0, %ymm0
	vmovdqu	32(%rsp), %ymm4
	vpaddq	%ymm4, %ymm0, %ymm0
	vpxor	%ymm0, %ymm10, %ymm1
	vpshufd	$177, %ymm1, %ymm1
	vpaddq	%ymm1, %ymm12, %ymm3
	vpxor	%ymm4, %ymm3, %ymm5
	vmovdqa	.L1_v3_CPI40_1(%rip), %ymm10
	vpshufb	%ymm10, %ymm5, %ymm12
	vpaddq	%ymm7, %ymm0, %ymm0
	vpaddq	%ymm0, %ymm12, %ymm4
	vpxor	%ymm1, %ymm4, %ymm1
	vpshufb	%ymm2, %ymm1, %ymm5
	vpaddq	%ymm5, %ymm3, %ymm0
	vmovdqu	%ymm0, 96(%rsp)
	vpxor	%ymm0, %ymm12, %ymm1
	vpsrlq	$63, %ymm1, %ymm3
	vpaddq	%ymm1, %ymm1, %ymm1
	vpor	%ymm3, %ymm1, %ymm1
	vpaddq	512(%rsp), %ymm8, %ymm3
	vmovdqu	64(%rsp), %ymm0
	vpaddq	%ymm0, %ymm3, %ymm3
	vpxor	%ymm3, %ymm13, %ymm8
	vpshufd	$177, %ymm8, %ymm12
	vpaddq	160(%rsp), %ymm12, %ymm13
	vpxor	%ymm0, %ymm13, %ymm7
	vpshufb	%ymm10, %ymm7, %ymm7
	vpaddq	544(%rsp), %ymm3, %ymm3
	vpaddq	%ymm7, %ymm3, %ymm8
	vpxor	%ymm12, %ymm8, %ymm3
	vpshufb	%ymm2, %ymm3, %ymm12
	vmovdqa	%ymm2, %ymm9
	vpaddq	%ymm12, %ymm13, %ymm0
	vpxor	%ymm7, %ymm0, %ymm3
	vpsrlq	$63, %ymm3, %ymm7
	vpaddq	%ymm3, %ymm3, %ymm3
	vpor	%ymm7, %ymm3, %ymm3
	vpaddq	672(%rsp), %ymm6, %ymm2
	vmovdqu	352(%rsp), %ymm6
	vpaddq	%ymm6, %ymm2, %ymm2
	vpxor	224(%rsp), %ymm2, %ymm7
	vpshufd	$177, %ymm7, %ymm7
	vpaddq	128(%rsp), %ymm7, %ymm13
	vpxor	%ymm6, %ymm13, %ymm6
	vpshufb	%ymm10, %ymm6, %ymm6
	vpaddq	%ymm2, %ymm11, %ymm2
	vpaddq	%ymm6, %ymm2, %ymm11
	vpxor	%ymm7, %ymm11, %ymm2
	vpshufb	%ymm9, %ymm2, %ymm2
	vpaddq	%ymm2, %ymm13, %ymm7
	vpxor	%ymm6, %ymm7, %ymm6
	vpsrlq	$63, %ymm6, %ymm13
	vpaddq	%ymm6, %ymm6, %ymm6
	vpor	%ymm6, %ymm13, %ymm13
	vpaddq	800(%rsp), %ymm15, %ymm6
	vpaddq	%ymm1, %ymm6, %ymm6
	vpxor	%ymm2, %ymm6, %ymm2
	vpshufd	$177, %ymm2, %ymm2
	vpaddq	%ymm0, %ymm2, %ymm0
	vpxor	%ymm1, %ymm0, %ymm1
	vpshufb	%ymm10, %ymm1, %ymm1
	vpaddq	576(%rsp), %ymm6, %ymm6
	vpaddq	%ymm1, %ymm6, %ymm15
	vpxor	%ymm2, %ymm15, %ymm2
	vpshufb	%ymm9, %ymm2, %ymm2
	vmovdqu	%ymm2, 224(%rsp)
	vpaddq	%ymm2, %ymm0, %ymm0
	vmovdqu	%ymm0, 128(%rsp)
	vpxor	%ymm1, %ymm0, %ymm0
	vpsrlq	$63, %ymm0, %ymm1
	vpaddq	%ymm0, %ymm0, %ymm0
	vpor	%ymm1, %ymm0, %ymm0
	vmovdqu	%ymm0, 64(%rsp)
	vpaddq	416(%rsp), %ymm4, %ymm0
	vpaddq	%ymm3, %ymm0, %ymm0
	vpxor	%ymm0, %ymm14, %ymm1
	vpshufd	$177, %ymm1, %ymm4
	vpaddq	%ymm7, %ymm4, %ymm7
	vpxor	%ymm3, %ymm7, %ymm1
	vpshufb	%ymm10, %ymm1, %ymm3
	vpaddq	448(%rsp), %ymm0, %ymm0
	vpaddq	%ymm3, %ymm0, %ymm0
	vmovdqu	%ymm0, 288(%rsp)
	vpxor	%ymm4, %ymm0, %ymm0
	vpshufb	%ymm9, %ymm0, %ymm1
	vpaddq	%ymm1, %ymm7, %ymm0
	vmovdqu	%ymm0, (%rsp)
	vpxor	%ymm3, %ymm0, %ymm3
	vpsrlq	$63, %ymm3, %ymm4
	vpaddq	%ymm3, %ymm3, %ymm3
	vpor	%ymm4, %ymm3, %ymm0
	vmovdqu	%ymm0, 32(%rsp)
	vmovdqu	704(%rsp), %ymm6
	vpaddq	%ymm6, %ymm8, %ymm3
	vpaddq	%ymm3, %ymm13, %ymm3
	vpxor	%ymm5, %ymm3, %ymm4
	vpshufd	$177, %ymm4, %ymm4
	vpaddq	192(%rsp), %ymm4, %ymm5
	vpxor	%ymm5, %ymm13, %ymm7
	vmovdqa	%ymm10, %ymm2
	vpshufb	%ymm10, %ymm7, %ymm7
	vpaddq	640(%rsp), %ymm3, %ymm3
	vpaddq	%ymm7, %ymm3, %ymm8
	vpxor	%ymm4, %ymm8, %ymm3
	vpshufb	%ymm9, %ymm3, %ymm13
	vpaddq	%ymm5, %ymm13, %ymm3
	vpxor	%ymm7, %ymm3, %ymm4
	vpsrlq	$63, %ymm4, %ymm5
	vpaddq	%ymm4, %ymm4, %ymm4
	vpor	%ymm5, %ymm4, %ymm5
	vpaddq	320(%rsp), %ymm11, %ymm4
	vmovdqu	256(%rsp), %ymm11
	vpaddq	%ymm4, %ymm11, %ymm4
	vpxor	%ymm4, %ymm12, %ymm7
	vpshufd	$177, %ymm7, %ymm7
	vpaddq	96(%rsp), %ymm7, %ymm10
	vpxor	%ymm11, %ymm10, %ymm11
	vpshufb	%ymm2, %ymm11, %ymm14
	vmovdqu	768(%rsp), %ymm0
	vpaddq	%ymm0, %ymm4, %ymm4
	vpaddq	%ymm4, %ymm14, %ymm12
	vpxor	%ymm7, %ymm12, %ymm4
	vpshufb	%ymm9, %ymm4, %ymm11
	vpaddq	%ymm11, %ymm10, %ymm4
	vpxor	%ymm4, %ymm14, %ymm7
	vpsrlq	$63, %ymm7, %ymm10
	vpaddq	%ymm7, %ymm7, %ymm7
	vpor	%ymm7, %ymm10, %ymm7
	vpaddq	%ymm0, %ymm15, %ymm10
	vpaddq	%ymm7, %ymm10, %ymm10
	vpxor	%ymm1, %ymm10, %ymm0
	vpshufd	$177, %ymm0, %ymm0
	vpaddq	%ymm3, %ymm0, %ymm3
	vpxor	%ymm7, %ymm3, %ymm7
	vpshufb	%ymm2, %ymm7, %ymm14
	vpaddq	672(%rsp), %ymm10, %ymm7
	vpaddq	%ymm7, %ymm14, %ymm15
	vpxor	%ymm0, %ymm15, %ymm0
	vpshufb	%ymm9, %ymm0, %ymm7
	vpaddq	%ymm7, %ymm3, %ymm0
	vmovdqu	%ymm0, 96(%rsp)
	vpxor	%ymm0, %ymm14, %ymm0
	vpsrlq	$63, %ymm0, %ymm3
	vpaddq	%ymm0, %ymm0, %ymm0
	vpor	%ymm3, %ymm0, %ymm0
	vmovdqu	%ymm0, 160(%rsp)
	vmovdqu	288(%rsp), %ymm0
	vpaddq	608(%rsp), %ymm0, %ymm0
	vmovdqu	64(%rsp), %ymm2
	vpaddq	%ymm2, %ymm0, %ymm0
	vpxor	%ymm0, %ymm13, %ymm1
	vpshufd	$177, %ymm1, %ymm1
	vpaddq	%ymm4, %ymm1, %ymm13
	vpxor	%ymm2, %ymm13, %ymm2
	vmovdqa	.L1_v3_CPI40_1(%rip), %ymm10
	vpshufb	%ymm10, %ymm2, %ymm2
	vpaddq	%ymm6, %ymm0, %ymm0
	vpaddq	%ymm2, %ymm0, %ymm3
	vpxor	%ymm1, %ymm3, %ymm0
	vmovdqa	%ymm9, %ymm14
	vpshufb	%ymm9, %ymm0, %ymm4
	vpaddq	%ymm4, %ymm13, %ymm0
	vmovdqu	%ymm0, 64(%rsp)
	vpxor	%ymm2, %ymm0, %ymm0
	vpsrlq	$63, %ymm0, %ymm1
	vpaddq	%ymm0, %ymm0, %ymm0
	vpor	%ymm1, %ymm0, %ymm0
	vpaddq	736(%rsp), %ymm8, %ymm1
	vmovdqu	32(%rsp), %ymm9
	vpaddq	%ymm1, %ymm9, %ymm1
	vpxor	%ymm1, %ymm11, %ymm2
	vpshufd	$177, %ymm2, %ymm8
	vpaddq	128(%rsp), %ymm8, %ymm6
	vpxor	%ymm6, %ymm9, %ymm2
	vpshufb	%ymm10, %ymm2, %ymm9
	vmovdqa	%ymm10, %ymm13
	vpaddq	832(%rsp), %ymm1, %ymm1
	vpaddq	%ymm1, %ymm9, %ymm2
	vpxor	%ymm2, %ymm8, %ymm1
	vpshufb	%ymm14, %ymm1, %ymm8
	vmovdqa	%ymm14, %ymm10
	vpaddq	%ymm6, %ymm8, %ymm11
	vpxor	%ymm9, %ymm11, %ymm1
	vpsrlq	$63, %ymm1, %ymm6
	vpaddq	%ymm1, %ymm1, %ymm1
	vpor	%ymm6, %ymm1, %ymm6
	vpaddq	544(%rsp), %ymm12, %ymm1
	vpaddq	%ymm5, %ymm1, %ymm1
	vpxor	224(%rsp), %ymm1, %ymm9
	vpshufd	$177, %ymm9, %ymm9
	vpaddq	(%rsp), %ymm9, %ymm14
	vpxor	%ymm5, %ymm14, %ymm5
	vpshufb	%ymm13, %ymm5, %ymm5
	vpaddq	512(%rsp), %ymm1, %ymm1
	vpaddq	%ymm5, %ymm1, %ymm12
	vpxor	%ymm9, %ymm12, %ymm1
	vpshufb	%ymm10, %ymm1, %ymm9
	vpaddq	%ymm9, %ymm14, %ymm14
	vpxor	%ymm5, %ymm14, %ymm1
	vpsrlq	$63, %ymm1, %ymm5
	vpaddq	%ymm1, %ymm1, %ymm1
	vpor	%ymm5, %ymm1, %ymm1
	vpaddq	384(%rsp), %ymm15, %ymm5
	vpaddq	%ymm0, %ymm5, %ymm5
	vpxor	%ymm5, %ymm9, %ymm9
	vpshufd	$177, %ymm9, %ymm9
	vpaddq	%ymm11, %ymm9, %ymm11
	vpxor	%ymm0, %ymm11, %ymm0
	vpshufb	%ymm13, %ymm0, %ymm0
	vpaddq	416(%rsp), %ymm5, %ymm5
	vpaddq	%ymm0, %ymm5, %ymm5
	vmovdqu	%ymm5, 32(%rsp)
	vpxor	%ymm5, %ymm9, %ymm5
	vpshufb	%ymm10, %ymm5, %ymm5
	vmovdqu	%ymm5, 224(%rsp)
	vpaddq	%ymm5, %ymm11, %ymm5
	vmovdqu	%ymm5, 192(%rsp)
	vpxor	%ymm0, %ymm5, %ymm0
	vpsrlq	$63, %ymm0, %ymm5
	vpaddq	%ymm0, %ymm0, %ymm0
	vpor	%ymm5, %ymm0, %ymm11
	vmovdqu	480(%rsp), %ymm5
	vpaddq	%ymm5, %ymm3, %ymm0
	vpaddq	%ymm6, %ymm0, %ymm0
	vpxor	%ymm7, %ymm0, %ymm3
	vpshufd	$177, %ymm3, %ymm3
	vpaddq	%ymm3, %ymm14, %ymm7
	vpxor	%ymm6, %ymm7, %ymm6
	vpshufb	%ymm13, %ymm6, %ymm6
	vpaddq	576(%rsp), %ymm0, %ymm0
	vpaddq	%ymm6, %ymm0, %ymm0
	vpxor	%ymm3, %ymm0, %ymm3
	vmovdqa	%ymm10, %ymm15
	vpshufb	%ymm10, %ymm3, %ymm3
	vpaddq	%ymm3, %ymm7, %ymm7
	vmovdqu	%ymm7, 256(%rsp)
	vpxor	%ymm6, %ymm7, %ymm6
	vpsrlq	$63, %ymm6, %ymm7
	vpaddq	%ymm6, %ymm6, %ymm6
	vpor	%ymm7, %ymm6, %ymm6
	vmovdqu	%ymm6, (%rsp)
	vpaddq	640(%rsp), %ymm2, %ymm2
	vpaddq	%ymm1, %ymm2, %ymm2
	vpxor	%ymm4, %ymm2, %ymm4
	vpshufd	$177, %ymm4, %ymm4
	vpaddq	96(%rsp), %ymm4, %ymm6
	vpxor	%ymm1, %ymm6, %ymm1
	vpshufb	%ymm13, %ymm1, %ymm10
	vpaddq	320(%rsp), %ymm2, %ymm1
	vpaddq	%ymm1, %ymm10, %ymm2
	vpxor	%ymm4, %ymm2, %ymm1
	vpshufb	%ymm15, %ymm1, %ymm1
	vpaddq	%ymm1, %ymm6, %ymm7
	vpxor	%ymm7, %ymm10, %ymm4
	vpsrlq	$63, %ymm4, %ymm6
	vpaddq	%ymm4, %ymm4, %ymm4
	vpor	%ymm6, %ymm4, %ymm4
	vmovdqu	%ymm4, 128(%rsp)
	vmovdqu	448(%rsp), %ymm14
	vpaddq	%ymm14, %ymm12, %ymm4
	vmovdqu	160(%rsp), %ymm6
	vpaddq	%ymm6, %ymm4, %ymm4
	vpxor	%ymm4, %ymm8, %ymm8
	vpshufd	$177, %ymm8, %ymm8
	vpaddq	64(%rsp), %ymm8, %ymm10
	vpxor	%ymm6, %ymm10, %ymm12
	vpshufb	%ymm13, %ymm12, %ymm12
	vmovdqu	800(%rsp), %ymm6
	vpaddq	%ymm6, %ymm4, %ymm4
	vpaddq	%ymm4, %ymm12, %ymm9
	vpxor	%ymm8, %ymm9, %ymm4
	vpshufb	%ymm15, %ymm4, %ymm4
	vpaddq	%ymm4, %ymm10, %ymm8
	vpxor	%ymm12, %ymm8, %ymm10
	vpsrlq	$63, %ymm10, %ymm12
	vpaddq	%ymm10, %ymm10, %ymm10
	vpor	%ymm12, %ymm10, %ymm10
	vpaddq	32(%rsp), %ymm14, %ymm12
	vpaddq	%ymm10, %ymm12, %ymm12
	vpxor	%ymm3, %ymm12, %ymm3
	vpaddq	%ymm5, %ymm12, %ymm12
	vpshufd	$177, %ymm3, %ymm3
	vpaddq	%ymm7, %ymm3, %ymm14
	vpxor	%ymm10, %ymm14, %ymm7
	vpshufb	%ymm13, %ymm7, %ymm10
	vpaddq	%ymm10, %ymm12, %ymm12
	vpxor	%ymm3, %ymm12, %ymm3
	vpshufb	%ymm15, %ymm3, %ymm3
	vmovdqu	%ymm3, 160(%rsp)
	vpaddq	%ymm3, %ymm14, %ymm3
	vmovdqu	%ymm3, 448(%rsp)
	vpxor	%ymm3, %ymm10, %ymm3
	vpsrlq	$63, %ymm3, %ymm10
	vpaddq	%ymm3, %ymm3, %ymm3
	vpor	%ymm3, %ymm10, %ymm3
	vmovdqu	%ymm3, 480(%rsp)
	vpaddq	736(%rsp), %ymm0, %ymm0
	vpaddq	%ymm0, %ymm11, %ymm0
	vpxor	%ymm1, %ymm0, %ymm1
	vpaddq	384(%rsp), %ymm0, %ymm0
	vpshufd	$177, %ymm1, %ymm3
	vpaddq	%ymm3, %ymm8, %ymm8
	vpxor	%ymm11, %ymm8, %ymm1
	vpshufb	%ymm13, %ymm1, %ymm5
	vpaddq	%ymm5, %ymm0, %ymm7
	vpxor	%ymm3, %ymm7, %ymm0
	vmovdqa	%ymm15, %ymm11
	vpshufb	%ymm15, %ymm0, %ymm15
	vpaddq	%ymm15, %ymm8, %ymm8
	vpxor	%ymm5, %ymm8, %ymm0
	vpsrlq	$63, %ymm0, %ymm3
	vpaddq	%ymm0, %ymm0, %ymm0
	vpor	%ymm3, %ymm0, %ymm5
	vpaddq	416(%rsp), %ymm2, %ymm0
	vmovdqu	(%rsp), %ymm1
	vpaddq	%ymm1, %ymm0, %ymm0
	vpxor	%ymm4, %ymm0, %ymm2
	vpaddq	%ymm6, %ymm0, %ymm0
	vpshufd	$177, %ymm2, %ymm2
	vpaddq	192(%rsp), %ymm2, %ymm3
	vpxor	%ymm1, %ymm3, %ymm4
	vpshufb	%ymm13, %ymm4, %ymm10
	vpaddq	%ymm0, %ymm10, %ymm0
	vpxor	%ymm2, %ymm0, %ymm2
	vpshufb	%ymm11, %ymm2, %ymm4
	vmovdqa	%ymm11, %ymm14
	vpaddq	%ymm4, %ymm3, %ymm3
	vpxor	%ymm3, %ymm10, %ymm2
	vpsrlq	$63, %ymm2, %ymm10
	vpaddq	%ymm2, %ymm2, %ymm2
	vpor	%ymm2, %ymm10, %ymm2
	vpaddq	320(%rsp), %ymm9, %ymm10
	vmovdqu	128(%rsp), %ymm6
	vpaddq	%ymm6, %ymm10, %ymm10
	vpxor	224(%rsp), %ymm10, %ymm11
	vpaddq	544(%rsp), %ymm10, %ymm10
	vpshufd	$177, %ymm11, %ymm11
	vpaddq	256(%rsp), %ymm11, %ymm9
	vpxor	%ymm6, %ymm9, %ymm6
	vpshufb	%ymm13, %ymm6, %ymm6
	vpaddq	%ymm6, %ymm10, %ymm13
	vpxor	%ymm11, %ymm13, %ymm10
	vpshufb	%ymm14, %ymm10, %ymm10
	vpaddq	%ymm10, %ymm9, %ymm11
	vpxor	%ymm6, %ymm11, %ymm6
	vpsrlq	$63, %ymm6, %ymm9
	vpaddq	%ymm6, %ymm6, %ymm6
	vpor	%ymm6, %ymm9, %ymm9
	vpaddq	672(%rsp), %ymm12, %ymm6
	vpaddq	%ymm5, %ymm6, %ymm6
	vpxor	%ymm6, %ymm10, %ymm12
	vpaddq	640(%rsp), %ymm6, %ymm1
	vmovdqu	%ymm1, 320(%rsp)
	vpaddq	768(%rsp), %ymm7, %ymm1
	vpaddq	%ymm2, %ymm1, %ymm1
	vpxor	160(%rsp), %ymm1, %ymm10
	vpaddq	608(%rsp), %ymm1, %ymm6
	vpaddq	576(%rsp), %ymm0, %ymm0
	vpaddq	%ymm0, %ymm9, %ymm0
	vpxor	%ymm0, %ymm15, %ymm14
	vpaddq	512(%rsp), %ymm0, %ymm7
	vpaddq	832(%rsp), %ymm13, %ymm13
	vpshufd	$177, %ymm12, %ymm12
	vpaddq	%ymm3, %ymm12, %ymm1
	vmovdqu	%ymm1, 384(%rsp)
	vpshufd	$177, %ymm10, %ymm15
	vpaddq	%ymm11, %ymm15, %ymm0
	vmovdqu	%ymm0, 416(%rsp)
	vpxor	%ymm5, %ymm1, %ymm5
	vpxor	%ymm2, %ymm0, %ymm2
	vpshufd	$177, %ymm14, %ymm14
	vpaddq	448(%rsp), %ymm14, %ymm10
	vmovdqa	.L1_v3_CPI40_1(%rip), %ymm0
	vpshufb	%ymm0, %ymm5, %ymm5
	vpxor	%ymm9, %ymm10, %ymm9
	vmovdqu	480(%rsp), %ymm3
	vpaddq	%ymm3, %ymm13, %ymm13
	vpxor	%ymm4, %ymm13, %ymm11
	vpshufb	%ymm0, %ymm2, %ymm4
	vpshufd	$177, %ymm11, %ymm1
	vpaddq	%ymm1, %ymm8, %ymm8
	vpxor	%ymm3, %ymm8, %ymm2
	vpshufb	%ymm0, %ymm9, %ymm3
	vpshufb	%ymm0, %ymm2, %ymm11
	vpaddq	704(%rsp), %ymm13, %ymm9
	vpaddq	320(%rsp), %ymm5, %ymm13
	vpxor	%ymm12, %ymm13, %ymm2
	vmovdqa	.L1_v3_CPI40_2(%rip), %ymm0
	vpshufb	%ymm0, %ymm2, %ymm2
	vmovdqu	%ymm2, 320(%rsp)
	vpaddq	%ymm4, %ymm6, %ymm12
	vpxor	%ymm15, %ymm12, %ymm6
	vpshufb	%ymm0, %ymm6, %ymm15
	vpaddq	%ymm3, %ymm7, %ymm2
	vpxor	%ymm2, %ymm14, %ymm6
	vpaddq	%ymm11, %ymm9, %ymm9
	vpshufb	%ymm0, %ymm6, %ymm6
	vmovdqa	%ymm0, %ymm7
	vpxor	%ymm1, %ymm9, %ymm0
	vpshufb	%ymm7, %ymm0, %ymm7
	vpxor	1056(%rsp), %ymm13, %ymm0
	vpaddq	%ymm6, %ymm10, %ymm10
	vpxor	%ymm3, %ymm10, %ymm1
	vpxor	%ymm0, %ymm10, %ymm13
	vpxor	992(%rsp), %ymm12, %ymm0
	vmovdqu	320(%rsp), %ymm12
	vpaddq	384(%rsp), %ymm12, %ymm3
	vpxor	%ymm5, %ymm3, %ymm5
	vpsrlq	$63, %ymm5, %ymm10
	vpaddq	%ymm5, %ymm5, %ymm5
	vpor	%ymm5, %ymm10, %ymm5
	vpaddq	%ymm7, %ymm8, %ymm8
	vpxor	%ymm11, %ymm8, %ymm10
	vpxor	%ymm0, %ymm8, %ymm11
	vpaddq	416(%rsp), %ymm15, %ymm0
	vpxor	%ymm4, %ymm0, %ymm4
	vpsrlq	$63, %ymm4, %ymm8
	vpaddq	%ymm4, %ymm4, %ymm4
	vpor	%ymm4, %ymm8, %ymm4
	vpxor	896(%rsp), %ymm2, %ymm2
	vpsrlq	$63, %ymm1, %ymm8
	vpaddq	%ymm1, %ymm1, %ymm1
	vpor	%ymm1, %ymm8, %ymm1
	vpxor	%ymm3, %ymm2, %ymm2
	vmovdqu	%ymm2, 896(%rsp)
	vpsrlq	$63, %ymm10, %ymm2
	vpaddq	%ymm10, %ymm10, %ymm3
	vpor	%ymm2, %ymm3, %ymm2
	vpxor	960(%rsp), %ymm9, %ymm3
	vpxor	%ymm0, %ymm3, %ymm3
	vpxor	1120(%rsp), %ymm15, %ymm0
	vmovdqa	%ymm11, %ymm8
	vpxor	%ymm0, %ymm2, %ymm10
	vpxor	1088(%rsp), %ymm6, %ymm0
	vpxor	%ymm0, %ymm5, %ymm11
	vpxor	928(%rsp), %ymm7, %ymm0
	vpxor	%ymm0, %ymm4, %ymm0
	vmovdqu	%ymm0, 928(%rsp)
	vpxor	864(%rsp), %ymm12, %ymm0
	vpxor	%ymm0, %ymm1, %ymm0
	vmovdqu	%ymm0, 864(%rsp)
	subq	$-128, %rax
	cmpq	%rax, %rcx
	jne	1b
2:
	vmovdqu	%ymm13, (%rdi)
	vmovdqu	%ymm8, 32(%rdi)
	vmovups	896(%rsp), %ymm0
	vmovups	%ymm0, 64(%rdi)
	vmovdqu	%ymm3, 96(%rdi)
	vmovdqu	%ymm10, 128(%rdi)
	vmovdqu	%ymm11, 160(%rdi)
	vmovups	928(%rsp), %ymm0
	vmovups	%ymm0, 192(%rdi)
	vmovups	864(%rsp), %ymm0
	vmovups	%ymm0, 224(%rdi)
	addq	$1160, %rsp
	vzeroupper
	retq
	vj_end	blake2_parallel..lanes..blake2bp..compress_in_lanes_1_v3

	vj_function	blake2_parallel..lanes..blake2bp..Lanes..compress_held_1_v3
	pushq	%rbp
	pushq	%r15
	pushq	%r14
	pushq	%r13
	pushq	%r12
	pushq	%rbx
	subq	$1160, %rsp
	movq	%rdi, %rbx
	vmovups	(%rdi), %ymm0
	vmovups	32(%rdi), %ymm1
	vmovups	64(%rdi), %ymm2
	vmovups	96(%rdi), %ymm3
	vmovups	128(%rdi), %ymm4
	vmovups	160(%rdi), %ymm5
	vmovups	192(%rdi), %ymm6
	vmovups	224(%rdi), %ymm7
	vmovups	%ymm0, 8(%rsp)
	vmovups	%ymm1, 40(%rsp)
	vmovups	%ymm2, 72(%rsp)
	vmovups	%ymm3, 104(%rsp)
	vmovups	%ymm4, 136(%rsp)
	vmovups	%ymm5, 168(%rsp)
	vmovups	%ymm6, 200(%rsp)
	vmovups	%ymm7, 232(%rsp)
	movq	256(%rdi), %r15
	leaq	272(%rdi), %r14
	leaq	8(%rsp), %rdi
	movl	$1, %ecx
	movq	%r14, %rsi
	movq	%r15, %rdx
	vzeroupper
	callq	blake2_parallel..lanes..blake2bp..compress_in_lanes_1_v3
	leaq	784(%rbx), %rbp
	movq	$-512, %r12
	addq	264(%rbx), %r12
	leaq	264(%rsp), %r13
	movl	$896, %edx
	movq	%r13, %rdi
	xorl	%esi, %esi
	vj_c_call	memset
	movq	%r13, %rdi
	movq	%rbp, %rsi
	movq	%r12, %rdx
	vj_c_call	memcpy
	vmovups	8(%rsp), %ymm0
	vmovups	%ymm0, (%rbx)
	vmovups	40(%rsp), %ymm0
	vmovups	%ymm0, 32(%rbx)
	vmovups	72(%rsp), %ymm0
	vmovups	%ymm0, 64(%rbx)
	vmovups	104(%rsp), %ymm0
	vmovups	%ymm0, 96(%rbx)
	vmovups	136(%rsp), %ymm0
	vmovups	%ymm0, 128(%rbx)
	vmovups	168(%rsp), %ymm0
	vmovups	%ymm0, 160(%rbx)
	vmovups	200(%rsp), %ymm0
	vmovups	%ymm0, 192(%rbx)
	vmovups	232(%rsp), %ymm0
	vmovups	%ymm0, 224(%rbx)
	subq	$-128, %r15
	movq	%r15, 256(%rbx)
	movl	$896, %edx
	movq	%r14, %rdi
	movq	%r13, %rsi
	vzeroupper
	vj_c_call	memcpy
	movq	%r12, 264(%rbx)
	addq	$1160, %rsp
	popq	%rbx
	popq	%r12
	popq	%r13
	popq	%r14
	popq	%r15
	popq	%rbp
	retq
	vj_end	blake2_parallel..lanes..blake2bp..Lanes..compress_held_1_v3

	vj_function	blake2_ffi..blake2bp..is_digest_of_1_v3
	pushq	%rbp
	pushq	%r15
	pushq	%r14
	pushq	%r13
	pushq	%r12
	pushq	%rbx
	subq	$392, %rsp
	movq	%rdx, %rbx
	movq	%rsi, %r14
	movq	%rdi, %r15
	vxorps	%xmm0, %xmm0, %xmm0
	vmovups	%ymm0, 32(%rsp)
	vmovups	%ymm0, (%rsp)
	leaq	136(%rsp), %r12
	movq	%r12, %rdi
	movq	%r15, %rsi
	vzeroupper
	vj_call	blake2_parallel..lanes..blake2bp..Lanes..outputs_1_v3
	vmovups	1424(%r15), %ymm0
	vmovups	1456(%r15), %ymm1
	vmovups	%ymm0, 72(%rsp)
	vmovups	%ymm1, 104(%rsp)
	leaq	72(%rsp), %r13
	xorl	%ebp, %ebp
	movl	$128, %edx
	movq	%r13, %rdi
	movq	%r12, %rsi
	xorl	%ecx, %ecx
	xorl	%r8d, %r8d
	vzeroupper
	vj_call	blake2_compress..compress..blake2b..compress_1_v3
	movl	$256, %edx
	movq	%r13, %rdi
	leaq	264(%rsp), %rsi
	movl	$1, %ecx
	movl	$1, %r8d
	vj_call	blake2_compress..compress..blake2b..compress_1_v3
	vmovdqu	72(%rsp), %ymm0
	vmovdqu	104(%rsp), %ymm1
	vmovdqu	%ymm0, (%rsp)
	vmovdqu	%ymm1, 32(%rsp)
	cmpq	1496(%r15), %rbx
	jne	10f
	testq	%rbx, %rbx
	je	1f
	cmpq	$8, %rbx
	jae	2f
	xorl	%ecx, %ecx
	xorl	%eax, %eax
	jmp	7f
1:
	movb	$1, %bpl
	jmp	10f
2:
	cmpq	$128, %rbx
	jae	3f
	xorl	%eax, %eax
	xorl	%ecx, %ecx
	jmp	5f
3:
	movq	%rbx, %rax
	andq	$-128, %rax
	vpxor	%xmm0, %xmm0, %xmm0
	xorl	%ecx, %ecx
	vpxor	%xmm1, %xmm1, %xmm1
	vpxor	%xmm2, %xmm2, %xmm2
	vpxor	%xmm3, %xmm3, %xmm3
	.p2align	4
4:
	vmovdqu	(%rsp,%rcx), %ymm4
	vmovdqu	32(%rsp,%rcx), %ymm5
	vmovdqu	64(%rsp,%rcx), %ymm6
	vmovdqu	96(%rsp,%rcx), %ymm7
	vpxor	(%r14,%rcx), %ymm4, %ymm4
	vpor	%ymm0, %ymm4, %ymm0
	vpxor	32(%r14,%rcx), %ymm5, %ymm4
	vpor	%ymm1, %ymm4, %ymm1
	vpxor	64(%r14,%rcx), %ymm6, %ymm4
	vpxor	96(%r14,%rcx), %ymm7, %ymm5
	vpor	%ymm2, %ymm4, %ymm2
	vpor	%ymm3, %ymm5, %ymm3
	subq	$-128, %rcx
	cmpq	%rcx, %rax
	jne	4b
	vpor	%ymm0, %ymm1, %ymm0
	vpor	%ymm0, %ymm2, %ymm0
	vpor	%ymm0, %ymm3, %ymm0
	vextracti128	$1, %ymm0, %xmm1
	vpor	%xmm1, %xmm0, %xmm0
	vpshufd	$238, %xmm0, %xmm1
	vpor	%xmm1, %xmm0, %xmm0
	vpshufd	$85, %xmm0, %xmm1
	vpor	%xmm1, %xmm0, %xmm0
	vpsrld	$16, %xmm0, %xmm1
	vpor	%xmm1, %xmm0, %xmm0
	vpsrlw	$8, %xmm0, %xmm1
	vpor	%xmm1, %xmm0, %xmm0
	vmovd	%xmm0, %ecx
	cmpq	%rax, %rbx
	je	9f
	testb	$120, %bl
	je	7f
5:
	movq	%rax, %rdx
	movq	%rbx, %rax
	andq	$-8, %rax
	movzbl	%cl, %ecx
	vmovd	%ecx, %xmm0
	.p2align	4
6:
	movq	(%rsp,%rdx), %rcx
	xorq	(%r14,%rdx), %rcx
	vmovq	%rcx, %xmm1
	vpor	%xmm0, %xmm1, %xmm0
	addq	$8, %rdx
	cmpq	%rdx, %rax
	jne	6b
	vpshufd	$85, %xmm0, %xmm1
	vpor	%xmm1, %xmm0, %xmm0
	vpsrld	$16, %xmm0, %xmm1
	vpor	%xmm1, %xmm0, %xmm0
	vpsrlw	$8, %xmm0, %xmm1
	vpor	%xmm1, %xmm0, %xmm0
	vmovd	%xmm0, %ecx
	jmp	8f
7:
	movzbl	(%rsp,%rax), %edx
	xorb	(%r14,%rax), %dl
	orb	%dl, %cl
	incq	%rax
8:
	cmpq	%rax, %rbx
	jne	7b
9:
	testb	%cl, %cl
	sete	%bpl
10:
	movl	%ebp, %eax
	addq	$392, %rsp
	popq	%rbx
	popq	%r12
	popq	%r13
	popq	%r14
	popq	%r15
	popq	%rbp
	vzeroupper
	retq
	vj_end	blake2_ffi..blake2bp..is_digest_of_1_v3

	vj_function	blake2_ffi..blake2s..finalize_1_v3
	pushq	%rbx
	movq	%rdi, %rbx
	callq	blake2_state..blake2s..State..write_digest_1_v3
	vxorps	%xmm0, %xmm0, %xmm0
	vmovups	%ymm0, 144(%rbx)
	vmovups	%ymm0, 128(%rbx)
	vmovups	%ymm0, 96(%rbx)
	vmovups	%ymm0, 64(%rbx)
	vmovups	%ymm0, 32(%rbx)
	vmovups	%ymm0, (%rbx)
	popq	%rbx
	vzeroupper
	retq
	vj_end	blake2_ffi..blake2s..finalize_1_v3

	vj_function	blake2_state..blake2s..State..write_digest_1_v3
	pushq	%r15
	pushq	%r14
	pushq	%r12
	pushq	%rbx
	subq	$136, %rsp
	movq	%rsi, %rbx
	movq	%rdi, %r14
	vxorps	%xmm0, %xmm0, %xmm0
	vmovups	%ymm0, (%rsp)
	vmovups	(%rdi), %ymm1
	vmovups	%ymm1, 32(%rsp)
	movzwl	72(%rdi), %r15d
	leaq	80(%rdi), %rsi
	vmovups	%ymm0, 96(%rsp)
	vmovups	%ymm0, 64(%rsp)
	leaq	64(%rsp), %r12
	movq	%r12, %rdi
	movq	%r15, %rdx
	vzeroupper
	vj_c_call	memcpy
	xorl	%r8d, %r8d
	cmpw	$0, 78(%r14)
	setne	%r8b
	addq	64(%r14), %r15
	leaq	32(%rsp), %rdi
	movq	%r12, %rsi
	movq	%r15, %rdx
	movl	$1, %ecx
	vj_call	blake2_compress..compress..blake2s..compress_1_v3
	vmovups	32(%rsp), %ymm0
	vmovups	%ymm0, (%rsp)
	movzwl	76(%r14), %edx
	movq	%rsp, %rsi
	movq	%rbx, %rdi
	vzeroupper
	vj_c_call	memcpy
	addq	$136, %rsp
	popq	%rbx
	popq	%r12
	popq	%r14
	popq	%r15
	retq
	vj_end	blake2_state..blake2s..State..write_digest_1_v3

	vj_constants	16
	.p2align	4, 0x0
.L1_v3_CPI45_0:
	.long	0
	.long	0
	.long	0
	.long	4294967295
.L1_v3_CPI45_1:
	.long	1359893119
	.long	2600822924
	.long	3766232660
	.long	1541459225
.L1_v3_CPI45_2:
	.long	1359893119
	.long	2600822924
	.long	528734635
	.long	1541459225
.L1_v3_CPI45_3:
	.byte	2
	.byte	3
	.byte	0
	.byte	1
	.byte	6
	.byte	7
	.byte	4
	.byte	5
	.byte	10
	.byte	11
	.byte	8
	.byte	9
	.byte	14
	.byte	15
	.byte	12
	.byte	13
.L1_v3_CPI45_4:
	.long	1779033703
	.long	3144134277
	.long	1013904242
	.long	2773480762
.L1_v3_CPI45_5:
	.byte	1
	.byte	2
	.byte	3
	.byte	0
	.byte	5
	.byte	6
	.byte	7
	.byte	4
	.byte	9
	.byte	10
	.byte	11
	.byte	8
	.byte	13
	.byte	14
	.byte	15
	.byte	12
.L1_v3_CPI45_6:
	.byte	11
	.byte	8
	.byte	9
	.byte	10
	.byte	15
	.byte	12
	.byte	13
	.byte	14
	.byte	3
	.byte	0
	.byte	1
	.byte	2
	.byte	7
	.byte	4
	.byte	5
	.byte	6
.L1_v3_CPI45_7:
	.byte	9
	.byte	10
	.byte	11
	.byte	8
	.byte	13
	.byte	14
	.byte	15
	.byte	12
	.byte	1
	.byte	2
	.byte	3
	.byte	0
	.byte	5
	.byte	6
	.byte	7
	.byte	4
	vj_shared	blake2_compress..compress..blake2s..compress_1_v3
	vmovups	(%rsi), %xmm2
	vmovups	16(%rsi), %xmm5
	vmovdqu	(%rdi), %xmm1
	vmovdqu	16(%rdi), %xmm0
	testb	$1, %r8b
	jne	1f
	vpxor	%xmm6, %xmm6, %xmm6
	jmp	2f
1:
	vmovdqa	.L1_v3_CPI45_0(%rip), %xmm6
2:
	subq	$56, %rsp
	vmovdqu	32(%rsi), %xmm4
	vmovdqu	48(%rsi), %xmm3
	vmovq	%rdx, %xmm9
	vshufps	$136, %xmm5, %xmm2, %xmm8
	vshufps	$221, %xmm5, %xmm2, %xmm7
	vpaddd	%xmm0, %xmm1, %xmm10
	vpaddd	%xmm8, %xmm10, %xmm8
	testb	$1, %cl
	vmovdqa	%xmm1, 32(%rsp)
	jne	3f
	vmovdqa	.L1_v3_CPI45_2(%rip), %xmm10
	jmp	4f
3:
	vmovdqa	.L1_v3_CPI45_1(%rip), %xmm10
4:
	vpxor	%xmm9, %xmm10, %xmm9
	vpxor	%xmm6, %xmm9, %xmm6
	vpxor	%xmm6, %xmm8, %xmm9
	vmovdqa	.L1_v3_CPI45_3(%rip), %xmm1
	vpshufb	%xmm1, %xmm9, %xmm9
	vpaddd	.L1_v3_CPI45_4(%rip), %xmm9, %xmm10
	vpxor	%xmm0, %xmm10, %xmm11
	vpsrld	$12, %xmm11, %xmm12
	vpslld	$20, %xmm11, %xmm11
	vpor	%xmm12, %xmm11, %xmm11
	vpaddd	%xmm7, %xmm8, %xmm7
	vpaddd	%xmm7, %xmm11, %xmm8
	vpxor	%xmm9, %xmm8, %xmm9
	vmovdqa	.L1_v3_CPI45_5(%rip), %xmm7
	vpshufb	%xmm7, %xmm9, %xmm12
	vpaddd	%xmm10, %xmm12, %xmm10
	vpxor	%xmm11, %xmm10, %xmm11
	vpsrld	$7, %xmm11, %xmm12
	vpslld	$25, %xmm11, %xmm11
	vpor	%xmm12, %xmm11, %xmm11
	vpshufd	$147, %xmm8, %xmm8
	vpshufd	$57, %xmm10, %xmm10
	vpshufd	$224, %xmm4, %xmm12
	vpshufd	$38, %xmm3, %xmm13
	vpblendd	$6, %xmm12, %xmm13, %xmm12
	vpaddd	%xmm12, %xmm8, %xmm8
	vpshufd	$244, %xmm4, %xmm12
	vpshufd	$103, %xmm3, %xmm13
	vpblendd	$6, %xmm12, %xmm13, %xmm12
	vpaddd	%xmm11, %xmm8, %xmm13
	vpshufb	%xmm1, %xmm13, %xmm14
	vmovdqa	.L1_v3_CPI45_6(%rip), %xmm8
	vpshufb	%xmm8, %xmm9, %xmm9
	vpxor	%xmm9, %xmm14, %xmm9
	vpaddd	%xmm10, %xmm9, %xmm10
	vpxor	%xmm11, %xmm10, %xmm11
	vpsrld	$12, %xmm11, %xmm14
	vpslld	$20, %xmm11, %xmm11
	vpor	%xmm14, %xmm11, %xmm11
	vpaddd	%xmm12, %xmm13, %xmm12
	vpaddd	%xmm11, %xmm12, %xmm12
	vpxor	%xmm9, %xmm12, %xmm13
	vpshufb	%xmm7, %xmm13, %xmm9
	vpaddd	%xmm10, %xmm9, %xmm9
	vpxor	%xmm11, %xmm9, %xmm10
	vpsrld	$7, %xmm10, %xmm11
	vpslld	$25, %xmm10, %xmm10
	vpor	%xmm11, %xmm10, %xmm10
	vpshufd	$57, %xmm12, %xmm11
	vpshufd	$147, %xmm9, %xmm12
	vblendps	$12, %xmm3, %xmm5, %xmm9
	vshufps	$210, %xmm4, %xmm9, %xmm14
	vbroadcastss	52(%rsi), %xmm9
	vblendps	$8, %xmm9, %xmm14, %xmm14
	vpaddd	%xmm14, %xmm11, %xmm11
	vshufps	$242, %xmm3, %xmm4, %xmm14
	vinsertps	$176, %xmm5, %xmm14, %xmm14
	vpaddd	%xmm10, %xmm11, %xmm11
	vpshufb	%xmm1, %xmm11, %xmm15
	vpshufb	%xmm8, %xmm13, %xmm13
	vpxor	%xmm13, %xmm15, %xmm13
	vpaddd	%xmm12, %xmm13, %xmm12
	vpxor	%xmm10, %xmm12, %xmm10
	vpsrld	$12, %xmm10, %xmm15
	vpslld	$20, %xmm10, %xmm10
	vpor	%xmm15, %xmm10, %xmm10
	vpaddd	%xmm14, %xmm11, %xmm11
	vpaddd	%xmm10, %xmm11, %xmm11
	vpxor	%xmm13, %xmm11, %xmm13
	vpshufb	%xmm7, %xmm13, %xmm14
	vpaddd	%xmm12, %xmm14, %xmm12
	vpxor	%xmm10, %xmm12, %xmm10
	vpsrld	$7, %xmm10, %xmm14
	vpslld	$25, %xmm10, %xmm10
	vpor	%xmm14, %xmm10, %xmm10
	vpshufd	$147, %xmm11, %xmm11
	vpshufd	$57, %xmm12, %xmm12
	vunpcklps	%xmm5, %xmm2, %xmm14
	vshufps	$203, %xmm14, %xmm14, %xmm14
	vblendps	$8, %xmm4, %xmm14, %xmm14
	vpaddd	%xmm14, %xmm11, %xmm11
	vblendps	$12, %xmm2, %xmm3, %xmm14
	vshufps	$227, %xmm14, %xmm14, %xmm14
	vblendps	$8, %xmm5, %xmm14, %xmm14
	vpaddd	%xmm10, %xmm11, %xmm11
	vpshufb	%xmm1, %xmm11, %xmm15
	vpshufb	%xmm8, %xmm13, %xmm13
	vpxor	%xmm13, %xmm15, %xmm13
	vpaddd	%xmm12, %xmm13, %xmm12
	vpxor	%xmm10, %xmm12, %xmm10
	vpsrld	$12, %xmm10, %xmm15
	vpslld	$20, %xmm10, %xmm10
	vpor	%xmm15, %xmm10, %xmm10
	vpaddd	%xmm14, %xmm11, %xmm11
	vpaddd	%xmm10, %xmm11, %xmm11
	vpxor	%xmm13, %xmm11, %xmm13
	vpshufb	%xmm7, %xmm13, %xmm14
	vpaddd	%xmm12, %xmm14, %xmm12
	vpxor	%xmm10, %xmm12, %xmm10
	vpsrld	$7, %xmm10, %xmm14
	vpslld	$25, %xmm10, %xmm10
	vpor	%xmm14, %xmm10, %xmm14
	vpshufd	$57, %xmm11, %xmm10
	vpshufd	$147, %xmm12, %xmm11
	vpalignr	$12, %xmm4, %xmm3, %xmm12
	vshufps	$212, %xmm5, %xmm12, %xmm12
	vblendps	$8, %xmm3, %xmm12, %xmm12
	vpaddd	%xmm12, %xmm10, %xmm12
	vunpcklps	%xmm2, %xmm4, %xmm6
	vmovaps	%xmm6, (%rsp)
	vblendps	$12, %xmm2, %xmm6, %xmm15
	vblendps	$8, %xmm9, %xmm15, %xmm9
	vpaddd	%xmm14, %xmm12, %xmm12
	vmovdqa	%xmm1, %xmm10
	vpshufb	%xmm1, %xmm12, %xmm15
	vpshufb	%xmm8, %xmm13, %xmm13
	vpxor	%xmm13, %xmm15, %xmm13
	vpaddd	%xmm11, %xmm13, %xmm11
	vpxor	%xmm14, %xmm11, %xmm14
	vpsrld	$12, %xmm14, %xmm15
	vpslld	$20, %xmm14, %xmm14
	vpor	%xmm15, %xmm14, %xmm14
	vpaddd	%xmm9, %xmm12, %xmm9
	vpaddd	%xmm14, %xmm9, %xmm9
	vpxor	%xmm13, %xmm9, %xmm12
	vpshufb	%xmm7, %xmm12, %xmm13
	vpaddd	%xmm11, %xmm13, %xmm11
	vpxor	%xmm14, %xmm11, %xmm13
	vpsrld	$7, %xmm13, %xmm14
	vpslld	$25, %xmm13, %xmm13
	vpor	%xmm14, %xmm13, %xmm13
	vpshufd	$147, %xmm9, %xmm9
	vpshufd	$57, %xmm11, %xmm11
	vshufps	$249, %xmm2, %xmm4, %xmm14
	vblendps	$8, %xmm5, %xmm14, %xmm14
	vpaddd	%xmm14, %xmm9, %xmm9
	vshufps	$250, %xmm3, %xmm3, %xmm14
	vblendps	$2, %xmm14, %xmm5, %xmm14
	vpaddd	%xmm13, %xmm9, %xmm15
	vpshufb	%xmm1, %xmm15, %xmm9
	vpshufb	%xmm8, %xmm12, %xmm12
	vpxor	%xmm12, %xmm9, %xmm12
	vpaddd	%xmm11, %xmm12, %xmm11
	vpxor	%xmm13, %xmm11, %xmm9
	vpsrld	$12, %xmm9, %xmm13
	vpslld	$20, %xmm9, %xmm9
	vpor	%xmm13, %xmm9, %xmm13
	vbroadcastss	4(%rsi), %xmm9
	vblendps	$8, %xmm9, %xmm14, %xmm14
	vpaddd	%xmm14, %xmm15, %xmm14
	vpaddd	%xmm13, %xmm14, %xmm14
	vpxor	%xmm12, %xmm14, %xmm12
	vpshufb	%xmm7, %xmm12, %xmm15
	vpaddd	%xmm11, %xmm15, %xmm11
	vpxor	%xmm13, %xmm11, %xmm13
	vpsrld	$7, %xmm13, %xmm15
	vpslld	$25, %xmm13, %xmm13
	vpor	%xmm15, %xmm13, %xmm13
	vpshufd	$57, %xmm14, %xmm14
	vpshufd	$147, %xmm11, %xmm11
	vunpckhps	%xmm2, %xmm5, %xmm15
	vshufps	$222, %xmm3, %xmm15, %xmm15
	vblendps	$8, %xmm4, %xmm15, %xmm15
	vpaddd	%xmm15, %xmm14, %xmm14
	vpaddd	%xmm13, %xmm14, %xmm14
	vpshufb	%xmm1, %xmm14, %xmm15
	vpshufb	%xmm8, %xmm12, %xmm12
	vpxor	%xmm12, %xmm15, %xmm12
	vpaddd	%xmm11, %xmm12, %xmm15
	vpxor	%xmm13, %xmm15, %xmm11
	vpsrld	$12, %xmm11, %xmm13
	vpslld	$20, %xmm11, %xmm11
	vpor	%xmm13, %xmm11, %xmm13
	vshufps	$85, %xmm4, %xmm4, %xmm11
	vblendps	$2, %xmm2, %xmm11, %xmm1
	vshufps	$132, %xmm3, %xmm1, %xmm1
	vpaddd	%xmm1, %xmm14, %xmm1
	vpaddd	%xmm1, %xmm13, %xmm1
	vpxor	%xmm1, %xmm12, %xmm12
	vpshufb	%xmm7, %xmm12, %xmm14
	vpaddd	%xmm15, %xmm14, %xmm14
	vpxor	%xmm13, %xmm14, %xmm13
	vpsrld	$7, %xmm13, %xmm15
	vpslld	$25, %xmm13, %xmm13
	vpor	%xmm15, %xmm13, %xmm13
	vpshufd	$147, %xmm1, %xmm1
	vblendps	$8, %xmm3, %xmm2, %xmm15
	vshufps	$27, %xmm5, %xmm15, %xmm15
	vpaddd	%xmm1, %xmm15, %xmm1
	vshufps	$250, %xmm5, %xmm5, %xmm15
	vblendps	$2, %xmm15, %xmm4, %xmm15
	vmovdqa	%xmm0, 16(%rsp)
	vbroadcastss	%xmm2, %xmm0
	vblendps	$8, %xmm0, %xmm15, %xmm0
	vpaddd	%xmm1, %xmm13, %xmm1
	vpshufb	%xmm8, %xmm12, %xmm12
	vpshufb	%xmm10, %xmm1, %xmm15
	vpxor	%xmm12, %xmm15, %xmm12
	vpshufd	$57, %xmm14, %xmm14
	vpaddd	%xmm14, %xmm12, %xmm14
	vpxor	%xmm13, %xmm14, %xmm13
	vpsrld	$12, %xmm13, %xmm15
	vpslld	$20, %xmm13, %xmm13
	vpor	%xmm15, %xmm13, %xmm13
	vpaddd	%xmm0, %xmm1, %xmm0
	vpaddd	%xmm0, %xmm13, %xmm0
	vpxor	%xmm0, %xmm12, %xmm1
	vpshufb	%xmm7, %xmm1, %xmm12
	vpaddd	%xmm14, %xmm12, %xmm14
	vpxor	%xmm13, %xmm14, %xmm12
	vpsrld	$7, %xmm12, %xmm13
	vpslld	$25, %xmm12, %xmm12
	vpor	%xmm13, %xmm12, %xmm13
	vpshufd	$57, %xmm0, %xmm0
	vblendps	$2, %xmm5, %xmm11, %xmm12
	vblendps	$12, %xmm2, %xmm12, %xmm15
	vshufps	$170, %xmm4, %xmm4, %xmm12
	vblendps	$8, %xmm12, %xmm15, %xmm15
	vpaddd	%xmm0, %xmm15, %xmm0
	vpaddd	%xmm0, %xmm13, %xmm0
	vpshufb	%xmm8, %xmm1, %xmm1
	vpshufb	%xmm10, %xmm0, %xmm15
	vpxor	%xmm1, %xmm15, %xmm1
	vpshufd	$147, %xmm14, %xmm14
	vpaddd	%xmm1, %xmm14, %xmm14
	vpxor	%xmm13, %xmm14, %xmm13
	vpsrld	$12, %xmm13, %xmm15
	vpslld	$20, %xmm13, %xmm13
	vpor	%xmm15, %xmm13, %xmm13
	vshufps	$78, %xmm5, %xmm5, %xmm15
	vblendps	$1, %xmm2, %xmm15, %xmm15
	vblendps	$8, %xmm3, %xmm15, %xmm15
	vpaddd	%xmm0, %xmm15, %xmm0
	vpaddd	%xmm0, %xmm13, %xmm0
	vpxor	%xmm1, %xmm0, %xmm1
	vpshufb	%xmm7, %xmm1, %xmm15
	vpaddd	%xmm14, %xmm15, %xmm14
	vpxor	%xmm13, %xmm14, %xmm13
	vpsrld	$7, %xmm13, %xmm15
	vpslld	$25, %xmm13, %xmm13
	vpor	%xmm15, %xmm13, %xmm13
	vpshufd	$147, %xmm0, %xmm0
	vblendps	$8, %xmm2, %xmm3, %xmm15
	vshufps	$251, %xmm4, %xmm15, %xmm15
	vinsertps	$176, %xmm5, %xmm15, %xmm15
	vpaddd	%xmm0, %xmm15, %xmm0
	vpaddd	%xmm0, %xmm13, %xmm0
	vpshufb	%xmm8, %xmm1, %xmm1
	vpshufb	%xmm10, %xmm0, %xmm15
	vpxor	%xmm1, %xmm15, %xmm1
	vpshufd	$57, %xmm14, %xmm14
	vpaddd	%xmm1, %xmm14, %xmm14
	vpxor	%xmm13, %xmm14, %xmm13
	vpsrld	$12, %xmm13, %xmm15
	vpslld	$20, %xmm13, %xmm13
	vpor	%xmm15, %xmm13, %xmm13
	vshufps	$197, %xmm3, %xmm3, %xmm15
	vblendps	$2, %xmm2, %xmm15, %xmm15
	vmovaps	%xmm4, %xmm6
	vbroadcastss	%xmm4, %xmm4
	vblendps	$8, %xmm4, %xmm15, %xmm15
	vpaddd	%xmm0, %xmm15, %xmm0
	vpaddd	%xmm0, %xmm13, %xmm0
	vpxor	%xmm1, %xmm0, %xmm1
	vpshufb	%xmm7, %xmm1, %xmm15
	vpaddd	%xmm14, %xmm15, %xmm14
	vpxor	%xmm13, %xmm14, %xmm13
	vpsrld	$7, %xmm13, %xmm15
	vpslld	$25, %xmm13, %xmm13
	vpor	%xmm15, %xmm13, %xmm13
	vshufps	$36, %xmm2, %xmm2, %xmm15
	vunpckhps	%xmm5, %xmm15, %xmm15
	vblendps	$8, %xmm4, %xmm15, %xmm4
	vpshufd	$57, %xmm0, %xmm0
	vpaddd	%xmm4, %xmm0, %xmm0
	vpaddd	%xmm0, %xmm13, %xmm0
	vpshufb	%xmm8, %xmm1, %xmm1
	vpshufb	%xmm10, %xmm0, %xmm4
	vpxor	%xmm1, %xmm4, %xmm1
	vpshufd	$147, %xmm14, %xmm4
	vpaddd	%xmm4, %xmm1, %xmm4
	vpxor	%xmm4, %xmm13, %xmm13
	vpsrld	$12, %xmm13, %xmm14
	vpslld	$20, %xmm13, %xmm13
	vpor	%xmm14, %xmm13, %xmm13
	vshufps	$250, %xmm6, %xmm6, %xmm14
	vblendps	$1, %xmm3, %xmm14, %xmm14
	vblendps	$8, %xmm2, %xmm14, %xmm14
	vpaddd	%xmm0, %xmm14, %xmm0
	vpaddd	%xmm0, %xmm13, %xmm0
	vpxor	%xmm1, %xmm0, %xmm1
	vpshufb	%xmm7, %xmm1, %xmm14
	vpaddd	%xmm4, %xmm14, %xmm4
	vpxor	%xmm4, %xmm13, %xmm13
	vpsrld	$7, %xmm13, %xmm14
	vpslld	$25, %xmm13, %xmm13
	vpor	%xmm14, %xmm13, %xmm13
	vpshufd	$147, %xmm0, %xmm0
	vblendps	$2, %xmm2, %xmm5, %xmm14
	vshufps	$241, %xmm14, %xmm14, %xmm14
	vblendps	$8, %xmm3, %xmm14, %xmm14
	vpaddd	%xmm0, %xmm14, %xmm0
	vpaddd	%xmm0, %xmm13, %xmm0
	vpshufb	%xmm8, %xmm1, %xmm1
	vpshufb	%xmm10, %xmm0, %xmm14
	vpxor	%xmm1, %xmm14, %xmm1
	vpshufd	$57, %xmm4, %xmm4
	vpaddd	%xmm4, %xmm1, %xmm4
	vpxor	%xmm4, %xmm13, %xmm13
	vpsrld	$12, %xmm13, %xmm14
	vpslld	$20, %xmm13, %xmm13
	vpor	%xmm14, %xmm13, %xmm13
	vblendps	$2, %xmm3, %xmm11, %xmm11
	vshufps	$212, %xmm5, %xmm11, %xmm11
	vinsertps	$176, %xmm3, %xmm11, %xmm11
	vpaddd	%xmm0, %xmm11, %xmm0
	vpaddd	%xmm0, %xmm13, %xmm0
	vpxor	%xmm1, %xmm0, %xmm1
	vpshufb	%xmm7, %xmm1, %xmm11
	vpaddd	%xmm4, %xmm11, %xmm4
	vpxor	%xmm4, %xmm13, %xmm11
	vpsrld	$7, %xmm11, %xmm13
	vpslld	$25, %xmm11, %xmm11
	vpor	%xmm13, %xmm11, %xmm11
	vblendps	$2, %xmm2, %xmm3, %xmm13
	vbroadcastss	%xmm5, %xmm14
	vblendps	$8, %xmm14, %xmm13, %xmm13
	vpshufd	$57, %xmm0, %xmm0
	vpaddd	%xmm0, %xmm13, %xmm0
	vshufps	$85, %xmm5, %xmm5, %xmm13
	vshufps	$220, %xmm3, %xmm3, %xmm14
	vblendps	$1, %xmm13, %xmm14, %xmm13
	vblendps	$8, %xmm12, %xmm13, %xmm12
	vpaddd	%xmm0, %xmm11, %xmm0
	vpshufb	%xmm8, %xmm1, %xmm1
	vmovdqa	%xmm10, %xmm14
	vpshufb	%xmm10, %xmm0, %xmm13
	vpxor	%xmm1, %xmm13, %xmm1
	vpshufd	$147, %xmm4, %xmm4
	vpaddd	%xmm4, %xmm1, %xmm4
	vpxor	%xmm4, %xmm11, %xmm11
	vpsrld	$12, %xmm11, %xmm13
	vpslld	$20, %xmm11, %xmm11
	vpor	%xmm13, %xmm11, %xmm11
	vpaddd	%xmm0, %xmm12, %xmm0
	vpaddd	%xmm0, %xmm11, %xmm0
	vpxor	%xmm1, %xmm0, %xmm1
	vpshufb	%xmm7, %xmm1, %xmm12
	vpaddd	%xmm4, %xmm12, %xmm4
	vpxor	%xmm4, %xmm11, %xmm11
	vpsrld	$7, %xmm11, %xmm12
	vpslld	$25, %xmm11, %xmm11
	vpor	%xmm12, %xmm11, %xmm11
	vpshufd	$147, %xmm0, %xmm0
	vpshufd	$57, %xmm4, %xmm4
	vblendps	$3, (%rsp), %xmm5, %xmm12
	vbroadcastss	36(%rsi), %xmm10
	vblendps	$8, %xmm10, %xmm12, %xmm12
	vpaddd	%xmm0, %xmm12, %xmm0
	vpaddd	%xmm0, %xmm11, %xmm0
	vpshufb	%xmm14, %xmm0, %xmm12
	vpshufb	%xmm8, %xmm1, %xmm1
	vpxor	%xmm1, %xmm12, %xmm1
	vpaddd	%xmm4, %xmm1, %xmm4
	vpxor	%xmm4, %xmm11, %xmm11
	vpsrld	$12, %xmm11, %xmm12
	vpslld	$20, %xmm11, %xmm11
	vpor	%xmm12, %xmm11, %xmm11
	vunpckhps	%xmm5, %xmm6, %xmm12
	vshufps	$190, %xmm2, %xmm12, %xmm12
	vpaddd	%xmm0, %xmm12, %xmm0
	vpaddd	%xmm0, %xmm11, %xmm0
	vpxor	%xmm1, %xmm0, %xmm1
	vpshufb	%xmm7, %xmm1, %xmm12
	vpaddd	%xmm4, %xmm12, %xmm4
	vpxor	%xmm4, %xmm11, %xmm11
	vpsrld	$7, %xmm11, %xmm12
	vpslld	$25, %xmm11, %xmm11
	vpor	%xmm12, %xmm11, %xmm11
	vpshufd	$57, %xmm0, %xmm0
	vpshufd	$147, %xmm4, %xmm4
	vblendps	$12, %xmm5, %xmm3, %xmm12
	vshufps	$205, %xmm12, %xmm12, %xmm12
	vblendps	$8, %xmm2, %xmm12, %xmm12
	vpaddd	%xmm0, %xmm12, %xmm0
	vblendps	$8, %xmm6, %xmm3, %xmm12
	vshufps	$219, %xmm2, %xmm12, %xmm12
	vblendps	$8, %xmm10, %xmm12, %xmm10
	vpaddd	%xmm0, %xmm11, %xmm0
	vpshufb	%xmm14, %xmm0, %xmm12
	vpshufb	%xmm8, %xmm1, %xmm1
	vpxor	%xmm1, %xmm12, %xmm1
	vpaddd	%xmm4, %xmm1, %xmm4
	vpxor	%xmm4, %xmm11, %xmm11
	vpsrld	$12, %xmm11, %xmm12
	vpslld	$20, %xmm11, %xmm11
	vpor	%xmm12, %xmm11, %xmm11
	vpaddd	%xmm0, %xmm10, %xmm0
	vpaddd	%xmm0, %xmm11, %xmm0
	vpxor	%xmm1, %xmm0, %xmm1
	vpshufb	%xmm7, %xmm1, %xmm10
	vpaddd	%xmm4, %xmm10, %xmm4
	vpxor	%xmm4, %xmm11, %xmm10
	vpsrld	$7, %xmm10, %xmm11
	vpslld	$25, %xmm10, %xmm10
	vpor	%xmm11, %xmm10, %xmm11
	vpshufd	$147, %xmm0, %xmm0
	vpshufd	$57, %xmm4, %xmm4
	vbroadcastss	8(%rsi), %xmm10
	vblendps	$2, %xmm5, %xmm10, %xmm12
	vshufps	$244, %xmm3, %xmm12, %xmm12
	vinsertps	$48, %xmm6, %xmm12, %xmm12
	vpaddd	%xmm0, %xmm12, %xmm0
	vpaddd	%xmm0, %xmm11, %xmm0
	vpshufb	%xmm14, %xmm0, %xmm12
	vpshufb	%xmm8, %xmm1, %xmm1
	vpxor	%xmm1, %xmm12, %xmm1
	vpaddd	%xmm4, %xmm1, %xmm4
	vpxor	%xmm4, %xmm11, %xmm11
	vpsrld	$12, %xmm11, %xmm12
	vpslld	$20, %xmm11, %xmm11
	vpor	%xmm12, %xmm11, %xmm11
	vblendps	$12, %xmm6, %xmm2, %xmm12
	vshufps	$130, %xmm5, %xmm12, %xmm12
	vpaddd	%xmm0, %xmm12, %xmm0
	vpaddd	%xmm0, %xmm11, %xmm0
	vpxor	%xmm1, %xmm0, %xmm1
	vpshufb	%xmm7, %xmm1, %xmm12
	vpaddd	%xmm4, %xmm12, %xmm4
	vpxor	%xmm4, %xmm11, %xmm11
	vpsrld	$7, %xmm11, %xmm12
	vpslld	$25, %xmm11, %xmm11
	vpor	%xmm12, %xmm11, %xmm11
	vpshufd	$57, %xmm0, %xmm0
	vpshufd	$147, %xmm4, %xmm4
	vunpckhps	%xmm3, %xmm5, %xmm12
	vshufps	$244, %xmm6, %xmm12, %xmm12
	vinsertps	$48, %xmm2, %xmm12, %xmm12
	vpaddd	%xmm0, %xmm12, %xmm0
	vpaddd	%xmm0, %xmm11, %xmm0
	vpshufb	%xmm14, %xmm0, %xmm12
	vpshufb	%xmm8, %xmm1, %xmm1
	vpxor	%xmm1, %xmm12, %xmm1
	vpaddd	%xmm4, %xmm1, %xmm4
	vpxor	%xmm4, %xmm11, %xmm11
	vpsrld	$12, %xmm11, %xmm12
	vpslld	$20, %xmm11, %xmm11
	vpor	%xmm12, %xmm11, %xmm11
	vshufps	$255, %xmm3, %xmm3, %xmm12
	vblendps	$2, %xmm6, %xmm12, %xmm12
	vshufps	$244, %xmm2, %xmm12, %xmm12
	vinsertps	$48, %xmm6, %xmm12, %xmm12
	vpaddd	%xmm0, %xmm12, %xmm0
	vpaddd	%xmm0, %xmm11, %xmm0
	vpxor	%xmm1, %xmm0, %xmm1
	vpshufb	%xmm7, %xmm1, %xmm12
	vpaddd	%xmm4, %xmm12, %xmm4
	vpxor	%xmm4, %xmm11, %xmm11
	vpsrld	$7, %xmm11, %xmm12
	vpslld	$25, %xmm11, %xmm11
	vpor	%xmm12, %xmm11, %xmm11
	vpshufd	$147, %xmm0, %xmm0
	vpshufd	$57, %xmm4, %xmm4
	vblendps	$12, %xmm6, %xmm3, %xmm12
	vshufps	$210, %xmm12, %xmm12, %xmm12
	vblendps	$8, %xmm9, %xmm12, %xmm12
	vpaddd	%xmm0, %xmm12, %xmm0
	vpaddd	%xmm0, %xmm11, %xmm0
	vpshufb	%xmm14, %xmm0, %xmm12
	vpshufb	%xmm8, %xmm1, %xmm1
	vpxor	%xmm1, %xmm12, %xmm1
	vpaddd	%xmm4, %xmm1, %xmm4
	vpxor	%xmm4, %xmm11, %xmm11
	vpsrld	$12, %xmm11, %xmm12
	vpslld	$20, %xmm11, %xmm11
	vpor	%xmm12, %xmm11, %xmm11
	vblendps	$4, %xmm2, %xmm5, %xmm12
	vshufps	$57, %xmm12, %xmm12, %xmm12
	vpaddd	%xmm0, %xmm12, %xmm0
	vpaddd	%xmm0, %xmm11, %xmm0
	vpxor	%xmm1, %xmm0, %xmm1
	vpshufb	%xmm7, %xmm1, %xmm12
	vpaddd	%xmm4, %xmm12, %xmm4
	vpxor	%xmm4, %xmm11, %xmm11
	vpsrld	$7, %xmm11, %xmm12
	vpslld	$25, %xmm11, %xmm11
	vpor	%xmm12, %xmm11, %xmm11
	vshufps	$242, %xmm5, %xmm6, %xmm12
	vblendps	$8, %xmm9, %xmm12, %xmm9
	vpshufd	$57, %xmm0, %xmm0
	vpaddd	%xmm0, %xmm9, %xmm0
	vpshufd	$147, %xmm4, %xmm4
	vshufps	$96, %xmm5, %xmm5, %xmm5
	vblendps	$1, %xmm10, %xmm5, %xmm5
	vpaddd	%xmm0, %xmm11, %xmm0
	vpshufb	%xmm14, %xmm0, %xmm9
	vpshufb	%xmm8, %xmm1, %xmm1
	vpxor	%xmm1, %xmm9, %xmm1
	vpaddd	%xmm4, %xmm1, %xmm4
	vpxor	%xmm4, %xmm11, %xmm9
	vpsrld	$12, %xmm9, %xmm10
	vpslld	$20, %xmm9, %xmm9
	vpor	%xmm10, %xmm9, %xmm9
	vpaddd	%xmm5, %xmm0, %xmm0
	vpaddd	%xmm0, %xmm9, %xmm0
	vpxor	%xmm1, %xmm0, %xmm1
	vpshufb	%xmm7, %xmm1, %xmm5
	vpaddd	%xmm4, %xmm5, %xmm4
	vpxor	%xmm4, %xmm9, %xmm5
	vpsrld	$7, %xmm5, %xmm9
	vpslld	$25, %xmm5, %xmm5
	vpor	%xmm5, %xmm9, %xmm5
	vpshufd	$147, %xmm0, %xmm0
	vshufps	$221, %xmm6, %xmm3, %xmm9
	vblendps	$8, %xmm2, %xmm9, %xmm9
	vpaddd	%xmm0, %xmm9, %xmm0
	vbroadcastss	44(%rsi), %xmm9
	vunpcklps	%xmm9, %xmm2, %xmm2
	vshufps	$36, %xmm3, %xmm2, %xmm2
	vpshufb	%xmm8, %xmm1, %xmm1
	vpshufd	$57, %xmm4, %xmm3
	vpaddd	%xmm5, %xmm0, %xmm0
	vpshufb	%xmm14, %xmm0, %xmm4
	vpxor	%xmm1, %xmm4, %xmm1
	vpaddd	%xmm3, %xmm1, %xmm3
	vpxor	%xmm5, %xmm3, %xmm4
	vpsrld	$12, %xmm4, %xmm5
	vpslld	$20, %xmm4, %xmm4
	vpor	%xmm5, %xmm4, %xmm4
	vpaddd	%xmm2, %xmm0, %xmm0
	vpaddd	%xmm4, %xmm0, %xmm0
	vpxor	%xmm1, %xmm0, %xmm1
	vpshufb	%xmm7, %xmm1, %xmm2
	vpaddd	%xmm3, %xmm2, %xmm2
	vpxor	%xmm4, %xmm2, %xmm3
	vpsrld	$7, %xmm3, %xmm4
	vpslld	$25, %xmm3, %xmm3
	vpor	%xmm4, %xmm3, %xmm3
	vpshufd	$57, %xmm0, %xmm0
	vpxor	32(%rsp), %xmm0, %xmm0
	vpshufd	$147, %xmm2, %xmm2
	vpxor	%xmm2, %xmm0, %xmm0
	vpxor	16(%rsp), %xmm3, %xmm2
	vpshufb	.L1_v3_CPI45_7(%rip), %xmm1, %xmm1
	vpxor	%xmm2, %xmm1, %xmm1
	vmovdqu	%xmm0, (%rdi)
	vmovdqu	%xmm1, 16(%rdi)
	addq	$56, %rsp
	retq
	vj_end	blake2_compress..compress..blake2s..compress_1_v3

	vj_function	blake2_digest..wiping..scrub_stack..768_1_v3
	pushq	%rbx
	subq	$768, %rsp
	movq	%rsp, %rbx
	movl	$768, %edx
	movq	%rbx, %rdi
	xorl	%esi, %esi
	vj_c_call	memset
	movq	%rbx, %rdi
	callq	blake2_digest..wiping..settle..768_1_v3
	addq	$768, %rsp
	popq	%rbx
	retq
	vj_end	blake2_digest..wiping..scrub_stack..768_1_v3

	vj_function	blake2_digest..wiping..settle..768_1_v3
	vmovdqu	128(%rdi), %ymm0
	vmovdqu	160(%rdi), %ymm1
	vmovdqu	192(%rdi), %ymm2
	vmovdqu	224(%rdi), %ymm3
	vpor	(%rdi), %ymm0, %ymm0
	vpor	32(%rdi), %ymm1, %ymm1
	vpor	64(%rdi), %ymm2, %ymm2
	vpor	96(%rdi), %ymm3, %ymm3
	vpor	256(%rdi), %ymm0, %ymm0
	vpor	288(%rdi), %ymm1, %ymm1
	vpor	320(%rdi), %ymm2, %ymm2
	vpor	352(%rdi), %ymm3, %ymm3
	vpor	384(%rdi), %ymm0, %ymm0
	vpor	416(%rdi), %ymm1, %ymm1
	vpor	448(%rdi), %ymm2, %ymm2
	vpor	480(%rdi), %ymm3, %ymm3
	vpor	512(%rdi), %ymm0, %ymm0
	vpor	544(%rdi), %ymm1, %ymm1
	vpor	576(%rdi), %ymm2, %ymm2
	vpor	608(%rdi), %ymm3, %ymm3
	vpor	640(%rdi), %ymm0, %ymm0
	vpor	672(%rdi), %ymm1, %ymm1
	vpor	%ymm0, %ymm1, %ymm0
	vpor	704(%rdi), %ymm2, %ymm1
	vpor	736(%rdi), %ymm3, %ymm2
	vpor	%ymm1, %ymm2, %ymm1
	vpor	%ymm0, %ymm1, %ymm0
	vptest	%ymm0, %ymm0
	je	1f
	pause
1:
	vzeroupper
	retq
	vj_end	blake2_digest..wiping..settle..768_1_v3

	vj_constants	32
	.p2align	5, 0x0
.L1_v3_CPI48_0:
	.long	1779033703
	.long	3144134277
	.long	1013904242
	.long	2773480762
	.long	1359893119
	.long	2600822924
	.long	528734635
	.long	1541459225
	vj_function	blake2_ffi..blake2s..initialize_1_v3
	pushq	%rbp
	pushq	%r15
	pushq	%r14
	pushq	%r13
	pushq	%r12
	pushq	%rbx
	subq	$248, %rsp
	movq	%rdx, %rcx
	movq	(%rsi), %r13
	movq	16(%rsi), %r14
	movq	32(%rsi), %rdx
	movq	48(%rsi), %rbx
	movzwl	(%rcx), %r8d
	leaq	-33(%r13), %rax
	cmpq	$-32, %rax
	setb	%al
	cmpq	$33, %r14
	setae	%r9b
	cmpq	$9, %rdx
	setae	%r10b
	orb	%r9b, %r10b
	orb	%al, %r10b
	cmpq	$9, %rbx
	setae	%al
	cmpl	$256, %r8d
	setb	%r9b
	orb	%al, %r9b
	orb	%r10b, %r9b
	jne	1f
	movq	8(%rcx), %r10
	movzwl	16(%rcx), %r9d
	movzwl	%r9w, %eax
	cmpl	$8448, %eax
	setb	%al
	movq	%r10, %r11
	shrq	$48, %r11
	sete	%r11b
	andb	%al, %r11b
	cmpb	$1, %r11b
	jne	1f
	movq	%rdi, %rbp
	movq	24(%rsi), %rax
	movq	40(%rsi), %r15
	vmovd	4(%rcx), %xmm0
	testq	%r14, %r14
	je	2f
	movq	8(%rsi), %r12
	shll	$16, %r8d
	vxorps	%xmm1, %xmm1, %xmm1
	vmovaps	%xmm1, (%rsp)
	movl	%r14d, %ecx
	shll	$8, %ecx
	movzwl	%cx, %ecx
	orl	%r8d, %ecx
	orl	%r13d, %ecx
	vmovd	%ecx, %xmm1
	vpunpckldq	%xmm0, %xmm1, %xmm0
	vmovq	%r10, %xmm1
	vpunpcklqdq	%xmm1, %xmm0, %xmm0
	vpinsrw	$7, %r9d, %xmm0, %xmm0
	vmovdqu	%ymm0, 16(%rsp)
	movq	%rsp, %rdi
	movq	%rax, %rsi
	vzeroupper
	vj_c_call	memcpy
	leaq	8(%rsp), %rdi
	movq	%r15, %rsi
	movq	%rbx, %rdx
	vj_c_call	memcpy
	vmovups	16(%rsp), %ymm0
	vinsertf128	$1, (%rsp), %ymm0, %ymm0
	vmovups	%ymm0, 16(%rsp)
	movl	$32, %eax
	subq	%r14, %rax
	xorl	%edx, %edx
	cmpq	$32, %r14
	cmovbq	%rax, %rdx
	leaq	(%rsp,%r14), %rdi
	addq	$144, %rdi
	xorl	%esi, %esi
	vzeroupper
	vj_c_call	memset
	leaq	144(%rsp), %rdi
	movq	%r12, %rsi
	movq	%r14, %rdx
	vj_c_call	memcpy
	vxorps	%xmm0, %xmm0, %xmm0
	vmovups	%ymm0, 208(%rsp)
	vmovdqu	144(%rsp), %ymm1
	vmovdqu	%ymm1, 176(%rsp)
	vmovups	%ymm0, 112(%rsp)
	vmovdqu	%ymm1, 80(%rsp)
	vmovdqu	%ymm1, 48(%rsp)
	vmovups	16(%rsp), %ymm0
	vxorps	.L1_v3_CPI48_0(%rip), %ymm0, %ymm0
	movw	$64, %ax
	jmp	3f
1:
	vxorps	%xmm0, %xmm0, %xmm0
	vmovups	%ymm0, 144(%rdi)
	vmovups	%ymm0, 128(%rdi)
	vmovups	%ymm0, 96(%rdi)
	vmovups	%ymm0, 64(%rdi)
	vmovups	%ymm0, 32(%rdi)
	vmovups	%ymm0, (%rdi)
	movl	$-1, %eax
	jmp	4f
2:
	vxorps	%xmm1, %xmm1, %xmm1
	vmovaps	%xmm1, (%rsp)
	shll	$16, %r8d
	movl	%r13d, %ecx
	orl	%r8d, %ecx
	vmovd	%ecx, %xmm1
	vpunpckldq	%xmm0, %xmm1, %xmm0
	vmovq	%r10, %xmm1
	vpunpcklqdq	%xmm1, %xmm0, %xmm0
	vpinsrw	$7, %r9d, %xmm0, %xmm0
	vmovdqu	%ymm0, 16(%rsp)
	movq	%rsp, %rdi
	movq	%rax, %rsi
	vzeroupper
	vj_c_call	memcpy
	leaq	8(%rsp), %rdi
	movq	%r15, %rsi
	movq	%rbx, %rdx
	vj_c_call	memcpy
	vmovups	16(%rsp), %ymm0
	vinsertf128	$1, (%rsp), %ymm0, %ymm0
	vpxor	%xmm1, %xmm1, %xmm1
	vmovdqu	%ymm1, 80(%rsp)
	vmovdqu	%ymm1, 112(%rsp)
	vmovdqu	%ymm1, 48(%rsp)
	vxorps	.L1_v3_CPI48_0(%rip), %ymm0, %ymm0
	xorl	%eax, %eax
3:
	vmovups	%ymm0, (%rbp)
	vmovups	%ymm0, 32(%rbp)
	movq	$0, 64(%rbp)
	movw	%ax, 72(%rbp)
	movw	%ax, 74(%rbp)
	movw	%r13w, 76(%rbp)
	movw	$0, 78(%rbp)
	vmovups	80(%rsp), %ymm0
	vmovups	112(%rsp), %ymm1
	vmovups	%ymm0, 80(%rbp)
	vmovups	%ymm1, 112(%rbp)
	vmovups	48(%rsp), %ymm0
	vmovups	%ymm0, 144(%rbp)
	xorl	%eax, %eax
4:
	addq	$248, %rsp
	popq	%rbx
	popq	%r12
	popq	%r13
	popq	%r14
	popq	%r15
	popq	%rbp
	vzeroupper
	retq
	vj_end	blake2_ffi..blake2s..initialize_1_v3

	vj_function	blake2_state..blake2s..State..save_1_v3
	pushq	%rbp
	pushq	%r15
	pushq	%r14
	pushq	%r13
	pushq	%r12
	pushq	%rbx
	subq	$216, %rsp
	movzwl	76(%rsi), %r14d
	leal	-1(%r14), %eax
	cmpw	$31, %ax
	ja	1f
	movzwl	72(%rsi), %ebx
	cmpq	$64, %rbx
	ja	1f
	movzwl	74(%rsi), %eax
	cmpw	$64, %ax
	ja	1f
	movl	%ebx, %ecx
	notl	%ecx
	movswq	%cx, %rcx
	cmpq	%rcx, 64(%rsi)
	ja	1f
	movl	32(%rsi), %ebp
	movl	%ebp, %ecx
	andl	$65280, %ecx
	cmpl	$58880, %ecx
	sete	%cl
	testw	%ax, %ax
	sete	%al
	testb	%cl, %al
	je	1f
	movzwl	78(%rsi), %r13d
	vxorps	%xmm0, %xmm0, %xmm0
	vmovups	%ymm0, 112(%rsp)
	vmovups	%ymm0, 80(%rsp)
	movzbl	12(%rsi), %eax
	movb	%al, 13(%rsp)
	vmovups	(%rsi), %xmm0
	vmovaps	%xmm0, 32(%rsp)
	movzbl	28(%rsi), %eax
	movb	%al, 14(%rsp)
	vmovups	16(%rsi), %xmm0
	vmovaps	%xmm0, 48(%rsp)
	movq	36(%rsi), %r12
	movl	44(%rsi), %eax
	movl	%eax, 16(%rsp)
	movzbl	60(%rsi), %eax
	movb	%al, 15(%rsp)
	vmovups	48(%rsi), %xmm0
	vmovaps	%xmm0, 64(%rsp)
	movq	64(%rsi), %rax
	movq	%rax, 24(%rsp)
	movl	8(%rsi), %eax
	movl	%eax, 20(%rsp)
	addq	$80, %rsi
	leaq	80(%rsp), %rax
	movq	%rdi, %r15
	movq	%rax, %rdi
	movq	%rbx, %rdx
	vzeroupper
	vj_c_call	memcpy
	testw	%r13w, %r13w
	vmovq	%r12, %xmm0
	vmovd	%ebp, %xmm1
	vpshufd	$80, %xmm0, %xmm0
	vmovups	80(%rsp), %ymm2
	vmovups	112(%rsp), %ymm3
	vmovups	%ymm2, 144(%rsp)
	vmovups	%ymm3, 176(%rsp)
	vpblendd	$1, %xmm1, %xmm0, %xmm1
	setne	83(%r15)
	movl	16(%rsp), %edx
	vpinsrd	$3, %edx, %xmm1, %xmm0
	movb	$1, (%r15)
	movabsq	$104482489556356162, %rax
	movq	%rax, 1(%r15)
	vmovdqa	32(%rsp), %xmm2
	vmovq	%xmm2, 9(%r15)
	movl	20(%rsp), %eax
	movl	%eax, 17(%r15)
	movzbl	13(%rsp), %eax
	movb	%al, 21(%r15)
	vmovdqa	48(%rsp), %xmm3
	vpalignr	$13, %xmm2, %xmm3, %xmm2
	vmovq	%xmm2, 22(%r15)
	vpsrldq	$5, %xmm3, %xmm2
	vmovd	%xmm2, 30(%r15)
	vpextrb	$9, %xmm3, 34(%r15)
	movq	%r12, %rax
	vpextrb	$10, %xmm3, 35(%r15)
	shrq	$40, %rax
	movq	%r12, %rcx
	vpextrb	$11, %xmm3, 36(%r15)
	movzbl	14(%rsp), %esi
	movb	%sil, 37(%r15)
	vpalignr	$13, %xmm3, %xmm1, %xmm1
	vmovq	%xmm1, 38(%r15)
	shrq	$48, %rcx
	vpsrldq	$5, %xmm0, %xmm1
	vmovd	%xmm1, 46(%r15)
	shrq	$56, %r12
	movb	%al, 50(%r15)
	movb	%cl, 51(%r15)
	movb	%r12b, 52(%r15)
	movb	%dl, 53(%r15)
	vmovdqa	64(%rsp), %xmm1
	vpalignr	$13, %xmm0, %xmm1, %xmm0
	vmovq	%xmm0, 54(%r15)
	vpsrldq	$5, %xmm1, %xmm0
	vmovd	%xmm0, 62(%r15)
	vpextrb	$9, %xmm1, 66(%r15)
	vpextrb	$10, %xmm1, 67(%r15)
	vpextrb	$11, %xmm1, 68(%r15)
	movzbl	15(%rsp), %eax
	movb	%al, 69(%r15)
	vpextrb	$13, %xmm1, 70(%r15)
	vpextrb	$14, %xmm1, 71(%r15)
	vpextrb	$15, %xmm1, 72(%r15)
	movq	24(%rsp), %rax
	movq	%rax, 73(%r15)
	movb	%r14b, 81(%r15)
	movb	%bl, 82(%r15)
	vmovups	144(%rsp), %ymm0
	vmovups	176(%rsp), %ymm1
	vmovups	%ymm1, 116(%r15)
	vmovups	%ymm0, 84(%r15)
	jmp	2f
1:
	vxorps	%xmm0, %xmm0, %xmm0
	vmovups	%ymm0, 116(%rdi)
	vmovups	%ymm0, 96(%rdi)
	vmovups	%ymm0, 64(%rdi)
	vmovups	%ymm0, 32(%rdi)
	vmovups	%ymm0, (%rdi)
2:
	addq	$216, %rsp
	popq	%rbx
	popq	%r12
	popq	%r13
	popq	%r14
	popq	%r15
	popq	%rbp
	vzeroupper
	retq
	vj_end	blake2_state..blake2s..State..save_1_v3

	vj_function	blake2_ffi..blake2s..update_scrubbed_1_v3
	pushq	%rax
	callq	blake2_ffi..blake2s..update_in_frame_1_v3
	popq	%rax
	jmp	blake2_digest..wiping..scrub_stack..512_1_v3
	vj_end	blake2_ffi..blake2s..update_scrubbed_1_v3

	vj_function	blake2_ffi..blake2s..update_in_frame_1_v3
	cmpq	$1, %rdx
	jne	blake2_state..blake2s..State..absorb_blocks_1_v3
	movzwl	72(%rdi), %eax
	cmpq	$64, %rax
	jae	1f
	movzbl	(%rsi), %ecx
	movb	%cl, 80(%rdi,%rax)
	incl	%eax
	movw	%ax, 72(%rdi)
	retq
1:
	movl	$1, %edx
	jmp	blake2_state..blake2s..State..absorb_blocks_1_v3
	vj_end	blake2_ffi..blake2s..update_in_frame_1_v3

	vj_function	blake2_digest..wiping..scrub_stack..512_1_v3
	subq	$520, %rsp
	vxorps	%xmm0, %xmm0, %xmm0
	vmovups	%ymm0, 480(%rsp)
	vmovups	%ymm0, 448(%rsp)
	vmovups	%ymm0, 416(%rsp)
	vmovups	%ymm0, 384(%rsp)
	vmovups	%ymm0, 352(%rsp)
	vmovups	%ymm0, 320(%rsp)
	vmovups	%ymm0, 288(%rsp)
	vmovups	%ymm0, 256(%rsp)
	vmovups	%ymm0, 224(%rsp)
	vmovups	%ymm0, 192(%rsp)
	vmovups	%ymm0, 160(%rsp)
	vmovups	%ymm0, 128(%rsp)
	vmovups	%ymm0, 96(%rsp)
	vmovups	%ymm0, 64(%rsp)
	vmovups	%ymm0, 32(%rsp)
	vmovups	%ymm0, (%rsp)
	movq	%rsp, %rdi
	vzeroupper
	callq	blake2_digest..wiping..settle..512_1_v3
	addq	$520, %rsp
	retq
	vj_end	blake2_digest..wiping..scrub_stack..512_1_v3

	vj_function	blake2_digest..wiping..settle..512_1_v3
	vmovdqu	128(%rdi), %ymm0
	vmovdqu	160(%rdi), %ymm1
	vmovdqu	192(%rdi), %ymm2
	vmovdqu	224(%rdi), %ymm3
	vpor	(%rdi), %ymm0, %ymm0
	vpor	32(%rdi), %ymm1, %ymm1
	vpor	64(%rdi), %ymm2, %ymm2
	vpor	96(%rdi), %ymm3, %ymm3
	vpor	256(%rdi), %ymm0, %ymm0
	vpor	288(%rdi), %ymm1, %ymm1
	vpor	320(%rdi), %ymm2, %ymm2
	vpor	352(%rdi), %ymm3, %ymm3
	vpor	384(%rdi), %ymm0, %ymm0
	vpor	416(%rdi), %ymm1, %ymm1
	vpor	%ymm0, %ymm1, %ymm0
	vpor	448(%rdi), %ymm2, %ymm1
	vpor	480(%rdi), %ymm3, %ymm2
	vpor	%ymm1, %ymm2, %ymm1
	vpor	%ymm0, %ymm1, %ymm0
	vptest	%ymm0, %ymm0
	je	1f
	pause
1:
	vzeroupper
	retq
	vj_end	blake2_digest..wiping..settle..512_1_v3

	vj_function	blake2_state..blake2s..State..absorb_blocks_1_v3
	pushq	%rbp
	pushq	%r15
	pushq	%r14
	pushq	%r13
	pushq	%r12
	pushq	%rbx
	subq	$104, %rsp
	movq	%rsi, %r14
	movq	%rdi, %rbx
	movzwl	72(%rdi), %r13d
	movl	$64, %r12d
	subq	%r13, %r12
	movq	%rdx, %rbp
	subq	%r12, %rbp
	jbe	1f
	movq	64(%rbx), %r8
	vmovups	(%rbx), %ymm0
	vmovups	32(%rbx), %ymm1
	xorl	%eax, %eax
	cmpw	$0, 78(%rbx)
	setne	%al
	vmovups	%ymm0, 16(%rsp)
	vmovups	%ymm1, 48(%rsp)
	movq	%r8, 80(%rsp)
	movq	%rax, 88(%rsp)
	leaq	80(%rbx), %r15
	testq	%r13, %r13
	je	9f
	leaq	(%r15,%r13), %rdi
	movq	%rdi, %rax
	subq	%r14, %rax
	cmpq	%r12, %rax
	jae	10f
	cmpl	$8, %r12d
	jae	11f
	xorl	%eax, %eax
	jmp	22f
1:
	leaq	(%rbx,%r13), %rdi
	addq	$80, %rdi
	movq	%rdi, %rax
	subq	%r14, %rax
	cmpq	%rdx, %rax
	jae	7f
	cmpq	$8, %rdx
	jb	2f
	leaq	(%rbx,%r13), %rax
	subq	%r14, %rax
	addq	$80, %rax
	cmpq	$128, %rax
	jae	12f
2:
	xorl	%eax, %eax
3:
	movq	%rdx, %rsi
	movq	%rax, %rcx
	andq	$7, %rsi
	je	5f
	movq	%rax, %rcx
	.p2align	4
4:
	movzbl	(%r14,%rcx), %r8d
	movb	%r8b, (%rdi,%rcx)
	incq	%rcx
	decq	%rsi
	jne	4b
5:
	subq	%rdx, %rax
	cmpq	$-8, %rax
	ja	8f
	leaq	(%rbx,%r13), %rax
	addq	$87, %rax
	.p2align	4
6:
	movzbl	(%r14,%rcx), %esi
	movb	%sil, -7(%rax,%rcx)
	movzbl	1(%r14,%rcx), %esi
	movb	%sil, -6(%rax,%rcx)
	movzbl	2(%r14,%rcx), %esi
	movb	%sil, -5(%rax,%rcx)
	movzbl	3(%r14,%rcx), %esi
	movb	%sil, -4(%rax,%rcx)
	movzbl	4(%r14,%rcx), %esi
	movb	%sil, -3(%rax,%rcx)
	movzbl	5(%r14,%rcx), %esi
	movb	%sil, -2(%rax,%rcx)
	movzbl	6(%r14,%rcx), %esi
	movb	%sil, -1(%rax,%rcx)
	movzbl	7(%r14,%rcx), %esi
	movb	%sil, (%rax,%rcx)
	addq	$8, %rcx
	cmpq	%rcx, %rdx
	jne	6b
	jmp	8f
7:
	movq	%r14, %rsi
	movq	%rdx, %r14
	vj_c_call	memmove
	movq	%r14, %rdx
8:
	addl	%r13d, %edx
	movw	%dx, 72(%rbx)
	jmp	36f
9:
	movq	%rdx, %rbp
	jmp	24f
10:
	movq	%r14, %rsi
	movq	%r12, %rdx
	movq	%r8, %r13
	vzeroupper
	vj_c_call	memmove
	movq	%r13, %r8
	jmp	23f
11:
	leaq	(%rbx,%r13), %rax
	subq	%r14, %rax
	addq	$80, %rax
	cmpq	$128, %rax
	jae	13f
	xorl	%eax, %eax
	jmp	22f
12:
	cmpq	$128, %rdx
	jae	14f
	xorl	%eax, %eax
	jmp	16f
13:
	cmpl	$128, %r12d
	jae	18f
	xorl	%eax, %eax
	jmp	20f
14:
	movq	%rdx, %rax
	andq	$-128, %rax
	leaq	(%rbx,%r13), %rcx
	addq	$176, %rcx
	xorl	%esi, %esi
	.p2align	4
15:
	vmovups	(%r14,%rsi), %ymm0
	vmovups	32(%r14,%rsi), %ymm1
	vmovups	64(%r14,%rsi), %ymm2
	vmovups	96(%r14,%rsi), %ymm3
	vmovups	%ymm0, -96(%rcx,%rsi)
	vmovups	%ymm1, -64(%rcx,%rsi)
	vmovups	%ymm2, -32(%rcx,%rsi)
	vmovups	%ymm3, (%rcx,%rsi)
	subq	$-128, %rsi
	cmpq	%rsi, %rax
	jne	15b
	cmpq	%rax, %rdx
	je	8b
	testb	$120, %dl
	je	3b
16:
	movq	%rax, %rcx
	movq	%rdx, %rax
	andq	$-8, %rax
	.p2align	4
17:
	movq	(%r14,%rcx), %rsi
	movq	%rsi, (%rdi,%rcx)
	addq	$8, %rcx
	cmpq	%rcx, %rax
	jne	17b
	cmpq	%rax, %rdx
	je	8b
	jmp	3b
18:
	movq	%r12, %rax
	andq	$-128, %rax
	leaq	(%rbx,%r13), %rcx
	addq	$176, %rcx
	xorl	%edx, %edx
	.p2align	4
19:
	vmovups	(%r14,%rdx), %ymm0
	vmovups	32(%r14,%rdx), %ymm1
	vmovups	64(%r14,%rdx), %ymm2
	vmovups	96(%r14,%rdx), %ymm3
	vmovups	%ymm0, -96(%rcx,%rdx)
	vmovups	%ymm1, -64(%rcx,%rdx)
	vmovups	%ymm2, -32(%rcx,%rdx)
	vmovups	%ymm3, (%rcx,%rdx)
	subq	$-128, %rdx
	cmpq	%rdx, %rax
	jne	19b
	cmpl	%eax, %r12d
	je	23f
	testb	$120, %r12b
	je	22f
20:
	movq	%rax, %rcx
	movq	%r12, %rax
	andq	$-8, %rax
	.p2align	4
21:
	movq	(%r14,%rcx), %rdx
	movq	%rdx, (%rdi,%rcx)
	addq	$8, %rcx
	cmpq	%rcx, %rax
	jne	21b
	cmpl	%eax, %r12d
	je	23f
	.p2align	4
22:
	movzbl	(%r14,%rax), %ecx
	movb	%cl, (%rdi,%rax)
	incq	%rax
	cmpq	%rax, %r12
	jne	22b
23:
	addq	%r12, %r14
	addq	$64, %r8
	movq	%r8, 80(%rsp)
	leaq	16(%rsp), %rdi
	movq	%r15, %rsi
	movq	%r8, %rdx
	xorl	%ecx, %ecx
	xorl	%r8d, %r8d
	vzeroupper
	vj_call	blake2_compress..compress..blake2s..compress_1_v3
24:
	cmpq	$1, %rbp
	movq	%rbp, 8(%rsp)
	movq	%rbp, %r13
	adcq	$-1, %r13
	movq	%r13, %rbp
	andq	$-64, %rbp
	shrq	$6, %r13
	je	26f
	movq	%r14, %r12
	.p2align	4
25:
	movq	80(%rsp), %rdx
	addq	$64, %rdx
	movq	%rdx, 80(%rsp)
	leaq	16(%rsp), %rdi
	movq	%r12, %rsi
	xorl	%ecx, %ecx
	xorl	%r8d, %r8d
	vzeroupper
	vj_call	blake2_compress..compress..blake2s..compress_1_v3
	addq	$64, %r12
	decq	%r13
	jne	25b
26:
	leaq	(%r14,%rbp), %rsi
	movq	8(%rsp), %r12
	subq	%rbp, %r12
	vxorps	%xmm0, %xmm0, %xmm0
	vmovups	%ymm0, 32(%r15)
	vmovups	%ymm0, (%r15)
	movq	%r15, %rax
	subq	%rsi, %rax
	cmpq	%r12, %rax
	jae	27f
	cmpq	$8, %r12
	jae	28f
	xorl	%eax, %eax
	jmp	34f
27:
	movq	%r15, %rdi
	movq	%r12, %rdx
	vzeroupper
	vj_c_call	memmove
	jmp	35f
28:
	movq	%rbx, %rax
	subq	%rsi, %rax
	addq	$80, %rax
	cmpq	$128, %rax
	jae	29f
	xorl	%eax, %eax
	jmp	34f
29:
	cmpq	$128, %r12
	jae	30f
	xorl	%eax, %eax
	movq	8(%rsp), %rdi
	jmp	32f
30:
	movq	%r12, %rax
	andq	$-128, %rax
	leaq	(%r14,%rbp), %rcx
	addq	$96, %rcx
	xorl	%edx, %edx
	.p2align	4
31:
	vmovups	-96(%rcx,%rdx), %ymm0
	vmovups	-64(%rcx,%rdx), %ymm1
	vmovups	-32(%rcx,%rdx), %ymm2
	vmovups	(%rcx,%rdx), %ymm3
	vmovups	%ymm0, 80(%rbx,%rdx)
	vmovups	%ymm1, 112(%rbx,%rdx)
	vmovups	%ymm2, 144(%rbx,%rdx)
	vmovups	%ymm3, 176(%rbx,%rdx)
	subq	$-128, %rdx
	cmpq	%rdx, %rax
	jne	31b
	cmpq	%rax, %r12
	movq	8(%rsp), %rdi
	je	35f
	testb	$120, %r12b
	je	34f
32:
	movq	%rax, %rcx
	andl	$7, %edi
	movq	%r12, %rax
	subq	%rdi, %rax
	.p2align	4
33:
	movq	(%rsi,%rcx), %rdx
	movq	%rdx, (%r15,%rcx)
	addq	$8, %rcx
	cmpq	%rcx, %rax
	jne	33b
	testq	%rdi, %rdi
	je	35f
	.p2align	4
34:
	movzbl	(%rsi,%rax), %ecx
	movb	%cl, (%r15,%rax)
	incq	%rax
	cmpq	%rax, %r12
	jne	34b
35:
	movw	%r12w, 72(%rbx)
	vmovups	16(%rsp), %ymm0
	vmovups	%ymm0, (%rbx)
	movq	80(%rsp), %rax
	movq	%rax, 64(%rbx)
36:
	addq	$104, %rsp
	popq	%rbx
	popq	%r12
	popq	%r13
	popq	%r14
	popq	%r15
	popq	%rbp
	vzeroupper
	retq
	vj_end	blake2_state..blake2s..State..absorb_blocks_1_v3

	vj_function	blake2_ffi..several..blake2s..update_in_frame_1_v3
	vj_jump	blake2_state..many..blake2s..update_many_1_v3
	vj_end	blake2_ffi..several..blake2s..update_in_frame_1_v3

	vj_constants	8
	.p2align	3, 0x0
.L1_v3_CPI56_0:
	.quad	64
.L1_v3_CPI56_1:
	.quad	128
	vj_shared	blake2_state..many..blake2s..update_many_1_v3
	testq	%rcx, %rcx
	je	16f
	pushq	%rbp
	pushq	%r15
	pushq	%r14
	pushq	%r13
	pushq	%r12
	pushq	%rbx
	subq	$2440, %rsp
	movq	%rcx, %r15
	movq	%rdx, %r13
	movq	%rdi, %r12
	leaq	8(%rdx), %rax
	movq	%rax, 528(%rsp)
	xorl	%ebp, %ebp
	movq	%rcx, 552(%rsp)
	movq	%rdx, 544(%rsp)
	movq	%rdi, 536(%rsp)
	jmp	3f
	.p2align	4
1:
	movl	$8, %ebx
	movq	552(%rsp), %r15
	movq	544(%rsp), %r13
	movq	536(%rsp), %r12
	movq	56(%rsp), %rbp
2:
	addq	%rbx, %rbp
	cmpq	%r15, %rbp
	jae	15f
3:
	movq	%r15, %rax
	subq	%rbp, %rax
	imulq	$176, %rbp, %rdi
	cmpq	$7, %rax
	jbe	10f
	movq	%rbp, %rax
	shlq	$4, %rax
	movq	8(%r13,%rax), %rdx
	movzwl	72(%r12,%rdi), %ecx
	leaq	(%rdx,%rcx), %rsi
	movzwl	248(%rdi,%r12), %r14d
	movq	24(%r13,%rax), %r8
	addq	%r14, %r8
	cmpq	%rsi, %r8
	cmovaeq	%rsi, %r8
	movzwl	424(%rdi,%r12), %ebx
	movq	40(%r13,%rax), %rsi
	addq	%rbx, %rsi
	cmpq	%r8, %rsi
	cmovaeq	%r8, %rsi
	movzwl	600(%rdi,%r12), %r9d
	movq	56(%r13,%rax), %r8
	movq	%r9, 496(%rsp)
	addq	%r9, %r8
	cmpq	%rsi, %r8
	cmovaeq	%rsi, %r8
	movzwl	776(%rdi,%r12), %r9d
	movq	72(%r13,%rax), %rsi
	movq	%r9, 320(%rsp)
	addq	%r9, %rsi
	cmpq	%r8, %rsi
	cmovaeq	%r8, %rsi
	movzwl	952(%rdi,%r12), %r11d
	movq	88(%r13,%rax), %r8
	addq	%r11, %r8
	cmpq	%rsi, %r8
	cmovaeq	%rsi, %r8
	movzwl	1128(%rdi,%r12), %r10d
	movq	104(%r13,%rax), %rsi
	addq	%r10, %rsi
	cmpq	%r8, %rsi
	cmovaeq	%r8, %rsi
	movzwl	1304(%rdi,%r12), %r9d
	movq	120(%r13,%rax), %r8
	addq	%r9, %r8
	cmpq	%rsi, %r8
	cmovaeq	%rsi, %r8
	cmpq	$65, %r8
	jb	11f
	movq	%rbp, 56(%rsp)
	leaq	(%r12,%rdi), %rdx
	vxorps	%xmm0, %xmm0, %xmm0
	vmovups	%ymm0, 1024(%rsp)
	vmovups	%ymm0, 1056(%rsp)
	vmovups	%ymm0, 1088(%rsp)
	vmovups	%ymm0, 1120(%rsp)
	vmovups	%ymm0, 1152(%rsp)
	vmovups	%ymm0, 1184(%rsp)
	vmovups	%ymm0, 1216(%rsp)
	leaq	176(%rdi,%r12), %r15
	vmovups	%ymm0, 1248(%rsp)
	movq	%rdx, 48(%rsp)
	vmovd	(%rdx), %xmm0
	vpinsrd	$1, (%r15), %xmm0, %xmm0
	vpinsrd	$2, 176(%r15), %xmm0, %xmm0
	vpinsrd	$3, 352(%r15), %xmm0, %xmm0
	vmovdqa	%xmm0, 480(%rsp)
	vmovd	528(%r15), %xmm0
	vpinsrd	$1, 704(%r15), %xmm0, %xmm0
	vpinsrd	$2, 880(%r15), %xmm0, %xmm0
	vpinsrd	$3, 1056(%r15), %xmm0, %xmm0
	vmovdqa	%xmm0, 1008(%rsp)
	vmovd	4(%rdx), %xmm0
	vpinsrd	$1, 4(%r15), %xmm0, %xmm0
	vpinsrd	$2, 180(%r15), %xmm0, %xmm0
	vpinsrd	$3, 356(%r15), %xmm0, %xmm0
	vmovdqa	%xmm0, 992(%rsp)
	vmovd	532(%r15), %xmm0
	vpinsrd	$1, 708(%r15), %xmm0, %xmm0
	vpinsrd	$2, 884(%r15), %xmm0, %xmm0
	vpinsrd	$3, 1060(%r15), %xmm0, %xmm0
	vmovdqa	%xmm0, 976(%rsp)
	vmovd	8(%rdx), %xmm0
	vpinsrd	$1, 8(%r15), %xmm0, %xmm0
	vpinsrd	$2, 184(%r15), %xmm0, %xmm0
	vpinsrd	$3, 360(%r15), %xmm0, %xmm0
	vmovdqa	%xmm0, 960(%rsp)
	vmovd	536(%r15), %xmm0
	vpinsrd	$1, 712(%r15), %xmm0, %xmm0
	vpinsrd	$2, 888(%r15), %xmm0, %xmm0
	vpinsrd	$3, 1064(%r15), %xmm0, %xmm0
	vmovdqa	%xmm0, 944(%rsp)
	vmovd	12(%rdx), %xmm0
	vpinsrd	$1, 12(%r15), %xmm0, %xmm0
	vpinsrd	$2, 188(%r15), %xmm0, %xmm0
	vpinsrd	$3, 364(%r15), %xmm0, %xmm0
	vmovdqa	%xmm0, 928(%rsp)
	vmovd	540(%r15), %xmm0
	vpinsrd	$1, 716(%r15), %xmm0, %xmm0
	vpinsrd	$2, 892(%r15), %xmm0, %xmm0
	vpinsrd	$3, 1068(%r15), %xmm0, %xmm0
	vmovdqa	%xmm0, 912(%rsp)
	vmovd	16(%rdx), %xmm0
	vpinsrd	$1, 16(%r15), %xmm0, %xmm0
	vpinsrd	$2, 192(%r15), %xmm0, %xmm0
	vpinsrd	$3, 368(%r15), %xmm0, %xmm0
	vmovdqa	%xmm0, 896(%rsp)
	vmovd	544(%r15), %xmm0
	vpinsrd	$1, 720(%r15), %xmm0, %xmm0
	vpinsrd	$2, 896(%r15), %xmm0, %xmm0
	vpinsrd	$3, 1072(%r15), %xmm0, %xmm0
	vmovdqa	%xmm0, 880(%rsp)
	vmovd	20(%rdx), %xmm0
	vpinsrd	$1, 20(%r15), %xmm0, %xmm0
	vpinsrd	$2, 196(%r15), %xmm0, %xmm0
	vpinsrd	$3, 372(%r15), %xmm0, %xmm0
	vmovdqa	%xmm0, 864(%rsp)
	vmovd	548(%r15), %xmm0
	vpinsrd	$1, 724(%r15), %xmm0, %xmm0
	vpinsrd	$2, 900(%r15), %xmm0, %xmm0
	vpinsrd	$3, 1076(%r15), %xmm0, %xmm0
	vmovdqa	%xmm0, 848(%rsp)
	vmovd	24(%rdx), %xmm0
	vpinsrd	$1, 24(%r15), %xmm0, %xmm0
	vpinsrd	$2, 200(%r15), %xmm0, %xmm0
	vpinsrd	$3, 376(%r15), %xmm0, %xmm0
	vmovdqa	%xmm0, 832(%rsp)
	vmovd	552(%r15), %xmm0
	vpinsrd	$1, 728(%r15), %xmm0, %xmm0
	vpinsrd	$2, 904(%r15), %xmm0, %xmm0
	vpinsrd	$3, 1080(%r15), %xmm0, %xmm0
	vmovdqa	%xmm0, 816(%rsp)
	vmovd	28(%rdx), %xmm0
	vpinsrd	$1, 28(%r15), %xmm0, %xmm0
	vpinsrd	$2, 204(%r15), %xmm0, %xmm0
	vpinsrd	$3, 380(%r15), %xmm0, %xmm0
	vmovdqa	%xmm0, 800(%rsp)
	vmovd	556(%r15), %xmm0
	vpinsrd	$1, 732(%r15), %xmm0, %xmm0
	vpinsrd	$2, 908(%r15), %xmm0, %xmm0
	vpinsrd	$3, 1084(%r15), %xmm0, %xmm0
	vmovdqa	%xmm0, 784(%rsp)
	movq	(%r13,%rax), %rsi
	movq	%rsi, 632(%rsp)
	vmovups	80(%rdx), %ymm0
	vmovups	112(%rdx), %ymm1
	vmovups	%ymm1, 96(%rsp)
	vmovups	%ymm0, 64(%rsp)
	leaq	16(%rax), %rbp
	leaq	32(%rax), %r12
	leaq	48(%rax), %rdx
	movq	%rdx, 24(%rsp)
	leaq	64(%rax), %rdx
	movq	%rdx, 16(%rsp)
	leaq	80(%rax), %rdx
	movq	%rdx, 568(%rsp)
	leaq	96(%rax), %rdx
	movq	%rdx, 32(%rsp)
	addq	$112, %rax
	movq	%rax, 40(%rsp)
	decq	%r8
	shrq	$6, %r8
	movq	%r8, 8(%rsp)
	leaq	(%rsp,%rcx), %rdi
	addq	$64, %rdi
	movl	$64, %edx
	subq	%rcx, %rdx
	movq	%rdx, 624(%rsp)
	movq	%r9, 600(%rsp)
	movq	%r10, 576(%rsp)
	movq	%r11, 560(%rsp)
	vzeroupper
	vj_c_call	memcpy
	vmovups	64(%rsp), %ymm0
	vmovups	96(%rsp), %ymm1
	vmovups	%ymm1, 384(%rsp)
	vmovups	%ymm0, 352(%rsp)
	vmovups	%ymm0, 1920(%rsp)
	vmovups	%ymm1, 1952(%rsp)
	movq	(%r13,%rbp), %rsi
	movq	%rsi, 616(%rsp)
	vmovups	80(%r15), %ymm0
	vmovups	112(%r15), %ymm1
	vmovups	%ymm1, 96(%rsp)
	vmovups	%ymm0, 64(%rsp)
	leaq	(%rsp,%r14), %rdi
	addq	$64, %rdi
	movl	$64, %edx
	subq	%r14, %rdx
	movq	%rdx, 608(%rsp)
	vzeroupper
	vj_c_call	memcpy
	vmovups	64(%rsp), %ymm0
	vmovups	96(%rsp), %ymm1
	vmovups	%ymm1, 384(%rsp)
	vmovups	%ymm0, 352(%rsp)
	leaq	1984(%rsp), %rbp
	vmovups	%ymm1, 32(%rbp)
	vmovups	%ymm0, (%rbp)
	movq	(%r13,%r12), %rsi
	movq	%rsi, 592(%rsp)
	vmovups	256(%r15), %ymm0
	vmovups	288(%r15), %ymm1
	vmovups	%ymm1, 96(%rsp)
	vmovups	%ymm0, 64(%rsp)
	leaq	(%rsp,%rbx), %rdi
	addq	$64, %rdi
	movl	$64, %edx
	subq	%rbx, %rdx
	movq	%rdx, 584(%rsp)
	vzeroupper
	vj_c_call	memcpy
	vmovups	64(%rsp), %ymm0
	vmovups	96(%rsp), %ymm1
	vmovups	%ymm1, 384(%rsp)
	vmovups	%ymm0, 352(%rsp)
	vmovups	%ymm1, 96(%rbp)
	vmovups	%ymm0, 64(%rbp)
	movq	24(%rsp), %rax
	movq	(%r13,%rax), %rsi
	movq	%rsi, 24(%rsp)
	vmovups	432(%r15), %ymm0
	vmovups	464(%r15), %ymm1
	vmovups	%ymm1, 96(%rsp)
	vmovups	%ymm0, 64(%rsp)
	movq	496(%rsp), %rax
	leaq	(%rsp,%rax), %rdi
	addq	$64, %rdi
	movl	$64, %edx
	subq	%rax, %rdx
	movq	%rdx, 496(%rsp)
	vzeroupper
	vj_c_call	memcpy
	vmovups	64(%rsp), %ymm0
	vmovups	96(%rsp), %ymm1
	vmovups	%ymm1, 384(%rsp)
	vmovups	%ymm0, 352(%rsp)
	vmovups	%ymm1, 160(%rbp)
	vmovups	%ymm0, 128(%rbp)
	movq	16(%rsp), %rax
	movq	(%r13,%rax), %rsi
	movq	%rsi, 16(%rsp)
	vmovups	608(%r15), %ymm0
	vmovups	640(%r15), %ymm1
	vmovups	%ymm1, 96(%rsp)
	vmovups	%ymm0, 64(%rsp)
	movq	320(%rsp), %rax
	leaq	(%rsp,%rax), %rdi
	addq	$64, %rdi
	movl	$64, %r12d
	subq	%rax, %r12
	movq	%r12, %rdx
	vzeroupper
	vj_c_call	memcpy
	vmovups	64(%rsp), %ymm0
	vmovups	96(%rsp), %ymm1
	vmovups	%ymm1, 384(%rsp)
	vmovups	%ymm0, 352(%rsp)
	vmovups	%ymm1, 224(%rbp)
	vmovups	%ymm0, 192(%rbp)
	movq	568(%rsp), %rax
	movq	(%r13,%rax), %rsi
	movq	%rsi, 320(%rsp)
	vmovups	784(%r15), %ymm0
	vmovups	816(%r15), %ymm1
	vmovups	%ymm1, 96(%rsp)
	vmovups	%ymm0, 64(%rsp)
	movq	560(%rsp), %rax
	leaq	(%rsp,%rax), %rdi
	addq	$64, %rdi
	movl	$64, %r14d
	subq	%rax, %r14
	movq	%r14, %rdx
	vzeroupper
	vj_c_call	memcpy
	vmovups	64(%rsp), %ymm0
	vmovups	96(%rsp), %ymm1
	vmovups	%ymm1, 384(%rsp)
	vmovups	%ymm0, 352(%rsp)
	vmovups	%ymm1, 288(%rbp)
	vmovups	%ymm0, 256(%rbp)
	movq	32(%rsp), %rax
	movq	(%r13,%rax), %rsi
	movq	%rsi, 32(%rsp)
	vmovups	960(%r15), %ymm0
	vmovups	992(%r15), %ymm1
	vmovups	%ymm1, 96(%rsp)
	vmovups	%ymm0, 64(%rsp)
	movq	576(%rsp), %rax
	leaq	(%rsp,%rax), %rdi
	addq	$64, %rdi
	movl	$64, %ebx
	subq	%rax, %rbx
	movq	%rbx, %rdx
	vzeroupper
	vj_c_call	memcpy
	vmovups	64(%rsp), %ymm0
	vmovups	96(%rsp), %ymm1
	vmovups	%ymm1, 384(%rsp)
	vmovups	%ymm0, 352(%rsp)
	vmovups	%ymm1, 352(%rbp)
	vmovups	%ymm0, 320(%rbp)
	movq	40(%rsp), %rax
	movq	(%r13,%rax), %rsi
	movq	%rsi, 40(%rsp)
	vmovups	1136(%r15), %ymm0
	vmovups	1168(%r15), %ymm1
	vmovups	%ymm1, 96(%rsp)
	vmovups	%ymm0, 64(%rsp)
	movq	600(%rsp), %rax
	leaq	(%rsp,%rax), %rdi
	addq	$64, %rdi
	movl	$64, %edx
	subq	%rax, %rdx
	movq	%rdx, %r13
	vzeroupper
	vj_c_call	memcpy
	vmovups	96(%rsp), %ymm0
	vmovups	%ymm0, 384(%rsp)
	vmovups	%ymm0, 416(%rbp)
	vmovups	64(%rsp), %ymm0
	vmovups	%ymm0, 352(%rsp)
	vmovups	%ymm0, 384(%rbp)
	movq	624(%rsp), %rax
	addq	632(%rsp), %rax
	movq	608(%rsp), %rcx
	addq	616(%rsp), %rcx
	movq	584(%rsp), %rdx
	addq	592(%rsp), %rdx
	movq	496(%rsp), %rsi
	addq	24(%rsp), %rsi
	addq	16(%rsp), %r12
	addq	320(%rsp), %r14
	addq	32(%rsp), %rbx
	addq	40(%rsp), %r13
	movq	%rax, 656(%rsp)
	movq	8(%rsp), %rax
	decq	%rax
	movq	%rax, 664(%rsp)
	movq	%rcx, 672(%rsp)
	movq	%rax, 680(%rsp)
	movq	%rdx, 688(%rsp)
	movq	%rax, 696(%rsp)
	movq	%rsi, 704(%rsp)
	movq	%rax, 712(%rsp)
	movq	%r12, 720(%rsp)
	movq	%rax, 728(%rsp)
	movq	%r14, 736(%rsp)
	movq	%rax, 744(%rsp)
	movq	%rbx, 752(%rsp)
	movq	%rax, 760(%rsp)
	movq	%r13, 768(%rsp)
	movq	%rax, 776(%rsp)
	vmovq	64(%r15), %xmm0
	movq	48(%rsp), %rax
	vmovq	64(%rax), %xmm1
	vpunpcklqdq	%xmm0, %xmm1, %xmm0
	vmovq	416(%r15), %xmm1
	vmovq	240(%r15), %xmm2
	vpunpcklqdq	%xmm1, %xmm2, %xmm1
	vmovq	768(%r15), %xmm2
	vmovq	592(%r15), %xmm3
	vpunpcklqdq	%xmm2, %xmm3, %xmm2
	vmovq	1120(%r15), %xmm3
	vmovq	944(%r15), %xmm4
	vpunpcklqdq	%xmm3, %xmm4, %xmm3
	vpxor	%xmm4, %xmm4, %xmm4
	vmovdqu	%ymm4, 1312(%rsp)
	vmovdqu	%ymm4, 1280(%rsp)
	vmovaps	1008(%rsp), %xmm4
	vmovups	%xmm4, 80(%rsp)
	vmovaps	480(%rsp), %xmm4
	vmovups	%xmm4, 64(%rsp)
	vmovaps	976(%rsp), %xmm4
	vmovups	%xmm4, 112(%rsp)
	vmovaps	992(%rsp), %xmm4
	vmovups	%xmm4, 96(%rsp)
	vmovaps	944(%rsp), %xmm4
	vmovups	%xmm4, 144(%rsp)
	vmovaps	960(%rsp), %xmm4
	vmovups	%xmm4, 128(%rsp)
	vmovaps	912(%rsp), %xmm4
	vmovups	%xmm4, 176(%rsp)
	vmovaps	928(%rsp), %xmm4
	vmovups	%xmm4, 160(%rsp)
	vmovaps	880(%rsp), %xmm4
	vmovups	%xmm4, 208(%rsp)
	vmovaps	896(%rsp), %xmm4
	vmovups	%xmm4, 192(%rsp)
	vmovaps	848(%rsp), %xmm4
	vmovups	%xmm4, 240(%rsp)
	vmovaps	864(%rsp), %xmm4
	vmovups	%xmm4, 224(%rsp)
	vmovaps	816(%rsp), %xmm4
	vmovups	%xmm4, 272(%rsp)
	vmovaps	832(%rsp), %xmm4
	vmovups	%xmm4, 256(%rsp)
	vmovaps	784(%rsp), %xmm4
	vmovups	%xmm4, 304(%rsp)
	vmovaps	800(%rsp), %xmm4
	vmovups	%xmm4, 288(%rsp)
	vxorps	%xmm4, %xmm4, %xmm4
	vmovaps	%xmm4, 640(%rsp)
	vinserti128	$1, %xmm1, %ymm0, %ymm1
	vpbroadcastq	.L1_v3_CPI56_0(%rip), %ymm0
	vmovdqu	%ymm1, 320(%rsp)
	vpaddq	%ymm0, %ymm1, %ymm1
	vmovdqu	%ymm1, 1856(%rsp)
	vinserti128	$1, %xmm3, %ymm2, %ymm1
	vmovdqu	%ymm1, 496(%rsp)
	vpaddq	%ymm0, %ymm1, %ymm0
	vmovdqu	%ymm0, 1888(%rsp)
	vmovups	1952(%rsp), %ymm0
	vmovups	%ymm0, 1824(%rsp)
	vmovups	1920(%rsp), %ymm0
	vmovups	%ymm0, 1792(%rsp)
	vmovups	32(%rbp), %ymm0
	vmovups	%ymm0, 1760(%rsp)
	vmovups	(%rbp), %ymm0
	vmovups	%ymm0, 1728(%rsp)
	vmovups	96(%rbp), %ymm0
	vmovups	%ymm0, 1696(%rsp)
	vmovups	64(%rbp), %ymm0
	vmovups	%ymm0, 1664(%rsp)
	vmovups	160(%rbp), %ymm0
	vmovups	%ymm0, 1632(%rsp)
	vmovups	128(%rbp), %ymm0
	vmovups	%ymm0, 1600(%rsp)
	vmovups	224(%rbp), %ymm0
	vmovups	%ymm0, 1568(%rsp)
	vmovups	192(%rbp), %ymm0
	vmovups	%ymm0, 1536(%rsp)
	vmovups	288(%rbp), %ymm0
	vmovups	%ymm0, 1504(%rsp)
	vmovups	256(%rbp), %ymm0
	vmovups	%ymm0, 1472(%rsp)
	vmovups	352(%rbp), %ymm0
	vmovups	%ymm0, 1440(%rsp)
	vmovups	320(%rbp), %ymm0
	vmovups	%ymm0, 1408(%rsp)
	vmovups	416(%rbp), %ymm0
	vmovups	%ymm0, 1376(%rsp)
	vmovdqu	384(%rbp), %ymm0
	vmovdqu	%ymm0, 1344(%rsp)
	leaq	1792(%rsp), %rax
	movq	%rax, 352(%rsp)
	movq	$1, 360(%rsp)
	leaq	1728(%rsp), %rax
	movq	%rax, 368(%rsp)
	movq	$1, 376(%rsp)
	leaq	1664(%rsp), %rax
	movq	%rax, 384(%rsp)
	movq	$1, 392(%rsp)
	leaq	1600(%rsp), %rax
	movq	%rax, 400(%rsp)
	movq	$1, 408(%rsp)
	leaq	1536(%rsp), %rax
	movq	%rax, 416(%rsp)
	movq	$1, 424(%rsp)
	leaq	1472(%rsp), %rax
	movq	%rax, 432(%rsp)
	movq	$1, 440(%rsp)
	leaq	1408(%rsp), %rax
	movq	%rax, 448(%rsp)
	movq	$1, 456(%rsp)
	leaq	1344(%rsp), %rax
	movq	%rax, 464(%rsp)
	movq	$1, 472(%rsp)
	leaq	64(%rsp), %rdi
	leaq	352(%rsp), %rsi
	leaq	1856(%rsp), %rdx
	leaq	640(%rsp), %rcx
	vzeroupper
	callq	blake2_compress..many..blake2s..compress_blocks_1_v3
	movq	8(%rsp), %r11
	decq	%r11
	je	4f
	vpbroadcastq	.L1_v3_CPI56_1(%rip), %ymm0
	vpaddq	320(%rsp), %ymm0, %ymm1
	vpaddq	496(%rsp), %ymm0, %ymm0
	vmovdqu	%ymm1, 1280(%rsp)
	vmovdqu	%ymm0, 1312(%rsp)
	leaq	64(%rsp), %rdi
	leaq	656(%rsp), %rsi
	leaq	1280(%rsp), %rdx
	leaq	640(%rsp), %rcx
	movq	%r11, %rbx
	vzeroupper
	callq	blake2_compress..many..blake2s..compress_blocks_1_v3
	movq	%rbx, %r11
4:
	vmovups	128(%rsp), %xmm4
	vmovups	160(%rsp), %xmm2
	vmovups	224(%rsp), %xmm3
	vmovups	192(%rsp), %xmm6
	vmovups	256(%rsp), %xmm0
	vmovups	288(%rsp), %xmm1
	vmovups	64(%rsp), %xmm5
	vmovups	96(%rsp), %xmm7
	vunpcklps	%xmm7, %xmm5, %xmm8
	vmovlhps	%xmm4, %xmm8, %xmm8
	vbroadcastss	%xmm2, %xmm9
	vblendps	$8, %xmm9, %xmm8, %xmm8
	vmovaps	%xmm8, 1024(%rsp)
	vunpcklps	%xmm3, %xmm6, %xmm8
	vmovlhps	%xmm0, %xmm8, %xmm8
	vbroadcastss	%xmm1, %xmm9
	vblendps	$8, %xmm9, %xmm8, %xmm8
	vmovaps	%xmm8, 1040(%rsp)
	vbroadcastss	164(%rsp), %xmm8
	vshufps	$85, %xmm5, %xmm5, %xmm9
	vblendps	$2, %xmm7, %xmm9, %xmm9
	vshufps	$212, %xmm4, %xmm9, %xmm9
	vblendps	$8, %xmm8, %xmm9, %xmm8
	vbroadcastss	292(%rsp), %xmm9
	vmovaps	%xmm8, 1056(%rsp)
	vshufps	$85, %xmm6, %xmm6, %xmm8
	vblendps	$2, %xmm3, %xmm8, %xmm8
	vshufps	$212, %xmm0, %xmm8, %xmm8
	vblendps	$8, %xmm9, %xmm8, %xmm8
	vmovaps	%xmm8, 1072(%rsp)
	vunpckhps	%xmm7, %xmm5, %xmm7
	vblendps	$12, %xmm4, %xmm7, %xmm5
	vshufps	$170, %xmm2, %xmm2, %xmm8
	vblendps	$8, %xmm8, %xmm5, %xmm8
	vmovdqu	144(%rsp), %xmm5
	vmovd	%xmm5, %eax
	vmovaps	%xmm8, 1088(%rsp)
	vunpckhps	%xmm3, %xmm6, %xmm8
	vblendps	$12, %xmm0, %xmm8, %xmm3
	vshufps	$170, %xmm1, %xmm1, %xmm6
	vblendps	$8, %xmm6, %xmm3, %xmm6
	vmovdqu	176(%rsp), %xmm3
	vmovd	%xmm3, %ecx
	vmovaps	%xmm6, 1104(%rsp)
	vmovdqu	272(%rsp), %xmm6
	vmovd	%xmm6, %edx
	vshufps	$254, %xmm4, %xmm7, %xmm7
	vmovdqu	304(%rsp), %xmm4
	vpextrd	$1, %xmm5, %esi
	vpextrd	$1, %xmm3, %edi
	vpextrd	$1, %xmm6, %r8d
	vmovd	%xmm4, %r9d
	vpextrd	$1, %xmm4, %r10d
	vblendps	$8, %xmm2, %xmm7, %xmm2
	vmovdqu	80(%rsp), %xmm7
	vmovaps	%xmm2, 1120(%rsp)
	vmovdqu	112(%rsp), %xmm2
	vshufps	$254, %xmm0, %xmm8, %xmm0
	vblendps	$8, %xmm1, %xmm0, %xmm0
	vmovaps	%xmm0, 1136(%rsp)
	vmovdqu	240(%rsp), %xmm0
	vpunpckldq	%xmm2, %xmm7, %xmm1
	vpinsrd	$2, %eax, %xmm1, %xmm1
	vpinsrd	$3, %ecx, %xmm1, %xmm1
	vmovdqa	%xmm1, 1152(%rsp)
	vmovdqu	208(%rsp), %xmm1
	vpunpckldq	%xmm0, %xmm1, %xmm8
	vpinsrd	$2, %edx, %xmm8, %xmm8
	vpinsrd	$3, %r9d, %xmm8, %xmm8
	vmovdqa	%xmm8, 1168(%rsp)
	vpshufd	$85, %xmm7, %xmm8
	vpblendd	$2, %xmm2, %xmm8, %xmm8
	vpinsrd	$2, %esi, %xmm8, %xmm8
	vpinsrd	$3, %edi, %xmm8, %xmm8
	vmovdqa	%xmm8, 1184(%rsp)
	vpshufd	$85, %xmm1, %xmm8
	vpblendd	$2, %xmm0, %xmm8, %xmm8
	vpinsrd	$2, %r8d, %xmm8, %xmm8
	vpinsrd	$3, %r10d, %xmm8, %xmm8
	vmovdqa	%xmm8, 1200(%rsp)
	vpextrd	$2, %xmm3, %eax
	vpextrd	$3, %xmm5, %ecx
	vpunpckhdq	%xmm2, %xmm7, %xmm2
	vpblendd	$12, %xmm5, %xmm2, %xmm5
	vpinsrd	$3, %eax, %xmm5, %xmm5
	vmovdqa	%xmm5, 1216(%rsp)
	vpextrd	$2, %xmm4, %eax
	vpunpckhdq	%xmm0, %xmm1, %xmm0
	vpextrd	$3, %xmm6, %edx
	vpblendd	$12, %xmm6, %xmm0, %xmm1
	vpinsrd	$3, %eax, %xmm1, %xmm1
	vmovdqa	%xmm1, 1232(%rsp)
	vpshufd	$238, %xmm2, %xmm1
	vpinsrd	$2, %ecx, %xmm1, %xmm1
	vpblendd	$8, %xmm3, %xmm1, %xmm1
	vmovdqa	%xmm1, 1248(%rsp)
	vpshufd	$238, %xmm0, %xmm0
	vpinsrd	$2, %edx, %xmm0, %xmm0
	vpblendd	$8, %xmm4, %xmm0, %xmm0
	vmovdqa	%xmm0, 1264(%rsp)
	shlq	$6, %r11
	leaq	64(%r11), %rax
	movq	%rax, 496(%rsp)
	movq	56(%rsp), %rax
	shlq	$4, %rax
	addq	528(%rsp), %rax
	movq	%rax, 480(%rsp)
	xorl	%ebp, %ebp
	xorl	%ebx, %ebx
	movq	%r11, 8(%rsp)
	jmp	8f
	.p2align	4
5:
	movq	320(%rsp), %rdi
	movq	%r14, %rsi
	movq	%r12, %rdx
6:
	vzeroupper
	callq	blake2_state..blake2s..State..absorb_blocks_1_v3
7:
	movq	8(%rsp), %r11
	addq	$176, %rbx
	addq	$16, %rbp
	cmpq	$1408, %rbx
	je	1b
8:
	movq	48(%rsp), %r13
	leaq	(%rbx,%r13), %rax
	movq	%rax, 320(%rsp)
	movq	480(%rsp), %rax
	movq	-8(%rax,%rbp), %r14
	movq	(%rax,%rbp), %r12
	movzwl	72(%r13,%rbx), %eax
	movq	%r11, %rcx
	subq	%rax, %rcx
	leaq	128(%rcx), %r15
	cmpq	%r15, %r12
	cmovbq	%r12, %r15
	subq	%r15, %r12
	leaq	(%r14,%rcx), %rsi
	addq	$64, %rsi
	vmovups	1024(%rsp,%rbp,2), %ymm0
	vmovups	%ymm0, (%r13,%rbx)
	addq	$64, %rcx
	movq	496(%rsp), %rax
	addq	%rax, 64(%r13,%rbx)
	addq	%r15, %r14
	subq	%rcx, %r15
	movw	%r15w, 72(%r13,%rbx)
	vxorps	%xmm0, %xmm0, %xmm0
	vmovups	%ymm0, 96(%rsp)
	vmovups	%ymm0, 64(%rsp)
	leaq	64(%rsp), %rdi
	movq	%r15, %rdx
	vzeroupper
	vj_c_call	memcpy
	vmovups	64(%rsp), %ymm0
	vmovups	96(%rsp), %ymm1
	vmovups	%ymm0, 80(%r13,%rbx)
	vmovups	%ymm1, 112(%r13,%rbx)
	cmpq	$1, %r12
	jne	5b
	movq	320(%rsp), %rdi
	cmpw	$64, %r15w
	jae	9f
	movzbl	(%r14), %eax
	movl	%r15d, %ecx
	andl	$63, %ecx
	movb	%al, 80(%rcx,%rdi)
	incl	%r15d
	movq	48(%rsp), %rax
	movw	%r15w, 72(%rax,%rbx)
	jmp	7b
	.p2align	4
9:
	movl	$1, %edx
	movq	%r14, %rsi
	jmp	6b
	.p2align	4
10:
	movq	%rbp, %rax
	shlq	$4, %rax
	movq	8(%r13,%rax), %rdx
11:
	addq	%r12, %rdi
	movq	(%r13,%rax), %rsi
	cmpq	$1, %rdx
	jne	12f
	movzwl	72(%rdi), %eax
	cmpq	$64, %rax
	jae	14f
	movzbl	(%rsi), %ecx
	movb	%cl, 80(%rdi,%rax)
	incl	%eax
	movw	%ax, 72(%rdi)
	jmp	13f
	.p2align	4
12:
	vzeroupper
	callq	blake2_state..blake2s..State..absorb_blocks_1_v3
13:
	movl	$1, %ebx
	jmp	2b
14:
	movl	$1, %ebx
	movl	$1, %edx
	vzeroupper
	callq	blake2_state..blake2s..State..absorb_blocks_1_v3
	jmp	2b
15:
	addq	$2440, %rsp
	popq	%rbx
	popq	%r12
	popq	%r13
	popq	%r14
	popq	%r15
	popq	%rbp
16:
	vzeroupper
	retq
	vj_end	blake2_state..many..blake2s..update_many_1_v3

	vj_constants	4
	.p2align	2, 0x0
.L1_v3_CPI57_0:
	.long	3766232660
.L1_v3_CPI57_1:
	.long	528734635
.L1_v3_CPI57_2:
	.long	2753508070
.L1_v3_CPI57_3:
	.long	1541459225
.L1_v3_CPI57_4:
	.long	1359893119
.L1_v3_CPI57_6:
	.long	1779033703
.L1_v3_CPI57_8:
	.long	2600822924
.L1_v3_CPI57_9:
	.long	3144134277
.L1_v3_CPI57_10:
	.long	1013904242
.L1_v3_CPI57_11:
	.long	2773480762
	vj_constants	32
	.p2align	5, 0x0
.L1_v3_CPI57_5:
	.byte	2
	.byte	3
	.byte	0
	.byte	1
	.byte	6
	.byte	7
	.byte	4
	.byte	5
	.byte	10
	.byte	11
	.byte	8
	.byte	9
	.byte	14
	.byte	15
	.byte	12
	.byte	13
	.byte	18
	.byte	19
	.byte	16
	.byte	17
	.byte	22
	.byte	23
	.byte	20
	.byte	21
	.byte	26
	.byte	27
	.byte	24
	.byte	25
	.byte	30
	.byte	31
	.byte	28
	.byte	29
.L1_v3_CPI57_7:
	.byte	1
	.byte	2
	.byte	3
	.byte	0
	.byte	5
	.byte	6
	.byte	7
	.byte	4
	.byte	9
	.byte	10
	.byte	11
	.byte	8
	.byte	13
	.byte	14
	.byte	15
	.byte	12
	.byte	1
	.byte	2
	.byte	3
	.byte	0
	.byte	5
	.byte	6
	.byte	7
	.byte	4
	.byte	9
	.byte	10
	.byte	11
	.byte	8
	.byte	13
	.byte	14
	.byte	15
	.byte	12
	vj_constants	16
	.p2align	4, 0x0
.L1_v3_CPI57_12:
	.byte	1
	.byte	2
	.byte	3
	.byte	0
	.byte	5
	.byte	6
	.byte	7
	.byte	4
	.byte	9
	.byte	10
	.byte	11
	.byte	8
	.byte	13
	.byte	14
	.byte	15
	.byte	12
	vj_function	blake2_compress..many..blake2s..compress_blocks_1_v3
	pushq	%rbp
	pushq	%r15
	pushq	%r14
	pushq	%rbx
	subq	$1288, %rsp
	movq	8(%rsi), %rax
	vmovdqu	(%rdi), %ymm14
	vmovdqu	32(%rdi), %ymm6
	vmovdqu	64(%rdi), %ymm11
	vmovdqu	96(%rdi), %ymm9
	vmovdqu	128(%rdi), %ymm8
	vmovdqu	160(%rdi), %ymm5
	vmovdqu	192(%rdi), %ymm4
	vmovdqu	224(%rdi), %ymm3
	testq	%rax, %rax
	vmovdqu	%ymm6, 864(%rsp)
	je	2f
	movzbl	2(%rcx), %r8d
	movzbl	(%rcx), %r9d
	vmovd	%r9d, %xmm0
	vpinsrw	$1, %r8d, %xmm0, %xmm0
	movzbl	4(%rcx), %r8d
	vpinsrw	$2, %r8d, %xmm0, %xmm0
	movzbl	6(%rcx), %r8d
	vpinsrw	$3, %r8d, %xmm0, %xmm0
	movzbl	8(%rcx), %r8d
	vpinsrw	$4, %r8d, %xmm0, %xmm0
	movzbl	10(%rcx), %r8d
	vpinsrw	$5, %r8d, %xmm0, %xmm0
	movq	(%rsi), %r8
	movzbl	12(%rcx), %r9d
	vpinsrw	$6, %r9d, %xmm0, %xmm0
	movq	16(%rsi), %r9
	movzbl	14(%rcx), %r10d
	vpinsrw	$7, %r10d, %xmm0, %xmm0
	movq	32(%rsi), %r10
	vpmovzxwd	%xmm0, %ymm0
	vpslld	$31, %ymm0, %ymm0
	vbroadcastss	.L1_v3_CPI57_0(%rip), %ymm1
	vbroadcastss	.L1_v3_CPI57_1(%rip), %ymm2
	vblendvps	%ymm0, %ymm1, %ymm2, %ymm0
	vmovups	%ymm0, 1216(%rsp)
	movzbl	3(%rcx), %r11d
	movzbl	1(%rcx), %ebx
	vmovd	%ebx, %xmm0
	vpinsrw	$1, %r11d, %xmm0, %xmm0
	movq	48(%rsi), %r11
	movzbl	5(%rcx), %ebx
	vpinsrw	$2, %ebx, %xmm0, %xmm0
	movq	64(%rsi), %rbx
	movzbl	7(%rcx), %ebp
	vpinsrw	$3, %ebp, %xmm0, %xmm0
	movq	80(%rsi), %r14
	movzbl	9(%rcx), %ebp
	vpinsrw	$4, %ebp, %xmm0, %xmm0
	movq	96(%rsi), %r15
	movzbl	11(%rcx), %ebp
	vpinsrw	$5, %ebp, %xmm0, %xmm0
	movzbl	13(%rcx), %ebp
	vpinsrw	$6, %ebp, %xmm0, %xmm0
	movzbl	15(%rcx), %ecx
	vpinsrw	$7, %ecx, %xmm0, %xmm0
	vpmovzxwd	%xmm0, %ymm0
	vpslld	$31, %ymm0, %ymm0
	vbroadcastss	.L1_v3_CPI57_2(%rip), %ymm1
	vbroadcastss	.L1_v3_CPI57_3(%rip), %ymm2
	vblendvps	%ymm0, %ymm1, %ymm2, %ymm0
	vmovups	%ymm0, 1184(%rsp)
	movq	112(%rsi), %rcx
	vmovups	(%rdx), %ymm0
	vmovups	%ymm0, 1152(%rsp)
	vmovdqu	32(%rdx), %ymm0
	vmovdqu	%ymm0, 1120(%rsp)
	xorl	%edx, %edx
	.p2align	4
1:
	vmovdqu	%ymm5, 992(%rsp)
	vmovdqu	%ymm4, 960(%rsp)
	vmovdqu	%ymm3, 928(%rsp)
	vmovdqu	%ymm14, 1024(%rsp)
	vmovdqu	%ymm11, 1056(%rsp)
	vmovdqu	%ymm9, 1088(%rsp)
	vmovdqu	(%r8,%rdx), %ymm0
	vmovdqu	(%r9,%rdx), %ymm1
	vpunpckldq	%ymm1, %ymm0, %ymm3
	vpunpckhdq	%ymm1, %ymm0, %ymm1
	vmovdqu	(%r10,%rdx), %ymm0
	vmovdqu	(%r11,%rdx), %ymm2
	vpunpckldq	%ymm2, %ymm0, %ymm4
	vpunpckhdq	%ymm2, %ymm0, %ymm6
	vpunpcklqdq	%ymm4, %ymm3, %ymm2
	vmovdqu	(%rbx,%rdx), %ymm5
	vmovdqu	(%r14,%rdx), %ymm7
	vpunpckhqdq	%ymm4, %ymm3, %ymm0
	vpunpckldq	%ymm7, %ymm5, %ymm4
	vpunpckhdq	%ymm7, %ymm5, %ymm5
	vmovdqu	(%r15,%rdx), %ymm3
	vmovdqu	(%rcx,%rdx), %ymm7
	vmovdqa	%ymm8, %ymm15
	vpunpckldq	%ymm7, %ymm3, %ymm8
	vpunpckhdq	%ymm7, %ymm3, %ymm7
	vpunpcklqdq	%ymm6, %ymm1, %ymm3
	vpunpckhqdq	%ymm6, %ymm1, %ymm1
	vpunpcklqdq	%ymm8, %ymm4, %ymm6
	vpunpckhqdq	%ymm8, %ymm4, %ymm4
	vmovups	32(%r8,%rdx), %ymm8
	vmovups	32(%r9,%rdx), %ymm9
	vunpcklps	%ymm9, %ymm8, %ymm10
	vunpckhps	%ymm9, %ymm8, %ymm8
	vmovups	32(%r10,%rdx), %ymm9
	vmovups	32(%r11,%rdx), %ymm11
	vunpcklps	%ymm11, %ymm9, %ymm12
	vunpckhps	%ymm11, %ymm9, %ymm9
	vpunpcklqdq	%ymm7, %ymm5, %ymm11
	vpunpckhqdq	%ymm7, %ymm5, %ymm7
	vunpcklpd	%ymm12, %ymm10, %ymm13
	vunpckhpd	%ymm12, %ymm10, %ymm5
	vinserti128	$1, %xmm6, %ymm2, %ymm10
	vmovdqu	%ymm10, 736(%rsp)
	vperm2i128	$49, %ymm6, %ymm2, %ymm2
	vmovdqu	%ymm2, 320(%rsp)
	vunpcklpd	%ymm9, %ymm8, %ymm6
	vunpckhpd	%ymm9, %ymm8, %ymm2
	vmovups	32(%rbx,%rdx), %ymm8
	vmovups	32(%r14,%rdx), %ymm9
	vunpcklps	%ymm9, %ymm8, %ymm10
	vunpckhps	%ymm9, %ymm8, %ymm8
	vmovups	32(%r15,%rdx), %ymm9
	vmovups	32(%rcx,%rdx), %ymm12
	vunpcklps	%ymm12, %ymm9, %ymm14
	vunpckhps	%ymm12, %ymm9, %ymm9
	vinserti128	$1, %xmm4, %ymm0, %ymm12
	vmovdqu	%ymm12, 800(%rsp)
	vperm2i128	$49, %ymm4, %ymm0, %ymm0
	vmovdqu	%ymm0, 544(%rsp)
	vunpcklpd	%ymm14, %ymm10, %ymm0
	vunpckhpd	%ymm14, %ymm10, %ymm4
	vinserti128	$1, %xmm11, %ymm3, %ymm10
	vmovdqu	%ymm10, 416(%rsp)
	vperm2i128	$49, %ymm11, %ymm3, %ymm3
	vmovdqu	%ymm3, 608(%rsp)
	vunpcklpd	%ymm9, %ymm8, %ymm3
	vunpckhpd	%ymm9, %ymm8, %ymm8
	vinserti128	$1, %xmm7, %ymm1, %ymm9
	vmovdqu	%ymm9, 640(%rsp)
	vperm2i128	$49, %ymm7, %ymm1, %ymm1
	vmovdqu	%ymm1, 576(%rsp)
	vinsertf128	$1, %xmm0, %ymm13, %ymm1
	vmovups	%ymm1, 288(%rsp)
	vperm2f128	$49, %ymm0, %ymm13, %ymm0
	vmovups	%ymm0, 704(%rsp)
	vinsertf128	$1, %xmm4, %ymm5, %ymm0
	vmovups	%ymm0, 352(%rsp)
	vperm2f128	$49, %ymm4, %ymm5, %ymm0
	vmovups	%ymm0, 512(%rsp)
	vinsertf128	$1, %xmm3, %ymm6, %ymm0
	vmovups	%ymm0, 448(%rsp)
	vperm2f128	$49, %ymm3, %ymm6, %ymm0
	vmovups	%ymm0, 672(%rsp)
	vinsertf128	$1, %xmm8, %ymm2, %ymm0
	vmovups	%ymm0, 384(%rsp)
	vperm2f128	$49, %ymm8, %ymm2, %ymm0
	vmovups	%ymm0, 832(%rsp)
	vmovq	%rdx, %xmm0
	vpbroadcastq	%xmm0, %ymm0
	vpaddq	1120(%rsp), %ymm0, %ymm1
	vpaddq	1152(%rsp), %ymm0, %ymm2
	vshufps	$221, %ymm1, %ymm2, %ymm0
	vshufps	$136, %ymm1, %ymm2, %ymm1
	vpermpd	$216, %ymm1, %ymm1
	vbroadcastss	.L1_v3_CPI57_4(%rip), %ymm2
	vxorps	%ymm2, %ymm1, %ymm1
	vmovdqu	%ymm15, 1248(%rsp)
	vpaddd	1024(%rsp), %ymm15, %ymm2
	vpaddd	736(%rsp), %ymm2, %ymm2
	vpxor	%ymm1, %ymm2, %ymm1
	vmovdqa	.L1_v3_CPI57_5(%rip), %ymm6
	vpshufb	%ymm6, %ymm1, %ymm1
	vpbroadcastd	.L1_v3_CPI57_6(%rip), %ymm3
	vpaddd	%ymm3, %ymm1, %ymm3
	vpxor	%ymm3, %ymm15, %ymm4
	vpsrld	$12, %ymm4, %ymm5
	vpslld	$20, %ymm4, %ymm4
	vpor	%ymm5, %ymm4, %ymm4
	vpaddd	%ymm2, %ymm12, %ymm2
	vpaddd	%ymm4, %ymm2, %ymm11
	vpxor	%ymm1, %ymm11, %ymm1
	vbroadcasti128	.L1_v3_CPI57_12(%rip), %ymm15
	vpshufb	%ymm15, %ymm1, %ymm14
	vpaddd	%ymm3, %ymm14, %ymm1
	vmovdqu	%ymm1, 160(%rsp)
	vpxor	%ymm4, %ymm1, %ymm1
	vpsrld	$7, %ymm1, %ymm2
	vpslld	$25, %ymm1, %ymm1
	vpor	%ymm2, %ymm1, %ymm1
	vmovdqu	%ymm1, 224(%rsp)
	vpermpd	$216, %ymm0, %ymm0
	vbroadcastss	.L1_v3_CPI57_8(%rip), %ymm1
	vxorps	%ymm1, %ymm0, %ymm0
	vmovdqu	992(%rsp), %ymm4
	vpaddd	864(%rsp), %ymm4, %ymm1
	vpaddd	%ymm1, %ymm10, %ymm1
	vpxor	%ymm0, %ymm1, %ymm0
	vpshufb	%ymm6, %ymm0, %ymm0
	vpbroadcastd	.L1_v3_CPI57_9(%rip), %ymm2
	vpaddd	%ymm2, %ymm0, %ymm3
	vpxor	%ymm4, %ymm3, %ymm2
	vpsrld	$12, %ymm2, %ymm4
	vpslld	$20, %ymm2, %ymm2
	vpor	%ymm4, %ymm2, %ymm4
	vpaddd	%ymm1, %ymm9, %ymm1
	vpaddd	%ymm4, %ymm1, %ymm8
	vpxor	%ymm0, %ymm8, %ymm0
	vpshufb	%ymm15, %ymm0, %ymm10
	vpaddd	%ymm3, %ymm10, %ymm0
	vmovdqu	%ymm0, 128(%rsp)
	vpxor	%ymm4, %ymm0, %ymm0
	vpsrld	$7, %ymm0, %ymm1
	vpslld	$25, %ymm0, %ymm0
	vpor	%ymm1, %ymm0, %ymm7
	vmovdqu	960(%rsp), %ymm1
	vpaddd	1056(%rsp), %ymm1, %ymm0
	vpaddd	320(%rsp), %ymm0, %ymm0
	vpxor	1216(%rsp), %ymm0, %ymm3
	vpshufb	%ymm6, %ymm3, %ymm3
	vmovdqa	%ymm6, %ymm9
	vpbroadcastd	.L1_v3_CPI57_10(%rip), %ymm4
	vpaddd	%ymm4, %ymm3, %ymm4
	vpxor	%ymm1, %ymm4, %ymm5
	vpsrld	$12, %ymm5, %ymm6
	vpslld	$20, %ymm5, %ymm5
	vpor	%ymm6, %ymm5, %ymm6
	vpaddd	544(%rsp), %ymm0, %ymm0
	vpaddd	%ymm6, %ymm0, %ymm5
	vpxor	%ymm3, %ymm5, %ymm0
	vpshufb	%ymm15, %ymm0, %ymm0
	vmovdqu	%ymm0, (%rsp)
	vpaddd	%ymm0, %ymm4, %ymm4
	vpxor	%ymm6, %ymm4, %ymm0
	vpsrld	$7, %ymm0, %ymm3
	vpslld	$25, %ymm0, %ymm0
	vpor	%ymm3, %ymm0, %ymm12
	vmovdqu	928(%rsp), %ymm1
	vpaddd	1088(%rsp), %ymm1, %ymm0
	vpaddd	608(%rsp), %ymm0, %ymm0
	vpxor	1184(%rsp), %ymm0, %ymm3
	vpshufb	%ymm9, %ymm3, %ymm6
	vpbroadcastd	.L1_v3_CPI57_11(%rip), %ymm3
	vpaddd	%ymm3, %ymm6, %ymm13
	vpxor	%ymm1, %ymm13, %ymm3
	vpsrld	$12, %ymm3, %ymm1
	vpslld	$20, %ymm3, %ymm3
	vpor	%ymm1, %ymm3, %ymm1
	vpaddd	576(%rsp), %ymm0, %ymm0
	vpaddd	%ymm1, %ymm0, %ymm3
	vpxor	%ymm6, %ymm3, %ymm0
	vpshufb	%ymm15, %ymm0, %ymm0
	vpaddd	%ymm0, %ymm13, %ymm6
	vpxor	%ymm1, %ymm6, %ymm1
	vpsrld	$7, %ymm1, %ymm2
	vpslld	$25, %ymm1, %ymm1
	vpor	%ymm2, %ymm1, %ymm2
	vpaddd	288(%rsp), %ymm11, %ymm1
	vpaddd	%ymm7, %ymm1, %ymm1
	vpxor	%ymm0, %ymm1, %ymm0
	vmovdqa	%ymm9, %ymm13
	vpshufb	%ymm9, %ymm0, %ymm0
	vpaddd	%ymm4, %ymm0, %ymm9
	vpxor	%ymm7, %ymm9, %ymm4
	vpsrld	$12, %ymm4, %ymm7
	vpslld	$20, %ymm4, %ymm4
	vpor	%ymm7, %ymm4, %ymm7
	vpaddd	352(%rsp), %ymm1, %ymm1
	vpaddd	%ymm7, %ymm1, %ymm4
	vpxor	%ymm0, %ymm4, %ymm0
	vpshufb	%ymm15, %ymm0, %ymm0
	vmovdqu	%ymm0, 192(%rsp)
	vpaddd	%ymm0, %ymm9, %ymm0
	vmovdqu	%ymm0, 96(%rsp)
	vpxor	%ymm7, %ymm0, %ymm0
	vpsrld	$7, %ymm0, %ymm1
	vpslld	$25, %ymm0, %ymm0
	vpor	%ymm1, %ymm0, %ymm0
	vmovdqu	%ymm0, 256(%rsp)
	vmovdqu	448(%rsp), %ymm11
	vpaddd	%ymm11, %ymm8, %ymm0
	vpaddd	%ymm0, %ymm12, %ymm0
	vpxor	%ymm0, %ymm14, %ymm1
	vmovdqa	%ymm13, %ymm9
	vpshufb	%ymm13, %ymm1, %ymm1
	vpaddd	%ymm6, %ymm1, %ymm7
	vpxor	%ymm7, %ymm12, %ymm6
	vpsrld	$12, %ymm6, %ymm8
	vpslld	$20, %ymm6, %ymm6
	vpor	%ymm6, %ymm8, %ymm8
	vpaddd	384(%rsp), %ymm0, %ymm0
	vpaddd	%ymm0, %ymm8, %ymm13
	vpxor	%ymm1, %ymm13, %ymm0
	vpshufb	%ymm15, %ymm0, %ymm1
	vpaddd	%ymm1, %ymm7, %ymm0
	vmovdqu	%ymm0, 64(%rsp)
	vpxor	%ymm0, %ymm8, %ymm0
	vpsrld	$7, %ymm0, %ymm7
	vpslld	$25, %ymm0, %ymm0
	vpor	%ymm7, %ymm0, %ymm0
	vmovdqu	%ymm0, 480(%rsp)
	vpaddd	704(%rsp), %ymm5, %ymm0
	vpaddd	%ymm2, %ymm0, %ymm0
	vpxor	%ymm0, %ymm10, %ymm7
	vpshufb	%ymm9, %ymm7, %ymm7
	vmovdqa	%ymm9, %ymm8
	vpaddd	160(%rsp), %ymm7, %ymm9
	vpxor	%ymm2, %ymm9, %ymm2
	vpsrld	$12, %ymm2, %ymm10
	vpslld	$20, %ymm2, %ymm2
	vpor	%ymm2, %ymm10, %ymm2
	vmovdqu	512(%rsp), %ymm12
	vpaddd	%ymm0, %ymm12, %ymm0
	vpaddd	%ymm2, %ymm0, %ymm0
	vmovdqu	%ymm0, 768(%rsp)
	vpxor	%ymm7, %ymm0, %ymm0
	vpshufb	%ymm15, %ymm0, %ymm6
	vmovdqa	%ymm15, %ymm0
	vpaddd	%ymm6, %ymm9, %ymm15
	vpxor	%ymm2, %ymm15, %ymm2
	vpsrld	$7, %ymm2, %ymm7
	vpslld	$25, %ymm2, %ymm2
	vpor	%ymm7, %ymm2, %ymm2
	vmovdqu	%ymm2, 32(%rsp)
	vmovdqu	672(%rsp), %ymm14
	vpaddd	%ymm3, %ymm14, %ymm2
	vmovdqu	224(%rsp), %ymm9
	vpaddd	%ymm2, %ymm9, %ymm2
	vpxor	(%rsp), %ymm2, %ymm3
	vpshufb	%ymm8, %ymm3, %ymm3
	vpaddd	128(%rsp), %ymm3, %ymm7
	vpxor	%ymm7, %ymm9, %ymm5
	vpsrld	$12, %ymm5, %ymm10
	vpslld	$20, %ymm5, %ymm5
	vpor	%ymm5, %ymm10, %ymm10
	vmovdqu	832(%rsp), %ymm5
	vpaddd	%ymm5, %ymm2, %ymm2
	vpaddd	%ymm2, %ymm10, %ymm9
	vpxor	%ymm3, %ymm9, %ymm2
	vpshufb	%ymm0, %ymm2, %ymm2
	vpaddd	%ymm2, %ymm7, %ymm3
	vpxor	%ymm3, %ymm10, %ymm7
	vpsrld	$7, %ymm7, %ymm10
	vpslld	$25, %ymm7, %ymm7
	vpor	%ymm7, %ymm10, %ymm7
	vpaddd	%ymm4, %ymm14, %ymm4
	vpaddd	%ymm7, %ymm4, %ymm4
	vpxor	%ymm1, %ymm4, %ymm1
	vpshufb	%ymm8, %ymm1, %ymm1
	vpaddd	%ymm1, %ymm15, %ymm14
	vpxor	%ymm7, %ymm14, %ymm7
	vpsrld	$12, %ymm7, %ymm10
	vpslld	$20, %ymm7, %ymm7
	vpor	%ymm7, %ymm10, %ymm7
	vpaddd	%ymm4, %ymm11, %ymm4
	vpaddd	%ymm7, %ymm4, %ymm4
	vpxor	%ymm1, %ymm4, %ymm1
	vpshufb	%ymm0, %ymm1, %ymm10
	vmovdqa	%ymm0, %ymm15
	vpaddd	%ymm10, %ymm14, %ymm1
	vmovdqu	%ymm1, 128(%rsp)
	vpxor	%ymm7, %ymm1, %ymm1
	vpsrld	$7, %ymm1, %ymm7
	vpslld	$25, %ymm1, %ymm1
	vpor	%ymm7, %ymm1, %ymm1
	vmovdqu	%ymm1, 160(%rsp)
	vpaddd	320(%rsp), %ymm13, %ymm1
	vmovdqu	256(%rsp), %ymm7
	vpaddd	%ymm7, %ymm1, %ymm1
	vpxor	%ymm6, %ymm1, %ymm0
	vmovdqa	%ymm8, %ymm11
	vpshufb	%ymm8, %ymm0, %ymm0
	vpaddd	%ymm3, %ymm0, %ymm6
	vpxor	%ymm7, %ymm6, %ymm3
	vpsrld	$12, %ymm3, %ymm7
	vpslld	$20, %ymm3, %ymm3
	vpor	%ymm7, %ymm3, %ymm7
	vpaddd	288(%rsp), %ymm1, %ymm1
	vpaddd	%ymm7, %ymm1, %ymm1
	vpxor	%ymm0, %ymm1, %ymm0
	vmovdqa	%ymm15, %ymm14
	vpshufb	%ymm15, %ymm0, %ymm0
	vmovdqu	%ymm0, 896(%rsp)
	vpaddd	%ymm0, %ymm6, %ymm0
	vmovdqu	%ymm0, (%rsp)
	vpxor	%ymm7, %ymm0, %ymm0
	vpsrld	$7, %ymm0, %ymm6
	vpslld	$25, %ymm0, %ymm0
	vpor	%ymm6, %ymm0, %ymm0
	vmovdqu	768(%rsp), %ymm6
	vpaddd	352(%rsp), %ymm6, %ymm6
	vmovdqu	480(%rsp), %ymm8
	vpaddd	%ymm6, %ymm8, %ymm6
	vpxor	%ymm2, %ymm6, %ymm2
	vpshufb	%ymm11, %ymm2, %ymm2
	vmovdqa	%ymm11, %ymm3
	vpaddd	96(%rsp), %ymm2, %ymm7
	vpxor	%ymm7, %ymm8, %ymm8
	vpsrld	$12, %ymm8, %ymm11
	vpslld	$20, %ymm8, %ymm8
	vpor	%ymm11, %ymm8, %ymm13
	vpaddd	%ymm5, %ymm6, %ymm6
	vpaddd	%ymm6, %ymm13, %ymm8
	vpxor	%ymm2, %ymm8, %ymm2
	vpshufb	%ymm15, %ymm2, %ymm11
	vpaddd	%ymm7, %ymm11, %ymm2
	vpxor	%ymm2, %ymm13, %ymm6
	vpsrld	$7, %ymm6, %ymm7
	vpslld	$25, %ymm6, %ymm6
	vpor	%ymm7, %ymm6, %ymm6
	vpaddd	%ymm12, %ymm9, %ymm5
	vmovdqu	32(%rsp), %ymm9
	vpaddd	%ymm5, %ymm9, %ymm5
	vpxor	192(%rsp), %ymm5, %ymm7
	vpshufb	%ymm3, %ymm7, %ymm7
	vpaddd	64(%rsp), %ymm7, %ymm12
	vpxor	%ymm9, %ymm12, %ymm9
	vpsrld	$12, %ymm9, %ymm13
	vpslld	$20, %ymm9, %ymm9
	vpor	%ymm13, %ymm9, %ymm9
	vpaddd	608(%rsp), %ymm5, %ymm5
	vpaddd	%ymm5, %ymm9, %ymm5
	vpxor	%ymm7, %ymm5, %ymm7
	vpshufb	%ymm15, %ymm7, %ymm7
	vpaddd	%ymm7, %ymm12, %ymm13
	vpxor	%ymm9, %ymm13, %ymm9
	vpsrld	$7, %ymm9, %ymm12
	vpslld	$25, %ymm9, %ymm9
	vpor	%ymm12, %ymm9, %ymm9
	vpaddd	800(%rsp), %ymm4, %ymm4
	vpaddd	%ymm0, %ymm4, %ymm4
	vpxor	%ymm7, %ymm4, %ymm7
	vpshufb	%ymm3, %ymm7, %ymm7
	vpaddd	%ymm2, %ymm7, %ymm2
	vpxor	%ymm0, %ymm2, %ymm0
	vpsrld	$12, %ymm0, %ymm12
	vpslld	$20, %ymm0, %ymm0
	vpor	%ymm0, %ymm12, %ymm0
	vmovdqu	704(%rsp), %ymm12
	vpaddd	%ymm4, %ymm12, %ymm4
	vpaddd	%ymm0, %ymm4, %ymm4
	vpxor	%ymm7, %ymm4, %ymm7
	vpshufb	%ymm15, %ymm7, %ymm7
	vmovdqu	%ymm7, 224(%rsp)
	vpaddd	%ymm7, %ymm2, %ymm2
	vmovdqu	%ymm2, 96(%rsp)
	vpxor	%ymm0, %ymm2, %ymm0
	vpsrld	$7, %ymm0, %ymm2
	vpslld	$25, %ymm0, %ymm0
	vpor	%ymm2, %ymm0, %ymm0
	vmovdqu	%ymm0, 32(%rsp)
	vmovdqu	736(%rsp), %ymm15
	vpaddd	%ymm1, %ymm15, %ymm0
	vpaddd	%ymm6, %ymm0, %ymm0
	vpxor	%ymm0, %ymm10, %ymm1
	vpshufb	%ymm3, %ymm1, %ymm1
	vpaddd	%ymm1, %ymm13, %ymm10
	vpxor	%ymm6, %ymm10, %ymm2
	vpsrld	$12, %ymm2, %ymm6
	vpslld	$20, %ymm2, %ymm2
	vpor	%ymm6, %ymm2, %ymm13
	vpaddd	416(%rsp), %ymm0, %ymm0
	vpaddd	%ymm0, %ymm13, %ymm7
	vpxor	%ymm1, %ymm7, %ymm0
	vmovdqa	%ymm14, %ymm2
	vpshufb	%ymm14, %ymm0, %ymm6
	vpaddd	%ymm6, %ymm10, %ymm0
	vmovdqu	%ymm0, 64(%rsp)
	vpxor	%ymm0, %ymm13, %ymm0
	vpsrld	$7, %ymm0, %ymm10
	vpslld	$25, %ymm0, %ymm0
	vpor	%ymm0, %ymm10, %ymm0
	vmovdqu	%ymm0, 256(%rsp)
	vmovdqu	384(%rsp), %ymm1
	vpaddd	%ymm1, %ymm8, %ymm0
	vpaddd	%ymm0, %ymm9, %ymm0
	vpxor	896(%rsp), %ymm0, %ymm3
	vmovdqa	.L1_v3_CPI57_5(%rip), %ymm14
	vpshufb	%ymm14, %ymm3, %ymm3
	vpaddd	128(%rsp), %ymm3, %ymm8
	vpxor	%ymm9, %ymm8, %ymm9
	vpsrld	$12, %ymm9, %ymm13
	vpslld	$20, %ymm9, %ymm9
	vpor	%ymm13, %ymm9, %ymm13
	vpaddd	576(%rsp), %ymm0, %ymm0
	vpaddd	%ymm0, %ymm13, %ymm0
	vmovdqu	%ymm0, 768(%rsp)
	vpxor	%ymm3, %ymm0, %ymm0
	vpshufb	%ymm2, %ymm0, %ymm9
	vmovdqa	%ymm2, %ymm10
	vpaddd	%ymm9, %ymm8, %ymm3
	vpxor	%ymm3, %ymm13, %ymm0
	vpsrld	$7, %ymm0, %ymm8
	vpslld	$25, %ymm0, %ymm0
	vpor	%ymm0, %ymm8, %ymm0
	vmovdqu	%ymm0, 480(%rsp)
	vmovdqu	544(%rsp), %ymm8
	vpaddd	%ymm5, %ymm8, %ymm0
	vmovdqu	160(%rsp), %ymm2
	vpaddd	%ymm2, %ymm0, %ymm0
	vpxor	%ymm0, %ymm11, %ymm5
	vpshufb	%ymm14, %ymm5, %ymm5
	vpaddd	(%rsp), %ymm5, %ymm13
	vpxor	%ymm2, %ymm13, %ymm11
	vpsrld	$12, %ymm11, %ymm14
	vpslld	$20, %ymm11, %ymm11
	vpor	%ymm14, %ymm11, %ymm14
	vpaddd	640(%rsp), %ymm0, %ymm0
	vpaddd	%ymm0, %ymm14, %ymm11
	vpxor	%ymm5, %ymm11, %ymm0
	vmovdqa	%ymm10, %ymm5
	vpshufb	%ymm10, %ymm0, %ymm10
	vpaddd	%ymm10, %ymm13, %ymm2
	vpxor	%ymm2, %ymm14, %ymm13
	vpsrld	$7, %ymm13, %ymm14
	vpslld	$25, %ymm13, %ymm13
	vpor	%ymm14, %ymm13, %ymm13
	vpaddd	%ymm1, %ymm4, %ymm4
	vpaddd	%ymm4, %ymm13, %ymm4
	vpxor	%ymm6, %ymm4, %ymm1
	vmovdqa	.L1_v3_CPI57_5(%rip), %ymm6
	vpshufb	%ymm6, %ymm1, %ymm1
	vpaddd	%ymm3, %ymm1, %ymm14
	vpxor	%ymm13, %ymm14, %ymm3
	vpsrld	$12, %ymm3, %ymm13
	vpslld	$20, %ymm3, %ymm3
	vpor	%ymm3, %ymm13, %ymm0
	vpaddd	288(%rsp), %ymm4, %ymm3
	vpaddd	%ymm0, %ymm3, %ymm13
	vpxor	%ymm1, %ymm13, %ymm1
	vpshufb	%ymm5, %ymm1, %ymm3
	vpaddd	%ymm3, %ymm14, %ymm1
	vmovdqu	%ymm1, 160(%rsp)
	vpxor	%ymm0, %ymm1, %ymm0
	vpsrld	$7, %ymm0, %ymm1
	vpslld	$25, %ymm0, %ymm0
	vpor	%ymm1, %ymm0, %ymm0
	vmovdqu	%ymm0, 192(%rsp)
	vpaddd	%ymm7, %ymm12, %ymm0
	vmovdqu	32(%rsp), %ymm4
	vpaddd	%ymm4, %ymm0, %ymm0
	vpxor	%ymm0, %ymm9, %ymm1
	vmovdqa	%ymm6, %ymm9
	vpshufb	%ymm6, %ymm1, %ymm1
	vpaddd	%ymm2, %ymm1, %ymm6
	vpxor	%ymm4, %ymm6, %ymm2
	vpsrld	$12, %ymm2, %ymm4
	vpslld	$20, %ymm2, %ymm2
	vpor	%ymm4, %ymm2, %ymm7
	vpaddd	%ymm0, %ymm15, %ymm0
	vpaddd	%ymm7, %ymm0, %ymm2
	vpxor	%ymm1, %ymm2, %ymm0
	vmovdqa	%ymm5, %ymm14
	vpshufb	%ymm5, %ymm0, %ymm4
	vpaddd	%ymm4, %ymm6, %ymm0
	vmovdqu	%ymm0, 128(%rsp)
	vpxor	%ymm7, %ymm0, %ymm0
	vpsrld	$7, %ymm0, %ymm1
	vpslld	$25, %ymm0, %ymm0
	vpor	%ymm1, %ymm0, %ymm0
	vpaddd	768(%rsp), %ymm8, %ymm1
	vmovdqu	256(%rsp), %ymm7
	vpaddd	%ymm7, %ymm1, %ymm1
	vpxor	%ymm1, %ymm10, %ymm5
	vpshufb	%ymm9, %ymm5, %ymm5
	vpaddd	96(%rsp), %ymm5, %ymm6
	vpxor	%ymm7, %ymm6, %ymm7
	vpsrld	$12, %ymm7, %ymm10
	vpslld	$20, %ymm7, %ymm7
	vpor	%ymm7, %ymm10, %ymm12
	vpaddd	416(%rsp), %ymm1, %ymm1
	vpaddd	%ymm1, %ymm12, %ymm15
	vpxor	%ymm5, %ymm15, %ymm1
	vpshufb	%ymm14, %ymm1, %ymm1
	vmovdqu	%ymm1, (%rsp)
	vpaddd	%ymm1, %ymm6, %ymm7
	vpxor	%ymm7, %ymm12, %ymm1
	vpsrld	$7, %ymm1, %ymm5
	vpslld	$25, %ymm1, %ymm1
	vpor	%ymm5, %ymm1, %ymm5
	vpaddd	832(%rsp), %ymm11, %ymm1
	vmovdqu	480(%rsp), %ymm8
	vpaddd	%ymm1, %ymm8, %ymm1
	vpxor	224(%rsp), %ymm1, %ymm6
	vpshufb	%ymm9, %ymm6, %ymm6
	vpaddd	64(%rsp), %ymm6, %ymm12
	vpxor	%ymm8, %ymm12, %ymm8
	vpsrld	$12, %ymm8, %ymm11
	vpslld	$20, %ymm8, %ymm8
	vpor	%ymm11, %ymm8, %ymm8
	vpaddd	512(%rsp), %ymm1, %ymm1
	vpaddd	%ymm1, %ymm8, %ymm11
	vpxor	%ymm6, %ymm11, %ymm1
	vpshufb	%ymm14, %ymm1, %ymm14
	vpaddd	%ymm14, %ymm12, %ymm6
	vpxor	%ymm6, %ymm8, %ymm1
	vpsrld	$7, %ymm1, %ymm8
	vpslld	$25, %ymm1, %ymm1
	vpor	%ymm1, %ymm8, %ymm10
	vpaddd	448(%rsp), %ymm13, %ymm8
	vpaddd	%ymm0, %ymm8, %ymm8
	vpxor	%ymm14, %ymm8, %ymm12
	vpshufb	%ymm9, %ymm12, %ymm13
	vpaddd	%ymm7, %ymm13, %ymm7
	vpxor	%ymm0, %ymm7, %ymm0
	vpsrld	$12, %ymm0, %ymm12
	vpslld	$20, %ymm0, %ymm0
	vpor	%ymm0, %ymm12, %ymm0
	vpaddd	672(%rsp), %ymm8, %ymm8
	vpaddd	%ymm0, %ymm8, %ymm1
	vmovdqu	%ymm1, 480(%rsp)
	vpxor	%ymm1, %ymm13, %ymm8
	vbroadcasti128	.L1_v3_CPI57_12(%rip), %ymm1
	vpshufb	%ymm1, %ymm8, %ymm8
	vmovdqu	%ymm8, 224(%rsp)
	vpaddd	%ymm7, %ymm8, %ymm7
	vmovdqu	%ymm7, 96(%rsp)
	vpxor	%ymm0, %ymm7, %ymm0
	vpsrld	$7, %ymm0, %ymm7
	vpslld	$25, %ymm0, %ymm0
	vpor	%ymm7, %ymm0, %ymm0
	vmovdqu	%ymm0, 32(%rsp)
	vmovdqu	640(%rsp), %ymm14
	vpaddd	%ymm2, %ymm14, %ymm0
	vpaddd	%ymm5, %ymm0, %ymm0
	vpxor	%ymm3, %ymm0, %ymm2
	vpshufb	%ymm9, %ymm2, %ymm2
	vpaddd	%ymm6, %ymm2, %ymm6
	vpxor	%ymm5, %ymm6, %ymm3
	vpsrld	$12, %ymm3, %ymm5
	vpslld	$20, %ymm3, %ymm3
	vpor	%ymm5, %ymm3, %ymm5
	vpaddd	608(%rsp), %ymm0, %ymm0
	vpaddd	%ymm5, %ymm0, %ymm13
	vpxor	%ymm2, %ymm13, %ymm0
	vpshufb	%ymm1, %ymm0, %ymm12
	vmovdqa	%ymm1, %ymm8
	vpaddd	%ymm6, %ymm12, %ymm0
	vmovdqu	%ymm0, 64(%rsp)
	vpxor	%ymm5, %ymm0, %ymm0
	vpsrld	$7, %ymm0, %ymm2
	vpslld	$25, %ymm0, %ymm0
	vpor	%ymm2, %ymm0, %ymm0
	vmovdqu	%ymm0, 256(%rsp)
	vmovdqu	576(%rsp), %ymm3
	vpaddd	%ymm3, %ymm15, %ymm2
	vpaddd	%ymm2, %ymm10, %ymm2
	vpxor	%ymm4, %ymm2, %ymm4
	vpshufb	%ymm9, %ymm4, %ymm4
	vpaddd	160(%rsp), %ymm4, %ymm5
	vpxor	%ymm5, %ymm10, %ymm1
	vpsrld	$12, %ymm1, %ymm7
	vpslld	$20, %ymm1, %ymm1
	vpor	%ymm7, %ymm1, %ymm7
	vmovdqu	800(%rsp), %ymm6
	vpaddd	%ymm6, %ymm2, %ymm1
	vpaddd	%ymm7, %ymm1, %ymm15
	vpxor	%ymm4, %ymm15, %ymm1
	vpshufb	%ymm8, %ymm1, %ymm1
	vpaddd	%ymm1, %ymm5, %ymm5
	vpxor	%ymm7, %ymm5, %ymm2
	vpsrld	$7, %ymm2, %ymm4
	vpslld	$25, %ymm2, %ymm2
	vpor	%ymm4, %ymm2, %ymm2
	vmovdqu	352(%rsp), %ymm0
	vpaddd	%ymm0, %ymm11, %ymm4
	vmovdqu	192(%rsp), %ymm11
	vpaddd	%ymm4, %ymm11, %ymm4
	vpxor	(%rsp), %ymm4, %ymm7
	vpshufb	%ymm9, %ymm7, %ymm7
	vpaddd	128(%rsp), %ymm7, %ymm9
	vpxor	%ymm11, %ymm9, %ymm10
	vpsrld	$12, %ymm10, %ymm11
	vpslld	$20, %ymm10, %ymm10
	vpor	%ymm11, %ymm10, %ymm10
	vpaddd	320(%rsp), %ymm4, %ymm4
	vpaddd	%ymm4, %ymm10, %ymm11
	vpxor	%ymm7, %ymm11, %ymm4
	vpshufb	%ymm8, %ymm4, %ymm4
	vpaddd	%ymm4, %ymm9, %ymm7
	vpxor	%ymm7, %ymm10, %ymm9
	vpsrld	$7, %ymm9, %ymm10
	vpslld	$25, %ymm9, %ymm9
	vpor	%ymm10, %ymm9, %ymm9
	vpaddd	480(%rsp), %ymm3, %ymm10
	vpaddd	%ymm9, %ymm10, %ymm10
	vpxor	%ymm12, %ymm10, %ymm3
	vmovdqa	.L1_v3_CPI57_5(%rip), %ymm8
	vpshufb	%ymm8, %ymm3, %ymm3
	vpaddd	%ymm5, %ymm3, %ymm5
	vpxor	%ymm5, %ymm9, %ymm9
	vpsrld	$12, %ymm9, %ymm12
	vpslld	$20, %ymm9, %ymm9
	vpor	%ymm12, %ymm9, %ymm9
	vpaddd	%ymm0, %ymm10, %ymm10
	vpaddd	%ymm9, %ymm10, %ymm12
	vpxor	%ymm3, %ymm12, %ymm3
	vbroadcasti128	.L1_v3_CPI57_12(%rip), %ymm0
	vpshufb	%ymm0, %ymm3, %ymm10
	vpaddd	%ymm5, %ymm10, %ymm3
	vmovdqu	%ymm3, 160(%rsp)
	vpxor	%ymm3, %ymm9, %ymm5
	vpsrld	$7, %ymm5, %ymm9
	vpslld	$25, %ymm5, %ymm5
	vpor	%ymm5, %ymm9, %ymm5
	vmovdqu	%ymm5, 192(%rsp)
	vpaddd	%ymm14, %ymm13, %ymm5
	vmovdqu	32(%rsp), %ymm3
	vpaddd	%ymm3, %ymm5, %ymm5
	vpxor	%ymm1, %ymm5, %ymm1
	vpshufb	%ymm8, %ymm1, %ymm1
	vmovdqa	%ymm8, %ymm14
	vpaddd	%ymm7, %ymm1, %ymm7
	vpxor	%ymm3, %ymm7, %ymm8
	vpsrld	$12, %ymm8, %ymm9
	vpslld	$20, %ymm8, %ymm8
	vpor	%ymm9, %ymm8, %ymm9
	vpaddd	%ymm6, %ymm5, %ymm5
	vpaddd	%ymm5, %ymm9, %ymm13
	vpxor	%ymm1, %ymm13, %ymm1
	vmovdqa	%ymm0, %ymm5
	vpshufb	%ymm0, %ymm1, %ymm8
	vpaddd	%ymm7, %ymm8, %ymm0
	vmovdqu	%ymm0, (%rsp)
	vpxor	%ymm0, %ymm9, %ymm1
	vpsrld	$7, %ymm1, %ymm7
	vpslld	$25, %ymm1, %ymm1
	vpor	%ymm7, %ymm1, %ymm9
	vpaddd	512(%rsp), %ymm15, %ymm1
	vmovdqu	256(%rsp), %ymm0
	vpaddd	%ymm0, %ymm1, %ymm1
	vpxor	%ymm4, %ymm1, %ymm4
	vmovdqa	%ymm14, %ymm3
	vpshufb	%ymm14, %ymm4, %ymm4
	vpaddd	96(%rsp), %ymm4, %ymm7
	vpxor	%ymm0, %ymm7, %ymm0
	vpsrld	$12, %ymm0, %ymm14
	vpslld	$20, %ymm0, %ymm0
	vpor	%ymm0, %ymm14, %ymm0
	vpaddd	704(%rsp), %ymm1, %ymm1
	vpaddd	%ymm0, %ymm1, %ymm15
	vpxor	%ymm4, %ymm15, %ymm1
	vpshufb	%ymm5, %ymm1, %ymm1
	vpaddd	%ymm1, %ymm7, %ymm4
	vpxor	%ymm0, %ymm4, %ymm0
	vpsrld	$7, %ymm0, %ymm7
	vpslld	$25, %ymm0, %ymm0
	vpor	%ymm7, %ymm0, %ymm0
	vpaddd	384(%rsp), %ymm11, %ymm7
	vpaddd	%ymm2, %ymm7, %ymm7
	vpxor	224(%rsp), %ymm7, %ymm11
	vpshufb	%ymm3, %ymm11, %ymm14
	vpaddd	64(%rsp), %ymm14, %ymm6
	vpxor	%ymm2, %ymm6, %ymm2
	vpsrld	$12, %ymm2, %ymm11
	vpslld	$20, %ymm2, %ymm2
	vpor	%ymm2, %ymm11, %ymm2
	vpaddd	672(%rsp), %ymm7, %ymm7
	vpaddd	%ymm2, %ymm7, %ymm11
	vpxor	%ymm14, %ymm11, %ymm7
	vpshufb	%ymm5, %ymm7, %ymm14
	vpaddd	%ymm6, %ymm14, %ymm7
	vpxor	%ymm2, %ymm7, %ymm2
	vpsrld	$7, %ymm2, %ymm6
	vpslld	$25, %ymm2, %ymm2
	vpor	%ymm6, %ymm2, %ymm6
	vpaddd	416(%rsp), %ymm12, %ymm2
	vpaddd	%ymm2, %ymm9, %ymm2
	vpxor	%ymm2, %ymm14, %ymm12
	vpshufb	%ymm3, %ymm12, %ymm14
	vpaddd	%ymm4, %ymm14, %ymm4
	vpxor	%ymm4, %ymm9, %ymm9
	vpsrld	$12, %ymm9, %ymm12
	vpslld	$20, %ymm9, %ymm9
	vpor	%ymm12, %ymm9, %ymm9
	vpaddd	608(%rsp), %ymm2, %ymm2
	vpaddd	%ymm2, %ymm9, %ymm12
	vpxor	%ymm14, %ymm12, %ymm2
	vpshufb	%ymm5, %ymm2, %ymm2
	vmovdqu	%ymm2, 224(%rsp)
	vpaddd	%ymm2, %ymm4, %ymm2
	vmovdqu	%ymm2, 128(%rsp)
	vpxor	%ymm2, %ymm9, %ymm2
	vpsrld	$7, %ymm2, %ymm9
	vpslld	$25, %ymm2, %ymm2
	vpor	%ymm2, %ymm9, %ymm2
	vmovdqu	%ymm2, 64(%rsp)
	vpaddd	544(%rsp), %ymm13, %ymm9
	vpaddd	%ymm0, %ymm9, %ymm9
	vpxor	%ymm10, %ymm9, %ymm10
	vpshufb	%ymm3, %ymm10, %ymm10
	vpaddd	%ymm7, %ymm10, %ymm7
	vpxor	%ymm0, %ymm7, %ymm0
	vpsrld	$12, %ymm0, %ymm13
	vpslld	$20, %ymm0, %ymm0
	vpor	%ymm0, %ymm13, %ymm13
	vpaddd	448(%rsp), %ymm9, %ymm0
	vpaddd	%ymm0, %ymm13, %ymm9
	vpxor	%ymm10, %ymm9, %ymm0
	vpshufb	%ymm5, %ymm0, %ymm2
	vmovdqa	%ymm5, %ymm14
	vpaddd	%ymm2, %ymm7, %ymm0
	vmovdqu	%ymm0, 96(%rsp)
	vpxor	%ymm0, %ymm13, %ymm10
	vpsrld	$7, %ymm10, %ymm13
	vpslld	$25, %ymm10, %ymm10
	vpor	%ymm13, %ymm10, %ymm0
	vmovdqu	%ymm0, 256(%rsp)
	vpaddd	320(%rsp), %ymm15, %ymm13
	vpaddd	%ymm6, %ymm13, %ymm13
	vpxor	%ymm8, %ymm13, %ymm8
	vpshufb	%ymm3, %ymm8, %ymm8
	vmovdqa	%ymm3, %ymm5
	vpaddd	160(%rsp), %ymm8, %ymm3
	vpxor	%ymm6, %ymm3, %ymm6
	vpsrld	$12, %ymm6, %ymm15
	vpslld	$20, %ymm6, %ymm6
	vpor	%ymm6, %ymm15, %ymm0
	vmovdqu	736(%rsp), %ymm4
	vpaddd	%ymm4, %ymm13, %ymm6
	vpaddd	%ymm0, %ymm6, %ymm10
	vpxor	%ymm8, %ymm10, %ymm6
	vpshufb	%ymm14, %ymm6, %ymm6
	vpaddd	%ymm6, %ymm3, %ymm3
	vpxor	%ymm0, %ymm3, %ymm0
	vpsrld	$7, %ymm0, %ymm8
	vpslld	$25, %ymm0, %ymm0
	vpor	%ymm0, %ymm8, %ymm8
	vmovdqu	832(%rsp), %ymm15
	vpaddd	%ymm15, %ymm11, %ymm0
	vmovdqu	192(%rsp), %ymm7
	vpaddd	%ymm7, %ymm0, %ymm0
	vpxor	%ymm1, %ymm0, %ymm1
	vpshufb	%ymm5, %ymm1, %ymm1
	vpaddd	(%rsp), %ymm1, %ymm5
	vpxor	%ymm7, %ymm5, %ymm11
	vpsrld	$12, %ymm11, %ymm13
	vpslld	$20, %ymm11, %ymm11
	vpor	%ymm13, %ymm11, %ymm13
	vpaddd	288(%rsp), %ymm0, %ymm0
	vpaddd	%ymm0, %ymm13, %ymm11
	vpxor	%ymm1, %ymm11, %ymm0
	vmovdqa	%ymm14, %ymm1
	vpshufb	%ymm14, %ymm0, %ymm7
	vpaddd	%ymm7, %ymm5, %ymm5
	vpxor	%ymm5, %ymm13, %ymm0
	vpsrld	$7, %ymm0, %ymm13
	vpslld	$25, %ymm0, %ymm0
	vpor	%ymm0, %ymm13, %ymm0
	vpaddd	352(%rsp), %ymm12, %ymm12
	vpaddd	%ymm0, %ymm12, %ymm12
	vpxor	%ymm2, %ymm12, %ymm2
	vmovdqa	.L1_v3_CPI57_5(%rip), %ymm14
	vpshufb	%ymm14, %ymm2, %ymm2
	vpaddd	%ymm3, %ymm2, %ymm3
	vpxor	%ymm0, %ymm3, %ymm0
	vpsrld	$12, %ymm0, %ymm13
	vpslld	$20, %ymm0, %ymm0
	vpor	%ymm0, %ymm13, %ymm13
	vpaddd	%ymm4, %ymm12, %ymm0
	vpaddd	%ymm0, %ymm13, %ymm12
	vpxor	%ymm2, %ymm12, %ymm0
	vpshufb	%ymm1, %ymm0, %ymm2
	vmovdqu	%ymm2, (%rsp)
	vmovdqa	%ymm1, %ymm0
	vpaddd	%ymm2, %ymm3, %ymm1
	vmovdqu	%ymm1, 160(%rsp)
	vpxor	%ymm1, %ymm13, %ymm2
	vpsrld	$7, %ymm2, %ymm13
	vpslld	$25, %ymm2, %ymm2
	vpor	%ymm2, %ymm13, %ymm1
	vmovdqu	%ymm1, 192(%rsp)
	vpaddd	544(%rsp), %ymm9, %ymm2
	vmovdqu	64(%rsp), %ymm1
	vpaddd	%ymm1, %ymm2, %ymm2
	vpxor	%ymm6, %ymm2, %ymm6
	vpshufb	%ymm14, %ymm6, %ymm6
	vpaddd	%ymm5, %ymm6, %ymm5
	vpxor	%ymm1, %ymm5, %ymm4
	vpsrld	$12, %ymm4, %ymm9
	vpslld	$20, %ymm4, %ymm4
	vpor	%ymm4, %ymm9, %ymm4
	vpaddd	576(%rsp), %ymm2, %ymm2
	vpaddd	%ymm4, %ymm2, %ymm13
	vpxor	%ymm6, %ymm13, %ymm2
	vpshufb	%ymm0, %ymm2, %ymm1
	vmovdqu	%ymm1, 32(%rsp)
	vpaddd	%ymm1, %ymm5, %ymm1
	vmovdqu	%ymm1, 64(%rsp)
	vpxor	%ymm4, %ymm1, %ymm4
	vpsrld	$7, %ymm4, %ymm6
	vpslld	$25, %ymm4, %ymm4
	vpor	%ymm6, %ymm4, %ymm6
	vpaddd	416(%rsp), %ymm10, %ymm4
	vmovdqu	256(%rsp), %ymm3
	vpaddd	%ymm3, %ymm4, %ymm4
	vpxor	%ymm7, %ymm4, %ymm1
	vmovdqa	%ymm14, %ymm2
	vpshufb	%ymm14, %ymm1, %ymm1
	vpaddd	128(%rsp), %ymm1, %ymm9
	vpxor	%ymm3, %ymm9, %ymm10
	vpsrld	$12, %ymm10, %ymm14
	vpslld	$20, %ymm10, %ymm10
	vpor	%ymm14, %ymm10, %ymm14
	vpaddd	320(%rsp), %ymm4, %ymm4
	vpaddd	%ymm4, %ymm14, %ymm3
	vpxor	%ymm1, %ymm3, %ymm1
	vmovdqa	%ymm0, %ymm5
	vpshufb	%ymm0, %ymm1, %ymm10
	vpaddd	%ymm10, %ymm9, %ymm4
	vpxor	%ymm4, %ymm14, %ymm1
	vpsrld	$7, %ymm1, %ymm9
	vpslld	$25, %ymm1, %ymm1
	vpor	%ymm1, %ymm9, %ymm1
	vpaddd	448(%rsp), %ymm11, %ymm9
	vpaddd	%ymm8, %ymm9, %ymm9
	vpxor	224(%rsp), %ymm9, %ymm11
	vpshufb	%ymm2, %ymm11, %ymm14
	vpaddd	96(%rsp), %ymm14, %ymm7
	vpxor	%ymm7, %ymm8, %ymm8
	vpsrld	$12, %ymm8, %ymm11
	vpslld	$20, %ymm8, %ymm8
	vpor	%ymm11, %ymm8, %ymm8
	vpaddd	%ymm15, %ymm9, %ymm9
	vpaddd	%ymm8, %ymm9, %ymm11
	vpxor	%ymm14, %ymm11, %ymm9
	vpshufb	%ymm0, %ymm9, %ymm14
	vpaddd	%ymm7, %ymm14, %ymm9
	vpxor	%ymm8, %ymm9, %ymm7
	vpsrld	$7, %ymm7, %ymm8
	vpslld	$25, %ymm7, %ymm7
	vpor	%ymm7, %ymm8, %ymm7
	vpaddd	672(%rsp), %ymm12, %ymm8
	vpaddd	%ymm6, %ymm8, %ymm8
	vpxor	%ymm14, %ymm8, %ymm12
	vpshufb	%ymm2, %ymm12, %ymm14
	vpaddd	%ymm4, %ymm14, %ymm4
	vpxor	%ymm6, %ymm4, %ymm6
	vpsrld	$12, %ymm6, %ymm12
	vpslld	$20, %ymm6, %ymm6
	vpor	%ymm6, %ymm12, %ymm6
	vpaddd	800(%rsp), %ymm8, %ymm8
	vpaddd	%ymm6, %ymm8, %ymm12
	vpxor	%ymm14, %ymm12, %ymm8
	vpshufb	%ymm0, %ymm8, %ymm0
	vmovdqu	%ymm0, 224(%rsp)
	vpaddd	%ymm0, %ymm4, %ymm0
	vmovdqu	%ymm0, 128(%rsp)
	vpxor	%ymm6, %ymm0, %ymm6
	vpsrld	$7, %ymm6, %ymm8
	vpslld	$25, %ymm6, %ymm6
	vpor	%ymm6, %ymm8, %ymm8
	vpaddd	384(%rsp), %ymm13, %ymm6
	vpaddd	%ymm1, %ymm6, %ymm6
	vpxor	(%rsp), %ymm6, %ymm0
	vpshufb	%ymm2, %ymm0, %ymm0
	vmovdqa	%ymm2, %ymm15
	vpaddd	%ymm0, %ymm9, %ymm14
	vpxor	%ymm1, %ymm14, %ymm1
	vpsrld	$12, %ymm1, %ymm9
	vpslld	$20, %ymm1, %ymm1
	vpor	%ymm1, %ymm9, %ymm1
	vmovdqu	704(%rsp), %ymm4
	vpaddd	%ymm4, %ymm6, %ymm6
	vpaddd	%ymm1, %ymm6, %ymm13
	vpxor	%ymm0, %ymm13, %ymm0
	vpshufb	%ymm5, %ymm0, %ymm9
	vpaddd	%ymm9, %ymm14, %ymm0
	vmovdqu	%ymm0, 96(%rsp)
	vpxor	%ymm1, %ymm0, %ymm0
	vpsrld	$7, %ymm0, %ymm1
	vpslld	$25, %ymm0, %ymm0
	vpor	%ymm1, %ymm0, %ymm0
	vmovdqu	%ymm0, (%rsp)
	vmovdqu	608(%rsp), %ymm1
	vpaddd	%ymm1, %ymm3, %ymm0
	vpaddd	%ymm7, %ymm0, %ymm0
	vpxor	32(%rsp), %ymm0, %ymm2
	vpshufb	%ymm15, %ymm2, %ymm2
	vpaddd	160(%rsp), %ymm2, %ymm3
	vpxor	%ymm7, %ymm3, %ymm7
	vpsrld	$12, %ymm7, %ymm14
	vpslld	$20, %ymm7, %ymm7
	vpor	%ymm7, %ymm14, %ymm14
	vmovdqu	288(%rsp), %ymm6
	vpaddd	%ymm6, %ymm0, %ymm0
	vpaddd	%ymm0, %ymm14, %ymm0
	vmovdqu	%ymm0, 32(%rsp)
	vpxor	%ymm2, %ymm0, %ymm0
	vpshufb	%ymm5, %ymm0, %ymm7
	vmovdqa	%ymm5, %ymm15
	vpaddd	%ymm7, %ymm3, %ymm3
	vpxor	%ymm3, %ymm14, %ymm0
	vpsrld	$7, %ymm0, %ymm2
	vpslld	$25, %ymm0, %ymm0
	vpor	%ymm2, %ymm0, %ymm0
	vmovdqu	%ymm0, 256(%rsp)
	vpaddd	640(%rsp), %ymm11, %ymm0
	vmovdqu	192(%rsp), %ymm11
	vpaddd	%ymm0, %ymm11, %ymm0
	vpxor	%ymm0, %ymm10, %ymm10
	vmovdqa	.L1_v3_CPI57_5(%rip), %ymm2
	vpshufb	%ymm2, %ymm10, %ymm10
	vpaddd	64(%rsp), %ymm10, %ymm5
	vpxor	%ymm5, %ymm11, %ymm11
	vpsrld	$12, %ymm11, %ymm14
	vpslld	$20, %ymm11, %ymm11
	vpor	%ymm14, %ymm11, %ymm14
	vpaddd	512(%rsp), %ymm0, %ymm0
	vpaddd	%ymm0, %ymm14, %ymm11
	vpxor	%ymm10, %ymm11, %ymm0
	vpshufb	%ymm15, %ymm0, %ymm0
	vpaddd	%ymm0, %ymm5, %ymm5
	vpxor	%ymm5, %ymm14, %ymm10
	vpsrld	$7, %ymm10, %ymm14
	vpslld	$25, %ymm10, %ymm10
	vpor	%ymm14, %ymm10, %ymm10
	vpaddd	416(%rsp), %ymm12, %ymm12
	vpaddd	%ymm10, %ymm12, %ymm12
	vpxor	%ymm9, %ymm12, %ymm9
	vpshufb	%ymm2, %ymm9, %ymm9
	vpaddd	%ymm3, %ymm9, %ymm3
	vpxor	%ymm3, %ymm10, %ymm10
	vpsrld	$12, %ymm10, %ymm14
	vpslld	$20, %ymm10, %ymm10
	vpor	%ymm14, %ymm10, %ymm14
	vpaddd	%ymm4, %ymm12, %ymm10
	vpaddd	%ymm14, %ymm10, %ymm12
	vpxor	%ymm9, %ymm12, %ymm9
	vpshufb	%ymm15, %ymm9, %ymm10
	vpaddd	%ymm3, %ymm10, %ymm3
	vmovdqu	%ymm3, 160(%rsp)
	vpxor	%ymm3, %ymm14, %ymm3
	vpsrld	$7, %ymm3, %ymm14
	vpslld	$25, %ymm3, %ymm3
	vpor	%ymm3, %ymm14, %ymm3
	vmovdqu	%ymm3, 192(%rsp)
	vpaddd	%ymm1, %ymm13, %ymm3
	vpaddd	%ymm3, %ymm8, %ymm3
	vpxor	%ymm7, %ymm3, %ymm7
	vpshufb	%ymm2, %ymm7, %ymm7
	vpaddd	%ymm5, %ymm7, %ymm5
	vpxor	%ymm5, %ymm8, %ymm8
	vpsrld	$12, %ymm8, %ymm13
	vpslld	$20, %ymm8, %ymm8
	vpor	%ymm13, %ymm8, %ymm14
	vpaddd	448(%rsp), %ymm3, %ymm3
	vpaddd	%ymm3, %ymm14, %ymm13
	vpxor	%ymm7, %ymm13, %ymm3
	vmovdqa	%ymm15, %ymm9
	vpshufb	%ymm15, %ymm3, %ymm8
	vpaddd	%ymm5, %ymm8, %ymm3
	vmovdqu	%ymm3, 64(%rsp)
	vpxor	%ymm3, %ymm14, %ymm3
	vpsrld	$7, %ymm3, %ymm7
	vpslld	$25, %ymm3, %ymm3
	vpor	%ymm7, %ymm3, %ymm7
	vmovdqu	32(%rsp), %ymm3
	vpaddd	736(%rsp), %ymm3, %ymm3
	vmovdqu	(%rsp), %ymm5
	vpaddd	%ymm5, %ymm3, %ymm3
	vpxor	%ymm0, %ymm3, %ymm0
	vpshufb	%ymm2, %ymm0, %ymm0
	vmovdqa	%ymm2, %ymm15
	vpaddd	128(%rsp), %ymm0, %ymm4
	vpxor	%ymm5, %ymm4, %ymm1
	vpsrld	$12, %ymm1, %ymm14
	vpslld	$20, %ymm1, %ymm1
	vpor	%ymm1, %ymm14, %ymm1
	vpaddd	384(%rsp), %ymm3, %ymm3
	vpaddd	%ymm1, %ymm3, %ymm3
	vpxor	%ymm0, %ymm3, %ymm0
	vpshufb	%ymm9, %ymm0, %ymm5
	vpaddd	%ymm5, %ymm4, %ymm4
	vpxor	%ymm1, %ymm4, %ymm0
	vpsrld	$7, %ymm0, %ymm1
	vpslld	$25, %ymm0, %ymm0
	vpor	%ymm1, %ymm0, %ymm0
	vpaddd	%ymm6, %ymm11, %ymm1
	vmovdqu	256(%rsp), %ymm2
	vpaddd	%ymm2, %ymm1, %ymm1
	vpxor	224(%rsp), %ymm1, %ymm11
	vpshufb	%ymm15, %ymm11, %ymm14
	vpaddd	96(%rsp), %ymm14, %ymm6
	vpxor	%ymm2, %ymm6, %ymm2
	vpsrld	$12, %ymm2, %ymm11
	vpslld	$20, %ymm2, %ymm2
	vpor	%ymm2, %ymm11, %ymm2
	vpaddd	640(%rsp), %ymm1, %ymm1
	vpaddd	%ymm2, %ymm1, %ymm11
	vpxor	%ymm14, %ymm11, %ymm1
	vpshufb	%ymm9, %ymm1, %ymm14
	vpaddd	%ymm6, %ymm14, %ymm6
	vpxor	%ymm2, %ymm6, %ymm1
	vpsrld	$7, %ymm1, %ymm2
	vpslld	$25, %ymm1, %ymm1
	vpor	%ymm2, %ymm1, %ymm1
	vpaddd	320(%rsp), %ymm12, %ymm2
	vpaddd	%ymm7, %ymm2, %ymm2
	vpxor	%ymm2, %ymm14, %ymm12
	vpshufb	%ymm15, %ymm12, %ymm14
	vpaddd	%ymm4, %ymm14, %ymm4
	vpxor	%ymm7, %ymm4, %ymm7
	vpsrld	$12, %ymm7, %ymm12
	vpslld	$20, %ymm7, %ymm7
	vpor	%ymm7, %ymm12, %ymm7
	vpaddd	512(%rsp), %ymm2, %ymm2
	vpaddd	%ymm7, %ymm2, %ymm12
	vpxor	%ymm14, %ymm12, %ymm2
	vpshufb	%ymm9, %ymm2, %ymm2
	vmovdqu	%ymm2, 224(%rsp)
	vpaddd	%ymm2, %ymm4, %ymm2
	vmovdqu	%ymm2, 128(%rsp)
	vpxor	%ymm7, %ymm2, %ymm2
	vpsrld	$7, %ymm2, %ymm7
	vpslld	$25, %ymm2, %ymm2
	vpor	%ymm7, %ymm2, %ymm2
	vmovdqu	%ymm2, (%rsp)
	vpaddd	576(%rsp), %ymm13, %ymm7
	vpaddd	%ymm0, %ymm7, %ymm7
	vpxor	%ymm7, %ymm10, %ymm10
	vpshufb	%ymm15, %ymm10, %ymm10
	vpaddd	%ymm6, %ymm10, %ymm6
	vpxor	%ymm0, %ymm6, %ymm0
	vpsrld	$12, %ymm0, %ymm13
	vpslld	$20, %ymm0, %ymm0
	vpor	%ymm0, %ymm13, %ymm0
	vmovdqu	544(%rsp), %ymm4
	vpaddd	%ymm4, %ymm7, %ymm7
	vpaddd	%ymm0, %ymm7, %ymm13
	vpxor	%ymm10, %ymm13, %ymm7
	vpshufb	%ymm9, %ymm7, %ymm7
	vpaddd	%ymm7, %ymm6, %ymm6
	vmovdqu	%ymm6, 96(%rsp)
	vpxor	%ymm0, %ymm6, %ymm0
	vpsrld	$7, %ymm0, %ymm10
	vpslld	$25, %ymm0, %ymm0
	vpor	%ymm0, %ymm10, %ymm0
	vmovdqu	%ymm0, 32(%rsp)
	vmovdqu	832(%rsp), %ymm10
	vpaddd	%ymm3, %ymm10, %ymm0
	vpaddd	%ymm1, %ymm0, %ymm0
	vpxor	%ymm0, %ymm8, %ymm8
	vpshufb	%ymm15, %ymm8, %ymm8
	vmovdqa	%ymm15, %ymm3
	vpaddd	160(%rsp), %ymm8, %ymm14
	vpxor	%ymm1, %ymm14, %ymm1
	vpsrld	$12, %ymm1, %ymm9
	vpslld	$20, %ymm1, %ymm1
	vpor	%ymm1, %ymm9, %ymm1
	vmovdqu	672(%rsp), %ymm15
	vpaddd	%ymm0, %ymm15, %ymm0
	vpaddd	%ymm1, %ymm0, %ymm0
	vmovdqu	%ymm0, 480(%rsp)
	vpxor	%ymm0, %ymm8, %ymm0
	vbroadcasti128	.L1_v3_CPI57_12(%rip), %ymm6
	vpshufb	%ymm6, %ymm0, %ymm9
	vpaddd	%ymm9, %ymm14, %ymm14
	vpxor	%ymm1, %ymm14, %ymm0
	vpsrld	$7, %ymm0, %ymm1
	vpslld	$25, %ymm0, %ymm0
	vpor	%ymm1, %ymm0, %ymm0
	vmovdqu	%ymm0, 256(%rsp)
	vmovdqu	800(%rsp), %ymm2
	vpaddd	%ymm2, %ymm11, %ymm0
	vmovdqu	192(%rsp), %ymm8
	vpaddd	%ymm0, %ymm8, %ymm0
	vpxor	%ymm5, %ymm0, %ymm1
	vpshufb	%ymm3, %ymm1, %ymm1
	vpaddd	64(%rsp), %ymm1, %ymm3
	vpxor	%ymm3, %ymm8, %ymm5
	vpsrld	$12, %ymm5, %ymm11
	vpslld	$20, %ymm5, %ymm5
	vpor	%ymm5, %ymm11, %ymm5
	vpaddd	352(%rsp), %ymm0, %ymm0
	vpaddd	%ymm5, %ymm0, %ymm0
	vmovdqu	%ymm0, 768(%rsp)
	vpxor	%ymm1, %ymm0, %ymm0
	vpshufb	%ymm6, %ymm0, %ymm11
	vpaddd	%ymm3, %ymm11, %ymm1
	vpxor	%ymm5, %ymm1, %ymm3
	vpsrld	$7, %ymm3, %ymm5
	vpslld	$25, %ymm3, %ymm3
	vpor	%ymm5, %ymm3, %ymm3
	vpaddd	704(%rsp), %ymm12, %ymm5
	vpaddd	%ymm3, %ymm5, %ymm5
	vpxor	%ymm7, %ymm5, %ymm7
	vmovdqa	.L1_v3_CPI57_5(%rip), %ymm8
	vpshufb	%ymm8, %ymm7, %ymm7
	vpaddd	%ymm7, %ymm14, %ymm14
	vpxor	%ymm3, %ymm14, %ymm3
	vpsrld	$12, %ymm3, %ymm12
	vpslld	$20, %ymm3, %ymm3
	vpor	%ymm3, %ymm12, %ymm0
	vpaddd	%ymm4, %ymm5, %ymm3
	vpaddd	%ymm0, %ymm3, %ymm12
	vpxor	%ymm7, %ymm12, %ymm3
	vpshufb	%ymm6, %ymm3, %ymm3
	vmovdqu	%ymm3, 896(%rsp)
	vpaddd	%ymm3, %ymm14, %ymm3
	vmovdqu	%ymm3, 160(%rsp)
	vpxor	%ymm0, %ymm3, %ymm0
	vpsrld	$7, %ymm0, %ymm5
	vpslld	$25, %ymm0, %ymm0
	vpor	%ymm5, %ymm0, %ymm0
	vmovdqu	%ymm0, 192(%rsp)
	vpaddd	%ymm2, %ymm13, %ymm0
	vmovdqu	(%rsp), %ymm2
	vpaddd	%ymm2, %ymm0, %ymm0
	vpxor	%ymm0, %ymm9, %ymm5
	vpshufb	%ymm8, %ymm5, %ymm5
	vpaddd	%ymm1, %ymm5, %ymm1
	vpxor	%ymm2, %ymm1, %ymm4
	vpsrld	$12, %ymm4, %ymm9
	vpslld	$20, %ymm4, %ymm4
	vpor	%ymm4, %ymm9, %ymm4
	vpaddd	%ymm0, %ymm10, %ymm0
	vpaddd	%ymm4, %ymm0, %ymm3
	vpxor	%ymm5, %ymm3, %ymm0
	vmovdqa	%ymm6, %ymm13
	vpshufb	%ymm6, %ymm0, %ymm14
	vpaddd	%ymm1, %ymm14, %ymm0
	vmovdqu	%ymm0, 64(%rsp)
	vpxor	%ymm4, %ymm0, %ymm0
	vpsrld	$7, %ymm0, %ymm1
	vpslld	$25, %ymm0, %ymm0
	vpor	%ymm1, %ymm0, %ymm9
	vpaddd	480(%rsp), %ymm15, %ymm0
	vmovdqu	32(%rsp), %ymm4
	vpaddd	%ymm4, %ymm0, %ymm0
	vpxor	%ymm0, %ymm11, %ymm1
	vmovdqa	%ymm8, %ymm7
	vpshufb	%ymm8, %ymm1, %ymm1
	vpaddd	128(%rsp), %ymm1, %ymm2
	vpxor	%ymm4, %ymm2, %ymm4
	vpsrld	$12, %ymm4, %ymm10
	vpslld	$20, %ymm4, %ymm4
	vpor	%ymm4, %ymm10, %ymm4
	vpaddd	512(%rsp), %ymm0, %ymm0
	vpaddd	%ymm4, %ymm0, %ymm15
	vpxor	%ymm1, %ymm15, %ymm0
	vpshufb	%ymm6, %ymm0, %ymm10
	vpaddd	%ymm2, %ymm10, %ymm2
	vpxor	%ymm4, %ymm2, %ymm0
	vpsrld	$7, %ymm0, %ymm1
	vpslld	$25, %ymm0, %ymm0
	vpor	%ymm1, %ymm0, %ymm1
	vmovdqu	768(%rsp), %ymm0
	vpaddd	320(%rsp), %ymm0, %ymm0
	vmovdqu	256(%rsp), %ymm8
	vpaddd	%ymm0, %ymm8, %ymm0
	vpxor	224(%rsp), %ymm0, %ymm4
	vpshufb	%ymm7, %ymm4, %ymm4
	vpaddd	96(%rsp), %ymm4, %ymm6
	vpxor	%ymm6, %ymm8, %ymm8
	vpsrld	$12, %ymm8, %ymm11
	vpslld	$20, %ymm8, %ymm8
	vpor	%ymm11, %ymm8, %ymm8
	vpaddd	448(%rsp), %ymm0, %ymm0
	vpaddd	%ymm0, %ymm8, %ymm11
	vpxor	%ymm4, %ymm11, %ymm0
	vpshufb	%ymm13, %ymm0, %ymm4
	vpaddd	%ymm4, %ymm6, %ymm0
	vpxor	%ymm0, %ymm8, %ymm6
	vpsrld	$7, %ymm6, %ymm8
	vpslld	$25, %ymm6, %ymm6
	vpor	%ymm6, %ymm8, %ymm6
	vpaddd	736(%rsp), %ymm12, %ymm8
	vpaddd	%ymm9, %ymm8, %ymm8
	vpxor	%ymm4, %ymm8, %ymm4
	vpshufb	%ymm7, %ymm4, %ymm4
	vpaddd	%ymm2, %ymm4, %ymm2
	vpxor	%ymm2, %ymm9, %ymm9
	vpsrld	$12, %ymm9, %ymm12
	vpslld	$20, %ymm9, %ymm9
	vpor	%ymm12, %ymm9, %ymm9
	vmovdqu	576(%rsp), %ymm13
	vpaddd	%ymm13, %ymm8, %ymm8
	vpaddd	%ymm9, %ymm8, %ymm12
	vpxor	%ymm4, %ymm12, %ymm4
	vbroadcasti128	.L1_v3_CPI57_12(%rip), %ymm5
	vpshufb	%ymm5, %ymm4, %ymm4
	vmovdqu	%ymm4, 224(%rsp)
	vpaddd	%ymm4, %ymm2, %ymm2
	vmovdqu	%ymm2, 128(%rsp)
	vpxor	%ymm2, %ymm9, %ymm2
	vpsrld	$7, %ymm2, %ymm8
	vpslld	$25, %ymm2, %ymm2
	vpor	%ymm2, %ymm8, %ymm2
	vmovdqu	%ymm2, 32(%rsp)
	vpaddd	608(%rsp), %ymm3, %ymm2
	vpaddd	%ymm1, %ymm2, %ymm2
	vpxor	896(%rsp), %ymm2, %ymm3
	vpshufb	%ymm7, %ymm3, %ymm3
	vpaddd	%ymm0, %ymm3, %ymm9
	vpxor	%ymm1, %ymm9, %ymm0
	vpsrld	$12, %ymm0, %ymm1
	vpslld	$20, %ymm0, %ymm0
	vpor	%ymm1, %ymm0, %ymm1
	vpaddd	640(%rsp), %ymm2, %ymm0
	vpaddd	%ymm1, %ymm0, %ymm8
	vpxor	%ymm3, %ymm8, %ymm0
	vpshufb	%ymm5, %ymm0, %ymm4
	vpaddd	%ymm4, %ymm9, %ymm2
	vmovdqu	%ymm2, 96(%rsp)
	vpxor	%ymm1, %ymm2, %ymm1
	vpsrld	$7, %ymm1, %ymm2
	vpslld	$25, %ymm1, %ymm1
	vpor	%ymm2, %ymm1, %ymm9
	vpaddd	352(%rsp), %ymm15, %ymm2
	vpaddd	%ymm6, %ymm2, %ymm2
	vpxor	%ymm2, %ymm14, %ymm3
	vmovdqa	%ymm7, %ymm1
	vpshufb	%ymm7, %ymm3, %ymm3
	vpaddd	160(%rsp), %ymm3, %ymm7
	vpxor	%ymm6, %ymm7, %ymm6
	vpsrld	$12, %ymm6, %ymm14
	vpslld	$20, %ymm6, %ymm6
	vpor	%ymm6, %ymm14, %ymm6
	vpaddd	416(%rsp), %ymm2, %ymm2
	vpaddd	%ymm6, %ymm2, %ymm15
	vpxor	%ymm3, %ymm15, %ymm2
	vmovdqa	%ymm5, %ymm0
	vpshufb	%ymm5, %ymm2, %ymm3
	vpaddd	%ymm3, %ymm7, %ymm7
	vpxor	%ymm6, %ymm7, %ymm2
	vpsrld	$7, %ymm2, %ymm6
	vpslld	$25, %ymm2, %ymm2
	vpor	%ymm6, %ymm2, %ymm2
	vmovdqu	%ymm2, 256(%rsp)
	vpaddd	288(%rsp), %ymm11, %ymm6
	vmovdqu	192(%rsp), %ymm11
	vpaddd	%ymm6, %ymm11, %ymm6
	vpxor	%ymm6, %ymm10, %ymm10
	vpshufb	%ymm1, %ymm10, %ymm10
	vmovdqa	%ymm1, %ymm2
	vpaddd	64(%rsp), %ymm10, %ymm5
	vpxor	%ymm5, %ymm11, %ymm11
	vpsrld	$12, %ymm11, %ymm14
	vpslld	$20, %ymm11, %ymm11
	vpor	%ymm14, %ymm11, %ymm14
	vmovdqu	384(%rsp), %ymm1
	vpaddd	%ymm1, %ymm6, %ymm6
	vpaddd	%ymm6, %ymm14, %ymm11
	vpxor	%ymm10, %ymm11, %ymm6
	vpshufb	%ymm0, %ymm6, %ymm6
	vpaddd	%ymm6, %ymm5, %ymm5
	vpxor	%ymm5, %ymm14, %ymm10
	vpsrld	$7, %ymm10, %ymm14
	vpslld	$25, %ymm10, %ymm10
	vpor	%ymm14, %ymm10, %ymm10
	vpaddd	512(%rsp), %ymm12, %ymm12
	vpaddd	%ymm10, %ymm12, %ymm12
	vpxor	%ymm4, %ymm12, %ymm0
	vpshufb	%ymm2, %ymm0, %ymm0
	vpaddd	%ymm7, %ymm0, %ymm7
	vpxor	%ymm7, %ymm10, %ymm10
	vpsrld	$12, %ymm10, %ymm14
	vpslld	$20, %ymm10, %ymm10
	vpor	%ymm14, %ymm10, %ymm14
	vpaddd	%ymm1, %ymm12, %ymm10
	vpaddd	%ymm14, %ymm10, %ymm12
	vpxor	%ymm0, %ymm12, %ymm0
	vbroadcasti128	.L1_v3_CPI57_12(%rip), %ymm1
	vpshufb	%ymm1, %ymm0, %ymm10
	vpaddd	%ymm7, %ymm10, %ymm0
	vmovdqu	%ymm0, (%rsp)
	vpxor	%ymm0, %ymm14, %ymm0
	vpsrld	$7, %ymm0, %ymm14
	vpslld	$25, %ymm0, %ymm0
	vpor	%ymm0, %ymm14, %ymm0
	vmovdqu	%ymm0, 192(%rsp)
	vpaddd	%ymm13, %ymm8, %ymm0
	vmovdqu	32(%rsp), %ymm4
	vpaddd	%ymm4, %ymm0, %ymm0
	vpxor	%ymm3, %ymm0, %ymm3
	vmovdqa	%ymm2, %ymm7
	vpshufb	%ymm2, %ymm3, %ymm3
	vpaddd	%ymm5, %ymm3, %ymm5
	vpxor	%ymm4, %ymm5, %ymm8
	vpsrld	$12, %ymm8, %ymm13
	vpslld	$20, %ymm8, %ymm8
	vpor	%ymm13, %ymm8, %ymm14
	vpaddd	672(%rsp), %ymm0, %ymm0
	vpaddd	%ymm0, %ymm14, %ymm13
	vpxor	%ymm3, %ymm13, %ymm0
	vpshufb	%ymm1, %ymm0, %ymm8
	vmovdqa	%ymm1, %ymm2
	vpaddd	%ymm5, %ymm8, %ymm0
	vmovdqu	%ymm0, 160(%rsp)
	vpxor	%ymm0, %ymm14, %ymm0
	vpsrld	$7, %ymm0, %ymm3
	vpslld	$25, %ymm0, %ymm0
	vpor	%ymm3, %ymm0, %ymm5
	vpaddd	704(%rsp), %ymm15, %ymm3
	vpaddd	%ymm3, %ymm9, %ymm3
	vpxor	%ymm6, %ymm3, %ymm6
	vpshufb	%ymm7, %ymm6, %ymm6
	vpaddd	128(%rsp), %ymm6, %ymm4
	vpxor	%ymm4, %ymm9, %ymm1
	vpsrld	$12, %ymm1, %ymm14
	vpslld	$20, %ymm1, %ymm1
	vpor	%ymm1, %ymm14, %ymm1
	vpaddd	800(%rsp), %ymm3, %ymm3
	vpaddd	%ymm1, %ymm3, %ymm15
	vpxor	%ymm6, %ymm15, %ymm3
	vpshufb	%ymm2, %ymm3, %ymm0
	vmovdqu	%ymm0, 128(%rsp)
	vpaddd	%ymm0, %ymm4, %ymm4
	vpxor	%ymm1, %ymm4, %ymm1
	vpsrld	$7, %ymm1, %ymm6
	vpslld	$25, %ymm1, %ymm1
	vpor	%ymm6, %ymm1, %ymm3
	vpaddd	640(%rsp), %ymm11, %ymm6
	vmovdqu	256(%rsp), %ymm0
	vpaddd	%ymm0, %ymm6, %ymm6
	vpxor	224(%rsp), %ymm6, %ymm11
	vpshufb	%ymm7, %ymm11, %ymm14
	vpaddd	96(%rsp), %ymm14, %ymm9
	vpxor	%ymm0, %ymm9, %ymm2
	vpsrld	$12, %ymm2, %ymm11
	vpslld	$20, %ymm2, %ymm2
	vpor	%ymm2, %ymm11, %ymm0
	vpaddd	352(%rsp), %ymm6, %ymm2
	vpaddd	%ymm0, %ymm2, %ymm11
	vpxor	%ymm14, %ymm11, %ymm2
	vbroadcasti128	.L1_v3_CPI57_12(%rip), %ymm1
	vpshufb	%ymm1, %ymm2, %ymm6
	vpaddd	%ymm6, %ymm9, %ymm2
	vpxor	%ymm0, %ymm2, %ymm0
	vpsrld	$7, %ymm0, %ymm9
	vpslld	$25, %ymm0, %ymm0
	vpor	%ymm0, %ymm9, %ymm9
	vpaddd	544(%rsp), %ymm12, %ymm0
	vpaddd	%ymm5, %ymm0, %ymm0
	vpxor	%ymm6, %ymm0, %ymm6
	vmovdqa	%ymm7, %ymm14
	vpshufb	%ymm7, %ymm6, %ymm6
	vpaddd	%ymm4, %ymm6, %ymm12
	vpxor	%ymm5, %ymm12, %ymm4
	vpsrld	$12, %ymm4, %ymm5
	vpslld	$20, %ymm4, %ymm4
	vpor	%ymm5, %ymm4, %ymm5
	vpaddd	736(%rsp), %ymm0, %ymm0
	vpaddd	%ymm5, %ymm0, %ymm4
	vpxor	%ymm6, %ymm4, %ymm0
	vpshufb	%ymm1, %ymm0, %ymm0
	vmovdqa	%ymm1, %ymm7
	vmovdqu	%ymm0, 224(%rsp)
	vpaddd	%ymm0, %ymm12, %ymm0
	vmovdqu	%ymm0, 96(%rsp)
	vpxor	%ymm5, %ymm0, %ymm0
	vpsrld	$7, %ymm0, %ymm5
	vpslld	$25, %ymm0, %ymm0
	vpor	%ymm5, %ymm0, %ymm0
	vmovdqu	%ymm0, 32(%rsp)
	vmovdqu	832(%rsp), %ymm6
	vpaddd	%ymm6, %ymm13, %ymm0
	vpaddd	%ymm3, %ymm0, %ymm0
	vpxor	%ymm0, %ymm10, %ymm5
	vpshufb	%ymm14, %ymm5, %ymm5
	vpaddd	%ymm2, %ymm5, %ymm10
	vpxor	%ymm3, %ymm10, %ymm1
	vpsrld	$12, %ymm1, %ymm2
	vpslld	$20, %ymm1, %ymm1
	vpor	%ymm2, %ymm1, %ymm1
	vpaddd	320(%rsp), %ymm0, %ymm0
	vpaddd	%ymm1, %ymm0, %ymm12
	vpxor	%ymm5, %ymm12, %ymm0
	vpshufb	%ymm7, %ymm0, %ymm2
	vmovdqa	%ymm7, %ymm3
	vpaddd	%ymm2, %ymm10, %ymm0
	vmovdqu	%ymm0, 64(%rsp)
	vpxor	%ymm1, %ymm0, %ymm1
	vpsrld	$7, %ymm1, %ymm5
	vpslld	$25, %ymm1, %ymm1
	vpor	%ymm5, %ymm1, %ymm0
	vmovdqu	%ymm0, 256(%rsp)
	vpaddd	288(%rsp), %ymm15, %ymm1
	vpaddd	%ymm1, %ymm9, %ymm1
	vpxor	%ymm1, %ymm8, %ymm5
	vpshufb	%ymm14, %ymm5, %ymm5
	vmovdqa	%ymm14, %ymm10
	vpaddd	(%rsp), %ymm5, %ymm7
	vpxor	%ymm7, %ymm9, %ymm8
	vpsrld	$12, %ymm8, %ymm9
	vpslld	$20, %ymm8, %ymm8
	vpor	%ymm9, %ymm8, %ymm8
	vmovdqu	608(%rsp), %ymm0
	vpaddd	%ymm0, %ymm1, %ymm1
	vpaddd	%ymm1, %ymm8, %ymm13
	vpxor	%ymm5, %ymm13, %ymm5
	vmovdqa	%ymm3, %ymm1
	vpshufb	%ymm3, %ymm5, %ymm9
	vpaddd	%ymm7, %ymm9, %ymm7
	vpxor	%ymm7, %ymm8, %ymm5
	vpsrld	$7, %ymm5, %ymm8
	vpslld	$25, %ymm5, %ymm5
	vpor	%ymm5, %ymm8, %ymm3
	vmovdqu	%ymm3, 768(%rsp)
	vmovdqu	416(%rsp), %ymm15
	vpaddd	%ymm15, %ymm11, %ymm5
	vmovdqu	192(%rsp), %ymm11
	vpaddd	%ymm5, %ymm11, %ymm5
	vpxor	128(%rsp), %ymm5, %ymm3
	vpshufb	%ymm14, %ymm3, %ymm3
	vpaddd	160(%rsp), %ymm3, %ymm8
	vpxor	%ymm11, %ymm8, %ymm11
	vpsrld	$12, %ymm11, %ymm14
	vpslld	$20, %ymm11, %ymm11
	vpor	%ymm14, %ymm11, %ymm14
	vpaddd	448(%rsp), %ymm5, %ymm5
	vpaddd	%ymm5, %ymm14, %ymm5
	vpxor	%ymm3, %ymm5, %ymm3
	vpshufb	%ymm1, %ymm3, %ymm3
	vpaddd	%ymm3, %ymm8, %ymm11
	vpxor	%ymm14, %ymm11, %ymm8
	vpsrld	$7, %ymm8, %ymm14
	vpslld	$25, %ymm8, %ymm8
	vpor	%ymm14, %ymm8, %ymm8
	vpaddd	%ymm0, %ymm4, %ymm4
	vpaddd	%ymm4, %ymm8, %ymm4
	vpxor	%ymm2, %ymm4, %ymm0
	vpshufb	%ymm10, %ymm0, %ymm0
	vpaddd	%ymm7, %ymm0, %ymm14
	vpxor	%ymm8, %ymm14, %ymm7
	vpsrld	$12, %ymm7, %ymm8
	vpslld	$20, %ymm7, %ymm7
	vpor	%ymm7, %ymm8, %ymm8
	vpaddd	%ymm6, %ymm4, %ymm4
	vpaddd	%ymm4, %ymm8, %ymm7
	vpxor	%ymm0, %ymm7, %ymm0
	vpshufb	%ymm1, %ymm0, %ymm0
	vmovdqu	%ymm0, 192(%rsp)
	vmovdqa	%ymm1, %ymm4
	vpaddd	%ymm0, %ymm14, %ymm0
	vmovdqu	%ymm0, (%rsp)
	vpxor	%ymm0, %ymm8, %ymm0
	vpsrld	$7, %ymm0, %ymm8
	vpslld	$25, %ymm0, %ymm0
	vpor	%ymm0, %ymm8, %ymm0
	vmovdqu	%ymm0, 128(%rsp)
	vpaddd	672(%rsp), %ymm12, %ymm0
	vmovdqu	32(%rsp), %ymm1
	vpaddd	%ymm1, %ymm0, %ymm0
	vpxor	%ymm0, %ymm9, %ymm2
	vmovdqa	%ymm10, %ymm12
	vpshufb	%ymm10, %ymm2, %ymm8
	vpaddd	%ymm11, %ymm8, %ymm9
	vpxor	%ymm1, %ymm9, %ymm2
	vpsrld	$12, %ymm2, %ymm6
	vpslld	$20, %ymm2, %ymm2
	vpor	%ymm6, %ymm2, %ymm6
	vpaddd	352(%rsp), %ymm0, %ymm0
	vpaddd	%ymm6, %ymm0, %ymm2
	vpxor	%ymm2, %ymm8, %ymm0
	vpshufb	%ymm4, %ymm0, %ymm0
	vmovdqu	%ymm0, 480(%rsp)
	vpaddd	%ymm0, %ymm9, %ymm0
	vmovdqu	%ymm0, 32(%rsp)
	vpxor	%ymm6, %ymm0, %ymm0
	vpsrld	$7, %ymm0, %ymm6
	vpslld	$25, %ymm0, %ymm0
	vpor	%ymm6, %ymm0, %ymm6
	vpaddd	384(%rsp), %ymm13, %ymm0
	vmovdqu	256(%rsp), %ymm10
	vpaddd	%ymm0, %ymm10, %ymm0
	vpxor	%ymm3, %ymm0, %ymm1
	vpshufb	%ymm12, %ymm1, %ymm3
	vmovdqa	%ymm12, %ymm13
	vpaddd	96(%rsp), %ymm3, %ymm9
	vpxor	%ymm10, %ymm9, %ymm1
	vpsrld	$12, %ymm1, %ymm10
	vpslld	$20, %ymm1, %ymm1
	vpor	%ymm1, %ymm10, %ymm14
	vpaddd	640(%rsp), %ymm0, %ymm0
	vpaddd	%ymm0, %ymm14, %ymm8
	vpxor	%ymm3, %ymm8, %ymm0
	vmovdqa	%ymm4, %ymm11
	vpshufb	%ymm4, %ymm0, %ymm10
	vpaddd	%ymm10, %ymm9, %ymm12
	vpxor	%ymm14, %ymm12, %ymm0
	vpsrld	$7, %ymm0, %ymm3
	vpslld	$25, %ymm0, %ymm0
	vpor	%ymm3, %ymm0, %ymm3
	vpaddd	736(%rsp), %ymm5, %ymm0
	vmovdqu	768(%rsp), %ymm4
	vpaddd	%ymm4, %ymm0, %ymm0
	vpxor	224(%rsp), %ymm0, %ymm5
	vmovdqa	%ymm13, %ymm1
	vpshufb	%ymm13, %ymm5, %ymm5
	vpaddd	64(%rsp), %ymm5, %ymm9
	vpxor	%ymm4, %ymm9, %ymm13
	vpsrld	$12, %ymm13, %ymm14
	vpslld	$20, %ymm13, %ymm13
	vpor	%ymm14, %ymm13, %ymm14
	vpaddd	288(%rsp), %ymm0, %ymm0
	vpaddd	%ymm0, %ymm14, %ymm13
	vpxor	%ymm5, %ymm13, %ymm0
	vpshufb	%ymm11, %ymm0, %ymm5
	vpaddd	%ymm5, %ymm9, %ymm0
	vpxor	%ymm0, %ymm14, %ymm9
	vpsrld	$7, %ymm9, %ymm14
	vpslld	$25, %ymm9, %ymm9
	vpor	%ymm14, %ymm9, %ymm9
	vpaddd	704(%rsp), %ymm7, %ymm4
	vpaddd	%ymm6, %ymm4, %ymm4
	vpxor	%ymm5, %ymm4, %ymm5
	vpshufb	%ymm1, %ymm5, %ymm5
	vpaddd	%ymm5, %ymm12, %ymm12
	vpxor	%ymm6, %ymm12, %ymm6
	vpsrld	$12, %ymm6, %ymm14
	vpslld	$20, %ymm6, %ymm6
	vpor	%ymm6, %ymm14, %ymm14
	vpaddd	%ymm4, %ymm15, %ymm4
	vpaddd	%ymm4, %ymm14, %ymm15
	vpxor	%ymm5, %ymm15, %ymm4
	vmovdqa	%ymm11, %ymm6
	vpshufb	%ymm11, %ymm4, %ymm4
	vmovdqu	%ymm4, 224(%rsp)
	vpaddd	%ymm4, %ymm12, %ymm4
	vmovdqu	%ymm4, 160(%rsp)
	vpxor	%ymm4, %ymm14, %ymm4
	vpsrld	$7, %ymm4, %ymm5
	vpslld	$25, %ymm4, %ymm4
	vpor	%ymm5, %ymm4, %ymm5
	vpaddd	512(%rsp), %ymm2, %ymm2
	vpaddd	%ymm3, %ymm2, %ymm2
	vpxor	192(%rsp), %ymm2, %ymm4
	vmovdqa	%ymm1, %ymm11
	vpshufb	%ymm1, %ymm4, %ymm4
	vpaddd	%ymm0, %ymm4, %ymm0
	vpxor	%ymm3, %ymm0, %ymm3
	vpsrld	$12, %ymm3, %ymm7
	vpslld	$20, %ymm3, %ymm3
	vpor	%ymm7, %ymm3, %ymm3
	vpaddd	576(%rsp), %ymm2, %ymm2
	vpaddd	%ymm3, %ymm2, %ymm7
	vpxor	%ymm4, %ymm7, %ymm2
	vmovdqa	%ymm6, %ymm14
	vpshufb	%ymm6, %ymm2, %ymm12
	vpaddd	%ymm0, %ymm12, %ymm0
	vmovdqu	%ymm0, 192(%rsp)
	vpxor	%ymm3, %ymm0, %ymm0
	vpsrld	$7, %ymm0, %ymm2
	vpslld	$25, %ymm0, %ymm0
	vpor	%ymm2, %ymm0, %ymm0
	vmovdqu	%ymm0, 64(%rsp)
	vpaddd	800(%rsp), %ymm8, %ymm0
	vpaddd	%ymm0, %ymm9, %ymm0
	vpxor	480(%rsp), %ymm0, %ymm1
	vpshufb	%ymm11, %ymm1, %ymm1
	vpaddd	(%rsp), %ymm1, %ymm8
	vpxor	%ymm9, %ymm8, %ymm2
	vpsrld	$12, %ymm2, %ymm3
	vpslld	$20, %ymm2, %ymm2
	vpor	%ymm3, %ymm2, %ymm9
	vmovdqu	320(%rsp), %ymm6
	vpaddd	%ymm6, %ymm0, %ymm0
	vpaddd	%ymm0, %ymm9, %ymm0
	vmovdqu	%ymm0, (%rsp)
	vpxor	%ymm1, %ymm0, %ymm0
	vpshufb	%ymm14, %ymm0, %ymm4
	vpaddd	%ymm4, %ymm8, %ymm2
	vpxor	%ymm2, %ymm9, %ymm1
	vpsrld	$7, %ymm1, %ymm8
	vpslld	$25, %ymm1, %ymm1
	vpor	%ymm1, %ymm8, %ymm0
	vmovdqu	%ymm0, 96(%rsp)
	vmovdqu	448(%rsp), %ymm0
	vpaddd	%ymm0, %ymm13, %ymm1
	vmovdqu	128(%rsp), %ymm3
	vpaddd	%ymm3, %ymm1, %ymm1
	vpxor	%ymm1, %ymm10, %ymm8
	vpshufb	%ymm11, %ymm8, %ymm8
	vpaddd	32(%rsp), %ymm8, %ymm10
	vpxor	%ymm3, %ymm10, %ymm9
	vpsrld	$12, %ymm9, %ymm11
	vpslld	$20, %ymm9, %ymm9
	vpor	%ymm11, %ymm9, %ymm11
	vpaddd	544(%rsp), %ymm1, %ymm1
	vpaddd	%ymm1, %ymm11, %ymm9
	vpxor	%ymm8, %ymm9, %ymm1
	vpshufb	%ymm14, %ymm1, %ymm3
	vpaddd	%ymm3, %ymm10, %ymm13
	vpxor	%ymm11, %ymm13, %ymm1
	vpsrld	$7, %ymm1, %ymm10
	vpslld	$25, %ymm1, %ymm1
	vpor	%ymm1, %ymm10, %ymm14
	vpaddd	%ymm0, %ymm15, %ymm1
	vpaddd	%ymm1, %ymm14, %ymm1
	vpxor	%ymm1, %ymm12, %ymm10
	vpaddd	416(%rsp), %ymm1, %ymm11
	vmovdqa	.L1_v3_CPI57_5(%rip), %ymm1
	vpshufb	%ymm1, %ymm10, %ymm8
	vpaddd	%ymm2, %ymm8, %ymm10
	vpxor	%ymm14, %ymm10, %ymm0
	vpsrld	$12, %ymm0, %ymm12
	vpslld	$20, %ymm0, %ymm0
	vpor	%ymm0, %ymm12, %ymm15
	vpaddd	288(%rsp), %ymm7, %ymm0
	vpaddd	%ymm5, %ymm0, %ymm14
	vpxor	%ymm4, %ymm14, %ymm0
	vpshufb	%ymm1, %ymm0, %ymm7
	vmovdqa	%ymm1, %ymm4
	vpaddd	%ymm7, %ymm13, %ymm1
	vpxor	%ymm5, %ymm1, %ymm2
	vpsrld	$12, %ymm2, %ymm5
	vpslld	$20, %ymm2, %ymm2
	vpor	%ymm5, %ymm2, %ymm12
	vpaddd	%ymm6, %ymm14, %ymm5
	vmovdqu	(%rsp), %ymm0
	vpaddd	576(%rsp), %ymm0, %ymm2
	vmovdqu	64(%rsp), %ymm0
	vpaddd	%ymm0, %ymm2, %ymm2
	vpxor	%ymm3, %ymm2, %ymm3
	vpaddd	608(%rsp), %ymm2, %ymm14
	vpshufb	%ymm4, %ymm3, %ymm3
	vpaddd	160(%rsp), %ymm3, %ymm6
	vpxor	%ymm0, %ymm6, %ymm2
	vpsrld	$12, %ymm2, %ymm4
	vpslld	$20, %ymm2, %ymm2
	vpor	%ymm4, %ymm2, %ymm0
	vpaddd	%ymm15, %ymm11, %ymm2
	vpxor	%ymm2, %ymm8, %ymm4
	vbroadcasti128	.L1_v3_CPI57_12(%rip), %ymm13
	vpshufb	%ymm13, %ymm4, %ymm8
	vpaddd	%ymm8, %ymm10, %ymm4
	vmovdqu	%ymm4, 320(%rsp)
	vpxor	%ymm4, %ymm15, %ymm4
	vpsrld	$7, %ymm4, %ymm10
	vpslld	$25, %ymm4, %ymm4
	vpor	%ymm4, %ymm10, %ymm4
	vmovdqu	%ymm4, 448(%rsp)
	vpaddd	%ymm5, %ymm12, %ymm5
	vpxor	%ymm7, %ymm5, %ymm4
	vpshufb	%ymm13, %ymm4, %ymm7
	vpaddd	%ymm7, %ymm1, %ymm1
	vmovdqu	%ymm1, 288(%rsp)
	vpxor	%ymm1, %ymm12, %ymm1
	vpsrld	$7, %ymm1, %ymm4
	vpslld	$25, %ymm1, %ymm1
	vpor	%ymm4, %ymm1, %ymm4
	vpaddd	%ymm0, %ymm14, %ymm10
	vpxor	%ymm3, %ymm10, %ymm1
	vpshufb	%ymm13, %ymm1, %ymm14
	vpaddd	%ymm6, %ymm14, %ymm3
	vpxor	%ymm0, %ymm3, %ymm0
	vpsrld	$7, %ymm0, %ymm1
	vpslld	$25, %ymm0, %ymm0
	vpor	%ymm1, %ymm0, %ymm0
	vpaddd	800(%rsp), %ymm9, %ymm1
	vmovdqu	96(%rsp), %ymm11
	vpaddd	%ymm1, %ymm11, %ymm1
	vpxor	224(%rsp), %ymm1, %ymm6
	vmovdqa	.L1_v3_CPI57_5(%rip), %ymm15
	vpshufb	%ymm15, %ymm6, %ymm6
	vpaddd	192(%rsp), %ymm6, %ymm9
	vpxor	%ymm11, %ymm9, %ymm11
	vpsrld	$12, %ymm11, %ymm12
	vpslld	$20, %ymm11, %ymm11
	vpor	%ymm12, %ymm11, %ymm12
	vpaddd	544(%rsp), %ymm1, %ymm1
	vpaddd	%ymm1, %ymm12, %ymm11
	vpxor	%ymm6, %ymm11, %ymm1
	vpshufb	%ymm13, %ymm1, %ymm1
	vpaddd	%ymm1, %ymm9, %ymm9
	vpxor	%ymm12, %ymm9, %ymm6
	vpsrld	$7, %ymm6, %ymm12
	vpslld	$25, %ymm6, %ymm6
	vpor	%ymm6, %ymm12, %ymm12
	vpaddd	832(%rsp), %ymm2, %ymm2
	vpaddd	%ymm4, %ymm2, %ymm2
	vpxor	%ymm1, %ymm2, %ymm1
	vpaddd	384(%rsp), %ymm2, %ymm2
	vmovdqu	%ymm2, 384(%rsp)
	vmovdqa	%ymm15, %ymm13
	vpshufb	%ymm15, %ymm1, %ymm15
	vpaddd	%ymm3, %ymm15, %ymm1
	vmovdqu	%ymm1, 416(%rsp)
	vpxor	%ymm4, %ymm1, %ymm1
	vpsrld	$12, %ymm1, %ymm3
	vpslld	$20, %ymm1, %ymm1
	vpor	%ymm3, %ymm1, %ymm4
	vpaddd	352(%rsp), %ymm5, %ymm1
	vpaddd	%ymm0, %ymm1, %ymm5
	vpxor	%ymm5, %ymm8, %ymm1
	vpshufb	%ymm13, %ymm1, %ymm1
	vpaddd	%ymm1, %ymm9, %ymm2
	vmovdqu	%ymm2, 352(%rsp)
	vpxor	%ymm0, %ymm2, %ymm0
	vpsrld	$12, %ymm0, %ymm6
	vpslld	$20, %ymm0, %ymm0
	vpor	%ymm6, %ymm0, %ymm8
	vpaddd	672(%rsp), %ymm5, %ymm2
	vpaddd	640(%rsp), %ymm10, %ymm5
	vpaddd	%ymm5, %ymm12, %ymm5
	vpxor	%ymm7, %ymm5, %ymm6
	vpaddd	704(%rsp), %ymm5, %ymm7
	vpaddd	512(%rsp), %ymm11, %ymm5
	vpshufb	%ymm13, %ymm6, %ymm9
	vmovdqu	448(%rsp), %ymm0
	vpaddd	%ymm0, %ymm5, %ymm5
	vpxor	%ymm5, %ymm14, %ymm6
	vpshufb	%ymm13, %ymm6, %ymm14
	vpaddd	320(%rsp), %ymm9, %ymm11
	vpxor	%ymm12, %ymm11, %ymm6
	vpsrld	$12, %ymm6, %ymm10
	vpslld	$20, %ymm6, %ymm6
	vpor	%ymm6, %ymm10, %ymm12
	vpaddd	288(%rsp), %ymm14, %ymm6
	vpxor	%ymm0, %ymm6, %ymm10
	vpsrld	$12, %ymm10, %ymm13
	vpslld	$20, %ymm10, %ymm10
	vpor	%ymm13, %ymm10, %ymm10
	vpaddd	736(%rsp), %ymm5, %ymm13
	vpaddd	384(%rsp), %ymm4, %ymm5
	vpxor	%ymm5, %ymm15, %ymm15
	vbroadcasti128	.L1_v3_CPI57_12(%rip), %ymm0
	vpshufb	%ymm0, %ymm15, %ymm3
	vpaddd	%ymm2, %ymm8, %ymm2
	vpxor	%ymm1, %ymm2, %ymm1
	vpshufb	%ymm0, %ymm1, %ymm15
	vpaddd	%ymm7, %ymm12, %ymm1
	vpxor	%ymm1, %ymm9, %ymm7
	vpaddd	%ymm10, %ymm13, %ymm9
	vpshufb	%ymm0, %ymm7, %ymm13
	vpxor	%ymm14, %ymm9, %ymm7
	vpshufb	%ymm0, %ymm7, %ymm7
	vpxor	1024(%rsp), %ymm5, %ymm5
	vpaddd	%ymm13, %ymm11, %ymm11
	vpxor	%ymm12, %ymm11, %ymm12
	vpxor	%ymm5, %ymm11, %ymm14
	vpxor	864(%rsp), %ymm2, %ymm0
	vmovdqa	%ymm3, %ymm2
	vpaddd	416(%rsp), %ymm3, %ymm5
	vpxor	%ymm4, %ymm5, %ymm3
	vpsrld	$7, %ymm3, %ymm11
	vpslld	$25, %ymm3, %ymm3
	vpor	%ymm3, %ymm11, %ymm3
	vpaddd	%ymm7, %ymm6, %ymm6
	vpxor	%ymm6, %ymm10, %ymm10
	vpxor	%ymm6, %ymm0, %ymm0
	vmovdqu	%ymm0, 864(%rsp)
	vpaddd	352(%rsp), %ymm15, %ymm0
	vpxor	%ymm0, %ymm8, %ymm4
	vpsrld	$7, %ymm4, %ymm6
	vpslld	$25, %ymm4, %ymm4
	vpor	%ymm6, %ymm4, %ymm4
	vpxor	1056(%rsp), %ymm1, %ymm1
	vpsrld	$7, %ymm12, %ymm6
	vpslld	$25, %ymm12, %ymm8
	vpor	%ymm6, %ymm8, %ymm6
	vpxor	%ymm5, %ymm1, %ymm11
	vpsrld	$7, %ymm10, %ymm1
	vpslld	$25, %ymm10, %ymm5
	vpor	%ymm1, %ymm5, %ymm1
	vpxor	1088(%rsp), %ymm9, %ymm5
	vpxor	%ymm0, %ymm5, %ymm9
	vpxor	1248(%rsp), %ymm15, %ymm0
	vpxor	%ymm0, %ymm1, %ymm8
	vpxor	992(%rsp), %ymm13, %ymm0
	vpxor	%ymm0, %ymm3, %ymm5
	vpxor	960(%rsp), %ymm7, %ymm0
	vpxor	%ymm0, %ymm4, %ymm4
	vpxor	928(%rsp), %ymm2, %ymm0
	vpxor	%ymm0, %ymm6, %ymm3
	addq	$64, %rdx
	decq	%rax
	jne	1b
2:
	vmovdqu	%ymm14, (%rdi)
	vmovups	864(%rsp), %ymm0
	vmovups	%ymm0, 32(%rdi)
	vmovdqu	%ymm11, 64(%rdi)
	vmovdqu	%ymm9, 96(%rdi)
	vmovdqu	%ymm8, 128(%rdi)
	vmovdqu	%ymm5, 160(%rdi)
	vmovdqu	%ymm4, 192(%rdi)
	vmovdqu	%ymm3, 224(%rdi)
	addq	$1288, %rsp
	popq	%rbx
	popq	%r14
	popq	%r15
	popq	%rbp
	vzeroupper
	retq
	vj_end	blake2_compress..many..blake2s..compress_blocks_1_v3

	vj_function	blake2_ffi..blake2s..is_digest_of_1_v3
	pushq	%r15
	pushq	%r14
	pushq	%rbx
	subq	$32, %rsp
	movq	%rdx, %rbx
	movq	%rsi, %r14
	movq	%rdi, %r15
	vpxor	%xmm0, %xmm0, %xmm0
	vmovdqu	%ymm0, (%rsp)
	movq	%rsp, %rsi
	vzeroupper
	callq	blake2_state..blake2s..State..write_digest_1_v3
	movzwl	76(%r15), %eax
	cmpq	%rax, %rbx
	jne	1f
	testq	%rbx, %rbx
	je	2f
	cmpq	$8, %rbx
	jae	3f
	xorl	%ecx, %ecx
	xorl	%eax, %eax
	jmp	8f
1:
	xorl	%eax, %eax
	jmp	11f
2:
	movb	$1, %al
	jmp	11f
3:
	cmpq	$128, %rbx
	jae	4f
	xorl	%eax, %eax
	xorl	%ecx, %ecx
	jmp	6f
4:
	movq	%rbx, %rax
	andq	$-128, %rax
	vpxor	%xmm0, %xmm0, %xmm0
	xorl	%ecx, %ecx
	vpxor	%xmm1, %xmm1, %xmm1
	vpxor	%xmm2, %xmm2, %xmm2
	vpxor	%xmm3, %xmm3, %xmm3
	.p2align	4
5:
	vmovdqu	(%rsp,%rcx), %ymm4
	vmovdqu	32(%rsp,%rcx), %ymm5
	vmovdqu	64(%rsp,%rcx), %ymm6
	vmovdqu	96(%rsp,%rcx), %ymm7
	vpxor	(%r14,%rcx), %ymm4, %ymm4
	vpor	%ymm0, %ymm4, %ymm0
	vpxor	32(%r14,%rcx), %ymm5, %ymm4
	vpor	%ymm1, %ymm4, %ymm1
	vpxor	64(%r14,%rcx), %ymm6, %ymm4
	vpxor	96(%r14,%rcx), %ymm7, %ymm5
	vpor	%ymm2, %ymm4, %ymm2
	vpor	%ymm3, %ymm5, %ymm3
	subq	$-128, %rcx
	cmpq	%rcx, %rax
	jne	5b
	vpor	%ymm0, %ymm1, %ymm0
	vpor	%ymm0, %ymm2, %ymm0
	vpor	%ymm0, %ymm3, %ymm0
	vextracti128	$1, %ymm0, %xmm1
	vpor	%xmm1, %xmm0, %xmm0
	vpshufd	$238, %xmm0, %xmm1
	vpor	%xmm1, %xmm0, %xmm0
	vpshufd	$85, %xmm0, %xmm1
	vpor	%xmm1, %xmm0, %xmm0
	vpsrld	$16, %xmm0, %xmm1
	vpor	%xmm1, %xmm0, %xmm0
	vpsrlw	$8, %xmm0, %xmm1
	vpor	%xmm1, %xmm0, %xmm0
	vmovd	%xmm0, %ecx
	cmpq	%rax, %rbx
	je	10f
	testb	$120, %bl
	je	8f
6:
	movq	%rax, %rdx
	movq	%rbx, %rax
	andq	$-8, %rax
	movzbl	%cl, %ecx
	vmovd	%ecx, %xmm0
	.p2align	4
7:
	movq	(%rsp,%rdx), %rcx
	xorq	(%r14,%rdx), %rcx
	vmovq	%rcx, %xmm1
	vpor	%xmm0, %xmm1, %xmm0
	addq	$8, %rdx
	cmpq	%rdx, %rax
	jne	7b
	vpshufd	$85, %xmm0, %xmm1
	vpor	%xmm1, %xmm0, %xmm0
	vpsrld	$16, %xmm0, %xmm1
	vpor	%xmm1, %xmm0, %xmm0
	vpsrlw	$8, %xmm0, %xmm1
	vpor	%xmm1, %xmm0, %xmm0
	vmovd	%xmm0, %ecx
	jmp	9f
8:
	movzbl	(%rsp,%rax), %edx
	xorb	(%r14,%rax), %dl
	orb	%dl, %cl
	incq	%rax
9:
	cmpq	%rax, %rbx
	jne	8b
10:
	testb	%cl, %cl
	sete	%al
11:
	addq	$32, %rsp
	popq	%rbx
	popq	%r14
	popq	%r15
	vzeroupper
	retq
	vj_end	blake2_ffi..blake2s..is_digest_of_1_v3

	vj_function	blake2_ffi..blake2sp..finalize_1_v3
	pushq	%r15
	pushq	%r14
	pushq	%rbx
	subq	$32, %rsp
	movq	%rsi, %rbx
	movq	%rdi, %r14
	movq	%rsp, %r15
	movq	%r15, %rdi
	movq	%r14, %rsi
	callq	blake2_parallel..blake2sp..State..output_1_v3
	movq	1528(%r14), %rdx
	movq	%rbx, %rdi
	movq	%r15, %rsi
	vj_c_call	memcpy
	movl	$1600, %edx
	movq	%r14, %rdi
	xorl	%esi, %esi
	addq	$32, %rsp
	popq	%rbx
	popq	%r14
	popq	%r15
	vj_c_jump	memset
	vj_end	blake2_ffi..blake2sp..finalize_1_v3

	vj_function	blake2_parallel..blake2sp..State..output_1_v3
	pushq	%r15
	pushq	%r14
	pushq	%rbx
	subq	$288, %rsp
	movq	%rsi, %r14
	movq	%rdi, %rbx
	leaq	32(%rsp), %r15
	movq	%r15, %rdi
	vj_call	blake2_parallel..lanes..blake2sp..Lanes..outputs_1_v3
	vmovups	1488(%r14), %ymm0
	vmovups	%ymm0, (%rsp)
	movq	%rsp, %r14
	movl	$64, %edx
	movq	%r14, %rdi
	movq	%r15, %rsi
	xorl	%ecx, %ecx
	xorl	%r8d, %r8d
	vzeroupper
	vj_call	blake2_compress..compress..blake2s..compress_1_v3
	leaq	96(%rsp), %rsi
	movl	$128, %edx
	movq	%r14, %rdi
	xorl	%ecx, %ecx
	xorl	%r8d, %r8d
	vj_call	blake2_compress..compress..blake2s..compress_1_v3
	leaq	160(%rsp), %rsi
	movl	$192, %edx
	movq	%r14, %rdi
	xorl	%ecx, %ecx
	xorl	%r8d, %r8d
	vj_call	blake2_compress..compress..blake2s..compress_1_v3
	leaq	224(%rsp), %rsi
	movl	$256, %edx
	movq	%r14, %rdi
	movl	$1, %ecx
	movl	$1, %r8d
	vj_call	blake2_compress..compress..blake2s..compress_1_v3
	vmovups	(%rsp), %ymm0
	vmovups	%ymm0, (%rbx)
	addq	$288, %rsp
	popq	%rbx
	popq	%r14
	popq	%r15
	vzeroupper
	retq
	vj_end	blake2_parallel..blake2sp..State..output_1_v3

	vj_constants	16
	.p2align	4, 0x0
.L1_v3_CPI61_0:
	.byte	1
	.byte	0
	.byte	1
	.byte	0
	.byte	1
	.byte	0
	.byte	1
	.byte	0
	.byte	1
	.byte	0
	.byte	1
	.byte	0
	.byte	1
	.byte	0
	.byte	1
	.byte	1
	vj_shared	blake2_parallel..lanes..blake2sp..Lanes..outputs_1_v3
	pushq	%rbp
	pushq	%r15
	pushq	%r14
	pushq	%r13
	pushq	%r12
	pushq	%rbx
	subq	$1832, %rsp
	vxorps	%xmm0, %xmm0, %xmm0
	vmovups	%ymm0, 1248(%rsp)
	vmovups	%ymm0, 1216(%rsp)
	vmovups	%ymm0, 1184(%rsp)
	vmovups	%ymm0, 1152(%rsp)
	vmovups	%ymm0, 1120(%rsp)
	vmovups	%ymm0, 1088(%rsp)
	vmovups	%ymm0, 1056(%rsp)
	vmovups	%ymm0, 1024(%rsp)
	vmovups	%ymm0, 1280(%rsp)
	vmovups	%ymm0, 1312(%rsp)
	vmovups	%ymm0, 1344(%rsp)
	vmovups	%ymm0, 1376(%rsp)
	vmovups	%ymm0, 1408(%rsp)
	vmovups	%ymm0, 1440(%rsp)
	vmovups	%ymm0, 1472(%rsp)
	vmovups	%ymm0, 1504(%rsp)
	vmovups	%ymm0, 992(%rsp)
	vmovups	%ymm0, 960(%rsp)
	vmovups	%ymm0, 928(%rsp)
	vmovups	%ymm0, 896(%rsp)
	vmovups	%ymm0, 864(%rsp)
	vmovups	%ymm0, 832(%rsp)
	vmovups	%ymm0, 800(%rsp)
	vmovups	%ymm0, 1536(%rsp)
	movq	%rsi, %r12
	movq	264(%rsi), %r14
	cmpq	$512, %r14
	movl	$512, %r15d
	cmovbq	%r14, %r15
	movq	%r14, %rbx
	subq	%r15, %rbx
	vmovups	(%rsi), %ymm0
	vmovups	32(%rsi), %ymm1
	vmovups	64(%rsi), %ymm2
	vmovups	96(%rsi), %ymm3
	vmovups	128(%rsi), %ymm4
	vmovups	160(%rsi), %ymm5
	vmovups	192(%rsi), %ymm6
	vmovups	224(%rsi), %ymm7
	movq	256(%rsi), %rcx
	cmpq	$513, %r14
	setb	16(%rsp)
	cmpq	$65, %rbx
	setb	18(%rsp)
	cmpq	$129, %rbx
	setb	20(%rsp)
	cmpq	$193, %rbx
	setb	22(%rsp)
	cmpq	$257, %rbx
	setb	24(%rsp)
	cmpq	$321, %rbx
	setb	26(%rsp)
	cmpq	$385, %rbx
	setb	28(%rsp)
	movq	%rdi, %r13
	cmpq	$449, %rbx
	movb	$0, 17(%rsp)
	movb	$0, 19(%rsp)
	movb	$0, 21(%rsp)
	movb	$0, 23(%rsp)
	movb	$0, 25(%rsp)
	movb	$0, 27(%rsp)
	movb	$0, 29(%rsp)
	setb	30(%rsp)
	leaq	272(%rsi), %rsi
	setb	31(%rsp)
	vmovups	%ymm0, 544(%rsp)
	vmovups	%ymm1, 576(%rsp)
	vmovups	%ymm2, 608(%rsp)
	vmovups	%ymm3, 640(%rsp)
	vmovups	%ymm4, 672(%rsp)
	vmovups	%ymm5, 704(%rsp)
	vmovups	%ymm6, 736(%rsp)
	vmovups	%ymm7, 768(%rsp)
	leaq	544(%rsp), %rbp
	leaq	16(%rsp), %r8
	movq	%rbp, %rdi
	movq	%rsi, 8(%rsp)
	movq	%r15, %rdx
	vzeroupper
	callq	blake2_parallel..lanes..blake2sp..compress_short_1_v3
	leaq	288(%rsp), %rdi
	movq	%rbp, %rsi
	callq	blake2_parallel..lanes..blake2sp..outputs_of_1_v3
	vmovups	512(%rsp), %ymm0
	vmovups	%ymm0, 1792(%rsp)
	vmovups	480(%rsp), %ymm0
	vmovups	%ymm0, 1760(%rsp)
	vmovups	448(%rsp), %ymm0
	vmovups	%ymm0, 1728(%rsp)
	vmovups	416(%rsp), %ymm0
	vmovups	%ymm0, 1696(%rsp)
	vmovups	320(%rsp), %ymm0
	vmovups	352(%rsp), %ymm1
	vmovups	384(%rsp), %ymm2
	vmovups	%ymm2, 1664(%rsp)
	vmovups	%ymm1, 1632(%rsp)
	vmovups	%ymm0, 1600(%rsp)
	vmovups	288(%rsp), %ymm0
	vmovups	%ymm0, 1568(%rsp)
	cmpq	$513, %r14
	jae	1f
	vmovups	512(%rsp), %ymm0
	vmovups	%ymm0, 224(%r13)
	vmovups	480(%rsp), %ymm0
	vmovups	%ymm0, 192(%r13)
	vmovups	448(%rsp), %ymm0
	vmovups	%ymm0, 160(%r13)
	vmovups	416(%rsp), %ymm0
	vmovups	%ymm0, 128(%r13)
	vmovups	288(%rsp), %ymm0
	vmovups	320(%rsp), %ymm1
	vmovups	352(%rsp), %ymm2
	vmovups	384(%rsp), %ymm3
	jmp	16f
1:
	movq	256(%r12), %rcx
	vmovaps	.L1_v3_CPI61_0(%rip), %xmm0
	vmovaps	%xmm0, 272(%rsp)
	vmovups	544(%rsp), %ymm0
	vmovups	576(%rsp), %ymm1
	vmovups	608(%rsp), %ymm2
	vmovups	640(%rsp), %ymm3
	vmovups	%ymm0, 16(%rsp)
	vmovups	%ymm1, 48(%rsp)
	vmovups	%ymm2, 80(%rsp)
	vmovups	%ymm3, 112(%rsp)
	vmovups	672(%rsp), %ymm0
	vmovups	%ymm0, 144(%rsp)
	vmovups	704(%rsp), %ymm0
	vmovups	%ymm0, 176(%rsp)
	movq	8(%rsp), %rsi
	addq	%r15, %rsi
	vmovups	736(%rsp), %ymm0
	vmovups	%ymm0, 208(%rsp)
	addq	$64, %rcx
	vmovups	768(%rsp), %ymm0
	vmovups	%ymm0, 240(%rsp)
	leaq	16(%rsp), %rdi
	leaq	272(%rsp), %r8
	movq	%rbx, %rdx
	vzeroupper
	callq	blake2_parallel..lanes..blake2sp..compress_short_1_v3
	vmovups	240(%rsp), %ymm0
	vmovups	%ymm0, 768(%rsp)
	vmovups	208(%rsp), %ymm0
	vmovups	%ymm0, 736(%rsp)
	vmovups	176(%rsp), %ymm0
	vmovups	%ymm0, 704(%rsp)
	vmovups	144(%rsp), %ymm0
	vmovups	%ymm0, 672(%rsp)
	vmovups	16(%rsp), %ymm0
	vmovups	48(%rsp), %ymm1
	vmovups	80(%rsp), %ymm2
	vmovups	112(%rsp), %ymm3
	vmovups	%ymm3, 640(%rsp)
	vmovups	%ymm2, 608(%rsp)
	vmovups	%ymm1, 576(%rsp)
	vmovups	%ymm0, 544(%rsp)
	leaq	288(%rsp), %rdi
	leaq	544(%rsp), %rsi
	vzeroupper
	callq	blake2_parallel..lanes..blake2sp..outputs_of_1_v3
	vmovups	512(%rsp), %ymm0
	vmovups	%ymm0, 1504(%rsp)
	vmovups	480(%rsp), %ymm0
	vmovups	%ymm0, 1472(%rsp)
	vmovups	448(%rsp), %ymm0
	vmovups	%ymm0, 1440(%rsp)
	vmovups	416(%rsp), %ymm0
	vmovups	%ymm0, 1408(%rsp)
	vmovups	288(%rsp), %ymm0
	vmovups	320(%rsp), %ymm1
	vmovups	352(%rsp), %ymm2
	vmovups	384(%rsp), %ymm3
	vmovups	%ymm3, 1376(%rsp)
	vmovups	%ymm2, 1344(%rsp)
	vmovups	%ymm1, 1312(%rsp)
	vmovups	%ymm0, 1280(%rsp)
	vmovups	%ymm0, 992(%rsp)
	cmpq	$65, %rbx
	jb	2f
	vmovups	320(%rsp), %ymm0
	jmp	3f
2:
	vmovups	1600(%rsp), %ymm0
3:
	vmovups	%ymm0, 16(%rsp)
	vmovups	16(%rsp), %ymm0
	vmovups	%ymm0, 960(%rsp)
	cmpq	$129, %rbx
	jb	4f
	vmovups	352(%rsp), %ymm0
	jmp	5f
4:
	vmovups	1632(%rsp), %ymm0
5:
	vmovups	%ymm0, 16(%rsp)
	vmovups	16(%rsp), %ymm0
	vmovups	%ymm0, 928(%rsp)
	cmpq	$193, %rbx
	jb	6f
	vmovups	384(%rsp), %ymm0
	jmp	7f
6:
	vmovups	1664(%rsp), %ymm0
7:
	vmovups	%ymm0, 16(%rsp)
	vmovups	16(%rsp), %ymm0
	vmovups	%ymm0, 896(%rsp)
	cmpq	$257, %rbx
	jb	8f
	vmovups	1408(%rsp), %ymm0
	jmp	9f
8:
	vmovups	1696(%rsp), %ymm0
9:
	vmovups	%ymm0, 16(%rsp)
	vmovups	16(%rsp), %ymm0
	vmovups	%ymm0, 864(%rsp)
	cmpq	$321, %rbx
	jb	10f
	vmovups	1440(%rsp), %ymm0
	jmp	11f
10:
	vmovups	1728(%rsp), %ymm0
11:
	vmovups	%ymm0, 16(%rsp)
	vmovups	16(%rsp), %ymm0
	vmovups	%ymm0, 832(%rsp)
	cmpq	$385, %rbx
	jb	12f
	vmovups	1472(%rsp), %ymm0
	jmp	13f
12:
	vmovups	1760(%rsp), %ymm0
13:
	vmovups	%ymm0, 16(%rsp)
	vmovups	16(%rsp), %ymm0
	vmovups	%ymm0, 800(%rsp)
	cmpq	$449, %rbx
	jb	14f
	vmovups	1504(%rsp), %ymm0
	jmp	15f
14:
	vmovups	1792(%rsp), %ymm0
15:
	vmovups	%ymm0, 16(%rsp)
	vmovups	16(%rsp), %ymm0
	vmovups	%ymm0, 1536(%rsp)
	vmovups	992(%rsp), %ymm1
	vmovups	%ymm1, 1024(%rsp)
	vmovups	960(%rsp), %ymm1
	vmovups	%ymm1, 1056(%rsp)
	vmovups	928(%rsp), %ymm1
	vmovups	%ymm1, 1088(%rsp)
	vmovups	896(%rsp), %ymm1
	vmovups	%ymm1, 1120(%rsp)
	vmovups	864(%rsp), %ymm1
	vmovups	%ymm1, 1152(%rsp)
	vmovups	832(%rsp), %ymm1
	vmovups	%ymm1, 1184(%rsp)
	vmovups	800(%rsp), %ymm1
	vmovups	%ymm1, 1216(%rsp)
	vmovups	%ymm0, 1248(%rsp)
	vmovups	%ymm0, 224(%r13)
	vmovups	1216(%rsp), %ymm0
	vmovups	%ymm0, 192(%r13)
	vmovups	1184(%rsp), %ymm0
	vmovups	%ymm0, 160(%r13)
	vmovups	1152(%rsp), %ymm0
	vmovups	%ymm0, 128(%r13)
	vmovups	1024(%rsp), %ymm0
	vmovups	1056(%rsp), %ymm1
	vmovups	1088(%rsp), %ymm2
	vmovups	1120(%rsp), %ymm3
16:
	vmovups	%ymm3, 96(%r13)
	vmovups	%ymm2, 64(%r13)
	vmovups	%ymm1, 32(%r13)
	vmovups	%ymm0, (%r13)
	addq	$1832, %rsp
	popq	%rbx
	popq	%r12
	popq	%r13
	popq	%r14
	popq	%r15
	popq	%rbp
	vzeroupper
	retq
	vj_end	blake2_parallel..lanes..blake2sp..Lanes..outputs_1_v3

	vj_constants	32
	.p2align	5, 0x0
.L1_v3_CPI62_0:
	.quad	64
	.quad	128
	.quad	192
	.quad	256
.L1_v3_CPI62_4:
	.quad	-9223372036854775552
	.quad	-9223372036854775488
	.quad	-9223372036854775424
	.quad	-9223372036854775360
.L1_v3_CPI62_5:
	.quad	256
	.quad	320
	.quad	384
	.quad	448
	vj_constants	8
	.p2align	3, 0x0
.L1_v3_CPI62_1:
	.quad	-9223372036854775808
.L1_v3_CPI62_6:
	.quad	-9223372036854775744
.L1_v3_CPI62_7:
	.quad	64
	vj_constants	16
	.p2align	4, 0x0
.L1_v3_CPI62_2:
	.quad	-9223372036854775680
	.quad	-9223372036854775616
.L1_v3_CPI62_3:
	.quad	128
	.quad	192
	vj_function	blake2_parallel..lanes..blake2sp..compress_short_1_v3
	pushq	%rbp
	pushq	%r15
	pushq	%r14
	pushq	%r13
	pushq	%r12
	pushq	%rbx
	subq	$1608, %rsp
	movq	%r8, %rbx
	movq	%rcx, %r14
	cmpq	$512, %rdx
	jne	1f
	vmovq	%rsi, %xmm0
	vpbroadcastq	%xmm0, %ymm0
	vpaddq	.L1_v3_CPI62_0(%rip), %ymm0, %ymm0
	leaq	320(%rsi), %rax
	leaq	384(%rsi), %rcx
	movq	%rsi, 64(%rsp)
	addq	$448, %rsi
	vmovdqu	%ymm0, 72(%rsp)
	movq	%rax, 104(%rsp)
	movq	%rcx, 112(%rsp)
	movq	%rsi, 120(%rsp)
	addq	$64, %r14
	vmovq	%r14, %xmm0
	vpbroadcastq	%xmm0, %ymm0
	vmovdqu	%ymm0, (%rsp)
	vmovdqu	%ymm0, 32(%rsp)
	leaq	64(%rsp), %rsi
	movq	%rsp, %rdx
	jmp	2f
1:
	vxorps	%xmm0, %xmm0, %xmm0
	vmovups	%ymm0, 544(%rsp)
	vmovups	%ymm0, 512(%rsp)
	vmovups	%ymm0, 480(%rsp)
	vmovups	%ymm0, 448(%rsp)
	vmovups	%ymm0, 416(%rsp)
	vmovups	%ymm0, 384(%rsp)
	vmovups	%ymm0, 352(%rsp)
	vmovups	%ymm0, 320(%rsp)
	vmovups	%ymm0, 288(%rsp)
	vmovups	%ymm0, 256(%rsp)
	vmovups	%ymm0, 224(%rsp)
	vmovups	%ymm0, 192(%rsp)
	vmovups	%ymm0, 160(%rsp)
	vmovups	%ymm0, 128(%rsp)
	vmovups	%ymm0, 96(%rsp)
	vmovups	%ymm0, 64(%rsp)
	leaq	64(%rsp), %r13
	movq	%rdi, %r15
	movq	%r13, %rdi
	movq	%rdx, %r12
	vzeroupper
	vj_c_call	memcpy
	leaq	1096(%rsp), %rbp
	movl	$512, %edx
	movq	%rbp, %rdi
	movq	%r13, %rsi
	vj_c_call	memcpy
	leaq	584(%rsp), %r13
	movl	$512, %edx
	movq	%r13, %rdi
	movq	%rbp, %rsi
	vj_c_call	memcpy
	vmovq	%r13, %xmm0
	vpbroadcastq	%xmm0, %ymm0
	vpaddq	.L1_v3_CPI62_0(%rip), %ymm0, %ymm0
	leaq	904(%rsp), %rcx
	leaq	968(%rsp), %rdx
	movq	%r13, 64(%rsp)
	vmovdqu	%ymm0, 72(%rsp)
	leaq	1032(%rsp), %rax
	movq	%rcx, 104(%rsp)
	xorl	%ecx, %ecx
	vmovq	%r12, %xmm0
	subq	$64, %r12
	cmovaeq	%r12, %rcx
	vpbroadcastq	.L1_v3_CPI62_1(%rip), %ymm1
	vpbroadcastq	%xmm0, %ymm0
	vpxor	%xmm1, %xmm0, %xmm2
	vpcmpgtq	.L1_v3_CPI62_2(%rip), %xmm2, %xmm2
	movq	%rdx, 112(%rsp)
	vpsubq	.L1_v3_CPI62_3(%rip), %xmm0, %xmm3
	vpxor	%ymm1, %ymm0, %ymm4
	vpcmpgtq	.L1_v3_CPI62_4(%rip), %ymm4, %ymm4
	vpsubq	.L1_v3_CPI62_5(%rip), %ymm0, %ymm5
	vpand	%xmm3, %xmm2, %xmm2
	vpand	%ymm5, %ymm4, %ymm3
	vpinsrq	$1, %rcx, %xmm0, %xmm0
	vinserti128	$1, %xmm2, %ymm0, %ymm0
	vpxor	%ymm1, %ymm0, %ymm2
	vpbroadcastq	.L1_v3_CPI62_6(%rip), %ymm4
	vpcmpgtq	%ymm2, %ymm4, %ymm2
	vbroadcastsd	.L1_v3_CPI62_7(%rip), %ymm5
	vblendvpd	%ymm2, %ymm0, %ymm5, %ymm0
	vmovq	%r14, %xmm2
	vpbroadcastq	%xmm2, %ymm2
	vpaddq	%ymm0, %ymm2, %ymm0
	vmovdqu	%ymm0, (%rsp)
	vpxor	%ymm1, %ymm3, %ymm0
	vpcmpgtq	%ymm0, %ymm4, %ymm0
	vblendvpd	%ymm0, %ymm3, %ymm5, %ymm0
	movq	%rax, 120(%rsp)
	vpaddq	%ymm2, %ymm0, %ymm0
	vmovdqu	%ymm0, 32(%rsp)
	leaq	64(%rsp), %rsi
	movq	%rsp, %rdx
	movq	%r15, %rdi
2:
	movq	%rbx, %rcx
	vzeroupper
	callq	blake2_compress..many..blake2s..compress_each_1_v3
	addq	$1608, %rsp
	popq	%rbx
	popq	%r12
	popq	%r13
	popq	%r14
	popq	%r15
	popq	%rbp
	retq
	vj_end	blake2_parallel..lanes..blake2sp..compress_short_1_v3

	vj_constants	4
	.p2align	2, 0x0
.L1_v3_CPI63_0:
	.long	3766232660
.L1_v3_CPI63_1:
	.long	528734635
.L1_v3_CPI63_2:
	.long	2753508070
.L1_v3_CPI63_3:
	.long	1541459225
.L1_v3_CPI63_4:
	.long	1359893119
.L1_v3_CPI63_6:
	.long	1779033703
.L1_v3_CPI63_8:
	.long	2600822924
.L1_v3_CPI63_9:
	.long	3144134277
.L1_v3_CPI63_10:
	.long	1013904242
.L1_v3_CPI63_11:
	.long	2773480762
	vj_constants	32
	.p2align	5, 0x0
.L1_v3_CPI63_5:
	.byte	2
	.byte	3
	.byte	0
	.byte	1
	.byte	6
	.byte	7
	.byte	4
	.byte	5
	.byte	10
	.byte	11
	.byte	8
	.byte	9
	.byte	14
	.byte	15
	.byte	12
	.byte	13
	.byte	18
	.byte	19
	.byte	16
	.byte	17
	.byte	22
	.byte	23
	.byte	20
	.byte	21
	.byte	26
	.byte	27
	.byte	24
	.byte	25
	.byte	30
	.byte	31
	.byte	28
	.byte	29
.L1_v3_CPI63_7:
	.byte	1
	.byte	2
	.byte	3
	.byte	0
	.byte	5
	.byte	6
	.byte	7
	.byte	4
	.byte	9
	.byte	10
	.byte	11
	.byte	8
	.byte	13
	.byte	14
	.byte	15
	.byte	12
	.byte	1
	.byte	2
	.byte	3
	.byte	0
	.byte	5
	.byte	6
	.byte	7
	.byte	4
	.byte	9
	.byte	10
	.byte	11
	.byte	8
	.byte	13
	.byte	14
	.byte	15
	.byte	12
	vj_constants	16
	.p2align	4, 0x0
.L1_v3_CPI63_12:
	.byte	1
	.byte	2
	.byte	3
	.byte	0
	.byte	5
	.byte	6
	.byte	7
	.byte	4
	.byte	9
	.byte	10
	.byte	11
	.byte	8
	.byte	13
	.byte	14
	.byte	15
	.byte	12
	vj_function	blake2_compress..many..blake2s..compress_each_1_v3
	pushq	%r14
	pushq	%rbx
	subq	$1160, %rsp
	movq	(%rsi), %r11
	movq	8(%rsi), %rbx
	movq	16(%rsi), %r14
	movq	24(%rsi), %r10
	movq	32(%rsi), %r9
	movq	40(%rsi), %r8
	movq	48(%rsi), %rax
	movq	56(%rsi), %rsi
	vmovdqu	(%r11), %ymm1
	vmovups	32(%r11), %ymm0
	vmovdqu	(%rbx), %ymm4
	vmovups	32(%rbx), %ymm3
	vpunpckldq	%ymm4, %ymm1, %ymm2
	vpunpckhdq	%ymm4, %ymm1, %ymm1
	vmovdqu	(%r14), %ymm5
	vmovups	32(%r14), %ymm4
	vmovdqu	(%r10), %ymm6
	movzbl	2(%rcx), %r11d
	movzbl	(%rcx), %ebx
	vmovd	%ebx, %xmm7
	vpinsrw	$1, %r11d, %xmm7, %xmm8
	vmovups	32(%r10), %ymm7
	movzbl	4(%rcx), %r10d
	vpinsrw	$2, %r10d, %xmm8, %xmm8
	vpunpckldq	%ymm6, %ymm5, %ymm9
	movzbl	6(%rcx), %r10d
	vpinsrw	$3, %r10d, %xmm8, %xmm8
	vpunpckhdq	%ymm6, %ymm5, %ymm10
	movzbl	8(%rcx), %r10d
	vpinsrw	$4, %r10d, %xmm8, %xmm6
	vpunpcklqdq	%ymm9, %ymm2, %ymm5
	movzbl	10(%rcx), %r10d
	vpinsrw	$5, %r10d, %xmm6, %xmm8
	vpunpckhqdq	%ymm9, %ymm2, %ymm6
	movzbl	12(%rcx), %r10d
	vpinsrw	$6, %r10d, %xmm8, %xmm2
	vpunpcklqdq	%ymm10, %ymm1, %ymm8
	movzbl	14(%rcx), %r10d
	vpinsrw	$7, %r10d, %xmm2, %xmm2
	vpunpckhqdq	%ymm10, %ymm1, %ymm9
	vpmovzxwd	%xmm2, %ymm1
	vpslld	$31, %ymm1, %ymm1
	vbroadcastss	.L1_v3_CPI63_0(%rip), %ymm2
	vbroadcastss	.L1_v3_CPI63_1(%rip), %ymm10
	vblendvps	%ymm1, %ymm2, %ymm10, %ymm1
	vmovups	%ymm1, 896(%rsp)
	movzbl	3(%rcx), %r10d
	movzbl	1(%rcx), %r11d
	vmovd	%r11d, %xmm2
	vpinsrw	$1, %r10d, %xmm2, %xmm2
	vmovdqu	(%r9), %ymm11
	movzbl	5(%rcx), %r10d
	vpinsrw	$2, %r10d, %xmm2, %xmm2
	vmovups	32(%r9), %ymm10
	movzbl	7(%rcx), %r9d
	vpinsrw	$3, %r9d, %xmm2, %xmm2
	vmovdqu	(%r8), %ymm12
	movzbl	9(%rcx), %r9d
	vpinsrw	$4, %r9d, %xmm2, %xmm2
	vpunpckldq	%ymm12, %ymm11, %ymm13
	movzbl	11(%rcx), %r9d
	vpinsrw	$5, %r9d, %xmm2, %xmm2
	vpunpckhdq	%ymm12, %ymm11, %ymm11
	movzbl	13(%rcx), %r9d
	vpinsrw	$6, %r9d, %xmm2, %xmm2
	vmovdqu	(%rax), %ymm12
	movzbl	15(%rcx), %ecx
	vpinsrw	$7, %ecx, %xmm2, %xmm2
	vpmovzxwd	%xmm2, %ymm2
	vpslld	$31, %ymm2, %ymm2
	vbroadcastss	.L1_v3_CPI63_2(%rip), %ymm14
	vbroadcastss	.L1_v3_CPI63_3(%rip), %ymm15
	vblendvps	%ymm2, %ymm14, %ymm15, %ymm1
	vmovups	%ymm1, 96(%rsp)
	vmovdqu	(%rsi), %ymm14
	vpunpckldq	%ymm14, %ymm12, %ymm15
	vpunpckhdq	%ymm14, %ymm12, %ymm12
	vpunpcklqdq	%ymm15, %ymm13, %ymm14
	vpunpckhqdq	%ymm15, %ymm13, %ymm13
	vpunpcklqdq	%ymm12, %ymm11, %ymm15
	vpunpckhqdq	%ymm12, %ymm11, %ymm11
	vinserti128	$1, %xmm14, %ymm5, %ymm12
	vmovdqu	%ymm12, 704(%rsp)
	vperm2i128	$49, %ymm14, %ymm5, %ymm2
	vmovdqu	%ymm2, 544(%rsp)
	vinserti128	$1, %xmm13, %ymm6, %ymm1
	vmovdqu	%ymm1, 800(%rsp)
	vperm2i128	$49, %ymm13, %ymm6, %ymm5
	vmovdqu	%ymm5, 768(%rsp)
	vinserti128	$1, %xmm15, %ymm8, %ymm14
	vmovdqu	%ymm14, 352(%rsp)
	vperm2i128	$49, %ymm15, %ymm8, %ymm5
	vmovdqu	%ymm5, 384(%rsp)
	vinserti128	$1, %xmm11, %ymm9, %ymm13
	vmovdqu	%ymm13, 736(%rsp)
	vperm2i128	$49, %ymm11, %ymm9, %ymm5
	vmovdqu	%ymm5, 608(%rsp)
	vunpcklps	%ymm3, %ymm0, %ymm5
	vunpckhps	%ymm3, %ymm0, %ymm0
	vunpcklps	%ymm7, %ymm4, %ymm3
	vunpckhps	%ymm7, %ymm4, %ymm4
	vunpcklpd	%ymm3, %ymm5, %ymm6
	vunpckhpd	%ymm3, %ymm5, %ymm3
	vunpcklpd	%ymm4, %ymm0, %ymm5
	vunpckhpd	%ymm4, %ymm0, %ymm0
	vmovups	32(%r8), %ymm4
	vunpcklps	%ymm4, %ymm10, %ymm7
	vunpckhps	%ymm4, %ymm10, %ymm4
	vmovups	32(%rax), %ymm8
	vmovups	32(%rsi), %ymm9
	vunpcklps	%ymm9, %ymm8, %ymm10
	vunpckhps	%ymm9, %ymm8, %ymm8
	vunpcklpd	%ymm10, %ymm7, %ymm9
	vunpckhpd	%ymm10, %ymm7, %ymm7
	vunpcklpd	%ymm8, %ymm4, %ymm10
	vunpckhpd	%ymm8, %ymm4, %ymm4
	vinsertf128	$1, %xmm9, %ymm6, %ymm8
	vmovups	%ymm8, 320(%rsp)
	vperm2f128	$49, %ymm9, %ymm6, %ymm6
	vmovups	%ymm6, 640(%rsp)
	vinsertf128	$1, %xmm7, %ymm3, %ymm6
	vmovups	%ymm6, 576(%rsp)
	vperm2f128	$49, %ymm7, %ymm3, %ymm3
	vmovups	%ymm3, 480(%rsp)
	vinsertf128	$1, %xmm10, %ymm5, %ymm3
	vmovups	%ymm3, 416(%rsp)
	vperm2f128	$49, %ymm10, %ymm5, %ymm3
	vmovups	%ymm3, 672(%rsp)
	vinsertf128	$1, %xmm4, %ymm0, %ymm3
	vmovups	%ymm3, 448(%rsp)
	vperm2f128	$49, %ymm4, %ymm0, %ymm0
	vmovups	%ymm0, 832(%rsp)
	vmovups	(%rdx), %ymm3
	vmovups	32(%rdx), %ymm4
	vshufps	$221, %ymm4, %ymm3, %ymm0
	vshufps	$136, %ymm4, %ymm3, %ymm3
	vpermpd	$216, %ymm3, %ymm3
	vbroadcastss	.L1_v3_CPI63_4(%rip), %ymm4
	vxorps	%ymm4, %ymm3, %ymm3
	vmovdqu	(%rdi), %ymm4
	vmovdqu	%ymm4, 1120(%rsp)
	vmovdqu	128(%rdi), %ymm7
	vmovdqu	%ymm7, 1088(%rsp)
	vpaddd	%ymm7, %ymm4, %ymm4
	vpaddd	%ymm4, %ymm12, %ymm4
	vpxor	%ymm3, %ymm4, %ymm3
	vmovdqa	.L1_v3_CPI63_5(%rip), %ymm10
	vpshufb	%ymm10, %ymm3, %ymm3
	vpbroadcastd	.L1_v3_CPI63_6(%rip), %ymm5
	vpaddd	%ymm5, %ymm3, %ymm6
	vpxor	%ymm7, %ymm6, %ymm5
	vpsrld	$12, %ymm5, %ymm7
	vpslld	$20, %ymm5, %ymm5
	vpor	%ymm7, %ymm5, %ymm7
	vpaddd	%ymm1, %ymm4, %ymm4
	vpaddd	%ymm7, %ymm4, %ymm8
	vpxor	%ymm3, %ymm8, %ymm3
	vbroadcasti128	.L1_v3_CPI63_12(%rip), %ymm15
	vpshufb	%ymm15, %ymm3, %ymm1
	vmovdqu	%ymm1, (%rsp)
	vpaddd	%ymm1, %ymm6, %ymm1
	vmovdqu	%ymm1, 64(%rsp)
	vpxor	%ymm7, %ymm1, %ymm3
	vpsrld	$7, %ymm3, %ymm6
	vpslld	$25, %ymm3, %ymm3
	vpor	%ymm6, %ymm3, %ymm1
	vmovdqu	%ymm1, 224(%rsp)
	vpermpd	$216, %ymm0, %ymm0
	vbroadcastss	.L1_v3_CPI63_8(%rip), %ymm3
	vxorps	%ymm3, %ymm0, %ymm0
	vmovdqu	32(%rdi), %ymm3
	vmovdqu	%ymm3, 1024(%rsp)
	vmovdqu	160(%rdi), %ymm4
	vmovdqu	%ymm4, 1056(%rsp)
	vpaddd	%ymm4, %ymm3, %ymm3
	vpaddd	%ymm3, %ymm14, %ymm3
	vpxor	%ymm0, %ymm3, %ymm0
	vmovdqa	%ymm10, %ymm5
	vpshufb	%ymm10, %ymm0, %ymm0
	vpbroadcastd	.L1_v3_CPI63_9(%rip), %ymm6
	vpaddd	%ymm6, %ymm0, %ymm6
	vpxor	%ymm4, %ymm6, %ymm7
	vpsrld	$12, %ymm7, %ymm10
	vpslld	$20, %ymm7, %ymm7
	vpor	%ymm7, %ymm10, %ymm7
	vpaddd	%ymm3, %ymm13, %ymm3
	vpaddd	%ymm7, %ymm3, %ymm11
	vpxor	%ymm0, %ymm11, %ymm0
	vpshufb	%ymm15, %ymm0, %ymm13
	vpaddd	%ymm6, %ymm13, %ymm0
	vmovdqu	%ymm0, 32(%rsp)
	vpxor	%ymm7, %ymm0, %ymm0
	vpsrld	$7, %ymm0, %ymm3
	vpslld	$25, %ymm0, %ymm0
	vpor	%ymm3, %ymm0, %ymm12
	vmovdqu	64(%rdi), %ymm0
	vmovdqu	%ymm0, 960(%rsp)
	vmovdqu	192(%rdi), %ymm4
	vmovdqu	%ymm4, 992(%rsp)
	vpaddd	%ymm4, %ymm0, %ymm0
	vpaddd	%ymm2, %ymm0, %ymm14
	vpxor	896(%rsp), %ymm14, %ymm1
	vpshufb	%ymm5, %ymm1, %ymm1
	vmovdqa	%ymm5, %ymm9
	vpbroadcastd	.L1_v3_CPI63_10(%rip), %ymm3
	vpaddd	%ymm3, %ymm1, %ymm3
	vpxor	%ymm4, %ymm3, %ymm6
	vpsrld	$12, %ymm6, %ymm7
	vpslld	$20, %ymm6, %ymm6
	vpor	%ymm7, %ymm6, %ymm0
	vpaddd	768(%rsp), %ymm14, %ymm6
	vpaddd	%ymm0, %ymm6, %ymm6
	vpxor	%ymm1, %ymm6, %ymm1
	vpshufb	%ymm15, %ymm1, %ymm10
	vpaddd	%ymm3, %ymm10, %ymm14
	vpxor	%ymm0, %ymm14, %ymm0
	vpsrld	$7, %ymm0, %ymm1
	vpslld	$25, %ymm0, %ymm0
	vpor	%ymm1, %ymm0, %ymm5
	vmovdqu	96(%rdi), %ymm0
	vmovdqu	%ymm0, 928(%rsp)
	vmovdqu	224(%rdi), %ymm4
	vmovdqu	%ymm4, 896(%rsp)
	vpaddd	%ymm4, %ymm0, %ymm0
	vpaddd	384(%rsp), %ymm0, %ymm0
	vpxor	96(%rsp), %ymm0, %ymm2
	vpshufb	%ymm9, %ymm2, %ymm2
	vpbroadcastd	.L1_v3_CPI63_11(%rip), %ymm3
	vpaddd	%ymm3, %ymm2, %ymm1
	vpxor	%ymm4, %ymm1, %ymm3
	vpsrld	$12, %ymm3, %ymm4
	vpslld	$20, %ymm3, %ymm3
	vpor	%ymm4, %ymm3, %ymm4
	vpaddd	608(%rsp), %ymm0, %ymm0
	vpaddd	%ymm4, %ymm0, %ymm7
	vpxor	%ymm2, %ymm7, %ymm0
	vpshufb	%ymm15, %ymm0, %ymm0
	vpaddd	%ymm0, %ymm1, %ymm2
	vpxor	%ymm4, %ymm2, %ymm1
	vpsrld	$7, %ymm1, %ymm3
	vpslld	$25, %ymm1, %ymm1
	vpor	%ymm3, %ymm1, %ymm3
	vpaddd	320(%rsp), %ymm8, %ymm1
	vpaddd	%ymm1, %ymm12, %ymm1
	vpxor	%ymm0, %ymm1, %ymm0
	vpshufb	%ymm9, %ymm0, %ymm0
	vpaddd	%ymm0, %ymm14, %ymm4
	vpxor	%ymm4, %ymm12, %ymm8
	vpsrld	$12, %ymm8, %ymm12
	vpslld	$20, %ymm8, %ymm8
	vpor	%ymm12, %ymm8, %ymm8
	vpaddd	576(%rsp), %ymm1, %ymm1
	vpaddd	%ymm1, %ymm8, %ymm1
	vmovdqu	%ymm1, 288(%rsp)
	vpxor	%ymm0, %ymm1, %ymm0
	vpshufb	%ymm15, %ymm0, %ymm0
	vmovdqu	%ymm0, 96(%rsp)
	vpaddd	%ymm0, %ymm4, %ymm0
	vmovdqu	%ymm0, 192(%rsp)
	vpxor	%ymm0, %ymm8, %ymm0
	vpsrld	$7, %ymm0, %ymm1
	vpslld	$25, %ymm0, %ymm0
	vpor	%ymm1, %ymm0, %ymm0
	vmovdqu	%ymm0, 160(%rsp)
	vmovdqu	416(%rsp), %ymm8
	vpaddd	%ymm8, %ymm11, %ymm0
	vpaddd	%ymm5, %ymm0, %ymm0
	vpxor	(%rsp), %ymm0, %ymm1
	vpshufb	%ymm9, %ymm1, %ymm1
	vpaddd	%ymm2, %ymm1, %ymm4
	vpxor	%ymm5, %ymm4, %ymm2
	vpsrld	$12, %ymm2, %ymm5
	vpslld	$20, %ymm2, %ymm2
	vpor	%ymm5, %ymm2, %ymm5
	vpaddd	448(%rsp), %ymm0, %ymm0
	vpaddd	%ymm5, %ymm0, %ymm14
	vpxor	%ymm1, %ymm14, %ymm0
	vmovdqa	%ymm15, %ymm12
	vpshufb	%ymm15, %ymm0, %ymm11
	vpaddd	%ymm4, %ymm11, %ymm0
	vmovdqu	%ymm0, (%rsp)
	vpxor	%ymm5, %ymm0, %ymm0
	vpsrld	$7, %ymm0, %ymm4
	vpslld	$25, %ymm0, %ymm0
	vpor	%ymm4, %ymm0, %ymm0
	vmovdqu	%ymm0, 256(%rsp)
	vpaddd	640(%rsp), %ymm6, %ymm0
	vpaddd	%ymm3, %ymm0, %ymm0
	vpxor	%ymm0, %ymm13, %ymm5
	vmovdqa	%ymm9, %ymm2
	vpshufb	%ymm9, %ymm5, %ymm5
	vpaddd	64(%rsp), %ymm5, %ymm6
	vpxor	%ymm3, %ymm6, %ymm3
	vpsrld	$12, %ymm3, %ymm9
	vpslld	$20, %ymm3, %ymm3
	vpor	%ymm3, %ymm9, %ymm3
	vpaddd	480(%rsp), %ymm0, %ymm0
	vpaddd	%ymm3, %ymm0, %ymm13
	vpxor	%ymm5, %ymm13, %ymm0
	vpshufb	%ymm15, %ymm0, %ymm4
	vpaddd	%ymm4, %ymm6, %ymm6
	vpxor	%ymm3, %ymm6, %ymm3
	vpsrld	$7, %ymm3, %ymm5
	vpslld	$25, %ymm3, %ymm3
	vpor	%ymm5, %ymm3, %ymm0
	vmovdqu	%ymm0, 128(%rsp)
	vmovdqu	672(%rsp), %ymm1
	vmovdqu	224(%rsp), %ymm0
	vpaddd	%ymm0, %ymm1, %ymm3
	vpaddd	%ymm3, %ymm7, %ymm3
	vpxor	%ymm3, %ymm10, %ymm5
	vpshufb	%ymm2, %ymm5, %ymm5
	vpaddd	32(%rsp), %ymm5, %ymm15
	vpxor	%ymm0, %ymm15, %ymm7
	vpsrld	$12, %ymm7, %ymm10
	vpslld	$20, %ymm7, %ymm7
	vpor	%ymm7, %ymm10, %ymm0
	vmovdqu	832(%rsp), %ymm9
	vpaddd	%ymm3, %ymm9, %ymm3
	vpaddd	%ymm0, %ymm3, %ymm10
	vpxor	%ymm5, %ymm10, %ymm3
	vpshufb	%ymm12, %ymm3, %ymm7
	vpaddd	%ymm7, %ymm15, %ymm3
	vpxor	%ymm0, %ymm3, %ymm0
	vpsrld	$7, %ymm0, %ymm5
	vpslld	$25, %ymm0, %ymm0
	vpor	%ymm5, %ymm0, %ymm0
	vpaddd	288(%rsp), %ymm1, %ymm5
	vpaddd	%ymm0, %ymm5, %ymm5
	vpxor	%ymm5, %ymm11, %ymm1
	vpshufb	%ymm2, %ymm1, %ymm12
	vpaddd	%ymm6, %ymm12, %ymm15
	vpxor	%ymm0, %ymm15, %ymm0
	vpsrld	$12, %ymm0, %ymm1
	vpslld	$20, %ymm0, %ymm0
	vpor	%ymm1, %ymm0, %ymm0
	vpaddd	%ymm5, %ymm8, %ymm1
	vpaddd	%ymm0, %ymm1, %ymm1
	vpxor	%ymm1, %ymm12, %ymm5
	vbroadcasti128	.L1_v3_CPI63_12(%rip), %ymm11
	vpshufb	%ymm11, %ymm5, %ymm6
	vpaddd	%ymm6, %ymm15, %ymm2
	vmovdqu	%ymm2, 32(%rsp)
	vpxor	%ymm0, %ymm2, %ymm0
	vpsrld	$7, %ymm0, %ymm5
	vpslld	$25, %ymm0, %ymm0
	vpor	%ymm5, %ymm0, %ymm0
	vmovdqu	%ymm0, 64(%rsp)
	vpaddd	544(%rsp), %ymm14, %ymm0
	vmovdqu	160(%rsp), %ymm5
	vpaddd	%ymm5, %ymm0, %ymm0
	vpxor	%ymm4, %ymm0, %ymm2
	vmovdqa	.L1_v3_CPI63_5(%rip), %ymm12
	vpshufb	%ymm12, %ymm2, %ymm2
	vpaddd	%ymm3, %ymm2, %ymm8
	vpxor	%ymm5, %ymm8, %ymm3
	vpsrld	$12, %ymm3, %ymm5
	vpslld	$20, %ymm3, %ymm3
	vpor	%ymm5, %ymm3, %ymm14
	vpaddd	320(%rsp), %ymm0, %ymm0
	vpaddd	%ymm0, %ymm14, %ymm3
	vpxor	%ymm2, %ymm3, %ymm0
	vpshufb	%ymm11, %ymm0, %ymm5
	vpaddd	%ymm5, %ymm8, %ymm0
	vmovdqu	%ymm0, 160(%rsp)
	vpxor	%ymm0, %ymm14, %ymm0
	vpsrld	$7, %ymm0, %ymm2
	vpslld	$25, %ymm0, %ymm0
	vpor	%ymm2, %ymm0, %ymm2
	vpaddd	576(%rsp), %ymm13, %ymm0
	vmovdqu	256(%rsp), %ymm4
	vpaddd	%ymm4, %ymm0, %ymm0
	vpxor	%ymm7, %ymm0, %ymm7
	vpshufb	%ymm12, %ymm7, %ymm7
	vpaddd	192(%rsp), %ymm7, %ymm8
	vpxor	%ymm4, %ymm8, %ymm4
	vpsrld	$12, %ymm4, %ymm13
	vpslld	$20, %ymm4, %ymm4
	vpor	%ymm4, %ymm13, %ymm14
	vpaddd	%ymm0, %ymm9, %ymm0
	vpaddd	%ymm0, %ymm14, %ymm4
	vpxor	%ymm7, %ymm4, %ymm0
	vpshufb	%ymm11, %ymm0, %ymm13
	vmovdqa	%ymm11, %ymm15
	vpaddd	%ymm13, %ymm8, %ymm0
	vpxor	%ymm0, %ymm14, %ymm7
	vpsrld	$7, %ymm7, %ymm8
	vpslld	$25, %ymm7, %ymm7
	vpor	%ymm7, %ymm8, %ymm7
	vpaddd	480(%rsp), %ymm10, %ymm8
	vmovdqu	128(%rsp), %ymm9
	vpaddd	%ymm9, %ymm8, %ymm8
	vpxor	96(%rsp), %ymm8, %ymm10
	vpshufb	%ymm12, %ymm10, %ymm14
	vpaddd	(%rsp), %ymm14, %ymm11
	vpxor	%ymm9, %ymm11, %ymm9
	vpsrld	$12, %ymm9, %ymm10
	vpslld	$20, %ymm9, %ymm9
	vpor	%ymm10, %ymm9, %ymm9
	vpaddd	384(%rsp), %ymm8, %ymm8
	vpaddd	%ymm9, %ymm8, %ymm10
	vpxor	%ymm14, %ymm10, %ymm8
	vpshufb	%ymm15, %ymm8, %ymm8
	vpaddd	%ymm8, %ymm11, %ymm11
	vpxor	%ymm9, %ymm11, %ymm9
	vpsrld	$7, %ymm9, %ymm14
	vpslld	$25, %ymm9, %ymm9
	vpor	%ymm14, %ymm9, %ymm14
	vpaddd	800(%rsp), %ymm1, %ymm1
	vpaddd	%ymm2, %ymm1, %ymm1
	vpxor	%ymm1, %ymm8, %ymm8
	vpshufb	%ymm12, %ymm8, %ymm8
	vpaddd	%ymm0, %ymm8, %ymm0
	vpxor	%ymm2, %ymm0, %ymm2
	vpsrld	$12, %ymm2, %ymm9
	vpslld	$20, %ymm2, %ymm2
	vpor	%ymm2, %ymm9, %ymm2
	vmovdqu	640(%rsp), %ymm9
	vpaddd	%ymm1, %ymm9, %ymm1
	vpaddd	%ymm2, %ymm1, %ymm1
	vmovdqu	%ymm1, 96(%rsp)
	vpxor	%ymm1, %ymm8, %ymm8
	vpshufb	%ymm15, %ymm8, %ymm8
	vmovdqa	%ymm15, %ymm1
	vmovdqu	%ymm8, 224(%rsp)
	vpaddd	%ymm0, %ymm8, %ymm0
	vmovdqu	%ymm0, 192(%rsp)
	vpxor	%ymm2, %ymm0, %ymm0
	vpsrld	$7, %ymm0, %ymm2
	vpslld	$25, %ymm0, %ymm0
	vpor	%ymm2, %ymm0, %ymm0
	vmovdqu	%ymm0, 128(%rsp)
	vpaddd	704(%rsp), %ymm3, %ymm0
	vpaddd	%ymm7, %ymm0, %ymm0
	vpxor	%ymm6, %ymm0, %ymm2
	vpshufb	%ymm12, %ymm2, %ymm3
	vpaddd	%ymm3, %ymm11, %ymm6
	vpxor	%ymm7, %ymm6, %ymm2
	vpsrld	$12, %ymm2, %ymm7
	vpslld	$20, %ymm2, %ymm2
	vpor	%ymm7, %ymm2, %ymm7
	vpaddd	352(%rsp), %ymm0, %ymm0
	vpaddd	%ymm7, %ymm0, %ymm11
	vpxor	%ymm3, %ymm11, %ymm0
	vpshufb	%ymm15, %ymm0, %ymm2
	vpaddd	%ymm2, %ymm6, %ymm0
	vmovdqu	%ymm0, (%rsp)
	vpxor	%ymm7, %ymm0, %ymm3
	vpsrld	$7, %ymm3, %ymm7
	vpslld	$25, %ymm3, %ymm3
	vpor	%ymm7, %ymm3, %ymm0
	vmovdqu	%ymm0, 256(%rsp)
	vmovdqu	448(%rsp), %ymm0
	vpaddd	%ymm0, %ymm4, %ymm3
	vpaddd	%ymm3, %ymm14, %ymm3
	vpxor	%ymm5, %ymm3, %ymm4
	vpshufb	%ymm12, %ymm4, %ymm5
	vmovdqa	%ymm12, %ymm15
	vpaddd	32(%rsp), %ymm5, %ymm8
	vpxor	%ymm14, %ymm8, %ymm4
	vpsrld	$12, %ymm4, %ymm7
	vpslld	$20, %ymm4, %ymm4
	vpor	%ymm7, %ymm4, %ymm12
	vpaddd	608(%rsp), %ymm3, %ymm3
	vpaddd	%ymm3, %ymm12, %ymm6
	vpxor	%ymm5, %ymm6, %ymm3
	vpshufb	%ymm1, %ymm3, %ymm7
	vpaddd	%ymm7, %ymm8, %ymm3
	vpxor	%ymm3, %ymm12, %ymm5
	vpsrld	$7, %ymm5, %ymm8
	vpslld	$25, %ymm5, %ymm5
	vpor	%ymm5, %ymm8, %ymm4
	vmovdqu	%ymm4, 32(%rsp)
	vmovdqu	768(%rsp), %ymm4
	vpaddd	%ymm4, %ymm10, %ymm8
	vmovdqu	64(%rsp), %ymm14
	vpaddd	%ymm14, %ymm8, %ymm8
	vpxor	%ymm13, %ymm8, %ymm10
	vmovdqa	%ymm15, %ymm5
	vpshufb	%ymm15, %ymm10, %ymm10
	vpaddd	160(%rsp), %ymm10, %ymm12
	vpxor	%ymm14, %ymm12, %ymm13
	vpsrld	$12, %ymm13, %ymm14
	vpslld	$20, %ymm13, %ymm13
	vpor	%ymm14, %ymm13, %ymm15
	vpaddd	736(%rsp), %ymm8, %ymm8
	vpaddd	%ymm15, %ymm8, %ymm13
	vpxor	%ymm10, %ymm13, %ymm8
	vpshufb	%ymm1, %ymm8, %ymm14
	vpaddd	%ymm14, %ymm12, %ymm12
	vpxor	%ymm15, %ymm12, %ymm8
	vpsrld	$7, %ymm8, %ymm10
	vpslld	$25, %ymm8, %ymm8
	vpor	%ymm10, %ymm8, %ymm8
	vpaddd	96(%rsp), %ymm0, %ymm1
	vpaddd	%ymm1, %ymm8, %ymm1
	vpxor	%ymm2, %ymm1, %ymm0
	vpshufb	%ymm5, %ymm0, %ymm0
	vmovdqa	%ymm5, %ymm2
	vpaddd	%ymm3, %ymm0, %ymm3
	vpxor	%ymm3, %ymm8, %ymm8
	vpsrld	$12, %ymm8, %ymm10
	vpslld	$20, %ymm8, %ymm8
	vpor	%ymm10, %ymm8, %ymm8
	vpaddd	320(%rsp), %ymm1, %ymm1
	vpaddd	%ymm1, %ymm8, %ymm15
	vpxor	%ymm0, %ymm15, %ymm0
	vbroadcasti128	.L1_v3_CPI63_12(%rip), %ymm5
	vpshufb	%ymm5, %ymm0, %ymm10
	vpaddd	%ymm3, %ymm10, %ymm0
	vmovdqu	%ymm0, 64(%rsp)
	vpxor	%ymm0, %ymm8, %ymm0
	vpsrld	$7, %ymm0, %ymm1
	vpslld	$25, %ymm0, %ymm0
	vpor	%ymm1, %ymm0, %ymm0
	vmovdqu	%ymm0, 96(%rsp)
	vpaddd	%ymm9, %ymm11, %ymm0
	vmovdqu	128(%rsp), %ymm3
	vpaddd	%ymm3, %ymm0, %ymm0
	vpxor	%ymm7, %ymm0, %ymm1
	vpshufb	%ymm2, %ymm1, %ymm1
	vmovdqa	%ymm2, %ymm9
	vpaddd	%ymm1, %ymm12, %ymm7
	vpxor	%ymm3, %ymm7, %ymm2
	vpsrld	$12, %ymm2, %ymm8
	vpslld	$20, %ymm2, %ymm2
	vpor	%ymm2, %ymm8, %ymm8
	vpaddd	704(%rsp), %ymm0, %ymm0
	vpaddd	%ymm0, %ymm8, %ymm2
	vpxor	%ymm1, %ymm2, %ymm0
	vpshufb	%ymm5, %ymm0, %ymm12
	vpaddd	%ymm7, %ymm12, %ymm0
	vmovdqu	%ymm0, 288(%rsp)
	vpxor	%ymm0, %ymm8, %ymm0
	vpsrld	$7, %ymm0, %ymm1
	vpslld	$25, %ymm0, %ymm0
	vpor	%ymm1, %ymm0, %ymm7
	vpaddd	%ymm4, %ymm6, %ymm0
	vmovdqu	256(%rsp), %ymm6
	vpaddd	%ymm6, %ymm0, %ymm0
	vpxor	%ymm0, %ymm14, %ymm1
	vpshufb	%ymm9, %ymm1, %ymm4
	vpaddd	192(%rsp), %ymm4, %ymm8
	vpxor	%ymm6, %ymm8, %ymm1
	vpsrld	$12, %ymm1, %ymm11
	vpslld	$20, %ymm1, %ymm1
	vpor	%ymm1, %ymm11, %ymm14
	vpaddd	352(%rsp), %ymm0, %ymm0
	vpaddd	%ymm0, %ymm14, %ymm3
	vpxor	%ymm4, %ymm3, %ymm0
	vpshufb	%ymm5, %ymm0, %ymm11
	vmovdqa	%ymm5, %ymm9
	vpaddd	%ymm11, %ymm8, %ymm8
	vpxor	%ymm14, %ymm8, %ymm0
	vpsrld	$7, %ymm0, %ymm4
	vpslld	$25, %ymm0, %ymm0
	vpor	%ymm4, %ymm0, %ymm4
	vpaddd	832(%rsp), %ymm13, %ymm0
	vmovdqu	32(%rsp), %ymm5
	vpaddd	%ymm5, %ymm0, %ymm0
	vpxor	224(%rsp), %ymm0, %ymm13
	vmovdqa	.L1_v3_CPI63_5(%rip), %ymm1
	vpshufb	%ymm1, %ymm13, %ymm13
	vpaddd	(%rsp), %ymm13, %ymm6
	vpxor	%ymm5, %ymm6, %ymm5
	vpsrld	$12, %ymm5, %ymm14
	vpslld	$20, %ymm5, %ymm5
	vpor	%ymm5, %ymm14, %ymm14
	vpaddd	480(%rsp), %ymm0, %ymm0
	vpaddd	%ymm0, %ymm14, %ymm5
	vpxor	%ymm5, %ymm13, %ymm0
	vpshufb	%ymm9, %ymm0, %ymm0
	vpaddd	%ymm0, %ymm6, %ymm13
	vpxor	%ymm14, %ymm13, %ymm6
	vpsrld	$7, %ymm6, %ymm14
	vpslld	$25, %ymm6, %ymm6
	vpor	%ymm6, %ymm14, %ymm14
	vpaddd	416(%rsp), %ymm15, %ymm6
	vpaddd	%ymm7, %ymm6, %ymm6
	vpxor	%ymm0, %ymm6, %ymm0
	vpshufb	%ymm1, %ymm0, %ymm0
	vpaddd	%ymm0, %ymm8, %ymm8
	vpxor	%ymm7, %ymm8, %ymm7
	vpsrld	$12, %ymm7, %ymm15
	vpslld	$20, %ymm7, %ymm7
	vpor	%ymm7, %ymm15, %ymm7
	vpaddd	672(%rsp), %ymm6, %ymm6
	vpaddd	%ymm7, %ymm6, %ymm15
	vpxor	%ymm0, %ymm15, %ymm0
	vpshufb	%ymm9, %ymm0, %ymm0
	vmovdqu	%ymm0, 224(%rsp)
	vmovdqa	%ymm9, %ymm1
	vpaddd	%ymm0, %ymm8, %ymm0
	vmovdqu	%ymm0, 32(%rsp)
	vpxor	%ymm7, %ymm0, %ymm0
	vpsrld	$7, %ymm0, %ymm6
	vpslld	$25, %ymm0, %ymm0
	vpor	%ymm6, %ymm0, %ymm0
	vmovdqu	%ymm0, (%rsp)
	vmovdqu	736(%rsp), %ymm9
	vpaddd	%ymm2, %ymm9, %ymm0
	vpaddd	%ymm4, %ymm0, %ymm0
	vpxor	%ymm0, %ymm10, %ymm2
	vmovdqa	.L1_v3_CPI63_5(%rip), %ymm7
	vpshufb	%ymm7, %ymm2, %ymm2
	vpaddd	%ymm2, %ymm13, %ymm8
	vpxor	%ymm4, %ymm8, %ymm4
	vpsrld	$12, %ymm4, %ymm6
	vpslld	$20, %ymm4, %ymm4
	vpor	%ymm6, %ymm4, %ymm10
	vpaddd	384(%rsp), %ymm0, %ymm0
	vpaddd	%ymm0, %ymm10, %ymm0
	vmovdqu	%ymm0, 256(%rsp)
	vpxor	%ymm2, %ymm0, %ymm0
	vpshufb	%ymm1, %ymm0, %ymm6
	vmovdqa	%ymm1, %ymm13
	vpaddd	%ymm6, %ymm8, %ymm0
	vmovdqu	%ymm0, 192(%rsp)
	vpxor	%ymm0, %ymm10, %ymm0
	vpsrld	$7, %ymm0, %ymm2
	vpslld	$25, %ymm0, %ymm0
	vpor	%ymm2, %ymm0, %ymm0
	vmovdqu	%ymm0, 160(%rsp)
	vmovdqu	608(%rsp), %ymm4
	vpaddd	%ymm4, %ymm3, %ymm0
	vpaddd	%ymm0, %ymm14, %ymm0
	vpxor	%ymm0, %ymm12, %ymm1
	vpshufb	%ymm7, %ymm1, %ymm1
	vmovdqa	%ymm7, %ymm10
	vpaddd	64(%rsp), %ymm1, %ymm2
	vpxor	%ymm2, %ymm14, %ymm3
	vpsrld	$12, %ymm3, %ymm8
	vpslld	$20, %ymm3, %ymm3
	vpor	%ymm3, %ymm8, %ymm8
	vmovdqu	800(%rsp), %ymm3
	vpaddd	%ymm3, %ymm0, %ymm0
	vpaddd	%ymm0, %ymm8, %ymm0
	vmovdqu	%ymm0, 512(%rsp)
	vpxor	%ymm1, %ymm0, %ymm0
	vpshufb	%ymm13, %ymm0, %ymm7
	vpaddd	%ymm7, %ymm2, %ymm0
	vpxor	%ymm0, %ymm8, %ymm2
	vpsrld	$7, %ymm2, %ymm8
	vpslld	$25, %ymm2, %ymm2
	vpor	%ymm2, %ymm8, %ymm1
	vmovdqu	%ymm1, 128(%rsp)
	vmovdqu	576(%rsp), %ymm1
	vpaddd	%ymm1, %ymm5, %ymm2
	vmovdqu	96(%rsp), %ymm14
	vpaddd	%ymm2, %ymm14, %ymm2
	vpxor	%ymm2, %ymm11, %ymm5
	vpshufb	%ymm10, %ymm5, %ymm5
	vpaddd	288(%rsp), %ymm5, %ymm8
	vpxor	%ymm14, %ymm8, %ymm11
	vpsrld	$12, %ymm11, %ymm12
	vpslld	$20, %ymm11, %ymm11
	vpor	%ymm12, %ymm11, %ymm11
	vpaddd	544(%rsp), %ymm2, %ymm2
	vpaddd	%ymm2, %ymm11, %ymm14
	vpxor	%ymm5, %ymm14, %ymm2
	vpshufb	%ymm13, %ymm2, %ymm2
	vpaddd	%ymm2, %ymm8, %ymm12
	vpxor	%ymm11, %ymm12, %ymm5
	vpsrld	$7, %ymm5, %ymm8
	vpslld	$25, %ymm5, %ymm5
	vpor	%ymm5, %ymm8, %ymm5
	vpaddd	%ymm4, %ymm15, %ymm8
	vpaddd	%ymm5, %ymm8, %ymm8
	vpxor	%ymm6, %ymm8, %ymm4
	vpshufb	%ymm10, %ymm4, %ymm4
	vpaddd	%ymm0, %ymm4, %ymm0
	vpxor	%ymm5, %ymm0, %ymm5
	vpsrld	$12, %ymm5, %ymm11
	vpslld	$20, %ymm5, %ymm5
	vpor	%ymm5, %ymm11, %ymm5
	vpaddd	%ymm1, %ymm8, %ymm8
	vpaddd	%ymm5, %ymm8, %ymm15
	vpxor	%ymm4, %ymm15, %ymm4
	vpshufb	%ymm13, %ymm4, %ymm11
	vpaddd	%ymm0, %ymm11, %ymm0
	vmovdqu	%ymm0, 64(%rsp)
	vpxor	%ymm5, %ymm0, %ymm0
	vpsrld	$7, %ymm0, %ymm4
	vpslld	$25, %ymm0, %ymm0
	vpor	%ymm4, %ymm0, %ymm0
	vmovdqu	%ymm0, 96(%rsp)
	vpaddd	256(%rsp), %ymm9, %ymm0
	vmovdqu	(%rsp), %ymm4
	vpaddd	%ymm4, %ymm0, %ymm0
	vpxor	%ymm7, %ymm0, %ymm1
	vpshufb	%ymm10, %ymm1, %ymm1
	vpaddd	%ymm1, %ymm12, %ymm5
	vpxor	%ymm4, %ymm5, %ymm4
	vpsrld	$12, %ymm4, %ymm6
	vpslld	$20, %ymm4, %ymm4
	vpor	%ymm6, %ymm4, %ymm7
	vpaddd	%ymm3, %ymm0, %ymm0
	vpaddd	%ymm7, %ymm0, %ymm6
	vpxor	%ymm1, %ymm6, %ymm0
	vpshufb	%ymm13, %ymm0, %ymm12
	vpaddd	%ymm5, %ymm12, %ymm0
	vmovdqu	%ymm0, (%rsp)
	vpxor	%ymm7, %ymm0, %ymm0
	vpsrld	$7, %ymm0, %ymm1
	vpslld	$25, %ymm0, %ymm0
	vpor	%ymm1, %ymm0, %ymm7
	vmovdqu	512(%rsp), %ymm0
	vpaddd	480(%rsp), %ymm0, %ymm0
	vmovdqu	160(%rsp), %ymm4
	vpaddd	%ymm4, %ymm0, %ymm0
	vpxor	%ymm2, %ymm0, %ymm1
	vpshufb	%ymm10, %ymm1, %ymm2
	vmovdqa	%ymm10, %ymm9
	vpaddd	32(%rsp), %ymm2, %ymm3
	vpxor	%ymm4, %ymm3, %ymm1
	vpsrld	$12, %ymm1, %ymm5
	vpslld	$20, %ymm1, %ymm1
	vpor	%ymm5, %ymm1, %ymm5
	vpaddd	640(%rsp), %ymm0, %ymm0
	vpaddd	%ymm5, %ymm0, %ymm10
	vpxor	%ymm2, %ymm10, %ymm0
	vmovdqa	%ymm13, %ymm1
	vpshufb	%ymm13, %ymm0, %ymm0
	vmovdqu	%ymm0, 512(%rsp)
	vpaddd	%ymm0, %ymm3, %ymm2
	vpxor	%ymm5, %ymm2, %ymm0
	vpsrld	$7, %ymm0, %ymm3
	vpslld	$25, %ymm0, %ymm0
	vpor	%ymm3, %ymm0, %ymm3
	vpaddd	448(%rsp), %ymm14, %ymm0
	vmovdqu	128(%rsp), %ymm8
	vpaddd	%ymm0, %ymm8, %ymm0
	vpxor	224(%rsp), %ymm0, %ymm5
	vpshufb	%ymm9, %ymm5, %ymm5
	vmovdqa	%ymm9, %ymm4
	vpaddd	192(%rsp), %ymm5, %ymm13
	vpxor	%ymm8, %ymm13, %ymm9
	vpsrld	$12, %ymm9, %ymm14
	vpslld	$20, %ymm9, %ymm9
	vpor	%ymm14, %ymm9, %ymm9
	vpaddd	672(%rsp), %ymm0, %ymm0
	vpaddd	%ymm0, %ymm9, %ymm14
	vpxor	%ymm5, %ymm14, %ymm0
	vpshufb	%ymm1, %ymm0, %ymm5
	vpaddd	%ymm5, %ymm13, %ymm13
	vpxor	%ymm9, %ymm13, %ymm0
	vpsrld	$7, %ymm0, %ymm9
	vpslld	$25, %ymm0, %ymm0
	vpor	%ymm0, %ymm9, %ymm8
	vpaddd	352(%rsp), %ymm15, %ymm9
	vpaddd	%ymm7, %ymm9, %ymm9
	vpxor	%ymm5, %ymm9, %ymm5
	vpshufb	%ymm4, %ymm5, %ymm5
	vpaddd	%ymm2, %ymm5, %ymm2
	vpxor	%ymm7, %ymm2, %ymm7
	vpsrld	$12, %ymm7, %ymm15
	vpslld	$20, %ymm7, %ymm7
	vpor	%ymm7, %ymm15, %ymm0
	vpaddd	384(%rsp), %ymm9, %ymm7
	vpaddd	%ymm0, %ymm7, %ymm1
	vmovdqu	%ymm1, 288(%rsp)
	vpxor	%ymm5, %ymm1, %ymm5
	vbroadcasti128	.L1_v3_CPI63_12(%rip), %ymm15
	vpshufb	%ymm15, %ymm5, %ymm5
	vmovdqu	%ymm5, 224(%rsp)
	vpaddd	%ymm5, %ymm2, %ymm2
	vmovdqu	%ymm2, 32(%rsp)
	vpxor	%ymm0, %ymm2, %ymm0
	vpsrld	$7, %ymm0, %ymm2
	vpslld	$25, %ymm0, %ymm0
	vpor	%ymm2, %ymm0, %ymm0
	vmovdqu	%ymm0, 160(%rsp)
	vmovdqu	768(%rsp), %ymm7
	vpaddd	%ymm7, %ymm6, %ymm0
	vpaddd	%ymm3, %ymm0, %ymm0
	vpxor	%ymm0, %ymm11, %ymm2
	vmovdqa	%ymm4, %ymm9
	vpshufb	%ymm4, %ymm2, %ymm5
	vpaddd	%ymm5, %ymm13, %ymm6
	vpxor	%ymm3, %ymm6, %ymm2
	vpsrld	$12, %ymm2, %ymm3
	vpslld	$20, %ymm2, %ymm2
	vpor	%ymm3, %ymm2, %ymm11
	vpaddd	416(%rsp), %ymm0, %ymm0
	vpaddd	%ymm0, %ymm11, %ymm0
	vmovdqu	%ymm0, 256(%rsp)
	vpxor	%ymm5, %ymm0, %ymm0
	vpshufb	%ymm15, %ymm0, %ymm3
	vpaddd	%ymm3, %ymm6, %ymm0
	vmovdqu	%ymm0, 192(%rsp)
	vpxor	%ymm0, %ymm11, %ymm0
	vpsrld	$7, %ymm0, %ymm5
	vpslld	$25, %ymm0, %ymm0
	vpor	%ymm5, %ymm0, %ymm0
	vmovdqu	%ymm0, 128(%rsp)
	vmovdqu	544(%rsp), %ymm11
	vpaddd	%ymm11, %ymm10, %ymm0
	vpaddd	%ymm0, %ymm8, %ymm0
	vpxor	%ymm0, %ymm12, %ymm4
	vpshufb	%ymm9, %ymm4, %ymm5
	vmovdqa	%ymm9, %ymm12
	vpaddd	64(%rsp), %ymm5, %ymm6
	vpxor	%ymm6, %ymm8, %ymm1
	vpsrld	$12, %ymm1, %ymm4
	vpslld	$20, %ymm1, %ymm1
	vpor	%ymm4, %ymm1, %ymm8
	vmovdqu	704(%rsp), %ymm2
	vpaddd	%ymm2, %ymm0, %ymm0
	vpaddd	%ymm0, %ymm8, %ymm13
	vpxor	%ymm5, %ymm13, %ymm0
	vpshufb	%ymm15, %ymm0, %ymm4
	vmovdqa	%ymm15, %ymm9
	vpaddd	%ymm4, %ymm6, %ymm1
	vpxor	%ymm1, %ymm8, %ymm5
	vpsrld	$7, %ymm5, %ymm6
	vpslld	$25, %ymm5, %ymm5
	vpor	%ymm6, %ymm5, %ymm0
	vmovdqu	%ymm0, 864(%rsp)
	vmovdqu	832(%rsp), %ymm15
	vpaddd	%ymm15, %ymm14, %ymm5
	vmovdqu	96(%rsp), %ymm0
	vpaddd	%ymm0, %ymm5, %ymm5
	vpxor	512(%rsp), %ymm5, %ymm8
	vpshufb	%ymm12, %ymm8, %ymm8
	vmovdqa	%ymm12, %ymm6
	vpaddd	(%rsp), %ymm8, %ymm10
	vpxor	%ymm0, %ymm10, %ymm12
	vpsrld	$12, %ymm12, %ymm14
	vpslld	$20, %ymm12, %ymm12
	vpor	%ymm14, %ymm12, %ymm0
	vpaddd	320(%rsp), %ymm5, %ymm5
	vpaddd	%ymm0, %ymm5, %ymm14
	vpxor	%ymm8, %ymm14, %ymm5
	vpshufb	%ymm9, %ymm5, %ymm5
	vpaddd	%ymm5, %ymm10, %ymm12
	vpxor	%ymm0, %ymm12, %ymm0
	vpsrld	$7, %ymm0, %ymm8
	vpslld	$25, %ymm0, %ymm0
	vpor	%ymm0, %ymm8, %ymm0
	vmovdqu	288(%rsp), %ymm8
	vpaddd	576(%rsp), %ymm8, %ymm8
	vpaddd	%ymm0, %ymm8, %ymm8
	vpxor	%ymm3, %ymm8, %ymm3
	vpshufb	%ymm6, %ymm3, %ymm3
	vpaddd	%ymm1, %ymm3, %ymm1
	vpxor	%ymm0, %ymm1, %ymm0
	vpsrld	$12, %ymm0, %ymm10
	vpslld	$20, %ymm0, %ymm0
	vpor	%ymm0, %ymm10, %ymm0
	vpaddd	%ymm2, %ymm8, %ymm8
	vpaddd	%ymm0, %ymm8, %ymm10
	vpxor	%ymm3, %ymm10, %ymm3
	vpshufb	%ymm9, %ymm3, %ymm2
	vmovdqu	%ymm2, 288(%rsp)
	vpaddd	%ymm2, %ymm1, %ymm1
	vmovdqu	%ymm1, 64(%rsp)
	vpxor	%ymm0, %ymm1, %ymm0
	vpsrld	$7, %ymm0, %ymm1
	vpslld	$25, %ymm0, %ymm0
	vpor	%ymm1, %ymm0, %ymm0
	vmovdqu	%ymm0, 96(%rsp)
	vpaddd	256(%rsp), %ymm7, %ymm0
	vmovdqu	160(%rsp), %ymm3
	vpaddd	%ymm3, %ymm0, %ymm0
	vpxor	%ymm4, %ymm0, %ymm1
	vpshufb	%ymm6, %ymm1, %ymm1
	vpaddd	%ymm1, %ymm12, %ymm2
	vpxor	%ymm3, %ymm2, %ymm3
	vpsrld	$12, %ymm3, %ymm7
	vpslld	$20, %ymm3, %ymm3
	vpor	%ymm7, %ymm3, %ymm7
	vpaddd	608(%rsp), %ymm0, %ymm0
	vpaddd	%ymm7, %ymm0, %ymm12
	vpxor	%ymm1, %ymm12, %ymm0
	vpshufb	%ymm9, %ymm0, %ymm0
	vmovdqu	%ymm0, 512(%rsp)
	vpaddd	%ymm0, %ymm2, %ymm0
	vmovdqu	%ymm0, (%rsp)
	vpxor	%ymm7, %ymm0, %ymm0
	vpsrld	$7, %ymm0, %ymm1
	vpslld	$25, %ymm0, %ymm0
	vpor	%ymm1, %ymm0, %ymm0
	vpaddd	352(%rsp), %ymm13, %ymm1
	vmovdqu	128(%rsp), %ymm7
	vpaddd	%ymm7, %ymm1, %ymm1
	vpxor	%ymm5, %ymm1, %ymm2
	vpshufb	%ymm6, %ymm2, %ymm2
	vmovdqa	%ymm6, %ymm3
	vpaddd	32(%rsp), %ymm2, %ymm4
	vpxor	%ymm7, %ymm4, %ymm5
	vpsrld	$12, %ymm5, %ymm7
	vpslld	$20, %ymm5, %ymm5
	vpor	%ymm7, %ymm5, %ymm5
	vpaddd	%ymm1, %ymm11, %ymm1
	vpaddd	%ymm5, %ymm1, %ymm7
	vpxor	%ymm2, %ymm7, %ymm1
	vpshufb	%ymm9, %ymm1, %ymm11
	vpaddd	%ymm4, %ymm11, %ymm4
	vpxor	%ymm5, %ymm4, %ymm1
	vpsrld	$7, %ymm1, %ymm2
	vpslld	$25, %ymm1, %ymm1
	vpor	%ymm2, %ymm1, %ymm1
	vpaddd	416(%rsp), %ymm14, %ymm2
	vmovdqu	864(%rsp), %ymm6
	vpaddd	%ymm6, %ymm2, %ymm2
	vpxor	224(%rsp), %ymm2, %ymm5
	vpshufb	%ymm3, %ymm5, %ymm5
	vpaddd	192(%rsp), %ymm5, %ymm8
	vpxor	%ymm6, %ymm8, %ymm6
	vpsrld	$12, %ymm6, %ymm13
	vpslld	$20, %ymm6, %ymm6
	vpor	%ymm6, %ymm13, %ymm6
	vpaddd	%ymm2, %ymm15, %ymm2
	vpaddd	%ymm6, %ymm2, %ymm14
	vpxor	%ymm5, %ymm14, %ymm2
	vpshufb	%ymm9, %ymm2, %ymm13
	vpaddd	%ymm13, %ymm8, %ymm5
	vpxor	%ymm6, %ymm5, %ymm2
	vpsrld	$7, %ymm2, %ymm6
	vpslld	$25, %ymm2, %ymm2
	vpor	%ymm6, %ymm2, %ymm2
	vpaddd	672(%rsp), %ymm10, %ymm6
	vpaddd	%ymm0, %ymm6, %ymm6
	vpxor	%ymm6, %ymm13, %ymm8
	vpshufb	%ymm3, %ymm8, %ymm8
	vmovdqa	%ymm3, %ymm10
	vpaddd	%ymm4, %ymm8, %ymm4
	vpxor	%ymm0, %ymm4, %ymm0
	vpsrld	$12, %ymm0, %ymm13
	vpslld	$20, %ymm0, %ymm0
	vpor	%ymm0, %ymm13, %ymm0
	vpaddd	800(%rsp), %ymm6, %ymm6
	vpaddd	%ymm0, %ymm6, %ymm15
	vpxor	%ymm8, %ymm15, %ymm6
	vmovdqa	%ymm9, %ymm13
	vpshufb	%ymm9, %ymm6, %ymm6
	vmovdqu	%ymm6, 224(%rsp)
	vpaddd	%ymm6, %ymm4, %ymm4
	vmovdqu	%ymm4, 32(%rsp)
	vpxor	%ymm0, %ymm4, %ymm0
	vpsrld	$7, %ymm0, %ymm4
	vpslld	$25, %ymm0, %ymm0
	vpor	%ymm4, %ymm0, %ymm0
	vmovdqu	%ymm0, 160(%rsp)
	vpaddd	448(%rsp), %ymm12, %ymm0
	vpaddd	%ymm1, %ymm0, %ymm0
	vpxor	288(%rsp), %ymm0, %ymm3
	vpshufb	%ymm10, %ymm3, %ymm3
	vpaddd	%ymm5, %ymm3, %ymm4
	vpxor	%ymm1, %ymm4, %ymm1
	vpsrld	$12, %ymm1, %ymm5
	vpslld	$20, %ymm1, %ymm1
	vpor	%ymm5, %ymm1, %ymm5
	vmovdqu	640(%rsp), %ymm1
	vpaddd	%ymm1, %ymm0, %ymm0
	vpaddd	%ymm5, %ymm0, %ymm0
	vmovdqu	%ymm0, 864(%rsp)
	vpxor	%ymm3, %ymm0, %ymm0
	vpshufb	%ymm9, %ymm0, %ymm3
	vpaddd	%ymm3, %ymm4, %ymm0
	vmovdqu	%ymm0, 192(%rsp)
	vpxor	%ymm5, %ymm0, %ymm0
	vpsrld	$7, %ymm0, %ymm4
	vpslld	$25, %ymm0, %ymm0
	vpor	%ymm4, %ymm0, %ymm0
	vmovdqu	%ymm0, 256(%rsp)
	vmovdqu	384(%rsp), %ymm6
	vpaddd	%ymm6, %ymm7, %ymm0
	vpaddd	%ymm2, %ymm0, %ymm0
	vpxor	512(%rsp), %ymm0, %ymm4
	vpshufb	%ymm10, %ymm4, %ymm5
	vpaddd	64(%rsp), %ymm5, %ymm7
	vpxor	%ymm2, %ymm7, %ymm2
	vpsrld	$12, %ymm2, %ymm4
	vpslld	$20, %ymm2, %ymm2
	vpor	%ymm4, %ymm2, %ymm8
	vmovdqu	320(%rsp), %ymm9
	vpaddd	%ymm0, %ymm9, %ymm0
	vpaddd	%ymm0, %ymm8, %ymm0
	vmovdqu	%ymm0, 288(%rsp)
	vpxor	%ymm5, %ymm0, %ymm0
	vpshufb	%ymm13, %ymm0, %ymm4
	vpaddd	%ymm4, %ymm7, %ymm5
	vpxor	%ymm5, %ymm8, %ymm0
	vpsrld	$7, %ymm0, %ymm7
	vpslld	$25, %ymm0, %ymm0
	vpor	%ymm7, %ymm0, %ymm0
	vmovdqu	%ymm0, 128(%rsp)
	vmovdqu	736(%rsp), %ymm10
	vpaddd	%ymm10, %ymm14, %ymm0
	vmovdqu	96(%rsp), %ymm12
	vpaddd	%ymm0, %ymm12, %ymm0
	vpxor	%ymm0, %ymm11, %ymm7
	vmovdqa	.L1_v3_CPI63_5(%rip), %ymm2
	vpshufb	%ymm2, %ymm7, %ymm7
	vpaddd	(%rsp), %ymm7, %ymm8
	vpxor	%ymm12, %ymm8, %ymm11
	vpsrld	$12, %ymm11, %ymm12
	vpslld	$20, %ymm11, %ymm11
	vpor	%ymm12, %ymm11, %ymm11
	vpaddd	480(%rsp), %ymm0, %ymm0
	vpaddd	%ymm0, %ymm11, %ymm14
	vpxor	%ymm7, %ymm14, %ymm0
	vpshufb	%ymm13, %ymm0, %ymm7
	vpaddd	%ymm7, %ymm8, %ymm0
	vpxor	%ymm0, %ymm11, %ymm8
	vpsrld	$7, %ymm8, %ymm11
	vpslld	$25, %ymm8, %ymm8
	vpor	%ymm11, %ymm8, %ymm8
	vpaddd	352(%rsp), %ymm15, %ymm11
	vpaddd	%ymm8, %ymm11, %ymm11
	vpxor	%ymm3, %ymm11, %ymm3
	vpshufb	%ymm2, %ymm3, %ymm3
	vpaddd	%ymm5, %ymm3, %ymm5
	vpxor	%ymm5, %ymm8, %ymm8
	vpsrld	$12, %ymm8, %ymm12
	vpslld	$20, %ymm8, %ymm8
	vpor	%ymm12, %ymm8, %ymm8
	vpaddd	%ymm1, %ymm11, %ymm11
	vpaddd	%ymm8, %ymm11, %ymm15
	vpxor	%ymm3, %ymm15, %ymm3
	vpshufb	%ymm13, %ymm3, %ymm11
	vpaddd	%ymm5, %ymm11, %ymm1
	vmovdqu	%ymm1, 64(%rsp)
	vpxor	%ymm1, %ymm8, %ymm3
	vpsrld	$7, %ymm3, %ymm5
	vpslld	$25, %ymm3, %ymm3
	vpor	%ymm5, %ymm3, %ymm1
	vmovdqu	%ymm1, 96(%rsp)
	vpaddd	864(%rsp), %ymm6, %ymm1
	vmovdqu	160(%rsp), %ymm3
	vpaddd	%ymm3, %ymm1, %ymm1
	vpxor	%ymm4, %ymm1, %ymm2
	vmovdqa	.L1_v3_CPI63_5(%rip), %ymm8
	vpshufb	%ymm8, %ymm2, %ymm2
	vpaddd	%ymm0, %ymm2, %ymm0
	vpxor	%ymm3, %ymm0, %ymm3
	vpsrld	$12, %ymm3, %ymm5
	vpslld	$20, %ymm3, %ymm3
	vpor	%ymm5, %ymm3, %ymm6
	vpaddd	416(%rsp), %ymm1, %ymm1
	vpaddd	%ymm6, %ymm1, %ymm5
	vpxor	%ymm2, %ymm5, %ymm1
	vpshufb	%ymm13, %ymm1, %ymm1
	vmovdqu	%ymm1, 512(%rsp)
	vmovdqa	%ymm13, %ymm3
	vpaddd	%ymm1, %ymm0, %ymm0
	vmovdqu	%ymm0, (%rsp)
	vpxor	%ymm6, %ymm0, %ymm0
	vpsrld	$7, %ymm0, %ymm1
	vpslld	$25, %ymm0, %ymm0
	vpor	%ymm1, %ymm0, %ymm0
	vmovdqu	288(%rsp), %ymm1
	vpaddd	704(%rsp), %ymm1, %ymm1
	vmovdqu	256(%rsp), %ymm4
	vpaddd	%ymm4, %ymm1, %ymm1
	vpxor	%ymm7, %ymm1, %ymm2
	vpshufb	%ymm8, %ymm2, %ymm2
	vpaddd	32(%rsp), %ymm2, %ymm6
	vpxor	%ymm4, %ymm6, %ymm4
	vpsrld	$12, %ymm4, %ymm7
	vpslld	$20, %ymm4, %ymm4
	vpor	%ymm7, %ymm4, %ymm7
	vpaddd	448(%rsp), %ymm1, %ymm1
	vpaddd	%ymm7, %ymm1, %ymm4
	vpxor	%ymm2, %ymm4, %ymm1
	vpshufb	%ymm13, %ymm1, %ymm12
	vpaddd	%ymm6, %ymm12, %ymm6
	vpxor	%ymm7, %ymm6, %ymm1
	vpsrld	$7, %ymm1, %ymm2
	vpslld	$25, %ymm1, %ymm1
	vpor	%ymm2, %ymm1, %ymm1
	vpaddd	%ymm9, %ymm14, %ymm2
	vmovdqu	128(%rsp), %ymm9
	vpaddd	%ymm2, %ymm9, %ymm2
	vpxor	224(%rsp), %ymm2, %ymm7
	vpshufb	%ymm8, %ymm7, %ymm7
	vpaddd	192(%rsp), %ymm7, %ymm8
	vpxor	%ymm9, %ymm8, %ymm9
	vpsrld	$12, %ymm9, %ymm13
	vpslld	$20, %ymm9, %ymm9
	vpor	%ymm13, %ymm9, %ymm9
	vpaddd	%ymm2, %ymm10, %ymm2
	vpaddd	%ymm2, %ymm9, %ymm14
	vpxor	%ymm7, %ymm14, %ymm2
	vpshufb	%ymm3, %ymm2, %ymm7
	vpaddd	%ymm7, %ymm8, %ymm13
	vpxor	%ymm9, %ymm13, %ymm2
	vpsrld	$7, %ymm2, %ymm8
	vpslld	$25, %ymm2, %ymm2
	vpor	%ymm2, %ymm8, %ymm2
	vpaddd	544(%rsp), %ymm15, %ymm8
	vpaddd	%ymm0, %ymm8, %ymm8
	vpxor	%ymm7, %ymm8, %ymm7
	vmovdqa	.L1_v3_CPI63_5(%rip), %ymm10
	vpshufb	%ymm10, %ymm7, %ymm7
	vpaddd	%ymm6, %ymm7, %ymm6
	vpxor	%ymm0, %ymm6, %ymm0
	vpsrld	$12, %ymm0, %ymm9
	vpslld	$20, %ymm0, %ymm0
	vpor	%ymm0, %ymm9, %ymm0
	vpaddd	480(%rsp), %ymm8, %ymm8
	vpaddd	%ymm0, %ymm8, %ymm15
	vpxor	%ymm7, %ymm15, %ymm7
	vmovdqa	%ymm3, %ymm9
	vpshufb	%ymm3, %ymm7, %ymm7
	vmovdqu	%ymm7, 224(%rsp)
	vpaddd	%ymm7, %ymm6, %ymm6
	vmovdqu	%ymm6, 32(%rsp)
	vpxor	%ymm0, %ymm6, %ymm0
	vpsrld	$7, %ymm0, %ymm6
	vpslld	$25, %ymm0, %ymm0
	vpor	%ymm6, %ymm0, %ymm0
	vmovdqu	%ymm0, 160(%rsp)
	vpaddd	608(%rsp), %ymm5, %ymm0
	vpaddd	%ymm1, %ymm0, %ymm0
	vpxor	%ymm0, %ymm11, %ymm3
	vpshufb	%ymm10, %ymm3, %ymm3
	vpaddd	%ymm3, %ymm13, %ymm6
	vpxor	%ymm1, %ymm6, %ymm1
	vpsrld	$12, %ymm1, %ymm8
	vpslld	$20, %ymm1, %ymm1
	vpor	%ymm1, %ymm8, %ymm8
	vmovdqu	768(%rsp), %ymm7
	vpaddd	%ymm7, %ymm0, %ymm0
	vpaddd	%ymm0, %ymm8, %ymm0
	vmovdqu	%ymm0, 256(%rsp)
	vpxor	%ymm3, %ymm0, %ymm0
	vpshufb	%ymm9, %ymm0, %ymm3
	vmovdqa	%ymm9, %ymm1
	vpaddd	%ymm3, %ymm6, %ymm0
	vmovdqu	%ymm0, 192(%rsp)
	vpxor	%ymm0, %ymm8, %ymm0
	vpsrld	$7, %ymm0, %ymm6
	vpslld	$25, %ymm0, %ymm0
	vpor	%ymm6, %ymm0, %ymm0
	vmovdqu	%ymm0, 128(%rsp)
	vmovdqu	832(%rsp), %ymm9
	vpaddd	%ymm4, %ymm9, %ymm0
	vpaddd	%ymm2, %ymm0, %ymm0
	vpxor	512(%rsp), %ymm0, %ymm4
	vpshufb	%ymm10, %ymm4, %ymm5
	vpaddd	64(%rsp), %ymm5, %ymm6
	vpxor	%ymm2, %ymm6, %ymm2
	vpsrld	$12, %ymm2, %ymm4
	vpslld	$20, %ymm2, %ymm2
	vpor	%ymm4, %ymm2, %ymm8
	vmovdqu	672(%rsp), %ymm11
	vpaddd	%ymm0, %ymm11, %ymm0
	vpaddd	%ymm0, %ymm8, %ymm0
	vmovdqu	%ymm0, 288(%rsp)
	vpxor	%ymm5, %ymm0, %ymm0
	vpshufb	%ymm1, %ymm0, %ymm13
	vpaddd	%ymm6, %ymm13, %ymm1
	vpxor	%ymm1, %ymm8, %ymm5
	vpsrld	$7, %ymm5, %ymm6
	vpslld	$25, %ymm5, %ymm5
	vpor	%ymm6, %ymm5, %ymm0
	vmovdqu	%ymm0, 512(%rsp)
	vmovdqu	800(%rsp), %ymm2
	vpaddd	%ymm2, %ymm14, %ymm5
	vmovdqu	96(%rsp), %ymm0
	vpaddd	%ymm0, %ymm5, %ymm5
	vpxor	%ymm5, %ymm12, %ymm8
	vmovdqa	%ymm10, %ymm4
	vpshufb	%ymm10, %ymm8, %ymm8
	vpaddd	(%rsp), %ymm8, %ymm10
	vpxor	%ymm0, %ymm10, %ymm12
	vpsrld	$12, %ymm12, %ymm14
	vpslld	$20, %ymm12, %ymm12
	vpor	%ymm14, %ymm12, %ymm0
	vpaddd	576(%rsp), %ymm5, %ymm5
	vpaddd	%ymm0, %ymm5, %ymm14
	vpxor	%ymm8, %ymm14, %ymm5
	vbroadcasti128	.L1_v3_CPI63_12(%rip), %ymm6
	vpshufb	%ymm6, %ymm5, %ymm5
	vpaddd	%ymm5, %ymm10, %ymm12
	vpxor	%ymm0, %ymm12, %ymm0
	vpsrld	$7, %ymm0, %ymm8
	vpslld	$25, %ymm0, %ymm0
	vpor	%ymm0, %ymm8, %ymm0
	vpaddd	640(%rsp), %ymm15, %ymm8
	vpaddd	%ymm0, %ymm8, %ymm8
	vpxor	%ymm3, %ymm8, %ymm3
	vpshufb	%ymm4, %ymm3, %ymm3
	vpaddd	%ymm1, %ymm3, %ymm1
	vpxor	%ymm0, %ymm1, %ymm0
	vpsrld	$12, %ymm0, %ymm10
	vpslld	$20, %ymm0, %ymm0
	vpor	%ymm0, %ymm10, %ymm0
	vpaddd	%ymm7, %ymm8, %ymm8
	vpaddd	%ymm0, %ymm8, %ymm15
	vpxor	%ymm3, %ymm15, %ymm3
	vpshufb	%ymm6, %ymm3, %ymm3
	vmovdqu	%ymm3, 864(%rsp)
	vpaddd	%ymm3, %ymm1, %ymm1
	vmovdqu	%ymm1, 64(%rsp)
	vpxor	%ymm0, %ymm1, %ymm0
	vpsrld	$7, %ymm0, %ymm1
	vpslld	$25, %ymm0, %ymm0
	vpor	%ymm1, %ymm0, %ymm0
	vmovdqu	%ymm0, 96(%rsp)
	vpaddd	256(%rsp), %ymm2, %ymm0
	vmovdqu	160(%rsp), %ymm3
	vpaddd	%ymm3, %ymm0, %ymm0
	vpxor	%ymm0, %ymm13, %ymm1
	vmovdqa	.L1_v3_CPI63_5(%rip), %ymm8
	vpshufb	%ymm8, %ymm1, %ymm1
	vpaddd	%ymm1, %ymm12, %ymm2
	vpxor	%ymm3, %ymm2, %ymm3
	vpsrld	$12, %ymm3, %ymm7
	vpslld	$20, %ymm3, %ymm3
	vpor	%ymm7, %ymm3, %ymm7
	vpaddd	%ymm0, %ymm9, %ymm0
	vpaddd	%ymm7, %ymm0, %ymm10
	vpxor	%ymm1, %ymm10, %ymm0
	vpshufb	%ymm6, %ymm0, %ymm12
	vmovdqa	%ymm6, %ymm3
	vpaddd	%ymm2, %ymm12, %ymm0
	vmovdqu	%ymm0, (%rsp)
	vpxor	%ymm7, %ymm0, %ymm0
	vpsrld	$7, %ymm0, %ymm1
	vpslld	$25, %ymm0, %ymm0
	vpor	%ymm1, %ymm0, %ymm0
	vpaddd	288(%rsp), %ymm11, %ymm1
	vmovdqu	128(%rsp), %ymm7
	vpaddd	%ymm7, %ymm1, %ymm1
	vpxor	%ymm5, %ymm1, %ymm2
	vpshufb	%ymm8, %ymm2, %ymm2
	vpaddd	32(%rsp), %ymm2, %ymm4
	vpxor	%ymm7, %ymm4, %ymm5
	vpsrld	$12, %ymm5, %ymm7
	vpslld	$20, %ymm5, %ymm5
	vpor	%ymm7, %ymm5, %ymm5
	vpaddd	480(%rsp), %ymm1, %ymm1
	vpaddd	%ymm5, %ymm1, %ymm11
	vpxor	%ymm2, %ymm11, %ymm1
	vpshufb	%ymm6, %ymm1, %ymm1
	vmovdqu	%ymm1, 288(%rsp)
	vpaddd	%ymm1, %ymm4, %ymm4
	vpxor	%ymm5, %ymm4, %ymm1
	vpsrld	$7, %ymm1, %ymm2
	vpslld	$25, %ymm1, %ymm1
	vpor	%ymm2, %ymm1, %ymm1
	vpaddd	544(%rsp), %ymm14, %ymm2
	vmovdqu	512(%rsp), %ymm6
	vpaddd	%ymm6, %ymm2, %ymm2
	vpxor	224(%rsp), %ymm2, %ymm5
	vpshufb	%ymm8, %ymm5, %ymm5
	vmovdqa	%ymm8, %ymm7
	vpaddd	192(%rsp), %ymm5, %ymm8
	vpxor	%ymm6, %ymm8, %ymm6
	vpsrld	$12, %ymm6, %ymm13
	vpslld	$20, %ymm6, %ymm6
	vpor	%ymm6, %ymm13, %ymm6
	vpaddd	416(%rsp), %ymm2, %ymm2
	vpaddd	%ymm6, %ymm2, %ymm14
	vpxor	%ymm5, %ymm14, %ymm2
	vpshufb	%ymm3, %ymm2, %ymm13
	vpaddd	%ymm13, %ymm8, %ymm5
	vpxor	%ymm6, %ymm5, %ymm2
	vpsrld	$7, %ymm2, %ymm6
	vpslld	$25, %ymm2, %ymm2
	vpor	%ymm6, %ymm2, %ymm2
	vpaddd	704(%rsp), %ymm15, %ymm6
	vpaddd	%ymm0, %ymm6, %ymm6
	vpxor	%ymm6, %ymm13, %ymm8
	vpshufb	%ymm7, %ymm8, %ymm8
	vpaddd	%ymm4, %ymm8, %ymm4
	vpxor	%ymm0, %ymm4, %ymm0
	vpsrld	$12, %ymm0, %ymm13
	vpslld	$20, %ymm0, %ymm0
	vpor	%ymm0, %ymm13, %ymm0
	vmovdqu	608(%rsp), %ymm9
	vpaddd	%ymm6, %ymm9, %ymm6
	vpaddd	%ymm0, %ymm6, %ymm15
	vpxor	%ymm8, %ymm15, %ymm6
	vmovdqa	%ymm3, %ymm8
	vpshufb	%ymm3, %ymm6, %ymm6
	vmovdqu	%ymm6, 224(%rsp)
	vpaddd	%ymm6, %ymm4, %ymm4
	vmovdqu	%ymm4, 32(%rsp)
	vpxor	%ymm0, %ymm4, %ymm0
	vpsrld	$7, %ymm0, %ymm4
	vpslld	$25, %ymm0, %ymm0
	vpor	%ymm4, %ymm0, %ymm0
	vmovdqu	%ymm0, 160(%rsp)
	vpaddd	384(%rsp), %ymm10, %ymm0
	vpaddd	%ymm1, %ymm0, %ymm0
	vpxor	864(%rsp), %ymm0, %ymm3
	vpshufb	%ymm7, %ymm3, %ymm3
	vpaddd	%ymm5, %ymm3, %ymm4
	vpxor	%ymm1, %ymm4, %ymm1
	vpsrld	$12, %ymm1, %ymm5
	vpslld	$20, %ymm1, %ymm1
	vpor	%ymm5, %ymm1, %ymm5
	vpaddd	736(%rsp), %ymm0, %ymm0
	vpaddd	%ymm5, %ymm0, %ymm13
	vpxor	%ymm3, %ymm13, %ymm0
	vpshufb	%ymm8, %ymm0, %ymm3
	vmovdqa	%ymm8, %ymm6
	vpaddd	%ymm3, %ymm4, %ymm0
	vmovdqu	%ymm0, 192(%rsp)
	vpxor	%ymm5, %ymm0, %ymm0
	vpsrld	$7, %ymm0, %ymm4
	vpslld	$25, %ymm0, %ymm0
	vpor	%ymm4, %ymm0, %ymm0
	vmovdqu	%ymm0, 256(%rsp)
	vpaddd	576(%rsp), %ymm11, %ymm0
	vpaddd	%ymm2, %ymm0, %ymm0
	vpxor	%ymm0, %ymm12, %ymm4
	vmovdqa	%ymm7, %ymm1
	vpshufb	%ymm7, %ymm4, %ymm5
	vpaddd	64(%rsp), %ymm5, %ymm7
	vpxor	%ymm2, %ymm7, %ymm2
	vpsrld	$12, %ymm2, %ymm4
	vpslld	$20, %ymm2, %ymm2
	vpor	%ymm4, %ymm2, %ymm8
	vpaddd	352(%rsp), %ymm0, %ymm0
	vpaddd	%ymm0, %ymm8, %ymm10
	vpxor	%ymm5, %ymm10, %ymm0
	vpshufb	%ymm6, %ymm0, %ymm2
	vpaddd	%ymm2, %ymm7, %ymm5
	vpxor	%ymm5, %ymm8, %ymm0
	vpsrld	$7, %ymm0, %ymm7
	vpslld	$25, %ymm0, %ymm0
	vpor	%ymm7, %ymm0, %ymm0
	vmovdqu	%ymm0, 128(%rsp)
	vpaddd	320(%rsp), %ymm14, %ymm0
	vmovdqu	96(%rsp), %ymm4
	vpaddd	%ymm4, %ymm0, %ymm0
	vpxor	288(%rsp), %ymm0, %ymm7
	vpshufb	%ymm1, %ymm7, %ymm7
	vmovdqa	%ymm1, %ymm6
	vpaddd	(%rsp), %ymm7, %ymm8
	vpxor	%ymm4, %ymm8, %ymm11
	vpsrld	$12, %ymm11, %ymm12
	vpslld	$20, %ymm11, %ymm11
	vpor	%ymm12, %ymm11, %ymm11
	vmovdqu	448(%rsp), %ymm1
	vpaddd	%ymm1, %ymm0, %ymm0
	vpaddd	%ymm0, %ymm11, %ymm14
	vpxor	%ymm7, %ymm14, %ymm0
	vbroadcasti128	.L1_v3_CPI63_12(%rip), %ymm4
	vpshufb	%ymm4, %ymm0, %ymm7
	vpaddd	%ymm7, %ymm8, %ymm0
	vpxor	%ymm0, %ymm11, %ymm8
	vpsrld	$7, %ymm8, %ymm11
	vpslld	$25, %ymm8, %ymm8
	vpor	%ymm11, %ymm8, %ymm8
	vpaddd	480(%rsp), %ymm15, %ymm11
	vpaddd	%ymm8, %ymm11, %ymm11
	vpxor	%ymm3, %ymm11, %ymm3
	vpshufb	%ymm6, %ymm3, %ymm3
	vpaddd	%ymm5, %ymm3, %ymm5
	vpxor	%ymm5, %ymm8, %ymm8
	vpsrld	$12, %ymm8, %ymm12
	vpslld	$20, %ymm8, %ymm8
	vpor	%ymm12, %ymm8, %ymm8
	vpaddd	%ymm1, %ymm11, %ymm11
	vpaddd	%ymm8, %ymm11, %ymm15
	vpxor	%ymm3, %ymm15, %ymm3
	vmovdqa	%ymm4, %ymm12
	vpshufb	%ymm4, %ymm3, %ymm11
	vpaddd	%ymm5, %ymm11, %ymm1
	vmovdqu	%ymm1, (%rsp)
	vpxor	%ymm1, %ymm8, %ymm3
	vpsrld	$7, %ymm3, %ymm5
	vpslld	$25, %ymm3, %ymm3
	vpor	%ymm5, %ymm3, %ymm1
	vmovdqu	%ymm1, 96(%rsp)
	vpaddd	%ymm9, %ymm13, %ymm1
	vmovdqu	160(%rsp), %ymm5
	vpaddd	%ymm5, %ymm1, %ymm1
	vpxor	%ymm2, %ymm1, %ymm2
	vmovdqa	%ymm6, %ymm8
	vpshufb	%ymm6, %ymm2, %ymm3
	vpaddd	%ymm0, %ymm3, %ymm0
	vpxor	%ymm5, %ymm0, %ymm2
	vpsrld	$12, %ymm2, %ymm5
	vpslld	$20, %ymm2, %ymm2
	vpor	%ymm5, %ymm2, %ymm6
	vpaddd	672(%rsp), %ymm1, %ymm1
	vpaddd	%ymm6, %ymm1, %ymm2
	vpxor	%ymm3, %ymm2, %ymm1
	vpshufb	%ymm4, %ymm1, %ymm3
	vpaddd	%ymm3, %ymm0, %ymm0
	vmovdqu	%ymm0, 64(%rsp)
	vpxor	%ymm6, %ymm0, %ymm0
	vpsrld	$7, %ymm0, %ymm1
	vpslld	$25, %ymm0, %ymm0
	vpor	%ymm1, %ymm0, %ymm1
	vpaddd	640(%rsp), %ymm10, %ymm0
	vmovdqu	256(%rsp), %ymm5
	vpaddd	%ymm5, %ymm0, %ymm0
	vpxor	%ymm7, %ymm0, %ymm4
	vpshufb	%ymm8, %ymm4, %ymm6
	vmovdqa	%ymm8, %ymm9
	vpaddd	32(%rsp), %ymm6, %ymm7
	vpxor	%ymm5, %ymm7, %ymm4
	vpsrld	$12, %ymm4, %ymm8
	vpslld	$20, %ymm4, %ymm4
	vpor	%ymm4, %ymm8, %ymm8
	vpaddd	800(%rsp), %ymm0, %ymm0
	vpaddd	%ymm0, %ymm8, %ymm4
	vpxor	%ymm6, %ymm4, %ymm0
	vpshufb	%ymm12, %ymm0, %ymm5
	vpaddd	%ymm5, %ymm7, %ymm6
	vpxor	%ymm6, %ymm8, %ymm0
	vpsrld	$7, %ymm0, %ymm7
	vpslld	$25, %ymm0, %ymm0
	vpor	%ymm7, %ymm0, %ymm7
	vpaddd	736(%rsp), %ymm14, %ymm0
	vmovdqu	128(%rsp), %ymm14
	vpaddd	%ymm0, %ymm14, %ymm0
	vpxor	224(%rsp), %ymm0, %ymm8
	vpshufb	%ymm9, %ymm8, %ymm8
	vmovdqa	%ymm9, %ymm10
	vpaddd	192(%rsp), %ymm8, %ymm13
	vpxor	%ymm14, %ymm13, %ymm9
	vpsrld	$12, %ymm9, %ymm14
	vpslld	$20, %ymm9, %ymm9
	vpor	%ymm14, %ymm9, %ymm9
	vpaddd	576(%rsp), %ymm0, %ymm0
	vpaddd	%ymm0, %ymm9, %ymm14
	vpxor	%ymm8, %ymm14, %ymm0
	vpshufb	%ymm12, %ymm0, %ymm8
	vpaddd	%ymm8, %ymm13, %ymm0
	vpxor	%ymm0, %ymm9, %ymm9
	vpsrld	$7, %ymm9, %ymm13
	vpslld	$25, %ymm9, %ymm9
	vpor	%ymm13, %ymm9, %ymm13
	vpaddd	768(%rsp), %ymm15, %ymm9
	vpaddd	%ymm1, %ymm9, %ymm9
	vpxor	%ymm8, %ymm9, %ymm8
	vpshufb	%ymm10, %ymm8, %ymm8
	vpaddd	%ymm6, %ymm8, %ymm6
	vpxor	%ymm1, %ymm6, %ymm1
	vpsrld	$12, %ymm1, %ymm15
	vpslld	$20, %ymm1, %ymm1
	vpor	%ymm1, %ymm15, %ymm1
	vpaddd	704(%rsp), %ymm9, %ymm9
	vpaddd	%ymm1, %ymm9, %ymm15
	vpxor	%ymm8, %ymm15, %ymm8
	vpshufb	%ymm12, %ymm8, %ymm8
	vmovdqu	%ymm8, 224(%rsp)
	vpaddd	%ymm6, %ymm8, %ymm6
	vmovdqu	%ymm6, 32(%rsp)
	vpxor	%ymm1, %ymm6, %ymm1
	vpsrld	$7, %ymm1, %ymm8
	vpslld	$25, %ymm1, %ymm1
	vpor	%ymm1, %ymm8, %ymm1
	vmovdqu	%ymm1, 160(%rsp)
	vmovdqu	832(%rsp), %ymm6
	vpaddd	%ymm6, %ymm2, %ymm1
	vpaddd	%ymm7, %ymm1, %ymm1
	vpxor	%ymm1, %ymm11, %ymm2
	vpshufb	%ymm10, %ymm2, %ymm8
	vpaddd	%ymm0, %ymm8, %ymm11
	vpxor	%ymm7, %ymm11, %ymm0
	vpsrld	$12, %ymm0, %ymm2
	vpslld	$20, %ymm0, %ymm0
	vpor	%ymm2, %ymm0, %ymm7
	vpaddd	544(%rsp), %ymm1, %ymm0
	vpaddd	%ymm7, %ymm0, %ymm9
	vpxor	%ymm8, %ymm9, %ymm0
	vpshufb	%ymm12, %ymm0, %ymm8
	vpaddd	%ymm8, %ymm11, %ymm0
	vmovdqu	%ymm0, 192(%rsp)
	vpxor	%ymm7, %ymm0, %ymm1
	vpsrld	$7, %ymm1, %ymm7
	vpslld	$25, %ymm1, %ymm1
	vpor	%ymm7, %ymm1, %ymm0
	vmovdqu	%ymm0, 128(%rsp)
	vpaddd	320(%rsp), %ymm4, %ymm1
	vpaddd	%ymm1, %ymm13, %ymm1
	vpxor	%ymm3, %ymm1, %ymm3
	vpshufb	%ymm10, %ymm3, %ymm4
	vpaddd	(%rsp), %ymm4, %ymm7
	vpxor	%ymm7, %ymm13, %ymm3
	vpsrld	$12, %ymm3, %ymm12
	vpslld	$20, %ymm3, %ymm3
	vpor	%ymm3, %ymm12, %ymm0
	vmovdqu	384(%rsp), %ymm2
	vpaddd	%ymm2, %ymm1, %ymm1
	vpaddd	%ymm0, %ymm1, %ymm11
	vpxor	%ymm4, %ymm11, %ymm1
	vbroadcasti128	.L1_v3_CPI63_12(%rip), %ymm3
	vpshufb	%ymm3, %ymm1, %ymm13
	vpaddd	%ymm7, %ymm13, %ymm12
	vpxor	%ymm0, %ymm12, %ymm0
	vpsrld	$7, %ymm0, %ymm1
	vpslld	$25, %ymm0, %ymm0
	vpor	%ymm1, %ymm0, %ymm0
	vmovdqu	%ymm0, 256(%rsp)
	vpaddd	352(%rsp), %ymm14, %ymm0
	vmovdqu	96(%rsp), %ymm7
	vpaddd	%ymm7, %ymm0, %ymm0
	vpxor	%ymm5, %ymm0, %ymm1
	vpshufb	%ymm10, %ymm1, %ymm1
	vmovdqa	%ymm10, %ymm4
	vpaddd	64(%rsp), %ymm1, %ymm5
	vpxor	%ymm7, %ymm5, %ymm7
	vpsrld	$12, %ymm7, %ymm10
	vpslld	$20, %ymm7, %ymm7
	vpor	%ymm7, %ymm10, %ymm7
	vpaddd	416(%rsp), %ymm0, %ymm0
	vpaddd	%ymm7, %ymm0, %ymm14
	vpxor	%ymm1, %ymm14, %ymm0
	vpshufb	%ymm3, %ymm0, %ymm1
	vpaddd	%ymm1, %ymm5, %ymm5
	vpxor	%ymm7, %ymm5, %ymm0
	vpsrld	$7, %ymm0, %ymm7
	vpslld	$25, %ymm0, %ymm0
	vpor	%ymm7, %ymm0, %ymm0
	vpaddd	%ymm2, %ymm15, %ymm7
	vpaddd	%ymm0, %ymm7, %ymm7
	vpxor	%ymm7, %ymm8, %ymm2
	vpshufb	%ymm4, %ymm2, %ymm2
	vpaddd	%ymm2, %ymm12, %ymm12
	vpxor	%ymm0, %ymm12, %ymm0
	vpsrld	$12, %ymm0, %ymm10
	vpslld	$20, %ymm0, %ymm0
	vpor	%ymm0, %ymm10, %ymm0
	vpaddd	%ymm6, %ymm7, %ymm7
	vpaddd	%ymm0, %ymm7, %ymm15
	vpxor	%ymm2, %ymm15, %ymm2
	vpshufb	%ymm3, %ymm2, %ymm10
	vpaddd	%ymm10, %ymm12, %ymm2
	vmovdqu	%ymm2, 64(%rsp)
	vpxor	%ymm0, %ymm2, %ymm0
	vpsrld	$7, %ymm0, %ymm2
	vpslld	$25, %ymm0, %ymm0
	vpor	%ymm2, %ymm0, %ymm0
	vmovdqu	%ymm0, 96(%rsp)
	vpaddd	672(%rsp), %ymm9, %ymm0
	vmovdqu	160(%rsp), %ymm7
	vpaddd	%ymm7, %ymm0, %ymm0
	vpxor	%ymm0, %ymm13, %ymm2
	vpshufb	%ymm4, %ymm2, %ymm6
	vpaddd	%ymm5, %ymm6, %ymm5
	vpxor	%ymm7, %ymm5, %ymm2
	vpsrld	$12, %ymm2, %ymm7
	vpslld	$20, %ymm2, %ymm2
	vpor	%ymm7, %ymm2, %ymm7
	vpaddd	576(%rsp), %ymm0, %ymm0
	vpaddd	%ymm7, %ymm0, %ymm2
	vpxor	%ymm6, %ymm2, %ymm0
	vmovdqa	%ymm3, %ymm12
	vpshufb	%ymm3, %ymm0, %ymm9
	vpaddd	%ymm5, %ymm9, %ymm0
	vmovdqu	%ymm0, (%rsp)
	vpxor	%ymm7, %ymm0, %ymm0
	vpsrld	$7, %ymm0, %ymm6
	vpslld	$25, %ymm0, %ymm0
	vpor	%ymm6, %ymm0, %ymm13
	vpaddd	448(%rsp), %ymm11, %ymm0
	vmovdqu	128(%rsp), %ymm5
	vpaddd	%ymm5, %ymm0, %ymm0
	vpxor	%ymm1, %ymm0, %ymm1
	vpshufb	%ymm4, %ymm1, %ymm1
	vmovdqa	%ymm4, %ymm11
	vpaddd	32(%rsp), %ymm1, %ymm3
	vpxor	%ymm5, %ymm3, %ymm6
	vpsrld	$12, %ymm6, %ymm7
	vpslld	$20, %ymm6, %ymm6
	vpor	%ymm7, %ymm6, %ymm7
	vpaddd	736(%rsp), %ymm0, %ymm0
	vpaddd	%ymm7, %ymm0, %ymm5
	vpxor	%ymm1, %ymm5, %ymm1
	vpshufb	%ymm12, %ymm1, %ymm0
	vmovdqu	%ymm0, 160(%rsp)
	vpaddd	%ymm0, %ymm3, %ymm6
	vpxor	%ymm7, %ymm6, %ymm1
	vpsrld	$7, %ymm1, %ymm3
	vpslld	$25, %ymm1, %ymm1
	vpor	%ymm3, %ymm1, %ymm1
	vpaddd	704(%rsp), %ymm14, %ymm3
	vmovdqu	256(%rsp), %ymm0
	vpaddd	%ymm0, %ymm3, %ymm3
	vpxor	224(%rsp), %ymm3, %ymm7
	vpshufb	%ymm4, %ymm7, %ymm7
	vpaddd	192(%rsp), %ymm7, %ymm8
	vpxor	%ymm0, %ymm8, %ymm4
	vpsrld	$12, %ymm4, %ymm14
	vpslld	$20, %ymm4, %ymm4
	vpor	%ymm4, %ymm14, %ymm4
	vpaddd	320(%rsp), %ymm3, %ymm3
	vpaddd	%ymm4, %ymm3, %ymm14
	vpxor	%ymm7, %ymm14, %ymm3
	vpshufb	%ymm12, %ymm3, %ymm0
	vpaddd	%ymm0, %ymm8, %ymm7
	vpxor	%ymm4, %ymm7, %ymm3
	vpsrld	$7, %ymm3, %ymm4
	vpslld	$25, %ymm3, %ymm3
	vpor	%ymm4, %ymm3, %ymm3
	vpaddd	640(%rsp), %ymm15, %ymm4
	vpaddd	%ymm4, %ymm13, %ymm4
	vpxor	%ymm0, %ymm4, %ymm0
	vpshufb	%ymm11, %ymm0, %ymm0
	vpaddd	%ymm6, %ymm0, %ymm6
	vpxor	%ymm6, %ymm13, %ymm8
	vpsrld	$12, %ymm8, %ymm13
	vpslld	$20, %ymm8, %ymm8
	vpor	%ymm13, %ymm8, %ymm8
	vpaddd	352(%rsp), %ymm4, %ymm4
	vpaddd	%ymm4, %ymm8, %ymm15
	vpxor	%ymm0, %ymm15, %ymm0
	vpshufb	%ymm12, %ymm0, %ymm0
	vmovdqu	%ymm0, 224(%rsp)
	vpaddd	%ymm0, %ymm6, %ymm0
	vmovdqu	%ymm0, 32(%rsp)
	vpxor	%ymm0, %ymm8, %ymm0
	vpsrld	$7, %ymm0, %ymm4
	vpslld	$25, %ymm0, %ymm0
	vpor	%ymm4, %ymm0, %ymm0
	vmovdqu	%ymm0, 128(%rsp)
	vpaddd	480(%rsp), %ymm2, %ymm0
	vpaddd	%ymm1, %ymm0, %ymm0
	vpxor	%ymm0, %ymm10, %ymm2
	vpshufb	%ymm11, %ymm2, %ymm2
	vpaddd	%ymm7, %ymm2, %ymm7
	vpxor	%ymm1, %ymm7, %ymm1
	vpsrld	$12, %ymm1, %ymm8
	vpslld	$20, %ymm1, %ymm1
	vpor	%ymm1, %ymm8, %ymm8
	vpaddd	608(%rsp), %ymm0, %ymm0
	vpaddd	%ymm0, %ymm8, %ymm4
	vpxor	%ymm2, %ymm4, %ymm0
	vpshufb	%ymm12, %ymm0, %ymm2
	vpaddd	%ymm2, %ymm7, %ymm0
	vmovdqu	%ymm0, 192(%rsp)
	vpxor	%ymm0, %ymm8, %ymm0
	vpsrld	$7, %ymm0, %ymm7
	vpslld	$25, %ymm0, %ymm0
	vpor	%ymm7, %ymm0, %ymm10
	vpaddd	800(%rsp), %ymm5, %ymm0
	vpaddd	%ymm3, %ymm0, %ymm0
	vpxor	%ymm0, %ymm9, %ymm5
	vpshufb	%ymm11, %ymm5, %ymm5
	vpaddd	64(%rsp), %ymm5, %ymm7
	vpxor	%ymm3, %ymm7, %ymm3
	vpsrld	$12, %ymm3, %ymm8
	vpslld	$20, %ymm3, %ymm3
	vpor	%ymm3, %ymm8, %ymm8
	vmovdqu	544(%rsp), %ymm6
	vpaddd	%ymm6, %ymm0, %ymm0
	vpaddd	%ymm0, %ymm8, %ymm9
	vpxor	%ymm5, %ymm9, %ymm3
	vpshufb	%ymm12, %ymm3, %ymm3
	vpaddd	%ymm3, %ymm7, %ymm12
	vpxor	%ymm8, %ymm12, %ymm5
	vpsrld	$7, %ymm5, %ymm7
	vpslld	$25, %ymm5, %ymm5
	vpor	%ymm7, %ymm5, %ymm0
	vmovdqu	%ymm0, 64(%rsp)
	vmovdqu	416(%rsp), %ymm0
	vpaddd	%ymm0, %ymm14, %ymm5
	vmovdqu	96(%rsp), %ymm13
	vpaddd	%ymm5, %ymm13, %ymm5
	vpxor	160(%rsp), %ymm5, %ymm7
	vpshufb	%ymm11, %ymm7, %ymm7
	vpaddd	(%rsp), %ymm7, %ymm8
	vpxor	%ymm13, %ymm8, %ymm11
	vpsrld	$12, %ymm11, %ymm14
	vpslld	$20, %ymm11, %ymm11
	vpor	%ymm14, %ymm11, %ymm14
	vpaddd	768(%rsp), %ymm5, %ymm5
	vpaddd	%ymm5, %ymm14, %ymm13
	vpxor	%ymm7, %ymm13, %ymm7
	vbroadcasti128	.L1_v3_CPI63_12(%rip), %ymm1
	vpshufb	%ymm1, %ymm7, %ymm7
	vpaddd	%ymm7, %ymm8, %ymm11
	vpxor	%ymm14, %ymm11, %ymm8
	vpsrld	$7, %ymm8, %ymm14
	vpslld	$25, %ymm8, %ymm8
	vpor	%ymm14, %ymm8, %ymm8
	vpaddd	%ymm0, %ymm15, %ymm14
	vpaddd	%ymm8, %ymm14, %ymm14
	vpxor	%ymm2, %ymm14, %ymm2
	vmovdqa	.L1_v3_CPI63_5(%rip), %ymm5
	vpshufb	%ymm5, %ymm2, %ymm2
	vpaddd	%ymm2, %ymm12, %ymm12
	vpxor	%ymm8, %ymm12, %ymm8
	vpsrld	$12, %ymm8, %ymm15
	vpslld	$20, %ymm8, %ymm8
	vpor	%ymm15, %ymm8, %ymm8
	vpaddd	352(%rsp), %ymm14, %ymm14
	vpaddd	%ymm8, %ymm14, %ymm14
	vpxor	%ymm2, %ymm14, %ymm2
	vpshufb	%ymm1, %ymm2, %ymm15
	vpaddd	%ymm15, %ymm12, %ymm2
	vmovdqu	%ymm2, 416(%rsp)
	vpxor	%ymm2, %ymm8, %ymm2
	vpsrld	$7, %ymm2, %ymm8
	vpslld	$25, %ymm2, %ymm2
	vpor	%ymm2, %ymm8, %ymm2
	vmovdqu	%ymm2, 352(%rsp)
	vpaddd	320(%rsp), %ymm4, %ymm1
	vmovdqu	128(%rsp), %ymm4
	vpaddd	%ymm4, %ymm1, %ymm1
	vpxor	%ymm3, %ymm1, %ymm2
	vpshufb	%ymm5, %ymm2, %ymm2
	vpaddd	%ymm2, %ymm11, %ymm8
	vpxor	%ymm4, %ymm8, %ymm3
	vpsrld	$12, %ymm3, %ymm4
	vpslld	$20, %ymm3, %ymm3
	vpor	%ymm4, %ymm3, %ymm11
	vpaddd	%ymm6, %ymm1, %ymm1
	vpaddd	%ymm1, %ymm11, %ymm12
	vpxor	%ymm2, %ymm12, %ymm1
	vbroadcasti128	.L1_v3_CPI63_12(%rip), %ymm3
	vpshufb	%ymm3, %ymm1, %ymm0
	vmovdqu	%ymm0, 544(%rsp)
	vpaddd	%ymm0, %ymm8, %ymm0
	vmovdqu	%ymm0, 320(%rsp)
	vpxor	%ymm0, %ymm11, %ymm1
	vpsrld	$7, %ymm1, %ymm2
	vpslld	$25, %ymm1, %ymm1
	vpor	%ymm2, %ymm1, %ymm2
	vpaddd	608(%rsp), %ymm9, %ymm0
	vpaddd	%ymm0, %ymm10, %ymm0
	vpxor	%ymm7, %ymm0, %ymm1
	vpshufb	%ymm5, %ymm1, %ymm1
	vmovdqa	%ymm5, %ymm9
	vpaddd	32(%rsp), %ymm1, %ymm7
	vpxor	%ymm7, %ymm10, %ymm6
	vpsrld	$12, %ymm6, %ymm8
	vpslld	$20, %ymm6, %ymm6
	vpor	%ymm6, %ymm8, %ymm8
	vpaddd	384(%rsp), %ymm0, %ymm0
	vpaddd	%ymm0, %ymm8, %ymm10
	vpxor	%ymm1, %ymm10, %ymm0
	vpshufb	%ymm3, %ymm0, %ymm6
	vpaddd	%ymm6, %ymm7, %ymm11
	vpxor	%ymm8, %ymm11, %ymm0
	vpsrld	$7, %ymm0, %ymm1
	vpslld	$25, %ymm0, %ymm0
	vpor	%ymm1, %ymm0, %ymm1
	vpaddd	800(%rsp), %ymm13, %ymm0
	vmovdqu	64(%rsp), %ymm4
	vpaddd	%ymm4, %ymm0, %ymm0
	vpxor	224(%rsp), %ymm0, %ymm5
	vmovdqa	%ymm9, %ymm3
	vpshufb	%ymm9, %ymm5, %ymm5
	vpaddd	192(%rsp), %ymm5, %ymm7
	vpxor	%ymm4, %ymm7, %ymm8
	vpsrld	$12, %ymm8, %ymm9
	vpslld	$20, %ymm8, %ymm8
	vpor	%ymm9, %ymm8, %ymm8
	vpaddd	768(%rsp), %ymm0, %ymm0
	vpaddd	%ymm0, %ymm8, %ymm9
	vpxor	%ymm5, %ymm9, %ymm0
	vbroadcasti128	.L1_v3_CPI63_12(%rip), %ymm4
	vpshufb	%ymm4, %ymm0, %ymm5
	vpaddd	%ymm5, %ymm7, %ymm0
	vpxor	%ymm0, %ymm8, %ymm7
	vpsrld	$7, %ymm7, %ymm8
	vpslld	$25, %ymm7, %ymm7
	vpor	%ymm7, %ymm8, %ymm7
	vpaddd	832(%rsp), %ymm14, %ymm8
	vpaddd	%ymm2, %ymm8, %ymm8
	vpxor	%ymm5, %ymm8, %ymm5
	vpshufb	%ymm3, %ymm5, %ymm5
	vpaddd	%ymm5, %ymm11, %ymm11
	vpxor	%ymm2, %ymm11, %ymm2
	vpsrld	$12, %ymm2, %ymm13
	vpslld	$20, %ymm2, %ymm2
	vpor	%ymm2, %ymm13, %ymm2
	vpaddd	448(%rsp), %ymm8, %ymm8
	vpaddd	%ymm2, %ymm8, %ymm13
	vpxor	%ymm5, %ymm13, %ymm5
	vpshufb	%ymm4, %ymm5, %ymm3
	vmovdqu	%ymm3, 384(%rsp)
	vpaddd	%ymm3, %ymm11, %ymm14
	vpxor	%ymm2, %ymm14, %ymm2
	vpsrld	$7, %ymm2, %ymm5
	vpslld	$25, %ymm2, %ymm2
	vpor	%ymm5, %ymm2, %ymm2
	vmovdqu	%ymm2, 448(%rsp)
	vpaddd	576(%rsp), %ymm12, %ymm2
	vpaddd	%ymm1, %ymm2, %ymm2
	vpxor	%ymm2, %ymm15, %ymm3
	vmovdqa	.L1_v3_CPI63_5(%rip), %ymm8
	vpshufb	%ymm8, %ymm3, %ymm3
	vpaddd	%ymm0, %ymm3, %ymm0
	vpxor	%ymm1, %ymm0, %ymm1
	vpsrld	$12, %ymm1, %ymm11
	vpslld	$20, %ymm1, %ymm1
	vpor	%ymm1, %ymm11, %ymm11
	vpaddd	672(%rsp), %ymm2, %ymm1
	vpaddd	%ymm1, %ymm11, %ymm15
	vpxor	%ymm3, %ymm15, %ymm1
	vpshufb	%ymm4, %ymm1, %ymm5
	vpaddd	%ymm5, %ymm0, %ymm1
	vpxor	%ymm1, %ymm11, %ymm2
	vpsrld	$7, %ymm2, %ymm3
	vpslld	$25, %ymm2, %ymm2
	vpor	%ymm3, %ymm2, %ymm11
	vpaddd	736(%rsp), %ymm10, %ymm2
	vpaddd	%ymm7, %ymm2, %ymm2
	vpxor	544(%rsp), %ymm2, %ymm3
	vpshufb	%ymm8, %ymm3, %ymm3
	vpaddd	416(%rsp), %ymm3, %ymm12
	vpxor	%ymm7, %ymm12, %ymm4
	vpsrld	$12, %ymm4, %ymm7
	vpslld	$20, %ymm4, %ymm4
	vpor	%ymm7, %ymm4, %ymm7
	vpaddd	640(%rsp), %ymm2, %ymm2
	vpaddd	%ymm7, %ymm2, %ymm10
	vpxor	%ymm3, %ymm10, %ymm2
	vbroadcasti128	.L1_v3_CPI63_12(%rip), %ymm8
	vpshufb	%ymm8, %ymm2, %ymm4
	vpaddd	%ymm4, %ymm12, %ymm2
	vpxor	%ymm7, %ymm2, %ymm3
	vpsrld	$7, %ymm3, %ymm7
	vpslld	$25, %ymm3, %ymm3
	vpor	%ymm7, %ymm3, %ymm7
	vpaddd	480(%rsp), %ymm9, %ymm3
	vmovdqu	352(%rsp), %ymm0
	vpaddd	%ymm0, %ymm3, %ymm3
	vpxor	%ymm6, %ymm3, %ymm6
	vpshufb	.L1_v3_CPI63_5(%rip), %ymm6, %ymm6
	vpaddd	320(%rsp), %ymm6, %ymm9
	vpxor	%ymm0, %ymm9, %ymm12
	vpsrld	$12, %ymm12, %ymm0
	vpslld	$20, %ymm12, %ymm12
	vpor	%ymm0, %ymm12, %ymm0
	vpaddd	704(%rsp), %ymm3, %ymm3
	vpaddd	%ymm0, %ymm3, %ymm3
	vpxor	%ymm6, %ymm3, %ymm6
	vpshufb	%ymm8, %ymm6, %ymm6
	vpaddd	%ymm6, %ymm9, %ymm9
	vpxor	%ymm0, %ymm9, %ymm0
	vpsrld	$7, %ymm0, %ymm12
	vpslld	$25, %ymm0, %ymm0
	vpor	%ymm0, %ymm12, %ymm0
	vpxor	1120(%rsp), %ymm13, %ymm12
	vpxor	%ymm2, %ymm12, %ymm2
	vpxor	1024(%rsp), %ymm9, %ymm9
	vpxor	%ymm9, %ymm15, %ymm9
	vpxor	960(%rsp), %ymm14, %ymm12
	vpxor	%ymm12, %ymm10, %ymm10
	vpxor	928(%rsp), %ymm3, %ymm3
	vpxor	%ymm1, %ymm3, %ymm1
	vpxor	1088(%rsp), %ymm0, %ymm0
	vpxor	%ymm5, %ymm0, %ymm0
	vmovdqu	448(%rsp), %ymm3
	vpxor	1056(%rsp), %ymm3, %ymm3
	vpxor	%ymm4, %ymm3, %ymm3
	vpxor	992(%rsp), %ymm6, %ymm4
	vpxor	%ymm4, %ymm11, %ymm4
	vmovdqu	384(%rsp), %ymm5
	vpxor	896(%rsp), %ymm5, %ymm5
	vpxor	%ymm5, %ymm7, %ymm5
	vmovdqu	%ymm2, (%rdi)
	vmovdqu	%ymm9, 32(%rdi)
	vmovdqu	%ymm10, 64(%rdi)
	vmovdqu	%ymm1, 96(%rdi)
	vmovdqu	%ymm0, 128(%rdi)
	vmovdqu	%ymm3, 160(%rdi)
	vmovdqu	%ymm4, 192(%rdi)
	vmovdqu	%ymm5, 224(%rdi)
	addq	$1160, %rsp
	popq	%rbx
	popq	%r14
	vzeroupper
	retq
	vj_end	blake2_compress..many..blake2s..compress_each_1_v3

	vj_function	blake2_parallel..lanes..blake2sp..outputs_of_1_v3
	pushq	%rbp
	pushq	%r15
	pushq	%r14
	pushq	%r13
	pushq	%r12
	pushq	%rbx
	subq	$104, %rsp
	movl	64(%rsi), %r15d
	movl	96(%rsi), %r12d
	vmovdqu	128(%rsi), %xmm9
	movl	192(%rsi), %ebp
	movl	224(%rsi), %r14d
	vmovdqu	(%rsi), %xmm13
	vmovups	16(%rsi), %xmm0
	vmovaps	%xmm0, 80(%rsp)
	vmovups	32(%rsi), %xmm0
	vmovaps	%xmm0, 32(%rsp)
	vmovdqu	48(%rsi), %xmm8
	vpinsrd	$1, 32(%rsi), %xmm13, %xmm0
	vpinsrd	$2, %r15d, %xmm0, %xmm0
	vpinsrd	$3, %r12d, %xmm0, %xmm3
	vpinsrd	$1, 160(%rsi), %xmm9, %xmm0
	vmovdqa	%xmm0, 16(%rsp)
	vmovups	64(%rsi), %xmm12
	vmovdqu	160(%rsi), %xmm15
	vmovups	192(%rsi), %xmm10
	movzbl	124(%rsi), %eax
	movb	%al, 15(%rsp)
	movzbl	120(%rsi), %eax
	movb	%al, 14(%rsp)
	movzbl	116(%rsi), %r9d
	vmovdqu	112(%rsi), %xmm2
	movzbl	112(%rsi), %r11d
	vmovdqu	176(%rsi), %xmm5
	vmovups	208(%rsi), %xmm6
	movzbl	104(%rsi), %edx
	vmovdqu	96(%rsi), %xmm0
	movzbl	100(%rsi), %eax
	movzbl	232(%rsi), %r13d
	vmovdqu	224(%rsi), %xmm1
	movzbl	228(%rsi), %ecx
	movzbl	248(%rsi), %r8d
	movb	%r8b, 13(%rsp)
	movzbl	244(%rsi), %r10d
	vmovdqu	240(%rsi), %xmm4
	movzbl	240(%rsi), %ebx
	movl	252(%rsi), %r8d
	vmovdqu	144(%rsi), %xmm11
	vbroadcastss	24(%rsi), %xmm7
	vmovaps	%xmm7, 48(%rsp)
	vmovups	80(%rsi), %xmm7
	vbroadcastss	152(%rsi), %xmm14
	vmovaps	%xmm14, 64(%rsp)
	vmovq	%xmm3, (%rdi)
	movl	%r15d, 8(%rdi)
	movb	%r12b, 12(%rdi)
	vpextrb	$13, %xmm3, 13(%rdi)
	vpextrb	$14, %xmm3, 14(%rdi)
	vpextrb	$15, %xmm3, 15(%rdi)
	vmovdqa	16(%rsp), %xmm3
	vpinsrd	$2, %ebp, %xmm3, %xmm3
	vpinsrd	$3, %r14d, %xmm3, %xmm3
	vmovq	%xmm3, 16(%rdi)
	movl	%ebp, 24(%rdi)
	movb	%r14b, 28(%rdi)
	vpextrb	$13, %xmm3, 29(%rdi)
	vpextrb	$14, %xmm3, 30(%rdi)
	vpextrb	$15, %xmm3, 31(%rdi)
	vpshufd	$85, %xmm13, %xmm3
	vmovdqa	32(%rsp), %xmm14
	vpblendd	$2, %xmm14, %xmm3, %xmm3
	vmovq	%xmm3, 32(%rdi)
	vextractps	$1, %xmm12, 40(%rdi)
	movb	%al, 44(%rdi)
	vpextrb	$5, %xmm0, 45(%rdi)
	vpextrb	$6, %xmm0, 46(%rdi)
	vpextrb	$7, %xmm0, 47(%rdi)
	vpshufd	$85, %xmm9, %xmm3
	vpblendd	$2, %xmm15, %xmm3, %xmm3
	vmovq	%xmm3, 48(%rdi)
	vextractps	$1, %xmm10, 56(%rdi)
	movb	%cl, 60(%rdi)
	vpextrb	$5, %xmm1, 61(%rdi)
	vpextrb	$6, %xmm1, 62(%rdi)
	vpextrb	$7, %xmm1, 63(%rdi)
	vpunpckhdq	%xmm14, %xmm13, %xmm3
	vmovq	%xmm3, 64(%rdi)
	vextractps	$2, %xmm12, 72(%rdi)
	movb	%dl, 76(%rdi)
	vpextrb	$9, %xmm0, 77(%rdi)
	vpextrb	$10, %xmm0, 78(%rdi)
	vpextrb	$11, %xmm0, 79(%rdi)
	vpunpckhdq	%xmm15, %xmm9, %xmm9
	vmovq	%xmm9, 80(%rdi)
	vextractps	$2, %xmm10, 88(%rdi)
	movb	%r13b, 92(%rdi)
	vpextrb	$9, %xmm1, 93(%rdi)
	vpextrb	$10, %xmm1, 94(%rdi)
	vpextrb	$11, %xmm1, 95(%rdi)
	vpextrq	$1, %xmm3, 96(%rdi)
	vextractps	$3, %xmm12, 104(%rdi)
	vpextrb	$12, %xmm0, 108(%rdi)
	vpextrb	$13, %xmm0, 109(%rdi)
	vpextrb	$14, %xmm0, 110(%rdi)
	vpextrb	$15, %xmm0, 111(%rdi)
	vpextrq	$1, %xmm9, 112(%rdi)
	vextractps	$3, %xmm10, 120(%rdi)
	vpextrd	$3, %xmm8, %eax
	vpextrb	$12, %xmm1, 124(%rdi)
	vpextrb	$13, %xmm1, 125(%rdi)
	vpextrb	$14, %xmm1, 126(%rdi)
	vpextrb	$15, %xmm1, 127(%rdi)
	vmovd	%xmm8, %ecx
	vmovdqa	80(%rsp), %xmm1
	vpinsrd	$1, %ecx, %xmm1, %xmm0
	vmovd	%xmm5, %ecx
	vmovq	%xmm0, 128(%rdi)
	vpinsrd	$1, %ecx, %xmm11, %xmm0
	vpextrd	$2, %xmm8, %edx
	vmovss	%xmm7, 136(%rdi)
	movb	%r11b, 140(%rdi)
	vpextrb	$1, %xmm2, 141(%rdi)
	vpextrb	$2, %xmm2, 142(%rdi)
	vpextrb	$3, %xmm2, 143(%rdi)
	vmovq	%xmm0, 144(%rdi)
	vmovss	%xmm6, 152(%rdi)
	movb	%bl, 156(%rdi)
	vpextrb	$1, %xmm4, 157(%rdi)
	vpshufd	$85, %xmm1, %xmm0
	vpextrb	$2, %xmm4, 158(%rdi)
	vpblendd	$2, %xmm8, %xmm0, %xmm0
	vpextrb	$3, %xmm4, 159(%rdi)
	vpextrd	$3, %xmm5, %ecx
	vmovq	%xmm0, 160(%rdi)
	vextractps	$1, %xmm7, 168(%rdi)
	movb	%r9b, 172(%rdi)
	vpextrb	$5, %xmm2, 173(%rdi)
	vpshufd	$85, %xmm11, %xmm0
	vpextrb	$6, %xmm2, 174(%rdi)
	vpblendd	$2, %xmm5, %xmm0, %xmm0
	vpextrb	$7, %xmm2, 175(%rdi)
	vpextrd	$2, %xmm5, %esi
	vmovq	%xmm0, 176(%rdi)
	vextractps	$1, %xmm6, 184(%rdi)
	movb	%r10b, 188(%rdi)
	vpextrb	$5, %xmm4, 189(%rdi)
	vpextrb	$6, %xmm4, 190(%rdi)
	vpextrb	$7, %xmm4, 191(%rdi)
	vmovdqa	48(%rsp), %xmm0
	vpinsrd	$1, %edx, %xmm0, %xmm0
	vmovq	%xmm0, 192(%rdi)
	vextractps	$2, %xmm7, 200(%rdi)
	movzbl	14(%rsp), %edx
	movb	%dl, 204(%rdi)
	vpextrb	$9, %xmm2, 205(%rdi)
	vpextrb	$10, %xmm2, 206(%rdi)
	vpextrb	$11, %xmm2, 207(%rdi)
	vmovdqa	64(%rsp), %xmm0
	vpinsrd	$1, %esi, %xmm0, %xmm0
	vmovq	%xmm0, 208(%rdi)
	vextractps	$2, %xmm6, 216(%rdi)
	movzbl	13(%rsp), %edx
	movb	%dl, 220(%rdi)
	vpextrb	$9, %xmm4, 221(%rdi)
	vpextrb	$10, %xmm4, 222(%rdi)
	vpextrb	$11, %xmm4, 223(%rdi)
	vpshufd	$255, %xmm1, %xmm0
	vpinsrd	$1, %eax, %xmm0, %xmm0
	vmovq	%xmm0, 224(%rdi)
	vextractps	$3, %xmm7, 232(%rdi)
	movzbl	15(%rsp), %eax
	movb	%al, 236(%rdi)
	vpextrb	$13, %xmm2, 237(%rdi)
	vpextrb	$14, %xmm2, 238(%rdi)
	vpextrb	$15, %xmm2, 239(%rdi)
	vpshufd	$255, %xmm11, %xmm0
	vpinsrd	$1, %ecx, %xmm0, %xmm0
	vextractps	$3, %xmm6, %eax
	vpinsrd	$2, %eax, %xmm0, %xmm0
	vpinsrd	$3, %r8d, %xmm0, %xmm0
	vmovq	%xmm0, 240(%rdi)
	vextractps	$3, %xmm6, 248(%rdi)
	movb	%r8b, 252(%rdi)
	vpextrb	$13, %xmm0, 253(%rdi)
	vpextrb	$14, %xmm0, 254(%rdi)
	vpextrb	$15, %xmm0, 255(%rdi)
	addq	$104, %rsp
	popq	%rbx
	popq	%r12
	popq	%r13
	popq	%r14
	popq	%r15
	popq	%rbp
	retq
	vj_end	blake2_parallel..lanes..blake2sp..outputs_of_1_v3

	vj_function	blake2_ffi..blake2sp..initialize_1_v3
	pushq	%rbp
	pushq	%r15
	pushq	%r14
	pushq	%r13
	pushq	%r12
	pushq	%rbx
	subq	$1640, %rsp
	movq	%r9, 24(%rsp)
	movq	%r8, %r12
	movq	%rcx, %r13
	movq	%rdx, %rbp
	movq	%rsi, %r14
	movq	%rdi, 16(%rsp)
	leaq	32(%rsp), %r15
	xorl	%ebx, %ebx
	movl	$1608, %edx
	movq	%r15, %rdi
	xorl	%esi, %esi
	vj_c_call	memset
	vmovaps	1696(%rsp), %xmm0
	vmovups	%xmm0, (%rsp)
	movq	%r15, %rdi
	movq	%r14, %rsi
	movq	%rbp, %rdx
	movq	%r13, %rcx
	movq	%r12, %r8
	movq	24(%rsp), %r9
	callq	blake2_parallel..blake2sp..State..init_salt_personal_1_v3
	cmpb	$0, 32(%rsp)
	je	1f
	movl	$1600, %edx
	movq	16(%rsp), %rdi
	xorl	%esi, %esi
	vj_c_call	memset
	movl	$-1, %ebx
	jmp	2f
1:
	leaq	40(%rsp), %rsi
	movl	$1600, %edx
	movq	16(%rsp), %rdi
	vj_c_call	memcpy
2:
	movl	%ebx, %eax
	addq	$1640, %rsp
	popq	%rbx
	popq	%r12
	popq	%r13
	popq	%r14
	popq	%r15
	popq	%rbp
	retq
	vj_end	blake2_ffi..blake2sp..initialize_1_v3

	vj_constants	16
	.p2align	4, 0x0
.L1_v3_CPI66_0:
	.zero	2
	.zero	2
	.zero	2
	.zero	2
	.short	0
	.short	0
	.short	0
	.short	8193
.L1_v3_CPI66_2:
	.zero	2
	.zero	2
	.zero	2
	.zero	2
	.short	0
	.short	0
	.short	0
	.short	8192
.L1_v3_CPI66_3:
	.long	1359893119
	.long	2600822924
	.long	528734635
	.long	1541459225
.L1_v3_CPI66_5:
	.long	1013904243
	.long	1013904240
	.long	1013904241
	.long	1013904246
	vj_constants	32
	.p2align	5, 0x0
.L1_v3_CPI66_1:
	.long	1779033703
	.long	3144134277
	.long	1013904242
	.long	2773480762
	.long	1359893119
	.long	2600822924
	.long	528734635
	.long	1541459225
	vj_constants	4
	.p2align	2, 0x0
.L1_v3_CPI66_4:
	.long	3144134277
.L1_v3_CPI66_6:
	.long	3
.L1_v3_CPI66_7:
	.long	1
.L1_v3_CPI66_8:
	.long	2
	vj_function	blake2_parallel..blake2sp..State..init_salt_personal_1_v3
	pushq	%rbp
	pushq	%r15
	pushq	%r14
	pushq	%r13
	pushq	%r12
	pushq	%rbx
	subq	$1912, %rsp
	movq	%r8, %r14
	movq	%rcx, %r15
	movq	%rdx, %r8
	movq	%rdi, %rbx
	movq	1976(%rsp), %r13
	leaq	-1(%rsi), %rax
	cmpq	$32, %rax
	setb	%al
	cmpq	$33, %rcx
	setb	%cl
	cmpq	$9, %r9
	setb	%dl
	andb	%cl, %dl
	andb	%al, %dl
	cmpq	$9, %r13
	setb	%al
	testb	%al, %dl
	je	1f
	movq	%r9, %rbp
	movq	%rsi, (%rsp)
	movq	1968(%rsp), %r12
	vxorps	%xmm0, %xmm0, %xmm0
	vmovaps	%xmm0, 432(%rsp)
	leaq	432(%rsp), %rdi
	movq	%r14, %rsi
	movq	%r9, %rdx
	movq	%r8, 32(%rsp)
	vj_c_call	memcpy
	leaq	440(%rsp), %rdi
	movq	%r12, %rsi
	movq	%r13, %rdx
	vj_c_call	memcpy
	vmovaps	432(%rsp), %xmm0
	vmovaps	%xmm0, 64(%rsp)
	vxorps	%xmm0, %xmm0, %xmm0
	vmovaps	%xmm0, 432(%rsp)
	leaq	432(%rsp), %rdi
	movq	%r14, %rsi
	movq	%rbp, %rdx
	vj_c_call	memcpy
	leaq	440(%rsp), %rdi
	movq	%r12, %rsi
	movq	%r13, %rdx
	vj_c_call	memcpy
	vmovaps	432(%rsp), %xmm0
	vmovaps	%xmm0, 96(%rsp)
	vxorps	%xmm0, %xmm0, %xmm0
	vmovups	%ymm0, 112(%rsp)
	vmovups	%ymm0, 144(%rsp)
	leaq	112(%rsp), %rdi
	movq	32(%rsp), %rsi
	movq	%r15, %rdx
	vzeroupper
	vj_c_call	memcpy
	testq	%r15, %r15
	je	2f
	vmovups	112(%rsp), %ymm0
	vmovups	144(%rsp), %ymm1
	vmovups	%ymm1, 464(%rsp)
	vmovups	%ymm0, 432(%rsp)
	vmovups	%ymm0, 496(%rsp)
	vmovups	%ymm1, 528(%rsp)
	vmovups	%ymm0, 560(%rsp)
	vmovups	%ymm1, 592(%rsp)
	vmovups	%ymm0, 624(%rsp)
	vmovups	%ymm1, 656(%rsp)
	vmovups	%ymm0, 688(%rsp)
	vmovups	%ymm1, 720(%rsp)
	vmovups	%ymm0, 752(%rsp)
	vmovups	%ymm1, 784(%rsp)
	vmovups	%ymm0, 816(%rsp)
	vmovups	%ymm1, 848(%rsp)
	vmovups	%ymm0, 880(%rsp)
	vmovups	%ymm1, 912(%rsp)
	vxorps	%xmm0, %xmm0, %xmm0
	vmovups	%ymm0, 1880(%rsp)
	vmovups	%ymm0, 1848(%rsp)
	vmovups	%ymm0, 1816(%rsp)
	vmovups	%ymm0, 1784(%rsp)
	vmovups	%ymm0, 1752(%rsp)
	vmovups	%ymm0, 1720(%rsp)
	vmovups	%ymm0, 1688(%rsp)
	vmovups	%ymm0, 1656(%rsp)
	vmovups	%ymm0, 1624(%rsp)
	vmovups	%ymm0, 1592(%rsp)
	vmovups	%ymm0, 1560(%rsp)
	vmovups	%ymm0, 1528(%rsp)
	vmovups	%ymm0, 1496(%rsp)
	vmovups	%ymm0, 1464(%rsp)
	leaq	952(%rsp), %rdi
	leaq	432(%rsp), %rsi
	movl	$512, %r14d
	movl	$512, %edx
	vzeroupper
	vj_c_call	memcpy
	jmp	3f
1:
	movb	$1, (%rbx)
	addq	$8, %rbx
	movl	$1600, %edx
	movq	%rbx, %rdi
	xorl	%esi, %esi
	addq	$1912, %rsp
	popq	%rbx
	popq	%r12
	popq	%r13
	popq	%r14
	popq	%r15
	popq	%rbp
	vj_c_jump	memset
2:
	leaq	952(%rsp), %rdi
	xorl	%r14d, %r14d
	movl	$960, %edx
	xorl	%esi, %esi
	vj_c_call	memset
3:
	movq	(%rsp), %r12
	shll	$8, %r15d
	leal	(%r15,%r12), %eax
	addl	$34078720, %eax
	vmovd	%eax, %xmm0
	vpmovzxdq	%xmm0, %xmm0
	vpblendd	$12, .L1_v3_CPI66_0(%rip), %xmm0, %xmm1
	vmovdqu	%ymm1, (%rsp)
	vmovdqa	.L1_v3_CPI66_1(%rip), %ymm1
	vpblendd	$12, .L1_v3_CPI66_2(%rip), %xmm0, %xmm0
	vpxor	%xmm1, %xmm0, %xmm3
	vmovdqu	%ymm3, 272(%rsp)
	vmovdqa	64(%rsp), %xmm0
	vpxor	.L1_v3_CPI66_3(%rip), %xmm0, %xmm0
	vmovups	112(%rsp), %ymm1
	vmovups	144(%rsp), %ymm2
	vmovups	%ymm1, 368(%rsp)
	vmovups	%ymm2, 400(%rsp)
	movb	$0, (%rbx)
	vpbroadcastd	%xmm3, %ymm1
	vmovdqu	%ymm1, 64(%rsp)
	vmovdqu	%ymm1, 8(%rbx)
	vbroadcastss	.L1_v3_CPI66_4(%rip), %ymm1
	vmovups	%ymm1, 32(%rsp)
	vmovups	%ymm1, 40(%rbx)
	vpextrd	$2, %xmm3, 72(%rbx)
	vmovaps	.L1_v3_CPI66_5(%rip), %xmm1
	vmovups	%xmm1, 76(%rbx)
	movabsq	$4354685570269508471, %r15
	movq	%r15, 92(%rbx)
	movl	$1013904245, 100(%rbx)
	vpbroadcastd	.L1_v3_CPI66_6(%rip), %ymm1
	vpermd	%ymm3, %ymm1, %ymm2
	vmovdqu	%ymm2, 336(%rsp)
	vmovdqu	%ymm2, 104(%rbx)
	vpbroadcastd	%xmm0, %ymm2
	vmovdqu	%ymm2, 304(%rsp)
	vmovdqu	%ymm2, 136(%rbx)
	vpbroadcastd	.L1_v3_CPI66_7(%rip), %ymm2
	vpermd	%ymm0, %ymm2, %ymm2
	vmovdqu	%ymm2, 240(%rsp)
	vmovdqu	%ymm2, 168(%rbx)
	vpbroadcastd	.L1_v3_CPI66_8(%rip), %ymm2
	vpermd	%ymm0, %ymm2, %ymm2
	vmovdqu	%ymm2, 208(%rsp)
	vmovdqu	%ymm2, 200(%rbx)
	vpermd	%ymm0, %ymm1, %ymm0
	vmovdqu	%ymm0, 176(%rsp)
	vmovdqu	%ymm0, 232(%rbx)
	movq	$0, 264(%rbx)
	movq	%r14, 272(%rbx)
	leaq	280(%rbx), %rdi
	leaq	952(%rsp), %rsi
	movl	$960, %edx
	vzeroupper
	vj_c_call	memcpy
	vmovups	64(%rsp), %ymm0
	vmovups	%ymm0, 1240(%rbx)
	vmovups	32(%rsp), %ymm0
	vmovups	%ymm0, 1272(%rbx)
	vmovups	272(%rsp), %ymm0
	vextractps	$2, %xmm0, 1304(%rbx)
	vmovaps	.L1_v3_CPI66_5(%rip), %xmm0
	vmovups	%xmm0, 1308(%rbx)
	movq	%r15, 1324(%rbx)
	movl	$1013904245, 1332(%rbx)
	vmovups	336(%rsp), %ymm0
	vmovups	%ymm0, 1336(%rbx)
	vmovups	304(%rsp), %ymm0
	vmovups	%ymm0, 1368(%rbx)
	vmovups	240(%rsp), %ymm0
	vmovups	%ymm0, 1400(%rbx)
	vmovups	208(%rsp), %ymm0
	vmovups	%ymm0, 1432(%rbx)
	vmovups	176(%rsp), %ymm0
	vmovups	%ymm0, 1464(%rbx)
	vmovups	(%rsp), %ymm0
	vinsertf128	$1, 96(%rsp), %ymm0, %ymm0
	vxorps	.L1_v3_CPI66_1(%rip), %ymm0, %ymm0
	vmovups	%ymm0, 1496(%rbx)
	movq	%r14, 1528(%rbx)
	movq	%r12, 1536(%rbx)
	vmovups	368(%rsp), %ymm0
	vmovups	400(%rsp), %ymm1
	vmovups	%ymm0, 1544(%rbx)
	vmovups	%ymm1, 1576(%rbx)
	addq	$1912, %rsp
	popq	%rbx
	popq	%r12
	popq	%r13
	popq	%r14
	popq	%r15
	popq	%rbp
	vzeroupper
	retq
	vj_end	blake2_parallel..blake2sp..State..init_salt_personal_1_v3

	vj_function	blake2_ffi..blake2sp..reset_in_frame_1_v3
	pushq	%r15
	pushq	%r14
	pushq	%rbx
	subq	$1728, %rsp
	movq	%rdi, %rbx
	leaq	1232(%rdi), %r15
	movq	1520(%rdi), %r14
	testq	%r14, %r14
	je	1f
	vmovups	1536(%rbx), %ymm0
	vmovups	1568(%rbx), %ymm1
	vmovups	%ymm1, 288(%rsp)
	vmovups	%ymm0, 256(%rsp)
	vmovups	1536(%rbx), %ymm0
	vmovups	1568(%rbx), %ymm1
	vmovups	%ymm1, 352(%rsp)
	vmovups	%ymm0, 320(%rsp)
	vmovups	1536(%rbx), %ymm0
	vmovups	1568(%rbx), %ymm1
	vmovups	%ymm1, 416(%rsp)
	vmovups	%ymm0, 384(%rsp)
	vmovups	1536(%rbx), %ymm0
	vmovups	1568(%rbx), %ymm1
	vmovups	%ymm1, 480(%rsp)
	vmovups	%ymm0, 448(%rsp)
	vmovups	1536(%rbx), %ymm0
	vmovups	1568(%rbx), %ymm1
	vmovups	%ymm1, 544(%rsp)
	vmovups	%ymm0, 512(%rsp)
	vmovups	1536(%rbx), %ymm0
	vmovups	1568(%rbx), %ymm1
	vmovups	%ymm0, 576(%rsp)
	vmovups	%ymm1, 608(%rsp)
	vmovups	1536(%rbx), %ymm0
	vmovups	1568(%rbx), %ymm1
	vmovups	%ymm0, 640(%rsp)
	vmovups	%ymm1, 672(%rsp)
	vmovups	1536(%rbx), %ymm0
	vmovups	1568(%rbx), %ymm1
	vmovups	%ymm1, 736(%rsp)
	vmovups	%ymm0, 704(%rsp)
	vxorps	%xmm0, %xmm0, %xmm0
	vmovups	%ymm0, 1280(%rsp)
	vmovups	%ymm0, 1312(%rsp)
	vmovups	%ymm0, 1344(%rsp)
	vmovups	%ymm0, 1376(%rsp)
	vmovups	%ymm0, 1408(%rsp)
	vmovups	%ymm0, 1440(%rsp)
	vmovups	%ymm0, 1472(%rsp)
	vmovups	%ymm0, 1504(%rsp)
	vmovups	%ymm0, 1536(%rsp)
	vmovups	%ymm0, 1568(%rsp)
	vmovups	%ymm0, 1600(%rsp)
	vmovups	%ymm0, 1632(%rsp)
	vmovups	%ymm0, 1664(%rsp)
	vmovups	%ymm0, 1696(%rsp)
	leaq	768(%rsp), %rdi
	leaq	256(%rsp), %rsi
	movl	$512, %edx
	vzeroupper
	vj_c_call	memcpy
	vmovups	(%r15), %ymm0
	vmovups	32(%r15), %ymm1
	vmovups	64(%r15), %ymm2
	vmovups	96(%r15), %ymm3
	vmovups	%ymm0, (%rsp)
	vmovups	%ymm1, 32(%rsp)
	vmovups	%ymm2, 64(%rsp)
	vmovups	%ymm3, 96(%rsp)
	vmovups	128(%r15), %ymm0
	vmovups	%ymm0, 128(%rsp)
	vmovups	160(%r15), %ymm0
	vmovups	%ymm0, 160(%rsp)
	vmovups	192(%r15), %ymm0
	vmovups	%ymm0, 192(%rsp)
	vmovups	224(%r15), %ymm0
	vmovups	%ymm0, 224(%rsp)
	jmp	2f
1:
	vmovups	224(%r15), %ymm0
	vmovups	%ymm0, 224(%rsp)
	vmovups	192(%r15), %ymm0
	vmovups	%ymm0, 192(%rsp)
	vmovups	160(%r15), %ymm0
	vmovups	%ymm0, 160(%rsp)
	vmovups	128(%r15), %ymm0
	vmovups	%ymm0, 128(%rsp)
	vmovups	(%r15), %ymm0
	vmovups	32(%r15), %ymm1
	vmovups	64(%r15), %ymm2
	vmovups	96(%r15), %ymm3
	vmovups	%ymm3, 96(%rsp)
	vmovups	%ymm2, 64(%rsp)
	vmovups	%ymm1, 32(%rsp)
	vmovups	%ymm0, (%rsp)
	leaq	768(%rsp), %rdi
	movl	$960, %edx
	xorl	%esi, %esi
	vzeroupper
	vj_c_call	memset
2:
	vmovups	224(%rsp), %ymm0
	vmovups	%ymm0, 224(%rbx)
	vmovups	192(%rsp), %ymm0
	vmovups	%ymm0, 192(%rbx)
	vmovups	160(%rsp), %ymm0
	vmovups	%ymm0, 160(%rbx)
	vmovups	128(%rsp), %ymm0
	vmovups	%ymm0, 128(%rbx)
	vmovups	(%rsp), %ymm0
	vmovups	32(%rsp), %ymm1
	vmovups	64(%rsp), %ymm2
	vmovups	96(%rsp), %ymm3
	vmovups	%ymm3, 96(%rbx)
	vmovups	%ymm2, 64(%rbx)
	vmovups	%ymm1, 32(%rbx)
	vmovups	%ymm0, (%rbx)
	movq	$0, 256(%rbx)
	movq	%r14, 264(%rbx)
	addq	$272, %rbx
	leaq	768(%rsp), %rsi
	movl	$960, %edx
	movq	%rbx, %rdi
	vzeroupper
	vj_c_call	memcpy
	addq	$1728, %rsp
	popq	%rbx
	popq	%r14
	popq	%r15
	retq
	vj_end	blake2_ffi..blake2sp..reset_in_frame_1_v3

	vj_function	blake2_ffi..blake2sp..update_scrubbed_1_v3
	pushq	%rax
	callq	blake2_ffi..blake2sp..update_in_frame_1_v3
	popq	%rax
	jmp	blake2_digest..wiping..scrub_stack..3072_1_v3
	vj_end	blake2_ffi..blake2sp..update_scrubbed_1_v3

	vj_function	blake2_ffi..blake2sp..update_in_frame_1_v3
	vj_jump	blake2_parallel..lanes..blake2sp..Lanes..update_1_v3
	vj_end	blake2_ffi..blake2sp..update_in_frame_1_v3

	vj_shared	blake2_parallel..lanes..blake2sp..Lanes..update_1_v3
	pushq	%rbp
	pushq	%r15
	pushq	%r14
	pushq	%r13
	pushq	%r12
	pushq	%rbx
	subq	$264, %rsp
	movq	%rdx, %rbx
	movq	%rsi, %r15
	movq	%rdi, %r14
	movq	264(%rdi), %r13
	movl	$960, %eax
	subq	%r13, %rax
	cmpq	%rdx, %rax
	jb	11f
1:
	leaq	(%r14,%r13), %rdi
	addq	$272, %rdi
	movq	%rdi, %rax
	subq	%r15, %rax
	cmpq	%rbx, %rax
	jae	20f
	cmpq	$8, %rbx
	jb	2f
	leaq	(%r14,%r13), %rax
	subq	%r15, %rax
	addq	$272, %rax
	cmpq	$128, %rax
	jae	22f
2:
	xorl	%eax, %eax
3:
	movq	%rbx, %rdx
	movq	%rax, %rcx
	andq	$7, %rdx
	je	5f
	movq	%rax, %rcx
	.p2align	4
4:
	movzbl	(%r15,%rcx), %esi
	movb	%sil, (%rdi,%rcx)
	incq	%rcx
	decq	%rdx
	jne	4b
5:
	subq	%rbx, %rax
	cmpq	$-8, %rax
	ja	21f
	leaq	(%r14,%r13), %rax
	addq	$279, %rax
	.p2align	4
6:
	movzbl	(%r15,%rcx), %edx
	movb	%dl, -7(%rax,%rcx)
	movzbl	1(%r15,%rcx), %edx
	movb	%dl, -6(%rax,%rcx)
	movzbl	2(%r15,%rcx), %edx
	movb	%dl, -5(%rax,%rcx)
	movzbl	3(%r15,%rcx), %edx
	movb	%dl, -4(%rax,%rcx)
	movzbl	4(%r15,%rcx), %edx
	movb	%dl, -3(%rax,%rcx)
	movzbl	5(%r15,%rcx), %edx
	movb	%dl, -2(%rax,%rcx)
	movzbl	6(%r15,%rcx), %edx
	movb	%dl, -1(%rax,%rcx)
	movzbl	7(%r15,%rcx), %edx
	movb	%dl, (%rax,%rcx)
	addq	$8, %rcx
	cmpq	%rcx, %rbx
	jne	6b
	jmp	21f
7:
	movq	%r15, %rsi
	movq	%r12, %rdx
	vzeroupper
	vj_c_call	memmove
8:
	subq	%r12, %rbx
	addq	%r12, %r15
	movq	$512, 264(%r14)
9:
	movq	%r14, %rdi
	vzeroupper
	callq	blake2_parallel..lanes..blake2sp..Lanes..compress_held_1_v3
10:
	movq	264(%r14), %r13
	movl	$960, %eax
	subq	%r13, %rax
	cmpq	%rbx, %rax
	jae	1b
11:
	testq	%r13, %r13
	je	12f
	cmpq	$511, %r13
	ja	9b
	movl	$512, %r12d
	subq	%r13, %r12
	leaq	272(%r14), %rax
	leaq	(%rax,%r13), %rdi
	movq	%rdi, %rax
	subq	%r15, %rax
	cmpq	%r12, %rax
	jae	7b
	cmpq	$504, %r13
	jbe	13f
	xorl	%eax, %eax
	jmp	19f
	.p2align	4
12:
	leaq	-449(%rbx), %rbp
	movq	%rbp, %r12
	vmovups	(%r14), %ymm0
	vmovups	32(%r14), %ymm1
	vmovups	64(%r14), %ymm2
	vmovups	96(%r14), %ymm3
	vmovups	128(%r14), %ymm4
	vmovups	160(%r14), %ymm5
	vmovups	192(%r14), %ymm6
	vmovups	224(%r14), %ymm7
	vmovups	%ymm0, 8(%rsp)
	vmovups	%ymm1, 40(%rsp)
	vmovups	%ymm2, 72(%rsp)
	vmovups	%ymm3, 104(%rsp)
	vmovups	%ymm4, 136(%rsp)
	vmovups	%ymm5, 168(%rsp)
	vmovups	%ymm6, 200(%rsp)
	shrq	$9, %r12
	vmovups	%ymm7, 232(%rsp)
	movq	256(%r14), %r13
	leaq	8(%rsp), %rdi
	movq	%r15, %rsi
	movq	%r13, %rdx
	movq	%r12, %rcx
	vzeroupper
	callq	blake2_parallel..lanes..blake2sp..compress_in_lanes_1_v3
	vmovups	8(%rsp), %ymm0
	vmovups	%ymm0, (%r14)
	vmovups	40(%rsp), %ymm0
	vmovups	%ymm0, 32(%r14)
	vmovups	72(%rsp), %ymm0
	vmovups	%ymm0, 64(%r14)
	vmovups	104(%rsp), %ymm0
	vmovups	%ymm0, 96(%r14)
	vmovups	136(%rsp), %ymm0
	vmovups	%ymm0, 128(%r14)
	vmovups	168(%rsp), %ymm0
	vmovups	%ymm0, 160(%r14)
	vmovups	200(%rsp), %ymm0
	vmovups	%ymm0, 192(%r14)
	vmovups	232(%rsp), %ymm0
	vmovups	%ymm0, 224(%r14)
	shlq	$6, %r12
	addq	%r13, %r12
	movq	%r12, 256(%r14)
	andq	$-512, %rbp
	addq	%rbp, %r15
	subq	%rbp, %rbx
	jmp	10b
13:
	cmpq	$64, %rax
	jae	14f
	xorl	%eax, %eax
	jmp	19f
14:
	cmpq	$448, %r13
	jbe	15f
	xorl	%eax, %eax
	jmp	17f
15:
	movl	%r12d, %eax
	vmovups	(%r15), %ymm0
	vmovups	32(%r15), %ymm1
	vmovups	%ymm0, (%rdi)
	andl	$-64, %eax
	vmovups	%ymm1, 32(%rdi)
	cmpq	$64, %rax
	je	16f
	vmovups	64(%r15), %ymm0
	vmovups	96(%r15), %ymm1
	vmovups	%ymm0, 64(%rdi)
	vmovups	%ymm1, 96(%rdi)
	cmpl	$128, %eax
	je	16f
	vmovups	128(%r15), %ymm0
	vmovups	160(%r15), %ymm1
	vmovups	%ymm0, 128(%rdi)
	vmovups	%ymm1, 160(%rdi)
	cmpl	$192, %eax
	je	16f
	vmovups	192(%r15), %ymm0
	vmovups	224(%r15), %ymm1
	vmovups	%ymm0, 192(%rdi)
	vmovups	%ymm1, 224(%rdi)
	cmpl	$256, %eax
	je	16f
	vmovups	256(%r15), %ymm0
	vmovups	288(%r15), %ymm1
	vmovups	%ymm0, 256(%rdi)
	vmovups	%ymm1, 288(%rdi)
	cmpl	$320, %eax
	je	16f
	vmovups	320(%r15), %ymm0
	vmovups	352(%r15), %ymm1
	vmovups	%ymm0, 320(%rdi)
	vmovups	%ymm1, 352(%rdi)
	cmpl	$384, %eax
	je	16f
	vmovups	384(%r15), %ymm0
	vmovups	416(%r15), %ymm1
	vmovups	%ymm0, 384(%rdi)
	vmovups	%ymm1, 416(%rdi)
16:
	cmpl	%eax, %r12d
	je	8b
	testb	$56, %r12b
	je	19f
17:
	movq	%rax, %rcx
	movl	%r12d, %eax
	andl	$-8, %eax
	.p2align	4
18:
	movq	(%r15,%rcx), %rdx
	movq	%rdx, (%rdi,%rcx)
	addq	$8, %rcx
	cmpq	%rcx, %rax
	jne	18b
	cmpl	%eax, %r12d
	je	8b
	.p2align	4
19:
	movzbl	(%r15,%rax), %ecx
	movb	%cl, (%rdi,%rax)
	incq	%rax
	cmpq	%rax, %r12
	jne	19b
	jmp	8b
20:
	movq	%r15, %rsi
	movq	%rbx, %rdx
	vzeroupper
	vj_c_call	memmove
21:
	addq	%rbx, %r13
	movq	%r13, 264(%r14)
	addq	$264, %rsp
	popq	%rbx
	popq	%r12
	popq	%r13
	popq	%r14
	popq	%r15
	popq	%rbp
	vzeroupper
	retq
22:
	cmpq	$128, %rbx
	jae	23f
	xorl	%eax, %eax
	jmp	25f
23:
	movq	%rbx, %rax
	andq	$-128, %rax
	leaq	(%r14,%r13), %rcx
	addq	$368, %rcx
	xorl	%edx, %edx
	.p2align	4
24:
	vmovups	(%r15,%rdx), %ymm0
	vmovups	32(%r15,%rdx), %ymm1
	vmovups	64(%r15,%rdx), %ymm2
	vmovups	96(%r15,%rdx), %ymm3
	vmovups	%ymm0, -96(%rcx,%rdx)
	vmovups	%ymm1, -64(%rcx,%rdx)
	vmovups	%ymm2, -32(%rcx,%rdx)
	vmovups	%ymm3, (%rcx,%rdx)
	subq	$-128, %rdx
	cmpq	%rdx, %rax
	jne	24b
	cmpq	%rax, %rbx
	je	21b
	testb	$120, %bl
	je	3b
25:
	movq	%rax, %rcx
	movq	%rbx, %rax
	andq	$-8, %rax
	.p2align	4
26:
	movq	(%r15,%rcx), %rdx
	movq	%rdx, (%rdi,%rcx)
	addq	$8, %rcx
	cmpq	%rcx, %rax
	jne	26b
	cmpq	%rax, %rbx
	je	21b
	jmp	3b
	vj_end	blake2_parallel..lanes..blake2sp..Lanes..update_1_v3

	vj_constants	32
	.p2align	5, 0x0
.L1_v3_CPI71_0:
	.byte	2
	.byte	3
	.byte	0
	.byte	1
	.byte	6
	.byte	7
	.byte	4
	.byte	5
	.byte	10
	.byte	11
	.byte	8
	.byte	9
	.byte	14
	.byte	15
	.byte	12
	.byte	13
	.byte	18
	.byte	19
	.byte	16
	.byte	17
	.byte	22
	.byte	23
	.byte	20
	.byte	21
	.byte	26
	.byte	27
	.byte	24
	.byte	25
	.byte	30
	.byte	31
	.byte	28
	.byte	29
.L1_v3_CPI71_2:
	.byte	1
	.byte	2
	.byte	3
	.byte	0
	.byte	5
	.byte	6
	.byte	7
	.byte	4
	.byte	9
	.byte	10
	.byte	11
	.byte	8
	.byte	13
	.byte	14
	.byte	15
	.byte	12
	.byte	1
	.byte	2
	.byte	3
	.byte	0
	.byte	5
	.byte	6
	.byte	7
	.byte	4
	.byte	9
	.byte	10
	.byte	11
	.byte	8
	.byte	13
	.byte	14
	.byte	15
	.byte	12
	vj_constants	4
	.p2align	2, 0x0
.L1_v3_CPI71_1:
	.long	1779033703
.L1_v3_CPI71_3:
	.long	3144134277
.L1_v3_CPI71_4:
	.long	528734635
.L1_v3_CPI71_5:
	.long	1013904242
.L1_v3_CPI71_6:
	.long	1541459225
.L1_v3_CPI71_7:
	.long	2773480762
	vj_constants	16
	.p2align	4, 0x0
.L1_v3_CPI71_8:
	.byte	1
	.byte	2
	.byte	3
	.byte	0
	.byte	5
	.byte	6
	.byte	7
	.byte	4
	.byte	9
	.byte	10
	.byte	11
	.byte	8
	.byte	13
	.byte	14
	.byte	15
	.byte	12
	vj_function	blake2_parallel..lanes..blake2sp..compress_in_lanes_1_v3
	subq	$1096, %rsp
	vmovdqu	(%rdi), %ymm0
	vmovdqu	32(%rdi), %ymm10
	vmovdqu	64(%rdi), %ymm8
	vmovdqu	96(%rdi), %ymm7
	vmovdqu	128(%rdi), %ymm4
	vmovdqu	160(%rdi), %ymm3
	vmovups	192(%rdi), %ymm1
	vmovups	%ymm1, 864(%rsp)
	vmovdqu	224(%rdi), %ymm1
	vmovdqu	%ymm1, 800(%rsp)
	testq	%rcx, %rcx
	vmovdqu	%ymm0, 832(%rsp)
	je	2f
	addq	$64, %rdx
	addq	$496, %rsi
	.p2align	4
1:
	vmovdqu	%ymm3, 896(%rsp)
	vmovdqu	%ymm10, 928(%rsp)
	vmovdqu	%ymm8, 960(%rsp)
	vmovdqu	%ymm7, 992(%rsp)
	vmovdqu	-368(%rsi), %ymm0
	vmovdqu	-304(%rsi), %ymm1
	vmovdqu	-240(%rsi), %ymm2
	vmovdqu	-176(%rsi), %ymm3
	vmovdqu	-112(%rsi), %ymm6
	vmovdqa	%ymm4, %ymm14
	vmovdqu	-496(%rsi), %ymm4
	vmovdqu	-432(%rsi), %ymm5
	vpunpckldq	%ymm5, %ymm4, %ymm7
	vpunpckhdq	%ymm5, %ymm4, %ymm8
	vpunpckldq	%ymm1, %ymm0, %ymm4
	vpunpckhdq	%ymm1, %ymm0, %ymm0
	vpunpcklqdq	%ymm4, %ymm7, %ymm5
	vpunpckhqdq	%ymm4, %ymm7, %ymm4
	vpunpcklqdq	%ymm0, %ymm8, %ymm1
	vpunpckhqdq	%ymm0, %ymm8, %ymm0
	vpunpckldq	%ymm3, %ymm2, %ymm7
	vpunpckhdq	%ymm3, %ymm2, %ymm2
	vmovdqu	-48(%rsi), %ymm3
	vpunpckldq	%ymm3, %ymm6, %ymm8
	vpunpckhdq	%ymm3, %ymm6, %ymm9
	vpunpcklqdq	%ymm8, %ymm7, %ymm10
	vpunpckhqdq	%ymm8, %ymm7, %ymm6
	vpunpcklqdq	%ymm9, %ymm2, %ymm3
	vpunpckhqdq	%ymm9, %ymm2, %ymm2
	vmovups	-464(%rsi), %ymm7
	vmovups	-400(%rsi), %ymm8
	vunpcklps	%ymm8, %ymm7, %ymm9
	vunpckhps	%ymm8, %ymm7, %ymm7
	vmovups	-336(%rsi), %ymm8
	vmovups	-272(%rsi), %ymm11
	vunpcklps	%ymm11, %ymm8, %ymm12
	vunpckhps	%ymm11, %ymm8, %ymm8
	vinserti128	$1, %xmm10, %ymm5, %ymm13
	vmovdqu	%ymm13, 704(%rsp)
	vperm2i128	$49, %ymm10, %ymm5, %ymm5
	vmovdqu	%ymm5, 480(%rsp)
	vunpcklpd	%ymm12, %ymm9, %ymm5
	vunpckhpd	%ymm12, %ymm9, %ymm9
	vinserti128	$1, %xmm6, %ymm4, %ymm15
	vmovdqu	%ymm15, 768(%rsp)
	vperm2i128	$49, %ymm6, %ymm4, %ymm4
	vmovdqu	%ymm4, 416(%rsp)
	vunpcklpd	%ymm8, %ymm7, %ymm4
	vunpckhpd	%ymm8, %ymm7, %ymm6
	vmovups	-208(%rsi), %ymm7
	vmovups	-144(%rsi), %ymm8
	vunpcklps	%ymm8, %ymm7, %ymm10
	vunpckhps	%ymm8, %ymm7, %ymm7
	vmovups	-80(%rsi), %ymm8
	vmovups	-16(%rsi), %ymm11
	vunpcklps	%ymm11, %ymm8, %ymm12
	vunpckhps	%ymm11, %ymm8, %ymm8
	vinserti128	$1, %xmm3, %ymm1, %ymm11
	vmovdqu	%ymm11, 448(%rsp)
	vperm2i128	$49, %ymm3, %ymm1, %ymm1
	vmovdqu	%ymm1, 672(%rsp)
	vunpcklpd	%ymm12, %ymm10, %ymm1
	vunpckhpd	%ymm12, %ymm10, %ymm3
	vinserti128	$1, %xmm2, %ymm0, %ymm10
	vmovdqu	%ymm10, 384(%rsp)
	vperm2i128	$49, %ymm2, %ymm0, %ymm0
	vmovdqu	%ymm0, 576(%rsp)
	vunpcklpd	%ymm8, %ymm7, %ymm0
	vunpckhpd	%ymm8, %ymm7, %ymm2
	vinsertf128	$1, %xmm1, %ymm5, %ymm7
	vmovups	%ymm7, 256(%rsp)
	vperm2f128	$49, %ymm1, %ymm5, %ymm1
	vmovups	%ymm1, 512(%rsp)
	vinsertf128	$1, %xmm3, %ymm9, %ymm1
	vmovups	%ymm1, 352(%rsp)
	vperm2f128	$49, %ymm3, %ymm9, %ymm1
	vmovups	%ymm1, 544(%rsp)
	vinsertf128	$1, %xmm0, %ymm4, %ymm1
	vmovups	%ymm1, 288(%rsp)
	vperm2f128	$49, %ymm0, %ymm4, %ymm0
	vmovups	%ymm0, 608(%rsp)
	vinsertf128	$1, %xmm2, %ymm6, %ymm0
	vmovups	%ymm0, 640(%rsp)
	vperm2f128	$49, %ymm2, %ymm6, %ymm0
	vmovups	%ymm0, 320(%rsp)
	movl	%edx, %eax
	xorl	$1359893119, %eax
	vmovd	%eax, %xmm0
	vpbroadcastd	%xmm0, %ymm0
	vmovdqu	%ymm14, 1056(%rsp)
	vpaddd	832(%rsp), %ymm14, %ymm1
	vpaddd	%ymm1, %ymm13, %ymm1
	vpxor	%ymm0, %ymm1, %ymm0
	vmovdqa	.L1_v3_CPI71_0(%rip), %ymm6
	vpshufb	%ymm6, %ymm0, %ymm3
	vpbroadcastd	.L1_v3_CPI71_1(%rip), %ymm0
	vpaddd	%ymm0, %ymm3, %ymm2
	vpxor	%ymm2, %ymm14, %ymm0
	vpsrld	$12, %ymm0, %ymm4
	vpslld	$20, %ymm0, %ymm0
	vpor	%ymm4, %ymm0, %ymm5
	movq	%rdx, %rax
	shrq	$32, %rax
	xorl	$-1694144372, %eax
	vmovd	%eax, %xmm0
	vpbroadcastd	%xmm0, %ymm4
	vmovdqu	896(%rsp), %ymm7
	vpaddd	928(%rsp), %ymm7, %ymm0
	vpaddd	%ymm0, %ymm11, %ymm0
	vpxor	%ymm4, %ymm0, %ymm4
	vmovdqa	%ymm6, %ymm13
	vpshufb	%ymm6, %ymm4, %ymm6
	vpbroadcastd	.L1_v3_CPI71_3(%rip), %ymm4
	vpaddd	%ymm4, %ymm6, %ymm4
	vpxor	%ymm7, %ymm4, %ymm7
	vpsrld	$12, %ymm7, %ymm8
	vpslld	$20, %ymm7, %ymm7
	vpor	%ymm7, %ymm8, %ymm12
	vpaddd	%ymm1, %ymm15, %ymm1
	vpaddd	%ymm5, %ymm1, %ymm9
	vpxor	%ymm3, %ymm9, %ymm3
	vbroadcasti128	.L1_v3_CPI71_8(%rip), %ymm1
	vpshufb	%ymm1, %ymm3, %ymm11
	vmovdqa	%ymm1, %ymm3
	vpaddd	%ymm2, %ymm11, %ymm1
	vmovdqu	%ymm1, 160(%rsp)
	vpxor	%ymm5, %ymm1, %ymm2
	vpsrld	$7, %ymm2, %ymm5
	vpslld	$25, %ymm2, %ymm2
	vpor	%ymm5, %ymm2, %ymm1
	vmovdqu	%ymm1, 224(%rsp)
	vmovdqu	864(%rsp), %ymm1
	vpaddd	960(%rsp), %ymm1, %ymm2
	vpaddd	480(%rsp), %ymm2, %ymm2
	vpbroadcastd	.L1_v3_CPI71_4(%rip), %ymm5
	vpxor	%ymm5, %ymm2, %ymm5
	vpshufb	%ymm13, %ymm5, %ymm10
	vmovdqa	%ymm13, %ymm14
	vpbroadcastd	.L1_v3_CPI71_5(%rip), %ymm5
	vpaddd	%ymm5, %ymm10, %ymm7
	vpxor	%ymm1, %ymm7, %ymm5
	vpsrld	$12, %ymm5, %ymm8
	vpslld	$20, %ymm5, %ymm5
	vpor	%ymm5, %ymm8, %ymm13
	vpaddd	384(%rsp), %ymm0, %ymm0
	vpaddd	%ymm0, %ymm12, %ymm5
	vpxor	%ymm6, %ymm5, %ymm0
	vpshufb	%ymm3, %ymm0, %ymm15
	vmovdqa	%ymm3, %ymm1
	vpaddd	%ymm4, %ymm15, %ymm0
	vmovdqu	%ymm0, (%rsp)
	vpxor	%ymm0, %ymm12, %ymm0
	vpsrld	$7, %ymm0, %ymm4
	vpslld	$25, %ymm0, %ymm0
	vpor	%ymm4, %ymm0, %ymm3
	vmovdqu	800(%rsp), %ymm0
	vpaddd	992(%rsp), %ymm0, %ymm4
	vpaddd	672(%rsp), %ymm4, %ymm4
	vpbroadcastd	.L1_v3_CPI71_6(%rip), %ymm6
	vpxor	%ymm6, %ymm4, %ymm6
	vpshufb	%ymm14, %ymm6, %ymm12
	vpbroadcastd	.L1_v3_CPI71_7(%rip), %ymm6
	vmovdqu	%ymm0, 800(%rsp)
	vpaddd	%ymm6, %ymm12, %ymm14
	vpxor	%ymm0, %ymm14, %ymm6
	vpsrld	$12, %ymm6, %ymm0
	vpslld	$20, %ymm6, %ymm6
	vpor	%ymm0, %ymm6, %ymm0
	vpaddd	416(%rsp), %ymm2, %ymm2
	vpaddd	%ymm2, %ymm13, %ymm8
	vpxor	%ymm10, %ymm8, %ymm6
	vmovdqa	%ymm1, %ymm2
	vpshufb	%ymm1, %ymm6, %ymm6
	vpaddd	%ymm6, %ymm7, %ymm1
	vpxor	%ymm1, %ymm13, %ymm7
	vpsrld	$7, %ymm7, %ymm10
	vpslld	$25, %ymm7, %ymm7
	vpor	%ymm7, %ymm10, %ymm7
	vpaddd	576(%rsp), %ymm4, %ymm4
	vpaddd	%ymm0, %ymm4, %ymm4
	vpxor	%ymm4, %ymm12, %ymm10
	vpshufb	%ymm2, %ymm10, %ymm13
	vpaddd	%ymm13, %ymm14, %ymm10
	vpxor	%ymm0, %ymm10, %ymm0
	vpsrld	$7, %ymm0, %ymm12
	vpslld	$25, %ymm0, %ymm0
	vpor	%ymm0, %ymm12, %ymm12
	vpaddd	256(%rsp), %ymm9, %ymm0
	vpaddd	%ymm3, %ymm0, %ymm0
	vpxor	%ymm0, %ymm13, %ymm9
	vmovdqa	.L1_v3_CPI71_0(%rip), %ymm2
	vpshufb	%ymm2, %ymm9, %ymm9
	vpaddd	%ymm1, %ymm9, %ymm13
	vpxor	%ymm3, %ymm13, %ymm1
	vpsrld	$12, %ymm1, %ymm3
	vpslld	$20, %ymm1, %ymm1
	vpor	%ymm3, %ymm1, %ymm3
	vpaddd	288(%rsp), %ymm5, %ymm1
	vpaddd	%ymm7, %ymm1, %ymm14
	vpxor	%ymm11, %ymm14, %ymm1
	vpshufb	%ymm2, %ymm1, %ymm11
	vpaddd	%ymm10, %ymm11, %ymm10
	vpxor	%ymm7, %ymm10, %ymm1
	vpsrld	$12, %ymm1, %ymm5
	vpslld	$20, %ymm1, %ymm1
	vpor	%ymm5, %ymm1, %ymm7
	vpaddd	352(%rsp), %ymm0, %ymm0
	vpaddd	%ymm3, %ymm0, %ymm1
	vpxor	%ymm1, %ymm9, %ymm0
	vbroadcasti128	.L1_v3_CPI71_8(%rip), %ymm2
	vpshufb	%ymm2, %ymm0, %ymm0
	vmovdqu	%ymm0, 192(%rsp)
	vpaddd	%ymm0, %ymm13, %ymm0
	vmovdqu	%ymm0, 128(%rsp)
	vpxor	%ymm3, %ymm0, %ymm0
	vpsrld	$7, %ymm0, %ymm3
	vpslld	$25, %ymm0, %ymm0
	vpor	%ymm3, %ymm0, %ymm0
	vmovdqu	%ymm0, 96(%rsp)
	vpaddd	640(%rsp), %ymm14, %ymm0
	vpaddd	%ymm7, %ymm0, %ymm13
	vpxor	%ymm11, %ymm13, %ymm0
	vpshufb	%ymm2, %ymm0, %ymm3
	vpaddd	%ymm3, %ymm10, %ymm0
	vmovdqu	%ymm0, 32(%rsp)
	vpxor	%ymm7, %ymm0, %ymm7
	vpsrld	$7, %ymm7, %ymm9
	vpslld	$25, %ymm7, %ymm7
	vpor	%ymm7, %ymm9, %ymm0
	vmovdqu	%ymm0, 64(%rsp)
	vpaddd	512(%rsp), %ymm8, %ymm2
	vpaddd	%ymm2, %ymm12, %ymm2
	vpxor	%ymm2, %ymm15, %ymm8
	vmovdqa	.L1_v3_CPI71_0(%rip), %ymm5
	vpshufb	%ymm5, %ymm8, %ymm8
	vpaddd	160(%rsp), %ymm8, %ymm9
	vpxor	%ymm12, %ymm9, %ymm10
	vpsrld	$12, %ymm10, %ymm11
	vpslld	$20, %ymm10, %ymm10
	vpor	%ymm11, %ymm10, %ymm10
	vmovdqu	608(%rsp), %ymm0
	vpaddd	%ymm0, %ymm4, %ymm4
	vmovdqu	224(%rsp), %ymm11
	vpaddd	%ymm4, %ymm11, %ymm4
	vpxor	%ymm6, %ymm4, %ymm6
	vpshufb	%ymm5, %ymm6, %ymm6
	vpaddd	(%rsp), %ymm6, %ymm12
	vpxor	%ymm11, %ymm12, %ymm11
	vpsrld	$12, %ymm11, %ymm15
	vpslld	$20, %ymm11, %ymm11
	vpor	%ymm15, %ymm11, %ymm11
	vmovdqu	544(%rsp), %ymm14
	vpaddd	%ymm2, %ymm14, %ymm2
	vpaddd	%ymm2, %ymm10, %ymm15
	vpxor	%ymm8, %ymm15, %ymm2
	vbroadcasti128	.L1_v3_CPI71_8(%rip), %ymm5
	vpshufb	%ymm5, %ymm2, %ymm2
	vpaddd	%ymm2, %ymm9, %ymm9
	vpxor	%ymm10, %ymm9, %ymm8
	vpsrld	$7, %ymm8, %ymm10
	vpslld	$25, %ymm8, %ymm8
	vpor	%ymm10, %ymm8, %ymm8
	vpaddd	320(%rsp), %ymm4, %ymm4
	vpaddd	%ymm4, %ymm11, %ymm10
	vpxor	%ymm6, %ymm10, %ymm4
	vpshufb	%ymm5, %ymm4, %ymm7
	vpaddd	%ymm7, %ymm12, %ymm5
	vpxor	%ymm5, %ymm11, %ymm11
	vpsrld	$7, %ymm11, %ymm12
	vpslld	$25, %ymm11, %ymm11
	vpor	%ymm12, %ymm11, %ymm11
	vpaddd	%ymm0, %ymm1, %ymm1
	vpaddd	%ymm1, %ymm11, %ymm4
	vpxor	%ymm3, %ymm4, %ymm0
	vmovdqa	.L1_v3_CPI71_0(%rip), %ymm6
	vpshufb	%ymm6, %ymm0, %ymm1
	vpaddd	%ymm1, %ymm9, %ymm12
	vpxor	%ymm11, %ymm12, %ymm9
	vpsrld	$12, %ymm9, %ymm11
	vpslld	$20, %ymm9, %ymm9
	vpor	%ymm11, %ymm9, %ymm11
	vpaddd	480(%rsp), %ymm13, %ymm3
	vmovdqu	96(%rsp), %ymm9
	vpaddd	%ymm3, %ymm9, %ymm3
	vpxor	%ymm2, %ymm3, %ymm2
	vpshufb	%ymm6, %ymm2, %ymm2
	vpaddd	%ymm5, %ymm2, %ymm0
	vpxor	%ymm0, %ymm9, %ymm5
	vpsrld	$12, %ymm5, %ymm9
	vpslld	$20, %ymm5, %ymm5
	vpor	%ymm5, %ymm9, %ymm13
	vpaddd	288(%rsp), %ymm4, %ymm4
	vpaddd	%ymm4, %ymm11, %ymm5
	vpxor	%ymm1, %ymm5, %ymm1
	vbroadcasti128	.L1_v3_CPI71_8(%rip), %ymm4
	vpshufb	%ymm4, %ymm1, %ymm9
	vpaddd	%ymm9, %ymm12, %ymm1
	vmovdqu	%ymm1, 96(%rsp)
	vpxor	%ymm1, %ymm11, %ymm1
	vpsrld	$7, %ymm1, %ymm11
	vpslld	$25, %ymm1, %ymm1
	vpor	%ymm1, %ymm11, %ymm1
	vmovdqu	%ymm1, 160(%rsp)
	vpaddd	256(%rsp), %ymm3, %ymm1
	vpaddd	%ymm1, %ymm13, %ymm3
	vpxor	%ymm2, %ymm3, %ymm1
	vpshufb	%ymm4, %ymm1, %ymm1
	vmovdqu	%ymm1, 736(%rsp)
	vpaddd	%ymm1, %ymm0, %ymm0
	vmovdqu	%ymm0, (%rsp)
	vpxor	%ymm0, %ymm13, %ymm0
	vpsrld	$7, %ymm0, %ymm11
	vpslld	$25, %ymm0, %ymm0
	vpor	%ymm0, %ymm11, %ymm12
	vpaddd	352(%rsp), %ymm15, %ymm0
	vmovdqu	64(%rsp), %ymm2
	vpaddd	%ymm2, %ymm0, %ymm1
	vpxor	%ymm7, %ymm1, %ymm6
	vmovdqa	.L1_v3_CPI71_0(%rip), %ymm4
	vpshufb	%ymm4, %ymm6, %ymm6
	vpaddd	128(%rsp), %ymm6, %ymm11
	vpxor	%ymm2, %ymm11, %ymm7
	vpsrld	$12, %ymm7, %ymm13
	vpslld	$20, %ymm7, %ymm7
	vpor	%ymm7, %ymm13, %ymm7
	vpaddd	%ymm14, %ymm10, %ymm10
	vpaddd	%ymm8, %ymm10, %ymm10
	vpxor	192(%rsp), %ymm10, %ymm13
	vpshufb	%ymm4, %ymm13, %ymm13
	vpaddd	32(%rsp), %ymm13, %ymm15
	vpxor	%ymm8, %ymm15, %ymm8
	vpsrld	$12, %ymm8, %ymm14
	vpslld	$20, %ymm8, %ymm8
	vpor	%ymm14, %ymm8, %ymm0
	vpaddd	320(%rsp), %ymm1, %ymm1
	vpaddd	%ymm7, %ymm1, %ymm14
	vpxor	%ymm6, %ymm14, %ymm1
	vbroadcasti128	.L1_v3_CPI71_8(%rip), %ymm2
	vpshufb	%ymm2, %ymm1, %ymm8
	vpaddd	%ymm8, %ymm11, %ymm1
	vpxor	%ymm7, %ymm1, %ymm6
	vpsrld	$7, %ymm6, %ymm7
	vpslld	$25, %ymm6, %ymm6
	vpor	%ymm7, %ymm6, %ymm11
	vpaddd	672(%rsp), %ymm10, %ymm6
	vpaddd	%ymm0, %ymm6, %ymm10
	vpxor	%ymm13, %ymm10, %ymm6
	vpshufb	%ymm2, %ymm6, %ymm13
	vpaddd	%ymm13, %ymm15, %ymm7
	vpxor	%ymm0, %ymm7, %ymm0
	vpsrld	$7, %ymm0, %ymm6
	vpslld	$25, %ymm0, %ymm0
	vpor	%ymm6, %ymm0, %ymm6
	vpaddd	768(%rsp), %ymm5, %ymm0
	vpaddd	%ymm0, %ymm12, %ymm15
	vpxor	%ymm13, %ymm15, %ymm5
	vpshufb	%ymm4, %ymm5, %ymm5
	vpaddd	%ymm1, %ymm5, %ymm1
	vpxor	%ymm1, %ymm12, %ymm12
	vpsrld	$12, %ymm12, %ymm13
	vpslld	$20, %ymm12, %ymm12
	vpor	%ymm13, %ymm12, %ymm13
	vpaddd	704(%rsp), %ymm3, %ymm3
	vpaddd	%ymm3, %ymm11, %ymm3
	vpxor	%ymm3, %ymm9, %ymm9
	vpshufb	%ymm4, %ymm9, %ymm9
	vpaddd	%ymm7, %ymm9, %ymm7
	vpxor	%ymm7, %ymm11, %ymm11
	vpsrld	$12, %ymm11, %ymm12
	vpslld	$20, %ymm11, %ymm11
	vpor	%ymm12, %ymm11, %ymm0
	vpaddd	512(%rsp), %ymm15, %ymm11
	vpaddd	%ymm13, %ymm11, %ymm15
	vpxor	%ymm5, %ymm15, %ymm5
	vpshufb	%ymm2, %ymm5, %ymm4
	vmovdqu	%ymm4, 224(%rsp)
	vpaddd	%ymm4, %ymm1, %ymm1
	vmovdqu	%ymm1, 128(%rsp)
	vpxor	%ymm1, %ymm13, %ymm1
	vpsrld	$7, %ymm1, %ymm11
	vpslld	$25, %ymm1, %ymm1
	vpor	%ymm1, %ymm11, %ymm1
	vmovdqu	%ymm1, 192(%rsp)
	vpaddd	448(%rsp), %ymm3, %ymm1
	vpaddd	%ymm0, %ymm1, %ymm13
	vpxor	%ymm9, %ymm13, %ymm1
	vpshufb	%ymm2, %ymm1, %ymm11
	vpaddd	%ymm7, %ymm11, %ymm1
	vmovdqu	%ymm1, 32(%rsp)
	vpxor	%ymm0, %ymm1, %ymm0
	vpsrld	$7, %ymm0, %ymm1
	vpslld	$25, %ymm0, %ymm0
	vpor	%ymm1, %ymm0, %ymm0
	vmovdqu	%ymm0, 64(%rsp)
	vmovdqu	640(%rsp), %ymm9
	vpaddd	%ymm9, %ymm14, %ymm0
	vpaddd	%ymm6, %ymm0, %ymm14
	vpxor	736(%rsp), %ymm14, %ymm1
	vmovdqa	.L1_v3_CPI71_0(%rip), %ymm0
	vpshufb	%ymm0, %ymm1, %ymm3
	vpaddd	96(%rsp), %ymm3, %ymm5
	vpxor	%ymm6, %ymm5, %ymm4
	vpsrld	$12, %ymm4, %ymm6
	vpslld	$20, %ymm4, %ymm4
	vpor	%ymm6, %ymm4, %ymm4
	vmovdqu	416(%rsp), %ymm12
	vpaddd	%ymm12, %ymm10, %ymm6
	vmovdqu	160(%rsp), %ymm1
	vpaddd	%ymm1, %ymm6, %ymm6
	vpxor	%ymm6, %ymm8, %ymm8
	vpshufb	%ymm0, %ymm8, %ymm0
	vpaddd	(%rsp), %ymm0, %ymm2
	vpxor	%ymm1, %ymm2, %ymm8
	vpsrld	$12, %ymm8, %ymm10
	vpslld	$20, %ymm8, %ymm8
	vpor	%ymm10, %ymm8, %ymm1
	vpaddd	576(%rsp), %ymm14, %ymm8
	vpaddd	%ymm4, %ymm8, %ymm14
	vpxor	%ymm3, %ymm14, %ymm3
	vbroadcasti128	.L1_v3_CPI71_8(%rip), %ymm7
	vpshufb	%ymm7, %ymm3, %ymm3
	vpaddd	%ymm3, %ymm5, %ymm5
	vpxor	%ymm4, %ymm5, %ymm4
	vpsrld	$7, %ymm4, %ymm8
	vpslld	$25, %ymm4, %ymm4
	vpor	%ymm4, %ymm8, %ymm8
	vpaddd	384(%rsp), %ymm6, %ymm4
	vpaddd	%ymm1, %ymm4, %ymm10
	vpxor	%ymm0, %ymm10, %ymm0
	vpshufb	%ymm7, %ymm0, %ymm6
	vpaddd	%ymm6, %ymm2, %ymm2
	vpxor	%ymm1, %ymm2, %ymm0
	vpsrld	$7, %ymm0, %ymm1
	vpslld	$25, %ymm0, %ymm0
	vpor	%ymm1, %ymm0, %ymm0
	vpaddd	%ymm9, %ymm15, %ymm1
	vpaddd	%ymm0, %ymm1, %ymm1
	vpxor	%ymm1, %ymm11, %ymm4
	vmovdqa	.L1_v3_CPI71_0(%rip), %ymm15
	vpshufb	%ymm15, %ymm4, %ymm4
	vpaddd	%ymm5, %ymm4, %ymm5
	vpxor	%ymm0, %ymm5, %ymm0
	vpsrld	$12, %ymm0, %ymm9
	vpslld	$20, %ymm0, %ymm0
	vpor	%ymm0, %ymm9, %ymm0
	vpaddd	512(%rsp), %ymm13, %ymm9
	vmovdqu	192(%rsp), %ymm7
	vpaddd	%ymm7, %ymm9, %ymm11
	vpxor	%ymm3, %ymm11, %ymm3
	vpshufb	%ymm15, %ymm3, %ymm3
	vpaddd	%ymm2, %ymm3, %ymm2
	vpxor	%ymm7, %ymm2, %ymm9
	vpsrld	$12, %ymm9, %ymm13
	vpslld	$20, %ymm9, %ymm9
	vpor	%ymm13, %ymm9, %ymm13
	vpaddd	256(%rsp), %ymm1, %ymm1
	vpaddd	%ymm0, %ymm1, %ymm15
	vpxor	%ymm4, %ymm15, %ymm1
	vbroadcasti128	.L1_v3_CPI71_8(%rip), %ymm4
	vpshufb	%ymm4, %ymm1, %ymm9
	vpaddd	%ymm5, %ymm9, %ymm1
	vmovdqu	%ymm1, (%rsp)
	vpxor	%ymm0, %ymm1, %ymm0
	vpsrld	$7, %ymm0, %ymm1
	vpslld	$25, %ymm0, %ymm0
	vpor	%ymm1, %ymm0, %ymm0
	vmovdqu	%ymm0, 192(%rsp)
	vpaddd	704(%rsp), %ymm11, %ymm0
	vpaddd	%ymm0, %ymm13, %ymm11
	vpxor	%ymm3, %ymm11, %ymm0
	vpshufb	%ymm4, %ymm0, %ymm4
	vpaddd	%ymm4, %ymm2, %ymm0
	vmovdqu	%ymm0, 160(%rsp)
	vpxor	%ymm0, %ymm13, %ymm0
	vpsrld	$7, %ymm0, %ymm3
	vpslld	$25, %ymm0, %ymm0
	vpor	%ymm3, %ymm0, %ymm1
	vpaddd	%ymm12, %ymm14, %ymm3
	vmovdqu	64(%rsp), %ymm2
	vpaddd	%ymm2, %ymm3, %ymm3
	vpxor	%ymm6, %ymm3, %ymm5
	vmovdqa	.L1_v3_CPI71_0(%rip), %ymm0
	vpshufb	%ymm0, %ymm5, %ymm5
	vpaddd	128(%rsp), %ymm5, %ymm6
	vpxor	%ymm2, %ymm6, %ymm7
	vpsrld	$12, %ymm7, %ymm12
	vpslld	$20, %ymm7, %ymm7
	vpor	%ymm7, %ymm12, %ymm7
	vpaddd	320(%rsp), %ymm10, %ymm10
	vpaddd	%ymm8, %ymm10, %ymm10
	vpxor	224(%rsp), %ymm10, %ymm12
	vpshufb	%ymm0, %ymm12, %ymm12
	vpaddd	32(%rsp), %ymm12, %ymm13
	vpxor	%ymm8, %ymm13, %ymm8
	vpsrld	$12, %ymm8, %ymm14
	vpslld	$20, %ymm8, %ymm8
	vpor	%ymm14, %ymm8, %ymm0
	vpaddd	448(%rsp), %ymm3, %ymm3
	vpaddd	%ymm7, %ymm3, %ymm14
	vpxor	%ymm5, %ymm14, %ymm3
	vbroadcasti128	.L1_v3_CPI71_8(%rip), %ymm2
	vpshufb	%ymm2, %ymm3, %ymm8
	vpaddd	%ymm6, %ymm8, %ymm6
	vpxor	%ymm7, %ymm6, %ymm3
	vpsrld	$7, %ymm3, %ymm5
	vpslld	$25, %ymm3, %ymm3
	vpor	%ymm5, %ymm3, %ymm3
	vpaddd	544(%rsp), %ymm10, %ymm5
	vpaddd	%ymm0, %ymm5, %ymm10
	vpxor	%ymm12, %ymm10, %ymm5
	vpshufb	%ymm2, %ymm5, %ymm7
	vpaddd	%ymm7, %ymm13, %ymm5
	vpxor	%ymm0, %ymm5, %ymm0
	vpsrld	$7, %ymm0, %ymm12
	vpslld	$25, %ymm0, %ymm0
	vpor	%ymm0, %ymm12, %ymm12
	vpaddd	288(%rsp), %ymm15, %ymm0
	vpaddd	%ymm1, %ymm0, %ymm15
	vpxor	%ymm7, %ymm15, %ymm7
	vmovdqa	.L1_v3_CPI71_0(%rip), %ymm0
	vpshufb	%ymm0, %ymm7, %ymm7
	vpaddd	%ymm6, %ymm7, %ymm13
	vpxor	%ymm1, %ymm13, %ymm1
	vpsrld	$12, %ymm1, %ymm6
	vpslld	$20, %ymm1, %ymm1
	vpor	%ymm6, %ymm1, %ymm2
	vpaddd	384(%rsp), %ymm11, %ymm6
	vpaddd	%ymm3, %ymm6, %ymm11
	vpxor	%ymm9, %ymm11, %ymm6
	vpshufb	%ymm0, %ymm6, %ymm9
	vmovdqa	%ymm0, %ymm6
	vpaddd	%ymm5, %ymm9, %ymm1
	vpxor	%ymm3, %ymm1, %ymm3
	vpsrld	$12, %ymm3, %ymm5
	vpslld	$20, %ymm3, %ymm3
	vpor	%ymm5, %ymm3, %ymm0
	vpaddd	608(%rsp), %ymm15, %ymm3
	vpaddd	%ymm2, %ymm3, %ymm3
	vmovdqu	%ymm3, 64(%rsp)
	vpxor	%ymm7, %ymm3, %ymm3
	vbroadcasti128	.L1_v3_CPI71_8(%rip), %ymm5
	vpshufb	%ymm5, %ymm3, %ymm3
	vmovdqu	%ymm3, 224(%rsp)
	vpaddd	%ymm3, %ymm13, %ymm3
	vmovdqu	%ymm3, 128(%rsp)
	vpxor	%ymm2, %ymm3, %ymm2
	vpsrld	$7, %ymm2, %ymm3
	vpslld	$25, %ymm2, %ymm2
	vpor	%ymm3, %ymm2, %ymm13
	vpaddd	672(%rsp), %ymm11, %ymm2
	vpaddd	%ymm0, %ymm2, %ymm11
	vpxor	%ymm9, %ymm11, %ymm2
	vpshufb	%ymm5, %ymm2, %ymm9
	vpaddd	%ymm1, %ymm9, %ymm1
	vmovdqu	%ymm1, 32(%rsp)
	vpxor	%ymm0, %ymm1, %ymm0
	vpsrld	$7, %ymm0, %ymm1
	vpslld	$25, %ymm0, %ymm0
	vpor	%ymm1, %ymm0, %ymm0
	vmovdqu	%ymm0, 96(%rsp)
	vmovdqu	576(%rsp), %ymm7
	vpaddd	%ymm7, %ymm14, %ymm0
	vpaddd	%ymm0, %ymm12, %ymm14
	vpxor	%ymm4, %ymm14, %ymm1
	vmovdqa	%ymm6, %ymm0
	vpshufb	%ymm6, %ymm1, %ymm2
	vpaddd	(%rsp), %ymm2, %ymm3
	vpxor	%ymm3, %ymm12, %ymm4
	vpsrld	$12, %ymm4, %ymm12
	vpslld	$20, %ymm4, %ymm4
	vpor	%ymm4, %ymm12, %ymm4
	vpaddd	352(%rsp), %ymm10, %ymm10
	vmovdqu	192(%rsp), %ymm6
	vpaddd	%ymm6, %ymm10, %ymm10
	vpxor	%ymm8, %ymm10, %ymm8
	vpshufb	%ymm0, %ymm8, %ymm12
	vpaddd	160(%rsp), %ymm12, %ymm1
	vpxor	%ymm6, %ymm1, %ymm8
	vpsrld	$12, %ymm8, %ymm0
	vpslld	$20, %ymm8, %ymm8
	vpor	%ymm0, %ymm8, %ymm8
	vmovdqu	768(%rsp), %ymm15
	vpaddd	%ymm15, %ymm14, %ymm0
	vpaddd	%ymm4, %ymm0, %ymm14
	vpxor	%ymm2, %ymm14, %ymm0
	vpshufb	%ymm5, %ymm0, %ymm6
	vpaddd	%ymm6, %ymm3, %ymm0
	vpxor	%ymm4, %ymm0, %ymm2
	vpsrld	$7, %ymm2, %ymm3
	vpslld	$25, %ymm2, %ymm2
	vpor	%ymm3, %ymm2, %ymm3
	vpaddd	480(%rsp), %ymm10, %ymm2
	vpaddd	%ymm2, %ymm8, %ymm10
	vpxor	%ymm12, %ymm10, %ymm2
	vpshufb	%ymm5, %ymm2, %ymm12
	vpaddd	%ymm1, %ymm12, %ymm2
	vpxor	%ymm2, %ymm8, %ymm1
	vpsrld	$7, %ymm1, %ymm4
	vpslld	$25, %ymm1, %ymm1
	vpor	%ymm4, %ymm1, %ymm1
	vpaddd	64(%rsp), %ymm7, %ymm4
	vpaddd	%ymm1, %ymm4, %ymm4
	vpxor	%ymm4, %ymm9, %ymm8
	vmovdqa	.L1_v3_CPI71_0(%rip), %ymm7
	vpshufb	%ymm7, %ymm8, %ymm8
	vpaddd	%ymm0, %ymm8, %ymm0
	vpxor	%ymm1, %ymm0, %ymm1
	vpsrld	$12, %ymm1, %ymm9
	vpslld	$20, %ymm1, %ymm1
	vpor	%ymm1, %ymm9, %ymm1
	vpaddd	384(%rsp), %ymm11, %ymm9
	vpaddd	%ymm13, %ymm9, %ymm11
	vpxor	%ymm6, %ymm11, %ymm5
	vpshufb	%ymm7, %ymm5, %ymm5
	vpaddd	%ymm2, %ymm5, %ymm2
	vpxor	%ymm2, %ymm13, %ymm9
	vpsrld	$12, %ymm9, %ymm13
	vpslld	$20, %ymm9, %ymm9
	vpor	%ymm13, %ymm9, %ymm13
	vpaddd	352(%rsp), %ymm4, %ymm4
	vpaddd	%ymm1, %ymm4, %ymm9
	vpxor	%ymm8, %ymm9, %ymm4
	vbroadcasti128	.L1_v3_CPI71_8(%rip), %ymm6
	vpshufb	%ymm6, %ymm4, %ymm4
	vpaddd	%ymm4, %ymm0, %ymm0
	vmovdqu	%ymm0, (%rsp)
	vpxor	%ymm1, %ymm0, %ymm0
	vpsrld	$7, %ymm0, %ymm1
	vpslld	$25, %ymm0, %ymm0
	vpor	%ymm1, %ymm0, %ymm0
	vmovdqu	%ymm0, 192(%rsp)
	vpaddd	%ymm15, %ymm11, %ymm0
	vpaddd	%ymm0, %ymm13, %ymm11
	vpxor	%ymm5, %ymm11, %ymm0
	vpshufb	%ymm6, %ymm0, %ymm0
	vmovdqu	%ymm0, 64(%rsp)
	vmovdqa	%ymm6, %ymm15
	vpaddd	%ymm0, %ymm2, %ymm0
	vmovdqu	%ymm0, 160(%rsp)
	vpxor	%ymm0, %ymm13, %ymm0
	vpsrld	$7, %ymm0, %ymm5
	vpslld	$25, %ymm0, %ymm0
	vpor	%ymm5, %ymm0, %ymm1
	vpaddd	544(%rsp), %ymm14, %ymm5
	vmovdqu	96(%rsp), %ymm2
	vpaddd	%ymm2, %ymm5, %ymm5
	vpxor	%ymm5, %ymm12, %ymm8
	vmovdqa	%ymm7, %ymm0
	vpshufb	%ymm7, %ymm8, %ymm8
	vpaddd	128(%rsp), %ymm8, %ymm6
	vpxor	%ymm2, %ymm6, %ymm7
	vpsrld	$12, %ymm7, %ymm12
	vpslld	$20, %ymm7, %ymm7
	vpor	%ymm7, %ymm12, %ymm7
	vpaddd	640(%rsp), %ymm10, %ymm10
	vpaddd	%ymm3, %ymm10, %ymm10
	vpxor	224(%rsp), %ymm10, %ymm12
	vpshufb	%ymm0, %ymm12, %ymm12
	vmovdqa	%ymm0, %ymm2
	vpaddd	32(%rsp), %ymm12, %ymm13
	vpxor	%ymm3, %ymm13, %ymm3
	vpsrld	$12, %ymm3, %ymm14
	vpslld	$20, %ymm3, %ymm3
	vpor	%ymm3, %ymm14, %ymm0
	vpaddd	512(%rsp), %ymm5, %ymm3
	vpaddd	%ymm7, %ymm3, %ymm14
	vpxor	%ymm8, %ymm14, %ymm3
	vpshufb	%ymm15, %ymm3, %ymm8
	vpaddd	%ymm6, %ymm8, %ymm6
	vpxor	%ymm7, %ymm6, %ymm3
	vpsrld	$7, %ymm3, %ymm5
	vpslld	$25, %ymm3, %ymm3
	vpor	%ymm5, %ymm3, %ymm3
	vpaddd	608(%rsp), %ymm10, %ymm5
	vpaddd	%ymm0, %ymm5, %ymm10
	vpxor	%ymm12, %ymm10, %ymm5
	vpshufb	%ymm15, %ymm5, %ymm7
	vpaddd	%ymm7, %ymm13, %ymm5
	vpxor	%ymm0, %ymm5, %ymm0
	vpsrld	$7, %ymm0, %ymm12
	vpslld	$25, %ymm0, %ymm0
	vpor	%ymm0, %ymm12, %ymm12
	vpaddd	448(%rsp), %ymm9, %ymm0
	vpaddd	%ymm1, %ymm0, %ymm15
	vpxor	%ymm7, %ymm15, %ymm7
	vmovdqa	%ymm2, %ymm0
	vpshufb	%ymm2, %ymm7, %ymm7
	vpaddd	%ymm6, %ymm7, %ymm13
	vpxor	%ymm1, %ymm13, %ymm1
	vpsrld	$12, %ymm1, %ymm6
	vpslld	$20, %ymm1, %ymm1
	vpor	%ymm6, %ymm1, %ymm2
	vpaddd	416(%rsp), %ymm11, %ymm6
	vpaddd	%ymm3, %ymm6, %ymm11
	vpxor	%ymm4, %ymm11, %ymm6
	vpshufb	%ymm0, %ymm6, %ymm9
	vmovdqa	%ymm0, %ymm4
	vpaddd	%ymm5, %ymm9, %ymm1
	vpxor	%ymm3, %ymm1, %ymm3
	vpsrld	$12, %ymm3, %ymm5
	vpslld	$20, %ymm3, %ymm3
	vpor	%ymm5, %ymm3, %ymm0
	vpaddd	672(%rsp), %ymm15, %ymm3
	vpaddd	%ymm2, %ymm3, %ymm15
	vpxor	%ymm7, %ymm15, %ymm3
	vbroadcasti128	.L1_v3_CPI71_8(%rip), %ymm7
	vpshufb	%ymm7, %ymm3, %ymm3
	vmovdqu	%ymm3, 224(%rsp)
	vpaddd	%ymm3, %ymm13, %ymm3
	vmovdqu	%ymm3, 128(%rsp)
	vpxor	%ymm2, %ymm3, %ymm2
	vpsrld	$7, %ymm2, %ymm3
	vpslld	$25, %ymm2, %ymm2
	vpor	%ymm3, %ymm2, %ymm13
	vpaddd	288(%rsp), %ymm11, %ymm2
	vpaddd	%ymm0, %ymm2, %ymm11
	vpxor	%ymm9, %ymm11, %ymm2
	vpshufb	%ymm7, %ymm2, %ymm9
	vpaddd	%ymm1, %ymm9, %ymm1
	vmovdqu	%ymm1, 32(%rsp)
	vpxor	%ymm0, %ymm1, %ymm0
	vpsrld	$7, %ymm0, %ymm1
	vpslld	$25, %ymm0, %ymm0
	vpor	%ymm1, %ymm0, %ymm0
	vmovdqu	%ymm0, 96(%rsp)
	vpaddd	480(%rsp), %ymm14, %ymm0
	vpaddd	%ymm0, %ymm12, %ymm14
	vpxor	64(%rsp), %ymm14, %ymm1
	vmovdqa	%ymm4, %ymm0
	vpshufb	%ymm4, %ymm1, %ymm2
	vpaddd	(%rsp), %ymm2, %ymm3
	vpxor	%ymm3, %ymm12, %ymm4
	vpsrld	$12, %ymm4, %ymm12
	vpslld	$20, %ymm4, %ymm4
	vpor	%ymm4, %ymm12, %ymm4
	vpaddd	320(%rsp), %ymm10, %ymm10
	vmovdqu	192(%rsp), %ymm5
	vpaddd	%ymm5, %ymm10, %ymm10
	vpxor	%ymm8, %ymm10, %ymm8
	vpshufb	%ymm0, %ymm8, %ymm12
	vpaddd	160(%rsp), %ymm12, %ymm1
	vpxor	%ymm5, %ymm1, %ymm8
	vpsrld	$12, %ymm8, %ymm0
	vpslld	$20, %ymm8, %ymm8
	vpor	%ymm0, %ymm8, %ymm8
	vmovdqu	704(%rsp), %ymm6
	vpaddd	%ymm6, %ymm14, %ymm0
	vpaddd	%ymm4, %ymm0, %ymm14
	vpxor	%ymm2, %ymm14, %ymm0
	vmovdqa	%ymm7, %ymm5
	vpshufb	%ymm7, %ymm0, %ymm7
	vpaddd	%ymm7, %ymm3, %ymm0
	vpxor	%ymm4, %ymm0, %ymm2
	vpsrld	$7, %ymm2, %ymm3
	vpslld	$25, %ymm2, %ymm2
	vpor	%ymm3, %ymm2, %ymm3
	vpaddd	256(%rsp), %ymm10, %ymm2
	vpaddd	%ymm2, %ymm8, %ymm10
	vpxor	%ymm12, %ymm10, %ymm2
	vpshufb	%ymm5, %ymm2, %ymm12
	vpaddd	%ymm1, %ymm12, %ymm2
	vpxor	%ymm2, %ymm8, %ymm1
	vpsrld	$7, %ymm1, %ymm4
	vpslld	$25, %ymm1, %ymm1
	vpor	%ymm4, %ymm1, %ymm1
	vpaddd	352(%rsp), %ymm15, %ymm4
	vpaddd	%ymm1, %ymm4, %ymm4
	vpxor	%ymm4, %ymm9, %ymm8
	vmovdqa	.L1_v3_CPI71_0(%rip), %ymm15
	vpshufb	%ymm15, %ymm8, %ymm8
	vpaddd	%ymm0, %ymm8, %ymm0
	vpxor	%ymm1, %ymm0, %ymm1
	vpsrld	$12, %ymm1, %ymm9
	vpslld	$20, %ymm1, %ymm1
	vpor	%ymm1, %ymm9, %ymm1
	vpaddd	416(%rsp), %ymm11, %ymm9
	vpaddd	%ymm13, %ymm9, %ymm11
	vpxor	%ymm7, %ymm11, %ymm5
	vpshufb	%ymm15, %ymm5, %ymm5
	vmovdqa	%ymm15, %ymm7
	vpaddd	%ymm2, %ymm5, %ymm2
	vpxor	%ymm2, %ymm13, %ymm9
	vpsrld	$12, %ymm9, %ymm13
	vpslld	$20, %ymm9, %ymm9
	vpor	%ymm13, %ymm9, %ymm13
	vpaddd	%ymm6, %ymm4, %ymm4
	vpaddd	%ymm1, %ymm4, %ymm15
	vpxor	%ymm8, %ymm15, %ymm4
	vbroadcasti128	.L1_v3_CPI71_8(%rip), %ymm6
	vpshufb	%ymm6, %ymm4, %ymm9
	vpaddd	%ymm0, %ymm9, %ymm0
	vmovdqu	%ymm0, (%rsp)
	vpxor	%ymm1, %ymm0, %ymm0
	vpsrld	$7, %ymm0, %ymm1
	vpslld	$25, %ymm0, %ymm0
	vpor	%ymm1, %ymm0, %ymm0
	vmovdqu	%ymm0, 192(%rsp)
	vpaddd	576(%rsp), %ymm11, %ymm0
	vpaddd	%ymm0, %ymm13, %ymm11
	vpxor	%ymm5, %ymm11, %ymm0
	vpshufb	%ymm6, %ymm0, %ymm4
	vpaddd	%ymm4, %ymm2, %ymm0
	vmovdqu	%ymm0, 160(%rsp)
	vpxor	%ymm0, %ymm13, %ymm0
	vpsrld	$7, %ymm0, %ymm5
	vpslld	$25, %ymm0, %ymm0
	vpor	%ymm5, %ymm0, %ymm1
	vpaddd	448(%rsp), %ymm14, %ymm5
	vmovdqu	96(%rsp), %ymm2
	vpaddd	%ymm2, %ymm5, %ymm5
	vpxor	%ymm5, %ymm12, %ymm8
	vmovdqa	%ymm7, %ymm0
	vpshufb	%ymm7, %ymm8, %ymm8
	vpaddd	128(%rsp), %ymm8, %ymm6
	vpxor	%ymm2, %ymm6, %ymm7
	vpsrld	$12, %ymm7, %ymm12
	vpslld	$20, %ymm7, %ymm7
	vpor	%ymm7, %ymm12, %ymm7
	vpaddd	288(%rsp), %ymm10, %ymm10
	vpaddd	%ymm3, %ymm10, %ymm10
	vpxor	224(%rsp), %ymm10, %ymm12
	vpshufb	%ymm0, %ymm12, %ymm12
	vpaddd	32(%rsp), %ymm12, %ymm13
	vpxor	%ymm3, %ymm13, %ymm3
	vpsrld	$12, %ymm3, %ymm14
	vpslld	$20, %ymm3, %ymm3
	vpor	%ymm3, %ymm14, %ymm0
	vpaddd	480(%rsp), %ymm5, %ymm3
	vpaddd	%ymm7, %ymm3, %ymm14
	vpxor	%ymm8, %ymm14, %ymm3
	vbroadcasti128	.L1_v3_CPI71_8(%rip), %ymm2
	vpshufb	%ymm2, %ymm3, %ymm8
	vpaddd	%ymm6, %ymm8, %ymm6
	vpxor	%ymm7, %ymm6, %ymm3
	vpsrld	$7, %ymm3, %ymm5
	vpslld	$25, %ymm3, %ymm3
	vpor	%ymm5, %ymm3, %ymm3
	vpaddd	320(%rsp), %ymm10, %ymm5
	vpaddd	%ymm0, %ymm5, %ymm10
	vpxor	%ymm12, %ymm10, %ymm5
	vpshufb	%ymm2, %ymm5, %ymm7
	vpaddd	%ymm7, %ymm13, %ymm5
	vpxor	%ymm0, %ymm5, %ymm0
	vpsrld	$7, %ymm0, %ymm12
	vpslld	$25, %ymm0, %ymm0
	vpor	%ymm0, %ymm12, %ymm12
	vpaddd	608(%rsp), %ymm15, %ymm0
	vpaddd	%ymm1, %ymm0, %ymm15
	vpxor	%ymm7, %ymm15, %ymm7
	vmovdqa	.L1_v3_CPI71_0(%rip), %ymm0
	vpshufb	%ymm0, %ymm7, %ymm7
	vpaddd	%ymm6, %ymm7, %ymm13
	vpxor	%ymm1, %ymm13, %ymm1
	vpsrld	$12, %ymm1, %ymm6
	vpslld	$20, %ymm1, %ymm1
	vpor	%ymm6, %ymm1, %ymm2
	vpaddd	640(%rsp), %ymm11, %ymm6
	vpaddd	%ymm3, %ymm6, %ymm11
	vpxor	%ymm9, %ymm11, %ymm6
	vpshufb	%ymm0, %ymm6, %ymm9
	vmovdqa	%ymm0, %ymm6
	vpaddd	%ymm5, %ymm9, %ymm1
	vpxor	%ymm3, %ymm1, %ymm3
	vpsrld	$12, %ymm3, %ymm5
	vpslld	$20, %ymm3, %ymm3
	vpor	%ymm5, %ymm3, %ymm0
	vpaddd	768(%rsp), %ymm15, %ymm3
	vpaddd	%ymm2, %ymm3, %ymm5
	vpxor	%ymm7, %ymm5, %ymm3
	vmovdqa	%ymm5, %ymm7
	vbroadcasti128	.L1_v3_CPI71_8(%rip), %ymm5
	vpshufb	%ymm5, %ymm3, %ymm3
	vmovdqu	%ymm3, 224(%rsp)
	vpaddd	%ymm3, %ymm13, %ymm3
	vmovdqu	%ymm3, 128(%rsp)
	vpxor	%ymm2, %ymm3, %ymm2
	vpsrld	$7, %ymm2, %ymm3
	vpslld	$25, %ymm2, %ymm2
	vpor	%ymm3, %ymm2, %ymm2
	vmovdqu	%ymm2, 96(%rsp)
	vpaddd	512(%rsp), %ymm11, %ymm2
	vpaddd	%ymm0, %ymm2, %ymm13
	vpxor	%ymm9, %ymm13, %ymm2
	vpshufb	%ymm5, %ymm2, %ymm9
	vpaddd	%ymm1, %ymm9, %ymm1
	vmovdqu	%ymm1, 32(%rsp)
	vpxor	%ymm0, %ymm1, %ymm0
	vpsrld	$7, %ymm0, %ymm1
	vpslld	$25, %ymm0, %ymm0
	vpor	%ymm1, %ymm0, %ymm0
	vmovdqu	%ymm0, 64(%rsp)
	vmovdqu	672(%rsp), %ymm11
	vpaddd	%ymm11, %ymm14, %ymm0
	vpaddd	%ymm0, %ymm12, %ymm14
	vpxor	%ymm4, %ymm14, %ymm1
	vpshufb	%ymm6, %ymm1, %ymm2
	vpaddd	(%rsp), %ymm2, %ymm3
	vpxor	%ymm3, %ymm12, %ymm4
	vpsrld	$12, %ymm4, %ymm12
	vpslld	$20, %ymm4, %ymm4
	vpor	%ymm4, %ymm12, %ymm4
	vpaddd	384(%rsp), %ymm10, %ymm10
	vmovdqu	192(%rsp), %ymm5
	vpaddd	%ymm5, %ymm10, %ymm10
	vpxor	%ymm8, %ymm10, %ymm8
	vpshufb	%ymm6, %ymm8, %ymm12
	vpaddd	160(%rsp), %ymm12, %ymm1
	vpxor	%ymm5, %ymm1, %ymm8
	vpsrld	$12, %ymm8, %ymm0
	vpslld	$20, %ymm8, %ymm8
	vpor	%ymm0, %ymm8, %ymm8
	vmovdqu	256(%rsp), %ymm15
	vpaddd	%ymm15, %ymm14, %ymm0
	vpaddd	%ymm4, %ymm0, %ymm14
	vpxor	%ymm2, %ymm14, %ymm0
	vbroadcasti128	.L1_v3_CPI71_8(%rip), %ymm5
	vpshufb	%ymm5, %ymm0, %ymm6
	vpaddd	%ymm6, %ymm3, %ymm0
	vpxor	%ymm4, %ymm0, %ymm2
	vpsrld	$7, %ymm2, %ymm3
	vpslld	$25, %ymm2, %ymm2
	vpor	%ymm3, %ymm2, %ymm3
	vpaddd	544(%rsp), %ymm10, %ymm2
	vpaddd	%ymm2, %ymm8, %ymm10
	vpxor	%ymm12, %ymm10, %ymm2
	vpshufb	%ymm5, %ymm2, %ymm12
	vpaddd	%ymm1, %ymm12, %ymm2
	vpxor	%ymm2, %ymm8, %ymm1
	vpsrld	$7, %ymm1, %ymm4
	vpslld	$25, %ymm1, %ymm1
	vpor	%ymm4, %ymm1, %ymm1
	vpaddd	448(%rsp), %ymm7, %ymm4
	vpaddd	%ymm1, %ymm4, %ymm4
	vpxor	%ymm4, %ymm9, %ymm8
	vmovdqa	.L1_v3_CPI71_0(%rip), %ymm7
	vpshufb	%ymm7, %ymm8, %ymm8
	vpaddd	%ymm0, %ymm8, %ymm0
	vpxor	%ymm1, %ymm0, %ymm1
	vpsrld	$12, %ymm1, %ymm9
	vpslld	$20, %ymm1, %ymm1
	vpor	%ymm1, %ymm9, %ymm1
	vpaddd	%ymm11, %ymm13, %ymm9
	vmovdqu	96(%rsp), %ymm13
	vpaddd	%ymm13, %ymm9, %ymm11
	vpxor	%ymm6, %ymm11, %ymm5
	vpshufb	%ymm7, %ymm5, %ymm5
	vpaddd	%ymm2, %ymm5, %ymm2
	vpxor	%ymm2, %ymm13, %ymm9
	vpsrld	$12, %ymm9, %ymm13
	vpslld	$20, %ymm9, %ymm9
	vpor	%ymm13, %ymm9, %ymm13
	vpaddd	512(%rsp), %ymm4, %ymm4
	vpaddd	%ymm1, %ymm4, %ymm9
	vpxor	%ymm8, %ymm9, %ymm4
	vbroadcasti128	.L1_v3_CPI71_8(%rip), %ymm6
	vpshufb	%ymm6, %ymm4, %ymm4
	vpaddd	%ymm4, %ymm0, %ymm0
	vmovdqu	%ymm0, (%rsp)
	vpxor	%ymm1, %ymm0, %ymm0
	vpsrld	$7, %ymm0, %ymm1
	vpslld	$25, %ymm0, %ymm0
	vpor	%ymm1, %ymm0, %ymm0
	vmovdqu	%ymm0, 192(%rsp)
	vpaddd	288(%rsp), %ymm11, %ymm0
	vpaddd	%ymm0, %ymm13, %ymm11
	vpxor	%ymm5, %ymm11, %ymm0
	vpshufb	%ymm6, %ymm0, %ymm0
	vmovdqu	%ymm0, 96(%rsp)
	vpaddd	%ymm0, %ymm2, %ymm0
	vmovdqu	%ymm0, 160(%rsp)
	vpxor	%ymm0, %ymm13, %ymm0
	vpsrld	$7, %ymm0, %ymm5
	vpslld	$25, %ymm0, %ymm0
	vpor	%ymm5, %ymm0, %ymm1
	vpaddd	704(%rsp), %ymm14, %ymm5
	vmovdqu	64(%rsp), %ymm2
	vpaddd	%ymm2, %ymm5, %ymm5
	vpxor	%ymm5, %ymm12, %ymm8
	vmovdqa	%ymm7, %ymm0
	vpshufb	%ymm7, %ymm8, %ymm8
	vpaddd	128(%rsp), %ymm8, %ymm6
	vpxor	%ymm2, %ymm6, %ymm7
	vpsrld	$12, %ymm7, %ymm12
	vpslld	$20, %ymm7, %ymm7
	vpor	%ymm7, %ymm12, %ymm7
	vpaddd	%ymm15, %ymm10, %ymm10
	vpaddd	%ymm3, %ymm10, %ymm10
	vpxor	224(%rsp), %ymm10, %ymm12
	vpshufb	%ymm0, %ymm12, %ymm12
	vpaddd	32(%rsp), %ymm12, %ymm13
	vpxor	%ymm3, %ymm13, %ymm3
	vpsrld	$12, %ymm3, %ymm14
	vpslld	$20, %ymm3, %ymm3
	vpor	%ymm3, %ymm14, %ymm0
	vpaddd	640(%rsp), %ymm5, %ymm3
	vpaddd	%ymm7, %ymm3, %ymm14
	vpxor	%ymm8, %ymm14, %ymm3
	vbroadcasti128	.L1_v3_CPI71_8(%rip), %ymm2
	vpshufb	%ymm2, %ymm3, %ymm8
	vpaddd	%ymm6, %ymm8, %ymm6
	vpxor	%ymm7, %ymm6, %ymm3
	vpsrld	$7, %ymm3, %ymm5
	vpslld	$25, %ymm3, %ymm3
	vpor	%ymm5, %ymm3, %ymm3
	vpaddd	384(%rsp), %ymm10, %ymm5
	vpaddd	%ymm0, %ymm5, %ymm10
	vpxor	%ymm12, %ymm10, %ymm5
	vpshufb	%ymm2, %ymm5, %ymm7
	vpaddd	%ymm7, %ymm13, %ymm5
	vpxor	%ymm0, %ymm5, %ymm0
	vpsrld	$7, %ymm0, %ymm12
	vpslld	$25, %ymm0, %ymm0
	vpor	%ymm0, %ymm12, %ymm12
	vpaddd	480(%rsp), %ymm9, %ymm0
	vpaddd	%ymm1, %ymm0, %ymm15
	vpxor	%ymm7, %ymm15, %ymm7
	vmovdqa	.L1_v3_CPI71_0(%rip), %ymm0
	vpshufb	%ymm0, %ymm7, %ymm7
	vpaddd	%ymm6, %ymm7, %ymm13
	vpxor	%ymm1, %ymm13, %ymm1
	vpsrld	$12, %ymm1, %ymm6
	vpslld	$20, %ymm1, %ymm1
	vpor	%ymm6, %ymm1, %ymm2
	vpaddd	576(%rsp), %ymm11, %ymm6
	vpaddd	%ymm3, %ymm6, %ymm11
	vpxor	%ymm4, %ymm11, %ymm6
	vpshufb	%ymm0, %ymm6, %ymm9
	vmovdqa	%ymm0, %ymm6
	vpaddd	%ymm5, %ymm9, %ymm1
	vpxor	%ymm3, %ymm1, %ymm3
	vpsrld	$12, %ymm3, %ymm5
	vpslld	$20, %ymm3, %ymm3
	vpor	%ymm5, %ymm3, %ymm0
	vpaddd	544(%rsp), %ymm15, %ymm3
	vpaddd	%ymm2, %ymm3, %ymm3
	vmovdqu	%ymm3, 1024(%rsp)
	vpxor	%ymm7, %ymm3, %ymm3
	vbroadcasti128	.L1_v3_CPI71_8(%rip), %ymm5
	vpshufb	%ymm5, %ymm3, %ymm3
	vmovdqu	%ymm3, 224(%rsp)
	vpaddd	%ymm3, %ymm13, %ymm3
	vmovdqu	%ymm3, 128(%rsp)
	vpxor	%ymm2, %ymm3, %ymm2
	vpsrld	$7, %ymm2, %ymm3
	vpslld	$25, %ymm2, %ymm2
	vpor	%ymm3, %ymm2, %ymm13
	vpaddd	416(%rsp), %ymm11, %ymm2
	vpaddd	%ymm0, %ymm2, %ymm11
	vpxor	%ymm9, %ymm11, %ymm2
	vpshufb	%ymm5, %ymm2, %ymm9
	vpaddd	%ymm1, %ymm9, %ymm1
	vmovdqu	%ymm1, 32(%rsp)
	vpxor	%ymm0, %ymm1, %ymm0
	vpsrld	$7, %ymm0, %ymm1
	vpslld	$25, %ymm0, %ymm0
	vpor	%ymm1, %ymm0, %ymm0
	vmovdqu	%ymm0, 64(%rsp)
	vpaddd	320(%rsp), %ymm14, %ymm0
	vpaddd	%ymm0, %ymm12, %ymm14
	vpxor	96(%rsp), %ymm14, %ymm1
	vmovdqa	%ymm6, %ymm0
	vpshufb	%ymm6, %ymm1, %ymm2
	vpaddd	(%rsp), %ymm2, %ymm3
	vpxor	%ymm3, %ymm12, %ymm4
	vpsrld	$12, %ymm4, %ymm12
	vpslld	$20, %ymm4, %ymm4
	vpor	%ymm4, %ymm12, %ymm4
	vmovdqu	768(%rsp), %ymm7
	vpaddd	%ymm7, %ymm10, %ymm10
	vmovdqu	192(%rsp), %ymm6
	vpaddd	%ymm6, %ymm10, %ymm10
	vpxor	%ymm8, %ymm10, %ymm8
	vpshufb	%ymm0, %ymm8, %ymm12
	vpaddd	160(%rsp), %ymm12, %ymm1
	vpxor	%ymm6, %ymm1, %ymm8
	vpsrld	$12, %ymm8, %ymm0
	vpslld	$20, %ymm8, %ymm8
	vpor	%ymm0, %ymm8, %ymm8
	vmovdqu	608(%rsp), %ymm15
	vpaddd	%ymm15, %ymm14, %ymm0
	vpaddd	%ymm4, %ymm0, %ymm14
	vpxor	%ymm2, %ymm14, %ymm0
	vpshufb	%ymm5, %ymm0, %ymm6
	vpaddd	%ymm6, %ymm3, %ymm0
	vpxor	%ymm4, %ymm0, %ymm2
	vpsrld	$7, %ymm2, %ymm3
	vpslld	$25, %ymm2, %ymm2
	vpor	%ymm3, %ymm2, %ymm2
	vmovdqu	%ymm2, 736(%rsp)
	vpaddd	352(%rsp), %ymm10, %ymm2
	vpaddd	%ymm2, %ymm8, %ymm10
	vpxor	%ymm12, %ymm10, %ymm2
	vpshufb	%ymm5, %ymm2, %ymm12
	vpaddd	%ymm1, %ymm12, %ymm2
	vpxor	%ymm2, %ymm8, %ymm1
	vpsrld	$7, %ymm1, %ymm4
	vpslld	$25, %ymm1, %ymm1
	vpor	%ymm4, %ymm1, %ymm1
	vmovdqu	1024(%rsp), %ymm3
	vpaddd	512(%rsp), %ymm3, %ymm4
	vpaddd	%ymm1, %ymm4, %ymm4
	vpxor	%ymm4, %ymm9, %ymm8
	vmovdqa	.L1_v3_CPI71_0(%rip), %ymm3
	vpshufb	%ymm3, %ymm8, %ymm8
	vpaddd	%ymm0, %ymm8, %ymm0
	vpxor	%ymm1, %ymm0, %ymm1
	vpsrld	$12, %ymm1, %ymm9
	vpslld	$20, %ymm1, %ymm1
	vpor	%ymm1, %ymm9, %ymm1
	vpaddd	%ymm7, %ymm11, %ymm9
	vpaddd	%ymm13, %ymm9, %ymm11
	vpxor	%ymm6, %ymm11, %ymm5
	vpshufb	%ymm3, %ymm5, %ymm5
	vmovdqa	%ymm3, %ymm7
	vpaddd	%ymm2, %ymm5, %ymm2
	vpxor	%ymm2, %ymm13, %ymm9
	vpsrld	$12, %ymm9, %ymm13
	vpslld	$20, %ymm9, %ymm9
	vpor	%ymm13, %ymm9, %ymm13
	vpaddd	416(%rsp), %ymm4, %ymm4
	vpaddd	%ymm1, %ymm4, %ymm9
	vpxor	%ymm8, %ymm9, %ymm4
	vbroadcasti128	.L1_v3_CPI71_8(%rip), %ymm3
	vpshufb	%ymm3, %ymm4, %ymm4
	vpaddd	%ymm4, %ymm0, %ymm0
	vmovdqu	%ymm0, (%rsp)
	vpxor	%ymm1, %ymm0, %ymm0
	vpsrld	$7, %ymm0, %ymm1
	vpslld	$25, %ymm0, %ymm0
	vpor	%ymm1, %ymm0, %ymm0
	vmovdqu	%ymm0, 192(%rsp)
	vpaddd	320(%rsp), %ymm11, %ymm0
	vpaddd	%ymm0, %ymm13, %ymm11
	vpxor	%ymm5, %ymm11, %ymm0
	vpshufb	%ymm3, %ymm0, %ymm0
	vmovdqu	%ymm0, 96(%rsp)
	vpaddd	%ymm0, %ymm2, %ymm0
	vmovdqu	%ymm0, 160(%rsp)
	vpxor	%ymm0, %ymm13, %ymm0
	vpsrld	$7, %ymm0, %ymm5
	vpslld	$25, %ymm0, %ymm0
	vpor	%ymm5, %ymm0, %ymm1
	vpaddd	%ymm15, %ymm14, %ymm5
	vmovdqu	64(%rsp), %ymm0
	vpaddd	%ymm0, %ymm5, %ymm5
	vpxor	%ymm5, %ymm12, %ymm8
	vmovdqa	%ymm7, %ymm2
	vpshufb	%ymm7, %ymm8, %ymm8
	vpaddd	128(%rsp), %ymm8, %ymm6
	vpxor	%ymm0, %ymm6, %ymm7
	vpsrld	$12, %ymm7, %ymm12
	vpslld	$20, %ymm7, %ymm7
	vpor	%ymm7, %ymm12, %ymm7
	vpaddd	480(%rsp), %ymm10, %ymm10
	vmovdqu	736(%rsp), %ymm0
	vpaddd	%ymm0, %ymm10, %ymm10
	vpxor	224(%rsp), %ymm10, %ymm12
	vpshufb	%ymm2, %ymm12, %ymm12
	vpaddd	32(%rsp), %ymm12, %ymm13
	vpxor	%ymm0, %ymm13, %ymm3
	vpsrld	$12, %ymm3, %ymm14
	vpslld	$20, %ymm3, %ymm3
	vpor	%ymm3, %ymm14, %ymm0
	vpaddd	544(%rsp), %ymm5, %ymm3
	vpaddd	%ymm7, %ymm3, %ymm14
	vpxor	%ymm8, %ymm14, %ymm3
	vbroadcasti128	.L1_v3_CPI71_8(%rip), %ymm15
	vpshufb	%ymm15, %ymm3, %ymm8
	vpaddd	%ymm6, %ymm8, %ymm6
	vpxor	%ymm7, %ymm6, %ymm3
	vpsrld	$7, %ymm3, %ymm5
	vpslld	$25, %ymm3, %ymm3
	vpor	%ymm5, %ymm3, %ymm3
	vpaddd	288(%rsp), %ymm10, %ymm5
	vpaddd	%ymm0, %ymm5, %ymm10
	vpxor	%ymm12, %ymm10, %ymm5
	vpshufb	%ymm15, %ymm5, %ymm7
	vpaddd	%ymm7, %ymm13, %ymm5
	vpxor	%ymm0, %ymm5, %ymm0
	vpsrld	$7, %ymm0, %ymm12
	vpslld	$25, %ymm0, %ymm0
	vpor	%ymm0, %ymm12, %ymm12
	vpaddd	704(%rsp), %ymm9, %ymm0
	vpaddd	%ymm1, %ymm0, %ymm15
	vpxor	%ymm7, %ymm15, %ymm7
	vpshufb	%ymm2, %ymm7, %ymm7
	vpaddd	%ymm6, %ymm7, %ymm6
	vpxor	%ymm1, %ymm6, %ymm1
	vpsrld	$12, %ymm1, %ymm13
	vpslld	$20, %ymm1, %ymm1
	vpor	%ymm1, %ymm13, %ymm1
	vpaddd	672(%rsp), %ymm11, %ymm11
	vpaddd	%ymm3, %ymm11, %ymm11
	vpxor	%ymm4, %ymm11, %ymm9
	vpshufb	%ymm2, %ymm9, %ymm13
	vpaddd	%ymm5, %ymm13, %ymm0
	vpxor	%ymm3, %ymm0, %ymm3
	vpsrld	$12, %ymm3, %ymm5
	vpslld	$20, %ymm3, %ymm3
	vpor	%ymm5, %ymm3, %ymm3
	vmovdqu	576(%rsp), %ymm9
	vpaddd	%ymm9, %ymm15, %ymm5
	vpaddd	%ymm1, %ymm5, %ymm15
	vpxor	%ymm7, %ymm15, %ymm5
	vbroadcasti128	.L1_v3_CPI71_8(%rip), %ymm7
	vpshufb	%ymm7, %ymm5, %ymm4
	vmovdqu	%ymm4, 224(%rsp)
	vpaddd	%ymm4, %ymm6, %ymm4
	vmovdqu	%ymm4, 128(%rsp)
	vpxor	%ymm1, %ymm4, %ymm1
	vpsrld	$7, %ymm1, %ymm6
	vpslld	$25, %ymm1, %ymm1
	vpor	%ymm6, %ymm1, %ymm1
	vmovdqu	%ymm1, 64(%rsp)
	vpaddd	384(%rsp), %ymm11, %ymm1
	vpaddd	%ymm3, %ymm1, %ymm11
	vpxor	%ymm13, %ymm11, %ymm1
	vpshufb	%ymm7, %ymm1, %ymm13
	vpaddd	%ymm0, %ymm13, %ymm0
	vmovdqu	%ymm0, 32(%rsp)
	vpxor	%ymm3, %ymm0, %ymm0
	vpsrld	$7, %ymm0, %ymm1
	vpslld	$25, %ymm0, %ymm0
	vpor	%ymm1, %ymm0, %ymm0
	vmovdqu	%ymm0, 736(%rsp)
	vpaddd	352(%rsp), %ymm14, %ymm0
	vpaddd	%ymm0, %ymm12, %ymm5
	vpxor	96(%rsp), %ymm5, %ymm1
	vpshufb	%ymm2, %ymm1, %ymm1
	vpaddd	(%rsp), %ymm1, %ymm3
	vpxor	%ymm3, %ymm12, %ymm4
	vpsrld	$12, %ymm4, %ymm12
	vpslld	$20, %ymm4, %ymm4
	vpor	%ymm4, %ymm12, %ymm4
	vpaddd	256(%rsp), %ymm10, %ymm10
	vmovdqu	192(%rsp), %ymm6
	vpaddd	%ymm6, %ymm10, %ymm10
	vpxor	%ymm8, %ymm10, %ymm8
	vpshufb	%ymm2, %ymm8, %ymm8
	vpaddd	160(%rsp), %ymm8, %ymm2
	vpxor	%ymm6, %ymm2, %ymm12
	vpsrld	$12, %ymm12, %ymm14
	vpslld	$20, %ymm12, %ymm12
	vpor	%ymm14, %ymm12, %ymm0
	vpaddd	448(%rsp), %ymm5, %ymm5
	vpaddd	%ymm4, %ymm5, %ymm14
	vpxor	%ymm1, %ymm14, %ymm1
	vpshufb	%ymm7, %ymm1, %ymm1
	vpaddd	%ymm1, %ymm3, %ymm5
	vpxor	%ymm4, %ymm5, %ymm3
	vpsrld	$7, %ymm3, %ymm4
	vpslld	$25, %ymm3, %ymm3
	vpor	%ymm4, %ymm3, %ymm12
	vmovdqu	640(%rsp), %ymm6
	vpaddd	%ymm6, %ymm10, %ymm3
	vpaddd	%ymm0, %ymm3, %ymm10
	vpxor	%ymm8, %ymm10, %ymm3
	vpshufb	%ymm7, %ymm3, %ymm8
	vpaddd	%ymm2, %ymm8, %ymm3
	vpxor	%ymm0, %ymm3, %ymm0
	vpsrld	$7, %ymm0, %ymm2
	vpslld	$25, %ymm0, %ymm0
	vpor	%ymm2, %ymm0, %ymm0
	vpaddd	544(%rsp), %ymm15, %ymm2
	vpaddd	%ymm0, %ymm2, %ymm15
	vpxor	%ymm13, %ymm15, %ymm4
	vmovdqa	.L1_v3_CPI71_0(%rip), %ymm7
	vpshufb	%ymm7, %ymm4, %ymm4
	vpaddd	%ymm5, %ymm4, %ymm5
	vpxor	%ymm0, %ymm5, %ymm0
	vpsrld	$12, %ymm0, %ymm13
	vpslld	$20, %ymm0, %ymm0
	vpor	%ymm0, %ymm13, %ymm0
	vpaddd	%ymm9, %ymm11, %ymm11
	vmovdqu	64(%rsp), %ymm9
	vpaddd	%ymm9, %ymm11, %ymm11
	vpxor	%ymm1, %ymm11, %ymm1
	vpshufb	%ymm7, %ymm1, %ymm1
	vpaddd	%ymm3, %ymm1, %ymm13
	vpxor	%ymm9, %ymm13, %ymm3
	vpsrld	$12, %ymm3, %ymm9
	vpslld	$20, %ymm3, %ymm3
	vpor	%ymm3, %ymm9, %ymm2
	vpaddd	%ymm6, %ymm15, %ymm3
	vpaddd	%ymm0, %ymm3, %ymm15
	vpxor	%ymm4, %ymm15, %ymm3
	vbroadcasti128	.L1_v3_CPI71_8(%rip), %ymm6
	vpshufb	%ymm6, %ymm3, %ymm9
	vpaddd	%ymm5, %ymm9, %ymm3
	vmovdqu	%ymm3, 96(%rsp)
	vpxor	%ymm0, %ymm3, %ymm0
	vpsrld	$7, %ymm0, %ymm4
	vpslld	$25, %ymm0, %ymm0
	vpor	%ymm4, %ymm0, %ymm0
	vmovdqu	%ymm0, 192(%rsp)
	vpaddd	608(%rsp), %ymm11, %ymm0
	vpaddd	%ymm2, %ymm0, %ymm11
	vpxor	%ymm1, %ymm11, %ymm0
	vpshufb	%ymm6, %ymm0, %ymm0
	vmovdqu	%ymm0, 64(%rsp)
	vpaddd	%ymm0, %ymm13, %ymm0
	vmovdqu	%ymm0, (%rsp)
	vpxor	%ymm2, %ymm0, %ymm0
	vpsrld	$7, %ymm0, %ymm1
	vpslld	$25, %ymm0, %ymm0
	vpor	%ymm1, %ymm0, %ymm4
	vpaddd	512(%rsp), %ymm14, %ymm1
	vmovdqu	736(%rsp), %ymm0
	vpaddd	%ymm0, %ymm1, %ymm1
	vpxor	%ymm1, %ymm8, %ymm2
	vmovdqa	%ymm7, %ymm13
	vpshufb	%ymm7, %ymm2, %ymm2
	vpaddd	128(%rsp), %ymm2, %ymm8
	vpxor	%ymm0, %ymm8, %ymm5
	vpsrld	$12, %ymm5, %ymm7
	vpslld	$20, %ymm5, %ymm5
	vpor	%ymm7, %ymm5, %ymm7
	vpaddd	384(%rsp), %ymm10, %ymm5
	vpaddd	%ymm5, %ymm12, %ymm10
	vpxor	224(%rsp), %ymm10, %ymm5
	vpshufb	%ymm13, %ymm5, %ymm0
	vpaddd	32(%rsp), %ymm0, %ymm6
	vpxor	%ymm6, %ymm12, %ymm5
	vpsrld	$12, %ymm5, %ymm12
	vpslld	$20, %ymm5, %ymm5
	vpor	%ymm5, %ymm12, %ymm12
	vpaddd	768(%rsp), %ymm1, %ymm1
	vpaddd	%ymm7, %ymm1, %ymm14
	vpxor	%ymm2, %ymm14, %ymm1
	vbroadcasti128	.L1_v3_CPI71_8(%rip), %ymm3
	vpshufb	%ymm3, %ymm1, %ymm5
	vpaddd	%ymm5, %ymm8, %ymm8
	vpxor	%ymm7, %ymm8, %ymm1
	vpsrld	$7, %ymm1, %ymm2
	vpslld	$25, %ymm1, %ymm1
	vpor	%ymm2, %ymm1, %ymm2
	vpaddd	352(%rsp), %ymm10, %ymm1
	vpaddd	%ymm1, %ymm12, %ymm10
	vpxor	%ymm0, %ymm10, %ymm0
	vpshufb	%ymm3, %ymm0, %ymm0
	vpaddd	%ymm0, %ymm6, %ymm6
	vpxor	%ymm6, %ymm12, %ymm1
	vpsrld	$7, %ymm1, %ymm7
	vpslld	$25, %ymm1, %ymm1
	vpor	%ymm7, %ymm1, %ymm1
	vpaddd	416(%rsp), %ymm15, %ymm7
	vpaddd	%ymm4, %ymm7, %ymm7
	vpxor	%ymm0, %ymm7, %ymm0
	vpshufb	%ymm13, %ymm0, %ymm0
	vpaddd	%ymm0, %ymm8, %ymm8
	vpxor	%ymm4, %ymm8, %ymm3
	vpsrld	$12, %ymm3, %ymm12
	vpslld	$20, %ymm3, %ymm3
	vpor	%ymm3, %ymm12, %ymm3
	vpaddd	320(%rsp), %ymm11, %ymm11
	vpaddd	%ymm2, %ymm11, %ymm11
	vpxor	%ymm9, %ymm11, %ymm9
	vpshufb	%ymm13, %ymm9, %ymm12
	vpaddd	%ymm6, %ymm12, %ymm9
	vpxor	%ymm2, %ymm9, %ymm2
	vpsrld	$12, %ymm2, %ymm6
	vpslld	$20, %ymm2, %ymm2
	vpor	%ymm6, %ymm2, %ymm2
	vpaddd	704(%rsp), %ymm7, %ymm6
	vpaddd	%ymm3, %ymm6, %ymm15
	vpxor	%ymm0, %ymm15, %ymm0
	vbroadcasti128	.L1_v3_CPI71_8(%rip), %ymm6
	vpshufb	%ymm6, %ymm0, %ymm0
	vmovdqu	%ymm0, 224(%rsp)
	vpaddd	%ymm0, %ymm8, %ymm0
	vmovdqu	%ymm0, 128(%rsp)
	vpxor	%ymm3, %ymm0, %ymm0
	vpsrld	$7, %ymm0, %ymm3
	vpslld	$25, %ymm0, %ymm0
	vpor	%ymm3, %ymm0, %ymm0
	vmovdqu	%ymm0, 32(%rsp)
	vpaddd	480(%rsp), %ymm11, %ymm0
	vpaddd	%ymm2, %ymm0, %ymm11
	vpxor	%ymm12, %ymm11, %ymm0
	vpshufb	%ymm6, %ymm0, %ymm12
	vpaddd	%ymm12, %ymm9, %ymm0
	vmovdqu	%ymm0, 160(%rsp)
	vpxor	%ymm2, %ymm0, %ymm0
	vpsrld	$7, %ymm0, %ymm2
	vpslld	$25, %ymm0, %ymm0
	vpor	%ymm2, %ymm0, %ymm7
	vpaddd	256(%rsp), %ymm14, %ymm0
	vpaddd	%ymm1, %ymm0, %ymm2
	vpxor	64(%rsp), %ymm2, %ymm4
	vpshufb	%ymm13, %ymm4, %ymm4
	vpaddd	96(%rsp), %ymm4, %ymm8
	vpxor	%ymm1, %ymm8, %ymm1
	vpsrld	$12, %ymm1, %ymm9
	vpslld	$20, %ymm1, %ymm1
	vpor	%ymm1, %ymm9, %ymm1
	vpaddd	448(%rsp), %ymm10, %ymm9
	vmovdqu	192(%rsp), %ymm0
	vpaddd	%ymm0, %ymm9, %ymm9
	vpxor	%ymm5, %ymm9, %ymm5
	vpshufb	%ymm13, %ymm5, %ymm5
	vpaddd	(%rsp), %ymm5, %ymm13
	vpxor	%ymm0, %ymm13, %ymm10
	vpsrld	$12, %ymm10, %ymm14
	vpslld	$20, %ymm10, %ymm10
	vpor	%ymm14, %ymm10, %ymm0
	vmovdqu	672(%rsp), %ymm3
	vpaddd	%ymm3, %ymm2, %ymm2
	vpaddd	%ymm1, %ymm2, %ymm14
	vpxor	%ymm4, %ymm14, %ymm2
	vpshufb	%ymm6, %ymm2, %ymm2
	vpaddd	%ymm2, %ymm8, %ymm8
	vpxor	%ymm1, %ymm8, %ymm1
	vpsrld	$7, %ymm1, %ymm4
	vpslld	$25, %ymm1, %ymm1
	vpor	%ymm4, %ymm1, %ymm4
	vpaddd	288(%rsp), %ymm9, %ymm1
	vpaddd	%ymm0, %ymm1, %ymm10
	vpxor	%ymm5, %ymm10, %ymm1
	vpshufb	%ymm6, %ymm1, %ymm5
	vpaddd	%ymm5, %ymm13, %ymm1
	vpxor	%ymm0, %ymm1, %ymm0
	vpsrld	$7, %ymm0, %ymm9
	vpslld	$25, %ymm0, %ymm0
	vpor	%ymm0, %ymm9, %ymm0
	vpaddd	%ymm3, %ymm15, %ymm9
	vpaddd	%ymm0, %ymm9, %ymm9
	vpxor	%ymm12, %ymm9, %ymm12
	vmovdqa	.L1_v3_CPI71_0(%rip), %ymm3
	vpshufb	%ymm3, %ymm12, %ymm12
	vpaddd	%ymm8, %ymm12, %ymm8
	vpxor	%ymm0, %ymm8, %ymm0
	vpsrld	$12, %ymm0, %ymm13
	vpslld	$20, %ymm0, %ymm0
	vpor	%ymm0, %ymm13, %ymm0
	vpaddd	608(%rsp), %ymm11, %ymm11
	vmovdqu	32(%rsp), %ymm6
	vpaddd	%ymm6, %ymm11, %ymm11
	vpxor	%ymm2, %ymm11, %ymm2
	vpshufb	%ymm3, %ymm2, %ymm2
	vpaddd	%ymm1, %ymm2, %ymm13
	vpxor	%ymm6, %ymm13, %ymm1
	vpsrld	$12, %ymm1, %ymm3
	vpslld	$20, %ymm1, %ymm1
	vpor	%ymm3, %ymm1, %ymm3
	vpaddd	320(%rsp), %ymm9, %ymm1
	vpaddd	%ymm0, %ymm1, %ymm15
	vpxor	%ymm12, %ymm15, %ymm1
	vbroadcasti128	.L1_v3_CPI71_8(%rip), %ymm6
	vpshufb	%ymm6, %ymm1, %ymm9
	vpaddd	%ymm9, %ymm8, %ymm1
	vmovdqu	%ymm1, 96(%rsp)
	vpxor	%ymm0, %ymm1, %ymm0
	vpsrld	$7, %ymm0, %ymm8
	vpslld	$25, %ymm0, %ymm0
	vpor	%ymm0, %ymm8, %ymm0
	vmovdqu	%ymm0, 32(%rsp)
	vpaddd	352(%rsp), %ymm11, %ymm0
	vpaddd	%ymm3, %ymm0, %ymm11
	vpxor	%ymm2, %ymm11, %ymm0
	vpshufb	%ymm6, %ymm0, %ymm0
	vmovdqu	%ymm0, 64(%rsp)
	vmovdqa	%ymm6, %ymm1
	vpaddd	%ymm0, %ymm13, %ymm0
	vmovdqu	%ymm0, (%rsp)
	vpxor	%ymm3, %ymm0, %ymm0
	vpsrld	$7, %ymm0, %ymm2
	vpslld	$25, %ymm0, %ymm0
	vpor	%ymm2, %ymm0, %ymm8
	vpaddd	640(%rsp), %ymm14, %ymm2
	vpaddd	%ymm7, %ymm2, %ymm2
	vpxor	%ymm5, %ymm2, %ymm3
	vmovdqa	.L1_v3_CPI71_0(%rip), %ymm0
	vpshufb	%ymm0, %ymm3, %ymm3
	vpaddd	128(%rsp), %ymm3, %ymm5
	vpxor	%ymm7, %ymm5, %ymm6
	vpsrld	$12, %ymm6, %ymm7
	vpslld	$20, %ymm6, %ymm6
	vpor	%ymm7, %ymm6, %ymm6
	vpaddd	704(%rsp), %ymm10, %ymm7
	vpaddd	%ymm4, %ymm7, %ymm7
	vpxor	224(%rsp), %ymm7, %ymm10
	vpshufb	%ymm0, %ymm10, %ymm13
	vpaddd	160(%rsp), %ymm13, %ymm10
	vpxor	%ymm4, %ymm10, %ymm4
	vpsrld	$12, %ymm4, %ymm14
	vpslld	$20, %ymm4, %ymm4
	vpor	%ymm4, %ymm14, %ymm0
	vpaddd	384(%rsp), %ymm2, %ymm2
	vpaddd	%ymm6, %ymm2, %ymm14
	vpxor	%ymm3, %ymm14, %ymm2
	vmovdqa	%ymm1, %ymm3
	vpshufb	%ymm1, %ymm2, %ymm12
	vpaddd	%ymm5, %ymm12, %ymm1
	vpxor	%ymm6, %ymm1, %ymm2
	vpsrld	$7, %ymm2, %ymm4
	vpslld	$25, %ymm2, %ymm2
	vpor	%ymm4, %ymm2, %ymm4
	vpaddd	256(%rsp), %ymm7, %ymm2
	vpaddd	%ymm0, %ymm2, %ymm6
	vpxor	%ymm6, %ymm13, %ymm2
	vpshufb	%ymm3, %ymm2, %ymm7
	vpaddd	%ymm7, %ymm10, %ymm5
	vpxor	%ymm0, %ymm5, %ymm0
	vpsrld	$7, %ymm0, %ymm2
	vpslld	$25, %ymm0, %ymm0
	vpor	%ymm2, %ymm0, %ymm2
	vpaddd	512(%rsp), %ymm15, %ymm0
	vpaddd	%ymm0, %ymm8, %ymm0
	vpxor	%ymm7, %ymm0, %ymm7
	vmovdqa	.L1_v3_CPI71_0(%rip), %ymm13
	vpshufb	%ymm13, %ymm7, %ymm7
	vpaddd	%ymm1, %ymm7, %ymm1
	vpxor	%ymm1, %ymm8, %ymm8
	vpsrld	$12, %ymm8, %ymm10
	vpslld	$20, %ymm8, %ymm8
	vpor	%ymm10, %ymm8, %ymm8
	vpaddd	544(%rsp), %ymm11, %ymm10
	vpaddd	%ymm4, %ymm10, %ymm10
	vpxor	%ymm9, %ymm10, %ymm9
	vpshufb	%ymm13, %ymm9, %ymm9
	vpaddd	%ymm5, %ymm9, %ymm5
	vpxor	%ymm4, %ymm5, %ymm4
	vpsrld	$12, %ymm4, %ymm11
	vpslld	$20, %ymm4, %ymm4
	vpor	%ymm4, %ymm11, %ymm4
	vpaddd	448(%rsp), %ymm0, %ymm0
	vpaddd	%ymm0, %ymm8, %ymm15
	vpxor	%ymm7, %ymm15, %ymm0
	vpshufb	%ymm3, %ymm0, %ymm0
	vmovdqu	%ymm0, 224(%rsp)
	vpaddd	%ymm0, %ymm1, %ymm0
	vmovdqu	%ymm0, 192(%rsp)
	vpxor	%ymm0, %ymm8, %ymm0
	vpsrld	$7, %ymm0, %ymm1
	vpslld	$25, %ymm0, %ymm0
	vpor	%ymm1, %ymm0, %ymm0
	vmovdqu	%ymm0, 736(%rsp)
	vpaddd	576(%rsp), %ymm10, %ymm0
	vpaddd	%ymm4, %ymm0, %ymm11
	vpxor	%ymm9, %ymm11, %ymm0
	vpshufb	%ymm3, %ymm0, %ymm7
	vpaddd	%ymm7, %ymm5, %ymm0
	vmovdqu	%ymm0, 160(%rsp)
	vpxor	%ymm4, %ymm0, %ymm1
	vpsrld	$7, %ymm1, %ymm4
	vpslld	$25, %ymm1, %ymm1
	vpor	%ymm4, %ymm1, %ymm0
	vmovdqu	%ymm0, 128(%rsp)
	vpaddd	768(%rsp), %ymm14, %ymm1
	vpaddd	%ymm2, %ymm1, %ymm1
	vpxor	64(%rsp), %ymm1, %ymm4
	vpshufb	%ymm13, %ymm4, %ymm4
	vpaddd	96(%rsp), %ymm4, %ymm8
	vpxor	%ymm2, %ymm8, %ymm2
	vpsrld	$12, %ymm2, %ymm5
	vpslld	$20, %ymm2, %ymm2
	vpor	%ymm5, %ymm2, %ymm2
	vmovdqu	288(%rsp), %ymm0
	vpaddd	%ymm0, %ymm6, %ymm5
	vmovdqu	32(%rsp), %ymm9
	vpaddd	%ymm5, %ymm9, %ymm6
	vpxor	%ymm6, %ymm12, %ymm3
	vpshufb	%ymm13, %ymm3, %ymm3
	vpaddd	(%rsp), %ymm3, %ymm12
	vpxor	%ymm9, %ymm12, %ymm5
	vpsrld	$12, %ymm5, %ymm10
	vpslld	$20, %ymm5, %ymm5
	vpor	%ymm5, %ymm10, %ymm14
	vmovdqu	480(%rsp), %ymm5
	vpaddd	%ymm5, %ymm1, %ymm1
	vpaddd	%ymm2, %ymm1, %ymm9
	vpxor	%ymm4, %ymm9, %ymm1
	vbroadcasti128	.L1_v3_CPI71_8(%rip), %ymm13
	vpshufb	%ymm13, %ymm1, %ymm10
	vpaddd	%ymm10, %ymm8, %ymm1
	vpxor	%ymm2, %ymm1, %ymm2
	vpsrld	$7, %ymm2, %ymm4
	vpslld	$25, %ymm2, %ymm2
	vpor	%ymm4, %ymm2, %ymm2
	vmovdqu	%ymm2, 32(%rsp)
	vpaddd	416(%rsp), %ymm6, %ymm2
	vpaddd	%ymm2, %ymm14, %ymm2
	vmovdqu	%ymm2, (%rsp)
	vpxor	%ymm3, %ymm2, %ymm3
	vpshufb	%ymm13, %ymm3, %ymm4
	vpaddd	%ymm4, %ymm12, %ymm12
	vpxor	%ymm14, %ymm12, %ymm3
	vpsrld	$7, %ymm3, %ymm6
	vpslld	$25, %ymm3, %ymm3
	vpor	%ymm6, %ymm3, %ymm3
	vpaddd	%ymm0, %ymm15, %ymm6
	vpaddd	%ymm3, %ymm6, %ymm6
	vpxor	%ymm7, %ymm6, %ymm0
	vpaddd	448(%rsp), %ymm6, %ymm7
	vpaddd	256(%rsp), %ymm11, %ymm11
	vmovdqa	.L1_v3_CPI71_0(%rip), %ymm2
	vpshufb	%ymm2, %ymm0, %ymm6
	vpaddd	%ymm1, %ymm6, %ymm8
	vpxor	%ymm3, %ymm8, %ymm0
	vpsrld	$12, %ymm0, %ymm1
	vpslld	$20, %ymm0, %ymm0
	vpor	%ymm1, %ymm0, %ymm14
	vmovdqu	736(%rsp), %ymm3
	vpaddd	%ymm3, %ymm11, %ymm0
	vpxor	%ymm0, %ymm10, %ymm1
	vpshufb	%ymm2, %ymm1, %ymm10
	vpaddd	%ymm12, %ymm10, %ymm1
	vmovdqu	%ymm1, 288(%rsp)
	vpxor	%ymm3, %ymm1, %ymm1
	vpsrld	$12, %ymm1, %ymm3
	vpslld	$20, %ymm1, %ymm1
	vpor	%ymm3, %ymm1, %ymm12
	vpaddd	%ymm5, %ymm0, %ymm0
	vmovdqu	%ymm0, 256(%rsp)
	vpaddd	576(%rsp), %ymm9, %ymm0
	vmovdqu	128(%rsp), %ymm5
	vpaddd	%ymm5, %ymm0, %ymm0
	vpxor	%ymm4, %ymm0, %ymm1
	vpaddd	672(%rsp), %ymm0, %ymm13
	vmovdqu	(%rsp), %ymm0
	vpaddd	768(%rsp), %ymm0, %ymm0
	vmovdqa	%ymm2, %ymm3
	vpshufb	%ymm2, %ymm1, %ymm2
	vpaddd	192(%rsp), %ymm2, %ymm9
	vpxor	%ymm5, %ymm9, %ymm1
	vpsrld	$12, %ymm1, %ymm5
	vpslld	$20, %ymm1, %ymm1
	vpor	%ymm5, %ymm1, %ymm11
	vmovdqu	32(%rsp), %ymm4
	vpaddd	%ymm4, %ymm0, %ymm1
	vpxor	224(%rsp), %ymm1, %ymm0
	vpshufb	%ymm3, %ymm0, %ymm5
	vpaddd	160(%rsp), %ymm5, %ymm15
	vpxor	%ymm4, %ymm15, %ymm0
	vpsrld	$12, %ymm0, %ymm4
	vpslld	$20, %ymm0, %ymm0
	vpor	%ymm4, %ymm0, %ymm3
	vpaddd	%ymm7, %ymm14, %ymm4
	vpxor	%ymm6, %ymm4, %ymm6
	vbroadcasti128	.L1_v3_CPI71_8(%rip), %ymm0
	vpshufb	%ymm0, %ymm6, %ymm7
	vpaddd	%ymm7, %ymm8, %ymm6
	vmovdqu	%ymm6, 448(%rsp)
	vpxor	%ymm6, %ymm14, %ymm8
	vpsrld	$7, %ymm8, %ymm14
	vpslld	$25, %ymm8, %ymm8
	vpor	%ymm14, %ymm8, %ymm6
	vmovdqu	%ymm6, 480(%rsp)
	vpaddd	256(%rsp), %ymm12, %ymm14
	vpxor	%ymm10, %ymm14, %ymm8
	vpshufb	%ymm0, %ymm8, %ymm6
	vmovdqu	%ymm6, 256(%rsp)
	vpaddd	288(%rsp), %ymm6, %ymm6
	vmovdqu	%ymm6, 288(%rsp)
	vpxor	%ymm6, %ymm12, %ymm10
	vpsrld	$7, %ymm10, %ymm12
	vpslld	$25, %ymm10, %ymm10
	vpor	%ymm12, %ymm10, %ymm8
	vpaddd	%ymm11, %ymm13, %ymm10
	vpxor	%ymm2, %ymm10, %ymm2
	vpshufb	%ymm0, %ymm2, %ymm13
	vpaddd	%ymm13, %ymm9, %ymm6
	vpxor	%ymm6, %ymm11, %ymm2
	vpsrld	$7, %ymm2, %ymm11
	vpslld	$25, %ymm2, %ymm2
	vpor	%ymm2, %ymm11, %ymm2
	vpaddd	416(%rsp), %ymm1, %ymm1
	vpaddd	%ymm3, %ymm1, %ymm12
	vpxor	%ymm5, %ymm12, %ymm1
	vpshufb	%ymm0, %ymm1, %ymm5
	vpaddd	%ymm5, %ymm15, %ymm1
	vpxor	%ymm3, %ymm1, %ymm0
	vpsrld	$7, %ymm0, %ymm9
	vpslld	$25, %ymm0, %ymm0
	vpor	%ymm0, %ymm9, %ymm9
	vpaddd	320(%rsp), %ymm4, %ymm0
	vpaddd	%ymm0, %ymm8, %ymm0
	vpxor	%ymm5, %ymm0, %ymm4
	vpaddd	640(%rsp), %ymm0, %ymm0
	vmovdqu	%ymm0, 320(%rsp)
	vpaddd	352(%rsp), %ymm14, %ymm5
	vmovdqa	.L1_v3_CPI71_0(%rip), %ymm15
	vpshufb	%ymm15, %ymm4, %ymm14
	vpaddd	%ymm6, %ymm14, %ymm11
	vpxor	%ymm8, %ymm11, %ymm3
	vpsrld	$12, %ymm3, %ymm4
	vpslld	$20, %ymm3, %ymm3
	vpor	%ymm4, %ymm3, %ymm3
	vpaddd	%ymm2, %ymm5, %ymm0
	vpxor	%ymm7, %ymm0, %ymm4
	vpshufb	%ymm15, %ymm4, %ymm5
	vmovdqa	%ymm15, %ymm4
	vpaddd	%ymm1, %ymm5, %ymm1
	vmovdqu	%ymm1, 352(%rsp)
	vpxor	%ymm2, %ymm1, %ymm1
	vpsrld	$12, %ymm1, %ymm2
	vpslld	$20, %ymm1, %ymm1
	vpor	%ymm2, %ymm1, %ymm15
	vpaddd	608(%rsp), %ymm0, %ymm0
	vmovdqu	%ymm0, 416(%rsp)
	vpaddd	384(%rsp), %ymm10, %ymm0
	vpaddd	%ymm0, %ymm9, %ymm0
	vpxor	256(%rsp), %ymm0, %ymm2
	vpaddd	512(%rsp), %ymm0, %ymm8
	vpaddd	544(%rsp), %ymm12, %ymm0
	vmovdqa	%ymm4, %ymm1
	vpshufb	%ymm4, %ymm2, %ymm2
	vpaddd	448(%rsp), %ymm2, %ymm6
	vpxor	%ymm6, %ymm9, %ymm9
	vpsrld	$12, %ymm9, %ymm10
	vpslld	$20, %ymm9, %ymm9
	vpor	%ymm10, %ymm9, %ymm9
	vmovdqu	480(%rsp), %ymm4
	vpaddd	%ymm4, %ymm0, %ymm0
	vpxor	%ymm0, %ymm13, %ymm7
	vpshufb	%ymm1, %ymm7, %ymm13
	vpaddd	288(%rsp), %ymm13, %ymm10
	vpxor	%ymm4, %ymm10, %ymm7
	vpsrld	$12, %ymm7, %ymm12
	vpslld	$20, %ymm7, %ymm7
	vpor	%ymm7, %ymm12, %ymm12
	vpaddd	320(%rsp), %ymm3, %ymm1
	vpxor	%ymm1, %ymm14, %ymm7
	vbroadcasti128	.L1_v3_CPI71_8(%rip), %ymm4
	vpshufb	%ymm4, %ymm7, %ymm14
	vpaddd	%ymm14, %ymm11, %ymm7
	vpxor	%ymm3, %ymm7, %ymm3
	vpsrld	$7, %ymm3, %ymm11
	vpslld	$25, %ymm3, %ymm3
	vpor	%ymm3, %ymm11, %ymm3
	vmovdqu	%ymm3, 384(%rsp)
	vpaddd	704(%rsp), %ymm0, %ymm3
	vpaddd	416(%rsp), %ymm15, %ymm0
	vmovdqa	%ymm15, %ymm11
	vpxor	%ymm5, %ymm0, %ymm15
	vpshufb	%ymm4, %ymm15, %ymm15
	vmovdqa	%ymm4, %ymm5
	vpaddd	%ymm9, %ymm8, %ymm8
	vpxor	%ymm2, %ymm8, %ymm2
	vpaddd	%ymm3, %ymm12, %ymm3
	vpshufb	%ymm4, %ymm2, %ymm4
	vpxor	%ymm3, %ymm13, %ymm2
	vpshufb	%ymm5, %ymm2, %ymm2
	vpxor	832(%rsp), %ymm1, %ymm1
	vpaddd	%ymm4, %ymm6, %ymm6
	vpxor	%ymm6, %ymm9, %ymm9
	vpxor	%ymm6, %ymm1, %ymm1
	vmovdqu	%ymm1, 832(%rsp)
	vpxor	928(%rsp), %ymm0, %ymm0
	vpaddd	%ymm2, %ymm10, %ymm1
	vpxor	%ymm1, %ymm12, %ymm6
	vpxor	%ymm1, %ymm0, %ymm10
	vpxor	960(%rsp), %ymm8, %ymm0
	vpaddd	352(%rsp), %ymm15, %ymm1
	vpxor	%ymm1, %ymm11, %ymm5
	vpsrld	$7, %ymm5, %ymm8
	vpslld	$25, %ymm5, %ymm5
	vpor	%ymm5, %ymm8, %ymm5
	vpxor	%ymm7, %ymm0, %ymm8
	vpsrld	$7, %ymm9, %ymm0
	vpslld	$25, %ymm9, %ymm7
	vpor	%ymm0, %ymm7, %ymm0
	vpxor	992(%rsp), %ymm3, %ymm3
	vpsrld	$7, %ymm6, %ymm7
	vpslld	$25, %ymm6, %ymm6
	vpor	%ymm7, %ymm6, %ymm6
	vpxor	%ymm1, %ymm3, %ymm7
	vpxor	1056(%rsp), %ymm15, %ymm1
	vpxor	896(%rsp), %ymm4, %ymm3
	vpxor	%ymm1, %ymm6, %ymm4
	vpxor	384(%rsp), %ymm3, %ymm3
	vpxor	864(%rsp), %ymm2, %ymm1
	vpxor	800(%rsp), %ymm14, %ymm2
	vpxor	%ymm1, %ymm5, %ymm1
	vmovdqu	%ymm1, 864(%rsp)
	vpxor	%ymm2, %ymm0, %ymm0
	vmovdqu	%ymm0, 800(%rsp)
	addq	$64, %rdx
	addq	$512, %rsi
	decq	%rcx
	jne	1b
2:
	vmovups	832(%rsp), %ymm0
	vmovups	%ymm0, (%rdi)
	vmovdqu	%ymm10, 32(%rdi)
	vmovdqu	%ymm8, 64(%rdi)
	vmovdqu	%ymm7, 96(%rdi)
	vmovdqu	%ymm4, 128(%rdi)
	vmovdqu	%ymm3, 160(%rdi)
	vmovups	864(%rsp), %ymm0
	vmovups	%ymm0, 192(%rdi)
	vmovups	800(%rsp), %ymm0
	vmovups	%ymm0, 224(%rdi)
	addq	$1096, %rsp
	vzeroupper
	retq
	vj_end	blake2_parallel..lanes..blake2sp..compress_in_lanes_1_v3

	vj_function	blake2_parallel..lanes..blake2sp..Lanes..compress_held_1_v3
	pushq	%rbp
	pushq	%r15
	pushq	%r14
	pushq	%r13
	pushq	%r12
	pushq	%rbx
	subq	$1224, %rsp
	movq	%rdi, %rbx
	vmovups	(%rdi), %ymm0
	vmovups	32(%rdi), %ymm1
	vmovups	64(%rdi), %ymm2
	vmovups	96(%rdi), %ymm3
	vmovups	128(%rdi), %ymm4
	vmovups	160(%rdi), %ymm5
	vmovups	192(%rdi), %ymm6
	vmovups	224(%rdi), %ymm7
	vmovups	%ymm0, 8(%rsp)
	vmovups	%ymm1, 40(%rsp)
	vmovups	%ymm2, 72(%rsp)
	vmovups	%ymm3, 104(%rsp)
	vmovups	%ymm4, 136(%rsp)
	vmovups	%ymm5, 168(%rsp)
	vmovups	%ymm6, 200(%rsp)
	vmovups	%ymm7, 232(%rsp)
	movq	256(%rdi), %r15
	leaq	272(%rdi), %r14
	leaq	8(%rsp), %rdi
	movl	$1, %ecx
	movq	%r14, %rsi
	movq	%r15, %rdx
	vzeroupper
	callq	blake2_parallel..lanes..blake2sp..compress_in_lanes_1_v3
	leaq	784(%rbx), %rbp
	movq	$-512, %r12
	addq	264(%rbx), %r12
	leaq	264(%rsp), %r13
	movl	$960, %edx
	movq	%r13, %rdi
	xorl	%esi, %esi
	vj_c_call	memset
	movq	%r13, %rdi
	movq	%rbp, %rsi
	movq	%r12, %rdx
	vj_c_call	memcpy
	vmovups	8(%rsp), %ymm0
	vmovups	%ymm0, (%rbx)
	vmovups	40(%rsp), %ymm0
	vmovups	%ymm0, 32(%rbx)
	vmovups	72(%rsp), %ymm0
	vmovups	%ymm0, 64(%rbx)
	vmovups	104(%rsp), %ymm0
	vmovups	%ymm0, 96(%rbx)
	vmovups	136(%rsp), %ymm0
	vmovups	%ymm0, 128(%rbx)
	vmovups	168(%rsp), %ymm0
	vmovups	%ymm0, 160(%rbx)
	vmovups	200(%rsp), %ymm0
	vmovups	%ymm0, 192(%rbx)
	vmovups	232(%rsp), %ymm0
	vmovups	%ymm0, 224(%rbx)
	addq	$64, %r15
	movq	%r15, 256(%rbx)
	movl	$960, %edx
	movq	%r14, %rdi
	movq	%r13, %rsi
	vzeroupper
	vj_c_call	memcpy
	movq	%r12, 264(%rbx)
	addq	$1224, %rsp
	popq	%rbx
	popq	%r12
	popq	%r13
	popq	%r14
	popq	%r15
	popq	%rbp
	retq
	vj_end	blake2_parallel..lanes..blake2sp..Lanes..compress_held_1_v3

	vj_function	blake2_ffi..blake2sp..is_digest_of_1_v3
	pushq	%r15
	pushq	%r14
	pushq	%rbx
	subq	$32, %rsp
	movq	%rdx, %rbx
	movq	%rsi, %r14
	movq	%rdi, %r15
	movq	%rsp, %rdi
	movq	%r15, %rsi
	callq	blake2_parallel..blake2sp..State..output_1_v3
	cmpq	1528(%r15), %rbx
	jne	1f
	testq	%rbx, %rbx
	je	2f
	cmpq	$8, %rbx
	jae	3f
	xorl	%ecx, %ecx
	xorl	%eax, %eax
	jmp	8f
1:
	xorl	%eax, %eax
	jmp	11f
2:
	movb	$1, %al
	jmp	11f
3:
	cmpq	$128, %rbx
	jae	4f
	xorl	%eax, %eax
	xorl	%ecx, %ecx
	jmp	6f
4:
	movq	%rbx, %rax
	andq	$-128, %rax
	vpxor	%xmm0, %xmm0, %xmm0
	xorl	%ecx, %ecx
	vpxor	%xmm1, %xmm1, %xmm1
	vpxor	%xmm2, %xmm2, %xmm2
	vpxor	%xmm3, %xmm3, %xmm3
	.p2align	4
5:
	vmovdqu	(%rsp,%rcx), %ymm4
	vmovdqu	32(%rsp,%rcx), %ymm5
	vmovdqu	64(%rsp,%rcx), %ymm6
	vmovdqu	96(%rsp,%rcx), %ymm7
	vpxor	(%r14,%rcx), %ymm4, %ymm4
	vpor	%ymm0, %ymm4, %ymm0
	vpxor	32(%r14,%rcx), %ymm5, %ymm4
	vpor	%ymm1, %ymm4, %ymm1
	vpxor	64(%r14,%rcx), %ymm6, %ymm4
	vpxor	96(%r14,%rcx), %ymm7, %ymm5
	vpor	%ymm2, %ymm4, %ymm2
	vpor	%ymm3, %ymm5, %ymm3
	subq	$-128, %rcx
	cmpq	%rcx, %rax
	jne	5b
	vpor	%ymm0, %ymm1, %ymm0
	vpor	%ymm0, %ymm2, %ymm0
	vpor	%ymm0, %ymm3, %ymm0
	vextracti128	$1, %ymm0, %xmm1
	vpor	%xmm1, %xmm0, %xmm0
	vpshufd	$238, %xmm0, %xmm1
	vpor	%xmm1, %xmm0, %xmm0
	vpshufd	$85, %xmm0, %xmm1
	vpor	%xmm1, %xmm0, %xmm0
	vpsrld	$16, %xmm0, %xmm1
	vpor	%xmm1, %xmm0, %xmm0
	vpsrlw	$8, %xmm0, %xmm1
	vpor	%xmm1, %xmm0, %xmm0
	vmovd	%xmm0, %ecx
	cmpq	%rax, %rbx
	je	10f
	testb	$120, %bl
	je	8f
6:
	movq	%rax, %rdx
	movq	%rbx, %rax
	andq	$-8, %rax
	movzbl	%cl, %ecx
	vmovd	%ecx, %xmm0
	.p2align	4
7:
	movq	(%rsp,%rdx), %rcx
	xorq	(%r14,%rdx), %rcx
	vmovq	%rcx, %xmm1
	vpor	%xmm0, %xmm1, %xmm0
	addq	$8, %rdx
	cmpq	%rdx, %rax
	jne	7b
	vpshufd	$85, %xmm0, %xmm1
	vpor	%xmm1, %xmm0, %xmm0
	vpsrld	$16, %xmm0, %xmm1
	vpor	%xmm1, %xmm0, %xmm0
	vpsrlw	$8, %xmm0, %xmm1
	vpor	%xmm1, %xmm0, %xmm0
	vmovd	%xmm0, %ecx
	jmp	9f
8:
	movzbl	(%rsp,%rax), %edx
	xorb	(%r14,%rax), %dl
	orb	%dl, %cl
	incq	%rax
9:
	cmpq	%rax, %rbx
	jne	8b
10:
	testb	%cl, %cl
	sete	%al
11:
	addq	$32, %rsp
	popq	%rbx
	popq	%r14
	popq	%r15
	vzeroupper
	retq
	vj_end	blake2_ffi..blake2sp..is_digest_of_1_v3

	vj_constants	32
	.p2align	5, 0x0
.L1_v3_CPI74_0:
	.short	65535
	.short	65535
	.short	65535
	.short	65535
	.short	65535
	.short	65535
	.short	65535
	.short	65535
	.short	0
	.short	65535
	.short	65535
	.short	65535
	.short	65535
	.short	65535
	.short	65535
	.short	65535
.L1_v3_CPI74_1:
	.short	64
	.short	257
	.short	0
	.short	0
	.zero	2
	.zero	2
	.zero	2
	.zero	2
	.zero	2
	.short	0
	.short	0
	.short	0
	.short	0
	.short	0
	.short	0
	.short	0
.L1_v3_CPI74_2:
	.quad	5840696475078001361
	.quad	-7276294671716946913
	.quad	2270897969802886507
	.quad	6620516959819538809
.L1_v3_CPI74_3:
	.quad	7640891576956012808
	.quad	-4942790177534073029
	.quad	4354685564936845355
	.quad	-6534734903238641935
	vj_function	blake2_ffi..blake2xb..initialize_1_v3
	pushq	%rbp
	movq	%rsp, %rbp
	pushq	%r15
	pushq	%r14
	pushq	%r13
	pushq	%r12
	pushq	%rbx
	andq	$-32, %rsp
	subq	$480, %rsp
	movq	%r9, %r12
	movq	%rcx, %r15
	movq	%rdx, %r9
	movq	%rdi, %rbx
	movq	24(%rbp), %r13
	leaq	-1(%rsi), %rax
	movl	$4294967294, %ecx
	cmpq	%rcx, %rax
	seta	%al
	cmpq	$65, %r15
	setae	%cl
	cmpq	$17, %r12
	setae	%dl
	orb	%cl, %dl
	orb	%al, %dl
	cmpq	$17, %r13
	setae	%al
	orb	%dl, %al
	jne	1f
	movq	%rsi, %r14
	vmovq	%rsi, %xmm0
	vpsllq	$32, %xmm0, %xmm0
	testq	%r15, %r15
	movq	%r8, 72(%rsp)
	vpxor	%xmm1, %xmm1, %xmm1
	je	2f
	vmovdqa	%ymm1, (%rsp)
	movl	%r15d, %eax
	shll	$8, %eax
	orl	$16842816, %eax
	vmovd	%eax, %xmm1
	vpbroadcastq	%xmm0, %xmm0
	vpblendd	$12, %ymm0, %ymm1, %ymm0
	vpand	.L1_v3_CPI74_0(%rip), %ymm0, %ymm0
	vmovdqa	%ymm0, 96(%rsp)
	movq	%rsp, %rdi
	movq	%r8, %rsi
	movq	%r12, %rdx
	movq	%r9, 64(%rsp)
	vzeroupper
	vj_c_call	memcpy
	leaq	16(%rsp), %rdi
	movq	16(%rbp), %rsi
	movq	%r13, %rdx
	vj_c_call	memcpy
	vmovaps	(%rsp), %ymm0
	vmovaps	%ymm0, 128(%rsp)
	movl	$64, %eax
	subq	%r15, %rax
	xorl	%edx, %edx
	cmpq	$64, %r15
	cmovbq	%rax, %rdx
	leaq	(%rsp,%r15), %rdi
	addq	$160, %rdi
	xorl	%esi, %esi
	vzeroupper
	vj_c_call	memset
	leaq	160(%rsp), %rdi
	movq	64(%rsp), %rsi
	movq	%r15, %rdx
	vj_c_call	memcpy
	vxorps	%xmm0, %xmm0, %xmm0
	vmovaps	%ymm0, 288(%rsp)
	vmovaps	%ymm0, 320(%rsp)
	vmovups	160(%rsp), %ymm0
	vmovaps	%ymm0, 224(%rsp)
	vmovups	192(%rsp), %ymm0
	vmovaps	%ymm0, 256(%rsp)
	vmovaps	128(%rsp), %ymm0
	movl	$128, %r15d
	jmp	3f
1:
	vxorps	%xmm0, %xmm0, %xmm0
	vmovups	%ymm0, 432(%rbx)
	vmovups	%ymm0, 416(%rbx)
	vmovups	%ymm0, 384(%rbx)
	vmovups	%ymm0, 352(%rbx)
	vmovups	%ymm0, 320(%rbx)
	vmovups	%ymm0, 288(%rbx)
	vmovups	%ymm0, 256(%rbx)
	vmovups	%ymm0, 224(%rbx)
	vmovups	%ymm0, 192(%rbx)
	vmovups	%ymm0, 160(%rbx)
	vmovups	%ymm0, 128(%rbx)
	vmovups	%ymm0, 96(%rbx)
	vmovups	%ymm0, 64(%rbx)
	vmovups	%ymm0, 32(%rbx)
	vmovups	%ymm0, (%rbx)
	movl	$-1, %eax
	jmp	4f
2:
	vmovdqa	%ymm1, (%rsp)
	vpbroadcastq	%xmm0, %xmm0
	vpblendd	$243, .L1_v3_CPI74_1(%rip), %ymm0, %ymm0
	vpand	.L1_v3_CPI74_0(%rip), %ymm0, %ymm0
	vmovdqa	%ymm0, 96(%rsp)
	movq	%rsp, %rdi
	movq	%r8, %rsi
	movq	%r12, %rdx
	vzeroupper
	vj_c_call	memcpy
	leaq	16(%rsp), %rdi
	movq	16(%rbp), %rsi
	movq	%r13, %rdx
	vj_c_call	memcpy
	vpxor	%xmm0, %xmm0, %xmm0
	vmovdqa	%ymm0, 224(%rsp)
	vmovdqa	%ymm0, 256(%rsp)
	vmovdqa	%ymm0, 288(%rsp)
	vmovdqa	%ymm0, 320(%rsp)
	vmovdqa	%ymm0, 160(%rsp)
	vpxor	%xmm1, %xmm1, %xmm1
	vmovaps	(%rsp), %ymm0
	vmovdqa	%ymm1, 192(%rsp)
	xorl	%r15d, %r15d
3:
	vxorps	.L1_v3_CPI74_2(%rip), %ymm0, %ymm0
	vmovaps	%ymm0, 128(%rsp)
	vmovaps	96(%rsp), %ymm0
	vxorps	.L1_v3_CPI74_3(%rip), %ymm0, %ymm0
	vmovaps	%ymm0, 96(%rsp)
	vxorps	%xmm0, %xmm0, %xmm0
	vmovaps	%xmm0, 48(%rsp)
	leaq	48(%rsp), %rdi
	movq	72(%rsp), %rsi
	movq	%r12, %rdx
	vzeroupper
	vj_c_call	memcpy
	vmovaps	48(%rsp), %xmm0
	vmovaps	%xmm0, (%rsp)
	vxorps	%xmm0, %xmm0, %xmm0
	vmovaps	%xmm0, 80(%rsp)
	leaq	80(%rsp), %rdi
	movq	16(%rbp), %rsi
	movq	%r13, %rdx
	vj_c_call	memcpy
	vmovaps	80(%rsp), %xmm0
	vmovaps	%xmm0, 48(%rsp)
	vmovaps	%xmm0, 16(%rsp)
	vxorps	%xmm0, %xmm0, %xmm0
	vmovaps	%ymm0, 352(%rsp)
	vmovaps	%ymm0, 384(%rsp)
	vmovups	(%rsp), %xmm0
	vmovups	%xmm0, 416(%rsp)
	vmovups	16(%rsp), %xmm0
	vmovups	%xmm0, 432(%rsp)
	vmovaps	96(%rsp), %ymm1
	vmovups	%ymm1, (%rbx)
	vmovaps	128(%rsp), %ymm0
	vmovups	%ymm0, 32(%rbx)
	vmovups	%ymm1, 64(%rbx)
	vmovups	%ymm0, 96(%rbx)
	movq	$0, 128(%rbx)
	movl	%r15d, 136(%rbx)
	movl	%r15d, 140(%rbx)
	movq	$64, 144(%rbx)
	vmovaps	224(%rsp), %ymm0
	vmovaps	256(%rsp), %ymm1
	vmovaps	288(%rsp), %ymm2
	vmovaps	320(%rsp), %ymm3
	vmovups	%ymm3, 248(%rbx)
	vmovups	%ymm2, 216(%rbx)
	vmovups	%ymm1, 184(%rbx)
	vmovups	%ymm0, 152(%rbx)
	vmovaps	160(%rsp), %ymm0
	vmovaps	192(%rsp), %ymm1
	vmovups	%ymm0, 280(%rbx)
	vmovups	%ymm1, 312(%rbx)
	vmovaps	352(%rsp), %ymm0
	vmovaps	384(%rsp), %ymm1
	vmovaps	416(%rsp), %ymm2
	vmovups	%ymm1, 376(%rbx)
	vmovups	%ymm2, 408(%rbx)
	vmovups	%ymm0, 344(%rbx)
	movq	%r14, 440(%rbx)
	vxorps	%xmm0, %xmm0, %xmm0
	vmovups	%xmm0, 448(%rbx)
	xorl	%eax, %eax
4:
	leaq	-40(%rbp), %rsp
	popq	%rbx
	popq	%r12
	popq	%r13
	popq	%r14
	popq	%r15
	popq	%rbp
	vzeroupper
	retq
	vj_end	blake2_ffi..blake2xb..initialize_1_v3

	vj_function	blake2_digest..wiping..scrub_stack..2304_1_v3
	pushq	%rbx
	subq	$2304, %rsp
	movq	%rsp, %rbx
	movl	$2304, %edx
	movq	%rbx, %rdi
	xorl	%esi, %esi
	vj_c_call	memset
	movq	%rbx, %rdi
	callq	blake2_digest..wiping..settle..2304_1_v3
	addq	$2304, %rsp
	popq	%rbx
	retq
	vj_end	blake2_digest..wiping..scrub_stack..2304_1_v3

	vj_function	blake2_digest..wiping..settle..2304_1_v3
	vmovdqu	128(%rdi), %ymm0
	vmovdqu	160(%rdi), %ymm1
	vmovdqu	192(%rdi), %ymm2
	vmovdqu	224(%rdi), %ymm3
	vpor	(%rdi), %ymm0, %ymm0
	vpor	32(%rdi), %ymm1, %ymm1
	vpor	64(%rdi), %ymm2, %ymm2
	vpor	96(%rdi), %ymm3, %ymm3
	vpor	256(%rdi), %ymm0, %ymm0
	vpor	288(%rdi), %ymm1, %ymm1
	vpor	320(%rdi), %ymm2, %ymm2
	vpor	352(%rdi), %ymm3, %ymm3
	vpor	384(%rdi), %ymm0, %ymm0
	vpor	416(%rdi), %ymm1, %ymm1
	vpor	448(%rdi), %ymm2, %ymm2
	vpor	480(%rdi), %ymm3, %ymm3
	vpor	512(%rdi), %ymm0, %ymm0
	vpor	544(%rdi), %ymm1, %ymm1
	vpor	576(%rdi), %ymm2, %ymm2
	vpor	608(%rdi), %ymm3, %ymm3
	vpor	640(%rdi), %ymm0, %ymm0
	vpor	672(%rdi), %ymm1, %ymm1
	vpor	704(%rdi), %ymm2, %ymm2
	vpor	736(%rdi), %ymm3, %ymm3
	vpor	768(%rdi), %ymm0, %ymm0
	vpor	800(%rdi), %ymm1, %ymm1
	vpor	832(%rdi), %ymm2, %ymm2
	vpor	864(%rdi), %ymm3, %ymm3
	vpor	896(%rdi), %ymm0, %ymm0
	vpor	928(%rdi), %ymm1, %ymm1
	vpor	960(%rdi), %ymm2, %ymm2
	vpor	992(%rdi), %ymm3, %ymm3
	vpor	1024(%rdi), %ymm0, %ymm0
	vpor	1056(%rdi), %ymm1, %ymm1
	vpor	1088(%rdi), %ymm2, %ymm2
	vpor	1120(%rdi), %ymm3, %ymm3
	vpor	1152(%rdi), %ymm0, %ymm0
	vpor	1184(%rdi), %ymm1, %ymm1
	vpor	1216(%rdi), %ymm2, %ymm2
	vpor	1248(%rdi), %ymm3, %ymm3
	vpor	1280(%rdi), %ymm0, %ymm0
	vpor	1312(%rdi), %ymm1, %ymm1
	vpor	1344(%rdi), %ymm2, %ymm2
	vpor	1376(%rdi), %ymm3, %ymm3
	vpor	1408(%rdi), %ymm0, %ymm0
	vpor	1440(%rdi), %ymm1, %ymm1
	vpor	1472(%rdi), %ymm2, %ymm2
	vpor	1504(%rdi), %ymm3, %ymm3
	vpor	1536(%rdi), %ymm0, %ymm0
	vpor	1568(%rdi), %ymm1, %ymm1
	vpor	1600(%rdi), %ymm2, %ymm2
	vpor	1632(%rdi), %ymm3, %ymm3
	vpor	1664(%rdi), %ymm0, %ymm0
	vpor	1696(%rdi), %ymm1, %ymm1
	vpor	1728(%rdi), %ymm2, %ymm2
	vpor	1760(%rdi), %ymm3, %ymm3
	vpor	1792(%rdi), %ymm0, %ymm0
	vpor	1824(%rdi), %ymm1, %ymm1
	vpor	1856(%rdi), %ymm2, %ymm2
	vpor	1888(%rdi), %ymm3, %ymm3
	vpor	1920(%rdi), %ymm0, %ymm0
	vpor	1952(%rdi), %ymm1, %ymm1
	vpor	1984(%rdi), %ymm2, %ymm2
	vpor	2016(%rdi), %ymm3, %ymm3
	vpor	2048(%rdi), %ymm0, %ymm0
	vpor	2080(%rdi), %ymm1, %ymm1
	vpor	2112(%rdi), %ymm2, %ymm2
	vpor	2144(%rdi), %ymm3, %ymm3
	vpor	2176(%rdi), %ymm0, %ymm0
	vpor	2208(%rdi), %ymm1, %ymm1
	vpor	%ymm0, %ymm1, %ymm0
	vpor	2240(%rdi), %ymm2, %ymm1
	vpor	2272(%rdi), %ymm3, %ymm2
	vpor	%ymm1, %ymm2, %ymm1
	vpor	%ymm0, %ymm1, %ymm0
	vptest	%ymm0, %ymm0
	je	1f
	pause
1:
	vzeroupper
	retq
	vj_end	blake2_digest..wiping..settle..2304_1_v3

	vj_function	blake2_ffi..blake2xb..reset_in_frame_1_v3
	vmovups	64(%rdi), %ymm0
	vmovups	96(%rdi), %ymm1
	vmovups	%ymm1, 32(%rdi)
	vmovups	%ymm0, (%rdi)
	movq	$0, 128(%rdi)
	movl	140(%rdi), %eax
	movl	%eax, 136(%rdi)
	vxorps	%xmm0, %xmm0, %xmm0
	vmovups	%ymm0, 216(%rdi)
	vmovups	%ymm0, 248(%rdi)
	vmovups	280(%rdi), %ymm1
	vmovups	%ymm1, 152(%rdi)
	vmovups	312(%rdi), %ymm1
	vmovups	%ymm1, 184(%rdi)
	vmovups	%ymm0, 344(%rdi)
	vmovups	%ymm0, 376(%rdi)
	vxorps	%xmm0, %xmm0, %xmm0
	vmovups	%xmm0, 448(%rdi)
	vzeroupper
	retq
	vj_end	blake2_ffi..blake2xb..reset_in_frame_1_v3

	vj_function	blake2_ffi..blake2xb..read_1_v3
	vj_jump	blake2_xof..blake2xb..State..squeeze_1_v3
	vj_end	blake2_ffi..blake2xb..read_1_v3

	vj_constants	32
	.p2align	5, 0x0
.L1_v3_CPI79_0:
	.zero	1
	.byte	0
	.byte	0
	.byte	0
	.byte	64
	.byte	0
	.byte	0
	.byte	0
	.zero	1
	.zero	1
	.zero	1
	.zero	1
	.zero	1
	.zero	1
	.zero	1
	.zero	1
	.byte	0
	.zero	1
	.byte	0
	.byte	0
	.byte	0
	.byte	0
	.byte	0
	.byte	0
	.byte	0
	.byte	0
	.byte	0
	.byte	0
	.byte	0
	.byte	0
	.byte	0
	.byte	0
.L1_v3_CPI79_1:
	.quad	7640891576956012808
	.quad	-4942790177534073029
	.quad	4354685564936845355
	.quad	-6534734903238641935
.L1_v3_CPI79_2:
	.quad	5840696475078001361
	.quad	-7276294671716946913
	.quad	2270897969802886507
	.quad	6620516959819538809
	vj_constants	4
	.p2align	2, 0x0
.L1_v3_CPI79_3:
	.byte	64
	.byte	0
	.byte	0
	.byte	0
	vj_constants	8
	.p2align	3, 0x0
.L1_v3_CPI79_4:
	.quad	64
	vj_constants	16
	.p2align	3, 0x0
.L1_v3_CPI79_5:
	.byte	0
	.byte	0
	.byte	0
	.byte	0
	.byte	64
	.byte	0
	.byte	0
	.byte	0
	.byte	0
	.byte	0
	.byte	0
	.byte	0
	.byte	0
	.byte	0
	.byte	0
	.byte	0
	vj_shared	blake2_xof..blake2xb..State..squeeze_1_v3
	pushq	%rbp
	pushq	%r15
	pushq	%r14
	pushq	%r13
	pushq	%r12
	pushq	%rbx
	subq	$648, %rsp
	movq	%rdx, %rbx
	movq	%rsi, 16(%rsp)
	movq	%rdi, %r15
	cmpq	$0, 456(%rdi)
	jne	1f
	leaq	344(%r15), %rsi
	movq	%r15, %rdi
	callq	blake2_state..blake2b..State..write_digest_1_v3
	movq	$1, 456(%r15)
1:
	testq	%rbx, %rbx
	je	9f
	movq	448(%r15), %rsi
	leaq	512(%rsp), %rax
	vmovq	%rax, %xmm0
	vpbroadcastq	%xmm0, %ymm0
	vmovdqu	%ymm0, 416(%rsp)
	xorl	%r14d, %r14d
	jmp	3f
	.p2align	4
2:
	shlq	$32, %rcx
	addq	%rax, %rcx
	vmovq	.L1_v3_CPI79_5(%rip), %xmm0
	vpinsrb	$0, %edx, %xmm0, %xmm0
	vmovq	%rcx, %xmm1
	vpunpcklqdq	%xmm1, %xmm0, %xmm0
	vmovdqa	.L1_v3_CPI79_0+16(%rip), %xmm1
	movl	$64, %eax
	vpinsrb	$1, %eax, %xmm1, %xmm1
	vinserti128	$1, %xmm1, %ymm0, %ymm0
	vmovups	408(%r15), %ymm1
	vpxor	.L1_v3_CPI79_1(%rip), %ymm0, %ymm0
	vxorps	.L1_v3_CPI79_2(%rip), %ymm1, %ymm1
	vmovdqu	%ymm0, 288(%rsp)
	vmovups	%ymm1, 320(%rsp)
	vpxor	%xmm0, %xmm0, %xmm0
	leaq	96(%rsp), %rax
	vmovdqu	%ymm0, 32(%rax)
	vmovdqu	%ymm0, (%rax)
	leaq	344(%r15), %rax
	vmovups	(%rax), %ymm0
	vmovups	32(%rax), %ymm1
	vmovups	%ymm1, 64(%rsp)
	vmovups	%ymm0, 32(%rsp)
	leaq	288(%rsp), %rdi
	leaq	32(%rsp), %rsi
	movl	$64, %edx
	movl	$1, %ecx
	xorl	%r8d, %r8d
	vzeroupper
	vj_call	blake2_compress..compress..blake2b..compress_1_v3
	vmovups	288(%rsp), %ymm0
	vmovups	%ymm0, 32(%rsp)
	vmovdqu	320(%rsp), %ymm0
	vmovdqu	%ymm0, 64(%rsp)
	subq	%rbp, %r13
	cmpq	%rbx, %r13
	cmovaeq	%rbx, %r13
	leaq	32(%rsp,%rbp), %rsi
	movq	8(%rsp), %rdi
	movq	%r13, %rdx
	vzeroupper
	vj_c_call	memcpy
	movq	448(%r15), %rsi
	addq	%r13, %rsi
	movq	%r12, %rbx
	movq	%rsi, 448(%r15)
	addq	%r13, %r14
	cmpq	%rbx, %r14
	jae	9f
3:
	movq	16(%rsp), %rax
	leaq	(%rax,%r14), %r13
	movq	%rbx, %r12
	subq	%r14, %rbx
	movl	%esi, %ebp
	andl	$63, %ebp
	movq	%rsi, %rax
	shrq	$6, %rax
	cmpq	$256, %rbx
	jb	8f
	testq	%rbp, %rbp
	jne	8f
	movq	440(%r15), %rcx
	movl	$4294967295, %edx
	cmpq	%rdx, %rcx
	movq	%rcx, %rdx
	movabsq	$274877906944, %rdi
	cmoveq	%rdi, %rdx
	xorl	%r9d, %r9d
	movq	%rdx, %rdi
	subq	%rsi, %rdi
	cmovbq	%r9, %rdi
	cmpq	$64, %rdi
	jb	4f
	movl	$64, %edi
4:
	leaq	1(%rax), %r8
	shlq	$6, %r8
	movq	%rdx, %rsi
	subq	%r8, %rsi
	cmovbq	%r9, %rsi
	cmpq	$64, %rsi
	movq	%r12, %rbx
	jb	5f
	movl	$64, %esi
5:
	leaq	2(%rax), %r10
	shlq	$6, %r10
	movq	%rdx, %r8
	subq	%r10, %r8
	cmovbq	%r9, %r8
	cmpq	$64, %r8
	jb	6f
	movl	$64, %r8d
6:
	leaq	3(%rax), %r10
	shlq	$6, %r10
	subq	%r10, %rdx
	cmovbq	%r9, %rdx
	cmpq	$64, %rdx
	jb	7f
	movl	$64, %edx
7:
	shlq	$32, %rcx
	vpbroadcastd	.L1_v3_CPI79_3(%rip), %xmm3
	vpinsrb	$0, %edi, %xmm3, %xmm0
	leaq	(%rcx,%rax), %rdi
	vmovq	%rdi, %xmm1
	vpunpcklqdq	%xmm1, %xmm0, %xmm0
	vpxor	%xmm1, %xmm1, %xmm1
	movl	$64, %edi
	vpinsrb	$1, %edi, %xmm1, %xmm4
	vinserti128	$1, %xmm4, %ymm0, %ymm1
	vmovdqu	408(%r15), %ymm0
	vmovdqa	.L1_v3_CPI79_1(%rip), %ymm5
	vpxor	.L1_v3_CPI79_2(%rip), %ymm0, %ymm0
	vpxor	%ymm5, %ymm1, %ymm1
	leaq	1(%rcx,%rax), %rdi
	vpinsrb	$0, %esi, %xmm3, %xmm2
	vmovq	%rdi, %xmm6
	vpunpcklqdq	%xmm6, %xmm2, %xmm2
	vinserti128	$1, %xmm4, %ymm2, %ymm2
	vpxor	%ymm5, %ymm2, %ymm2
	leaq	2(%rcx,%rax), %rsi
	vpinsrb	$0, %r8d, %xmm3, %xmm6
	vmovq	%rsi, %xmm7
	vpunpcklqdq	%xmm7, %xmm6, %xmm6
	vinserti128	$1, %xmm4, %ymm6, %ymm6
	vpxor	%ymm5, %ymm6, %ymm5
	leaq	3(%rcx,%rax), %rax
	vpinsrb	$0, %edx, %xmm3, %xmm3
	vmovq	%rax, %xmm6
	vpunpcklqdq	%xmm6, %xmm3, %xmm3
	vinserti128	$1, %xmm4, %ymm3, %ymm3
	vpxor	.L1_v3_CPI79_1(%rip), %ymm3, %ymm4
	vpunpcklqdq	%xmm2, %xmm1, %xmm3
	vinserti128	$1, %xmm5, %ymm3, %ymm3
	vpbroadcastq	%xmm4, %ymm6
	vpblendd	$192, %ymm6, %ymm3, %ymm3
	vpunpckhqdq	%xmm2, %xmm1, %xmm6
	vpermq	$85, %ymm5, %ymm7
	vpblendd	$240, %ymm7, %ymm6, %ymm6
	vinserti128	$1, %xmm4, %ymm0, %ymm7
	vpblendd	$192, %ymm7, %ymm6, %ymm6
	vpunpcklqdq	%ymm2, %ymm1, %ymm7
	vperm2i128	$49, %ymm5, %ymm7, %ymm7
	vpshufd	$68, %ymm4, %ymm8
	vpblendd	$192, %ymm8, %ymm7, %ymm7
	vpunpckhqdq	%ymm2, %ymm1, %ymm1
	vpshufd	$238, %ymm5, %ymm2
	vperm2i128	$49, %ymm2, %ymm1, %ymm1
	vpblendd	$192, %ymm4, %ymm1, %ymm1
	vpbroadcastq	%xmm0, %ymm2
	vpermq	$85, %ymm0, %ymm4
	vpermq	$170, %ymm0, %ymm5
	vpxor	%xmm8, %xmm8, %xmm8
	leaq	352(%rsp), %rax
	vmovdqu	%ymm8, 32(%rax)
	vmovdqu	%ymm8, (%rax)
	leaq	344(%r15), %rax
	vmovups	(%rax), %ymm8
	vmovups	32(%rax), %ymm9
	vmovups	%ymm9, 320(%rsp)
	vmovups	%ymm8, 288(%rsp)
	vmovups	%ymm8, 512(%rsp)
	vmovups	%ymm9, 544(%rsp)
	vmovups	352(%rsp), %ymm8
	vmovups	384(%rsp), %ymm9
	vmovups	%ymm8, 576(%rsp)
	vmovups	%ymm9, 608(%rsp)
	vpermq	$255, %ymm0, %ymm0
	movabsq	$281479271743489, %rax
	vmovdqu	%ymm3, 32(%rsp)
	vmovdqu	%ymm6, 64(%rsp)
	vmovdqu	%ymm7, 96(%rsp)
	vmovdqu	%ymm1, 128(%rsp)
	vmovdqu	%ymm2, 160(%rsp)
	vmovdqu	%ymm4, 192(%rsp)
	vmovdqu	%ymm5, 224(%rsp)
	vmovdqu	%ymm0, 256(%rsp)
	vmovups	416(%rsp), %ymm0
	vmovups	%ymm0, 480(%rsp)
	movq	%rax, 24(%rsp)
	vbroadcastsd	.L1_v3_CPI79_4(%rip), %ymm0
	vmovups	%ymm0, 448(%rsp)
	leaq	32(%rsp), %rdi
	leaq	480(%rsp), %rsi
	leaq	448(%rsp), %rdx
	leaq	24(%rsp), %rcx
	vzeroupper
	callq	blake2_compress..many..blake2b..compress_each_1_v3
	vmovdqu	32(%rsp), %ymm0
	vmovdqu	64(%rsp), %ymm1
	vmovdqu	96(%rsp), %ymm2
	vmovdqu	128(%rsp), %ymm3
	vpunpcklqdq	%ymm1, %ymm0, %ymm4
	vpunpcklqdq	%ymm3, %ymm2, %ymm5
	vinserti128	$1, %xmm5, %ymm4, %ymm6
	vmovups	160(%rsp), %ymm7
	vmovups	192(%rsp), %ymm8
	vmovups	224(%rsp), %ymm9
	vmovups	256(%rsp), %ymm10
	vunpcklpd	%ymm8, %ymm7, %ymm11
	vunpcklpd	%ymm10, %ymm9, %ymm12
	vinsertf128	$1, %xmm12, %ymm11, %ymm13
	vpunpckhqdq	%ymm1, %ymm0, %ymm0
	vpunpckhqdq	%ymm3, %ymm2, %ymm1
	vinserti128	$1, %xmm1, %ymm0, %ymm2
	vunpckhpd	%ymm8, %ymm7, %ymm3
	vunpckhpd	%ymm10, %ymm9, %ymm7
	vinsertf128	$1, %xmm7, %ymm3, %ymm8
	vperm2i128	$49, %ymm5, %ymm4, %ymm4
	vperm2f128	$49, %ymm12, %ymm11, %ymm5
	vperm2i128	$49, %ymm1, %ymm0, %ymm0
	vperm2f128	$49, %ymm7, %ymm3, %ymm1
	vmovdqu	%ymm6, (%r13)
	vmovups	%ymm13, 32(%r13)
	vmovdqu	%ymm2, 64(%r13)
	vmovups	%ymm8, 96(%r13)
	vmovdqu	%ymm4, 128(%r13)
	vmovups	%ymm5, 160(%r13)
	vmovdqu	%ymm0, 192(%r13)
	vmovups	%ymm1, 224(%r13)
	movl	$256, %r13d
	movq	448(%r15), %rsi
	addq	%r13, %rsi
	movq	%rsi, 448(%r15)
	addq	%r13, %r14
	cmpq	%rbx, %r14
	jb	3b
	jmp	9f
	.p2align	4
8:
	movq	%r13, 8(%rsp)
	movq	440(%r15), %rcx
	movl	$4294967295, %edx
	cmpq	%rdx, %rcx
	movq	%rcx, %rdi
	movabsq	$274877906944, %rdx
	cmoveq	%rdx, %rdi
	andq	$-64, %rsi
	xorl	%edx, %edx
	subq	%rsi, %rdi
	cmovaeq	%rdi, %rdx
	movl	$64, %r13d
	cmpq	$64, %rdx
	jb	2b
	movl	$64, %edx
	jmp	2b
9:
	addq	$648, %rsp
	popq	%rbx
	popq	%r12
	popq	%r13
	popq	%r14
	popq	%r15
	popq	%rbp
	vzeroupper
	retq
	vj_end	blake2_xof..blake2xb..State..squeeze_1_v3

	vj_function	blake2_digest..wiping..scrub_stack..4096_1_v3
	pushq	%rbx
	subq	$3072, %rsp
	movq	$0, (%rsp)
	subq	$1024, %rsp
	movq	%rsp, %rbx
	movl	$4096, %edx
	movq	%rbx, %rdi
	xorl	%esi, %esi
	vj_c_call	memset
	movq	%rbx, %rdi
	callq	blake2_digest..wiping..settle..4096_1_v3
	addq	$4096, %rsp
	popq	%rbx
	retq
	vj_end	blake2_digest..wiping..scrub_stack..4096_1_v3

	vj_function	blake2_digest..wiping..settle..4096_1_v3
	vmovdqu	128(%rdi), %ymm0
	vmovdqu	160(%rdi), %ymm1
	vmovdqu	192(%rdi), %ymm2
	vmovdqu	224(%rdi), %ymm3
	vpor	(%rdi), %ymm0, %ymm0
	vpor	32(%rdi), %ymm1, %ymm1
	vpor	64(%rdi), %ymm2, %ymm2
	vpor	96(%rdi), %ymm3, %ymm3
	vpor	256(%rdi), %ymm0, %ymm0
	vpor	288(%rdi), %ymm1, %ymm1
	vpor	320(%rdi), %ymm2, %ymm2
	vpor	352(%rdi), %ymm3, %ymm3
	vpor	384(%rdi), %ymm0, %ymm0
	vpor	416(%rdi), %ymm1, %ymm1
	vpor	448(%rdi), %ymm2, %ymm2
	vpor	480(%rdi), %ymm3, %ymm3
	vpor	512(%rdi), %ymm0, %ymm0
	vpor	544(%rdi), %ymm1, %ymm1
	vpor	576(%rdi), %ymm2, %ymm2
	vpor	608(%rdi), %ymm3, %ymm3
	vpor	640(%rdi), %ymm0, %ymm0
	vpor	672(%rdi), %ymm1, %ymm1
	vpor	704(%rdi), %ymm2, %ymm2
	vpor	736(%rdi), %ymm3, %ymm3
	vpor	768(%rdi), %ymm0, %ymm0
	vpor	800(%rdi), %ymm1, %ymm1
	vpor	832(%rdi), %ymm2, %ymm2
	vpor	864(%rdi), %ymm3, %ymm3
	vpor	896(%rdi), %ymm0, %ymm0
	vpor	928(%rdi), %ymm1, %ymm1
	vpor	960(%rdi), %ymm2, %ymm2
	vpor	992(%rdi), %ymm3, %ymm3
	vpor	1024(%rdi), %ymm0, %ymm0
	vpor	1056(%rdi), %ymm1, %ymm1
	vpor	1088(%rdi), %ymm2, %ymm2
	vpor	1120(%rdi), %ymm3, %ymm3
	vpor	1152(%rdi), %ymm0, %ymm0
	vpor	1184(%rdi), %ymm1, %ymm1
	vpor	1216(%rdi), %ymm2, %ymm2
	vpor	1248(%rdi), %ymm3, %ymm3
	vpor	1280(%rdi), %ymm0, %ymm0
	vpor	1312(%rdi), %ymm1, %ymm1
	vpor	1344(%rdi), %ymm2, %ymm2
	vpor	1376(%rdi), %ymm3, %ymm3
	vpor	1408(%rdi), %ymm0, %ymm0
	vpor	1440(%rdi), %ymm1, %ymm1
	vpor	1472(%rdi), %ymm2, %ymm2
	vpor	1504(%rdi), %ymm3, %ymm3
	vpor	1536(%rdi), %ymm0, %ymm0
	vpor	1568(%rdi), %ymm1, %ymm1
	vpor	1600(%rdi), %ymm2, %ymm2
	vpor	1632(%rdi), %ymm3, %ymm3
	vpor	1664(%rdi), %ymm0, %ymm0
	vpor	1696(%rdi), %ymm1, %ymm1
	vpor	1728(%rdi), %ymm2, %ymm2
	vpor	1760(%rdi), %ymm3, %ymm3
	vpor	1792(%rdi), %ymm0, %ymm0
	vpor	1824(%rdi), %ymm1, %ymm1
	vpor	1856(%rdi), %ymm2, %ymm2
	vpor	1888(%rdi), %ymm3, %ymm3
	vpor	1920(%rdi), %ymm0, %ymm0
	vpor	1952(%rdi), %ymm1, %ymm1
	vpor	1984(%rdi), %ymm2, %ymm2
	vpor	2016(%rdi), %ymm3, %ymm3
	vpor	2048(%rdi), %ymm0, %ymm0
	vpor	2080(%rdi), %ymm1, %ymm1
	vpor	2112(%rdi), %ymm2, %ymm2
	vpor	2144(%rdi), %ymm3, %ymm3
	vpor	2176(%rdi), %ymm0, %ymm0
	vpor	2208(%rdi), %ymm1, %ymm1
	vpor	2240(%rdi), %ymm2, %ymm2
	vpor	2272(%rdi), %ymm3, %ymm3
	vpor	2304(%rdi), %ymm0, %ymm0
	vpor	2336(%rdi), %ymm1, %ymm1
	vpor	2368(%rdi), %ymm2, %ymm2
	vpor	2400(%rdi), %ymm3, %ymm3
	vpor	2432(%rdi), %ymm0, %ymm0
	vpor	2464(%rdi), %ymm1, %ymm1
	vpor	2496(%rdi), %ymm2, %ymm2
	vpor	2528(%rdi), %ymm3, %ymm3
	vpor	2560(%rdi), %ymm0, %ymm0
	vpor	2592(%rdi), %ymm1, %ymm1
	vpor	2624(%rdi), %ymm2, %ymm2
	vpor	2656(%rdi), %ymm3, %ymm3
	vpor	2688(%rdi), %ymm0, %ymm0
	vpor	2720(%rdi), %ymm1, %ymm1
	vpor	2752(%rdi), %ymm2, %ymm2
	vpor	2784(%rdi), %ymm3, %ymm3
	vpor	2816(%rdi), %ymm0, %ymm0
	vpor	2848(%rdi), %ymm1, %ymm1
	vpor	2880(%rdi), %ymm2, %ymm2
	vpor	2912(%rdi), %ymm3, %ymm3
	vpor	2944(%rdi), %ymm0, %ymm0
	vpor	2976(%rdi), %ymm1, %ymm1
	vpor	3008(%rdi), %ymm2, %ymm2
	vpor	3040(%rdi), %ymm3, %ymm3
	vpor	3072(%rdi), %ymm0, %ymm0
	vpor	3104(%rdi), %ymm1, %ymm1
	vpor	3136(%rdi), %ymm2, %ymm2
	vpor	3168(%rdi), %ymm3, %ymm3
	vpor	3200(%rdi), %ymm0, %ymm0
	vpor	3232(%rdi), %ymm1, %ymm1
	vpor	3264(%rdi), %ymm2, %ymm2
	vpor	3296(%rdi), %ymm3, %ymm3
	vpor	3328(%rdi), %ymm0, %ymm0
	vpor	3360(%rdi), %ymm1, %ymm1
	vpor	3392(%rdi), %ymm2, %ymm2
	vpor	3424(%rdi), %ymm3, %ymm3
	vpor	3456(%rdi), %ymm0, %ymm0
	vpor	3488(%rdi), %ymm1, %ymm1
	vpor	3520(%rdi), %ymm2, %ymm2
	vpor	3552(%rdi), %ymm3, %ymm3
	vpor	3584(%rdi), %ymm0, %ymm0
	vpor	3616(%rdi), %ymm1, %ymm1
	vpor	3648(%rdi), %ymm2, %ymm2
	vpor	3680(%rdi), %ymm3, %ymm3
	vpor	3712(%rdi), %ymm0, %ymm0
	vpor	3744(%rdi), %ymm1, %ymm1
	vpor	3776(%rdi), %ymm2, %ymm2
	vpor	3808(%rdi), %ymm3, %ymm3
	vpor	3840(%rdi), %ymm0, %ymm0
	vpor	3872(%rdi), %ymm1, %ymm1
	vpor	3904(%rdi), %ymm2, %ymm2
	vpor	3936(%rdi), %ymm3, %ymm3
	vpor	3968(%rdi), %ymm0, %ymm0
	vpor	4000(%rdi), %ymm1, %ymm1
	vpor	%ymm0, %ymm1, %ymm0
	vpor	4032(%rdi), %ymm2, %ymm1
	vpor	4064(%rdi), %ymm3, %ymm2
	vpor	%ymm1, %ymm2, %ymm1
	vpor	%ymm0, %ymm1, %ymm0
	vptest	%ymm0, %ymm0
	je	1f
	pause
1:
	vzeroupper
	retq
	vj_end	blake2_digest..wiping..settle..4096_1_v3

	vj_function	blake2_ffi..blake2xb..update_in_frame_1_v3
	cmpq	$1, %rdx
	jne	blake2_state..blake2b..State..absorb_blocks_1_v3
	movl	136(%rdi), %eax
	cmpq	$128, %rax
	jae	1f
	movzbl	(%rsi), %ecx
	movb	%cl, 152(%rdi,%rax)
	incl	%eax
	movl	%eax, 136(%rdi)
	retq
1:
	movl	$1, %edx
	jmp	blake2_state..blake2b..State..absorb_blocks_1_v3
	vj_end	blake2_ffi..blake2xb..update_in_frame_1_v3

	vj_constants	32
	.p2align	5, 0x0
.L1_v3_CPI83_0:
	.long	1779033703
	.long	3144134277
	.long	1013904242
	.long	2773480762
	.long	1359893119
	.long	2600822924
	.long	528734635
	.long	1541459225
	vj_constants	16
	.p2align	4, 0x0
.L1_v3_CPI83_1:
	.short	32
	.short	257
	.short	0
	.short	0
	.zero	2
	.zero	2
	.zero	2
	.zero	2
.L1_v3_CPI83_2:
	.short	32
	.short	257
	.short	0
	.short	0
	.short	0
	.short	0
	.short	0
	.short	0
	vj_function	blake2_ffi..blake2xs..initialize_1_v3
	pushq	%rbp
	pushq	%r15
	pushq	%r14
	pushq	%r13
	pushq	%r12
	pushq	%rbx
	subq	$168, %rsp
	movq	%rcx, %rbp
	movq	%rdx, %r15
	movq	%rdi, %rbx
	movq	232(%rsp), %r13
	leaq	-1(%rsi), %rax
	cmpq	$65535, %rax
	setae	%al
	cmpq	$33, %rcx
	setae	%cl
	cmpq	$9, %r9
	setae	%dl
	orb	%cl, %dl
	orb	%al, %dl
	cmpq	$9, %r13
	setae	%al
	orb	%dl, %al
	jne	1f
	movq	%r9, %r12
	movq	%rsi, %r14
	movq	%rsi, %rax
	shlq	$32, %rax
	vpxor	%xmm0, %xmm0, %xmm0
	testq	%rbp, %rbp
	je	2f
	vmovdqa	%xmm0, (%rsp)
	movl	%ebp, %ecx
	shll	$8, %ecx
	orl	$16842784, %ecx
	vmovd	%ecx, %xmm1
	vpmovzxdq	%xmm1, %xmm1
	vmovq	%rax, %xmm2
	vpunpcklqdq	%xmm2, %xmm1, %xmm1
	vpblendw	$128, %xmm0, %xmm1, %xmm0
	vmovdqu	%ymm0, 16(%rsp)
	movq	%rsp, %rdi
	movq	%r8, %rsi
	movq	%r12, %rdx
	movq	%r8, 56(%rsp)
	vzeroupper
	vj_c_call	memcpy
	leaq	8(%rsp), %rdi
	movq	224(%rsp), %rsi
	movq	%r13, %rdx
	vj_c_call	memcpy
	vmovups	16(%rsp), %ymm0
	vinsertf128	$1, (%rsp), %ymm0, %ymm0
	vmovups	%ymm0, 16(%rsp)
	movl	$32, %eax
	subq	%rbp, %rax
	xorl	%edx, %edx
	cmpq	$32, %rbp
	cmovbq	%rax, %rdx
	leaq	(%rsp,%rbp), %rdi
	addq	$64, %rdi
	xorl	%esi, %esi
	vzeroupper
	vj_c_call	memset
	leaq	64(%rsp), %rdi
	movq	%r15, %rsi
	movq	56(%rsp), %r15
	movq	%rbp, %rdx
	vj_c_call	memcpy
	vxorps	%xmm0, %xmm0, %xmm0
	vmovups	%ymm0, 128(%rsp)
	vmovups	64(%rsp), %ymm0
	vmovups	%ymm0, 96(%rsp)
	vmovups	16(%rsp), %ymm0
	vxorps	.L1_v3_CPI83_0(%rip), %ymm0, %ymm0
	vmovups	%ymm0, 16(%rsp)
	movw	$64, %bp
	jmp	3f
1:
	vxorps	%xmm0, %xmm0, %xmm0
	vmovups	%ymm0, 216(%rbx)
	vmovups	%ymm0, 192(%rbx)
	vmovups	%ymm0, 160(%rbx)
	vmovups	%ymm0, 128(%rbx)
	vmovups	%ymm0, 96(%rbx)
	vmovups	%ymm0, 64(%rbx)
	vmovups	%ymm0, 32(%rbx)
	vmovups	%ymm0, (%rbx)
	movl	$-1, %eax
	jmp	4f
2:
	vmovdqa	%xmm0, (%rsp)
	vmovq	%rax, %xmm1
	vmovd	.L1_v3_CPI83_2(%rip), %xmm2
	vpunpcklqdq	%xmm1, %xmm2, %xmm1
	vpblendw	$128, %xmm0, %xmm1, %xmm0
	vmovdqu	%ymm0, 16(%rsp)
	movq	%rsp, %rdi
	movq	%r8, %rsi
	movq	%r12, %rdx
	movq	%r8, %r15
	vzeroupper
	vj_c_call	memcpy
	leaq	8(%rsp), %rdi
	movq	224(%rsp), %rsi
	movq	%r13, %rdx
	vj_c_call	memcpy
	vmovups	16(%rsp), %ymm0
	vinsertf128	$1, (%rsp), %ymm0, %ymm0
	vpxor	%xmm1, %xmm1, %xmm1
	vmovdqu	%ymm1, 96(%rsp)
	vmovdqu	%ymm1, 128(%rsp)
	vmovdqu	%ymm1, 64(%rsp)
	vxorps	.L1_v3_CPI83_0(%rip), %ymm0, %ymm0
	vmovups	%ymm0, 16(%rsp)
	xorl	%ebp, %ebp
3:
	movq	$0, (%rsp)
	movq	%rsp, %rdi
	movq	%r15, %rsi
	movq	%r12, %rdx
	vzeroupper
	vj_c_call	memcpy
	movq	(%rsp), %r15
	movq	$0, (%rsp)
	movq	%rsp, %rdi
	movq	224(%rsp), %rsi
	movq	%r13, %rdx
	vj_c_call	memcpy
	movq	(%rsp), %rax
	vmovups	16(%rsp), %ymm0
	vmovups	%ymm0, (%rbx)
	vmovups	%ymm0, 32(%rbx)
	movq	$0, 64(%rbx)
	movw	%bp, 72(%rbx)
	movw	%bp, 74(%rbx)
	movl	$32, 76(%rbx)
	vmovups	96(%rsp), %ymm0
	vmovups	128(%rsp), %ymm1
	vmovups	%ymm0, 80(%rbx)
	vmovups	%ymm1, 112(%rbx)
	vmovups	64(%rsp), %ymm0
	vmovups	%ymm0, 144(%rbx)
	vxorps	%xmm0, %xmm0, %xmm0
	vmovups	%ymm0, 176(%rbx)
	movq	%r15, 208(%rbx)
	movq	%rax, 216(%rbx)
	movq	%r14, 224(%rbx)
	vxorps	%xmm0, %xmm0, %xmm0
	vmovups	%xmm0, 232(%rbx)
	xorl	%eax, %eax
4:
	addq	$168, %rsp
	popq	%rbx
	popq	%r12
	popq	%r13
	popq	%r14
	popq	%r15
	popq	%rbp
	vzeroupper
	retq
	vj_end	blake2_ffi..blake2xs..initialize_1_v3

	vj_function	blake2_ffi..blake2xs..reset_in_frame_1_v3
	vmovups	32(%rdi), %ymm0
	vmovups	%ymm0, (%rdi)
	movq	$0, 64(%rdi)
	movzwl	74(%rdi), %eax
	movw	%ax, 72(%rdi)
	vxorps	%xmm0, %xmm0, %xmm0
	vmovups	%ymm0, 112(%rdi)
	vmovups	144(%rdi), %ymm1
	vmovups	%ymm1, 80(%rdi)
	vmovups	%ymm0, 176(%rdi)
	vxorps	%xmm0, %xmm0, %xmm0
	vmovups	%xmm0, 232(%rdi)
	vzeroupper
	retq
	vj_end	blake2_ffi..blake2xs..reset_in_frame_1_v3

	vj_function	blake2_ffi..blake2xs..read_1_v3
	vj_jump	blake2_xof..blake2xs..State..squeeze_1_v3
	vj_end	blake2_ffi..blake2xs..read_1_v3

	vj_constants	16
	.p2align	4, 0x0
.L1_v3_CPI86_0:
	.zero	1
	.byte	0
	.byte	0
	.byte	0
	.byte	32
	.byte	0
	.byte	0
	.byte	0
	.zero	1
	.zero	1
	.zero	1
	.zero	1
	.zero	1
	.zero	1
	.byte	0
	.zero	1
.L1_v3_CPI86_1:
	.long	1779033703
	.long	3144134277
	.long	1013904242
	.long	2773480762
.L1_v3_CPI86_2:
	.long	1359893119
	.long	2600822924
	.long	528734635
	.long	1541459225
.L1_v3_CPI86_11:
	.byte	1
	.byte	0
	.byte	1
	.byte	0
	.byte	1
	.byte	0
	.byte	1
	.byte	0
	.byte	1
	.byte	0
	.byte	1
	.byte	0
	.byte	1
	.byte	0
	.byte	1
	.byte	0
	vj_constants	4
	.p2align	2, 0x0
.L1_v3_CPI86_3:
	.byte	32
	.byte	0
	.byte	0
	.byte	0
.L1_v3_CPI86_7:
	.long	1
.L1_v3_CPI86_8:
	.long	2
.L1_v3_CPI86_9:
	.long	3
.L1_v3_CPI86_12:
	.byte	1
	.byte	0
	.byte	1
	.byte	0
	vj_constants	32
	.p2align	5, 0x0
.L1_v3_CPI86_4:
	.long	0
	.zero	4
	.long	2
	.zero	4
	.long	5
	.zero	4
	.zero	4
	.zero	4
.L1_v3_CPI86_5:
	.long	0
	.long	1
	.long	2
	.zero	4
	.long	7
	.zero	4
	.zero	4
	.zero	4
.L1_v3_CPI86_6:
	.long	0
	.long	1
	.long	2
	.zero	4
	.long	4
	.long	3
	.zero	4
	.zero	4
	vj_constants	8
	.p2align	3, 0x0
.L1_v3_CPI86_10:
	.quad	32
	vj_shared	blake2_xof..blake2xs..State..squeeze_1_v3
	pushq	%rbp
	pushq	%r15
	pushq	%r14
	pushq	%r13
	pushq	%r12
	pushq	%rbx
	subq	$712, %rsp
	movq	%rdx, %rbx
	movq	%rsi, 8(%rsp)
	movq	%rdi, %r15
	cmpq	$0, 240(%rdi)
	jne	1f
	leaq	176(%r15), %rsi
	movq	%r15, %rdi
	callq	blake2_state..blake2s..State..write_digest_1_v3
	movq	$1, 240(%r15)
1:
	testq	%rbx, %rbx
	je	14f
	movq	232(%r15), %r8
	leaq	512(%rsp), %rax
	vmovq	%rax, %xmm0
	vpbroadcastq	%xmm0, %ymm0
	vmovdqu	%ymm0, 480(%rsp)
	xorl	%ebp, %ebp
	movq	%rbx, (%rsp)
	jmp	4f
	.p2align	4
2:
	shlq	$32, %rcx
	vpbroadcastd	.L1_v3_CPI86_3(%rip), %xmm0
	vpinsrb	$0, %edx, %xmm0, %xmm0
	addq	%rax, %rcx
	vmovq	%rcx, %xmm1
	vpbroadcastq	%xmm1, %xmm1
	vpblendw	$112, %xmm1, %xmm0, %xmm0
	movl	$32, %eax
	vpinsrb	$15, %eax, %xmm0, %xmm0
	vmovdqu	208(%r15), %xmm1
	vpxor	.L1_v3_CPI86_1(%rip), %xmm0, %xmm0
	vpxor	.L1_v3_CPI86_2(%rip), %xmm1, %xmm1
	vmovdqa	%xmm0, 416(%rsp)
	vmovdqa	%xmm1, 432(%rsp)
	vpxor	%xmm0, %xmm0, %xmm0
	leaq	48(%rsp), %rax
	vmovdqu	%ymm0, (%rax)
	leaq	176(%r15), %rax
	vmovups	(%rax), %ymm0
	vmovups	%ymm0, 16(%rsp)
	leaq	416(%rsp), %rdi
	leaq	16(%rsp), %rsi
	movl	$32, %edx
	movl	$1, %ecx
	xorl	%r8d, %r8d
	vzeroupper
	vj_call	blake2_compress..compress..blake2s..compress_1_v3
	vmovdqu	416(%rsp), %ymm0
	vmovdqu	%ymm0, 16(%rsp)
	subq	%r14, %r13
	cmpq	%rbx, %r13
	cmovaeq	%rbx, %r13
	leaq	16(%rsp,%r14), %rsi
	movq	%r12, %rdi
	movq	%r13, %rdx
	vzeroupper
	vj_c_call	memcpy
3:
	movq	232(%r15), %r8
	addq	%r13, %r8
	movq	(%rsp), %rbx
	movq	%r8, 232(%r15)
	addq	%r13, %rbp
	cmpq	%rbx, %rbp
	jae	14f
4:
	movq	8(%rsp), %rax
	leaq	(%rax,%rbp), %r12
	subq	%rbp, %rbx
	movl	%r8d, %r14d
	andl	$31, %r14d
	movq	%r8, %rax
	shrq	$5, %rax
	cmpq	$256, %rbx
	jb	13f
	testq	%r14, %r14
	jne	13f
	movq	224(%r15), %rcx
	cmpq	$65535, %rcx
	movq	%rcx, %rdx
	movabsq	$137438953472, %rsi
	cmoveq	%rsi, %rdx
	xorl	%esi, %esi
	movq	%rdx, %rdi
	subq	%r8, %rdi
	cmovbq	%rsi, %rdi
	cmpq	$32, %rdi
	jb	5f
	movl	$32, %edi
5:
	leaq	1(%rax), %r9
	shlq	$5, %r9
	movq	%rdx, %r8
	subq	%r9, %r8
	cmovbq	%rsi, %r8
	cmpq	$32, %r8
	jb	6f
	movl	$32, %r8d
6:
	leaq	2(%rax), %r10
	shlq	$5, %r10
	movq	%rdx, %r9
	subq	%r10, %r9
	cmovbq	%rsi, %r9
	cmpq	$32, %r9
	jb	7f
	movl	$32, %r9d
7:
	leaq	3(%rax), %r11
	shlq	$5, %r11
	movq	%rdx, %r10
	subq	%r11, %r10
	cmovbq	%rsi, %r10
	cmpq	$32, %r10
	jb	8f
	movl	$32, %r10d
8:
	leaq	4(%rax), %rbx
	shlq	$5, %rbx
	movq	%rdx, %r11
	subq	%rbx, %r11
	cmovbq	%rsi, %r11
	cmpq	$32, %r11
	jb	9f
	movl	$32, %r11d
9:
	leaq	5(%rax), %rbx
	shlq	$5, %rbx
	movq	%rdx, %r13
	subq	%rbx, %r13
	cmovbq	%rsi, %r13
	cmpq	$32, %r13
	jb	10f
	movl	$32, %r13d
10:
	leaq	6(%rax), %r14
	shlq	$5, %r14
	movq	%rdx, %rbx
	subq	%r14, %rbx
	cmovbq	%rsi, %rbx
	cmpq	$32, %rbx
	jb	11f
	movl	$32, %ebx
11:
	shlq	$32, %rcx
	vpbroadcastd	.L1_v3_CPI86_3(%rip), %xmm6
	vpinsrb	$0, %edi, %xmm6, %xmm0
	leaq	(%rcx,%rax), %rdi
	vmovq	%rdi, %xmm1
	vpbroadcastq	%xmm1, %xmm1
	vpblendw	$112, %xmm1, %xmm0, %xmm0
	movl	$32, %edi
	vpinsrb	$15, %edi, %xmm0, %xmm0
	vmovdqu	208(%r15), %xmm2
	vmovdqa	.L1_v3_CPI86_1(%rip), %xmm7
	vpxor	%xmm7, %xmm0, %xmm1
	vpxor	.L1_v3_CPI86_2(%rip), %xmm2, %xmm0
	leaq	1(%rcx,%rax), %r14
	vpinsrb	$0, %r8d, %xmm6, %xmm2
	vmovq	%r14, %xmm3
	vpbroadcastq	%xmm3, %xmm3
	vpblendw	$112, %xmm3, %xmm2, %xmm2
	vpinsrb	$15, %edi, %xmm2, %xmm2
	leaq	2(%rcx,%rax), %r8
	vpinsrb	$0, %r9d, %xmm6, %xmm3
	vmovq	%r8, %xmm4
	vpbroadcastq	%xmm4, %xmm4
	vpblendw	$112, %xmm4, %xmm3, %xmm3
	vpinsrb	$15, %edi, %xmm3, %xmm3
	vpxor	%xmm7, %xmm2, %xmm4
	vpxor	%xmm7, %xmm3, %xmm3
	vpinsrb	$0, %r10d, %xmm6, %xmm2
	leaq	3(%rcx,%rax), %r8
	vmovq	%r8, %xmm5
	vpbroadcastq	%xmm5, %xmm5
	vpblendw	$112, %xmm5, %xmm2, %xmm2
	vpinsrb	$15, %edi, %xmm2, %xmm2
	vpxor	%xmm7, %xmm2, %xmm2
	leaq	4(%rcx,%rax), %r8
	vpinsrb	$0, %r11d, %xmm6, %xmm5
	vmovq	%r8, %xmm8
	vpbroadcastq	%xmm8, %xmm8
	vpblendw	$112, %xmm8, %xmm5, %xmm5
	vpinsrb	$15, %edi, %xmm5, %xmm5
	vpxor	%xmm7, %xmm5, %xmm5
	leaq	5(%rcx,%rax), %r8
	vpinsrb	$0, %r13d, %xmm6, %xmm8
	vmovq	%r8, %xmm9
	vpbroadcastq	%xmm9, %xmm9
	vpblendw	$112, %xmm9, %xmm8, %xmm8
	vpinsrb	$15, %edi, %xmm8, %xmm8
	leaq	6(%rcx,%rax), %r8
	vpinsrb	$0, %ebx, %xmm6, %xmm9
	vmovq	%r8, %xmm10
	vpbroadcastq	%xmm10, %xmm10
	vpblendw	$112, %xmm10, %xmm9, %xmm9
	vpinsrb	$15, %edi, %xmm9, %xmm10
	vpxor	%xmm7, %xmm8, %xmm9
	vpxor	%xmm7, %xmm10, %xmm8
	leaq	7(%rax), %r8
	shlq	$5, %r8
	subq	%r8, %rdx
	cmovbq	%rsi, %rdx
	cmpq	$32, %rdx
	jb	12f
	movl	$32, %edx
12:
	addq	%rcx, %rax
	addq	$7, %rax
	vpinsrb	$0, %edx, %xmm6, %xmm6
	vmovq	%rax, %xmm10
	vpbroadcastq	%xmm10, %xmm10
	vpblendw	$112, %xmm10, %xmm6, %xmm6
	vpinsrb	$15, %edi, %xmm6, %xmm6
	vpxor	%xmm7, %xmm6, %xmm7
	vpunpckldq	%xmm4, %xmm1, %xmm6
	vpunpcklqdq	%xmm3, %xmm6, %xmm6
	vpbroadcastd	%xmm2, %xmm10
	vpblendd	$8, %xmm10, %xmm6, %xmm6
	vinserti128	$1, %xmm5, %ymm6, %ymm6
	vpbroadcastd	%xmm9, %ymm10
	vpblendd	$32, %ymm10, %ymm6, %ymm6
	vpbroadcastq	%xmm8, %ymm10
	vpblendd	$192, %ymm10, %ymm6, %ymm6
	vpbroadcastd	%xmm7, %ymm10
	vpblendd	$128, %ymm10, %ymm6, %ymm6
	vpshufd	$85, %xmm1, %xmm10
	vpblendd	$2, %xmm4, %xmm10, %xmm10
	vshufps	$212, %xmm3, %xmm10, %xmm10
	vinsertf128	$1, %xmm5, %ymm10, %ymm11
	vmovaps	.L1_v3_CPI86_4(%rip), %ymm12
	vpermps	%ymm11, %ymm12, %ymm11
	vpbroadcastq	%xmm2, %xmm12
	vblendps	$8, %ymm12, %ymm11, %ymm11
	vinsertf128	$1, %xmm9, %ymm10, %ymm10
	vblendps	$34, %ymm10, %ymm11, %ymm10
	vpmovzxdq	%xmm8, %xmm11
	vinserti128	$1, %xmm11, %ymm0, %ymm11
	vblendps	$192, %ymm11, %ymm10, %ymm10
	vpbroadcastq	%xmm7, %ymm11
	vblendps	$128, %ymm11, %ymm10, %ymm10
	vpunpckhdq	%xmm4, %xmm1, %xmm1
	vpblendd	$12, %xmm3, %xmm1, %xmm4
	vinserti128	$1, %xmm5, %ymm4, %ymm4
	vpermq	$244, %ymm4, %ymm4
	vpshufd	$170, %xmm2, %xmm11
	vpblendd	$8, %ymm11, %ymm4, %ymm4
	vpshufd	$250, %xmm9, %xmm11
	vinserti128	$1, %xmm11, %ymm0, %ymm11
	vpblendd	$32, %ymm11, %ymm4, %ymm4
	vinserti128	$1, %xmm8, %ymm0, %ymm11
	vpblendd	$192, %ymm11, %ymm4, %ymm4
	vpshufd	$170, %xmm7, %xmm11
	vinserti128	$1, %xmm11, %ymm0, %ymm11
	vpblendd	$128, %ymm11, %ymm4, %ymm4
	vshufps	$254, %xmm3, %xmm1, %xmm1
	vinsertf128	$1, %xmm5, %ymm1, %ymm1
	vmovaps	.L1_v3_CPI86_5(%rip), %ymm3
	vpermps	%ymm1, %ymm3, %ymm1
	vblendps	$8, %ymm9, %ymm1, %ymm1
	vmovaps	.L1_v3_CPI86_6(%rip), %ymm3
	vpermps	%ymm1, %ymm3, %ymm1
	vpshufd	$250, %xmm8, %xmm3
	vinserti128	$1, %xmm3, %ymm0, %ymm3
	vblendps	$192, %ymm3, %ymm1, %ymm1
	vinserti128	$1, %xmm7, %ymm2, %ymm2
	vblendps	$136, %ymm2, %ymm1, %ymm1
	vpbroadcastd	%xmm0, %ymm2
	vpbroadcastd	.L1_v3_CPI86_7(%rip), %ymm3
	vpermd	%ymm0, %ymm3, %ymm3
	vpbroadcastd	.L1_v3_CPI86_8(%rip), %ymm5
	vpermd	%ymm0, %ymm5, %ymm5
	vpxor	%xmm7, %xmm7, %xmm7
	leaq	608(%rsp), %rax
	vmovdqu	%ymm7, (%rax)
	vpbroadcastd	.L1_v3_CPI86_9(%rip), %ymm7
	leaq	176(%r15), %rax
	vmovups	(%rax), %ymm8
	vmovups	%ymm8, 576(%rsp)
	vpermd	%ymm0, %ymm7, %ymm0
	vmovups	%ymm8, 512(%rsp)
	vmovups	608(%rsp), %ymm7
	vmovups	%ymm7, 544(%rsp)
	vmovdqu	%ymm6, 16(%rsp)
	vmovups	%ymm10, 48(%rsp)
	vmovdqu	%ymm4, 80(%rsp)
	vmovups	%ymm1, 112(%rsp)
	vmovdqu	%ymm2, 144(%rsp)
	vmovdqu	%ymm3, 176(%rsp)
	vmovdqu	%ymm5, 208(%rsp)
	vmovdqu	%ymm0, 240(%rsp)
	vmovups	480(%rsp), %ymm0
	vmovups	%ymm0, 416(%rsp)
	vmovups	%ymm0, 448(%rsp)
	vbroadcastsd	.L1_v3_CPI86_10(%rip), %ymm0
	vmovups	%ymm0, 648(%rsp)
	vmovups	%ymm0, 680(%rsp)
	vbroadcastss	.L1_v3_CPI86_12(%rip), %xmm0
	vmovaps	%xmm0, 400(%rsp)
	leaq	16(%rsp), %rdi
	leaq	416(%rsp), %rsi
	leaq	648(%rsp), %rdx
	leaq	400(%rsp), %rcx
	vzeroupper
	callq	blake2_compress..many..blake2s..compress_each_1_v3
	vmovdqu	112(%rsp), %xmm8
	movzbl	116(%rsp), %esi
	vmovdqu	240(%rsp), %xmm13
	movzbl	244(%rsp), %edx
	vmovdqu	16(%rsp), %xmm14
	vmovdqu	32(%rsp), %xmm4
	vmovdqa	%xmm4, 320(%rsp)
	vmovdqu	48(%rsp), %xmm15
	vmovdqu	64(%rsp), %xmm1
	vmovdqa	%xmm1, 384(%rsp)
	vpunpckldq	%xmm15, %xmm14, %xmm5
	vmovdqu	80(%rsp), %xmm11
	vmovdqu	144(%rsp), %xmm3
	vmovdqu	176(%rsp), %xmm7
	vmovdqu	208(%rsp), %xmm9
	vpunpckhdq	%xmm7, %xmm3, %xmm12
	vpshufd	$238, %xmm12, %xmm0
	vmovd	%xmm1, %edi
	vmovdqu	96(%rsp), %xmm2
	vmovups	128(%rsp), %xmm1
	vmovaps	%xmm1, 352(%rsp)
	movzbl	140(%rsp), %eax
	vmovdqu	192(%rsp), %xmm10
	vpalignr	$13, 112(%rsp), %xmm0, %xmm0
	vmovdqa	%xmm0, 272(%rsp)
	movzbl	268(%rsp), %ecx
	vmovdqu	224(%rsp), %xmm6
	vpinsrd	$1, %edi, %xmm4, %xmm1
	vmovdqu	256(%rsp), %xmm4
	vmovups	160(%rsp), %xmm0
	vmovaps	%xmm0, 304(%rsp)
	vbroadcastss	40(%rsp), %xmm0
	vmovaps	%xmm0, 336(%rsp)
	vbroadcastss	168(%rsp), %xmm0
	vmovaps	%xmm0, 368(%rsp)
	vpalignr	$13, 240(%rsp), %xmm1, %xmm0
	vmovdqa	%xmm0, 288(%rsp)
	vmovq	%xmm5, (%r12)
	vmovd	%xmm8, %edi
	vpunpcklqdq	%xmm11, %xmm5, %xmm5
	vpinsrd	$3, %edi, %xmm5, %xmm5
	vmovd	%xmm11, 8(%r12)
	movb	%dil, 12(%r12)
	vpunpckldq	%xmm7, %xmm3, %xmm0
	vpalignr	$13, %xmm5, %xmm0, %xmm5
	vmovq	%xmm5, 13(%r12)
	vpunpcklqdq	%xmm9, %xmm0, %xmm0
	vpsrldq	$5, %xmm0, %xmm5
	vmovd	%xmm5, 21(%r12)
	vmovd	%xmm13, %edi
	vpinsrd	$3, %edi, %xmm0, %xmm0
	vpextrb	$1, %xmm9, 25(%r12)
	vpextrb	$2, %xmm9, 26(%r12)
	vpshufd	$85, %xmm14, %xmm5
	vpblendd	$2, %xmm15, %xmm5, %xmm5
	vpextrb	$3, %xmm9, 27(%r12)
	movb	%dil, 28(%r12)
	vpalignr	$13, %xmm0, %xmm5, %xmm0
	vmovq	%xmm0, 29(%r12)
	vshufps	$212, %xmm11, %xmm5, %xmm0
	vpsrldq	$5, %xmm0, %xmm0
	vmovd	%xmm0, 37(%r12)
	vpshufd	$85, %xmm3, %xmm0
	vpextrb	$5, %xmm11, 41(%r12)
	vpblendd	$2, %xmm7, %xmm0, %xmm0
	vpextrb	$6, %xmm11, 42(%r12)
	vpextrb	$7, %xmm11, 43(%r12)
	movb	%sil, 44(%r12)
	vpbroadcastq	%xmm8, %xmm3
	vpalignr	$13, %xmm3, %xmm0, %xmm3
	vmovq	%xmm3, 45(%r12)
	vshufps	$212, %xmm9, %xmm0, %xmm0
	vpsrldq	$5, %xmm0, %xmm0
	vmovd	%xmm0, 53(%r12)
	vpextrb	$5, %xmm9, 57(%r12)
	vpunpckhdq	%xmm15, %xmm14, %xmm0
	vpextrb	$6, %xmm9, 58(%r12)
	vpextrb	$7, %xmm9, 59(%r12)
	movb	%dl, 60(%r12)
	vpbroadcastq	%xmm13, %xmm3
	vpalignr	$13, %xmm3, %xmm0, %xmm3
	vmovq	%xmm3, 61(%r12)
	vpblendd	$12, %xmm11, %xmm0, %xmm3
	vpsrldq	$5, %xmm3, %xmm5
	vmovd	%xmm5, 69(%r12)
	vpextrd	$2, %xmm8, %edx
	vpinsrd	$3, %edx, %xmm3, %xmm3
	vpextrb	$9, %xmm11, 73(%r12)
	vpextrb	$10, %xmm11, 74(%r12)
	vpextrb	$11, %xmm11, 75(%r12)
	movb	%dl, 76(%r12)
	vpalignr	$13, %xmm3, %xmm12, %xmm3
	vmovq	%xmm3, 77(%r12)
	vpblendd	$12, %xmm9, %xmm12, %xmm3
	vpsrldq	$5, %xmm3, %xmm5
	vmovd	%xmm5, 85(%r12)
	vpextrd	$2, %xmm13, %edx
	vpinsrd	$3, %edx, %xmm3, %xmm3
	vpextrb	$9, %xmm9, 89(%r12)
	vpextrb	$10, %xmm9, 90(%r12)
	vpextrb	$11, %xmm9, 91(%r12)
	vpshufd	$238, %xmm0, %xmm5
	vpalignr	$13, %xmm3, %xmm5, %xmm3
	movb	%dl, 92(%r12)
	vmovq	%xmm3, 93(%r12)
	vshufps	$254, %xmm11, %xmm0, %xmm0
	vpsrldq	$5, %xmm0, %xmm0
	vmovd	%xmm0, 101(%r12)
	vpextrb	$13, %xmm11, 105(%r12)
	vpextrb	$14, %xmm11, 106(%r12)
	vpextrb	$15, %xmm11, 107(%r12)
	vpextrb	$12, %xmm8, 108(%r12)
	vmovaps	272(%rsp), %xmm0
	vmovlps	%xmm0, 109(%r12)
	vshufps	$254, %xmm9, %xmm12, %xmm0
	vmovd	%xmm2, %esi
	vmovdqa	352(%rsp), %xmm11
	vmovd	%xmm11, %edx
	vpinsrd	$2, %esi, %xmm1, %xmm1
	vpsrldq	$5, %xmm0, %xmm0
	vmovd	%xmm0, 117(%r12)
	vpinsrd	$3, %edx, %xmm1, %xmm0
	vpextrb	$13, %xmm9, 121(%r12)
	vmovd	%xmm10, %esi
	vpextrb	$14, %xmm9, 122(%r12)
	vmovd	%xmm6, %edi
	vpextrb	$15, %xmm9, 123(%r12)
	vmovd	%xmm4, %r9d
	vpextrb	$12, %xmm13, 124(%r12)
	vmovdqa	304(%rsp), %xmm12
	vpinsrd	$1, %esi, %xmm12, %xmm3
	vpinsrd	$2, %edi, %xmm3, %xmm5
	vmovaps	288(%rsp), %xmm7
	vmovlps	%xmm7, 125(%r12)
	vpinsrd	$3, %r9d, %xmm5, %xmm7
	vpextrd	$1, %xmm2, %r8d
	vpextrd	$1, %xmm6, %r10d
	vpsrldq	$5, %xmm1, %xmm1
	vmovd	%xmm1, 133(%r12)
	vmovdqa	320(%rsp), %xmm8
	vpshufd	$85, %xmm8, %xmm1
	vmovdqa	384(%rsp), %xmm9
	vpextrd	$2, %xmm9, %edi
	vpextrd	$3, %xmm9, %esi
	vpblendd	$2, %xmm9, %xmm1, %xmm1
	vpextrb	$1, %xmm2, 137(%r12)
	vpalignr	$13, %xmm0, %xmm3, %xmm0
	vpextrb	$2, %xmm2, 138(%r12)
	vpextrb	$3, %xmm2, 139(%r12)
	movb	%dl, 140(%r12)
	vmovq	%xmm0, 141(%r12)
	vpinsrd	$2, %r8d, %xmm1, %xmm0
	vpextrd	$2, %xmm10, %r8d
	vpextrd	$3, %xmm10, %edx
	vpsrldq	$5, %xmm5, %xmm3
	vmovd	%xmm3, 149(%r12)
	vpshufd	$85, %xmm12, %xmm3
	vpextrb	$1, %xmm6, 153(%r12)
	vpblendd	$2, %xmm10, %xmm3, %xmm3
	vpextrb	$2, %xmm6, 154(%r12)
	vpalignr	$13, %xmm7, %xmm1, %xmm1
	vpextrb	$3, %xmm6, 155(%r12)
	movb	%r9b, 156(%r12)
	vmovq	%xmm1, 157(%r12)
	vpsrldq	$5, %xmm0, %xmm1
	vmovd	%xmm1, 165(%r12)
	vpinsrd	$2, %r10d, %xmm3, %xmm1
	vpextrd	$1, %xmm11, %r9d
	vpinsrd	$3, %r9d, %xmm0, %xmm0
	vpextrb	$5, %xmm2, 169(%r12)
	vpextrb	$6, %xmm2, 170(%r12)
	vpextrb	$7, %xmm2, 171(%r12)
	vpalignr	$13, %xmm0, %xmm3, %xmm0
	movb	%r9b, 172(%r12)
	vmovq	%xmm0, 173(%r12)
	vpsrldq	$5, %xmm1, %xmm0
	vmovd	%xmm0, 181(%r12)
	vmovdqa	336(%rsp), %xmm0
	vpinsrd	$1, %edi, %xmm0, %xmm0
	vpextrd	$1, %xmm4, %edi
	vpextrb	$5, %xmm6, 185(%r12)
	vpextrb	$6, %xmm6, 186(%r12)
	vpextrb	$7, %xmm6, 187(%r12)
	vpinsrd	$3, %edi, %xmm1, %xmm1
	movb	%dil, 188(%r12)
	vpalignr	$13, %xmm1, %xmm0, %xmm1
	vpblendd	$12, %xmm2, %xmm0, %xmm0
	vmovq	%xmm1, 189(%r12)
	vpsrldq	$5, %xmm0, %xmm1
	vmovd	%xmm1, 197(%r12)
	vmovdqa	368(%rsp), %xmm1
	vpinsrd	$1, %r8d, %xmm1, %xmm1
	vpextrd	$2, %xmm11, %edi
	vpinsrd	$3, %edi, %xmm0, %xmm0
	vpextrb	$9, %xmm2, 201(%r12)
	vpextrb	$10, %xmm2, 202(%r12)
	vpextrb	$11, %xmm2, 203(%r12)
	movb	%dil, 204(%r12)
	vpalignr	$13, %xmm0, %xmm1, %xmm0
	vmovq	%xmm0, 205(%r12)
	vpblendd	$12, %xmm6, %xmm1, %xmm0
	vpsrldq	$5, %xmm0, %xmm1
	vmovd	%xmm1, 213(%r12)
	vpshufd	$255, %xmm8, %xmm1
	vpinsrd	$1, %esi, %xmm1, %xmm1
	vpextrd	$2, %xmm4, %esi
	vpinsrd	$3, %esi, %xmm0, %xmm0
	vpextrb	$9, %xmm6, 217(%r12)
	vpextrb	$10, %xmm6, 218(%r12)
	vpextrb	$11, %xmm6, 219(%r12)
	movb	%sil, 220(%r12)
	vpalignr	$13, %xmm0, %xmm1, %xmm0
	vmovq	%xmm0, 221(%r12)
	vpextrd	$3, %xmm2, %esi
	vpinsrd	$2, %esi, %xmm1, %xmm0
	vpsrldq	$5, %xmm0, %xmm0
	vmovd	%xmm0, 229(%r12)
	vpextrb	$13, %xmm2, 233(%r12)
	vpextrb	$14, %xmm2, 234(%r12)
	vpextrb	$15, %xmm2, 235(%r12)
	vpshufd	$255, %xmm12, %xmm0
	vpinsrd	$1, %edx, %xmm0, %xmm0
	movb	%al, 236(%r12)
	vpalignr	$13, %xmm11, %xmm0, %xmm1
	vmovq	%xmm1, 237(%r12)
	vpextrd	$3, %xmm6, %eax
	vpinsrd	$2, %eax, %xmm0, %xmm0
	vpsrldq	$5, %xmm0, %xmm0
	vmovd	%xmm0, 245(%r12)
	vpextrb	$13, %xmm6, 249(%r12)
	vpextrb	$14, %xmm6, 250(%r12)
	vpextrb	$15, %xmm6, 251(%r12)
	movb	%cl, 252(%r12)
	vpextrb	$13, %xmm4, 253(%r12)
	vpextrb	$14, %xmm4, 254(%r12)
	vpextrb	$15, %xmm4, 255(%r12)
	movl	$256, %r13d
	jmp	3b
	.p2align	4
13:
	movq	224(%r15), %rcx
	cmpq	$65535, %rcx
	movq	%rcx, %rsi
	movabsq	$137438953472, %rdx
	cmoveq	%rdx, %rsi
	andq	$-32, %r8
	xorl	%edx, %edx
	subq	%r8, %rsi
	cmovaeq	%rsi, %rdx
	movl	$32, %r13d
	cmpq	$32, %rdx
	jb	2b
	movl	$32, %edx
	jmp	2b
14:
	addq	$712, %rsp
	popq	%rbx
	popq	%r12
	popq	%r13
	popq	%r14
	popq	%r15
	popq	%rbp
	retq
	vj_end	blake2_xof..blake2xs..State..squeeze_1_v3

	vj_function	blake2_ffi..blake2xs..update_in_frame_1_v3
	cmpq	$1, %rdx
	jne	blake2_state..blake2s..State..absorb_blocks_1_v3
	movzwl	72(%rdi), %eax
	cmpq	$64, %rax
	jae	1f
	movzbl	(%rsi), %ecx
	movb	%cl, 80(%rdi,%rax)
	incl	%eax
	movw	%ax, 72(%rdi)
	retq
1:
	movl	$1, %edx
	jmp	blake2_state..blake2s..State..absorb_blocks_1_v3
	vj_end	blake2_ffi..blake2xs..update_in_frame_1_v3

	vj_constants	32
	.p2align	5, 0x0
.L1_v3_CPI88_0:
	.short	64
	.short	512
	.zero	2
	.zero	2
	.zero	2
	.zero	2
	.zero	2
	.zero	2
	.zero	2
	.short	0
	.short	0
	.short	0
	.short	0
	.short	0
	.short	0
	.short	0
.L1_v3_CPI88_1:
	.short	16384
	.short	16384
	.short	16384
	.short	16384
	.short	16384
	.short	16384
	.short	16384
	.short	16384
	.short	16384
	.short	16384
	.short	16384
	.short	16384
	.short	16384
	.short	16384
	.short	16384
	.short	16384
.L1_v3_CPI88_2:
	.quad	7640891576956012808
	.quad	-4942790177534073029
	.quad	4354685564936845355
	.quad	-6534734903238641935
.L1_v3_CPI88_3:
	.quad	5840696475078001361
	.quad	-7276294671716946913
	.quad	2270897969802886507
	.quad	6620516959819538809
.L1_v3_CPI88_4:
	.short	16384
	.short	512
	.zero	2
	.zero	2
	.zero	2
	.zero	2
	.zero	2
	.zero	2
	.short	16384
	.short	0
	.short	0
	.short	0
	.short	0
	.short	0
	.short	0
	.short	0
	vj_constants	16
	.p2align	2, 0x0
.L1_v3_CPI88_5:
	.short	64
	.short	512
	.short	0
	.short	0
	.short	0
	.short	0
	.short	0
	.short	0
	vj_function	blake2_tree..ranges..hash_leaves_1_v3
	pushq	%rbp
	movq	%rsp, %rbp
	pushq	%r15
	pushq	%r14
	pushq	%r13
	pushq	%r12
	pushq	%rbx
	andq	$-32, %rsp
	subq	$1920, %rsp
	movq	%r9, 16(%rsp)
	movl	%r8d, %r12d
	movq	%rcx, %r13
	movq	%rdx, 544(%rsp)
	movq	%rsi, %r14
	movq	%rdi, %rsi
	movq	40(%rbp), %r15
	movq	32(%rbp), %rbx
	vxorps	%xmm0, %xmm0, %xmm0
	vmovaps	%xmm0, 640(%rsp)
	leaq	640(%rsp), %rdi
	movq	%r14, %rdx
	vj_c_call	memcpy
	vxorps	%xmm0, %xmm0, %xmm0
	vmovaps	%xmm0, 656(%rsp)
	leaq	656(%rsp), %rdi
	movq	544(%rsp), %rsi
	movq	%r13, %rdx
	vj_c_call	memcpy
	movq	%rbx, %rdx
	vmovaps	640(%rsp), %xmm0
	vmovaps	%xmm0, 32(%rsp)
	movq	%r14, 48(%rsp)
	vmovaps	656(%rsp), %xmm0
	vmovups	%xmm0, 56(%rsp)
	movq	%r13, 72(%rsp)
	movl	%r12d, 80(%rsp)
	vxorps	%xmm0, %xmm0, %xmm0
	vmovaps	%ymm0, 1440(%rsp)
	vmovaps	%ymm0, 1408(%rsp)
	vmovaps	%ymm0, 1376(%rsp)
	vmovaps	%ymm0, 1344(%rsp)
	vmovaps	%ymm0, 1312(%rsp)
	vmovaps	%ymm0, 1280(%rsp)
	vmovaps	%ymm0, 1248(%rsp)
	vmovaps	%ymm0, 1216(%rsp)
	vmovaps	%ymm0, 1184(%rsp)
	vmovaps	%ymm0, 1152(%rsp)
	vmovaps	%ymm0, 1120(%rsp)
	vmovaps	%ymm0, 1088(%rsp)
	vmovaps	%ymm0, 1056(%rsp)
	vmovaps	%ymm0, 1024(%rsp)
	vmovaps	%ymm0, 992(%rsp)
	vmovaps	%ymm0, 960(%rsp)
	movl	$0, 84(%rsp)
	movl	%r12d, %esi
	leaq	(,%rsi,4), %rax
	cmpq	%rbx, %rax
	jae	2f
	leaq	128(%rsp), %r14
	xorl	%ebx, %ebx
	movq	%rsi, %r13
	movq	24(%rbp), %rdi
	movq	16(%rsp), %r8
	.p2align	4
1:
	movq	%rdx, 544(%rsp)
	movq	48(%rsp), %rcx
	movq	72(%rsp), %rax
	leaq	32(%rsp), %rdx
	movq	%rdx, 96(%rsp)
	movq	%rcx, 104(%rsp)
	leaq	56(%rsp), %r9
	movq	%r9, 112(%rsp)
	movq	%rax, 120(%rsp)
	vxorps	%xmm0, %xmm0, %xmm0
	vmovups	%xmm0, 9(%r14)
	leaq	(%r8,%rbx), %rsi
	vmovups	%xmm0, (%r14)
	movb	$2, 153(%rsp)
	movw	$0, 154(%rsp)
	movl	%r12d, 156(%rsp)
	movq	%rsi, 160(%rsp)
	movw	$16384, 168(%rsp)
	movq	$0, 48(%r14)
	movq	$0, 42(%r14)
	movq	%rdi, 184(%rsp)
	movq	%r13, 192(%rsp)
	movq	%rdx, 200(%rsp)
	movq	%rcx, 208(%rsp)
	movq	%r9, 216(%rsp)
	movq	%rax, 224(%rsp)
	vmovups	%xmm0, 113(%r14)
	vmovups	%xmm0, 104(%r14)
	leaq	1(%r8,%rbx), %rsi
	movb	$2, 257(%rsp)
	movw	$0, 258(%rsp)
	movl	%r12d, 260(%rsp)
	movq	%rsi, 264(%rsp)
	leaq	(%rdi,%r13), %rsi
	movw	$16384, 272(%rsp)
	movq	$0, 152(%r14)
	movq	$0, 146(%r14)
	movq	%rsi, 288(%rsp)
	leaq	2(%r8,%rbx), %rsi
	movq	%r13, 296(%rsp)
	movq	%rdx, 304(%rsp)
	movq	%rcx, 312(%rsp)
	movq	%r9, 320(%rsp)
	movq	%rax, 328(%rsp)
	vmovups	%xmm0, 217(%r14)
	vmovups	%xmm0, 208(%r14)
	movb	$2, 361(%rsp)
	movw	$0, 362(%rsp)
	movl	%r12d, 364(%rsp)
	movq	%rsi, 368(%rsp)
	leaq	(%rdi,%r13,2), %rsi
	movw	$16384, 376(%rsp)
	movq	$0, 256(%r14)
	movq	$0, 250(%r14)
	movq	%rsi, 392(%rsp)
	movq	%r13, 400(%rsp)
	movq	%rdx, 408(%rsp)
	movq	%rcx, 416(%rsp)
	movq	%r9, 424(%rsp)
	movq	%rax, 432(%rsp)
	vmovups	%xmm0, 321(%r14)
	vmovups	%xmm0, 312(%r14)
	movb	$2, 465(%rsp)
	movw	$0, 466(%rsp)
	movl	%r12d, 468(%rsp)
	leaq	3(%r8,%rbx), %rax
	movq	%rax, 472(%rsp)
	leaq	(,%r13,2), %rax
	addq	%r13, %rax
	movq	%rdi, %r12
	addq	%rdi, %rax
	movw	$16384, 480(%rsp)
	movq	$0, 360(%r14)
	movq	$0, 354(%r14)
	movq	%rax, 496(%rsp)
	movq	%r13, 504(%rsp)
	vxorps	%xmm0, %xmm0, %xmm0
	vmovaps	%ymm0, 672(%rsp)
	vmovaps	%ymm0, 704(%rsp)
	vmovaps	%ymm0, 736(%rsp)
	vmovaps	%ymm0, 768(%rsp)
	vmovaps	%ymm0, 800(%rsp)
	vmovaps	%ymm0, 832(%rsp)
	vmovaps	%ymm0, 864(%rsp)
	vmovaps	%ymm0, 896(%rsp)
	leaq	672(%rsp), %rdi
	leaq	96(%rsp), %rdx
	movl	$64, %esi
	vzeroupper
	callq	blake2_compress..many..blake2b..outputs..64_1_v3
	leaq	1216(%rsp), %rax
	vxorps	%xmm0, %xmm0, %xmm0
	vmovups	%ymm0, 224(%rax)
	vmovups	%ymm0, 192(%rax)
	vmovups	%ymm0, 160(%rax)
	vmovups	%ymm0, 128(%rax)
	vmovups	%ymm0, 96(%rax)
	vmovups	%ymm0, 64(%rax)
	vmovups	%ymm0, 32(%rax)
	vmovups	%ymm0, (%rax)
	vmovaps	896(%rsp), %ymm0
	vmovaps	%ymm0, 1184(%rsp)
	vmovaps	864(%rsp), %ymm0
	vmovaps	%ymm0, 1152(%rsp)
	vmovaps	832(%rsp), %ymm0
	vmovaps	%ymm0, 1120(%rsp)
	vmovaps	800(%rsp), %ymm0
	vmovaps	%ymm0, 1088(%rsp)
	vmovaps	672(%rsp), %ymm0
	vmovaps	704(%rsp), %ymm1
	vmovaps	736(%rsp), %ymm2
	vmovaps	768(%rsp), %ymm3
	vmovaps	%ymm3, 1056(%rsp)
	vmovaps	%ymm2, 1024(%rsp)
	vmovaps	%ymm1, 992(%rsp)
	vmovaps	%ymm0, 960(%rsp)
	leaq	960(%rsp), %rax
	movq	%r15, %rcx
	subq	%rax, %rcx
	cmpq	$255, %rcx
	vmovaps	1184(%rsp), %ymm0
	vmovups	%ymm0, 224(%r15)
	vmovaps	1152(%rsp), %ymm0
	vmovups	%ymm0, 192(%r15)
	vmovaps	1120(%rsp), %ymm0
	vmovups	%ymm0, 160(%r15)
	vmovaps	1088(%rsp), %ymm0
	vmovups	%ymm0, 128(%r15)
	vmovaps	960(%rsp), %ymm0
	vmovaps	992(%rsp), %ymm1
	vmovaps	1024(%rsp), %ymm2
	vmovaps	1056(%rsp), %ymm3
	vmovups	%ymm3, 96(%r15)
	vmovups	%ymm2, 64(%r15)
	vmovups	%ymm1, 32(%r15)
	vmovups	%ymm0, (%r15)
	movq	544(%rsp), %rdx
	addq	$4, %rbx
	movl	80(%rsp), %r13d
	leaq	(,%r13,4), %rax
	leaq	(%r12,%r13,4), %rdi
	subq	%rax, %rdx
	addq	$256, %r15
	movl	%r13d, %r12d
	movq	%r13, %rsi
	cmpq	%rdx, %rax
	movq	16(%rsp), %r8
	jb	1b
	jmp	3f
2:
	xorl	%ebx, %ebx
	movl	%r12d, %r13d
	movq	24(%rbp), %rdi
	movq	16(%rsp), %r8
3:
	movzbl	16(%rbp), %r15d
	addq	%rbx, %r8
	shlq	$6, %rbx
	vxorps	%xmm0, %xmm0, %xmm0
	vmovaps	%ymm0, 1728(%rsp)
	vmovaps	%ymm0, 1696(%rsp)
	vmovaps	%ymm0, 1664(%rsp)
	vmovaps	%ymm0, 1632(%rsp)
	vmovaps	%ymm0, 1600(%rsp)
	vmovaps	%ymm0, 1568(%rsp)
	vmovaps	%ymm0, 1536(%rsp)
	movq	40(%rbp), %rcx
	addq	%rbx, %rcx
	movq	%rcx, %rbx
	vmovaps	%ymm0, 1504(%rsp)
	cmpq	%rax, %rdx
	jne	4f
	movq	48(%rsp), %rcx
	movq	72(%rsp), %rax
	leaq	32(%rsp), %rdx
	movq	%rdx, 96(%rsp)
	movq	%rcx, 104(%rsp)
	leaq	56(%rsp), %r9
	movq	%r9, 112(%rsp)
	movq	%rax, 120(%rsp)
	vxorps	%xmm0, %xmm0, %xmm0
	vmovups	%xmm0, 128(%rsp)
	vmovups	%xmm0, 137(%rsp)
	movb	$2, 153(%rsp)
	movw	$0, 154(%rsp)
	movl	%r13d, 156(%rsp)
	movq	%r8, 160(%rsp)
	movw	$16384, 168(%rsp)
	movq	$0, 170(%rsp)
	movq	$0, 176(%rsp)
	movq	%rdi, 184(%rsp)
	movq	%rsi, 192(%rsp)
	movq	%rdx, 200(%rsp)
	movq	%rcx, 208(%rsp)
	movq	%r9, 216(%rsp)
	movq	%rax, 224(%rsp)
	vmovups	%xmm0, 241(%rsp)
	movq	%rsi, %r10
	leaq	1(%r8), %rsi
	vmovups	%xmm0, 232(%rsp)
	movb	$2, 257(%rsp)
	movw	$0, 258(%rsp)
	movl	%r13d, 260(%rsp)
	movq	%rsi, 264(%rsp)
	leaq	(%rdi,%r10), %rsi
	movw	$16384, 272(%rsp)
	movq	$0, 280(%rsp)
	movq	$0, 274(%rsp)
	movq	%rsi, 288(%rsp)
	leaq	2(%r8), %rsi
	movq	%r10, 296(%rsp)
	movq	%rdx, 304(%rsp)
	movq	%rcx, 312(%rsp)
	movq	%r9, 320(%rsp)
	movq	%rax, 328(%rsp)
	vmovups	%xmm0, 345(%rsp)
	vmovups	%xmm0, 336(%rsp)
	movb	$2, 361(%rsp)
	movw	$0, 362(%rsp)
	movl	%r13d, 364(%rsp)
	movq	%rsi, 368(%rsp)
	leaq	(%r10,%r10,2), %rsi
	addq	%rdi, %rsi
	leaq	(%rdi,%r10,2), %rdi
	movw	$16384, 376(%rsp)
	movq	$0, 384(%rsp)
	movq	$0, 378(%rsp)
	movq	%rdi, 392(%rsp)
	movq	%r10, 400(%rsp)
	movq	%rdx, 408(%rsp)
	movq	%rcx, 416(%rsp)
	movq	%r9, 424(%rsp)
	movq	%rax, 432(%rsp)
	vmovups	%xmm0, 449(%rsp)
	vmovups	%xmm0, 440(%rsp)
	movb	$2, 465(%rsp)
	movw	$0, 466(%rsp)
	movl	%r13d, 468(%rsp)
	leaq	3(%r8), %rax
	movq	%rax, 472(%rsp)
	movw	$16384, 480(%rsp)
	movl	$0, 482(%rsp)
	movw	$0, 486(%rsp)
	movb	%r15b, 488(%rsp)
	movl	$0, 492(%rsp)
	movl	$0, 489(%rsp)
	movq	%rsi, 496(%rsp)
	movq	%r10, 504(%rsp)
	vxorps	%xmm0, %xmm0, %xmm0
	vmovaps	%ymm0, 672(%rsp)
	vmovaps	%ymm0, 704(%rsp)
	vmovaps	%ymm0, 736(%rsp)
	vmovaps	%ymm0, 768(%rsp)
	vmovaps	%ymm0, 800(%rsp)
	vmovaps	%ymm0, 832(%rsp)
	vmovaps	%ymm0, 864(%rsp)
	vmovaps	%ymm0, 896(%rsp)
	leaq	672(%rsp), %rdi
	leaq	96(%rsp), %rdx
	movl	$64, %esi
	vzeroupper
	callq	blake2_compress..many..blake2b..outputs..64_1_v3
	vmovaps	896(%rsp), %ymm0
	vmovaps	%ymm0, 1728(%rsp)
	vmovaps	864(%rsp), %ymm1
	vmovaps	%ymm1, 1696(%rsp)
	vmovaps	832(%rsp), %ymm2
	vmovaps	%ymm2, 1664(%rsp)
	vmovaps	800(%rsp), %ymm3
	vmovaps	%ymm3, 1632(%rsp)
	vmovaps	672(%rsp), %ymm4
	vmovaps	704(%rsp), %ymm5
	vmovaps	736(%rsp), %ymm6
	vmovaps	768(%rsp), %ymm7
	vmovaps	%ymm7, 1600(%rsp)
	vmovaps	%ymm6, 1568(%rsp)
	vmovaps	%ymm5, 1536(%rsp)
	vmovaps	%ymm4, 1504(%rsp)
	vmovups	%ymm0, 224(%rbx)
	vmovups	%ymm1, 192(%rbx)
	vmovups	%ymm2, 160(%rbx)
	vmovups	%ymm3, 128(%rbx)
	vmovups	%ymm7, 96(%rbx)
	vmovups	%ymm6, 64(%rbx)
	vmovups	%ymm5, 32(%rbx)
	vmovups	%ymm4, (%rbx)
	jmp	32f
4:
	cmpq	%rsi, %rdx
	movq	%rbx, 536(%rsp)
	jbe	10f
	leaq	-1(%rsi), %rax
	movq	%rax, %rcx
	andq	$-128, %rcx
	shrq	$7, %rax
	movq	%rax, 616(%rsp)
	movq	%rsi, %rax
	subq	%rcx, %rax
	movq	%rax, 600(%rsp)
	movq	%rcx, 608(%rsp)
	leaq	(%rdi,%rcx), %rax
	movq	%rax, 592(%rsp)
	movq	48(%rsp), %rax
	movq	%rax, 632(%rsp)
	movq	72(%rsp), %rax
	movq	%rax, 624(%rsp)
	vpbroadcastd	80(%rsp), %xmm0
	vpblendd	$253, .L1_v3_CPI88_0(%rip), %ymm0, %ymm0
	vmovdqa	%ymm0, 1472(%rsp)
	xorl	%r12d, %r12d
	movq	%r8, 16(%rsp)
	movq	%rsi, 24(%rsp)
	jmp	7f
	.p2align	4
5:
	leaq	816(%rsp), %rdi
	movq	%r15, %rsi
	movq	24(%rsp), %rbx
	movq	%rbx, %rdx
	vzeroupper
	vj_c_call	memcpy
	movq	%rbx, %rax
6:
	movq	%r12, %r15
	shlq	$6, %r15
	movq	%rax, 944(%rsp)
	leaq	96(%rsp), %rdi
	leaq	672(%rsp), %rsi
	movl	$280, %edx
	vj_c_call	memcpy
	movq	368(%rsp), %rdx
	movq	224(%rsp), %r14
	addq	%rdx, %r14
	movq	%r14, 224(%rsp)
	vpxor	%xmm0, %xmm0, %xmm0
	vmovdqa	%ymm0, 1760(%rsp)
	vmovdqa	%ymm0, 1792(%rsp)
	vmovdqa	%ymm0, 1824(%rsp)
	vmovdqa	%ymm0, 1856(%rsp)
	leaq	1760(%rsp), %rdi
	leaq	240(%rsp), %r12
	movq	%r12, %rsi
	vzeroupper
	vj_c_call	memcpy
	vpxor	%xmm0, %xmm0, %xmm0
	vmovdqu	%ymm0, (%r12)
	vmovdqu	%ymm0, 32(%r12)
	vmovdqu	%ymm0, 64(%r12)
	vmovdqu	%ymm0, 96(%r12)
	movq	$0, 128(%r12)
	movl	232(%rsp), %r8d
	leaq	96(%rsp), %rdi
	leaq	1760(%rsp), %rsi
	movq	%r14, %rdx
	movq	(%rsp), %r12
	movl	$1, %ecx
	vzeroupper
	vj_call	blake2_compress..compress..blake2b..compress_1_v3
	vmovdqu	96(%rsp), %ymm0
	vmovups	128(%rsp), %ymm1
	movq	536(%rsp), %rax
	vmovdqu	%ymm0, (%rax,%r15)
	vmovups	%ymm1, 32(%rax,%r15)
	incq	%r12
	movq	8(%rsp), %rdi
	addq	%rbx, %rdi
	movq	544(%rsp), %rdx
	subq	%rbx, %rdx
	cmpq	%rbx, %rdx
	movq	16(%rsp), %r8
	jbe	11f
7:
	movq	%rdi, %r15
	movq	%rdx, 544(%rsp)
	leaq	(%r12,%r8), %rbx
	vpxor	%xmm0, %xmm0, %xmm0
	vmovdqa	%ymm0, 96(%rsp)
	leaq	96(%rsp), %rdi
	leaq	32(%rsp), %rsi
	movq	632(%rsp), %rdx
	vzeroupper
	vj_c_call	memcpy
	leaq	112(%rsp), %rdi
	leaq	56(%rsp), %rsi
	movq	624(%rsp), %rdx
	vj_c_call	memcpy
	vmovq	%rbx, %xmm0
	vmovdqa	1472(%rsp), %ymm1
	vpunpcklqdq	%xmm0, %xmm1, %xmm0
	vpblendw	$1, .L1_v3_CPI88_1(%rip), %ymm1, %ymm1
	vpblendd	$240, %ymm1, %ymm0, %ymm0
	vmovaps	96(%rsp), %ymm1
	vpxor	.L1_v3_CPI88_2(%rip), %ymm0, %ymm0
	vxorps	.L1_v3_CPI88_3(%rip), %ymm1, %ymm1
	vmovdqu	%ymm0, 672(%rsp)
	vmovups	%ymm1, 704(%rsp)
	vmovdqu	%ymm0, 736(%rsp)
	vmovups	%ymm1, 768(%rsp)
	leaq	800(%rsp), %rax
	vpxor	%xmm0, %xmm0, %xmm0
	vmovdqu	%ymm0, 120(%rax)
	vmovdqu	%ymm0, 96(%rax)
	vmovdqu	%ymm0, 64(%rax)
	vmovdqu	%ymm0, 32(%rax)
	vmovdqu	%ymm0, (%rax)
	cmpl	$129, %r13d
	movq	%r12, (%rsp)
	movq	%r15, 8(%rsp)
	jb	5b
	imulq	24(%rsp), %r12
	addq	592(%rsp), %r12
	movq	%r15, %r14
	movq	616(%rsp), %rbx
	.p2align	4
8:
	movq	800(%rsp), %rdx
	subq	$-128, %rdx
	movq	%rdx, 800(%rsp)
	leaq	672(%rsp), %rdi
	movq	%r14, %rsi
	xorl	%ecx, %ecx
	xorl	%r8d, %r8d
	vzeroupper
	vj_call	blake2_compress..compress..blake2b..compress_1_v3
	subq	$-128, %r14
	decq	%rbx
	jne	8b
	movq	608(%rsp), %rax
	leaq	(%r15,%rax), %rsi
	vpxor	%xmm0, %xmm0, %xmm0
	leaq	816(%rsp), %rcx
	vmovdqu	%ymm0, 96(%rcx)
	vmovdqu	%ymm0, 64(%rcx)
	vmovdqu	%ymm0, 32(%rcx)
	vmovdqu	%ymm0, (%rcx)
	movq	%rcx, %rax
	subq	%rsi, %rax
	movq	600(%rsp), %rbx
	movq	%rcx, %rdi
	cmpq	%rbx, %rax
	jae	9f
	movq	%r12, %rsi
9:
	movq	%rbx, %rdx
	vzeroupper
	vj_c_call	memcpy
	movq	%rbx, %rax
	movq	(%rsp), %r12
	movq	24(%rsp), %rbx
	jmp	6b
10:
	movq	%rdi, 8(%rsp)
	movq	%rdx, %r14
	xorl	%r12d, %r12d
	vmovd	%r13d, %xmm0
	jmp	12f
11:
	movq	%rdi, 8(%rsp)
	movq	%rdx, %r14
	vmovdqa	80(%rsp), %xmm0
	movzbl	16(%rbp), %r15d
12:
	movq	%r12, (%rsp)
	addq	%r12, %r8
	movq	48(%rsp), %rdx
	movq	72(%rsp), %rbx
	vxorps	%xmm1, %xmm1, %xmm1
	vmovaps	%ymm1, 96(%rsp)
	vmovd	.L1_v3_CPI88_5(%rip), %xmm1
	vpunpckldq	%xmm0, %xmm1, %xmm0
	vmovq	%r8, %xmm1
	vpunpcklqdq	%xmm1, %xmm0, %xmm0
	vpblendd	$240, .L1_v3_CPI88_4(%rip), %ymm0, %ymm0
	vmovdqa	%ymm0, 544(%rsp)
	leaq	96(%rsp), %r12
	leaq	32(%rsp), %rsi
	movq	%r12, %rdi
	vzeroupper
	vj_c_call	memcpy
	leaq	112(%rsp), %rdi
	leaq	56(%rsp), %rsi
	movq	%rbx, %rdx
	vj_c_call	memcpy
	vmovaps	96(%rsp), %ymm0
	vmovaps	544(%rsp), %ymm1
	vxorps	.L1_v3_CPI88_2(%rip), %ymm1, %ymm1
	vxorps	.L1_v3_CPI88_3(%rip), %ymm0, %ymm0
	vmovups	%ymm1, 96(%rsp)
	vmovups	%ymm0, 128(%rsp)
	vmovups	%ymm1, 160(%rsp)
	vmovups	%ymm0, 192(%rsp)
	vxorps	%xmm0, %xmm0, %xmm0
	vmovups	%ymm0, 224(%rsp)
	vmovups	%ymm0, 256(%rsp)
	vmovups	%ymm0, 288(%rsp)
	vmovups	%ymm0, 320(%rsp)
	vmovups	%ymm0, 344(%rsp)
	movb	%r15b, 232(%rsp)
	leaq	240(%rsp), %r13
	movq	%r14, %rdx
	cmpq	$128, %r14
	jbe	14f
	leaq	-1(%rdx), %rbx
	movq	%rbx, %r15
	shrq	$7, %r15
	movq	8(%rsp), %r12
	.p2align	4
13:
	movq	224(%rsp), %rdx
	subq	$-128, %rdx
	movq	%rdx, 224(%rsp)
	leaq	96(%rsp), %rdi
	movq	%r12, %rsi
	xorl	%ecx, %ecx
	xorl	%r8d, %r8d
	vzeroupper
	vj_call	blake2_compress..compress..blake2b..compress_1_v3
	subq	$-128, %r12
	decq	%r15
	jne	13b
	andq	$-128, %rbx
	movq	8(%rsp), %rdi
	leaq	(%rdi,%rbx), %rsi
	movq	%r14, %r12
	subq	%rbx, %r12
	vxorps	%xmm0, %xmm0, %xmm0
	vmovups	%ymm0, 96(%r13)
	vmovups	%ymm0, 64(%r13)
	vmovups	%ymm0, 32(%r13)
	vmovups	%ymm0, (%r13)
	movq	%r13, %rax
	subq	%rsi, %rax
	cmpq	%r12, %rax
	jae	15f
	cmpq	$8, %r12
	jae	17f
	xorl	%eax, %eax
	movq	(%rsp), %r14
	jmp	29f
14:
	movq	%r13, %rax
	movq	8(%rsp), %rsi
	subq	%rsi, %rax
	cmpq	%rdx, %rax
	jae	16f
	cmpq	$8, %rdx
	jae	18f
	xorl	%eax, %eax
	movq	(%rsp), %r14
	jmp	19f
15:
	movq	%r13, %rdi
	movq	%r12, %rdx
	vzeroupper
	vj_c_call	memmove
	movq	%r12, %rdx
	movq	(%rsp), %r14
	jmp	31f
16:
	movq	%r13, %rdi
	vzeroupper
	vj_c_call	memcpy
	movq	%r14, %rdx
	movq	(%rsp), %r14
	jmp	31f
17:
	movq	%r14, %r9
	movq	%rsi, %rax
	negq	%rax
	addq	%rsp, %rax
	addq	$240, %rax
	cmpq	$128, %rax
	movq	(%rsp), %r14
	jae	23f
	xorl	%eax, %eax
	jmp	29f
18:
	subq	%rsi, %r12
	addq	$144, %r12
	cmpq	$128, %r12
	movq	(%rsp), %r14
	jae	24f
	xorl	%eax, %eax
19:
	movq	%rdx, %rdi
	movq	%rax, %rcx
	andq	$7, %rdi
	je	21f
	movq	%rax, %rcx
	.p2align	4
20:
	movzbl	(%rsi,%rcx), %r8d
	movb	%r8b, 240(%rsp,%rcx)
	incq	%rcx
	decq	%rdi
	jne	20b
21:
	subq	%rdx, %rax
	cmpq	$-8, %rax
	ja	31f
	.p2align	4
22:
	movzbl	(%rsi,%rcx), %eax
	movb	%al, 240(%rsp,%rcx)
	movzbl	1(%rsi,%rcx), %eax
	movb	%al, 241(%rsp,%rcx)
	movzbl	2(%rsi,%rcx), %eax
	movb	%al, 242(%rsp,%rcx)
	movzbl	3(%rsi,%rcx), %eax
	movb	%al, 243(%rsp,%rcx)
	movzbl	4(%rsi,%rcx), %eax
	movb	%al, 244(%rsp,%rcx)
	movzbl	5(%rsi,%rcx), %eax
	movb	%al, 245(%rsp,%rcx)
	movzbl	6(%rsi,%rcx), %eax
	movb	%al, 246(%rsp,%rcx)
	movzbl	7(%rsi,%rcx), %eax
	movb	%al, 247(%rsp,%rcx)
	addq	$8, %rcx
	cmpq	%rcx, %rdx
	jne	22b
	jmp	31f
23:
	cmpq	$128, %r12
	jae	25f
	xorl	%eax, %eax
	jmp	27f
24:
	cmpq	$128, %rdx
	jne	33f
	vmovups	(%rsi), %ymm0
	vmovups	32(%rsi), %ymm1
	vmovups	64(%rsi), %ymm2
	vmovups	96(%rsi), %ymm3
	vmovups	%ymm0, 240(%rsp)
	vmovups	%ymm1, 272(%rsp)
	vmovups	%ymm2, 304(%rsp)
	vmovups	%ymm3, 336(%rsp)
	jmp	31f
25:
	movl	%r9d, %ecx
	andl	$127, %ecx
	movq	%r12, %rax
	subq	%rcx, %rax
	movq	%r9, %rdx
	andq	$-128, %rdx
	subq	%rbx, %rdx
	addq	%rbx, %rdi
	addq	$96, %rdi
	xorl	%r8d, %r8d
	.p2align	4
26:
	vmovups	-96(%rdi,%r8), %ymm0
	vmovups	-64(%rdi,%r8), %ymm1
	vmovups	-32(%rdi,%r8), %ymm2
	vmovups	(%rdi,%r8), %ymm3
	vmovups	%ymm0, 240(%rsp,%r8)
	vmovups	%ymm1, 272(%rsp,%r8)
	vmovups	%ymm2, 304(%rsp,%r8)
	vmovups	%ymm3, 336(%rsp,%r8)
	subq	$-128, %r8
	cmpq	%r8, %rdx
	jne	26b
	testq	%rcx, %rcx
	je	30f
	cmpl	$8, %ecx
	jb	29f
27:
	movq	%rax, %rcx
	andl	$7, %r9d
	movq	%r12, %rax
	subq	%r9, %rax
	.p2align	4
28:
	movq	(%rsi,%rcx), %rdx
	movq	%rdx, 240(%rsp,%rcx)
	addq	$8, %rcx
	cmpq	%rcx, %rax
	jne	28b
	testq	%r9, %r9
	je	30f
	.p2align	4
29:
	movzbl	(%rsi,%rax), %ecx
	movb	%cl, 240(%rsp,%rax)
	incq	%rax
	cmpq	%rax, %r12
	jne	29b
30:
	movq	%r12, %rdx
31:
	movq	%rdx, 368(%rsp)
	movq	224(%rsp), %rbx
	addq	%rdx, %rbx
	movq	%rbx, 224(%rsp)
	vxorps	%xmm0, %xmm0, %xmm0
	vmovaps	%ymm0, 672(%rsp)
	vmovaps	%ymm0, 704(%rsp)
	vmovaps	%ymm0, 736(%rsp)
	vmovaps	%ymm0, 768(%rsp)
	leaq	672(%rsp), %r15
	movq	%r15, %rdi
	movq	%r13, %rsi
	vzeroupper
	vj_c_call	memcpy
	vxorps	%xmm0, %xmm0, %xmm0
	vmovups	%ymm0, (%r13)
	vmovups	%ymm0, 32(%r13)
	vmovups	%ymm0, 64(%r13)
	vmovups	%ymm0, 96(%r13)
	movq	$0, 128(%r13)
	movl	232(%rsp), %r8d
	leaq	96(%rsp), %rdi
	movq	%r15, %rsi
	movq	%rbx, %rdx
	movl	$1, %ecx
	vzeroupper
	vj_call	blake2_compress..compress..blake2b..compress_1_v3
	vmovups	96(%rsp), %ymm0
	vmovups	128(%rsp), %ymm1
	shlq	$6, %r14
	movq	536(%rsp), %rax
	vmovups	%ymm0, (%rax,%r14)
	vmovups	%ymm1, 32(%rax,%r14)
32:
	leaq	-40(%rbp), %rsp
	popq	%rbx
	popq	%r12
	popq	%r13
	popq	%r14
	popq	%r15
	popq	%rbp
	vzeroupper
	retq
33:
	movl	%edx, %eax
	andl	$248, %eax
	xorl	%ecx, %ecx
	.p2align	4
34:
	movq	(%rsi,%rcx), %rdi
	movq	%rdi, 240(%rsp,%rcx)
	addq	$8, %rcx
	cmpq	%rcx, %rax
	jne	34b
	cmpq	%rax, %rdx
	jne	19b
	jmp	31b
	vj_end	blake2_tree..ranges..hash_leaves_1_v3

	vj_shared	blake2_tree..nodes..Nodes..hash_next_1_v3
	pushq	%r15
	pushq	%r14
	pushq	%r12
	pushq	%rbx
	subq	$680, %rsp
	movq	%r8, %rbx
	movl	48(%rdi), %eax
	leaq	24(%rdi), %r8
	movq	16(%rdi), %r10
	movq	40(%rdi), %r9
	leaq	1(%rsi), %r12
	leaq	(%rdx,%rax), %r15
	leaq	2(%rsi), %r11
	leaq	(%rax,%rax,2), %rcx
	movq	%rdi, (%rsp)
	movq	%r10, 8(%rsp)
	movq	%r8, 16(%rsp)
	movq	%r9, 24(%rsp)
	vxorps	%xmm0, %xmm0, %xmm0
	vmovups	%xmm0, 32(%rsp)
	vmovups	%xmm0, 41(%rsp)
	leaq	(%rdx,%rax,2), %r14
	movb	$2, 57(%rsp)
	movw	$0, 58(%rsp)
	movl	%eax, 60(%rsp)
	movq	%rsi, 64(%rsp)
	movw	$16384, 72(%rsp)
	movq	$0, 74(%rsp)
	movq	$0, 80(%rsp)
	movq	%rdx, 88(%rsp)
	movq	%rax, 96(%rsp)
	movq	%rdi, 104(%rsp)
	movq	%r10, 112(%rsp)
	movq	%r8, 120(%rsp)
	movq	%r9, 128(%rsp)
	vmovups	%xmm0, 145(%rsp)
	leaq	3(%rsi), %rsi
	vmovups	%xmm0, 136(%rsp)
	movb	$2, 161(%rsp)
	movw	$0, 162(%rsp)
	movl	%eax, 164(%rsp)
	movq	%r12, 168(%rsp)
	movw	$16384, 176(%rsp)
	movq	$0, 178(%rsp)
	movq	$0, 184(%rsp)
	movq	%r15, 192(%rsp)
	movq	%rax, 200(%rsp)
	movq	%rdi, 208(%rsp)
	movq	%r10, 216(%rsp)
	movq	%r8, 224(%rsp)
	movq	%r9, 232(%rsp)
	vmovups	%xmm0, 249(%rsp)
	vmovups	%xmm0, 240(%rsp)
	addq	%rdx, %rcx
	movb	$2, 265(%rsp)
	movw	$0, 266(%rsp)
	movl	%eax, 268(%rsp)
	movq	%r11, 272(%rsp)
	movw	$16384, 280(%rsp)
	movq	$0, 288(%rsp)
	movq	$0, 282(%rsp)
	movq	%r14, 296(%rsp)
	movq	%rax, 304(%rsp)
	movq	%rdi, 312(%rsp)
	movq	%r10, 320(%rsp)
	movq	%r8, 328(%rsp)
	movq	%r9, 336(%rsp)
	vmovups	%xmm0, 344(%rsp)
	vmovups	%xmm0, 353(%rsp)
	movb	$2, 369(%rsp)
	movw	$0, 370(%rsp)
	movl	%eax, 372(%rsp)
	movq	%rsi, 376(%rsp)
	movw	$16384, 384(%rsp)
	movq	$0, 392(%rsp)
	movq	$0, 386(%rsp)
	movq	%rcx, 400(%rsp)
	movq	%rax, 408(%rsp)
	vxorps	%xmm0, %xmm0, %xmm0
	vmovups	%ymm0, 640(%rsp)
	vmovups	%ymm0, 608(%rsp)
	vmovups	%ymm0, 576(%rsp)
	vmovups	%ymm0, 544(%rsp)
	vmovups	%ymm0, 512(%rsp)
	vmovups	%ymm0, 480(%rsp)
	vmovups	%ymm0, 448(%rsp)
	vmovups	%ymm0, 416(%rsp)
	leaq	416(%rsp), %rdi
	movq	%rsp, %rdx
	movl	$64, %esi
	vzeroupper
	callq	blake2_compress..many..blake2b..outputs..64_1_v3
	vmovups	640(%rsp), %ymm0
	vmovups	%ymm0, 224(%rbx)
	vmovups	608(%rsp), %ymm0
	vmovups	%ymm0, 192(%rbx)
	vmovups	576(%rsp), %ymm0
	vmovups	%ymm0, 160(%rbx)
	vmovups	544(%rsp), %ymm0
	vmovups	%ymm0, 128(%rbx)
	vmovups	416(%rsp), %ymm0
	vmovups	448(%rsp), %ymm1
	vmovups	480(%rsp), %ymm2
	vmovups	512(%rsp), %ymm3
	vmovups	%ymm3, 96(%rbx)
	vmovups	%ymm2, 64(%rbx)
	vmovups	%ymm1, 32(%rbx)
	vmovups	%ymm0, (%rbx)
	movl	$4, %eax
	addq	$680, %rsp
	popq	%rbx
	popq	%r12
	popq	%r14
	popq	%r15
	vzeroupper
	retq
	vj_end	blake2_tree..nodes..Nodes..hash_next_1_v3

	vj_constants	32
	.p2align	5, 0x0
.L1_v3_CPI90_0:
	.quad	5840696475078001361
	.quad	-7276294671716946913
	.quad	2270897969802886507
	.quad	6620516959819538809
.L1_v3_CPI90_1:
	.short	51464
	.short	62396
	.short	58983
	.short	27145
	.short	42811
	.short	33994
	.short	44677
	.short	47975
	.short	63531
	.short	65172
	.short	62322
	.short	15470
	.short	14065
	.short	24349
	.short	62778
	.short	42319
	vj_constants	8
	.p2align	3, 0x0
.L1_v3_CPI90_2:
	.quad	256
	vj_function	blake2_compress..many..blake2b..outputs..64_1_v3
	pushq	%rbp
	movq	%rsp, %rbp
	pushq	%r15
	pushq	%r14
	pushq	%r13
	pushq	%r12
	pushq	%rbx
	andq	$-32, %rsp
	subq	$832, %rsp
	movq	%rdx, %r14
	movq	%rsi, 192(%rsp)
	movq	%rdi, 120(%rsp)
	vxorps	%xmm0, %xmm0, %xmm0
	vmovaps	%ymm0, 640(%rsp)
	vmovaps	%ymm0, 608(%rsp)
	vmovaps	%ymm0, 576(%rsp)
	vmovaps	%ymm0, 544(%rsp)
	vmovaps	%ymm0, 512(%rsp)
	vmovaps	%ymm0, 480(%rsp)
	vmovaps	%ymm0, 448(%rsp)
	vmovaps	%ymm0, 416(%rsp)
	movzbl	32(%rdx), %eax
	xorl	%ebx, %ebx
	movl	$0, %ecx
	movb	%al, 23(%rsp)
	testb	%al, %al
	je	1f
	movl	48(%r14), %eax
	shll	$8, %eax
	movzwl	%ax, %ecx
1:
	movl	%ecx, 288(%rsp)
	movq	(%r14), %rsi
	movq	8(%r14), %rdx
	movq	16(%r14), %r12
	movq	24(%r14), %r13
	movzwl	56(%r14), %eax
	movl	%eax, 28(%rsp)
	vmovss	60(%r14), %xmm1
	vmovaps	%xmm1, 384(%rsp)
	vmovsd	64(%r14), %xmm1
	vmovaps	%xmm1, 400(%rsp)
	movzwl	72(%r14), %eax
	movl	%eax, 256(%rsp)
	vmovaps	%ymm0, 32(%rsp)
	leaq	32(%rsp), %rdi
	vzeroupper
	vj_c_call	memcpy
	leaq	48(%rsp), %rdi
	movq	%r12, %rsi
	movq	%r13, %rdx
	vj_c_call	memcpy
	cmpb	$0, 136(%r14)
	je	2f
	movl	152(%r14), %eax
	shll	$8, %eax
	movzwl	%ax, %ebx
2:
	movl	%ebx, 224(%rsp)
	vmovaps	32(%rsp), %ymm0
	vmovaps	%ymm0, 704(%rsp)
	movq	104(%r14), %rsi
	movq	112(%r14), %rdx
	movq	120(%r14), %r12
	movq	128(%r14), %r13
	movzwl	160(%r14), %ebx
	vmovss	164(%r14), %xmm0
	vmovaps	%xmm0, 352(%rsp)
	vmovsd	168(%r14), %xmm0
	vmovaps	%xmm0, 368(%rsp)
	movzwl	176(%r14), %eax
	movl	%eax, 160(%rsp)
	vxorps	%xmm0, %xmm0, %xmm0
	vmovaps	%ymm0, 32(%rsp)
	leaq	32(%rsp), %rdi
	vzeroupper
	vj_c_call	memcpy
	leaq	48(%rsp), %rdi
	movq	%r12, %rsi
	movq	%r13, %rdx
	vj_c_call	memcpy
	cmpb	$0, 240(%r14)
	movl	$0, %eax
	je	3f
	movl	256(%r14), %eax
	shll	$8, %eax
	movzwl	%ax, %eax
3:
	movl	%eax, 24(%rsp)
	vmovaps	32(%rsp), %ymm0
	vmovaps	%ymm0, 672(%rsp)
	movq	208(%r14), %rsi
	movq	216(%r14), %rdx
	movq	224(%r14), %r12
	movq	232(%r14), %r13
	movzwl	264(%r14), %r15d
	vmovss	268(%r14), %xmm0
	vmovaps	%xmm0, 320(%rsp)
	vmovsd	272(%r14), %xmm0
	vmovaps	%xmm0, 336(%rsp)
	movzwl	280(%r14), %eax
	movl	%eax, 128(%rsp)
	vxorps	%xmm0, %xmm0, %xmm0
	vmovaps	%ymm0, 32(%rsp)
	leaq	32(%rsp), %rdi
	vzeroupper
	vj_c_call	memcpy
	leaq	48(%rsp), %rdi
	movq	%r12, %rsi
	movq	%r13, %rdx
	vj_c_call	memcpy
	vmovaps	32(%rsp), %ymm0
	cmpb	$0, 344(%r14)
	movl	$0, %edi
	je	4f
	movl	360(%r14), %eax
	shll	$8, %eax
	movzwl	%ax, %edi
4:
	vmovaps	.L1_v3_CPI90_0(%rip), %ymm4
	vxorps	%ymm4, %ymm0, %ymm0
	vmovaps	%ymm0, 736(%rsp)
	shll	$16, %r15d
	addl	24(%rsp), %r15d
	movzbl	192(%rsp), %eax
	orl	%eax, %r15d
	vmovd	%r15d, %xmm0
	vmovq	%xmm0, %xmm1
	vpxor	%xmm0, %xmm0, %xmm0
	vpbroadcastd	320(%rsp), %xmm2
	vpblendd	$2, %ymm2, %ymm1, %ymm1
	vpunpcklqdq	336(%rsp), %xmm1, %xmm2
	vmovd	128(%rsp), %xmm3
	vpbroadcastw	%xmm3, %ymm3
	vpblendw	$1, %ymm3, %ymm1, %ymm1
	vpblendd	$240, %ymm1, %ymm2, %ymm2
	vmovdqa	.L1_v3_CPI90_1(%rip), %ymm1
	vpxor	%ymm1, %ymm2, %ymm2
	vmovdqa	%ymm2, 128(%rsp)
	vmovaps	%ymm4, %ymm5
	vxorps	672(%rsp), %ymm4, %ymm2
	vmovaps	%ymm2, 192(%rsp)
	shll	$16, %ebx
	addl	224(%rsp), %ebx
	orl	%eax, %ebx
	vmovd	%ebx, %xmm2
	vmovq	%xmm2, %xmm2
	vpbroadcastd	352(%rsp), %xmm3
	vpblendd	$2, %ymm3, %ymm2, %ymm2
	vpunpcklqdq	368(%rsp), %xmm2, %xmm3
	vmovd	160(%rsp), %xmm4
	vpbroadcastw	%xmm4, %ymm4
	vpblendw	$1, %ymm4, %ymm2, %ymm2
	vpblendd	$240, %ymm2, %ymm3, %ymm2
	vpxor	%ymm1, %ymm2, %ymm2
	vmovdqa	%ymm2, 160(%rsp)
	vxorps	704(%rsp), %ymm5, %ymm2
	vmovaps	%ymm2, 224(%rsp)
	movl	28(%rsp), %ecx
	shll	$16, %ecx
	addl	288(%rsp), %ecx
	orl	%eax, %ecx
	vmovd	%ecx, %xmm2
	vmovq	%xmm2, %xmm2
	vpbroadcastd	384(%rsp), %xmm3
	vpblendd	$2, %ymm3, %ymm2, %ymm2
	vpunpcklqdq	400(%rsp), %xmm2, %xmm3
	vmovd	256(%rsp), %xmm4
	vpbroadcastw	%xmm4, %ymm4
	vpblendw	$1, %ymm4, %ymm2, %ymm2
	vpblendd	$240, %ymm2, %ymm3, %ymm2
	vpxor	%ymm1, %ymm2, %ymm1
	vmovdqa	%ymm1, 288(%rsp)
	movq	312(%r14), %rsi
	movq	320(%r14), %rdx
	movq	328(%r14), %r15
	movq	336(%r14), %r12
	movzwl	368(%r14), %ecx
	vpbroadcastd	372(%r14), %xmm1
	vpbroadcastw	384(%r14), %ymm2
	vpbroadcastq	376(%r14), %xmm3
	shll	$16, %ecx
	vmovdqa	%ymm0, 32(%rsp)
	orl	%edi, %ecx
	orl	%eax, %ecx
	vmovd	%ecx, %xmm4
	vmovq	%xmm4, %xmm4
	vpblendd	$2, %ymm1, %ymm4, %ymm1
	vpunpcklqdq	%xmm3, %xmm1, %xmm1
	vpblendw	$1, %ymm2, %ymm0, %ymm0
	vpblendd	$240, %ymm0, %ymm1, %ymm0
	vmovdqa	%ymm0, 256(%rsp)
	leaq	32(%rsp), %rdi
	vzeroupper
	vj_c_call	memcpy
	leaq	48(%rsp), %rdi
	movq	%r15, %rsi
	movq	%r12, %rdx
	vj_c_call	memcpy
	vmovaps	.L1_v3_CPI90_0(%rip), %ymm0
	vxorps	32(%rsp), %ymm0, %ymm0
	vmovaps	256(%rsp), %ymm1
	vxorps	.L1_v3_CPI90_1(%rip), %ymm1, %ymm3
	vmovaps	160(%rsp), %ymm6
	vmovaps	288(%rsp), %ymm7
	vmovlhps	%xmm6, %xmm7, %xmm1
	vmovaps	128(%rsp), %ymm5
	vinsertf128	$1, %xmm5, %ymm1, %ymm1
	vbroadcastsd	%xmm3, %ymm2
	vblendps	$192, %ymm2, %ymm1, %ymm1
	vunpckhpd	%xmm6, %xmm7, %xmm2
	vpermpd	$85, %ymm5, %ymm4
	vblendps	$240, %ymm4, %ymm2, %ymm2
	vinsertf128	$1, %xmm3, %ymm0, %ymm4
	vblendps	$192, %ymm4, %ymm2, %ymm2
	vunpcklpd	%ymm6, %ymm7, %ymm4
	vmovaps	%ymm7, %ymm8
	vmovaps	%ymm6, %ymm7
	vperm2f128	$49, %ymm5, %ymm4, %ymm4
	vmovaps	%ymm5, %ymm6
	vshufps	$68, %ymm3, %ymm3, %ymm5
	vblendps	$192, %ymm5, %ymm4, %ymm4
	vunpckhpd	%ymm7, %ymm8, %ymm5
	vshufps	$238, %ymm6, %ymm6, %ymm6
	vperm2f128	$49, %ymm6, %ymm5, %ymm5
	vblendps	$192, %ymm3, %ymm5, %ymm3
	vmovaps	192(%rsp), %ymm9
	vmovaps	224(%rsp), %ymm10
	vmovlhps	%xmm9, %xmm10, %xmm5
	vmovaps	736(%rsp), %ymm8
	vinsertf128	$1, %xmm8, %ymm5, %ymm5
	vbroadcastsd	%xmm0, %ymm6
	vblendps	$192, %ymm6, %ymm5, %ymm5
	vunpckhpd	%xmm9, %xmm10, %xmm6
	vpermpd	$85, %ymm8, %ymm7
	vblendps	$240, %ymm7, %ymm6, %ymm6
	vinsertf128	$1, %xmm0, %ymm0, %ymm7
	vblendps	$192, %ymm7, %ymm6, %ymm6
	vunpcklpd	%ymm9, %ymm10, %ymm7
	vmovaps	%ymm10, %ymm11
	vmovaps	%ymm9, %ymm10
	vperm2f128	$49, %ymm8, %ymm7, %ymm7
	vmovaps	%ymm8, %ymm9
	vshufps	$68, %ymm0, %ymm0, %ymm8
	vblendps	$192, %ymm8, %ymm7, %ymm7
	vunpckhpd	%ymm10, %ymm11, %ymm8
	vshufps	$238, %ymm9, %ymm9, %ymm9
	vperm2f128	$49, %ymm9, %ymm8, %ymm8
	vmovaps	%ymm1, 416(%rsp)
	vmovaps	%ymm2, 448(%rsp)
	vmovaps	%ymm4, 480(%rsp)
	vmovaps	%ymm3, 512(%rsp)
	vmovaps	%ymm5, 544(%rsp)
	vmovaps	%ymm6, 576(%rsp)
	vmovaps	%ymm7, 608(%rsp)
	vblendps	$192, %ymm0, %ymm8, %ymm0
	vmovaps	%ymm0, 640(%rsp)
	movq	96(%r14), %rax
	leaq	128(%rax), %rcx
	cmpb	$0, 23(%rsp)
	cmoveq	%rax, %rcx
	cmpq	$1, %rcx
	movq	%rcx, %rbx
	adcq	$-1, %rbx
	shrq	$7, %rbx
	je	5f
	movq	$0, 112(%rsp)
	xorl	%r13d, %r13d
	leaq	416(%rsp), %rdi
	movl	$128, %r15d
	leaq	112(%rsp), %r8
	movl	$128, %ecx
	movq	%r14, %rsi
	xorl	%edx, %edx
	vzeroupper
	callq	blake2_compress..many..blake2b..compress_at_1_v3
	decq	%rbx
	movq	96(%r14), %rax
	cmpq	$128, %rax
	movl	$128, %ecx
	cmovbq	%rax, %rcx
	leaq	128(%rax), %r12
	cmpb	$0, 32(%r14)
	cmovneq	%r13, %rcx
	cmoveq	%rax, %r12
	addq	88(%r14), %rcx
	movq	%rcx, 32(%rsp)
	movq	%rbx, 40(%rsp)
	movq	200(%r14), %rax
	cmpq	$128, %rax
	cmovaeq	%r15, %rax
	cmpb	$0, 136(%r14)
	cmovneq	%r13, %rax
	addq	192(%r14), %rax
	movq	%rax, 48(%rsp)
	movq	%rbx, 56(%rsp)
	movq	304(%r14), %rax
	cmpq	$128, %rax
	cmovaeq	%r15, %rax
	cmpb	$0, 240(%r14)
	cmovneq	%r13, %rax
	addq	296(%r14), %rax
	movq	%rax, 64(%rsp)
	movq	%rbx, 72(%rsp)
	movq	408(%r14), %rax
	cmpq	$128, %rax
	cmovbq	%rax, %r15
	cmpb	$0, 344(%r14)
	cmovneq	%r13, %r15
	addq	400(%r14), %r15
	movq	%r15, 80(%rsp)
	movq	%rbx, 88(%rsp)
	vbroadcastsd	.L1_v3_CPI90_2(%rip), %ymm0
	vmovups	%ymm0, 776(%rsp)
	leaq	32(%rsp), %rsi
	leaq	776(%rsp), %rdx
	leaq	416(%rsp), %rdi
	leaq	112(%rsp), %rcx
	vzeroupper
	callq	blake2_compress..many..blake2b..compress_blocks_1_v3
	movq	%r12, %rcx
	cmpq	$1, %r12
	movq	%r12, %rdx
	adcq	$-1, %rdx
	shrq	$7, %rdx
	jmp	6f
5:
	xorl	%edx, %edx
6:
	movzbl	80(%r14), %eax
	movzbl	288(%r14), %esi
	movzbl	392(%r14), %edi
	shlq	$56, %rdi
	shlq	$40, %rsi
	movzbl	184(%r14), %r8d
	shll	$24, %r8d
	shll	$8, %eax
	orl	%r8d, %eax
	orq	%rsi, %rax
	orq	%rdi, %rax
	movabsq	$281479271743489, %rsi
	orq	%rax, %rsi
	movq	%rsi, 32(%rsp)
	leaq	416(%rsp), %rdi
	leaq	32(%rsp), %r8
	movq	%r14, %rsi
	vzeroupper
	callq	blake2_compress..many..blake2b..compress_at_1_v3
	vmovaps	544(%rsp), %ymm0
	vmovaps	576(%rsp), %ymm1
	vunpckhpd	%ymm1, %ymm0, %ymm2
	vmovaps	608(%rsp), %ymm3
	vmovaps	640(%rsp), %ymm4
	vunpckhpd	%ymm4, %ymm3, %ymm5
	vperm2f128	$49, %ymm5, %ymm2, %ymm6
	vunpcklpd	%ymm1, %ymm0, %ymm0
	vunpcklpd	%ymm4, %ymm3, %ymm1
	vperm2f128	$49, %ymm1, %ymm0, %ymm3
	vinsertf128	$1, %xmm5, %ymm2, %ymm2
	vinsertf128	$1, %xmm1, %ymm0, %ymm0
	vmovaps	416(%rsp), %ymm1
	vmovaps	448(%rsp), %ymm4
	vmovaps	480(%rsp), %ymm5
	vmovaps	512(%rsp), %ymm7
	vunpckhpd	%ymm4, %ymm1, %ymm8
	vunpckhpd	%ymm7, %ymm5, %ymm9
	vperm2f128	$49, %ymm9, %ymm8, %ymm10
	vunpcklpd	%ymm4, %ymm1, %ymm1
	vunpcklpd	%ymm7, %ymm5, %ymm4
	vperm2f128	$49, %ymm4, %ymm1, %ymm5
	vinsertf128	$1, %xmm9, %ymm8, %ymm7
	vinsertf128	$1, %xmm4, %ymm1, %ymm1
	movq	120(%rsp), %rax
	vmovups	%ymm1, (%rax)
	vmovups	%ymm0, 32(%rax)
	vmovups	%ymm7, 64(%rax)
	vmovups	%ymm2, 96(%rax)
	vmovups	%ymm5, 128(%rax)
	vmovups	%ymm3, 160(%rax)
	vmovups	%ymm10, 192(%rax)
	vmovups	%ymm6, 224(%rax)
	leaq	-40(%rbp), %rsp
	popq	%rbx
	popq	%r12
	popq	%r13
	popq	%r14
	popq	%r15
	popq	%rbp
	vzeroupper
	retq
	vj_end	blake2_compress..many..blake2b..outputs..64_1_v3

	vj_function	blake2_compress..many..blake2b..compress_at_1_v3
	pushq	%r15
	pushq	%r14
	pushq	%r13
	pushq	%r12
	pushq	%rbx
	subq	$1120, %rsp
	movq	%r8, %rbx
	movq	%rcx, %r15
	movq	%rdx, %r12
	movq	%rsi, %r13
	movq	%rdi, %r14
	vxorps	%xmm0, %xmm0, %xmm0
	vmovups	%ymm0, 576(%rsp)
	cmpb	$0, 32(%rsi)
	je	1f
	testq	%r12, %r12
	je	3f
	movq	96(%r13), %rax
	movq	%r12, %rsi
	shlq	$7, %rsi
	addq	$-128, %rsi
	jmp	2f
1:
	movq	96(%r13), %rax
	movq	%r12, %rsi
	shlq	$7, %rsi
2:
	subq	%rsi, %rax
	addq	88(%r13), %rsi
	cmpq	$128, %rax
	movl	$128, %edx
	cmovbq	%rax, %rdx
	jmp	4f
3:
	movq	40(%r13), %rsi
	movq	48(%r13), %rdx
4:
	vmovups	%ymm0, 96(%rsp)
	vmovups	%ymm0, 64(%rsp)
	vmovups	%ymm0, 32(%rsp)
	vmovups	%ymm0, (%rsp)
	movq	%rsp, %rdi
	vzeroupper
	vj_c_call	memcpy
	cmpb	$0, 136(%r13)
	je	5f
	testq	%r12, %r12
	je	7f
	movq	200(%r13), %rax
	movq	%r12, %rsi
	shlq	$7, %rsi
	addq	$-128, %rsi
	jmp	6f
5:
	movq	200(%r13), %rax
	movq	%r12, %rsi
	shlq	$7, %rsi
6:
	subq	%rsi, %rax
	addq	192(%r13), %rsi
	cmpq	$128, %rax
	movl	$128, %edx
	cmovbq	%rax, %rdx
	jmp	8f
7:
	movq	144(%r13), %rsi
	movq	152(%r13), %rdx
8:
	vxorps	%xmm0, %xmm0, %xmm0
	vmovups	%ymm0, 224(%rsp)
	vmovups	%ymm0, 192(%rsp)
	vmovups	%ymm0, 160(%rsp)
	vmovups	%ymm0, 128(%rsp)
	leaq	128(%rsp), %rdi
	vzeroupper
	vj_c_call	memcpy
	cmpb	$0, 240(%r13)
	je	9f
	testq	%r12, %r12
	je	11f
	movq	304(%r13), %rax
	movq	%r12, %rsi
	shlq	$7, %rsi
	addq	$-128, %rsi
	jmp	10f
9:
	movq	304(%r13), %rax
	movq	%r12, %rsi
	shlq	$7, %rsi
10:
	subq	%rsi, %rax
	addq	296(%r13), %rsi
	cmpq	$128, %rax
	movl	$128, %edx
	cmovbq	%rax, %rdx
	jmp	12f
11:
	movq	248(%r13), %rsi
	movq	256(%r13), %rdx
12:
	vxorps	%xmm0, %xmm0, %xmm0
	vmovups	%ymm0, 352(%rsp)
	vmovups	%ymm0, 320(%rsp)
	vmovups	%ymm0, 288(%rsp)
	vmovups	%ymm0, 256(%rsp)
	leaq	256(%rsp), %rdi
	vzeroupper
	vj_c_call	memcpy
	cmpb	$0, 344(%r13)
	je	13f
	testq	%r12, %r12
	je	15f
	movq	408(%r13), %rax
	shlq	$7, %r12
	addq	$-128, %r12
	jmp	14f
13:
	movq	408(%r13), %rax
	shlq	$7, %r12
14:
	subq	%r12, %rax
	addq	400(%r13), %r12
	cmpq	$128, %rax
	movl	$128, %edx
	cmovbq	%rax, %rdx
	vxorps	%xmm0, %xmm0, %xmm0
	vmovups	%ymm0, 480(%rsp)
	vmovups	%ymm0, 448(%rsp)
	vmovups	%ymm0, 416(%rsp)
	vmovups	%ymm0, 384(%rsp)
	leaq	384(%rsp), %rdi
	movq	%r12, %rsi
	jmp	16f
15:
	movq	352(%r13), %rsi
	movq	360(%r13), %rdx
	vxorps	%xmm0, %xmm0, %xmm0
	vmovups	%ymm0, 480(%rsp)
	vmovups	%ymm0, 448(%rsp)
	vmovups	%ymm0, 416(%rsp)
	vmovups	%ymm0, 384(%rsp)
	leaq	384(%rsp), %rdi
16:
	vzeroupper
	vj_c_call	memcpy
	vmovq	%r15, %xmm0
	vpbroadcastq	%xmm0, %ymm0
	vmovdqu	%ymm0, 576(%rsp)
	vmovups	(%rsp), %ymm0
	vmovups	32(%rsp), %ymm1
	vmovups	64(%rsp), %ymm2
	vmovups	96(%rsp), %ymm3
	vmovups	%ymm0, 992(%rsp)
	vmovups	%ymm1, 1024(%rsp)
	vmovups	%ymm2, 1056(%rsp)
	vmovups	%ymm3, 1088(%rsp)
	vmovups	128(%rsp), %ymm0
	vmovups	160(%rsp), %ymm1
	vmovups	192(%rsp), %ymm2
	vmovups	224(%rsp), %ymm3
	vmovups	%ymm0, 864(%rsp)
	vmovups	%ymm1, 896(%rsp)
	vmovups	%ymm2, 928(%rsp)
	vmovups	%ymm3, 960(%rsp)
	vmovups	256(%rsp), %ymm0
	vmovups	288(%rsp), %ymm1
	vmovups	320(%rsp), %ymm2
	vmovups	352(%rsp), %ymm3
	vmovups	%ymm3, 832(%rsp)
	vmovups	%ymm2, 800(%rsp)
	vmovups	%ymm1, 768(%rsp)
	vmovups	%ymm0, 736(%rsp)
	vmovups	384(%rsp), %ymm0
	vmovups	416(%rsp), %ymm1
	vmovups	448(%rsp), %ymm2
	vmovups	480(%rsp), %ymm3
	vmovups	%ymm3, 704(%rsp)
	vmovups	%ymm2, 672(%rsp)
	vmovups	%ymm1, 640(%rsp)
	vmovups	%ymm0, 608(%rsp)
	leaq	992(%rsp), %rax
	movq	%rax, 512(%rsp)
	movq	$1, 520(%rsp)
	leaq	864(%rsp), %rax
	movq	%rax, 528(%rsp)
	movq	$1, 536(%rsp)
	leaq	736(%rsp), %rax
	movq	%rax, 544(%rsp)
	movq	$1, 552(%rsp)
	leaq	608(%rsp), %rax
	movq	%rax, 560(%rsp)
	movq	$1, 568(%rsp)
	leaq	512(%rsp), %rsi
	leaq	576(%rsp), %rdx
	movq	%r14, %rdi
	movq	%rbx, %rcx
	vzeroupper
	callq	blake2_compress..many..blake2b..compress_blocks_1_v3
	addq	$1120, %rsp
	popq	%rbx
	popq	%r12
	popq	%r13
	popq	%r14
	popq	%r15
	retq
	vj_end	blake2_compress..many..blake2b..compress_at_1_v3

	vj_function	blake2_tree..thread_plan..Plan..of_1_v3
	pushq	%r15
	pushq	%r14
	pushq	%rbx
	testl	%ecx, %ecx
	je	15f
	movq	%rdx, %r14
	movl	%ecx, %ecx
	movq	16(%rsi), %rax
	movq	%rax, %rdx
	shrq	$32, %rdx
	je	1f
	xorl	%edx, %edx
	divq	%rcx
	movq	%rax, %r11
	jmp	2f
1:
	xorl	%edx, %edx
	divl	%ecx
	movl	%eax, %r11d
2:
	shrq	$2, %r11
	cmpq	$1, %r11
	adcq	$0, %r11
	movq	%r9, %rax
	shrq	$32, %rax
	je	3f
	movq	%r9, %rax
	xorl	%edx, %edx
	divq	%rcx
	movq	%rax, %r10
	jmp	4f
3:
	movl	%r9d, %eax
	xorl	%edx, %edx
	divl	%ecx
	movl	%eax, %r10d
4:
	xorl	%eax, %eax
	testq	%rdx, %rdx
	setne	%al
	leaq	(%r10,%rax), %rdx
	cmpq	$1, %rdx
	adcq	%rax, %r10
	testq	%r14, %r14
	je	15f
	movq	%r10, %rax
	orq	%r14, %rax
	shrq	$32, %rax
	je	5f
	movq	%r10, %rax
	xorl	%edx, %edx
	divq	%r14
	movq	%rax, %rbx
	cmpq	$1, %rdx
	sbbq	$-1, %rbx
	cmpq	$4, %rbx
	jae	6f
	jmp	9f
5:
	movl	%r10d, %eax
	xorl	%edx, %edx
	divl	%r14d
	movl	%eax, %ebx
	cmpq	$1, %rdx
	sbbq	$-1, %rbx
	cmpq	$4, %rbx
	jb	9f
6:
	xorl	%eax, %eax
	testb	$3, %bl
	setne	%al
	leaq	(%rbx,%rax,4), %r15
	andq	$-4, %r15
	je	15f
	movq	%r10, %rax
	orq	%r15, %rax
	shrq	$32, %rax
	je	7f
	movq	%r10, %rax
	xorl	%edx, %edx
	divq	%r15
	jmp	8f
7:
	movl	%r10d, %eax
	xorl	%edx, %edx
	divl	%r15d
8:
	cmpq	$1, %rdx
	sbbq	$-1, %rax
	andq	$-4, %rbx
	cmpq	%rax, %r14
	cmovbeq	%r15, %rbx
9:
	shlq	$2, %r11
	cmpq	%r11, %rbx
	cmovbq	%rbx, %r11
	movq	%r11, %rdx
	imulq	%rcx, %rdx
	movq	24(%rsi), %rax
	cmpq	%rax, %rdx
	jbe	12f
	movq	%rax, %rdx
	shrq	$32, %rdx
	je	10f
	xorl	%edx, %edx
	divq	%rcx
	movq	%rax, %r11
	jmp	11f
10:
	xorl	%edx, %edx
	divl	%ecx
	movl	%eax, %r11d
11:
	andq	$-4, %r11
	cmpq	$1, %r11
	adcq	$0, %r11
12:
	imulq	%rcx, %r11
	testq	%r11, %r11
	je	15f
	movq	32(%rsp), %rsi
	movq	%r9, %rax
	orq	%r11, %rax
	shrq	$32, %rax
	je	13f
	movq	%r9, %rax
	xorl	%edx, %edx
	divq	%r11
	jmp	14f
13:
	movl	%r9d, %eax
	xorl	%edx, %edx
	divl	%r11d
14:
	cmpq	$1, %rdx
	sbbq	$-1, %rax
	cmpq	%rax, %rsi
	cmovaq	%rsi, %rax
	addq	%r8, %r9
	cmpq	%r14, %rax
	cmovbq	%rax, %r14
	shlq	$6, %r10
	testq	%rax, %rax
	cmoveq	%rax, %r10
	movq	%r8, (%rdi)
	movq	%r9, 8(%rdi)
	movq	$0, 16(%rdi)
	movq	%rcx, 24(%rdi)
	movq	%r11, 32(%rdi)
	movq	%rax, 40(%rdi)
	movq	%r14, 48(%rdi)
	movq	%r10, 56(%rdi)
	movq	%rsi, 64(%rdi)
	popq	%rbx
	popq	%r14
	popq	%r15
	retq
15:
	ud2
	vj_end	blake2_tree..thread_plan..Plan..of_1_v3

	vj_constants	32
	.p2align	5, 0x0
.L1_v3_CPI93_0:
	.short	64
	.short	512
	.zero	2
	.zero	2
	.zero	2
	.zero	2
	.zero	2
	.zero	2
	.zero	2
	.short	0
	.short	0
	.short	0
	.short	0
	.short	0
	.short	0
	.short	0
.L1_v3_CPI93_1:
	.short	16384
	.short	512
	.zero	2
	.zero	2
	.zero	2
	.zero	2
	.zero	2
	.zero	2
	.short	16384
	.short	0
	.short	0
	.short	0
	.short	0
	.short	0
	.short	0
	.short	0
.L1_v3_CPI93_2:
	.quad	7640891576956012808
	.quad	-4942790177534073029
	.quad	4354685564936845355
	.quad	-6534734903238641935
.L1_v3_CPI93_3:
	.quad	5840696475078001361
	.quad	-7276294671716946913
	.quad	2270897969802886507
	.quad	6620516959819538809
	vj_constants	16
	.p2align	2, 0x0
.L1_v3_CPI93_4:
	.short	64
	.short	512
	.short	0
	.short	0
	.short	0
	.short	0
	.short	0
	.short	0
	vj_function	blake2_state..tree..TreeState..update_1_v3
	pushq	%rbp
	movq	%rsp, %rbp
	pushq	%r15
	pushq	%r14
	pushq	%r13
	pushq	%r12
	pushq	%rbx
	andq	$-32, %rsp
	subq	$1408, %rsp
	movq	%rdi, %rbx
	movq	696(%rdi), %rcx
	movl	136(%rdi), %eax
	movq	128(%rdi), %rdi
	addq	%rax, %rdi
	subq	%rdi, %rcx
	cmpq	%rcx, %rdx
	jbe	5f
	movq	%rbx, %rdi
	jmp	2f
	.p2align	4
1:
	movq	%rbx, %rdi
	movq	%r14, %rsi
2:
	vzeroupper
	callq	blake2_state..tree..TreeState..close_leaf_1_v3
	movq	%rax, %r14
	movq	696(%rbx), %r15
	cmpq	%rdx, %r15
	jae	4f
3:
	leaq	(,%r15,4), %rax
	cmpq	%rdx, %rax
	jae	1b
	movq	704(%rbx), %r12
	movq	712(%rbx), %r13
	vxorps	%xmm0, %xmm0, %xmm0
	vmovaps	%xmm0, 32(%rsp)
	leaq	32(%rsp), %rdi
	leaq	720(%rbx), %rsi
	movq	%rsi, 8(%rsp)
	movq	%rdx, 24(%rsp)
	movq	%r12, %rdx
	vzeroupper
	vj_c_call	memcpy
	vxorps	%xmm0, %xmm0, %xmm0
	vmovaps	%xmm0, 48(%rsp)
	leaq	48(%rsp), %rdi
	leaq	736(%rbx), %rsi
	movq	%rsi, 16(%rsp)
	movq	%r13, %rdx
	vj_c_call	memcpy
	vmovaps	32(%rsp), %xmm0
	vmovaps	%xmm0, 512(%rsp)
	movq	%r12, 528(%rsp)
	vmovaps	48(%rsp), %xmm0
	leaq	536(%rsp), %rdi
	vmovups	%xmm0, (%rdi)
	movq	%r13, 552(%rsp)
	movl	%r15d, 560(%rsp)
	movl	$0, 564(%rsp)
	movq	688(%rbx), %rax
	leaq	512(%rsp), %rdx
	movq	%rdx, 96(%rsp)
	movq	%r12, 104(%rsp)
	movq	%rdi, 112(%rsp)
	movq	%r13, 120(%rsp)
	leaq	128(%rsp), %r8
	vxorps	%xmm0, %xmm0, %xmm0
	vmovups	%xmm0, 9(%r8)
	movl	%r15d, %ecx
	vmovups	%xmm0, (%r8)
	movb	$2, 153(%rsp)
	movw	$0, 154(%rsp)
	movl	%r15d, 156(%rsp)
	movq	%rax, 160(%rsp)
	movw	$16384, 168(%rsp)
	movq	$0, 48(%r8)
	movq	$0, 42(%r8)
	movq	%r14, 184(%rsp)
	movq	%rcx, 192(%rsp)
	movq	%rdx, 200(%rsp)
	movq	%r12, 208(%rsp)
	movq	%rdi, 216(%rsp)
	movq	%r13, 224(%rsp)
	vmovups	%xmm0, 113(%r8)
	vmovups	%xmm0, 104(%r8)
	leaq	1(%rax), %rsi
	movb	$2, 257(%rsp)
	movw	$0, 258(%rsp)
	movl	%r15d, 260(%rsp)
	movq	%rsi, 264(%rsp)
	leaq	(%r14,%rcx), %rsi
	movw	$16384, 272(%rsp)
	movq	$0, 152(%r8)
	movq	$0, 146(%r8)
	movq	%rsi, 288(%rsp)
	leaq	2(%rax), %rsi
	movq	%rcx, 296(%rsp)
	movq	%rdx, 304(%rsp)
	movq	%r12, 312(%rsp)
	movq	%rdi, 320(%rsp)
	movq	%r13, 328(%rsp)
	vmovups	%xmm0, 217(%r8)
	vmovups	%xmm0, 208(%r8)
	movb	$2, 361(%rsp)
	movw	$0, 362(%rsp)
	movl	%r15d, 364(%rsp)
	movq	%rsi, 368(%rsp)
	leaq	(%r14,%rcx,2), %rsi
	movw	$16384, 376(%rsp)
	movq	$0, 256(%r8)
	movq	$0, 250(%r8)
	movq	%rsi, 392(%rsp)
	movq	%rcx, 400(%rsp)
	movq	%rdx, 408(%rsp)
	movq	%r12, 416(%rsp)
	movq	%rdi, 424(%rsp)
	movq	%r13, 432(%rsp)
	vmovups	%xmm0, 321(%r8)
	vmovups	%xmm0, 312(%r8)
	movb	$2, 465(%rsp)
	movw	$0, 466(%rsp)
	movl	%r15d, 468(%rsp)
	addq	$3, %rax
	movq	%rax, 472(%rsp)
	leaq	(%rcx,%rcx,2), %rax
	addq	%r14, %rax
	movw	$16384, 480(%rsp)
	movq	$0, 360(%r8)
	movq	$0, 354(%r8)
	movq	%rax, 496(%rsp)
	movq	%rcx, 504(%rsp)
	vxorps	%xmm0, %xmm0, %xmm0
	vmovaps	%ymm0, 576(%rsp)
	vmovaps	%ymm0, 608(%rsp)
	vmovaps	%ymm0, 640(%rsp)
	vmovaps	%ymm0, 672(%rsp)
	vmovaps	%ymm0, 704(%rsp)
	vmovaps	%ymm0, 736(%rsp)
	vmovaps	%ymm0, 768(%rsp)
	vmovaps	%ymm0, 800(%rsp)
	leaq	576(%rsp), %rdi
	leaq	96(%rsp), %rdx
	movl	$64, %esi
	vzeroupper
	callq	blake2_compress..many..blake2b..outputs..64_1_v3
	leaq	1120(%rsp), %rax
	vxorps	%xmm0, %xmm0, %xmm0
	vmovups	%ymm0, 224(%rax)
	vmovups	%ymm0, 192(%rax)
	vmovups	%ymm0, 160(%rax)
	vmovups	%ymm0, 128(%rax)
	vmovups	%ymm0, 96(%rax)
	vmovups	%ymm0, 64(%rax)
	vmovups	%ymm0, 32(%rax)
	vmovups	%ymm0, (%rax)
	vmovaps	800(%rsp), %ymm0
	vmovaps	%ymm0, 1088(%rsp)
	vmovaps	768(%rsp), %ymm0
	vmovaps	%ymm0, 1056(%rsp)
	vmovaps	736(%rsp), %ymm0
	vmovaps	%ymm0, 1024(%rsp)
	vmovaps	704(%rsp), %ymm0
	vmovaps	%ymm0, 992(%rsp)
	vmovaps	576(%rsp), %ymm0
	vmovaps	608(%rsp), %ymm1
	vmovaps	640(%rsp), %ymm2
	vmovaps	672(%rsp), %ymm3
	vmovaps	%ymm3, 960(%rsp)
	vmovaps	%ymm2, 928(%rsp)
	vmovaps	%ymm1, 896(%rsp)
	vmovaps	%ymm0, 864(%rsp)
	movq	696(%rbx), %r15
	leaq	(,%r15,4), %rax
	movq	%rax, (%rsp)
	movq	704(%rbx), %r13
	movq	712(%rbx), %r12
	vxorps	%xmm0, %xmm0, %xmm0
	vmovaps	%xmm0, 64(%rsp)
	leaq	64(%rsp), %rdi
	movq	8(%rsp), %rsi
	movq	%r13, %rdx
	vzeroupper
	vj_c_call	memcpy
	vxorps	%xmm0, %xmm0, %xmm0
	vmovaps	%xmm0, 80(%rsp)
	leaq	80(%rsp), %rdi
	movq	16(%rsp), %rsi
	movq	%r12, %rdx
	vj_c_call	memcpy
	vmovaps	64(%rsp), %xmm0
	vmovaps	%xmm0, 96(%rsp)
	movq	%r13, 112(%rsp)
	vmovaps	80(%rsp), %xmm0
	leaq	120(%rsp), %rax
	vmovups	%xmm0, (%rax)
	movq	%r12, 136(%rsp)
	movl	%r15d, 144(%rsp)
	movl	$0, 148(%rsp)
	leaq	864(%rsp), %rsi
	movl	$256, %edx
	leaq	344(%rbx), %rdi
	callq	blake2_state..blake2b..State..absorb_blocks_1_v3
	movq	688(%rbx), %rax
	addq	$4, %rax
	movq	%rax, 688(%rbx)
	vxorps	%xmm0, %xmm0, %xmm0
	vmovaps	%ymm0, 576(%rsp)
	vmovd	%r15d, %xmm0
	vpbroadcastd	%xmm0, %xmm0
	vmovd	.L1_v3_CPI93_4(%rip), %xmm1
	vpunpckldq	%xmm0, %xmm1, %xmm0
	vmovq	%rax, %xmm1
	vpunpcklqdq	%xmm1, %xmm0, %xmm0
	vpblendd	$240, .L1_v3_CPI93_1(%rip), %ymm0, %ymm0
	vmovdqa	%ymm0, 832(%rsp)
	leaq	576(%rsp), %rdi
	leaq	96(%rsp), %rsi
	movq	%r13, %rdx
	vzeroupper
	vj_c_call	memcpy
	leaq	592(%rsp), %rdi
	leaq	120(%rsp), %rsi
	movq	%r12, %rdx
	vj_c_call	memcpy
	movq	24(%rsp), %rdx
	vmovaps	576(%rsp), %ymm0
	vmovaps	832(%rsp), %ymm1
	vxorps	.L1_v3_CPI93_2(%rip), %ymm1, %ymm1
	vxorps	.L1_v3_CPI93_3(%rip), %ymm0, %ymm0
	vmovups	%ymm1, (%rbx)
	vmovups	%ymm0, 32(%rbx)
	vmovups	%ymm1, 64(%rbx)
	vmovups	%ymm0, 96(%rbx)
	leaq	128(%rbx), %rax
	vxorps	%xmm0, %xmm0, %xmm0
	vmovups	%xmm0, (%rax)
	movl	$64, 144(%rbx)
	leaq	148(%rbx), %rax
	vxorps	%xmm0, %xmm0, %xmm0
	vmovups	%ymm0, 160(%rax)
	vmovups	%ymm0, 128(%rax)
	vmovups	%ymm0, 96(%rax)
	vmovups	%ymm0, 64(%rax)
	vmovups	%ymm0, 32(%rax)
	vmovups	%ymm0, (%rax)
	movl	$0, 192(%rax)
	leaq	(%r14,%r15,4), %r14
	subq	(%rsp), %rdx
	movq	696(%rbx), %r15
	cmpq	%rdx, %r15
	jb	3b
4:
	cmpq	$1, %rdx
	jne	8f
	movl	136(%rbx), %eax
	cmpq	$128, %rax
	jae	7f
	movzbl	(%r14), %ecx
	jmp	6f
5:
	cmpq	$1, %rdx
	jne	10f
	cmpl	$128, %eax
	jae	9f
	movzbl	(%rsi), %ecx
6:
	movb	%cl, 152(%rbx,%rax)
	incl	%eax
	movl	%eax, 136(%rbx)
	jmp	12f
7:
	movl	$1, %edx
8:
	movq	%rbx, %rdi
	movq	%r14, %rsi
	jmp	11f
9:
	movl	$1, %edx
10:
	movq	%rbx, %rdi
11:
	vzeroupper
	callq	blake2_state..blake2b..State..absorb_blocks_1_v3
12:
	leaq	-40(%rbp), %rsp
	popq	%rbx
	popq	%r12
	popq	%r13
	popq	%r14
	popq	%r15
	popq	%rbp
	vzeroupper
	retq
	vj_end	blake2_state..tree..TreeState..update_1_v3

	vj_constants	32
	.p2align	5, 0x0
.L1_v3_CPI94_0:
	.short	64
	.short	512
	.zero	2
	.zero	2
	.zero	2
	.zero	2
	.zero	2
	.zero	2
	.zero	2
	.short	0
	.short	0
	.short	0
	.short	0
	.short	0
	.short	0
	.short	0
.L1_v3_CPI94_1:
	.short	16384
	.short	512
	.zero	2
	.zero	2
	.zero	2
	.zero	2
	.zero	2
	.zero	2
	.short	16384
	.short	0
	.short	0
	.short	0
	.short	0
	.short	0
	.short	0
	.short	0
.L1_v3_CPI94_2:
	.quad	7640891576956012808
	.quad	-4942790177534073029
	.quad	4354685564936845355
	.quad	-6534734903238641935
.L1_v3_CPI94_3:
	.quad	5840696475078001361
	.quad	-7276294671716946913
	.quad	2270897969802886507
	.quad	6620516959819538809
	vj_constants	16
	.p2align	2, 0x0
.L1_v3_CPI94_4:
	.short	64
	.short	512
	.short	0
	.short	0
	.short	0
	.short	0
	.short	0
	.short	0
	vj_function	blake2_state..tree..TreeState..close_leaf_1_v3
	pushq	%rbp
	movq	%rsp, %rbp
	pushq	%r15
	pushq	%r14
	pushq	%r13
	pushq	%r12
	pushq	%rbx
	andq	$-32, %rsp
	subq	$288, %rsp
	movq	%rdx, %rbx
	movq	%rsi, %r14
	movq	%rdi, %r15
	movq	696(%rdi), %r12
	movl	136(%rdi), %eax
	movq	128(%rdi), %rcx
	addq	%rax, %rcx
	subq	%rcx, %r12
	cmpq	$1, %r12
	jne	1f
	cmpl	$128, %eax
	jae	2f
	movzbl	(%r14), %ecx
	movb	%cl, 152(%r15,%rax)
	incl	%eax
	movl	%eax, 136(%r15)
	jmp	4f
1:
	movq	%r15, %rdi
	movq	%r14, %rsi
	movq	%r12, %rdx
	jmp	3f
2:
	movl	$1, %edx
	movq	%r15, %rdi
	movq	%r14, %rsi
3:
	callq	blake2_state..blake2b..State..absorb_blocks_1_v3
4:
	subq	%r12, %rbx
	movq	%rbx, 24(%rsp)
	addq	%r12, %r14
	movq	%r14, 16(%rsp)
	movq	704(%r15), %r13
	leaq	720(%r15), %rsi
	movq	712(%r15), %r12
	leaq	736(%r15), %rbx
	movl	696(%r15), %r14d
	vxorps	%xmm0, %xmm0, %xmm0
	vmovaps	%xmm0, 32(%rsp)
	leaq	32(%rsp), %rdi
	movq	%r13, %rdx
	vj_c_call	memcpy
	vxorps	%xmm0, %xmm0, %xmm0
	vmovaps	%xmm0, 48(%rsp)
	leaq	48(%rsp), %rdi
	movq	%rbx, %rsi
	movq	%r12, %rdx
	vj_c_call	memcpy
	vmovaps	32(%rsp), %xmm0
	vmovaps	%xmm0, 64(%rsp)
	movq	%r13, 80(%rsp)
	vmovaps	48(%rsp), %xmm0
	vmovups	%xmm0, 88(%rsp)
	movq	%r12, 104(%rsp)
	movl	%r14d, 112(%rsp)
	movl	$0, 116(%rsp)
	movl	$0, 148(%r15)
	vxorps	%xmm0, %xmm0, %xmm0
	vmovaps	%ymm0, 224(%rsp)
	vmovaps	%ymm0, 192(%rsp)
	leaq	192(%rsp), %rbx
	movq	%r15, %rdi
	movq	%rbx, %rsi
	vzeroupper
	callq	blake2_state..blake2b..State..write_digest_1_v3
	movl	$64, %edx
	leaq	344(%r15), %rdi
	movq	%rbx, %rsi
	callq	blake2_state..blake2b..State..absorb_blocks_1_v3
	movq	688(%r15), %rax
	incq	%rax
	movq	%rax, 688(%r15)
	vxorps	%xmm0, %xmm0, %xmm0
	vmovaps	%ymm0, 128(%rsp)
	vmovd	%r14d, %xmm0
	vpbroadcastd	%xmm0, %xmm0
	vmovd	.L1_v3_CPI94_4(%rip), %xmm1
	vpunpckldq	%xmm0, %xmm1, %xmm0
	vmovq	%rax, %xmm1
	vpunpcklqdq	%xmm1, %xmm0, %xmm0
	vpblendd	$240, .L1_v3_CPI94_1(%rip), %ymm0, %ymm0
	vmovdqa	%ymm0, 160(%rsp)
	leaq	128(%rsp), %rdi
	leaq	64(%rsp), %rsi
	movq	%r13, %rdx
	vzeroupper
	vj_c_call	memcpy
	leaq	144(%rsp), %rdi
	leaq	88(%rsp), %rsi
	movq	%r12, %rdx
	vj_c_call	memcpy
	vmovaps	128(%rsp), %ymm0
	vmovaps	160(%rsp), %ymm1
	vxorps	.L1_v3_CPI94_2(%rip), %ymm1, %ymm1
	vxorps	.L1_v3_CPI94_3(%rip), %ymm0, %ymm0
	vmovups	%ymm1, (%r15)
	vmovups	%ymm0, 32(%r15)
	vmovups	%ymm1, 64(%r15)
	vmovups	%ymm0, 96(%r15)
	leaq	128(%r15), %rax
	vxorps	%xmm0, %xmm0, %xmm0
	vmovups	%xmm0, (%rax)
	movl	$64, 144(%r15)
	vxorps	%xmm0, %xmm0, %xmm0
	vmovups	%ymm0, 148(%r15)
	vmovups	%ymm0, 180(%r15)
	vmovups	%ymm0, 212(%r15)
	vmovups	%ymm0, 244(%r15)
	vmovups	%ymm0, 276(%r15)
	vmovups	%ymm0, 308(%r15)
	movl	$0, 340(%r15)
	movq	16(%rsp), %rax
	movq	24(%rsp), %rdx
	leaq	-40(%rbp), %rsp
	popq	%rbx
	popq	%r12
	popq	%r13
	popq	%r14
	popq	%r15
	popq	%rbp
	vzeroupper
	retq
	vj_end	blake2_state..tree..TreeState..close_leaf_1_v3

	vj_constants	32
	.p2align	5, 0x0
.L1_v3_CPI95_0:
	.byte	255
	.byte	255
	.byte	255
	.byte	255
	.byte	255
	.byte	255
	.byte	255
	.byte	255
	.byte	0
	.byte	0
	.byte	0
	.byte	0
	.byte	0
	.byte	0
	.byte	0
	.byte	0
	.byte	0
	.byte	0
	.byte	255
	.byte	255
	.byte	255
	.byte	255
	.byte	255
	.byte	255
	.byte	255
	.byte	255
	.byte	255
	.byte	255
	.byte	255
	.byte	255
	.byte	255
	.byte	255
.L1_v3_CPI95_1:
	.zero	2
	.zero	2
	.zero	2
	.zero	2
	.short	0
	.short	0
	.short	0
	.short	0
	.short	16385
	.zero	2
	.zero	2
	.zero	2
	.zero	2
	.zero	2
	.zero	2
	.zero	2
.L1_v3_CPI95_2:
	.quad	7640891576956012808
	.quad	-4942790177534073029
	.quad	4354685564936845355
	.quad	-6534734903238641935
.L1_v3_CPI95_3:
	.zero	2
	.zero	2
	.zero	2
	.zero	2
	.short	0
	.short	0
	.short	0
	.short	0
	.short	16384
	.zero	2
	.zero	2
	.zero	2
	.zero	2
	.zero	2
	.zero	2
	.zero	2
.L1_v3_CPI95_8:
	.quad	5840696475078001361
	.quad	-7276294671716946913
	.quad	2270897969802886507
	.quad	6620516959819538809
	vj_constants	8
	.p2align	3, 0x0
.L1_v3_CPI95_4:
	.quad	5840696475078001361
.L1_v3_CPI95_5:
	.quad	-7276294671716946913
.L1_v3_CPI95_6:
	.quad	2270897969802886507
.L1_v3_CPI95_7:
	.quad	6620516959819538809
	vj_constants	16
	.p2align	4, 0x0
.L1_v3_CPI95_9:
	.short	16385
	.short	0
	.short	0
	.short	0
	.short	0
	.short	0
	.short	0
	.short	0
.L1_v3_CPI95_10:
	.short	16384
	.short	0
	.short	0
	.short	0
	.short	0
	.short	0
	.short	0
	.short	0
	vj_function	blake2_ffi..blake2bp..write_1_v3
	pushq	%rbp
	pushq	%r15
	pushq	%r14
	pushq	%r13
	pushq	%r12
	pushq	%rbx
	subq	$3072, %rsp
	movq	$0, (%rsp)
	subq	$1320, %rsp
	movq	%rsi, %r12
	vxorps	%xmm0, %xmm0, %xmm0
	vmovups	%ymm0, 2568(%rsp)
	vmovups	%ymm0, 2552(%rsp)
	vmovups	%ymm0, 2520(%rsp)
	vmovups	%ymm0, 2488(%rsp)
	vmovups	%ymm0, 2456(%rsp)
	vmovups	%ymm0, 2424(%rsp)
	vmovups	%ymm0, 2392(%rsp)
	vmovups	%ymm0, 2360(%rsp)
	vmovups	%ymm0, 2328(%rsp)
	vmovups	%ymm0, 2296(%rsp)
	leaq	-1(%rsi), %rax
	cmpq	$64, %rax
	setae	%al
	cmpq	$65, %r9
	setae	%sil
	orb	%al, %sil
	jne	1f
	movq	%r9, %r13
	movq	%rdx, 8(%rsp)
	movq	%rcx, 24(%rsp)
	movq	%rdi, 16(%rsp)
	vmovups	%ymm0, 128(%rsp)
	vmovups	%ymm0, 96(%rsp)
	vmovups	%ymm0, 64(%rsp)
	vmovups	%ymm0, 32(%rsp)
	leaq	32(%rsp), %rdi
	movq	%r8, %rsi
	movq	%r9, %rdx
	vzeroupper
	vj_c_call	memcpy
	testq	%r13, %r13
	je	2f
	vmovups	32(%rsp), %ymm0
	vmovups	64(%rsp), %ymm1
	vmovups	96(%rsp), %ymm2
	vmovups	128(%rsp), %ymm3
	vmovups	%ymm3, 544(%rsp)
	vmovups	%ymm2, 512(%rsp)
	vmovups	%ymm1, 480(%rsp)
	vmovups	%ymm0, 448(%rsp)
	vmovups	%ymm0, 576(%rsp)
	vmovups	%ymm1, 608(%rsp)
	vmovups	%ymm2, 640(%rsp)
	vmovups	%ymm3, 672(%rsp)
	vmovups	%ymm0, 704(%rsp)
	vmovups	%ymm1, 736(%rsp)
	vmovups	%ymm2, 768(%rsp)
	vmovups	%ymm3, 800(%rsp)
	vmovups	%ymm0, 832(%rsp)
	vmovups	%ymm1, 864(%rsp)
	vmovups	%ymm2, 896(%rsp)
	vmovups	%ymm3, 928(%rsp)
	vxorps	%xmm0, %xmm0, %xmm0
	vmovups	%ymm0, 3464(%rsp)
	vmovups	%ymm0, 3432(%rsp)
	vmovups	%ymm0, 3400(%rsp)
	vmovups	%ymm0, 3368(%rsp)
	vmovups	%ymm0, 3336(%rsp)
	vmovups	%ymm0, 3304(%rsp)
	vmovups	%ymm0, 3272(%rsp)
	vmovups	%ymm0, 3240(%rsp)
	vmovups	%ymm0, 3208(%rsp)
	vmovups	%ymm0, 3176(%rsp)
	vmovups	%ymm0, 3144(%rsp)
	vmovups	%ymm0, 3112(%rsp)
	leaq	2600(%rsp), %rdi
	leaq	448(%rsp), %rsi
	movl	$512, %ebp
	movl	$512, %edx
	vzeroupper
	vj_c_call	memcpy
	jmp	3f
1:
	movl	$-1, %eax
	jmp	4f
2:
	leaq	2600(%rsp), %rdi
	xorl	%ebp, %ebp
	movl	$896, %edx
	xorl	%esi, %esi
	vj_c_call	memset
3:
	shll	$8, %r13d
	leal	(%r12,%r13), %eax
	addl	$33816576, %eax
	vmovd	%eax, %xmm0
	vmovdqa	.L1_v3_CPI95_0(%rip), %ymm1
	vbroadcasti128	.L1_v3_CPI95_9(%rip), %ymm2
	vpblendvb	%ymm1, %ymm0, %ymm2, %ymm2
	vmovdqa	.L1_v3_CPI95_2(%rip), %ymm3
	vpxor	%ymm3, %ymm2, %ymm2
	vmovdqu	%ymm2, 416(%rsp)
	vbroadcasti128	.L1_v3_CPI95_10(%rip), %ymm2
	vpblendvb	%ymm1, %ymm0, %ymm2, %ymm0
	vpxor	%ymm3, %ymm0, %ymm0
	vmovdqu	%ymm0, 160(%rsp)
	leaq	3496(%rsp), %r13
	leaq	2600(%rsp), %rsi
	movl	$896, %edx
	movq	%r13, %rdi
	vzeroupper
	vj_c_call	memcpy
	vmovdqu	160(%rsp), %ymm0
	vpbroadcastq	%xmm0, %ymm1
	vmovdqu	%ymm1, 384(%rsp)
	vmovdqu	%ymm1, 968(%rsp)
	vpextrq	$1, %xmm0, 1000(%rsp)
	movabsq	$-4942790177534073032, %rbx
	leaq	2(%rbx), %r15
	movq	%r15, 1008(%rsp)
	leaq	1(%rbx), %r14
	movq	%r14, 1016(%rsp)
	movq	%rbx, 1024(%rsp)
	vpermq	$170, %ymm0, %ymm1
	vmovdqu	%ymm1, 352(%rsp)
	vmovdqu	%ymm1, 1032(%rsp)
	vpermq	$255, %ymm0, %ymm1
	vmovdqu	%ymm1, 320(%rsp)
	vmovdqu	%ymm1, 1064(%rsp)
	vbroadcastsd	.L1_v3_CPI95_4(%rip), %ymm0
	vmovups	%ymm0, 288(%rsp)
	vmovups	%ymm0, 1096(%rsp)
	vbroadcastsd	.L1_v3_CPI95_5(%rip), %ymm0
	vmovups	%ymm0, 256(%rsp)
	vmovups	%ymm0, 1128(%rsp)
	vbroadcastsd	.L1_v3_CPI95_6(%rip), %ymm0
	vmovups	%ymm0, 224(%rsp)
	vmovups	%ymm0, 1160(%rsp)
	vbroadcastsd	.L1_v3_CPI95_7(%rip), %ymm0
	vmovups	%ymm0, 192(%rsp)
	vmovups	%ymm0, 1192(%rsp)
	movq	$0, 1224(%rsp)
	movq	%rbp, 1232(%rsp)
	leaq	1240(%rsp), %rdi
	movl	$896, %edx
	movq	%r13, %rsi
	vzeroupper
	vj_c_call	memcpy
	vmovups	384(%rsp), %ymm0
	vmovups	%ymm0, 2136(%rsp)
	vmovdqu	160(%rsp), %ymm0
	vpextrq	$1, %xmm0, 2168(%rsp)
	movq	%r15, 2176(%rsp)
	movq	%r14, 2184(%rsp)
	movq	%rbx, 2192(%rsp)
	vmovups	352(%rsp), %ymm0
	vmovups	%ymm0, 2200(%rsp)
	vmovups	320(%rsp), %ymm0
	vmovups	%ymm0, 2232(%rsp)
	vmovups	288(%rsp), %ymm0
	vmovups	%ymm0, 2264(%rsp)
	vmovups	256(%rsp), %ymm0
	vmovups	%ymm0, 2296(%rsp)
	vmovups	224(%rsp), %ymm0
	vmovups	%ymm0, 2328(%rsp)
	vmovups	192(%rsp), %ymm0
	vmovups	%ymm0, 2360(%rsp)
	vmovups	416(%rsp), %ymm0
	vmovups	%ymm0, 2392(%rsp)
	vmovaps	.L1_v3_CPI95_8(%rip), %ymm0
	vmovups	%ymm0, 2424(%rsp)
	movq	%rbp, 2456(%rsp)
	movq	%r12, 2464(%rsp)
	vmovups	32(%rsp), %ymm0
	vmovups	64(%rsp), %ymm1
	vmovups	96(%rsp), %ymm2
	vmovups	128(%rsp), %ymm3
	vmovups	%ymm0, 2472(%rsp)
	vmovups	%ymm1, 2504(%rsp)
	vmovups	%ymm2, 2536(%rsp)
	vmovups	%ymm3, 2568(%rsp)
	movl	$-1, %eax
	movq	24(%rsp), %rdx
	addq	%rdx, %rbp
	jb	4f
	leaq	968(%rsp), %r12
	movq	%r12, %rdi
	movq	8(%rsp), %rsi
	vzeroupper
	vj_call	blake2_parallel..lanes..blake2bp..Lanes..update_1_v3
	movq	%r12, %rdi
	movq	16(%rsp), %rsi
	callq	blake2_parallel..blake2bp..State..write_digest_1_v3
	xorl	%eax, %eax
4:
	addq	$4392, %rsp
	popq	%rbx
	popq	%r12
	popq	%r13
	popq	%r14
	popq	%r15
	popq	%rbp
	vzeroupper
	retq
	vj_end	blake2_ffi..blake2bp..write_1_v3

	vj_function	blake2_digest..wiping..scrub_stack..8704_1_v3
	pushq	%rbx
	subq	$3072, %rsp
	movq	$0, (%rsp)
	subq	$3072, %rsp
	movq	$0, (%rsp)
	subq	$2560, %rsp
	movq	%rsp, %rbx
	movl	$8704, %edx
	movq	%rbx, %rdi
	xorl	%esi, %esi
	vj_c_call	memset
	movq	%rbx, %rdi
	callq	blake2_digest..wiping..settle..8704_1_v3
	addq	$8704, %rsp
	popq	%rbx
	retq
	vj_end	blake2_digest..wiping..scrub_stack..8704_1_v3

	vj_function	blake2_digest..wiping..settle..8704_1_v3
	vpxor	%xmm0, %xmm0, %xmm0
	movl	$480, %eax
	vpxor	%xmm1, %xmm1, %xmm1
	vpxor	%xmm2, %xmm2, %xmm2
	vpxor	%xmm3, %xmm3, %xmm3
	.p2align	4
1:
	vpor	-480(%rdi,%rax), %ymm0, %ymm0
	vpor	-448(%rdi,%rax), %ymm1, %ymm1
	vpor	-416(%rdi,%rax), %ymm2, %ymm2
	vpor	-384(%rdi,%rax), %ymm3, %ymm3
	vpor	-352(%rdi,%rax), %ymm0, %ymm0
	vpor	-320(%rdi,%rax), %ymm1, %ymm1
	vpor	-288(%rdi,%rax), %ymm2, %ymm2
	vpor	-256(%rdi,%rax), %ymm3, %ymm3
	vpor	-224(%rdi,%rax), %ymm0, %ymm0
	vpor	-192(%rdi,%rax), %ymm1, %ymm1
	vpor	-160(%rdi,%rax), %ymm2, %ymm2
	vpor	-128(%rdi,%rax), %ymm3, %ymm3
	vpor	-96(%rdi,%rax), %ymm0, %ymm0
	vpor	-64(%rdi,%rax), %ymm1, %ymm1
	vpor	-32(%rdi,%rax), %ymm2, %ymm2
	vpor	(%rdi,%rax), %ymm3, %ymm3
	addq	$512, %rax
	cmpq	$9184, %rax
	jne	1b
	vpor	%ymm0, %ymm1, %ymm0
	vpor	%ymm2, %ymm3, %ymm1
	vpor	%ymm0, %ymm1, %ymm0
	vptest	%ymm0, %ymm0
	je	2f
	pause
2:
	vzeroupper
	retq
	vj_end	blake2_digest..wiping..settle..8704_1_v3

	vj_function	blake2_ffi..blake2sp..write_1_v3
	pushq	%rbp
	pushq	%r15
	pushq	%r14
	pushq	%r13
	pushq	%r12
	pushq	%rbx
	subq	$3072, %rsp
	movq	$0, (%rsp)
	subq	$200, %rsp
	movq	%r9, %r12
	movq	%r8, %r13
	movq	%rcx, 24(%rsp)
	movq	%rdx, %r14
	movq	%rsi, %rbp
	movq	%rdi, %r15
	leaq	1664(%rsp), %rbx
	movl	$1608, %edx
	movq	%rbx, %rdi
	xorl	%esi, %esi
	vj_c_call	memset
	leaq	.L1_v3_static.2(%rip), %r8
	movq	%r8, (%rsp)
	movq	$0, 8(%rsp)
	movq	%rbx, %rdi
	movq	%rbp, %rsi
	movq	%r13, %rdx
	movq	%r12, %rcx
	xorl	%r9d, %r9d
	callq	blake2_parallel..blake2sp..State..init_salt_personal_1_v3
	movl	$-1, %ebp
	cmpb	$0, 1664(%rsp)
	jne	1f
	leaq	1672(%rsp), %rsi
	leaq	64(%rsp), %rdi
	movl	$1600, %edx
	vj_c_call	memcpy
	movq	320(%rsp), %rax
	shlq	$3, %rax
	addq	328(%rsp), %rax
	movq	24(%rsp), %rdx
	addq	%rdx, %rax
	jb	1f
	leaq	64(%rsp), %rbx
	movq	%rbx, %rdi
	movq	%r14, %rsi
	vj_call	blake2_parallel..lanes..blake2sp..Lanes..update_1_v3
	leaq	32(%rsp), %r14
	movq	%r14, %rdi
	movq	%rbx, %rsi
	callq	blake2_parallel..blake2sp..State..output_1_v3
	movq	1592(%rsp), %rdx
	movq	%r15, %rdi
	movq	%r14, %rsi
	vj_c_call	memcpy
	xorl	%ebp, %ebp
1:
	movl	%ebp, %eax
	addq	$3272, %rsp
	popq	%rbx
	popq	%r12
	popq	%r13
	popq	%r14
	popq	%r15
	popq	%rbp
	retq
	vj_end	blake2_ffi..blake2sp..write_1_v3

	vj_constants	32
	.p2align	5, 0x0
.L1_v3_CPI99_0:
	.short	65535
	.short	65535
	.short	65535
	.short	65535
	.short	65535
	.short	65535
	.short	65535
	.short	65535
	.short	0
	.short	65535
	.short	65535
	.short	65535
	.short	65535
	.short	65535
	.short	65535
	.short	65535
.L1_v3_CPI99_1:
	.short	64
	.short	257
	.short	0
	.short	0
	.zero	2
	.zero	2
	.zero	2
	.zero	2
	.zero	2
	.short	0
	.short	0
	.short	0
	.short	0
	.short	0
	.short	0
	.short	0
.L1_v3_CPI99_2:
	.quad	7640891576956012808
	.quad	-4942790177534073029
	.quad	4354685564936845355
	.quad	-6534734903238641935
.L1_v3_CPI99_3:
	.quad	5840696475078001361
	.quad	-7276294671716946913
	.quad	2270897969802886507
	.quad	6620516959819538809
	vj_function	blake2_ffi..blake2xb..write_1_v3
	movl	$-1, %eax
	movl	$4294967295, %r10d
	cmpq	%r10, %rsi
	jae	7f
	testq	%rsi, %rsi
	sete	%r10b
	cmpq	$65, %r9
	setae	%r11b
	orb	%r10b, %r11b
	jne	7f
	pushq	%rbp
	pushq	%r15
	pushq	%r14
	pushq	%r13
	pushq	%r12
	pushq	%rbx
	subq	$824, %rsp
	movq	%rdi, %rbx
	vmovq	%rsi, %xmm0
	vpsllq	$32, %xmm0, %xmm0
	testq	%r9, %r9
	je	1f
	movl	%r9d, %eax
	shll	$8, %eax
	orl	$16842816, %eax
	vmovd	%eax, %xmm1
	vpbroadcastq	%xmm0, %xmm0
	vpblendd	$12, %ymm0, %ymm1, %ymm0
	vpand	.L1_v3_CPI99_0(%rip), %ymm0, %ymm0
	vmovdqu	%ymm0, 192(%rsp)
	movl	$64, %edi
	subq	%r9, %rdi
	xorl	%eax, %eax
	cmpq	$64, %r9
	cmovbq	%rdi, %rax
	leaq	(%rsp,%r9), %rdi
	movq	%rsi, %r12
	xorl	%esi, %esi
	movq	%rdx, %r13
	movq	%rax, %rdx
	movq	%rcx, %rbp
	movq	%r9, %r14
	movq	%r8, %r15
	vzeroupper
	vj_c_call	memset
	movq	%rsp, %rdi
	movq	%r15, %rsi
	movq	%r14, %r15
	movq	%r14, %rdx
	vj_c_call	memcpy
	vmovdqu	192(%rsp), %ymm1
	movl	$-1, %eax
	movq	%rbp, %rcx
	movq	%r13, %rdx
	movq	%r12, %rsi
	vpxor	%xmm0, %xmm0, %xmm0
	vmovdqu	%ymm0, 128(%rsp)
	vmovdqu	%ymm0, 160(%rsp)
	vmovups	(%rsp), %ymm0
	vmovups	%ymm0, 64(%rsp)
	vmovdqu	32(%rsp), %ymm0
	vmovdqu	%ymm0, 96(%rsp)
	movl	$128, %edi
	jmp	2f
1:
	movq	%r9, %r15
	vpbroadcastq	%xmm0, %xmm0
	vpblendd	$243, .L1_v3_CPI99_1(%rip), %ymm0, %ymm0
	vpand	.L1_v3_CPI99_0(%rip), %ymm0, %ymm1
	vpxor	%xmm0, %xmm0, %xmm0
	vmovdqu	%ymm0, 160(%rsp)
	vmovdqu	%ymm0, 128(%rsp)
	vmovdqu	%ymm0, 96(%rsp)
	vmovdqu	%ymm0, 64(%rsp)
	vmovdqu	%ymm0, (%rsp)
	vmovdqu	%ymm0, 32(%rsp)
	xorl	%edi, %edi
2:
	vpxor	.L1_v3_CPI99_2(%rip), %ymm1, %ymm0
	vpxor	%xmm1, %xmm1, %xmm1
	vmovdqu	%ymm1, 224(%rsp)
	vmovdqu	%ymm1, 256(%rsp)
	vmovdqu	%ymm1, 288(%rsp)
	vmovdqu	%ymm0, 320(%rsp)
	vpxor	%xmm1, %xmm1, %xmm1
	vmovaps	.L1_v3_CPI99_3(%rip), %ymm2
	vmovups	%ymm2, 352(%rsp)
	vmovdqu	%ymm0, 384(%rsp)
	vmovups	%ymm2, 416(%rsp)
	movq	$0, 448(%rsp)
	movl	%edi, 456(%rsp)
	movl	%edi, 460(%rsp)
	movq	$64, 464(%rsp)
	vmovups	64(%rsp), %ymm0
	vmovups	96(%rsp), %ymm2
	vmovups	128(%rsp), %ymm3
	vmovups	160(%rsp), %ymm4
	vmovups	%ymm0, 472(%rsp)
	vmovups	%ymm2, 504(%rsp)
	vmovups	%ymm3, 536(%rsp)
	vmovups	%ymm4, 568(%rsp)
	vmovups	(%rsp), %ymm0
	vmovups	32(%rsp), %ymm2
	vmovups	%ymm2, 632(%rsp)
	vmovups	%ymm0, 600(%rsp)
	vmovups	256(%rsp), %ymm0
	vmovups	288(%rsp), %ymm2
	vmovups	%ymm2, 728(%rsp)
	vmovups	%ymm0, 696(%rsp)
	vmovups	224(%rsp), %ymm0
	vmovups	%ymm0, 664(%rsp)
	movq	%rsi, 760(%rsp)
	vmovdqu	%xmm1, 768(%rsp)
	movl	%edi, %edi
	movq	%rdi, %r8
	addq	%rcx, %r8
	jb	6f
	movq	%rsi, %r14
	cmpq	$1, %rcx
	jne	3f
	testq	%r15, %r15
	je	4f
	leaq	320(%rsp), %rdi
	movq	%rdx, %rsi
	movl	$1, %edx
	vzeroupper
	callq	blake2_state..blake2b..State..absorb_blocks_1_v3
	jmp	5f
3:
	leaq	320(%rsp), %rdi
	movq	%rdx, %rsi
	movq	%rcx, %rdx
	vzeroupper
	callq	blake2_state..blake2b..State..absorb_blocks_1_v3
	jmp	5f
4:
	movzbl	(%rdx), %eax
	movb	%al, 472(%rsp,%rdi)
	orl	$1, %edi
	movl	%edi, 456(%rsp)
5:
	leaq	320(%rsp), %rdi
	movq	%rbx, %rsi
	movq	%r14, %rdx
	vzeroupper
	vj_call	blake2_xof..blake2xb..State..squeeze_1_v3
	xorl	%eax, %eax
6:
	addq	$824, %rsp
	popq	%rbx
	popq	%r12
	popq	%r13
	popq	%r14
	popq	%r15
	popq	%rbp
7:
	vzeroupper
	retq
	vj_end	blake2_ffi..blake2xb..write_1_v3

	vj_function	blake2_digest..wiping..scrub_stack..7168_1_v3
	pushq	%rbx
	subq	$3072, %rsp
	movq	$0, (%rsp)
	subq	$3072, %rsp
	movq	$0, (%rsp)
	subq	$1024, %rsp
	movq	%rsp, %rbx
	movl	$7168, %edx
	movq	%rbx, %rdi
	xorl	%esi, %esi
	vj_c_call	memset
	movq	%rbx, %rdi
	callq	blake2_digest..wiping..settle..7168_1_v3
	addq	$7168, %rsp
	popq	%rbx
	retq
	vj_end	blake2_digest..wiping..scrub_stack..7168_1_v3

	vj_function	blake2_digest..wiping..settle..7168_1_v3
	vpxor	%xmm0, %xmm0, %xmm0
	movl	$480, %eax
	vpxor	%xmm1, %xmm1, %xmm1
	vpxor	%xmm2, %xmm2, %xmm2
	vpxor	%xmm3, %xmm3, %xmm3
	.p2align	4
1:
	vpor	-480(%rdi,%rax), %ymm0, %ymm0
	vpor	-448(%rdi,%rax), %ymm1, %ymm1
	vpor	-416(%rdi,%rax), %ymm2, %ymm2
	vpor	-384(%rdi,%rax), %ymm3, %ymm3
	vpor	-352(%rdi,%rax), %ymm0, %ymm0
	vpor	-320(%rdi,%rax), %ymm1, %ymm1
	vpor	-288(%rdi,%rax), %ymm2, %ymm2
	vpor	-256(%rdi,%rax), %ymm3, %ymm3
	vpor	-224(%rdi,%rax), %ymm0, %ymm0
	vpor	-192(%rdi,%rax), %ymm1, %ymm1
	vpor	-160(%rdi,%rax), %ymm2, %ymm2
	vpor	-128(%rdi,%rax), %ymm3, %ymm3
	vpor	-96(%rdi,%rax), %ymm0, %ymm0
	vpor	-64(%rdi,%rax), %ymm1, %ymm1
	vpor	-32(%rdi,%rax), %ymm2, %ymm2
	vpor	(%rdi,%rax), %ymm3, %ymm3
	addq	$512, %rax
	cmpq	$7648, %rax
	jne	1b
	vpor	%ymm0, %ymm1, %ymm0
	vpor	%ymm2, %ymm3, %ymm1
	vpor	%ymm0, %ymm1, %ymm0
	vptest	%ymm0, %ymm0
	je	2f
	pause
2:
	vzeroupper
	retq
	vj_end	blake2_digest..wiping..settle..7168_1_v3

	vj_constants	16
	.p2align	4, 0x0
.L1_v3_CPI102_0:
	.short	32
	.short	257
	.short	0
	.short	0
	.zero	2
	.zero	2
	.zero	2
	.zero	2
.L1_v3_CPI102_1:
	.long	1779033703
	.long	3144134277
	.long	1013904242
	.long	2773480762
.L1_v3_CPI102_2:
	.long	1359893119
	.long	2600822924
	.long	528734635
	.long	1541459225
.L1_v3_CPI102_3:
	.short	32
	.short	257
	.short	0
	.short	0
	.short	0
	.short	0
	.short	0
	.short	0
	vj_function	blake2_ffi..blake2xs..write_1_v3
	movl	$-1, %eax
	cmpq	$65535, %rsi
	jae	7f
	testq	%rsi, %rsi
	sete	%r10b
	cmpq	$33, %r9
	setae	%r11b
	orb	%r10b, %r11b
	jne	7f
	pushq	%rbp
	pushq	%r15
	pushq	%r14
	pushq	%r13
	pushq	%r12
	pushq	%rbx
	subq	$360, %rsp
	movq	%rdi, %rbx
	movq	%rsi, %rdi
	shlq	$32, %rdi
	testq	%r9, %r9
	je	1f
	movl	%r9d, %eax
	shll	$8, %eax
	orl	$16842784, %eax
	vmovd	%eax, %xmm0
	vpmovzxdq	%xmm0, %xmm0
	vmovq	%rdi, %xmm1
	vpunpcklqdq	%xmm1, %xmm0, %xmm0
	vpxor	%xmm1, %xmm1, %xmm1
	vpblendw	$128, %xmm1, %xmm0, %xmm0
	vmovdqa	%xmm0, 32(%rsp)
	movl	$32, %edi
	subq	%r9, %rdi
	xorl	%eax, %eax
	cmpq	$32, %r9
	cmovbq	%rdi, %rax
	leaq	(%rsp,%r9), %rdi
	movq	%rsi, %r12
	xorl	%esi, %esi
	movq	%rdx, %r13
	movq	%rax, %rdx
	movq	%rcx, %rbp
	movq	%r9, %r14
	movq	%r8, %r15
	vj_c_call	memset
	movq	%rsp, %rdi
	movq	%r15, %rsi
	movq	%r14, %r15
	movq	%r14, %rdx
	vj_c_call	memcpy
	movl	$-1, %eax
	movq	%rbp, %rcx
	movq	%r13, %rdx
	movq	%r12, %rsi
	vpxor	%xmm0, %xmm0, %xmm0
	vmovdqu	%ymm0, 80(%rsp)
	vmovups	(%rsp), %ymm0
	vmovups	%ymm0, 48(%rsp)
	vmovdqa	32(%rsp), %xmm0
	movw	$64, %di
	jmp	2f
1:
	movq	%r9, %r15
	vmovq	%rdi, %xmm0
	vmovd	.L1_v3_CPI102_3(%rip), %xmm1
	vpunpcklqdq	%xmm0, %xmm1, %xmm0
	vpxor	%xmm1, %xmm1, %xmm1
	vxorps	%xmm2, %xmm2, %xmm2
	vmovups	%ymm2, 80(%rsp)
	vmovups	%ymm2, 48(%rsp)
	vpblendw	$128, %xmm1, %xmm0, %xmm0
	vmovups	%ymm2, (%rsp)
	xorl	%edi, %edi
2:
	vpxor	.L1_v3_CPI102_1(%rip), %xmm0, %xmm0
	vmovdqa	%xmm0, 112(%rsp)
	vmovaps	.L1_v3_CPI102_2(%rip), %xmm1
	vmovaps	%xmm1, 128(%rsp)
	vmovdqa	%xmm0, 144(%rsp)
	vmovaps	%xmm1, 160(%rsp)
	movq	$0, 176(%rsp)
	movw	%di, 184(%rsp)
	movw	%di, 186(%rsp)
	movl	$32, 188(%rsp)
	vmovups	48(%rsp), %ymm0
	vmovups	80(%rsp), %ymm1
	vmovups	%ymm0, 192(%rsp)
	vmovups	%ymm1, 224(%rsp)
	vmovups	(%rsp), %ymm0
	vmovups	%ymm0, 256(%rsp)
	vxorps	%xmm0, %xmm0, %xmm0
	vmovups	%ymm0, 288(%rsp)
	vmovups	%ymm0, 304(%rsp)
	movq	%rsi, 336(%rsp)
	vxorps	%xmm0, %xmm0, %xmm0
	vmovups	%xmm0, 344(%rsp)
	movzwl	%di, %edi
	movq	%rdi, %r8
	addq	%rcx, %r8
	jb	6f
	movq	%rsi, %r14
	cmpq	$1, %rcx
	jne	3f
	testq	%r15, %r15
	je	4f
	leaq	112(%rsp), %rdi
	movq	%rdx, %rsi
	movl	$1, %edx
	vzeroupper
	callq	blake2_state..blake2s..State..absorb_blocks_1_v3
	jmp	5f
3:
	leaq	112(%rsp), %rdi
	movq	%rdx, %rsi
	movq	%rcx, %rdx
	vzeroupper
	callq	blake2_state..blake2s..State..absorb_blocks_1_v3
	jmp	5f
4:
	movzbl	(%rdx), %eax
	movb	%al, 192(%rsp,%rdi)
	orl	$1, %edi
	movw	%di, 184(%rsp)
5:
	leaq	112(%rsp), %rdi
	movq	%rbx, %rsi
	movq	%r14, %rdx
	vzeroupper
	vj_call	blake2_xof..blake2xs..State..squeeze_1_v3
	xorl	%eax, %eax
6:
	addq	$360, %rsp
	popq	%rbx
	popq	%r12
	popq	%r13
	popq	%r14
	popq	%r15
	popq	%rbp
7:
	vzeroupper
	retq
	vj_end	blake2_ffi..blake2xs..write_1_v3

	vj_function	blake2_ffi..blake2b..write_keyed_1_v3
	movl	$-1, %eax
	cmpq	$-129, %rcx
	ja	1f
	leaq	-65(%rsi), %r10
	cmpq	$-64, %r10
	jb	1f
	cmpq	$65, %r9
	jae	1f
	subq	$24, %rsp
	movq	$1, (%rsp)
	movq	%r8, 8(%rsp)
	movq	%r9, 16(%rsp)
	movq	%rsp, %r8
	callq	blake2_ffi..blake2b..write_digest_1_v3
	xorl	%eax, %eax
	addq	$24, %rsp
1:
	retq
	vj_end	blake2_ffi..blake2b..write_keyed_1_v3

	vj_function	blake2_digest..wiping..scrub_stack..1536_1_v3
	pushq	%rbx
	subq	$1536, %rsp
	movq	%rsp, %rbx
	movl	$1536, %edx
	movq	%rbx, %rdi
	xorl	%esi, %esi
	vj_c_call	memset
	movq	%rbx, %rdi
	callq	blake2_digest..wiping..settle..1536_1_v3
	addq	$1536, %rsp
	popq	%rbx
	retq
	vj_end	blake2_digest..wiping..scrub_stack..1536_1_v3

	vj_function	blake2_digest..wiping..settle..1536_1_v3
	vmovdqu	128(%rdi), %ymm0
	vmovdqu	160(%rdi), %ymm1
	vmovdqu	192(%rdi), %ymm2
	vmovdqu	224(%rdi), %ymm3
	vpor	(%rdi), %ymm0, %ymm0
	vpor	32(%rdi), %ymm1, %ymm1
	vpor	64(%rdi), %ymm2, %ymm2
	vpor	96(%rdi), %ymm3, %ymm3
	vpor	256(%rdi), %ymm0, %ymm0
	vpor	288(%rdi), %ymm1, %ymm1
	vpor	320(%rdi), %ymm2, %ymm2
	vpor	352(%rdi), %ymm3, %ymm3
	vpor	384(%rdi), %ymm0, %ymm0
	vpor	416(%rdi), %ymm1, %ymm1
	vpor	448(%rdi), %ymm2, %ymm2
	vpor	480(%rdi), %ymm3, %ymm3
	vpor	512(%rdi), %ymm0, %ymm0
	vpor	544(%rdi), %ymm1, %ymm1
	vpor	576(%rdi), %ymm2, %ymm2
	vpor	608(%rdi), %ymm3, %ymm3
	vpor	640(%rdi), %ymm0, %ymm0
	vpor	672(%rdi), %ymm1, %ymm1
	vpor	704(%rdi), %ymm2, %ymm2
	vpor	736(%rdi), %ymm3, %ymm3
	vpor	768(%rdi), %ymm0, %ymm0
	vpor	800(%rdi), %ymm1, %ymm1
	vpor	832(%rdi), %ymm2, %ymm2
	vpor	864(%rdi), %ymm3, %ymm3
	vpor	896(%rdi), %ymm0, %ymm0
	vpor	928(%rdi), %ymm1, %ymm1
	vpor	960(%rdi), %ymm2, %ymm2
	vpor	992(%rdi), %ymm3, %ymm3
	vpor	1024(%rdi), %ymm0, %ymm0
	vpor	1056(%rdi), %ymm1, %ymm1
	vpor	1088(%rdi), %ymm2, %ymm2
	vpor	1120(%rdi), %ymm3, %ymm3
	vpor	1152(%rdi), %ymm0, %ymm0
	vpor	1184(%rdi), %ymm1, %ymm1
	vpor	1216(%rdi), %ymm2, %ymm2
	vpor	1248(%rdi), %ymm3, %ymm3
	vpor	1280(%rdi), %ymm0, %ymm0
	vpor	1312(%rdi), %ymm1, %ymm1
	vpor	1344(%rdi), %ymm2, %ymm2
	vpor	1376(%rdi), %ymm3, %ymm3
	vpor	1408(%rdi), %ymm0, %ymm0
	vpor	1440(%rdi), %ymm1, %ymm1
	vpor	%ymm0, %ymm1, %ymm0
	vpor	1472(%rdi), %ymm2, %ymm1
	vpor	1504(%rdi), %ymm3, %ymm2
	vpor	%ymm1, %ymm2, %ymm1
	vpor	%ymm0, %ymm1, %ymm0
	vptest	%ymm0, %ymm0
	je	1f
	pause
1:
	vzeroupper
	retq
	vj_end	blake2_digest..wiping..settle..1536_1_v3

	vj_function	blake2_compress..whole..blake2b..absorb_keyed_1_v3
	pushq	%rbp
	pushq	%r15
	pushq	%r14
	pushq	%r13
	pushq	%r12
	pushq	%rbx
	subq	$264, %rsp
	movq	%r8, %r14
	movq	%rcx, %r15
	movq	%rdi, %rbx
	vxorps	%xmm0, %xmm0, %xmm0
	vmovups	%ymm0, 96(%rsp)
	vmovups	%ymm0, 64(%rsp)
	vmovups	%ymm0, 32(%rsp)
	vmovups	%ymm0, (%rsp)
	movq	%rsp, %rdi
	vzeroupper
	vj_c_call	memcpy
	movq	%rsp, %rsi
	movl	$128, %edx
	testq	%r14, %r14
	je	3f
	movq	%rbx, %rdi
	xorl	%ecx, %ecx
	xorl	%r8d, %r8d
	vj_call	blake2_compress..compress..blake2b..compress_1_v3
	leaq	-1(%r14), %r13
	movq	%r13, %rbp
	shrq	$7, %rbp
	je	2f
	movl	$256, %r12d
	.p2align	4
1:
	leaq	(%r15,%r12), %rsi
	addq	$-256, %rsi
	movq	%rbx, %rdi
	movq	%r12, %rdx
	xorl	%ecx, %ecx
	xorl	%r8d, %r8d
	vj_call	blake2_compress..compress..blake2b..compress_1_v3
	subq	$-128, %r12
	decq	%rbp
	jne	1b
2:
	andq	$-128, %r13
	addq	%r13, %r15
	movq	%r14, %rdx
	subq	%r13, %rdx
	vxorps	%xmm0, %xmm0, %xmm0
	vmovups	%ymm0, 224(%rsp)
	vmovups	%ymm0, 192(%rsp)
	vmovups	%ymm0, 160(%rsp)
	vmovups	%ymm0, 128(%rsp)
	leaq	128(%rsp), %r12
	movq	%r12, %rdi
	movq	%r15, %rsi
	vzeroupper
	vj_c_call	memcpy
	subq	$-128, %r14
	movq	%rbx, %rdi
	movq	%r12, %rsi
	movq	%r14, %rdx
	jmp	4f
3:
	movq	%rbx, %rdi
4:
	movl	$1, %ecx
	xorl	%r8d, %r8d
	vj_call	blake2_compress..compress..blake2b..compress_1_v3
	addq	$264, %rsp
	popq	%rbx
	popq	%r12
	popq	%r13
	popq	%r14
	popq	%r15
	popq	%rbp
	retq
	vj_end	blake2_compress..whole..blake2b..absorb_keyed_1_v3

	vj_constants	32
	.p2align	5, 0x0
.L1_v3_CPI107_0:
	.quad	7640891576956012808
	.quad	-4942790177534073029
	.quad	4354685564936845355
	.quad	-6534734903238641935
.L1_v3_CPI107_1:
	.quad	5840696475078001361
	.quad	-7276294671716946913
	.quad	2270897969802886507
	.quad	6620516959819538809
	vj_function	blake2_ffi..blake2b..write_digest_1_v3
	pushq	%rbp
	pushq	%r15
	pushq	%r14
	pushq	%r13
	pushq	%r12
	pushq	%rbx
	subq	$280, %rsp
	movq	%rcx, %r14
	movq	%rdx, %r12
	movq	%rsi, %rbx
	movq	%rdi, %r15
	movq	8(%r8), %rsi
	movq	16(%r8), %rdx
	movzbl	(%r8), %eax
	movl	%edx, %ecx
	shll	$8, %ecx
	movzwl	%cx, %ecx
	orl	$16842752, %ecx
	testb	%al, %al
	movl	$16842752, %edi
	cmovnel	%ecx, %edi
	movzbl	%bl, %ecx
	vxorps	%xmm0, %xmm0, %xmm0
	vmovups	%ymm0, 112(%rsp)
	orl	%edi, %ecx
	vmovups	%ymm0, 80(%rsp)
	vmovd	%ecx, %xmm0
	vpxor	.L1_v3_CPI107_0(%rip), %ymm0, %ymm0
	vmovdqu	%ymm0, 16(%rsp)
	vmovaps	.L1_v3_CPI107_1(%rip), %ymm0
	vmovups	%ymm0, 48(%rsp)
	testb	%al, %al
	je	1f
	leaq	16(%rsp), %rdi
	movq	%r12, %rcx
	movq	%r14, %r8
	vzeroupper
	callq	blake2_compress..whole..blake2b..absorb_keyed_1_v3
	jmp	4f
1:
	movq	%r15, 8(%rsp)
	cmpq	$1, %r14
	movq	%r14, %r15
	adcq	$-1, %r15
	movq	%r15, %rbp
	shrq	$7, %rbp
	je	3f
	movl	$128, %r13d
	.p2align	4
2:
	leaq	(%r12,%r13), %rsi
	addq	$-128, %rsi
	leaq	16(%rsp), %rdi
	movq	%r13, %rdx
	xorl	%ecx, %ecx
	xorl	%r8d, %r8d
	vzeroupper
	vj_call	blake2_compress..compress..blake2b..compress_1_v3
	subq	$-128, %r13
	decq	%rbp
	jne	2b
3:
	andq	$-128, %r15
	addq	%r15, %r12
	movq	%r14, %rdx
	subq	%r15, %rdx
	vxorps	%xmm0, %xmm0, %xmm0
	vmovups	%ymm0, 240(%rsp)
	vmovups	%ymm0, 208(%rsp)
	vmovups	%ymm0, 176(%rsp)
	vmovups	%ymm0, 144(%rsp)
	leaq	144(%rsp), %r13
	movq	%r13, %rdi
	movq	%r12, %rsi
	vzeroupper
	vj_c_call	memcpy
	leaq	16(%rsp), %rdi
	movq	%r13, %rsi
	movq	%r14, %rdx
	movl	$1, %ecx
	xorl	%r8d, %r8d
	vj_call	blake2_compress..compress..blake2b..compress_1_v3
	movq	8(%rsp), %r15
4:
	vmovups	16(%rsp), %ymm0
	vmovups	48(%rsp), %ymm1
	vmovups	%ymm0, 80(%rsp)
	vmovups	%ymm1, 112(%rsp)
	leaq	80(%rsp), %rsi
	movq	%r15, %rdi
	movq	%rbx, %rdx
	vzeroupper
	vj_c_call	memcpy
	addq	$280, %rsp
	popq	%rbx
	popq	%r12
	popq	%r13
	popq	%r14
	popq	%r15
	popq	%rbp
	retq
	vj_end	blake2_ffi..blake2b..write_digest_1_v3

	vj_function	blake2_ffi..blake2s..write_keyed_1_v3
	movl	$-1, %eax
	cmpq	$-65, %rcx
	ja	1f
	leaq	-33(%rsi), %r10
	cmpq	$-32, %r10
	jb	1f
	cmpq	$33, %r9
	jae	1f
	subq	$24, %rsp
	movq	$1, (%rsp)
	movq	%r8, 8(%rsp)
	movq	%r9, 16(%rsp)
	movq	%rsp, %r8
	callq	blake2_ffi..blake2s..write_digest_1_v3
	xorl	%eax, %eax
	addq	$24, %rsp
1:
	retq
	vj_end	blake2_ffi..blake2s..write_keyed_1_v3

	vj_function	blake2_compress..whole..blake2s..absorb_keyed_1_v3
	pushq	%rbp
	pushq	%r15
	pushq	%r14
	pushq	%r13
	pushq	%r12
	pushq	%rbx
	subq	$136, %rsp
	movq	%r8, %r14
	movq	%rcx, %r15
	movq	%rdi, %rbx
	vxorps	%xmm0, %xmm0, %xmm0
	vmovups	%ymm0, 32(%rsp)
	vmovups	%ymm0, (%rsp)
	movq	%rsp, %rdi
	vzeroupper
	vj_c_call	memcpy
	movq	%rsp, %rsi
	movl	$64, %edx
	testq	%r14, %r14
	je	3f
	movq	%rbx, %rdi
	xorl	%ecx, %ecx
	xorl	%r8d, %r8d
	vj_call	blake2_compress..compress..blake2s..compress_1_v3
	leaq	-1(%r14), %r13
	movq	%r13, %rbp
	shrq	$6, %rbp
	je	2f
	movl	$128, %r12d
	.p2align	4
1:
	leaq	(%r15,%r12), %rsi
	addq	$-128, %rsi
	movq	%rbx, %rdi
	movq	%r12, %rdx
	xorl	%ecx, %ecx
	xorl	%r8d, %r8d
	vj_call	blake2_compress..compress..blake2s..compress_1_v3
	addq	$64, %r12
	decq	%rbp
	jne	1b
2:
	andq	$-64, %r13
	addq	%r13, %r15
	movq	%r14, %rdx
	subq	%r13, %rdx
	vxorps	%xmm0, %xmm0, %xmm0
	vmovups	%ymm0, 96(%rsp)
	vmovups	%ymm0, 64(%rsp)
	leaq	64(%rsp), %r12
	movq	%r12, %rdi
	movq	%r15, %rsi
	vzeroupper
	vj_c_call	memcpy
	addq	$64, %r14
	movq	%rbx, %rdi
	movq	%r12, %rsi
	movq	%r14, %rdx
	jmp	4f
3:
	movq	%rbx, %rdi
4:
	movl	$1, %ecx
	xorl	%r8d, %r8d
	vj_call	blake2_compress..compress..blake2s..compress_1_v3
	addq	$136, %rsp
	popq	%rbx
	popq	%r12
	popq	%r13
	popq	%r14
	popq	%r15
	popq	%rbp
	retq
	vj_end	blake2_compress..whole..blake2s..absorb_keyed_1_v3

	vj_constants	16
	.p2align	4, 0x0
.L1_v3_CPI110_0:
	.long	1779033703
	.long	3144134277
	.long	1013904242
	.long	2773480762
.L1_v3_CPI110_1:
	.long	1359893119
	.long	2600822924
	.long	528734635
	.long	1541459225
	vj_function	blake2_ffi..blake2s..write_digest_1_v3
	pushq	%rbp
	pushq	%r15
	pushq	%r14
	pushq	%r13
	pushq	%r12
	pushq	%rbx
	subq	$152, %rsp
	movq	%rcx, %r14
	movq	%rdx, %r12
	movq	%rsi, %rbx
	movq	%rdi, %r15
	movq	8(%r8), %rsi
	movq	16(%r8), %rdx
	movzbl	(%r8), %eax
	movl	%edx, %ecx
	shll	$8, %ecx
	movzwl	%cx, %ecx
	orl	$16842752, %ecx
	testb	%al, %al
	movl	$16842752, %edi
	cmovnel	%ecx, %edi
	movzbl	%bl, %ecx
	orl	%edi, %ecx
	vxorps	%xmm0, %xmm0, %xmm0
	vmovups	%ymm0, 48(%rsp)
	vmovd	%ecx, %xmm0
	vpxor	.L1_v3_CPI110_0(%rip), %xmm0, %xmm0
	vmovdqa	%xmm0, 16(%rsp)
	vmovaps	.L1_v3_CPI110_1(%rip), %xmm0
	vmovaps	%xmm0, 32(%rsp)
	testb	%al, %al
	je	1f
	leaq	16(%rsp), %rdi
	movq	%r12, %rcx
	movq	%r14, %r8
	vzeroupper
	callq	blake2_compress..whole..blake2s..absorb_keyed_1_v3
	jmp	4f
1:
	movq	%r15, 8(%rsp)
	cmpq	$1, %r14
	movq	%r14, %r15
	adcq	$-1, %r15
	movq	%r15, %rbp
	shrq	$6, %rbp
	je	3f
	movl	$64, %r13d
	.p2align	4
2:
	leaq	(%r12,%r13), %rsi
	addq	$-64, %rsi
	leaq	16(%rsp), %rdi
	movq	%r13, %rdx
	xorl	%ecx, %ecx
	xorl	%r8d, %r8d
	vzeroupper
	vj_call	blake2_compress..compress..blake2s..compress_1_v3
	addq	$64, %r13
	decq	%rbp
	jne	2b
3:
	andq	$-64, %r15
	addq	%r15, %r12
	movq	%r14, %rdx
	subq	%r15, %rdx
	vxorps	%xmm0, %xmm0, %xmm0
	vmovups	%ymm0, 112(%rsp)
	vmovups	%ymm0, 80(%rsp)
	leaq	80(%rsp), %r13
	movq	%r13, %rdi
	movq	%r12, %rsi
	vzeroupper
	vj_c_call	memcpy
	leaq	16(%rsp), %rdi
	movq	%r13, %rsi
	movq	%r14, %rdx
	movl	$1, %ecx
	xorl	%r8d, %r8d
	vj_call	blake2_compress..compress..blake2s..compress_1_v3
	movq	8(%rsp), %r15
4:
	vmovups	16(%rsp), %ymm0
	vmovups	%ymm0, 48(%rsp)
	leaq	48(%rsp), %rsi
	movq	%r15, %rdi
	movq	%rbx, %rdx
	vzeroupper
	vj_c_call	memcpy
	addq	$152, %rsp
	popq	%rbx
	popq	%r12
	popq	%r13
	popq	%r14
	popq	%r15
	popq	%rbp
	retq
	vj_end	blake2_ffi..blake2s..write_digest_1_v3

	vj_constants	32
	.p2align	5, 0x0
.L1_v3_CPI111_0:
	.quad	5840696475078001361
	.quad	-7276294671716946913
	.quad	2270897969802886507
	.quad	6620516959819538809
.L1_v3_CPI111_1:
	.quad	7640891576956012808
	.quad	-4942790177534073029
	.quad	4354685564936845355
	.quad	-6534734903238641935
	vj_function	blake2_ffi..blake2b..many..write_all_1_v3
	pushq	%rbp
	movq	%rsp, %rbp
	pushq	%r15
	pushq	%r14
	pushq	%r13
	pushq	%r12
	pushq	%rbx
	andq	$-32, %rsp
	subq	$1664, %rsp
	movq	%rdi, 184(%rsp)
	testq	%r8, %r8
	je	28f
	movq	%r8, %r15
	movq	%rdx, %r12
	xorl	%r13d, %r13d
	movq	%rcx, 24(%rsp)
	movq	%r8, 40(%rsp)
	movq	%rdx, 16(%rsp)
	.p2align	4
1:
	movq	(%r12), %r11
	movq	%r11, %rax
	imulq	%r13, %rax
	addq	184(%rsp), %rax
	movq	%rax, 48(%rsp)
	movq	%r13, %rax
	shlq	$4, %rax
	movq	%r15, %rdx
	subq	%r13, %rdx
	vxorps	%xmm0, %xmm0, %xmm0
	vmovaps	%ymm0, 1376(%rsp)
	vmovaps	%ymm0, 1408(%rsp)
	vmovaps	%ymm0, 1440(%rsp)
	vmovaps	%ymm0, 1472(%rsp)
	vmovaps	%ymm0, 1504(%rsp)
	vmovaps	%ymm0, 1536(%rsp)
	vmovaps	%ymm0, 1568(%rsp)
	vmovaps	%ymm0, 1600(%rsp)
	vmovaps	%ymm0, 224(%rsp)
	vmovaps	%ymm0, 256(%rsp)
	vmovaps	%ymm0, 288(%rsp)
	vmovaps	%ymm0, 320(%rsp)
	vmovaps	%ymm0, 352(%rsp)
	vmovaps	%ymm0, 384(%rsp)
	vmovaps	%ymm0, 416(%rsp)
	vmovaps	%ymm0, 448(%rsp)
	movq	(%rcx,%rax), %rsi
	movq	%rsi, 56(%rsp)
	cmpq	$3, %rdx
	jbe	3f
	movq	%r11, 192(%rsp)
	movq	16(%r12), %rbx
	movq	8(%rcx,%rax), %rdx
	movq	%rdx, 32(%rsp)
	movq	16(%rcx,%rax), %rdx
	movq	%rdx, 64(%rsp)
	xorl	%r8d, %r8d
	movq	%rbx, %r9
	testq	%rbx, %rbx
	setne	%dil
	je	2f
	movq	8(%r12), %r9
2:
	movq	24(%r12), %rsi
	movq	32(%r12), %rdx
	movq	40(%r12), %r11
	movq	48(%r12), %r14
	movb	%dil, %r8b
	movq	24(%rcx,%rax), %r12
	movq	32(%rcx,%rax), %r15
	movq	40(%rcx,%rax), %rdi
	movq	48(%rcx,%rax), %r10
	movq	%r10, 176(%rsp)
	movq	56(%rcx,%rax), %r10
	movq	%rsi, 480(%rsp)
	movq	%rdx, 488(%rsp)
	movq	%r11, 496(%rsp)
	movq	%r14, 504(%rsp)
	movq	%r8, 512(%rsp)
	movq	%r9, 520(%rsp)
	movq	%rbx, 528(%rsp)
	movw	$257, 536(%rsp)
	vxorps	%xmm0, %xmm0, %xmm0
	leaq	538(%rsp), %rcx
	vmovups	%xmm0, 14(%rcx)
	vmovups	%xmm0, (%rcx)
	movq	56(%rsp), %rax
	movq	%rax, 568(%rsp)
	movq	32(%rsp), %rax
	movq	%rax, 576(%rsp)
	movq	%rsi, 584(%rsp)
	movq	%rdx, 592(%rsp)
	movq	%r11, 600(%rsp)
	movq	%r14, 608(%rsp)
	movq	%r8, 616(%rsp)
	movq	%r9, 624(%rsp)
	movq	%rbx, 632(%rsp)
	movw	$257, 640(%rsp)
	vmovups	%xmm0, 118(%rcx)
	vmovups	%xmm0, 104(%rcx)
	movq	64(%rsp), %rax
	movq	%rax, 672(%rsp)
	movq	%r12, 680(%rsp)
	movq	%rsi, 688(%rsp)
	movq	%rdx, 696(%rsp)
	movq	%r11, 704(%rsp)
	movq	%r14, 712(%rsp)
	movq	%r8, 720(%rsp)
	movq	%r9, 728(%rsp)
	movq	%rbx, 736(%rsp)
	movw	$257, 744(%rsp)
	vmovups	%xmm0, 222(%rcx)
	vmovups	%xmm0, 208(%rcx)
	movq	%r15, 776(%rsp)
	movq	%rdi, %rax
	movq	%rdi, 784(%rsp)
	movq	%rsi, 8(%rsp)
	movq	%rsi, 792(%rsp)
	movq	%r10, %rsi
	movq	%rdx, 800(%rsp)
	movq	%r11, 64(%rsp)
	movq	%r11, 808(%rsp)
	movq	%r14, 816(%rsp)
	movq	%r8, 824(%rsp)
	movq	%r9, 832(%rsp)
	movq	%rbx, 840(%rsp)
	movw	$257, 848(%rsp)
	vmovups	%xmm0, 326(%rcx)
	vmovups	%xmm0, 312(%rcx)
	movq	176(%rsp), %rcx
	movq	%rcx, 880(%rsp)
	movq	%r10, 888(%rsp)
	je	4f
	cmpq	$16, %rdx
	movq	192(%rsp), %r11
	ja	7f
	cmpq	$16, %r14
	movq	40(%rsp), %r15
	movq	24(%rsp), %rcx
	movq	32(%rsp), %r10
	ja	9f
	cmpq	$64, %rbx
	ja	9f
	movq	%r10, %r8
	subq	$-128, %r8
	jae	9f
	cmpq	$-128, %r12
	setb	%r9b
	cmpq	%r10, %r12
	sete	%dil
	testb	%dil, %r9b
	je	9f
	cmpq	$-128, %rax
	setb	%dil
	cmpq	%r10, %rax
	sete	%r10b
	cmpq	$-128, %rsi
	setb	%r9b
	andb	%dil, %r9b
	testb	%r10b, %r9b
	movq	32(%rsp), %r10
	jne	5f
	jmp	9f
	.p2align	4
3:
	movq	8(%rcx,%rax), %r10
	movq	16(%r12), %rbx
	movq	24(%r12), %rsi
	movq	32(%r12), %rdx
	movq	40(%r12), %rax
	movq	%rax, 64(%rsp)
	movq	48(%r12), %r14
	jmp	11f
4:
	cmpq	$17, %r14
	setb	%r8b
	cmpq	$17, %rdx
	setb	%r9b
	testb	%r8b, %r9b
	movq	192(%rsp), %r11
	je	6f
	movq	32(%rsp), %r10
	xorq	%r10, %r12
	xorq	%r10, %rax
	orq	%r12, %rax
	movq	%r10, %r8
	movq	40(%rsp), %r15
	movq	24(%rsp), %rcx
	jne	8f
5:
	leaq	128(%rsi), %rdi
	testq	%rbx, %rbx
	cmoveq	%rsi, %rdi
	cmpq	%r8, %rdi
	movq	16(%rsp), %r12
	movq	8(%rsp), %rsi
	jne	11f
	vxorps	%xmm0, %xmm0, %xmm0
	vmovaps	%ymm0, 1120(%rsp)
	vmovaps	%ymm0, 1088(%rsp)
	vmovaps	%ymm0, 1056(%rsp)
	vmovaps	%ymm0, 1024(%rsp)
	vmovaps	%ymm0, 992(%rsp)
	vmovaps	%ymm0, 960(%rsp)
	vmovaps	%ymm0, 928(%rsp)
	vmovaps	%ymm0, 896(%rsp)
	leaq	896(%rsp), %rdi
	leaq	480(%rsp), %rdx
	movq	%r11, %rsi
	vzeroupper
	callq	blake2_compress..many..blake2b..outputs..64_1_v3
	movq	192(%rsp), %r14
	vmovaps	1120(%rsp), %ymm0
	vmovaps	%ymm0, 1600(%rsp)
	vmovaps	1088(%rsp), %ymm1
	vmovaps	%ymm1, 1568(%rsp)
	vmovaps	1056(%rsp), %ymm2
	vmovaps	%ymm2, 1536(%rsp)
	vmovaps	1024(%rsp), %ymm3
	vmovaps	%ymm3, 1504(%rsp)
	vmovaps	896(%rsp), %ymm4
	vmovaps	928(%rsp), %ymm5
	vmovaps	960(%rsp), %ymm6
	vmovaps	992(%rsp), %ymm7
	vmovaps	%ymm7, 1472(%rsp)
	vmovaps	%ymm6, 1440(%rsp)
	vmovaps	%ymm5, 1408(%rsp)
	vmovaps	%ymm4, 1376(%rsp)
	vmovaps	%ymm4, 224(%rsp)
	vmovaps	%ymm5, 256(%rsp)
	vmovaps	%ymm6, 288(%rsp)
	vmovaps	%ymm7, 320(%rsp)
	vmovaps	%ymm3, 352(%rsp)
	vmovaps	%ymm2, 384(%rsp)
	vmovaps	%ymm1, 416(%rsp)
	vmovaps	%ymm0, 448(%rsp)
	cmpq	$64, %r14
	jne	20f
	leaq	224(%rsp), %rax
	movq	48(%rsp), %r9
	movq	%r9, %rcx
	subq	%rax, %rcx
	cmpq	$63, %rcx
	leaq	288(%rsp), %rsi
	leaq	352(%rsp), %rdi
	leaq	416(%rsp), %r8
	ja	21f
	vmovaps	224(%rsp), %ymm0
	vmovups	%ymm0, (%r9)
	vmovaps	256(%rsp), %ymm0
	vmovups	%ymm0, 32(%r9)
	jmp	22f
6:
	xorl	%ebx, %ebx
7:
	movq	40(%rsp), %r15
	movq	24(%rsp), %rcx
	movq	16(%rsp), %r12
	movq	32(%rsp), %r10
	jmp	10f
8:
	xorl	%ebx, %ebx
	.p2align	4
9:
	movq	16(%rsp), %r12
10:
	movq	8(%rsp), %rsi
11:
	leaq	-1(%r11), %rax
	cmpq	$64, %rax
	setb	%al
	cmpq	$65, %rbx
	setb	%r8b
	cmpq	$17, %rdx
	setb	%dil
	andb	%r8b, %dil
	andb	%al, %dil
	cmpq	$17, %r14
	setb	%al
	andb	%dil, %al
	cmpb	$1, %al
	jne	18f
	movq	%r10, 32(%rsp)
	testq	%rbx, %rbx
	je	12f
	movq	8(%r12), %rax
	movq	%rax, 8(%rsp)
	vxorps	%xmm0, %xmm0, %xmm0
	vmovaps	%ymm0, 96(%rsp)
	movl	%ebx, %eax
	shll	$8, %eax
	addl	%r11d, %eax
	addl	$16842752, %eax
	vmovd	%eax, %xmm0
	vmovdqa	%ymm0, 192(%rsp)
	leaq	96(%rsp), %rdi
	movq	%r11, %r15
	vzeroupper
	vj_c_call	memcpy
	leaq	112(%rsp), %rdi
	movq	64(%rsp), %rsi
	movq	%r14, %rdx
	vj_c_call	memcpy
	vmovaps	96(%rsp), %ymm0
	vmovaps	%ymm0, 64(%rsp)
	movl	$64, %eax
	subq	%rbx, %rax
	xorl	%edx, %edx
	cmpq	$64, %rbx
	cmovbq	%rax, %rdx
	leaq	(%rsp,%rbx), %rdi
	addq	$96, %rdi
	xorl	%esi, %esi
	vzeroupper
	vj_c_call	memset
	leaq	96(%rsp), %rdi
	movq	8(%rsp), %rsi
	movq	%rbx, %rdx
	vj_c_call	memcpy
	leaq	1312(%rsp), %rax
	vxorps	%xmm0, %xmm0, %xmm0
	vmovups	%ymm0, (%rax)
	vmovups	%ymm0, 32(%rax)
	vmovups	128(%rsp), %ymm0
	vmovaps	%ymm0, 1280(%rsp)
	vmovups	96(%rsp), %ymm0
	vmovaps	%ymm0, 1248(%rsp)
	vmovaps	64(%rsp), %ymm0
	movl	$128, %eax
	jmp	13f
12:
	vxorps	%xmm0, %xmm0, %xmm0
	vmovaps	%ymm0, 96(%rsp)
	movl	%r11d, %eax
	orl	$16842752, %eax
	vmovd	%eax, %xmm0
	vmovdqa	%ymm0, 192(%rsp)
	leaq	96(%rsp), %rdi
	movq	%r11, %r15
	vzeroupper
	vj_c_call	memcpy
	leaq	112(%rsp), %rdi
	movq	64(%rsp), %rsi
	movq	%r14, %rdx
	vj_c_call	memcpy
	vmovaps	96(%rsp), %ymm0
	vxorps	%xmm1, %xmm1, %xmm1
	vmovaps	%ymm1, 1248(%rsp)
	vmovaps	%ymm1, 1280(%rsp)
	vmovaps	%ymm1, 1312(%rsp)
	vmovaps	%ymm1, 1344(%rsp)
	vmovaps	%ymm1, 96(%rsp)
	vmovaps	%ymm1, 128(%rsp)
	xorl	%eax, %eax
13:
	vxorps	.L1_v3_CPI111_0(%rip), %ymm0, %ymm0
	vmovaps	192(%rsp), %ymm1
	vxorps	.L1_v3_CPI111_1(%rip), %ymm1, %ymm1
	vmovups	%ymm1, 896(%rsp)
	vmovups	%ymm0, 928(%rsp)
	vmovups	%ymm1, 960(%rsp)
	vmovups	%ymm0, 992(%rsp)
	movq	$0, 1024(%rsp)
	movl	%eax, 1032(%rsp)
	movl	%eax, 1036(%rsp)
	movl	%r15d, 1040(%rsp)
	movl	$0, 1044(%rsp)
	vmovaps	1248(%rsp), %ymm0
	vmovaps	1280(%rsp), %ymm1
	vmovaps	1312(%rsp), %ymm2
	vmovaps	1344(%rsp), %ymm3
	leaq	1048(%rsp), %rcx
	vmovups	%ymm3, 96(%rcx)
	vmovups	%ymm2, 64(%rcx)
	vmovups	%ymm1, 32(%rcx)
	vmovups	%ymm0, (%rcx)
	vmovaps	128(%rsp), %ymm0
	vmovups	%ymm0, 160(%rcx)
	vmovaps	96(%rsp), %ymm0
	vmovups	%ymm0, 128(%rcx)
	movq	32(%rsp), %rdx
	cmpq	$1, %rdx
	jne	14f
	testq	%rbx, %rbx
	movq	40(%rsp), %r15
	je	15f
	leaq	896(%rsp), %rdi
	movl	$1, %edx
	movq	56(%rsp), %rsi
	vzeroupper
	callq	blake2_state..blake2b..State..absorb_blocks_1_v3
	jmp	16f
	.p2align	4
14:
	leaq	896(%rsp), %rdi
	movq	56(%rsp), %rsi
	vzeroupper
	callq	blake2_state..blake2b..State..absorb_blocks_1_v3
	movq	48(%rsp), %rsi
	movq	40(%rsp), %r15
	jmp	17f
15:
	movq	56(%rsp), %rcx
	movzbl	(%rcx), %ecx
	movl	%eax, %edx
	movb	%cl, 1048(%rsp,%rdx)
	orl	$1, %eax
	movl	%eax, 1032(%rsp)
16:
	movq	48(%rsp), %rsi
17:
	leaq	896(%rsp), %rdi
	vzeroupper
	callq	blake2_state..blake2b..State..write_digest_1_v3
	movq	24(%rsp), %rcx
18:
	movl	$1, %eax
19:
	addq	%rax, %r13
	cmpq	%r15, %r13
	jb	1b
	jmp	28f
20:
	leaq	224(%rsp), %rsi
	movq	48(%rsp), %rbx
	movq	%rbx, %rdi
	movq	%r14, %rdx
	vzeroupper
	vj_c_call	memcpy
	leaq	(%rbx,%r14), %rdi
	leaq	288(%rsp), %rsi
	movq	%r14, %rdx
	vj_c_call	memcpy
	leaq	(%rbx,%r14,2), %rdi
	leaq	352(%rsp), %rsi
	movq	%r14, %rdx
	vj_c_call	memcpy
	leaq	(%r14,%r14,2), %rdi
	addq	%rbx, %rdi
	leaq	416(%rsp), %rsi
	movq	%r14, %rdx
	vj_c_call	memcpy
	movl	$4, %eax
	movq	24(%rsp), %rcx
	jmp	19b
21:
	vmovaps	224(%rsp), %ymm0
	vmovaps	256(%rsp), %ymm1
	vmovups	%ymm1, 32(%r9)
	vmovups	%ymm0, (%r9)
22:
	movq	24(%rsp), %rcx
	leaq	64(%r9), %rax
	movq	%rax, %rdx
	subq	%rsi, %rdx
	cmpq	$64, %rdx
	jae	23f
	vmovaps	288(%rsp), %ymm0
	vmovups	%ymm0, 64(%r9)
	vmovaps	320(%rsp), %ymm0
	vmovups	%ymm0, 96(%r9)
	jmp	24f
23:
	vmovups	(%rsi), %ymm0
	vmovups	32(%rsi), %ymm1
	vmovups	%ymm1, 32(%rax)
	vmovups	%ymm0, (%rax)
24:
	leaq	128(%r9), %rax
	movq	%rax, %rdx
	subq	%rdi, %rdx
	cmpq	$64, %rdx
	jae	25f
	vmovaps	352(%rsp), %ymm0
	vmovups	%ymm0, 128(%r9)
	vmovaps	384(%rsp), %ymm0
	vmovups	%ymm0, 160(%r9)
	jmp	26f
25:
	vmovups	(%rdi), %ymm0
	vmovups	32(%rdi), %ymm1
	vmovups	%ymm1, 32(%rax)
	vmovups	%ymm0, (%rax)
26:
	leaq	192(%r9), %rax
	movq	%rax, %rdx
	subq	%r8, %rdx
	cmpq	$64, %rdx
	jae	27f
	vmovaps	416(%rsp), %ymm0
	vmovups	%ymm0, 192(%r9)
	vmovaps	448(%rsp), %ymm0
	vmovups	%ymm0, 224(%r9)
	movl	$4, %eax
	jmp	19b
27:
	vmovups	(%r8), %ymm0
	vmovups	32(%r8), %ymm1
	vmovups	%ymm1, 32(%rax)
	vmovups	%ymm0, (%rax)
	movl	$4, %eax
	jmp	19b
28:
	leaq	-40(%rbp), %rsp
	popq	%rbx
	popq	%r12
	popq	%r13
	popq	%r14
	popq	%r15
	popq	%rbp
	vzeroupper
	retq
	vj_end	blake2_ffi..blake2b..many..write_all_1_v3

	vj_constants	32
	.p2align	5, 0x0
.L1_v3_CPI112_0:
	.long	1779033703
	.long	3144134277
	.long	1013904242
	.long	2773480762
	.long	1359893119
	.long	2600822924
	.long	528734635
	.long	1541459225
	vj_constants	16
	.p2align	4, 0x0
.L1_v3_CPI112_1:
	.long	1359893119
	.long	2600822924
	.long	528734635
	.long	1541459225
	vj_constants	8
	.p2align	3, 0x0
.L1_v3_CPI112_2:
	.quad	128
	vj_function	blake2_ffi..blake2s..many..write_all_1_v3
	pushq	%rbp
	pushq	%r15
	pushq	%r14
	pushq	%r13
	pushq	%r12
	pushq	%rbx
	subq	$1880, %rsp
	movq	%r8, %r15
	movq	%rcx, 136(%rsp)
	movq	%rdi, 472(%rsp)
	testq	%r8, %r8
	je	30f
	movq	%rdx, %r8
	xorl	%ecx, %ecx
	movq	%r15, 120(%rsp)
	movq	%rdx, (%rsp)
	.p2align	4
1:
	movq	(%r8), %r12
	movq	%r12, %rax
	imulq	%rcx, %rax
	addq	472(%rsp), %rax
	movq	%rax, 8(%rsp)
	movq	%rcx, %rbx
	shlq	$4, %rbx
	movq	%r15, %r14
	movq	%rcx, 88(%rsp)
	subq	%rcx, %r14
	leaq	480(%rsp), %rdi
	movl	$832, %edx
	xorl	%esi, %esi
	vzeroupper
	vj_c_call	memset
	movq	(%rsp), %r8
	vxorps	%xmm0, %xmm0, %xmm0
	vmovups	%ymm0, 1360(%rsp)
	vmovups	%ymm0, 1392(%rsp)
	vmovups	%ymm0, 1424(%rsp)
	vmovups	%ymm0, 1456(%rsp)
	vmovups	%ymm0, 1488(%rsp)
	vmovups	%ymm0, 1520(%rsp)
	vmovups	%ymm0, 1552(%rsp)
	vmovups	%ymm0, 1584(%rsp)
	cmpq	$8, %r14
	jb	5f
	movq	%r12, 128(%rsp)
	movq	16(%r8), %rdx
	movq	136(%rsp), %rcx
	movq	(%rcx,%rbx), %rdi
	movq	8(%rcx,%rbx), %rax
	movq	%rax, 176(%rsp)
	xorl	%r12d, %r12d
	movq	%rdx, %rbp
	movq	%rdx, 336(%rsp)
	testq	%rdx, %rdx
	setne	%dl
	je	2f
	movq	8(%r8), %rbp
2:
	movq	24(%r8), %r15
	movq	32(%r8), %r11
	movq	40(%r8), %rcx
	movq	48(%r8), %r14
	movb	%dl, %r12b
	movq	136(%rsp), %rdx
	movq	16(%rdx,%rbx), %rax
	movq	%rax, 144(%rsp)
	movq	24(%rdx,%rbx), %rsi
	movq	32(%rdx,%rbx), %rax
	movq	%rax, 96(%rsp)
	movq	40(%rdx,%rbx), %r10
	movq	48(%rdx,%rbx), %rax
	movq	%rax, 384(%rsp)
	movq	56(%rdx,%rbx), %rax
	movq	%rax, 1312(%rsp)
	movq	64(%rdx,%rbx), %rax
	movq	%rax, 400(%rsp)
	movq	72(%rdx,%rbx), %rax
	movq	%rax, 368(%rsp)
	movq	80(%rdx,%rbx), %rax
	movq	%rax, 416(%rsp)
	movq	88(%rdx,%rbx), %r13
	movq	96(%rdx,%rbx), %rax
	movq	%rax, 160(%rsp)
	movq	104(%rdx,%rbx), %r9
	movq	112(%rdx,%rbx), %rax
	movq	%rax, 448(%rsp)
	movq	120(%rdx,%rbx), %rax
	movq	%rax, 432(%rsp)
	movq	%r15, 480(%rsp)
	movq	%r11, 488(%rsp)
	movq	%rcx, 496(%rsp)
	movq	%r14, 504(%rsp)
	movq	%r12, 512(%rsp)
	movq	%rbp, 520(%rsp)
	movq	336(%rsp), %rax
	movq	%rax, 528(%rsp)
	movw	$257, 536(%rsp)
	vxorps	%xmm0, %xmm0, %xmm0
	leaq	538(%rsp), %rdx
	vmovups	%xmm0, 14(%rdx)
	vmovups	%xmm0, (%rdx)
	movq	%rdi, 568(%rsp)
	movq	176(%rsp), %r8
	movq	%r8, 576(%rsp)
	movq	%r15, 584(%rsp)
	movq	%r11, 592(%rsp)
	movq	%rcx, 600(%rsp)
	movq	%r14, 608(%rsp)
	movq	%r12, 616(%rsp)
	movq	%rbp, 624(%rsp)
	movq	%rax, 632(%rsp)
	movw	$257, 640(%rsp)
	vmovups	%xmm0, 118(%rdx)
	vmovups	%xmm0, 104(%rdx)
	movq	144(%rsp), %rdi
	movq	%rdi, 672(%rsp)
	movq	368(%rsp), %r8
	movq	%rsi, 144(%rsp)
	movq	%rsi, 680(%rsp)
	movq	%r15, 688(%rsp)
	movq	%r11, 696(%rsp)
	movq	%rcx, 704(%rsp)
	movq	%r14, 712(%rsp)
	movq	%r12, 720(%rsp)
	movq	%rbp, 728(%rsp)
	movq	%rax, 736(%rsp)
	movw	$257, 744(%rsp)
	vmovups	%xmm0, 222(%rdx)
	vmovups	%xmm0, 208(%rdx)
	movq	96(%rsp), %rsi
	movq	%rsi, 776(%rsp)
	movq	%r10, 96(%rsp)
	movq	%r10, 784(%rsp)
	movq	%r15, 792(%rsp)
	movq	%r11, 800(%rsp)
	movq	%rcx, 808(%rsp)
	movq	%r14, 816(%rsp)
	movq	%r12, 824(%rsp)
	movq	%rbp, 832(%rsp)
	movq	%rax, 840(%rsp)
	movw	$257, 848(%rsp)
	vmovups	%xmm0, 326(%rdx)
	vmovups	%xmm0, 312(%rdx)
	movq	384(%rsp), %rsi
	movq	%rsi, 880(%rsp)
	movq	1312(%rsp), %rsi
	movq	%rsi, 888(%rsp)
	movq	%r15, 896(%rsp)
	movq	%r11, 904(%rsp)
	movq	%rcx, 912(%rsp)
	movq	%r14, 920(%rsp)
	movq	%r12, 928(%rsp)
	movq	%rbp, 936(%rsp)
	movq	%rax, 944(%rsp)
	movw	$257, 952(%rsp)
	vmovups	%xmm0, 430(%rdx)
	vmovups	%xmm0, 416(%rdx)
	movq	400(%rsp), %rsi
	movq	%rsi, 984(%rsp)
	movq	%r8, %rsi
	movq	%r8, 992(%rsp)
	movq	%r15, 1000(%rsp)
	movq	%r11, 1008(%rsp)
	movq	%rcx, 1016(%rsp)
	movq	%r14, 1024(%rsp)
	movq	%r12, 1032(%rsp)
	movq	%rbp, 1040(%rsp)
	movq	%rax, 1048(%rsp)
	movw	$257, 1056(%rsp)
	vmovups	%xmm0, 534(%rdx)
	vmovups	%xmm0, 520(%rdx)
	movq	416(%rsp), %r8
	movq	%r8, 1088(%rsp)
	movq	%r13, %r10
	movq	%r13, 1096(%rsp)
	movq	%r15, 1104(%rsp)
	movq	%r11, 1112(%rsp)
	movq	%rcx, 1120(%rsp)
	movq	%r14, 1128(%rsp)
	movq	%r12, 1136(%rsp)
	movq	%rbp, 1144(%rsp)
	movq	%rax, 1152(%rsp)
	movw	$257, 1160(%rsp)
	vmovups	%xmm0, 638(%rdx)
	vmovups	%xmm0, 624(%rdx)
	movq	160(%rsp), %rdi
	movq	%rdi, 1192(%rsp)
	movq	%r9, 160(%rsp)
	movq	%r9, 1200(%rsp)
	movq	%r15, 1208(%rsp)
	movq	%r11, 1216(%rsp)
	movq	%rcx, 1224(%rsp)
	movq	%r14, 1232(%rsp)
	movq	%r12, 1240(%rsp)
	movq	%rbp, 1248(%rsp)
	movq	%rax, 1256(%rsp)
	movw	$257, 1264(%rsp)
	vmovups	%xmm0, 742(%rdx)
	vmovups	%xmm0, 728(%rdx)
	movq	448(%rsp), %rax
	movq	%rax, 1296(%rsp)
	movq	432(%rsp), %rax
	movq	%rax, %r9
	movq	%rax, 1304(%rsp)
	je	3f
	cmpq	$8, %r11
	movq	120(%rsp), %r15
	movq	(%rsp), %r8
	movq	128(%rsp), %rbp
	movq	176(%rsp), %rdi
	ja	5f
	cmpq	$8, %r14
	ja	5f
	cmpq	$32, 336(%rsp)
	ja	5f
	cmpq	$-64, %rdi
	jae	5f
	movq	144(%rsp), %rcx
	cmpq	$-64, %rcx
	setb	%al
	cmpq	%rdi, %rcx
	sete	%cl
	testb	%cl, %al
	je	5f
	cmpq	$-65, 96(%rsp)
	ja	5f
	cmpq	%rdi, 96(%rsp)
	jne	5f
	cmpq	$-65, 1312(%rsp)
	ja	5f
	cmpq	%rdi, 1312(%rsp)
	jne	5f
	cmpq	$-65, %rsi
	ja	5f
	cmpq	%rdi, %rsi
	jne	5f
	cmpq	$-65, %r10
	ja	5f
	cmpq	%rdi, %r10
	jne	5f
	movq	160(%rsp), %rsi
	cmpq	$-64, %rsi
	setb	%al
	cmpq	%rdi, %rsi
	sete	%cl
	cmpq	$-64, %r9
	setb	%dl
	andb	%al, %dl
	testb	%cl, %dl
	je	5f
	addq	$64, %rdi
	jmp	4f
3:
	cmpq	$9, %r14
	setb	%al
	cmpq	$9, %r11
	setb	%cl
	testb	%al, %cl
	movq	120(%rsp), %r15
	movq	(%rsp), %r8
	movq	128(%rsp), %rbp
	movq	176(%rsp), %rdi
	je	5f
	cmpq	%rdi, 144(%rsp)
	jne	5f
	cmpq	%rdi, 96(%rsp)
	jne	5f
	cmpq	%rdi, 1312(%rsp)
	jne	5f
	cmpq	%rdi, %rsi
	jne	5f
	cmpq	%rdi, %r10
	jne	5f
	cmpq	%rdi, 160(%rsp)
	jne	5f
4:
	leaq	64(%r9), %rax
	cmpq	$0, 336(%rsp)
	cmoveq	%r9, %rax
	cmpq	%rdi, %rax
	jne	5f
	vxorps	%xmm0, %xmm0, %xmm0
	vmovups	%ymm0, 1840(%rsp)
	vmovups	%ymm0, 1808(%rsp)
	vmovups	%ymm0, 1776(%rsp)
	vmovups	%ymm0, 1744(%rsp)
	vmovups	%ymm0, 1712(%rsp)
	vmovups	%ymm0, 1680(%rsp)
	vmovups	%ymm0, 1648(%rsp)
	vmovups	%ymm0, 1616(%rsp)
	movzbl	%bpl, %r12d
	vmovups	%ymm0, 240(%rsp)
	vmovups	%ymm0, 208(%rsp)
	movl	528(%rsp), %eax
	shll	$8, %eax
	xorl	%ecx, %ecx
	cmpb	$0, 512(%rsp)
	movzwl	%ax, %eax
	cmovel	%ecx, %eax
	movq	480(%rsp), %rsi
	movq	488(%rsp), %rdx
	movq	496(%rsp), %rbx
	movl	536(%rsp), %ecx
	shll	$16, %ecx
	orl	%eax, %ecx
	orl	%r12d, %ecx
	vmovd	%ecx, %xmm0
	vpinsrd	$1, 540(%rsp), %xmm0, %xmm0
	vmovq	544(%rsp), %xmm1
	vpunpcklqdq	%xmm1, %xmm0, %xmm0
	vpinsrw	$7, 552(%rsp), %xmm0, %xmm0
	vmovdqu	%ymm0, 176(%rsp)
	movq	504(%rsp), %r14
	vpxor	%xmm0, %xmm0, %xmm0
	vmovdqa	%xmm0, 16(%rsp)
	leaq	16(%rsp), %rdi
	vzeroupper
	vj_c_call	memcpy
	leaq	24(%rsp), %rdi
	movq	%rbx, %rsi
	movq	%r14, %rdx
	vj_c_call	memcpy
	vmovups	176(%rsp), %ymm0
	vinsertf128	$1, 16(%rsp), %ymm0, %ymm0
	vxorps	.L1_v3_CPI112_0(%rip), %ymm0, %ymm0
	vmovups	%ymm0, 208(%rsp)
	movl	632(%rsp), %eax
	shll	$8, %eax
	cmpb	$0, 616(%rsp)
	movzwl	%ax, %eax
	movl	$0, %ecx
	cmovel	%ecx, %eax
	movq	584(%rsp), %rsi
	movq	592(%rsp), %rdx
	movq	600(%rsp), %rbx
	movq	608(%rsp), %r14
	movl	640(%rsp), %ecx
	shll	$16, %ecx
	orl	%eax, %ecx
	orl	%r12d, %ecx
	vmovd	%ecx, %xmm0
	vpinsrd	$1, 644(%rsp), %xmm0, %xmm0
	vmovq	648(%rsp), %xmm1
	vpunpcklqdq	%xmm1, %xmm0, %xmm0
	vpinsrw	$7, 656(%rsp), %xmm0, %xmm0
	vmovdqu	%ymm0, 176(%rsp)
	vpxor	%xmm0, %xmm0, %xmm0
	vmovdqa	%xmm0, 16(%rsp)
	leaq	16(%rsp), %r13
	movq	%r13, %rdi
	vzeroupper
	vj_c_call	memcpy
	leaq	24(%rsp), %rdi
	movq	%rbx, %rsi
	movq	%r14, %rdx
	vj_c_call	memcpy
	vmovups	176(%rsp), %ymm0
	vinsertf128	$1, 16(%rsp), %ymm0, %ymm0
	vxorps	.L1_v3_CPI112_0(%rip), %ymm0, %ymm0
	vmovups	%ymm0, 240(%rsp)
	movl	736(%rsp), %eax
	shll	$8, %eax
	cmpb	$0, 720(%rsp)
	movzwl	%ax, %eax
	movl	$0, %ecx
	cmovel	%ecx, %eax
	movq	688(%rsp), %rsi
	movq	696(%rsp), %rdx
	movq	704(%rsp), %rbx
	movq	712(%rsp), %r14
	movl	744(%rsp), %ecx
	shll	$16, %ecx
	orl	%eax, %ecx
	orl	%r12d, %ecx
	vmovd	%ecx, %xmm0
	vpinsrd	$1, 748(%rsp), %xmm0, %xmm0
	vmovq	752(%rsp), %xmm1
	vpunpcklqdq	%xmm1, %xmm0, %xmm0
	vpinsrw	$7, 760(%rsp), %xmm0, %xmm0
	vmovdqa	%xmm0, 160(%rsp)
	vpxor	%xmm0, %xmm0, %xmm0
	vmovdqa	%xmm0, 16(%rsp)
	movq	%r13, %rdi
	vzeroupper
	vj_c_call	memcpy
	leaq	24(%rsp), %rdi
	movq	%rbx, %rsi
	movq	%r14, %rdx
	vj_c_call	memcpy
	vmovaps	.L1_v3_CPI112_1(%rip), %xmm0
	vxorps	16(%rsp), %xmm0, %xmm0
	vmovaps	%xmm0, 176(%rsp)
	movl	840(%rsp), %eax
	shll	$8, %eax
	cmpb	$0, 824(%rsp)
	movzwl	%ax, %eax
	movl	$0, %ecx
	cmovel	%ecx, %eax
	movq	792(%rsp), %rsi
	movq	800(%rsp), %rdx
	movq	808(%rsp), %rbx
	movq	816(%rsp), %r14
	movl	848(%rsp), %ecx
	shll	$16, %ecx
	orl	%eax, %ecx
	orl	%r12d, %ecx
	vmovd	%ecx, %xmm0
	vpinsrd	$1, 852(%rsp), %xmm0, %xmm0
	vmovq	856(%rsp), %xmm1
	vpunpcklqdq	%xmm1, %xmm0, %xmm0
	vpinsrw	$7, 864(%rsp), %xmm0, %xmm0
	vmovdqa	%xmm0, 416(%rsp)
	vpxor	%xmm0, %xmm0, %xmm0
	vmovdqa	%xmm0, 16(%rsp)
	movq	%r13, %rdi
	vj_c_call	memcpy
	leaq	24(%rsp), %r13
	movq	%r13, %rdi
	movq	%rbx, %rsi
	movq	%r14, %rdx
	vj_c_call	memcpy
	vmovaps	.L1_v3_CPI112_1(%rip), %xmm0
	vxorps	16(%rsp), %xmm0, %xmm0
	vmovups	%ymm0, 1312(%rsp)
	movl	944(%rsp), %eax
	shll	$8, %eax
	cmpb	$0, 928(%rsp)
	movzwl	%ax, %eax
	movl	$0, %ecx
	cmovel	%ecx, %eax
	movq	896(%rsp), %rsi
	movq	904(%rsp), %rdx
	movq	912(%rsp), %rbx
	movq	920(%rsp), %r14
	movl	952(%rsp), %ecx
	shll	$16, %ecx
	orl	%eax, %ecx
	orl	%r12d, %ecx
	vmovd	%ecx, %xmm0
	vpinsrd	$1, 956(%rsp), %xmm0, %xmm0
	vmovq	960(%rsp), %xmm1
	vpunpcklqdq	%xmm1, %xmm0, %xmm0
	vpinsrw	$7, 968(%rsp), %xmm0, %xmm0
	vmovdqa	%xmm0, 384(%rsp)
	vpxor	%xmm0, %xmm0, %xmm0
	vmovdqa	%xmm0, 16(%rsp)
	leaq	16(%rsp), %rdi
	vzeroupper
	vj_c_call	memcpy
	movq	%r13, %rdi
	movq	%rbx, %rsi
	movq	%r14, %rdx
	vj_c_call	memcpy
	vmovaps	.L1_v3_CPI112_1(%rip), %xmm0
	vxorps	16(%rsp), %xmm0, %xmm0
	vmovaps	%xmm0, 448(%rsp)
	movl	1048(%rsp), %eax
	shll	$8, %eax
	cmpb	$0, 1032(%rsp)
	movzwl	%ax, %eax
	movl	$0, %ecx
	cmovel	%ecx, %eax
	movq	1000(%rsp), %rsi
	movq	1008(%rsp), %rdx
	movq	1016(%rsp), %rbx
	movq	1024(%rsp), %r14
	movl	1056(%rsp), %ecx
	shll	$16, %ecx
	orl	%eax, %ecx
	orl	%r12d, %ecx
	vmovd	%ecx, %xmm0
	vpinsrd	$1, 1060(%rsp), %xmm0, %xmm0
	vmovq	1064(%rsp), %xmm1
	vpunpcklqdq	%xmm1, %xmm0, %xmm0
	vpinsrw	$7, 1072(%rsp), %xmm0, %xmm0
	vmovdqa	%xmm0, 96(%rsp)
	vpxor	%xmm0, %xmm0, %xmm0
	vmovdqa	%xmm0, 16(%rsp)
	leaq	16(%rsp), %rdi
	vj_c_call	memcpy
	movq	%r13, %rdi
	movq	%rbx, %rsi
	movq	%r14, %rdx
	vj_c_call	memcpy
	vmovaps	.L1_v3_CPI112_1(%rip), %xmm0
	vxorps	16(%rsp), %xmm0, %xmm0
	vmovaps	%xmm0, 432(%rsp)
	movl	1152(%rsp), %eax
	shll	$8, %eax
	cmpb	$0, 1136(%rsp)
	movzwl	%ax, %eax
	movl	$0, %ecx
	cmovel	%ecx, %eax
	movq	1104(%rsp), %rsi
	movq	1112(%rsp), %rdx
	movq	1120(%rsp), %rbx
	movq	1128(%rsp), %r14
	movl	1160(%rsp), %ecx
	shll	$16, %ecx
	orl	%eax, %ecx
	orl	%r12d, %ecx
	vmovd	%ecx, %xmm0
	vpinsrd	$1, 1164(%rsp), %xmm0, %xmm0
	vmovq	1168(%rsp), %xmm1
	vpunpcklqdq	%xmm1, %xmm0, %xmm0
	vpinsrw	$7, 1176(%rsp), %xmm0, %xmm0
	vmovdqa	%xmm0, 144(%rsp)
	vpxor	%xmm0, %xmm0, %xmm0
	vmovdqa	%xmm0, 16(%rsp)
	leaq	16(%rsp), %rdi
	vj_c_call	memcpy
	movq	%r13, %rdi
	movq	%rbx, %rsi
	movq	%r14, %rdx
	vj_c_call	memcpy
	vmovaps	.L1_v3_CPI112_1(%rip), %xmm0
	vxorps	16(%rsp), %xmm0, %xmm0
	vmovaps	%xmm0, 400(%rsp)
	movl	1256(%rsp), %eax
	shll	$8, %eax
	cmpb	$0, 1240(%rsp)
	movzwl	%ax, %eax
	movl	$0, %ecx
	cmovel	%ecx, %eax
	movq	1208(%rsp), %rsi
	movq	1216(%rsp), %rdx
	movq	1224(%rsp), %rbx
	movq	1232(%rsp), %r14
	movl	1264(%rsp), %ecx
	shll	$16, %ecx
	orl	%eax, %ecx
	orl	%r12d, %ecx
	vmovd	%ecx, %xmm0
	vpinsrd	$1, 1268(%rsp), %xmm0, %xmm0
	vmovq	1272(%rsp), %xmm1
	vpunpcklqdq	%xmm1, %xmm0, %xmm0
	vpinsrw	$7, 1280(%rsp), %xmm0, %xmm0
	vmovdqa	%xmm0, 368(%rsp)
	vpxor	%xmm0, %xmm0, %xmm0
	vmovdqa	%xmm0, 16(%rsp)
	leaq	16(%rsp), %rdi
	vj_c_call	memcpy
	movq	%r13, %rdi
	movq	%rbx, %rsi
	movq	%r14, %rdx
	vj_c_call	memcpy
	vmovdqa	.L1_v3_CPI112_1(%rip), %xmm0
	vpxor	16(%rsp), %xmm0, %xmm0
	vmovdqa	208(%rsp), %xmm1
	vpinsrd	$1, 240(%rsp), %xmm1, %xmm2
	vmovdqu	212(%rsp), %xmm1
	vpinsrd	$1, 244(%rsp), %xmm1, %xmm1
	vmovdqu	216(%rsp), %xmm3
	vpinsrd	$1, 248(%rsp), %xmm3, %xmm8
	vmovdqa	.L1_v3_CPI112_0(%rip), %ymm5
	vpxor	160(%rsp), %xmm5, %xmm9
	vpxor	416(%rsp), %xmm5, %xmm4
	vpxor	384(%rsp), %xmm5, %xmm7
	vpxor	96(%rsp), %xmm5, %xmm3
	vpxor	144(%rsp), %xmm5, %xmm6
	vpxor	368(%rsp), %xmm5, %xmm5
	vmovd	%xmm9, %eax
	vmovd	%xmm4, %ecx
	vpinsrd	$2, %eax, %xmm2, %xmm2
	vpinsrd	$3, %ecx, %xmm2, %xmm2
	vinserti128	$1, %xmm7, %ymm2, %ymm2
	vpbroadcastd	%xmm3, %ymm10
	vpblendd	$32, %ymm10, %ymm2, %ymm2
	vpbroadcastd	%xmm6, %ymm10
	vpblendd	$64, %ymm10, %ymm2, %ymm2
	vpbroadcastd	%xmm5, %ymm10
	vpextrd	$1, %xmm9, %eax
	vpextrd	$1, %xmm4, %ecx
	vpextrd	$1, %xmm7, %edx
	vpextrd	$1, %xmm3, %esi
	vpextrd	$1, %xmm6, %edi
	vpinsrd	$2, %eax, %xmm1, %xmm11
	vpblendd	$128, %ymm10, %ymm2, %ymm1
	vpinsrd	$3, %ecx, %xmm11, %xmm2
	vmovd	%edx, %xmm10
	vpbroadcastd	%xmm10, %ymm10
	vpblendd	$16, %ymm10, %ymm2, %ymm2
	vmovd	%esi, %xmm10
	vpbroadcastd	%xmm10, %ymm10
	vpblendd	$32, %ymm10, %ymm2, %ymm2
	vmovd	%edi, %xmm10
	vpbroadcastd	%xmm10, %ymm10
	vpblendd	$64, %ymm10, %ymm2, %ymm2
	vpbroadcastq	%xmm5, %ymm10
	vpblendd	$128, %ymm10, %ymm2, %ymm2
	vpextrd	$2, %xmm4, %eax
	vpextrd	$2, %xmm7, %ecx
	vpextrd	$2, %xmm3, %edx
	vpblendd	$4, %xmm9, %xmm8, %xmm8
	vpinsrd	$3, %eax, %xmm8, %xmm8
	vmovd	%ecx, %xmm10
	vpbroadcastd	%xmm10, %ymm10
	vpblendd	$16, %ymm10, %ymm8, %ymm8
	vmovd	%edx, %xmm10
	vpbroadcastd	%xmm10, %ymm10
	vpblendd	$32, %ymm10, %ymm8, %ymm8
	vpextrd	$3, %xmm9, %eax
	vmovdqu	220(%rsp), %xmm9
	vpinsrd	$1, 252(%rsp), %xmm9, %xmm9
	vpextrd	$2, %xmm6, %ecx
	vpextrd	$3, %xmm7, %edx
	vmovd	%ecx, %xmm7
	vpbroadcastd	%xmm7, %ymm7
	vpblendd	$64, %ymm7, %ymm8, %ymm7
	vmovdqa	224(%rsp), %xmm8
	vpinsrd	$1, 256(%rsp), %xmm8, %xmm10
	vpextrd	$3, %xmm3, %ecx
	vpshufd	$170, %xmm5, %xmm3
	vinserti128	$1, %xmm3, %ymm0, %ymm3
	vpblendd	$128, %ymm3, %ymm7, %ymm3
	vmovdqu	228(%rsp), %xmm7
	vpinsrd	$1, 260(%rsp), %xmm7, %xmm8
	vpextrd	$3, %xmm6, %esi
	vpinsrd	$2, %eax, %xmm9, %xmm6
	vmovd	%edx, %xmm7
	vpbroadcastd	%xmm7, %ymm7
	vpblendd	$240, %ymm7, %ymm6, %ymm6
	vmovd	%ecx, %xmm7
	vpbroadcastd	%xmm7, %ymm7
	vpblendd	$32, %ymm7, %ymm6, %ymm6
	vmovd	%esi, %xmm7
	vpbroadcastd	%xmm7, %ymm7
	vpblendd	$64, %ymm7, %ymm6, %ymm6
	vmovdqu	232(%rsp), %xmm7
	vpinsrd	$1, 264(%rsp), %xmm7, %xmm7
	vinserti128	$1, %xmm5, %ymm4, %ymm4
	vpblendd	$136, %ymm4, %ymm6, %ymm4
	vmovdqa	176(%rsp), %xmm9
	vmovd	%xmm9, %eax
	vmovdqu	1312(%rsp), %ymm11
	vmovd	%xmm11, %ecx
	vpinsrd	$2, %eax, %xmm10, %xmm5
	vpinsrd	$3, %ecx, %xmm5, %xmm5
	vmovdqa	448(%rsp), %xmm12
	vinserti128	$1, %xmm12, %ymm5, %ymm5
	vmovdqa	432(%rsp), %xmm13
	vpbroadcastd	%xmm13, %ymm6
	vpblendd	$32, %ymm6, %ymm5, %ymm5
	vmovdqa	400(%rsp), %xmm14
	vpbroadcastd	%xmm14, %ymm6
	vpblendd	$64, %ymm6, %ymm5, %ymm5
	vpbroadcastd	%xmm0, %ymm6
	vpextrd	$1, %xmm9, %eax
	vpextrd	$1, %xmm11, %ecx
	vmovdqa	%ymm11, %ymm10
	vpextrd	$1, %xmm12, %edx
	vmovdqa	%xmm12, %xmm11
	vpextrd	$1, %xmm13, %esi
	vpextrd	$1, %xmm14, %edi
	vpinsrd	$2, %eax, %xmm8, %xmm8
	vpinsrd	$3, %ecx, %xmm8, %xmm8
	vpblendd	$128, %ymm6, %ymm5, %ymm5
	vmovd	%edx, %xmm6
	vpbroadcastd	%xmm6, %ymm6
	vpblendd	$16, %ymm6, %ymm8, %ymm6
	vmovd	%esi, %xmm8
	vpbroadcastd	%xmm8, %ymm8
	vpblendd	$32, %ymm8, %ymm6, %ymm6
	vmovd	%edi, %xmm8
	vpbroadcastd	%xmm8, %ymm8
	vpblendd	$64, %ymm8, %ymm6, %ymm6
	vpbroadcastq	%xmm0, %ymm8
	vpblendd	$128, %ymm8, %ymm6, %ymm6
	vpextrd	$2, %xmm10, %eax
	vpextrd	$2, %xmm11, %ecx
	vpextrd	$2, %xmm13, %edx
	vpextrd	$2, %xmm14, %esi
	vpblendd	$4, %xmm9, %xmm7, %xmm7
	vpinsrd	$3, %eax, %xmm7, %xmm7
	vmovd	%ecx, %xmm8
	vpbroadcastd	%xmm8, %ymm8
	vpblendd	$16, %ymm8, %ymm7, %ymm7
	vmovd	%edx, %xmm8
	vpbroadcastd	%xmm8, %ymm8
	vpblendd	$32, %ymm8, %ymm7, %ymm7
	vmovd	%esi, %xmm8
	vpbroadcastd	%xmm8, %ymm8
	vpblendd	$64, %ymm8, %ymm7, %ymm7
	vpextrd	$3, %xmm9, %eax
	vpextrd	$3, %xmm11, %ecx
	vpextrd	$3, %xmm13, %edx
	vpshufd	$170, %xmm0, %xmm8
	vinserti128	$1, %xmm8, %ymm0, %ymm8
	vpblendd	$128, %ymm8, %ymm7, %ymm7
	vmovdqu	236(%rsp), %xmm8
	vpinsrd	$1, 268(%rsp), %xmm8, %xmm8
	vpextrd	$3, %xmm14, %esi
	vpinsrd	$2, %eax, %xmm8, %xmm8
	vmovd	%ecx, %xmm9
	vpbroadcastd	%xmm9, %ymm9
	vpblendd	$240, %ymm9, %ymm8, %ymm8
	vmovd	%edx, %xmm9
	vpbroadcastd	%xmm9, %ymm9
	vpblendd	$32, %ymm9, %ymm8, %ymm8
	vmovd	%esi, %xmm9
	vpbroadcastd	%xmm9, %ymm9
	vpblendd	$64, %ymm9, %ymm8, %ymm8
	vinserti128	$1, %xmm0, %ymm10, %ymm0
	vmovdqu	%ymm1, 1616(%rsp)
	vmovdqu	%ymm2, 1648(%rsp)
	vmovdqu	%ymm3, 1680(%rsp)
	vmovdqu	%ymm4, 1712(%rsp)
	vmovdqu	%ymm5, 1744(%rsp)
	vmovdqu	%ymm6, 1776(%rsp)
	vmovdqu	%ymm7, 1808(%rsp)
	vpblendd	$136, %ymm0, %ymm8, %ymm0
	vmovdqu	%ymm0, 1840(%rsp)
	movq	576(%rsp), %rax
	leaq	64(%rax), %r12
	cmpq	$0, 336(%rsp)
	cmoveq	%rax, %r12
	cmpq	$1, %r12
	movq	%r12, %r14
	adcq	$-1, %r14
	shrq	$6, %r14
	je	13f
	vpxor	%xmm0, %xmm0, %xmm0
	vmovdqa	%xmm0, 1344(%rsp)
	xorl	%r13d, %r13d
	leaq	1616(%rsp), %rbx
	leaq	480(%rsp), %rsi
	movl	$64, %ebp
	leaq	1344(%rsp), %r8
	movl	$64, %ecx
	movq	%rbx, %rdi
	xorl	%edx, %edx
	vzeroupper
	callq	blake2_compress..many..blake2s..compress_at_1_v3
	decq	%r14
	movq	576(%rsp), %rax
	cmpq	$64, %rax
	movl	$64, %ecx
	cmovbq	%rax, %rcx
	movq	680(%rsp), %rdx
	leaq	64(%rax), %r12
	cmpb	$0, 512(%rsp)
	cmovneq	%r13, %rcx
	cmoveq	%rax, %r12
	addq	568(%rsp), %rcx
	movq	%rcx, 208(%rsp)
	cmpq	$64, %rdx
	cmovaeq	%rbp, %rdx
	cmpb	$0, 616(%rsp)
	cmovneq	%r13, %rdx
	addq	672(%rsp), %rdx
	movq	%r14, 216(%rsp)
	movq	%rdx, 224(%rsp)
	movq	784(%rsp), %rax
	cmpq	$64, %rax
	cmovaeq	%rbp, %rax
	cmpb	$0, 720(%rsp)
	cmovneq	%r13, %rax
	addq	776(%rsp), %rax
	movq	%r14, 232(%rsp)
	movq	%rax, 240(%rsp)
	movq	888(%rsp), %rax
	cmpq	$64, %rax
	cmovaeq	%rbp, %rax
	cmpb	$0, 824(%rsp)
	cmovneq	%r13, %rax
	addq	880(%rsp), %rax
	movq	%r14, 248(%rsp)
	movq	%rax, 256(%rsp)
	movq	%r14, 264(%rsp)
	movq	992(%rsp), %rax
	movq	1096(%rsp), %rcx
	cmpq	$64, %rax
	cmovaeq	%rbp, %rax
	cmpb	$0, 928(%rsp)
	cmovneq	%r13, %rax
	addq	984(%rsp), %rax
	movq	%rax, 272(%rsp)
	cmpq	$64, %rcx
	cmovaeq	%rbp, %rcx
	cmpb	$0, 1032(%rsp)
	cmovneq	%r13, %rcx
	addq	1088(%rsp), %rcx
	movq	%r14, 280(%rsp)
	movq	%rcx, 288(%rsp)
	movq	1200(%rsp), %rax
	cmpq	$64, %rax
	cmovaeq	%rbp, %rax
	cmpb	$0, 1136(%rsp)
	cmovneq	%r13, %rax
	addq	1192(%rsp), %rax
	movq	%r14, 296(%rsp)
	movq	%rax, 304(%rsp)
	movq	1304(%rsp), %rax
	cmpq	$64, %rax
	cmovbq	%rax, %rbp
	cmpb	$0, 1240(%rsp)
	cmovneq	%r13, %rbp
	addq	1296(%rsp), %rbp
	movq	%r14, 312(%rsp)
	movq	%rbp, 320(%rsp)
	movq	128(%rsp), %rbp
	movq	%r14, 328(%rsp)
	vpbroadcastq	.L1_v3_CPI112_2(%rip), %ymm0
	vmovdqu	%ymm0, 16(%rsp)
	vmovdqu	%ymm0, 48(%rsp)
	leaq	208(%rsp), %rsi
	leaq	16(%rsp), %rdx
	movq	%rbx, %rdi
	leaq	1344(%rsp), %rcx
	vzeroupper
	callq	blake2_compress..many..blake2s..compress_blocks_1_v3
	cmpq	$1, %r12
	movq	%r12, %rdx
	adcq	$-1, %rdx
	shrq	$6, %rdx
	leaq	1392(%rsp), %rbx
	leaq	1424(%rsp), %r14
	jmp	14f
	.p2align	4
5:
	movq	(%r8), %rbp
	movq	16(%r8), %r12
	movq	32(%r8), %rdx
	movq	48(%r8), %r13
	leaq	-33(%rbp), %rax
	cmpq	$-32, %rax
	setb	%al
	cmpq	$33, %r12
	setae	%cl
	cmpq	$9, %rdx
	setae	%sil
	orb	%cl, %sil
	orb	%al, %sil
	cmpq	$9, %r13
	setae	%al
	orb	%sil, %al
	jne	11f
	movq	136(%rsp), %rax
	movq	(%rax,%rbx), %rcx
	movq	%rcx, 176(%rsp)
	movq	8(%rax,%rbx), %rbx
	movq	24(%r8), %rsi
	movq	40(%r8), %r14
	testq	%r12, %r12
	je	6f
	movq	8(%r8), %r15
	vxorps	%xmm0, %xmm0, %xmm0
	vmovaps	%xmm0, 16(%rsp)
	movl	%r12d, %eax
	shll	$8, %eax
	addl	%ebp, %eax
	addl	$16842752, %eax
	vmovd	%eax, %xmm0
	vmovdqu	%ymm0, 336(%rsp)
	leaq	16(%rsp), %rdi
	vzeroupper
	vj_c_call	memcpy
	leaq	24(%rsp), %rdi
	movq	%r14, %rsi
	movq	%r13, %rdx
	vj_c_call	memcpy
	vmovups	336(%rsp), %ymm0
	vinsertf128	$1, 16(%rsp), %ymm0, %ymm0
	vmovups	%ymm0, 336(%rsp)
	movl	$32, %eax
	subq	%r12, %rax
	xorl	%edx, %edx
	cmpq	$32, %r12
	cmovbq	%rax, %rdx
	leaq	(%rsp,%r12), %rdi
	addq	$16, %rdi
	xorl	%esi, %esi
	vzeroupper
	vj_c_call	memset
	leaq	16(%rsp), %rdi
	movq	%r15, %rsi
	movq	120(%rsp), %r15
	movq	%r12, %rdx
	vj_c_call	memcpy
	vxorps	%xmm0, %xmm0, %xmm0
	leaq	240(%rsp), %rax
	vmovups	%ymm0, (%rax)
	vmovups	16(%rsp), %ymm0
	vmovups	%ymm0, 208(%rsp)
	vmovups	336(%rsp), %ymm0
	vxorps	.L1_v3_CPI112_0(%rip), %ymm0, %ymm0
	movw	$64, %ax
	jmp	7f
6:
	vxorps	%xmm0, %xmm0, %xmm0
	vmovaps	%xmm0, 16(%rsp)
	movl	%ebp, %eax
	orl	$16842752, %eax
	vmovd	%eax, %xmm0
	vmovdqu	%ymm0, 336(%rsp)
	leaq	16(%rsp), %rdi
	vzeroupper
	vj_c_call	memcpy
	leaq	24(%rsp), %rdi
	movq	%r14, %rsi
	movq	%r13, %rdx
	vj_c_call	memcpy
	vmovups	336(%rsp), %ymm0
	vinsertf128	$1, 16(%rsp), %ymm0, %ymm0
	vxorps	%xmm1, %xmm1, %xmm1
	vmovups	%ymm1, 208(%rsp)
	vmovups	%ymm1, 240(%rsp)
	vmovups	%ymm1, 16(%rsp)
	vxorps	.L1_v3_CPI112_0(%rip), %ymm0, %ymm0
	xorl	%eax, %eax
7:
	vmovups	%ymm0, 1616(%rsp)
	vmovups	%ymm0, 1648(%rsp)
	movq	$0, 1680(%rsp)
	movw	%ax, 1688(%rsp)
	movw	%ax, 1690(%rsp)
	movw	%bp, 1692(%rsp)
	movw	$0, 1694(%rsp)
	vmovups	208(%rsp), %ymm0
	vmovups	240(%rsp), %ymm1
	leaq	1696(%rsp), %rcx
	vmovups	%ymm1, 32(%rcx)
	vmovups	%ymm0, (%rcx)
	vmovups	16(%rsp), %ymm0
	vmovups	%ymm0, 64(%rcx)
	cmpq	$1, %rbx
	jne	8f
	testq	%r12, %r12
	je	9f
	leaq	1616(%rsp), %rdi
	movl	$1, %edx
	movq	176(%rsp), %rsi
	vzeroupper
	callq	blake2_state..blake2s..State..absorb_blocks_1_v3
	jmp	10f
	.p2align	4
8:
	leaq	1616(%rsp), %rdi
	movq	176(%rsp), %rsi
	movq	%rbx, %rdx
	vzeroupper
	callq	blake2_state..blake2s..State..absorb_blocks_1_v3
	jmp	10f
9:
	movq	176(%rsp), %rcx
	movzbl	(%rcx), %ecx
	movzwl	%ax, %eax
	movb	%cl, 1696(%rsp,%rax)
	orl	$1, %eax
	movw	%ax, 1688(%rsp)
	.p2align	4
10:
	movq	8(%rsp), %rsi
	leaq	1616(%rsp), %rdi
	vzeroupper
	callq	blake2_state..blake2s..State..write_digest_1_v3
	movq	(%rsp), %r8
11:
	movl	$1, %eax
12:
	movq	88(%rsp), %rcx
	addq	%rax, %rcx
	cmpq	%r15, %rcx
	jb	1b
	jmp	30f
13:
	leaq	1392(%rsp), %rbx
	leaq	1424(%rsp), %r14
	xorl	%edx, %edx
14:
	movl	$1, %eax
	vmovd	%eax, %xmm0
	vpinsrb	$1, 560(%rsp), %xmm0, %xmm0
	vpinsrb	$2, %eax, %xmm0, %xmm0
	vpinsrb	$3, 664(%rsp), %xmm0, %xmm0
	vpinsrb	$4, %eax, %xmm0, %xmm0
	vpinsrb	$5, 768(%rsp), %xmm0, %xmm0
	vpinsrb	$6, %eax, %xmm0, %xmm0
	vpinsrb	$7, 872(%rsp), %xmm0, %xmm0
	vpinsrb	$8, %eax, %xmm0, %xmm0
	vpinsrb	$9, 976(%rsp), %xmm0, %xmm0
	vpinsrb	$10, %eax, %xmm0, %xmm0
	vpinsrb	$11, 1080(%rsp), %xmm0, %xmm0
	vpinsrb	$12, %eax, %xmm0, %xmm0
	vpinsrb	$13, 1184(%rsp), %xmm0, %xmm0
	vpinsrb	$14, %eax, %xmm0, %xmm0
	vpinsrb	$15, 1288(%rsp), %xmm0, %xmm0
	vmovdqa	%xmm0, 208(%rsp)
	leaq	1616(%rsp), %rdi
	leaq	480(%rsp), %rsi
	leaq	208(%rsp), %r8
	movq	%r12, %rcx
	vzeroupper
	callq	blake2_compress..many..blake2s..compress_at_1_v3
	vmovups	1616(%rsp), %ymm1
	vmovups	1648(%rsp), %ymm2
	vmovups	1680(%rsp), %ymm3
	vmovups	1712(%rsp), %ymm4
	vunpckhps	%ymm2, %ymm1, %ymm5
	vunpckhps	%ymm4, %ymm3, %ymm6
	vunpckhpd	%ymm6, %ymm5, %ymm0
	vmovups	1744(%rsp), %ymm7
	vmovups	1776(%rsp), %ymm8
	vunpckhps	%ymm8, %ymm7, %ymm9
	vmovups	1808(%rsp), %ymm10
	vmovups	1840(%rsp), %ymm11
	vunpckhps	%ymm11, %ymm10, %ymm12
	vunpckhpd	%ymm12, %ymm9, %ymm13
	vunpcklpd	%ymm6, %ymm5, %ymm5
	vunpcklpd	%ymm12, %ymm9, %ymm6
	vperm2f128	$49, %ymm6, %ymm5, %ymm9
	vunpcklps	%ymm2, %ymm1, %ymm1
	vunpcklps	%ymm4, %ymm3, %ymm2
	vunpckhpd	%ymm2, %ymm1, %ymm3
	vunpcklps	%ymm8, %ymm7, %ymm4
	vunpcklps	%ymm11, %ymm10, %ymm7
	vunpckhpd	%ymm7, %ymm4, %ymm8
	vperm2f128	$49, %ymm8, %ymm3, %ymm10
	vunpcklpd	%ymm2, %ymm1, %ymm1
	vunpcklpd	%ymm7, %ymm4, %ymm2
	vperm2f128	$49, %ymm2, %ymm1, %ymm4
	vinsertf128	$1, %xmm13, %ymm0, %ymm7
	vinsertf128	$1, %xmm6, %ymm5, %ymm5
	vinsertf128	$1, %xmm8, %ymm3, %ymm3
	vinsertf128	$1, %xmm2, %ymm1, %ymm1
	vmovups	%ymm1, 1360(%rsp)
	vmovups	%ymm3, 1392(%rsp)
	vmovups	%ymm5, 1424(%rsp)
	vmovups	%ymm7, 1456(%rsp)
	vmovups	%ymm4, 1488(%rsp)
	vmovups	%ymm10, 1520(%rsp)
	vmovups	%ymm9, 1552(%rsp)
	vperm2f128	$49, %ymm13, %ymm0, %ymm0
	vmovups	%ymm0, 1584(%rsp)
	cmpq	$32, %rbp
	jne	15f
	leaq	1360(%rsp), %rax
	movq	8(%rsp), %r11
	movq	%r11, %rcx
	subq	%rax, %rcx
	cmpq	$31, %rcx
	vmovups	1360(%rsp), %ymm0
	vmovups	%ymm0, (%r11)
	movq	(%rsp), %r8
	leaq	32(%r11), %rax
	movq	%rax, %rcx
	subq	%rbx, %rcx
	cmpq	$32, %rcx
	jae	16f
	vmovups	1392(%rsp), %ymm0
	jmp	17f
15:
	leaq	1360(%rsp), %rsi
	movq	8(%rsp), %r12
	movq	%r12, %rdi
	movq	%rbp, %rdx
	vzeroupper
	vj_c_call	memcpy
	leaq	(%r12,%rbp), %rdi
	movq	%rbx, %rsi
	movq	%rbp, %rdx
	vj_c_call	memcpy
	leaq	(%r12,%rbp,2), %rdi
	movq	%r14, %rsi
	movq	%rbp, %rdx
	vj_c_call	memcpy
	leaq	(,%rbp,2), %rbx
	addq	%rbp, %rbx
	leaq	(%r12,%rbx), %rdi
	leaq	1456(%rsp), %rsi
	movq	%rbp, %rdx
	vj_c_call	memcpy
	leaq	(%r12,%rbp,4), %rdi
	leaq	1488(%rsp), %rsi
	movq	%rbp, %rdx
	vj_c_call	memcpy
	leaq	(,%rbp,4), %rdi
	addq	%rbp, %rdi
	addq	%r12, %rdi
	leaq	1520(%rsp), %rsi
	movq	%rbp, %rdx
	vj_c_call	memcpy
	leaq	(%r12,%rbx,2), %rdi
	leaq	1552(%rsp), %rsi
	movq	%rbp, %rdx
	vj_c_call	memcpy
	leaq	(%r12,%rbp,8), %rdi
	subq	%rbp, %rdi
	leaq	1584(%rsp), %rsi
	movq	%rbp, %rdx
	vj_c_call	memcpy
	movl	$8, %eax
	movq	(%rsp), %r8
	jmp	12b
16:
	vmovups	(%rbx), %ymm0
17:
	vmovups	%ymm0, (%rax)
	leaq	1552(%rsp), %r9
	leaq	1584(%rsp), %r10
	leaq	64(%r11), %rax
	movq	%rax, %rcx
	subq	%r14, %rcx
	cmpq	$32, %rcx
	jae	18f
	vmovups	1424(%rsp), %ymm0
	jmp	19f
18:
	vmovups	(%r14), %ymm0
19:
	vmovups	%ymm0, (%rax)
	leaq	1488(%rsp), %rsi
	leaq	1520(%rsp), %rdi
	leaq	96(%r11), %rax
	movq	%rax, %rcx
	leaq	1456(%rsp), %rdx
	subq	%rdx, %rcx
	cmpq	$32, %rcx
	jae	20f
	vmovups	1456(%rsp), %ymm0
	jmp	21f
20:
	vmovups	(%rdx), %ymm0
21:
	vmovups	%ymm0, (%rax)
	leaq	128(%r11), %rax
	movq	%rax, %rcx
	subq	%rsi, %rcx
	cmpq	$32, %rcx
	jae	22f
	vmovups	1488(%rsp), %ymm0
	jmp	23f
22:
	vmovups	(%rsi), %ymm0
23:
	vmovups	%ymm0, (%rax)
	leaq	160(%r11), %rax
	movq	%rax, %rcx
	subq	%rdi, %rcx
	cmpq	$32, %rcx
	jae	24f
	vmovups	1520(%rsp), %ymm0
	jmp	25f
24:
	vmovups	(%rdi), %ymm0
25:
	vmovups	%ymm0, (%rax)
	leaq	192(%r11), %rax
	movq	%rax, %rcx
	subq	%r9, %rcx
	cmpq	$32, %rcx
	jae	26f
	vmovups	1552(%rsp), %ymm0
	jmp	27f
26:
	vmovups	(%r9), %ymm0
27:
	vmovups	%ymm0, (%rax)
	movq	88(%rsp), %rcx
	addq	$224, %r11
	movq	%r11, %rax
	subq	%r10, %rax
	cmpq	$32, %rax
	jae	28f
	vmovups	1584(%rsp), %ymm0
	jmp	29f
28:
	vmovups	(%r10), %ymm0
29:
	vmovups	%ymm0, (%r11)
	movl	$8, %eax
	addq	%rax, %rcx
	cmpq	%r15, %rcx
	jb	1b
30:
	addq	$1880, %rsp
	popq	%rbx
	popq	%r12
	popq	%r13
	popq	%r14
	popq	%r15
	popq	%rbp
	vzeroupper
	retq
	vj_end	blake2_ffi..blake2s..many..write_all_1_v3

	vj_function	blake2_compress..many..blake2s..compress_at_1_v3
	pushq	%r15
	pushq	%r14
	pushq	%r13
	pushq	%r12
	pushq	%rbx
	subq	$1216, %rsp
	movq	%r8, %rbx
	movq	%rcx, %r15
	movq	%rdx, %r12
	movq	%rsi, %r13
	movq	%rdi, %r14
	vxorps	%xmm0, %xmm0, %xmm0
	vmovups	%ymm0, 672(%rsp)
	vmovups	%ymm0, 640(%rsp)
	vmovups	%ymm0, 576(%rsp)
	vmovups	%ymm0, 608(%rsp)
	vmovups	%ymm0, 704(%rsp)
	vmovups	%ymm0, 736(%rsp)
	cmpb	$0, 32(%rsi)
	je	1f
	testq	%r12, %r12
	je	2f
	movq	96(%r13), %rax
	movq	%r12, %rsi
	shlq	$6, %rsi
	addq	$-64, %rsi
	subq	%rsi, %rax
	addq	88(%r13), %rsi
	cmpq	$64, %rax
	movl	$64, %edx
	cmovbq	%rax, %rdx
	jmp	3f
1:
	movq	96(%r13), %rax
	movq	%r12, %rsi
	shlq	$6, %rsi
	subq	%rsi, %rax
	addq	88(%r13), %rsi
	cmpq	$64, %rax
	movl	$64, %edx
	cmovbq	%rax, %rdx
	vmovups	%ymm0, 32(%rsp)
	vmovups	%ymm0, (%rsp)
	movq	%rsp, %rdi
	vzeroupper
	vj_c_call	memcpy
	vmovups	(%rsp), %ymm0
	vmovups	32(%rsp), %ymm1
	vmovups	%ymm0, 192(%rsp)
	vmovups	%ymm1, 224(%rsp)
	jmp	4f
2:
	movq	40(%r13), %rsi
	movq	48(%r13), %rdx
3:
	vmovups	%ymm0, 32(%rsp)
	vmovups	%ymm0, (%rsp)
	movq	%rsp, %rdi
	vzeroupper
	vj_c_call	memcpy
	vmovups	(%rsp), %ymm0
	vmovups	32(%rsp), %ymm1
	vmovups	%ymm0, 128(%rsp)
	vmovups	%ymm1, 160(%rsp)
	vmovups	128(%rsp), %ymm0
	vmovups	160(%rsp), %ymm1
	vmovups	%ymm1, 224(%rsp)
	vmovups	%ymm0, 192(%rsp)
4:
	vmovups	192(%rsp), %ymm0
	vmovups	224(%rsp), %ymm1
	vmovups	%ymm1, 800(%rsp)
	vmovups	%ymm0, 768(%rsp)
	cmpb	$0, 136(%r13)
	je	5f
	testq	%r12, %r12
	je	6f
	movq	200(%r13), %rax
	movq	%r12, %rsi
	shlq	$6, %rsi
	addq	$-64, %rsi
	subq	%rsi, %rax
	addq	192(%r13), %rsi
	cmpq	$64, %rax
	movl	$64, %edx
	cmovbq	%rax, %rdx
	jmp	7f
5:
	movq	200(%r13), %rax
	movq	%r12, %rsi
	shlq	$6, %rsi
	subq	%rsi, %rax
	addq	192(%r13), %rsi
	cmpq	$64, %rax
	movl	$64, %edx
	cmovbq	%rax, %rdx
	vxorps	%xmm0, %xmm0, %xmm0
	vmovups	%ymm0, 32(%rsp)
	vmovups	%ymm0, (%rsp)
	movq	%rsp, %rdi
	vzeroupper
	vj_c_call	memcpy
	vmovups	(%rsp), %ymm0
	vmovups	32(%rsp), %ymm1
	vmovups	%ymm0, 192(%rsp)
	vmovups	%ymm1, 224(%rsp)
	jmp	8f
6:
	movq	144(%r13), %rsi
	movq	152(%r13), %rdx
7:
	vxorps	%xmm0, %xmm0, %xmm0
	vmovups	%ymm0, 32(%rsp)
	vmovups	%ymm0, (%rsp)
	movq	%rsp, %rdi
	vzeroupper
	vj_c_call	memcpy
	vmovups	(%rsp), %ymm0
	vmovups	32(%rsp), %ymm1
	vmovups	%ymm0, 128(%rsp)
	vmovups	%ymm1, 160(%rsp)
	vmovups	128(%rsp), %ymm0
	vmovups	160(%rsp), %ymm1
	vmovups	%ymm1, 224(%rsp)
	vmovups	%ymm0, 192(%rsp)
8:
	vmovups	192(%rsp), %ymm0
	vmovups	224(%rsp), %ymm1
	vmovups	%ymm1, 672(%rsp)
	vmovups	%ymm0, 640(%rsp)
	cmpb	$0, 240(%r13)
	je	9f
	testq	%r12, %r12
	je	10f
	movq	304(%r13), %rax
	movq	%r12, %rsi
	shlq	$6, %rsi
	addq	$-64, %rsi
	subq	%rsi, %rax
	addq	296(%r13), %rsi
	cmpq	$64, %rax
	movl	$64, %edx
	cmovbq	%rax, %rdx
	jmp	11f
9:
	movq	304(%r13), %rax
	movq	%r12, %rsi
	shlq	$6, %rsi
	subq	%rsi, %rax
	addq	296(%r13), %rsi
	cmpq	$64, %rax
	movl	$64, %edx
	cmovbq	%rax, %rdx
	vxorps	%xmm0, %xmm0, %xmm0
	vmovups	%ymm0, 32(%rsp)
	vmovups	%ymm0, (%rsp)
	movq	%rsp, %rdi
	vzeroupper
	vj_c_call	memcpy
	vmovups	(%rsp), %ymm0
	vmovups	32(%rsp), %ymm1
	vmovups	%ymm0, 192(%rsp)
	vmovups	%ymm1, 224(%rsp)
	jmp	12f
10:
	movq	248(%r13), %rsi
	movq	256(%r13), %rdx
11:
	vxorps	%xmm0, %xmm0, %xmm0
	vmovups	%ymm0, 32(%rsp)
	vmovups	%ymm0, (%rsp)
	movq	%rsp, %rdi
	vzeroupper
	vj_c_call	memcpy
	vmovups	(%rsp), %ymm0
	vmovups	32(%rsp), %ymm1
	vmovups	%ymm0, 128(%rsp)
	vmovups	%ymm1, 160(%rsp)
	vmovups	128(%rsp), %ymm0
	vmovups	160(%rsp), %ymm1
	vmovups	%ymm1, 224(%rsp)
	vmovups	%ymm0, 192(%rsp)
12:
	vmovups	192(%rsp), %ymm0
	vmovups	224(%rsp), %ymm1
	vmovups	%ymm1, 608(%rsp)
	vmovups	%ymm0, 576(%rsp)
	cmpb	$0, 344(%r13)
	je	13f
	testq	%r12, %r12
	je	15f
	movq	408(%r13), %rax
	movq	%r12, %rsi
	shlq	$6, %rsi
	addq	$-64, %rsi
	jmp	14f
13:
	movq	408(%r13), %rax
	movq	%r12, %rsi
	shlq	$6, %rsi
14:
	subq	%rsi, %rax
	addq	400(%r13), %rsi
	cmpq	$64, %rax
	movl	$64, %edx
	cmovbq	%rax, %rdx
	jmp	16f
15:
	movq	352(%r13), %rsi
	movq	360(%r13), %rdx
16:
	vxorps	%xmm0, %xmm0, %xmm0
	vmovups	%ymm0, 288(%rsp)
	vmovups	%ymm0, 256(%rsp)
	leaq	256(%rsp), %rdi
	vzeroupper
	vj_c_call	memcpy
	cmpb	$0, 448(%r13)
	je	17f
	testq	%r12, %r12
	je	19f
	movq	512(%r13), %rax
	movq	%r12, %rsi
	shlq	$6, %rsi
	addq	$-64, %rsi
	jmp	18f
17:
	movq	512(%r13), %rax
	movq	%r12, %rsi
	shlq	$6, %rsi
18:
	subq	%rsi, %rax
	addq	504(%r13), %rsi
	cmpq	$64, %rax
	movl	$64, %edx
	cmovbq	%rax, %rdx
	jmp	20f
19:
	movq	456(%r13), %rsi
	movq	464(%r13), %rdx
20:
	vxorps	%xmm0, %xmm0, %xmm0
	vmovups	%ymm0, 352(%rsp)
	vmovups	%ymm0, 320(%rsp)
	leaq	320(%rsp), %rdi
	vzeroupper
	vj_c_call	memcpy
	cmpb	$0, 552(%r13)
	je	21f
	testq	%r12, %r12
	je	23f
	movq	616(%r13), %rax
	movq	%r12, %rsi
	shlq	$6, %rsi
	addq	$-64, %rsi
	jmp	22f
21:
	movq	616(%r13), %rax
	movq	%r12, %rsi
	shlq	$6, %rsi
22:
	subq	%rsi, %rax
	addq	608(%r13), %rsi
	cmpq	$64, %rax
	movl	$64, %edx
	cmovbq	%rax, %rdx
	jmp	24f
23:
	movq	560(%r13), %rsi
	movq	568(%r13), %rdx
24:
	vxorps	%xmm0, %xmm0, %xmm0
	vmovups	%ymm0, 416(%rsp)
	vmovups	%ymm0, 384(%rsp)
	leaq	384(%rsp), %rdi
	vzeroupper
	vj_c_call	memcpy
	cmpb	$0, 656(%r13)
	je	25f
	testq	%r12, %r12
	je	27f
	movq	720(%r13), %rax
	movq	%r12, %rsi
	shlq	$6, %rsi
	addq	$-64, %rsi
	jmp	26f
25:
	movq	720(%r13), %rax
	movq	%r12, %rsi
	shlq	$6, %rsi
26:
	subq	%rsi, %rax
	addq	712(%r13), %rsi
	cmpq	$64, %rax
	movl	$64, %edx
	cmovbq	%rax, %rdx
	jmp	28f
27:
	movq	664(%r13), %rsi
	movq	672(%r13), %rdx
28:
	vxorps	%xmm0, %xmm0, %xmm0
	vmovups	%ymm0, 480(%rsp)
	vmovups	%ymm0, 448(%rsp)
	leaq	448(%rsp), %rdi
	vzeroupper
	vj_c_call	memcpy
	cmpb	$0, 760(%r13)
	je	29f
	testq	%r12, %r12
	je	31f
	movq	824(%r13), %rax
	shlq	$6, %r12
	addq	$-64, %r12
	jmp	30f
29:
	movq	824(%r13), %rax
	shlq	$6, %r12
30:
	subq	%r12, %rax
	addq	816(%r13), %r12
	cmpq	$64, %rax
	movl	$64, %edx
	cmovbq	%rax, %rdx
	vxorps	%xmm0, %xmm0, %xmm0
	vmovups	%ymm0, 544(%rsp)
	vmovups	%ymm0, 512(%rsp)
	leaq	512(%rsp), %rdi
	movq	%r12, %rsi
	jmp	32f
31:
	movq	768(%r13), %rsi
	movq	776(%r13), %rdx
	vxorps	%xmm0, %xmm0, %xmm0
	vmovups	%ymm0, 544(%rsp)
	vmovups	%ymm0, 512(%rsp)
	leaq	512(%rsp), %rdi
32:
	vzeroupper
	vj_c_call	memcpy
	vmovq	%r15, %xmm0
	vpbroadcastq	%xmm0, %ymm0
	vmovdqu	%ymm0, 704(%rsp)
	vmovdqu	%ymm0, 736(%rsp)
	vmovups	768(%rsp), %ymm0
	vmovups	800(%rsp), %ymm1
	vmovups	%ymm0, 192(%rsp)
	vmovups	%ymm1, 224(%rsp)
	vmovups	640(%rsp), %ymm0
	vmovups	672(%rsp), %ymm1
	vmovups	%ymm0, 128(%rsp)
	vmovups	%ymm1, 160(%rsp)
	vmovups	576(%rsp), %ymm0
	vmovups	608(%rsp), %ymm1
	vmovups	%ymm0, 1152(%rsp)
	vmovups	%ymm1, 1184(%rsp)
	vmovups	256(%rsp), %ymm0
	vmovups	288(%rsp), %ymm1
	vmovups	%ymm1, 1120(%rsp)
	vmovups	%ymm0, 1088(%rsp)
	vmovups	320(%rsp), %ymm0
	vmovups	352(%rsp), %ymm1
	vmovups	%ymm1, 1056(%rsp)
	vmovups	%ymm0, 1024(%rsp)
	vmovups	384(%rsp), %ymm0
	vmovups	416(%rsp), %ymm1
	vmovups	%ymm1, 992(%rsp)
	vmovups	%ymm0, 960(%rsp)
	vmovups	448(%rsp), %ymm0
	vmovups	480(%rsp), %ymm1
	vmovups	%ymm1, 928(%rsp)
	vmovups	%ymm0, 896(%rsp)
	vmovups	512(%rsp), %ymm0
	vmovups	544(%rsp), %ymm1
	vmovups	%ymm1, 864(%rsp)
	vmovups	%ymm0, 832(%rsp)
	leaq	192(%rsp), %rax
	movq	%rax, (%rsp)
	movq	$1, 8(%rsp)
	leaq	128(%rsp), %rax
	movq	%rax, 16(%rsp)
	movq	$1, 24(%rsp)
	leaq	1152(%rsp), %rax
	movq	%rax, 32(%rsp)
	movq	$1, 40(%rsp)
	leaq	1088(%rsp), %rax
	movq	%rax, 48(%rsp)
	movq	$1, 56(%rsp)
	leaq	1024(%rsp), %rax
	movq	%rax, 64(%rsp)
	movq	$1, 72(%rsp)
	leaq	960(%rsp), %rax
	movq	%rax, 80(%rsp)
	movq	$1, 88(%rsp)
	leaq	896(%rsp), %rax
	movq	%rax, 96(%rsp)
	movq	$1, 104(%rsp)
	leaq	832(%rsp), %rax
	movq	%rax, 112(%rsp)
	movq	$1, 120(%rsp)
	movq	%rsp, %rsi
	leaq	704(%rsp), %rdx
	movq	%r14, %rdi
	movq	%rbx, %rcx
	vzeroupper
	callq	blake2_compress..many..blake2s..compress_blocks_1_v3
	addq	$1216, %rsp
	popq	%rbx
	popq	%r12
	popq	%r13
	popq	%r14
	popq	%r15
	retq
	vj_end	blake2_compress..many..blake2s..compress_at_1_v3

	vj_constants	32
	.p2align	5, 0x0
.L1_v3_CPI114_0:
	.short	64
	.short	512
	.zero	2
	.zero	2
	.zero	2
	.zero	2
	.zero	2
	.zero	2
	.zero	2
	.short	0
	.short	0
	.short	0
	.short	0
	.short	0
	.short	0
	.short	0
.L1_v3_CPI114_1:
	.short	16384
	.short	512
	.zero	2
	.zero	2
	.zero	2
	.zero	2
	.zero	2
	.zero	2
	.short	16384
	.short	0
	.short	0
	.short	0
	.short	0
	.short	0
	.short	0
	.short	0
.L1_v3_CPI114_2:
	.quad	7640891576956012808
	.quad	-4942790177534073029
	.quad	4354685564936845355
	.quad	-6534734903238641935
.L1_v3_CPI114_3:
	.quad	5840696475078001361
	.quad	-7276294671716946913
	.quad	2270897969802886507
	.quad	6620516959819538809
	vj_constants	16
	.p2align	2, 0x0
.L1_v3_CPI114_4:
	.short	64
	.short	512
	.short	0
	.short	0
	.short	0
	.short	0
	.short	0
	.short	0
	vj_function	blake2_tree..hasher..TreeHasher..close_next..32_1_v3
	pushq	%rbp
	movq	%rsp, %rbp
	pushq	%r15
	pushq	%r14
	pushq	%r13
	pushq	%r12
	pushq	%rbx
	andq	$-32, %rsp
	subq	$1280, %rsp
	movq	%rdx, 24(%rsp)
	movq	%rsi, %r14
	movq	%rdi, %r15
	movq	56(%rdi), %rcx
	movl	48(%rdi), %eax
	leaq	24(%rdi), %r8
	movq	16(%rdi), %rsi
	movq	40(%rdi), %rdx
	movq	%rdi, 32(%rsp)
	movq	%rsi, 40(%rsp)
	movq	%r8, 48(%rsp)
	movq	%rdx, 56(%rsp)
	vxorps	%xmm0, %xmm0, %xmm0
	vmovups	%xmm0, 64(%rsp)
	vmovups	%xmm0, 73(%rsp)
	leaq	1(%rcx), %rdi
	movb	$2, 89(%rsp)
	movw	$0, 90(%rsp)
	movl	%eax, 92(%rsp)
	movq	%rcx, 96(%rsp)
	movw	$16384, 104(%rsp)
	movq	$0, 106(%rsp)
	movq	$0, 112(%rsp)
	movq	%r14, 120(%rsp)
	movq	%rax, 128(%rsp)
	movq	%r15, 136(%rsp)
	movq	%rsi, 144(%rsp)
	movq	%r8, 152(%rsp)
	movq	%rdx, 160(%rsp)
	vmovups	%xmm0, 177(%rsp)
	vmovups	%xmm0, 168(%rsp)
	movb	$2, 193(%rsp)
	movw	$0, 194(%rsp)
	movl	%eax, 196(%rsp)
	movq	%rdi, 200(%rsp)
	leaq	(%r14,%rax), %rdi
	movw	$16384, 208(%rsp)
	movq	$0, 210(%rsp)
	movq	$0, 216(%rsp)
	movq	%rdi, 224(%rsp)
	movq	%rax, 232(%rsp)
	movq	%r15, 240(%rsp)
	movq	%rsi, 248(%rsp)
	movq	%r8, 256(%rsp)
	movq	%rdx, 264(%rsp)
	vmovups	%xmm0, 281(%rsp)
	vmovups	%xmm0, 272(%rsp)
	leaq	2(%rcx), %rdi
	movb	$2, 297(%rsp)
	movw	$0, 298(%rsp)
	movl	%eax, 300(%rsp)
	movq	%rdi, 304(%rsp)
	leaq	(%r14,%rax,2), %rdi
	movw	$16384, 312(%rsp)
	movq	$0, 314(%rsp)
	movq	$0, 320(%rsp)
	movq	%rdi, 328(%rsp)
	movq	%rax, 336(%rsp)
	movq	%r15, 344(%rsp)
	movq	%rsi, 352(%rsp)
	movq	%r8, 360(%rsp)
	movq	%rdx, 368(%rsp)
	addq	$3, %rcx
	vmovups	%xmm0, 376(%rsp)
	vmovups	%xmm0, 385(%rsp)
	movb	$2, 401(%rsp)
	movw	$0, 402(%rsp)
	movl	%eax, 404(%rsp)
	movq	%rcx, 408(%rsp)
	leaq	(%rax,%rax,2), %rcx
	addq	%r14, %rcx
	movw	$16384, 416(%rsp)
	movq	$0, 424(%rsp)
	movq	$0, 418(%rsp)
	movq	%rcx, 432(%rsp)
	movq	%rax, 440(%rsp)
	vxorps	%xmm0, %xmm0, %xmm0
	vmovaps	%ymm0, 448(%rsp)
	vmovaps	%ymm0, 480(%rsp)
	vmovaps	%ymm0, 512(%rsp)
	vmovaps	%ymm0, 544(%rsp)
	vmovaps	%ymm0, 576(%rsp)
	vmovaps	%ymm0, 608(%rsp)
	vmovaps	%ymm0, 640(%rsp)
	vmovaps	%ymm0, 672(%rsp)
	leaq	448(%rsp), %rdi
	leaq	32(%rsp), %rdx
	movl	$64, %esi
	vzeroupper
	callq	blake2_compress..many..blake2b..outputs..64_1_v3
	vxorps	%xmm0, %xmm0, %xmm0
	vmovaps	%ymm0, 992(%rsp)
	vmovaps	%ymm0, 1024(%rsp)
	vmovaps	%ymm0, 1056(%rsp)
	vmovaps	%ymm0, 1088(%rsp)
	vmovaps	%ymm0, 1120(%rsp)
	vmovaps	%ymm0, 1152(%rsp)
	vmovaps	%ymm0, 1184(%rsp)
	vmovaps	%ymm0, 1216(%rsp)
	vmovaps	448(%rsp), %ymm0
	vmovaps	480(%rsp), %ymm1
	vmovaps	512(%rsp), %ymm2
	vmovaps	544(%rsp), %ymm3
	vmovaps	%ymm0, 736(%rsp)
	vmovaps	%ymm1, 768(%rsp)
	vmovaps	%ymm2, 800(%rsp)
	vmovaps	%ymm3, 832(%rsp)
	vmovaps	576(%rsp), %ymm0
	vmovaps	%ymm0, 864(%rsp)
	vmovaps	608(%rsp), %ymm0
	vmovaps	%ymm0, 896(%rsp)
	vmovaps	640(%rsp), %ymm0
	vmovaps	%ymm0, 928(%rsp)
	vmovaps	672(%rsp), %ymm0
	vmovaps	%ymm0, 960(%rsp)
	movl	48(%r15), %r12d
	leaq	(,%r12,4), %rbx
	leaq	344(%r15), %r8
	leaq	488(%r15), %rdi
	movq	616(%r15), %rsi
	leaq	736(%rsp), %rdx
	movl	$256, %ecx
	vzeroupper
	callq	blake2_digest..buffer..digest_into..33c1e97afcdf8a5d_1_v3
	movq	%rax, 616(%r15)
	movq	56(%r15), %rax
	addq	$4, %rax
	movq	%rax, 56(%r15)
	vmovq	48(%r15), %xmm0
	movq	16(%r15), %rdx
	movq	40(%r15), %r13
	vxorps	%xmm1, %xmm1, %xmm1
	vmovaps	%ymm1, 32(%rsp)
	vmovd	.L1_v3_CPI114_4(%rip), %xmm1
	vpunpckldq	%xmm0, %xmm1, %xmm0
	vmovq	%rax, %xmm1
	vpunpcklqdq	%xmm1, %xmm0, %xmm0
	vpblendd	$240, .L1_v3_CPI114_1(%rip), %ymm0, %ymm0
	vmovdqa	%ymm0, 704(%rsp)
	leaq	32(%rsp), %rdi
	movq	%r15, %rsi
	vzeroupper
	vj_c_call	memcpy
	leaq	48(%rsp), %rdi
	leaq	24(%r15), %rsi
	movq	%r13, %rdx
	vj_c_call	memcpy
	vmovaps	32(%rsp), %ymm0
	vmovaps	704(%rsp), %ymm1
	vxorps	.L1_v3_CPI114_2(%rip), %ymm1, %ymm1
	vxorps	.L1_v3_CPI114_3(%rip), %ymm0, %ymm0
	vmovups	%ymm1, 64(%r15)
	vmovups	%ymm0, 96(%r15)
	vmovups	%ymm1, 128(%r15)
	vmovups	%ymm0, 160(%r15)
	vxorps	%xmm0, %xmm0, %xmm0
	vmovups	%ymm0, 192(%r15)
	vmovups	%ymm0, 224(%r15)
	vmovups	%ymm0, 256(%r15)
	vmovups	%ymm0, 288(%r15)
	vmovups	%ymm0, 312(%r15)
	leaq	(%r14,%r12,4), %rax
	movq	24(%rsp), %rdx
	subq	%rbx, %rdx
	leaq	-40(%rbp), %rsp
	popq	%rbx
	popq	%r12
	popq	%r13
	popq	%r14
	popq	%r15
	popq	%rbp
	vzeroupper
	retq
	vj_end	blake2_tree..hasher..TreeHasher..close_next..32_1_v3

	vj_constants	32
	.p2align	5, 0x0
.L1_v3_CPI115_0:
	.short	64
	.short	512
	.zero	2
	.zero	2
	.zero	2
	.zero	2
	.zero	2
	.zero	2
	.zero	2
	.short	0
	.short	0
	.short	0
	.short	0
	.short	0
	.short	0
	.short	0
.L1_v3_CPI115_1:
	.short	16384
	.short	512
	.zero	2
	.zero	2
	.zero	2
	.zero	2
	.zero	2
	.zero	2
	.short	16384
	.short	0
	.short	0
	.short	0
	.short	0
	.short	0
	.short	0
	.short	0
.L1_v3_CPI115_2:
	.quad	7640891576956012808
	.quad	-4942790177534073029
	.quad	4354685564936845355
	.quad	-6534734903238641935
.L1_v3_CPI115_3:
	.quad	5840696475078001361
	.quad	-7276294671716946913
	.quad	2270897969802886507
	.quad	6620516959819538809
	vj_constants	16
	.p2align	2, 0x0
.L1_v3_CPI115_4:
	.short	64
	.short	512
	.short	0
	.short	0
	.short	0
	.short	0
	.short	0
	.short	0
	vj_function	blake2_tree..hasher..TreeHasher..close_next..64_1_v3
	pushq	%rbp
	movq	%rsp, %rbp
	pushq	%r15
	pushq	%r14
	pushq	%r13
	pushq	%r12
	pushq	%rbx
	andq	$-32, %rsp
	subq	$1280, %rsp
	movq	%rdx, 24(%rsp)
	movq	%rsi, %r14
	movq	%rdi, %r15
	movq	56(%rdi), %rcx
	movl	48(%rdi), %eax
	leaq	24(%rdi), %r8
	movq	16(%rdi), %rsi
	movq	40(%rdi), %rdx
	movq	%rdi, 32(%rsp)
	movq	%rsi, 40(%rsp)
	movq	%r8, 48(%rsp)
	movq	%rdx, 56(%rsp)
	vxorps	%xmm0, %xmm0, %xmm0
	vmovups	%xmm0, 64(%rsp)
	vmovups	%xmm0, 73(%rsp)
	leaq	1(%rcx), %rdi
	movb	$2, 89(%rsp)
	movw	$0, 90(%rsp)
	movl	%eax, 92(%rsp)
	movq	%rcx, 96(%rsp)
	movw	$16384, 104(%rsp)
	movq	$0, 106(%rsp)
	movq	$0, 112(%rsp)
	movq	%r14, 120(%rsp)
	movq	%rax, 128(%rsp)
	movq	%r15, 136(%rsp)
	movq	%rsi, 144(%rsp)
	movq	%r8, 152(%rsp)
	movq	%rdx, 160(%rsp)
	vmovups	%xmm0, 177(%rsp)
	vmovups	%xmm0, 168(%rsp)
	movb	$2, 193(%rsp)
	movw	$0, 194(%rsp)
	movl	%eax, 196(%rsp)
	movq	%rdi, 200(%rsp)
	leaq	(%r14,%rax), %rdi
	movw	$16384, 208(%rsp)
	movq	$0, 210(%rsp)
	movq	$0, 216(%rsp)
	movq	%rdi, 224(%rsp)
	movq	%rax, 232(%rsp)
	movq	%r15, 240(%rsp)
	movq	%rsi, 248(%rsp)
	movq	%r8, 256(%rsp)
	movq	%rdx, 264(%rsp)
	vmovups	%xmm0, 281(%rsp)
	vmovups	%xmm0, 272(%rsp)
	leaq	2(%rcx), %rdi
	movb	$2, 297(%rsp)
	movw	$0, 298(%rsp)
	movl	%eax, 300(%rsp)
	movq	%rdi, 304(%rsp)
	leaq	(%r14,%rax,2), %rdi
	movw	$16384, 312(%rsp)
	movq	$0, 314(%rsp)
	movq	$0, 320(%rsp)
	movq	%rdi, 328(%rsp)
	movq	%rax, 336(%rsp)
	movq	%r15, 344(%rsp)
	movq	%rsi, 352(%rsp)
	movq	%r8, 360(%rsp)
	movq	%rdx, 368(%rsp)
	addq	$3, %rcx
	vmovups	%xmm0, 376(%rsp)
	vmovups	%xmm0, 385(%rsp)
	movb	$2, 401(%rsp)
	movw	$0, 402(%rsp)
	movl	%eax, 404(%rsp)
	movq	%rcx, 408(%rsp)
	leaq	(%rax,%rax,2), %rcx
	addq	%r14, %rcx
	movw	$16384, 416(%rsp)
	movq	$0, 424(%rsp)
	movq	$0, 418(%rsp)
	movq	%rcx, 432(%rsp)
	movq	%rax, 440(%rsp)
	vxorps	%xmm0, %xmm0, %xmm0
	vmovaps	%ymm0, 448(%rsp)
	vmovaps	%ymm0, 480(%rsp)
	vmovaps	%ymm0, 512(%rsp)
	vmovaps	%ymm0, 544(%rsp)
	vmovaps	%ymm0, 576(%rsp)
	vmovaps	%ymm0, 608(%rsp)
	vmovaps	%ymm0, 640(%rsp)
	vmovaps	%ymm0, 672(%rsp)
	leaq	448(%rsp), %rdi
	leaq	32(%rsp), %rdx
	movl	$64, %esi
	vzeroupper
	callq	blake2_compress..many..blake2b..outputs..64_1_v3
	vxorps	%xmm0, %xmm0, %xmm0
	vmovaps	%ymm0, 992(%rsp)
	vmovaps	%ymm0, 1024(%rsp)
	vmovaps	%ymm0, 1056(%rsp)
	vmovaps	%ymm0, 1088(%rsp)
	vmovaps	%ymm0, 1120(%rsp)
	vmovaps	%ymm0, 1152(%rsp)
	vmovaps	%ymm0, 1184(%rsp)
	vmovaps	%ymm0, 1216(%rsp)
	vmovaps	448(%rsp), %ymm0
	vmovaps	480(%rsp), %ymm1
	vmovaps	512(%rsp), %ymm2
	vmovaps	544(%rsp), %ymm3
	vmovaps	%ymm0, 736(%rsp)
	vmovaps	%ymm1, 768(%rsp)
	vmovaps	%ymm2, 800(%rsp)
	vmovaps	%ymm3, 832(%rsp)
	vmovaps	576(%rsp), %ymm0
	vmovaps	%ymm0, 864(%rsp)
	vmovaps	608(%rsp), %ymm0
	vmovaps	%ymm0, 896(%rsp)
	vmovaps	640(%rsp), %ymm0
	vmovaps	%ymm0, 928(%rsp)
	vmovaps	672(%rsp), %ymm0
	vmovaps	%ymm0, 960(%rsp)
	movl	48(%r15), %r12d
	leaq	(,%r12,4), %rbx
	leaq	344(%r15), %r8
	leaq	488(%r15), %rdi
	movq	616(%r15), %rsi
	leaq	736(%rsp), %rdx
	movl	$256, %ecx
	vzeroupper
	callq	blake2_digest..buffer..digest_into..33c1e97afcdf8a5d_1_v3
	movq	%rax, 616(%r15)
	movq	56(%r15), %rax
	addq	$4, %rax
	movq	%rax, 56(%r15)
	vmovq	48(%r15), %xmm0
	movq	16(%r15), %rdx
	movq	40(%r15), %r13
	vxorps	%xmm1, %xmm1, %xmm1
	vmovaps	%ymm1, 32(%rsp)
	vmovd	.L1_v3_CPI115_4(%rip), %xmm1
	vpunpckldq	%xmm0, %xmm1, %xmm0
	vmovq	%rax, %xmm1
	vpunpcklqdq	%xmm1, %xmm0, %xmm0
	vpblendd	$240, .L1_v3_CPI115_1(%rip), %ymm0, %ymm0
	vmovdqa	%ymm0, 704(%rsp)
	leaq	32(%rsp), %rdi
	movq	%r15, %rsi
	vzeroupper
	vj_c_call	memcpy
	leaq	48(%rsp), %rdi
	leaq	24(%r15), %rsi
	movq	%r13, %rdx
	vj_c_call	memcpy
	vmovaps	32(%rsp), %ymm0
	vmovaps	704(%rsp), %ymm1
	vxorps	.L1_v3_CPI115_2(%rip), %ymm1, %ymm1
	vxorps	.L1_v3_CPI115_3(%rip), %ymm0, %ymm0
	vmovups	%ymm1, 64(%r15)
	vmovups	%ymm0, 96(%r15)
	vmovups	%ymm1, 128(%r15)
	vmovups	%ymm0, 160(%r15)
	vxorps	%xmm0, %xmm0, %xmm0
	vmovups	%ymm0, 192(%r15)
	vmovups	%ymm0, 224(%r15)
	vmovups	%ymm0, 256(%r15)
	vmovups	%ymm0, 288(%r15)
	vmovups	%ymm0, 312(%r15)
	leaq	(%r14,%r12,4), %rax
	movq	24(%rsp), %rdx
	subq	%rbx, %rdx
	leaq	-40(%rbp), %rsp
	popq	%rbx
	popq	%r12
	popq	%r13
	popq	%r14
	popq	%r15
	popq	%rbp
	vzeroupper
	retq
	vj_end	blake2_tree..hasher..TreeHasher..close_next..64_1_v3

	vj_export	vulfsjor_ffi_blake2b_count_1_v3
	movl	144(%rdi), %eax
	decl	%eax
	cmpl	$63, %eax
	ja	1f
	movl	136(%rdi), %eax
	cmpq	$128, %rax
	ja	1f
	movl	140(%rdi), %ecx
	cmpq	$128, %rcx
	ja	1f
	movq	128(%rdi), %rdx
	movl	%eax, %esi
	notl	%esi
	movslq	%esi, %rsi
	cmpq	%rsi, %rdx
	jbe	2f
1:
	xorl	%eax, %eax
	retq
2:
	addq	%rax, %rdx
	xorl	%eax, %eax
	subq	%rcx, %rdx
	cmovaeq	%rdx, %rax
	retq
	vj_end	vulfsjor_ffi_blake2b_count_1_v3

	vj_export	vulfsjor_ffi_blake2b_digest_size_1_v3
	movl	144(%rdi), %eax
	leal	-1(%rax), %ecx
	cmpl	$63, %ecx
	ja	1f
	movl	136(%rdi), %ecx
	cmpl	$128, %ecx
	ja	1f
	cmpl	$128, 140(%rdi)
	ja	1f
	notl	%ecx
	movslq	%ecx, %rcx
	xorl	%edx, %edx
	cmpq	%rcx, 128(%rdi)
	cmovaq	%rdx, %rax
	retq
1:
	xorl	%eax, %eax
	retq
	vj_end	vulfsjor_ffi_blake2b_digest_size_1_v3

	vj_export	vulfsjor_ffi_blake2b_final_1_v3
	xorl	%ecx, %ecx
	testq	%rsi, %rsi
	sete	%r8b
	movl	144(%rdi), %r9d
	leal	-1(%r9), %r10d
	movl	$-1, %eax
	cmpl	$63, %r10d
	ja	2f
	movl	136(%rdi), %r10d
	cmpl	$128, %r10d
	ja	2f
	pushq	%r14
	pushq	%rbx
	pushq	%rax
	movl	140(%rdi), %ebx
	cmpq	$128, %rbx
	ja	1f
	movq	128(%rdi), %r14
	notl	%r10d
	movslq	%r10d, %r10
	cmpq	%r10, %r14
	setbe	%r10b
	cmpq	%r9, %rdx
	sete	%dl
	andb	%r10b, %dl
	cmpb	$1, %dl
	jne	1f
	movb	%r8b, %cl
	shll	$12, %ecx
	addq	%rcx, %rsi
	callq	blake2_ffi..blake2b..finalize_1_v3
	xorl	%eax, %eax
	cmpq	%rbx, %r14
	jae	1f
	callq	blake2_digest..wiping..scrub_stack..1664_1_v3
	xorl	%eax, %eax
1:
	addq	$8, %rsp
	popq	%rbx
	popq	%r14
2:
	retq
	vj_end	vulfsjor_ffi_blake2b_final_1_v3

	vj_constants	32
	.p2align	5, 0x0
.L1_v3_CPI119_0:
	.quad	7640891576956012808
	.quad	-4942790177534073029
	.quad	4354685564936845355
	.quad	-6534734903238641935
.L1_v3_CPI119_1:
	.quad	5840696475078001361
	.quad	-7276294671716946913
	.quad	2270897969802886507
	.quad	6620516959819538809
	vj_export	vulfsjor_ffi_blake2b_init_param_1_v3
	xorl	%eax, %eax
	testq	%rsi, %rsi
	sete	%cl
	cmpq	$64, %rdx
	jne	1f
	movb	%cl, %al
	shll	$12, %eax
	movzbl	(%rsi,%rax), %ecx
	addb	$-65, %cl
	cmpb	$-64, %cl
	jb	1f
	cmpb	$64, 1(%rsi,%rax)
	jbe	2f
1:
	vxorps	%xmm0, %xmm0, %xmm0
	vmovups	%ymm0, 312(%rdi)
	vmovups	%ymm0, 288(%rdi)
	vmovups	%ymm0, 256(%rdi)
	vmovups	%ymm0, 224(%rdi)
	vmovups	%ymm0, 192(%rdi)
	vmovups	%ymm0, 160(%rdi)
	vmovups	%ymm0, 128(%rdi)
	vmovups	%ymm0, 96(%rdi)
	vmovups	%ymm0, 64(%rdi)
	vmovups	%ymm0, 32(%rdi)
	vmovups	%ymm0, (%rdi)
	movl	$-1, %eax
	vzeroupper
	retq
2:
	vmovdqu	(%rsi,%rax), %ymm0
	vmovups	32(%rsi,%rax), %ymm1
	vpxor	.L1_v3_CPI119_0(%rip), %ymm0, %ymm2
	vxorps	.L1_v3_CPI119_1(%rip), %ymm1, %ymm1
	vpextrb	$0, %xmm0, %eax
	vmovdqu	%ymm2, (%rdi)
	vmovups	%ymm1, 32(%rdi)
	vmovdqu	%ymm2, 64(%rdi)
	vmovups	%ymm1, 96(%rdi)
	vpxor	%xmm0, %xmm0, %xmm0
	vmovdqu	%xmm0, 128(%rdi)
	movl	%eax, 144(%rdi)
	vpxor	%xmm0, %xmm0, %xmm0
	vmovdqu	%ymm0, 148(%rdi)
	vmovdqu	%ymm0, 180(%rdi)
	vmovdqu	%ymm0, 212(%rdi)
	vmovdqu	%ymm0, 244(%rdi)
	vmovdqu	%ymm0, 276(%rdi)
	vmovdqu	%ymm0, 308(%rdi)
	movl	$0, 340(%rdi)
	xorl	%eax, %eax
	vzeroupper
	retq
	vj_end	vulfsjor_ffi_blake2b_init_param_1_v3

	vj_export	vulfsjor_ffi_blake2b_init_salt_personal_1_v3
	pushq	%rbx
	subq	$80, %rsp
	movq	%rcx, %rbx
	movq	104(%rsp), %rax
	movq	96(%rsp), %r10
	xorl	%ecx, %ecx
	testq	%rdx, %rdx
	sete	%cl
	shll	$12, %ecx
	addq	%rdx, %rcx
	xorl	%edx, %edx
	testq	%r8, %r8
	sete	%dl
	shll	$12, %edx
	addq	%r8, %rdx
	xorl	%r8d, %r8d
	testq	%r10, %r10
	sete	%r8b
	shll	$12, %r8d
	addq	%r10, %r8
	movq	%rsi, 24(%rsp)
	movq	%rcx, 32(%rsp)
	movq	%rbx, 40(%rsp)
	movq	%rdx, 48(%rsp)
	movq	%r9, 56(%rsp)
	movq	%r8, 64(%rsp)
	movq	%rax, 72(%rsp)
	movw	$257, (%rsp)
	vxorps	%xmm0, %xmm0, %xmm0
	vmovups	%xmm0, 2(%rsp)
	movq	$0, 16(%rsp)
	leaq	24(%rsp), %rsi
	movq	%rsp, %rdx
	callq	blake2_ffi..blake2b..initialize_1_v3
	testq	%rbx, %rbx
	je	1f
	movl	%eax, %ebx
	callq	blake2_digest..wiping..scrub_stack..1024_1_v3
	movl	%ebx, %eax
1:
	addq	$80, %rsp
	popq	%rbx
	retq
	vj_end	vulfsjor_ffi_blake2b_init_salt_personal_1_v3

	vj_export	vulfsjor_ffi_blake2b_init_key_1_v3
	pushq	%rbx
	subq	$80, %rsp
	testq	%rcx, %rcx
	je	1f
	xorl	%eax, %eax
	testq	%rdx, %rdx
	sete	%al
	shll	$12, %eax
	addq	%rdx, %rax
	movq	%rsi, 24(%rsp)
	movq	%rax, 32(%rsp)
	movq	%rcx, 40(%rsp)
	leaq	.L1_v3_static.2(%rip), %rax
	movq	%rax, 48(%rsp)
	movq	$0, 56(%rsp)
	movq	%rax, 64(%rsp)
	movq	$0, 72(%rsp)
	movw	$257, (%rsp)
	vxorps	%xmm0, %xmm0, %xmm0
	vmovups	%xmm0, 2(%rsp)
	movq	$0, 16(%rsp)
	leaq	24(%rsp), %rsi
	movq	%rsp, %rdx
	callq	blake2_ffi..blake2b..initialize_1_v3
	movl	%eax, %ebx
	callq	blake2_digest..wiping..scrub_stack..1024_1_v3
	movl	%ebx, %eax
	addq	$80, %rsp
	popq	%rbx
	retq
1:
	vxorps	%xmm0, %xmm0, %xmm0
	vmovups	%ymm0, 312(%rdi)
	vmovups	%ymm0, 288(%rdi)
	vmovups	%ymm0, 256(%rdi)
	vmovups	%ymm0, 224(%rdi)
	vmovups	%ymm0, 192(%rdi)
	vmovups	%ymm0, 160(%rdi)
	vmovups	%ymm0, 128(%rdi)
	vmovups	%ymm0, 96(%rdi)
	vmovups	%ymm0, 64(%rdi)
	vmovups	%ymm0, 32(%rdi)
	vmovups	%ymm0, (%rdi)
	movl	$-1, %ebx
	movl	%ebx, %eax
	addq	$80, %rsp
	popq	%rbx
	vzeroupper
	retq
	vj_end	vulfsjor_ffi_blake2b_init_key_1_v3

	vj_export	vulfsjor_ffi_blake2b_init_tree_1_v3
	pushq	%rbp
	pushq	%r14
	pushq	%rbx
	subq	$80, %rsp
	movq	128(%rsp), %rax
	movzbl	12(%rax), %r10d
	movzbl	13(%rax), %r11d
	movl	8(%rax), %ebx
	movq	(%rax), %r14
	movzbl	14(%rax), %ebp
	movzbl	15(%rax), %eax
	movb	%r10b, (%rsp)
	movb	%r11b, 1(%rsp)
	movw	$0, 2(%rsp)
	movl	%ebx, 4(%rsp)
	movq	%r14, 8(%rsp)
	movb	%bpl, 16(%rsp)
	movb	%al, 17(%rsp)
	movl	$0, 18(%rsp)
	movw	$0, 22(%rsp)
	testb	%r11b, %r11b
	setne	%r10b
	cmpb	$65, %al
	setb	%al
	testb	%al, %r10b
	je	1f
	movq	120(%rsp), %rax
	movq	112(%rsp), %r11
	xorl	%r10d, %r10d
	testq	%r11, %r11
	sete	%r10b
	shll	$12, %r10d
	addq	%r11, %r10
	xorl	%r11d, %r11d
	testq	%r8, %r8
	sete	%r11b
	shll	$12, %r11d
	addq	%r8, %r11
	xorl	%r8d, %r8d
	testq	%rdx, %rdx
	sete	%r8b
	shll	$12, %r8d
	addq	%rdx, %r8
	movq	%rsi, 24(%rsp)
	movq	%r8, 32(%rsp)
	movq	%rcx, 40(%rsp)
	movq	%r11, 48(%rsp)
	movq	%r9, 56(%rsp)
	movq	%r10, 64(%rsp)
	movq	%rax, 72(%rsp)
	leaq	24(%rsp), %rsi
	movq	%rsp, %rdx
	movq	%rcx, %rbx
	callq	blake2_ffi..blake2b..initialize_1_v3
	testq	%rbx, %rbx
	je	2f
	movl	%eax, %ebx
	callq	blake2_digest..wiping..scrub_stack..1024_1_v3
	movl	%ebx, %eax
	jmp	2f
1:
	vxorps	%xmm0, %xmm0, %xmm0
	vmovups	%ymm0, 312(%rdi)
	vmovups	%ymm0, 288(%rdi)
	vmovups	%ymm0, 256(%rdi)
	vmovups	%ymm0, 224(%rdi)
	vmovups	%ymm0, 192(%rdi)
	vmovups	%ymm0, 160(%rdi)
	vmovups	%ymm0, 128(%rdi)
	vmovups	%ymm0, 96(%rdi)
	vmovups	%ymm0, 64(%rdi)
	vmovups	%ymm0, 32(%rdi)
	vmovups	%ymm0, (%rdi)
	movl	$-1, %eax
2:
	addq	$80, %rsp
	popq	%rbx
	popq	%r14
	popq	%rbp
	vzeroupper
	retq
	vj_end	vulfsjor_ffi_blake2b_init_tree_1_v3

	vj_export	vulfsjor_ffi_blake2b_load_1_v3
	pushq	%rbp
	pushq	%r15
	pushq	%r14
	pushq	%r13
	pushq	%r12
	pushq	%rbx
	subq	$1064, %rsp
	movq	%rdi, %rbx
	xorl	%eax, %eax
	testq	%rsi, %rsi
	sete	%cl
	cmpq	$275, %rdx
	jne	1f
	movq	%rsi, %r14
	movb	%cl, %al
	shll	$12, %eax
	addq	%rax, %r14
	movq	8(%r14), %r13
	movq	16(%r14), %rax
	movq	%rax, 24(%rsp)
	movq	24(%r14), %r12
	movq	32(%r14), %rax
	movq	%rax, 152(%rsp)
	movq	40(%r14), %rdx
	movq	48(%r14), %rsi
	movq	56(%r14), %rdi
	movq	64(%r14), %r8
	movq	72(%r14), %r9
	movq	80(%r14), %r10
	movq	88(%r14), %r11
	movq	96(%r14), %r15
	movq	104(%r14), %rax
	movq	%rax, 144(%rsp)
	movq	112(%r14), %rax
	movq	%rax, 32(%rsp)
	movq	120(%r14), %rcx
	movq	128(%r14), %rax
	movq	%rax, 136(%rsp)
	movq	136(%r14), %rbp
	movzbl	145(%r14), %eax
	movl	%eax, 20(%rsp)
	movzbl	144(%r14), %eax
	movl	%eax, 16(%rsp)
	movzbl	146(%r14), %eax
	movl	%eax, 12(%rsp)
	movq	%r13, 56(%rsp)
	movq	%r13, 160(%rsp)
	movq	24(%rsp), %rax
	movq	%rax, 168(%rsp)
	movq	%r12, 64(%rsp)
	movq	%r12, 176(%rsp)
	movq	152(%rsp), %r12
	movq	%r12, 184(%rsp)
	movq	%rdx, 128(%rsp)
	movq	%rdx, 192(%rsp)
	movq	%rsi, 120(%rsp)
	movq	%rsi, 200(%rsp)
	movq	%rdi, 112(%rsp)
	movq	%rdi, 208(%rsp)
	movq	%r8, 104(%rsp)
	movq	%r8, 216(%rsp)
	movq	%r9, 96(%rsp)
	movq	%r9, 224(%rsp)
	movq	%r10, 88(%rsp)
	movq	%r10, 232(%rsp)
	movq	%r11, 80(%rsp)
	movq	%r11, 240(%rsp)
	movq	%r15, 72(%rsp)
	movq	%r15, 248(%rsp)
	movq	144(%rsp), %r15
	movq	%r15, 256(%rsp)
	movq	32(%rsp), %rax
	movq	%rax, 264(%rsp)
	movq	136(%rsp), %r13
	movq	%rcx, 48(%rsp)
	movq	%rcx, 272(%rsp)
	movq	%r13, 280(%rsp)
	movq	%rbp, 40(%rsp)
	movq	%rbp, 288(%rsp)
	movl	20(%rsp), %ebp
	movl	%ebp, 296(%rsp)
	movl	$0, 300(%rsp)
	movl	16(%rsp), %eax
	movl	%eax, 304(%rsp)
	movl	12(%rsp), %eax
	movl	%eax, 308(%rsp)
	vmovups	147(%r14), %ymm0
	vmovups	179(%r14), %ymm1
	vmovups	211(%r14), %ymm2
	vmovups	243(%r14), %ymm3
	vmovups	%ymm3, 408(%rsp)
	vmovups	%ymm2, 376(%rsp)
	vmovups	%ymm1, 344(%rsp)
	vmovups	%ymm0, 312(%rsp)
	vxorps	%xmm0, %xmm0, %xmm0
	vmovups	%ymm0, 440(%rsp)
	vmovups	%ymm0, 472(%rsp)
	leaq	788(%rsp), %rdi
	leaq	160(%rsp), %rsi
	vzeroupper
	callq	blake2_state..blake2b..State..save_1_v3
	cmpb	$1, 788(%rsp)
	jne	1f
	leaq	789(%rsp), %rsi
	leaq	512(%rsp), %rdi
	movl	$275, %edx
	vj_c_call	memcpy
	movl	(%r14), %eax
	cmpl	512(%rsp), %eax
	jne	1f
	leaq	512(%rsp), %rdx
	movl	$275, %esi
	movq	%r14, %rdi
	callq	core..cmp..slices..groups_equal..i8.31.core..cmp..numbers..U8PartialEq_1_v3
	testb	%al, %al
	je	1f
	addq	$147, %r14
	vmovups	(%r14), %ymm0
	vmovups	32(%r14), %ymm1
	vmovups	64(%r14), %ymm2
	vmovups	96(%r14), %ymm3
	vmovups	%ymm0, 160(%rsp)
	vmovups	%ymm1, 192(%rsp)
	vmovups	%ymm2, 224(%rsp)
	vmovups	%ymm3, 256(%rsp)
	movq	56(%rsp), %rax
	movq	%rax, (%rbx)
	movq	24(%rsp), %rax
	movq	%rax, 8(%rbx)
	movq	64(%rsp), %rax
	movq	%rax, 16(%rbx)
	movq	%r12, 24(%rbx)
	movq	128(%rsp), %rax
	movq	%rax, 32(%rbx)
	movq	120(%rsp), %rax
	movq	%rax, 40(%rbx)
	movq	112(%rsp), %rax
	movq	%rax, 48(%rbx)
	movq	104(%rsp), %rax
	movq	%rax, 56(%rbx)
	movq	96(%rsp), %rax
	movq	%rax, 64(%rbx)
	movq	88(%rsp), %rax
	movq	%rax, 72(%rbx)
	movq	80(%rsp), %rax
	movq	%rax, 80(%rbx)
	movq	72(%rsp), %rax
	movq	%rax, 88(%rbx)
	movq	%r15, 96(%rbx)
	movq	32(%rsp), %rax
	movq	%rax, 104(%rbx)
	movq	48(%rsp), %rax
	movq	%rax, 112(%rbx)
	movq	%r13, 120(%rbx)
	movq	40(%rsp), %rax
	movq	%rax, 128(%rbx)
	movl	%ebp, 136(%rbx)
	movl	$0, 140(%rbx)
	movl	16(%rsp), %eax
	movl	%eax, 144(%rbx)
	movl	12(%rsp), %eax
	movl	%eax, 148(%rbx)
	vmovups	160(%rsp), %ymm0
	vmovups	192(%rsp), %ymm1
	vmovups	224(%rsp), %ymm2
	vmovups	256(%rsp), %ymm3
	vmovups	%ymm3, 248(%rbx)
	vmovups	%ymm2, 216(%rbx)
	vmovups	%ymm1, 184(%rbx)
	vmovups	%ymm0, 152(%rbx)
	vxorps	%xmm0, %xmm0, %xmm0
	vmovups	%ymm0, 312(%rbx)
	vmovups	%ymm0, 280(%rbx)
	xorl	%eax, %eax
	jmp	2f
1:
	vxorps	%xmm0, %xmm0, %xmm0
	vmovups	%ymm0, 312(%rbx)
	vmovups	%ymm0, 288(%rbx)
	vmovups	%ymm0, 256(%rbx)
	vmovups	%ymm0, 224(%rbx)
	vmovups	%ymm0, 192(%rbx)
	vmovups	%ymm0, 160(%rbx)
	vmovups	%ymm0, 128(%rbx)
	vmovups	%ymm0, 96(%rbx)
	vmovups	%ymm0, 64(%rbx)
	vmovups	%ymm0, 32(%rbx)
	vmovups	%ymm0, (%rbx)
	movl	$-1, %eax
2:
	addq	$1064, %rsp
	popq	%rbx
	popq	%r12
	popq	%r13
	popq	%r14
	popq	%r15
	popq	%rbp
	vzeroupper
	retq
	vj_end	vulfsjor_ffi_blake2b_load_1_v3

	vj_export	vulfsjor_ffi_blake2b_reset_1_v3
	movl	144(%rdi), %ecx
	decl	%ecx
	movl	$-1, %eax
	cmpl	$63, %ecx
	ja	1f
	movl	136(%rdi), %edx
	cmpl	$128, %edx
	ja	1f
	movl	140(%rdi), %ecx
	cmpl	$128, %ecx
	ja	1f
	notl	%edx
	movslq	%edx, %rdx
	cmpq	%rdx, 128(%rdi)
	ja	1f
	vmovups	64(%rdi), %ymm0
	vmovups	96(%rdi), %ymm1
	vmovups	280(%rdi), %ymm2
	vmovups	312(%rdi), %ymm3
	vmovups	%ymm1, 32(%rdi)
	vmovups	%ymm0, (%rdi)
	movq	$0, 128(%rdi)
	movl	%ecx, 136(%rdi)
	vxorps	%xmm0, %xmm0, %xmm0
	vmovups	%ymm0, 216(%rdi)
	vmovups	%ymm0, 248(%rdi)
	vmovups	%ymm2, 152(%rdi)
	vmovups	%ymm3, 184(%rdi)
	xorl	%eax, %eax
1:
	vzeroupper
	retq
	vj_end	vulfsjor_ffi_blake2b_reset_1_v3

	vj_export	vulfsjor_ffi_blake2b_save_1_v3
	pushq	%rbp
	pushq	%r15
	pushq	%r14
	pushq	%rbx
	subq	$280, %rsp
	movq	%rsi, %rbx
	xorl	%r14d, %r14d
	testq	%rsi, %rsi
	sete	%r15b
	movl	$-1, %ebp
	cmpq	$275, %rdx
	jne	1f
	movq	%rdi, %rsi
	leaq	4(%rsp), %rdi
	callq	blake2_state..blake2b..State..save_1_v3
	cmpb	$1, 4(%rsp)
	jne	1f
	movb	%r15b, %r14b
	shll	$12, %r14d
	addq	%r14, %rbx
	leaq	5(%rsp), %rsi
	movl	$275, %edx
	movq	%rbx, %rdi
	vj_c_call	memcpy
	xorl	%ebp, %ebp
1:
	movl	%ebp, %eax
	addq	$280, %rsp
	popq	%rbx
	popq	%r14
	popq	%r15
	popq	%rbp
	retq
	vj_end	vulfsjor_ffi_blake2b_save_1_v3

	vj_export	vulfsjor_ffi_blake2b_set_last_node_1_v3
	movl	144(%rdi), %ecx
	decl	%ecx
	movl	$-1, %eax
	cmpl	$63, %ecx
	ja	1f
	movl	136(%rdi), %ecx
	cmpl	$128, %ecx
	ja	1f
	cmpl	$128, 140(%rdi)
	ja	1f
	notl	%ecx
	movslq	%ecx, %rcx
	cmpq	%rcx, 128(%rdi)
	ja	1f
	xorl	%eax, %eax
	testl	%esi, %esi
	setne	%al
	movl	%eax, 148(%rdi)
	xorl	%eax, %eax
1:
	retq
	vj_end	vulfsjor_ffi_blake2b_set_last_node_1_v3

	vj_export	vulfsjor_ffi_blake2b_state_size_1_v3
	movl	$344, %eax
	retq
	vj_end	vulfsjor_ffi_blake2b_state_size_1_v3

	vj_export	vulfsjor_ffi_blake2b_update_1_v3
	xorl	%r8d, %r8d
	testq	%rsi, %rsi
	sete	%r9b
	movl	144(%rdi), %ecx
	decl	%ecx
	movl	$-1, %eax
	cmpl	$63, %ecx
	ja	6f
	movl	136(%rdi), %ecx
	cmpq	$128, %rcx
	ja	6f
	movl	140(%rdi), %r10d
	cmpq	$128, %r10
	ja	6f
	pushq	%rbx
	movq	128(%rdi), %r11
	movl	%ecx, %ebx
	notl	%ebx
	movslq	%ebx, %rbx
	cmpq	%rbx, %r11
	ja	5f
	leaq	(%r11,%rcx), %rbx
	addq	%rdx, %rbx
	jb	5f
	movb	%r9b, %r8b
	shll	$12, %r8d
	addq	%r8, %rsi
	cmpq	%r10, %r11
	jae	1f
	callq	blake2_ffi..blake2b..update_scrubbed_1_v3
	jmp	4f
1:
	cmpq	$1, %rdx
	jne	2f
	cmpl	$128, %ecx
	jne	3f
	movl	$1, %edx
2:
	callq	blake2_state..blake2b..State..absorb_blocks_1_v3
	jmp	4f
3:
	movzbl	(%rsi), %eax
	movb	%al, 152(%rdi,%rcx)
	leal	1(%rcx), %eax
	movl	%eax, 136(%rdi)
4:
	xorl	%eax, %eax
5:
	popq	%rbx
6:
	retq
	vj_end	vulfsjor_ffi_blake2b_update_1_v3

	vj_export	vulfsjor_ffi_blake2b_update_many_1_v3
	xorl	%r8d, %r8d
	testq	%rdi, %rdi
	sete	%r11b
	xorl	%r9d, %r9d
	testq	%rdx, %rdx
	sete	%r10b
	movl	$-1, %eax
	cmpq	%rsi, %rcx
	jne	7f
	pushq	%rbp
	pushq	%r15
	pushq	%r14
	pushq	%rbx
	pushq	%rax
	movb	%r11b, %r8b
	shll	$12, %r8d
	movb	%r10b, %r9b
	shll	$12, %r9d
	testq	%rcx, %rcx
	je	2f
	leaq	(%r9,%rdx), %rsi
	addq	$8, %rsi
	leaq	(%r8,%rdi), %r10
	addq	$144, %r10
	movq	%rcx, %r11
	.p2align	4
1:
	movl	(%r10), %ebx
	decl	%ebx
	cmpl	$63, %ebx
	ja	6f
	movl	-8(%r10), %ebx
	cmpq	$128, %rbx
	ja	6f
	cmpl	$128, -4(%r10)
	ja	6f
	movq	-16(%r10), %r14
	movl	%ebx, %ebp
	notl	%ebp
	movslq	%ebp, %r15
	cmpq	%r15, %r14
	ja	6f
	addq	%rbx, %r14
	addq	(%rsi), %r14
	jb	6f
	addq	$16, %rsi
	addq	$344, %r10
	decq	%r11
	jne	1b
2:
	leaq	(%rdi,%r8), %rax
	addq	%r9, %rdx
	addq	%r8, %rdi
	addq	$140, %rdi
	movq	$-1, %rsi
	.p2align	4
3:
	incq	%rsi
	cmpq	%rsi, %rcx
	je	4f
	movl	(%rdi), %r8d
	cmpq	%r8, -12(%rdi)
	leaq	344(%rdi), %rdi
	jae	3b
	movq	%rax, %rdi
	movq	%rcx, %rsi
	callq	blake2_ffi..several..blake2b..update_in_frame_1_v3
	callq	blake2_digest..wiping..scrub_stack..9216_1_v3
	jmp	5f
4:
	movq	%rax, %rdi
	movq	%rcx, %rsi
	callq	blake2_ffi..several..blake2b..update_in_frame_1_v3
5:
	xorl	%eax, %eax
6:
	addq	$8, %rsp
	popq	%rbx
	popq	%r14
	popq	%r15
	popq	%rbp
7:
	retq
	vj_end	vulfsjor_ffi_blake2b_update_many_1_v3

	vj_export	vulfsjor_ffi_blake2b_verify_1_v3
	xorl	%ecx, %ecx
	testq	%rsi, %rsi
	sete	%r8b
	movl	144(%rdi), %r9d
	decl	%r9d
	movl	$-1, %eax
	cmpl	$63, %r9d
	ja	3f
	movl	136(%rdi), %r9d
	cmpl	$128, %r9d
	ja	3f
	pushq	%r15
	pushq	%r14
	pushq	%r12
	pushq	%rbx
	pushq	%rax
	movl	140(%rdi), %r15d
	cmpq	$128, %r15
	ja	2f
	movq	128(%rdi), %r12
	notl	%r9d
	movslq	%r9d, %r9
	cmpq	%r9, %r12
	ja	2f
	movzbl	65(%rdi), %r9d
	shll	$8, %r9d
	cmpl	$51456, %r9d
	je	2f
	movb	%r8b, %cl
	shll	$12, %ecx
	addq	%rcx, %rsi
	movq	%rdi, %r14
	callq	blake2_ffi..blake2b..is_digest_of_1_v3
	vxorps	%xmm0, %xmm0, %xmm0
	vmovups	%ymm0, (%r14)
	vmovups	%ymm0, 32(%r14)
	vmovups	%ymm0, 64(%r14)
	vmovups	%ymm0, 96(%r14)
	vmovups	%ymm0, 128(%r14)
	vmovups	%ymm0, 160(%r14)
	vmovups	%ymm0, 192(%r14)
	vmovups	%ymm0, 224(%r14)
	vmovups	%ymm0, 256(%r14)
	vmovups	%ymm0, 288(%r14)
	movl	%eax, %ebx
	vmovups	%ymm0, 312(%r14)
	cmpq	%r15, %r12
	jae	1f
	vzeroupper
	callq	blake2_digest..wiping..scrub_stack..1664_1_v3
1:
	movzbl	%bl, %eax
	decl	%eax
2:
	addq	$8, %rsp
	popq	%rbx
	popq	%r12
	popq	%r14
	popq	%r15
3:
	vzeroupper
	retq
	vj_end	vulfsjor_ffi_blake2b_verify_1_v3

	vj_export	vulfsjor_ffi_blake2b_wipe_1_v3
	vxorps	%xmm0, %xmm0, %xmm0
	vmovups	%ymm0, 312(%rdi)
	vmovups	%ymm0, 288(%rdi)
	vmovups	%ymm0, 256(%rdi)
	vmovups	%ymm0, 224(%rdi)
	vmovups	%ymm0, 192(%rdi)
	vmovups	%ymm0, 160(%rdi)
	vmovups	%ymm0, 128(%rdi)
	vmovups	%ymm0, 96(%rdi)
	vmovups	%ymm0, 64(%rdi)
	vmovups	%ymm0, 32(%rdi)
	vmovups	%ymm0, (%rdi)
	vzeroupper
	retq
	vj_end	vulfsjor_ffi_blake2b_wipe_1_v3

	vj_export	vulfsjor_ffi_blake2bp_count_1_v3
	movq	1496(%rdi), %rax
	decq	%rax
	cmpq	$63, %rax
	ja	1f
	movq	264(%rdi), %rax
	cmpq	$896, %rax
	ja	1f
	movq	256(%rdi), %rcx
	movq	%rax, %rdx
	notq	%rdx
	shrq	$2, %rdx
	cmpq	%rdx, %rcx
	ja	1f
	movq	1488(%rdi), %rdx
	cmpq	$512, %rdx
	ja	1f
	leaq	(%rax,%rcx,4), %rcx
	xorl	%eax, %eax
	subq	%rdx, %rcx
	cmovaeq	%rcx, %rax
	retq
1:
	xorl	%eax, %eax
	retq
	vj_end	vulfsjor_ffi_blake2bp_count_1_v3

	vj_export	vulfsjor_ffi_blake2bp_digest_size_1_v3
	movq	1496(%rdi), %rcx
	leaq	-1(%rcx), %rax
	cmpq	$63, %rax
	ja	1f
	movq	264(%rdi), %rax
	cmpq	$896, %rax
	ja	1f
	notq	%rax
	shrq	$2, %rax
	cmpq	%rax, 256(%rdi)
	jbe	2f
1:
	xorl	%eax, %eax
	retq
2:
	xorl	%eax, %eax
	cmpq	$513, 1488(%rdi)
	cmovbq	%rcx, %rax
	retq
	vj_end	vulfsjor_ffi_blake2bp_digest_size_1_v3

	vj_export	vulfsjor_ffi_blake2bp_final_1_v3
	xorl	%ecx, %ecx
	testq	%rsi, %rsi
	sete	%r8b
	movq	1496(%rdi), %r10
	leaq	-1(%r10), %r9
	movl	$-1, %eax
	cmpq	$63, %r9
	ja	4f
	movq	264(%rdi), %r11
	cmpq	$896, %r11
	ja	4f
	movq	256(%rdi), %r9
	notq	%r11
	shrq	$2, %r11
	cmpq	%r11, %r9
	ja	4f
	pushq	%rbx
	movq	1488(%rdi), %rbx
	cmpq	$513, %rbx
	setae	%r11b
	cmpq	%r10, %rdx
	setne	%dl
	orb	%r11b, %dl
	jne	3f
	movb	%r8b, %cl
	shll	$12, %ecx
	addq	%rcx, %rsi
	testq	%r9, %r9
	je	1f
	callq	blake2_ffi..blake2bp..finalize_1_v3
	jmp	2f
1:
	callq	blake2_ffi..blake2bp..finalize_1_v3
	xorl	%eax, %eax
	testq	%rbx, %rbx
	je	3f
	callq	blake2_digest..wiping..scrub_stack..5632_1_v3
2:
	xorl	%eax, %eax
3:
	popq	%rbx
4:
	retq
	vj_end	vulfsjor_ffi_blake2bp_final_1_v3

	vj_export	vulfsjor_ffi_blake2bp_init_salt_personal_1_v3
	pushq	%rbx
	subq	$16, %rsp
	movq	%rcx, %rbx
	movq	40(%rsp), %rax
	movq	32(%rsp), %rcx
	xorl	%r10d, %r10d
	testq	%rdx, %rdx
	sete	%r10b
	shll	$12, %r10d
	addq	%r10, %rdx
	xorl	%r10d, %r10d
	testq	%r8, %r8
	sete	%r10b
	shll	$12, %r10d
	addq	%r10, %r8
	xorl	%r10d, %r10d
	testq	%rcx, %rcx
	sete	%r10b
	shll	$12, %r10d
	addq	%rcx, %r10
	movq	%rax, 8(%rsp)
	movq	%r10, (%rsp)
	movq	%rbx, %rcx
	callq	blake2_ffi..blake2bp..initialize_1_v3
	testq	%rbx, %rbx
	je	1f
	movl	%eax, %ebx
	callq	blake2_digest..wiping..scrub_stack..5120_1_v3
	movl	%ebx, %eax
1:
	addq	$16, %rsp
	popq	%rbx
	retq
	vj_end	vulfsjor_ffi_blake2bp_init_salt_personal_1_v3

	vj_export	vulfsjor_ffi_blake2bp_init_key_1_v3
	pushq	%rbx
	subq	$16, %rsp
	testq	%rcx, %rcx
	je	1f
	xorl	%eax, %eax
	testq	%rdx, %rdx
	sete	%al
	shll	$12, %eax
	addq	%rdx, %rax
	leaq	.L1_v3_static.2(%rip), %r8
	movq	%r8, (%rsp)
	movq	$0, 8(%rsp)
	movq	%rax, %rdx
	xorl	%r9d, %r9d
	callq	blake2_ffi..blake2bp..initialize_1_v3
	movl	%eax, %ebx
	callq	blake2_digest..wiping..scrub_stack..5120_1_v3
	movl	%ebx, %eax
	addq	$16, %rsp
	popq	%rbx
	retq
1:
	movl	$1632, %edx
	xorl	%esi, %esi
	vj_c_call	memset
	movl	$-1, %eax
	addq	$16, %rsp
	popq	%rbx
	retq
	vj_end	vulfsjor_ffi_blake2bp_init_key_1_v3

	vj_export	vulfsjor_ffi_blake2bp_reset_1_v3
	movq	1496(%rdi), %rcx
	decq	%rcx
	movl	$-1, %eax
	cmpq	$63, %rcx
	ja	2f
	movq	264(%rdi), %rcx
	cmpq	$896, %rcx
	ja	2f
	notq	%rcx
	shrq	$2, %rcx
	cmpq	%rcx, 256(%rdi)
	ja	2f
	pushq	%rbx
	movq	1488(%rdi), %rbx
	cmpq	$512, %rbx
	ja	1f
	callq	blake2_ffi..blake2bp..reset_in_frame_1_v3
	xorl	%eax, %eax
	testq	%rbx, %rbx
	je	1f
	callq	blake2_digest..wiping..scrub_stack..1792_1_v3
	xorl	%eax, %eax
1:
	popq	%rbx
2:
	retq
	vj_end	vulfsjor_ffi_blake2bp_reset_1_v3

	vj_export	vulfsjor_ffi_blake2bp_state_size_1_v3
	movl	$1632, %eax
	retq
	vj_end	vulfsjor_ffi_blake2bp_state_size_1_v3

	vj_export	vulfsjor_ffi_blake2bp_update_1_v3
	xorl	%ecx, %ecx
	testq	%rsi, %rsi
	sete	%r8b
	movq	1496(%rdi), %r9
	decq	%r9
	movl	$-1, %eax
	cmpq	$63, %r9
	ja	3f
	movq	264(%rdi), %r11
	cmpq	$896, %r11
	ja	3f
	movq	256(%rdi), %r9
	movq	%r11, %r10
	notq	%r10
	shrq	$2, %r10
	cmpq	%r10, %r9
	ja	3f
	movq	1488(%rdi), %r10
	cmpq	$512, %r10
	ja	3f
	leaq	(%r11,%r9,4), %r11
	addq	%rdx, %r11
	jb	3f
	pushq	%rax
	movb	%r8b, %cl
	shll	$12, %ecx
	addq	%rcx, %rsi
	testq	%r9, %r9
	setne	%al
	testq	%r10, %r10
	sete	%cl
	orb	%al, %cl
	je	1f
	vj_call	blake2_parallel..lanes..blake2bp..Lanes..update_1_v3
	jmp	2f
1:
	callq	blake2_ffi..blake2bp..update_scrubbed_1_v3
2:
	xorl	%eax, %eax
	addq	$8, %rsp
3:
	retq
	vj_end	vulfsjor_ffi_blake2bp_update_1_v3

	vj_export	vulfsjor_ffi_blake2bp_verify_1_v3
	xorl	%ecx, %ecx
	testq	%rsi, %rsi
	sete	%r8b
	movq	1496(%rdi), %r9
	decq	%r9
	movl	$-1, %eax
	cmpq	$63, %r9
	ja	3f
	movq	264(%rdi), %r9
	cmpq	$896, %r9
	ja	3f
	pushq	%r15
	pushq	%r14
	pushq	%rbx
	movq	256(%rdi), %r15
	notq	%r9
	shrq	$2, %r9
	cmpq	%r9, %r15
	ja	2f
	movq	$-513, %r9
	addq	1488(%rdi), %r9
	cmpq	$-512, %r9
	jb	2f
	movb	%r8b, %cl
	shll	$12, %ecx
	addq	%rcx, %rsi
	movq	%rdi, %r14
	callq	blake2_ffi..blake2bp..is_digest_of_1_v3
	movl	%eax, %ebx
	movl	$1632, %edx
	movq	%r14, %rdi
	xorl	%esi, %esi
	vj_c_call	memset
	testq	%r15, %r15
	jne	1f
	callq	blake2_digest..wiping..scrub_stack..5632_1_v3
1:
	movzbl	%bl, %eax
	decl	%eax
2:
	popq	%rbx
	popq	%r14
	popq	%r15
3:
	retq
	vj_end	vulfsjor_ffi_blake2bp_verify_1_v3

	vj_export	vulfsjor_ffi_blake2bp_wipe_1_v3
	movl	$1632, %edx
	xorl	%esi, %esi
	vj_c_jump	memset
	vj_end	vulfsjor_ffi_blake2bp_wipe_1_v3

	vj_export	vulfsjor_ffi_blake2s_count_1_v3
	movzwl	76(%rdi), %eax
	decl	%eax
	cmpw	$31, %ax
	ja	1f
	movzwl	72(%rdi), %eax
	cmpq	$64, %rax
	ja	1f
	movzwl	74(%rdi), %ecx
	cmpq	$64, %rcx
	ja	1f
	movq	64(%rdi), %rdx
	movl	%eax, %esi
	notl	%esi
	movswq	%si, %rsi
	cmpq	%rsi, %rdx
	jbe	2f
1:
	xorl	%eax, %eax
	retq
2:
	addq	%rax, %rdx
	xorl	%eax, %eax
	subq	%rcx, %rdx
	cmovaeq	%rdx, %rax
	retq
	vj_end	vulfsjor_ffi_blake2s_count_1_v3

	vj_export	vulfsjor_ffi_blake2s_digest_size_1_v3
	movzwl	76(%rdi), %eax
	leal	-1(%rax), %ecx
	cmpw	$31, %cx
	ja	1f
	movzwl	72(%rdi), %ecx
	cmpw	$64, %cx
	ja	1f
	cmpw	$64, 74(%rdi)
	ja	1f
	notl	%ecx
	movswq	%cx, %rcx
	xorl	%edx, %edx
	cmpq	%rcx, 64(%rdi)
	cmovaq	%rdx, %rax
	retq
1:
	xorl	%eax, %eax
	retq
	vj_end	vulfsjor_ffi_blake2s_digest_size_1_v3

	vj_export	vulfsjor_ffi_blake2s_final_1_v3
	xorl	%ecx, %ecx
	testq	%rsi, %rsi
	sete	%r8b
	movzwl	76(%rdi), %r9d
	leal	-1(%r9), %r10d
	movl	$-1, %eax
	cmpw	$31, %r10w
	ja	2f
	movzwl	72(%rdi), %r10d
	cmpw	$64, %r10w
	ja	2f
	pushq	%r14
	pushq	%rbx
	pushq	%rax
	movzwl	74(%rdi), %ebx
	cmpq	$64, %rbx
	ja	1f
	movq	64(%rdi), %r14
	notl	%r10d
	movswq	%r10w, %r10
	cmpq	%r10, %r14
	setbe	%r10b
	cmpq	%r9, %rdx
	sete	%dl
	andb	%r10b, %dl
	cmpb	$1, %dl
	jne	1f
	movb	%r8b, %cl
	shll	$12, %ecx
	addq	%rcx, %rsi
	callq	blake2_ffi..blake2s..finalize_1_v3
	xorl	%eax, %eax
	cmpq	%rbx, %r14
	jae	1f
	callq	blake2_digest..wiping..scrub_stack..768_1_v3
	xorl	%eax, %eax
1:
	addq	$8, %rsp
	popq	%rbx
	popq	%r14
2:
	retq
	vj_end	vulfsjor_ffi_blake2s_final_1_v3

	vj_constants	32
	.p2align	5, 0x0
.L1_v3_CPI145_0:
	.long	1779033703
	.long	3144134277
	.long	1013904242
	.long	2773480762
	.long	1359893119
	.long	2600822924
	.long	528734635
	.long	1541459225
	vj_export	vulfsjor_ffi_blake2s_init_param_1_v3
	xorl	%eax, %eax
	testq	%rsi, %rsi
	sete	%cl
	cmpq	$32, %rdx
	jne	1f
	movb	%cl, %al
	shll	$12, %eax
	movzbl	(%rsi,%rax), %ecx
	addb	$-33, %cl
	cmpb	$-32, %cl
	jb	1f
	cmpb	$32, 1(%rsi,%rax)
	jbe	2f
1:
	vxorps	%xmm0, %xmm0, %xmm0
	vmovups	%ymm0, 144(%rdi)
	vmovups	%ymm0, 128(%rdi)
	vmovups	%ymm0, 96(%rdi)
	vmovups	%ymm0, 64(%rdi)
	vmovups	%ymm0, 32(%rdi)
	vmovups	%ymm0, (%rdi)
	movl	$-1, %eax
	vzeroupper
	retq
2:
	vmovdqu	(%rsi,%rax), %xmm0
	vpextrb	$0, %xmm0, %ecx
	vmovups	(%rsi,%rax), %ymm0
	vxorps	.L1_v3_CPI145_0(%rip), %ymm0, %ymm0
	vmovups	%ymm0, (%rdi)
	vmovups	%ymm0, 32(%rdi)
	movq	$0, 64(%rdi)
	movl	$0, 72(%rdi)
	movw	%cx, 76(%rdi)
	vxorps	%xmm0, %xmm0, %xmm0
	vmovups	%ymm0, 78(%rdi)
	vmovups	%ymm0, 110(%rdi)
	vmovups	%ymm0, 142(%rdi)
	movw	$0, 174(%rdi)
	xorl	%eax, %eax
	vzeroupper
	retq
	vj_end	vulfsjor_ffi_blake2s_init_param_1_v3

	vj_export	vulfsjor_ffi_blake2s_init_salt_personal_1_v3
	pushq	%rbx
	subq	$80, %rsp
	movq	%rcx, %rbx
	movq	104(%rsp), %rax
	movq	96(%rsp), %r10
	xorl	%ecx, %ecx
	testq	%rdx, %rdx
	sete	%cl
	shll	$12, %ecx
	addq	%rdx, %rcx
	xorl	%edx, %edx
	testq	%r8, %r8
	sete	%dl
	shll	$12, %edx
	addq	%r8, %rdx
	xorl	%r8d, %r8d
	testq	%r10, %r10
	sete	%r8b
	shll	$12, %r8d
	addq	%r10, %r8
	movq	%rsi, 24(%rsp)
	movq	%rcx, 32(%rsp)
	movq	%rbx, 40(%rsp)
	movq	%rdx, 48(%rsp)
	movq	%r9, 56(%rsp)
	movq	%r8, 64(%rsp)
	movq	%rax, 72(%rsp)
	movw	$257, (%rsp)
	vxorps	%xmm0, %xmm0, %xmm0
	vmovups	%xmm0, 2(%rsp)
	movq	$0, 16(%rsp)
	leaq	24(%rsp), %rsi
	movq	%rsp, %rdx
	callq	blake2_ffi..blake2s..initialize_1_v3
	testq	%rbx, %rbx
	je	1f
	movl	%eax, %ebx
	callq	blake2_digest..wiping..scrub_stack..768_1_v3
	movl	%ebx, %eax
1:
	addq	$80, %rsp
	popq	%rbx
	retq
	vj_end	vulfsjor_ffi_blake2s_init_salt_personal_1_v3

	vj_export	vulfsjor_ffi_blake2s_init_key_1_v3
	pushq	%rbx
	subq	$80, %rsp
	testq	%rcx, %rcx
	je	1f
	xorl	%eax, %eax
	testq	%rdx, %rdx
	sete	%al
	shll	$12, %eax
	addq	%rdx, %rax
	movq	%rsi, 24(%rsp)
	movq	%rax, 32(%rsp)
	movq	%rcx, 40(%rsp)
	leaq	.L1_v3_static.2(%rip), %rax
	movq	%rax, 48(%rsp)
	movq	$0, 56(%rsp)
	movq	%rax, 64(%rsp)
	movq	$0, 72(%rsp)
	movw	$257, (%rsp)
	vxorps	%xmm0, %xmm0, %xmm0
	vmovups	%xmm0, 2(%rsp)
	movq	$0, 16(%rsp)
	leaq	24(%rsp), %rsi
	movq	%rsp, %rdx
	callq	blake2_ffi..blake2s..initialize_1_v3
	movl	%eax, %ebx
	callq	blake2_digest..wiping..scrub_stack..768_1_v3
	movl	%ebx, %eax
	addq	$80, %rsp
	popq	%rbx
	retq
1:
	vxorps	%xmm0, %xmm0, %xmm0
	vmovups	%ymm0, 144(%rdi)
	vmovups	%ymm0, 128(%rdi)
	vmovups	%ymm0, 96(%rdi)
	vmovups	%ymm0, 64(%rdi)
	vmovups	%ymm0, 32(%rdi)
	vmovups	%ymm0, (%rdi)
	movl	$-1, %ebx
	movl	%ebx, %eax
	addq	$80, %rsp
	popq	%rbx
	vzeroupper
	retq
	vj_end	vulfsjor_ffi_blake2s_init_key_1_v3

	vj_export	vulfsjor_ffi_blake2s_init_tree_1_v3
	pushq	%rbp
	pushq	%r15
	pushq	%r14
	pushq	%r13
	pushq	%r12
	pushq	%rbx
	subq	$104, %rsp
	movq	%r9, 40(%rsp)
	movq	%rsi, 32(%rsp)
	movq	176(%rsp), %r14
	movq	160(%rsp), %rax
	xorl	%r11d, %r11d
	testq	%rdx, %rdx
	sete	%sil
	xorl	%r10d, %r10d
	testq	%r8, %r8
	movzbl	12(%r14), %ebp
	movzbl	13(%r14), %ebx
	movl	8(%r14), %r15d
	movzbl	14(%r14), %r9d
	movzbl	15(%r14), %r13d
	movq	(%r14), %r12
	movb	%bpl, 8(%rsp)
	sete	%bpl
	movb	%bl, 9(%rsp)
	movw	$0, 10(%rsp)
	movl	%r15d, 12(%rsp)
	xorl	%r14d, %r14d
	testq	%rax, %rax
	movq	%r12, 16(%rsp)
	movb	%r9b, 24(%rsp)
	sete	%r15b
	movb	%r13b, 25(%rsp)
	movl	$0, 26(%rsp)
	movw	$0, 30(%rsp)
	testb	%bl, %bl
	je	1f
	cmpb	$33, %r13b
	setb	%r9b
	shrq	$48, %r12
	sete	%bl
	testb	%r9b, %bl
	je	1f
	movq	168(%rsp), %r9
	movb	%sil, %r11b
	shll	$12, %r11d
	addq	%r11, %rdx
	movb	%bpl, %r10b
	shll	$12, %r10d
	addq	%r10, %r8
	movb	%r15b, %r14b
	shll	$12, %r14d
	addq	%r14, %rax
	movq	32(%rsp), %rsi
	movq	%rsi, 48(%rsp)
	movq	%rdx, 56(%rsp)
	movq	%rcx, 64(%rsp)
	movq	%r8, 72(%rsp)
	movq	40(%rsp), %rdx
	movq	%rdx, 80(%rsp)
	movq	%rax, 88(%rsp)
	movq	%r9, 96(%rsp)
	leaq	48(%rsp), %rsi
	leaq	8(%rsp), %rdx
	movq	%rcx, %rbx
	callq	blake2_ffi..blake2s..initialize_1_v3
	testq	%rbx, %rbx
	je	2f
	movl	%eax, %ebx
	callq	blake2_digest..wiping..scrub_stack..768_1_v3
	movl	%ebx, %eax
	jmp	2f
1:
	vxorps	%xmm0, %xmm0, %xmm0
	vmovups	%ymm0, 144(%rdi)
	vmovups	%ymm0, 128(%rdi)
	vmovups	%ymm0, 96(%rdi)
	vmovups	%ymm0, 64(%rdi)
	vmovups	%ymm0, 32(%rdi)
	vmovups	%ymm0, (%rdi)
	movl	$-1, %eax
2:
	addq	$104, %rsp
	popq	%rbx
	popq	%r12
	popq	%r13
	popq	%r14
	popq	%r15
	popq	%rbp
	vzeroupper
	retq
	vj_end	vulfsjor_ffi_blake2s_init_tree_1_v3

	vj_export	vulfsjor_ffi_blake2s_load_1_v3
	pushq	%rbp
	pushq	%r15
	pushq	%r14
	pushq	%r13
	pushq	%r12
	pushq	%rbx
	subq	$536, %rsp
	movq	%rdi, %rbx
	xorl	%eax, %eax
	testq	%rsi, %rsi
	sete	%cl
	cmpq	$147, %rdx
	jne	1f
	movq	%rsi, %r14
	movb	%cl, %al
	shll	$12, %eax
	addq	%rax, %r14
	vmovups	8(%r14), %ymm0
	vmovups	40(%r14), %ymm1
	movq	72(%r14), %r15
	movzbl	81(%r14), %ebp
	movzbl	80(%r14), %r12d
	movzbl	82(%r14), %r13d
	vmovups	%ymm0, 208(%rsp)
	vmovups	%ymm0, (%rsp)
	vmovups	%ymm1, 176(%rsp)
	vmovups	%ymm1, 32(%rsp)
	movq	%r15, 64(%rsp)
	movw	%bp, 72(%rsp)
	movw	$0, 74(%rsp)
	movw	%r12w, 76(%rsp)
	movw	%r13w, 78(%rsp)
	vmovups	83(%r14), %ymm0
	vmovups	115(%r14), %ymm1
	vmovups	%ymm0, 80(%rsp)
	vmovups	%ymm1, 112(%rsp)
	vxorps	%xmm0, %xmm0, %xmm0
	vmovups	%ymm0, 144(%rsp)
	leaq	388(%rsp), %rdi
	movq	%rsp, %rsi
	vzeroupper
	callq	blake2_state..blake2s..State..save_1_v3
	cmpb	$1, 388(%rsp)
	jne	1f
	vmovups	504(%rsp), %ymm0
	vmovups	%ymm0, 355(%rsp)
	vmovups	389(%rsp), %ymm0
	vmovups	421(%rsp), %ymm1
	vmovups	453(%rsp), %ymm2
	vmovups	485(%rsp), %ymm3
	vmovups	%ymm3, 336(%rsp)
	vmovups	%ymm2, 304(%rsp)
	vmovups	%ymm1, 272(%rsp)
	vmovups	%ymm0, 240(%rsp)
	movl	(%r14), %eax
	cmpl	240(%rsp), %eax
	jne	1f
	leaq	240(%rsp), %rdx
	movl	$147, %esi
	movq	%r14, %rdi
	vzeroupper
	callq	core..cmp..slices..groups_equal..i8.31.core..cmp..numbers..U8PartialEq_1_v3
	testb	%al, %al
	je	1f
	addq	$83, %r14
	vmovups	(%r14), %ymm0
	vmovups	32(%r14), %ymm1
	vmovups	%ymm0, (%rsp)
	vmovups	%ymm1, 32(%rsp)
	vmovups	208(%rsp), %ymm0
	vmovups	%ymm0, (%rbx)
	vmovups	176(%rsp), %ymm0
	vmovups	%ymm0, 32(%rbx)
	movq	%r15, 64(%rbx)
	movw	%bp, 72(%rbx)
	movw	$0, 74(%rbx)
	movw	%r12w, 76(%rbx)
	movw	%r13w, 78(%rbx)
	vmovups	(%rsp), %ymm0
	vmovups	32(%rsp), %ymm1
	vmovups	%ymm0, 80(%rbx)
	vmovups	%ymm1, 112(%rbx)
	vxorps	%xmm0, %xmm0, %xmm0
	vmovups	%ymm0, 144(%rbx)
	xorl	%eax, %eax
	jmp	2f
1:
	vxorps	%xmm0, %xmm0, %xmm0
	vmovups	%ymm0, 144(%rbx)
	vmovups	%ymm0, 128(%rbx)
	vmovups	%ymm0, 96(%rbx)
	vmovups	%ymm0, 64(%rbx)
	vmovups	%ymm0, 32(%rbx)
	vmovups	%ymm0, (%rbx)
	movl	$-1, %eax
2:
	addq	$536, %rsp
	popq	%rbx
	popq	%r12
	popq	%r13
	popq	%r14
	popq	%r15
	popq	%rbp
	vzeroupper
	retq
	vj_end	vulfsjor_ffi_blake2s_load_1_v3

	vj_export	vulfsjor_ffi_blake2s_reset_1_v3
	movzwl	76(%rdi), %ecx
	decl	%ecx
	movl	$-1, %eax
	cmpw	$31, %cx
	ja	1f
	movzwl	72(%rdi), %edx
	cmpw	$64, %dx
	ja	1f
	movzwl	74(%rdi), %ecx
	cmpw	$64, %cx
	ja	1f
	notl	%edx
	movswq	%dx, %rdx
	cmpq	%rdx, 64(%rdi)
	ja	1f
	vmovups	32(%rdi), %ymm0
	vmovups	144(%rdi), %ymm1
	vmovups	%ymm0, (%rdi)
	movq	$0, 64(%rdi)
	movw	%cx, 72(%rdi)
	vxorps	%xmm0, %xmm0, %xmm0
	vmovups	%ymm0, 112(%rdi)
	vmovups	%ymm1, 80(%rdi)
	xorl	%eax, %eax
1:
	vzeroupper
	retq
	vj_end	vulfsjor_ffi_blake2s_reset_1_v3

	vj_export	vulfsjor_ffi_blake2s_save_1_v3
	pushq	%rbp
	pushq	%r15
	pushq	%r14
	pushq	%rbx
	subq	$152, %rsp
	movq	%rsi, %rbx
	xorl	%r14d, %r14d
	testq	%rsi, %rsi
	sete	%r15b
	movl	$-1, %ebp
	cmpq	$147, %rdx
	jne	1f
	movq	%rdi, %rsi
	leaq	4(%rsp), %rdi
	callq	blake2_state..blake2s..State..save_1_v3
	cmpb	$1, 4(%rsp)
	jne	1f
	movb	%r15b, %r14b
	shll	$12, %r14d
	addq	%r14, %rbx
	vmovups	120(%rsp), %ymm0
	vmovups	%ymm0, 115(%rbx)
	vmovups	5(%rsp), %ymm0
	vmovups	37(%rsp), %ymm1
	vmovups	69(%rsp), %ymm2
	vmovups	101(%rsp), %ymm3
	vmovups	%ymm3, 96(%rbx)
	vmovups	%ymm2, 64(%rbx)
	vmovups	%ymm1, 32(%rbx)
	vmovups	%ymm0, (%rbx)
	xorl	%ebp, %ebp
1:
	movl	%ebp, %eax
	addq	$152, %rsp
	popq	%rbx
	popq	%r14
	popq	%r15
	popq	%rbp
	vzeroupper
	retq
	vj_end	vulfsjor_ffi_blake2s_save_1_v3

	vj_export	vulfsjor_ffi_blake2s_set_last_node_1_v3
	movzwl	76(%rdi), %ecx
	decl	%ecx
	movl	$-1, %eax
	cmpw	$31, %cx
	ja	1f
	movzwl	72(%rdi), %ecx
	cmpw	$64, %cx
	ja	1f
	cmpw	$64, 74(%rdi)
	ja	1f
	notl	%ecx
	movswq	%cx, %rcx
	cmpq	%rcx, 64(%rdi)
	ja	1f
	xorl	%eax, %eax
	testl	%esi, %esi
	setne	%al
	movw	%ax, 78(%rdi)
	xorl	%eax, %eax
1:
	retq
	vj_end	vulfsjor_ffi_blake2s_set_last_node_1_v3

	vj_export	vulfsjor_ffi_blake2s_state_size_1_v3
	movl	$176, %eax
	retq
	vj_end	vulfsjor_ffi_blake2s_state_size_1_v3

	vj_export	vulfsjor_ffi_blake2s_update_1_v3
	xorl	%r8d, %r8d
	testq	%rsi, %rsi
	sete	%r9b
	movzwl	76(%rdi), %ecx
	decl	%ecx
	movl	$-1, %eax
	cmpw	$31, %cx
	ja	6f
	movzwl	72(%rdi), %ecx
	cmpq	$64, %rcx
	ja	6f
	movzwl	74(%rdi), %r10d
	cmpq	$64, %r10
	ja	6f
	pushq	%rbx
	movq	64(%rdi), %r11
	movl	%ecx, %ebx
	notl	%ebx
	movswq	%bx, %rbx
	cmpq	%rbx, %r11
	ja	5f
	leaq	(%r11,%rcx), %rbx
	addq	%rdx, %rbx
	jb	5f
	movb	%r9b, %r8b
	shll	$12, %r8d
	addq	%r8, %rsi
	cmpq	%r10, %r11
	jae	1f
	callq	blake2_ffi..blake2s..update_scrubbed_1_v3
	jmp	4f
1:
	cmpq	$1, %rdx
	jne	2f
	cmpl	$64, %ecx
	jne	3f
	movl	$1, %edx
2:
	callq	blake2_state..blake2s..State..absorb_blocks_1_v3
	jmp	4f
3:
	movzbl	(%rsi), %eax
	movb	%al, 80(%rdi,%rcx)
	leal	1(%rcx), %eax
	movw	%ax, 72(%rdi)
4:
	xorl	%eax, %eax
5:
	popq	%rbx
6:
	retq
	vj_end	vulfsjor_ffi_blake2s_update_1_v3

	vj_export	vulfsjor_ffi_blake2s_update_many_1_v3
	xorl	%r8d, %r8d
	testq	%rdi, %rdi
	sete	%r11b
	xorl	%r9d, %r9d
	testq	%rdx, %rdx
	sete	%r10b
	movl	$-1, %eax
	cmpq	%rsi, %rcx
	jne	7f
	pushq	%r15
	pushq	%r14
	pushq	%rbx
	movb	%r11b, %r8b
	shll	$12, %r8d
	movb	%r10b, %r9b
	shll	$12, %r9d
	testq	%rcx, %rcx
	je	2f
	leaq	(%r9,%rdx), %rsi
	addq	$8, %rsi
	leaq	(%r8,%rdi), %r10
	addq	$76, %r10
	movq	%rcx, %r11
	.p2align	4
1:
	movzwl	(%r10), %ebx
	decl	%ebx
	cmpw	$31, %bx
	ja	6f
	movzwl	-4(%r10), %ebx
	cmpq	$64, %rbx
	ja	6f
	cmpw	$64, -2(%r10)
	ja	6f
	movq	-12(%r10), %r14
	movl	%ebx, %r15d
	notl	%r15d
	movswq	%r15w, %r15
	cmpq	%r15, %r14
	ja	6f
	addq	%rbx, %r14
	addq	(%rsi), %r14
	jb	6f
	addq	$16, %rsi
	addq	$176, %r10
	decq	%r11
	jne	1b
2:
	leaq	(%rdi,%r8), %rax
	addq	%r9, %rdx
	addq	%r8, %rdi
	addq	$74, %rdi
	movq	$-1, %rsi
	.p2align	4
3:
	incq	%rsi
	cmpq	%rsi, %rcx
	je	4f
	movzwl	(%rdi), %r8d
	cmpq	%r8, -10(%rdi)
	leaq	176(%rdi), %rdi
	jae	3b
	movq	%rax, %rdi
	movq	%rcx, %rsi
	callq	blake2_ffi..several..blake2s..update_in_frame_1_v3
	callq	blake2_digest..wiping..scrub_stack..9216_1_v3
	jmp	5f
4:
	movq	%rax, %rdi
	movq	%rcx, %rsi
	callq	blake2_ffi..several..blake2s..update_in_frame_1_v3
5:
	xorl	%eax, %eax
6:
	popq	%rbx
	popq	%r14
	popq	%r15
7:
	retq
	vj_end	vulfsjor_ffi_blake2s_update_many_1_v3

	vj_export	vulfsjor_ffi_blake2s_verify_1_v3
	xorl	%ecx, %ecx
	testq	%rsi, %rsi
	sete	%r8b
	movzwl	76(%rdi), %r9d
	decl	%r9d
	movl	$-1, %eax
	cmpw	$31, %r9w
	ja	3f
	movzwl	72(%rdi), %r9d
	cmpw	$64, %r9w
	ja	3f
	pushq	%r15
	pushq	%r14
	pushq	%r12
	pushq	%rbx
	pushq	%rax
	movzwl	74(%rdi), %r15d
	cmpq	$64, %r15
	ja	2f
	movq	64(%rdi), %r12
	notl	%r9d
	movswq	%r9w, %r9
	cmpq	%r9, %r12
	ja	2f
	movzbl	33(%rdi), %r9d
	shll	$8, %r9d
	cmpl	$58880, %r9d
	je	2f
	movb	%r8b, %cl
	shll	$12, %ecx
	addq	%rcx, %rsi
	movq	%rdi, %r14
	callq	blake2_ffi..blake2s..is_digest_of_1_v3
	vxorps	%xmm0, %xmm0, %xmm0
	vmovups	%ymm0, (%r14)
	vmovups	%ymm0, 32(%r14)
	vmovups	%ymm0, 64(%r14)
	vmovups	%ymm0, 96(%r14)
	vmovups	%ymm0, 128(%r14)
	movl	%eax, %ebx
	vmovups	%ymm0, 144(%r14)
	cmpq	%r15, %r12
	jae	1f
	vzeroupper
	callq	blake2_digest..wiping..scrub_stack..768_1_v3
1:
	movzbl	%bl, %eax
	decl	%eax
2:
	addq	$8, %rsp
	popq	%rbx
	popq	%r12
	popq	%r14
	popq	%r15
3:
	vzeroupper
	retq
	vj_end	vulfsjor_ffi_blake2s_verify_1_v3

	vj_export	vulfsjor_ffi_blake2s_wipe_1_v3
	vxorps	%xmm0, %xmm0, %xmm0
	vmovups	%ymm0, 144(%rdi)
	vmovups	%ymm0, 128(%rdi)
	vmovups	%ymm0, 96(%rdi)
	vmovups	%ymm0, 64(%rdi)
	vmovups	%ymm0, 32(%rdi)
	vmovups	%ymm0, (%rdi)
	vzeroupper
	retq
	vj_end	vulfsjor_ffi_blake2s_wipe_1_v3

	vj_export	vulfsjor_ffi_blake2sp_count_1_v3
	movq	1528(%rdi), %rax
	decq	%rax
	cmpq	$31, %rax
	ja	1f
	movq	264(%rdi), %rax
	cmpq	$960, %rax
	ja	1f
	movq	256(%rdi), %rcx
	movq	%rax, %rdx
	notq	%rdx
	shrq	$3, %rdx
	cmpq	%rdx, %rcx
	ja	1f
	movq	1520(%rdi), %rdx
	cmpq	$512, %rdx
	ja	1f
	leaq	(%rax,%rcx,8), %rcx
	xorl	%eax, %eax
	subq	%rdx, %rcx
	cmovaeq	%rcx, %rax
	retq
1:
	xorl	%eax, %eax
	retq
	vj_end	vulfsjor_ffi_blake2sp_count_1_v3

	vj_export	vulfsjor_ffi_blake2sp_digest_size_1_v3
	movq	1528(%rdi), %rcx
	leaq	-1(%rcx), %rax
	cmpq	$31, %rax
	ja	1f
	movq	264(%rdi), %rax
	cmpq	$960, %rax
	ja	1f
	notq	%rax
	shrq	$3, %rax
	cmpq	%rax, 256(%rdi)
	jbe	2f
1:
	xorl	%eax, %eax
	retq
2:
	xorl	%eax, %eax
	cmpq	$513, 1520(%rdi)
	cmovbq	%rcx, %rax
	retq
	vj_end	vulfsjor_ffi_blake2sp_digest_size_1_v3

	vj_export	vulfsjor_ffi_blake2sp_final_1_v3
	xorl	%ecx, %ecx
	testq	%rsi, %rsi
	sete	%r8b
	movq	1528(%rdi), %r10
	leaq	-1(%r10), %r9
	movl	$-1, %eax
	cmpq	$31, %r9
	ja	4f
	movq	264(%rdi), %r11
	cmpq	$960, %r11
	ja	4f
	movq	256(%rdi), %r9
	notq	%r11
	shrq	$3, %r11
	cmpq	%r11, %r9
	ja	4f
	pushq	%rbx
	movq	1520(%rdi), %rbx
	cmpq	$513, %rbx
	setae	%r11b
	cmpq	%r10, %rdx
	setne	%dl
	orb	%r11b, %dl
	jne	3f
	movb	%r8b, %cl
	shll	$12, %ecx
	addq	%rcx, %rsi
	testq	%r9, %r9
	je	1f
	callq	blake2_ffi..blake2sp..finalize_1_v3
	jmp	2f
1:
	callq	blake2_ffi..blake2sp..finalize_1_v3
	xorl	%eax, %eax
	testq	%rbx, %rbx
	je	3f
	callq	blake2_digest..wiping..scrub_stack..5632_1_v3
2:
	xorl	%eax, %eax
3:
	popq	%rbx
4:
	retq
	vj_end	vulfsjor_ffi_blake2sp_final_1_v3

	vj_export	vulfsjor_ffi_blake2sp_init_salt_personal_1_v3
	pushq	%rbx
	subq	$16, %rsp
	movq	%rcx, %rbx
	movq	40(%rsp), %rax
	movq	32(%rsp), %rcx
	xorl	%r10d, %r10d
	testq	%rdx, %rdx
	sete	%r10b
	shll	$12, %r10d
	addq	%r10, %rdx
	xorl	%r10d, %r10d
	testq	%r8, %r8
	sete	%r10b
	shll	$12, %r10d
	addq	%r10, %r8
	xorl	%r10d, %r10d
	testq	%rcx, %rcx
	sete	%r10b
	shll	$12, %r10d
	addq	%rcx, %r10
	movq	%rax, 8(%rsp)
	movq	%r10, (%rsp)
	movq	%rbx, %rcx
	callq	blake2_ffi..blake2sp..initialize_1_v3
	testq	%rbx, %rbx
	je	1f
	movl	%eax, %ebx
	callq	blake2_digest..wiping..scrub_stack..5120_1_v3
	movl	%ebx, %eax
1:
	addq	$16, %rsp
	popq	%rbx
	retq
	vj_end	vulfsjor_ffi_blake2sp_init_salt_personal_1_v3

	vj_export	vulfsjor_ffi_blake2sp_init_key_1_v3
	pushq	%rbx
	subq	$16, %rsp
	testq	%rcx, %rcx
	je	1f
	xorl	%eax, %eax
	testq	%rdx, %rdx
	sete	%al
	shll	$12, %eax
	addq	%rdx, %rax
	leaq	.L1_v3_static.2(%rip), %r8
	movq	%r8, (%rsp)
	movq	$0, 8(%rsp)
	movq	%rax, %rdx
	xorl	%r9d, %r9d
	callq	blake2_ffi..blake2sp..initialize_1_v3
	movl	%eax, %ebx
	callq	blake2_digest..wiping..scrub_stack..5120_1_v3
	movl	%ebx, %eax
	addq	$16, %rsp
	popq	%rbx
	retq
1:
	movl	$1600, %edx
	xorl	%esi, %esi
	vj_c_call	memset
	movl	$-1, %eax
	addq	$16, %rsp
	popq	%rbx
	retq
	vj_end	vulfsjor_ffi_blake2sp_init_key_1_v3

	vj_export	vulfsjor_ffi_blake2sp_reset_1_v3
	movq	1528(%rdi), %rcx
	decq	%rcx
	movl	$-1, %eax
	cmpq	$31, %rcx
	ja	2f
	movq	264(%rdi), %rcx
	cmpq	$960, %rcx
	ja	2f
	notq	%rcx
	shrq	$3, %rcx
	cmpq	%rcx, 256(%rdi)
	ja	2f
	pushq	%rbx
	movq	1520(%rdi), %rbx
	cmpq	$512, %rbx
	ja	1f
	callq	blake2_ffi..blake2sp..reset_in_frame_1_v3
	xorl	%eax, %eax
	testq	%rbx, %rbx
	je	1f
	callq	blake2_digest..wiping..scrub_stack..1792_1_v3
	xorl	%eax, %eax
1:
	popq	%rbx
2:
	retq
	vj_end	vulfsjor_ffi_blake2sp_reset_1_v3

	vj_export	vulfsjor_ffi_blake2sp_state_size_1_v3
	movl	$1600, %eax
	retq
	vj_end	vulfsjor_ffi_blake2sp_state_size_1_v3

	vj_export	vulfsjor_ffi_blake2sp_update_1_v3
	xorl	%ecx, %ecx
	testq	%rsi, %rsi
	sete	%r8b
	movq	1528(%rdi), %r9
	decq	%r9
	movl	$-1, %eax
	cmpq	$31, %r9
	ja	3f
	movq	264(%rdi), %r11
	cmpq	$960, %r11
	ja	3f
	movq	256(%rdi), %r9
	movq	%r11, %r10
	notq	%r10
	shrq	$3, %r10
	cmpq	%r10, %r9
	ja	3f
	movq	1520(%rdi), %r10
	cmpq	$512, %r10
	ja	3f
	leaq	(%r11,%r9,8), %r11
	addq	%rdx, %r11
	jb	3f
	pushq	%rax
	movb	%r8b, %cl
	shll	$12, %ecx
	addq	%rcx, %rsi
	testq	%r9, %r9
	setne	%al
	testq	%r10, %r10
	sete	%cl
	orb	%al, %cl
	je	1f
	vj_call	blake2_parallel..lanes..blake2sp..Lanes..update_1_v3
	jmp	2f
1:
	callq	blake2_ffi..blake2sp..update_scrubbed_1_v3
2:
	xorl	%eax, %eax
	addq	$8, %rsp
3:
	retq
	vj_end	vulfsjor_ffi_blake2sp_update_1_v3

	vj_export	vulfsjor_ffi_blake2sp_verify_1_v3
	xorl	%ecx, %ecx
	testq	%rsi, %rsi
	sete	%r8b
	movq	1528(%rdi), %r9
	decq	%r9
	movl	$-1, %eax
	cmpq	$31, %r9
	ja	3f
	movq	264(%rdi), %r9
	cmpq	$960, %r9
	ja	3f
	pushq	%r15
	pushq	%r14
	pushq	%rbx
	movq	256(%rdi), %r15
	notq	%r9
	shrq	$3, %r9
	cmpq	%r9, %r15
	ja	2f
	movq	$-513, %r9
	addq	1520(%rdi), %r9
	cmpq	$-512, %r9
	jb	2f
	movb	%r8b, %cl
	shll	$12, %ecx
	addq	%rcx, %rsi
	movq	%rdi, %r14
	callq	blake2_ffi..blake2sp..is_digest_of_1_v3
	movl	%eax, %ebx
	movl	$1600, %edx
	movq	%r14, %rdi
	xorl	%esi, %esi
	vj_c_call	memset
	testq	%r15, %r15
	jne	1f
	callq	blake2_digest..wiping..scrub_stack..5632_1_v3
1:
	movzbl	%bl, %eax
	decl	%eax
2:
	popq	%rbx
	popq	%r14
	popq	%r15
3:
	retq
	vj_end	vulfsjor_ffi_blake2sp_verify_1_v3

	vj_export	vulfsjor_ffi_blake2sp_wipe_1_v3
	movl	$1600, %edx
	xorl	%esi, %esi
	vj_c_jump	memset
	vj_end	vulfsjor_ffi_blake2sp_wipe_1_v3

	vj_export	vulfsjor_ffi_blake2xb_count_1_v3
	movl	144(%rdi), %edx
	leal	-1(%rdx), %eax
	cmpl	$63, %eax
	ja	1f
	movl	136(%rdi), %eax
	cmpq	$128, %rax
	ja	1f
	movl	140(%rdi), %ecx
	cmpq	$128, %rcx
	ja	1f
	cmpl	$64, %edx
	jne	1f
	movq	128(%rdi), %rdx
	movl	%eax, %esi
	notl	%esi
	movslq	%esi, %rsi
	cmpq	%rsi, %rdx
	ja	1f
	movq	440(%rdi), %rsi
	leaq	-1(%rsi), %r8
	movl	$4294967294, %r9d
	cmpq	%r9, %r8
	ja	1f
	movl	$4294967295, %r8d
	cmpq	%r8, %rsi
	movabsq	$274877906944, %r8
	cmovneq	%rsi, %r8
	cmpq	%r8, 448(%rdi)
	jbe	2f
1:
	xorl	%eax, %eax
	retq
2:
	addq	%rax, %rdx
	xorl	%eax, %eax
	subq	%rcx, %rdx
	cmovaeq	%rdx, %rax
	retq
	vj_end	vulfsjor_ffi_blake2xb_count_1_v3

	vj_export	vulfsjor_ffi_blake2xb_init_salt_personal_1_v3
	pushq	%rbx
	subq	$16, %rsp
	movq	%rcx, %rbx
	movq	40(%rsp), %rax
	movq	32(%rsp), %rcx
	xorl	%r10d, %r10d
	testq	%rdx, %rdx
	sete	%r10b
	shll	$12, %r10d
	addq	%r10, %rdx
	xorl	%r10d, %r10d
	testq	%r8, %r8
	sete	%r10b
	shll	$12, %r10d
	addq	%r10, %r8
	xorl	%r10d, %r10d
	testq	%rcx, %rcx
	sete	%r10b
	shll	$12, %r10d
	addq	%rcx, %r10
	movq	%rax, 8(%rsp)
	movq	%r10, (%rsp)
	movq	%rbx, %rcx
	callq	blake2_ffi..blake2xb..initialize_1_v3
	testq	%rbx, %rbx
	je	1f
	movl	%eax, %ebx
	callq	blake2_digest..wiping..scrub_stack..2304_1_v3
	movl	%ebx, %eax
1:
	addq	$16, %rsp
	popq	%rbx
	retq
	vj_end	vulfsjor_ffi_blake2xb_init_salt_personal_1_v3

	vj_export	vulfsjor_ffi_blake2xb_left_1_v3
	movl	144(%rdi), %eax
	leal	-1(%rax), %ecx
	cmpl	$63, %ecx
	ja	1f
	movl	136(%rdi), %ecx
	cmpl	$128, %ecx
	ja	1f
	cmpl	$128, 140(%rdi)
	ja	1f
	cmpl	$64, %eax
	jne	1f
	notl	%ecx
	movslq	%ecx, %rax
	cmpq	%rax, 128(%rdi)
	ja	1f
	movq	440(%rdi), %rax
	leaq	-1(%rax), %rcx
	movl	$4294967294, %edx
	cmpq	%rdx, %rcx
	ja	1f
	movl	$4294967295, %ecx
	cmpq	%rcx, %rax
	movabsq	$274877906944, %rcx
	cmovneq	%rax, %rcx
	xorl	%eax, %eax
	subq	448(%rdi), %rcx
	cmovaeq	%rcx, %rax
	retq
1:
	xorl	%eax, %eax
	retq
	vj_end	vulfsjor_ffi_blake2xb_left_1_v3

	vj_export	vulfsjor_ffi_blake2xb_reset_1_v3
	movl	144(%rdi), %ecx
	leal	-1(%rcx), %edx
	movl	$-1, %eax
	cmpl	$63, %edx
	ja	2f
	movl	136(%rdi), %edx
	cmpl	$128, %edx
	ja	2f
	pushq	%rbx
	movl	140(%rdi), %ebx
	cmpl	$128, %ebx
	ja	1f
	cmpl	$64, %ecx
	jne	1f
	notl	%edx
	movslq	%edx, %rcx
	cmpq	%rcx, 128(%rdi)
	ja	1f
	movq	440(%rdi), %rcx
	leaq	-1(%rcx), %rdx
	movl	$4294967294, %esi
	cmpq	%rsi, %rdx
	ja	1f
	movl	$4294967295, %edx
	cmpq	%rdx, %rcx
	movabsq	$274877906944, %rdx
	cmovneq	%rcx, %rdx
	cmpq	%rdx, 448(%rdi)
	ja	1f
	callq	blake2_ffi..blake2xb..reset_in_frame_1_v3
	xorl	%eax, %eax
	testl	%ebx, %ebx
	je	1f
	callq	blake2_digest..wiping..scrub_stack..1792_1_v3
	xorl	%eax, %eax
1:
	popq	%rbx
2:
	retq
	vj_end	vulfsjor_ffi_blake2xb_reset_1_v3

	vj_export	vulfsjor_ffi_blake2xb_squeeze_1_v3
	xorl	%ecx, %ecx
	testq	%rsi, %rsi
	sete	%r8b
	movl	144(%rdi), %r9d
	leal	-1(%r9), %r10d
	movl	$-1, %eax
	cmpl	$63, %r10d
	ja	2f
	movl	136(%rdi), %r10d
	cmpl	$128, %r10d
	ja	2f
	pushq	%rbx
	movl	140(%rdi), %ebx
	cmpl	$128, %ebx
	ja	1f
	cmpl	$64, %r9d
	jne	1f
	notl	%r10d
	movslq	%r10d, %r9
	cmpq	%r9, 128(%rdi)
	ja	1f
	movq	440(%rdi), %r9
	leaq	-1(%r9), %r10
	movl	$4294967294, %r11d
	cmpq	%r11, %r10
	ja	1f
	movl	$4294967295, %r10d
	cmpq	%r10, %r9
	movabsq	$274877906944, %r10
	cmovneq	%r9, %r10
	subq	448(%rdi), %r10
	setb	%r9b
	cmpq	%rdx, %r10
	setb	%r10b
	orb	%r9b, %r10b
	jne	1f
	movb	%r8b, %cl
	shll	$12, %ecx
	addq	%rcx, %rsi
	callq	blake2_ffi..blake2xb..read_1_v3
	xorl	%eax, %eax
	testl	%ebx, %ebx
	je	1f
	callq	blake2_digest..wiping..scrub_stack..4096_1_v3
	xorl	%eax, %eax
1:
	popq	%rbx
2:
	retq
	vj_end	vulfsjor_ffi_blake2xb_squeeze_1_v3

	vj_export	vulfsjor_ffi_blake2xb_state_size_1_v3
	movl	$464, %eax
	retq
	vj_end	vulfsjor_ffi_blake2xb_state_size_1_v3

	vj_export	vulfsjor_ffi_blake2xb_update_1_v3
	xorl	%ecx, %ecx
	testq	%rsi, %rsi
	sete	%r8b
	movl	144(%rdi), %r10d
	leal	-1(%r10), %r9d
	movl	$-1, %eax
	cmpl	$63, %r9d
	ja	4f
	movl	136(%rdi), %r9d
	cmpq	$128, %r9
	ja	4f
	pushq	%r15
	pushq	%r14
	pushq	%rbx
	movl	140(%rdi), %ebx
	cmpl	$128, %ebx
	ja	3f
	cmpl	$64, %r10d
	jne	3f
	movq	128(%rdi), %r10
	movl	%r9d, %r11d
	notl	%r11d
	movslq	%r11d, %r11
	cmpq	%r11, %r10
	ja	3f
	movq	440(%rdi), %r11
	leaq	-1(%r11), %r14
	movl	$4294967294, %r15d
	cmpq	%r15, %r14
	ja	3f
	movq	448(%rdi), %r14
	movl	$4294967295, %r15d
	cmpq	%r15, %r11
	movabsq	$274877906944, %r15
	cmovneq	%r11, %r15
	cmpq	%r15, %r14
	ja	3f
	orq	456(%rdi), %r14
	jne	3f
	addq	%r10, %r9
	addq	%rdx, %r9
	jb	3f
	movb	%r8b, %cl
	shll	$12, %ecx
	addq	%rcx, %rsi
	testq	%r10, %r10
	je	1f
	callq	blake2_ffi..blake2xb..update_in_frame_1_v3
	jmp	2f
1:
	callq	blake2_ffi..blake2xb..update_in_frame_1_v3
	xorl	%eax, %eax
	testl	%ebx, %ebx
	je	3f
	callq	blake2_digest..wiping..scrub_stack..3072_1_v3
2:
	xorl	%eax, %eax
3:
	popq	%rbx
	popq	%r14
	popq	%r15
4:
	retq
	vj_end	vulfsjor_ffi_blake2xb_update_1_v3

	vj_export	vulfsjor_ffi_blake2xb_wipe_1_v3
	vxorps	%xmm0, %xmm0, %xmm0
	vmovups	%ymm0, 432(%rdi)
	vmovups	%ymm0, 416(%rdi)
	vmovups	%ymm0, 384(%rdi)
	vmovups	%ymm0, 352(%rdi)
	vmovups	%ymm0, 320(%rdi)
	vmovups	%ymm0, 288(%rdi)
	vmovups	%ymm0, 256(%rdi)
	vmovups	%ymm0, 224(%rdi)
	vmovups	%ymm0, 192(%rdi)
	vmovups	%ymm0, 160(%rdi)
	vmovups	%ymm0, 128(%rdi)
	vmovups	%ymm0, 96(%rdi)
	vmovups	%ymm0, 64(%rdi)
	vmovups	%ymm0, 32(%rdi)
	vmovups	%ymm0, (%rdi)
	vzeroupper
	retq
	vj_end	vulfsjor_ffi_blake2xb_wipe_1_v3

	vj_export	vulfsjor_ffi_blake2xs_count_1_v3
	movzwl	76(%rdi), %edx
	leal	-1(%rdx), %eax
	cmpw	$31, %ax
	ja	1f
	movzwl	72(%rdi), %eax
	cmpq	$64, %rax
	ja	1f
	movzwl	74(%rdi), %ecx
	cmpq	$64, %rcx
	ja	1f
	cmpw	$32, %dx
	jne	1f
	movq	64(%rdi), %rdx
	movl	%eax, %esi
	notl	%esi
	movswq	%si, %rsi
	cmpq	%rsi, %rdx
	ja	1f
	movq	224(%rdi), %rsi
	leaq	-1(%rsi), %r8
	cmpq	$65534, %r8
	ja	1f
	cmpq	$65535, %rsi
	movabsq	$137438953472, %r8
	cmovneq	%rsi, %r8
	cmpq	%r8, 232(%rdi)
	jbe	2f
1:
	xorl	%eax, %eax
	retq
2:
	addq	%rax, %rdx
	xorl	%eax, %eax
	subq	%rcx, %rdx
	cmovaeq	%rdx, %rax
	retq
	vj_end	vulfsjor_ffi_blake2xs_count_1_v3

	vj_export	vulfsjor_ffi_blake2xs_init_salt_personal_1_v3
	pushq	%rbx
	subq	$16, %rsp
	movq	%rcx, %rbx
	movq	40(%rsp), %rax
	movq	32(%rsp), %rcx
	xorl	%r10d, %r10d
	testq	%rdx, %rdx
	sete	%r10b
	shll	$12, %r10d
	addq	%r10, %rdx
	xorl	%r10d, %r10d
	testq	%r8, %r8
	sete	%r10b
	shll	$12, %r10d
	addq	%r10, %r8
	xorl	%r10d, %r10d
	testq	%rcx, %rcx
	sete	%r10b
	shll	$12, %r10d
	addq	%rcx, %r10
	movq	%rax, 8(%rsp)
	movq	%r10, (%rsp)
	movq	%rbx, %rcx
	callq	blake2_ffi..blake2xs..initialize_1_v3
	testq	%rbx, %rbx
	je	1f
	movl	%eax, %ebx
	callq	blake2_digest..wiping..scrub_stack..2304_1_v3
	movl	%ebx, %eax
1:
	addq	$16, %rsp
	popq	%rbx
	retq
	vj_end	vulfsjor_ffi_blake2xs_init_salt_personal_1_v3

	vj_export	vulfsjor_ffi_blake2xs_left_1_v3
	movzwl	76(%rdi), %ecx
	leal	-1(%rcx), %eax
	cmpw	$31, %ax
	ja	1f
	movzwl	72(%rdi), %eax
	cmpw	$64, %ax
	ja	1f
	cmpw	$64, 74(%rdi)
	ja	1f
	cmpw	$32, %cx
	jne	1f
	notl	%eax
	movswq	%ax, %rax
	cmpq	%rax, 64(%rdi)
	ja	1f
	movq	224(%rdi), %rax
	leaq	-1(%rax), %rcx
	cmpq	$65534, %rcx
	ja	1f
	cmpq	$65535, %rax
	movabsq	$137438953472, %rcx
	cmovneq	%rax, %rcx
	xorl	%eax, %eax
	subq	232(%rdi), %rcx
	cmovaeq	%rcx, %rax
	retq
1:
	xorl	%eax, %eax
	retq
	vj_end	vulfsjor_ffi_blake2xs_left_1_v3

	vj_export	vulfsjor_ffi_blake2xs_reset_1_v3
	movzwl	76(%rdi), %edx
	leal	-1(%rdx), %ecx
	movl	$-1, %eax
	cmpw	$31, %cx
	ja	2f
	movzwl	72(%rdi), %ecx
	cmpw	$64, %cx
	ja	2f
	pushq	%rbx
	movzwl	74(%rdi), %ebx
	cmpw	$64, %bx
	ja	1f
	cmpw	$32, %dx
	jne	1f
	notl	%ecx
	movswq	%cx, %rcx
	cmpq	%rcx, 64(%rdi)
	ja	1f
	movq	224(%rdi), %rcx
	leaq	-1(%rcx), %rdx
	cmpq	$65534, %rdx
	ja	1f
	cmpq	$65535, %rcx
	movabsq	$137438953472, %rdx
	cmovneq	%rcx, %rdx
	cmpq	%rdx, 232(%rdi)
	ja	1f
	callq	blake2_ffi..blake2xs..reset_in_frame_1_v3
	xorl	%eax, %eax
	testw	%bx, %bx
	je	1f
	callq	blake2_digest..wiping..scrub_stack..1792_1_v3
	xorl	%eax, %eax
1:
	popq	%rbx
2:
	retq
	vj_end	vulfsjor_ffi_blake2xs_reset_1_v3

	vj_export	vulfsjor_ffi_blake2xs_squeeze_1_v3
	xorl	%ecx, %ecx
	testq	%rsi, %rsi
	sete	%r8b
	movzwl	76(%rdi), %r10d
	leal	-1(%r10), %r9d
	movl	$-1, %eax
	cmpw	$31, %r9w
	ja	2f
	movzwl	72(%rdi), %r9d
	cmpw	$64, %r9w
	ja	2f
	pushq	%rbx
	movzwl	74(%rdi), %ebx
	cmpw	$64, %bx
	ja	1f
	cmpw	$32, %r10w
	jne	1f
	notl	%r9d
	movswq	%r9w, %r9
	cmpq	%r9, 64(%rdi)
	ja	1f
	movq	224(%rdi), %r9
	leaq	-1(%r9), %r10
	cmpq	$65534, %r10
	ja	1f
	cmpq	$65535, %r9
	movabsq	$137438953472, %r10
	cmovneq	%r9, %r10
	subq	232(%rdi), %r10
	setb	%r9b
	cmpq	%rdx, %r10
	setb	%r10b
	orb	%r9b, %r10b
	jne	1f
	movb	%r8b, %cl
	shll	$12, %ecx
	addq	%rcx, %rsi
	callq	blake2_ffi..blake2xs..read_1_v3
	xorl	%eax, %eax
	testw	%bx, %bx
	je	1f
	callq	blake2_digest..wiping..scrub_stack..4096_1_v3
	xorl	%eax, %eax
1:
	popq	%rbx
2:
	retq
	vj_end	vulfsjor_ffi_blake2xs_squeeze_1_v3

	vj_export	vulfsjor_ffi_blake2xs_state_size_1_v3
	movl	$248, %eax
	retq
	vj_end	vulfsjor_ffi_blake2xs_state_size_1_v3

	vj_export	vulfsjor_ffi_blake2xs_update_1_v3
	xorl	%ecx, %ecx
	testq	%rsi, %rsi
	sete	%r8b
	movzwl	76(%rdi), %r10d
	leal	-1(%r10), %r9d
	movl	$-1, %eax
	cmpw	$31, %r9w
	ja	4f
	movzwl	72(%rdi), %r9d
	cmpq	$64, %r9
	ja	4f
	pushq	%r15
	pushq	%r14
	pushq	%rbx
	movzwl	74(%rdi), %ebx
	cmpw	$64, %bx
	ja	3f
	cmpw	$32, %r10w
	jne	3f
	movq	64(%rdi), %r10
	movl	%r9d, %r11d
	notl	%r11d
	movswq	%r11w, %r11
	cmpq	%r11, %r10
	ja	3f
	movq	224(%rdi), %r14
	leaq	-1(%r14), %r11
	cmpq	$65534, %r11
	ja	3f
	movq	232(%rdi), %r11
	cmpq	$65535, %r14
	movabsq	$137438953472, %r15
	cmovneq	%r14, %r15
	cmpq	%r15, %r11
	ja	3f
	orq	240(%rdi), %r11
	jne	3f
	addq	%r10, %r9
	addq	%rdx, %r9
	jb	3f
	movb	%r8b, %cl
	shll	$12, %ecx
	addq	%rcx, %rsi
	testq	%r10, %r10
	je	1f
	callq	blake2_ffi..blake2xs..update_in_frame_1_v3
	jmp	2f
1:
	callq	blake2_ffi..blake2xs..update_in_frame_1_v3
	xorl	%eax, %eax
	testw	%bx, %bx
	je	3f
	callq	blake2_digest..wiping..scrub_stack..3072_1_v3
2:
	xorl	%eax, %eax
3:
	popq	%rbx
	popq	%r14
	popq	%r15
4:
	retq
	vj_end	vulfsjor_ffi_blake2xs_update_1_v3

	vj_export	vulfsjor_ffi_blake2xs_wipe_1_v3
	vxorps	%xmm0, %xmm0, %xmm0
	vmovups	%ymm0, 216(%rdi)
	vmovups	%ymm0, 192(%rdi)
	vmovups	%ymm0, 160(%rdi)
	vmovups	%ymm0, 128(%rdi)
	vmovups	%ymm0, 96(%rdi)
	vmovups	%ymm0, 64(%rdi)
	vmovups	%ymm0, 32(%rdi)
	vmovups	%ymm0, (%rdi)
	vzeroupper
	retq
	vj_end	vulfsjor_ffi_blake2xs_wipe_1_v3

	vj_export	vulfsjor_ffi_memcmp_1_v3
	xorl	%r10d, %r10d
	testq	%rdi, %rdi
	sete	%r9b
	xorl	%r11d, %r11d
	testq	%rdx, %rdx
	sete	%r8b
	movl	$-1, %eax
	cmpq	%rcx, %rsi
	jne	9f
	testq	%rsi, %rsi
	je	10f
	movb	%r9b, %r10b
	shll	$12, %r10d
	leaq	(%rdi,%r10), %rcx
	movb	%r8b, %r11b
	shll	$12, %r11d
	leaq	(%rdx,%r11), %r8
	cmpq	$8, %rsi
	jae	1f
	xorl	%edx, %edx
	xorl	%r9d, %r9d
	jmp	6f
1:
	cmpq	$128, %rsi
	jae	2f
	xorl	%r9d, %r9d
	xorl	%edx, %edx
	jmp	4f
2:
	movq	%rsi, %r9
	andq	$-128, %r9
	addq	%r11, %rdx
	addq	$96, %rdx
	addq	%r10, %rdi
	addq	$96, %rdi
	vpxor	%xmm0, %xmm0, %xmm0
	xorl	%r10d, %r10d
	vpxor	%xmm1, %xmm1, %xmm1
	vpxor	%xmm2, %xmm2, %xmm2
	vpxor	%xmm3, %xmm3, %xmm3
	.p2align	4
3:
	vmovdqu	-96(%rdx,%r10), %ymm4
	vmovdqu	-64(%rdx,%r10), %ymm5
	vmovdqu	-32(%rdx,%r10), %ymm6
	vmovdqu	(%rdx,%r10), %ymm7
	vpxor	-96(%rdi,%r10), %ymm4, %ymm4
	vpor	%ymm0, %ymm4, %ymm0
	vpxor	-64(%rdi,%r10), %ymm5, %ymm4
	vpor	%ymm1, %ymm4, %ymm1
	vpxor	-32(%rdi,%r10), %ymm6, %ymm4
	vpxor	(%rdi,%r10), %ymm7, %ymm5
	vpor	%ymm2, %ymm4, %ymm2
	vpor	%ymm3, %ymm5, %ymm3
	subq	$-128, %r10
	cmpq	%r10, %r9
	jne	3b
	vpor	%ymm0, %ymm1, %ymm0
	vpor	%ymm0, %ymm2, %ymm0
	vpor	%ymm0, %ymm3, %ymm0
	vextracti128	$1, %ymm0, %xmm1
	vpor	%xmm1, %xmm0, %xmm0
	vpshufd	$238, %xmm0, %xmm1
	vpor	%xmm1, %xmm0, %xmm0
	vpshufd	$85, %xmm0, %xmm1
	vpor	%xmm1, %xmm0, %xmm0
	vpsrld	$16, %xmm0, %xmm1
	vpor	%xmm1, %xmm0, %xmm0
	vpsrlw	$8, %xmm0, %xmm1
	vpor	%xmm1, %xmm0, %xmm0
	vmovd	%xmm0, %edx
	cmpq	%r9, %rsi
	je	8f
	testb	$120, %sil
	je	6f
4:
	movq	%r9, %rdi
	movq	%rsi, %r9
	andq	$-8, %r9
	movzbl	%dl, %edx
	vmovd	%edx, %xmm0
	.p2align	4
5:
	movq	(%r8,%rdi), %rdx
	xorq	(%rcx,%rdi), %rdx
	vmovq	%rdx, %xmm1
	vpor	%xmm0, %xmm1, %xmm0
	addq	$8, %rdi
	cmpq	%rdi, %r9
	jne	5b
	vpshufd	$85, %xmm0, %xmm1
	vpor	%xmm1, %xmm0, %xmm0
	vpsrld	$16, %xmm0, %xmm1
	vpor	%xmm1, %xmm0, %xmm0
	vpsrlw	$8, %xmm0, %xmm1
	vpor	%xmm1, %xmm0, %xmm0
	vmovd	%xmm0, %edx
	jmp	7f
6:
	movzbl	(%r8,%r9), %edi
	xorb	(%rcx,%r9), %dil
	orb	%dil, %dl
	incq	%r9
7:
	cmpq	%r9, %rsi
	jne	6b
8:
	testb	%dl, %dl
	je	10f
9:
	vzeroupper
	retq
10:
	xorl	%eax, %eax
	vzeroupper
	retq
	vj_end	vulfsjor_ffi_memcmp_1_v3

	vj_export	vulfsjor_ffi_tree_check_1_v3
	addq	$-65, %rdi
	cmpq	$-64, %rdi
	setb	%al
	cmpq	$17, %rsi
	setae	%sil
	cmpq	$17, %rdx
	setae	%dl
	orb	%sil, %dl
	orb	%al, %dl
	testl	%ecx, %ecx
	sete	%al
	orb	%dl, %al
	movzbl	%al, %eax
	negl	%eax
	retq
	vj_end	vulfsjor_ffi_tree_check_1_v3

	vj_export	vulfsjor_ffi_tree_count_1_v3
	movl	144(%rdi), %r8d
	leal	-1(%r8), %eax
	cmpl	$63, %eax
	ja	4f
	movl	136(%rdi), %edx
	cmpq	$128, %rdx
	ja	4f
	cmpl	$128, 140(%rdi)
	ja	4f
	movq	128(%rdi), %rcx
	movl	%edx, %eax
	notl	%eax
	cltq
	cmpq	%rax, %rcx
	ja	4f
	movl	488(%rdi), %eax
	decl	%eax
	cmpl	$63, %eax
	ja	4f
	movl	480(%rdi), %esi
	cmpq	$128, %rsi
	ja	4f
	cmpl	$128, 484(%rdi)
	ja	4f
	xorl	%eax, %eax
	cmpl	$64, %r8d
	jne	3f
	movq	472(%rdi), %r8
	movl	%esi, %r9d
	notl	%r9d
	movslq	%r9d, %r9
	cmpq	%r9, %r8
	ja	3f
	movq	696(%rdi), %r9
	leaq	-1(%r9), %rax
	movl	$4294967294, %r10d
	cmpq	%r10, %rax
	ja	4f
	cmpq	$16, 704(%rdi)
	ja	4f
	cmpq	$16, 712(%rdi)
	ja	4f
	addq	%rdx, %rcx
	cmpq	%r9, %rcx
	ja	4f
	movabsq	$288230376151711743, %r10
	movq	688(%rdi), %rdi
	movq	%r10, %rax
	subq	%rcx, %rax
	movq	%rax, %rdx
	orq	%r9, %rdx
	shrq	$32, %rdx
	je	1f
	xorl	%edx, %edx
	divq	%r9
	jmp	2f
1:
	xorl	%edx, %edx
	divl	%r9d
2:
	cmpq	%rax, %rdi
	setbe	%al
	cmpq	%r10, %rdi
	setb	%dl
	andb	%al, %dl
	cmpb	$1, %dl
	jne	4f
	addq	%rsi, %r8
	movq	%rdi, %rax
	shlq	$6, %rax
	cmpq	%rax, %r8
	jne	4f
	imulq	%r9, %rdi
	addq	%rdi, %rcx
	movq	%rcx, %rax
3:
	retq
4:
	xorl	%eax, %eax
	retq
	vj_end	vulfsjor_ffi_tree_count_1_v3

	vj_export	vulfsjor_ffi_tree_digest_size_1_v3
	movl	144(%rdi), %r8d
	leal	-1(%r8), %eax
	cmpl	$63, %eax
	ja	4f
	movl	136(%rdi), %edx
	cmpq	$128, %rdx
	ja	4f
	cmpl	$128, 140(%rdi)
	ja	4f
	movq	128(%rdi), %r9
	movl	%edx, %eax
	notl	%eax
	cltq
	cmpq	%rax, %r9
	ja	4f
	movl	488(%rdi), %ecx
	leal	-1(%rcx), %eax
	cmpl	$63, %eax
	ja	4f
	movl	480(%rdi), %esi
	cmpq	$128, %rsi
	ja	4f
	cmpl	$128, 484(%rdi)
	ja	4f
	xorl	%eax, %eax
	cmpl	$64, %r8d
	jne	3f
	movq	472(%rdi), %r8
	movl	%esi, %r10d
	notl	%r10d
	movslq	%r10d, %r10
	cmpq	%r10, %r8
	ja	3f
	movq	696(%rdi), %r10
	leaq	-1(%r10), %rax
	movl	$4294967294, %r11d
	cmpq	%r11, %rax
	ja	4f
	cmpq	$16, 704(%rdi)
	ja	4f
	cmpq	$16, 712(%rdi)
	ja	4f
	addq	%rdx, %r9
	cmpq	%r10, %r9
	ja	4f
	movabsq	$288230376151711743, %r11
	movq	688(%rdi), %rdi
	movq	%r11, %rax
	subq	%r9, %rax
	movq	%rax, %rdx
	orq	%r10, %rdx
	shrq	$32, %rdx
	je	1f
	xorl	%edx, %edx
	divq	%r10
	jmp	2f
1:
	xorl	%edx, %edx
	divl	%r10d
2:
	cmpq	%rax, %rdi
	setbe	%al
	cmpq	%r11, %rdi
	setb	%dl
	andb	%al, %dl
	cmpb	$1, %dl
	jne	4f
	addq	%rsi, %r8
	shlq	$6, %rdi
	xorl	%eax, %eax
	cmpq	%rdi, %r8
	cmoveq	%rcx, %rax
3:
	retq
4:
	xorl	%eax, %eax
	retq
	vj_end	vulfsjor_ffi_tree_digest_size_1_v3

	vj_export	vulfsjor_ffi_tree_final_1_v3
	pushq	%rbp
	pushq	%r15
	pushq	%r14
	pushq	%r13
	pushq	%r12
	pushq	%rbx
	subq	$776, %rsp
	xorl	%ecx, %ecx
	testq	%rsi, %rsi
	sete	%r8b
	movl	144(%rdi), %r14d
	leal	-1(%r14), %r9d
	movl	$-1, %eax
	cmpl	$63, %r9d
	ja	3f
	movl	136(%rdi), %r10d
	cmpq	$128, %r10
	ja	3f
	movl	140(%rdi), %r11d
	cmpl	$128, %r11d
	ja	3f
	movq	128(%rdi), %r15
	movl	%r10d, %r9d
	notl	%r9d
	movslq	%r9d, %r9
	cmpq	%r9, %r15
	ja	3f
	movl	488(%rdi), %r9d
	leal	-1(%r9), %ebx
	cmpl	$63, %ebx
	ja	3f
	movl	480(%rdi), %ebx
	cmpq	$128, %rbx
	ja	3f
	movl	484(%rdi), %ebp
	cmpl	$128, %ebp
	ja	3f
	cmpl	$64, %r14d
	jne	3f
	movq	472(%rdi), %r14
	movl	%ebx, %r12d
	notl	%r12d
	movslq	%r12d, %r12
	cmpq	%r12, %r14
	ja	3f
	movq	%r14, 8(%rsp)
	movq	696(%rdi), %r13
	leaq	-1(%r13), %r12
	movl	$4294967294, %r14d
	cmpq	%r14, %r12
	ja	3f
	cmpq	$16, 704(%rdi)
	ja	3f
	cmpq	$16, 712(%rdi)
	ja	3f
	leaq	(%r15,%r10), %r12
	cmpq	%r13, %r12
	ja	3f
	movq	%rdx, (%rsp)
	movabsq	$288230376151711743, %rax
	movq	688(%rdi), %r14
	subq	%r12, %rax
	movq	%rax, %rdx
	orq	%r13, %rdx
	shrq	$32, %rdx
	je	1f
	xorl	%edx, %edx
	divq	%r13
	jmp	2f
1:
	xorl	%edx, %edx
	divl	%r13d
2:
	cmpq	%rax, %r14
	setbe	%al
	movabsq	$288230376151711743, %rdx
	cmpq	%rdx, %r14
	setb	%dl
	andb	%al, %dl
	cmpb	$1, %dl
	movl	$-1, %eax
	jne	3f
	movq	%r14, %r12
	movq	%rbx, %rdx
	movq	8(%rsp), %r14
	addq	%r14, %rdx
	shlq	$6, %r12
	xorq	%rdx, %r12
	movq	(%rsp), %rdx
	xorq	%r9, %rdx
	orq	%r12, %rdx
	jne	3f
	vmovups	(%rdi), %ymm0
	vmovups	32(%rdi), %ymm1
	vmovups	%ymm0, 432(%rsp)
	vmovups	%ymm1, 464(%rsp)
	vmovups	64(%rdi), %ymm0
	vmovups	96(%rdi), %ymm1
	vmovups	%ymm0, 496(%rsp)
	vmovups	%ymm1, 528(%rsp)
	movq	%r15, 560(%rsp)
	vmovups	152(%rdi), %ymm0
	vmovups	184(%rdi), %ymm1
	vmovups	216(%rdi), %ymm2
	vmovups	248(%rdi), %ymm3
	vmovups	%ymm0, 584(%rsp)
	vmovups	%ymm1, 616(%rsp)
	vmovups	%ymm2, 648(%rsp)
	vmovups	%ymm3, 680(%rsp)
	vmovups	280(%rdi), %ymm0
	vmovups	312(%rdi), %ymm1
	vmovups	%ymm0, 712(%rsp)
	vmovups	%ymm1, 744(%rsp)
	vmovd	%r10d, %xmm0
	vpinsrd	$1, %r11d, %xmm0, %xmm0
	movb	%r8b, %cl
	movl	$64, %eax
	vpinsrd	$2, %eax, %xmm0, %xmm0
	shll	$12, %ecx
	movl	$1, %eax
	vpinsrd	$3, %eax, %xmm0, %xmm0
	vmovdqu	%xmm0, 568(%rsp)
	vmovups	344(%rdi), %ymm0
	vmovups	376(%rdi), %ymm1
	vmovups	%ymm1, 48(%rsp)
	vmovups	%ymm0, 16(%rsp)
	vmovups	408(%rdi), %ymm0
	vmovups	440(%rdi), %ymm1
	vmovups	%ymm0, 80(%rsp)
	vmovups	%ymm1, 112(%rsp)
	movl	492(%rdi), %eax
	movq	%r14, 144(%rsp)
	movl	%ebx, 152(%rsp)
	movl	%ebp, 156(%rsp)
	movl	%r9d, 160(%rsp)
	movl	%eax, 164(%rsp)
	vmovups	496(%rdi), %ymm0
	vmovups	528(%rdi), %ymm1
	vmovups	560(%rdi), %ymm2
	vmovups	592(%rdi), %ymm3
	vmovups	%ymm0, 168(%rsp)
	vmovups	%ymm1, 200(%rsp)
	vmovups	%ymm2, 232(%rsp)
	vmovups	%ymm3, 264(%rsp)
	vmovups	624(%rdi), %ymm0
	vmovups	656(%rdi), %ymm1
	vmovups	%ymm0, 296(%rsp)
	addq	%rcx, %rsi
	vmovups	%ymm1, 328(%rsp)
	vxorps	%xmm0, %xmm0, %xmm0
	vmovups	%ymm0, 368(%rsp)
	vmovups	%ymm0, 400(%rsp)
	leaq	432(%rsp), %rax
	leaq	368(%rsp), %rbx
	movq	%rdi, %r14
	movq	%rax, %rdi
	movq	%rsi, %r15
	movq	%rbx, %rsi
	vzeroupper
	callq	blake2_state..blake2b..State..write_digest_1_v3
	leaq	16(%rsp), %r12
	movl	$64, %edx
	movq	%r12, %rdi
	movq	%rbx, %rsi
	callq	blake2_state..blake2b..State..absorb_blocks_1_v3
	movl	$1, 164(%rsp)
	movq	%r12, %rdi
	movq	%r15, %rsi
	callq	blake2_state..blake2b..State..write_digest_1_v3
	movl	$752, %edx
	movq	%r14, %rdi
	xorl	%esi, %esi
	vj_c_call	memset
	xorl	%eax, %eax
3:
	addq	$776, %rsp
	popq	%rbx
	popq	%r12
	popq	%r13
	popq	%r14
	popq	%r15
	popq	%rbp
	retq
	vj_end	vulfsjor_ffi_tree_final_1_v3

	vj_constants	32
	.p2align	5, 0x0
.L1_v3_CPI189_0:
	.short	64
	.short	512
	.zero	2
	.zero	2
	.zero	2
	.zero	2
	.zero	2
	.zero	2
	.zero	2
	.short	0
	.short	0
	.short	0
	.short	0
	.short	0
	.short	0
	.short	0
.L1_v3_CPI189_1:
	.zero	2
	.zero	2
	.zero	2
	.zero	2
	.short	0
	.short	0
	.short	0
	.short	0
	.short	16384
	.zero	2
	.zero	2
	.zero	2
	.zero	2
	.zero	2
	.zero	2
	.zero	2
.L1_v3_CPI189_2:
	.byte	255
	.byte	255
	.byte	255
	.byte	255
	.byte	255
	.byte	255
	.byte	255
	.byte	255
	.byte	0
	.byte	0
	.byte	0
	.byte	0
	.byte	0
	.byte	0
	.byte	0
	.byte	0
	.byte	0
	.byte	0
	.byte	255
	.byte	255
	.byte	255
	.byte	255
	.byte	255
	.byte	255
	.byte	255
	.byte	255
	.byte	255
	.byte	255
	.byte	255
	.byte	255
	.byte	255
	.byte	255
.L1_v3_CPI189_3:
	.quad	5840696475078001361
	.quad	-7276294671716946913
	.quad	2270897969802886507
	.quad	6620516959819538809
.L1_v3_CPI189_4:
	.quad	7640891576956012808
	.quad	-4942790177534073029
	.quad	4354685564936845355
	.quad	-6534734903238641935
.L1_v3_CPI189_5:
	.zero	2
	.zero	2
	.zero	2
	.zero	2
	.short	0
	.short	0
	.short	0
	.short	0
	.short	16385
	.zero	2
	.zero	2
	.zero	2
	.zero	2
	.zero	2
	.zero	2
	.zero	2
	vj_constants	16
	.p2align	4, 0x0
.L1_v3_CPI189_6:
	.short	16384
	.short	0
	.short	0
	.short	0
	.short	0
	.short	0
	.short	0
	.short	0
.L1_v3_CPI189_7:
	.short	16385
	.short	0
	.short	0
	.short	0
	.short	0
	.short	0
	.short	0
	.short	0
	vj_export	vulfsjor_ffi_tree_init_1_v3
	pushq	%rbp
	movq	%rsp, %rbp
	pushq	%r15
	pushq	%r14
	pushq	%r13
	pushq	%r12
	pushq	%rbx
	andq	$-32, %rsp
	subq	$352, %rsp
	movq	%r9, %rbx
	movq	%rcx, %r14
	movq	%rsi, %r9
	leaq	-1(%rsi), %rax
	cmpq	$64, %rax
	setae	%al
	cmpq	$17, %rcx
	setae	%cl
	cmpq	$17, %rbx
	setae	%sil
	orb	%cl, %sil
	orb	%al, %sil
	cmpl	$0, 16(%rbp)
	sete	%al
	orb	%sil, %al
	jne	1f
	xorl	%r12d, %r12d
	testq	%r8, %r8
	sete	%r12b
	shll	$12, %r12d
	addq	%r8, %r12
	xorl	%r13d, %r13d
	testq	%rdx, %rdx
	sete	%r13b
	shll	$12, %r13d
	addq	%rdx, %r13
	vxorps	%xmm0, %xmm0, %xmm0
	vmovaps	%xmm0, 144(%rsp)
	leaq	144(%rsp), %rax
	movq	%rdi, %r15
	movq	%rax, %rdi
	movq	%r13, %rsi
	movq	%r14, %rdx
	movq	%r9, 24(%rsp)
	vj_c_call	memcpy
	vxorps	%xmm0, %xmm0, %xmm0
	vmovaps	%xmm0, 160(%rsp)
	leaq	160(%rsp), %rdi
	movq	%r12, %rsi
	movq	%rbx, %rdx
	vj_c_call	memcpy
	vmovaps	144(%rsp), %xmm0
	vmovaps	%xmm0, 80(%rsp)
	movq	%r14, 96(%rsp)
	vmovaps	160(%rsp), %xmm0
	vmovups	%xmm0, 104(%rsp)
	movq	%rbx, 120(%rsp)
	movl	16(%rbp), %eax
	movl	%eax, 128(%rsp)
	movl	$0, 132(%rsp)
	vxorps	%xmm0, %xmm0, %xmm0
	vmovaps	%ymm0, 32(%rsp)
	vmovd	%eax, %xmm0
	vpbroadcastd	%xmm0, %xmm0
	vmovdqa	%ymm0, 224(%rsp)
	vpblendd	$253, .L1_v3_CPI189_0(%rip), %ymm0, %ymm0
	vbroadcasti128	.L1_v3_CPI189_6(%rip), %ymm1
	vmovdqa	.L1_v3_CPI189_2(%rip), %ymm2
	vpblendvb	%ymm2, %ymm0, %ymm1, %ymm0
	vmovdqa	%ymm0, 256(%rsp)
	leaq	32(%rsp), %rdi
	leaq	80(%rsp), %rsi
	movq	%r14, %rdx
	vzeroupper
	vj_c_call	memcpy
	leaq	48(%rsp), %rdi
	leaq	104(%rsp), %rsi
	movq	%rbx, %rdx
	vj_c_call	memcpy
	vmovaps	.L1_v3_CPI189_3(%rip), %ymm0
	vxorps	32(%rsp), %ymm0, %ymm0
	vmovaps	%ymm0, 288(%rsp)
	vxorps	%xmm0, %xmm0, %xmm0
	vmovaps	%ymm0, 32(%rsp)
	vmovaps	256(%rsp), %ymm0
	vxorps	.L1_v3_CPI189_4(%rip), %ymm0, %ymm0
	vmovaps	%ymm0, 256(%rsp)
	movq	24(%rsp), %rax
	orl	$33554432, %eax
	vmovd	%eax, %xmm0
	vmovq	%xmm0, %xmm0
	vpblendd	$2, 224(%rsp), %ymm0, %ymm0
	vbroadcasti128	.L1_v3_CPI189_7(%rip), %ymm1
	vmovdqa	.L1_v3_CPI189_2(%rip), %ymm2
	vpblendvb	%ymm2, %ymm0, %ymm1, %ymm0
	vmovdqa	%ymm0, 192(%rsp)
	leaq	32(%rsp), %rdi
	leaq	80(%rsp), %rsi
	movq	%r14, %rdx
	vzeroupper
	vj_c_call	memcpy
	leaq	48(%rsp), %rdi
	leaq	104(%rsp), %rsi
	movq	%rbx, %rdx
	vj_c_call	memcpy
	vmovaps	.L1_v3_CPI189_3(%rip), %ymm0
	vxorps	32(%rsp), %ymm0, %ymm0
	vmovaps	%ymm0, 224(%rsp)
	vmovaps	192(%rsp), %ymm0
	vxorps	.L1_v3_CPI189_4(%rip), %ymm0, %ymm0
	vmovaps	%ymm0, 192(%rsp)
	vxorps	%xmm0, %xmm0, %xmm0
	vmovaps	%xmm0, 176(%rsp)
	leaq	176(%rsp), %rdi
	movq	%r13, %rsi
	movq	%r14, %rdx
	vzeroupper
	vj_c_call	memcpy
	vxorps	%xmm0, %xmm0, %xmm0
	vmovaps	%xmm0, 32(%rsp)
	leaq	32(%rsp), %rdi
	movq	%r12, %rsi
	movq	%rbx, %rdx
	vj_c_call	memcpy
	vmovaps	176(%rsp), %xmm0
	vmovaps	%xmm0, 80(%rsp)
	vmovaps	32(%rsp), %xmm0
	vmovaps	%xmm0, 96(%rsp)
	vmovaps	256(%rsp), %ymm1
	vmovups	%ymm1, (%r15)
	vmovaps	288(%rsp), %ymm0
	vmovups	%ymm0, 32(%r15)
	vmovups	%ymm1, 64(%r15)
	vmovups	%ymm0, 96(%r15)
	vxorps	%xmm0, %xmm0, %xmm0
	vmovups	%xmm0, 128(%r15)
	movl	$64, 144(%r15)
	vxorps	%xmm1, %xmm1, %xmm1
	vmovups	%ymm1, 148(%r15)
	vmovups	%ymm1, 180(%r15)
	vmovups	%ymm1, 212(%r15)
	vmovups	%ymm1, 244(%r15)
	vmovups	%ymm1, 276(%r15)
	vmovups	%ymm1, 308(%r15)
	movl	$0, 340(%r15)
	vmovaps	192(%rsp), %ymm3
	vmovups	%ymm3, 344(%r15)
	vmovaps	224(%rsp), %ymm2
	vmovups	%ymm2, 376(%r15)
	vmovups	%ymm3, 408(%r15)
	vmovups	%ymm2, 440(%r15)
	vmovups	%xmm0, 472(%r15)
	movq	24(%rsp), %rax
	movl	%eax, 488(%r15)
	vmovups	%ymm1, 664(%r15)
	vmovups	%ymm1, 652(%r15)
	vmovups	%ymm1, 620(%r15)
	vmovups	%ymm1, 588(%r15)
	vmovups	%ymm1, 556(%r15)
	vmovups	%ymm1, 524(%r15)
	vmovups	%ymm1, 492(%r15)
	movl	16(%rbp), %eax
	movq	%rax, 696(%r15)
	movq	%r14, 704(%r15)
	movq	%rbx, 712(%r15)
	vmovups	80(%rsp), %ymm0
	vmovups	%ymm0, 720(%r15)
	xorl	%eax, %eax
	jmp	2f
1:
	movl	$752, %edx
	xorl	%esi, %esi
	vj_c_call	memset
	movl	$-1, %eax
2:
	leaq	-40(%rbp), %rsp
	popq	%rbx
	popq	%r12
	popq	%r13
	popq	%r14
	popq	%r15
	popq	%rbp
	vzeroupper
	retq
	vj_end	vulfsjor_ffi_tree_init_1_v3

	vj_constants	32
	.p2align	5, 0x0
.L1_v3_CPI190_0:
	.short	64
	.short	512
	.zero	2
	.zero	2
	.zero	2
	.zero	2
	.zero	2
	.zero	2
	.zero	2
	.short	0
	.short	0
	.short	0
	.short	0
	.short	0
	.short	0
	.short	0
.L1_v3_CPI190_1:
	.short	16384
	.short	512
	.zero	2
	.zero	2
	.zero	2
	.zero	2
	.zero	2
	.zero	2
	.short	16384
	.short	0
	.short	0
	.short	0
	.short	0
	.short	0
	.short	0
	.short	0
.L1_v3_CPI190_2:
	.quad	7640891576956012808
	.quad	-4942790177534073029
	.quad	4354685564936845355
	.quad	-6534734903238641935
.L1_v3_CPI190_3:
	.quad	5840696475078001361
	.quad	-7276294671716946913
	.quad	2270897969802886507
	.quad	6620516959819538809
	vj_constants	16
	.p2align	2, 0x0
.L1_v3_CPI190_4:
	.short	64
	.short	512
	.short	0
	.short	0
	.short	0
	.short	0
	.short	0
	.short	0
	vj_export	vulfsjor_ffi_tree_init_leaf_1_v3
	pushq	%rbp
	movq	%rsp, %rbp
	pushq	%r15
	pushq	%r14
	pushq	%r13
	pushq	%r12
	pushq	%rbx
	andq	$-32, %rsp
	subq	$192, %rsp
	movq	%rsi, %r12
	movq	%rdi, %rbx
	cmpq	$17, %r8
	setb	%al
	cmpq	$17, 16(%rbp)
	setb	%sil
	andb	%al, %sil
	cmpl	$0, 24(%rbp)
	setne	%al
	testb	%al, %sil
	je	1f
	movq	%r8, %r15
	xorl	%r13d, %r13d
	testq	%r9, %r9
	sete	%r13b
	shll	$12, %r13d
	addq	%r9, %r13
	xorl	%esi, %esi
	testq	%rcx, %rcx
	sete	%sil
	shll	$12, %esi
	addq	%rcx, %rsi
	xorl	%r14d, %r14d
	testl	%edx, %edx
	setne	%r14b
	vxorps	%xmm0, %xmm0, %xmm0
	vmovaps	%xmm0, (%rsp)
	movq	%rsp, %rdi
	movq	%r8, %rdx
	vj_c_call	memcpy
	vxorps	%xmm0, %xmm0, %xmm0
	vmovaps	%xmm0, 16(%rsp)
	leaq	16(%rsp), %rdi
	movq	%r13, %rsi
	movq	16(%rbp), %r13
	movq	%r13, %rdx
	vj_c_call	memcpy
	vmovaps	(%rsp), %xmm0
	vmovaps	%xmm0, 32(%rsp)
	movq	%r15, 48(%rsp)
	vmovaps	16(%rsp), %xmm0
	vmovups	%xmm0, 56(%rsp)
	movq	%r13, 72(%rsp)
	movl	24(%rbp), %eax
	movl	%eax, 80(%rsp)
	movl	$0, 84(%rsp)
	vxorps	%xmm0, %xmm0, %xmm0
	vmovaps	%ymm0, 96(%rsp)
	vmovd	%eax, %xmm0
	vpbroadcastd	%xmm0, %xmm0
	vmovd	.L1_v3_CPI190_4(%rip), %xmm1
	vpunpckldq	%xmm0, %xmm1, %xmm0
	vmovq	%r12, %xmm1
	vpunpcklqdq	%xmm1, %xmm0, %xmm0
	vpblendd	$240, .L1_v3_CPI190_1(%rip), %ymm0, %ymm0
	vmovdqa	%ymm0, 128(%rsp)
	leaq	96(%rsp), %rdi
	leaq	32(%rsp), %rsi
	movq	%r15, %rdx
	vzeroupper
	vj_c_call	memcpy
	leaq	112(%rsp), %rdi
	leaq	56(%rsp), %rsi
	movq	%r13, %rdx
	vj_c_call	memcpy
	vmovaps	96(%rsp), %ymm0
	vmovaps	128(%rsp), %ymm1
	vxorps	.L1_v3_CPI190_2(%rip), %ymm1, %ymm1
	vxorps	.L1_v3_CPI190_3(%rip), %ymm0, %ymm0
	vmovups	%ymm1, (%rbx)
	vmovups	%ymm0, 32(%rbx)
	vmovups	%ymm1, 64(%rbx)
	vmovups	%ymm0, 96(%rbx)
	vxorps	%xmm0, %xmm0, %xmm0
	vmovups	%xmm0, 128(%rbx)
	movl	$64, 144(%rbx)
	movl	%r14d, 148(%rbx)
	vxorps	%xmm0, %xmm0, %xmm0
	vmovups	%ymm0, 152(%rbx)
	vmovups	%ymm0, 184(%rbx)
	vmovups	%ymm0, 216(%rbx)
	vmovups	%ymm0, 248(%rbx)
	vmovups	%ymm0, 280(%rbx)
	vmovups	%ymm0, 312(%rbx)
	xorl	%eax, %eax
	jmp	2f
1:
	vxorps	%xmm0, %xmm0, %xmm0
	vmovups	%ymm0, 312(%rbx)
	vmovups	%ymm0, 288(%rbx)
	vmovups	%ymm0, 256(%rbx)
	vmovups	%ymm0, 224(%rbx)
	vmovups	%ymm0, 192(%rbx)
	vmovups	%ymm0, 160(%rbx)
	vmovups	%ymm0, 128(%rbx)
	vmovups	%ymm0, 96(%rbx)
	vmovups	%ymm0, 64(%rbx)
	vmovups	%ymm0, 32(%rbx)
	vmovups	%ymm0, (%rbx)
	movl	$-1, %eax
2:
	leaq	-40(%rbp), %rsp
	popq	%rbx
	popq	%r12
	popq	%r13
	popq	%r14
	popq	%r15
	popq	%rbp
	vzeroupper
	retq
	vj_end	vulfsjor_ffi_tree_init_leaf_1_v3

	vj_constants	32
	.p2align	5, 0x0
.L1_v3_CPI191_0:
	.byte	255
	.byte	255
	.byte	255
	.byte	255
	.byte	255
	.byte	255
	.byte	255
	.byte	255
	.byte	0
	.byte	0
	.byte	0
	.byte	0
	.byte	0
	.byte	0
	.byte	0
	.byte	0
	.byte	0
	.byte	0
	.byte	255
	.byte	255
	.byte	255
	.byte	255
	.byte	255
	.byte	255
	.byte	255
	.byte	255
	.byte	255
	.byte	255
	.byte	255
	.byte	255
	.byte	255
	.byte	255
.L1_v3_CPI191_1:
	.zero	2
	.zero	2
	.zero	2
	.zero	2
	.short	0
	.short	0
	.short	0
	.short	0
	.short	16385
	.zero	2
	.zero	2
	.zero	2
	.zero	2
	.zero	2
	.zero	2
	.zero	2
.L1_v3_CPI191_2:
	.quad	7640891576956012808
	.quad	-4942790177534073029
	.quad	4354685564936845355
	.quad	-6534734903238641935
.L1_v3_CPI191_3:
	.quad	5840696475078001361
	.quad	-7276294671716946913
	.quad	2270897969802886507
	.quad	6620516959819538809
	vj_constants	16
	.p2align	4, 0x0
.L1_v3_CPI191_4:
	.short	16385
	.short	0
	.short	0
	.short	0
	.short	0
	.short	0
	.short	0
	.short	0
	vj_export	vulfsjor_ffi_tree_init_root_1_v3
	pushq	%rbp
	movq	%rsp, %rbp
	pushq	%r15
	pushq	%r14
	pushq	%r13
	pushq	%r12
	pushq	%rbx
	andq	$-32, %rsp
	subq	$192, %rsp
	movq	%rsi, %r14
	movq	%rdi, %rbx
	leaq	-1(%rsi), %rax
	cmpq	$64, %rax
	setb	%al
	cmpq	$17, %rcx
	setb	%sil
	cmpq	$17, %r9
	setb	%dil
	andb	%sil, %dil
	andb	%al, %dil
	cmpl	$0, 16(%rbp)
	setne	%al
	testb	%al, %dil
	je	1f
	movq	%r9, %r15
	xorl	%r13d, %r13d
	testq	%r8, %r8
	sete	%r13b
	shll	$12, %r13d
	addq	%r8, %r13
	xorl	%esi, %esi
	testq	%rdx, %rdx
	sete	%sil
	shll	$12, %esi
	addq	%rdx, %rsi
	vxorps	%xmm0, %xmm0, %xmm0
	vmovaps	%xmm0, (%rsp)
	movq	%rsp, %rdi
	movq	%rcx, %rdx
	movq	%rcx, %r12
	vj_c_call	memcpy
	vxorps	%xmm0, %xmm0, %xmm0
	vmovaps	%xmm0, 16(%rsp)
	leaq	16(%rsp), %rdi
	movq	%r13, %rsi
	movq	%r15, %rdx
	vj_c_call	memcpy
	vmovaps	(%rsp), %xmm0
	vmovaps	%xmm0, 32(%rsp)
	movq	%r12, 48(%rsp)
	leaq	56(%rsp), %r13
	vmovaps	16(%rsp), %xmm0
	vmovups	%xmm0, 56(%rsp)
	movq	%r15, 72(%rsp)
	movl	16(%rbp), %ecx
	movl	%ecx, 80(%rsp)
	movl	$0, 84(%rsp)
	vxorps	%xmm0, %xmm0, %xmm0
	vmovaps	%ymm0, 96(%rsp)
	movl	%r14d, %eax
	orl	$33554432, %eax
	vmovd	%eax, %xmm0
	vmovq	%xmm0, %xmm0
	vmovd	%ecx, %xmm1
	vpbroadcastd	%xmm1, %xmm1
	vpblendd	$2, %ymm1, %ymm0, %ymm0
	vmovdqa	.L1_v3_CPI191_0(%rip), %ymm1
	vbroadcasti128	.L1_v3_CPI191_4(%rip), %ymm2
	vpblendvb	%ymm1, %ymm0, %ymm2, %ymm0
	vmovdqa	%ymm0, 128(%rsp)
	leaq	96(%rsp), %rdi
	leaq	32(%rsp), %rsi
	movq	%r12, %rdx
	vzeroupper
	vj_c_call	memcpy
	leaq	112(%rsp), %rdi
	movq	%r13, %rsi
	movq	%r15, %rdx
	vj_c_call	memcpy
	vmovaps	96(%rsp), %ymm0
	vmovaps	128(%rsp), %ymm1
	vxorps	.L1_v3_CPI191_2(%rip), %ymm1, %ymm1
	vxorps	.L1_v3_CPI191_3(%rip), %ymm0, %ymm0
	vmovups	%ymm1, (%rbx)
	vmovups	%ymm0, 32(%rbx)
	vmovups	%ymm1, 64(%rbx)
	vmovups	%ymm0, 96(%rbx)
	vxorps	%xmm0, %xmm0, %xmm0
	vmovups	%xmm0, 128(%rbx)
	movl	%r14d, 144(%rbx)
	movl	$1, 148(%rbx)
	vxorps	%xmm0, %xmm0, %xmm0
	vmovups	%ymm0, 152(%rbx)
	vmovups	%ymm0, 184(%rbx)
	vmovups	%ymm0, 216(%rbx)
	vmovups	%ymm0, 248(%rbx)
	vmovups	%ymm0, 280(%rbx)
	vmovups	%ymm0, 312(%rbx)
	xorl	%eax, %eax
	jmp	2f
1:
	vxorps	%xmm0, %xmm0, %xmm0
	vmovups	%ymm0, 312(%rbx)
	vmovups	%ymm0, 288(%rbx)
	vmovups	%ymm0, 256(%rbx)
	vmovups	%ymm0, 224(%rbx)
	vmovups	%ymm0, 192(%rbx)
	vmovups	%ymm0, 160(%rbx)
	vmovups	%ymm0, 128(%rbx)
	vmovups	%ymm0, 96(%rbx)
	vmovups	%ymm0, 64(%rbx)
	vmovups	%ymm0, 32(%rbx)
	vmovups	%ymm0, (%rbx)
	movl	$-1, %eax
2:
	leaq	-40(%rbp), %rsp
	popq	%rbx
	popq	%r12
	popq	%r13
	popq	%r14
	popq	%r15
	popq	%rbp
	vzeroupper
	retq
	vj_end	vulfsjor_ffi_tree_init_root_1_v3

	vj_export	vulfsjor_ffi_tree_leaf_count_1_v3
	testl	%esi, %esi
	je	1f
	movl	%esi, %ecx
	movq	%rdi, %rax
	shrq	$32, %rax
	je	2f
	movq	%rdi, %rax
	xorl	%edx, %edx
	divq	%rcx
	jmp	3f
1:
	xorl	%eax, %eax
	retq
2:
	movl	%edi, %eax
	xorl	%edx, %edx
	divl	%ecx
3:
	xorl	%ecx, %ecx
	testq	%rdx, %rdx
	setne	%cl
	leaq	(%rax,%rcx), %rdx
	cmpq	$1, %rdx
	adcq	%rcx, %rax
	retq
	vj_end	vulfsjor_ffi_tree_leaf_count_1_v3

	vj_export	vulfsjor_ffi_tree_leaf_length_1_v3
	movl	144(%rdi), %esi
	leal	-1(%rsi), %ecx
	xorl	%eax, %eax
	cmpl	$63, %ecx
	ja	3f
	movl	136(%rdi), %edx
	cmpq	$128, %rdx
	ja	3f
	cmpl	$128, 140(%rdi)
	ja	3f
	movq	128(%rdi), %r9
	movl	%edx, %ecx
	notl	%ecx
	movslq	%ecx, %rcx
	cmpq	%rcx, %r9
	ja	3f
	movl	488(%rdi), %ecx
	decl	%ecx
	cmpl	$63, %ecx
	ja	3f
	movl	480(%rdi), %ecx
	cmpq	$128, %rcx
	ja	3f
	cmpl	$128, 484(%rdi)
	ja	3f
	cmpl	$64, %esi
	jne	3f
	movq	472(%rdi), %rsi
	movl	%ecx, %r8d
	notl	%r8d
	movslq	%r8d, %r8
	cmpq	%r8, %rsi
	ja	3f
	movq	696(%rdi), %r8
	leaq	-1(%r8), %r10
	movl	$4294967294, %r11d
	cmpq	%r11, %r10
	ja	3f
	cmpq	$16, 704(%rdi)
	ja	3f
	cmpq	$16, 712(%rdi)
	ja	3f
	addq	%rdx, %r9
	cmpq	%r8, %r9
	ja	3f
	movabsq	$288230376151711743, %r10
	movq	688(%rdi), %rdi
	movq	%r10, %rax
	subq	%r9, %rax
	movq	%rax, %rdx
	orq	%r8, %rdx
	shrq	$32, %rdx
	je	1f
	xorl	%edx, %edx
	divq	%r8
	jmp	2f
1:
	xorl	%edx, %edx
	divl	%r8d
2:
	cmpq	%rax, %rdi
	setbe	%al
	cmpq	%r10, %rdi
	setb	%dl
	andb	%al, %dl
	cmpb	$1, %dl
	movl	$0, %eax
	jne	3f
	addq	%rcx, %rsi
	shlq	$6, %rdi
	xorl	%eax, %eax
	cmpq	%rdi, %rsi
	cmovnel	%eax, %r8d
	movl	%r8d, %eax
3:
	retq
	vj_end	vulfsjor_ffi_tree_leaf_length_1_v3

	vj_export	vulfsjor_ffi_tree_leaves_1_v3
	pushq	%rbp
	pushq	%r15
	pushq	%r14
	pushq	%r13
	pushq	%r12
	pushq	%rbx
	subq	$56, %rsp
	movq	%rdx, %r10
	movq	%rdi, %r11
	movq	128(%rsp), %rbx
	movq	112(%rsp), %rdi
	testq	%r11, %r11
	sete	%r14b
	testq	%r8, %r8
	sete	%r15b
	testq	%rdi, %rdi
	sete	%r13b
	testq	%rbx, %rbx
	sete	47(%rsp)
	cmpq	$17, 120(%rsp)
	setae	%al
	cmpq	$17, 136(%rsp)
	setae	%dl
	orb	%al, %dl
	movl	144(%rsp), %ebp
	testl	%ebp, %ebp
	sete	%al
	orb	%dl, %al
	movl	$-1, %r12d
	jne	8f
	movb	%r13b, 44(%rsp)
	movb	%r15b, 45(%rsp)
	movb	%r14b, 46(%rsp)
	movq	%rsi, 48(%rsp)
	testl	%ecx, %ecx
	setne	%r14b
	testq	%r9, %r9
	setne	%r15b
	testq	%r10, %r10
	sete	%sil
	movl	%ebp, %r13d
	movb	$1, %dl
	testl	%ecx, %ecx
	jne	3f
	movq	%r9, %rax
	shrq	$32, %rax
	je	1f
	movq	%r9, %rax
	xorl	%edx, %edx
	divq	%r13
	jmp	2f
1:
	movl	%r9d, %eax
	xorl	%edx, %edx
	divl	%r13d
2:
	testq	%rdx, %rdx
	sete	%dl
3:
	movabsq	$288230376151711743, %rax
	leaq	1(%rax), %rbp
	cmpq	%rbp, %r9
	jae	8f
	andb	%r14b, %sil
	orb	%r15b, %sil
	andb	%dl, %sil
	je	8f
	subq	%r9, %rax
	movabsq	$288230371856744448, %rdx
	testq	%rdx, %rax
	je	4f
	xorl	%edx, %edx
	divq	%r13
	cmpq	%rax, %r10
	jbe	5f
	jmp	8f
4:
	xorl	%edx, %edx
	divl	%r13d
	cmpq	%rax, %r10
	ja	8f
5:
	movq	%r9, %rax
	shrq	$32, %rax
	je	6f
	movq	%r9, %rax
	xorl	%edx, %edx
	divq	%r13
	jmp	7f
6:
	movl	%r9d, %eax
	xorl	%edx, %edx
	divl	%r13d
7:
	xorl	%esi, %esi
	testq	%rdx, %rdx
	setne	%sil
	leaq	(%rax,%rsi), %rdx
	cmpq	$1, %rdx
	adcq	%rsi, %rax
	movq	%rax, %rdx
	shrq	$58, %rdx
	shlq	$6, %rax
	xorq	48(%rsp), %rax
	orq	%rdx, %rax
	movl	144(%rsp), %ebp
	movzbl	46(%rsp), %edx
	movzbl	45(%rsp), %esi
	movzbl	44(%rsp), %r14d
	jne	8f
	xorl	%eax, %eax
	movb	%dl, %al
	xorl	%edx, %edx
	movb	%sil, %dl
	xorl	%esi, %esi
	movb	%r14b, %sil
	xorl	%r14d, %r14d
	movzbl	47(%rsp), %r15d
	movb	%r15b, %r14b
	shll	$12, %eax
	shll	$12, %edx
	shll	$12, %esi
	shll	$12, %r14d
	addq	%rax, %r11
	addq	%rdx, %r8
	addq	%rsi, %rdi
	addq	%r14, %rbx
	xorl	%eax, %eax
	testl	%ecx, %ecx
	setne	%al
	movq	%r11, 24(%rsp)
	movq	%r9, 16(%rsp)
	movq	%r8, 8(%rsp)
	movl	%eax, (%rsp)
	movq	120(%rsp), %rsi
	movq	%rbx, %rdx
	movq	136(%rsp), %rcx
	movl	%ebp, %r8d
	movq	%r10, %r9
	callq	blake2_tree..ranges..hash_leaves_1_v3
	xorl	%r12d, %r12d
8:
	movl	%r12d, %eax
	addq	$56, %rsp
	popq	%rbx
	popq	%r12
	popq	%r13
	popq	%r14
	popq	%r15
	popq	%rbp
	retq
	vj_end	vulfsjor_ffi_tree_leaves_1_v3

	vj_export	vulfsjor_ffi_tree_leaves_ahead_1_v3
	pushq	%rbp
	pushq	%r15
	pushq	%r14
	pushq	%r13
	pushq	%r12
	pushq	%rbx
	subq	$88, %rsp
	xorl	%r12d, %r12d
	testq	%rsi, %rsi
	sete	%bpl
	xorl	%r13d, %r13d
	testq	%r8, %r8
	sete	%r15b
	movl	144(%rdi), %r11d
	leal	-1(%r11), %r10d
	movl	$-1, %eax
	cmpl	$63, %r10d
	ja	10f
	movl	136(%rdi), %r10d
	cmpq	$128, %r10
	ja	10f
	cmpl	$128, 140(%rdi)
	ja	10f
	movq	128(%rdi), %r14
	movl	%r10d, %ebx
	notl	%ebx
	movslq	%ebx, %rbx
	cmpq	%rbx, %r14
	ja	10f
	movl	488(%rdi), %ebx
	decl	%ebx
	cmpl	$63, %ebx
	ja	10f
	movl	480(%rdi), %ebx
	cmpq	$128, %rbx
	ja	10f
	cmpl	$128, 484(%rdi)
	ja	10f
	cmpl	$64, %r11d
	jne	10f
	movq	%rbx, %r11
	movq	472(%rdi), %rbx
	movq	%r11, 72(%rsp)
	notl	%r11d
	movslq	%r11d, %r11
	movq	%rbx, 80(%rsp)
	cmpq	%r11, %rbx
	ja	10f
	movq	696(%rdi), %rbx
	movq	%rbx, 40(%rsp)
	decq	%rbx
	movl	$4294967294, %r11d
	cmpq	%r11, %rbx
	ja	10f
	movq	704(%rdi), %r11
	cmpq	$16, %r11
	ja	10f
	movq	%rcx, 48(%rsp)
	movq	712(%rdi), %rcx
	cmpq	$16, %rcx
	ja	10f
	movq	%r11, 64(%rsp)
	addq	%r10, %r14
	movq	40(%rsp), %r11
	cmpq	%r11, %r14
	ja	10f
	movq	%rdx, 56(%rsp)
	movabsq	$288230376151711743, %rax
	movq	688(%rdi), %r10
	subq	%r14, %rax
	movq	%rax, %rdx
	orq	%r11, %rdx
	shrq	$32, %rdx
	je	1f
	xorl	%edx, %edx
	divq	%r11
	jmp	2f
1:
	xorl	%edx, %edx
	divl	%r11d
2:
	cmpq	%rax, %r10
	setbe	%al
	movabsq	$288230376151711743, %rdx
	cmpq	%rdx, %r10
	setb	%dl
	andb	%al, %dl
	cmpb	$1, %dl
	jne	9f
	movq	80(%rsp), %rdx
	addq	72(%rsp), %rdx
	movq	%r10, %rax
	shlq	$6, %rax
	cmpq	%rax, %rdx
	jne	9f
	imulq	%r11, %r10
	addq	%r10, %r14
	movq	%r14, %rax
	orq	%r11, %rax
	shrq	$32, %rax
	je	3f
	movq	%r14, %rax
	xorl	%edx, %edx
	divq	40(%rsp)
	movq	%rax, %r11
	jmp	4f
3:
	movl	%r14d, %eax
	xorl	%edx, %edx
	divl	40(%rsp)
	movl	%eax, %r11d
4:
	movabsq	$288230376151711743, %rax
	incq	%rax
	cmpq	%rax, 48(%rsp)
	jae	9f
	testq	%rdx, %rdx
	jne	9f
	movq	%r9, %rax
	orq	40(%rsp), %rax
	shrq	$32, %rax
	je	5f
	movq	%r9, %rax
	xorl	%edx, %edx
	divq	40(%rsp)
	movq	%rax, %r14
	jmp	6f
5:
	movl	%r9d, %eax
	xorl	%edx, %edx
	divl	40(%rsp)
	movl	%eax, %r14d
6:
	leaq	-1(%r9), %rax
	movabsq	$288230376151711743, %r10
	cmpq	%r10, %rax
	jae	9f
	testq	%rdx, %rdx
	jne	9f
	addq	48(%rsp), %r11
	movabsq	$288230376151711743, %rdx
	subq	%r9, %rdx
	movq	%rdx, %rax
	orq	40(%rsp), %rdx
	shrq	$32, %rdx
	je	7f
	xorl	%edx, %edx
	divq	40(%rsp)
	jmp	8f
7:
	xorl	%edx, %edx
	divl	40(%rsp)
8:
	cmpq	%rax, %r11
	jbe	11f
9:
	movl	$-1, %eax
10:
	addq	$88, %rsp
	popq	%rbx
	popq	%r12
	popq	%r13
	popq	%r14
	popq	%r15
	popq	%rbp
	retq
11:
	cmpq	$1, %r14
	adcq	$0, %r14
	shlq	$6, %r14
	cmpq	56(%rsp), %r14
	movl	$-1, %eax
	jne	10b
	movb	%bpl, %r12b
	movb	%r15b, %r13b
	shll	$12, %r12d
	shll	$12, %r13d
	addq	%r12, %rsi
	addq	%r13, %r8
	leaq	736(%rdi), %rdx
	addq	$720, %rdi
	movq	%rsi, 24(%rsp)
	movq	%r9, 16(%rsp)
	movq	%r8, 8(%rsp)
	movl	$0, (%rsp)
	movq	64(%rsp), %rsi
	movq	40(%rsp), %r8
	movq	%r11, %r9
	callq	blake2_tree..ranges..hash_leaves_1_v3
	xorl	%eax, %eax
	jmp	10b
	vj_end	vulfsjor_ffi_tree_leaves_ahead_1_v3

	vj_export	vulfsjor_ffi_tree_part_1_v3
	pushq	%rbp
	pushq	%r15
	pushq	%r14
	pushq	%r13
	pushq	%r12
	pushq	%rbx
	movq	24(%rsi), %rbx
	leaq	-1(%rbx), %rcx
	movl	$-1, %eax
	movl	$4294967294, %r8d
	cmpq	%r8, %rcx
	ja	16f
	movq	32(%rsi), %r8
	testq	%r8, %r8
	je	16f
	movq	%rdx, %r11
	movq	%r8, %rax
	orq	%rbx, %rax
	shrq	$32, %rax
	je	1f
	movq	%r8, %rax
	xorl	%edx, %edx
	divq	%rbx
	movq	%rax, %r10
	testq	%rdx, %rdx
	movl	$-1, %eax
	jne	16f
	jmp	2f
1:
	movl	%r8d, %eax
	xorl	%edx, %edx
	divl	%ebx
	movl	%eax, %r10d
	testq	%rdx, %rdx
	movl	$-1, %eax
	jne	16f
2:
	movq	(%rsi), %r14
	movq	8(%rsi), %rcx
	movq	%rcx, %r9
	subq	%r14, %r9
	jb	16f
	movq	%r9, %rdx
	shrq	$58, %rdx
	jne	16f
	movq	64(%rsi), %r12
	cmpq	$1, %r12
	ja	16f
	movq	%r10, %r15
	movq	40(%rsi), %r13
	movq	%r9, %rax
	orq	%r8, %rax
	shrq	$32, %rax
	je	3f
	movq	%r9, %rax
	xorl	%edx, %edx
	divq	%r8
	jmp	4f
3:
	movl	%r9d, %eax
	xorl	%edx, %edx
	divl	%r8d
4:
	cmpq	$1, %rdx
	sbbq	$-1, %rax
	cmpq	%rax, %r12
	cmovaq	%r12, %rax
	cmpq	%rax, %r13
	movl	$-1, %eax
	jne	16f
	testq	%r13, %r13
	je	5f
	movq	%r9, %rax
	orq	%rbx, %rax
	shrq	$32, %rax
	je	6f
	movq	%r9, %rax
	xorl	%edx, %edx
	divq	%rbx
	movq	%rax, %r10
	jmp	7f
5:
	movq	%r11, %rdx
	xorl	%r10d, %r10d
	jmp	8f
6:
	movl	%r9d, %eax
	xorl	%edx, %edx
	divl	%ebx
	movl	%eax, %r10d
7:
	xorl	%eax, %eax
	testq	%rdx, %rdx
	setne	%al
	leaq	(%r10,%rax), %rdx
	cmpq	$1, %rdx
	adcq	%rax, %r10
	shlq	$6, %r10
	movq	%r11, %rdx
	movl	$-1, %eax
8:
	cmpq	%r10, 56(%rsi)
	jne	16f
	movq	48(%rsi), %r10
	cmpq	%r10, %r13
	jb	16f
	testq	%r13, %r13
	setne	%bpl
	testq	%r10, %r10
	sete	%r10b
	testb	%r10b, %bpl
	jne	16f
	cmpq	$1, %r12
	jne	10f
	cmpq	%rdx, %r13
	jbe	16f
	cmpq	$0, 16(%rsi)
	jne	16f
9:
	leaq	1(%rdx), %rax
	xorl	%esi, %esi
	cmpq	%r13, %rax
	cmoveq	%r12, %rsi
	movq	%r8, %rax
	imulq	%rdx, %rax
	addq	%rax, %r14
	subq	%r14, %rcx
	cmpq	%r8, %rcx
	cmovaeq	%r8, %rcx
	movq	%rcx, %rax
	orq	%rbx, %rax
	shrq	$32, %rax
	je	11f
	movq	%rcx, %rax
	xorl	%edx, %edx
	divq	%rbx
	jmp	12f
10:
	cmpq	%rbx, %r14
	jae	16f
	movq	%r9, %rax
	orq	%rbx, %rax
	shrq	$32, %rax
	je	13f
	movq	%r9, %rax
	xorl	%edx, %edx
	divq	%rbx
	jmp	14f
11:
	movl	%ecx, %eax
	xorl	%edx, %edx
	divl	%ebx
12:
	xorl	%r8d, %r8d
	testq	%rdx, %rdx
	setne	%r8b
	leaq	(%rax,%r8), %rdx
	cmpq	$1, %rdx
	adcq	%r8, %rax
	shlq	$6, %rax
	imulq	%r11, %r15
	movq	%r15, (%rdi)
	shlq	$6, %r15
	movq	%r14, 8(%rdi)
	movq	%rcx, 16(%rdi)
	movq	%r15, 24(%rdi)
	movq	%rax, 32(%rdi)
	movq	%rsi, 40(%rdi)
	xorl	%eax, %eax
	jmp	16f
13:
	movl	%r9d, %eax
	xorl	%edx, %edx
	divl	%ebx
14:
	testq	%rdx, %rdx
	movl	$-1, %eax
	jne	16f
	cmpq	%r14, %rcx
	sete	%dl
	movq	16(%rsi), %rax
	testq	%rax, %rax
	setne	%sil
	cmpq	%r11, %r13
	jbe	15f
	orb	%sil, %dl
	je	15f
	cmpq	%rbx, %rax
	ja	15f
	movabsq	$288230376151711744, %rdx
	addq	%rcx, %rax
	cmpq	%rdx, %rax
	movq	%r11, %rdx
	movl	$-1, %eax
	jb	9b
	jmp	16f
15:
	movl	$-1, %eax
16:
	popq	%rbx
	popq	%r12
	popq	%r13
	popq	%r14
	popq	%r15
	popq	%rbp
	retq
	vj_end	vulfsjor_ffi_tree_part_1_v3

	vj_export	vulfsjor_ffi_tree_plan_1_v3
	movl	$-1, %eax
	testl	%ecx, %ecx
	je	4f
	movq	(%r8), %r11
	testq	%r11, %r11
	je	4f
	pushq	%r14
	pushq	%rbx
	subq	$88, %rsp
	movq	8(%r8), %r14
	testq	%r14, %r14
	je	3f
	movq	%rdx, %r9
	shrq	$58, %rdx
	setne	%dl
	movq	%rsi, %r10
	addq	%r9, %r10
	setb	%r10b
	orb	%dl, %r10b
	jne	3f
	vxorps	%xmm0, %xmm0, %xmm0
	vmovups	%ymm0, 48(%rsp)
	vmovups	%ymm0, 16(%rsp)
	movq	$0, 80(%rsp)
	movq	%r9, %rax
	orq	%r14, %rax
	movq	%rsi, %r10
	movq	%rdi, %rbx
	shrq	$32, %rax
	je	1f
	movq	%r9, %rax
	xorl	%edx, %edx
	divq	%r14
	jmp	2f
1:
	movl	%r9d, %eax
	xorl	%edx, %edx
	divl	%r14d
2:
	cmpq	$1, %rax
	adcq	$0, %rax
	cmpq	%r11, %rax
	cmovaeq	%r11, %rax
	movq	$1, (%rsp)
	leaq	16(%rsp), %rdi
	movq	%r8, %rsi
	movq	%rax, %rdx
	movq	%r10, %r8
	vzeroupper
	callq	blake2_tree..thread_plan..Plan..of_1_v3
	movq	80(%rsp), %rax
	movq	%rax, 64(%rbx)
	vmovups	16(%rsp), %ymm0
	vmovups	48(%rsp), %ymm1
	vmovups	%ymm1, 32(%rbx)
	vmovups	%ymm0, (%rbx)
	xorl	%eax, %eax
3:
	addq	$88, %rsp
	popq	%rbx
	popq	%r14
4:
	vzeroupper
	retq
	vj_end	vulfsjor_ffi_tree_plan_1_v3

	vj_export	vulfsjor_ffi_tree_plan_update_1_v3
	pushq	%r15
	pushq	%r14
	pushq	%r13
	pushq	%r12
	pushq	%rbx
	subq	$96, %rsp
	movq	(%rcx), %r14
	movl	$-1, %eax
	testq	%r14, %r14
	je	4f
	movq	8(%rcx), %r9
	testq	%r9, %r9
	je	4f
	movl	144(%rsi), %r8d
	leal	-1(%r8), %r10d
	cmpl	$63, %r10d
	ja	4f
	movl	136(%rsi), %r10d
	cmpq	$128, %r10
	ja	4f
	cmpl	$128, 140(%rsi)
	ja	4f
	movq	128(%rsi), %r11
	movl	%r10d, %ebx
	notl	%ebx
	movslq	%ebx, %rbx
	cmpq	%rbx, %r11
	ja	4f
	movl	488(%rsi), %ebx
	decl	%ebx
	cmpl	$63, %ebx
	ja	4f
	movl	480(%rsi), %r15d
	cmpq	$128, %r15
	ja	4f
	cmpl	$128, 484(%rsi)
	ja	4f
	cmpl	$64, %r8d
	jne	4f
	movq	472(%rsi), %r12
	movl	%r15d, %r8d
	notl	%r8d
	movslq	%r8d, %r8
	cmpq	%r8, %r12
	ja	4f
	movq	696(%rsi), %r8
	leaq	-1(%r8), %rbx
	movl	$4294967294, %r13d
	cmpq	%r13, %rbx
	ja	4f
	cmpq	$16, 704(%rsi)
	ja	4f
	cmpq	$16, 712(%rsi)
	ja	4f
	addq	%r10, %r11
	cmpq	%r8, %r11
	ja	4f
	movq	%rdx, %r10
	movq	%rdi, %rbx
	movabsq	$288230376151711743, %rdi
	movq	688(%rsi), %rsi
	movq	%rdi, %rax
	subq	%r11, %rax
	movq	%rax, %rdx
	orq	%r8, %rdx
	shrq	$32, %rdx
	je	1f
	xorl	%edx, %edx
	divq	%r8
	jmp	2f
1:
	xorl	%edx, %edx
	divl	%r8d
2:
	cmpq	%rax, %rsi
	setbe	%al
	cmpq	%rdi, %rsi
	setb	%dl
	andb	%al, %dl
	cmpb	$1, %dl
	jne	3f
	addq	%r15, %r12
	movq	%rsi, %rax
	shlq	$6, %rax
	cmpq	%rax, %r12
	jne	3f
	imulq	%r8, %rsi
	addq	%rsi, %r11
	subq	%r11, %rdi
	cmpq	%r10, %rdi
	movl	$-1, %eax
	jb	4f
	vxorps	%xmm0, %xmm0, %xmm0
	vmovups	%ymm0, 48(%rsp)
	vmovups	%ymm0, 16(%rsp)
	movq	$0, 80(%rsp)
	movq	%r10, %rax
	orq	%r9, %rax
	shrq	$32, %rax
	je	5f
	movq	%r10, %rax
	xorl	%edx, %edx
	divq	%r9
	movq	%rax, %r9
	jmp	6f
3:
	movl	$-1, %eax
4:
	addq	$96, %rsp
	popq	%rbx
	popq	%r12
	popq	%r13
	popq	%r14
	popq	%r15
	vzeroupper
	retq
5:
	movl	%r10d, %eax
	xorl	%edx, %edx
	divl	%r9d
	movl	%eax, %r9d
6:
	cmpq	$1, %r9
	adcq	$0, %r9
	cmpq	%r14, %r9
	cmovaeq	%r14, %r9
	movq	%r11, %rax
	orq	%r8, %rax
	shrq	$32, %rax
	je	7f
	movq	%r11, %rax
	xorl	%edx, %edx
	divq	%r8
	jmp	8f
7:
	movl	%r11d, %eax
	xorl	%edx, %edx
	divl	%r8d
8:
	movq	%r8, %rax
	subq	%rdx, %rax
	movq	%rax, %rdx
	orq	%r8, %rdx
	shrq	$32, %rdx
	je	9f
	xorl	%edx, %edx
	divq	%r8
	movq	%rdx, %r11
	jmp	10f
9:
	xorl	%edx, %edx
	divl	%r8d
	movl	%edx, %r11d
10:
	cmpq	%r11, %r10
	cmovbq	%r10, %r11
	subq	%r11, %r10
	cmpq	$1, %r10
	movq	%r10, %rsi
	adcq	$-1, %r10
	movq	%r10, %rax
	orq	%r8, %rax
	shrq	$32, %rax
	je	11f
	movq	%r10, %rax
	xorl	%edx, %edx
	divq	%r8
	jmp	12f
11:
	movl	%r10d, %eax
	xorl	%edx, %edx
	divl	%r8d
12:
	subq	%rdx, %r10
	movq	%rsi, %r14
	subq	%r10, %r14
	movq	$0, (%rsp)
	leaq	16(%rsp), %rdi
	movq	%rcx, %rsi
	movq	%r9, %rdx
	movl	%r8d, %ecx
	movq	%r11, %r8
	movq	%r10, %r9
	vzeroupper
	callq	blake2_tree..thread_plan..Plan..of_1_v3
	vmovaps	16(%rsp), %xmm0
	vmovups	40(%rsp), %ymm1
	vmovups	72(%rsp), %xmm2
	vmovups	%xmm0, (%rbx)
	movq	%r14, 16(%rbx)
	vmovups	%ymm1, 24(%rbx)
	vmovups	%xmm2, 56(%rbx)
	xorl	%eax, %eax
	jmp	4b
	vj_end	vulfsjor_ffi_tree_plan_update_1_v3

	vj_constants	32
	.p2align	5, 0x0
.L1_v3_CPI199_0:
	.byte	255
	.byte	255
	.byte	255
	.byte	255
	.byte	255
	.byte	255
	.byte	255
	.byte	255
	.byte	0
	.byte	0
	.byte	0
	.byte	0
	.byte	0
	.byte	0
	.byte	0
	.byte	0
	.byte	0
	.byte	0
	.byte	255
	.byte	255
	.byte	255
	.byte	255
	.byte	255
	.byte	255
	.byte	255
	.byte	255
	.byte	255
	.byte	255
	.byte	255
	.byte	255
	.byte	255
	.byte	255
.L1_v3_CPI199_1:
	.zero	2
	.zero	2
	.zero	2
	.zero	2
	.short	0
	.short	0
	.short	0
	.short	0
	.short	16385
	.zero	2
	.zero	2
	.zero	2
	.zero	2
	.zero	2
	.zero	2
	.zero	2
.L1_v3_CPI199_2:
	.quad	7640891576956012808
	.quad	-4942790177534073029
	.quad	4354685564936845355
	.quad	-6534734903238641935
.L1_v3_CPI199_3:
	.quad	5840696475078001361
	.quad	-7276294671716946913
	.quad	2270897969802886507
	.quad	6620516959819538809
	vj_constants	16
	.p2align	4, 0x0
.L1_v3_CPI199_4:
	.short	16385
	.short	0
	.short	0
	.short	0
	.short	0
	.short	0
	.short	0
	.short	0
	vj_export	vulfsjor_ffi_tree_root_of_leaves_1_v3
	pushq	%rbp
	movq	%rsp, %rbp
	pushq	%r15
	pushq	%r14
	pushq	%r13
	pushq	%r12
	pushq	%rbx
	andq	$-32, %rsp
	subq	$512, %rsp
	movq	16(%rbp), %r14
	xorl	%r12d, %r12d
	testq	%rdi, %rdi
	sete	64(%rsp)
	xorl	%r13d, %r13d
	testq	%rdx, %rdx
	sete	16(%rsp)
	xorl	%r11d, %r11d
	testq	%r8, %r8
	sete	24(%rsp)
	xorl	%r10d, %r10d
	testq	%r14, %r14
	sete	%bl
	leaq	-1(%rsi), %rax
	cmpq	$64, %rax
	setae	%al
	cmpq	$17, %r9
	setae	%r15b
	orb	%al, %r15b
	cmpq	$17, 24(%rbp)
	setae	%al
	orb	%r15b, %al
	cmpl	$0, 32(%rbp)
	sete	%r15b
	orb	%al, %r15b
	movl	$-1, %eax
	jne	1f
	movb	%bl, 15(%rsp)
	testq	%rcx, %rcx
	sete	%r15b
	testb	$63, %cl
	setne	%bl
	orb	%r15b, %bl
	jne	1f
	movzbl	64(%rsp), %eax
	movb	%al, %r12b
	shll	$12, %r12d
	addq	%r12, %rdi
	movzbl	16(%rsp), %eax
	movb	%al, %r13b
	shll	$12, %r13d
	addq	%r13, %rdx
	movq	%rdx, 16(%rsp)
	movzbl	24(%rsp), %eax
	movb	%al, %r11b
	shll	$12, %r11d
	addq	%r11, %r8
	movzbl	15(%rsp), %eax
	movb	%al, %r10b
	shll	$12, %r10d
	addq	%r10, %r14
	vxorps	%xmm0, %xmm0, %xmm0
	vmovaps	%xmm0, 32(%rsp)
	leaq	32(%rsp), %rax
	movq	%rdi, %r12
	movq	%rax, %rdi
	movq	%rsi, %r13
	movq	%r8, %rsi
	movq	%r9, %rdx
	movq	%rcx, 24(%rsp)
	movq	%r9, %r15
	vj_c_call	memcpy
	vxorps	%xmm0, %xmm0, %xmm0
	vmovaps	%xmm0, 48(%rsp)
	leaq	48(%rsp), %rdi
	movq	%r14, %rsi
	movq	24(%rbp), %rbx
	movq	%rbx, %rdx
	vj_c_call	memcpy
	vmovaps	32(%rsp), %xmm0
	vmovaps	%xmm0, 144(%rsp)
	movq	%r15, 160(%rsp)
	leaq	168(%rsp), %r14
	vmovaps	48(%rsp), %xmm0
	vmovups	%xmm0, 168(%rsp)
	movq	%rbx, 184(%rsp)
	movl	32(%rbp), %ecx
	movl	%ecx, 192(%rsp)
	movl	$0, 196(%rsp)
	vxorps	%xmm0, %xmm0, %xmm0
	vmovaps	%ymm0, 96(%rsp)
	movl	%r13d, %eax
	orl	$33554432, %eax
	vmovd	%eax, %xmm0
	vmovq	%xmm0, %xmm0
	vmovd	%ecx, %xmm1
	vpbroadcastd	%xmm1, %xmm1
	vpblendd	$2, %ymm1, %ymm0, %ymm0
	vmovdqa	.L1_v3_CPI199_0(%rip), %ymm1
	vbroadcasti128	.L1_v3_CPI199_4(%rip), %ymm2
	vpblendvb	%ymm1, %ymm0, %ymm2, %ymm0
	vmovdqa	%ymm0, 64(%rsp)
	leaq	96(%rsp), %rdi
	leaq	144(%rsp), %rsi
	movq	%r15, %rdx
	vzeroupper
	vj_c_call	memcpy
	leaq	112(%rsp), %rdi
	movq	%r14, %rsi
	movq	%rbx, %rdx
	vj_c_call	memcpy
	vmovaps	96(%rsp), %ymm0
	vmovaps	64(%rsp), %ymm1
	vxorps	.L1_v3_CPI199_2(%rip), %ymm1, %ymm1
	vxorps	.L1_v3_CPI199_3(%rip), %ymm0, %ymm0
	vmovups	%ymm1, 144(%rsp)
	vmovups	%ymm0, 176(%rsp)
	vmovups	%ymm1, 208(%rsp)
	vmovups	%ymm0, 240(%rsp)
	vxorps	%xmm0, %xmm0, %xmm0
	vmovups	%xmm0, 272(%rsp)
	movl	%r13d, 288(%rsp)
	movl	$1, 292(%rsp)
	vxorps	%xmm0, %xmm0, %xmm0
	vmovups	%ymm0, 296(%rsp)
	vmovups	%ymm0, 328(%rsp)
	vmovups	%ymm0, 360(%rsp)
	vmovups	%ymm0, 392(%rsp)
	vmovups	%ymm0, 424(%rsp)
	vmovups	%ymm0, 456(%rsp)
	leaq	144(%rsp), %rbx
	movq	%rbx, %rdi
	movq	16(%rsp), %rsi
	movq	24(%rsp), %rdx
	vzeroupper
	callq	blake2_state..blake2b..State..absorb_blocks_1_v3
	movq	%rbx, %rdi
	movq	%r12, %rsi
	callq	blake2_state..blake2b..State..write_digest_1_v3
	xorl	%eax, %eax
1:
	leaq	-40(%rbp), %rsp
	popq	%rbx
	popq	%r12
	popq	%r13
	popq	%r14
	popq	%r15
	popq	%rbp
	retq
	vj_end	vulfsjor_ffi_tree_root_of_leaves_1_v3

	vj_export	vulfsjor_ffi_tree_state_size_1_v3
	movl	$752, %eax
	retq
	vj_end	vulfsjor_ffi_tree_state_size_1_v3

	vj_export	vulfsjor_ffi_tree_update_1_v3
	xorl	%r8d, %r8d
	testq	%rsi, %rsi
	sete	%r9b
	movl	144(%rdi), %ecx
	leal	-1(%rcx), %r10d
	movl	$-1, %eax
	cmpl	$63, %r10d
	ja	5f
	movl	136(%rdi), %r10d
	cmpq	$128, %r10
	ja	5f
	cmpl	$128, 140(%rdi)
	ja	5f
	pushq	%rbp
	pushq	%r15
	pushq	%r14
	pushq	%r13
	pushq	%r12
	pushq	%rbx
	pushq	%rax
	movq	128(%rdi), %r11
	movl	%r10d, %ebx
	notl	%ebx
	movslq	%ebx, %rbx
	cmpq	%rbx, %r11
	ja	4f
	movl	488(%rdi), %ebx
	decl	%ebx
	cmpl	$63, %ebx
	ja	4f
	movl	480(%rdi), %ebx
	cmpq	$128, %rbx
	ja	4f
	cmpl	$128, 484(%rdi)
	ja	4f
	cmpl	$64, %ecx
	jne	4f
	movq	472(%rdi), %r14
	movl	%ebx, %ecx
	notl	%ecx
	movslq	%ecx, %rcx
	cmpq	%rcx, %r14
	ja	4f
	movq	696(%rdi), %r15
	leaq	-1(%r15), %rcx
	movl	$4294967294, %r12d
	cmpq	%r12, %rcx
	ja	4f
	cmpq	$16, 704(%rdi)
	ja	4f
	cmpq	$16, 712(%rdi)
	ja	4f
	leaq	(%r11,%r10), %rbp
	cmpq	%r15, %rbp
	ja	4f
	movq	%rdx, %rcx
	movabsq	$288230376151711743, %r13
	movq	688(%rdi), %r12
	movq	%r13, %rax
	subq	%rbp, %rax
	movq	%rax, %rdx
	orq	%r15, %rdx
	shrq	$32, %rdx
	je	1f
	xorl	%edx, %edx
	divq	%r15
	jmp	2f
1:
	xorl	%edx, %edx
	divl	%r15d
2:
	cmpq	%rax, %r12
	setbe	%al
	cmpq	%r13, %r12
	setb	%dl
	andb	%al, %dl
	cmpb	$1, %dl
	jne	3f
	addq	%rbx, %r14
	movq	%r12, %rax
	shlq	$6, %rax
	cmpq	%rax, %r14
	jne	3f
	imulq	%r15, %r12
	xorq	%r13, %r10
	addq	%r12, %r11
	subq	%r11, %r10
	cmpq	%rcx, %r10
	movl	$-1, %eax
	jb	4f
	movb	%r9b, %r8b
	shll	$12, %r8d
	addq	%r8, %rsi
	movq	%rcx, %rdx
	callq	blake2_state..tree..TreeState..update_1_v3
	xorl	%eax, %eax
	jmp	4f
3:
	movl	$-1, %eax
4:
	addq	$8, %rsp
	popq	%rbx
	popq	%r12
	popq	%r13
	popq	%r14
	popq	%r15
	popq	%rbp
5:
	retq
	vj_end	vulfsjor_ffi_tree_update_1_v3

	vj_constants	32
	.p2align	5, 0x0
.L1_v3_CPI202_0:
	.short	64
	.short	512
	.zero	2
	.zero	2
	.zero	2
	.zero	2
	.zero	2
	.zero	2
	.zero	2
	.short	0
	.short	0
	.short	0
	.short	0
	.short	0
	.short	0
	.short	0
.L1_v3_CPI202_1:
	.short	16384
	.short	512
	.zero	2
	.zero	2
	.zero	2
	.zero	2
	.zero	2
	.zero	2
	.short	16384
	.short	0
	.short	0
	.short	0
	.short	0
	.short	0
	.short	0
	.short	0
.L1_v3_CPI202_2:
	.quad	7640891576956012808
	.quad	-4942790177534073029
	.quad	4354685564936845355
	.quad	-6534734903238641935
.L1_v3_CPI202_3:
	.quad	5840696475078001361
	.quad	-7276294671716946913
	.quad	2270897969802886507
	.quad	6620516959819538809
	vj_constants	16
	.p2align	2, 0x0
.L1_v3_CPI202_4:
	.short	64
	.short	512
	.short	0
	.short	0
	.short	0
	.short	0
	.short	0
	.short	0
	vj_export	vulfsjor_ffi_tree_update_leaves_1_v3
	pushq	%rbp
	movq	%rsp, %rbp
	pushq	%r15
	pushq	%r14
	pushq	%r13
	pushq	%r12
	pushq	%rbx
	andq	$-32, %rsp
	subq	$384, %rsp
	movq	%rdi, %r15
	xorl	%r10d, %r10d
	testq	%rsi, %rsi
	sete	%r11b
	xorl	%ebx, %ebx
	testq	%rcx, %rcx
	sete	%r12b
	movl	144(%rdi), %r14d
	leal	-1(%r14), %edi
	movl	$-1, %eax
	cmpl	$63, %edi
	ja	8f
	movl	136(%r15), %r13d
	cmpq	$128, %r13
	ja	8f
	cmpl	$128, 140(%r15)
	ja	8f
	movq	128(%r15), %rdi
	movl	%r13d, %r9d
	notl	%r9d
	movslq	%r9d, %r9
	cmpq	%r9, %rdi
	ja	8f
	movl	488(%r15), %r9d
	decl	%r9d
	cmpl	$63, %r9d
	ja	8f
	movl	480(%r15), %r9d
	cmpq	$128, %r9
	ja	8f
	cmpl	$128, 484(%r15)
	ja	8f
	cmpl	$64, %r14d
	jne	8f
	movq	472(%r15), %r14
	movq	%r14, 128(%rsp)
	movl	%r9d, %r14d
	notl	%r14d
	movslq	%r14d, %r14
	cmpq	%r14, 128(%rsp)
	ja	8f
	movq	696(%r15), %r14
	movq	%r14, 32(%rsp)
	movq	32(%rsp), %r14
	decq	%r14
	movq	%r14, 16(%rsp)
	movl	$4294967294, %r14d
	cmpq	%r14, 16(%rsp)
	ja	8f
	movq	704(%r15), %r14
	cmpq	$16, %r14
	ja	8f
	movq	%r14, 16(%rsp)
	movq	712(%r15), %r14
	cmpq	$16, %r14
	ja	8f
	movq	%r14, 88(%rsp)
	leaq	(%rdi,%r13), %r14
	cmpq	32(%rsp), %r14
	movq	32(%rsp), %r14
	ja	8f
	movq	%rdx, (%rsp)
	movabsq	$288230376151711743, %rax
	movq	688(%r15), %rdx
	movq	%rdx, 8(%rsp)
	subq	%rdi, %rax
	subq	%r13, %rax
	movq	%rax, %rdx
	orq	%r14, %rdx
	shrq	$32, %rdx
	je	1f
	xorl	%edx, %edx
	divq	%r14
	jmp	2f
1:
	xorl	%edx, %edx
	divl	%r14d
2:
	movq	8(%rsp), %r14
	cmpq	%rax, %r14
	setbe	%al
	movabsq	$288230376151711743, %rdx
	cmpq	%rdx, %r14
	setb	%dl
	andb	%al, %dl
	cmpb	$1, %dl
	jne	7f
	movq	%rsi, 120(%rsp)
	movq	%rcx, 80(%rsp)
	movq	%r8, 24(%rsp)
	movq	128(%rsp), %rcx
	addq	%r9, %rcx
	movq	%r14, %rax
	shlq	$6, %rax
	cmpq	%rax, %rcx
	jne	7f
	cmpq	$0, (%rsp)
	je	3f
	cmpq	$0, 24(%rsp)
	je	7f
	movq	8(%rsp), %rax
	movq	32(%rsp), %rcx
	imulq	%rcx, %rax
	leaq	(%rdi,%r13), %rdx
	addq	%rax, %rdx
	movq	%rdx, %rax
	orq	%rcx, %rdx
	shrq	$32, %rdx
	je	4f
	xorl	%edx, %edx
	divq	32(%rsp)
	jmp	5f
3:
	movb	$1, %al
	jmp	6f
4:
	xorl	%edx, %edx
	divl	32(%rsp)
5:
	testq	%rdx, %rdx
	sete	%al
6:
	testb	$63, (%rsp)
	jne	7f
	testb	%al, %al
	je	7f
	movq	8(%rsp), %rcx
	imulq	32(%rsp), %rcx
	movabsq	$288230376151711743, %rax
	xorq	%r13, %rax
	addq	%rdi, %rcx
	subq	%rcx, %rax
	subq	24(%rsp), %rax
	jae	9f
7:
	movl	$-1, %eax
8:
	leaq	-40(%rbp), %rsp
	popq	%rbx
	popq	%r12
	popq	%r13
	popq	%r14
	popq	%r15
	popq	%rbp
	retq
9:
	movq	(%rsp), %rcx
	shrq	$6, %rcx
	movq	%rcx, 128(%rsp)
	movq	%rax, %rcx
	orq	32(%rsp), %rcx
	shrq	$32, %rcx
	je	10f
	xorl	%edx, %edx
	divq	32(%rsp)
	jmp	11f
10:
	xorl	%edx, %edx
	divl	32(%rsp)
11:
	cmpq	%rax, 128(%rsp)
	movl	$-1, %eax
	ja	8b
	movb	%r12b, %bl
	shll	$12, %ebx
	addq	%rbx, 80(%rsp)
	cmpq	$0, (%rsp)
	je	13f
	movb	%r11b, %r10b
	shll	$12, %r10d
	addq	%r10, 120(%rsp)
	leaq	128(%r15), %rax
	movq	%rax, 8(%rsp)
	negq	%r13
	cmpq	%r13, %rdi
	je	12f
	leaq	720(%r15), %rsi
	leaq	736(%r15), %r14
	vxorps	%xmm0, %xmm0, %xmm0
	vmovaps	%xmm0, 336(%rsp)
	leaq	336(%rsp), %rdi
	movq	16(%rsp), %r12
	movq	%r12, %rdx
	vj_c_call	memcpy
	vxorps	%xmm0, %xmm0, %xmm0
	vmovaps	%xmm0, 96(%rsp)
	leaq	96(%rsp), %rdi
	movq	%r14, %rsi
	movq	88(%rsp), %r13
	movq	%r13, %rdx
	vj_c_call	memcpy
	vmovaps	336(%rsp), %xmm0
	vmovaps	%xmm0, 192(%rsp)
	movq	%r12, 208(%rsp)
	vmovaps	96(%rsp), %xmm0
	vmovups	%xmm0, 216(%rsp)
	movq	%r13, 232(%rsp)
	movq	32(%rsp), %r14
	movl	%r14d, 240(%rsp)
	movl	$0, 244(%rsp)
	movl	$0, 148(%r15)
	vxorps	%xmm0, %xmm0, %xmm0
	vmovaps	%ymm0, 288(%rsp)
	vmovaps	%ymm0, 256(%rsp)
	leaq	256(%rsp), %rsi
	movq	%r15, %rdi
	vzeroupper
	callq	blake2_state..blake2b..State..write_digest_1_v3
	movl	$64, %edx
	leaq	344(%r15), %rdi
	leaq	256(%rsp), %rsi
	callq	blake2_state..blake2b..State..absorb_blocks_1_v3
	movq	688(%r15), %rax
	incq	%rax
	movq	%rax, 688(%r15)
	vxorps	%xmm0, %xmm0, %xmm0
	vmovaps	%ymm0, 160(%rsp)
	vmovd	%r14d, %xmm0
	vpbroadcastd	%xmm0, %xmm0
	vmovd	.L1_v3_CPI202_4(%rip), %xmm1
	vpunpckldq	%xmm0, %xmm1, %xmm0
	vmovq	%rax, %xmm1
	vpunpcklqdq	%xmm1, %xmm0, %xmm0
	vpblendd	$240, .L1_v3_CPI202_1(%rip), %ymm0, %ymm0
	vmovdqa	%ymm0, 32(%rsp)
	leaq	160(%rsp), %rdi
	leaq	192(%rsp), %rsi
	movq	%r12, %rdx
	vzeroupper
	vj_c_call	memcpy
	leaq	176(%rsp), %rdi
	leaq	216(%rsp), %rsi
	movq	%r13, %rdx
	vj_c_call	memcpy
	vmovaps	160(%rsp), %ymm0
	vmovaps	32(%rsp), %ymm1
	vxorps	.L1_v3_CPI202_2(%rip), %ymm1, %ymm1
	vxorps	.L1_v3_CPI202_3(%rip), %ymm0, %ymm0
	vmovups	%ymm1, (%r15)
	vmovups	%ymm0, 32(%r15)
	vmovups	%ymm1, 64(%r15)
	vmovups	%ymm0, 96(%r15)
	leaq	128(%r15), %rax
	vxorps	%xmm0, %xmm0, %xmm0
	vmovups	%xmm0, (%rax)
	movl	$64, 144(%r15)
	vxorps	%xmm0, %xmm0, %xmm0
	vmovups	%ymm0, 148(%r15)
	vmovups	%ymm0, 180(%r15)
	vmovups	%ymm0, 212(%r15)
	vmovups	%ymm0, 244(%r15)
	vmovups	%ymm0, 276(%r15)
	vmovups	%ymm0, 308(%r15)
	movl	$0, 340(%r15)
	movq	696(%r15), %rax
	movq	%rax, 32(%rsp)
	movq	704(%r15), %rax
	movq	%rax, 16(%rsp)
	movq	712(%r15), %rax
	movq	%rax, 88(%rsp)
12:
	leaq	720(%r15), %rsi
	leaq	736(%r15), %rbx
	vxorps	%xmm0, %xmm0, %xmm0
	vmovaps	%xmm0, 96(%rsp)
	leaq	96(%rsp), %rdi
	movq	16(%rsp), %r12
	movq	%r12, %rdx
	vzeroupper
	vj_c_call	memcpy
	vxorps	%xmm0, %xmm0, %xmm0
	vmovaps	%xmm0, 160(%rsp)
	leaq	160(%rsp), %rdi
	movq	%rbx, %rsi
	movq	88(%rsp), %r13
	movq	%r13, %rdx
	vj_c_call	memcpy
	vmovaps	96(%rsp), %xmm0
	vmovaps	%xmm0, 256(%rsp)
	movq	%r12, 272(%rsp)
	leaq	280(%rsp), %rbx
	vmovaps	160(%rsp), %xmm0
	vmovups	%xmm0, 280(%rsp)
	movq	%r13, 296(%rsp)
	movq	32(%rsp), %r14
	movl	%r14d, 304(%rsp)
	movl	$0, 308(%rsp)
	leaq	344(%r15), %rdi
	movq	120(%rsp), %rsi
	movq	(%rsp), %rdx
	callq	blake2_state..blake2b..State..absorb_blocks_1_v3
	movq	128(%rsp), %rax
	addq	688(%r15), %rax
	movq	%rax, 688(%r15)
	vxorps	%xmm0, %xmm0, %xmm0
	vmovaps	%ymm0, 192(%rsp)
	vmovd	%r14d, %xmm0
	vpbroadcastd	%xmm0, %xmm0
	vmovd	.L1_v3_CPI202_4(%rip), %xmm1
	vpunpckldq	%xmm0, %xmm1, %xmm0
	vmovq	%rax, %xmm1
	vpunpcklqdq	%xmm1, %xmm0, %xmm0
	vpblendd	$240, .L1_v3_CPI202_1(%rip), %ymm0, %ymm0
	vmovdqa	%ymm0, 128(%rsp)
	leaq	192(%rsp), %rdi
	leaq	256(%rsp), %rsi
	movq	%r12, %rdx
	vzeroupper
	vj_c_call	memcpy
	leaq	208(%rsp), %rdi
	movq	%rbx, %rsi
	movq	%r13, %rdx
	vj_c_call	memcpy
	vmovaps	192(%rsp), %ymm0
	vmovaps	128(%rsp), %ymm1
	vxorps	.L1_v3_CPI202_2(%rip), %ymm1, %ymm1
	vxorps	.L1_v3_CPI202_3(%rip), %ymm0, %ymm0
	vmovups	%ymm1, (%r15)
	vmovups	%ymm0, 32(%r15)
	vmovups	%ymm1, 64(%r15)
	vmovups	%ymm0, 96(%r15)
	movq	8(%rsp), %rax
	vxorps	%xmm0, %xmm0, %xmm0
	vmovups	%xmm0, (%rax)
	movl	$64, 144(%r15)
	vxorps	%xmm0, %xmm0, %xmm0
	vmovups	%ymm0, 148(%r15)
	vmovups	%ymm0, 180(%r15)
	vmovups	%ymm0, 212(%r15)
	vmovups	%ymm0, 244(%r15)
	vmovups	%ymm0, 276(%r15)
	vmovups	%ymm0, 308(%r15)
	movl	$0, 340(%r15)
13:
	movq	%r15, %rdi
	movq	80(%rsp), %rsi
	movq	24(%rsp), %rdx
	vzeroupper
	callq	blake2_state..tree..TreeState..update_1_v3
	xorl	%eax, %eax
	jmp	8b
	vj_end	vulfsjor_ffi_tree_update_leaves_1_v3

	vj_export	vulfsjor_ffi_tree_wipe_1_v3
	movl	$752, %edx
	xorl	%esi, %esi
	vj_c_jump	memset
	vj_end	vulfsjor_ffi_tree_wipe_1_v3

	vj_export	vulfsjor_ffi_wipe_1_v3
	xorl	%eax, %eax
	testq	%rdi, %rdi
	sete	%cl
	testq	%rsi, %rsi
	je	2f
	pushq	%r14
	pushq	%rbx
	pushq	%rax
	movq	%rsi, %rbx
	movq	%rdi, %r14
	movb	%cl, %al
	shll	$12, %eax
	addq	%rax, %r14
	decq	%rbx
	je	1f
	movq	%r14, %rdi
	xorl	%esi, %esi
	movq	%rbx, %rdx
	vj_c_call	memset
1:
	movb	$0, (%r14,%rbx)
	addq	$8, %rsp
	popq	%rbx
	popq	%r14
2:
	retq
	vj_end	vulfsjor_ffi_wipe_1_v3

	vj_export	vulfsjor_ffi_blake2bp_1_v3
	pushq	%rbx
	movq	%r9, %rbx
	xorl	%eax, %eax
	testq	%rdi, %rdi
	sete	%al
	shll	$12, %eax
	addq	%rax, %rdi
	xorl	%eax, %eax
	testq	%rdx, %rdx
	sete	%al
	shll	$12, %eax
	addq	%rax, %rdx
	xorl	%eax, %eax
	testq	%r8, %r8
	sete	%al
	shll	$12, %eax
	addq	%rax, %r8
	callq	blake2_ffi..blake2bp..write_1_v3
	testq	%rbx, %rbx
	je	1f
	movl	%eax, %ebx
	callq	blake2_digest..wiping..scrub_stack..8704_1_v3
	movl	%ebx, %eax
1:
	popq	%rbx
	retq
	vj_end	vulfsjor_ffi_blake2bp_1_v3

	vj_export	vulfsjor_ffi_blake2sp_1_v3
	pushq	%rbx
	movq	%r9, %rbx
	xorl	%eax, %eax
	testq	%rdi, %rdi
	sete	%al
	shll	$12, %eax
	addq	%rax, %rdi
	xorl	%eax, %eax
	testq	%rdx, %rdx
	sete	%al
	shll	$12, %eax
	addq	%rax, %rdx
	xorl	%eax, %eax
	testq	%r8, %r8
	sete	%al
	shll	$12, %eax
	addq	%rax, %r8
	callq	blake2_ffi..blake2sp..write_1_v3
	testq	%rbx, %rbx
	je	1f
	movl	%eax, %ebx
	callq	blake2_digest..wiping..scrub_stack..8704_1_v3
	movl	%ebx, %eax
1:
	popq	%rbx
	retq
	vj_end	vulfsjor_ffi_blake2sp_1_v3

	vj_export	vulfsjor_ffi_blake2xb_1_v3
	pushq	%rbx
	movq	%r9, %rbx
	xorl	%eax, %eax
	testq	%rdi, %rdi
	sete	%al
	shll	$12, %eax
	addq	%rax, %rdi
	xorl	%eax, %eax
	testq	%rdx, %rdx
	sete	%al
	shll	$12, %eax
	addq	%rax, %rdx
	xorl	%eax, %eax
	testq	%r8, %r8
	sete	%al
	shll	$12, %eax
	addq	%rax, %r8
	callq	blake2_ffi..blake2xb..write_1_v3
	testq	%rbx, %rbx
	je	1f
	movl	%eax, %ebx
	callq	blake2_digest..wiping..scrub_stack..7168_1_v3
	movl	%ebx, %eax
1:
	popq	%rbx
	retq
	vj_end	vulfsjor_ffi_blake2xb_1_v3

	vj_export	vulfsjor_ffi_blake2xb_derive_key_1_v3
	movq	%rcx, %rax
	testq	%rcx, %rcx
	je	1f
	pushq	%rbx
	movq	%rdx, %rcx
	xorl	%edx, %edx
	testq	%r8, %r8
	sete	%dl
	shll	$12, %edx
	addq	%r8, %rdx
	xorl	%r8d, %r8d
	testq	%rcx, %rcx
	sete	%r8b
	shll	$12, %r8d
	addq	%rcx, %r8
	xorl	%ecx, %ecx
	testq	%rdi, %rdi
	sete	%cl
	shll	$12, %ecx
	addq	%rdi, %rcx
	movq	%rcx, %rdi
	movq	%r9, %rcx
	movq	%rax, %r9
	callq	blake2_ffi..blake2xb..write_1_v3
	movl	%eax, %ebx
	callq	blake2_digest..wiping..scrub_stack..7168_1_v3
	movl	%ebx, %eax
	popq	%rbx
	retq
1:
	movl	$-1, %eax
	retq
	vj_end	vulfsjor_ffi_blake2xb_derive_key_1_v3

	vj_export	vulfsjor_ffi_blake2xs_1_v3
	pushq	%rbx
	movq	%r9, %rbx
	xorl	%eax, %eax
	testq	%rdi, %rdi
	sete	%al
	shll	$12, %eax
	addq	%rax, %rdi
	xorl	%eax, %eax
	testq	%rdx, %rdx
	sete	%al
	shll	$12, %eax
	addq	%rax, %rdx
	xorl	%eax, %eax
	testq	%r8, %r8
	sete	%al
	shll	$12, %eax
	addq	%rax, %r8
	callq	blake2_ffi..blake2xs..write_1_v3
	testq	%rbx, %rbx
	je	1f
	movl	%eax, %ebx
	callq	blake2_digest..wiping..scrub_stack..7168_1_v3
	movl	%ebx, %eax
1:
	popq	%rbx
	retq
	vj_end	vulfsjor_ffi_blake2xs_1_v3

	vj_export	vulfsjor_ffi_blake2xs_derive_key_1_v3
	movq	%rcx, %rax
	testq	%rcx, %rcx
	je	1f
	pushq	%rbx
	movq	%rdx, %rcx
	xorl	%edx, %edx
	testq	%r8, %r8
	sete	%dl
	shll	$12, %edx
	addq	%r8, %rdx
	xorl	%r8d, %r8d
	testq	%rcx, %rcx
	sete	%r8b
	shll	$12, %r8d
	addq	%rcx, %r8
	xorl	%ecx, %ecx
	testq	%rdi, %rdi
	sete	%cl
	shll	$12, %ecx
	addq	%rdi, %rcx
	movq	%rcx, %rdi
	movq	%r9, %rcx
	movq	%rax, %r9
	callq	blake2_ffi..blake2xs..write_1_v3
	movl	%eax, %ebx
	callq	blake2_digest..wiping..scrub_stack..7168_1_v3
	movl	%ebx, %eax
	popq	%rbx
	retq
1:
	movl	$-1, %eax
	retq
	vj_end	vulfsjor_ffi_blake2xs_derive_key_1_v3

	vj_constants	32
	.p2align	5, 0x0
.L1_v3_CPI211_0:
	.quad	7640891576939301192
	.quad	-4942790177534073029
	.quad	4354685564936845355
	.quad	-6534734903238641935
.L1_v3_CPI211_1:
	.quad	5840696475078001361
	.quad	-7276294671716946913
	.quad	2270897969802886507
	.quad	6620516959819538809
	vj_export	vulfsjor_ffi_blake2b_1_v3
	pushq	%rbp
	pushq	%r15
	pushq	%r14
	pushq	%r13
	pushq	%r12
	pushq	%rbx
	subq	$232, %rsp
	movq	%rdi, %rax
	xorl	%edi, %edi
	testq	%rax, %rax
	sete	%dil
	shll	$12, %edi
	addq	%rax, %rdi
	xorl	%ebx, %ebx
	testq	%rdx, %rdx
	sete	%bl
	shll	$12, %ebx
	addq	%rdx, %rbx
	vxorps	%xmm0, %xmm0, %xmm0
	vmovups	%xmm0, 16(%rsp)
	testq	%r9, %r9
	je	1f
	xorl	%eax, %eax
	testq	%r8, %r8
	sete	%al
	shll	$12, %eax
	addq	%r8, %rax
	movq	%rbx, %rdx
	movq	%rax, %r8
	callq	blake2_ffi..blake2b..write_keyed_1_v3
	movl	%eax, %ebx
	callq	blake2_digest..wiping..scrub_stack..1536_1_v3
	movl	%ebx, %eax
	jmp	5f
1:
	leaq	-1(%rsi), %rdx
	movl	$-1, %eax
	cmpq	$63, %rdx
	ja	5f
	cmpq	$64, %rsi
	jne	4f
	movq	%rdi, %r12
	vmovaps	.L1_v3_CPI211_0(%rip), %ymm0
	vmovups	%ymm0, 32(%rsp)
	vmovaps	.L1_v3_CPI211_1(%rip), %ymm0
	vmovups	%ymm0, 64(%rsp)
	cmpq	$1, %rcx
	movq	%rcx, %r13
	movq	%rcx, %r15
	adcq	$-1, %r15
	movq	%r15, %rbp
	shrq	$7, %rbp
	je	3f
	movl	$128, %r14d
	.p2align	4
2:
	leaq	(%rbx,%r14), %rsi
	addq	$-128, %rsi
	leaq	32(%rsp), %rdi
	movq	%r14, %rdx
	xorl	%ecx, %ecx
	xorl	%r8d, %r8d
	vzeroupper
	vj_call	blake2_compress..compress..blake2b..compress_1_v3
	subq	$-128, %r14
	decq	%rbp
	jne	2b
3:
	andq	$-128, %r15
	addq	%r15, %rbx
	movq	%r13, %rdx
	subq	%r15, %rdx
	vxorps	%xmm0, %xmm0, %xmm0
	vmovups	%ymm0, 192(%rsp)
	vmovups	%ymm0, 160(%rsp)
	vmovups	%ymm0, 128(%rsp)
	vmovups	%ymm0, 96(%rsp)
	leaq	96(%rsp), %r15
	movq	%r15, %rdi
	movq	%rbx, %rsi
	vzeroupper
	vj_c_call	memcpy
	leaq	32(%rsp), %rdi
	movq	%r15, %rsi
	movq	%r13, %rdx
	movl	$1, %ecx
	xorl	%r8d, %r8d
	vj_call	blake2_compress..compress..blake2b..compress_1_v3
	xorl	%eax, %eax
	vmovups	32(%rsp), %ymm0
	vmovups	64(%rsp), %ymm1
	vmovups	%ymm0, (%r12)
	vmovups	%ymm1, 32(%r12)
	jmp	5f
4:
	movq	$0, 8(%rsp)
	leaq	8(%rsp), %r8
	movq	%rbx, %rdx
	callq	blake2_ffi..blake2b..write_digest_1_v3
	xorl	%eax, %eax
5:
	addq	$232, %rsp
	popq	%rbx
	popq	%r12
	popq	%r13
	popq	%r14
	popq	%r15
	popq	%rbp
	vzeroupper
	retq
	vj_end	vulfsjor_ffi_blake2b_1_v3

	vj_constants	16
	.p2align	4, 0x0
.L1_v3_CPI212_0:
	.long	1795745351
	.long	3144134277
	.long	1013904242
	.long	2773480762
.L1_v3_CPI212_1:
	.long	1359893119
	.long	2600822924
	.long	528734635
	.long	1541459225
	vj_export	vulfsjor_ffi_blake2s_1_v3
	pushq	%rbp
	pushq	%r15
	pushq	%r14
	pushq	%r13
	pushq	%r12
	pushq	%rbx
	subq	$136, %rsp
	movq	%rdi, %rax
	xorl	%edi, %edi
	testq	%rax, %rax
	sete	%dil
	shll	$12, %edi
	addq	%rax, %rdi
	xorl	%ebx, %ebx
	testq	%rdx, %rdx
	sete	%bl
	shll	$12, %ebx
	addq	%rdx, %rbx
	vxorps	%xmm0, %xmm0, %xmm0
	vmovups	%xmm0, 48(%rsp)
	testq	%r9, %r9
	je	1f
	xorl	%eax, %eax
	testq	%r8, %r8
	sete	%al
	shll	$12, %eax
	addq	%r8, %rax
	movq	%rbx, %rdx
	movq	%rax, %r8
	callq	blake2_ffi..blake2s..write_keyed_1_v3
	movl	%eax, %ebx
	callq	blake2_digest..wiping..scrub_stack..768_1_v3
	movl	%ebx, %eax
	jmp	5f
1:
	leaq	-1(%rsi), %rdx
	movl	$-1, %eax
	cmpq	$31, %rdx
	ja	5f
	cmpq	$32, %rsi
	jne	4f
	movq	%rdi, %r12
	vmovaps	.L1_v3_CPI212_0(%rip), %xmm0
	vmovaps	%xmm0, (%rsp)
	vmovaps	.L1_v3_CPI212_1(%rip), %xmm0
	vmovaps	%xmm0, 16(%rsp)
	cmpq	$1, %rcx
	movq	%rcx, %r13
	movq	%rcx, %r15
	adcq	$-1, %r15
	movq	%r15, %rbp
	shrq	$6, %rbp
	je	3f
	movl	$64, %r14d
	.p2align	4
2:
	leaq	(%rbx,%r14), %rsi
	addq	$-64, %rsi
	movq	%rsp, %rdi
	movq	%r14, %rdx
	xorl	%ecx, %ecx
	xorl	%r8d, %r8d
	vj_call	blake2_compress..compress..blake2s..compress_1_v3
	addq	$64, %r14
	decq	%rbp
	jne	2b
3:
	andq	$-64, %r15
	addq	%r15, %rbx
	movq	%r13, %rdx
	subq	%r15, %rdx
	vxorps	%xmm0, %xmm0, %xmm0
	vmovups	%ymm0, 96(%rsp)
	vmovups	%ymm0, 64(%rsp)
	leaq	64(%rsp), %r15
	movq	%r15, %rdi
	movq	%rbx, %rsi
	vzeroupper
	vj_c_call	memcpy
	movq	%rsp, %rdi
	movq	%r15, %rsi
	movq	%r13, %rdx
	movl	$1, %ecx
	xorl	%r8d, %r8d
	vj_call	blake2_compress..compress..blake2s..compress_1_v3
	xorl	%eax, %eax
	vmovups	(%rsp), %ymm0
	vmovups	%ymm0, (%r12)
	jmp	5f
4:
	movq	$0, 40(%rsp)
	leaq	40(%rsp), %r8
	movq	%rbx, %rdx
	callq	blake2_ffi..blake2s..write_digest_1_v3
	xorl	%eax, %eax
5:
	addq	$136, %rsp
	popq	%rbx
	popq	%r12
	popq	%r13
	popq	%r14
	popq	%r15
	popq	%rbp
	vzeroupper
	retq
	vj_end	vulfsjor_ffi_blake2s_1_v3

	vj_export	vulfsjor_ffi_blake2b_many_1_v3
	pushq	%rbp
	pushq	%r15
	pushq	%r14
	pushq	%r13
	pushq	%r12
	pushq	%rbx
	subq	$72, %rsp
	movq	%rdx, %r10
	movq	128(%rsp), %r11
	movq	160(%rsp), %rax
	movq	144(%rsp), %rdx
	movq	152(%rsp), %r12
	movq	136(%rsp), %rbp
	xorl	%r14d, %r14d
	testq	%rdi, %rdi
	sete	%r15b
	xorl	%ebx, %ebx
	testq	%rcx, %rcx
	sete	15(%rsp)
	xorl	%r13d, %r13d
	testq	%r9, %r9
	sete	%r13b
	shll	$12, %r13d
	addq	%r9, %r13
	xorl	%r9d, %r9d
	testq	%rbp, %rbp
	sete	%r9b
	shll	$12, %r9d
	addq	%rbp, %r9
	xorl	%ebp, %ebp
	testq	%r12, %r12
	sete	%bpl
	shll	$12, %ebp
	addq	%r12, %rbp
	movq	%r10, 16(%rsp)
	movq	%r13, 24(%rsp)
	movq	%r11, 32(%rsp)
	movq	%r9, 40(%rsp)
	movq	%rdx, 48(%rsp)
	movq	%rbp, 56(%rsp)
	movq	%rax, 64(%rsp)
	leaq	-1(%r10), %r9
	cmpq	$64, %r9
	setae	%r9b
	cmpq	$65, %r11
	setae	%bpl
	orb	%r9b, %bpl
	cmpq	$17, %rdx
	setae	%dl
	cmpq	$17, %rax
	setae	%r9b
	movl	$-1, %eax
	orb	%dl, %r9b
	orb	%bpl, %r9b
	jne	5f
	movq	%r8, %rdx
	mulxq	%r10, %r9, %rdx
	xorq	%rsi, %r9
	orq	%rdx, %r9
	jne	5f
	movb	%r15b, %r14b
	shll	$12, %r14d
	addq	%r14, %rdi
	movzbl	15(%rsp), %edx
	movb	%dl, %bl
	shll	$12, %ebx
	leaq	(%rcx,%rbx), %r9
	testq	%r11, %r11
	je	2f
	leaq	(%rbx,%rcx), %rdx
	addq	$8, %rdx
	movq	$-1, %rcx
	.p2align	4
1:
	incq	%rcx
	cmpq	%rcx, %r8
	je	3f
	cmpq	$-129, (%rdx)
	leaq	16(%rdx), %rdx
	jbe	1b
	jmp	5f
2:
	leaq	16(%rsp), %rdx
	movq	%r9, %rcx
	callq	blake2_ffi..blake2b..many..write_all_1_v3
	jmp	4f
3:
	leaq	16(%rsp), %rdx
	movq	%r9, %rcx
	callq	blake2_ffi..blake2b..many..write_all_1_v3
	callq	blake2_digest..wiping..scrub_stack..9216_1_v3
4:
	xorl	%eax, %eax
5:
	addq	$72, %rsp
	popq	%rbx
	popq	%r12
	popq	%r13
	popq	%r14
	popq	%r15
	popq	%rbp
	retq
	vj_end	vulfsjor_ffi_blake2b_many_1_v3

	vj_export	vulfsjor_ffi_blake2s_many_1_v3
	pushq	%rbp
	pushq	%r15
	pushq	%r14
	pushq	%r13
	pushq	%r12
	pushq	%rbx
	subq	$72, %rsp
	movq	%rdx, %r10
	movq	128(%rsp), %r11
	movq	160(%rsp), %rax
	movq	144(%rsp), %rdx
	movq	152(%rsp), %r12
	movq	136(%rsp), %rbp
	xorl	%r14d, %r14d
	testq	%rdi, %rdi
	sete	%r15b
	xorl	%ebx, %ebx
	testq	%rcx, %rcx
	sete	15(%rsp)
	xorl	%r13d, %r13d
	testq	%r9, %r9
	sete	%r13b
	shll	$12, %r13d
	addq	%r9, %r13
	xorl	%r9d, %r9d
	testq	%rbp, %rbp
	sete	%r9b
	shll	$12, %r9d
	addq	%rbp, %r9
	xorl	%ebp, %ebp
	testq	%r12, %r12
	sete	%bpl
	shll	$12, %ebp
	addq	%r12, %rbp
	movq	%r10, 16(%rsp)
	movq	%r13, 24(%rsp)
	movq	%r11, 32(%rsp)
	movq	%r9, 40(%rsp)
	movq	%rdx, 48(%rsp)
	movq	%rbp, 56(%rsp)
	movq	%rax, 64(%rsp)
	leaq	-1(%r10), %r9
	cmpq	$32, %r9
	setae	%r9b
	cmpq	$33, %r11
	setae	%bpl
	orb	%r9b, %bpl
	cmpq	$9, %rdx
	setae	%dl
	cmpq	$9, %rax
	setae	%r9b
	movl	$-1, %eax
	orb	%dl, %r9b
	orb	%bpl, %r9b
	jne	5f
	movq	%r8, %rdx
	mulxq	%r10, %r9, %rdx
	xorq	%rsi, %r9
	orq	%rdx, %r9
	jne	5f
	movb	%r15b, %r14b
	shll	$12, %r14d
	addq	%r14, %rdi
	movzbl	15(%rsp), %edx
	movb	%dl, %bl
	shll	$12, %ebx
	leaq	(%rcx,%rbx), %r9
	testq	%r11, %r11
	je	2f
	leaq	(%rbx,%rcx), %rdx
	addq	$8, %rdx
	movq	$-1, %rcx
	.p2align	4
1:
	incq	%rcx
	cmpq	%rcx, %r8
	je	3f
	cmpq	$-65, (%rdx)
	leaq	16(%rdx), %rdx
	jbe	1b
	jmp	5f
2:
	leaq	16(%rsp), %rdx
	movq	%r9, %rcx
	callq	blake2_ffi..blake2s..many..write_all_1_v3
	jmp	4f
3:
	leaq	16(%rsp), %rdx
	movq	%r9, %rcx
	callq	blake2_ffi..blake2s..many..write_all_1_v3
	callq	blake2_digest..wiping..scrub_stack..5632_1_v3
4:
	xorl	%eax, %eax
5:
	addq	$72, %rsp
	popq	%rbx
	popq	%r12
	popq	%r13
	popq	%r14
	popq	%r15
	popq	%rbp
	retq
	vj_end	vulfsjor_ffi_blake2s_many_1_v3

	vj_constants	32
	.p2align	5, 0x0
.L1_v3_CPI215_0:
	.short	64
	.short	512
	.zero	2
	.zero	2
	.zero	2
	.zero	2
	.zero	2
	.zero	2
	.zero	2
	.short	0
	.short	0
	.short	0
	.short	0
	.short	0
	.short	0
	.short	0
.L1_v3_CPI215_1:
	.short	16384
	.short	512
	.zero	2
	.zero	2
	.zero	2
	.zero	2
	.zero	2
	.zero	2
	.short	16384
	.short	0
	.short	0
	.short	0
	.short	0
	.short	0
	.short	0
	.short	0
.L1_v3_CPI215_2:
	.quad	5840696475078001361
	.quad	-7276294671716946913
	.quad	2270897969802886507
	.quad	6620516959819538809
.L1_v3_CPI215_3:
	.quad	7640891576956012808
	.quad	-4942790177534073029
	.quad	4354685564936845355
	.quad	-6534734903238641935
.L1_v3_CPI215_4:
	.short	16385
	.short	512
	.zero	2
	.zero	2
	.zero	2
	.zero	2
	.zero	2
	.zero	2
	.short	16385
	.short	0
	.short	0
	.short	0
	.short	0
	.short	0
	.short	0
	.short	0
.L1_v3_CPI215_5:
	.zero	2
	.zero	2
	.zero	2
	.zero	2
	.short	0
	.short	0
	.short	0
	.short	0
	.short	16384
	.zero	2
	.zero	2
	.zero	2
	.zero	2
	.zero	2
	.zero	2
	.zero	2
.L1_v3_CPI215_6:
	.byte	255
	.byte	255
	.byte	255
	.byte	255
	.byte	255
	.byte	255
	.byte	255
	.byte	255
	.byte	0
	.byte	0
	.byte	0
	.byte	0
	.byte	0
	.byte	0
	.byte	0
	.byte	0
	.byte	0
	.byte	0
	.byte	255
	.byte	255
	.byte	255
	.byte	255
	.byte	255
	.byte	255
	.byte	255
	.byte	255
	.byte	255
	.byte	255
	.byte	255
	.byte	255
	.byte	255
	.byte	255
.L1_v3_CPI215_7:
	.short	32
	.short	512
	.zero	2
	.zero	2
	.zero	2
	.zero	2
	.zero	2
	.zero	2
	.zero	2
	.short	0
	.short	0
	.short	0
	.short	0
	.short	0
	.short	0
	.short	0
.L1_v3_CPI215_8:
	.zero	2
	.zero	2
	.zero	2
	.zero	2
	.short	0
	.short	0
	.short	0
	.short	0
	.short	16385
	.zero	2
	.zero	2
	.zero	2
	.zero	2
	.zero	2
	.zero	2
	.zero	2
	vj_constants	16
	.p2align	4, 0x0
.L1_v3_CPI215_9:
	.short	16384
	.short	0
	.short	0
	.short	0
	.short	0
	.short	0
	.short	0
	.short	0
.L1_v3_CPI215_10:
	.short	16385
	.short	0
	.short	0
	.short	0
	.short	0
	.short	0
	.short	0
	.short	0
.L1_v3_CPI215_11:
	.short	64
	.short	512
	.short	0
	.short	0
	.short	0
	.short	0
	.short	0
	.short	0
	vj_export	vulfsjor_ffi_tree_root_1_v3
	pushq	%rbp
	movq	%rsp, %rbp
	pushq	%r15
	pushq	%r14
	pushq	%r13
	pushq	%r12
	pushq	%rbx
	andq	$-32, %rsp
	subq	$3040, %rsp
	movq	$0, (%rsp)
	subq	$32, %rsp
	movq	%r9, 16(%rsp)
	xorl	%r14d, %r14d
	testq	%rdi, %rdi
	sete	%r13b
	xorl	%r11d, %r11d
	testq	%rdx, %rdx
	sete	%bl
	xorl	%r12d, %r12d
	testq	%r8, %r8
	sete	%r15b
	xorl	%r9d, %r9d
	cmpq	$0, 16(%rbp)
	sete	%r10b
	movq	%rcx, %rax
	shrq	$58, %rax
	movl	$-1, %eax
	jne	22f
	movb	%r15b, 576(%rsp)
	movb	%r10b, 32(%rsp)
	movq	%rsi, 544(%rsp)
	leaq	-1(%rsi), %r15
	cmpq	$64, %r15
	setae	%r15b
	cmpq	$17, 16(%rsp)
	setae	%r10b
	orb	%r15b, %r10b
	cmpq	$17, 24(%rbp)
	setae	%r15b
	orb	%r10b, %r15b
	cmpl	$0, 32(%rbp)
	sete	%r10b
	orb	%r15b, %r10b
	jne	22f
	movb	%r13b, %r14b
	shll	$12, %r14d
	addq	%r14, %rdi
	movb	%bl, %r11b
	shll	$12, %r11d
	addq	%r11, %rdx
	movzbl	576(%rsp), %eax
	movb	%al, %r12b
	shll	$12, %r12d
	movq	%r8, %rsi
	addq	%r12, %rsi
	movzbl	32(%rsp), %eax
	movb	%al, %r9b
	shll	$12, %r9d
	movq	16(%rbp), %r15
	addq	%r9, %r15
	movq	544(%rsp), %r13
	cmpq	$64, %r13
	movq	%rdi, 120(%rsp)
	movq	%rdx, 24(%rsp)
	movq	%rcx, 112(%rsp)
	vxorps	%xmm0, %xmm0, %xmm0
	je	3f
	cmpq	$32, %r13
	jne	6f
	vmovaps	%xmm0, 80(%rsp)
	leaq	80(%rsp), %rdi
	movq	16(%rsp), %rdx
	movq	%r15, %rbx
	movq	%rdx, %r15
	vj_c_call	memcpy
	vxorps	%xmm0, %xmm0, %xmm0
	vmovaps	%xmm0, 96(%rsp)
	leaq	96(%rsp), %rdi
	movq	%rbx, %rsi
	movq	24(%rbp), %r14
	movq	%r14, %rdx
	vj_c_call	memcpy
	vmovaps	80(%rsp), %xmm0
	vmovaps	%xmm0, 608(%rsp)
	movq	%r15, 624(%rsp)
	leaq	632(%rsp), %r13
	vmovaps	96(%rsp), %xmm0
	vmovups	%xmm0, 632(%rsp)
	movq	%r14, 648(%rsp)
	movl	32(%rbp), %r12d
	movl	%r12d, 656(%rsp)
	movl	$0, 660(%rsp)
	vxorps	%xmm0, %xmm0, %xmm0
	vmovaps	%ymm0, 1376(%rsp)
	vmovd	%r12d, %xmm0
	vpbroadcastd	%xmm0, %xmm0
	vmovdqa	%ymm0, 32(%rsp)
	vpblendd	$253, .L1_v3_CPI215_0(%rip), %ymm0, %ymm0
	vbroadcasti128	.L1_v3_CPI215_9(%rip), %ymm1
	vmovdqa	.L1_v3_CPI215_6(%rip), %ymm2
	vpblendvb	%ymm2, %ymm0, %ymm1, %ymm0
	vmovdqa	%ymm0, 576(%rsp)
	leaq	1376(%rsp), %rdi
	leaq	608(%rsp), %rbx
	movq	%rbx, %rsi
	movq	%r15, %rdx
	vzeroupper
	vj_c_call	memcpy
	leaq	1392(%rsp), %rdi
	movq	%r13, %rsi
	movq	%r14, %rdx
	vj_c_call	memcpy
	vmovaps	.L1_v3_CPI215_2(%rip), %ymm0
	vxorps	1376(%rsp), %ymm0, %ymm0
	vmovaps	%ymm0, 544(%rsp)
	vmovaps	.L1_v3_CPI215_3(%rip), %ymm1
	vxorps	%xmm0, %xmm0, %xmm0
	vmovaps	%ymm0, 1376(%rsp)
	vmovdqa	32(%rsp), %ymm0
	vpblendd	$253, .L1_v3_CPI215_7(%rip), %ymm0, %ymm0
	vxorps	576(%rsp), %ymm1, %ymm1
	vmovaps	%ymm1, 32(%rsp)
	vbroadcasti128	.L1_v3_CPI215_10(%rip), %ymm1
	vmovdqa	.L1_v3_CPI215_6(%rip), %ymm2
	vpblendvb	%ymm2, %ymm0, %ymm1, %ymm0
	vmovdqa	%ymm0, 576(%rsp)
	leaq	1376(%rsp), %rdi
	movq	%rbx, %rsi
	movq	%r15, %rdx
	vzeroupper
	vj_c_call	memcpy
	leaq	1392(%rsp), %rdi
	movq	%r13, %rsi
	movq	%r14, %rdx
	vj_c_call	memcpy
	vmovaps	.L1_v3_CPI215_2(%rip), %ymm0
	vxorps	1376(%rsp), %ymm0, %ymm0
	vmovaps	576(%rsp), %ymm1
	vxorps	.L1_v3_CPI215_3(%rip), %ymm1, %ymm1
	vmovaps	80(%rsp), %xmm2
	vmovaps	%xmm2, 1376(%rsp)
	movq	%r15, 1392(%rsp)
	vmovaps	96(%rsp), %xmm2
	vmovups	%xmm2, 1400(%rsp)
	movq	%r14, 1416(%rsp)
	movl	%r12d, 1424(%rsp)
	movl	$0, 1428(%rsp)
	movq	$0, 1432(%rsp)
	vmovaps	32(%rsp), %ymm3
	vmovups	%ymm3, 1440(%rsp)
	vmovaps	544(%rsp), %ymm2
	vmovups	%ymm2, 1472(%rsp)
	vmovups	%ymm3, 1504(%rsp)
	vmovups	%ymm2, 1536(%rsp)
	vxorps	%xmm2, %xmm2, %xmm2
	vmovups	%ymm2, 1568(%rsp)
	vmovups	%ymm2, 1600(%rsp)
	vmovups	%ymm2, 1632(%rsp)
	vmovups	%ymm2, 1664(%rsp)
	vmovups	%ymm2, 1688(%rsp)
	vmovups	%ymm1, 1720(%rsp)
	vmovups	%ymm0, 1752(%rsp)
	vmovups	%ymm1, 1784(%rsp)
	vmovups	%ymm0, 1816(%rsp)
	vmovups	%ymm2, 1848(%rsp)
	vmovups	%ymm2, 1880(%rsp)
	vmovups	%ymm2, 1912(%rsp)
	vmovups	%ymm2, 1944(%rsp)
	vmovups	%ymm2, 1968(%rsp)
	movl	%r12d, %edi
	leaq	(,%rdi,4), %rcx
	movq	112(%rsp), %rdx
	cmpq	%rdx, %rcx
	jae	7f
	movq	24(%rsp), %rax
	.p2align	4
1:
	leaq	1376(%rsp), %rdi
	movq	%rax, %rsi
	vzeroupper
	callq	blake2_tree..hasher..TreeHasher..close_next..32_1_v3
	movl	1424(%rsp), %edi
	leaq	(,%rdi,4), %rcx
	cmpq	%rdx, %rcx
	jb	1b
	cmpq	%rcx, %rdx
	jne	8f
2:
	leaq	1376(%rsp), %rsi
	movl	$624, %edx
	movq	%rbx, %rdi
	movq	%rax, %r14
	vzeroupper
	vj_c_call	memcpy
	movq	664(%rsp), %rdi
	movl	656(%rsp), %eax
	movq	624(%rsp), %rdx
	movq	648(%rsp), %rcx
	leaq	1(%rdi), %r10
	leaq	(%r14,%rax), %r9
	leaq	2(%rdi), %r8
	movq	%rbx, 128(%rsp)
	movq	%rdx, 136(%rsp)
	movq	%r13, 144(%rsp)
	movq	%rcx, 152(%rsp)
	vxorps	%xmm0, %xmm0, %xmm0
	vmovups	%xmm0, 160(%rsp)
	vmovups	%xmm0, 169(%rsp)
	leaq	(%rax,%rax,2), %rsi
	movb	$2, 185(%rsp)
	movw	$0, 186(%rsp)
	movl	%eax, 188(%rsp)
	movq	%rdi, 192(%rsp)
	movw	$16384, 200(%rsp)
	movq	$0, 202(%rsp)
	movq	$0, 208(%rsp)
	movq	%r14, 216(%rsp)
	movq	%rax, 224(%rsp)
	movq	%rbx, 232(%rsp)
	movq	%rdx, 240(%rsp)
	movq	%r13, 248(%rsp)
	movq	%rcx, 256(%rsp)
	vmovups	%xmm0, 273(%rsp)
	leaq	(%r14,%rax,2), %r11
	vmovups	%xmm0, 264(%rsp)
	movb	$2, 289(%rsp)
	movw	$0, 290(%rsp)
	movl	%eax, 292(%rsp)
	movq	%r10, 296(%rsp)
	movw	$16384, 304(%rsp)
	movq	$0, 312(%rsp)
	movq	$0, 306(%rsp)
	movq	%r9, 320(%rsp)
	movq	%rax, 328(%rsp)
	movq	%rbx, 336(%rsp)
	movq	%rdx, 344(%rsp)
	movq	%r13, 352(%rsp)
	movq	%rcx, 360(%rsp)
	vmovups	%xmm0, 377(%rsp)
	vmovups	%xmm0, 368(%rsp)
	leaq	3(%rdi), %rdi
	movb	$2, 393(%rsp)
	movw	$0, 394(%rsp)
	movl	%eax, 396(%rsp)
	movq	%r8, 400(%rsp)
	movw	$16384, 408(%rsp)
	movq	$0, 416(%rsp)
	movq	$0, 410(%rsp)
	movq	%r11, 424(%rsp)
	movq	%rax, 432(%rsp)
	movq	%rbx, 440(%rsp)
	movq	%rdx, 448(%rsp)
	movq	%r13, 456(%rsp)
	movq	%rcx, 464(%rsp)
	vmovups	%xmm0, 481(%rsp)
	addq	%r14, %rsi
	vmovups	%xmm0, 472(%rsp)
	movb	$2, 497(%rsp)
	movw	$0, 498(%rsp)
	movl	%eax, 500(%rsp)
	movq	%rdi, 504(%rsp)
	movw	$16384, 512(%rsp)
	movl	$0, 514(%rsp)
	movw	$0, 518(%rsp)
	movb	$1, 520(%rsp)
	movl	$0, 524(%rsp)
	movl	$0, 521(%rsp)
	movq	%rsi, 528(%rsp)
	movq	%rax, 536(%rsp)
	vxorps	%xmm0, %xmm0, %xmm0
	vmovaps	%ymm0, 2240(%rsp)
	vmovaps	%ymm0, 2208(%rsp)
	vmovaps	%ymm0, 2176(%rsp)
	vmovaps	%ymm0, 2144(%rsp)
	vmovaps	%ymm0, 2112(%rsp)
	vmovaps	%ymm0, 2080(%rsp)
	vmovaps	%ymm0, 2048(%rsp)
	vmovaps	%ymm0, 2016(%rsp)
	leaq	2016(%rsp), %rdi
	leaq	128(%rsp), %rdx
	movl	$64, %esi
	vzeroupper
	callq	blake2_compress..many..blake2b..outputs..64_1_v3
	vmovaps	2016(%rsp), %ymm0
	vmovaps	2048(%rsp), %ymm1
	vmovaps	2080(%rsp), %ymm2
	vmovaps	2112(%rsp), %ymm3
	vmovaps	%ymm0, 2784(%rsp)
	vmovaps	%ymm1, 2816(%rsp)
	vmovaps	%ymm2, 2848(%rsp)
	vmovaps	%ymm3, 2880(%rsp)
	vmovaps	2144(%rsp), %ymm0
	vmovaps	%ymm0, 2912(%rsp)
	vmovaps	2176(%rsp), %ymm0
	vmovaps	%ymm0, 2944(%rsp)
	vmovaps	2208(%rsp), %ymm0
	vmovaps	%ymm0, 2976(%rsp)
	vmovaps	2240(%rsp), %ymm0
	vmovaps	%ymm0, 3008(%rsp)
	leaq	952(%rsp), %rsi
	leaq	2272(%rsp), %r14
	movl	$280, %edx
	movq	%r14, %rdi
	vzeroupper
	vj_c_call	memcpy
	leaq	2416(%rsp), %rdi
	movq	2544(%rsp), %rsi
	leaq	2784(%rsp), %rdx
	movl	$256, %ecx
	movq	%r14, %r8
	callq	blake2_digest..buffer..digest_into..33c1e97afcdf8a5d_1_v3
	movq	%rax, 2544(%rsp)
	movb	$1, 2408(%rsp)
	leaq	128(%rsp), %rbx
	movl	$280, %edx
	movq	%rbx, %rdi
	movq	%r14, %rsi
	vj_c_call	memcpy
	leaq	272(%rsp), %rsi
	movq	400(%rsp), %rdx
	movq	256(%rsp), %r14
	addq	%rdx, %r14
	movq	%r14, 256(%rsp)
	vxorps	%xmm0, %xmm0, %xmm0
	vmovaps	%ymm0, 2656(%rsp)
	vmovaps	%ymm0, 2688(%rsp)
	vmovaps	%ymm0, 2720(%rsp)
	vmovaps	%ymm0, 2752(%rsp)
	leaq	2656(%rsp), %r15
	movq	%r15, %rdi
	vzeroupper
	vj_c_call	memcpy
	vxorps	%xmm0, %xmm0, %xmm0
	vmovups	%ymm0, 272(%rsp)
	vmovups	%ymm0, 304(%rsp)
	vmovups	%ymm0, 336(%rsp)
	vmovups	%ymm0, 368(%rsp)
	movq	$0, 400(%rsp)
	movl	264(%rsp), %r8d
	movq	%rbx, %rdi
	movq	%r15, %rsi
	movq	%r14, %rdx
	movl	$1, %ecx
	vzeroupper
	vj_call	blake2_compress..compress..blake2b..compress_1_v3
	vmovups	128(%rsp), %ymm0
	jmp	13f
3:
	vmovaps	%xmm0, 80(%rsp)
	leaq	80(%rsp), %rdi
	movq	16(%rsp), %r12
	movq	%r12, %rdx
	vj_c_call	memcpy
	vxorps	%xmm0, %xmm0, %xmm0
	vmovaps	%xmm0, 96(%rsp)
	leaq	96(%rsp), %rdi
	movq	%r15, %rsi
	movq	24(%rbp), %r14
	movq	%r14, %rdx
	vj_c_call	memcpy
	vmovaps	80(%rsp), %xmm0
	vmovaps	%xmm0, 608(%rsp)
	movq	%r12, 624(%rsp)
	leaq	632(%rsp), %rbx
	vmovaps	96(%rsp), %xmm0
	vmovups	%xmm0, 632(%rsp)
	movq	%r14, 648(%rsp)
	movl	32(%rbp), %r13d
	movl	%r13d, 656(%rsp)
	vpxor	%xmm1, %xmm1, %xmm1
	vmovdqa	%ymm1, 1376(%rsp)
	vmovd	%r13d, %xmm0
	vpbroadcastd	%xmm0, %xmm0
	vpblendd	$253, .L1_v3_CPI215_0(%rip), %ymm0, %ymm0
	movl	$0, 660(%rsp)
	vpblendd	$12, %ymm1, %ymm0, %ymm0
	vmovdqa	%ymm0, 576(%rsp)
	vpblendd	$240, .L1_v3_CPI215_1(%rip), %ymm0, %ymm0
	vmovdqa	%ymm0, 32(%rsp)
	leaq	1376(%rsp), %rdi
	leaq	608(%rsp), %r15
	movq	%r15, %rsi
	movq	%r12, %rdx
	vzeroupper
	vj_c_call	memcpy
	leaq	1392(%rsp), %rdi
	movq	%rbx, %rsi
	movq	%r14, %rdx
	vj_c_call	memcpy
	vmovaps	.L1_v3_CPI215_2(%rip), %ymm0
	vxorps	1376(%rsp), %ymm0, %ymm0
	vmovaps	%ymm0, 544(%rsp)
	vmovaps	.L1_v3_CPI215_3(%rip), %ymm0
	vxorps	32(%rsp), %ymm0, %ymm0
	vmovaps	%ymm0, 32(%rsp)
	vxorps	%xmm0, %xmm0, %xmm0
	vmovaps	%ymm0, 1376(%rsp)
	vmovaps	576(%rsp), %ymm0
	vblendps	$240, .L1_v3_CPI215_4(%rip), %ymm0, %ymm0
	vmovaps	%ymm0, 576(%rsp)
	leaq	1376(%rsp), %rdi
	movq	%r15, %rsi
	movq	%r12, %rdx
	vzeroupper
	vj_c_call	memcpy
	leaq	1392(%rsp), %rdi
	movq	%rbx, %rsi
	movq	%r14, %rdx
	vj_c_call	memcpy
	movq	112(%rsp), %rdx
	vmovaps	.L1_v3_CPI215_2(%rip), %ymm0
	vxorps	1376(%rsp), %ymm0, %ymm0
	vmovaps	576(%rsp), %ymm1
	vxorps	.L1_v3_CPI215_3(%rip), %ymm1, %ymm1
	vmovaps	80(%rsp), %xmm2
	vmovaps	%xmm2, 1376(%rsp)
	movq	%r12, 1392(%rsp)
	vmovaps	96(%rsp), %xmm2
	vmovups	%xmm2, 1400(%rsp)
	movq	%r14, 1416(%rsp)
	movl	%r13d, 1424(%rsp)
	movl	$0, 1428(%rsp)
	movq	$0, 1432(%rsp)
	vmovaps	32(%rsp), %ymm3
	vmovups	%ymm3, 1440(%rsp)
	vmovaps	544(%rsp), %ymm2
	vmovups	%ymm2, 1472(%rsp)
	vmovups	%ymm3, 1504(%rsp)
	vmovups	%ymm2, 1536(%rsp)
	vxorps	%xmm2, %xmm2, %xmm2
	vmovups	%ymm2, 1568(%rsp)
	vmovups	%ymm2, 1600(%rsp)
	vmovups	%ymm2, 1632(%rsp)
	vmovups	%ymm2, 1664(%rsp)
	vmovups	%ymm2, 1688(%rsp)
	vmovups	%ymm1, 1720(%rsp)
	vmovups	%ymm0, 1752(%rsp)
	vmovups	%ymm1, 1784(%rsp)
	vmovups	%ymm0, 1816(%rsp)
	vmovups	%ymm2, 1848(%rsp)
	vmovups	%ymm2, 1880(%rsp)
	vmovups	%ymm2, 1912(%rsp)
	vmovups	%ymm2, 1944(%rsp)
	vmovups	%ymm2, 1968(%rsp)
	movl	%r13d, %edi
	leaq	(,%rdi,4), %rcx
	cmpq	%rdx, %rcx
	jae	14f
	movq	24(%rsp), %rax
	.p2align	4
4:
	leaq	1376(%rsp), %rdi
	movq	%rax, %rsi
	vzeroupper
	callq	blake2_tree..hasher..TreeHasher..close_next..64_1_v3
	movl	1424(%rsp), %edi
	leaq	(,%rdi,4), %rcx
	cmpq	%rdx, %rcx
	jb	4b
	cmpq	%rcx, %rdx
	jne	15f
5:
	leaq	1376(%rsp), %rsi
	movl	$624, %edx
	leaq	608(%rsp), %r15
	movq	%r15, %rdi
	movq	%rax, %rbx
	vzeroupper
	vj_c_call	memcpy
	movq	664(%rsp), %rdi
	movl	656(%rsp), %eax
	movq	624(%rsp), %rdx
	movq	648(%rsp), %rcx
	leaq	1(%rdi), %r10
	leaq	(%rbx,%rax), %r9
	leaq	2(%rdi), %r8
	movq	%r15, 128(%rsp)
	movq	%rdx, 136(%rsp)
	leaq	632(%rsp), %r14
	movq	%r14, 144(%rsp)
	movq	%rcx, 152(%rsp)
	vxorps	%xmm0, %xmm0, %xmm0
	vmovups	%xmm0, 160(%rsp)
	vmovups	%xmm0, 169(%rsp)
	leaq	(%rax,%rax,2), %rsi
	movb	$2, 185(%rsp)
	movw	$0, 186(%rsp)
	movl	%eax, 188(%rsp)
	movq	%rdi, 192(%rsp)
	movw	$16384, 200(%rsp)
	movq	$0, 202(%rsp)
	movq	$0, 208(%rsp)
	movq	%rbx, 216(%rsp)
	movq	%rax, 224(%rsp)
	movq	%r15, 232(%rsp)
	movq	%rdx, 240(%rsp)
	movq	%r14, 248(%rsp)
	movq	%rcx, 256(%rsp)
	vmovups	%xmm0, 273(%rsp)
	leaq	(%rbx,%rax,2), %r11
	vmovups	%xmm0, 264(%rsp)
	movb	$2, 289(%rsp)
	movw	$0, 290(%rsp)
	movl	%eax, 292(%rsp)
	movq	%r10, 296(%rsp)
	movw	$16384, 304(%rsp)
	movq	$0, 312(%rsp)
	movq	$0, 306(%rsp)
	movq	%r9, 320(%rsp)
	movq	%rax, 328(%rsp)
	movq	%r15, 336(%rsp)
	movq	%rdx, 344(%rsp)
	movq	%r14, 352(%rsp)
	movq	%rcx, 360(%rsp)
	vmovups	%xmm0, 377(%rsp)
	vmovups	%xmm0, 368(%rsp)
	leaq	3(%rdi), %rdi
	movb	$2, 393(%rsp)
	movw	$0, 394(%rsp)
	movl	%eax, 396(%rsp)
	movq	%r8, 400(%rsp)
	movw	$16384, 408(%rsp)
	movq	$0, 416(%rsp)
	movq	$0, 410(%rsp)
	movq	%r11, 424(%rsp)
	movq	%rax, 432(%rsp)
	movq	%r15, 440(%rsp)
	movq	%rdx, 448(%rsp)
	movq	%r14, 456(%rsp)
	movq	%rcx, 464(%rsp)
	vmovups	%xmm0, 481(%rsp)
	addq	%rbx, %rsi
	vmovups	%xmm0, 472(%rsp)
	movb	$2, 497(%rsp)
	movw	$0, 498(%rsp)
	movl	%eax, 500(%rsp)
	movq	%rdi, 504(%rsp)
	movw	$16384, 512(%rsp)
	movl	$0, 514(%rsp)
	movw	$0, 518(%rsp)
	movb	$1, 520(%rsp)
	movl	$0, 524(%rsp)
	movl	$0, 521(%rsp)
	movq	%rsi, 528(%rsp)
	movq	%rax, 536(%rsp)
	vxorps	%xmm0, %xmm0, %xmm0
	vmovaps	%ymm0, 2240(%rsp)
	vmovaps	%ymm0, 2208(%rsp)
	vmovaps	%ymm0, 2176(%rsp)
	vmovaps	%ymm0, 2144(%rsp)
	vmovaps	%ymm0, 2112(%rsp)
	vmovaps	%ymm0, 2080(%rsp)
	vmovaps	%ymm0, 2048(%rsp)
	vmovaps	%ymm0, 2016(%rsp)
	leaq	2016(%rsp), %rdi
	leaq	128(%rsp), %rdx
	movl	$64, %esi
	vzeroupper
	callq	blake2_compress..many..blake2b..outputs..64_1_v3
	vmovaps	2016(%rsp), %ymm0
	vmovaps	2048(%rsp), %ymm1
	vmovaps	2080(%rsp), %ymm2
	vmovaps	2112(%rsp), %ymm3
	vmovaps	%ymm0, 2784(%rsp)
	vmovaps	%ymm1, 2816(%rsp)
	vmovaps	%ymm2, 2848(%rsp)
	vmovaps	%ymm3, 2880(%rsp)
	vmovaps	2144(%rsp), %ymm0
	vmovaps	%ymm0, 2912(%rsp)
	vmovaps	2176(%rsp), %ymm0
	vmovaps	%ymm0, 2944(%rsp)
	vmovaps	2208(%rsp), %ymm0
	vmovaps	%ymm0, 2976(%rsp)
	vmovaps	2240(%rsp), %ymm0
	vmovaps	%ymm0, 3008(%rsp)
	leaq	952(%rsp), %rsi
	leaq	2272(%rsp), %r14
	movl	$280, %edx
	movq	%r14, %rdi
	vzeroupper
	vj_c_call	memcpy
	leaq	2416(%rsp), %rdi
	movq	2544(%rsp), %rsi
	leaq	2784(%rsp), %rdx
	movl	$256, %ecx
	movq	%r14, %r8
	callq	blake2_digest..buffer..digest_into..33c1e97afcdf8a5d_1_v3
	movq	%rax, 2544(%rsp)
	movb	$1, 2408(%rsp)
	leaq	128(%rsp), %rbx
	movl	$280, %edx
	movq	%rbx, %rdi
	movq	%r14, %rsi
	vj_c_call	memcpy
	leaq	272(%rsp), %rsi
	movq	400(%rsp), %rdx
	movq	256(%rsp), %r14
	addq	%rdx, %r14
	movq	%r14, 256(%rsp)
	vxorps	%xmm0, %xmm0, %xmm0
	vmovaps	%ymm0, 2656(%rsp)
	vmovaps	%ymm0, 2688(%rsp)
	vmovaps	%ymm0, 2720(%rsp)
	vmovaps	%ymm0, 2752(%rsp)
	leaq	2656(%rsp), %r15
	movq	%r15, %rdi
	vzeroupper
	vj_c_call	memcpy
	vxorps	%xmm0, %xmm0, %xmm0
	vmovups	%ymm0, 272(%rsp)
	vmovups	%ymm0, 304(%rsp)
	vmovups	%ymm0, 336(%rsp)
	vmovups	%ymm0, 368(%rsp)
	movq	$0, 400(%rsp)
	movl	264(%rsp), %r8d
	movq	%rbx, %rdi
	movq	%r15, %rsi
	movq	%r14, %rdx
	movl	$1, %ecx
	vzeroupper
	vj_call	blake2_compress..compress..blake2b..compress_1_v3
	vmovups	128(%rsp), %ymm0
	vmovups	160(%rsp), %ymm1
	jmp	20f
6:
	vmovaps	%xmm0, 2272(%rsp)
	leaq	2272(%rsp), %rdi
	movq	16(%rsp), %r12
	movq	%r12, %rdx
	movq	%rsi, 32(%rsp)
	vj_c_call	memcpy
	vxorps	%xmm0, %xmm0, %xmm0
	vmovaps	%xmm0, 128(%rsp)
	leaq	128(%rsp), %rdi
	movq	%r15, %rsi
	movq	24(%rbp), %r14
	movq	%r14, %rdx
	vj_c_call	memcpy
	vmovaps	2272(%rsp), %xmm0
	vmovaps	%xmm0, 608(%rsp)
	movq	%r12, 624(%rsp)
	leaq	632(%rsp), %rbx
	vmovaps	128(%rsp), %xmm0
	vmovups	%xmm0, 632(%rsp)
	movq	%r14, 648(%rsp)
	movl	32(%rbp), %r14d
	movl	%r14d, 656(%rsp)
	movl	$0, 660(%rsp)
	vxorps	%xmm0, %xmm0, %xmm0
	vmovaps	%ymm0, 1376(%rsp)
	vmovd	%r14d, %xmm0
	vpbroadcastd	%xmm0, %xmm0
	vmovdqa	%ymm0, 2592(%rsp)
	vpblendd	$253, .L1_v3_CPI215_0(%rip), %ymm0, %ymm0
	vbroadcasti128	.L1_v3_CPI215_9(%rip), %ymm1
	vmovdqa	.L1_v3_CPI215_6(%rip), %ymm2
	vpblendvb	%ymm2, %ymm0, %ymm1, %ymm0
	vmovdqa	%ymm0, 2624(%rsp)
	leaq	1376(%rsp), %rdi
	leaq	608(%rsp), %rsi
	movq	%r12, %rdx
	vzeroupper
	vj_c_call	memcpy
	leaq	1392(%rsp), %rdi
	movq	%rbx, %rsi
	movq	24(%rbp), %rbx
	movq	%rbx, %rdx
	vj_c_call	memcpy
	vmovaps	.L1_v3_CPI215_2(%rip), %ymm0
	vxorps	1376(%rsp), %ymm0, %ymm0
	vmovaps	%ymm0, 576(%rsp)
	vxorps	%xmm0, %xmm0, %xmm0
	vmovaps	%ymm0, 1376(%rsp)
	vmovaps	2624(%rsp), %ymm0
	vxorps	.L1_v3_CPI215_3(%rip), %ymm0, %ymm0
	vmovaps	%ymm0, 2624(%rsp)
	movl	%r13d, %eax
	orl	$33554432, %eax
	vmovd	%eax, %xmm0
	vmovq	%xmm0, %xmm0
	vpblendd	$2, 2592(%rsp), %ymm0, %ymm0
	vbroadcasti128	.L1_v3_CPI215_10(%rip), %ymm1
	vmovdqa	.L1_v3_CPI215_6(%rip), %ymm2
	vpblendvb	%ymm2, %ymm0, %ymm1, %ymm0
	vmovdqa	%ymm0, 2560(%rsp)
	leaq	1376(%rsp), %rdi
	leaq	608(%rsp), %rsi
	movq	%r12, %rdx
	vzeroupper
	vj_c_call	memcpy
	leaq	1392(%rsp), %rdi
	leaq	632(%rsp), %rsi
	movq	%rbx, %rdx
	vj_c_call	memcpy
	vmovaps	.L1_v3_CPI215_2(%rip), %ymm0
	vxorps	1376(%rsp), %ymm0, %ymm0
	vmovaps	%ymm0, 2592(%rsp)
	vmovaps	2560(%rsp), %ymm0
	vxorps	.L1_v3_CPI215_3(%rip), %ymm0, %ymm0
	vmovaps	%ymm0, 2560(%rsp)
	movl	%r14d, %r14d
	vxorps	%xmm0, %xmm0, %xmm0
	vmovaps	%xmm0, 2656(%rsp)
	leaq	2656(%rsp), %rdi
	movq	32(%rsp), %rsi
	movq	%r12, %rdx
	vzeroupper
	vj_c_call	memcpy
	vxorps	%xmm0, %xmm0, %xmm0
	vmovaps	%xmm0, 2784(%rsp)
	leaq	2784(%rsp), %rdi
	movq	%r15, %rsi
	movq	%rbx, %rdx
	vj_c_call	memcpy
	vmovaps	2656(%rsp), %xmm0
	vmovaps	%xmm0, 2016(%rsp)
	vmovaps	2784(%rsp), %xmm0
	vmovaps	%xmm0, 2032(%rsp)
	vmovaps	2624(%rsp), %ymm1
	vmovups	%ymm1, 608(%rsp)
	vmovaps	576(%rsp), %ymm0
	vmovups	%ymm0, 640(%rsp)
	vmovups	%ymm1, 672(%rsp)
	vmovups	%ymm0, 704(%rsp)
	vxorps	%xmm1, %xmm1, %xmm1
	vmovups	%xmm1, 736(%rsp)
	movl	$64, 752(%rsp)
	vxorps	%xmm0, %xmm0, %xmm0
	vmovups	%ymm0, 756(%rsp)
	vmovups	%ymm0, 788(%rsp)
	vmovups	%ymm0, 820(%rsp)
	vmovups	%ymm0, 852(%rsp)
	vmovups	%ymm0, 884(%rsp)
	vmovups	%ymm0, 916(%rsp)
	movl	$0, 948(%rsp)
	vmovaps	2560(%rsp), %ymm3
	vmovups	%ymm3, 952(%rsp)
	vmovaps	2592(%rsp), %ymm2
	vmovups	%ymm2, 984(%rsp)
	vmovups	%ymm3, 1016(%rsp)
	vmovups	%ymm2, 1048(%rsp)
	vmovups	%xmm1, 1080(%rsp)
	movl	%r13d, 1096(%rsp)
	vmovups	%ymm0, 1100(%rsp)
	vmovups	%ymm0, 1132(%rsp)
	vmovups	%ymm0, 1164(%rsp)
	vmovups	%ymm0, 1196(%rsp)
	vmovups	%ymm0, 1228(%rsp)
	vmovups	%ymm0, 1260(%rsp)
	vmovups	%ymm0, 1272(%rsp)
	movq	%r14, 1304(%rsp)
	movq	%r12, 1312(%rsp)
	movq	%rbx, 1320(%rsp)
	vmovups	2016(%rsp), %ymm0
	vmovups	%ymm0, 1328(%rsp)
	leaq	608(%rsp), %rdi
	movq	24(%rsp), %rsi
	movq	112(%rsp), %rdx
	vzeroupper
	callq	blake2_state..tree..TreeState..update_1_v3
	vmovups	608(%rsp), %ymm0
	vmovups	640(%rsp), %ymm1
	vmovups	672(%rsp), %ymm2
	vmovups	704(%rsp), %ymm3
	vmovaps	%ymm0, 1376(%rsp)
	vmovaps	%ymm1, 1408(%rsp)
	vmovaps	%ymm2, 1440(%rsp)
	vmovaps	%ymm3, 1472(%rsp)
	vmovups	736(%rsp), %xmm0
	movl	752(%rsp), %eax
	vmovaps	%xmm0, 1504(%rsp)
	movl	%eax, 1520(%rsp)
	vmovups	760(%rsp), %ymm0
	vmovups	%ymm0, 1528(%rsp)
	vmovups	792(%rsp), %ymm0
	vmovups	%ymm0, 1560(%rsp)
	vmovups	824(%rsp), %ymm0
	vmovups	%ymm0, 1592(%rsp)
	vmovups	856(%rsp), %ymm0
	vmovups	%ymm0, 1624(%rsp)
	vmovups	888(%rsp), %ymm0
	vmovups	920(%rsp), %ymm1
	vmovups	952(%rsp), %ymm2
	vmovups	984(%rsp), %ymm3
	vmovups	%ymm1, 1688(%rsp)
	vmovups	%ymm0, 1656(%rsp)
	vmovaps	%ymm2, 128(%rsp)
	vmovaps	%ymm3, 160(%rsp)
	vmovups	1016(%rsp), %ymm0
	vmovaps	%ymm0, 192(%rsp)
	vmovups	1048(%rsp), %ymm0
	vmovaps	%ymm0, 224(%rsp)
	movq	1080(%rsp), %rax
	movq	%rax, 256(%rsp)
	vmovups	1088(%rsp), %xmm0
	vmovups	%xmm0, 264(%rsp)
	vmovups	1200(%rsp), %ymm0
	vmovups	%ymm0, 376(%rsp)
	movl	$1, 1524(%rsp)
	vmovups	1168(%rsp), %ymm0
	vmovups	%ymm0, 344(%rsp)
	vmovups	1136(%rsp), %ymm0
	vmovups	%ymm0, 312(%rsp)
	vmovups	1104(%rsp), %ymm0
	vmovups	%ymm0, 280(%rsp)
	vmovups	1232(%rsp), %ymm0
	vmovups	1264(%rsp), %ymm1
	vmovups	%ymm1, 440(%rsp)
	vmovups	%ymm0, 408(%rsp)
	vxorps	%xmm0, %xmm0, %xmm0
	vmovaps	%ymm0, 2304(%rsp)
	vmovaps	%ymm0, 2272(%rsp)
	leaq	1376(%rsp), %rdi
	leaq	2272(%rsp), %rbx
	movq	%rbx, %rsi
	vzeroupper
	callq	blake2_state..blake2b..State..write_digest_1_v3
	leaq	128(%rsp), %r14
	movl	$64, %edx
	movq	%r14, %rdi
	movq	%rbx, %rsi
	callq	blake2_state..blake2b..State..absorb_blocks_1_v3
	movl	$1, 276(%rsp)
	movq	%r14, %rdi
	movq	120(%rsp), %rsi
	callq	blake2_state..blake2b..State..write_digest_1_v3
	jmp	21f
7:
	movq	24(%rsp), %rax
	cmpq	%rcx, %rdx
	je	2b
8:
	movq	1568(%rsp), %r8
	movq	1712(%rsp), %rsi
	movq	%rdi, %rcx
	subq	%r8, %rcx
	subq	%rsi, %rcx
	cmpq	%rdx, %rcx
	jae	12f
	leaq	752(%rsp), %r12
	jmp	11f
	.p2align	4
9:
	leaq	(%rax,%rcx), %rdi
	movq	%rdi, 16(%rsp)
	subq	%rcx, %rdx
	leaq	1584(%rsp), %rdi
	movq	%rdx, %rbx
	movq	%rax, %rdx
	leaq	1440(%rsp), %r15
	movq	%r15, %r8
	vzeroupper
	callq	blake2_digest..buffer..digest_into..33c1e97afcdf8a5d_1_v3
	movq	%rax, 1712(%rsp)
	movq	1432(%rsp), %rax
	incq	%rax
	movq	1392(%rsp), %rdx
	movq	1416(%rsp), %r14
	vpbroadcastd	1424(%rsp), %xmm0
	vxorps	%xmm1, %xmm1, %xmm1
	vmovaps	%ymm1, 608(%rsp)
	vmovd	.L1_v3_CPI215_11(%rip), %xmm1
	vpunpckldq	%xmm0, %xmm1, %xmm0
	vmovq	%rax, %xmm1
	vpunpcklqdq	%xmm1, %xmm0, %xmm0
	vpblendd	$240, .L1_v3_CPI215_1(%rip), %ymm0, %ymm0
	vmovdqa	%ymm0, 544(%rsp)
	leaq	608(%rsp), %rdi
	leaq	1376(%rsp), %rsi
	vzeroupper
	vj_c_call	memcpy
	leaq	624(%rsp), %rdi
	leaq	1400(%rsp), %r13
	movq	%r13, %rsi
	movq	%r14, %rdx
	vj_c_call	memcpy
	vmovaps	608(%rsp), %ymm0
	vmovaps	544(%rsp), %ymm1
	vxorps	.L1_v3_CPI215_3(%rip), %ymm1, %ymm1
	vmovaps	%ymm1, 544(%rsp)
	vxorps	.L1_v3_CPI215_2(%rip), %ymm0, %ymm0
	vmovaps	%ymm0, 32(%rsp)
	leaq	608(%rsp), %r14
	movl	$280, %edx
	movq	%r14, %rdi
	movq	%r15, %rsi
	vzeroupper
	vj_c_call	memcpy
	vmovaps	544(%rsp), %ymm0
	vmovups	%ymm0, 1440(%rsp)
	vmovaps	32(%rsp), %ymm1
	vmovups	%ymm1, 1472(%rsp)
	vmovups	%ymm0, 1504(%rsp)
	vmovups	%ymm1, 1536(%rsp)
	vxorps	%xmm0, %xmm0, %xmm0
	vmovups	%ymm0, 168(%r13)
	vmovups	%ymm0, 200(%r13)
	vmovups	%ymm0, 232(%r13)
	vmovups	%ymm0, 264(%r13)
	vmovups	%ymm0, 288(%r13)
	movq	880(%rsp), %rdx
	movq	736(%rsp), %r13
	addq	%rdx, %r13
	movq	%r13, 736(%rsp)
	vmovaps	%ymm0, 128(%rsp)
	vmovaps	%ymm0, 160(%rsp)
	vmovaps	%ymm0, 192(%rsp)
	vmovaps	%ymm0, 224(%rsp)
	leaq	128(%rsp), %r15
	movq	%r15, %rdi
	movq	%r12, %rsi
	vzeroupper
	vj_c_call	memcpy
	vxorps	%xmm0, %xmm0, %xmm0
	vmovups	%ymm0, (%r12)
	vmovups	%ymm0, 32(%r12)
	vmovups	%ymm0, 64(%r12)
	vmovups	%ymm0, 96(%r12)
	movq	$0, 128(%r12)
	movl	744(%rsp), %r8d
	movq	%r14, %rdi
	movq	%r15, %rsi
	movq	%r13, %rdx
	movl	$1, %ecx
	vzeroupper
	vj_call	blake2_compress..compress..blake2b..compress_1_v3
	vmovups	608(%rsp), %ymm0
	vmovups	640(%rsp), %ymm1
	vmovups	%ymm0, 608(%rsp)
	vmovups	%ymm1, 640(%rsp)
	movq	1992(%rsp), %rsi
	leaq	608(%rsp), %rdx
	movl	$64, %ecx
	leaq	1864(%rsp), %rdi
	leaq	1720(%rsp), %r8
	vzeroupper
	callq	blake2_digest..buffer..digest_into..33c1e97afcdf8a5d_1_v3
	movq	%rbx, %rdx
	movq	%rax, 1992(%rsp)
	incq	1432(%rsp)
	movq	16(%rsp), %rax
10:
	movl	1424(%rsp), %edi
	movq	1568(%rsp), %r8
	movq	1712(%rsp), %rsi
	movq	%rdi, %rcx
	subq	%r8, %rcx
	subq	%rsi, %rcx
	cmpq	%rdx, %rcx
	jae	12f
11:
	addq	%rsi, %r8
	jne	9b
	shlq	$2, %rdi
	cmpq	%rdx, %rdi
	jae	9b
	leaq	1376(%rsp), %rdi
	movq	%rax, %rsi
	vzeroupper
	callq	blake2_tree..hasher..TreeHasher..close_next..32_1_v3
	jmp	10b
12:
	leaq	1584(%rsp), %rdi
	movq	%rdx, %rcx
	movq	%rax, %rdx
	leaq	1440(%rsp), %rbx
	movq	%rbx, %r8
	vzeroupper
	callq	blake2_digest..buffer..digest_into..33c1e97afcdf8a5d_1_v3
	movq	%rax, 1712(%rsp)
	movq	128(%rbx), %rax
	movq	%rax, 736(%rsp)
	vmovups	(%rbx), %ymm0
	vmovups	32(%rbx), %ymm1
	vmovups	64(%rbx), %ymm2
	vmovups	96(%rbx), %ymm3
	vmovaps	%ymm3, 704(%rsp)
	vmovaps	%ymm2, 672(%rsp)
	vmovaps	%ymm1, 640(%rsp)
	vmovaps	%ymm0, 608(%rsp)
	vmovups	1577(%rsp), %ymm0
	vmovups	1609(%rsp), %ymm1
	vmovups	1641(%rsp), %ymm2
	vmovups	1673(%rsp), %ymm3
	vmovups	%ymm0, 745(%rsp)
	vmovups	%ymm1, 777(%rsp)
	vmovups	%ymm2, 809(%rsp)
	vmovups	%ymm3, 841(%rsp)
	vmovups	1688(%rsp), %xmm0
	vmovups	%xmm0, 856(%rsp)
	movq	1704(%rsp), %rax
	movq	%rax, 872(%rsp)
	movq	1712(%rsp), %rax
	movq	%rax, 880(%rsp)
	leaq	128(%rsp), %rbx
	movl	$280, %edx
	movq	%rbx, %rdi
	leaq	1720(%rsp), %rsi
	vzeroupper
	vj_c_call	memcpy
	movb	$1, 744(%rsp)
	leaq	752(%rsp), %rsi
	movq	880(%rsp), %rdx
	movq	736(%rsp), %r14
	addq	%rdx, %r14
	movq	%r14, 736(%rsp)
	vxorps	%xmm0, %xmm0, %xmm0
	vmovaps	%ymm0, 2272(%rsp)
	vmovaps	%ymm0, 2304(%rsp)
	vmovaps	%ymm0, 2336(%rsp)
	vmovaps	%ymm0, 2368(%rsp)
	leaq	2272(%rsp), %r15
	movq	%r15, %rdi
	vzeroupper
	vj_c_call	memcpy
	vxorps	%xmm0, %xmm0, %xmm0
	vmovups	%ymm0, 752(%rsp)
	vmovups	%ymm0, 784(%rsp)
	vmovups	%ymm0, 816(%rsp)
	vmovups	%ymm0, 848(%rsp)
	movq	$0, 880(%rsp)
	leaq	608(%rsp), %rdi
	movq	%r15, %rsi
	movq	%r14, %rdx
	movl	$1, %ecx
	movl	$1, %r8d
	vzeroupper
	vj_call	blake2_compress..compress..blake2b..compress_1_v3
	vmovaps	608(%rsp), %ymm0
	vmovaps	640(%rsp), %ymm1
	vmovups	%ymm0, 2016(%rsp)
	vmovups	%ymm1, 2048(%rsp)
	leaq	272(%rsp), %rdi
	movq	400(%rsp), %rsi
	leaq	2016(%rsp), %rdx
	movl	$64, %ecx
	movq	%rbx, %r8
	vzeroupper
	callq	blake2_digest..buffer..digest_into..33c1e97afcdf8a5d_1_v3
	movq	%rax, 400(%rsp)
	movb	$1, 264(%rsp)
	leaq	608(%rsp), %r14
	movl	$280, %edx
	movq	%r14, %rdi
	movq	%rbx, %rsi
	vj_c_call	memcpy
	leaq	752(%rsp), %rsi
	movq	880(%rsp), %rdx
	movq	736(%rsp), %rbx
	addq	%rdx, %rbx
	movq	%rbx, 736(%rsp)
	vxorps	%xmm0, %xmm0, %xmm0
	vmovaps	%ymm0, 2272(%rsp)
	vmovaps	%ymm0, 2304(%rsp)
	vmovaps	%ymm0, 2336(%rsp)
	vmovaps	%ymm0, 2368(%rsp)
	leaq	2272(%rsp), %r15
	movq	%r15, %rdi
	vzeroupper
	vj_c_call	memcpy
	vxorps	%xmm0, %xmm0, %xmm0
	vmovups	%ymm0, 752(%rsp)
	vmovups	%ymm0, 784(%rsp)
	vmovups	%ymm0, 816(%rsp)
	vmovups	%ymm0, 848(%rsp)
	movq	$0, 880(%rsp)
	movl	744(%rsp), %r8d
	movq	%r14, %rdi
	movq	%r15, %rsi
	movq	%rbx, %rdx
	movl	$1, %ecx
	vzeroupper
	vj_call	blake2_compress..compress..blake2b..compress_1_v3
	vmovups	608(%rsp), %ymm0
13:
	movq	120(%rsp), %rax
	vmovups	%ymm0, (%rax)
	jmp	21f
14:
	movq	24(%rsp), %rax
	cmpq	%rcx, %rdx
	je	5b
15:
	movq	1568(%rsp), %r8
	movq	1712(%rsp), %rsi
	movq	%rdi, %rcx
	subq	%r8, %rcx
	subq	%rsi, %rcx
	cmpq	%rdx, %rcx
	jae	19f
	leaq	752(%rsp), %r13
	jmp	18f
	.p2align	4
16:
	leaq	(%rax,%rcx), %rdi
	movq	%rdi, 16(%rsp)
	subq	%rcx, %rdx
	leaq	1584(%rsp), %rdi
	movq	%rdx, %r15
	movq	%rax, %rdx
	leaq	1440(%rsp), %r14
	movq	%r14, %r8
	vzeroupper
	callq	blake2_digest..buffer..digest_into..33c1e97afcdf8a5d_1_v3
	movq	%rax, 1712(%rsp)
	movq	1432(%rsp), %rax
	incq	%rax
	movq	1392(%rsp), %rdx
	movq	1416(%rsp), %rbx
	vpbroadcastd	1424(%rsp), %xmm0
	vxorps	%xmm1, %xmm1, %xmm1
	vmovaps	%ymm1, 608(%rsp)
	vmovd	.L1_v3_CPI215_11(%rip), %xmm1
	vpunpckldq	%xmm0, %xmm1, %xmm0
	vmovq	%rax, %xmm1
	vpunpcklqdq	%xmm1, %xmm0, %xmm0
	vpblendd	$240, .L1_v3_CPI215_1(%rip), %ymm0, %ymm0
	vmovdqa	%ymm0, 544(%rsp)
	leaq	608(%rsp), %rdi
	leaq	1376(%rsp), %rsi
	vzeroupper
	vj_c_call	memcpy
	leaq	624(%rsp), %rdi
	leaq	1400(%rsp), %r12
	movq	%r12, %rsi
	movq	%rbx, %rdx
	vj_c_call	memcpy
	vmovaps	608(%rsp), %ymm0
	vmovaps	544(%rsp), %ymm1
	vxorps	.L1_v3_CPI215_3(%rip), %ymm1, %ymm1
	vmovaps	%ymm1, 544(%rsp)
	vxorps	.L1_v3_CPI215_2(%rip), %ymm0, %ymm0
	vmovaps	%ymm0, 32(%rsp)
	leaq	608(%rsp), %rbx
	movl	$280, %edx
	movq	%rbx, %rdi
	movq	%r14, %rsi
	vzeroupper
	vj_c_call	memcpy
	vmovaps	544(%rsp), %ymm0
	vmovups	%ymm0, 1440(%rsp)
	vmovaps	32(%rsp), %ymm1
	vmovups	%ymm1, 1472(%rsp)
	vmovups	%ymm0, 1504(%rsp)
	vmovups	%ymm1, 1536(%rsp)
	vxorps	%xmm0, %xmm0, %xmm0
	vmovups	%ymm0, 168(%r12)
	vmovups	%ymm0, 200(%r12)
	vmovups	%ymm0, 232(%r12)
	vmovups	%ymm0, 264(%r12)
	vmovups	%ymm0, 288(%r12)
	movq	880(%rsp), %rdx
	movq	736(%rsp), %r12
	addq	%rdx, %r12
	movq	%r12, 736(%rsp)
	vmovaps	%ymm0, 128(%rsp)
	vmovaps	%ymm0, 160(%rsp)
	vmovaps	%ymm0, 192(%rsp)
	vmovaps	%ymm0, 224(%rsp)
	leaq	128(%rsp), %r14
	movq	%r14, %rdi
	movq	%r13, %rsi
	vzeroupper
	vj_c_call	memcpy
	vxorps	%xmm0, %xmm0, %xmm0
	vmovups	%ymm0, (%r13)
	vmovups	%ymm0, 32(%r13)
	vmovups	%ymm0, 64(%r13)
	vmovups	%ymm0, 96(%r13)
	movq	$0, 128(%r13)
	movl	744(%rsp), %r8d
	movq	%rbx, %rdi
	movq	%r14, %rsi
	movq	%r12, %rdx
	movl	$1, %ecx
	vzeroupper
	vj_call	blake2_compress..compress..blake2b..compress_1_v3
	vmovups	608(%rsp), %ymm0
	vmovups	640(%rsp), %ymm1
	vmovups	%ymm0, 608(%rsp)
	vmovups	%ymm1, 640(%rsp)
	movq	1992(%rsp), %rsi
	leaq	608(%rsp), %rdx
	movl	$64, %ecx
	leaq	1864(%rsp), %rdi
	leaq	1720(%rsp), %r8
	vzeroupper
	callq	blake2_digest..buffer..digest_into..33c1e97afcdf8a5d_1_v3
	movq	%r15, %rdx
	movq	%rax, 1992(%rsp)
	incq	1432(%rsp)
	movq	16(%rsp), %rax
17:
	movl	1424(%rsp), %edi
	movq	1568(%rsp), %r8
	movq	1712(%rsp), %rsi
	movq	%rdi, %rcx
	subq	%r8, %rcx
	subq	%rsi, %rcx
	cmpq	%rdx, %rcx
	jae	19f
18:
	addq	%rsi, %r8
	jne	16b
	shlq	$2, %rdi
	cmpq	%rdx, %rdi
	jae	16b
	leaq	1376(%rsp), %rdi
	movq	%rax, %rsi
	vzeroupper
	callq	blake2_tree..hasher..TreeHasher..close_next..64_1_v3
	jmp	17b
19:
	leaq	1584(%rsp), %rdi
	movq	%rdx, %rcx
	movq	%rax, %rdx
	leaq	1440(%rsp), %rbx
	movq	%rbx, %r8
	vzeroupper
	callq	blake2_digest..buffer..digest_into..33c1e97afcdf8a5d_1_v3
	movq	%rax, 1712(%rsp)
	movq	128(%rbx), %rax
	movq	%rax, 736(%rsp)
	vmovups	(%rbx), %ymm0
	vmovups	32(%rbx), %ymm1
	vmovups	64(%rbx), %ymm2
	vmovups	96(%rbx), %ymm3
	vmovaps	%ymm3, 704(%rsp)
	vmovaps	%ymm2, 672(%rsp)
	vmovaps	%ymm1, 640(%rsp)
	vmovaps	%ymm0, 608(%rsp)
	vmovups	1577(%rsp), %ymm0
	vmovups	1609(%rsp), %ymm1
	vmovups	1641(%rsp), %ymm2
	vmovups	1673(%rsp), %ymm3
	vmovups	%ymm0, 745(%rsp)
	vmovups	%ymm1, 777(%rsp)
	vmovups	%ymm2, 809(%rsp)
	vmovups	%ymm3, 841(%rsp)
	vmovups	1688(%rsp), %xmm0
	vmovups	%xmm0, 856(%rsp)
	movq	1704(%rsp), %rax
	movq	%rax, 872(%rsp)
	movq	1712(%rsp), %rax
	movq	%rax, 880(%rsp)
	leaq	128(%rsp), %rbx
	movl	$280, %edx
	movq	%rbx, %rdi
	leaq	1720(%rsp), %rsi
	vzeroupper
	vj_c_call	memcpy
	movb	$1, 744(%rsp)
	leaq	752(%rsp), %rsi
	movq	880(%rsp), %rdx
	movq	736(%rsp), %r14
	addq	%rdx, %r14
	movq	%r14, 736(%rsp)
	vxorps	%xmm0, %xmm0, %xmm0
	vmovaps	%ymm0, 2272(%rsp)
	vmovaps	%ymm0, 2304(%rsp)
	vmovaps	%ymm0, 2336(%rsp)
	vmovaps	%ymm0, 2368(%rsp)
	leaq	2272(%rsp), %r15
	movq	%r15, %rdi
	vzeroupper
	vj_c_call	memcpy
	vxorps	%xmm0, %xmm0, %xmm0
	vmovups	%ymm0, 752(%rsp)
	vmovups	%ymm0, 784(%rsp)
	vmovups	%ymm0, 816(%rsp)
	vmovups	%ymm0, 848(%rsp)
	movq	$0, 880(%rsp)
	leaq	608(%rsp), %rdi
	movq	%r15, %rsi
	movq	%r14, %rdx
	movl	$1, %ecx
	movl	$1, %r8d
	vzeroupper
	vj_call	blake2_compress..compress..blake2b..compress_1_v3
	vmovaps	608(%rsp), %ymm0
	vmovaps	640(%rsp), %ymm1
	vmovups	%ymm0, 2016(%rsp)
	vmovups	%ymm1, 2048(%rsp)
	leaq	272(%rsp), %rdi
	movq	400(%rsp), %rsi
	leaq	2016(%rsp), %rdx
	movl	$64, %ecx
	movq	%rbx, %r8
	vzeroupper
	callq	blake2_digest..buffer..digest_into..33c1e97afcdf8a5d_1_v3
	movq	%rax, 400(%rsp)
	movb	$1, 264(%rsp)
	leaq	608(%rsp), %r14
	movl	$280, %edx
	movq	%r14, %rdi
	movq	%rbx, %rsi
	vj_c_call	memcpy
	leaq	752(%rsp), %rsi
	movq	880(%rsp), %rdx
	movq	736(%rsp), %rbx
	addq	%rdx, %rbx
	movq	%rbx, 736(%rsp)
	vxorps	%xmm0, %xmm0, %xmm0
	vmovaps	%ymm0, 2272(%rsp)
	vmovaps	%ymm0, 2304(%rsp)
	vmovaps	%ymm0, 2336(%rsp)
	vmovaps	%ymm0, 2368(%rsp)
	leaq	2272(%rsp), %r15
	movq	%r15, %rdi
	vzeroupper
	vj_c_call	memcpy
	vxorps	%xmm0, %xmm0, %xmm0
	vmovups	%ymm0, 752(%rsp)
	vmovups	%ymm0, 784(%rsp)
	vmovups	%ymm0, 816(%rsp)
	vmovups	%ymm0, 848(%rsp)
	movq	$0, 880(%rsp)
	movl	744(%rsp), %r8d
	movq	%r14, %rdi
	movq	%r15, %rsi
	movq	%rbx, %rdx
	movl	$1, %ecx
	vzeroupper
	vj_call	blake2_compress..compress..blake2b..compress_1_v3
	vmovups	608(%rsp), %ymm0
	vmovups	640(%rsp), %ymm1
20:
	movq	120(%rsp), %rax
	vmovups	%ymm0, (%rax)
	vmovups	%ymm1, 32(%rax)
21:
	xorl	%eax, %eax
22:
	leaq	-40(%rbp), %rsp
	popq	%rbx
	popq	%r12
	popq	%r13
	popq	%r14
	popq	%r15
	popq	%rbp
	vzeroupper
	retq
	vj_end	vulfsjor_ffi_tree_root_1_v3

	vj_data	static.2_1_v3
.L1_v3_static.2:

