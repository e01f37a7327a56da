/* Made by tools/dist.sh from the proved crate b2. dist/README.md says how. */
	vj_cold	std_alloc..vec..Vec..grow_amortized..3378b08034dc46b4_1_a64
	ldr	x8, [x0, #8]
	cmn	x8, x1
	b.lo	1f
	mov	w0, wzr
	ret
1:
	stp	x29, x30, [sp, #-32]!
	ldr	x10, [x0, #16]
	add	x9, x8, x1
	mov	w11, #8
	cmp	x9, #8
	stp	x20, x19, [sp, #16]
	mov	x29, sp
	lsl	x12, x10, #1
	csel	x11, x9, x11, hi
	lsr	x13, x10, #62
	cmp	x11, x12
	csel	x9, x11, x12, hi
	cmp	x13, #0
	csel	x19, x9, x11, eq
	tbnz	x19, #63, 4f
	cbz	x10, 3f
	mov	x20, x0
	ldr	x0, [x0]
	mov	x1, x8
	mov	x2, x19
	mov	w3, #1
	vj_call	rattle_realloc
	tbz	w0, #0, 4f
2:
	mov	w0, #1
	str	x1, [x20]
	str	x19, [x20, #16]
	ldp	x20, x19, [sp, #16]
	ldp	x29, x30, [sp], #32
	ret
3:
	mov	x20, x0
	mov	x0, x9
	mov	w1, #1
	vj_call	rattle_alloc
	tbnz	w0, #0, 2b
4:
	mov	w0, wzr
	ldp	x20, x19, [sp, #16]
	ldp	x29, x30, [sp], #32
	ret
	vj_end	std_alloc..vec..Vec..grow_amortized..3378b08034dc46b4_1_a64

	vj_function	core..slice..words..skip_far..52f9edcae2f82f51_1_a64
	sub	x8, x2, x1
	cmp	x8, #64
	b.lo	2f
	ldr	x9, [x0]
1:
	add	x10, x9, x1
	ldp	q0, q1, [x10, #32]
	ldp	q2, q3, [x10]
	orr	v1.16b, v3.16b, v1.16b
	orr	v0.16b, v2.16b, v0.16b
	orr	v0.16b, v0.16b, v1.16b
	ext	v1.16b, v0.16b, v0.16b, #8
	orr	v0.8b, v0.8b, v1.8b
	fmov	x10, d0
	tst	x10, #0x8080808080808080
	b.ne	2f
	sub	x8, x8, #64
	add	x1, x1, #64
	cmp	x8, #63
	b.hi	1b
2:
	mov	x0, x1
	ret
	vj_end	core..slice..words..skip_far..52f9edcae2f82f51_1_a64

	vj_cold	std_alloc..vec..Vec..grow_amortized..ab4c418570ac94f8_1_a64
	ldr	x8, [x0, #8]
	cmn	x8, x1
	b.lo	1f
	mov	w0, wzr
	ret
1:
	stp	x29, x30, [sp, #-32]!
	ldr	x9, [x0, #16]
	add	x10, x8, x1
	mov	w11, #4
	cmp	x10, #4
	stp	x20, x19, [sp, #16]
	mov	x29, sp
	lsl	x12, x9, #1
	csel	x11, x10, x11, hi
	lsr	x13, x9, #62
	cmp	x11, x12
	csel	x10, x11, x12, hi
	cmp	x13, #0
	csel	x19, x10, x11, eq
	mov	x11, #6148914691236517205
	movk	x11, #1365, lsl #48
	cmp	x19, x11
	b.hi	4f
	cbz	x9, 3f
	add	x8, x8, x8, lsl #1
	add	x9, x19, x19, lsl #1
	mov	x20, x0
	ldr	x0, [x0]
	mov	w3, #8
	lsl	x1, x8, #3
	lsl	x2, x9, #3
	vj_call	rattle_realloc
	tbz	w0, #0, 4f
2:
	mov	w0, #1
	str	x1, [x20]
	str	x19, [x20, #16]
	ldp	x20, x19, [sp, #16]
	ldp	x29, x30, [sp], #32
	ret
3:
	add	x8, x10, x10, lsl #1
	mov	x20, x0
	mov	w1, #8
	lsl	x0, x8, #3
	vj_call	rattle_alloc
	tbnz	w0, #0, 2b
4:
	mov	w0, wzr
	ldp	x20, x19, [sp, #16]
	ldp	x29, x30, [sp], #32
	ret
	vj_end	std_alloc..vec..Vec..grow_amortized..ab4c418570ac94f8_1_a64

	vj_constants	16
	.p2align	4, 0x0
.L1_a64_CPI3_0:
	.quad	1
	.quad	0
.L1_a64_CPI3_1:
	.quad	7640891576956012808
	.quad	-4942790177534073029
.L1_a64_CPI3_2:
	.quad	4354685564936845355
	.quad	-6534734903238641935
.L1_a64_CPI3_3:
	.quad	5840696475078001361
	.quad	-7276294671716946913
.L1_a64_CPI3_4:
	.quad	2270897969802886507
	.quad	6620516959819538809
.L1_a64_CPI3_5:
	.long	128
	.long	128
	.long	64
	.long	0
.L1_a64_CPI3_6:
	.quad	2
	.quad	0
.L1_a64_CPI3_7:
	.short	32
	.short	257
	.short	0
	.short	0
	.zero	2
	.zero	2
	.zero	2
	.zero	2
.L1_a64_CPI3_8:
	.long	1779033703
	.long	3144134277
	.long	1013904242
	.long	2773480762
.L1_a64_CPI3_9:
	.long	1359893119
	.long	2600822924
	.long	528734635
	.long	1541459225
.L1_a64_CPI3_12:
	.quad	4354685564936828971
	.quad	-6534734903238641935
	vj_constants	8
	.p2align	3, 0x0
.L1_a64_CPI3_10:
	.short	64
	.short	257
	.short	0
	.short	0
.L1_a64_CPI3_11:
	.short	64
	.short	512
	.zero	2
	.zero	2
	vj_function	b2_commands..dispatch..run_with_notes..8eebea7bb24a6da2_1_a64
	stp	x29, x30, [sp, #-96]!
	sub	x9, sp, #4, lsl #12
	stp	x28, x27, [sp, #16]
	mov	x29, sp
	sub	x9, x9, #864
	stp	x26, x25, [sp, #32]
	and	x9, x9, #0xffffffffffffffe0
	stp	x24, x23, [sp, #48]
	stp	x22, x21, [sp, #64]
	stp	x20, x19, [sp, #80]
	sub	sp, sp, #3072
	cmp	sp, x9
	b.le	2f
1:
	str	xzr, [sp]
	sub	sp, sp, #3072
	cmp	sp, x9
	b.gt	1b
2:
	mov	sp, x9
	movi	v0.2d, #0000000000000000
	ldr	xzr, [sp]
	mov	x27, x4
	mov	x23, x3
	add	x8, sp, #180
	str	xzr, [sp, #560]
	stp	xzr, xzr, [sp, #448]
	str	xzr, [sp, #440]
	stp	q0, q0, [sp, #464]
	stp	q0, q0, [sp, #496]
	stp	q0, q0, [sp, #528]
	stp	q0, q0, [sp, #576]
	stp	q0, q0, [sp, #608]
	stp	q0, q0, [sp, #640]
	str	wzr, [sp, #432]
	stur	wzr, [x8, #255]
	str	q0, [sp, #4928]
	str	q0, [sp, #4944]
	str	q0, [sp, #4960]
	str	q0, [sp, #4976]
	str	q0, [sp, #4992]
	str	q0, [sp, #5008]
	str	q0, [sp, #5024]
	str	q0, [sp, #5040]
	str	xzr, [sp, #5056]
	stp	q0, q0, [sp, #672]
	stp	q0, q0, [sp, #704]
	stp	q0, q0, [sp, #736]
	str	q0, [sp, #768]
	str	q0, [sp, #1104]
	str	q0, [sp, #1088]
	str	q0, [sp, #1072]
	str	q0, [sp, #1056]
	str	q0, [sp, #1040]
	str	q0, [sp, #2176]
	str	q0, [sp, #2160]
	str	q0, [sp, #2144]
	str	q0, [sp, #2128]
	str	q0, [sp, #2112]
	str	q0, [sp, #2096]
	str	q0, [sp, #2080]
	str	q0, [sp, #4064]
	str	q0, [sp, #4048]
	str	q0, [sp, #4032]
	str	q0, [sp, #4016]
	str	q0, [sp, #4000]
	str	q0, [sp, #13120]
	str	q0, [sp, #13136]
	str	q0, [sp, #13152]
	str	q0, [sp, #13168]
	str	q0, [sp, #13184]
	str	q0, [sp, #13200]
	str	q0, [sp, #13216]
	str	q0, [sp, #13232]
	str	q0, [sp, #4576]
	str	q0, [sp, #4560]
	str	q0, [sp, #4544]
	str	q0, [sp, #4528]
	str	q0, [sp, #4512]
	str	q0, [sp, #4496]
	str	q0, [sp, #4480]
	str	q0, [sp, #4464]
	str	xzr, [sp, #1472]
	str	q0, [sp, #1456]
	str	q0, [sp, #1440]
	str	q0, [sp, #1424]
	str	q0, [sp, #1408]
	str	q0, [sp, #1392]
	str	q0, [sp, #1376]
	cbz	x1, 3f
	ldp	x21, x22, [x0]
	add	x25, sp, #3, lsl #12
	add	x19, sp, #1, lsl #12
	mov	x28, x0
	add	x25, x25, #832
	add	x19, x19, #832
	add	x26, sp, #3872
	add	x24, sp, #1376
	cmp	x22, #4
	sub	x20, x1, #1
	str	x2, [sp, #400]
	b.le	4f
	cmp	x22, #5
	b.eq	5f
	cmp	x22, #6
	b.eq	6f
	cmp	x22, #7
	b.ne	9f
	ldr	w8, [x21]
	ldur	w9, [x21, #3]
	orr	x8, x8, x9, lsl #32
	mov	x9, #26999
	movk	x9, #28276, lsl #16
	movk	x9, #25966, lsl #32
	movk	x9, #29555, lsl #48
	cmp	x8, x9
	b.ne	9f
	movi	v1.2d, #0000000000000000
	cbz	x20, 124f
	ldp	x8, x9, [x28, #24]
	cmp	x9, #4
	b.eq	47f
	cmp	x9, #2
	b.ne	124f
	ldrb	w9, [x8, #1]
	ldrb	w8, [x8]
	lsl	x10, x9, #8
	orr	x8, x10, x8, lsl #16
	orr	x8, x8, x9
	mov	w9, #12335
	movk	w9, #115, lsl #16
	cmp	x8, x9
	b.gt	94f
	mov	w9, #12336
	movk	w9, #98, lsl #16
	cmp	x8, x9
	b.eq	115f
	mov	w9, #14392
	movk	w9, #98, lsl #16
	cmp	x8, x9
	b.ne	124f
	mov	x26, xzr
	mov	w21, #1
	b	121f
3:
	add	x8, sp, #180
	mov	w0, wzr
	mov	x2, x23
	stur	wzr, [x8, #255]
	str	wzr, [sp, #432]
	bl	b2_commands..fault..Fault..report..c1844c1740294036_1_a64
	and	w8, w0, #0xff
	cmp	w8, #2
	b.ne	127f
	vj_page	x19, .L1_a64_static.47
	vj_address	x19, x19, .L1_a64_static.47
	mov	w20, #25
	b	36f
4:
	cmp	x22, #3
	b.eq	7f
	cmp	x22, #4
	b.ne	9f
	ldr	w8, [x21]
	mov	x9, #28530
	movk	x9, #29807, lsl #16
	orr	x8, x8, x8, lsl #32
	orr	x9, x9, x9, lsl #32
	cmp	x8, x9
	b.eq	18f
	mov	x9, #29300
	movk	x9, #25957, lsl #16
	orr	x9, x9, x9, lsl #32
	cmp	x8, x9
	b.ne	9f
	add	x0, sp, #672
	add	x2, x28, #24
	mov	w1, wzr
	mov	x3, x20
	bl	b2_commands..tree_arguments..Root..from_words_1_a64
	ldrb	w8, [sp, #672]
	ldr	x26, [sp, #680]
	ldr	x1, [sp, #688]
	cbnz	w8, 19f
	add	x17, sp, #576
	ldr	x8, [sp, #776]
	add	x12, sp, #1, lsl #12
	ldur	q0, [x17, #120]
	ldur	q1, [x17, #136]
	ldur	q2, [x17, #152]
	add	x12, x12, #368
	str	x8, [sp, #5040]
	mov	w20, wzr
	str	q0, [sp, #4960]
	ldur	q0, [x17, #168]
	mov	w25, wzr
	str	q1, [sp, #4976]
	ldur	q1, [x17, #184]
	ldr	x21, [sp, #4960]
	str	q2, [sp, #4992]
	ldr	x15, [sp, #4968]
	mov	x16, xzr
	str	q0, [sp, #5008]
	mov	x22, xzr
	str	q1, [sp, #5024]
	ldrb	w8, [x12, #519]
	ldurh	w9, [x19, #53]
	ldrb	w10, [x19, #79]
	ldurh	w11, [x19, #77]
	ldrb	w13, [x12, #512]
	ldur	q1, [x19, #56]
	orr	w8, w9, w8, lsl #16
	ldur	w9, [x19, #49]
	ldrb	w12, [x19, #72]
	orr	w10, w11, w10, lsl #16
	ldur	w11, [x19, #73]
	str	x23, [sp, #424]
	orr	x14, x9, x8, lsl #32
	ldur	w8, [x17, #193]
	ldr	w9, [sp, #772]
	mov	w23, wzr
	str	x26, [sp, #4944]
	orr	x10, x11, x10, lsl #32
	str	x1, [sp, #4952]
	b	46f
5:
	ldr	w8, [x21]
	ldur	w9, [x21, #1]
	orr	x8, x8, x9, lsl #32
	mov	x9, #29811
	movk	x9, #28773, lsl #16
	movk	x9, #25972, lsl #32
	movk	x9, #29552, lsl #48
	cmp	x8, x9
	b.ne	9f
	str	x23, [sp, #424]
	mov	w23, #2
	b	17f
6:
	ldr	w8, [x21]
	ldur	w9, [x21, #2]
	orr	x8, x8, x9, lsl #32
	mov	x9, #25963
	movk	x9, #30305, lsl #16
	movk	x9, #30305, lsl #32
	movk	x9, #29541, lsl #48
	cmp	x8, x9
	b.gt	8f
	mov	x9, #25956
	movk	x9, #26994, lsl #16
	movk	x9, #26994, lsl #32
	movk	x9, #25974, lsl #48
	cmp	x8, x9
	b.eq	25f
	mov	x9, #11565
	movk	x9, #25960, lsl #16
	movk	x9, #25960, lsl #32
	movk	x9, #28780, lsl #48
	cmp	x8, x9
	b.eq	10f
	b	9f
7:
	ldrb	w8, [x21]
	ldrb	w9, [x21, #1]
	lsl	x8, x8, #16
	orr	x8, x8, x9, lsl #8
	ldrb	w9, [x21, #2]
	orr	x8, x8, x9
	sub	x9, x8, #1847, lsl #12
	cmp	x9, #1389
	b.eq	16f
	mov	w9, #28518
	movk	w9, #120, lsl #16
	cmp	x8, x9
	b.ne	9f
	str	xzr, [sp, #1824]
	str	q0, [sp, #1808]
	str	q0, [sp, #1792]
	str	q0, [sp, #1776]
	str	q0, [sp, #1760]
	str	q0, [sp, #1744]
	str	q0, [sp, #1728]
	cbz	x20, 100f
	ldr	x8, [x28, #32]
	cmp	x8, #2
	b.ne	100f
	ldur	x8, [x28, #24]
	ldrb	w9, [x8]
	ldrb	w8, [x8, #1]
	lsl	x9, x9, #16
	orr	x9, x9, x8, lsl #8
	orr	x8, x9, x8
	sub	x9, x8, #1926, lsl #12
	cmp	x9, #610
	b.eq	98f
	mov	w9, #29555
	movk	w9, #120, lsl #16
	cmp	x8, x9
	b.ne	100f
	add	x22, sp, #3872
	mov	w26, #1
	mov	w8, #65534
	b	99f
8:
	mov	x9, #25964
	movk	x9, #30305, lsl #16
	movk	x9, #30305, lsl #32
	movk	x9, #29541, lsl #48
	cmp	x8, x9
	b.eq	30f
	mov	x9, #25459
	movk	x9, #26994, lsl #16
	movk	x9, #26994, lsl #32
	movk	x9, #29808, lsl #48
	cmp	x8, x9
	b.ne	9f
	str	x23, [sp, #424]
	mov	w23, #1
	b	17f
9:
	vj_page	x2, .L1_a64_static.13
	vj_address	x2, x2, .L1_a64_static.13
	mov	x0, x21
	mov	x1, x22
	mov	w3, #2
	bl	core..lang..str_eq_1_a64
	tbnz	w0, #0, 10f
	vj_page	x2, .L1_a64_static.14
	vj_address	x2, x2, .L1_a64_static.14
	mov	x0, x21
	mov	x1, x22
	mov	w3, #4
	bl	core..lang..str_eq_1_a64
	tbz	w0, #0, 14f
10:
	mov	w8, #6
	add	x0, sp, #1, lsl #12
	add	x1, sp, #1, lsl #12
	str	x23, [sp, #424]
	add	x0, x0, #832
	add	x1, x1, #368
	strb	w8, [x26, #592]
11:
	mov	x2, x20
	bl	b2_commands..task..Task..require_no_more_words_1_a64
	ldrb	w9, [x19, #55]
	ldurh	w10, [x19, #53]
	ldrb	w11, [x19, #79]
	ldurh	w12, [x19, #77]
	ldrb	w8, [x19]
	ldrb	w0, [x19, #8]
	orr	w9, w10, w9, lsl #16
	ldur	w10, [x19, #49]
	ldrb	w23, [x19, #9]
	ldrb	w25, [x19, #10]
	ldrb	w20, [x19, #11]
	ldr	x26, [sp, #4944]
	orr	x14, x10, x9, lsl #32
	orr	w9, w12, w11, lsl #16
	ldur	w10, [x19, #73]
	ldur	w11, [x19, #105]
	ldr	x1, [sp, #4952]
	ldr	x21, [sp, #4960]
	orr	x10, x10, x9, lsl #32
	ldr	x15, [sp, #4968]
	ldrb	w13, [x19, #48]
	ldur	q1, [x19, #56]
	ldrb	w12, [x19, #72]
	ldr	x17, [sp, #5008]
	ldur	q4, [x19, #88]
	ldrb	w3, [x19, #104]
	ldr	w9, [sp, #5036]
	ldr	x2, [sp, #5040]
	ldr	x22, [sp, #5048]
	ldr	x16, [sp, #5056]
	str	w11, [sp, #432]
	add	x11, sp, #180
	stur	w9, [x11, #255]
	cbz	w8, 60f
	ldr	x2, [sp, #424]
	mov	x1, x26
	bl	b2_commands..fault..Fault..report..c1844c1740294036_1_a64
	and	w8, w0, #0xff
	cmp	w8, #2
	b.ne	127f
12:
	ldp	x8, x9, [x28]
	cmp	x9, #4
	b.le	13f
	cmp	x9, #6
	b.gt	15f
	cmp	x9, #5
	b.eq	22f
	cmp	x9, #6
	b.ne	35f
	ldr	w9, [x8]
	ldur	w8, [x8, #2]
	orr	x8, x9, x8, lsl #32
	mov	x9, #25963
	movk	x9, #30305, lsl #16
	movk	x9, #30305, lsl #32
	movk	x9, #29541, lsl #48
	cmp	x8, x9
	b.gt	34f
	mov	x9, #25956
	movk	x9, #26994, lsl #16
	movk	x9, #26994, lsl #32
	movk	x9, #25974, lsl #48
	cmp	x8, x9
	b.eq	52f
	mov	x9, #11565
	movk	x9, #25960, lsl #16
	movk	x9, #25960, lsl #32
	movk	x9, #28780, lsl #48
	cmp	x8, x9
	b.eq	21f
	b	35f
13:
	cmp	x9, #2
	b.eq	20f
	cmp	x9, #3
	b.eq	24f
	cmp	x9, #4
	b.ne	35f
	ldr	w8, [x8]
	mov	x9, #29300
	movk	x9, #25957, lsl #16
	orr	x8, x8, x8, lsl #32
	orr	x9, x9, x9, lsl #32
	cmp	x8, x9
	b.eq	51f
	mov	x9, #25960
	movk	x9, #28780, lsl #16
	orr	x9, x9, x9, lsl #32
	cmp	x8, x9
	b.eq	21f
	mov	x9, #28530
	movk	x9, #29807, lsl #16
	orr	x9, x9, x9, lsl #32
	cmp	x8, x9
	b.ne	35f
	vj_page	x19, .L1_a64_static.54
	vj_address	x19, x19, .L1_a64_static.54
	mov	w20, #70
	b	36f
14:
	vj_page	x2, .L1_a64_static.15
	vj_address	x2, x2, .L1_a64_static.15
	mov	x0, x21
	mov	x1, x22
	mov	w3, #9
	bl	core..lang..str_eq_1_a64
	cbz	w0, 28f
	add	x0, sp, #1, lsl #12
	add	x1, sp, #3, lsl #12
	mov	w8, #7
	add	x0, x0, #832
	add	x1, x1, #832
	str	x23, [sp, #424]
	strb	w8, [x25]
	b	11b
15:
	cmp	x9, #7
	b.eq	23f
	cmp	x9, #9
	b.ne	35f
	mov	x10, #11565
	ldr	x9, [x8]
	ldur	x8, [x8, #1]
	movk	x10, #25974, lsl #16
	mov	w11, #20
	movk	x10, #29554, lsl #32
	movk	x10, #28521, lsl #48
	cmp	x9, x10
	mov	x9, #30253
	vj_page	x10, .L1_a64_static.57
	vj_address	x10, x10, .L1_a64_static.57
	movk	x9, #29285, lsl #16
	movk	x9, #26995, lsl #32
	movk	x9, #28271, lsl #48
	ccmp	x8, x9, #0, eq
	vj_page	x8, .L1_a64_static.58
	vj_address	x8, x8, .L1_a64_static.58
	cset	w9, eq
	tst	w9, #0x1
	mov	w9, #40
	csel	x19, x10, x8, ne
	csel	x20, x11, x9, ne
	b	36f
16:
	str	x23, [sp, #424]
	mov	w23, wzr
17:
	cbz	x20, 43f
	ldr	x8, [x28, #32]
	cmp	x8, #4
	b.ne	43f
	ldur	x8, [x28, #24]
	mov	x9, #12914
	movk	x9, #13877, lsl #16
	ldr	w8, [x8]
	movk	x9, #12915, lsl #32
	movk	x9, #13877, lsl #48
	orr	x8, x8, x8, lsl #32
	cmp	x8, x9
	b.le	42f
	mov	x9, #12915
	movk	x9, #13877, lsl #16
	orr	x9, x9, x9, lsl #32
	cmp	x8, x9
	b.eq	54f
	mov	x9, #12642
	movk	x9, #14386, lsl #16
	orr	x9, x9, x9, lsl #32
	cmp	x8, x9
	b.eq	55f
	mov	x9, #12659
	movk	x9, #14386, lsl #16
	orr	x9, x9, x9, lsl #32
	cmp	x8, x9
	b.ne	43f
	mov	w20, wzr
	mov	w25, #1
	b	57f
18:
	add	x0, sp, #2080
	add	x2, x28, #24
	mov	w1, #1
	mov	x3, x20
	bl	b2_commands..tree_arguments..Root..from_words_1_a64
	ldrb	w8, [sp, #2080]
	ldr	x26, [sp, #2088]
	ldr	x1, [sp, #2096]
	cbz	w8, 45f
19:
	movi	v0.2d, #0000000000000000
	add	x8, sp, #1, lsl #12
	str	x1, [sp, #4944]
	add	x8, x8, #832
	stur	q0, [x8, #24]
	stur	q0, [x8, #40]
	stur	q0, [x8, #56]
	stur	q0, [x8, #72]
	stur	q0, [x8, #88]
	stur	q0, [x8, #104]
	stur	q0, [x8, #120]
	b	126f
20:
	ldrb	w9, [x8, #1]
	ldrb	w8, [x8]
	lsl	x10, x9, #8
	orr	x8, x10, x8, lsl #16
	orr	x8, x8, x9
	sub	x8, x8, #726, lsl #12
	cmp	x8, #2152
	b.ne	35f
21:
	vj_page	x19, .L1_a64_static.59
	vj_address	x19, x19, .L1_a64_static.59
	mov	w20, #17
	b	36f
22:
	ldr	w9, [x8]
	ldur	w8, [x8, #1]
	orr	x8, x9, x8, lsl #32
	mov	x9, #29811
	movk	x9, #28773, lsl #16
	movk	x9, #25972, lsl #32
	movk	x9, #29552, lsl #48
	cmp	x8, x9
	b.ne	35f
	vj_page	x19, .L1_a64_static.50
	vj_address	x19, x19, .L1_a64_static.50
	mov	w20, #76
	b	36f
23:
	ldr	w9, [x8]
	ldur	w8, [x8, #3]
	orr	x8, x9, x8, lsl #32
	mov	x9, #26999
	movk	x9, #28276, lsl #16
	movk	x9, #25966, lsl #32
	movk	x9, #29555, lsl #48
	cmp	x8, x9
	b.ne	35f
	vj_page	x19, .L1_a64_static.51
	vj_address	x19, x19, .L1_a64_static.51
	mov	w20, #39
	b	36f
24:
	ldrb	w9, [x8]
	ldrb	w10, [x8, #1]
	ldrb	w8, [x8, #2]
	lsl	x9, x9, #16
	orr	x9, x9, x10, lsl #8
	orr	x8, x9, x8
	sub	x9, x8, #1847, lsl #12
	cmp	x9, #1389
	b.eq	48f
	mov	w9, #28518
	movk	w9, #120, lsl #16
	cmp	x8, x9
	b.ne	35f
	vj_page	x19, .L1_a64_static.55
	vj_address	x19, x19, .L1_a64_static.55
	mov	w20, #87
	b	36f
25:
	cbz	x20, 28f
	ldr	x8, [x28, #32]
	sub	x9, x8, #1
	cmp	x9, #9
	b.hi	28f
	ldr	x9, [x28, #24]
	cmp	x8, #2
	b.lo	26f
	ldrb	w10, [x9]
	cmp	w10, #48
	b.eq	28f
26:
	mov	x26, xzr
27:
	ldrb	w10, [x9], #1
	sub	w10, w10, #48
	cmp	w10, #9
	b.hi	28f
	mov	w11, #10
	subs	x8, x8, #1
	mul	x11, x26, x11
	add	x26, x11, w10, uxtb
	b.ne	27b
	mov	x8, #-4294967295
	mov	x9, #-65534
	add	x8, x26, x8
	movk	x9, #0, lsl #16
	cmp	x8, x9
	ccmp	x20, #1, #4, hs
	b.eq	28f
	subs	x8, x1, #3
	b.eq	279f
	ldr	x9, [x28, #80]
	cmp	x9, #3
	b.ne	28f
	ldr	x9, [x28, #72]
	ldrb	w10, [x9]
	ldrb	w11, [x9, #1]
	ldrb	w9, [x9, #2]
	lsl	x10, x10, #16
	orr	x10, x10, x11, lsl #8
	orr	x9, x10, x9
	sub	x9, x9, #1830, lsl #12
	cmp	x9, #375
	cset	w9, eq
	cmp	x8, x9
	mov	w13, w9
	b.eq	280f
28:
	mov	w26, wzr
29:
	add	x8, sp, #180
	mov	x1, xzr
	stur	wzr, [x8, #255]
	str	wzr, [sp, #432]
	mov	w0, w26
	mov	x2, x23
	bl	b2_commands..fault..Fault..report..c1844c1740294036_1_a64
	and	w8, w0, #0xff
	cmp	w8, #2
	b.ne	127f
	b	12b
30:
	str	xzr, [sp, #1824]
	str	q0, [sp, #1808]
	str	q0, [sp, #1792]
	str	q0, [sp, #1776]
	str	q0, [sp, #1760]
	str	q0, [sp, #1744]
	str	q0, [sp, #1728]
	cbz	x20, 49f
	ldr	x8, [x28, #32]
	sub	x9, x8, #1
	cmp	x9, #9
	b.hi	33f
	ldr	x9, [x28, #24]
	cmp	x8, #2
	b.lo	31f
	ldrb	w10, [x9]
	cmp	w10, #48
	b.eq	33f
31:
	mov	x10, xzr
32:
	ldrb	w11, [x9], #1
	sub	w11, w11, #48
	cmp	w11, #9
	b.hi	33f
	mov	w12, #10
	subs	x8, x8, #1
	mul	x10, x10, x12
	add	x10, x10, w11, uxtb
	b.ne	32b
	cbz	x10, 33f
	mov	x8, #4294967296
	lsr	x9, x10, #32
	cmp	x10, x8
	csel	x26, x10, x8, lo
	cbnz	x9, 33f
	cmp	x20, #1
	b.eq	33f
	ldr	x8, [x28, #56]
	sub	x9, x8, #1
	cmp	x9, #17
	b.hi	33f
	ldr	x9, [x28, #48]
	cmp	x8, #2
	b.lo	339f
	ldrb	w10, [x9]
	cmp	w10, #48
	b.ne	339f
33:
	mov	w26, wzr
	mov	x1, xzr
	movi	v0.2d, #0000000000000000
	b	50f
34:
	mov	x9, #25964
	movk	x9, #30305, lsl #16
	movk	x9, #30305, lsl #32
	movk	x9, #29541, lsl #48
	cmp	x8, x9
	b.eq	53f
	mov	x9, #25459
	movk	x9, #26994, lsl #16
	movk	x9, #26994, lsl #32
	movk	x9, #29808, lsl #48
	cmp	x8, x9
	b.ne	35f
	vj_page	x19, .L1_a64_static.49
	vj_address	x19, x19, .L1_a64_static.49
	mov	w20, #77
	b	36f
35:
	vj_page	x19, .L1_a64_static.58
	vj_address	x19, x19, .L1_a64_static.58
	mov	w20, #40
36:
	mov	x21, xzr
37:
	add	x1, x19, x21
	sub	x2, x20, x21
	mov	w0, #2
	sub	x22, x20, x21
	vj_system_call	write, b2_write
	tbnz	x0, #63, 39f
	cmp	x0, x22
	csel	x8, x0, x22, lo
	cbz	x8, 40f
	add	x21, x8, x21
	cmp	x21, x20
	b.lo	37b
	mov	x20, xzr
38:
	mov	w8, #38
	vj_page	x9, .L1_a64_static.46
	vj_address	x9, x9, .L1_a64_static.46
	sub	x19, x8, x20
	add	x1, x9, x20
	mov	w0, #2
	mov	x2, x19
	vj_system_call	write, b2_write
	tbnz	x0, #63, 39f
	cmp	x0, x19
	csel	x8, x0, x19, lo
	cbz	x8, 40f
	add	x20, x8, x20
	cmp	x20, #37
	b.ls	38b
	b	41f
39:
	add	x0, sp, #1, lsl #12
	add	x0, x0, #832
	bl	std_io..io..error..last_error_1_a64
40:
	mov	w8, #1
	strb	w8, [x27]
41:
	mov	w0, #2
	b	128f
42:
	mov	x9, #13666
	movk	x9, #12849, lsl #16
	orr	x9, x9, x9, lsl #32
	cmp	x8, x9
	b.eq	56f
	mov	x9, #12898
	movk	x9, #13877, lsl #16
	orr	x9, x9, x9, lsl #32
	cmp	x8, x9
	b.ne	43f
	mov	w25, wzr
	mov	w20, #1
	b	57f
43:
	add	x8, sp, #180
	mov	w26, wzr
	mov	x1, xzr
	stur	wzr, [x8, #255]
	str	wzr, [sp, #432]
44:
	ldr	x23, [sp, #424]
	mov	w0, w26
	mov	x2, x23
	bl	b2_commands..fault..Fault..report..c1844c1740294036_1_a64
	and	w8, w0, #0xff
	cmp	w8, #2
	b.ne	127f
	b	12b
45:
	add	x12, sp, #2080
	ldr	x8, [sp, #2184]
	str	x23, [sp, #424]
	ldur	q0, [x12, #24]
	ldur	q1, [x12, #40]
	mov	w20, wzr
	ldur	q2, [x12, #56]
	str	x8, [sp, #5040]
	mov	w25, wzr
	str	q0, [sp, #4960]
	ldur	q0, [x12, #72]
	mov	w23, wzr
	str	q1, [sp, #4976]
	ldur	q1, [x12, #88]
	mov	x16, xzr
	str	q2, [sp, #4992]
	ldr	x21, [sp, #4960]
	mov	x22, xzr
	str	q0, [sp, #5008]
	ldr	x15, [sp, #4968]
	str	q1, [sp, #5024]
	ldrb	w8, [x19, #55]
	ldurh	w9, [x19, #53]
	ldrb	w10, [x19, #79]
	ldurh	w11, [x19, #77]
	ldrb	w13, [x19, #48]
	ldur	q1, [x19, #56]
	orr	w8, w9, w8, lsl #16
	ldur	w9, [x19, #49]
	str	x26, [sp, #4944]
	orr	w10, w11, w10, lsl #16
	ldur	w11, [x19, #73]
	str	x1, [sp, #4952]
	orr	x14, x9, x8, lsl #32
	ldur	w8, [x12, #97]
	ldrb	w12, [x19, #72]
	orr	x10, x11, x10, lsl #32
	ldr	w9, [sp, #2180]
46:
	str	xzr, [sp, #5056]
	ldur	q4, [x19, #88]
	ldrb	w3, [x19, #104]
	mov	w0, #2
	str	w8, [sp, #432]
	add	x8, sp, #180
	ldr	x17, [sp, #5008]
	ldr	x2, [sp, #5040]
	stur	w9, [x8, #255]
	b	59f
47:
	ldr	w8, [x8]
	mov	x9, #12914
	movk	x9, #13877, lsl #16
	orr	x8, x8, x8, lsl #32
	movk	x9, #12915, lsl #32
	movk	x9, #13877, lsl #48
	cmp	x8, x9
	b.le	96f
	mov	x9, #12915
	movk	x9, #13877, lsl #16
	orr	x9, x9, x9, lsl #32
	cmp	x8, x9
	b.eq	117f
	mov	x9, #12642
	movk	x9, #14386, lsl #16
	orr	x9, x9, x9, lsl #32
	cmp	x8, x9
	b.eq	119f
	mov	x9, #12659
	movk	x9, #14386, lsl #16
	orr	x9, x9, x9, lsl #32
	cmp	x8, x9
	b.ne	124f
	mov	w21, #16
	b	118f
48:
	vj_page	x19, .L1_a64_static.48
	vj_address	x19, x19, .L1_a64_static.48
	mov	w20, #74
	b	36b
49:
	mov	w26, wzr
	mov	x1, xzr
50:
	str	q0, [sp, #1104]
	str	q0, [sp, #1088]
	str	q0, [sp, #1072]
	str	q0, [sp, #1056]
	str	q0, [sp, #1040]
	b	125f
51:
	vj_page	x19, .L1_a64_static.52
	vj_address	x19, x19, .L1_a64_static.52
	mov	w20, #70
	b	36b
52:
	vj_page	x19, .L1_a64_static.56
	vj_address	x19, x19, .L1_a64_static.56
	mov	w20, #38
	b	36b
53:
	vj_page	x19, .L1_a64_static.53
	vj_address	x19, x19, .L1_a64_static.53
	mov	w20, #83
	b	36b
54:
	mov	w25, #1
	mov	w20, #1
	b	57f
55:
	mov	w25, wzr
	mov	w20, wzr
	b	57f
56:
	mov	w25, wzr
	mov	w20, #2
57:
	sub	x3, x1, #2
	add	x0, sp, #1376
	add	x2, x28, #48
	mov	w1, #1
	bl	b2_commands..arguments..Options..from_words_1_a64
	ldrb	w8, [sp, #1376]
	ldr	x26, [sp, #1384]
	ldr	x1, [sp, #1392]
	cbz	w8, 58f
	add	x8, sp, #180
	str	x1, [sp, #4944]
	str	wzr, [sp, #432]
	stur	wzr, [x8, #255]
	b	44b
58:
	add	x12, sp, #1376
	mov	w0, wzr
	mov	x16, xzr
	ldur	q0, [x12, #24]
	ldur	q1, [x12, #40]
	ldur	q2, [x12, #56]
	mov	x22, xzr
	mov	x2, xzr
	str	x26, [sp, #4944]
	str	q0, [sp, #4960]
	ldur	q0, [x12, #72]
	add	x24, sp, #1376
	str	q1, [sp, #4976]
	ldur	q1, [x12, #88]
	ldur	w12, [x12, #97]
	str	q2, [sp, #4992]
	ldr	x21, [sp, #4960]
	ldr	x15, [sp, #4968]
	str	q0, [sp, #5008]
	str	q1, [sp, #5024]
	ldr	x17, [sp, #5008]
	ldrb	w8, [x19, #55]
	ldurh	w9, [x19, #53]
	ldrb	w10, [x19, #79]
	ldurh	w11, [x19, #77]
	ldrb	w13, [x19, #48]
	ldur	q1, [x19, #56]
	orr	w8, w9, w8, lsl #16
	ldur	w9, [x19, #49]
	str	w12, [sp, #432]
	orr	w10, w11, w10, lsl #16
	ldur	w11, [x19, #73]
	ldrb	w12, [x19, #72]
	orr	x14, x9, x8, lsl #32
	ldr	w8, [sp, #1476]
	add	x9, sp, #180
	ldur	q4, [x19, #88]
	ldrb	w3, [x19, #104]
	orr	x10, x11, x10, lsl #32
	str	x1, [sp, #4952]
	str	xzr, [sp, #5056]
	stur	w8, [x9, #255]
	str	xzr, [sp, #5040]
59:
	str	xzr, [sp, #5048]
60:
	cmp	w0, #3
	b.gt	61f
	cmp	w0, #1
	str	x14, [sp, #352]
	b.gt	62f
	cbnz	w0, 66f
	lsr	x9, x14, #32
	lsr	x8, x14, #48
	add	x11, sp, #576
	movi	v0.2d, #0000000000000000
	cmp	w23, #2
	str	x26, [sp, #576]
	sturh	w9, [x11, #37]
	lsr	x9, x10, #32
	strb	w8, [sp, #615]
	lsr	x8, x10, #48
	sturh	w9, [x11, #61]
	add	x9, sp, #180
	strb	w8, [sp, #639]
	ldr	w8, [sp, #432]
	ldur	w9, [x9, #255]
	str	x1, [sp, #584]
	str	x21, [sp, #592]
	str	x15, [sp, #600]
	strb	w13, [sp, #608]
	stur	w14, [x11, #33]
	stur	q1, [x11, #40]
	strb	w12, [sp, #632]
	stur	w10, [x11, #57]
	str	x17, [sp, #640]
	stur	q4, [x11, #72]
	strb	w3, [sp, #664]
	stur	w8, [x11, #89]
	str	w9, [sp, #668]
	str	q0, [sp, #4464]
	str	q0, [sp, #4480]
	str	q0, [sp, #4496]
	str	q0, [sp, #4512]
	str	q0, [sp, #4528]
	str	q0, [sp, #4544]
	str	q0, [sp, #4560]
	str	q0, [sp, #4576]
	str	q0, [sp, #4592]
	str	q0, [sp, #4608]
	str	q0, [sp, #4624]
	str	q0, [sp, #4640]
	str	q0, [sp, #4656]
	str	q0, [sp, #4672]
	str	q0, [sp, #4688]
	str	q0, [sp, #4704]
	str	q0, [sp, #4720]
	str	q0, [sp, #4736]
	str	q0, [sp, #4752]
	str	q0, [sp, #4768]
	str	q0, [sp, #4784]
	str	q0, [sp, #4800]
	str	xzr, [sp, #4816]
	str	xzr, [sp, #1024]
	stp	q0, q0, [sp, #672]
	stp	q0, q0, [sp, #704]
	stp	q0, q0, [sp, #736]
	stp	q0, q0, [sp, #768]
	stp	q0, q0, [sp, #800]
	stp	q0, q0, [sp, #832]
	stp	q0, q0, [sp, #864]
	stp	q0, q0, [sp, #896]
	stp	q0, q0, [sp, #928]
	stp	q0, q0, [sp, #960]
	stp	q0, q0, [sp, #992]
	b.eq	87f
	cmp	w23, #1
	b.ne	88f
	add	x0, sp, #672
	add	x3, sp, #576
	mov	w1, w25
	mov	w2, w20
	add	x21, sp, #672
	bl	b2_commands..digests..start_1_a64
	ldrb	w8, [sp, #672]
	ldrb	w23, [sp, #680]
	ldr	x27, [sp, #688]
	cbnz	w8, 89f
	cbz	w25, 187f
	cmp	w20, #0
	mov	w8, #32
	mov	w9, #16
	csel	x28, x9, x8, eq
	b	188f
61:
	cmp	w0, #5
	b.gt	63f
	cmp	w0, #4
	b.ne	67f
	movi	v5.2d, #0000000000000000
	mov	w24, w13
	tst	x26, #0xff
	bfi	x24, x14, #8, #56
	and	w9, w15, #0xff
	str	x21, [sp, #392]
	str	q1, [sp, #368]
	str	q4, [sp, #336]
	str	w3, [sp, #280]
	str	w9, [sp, #352]
	b.eq	79f
	cmp	w9, #1
	vj_page	x8, .L1_a64_static.0
	vj_address	x8, x8, .L1_a64_static.0
	str	q5, [sp, #4464]
	str	q5, [sp, #4480]
	str	q5, [sp, #4496]
	str	q5, [sp, #4512]
	str	q5, [sp, #4528]
	str	q5, [sp, #4544]
	str	q5, [sp, #4560]
	str	q5, [sp, #4576]
	str	q5, [sp, #4592]
	str	q5, [sp, #4608]
	str	q5, [sp, #4624]
	str	q5, [sp, #4640]
	str	q5, [sp, #4656]
	str	q5, [sp, #4672]
	str	q5, [sp, #4688]
	str	xzr, [sp, #4704]
	str	q5, [sp, #1776]
	str	q5, [sp, #1760]
	str	q5, [sp, #1744]
	str	q5, [sp, #1728]
	str	q5, [sp, #3888]
	str	q5, [sp, #3872]
	str	q5, [sp, #3760]
	str	q5, [sp, #3744]
	str	xzr, [sp, #3048]
	str	xzr, [sp, #3040]
	stp	q5, q5, [sp, #672]
	stp	q5, q5, [sp, #704]
	stp	q5, q5, [sp, #736]
	stp	q5, q5, [sp, #768]
	stp	q5, q5, [sp, #800]
	stp	q5, q5, [sp, #832]
	stp	q5, q5, [sp, #864]
	str	q5, [sp, #896]
	str	xzr, [sp, #912]
	str	q5, [sp, #13120]
	str	q5, [sp, #13136]
	str	q5, [sp, #13152]
	str	q5, [sp, #13168]
	str	q5, [sp, #1040]
	str	q5, [sp, #1056]
	str	q5, [sp, #4000]
	str	q5, [sp, #4016]
	str	xzr, [sp, #3176]
	str	xzr, [sp, #3168]
	str	x17, [sp, #272]
	str	x2, [sp, #256]
	b.ne	92f
	fmov	x27, d1
	mov	x28, x24
	cbnz	x27, 93f
	vj_page	x11, .L1_a64_CPI3_6
	mov	w23, wzr
	mov	w10, wzr
	vj_load	q0, x11, .L1_a64_CPI3_6
	mov	x25, xzr
	mov	x8, xzr
	mov	x9, xzr
	str	q5, [sp, #1424]
	movi	v6.2d, #0000000000000000
	str	q5, [sp, #1408]
	str	q5, [sp, #1392]
	str	q5, [sp, #1376]
	str	q5, [sp, #3616]
	str	q5, [sp, #3632]
	str	q5, [sp, #3296]
	str	q5, [sp, #3312]
	str	xzr, [sp, #2920]
	str	xzr, [sp, #2912]
	b	132f
62:
	cmp	w0, #2
	str	q1, [sp, #368]
	str	q4, [sp, #336]
	b.ne	70f
	lsr	x8, x14, #48
	add	x9, sp, #242
	ldr	x19, [sp, #424]
	stur	w14, [x9, #255]
	lsr	x9, x14, #32
	mov	x23, x2
	strb	w8, [sp, #503]
	add	x8, sp, #246
	mov	x20, x1
	sturh	w9, [x8, #255]
	add	x8, sp, #249
	add	x9, sp, #266
	stur	q1, [x8, #255]
	lsr	x8, x10, #48
	add	x0, sp, #440
	stur	w10, [x9, #255]
	lsr	x9, x10, #32
	add	x10, sp, #298
	strb	w8, [sp, #527]
	add	x8, sp, #270
	mov	x22, x17
	sturh	w9, [x8, #255]
	add	x8, sp, #281
	add	x9, sp, #180
	stur	q4, [x8, #255]
	ldr	w8, [sp, #432]
	ldur	w9, [x9, #255]
	str	x2, [sp, #560]
	ldr	x2, [sp, #400]
	stp	x26, x1, [sp, #464]
	add	x1, sp, #464
	strb	w3, [sp, #552]
	mov	x3, x19
	stp	x21, x15, [sp, #480]
	strb	w13, [sp, #496]
	strb	w12, [sp, #520]
	str	x17, [sp, #528]
	stur	w8, [x10, #255]
	str	w9, [sp, #556]
	bl	b2_commands..tree..tree..c4a7301ddbaa7a35_1_a64
	ldrb	w8, [sp, #440]
	cbz	w8, 80f
	ldr	x1, [sp, #456]
	ldrb	w0, [sp, #448]
	mov	x2, x19
	bl	b2_commands..fault..Fault..report..c1844c1740294036_1_a64
	b	81f
63:
	ldr	x21, [sp, #424]
	cmp	w0, #6
	mov	x19, xzr
	b.ne	65f
64:
	mov	w8, #1630
	vj_page	x9, .L1_a64_static.1
	vj_address	x9, x9, .L1_a64_static.1
	sub	x20, x8, x19
	add	x1, x9, x19
	mov	w0, #1
	mov	x2, x20
	vj_system_call	write, b2_write
	tbnz	x0, #63, 77f
	cmp	x0, x20
	csel	x8, x0, x20, lo
	cbz	x8, 78f
	add	x19, x8, x19
	mov	w0, wzr
	cmp	x19, #1629
	b.ls	64b
	b	128f
65:
	mov	w8, #20
	vj_page	x9, .L1_a64_static.2
	vj_address	x9, x9, .L1_a64_static.2
	sub	x20, x8, x19
	add	x1, x9, x19
	mov	w0, #1
	mov	x2, x20
	vj_system_call	write, b2_write
	tbnz	x0, #63, 77f
	cmp	x0, x20
	csel	x8, x0, x20, lo
	cbz	x8, 78f
	add	x19, x8, x19
	mov	w0, wzr
	cmp	x19, #19
	b.ls	65b
	b	128f
66:
	movi	v0.2d, #0000000000000000
	fmov	x27, d1
	tst	x26, #0xff
	add	x20, sp, #672
	str	x12, [sp, #328]
	str	x13, [sp, #288]
	str	x10, [sp, #64]
	b.eq	84f
	vj_page	x8, .L1_a64_static.0
	vj_address	x8, x8, .L1_a64_static.0
	str	xzr, [sp, #1808]
	str	x8, [sp, #2080]
	ldr	x22, [sp, #424]
	add	x24, sp, #1, lsl #12
	str	x8, [sp, #2096]
	add	x11, sp, #2080
	mov	w9, #257
	str	x8, [sp, #1728]
	add	x24, x24, #368
	str	x8, [sp, #1744]
	add	x8, sp, #1728
	stur	q0, [x8, #40]
	stur	q0, [x8, #24]
	stur	xzr, [x8, #66]
	stur	xzr, [x8, #58]
	stur	xzr, [x8, #74]
	add	x8, sp, #1728
	add	x8, x8, #96
	str	q0, [sp, #4464]
	st1	{ v1.d }[1], [x8]
	mov	x8, v1.d[1]
	str	q0, [sp, #4480]
	str	q0, [sp, #4496]
	str	q0, [sp, #4512]
	cmp	x15, x8
	str	q0, [sp, #4528]
	str	q0, [sp, #4544]
	str	q0, [sp, #4560]
	stp	q0, q0, [sp, #672]
	stp	q0, q0, [sp, #704]
	stp	q0, q0, [sp, #736]
	str	q0, [sp, #768]
	str	q0, [sp, #4320]
	str	q0, [sp, #4304]
	str	q0, [sp, #4288]
	str	q0, [sp, #4272]
	strh	wzr, [sp, #4268]
	str	wzr, [sp, #4264]
	str	q0, [sp, #4240]
	str	q0, [sp, #4224]
	str	q0, [sp, #4208]
	str	q0, [sp, #4192]
	strh	wzr, [sp, #4188]
	str	wzr, [sp, #4184]
	str	xzr, [sp, #4168]
	str	xzr, [sp, #4160]
	str	xzr, [sp, #4176]
	str	xzr, [sp, #4144]
	str	xzr, [sp, #4136]
	str	xzr, [sp, #4152]
	str	xzr, [sp, #2088]
	stur	q0, [x11, #40]
	stur	q0, [x11, #24]
	strh	w9, [sp, #2136]
	stur	xzr, [x11, #66]
	stur	xzr, [x11, #58]
	str	xzr, [sp, #2160]
	stur	xzr, [x11, #74]
	str	x21, [sp, #2168]
	str	x15, [sp, #2176]
	str	xzr, [sp, #1736]
	strh	w9, [sp, #1784]
	str	x27, [sp, #1816]
	str	q0, [sp, #2544]
	str	q0, [sp, #2560]
	str	q0, [sp, #2576]
	str	q0, [sp, #2592]
	str	wzr, [sp, #4344]
	strh	wzr, [sp, #4348]
	str	q0, [sp, #2432]
	str	q0, [sp, #2448]
	str	q0, [sp, #2464]
	str	q0, [sp, #2480]
	str	wzr, [sp, #4336]
	strh	wzr, [sp, #4340]
	str	q0, [sp, #4928]
	str	q0, [sp, #4944]
	str	q0, [sp, #4960]
	str	q0, [sp, #4976]
	str	q0, [sp, #4992]
	str	q0, [sp, #5008]
	str	q0, [sp, #5024]
	str	q0, [sp, #13120]
	str	q0, [sp, #13136]
	str	q0, [sp, #13152]
	str	q0, [sp, #13168]
	str	q0, [sp, #13184]
	str	q0, [sp, #13200]
	str	q0, [sp, #13216]
	str	q0, [sp, #3088]
	str	q0, [sp, #3072]
	str	q0, [sp, #3056]
	str	q0, [sp, #3040]
	strh	wzr, [sp, #4380]
	str	wzr, [sp, #4376]
	str	q0, [sp, #2960]
	str	q0, [sp, #2944]
	str	q0, [sp, #2928]
	str	q0, [sp, #2912]
	strh	wzr, [sp, #4372]
	str	wzr, [sp, #4368]
	str	q0, [sp, #2832]
	str	q0, [sp, #2816]
	str	q0, [sp, #2800]
	str	q0, [sp, #2784]
	strh	wzr, [sp, #4364]
	str	wzr, [sp, #4360]
	str	q0, [sp, #2704]
	str	q0, [sp, #2688]
	str	q0, [sp, #2672]
	str	q0, [sp, #2656]
	strh	wzr, [sp, #4356]
	str	x8, [sp, #176]
	str	wzr, [sp, #4352]
	b.ne	163f
	cmp	x15, #4
	b.hs	108f
	cbz	x15, 109f
	ldrb	w8, [x21]
	ldrb	w9, [x27]
	cmp	w8, w9
	b.ne	162f
	cmp	x15, #1
	b.eq	109f
	ldrb	w8, [x21, #1]
	ldrb	w9, [x27, #1]
	cmp	w8, w9
	b.ne	305f
	cmp	x15, #2
	b.eq	109f
	ldrb	w8, [x21, #2]
	ldrb	w9, [x27, #2]
	cmp	w8, w9
	b.eq	109f
	mov	w8, #2
	cmp	x8, x15
	b.hs	109f
	b	163f
67:
	movi	v0.2d, #0000000000000000
	add	x8, sp, #1, lsl #12
	mov	x28, x15
	add	x8, x8, #368
	mov	x27, x1
	mov	x25, x13
	mov	x20, xzr
	strb	wzr, [x8, #64]
	str	q0, [sp, #4512]
	str	q0, [sp, #4496]
	str	q0, [sp, #4480]
	str	q0, [sp, #4464]
68:
	mov	w8, #65
	add	x9, sp, #1, lsl #12
	mov	w0, wzr
	add	x9, x9, #368
	sub	x23, x8, x20
	add	x1, x9, x20
	mov	x2, x23
	vj_system_call	read, b2_read
	tbnz	x0, #63, 85f
	cmp	x0, x23
	csel	x8, x0, x23, lo
	cbz	x8, 69f
	add	x20, x8, x20
	cmp	x20, #64
	b.ls	68b
69:
	mov	x22, x21
	sub	x8, x20, #65
	ldr	x21, [sp, #424]
	cmn	x8, #64
	b.hs	90f
	mov	w0, #2
	b	86f
70:
	movi	v0.2d, #0000000000000000
	str	x21, [sp, #392]
	fmov	x21, d4
	str	x2, [sp, #256]
	and	w8, w12, #0xff
	ldr	x2, [sp, #424]
	mov	x28, x1
	cmp	w8, #1
	str	x17, [sp, #272]
	str	x16, [sp, #240]
	str	x15, [sp, #304]
	str	x13, [sp, #288]
	str	q0, [sp, #1056]
	str	q0, [sp, #1040]
	str	x12, [sp, #328]
	str	w3, [sp, #280]
	b.ne	71f
	cmp	x21, #16
	b.hi	72f
71:
	cmp	w3, #1
	b.ne	97f
	cmp	x22, #16
	b.ls	97f
72:
	mov	x20, xzr
	mov	w0, #2
73:
	mov	x1, x20
	bl	b2_commands..fault..Fault..report..c1844c1740294036_1_a64
74:
	ldr	x8, [sp, #304]
	ldr	x9, [sp, #288]
	ldr	x10, [sp, #352]
	ldr	q0, [sp, #368]
	and	x8, x8, #0xff
	cmp	x8, #1
	b.ne	75f
	mov	x8, v0.d[1]
	cbz	x8, 75f
	mov	w8, w9
	mov	w19, w0
	bfi	x8, x10, #8, #56
	mov	x0, x8
	vj_call	rattle_dealloc
	mov	w0, w19
75:
	ldr	x8, [sp, #328]
	ldr	x9, [sp, #272]
	ldr	q0, [sp, #336]
	and	w8, w8, #0xff
	cmp	w8, #1
	b.ne	76f
	mov	x8, v0.d[1]
	cbz	x8, 76f
	mov	w19, w0
	mov	x0, x9
	vj_call	rattle_dealloc
	mov	w0, w19
76:
	ldr	w8, [sp, #280]
	ldr	x9, [sp, #256]
	cmp	w8, #1
	ldr	x8, [sp, #240]
	b.ne	128f
	cbz	x8, 128f
	mov	w19, w0
	mov	x0, x9
	b	491f
77:
	add	x0, sp, #1, lsl #12
	add	x0, x0, #832
	bl	std_io..io..error..last_error_1_a64
78:
	mov	w8, #1
	mov	w0, #9
	mov	x1, xzr
	mov	x2, x21
	strb	w8, [x21]
	bl	b2_commands..fault..Fault..report..c1844c1740294036_1_a64
	b	128f
79:
	cmp	w9, #1
	vj_page	x8, .L1_a64_static.0
	vj_address	x8, x8, .L1_a64_static.0
	str	xzr, [sp, #2928]
	str	xzr, [sp, #2912]
	str	xzr, [sp, #2920]
	str	q5, [sp, #13120]
	str	q5, [sp, #13136]
	str	q5, [sp, #13152]
	str	q5, [sp, #13168]
	str	q5, [sp, #13184]
	str	q5, [sp, #13200]
	str	q5, [sp, #13216]
	str	q5, [sp, #13232]
	str	q5, [sp, #13248]
	str	q5, [sp, #13264]
	str	q5, [sp, #13280]
	str	q5, [sp, #13296]
	str	q5, [sp, #13312]
	str	q5, [sp, #13328]
	str	q5, [sp, #13344]
	str	q5, [sp, #13360]
	str	q5, [sp, #13376]
	str	q5, [sp, #13392]
	str	q5, [sp, #13408]
	str	q5, [sp, #13424]
	str	q5, [sp, #13440]
	str	q5, [sp, #13456]
	str	q5, [sp, #13472]
	str	q5, [sp, #13488]
	str	q5, [sp, #13504]
	str	q5, [sp, #13520]
	str	q5, [sp, #13536]
	str	q5, [sp, #13552]
	str	q5, [sp, #13568]
	str	q5, [sp, #2192]
	str	q5, [sp, #2176]
	str	q5, [sp, #2160]
	str	q5, [sp, #2144]
	str	q5, [sp, #2128]
	str	q5, [sp, #2112]
	str	q5, [sp, #2096]
	str	q5, [sp, #2080]
	str	q5, [sp, #3296]
	str	q5, [sp, #3312]
	str	q5, [sp, #3328]
	str	q5, [sp, #3344]
	str	q5, [sp, #4000]
	str	q5, [sp, #4016]
	str	q5, [sp, #4032]
	str	q5, [sp, #4048]
	str	q5, [sp, #4064]
	str	q5, [sp, #4080]
	str	xzr, [sp, #2552]
	str	xzr, [sp, #2544]
	str	q5, [sp, #4464]
	str	q5, [sp, #4480]
	str	q5, [sp, #4496]
	str	q5, [sp, #4512]
	str	q5, [sp, #4528]
	str	q5, [sp, #4544]
	str	q5, [sp, #4560]
	str	q5, [sp, #4576]
	str	q5, [sp, #4592]
	str	q5, [sp, #4608]
	str	q5, [sp, #4624]
	str	q5, [sp, #4640]
	str	q5, [sp, #4656]
	str	q5, [sp, #4672]
	str	q5, [sp, #4688]
	str	q5, [sp, #4704]
	str	q5, [sp, #4720]
	str	q5, [sp, #4736]
	str	q5, [sp, #4752]
	str	q5, [sp, #4768]
	str	q5, [sp, #4784]
	str	q5, [sp, #4800]
	str	q5, [sp, #4816]
	str	q5, [sp, #4832]
	str	q5, [sp, #4848]
	str	q5, [sp, #4864]
	str	q5, [sp, #4880]
	str	q5, [sp, #4896]
	str	q5, [sp, #4912]
	stp	q5, q5, [sp, #672]
	stp	q5, q5, [sp, #704]
	stp	q5, q5, [sp, #736]
	stp	q5, q5, [sp, #768]
	str	q5, [sp, #3616]
	str	q5, [sp, #3632]
	str	q5, [sp, #3648]
	str	q5, [sp, #3664]
	str	q5, [sp, #1040]
	str	q5, [sp, #1056]
	str	q5, [sp, #1072]
	str	q5, [sp, #1088]
	str	q5, [sp, #1104]
	str	q5, [sp, #1120]
	str	xzr, [sp, #2664]
	str	xzr, [sp, #2656]
	str	x1, [sp, #224]
	b.ne	105f
	fmov	x28, d1
	mov	x27, x24
	cbnz	x28, 106f
	mov	w23, wzr
	mov	w27, wzr
	mov	w9, wzr
	mov	x8, xzr
	str	q5, [sp, #1840]
	movi	v7.2d, #0000000000000000
	str	q5, [sp, #1824]
	movi	v16.2d, #0000000000000000
	movi	v6.2d, #0000000000000000
	str	q5, [sp, #1808]
	mov	w0, #2
	str	q5, [sp, #1792]
	str	q5, [sp, #1776]
	str	q5, [sp, #1760]
	str	q5, [sp, #1744]
	str	q5, [sp, #1728]
	str	q5, [sp, #3168]
	str	q5, [sp, #3184]
	str	q5, [sp, #3200]
	str	q5, [sp, #3216]
	str	q5, [sp, #3872]
	str	q5, [sp, #3888]
	str	q5, [sp, #3904]
	str	q5, [sp, #3920]
	str	q5, [sp, #3936]
	str	q5, [sp, #3952]
	str	q5, [sp, #2432]
	b	153f
80:
	mov	w0, wzr
81:
	and	x8, x20, #0xff
	cmp	x8, #1
	b.ne	82f
	ldr	x8, [sp, #496]
	cbz	x8, 82f
	mov	w19, w0
	mov	x0, x21
	vj_call	rattle_dealloc
	mov	w0, w19
82:
	ldr	q0, [sp, #368]
	fmov	x8, d0
	and	x8, x8, #0xff
	cmp	x8, #1
	b.ne	83f
	cbz	x22, 83f
	mov	x8, v0.d[1]
	mov	w19, w0
	mov	x0, x8
	vj_call	rattle_dealloc
	mov	w0, w19
83:
	ldr	q0, [sp, #336]
	fmov	x8, d0
	and	x8, x8, #0xff
	cmp	x8, #1
	b.ne	128f
	cbz	x23, 128f
	mov	x8, v0.d[1]
	b	490f
84:
	mov	x25, v1.d[1]
	vj_page	x8, .L1_a64_static.0
	vj_address	x8, x8, .L1_a64_static.0
	str	x8, [sp, #2544]
	ldr	x22, [sp, #424]
	add	x9, sp, #2432
	str	x8, [sp, #2560]
	mov	w10, #257
	add	x26, sp, #3872
	str	x8, [sp, #2432]
	str	x8, [sp, #2448]
	add	x8, sp, #2432
	cmp	x15, x25
	add	x8, x8, #96
	str	q0, [sp, #4464]
	str	q0, [sp, #4480]
	str	q0, [sp, #4496]
	str	q0, [sp, #4512]
	str	q0, [sp, #4528]
	str	q0, [sp, #4544]
	str	q0, [sp, #4560]
	str	q0, [sp, #4576]
	str	q0, [sp, #4592]
	str	q0, [sp, #4608]
	str	q0, [sp, #4624]
	str	q0, [sp, #4640]
	str	q0, [sp, #4656]
	stp	q0, q0, [sp, #688]
	stp	q0, q0, [sp, #720]
	stp	q0, q0, [sp, #752]
	stp	q0, q0, [sp, #784]
	stp	q0, q0, [sp, #816]
	stp	q0, q0, [sp, #848]
	str	q0, [sp, #672]
	str	q0, [sp, #2896]
	str	q0, [sp, #2880]
	str	q0, [sp, #2864]
	str	q0, [sp, #2848]
	str	q0, [sp, #2832]
	str	q0, [sp, #2816]
	str	q0, [sp, #2800]
	str	q0, [sp, #2784]
	strh	wzr, [sp, #4364]
	str	wzr, [sp, #4360]
	str	q0, [sp, #2768]
	str	q0, [sp, #2752]
	str	q0, [sp, #2736]
	str	q0, [sp, #2720]
	str	q0, [sp, #2704]
	str	q0, [sp, #2688]
	str	q0, [sp, #2672]
	str	q0, [sp, #2656]
	strh	wzr, [sp, #4356]
	str	wzr, [sp, #4352]
	str	xzr, [sp, #4424]
	str	xzr, [sp, #4416]
	str	xzr, [sp, #4432]
	str	xzr, [sp, #4392]
	str	xzr, [sp, #4384]
	str	xzr, [sp, #4400]
	str	xzr, [sp, #2552]
	stur	q0, [x9, #152]
	stur	q0, [x9, #136]
	strh	w10, [sp, #2600]
	stur	xzr, [x9, #178]
	stur	xzr, [x9, #170]
	str	xzr, [sp, #2624]
	stur	xzr, [x9, #186]
	str	x21, [sp, #2632]
	str	x15, [sp, #2640]
	str	xzr, [sp, #2440]
	stur	q0, [x9, #40]
	stur	q0, [x9, #24]
	strh	w10, [sp, #2488]
	stur	xzr, [x9, #66]
	stur	xzr, [x9, #58]
	str	xzr, [sp, #2512]
	stur	xzr, [x9, #74]
	str	x27, [sp, #2520]
	st1	{ v1.d }[1], [x8]
	str	q0, [sp, #3040]
	str	q0, [sp, #3056]
	str	q0, [sp, #3072]
	str	q0, [sp, #3088]
	str	q0, [sp, #3104]
	str	q0, [sp, #3120]
	str	q0, [sp, #3136]
	str	q0, [sp, #3152]
	str	wzr, [sp, #4376]
	strh	wzr, [sp, #4380]
	str	q0, [sp, #2912]
	str	q0, [sp, #2928]
	str	q0, [sp, #2944]
	str	q0, [sp, #2960]
	str	q0, [sp, #2976]
	str	q0, [sp, #2992]
	str	q0, [sp, #3008]
	str	q0, [sp, #3024]
	strh	wzr, [sp, #4372]
	str	wzr, [sp, #4368]
	str	q0, [sp, #4928]
	str	q0, [sp, #4944]
	str	q0, [sp, #4960]
	str	q0, [sp, #4976]
	str	q0, [sp, #4992]
	str	q0, [sp, #5008]
	str	q0, [sp, #5024]
	str	q0, [sp, #5040]
	str	q0, [sp, #5056]
	str	q0, [sp, #5072]
	str	q0, [sp, #5088]
	str	q0, [sp, #5104]
	str	q0, [sp, #5120]
	str	q0, [sp, #13120]
	str	q0, [sp, #13136]
	str	q0, [sp, #13152]
	str	q0, [sp, #13168]
	str	q0, [sp, #13184]
	str	q0, [sp, #13200]
	str	q0, [sp, #13216]
	str	q0, [sp, #13232]
	str	q0, [sp, #13248]
	str	q0, [sp, #13264]
	str	q0, [sp, #13280]
	str	q0, [sp, #13296]
	str	q0, [sp, #13312]
	str	q0, [sp, #3408]
	str	q0, [sp, #3392]
	str	q0, [sp, #3376]
	str	q0, [sp, #3360]
	str	q0, [sp, #3344]
	str	q0, [sp, #3328]
	str	q0, [sp, #3312]
	str	q0, [sp, #3296]
	str	wzr, [sp, #4456]
	strh	wzr, [sp, #4460]
	str	q0, [sp, #3168]
	str	q0, [sp, #3184]
	str	q0, [sp, #3200]
	str	q0, [sp, #3216]
	str	q0, [sp, #3232]
	str	q0, [sp, #3248]
	str	q0, [sp, #3264]
	str	q0, [sp, #3280]
	strh	wzr, [sp, #4452]
	str	wzr, [sp, #4448]
	b.ne	245f
	cmp	x15, #4
	b.hs	142f
	cbz	x15, 249f
	ldrb	w8, [x21]
	ldrb	w9, [x27]
	cmp	w8, w9
	b.ne	244f
	cmp	x15, #1
	b.eq	249f
	ldrb	w8, [x21, #1]
	ldrb	w9, [x27, #1]
	cmp	w8, w9
	b.ne	341f
	cmp	x15, #2
	b.eq	249f
	ldrb	w8, [x21, #2]
	ldrb	w9, [x27, #2]
	cmp	w8, w9
	b.eq	249f
	mov	w8, #2
	cmp	x8, x15
	b.lo	245f
	b	249f
85:
	add	x0, sp, #1, lsl #12
	add	x0, x0, #832
	bl	std_io..io..error..last_error_1_a64
	ldr	x9, [sp, #400]
	ldr	x21, [sp, #424]
	mov	w8, #1
	mov	w0, #7
	strb	w8, [x9]
86:
	mov	x1, xzr
	b	91f
87:
	mov	x28, x21
	mov	x21, v4.d[1]
	fmov	x12, d1
	fmov	x14, d4
	and	w23, w17, #0xff
	mov	x24, xzr
	cbz	w25, 111f
	mov	x25, v1.d[1]
	cmp	w23, #1
	sub	x27, x28, #1
	ccmp	x21, #9, #0, eq
	and	w10, w13, #0xff
	mov	w22, #1
	cset	w9, lo
	cmp	x27, #32
	mov	w0, #2
	cset	w8, lo
	str	q0, [sp, #1744]
	cmp	x25, #9
	str	q0, [sp, #1728]
	ccmp	w10, #1, #0, hs
	b.eq	485f
	cbz	w9, 485f
	eor	w9, w26, #0x1
	orr	w8, w9, w8
	tbz	w8, #0, 485f
	mov	x22, x1
	ldr	x1, [sp, #400]
	add	x0, sp, #1728
	str	x14, [sp, #352]
	str	x12, [sp, #368]
	str	x13, [sp, #288]
	bl	b2_commands..input..read_all..d6f7c226d1d4af0a_1_a64
	ldrb	w8, [sp, #1728]
	ldr	x0, [sp, #1736]
	ldr	x24, [sp, #1744]
	cbz	w8, 233f
	mov	w22, #1
	ldr	x2, [sp, #424]
	mov	w20, w0
	cbnz	w22, 486f
	b	323f
88:
	add	x0, sp, #1, lsl #12
	add	x3, sp, #576
	mov	w1, w25
	add	x0, x0, #368
	mov	w2, w20
	add	x22, sp, #1, lsl #12
	add	x22, x22, #368
	bl	b2_commands..digests..start_1_a64
	add	x9, sp, #3872
	ldr	x27, [sp, #4480]
	ldrb	w8, [x9, #592]
	ldrb	w23, [x9, #600]
	cbz	w8, 113f
89:
	ldr	x2, [sp, #424]
	mov	x24, x27
	mov	w20, w23
	b	486f
90:
	sub	x8, x26, #1
	mov	w9, #-1
	str	xzr, [sp, #2096]
	cmp	x8, x9
	str	xzr, [sp, #2080]
	str	xzr, [sp, #2088]
	b.hs	535f
	mov	w8, #32
	mov	w9, #64
	cmp	x20, #63
	movk	w8, #257, lsl #16
	mov	w1, wzr
	add	w8, w8, w20, lsl #8
	add	w8, w8, #32
	fmov	s0, w8
	lsl	x8, x26, #32
	fmov	d1, x8
	vj_page	x8, .L1_a64_CPI3_1
	mov	v0.s[1], wzr
	mov	v0.d[1], v1.d[0]
	vj_load	q1, x8, .L1_a64_CPI3_1
	vj_page	x8, .L1_a64_CPI3_2
	eor	v0.16b, v0.16b, v1.16b
	str	q0, [sp, #400]
	vj_load	q0, x8, .L1_a64_CPI3_2
	sub	x8, x9, x20
	csel	x2, xzr, x8, hi
	add	x8, sp, #672
	add	x0, x8, x20
	str	q0, [sp, #368]
	vj_c_call	memset
	add	x1, sp, #1, lsl #12
	add	x0, sp, #672
	mov	x2, x20
	add	x1, x1, #368
	vj_c_call	memcpy
	ldp	q1, q2, [sp, #672]
	movi	v0.2d, #0000000000000000
	vj_page	x8, .L1_a64_CPI3_3
	ldr	q16, [sp, #400]
	vj_page	x9, .L1_a64_CPI3_4
	ldp	q5, q3, [sp, #688]
	ldr	q4, [sp, #672]
	str	q2, [sp, #13136]
	ldp	q6, q2, [sp, #704]
	str	q0, [sp, #13232]
	add	x0, sp, #1, lsl #12
	mov	x2, x22
	str	q16, [sp, #4928]
	ldr	q7, [sp, #720]
	add	x0, x0, #832
	str	q2, [sp, #13168]
	vj_load	q2, x8, .L1_a64_CPI3_3
	vj_page	x8, .L1_a64_CPI3_5
	str	q16, [sp, #4992]
	vj_load	q16, x8, .L1_a64_CPI3_5
	add	x8, sp, #1, lsl #12
	str	q2, [sp, #4960]
	add	x8, x8, #832
	ldr	q17, [sp, #368]
	str	q2, [sp, #5024]
	ldr	q2, [sp, #13232]
	mov	x1, x27
	str	q0, [sp, #13184]
	cmp	x22, #1
	str	q3, [sp, #13152]
	vj_load	q3, x9, .L1_a64_CPI3_4
	add	x9, x8, #152
	str	q2, [x9, #112]
	ldr	q2, [sp, #13184]
	add	x9, x8, #280
	str	q0, [sp, #13200]
	add	x8, x8, #344
	str	q0, [sp, #13216]
	str	q1, [sp, #13120]
	stur	q1, [x19, #152]
	ldr	q1, [sp, #13200]
	stur	q2, [x19, #216]
	ldr	q2, [sp, #13216]
	str	q3, [sp, #4976]
	str	q3, [sp, #5040]
	ldr	q3, [sp, #13168]
	stur	q1, [x19, #232]
	ldr	q1, [sp, #13136]
	stur	q2, [x19, #248]
	ldr	q2, [sp, #13152]
	str	q17, [sp, #4944]
	str	q17, [sp, #5008]
	stur	q16, [x19, #136]
	stur	q1, [x19, #168]
	stur	q2, [x19, #184]
	stur	q3, [x19, #200]
	stp	q4, q5, [x9]
	stp	q6, q7, [x9, #32]
	stp	q0, q0, [x8]
	stp	q0, q0, [x8, #32]
	stp	q0, q0, [x8, #64]
	str	xzr, [sp, #5056]
	str	x26, [sp, #5368]
	str	xzr, [sp, #5384]
	str	xzr, [sp, #5376]
	bl	blake2_state..blake2b..State..absorb_blocks_1_a64
	add	x1, sp, #1, lsl #12
	add	x0, sp, #2080
	and	w3, w25, #0x1
	add	x1, x1, #832
	mov	x2, x26
	mov	x4, x21
	bl	b2_commands..outputs..blake2xb..print_next..c1844c1740294036_1_a64
	ldrb	w8, [sp, #2080]
	cbz	w8, 114f
	ldrb	w0, [sp, #2088]
	ldr	x1, [sp, #2096]
91:
	mov	x2, x21
	bl	b2_commands..fault..Fault..report..c1844c1740294036_1_a64
	cbnz	x28, 268f
	b	128f
92:
	mov	x27, xzr
	mov	x28, x8
93:
	fmov	x10, d4
	and	w9, w12, #0xff
	cmp	w9, #1
	sub	x9, x1, #1
	csel	x25, x17, x8, eq
	csel	x26, x10, xzr, eq
	cmp	w3, #1
	mov	w10, #65535
	csel	x20, x2, x8, eq
	csel	x22, x22, xzr, eq
	cmp	x9, x10
	mov	w8, #33
	ccmp	x27, x8, #2, lo
	ccmp	x26, #9, #2, lo
	ccmp	x22, #9, #2, lo
	cset	w23, lo
	cmp	w23, #1
	b.ne	95f
	lsl	x8, x1, #32
	str	x16, [sp, #240]
	str	x12, [sp, #328]
	str	x1, [sp, #224]
	cbz	x27, 129f
	mov	w9, #32
	movi	v0.2d, #0000000000000000
	add	x0, sp, #1, lsl #12
	movk	w9, #257, lsl #16
	add	x0, x0, #832
	mov	x1, x25
	orr	w9, w9, w27, lsl #8
	mov	x2, x26
	add	x21, sp, #1, lsl #12
	str	xzr, [sp, #4936]
	add	x21, x21, #832
	fmov	s1, w9
	str	xzr, [sp, #4928]
	mov	v1.s[1], v0.s[1]
	fmov	d0, x8
	dup	v0.2d, v0.d[0]
	mov	v1.d[1], v0.d[1]
	mov	v1.h[7], wzr
	str	q1, [sp, #304]
	vj_c_call	memcpy
	orr	x0, x21, #0x8
	mov	x1, x20
	mov	x2, x22
	vj_c_call	memcpy
	mov	w8, #32
	cmp	x27, #31
	ldr	q0, [sp, #4928]
	sub	x8, x8, x27
	mov	w1, wzr
	csel	x2, xzr, x8, hi
	add	x8, sp, #2080
	str	q0, [sp, #288]
	add	x0, x8, x27
	vj_c_call	memset
	add	x0, sp, #2080
	mov	x1, x28
	mov	x2, x27
	vj_c_call	memcpy
	movi	v1.2d, #0000000000000000
	ldr	q3, [sp, #288]
	ldr	q0, [sp, #2080]
	mov	w27, #64
	str	q0, [sp, #4928]
	str	q1, [sp, #4960]
	str	q1, [sp, #4976]
	ldr	q1, [sp, #2096]
	str	q1, [sp, #4944]
	b	130f
94:
	mov	w9, #12336
	movk	w9, #115, lsl #16
	cmp	x8, x9
	b.eq	116f
	mov	w9, #14392
	movk	w9, #115, lsl #16
	cmp	x8, x9
	b.ne	124f
	mov	w26, #1
	mov	w21, #1
	b	121f
95:
	vj_page	x9, .L1_a64_CPI3_6
	mov	w27, wzr
	mov	w10, wzr
	vj_load	q0, x9, .L1_a64_CPI3_6
	mov	x25, xzr
	mov	x8, xzr
	movi	v6.2d, #0000000000000000
	mov	x9, xzr
	b	131f
96:
	mov	x9, #13666
	movk	x9, #12849, lsl #16
	orr	x9, x9, x9, lsl #32
	cmp	x8, x9
	b.eq	120f
	mov	x9, #12898
	movk	x9, #13877, lsl #16
	orr	x9, x9, x9, lsl #32
	cmp	x8, x9
	b.ne	124f
	mov	x26, xzr
	mov	w21, #32
	b	121f
97:
	ldr	x1, [sp, #400]
	add	x0, sp, #1040
	mov	x23, x2
	bl	b2_commands..input..read_all..d6f7c226d1d4af0a_1_a64
	ldrb	w8, [sp, #1040]
	ldr	x25, [sp, #1048]
	ldr	x20, [sp, #1056]
	cbz	w8, 141f
	mov	w0, w25
	mov	x2, x23
	b	73b
98:
	add	x22, sp, #3872
	mov	x26, xzr
	mov	w8, #-2
99:
	cmp	x20, #1
	b.ne	102f
100:
	mov	w26, wzr
	mov	x1, xzr
101:
	str	q0, [sp, #4064]
	str	q0, [sp, #4048]
	str	q0, [sp, #4032]
	str	q0, [sp, #4016]
	str	q0, [sp, #4000]
	b	125f
102:
	ldr	x9, [x28, #56]
	sub	x10, x9, #1
	cmp	x10, #9
	b.hi	107f
	ldr	x10, [x28, #48]
	cmp	x9, #2
	b.lo	103f
	ldrb	w11, [x10]
	cmp	w11, #48
	b.eq	107f
103:
	mov	x21, xzr
	add	x2, x28, #72
	sub	x3, x1, #3
104:
	ldrb	w11, [x10], #1
	sub	w11, w11, #48
	cmp	w11, #9
	b.hi	107f
	mov	w12, #10
	subs	x9, x9, #1
	mul	x12, x21, x12
	add	x21, x12, w11, uxtb
	b.ne	104b
	sub	x9, x21, #1
	cmp	x9, x8
	b.hs	107f
	cbz	x3, 303f
	ldr	x8, [x28, #80]
	cmp	x8, #3
	b.ne	303f
	ldr	x8, [x2]
	ldrb	w9, [x8]
	ldrb	w10, [x8, #1]
	ldrb	w8, [x8, #2]
	lsl	x9, x9, #16
	orr	x9, x9, x10, lsl #8
	orr	x8, x9, x8
	sub	x8, x8, #1830, lsl #12
	cmp	x8, #375
	mov	w8, #24
	cset	w20, eq
	csel	x8, x8, xzr, eq
	sub	x3, x3, x20
	add	x2, x2, x8
	b	304f
105:
	mov	x28, xzr
	mov	x27, x8
106:
	fmov	x10, d4
	and	w9, w12, #0xff
	cmp	w9, #1
	sub	x9, x1, #1
	csel	x25, x17, x8, eq
	csel	x26, x10, xzr, eq
	cmp	w3, #1
	mov	w10, #-1
	csel	x20, x2, x8, eq
	csel	x22, x22, xzr, eq
	cmp	x9, x10
	mov	w8, #65
	ccmp	x28, x8, #2, lo
	ccmp	x26, #17, #2, lo
	ccmp	x22, #17, #2, lo
	cset	w23, lo
	cmp	w23, #1
	b.ne	110f
	lsl	x8, x1, #32
	str	x2, [sp, #256]
	str	x17, [sp, #272]
	fmov	d0, x8
	str	x16, [sp, #240]
	str	x12, [sp, #328]
	cbz	x28, 150f
	mov	w8, #32
	movi	v1.2d, #0000000000000000
	add	x0, sp, #1, lsl #12
	movk	w8, #257, lsl #16
	add	x0, x0, #832
	mov	x1, x25
	add	w8, w8, w28, lsl #8
	mov	x2, x26
	add	x21, sp, #1, lsl #12
	add	x21, x21, #832
	add	w8, w8, #32
	str	q1, [sp, #4944]
	fmov	s2, w8
	str	q1, [sp, #4928]
	mov	v2.s[1], wzr
	mov	v2.d[1], v0.d[0]
	str	q2, [sp, #304]
	vj_c_call	memcpy
	orr	x0, x21, #0x10
	mov	x1, x20
	mov	x2, x22
	vj_c_call	memcpy
	vj_page	x8, .L1_a64_CPI3_1
	ldr	q5, [sp, #304]
	vj_page	x9, .L1_a64_CPI3_3
	vj_load	q0, x8, .L1_a64_CPI3_1
	ldr	q2, [sp, #4928]
	vj_load	q3, x9, .L1_a64_CPI3_3
	vj_page	x8, .L1_a64_CPI3_4
	ldr	q1, [sp, #4944]
	mov	w9, #64
	eor	v0.16b, v5.16b, v0.16b
	vj_load	q4, x8, .L1_a64_CPI3_4
	vj_page	x8, .L1_a64_CPI3_2
	cmp	x28, #63
	mov	w1, wzr
	str	q0, [sp, #192]
	eor	v0.16b, v2.16b, v3.16b
	str	q0, [sp, #288]
	eor	v0.16b, v1.16b, v4.16b
	str	q0, [sp, #208]
	vj_load	q0, x8, .L1_a64_CPI3_2
	sub	x8, x9, x28
	csel	x2, xzr, x8, hi
	add	x8, sp, #3744
	add	x0, x8, x28
	str	q0, [sp, #304]
	vj_c_call	memset
	add	x0, sp, #3744
	mov	x1, x27
	mov	x2, x28
	vj_c_call	memcpy
	movi	v1.2d, #0000000000000000
	ldr	q0, [sp, #3744]
	ldr	q2, [sp, #3776]
	mov	w27, #128
	str	q0, [sp, #4928]
	ldr	q0, [sp, #3792]
	str	q2, [sp, #4960]
	str	q1, [sp, #4992]
	str	q1, [sp, #5008]
	str	q1, [sp, #5024]
	str	q1, [sp, #5040]
	ldr	q1, [sp, #3760]
	str	q0, [sp, #4976]
	str	q1, [sp, #4944]
	b	151f
107:
	mov	w26, wzr
	mov	x1, xzr
	movi	v0.2d, #0000000000000000
	b	101b
108:
	ldr	w8, [x21]
	ldr	w9, [x27]
	cmp	w8, w9
	b.ne	163f
	mov	x0, x21
	mov	x23, x1
	mov	x1, x15
	mov	x2, x27
	mov	x25, x15
	bl	core..cmp..slices..groups_equal..i8.31.core..cmp..numbers..U8PartialEq_1_a64
	mov	x15, x25
	mov	x1, x23
	add	x20, sp, #672
	cbz	w0, 163f
109:
	movi	v3.2d, #0000000000000000
	movi	v0.2d, #0000000000000000
	mov	w8, wzr
	mov	x12, xzr
	mov	w16, wzr
	mov	w17, wzr
	mov	x11, xzr
	mov	w14, wzr
	mov	w15, wzr
	str	wzr, [sp, #4344]
	str	q3, [sp, #2592]
	str	q3, [sp, #2576]
	str	q3, [sp, #2560]
	str	q3, [sp, #2544]
	strh	wzr, [sp, #4348]
	str	q3, [sp, #2432]
	str	q3, [sp, #2448]
	stp	q0, q0, [sp, #144]
	str	q0, [sp, #128]
	str	q3, [sp, #2464]
	str	q3, [sp, #2480]
	str	wzr, [sp, #4336]
	strh	wzr, [sp, #4340]
	b	180f
110:
	mov	w27, wzr
	mov	w9, wzr
	mov	x8, xzr
	movi	v7.2d, #0000000000000000
	movi	v16.2d, #0000000000000000
	movi	v6.2d, #0000000000000000
	mov	w0, #2
	b	152f
111:
	mov	x25, v1.d[1]
	cmp	w23, #1
	sub	x27, x28, #1
	ccmp	x21, #17, #0, eq
	vj_page	x10, .L1_a64_switch.table.b2_commands..dispatch..run_with_notes..8eebea7bb24a6da2.204_1_a64
	vj_address	x10, x10, .L1_a64_switch.table.b2_commands..dispatch..run_with_notes..8eebea7bb24a6da2.204_1_a64
	cset	w9, lo
	cmp	x27, #64
	and	w11, w13, #0xff
	cset	w8, lo
	ldr	w10, [x10, w20, uxtw #2]
	mov	w22, #1
	cmp	x25, #17
	mov	w20, #2
	str	q0, [sp, #1728]
	ccmp	w11, #1, #0, hs
	str	q0, [sp, #1744]
	str	q0, [sp, #1760]
	str	q0, [sp, #1776]
	str	q0, [sp, #1792]
	str	xzr, [sp, #1808]
	str	q0, [sp, #1376]
	str	q0, [sp, #1392]
	b.eq	112f
	cbz	w9, 112f
	eor	w9, w26, #0x1
	orr	w8, w9, w8
	tbz	w8, #0, 112f
	mov	x22, x1
	ldr	x1, [sp, #400]
	add	x0, sp, #1376
	str	x14, [sp, #352]
	str	x12, [sp, #368]
	str	w10, [sp, #336]
	str	x13, [sp, #288]
	bl	b2_commands..input..read_all..d6f7c226d1d4af0a_1_a64
	ldrb	w8, [sp, #1376]
	ldr	x20, [sp, #1384]
	ldr	x24, [sp, #1392]
	cbz	w8, 285f
	mov	w22, #1
112:
	ldr	x2, [sp, #424]
	cbnz	w22, 486f
	b	323f
113:
	cbz	w25, 217f
	cmp	w20, #0
	mov	w8, #32
	mov	w9, #16
	csel	x20, x9, x8, eq
	b	218f
114:
	mov	w0, wzr
	cbnz	x28, 268f
	b	128f
115:
	mov	x26, xzr
	mov	x21, xzr
	b	121f
116:
	mov	x21, xzr
	b	118f
117:
	mov	w21, #32
118:
	mov	w26, #1
	b	121f
119:
	mov	x26, xzr
	mov	w21, #16
	b	121f
120:
	mov	x26, xzr
	mov	w21, #64
121:
	cmp	x20, #1
	b.eq	124f
	ldp	x1, x2, [x28, #48]
	str	q0, [sp, #1744]
	str	q0, [sp, #1728]
	cmp	x2, #1
	b.eq	122f
	cbnz	x2, 123f
	vj_page	x8, .L1_a64_CPI3_0
	vj_load	q1, x8, .L1_a64_CPI3_0
	b	124f
122:
	ldrb	w8, [x1]
	cmp	w8, #45
	b.ne	123f
	cmp	x20, #2
	b.eq	124f
	add	x8, sp, #4, lsl #12
	mov	x22, xzr
	str	xzr, [sp, #304]
	add	x8, x8, #856
	str	x8, [sp, #392]
	b	231f
123:
	add	x0, sp, #1728
	bl	b2_commands..arguments..bytes_of_1_a64
	add	x9, sp, #1728
	ldrb	w8, [sp, #1728]
	ldur	q1, [x9, #8]
	cbz	w8, 143f
124:
	umov	w26, v1.b[0]
	mov	x1, v1.d[1]
125:
	str	x1, [sp, #4944]
126:
	add	x8, sp, #180
	str	wzr, [sp, #432]
	stur	wzr, [x8, #255]
	mov	w0, w26
	mov	x2, x23
	bl	b2_commands..fault..Fault..report..c1844c1740294036_1_a64
	and	w8, w0, #0xff
	cmp	w8, #2
	b.eq	12b
127:
	mov	w0, #1
128:
	mov	sp, x29
	ldp	x20, x19, [sp, #80]
	ldp	x22, x21, [sp, #64]
	ldp	x24, x23, [sp, #48]
	ldp	x26, x25, [sp, #32]
	ldp	x28, x27, [sp, #16]
	ldp	x29, x30, [sp], #96
	ret
129:
	fmov	d0, x8
	vj_page	x8, .L1_a64_CPI3_7
	vj_address	x8, x8, .L1_a64_CPI3_7
	add	x0, sp, #1, lsl #12
	mov	x1, x25
	mov	x2, x26
	add	x0, x0, #832
	add	x21, sp, #1, lsl #12
	str	xzr, [sp, #4936]
	dup	v0.2d, v0.d[0]
	str	xzr, [sp, #4928]
	add	x21, x21, #832
	ld1	{ v0.d }[0], [x8]
	mov	v0.h[7], wzr
	str	q0, [sp, #304]
	vj_c_call	memcpy
	orr	x0, x21, #0x8
	mov	x1, x20
	mov	x2, x22
	vj_c_call	memcpy
	movi	v0.2d, #0000000000000000
	ldr	q3, [sp, #4928]
	str	q0, [sp, #4928]
	str	q0, [sp, #4944]
	str	q0, [sp, #4960]
	str	q0, [sp, #4976]
	str	q0, [sp, #2080]
	str	q0, [sp, #2096]
130:
	vj_page	x8, .L1_a64_CPI3_8
	ldr	q2, [sp, #304]
	vj_page	x9, .L1_a64_CPI3_9
	vj_load	q0, x8, .L1_a64_CPI3_8
	vj_load	q1, x9, .L1_a64_CPI3_9
	add	x0, sp, #1376
	mov	x1, x25
	mov	x2, x26
	str	xzr, [sp, #1376]
	eor	v0.16b, v2.16b, v0.16b
	str	q0, [sp, #288]
	eor	v0.16b, v3.16b, v1.16b
	str	q0, [sp, #304]
	vj_c_call	memcpy
	ldr	x25, [sp, #1376]
	add	x0, sp, #1376
	mov	x1, x20
	mov	x2, x22
	str	xzr, [sp, #1376]
	vj_c_call	memcpy
	ldr	q6, [sp, #288]
	ldr	q1, [sp, #4928]
	movi	v5.2d, #0000000000000000
	ldr	q2, [sp, #4944]
	ldr	x1, [sp, #224]
	mov	w10, #32
	ext	v0.16b, v6.16b, v6.16b, #8
	str	q1, [sp, #13120]
	ldr	q1, [sp, #4976]
	ldr	q4, [sp, #4960]
	str	q2, [sp, #13136]
	mov	x9, x1
	ldr	q2, [sp, #2080]
	str	q1, [sp, #13168]
	ldr	q1, [sp, #2096]
	str	q5, [sp, #4000]
	ldr	x8, [sp, #1376]
	ldr	x12, [sp, #328]
	zip2	v3.2s, v6.2s, v0.2s
	zip1	v0.2s, v6.2s, v0.2s
	str	q5, [sp, #4016]
	ldr	q5, [sp, #304]
	ldr	x16, [sp, #240]
	ldr	x17, [sp, #272]
	ldr	x2, [sp, #256]
	ldr	w3, [sp, #280]
	str	q4, [sp, #13152]
	str	q2, [sp, #1040]
	shll	v3.2d, v3.2s, #32
	ushll	v0.2d, v0.2s, #0
	str	q1, [sp, #1056]
	str	xzr, [sp, #3176]
	str	xzr, [sp, #3168]
	orr	v0.16b, v3.16b, v0.16b
131:
	ldr	q1, [sp, #13120]
	ldr	q2, [sp, #13136]
	ldr	q3, [sp, #13168]
	str	q1, [sp, #1376]
	ldr	q1, [sp, #13152]
	str	q2, [sp, #1392]
	ldr	q2, [sp, #1040]
	str	q1, [sp, #1408]
	ldr	q1, [sp, #1056]
	str	q3, [sp, #1424]
	ldr	q3, [sp, #4000]
	str	q2, [sp, #3616]
	ldr	q2, [sp, #3168]
	str	q1, [sp, #3632]
	ldr	q1, [sp, #4016]
	str	q3, [sp, #3296]
	str	q1, [sp, #3312]
	str	q2, [sp, #2912]
132:
	movi	v1.2d, #0000000000000000
	str	xzr, [sp, #1048]
	str	xzr, [sp, #1040]
	str	q1, [sp, #4928]
	str	q1, [sp, #4944]
	str	q1, [sp, #4960]
	str	q1, [sp, #4976]
	str	q1, [sp, #13120]
	str	q1, [sp, #13136]
	str	q1, [sp, #2080]
	str	q1, [sp, #2096]
	cbz	w23, 133f
	ldr	q1, [sp, #1376]
	ldr	q2, [sp, #1392]
	fmov	x0, d0
	ldr	q3, [sp, #1424]
	str	q1, [sp, #4928]
	ldr	q1, [sp, #1408]
	str	q2, [sp, #4944]
	ldr	q2, [sp, #3616]
	str	q1, [sp, #4960]
	ldr	q1, [sp, #3632]
	str	q3, [sp, #4976]
	ldr	q3, [sp, #3296]
	str	q2, [sp, #13120]
	ldr	q2, [sp, #2912]
	str	q1, [sp, #13136]
	ldr	q1, [sp, #3312]
	str	q3, [sp, #2080]
	str	q1, [sp, #2096]
	str	q2, [sp, #1040]
	b	134f
133:
	movi	v5.2d, #0000000000000000
	movi	v6.2d, #0000000000000000
	mov	w27, wzr
	fmov	x11, d0
	mov	w10, wzr
	mov	x25, xzr
	mov	x8, xzr
	mov	x9, xzr
	and	x0, x11, #0xff
134:
	ldr	q1, [sp, #4928]
	ldr	q2, [sp, #4944]
	ldr	q3, [sp, #4976]
	str	q1, [sp, #1728]
	ldr	q1, [sp, #4960]
	str	q2, [sp, #1744]
	ldr	q2, [sp, #13120]
	str	q1, [sp, #1760]
	ldr	q1, [sp, #13136]
	str	q3, [sp, #1776]
	ldr	q3, [sp, #2080]
	str	q2, [sp, #3872]
	ldr	q2, [sp, #1040]
	str	q1, [sp, #3888]
	ldr	q1, [sp, #2096]
	str	q3, [sp, #3744]
	str	q1, [sp, #3760]
	str	q2, [sp, #3040]
	cbz	w23, 139f
	add	x21, sp, #1, lsl #12
	ldr	q1, [sp, #1744]
	ldr	q2, [sp, #1760]
	add	x21, x21, #368
	str	x0, [sp, #4464]
	add	x0, sp, #1, lsl #12
	orr	x11, x21, #0x8
	str	q1, [sp, #4560]
	ldr	q1, [sp, #3872]
	st1	{ v0.d }[1], [x11]
	ldr	q0, [sp, #1728]
	mov	x22, x1
	str	q2, [sp, #4576]
	ldr	q2, [sp, #3744]
	add	x0, x0, #832
	str	q0, [sp, #4544]
	ldr	q0, [sp, #1776]
	mov	w1, wzr
	str	x8, [sp, #4680]
	add	x8, sp, #1, lsl #12
	mov	w2, #4096
	str	q0, [sp, #4592]
	ldr	q0, [sp, #3888]
	add	x8, x8, #368
	mov	x28, x16
	mov	x26, x12
	str	q5, [sp, #4480]
	str	q0, [sp, #4624]
	ldr	q0, [sp, #3760]
	str	q6, [sp, #4496]
	str	q0, [sp, #4656]
	ldr	q0, [sp, #3040]
	str	q5, [sp, #4512]
	str	xzr, [sp, #4528]
	strh	w27, [sp, #4536]
	strh	w27, [sp, #4538]
	strh	w10, [sp, #4540]
	strh	wzr, [sp, #4542]
	str	q1, [sp, #4608]
	str	q2, [sp, #4640]
	str	x25, [sp, #4672]
	str	x9, [sp, #4688]
	stur	q0, [x8, #232]
	vj_c_call	memset
	add	x1, sp, #1, lsl #12
	mov	w0, wzr
	mov	w2, #4096
	add	x1, x1, #832
	vj_system_call	read, b2_read
	ldr	x23, [sp, #424]
	tbnz	x0, #63, 140f
	mvn	w8, w27
	add	x21, x21, #80
	sxtw	x20, w8
	b	137f
135:
	add	x0, sp, #1, lsl #12
	add	x1, sp, #1, lsl #12
136:
	add	x0, x0, #368
	add	x1, x1, #832
	bl	blake2_state..blake2s..State..absorb_blocks_1_a64
	add	x1, sp, #1, lsl #12
	mov	w0, wzr
	mov	w2, #4096
	add	x1, x1, #832
	vj_system_call	read, b2_read
	tbnz	x0, #63, 140f
137:
	cmp	x0, #1, lsl #12
	mov	w8, #4096
	csel	x2, x0, x8, lo
	cbz	x0, 144f
	subs	x20, x20, x2
	b.lo	147f
	cmp	x0, #1
	b.ne	135b
	ldrh	w8, [sp, #4536]
	cmp	w8, #64
	b.hs	138f
	ldrb	w9, [x19]
	add	w10, w8, #1
	strb	w9, [x21, w8, uxtw]
	strh	w10, [sp, #4536]
	add	x1, sp, #1, lsl #12
	mov	w0, wzr
	mov	w2, #4096
	add	x1, x1, #832
	vj_system_call	read, b2_read
	tbz	x0, #63, 137b
	b	140f
138:
	add	x0, sp, #1, lsl #12
	add	x1, sp, #1, lsl #12
	mov	w2, #1
	b	136b
139:
	ldr	x23, [sp, #424]
	mov	x1, v0.d[1]
	mov	w19, #1
	b	149f
140:
	add	x0, sp, #3, lsl #12
	add	x0, x0, #832
	bl	std_io..io..error..last_error_1_a64
	ldr	x8, [sp, #400]
	mov	w19, #1
	mov	x1, xzr
	mov	w0, #7
	strb	w19, [x8]
	b	148f
141:
	cmp	x28, #0
	ldr	x9, [sp, #392]
	ldr	x15, [sp, #1064]
	cset	w8, eq
	cmp	x20, #0
	ldr	x12, [sp, #328]
	and	w8, w8, w9
	ldr	w3, [sp, #280]
	mov	x11, x28
	csinc	w8, w8, wzr, eq
	tbz	w9, #0, 212f
	ldr	x13, [sp, #272]
	ldr	x14, [sp, #256]
	mov	w9, #1
	b	213f
142:
	ldr	w8, [x21]
	ldr	w9, [x27]
	cmp	w8, w9
	b.ne	245f
	mov	x0, x21
	mov	x23, x1
	mov	x1, x15
	mov	x2, x27
	mov	x24, x15
	bl	core..cmp..slices..groups_equal..i8.31.core..cmp..numbers..U8PartialEq_1_a64
	mov	x15, x24
	mov	x1, x23
	add	x20, sp, #672
	cbz	w0, 245f
	b	249f
143:
	fmov	x8, d1
	ldr	x22, [sp, #1752]
	cmp	x20, #2
	str	x8, [sp, #392]
	b.ne	230f
	movi	v1.2d, #0000000000000000
	cbz	x22, 124b
	ldr	x0, [sp, #392]
	vj_call	rattle_dealloc
	movi	v1.2d, #0000000000000000
	b	124b
144:
	ldr	q0, [sp, #4656]
	ldr	q1, [sp, #4672]
	ldr	q2, [sp, #4688]
	ldr	x8, [sp, #4704]
	stp	q0, q1, [sp, #864]
	ldr	q0, [sp, #4592]
	ldr	q1, [sp, #4608]
	str	q2, [sp, #896]
	ldr	q2, [sp, #4624]
	stp	q0, q1, [sp, #800]
	ldr	q0, [sp, #4640]
	ldr	q1, [sp, #4528]
	str	x8, [sp, #912]
	stp	q2, q0, [sp, #832]
	ldr	q0, [sp, #4544]
	ldr	q2, [sp, #4560]
	stp	q1, q0, [sp, #736]
	ldr	q0, [sp, #4576]
	ldr	q1, [sp, #4464]
	stp	q2, q0, [sp, #768]
	ldr	q0, [sp, #4480]
	ldr	q2, [sp, #4496]
	stp	q1, q0, [sp, #672]
	ldr	q0, [sp, #4512]
	stp	q2, q0, [sp, #704]
	cbz	x22, 290f
	ldr	x8, [sp, #392]
	tbz	w8, #0, 286f
145:
	add	x0, sp, #3, lsl #12
	cmp	x22, #1, lsl #12
	mov	w8, #4096
	add	x0, x0, #832
	mov	w1, wzr
	mov	w2, #4096
	add	x19, sp, #3, lsl #12
	mov	x25, x24
	mov	x24, x22
	csel	x20, x22, x8, lo
	add	x19, x19, #832
	vj_c_call	memset
	add	x1, sp, #3, lsl #12
	add	x0, sp, #672
	mov	x2, x20
	add	x1, x1, #832
	vj_call	blake2_xof..blake2xs..State..squeeze_1_arm
	mov	x21, xzr
146:
	add	x1, x19, x21
	sub	x2, x20, x21
	mov	w0, #1
	sub	x22, x20, x21
	vj_system_call	write, b2_write
	tbnz	x0, #63, 311f
	cmp	x0, x22
	csel	x8, x0, x22, lo
	cbz	x8, 312f
	add	x21, x8, x21
	cmp	x21, x20
	b.lo	146b
	subs	x22, x24, x20
	mov	x24, x25
	b.ne	145b
	b	290f
147:
	mov	x1, xzr
	mov	w0, #6
	mov	w19, #1
148:
	ldr	x17, [sp, #272]
	ldr	x2, [sp, #256]
	mov	x12, x26
	ldr	w3, [sp, #280]
	mov	x16, x28
149:
	mov	x21, x24
	b	236f
150:
	vj_page	x8, .L1_a64_CPI3_10
	movi	v1.2d, #0000000000000000
	add	x0, sp, #1, lsl #12
	vj_load	d2, x8, .L1_a64_CPI3_10
	add	x0, x0, #832
	mov	x1, x25
	mov	x2, x26
	add	x21, sp, #1, lsl #12
	mov	v2.d[1], v0.d[0]
	add	x21, x21, #832
	str	q1, [sp, #4944]
	str	q1, [sp, #4928]
	str	q2, [sp, #304]
	vj_c_call	memcpy
	orr	x0, x21, #0x10
	mov	x1, x20
	mov	x2, x22
	vj_c_call	memcpy
	vj_page	x8, .L1_a64_CPI3_1
	vj_page	x9, .L1_a64_CPI3_4
	ldr	q0, [sp, #4944]
	vj_load	q2, x8, .L1_a64_CPI3_1
	vj_load	q4, x9, .L1_a64_CPI3_4
	ldr	q6, [sp, #304]
	vj_page	x8, .L1_a64_CPI3_3
	ldr	q1, [sp, #4928]
	movi	v5.2d, #0000000000000000
	vj_load	q3, x8, .L1_a64_CPI3_3
	eor	v2.16b, v6.16b, v2.16b
	eor	v0.16b, v0.16b, v4.16b
	vj_page	x8, .L1_a64_CPI3_2
	mov	w27, wzr
	eor	v1.16b, v1.16b, v3.16b
	stp	q2, q0, [sp, #192]
	vj_load	q0, x8, .L1_a64_CPI3_2
	str	q5, [sp, #4928]
	str	q5, [sp, #4944]
	str	q5, [sp, #4960]
	str	q5, [sp, #4976]
	str	q5, [sp, #4992]
	str	q5, [sp, #5008]
	str	q5, [sp, #5024]
	str	q5, [sp, #5040]
	str	q5, [sp, #3744]
	stp	q1, q0, [sp, #288]
	str	q5, [sp, #3760]
	str	q5, [sp, #3776]
	str	q5, [sp, #3792]
151:
	add	x0, sp, #2784
	mov	x1, x25
	mov	x2, x26
	str	xzr, [sp, #2792]
	str	xzr, [sp, #2784]
	vj_c_call	memcpy
	ldr	q0, [sp, #2784]
	add	x0, sp, #1376
	mov	x1, x20
	mov	x2, x22
	str	xzr, [sp, #1384]
	str	q0, [sp, #3040]
	str	xzr, [sp, #1376]
	vj_c_call	memcpy
	movi	v0.2d, #0000000000000000
	ldr	q3, [sp, #3040]
	ldr	q1, [sp, #1376]
	ldp	q6, q16, [sp, #192]
	mov	w9, #64
	str	q3, [sp, #1440]
	ldr	q3, [sp, #4960]
	ldr	x8, [sp, #224]
	str	q1, [sp, #2784]
	ldr	x12, [sp, #328]
	ldr	x16, [sp, #240]
	fmov	x0, d6
	str	q0, [sp, #1392]
	ldr	x17, [sp, #272]
	str	q0, [sp, #1424]
	ldr	q2, [sp, #1392]
	ldr	x2, [sp, #256]
	str	q0, [sp, #1376]
	ldr	w3, [sp, #280]
	str	q0, [sp, #1408]
	ldr	q0, [sp, #4976]
	str	q1, [sp, #1456]
	ldr	q1, [sp, #4928]
	stp	q3, q0, [sp, #704]
	ldr	q0, [sp, #4944]
	ldr	q3, [sp, #5024]
	str	q2, [sp, #1056]
	ldr	q2, [sp, #1424]
	stp	q1, q0, [sp, #672]
	ldr	q0, [sp, #5040]
	ldr	q1, [sp, #4992]
	str	q2, [sp, #1088]
	ldp	q7, q5, [sp, #288]
	stp	q3, q0, [sp, #768]
	ldr	q0, [sp, #5008]
	ldr	q3, [sp, #3776]
	str	xzr, [sp, #2664]
	stp	q1, q0, [sp, #736]
	ldr	q0, [sp, #3792]
	ldr	q1, [sp, #3744]
	str	q3, [sp, #3648]
	ldr	q3, [sp, #1456]
	str	q0, [sp, #3664]
	ldr	q0, [sp, #3760]
	str	q1, [sp, #3616]
	ldr	q1, [sp, #1408]
	str	q0, [sp, #3632]
	ldr	q0, [sp, #1376]
	str	q3, [sp, #1120]
	str	q0, [sp, #1040]
	ldr	q0, [sp, #1440]
	str	q1, [sp, #1072]
	str	q0, [sp, #1104]
	str	xzr, [sp, #2656]
152:
	ldp	q0, q1, [sp, #736]
	str	q0, [sp, #1792]
	ldp	q0, q2, [sp, #768]
	str	q1, [sp, #1808]
	str	q0, [sp, #1824]
	ldp	q1, q0, [sp, #672]
	str	q2, [sp, #1840]
	str	q0, [sp, #1744]
	ldp	q2, q0, [sp, #704]
	str	q1, [sp, #1728]
	ldr	q1, [sp, #3664]
	str	q0, [sp, #1776]
	ldr	q0, [sp, #3632]
	str	q2, [sp, #1760]
	ldr	q2, [sp, #3648]
	str	q1, [sp, #3216]
	ldr	q1, [sp, #3616]
	str	q0, [sp, #3184]
	ldr	q0, [sp, #1040]
	str	q2, [sp, #3200]
	ldr	q2, [sp, #1056]
	str	q1, [sp, #3168]
	ldr	q1, [sp, #1120]
	str	q0, [sp, #3872]
	ldr	q0, [sp, #1104]
	str	q2, [sp, #3888]
	ldr	q2, [sp, #1088]
	str	q1, [sp, #3952]
	ldr	q1, [sp, #2656]
	str	q0, [sp, #3936]
	ldr	q0, [sp, #1072]
	str	q2, [sp, #3920]
	str	q0, [sp, #3904]
	str	q1, [sp, #2432]
153:
	movi	v0.2d, #0000000000000000
	str	xzr, [sp, #1048]
	str	xzr, [sp, #1040]
	str	q0, [sp, #4928]
	str	q0, [sp, #4944]
	str	q0, [sp, #4960]
	str	q0, [sp, #4976]
	str	q0, [sp, #4992]
	str	q0, [sp, #5008]
	str	q0, [sp, #5024]
	str	q0, [sp, #5040]
	str	q0, [sp, #1376]
	str	q0, [sp, #1392]
	str	q0, [sp, #1408]
	str	q0, [sp, #1424]
	stp	q0, q0, [sp, #672]
	stp	q0, q0, [sp, #704]
	stp	q0, q0, [sp, #736]
	cbz	w23, 154f
	ldr	q0, [sp, #1792]
	ldr	q1, [sp, #1808]
	ldr	q2, [sp, #1840]
	str	q0, [sp, #4992]
	ldr	q0, [sp, #1824]
	str	q1, [sp, #5008]
	ldr	q1, [sp, #1728]
	str	q0, [sp, #5024]
	ldr	q0, [sp, #1744]
	str	q2, [sp, #5040]
	ldr	q2, [sp, #1760]
	str	q0, [sp, #4944]
	ldr	q0, [sp, #1776]
	str	q1, [sp, #4928]
	ldr	q1, [sp, #3216]
	str	q2, [sp, #4960]
	ldr	q2, [sp, #3200]
	str	q0, [sp, #4976]
	ldr	q0, [sp, #3184]
	str	q1, [sp, #1424]
	ldr	q1, [sp, #3168]
	str	q2, [sp, #1408]
	ldr	q2, [sp, #3888]
	str	q0, [sp, #1392]
	ldr	q0, [sp, #3872]
	str	q1, [sp, #1376]
	ldr	q1, [sp, #3952]
	stp	q0, q2, [sp, #672]
	ldr	q0, [sp, #3936]
	ldr	q2, [sp, #3920]
	stp	q0, q1, [sp, #736]
	ldr	q0, [sp, #3904]
	ldr	q1, [sp, #2432]
	stp	q0, q2, [sp, #704]
	mov	v0.16b, v6.16b
	str	q1, [sp, #1040]
	b	155f
154:
	movi	v5.2d, #0000000000000000
	movi	v7.2d, #0000000000000000
	mov	w27, wzr
	movi	v16.2d, #0000000000000000
	mov	w9, wzr
	mov	x8, xzr
	and	x0, x0, #0xff
155:
	ldr	q1, [sp, #4992]
	ldr	q3, [sp, #5040]
	ldr	q2, [sp, #5008]
	str	q1, [sp, #2144]
	ldr	q1, [sp, #5024]
	str	q3, [sp, #2192]
	ldr	q3, [sp, #4960]
	str	q1, [sp, #2176]
	ldr	q1, [sp, #4944]
	str	q2, [sp, #2160]
	ldr	q2, [sp, #4928]
	str	q1, [sp, #2096]
	ldr	q1, [sp, #4976]
	str	q3, [sp, #2112]
	ldr	q3, [sp, #1408]
	str	q1, [sp, #2128]
	ldr	q1, [sp, #1392]
	str	q2, [sp, #2080]
	ldr	q2, [sp, #1424]
	str	q3, [sp, #3328]
	str	q1, [sp, #3312]
	ldp	q1, q3, [sp, #672]
	str	q2, [sp, #3344]
	ldr	q2, [sp, #1376]
	str	q2, [sp, #3296]
	str	q1, [sp, #4000]
	ldp	q1, q2, [sp, #736]
	str	q3, [sp, #4016]
	str	q1, [sp, #4064]
	ldp	q1, q3, [sp, #704]
	str	q2, [sp, #4080]
	ldr	q2, [sp, #1040]
	str	q3, [sp, #4048]
	str	q1, [sp, #4032]
	str	q2, [sp, #2544]
	cbz	w23, 160f
	add	x10, sp, #3, lsl #12
	str	q0, [sp, #13184]
	ldr	q0, [sp, #2192]
	add	x10, x10, #832
	str	w9, [sp, #13264]
	ldr	q1, [sp, #2128]
	add	x20, x10, #152
	add	x9, sp, #3, lsl #12
	ldr	q2, [sp, #2112]
	str	q0, [x20, #112]
	add	x9, x9, #832
	ldr	q0, [sp, #2096]
	stur	q1, [x9, #200]
	ldr	q1, [sp, #2080]
	mov	x25, x2
	stur	q2, [x9, #184]
	ldr	q2, [sp, #2176]
	orr	x11, x10, #0x8
	stur	q0, [x9, #168]
	ldr	q0, [sp, #2160]
	mov	w1, wzr
	stur	q1, [x9, #152]
	ldr	q1, [sp, #2144]
	mov	w2, #4096
	stur	q2, [x9, #248]
	ldr	q2, [sp, #3328]
	mov	x26, x17
	stur	q0, [x9, #232]
	ldr	q0, [sp, #3344]
	mov	x28, x16
	stur	q1, [x9, #216]
	add	x9, x10, #280
	ldr	q1, [sp, #3296]
	stp	q2, q0, [x9, #32]
	ldr	q0, [sp, #3312]
	ldr	q2, [sp, #4000]
	str	x0, [sp, #13120]
	add	x0, sp, #1, lsl #12
	mov	x22, x12
	stp	q1, q0, [x9]
	ldr	q0, [sp, #4016]
	add	x9, x10, #344
	ldr	q1, [sp, #4064]
	add	x0, x0, #832
	st1	{ v6.d }[1], [x11]
	stp	q2, q0, [x9]
	ldr	q0, [sp, #4080]
	ldr	q2, [sp, #4032]
	str	q5, [sp, #13136]
	stp	q1, q0, [x9, #64]
	ldr	q0, [sp, #4048]
	str	q7, [sp, #13152]
	stp	q2, q0, [x9, #32]
	ldr	q0, [sp, #2544]
	str	q16, [sp, #13168]
	str	q5, [sp, #13200]
	str	q7, [sp, #13216]
	str	q16, [sp, #13232]
	str	xzr, [sp, #13248]
	str	w27, [sp, #13256]
	str	w27, [sp, #13260]
	str	wzr, [sp, #13268]
	str	x8, [sp, #13560]
	str	q0, [sp, #13568]
	vj_c_call	memset
	add	x1, sp, #1, lsl #12
	mov	w0, wzr
	mov	w2, #4096
	add	x1, x1, #832
	vj_system_call	read, b2_read
	ldr	x23, [sp, #424]
	tbnz	x0, #63, 161f
	mvn	w8, w27
	sxtw	x21, w8
	b	158f
156:
	add	x0, sp, #3, lsl #12
	add	x1, sp, #1, lsl #12
157:
	add	x0, x0, #832
	add	x1, x1, #832
	bl	blake2_state..blake2b..State..absorb_blocks_1_a64
	add	x1, sp, #1, lsl #12
	mov	w0, wzr
	mov	w2, #4096
	add	x1, x1, #832
	vj_system_call	read, b2_read
	tbnz	x0, #63, 161f
158:
	cmp	x0, #1, lsl #12
	mov	w8, #4096
	csel	x2, x0, x8, lo
	cbz	x0, 232f
	subs	x21, x21, x2
	b.lo	234f
	cmp	x0, #1
	b.ne	156b
	ldr	w8, [sp, #13256]
	cmp	w8, #128
	b.hs	159f
	ldrb	w9, [x19]
	add	w10, w8, #1
	strb	w9, [x20, x8]
	str	w10, [sp, #13256]
	add	x1, sp, #1, lsl #12
	mov	w0, wzr
	mov	w2, #4096
	add	x1, x1, #832
	vj_system_call	read, b2_read
	tbz	x0, #63, 158b
	b	161f
159:
	add	x0, sp, #3, lsl #12
	add	x1, sp, #1, lsl #12
	mov	w2, #1
	b	157b
160:
	ldr	x23, [sp, #424]
	mov	x21, x24
	mov	x1, v6.d[1]
	mov	w19, #1
	b	236f
161:
	add	x0, sp, #672
	mov	x21, x24
	bl	std_io..io..error..last_error_1_a64
	ldr	x8, [sp, #400]
	mov	w19, #1
	mov	x1, xzr
	mov	w0, #7
	strb	w19, [x8]
	b	235f
162:
	cmp	xzr, x15
	b.hs	109b
163:
	add	x0, sp, #1, lsl #12
	mov	x19, x1
	add	x1, sp, #2080
	add	x0, x0, #832
	mov	x2, x19
	mov	x25, x15
	bl	blake2_transcript..collision..blake2s..last_step_1_a64
	ldr	q0, [sp, #4928]
	ldr	q1, [sp, #4944]
	add	x0, sp, #3, lsl #12
	ldr	q2, [sp, #5008]
	add	x0, x0, #832
	add	x1, sp, #1728
	str	q0, [sp, #4416]
	ldr	q0, [sp, #4992]
	mov	x2, x19
	str	q1, [sp, #4432]
	ldr	q1, [sp, #4976]
	str	q0, [sp, #4032]
	ldr	q0, [sp, #5024]
	str	q2, [sp, #4048]
	str	q0, [sp, #4064]
	ldr	q0, [sp, #4960]
	str	q1, [sp, #4016]
	str	q0, [sp, #4000]
	bl	blake2_transcript..collision..blake2s..last_step_1_a64
	ldr	q0, [sp, #13120]
	ldr	q1, [sp, #13136]
	add	x0, sp, #1376
	ldr	q2, [sp, #13200]
	ldr	x2, [sp, #4064]
	add	x1, sp, #4000
	str	q0, [sp, #4384]
	ldr	q0, [sp, #13184]
	ldrb	w4, [sp, #4073]
	str	q1, [sp, #4400]
	ldr	q1, [sp, #13168]
	ldrb	w3, [sp, #4072]
	str	q0, [sp, #3904]
	ldr	q0, [sp, #13216]
	str	q2, [sp, #3920]
	ldr	q2, [sp, #4928]
	str	q0, [sp, #3936]
	ldr	q0, [sp, #13152]
	str	q1, [sp, #3888]
	str	q0, [sp, #3872]
	ldr	q0, [sp, #4944]
	str	q2, [sp, #1376]
	str	q0, [sp, #1392]
	vj_call	blake2_compress..compress..blake2s..compress_1_arm
	ldr	q0, [sp, #1376]
	ldr	q1, [sp, #1392]
	add	x0, sp, #1376
	ldr	q2, [sp, #13136]
	ldr	x2, [sp, #3936]
	add	x1, sp, #3872
	str	q0, [sp, #1040]
	ldr	q0, [sp, #13120]
	ldrb	w4, [sp, #3945]
	ldrb	w3, [sp, #3944]
	str	q1, [sp, #1056]
	str	q0, [sp, #1376]
	str	q2, [sp, #1392]
	vj_call	blake2_compress..compress..blake2s..compress_1_arm
	ldr	q0, [sp, #1376]
	ldr	q1, [sp, #1392]
	mov	x1, x19
	cmp	x19, #4
	str	q0, [sp, #3744]
	str	q1, [sp, #3760]
	b.hs	165f
	cbz	x1, 166f
	mov	x8, xzr
164:
	add	x9, sp, #1040
	add	x10, sp, #3744
	ldrb	w9, [x9, x8]
	ldrb	w10, [x10, x8]
	cmp	w9, w10
	b.ne	178f
	add	x8, x8, #1
	cmp	x1, x8
	b.ne	164b
	b	166f
165:
	fmov	w9, s0
	ldr	w8, [sp, #1040]
	cmp	w8, w9
	b.ne	179f
	add	x0, sp, #1040
	add	x2, sp, #3744
	bl	core..cmp..slices..groups_equal..i8.31.core..cmp..numbers..U8PartialEq_1_a64
	tbz	w0, #0, 179f
166:
	add	x0, sp, #1, lsl #12
	add	x2, sp, #1, lsl #12
	add	x1, sp, #4000
	add	x0, x0, #320
	add	x2, x2, #288
	add	x3, sp, #3872
	bl	blake2_transcript..collision..blake2s..same_step_1_a64
	tbz	w0, #0, 176f
	ldr	x9, [sp, #2128]
	ldrb	w10, [sp, #2112]
	mov	w8, #16842752
	ldr	x11, [sp, #2120]
	ldr	s0, [sp, #2140]
	add	x12, x25, #64
	bfi	w8, w9, #8, #8
	cmp	w10, #0
	ldr	d2, [sp, #2144]
	stp	x11, x9, [sp, #48]
	mov	w9, #16842752
	ushll	v0.4s, v0.4h, #0
	csel	w8, w9, w8, eq
	dup	v2.2d, v2.d[0]
	ldr	x14, [sp, #1776]
	bfxil	w8, w19, #0, #8
	ldrb	w13, [sp, #1760]
	mov	w11, #16842752
	csel	x12, x25, x12, eq
	str	w10, [sp, #336]
	vj_page	x10, .L1_a64_CPI3_8
	fmov	s1, w8
	mov	w8, v0.s[1]
	bfi	w11, w14, #8, #8
	cmp	x12, #0
	ldr	s3, [sp, #1788]
	movi	v6.2d, #0000000000000000
	ldr	x15, [sp, #1768]
	str	x22, [sp, #424]
	mov	x23, xzr
	mov	v1.h[2], v0.h[0]
	ushll	v3.4s, v3.4h, #0
	movi	v0.2d, #0000000000000000
	mov	x22, xzr
	mov	x20, xzr
	str	x27, [sp, #368]
	str	wzr, [sp, #76]
	stp	xzr, xzr, [sp, #96]
	mov	v1.h[3], w8
	add	x8, sp, #2080
	stp	xzr, xzr, [sp, #112]
	add	x8, x8, #72
	str	wzr, [sp, #4456]
	strh	wzr, [sp, #4460]
	str	wzr, [sp, #4448]
	mov	v2.d[0], v1.d[0]
	vj_load	q1, x10, .L1_a64_CPI3_8
	cset	w10, ne
	cmp	w13, #0
	strh	wzr, [sp, #4452]
	csel	w9, w9, w11, eq
	ldr	x11, [sp, #176]
	stp	x15, x14, [sp, #32]
	bfxil	w9, w19, #0, #8
	str	q6, [sp, #3616]
	ld1	{ v2.h }[7], [x8]
	mov	w8, v3.s[1]
	str	q6, [sp, #3632]
	fmov	s4, w9
	vj_page	x9, .L1_a64_CPI3_9
	vj_load	q5, x9, .L1_a64_CPI3_9
	str	q6, [sp, #3648]
	eor	v2.16b, v2.16b, v1.16b
	str	q6, [sp, #3664]
	mov	v4.h[2], v3.h[0]
	str	w13, [sp, #280]
	str	q6, [sp, #3296]
	str	q2, [sp, #3552]
	ldr	d2, [sp, #1792]
	str	q6, [sp, #3312]
	mov	v4.h[3], w8
	dup	v2.2d, v2.d[0]
	add	x8, sp, #1728
	add	x8, x8, #72
	str	q6, [sp, #3328]
	str	q6, [sp, #3344]
	str	q6, [sp, #1376]
	mov	v2.d[0], v4.d[0]
	str	q6, [sp, #1392]
	str	q6, [sp, #1408]
	str	q6, [sp, #1424]
	str	q6, [sp, #1440]
	ld1	{ v2.h }[7], [x8]
	add	x8, x11, #64
	str	q6, [sp, #1104]
	csel	x11, x11, x8, eq
	sub	x8, x12, x10
	ldrb	w10, [sp, #2160]
	cmp	x11, #0
	lsr	x8, x8, #6
	str	q6, [sp, #1088]
	cset	w9, ne
	eor	v1.16b, v2.16b, v1.16b
	movi	v2.2d, #0000000000000000
	sub	x9, x11, x9
	str	w10, [sp, #400]
	ldrb	w10, [sp, #1808]
	neg	x9, x9, lsr #6
	str	q6, [sp, #1072]
	str	q6, [sp, #1056]
	str	x9, [sp, #224]
	neg	x9, x8
	mvn	x8, x8
	str	q6, [sp, #1040]
	str	q6, [sp, #3168]
	str	q6, [sp, #3184]
	str	q6, [sp, #3200]
	str	q6, [sp, #3216]
	str	q6, [sp, #3424]
	str	q2, [sp, #80]
	str	q6, [sp, #3440]
	str	q5, [sp, #3568]
	str	x12, [sp, #272]
	str	q1, [sp, #3488]
	str	q5, [sp, #3504]
	stp	q0, q0, [sp, #144]
	str	q0, [sp, #128]
	str	x11, [sp, #256]
	str	w10, [sp, #240]
	str	x9, [sp, #208]
	str	x8, [sp, #192]
	str	x21, [sp, #392]
	b	168f
167:
	ldr	q0, [sp, #3552]
	ldr	q1, [sp, #3568]
	add	x0, sp, #3744
	add	x1, sp, #1376
	mov	x2, x21
	mov	w3, w27
	mov	w4, w28
	str	q0, [sp, #3744]
	str	q1, [sp, #3760]
	vj_call	blake2_compress..compress..blake2s..compress_1_arm
	ldr	q0, [sp, #3760]
	ldr	q1, [sp, #3744]
	add	x0, sp, #3744
	ldr	q2, [sp, #3488]
	ldr	x2, [sp, #1104]
	add	x1, sp, #1040
	str	q0, [sp, #3440]
	ldrb	w4, [sp, #1113]
	ldrb	w3, [sp, #1112]
	str	q0, [sp, #3568]
	ldr	q0, [sp, #3504]
	str	q1, [sp, #3424]
	str	q1, [sp, #3552]
	str	q2, [sp, #3744]
	str	q0, [sp, #3760]
	vj_call	blake2_compress..compress..blake2s..compress_1_arm
	ldr	x8, [sp, #192]
	ldr	q0, [sp, #3760]
	sub	x23, x23, #1
	ldr	q1, [sp, #3744]
	ldr	x21, [sp, #392]
	add	x24, sp, #1, lsl #12
	add	x20, x20, #1
	cmp	x8, x23
	add	x22, x22, #64
	sub	x25, x26, #64
	add	x24, x24, #368
	str	q0, [sp, #3440]
	str	q1, [sp, #3424]
	str	q1, [sp, #3488]
	str	q0, [sp, #3504]
	b.eq	177f
168:
	ldr	w8, [sp, #336]
	cbz	w8, 169f
	cbz	x23, 170f
	movi	v0.2d, #0000000000000000
	add	x9, x25, #64
	add	x8, x21, x22
	mov	w10, #64
	cmp	x9, #64
	sub	x1, x8, #64
	csel	x2, x9, x10, lo
	add	x0, sp, #3744
	mov	x26, x25
	str	q0, [sp, #3792]
	str	q0, [sp, #3776]
	str	q0, [sp, #3760]
	str	q0, [sp, #3744]
	vj_c_call	memcpy
	mov	x19, x22
	b	171f
169:
	movi	v0.2d, #0000000000000000
	cmp	x25, #64
	mov	w8, #64
	csel	x2, x25, x8, lo
	add	x0, sp, #3744
	add	x1, x21, x22
	lsl	x19, x20, #6
	mov	x26, x25
	str	q0, [sp, #3792]
	str	q0, [sp, #3776]
	str	q0, [sp, #3760]
	str	q0, [sp, #3744]
	vj_c_call	memcpy
	b	171f
170:
	movi	v0.2d, #0000000000000000
	ldp	x1, x2, [sp, #48]
	add	x0, sp, #3744
	mov	x26, x25
	str	q0, [sp, #3792]
	str	q0, [sp, #3776]
	str	q0, [sp, #3760]
	str	q0, [sp, #3744]
	vj_c_call	memcpy
	mov	x19, xzr
171:
	ldr	x8, [sp, #208]
	add	x24, x19, #64
	ldr	q0, [sp, #3744]
	ldr	q1, [sp, #3760]
	ldr	q2, [sp, #3776]
	ldr	q3, [sp, #3792]
	cmp	x8, x23
	ldr	x8, [sp, #272]
	str	q0, [sp, #3168]
	cset	w27, eq
	str	q1, [sp, #3184]
	csel	x21, x8, x24, eq
	ldr	w8, [sp, #400]
	str	q2, [sp, #3200]
	str	q3, [sp, #3216]
	and	w28, w27, w8
	add	x8, sp, #1376
	str	q0, [sp, #1376]
	stur	wzr, [x8, #74]
	sturh	wzr, [x8, #78]
	ldr	w8, [sp, #280]
	str	q1, [sp, #1392]
	str	q2, [sp, #1408]
	str	q3, [sp, #1424]
	str	x21, [sp, #1440]
	strb	w27, [sp, #1448]
	strb	w28, [sp, #1449]
	cbz	w8, 172f
	movi	v0.2d, #0000000000000000
	cbz	x23, 173f
	ldr	x9, [sp, #176]
	sub	x8, x19, #64
	mov	w10, #64
	add	x0, sp, #3744
	str	q0, [sp, #3792]
	sub	x9, x9, x8
	str	q0, [sp, #3776]
	cmp	x9, #64
	str	q0, [sp, #3760]
	csel	x2, x9, x10, lo
	ldr	x9, [sp, #368]
	str	q0, [sp, #3744]
	add	x1, x9, x8
	b	175f
172:
	ldr	x8, [sp, #176]
	movi	v0.2d, #0000000000000000
	mov	w9, #64
	add	x0, sp, #3744
	sub	x8, x8, x19
	cmp	x8, #64
	csel	x2, x8, x9, lo
	ldr	x8, [sp, #368]
	str	q0, [sp, #3792]
	str	q0, [sp, #3776]
	str	q0, [sp, #3760]
	add	x1, x8, x19
	b	174f
173:
	ldp	x1, x2, [sp, #32]
	add	x0, sp, #3744
	str	q0, [sp, #3792]
	str	q0, [sp, #3776]
	str	q0, [sp, #3760]
174:
	str	q0, [sp, #3744]
175:
	vj_c_call	memcpy
	ldr	x8, [sp, #224]
	ldr	q0, [sp, #3744]
	add	x0, sp, #3552
	ldr	q1, [sp, #3760]
	ldr	q2, [sp, #3776]
	add	x1, sp, #1376
	cmp	x8, x23
	ldr	x8, [sp, #256]
	ldr	q3, [sp, #3792]
	cset	w19, eq
	add	x2, sp, #3488
	add	x3, sp, #1040
	csel	x25, x8, x24, eq
	ldr	w8, [sp, #240]
	str	q0, [sp, #3168]
	str	q1, [sp, #3184]
	and	w24, w19, w8
	add	x8, sp, #1040
	str	q2, [sp, #3200]
	str	q3, [sp, #3216]
	str	q0, [sp, #1040]
	str	q1, [sp, #1056]
	str	q2, [sp, #1072]
	str	q3, [sp, #1088]
	str	x25, [sp, #1104]
	strb	w19, [sp, #1112]
	strb	w24, [sp, #1113]
	stur	wzr, [x8, #74]
	sturh	wzr, [x8, #78]
	bl	blake2_transcript..collision..blake2s..same_step_1_a64
	tbnz	w0, #0, 167b
	ldr	q0, [sp, #1376]
	ldr	q1, [sp, #1392]
	mov	w8, #1
	ldr	q2, [sp, #1424]
	str	w8, [sp, #76]
	ldr	w8, [sp, #400]
	str	q0, [sp, #3616]
	ldr	q0, [sp, #1408]
	str	q1, [sp, #3632]
	and	w8, w27, w8
	ldr	q1, [sp, #3200]
	str	q0, [sp, #3648]
	ldr	q0, [sp, #3216]
	str	q1, [sp, #3328]
	ldr	q1, [sp, #3552]
	str	q0, [sp, #3344]
	ldr	q0, [sp, #3168]
	str	q1, [sp, #80]
	ldr	q1, [sp, #3568]
	str	q0, [sp, #3296]
	ldr	q0, [sp, #3488]
	str	q2, [sp, #3664]
	ldr	q2, [sp, #3184]
	stp	q1, q0, [sp, #144]
	ldr	q0, [sp, #3504]
	str	wzr, [sp, #4456]
	strh	wzr, [sp, #4460]
	stp	x21, x25, [sp, #112]
	stp	w8, w27, [sp, #96]
	str	q2, [sp, #3312]
	str	q0, [sp, #128]
	str	wzr, [sp, #4448]
	stp	w24, w19, [sp, #104]
	strh	wzr, [sp, #4452]
	b	167b
176:
	ldr	q0, [sp, #4000]
	ldr	q1, [sp, #4016]
	mov	w8, #1
	ldr	q2, [sp, #4048]
	ldr	q3, [sp, #4416]
	ldr	x12, [sp, #4064]
	str	q0, [sp, #2544]
	ldr	q0, [sp, #4032]
	ldrb	w16, [sp, #4072]
	str	q1, [sp, #2560]
	ldr	q1, [sp, #4432]
	ldrb	w17, [sp, #4073]
	str	q0, [sp, #2576]
	ldr	q0, [sp, #3872]
	ldr	x11, [sp, #3936]
	str	q1, [sp, #144]
	ldr	q1, [sp, #3888]
	ldrb	w14, [sp, #3944]
	str	q0, [sp, #2432]
	ldr	q0, [sp, #3904]
	ldrb	w15, [sp, #3945]
	str	q1, [sp, #2448]
	ldr	q1, [sp, #3920]
	str	q0, [sp, #2464]
	ldr	q0, [sp, #4384]
	str	q2, [sp, #2592]
	str	q0, [sp, #160]
	ldr	q0, [sp, #4400]
	strh	wzr, [sp, #4348]
	str	wzr, [sp, #4344]
	str	q0, [sp, #128]
	str	q1, [sp, #2480]
	str	wzr, [sp, #4336]
	strh	wzr, [sp, #4340]
	b	180f
177:
	ldr	q0, [sp, #3616]
	ldr	q2, [sp, #3664]
	add	x20, sp, #672
	ldr	q1, [sp, #3632]
	ldr	w8, [sp, #4456]
	ldrh	w9, [sp, #4460]
	str	q0, [sp, #2784]
	ldr	q0, [sp, #3648]
	ldr	w10, [sp, #76]
	str	q2, [sp, #2832]
	ldr	q2, [sp, #3312]
	ldr	x22, [sp, #424]
	cmp	w10, #0
	str	q0, [sp, #2816]
	ldr	q0, [sp, #3344]
	str	q1, [sp, #2800]
	ldr	q1, [sp, #3328]
	ldr	x27, [sp, #368]
	str	q0, [sp, #2704]
	ldr	q0, [sp, #3296]
	ldr	q3, [sp, #80]
	str	w8, [sp, #4360]
	ldr	w8, [sp, #4448]
	str	q0, [sp, #2656]
	ldr	q0, [sp, #2832]
	strh	w9, [sp, #4364]
	ldrh	w9, [sp, #4452]
	str	q0, [sp, #2592]
	ldr	q0, [sp, #2800]
	str	w8, [sp, #4352]
	ldrh	w8, [sp, #4364]
	str	q1, [sp, #2688]
	ldr	q1, [sp, #2816]
	str	q2, [sp, #2672]
	ldr	q2, [sp, #2784]
	strh	w9, [sp, #4356]
	ldr	w9, [sp, #4360]
	str	q0, [sp, #2560]
	ldr	q0, [sp, #2704]
	strh	w8, [sp, #4348]
	ldrh	w8, [sp, #4356]
	str	q1, [sp, #2576]
	ldr	q1, [sp, #2688]
	str	q2, [sp, #2544]
	ldr	q2, [sp, #2656]
	str	w9, [sp, #4344]
	ldr	w9, [sp, #4352]
	str	q0, [sp, #2480]
	ldr	q0, [sp, #2672]
	strh	w8, [sp, #4340]
	cset	w8, ne
	str	q1, [sp, #2464]
	ldp	x12, x11, [sp, #112]
	str	q0, [sp, #2448]
	str	q2, [sp, #2432]
	str	w9, [sp, #4336]
	ldp	w15, w14, [sp, #104]
	ldp	w17, w16, [sp, #96]
	b	180f
178:
	cmp	x8, x1
	b.hs	166b
179:
	ldr	q0, [sp, #3040]
	ldr	q1, [sp, #3056]
	mov	w8, wzr
	ldr	w9, [sp, #4376]
	ldr	q2, [sp, #3072]
	mov	x12, xzr
	str	q0, [sp, #2544]
	ldr	q0, [sp, #3088]
	mov	w16, wzr
	str	q1, [sp, #2560]
	ldr	q1, [sp, #2944]
	mov	w17, wzr
	str	q0, [sp, #2592]
	ldr	q0, [sp, #2960]
	mov	x11, xzr
	str	w9, [sp, #4344]
	ldrh	w9, [sp, #4380]
	mov	w14, wzr
	str	q0, [sp, #2480]
	ldr	q0, [sp, #2912]
	mov	w15, wzr
	str	q1, [sp, #2464]
	movi	v1.2d, #0000000000000000
	ldrh	w10, [sp, #4372]
	str	q0, [sp, #2432]
	movi	v0.2d, #0000000000000000
	movi	v3.2d, #0000000000000000
	str	q2, [sp, #2576]
	ldr	q2, [sp, #2928]
	strh	w9, [sp, #4348]
	ldr	w9, [sp, #4368]
	str	q2, [sp, #2448]
	stp	q1, q0, [sp, #144]
	str	q0, [sp, #128]
	strh	w10, [sp, #4340]
	str	w9, [sp, #4336]
180:
	ldr	q0, [sp, #2592]
	ldr	q1, [sp, #2576]
	ldr	q2, [sp, #2544]
	ldrh	w9, [sp, #4348]
	ldr	w10, [sp, #4344]
	str	q0, [sp, #4320]
	ldr	q0, [sp, #2560]
	str	q1, [sp, #4304]
	ldr	q1, [sp, #2464]
	str	q0, [sp, #4288]
	ldr	q0, [sp, #2480]
	str	q2, [sp, #4272]
	ldr	q2, [sp, #2432]
	strh	w9, [sp, #4268]
	ldrh	w9, [sp, #4340]
	str	w10, [sp, #4264]
	ldr	w10, [sp, #4336]
	str	q0, [sp, #4240]
	ldr	q0, [sp, #2448]
	str	q1, [sp, #4224]
	str	q0, [sp, #4208]
	str	q2, [sp, #4192]
	strh	w9, [sp, #4188]
	str	w10, [sp, #4184]
	tbz	w8, #0, 181f
	ldr	q1, [sp, #144]
	ldr	q0, [sp, #4272]
	add	x0, sp, #1, lsl #12
	ldr	q2, [sp, #4304]
	ldr	w8, [sp, #4264]
	add	x1, sp, #1, lsl #12
	str	q1, [sp, #4480]
	ldr	q1, [sp, #4288]
	add	x0, x0, #40
	str	q0, [sp, #4496]
	ldr	q0, [sp, #4320]
	add	x1, x1, #368
	str	q1, [sp, #4512]
	ldr	q1, [sp, #160]
	mov	x2, x22
	str	q0, [sp, #4544]
	ldrh	w9, [sp, #4268]
	ldr	q0, [sp, #4192]
	str	q1, [sp, #672]
	ldr	q1, [sp, #128]
	str	q2, [sp, #4528]
	ldr	q2, [sp, #4224]
	stur	w8, [x24, #106]
	ldr	w8, [sp, #4184]
	strh	w9, [sp, #4574]
	ldrh	w9, [sp, #4188]
	stp	q1, q0, [sp, #688]
	ldr	q1, [sp, #4208]
	ldr	q0, [sp, #4240]
	str	q3, [sp, #4464]
	str	x12, [sp, #4560]
	strb	w16, [x24, #104]
	strb	w17, [x24, #105]
	stp	q1, q2, [sp, #720]
	str	q0, [sp, #752]
	str	x11, [sp, #768]
	strb	w14, [sp, #776]
	strb	w15, [sp, #777]
	stur	w8, [x20, #106]
	strh	w9, [sp, #782]
	bl	b2_commands..witness..print_blake2s..c1844c1740294036_1_a64
	add	x8, sp, #41
	ldrb	w8, [x8, #4095]
	cbz	w8, 183f
	ldr	x1, [sp, #4152]
	add	x8, sp, #49
	b	256f
181:
	mov	x23, x21
	mov	x21, xzr
182:
	mov	w8, #5
	vj_page	x9, .L1_a64_static.45
	vj_address	x9, x9, .L1_a64_static.45
	sub	x20, x8, x21
	add	x1, x9, x21
	mov	w0, #1
	mov	x2, x20
	mov	w19, #1
	vj_system_call	write, b2_write
	tbnz	x0, #63, 184f
	cmp	x0, x20
	csel	x8, x0, x20, lo
	cbz	x8, 185f
	add	x21, x8, x21
	cmp	x21, #4
	b.ls	182b
	mov	w19, wzr
	b	186f
183:
	add	x0, sp, #1, lsl #12
	add	x1, sp, #672
	mov	x2, x22
	add	x0, x0, #64
	bl	b2_commands..witness..print_blake2s..c1844c1740294036_1_a64
	add	x8, sp, #65
	ldr	x1, [sp, #4176]
	ldr	x9, [sp, #328]
	ldrb	w19, [x8, #4095]
	add	x8, sp, #73
	ldrb	w0, [x8, #4095]
	b	264f
184:
	add	x0, sp, #1, lsl #12
	add	x0, x0, #832
	bl	std_io..io..error..last_error_1_a64
185:
	strb	w19, [x22]
186:
	ldr	x9, [sp, #328]
	cmp	w19, #0
	mov	w8, #9
	b	263f
187:
	vj_page	x8, .L1_a64_switch.table.b2_commands..digests..start_1_a64
	vj_address	x8, x8, .L1_a64_switch.table.b2_commands..digests..start_1_a64
	ldr	x28, [x8, w20, uxtw #3]
188:
	add	x0, sp, #1040
	add	x1, x21, #24
	mov	w2, #336
	vj_c_call	memcpy
	movi	v0.2d, #0000000000000000
	ldr	x1, [sp, #400]
	add	x0, sp, #3616
	str	xzr, [sp, #2800]
	str	xzr, [sp, #2784]
	str	xzr, [sp, #2792]
	str	q0, [sp, #3616]
	str	q0, [sp, #3632]
	str	xzr, [sp, #2672]
	str	xzr, [sp, #2656]
	str	xzr, [sp, #2664]
	bl	b2_commands..input..read_all..d6f7c226d1d4af0a_1_a64
	ldrb	w8, [sp, #3616]
	ldr	x25, [sp, #3624]
	ldr	x24, [sp, #3632]
	cbz	w8, 189f
	add	x19, sp, #1, lsl #12
	add	x1, x21, #24
	mov	w2, #336
	add	x19, x19, #832
	str	x23, [sp, #4928]
	add	x0, x19, #16
	add	x20, x19, #8
	vj_c_call	memcpy
	movi	v0.2d, #0000000000000000
	cbz	w23, 242f
	add	x0, x19, #88
	stp	q0, q0, [x20, #16]
	stp	q0, q0, [x20, #48]
	stp	q0, q0, [x20, #80]
	stp	q0, q0, [x20, #112]
	stp	q0, q0, [x20, #144]
	str	q0, [x20]
	bl	blake2_digest..wiping..settle..64_1_a64
	add	x0, x19, #152
	bl	blake2_digest..wiping..settle..32_1_a64
	b	243f
189:
	ldr	x8, [sp, #3640]
	str	xzr, [sp, #13136]
	str	xzr, [sp, #13128]
	str	x8, [sp, #392]
	add	x8, sp, #4, lsl #12
	add	x8, x8, #856
	str	x25, [sp, #368]
	str	x8, [sp, #13120]
	cbz	x24, 293f
	lsr	x15, x8, #8
	add	x16, sp, #4, lsl #12
	str	x24, [sp, #400]
	mov	x24, xzr
	mov	x22, xzr
	add	x16, x16, #856
190:
	ldr	x10, [sp, #400]
	mov	x9, xzr
	mov	x8, x25
	mov	x26, x24
191:
	ldrb	w11, [x8, x9]
	cmp	w11, #10
	b.eq	192f
	add	x9, x9, #1
	cmp	x10, x9
	b.ne	191b
	str	xzr, [sp, #400]
	vj_page	x25, .L1_a64_static.0
	vj_address	x25, x25, .L1_a64_static.0
	b	193f
192:
	mvn	x12, x9
	add	x11, x8, x9
	add	x10, x12, x10
	add	x25, x11, #1
	str	x10, [sp, #400]
	mov	x10, x9
193:
	add	x24, x26, #1
	cbz	x10, 269f
	mov	x11, xzr
	mov	w9, #1
	mov	x12, x10
194:
	ldrb	w13, [x8, x11]
	cmp	w13, #32
	b.eq	195f
	add	x11, x11, #1
	sub	x12, x12, #1
	add	x9, x9, #1
	cmp	x10, x11
	b.ne	194b
	b	269f
195:
	cmp	x11, #1
	add	x13, x8, x11
	b.ne	197f
	ldrb	w14, [x8]
	cmp	w14, #117
	b.ne	197f
	add	x17, sp, #4, lsl #12
	sub	x10, x10, #1
	str	x22, [sp, #288]
	add	x17, x17, #856
	cmp	x10, x11
	str	x15, [sp, #352]
	b.eq	269f
	add	x15, x8, x11
	mov	x20, x16
	mov	x10, xzr
	sub	x14, x12, #1
	add	x15, x15, #2
196:
	add	x16, x15, x10
	ldurb	w16, [x16, #-1]
	cmp	w16, #32
	b.eq	201f
	add	x10, x10, #1
	cmp	x14, x10
	b.ne	196b
	b	269f
197:
	sub	x12, x10, x11
	sub	x12, x12, #2
	cmp	x12, #8
	b.hi	269f
	mvn	x12, x11
	add	x12, x12, x10
	cmp	x12, #2
	b.lo	198f
	ldrb	w12, [x13, #1]
	cmp	w12, #48
	b.eq	269f
198:
	mov	x21, xzr
199:
	ldrb	w12, [x8, x9]
	sub	w12, w12, #48
	cmp	w12, #9
	b.hi	269f
	mov	w13, #10
	add	x9, x9, #1
	mul	x13, x21, x13
	cmp	x10, x9
	add	x21, x13, w12, uxtb
	b.ne	199b
	cmp	x11, #1
	str	x15, [sp, #352]
	b.ne	269f
	ldrb	w8, [x8]
	mov	x9, x22
	mov	w20, #3
	cmp	w8, #101
	b.gt	200f
	cmp	w8, #99
	b.eq	204f
	cmp	w8, #100
	b.ne	270f
	mov	w10, #1
	mov	x8, xzr
	stp	xzr, xzr, [sp, #328]
	mov	x22, xzr
	str	x10, [sp, #304]
	mov	w11, #4
	b	206f
200:
	cmp	w8, #102
	b.eq	205f
	cmp	w8, #114
	b.ne	270f
	mov	w10, #1
	mov	x8, xzr
	stp	xzr, xzr, [sp, #328]
	mov	x22, xzr
	str	x10, [sp, #304]
	mov	w11, #2
	b	206f
201:
	sub	x14, x10, #1
	cmp	x14, #8
	b.hi	269f
	cmp	x10, #2
	b.lo	202f
	ldrb	w13, [x13, #1]
	cmp	w13, #48
	b.eq	269f
202:
	add	x11, x8, x11
	sub	x12, x12, x10
	mov	x21, xzr
	add	x11, x11, #2
	sub	x2, x12, #2
	mov	x12, x10
203:
	ldrb	w13, [x8, x9]
	sub	w13, w13, #48
	cmp	w13, #9
	b.hi	269f
	mov	w14, #10
	subs	x12, x12, #1
	add	x8, x8, #1
	mul	x14, x21, x14
	add	x21, x14, w13, uxtb
	b.ne	203b
	movi	v0.2d, #0000000000000000
	cmp	x2, #1
	str	q0, [sp, #4944]
	str	q0, [sp, #4928]
	b.eq	208f
	cbnz	x2, 209f
	b	269f
204:
	mov	w10, #1
	mov	x8, xzr
	stp	xzr, xzr, [sp, #328]
	mov	x22, xzr
	str	x10, [sp, #304]
	mov	w11, #1
	b	206f
205:
	mov	x8, xzr
	mov	x22, xzr
	mov	w10, #1
	mov	w11, #3
	stp	xzr, xzr, [sp, #328]
	str	x10, [sp, #304]
206:
	mov	x10, x9
	ldr	x9, [sp, #13136]
	and	x10, x10, #0xff
	orr	x8, x8, x22
	orr	x20, x8, x10
	cmp	x9, x26
	b.eq	211f
207:
	mov	w8, #40
	ldr	x9, [sp, #328]
	ldr	x15, [sp, #352]
	madd	x8, x26, x8, x16
	stp	x20, x9, [x8, #16]
	ldr	x9, [sp, #336]
	stp	x11, x21, [x8]
	str	x9, [x8, #32]
	ldr	x8, [sp, #400]
	str	x24, [sp, #13128]
	cbnz	x8, 190b
	b	505f
208:
	ldrb	w8, [x11, x10]
	cmp	w8, #45
	b.ne	209f
	ldr	x9, [sp, #352]
	mov	w8, w17
	stp	xzr, xzr, [sp, #328]
	b	210f
209:
	add	x0, sp, #1, lsl #12
	add	x1, x11, x10
	add	x0, x0, #832
	bl	b2_commands..arguments..bytes_of_1_a64
	ldrb	w9, [x19]
	ldrb	w8, [x19, #8]
	cbnz	w9, 514f
	ldrb	w9, [x19, #15]
	ldurh	w10, [x19, #13]
	orr	w9, w10, w9, lsl #16
	ldur	w10, [x19, #9]
	orr	x9, x10, x9, lsl #32
	ldr	x10, [sp, #4944]
	str	x10, [sp, #328]
	ldr	x10, [sp, #4952]
	str	x10, [sp, #336]
210:
	ldr	x10, [sp, #288]
	str	xzr, [sp, #304]
	mov	x11, xzr
	lsl	x22, x9, #8
	and	x8, x8, #0xff
	mov	x16, x20
	ldr	x9, [sp, #13136]
	and	x10, x10, #0xff
	orr	x8, x8, x22
	orr	x20, x8, x10
	cmp	x9, x26
	b.ne	207b
211:
	add	x0, sp, #3, lsl #12
	str	x11, [sp, #288]
	add	x0, x0, #832
	bl	std_alloc..vec..Vec..grow_amortized..791ee7faf1d0b0c8_1_a64
	cbz	w0, 520f
	ldr	x26, [sp, #13128]
	ldr	x16, [sp, #13120]
	ldr	x11, [sp, #288]
	add	x24, x26, #1
	b	207b
212:
	ldr	x13, [sp, #272]
	ldr	x14, [sp, #256]
	cbz	w26, 535f
	mov	w10, w26
	udiv	x9, x20, x10
	msub	x9, x9, x10, x20
	cmp	x9, #0
	cset	w9, eq
213:
	lsr	x10, x20, #58
	mov	w0, #2
	cbnz	x10, 215f
	and	w8, w8, w9
	cbz	w8, 215f
	cbz	w26, 535f
	mov	x8, #288230376151711743
	mov	w27, w26
	sub	x8, x8, x20
	udiv	x8, x8, x27
	cmp	x8, x11
	b.lo	215f
	and	w8, w12, #0xff
	add	x0, sp, #3, lsl #12
	str	x15, [sp, #160]
	cmp	w8, #1
	vj_page	x8, .L1_a64_static.0
	vj_address	x8, x8, .L1_a64_static.0
	csel	x21, x21, xzr, eq
	csel	x1, x13, x8, eq
	cmp	w3, #1
	add	x0, x0, #832
	mov	x2, x21
	str	x25, [sp, #176]
	str	xzr, [sp, #13128]
	csel	x25, x14, x8, eq
	csel	x22, x22, xzr, eq
	str	xzr, [sp, #13120]
	vj_c_call	memcpy
	add	x0, sp, #1, lsl #12
	mov	x1, x25
	mov	x2, x22
	add	x0, x0, #832
	str	xzr, [sp, #4936]
	str	xzr, [sp, #4928]
	vj_c_call	memcpy
	udiv	x8, x20, x27
	ldr	q0, [sp, #13120]
	ldr	q1, [sp, #4928]
	str	x21, [sp, #1392]
	str	q0, [sp, #1376]
	movi	v0.2d, #0000000000000000
	stur	q1, [x24, #24]
	str	x22, [sp, #1416]
	str	w26, [sp, #1424]
	str	wzr, [sp, #1428]
	str	q0, [sp, #4928]
	str	q0, [sp, #4944]
	str	q0, [sp, #4960]
	str	q0, [sp, #4976]
	str	q0, [sp, #4992]
	str	q0, [sp, #5008]
	str	q0, [sp, #5024]
	str	q0, [sp, #5040]
	str	q0, [sp, #5056]
	msub	x9, x8, x27, x20
	str	q0, [sp, #5072]
	str	q0, [sp, #5088]
	str	q0, [sp, #5104]
	str	q0, [sp, #5120]
	str	q0, [sp, #5136]
	cmp	x9, #0
	str	q0, [sp, #5152]
	cinc	x8, x8, ne
	str	q0, [sp, #5168]
	cmp	x8, #1
	str	q0, [sp, #5184]
	csinc	x8, x8, xzr, hi
	str	q0, [sp, #5200]
	lsl	x27, x8, #6
	str	q0, [sp, #5216]
	str	q0, [sp, #5232]
	str	q0, [sp, #5248]
	str	q0, [sp, #5264]
	str	q0, [sp, #5280]
	str	q0, [sp, #5296]
	str	q0, [sp, #5312]
	str	q0, [sp, #5328]
	str	q0, [sp, #5344]
	str	q0, [sp, #5360]
	str	q0, [sp, #5376]
	str	q0, [sp, #5392]
	str	q0, [sp, #5408]
	str	q0, [sp, #5424]
	str	q0, [sp, #1776]
	str	q0, [sp, #1760]
	str	q0, [sp, #1744]
	str	q0, [sp, #1728]
	cbz	x27, 324f
	ldr	x25, [sp, #176]
	tbnz	x27, #63, 214f
	mov	x0, x27
	mov	w1, #1
	vj_call	rattle_alloc
	tbnz	w0, #0, 325f
214:
	ldr	x15, [sp, #160]
	mov	w0, #8
215:
	cbz	x15, 216f
	mov	w19, w0
	mov	x0, x25
	vj_call	rattle_dealloc
	mov	w0, w19
216:
	mov	x20, xzr
	mov	x2, x23
	b	73b
217:
	vj_page	x8, .L1_a64_switch.table.b2_commands..digests..start_1_a64
	vj_address	x8, x8, .L1_a64_switch.table.b2_commands..digests..start_1_a64
	ldr	x20, [x8, w20, uxtw #3]
218:
	movi	v0.2d, #0000000000000000
	add	x21, sp, #2080
	add	x1, x22, #24
	add	x0, x21, #16
	mov	w2, #336
	str	x23, [sp, #2080]
	str	x27, [sp, #2088]
	str	q0, [sp, #1424]
	str	q0, [sp, #1408]
	str	q0, [sp, #1392]
	str	q0, [sp, #1376]
	vj_c_call	memcpy
	add	x0, sp, #1, lsl #12
	mov	w1, wzr
	mov	w2, #4096
	add	x0, x0, #832
	vj_c_call	memset
	cbz	w23, 219f
	ldr	x8, [sp, #2152]
	ldrh	w9, [sp, #2160]
	b	220f
219:
	ldr	x8, [sp, #2216]
	ldr	w9, [sp, #2224]
220:
	add	x1, sp, #1, lsl #12
	mov	w0, wzr
	mov	w2, #4096
	add	x1, x1, #832
	add	x22, x8, x9
	vj_system_call	read, b2_read
	tbnz	x0, #63, 229f
	add	x8, sp, #2080
	mvn	x22, x22
	add	x23, x8, #88
	add	x25, x8, #160
	b	223f
221:
	add	x1, sp, #1, lsl #12
	add	x0, x21, #8
	add	x1, x1, #832
	bl	blake2_state..blake2b..State..absorb_blocks_1_a64
222:
	add	x1, sp, #1, lsl #12
	mov	w0, wzr
	mov	w2, #4096
	add	x1, x1, #832
	vj_system_call	read, b2_read
	tbnz	x0, #63, 229f
223:
	cmp	x0, #1, lsl #12
	mov	w8, #4096
	csel	x2, x0, x8, lo
	cbz	x0, 274f
	subs	x22, x22, x2
	b.lo	275f
	ldrb	w8, [sp, #2080]
	cbz	w8, 224f
	cmp	x0, #1
	b.ne	225f
	ldrh	w8, [sp, #2160]
	cmp	w8, #64
	b.hs	226f
	ldrb	w9, [x19]
	add	w10, w8, #1
	strb	w9, [x23, w8, uxtw]
	strh	w10, [sp, #2160]
	b	222b
224:
	cmp	x0, #1
	b.ne	221b
	ldr	w8, [sp, #2224]
	cmp	w8, #128
	b.hs	228f
	ldrb	w9, [x19]
	add	w10, w8, #1
	strb	w9, [x25, x8]
	str	w10, [sp, #2224]
	b	222b
225:
	add	x1, sp, #1, lsl #12
	add	x0, x21, #8
	b	227f
226:
	add	x1, sp, #1, lsl #12
	add	x0, x21, #8
	mov	w2, #1
227:
	add	x1, x1, #832
	bl	blake2_state..blake2s..State..absorb_blocks_1_a64
	b	222b
228:
	add	x1, sp, #1, lsl #12
	add	x0, x21, #8
	mov	w2, #1
	add	x1, x1, #832
	bl	blake2_state..blake2b..State..absorb_blocks_1_a64
	b	222b
229:
	add	x0, sp, #3, lsl #12
	add	x0, x0, #832
	bl	std_io..io..error..last_error_1_a64
	ldr	x9, [sp, #400]
	mov	w8, #1
	mov	w20, #7
	strb	w8, [x9]
	b	276f
230:
	mov	x8, v1.d[1]
	str	x8, [sp, #304]
231:
	ldp	x1, x2, [x28, #72]
	add	x0, sp, #3872
	bl	b2_commands..arguments..message_of_1_a64
	add	x9, sp, #3872
	ldrb	w8, [sp, #3872]
	ldur	q1, [x9, #8]
	cbz	w8, 241f
	cbz	x22, 124b
	ldr	x0, [sp, #392]
	str	q1, [sp, #368]
	vj_call	rattle_dealloc
	ldr	q1, [sp, #368]
	b	124b
232:
	add	x0, sp, #1, lsl #12
	add	x1, sp, #3, lsl #12
	mov	w2, #464
	add	x0, x0, #368
	add	x1, x1, #832
	mov	x21, x24
	vj_c_call	memcpy
	ldr	x8, [sp, #392]
	add	x1, sp, #1, lsl #12
	ldr	x2, [sp, #224]
	add	x0, sp, #2912
	add	x1, x1, #368
	mov	x4, x23
	and	w3, w8, #0x1
	bl	b2_commands..outputs..blake2xb..print_next..c1844c1740294036_1_a64
	ldrb	w19, [sp, #2912]
	ldrb	w0, [sp, #2920]
	ldr	x1, [sp, #2928]
	b	235f
233:
	ldr	x8, [sp, #288]
	ldr	x10, [sp, #1752]
	and	w8, w8, #0xff
	cmp	w8, #1
	mov	x8, x24
	csel	x2, xzr, x25, ne
	cmp	w23, #1
	str	x24, [sp, #400]
	csel	x24, xzr, x21, ne
	cmn	x8, #64
	mov	w8, #32
	ccmp	x27, x8, #2, lo
	cset	w8, lo
	tst	w26, #0x1
	csel	x25, x28, xzr, ne
	csel	x21, x22, xzr, ne
	cmp	x2, #8
	b.hi	291f
	cmp	x24, #8
	b.hi	291f
	eor	w9, w26, #0x1
	orr	w8, w9, w8
	tbz	w8, #0, 291f
	ldr	x8, [sp, #288]
	str	x10, [sp, #392]
	cmp	w23, #1
	ldr	x10, [sp, #352]
	vj_page	x9, .L1_a64_static.0
	vj_address	x9, x9, .L1_a64_static.0
	and	w8, w8, #0xff
	mov	x28, x0
	add	x0, sp, #1, lsl #12
	csel	x27, x9, x10, ne
	cmp	w8, #1
	ldr	x8, [sp, #368]
	add	x0, x0, #832
	ubfiz	w23, w25, #8, #8
	str	xzr, [sp, #4936]
	csel	x1, x9, x8, ne
	mov	w8, #32
	cmp	w20, #0
	movk	w8, #257, lsl #16
	add	x20, sp, #1, lsl #12
	str	xzr, [sp, #4928]
	sub	w9, w8, #16
	add	x20, x20, #832
	csel	w8, w9, w8, eq
	str	w8, [sp, #368]
	vj_c_call	memcpy
	orr	x0, x20, #0x8
	mov	x1, x27
	mov	x2, x24
	vj_c_call	memcpy
	ldr	x9, [sp, #400]
	tst	w26, #0x1
	add	x8, x9, #64
	csel	x27, x8, x9, ne
	csel	w8, w23, wzr, ne
	mov	x9, #7378697629483820646
	cmp	x27, #0
	str	w8, [sp, #352]
	movk	x9, #26175
	cset	w8, ne
	sub	x8, x27, x8
	cmp	x8, x9
	b.hi	422f
	lsr	x23, x8, #6
	ldr	w9, [sp, #4936]
	ldr	w22, [sp, #4940]
	mov	w1, #8
	add	x24, x23, #1
	str	w9, [sp, #336]
	ldr	w9, [sp, #4932]
	add	x8, x24, x24, lsl #2
	str	w9, [sp, #328]
	ldr	w9, [sp, #4928]
	lsl	x0, x8, #4
	str	w9, [sp, #304]
	vj_call	rattle_alloc
	tbz	w0, #0, 422f
	movi	v0.2d, #0000000000000000
	mov	x20, x1
	str	w22, [sp, #288]
	str	x1, [sp, #2080]
	str	x24, [sp, #2096]
	tbz	w26, #0, 405f
	add	x0, sp, #1, lsl #12
	str	q0, [sp, #4976]
	mov	x1, x21
	str	q0, [sp, #4960]
	add	x0, x0, #832
	mov	x2, x25
	b	406f
234:
	mov	x21, x24
	mov	x1, xzr
	mov	w0, #6
	mov	w19, #1
235:
	ldr	w3, [sp, #280]
	mov	x12, x22
	mov	x16, x28
	mov	x17, x26
	mov	x2, x25
236:
	mov	w25, w3
	mov	x24, x2
	mov	x22, x17
	cbz	w19, 237f
	mov	x2, x23
	mov	x20, x16
	mov	x19, x12
	bl	b2_commands..fault..Fault..report..c1844c1740294036_1_a64
	mov	x16, x20
	mov	x12, x19
	b	238f
237:
	mov	w0, wzr
238:
	ldr	w8, [sp, #352]
	ldr	q0, [sp, #368]
	cmp	w8, #1
	b.ne	239f
	mov	x8, v0.d[1]
	cbz	x8, 239f
	mov	w19, w0
	mov	x0, x21
	mov	x20, x12
	mov	x21, x16
	vj_call	rattle_dealloc
	mov	x16, x21
	mov	x12, x20
	mov	w0, w19
239:
	and	w8, w12, #0xff
	ldr	q0, [sp, #336]
	cmp	w8, #1
	b.ne	240f
	mov	x8, v0.d[1]
	cbz	x8, 240f
	mov	w19, w0
	mov	x0, x22
	mov	x20, x16
	vj_call	rattle_dealloc
	mov	x16, x20
	mov	w0, w19
240:
	cmp	w25, #1
	b.ne	128b
	cbz	x16, 128b
	mov	x8, x24
	b	490f
241:
	ldr	x8, [sp, #3896]
	cmp	x20, #3
	b.ne	299f
	movi	v4.2d, #0000000000000000
	mov	x13, x22
	mov	x1, x21
	str	x21, [sp, #4952]
	ldr	x21, [sp, #392]
	ldr	x15, [sp, #304]
	lsr	x14, x22, #8
	lsr	x10, x8, #8
	str	x23, [sp, #424]
	mov	w20, wzr
	mov	w25, wzr
	mov	w23, wzr
	mov	x16, xzr
	mov	x22, xzr
	mov	x2, xzr
	mov	w3, wzr
	mov	x17, xzr
	mov	w0, #1
	add	x9, sp, #180
	mov	w12, w8
	str	x26, [sp, #4944]
	str	x21, [sp, #4960]
	str	x15, [sp, #4968]
	str	x13, [sp, #4976]
	str	wzr, [sp, #432]
	stur	wzr, [x9, #255]
	b	60b
242:
	add	x0, x19, #160
	str	xzr, [x20, #336]
	stp	q0, q0, [x20, #16]
	stp	q0, q0, [x20, #48]
	stp	q0, q0, [x20, #80]
	stp	q0, q0, [x20, #112]
	stp	q0, q0, [x20, #144]
	stp	q0, q0, [x20, #176]
	stp	q0, q0, [x20, #208]
	stp	q0, q0, [x20, #240]
	stp	q0, q0, [x20, #272]
	stp	q0, q0, [x20, #304]
	str	q0, [x20]
	bl	blake2_digest..wiping..settle..128_1_a64
	add	x0, x19, #288
	bl	blake2_digest..wiping..settle..64_1_a64
243:
	ldr	x2, [sp, #424]
	mov	w22, #1
	mov	w20, w25
	cbnz	w22, 486f
	b	323f
244:
	cmp	xzr, x15
	b.hs	249f
245:
	add	x0, sp, #1, lsl #12
	mov	x19, x1
	add	x1, sp, #2544
	add	x0, x0, #832
	mov	x2, x19
	str	x15, [sp, #304]
	bl	blake2_transcript..collision..blake2b..last_step_1_a64
	ldr	q0, [sp, #4928]
	ldr	q1, [sp, #4944]
	add	x0, sp, #3, lsl #12
	ldr	q2, [sp, #4976]
	add	x0, x0, #832
	add	x1, sp, #2432
	str	q0, [sp, #3488]
	ldr	q0, [sp, #4960]
	mov	x2, x19
	str	q1, [sp, #3504]
	ldr	q1, [sp, #5088]
	str	q0, [sp, #3520]
	ldr	q0, [sp, #5104]
	str	q2, [sp, #3536]
	ldr	q2, [sp, #5120]
	str	q0, [sp, #1488]
	ldr	q0, [sp, #5024]
	str	q1, [sp, #1472]
	ldr	q1, [sp, #5040]
	str	q0, [sp, #1408]
	ldr	q0, [sp, #5056]
	str	q2, [sp, #1504]
	ldr	q2, [sp, #5072]
	str	q1, [sp, #1424]
	ldr	q1, [sp, #5008]
	str	q0, [sp, #1440]
	ldr	q0, [sp, #4992]
	str	q2, [sp, #1456]
	str	q1, [sp, #1392]
	str	q0, [sp, #1376]
	bl	blake2_transcript..collision..blake2b..last_step_1_a64
	ldr	q0, [sp, #13120]
	ldr	q1, [sp, #13136]
	add	x1, sp, #1, lsl #12
	ldr	q2, [sp, #13168]
	add	x0, sp, #4000
	add	x1, x1, #832
	str	q0, [sp, #3424]
	ldr	q0, [sp, #13152]
	add	x2, sp, #1376
	str	q1, [sp, #3440]
	ldr	q1, [sp, #13280]
	str	q0, [sp, #3456]
	ldr	q0, [sp, #13296]
	str	q2, [sp, #3472]
	ldr	q2, [sp, #13312]
	str	q0, [sp, #1152]
	ldr	q0, [sp, #13216]
	str	q1, [sp, #1136]
	ldr	q1, [sp, #13232]
	str	q0, [sp, #1072]
	ldr	q0, [sp, #13248]
	str	q2, [sp, #1168]
	ldr	q2, [sp, #13264]
	str	q1, [sp, #1088]
	ldr	q1, [sp, #13200]
	str	q0, [sp, #1104]
	ldr	q0, [sp, #13184]
	str	q2, [sp, #1120]
	str	q1, [sp, #1056]
	str	q0, [sp, #1040]
	bl	blake2_transcript..collision..blake2b..bytes_after_1_a64
	ldr	q0, [sp, #4000]
	ldr	q1, [sp, #4016]
	add	x1, sp, #3, lsl #12
	ldr	q2, [sp, #4048]
	add	x0, sp, #4000
	add	x1, x1, #832
	str	q0, [sp, #2080]
	ldr	q0, [sp, #4032]
	add	x2, sp, #1040
	str	q1, [sp, #2096]
	str	q0, [sp, #2112]
	str	q2, [sp, #2128]
	bl	blake2_transcript..collision..blake2b..bytes_after_1_a64
	ldr	q0, [sp, #4000]
	ldr	q1, [sp, #4016]
	mov	x1, x19
	ldr	q2, [sp, #4048]
	cmp	x19, #4
	str	q0, [sp, #1728]
	ldr	q0, [sp, #4032]
	str	q1, [sp, #1744]
	str	q0, [sp, #1760]
	str	q2, [sp, #1776]
	b.hs	247f
	cbz	x1, 250f
	mov	x8, xzr
246:
	add	x9, sp, #2080
	add	x10, sp, #1728
	ldrb	w9, [x9, x8]
	ldrb	w10, [x10, x8]
	cmp	w9, w10
	b.ne	248f
	add	x8, x8, #1
	cmp	x1, x8
	b.ne	246b
	b	250f
247:
	ldr	w8, [sp, #2080]
	ldr	w9, [sp, #1728]
	cmp	w8, w9
	b.ne	249f
	add	x0, sp, #2080
	add	x2, sp, #1728
	bl	core..cmp..slices..groups_equal..i8.31.core..cmp..numbers..U8PartialEq_1_a64
	tbz	w0, #0, 249f
	b	250f
248:
	cmp	x8, x1
	b.hs	250f
249:
	movi	v3.2d, #0000000000000000
	mov	w10, wzr
	mov	x14, xzr
	mov	w15, wzr
	mov	w9, wzr
	mov	x12, xzr
	mov	w13, wzr
	mov	w8, wzr
	str	wzr, [sp, #4376]
	strh	wzr, [sp, #4380]
	movi	v4.2d, #0000000000000000
	movi	v5.2d, #0000000000000000
	str	q3, [sp, #3152]
	movi	v6.2d, #0000000000000000
	movi	v7.2d, #0000000000000000
	str	q3, [sp, #3136]
	movi	v16.2d, #0000000000000000
	movi	v17.2d, #0000000000000000
	str	q3, [sp, #3120]
	movi	v18.2d, #0000000000000000
	str	q3, [sp, #3104]
	str	q3, [sp, #3088]
	str	q3, [sp, #3072]
	str	q3, [sp, #3056]
	str	q3, [sp, #3040]
	str	q3, [sp, #2912]
	str	q3, [sp, #2928]
	str	q3, [sp, #2944]
	str	q3, [sp, #2960]
	str	q3, [sp, #2976]
	str	q3, [sp, #2992]
	str	q3, [sp, #3008]
	str	q3, [sp, #3024]
	strh	wzr, [sp, #4372]
	str	wzr, [sp, #4368]
	b	255f
250:
	add	x0, sp, #3488
	add	x1, sp, #1376
	add	x2, sp, #3424
	add	x3, sp, #1040
	bl	blake2_transcript..collision..blake2b..same_step_1_a64
	tbz	w0, #0, 253f
	movi	v0.2d, #0000000000000000
	mov	w8, #16842752
	movi	v1.2d, #0000000000000000
	bfxil	w8, w19, #0, #8
	ldr	x10, [sp, #304]
	movi	v4.2d, #0000000000000000
	str	x27, [sp, #368]
	mov	x24, xzr
	mov	x27, xzr
	cmp	x10, #0
	str	x22, [sp, #424]
	mov	v0.s[0], w8
	vj_page	x8, .L1_a64_CPI3_1
	str	wzr, [sp, #128]
	str	wzr, [sp, #336]
	str	xzr, [sp, #400]
	str	wzr, [sp, #272]
	mov	v1.d[0], v0.d[0]
	vj_load	q0, x8, .L1_a64_CPI3_1
	vj_page	x8, .L1_a64_CPI3_2
	str	xzr, [sp, #280]
	str	q4, [sp, #3872]
	str	q4, [sp, #3888]
	eor	v0.16b, v1.16b, v0.16b
	vj_load	q1, x8, .L1_a64_CPI3_2
	vj_page	x8, .L1_a64_CPI3_3
	vj_load	q2, x8, .L1_a64_CPI3_3
	vj_page	x8, .L1_a64_CPI3_4
	str	q4, [sp, #3904]
	vj_load	q3, x8, .L1_a64_CPI3_4
	cset	w8, ne
	cmp	x25, #0
	str	q0, [sp, #4272]
	cset	w9, ne
	sub	x8, x10, x8
	str	q0, [sp, #4192]
	movi	v0.2d, #0000000000000000
	sub	x9, x25, x9
	lsr	x28, x9, #7
	neg	x19, x8, lsr #7
	str	q4, [sp, #3920]
	str	q4, [sp, #3936]
	str	q4, [sp, #3952]
	str	q4, [sp, #3968]
	str	q4, [sp, #3984]
	str	wzr, [sp, #4160]
	strh	wzr, [sp, #4164]
	str	q4, [sp, #3744]
	str	q4, [sp, #3760]
	str	q4, [sp, #3776]
	str	q4, [sp, #3792]
	str	q4, [sp, #3808]
	str	q4, [sp, #3824]
	str	q4, [sp, #3840]
	str	q4, [sp, #3856]
	strh	wzr, [sp, #4140]
	str	wzr, [sp, #4136]
	str	q1, [sp, #4288]
	str	q2, [sp, #4304]
	str	q3, [sp, #4320]
	str	q1, [sp, #4208]
	str	q2, [sp, #4224]
	str	q3, [sp, #4240]
	stp	q0, q0, [sp, #144]
	stp	q0, q0, [sp, #176]
	stp	q0, q0, [sp, #208]
	stp	q0, q0, [sp, #240]
	str	q4, [sp, #3552]
	str	q4, [sp, #3568]
	str	q4, [sp, #3584]
	str	q4, [sp, #3600]
	b	252f
251:
	ldr	q0, [sp, #4272]
	ldr	q1, [sp, #4288]
	add	x0, sp, #4000
	ldr	q2, [sp, #4320]
	add	x1, sp, #2080
	mov	x2, x20
	str	q0, [sp, #4000]
	ldr	q0, [sp, #4304]
	mov	w3, w21
	mov	w4, wzr
	str	q1, [sp, #4016]
	str	q0, [sp, #4032]
	str	q2, [sp, #4048]
	vj_call	blake2_compress..compress..blake2b..compress_1_arm
	ldr	q1, [sp, #4032]
	ldr	q0, [sp, #4048]
	add	x0, sp, #4000
	ldr	q2, [sp, #4016]
	ldr	q3, [sp, #4000]
	add	x1, sp, #1728
	str	q1, [sp, #3584]
	ldr	x2, [sp, #1856]
	ldrb	w4, [sp, #1865]
	str	q1, [sp, #4304]
	ldr	q1, [sp, #4192]
	ldrb	w3, [sp, #1864]
	str	q0, [sp, #3600]
	str	q2, [sp, #3568]
	str	q2, [sp, #4288]
	ldr	q2, [sp, #4208]
	str	q0, [sp, #4320]
	ldr	q0, [sp, #4224]
	str	q1, [sp, #4000]
	ldr	q1, [sp, #4240]
	str	q3, [sp, #3552]
	str	q3, [sp, #4272]
	str	q2, [sp, #4016]
	str	q0, [sp, #4032]
	str	q1, [sp, #4048]
	vj_call	blake2_compress..compress..blake2b..compress_1_arm
	ldr	q0, [sp, #4048]
	ldr	q1, [sp, #4032]
	add	x19, x19, #1
	ldr	q2, [sp, #4016]
	ldr	q3, [sp, #4000]
	sub	x28, x28, #1
	ldr	x10, [sp, #304]
	cmp	x19, #1
	sub	x27, x27, #128
	mov	x24, x26
	mov	x21, x23
	str	q0, [sp, #3600]
	str	q1, [sp, #3584]
	str	q2, [sp, #3568]
	str	q3, [sp, #3552]
	str	q3, [sp, #4192]
	str	q2, [sp, #4208]
	str	q1, [sp, #4224]
	str	q0, [sp, #4240]
	b.eq	254f
252:
	movi	v0.2d, #0000000000000000
	add	x8, x10, x27
	mov	w22, #128
	cmp	x8, #128
	add	x0, sp, #4000
	add	x1, x21, x24
	csel	x2, x8, x22, lo
	mov	x20, x10
	mov	x23, x21
	str	q0, [sp, #4112]
	str	q0, [sp, #4096]
	str	q0, [sp, #4080]
	str	q0, [sp, #4064]
	str	q0, [sp, #4048]
	str	q0, [sp, #4032]
	str	q0, [sp, #4016]
	str	q0, [sp, #4000]
	vj_c_call	memcpy
	ldr	q0, [sp, #4064]
	ldr	q1, [sp, #4080]
	add	x8, sp, #2080
	ldr	q2, [sp, #4112]
	cmp	x19, #0
	add	x26, x24, #128
	str	q0, [sp, #3680]
	ldr	q0, [sp, #4096]
	csel	x20, x20, x26, eq
	str	q1, [sp, #3696]
	ldr	q1, [sp, #4000]
	cset	w21, eq
	str	q0, [sp, #3712]
	ldr	q0, [sp, #4016]
	add	x0, sp, #4000
	str	q2, [sp, #3728]
	ldr	q2, [sp, #4032]
	str	q0, [sp, #3632]
	ldr	q0, [sp, #4048]
	stur	wzr, [x8, #140]
	str	q0, [sp, #3664]
	ldr	q0, [sp, #3696]
	stur	wzr, [x8, #137]
	add	x8, x25, x27
	str	q0, [sp, #2160]
	ldr	q0, [sp, #3728]
	cmp	x8, #128
	str	q1, [sp, #3616]
	ldr	q1, [sp, #3680]
	csel	x2, x8, x22, lo
	str	q0, [sp, #2192]
	ldr	q0, [sp, #3632]
	ldr	x8, [sp, #368]
	str	q2, [sp, #3648]
	ldr	q2, [sp, #3712]
	str	q0, [sp, #2096]
	ldr	q0, [sp, #3664]
	add	x1, x8, x24
	str	q1, [sp, #2144]
	ldr	q1, [sp, #3616]
	str	q0, [sp, #2128]
	movi	v0.2d, #0000000000000000
	str	q2, [sp, #2176]
	ldr	q2, [sp, #3648]
	str	q1, [sp, #2080]
	str	q2, [sp, #2112]
	str	x20, [sp, #2208]
	strb	w21, [sp, #2216]
	str	q0, [sp, #4112]
	str	q0, [sp, #4096]
	str	q0, [sp, #4080]
	str	q0, [sp, #4064]
	str	q0, [sp, #4048]
	str	q0, [sp, #4032]
	str	q0, [sp, #4016]
	str	q0, [sp, #4000]
	vj_c_call	memcpy
	ldr	q0, [sp, #4064]
	ldr	q1, [sp, #4080]
	cmp	x28, #0
	ldr	q2, [sp, #4112]
	add	x0, sp, #1, lsl #12
	add	x2, sp, #1, lsl #12
	str	q0, [sp, #3680]
	ldr	q0, [sp, #4096]
	csel	x24, x25, x26, eq
	str	q1, [sp, #3696]
	ldr	q1, [sp, #4000]
	cset	w22, eq
	str	q0, [sp, #3712]
	ldr	q0, [sp, #4016]
	add	x8, sp, #1728
	str	q2, [sp, #3728]
	ldr	q2, [sp, #4032]
	add	x0, x0, #176
	str	q0, [sp, #3632]
	ldr	q0, [sp, #4048]
	add	x1, sp, #2080
	str	q1, [sp, #3616]
	ldr	q1, [sp, #3680]
	add	x2, x2, #96
	str	q0, [sp, #3664]
	ldr	q0, [sp, #3696]
	add	x3, sp, #1728
	str	q2, [sp, #3648]
	ldr	q2, [sp, #3712]
	str	q0, [sp, #1808]
	ldr	q0, [sp, #3728]
	str	q1, [sp, #1792]
	ldr	q1, [sp, #3616]
	str	q0, [sp, #1840]
	ldr	q0, [sp, #3632]
	str	q2, [sp, #1824]
	ldr	q2, [sp, #3648]
	str	q0, [sp, #1744]
	ldr	q0, [sp, #3664]
	str	q1, [sp, #1728]
	str	q2, [sp, #1760]
	str	q0, [sp, #1776]
	str	x24, [sp, #1856]
	strb	w22, [sp, #1864]
	stur	wzr, [x8, #140]
	stur	wzr, [x8, #137]
	bl	blake2_transcript..collision..blake2b..same_step_1_a64
	tbnz	w0, #0, 251b
	ldr	q0, [sp, #2144]
	ldr	q1, [sp, #2160]
	mov	w8, #1
	ldr	q2, [sp, #2192]
	strh	wzr, [sp, #4164]
	str	q0, [sp, #3936]
	ldr	q0, [sp, #2176]
	str	q1, [sp, #3952]
	ldr	q1, [sp, #2080]
	str	q0, [sp, #3968]
	ldr	q0, [sp, #2096]
	str	q1, [sp, #3872]
	ldr	q1, [sp, #3696]
	str	q0, [sp, #3888]
	ldr	q0, [sp, #2128]
	str	q2, [sp, #3984]
	ldr	q2, [sp, #2112]
	str	q0, [sp, #3920]
	ldr	q0, [sp, #3680]
	str	q1, [sp, #3824]
	ldr	q1, [sp, #3616]
	str	q0, [sp, #3808]
	ldr	q0, [sp, #3728]
	str	q2, [sp, #3904]
	ldr	q2, [sp, #3712]
	str	q0, [sp, #3856]
	ldr	q0, [sp, #3632]
	str	q1, [sp, #3744]
	ldr	q1, [sp, #3648]
	str	q0, [sp, #3760]
	ldr	q0, [sp, #4320]
	str	q2, [sp, #3840]
	ldr	q2, [sp, #4288]
	str	q0, [sp, #208]
	ldr	q0, [sp, #4304]
	str	q1, [sp, #3776]
	ldr	q1, [sp, #4208]
	stp	q0, q2, [sp, #224]
	ldr	q0, [sp, #3664]
	ldr	q2, [sp, #4272]
	str	q0, [sp, #3792]
	ldr	q0, [sp, #4240]
	str	q1, [sp, #176]
	ldr	q1, [sp, #4192]
	str	q0, [sp, #144]
	ldr	q0, [sp, #4224]
	str	wzr, [sp, #4160]
	str	q2, [sp, #256]
	str	w8, [sp, #128]
	str	x20, [sp, #280]
	str	w21, [sp, #272]
	str	q1, [sp, #192]
	str	q0, [sp, #160]
	strh	wzr, [sp, #4140]
	str	x24, [sp, #400]
	str	w22, [sp, #336]
	str	wzr, [sp, #4136]
	b	251b
253:
	ldr	q0, [sp, #1440]
	ldr	q1, [sp, #1456]
	mov	w10, #1
	ldr	q2, [sp, #1488]
	ldr	q4, [sp, #3504]
	ldr	q3, [sp, #3488]
	str	q0, [sp, #3104]
	ldr	q0, [sp, #1472]
	ldr	q6, [sp, #3536]
	str	q1, [sp, #3120]
	ldr	q1, [sp, #1376]
	ldr	q5, [sp, #3520]
	str	q0, [sp, #3136]
	ldr	q0, [sp, #1392]
	ldr	x14, [sp, #1504]
	str	q1, [sp, #3040]
	ldr	q1, [sp, #1120]
	ldrb	w15, [sp, #1512]
	str	q0, [sp, #3056]
	ldr	q0, [sp, #1424]
	ldrb	w9, [sp, #1513]
	str	q2, [sp, #3152]
	ldr	q2, [sp, #1408]
	ldr	q16, [sp, #3440]
	str	q0, [sp, #3088]
	ldr	q0, [sp, #1104]
	ldr	q7, [sp, #3424]
	str	q1, [sp, #2992]
	ldr	q1, [sp, #1152]
	ldr	q18, [sp, #3472]
	str	q0, [sp, #2976]
	ldr	q0, [sp, #1136]
	ldr	q17, [sp, #3456]
	str	q2, [sp, #3072]
	ldr	q2, [sp, #1072]
	ldr	x12, [sp, #1168]
	str	q0, [sp, #3008]
	ldr	q0, [sp, #1040]
	ldrb	w13, [sp, #1176]
	str	q1, [sp, #3024]
	ldr	q1, [sp, #1056]
	ldrb	w8, [sp, #1177]
	str	q0, [sp, #2912]
	ldr	q0, [sp, #1088]
	strh	wzr, [sp, #4380]
	str	wzr, [sp, #4376]
	str	q1, [sp, #2928]
	str	q2, [sp, #2944]
	str	q0, [sp, #2960]
	strh	wzr, [sp, #4372]
	str	wzr, [sp, #4368]
	b	255f
254:
	ldr	q0, [sp, #3936]
	ldr	q1, [sp, #3952]
	mov	w9, wzr
	ldrh	w10, [sp, #4164]
	ldr	q2, [sp, #3984]
	mov	w8, wzr
	str	q0, [sp, #3360]
	ldr	q0, [sp, #3968]
	add	x26, sp, #3872
	str	q1, [sp, #3376]
	ldr	q1, [sp, #3872]
	add	x20, sp, #672
	str	q0, [sp, #3392]
	ldr	q0, [sp, #3888]
	ldr	w11, [sp, #128]
	str	q1, [sp, #3296]
	ldr	q1, [sp, #3920]
	ldr	x22, [sp, #424]
	cmp	w11, #0
	str	q0, [sp, #3312]
	ldr	q0, [sp, #3904]
	str	q1, [sp, #3344]
	ldr	q1, [sp, #3824]
	ldr	x27, [sp, #368]
	str	q0, [sp, #3328]
	ldr	q0, [sp, #3808]
	ldr	x12, [sp, #400]
	str	q1, [sp, #3248]
	ldr	q1, [sp, #3744]
	ldr	w13, [sp, #336]
	str	q0, [sp, #3232]
	ldr	q0, [sp, #3856]
	ldr	x14, [sp, #280]
	strh	w10, [sp, #4460]
	ldr	w10, [sp, #4160]
	ldr	w15, [sp, #272]
	str	q0, [sp, #3280]
	ldr	q0, [sp, #3760]
	str	q1, [sp, #3168]
	ldr	q1, [sp, #3792]
	str	q0, [sp, #3184]
	ldr	q0, [sp, #3776]
	str	q2, [sp, #3408]
	ldr	q2, [sp, #3840]
	str	q0, [sp, #3200]
	ldr	q0, [sp, #3344]
	str	w10, [sp, #4456]
	ldrh	w10, [sp, #4140]
	str	q0, [sp, #3088]
	ldr	q0, [sp, #3312]
	str	q1, [sp, #3216]
	ldr	q1, [sp, #3328]
	str	q0, [sp, #3056]
	ldr	q0, [sp, #3408]
	strh	w10, [sp, #4452]
	ldr	w10, [sp, #4136]
	str	q1, [sp, #3072]
	ldr	q1, [sp, #3392]
	str	q0, [sp, #3152]
	ldr	q0, [sp, #3376]
	str	w10, [sp, #4448]
	ldrh	w10, [sp, #4460]
	str	q1, [sp, #3136]
	ldr	q1, [sp, #3360]
	str	q0, [sp, #3120]
	ldr	q0, [sp, #3216]
	strh	w10, [sp, #4380]
	ldr	w10, [sp, #4456]
	str	q1, [sp, #3104]
	ldr	q1, [sp, #3200]
	str	q0, [sp, #2960]
	ldr	q0, [sp, #3184]
	str	q2, [sp, #3264]
	ldr	q2, [sp, #3296]
	str	w10, [sp, #4376]
	ldrh	w10, [sp, #4452]
	str	q1, [sp, #2944]
	ldr	q1, [sp, #3264]
	str	q0, [sp, #2928]
	ldr	q0, [sp, #3280]
	strh	w10, [sp, #4372]
	ldr	w10, [sp, #4448]
	str	q2, [sp, #3040]
	ldr	q2, [sp, #3168]
	str	q0, [sp, #3024]
	ldr	q0, [sp, #3248]
	str	q1, [sp, #3008]
	ldr	q1, [sp, #3232]
	str	w10, [sp, #4368]
	cset	w10, ne
	str	q2, [sp, #2912]
	ldp	q4, q3, [sp, #240]
	str	q0, [sp, #2992]
	ldp	q6, q5, [sp, #208]
	str	q1, [sp, #2976]
	ldp	q16, q7, [sp, #176]
	ldp	q18, q17, [sp, #144]
255:
	ldr	q0, [sp, #3104]
	ldr	q1, [sp, #3120]
	ldr	w11, [sp, #4376]
	ldr	q2, [sp, #3152]
	str	q0, [sp, #2848]
	ldr	q0, [sp, #3136]
	str	q1, [sp, #2864]
	ldr	q1, [sp, #3040]
	str	q0, [sp, #2880]
	ldr	q0, [sp, #3056]
	str	q1, [sp, #2784]
	ldr	q1, [sp, #3088]
	str	q0, [sp, #2800]
	ldr	q0, [sp, #3072]
	str	w11, [sp, #4360]
	ldrh	w11, [sp, #4380]
	str	q0, [sp, #2816]
	ldr	q0, [sp, #2976]
	str	q1, [sp, #2832]
	ldr	q1, [sp, #2992]
	strh	w11, [sp, #4364]
	ldrh	w11, [sp, #4372]
	str	q0, [sp, #2720]
	ldr	q0, [sp, #3024]
	str	q1, [sp, #2736]
	ldr	q1, [sp, #2912]
	str	q0, [sp, #2768]
	ldr	q0, [sp, #2928]
	strh	w11, [sp, #4356]
	ldr	w11, [sp, #4368]
	str	q2, [sp, #2896]
	ldr	q2, [sp, #3008]
	str	q1, [sp, #2656]
	ldr	q1, [sp, #2960]
	str	q0, [sp, #2672]
	ldr	q0, [sp, #2944]
	str	w11, [sp, #4352]
	add	x11, sp, #1, lsl #12
	add	x11, x11, #368
	str	q2, [sp, #2752]
	str	q0, [sp, #2688]
	str	q1, [sp, #2704]
	tbz	w10, #0, 257f
	ldr	q0, [sp, #2848]
	ldr	q1, [sp, #2864]
	add	x0, sp, #1, lsl #12
	ldr	q2, [sp, #2880]
	strb	w9, [x26, #793]
	add	x1, sp, #1, lsl #12
	str	q0, [sp, #4592]
	ldr	q0, [sp, #2896]
	add	x0, x0, #288
	str	q1, [sp, #4608]
	ldr	q1, [sp, #2784]
	add	x1, x1, #368
	str	q0, [sp, #4640]
	ldr	q0, [sp, #2800]
	mov	x2, x22
	str	q2, [sp, #4624]
	ldr	q2, [sp, #2816]
	ldrh	w9, [sp, #4364]
	str	q0, [sp, #4544]
	ldr	q0, [sp, #2832]
	ldr	w10, [sp, #4360]
	str	q1, [sp, #4528]
	ldr	q1, [sp, #2736]
	str	q0, [sp, #4576]
	ldr	q0, [sp, #2720]
	str	q2, [sp, #4560]
	ldr	q2, [sp, #2752]
	strh	w9, [sp, #4670]
	ldrh	w9, [sp, #4356]
	str	q3, [sp, #4464]
	stp	q0, q1, [sp, #800]
	ldr	q0, [sp, #2768]
	ldr	q1, [sp, #2656]
	strb	w8, [sp, #873]
	ldr	w8, [sp, #4352]
	str	q4, [sp, #4480]
	stp	q2, q0, [sp, #832]
	ldr	q0, [sp, #2672]
	ldr	q2, [sp, #2688]
	str	q5, [sp, #4496]
	str	q6, [sp, #4512]
	stur	w10, [x11, #202]
	stp	q7, q16, [sp, #672]
	stp	q17, q18, [sp, #704]
	stp	q1, q0, [sp, #736]
	ldr	q0, [sp, #2704]
	str	x14, [sp, #4656]
	strb	w15, [x26, #792]
	stp	q2, q0, [sp, #768]
	str	x12, [sp, #864]
	strb	w13, [sp, #872]
	strh	w9, [sp, #878]
	stur	w8, [x20, #202]
	bl	b2_commands..witness..print_blake2b..c1844c1740294036_1_a64
	add	x8, sp, #289
	ldrb	w8, [x8, #4095]
	cbz	w8, 259f
	ldr	x1, [sp, #4400]
	add	x8, sp, #297
256:
	ldrb	w0, [x8, #4095]
	ldr	x9, [sp, #328]
	mov	w19, #1
	b	264f
257:
	mov	x23, x21
	mov	x21, xzr
258:
	mov	w8, #5
	vj_page	x9, .L1_a64_static.45
	vj_address	x9, x9, .L1_a64_static.45
	sub	x20, x8, x21
	add	x1, x9, x21
	mov	w0, #1
	mov	x2, x20
	mov	w19, #1
	vj_system_call	write, b2_write
	tbnz	x0, #63, 260f
	cmp	x0, x20
	csel	x8, x0, x20, lo
	cbz	x8, 261f
	add	x21, x8, x21
	cmp	x21, #4
	b.ls	258b
	mov	w19, wzr
	b	262f
259:
	add	x0, sp, #1, lsl #12
	add	x1, sp, #672
	mov	x2, x22
	add	x0, x0, #320
	bl	b2_commands..witness..print_blake2b..c1844c1740294036_1_a64
	ldrb	w19, [x26, #544]
	ldrb	w0, [x26, #552]
	ldr	x1, [sp, #4432]
	ldr	x9, [sp, #328]
	b	264f
260:
	add	x0, sp, #1, lsl #12
	add	x0, x0, #832
	bl	std_io..io..error..last_error_1_a64
261:
	strb	w19, [x22]
262:
	cmp	w19, #0
	mov	w8, #9
	ldr	x9, [sp, #328]
263:
	mov	x1, xzr
	csel	w0, w8, wzr, ne
	mov	x21, x23
264:
	cbz	w19, 265f
	mov	x2, x22
	mov	x19, x9
	bl	b2_commands..fault..Fault..report..c1844c1740294036_1_a64
	mov	x9, x19
	b	266f
265:
	mov	w0, wzr
266:
	ldr	x8, [sp, #288]
	ldr	x10, [sp, #352]
	and	x8, x8, #0xff
	orr	x8, x10, x8
	tst	x8, #0xffffffffffffff
	b.eq	267f
	mov	w19, w0
	mov	x0, x21
	mov	x20, x9
	vj_call	rattle_dealloc
	mov	x9, x20
	mov	w0, w19
267:
	and	x8, x9, #0xff
	ldr	x9, [sp, #64]
	orr	x8, x9, x8
	tst	x8, #0xffffffffffffff
	b.eq	128b
268:
	mov	w19, w0
	mov	x0, x27
	b	491f
269:
	mov	w20, #3
270:
	ldr	x25, [sp, #392]
	ldr	x21, [sp, #13120]
	ldr	x19, [sp, #13136]
	cbz	x26, 515f
271:
	add	x22, x21, #16
	b	273f
272:
	subs	x26, x26, #1
	add	x22, x22, #40
	b.eq	515f
273:
	ldurb	w8, [x22, #-16]
	cbnz	w8, 272b
	ldr	x8, [x22, #16]
	cbz	x8, 272b
	ldr	x0, [x22]
	vj_call	rattle_dealloc
	b	272b
274:
	add	x23, sp, #3, lsl #12
	ldrb	w22, [sp, #2080]
	add	x1, x21, #8
	add	x23, x23, #832
	mov	w2, #344
	add	x0, x23, #8
	vj_c_call	memcpy
	add	x1, sp, #3, lsl #12
	add	x0, sp, #1728
	str	x22, [sp, #13120]
	add	x1, x1, #832
	bl	blake2_state..runs..Run..padded_1_a64
	add	x19, sp, #1, lsl #12
	add	x1, x23, #8
	mov	w2, #344
	add	x19, x19, #832
	add	x0, x19, #8
	add	x21, x19, #8
	vj_c_call	memcpy
	movi	v0.2d, #0000000000000000
	str	x22, [sp, #4928]
	cbz	x22, 315f
	add	x0, x19, #88
	stp	q0, q0, [x21, #16]
	stp	q0, q0, [x21, #48]
	stp	q0, q0, [x21, #80]
	stp	q0, q0, [x21, #112]
	stp	q0, q0, [x21, #144]
	str	q0, [x21]
	bl	blake2_digest..wiping..settle..64_1_a64
	add	x0, x19, #152
	bl	blake2_digest..wiping..settle..32_1_a64
	b	316f
275:
	mov	w20, #6
276:
	add	x19, sp, #1, lsl #12
	ldrb	w23, [sp, #2080]
	add	x1, x21, #8
	add	x19, x19, #832
	mov	w2, #344
	add	x0, x19, #8
	str	x23, [sp, #4928]
	add	x22, x19, #8
	vj_c_call	memcpy
	movi	v0.2d, #0000000000000000
	cbz	x23, 277f
	add	x0, x19, #88
	stp	q0, q0, [x22, #16]
	stp	q0, q0, [x22, #48]
	stp	q0, q0, [x22, #80]
	stp	q0, q0, [x22, #112]
	stp	q0, q0, [x22, #144]
	str	q0, [x22]
	bl	blake2_digest..wiping..settle..64_1_a64
	add	x0, x19, #152
	bl	blake2_digest..wiping..settle..32_1_a64
	b	278f
277:
	add	x0, x19, #160
	str	xzr, [x22, #336]
	stp	q0, q0, [x22, #16]
	stp	q0, q0, [x22, #48]
	stp	q0, q0, [x22, #80]
	stp	q0, q0, [x22, #112]
	stp	q0, q0, [x22, #144]
	stp	q0, q0, [x22, #176]
	stp	q0, q0, [x22, #208]
	stp	q0, q0, [x22, #240]
	stp	q0, q0, [x22, #272]
	stp	q0, q0, [x22, #304]
	str	q0, [x22]
	bl	blake2_digest..wiping..settle..128_1_a64
	add	x0, x19, #288
	bl	blake2_digest..wiping..settle..64_1_a64
278:
	ldr	x2, [sp, #424]
	mov	w22, #1
	b	322f
279:
	mov	w13, wzr
280:
	ldp	x25, x20, [x28, #48]
	add	x1, sp, #4, lsl #12
	add	x1, x1, #856
	str	xzr, [sp, #1744]
	str	x1, [sp, #1728]
	str	xzr, [sp, #1736]
	cbnz	x20, 414f
	mov	x15, xzr
	mov	x8, xzr
	add	x0, x1, xzr
	add	x21, xzr, x20
	str	x23, [sp, #424]
	sub	x9, x0, x25
	cmp	x9, x20
	b.hs	415f
281:
	cmp	x20, #8
	b.lo	282f
	add	x9, x8, x1
	sub	x9, x9, x25
	cmp	x9, #32
	b.hs	365f
282:
	mov	x9, xzr
283:
	add	x10, x9, x8
	sub	x8, x20, x9
	add	x9, x25, x9
	add	x10, x1, x10
284:
	ldrb	w11, [x9], #1
	subs	x8, x8, #1
	strb	w11, [x10], #1
	b.ne	284b
	b	416f
285:
	ldr	x8, [sp, #288]
	ldr	x10, [sp, #1400]
	and	w8, w8, #0xff
	cmp	w8, #1
	mov	w8, #64
	csel	x2, x25, xzr, eq
	cmp	w23, #1
	csel	x25, x21, xzr, eq
	cmn	x24, #128
	ccmp	x27, x8, #2, lo
	cset	w8, lo
	tst	w26, #0x1
	csel	x28, x28, xzr, ne
	csel	x21, x22, xzr, ne
	cmp	x2, #16
	b.hi	306f
	cmp	x25, #16
	b.hi	306f
	eor	w9, w26, #0x1
	orr	w8, w9, w8
	tbz	w8, #0, 306f
	str	x10, [sp, #392]
	ldr	x8, [sp, #288]
	add	x10, sp, #2080
	stur	xzr, [x10, #23]
	ldr	x10, [sp, #352]
	movi	v0.2d, #0000000000000000
	and	w8, w8, #0xff
	vj_page	x9, .L1_a64_static.0
	vj_address	x9, x9, .L1_a64_static.0
	cmp	w23, #1
	mov	x22, x24
	add	x0, sp, #1, lsl #12
	csel	x24, x10, x9, eq
	cmp	w8, #1
	ldr	x8, [sp, #368]
	add	x0, x0, #832
	add	x27, sp, #1, lsl #12
	str	xzr, [sp, #2088]
	csel	x1, x8, x9, eq
	str	xzr, [sp, #2080]
	ubfiz	w23, w28, #8, #8
	str	xzr, [sp, #2096]
	add	x27, x27, #832
	str	q0, [sp, #4944]
	str	q0, [sp, #4928]
	vj_c_call	memcpy
	orr	x0, x27, #0x10
	mov	x1, x24
	mov	x2, x25
	vj_c_call	memcpy
	tst	w26, #0x1
	add	x8, x22, #128
	mov	x9, #29055
	csel	x24, x8, x22, ne
	str	x22, [sp, #400]
	csel	w22, w23, wzr, ne
	cmp	x24, #0
	movk	x9, #50972, lsl #16
	cset	w8, ne
	movk	x9, #7281, lsl #32
	sub	x8, x24, x8
	movk	x9, #29127, lsl #48
	cmp	x8, x9
	b.hi	456f
	lsr	x23, x8, #7
	ldr	q0, [sp, #4944]
	mov	w1, #8
	add	x27, x23, #1
	str	q0, [sp, #368]
	ldr	q0, [sp, #4928]
	add	x8, x27, x27, lsl #3
	str	q0, [sp, #352]
	lsl	x0, x8, #4
	vj_call	rattle_alloc
	tbz	w0, #0, 456f
	movi	v0.2d, #0000000000000000
	mov	x25, x1
	str	w22, [sp, #328]
	str	x1, [sp, #1040]
	str	x27, [sp, #1056]
	tbz	w26, #0, 434f
	add	x0, sp, #1, lsl #12
	str	q0, [sp, #5040]
	mov	x1, x21
	str	q0, [sp, #5024]
	add	x0, x0, #832
	mov	x2, x28
	b	435f
286:
	add	x8, sp, #1, lsl #12
	add	x8, x8, #832
	add	x19, x8, #1
287:
	add	x0, sp, #3, lsl #12
	cmp	x22, #1, lsl #12
	mov	w8, #4096
	add	x0, x0, #832
	mov	w1, wzr
	mov	w2, #4096
	add	x21, sp, #3, lsl #12
	mov	x27, x24
	mov	x24, x23
	mov	x25, x22
	csel	x20, x22, x8, lo
	add	x21, x21, #832
	vj_c_call	memset
	add	x0, sp, #1, lsl #12
	mov	w1, wzr
	mov	w2, #8192
	add	x0, x0, #832
	vj_c_call	memset
	add	x1, sp, #3, lsl #12
	add	x0, sp, #672
	mov	x2, x20
	add	x1, x1, #832
	vj_call	blake2_xof..blake2xs..State..squeeze_1_arm
	mov	x8, x19
	mov	x9, x20
288:
	ldrb	w10, [x21], #1
	vj_page	x12, .L1_a64_static.37
	vj_address	x12, x12, .L1_a64_static.37
	subs	x9, x9, #1
	lsr	x11, x10, #4
	and	x10, x10, #0xf
	ldrb	w10, [x12, x10]
	ldrb	w11, [x12, x11]
	sturb	w11, [x8, #-1]
	strb	w10, [x8], #2
	b.ne	288b
	lsl	x21, x20, #1
	mov	x22, xzr
289:
	add	x8, sp, #1, lsl #12
	sub	x2, x21, x22
	mov	w0, #1
	add	x8, x8, #832
	sub	x23, x21, x22
	add	x1, x8, x22
	vj_system_call	write, b2_write
	tbnz	x0, #63, 313f
	cmp	x0, x23
	csel	x8, x0, x23, lo
	cbz	x8, 314f
	add	x22, x8, x22
	cmp	x22, x21
	b.lo	289b
	subs	x22, x25, x20
	mov	x23, x24
	mov	x24, x27
	b.ne	287b
290:
	ldr	x8, [sp, #392]
	tbz	w8, #0, 302f
	mov	w19, wzr
	mov	w0, wzr
	mov	x1, xzr
	b	148b
291:
	cbz	x10, 292f
	vj_call	rattle_dealloc
292:
	mov	x24, xzr
	mov	w22, #1
	mov	w0, #6
	ldr	x2, [sp, #424]
	mov	w20, w0
	cbnz	w22, 486f
	b	323f
293:
	add	x8, sp, #4, lsl #12
	str	xzr, [sp, #352]
	mov	x21, xzr
	add	x8, x8, #856
	str	x8, [sp, #400]
294:
	mov	w8, #1
	str	w8, [sp, #328]
	str	w8, [sp, #336]
	add	x20, sp, #4, lsl #12
	add	x20, x20, #856
295:
	add	x8, sp, #3, lsl #12
	add	x26, sp, #4, lsl #12
	add	x1, sp, #1040
	add	x8, x8, #832
	add	x26, x26, #856
	mov	w2, #336
	add	x0, x8, #24
	str	xzr, [sp, #2928]
	str	xzr, [sp, #2912]
	str	xzr, [sp, #2920]
	str	xzr, [sp, #3184]
	str	x26, [sp, #3168]
	str	xzr, [sp, #3176]
	str	x27, [sp, #13136]
	vj_c_call	memcpy
	add	x2, sp, #3, lsl #12
	mov	w8, #1
	add	x0, sp, #2912
	add	x1, sp, #3168
	add	x2, x2, #832
	str	x8, [sp, #13120]
	str	x23, [sp, #13128]
	bl	blake2_replay..calls..push..08bf280249c874f5_1_a64
	ldrb	w8, [sp, #2912]
	str	x20, [sp, #304]
	cbz	w8, 345f
	ldr	x21, [sp, #3168]
	ldr	x22, [sp, #3176]
	ldr	x25, [sp, #2928]
	ldrb	w19, [sp, #2920]
	ldr	x20, [sp, #3184]
	cbz	x22, 308f
	add	x23, sp, #1, lsl #12
	add	x27, x21, #8
	add	x23, x23, #832
	add	x26, x23, #8
	b	298f
296:
	add	x0, x23, #160
	str	xzr, [x26, #336]
	stp	q0, q0, [x26, #16]
	stp	q0, q0, [x26, #48]
	stp	q0, q0, [x26, #80]
	stp	q0, q0, [x26, #112]
	stp	q0, q0, [x26, #144]
	stp	q0, q0, [x26, #176]
	stp	q0, q0, [x26, #208]
	stp	q0, q0, [x26, #240]
	stp	q0, q0, [x26, #272]
	stp	q0, q0, [x26, #304]
	str	q0, [x26]
	bl	blake2_digest..wiping..settle..128_1_a64
	add	x0, x23, #288
	bl	blake2_digest..wiping..settle..64_1_a64
297:
	subs	x22, x22, #1
	add	x27, x27, #360
	b.eq	308f
298:
	ldurb	w8, [x27, #-8]
	cbz	w8, 297b
	mov	x1, x27
	add	x0, x23, #8
	mov	w2, #344
	ldrb	w28, [x1], #8
	str	x28, [sp, #4928]
	vj_c_call	memcpy
	movi	v0.2d, #0000000000000000
	cbz	x28, 296b
	add	x0, x23, #88
	stp	q0, q0, [x26, #16]
	stp	q0, q0, [x26, #48]
	stp	q0, q0, [x26, #80]
	stp	q0, q0, [x26, #112]
	stp	q0, q0, [x26, #144]
	str	q0, [x26]
	bl	blake2_digest..wiping..settle..64_1_a64
	add	x0, x23, #152
	bl	blake2_digest..wiping..settle..32_1_a64
	b	297b
299:
	cbz	x8, 300f
	fmov	x0, d1
	vj_call	rattle_dealloc
300:
	cbz	x22, 301f
	ldr	x0, [sp, #392]
	vj_call	rattle_dealloc
301:
	mov	x1, xzr
	mov	w26, wzr
	b	125b
302:
	vj_page	x1, .L1_a64_static.38
	vj_address	x1, x1, .L1_a64_static.38
	mov	w0, #1
	mov	w2, #1
	mov	w19, #1
	vj_system_call	write, b2_write
	tbnz	x0, #63, 354f
	cbz	x0, 370f
	mov	w19, wzr
	b	372f
303:
	mov	w20, wzr
304:
	add	x0, sp, #1728
	mov	w1, #1
	bl	b2_commands..arguments..Options..from_words_1_a64
	ldrb	w8, [sp, #1728]
	ldr	x15, [sp, #1736]
	ldr	x1, [sp, #1744]
	cbz	w8, 342f
	movi	v0.2d, #0000000000000000
	mov	w26, w15
	str	q0, [sp, #4064]
	str	q0, [sp, #4048]
	str	q0, [sp, #4032]
	str	q0, [sp, #4016]
	str	q0, [sp, #4000]
	b	125b
305:
	mov	w8, #1
	cmp	x8, x15
	b.hs	109b
	b	163b
306:
	cbz	x10, 307f
	mov	x0, x20
	vj_call	rattle_dealloc
307:
	ldr	x2, [sp, #424]
	mov	x24, xzr
	mov	w22, #1
	mov	w20, #6
	cbnz	w22, 486f
	b	323f
308:
	cbz	x20, 310f
309:
	mov	x0, x21
	vj_call	rattle_dealloc
310:
	cmp	w19, #2
	b.eq	355f
	add	x27, x25, #1
	cmp	w19, #1
	b.ne	356f
	mov	w20, #5
	b	357f
311:
	add	x0, sp, #2080
	bl	std_io..io..error..last_error_1_a64
312:
	mov	w19, #1
	ldr	x17, [sp, #272]
	ldr	x2, [sp, #256]
	ldr	w3, [sp, #280]
	mov	x1, xzr
	strb	w19, [x23]
	mov	w0, #9
	mov	x12, x26
	mov	x16, x28
	mov	x24, x25
	b	149b
313:
	add	x0, sp, #2080
	bl	std_io..io..error..last_error_1_a64
314:
	mov	w19, #1
	ldr	x17, [sp, #272]
	ldr	x2, [sp, #256]
	ldr	w3, [sp, #280]
	mov	x1, xzr
	mov	x23, x24
	strb	w19, [x24]
	mov	w0, #9
	mov	x12, x26
	mov	x16, x28
	mov	x24, x27
	b	149b
315:
	add	x0, x19, #160
	str	xzr, [x21, #336]
	stp	q0, q0, [x21, #16]
	stp	q0, q0, [x21, #48]
	stp	q0, q0, [x21, #80]
	stp	q0, q0, [x21, #112]
	stp	q0, q0, [x21, #144]
	stp	q0, q0, [x21, #176]
	stp	q0, q0, [x21, #208]
	stp	q0, q0, [x21, #240]
	stp	q0, q0, [x21, #272]
	stp	q0, q0, [x21, #304]
	str	q0, [x21]
	bl	blake2_digest..wiping..settle..128_1_a64
	add	x0, x19, #288
	bl	blake2_digest..wiping..settle..64_1_a64
316:
	ldr	q1, [sp, #1744]
	ldr	q0, [sp, #1728]
	add	x8, sp, #1, lsl #12
	ldr	q2, [sp, #1776]
	add	x8, x8, #832
	add	x9, sp, #1376
	str	q1, [sp, #1392]
	movi	v1.2d, #0000000000000000
	orr	x8, x8, #0x1
	str	q0, [sp, #1376]
	ldr	q0, [sp, #1760]
	mov	x10, x20
	str	q2, [sp, #1424]
	str	q0, [sp, #1408]
	str	xzr, [sp, #5344]
	str	q1, [sp, #5328]
	str	q1, [sp, #5312]
	str	q1, [sp, #5296]
	str	q1, [sp, #5280]
	str	q1, [sp, #5264]
	str	q1, [sp, #5248]
	str	q1, [sp, #5232]
	str	q1, [sp, #5216]
	str	q1, [sp, #5200]
	str	q1, [sp, #5184]
	str	q1, [sp, #5168]
	str	q1, [sp, #5152]
	str	q1, [sp, #5136]
	str	q1, [sp, #5120]
	str	q1, [sp, #5104]
	str	q1, [sp, #5088]
	str	q1, [sp, #5072]
	str	q1, [sp, #5056]
	str	q1, [sp, #5040]
	str	q1, [sp, #5024]
	str	q1, [sp, #5008]
	str	q1, [sp, #4992]
	str	q1, [sp, #4976]
	str	q1, [sp, #4960]
	str	q1, [sp, #4944]
	str	q1, [sp, #4928]
317:
	ldrb	w11, [x9], #1
	vj_page	x13, .L1_a64_static.37
	vj_address	x13, x13, .L1_a64_static.37
	subs	x10, x10, #1
	lsr	x12, x11, #4
	and	x11, x11, #0xf
	ldrb	w11, [x13, x11]
	ldrb	w12, [x13, x12]
	sturb	w12, [x8, #-1]
	strb	w11, [x8], #2
	b.ne	317b
	mov	w23, #1
	lsl	x21, x20, #1
	add	x24, sp, #1, lsl #12
	bfi	x23, x20, #1, #62
	mov	x19, xzr
	add	x24, x24, #832
	mov	w8, #10
	strb	w8, [x24, x21]
	str	x23, [sp, #5352]
318:
	add	x1, x24, x19
	sub	x2, x23, x19
	mov	w0, #1
	sub	x20, x23, x19
	mov	w22, #1
	vj_system_call	write, b2_write
	tbnz	x0, #63, 319f
	cmp	x0, x20
	csel	x8, x0, x20, lo
	cbz	x8, 320f
	add	x19, x8, x19
	cmp	x19, x21
	b.ls	318b
	ldr	x2, [sp, #424]
	mov	w22, wzr
	b	321f
319:
	add	x0, sp, #3, lsl #12
	add	x0, x0, #832
	bl	std_io..io..error..last_error_1_a64
320:
	ldr	x2, [sp, #424]
	strb	w22, [x2]
321:
	cmp	w22, #0
	mov	w8, #9
	csel	w20, w8, wzr, ne
322:
	mov	x24, xzr
	cbnz	w22, 486f
323:
	mov	w0, wzr
	b	487f
324:
	add	x1, sp, #4, lsl #12
	ldr	x25, [sp, #176]
	add	x1, x1, #856
325:
	mov	w9, w26
	str	x1, [sp, #4000]
	mov	x1, x28
	cmp	x20, x9
	str	x23, [sp, #424]
	str	xzr, [sp, #4008]
	str	x27, [sp, #4016]
	b.ls	344f
	sub	x8, x9, #1
	lsl	x9, x9, #2
	add	x22, sp, #1, lsl #12
	mov	x23, xzr
	add	x22, x22, #368
	mov	w21, w26
	str	x9, [sp, #400]
	lsr	x9, x8, #7
	and	x8, x8, #0xffffffffffffff80
	str	x8, [sp, #144]
	str	x9, [sp, #192]
	add	x9, sp, #1, lsl #12
	add	x9, x9, #832
	add	x8, x9, #16
	str	x8, [sp, #128]
	b	328f
326:
	add	x1, sp, #1, lsl #12
	mov	x2, x28
	add	x1, x1, #832
	vj_c_call	memmove
	ldr	x1, [sp, #224]
327:
	mul	x8, x24, x21
	add	x23, x23, x28
	add	x1, x24, x1
	str	x23, [sp, #4008]
	str	x27, [sp, #4016]
	sub	x20, x20, x8
	add	x25, x25, x8
	cmp	x20, x21
	b.ls	346f
328:
	movi	v1.2d, #0000000000000000
	ldr	x8, [sp, #400]
	str	x1, [sp, #224]
	cmp	x8, x20
	str	q1, [sp, #5424]
	str	q1, [sp, #5408]
	str	q1, [sp, #5392]
	str	q1, [sp, #5376]
	str	q1, [sp, #5360]
	str	q1, [sp, #5344]
	str	q1, [sp, #5328]
	str	q1, [sp, #5312]
	str	q1, [sp, #5296]
	str	q1, [sp, #5280]
	str	q1, [sp, #5264]
	str	q1, [sp, #5248]
	str	q1, [sp, #5232]
	str	q1, [sp, #5216]
	str	q1, [sp, #5200]
	str	q1, [sp, #5184]
	str	q1, [sp, #5168]
	str	q1, [sp, #5152]
	str	q1, [sp, #5136]
	str	q1, [sp, #5120]
	str	q1, [sp, #5104]
	str	q1, [sp, #5088]
	str	q1, [sp, #5072]
	str	q1, [sp, #5056]
	str	q1, [sp, #5040]
	str	q1, [sp, #5024]
	str	q1, [sp, #5008]
	str	q1, [sp, #4992]
	str	q1, [sp, #4976]
	str	q1, [sp, #4960]
	str	q1, [sp, #4944]
	str	q1, [sp, #4928]
	b.hs	329f
	add	x4, sp, #1, lsl #12
	add	x0, sp, #1376
	mov	x2, x25
	add	x4, x4, #832
	mov	x3, x20
	vj_call	blake2_tree..nodes..Nodes..hash_next_1_arm
	mov	x24, x0
	b	333f
329:
	add	x8, sp, #1376
	ldr	x2, [sp, #1392]
	add	x0, sp, #3, lsl #12
	add	x8, x8, #48
	ldr	x24, [sp, #1416]
	add	x0, x0, #832
	ld1r	{ v0.2s }, [x8]
	vj_page	x8, .L1_a64_CPI3_11
	str	q1, [sp, #13136]
	vj_load	d2, x8, .L1_a64_CPI3_11
	str	q1, [sp, #13120]
	mov	v2.s[1], v0.s[1]
	fmov	d0, x1
	add	x1, sp, #1376
	mov	v2.d[1], v0.d[0]
	str	q2, [sp, #208]
	vj_c_call	memcpy
	add	x8, sp, #3, lsl #12
	mov	x2, x24
	add	x8, x8, #832
	orr	x0, x8, #0x10
	add	x8, sp, #1376
	add	x1, x8, #24
	vj_c_call	memcpy
	vj_page	x8, .L1_a64_CPI3_1
	ldr	q5, [sp, #208]
	vj_page	x9, .L1_a64_CPI3_4
	vj_load	q0, x8, .L1_a64_CPI3_1
	vj_page	x8, .L1_a64_CPI3_3
	ldr	q1, [sp, #13136]
	ldr	q2, [sp, #13120]
	vj_load	q3, x9, .L1_a64_CPI3_4
	vj_page	x9, .L1_a64_CPI3_12
	eor	v0.16b, v5.16b, v0.16b
	vj_load	q5, x8, .L1_a64_CPI3_3
	vj_load	q4, x9, .L1_a64_CPI3_12
	eor	v1.16b, v1.16b, v3.16b
	ldr	x21, [sp, #192]
	cmp	w26, #129
	eor	v2.16b, v2.16b, v5.16b
	mov	x24, x25
	str	q4, [sp, #4480]
	str	q0, [sp, #4464]
	str	q0, [sp, #4528]
	movi	v0.2d, #0000000000000000
	str	q1, [sp, #4512]
	str	q2, [sp, #4496]
	str	q4, [sp, #4544]
	str	q1, [sp, #4576]
	str	q2, [sp, #4560]
	stp	q0, q0, [x22, #128]
	stp	q0, q0, [x22, #160]
	stp	q0, q0, [x22, #192]
	stp	q0, q0, [x22, #224]
	str	q0, [x22, #256]
	str	xzr, [x22, #272]
	b.lo	331f
330:
	ldr	x8, [sp, #4592]
	add	x0, sp, #1, lsl #12
	mov	x1, x24
	add	x0, x0, #368
	mov	w3, wzr
	mov	w4, wzr
	add	x2, x8, #128
	str	x2, [sp, #4592]
	vj_call	blake2_compress..compress..blake2b..compress_1_arm
	subs	x21, x21, #1
	add	x24, x24, #128
	b.ne	330b
	movi	v0.2d, #0000000000000000
	ldr	x23, [sp, #144]
	mov	w21, w26
	add	x0, x22, #144
	add	x1, x25, x23
	sub	x2, x21, x23
	stp	q0, q0, [x22, #144]
	stp	q0, q0, [x22, #176]
	stp	q0, q0, [x22, #208]
	stp	q0, q0, [x22, #240]
	vj_c_call	memcpy
	sub	x8, x21, x23
	b	332f
331:
	add	x0, x22, #144
	mov	w2, w26
	mov	x1, x25
	vj_c_call	memcpy
	mov	w8, w26
	mov	w21, w26
332:
	add	x0, sp, #3, lsl #12
	add	x1, sp, #1, lsl #12
	mov	w2, #280
	add	x0, x0, #832
	add	x1, x1, #368
	str	x8, [sp, #4736]
	vj_c_call	memcpy
	movi	v0.2d, #0000000000000000
	ldr	x2, [sp, #13392]
	ldr	x8, [sp, #13248]
	add	x23, sp, #3, lsl #12
	add	x0, sp, #672
	add	x23, x23, #832
	add	x24, x8, x2
	add	x1, x23, #144
	str	x24, [sp, #13248]
	stp	q0, q0, [sp, #672]
	stp	q0, q0, [sp, #704]
	stp	q0, q0, [sp, #736]
	stp	q0, q0, [sp, #768]
	vj_c_call	memcpy
	movi	v0.2d, #0000000000000000
	add	x8, sp, #3, lsl #12
	add	x0, sp, #3, lsl #12
	add	x8, x8, #832
	add	x0, x0, #832
	add	x1, sp, #2080
	ldrb	w4, [x8, #136]
	mov	x2, x24
	mov	w3, #1
	str	xzr, [x23, #272]
	mov	w24, #1
	stp	q0, q0, [x23, #144]
	stp	q0, q0, [x23, #176]
	stp	q0, q0, [x23, #208]
	stp	q0, q0, [x23, #240]
	ldp	q0, q1, [sp, #736]
	str	q0, [sp, #2144]
	ldp	q2, q0, [sp, #768]
	str	q1, [sp, #2160]
	str	q0, [sp, #2192]
	ldp	q1, q0, [sp, #672]
	str	q2, [sp, #2176]
	str	q0, [sp, #2096]
	ldp	q2, q0, [sp, #704]
	str	q1, [sp, #2080]
	str	q2, [sp, #2112]
	str	q0, [sp, #2128]
	vj_call	blake2_compress..compress..blake2b..compress_1_arm
	ldr	q0, [sp, #13120]
	ldr	q1, [sp, #13136]
	ldr	q2, [sp, #13168]
	ldr	x27, [sp, #4016]
	ldr	x23, [sp, #4008]
	str	q0, [sp, #4928]
	ldr	q0, [sp, #13152]
	str	q1, [sp, #4944]
	str	q0, [sp, #4960]
	str	q2, [sp, #4976]
333:
	lsl	x28, x24, #6
	sub	x8, x27, x23
	cmp	x28, x8
	b.hi	338f
334:
	ldr	x8, [sp, #4000]
	add	x9, sp, #1, lsl #12
	add	x9, x9, #832
	add	x0, x8, x23
	sub	x10, x0, x9
	cmp	x10, x28
	b.hs	326b
	sub	x9, x23, x9
	add	x9, x9, x8
	cmp	x9, #32
	b.hs	336f
	add	x8, sp, #1, lsl #12
	ldr	x1, [sp, #224]
	mov	x9, x28
	add	x8, x8, #832
335:
	ldrb	w10, [x8], #1
	subs	x9, x9, #1
	strb	w10, [x0], #1
	b.ne	335b
	b	327b
336:
	add	x8, x8, x23
	ldr	x9, [sp, #128]
	ldr	x1, [sp, #224]
	add	x8, x8, #16
	mov	x10, x28
337:
	ldp	q0, q1, [x9, #-16]
	subs	x10, x10, #32
	add	x9, x9, #32
	stp	q0, q1, [x8, #-16]
	add	x8, x8, #32
	b.ne	337b
	b	327b
338:
	add	x0, sp, #4000
	mov	x1, x28
	bl	std_alloc..vec..Vec..grow_amortized..3378b08034dc46b4_1_a64
	cbz	w0, 553f
	ldr	x23, [sp, #4008]
	ldr	x27, [sp, #4016]
	b	334b
339:
	mov	x21, xzr
340:
	ldrb	w10, [x9], #1
	sub	w10, w10, #48
	cmp	w10, #9
	b.hi	33b
	mov	w11, #10
	subs	x8, x8, #1
	mul	x11, x21, x11
	add	x21, x11, w10, uxtb
	b.ne	340b
	cmp	x20, #2
	str	x23, [sp, #424]
	b.eq	369f
	ldr	x8, [x28, #80]
	cmp	x8, #4
	b.ne	369f
	ldr	x8, [x28, #72]
	mov	x9, #28525
	movk	x9, #25970, lsl #16
	ldr	w8, [x8]
	orr	x9, x9, x9, lsl #32
	orr	x8, x8, x8, lsl #32
	cmp	x8, x9
	b.eq	500f
	mov	x9, #24940
	movk	x9, #29811, lsl #16
	orr	x9, x9, x9, lsl #32
	cmp	x8, x9
	b.ne	369f
	mov	w22, #1
	b	501f
341:
	mov	w8, #1
	cmp	x8, x15
	b.lo	245b
	b	249b
342:
	add	x8, sp, #1728
	mov	x9, x20
	stur	wzr, [x19, #33]
	ldur	q0, [x8, #56]
	ldur	q1, [x8, #72]
	ldur	q2, [x8, #88]
	strb	w9, [x19, #32]
	add	x13, sp, #180
	mov	w20, wzr
	str	q0, [sp, #4032]
	ldur	q0, [x8, #40]
	mov	w25, wzr
	str	q1, [sp, #4048]
	ldur	q1, [x8, #24]
	lsr	x14, x1, #8
	str	q0, [sp, #4016]
	ldr	w10, [sp, #4052]
	mov	w0, #4
	ldr	q0, [sp, #4016]
	str	q2, [sp, #4064]
	ldr	q2, [sp, #4048]
	str	q1, [sp, #4000]
	ldr	q3, [sp, #4064]
	stur	q0, [x19, #72]
	ldr	q1, [sp, #4000]
	ldr	q0, [sp, #4032]
	ldrb	w8, [x19, #79]
	ldurh	w9, [x19, #77]
	str	wzr, [sp, #4964]
	stur	q1, [x19, #56]
	ldrb	w12, [x19, #72]
	orr	w8, w9, w8, lsl #16
	ldur	w9, [x19, #73]
	stur	q3, [x19, #120]
	stur	q2, [x19, #104]
	ldur	q1, [x19, #56]
	ldr	x16, [sp, #5056]
	orr	x11, x9, x8, lsl #32
	stur	q0, [x19, #88]
	ldur	w8, [x22, #177]
	ldr	x9, [sp, #4960]
	ldr	x17, [sp, #5008]
	ldur	q4, [x19, #88]
	ldrb	w3, [x19, #104]
	ldr	x2, [sp, #5040]
	ldr	x22, [sp, #5048]
	str	x23, [sp, #424]
	mov	w23, wzr
	str	x26, [sp, #4944]
	str	x15, [sp, #4968]
	str	x1, [sp, #4976]
	stur	w10, [x13, #255]
	mov	x10, x11
	mov	w13, w1
343:
	str	w8, [sp, #432]
	str	x21, [sp, #4952]
	mov	x1, x21
	mov	x21, x9
	b	60b
344:
	fmov	s0, w26
	zip1	v0.4h, v0.4h, v0.4h
	b	347f
345:
	mov	x23, xzr
	str	x28, [sp, #280]
	str	xzr, [sp, #3056]
	str	x26, [sp, #3040]
	str	xzr, [sp, #3048]
	cbz	x21, 397f
	add	x8, sp, #2080
	add	x26, sp, #4, lsl #12
	mov	x25, xzr
	add	x27, x8, #8
	add	x8, sp, #1, lsl #12
	add	x26, x26, #856
	add	x8, x8, #832
	add	x22, x20, #16
	mov	x28, x21
	add	x8, x8, #168
	str	x8, [sp, #288]
	b	377f
346:
	ldr	s0, [sp, #1424]
	ldr	x21, [sp, #1392]
	ldr	x22, [sp, #1416]
	ushll	v0.4s, v0.4h, #0
347:
	mov	w8, #64
	fmov	d1, x1
	movi	v2.2d, #0000000000000000
	fmov	s3, w8
	mov	w8, #512
	add	x0, sp, #3, lsl #12
	add	x0, x0, #832
	add	x1, sp, #1376
	mov	x2, x21
	add	x21, sp, #3, lsl #12
	mov	v3.h[1], w8
	mov	w8, v0.s[1]
	str	q2, [sp, #13136]
	str	q2, [sp, #13120]
	add	x21, x21, #832
	mov	v3.h[2], v0.h[0]
	mov	v3.h[3], w8
	mov	v3.d[1], v1.d[0]
	str	q3, [sp, #400]
	vj_c_call	memcpy
	add	x8, sp, #1376
	orr	x0, x21, #0x10
	mov	x2, x22
	add	x1, x8, #24
	vj_c_call	memcpy
	vj_page	x8, .L1_a64_CPI3_1
	ldr	q5, [sp, #400]
	ldr	q1, [sp, #13136]
	vj_load	q0, x8, .L1_a64_CPI3_1
	vj_page	x8, .L1_a64_CPI3_4
	ldr	q2, [sp, #13120]
	vj_load	q3, x8, .L1_a64_CPI3_4
	vj_page	x8, .L1_a64_CPI3_3
	vj_page	x9, .L1_a64_CPI3_12
	eor	v0.16b, v5.16b, v0.16b
	vj_load	q5, x8, .L1_a64_CPI3_3
	add	x8, sp, #1, lsl #12
	eor	v1.16b, v1.16b, v3.16b
	add	x8, x8, #368
	vj_load	q4, x9, .L1_a64_CPI3_12
	eor	v2.16b, v2.16b, v5.16b
	add	x21, x8, #144
	ldr	x8, [sp, #392]
	str	q0, [sp, #4464]
	add	x9, sp, #1, lsl #12
	cmp	x20, #128
	str	q0, [sp, #4528]
	movi	v0.2d, #0000000000000000
	add	x9, x9, #368
	str	q4, [sp, #4480]
	str	q1, [sp, #4512]
	str	q2, [sp, #4496]
	str	q4, [sp, #4544]
	str	q1, [sp, #4576]
	str	q2, [sp, #4560]
	str	q0, [sp, #4592]
	str	q0, [sp, #4608]
	str	q0, [sp, #4624]
	str	q0, [sp, #4640]
	str	q0, [sp, #4656]
	str	q0, [sp, #4672]
	str	q0, [sp, #4688]
	str	q0, [sp, #4704]
	str	q0, [sp, #4720]
	str	xzr, [sp, #4736]
	strb	w8, [x9, #136]
	b.ls	352f
	sub	x22, x20, #1
	mov	x24, x25
	lsr	x23, x22, #7
348:
	ldr	x8, [sp, #4592]
	add	x0, sp, #1, lsl #12
	mov	x1, x24
	add	x0, x0, #368
	mov	w3, wzr
	mov	w4, wzr
	add	x2, x8, #128
	str	x2, [sp, #4592]
	vj_call	blake2_compress..compress..blake2b..compress_1_arm
	subs	x23, x23, #1
	add	x24, x24, #128
	b.ne	348b
	movi	v0.2d, #0000000000000000
	and	x8, x22, #0xffffffffffffff80
	add	x1, x25, x8
	sub	x24, x20, x8
	sub	x9, x21, x1
	cmp	x9, x24
	stp	q0, q0, [x21]
	stp	q0, q0, [x21, #32]
	stp	q0, q0, [x21, #64]
	stp	q0, q0, [x21, #96]
	b.hs	366f
	cmp	x24, #8
	b.lo	349f
	add	x10, sp, #1, lsl #12
	add	x9, x8, x25
	add	x10, x10, #368
	sub	x9, x10, x9
	add	x9, x9, #144
	cmp	x9, #32
	b.hs	468f
349:
	mov	x9, xzr
350:
	add	x10, sp, #1, lsl #12
	sub	x11, x20, x9
	add	x12, x9, x8
	add	x10, x10, #368
	sub	x8, x11, x8
	add	x10, x9, x10
	add	x9, x25, x12
	add	x10, x10, #144
351:
	ldrb	w11, [x9], #1
	subs	x8, x8, #1
	strb	w11, [x10], #1
	b.ne	351b
	b	367f
352:
	sub	x8, x21, x25
	cmp	x8, x20
	b.hs	368f
	cmp	x20, #8
	b.lo	353f
	add	x8, sp, #1, lsl #12
	add	x8, x8, #368
	sub	x8, x8, x25
	add	x8, x8, #144
	cmp	x8, #32
	b.hs	469f
353:
	mov	x8, xzr
	b	537f
354:
	add	x0, sp, #1, lsl #12
	add	x0, x0, #832
	bl	std_io..io..error..last_error_1_a64
	b	371f
355:
	mov	x27, xzr
	mov	w20, #8
	b	357f
356:
	mov	w20, #4
357:
	ldr	x2, [sp, #424]
	ldp	x23, x25, [sp, #392]
	ldr	x22, [sp, #368]
	ldr	x26, [sp, #352]
	ldr	w8, [sp, #336]
	mov	x21, x2
	ldr	w19, [sp, #328]
	tbnz	w8, #0, 358f
	ldr	x0, [sp, #304]
	vj_call	rattle_dealloc
	mov	x2, x21
358:
	tbz	w19, #0, 362f
359:
	cbz	x26, 360f
	mov	x0, x25
	vj_call	rattle_dealloc
	mov	x2, x21
360:
	mov	x24, x27
	cbz	x23, 361f
	mov	x0, x22
	vj_call	rattle_dealloc
	mov	x2, x21
361:
	mov	w22, #1
	cbnz	w22, 486f
	b	323b
362:
	add	x19, x25, #16
	b	364f
363:
	subs	x24, x24, #1
	add	x19, x19, #40
	b.eq	359b
364:
	ldurb	w8, [x19, #-16]
	cbnz	w8, 363b
	ldr	x8, [x19, #16]
	cbz	x8, 363b
	ldr	x0, [x19]
	vj_call	rattle_dealloc
	mov	x2, x21
	b	363b
365:
	mov	x16, x15
	mov	x14, x13
	cmp	x20, #32
	b.hs	410f
	mov	x9, xzr
	b	412f
366:
	mov	x0, x21
	mov	x2, x24
	vj_c_call	memmove
367:
	mov	x20, x24
	b	538f
368:
	mov	x0, x21
	mov	x1, x25
	mov	x2, x20
	vj_c_call	memcpy
	b	538f
369:
	movi	v0.2d, #0000000000000000
	ldr	x23, [sp, #424]
	mov	w26, wzr
	mov	x1, xzr
	str	q0, [sp, #1104]
	str	q0, [sp, #1088]
	str	q0, [sp, #1072]
	str	q0, [sp, #1056]
	str	q0, [sp, #1040]
	b	125b
370:
	mov	w19, #1
371:
	strb	w19, [x23]
372:
	ldr	x17, [sp, #272]
	ldr	x2, [sp, #256]
	cmp	w19, #0
	ldr	w3, [sp, #280]
	mov	w8, #9
	mov	x12, x26
	mov	x16, x28
	mov	x1, xzr
	csel	w0, w8, wzr, ne
	b	149b
373:
	movi	v0.2d, #0000000000000000
	add	x0, x20, #160
	str	xzr, [x27, #336]
	stp	q0, q0, [x27, #16]
	stp	q0, q0, [x27, #48]
	stp	q0, q0, [x27, #80]
	stp	q0, q0, [x27, #112]
	stp	q0, q0, [x27, #144]
	stp	q0, q0, [x27, #176]
	stp	q0, q0, [x27, #208]
	stp	q0, q0, [x27, #240]
	stp	q0, q0, [x27, #272]
	stp	q0, q0, [x27, #304]
	str	q0, [x27]
	bl	blake2_digest..wiping..settle..128_1_a64
	add	x0, x20, #288
	bl	blake2_digest..wiping..settle..64_1_a64
	ldr	x8, [sp, #3056]
	mov	x21, x28
	cmp	x8, x23
	b.eq	378f
374:
	add	x8, x26, x23, lsl #6
	ldr	q0, [sp, #3872]
	ldr	q1, [sp, #3920]
	ldr	q2, [sp, #3888]
	ldr	q3, [sp, #3904]
375:
	add	x23, x23, #1
	stp	q0, q2, [x8]
	stp	q3, q1, [x8, #32]
	str	x23, [sp, #3048]
376:
	add	x25, x25, #1
	add	x22, x22, #32
	cmp	x21, x25
	b.eq	439f
377:
	str	xzr, [sp, #3312]
	ldr	x9, [sp, #3176]
	str	xzr, [sp, #3296]
	str	xzr, [sp, #3304]
	str	xzr, [sp, #5088]
	ldur	x8, [x22, #-8]
	cmp	x9, x8
	b.ls	398f
	mov	w9, #360
	ldr	x10, [sp, #3168]
	madd	x20, x8, x9, x10
	ldrb	w8, [x20]
	cmp	w8, #1
	b.ne	398f
	ldurb	w8, [x22, #-16]
	cmp	w8, #1
	b.le	379f
	cmp	w8, #2
	b.eq	380f
	cmp	w8, #3
	b.ne	381f
	ldrb	w21, [x20, #8]
	add	x0, sp, #1376
	add	x1, x20, #16
	mov	w2, #344
	vj_c_call	memcpy
	movi	v0.2d, #0000000000000000
	add	x8, sp, #1728
	add	x1, sp, #1376
	add	x0, x8, #8
	mov	w2, #344
	str	xzr, [x20, #352]
	stp	q0, q0, [x20]
	stp	q0, q0, [x20, #32]
	stp	q0, q0, [x20, #64]
	stp	q0, q0, [x20, #96]
	stp	q0, q0, [x20, #128]
	stp	q0, q0, [x20, #160]
	stp	q0, q0, [x20, #192]
	stp	q0, q0, [x20, #224]
	stp	q0, q0, [x20, #256]
	stp	q0, q0, [x20, #288]
	stp	q0, q0, [x20, #320]
	vj_c_call	memcpy
	add	x0, sp, #3872
	add	x1, sp, #1728
	str	x21, [sp, #1728]
	bl	blake2_state..runs..Run..padded_1_a64
	add	x20, sp, #2080
	add	x1, sp, #1376
	mov	w2, #344
	add	x0, x20, #8
	vj_c_call	memcpy
	str	x21, [sp, #2080]
	cbz	x21, 373b
	movi	v0.2d, #0000000000000000
	add	x0, x20, #88
	stp	q0, q0, [x27, #16]
	stp	q0, q0, [x27, #48]
	stp	q0, q0, [x27, #80]
	stp	q0, q0, [x27, #112]
	stp	q0, q0, [x27, #144]
	str	q0, [x27]
	bl	blake2_digest..wiping..settle..64_1_a64
	add	x0, x20, #152
	bl	blake2_digest..wiping..settle..32_1_a64
	ldr	x8, [sp, #3056]
	mov	x21, x28
	cmp	x8, x23
	b.ne	374b
378:
	add	x0, sp, #3040
	bl	std_alloc..vec..Vec..grow_amortized..cc873f31dc2b008d_1_a64
	cbz	w0, 513f
	ldr	x23, [sp, #3048]
	ldr	x26, [sp, #3040]
	mov	x21, x28
	b	374b
379:
	cbnz	w8, 382f
	ldp	x1, x2, [x22]
	ldurb	w8, [x20, #8]
	cbz	w8, 387f
	ldr	x9, [x20, #80]
	ldrh	w8, [x20, #88]
	add	x9, x9, x8
	cmn	x9, x2
	b.hs	503f
	cmp	x2, #1
	b.ne	390f
	cmp	w8, #64
	b.hs	392f
	ldrb	w9, [x1]
	add	x10, x20, x8
	add	w8, w8, #1
	strh	w8, [x20, #88]
	strb	w9, [x10, #96]
	b	395f
380:
	ldrb	w8, [x20, #8]
	cbz	w8, 383f
	ldp	q0, q1, [x20, #48]
	movi	v2.2d, #0000000000000000
	ldrh	w8, [x20, #90]
	str	xzr, [x20, #80]
	stp	q0, q1, [x20, #16]
	ldp	q0, q1, [x20, #160]
	strh	w8, [x20, #88]
	stp	q2, q2, [x20, #128]
	stp	q0, q1, [x20, #96]
	b	376b
381:
	add	x0, sp, #4000
	add	x1, x20, #8
	bl	blake2_state..runs..Run..padded_1_a64
	ldrb	w8, [x20, #8]
	cbz	w8, 384f
	ldp	q0, q1, [x20, #48]
	movi	v2.2d, #0000000000000000
	ldrh	w8, [x20, #90]
	str	xzr, [x20, #80]
	stp	q0, q1, [x20, #16]
	ldp	q0, q1, [x20, #160]
	strh	w8, [x20, #88]
	stp	q2, q2, [x20, #128]
	stp	q0, q1, [x20, #96]
	b	385f
382:
	movi	v2.2d, #0000000000000000
	str	q2, [sp, #2256]
	str	q2, [sp, #2240]
	str	q2, [sp, #2224]
	str	q2, [sp, #2208]
	str	q2, [sp, #2192]
	str	q2, [sp, #2176]
	str	q2, [sp, #2160]
	str	q2, [sp, #2144]
	str	q2, [sp, #2128]
	str	q2, [sp, #2112]
	str	q2, [sp, #2096]
	str	q2, [sp, #2080]
	ldrb	w8, [x20, #8]
	cbz	x8, 388f
	ldur	q3, [x20, #16]
	ldr	x9, [x20, #80]
	add	x11, sp, #3744
	ldr	d0, [x20, #88]
	ldr	x10, [x20, #144]
	ldur	q1, [x20, #152]
	str	q3, [sp, #3744]
	ldur	q3, [x20, #32]
	str	q3, [sp, #3760]
	ldr	q3, [x20, #48]
	stur	q3, [x11, #32]
	ldr	q3, [x20, #64]
	stur	q3, [x11, #48]
	ldr	q3, [x20, #96]
	str	q3, [sp, #1728]
	ldr	q3, [x20, #112]
	str	q3, [sp, #1744]
	ldr	q3, [x20, #128]
	str	q3, [sp, #1760]
	ldr	x11, [x20, #184]
	str	x11, [sp, #2096]
	add	x11, sp, #2080
	ldur	q3, [x20, #168]
	stur	q2, [x11, #24]
	stur	q2, [x11, #40]
	stur	q2, [x11, #56]
	stur	q2, [x11, #72]
	stur	q2, [x11, #88]
	stur	q2, [x11, #104]
	stur	q2, [x11, #120]
	stur	q2, [x11, #136]
	stur	q2, [x11, #152]
	stur	q2, [x11, #168]
	str	q3, [sp, #2080]
	stur	xzr, [x11, #184]
	b	389f
383:
	movi	v0.2d, #0000000000000000
	mov	x8, x20
	str	q0, [x8, #232]!
	ldur	q1, [x8, #-152]
	ldur	q2, [x8, #-136]
	ldur	q3, [x8, #-120]
	stp	q0, q0, [x8, #16]
	str	q0, [x8, #48]
	ldur	w9, [x8, #-76]
	stp	q1, q2, [x20, #16]
	ldur	q1, [x8, #-104]
	stur	xzr, [x8, #-88]
	stp	q3, q1, [x20, #48]
	ldp	q2, q1, [x8, #96]
	stur	w9, [x8, #-80]
	stp	q2, q1, [x8, #-32]
	ldp	q1, q0, [x8, #64]
	stp	q1, q0, [x8, #-64]
	b	376b
384:
	movi	v0.2d, #0000000000000000
	mov	x8, x20
	str	q0, [x8, #232]!
	ldur	q1, [x8, #-152]
	ldur	q2, [x8, #-136]
	ldur	q3, [x8, #-120]
	stp	q0, q0, [x8, #16]
	str	q0, [x8, #48]
	ldur	w9, [x8, #-76]
	stp	q1, q2, [x20, #16]
	ldur	q1, [x8, #-104]
	stur	xzr, [x8, #-88]
	stp	q3, q1, [x20, #48]
	ldp	q2, q1, [x8, #96]
	stur	w9, [x8, #-80]
	stp	q2, q1, [x8, #-32]
	ldp	q1, q0, [x8, #64]
	stp	q1, q0, [x8, #-64]
385:
	ldr	x8, [sp, #3056]
	cmp	x8, x23
	b.eq	396f
386:
	ldr	q0, [sp, #4000]
	ldr	q1, [sp, #4048]
	add	x8, x26, x23, lsl #6
	ldr	q2, [sp, #4016]
	ldr	q3, [sp, #4032]
	b	375b
387:
	ldr	x9, [x20, #144]
	ldr	w8, [x20, #152]
	add	x9, x9, x8
	cmn	x9, x2
	b.hs	503f
	cmp	x2, #1
	b.ne	391f
	cmp	w8, #128
	b.hs	393f
	ldrb	w9, [x1]
	add	x10, x20, x8
	add	w8, w8, #1
	str	w8, [x20, #152]
	strb	w9, [x10, #168]
	b	395f
388:
	ldur	q2, [x20, #16]
	ldr	x9, [x20, #80]
	add	x11, x20, #168
	ldr	d0, [x20, #88]
	ldr	x10, [x20, #144]
	ldur	q1, [x20, #152]
	str	q2, [sp, #3744]
	ldur	q2, [x20, #32]
	str	q2, [sp, #3760]
	ldur	q2, [x20, #48]
	str	q2, [sp, #3776]
	ldur	q2, [x20, #64]
	str	q2, [sp, #3792]
	ldr	q2, [x20, #96]
	str	q2, [sp, #1728]
	ldr	q2, [x20, #112]
	str	q2, [sp, #1744]
	ldr	q2, [x20, #128]
	str	q2, [sp, #1760]
	ldr	q2, [x11, #112]
	str	q2, [sp, #2192]
	ldr	q2, [x11, #96]
	add	x11, x20, #296
	str	q2, [sp, #2176]
	ldur	q2, [x20, #248]
	str	q2, [sp, #2160]
	ldur	q2, [x20, #232]
	str	q2, [sp, #2144]
	ldur	q2, [x20, #216]
	str	q2, [sp, #2128]
	ldur	q2, [x20, #200]
	str	q2, [sp, #2112]
	ldur	q2, [x20, #184]
	str	q2, [sp, #2096]
	ldur	q2, [x20, #168]
	str	q2, [sp, #2080]
	ldp	q3, q2, [x11, #32]
	ldp	q4, q5, [x11]
	add	x11, sp, #2080
	stp	q3, q2, [x11, #160]
	stp	q4, q5, [x11, #128]
389:
	ldr	q2, [sp, #1728]
	ldr	q3, [sp, #1744]
	add	x12, sp, #1, lsl #12
	add	x12, x12, #832
	ldr	q4, [sp, #1760]
	ldr	x13, [sp, #288]
	stp	q2, q3, [x12, #96]
	ldr	q2, [sp, #2208]
	add	x2, sp, #1, lsl #12
	ldr	q3, [sp, #2224]
	stur	q4, [x12, #128]
	mov	w11, #1
	ldr	q4, [sp, #2240]
	add	x0, sp, #3296
	add	x1, sp, #3168
	stp	q2, q3, [x13, #128]
	ldr	q2, [sp, #2256]
	ldr	q3, [sp, #2144]
	add	x2, x2, #832
	str	x11, [sp, #4928]
	stp	q4, q2, [x13, #160]
	ldr	q2, [sp, #2160]
	ldr	q4, [sp, #2176]
	str	x8, [sp, #4936]
	stp	q3, q2, [x13, #64]
	ldr	q2, [sp, #2192]
	ldr	q3, [sp, #2080]
	str	x9, [sp, #5008]
	stp	q4, q2, [x13, #96]
	ldr	q2, [sp, #2096]
	ldr	q4, [sp, #2112]
	str	d0, [sp, #5016]
	stp	q3, q2, [x13]
	ldr	q2, [sp, #2128]
	ldr	q3, [sp, #3760]
	str	x10, [sp, #5072]
	stp	q4, q2, [x13, #32]
	ldr	q2, [sp, #3744]
	ldr	q4, [sp, #3776]
	stur	q1, [x19, #152]
	stp	q2, q3, [x12, #16]
	ldr	q2, [sp, #3792]
	stp	q4, q2, [x12, #48]
	bl	blake2_replay..calls..push..08bf280249c874f5_1_a64
	ldrb	w8, [sp, #3296]
	cbz	w8, 376b
	b	504f
390:
	add	x0, x20, #16
	bl	blake2_state..blake2s..State..absorb_blocks_1_a64
	b	395f
391:
	add	x0, x20, #16
	b	394f
392:
	add	x0, x20, #16
	mov	w2, #1
	bl	blake2_state..blake2s..State..absorb_blocks_1_a64
	b	395f
393:
	add	x0, x20, #16
	mov	w2, #1
394:
	bl	blake2_state..blake2b..State..absorb_blocks_1_a64
395:
	mov	x21, x28
	b	376b
396:
	add	x0, sp, #3040
	bl	std_alloc..vec..Vec..grow_amortized..cc873f31dc2b008d_1_a64
	cbz	w0, 513f
	ldr	x23, [sp, #3048]
	ldr	x26, [sp, #3040]
	mov	x21, x28
	b	386b
397:
	mov	w8, #1
	b	440f
398:
	mov	w19, wzr
399:
	ldr	x8, [sp, #3056]
	cbz	x8, 400f
	ldr	x0, [sp, #3040]
	vj_call	rattle_dealloc
400:
	ldr	x20, [sp, #3176]
	ldr	x21, [sp, #3168]
	ldr	x22, [sp, #3184]
	cbz	x20, 404f
	add	x23, sp, #1, lsl #12
	add	x27, x21, #8
	add	x23, x23, #832
	add	x26, x23, #8
	b	403f
401:
	add	x0, x23, #88
	stp	q0, q0, [x26, #16]
	stp	q0, q0, [x26, #48]
	stp	q0, q0, [x26, #80]
	stp	q0, q0, [x26, #112]
	stp	q0, q0, [x26, #144]
	str	q0, [x26]
	bl	blake2_digest..wiping..settle..64_1_a64
	add	x0, x23, #152
	bl	blake2_digest..wiping..settle..32_1_a64
402:
	subs	x20, x20, #1
	add	x27, x27, #360
	b.eq	404f
403:
	ldurb	w8, [x27, #-8]
	cbz	w8, 402b
	mov	x1, x27
	add	x0, x23, #8
	mov	w2, #344
	ldrb	w28, [x1], #8
	str	x28, [sp, #4928]
	vj_c_call	memcpy
	movi	v0.2d, #0000000000000000
	cbnz	x28, 401b
	add	x0, x23, #160
	str	xzr, [x26, #336]
	stp	q0, q0, [x26, #16]
	stp	q0, q0, [x26, #48]
	stp	q0, q0, [x26, #80]
	stp	q0, q0, [x26, #112]
	stp	q0, q0, [x26, #144]
	stp	q0, q0, [x26, #176]
	stp	q0, q0, [x26, #208]
	stp	q0, q0, [x26, #240]
	stp	q0, q0, [x26, #272]
	stp	q0, q0, [x26, #304]
	str	q0, [x26]
	bl	blake2_digest..wiping..settle..128_1_a64
	add	x0, x23, #288
	bl	blake2_digest..wiping..settle..64_1_a64
	b	402b
404:
	cbnz	x22, 309b
	b	310b
405:
	ldr	x9, [sp, #400]
	mov	w8, #64
	add	x0, sp, #1, lsl #12
	add	x0, x0, #832
	mov	x1, x28
	str	q0, [sp, #4976]
	cmp	x9, #64
	str	q0, [sp, #4960]
	csel	x2, x9, x8, lo
406:
	str	q0, [sp, #4944]
	str	q0, [sp, #4928]
	vj_c_call	memcpy
	ldr	q0, [sp, #4928]
	ldr	q1, [sp, #4944]
	cmp	x27, #65
	ldr	q2, [sp, #4960]
	ldr	q3, [sp, #4976]
	mov	w8, #64
	csel	x8, x27, x8, lo
	cset	w9, lo
	mov	w24, #1
	str	q0, [sp, #13120]
	str	q1, [sp, #13136]
	str	q2, [sp, #13152]
	str	q3, [sp, #13168]
	stp	q0, q1, [x20]
	stp	q2, q3, [x20, #32]
	str	x8, [x20, #64]
	strb	w9, [x20, #72]
	stur	wzr, [x20, #73]
	str	wzr, [x20, #76]
	str	x24, [sp, #2088]
	cbz	x23, 424f
	tbz	w26, #0, 417f
	ldr	x9, [sp, #400]
	mov	x21, xzr
	mov	w24, #1
	b	409f
407:
	ldr	x24, [sp, #2088]
	ldr	x20, [sp, #2080]
408:
	mov	w8, #80
	ldr	q0, [sp, #13168]
	ldr	q1, [sp, #13152]
	madd	x8, x24, x8, x20
	ldr	q2, [sp, #13136]
	ldr	q3, [sp, #13120]
	subs	x23, x23, #1
	add	x24, x24, #1
	add	x21, x21, #64
	stp	q3, q2, [x8]
	stp	q1, q0, [x8, #32]
	str	x26, [x8, #64]
	strb	w25, [x8, #72]
	strb	wzr, [x8, #73]
	ldr	w9, [sp, #4928]
	ldrh	w10, [sp, #4932]
	stur	w9, [x8, #74]
	mov	x9, x22
	strh	w10, [x8, #78]
	str	x24, [sp, #2088]
	b.eq	424f
409:
	movi	v0.2d, #0000000000000000
	subs	x22, x9, #64
	mov	w8, #64
	add	x0, sp, #1, lsl #12
	csel	x2, x9, x8, lo
	add	x1, x28, x21
	add	x0, x0, #832
	str	q0, [sp, #4976]
	str	q0, [sp, #4960]
	str	q0, [sp, #4944]
	str	q0, [sp, #4928]
	vj_c_call	memcpy
	ldr	q0, [sp, #4928]
	ldr	x8, [sp, #2096]
	cmp	x23, #1
	ldr	q1, [sp, #4944]
	ldr	q2, [sp, #4960]
	add	x9, x21, #128
	str	q0, [sp, #13120]
	ldr	q0, [sp, #4976]
	cset	w25, eq
	csel	x26, x27, x9, eq
	cmp	x8, x24
	str	q1, [sp, #13136]
	str	q2, [sp, #13152]
	str	q0, [sp, #13168]
	strh	wzr, [sp, #4932]
	str	wzr, [sp, #4928]
	b.ne	408b
	add	x0, sp, #2080
	bl	std_alloc..vec..Vec..grow_amortized..6c60784b9e596c8b_1_a64
	cbnz	w0, 407b
	b	421f
410:
	add	x12, x8, x1
	and	x10, x20, #0x18
	and	x9, x20, #0xffffffffffffffe0
	mov	x15, x1
	add	x11, x25, #16
	add	x12, x12, #16
	and	x13, x20, #0xffffffffffffffe0
411:
	ldp	q0, q1, [x11, #-16]
	subs	x13, x13, #32
	add	x11, x11, #32
	stp	q0, q1, [x12, #-16]
	add	x12, x12, #32
	b.ne	411b
	cmp	x20, x9
	add	x21, x8, x20
	mov	x13, x14
	mov	x1, x15
	mov	x15, x16
	b.eq	416f
	cbz	x10, 283b
412:
	mov	x11, x9
	and	x9, x20, #0xfffffffffffffff8
	mov	x15, x1
	add	x12, x8, x11
	sub	x10, x11, x9
	add	x11, x25, x11
	add	x12, x1, x12
413:
	ldr	d0, [x11], #8
	adds	x10, x10, #8
	str	d0, [x12], #8
	b.ne	413b
	cmp	x20, x9
	add	x21, x8, x20
	mov	x13, x14
	mov	x1, x15
	mov	x15, x16
	b.eq	416f
	b	283b
414:
	add	x0, sp, #1728
	mov	x1, x20
	mov	x21, x13
	bl	std_alloc..vec..Vec..grow_amortized..3378b08034dc46b4_1_a64
	cbz	w0, 449f
	ldr	x15, [sp, #1744]
	ldr	x8, [sp, #1736]
	mov	x13, x21
	ldr	x1, [sp, #1728]
	add	x0, x1, x8
	add	x21, x8, x20
	str	x23, [sp, #424]
	sub	x9, x0, x25
	cmp	x9, x20
	b.lo	281b
415:
	mov	x23, x1
	mov	x1, x25
	mov	x2, x20
	mov	x22, x13
	mov	x25, x15
	vj_c_call	memmove
	mov	x15, x25
	mov	x1, x23
	mov	x13, x22
416:
	movi	v0.2d, #0000000000000000
	add	x8, sp, #180
	mov	w20, wzr
	mov	w25, wzr
	mov	w23, wzr
	mov	x16, xzr
	mov	x22, xzr
	mov	x2, xzr
	mov	w3, wzr
	mov	x17, xzr
	mov	w12, wzr
	mov	x14, xzr
	mov	x10, xzr
	str	x26, [sp, #4944]
	movi	v1.2d, #0000000000000000
	str	x1, [sp, #4952]
	movi	v4.2d, #0000000000000000
	mov	w0, #5
	str	x21, [sp, #4960]
	str	x15, [sp, #4968]
	strb	w13, [x19, #48]
	stur	q0, [x19, #49]
	stur	q0, [x19, #65]
	stur	q0, [x19, #81]
	stur	q0, [x19, #97]
	stur	q0, [x19, #113]
	str	xzr, [sp, #5056]
	str	wzr, [sp, #432]
	stur	wzr, [x8, #255]
	b	60b
417:
	ldr	x8, [sp, #400]
	mov	w24, #1
	mov	w21, #64
	sub	x8, x8, #64
	b	420f
418:
	ldr	x24, [sp, #2088]
	ldr	x20, [sp, #2080]
419:
	mov	w8, #80
	ldr	q0, [sp, #13168]
	ldr	q1, [sp, #13152]
	madd	x8, x24, x8, x20
	ldr	q2, [sp, #13136]
	ldr	q3, [sp, #13120]
	subs	x23, x23, #1
	add	x24, x24, #1
	stp	q3, q2, [x8]
	stp	q1, q0, [x8, #32]
	str	x26, [x8, #64]
	strb	w25, [x8, #72]
	strb	wzr, [x8, #73]
	ldr	w9, [sp, #4928]
	ldrh	w10, [sp, #4932]
	stur	w9, [x8, #74]
	strh	w10, [x8, #78]
	mov	x8, x22
	str	x24, [sp, #2088]
	b.eq	424f
420:
	movi	v0.2d, #0000000000000000
	subs	x22, x8, #64
	mov	w9, #64
	add	x0, sp, #1, lsl #12
	csel	x2, x8, x9, lo
	add	x1, x28, x21
	add	x0, x0, #832
	str	q0, [sp, #4976]
	str	q0, [sp, #4960]
	str	q0, [sp, #4944]
	str	q0, [sp, #4928]
	vj_c_call	memcpy
	ldr	q0, [sp, #4928]
	ldr	x8, [sp, #2096]
	cmp	x23, #1
	ldr	q1, [sp, #4944]
	ldr	q2, [sp, #4960]
	add	x21, x21, #64
	str	q0, [sp, #13120]
	ldr	q0, [sp, #4976]
	cset	w25, eq
	csel	x26, x27, x21, eq
	cmp	x8, x24
	str	q1, [sp, #13136]
	str	q2, [sp, #13152]
	str	q0, [sp, #13168]
	strh	wzr, [sp, #4932]
	str	wzr, [sp, #4928]
	b.ne	419b
	add	x0, sp, #2080
	bl	std_alloc..vec..Vec..grow_amortized..6c60784b9e596c8b_1_a64
	cbnz	w0, 418b
421:
	ldr	x8, [sp, #2096]
	cbz	x8, 422f
	ldr	x0, [sp, #2080]
	vj_call	rattle_dealloc
422:
	ldr	x8, [sp, #392]
	cbz	x8, 423f
	mov	x0, x28
	vj_call	rattle_dealloc
423:
	mov	x24, xzr
	mov	w22, #1
	mov	w0, #8
	ldr	x2, [sp, #424]
	mov	w20, w0
	cbnz	w22, 486f
	b	323b
424:
	movi	v0.2d, #0000000000000000
	add	x23, sp, #3, lsl #12
	add	x17, sp, #3, lsl #12
	mov	w8, #119
	add	x23, x23, #832
	add	x17, x17, #832
	strb	w8, [x17]
	add	x8, x23, #74
	ldr	w9, [sp, #352]
	mov	w10, #12320
	mov	w12, #49
	ldr	x20, [sp, #2080]
	stp	q0, q0, [x8, #192]
	movk	w10, #12337, lsl #16
	ldr	x26, [sp, #2096]
	stp	q0, q0, [x8, #224]
	mov	x22, xzr
	stp	q0, q0, [x8, #256]
	stp	q0, q0, [x8, #288]
	str	q0, [x8, #320]
	add	x8, x23, #408
	str	q0, [x8]
	ldr	w8, [sp, #368]
	stur	w10, [x17, #1]
	orr	w8, w9, w8
	strb	w12, [x17, #5]
	rev	w9, w8
	stur	q0, [x17, #74]
	lsr	w8, w9, #16
	lsr	w11, w9, #24
	ubfx	x9, x9, #16, #4
	stur	q0, [x17, #90]
	ubfx	x10, x8, #4, #4
	vj_page	x8, .L1_a64_static.37
	vj_address	x8, x8, .L1_a64_static.37
	ldrb	w9, [x8, x9]
	lsr	x13, x11, #4
	and	x11, x11, #0xf
	ldrb	w10, [x8, x10]
	stur	q0, [x17, #106]
	strb	w9, [x17, #7]
	ldrb	w9, [x8, x11]
	ldr	w11, [sp, #304]
	strb	w10, [x17, #6]
	ldrb	w10, [x8, x13]
	rev	w11, w11
	strb	w9, [x17, #9]
	mov	w9, #32
	ubfx	x12, x11, #4, #4
	strb	w10, [x17, #8]
	mov	x10, #3472328296227680304
	stur	x10, [x17, #11]
	lsr	w14, w11, #16
	lsr	w13, w11, #8
	stur	x10, [x17, #20]
	lsr	w15, w11, #24
	stur	x10, [x17, #29]
	ldrb	w10, [x8, x12]
	and	x12, x11, #0xf
	ubfx	x14, x14, #4, #4
	ubfx	x13, x13, #4, #4
	strb	w9, [x17, #10]
	strb	w10, [x17, #38]
	ldrb	w10, [x8, x12]
	ubfx	x12, x11, #8, #4
	ubfx	x11, x11, #16, #4
	ldrb	w13, [x8, x13]
	strb	w9, [x17, #19]
	strb	w10, [x17, #39]
	ldrb	w10, [x8, x12]
	ldrb	w12, [x8, x14]
	lsr	x14, x15, #4
	strb	w13, [x17, #40]
	and	x13, x15, #0xf
	strb	w12, [x17, #42]
	ldr	w12, [sp, #328]
	strb	w10, [x17, #41]
	ldrb	w10, [x8, x11]
	ldrb	w11, [x8, x14]
	rev	w12, w12
	strb	w9, [x17, #28]
	strb	w10, [x17, #43]
	ldrb	w10, [x8, x13]
	lsr	w13, w12, #8
	ubfx	x14, x12, #4, #4
	strb	w11, [x17, #44]
	lsr	w11, w12, #24
	strb	w10, [x17, #45]
	lsr	w10, w12, #16
	ubfx	x13, x13, #4, #4
	and	x15, x12, #0xf
	ubfx	x16, x12, #8, #4
	ubfx	x12, x12, #16, #4
	ldrb	w13, [x8, x13]
	ubfx	x10, x10, #4, #4
	ldrb	w14, [x8, x14]
	ldrb	w12, [x8, x12]
	ldrb	w15, [x8, x15]
	strb	w9, [x17, #37]
	strb	w13, [x17, #49]
	ldrb	w10, [x8, x10]
	lsr	x13, x11, #4
	strb	w12, [x17, #52]
	ldr	w12, [sp, #336]
	and	x11, x11, #0xf
	strb	w10, [x17, #51]
	ldrb	w10, [x8, x13]
	ldrb	w11, [x8, x11]
	rev	w12, w12
	strb	w14, [x17, #47]
	ldrb	w14, [x8, x16]
	strb	w10, [x17, #53]
	lsr	w10, w12, #8
	ubfx	x13, x12, #4, #4
	strb	w11, [x17, #54]
	lsr	w11, w12, #16
	ubfx	x16, x12, #8, #4
	ubfx	x10, x10, #4, #4
	strb	w15, [x17, #48]
	and	x15, x12, #0xf
	strb	w14, [x17, #50]
	lsr	w14, w12, #24
	ubfx	x12, x12, #16, #4
	ldrb	w10, [x8, x10]
	ubfx	x11, x11, #4, #4
	ldrb	w15, [x8, x15]
	ldrb	w12, [x8, x12]
	ldrb	w13, [x8, x13]
	strb	w9, [x17, #46]
	strb	w10, [x17, #58]
	ldrb	w10, [x8, x11]
	lsr	x11, x14, #4
	strb	w12, [x17, #61]
	ldr	w12, [sp, #288]
	strb	w10, [x17, #60]
	ldrb	w10, [x8, x11]
	and	x11, x14, #0xf
	rev	w12, w12
	ldrb	w11, [x8, x11]
	strb	w15, [x17, #57]
	strb	w10, [x17, #62]
	lsr	w10, w12, #8
	lsr	w14, w12, #24
	strb	w11, [x17, #63]
	lsr	w11, w12, #16
	and	x15, x12, #0xf
	ubfx	x10, x10, #4, #4
	strb	w9, [x17, #55]
	ubfx	x11, x11, #4, #4
	strb	w13, [x17, #56]
	ldrb	w13, [x8, x16]
	ldrb	w10, [x8, x10]
	strb	w9, [x17, #64]
	ldrb	w9, [x8, x15]
	ubfx	x15, x12, #8, #4
	strb	w13, [x17, #59]
	ubfx	x13, x12, #4, #4
	strb	w10, [x17, #67]
	ldrb	w10, [x8, x11]
	lsr	x11, x14, #4
	strb	w9, [x17, #66]
	ldrb	w9, [x8, x15]
	ubfx	x12, x12, #16, #4
	strb	w10, [x17, #69]
	ldrb	w10, [x8, x11]
	and	x11, x14, #0xf
	ldrb	w13, [x8, x13]
	strb	w9, [x17, #68]
	ldrb	w9, [x8, x12]
	ldrb	w8, [x8, x11]
	stur	q0, [x17, #122]
	stur	q0, [x17, #138]
	strb	w8, [x17, #72]
	mov	w8, #10
	strb	w8, [x17, #73]
	mov	w8, #74
	stur	q0, [x17, #154]
	stur	q0, [x17, #170]
	stur	q0, [x17, #186]
	stur	q0, [x17, #202]
	stur	q0, [x17, #218]
	stur	q0, [x17, #234]
	stur	q0, [x17, #250]
	strb	w13, [x17, #65]
	strb	w9, [x17, #70]
	strb	w10, [x17, #71]
	str	x8, [sp, #13544]
425:
	mov	w8, #74
	add	x1, x23, x22
	mov	w0, #1
	sub	x21, x8, x22
	mov	x2, x21
	vj_system_call	write, b2_write
	tbnz	x0, #63, 433f
	cmp	x0, x21
	csel	x8, x0, x21, lo
	cbz	x8, 481f
	add	x22, x8, x22
	cmp	x22, #73
	b.ls	425b
	cbz	x24, 471f
	add	x8, sp, #1, lsl #12
	mov	x23, xzr
	add	x8, x8, #832
	orr	x21, x8, #0x2
	b	427f
426:
	add	x23, x23, #1
	mov	w22, wzr
	mov	x25, xzr
	cmp	x23, x24
	b.eq	482f
427:
	mov	w8, #101
	movi	v0.2d, #0000000000000000
	mov	w9, #32
	strb	w8, [x19]
	mov	w8, #80
	mov	w27, #19
	madd	x22, x23, x8, x20
	add	x8, x21, #414
	stp	q0, q0, [x21]
	stp	q0, q0, [x21, #32]
	stp	q0, q0, [x21, #64]
	stp	q0, q0, [x21, #96]
	stp	q0, q0, [x21, #128]
	stp	q0, q0, [x21, #160]
	stp	q0, q0, [x21, #192]
	stp	q0, q0, [x21, #224]
	stp	q0, q0, [x21, #256]
	stp	q0, q0, [x21, #288]
	stp	q0, q0, [x21, #320]
	stp	q0, q0, [x21, #352]
	stp	q0, q0, [x21, #384]
	str	xzr, [x8]
	mov	w8, #1
	str	x8, [sp, #5352]
	ldr	x8, [x22, #64]
	strb	w9, [x19, #1]
	str	xzr, [sp, #2088]
	cmp	x8, #10
	str	xzr, [sp, #2080]
	str	wzr, [sp, #2096]
	b.lo	429f
	mov	x9, x8
428:
	mov	x8, #-3689348814741910324
	mov	w10, #10
	add	x11, sp, #2080
	movk	x8, #52429
	cmp	x9, #99
	umulh	x8, x9, x8
	lsr	x8, x8, #3
	msub	w10, w8, w10, w9
	orr	w9, w10, #0x30
	strb	w9, [x11, x27]
	sub	x27, x27, #1
	mov	x9, x8
	b.hi	428b
429:
	add	x9, sp, #2080
	mov	w10, #20
	mov	x0, x21
	sub	x2, x10, x27
	add	x1, x9, x27
	orr	w8, w8, #0x30
	strb	w8, [x9, x27]
	vj_c_call	memcpy
	add	x9, sp, #1, lsl #12
	ldrb	w8, [x22, #72]
	add	x9, x9, #832
	sub	x9, x9, x27
	cmp	w8, #1
	add	x8, x9, #22
	b.ne	430f
	vj_page	x9, .L1_a64_static.42
	vj_address	x9, x9, .L1_a64_static.42
	sub	x9, x8, x9
	cmp	x9, #1
	mov	w9, #12576
	b	431f
430:
	vj_page	x9, .L1_a64_static.43
	vj_address	x9, x9, .L1_a64_static.43
	sub	x9, x8, x9
	cmp	x9, #1
	mov	w9, #12320
431:
	strh	w9, [x8]
	mov	w8, #24
	add	x0, sp, #1, lsl #12
	sub	x8, x8, x27
	add	x0, x0, #832
	mov	x1, x22
	mov	w2, #64
	add	x22, sp, #1, lsl #12
	str	x8, [sp, #5352]
	add	x22, x22, #832
	bl	b2_commands..print..Line..add_block_1_a64
	ldr	x8, [sp, #5352]
	mov	w9, #10
	strb	w9, [x22, x8]
	adds	x22, x8, #1
	str	x22, [sp, #5352]
	b.hs	426b
	mov	x25, xzr
432:
	add	x8, sp, #1, lsl #12
	sub	x2, x22, x25
	mov	w0, #1
	add	x8, x8, #832
	sub	x27, x22, x25
	add	x1, x8, x25
	vj_system_call	write, b2_write
	tbnz	x0, #63, 479f
	cmp	x0, x27
	csel	x8, x0, x27, lo
	cbz	x8, 481f
	add	x25, x8, x25
	cmp	x25, x22
	b.lo	432b
	b	426b
433:
	add	x0, sp, #1, lsl #12
	add	x0, x0, #832
	b	480f
434:
	ldr	x9, [sp, #400]
	mov	w8, #128
	add	x0, sp, #1, lsl #12
	add	x0, x0, #832
	mov	x1, x20
	str	q0, [sp, #5040]
	cmp	x9, #128
	str	q0, [sp, #5024]
	csel	x2, x9, x8, lo
435:
	str	q0, [sp, #5008]
	str	q0, [sp, #4992]
	str	q0, [sp, #4976]
	str	q0, [sp, #4960]
	str	q0, [sp, #4944]
	str	q0, [sp, #4928]
	vj_c_call	memcpy
	cmp	x24, #129
	mov	w8, #128
	ldr	q0, [sp, #4992]
	ldr	q1, [sp, #5008]
	ldr	q2, [sp, #5024]
	ldr	q3, [sp, #5040]
	ldr	q4, [sp, #4928]
	ldr	q5, [sp, #4944]
	csel	x8, x24, x8, lo
	ldr	q6, [sp, #4960]
	ldr	q7, [sp, #4976]
	cset	w9, lo
	str	x8, [x25, #128]
	mov	w8, #1
	str	q0, [sp, #13184]
	str	q1, [sp, #13200]
	str	q2, [sp, #13216]
	str	q3, [sp, #13232]
	str	q4, [sp, #13120]
	str	q5, [sp, #13136]
	str	q6, [sp, #13152]
	str	q7, [sp, #13168]
	stp	q4, q5, [x25]
	stp	q6, q7, [x25, #32]
	stp	q0, q1, [x25, #64]
	stp	q2, q3, [x25, #96]
	strb	w9, [x25, #136]
	str	wzr, [x25, #140]
	stur	wzr, [x25, #137]
	str	x8, [sp, #1048]
	cbz	x23, 458f
	tbz	w26, #0, 451f
	ldr	x9, [sp, #400]
	mov	x21, xzr
	mov	w22, #1
	b	438f
436:
	ldr	x22, [sp, #1048]
	ldr	x25, [sp, #1040]
437:
	mov	w8, #144
	ldr	q0, [sp, #13216]
	ldr	q1, [sp, #13232]
	madd	x8, x22, x8, x25
	ldr	q2, [sp, #13120]
	ldr	q3, [sp, #13136]
	ldr	q4, [sp, #13152]
	ldr	q5, [sp, #13168]
	add	x22, x22, #1
	ldr	q6, [sp, #13184]
	ldr	q7, [sp, #13200]
	subs	x23, x23, #1
	add	x21, x21, #128
	stp	q2, q3, [x8]
	stp	q4, q5, [x8, #32]
	stp	q6, q7, [x8, #64]
	stp	q0, q1, [x8, #96]
	str	x28, [x8, #128]
	strb	w27, [x8, #136]
	strb	wzr, [x8, #137]
	ldrh	w9, [sp, #4932]
	ldr	w10, [sp, #4928]
	strh	w9, [x8, #142]
	mov	x9, x26
	stur	w10, [x8, #138]
	str	x22, [sp, #1048]
	b.eq	458f
438:
	movi	v0.2d, #0000000000000000
	subs	x26, x9, #128
	mov	w8, #128
	add	x0, sp, #1, lsl #12
	csel	x2, x9, x8, lo
	add	x1, x20, x21
	add	x0, x0, #832
	str	q0, [sp, #5040]
	str	q0, [sp, #5024]
	str	q0, [sp, #5008]
	str	q0, [sp, #4992]
	str	q0, [sp, #4976]
	str	q0, [sp, #4960]
	str	q0, [sp, #4944]
	str	q0, [sp, #4928]
	vj_c_call	memcpy
	ldr	q0, [sp, #4992]
	ldr	q1, [sp, #5008]
	cmp	x23, #1
	ldr	q2, [sp, #5040]
	ldr	x8, [sp, #1056]
	add	x9, x21, #256
	str	q0, [sp, #13184]
	ldr	q0, [sp, #5024]
	cset	w27, eq
	str	q1, [sp, #13200]
	ldr	q1, [sp, #4928]
	csel	x28, x24, x9, eq
	str	q0, [sp, #13216]
	ldr	q0, [sp, #4944]
	cmp	x8, x22
	str	q2, [sp, #13232]
	ldr	q2, [sp, #4960]
	str	q0, [sp, #13136]
	ldr	q0, [sp, #4976]
	str	q1, [sp, #13120]
	str	q2, [sp, #13152]
	str	q0, [sp, #13168]
	strh	wzr, [sp, #4932]
	str	wzr, [sp, #4928]
	b.ne	437b
	add	x0, sp, #1040
	bl	std_alloc..vec..Vec..grow_amortized..ccf18ec6ff387d97_1_a64
	cbnz	w0, 436b
	b	455f
439:
	ldr	x8, [sp, #3056]
	cmp	x8, #0
	cset	w8, eq
440:
	ldr	x20, [sp, #3176]
	ldr	x25, [sp, #3168]
	ldr	x21, [sp, #3184]
	str	w8, [sp, #328]
	cbz	x20, 444f
	add	x22, sp, #1, lsl #12
	add	x28, x25, #8
	add	x22, x22, #832
	add	x27, x22, #8
	b	443f
441:
	add	x0, x22, #88
	stp	q0, q0, [x27, #16]
	stp	q0, q0, [x27, #48]
	stp	q0, q0, [x27, #80]
	stp	q0, q0, [x27, #112]
	stp	q0, q0, [x27, #144]
	str	q0, [x27]
	bl	blake2_digest..wiping..settle..64_1_a64
	add	x0, x22, #152
	bl	blake2_digest..wiping..settle..32_1_a64
442:
	subs	x20, x20, #1
	add	x28, x28, #360
	b.eq	444f
443:
	ldurb	w8, [x28, #-8]
	cbz	w8, 442b
	mov	x1, x28
	add	x0, x22, #8
	mov	w2, #344
	ldrb	w19, [x1], #8
	str	x19, [sp, #4928]
	vj_c_call	memcpy
	movi	v0.2d, #0000000000000000
	cbnz	x19, 441b
	add	x0, x22, #160
	str	xzr, [x27, #336]
	stp	q0, q0, [x27, #16]
	stp	q0, q0, [x27, #48]
	stp	q0, q0, [x27, #80]
	stp	q0, q0, [x27, #112]
	stp	q0, q0, [x27, #144]
	stp	q0, q0, [x27, #176]
	stp	q0, q0, [x27, #208]
	stp	q0, q0, [x27, #240]
	stp	q0, q0, [x27, #272]
	stp	q0, q0, [x27, #304]
	str	q0, [x27]
	bl	blake2_digest..wiping..settle..128_1_a64
	add	x0, x22, #288
	bl	blake2_digest..wiping..settle..64_1_a64
	b	442b
444:
	cbz	x21, 445f
	mov	x0, x25
	vj_call	rattle_dealloc
445:
	ldr	x3, [sp, #280]
	ldr	x4, [sp, #424]
	add	x0, sp, #2784
	mov	x1, x26
	mov	x2, x23
	bl	b2_commands..script..print_lines..c1844c1740294036_1_a64
	ldrb	w22, [sp, #2784]
	ldrb	w20, [sp, #2792]
	ldr	x19, [sp, #2800]
	ldr	w8, [sp, #328]
	tbnz	w8, #0, 446f
	mov	x0, x26
	vj_call	rattle_dealloc
446:
	ldr	w8, [sp, #336]
	tbnz	w8, #0, 447f
	ldr	x0, [sp, #304]
	vj_call	rattle_dealloc
447:
	ldr	x8, [sp, #400]
	add	x0, sp, #2656
	str	x24, [sp, #2664]
	str	x8, [sp, #2656]
	ldr	x8, [sp, #352]
	str	x8, [sp, #2672]
	bl	std_alloc..vec..Vec..drop..3aab827fbd83c4c4_1_a64
	ldr	x8, [sp, #392]
	cbz	x8, 448f
	ldr	x0, [sp, #368]
	vj_call	rattle_dealloc
448:
	ldr	x2, [sp, #424]
	mov	x24, x19
	cbnz	w22, 486f
	b	323b
449:
	ldr	x8, [sp, #1744]
	cbz	x8, 450f
	ldr	x0, [sp, #1728]
	vj_call	rattle_dealloc
450:
	mov	w26, #8
	b	29b
451:
	ldr	x8, [sp, #400]
	mov	w22, #1
	mov	w21, #128
	sub	x8, x8, #128
	b	454f
452:
	ldr	x22, [sp, #1048]
	ldr	x25, [sp, #1040]
453:
	mov	w8, #144
	ldr	q0, [sp, #13216]
	ldr	q1, [sp, #13232]
	madd	x8, x22, x8, x25
	ldr	q2, [sp, #13120]
	ldr	q3, [sp, #13136]
	ldr	q4, [sp, #13152]
	ldr	q5, [sp, #13168]
	add	x22, x22, #1
	ldr	q6, [sp, #13184]
	ldr	q7, [sp, #13200]
	subs	x23, x23, #1
	stp	q2, q3, [x8]
	stp	q4, q5, [x8, #32]
	stp	q6, q7, [x8, #64]
	stp	q0, q1, [x8, #96]
	str	x28, [x8, #128]
	strb	w27, [x8, #136]
	strb	wzr, [x8, #137]
	ldrh	w9, [sp, #4932]
	ldr	w10, [sp, #4928]
	strh	w9, [x8, #142]
	stur	w10, [x8, #138]
	mov	x8, x26
	str	x22, [sp, #1048]
	b.eq	458f
454:
	movi	v0.2d, #0000000000000000
	subs	x26, x8, #128
	mov	w9, #128
	add	x0, sp, #1, lsl #12
	csel	x2, x8, x9, lo
	add	x1, x20, x21
	add	x0, x0, #832
	str	q0, [sp, #5040]
	str	q0, [sp, #5024]
	str	q0, [sp, #5008]
	str	q0, [sp, #4992]
	str	q0, [sp, #4976]
	str	q0, [sp, #4960]
	str	q0, [sp, #4944]
	str	q0, [sp, #4928]
	vj_c_call	memcpy
	ldr	q0, [sp, #4992]
	ldr	q1, [sp, #5008]
	cmp	x23, #1
	ldr	q2, [sp, #5040]
	ldr	x8, [sp, #1056]
	add	x21, x21, #128
	str	q0, [sp, #13184]
	ldr	q0, [sp, #5024]
	cset	w27, eq
	str	q1, [sp, #13200]
	ldr	q1, [sp, #4928]
	csel	x28, x24, x21, eq
	str	q0, [sp, #13216]
	ldr	q0, [sp, #4944]
	cmp	x8, x22
	str	q2, [sp, #13232]
	ldr	q2, [sp, #4960]
	str	q0, [sp, #13136]
	ldr	q0, [sp, #4976]
	str	q1, [sp, #13120]
	str	q2, [sp, #13152]
	str	q0, [sp, #13168]
	strh	wzr, [sp, #4932]
	str	wzr, [sp, #4928]
	b.ne	453b
	add	x0, sp, #1040
	bl	std_alloc..vec..Vec..grow_amortized..ccf18ec6ff387d97_1_a64
	cbnz	w0, 452b
455:
	ldr	x8, [sp, #1056]
	cbz	x8, 456f
	ldr	x0, [sp, #1040]
	vj_call	rattle_dealloc
456:
	ldr	x8, [sp, #392]
	cbz	x8, 457f
	mov	x0, x20
	vj_call	rattle_dealloc
457:
	ldr	x2, [sp, #424]
	mov	x24, xzr
	mov	w22, #1
	mov	w20, #8
	cbnz	w22, 486f
	b	323b
458:
	add	x10, sp, #3, lsl #12
	mov	w8, #119
	movi	v0.2d, #0000000000000000
	add	x10, x10, #832
	movi	v1.2d, #0000000000000000
	ldr	w9, [sp, #328]
	strb	w8, [x10]
	ldr	w8, [sp, #336]
	add	x21, sp, #3, lsl #12
	add	x21, x21, #832
	movi	v3.2d, #0000000000000000
	ldr	q2, [sp, #352]
	orr	w8, w9, w8
	ldr	x9, [sp, #1056]
	add	x0, sp, #3, lsl #12
	mov	v0.s[0], w8
	add	x8, x21, #257
	str	q2, [sp, #1760]
	str	q1, [x8]
	add	x8, x21, #273
	ldr	q2, [sp, #368]
	str	q1, [x8]
	add	x8, x21, #289
	add	x0, x0, #832
	str	q1, [x8]
	add	x8, x21, #305
	add	x1, sp, #1728
	str	q1, [x8]
	add	x8, x21, #321
	mov	v3.d[0], v0.d[0]
	str	q1, [x8]
	add	x8, x21, #337
	str	q1, [x8]
	add	x8, x21, #353
	str	q1, [x8]
	add	x8, x21, #369
	str	q1, [x8]
	add	x8, x21, #385
	str	q2, [sp, #1776]
	ldr	q2, [sp, #1040]
	str	q1, [x8]
	add	x8, x21, #401
	str	q1, [x8]
	mov	w8, #1
	str	xzr, [sp, #1752]
	str	xzr, [sp, #1744]
	str	x9, [sp, #1808]
	str	q2, [sp, #1792]
	str	q3, [sp, #1728]
	stur	q1, [x10, #1]
	stur	q1, [x10, #17]
	stur	q1, [x10, #33]
	stur	q1, [x10, #49]
	stur	q1, [x10, #65]
	stur	q1, [x10, #81]
	stur	q1, [x10, #97]
	stur	q1, [x10, #113]
	stur	q1, [x10, #129]
	stur	q1, [x10, #145]
	stur	q1, [x10, #161]
	stur	q1, [x10, #177]
	stur	q1, [x10, #193]
	stur	q1, [x10, #209]
	stur	q1, [x10, #225]
	stur	q1, [x10, #241]
	str	xzr, [sp, #13536]
	str	x8, [sp, #13544]
	bl	b2_commands..print..Line..add_words_of_64_1_a64
	ldr	x8, [sp, #13544]
	mov	w9, #10
	strb	w9, [x21, x8]
	adds	x21, x8, #1
	str	x21, [sp, #13544]
	b.hs	460f
	mov	x22, xzr
459:
	add	x8, sp, #3, lsl #12
	sub	x2, x21, x22
	mov	w0, #1
	add	x8, x8, #832
	sub	x23, x21, x22
	add	x1, x8, x22
	vj_system_call	write, b2_write
	tbnz	x0, #63, 473f
	cmp	x0, x23
	csel	x8, x0, x23, lo
	cbz	x8, 475f
	add	x22, x8, x22
	cmp	x22, x21
	b.lo	459b
460:
	ldr	x22, [sp, #1800]
	cbz	x22, 470f
	add	x8, sp, #1, lsl #12
	ldr	x24, [sp, #1792]
	mov	x23, xzr
	add	x8, x8, #832
	orr	x25, x8, #0x2
	b	462f
461:
	add	x23, x23, #1
	cmp	x23, x22
	b.eq	512f
462:
	mov	w8, #101
	movi	v0.2d, #0000000000000000
	mov	w9, #32
	strb	w8, [x19]
	mov	w8, #144
	mov	w26, #19
	madd	x21, x23, x8, x24
	add	x8, x25, #414
	stp	q0, q0, [x25]
	stp	q0, q0, [x25, #32]
	stp	q0, q0, [x25, #64]
	stp	q0, q0, [x25, #96]
	stp	q0, q0, [x25, #128]
	stp	q0, q0, [x25, #160]
	stp	q0, q0, [x25, #192]
	stp	q0, q0, [x25, #224]
	stp	q0, q0, [x25, #256]
	stp	q0, q0, [x25, #288]
	stp	q0, q0, [x25, #320]
	stp	q0, q0, [x25, #352]
	stp	q0, q0, [x25, #384]
	str	xzr, [x8]
	mov	w8, #1
	str	x8, [sp, #5352]
	ldr	x8, [x21, #128]
	strb	w9, [x19, #1]
	str	xzr, [sp, #2088]
	cmp	x8, #10
	str	xzr, [sp, #2080]
	str	wzr, [sp, #2096]
	b.lo	464f
	mov	x9, x8
463:
	mov	x8, #-3689348814741910324
	mov	w10, #10
	add	x11, sp, #2080
	movk	x8, #52429
	cmp	x9, #99
	umulh	x8, x9, x8
	lsr	x8, x8, #3
	msub	w10, w8, w10, w9
	orr	w9, w10, #0x30
	strb	w9, [x11, x26]
	sub	x26, x26, #1
	mov	x9, x8
	b.hi	463b
464:
	add	x9, sp, #2080
	mov	w10, #20
	mov	x0, x25
	sub	x2, x10, x26
	add	x1, x9, x26
	orr	w8, w8, #0x30
	strb	w8, [x9, x26]
	vj_c_call	memcpy
	add	x9, sp, #1, lsl #12
	ldrb	w8, [x21, #136]
	add	x9, x9, #832
	sub	x9, x9, x26
	cmp	w8, #1
	add	x8, x9, #22
	b.ne	465f
	vj_page	x9, .L1_a64_static.42
	vj_address	x9, x9, .L1_a64_static.42
	sub	x9, x8, x9
	cmp	x9, #1
	mov	w9, #12576
	b	466f
465:
	vj_page	x9, .L1_a64_static.43
	vj_address	x9, x9, .L1_a64_static.43
	sub	x9, x8, x9
	cmp	x9, #1
	mov	w9, #12320
466:
	strh	w9, [x8]
	mov	w8, #24
	add	x0, sp, #1, lsl #12
	sub	x8, x8, x26
	add	x0, x0, #832
	mov	x1, x21
	mov	w2, #128
	add	x21, sp, #1, lsl #12
	str	x8, [sp, #5352]
	add	x21, x21, #832
	bl	b2_commands..print..Line..add_block_1_a64
	ldr	x8, [sp, #5352]
	mov	w9, #10
	strb	w9, [x21, x8]
	adds	x21, x8, #1
	str	x21, [sp, #5352]
	b.hs	461b
	mov	x26, xzr
467:
	add	x8, sp, #1, lsl #12
	sub	x2, x21, x26
	mov	w0, #1
	add	x8, x8, #832
	sub	x27, x21, x26
	add	x1, x8, x26
	vj_system_call	write, b2_write
	tbnz	x0, #63, 472f
	cmp	x0, x27
	csel	x8, x0, x27, lo
	cbz	x8, 475f
	add	x26, x8, x26
	cmp	x26, x21
	b.lo	467b
	b	461b
468:
	cmp	x24, #32
	b.hs	492f
	mov	x9, xzr
	b	494f
469:
	cmp	x20, #32
	b.hs	496f
	mov	x8, xzr
	b	498f
470:
	mov	x19, xzr
	ldr	x8, [sp, #1808]
	cbnz	x8, 476f
	b	477f
471:
	mov	w22, wzr
	mov	x25, xzr
	b	482f
472:
	add	x0, sp, #2080
	b	474f
473:
	add	x0, sp, #1, lsl #12
	add	x0, x0, #832
474:
	bl	std_io..io..error..last_error_1_a64
475:
	ldr	x8, [sp, #424]
	mov	w22, #1
	mov	w19, #9
	strb	w22, [x8]
	ldr	x8, [sp, #1808]
	cbz	x8, 477f
476:
	ldr	x0, [sp, #1792]
	vj_call	rattle_dealloc
477:
	ldr	x8, [sp, #392]
	cbz	x8, 478f
	mov	x0, x20
	vj_call	rattle_dealloc
478:
	ldr	x2, [sp, #424]
	mov	x24, xzr
	mov	x20, x19
	cbnz	w22, 486f
	b	323b
479:
	add	x0, sp, #2080
480:
	bl	std_io..io..error..last_error_1_a64
481:
	ldr	x8, [sp, #424]
	mov	w22, #1
	mov	w25, #9
	strb	w22, [x8]
482:
	cbz	x26, 483f
	mov	x0, x20
	vj_call	rattle_dealloc
483:
	ldr	x8, [sp, #392]
	cbz	x8, 484f
	mov	x0, x28
	vj_call	rattle_dealloc
484:
	mov	x24, xzr
	mov	x0, x25
485:
	ldr	x2, [sp, #424]
	mov	w20, w0
	cbz	w22, 323b
486:
	mov	w0, w20
	mov	x1, x24
	bl	b2_commands..fault..Fault..report..c1844c1740294036_1_a64
487:
	ldrb	w8, [sp, #576]
	cmp	w8, #1
	b.ne	488f
	ldr	x8, [sp, #600]
	cbz	x8, 488f
	ldr	x8, [sp, #584]
	mov	w19, w0
	mov	x0, x8
	vj_call	rattle_dealloc
	mov	w0, w19
488:
	ldrb	w8, [sp, #608]
	cmp	w8, #1
	b.ne	489f
	ldr	x8, [sp, #632]
	cbz	x8, 489f
	ldr	x8, [sp, #616]
	mov	w19, w0
	mov	x0, x8
	vj_call	rattle_dealloc
	mov	w0, w19
489:
	ldrb	w8, [sp, #640]
	cmp	w8, #1
	b.ne	128b
	ldr	x8, [sp, #664]
	cbz	x8, 128b
	ldr	x8, [sp, #648]
490:
	mov	w19, w0
	mov	x0, x8
491:
	vj_call	rattle_dealloc
	mov	w0, w19
	b	128b
492:
	add	x11, sp, #1, lsl #12
	and	x10, x20, #0x1f
	add	x12, x8, x25
	add	x11, x11, #368
	sub	x9, x24, x10
	add	x12, x12, #16
	add	x11, x11, #160
	sub	x13, x24, x10
493:
	ldp	q0, q1, [x12, #-16]
	subs	x13, x13, #32
	add	x12, x12, #32
	stp	q0, q1, [x11, #-16]
	add	x11, x11, #32
	b.ne	493b
	cbz	x10, 367b
	cmp	x10, #8
	b.lo	350b
494:
	add	x11, sp, #1, lsl #12
	and	x10, x20, #0x7
	add	x12, x9, x8
	add	x11, x11, #368
	add	x13, x9, x11
	add	x11, x12, x10
	sub	x9, x24, x10
	sub	x11, x11, x20
	add	x12, x25, x12
	add	x13, x13, #144
495:
	ldr	d0, [x12], #8
	adds	x11, x11, #8
	str	d0, [x13], #8
	b.ne	495b
	cbnz	x10, 350b
	b	367b
496:
	add	x11, sp, #1, lsl #12
	and	x9, x20, #0x18
	and	x8, x20, #0xe0
	add	x11, x11, #368
	add	x10, x25, #16
	and	x12, x20, #0xe0
	add	x11, x11, #160
497:
	ldp	q0, q1, [x10, #-16]
	subs	x12, x12, #32
	add	x10, x10, #32
	stp	q0, q1, [x11, #-16]
	add	x11, x11, #32
	b.ne	497b
	cmp	x20, x8
	b.eq	538f
	cbz	x9, 537f
498:
	add	x9, sp, #1, lsl #12
	mov	x10, x8
	and	x8, x20, #0xf8
	add	x9, x9, #368
	add	x11, x10, x9
	sub	x9, x10, x8
	add	x10, x25, x10
	add	x11, x11, #144
499:
	ldr	d0, [x10], #8
	adds	x9, x9, #8
	str	d0, [x11], #8
	b.ne	499b
	b	536f
500:
	mov	w22, wzr
501:
	sub	x3, x1, #4
	add	x0, sp, #1728
	add	x2, x28, #96
	mov	w1, wzr
	bl	b2_commands..arguments..Options..from_words_1_a64
	ldrb	w8, [sp, #1728]
	ldr	x15, [sp, #1736]
	ldr	x13, [sp, #1744]
	cbz	w8, 502f
	movi	v0.2d, #0000000000000000
	ldr	x23, [sp, #424]
	mov	w26, w15
	mov	x1, x13
	str	q0, [sp, #1104]
	str	q0, [sp, #1088]
	str	q0, [sp, #1072]
	str	q0, [sp, #1056]
	str	q0, [sp, #1040]
	b	125b
502:
	add	x8, sp, #1728
	strb	w22, [x19, #32]
	add	x16, sp, #180
	ldur	q0, [x8, #56]
	ldur	q1, [x8, #72]
	ldur	q2, [x8, #88]
	stur	wzr, [x19, #33]
	lsr	x14, x13, #8
	mov	w20, wzr
	str	q0, [sp, #1072]
	ldur	q0, [x8, #40]
	mov	w25, wzr
	str	q1, [sp, #1088]
	ldur	q1, [x8, #24]
	mov	w23, wzr
	str	q0, [sp, #1056]
	ldr	w10, [sp, #1092]
	mov	w0, #3
	ldr	q0, [sp, #1056]
	str	q2, [sp, #1104]
	ldr	q2, [sp, #1088]
	str	q1, [sp, #1040]
	ldr	q3, [sp, #1104]
	stur	q0, [x19, #72]
	ldr	q1, [sp, #1040]
	ldr	q0, [sp, #1072]
	ldrb	w8, [x19, #79]
	ldurh	w9, [x19, #77]
	str	wzr, [sp, #4964]
	stur	q1, [x19, #56]
	ldrb	w12, [x19, #72]
	orr	w8, w9, w8, lsl #16
	ldur	w9, [x19, #73]
	stur	q3, [x19, #120]
	stur	q2, [x19, #104]
	ldur	q1, [x19, #56]
	ldr	x22, [sp, #5048]
	orr	x11, x9, x8, lsl #32
	add	x8, sp, #834
	stur	q0, [x19, #88]
	ldur	w8, [x8, #255]
	ldr	x9, [sp, #4960]
	ldr	x17, [sp, #5008]
	ldur	q4, [x19, #88]
	stur	w10, [x16, #255]
	mov	x10, x11
	ldrb	w3, [x19, #104]
	ldr	x2, [sp, #5040]
	ldr	x16, [sp, #5056]
	str	x26, [sp, #4944]
	str	x15, [sp, #4968]
	str	x13, [sp, #4976]
	b	343b
503:
	mov	w19, #1
	b	399b
504:
	ldrb	w19, [sp, #3304]
	ldr	x25, [sp, #3312]
	b	399b
505:
	ldr	x8, [sp, #13120]
	add	x9, sp, #4, lsl #12
	str	x28, [sp, #280]
	add	x9, x9, #856
	str	xzr, [sp, #4944]
	str	x8, [sp, #400]
	ldr	x8, [sp, #13136]
	str	x9, [sp, #4928]
	str	x8, [sp, #352]
	str	xzr, [sp, #4936]
	cbz	x24, 511f
	ldr	x8, [sp, #400]
	mov	x10, xzr
	mov	x21, x24
	add	x20, x8, #16
	add	x8, sp, #4, lsl #12
	add	x8, x8, #856
	b	508f
506:
	ldp	x25, x26, [x20]
	ldr	x9, [sp, #4944]
	ldur	x28, [x20, #-8]
	mov	x11, x10
	cmp	x9, x10
	b.eq	509f
507:
	add	x9, x8, x11, lsl #5
	add	x11, x11, #1
	subs	x21, x21, #1
	add	x20, x20, #40
	mov	x10, x11
	stp	x22, x28, [x9]
	stp	x25, x26, [x9, #16]
	str	x11, [sp, #4936]
	b.eq	510f
508:
	ldurb	w22, [x20, #-16]
	cbz	x22, 506b
	mov	x25, xzr
	mov	x26, xzr
	ldr	x9, [sp, #4944]
	ldur	x28, [x20, #-8]
	mov	x11, x10
	cmp	x9, x10
	b.ne	507b
509:
	add	x0, sp, #1, lsl #12
	add	x0, x0, #832
	bl	std_alloc..vec..Vec..grow_amortized..99a3d98a3388100f_1_a64
	cbz	w0, 526f
	ldr	x11, [sp, #4936]
	ldr	x8, [sp, #4928]
	b	507b
510:
	ldr	x8, [sp, #4944]
	ldr	x20, [sp, #4928]
	mov	x21, x10
	ldr	x28, [sp, #280]
	str	wzr, [sp, #328]
	cmp	x8, #0
	cset	w8, eq
	str	w8, [sp, #336]
	b	295b
511:
	ldr	x28, [sp, #280]
	mov	x21, xzr
	b	294b
512:
	mov	w22, wzr
	mov	x19, xzr
	ldr	x8, [sp, #1808]
	cbnz	x8, 476b
	b	477b
513:
	mov	x25, xzr
	mov	w19, #2
	b	399b
514:
	and	w8, w8, #0xff
	mov	w9, #3
	cmp	w8, #8
	csel	x24, xzr, x24, eq
	csel	w20, w8, w9, eq
	ldr	x25, [sp, #392]
	ldr	x21, [sp, #13120]
	ldr	x19, [sp, #13136]
	cbnz	x26, 271b
515:
	cbz	x19, 516f
	mov	x0, x21
	vj_call	rattle_dealloc
516:
	ldr	x0, [sp, #368]
	cbz	x25, 518f
517:
	vj_call	rattle_dealloc
518:
	add	x19, sp, #1, lsl #12
	add	x1, sp, #1040
	mov	w2, #336
	add	x19, x19, #832
	str	x23, [sp, #4928]
	add	x0, x19, #16
	add	x21, x19, #8
	vj_c_call	memcpy
	movi	v0.2d, #0000000000000000
	cbz	w23, 519f
	add	x0, x19, #88
	stp	q0, q0, [x21, #16]
	stp	q0, q0, [x21, #48]
	stp	q0, q0, [x21, #80]
	stp	q0, q0, [x21, #112]
	stp	q0, q0, [x21, #144]
	str	q0, [x21]
	bl	blake2_digest..wiping..settle..64_1_a64
	add	x0, x19, #152
	bl	blake2_digest..wiping..settle..32_1_a64
	ldr	x2, [sp, #424]
	mov	w22, #1
	cbnz	w22, 486b
	b	323b
519:
	add	x0, x19, #160
	str	xzr, [x21, #336]
	stp	q0, q0, [x21, #16]
	stp	q0, q0, [x21, #48]
	stp	q0, q0, [x21, #80]
	stp	q0, q0, [x21, #112]
	stp	q0, q0, [x21, #144]
	stp	q0, q0, [x21, #176]
	stp	q0, q0, [x21, #208]
	stp	q0, q0, [x21, #240]
	stp	q0, q0, [x21, #272]
	stp	q0, q0, [x21, #304]
	str	q0, [x21]
	bl	blake2_digest..wiping..settle..128_1_a64
	add	x0, x19, #288
	bl	blake2_digest..wiping..settle..64_1_a64
	ldr	x2, [sp, #424]
	mov	w22, #1
	cbnz	w22, 486b
	b	323b
520:
	ldr	x8, [sp, #336]
	cmp	x8, #0
	ldr	x8, [sp, #304]
	csinc	w8, w8, wzr, ne
	tbnz	w8, #0, 521f
	mov	x0, x20
	vj_call	rattle_dealloc
521:
	ldr	x19, [sp, #13128]
	ldr	x21, [sp, #13120]
	ldr	x20, [sp, #13136]
	cbz	x19, 524f
	add	x22, x21, #16
	b	523f
522:
	subs	x19, x19, #1
	add	x22, x22, #40
	b.eq	524f
523:
	ldurb	w8, [x22, #-16]
	cbnz	w8, 522b
	ldr	x8, [x22, #16]
	cbz	x8, 522b
	ldr	x0, [x22]
	vj_call	rattle_dealloc
	b	522b
524:
	cbz	x20, 525f
	mov	x0, x21
	vj_call	rattle_dealloc
525:
	ldr	x0, [sp, #368]
	ldr	x25, [sp, #392]
	mov	x24, xzr
	mov	w20, #8
	cbnz	x25, 517b
	b	518b
526:
	ldr	x8, [sp, #4944]
	cbz	x8, 527f
	ldr	x0, [sp, #4928]
	vj_call	rattle_dealloc
527:
	ldr	x8, [sp, #400]
	add	x19, x8, #16
	b	529f
528:
	subs	x24, x24, #1
	add	x19, x19, #40
	b.eq	530f
529:
	ldurb	w8, [x19, #-16]
	cbnz	w8, 528b
	ldr	x8, [x19, #16]
	cbz	x8, 528b
	ldr	x0, [x19]
	vj_call	rattle_dealloc
	b	528b
530:
	ldr	x8, [sp, #352]
	cbz	x8, 531f
	ldr	x0, [sp, #400]
	vj_call	rattle_dealloc
531:
	ldr	x8, [sp, #392]
	cbz	x8, 532f
	ldr	x0, [sp, #368]
	vj_call	rattle_dealloc
532:
	add	x19, sp, #1, lsl #12
	add	x1, sp, #1040
	mov	w2, #336
	add	x19, x19, #832
	str	x23, [sp, #4928]
	add	x0, x19, #16
	add	x20, x19, #8
	vj_c_call	memcpy
	movi	v0.2d, #0000000000000000
	cbz	w23, 533f
	add	x0, x19, #88
	stp	q0, q0, [x20, #16]
	stp	q0, q0, [x20, #48]
	stp	q0, q0, [x20, #80]
	stp	q0, q0, [x20, #112]
	stp	q0, q0, [x20, #144]
	str	q0, [x20]
	bl	blake2_digest..wiping..settle..64_1_a64
	add	x0, x19, #152
	bl	blake2_digest..wiping..settle..32_1_a64
	b	534f
533:
	add	x0, x19, #160
	str	xzr, [x20, #336]
	stp	q0, q0, [x20, #16]
	stp	q0, q0, [x20, #48]
	stp	q0, q0, [x20, #80]
	stp	q0, q0, [x20, #112]
	stp	q0, q0, [x20, #144]
	stp	q0, q0, [x20, #176]
	stp	q0, q0, [x20, #208]
	stp	q0, q0, [x20, #240]
	stp	q0, q0, [x20, #272]
	stp	q0, q0, [x20, #304]
	str	q0, [x20]
	bl	blake2_digest..wiping..settle..128_1_a64
	add	x0, x19, #288
	bl	blake2_digest..wiping..settle..64_1_a64
534:
	mov	x24, xzr
	mov	w20, #8
	ldr	x2, [sp, #424]
	mov	w22, #1
	cbnz	w22, 486b
	b	323b
535:
	brk	#0x1
536:
	cmp	x20, x8
	b.eq	538f
537:
	ldrb	w9, [x25, x8]
	strb	w9, [x21, x8]
	add	x8, x8, #1
	b	536b
538:
	add	x0, sp, #3, lsl #12
	add	x1, sp, #1, lsl #12
	add	x22, sp, #3, lsl #12
	ldr	x27, [sp, #160]
	add	x0, x0, #832
	add	x1, x1, #368
	mov	w2, #280
	add	x21, sp, #3, lsl #12
	add	x22, x22, #832
	str	x20, [sp, #4736]
	add	x21, x21, #832
	vj_c_call	memcpy
	movi	v0.2d, #0000000000000000
	ldr	x2, [sp, #13392]
	ldr	x8, [sp, #13248]
	add	x0, sp, #672
	add	x1, x21, #144
	add	x20, x8, x2
	str	x20, [sp, #13248]
	stp	q0, q0, [sp, #672]
	stp	q0, q0, [sp, #704]
	stp	q0, q0, [sp, #736]
	stp	q0, q0, [sp, #768]
	vj_c_call	memcpy
	movi	v0.2d, #0000000000000000
	ldrb	w4, [x22, #136]
	add	x0, sp, #3, lsl #12
	add	x0, x0, #832
	add	x1, sp, #2080
	mov	x2, x20
	mov	w3, #1
	str	xzr, [sp, #13392]
	str	q0, [sp, #13264]
	str	q0, [sp, #13280]
	str	q0, [sp, #13296]
	str	q0, [sp, #13312]
	str	q0, [sp, #13328]
	str	q0, [sp, #13344]
	str	q0, [sp, #13360]
	str	q0, [sp, #13376]
	ldp	q0, q1, [sp, #736]
	str	q0, [sp, #2144]
	ldp	q2, q0, [sp, #768]
	str	q1, [sp, #2160]
	str	q0, [sp, #2192]
	ldp	q1, q0, [sp, #672]
	str	q2, [sp, #2176]
	str	q0, [sp, #2096]
	ldp	q2, q0, [sp, #704]
	str	q1, [sp, #2080]
	str	q2, [sp, #2112]
	str	q0, [sp, #2128]
	vj_call	blake2_compress..compress..blake2b..compress_1_arm
	ldr	q0, [sp, #13120]
	ldr	x22, [sp, #4016]
	ldr	x8, [sp, #4008]
	ldr	q1, [sp, #13136]
	ldr	q2, [sp, #13168]
	str	q0, [sp, #1728]
	sub	x9, x22, x8
	ldr	q0, [sp, #13152]
	cmp	x9, #63
	str	q1, [sp, #1744]
	str	q0, [sp, #1760]
	str	q2, [sp, #1776]
	b.ls	552f
539:
	ldr	x20, [sp, #4000]
	add	x10, sp, #1728
	add	x9, x20, x8
	add	x8, x8, #64
	sub	x10, x9, x10
	cmp	x10, #63
	b.hi	540f
	ldrb	w10, [sp, #1728]
	strb	w10, [x9]
	ldrb	w10, [sp, #1729]
	strb	w10, [x9, #1]
	ldrb	w10, [sp, #1730]
	strb	w10, [x9, #2]
	ldrb	w10, [sp, #1731]
	strb	w10, [x9, #3]
	ldrb	w10, [sp, #1732]
	strb	w10, [x9, #4]
	ldrb	w10, [sp, #1733]
	strb	w10, [x9, #5]
	ldrb	w10, [sp, #1734]
	strb	w10, [x9, #6]
	ldrb	w10, [sp, #1735]
	strb	w10, [x9, #7]
	ldrb	w10, [sp, #1736]
	strb	w10, [x9, #8]
	ldrb	w10, [sp, #1737]
	strb	w10, [x9, #9]
	ldrb	w10, [sp, #1738]
	strb	w10, [x9, #10]
	ldrb	w10, [sp, #1739]
	strb	w10, [x9, #11]
	ldrb	w10, [sp, #1740]
	strb	w10, [x9, #12]
	ldrb	w10, [sp, #1741]
	strb	w10, [x9, #13]
	ldrb	w10, [sp, #1742]
	strb	w10, [x9, #14]
	ldrb	w10, [sp, #1743]
	strb	w10, [x9, #15]
	ldrb	w10, [sp, #1744]
	strb	w10, [x9, #16]
	ldrb	w10, [sp, #1745]
	strb	w10, [x9, #17]
	ldrb	w10, [sp, #1746]
	strb	w10, [x9, #18]
	ldrb	w10, [sp, #1747]
	strb	w10, [x9, #19]
	ldrb	w10, [sp, #1748]
	strb	w10, [x9, #20]
	ldrb	w10, [sp, #1749]
	strb	w10, [x9, #21]
	ldrb	w10, [sp, #1750]
	strb	w10, [x9, #22]
	ldrb	w10, [sp, #1751]
	strb	w10, [x9, #23]
	ldrb	w10, [sp, #1752]
	strb	w10, [x9, #24]
	ldrb	w10, [sp, #1753]
	strb	w10, [x9, #25]
	ldrb	w10, [sp, #1754]
	strb	w10, [x9, #26]
	ldrb	w10, [sp, #1755]
	strb	w10, [x9, #27]
	ldrb	w10, [sp, #1756]
	strb	w10, [x9, #28]
	ldrb	w10, [sp, #1757]
	strb	w10, [x9, #29]
	ldrb	w10, [sp, #1758]
	strb	w10, [x9, #30]
	ldrb	w10, [sp, #1759]
	strb	w10, [x9, #31]
	ldrb	w10, [sp, #1760]
	strb	w10, [x9, #32]
	ldrb	w10, [sp, #1761]
	strb	w10, [x9, #33]
	ldrb	w10, [sp, #1762]
	strb	w10, [x9, #34]
	ldrb	w10, [sp, #1763]
	strb	w10, [x9, #35]
	ldrb	w10, [sp, #1764]
	strb	w10, [x9, #36]
	ldrb	w10, [sp, #1765]
	strb	w10, [x9, #37]
	ldrb	w10, [sp, #1766]
	strb	w10, [x9, #38]
	ldrb	w10, [sp, #1767]
	strb	w10, [x9, #39]
	ldrb	w10, [sp, #1768]
	strb	w10, [x9, #40]
	ldrb	w10, [sp, #1769]
	strb	w10, [x9, #41]
	ldrb	w10, [sp, #1770]
	strb	w10, [x9, #42]
	ldrb	w10, [sp, #1771]
	strb	w10, [x9, #43]
	ldrb	w10, [sp, #1772]
	strb	w10, [x9, #44]
	ldrb	w10, [sp, #1773]
	strb	w10, [x9, #45]
	ldrb	w10, [sp, #1774]
	strb	w10, [x9, #46]
	ldrb	w10, [sp, #1775]
	strb	w10, [x9, #47]
	ldrb	w10, [sp, #1776]
	strb	w10, [x9, #48]
	ldrb	w10, [sp, #1777]
	strb	w10, [x9, #49]
	ldrb	w10, [sp, #1778]
	strb	w10, [x9, #50]
	ldrb	w10, [sp, #1779]
	strb	w10, [x9, #51]
	ldrb	w10, [sp, #1780]
	strb	w10, [x9, #52]
	ldrb	w10, [sp, #1781]
	strb	w10, [x9, #53]
	ldrb	w10, [sp, #1782]
	strb	w10, [x9, #54]
	ldrb	w10, [sp, #1783]
	strb	w10, [x9, #55]
	ldrb	w10, [sp, #1784]
	strb	w10, [x9, #56]
	ldrb	w10, [sp, #1785]
	strb	w10, [x9, #57]
	ldrb	w10, [sp, #1786]
	strb	w10, [x9, #58]
	ldrb	w10, [sp, #1787]
	strb	w10, [x9, #59]
	ldrb	w10, [sp, #1788]
	strb	w10, [x9, #60]
	ldrb	w10, [sp, #1789]
	strb	w10, [x9, #61]
	ldrb	w10, [sp, #1790]
	strb	w10, [x9, #62]
	ldrb	w10, [sp, #1791]
	strb	w10, [x9, #63]
	ldr	x20, [sp, #4000]
	b	541f
540:
	ldr	q0, [sp, #1776]
	ldr	q1, [sp, #1760]
	ldr	q2, [sp, #1728]
	ldr	q3, [sp, #1744]
	stp	q1, q0, [x9, #32]
	stp	q2, q3, [x9]
541:
	lsr	x23, x8, #6
	cbz	x23, 545f
	add	x8, sp, #1, lsl #12
	mov	x24, xzr
	mov	x26, x20
	add	x8, x8, #832
	orr	x25, x8, #0x1
542:
	movi	v0.2d, #0000000000000000
	mov	x8, xzr
	mov	x9, x25
	str	xzr, [sp, #5344]
	str	q0, [sp, #5328]
	str	q0, [sp, #5312]
	str	q0, [sp, #5296]
	str	q0, [sp, #5280]
	str	q0, [sp, #5264]
	str	q0, [sp, #5248]
	str	q0, [sp, #5232]
	str	q0, [sp, #5216]
	str	q0, [sp, #5200]
	str	q0, [sp, #5184]
	str	q0, [sp, #5168]
	str	q0, [sp, #5152]
	str	q0, [sp, #5136]
	str	q0, [sp, #5120]
	str	q0, [sp, #5104]
	str	q0, [sp, #5088]
	str	q0, [sp, #5072]
	str	q0, [sp, #5056]
	str	q0, [sp, #5040]
	str	q0, [sp, #5024]
	str	q0, [sp, #5008]
	str	q0, [sp, #4992]
	str	q0, [sp, #4976]
	str	q0, [sp, #4960]
	str	q0, [sp, #4944]
	str	q0, [sp, #4928]
543:
	ldrb	w10, [x26, x8]
	vj_page	x12, .L1_a64_static.37
	vj_address	x12, x12, .L1_a64_static.37
	add	x8, x8, #1
	lsr	x11, x10, #4
	and	x10, x10, #0xf
	cmp	x8, #64
	ldrb	w10, [x12, x10]
	ldrb	w11, [x12, x11]
	sturb	w11, [x9, #-1]
	strb	w10, [x9], #2
	b.ne	543b
	mov	w8, #10
	mov	w9, #129
	mov	x27, xzr
	strb	w8, [x19, #128]
	str	x9, [sp, #5352]
544:
	mov	w8, #129
	add	x9, sp, #1, lsl #12
	mov	w0, #1
	add	x9, x9, #832
	sub	x21, x8, x27
	add	x1, x9, x27
	mov	x2, x21
	vj_system_call	write, b2_write
	tbnz	x0, #63, 546f
	cmp	x0, x21
	csel	x8, x0, x21, lo
	cbz	x8, 547f
	add	x27, x8, x27
	cmp	x27, #128
	b.ls	544b
	add	x24, x24, #1
	ldr	x27, [sp, #160]
	mov	w0, wzr
	cmp	x24, x23
	add	x26, x26, #64
	mov	w21, #1
	b.ne	542b
	b	548f
545:
	mov	w0, wzr
	mov	w21, #1
	b	548f
546:
	add	x0, sp, #3, lsl #12
	add	x0, x0, #832
	bl	std_io..io..error..last_error_1_a64
547:
	ldr	x9, [sp, #424]
	ldr	x27, [sp, #160]
	mov	w21, wzr
	mov	w8, #1
	mov	w0, #9
	strb	w8, [x9]
548:
	cbz	x22, 549f
	mov	w19, w0
	mov	x0, x20
	vj_call	rattle_dealloc
	mov	w0, w19
549:
	ldr	x8, [sp, #176]
	cbz	x27, 550f
	mov	w19, w0
	mov	x0, x8
	vj_call	rattle_dealloc
	mov	w0, w19
550:
	tbz	w21, #0, 551f
	mov	w0, wzr
	b	74b
551:
	ldr	x2, [sp, #424]
	mov	x20, xzr
	b	73b
552:
	add	x0, sp, #4000
	mov	w1, #64
	bl	std_alloc..vec..Vec..grow_amortized..3378b08034dc46b4_1_a64
	cbz	w0, 553f
	ldr	x8, [sp, #4008]
	ldr	x22, [sp, #4016]
	ldr	x27, [sp, #160]
	b	539b
553:
	ldr	x8, [sp, #4016]
	ldr	x23, [sp, #424]
	ldr	x25, [sp, #176]
	cbz	x8, 214b
	ldr	x0, [sp, #4000]
	vj_call	rattle_dealloc
	b	214b
	vj_end	b2_commands..dispatch..run_with_notes..8eebea7bb24a6da2_1_a64

	vj_function	b2_commands..arguments..message_of_1_a64
	sub	sp, sp, #64
	movi	v0.2d, #0000000000000000
	str	x19, [sp, #48]
	mov	x19, x0
	cmp	x2, #1
	stp	x29, x30, [sp, #32]
	add	x29, sp, #32
	stp	q0, q0, [sp]
	b.eq	1f
	cbnz	x2, 2f
	mov	w8, #1
	str	x8, [sp, #8]
	b	3f
1:
	ldrb	w8, [x1]
	cmp	w8, #45
	b.ne	2f
	add	x9, x29, #31
	mov	x8, xzr
	stp	xzr, xzr, [sp, #16]
	str	x9, [sp, #8]
	b	3f
2:
	mov	x0, sp
	bl	b2_commands..arguments..bytes_of_1_a64
	ldrb	w8, [sp]
3:
	ldur	q0, [sp, #8]
	str	x8, [x19]
	ldr	x8, [sp, #24]
	ldp	x29, x30, [sp, #32]
	stur	q0, [x19, #8]
	str	x8, [x19, #24]
	ldr	x19, [sp, #48]
	add	sp, sp, #64
	ret
	vj_end	b2_commands..arguments..message_of_1_a64

	vj_function	b2_commands..arguments..bytes_of_1_a64
	stp	x29, x30, [sp, #-64]!
	str	x23, [sp, #16]
	mov	x29, sp
	stp	x22, x21, [sp, #32]
	stp	x20, x19, [sp, #48]
	tbnz	w2, #0, 1f
	cbz	x2, 2f
	lsr	x19, x2, #1
	mov	x21, x1
	mov	x20, x0
	mov	w1, #1
	mov	x23, x2
	mov	w22, #1
	mov	x0, x19
	vj_call	rattle_alloc
	tbz	w0, #0, 4f
	cmp	x23, #2
	b.ne	5f
	mov	x22, xzr
	add	x8, x22, #1
	strb	wzr, [x1, xzr]
	cmp	x19, x8
	b.eq	6f
	b	12f
1:
	mov	x19, xzr
	mov	w22, #1
	mov	w1, #1
	b	14f
2:
	mov	x19, xzr
	add	x1, x29, #31
3:
	mov	x22, xzr
	b	14f
4:
	mov	x19, xzr
	mov	w1, #8
	b	13f
5:
	sub	x2, x19, #1
	mov	x0, x1
	mov	x23, x1
	mov	w1, wzr
	sub	x22, x19, #1
	vj_c_call	memset
	mov	x1, x23
	add	x8, x22, #1
	strb	wzr, [x23, x22]
	cmp	x19, x8
	b.ne	12f
6:
	mov	x9, xzr
	add	x10, x21, #1
	b	9f
7:
	sub	w13, w12, #55
8:
	add	w11, w13, w11, lsl #4
	add	x10, x10, #2
	strb	w11, [x1, x9]
	add	x9, x9, #1
	cmp	x8, x9
	b.eq	15f
9:
	ldurb	w13, [x10, #-1]
	subs	w11, w13, #48
	b.lo	12f
	ldrb	w12, [x10]
	cmp	w13, #57
	b.ls	11f
	cmp	w13, #65
	b.lo	12f
	cmp	w13, #70
	b.hi	10f
	sub	w11, w13, #55
	b	11f
10:
	sub	w11, w13, #97
	cmp	w11, #5
	b.hi	12f
	sub	w11, w13, #87
11:
	subs	w13, w12, #48
	b.lo	12f
	cmp	w12, #57
	b.ls	8b
	cmp	w12, #65
	b.lo	12f
	cmp	w12, #70
	b.ls	7b
	sub	w13, w12, #97
	cmp	w13, #5
	b.hi	12f
	sub	w13, w12, #87
	b	8b
12:
	mov	x0, x1
	vj_call	rattle_dealloc
	mov	x19, xzr
	mov	w22, #1
	mov	w1, #1
13:
	mov	x0, x20
14:
	stp	x22, x1, [x0]
	ldp	x22, x21, [sp, #32]
	stp	x19, x19, [x0, #16]
	ldr	x23, [sp, #16]
	ldp	x20, x19, [sp, #48]
	ldp	x29, x30, [sp], #64
	ret
15:
	mov	x0, x20
	b	3b
	vj_end	b2_commands..arguments..bytes_of_1_a64

	vj_function	b2_commands..tree_arguments..Root..from_words_1_a64
	sub	sp, sp, #160
	movi	v0.2d, #0000000000000000
	stp	x29, x30, [sp, #112]
	add	x29, sp, #112
	stp	x22, x21, [sp, #128]
	stp	x20, x19, [sp, #144]
	str	xzr, [sp, #96]
	stp	q0, q0, [sp]
	stp	q0, q0, [sp, #32]
	stp	q0, q0, [sp, #64]
	cbz	x3, 8f
	ldr	x8, [x2, #8]
	cmp	x8, #4
	b.ne	8f
	ldr	x8, [x2]
	mov	x9, #12914
	movk	x9, #13877, lsl #16
	ldr	w8, [x8]
	movk	x9, #12915, lsl #32
	movk	x9, #13877, lsl #48
	orr	x8, x8, x8, lsl #32
	cmp	x8, x9
	b.le	1f
	mov	x9, #12915
	movk	x9, #13877, lsl #16
	orr	x9, x9, x9, lsl #32
	cmp	x8, x9
	b.eq	8f
	mov	x9, #12642
	movk	x9, #14386, lsl #16
	orr	x9, x9, x9, lsl #32
	cmp	x8, x9
	b.eq	2f
	mov	x9, #12659
	movk	x9, #14386, lsl #16
	orr	x9, x9, x9, lsl #32
	cmp	x8, x9
	b	8f
1:
	mov	x9, #13666
	movk	x9, #12849, lsl #16
	orr	x9, x9, x9, lsl #32
	cmp	x8, x9
	b.eq	3f
	mov	x9, #12898
	movk	x9, #13877, lsl #16
	orr	x9, x9, x9, lsl #32
	cmp	x8, x9
	b.ne	8f
	mov	w19, #256
	cmp	x3, #1
	b.ne	4f
	b	8f
2:
	mov	x19, xzr
	cmp	x3, #1
	b.ne	4f
	b	8f
3:
	mov	w19, #512
	cmp	x3, #1
	b.eq	8f
4:
	ldr	x8, [x2, #32]
	sub	x9, x8, #1
	cmp	x9, #9
	b.hi	7f
	ldr	x9, [x2, #24]
	cmp	x8, #2
	b.lo	5f
	ldrb	w10, [x9]
	cmp	w10, #48
	b.eq	7f
5:
	mov	x10, xzr
	sub	x3, x3, #2
6:
	ldrb	w11, [x9], #1
	sub	w11, w11, #48
	cmp	w11, #9
	b.hi	7f
	mov	w12, #10
	subs	x8, x8, #1
	mul	x10, x10, x12
	add	x10, x10, w11, uxtb
	b.ne	6b
	cbz	x10, 7f
	mov	x8, #4294967296
	lsr	x9, x10, #32
	cmp	x10, x8
	csel	x21, x10, x8, lo
	cbnz	x9, 7f
	mov	x22, x1
	mov	x20, x0
	mov	x0, sp
	add	x2, x2, #48
	mov	w1, wzr
	bl	b2_commands..arguments..Options..from_words_1_a64
	ldp	x8, x9, [sp, #8]
	ldrb	w10, [sp]
	cbz	w10, 9f
	movi	v0.2d, #0000000000000000
	mov	w10, #1
	and	x8, x8, #0xff
	str	x10, [x20]
	stp	x8, x9, [x20, #8]
	str	xzr, [x20, #104]
	stur	q0, [x20, #24]
	stur	q0, [x20, #40]
	stur	q0, [x20, #56]
	stur	q0, [x20, #72]
	stur	q0, [x20, #88]
	ldp	x20, x19, [sp, #144]
	ldp	x22, x21, [sp, #128]
	ldp	x29, x30, [sp, #112]
	add	sp, sp, #160
	ret
7:
	movi	v0.2d, #0000000000000000
8:
	mov	w8, #1
	stur	q0, [x0, #8]
	str	x8, [x0]
	stur	q0, [x0, #24]
	stur	q0, [x0, #40]
	stur	q0, [x0, #56]
	stur	q0, [x0, #72]
	stur	q0, [x0, #88]
	str	xzr, [x0, #104]
	ldp	x20, x19, [sp, #144]
	ldp	x22, x21, [sp, #128]
	ldp	x29, x30, [sp, #112]
	add	sp, sp, #160
	ret
9:
	and	x10, x22, #0xff
	ldur	q0, [sp, #56]
	ldur	q1, [sp, #72]
	orr	x10, x19, x10
	stp	x8, x9, [x20, #16]
	ldur	q2, [sp, #88]
	orr	x8, x10, x21, lsl #32
	stp	q0, q1, [x20, #64]
	ldur	q0, [sp, #40]
	ldur	q1, [sp, #24]
	str	q2, [x20, #96]
	stp	xzr, x8, [x20]
	stp	q1, q0, [x20, #32]
	ldp	x20, x19, [sp, #144]
	ldp	x22, x21, [sp, #128]
	ldp	x29, x30, [sp, #112]
	add	sp, sp, #160
	ret
	vj_end	b2_commands..tree_arguments..Root..from_words_1_a64

	vj_function	core..lang..str_eq_1_a64
	cmp	x1, x3
	b.ne	1f
	cmp	x1, #7
	b.hi	2f
	subs	x8, x1, #4
	b.lo	3f
	ldr	w9, [x0]
	ldr	w10, [x0, x8]
	ldr	w11, [x2]
	ldr	w8, [x2, x8]
	orr	x9, x9, x10, lsl #32
	orr	x10, x11, x8, lsl #32
	rev	x8, x9
	rev	x9, x10
	cmp	x8, x9
	cset	w0, eq
	ret
1:
	mov	w0, wzr
	ret
2:
	sub	x8, x1, #8
	ldr	x9, [x0]
	ldr	x10, [x2]
	ldr	x11, [x0, x8]
	ldr	x8, [x2, x8]
	cmp	x9, x10
	ccmp	x11, x8, #0, eq
	cset	w0, eq
	ret
3:
	ldrb	w8, [x0]
	ldrb	w9, [x2]
	sub	x12, x1, #1
	ldrb	w10, [x0, #1]
	ldrb	w11, [x2, #1]
	lsl	x8, x8, #16
	lsl	x9, x9, #16
	orr	x8, x8, x10, lsl #8
	ldrb	w10, [x0, x12]
	orr	x9, x9, x11, lsl #8
	ldrb	w11, [x2, x12]
	orr	x8, x8, x10
	orr	x9, x9, x11
	cmp	x8, x9
	cset	w0, eq
	ret
	vj_end	core..lang..str_eq_1_a64

	vj_function	b2_commands..task..Task..require_no_more_words_1_a64
	sub	sp, sp, #112
	stp	x28, x27, [sp, #32]
	ldp	x5, x10, [x1, #24]
	stp	x26, x25, [sp, #48]
	ldrb	w11, [x1]
	ldr	x6, [x1, #104]
	stp	x24, x23, [sp, #64]
	ldp	x4, x28, [x1, #56]
	and	w3, w10, #0xff
	stp	x22, x21, [sp, #80]
	ldr	x22, [x1, #120]
	stp	x20, x19, [sp, #96]
	mov	x19, x0
	and	w24, w28, #0xff
	stp	x29, x30, [sp, #16]
	add	x29, sp, #16
	ldp	x25, x27, [x1, #88]
	ldp	x7, x0, [x1, #8]
	ldp	x13, x23, [x1, #40]
	ldp	x21, x26, [x1, #72]
	and	w20, w27, #0xff
	cbz	x2, 3f
	cmp	w11, #3
	b.gt	4f
	cmp	w11, #1
	b.gt	5f
	cbnz	w11, 12f
	and	x8, x7, #0xff
	cmp	x8, #1
	b.ne	1f
	cbz	x10, 1f
	mov	x20, x13
	vj_call	rattle_dealloc
	mov	x13, x20
1:
	and	w8, w13, #0xff
	cmp	w8, #1
	b.ne	2f
	cbz	x28, 2f
	mov	x0, x23
	vj_call	rattle_dealloc
2:
	and	w8, w21, #0xff
	mov	w0, wzr
	mov	x9, xzr
	cmp	w8, #1
	mov	w24, #1
	b.ne	19f
	mov	x10, x9
	mov	x11, x9
	mov	x12, x9
	mov	x13, x9
	mov	x14, x9
	mov	x15, x9
	mov	x16, x9
	mov	x5, x9
	mov	x1, x9
	mov	x2, x9
	mov	x8, x9
	mov	w3, w0
	mov	w17, w0
	mov	w23, w0
	mov	x28, x9
	mov	w21, w0
	mov	w20, w0
	mov	x6, x9
	mov	w4, w0
	mov	w30, w0
	mov	x7, x9
	str	x17, [sp, #8]
	cbz	x27, 18f
	mov	x0, x26
	b	14f
3:
	ldrb	w12, [x1, #3]
	ldrb	w14, [x1, #2]
	lsr	x16, x27, #8
	ldrb	w17, [x1, #1]
	ldr	x1, [x1, #112]
	mov	x27, x6
	orr	w15, w11, w12, lsl #24
	lsr	x9, x0, #8
	lsr	x10, x10, #8
	lsr	x11, x13, #8
	lsr	x12, x23, #8
	str	x13, [sp, #8]
	orr	w2, w15, w14, lsl #16
	lsr	x13, x28, #8
	lsr	x14, x21, #8
	lsr	x15, x26, #8
	mov	x6, x25
	mov	x28, x4
	orr	w30, w2, w17, lsl #8
	mov	x2, x22
	mov	w17, w26
	mov	w4, w20
	mov	x20, x21
	mov	w21, w24
	mov	x24, xzr
	mov	x8, x5
	mov	x5, x27
	b	18f
4:
	sub	w8, w11, #6
	cmp	w8, #2
	b.lo	15f
	cmp	w11, #4
	b.eq	8f
	cbnz	x10, 14f
	mov	x9, xzr
	b	16f
5:
	cmp	w11, #2
	b.ne	8f
	and	w9, w0, #0xff
	mov	x22, x4
	cmp	w9, #1
	b.ne	6f
	cbz	x13, 6f
	mov	x0, x5
	mov	x20, x6
	vj_call	rattle_dealloc
	mov	x6, x20
6:
	and	w8, w23, #0xff
	cmp	w8, #1
	b.ne	7f
	cbz	x21, 7f
	mov	x0, x22
	mov	x20, x6
	vj_call	rattle_dealloc
	mov	x6, x20
7:
	and	w8, w26, #0xff
	mov	w0, wzr
	mov	x9, xzr
	cmp	w8, #1
	mov	w24, #1
	b.ne	19f
	mov	x10, x9
	mov	x11, x9
	mov	x12, x9
	mov	x13, x9
	mov	x14, x9
	mov	x15, x9
	mov	x16, x9
	mov	x5, x9
	mov	x1, x9
	mov	x2, x9
	mov	x8, x9
	mov	w3, w0
	mov	w17, w0
	mov	w23, w0
	mov	x28, x9
	mov	w21, w0
	mov	w20, w0
	mov	x22, x6
	str	x17, [sp, #8]
	b	11f
8:
	cmp	w3, #1
	b.ne	9f
	cbz	x4, 9f
	mov	x0, x13
	mov	x23, x6
	vj_call	rattle_dealloc
	mov	x6, x23
9:
	cmp	w24, #1
	b.ne	10f
	cbz	x25, 10f
	mov	x0, x21
	mov	x21, x6
	vj_call	rattle_dealloc
	mov	x6, x21
10:
	mov	w0, wzr
	mov	x9, xzr
	cmp	w20, #1
	mov	w24, #1
	b.ne	19f
	mov	w17, w0
	mov	x25, x6
	mov	x10, x9
	mov	x11, x9
	mov	x12, x9
	mov	x13, x9
	mov	x14, x9
	mov	x15, x9
	mov	x16, x9
	mov	x5, x9
	mov	x1, x9
	mov	x2, x9
	mov	x8, x9
	mov	w3, w0
	str	x17, [sp, #8]
	mov	w23, w0
	mov	x28, x9
	mov	w21, w0
	mov	w20, w0
11:
	mov	x6, x9
	mov	w4, w0
	mov	w30, w0
	mov	x7, x9
	cbz	x22, 18f
	mov	x0, x25
	b	14f
12:
	cbz	x13, 13f
	mov	x0, x5
	vj_call	rattle_dealloc
13:
	cbz	x28, 20f
	mov	x0, x23
14:
	vj_call	rattle_dealloc
15:
	mov	x9, xzr
	mov	x10, xzr
16:
	mov	x11, xzr
	mov	x12, xzr
	mov	x13, xzr
	mov	x14, xzr
	mov	x15, xzr
	mov	x16, xzr
	mov	x5, xzr
	mov	x1, xzr
	mov	x2, xzr
	mov	w0, wzr
	mov	x8, xzr
	mov	w3, wzr
	mov	w23, wzr
	mov	x28, xzr
	str	xzr, [sp, #8]
17:
	mov	w21, wzr
	mov	w20, wzr
	mov	w17, wzr
	mov	x6, xzr
	mov	w4, wzr
	mov	w30, wzr
	mov	x7, xzr
	mov	w24, #1
18:
	strb	w0, [x19, #24]
	lsr	x0, x9, #48
	stur	w9, [x19, #25]
	lsr	x9, x9, #32
	str	x8, [x19, #32]
	lsr	x8, x10, #48
	sturh	w9, [x19, #29]
	lsr	x9, x10, #32
	strb	w8, [x19, #47]
	ldr	x8, [sp, #8]
	sturh	w9, [x19, #45]
	lsr	x9, x11, #32
	strb	w8, [x19, #48]
	lsr	x8, x11, #48
	sturh	w9, [x19, #53]
	lsr	x9, x12, #32
	strb	w8, [x19, #55]
	lsr	x8, x12, #48
	sturh	w9, [x19, #61]
	lsr	x9, x13, #32
	strb	w8, [x19, #63]
	lsr	x8, x13, #48
	sturh	w9, [x19, #77]
	lsr	x9, x14, #32
	strb	w8, [x19, #79]
	lsr	x8, x14, #48
	sturh	w9, [x19, #85]
	lsr	x9, x15, #32
	strb	w8, [x19, #87]
	lsr	x8, x15, #48
	sturh	w9, [x19, #93]
	lsr	x9, x16, #32
	strb	w8, [x19, #95]
	lsr	x8, x16, #48
	str	x24, [x19]
	ldp	x26, x25, [sp, #48]
	str	w30, [x19, #8]
	ldp	x29, x30, [sp, #16]
	str	x7, [x19, #16]
	strb	w0, [x19, #31]
	strb	w3, [x19, #40]
	stur	w10, [x19, #41]
	stur	w11, [x19, #49]
	strb	w23, [x19, #56]
	ldp	x24, x23, [sp, #64]
	stur	w12, [x19, #57]
	str	x28, [x19, #64]
	ldp	x28, x27, [sp, #32]
	strb	w21, [x19, #72]
	ldp	x22, x21, [sp, #80]
	stur	w13, [x19, #73]
	strb	w20, [x19, #80]
	stur	w14, [x19, #81]
	strb	w17, [x19, #88]
	stur	w15, [x19, #89]
	str	x6, [x19, #96]
	strb	w4, [x19, #104]
	stur	w16, [x19, #105]
	strb	w8, [x19, #111]
	sturh	w9, [x19, #109]
	stp	x5, x1, [x19, #112]
	str	x2, [x19, #128]
	ldp	x20, x19, [sp, #96]
	add	sp, sp, #112
	ret
19:
	mov	w17, w0
	mov	x10, x9
	mov	x11, x9
	mov	x12, x9
	mov	x13, x9
	mov	x14, x9
	mov	x15, x9
	mov	x16, x9
	mov	x5, x9
	mov	x1, x9
	mov	x2, x9
	mov	x8, x9
	mov	w3, w0
	str	x17, [sp, #8]
	mov	w23, w0
	mov	x28, x9
	mov	w21, w0
	mov	w20, w0
	mov	x6, x9
	mov	w4, w0
	mov	w30, w0
	mov	x7, x9
	b	18b
20:
	mov	x9, xzr
	mov	x10, xzr
	mov	x11, xzr
	mov	x12, xzr
	mov	x13, xzr
	mov	x14, xzr
	mov	x15, xzr
	mov	x16, xzr
	mov	x5, xzr
	mov	x1, xzr
	mov	x2, xzr
	mov	w0, wzr
	mov	x8, xzr
	mov	w3, wzr
	str	xzr, [sp, #8]
	mov	w23, wzr
	b	17b
	vj_end	b2_commands..task..Task..require_no_more_words_1_a64

	vj_constants	16
	.p2align	4, 0x0
.L1_a64_CPI9_0:
	.quad	0
	.quad	4412750543122677053
	vj_function	b2_commands..arguments..Options..from_words_1_a64
	sub	sp, sp, #320
	stp	x20, x19, [sp, #304]
	mov	x19, x0
	stp	x29, x30, [sp, #224]
	add	x29, sp, #224
	stp	x28, x27, [sp, #240]
	stp	x26, x25, [sp, #256]
	stp	x24, x23, [sp, #272]
	stp	x22, x21, [sp, #288]
	str	x2, [sp, #72]
	str	w1, [sp, #28]
	str	x3, [sp, #56]
	cbz	x3, 1f
	mov	x21, #4340410370284600380
	mov	x28, xzr
	mov	x25, xzr
	mov	x27, xzr
	mov	x24, xzr
	mov	x23, xzr
	mov	x22, xzr
	orr	x21, x21, #0x1111111111111111
	str	wzr, [sp, #68]
	stp	xzr, xzr, [sp, #8]
	stp	xzr, xzr, [sp, #40]
	str	xzr, [sp, #32]
	b	6f
1:
	mov	x8, xzr
	mov	x11, xzr
	mov	x13, xzr
	mov	x12, xzr
	mov	x9, xzr
	mov	x22, xzr
	mov	x14, xzr
	mov	x23, xzr
	mov	x10, xzr
	mov	x24, xzr
	mov	x27, xzr
	mov	x25, xzr
2:
	stp	xzr, x8, [x19]
	stp	x11, x13, [x19, #16]
	stp	x12, x9, [x19, #32]
	stp	x22, x14, [x19, #48]
	stp	x23, x10, [x19, #64]
	stp	x24, x27, [x19, #80]
	str	x25, [x19, #96]
	b	40f
3:
	mov	x1, x25
	add	x0, x10, x24
	mov	x2, x27
	mov	x25, x10
	vj_c_call	memmove
	mov	x8, x27
4:
	add	x27, x24, x8
	mov	x24, x25
	ldr	x25, [sp]
	mov	w8, #1
	str	w8, [sp, #68]
5:
	ldr	x8, [sp, #56]
	add	x28, x28, #1
	mov	x21, #4340410370284600380
	orr	x21, x21, #0x1111111111111111
	cmp	x28, x8
	b.eq	41f
6:
	mov	w8, #24
	ldr	x10, [sp, #72]
	movi	v0.2d, #0000000000000000
	madd	x8, x28, x8, x10
	mov	w9, #61
	sturb	w9, [x29, #-24]
	stp	q0, q0, [x29, #-80]
	stp	q0, q0, [sp, #80]
	ldp	x20, x26, [x8]
	sub	x8, x29, #40
	stp	q0, q0, [sp, #112]
	stur	wzr, [x8, #17]
	cmp	x26, #7
	stp	x20, x26, [x29, #-40]
	stur	wzr, [x8, #20]
	b.hi	7f
	cbz	x26, 32f
	ldrb	w8, [x20]
	cmp	w8, #61
	b.ne	12f
	mov	x21, xzr
	b	19f
7:
	ldr	x8, [x20]
	mov	x10, #9187201950435737471
	and	x9, x8, #0x7f7f7f7f7f7f7f7f
	eor	x9, x9, x21
	add	x9, x9, x10
	orr	x8, x9, x8
	mov	x9, #-9187201950435737472
	and	x8, x8, #0x8080808080808080
	cmp	x8, x9
	b.ne	11f
	mov	w8, #8
	cmp	x26, #40
	b.lo	9f
8:
	movi	v0.16b, #127
	movi	v1.16b, #61
	add	x9, x20, x8
	ldp	q2, q5, [x9]
	vj_page	x9, .L1_a64_CPI9_0
	mov	x10, #-9187201950435737472
	and	v3.16b, v2.16b, v0.16b
	eor	v4.16b, v2.16b, v1.16b
	eor	v3.16b, v3.16b, v1.16b
	and	v4.16b, v4.16b, v0.16b
	eor	v1.16b, v5.16b, v1.16b
	vj_load	q5, x9, .L1_a64_CPI9_0
	mov	v3.d[1], v4.d[1]
	and	v4.16b, v1.16b, v0.16b
	eor	v2.16b, v2.16b, v5.16b
	add	v3.2d, v3.2d, v0.2d
	add	v0.2d, v4.2d, v0.2d
	orr	v0.16b, v0.16b, v1.16b
	orr	v1.16b, v3.16b, v2.16b
	and	v0.16b, v1.16b, v0.16b
	ext	v1.16b, v0.16b, v0.16b, #8
	and	v0.8b, v0.8b, v1.8b
	fmov	x9, d0
	bics	xzr, x10, x9
	b.ne	9f
	sub	x0, x29, #40
	add	x1, x8, #32
	mov	x2, x26
	bl	core..slice..words..skip_far..d9bf6fcacf29a880_1_a64
	sub	x9, x26, x0
	mov	x8, x0
	cmp	x9, #31
	b.hi	8b
9:
	sub	x9, x26, x8
10:
	cmp	x9, #9
	b.lo	13f
	ldr	x10, [x20, x8]
	mov	x12, #9187201950435737471
	sub	x9, x9, #8
	and	x11, x10, #0x7f7f7f7f7f7f7f7f
	eor	x11, x11, x21
	add	x11, x11, x12
	mov	x12, #-9187201950435737472
	orr	x10, x11, x10
	and	x10, x10, #0x8080808080808080
	eor	x11, x10, #0x8080808080808080
	cmp	x10, x12
	mov	w10, #8
	rbit	x11, x11
	clz	x11, x11
	lsr	x11, x11, #3
	csel	x10, x10, x11, eq
	add	x11, x10, x8
	add	x8, x8, #8
	cmp	x11, x8
	b.hs	10b
	add	x8, x10, x8
	sub	x21, x8, #8
	b	19f
11:
	eor	x8, x8, #0x8080808080808080
	rbit	x8, x8
	clz	x8, x8
	lsr	x21, x8, #3
	b	19f
12:
	cmp	x26, #1
	b.eq	32f
	ldrb	w8, [x20, #1]
	cmp	w8, #61
	b.ne	14f
	mov	w21, #1
	b	19f
13:
	sub	x8, x26, #8
	mov	x11, #9187201950435737471
	ldr	x9, [x20, x8]
	and	x10, x9, #0x7f7f7f7f7f7f7f7f
	eor	x10, x10, x21
	add	x10, x10, x11
	mov	x11, #-9187201950435737472
	orr	x9, x10, x9
	and	x9, x9, #0x8080808080808080
	eor	x10, x9, #0x8080808080808080
	cmp	x9, x11
	mov	w9, #8
	rbit	x10, x10
	clz	x10, x10
	lsr	x10, x10, #3
	csel	x9, x9, x10, eq
	add	x21, x9, x8
	b	19f
14:
	cmp	x26, #2
	b.eq	32f
	ldrb	w8, [x20, #2]
	cmp	w8, #61
	b.ne	15f
	mov	w21, #2
	b	19f
15:
	cmp	x26, #3
	b.eq	32f
	ldrb	w8, [x20, #3]
	cmp	w8, #61
	b.ne	16f
	mov	w21, #3
	b	19f
16:
	cmp	x26, #4
	b.eq	32f
	ldrb	w8, [x20, #4]
	cmp	w8, #61
	b.ne	17f
	mov	w21, #4
	b	19f
17:
	cmp	x26, #5
	b.eq	32f
	ldrb	w8, [x20, #5]
	cmp	w8, #61
	b.ne	18f
	mov	w21, #5
	b	19f
18:
	cmp	x26, #6
	b.eq	32f
	ldrb	w8, [x20, #6]
	cmp	w8, #61
	b.ne	32f
	mov	w21, #6
19:
	cmp	x21, x26
	b.hs	33f
	add	x9, x21, #1
	mov	x8, xzr
	cmp	x21, #6
	add	x1, x20, x9
	sub	x2, x26, x9
	b.gt	20f
	cmp	x21, #3
	b.eq	24f
	cmp	x21, #4
	mov	x3, x8
	b.ne	34f
	ldr	w8, [x20]
	mov	x9, #24947
	movk	x9, #29804, lsl #16
	orr	x8, x8, x8, lsl #32
	orr	x9, x9, x9, lsl #32
	cmp	x8, x9
	mov	x8, xzr
	b.ne	31f
	ldr	w9, [sp, #52]
	mov	x3, x8
	cmp	w9, #1
	b.eq	34f
	add	x0, sp, #112
	bl	b2_commands..arguments..bytes_of_1_a64
	ldp	x8, x10, [sp, #120]
	ldrb	w9, [sp, #112]
	str	x10, [sp, #16]
	cbnz	w9, 42f
	ldr	x23, [sp, #136]
	mov	w9, #1
	mov	x22, x8
	str	w9, [sp, #52]
	b	5b
20:
	cmp	x21, #7
	b.eq	25f
	cmp	x21, #12
	mov	x3, x8
	b.ne	34f
	mov	x10, #25968
	ldr	x8, [x20]
	movk	x10, #29554, lsl #16
	movk	x10, #28271, lsl #32
	movk	x10, #11617, lsl #48
	cmp	x8, x10
	mov	x8, xzr
	b.ne	31f
	mov	x11, #28271
	ldur	x10, [x20, #4]
	movk	x11, #11617, lsl #16
	movk	x11, #25972, lsl #32
	movk	x11, #29816, lsl #48
	cmp	x10, x11
	b.ne	31f
	ldr	w10, [sp, #68]
	cmp	w10, #1
	b.eq	31f
	cmp	x26, x9
	mov	x3, x8
	b.eq	34f
	sub	x8, x29, #9
	str	x24, [sp]
	mov	x24, x25
	mov	x25, x1
	stur	x8, [x29, #-40]
	sub	x8, x29, #40
	sub	x0, x29, #40
	mov	x1, x2
	stp	xzr, xzr, [x8, #8]
	mov	x27, x2
	bl	std_alloc..vec..Vec..grow_amortized..3378b08034dc46b4_1_a64
	cbz	w0, 46f
	ldp	x10, x24, [x29, #-40]
	add	x8, x10, x24
	sub	x9, x8, x25
	ldur	x8, [x29, #-24]
	cmp	x9, x27
	str	x8, [sp]
	b.hs	3b
	mov	x8, x27
	mov	x25, x10
	cmp	x27, #8
	b.lo	21f
	add	x9, x21, x20
	add	x10, x24, x25
	mvn	x9, x9
	add	x9, x9, x10
	cmp	x9, #32
	b.hs	26f
21:
	mov	x9, xzr
22:
	add	x10, x21, x9
	add	x12, x9, x24
	sub	x11, x10, x26
	add	x10, x20, x10
	add	x9, x11, #1
	add	x10, x10, #1
	add	x11, x25, x12
23:
	ldrb	w12, [x10], #1
	adds	x9, x9, #1
	strb	w12, [x11], #1
	b.lo	23b
	b	4b
24:
	ldr	w9, [sp, #28]
	mov	x8, xzr
	cbz	w9, 31f
	ldrb	w9, [x20]
	ldrb	w10, [x20, #1]
	mov	x3, x8
	lsl	x9, x9, #16
	orr	x9, x9, x10, lsl #8
	ldrb	w10, [x20, #2]
	orr	x9, x9, x10
	mov	w10, #25977
	movk	w10, #107, lsl #16
	cmp	x9, x10
	b.ne	34f
	ldr	w8, [sp, #48]
	cmp	w8, #1
	b.eq	43f
	sub	x0, x29, #80
	bl	b2_commands..arguments..bytes_of_1_a64
	ldur	x9, [x29, #-72]
	ldurb	w8, [x29, #-80]
	str	x9, [sp, #40]
	ldur	x9, [x29, #-64]
	str	x9, [sp, #8]
	cbnz	w8, 45f
	ldur	x8, [x29, #-56]
	str	x8, [sp, #32]
	mov	w8, #1
	str	w8, [sp, #48]
	b	5b
25:
	ldr	w8, [x20]
	ldur	w9, [x20, #3]
	orr	x8, x8, x9, lsl #32
	mov	x9, #25968
	movk	x9, #29554, lsl #16
	movk	x9, #28531, lsl #32
	movk	x9, #24942, lsl #48
	cmp	x8, x9
	mov	x8, xzr
	b.ne	31f
	ldr	w9, [sp, #68]
	mov	x3, x8
	cmp	w9, #1
	b.eq	34f
	add	x0, sp, #80
	bl	b2_commands..arguments..bytes_of_1_a64
	ldp	x8, x27, [sp, #88]
	ldrb	w9, [sp, #80]
	cbnz	w9, 44f
	ldr	x25, [sp, #104]
	mov	w9, #1
	mov	x24, x8
	str	w9, [sp, #68]
	b	5b
26:
	cmp	x8, #32
	b.hs	27f
	mov	x9, xzr
	b	29f
27:
	add	x11, x25, x24
	add	x12, x20, x21
	and	x10, x8, #0x18
	and	x9, x8, #0xffffffffffffffe0
	add	x11, x11, #16
	add	x12, x12, #17
	and	x13, x8, #0xffffffffffffffe0
28:
	ldp	q0, q1, [x12, #-16]
	subs	x13, x13, #32
	add	x12, x12, #32
	stp	q0, q1, [x11, #-16]
	add	x11, x11, #32
	b.ne	28b
	cmp	x8, x9
	b.eq	4b
	cbz	x10, 22b
29:
	mov	x10, x9
	and	x9, x8, #0xfffffffffffffff8
	add	x11, x21, x10
	add	x12, x10, x24
	sub	x10, x10, x9
	add	x11, x20, x11
	add	x12, x25, x12
	add	x11, x11, #1
30:
	ldr	d0, [x11], #8
	adds	x10, x10, #8
	str	d0, [x12], #8
	b.ne	30b
	cmp	x8, x9
	b.eq	4b
	b	22b
31:
	mov	x3, x8
	b	34f
32:
	mov	x20, xzr
	mov	x3, xzr
	ldp	x8, x0, [sp, #32]
	mov	x21, x3
	ldr	w9, [sp, #48]
	cmp	w9, #1
	b.ne	37f
	b	35f
33:
	mov	x8, xzr
	mov	x3, xzr
34:
	and	x20, x8, #0xff
	ldp	x8, x0, [sp, #32]
	mov	x21, x3
	ldr	w9, [sp, #48]
	cmp	w9, #1
	b.ne	37f
35:
	cbz	x8, 37f
36:
	vj_call	rattle_dealloc
37:
	ldr	w8, [sp, #52]
	cmp	w8, #1
	b.ne	38f
	cbz	x23, 38f
	mov	x0, x22
	vj_call	rattle_dealloc
38:
	ldr	w8, [sp, #68]
	cmp	w8, #1
	b.ne	39f
	cbz	x25, 39f
	mov	x0, x24
	vj_call	rattle_dealloc
39:
	movi	v0.2d, #0000000000000000
	mov	w8, #1
	stp	x20, x21, [x19, #8]
	str	x8, [x19]
	stur	q0, [x19, #24]
	stur	q0, [x19, #40]
	stur	q0, [x19, #56]
	stur	q0, [x19, #72]
	stur	q0, [x19, #88]
40:
	ldp	x20, x19, [sp, #304]
	ldp	x22, x21, [sp, #288]
	ldp	x24, x23, [sp, #272]
	ldp	x26, x25, [sp, #256]
	ldp	x28, x27, [sp, #240]
	ldp	x29, x30, [sp, #224]
	add	sp, sp, #320
	ret
41:
	ldp	w8, w9, [sp, #48]
	ldr	w10, [sp, #68]
	ldp	x12, x11, [sp, #32]
	ldp	x13, x14, [sp, #8]
	mov	w8, w8
	mov	w9, w9
	mov	w10, w10
	b	2b
42:
	ldr	x3, [sp, #16]
	b	34b
43:
	ldp	x8, x0, [sp, #32]
	mov	x20, xzr
	mov	x21, xzr
	cbnz	x8, 36b
	b	37b
44:
	mov	x3, x27
	b	34b
45:
	ldr	x8, [sp, #40]
	ldr	x21, [sp, #8]
	and	x20, x8, #0xff
	b	37b
46:
	ldur	x8, [x29, #-24]
	cbz	x8, 47f
	ldur	x0, [x29, #-40]
	vj_call	rattle_dealloc
47:
	mov	x25, x24
	ldr	x24, [sp]
	mov	x3, xzr
	mov	w20, #8
	ldp	x8, x0, [sp, #32]
	mov	x21, x3
	ldr	w9, [sp, #48]
	cmp	w9, #1
	b.ne	37b
	b	35b
	vj_end	b2_commands..arguments..Options..from_words_1_a64

	vj_function	core..slice..words..skip_far..d9bf6fcacf29a880_1_a64
	sub	x8, x2, x1
	cmp	x8, #64
	b.lo	2f
	ldrb	w9, [x0, #16]
	mov	x10, #72340172838076673
	mul	x9, x9, x10
	dup	v0.2d, x9
	ldr	x9, [x0]
1:
	add	x10, x9, x1
	movi	v1.16b, #127
	mov	x11, #-9187201950435737472
	ldp	q2, q4, [x10, #16]
	ldr	q3, [x10, #48]
	ldr	q5, [x10]
	eor	v3.16b, v0.16b, v3.16b
	eor	v2.16b, v0.16b, v2.16b
	eor	v5.16b, v0.16b, v5.16b
	eor	v4.16b, v0.16b, v4.16b
	and	v7.16b, v3.16b, v1.16b
	and	v6.16b, v2.16b, v1.16b
	and	v16.16b, v4.16b, v1.16b
	and	v17.16b, v5.16b, v1.16b
	add	v6.2d, v6.2d, v1.2d
	add	v17.2d, v17.2d, v1.2d
	add	v16.2d, v16.2d, v1.2d
	add	v1.2d, v7.2d, v1.2d
	orr	v2.16b, v6.16b, v2.16b
	orr	v1.16b, v1.16b, v3.16b
	orr	v3.16b, v16.16b, v4.16b
	orr	v4.16b, v17.16b, v5.16b
	and	v3.16b, v4.16b, v3.16b
	and	v1.16b, v2.16b, v1.16b
	and	v1.16b, v3.16b, v1.16b
	ext	v2.16b, v1.16b, v1.16b, #8
	and	v1.8b, v1.8b, v2.8b
	fmov	x10, d1
	bics	xzr, x11, x10
	b.ne	2f
	sub	x8, x8, #64
	add	x1, x1, #64
	cmp	x8, #63
	b.hi	1b
2:
	mov	x0, x1
	ret
	vj_end	core..slice..words..skip_far..d9bf6fcacf29a880_1_a64

	vj_function	std_io..io..error..last_error_1_a64
	stp	x29, x30, [sp, #-32]!
	str	x19, [sp, #16]
	mov	x29, sp
	mov	x19, x0
	vj_call	rattle_errno
	tbnz	w0, #31, 2f
	sub	w8, w0, #1
	cmp	w8, #121
	b.hi	2f
	vj_page	x9, .L1_a64_JTI11_0
	vj_address	x9, x9, .L1_a64_JTI11_0
	adr	x10, 1f
	ldrb	w11, [x9, x8]
	add	x10, x10, x11, lsl #2
	mov	w8, #1
	ret	x10
1:
	mov	w8, #36
	b	3f
2:
	mov	w8, #41
3:
	movi	v0.2d, #0000000000000000
	strb	wzr, [x19]
	strb	w8, [x19, #1]
	strh	wzr, [x19, #2]
	str	w0, [x19, #4]
	stur	q0, [x19, #8]
	stur	q0, [x19, #24]
	stur	q0, [x19, #40]
	stur	q0, [x19, #56]
	stur	q0, [x19, #72]
	ldr	x19, [sp, #16]
	ldp	x29, x30, [sp], #32
	ret
4:
	mov	w8, #4
	b	3b
5:
	mov	w8, #7
	b	3b
6:
	mov	w8, #26
	b	3b
7:
	mov	w8, #39
	b	3b
8:
	mov	w8, #9
	b	3b
9:
	mov	w8, #8
	b	3b
10:
	mov	w8, #30
	b	3b
11:
	mov	w8, #25
	b	3b
12:
	mov	w8, #32
	b	3b
13:
	mov	w8, #33
	b	3b
14:
	mov	w8, #22
	b	3b
15:
	mov	w8, #31
	b	3b
16:
	mov	w8, #29
	b	3b
17:
	mov	w8, #18
	b	3b
18:
	mov	w8, #10
	b	3b
19:
	mov	w8, #28
	b	3b
20:
	mov	w8, #14
	b	3b
21:
	mov	w8, #12
	b	3b
22:
	mov	w8, #5
	b	3b
23:
	mov	w8, #3
	b	3b
24:
	mov	w8, wzr
	b	3b
25:
	mov	w8, #13
	b	3b
26:
	mov	w8, #38
	b	3b
27:
	mov	w8, #11
	b	3b
28:
	mov	w8, #35
	b	3b
29:
	mov	w8, #34
	b	3b
30:
	mov	w8, #20
	b	3b
31:
	mov	w8, #15
	b	3b
32:
	mov	w8, #19
	b	3b
33:
	mov	w8, #16
	b	3b
34:
	mov	w8, #6
	b	3b
35:
	mov	w8, #27
	b	3b
36:
	mov	w8, #24
	b	3b
37:
	mov	w8, #2
	b	3b
38:
	mov	w8, #17
	b	3b
	vj_end	std_io..io..error..last_error_1_a64

	vj_data	std_io..io..error..last_error_1_a64
.L1_a64_JTI11_0:
	.byte	(3b-1b)>>2
	.byte	(24b-1b)>>2
	.byte	(2b-1b)>>2
	.byte	(28b-1b)>>2
	.byte	(2b-1b)>>2
	.byte	(2b-1b)>>2
	.byte	(29b-1b)>>2
	.byte	(2b-1b)>>2
	.byte	(2b-1b)>>2
	.byte	(2b-1b)>>2
	.byte	(25b-1b)>>2
	.byte	(26b-1b)>>2
	.byte	(3b-1b)>>2
	.byte	(2b-1b)>>2
	.byte	(2b-1b)>>2
	.byte	(19b-1b)>>2
	.byte	(21b-1b)>>2
	.byte	(15b-1b)>>2
	.byte	(2b-1b)>>2
	.byte	(20b-1b)>>2
	.byte	(31b-1b)>>2
	.byte	(30b-1b)>>2
	.byte	(2b-1b)>>2
	.byte	(2b-1b)>>2
	.byte	(2b-1b)>>2
	.byte	(16b-1b)>>2
	.byte	(35b-1b)>>2
	.byte	(36b-1b)>>2
	.byte	(11b-1b)>>2
	.byte	(38b-1b)>>2
	.byte	(12b-1b)>>2
	.byte	(27b-1b)>>2
	.byte	(2b-1b)>>2
	.byte	(2b-1b)>>2
	.byte	(10b-1b)>>2
	.byte	(13b-1b)>>2
	.byte	(2b-1b)>>2
	.byte	(1b-1b)>>2
	.byte	(33b-1b)>>2
	.byte	(17b-1b)>>2
	.byte	(2b-1b)>>2
	.byte	(2b-1b)>>2
	.byte	(2b-1b)>>2
	.byte	(2b-1b)>>2
	.byte	(2b-1b)>>2
	.byte	(2b-1b)>>2
	.byte	(2b-1b)>>2
	.byte	(2b-1b)>>2
	.byte	(2b-1b)>>2
	.byte	(2b-1b)>>2
	.byte	(2b-1b)>>2
	.byte	(2b-1b)>>2
	.byte	(2b-1b)>>2
	.byte	(2b-1b)>>2
	.byte	(2b-1b)>>2
	.byte	(2b-1b)>>2
	.byte	(2b-1b)>>2
	.byte	(2b-1b)>>2
	.byte	(2b-1b)>>2
	.byte	(2b-1b)>>2
	.byte	(2b-1b)>>2
	.byte	(2b-1b)>>2
	.byte	(2b-1b)>>2
	.byte	(2b-1b)>>2
	.byte	(2b-1b)>>2
	.byte	(2b-1b)>>2
	.byte	(2b-1b)>>2
	.byte	(2b-1b)>>2
	.byte	(2b-1b)>>2
	.byte	(2b-1b)>>2
	.byte	(2b-1b)>>2
	.byte	(2b-1b)>>2
	.byte	(2b-1b)>>2
	.byte	(2b-1b)>>2
	.byte	(2b-1b)>>2
	.byte	(2b-1b)>>2
	.byte	(2b-1b)>>2
	.byte	(2b-1b)>>2
	.byte	(2b-1b)>>2
	.byte	(2b-1b)>>2
	.byte	(2b-1b)>>2
	.byte	(2b-1b)>>2
	.byte	(2b-1b)>>2
	.byte	(2b-1b)>>2
	.byte	(2b-1b)>>2
	.byte	(2b-1b)>>2
	.byte	(2b-1b)>>2
	.byte	(2b-1b)>>2
	.byte	(2b-1b)>>2
	.byte	(2b-1b)>>2
	.byte	(2b-1b)>>2
	.byte	(2b-1b)>>2
	.byte	(2b-1b)>>2
	.byte	(2b-1b)>>2
	.byte	(1b-1b)>>2
	.byte	(2b-1b)>>2
	.byte	(2b-1b)>>2
	.byte	(9b-1b)>>2
	.byte	(8b-1b)>>2
	.byte	(18b-1b)>>2
	.byte	(22b-1b)>>2
	.byte	(2b-1b)>>2
	.byte	(34b-1b)>>2
	.byte	(23b-1b)>>2
	.byte	(2b-1b)>>2
	.byte	(2b-1b)>>2
	.byte	(5b-1b)>>2
	.byte	(2b-1b)>>2
	.byte	(2b-1b)>>2
	.byte	(14b-1b)>>2
	.byte	(37b-1b)>>2
	.byte	(2b-1b)>>2
	.byte	(4b-1b)>>2
	.byte	(2b-1b)>>2
	.byte	(7b-1b)>>2
	.byte	(32b-1b)>>2
	.byte	(2b-1b)>>2
	.byte	(2b-1b)>>2
	.byte	(2b-1b)>>2
	.byte	(2b-1b)>>2
	.byte	(2b-1b)>>2
	.byte	(6b-1b)>>2

	vj_function	blake2_state..blake2b..State..absorb_blocks_1_a64
	sub	sp, sp, #192
	str	x21, [sp, #160]
	ldr	w21, [x0, #136]
	mov	w8, #128
	stp	x20, x19, [sp, #176]
	mov	x20, x2
	mov	x19, x0
	sub	x8, x8, x21
	stp	x29, x30, [sp, #144]
	add	x29, sp, #144
	cmp	x2, x8
	mov	x2, x1
	b.ls	1f
	ldp	q1, q0, [x19]
	add	x0, x19, #152
	ldr	w8, [x19, #148]
	ldr	x9, [x19, #128]
	mov	x4, sp
	mov	x1, x21
	mov	x3, x20
	stp	q1, q0, [sp]
	ldp	q2, q0, [x19, #32]
	cmp	w8, #0
	cset	w8, ne
	stp	q2, q0, [sp, #32]
	ldp	q1, q0, [x19, #64]
	stp	x9, x8, [sp, #128]
	stp	q1, q0, [sp, #64]
	ldp	q2, q0, [x19, #96]
	stp	q2, q0, [sp, #96]
	bl	blake2_digest..buffer..digest_into..33c1e97afcdf8a5d_1_a64
	ldp	q0, q1, [sp]
	ldr	x8, [sp, #128]
	str	w0, [x19, #136]
	str	x8, [x19, #128]
	stp	q0, q1, [x19]
	ldp	q2, q0, [sp, #32]
	stp	q2, q0, [x19, #32]
	ldp	x20, x19, [sp, #176]
	ldr	x21, [sp, #160]
	ldp	x29, x30, [sp, #144]
	add	sp, sp, #192
	ret
1:
	add	x8, x19, x21
	add	x0, x8, #152
	sub	x8, x0, x2
	cmp	x8, x20
	b.hs	5f
	cmp	x20, #8
	b.lo	2f
	add	x8, x19, x21
	sub	x8, x8, x2
	add	x8, x8, #152
	cmp	x8, #32
	b.hs	7f
2:
	mov	x8, xzr
3:
	add	x9, x8, x21
	add	x10, x9, x19
	sub	x9, x20, x8
	add	x8, x2, x8
	add	x10, x10, #152
4:
	ldrb	w11, [x8], #1
	subs	x9, x9, #1
	strb	w11, [x10], #1
	b.ne	4b
	b	6f
5:
	mov	x1, x2
	mov	x2, x20
	vj_c_call	memmove
6:
	add	w8, w21, w20
	str	w8, [x19, #136]
	ldp	x20, x19, [sp, #176]
	ldr	x21, [sp, #160]
	ldp	x29, x30, [sp, #144]
	add	sp, sp, #192
	ret
7:
	cmp	x20, #32
	b.hs	8f
	mov	x8, xzr
	b	10f
8:
	add	x11, x21, x19
	and	x9, x20, #0x18
	and	x8, x20, #0xffffffffffffffe0
	add	x10, x2, #16
	add	x11, x11, #168
	and	x12, x20, #0xffffffffffffffe0
9:
	ldp	q0, q1, [x10, #-16]
	subs	x12, x12, #32
	add	x10, x10, #32
	stp	q0, q1, [x11, #-16]
	add	x11, x11, #32
	b.ne	9b
	cmp	x20, x8
	b.eq	6b
	cbz	x9, 3b
10:
	mov	x10, x8
	and	x8, x20, #0xfffffffffffffff8
	add	x9, x10, x21
	add	x11, x9, x19
	sub	x9, x10, x8
	add	x10, x2, x10
	add	x11, x11, #152
11:
	ldr	d0, [x10], #8
	adds	x9, x9, #8
	str	d0, [x11], #8
	b.ne	11b
	cmp	x20, x8
	b.eq	6b
	b	3b
	vj_end	blake2_state..blake2b..State..absorb_blocks_1_a64

	vj_function	blake2_digest..buffer..digest_into..33c1e97afcdf8a5d_1_a64
	stp	x29, x30, [sp, #-80]!
	mov	w8, #128
	stp	x20, x19, [sp, #64]
	mov	x20, x2
	sub	x2, x8, x1
	stp	x24, x23, [sp, #32]
	mov	x19, x0
	stp	x22, x21, [sp, #48]
	mov	x21, x3
	subs	x23, x3, x2
	str	x25, [sp, #16]
	mov	x29, sp
	b.ls	4f
	mov	x22, x4
	cbz	x1, 12f
	add	x0, x19, x1
	add	x24, x20, x2
	sub	x8, x0, x20
	cmp	x8, x2
	b.hs	10f
	cmp	x2, #8
	b.lo	1f
	add	x8, x1, x19
	sub	x8, x8, x20
	cmp	x8, #32
	b.hs	22f
1:
	mov	x8, xzr
2:
	add	x9, x8, x1
	add	x8, x20, x8
3:
	ldrb	w10, [x8], #1
	strb	w10, [x19, x9]
	add	x9, x9, #1
	cmp	x9, #128
	b.ne	3b
	b	11f
4:
	add	x0, x19, x1
	sub	x8, x0, x20
	cmp	x8, x21
	b.hs	8f
	cmp	x21, #8
	b.lo	5f
	add	x8, x1, x19
	sub	x8, x8, x20
	cmp	x8, #32
	b.hs	20f
5:
	mov	x8, xzr
6:
	add	x10, x8, x1
	sub	x9, x21, x8
	add	x8, x20, x8
	add	x10, x19, x10
7:
	ldrb	w11, [x8], #1
	subs	x9, x9, #1
	strb	w11, [x10], #1
	b.ne	7b
	b	9f
8:
	mov	x19, x1
	mov	x1, x20
	mov	x2, x21
	vj_c_call	memmove
	mov	x1, x19
9:
	add	x22, x21, x1
	b	19f
10:
	mov	x1, x20
	vj_c_call	memmove
11:
	ldr	x8, [x22, #128]
	mov	x0, x22
	mov	x1, x19
	mov	w3, wzr
	mov	w4, wzr
	add	x2, x8, #128
	str	x2, [x22, #128]
	vj_call	blake2_compress..compress..blake2b..compress_1_arm
	mov	x21, x23
	mov	x20, x24
12:
	cmp	x21, #0
	cset	w8, ne
	sub	x8, x21, x8
	lsr	x25, x8, #7
	and	x24, x8, #0xffffffffffffff80
	cbz	x25, 14f
	mov	x23, x20
13:
	ldr	x8, [x22, #128]
	mov	x0, x22
	mov	x1, x23
	mov	w3, wzr
	mov	w4, wzr
	add	x2, x8, #128
	str	x2, [x22, #128]
	vj_call	blake2_compress..compress..blake2b..compress_1_arm
	subs	x25, x25, #1
	add	x23, x23, #128
	b.ne	13b
14:
	movi	v0.2d, #0000000000000000
	add	x1, x20, x24
	sub	x22, x21, x24
	sub	x8, x19, x1
	cmp	x8, x22
	stp	q0, q0, [x19]
	stp	q0, q0, [x19, #32]
	stp	q0, q0, [x19, #64]
	stp	q0, q0, [x19, #96]
	b.hs	18f
	cmp	x22, #8
	b.lo	15f
	add	x8, x24, x20
	sub	x8, x19, x8
	cmp	x8, #32
	b.hs	21f
15:
	mov	x8, xzr
16:
	sub	x9, x21, x8
	add	x10, x8, x24
	add	x8, x19, x8
	sub	x9, x9, x24
	add	x10, x20, x10
17:
	ldrb	w11, [x10], #1
	subs	x9, x9, #1
	strb	w11, [x8], #1
	b.ne	17b
	b	19f
18:
	mov	x0, x19
	mov	x2, x22
	vj_c_call	memmove
19:
	mov	x0, x22
	ldp	x20, x19, [sp, #64]
	ldp	x22, x21, [sp, #48]
	ldr	x25, [sp, #16]
	ldp	x24, x23, [sp, #32]
	ldp	x29, x30, [sp], #80
	ret
20:
	cmp	x21, #32
	b.hs	23f
	mov	x8, xzr
	b	25f
21:
	cmp	x22, #32
	b.hs	27f
	mov	x8, xzr
	b	29f
22:
	cmp	x2, #32
	b.hs	31f
	mov	x8, xzr
	b	33f
23:
	add	x11, x1, x19
	and	x9, x21, #0x18
	and	x8, x21, #0xffffffffffffffe0
	add	x10, x20, #16
	add	x11, x11, #16
	and	x12, x21, #0xffffffffffffffe0
24:
	ldp	q0, q1, [x10, #-16]
	subs	x12, x12, #32
	add	x10, x10, #32
	stp	q0, q1, [x11, #-16]
	add	x11, x11, #32
	b.ne	24b
	cmp	x21, x8
	b.eq	9b
	cbz	x9, 6b
25:
	mov	x10, x8
	and	x8, x21, #0xfffffffffffffff8
	add	x11, x10, x1
	sub	x9, x10, x8
	add	x10, x20, x10
	add	x11, x19, x11
26:
	ldr	d0, [x10], #8
	adds	x9, x9, #8
	str	d0, [x11], #8
	b.ne	26b
	cmp	x21, x8
	b.eq	9b
	b	6b
27:
	and	x9, x21, #0x1f
	add	x10, x24, x20
	add	x11, x19, #16
	sub	x8, x22, x9
	add	x10, x10, #16
	sub	x12, x22, x9
28:
	ldp	q0, q1, [x10, #-16]
	subs	x12, x12, #32
	add	x10, x10, #32
	stp	q0, q1, [x11, #-16]
	add	x11, x11, #32
	b.ne	28b
	cbz	x9, 19b
	cmp	x9, #8
	b.lo	16b
29:
	and	x9, x21, #0x7
	add	x12, x8, x24
	add	x10, x19, x8
	add	x11, x12, x9
	sub	x8, x22, x9
	add	x12, x20, x12
	sub	x11, x11, x21
30:
	ldr	d0, [x12], #8
	adds	x11, x11, #8
	str	d0, [x10], #8
	b.ne	30b
	cbnz	x9, 16b
	b	19b
31:
	add	x11, x1, x19
	and	x9, x2, #0x18
	and	x8, x2, #0xffffffffffffffe0
	add	x10, x20, #16
	add	x11, x11, #16
	and	x12, x2, #0xffffffffffffffe0
32:
	ldp	q0, q1, [x10, #-16]
	subs	x12, x12, #32
	add	x10, x10, #32
	stp	q0, q1, [x11, #-16]
	add	x11, x11, #32
	b.ne	32b
	cmp	x2, x8
	b.eq	11b
	cbz	x9, 2b
33:
	mov	x10, x8
	and	x8, x2, #0xfffffffffffffff8
	add	x11, x10, x1
	sub	x9, x10, x8
	add	x10, x20, x10
	add	x11, x19, x11
34:
	ldr	d0, [x10], #8
	adds	x9, x9, #8
	str	d0, [x11], #8
	b.ne	34b
	cmp	x2, x8
	b.eq	11b
	b	2b
	vj_end	blake2_digest..buffer..digest_into..33c1e97afcdf8a5d_1_a64

	vj_function	blake2_state..blake2s..State..absorb_blocks_1_a64
	sub	sp, sp, #160
	stp	x22, x21, [sp, #128]
	ldrh	w22, [x0, #72]
	mov	w8, #64
	mov	x21, x2
	stp	x24, x23, [sp, #112]
	sub	x2, x8, x22
	stp	x20, x19, [sp, #144]
	mov	x19, x0
	subs	x24, x21, x2
	mov	x20, x1
	stp	x29, x30, [sp, #80]
	stp	x26, x25, [sp, #96]
	add	x29, sp, #80
	b.ls	4f
	ldp	q0, q1, [x19]
	add	x23, x19, #80
	ldrh	w8, [x19, #78]
	ldr	x25, [x19, #64]
	stp	q0, q1, [sp]
	ldp	q2, q0, [x19, #32]
	cmp	w8, #0
	cset	w8, ne
	stp	q2, q0, [sp, #32]
	stp	x25, x8, [sp, #64]
	cbz	w22, 12f
	add	x0, x23, x22
	add	x26, x20, x2
	sub	x8, x0, x20
	cmp	x8, x2
	b.hs	10f
	cmp	x2, #8
	b.lo	1f
	add	x8, x19, x22
	sub	x8, x8, x20
	add	x8, x8, #80
	cmp	x8, #32
	b.hs	23f
1:
	mov	x8, xzr
2:
	add	x9, x8, x22
	add	x8, x20, x8
3:
	ldrb	w10, [x8], #1
	strb	w10, [x23, x9]
	add	x9, x9, #1
	cmp	x9, #64
	b.ne	3b
	b	11f
4:
	add	x8, x19, x22
	add	x0, x8, #80
	sub	x8, x0, x20
	cmp	x8, x21
	b.hs	8f
	cmp	x21, #8
	b.lo	5f
	add	x8, x19, x22
	sub	x8, x8, x20
	add	x8, x8, #80
	cmp	x8, #32
	b.hs	21f
5:
	mov	x8, xzr
6:
	add	x9, x8, x22
	add	x10, x9, x19
	sub	x9, x21, x8
	add	x8, x20, x8
	add	x10, x10, #80
7:
	ldrb	w11, [x8], #1
	subs	x9, x9, #1
	strb	w11, [x10], #1
	b.ne	7b
	b	9f
8:
	mov	x1, x20
	mov	x2, x21
	vj_c_call	memmove
9:
	add	w8, w22, w21
	strh	w8, [x19, #72]
	b	20f
10:
	mov	x1, x20
	vj_c_call	memmove
11:
	add	x2, x25, #64
	mov	x0, sp
	add	x1, x19, #80
	mov	w3, wzr
	mov	w4, wzr
	str	x2, [sp, #64]
	vj_call	blake2_compress..compress..blake2s..compress_1_arm
	mov	x21, x24
	mov	x20, x26
12:
	cmp	x21, #0
	cset	w8, ne
	sub	x8, x21, x8
	lsr	x25, x8, #6
	and	x24, x8, #0xffffffffffffffc0
	cbz	x25, 14f
	mov	x22, x20
13:
	ldr	x8, [sp, #64]
	mov	x0, sp
	mov	x1, x22
	mov	w3, wzr
	mov	w4, wzr
	add	x2, x8, #64
	str	x2, [sp, #64]
	vj_call	blake2_compress..compress..blake2s..compress_1_arm
	subs	x25, x25, #1
	add	x22, x22, #64
	b.ne	13b
14:
	movi	v0.2d, #0000000000000000
	add	x1, x20, x24
	sub	x22, x21, x24
	sub	x8, x23, x1
	cmp	x8, x22
	stp	q0, q0, [x23]
	stp	q0, q0, [x23, #32]
	b.hs	18f
	cmp	x22, #8
	b.lo	15f
	add	x8, x24, x20
	sub	x8, x19, x8
	add	x8, x8, #80
	cmp	x8, #32
	b.hs	22f
15:
	mov	x8, xzr
16:
	sub	x9, x21, x8
	add	x10, x8, x24
	add	x11, x8, x19
	sub	x8, x9, x24
	add	x9, x20, x10
	add	x10, x11, #80
17:
	ldrb	w11, [x9], #1
	subs	x8, x8, #1
	strb	w11, [x10], #1
	b.ne	17b
	b	19f
18:
	add	x0, x19, #80
	mov	x2, x22
	vj_c_call	memmove
19:
	ldp	q0, q1, [sp]
	ldr	x8, [sp, #64]
	strh	w22, [x19, #72]
	str	x8, [x19, #64]
	stp	q0, q1, [x19]
20:
	ldp	x20, x19, [sp, #144]
	ldp	x22, x21, [sp, #128]
	ldp	x24, x23, [sp, #112]
	ldp	x26, x25, [sp, #96]
	ldp	x29, x30, [sp, #80]
	add	sp, sp, #160
	ret
21:
	cmp	x21, #32
	b.hs	24f
	mov	x8, xzr
	b	26f
22:
	cmp	x22, #32
	b.hs	28f
	mov	x8, xzr
	b	30f
23:
	cmp	x2, #32
	b.hs	32f
	mov	x8, xzr
	b	34f
24:
	add	x11, x22, x19
	and	x9, x21, #0x18
	and	x8, x21, #0xffffffffffffffe0
	add	x10, x20, #16
	add	x11, x11, #96
	and	x12, x21, #0xffffffffffffffe0
25:
	ldp	q0, q1, [x10, #-16]
	subs	x12, x12, #32
	add	x10, x10, #32
	stp	q0, q1, [x11, #-16]
	add	x11, x11, #32
	b.ne	25b
	cmp	x21, x8
	b.eq	9b
	cbz	x9, 6b
26:
	mov	x10, x8
	and	x8, x21, #0xfffffffffffffff8
	add	x9, x10, x22
	add	x11, x9, x19
	sub	x9, x10, x8
	add	x10, x20, x10
	add	x11, x11, #80
27:
	ldr	d0, [x10], #8
	adds	x9, x9, #8
	str	d0, [x11], #8
	b.ne	27b
	cmp	x21, x8
	b.eq	9b
	b	6b
28:
	and	x9, x21, #0x1f
	add	x11, x24, x20
	add	x10, x19, #96
	sub	x8, x22, x9
	add	x11, x11, #16
	sub	x12, x22, x9
29:
	ldp	q0, q1, [x11, #-16]
	subs	x12, x12, #32
	add	x11, x11, #32
	stp	q0, q1, [x10, #-16]
	add	x10, x10, #32
	b.ne	29b
	cbz	x9, 19b
	cmp	x9, #8
	b.lo	16b
30:
	and	x9, x21, #0x7
	add	x11, x8, x24
	add	x12, x8, x19
	add	x10, x11, x9
	sub	x8, x22, x9
	add	x11, x20, x11
	sub	x10, x10, x21
	add	x12, x12, #80
31:
	ldr	d0, [x11], #8
	adds	x10, x10, #8
	str	d0, [x12], #8
	b.ne	31b
	cbnz	x9, 16b
	b	19b
32:
	add	x11, x22, x19
	and	x9, x2, #0x18
	and	x8, x2, #0xffffffffffffffe0
	add	x10, x20, #16
	add	x11, x11, #96
	and	x12, x2, #0xffffffffffffffe0
33:
	ldp	q0, q1, [x10, #-16]
	subs	x12, x12, #32
	add	x10, x10, #32
	stp	q0, q1, [x11, #-16]
	add	x11, x11, #32
	b.ne	33b
	cmp	x2, x8
	b.eq	11b
	cbz	x9, 2b
34:
	mov	x10, x8
	and	x8, x2, #0xfffffffffffffff8
	add	x9, x10, x22
	add	x11, x9, x19
	sub	x9, x10, x8
	add	x10, x20, x10
	add	x11, x11, #80
35:
	ldr	d0, [x10], #8
	adds	x9, x9, #8
	str	d0, [x11], #8
	b.ne	35b
	cmp	x2, x8
	b.eq	11b
	b	2b
	vj_end	blake2_state..blake2s..State..absorb_blocks_1_a64

	vj_function	blake2_digest..wiping..settle..128_1_a64
	ldp	q0, q1, [x0]
	ldp	q2, q3, [x0, #32]
	ldp	q4, q5, [x0, #64]
	ldp	q6, q7, [x0, #96]
	orr	v0.16b, v2.16b, v0.16b
	orr	v1.16b, v3.16b, v1.16b
	orr	v2.16b, v6.16b, v4.16b
	orr	v3.16b, v7.16b, v5.16b
	orr	v0.16b, v2.16b, v0.16b
	orr	v1.16b, v3.16b, v1.16b
	orr	v0.16b, v1.16b, v0.16b
	ext	v1.16b, v0.16b, v0.16b, #8
	orr	v0.8b, v0.8b, v1.8b
	fmov	x8, d0
	orr	x8, x8, x8, lsr #32
	lsr	x9, x8, #16
	orr	w8, w8, w9
	orr	w8, w8, w8, lsr #8
	tst	w8, #0xff
	b.eq	1f
	isb
1:
	ret
	vj_end	blake2_digest..wiping..settle..128_1_a64

	vj_function	blake2_digest..wiping..settle..64_1_a64
	ldp	q0, q1, [x0, #32]
	ldp	q2, q3, [x0]
	orr	v1.16b, v3.16b, v1.16b
	orr	v0.16b, v2.16b, v0.16b
	orr	v0.16b, v0.16b, v1.16b
	ext	v1.16b, v0.16b, v0.16b, #8
	orr	v0.8b, v0.8b, v1.8b
	fmov	x8, d0
	orr	x8, x8, x8, lsr #32
	lsr	x9, x8, #16
	orr	w8, w8, w9
	orr	w8, w8, w8, lsr #8
	tst	w8, #0xff
	b.eq	1f
	isb
1:
	ret
	vj_end	blake2_digest..wiping..settle..64_1_a64

	vj_function	blake2_digest..wiping..settle..32_1_a64
	ldp	q1, q0, [x0]
	orr	v0.16b, v1.16b, v0.16b
	ext	v1.16b, v0.16b, v0.16b, #8
	orr	v0.8b, v0.8b, v1.8b
	fmov	x8, d0
	orr	x8, x8, x8, lsr #32
	lsr	x9, x8, #16
	orr	w8, w8, w9
	orr	w8, w8, w8, lsr #8
	tst	w8, #0xff
	b.eq	1f
	isb
1:
	ret
	vj_end	blake2_digest..wiping..settle..32_1_a64

	vj_function	blake2_state..runs..Run..padded_1_a64
	sub	sp, sp, #496
	movi	v0.2d, #0000000000000000
	ldrb	w8, [x1]
	stp	x20, x19, [sp, #480]
	mov	x20, x1
	mov	x19, x0
	stp	x29, x30, [sp, #448]
	stp	x28, x21, [sp, #464]
	add	x29, sp, #448
	stp	q0, q0, [sp]
	stp	q0, q0, [sp, #32]
	cbz	w8, 1f
	ldrh	w21, [x20, #80]
	ldur	q1, [x20, #8]
	sub	x0, x29, #128
	ldur	q2, [x20, #24]
	add	x1, x20, #88
	stp	q0, q0, [x29, #-128]
	mov	x2, x21
	stp	q0, q0, [x29, #-96]
	stp	q1, q2, [x29, #-192]
	vj_c_call	memcpy
	ldp	q0, q1, [x29, #-128]
	sub	x0, x29, #192
	ldrh	w8, [x20, #86]
	add	x1, sp, #128
	mov	w3, #1
	stp	q0, q1, [sp, #128]
	ldp	q2, q0, [x29, #-96]
	cmp	w8, #0
	ldr	x8, [x20, #72]
	cset	w4, ne
	add	x2, x8, x21
	stp	q2, q0, [sp, #160]
	vj_call	blake2_compress..compress..blake2s..compress_1_arm
	ldp	q0, q1, [x29, #-192]
	ldrh	w2, [x20, #84]
	stp	q0, q1, [sp, #64]
	b	2f
1:
	ldur	q1, [x20, #24]
	ldur	q2, [x20, #8]
	sub	x0, x29, #128
	ldr	w21, [x20, #144]
	ldur	q3, [x20, #56]
	add	x1, x20, #160
	stp	q2, q1, [x29, #-192]
	ldur	q1, [x20, #40]
	mov	x2, x21
	stp	q0, q0, [sp, #64]
	stp	q0, q0, [sp, #96]
	stp	q1, q3, [x29, #-160]
	stp	q0, q0, [x29, #-128]
	stp	q0, q0, [x29, #-96]
	stp	q0, q0, [x29, #-64]
	stp	q0, q0, [x29, #-32]
	vj_c_call	memcpy
	ldp	q0, q1, [x29, #-64]
	sub	x0, x29, #192
	ldr	w8, [x20, #156]
	add	x1, sp, #128
	mov	w3, #1
	stp	q0, q1, [sp, #192]
	ldp	q0, q2, [x29, #-32]
	cmp	w8, #0
	ldr	x8, [x20, #136]
	cset	w4, ne
	stp	q0, q2, [sp, #224]
	ldp	q1, q0, [x29, #-128]
	add	x2, x8, x21
	stp	q1, q0, [sp, #128]
	ldp	q2, q0, [x29, #-96]
	stp	q2, q0, [sp, #160]
	vj_call	blake2_compress..compress..blake2b..compress_1_arm
	ldp	q0, q1, [x29, #-192]
	ldr	w2, [x20, #152]
	stp	q0, q1, [sp, #64]
	ldp	q0, q2, [x29, #-160]
	stp	q0, q2, [sp, #96]
2:
	mov	x0, sp
	add	x1, sp, #64
	vj_c_call	memcpy
	ldp	q0, q1, [sp]
	ldp	x28, x21, [sp, #464]
	ldp	x29, x30, [sp, #448]
	stp	q0, q1, [x19]
	ldp	q0, q2, [sp, #32]
	stp	q0, q2, [x19, #32]
	ldp	x20, x19, [sp, #480]
	add	sp, sp, #496
	ret
	vj_end	blake2_state..runs..Run..padded_1_a64

	vj_constants	8
	.p2align	3, 0x0
.L1_a64_CPI19_0:
	.long	1779033703
	.long	3144134277
.L1_a64_CPI19_1:
	.long	2600822924
	.long	1541459225
.L1_a64_CPI19_2:
	.long	1359893119
	.long	528734635
	vj_constants	16
	.p2align	4, 0x0
.L1_a64_CPI19_3:
	.quad	7640891576956012808
	.quad	-4942790177534073029
.L1_a64_CPI19_4:
	.quad	4354685564936845355
	.quad	-6534734903238641935
.L1_a64_CPI19_5:
	.quad	5840696475078001361
	.quad	-7276294671716946913
.L1_a64_CPI19_6:
	.quad	2270897969802886507
	.quad	6620516959819538809
.L1_a64_CPI19_7:
	.quad	1
	.quad	2
	vj_function	b2_commands..digests..start_1_a64
	stp	d9, d8, [sp, #-112]!
	sub	x9, sp, #1104
	stp	x29, x30, [sp, #16]
	add	x29, sp, #16
	stp	x28, x27, [sp, #32]
	stp	x26, x25, [sp, #48]
	stp	x24, x23, [sp, #64]
	stp	x22, x21, [sp, #80]
	stp	x20, x19, [sp, #96]
	and	sp, x9, #0xffffffffffffffe0
	str	xzr, [sp]
	movi	v0.2d, #0000000000000000
	mov	w8, w1
	ldrb	w9, [x3]
	mov	x19, x0
	cmp	w9, #1
	stp	q0, q0, [sp, #64]
	stp	q0, q0, [sp, #96]
	stp	q0, q0, [sp, #128]
	stp	q0, q0, [sp, #160]
	stp	q0, q0, [sp, #192]
	stp	q0, q0, [sp, #224]
	stp	q0, q0, [sp, #256]
	stp	q0, q0, [sp, #288]
	stp	q0, q0, [sp, #320]
	stp	q0, q0, [sp, #352]
	stp	q0, q0, [sp, #384]
	stp	q0, q0, [sp, #416]
	b.ne	1f
	ldr	x10, [x3, #16]
	cbz	x10, 11f
1:
	tst	w8, #0xff
	b.eq	5f
	tst	w2, #0xff
	mov	w10, #32
	mov	w11, #16
	csel	x24, x11, x10, eq
	cmp	w9, #1
	b.ne	6f
2:
	ldp	x21, x20, [x3, #8]
	ldrb	w9, [x3, #32]
	cmp	w9, #1
	b.eq	7f
3:
	mov	x2, xzr
	vj_page	x1, .L1_a64_static.0
	vj_address	x1, x1, .L1_a64_static.0
	ldrb	w9, [x3, #64]
	cmp	w9, #1
	b.eq	8f
4:
	mov	x22, xzr
	vj_page	x23, .L1_a64_static.0
	vj_address	x23, x23, .L1_a64_static.0
	b	9f
5:
	and	x10, x2, #0xff
	vj_page	x11, .L1_a64_switch.table.b2_commands..digests..start_1_a64
	vj_address	x11, x11, .L1_a64_switch.table.b2_commands..digests..start_1_a64
	ldr	x24, [x11, x10, lsl #3]
	cmp	w9, #1
	b.eq	2b
6:
	mov	x20, xzr
	vj_page	x21, .L1_a64_static.0
	vj_address	x21, x21, .L1_a64_static.0
	ldrb	w9, [x3, #32]
	cmp	w9, #1
	b.ne	3b
7:
	ldp	x1, x2, [x3, #40]
	ldrb	w9, [x3, #64]
	cmp	w9, #1
	b.ne	4b
8:
	ldp	x23, x22, [x3, #72]
9:
	movi	v20.2d, #0000000000000000
	tst	w8, #0xff
	stp	q20, q20, [sp, #448]
	stp	q20, q20, [sp, #480]
	stp	q20, q20, [sp, #512]
	stp	q20, q20, [sp, #544]
	stp	q20, q20, [sp, #576]
	stp	q20, q20, [sp, #608]
	b.eq	10f
	movi	v19.2d, #0000000000000000
	sub	x9, x24, #33
	mov	x14, xzr
	mov	w8, wzr
	add	x26, sp, #704
	cmn	x9, #32
	add	x25, sp, #448
	mov	w9, #1
	str	xzr, [sp, #832]
	stur	q20, [x26, #136]
	stp	q20, q20, [sp, #896]
	stp	q20, q20, [sp, #928]
	stp	q20, q20, [sp, #960]
	stp	q20, q20, [sp, #992]
	str	q20, [sp, #1024]
	str	q20, [sp, #1040]
	str	xzr, [sp, #1056]
	b.lo	12f
	cmp	x20, #32
	b.hi	12f
	cmp	x2, #8
	b.hi	12f
	movi	v1.2d, #0000000000000000
	movi	v2.2d, #0000000000000000
	cmp	x22, #8
	movi	v3.2d, #0000000000000000
	movi	v21.2d, #0000000000000000
	mov	w11, w8
	mov	w12, w8
	mov	x13, x14
	b.hi	15f
	cbz	x20, 13f
	orr	w8, w24, w20, lsl #8
	mov	w9, #16842752
	add	x0, sp, #704
	str	xzr, [sp, #712]
	add	x27, sp, #704
	orr	w8, w8, w9
	str	xzr, [sp, #704]
	fmov	s0, w8
	str	q0, [sp, #48]
	vj_c_call	memcpy
	orr	x0, x27, #0x8
	mov	x1, x23
	mov	x2, x22
	vj_c_call	memcpy
	ld2	{ v8.2s, v9.2s }, [x27]
	mov	w8, #32
	cmp	x20, #31
	sub	x8, x8, x20
	add	x0, x27, x20
	mov	w1, wzr
	csel	x2, xzr, x8, hi
	vj_c_call	memset
	add	x0, sp, #704
	mov	x1, x21
	mov	x2, x20
	vj_c_call	memcpy
	ldr	q2, [sp, #48]
	vj_page	x8, .L1_a64_CPI19_0
	mov	w9, #62778
	movk	w9, #42319, lsl #16
	vj_load	d0, x8, .L1_a64_CPI19_0
	mov	w8, #62322
	mov	v2.s[1], wzr
	dup	v1.2s, w9
	movk	w8, #15470, lsl #16
	fmov	s3, w8
	vj_page	x9, .L1_a64_CPI19_1
	vj_page	x10, .L1_a64_CPI19_2
	vj_load	d4, x9, .L1_a64_CPI19_1
	vj_load	d5, x10, .L1_a64_CPI19_2
	ldr	w8, [sp, #704]
	ldp	q20, q21, [sp, #704]
	ldr	w11, [sp, #708]
	eor	v2.8b, v2.8b, v0.8b
	mov	w12, #64
	zip2	v0.2s, v2.2s, v1.2s
	zip1	v1.2s, v2.2s, v3.2s
	eor	v2.8b, v9.8b, v4.8b
	eor	v3.8b, v8.8b, v5.8b
	b	14f
10:
	movi	v22.2d, #0000000000000000
	mov	w10, wzr
	cmp	x20, #64
	mov	w9, #1
	stp	q22, q22, [sp, #640]
	stp	q22, q22, [sp, #672]
	stp	q22, q22, [sp, #704]
	stp	q22, q22, [sp, #736]
	stp	q22, q22, [sp, #768]
	stp	q22, q22, [sp, #800]
	b.hi	16f
	cmp	x2, #16
	b.hi	16f
	movi	v21.2d, #0000000000000000
	movi	v19.2d, #0000000000000000
	cmp	x22, #16
	mov	w8, w10
	b.hi	19f
	cbz	x20, 17f
	orr	w8, w24, w20, lsl #8
	mov	w9, #16842752
	movi	v2.2d, #0000000000000000
	movi	v1.2d, #0000000000000000
	add	x0, sp, #896
	add	x25, sp, #896
	orr	w8, w8, w9
	mov	v0.s[0], w8
	stp	q1, q1, [sp, #896]
	mov	v2.d[0], v0.d[0]
	str	q2, [sp, #48]
	vj_c_call	memcpy
	orr	x0, x25, #0x10
	mov	x1, x23
	mov	x2, x22
	vj_c_call	memcpy
	vj_page	x8, .L1_a64_CPI19_3
	ldr	q5, [sp, #48]
	vj_page	x9, .L1_a64_CPI19_5
	vj_load	q0, x8, .L1_a64_CPI19_3
	ldp	q2, q1, [sp, #896]
	vj_load	q3, x9, .L1_a64_CPI19_5
	vj_page	x8, .L1_a64_CPI19_6
	mov	w9, #64
	eor	v0.16b, v5.16b, v0.16b
	vj_load	q4, x8, .L1_a64_CPI19_6
	vj_page	x8, .L1_a64_CPI19_4
	cmp	x20, #63
	mov	w1, wzr
	str	q0, [sp, #48]
	eor	v0.16b, v2.16b, v3.16b
	str	q0, [sp, #32]
	eor	v0.16b, v1.16b, v4.16b
	str	q0, [sp, #16]
	vj_load	q0, x8, .L1_a64_CPI19_4
	sub	x8, x9, x20
	csel	x2, xzr, x8, hi
	add	x8, sp, #832
	add	x0, x8, x20
	str	q0, [sp]
	vj_c_call	memset
	add	x0, sp, #832
	mov	x1, x21
	mov	x2, x20
	vj_c_call	memcpy
	movi	v1.2d, #0000000000000000
	ldp	q21, q22, [sp, #32]
	ldp	q20, q19, [sp]
	mov	w10, #128
	stp	q1, q1, [sp, #960]
	stp	q1, q1, [sp, #992]
	ldp	q0, q1, [sp, #832]
	stp	q0, q1, [sp, #896]
	ldp	q2, q0, [sp, #864]
	stp	q2, q0, [sp, #928]
	b	18f
11:
	vj_page	x8, .L1_a64_CPI19_7
	stp	q0, q0, [x19, #32]
	vj_load	q1, x8, .L1_a64_CPI19_7
	stp	q0, q0, [x19, #64]
	stp	q0, q0, [x19, #96]
	stp	q1, q0, [x19]
	stp	q0, q0, [x19, #128]
	stp	q0, q0, [x19, #160]
	stp	q0, q0, [x19, #192]
	stp	q0, q0, [x19, #224]
	stp	q0, q0, [x19, #256]
	stp	q0, q0, [x19, #288]
	stp	q0, q0, [x19, #320]
	str	xzr, [x19, #352]
	b	23f
12:
	movi	v1.2d, #0000000000000000
	movi	v2.2d, #0000000000000000
	mov	w11, w8
	movi	v3.2d, #0000000000000000
	movi	v21.2d, #0000000000000000
	mov	w12, w8
	mov	x13, x14
	b	15f
13:
	mov	w8, #16842752
	add	x0, sp, #704
	str	xzr, [sp, #712]
	orr	w8, w24, w8
	str	xzr, [sp, #704]
	add	x20, sp, #704
	fmov	s0, w8
	str	q0, [sp, #48]
	vj_c_call	memcpy
	orr	x0, x20, #0x8
	mov	x1, x23
	mov	x2, x22
	vj_c_call	memcpy
	ldr	q2, [sp, #48]
	vj_page	x9, .L1_a64_CPI19_0
	mov	w10, #62778
	movk	w10, #42319, lsl #16
	vj_load	d0, x9, .L1_a64_CPI19_0
	mov	w9, #62322
	mov	v2.s[1], wzr
	dup	v1.2s, w10
	ld2	{ v3.2s, v4.2s }, [x20]
	movi	v20.2d, #0000000000000000
	movk	w9, #15470, lsl #16
	vj_page	x10, .L1_a64_CPI19_1
	vj_page	x13, .L1_a64_CPI19_2
	fmov	s5, w9
	vj_load	d6, x10, .L1_a64_CPI19_1
	vj_load	d7, x13, .L1_a64_CPI19_2
	mov	w11, wzr
	mov	w8, wzr
	eor	v2.8b, v2.8b, v0.8b
	mov	w12, wzr
	movi	v21.2d, #0000000000000000
	eor	v3.8b, v3.8b, v7.8b
	stp	q20, q20, [sp, #704]
	zip2	v0.2s, v2.2s, v1.2s
	zip1	v1.2s, v2.2s, v5.2s
	eor	v2.8b, v4.8b, v6.8b
14:
	movi	v5.2d, #0000000000000000
	movi	v19.2d, #0000000000000000
	ldur	q4, [x26, #8]
	ldr	x10, [sp, #728]
	mov	w9, wzr
	mov	w13, #1
	mov	x14, x24
	str	q4, [sp, #832]
	str	x10, [sp, #848]
	stp	q5, q5, [sp, #896]
	stp	q5, q5, [sp, #928]
	stp	q5, q5, [sp, #960]
	stp	q5, q5, [sp, #992]
	str	q5, [sp, #1024]
	str	q5, [sp, #1040]
	str	xzr, [sp, #1056]
15:
	ldp	q4, q5, [sp, #1008]
	mov	x15, xzr
	ldr	x17, [sp, #848]
	ldr	x0, [sp, #1056]
	mov	x16, xzr
	mov	w10, wzr
	stur	q4, [x25, #136]
	ldr	q4, [sp, #1040]
	stur	q5, [x25, #152]
	stur	q4, [x25, #168]
	ldp	q5, q4, [sp, #944]
	str	x17, [sp, #464]
	mov	w17, w12
	str	x0, [sp, #632]
	stur	q5, [x25, #72]
	ldp	q5, q6, [sp, #976]
	stur	q4, [x25, #88]
	ldr	q4, [sp, #896]
	stur	q5, [x25, #104]
	ldp	q5, q7, [sp, #912]
	stur	q6, [x25, #120]
	ldr	q6, [sp, #832]
	stur	q4, [x25, #24]
	fmov	d4, d1
	stur	q5, [x25, #40]
	fmov	d5, d0
	stur	q7, [x25, #56]
	fmov	d7, d2
	str	q6, [sp, #448]
	fmov	d6, d3
	b	20f
16:
	movi	v21.2d, #0000000000000000
	movi	v19.2d, #0000000000000000
	mov	w8, w10
	b	19f
17:
	mov	w8, #16842752
	movi	v2.2d, #0000000000000000
	movi	v1.2d, #0000000000000000
	orr	w8, w24, w8
	add	x0, sp, #896
	add	x20, sp, #896
	mov	v0.s[0], w8
	stp	q1, q1, [sp, #896]
	mov	v2.d[0], v0.d[0]
	str	q2, [sp, #48]
	vj_c_call	memcpy
	orr	x0, x20, #0x10
	mov	x1, x23
	mov	x2, x22
	vj_c_call	memcpy
	movi	v5.2d, #0000000000000000
	vj_page	x8, .L1_a64_CPI19_3
	vj_page	x9, .L1_a64_CPI19_6
	ldp	q1, q0, [sp, #896]
	vj_load	q2, x8, .L1_a64_CPI19_3
	vj_page	x8, .L1_a64_CPI19_5
	vj_load	q4, x9, .L1_a64_CPI19_6
	ldr	q6, [sp, #48]
	vj_load	q3, x8, .L1_a64_CPI19_5
	vj_page	x8, .L1_a64_CPI19_4
	mov	w10, wzr
	vj_load	q20, x8, .L1_a64_CPI19_4
	stp	q5, q5, [sp, #896]
	eor	v22.16b, v6.16b, v2.16b
	stp	q5, q5, [sp, #832]
	eor	v21.16b, v1.16b, v3.16b
	eor	v19.16b, v0.16b, v4.16b
	stp	q5, q5, [sp, #864]
	stp	q5, q5, [sp, #928]
	stp	q5, q5, [sp, #960]
	stp	q5, q5, [sp, #992]
18:
	ldp	q0, q1, [sp, #960]
	mov	w9, wzr
	mov	w8, w24
	stp	q0, q1, [sp, #768]
	ldp	q0, q2, [sp, #992]
	stp	q0, q2, [sp, #800]
	ldp	q1, q0, [sp, #896]
	stp	q1, q0, [sp, #704]
	ldp	q2, q0, [sp, #928]
	stp	q2, q0, [sp, #736]
	ldp	q2, q1, [sp, #864]
	stp	q2, q1, [sp, #672]
	ldp	q1, q0, [sp, #832]
	stp	q1, q0, [sp, #640]
19:
	ldp	q0, q2, [sp, #768]
	mov	x12, v22.d[1]
	ldp	q4, q5, [sp, #704]
	mov	x13, xzr
	ldp	q16, q7, [sp, #672]
	mov	w11, wzr
	stp	q0, q2, [sp, #512]
	ldp	q3, q2, [sp, #800]
	stp	q4, q5, [sp, #448]
	xtn	v1.2s, v22.2d
	shrn	v0.2s, v22.2d, #32
	ldp	q6, q5, [sp, #736]
	xtn	v4.2s, v21.2d
	ldp	q17, q18, [sp, #640]
	umov	w17, v22.h[5]
	stp	q3, q2, [sp, #544]
	xtn	v3.2s, v20.2d
	shrn	v2.2s, v20.2d, #32
	stp	q6, q5, [sp, #480]
	xtn	v6.2s, v19.2d
	shrn	v5.2s, v21.2d, #32
	stp	q16, q7, [sp, #608]
	shrn	v7.2s, v19.2d, #32
	lsr	x14, x12, #32
	stp	q17, q18, [sp, #576]
	and	x16, x12, #0xffff000000000000
	fmov	x15, d22
20:
	ldp	q16, q17, [sp, #576]
	stp	q16, q17, [sp, #384]
	ldp	q16, q18, [sp, #608]
	stp	q16, q18, [sp, #416]
	ldp	q17, q16, [sp, #512]
	stp	q17, q16, [sp, #320]
	ldp	q18, q16, [sp, #544]
	stp	q18, q16, [sp, #352]
	ldp	q17, q16, [sp, #448]
	stp	q17, q16, [sp, #256]
	ldp	q18, q16, [sp, #480]
	stp	q18, q16, [sp, #288]
	cbz	w9, 21f
	mov	x15, xzr
	mov	x12, xzr
	mov	w10, wzr
	mov	w8, wzr
	mov	w11, wzr
	movi	v0.2d, #0000000000000000
	movi	v1.2d, #0000000000000000
	movi	v5.2d, #0000000000000000
	movi	v4.2d, #0000000000000000
	movi	v20.2d, #0000000000000000
	movi	v21.2d, #0000000000000000
	movi	v19.2d, #0000000000000000
	mov	w13, #2
	b	22f
21:
	ushll	v6.2d, v6.2s, #0
	shll	v7.2d, v7.2s, #32
	lsl	w17, w17, #16
	ushll	v16.2d, v4.2s, #0
	ldp	q4, q17, [sp, #384]
	shll	v5.2d, v5.2s, #32
	ushll	v3.2d, v3.2s, #0
	shll	v2.2d, v2.2s, #32
	shll	v0.2d, v0.2s, #32
	ubfiz	x14, x14, #32, #16
	orr	x16, x16, x17
	stp	q4, q17, [sp, #192]
	orr	v4.16b, v7.16b, v6.16b
	ldp	q6, q7, [sp, #416]
	orr	v5.16b, v5.16b, v16.16b
	ushll	v16.2d, v1.2s, #0
	orr	x14, x16, x14
	and	x12, x12, #0xffff
	orr	x12, x14, x12
	stp	q6, q7, [sp, #224]
	ldp	q6, q7, [sp, #320]
	orr	v0.16b, v0.16b, v16.16b
	stp	q6, q7, [sp, #128]
	ldp	q6, q1, [sp, #352]
	stp	q6, q1, [sp, #160]
	ldp	q6, q7, [sp, #256]
	orr	v1.16b, v2.16b, v3.16b
	ldp	q2, q3, [sp, #288]
	stp	q6, q7, [sp, #64]
	stp	q2, q3, [sp, #96]
22:
	stp	q0, q1, [x19, #16]
	ldp	q1, q0, [sp, #96]
	stp	w8, w11, [x19, #160]
	add	x8, x19, #168
	mov	w9, w9
	stp	x9, x13, [x19]
	stur	q0, [x19, #216]
	ldp	q2, q0, [sp, #64]
	stur	q1, [x19, #200]
	stp	q5, q4, [x19, #48]
	stur	q0, [x19, #184]
	ldp	q1, q0, [sp, #160]
	stur	q2, [x19, #168]
	stp	x15, x12, [x19, #80]
	stp	q1, q0, [x8, #96]
	ldp	q2, q0, [sp, #128]
	stp	q20, q21, [x19, #96]
	str	q19, [x19, #128]
	stur	q0, [x19, #248]
	ldp	q1, q0, [sp, #224]
	stur	q2, [x19, #232]
	str	xzr, [x19, #144]
	stp	q1, q0, [x8, #160]
	ldp	q2, q0, [sp, #192]
	stp	w10, w10, [x19, #152]
	stp	q2, q0, [x8, #128]
23:
	sub	sp, x29, #16
	ldp	x20, x19, [sp, #96]
	ldp	x22, x21, [sp, #80]
	ldp	x24, x23, [sp, #64]
	ldp	x26, x25, [sp, #48]
	ldp	x28, x27, [sp, #32]
	ldp	x29, x30, [sp, #16]
	ldp	d9, d8, [sp], #112
	ret
	vj_end	b2_commands..digests..start_1_a64

	vj_constants	16
	.p2align	4, 0x0
.L1_a64_CPI20_0:
	.quad	1
	.quad	8
.L1_a64_CPI20_1:
	.quad	1
	.quad	7
	vj_function	b2_commands..input..read_all..d6f7c226d1d4af0a_1_a64
	stp	x29, x30, [sp, #-80]!
	stp	x28, x25, [sp, #16]
	mov	x29, sp
	stp	x24, x23, [sp, #32]
	stp	x22, x21, [sp, #48]
	stp	x20, x19, [sp, #64]
	sub	sp, sp, #3072
	str	xzr, [sp]
	sub	sp, sp, #1152
	mov	x20, x1
	mov	x19, x0
	sub	x24, x29, #1
	add	x0, sp, #8
	mov	w1, wzr
	mov	w2, #4096
	str	xzr, [sp]
	add	x21, sp, #8
	stp	xzr, xzr, [x29, #-112]
	stur	x24, [x29, #-120]
	vj_c_call	memset
	add	x23, x21, #16
1:
	mov	x21, xzr
2:
	mov	w8, #4096
	add	x9, sp, #8
	mov	w0, wzr
	sub	x22, x8, x21
	add	x1, x9, x21
	mov	x2, x22
	vj_system_call	read, b2_read
	tbnz	x0, #63, 17f
	cbz	x0, 3f
	cmp	x0, x22
	csel	x8, x0, x22, lo
	add	x21, x8, x21
	cmp	x21, #4095
	b.ls	2b
3:
	ldp	x25, x22, [x29, #-112]
	sub	x8, x22, x25
	cmp	x21, x8
	b.hi	14f
	add	x8, x24, x25
	add	x9, sp, #8
	sub	x8, x8, x9
	cmp	x8, x21
	b.hs	15f
4:
	cmp	x21, #8
	b.lo	5f
	add	x8, sp, #8
	sub	x8, x25, x8
	add	x8, x8, x24
	cmp	x8, #32
	b.hs	9f
5:
	mov	x8, xzr
6:
	add	x10, sp, #8
	add	x11, x8, x25
	sub	x9, x21, x8
	add	x8, x10, x8
	add	x10, x24, x11
7:
	ldrb	w11, [x8], #1
	subs	x9, x9, #1
	strb	w11, [x10], #1
	b.ne	7b
8:
	add	x8, x25, x21
	cmp	x21, #1, lsl #12
	stp	x8, x22, [x29, #-112]
	b.hs	1b
	b	16f
9:
	cmp	x21, #32
	b.hs	10f
	mov	x8, xzr
	b	12f
10:
	add	x10, x24, x25
	and	x9, x21, #0x18
	and	x8, x21, #0xffffffffffffffe0
	add	x10, x10, #16
	mov	x11, x23
	and	x12, x21, #0xffffffffffffffe0
11:
	ldp	q0, q1, [x11, #-16]
	subs	x12, x12, #32
	add	x11, x11, #32
	stp	q0, q1, [x10, #-16]
	add	x10, x10, #32
	b.ne	11b
	cmp	x21, x8
	b.eq	8b
	cbz	x9, 6b
12:
	mov	x10, x8
	and	x8, x21, #0xfffffffffffffff8
	add	x11, sp, #8
	add	x12, x25, x10
	sub	x9, x10, x8
	add	x10, x11, x10
	add	x11, x24, x12
13:
	ldr	d0, [x10], #8
	adds	x9, x9, #8
	str	d0, [x11], #8
	b.ne	13b
	cmp	x21, x8
	b.eq	8b
	b	6b
14:
	sub	x0, x29, #120
	mov	x1, x21
	bl	std_alloc..vec..Vec..grow_amortized..3378b08034dc46b4_1_a64
	cbz	w0, 21f
	ldp	x25, x22, [x29, #-112]
	ldur	x24, [x29, #-120]
	add	x8, x24, x25
	add	x9, sp, #8
	sub	x8, x8, x9
	cmp	x8, x21
	b.lo	4b
15:
	add	x0, x24, x25
	add	x1, sp, #8
	mov	x2, x21
	vj_c_call	memmove
	add	x8, x25, x21
	cmp	x21, #1, lsl #12
	stp	x8, x22, [x29, #-112]
	b.hs	1b
16:
	ldur	x9, [x29, #-120]
	stp	x8, x22, [x19, #16]
	stp	xzr, x9, [x19]
	b	20f
17:
	sub	x0, x29, #96
	bl	std_io..io..error..last_error_1_a64
	ldur	x8, [x29, #-104]
	mov	w9, #1
	strb	w9, [x20]
	cbz	x8, 18f
	ldur	x0, [x29, #-120]
	vj_call	rattle_dealloc
18:
	vj_page	x8, .L1_a64_CPI20_1
	vj_load	q0, x8, .L1_a64_CPI20_1
19:
	str	q0, [x19]
	stp	xzr, xzr, [x19, #16]
20:
	add	sp, sp, #1, lsl #12
	add	sp, sp, #128
	ldp	x20, x19, [sp, #64]
	ldp	x22, x21, [sp, #48]
	ldp	x24, x23, [sp, #32]
	ldp	x28, x25, [sp, #16]
	ldp	x29, x30, [sp], #80
	ret
21:
	ldur	x8, [x29, #-104]
	cbz	x8, 22f
	ldur	x0, [x29, #-120]
	vj_call	rattle_dealloc
22:
	vj_page	x8, .L1_a64_CPI20_0
	vj_load	q0, x8, .L1_a64_CPI20_0
	b	19b
	vj_end	b2_commands..input..read_all..d6f7c226d1d4af0a_1_a64

	vj_cold	std_alloc..vec..Vec..grow_amortized..791ee7faf1d0b0c8_1_a64
	ldr	x8, [x0, #8]
	cmn	x8, #1
	b.eq	2f
	stp	x29, x30, [sp, #-32]!
	ldr	x9, [x0, #16]
	cmp	x8, #3
	mov	w10, #3
	csel	x11, x8, x10, hi
	stp	x20, x19, [sp, #16]
	mov	x29, sp
	lsl	x10, x9, #1
	add	x12, x11, #1
	lsr	x13, x9, #62
	cmp	x12, x10
	csinc	x10, x10, x11, ls
	cmp	x13, #0
	csinc	x19, x10, x11, eq
	mov	x11, #3689348814741910323
	movk	x11, #819, lsl #48
	cmp	x19, x11
	b.hi	4f
	cbz	x9, 3f
	add	x8, x8, x8, lsl #2
	add	x9, x19, x19, lsl #2
	mov	x20, x0
	ldr	x0, [x0]
	mov	w3, #8
	lsl	x1, x8, #3
	lsl	x2, x9, #3
	vj_call	rattle_realloc
	tbz	w0, #0, 4f
1:
	mov	w0, #1
	str	x1, [x20]
	str	x19, [x20, #16]
	ldp	x20, x19, [sp, #16]
	ldp	x29, x30, [sp], #32
	ret
2:
	mov	w0, wzr
	ret
3:
	add	x8, x10, x10, lsl #2
	mov	x20, x0
	mov	w1, #8
	lsl	x0, x8, #3
	vj_call	rattle_alloc
	tbnz	w0, #0, 1b
4:
	mov	w0, wzr
	ldp	x20, x19, [sp, #16]
	ldp	x29, x30, [sp], #32
	ret
	vj_end	std_alloc..vec..Vec..grow_amortized..791ee7faf1d0b0c8_1_a64

	vj_cold	std_alloc..vec..Vec..grow_amortized..99a3d98a3388100f_1_a64
	ldr	x8, [x0, #8]
	cmn	x8, #1
	b.eq	2f
	stp	x29, x30, [sp, #-32]!
	ldr	x9, [x0, #16]
	cmp	x8, #3
	mov	w10, #3
	csel	x11, x8, x10, hi
	stp	x20, x19, [sp, #16]
	mov	x29, sp
	lsl	x10, x9, #1
	add	x12, x11, #1
	lsr	x13, x9, #62
	cmp	x12, x10
	csinc	x10, x10, x11, ls
	cmp	x13, #0
	csinc	x19, x10, x11, eq
	lsr	x11, x19, #58
	cbnz	x11, 4f
	cbz	x9, 3f
	mov	x20, x0
	ldr	x0, [x0]
	lsl	x1, x8, #5
	lsl	x2, x19, #5
	mov	w3, #8
	vj_call	rattle_realloc
	tbz	w0, #0, 4f
1:
	mov	w0, #1
	str	x1, [x20]
	str	x19, [x20, #16]
	ldp	x20, x19, [sp, #16]
	ldp	x29, x30, [sp], #32
	ret
2:
	mov	w0, wzr
	ret
3:
	mov	x20, x0
	lsl	x0, x10, #5
	mov	w1, #8
	vj_call	rattle_alloc
	tbnz	w0, #0, 1b
4:
	mov	w0, wzr
	ldp	x20, x19, [sp, #16]
	ldp	x29, x30, [sp], #32
	ret
	vj_end	std_alloc..vec..Vec..grow_amortized..99a3d98a3388100f_1_a64

	vj_function	blake2_replay..calls..push..08bf280249c874f5_1_a64
	stp	x29, x30, [sp, #-64]!
	stp	x28, x23, [sp, #16]
	mov	x29, sp
	stp	x22, x21, [sp, #32]
	stp	x20, x19, [sp, #48]
	sub	sp, sp, #704
	mov	x20, x1
	ldrb	w22, [x2]
	ldrb	w21, [x2, #8]
	mov	x19, x0
	add	x0, sp, #352
	add	x1, x2, #16
	mov	w2, #344
	vj_c_call	memcpy
	ldp	x23, x8, [x20, #8]
	cmp	x8, x23
	b.eq	3f
1:
	mov	w8, #360
	ldr	x9, [x20]
	add	x1, sp, #352
	madd	x8, x23, x8, x9
	mov	w2, #344
	add	x0, x8, #16
	stp	x22, x21, [x8]
	vj_c_call	memcpy
	add	x10, x23, #1
	mov	x9, xzr
	mov	w8, wzr
	str	x10, [x20, #8]
2:
	strb	w8, [x19]
	stp	x9, xzr, [x19, #8]
	add	sp, sp, #704
	ldp	x20, x19, [sp, #48]
	ldp	x22, x21, [sp, #32]
	ldp	x28, x23, [sp, #16]
	ldp	x29, x30, [sp], #64
	ret
3:
	mov	x0, x20
	bl	std_alloc..vec..Vec..grow_amortized..20c14b22e78258ad_1_a64
	cbz	w0, 4f
	ldr	x23, [x20, #8]
	b	1b
4:
	add	x0, sp, #8
	add	x1, sp, #352
	mov	w2, #344
	add	x20, sp, #352
	vj_c_call	memcpy
	cbz	w22, 6f
	add	x20, x20, #8
	add	x1, sp, #8
	mov	w2, #344
	mov	x0, x20
	str	x21, [sp, #352]
	vj_c_call	memcpy
	movi	v0.2d, #0000000000000000
	cbz	w21, 5f
	add	x21, sp, #352
	stp	q0, q0, [x20, #16]
	add	x0, x21, #88
	stp	q0, q0, [x20, #48]
	stp	q0, q0, [x20, #80]
	stp	q0, q0, [x20, #112]
	stp	q0, q0, [x20, #144]
	str	q0, [x20]
	bl	blake2_digest..wiping..settle..64_1_a64
	add	x0, x21, #152
	bl	blake2_digest..wiping..settle..32_1_a64
	b	6f
5:
	str	xzr, [x20, #336]
	stp	q0, q0, [x20, #16]
	stp	q0, q0, [x20, #48]
	stp	q0, q0, [x20, #80]
	stp	q0, q0, [x20, #112]
	stp	q0, q0, [x20, #144]
	stp	q0, q0, [x20, #176]
	stp	q0, q0, [x20, #208]
	stp	q0, q0, [x20, #240]
	stp	q0, q0, [x20, #272]
	stp	q0, q0, [x20, #304]
	str	q0, [x20]
	add	x20, sp, #352
	add	x0, x20, #160
	bl	blake2_digest..wiping..settle..128_1_a64
	add	x0, x20, #288
	bl	blake2_digest..wiping..settle..64_1_a64
6:
	mov	w8, #1
	mov	w9, #2
	b	2b
	vj_end	blake2_replay..calls..push..08bf280249c874f5_1_a64

	vj_cold	std_alloc..vec..Vec..grow_amortized..20c14b22e78258ad_1_a64
	ldr	x8, [x0, #8]
	cmn	x8, #1
	b.eq	2f
	stp	x29, x30, [sp, #-32]!
	ldr	x9, [x0, #16]
	cmp	x8, #3
	mov	w10, #3
	csel	x11, x8, x10, hi
	stp	x20, x19, [sp, #16]
	mov	x29, sp
	lsl	x10, x9, #1
	add	x12, x11, #1
	lsr	x13, x9, #62
	cmp	x12, x10
	csinc	x10, x10, x11, ls
	cmp	x13, #0
	csinc	x19, x10, x11, eq
	mov	x11, #45147
	movk	x11, #23301, lsl #16
	movk	x11, #1456, lsl #32
	movk	x11, #91, lsl #48
	cmp	x19, x11
	b.hi	4f
	cbz	x9, 3f
	mov	w9, #360
	mov	x20, x0
	ldr	x0, [x0]
	mul	x1, x8, x9
	mov	w3, #8
	mul	x2, x19, x9
	vj_call	rattle_realloc
	tbz	w0, #0, 4f
1:
	mov	w0, #1
	str	x1, [x20]
	str	x19, [x20, #16]
	ldp	x20, x19, [sp, #16]
	ldp	x29, x30, [sp], #32
	ret
2:
	mov	w0, wzr
	ret
3:
	mov	w8, #360
	mov	x20, x0
	mov	w1, #8
	mul	x0, x10, x8
	vj_call	rattle_alloc
	tbnz	w0, #0, 1b
4:
	mov	w0, wzr
	ldp	x20, x19, [sp, #16]
	ldp	x29, x30, [sp], #32
	ret
	vj_end	std_alloc..vec..Vec..grow_amortized..20c14b22e78258ad_1_a64

	vj_cold	std_alloc..vec..Vec..grow_amortized..cc873f31dc2b008d_1_a64
	ldr	x8, [x0, #8]
	cmn	x8, #1
	b.eq	2f
	stp	x29, x30, [sp, #-32]!
	ldr	x9, [x0, #16]
	cmp	x8, #3
	mov	w10, #3
	csel	x11, x8, x10, hi
	stp	x20, x19, [sp, #16]
	mov	x29, sp
	lsl	x10, x9, #1
	add	x12, x11, #1
	lsr	x13, x9, #62
	cmp	x12, x10
	csinc	x10, x10, x11, ls
	cmp	x13, #0
	csinc	x19, x10, x11, eq
	lsr	x11, x19, #57
	cbnz	x11, 4f
	cbz	x9, 3f
	mov	x20, x0
	ldr	x0, [x0]
	lsl	x1, x8, #6
	lsl	x2, x19, #6
	mov	w3, #1
	vj_call	rattle_realloc
	tbz	w0, #0, 4f
1:
	mov	w0, #1
	str	x1, [x20]
	str	x19, [x20, #16]
	ldp	x20, x19, [sp, #16]
	ldp	x29, x30, [sp], #32
	ret
2:
	mov	w0, wzr
	ret
3:
	mov	x20, x0
	lsl	x0, x10, #6
	mov	w1, #1
	vj_call	rattle_alloc
	tbnz	w0, #0, 1b
4:
	mov	w0, wzr
	ldp	x20, x19, [sp, #16]
	ldp	x29, x30, [sp], #32
	ret
	vj_end	std_alloc..vec..Vec..grow_amortized..cc873f31dc2b008d_1_a64

	vj_constants	16
	.p2align	4, 0x0
.L1_a64_CPI26_0:
	.quad	9
	.quad	0
	vj_function	b2_commands..script..print_lines..c1844c1740294036_1_a64
	stp	x29, x30, [sp, #-96]!
	stp	x28, x27, [sp, #16]
	mov	x29, sp
	stp	x26, x25, [sp, #32]
	stp	x24, x23, [sp, #48]
	stp	x22, x21, [sp, #64]
	stp	x20, x19, [sp, #80]
	sub	sp, sp, #544
	mov	x19, x0
	str	x4, [sp, #8]
	cbz	x2, 4f
	mov	w25, #1
	lsl	x26, x3, #1
	add	x8, sp, #16
	bfi	x25, x3, #1, #62
	mov	x21, x3
	mov	x22, x2
	mov	x23, x1
	mov	x24, xzr
	orr	x9, x8, #0x1
	str	x9, [sp]
1:
	movi	v0.2d, #0000000000000000
	mov	x8, x23
	mov	x10, x21
	str	xzr, [sp, #432]
	stp	q0, q0, [sp, #16]
	stp	q0, q0, [sp, #48]
	stp	q0, q0, [sp, #80]
	stp	q0, q0, [sp, #112]
	stp	q0, q0, [sp, #144]
	stp	q0, q0, [sp, #176]
	stp	q0, q0, [sp, #208]
	stp	q0, q0, [sp, #240]
	stp	q0, q0, [sp, #272]
	stp	q0, q0, [sp, #304]
	stp	q0, q0, [sp, #336]
	stp	q0, q0, [sp, #368]
	stp	q0, q0, [sp, #400]
2:
	ldrb	w11, [x8], #1
	vj_page	x13, .L1_a64_static.37
	vj_address	x13, x13, .L1_a64_static.37
	subs	x10, x10, #1
	lsr	x12, x11, #4
	and	x11, x11, #0xf
	ldrb	w11, [x13, x11]
	ldrb	w12, [x13, x12]
	sturb	w12, [x9, #-1]
	strb	w11, [x9], #2
	b.ne	2b
	add	x20, sp, #16
	mov	x28, xzr
	mov	w8, #10
	strb	w8, [x20, x26]
	str	x25, [sp, #440]
3:
	add	x1, x20, x28
	sub	x2, x25, x28
	mov	w0, #1
	sub	x27, x25, x28
	vj_system_call	write, b2_write
	tbnz	x0, #63, 5f
	cmp	x0, x27
	csel	x8, x0, x27, lo
	cbz	x8, 6f
	add	x28, x8, x28
	cmp	x28, x26
	b.ls	3b
	add	x24, x24, #1
	ldr	x9, [sp]
	add	x23, x23, #64
	cmp	x24, x22
	b.ne	1b
4:
	strb	wzr, [x19]
	stp	xzr, xzr, [x19, #8]
	b	7f
5:
	sub	x0, x29, #96
	bl	std_io..io..error..last_error_1_a64
6:
	vj_page	x9, .L1_a64_CPI26_0
	ldr	x10, [sp, #8]
	mov	w8, #1
	vj_load	q0, x9, .L1_a64_CPI26_0
	strb	w8, [x10]
	strb	w8, [x19]
	stur	q0, [x19, #8]
7:
	add	sp, sp, #544
	ldp	x20, x19, [sp, #80]
	ldp	x22, x21, [sp, #64]
	ldp	x24, x23, [sp, #48]
	ldp	x26, x25, [sp, #32]
	ldp	x28, x27, [sp, #16]
	ldp	x29, x30, [sp], #96
	ret
	vj_end	b2_commands..script..print_lines..c1844c1740294036_1_a64

	vj_function	std_alloc..vec..Vec..drop..3aab827fbd83c4c4_1_a64
	stp	x29, x30, [sp, #-48]!
	stp	x20, x19, [sp, #32]
	ldp	x19, x20, [x0]
	stp	x22, x21, [sp, #16]
	mov	x29, sp
	ldr	x21, [x0, #16]
	cbz	x20, 3f
	add	x22, x19, #16
	b	2f
1:
	subs	x20, x20, #1
	add	x22, x22, #40
	b.eq	3f
2:
	ldurb	w8, [x22, #-16]
	cbnz	w8, 1b
	ldr	x8, [x22, #16]
	cbz	x8, 1b
	ldr	x0, [x22]
	vj_call	rattle_dealloc
	b	1b
3:
	cbz	x21, 4f
	mov	x0, x19
	ldp	x20, x19, [sp, #32]
	ldp	x22, x21, [sp, #16]
	ldp	x29, x30, [sp], #48
	vj_jump	rattle_dealloc
4:
	ldp	x20, x19, [sp, #32]
	ldp	x22, x21, [sp, #16]
	ldp	x29, x30, [sp], #48
	ret
	vj_end	std_alloc..vec..Vec..drop..3aab827fbd83c4c4_1_a64

	vj_cold	std_alloc..vec..Vec..grow_amortized..ccf18ec6ff387d97_1_a64
	ldr	x8, [x0, #8]
	cmn	x8, #1
	b.eq	2f
	stp	x29, x30, [sp, #-32]!
	ldr	x9, [x0, #16]
	cmp	x8, #3
	mov	w10, #3
	csel	x11, x8, x10, hi
	stp	x20, x19, [sp, #16]
	mov	x29, sp
	lsl	x10, x9, #1
	add	x12, x11, #1
	lsr	x13, x9, #62
	cmp	x12, x10
	csinc	x10, x10, x11, ls
	cmp	x13, #0
	csinc	x19, x10, x11, eq
	mov	x11, #14563
	movk	x11, #58254, lsl #16
	movk	x11, #36408, lsl #32
	movk	x11, #227, lsl #48
	cmp	x19, x11
	b.hi	4f
	cbz	x9, 3f
	add	x8, x8, x8, lsl #3
	add	x9, x19, x19, lsl #3
	mov	x20, x0
	ldr	x0, [x0]
	mov	w3, #8
	lsl	x1, x8, #4
	lsl	x2, x9, #4
	vj_call	rattle_realloc
	tbz	w0, #0, 4f
1:
	mov	w0, #1
	str	x1, [x20]
	str	x19, [x20, #16]
	ldp	x20, x19, [sp, #16]
	ldp	x29, x30, [sp], #32
	ret
2:
	mov	w0, wzr
	ret
3:
	add	x8, x10, x10, lsl #3
	mov	x20, x0
	mov	w1, #8
	lsl	x0, x8, #4
	vj_call	rattle_alloc
	tbnz	w0, #0, 1b
4:
	mov	w0, wzr
	ldp	x20, x19, [sp, #16]
	ldp	x29, x30, [sp], #32
	ret
	vj_end	std_alloc..vec..Vec..grow_amortized..ccf18ec6ff387d97_1_a64

	vj_function	b2_commands..print..Line..add_words_of_64_1_a64
	ldr	x9, [x0, #424]
	mov	x8, xzr
	add	x10, x0, #8
1:
	ldr	x11, [x1, x8]
	mov	w13, #32
	strb	w13, [x0, x9]
	vj_page	x13, .L1_a64_static.37
	vj_address	x13, x13, .L1_a64_static.37
	add	x8, x8, #8
	rev	x12, x11
	cmp	x8, #64
	ubfx	x11, x12, #4, #4
	and	x15, x12, #0xf
	ldrb	w14, [x13, x11]
	add	x11, x10, x9
	add	x9, x9, #17
	sturb	w14, [x11, #-7]
	ldrb	w14, [x13, x15]
	ubfx	x15, x12, #12, #4
	sturb	w14, [x11, #-6]
	ldrb	w14, [x13, x15]
	ubfx	x15, x12, #8, #4
	sturb	w14, [x11, #-5]
	ldrb	w14, [x13, x15]
	ubfx	x15, x12, #20, #4
	sturb	w14, [x11, #-4]
	ldrb	w14, [x13, x15]
	ubfx	x15, x12, #16, #4
	sturb	w14, [x11, #-3]
	ldrb	w14, [x13, x15]
	lsr	w15, w12, #28
	sturb	w14, [x11, #-2]
	ldrb	w14, [x13, x15]
	ubfx	x15, x12, #24, #4
	sturb	w14, [x11, #-1]
	ldrb	w14, [x13, x15]
	ubfx	x15, x12, #36, #4
	strb	w14, [x11]
	ldrb	w14, [x13, x15]
	ubfx	x15, x12, #32, #4
	strb	w14, [x11, #1]
	ldrb	w14, [x13, x15]
	ubfx	x15, x12, #44, #4
	strb	w14, [x11, #2]
	ldrb	w14, [x13, x15]
	ubfx	x15, x12, #40, #4
	strb	w14, [x11, #3]
	ldrb	w14, [x13, x15]
	ubfx	x15, x12, #52, #4
	strb	w14, [x11, #4]
	ldrb	w14, [x13, x15]
	ubfx	x15, x12, #48, #4
	strb	w14, [x11, #5]
	ldrb	w14, [x13, x15]
	lsr	x15, x12, #60
	ubfx	x12, x12, #56, #4
	strb	w14, [x11, #6]
	ldrb	w14, [x13, x15]
	strb	w14, [x11, #7]
	ldrb	w12, [x13, x12]
	strb	w12, [x11, #8]
	str	x9, [x0, #424]
	b.ne	1b
	ret
	vj_end	b2_commands..print..Line..add_words_of_64_1_a64

	vj_function	b2_commands..print..Line..add_block_1_a64
	ldr	x9, [x0, #424]
	mov	w10, #32
	add	x8, x0, x9
	add	x9, x9, #1
	strb	w10, [x8], #2
	mov	x10, x2
	str	x9, [x0, #424]
1:
	ldrb	w11, [x1], #1
	vj_page	x13, .L1_a64_static.37
	vj_address	x13, x13, .L1_a64_static.37
	subs	x10, x10, #1
	lsr	x12, x11, #4
	and	x11, x11, #0xf
	ldrb	w12, [x13, x12]
	sturb	w12, [x8, #-1]
	ldrb	w11, [x13, x11]
	strb	w11, [x8], #2
	b.ne	1b
	add	x8, x9, x2, lsl #1
	str	x8, [x0, #424]
	ret
	vj_end	b2_commands..print..Line..add_block_1_a64

	vj_cold	std_alloc..vec..Vec..grow_amortized..6c60784b9e596c8b_1_a64
	ldr	x8, [x0, #8]
	cmn	x8, #1
	b.eq	2f
	stp	x29, x30, [sp, #-32]!
	ldr	x9, [x0, #16]
	cmp	x8, #3
	mov	w10, #3
	csel	x11, x8, x10, hi
	stp	x20, x19, [sp, #16]
	mov	x29, sp
	lsl	x10, x9, #1
	add	x12, x11, #1
	lsr	x13, x9, #62
	cmp	x12, x10
	csinc	x10, x10, x11, ls
	cmp	x13, #0
	csinc	x19, x10, x11, eq
	mov	x11, #-7378697629483820647
	movk	x11, #409, lsl #48
	cmp	x19, x11
	b.hi	4f
	cbz	x9, 3f
	add	x8, x8, x8, lsl #2
	add	x9, x19, x19, lsl #2
	mov	x20, x0
	ldr	x0, [x0]
	mov	w3, #8
	lsl	x1, x8, #4
	lsl	x2, x9, #4
	vj_call	rattle_realloc
	tbz	w0, #0, 4f
1:
	mov	w0, #1
	str	x1, [x20]
	str	x19, [x20, #16]
	ldp	x20, x19, [sp, #16]
	ldp	x29, x30, [sp], #32
	ret
2:
	mov	w0, wzr
	ret
3:
	add	x8, x10, x10, lsl #2
	mov	x20, x0
	mov	w1, #8
	lsl	x0, x8, #4
	vj_call	rattle_alloc
	tbnz	w0, #0, 1b
4:
	mov	w0, wzr
	ldp	x20, x19, [sp, #16]
	ldp	x29, x30, [sp], #32
	ret
	vj_end	std_alloc..vec..Vec..grow_amortized..6c60784b9e596c8b_1_a64

	vj_constants	16
	.p2align	4, 0x0
.L1_a64_CPI32_0:
	.byte	1
	.byte	2
	.byte	4
	.byte	8
	.byte	16
	.byte	32
	.byte	64
	.byte	128
	.byte	1
	.byte	2
	.byte	4
	.byte	8
	.byte	16
	.byte	32
	.byte	64
	.byte	128
	vj_function	core..cmp..slices..groups_equal..i8.31.core..cmp..numbers..U8PartialEq_1_a64
	subs	x9, x1, #8
	b.hi	1f
	sub	x8, x1, #4
	ldr	s0, [x0]
	ldr	s1, [x2]
	add	x9, x0, x8
	add	x8, x2, x8
	ld1	{ v0.s }[1], [x9]
	ld1	{ v1.s }[1], [x8]
	fmov	x8, d0
	fmov	x9, d1
	cmp	x8, x9
	cset	w8, ne
	eor	w0, w8, #0x1
	ret
1:
	subs	x8, x1, #32
	b.hi	2f
	cmp	x9, #8
	mov	w8, #8
	mov	w10, #16
	csel	x8, x9, x8, lo
	cmp	x9, #16
	ldr	d0, [x0]
	ldr	d1, [x2]
	ldr	d2, [x0, x8]
	ldr	d3, [x2, x8]
	csel	x8, x9, x10, lo
	ldr	d5, [x2, x9]
	ldr	d4, [x0, x8]
	mov	v0.d[1], v2.d[0]
	mov	v1.d[1], v3.d[0]
	ldr	d2, [x2, x8]
	ldr	d3, [x0, x9]
	mov	v4.d[1], v3.d[0]
	mov	v2.d[1], v5.d[0]
	cmeq	v0.16b, v0.16b, v1.16b
	cmeq	v1.16b, v4.16b, v2.16b
	b	10f
2:
	cmp	x1, #65
	b.hs	3f
	ldp	q1, q0, [x0]
	add	x9, x2, x8
	ldp	q3, q2, [x2]
	add	x8, x0, x8
	ldp	q4, q5, [x9]
	cmeq	v1.16b, v1.16b, v3.16b
	cmeq	v0.16b, v0.16b, v2.16b
	ldp	q2, q3, [x8]
	mvn	v1.16b, v1.16b
	mvn	v0.16b, v0.16b
	cmeq	v2.16b, v2.16b, v4.16b
	cmeq	v3.16b, v3.16b, v5.16b
	orn	v0.16b, v0.16b, v3.16b
	orn	v1.16b, v1.16b, v2.16b
	orr	v0.16b, v1.16b, v0.16b
	umaxv	b0, v0.16b
	fmov	w8, s0
	and	w8, w8, #0x1
	eor	w0, w8, #0x1
	ret
3:
	and	x9, x1, #0xffffffffffffffc0
	add	x10, x0, #32
	add	x12, x2, #32
	mov	w11, #32
	mov	x13, x1
4:
	ldp	q0, q3, [x12, #-32]
	ldp	q1, q2, [x10, #-32]
	ldp	q4, q5, [x12], #64
	cmeq	v0.16b, v1.16b, v0.16b
	cmeq	v1.16b, v2.16b, v3.16b
	ldp	q2, q3, [x10], #64
	mvn	v0.16b, v0.16b
	mvn	v1.16b, v1.16b
	cmeq	v2.16b, v2.16b, v4.16b
	cmeq	v3.16b, v3.16b, v5.16b
	orn	v0.16b, v0.16b, v2.16b
	orn	v1.16b, v1.16b, v3.16b
	orr	v0.16b, v1.16b, v0.16b
	umaxv	b0, v0.16b
	fmov	w14, s0
	tbnz	w14, #0, 5f
	sub	x13, x13, #64
	add	x11, x11, #64
	cmp	x13, #63
	b.hi	4b
	sub	x10, x1, x9
	cmp	x10, #32
	b.hs	6f
	b	9f
5:
	sub	x9, x11, #32
	sub	x10, x1, x9
	cmp	x10, #32
	b.lo	9f
6:
	add	x11, x0, x9
	add	x9, x2, x9
7:
	ldp	q0, q1, [x11], #32
	ldp	q2, q3, [x9], #32
	vj_page	x12, .L1_a64_CPI32_0
	cmeq	v1.16b, v1.16b, v3.16b
	cmeq	v0.16b, v0.16b, v2.16b
	vj_load	q2, x12, .L1_a64_CPI32_0
	bic	v1.16b, v2.16b, v1.16b
	bic	v0.16b, v2.16b, v0.16b
	ext	v2.16b, v1.16b, v1.16b, #8
	ext	v3.16b, v0.16b, v0.16b, #8
	zip1	v1.16b, v1.16b, v2.16b
	zip1	v0.16b, v0.16b, v3.16b
	addv	h1, v1.8h
	addv	h0, v0.8h
	fmov	w12, s1
	fmov	w13, s0
	orr	w12, w13, w12
	tst	w12, #0xffff
	b.ne	8f
	sub	x10, x10, #32
	cmp	x10, #31
	b.hi	7b
	b	9f
8:
	cmp	x10, #31
	b.ls	9f
	mov	w8, #1
	eor	w0, w8, #0x1
	ret
9:
	add	x9, x0, x8
	add	x8, x2, x8
	ldp	q0, q3, [x8]
	ldp	q1, q2, [x9]
	cmeq	v0.16b, v1.16b, v0.16b
	cmeq	v1.16b, v2.16b, v3.16b
10:
	mvn	v0.16b, v0.16b
	orn	v0.16b, v0.16b, v1.16b
	umaxv	b0, v0.16b
	fmov	w8, s0
	and	w8, w8, #0x1
	eor	w0, w8, #0x1
	ret
	vj_end	core..cmp..slices..groups_equal..i8.31.core..cmp..numbers..U8PartialEq_1_a64

	vj_constants	16
	.p2align	4, 0x0
.L1_a64_CPI33_0:
	.quad	7640891576956012808
	.quad	-4942790177534073029
.L1_a64_CPI33_1:
	.quad	4354685564936845355
	.quad	-6534734903238641935
.L1_a64_CPI33_2:
	.quad	2270897969802886507
	.quad	6620516959819538809
.L1_a64_CPI33_3:
	.quad	5840696475078001361
	.quad	-7276294671716946913
.L1_a64_CPI33_4:
	.quad	128
	.quad	0
	vj_function	blake2_transcript..collision..blake2b..last_step_1_a64
	stp	x29, x30, [sp, #-96]!
	sub	x9, sp, #608
	stp	x28, x27, [sp, #16]
	mov	x29, sp
	stp	x26, x25, [sp, #32]
	stp	x24, x23, [sp, #48]
	stp	x22, x21, [sp, #64]
	stp	x20, x19, [sp, #80]
	and	sp, x9, #0xffffffffffffffe0
	ldrb	w27, [x1, #32]
	ldr	x26, [x1, #96]
	movi	v0.2d, #0000000000000000
	mov	x20, x1
	mov	x19, x0
	add	x25, x26, #128
	cmp	w27, #0
	csel	x8, x26, x25, eq
	cmp	x8, #0
	stp	q0, q0, [sp, #80]
	cset	w9, ne
	stp	q0, q0, [sp, #112]
	sub	x23, x8, x9
	stp	q0, q0, [sp, #144]
	lsr	x24, x23, #7
	stp	q0, q0, [sp, #192]
	stp	q0, q0, [sp, #224]
	stp	q0, q0, [sp, #256]
	stp	q0, q0, [sp, #288]
	stp	q0, q0, [sp, #320]
	str	q0, [sp, #176]
	cbz	w27, 1f
	ldr	w8, [x20, #48]
	ubfiz	w8, w8, #8, #8
	b	2f
1:
	mov	w8, wzr
2:
	ldrb	w9, [x20, #56]
	and	w10, w2, #0xff
	add	x0, sp, #480
	orr	w8, w10, w8
	ldrb	w10, [x20, #57]
	stp	q0, q0, [sp, #480]
	orr	w8, w8, w9, lsl #16
	add	x9, x20, #60
	add	x28, sp, #480
	ld1r	{ v1.2s }, [x9]
	ldp	x1, x2, [x20]
	orr	w8, w8, w10, lsl #24
	ldp	x21, x22, [x20, #16]
	fmov	s2, w8
	mov	v2.s[1], v1.s[1]
	ldr	d1, [x20, #64]
	mov	v2.d[1], v1.d[0]
	ldr	h1, [x20, #72]
	stp	q1, q2, [sp, #48]
	vj_c_call	memcpy
	orr	x0, x28, #0x10
	mov	x1, x21
	mov	x2, x22
	vj_c_call	memcpy
	vj_page	x8, .L1_a64_CPI33_0
	ldr	q6, [sp, #64]
	vj_page	x9, .L1_a64_CPI33_1
	vj_load	q2, x8, .L1_a64_CPI33_0
	ldp	q0, q1, [sp, #480]
	vj_page	x10, .L1_a64_CPI33_2
	vj_page	x8, .L1_a64_CPI33_3
	vj_load	q3, x9, .L1_a64_CPI33_1
	eor	v2.16b, v6.16b, v2.16b
	vj_load	q4, x10, .L1_a64_CPI33_2
	vj_load	q5, x8, .L1_a64_CPI33_3
	eor	v1.16b, v1.16b, v4.16b
	eor	v0.16b, v0.16b, v5.16b
	str	q2, [sp, #64]
	ldr	q2, [sp, #48]
	eor	v2.16b, v2.16b, v3.16b
	str	q1, [sp, #16]
	stp	q0, q2, [sp, #32]
	cbz	x24, 3f
	movi	v0.2d, #0000000000000000
	cbz	w27, 4f
	ldp	x1, x2, [x20, #40]
	b	5f
3:
	cmp	w27, #0
	csel	x8, x26, x25, eq
	cmp	x8, #0
	cset	w9, ne
	sub	x8, x8, x9
	lsr	x22, x8, #7
	cmp	x24, x22
	cset	w21, eq
	cbz	w27, 16f
	movi	v0.2d, #0000000000000000
	ldp	x1, x2, [x20, #40]
	add	x0, sp, #480
	b	7f
4:
	ldr	x1, [x20, #88]
	cmp	x26, #128
	mov	w8, #128
	csel	x2, x26, x8, lo
5:
	stp	q0, q0, [sp, #480]
	stp	q0, q0, [sp, #512]
	stp	q0, q0, [sp, #544]
	stp	q0, q0, [sp, #576]
	add	x0, sp, #480
	vj_c_call	memcpy
	ldp	q0, q1, [sp, #544]
	vj_page	x8, .L1_a64_CPI33_4
	ldp	q4, q5, [sp, #480]
	add	x0, sp, #480
	ldp	q2, q3, [sp, #576]
	add	x1, sp, #208
	stp	q0, q1, [sp, #272]
	ldp	q6, q7, [sp, #512]
	stp	q0, q1, [sp, #416]
	mov	w2, #128
	mov	w3, wzr
	ldr	q0, [sp, #48]
	stp	q4, q5, [sp, #208]
	mov	w4, wzr
	stp	q6, q7, [sp, #240]
	str	q0, [sp, #496]
	ldr	q0, [sp, #64]
	stp	q2, q3, [sp, #304]
	str	q0, [sp, #480]
	ldr	q0, [sp, #16]
	stp	q4, q5, [sp, #352]
	stp	q6, q7, [sp, #384]
	stp	q2, q3, [sp, #448]
	vj_load	q2, x8, .L1_a64_CPI33_4
	str	q0, [sp, #528]
	ldr	q0, [sp, #32]
	str	q2, [sp, #336]
	str	q0, [sp, #512]
	vj_call	blake2_compress..compress..blake2b..compress_1_arm
	ldr	q0, [sp, #496]
	cmp	x24, #1
	str	q0, [sp, #48]
	ldr	q0, [sp, #480]
	str	q0, [sp, #64]
	ldr	q0, [sp, #528]
	str	q0, [sp, #16]
	ldr	q0, [sp, #512]
	str	q0, [sp, #32]
	b.ne	9f
6:
	ldrb	w9, [x20, #32]
	ldr	x8, [x20, #96]
	add	x25, x8, #128
	cmp	w9, #0
	csel	x10, x8, x25, eq
	cmp	x10, #0
	cset	w11, ne
	sub	x10, x10, x11
	lsr	x22, x10, #7
	cmp	x24, x22
	cset	w21, eq
	cbz	w9, 15f
	and	x9, x23, #0xffffffffffffff80
	movi	v0.2d, #0000000000000000
	ldr	x10, [x20, #88]
	sub	x9, x9, #128
	mov	w11, #128
	add	x0, sp, #480
	sub	x8, x8, x9
	add	x1, x10, x9
	cmp	x8, #128
	csel	x2, x8, x11, lo
7:
	stp	q0, q0, [sp, #480]
	stp	q0, q0, [sp, #512]
	stp	q0, q0, [sp, #544]
	stp	q0, q0, [sp, #576]
	vj_c_call	memcpy
	cmp	x24, x22
	b.ne	18f
8:
	ldrb	w9, [x20, #80]
	mov	w8, #1
	b	19f
9:
	mov	x22, xzr
	mov	x25, xzr
	add	x26, sp, #208
	mov	w27, #1
	b	12f
10:
	ldrb	w9, [x20, #80]
11:
	ldp	q0, q1, [sp, #544]
	cmp	x27, x8
	ldp	q4, q5, [sp, #480]
	cset	w3, eq
	ldp	q2, q3, [sp, #576]
	and	w4, w9, #0x1
	stp	q0, q1, [sp, #272]
	ldp	q6, q7, [sp, #512]
	stp	q0, q1, [sp, #416]
	add	x0, sp, #480
	add	x1, sp, #208
	ldr	q0, [sp, #48]
	mov	x2, x21
	stp	q4, q5, [sp, #208]
	stp	q6, q7, [sp, #240]
	str	q0, [sp, #496]
	ldr	q0, [sp, #64]
	stp	q2, q3, [sp, #304]
	str	q0, [sp, #480]
	ldr	q0, [sp, #16]
	stp	q4, q5, [sp, #352]
	str	q0, [sp, #528]
	ldr	q0, [sp, #32]
	stp	q6, q7, [sp, #384]
	stp	q2, q3, [sp, #448]
	str	x21, [sp, #336]
	strb	w3, [sp, #344]
	strb	w4, [sp, #345]
	sturh	wzr, [x26, #142]
	stur	wzr, [x26, #138]
	str	q0, [sp, #512]
	vj_call	blake2_compress..compress..blake2b..compress_1_arm
	ldr	q0, [sp, #496]
	add	x27, x27, #1
	add	x25, x25, #128
	cmp	x24, x27
	sub	x22, x22, #128
	str	q0, [sp, #48]
	ldr	q0, [sp, #480]
	str	q0, [sp, #64]
	ldr	q0, [sp, #528]
	str	q0, [sp, #16]
	ldr	q0, [sp, #512]
	str	q0, [sp, #32]
	b.eq	6b
12:
	ldp	x8, x9, [x20, #88]
	movi	v0.2d, #0000000000000000
	ldrb	w10, [x20, #32]
	add	x11, x9, #128
	cmp	w10, #0
	csel	x21, x9, x11, eq
	cmp	x21, #0
	cset	w28, ne
	cbz	w10, 13f
	add	x9, x22, x9
	mov	w10, #128
	add	x0, sp, #480
	cmp	x9, #128
	add	x1, x8, x25
	stp	q0, q0, [sp, #480]
	csel	x2, x9, x10, lo
	stp	q0, q0, [sp, #512]
	stp	q0, q0, [sp, #544]
	stp	q0, q0, [sp, #576]
	vj_c_call	memcpy
	sub	x8, x21, x28
	lsr	x8, x8, #7
	cmp	x27, x8
	b.eq	10b
	b	14f
13:
	add	x9, x22, x9
	mov	w10, #128
	add	x8, x8, x25
	sub	x9, x9, #128
	stp	q0, q0, [sp, #480]
	add	x0, sp, #480
	cmp	x9, #128
	stp	q0, q0, [sp, #512]
	add	x1, x8, #128
	stp	q0, q0, [sp, #544]
	csel	x2, x9, x10, lo
	stp	q0, q0, [sp, #576]
	vj_c_call	memcpy
	sub	x8, x21, x28
	lsr	x8, x8, #7
	cmp	x27, x8
	b.eq	10b
14:
	mov	w9, wzr
	add	x21, x25, #256
	b	11b
15:
	mov	x25, x8
	b	17f
16:
	mov	x25, x26
17:
	movi	v0.2d, #0000000000000000
	and	x8, x23, #0xffffffffffffff80
	ldr	x9, [x20, #88]
	sub	x10, x25, x8
	mov	w11, #128
	add	x0, sp, #480
	cmp	x10, #128
	add	x1, x9, x8
	csel	x2, x10, x11, lo
	stp	q0, q0, [sp, #480]
	stp	q0, q0, [sp, #512]
	stp	q0, q0, [sp, #544]
	stp	q0, q0, [sp, #576]
	vj_c_call	memcpy
	tbnz	w21, #0, 8b
18:
	and	x10, x23, #0xffffffffffffff80
	mov	w8, wzr
	mov	w9, wzr
	add	x25, x10, #128
19:
	ldp	q0, q1, [sp, #544]
	and	w9, w9, #0x1
	str	x25, [x19, #192]
	strb	w8, [x19, #200]
	stp	q0, q1, [sp, #144]
	ldp	q0, q2, [sp, #576]
	strb	w9, [x19, #201]
	strh	wzr, [x19, #206]
	stp	q0, q2, [sp, #176]
	ldp	q1, q0, [sp, #480]
	stur	wzr, [x19, #202]
	stp	q1, q0, [sp, #80]
	ldp	q2, q0, [sp, #512]
	ldr	q1, [sp, #16]
	stp	q2, q0, [sp, #112]
	str	q1, [x19, #48]
	ldp	q1, q0, [sp, #32]
	stp	q0, q1, [x19, #16]
	ldr	q0, [sp, #64]
	str	q0, [x19]
	ldp	q0, q1, [sp, #144]
	stp	q0, q1, [x19, #128]
	ldp	q2, q0, [sp, #176]
	stp	q2, q0, [x19, #160]
	ldp	q1, q0, [sp, #80]
	stp	q1, q0, [x19, #64]
	ldp	q2, q0, [sp, #112]
	stp	q2, q0, [x19, #96]
	mov	sp, x29
	ldp	x20, x19, [sp, #80]
	ldp	x22, x21, [sp, #64]
	ldp	x24, x23, [sp, #48]
	ldp	x26, x25, [sp, #32]
	ldp	x28, x27, [sp, #16]
	ldp	x29, x30, [sp], #96
	ret
	vj_end	blake2_transcript..collision..blake2b..last_step_1_a64

	vj_function	blake2_transcript..collision..blake2b..bytes_after_1_a64
	sub	sp, sp, #96
	ldp	q0, q1, [x1]
	mov	x8, x2
	ldr	x2, [x2, #128]
	ldrb	w4, [x8, #137]
	ldrb	w3, [x8, #136]
	str	x19, [sp, #80]
	mov	x19, x0
	mov	x0, sp
	stp	q0, q1, [sp]
	ldp	q0, q2, [x1, #32]
	mov	x1, x8
	stp	x29, x30, [sp, #64]
	add	x29, sp, #64
	stp	q0, q2, [sp, #32]
	vj_call	blake2_compress..compress..blake2b..compress_1_arm
	ldp	q0, q1, [sp]
	ldp	x29, x30, [sp, #64]
	stp	q0, q1, [x19]
	ldp	q0, q2, [sp, #32]
	stp	q0, q2, [x19, #32]
	ldr	x19, [sp, #80]
	add	sp, sp, #96
	ret
	vj_end	blake2_transcript..collision..blake2b..bytes_after_1_a64

	vj_constants	16
	.p2align	4, 0x0
.L1_a64_CPI35_0:
	.byte	1
	.byte	2
	.byte	4
	.byte	8
	.byte	16
	.byte	32
	.byte	64
	.byte	128
	.byte	1
	.byte	2
	.byte	4
	.byte	8
	.byte	16
	.byte	32
	.byte	64
	.byte	128
	vj_function	blake2_transcript..collision..blake2b..same_step_1_a64
	ldp	q0, q1, [x0, #32]
	ldp	q2, q3, [x2, #32]
	ldp	q4, q5, [x0]
	ldp	q6, q7, [x2]
	cmeq	v1.2d, v1.2d, v3.2d
	cmeq	v0.2d, v0.2d, v2.2d
	cmeq	v2.2d, v5.2d, v7.2d
	cmeq	v3.2d, v4.2d, v6.2d
	uzp1	v0.4s, v0.4s, v1.4s
	uzp1	v1.4s, v3.4s, v2.4s
	uzp1	v0.8h, v1.8h, v0.8h
	xtn	v0.8b, v0.8h
	uminv	b0, v0.8b
	fmov	w8, s0
	tbz	w8, #0, 3f
	ldr	x8, [x1, #128]
	ldr	x9, [x3, #128]
	cmp	x8, x9
	b.ne	3f
	ldrb	w8, [x1, #136]
	ldrb	w9, [x3, #136]
	cmp	w8, w9
	b.ne	3f
	ldrb	w8, [x1, #137]
	ldrb	w9, [x3, #137]
	cmp	w8, w9
	b.ne	3f
	ldp	q0, q3, [x3]
	ldp	q1, q2, [x1]
	ldp	q4, q5, [x3, #32]
	cmeq	v0.16b, v1.16b, v0.16b
	cmeq	v1.16b, v2.16b, v3.16b
	ldp	q2, q3, [x1, #32]
	mvn	v0.16b, v0.16b
	mvn	v1.16b, v1.16b
	cmeq	v2.16b, v2.16b, v4.16b
	cmeq	v3.16b, v3.16b, v5.16b
	orn	v0.16b, v0.16b, v2.16b
	orn	v1.16b, v1.16b, v3.16b
	orr	v0.16b, v1.16b, v0.16b
	umaxv	b1, v0.16b
	fmov	w8, s1
	tbz	w8, #0, 1f
	mov	x8, xzr
	b	2f
1:
	ldp	q1, q4, [x3, #64]
	ldp	q2, q3, [x1, #64]
	ldp	q5, q6, [x3, #96]
	cmeq	v1.16b, v2.16b, v1.16b
	cmeq	v2.16b, v3.16b, v4.16b
	ldp	q3, q4, [x1, #96]
	mvn	v1.16b, v1.16b
	mvn	v2.16b, v2.16b
	cmeq	v3.16b, v3.16b, v5.16b
	cmeq	v4.16b, v4.16b, v6.16b
	orn	v1.16b, v1.16b, v3.16b
	orn	v2.16b, v2.16b, v4.16b
	orr	v1.16b, v2.16b, v1.16b
	umaxv	b1, v1.16b
	fmov	w8, s1
	tbz	w8, #0, 5f
	mov	w8, #64
2:
	add	x9, x1, x8
	add	x10, x3, x8
	ldp	q1, q2, [x9]
	vj_page	x9, .L1_a64_CPI35_0
	ldp	q3, q4, [x10]
	cmeq	v2.16b, v2.16b, v4.16b
	cmeq	v3.16b, v1.16b, v3.16b
	vj_load	q1, x9, .L1_a64_CPI35_0
	bic	v2.16b, v1.16b, v2.16b
	bic	v3.16b, v1.16b, v3.16b
	ext	v4.16b, v2.16b, v2.16b, #8
	ext	v5.16b, v3.16b, v3.16b, #8
	zip1	v2.16b, v2.16b, v4.16b
	zip1	v3.16b, v3.16b, v5.16b
	addv	h2, v2.8h
	addv	h3, v3.8h
	fmov	w9, s2
	fmov	w10, s3
	orr	w9, w10, w9
	tst	w9, #0xffff
	b.ne	3f
	orr	x9, x8, #0x20
	add	x10, x1, x9
	add	x11, x3, x9
	ldp	q2, q3, [x10]
	ldp	q4, q5, [x11]
	cmeq	v3.16b, v3.16b, v5.16b
	cmeq	v2.16b, v2.16b, v4.16b
	bic	v3.16b, v1.16b, v3.16b
	bic	v2.16b, v1.16b, v2.16b
	ext	v4.16b, v3.16b, v3.16b, #8
	ext	v5.16b, v2.16b, v2.16b, #8
	zip1	v3.16b, v3.16b, v4.16b
	zip1	v2.16b, v2.16b, v5.16b
	addv	h3, v3.8h
	addv	h2, v2.8h
	fmov	w10, s3
	fmov	w11, s2
	orr	w10, w11, w10
	tst	w10, #0xffff
	b.eq	4f
3:
	and	w0, wzr, #0x1
	ret
4:
	cmp	x9, #64
	b.hi	5f
	add	x9, x8, #64
	add	x10, x1, x9
	add	x9, x3, x9
	ldp	q2, q3, [x10]
	ldp	q4, q5, [x9]
	cmeq	v3.16b, v3.16b, v5.16b
	cmeq	v2.16b, v2.16b, v4.16b
	bic	v3.16b, v1.16b, v3.16b
	bic	v2.16b, v1.16b, v2.16b
	ext	v4.16b, v3.16b, v3.16b, #8
	ext	v5.16b, v2.16b, v2.16b, #8
	zip1	v3.16b, v3.16b, v4.16b
	zip1	v2.16b, v2.16b, v5.16b
	addv	h3, v3.8h
	addv	h2, v2.8h
	fmov	w9, s3
	fmov	w10, s2
	orr	w9, w10, w9
	tst	w9, #0xffff
	b.ne	3b
	and	v0.16b, v0.16b, v1.16b
	ext	v2.16b, v0.16b, v0.16b, #8
	zip1	v0.16b, v0.16b, v2.16b
	addv	h0, v0.8h
	fmov	w9, s0
	tst	w9, #0xffff
	b.eq	5f
	add	x8, x8, #96
	add	x9, x1, x8
	add	x8, x3, x8
	ldp	q0, q2, [x9]
	ldp	q3, q4, [x8]
	cmeq	v2.16b, v2.16b, v4.16b
	cmeq	v0.16b, v0.16b, v3.16b
	bic	v2.16b, v1.16b, v2.16b
	bic	v0.16b, v1.16b, v0.16b
	ext	v1.16b, v2.16b, v2.16b, #8
	ext	v3.16b, v0.16b, v0.16b, #8
	zip1	v1.16b, v2.16b, v1.16b
	zip1	v0.16b, v0.16b, v3.16b
	addv	h1, v1.8h
	addv	h0, v0.8h
	fmov	w8, s1
	fmov	w9, s0
	orr	w8, w9, w8
	tst	w8, #0xffff
	b.ne	3b
5:
	ldp	q0, q3, [x3, #96]
	ldp	q1, q2, [x1, #96]
	cmeq	v0.16b, v1.16b, v0.16b
	cmeq	v1.16b, v2.16b, v3.16b
	mvn	v0.16b, v0.16b
	orn	v0.16b, v0.16b, v1.16b
	umaxv	b0, v0.16b
	fmov	w8, s0
	eor	w8, w8, #0x1
	and	w0, w8, #0x1
	ret
	vj_end	blake2_transcript..collision..blake2b..same_step_1_a64

	vj_function	b2_commands..witness..print_blake2b..c1844c1740294036_1_a64
	stp	x29, x30, [sp, #-80]!
	str	x28, [sp, #16]
	mov	x29, sp
	stp	x24, x23, [sp, #32]
	stp	x22, x21, [sp, #48]
	stp	x20, x19, [sp, #64]
	sub	sp, sp, #528
	movi	v0.2d, #0000000000000000
	add	x23, sp, #8
	mov	w8, #115
	strb	w8, [sp, #8]
	add	x8, x23, #257
	mov	x19, x0
	add	x0, sp, #8
	mov	x20, x2
	mov	x21, x1
	str	q0, [x8]
	add	x8, x23, #273
	str	q0, [x8]
	add	x8, x23, #289
	str	q0, [x8]
	add	x8, x23, #305
	str	q0, [x8]
	add	x8, x23, #321
	str	q0, [x8]
	add	x8, x23, #337
	str	q0, [x8]
	add	x8, x23, #353
	str	q0, [x8]
	add	x8, x23, #369
	str	q0, [x8]
	add	x8, x23, #385
	str	q0, [x8]
	add	x8, x23, #401
	str	q0, [x8]
	mov	w8, #1
	stur	q0, [sp, #9]
	stur	q0, [sp, #25]
	stur	q0, [sp, #41]
	stur	q0, [sp, #57]
	stur	q0, [sp, #73]
	stur	q0, [sp, #89]
	stur	q0, [sp, #105]
	stur	q0, [sp, #121]
	stur	q0, [x23, #129]
	stur	q0, [x23, #145]
	stur	q0, [x23, #161]
	stur	q0, [x23, #177]
	stur	q0, [x23, #193]
	stur	q0, [x23, #209]
	stur	q0, [x23, #225]
	stur	q0, [x23, #241]
	stp	xzr, x8, [sp, #424]
	bl	b2_commands..print..Line..add_words_of_64_1_a64
	ldr	x8, [sp, #432]
	ldr	x9, [x21, #192]
	mov	w10, #32
	stp	xzr, xzr, [x29, #-88]
	strb	w10, [x23, x8]
	cmp	x9, #10
	mov	w10, #19
	stur	wzr, [x29, #-72]
	b.lo	2f
	mov	x11, x9
1:
	mov	x9, #-3689348814741910324
	mov	w12, #10
	sub	x13, x29, #88
	movk	x9, #52429
	cmp	x11, #99
	umulh	x9, x11, x9
	lsr	x9, x9, #3
	msub	w12, w9, w12, w11
	orr	w11, w12, #0x30
	strb	w11, [x13, x10]
	sub	x10, x10, #1
	mov	x11, x9
	b.hi	1b
2:
	mov	w11, #20
	add	x24, x8, #1
	sub	x8, x29, #88
	sub	x22, x11, x10
	add	x0, x23, x24
	add	x1, x8, x10
	mov	x2, x22
	orr	w9, w9, #0x30
	strb	w9, [x8, x10]
	vj_c_call	memcpy
	ldrb	w9, [x21, #200]
	add	x8, x22, x24
	cmp	w9, #1
	add	x9, x23, x8
	b.ne	3f
	vj_page	x10, .L1_a64_static.42
	vj_address	x10, x10, .L1_a64_static.42
	sub	x10, x9, x10
	cmp	x10, #1
	mov	w10, #12576
	b	4f
3:
	vj_page	x10, .L1_a64_static.43
	vj_address	x10, x10, .L1_a64_static.43
	sub	x10, x9, x10
	cmp	x10, #1
	mov	w10, #12320
4:
	add	x8, x8, #2
	add	x0, sp, #8
	add	x1, x21, #64
	mov	w2, #128
	strh	w10, [x9]
	add	x21, sp, #8
	str	x8, [sp, #432]
	bl	b2_commands..print..Line..add_block_1_a64
	ldr	x8, [sp, #432]
	mov	w9, #10
	strb	w9, [x21, x8]
	adds	x21, x8, #1
	str	x21, [sp, #432]
	b.hs	6f
	mov	x22, xzr
5:
	add	x8, sp, #8
	sub	x2, x21, x22
	mov	w0, #1
	add	x1, x8, x22
	sub	x24, x21, x22
	mov	w23, #1
	vj_system_call	write, b2_write
	tbnz	x0, #63, 7f
	cmp	x0, x24
	csel	x8, x0, x24, lo
	cbz	x8, 8f
	add	x22, x8, x22
	cmp	x22, x21
	b.lo	5b
6:
	mov	w23, wzr
	b	9f
7:
	sub	x0, x29, #88
	bl	std_io..io..error..last_error_1_a64
8:
	strb	w23, [x20]
9:
	cmp	w23, #0
	mov	w8, #9
	strb	w23, [x19]
	csel	x8, x8, xzr, ne
	stp	x8, xzr, [x19, #8]
	add	sp, sp, #528
	ldp	x20, x19, [sp, #64]
	ldr	x28, [sp, #16]
	ldp	x22, x21, [sp, #48]
	ldp	x24, x23, [sp, #32]
	ldp	x29, x30, [sp], #80
	ret
	vj_end	b2_commands..witness..print_blake2b..c1844c1740294036_1_a64

	vj_constants	16
	.p2align	4, 0x0
.L1_a64_CPI37_0:
	.long	1779033703
	.long	3144134277
	.long	1013904242
	.long	2773480762
.L1_a64_CPI37_1:
	.long	1359893119
	.long	2600822924
	.long	528734635
	.long	1541459225
.L1_a64_CPI37_2:
	.quad	64
	.quad	0
	vj_function	blake2_transcript..collision..blake2s..last_step_1_a64
	sub	sp, sp, #416
	stp	x28, x27, [sp, #336]
	ldrb	w27, [x1, #32]
	movi	v0.2d, #0000000000000000
	stp	x26, x25, [sp, #352]
	ldr	x26, [x1, #96]
	cmp	w27, #0
	stp	x24, x23, [sp, #368]
	add	x25, x26, #64
	stp	x20, x19, [sp, #400]
	mov	x20, x1
	csel	x8, x26, x25, eq
	mov	x19, x0
	stp	x29, x30, [sp, #320]
	cmp	x8, #0
	stp	x22, x21, [sp, #384]
	add	x29, sp, #320
	cset	w9, ne
	stp	q0, q0, [sp, #32]
	sub	x23, x8, x9
	stp	q0, q0, [sp, #80]
	lsr	x24, x23, #6
	stp	q0, q0, [sp, #112]
	stp	q0, q0, [sp, #144]
	str	q0, [sp, #64]
	cbz	w27, 1f
	ldr	w8, [x20, #48]
	ubfiz	w8, w8, #8, #8
	b	2f
1:
	mov	w8, wzr
2:
	ldrb	w9, [x20, #56]
	and	w10, w2, #0xff
	ldr	s0, [x20, #60]
	orr	w8, w10, w8
	ldrb	w10, [x20, #57]
	ldr	d2, [x20, #64]
	orr	w8, w8, w9, lsl #16
	ushll	v0.4s, v0.4h, #0
	sub	x0, x29, #80
	dup	v2.2d, v2.d[0]
	ldp	x1, x2, [x20]
	orr	w8, w8, w10, lsl #24
	ldp	x21, x22, [x20, #16]
	stp	xzr, xzr, [x29, #-80]
	sub	x28, x29, #80
	fmov	s1, w8
	mov	w8, v0.s[1]
	mov	v1.h[2], v0.h[0]
	mov	v1.h[3], w8
	add	x8, x20, #72
	mov	v2.d[0], v1.d[0]
	ld1	{ v2.h }[7], [x8]
	str	q2, [sp, #16]
	vj_c_call	memcpy
	orr	x0, x28, #0x8
	mov	x1, x21
	mov	x2, x22
	vj_c_call	memcpy
	vj_page	x8, .L1_a64_CPI37_0
	vj_page	x9, .L1_a64_CPI37_1
	ldur	q0, [x29, #-80]
	vj_load	q1, x8, .L1_a64_CPI37_0
	vj_load	q2, x9, .L1_a64_CPI37_1
	ldr	q3, [sp, #16]
	eor	v1.16b, v3.16b, v1.16b
	eor	v0.16b, v0.16b, v2.16b
	stp	q1, q0, [sp]
	cbz	x24, 3f
	movi	v0.2d, #0000000000000000
	cbz	w27, 4f
	ldp	x1, x2, [x20, #40]
	b	5f
3:
	cmp	w27, #0
	csel	x8, x26, x25, eq
	cmp	x8, #0
	cset	w9, ne
	sub	x8, x8, x9
	lsr	x22, x8, #6
	cmp	x24, x22
	cset	w21, eq
	cbz	w27, 15f
	movi	v0.2d, #0000000000000000
	ldp	x1, x2, [x20, #40]
	sub	x0, x29, #80
	stp	q0, q0, [x29, #-80]
	stp	q0, q0, [x29, #-48]
	vj_c_call	memcpy
	cmp	x24, x22
	b.eq	7f
	b	17f
4:
	ldr	x1, [x20, #88]
	cmp	x26, #64
	mov	w8, #64
	csel	x2, x26, x8, lo
5:
	stp	q0, q0, [x29, #-80]
	stp	q0, q0, [x29, #-48]
	sub	x0, x29, #80
	vj_c_call	memcpy
	ldp	q0, q1, [x29, #-80]
	vj_page	x8, .L1_a64_CPI37_2
	ldp	q2, q3, [x29, #-48]
	sub	x0, x29, #80
	add	x1, sp, #96
	mov	w2, #64
	mov	w3, wzr
	stp	q0, q1, [x29, #-144]
	mov	w4, wzr
	stp	q0, q1, [sp, #96]
	vj_load	q0, x8, .L1_a64_CPI37_2
	stp	q2, q3, [x29, #-112]
	str	q0, [sp, #160]
	ldr	q0, [sp]
	stp	q2, q3, [sp, #128]
	stur	q0, [x29, #-80]
	ldr	q0, [sp, #16]
	stur	q0, [x29, #-64]
	vj_call	blake2_compress..compress..blake2s..compress_1_arm
	ldur	q0, [x29, #-80]
	cmp	x24, #1
	str	q0, [sp]
	ldur	q0, [x29, #-64]
	str	q0, [sp, #16]
	b.ne	8f
6:
	ldrb	w9, [x20, #32]
	ldr	x8, [x20, #96]
	add	x25, x8, #64
	cmp	w9, #0
	csel	x10, x8, x25, eq
	cmp	x10, #0
	cset	w11, ne
	sub	x10, x10, x11
	lsr	x22, x10, #6
	cmp	x24, x22
	cset	w21, eq
	cbz	w9, 14f
	and	x9, x23, #0xffffffffffffffc0
	movi	v0.2d, #0000000000000000
	ldr	x10, [x20, #88]
	sub	x9, x9, #64
	mov	w11, #64
	sub	x0, x29, #80
	sub	x8, x8, x9
	add	x1, x10, x9
	cmp	x8, #64
	csel	x2, x8, x11, lo
	stp	q0, q0, [x29, #-80]
	stp	q0, q0, [x29, #-48]
	vj_c_call	memcpy
	cmp	x24, x22
	b.ne	17f
7:
	ldrb	w9, [x20, #80]
	mov	w8, #1
	b	18f
8:
	mov	x22, xzr
	mov	x25, xzr
	add	x26, sp, #96
	mov	w27, #1
	b	11f
9:
	ldrb	w9, [x20, #80]
10:
	ldp	q0, q1, [x29, #-80]
	cmp	x27, x8
	ldp	q2, q3, [x29, #-48]
	cset	w3, eq
	and	w4, w9, #0x1
	sub	x0, x29, #80
	add	x1, sp, #96
	stp	q0, q1, [x29, #-144]
	mov	x2, x21
	stp	q0, q1, [sp, #96]
	ldr	q0, [sp]
	stp	q2, q3, [x29, #-112]
	stur	q0, [x29, #-80]
	ldr	q0, [sp, #16]
	stp	q2, q3, [sp, #128]
	str	x21, [sp, #160]
	strb	w3, [sp, #168]
	strb	w4, [sp, #169]
	stur	wzr, [x26, #74]
	sturh	wzr, [x26, #78]
	stur	q0, [x29, #-64]
	vj_call	blake2_compress..compress..blake2s..compress_1_arm
	ldur	q0, [x29, #-80]
	add	x27, x27, #1
	add	x25, x25, #64
	cmp	x24, x27
	sub	x22, x22, #64
	str	q0, [sp]
	ldur	q0, [x29, #-64]
	str	q0, [sp, #16]
	b.eq	6b
11:
	ldp	x8, x9, [x20, #88]
	movi	v0.2d, #0000000000000000
	ldrb	w10, [x20, #32]
	add	x11, x9, #64
	cmp	w10, #0
	csel	x21, x9, x11, eq
	cmp	x21, #0
	cset	w28, ne
	cbz	w10, 12f
	add	x9, x22, x9
	mov	w10, #64
	sub	x0, x29, #80
	cmp	x9, #64
	add	x1, x8, x25
	stp	q0, q0, [x29, #-80]
	csel	x2, x9, x10, lo
	stp	q0, q0, [x29, #-48]
	vj_c_call	memcpy
	sub	x8, x21, x28
	lsr	x8, x8, #6
	cmp	x27, x8
	b.eq	9b
	b	13f
12:
	add	x9, x22, x9
	mov	w10, #64
	add	x8, x8, x25
	sub	x9, x9, #64
	stp	q0, q0, [x29, #-80]
	sub	x0, x29, #80
	cmp	x9, #64
	stp	q0, q0, [x29, #-48]
	add	x1, x8, #64
	csel	x2, x9, x10, lo
	vj_c_call	memcpy
	sub	x8, x21, x28
	lsr	x8, x8, #6
	cmp	x27, x8
	b.eq	9b
13:
	mov	w9, wzr
	add	x21, x25, #128
	b	10b
14:
	mov	x25, x8
	b	16f
15:
	mov	x25, x26
16:
	movi	v0.2d, #0000000000000000
	and	x8, x23, #0xffffffffffffffc0
	ldr	x9, [x20, #88]
	sub	x10, x25, x8
	mov	w11, #64
	sub	x0, x29, #80
	cmp	x10, #64
	add	x1, x9, x8
	csel	x2, x10, x11, lo
	stp	q0, q0, [x29, #-80]
	stp	q0, q0, [x29, #-48]
	vj_c_call	memcpy
	tbnz	w21, #0, 7b
17:
	and	x10, x23, #0xffffffffffffffc0
	mov	w8, wzr
	mov	w9, wzr
	add	x25, x10, #64
18:
	ldr	q4, [sp]
	ldp	q0, q1, [x29, #-80]
	ldp	q2, q3, [x29, #-48]
	and	w9, w9, #0x1
	str	q4, [x19]
	ldr	q4, [sp, #16]
	str	x25, [x19, #96]
	ldp	x22, x21, [sp, #384]
	stp	q4, q0, [x19, #16]
	ldp	x24, x23, [sp, #368]
	stp	q1, q2, [x19, #48]
	ldp	x26, x25, [sp, #352]
	str	q3, [x19, #80]
	ldp	x28, x27, [sp, #336]
	strb	w8, [x19, #104]
	ldp	x29, x30, [sp, #320]
	strb	w9, [x19, #105]
	stur	wzr, [x19, #106]
	strh	wzr, [x19, #110]
	ldp	x20, x19, [sp, #400]
	stp	q0, q1, [sp, #32]
	stp	q2, q3, [sp, #64]
	add	sp, sp, #416
	ret
	vj_end	blake2_transcript..collision..blake2s..last_step_1_a64

	vj_function	blake2_transcript..collision..blake2s..same_step_1_a64
	ldp	q0, q1, [x0]
	ldp	q2, q3, [x2]
	cmeq	v1.4s, v1.4s, v3.4s
	cmeq	v0.4s, v0.4s, v2.4s
	uzp1	v0.8h, v0.8h, v1.8h
	mvn	v0.16b, v0.16b
	umaxv	h0, v0.8h
	fmov	w8, s0
	tbnz	w8, #0, 1f
	ldr	x8, [x1, #64]
	ldr	x9, [x3, #64]
	cmp	x8, x9
	b.ne	1f
	ldrb	w8, [x1, #72]
	ldrb	w9, [x3, #72]
	cmp	w8, w9
	b.ne	1f
	ldrb	w8, [x1, #73]
	ldrb	w9, [x3, #73]
	cmp	w8, w9
	b.ne	1f
	ldp	q1, q0, [x1]
	ldp	q3, q2, [x3]
	ldp	q4, q5, [x3, #32]
	cmeq	v1.16b, v1.16b, v3.16b
	cmeq	v0.16b, v0.16b, v2.16b
	ldp	q2, q3, [x1, #32]
	mvn	v1.16b, v1.16b
	mvn	v0.16b, v0.16b
	cmeq	v2.16b, v2.16b, v4.16b
	cmeq	v3.16b, v3.16b, v5.16b
	orn	v0.16b, v0.16b, v3.16b
	orn	v1.16b, v1.16b, v2.16b
	orr	v0.16b, v1.16b, v0.16b
	umaxv	b0, v0.16b
	fmov	w8, s0
	eor	w8, w8, #0x1
	and	w0, w8, #0x1
	ret
1:
	and	w0, wzr, #0x1
	ret
	vj_end	blake2_transcript..collision..blake2s..same_step_1_a64

	vj_function	b2_commands..witness..print_blake2s..c1844c1740294036_1_a64
	stp	x29, x30, [sp, #-80]!
	str	x28, [sp, #16]
	mov	x29, sp
	stp	x24, x23, [sp, #32]
	stp	x22, x21, [sp, #48]
	stp	x20, x19, [sp, #64]
	sub	sp, sp, #528
	movi	v0.2d, #0000000000000000
	add	x22, sp, #8
	mov	w8, #115
	strb	w8, [sp, #8]
	add	x8, x22, #74
	mov	x20, x2
	mov	x21, x1
	mov	x19, x0
	mov	w23, #19
	stp	xzr, xzr, [x29, #-88]
	stp	q0, q0, [x8, #192]
	stp	q0, q0, [x8, #224]
	stp	q0, q0, [x8, #256]
	stp	q0, q0, [x8, #288]
	str	q0, [x8, #320]
	add	x8, x22, #408
	str	q0, [x8]
	ldp	w8, w9, [x1]
	stur	q0, [sp, #82]
	stur	q0, [sp, #98]
	rev	w10, w8
	vj_page	x8, .L1_a64_static.37
	vj_address	x8, x8, .L1_a64_static.37
	lsr	w11, w10, #8
	ubfx	x12, x10, #4, #4
	and	x13, x10, #0xf
	ldrb	w13, [x8, x13]
	ubfx	x14, x10, #8, #4
	rev	w9, w9
	ldrb	w12, [x8, x12]
	ubfx	x11, x11, #4, #4
	stur	q0, [sp, #114]
	strb	w13, [sp, #11]
	lsr	w13, w10, #24
	strb	w12, [sp, #10]
	lsr	w12, w10, #16
	ldrb	w11, [x8, x11]
	ubfx	x10, x10, #16, #4
	stur	q0, [sp, #130]
	ubfx	x12, x12, #4, #4
	strb	w11, [sp, #12]
	ldrb	w11, [x8, x14]
	lsr	x14, x13, #4
	ldrb	w10, [x8, x10]
	stur	q0, [x22, #138]
	ldrb	w12, [x8, x12]
	strb	w11, [sp, #13]
	and	x11, x13, #0xf
	ubfx	x13, x9, #4, #4
	ldrb	w14, [x8, x14]
	ldrb	w11, [x8, x11]
	strb	w12, [sp, #14]
	lsr	w12, w9, #8
	strb	w10, [sp, #15]
	lsr	w10, w9, #16
	ldrb	w13, [x8, x13]
	strb	w14, [sp, #16]
	and	x14, x9, #0xf
	ubfx	x12, x12, #4, #4
	strb	w11, [sp, #17]
	ldrb	w11, [x8, x14]
	ubfx	x10, x10, #4, #4
	strb	w13, [sp, #19]
	lsr	w13, w9, #24
	ldrb	w12, [x8, x12]
	strb	w11, [sp, #20]
	ldrb	w10, [x8, x10]
	ubfx	x14, x9, #8, #4
	lsr	x11, x13, #4
	ubfx	x9, x9, #16, #4
	strb	w12, [sp, #21]
	strb	w10, [sp, #23]
	ldrb	w14, [x8, x14]
	ldrb	w10, [x8, x11]
	ldrb	w9, [x8, x9]
	stur	q0, [x22, #154]
	ldp	w12, w11, [x1, #8]
	strb	w14, [sp, #22]
	strb	w9, [sp, #24]
	and	x9, x13, #0xf
	rev	w12, w12
	strb	w10, [sp, #25]
	ldrb	w9, [x8, x9]
	lsr	w13, w12, #8
	ubfx	x14, x12, #4, #4
	rev	w11, w11
	strb	w9, [sp, #26]
	ldrb	w10, [x8, x14]
	ubfx	x13, x13, #4, #4
	and	x14, x12, #0xf
	ldrb	w9, [x8, x14]
	lsr	w14, w12, #16
	stur	q0, [x22, #170]
	strb	w10, [sp, #28]
	ldrb	w10, [x8, x13]
	ubfx	x13, x12, #8, #4
	strb	w9, [sp, #29]
	mov	w9, #32
	strb	w10, [sp, #30]
	ubfx	x10, x14, #4, #4
	lsr	w14, w12, #24
	ldrb	w13, [x8, x13]
	ubfx	x12, x12, #16, #4
	stur	q0, [x22, #186]
	ldrb	w10, [x8, x10]
	stur	q0, [x22, #202]
	strb	w13, [sp, #31]
	lsr	x13, x14, #4
	ldrb	w12, [x8, x12]
	strb	w10, [sp, #32]
	ldrb	w10, [x8, x13]
	strb	w12, [sp, #33]
	and	x12, x14, #0xf
	ubfx	x14, x11, #4, #4
	lsr	w13, w11, #8
	stur	q0, [x22, #218]
	strb	w10, [sp, #34]
	ldrb	w10, [x8, x12]
	ldrb	w12, [x8, x14]
	and	x14, x11, #0xf
	ubfx	x13, x13, #4, #4
	strb	w10, [sp, #35]
	lsr	w10, w11, #16
	ldrb	w14, [x8, x14]
	strb	w12, [sp, #37]
	ldrb	w12, [x8, x13]
	ubfx	x13, x11, #8, #4
	strb	w14, [sp, #38]
	lsr	w14, w11, #24
	ubfx	x10, x10, #4, #4
	strb	w12, [sp, #39]
	ldrb	w12, [x8, x13]
	ubfx	x11, x11, #16, #4
	ldrb	w10, [x8, x10]
	lsr	x13, x14, #4
	stur	q0, [x22, #234]
	strb	w12, [sp, #40]
	strb	w10, [sp, #41]
	ldrb	w10, [x8, x11]
	ldrb	w11, [x8, x13]
	and	x13, x14, #0xf
	stur	q0, [x22, #250]
	ldp	w12, w14, [x1, #16]
	strb	w10, [sp, #42]
	ldrb	w10, [x8, x13]
	strb	w11, [sp, #43]
	rev	w12, w12
	strb	w10, [sp, #44]
	ubfx	x13, x12, #4, #4
	lsr	w11, w12, #8
	strb	w9, [sp, #9]
	strb	w9, [sp, #18]
	ldrb	w10, [x8, x13]
	and	x13, x12, #0xf
	ubfx	x11, x11, #4, #4
	ldrb	w13, [x8, x13]
	strb	w9, [sp, #27]
	strb	w10, [sp, #46]
	lsr	w10, w12, #16
	ldrb	w11, [x8, x11]
	strb	w13, [sp, #47]
	ubfx	x13, x12, #8, #4
	ubfx	x10, x10, #4, #4
	strb	w11, [sp, #48]
	lsr	w11, w12, #24
	ldrb	w13, [x8, x13]
	ubfx	x12, x12, #16, #4
	strb	w9, [sp, #36]
	ldrb	w10, [x8, x10]
	strb	w9, [sp, #45]
	strb	w13, [sp, #49]
	lsr	x13, x11, #4
	and	x11, x11, #0xf
	strb	w10, [sp, #50]
	ldrb	w10, [x8, x12]
	ldrb	w12, [x8, x13]
	rev	w13, w14
	strb	w9, [sp, #54]
	strb	w10, [sp, #51]
	ldrb	w10, [x8, x11]
	ubfx	x11, x13, #4, #4
	strb	w12, [sp, #52]
	lsr	w12, w13, #8
	lsr	w14, w13, #16
	strb	w10, [sp, #53]
	ldrb	w10, [x8, x11]
	and	x11, x13, #0xf
	ldrb	w11, [x8, x11]
	ubfx	x12, x12, #4, #4
	strb	w9, [sp, #63]
	strb	w10, [sp, #55]
	ubfx	x10, x13, #8, #4
	strb	w11, [sp, #56]
	ldrb	w11, [x8, x12]
	ubfx	x12, x14, #4, #4
	lsr	w14, w13, #24
	ldrb	w10, [x8, x10]
	ubfx	x13, x13, #16, #4
	strb	w11, [sp, #57]
	ldrb	w11, [x8, x12]
	strb	w10, [sp, #58]
	ldrb	w10, [x8, x13]
	lsr	x12, x14, #4
	strb	w11, [sp, #59]
	ldp	w11, w13, [x1, #24]
	strb	w10, [sp, #60]
	ldrb	w10, [x8, x12]
	and	x12, x14, #0xf
	ldrb	w12, [x8, x12]
	strb	w9, [sp, #72]
	rev	w11, w11
	strb	w10, [sp, #61]
	rev	w13, w13
	ubfx	x14, x11, #4, #4
	lsr	w10, w11, #8
	strb	w12, [sp, #62]
	strb	w9, [sp, #81]
	ldrb	w12, [x8, x14]
	and	x14, x11, #0xf
	ubfx	x10, x10, #4, #4
	ldrb	w14, [x8, x14]
	stur	wzr, [x29, #-72]
	strb	w12, [sp, #64]
	ldrb	w10, [x8, x10]
	lsr	w12, w11, #16
	strb	w14, [sp, #65]
	ubfx	x14, x11, #8, #4
	strb	w10, [sp, #66]
	lsr	w10, w11, #24
	ubfx	x12, x12, #4, #4
	ldrb	w14, [x8, x14]
	ubfx	x11, x11, #16, #4
	ldrb	w12, [x8, x12]
	strb	w14, [sp, #67]
	lsr	x14, x10, #4
	ldrb	w11, [x8, x11]
	strb	w12, [sp, #68]
	and	x10, x10, #0xf
	ldrb	w12, [x8, x14]
	strb	w11, [sp, #69]
	ubfx	x11, x13, #4, #4
	ldrb	w10, [x8, x10]
	and	x14, x13, #0xf
	strb	w12, [sp, #70]
	lsr	w12, w13, #8
	ldrb	w11, [x8, x11]
	strb	w10, [sp, #71]
	ldrb	w10, [x8, x14]
	lsr	w14, w13, #16
	strb	w11, [sp, #73]
	ubfx	x11, x12, #4, #4
	lsr	w12, w13, #24
	strb	w10, [sp, #74]
	ubfx	x10, x13, #8, #4
	ubfx	x14, x14, #4, #4
	ldrb	w11, [x8, x11]
	ubfx	x13, x13, #16, #4
	ldrb	w10, [x8, x10]
	strb	w11, [sp, #75]
	ldrb	w11, [x8, x14]
	lsr	x14, x12, #4
	and	x12, x12, #0xf
	strb	w10, [sp, #76]
	ldrb	w10, [x8, x13]
	strb	w11, [sp, #77]
	ldrb	w11, [x8, x14]
	ldrb	w8, [x8, x12]
	strb	w10, [sp, #78]
	strb	w8, [sp, #80]
	mov	w8, #73
	str	x8, [sp, #432]
	ldr	x8, [x1, #96]
	strb	w11, [sp, #79]
	cmp	x8, #10
	b.lo	2f
	mov	x9, x8
1:
	mov	x8, #-3689348814741910324
	mov	w10, #10
	sub	x11, x29, #88
	movk	x8, #52429
	cmp	x9, #99
	umulh	x8, x9, x8
	lsr	x8, x8, #3
	msub	w10, w8, w10, w9
	orr	w9, w10, #0x30
	strb	w9, [x11, x23]
	sub	x23, x23, #1
	mov	x9, x8
	b.hi	1b
2:
	sub	x9, x29, #88
	mov	w10, #20
	add	x0, x22, #74
	sub	x2, x10, x23
	add	x1, x9, x23
	orr	w8, w8, #0x30
	strb	w8, [x9, x23]
	vj_c_call	memcpy
	ldrb	w8, [x21, #104]
	sub	x9, x22, x23
	cmp	w8, #1
	add	x8, x9, #94
	b.ne	3f
	vj_page	x9, .L1_a64_static.42
	vj_address	x9, x9, .L1_a64_static.42
	sub	x9, x8, x9
	cmp	x9, #1
	mov	w9, #12576
	b	4f
3:
	vj_page	x9, .L1_a64_static.43
	vj_address	x9, x9, .L1_a64_static.43
	sub	x9, x8, x9
	cmp	x9, #1
	mov	w9, #12320
4:
	strh	w9, [x8]
	mov	w8, #96
	add	x0, sp, #8
	sub	x8, x8, x23
	add	x1, x21, #32
	mov	w2, #64
	str	x8, [sp, #432]
	add	x21, sp, #8
	bl	b2_commands..print..Line..add_block_1_a64
	ldr	x8, [sp, #432]
	mov	w9, #10
	strb	w9, [x21, x8]
	adds	x21, x8, #1
	str	x21, [sp, #432]
	b.hs	6f
	mov	x22, xzr
5:
	add	x8, sp, #8
	sub	x2, x21, x22
	mov	w0, #1
	add	x1, x8, x22
	sub	x24, x21, x22
	mov	w23, #1
	vj_system_call	write, b2_write
	tbnz	x0, #63, 7f
	cmp	x0, x24
	csel	x8, x0, x24, lo
	cbz	x8, 8f
	add	x22, x8, x22
	cmp	x22, x21
	b.lo	5b
6:
	mov	w23, wzr
	b	9f
7:
	sub	x0, x29, #88
	bl	std_io..io..error..last_error_1_a64
8:
	strb	w23, [x20]
9:
	cmp	w23, #0
	mov	w8, #9
	strb	w23, [x19]
	csel	x8, x8, xzr, ne
	stp	x8, xzr, [x19, #8]
	add	sp, sp, #528
	ldp	x20, x19, [sp, #64]
	ldr	x28, [sp, #16]
	ldp	x22, x21, [sp, #48]
	ldp	x24, x23, [sp, #32]
	ldp	x29, x30, [sp], #80
	ret
	vj_end	b2_commands..witness..print_blake2s..c1844c1740294036_1_a64

	vj_constants	16
	.p2align	4, 0x0
.L1_a64_CPI40_0:
	.short	64
	.short	512
	.zero	2
	.zero	2
	.zero	2
	.zero	2
	.zero	2
	.zero	2
.L1_a64_CPI40_1:
	.quad	7640891576956012808
	.quad	-4942790177534073029
.L1_a64_CPI40_2:
	.quad	4354685564936828970
	.quad	-6534734903238641935
.L1_a64_CPI40_3:
	.quad	5840696475078001361
	.quad	-7276294671716946913
.L1_a64_CPI40_4:
	.quad	2270897969802886507
	.quad	6620516959819538809
.L1_a64_CPI40_5:
	.short	32
	.short	512
	.zero	2
	.zero	2
	.zero	2
	.zero	2
	.zero	2
	.zero	2
.L1_a64_CPI40_6:
	.short	16
	.short	512
	.zero	2
	.zero	2
	.zero	2
	.zero	2
	.zero	2
	.zero	2
.L1_a64_CPI40_7:
	.quad	4354685564936828971
	.quad	-6534734903238641935
	vj_constants	8
	.p2align	3, 0x0
.L1_a64_CPI40_8:
	.short	64
	.short	512
	.zero	2
	.zero	2
	vj_function	b2_commands..tree..tree..c4a7301ddbaa7a35_1_a64
	stp	x29, x30, [sp, #-96]!
	sub	x9, sp, #2144
	stp	x28, x27, [sp, #16]
	mov	x29, sp
	stp	x26, x25, [sp, #32]
	stp	x24, x23, [sp, #48]
	stp	x22, x21, [sp, #64]
	stp	x20, x19, [sp, #80]
	and	sp, x9, #0xffffffffffffffe0
	str	xzr, [sp]
	mov	x19, x0
	add	x20, sp, #1808
	ldrb	w8, [x1]
	add	x9, sp, #928
	add	x21, sp, #288
	cbz	w8, 2f
	ldrb	w8, [x1, #1]
	ldr	w11, [x1, #4]
	cmp	w8, #2
	b.eq	4f
	cmp	w8, #1
	b.ne	6f
	movi	v0.2d, #0000000000000000
	ldrb	w8, [x1, #40]
	cmp	w8, #1
	stp	q0, q0, [x9, #512]
	stp	q0, q0, [sp, #224]
	stp	q0, q0, [x20, #144]
	b.ne	12f
	ldp	x25, x27, [x1, #48]
	ldrb	w8, [x1, #72]
	cmp	w8, #1
	b.eq	13f
1:
	mov	x24, xzr
	vj_page	x26, .L1_a64_static.0
	vj_address	x26, x26, .L1_a64_static.0
	mov	x22, xzr
	cmp	x27, #16
	mov	w23, #2
	mov	w28, #1
	b.ls	14f
	b	235f
2:
	ldrb	w8, [x1, #1]
	ldr	w27, [x1, #4]
	stp	x3, x19, [sp, #64]
	str	x2, [sp, #48]
	cmp	w8, #2
	b.eq	8f
	cmp	w8, #1
	b.ne	10f
	add	x0, sp, #288
	mov	x19, x1
	mov	w1, wzr
	mov	w2, #624
	vj_c_call	memset
	movi	v0.2d, #0000000000000000
	ldrb	w9, [x19, #40]
	mov	x8, x19
	cmp	w9, #1
	stp	q0, q0, [sp, #224]
	b.ne	24f
	ldp	x20, x22, [x8, #48]
	ldrb	w9, [x8, #72]
	ldr	x19, [sp, #72]
	cmp	w9, #1
	b.eq	25f
3:
	mov	x26, xzr
	vj_page	x25, .L1_a64_static.0
	vj_address	x25, x25, .L1_a64_static.0
	cmp	x22, #16
	mov	w23, #2
	mov	w28, #1
	b.ls	26f
	b	234f
4:
	movi	v0.2d, #0000000000000000
	ldrb	w8, [x1, #40]
	cmp	w8, #1
	stp	q0, q0, [x20]
	stp	q0, q0, [x20, #32]
	stp	q0, q0, [sp, #224]
	stp	q0, q0, [x20, #144]
	b.ne	16f
	ldp	x25, x27, [x1, #48]
	ldrb	w8, [x1, #72]
	cmp	w8, #1
	b.eq	17f
5:
	mov	x24, xzr
	vj_page	x26, .L1_a64_static.0
	vj_address	x26, x26, .L1_a64_static.0
	mov	x22, xzr
	cmp	x27, #16
	mov	w23, #2
	mov	w28, #1
	b.ls	18f
	b	235f
6:
	movi	v0.2d, #0000000000000000
	ldrb	w8, [x1, #40]
	stp	xzr, xzr, [x20, #152]
	stp	xzr, xzr, [x20, #136]
	cmp	w8, #1
	str	xzr, [x20, #128]
	stp	q0, q0, [x9, #512]
	stp	q0, q0, [sp, #224]
	b.ne	20f
	ldp	x26, x24, [x1, #48]
	ldrb	w8, [x1, #72]
	cmp	w8, #1
	b.eq	21f
7:
	mov	x25, xzr
	vj_page	x27, .L1_a64_static.0
	vj_address	x27, x27, .L1_a64_static.0
	mov	x22, xzr
	cmp	x24, #16
	mov	w23, #2
	mov	w28, #1
	b.ls	22f
	b	235f
8:
	add	x0, sp, #288
	mov	x19, x1
	mov	w1, wzr
	mov	w2, #624
	vj_c_call	memset
	movi	v0.2d, #0000000000000000
	ldrb	w9, [x19, #40]
	mov	x8, x19
	cmp	w9, #1
	stp	q0, q0, [sp, #224]
	stp	q0, q0, [sp, #256]
	b.ne	27f
	ldp	x20, x22, [x8, #48]
	ldrb	w9, [x8, #72]
	ldr	x19, [sp, #72]
	cmp	w9, #1
	b.eq	28f
9:
	mov	x26, xzr
	vj_page	x25, .L1_a64_static.0
	vj_address	x25, x25, .L1_a64_static.0
	cmp	x22, #16
	mov	w23, #2
	mov	w28, #1
	b.ls	29f
	b	234f
10:
	mov	x19, x1
	add	x0, sp, #288
	mov	w1, wzr
	mov	w2, #624
	stp	xzr, xzr, [sp, #232]
	str	xzr, [sp, #224]
	vj_c_call	memset
	ldrb	w9, [x19, #40]
	mov	x8, x19
	stp	xzr, xzr, [x20, #144]
	cmp	w9, #1
	b.ne	30f
	ldp	x20, x25, [x8, #48]
	ldrb	w9, [x8, #72]
	ldr	x19, [sp, #72]
	cmp	w9, #1
	b.eq	31f
11:
	mov	x24, xzr
	vj_page	x26, .L1_a64_static.0
	vj_address	x26, x26, .L1_a64_static.0
	mov	x22, xzr
	cmp	x25, #16
	mov	w23, #2
	mov	w28, #1
	b.ls	32f
	b	235f
12:
	mov	x27, xzr
	vj_page	x25, .L1_a64_static.0
	vj_address	x25, x25, .L1_a64_static.0
	ldrb	w8, [x1, #72]
	cmp	w8, #1
	b.ne	1b
13:
	ldp	x26, x24, [x1, #80]
	mov	x22, xzr
	cmp	x27, #16
	mov	w23, #2
	mov	w28, #1
	b.hi	235f
14:
	cmp	x24, #16
	b.hi	235f
	add	x0, sp, #224
	mov	x1, x2
	mov	w20, w11
	str	x3, [sp, #64]
	bl	b2_commands..input..read_all..d6f7c226d1d4af0a_1_a64
	ldp	x9, x22, [sp, #232]
	ldrb	w8, [sp, #224]
	cbnz	w8, 23f
	ldr	x23, [sp, #248]
	add	x0, sp, #1952
	mov	x1, x9
	mov	x2, x22
	str	x9, [sp, #176]
	bl	b2_commands..leaf_lines..digests_of_1_a64
	add	x28, sp, #1808
	ldrb	w8, [sp, #1952]
	ldp	x9, x22, [x28, #152]
	str	x9, [sp, #192]
	cbnz	w8, 34f
	str	x23, [sp, #160]
	ldr	x23, [x28, #168]
	add	x0, sp, #1984
	mov	x1, x25
	mov	x2, x27
	str	x19, [sp, #72]
	stp	xzr, xzr, [x28, #176]
	vj_c_call	memcpy
	add	x0, sp, #2000
	mov	x1, x26
	mov	x2, x24
	stp	xzr, xzr, [x28, #192]
	vj_c_call	memcpy
	vj_page	x8, .L1_a64_CPI40_5
	movi	v3.2d, #0000000000000000
	add	x0, sp, #288
	vj_load	q0, x8, .L1_a64_CPI40_5
	ldp	q1, q2, [x28, #176]
	add	x1, sp, #1808
	mov	x2, x27
	str	x27, [x28, #16]
	mov	v0.s[1], w20
	str	x24, [x28, #40]
	add	x19, sp, #1808
	str	q1, [x28]
	movi	v1.2d, #0000000000000000
	stur	q2, [x28, #24]
	str	w20, [sp, #1856]
	add	x20, sp, #288
	mov	v3.d[0], v0.d[0]
	str	wzr, [sp, #1860]
	stp	q1, q1, [sp, #288]
	str	q3, [sp, #144]
	vj_c_call	memcpy
	orr	x0, x20, #0x10
	add	x1, x19, #24
	mov	x2, x24
	vj_c_call	memcpy
	vj_page	x8, .L1_a64_CPI40_1
	ldr	q5, [sp, #144]
	vj_page	x9, .L1_a64_CPI40_4
	vj_load	q0, x8, .L1_a64_CPI40_1
	vj_page	x8, .L1_a64_CPI40_2
	vj_load	q3, x9, .L1_a64_CPI40_4
	ldp	q2, q1, [sp, #288]
	vj_page	x9, .L1_a64_CPI40_3
	eor	v0.16b, v5.16b, v0.16b
	vj_load	q5, x8, .L1_a64_CPI40_2
	vj_load	q4, x9, .L1_a64_CPI40_3
	add	x25, sp, #928
	mov	w8, #1
	cmp	x22, #128
	eor	v1.16b, v1.16b, v3.16b
	eor	v2.16b, v2.16b, v4.16b
	add	x20, sp, #928
	stp	q0, q5, [x25]
	stp	q0, q5, [x25, #64]
	movi	v0.2d, #0000000000000000
	stp	q2, q1, [x25, #32]
	stp	q2, q1, [x25, #96]
	str	xzr, [x25, #272]
	stp	q0, q0, [x25, #128]
	stp	q0, q0, [x25, #160]
	stp	q0, q0, [x25, #192]
	stp	q0, q0, [x25, #224]
	str	q0, [x25, #256]
	strb	w8, [sp, #1064]
	b.ls	211f
	mov	x26, x23
	sub	x8, x22, #1
	ldr	x23, [sp, #192]
	lsr	x24, x8, #7
	ldr	x27, [sp, #160]
	mov	x19, x23
15:
	ldr	x8, [x25, #128]
	add	x0, sp, #928
	mov	x1, x23
	mov	w3, wzr
	mov	w4, wzr
	add	x2, x8, #128
	str	x2, [x25, #128]
	vj_call	blake2_compress..compress..blake2b..compress_1_arm
	subs	x24, x24, #1
	add	x23, x23, #128
	b.ne	15b
	movi	v0.2d, #0000000000000000
	sub	x8, x22, #1
	add	x0, x20, #144
	and	x8, x8, #0xffffffffffffff80
	sub	x22, x22, x8
	add	x1, x19, x8
	mov	x2, x22
	stp	q0, q0, [x20, #144]
	stp	q0, q0, [x20, #176]
	stp	q0, q0, [x20, #208]
	stp	q0, q0, [x20, #240]
	vj_c_call	memcpy
	mov	x23, x26
	mov	x26, x19
	b	212f
16:
	mov	x27, xzr
	vj_page	x25, .L1_a64_static.0
	vj_address	x25, x25, .L1_a64_static.0
	ldrb	w8, [x1, #72]
	cmp	w8, #1
	b.ne	5b
17:
	ldp	x26, x24, [x1, #80]
	mov	x22, xzr
	cmp	x27, #16
	mov	w23, #2
	mov	w28, #1
	b.hi	235f
18:
	cmp	x24, #16
	b.hi	235f
	add	x0, sp, #224
	mov	x1, x2
	mov	w20, w11
	str	x3, [sp, #64]
	bl	b2_commands..input..read_all..d6f7c226d1d4af0a_1_a64
	ldp	x9, x22, [sp, #232]
	ldrb	w8, [sp, #224]
	cbnz	w8, 23f
	ldr	x23, [sp, #248]
	add	x0, sp, #1952
	mov	x1, x9
	mov	x2, x22
	str	x9, [sp, #176]
	bl	b2_commands..leaf_lines..digests_of_1_a64
	add	x28, sp, #1808
	ldrb	w8, [sp, #1952]
	ldp	x9, x22, [x28, #152]
	str	x9, [sp, #192]
	cbnz	w8, 34f
	str	x23, [sp, #160]
	ldr	x23, [x28, #168]
	add	x0, sp, #1984
	mov	x1, x25
	mov	x2, x27
	str	x19, [sp, #72]
	stp	xzr, xzr, [x28, #176]
	vj_c_call	memcpy
	add	x0, sp, #2000
	mov	x1, x26
	mov	x2, x24
	stp	xzr, xzr, [x28, #192]
	vj_c_call	memcpy
	vj_page	x8, .L1_a64_CPI40_0
	movi	v3.2d, #0000000000000000
	add	x0, sp, #288
	vj_load	q0, x8, .L1_a64_CPI40_0
	ldp	q1, q2, [x28, #176]
	add	x8, sp, #928
	add	x1, sp, #1440
	mov	x2, x27
	mov	v0.s[1], w20
	str	x27, [x8, #528]
	add	x19, sp, #1440
	str	q1, [x8, #512]
	movi	v1.2d, #0000000000000000
	add	x8, sp, #1440
	stur	q2, [x8, #24]
	add	x25, sp, #928
	str	x24, [x8, #40]
	mov	v3.d[0], v0.d[0]
	str	w20, [sp, #1488]
	add	x20, sp, #288
	str	wzr, [sp, #1492]
	stp	q1, q1, [sp, #288]
	str	q3, [sp, #144]
	vj_c_call	memcpy
	orr	x0, x20, #0x10
	add	x1, x19, #24
	mov	x2, x24
	vj_c_call	memcpy
	vj_page	x8, .L1_a64_CPI40_1
	ldr	q5, [sp, #144]
	vj_page	x9, .L1_a64_CPI40_4
	vj_load	q0, x8, .L1_a64_CPI40_1
	vj_page	x8, .L1_a64_CPI40_2
	vj_load	q3, x9, .L1_a64_CPI40_4
	ldp	q2, q1, [sp, #288]
	vj_page	x9, .L1_a64_CPI40_3
	eor	v0.16b, v5.16b, v0.16b
	vj_load	q5, x8, .L1_a64_CPI40_2
	vj_load	q4, x9, .L1_a64_CPI40_3
	mov	w8, #1
	cmp	x22, #128
	add	x20, sp, #928
	eor	v1.16b, v1.16b, v3.16b
	eor	v2.16b, v2.16b, v4.16b
	str	xzr, [x25, #272]
	stp	q0, q5, [x25]
	stp	q0, q5, [x25, #64]
	movi	v0.2d, #0000000000000000
	stp	q2, q1, [x25, #32]
	stp	q2, q1, [x25, #96]
	stp	q0, q0, [x25, #128]
	stp	q0, q0, [x25, #160]
	stp	q0, q0, [x25, #192]
	stp	q0, q0, [x25, #224]
	str	q0, [x25, #256]
	strb	w8, [sp, #1064]
	b.ls	215f
	mov	x26, x23
	sub	x8, x22, #1
	ldr	x23, [sp, #192]
	lsr	x24, x8, #7
	ldr	x27, [sp, #160]
	mov	x19, x23
19:
	ldr	x8, [x25, #128]
	add	x0, sp, #928
	mov	x1, x23
	mov	w3, wzr
	mov	w4, wzr
	add	x2, x8, #128
	str	x2, [x25, #128]
	vj_call	blake2_compress..compress..blake2b..compress_1_arm
	subs	x24, x24, #1
	add	x23, x23, #128
	b.ne	19b
	movi	v0.2d, #0000000000000000
	sub	x8, x22, #1
	add	x0, x20, #144
	and	x8, x8, #0xffffffffffffff80
	sub	x22, x22, x8
	add	x1, x19, x8
	mov	x2, x22
	stp	q0, q0, [x20, #144]
	stp	q0, q0, [x20, #176]
	stp	q0, q0, [x20, #208]
	stp	q0, q0, [x20, #240]
	vj_c_call	memcpy
	mov	x23, x26
	mov	x26, x19
	b	216f
20:
	mov	x24, xzr
	vj_page	x26, .L1_a64_static.0
	vj_address	x26, x26, .L1_a64_static.0
	ldrb	w8, [x1, #72]
	cmp	w8, #1
	b.ne	7b
21:
	ldp	x27, x25, [x1, #80]
	mov	x22, xzr
	cmp	x24, #16
	mov	w23, #2
	mov	w28, #1
	b.hi	235f
22:
	cmp	x25, #16
	b.hi	235f
	add	x0, sp, #1440
	mov	x1, x2
	mov	w20, w11
	str	x3, [sp, #64]
	bl	b2_commands..input..read_all..d6f7c226d1d4af0a_1_a64
	add	x28, sp, #928
	ldrb	w8, [sp, #1440]
	ldr	x9, [x28, #520]
	ldr	x22, [x28, #528]
	cbz	w8, 33f
23:
	mov	w28, #1
	mov	w23, w9
	b	235f
24:
	mov	x22, xzr
	vj_page	x20, .L1_a64_static.0
	vj_address	x20, x20, .L1_a64_static.0
	ldrb	w9, [x8, #72]
	ldr	x19, [sp, #72]
	cmp	w9, #1
	b.ne	3b
25:
	ldp	x25, x26, [x8, #80]
	cmp	x22, #16
	mov	w23, #2
	mov	w28, #1
	b.hi	234f
26:
	cmp	x26, #16
	b.hi	234f
	cbz	w27, 236f
	mov	w8, #65536
	mov	w9, #4
	udiv	w8, w8, w27
	lsr	w8, w8, #2
	cmp	w8, #4
	csel	w8, w8, w9, hi
	mov	w9, #1
	orr	w8, w9, w8, lsl #2
	umull	x24, w27, w8
	mov	w8, #16777216
	cmp	x24, x8
	b.ls	37f
	mov	w8, #13108
	movk	w8, #51, lsl #16
	cmp	w27, w8
	b.hs	36f
	mov	w8, #16777216
	udiv	w8, w8, w27
	sub	x8, x8, #1
	and	x8, x8, #0xfffffffffffffffc
	orr	x8, x8, #0x1
	mul	x24, x8, x27
	b	37f
27:
	mov	x22, xzr
	vj_page	x20, .L1_a64_static.0
	vj_address	x20, x20, .L1_a64_static.0
	ldrb	w9, [x8, #72]
	ldr	x19, [sp, #72]
	cmp	w9, #1
	b.ne	9b
28:
	ldp	x25, x26, [x8, #80]
	cmp	x22, #16
	mov	w23, #2
	mov	w28, #1
	b.hi	234f
29:
	cmp	x26, #16
	b.hi	234f
	cbz	w27, 236f
	mov	w8, #65536
	mov	w9, #4
	udiv	w8, w8, w27
	lsr	w8, w8, #2
	cmp	w8, #4
	csel	w8, w8, w9, hi
	mov	w9, #1
	orr	w8, w9, w8, lsl #2
	umull	x24, w27, w8
	mov	w8, #16777216
	cmp	x24, x8
	b.ls	90f
	mov	w8, #13108
	movk	w8, #51, lsl #16
	cmp	w27, w8
	b.hs	89f
	mov	w8, #16777216
	udiv	w8, w8, w27
	sub	x8, x8, #1
	and	x8, x8, #0xfffffffffffffffc
	orr	x8, x8, #0x1
	mul	x24, x8, x27
	b	90f
30:
	mov	x25, xzr
	vj_page	x20, .L1_a64_static.0
	vj_address	x20, x20, .L1_a64_static.0
	ldrb	w9, [x8, #72]
	ldr	x19, [sp, #72]
	cmp	w9, #1
	b.ne	11b
31:
	ldp	x26, x24, [x8, #80]
	mov	x22, xzr
	cmp	x25, #16
	mov	w23, #2
	mov	w28, #1
	b.hi	235f
32:
	cmp	x24, #16
	b.hi	235f
	cbz	w27, 236f
	mov	w8, #65536
	mov	w9, #4
	udiv	w8, w8, w27
	lsr	w8, w8, #2
	cmp	w8, #4
	csel	w8, w8, w9, hi
	mov	w9, #1
	orr	w8, w9, w8, lsl #2
	umull	x23, w27, w8
	mov	w8, #16777216
	cmp	x23, x8
	b.ls	147f
	mov	w8, #13108
	movk	w8, #51, lsl #16
	cmp	w27, w8
	b.hs	146f
	mov	w8, #16777216
	udiv	w8, w8, w27
	sub	x8, x8, #1
	and	x8, x8, #0xfffffffffffffffc
	orr	x8, x8, #0x1
	mul	x23, x8, x27
	b	147f
33:
	ldr	x23, [x28, #536]
	add	x0, sp, #224
	mov	x1, x9
	mov	x2, x22
	str	x9, [sp, #176]
	bl	b2_commands..leaf_lines..digests_of_1_a64
	ldp	x9, x22, [sp, #232]
	ldrb	w8, [sp, #224]
	str	x9, [sp, #192]
	cbz	w8, 198f
34:
	cbz	x23, 35f
	ldr	x0, [sp, #176]
	vj_call	rattle_dealloc
35:
	mov	w28, #1
	ldr	x23, [sp, #192]
	b	235f
36:
	mov	w24, #65536
37:
	mov	x0, x24
	mov	w1, #1
	mov	w28, #1
	vj_call	rattle_alloc
	tbz	w0, #0, 142f
	mov	x23, x1
	sub	x2, x24, #1
	mov	x0, x1
	mov	w1, wzr
	sub	x19, x24, #1
	vj_c_call	memset
	mov	x1, x20
	add	x20, sp, #1440
	add	x0, sp, #1808
	mov	x2, x22
	strb	wzr, [x23, x19]
	stp	xzr, xzr, [x20, #368]
	vj_c_call	memcpy
	add	x19, sp, #1808
	add	x0, sp, #2016
	mov	x1, x25
	mov	x2, x26
	stp	xzr, xzr, [x19, #208]
	vj_c_call	memcpy
	vj_page	x8, .L1_a64_CPI40_0
	ldr	q0, [x20, #368]
	movi	v2.2d, #0000000000000000
	vj_load	q1, x8, .L1_a64_CPI40_0
	add	x8, sp, #928
	add	x0, sp, #1504
	str	q0, [x8]
	ldr	q0, [x19, #208]
	add	x1, sp, #928
	mov	v1.s[1], w27
	mov	x2, x22
	str	x22, [x8, #16]
	stur	q0, [x8, #24]
	movi	v0.2d, #0000000000000000
	add	x25, sp, #928
	str	x26, [x8, #40]
	add	x28, sp, #1504
	str	w27, [sp, #976]
	mov	v2.d[0], v1.d[0]
	str	wzr, [sp, #980]
	stp	q0, q0, [x20, #64]
	str	q2, [sp, #144]
	vj_c_call	memcpy
	orr	x0, x28, #0x10
	add	x1, x25, #24
	mov	x2, x26
	vj_c_call	memcpy
	vj_page	x8, .L1_a64_CPI40_5
	movi	v4.2d, #0000000000000000
	add	x0, sp, #1504
	vj_load	q0, x8, .L1_a64_CPI40_5
	vj_page	x8, .L1_a64_CPI40_1
	add	x1, sp, #928
	vj_load	q6, x8, .L1_a64_CPI40_1
	ldp	q2, q1, [x20, #64]
	mov	v0.s[1], w27
	vj_page	x8, .L1_a64_CPI40_3
	mov	x2, x22
	vj_load	q3, x8, .L1_a64_CPI40_3
	vj_page	x8, .L1_a64_CPI40_4
	str	q6, [sp, #192]
	vj_load	q5, x8, .L1_a64_CPI40_4
	vj_page	x8, .L1_a64_CPI40_7
	stp	q5, q3, [sp, #160]
	mov	v4.d[0], v0.d[0]
	ldr	q0, [sp, #144]
	eor	v0.16b, v0.16b, v6.16b
	str	q0, [sp, #96]
	eor	v0.16b, v2.16b, v3.16b
	stp	q0, q4, [sp, #112]
	eor	v0.16b, v1.16b, v5.16b
	str	q0, [sp, #80]
	vj_load	q0, x8, .L1_a64_CPI40_7
	str	q0, [sp, #144]
	movi	v0.2d, #0000000000000000
	stp	q0, q0, [x20, #64]
	vj_c_call	memcpy
	orr	x0, x28, #0x10
	add	x1, x25, #24
	mov	x2, x26
	vj_c_call	memcpy
	ldr	q1, [x19, #208]
	ldr	q0, [x20, #368]
	add	x9, sp, #57
	ldp	q3, q5, [sp, #144]
	add	x8, sp, #1440
	stur	q1, [x9, #255]
	ldp	q2, q1, [sp, #80]
	str	q0, [sp, #288]
	movi	v4.2d, #0000000000000000
	add	x28, sp, #288
	ldr	q0, [sp, #112]
	str	x22, [sp, #304]
	mov	x22, xzr
	stp	q1, q3, [x21, #64]
	stp	q0, q2, [x21, #96]
	stp	q1, q3, [x21, #128]
	ldr	q3, [sp, #128]
	stp	q0, q2, [x21, #160]
	ldp	q1, q0, [x8, #64]
	vj_page	x8, .L1_a64_CPI40_2
	str	x26, [sp, #328]
	str	w27, [sp, #336]
	add	x27, sp, #928
	eor	v0.16b, v0.16b, v5.16b
	ldp	q5, q2, [sp, #176]
	eor	v2.16b, v3.16b, v2.16b
	vj_load	q3, x8, .L1_a64_CPI40_2
	add	x8, x21, #344
	str	wzr, [sp, #340]
	eor	v1.16b, v1.16b, v5.16b
	str	xzr, [x21, #56]
	stp	q2, q3, [x8]
	stp	q2, q3, [x8, #64]
	stp	q1, q0, [x8, #32]
	stp	q1, q0, [x8, #96]
	add	x8, x28, #472
	str	xzr, [x21, #336]
	stp	q4, q4, [x21, #208]
	stp	q4, q4, [x21, #240]
	stp	q4, q4, [x21, #272]
	stp	q4, q4, [x21, #304]
	str	q4, [x21, #192]
	stp	q4, q4, [x8, #16]
	stp	q4, q4, [x8, #48]
	stp	q4, q4, [x8, #80]
	stp	q4, q4, [x8, #112]
	str	q4, [x8]
	str	xzr, [x21, #616]
	stp	x24, x23, [sp, #32]
	b	39f
38:
	add	x0, x28, #208
	add	x4, x28, #64
	mov	x1, x25
	mov	x2, x23
	mov	x3, x22
	bl	blake2_digest..buffer..digest_into..33c1e97afcdf8a5d_1_a64
	ldp	x24, x23, [sp, #32]
	mov	x22, xzr
	ldr	x8, [sp, #56]
	str	x0, [x21, #336]
	cmp	x8, x24
	b.lo	203f
39:
	add	x1, x23, x22
	sub	x2, x24, x22
	mov	w0, wzr
	sub	x19, x24, x22
	vj_system_call	read, b2_read
	tbnz	x0, #63, 143f
	cmp	x0, x19
	csel	x8, x0, x19, lo
	cbz	x8, 40f
	add	x22, x8, x22
	add	x19, sp, #1440
	cmp	x22, x24
	b.lo	39b
	b	41f
40:
	add	x19, sp, #1440
41:
	add	x8, x28, #488
	ldr	x26, [x21, #56]
	ldr	w9, [sp, #336]
	str	x8, [sp, #80]
	ldr	x8, [x21, #192]
	mov	x12, #288230376151711744
	ldr	x25, [x21, #336]
	add	x10, x25, x8
	madd	x11, x26, x9, x10
	sub	x11, x12, x11
	cmp	x11, x22
	b.ls	144f
	sub	x24, x9, x10
	str	x22, [sp, #56]
	cmp	x24, x22
	b.lo	45f
	b	38b
42:
	ldp	q0, q1, [x19, #368]
	add	x9, x26, x8
	add	x25, x8, #64
	stp	q0, q1, [x9]
	ldp	q0, q2, [x19, #400]
	stp	q0, q2, [x9, #32]
43:
	ldr	x8, [x21, #56]
	str	x25, [x21, #616]
	ldr	w20, [sp, #336]
	ldr	x25, [x21, #336]
	add	x26, x8, #1
	ldr	x8, [x21, #192]
	str	x26, [x21, #56]
44:
	mov	w9, w20
	add	x10, x8, x25
	sub	x22, x22, x24
	add	x23, x23, x24
	sub	x24, x9, x10
	cmp	x24, x22
	b.hs	38b
45:
	cmn	x25, x8
	b.ne	49f
	lsl	x8, x9, #2
	cmp	x8, x22
	b.hs	49f
	movi	v0.2d, #0000000000000000
	add	x0, sp, #288
	add	x4, sp, #928
	mov	x1, x26
	mov	x2, x23
	mov	x3, x22
	stp	q0, q0, [x27]
	stp	q0, q0, [x27, #32]
	stp	q0, q0, [x27, #64]
	stp	q0, q0, [x27, #96]
	stp	q0, q0, [x27, #128]
	stp	q0, q0, [x27, #160]
	stp	q0, q0, [x27, #192]
	stp	q0, q0, [x27, #224]
	stp	q0, q0, [x27, #256]
	stp	q0, q0, [x27, #288]
	stp	q0, q0, [x27, #320]
	stp	q0, q0, [x27, #352]
	stp	q0, q0, [x27, #384]
	stp	q0, q0, [x27, #416]
	stp	q0, q0, [x27, #448]
	stp	q0, q0, [x27, #480]
	vj_call	blake2_tree..nodes..Nodes..hash_next_1_arm
	ldr	x20, [x21, #616]
	lsl	x25, x0, #6
	mov	w8, #128
	mov	x24, x0
	sub	x2, x8, x20
	ldr	w8, [sp, #336]
	subs	x19, x25, x2
	str	x8, [sp, #128]
	b.ls	58f
	add	x27, sp, #928
	add	x8, x28, #488
	cbz	x20, 46f
	add	x0, x8, x20
	add	x1, sp, #928
	add	x27, x27, x2
	vj_c_call	memcpy
	ldr	x8, [x21, #472]
	add	x0, x21, #344
	add	x1, x28, #488
	mov	w3, wzr
	mov	w4, wzr
	add	x2, x8, #128
	str	x2, [x21, #472]
	vj_call	blake2_compress..compress..blake2b..compress_1_arm
	mov	x25, x19
46:
	cmp	x25, #0
	cset	w8, ne
	sub	x19, x25, x8
	lsr	x20, x19, #7
	cbz	x20, 48f
	mov	x26, x27
47:
	ldr	x8, [x21, #472]
	add	x0, x21, #344
	mov	x1, x26
	mov	w3, wzr
	mov	w4, wzr
	add	x2, x8, #128
	str	x2, [x21, #472]
	vj_call	blake2_compress..compress..blake2b..compress_1_arm
	subs	x20, x20, #1
	add	x26, x26, #128
	b.ne	47b
48:
	movi	v0.2d, #0000000000000000
	and	x8, x19, #0xffffffffffffff80
	add	x10, x28, #488
	sub	x25, x25, x8
	add	x0, x28, #488
	add	x1, x27, x8
	mov	x2, x25
	stp	q0, q0, [x10]
	stp	q0, q0, [x10, #32]
	stp	q0, q0, [x10, #64]
	stp	q0, q0, [x10, #96]
	vj_c_call	memcpy
	add	x27, sp, #928
	b	59f
49:
	mov	w8, #128
	sub	x26, x8, x25
	subs	x8, x24, x26
	b.ls	53f
	mov	x20, x24
	mov	x27, x23
	cbz	x25, 63f
	add	x13, x28, #208
	mov	x20, x8
	add	x0, x13, x25
	sub	x8, x0, x23
	cmp	x8, x26
	b.hs	61f
	cmp	x26, #8
	b.lo	50f
	add	x8, x13, x25
	sub	x8, x8, x23
	cmp	x8, #32
	b.hs	70f
50:
	mov	x8, xzr
51:
	add	x9, x8, x25
	add	x8, x23, x8
52:
	ldrb	w10, [x8], #1
	strb	w10, [x13, x9]
	add	x9, x9, #1
	cmp	x9, #128
	b.ne	52b
	b	62f
53:
	add	x13, x28, #208
	add	x8, x13, x25
	sub	x8, x8, x23
	cmp	x8, x24
	b.hs	60f
	cmp	x24, #8
	add	x26, x28, #488
	b.lo	54f
	add	x8, x13, x25
	sub	x8, x8, x23
	cmp	x8, #32
	b.hs	68f
54:
	mov	x8, xzr
55:
	add	x10, x8, x25
	sub	x9, x24, x8
	add	x8, x23, x8
	add	x10, x13, x10
56:
	ldrb	w11, [x8], #1
	subs	x9, x9, #1
	strb	w11, [x10], #1
	b.ne	56b
57:
	add	x25, x25, x24
	b	82f
58:
	ldr	x8, [sp, #80]
	add	x1, sp, #928
	mov	x2, x25
	add	x0, x8, x20
	vj_c_call	memcpy
	add	x25, x20, x25
59:
	mov	w8, #64
	ldr	s0, [sp, #336]
	ldr	x9, [x21, #56]
	fmov	s1, w8
	mov	w8, #512
	and	x10, x24, #0x3ffffffffffffff
	ushll	v0.4s, v0.4h, #0
	add	x26, x9, x10
	movi	v2.2d, #0000000000000000
	str	x25, [x21, #616]
	ldr	x9, [sp, #128]
	ldr	x2, [sp, #304]
	mov	v1.h[1], w8
	str	x26, [x21, #56]
	ldr	x25, [sp, #328]
	mov	w8, v0.s[1]
	str	h0, [sp, #216]
	add	x19, sp, #1440
	add	x0, sp, #1504
	add	x1, sp, #288
	mul	x24, x24, x9
	mov	v1.h[2], v0.h[0]
	strh	w8, [sp, #218]
	ldr	w20, [sp, #216]
	stp	q2, q2, [x19, #64]
	mov	v1.h[3], w8
	mov	v3.16b, v1.16b
	fmov	d1, x26
	mov	v3.d[1], v1.d[0]
	str	q3, [sp, #128]
	vj_c_call	memcpy
	add	x8, sp, #1504
	add	x1, x28, #24
	mov	x2, x25
	orr	x0, x8, #0x10
	vj_c_call	memcpy
	ldp	q1, q4, [sp, #128]
	mov	x25, xzr
	ldr	q0, [sp, #192]
	ldr	q3, [sp, #160]
	mov	x8, xzr
	str	xzr, [x28, #336]
	eor	v0.16b, v1.16b, v0.16b
	ldp	q2, q1, [x19, #64]
	eor	v1.16b, v1.16b, v3.16b
	ldr	q3, [sp, #176]
	stp	q0, q4, [x21, #64]
	stp	q0, q4, [x21, #128]
	movi	v0.2d, #0000000000000000
	eor	v2.16b, v2.16b, v3.16b
	stp	q2, q1, [x21, #96]
	stp	q2, q1, [x21, #160]
	stp	q0, q0, [x28, #192]
	stp	q0, q0, [x28, #224]
	stp	q0, q0, [x28, #256]
	stp	q0, q0, [x28, #288]
	str	q0, [x28, #320]
	b	44b
60:
	add	x0, x13, x25
	mov	x1, x23
	mov	x2, x24
	vj_c_call	memmove
	add	x26, x28, #488
	add	x25, x25, x24
	b	82f
61:
	mov	x1, x23
	mov	x2, x26
	vj_c_call	memmove
62:
	ldr	x8, [x21, #192]
	add	x0, x28, #64
	add	x1, x28, #208
	mov	w3, wzr
	mov	w4, wzr
	add	x27, x23, x26
	add	x2, x8, #128
	str	x2, [x21, #192]
	vj_call	blake2_compress..compress..blake2b..compress_1_arm
63:
	cmp	x20, #0
	cset	w8, ne
	sub	x19, x20, x8
	lsr	x26, x19, #7
	cbz	x26, 65f
	mov	x25, x27
64:
	ldr	x8, [x21, #192]
	add	x0, x28, #64
	mov	x1, x25
	mov	w3, wzr
	mov	w4, wzr
	add	x2, x8, #128
	str	x2, [x21, #192]
	vj_call	blake2_compress..compress..blake2b..compress_1_arm
	subs	x26, x26, #1
	add	x25, x25, #128
	b.ne	64b
65:
	movi	v0.2d, #0000000000000000
	and	x8, x19, #0xffffffffffffff80
	add	x14, x28, #208
	add	x1, x27, x8
	sub	x25, x20, x8
	sub	x9, x14, x1
	cmp	x9, x25
	stp	q0, q0, [x14]
	stp	q0, q0, [x14, #32]
	stp	q0, q0, [x14, #64]
	stp	q0, q0, [x14, #96]
	b.hs	66f
	cmp	x25, #8
	add	x26, x28, #488
	b.hs	67f
	mov	x9, xzr
	add	x19, sp, #1440
	b	79f
66:
	add	x0, x28, #208
	mov	x2, x25
	vj_c_call	memmove
	add	x27, sp, #928
	add	x19, sp, #1440
	add	x26, x28, #488
	b	82f
67:
	add	x9, x8, x27
	add	x19, sp, #1440
	sub	x9, x14, x9
	cmp	x9, #32
	b.hs	69f
	mov	x9, xzr
	b	79f
68:
	cmp	x24, #32
	b.hs	71f
	mov	x8, xzr
	b	73f
69:
	cmp	x25, #32
	b.hs	75f
	mov	x9, xzr
	b	77f
70:
	cmp	x26, #32
	b.hs	85f
	mov	x8, xzr
	b	87f
71:
	add	x11, x28, #224
	and	x9, x24, #0x18
	and	x8, x24, #0xffffffffffffffe0
	add	x10, x23, #16
	add	x11, x11, x25
	and	x12, x24, #0xffffffffffffffe0
72:
	ldp	q0, q1, [x10, #-16]
	subs	x12, x12, #32
	add	x10, x10, #32
	stp	q0, q1, [x11, #-16]
	add	x11, x11, #32
	b.ne	72b
	cmp	x24, x8
	b.eq	57b
	cbz	x9, 55b
73:
	mov	x10, x8
	and	x8, x24, #0xfffffffffffffff8
	add	x11, x25, x10
	sub	x9, x10, x8
	add	x10, x23, x10
	add	x11, x13, x11
74:
	ldr	d0, [x10], #8
	adds	x9, x9, #8
	str	d0, [x11], #8
	b.ne	74b
	cmp	x24, x8
	b.eq	57b
	b	55b
75:
	and	x10, x20, #0x1f
	add	x11, x27, x8
	add	x12, x28, #224
	sub	x9, x25, x10
	add	x11, x11, #16
	sub	x13, x25, x10
76:
	ldp	q0, q1, [x11, #-16]
	subs	x13, x13, #32
	add	x11, x11, #32
	stp	q0, q1, [x12, #-16]
	add	x12, x12, #32
	b.ne	76b
	cbz	x10, 81f
	cmp	x10, #8
	b.lo	79f
77:
	and	x10, x20, #0x7
	add	x13, x9, x8
	add	x11, x14, x9
	add	x12, x13, x10
	sub	x9, x25, x10
	add	x13, x27, x13
	sub	x12, x12, x20
78:
	ldr	d0, [x13], #8
	adds	x12, x12, #8
	str	d0, [x11], #8
	b.ne	78b
	cbz	x10, 81f
79:
	sub	x10, x20, x9
	add	x11, x9, x8
	add	x9, x14, x9
	sub	x8, x10, x8
	add	x10, x27, x11
80:
	ldrb	w11, [x10], #1
	subs	x8, x8, #1
	strb	w11, [x9], #1
	b.ne	80b
81:
	add	x27, sp, #928
82:
	add	x8, sp, #288
	movi	v1.2d, #0000000000000000
	ldr	x2, [sp, #304]
	add	x8, x8, #48
	str	x25, [x21, #336]
	ldr	x25, [sp, #328]
	ld1r	{ v0.2s }, [x8]
	vj_page	x8, .L1_a64_CPI40_8
	add	x0, sp, #928
	vj_load	d2, x8, .L1_a64_CPI40_8
	ldr	x8, [x21, #56]
	add	x1, sp, #288
	stp	q1, q1, [x19, #368]
	mov	v2.s[1], v0.s[1]
	add	x8, x8, #1
	stp	q1, q1, [x19, #400]
	fmov	d0, x8
	stp	q1, q1, [x27]
	mov	v2.d[1], v0.d[0]
	str	q2, [sp, #128]
	vj_c_call	memcpy
	add	x20, sp, #928
	add	x1, x28, #24
	mov	x2, x25
	orr	x0, x20, #0x10
	vj_c_call	memcpy
	ldr	q2, [sp, #192]
	ldr	q3, [sp, #128]
	add	x0, sp, #928
	ldp	q1, q0, [x27]
	add	x1, x28, #64
	eor	v2.16b, v3.16b, v2.16b
	mov	w2, #280
	str	q2, [sp, #112]
	ldr	q2, [sp, #176]
	eor	v1.16b, v1.16b, v2.16b
	str	q1, [sp, #128]
	ldr	q1, [sp, #160]
	eor	v0.16b, v0.16b, v1.16b
	str	q0, [sp, #96]
	vj_c_call	memcpy
	ldp	q1, q0, [sp, #128]
	add	x0, sp, #1504
	ldp	q3, q2, [sp, #96]
	add	x1, x20, #144
	ldr	x2, [x27, #272]
	ldr	x8, [x27, #128]
	str	xzr, [x28, #336]
	stp	q2, q0, [x21, #64]
	add	x25, x8, x2
	stp	q1, q3, [x21, #96]
	stp	q2, q0, [x21, #128]
	movi	v0.2d, #0000000000000000
	stp	q1, q3, [x21, #160]
	str	x25, [x27, #128]
	stp	q0, q0, [x28, #192]
	stp	q0, q0, [x28, #224]
	stp	q0, q0, [x28, #256]
	stp	q0, q0, [x28, #288]
	str	q0, [x28, #320]
	stp	q0, q0, [x19, #64]
	stp	q0, q0, [x19, #96]
	stp	q0, q0, [x19, #128]
	stp	q0, q0, [x19, #160]
	vj_c_call	memcpy
	movi	v0.2d, #0000000000000000
	add	x8, sp, #1808
	ldrb	w4, [sp, #1064]
	add	x0, sp, #928
	add	x1, sp, #2016
	mov	x2, x25
	mov	w3, #1
	str	xzr, [x20, #272]
	stp	q0, q0, [x20, #144]
	stp	q0, q0, [x20, #176]
	stp	q0, q0, [x20, #208]
	stp	q0, q0, [x20, #240]
	ldp	q0, q1, [x19, #128]
	stp	q0, q1, [x8, #272]
	ldp	q2, q0, [x19, #160]
	stp	q2, q0, [x8, #304]
	ldp	q1, q0, [x19, #64]
	stp	q1, q0, [x8, #208]
	ldp	q2, q0, [x19, #96]
	stp	q2, q0, [x8, #240]
	vj_call	blake2_compress..compress..blake2b..compress_1_arm
	ldp	q0, q1, [x27]
	mov	w9, #128
	ldr	x8, [x21, #616]
	stp	q0, q1, [x19, #368]
	ldp	q0, q2, [x27, #32]
	sub	x2, x9, x8
	cmp	x2, #64
	stp	q0, q2, [x19, #400]
	b.hs	42b
	add	x20, sp, #1808
	cbz	x8, 83f
	add	x0, x26, x8
	add	x1, sp, #1808
	add	x20, x20, x2
	sub	x25, x8, #64
	vj_c_call	memcpy
	ldr	x8, [x21, #472]
	add	x0, x21, #344
	add	x1, x28, #488
	mov	w3, wzr
	mov	w4, wzr
	add	x2, x8, #128
	str	x2, [x21, #472]
	vj_call	blake2_compress..compress..blake2b..compress_1_arm
	b	84f
83:
	mov	w25, #64
84:
	movi	v0.2d, #0000000000000000
	sub	x8, x25, #1
	add	x0, x28, #488
	and	x8, x8, #0xffffffffffffff80
	sub	x25, x25, x8
	add	x1, x20, x8
	mov	x2, x25
	stp	q0, q0, [x26]
	stp	q0, q0, [x26, #32]
	stp	q0, q0, [x26, #64]
	stp	q0, q0, [x26, #96]
	vj_c_call	memcpy
	b	43b
85:
	add	x11, x28, #224
	and	x9, x26, #0x18
	and	x8, x26, #0xffffffffffffffe0
	add	x10, x23, #16
	add	x11, x11, x25
	and	x12, x26, #0xffffffffffffffe0
86:
	ldp	q0, q1, [x10, #-16]
	subs	x12, x12, #32
	add	x10, x10, #32
	stp	q0, q1, [x11, #-16]
	add	x11, x11, #32
	b.ne	86b
	cmp	x26, x8
	b.eq	62b
	cbz	x9, 51b
87:
	mov	x10, x8
	and	x8, x26, #0xfffffffffffffff8
	add	x11, x25, x10
	sub	x9, x10, x8
	add	x10, x23, x10
	add	x11, x13, x11
88:
	ldr	d0, [x10], #8
	adds	x9, x9, #8
	str	d0, [x11], #8
	b.ne	88b
	cmp	x26, x8
	b.eq	62b
	b	51b
89:
	mov	w24, #65536
90:
	mov	x0, x24
	mov	w1, #1
	mov	w28, #1
	vj_call	rattle_alloc
	tbz	w0, #0, 142f
	mov	x23, x1
	sub	x2, x24, #1
	mov	x0, x1
	mov	w1, wzr
	sub	x19, x24, #1
	vj_c_call	memset
	mov	x1, x20
	add	x20, sp, #1440
	add	x0, sp, #1808
	mov	x2, x22
	strb	wzr, [x23, x19]
	stp	xzr, xzr, [x20, #368]
	vj_c_call	memcpy
	add	x19, sp, #1808
	add	x0, sp, #2016
	mov	x1, x25
	mov	x2, x26
	stp	xzr, xzr, [x19, #208]
	vj_c_call	memcpy
	vj_page	x8, .L1_a64_CPI40_0
	ldr	q0, [x20, #368]
	movi	v2.2d, #0000000000000000
	vj_load	q1, x8, .L1_a64_CPI40_0
	add	x8, sp, #928
	add	x0, sp, #1504
	str	q0, [x8]
	ldr	q0, [x19, #208]
	add	x1, sp, #928
	mov	v1.s[1], w27
	mov	x2, x22
	str	x22, [x8, #16]
	stur	q0, [x8, #24]
	movi	v0.2d, #0000000000000000
	add	x25, sp, #928
	str	x26, [x8, #40]
	add	x28, sp, #1504
	str	w27, [sp, #976]
	mov	v2.d[0], v1.d[0]
	str	wzr, [sp, #980]
	stp	q0, q0, [x20, #64]
	str	q2, [sp, #160]
	vj_c_call	memcpy
	orr	x0, x28, #0x10
	add	x1, x25, #24
	mov	x2, x26
	vj_c_call	memcpy
	vj_page	x8, .L1_a64_CPI40_1
	ldp	q1, q0, [x20, #64]
	vj_load	q2, x8, .L1_a64_CPI40_1
	vj_page	x8, .L1_a64_CPI40_3
	ldr	q5, [sp, #160]
	vj_load	q3, x8, .L1_a64_CPI40_3
	vj_page	x8, .L1_a64_CPI40_4
	add	x0, sp, #1504
	vj_load	q4, x8, .L1_a64_CPI40_4
	vj_page	x8, .L1_a64_CPI40_7
	str	q2, [sp, #144]
	eor	v2.16b, v5.16b, v2.16b
	eor	v1.16b, v1.16b, v3.16b
	add	x1, sp, #928
	eor	v0.16b, v0.16b, v4.16b
	mov	x2, x22
	stp	q4, q3, [sp, #176]
	stp	q2, q1, [sp, #112]
	str	q0, [sp, #96]
	vj_load	q0, x8, .L1_a64_CPI40_7
	str	q0, [sp, #160]
	movi	v0.2d, #0000000000000000
	stp	q0, q0, [x20, #64]
	vj_c_call	memcpy
	orr	x0, x28, #0x10
	add	x1, x25, #24
	mov	x2, x26
	vj_c_call	memcpy
	ldr	q1, [x19, #208]
	add	x8, sp, #57
	ldr	q0, [x20, #368]
	ldp	q2, q4, [sp, #96]
	add	x9, sp, #1440
	stur	q1, [x8, #255]
	ldr	q1, [sp, #128]
	vj_page	x8, .L1_a64_CPI40_2
	str	q0, [sp, #288]
	ldp	q3, q5, [sp, #160]
	add	x28, sp, #288
	stp	q1, q2, [x21, #96]
	stp	q1, q2, [x21, #160]
	ldp	q1, q0, [x9, #64]
	stp	q4, q3, [x21, #64]
	vj_load	q2, x8, .L1_a64_CPI40_2
	add	x8, x21, #344
	stp	q4, q3, [x21, #128]
	movi	v3.2d, #0000000000000000
	eor	v0.16b, v0.16b, v5.16b
	ldr	q5, [sp, #192]
	stp	q4, q2, [x8]
	stp	q4, q2, [x8, #64]
	eor	v1.16b, v1.16b, v5.16b
	str	x22, [sp, #304]
	mov	x22, xzr
	str	x26, [sp, #328]
	str	w27, [sp, #336]
	add	x27, sp, #928
	stp	q1, q0, [x8, #32]
	stp	q1, q0, [x8, #96]
	add	x8, x28, #472
	str	wzr, [sp, #340]
	str	xzr, [x21, #56]
	str	xzr, [x21, #336]
	stp	q3, q3, [x21, #208]
	stp	q3, q3, [x21, #240]
	stp	q3, q3, [x21, #272]
	stp	q3, q3, [x21, #304]
	str	q3, [x21, #192]
	stp	q3, q3, [x8, #16]
	stp	q3, q3, [x8, #48]
	stp	q3, q3, [x8, #80]
	stp	q3, q3, [x8, #112]
	str	q3, [x8]
	str	xzr, [x21, #616]
	stp	x24, x23, [sp, #32]
	b	92f
91:
	add	x0, x28, #208
	add	x4, x28, #64
	mov	x1, x25
	mov	x2, x23
	mov	x3, x22
	bl	blake2_digest..buffer..digest_into..33c1e97afcdf8a5d_1_a64
	ldp	x24, x23, [sp, #32]
	mov	x22, xzr
	ldr	x8, [sp, #56]
	str	x0, [x21, #336]
	cmp	x8, x24
	b.lo	206f
92:
	add	x1, x23, x22
	sub	x2, x24, x22
	mov	w0, wzr
	sub	x19, x24, x22
	vj_system_call	read, b2_read
	tbnz	x0, #63, 143f
	cmp	x0, x19
	csel	x8, x0, x19, lo
	cbz	x8, 93f
	add	x22, x8, x22
	add	x19, sp, #1440
	cmp	x22, x24
	b.lo	92b
	b	94f
93:
	add	x19, sp, #1440
94:
	add	x8, x28, #488
	ldr	x26, [x21, #56]
	ldr	w9, [sp, #336]
	str	x8, [sp, #80]
	ldr	x8, [x21, #192]
	mov	x12, #288230376151711744
	ldr	x25, [x21, #336]
	add	x10, x25, x8
	madd	x11, x26, x9, x10
	sub	x11, x12, x11
	cmp	x11, x22
	b.ls	144f
	sub	x24, x9, x10
	str	x22, [sp, #56]
	cmp	x24, x22
	b.lo	98f
	b	91b
95:
	ldp	q0, q1, [x19, #368]
	add	x9, x26, x8
	add	x25, x8, #64
	stp	q0, q1, [x9]
	ldp	q0, q2, [x19, #400]
	stp	q0, q2, [x9, #32]
96:
	ldr	x8, [x21, #56]
	str	x25, [x21, #616]
	ldr	w20, [sp, #336]
	ldr	x25, [x21, #336]
	add	x26, x8, #1
	ldr	x8, [x21, #192]
	str	x26, [x21, #56]
97:
	mov	w9, w20
	add	x10, x8, x25
	sub	x22, x22, x24
	add	x23, x23, x24
	sub	x24, x9, x10
	cmp	x24, x22
	b.hs	91b
98:
	cmn	x25, x8
	b.ne	102f
	lsl	x8, x9, #2
	cmp	x8, x22
	b.hs	102f
	movi	v0.2d, #0000000000000000
	add	x0, sp, #288
	add	x4, sp, #928
	mov	x1, x26
	mov	x2, x23
	mov	x3, x22
	stp	q0, q0, [x27]
	stp	q0, q0, [x27, #32]
	stp	q0, q0, [x27, #64]
	stp	q0, q0, [x27, #96]
	stp	q0, q0, [x27, #128]
	stp	q0, q0, [x27, #160]
	stp	q0, q0, [x27, #192]
	stp	q0, q0, [x27, #224]
	stp	q0, q0, [x27, #256]
	stp	q0, q0, [x27, #288]
	stp	q0, q0, [x27, #320]
	stp	q0, q0, [x27, #352]
	stp	q0, q0, [x27, #384]
	stp	q0, q0, [x27, #416]
	stp	q0, q0, [x27, #448]
	stp	q0, q0, [x27, #480]
	vj_call	blake2_tree..nodes..Nodes..hash_next_1_arm
	ldr	x20, [x21, #616]
	lsl	x25, x0, #6
	mov	w8, #128
	mov	x24, x0
	sub	x2, x8, x20
	ldr	w8, [sp, #336]
	subs	x19, x25, x2
	str	x8, [sp, #128]
	b.ls	111f
	add	x27, sp, #928
	add	x8, x28, #488
	cbz	x20, 99f
	add	x0, x8, x20
	add	x1, sp, #928
	add	x27, x27, x2
	vj_c_call	memcpy
	ldr	x8, [x21, #472]
	add	x0, x21, #344
	add	x1, x28, #488
	mov	w3, wzr
	mov	w4, wzr
	add	x2, x8, #128
	str	x2, [x21, #472]
	vj_call	blake2_compress..compress..blake2b..compress_1_arm
	mov	x25, x19
99:
	cmp	x25, #0
	cset	w8, ne
	sub	x19, x25, x8
	lsr	x20, x19, #7
	cbz	x20, 101f
	mov	x26, x27
100:
	ldr	x8, [x21, #472]
	add	x0, x21, #344
	mov	x1, x26
	mov	w3, wzr
	mov	w4, wzr
	add	x2, x8, #128
	str	x2, [x21, #472]
	vj_call	blake2_compress..compress..blake2b..compress_1_arm
	subs	x20, x20, #1
	add	x26, x26, #128
	b.ne	100b
101:
	movi	v0.2d, #0000000000000000
	and	x8, x19, #0xffffffffffffff80
	add	x10, x28, #488
	sub	x25, x25, x8
	add	x0, x28, #488
	add	x1, x27, x8
	mov	x2, x25
	stp	q0, q0, [x10]
	stp	q0, q0, [x10, #32]
	stp	q0, q0, [x10, #64]
	stp	q0, q0, [x10, #96]
	vj_c_call	memcpy
	add	x27, sp, #928
	b	112f
102:
	mov	w8, #128
	sub	x26, x8, x25
	subs	x8, x24, x26
	b.ls	106f
	mov	x20, x24
	mov	x27, x23
	cbz	x25, 116f
	add	x13, x28, #208
	mov	x20, x8
	add	x0, x13, x25
	sub	x8, x0, x23
	cmp	x8, x26
	b.hs	114f
	cmp	x26, #8
	b.lo	103f
	add	x8, x13, x25
	sub	x8, x8, x23
	cmp	x8, #32
	b.hs	123f
103:
	mov	x8, xzr
104:
	add	x9, x8, x25
	add	x8, x23, x8
105:
	ldrb	w10, [x8], #1
	strb	w10, [x13, x9]
	add	x9, x9, #1
	cmp	x9, #128
	b.ne	105b
	b	115f
106:
	add	x13, x28, #208
	add	x8, x13, x25
	sub	x8, x8, x23
	cmp	x8, x24
	b.hs	113f
	cmp	x24, #8
	add	x26, x28, #488
	b.lo	107f
	add	x8, x13, x25
	sub	x8, x8, x23
	cmp	x8, #32
	b.hs	121f
107:
	mov	x8, xzr
108:
	add	x10, x8, x25
	sub	x9, x24, x8
	add	x8, x23, x8
	add	x10, x13, x10
109:
	ldrb	w11, [x8], #1
	subs	x9, x9, #1
	strb	w11, [x10], #1
	b.ne	109b
110:
	add	x25, x25, x24
	b	135f
111:
	ldr	x8, [sp, #80]
	add	x1, sp, #928
	mov	x2, x25
	add	x0, x8, x20
	vj_c_call	memcpy
	add	x25, x20, x25
112:
	mov	w8, #64
	ldr	s0, [sp, #336]
	ldr	x9, [x21, #56]
	fmov	s1, w8
	mov	w8, #512
	and	x10, x24, #0x3ffffffffffffff
	ushll	v0.4s, v0.4h, #0
	add	x26, x9, x10
	movi	v2.2d, #0000000000000000
	str	x25, [x21, #616]
	ldr	x9, [sp, #128]
	ldr	x2, [sp, #304]
	mov	v1.h[1], w8
	str	x26, [x21, #56]
	ldr	x25, [sp, #328]
	mov	w8, v0.s[1]
	str	h0, [sp, #220]
	add	x19, sp, #1440
	add	x0, sp, #1504
	add	x1, sp, #288
	mul	x24, x24, x9
	mov	v1.h[2], v0.h[0]
	strh	w8, [sp, #222]
	ldr	w20, [sp, #220]
	stp	q2, q2, [x19, #64]
	mov	v1.h[3], w8
	mov	v3.16b, v1.16b
	fmov	d1, x26
	mov	v3.d[1], v1.d[0]
	str	q3, [sp, #128]
	vj_c_call	memcpy
	add	x8, sp, #1504
	add	x1, x28, #24
	mov	x2, x25
	orr	x0, x8, #0x10
	vj_c_call	memcpy
	ldp	q1, q0, [sp, #128]
	mov	x25, xzr
	ldp	q4, q3, [sp, #160]
	mov	x8, xzr
	str	xzr, [x28, #336]
	eor	v0.16b, v1.16b, v0.16b
	ldp	q2, q1, [x19, #64]
	eor	v1.16b, v1.16b, v3.16b
	ldr	q3, [sp, #192]
	stp	q0, q4, [x21, #64]
	stp	q0, q4, [x21, #128]
	movi	v0.2d, #0000000000000000
	eor	v2.16b, v2.16b, v3.16b
	stp	q2, q1, [x21, #96]
	stp	q2, q1, [x21, #160]
	stp	q0, q0, [x28, #192]
	stp	q0, q0, [x28, #224]
	stp	q0, q0, [x28, #256]
	stp	q0, q0, [x28, #288]
	str	q0, [x28, #320]
	b	97b
113:
	add	x0, x13, x25
	mov	x1, x23
	mov	x2, x24
	vj_c_call	memmove
	add	x26, x28, #488
	add	x25, x25, x24
	b	135f
114:
	mov	x1, x23
	mov	x2, x26
	vj_c_call	memmove
115:
	ldr	x8, [x21, #192]
	add	x0, x28, #64
	add	x1, x28, #208
	mov	w3, wzr
	mov	w4, wzr
	add	x27, x23, x26
	add	x2, x8, #128
	str	x2, [x21, #192]
	vj_call	blake2_compress..compress..blake2b..compress_1_arm
116:
	cmp	x20, #0
	cset	w8, ne
	sub	x19, x20, x8
	lsr	x26, x19, #7
	cbz	x26, 118f
	mov	x25, x27
117:
	ldr	x8, [x21, #192]
	add	x0, x28, #64
	mov	x1, x25
	mov	w3, wzr
	mov	w4, wzr
	add	x2, x8, #128
	str	x2, [x21, #192]
	vj_call	blake2_compress..compress..blake2b..compress_1_arm
	subs	x26, x26, #1
	add	x25, x25, #128
	b.ne	117b
118:
	movi	v0.2d, #0000000000000000
	and	x8, x19, #0xffffffffffffff80
	add	x14, x28, #208
	add	x1, x27, x8
	sub	x25, x20, x8
	sub	x9, x14, x1
	cmp	x9, x25
	stp	q0, q0, [x14]
	stp	q0, q0, [x14, #32]
	stp	q0, q0, [x14, #64]
	stp	q0, q0, [x14, #96]
	b.hs	119f
	cmp	x25, #8
	add	x26, x28, #488
	b.hs	120f
	mov	x9, xzr
	add	x19, sp, #1440
	b	132f
119:
	add	x0, x28, #208
	mov	x2, x25
	vj_c_call	memmove
	add	x27, sp, #928
	add	x19, sp, #1440
	add	x26, x28, #488
	b	135f
120:
	add	x9, x8, x27
	add	x19, sp, #1440
	sub	x9, x14, x9
	cmp	x9, #32
	b.hs	122f
	mov	x9, xzr
	b	132f
121:
	cmp	x24, #32
	b.hs	124f
	mov	x8, xzr
	b	126f
122:
	cmp	x25, #32
	b.hs	128f
	mov	x9, xzr
	b	130f
123:
	cmp	x26, #32
	b.hs	138f
	mov	x8, xzr
	b	140f
124:
	add	x11, x28, #224
	and	x9, x24, #0x18
	and	x8, x24, #0xffffffffffffffe0
	add	x10, x23, #16
	add	x11, x11, x25
	and	x12, x24, #0xffffffffffffffe0
125:
	ldp	q0, q1, [x10, #-16]
	subs	x12, x12, #32
	add	x10, x10, #32
	stp	q0, q1, [x11, #-16]
	add	x11, x11, #32
	b.ne	125b
	cmp	x24, x8
	b.eq	110b
	cbz	x9, 108b
126:
	mov	x10, x8
	and	x8, x24, #0xfffffffffffffff8
	add	x11, x25, x10
	sub	x9, x10, x8
	add	x10, x23, x10
	add	x11, x13, x11
127:
	ldr	d0, [x10], #8
	adds	x9, x9, #8
	str	d0, [x11], #8
	b.ne	127b
	cmp	x24, x8
	b.eq	110b
	b	108b
128:
	and	x10, x20, #0x1f
	add	x11, x27, x8
	add	x12, x28, #224
	sub	x9, x25, x10
	add	x11, x11, #16
	sub	x13, x25, x10
129:
	ldp	q0, q1, [x11, #-16]
	subs	x13, x13, #32
	add	x11, x11, #32
	stp	q0, q1, [x12, #-16]
	add	x12, x12, #32
	b.ne	129b
	cbz	x10, 134f
	cmp	x10, #8
	b.lo	132f
130:
	and	x10, x20, #0x7
	add	x13, x9, x8
	add	x11, x14, x9
	add	x12, x13, x10
	sub	x9, x25, x10
	add	x13, x27, x13
	sub	x12, x12, x20
131:
	ldr	d0, [x13], #8
	adds	x12, x12, #8
	str	d0, [x11], #8
	b.ne	131b
	cbz	x10, 134f
132:
	sub	x10, x20, x9
	add	x11, x9, x8
	add	x9, x14, x9
	sub	x8, x10, x8
	add	x10, x27, x11
133:
	ldrb	w11, [x10], #1
	subs	x8, x8, #1
	strb	w11, [x9], #1
	b.ne	133b
134:
	add	x27, sp, #928
135:
	add	x8, sp, #288
	movi	v1.2d, #0000000000000000
	ldr	x2, [sp, #304]
	add	x8, x8, #48
	str	x25, [x21, #336]
	ldr	x25, [sp, #328]
	ld1r	{ v0.2s }, [x8]
	vj_page	x8, .L1_a64_CPI40_8
	add	x0, sp, #928
	vj_load	d2, x8, .L1_a64_CPI40_8
	ldr	x8, [x21, #56]
	add	x1, sp, #288
	stp	q1, q1, [x19, #368]
	mov	v2.s[1], v0.s[1]
	add	x8, x8, #1
	stp	q1, q1, [x19, #400]
	fmov	d0, x8
	stp	q1, q1, [x27]
	mov	v2.d[1], v0.d[0]
	str	q2, [sp, #128]
	vj_c_call	memcpy
	add	x20, sp, #928
	add	x1, x28, #24
	mov	x2, x25
	orr	x0, x20, #0x10
	vj_c_call	memcpy
	ldp	q3, q2, [sp, #128]
	add	x0, sp, #928
	ldp	q1, q0, [x27]
	add	x1, x28, #64
	mov	w2, #280
	eor	v2.16b, v3.16b, v2.16b
	str	q2, [sp, #112]
	ldr	q2, [sp, #192]
	eor	v1.16b, v1.16b, v2.16b
	str	q1, [sp, #128]
	ldr	q1, [sp, #176]
	eor	v0.16b, v0.16b, v1.16b
	str	q0, [sp, #96]
	vj_c_call	memcpy
	ldp	q3, q2, [sp, #96]
	add	x0, sp, #1504
	ldr	q0, [sp, #160]
	ldr	x2, [x27, #272]
	add	x1, x20, #144
	ldr	x8, [x27, #128]
	ldr	q1, [sp, #128]
	str	xzr, [x28, #336]
	stp	q2, q0, [x21, #64]
	add	x25, x8, x2
	stp	q1, q3, [x21, #96]
	stp	q2, q0, [x21, #128]
	movi	v0.2d, #0000000000000000
	stp	q1, q3, [x21, #160]
	str	x25, [x27, #128]
	stp	q0, q0, [x28, #192]
	stp	q0, q0, [x28, #224]
	stp	q0, q0, [x28, #256]
	stp	q0, q0, [x28, #288]
	str	q0, [x28, #320]
	stp	q0, q0, [x19, #64]
	stp	q0, q0, [x19, #96]
	stp	q0, q0, [x19, #128]
	stp	q0, q0, [x19, #160]
	vj_c_call	memcpy
	movi	v0.2d, #0000000000000000
	add	x8, sp, #1808
	ldrb	w4, [sp, #1064]
	add	x0, sp, #928
	add	x1, sp, #2016
	mov	x2, x25
	mov	w3, #1
	str	xzr, [x20, #272]
	stp	q0, q0, [x20, #144]
	stp	q0, q0, [x20, #176]
	stp	q0, q0, [x20, #208]
	stp	q0, q0, [x20, #240]
	ldp	q0, q1, [x19, #128]
	stp	q0, q1, [x8, #272]
	ldp	q2, q0, [x19, #160]
	stp	q2, q0, [x8, #304]
	ldp	q1, q0, [x19, #64]
	stp	q1, q0, [x8, #208]
	ldp	q2, q0, [x19, #96]
	stp	q2, q0, [x8, #240]
	vj_call	blake2_compress..compress..blake2b..compress_1_arm
	ldp	q0, q1, [x27]
	mov	w9, #128
	ldr	x8, [x21, #616]
	stp	q0, q1, [x19, #368]
	ldp	q0, q2, [x27, #32]
	sub	x2, x9, x8
	cmp	x2, #64
	stp	q0, q2, [x19, #400]
	b.hs	95b
	add	x20, sp, #1808
	cbz	x8, 136f
	add	x0, x26, x8
	add	x1, sp, #1808
	add	x20, x20, x2
	sub	x25, x8, #64
	vj_c_call	memcpy
	ldr	x8, [x21, #472]
	add	x0, x21, #344
	add	x1, x28, #488
	mov	w3, wzr
	mov	w4, wzr
	add	x2, x8, #128
	str	x2, [x21, #472]
	vj_call	blake2_compress..compress..blake2b..compress_1_arm
	b	137f
136:
	mov	w25, #64
137:
	movi	v0.2d, #0000000000000000
	sub	x8, x25, #1
	add	x0, x28, #488
	and	x8, x8, #0xffffffffffffff80
	sub	x25, x25, x8
	add	x1, x20, x8
	mov	x2, x25
	stp	q0, q0, [x26]
	stp	q0, q0, [x26, #32]
	stp	q0, q0, [x26, #64]
	stp	q0, q0, [x26, #96]
	vj_c_call	memcpy
	b	96b
138:
	add	x11, x28, #224
	and	x9, x26, #0x18
	and	x8, x26, #0xffffffffffffffe0
	add	x10, x23, #16
	add	x11, x11, x25
	and	x12, x26, #0xffffffffffffffe0
139:
	ldp	q0, q1, [x10, #-16]
	subs	x12, x12, #32
	add	x10, x10, #32
	stp	q0, q1, [x11, #-16]
	add	x11, x11, #32
	b.ne	139b
	cmp	x26, x8
	b.eq	115b
	cbz	x9, 104b
140:
	mov	x10, x8
	and	x8, x26, #0xfffffffffffffff8
	add	x11, x25, x10
	sub	x9, x10, x8
	add	x10, x23, x10
	add	x11, x13, x11
141:
	ldr	d0, [x10], #8
	adds	x9, x9, #8
	str	d0, [x11], #8
	b.ne	141b
	cmp	x26, x8
	b.eq	115b
	b	104b
142:
	mov	w23, #8
	b	234f
143:
	add	x0, sp, #928
	bl	std_io..io..error..last_error_1_a64
	ldr	x8, [sp, #48]
	mov	w9, #1
	mov	w23, #7
	strb	w9, [x8]
	b	145f
144:
	mov	w23, #6
145:
	ldr	x0, [sp, #40]
	ldr	x19, [sp, #72]
	vj_call	rattle_dealloc
	mov	w28, #1
	b	234f
146:
	mov	w23, #65536
147:
	mov	x0, x23
	mov	w1, #1
	mov	w28, #1
	vj_call	rattle_alloc
	tbz	w0, #0, 197f
	sub	x2, x23, #1
	mov	x0, x1
	mov	x22, x1
	mov	w1, wzr
	sub	x19, x23, #1
	vj_c_call	memset
	mov	x1, x20
	add	x20, sp, #1440
	add	x0, sp, #1808
	mov	x2, x25
	strb	wzr, [x22, x19]
	stp	xzr, xzr, [x20, #368]
	vj_c_call	memcpy
	add	x19, sp, #1808
	add	x0, sp, #2016
	mov	x1, x26
	mov	x2, x24
	stp	xzr, xzr, [x19, #208]
	vj_c_call	memcpy
	vj_page	x8, .L1_a64_CPI40_0
	ldr	q0, [x20, #368]
	movi	v2.2d, #0000000000000000
	vj_load	q1, x8, .L1_a64_CPI40_0
	add	x8, sp, #928
	add	x0, sp, #1504
	str	q0, [x21, #640]
	ldr	q0, [x19, #208]
	add	x1, sp, #928
	mov	v1.s[1], w27
	mov	x2, x25
	str	x25, [x21, #656]
	stur	q0, [x8, #24]
	movi	v0.2d, #0000000000000000
	add	x26, sp, #928
	str	x24, [x8, #40]
	add	x28, sp, #1504
	str	w27, [sp, #976]
	mov	v2.d[0], v1.d[0]
	str	wzr, [sp, #980]
	stp	q0, q0, [x20, #64]
	str	q2, [sp, #144]
	vj_c_call	memcpy
	orr	x0, x28, #0x10
	add	x1, x26, #24
	mov	x2, x24
	vj_c_call	memcpy
	vj_page	x8, .L1_a64_CPI40_6
	movi	v4.2d, #0000000000000000
	add	x0, sp, #1504
	vj_load	q0, x8, .L1_a64_CPI40_6
	vj_page	x8, .L1_a64_CPI40_1
	add	x1, sp, #928
	vj_load	q6, x8, .L1_a64_CPI40_1
	ldp	q2, q1, [x20, #64]
	mov	v0.s[1], w27
	vj_page	x8, .L1_a64_CPI40_3
	mov	x2, x25
	vj_load	q3, x8, .L1_a64_CPI40_3
	vj_page	x8, .L1_a64_CPI40_4
	str	q6, [sp, #192]
	vj_load	q5, x8, .L1_a64_CPI40_4
	vj_page	x8, .L1_a64_CPI40_7
	stp	q5, q3, [sp, #160]
	mov	v4.d[0], v0.d[0]
	ldr	q0, [sp, #144]
	eor	v0.16b, v0.16b, v6.16b
	str	q0, [sp, #96]
	eor	v0.16b, v2.16b, v3.16b
	stp	q0, q4, [sp, #112]
	eor	v0.16b, v1.16b, v5.16b
	str	q0, [sp, #80]
	vj_load	q0, x8, .L1_a64_CPI40_7
	str	q0, [sp, #144]
	movi	v0.2d, #0000000000000000
	stp	q0, q0, [x20, #64]
	vj_c_call	memcpy
	orr	x0, x28, #0x10
	add	x1, x26, #24
	mov	x2, x24
	vj_c_call	memcpy
	ldr	q1, [x19, #208]
	ldr	q0, [x20, #368]
	add	x9, sp, #57
	ldp	q3, q5, [sp, #144]
	add	x8, sp, #1440
	stur	q1, [x9, #255]
	ldp	q2, q1, [sp, #80]
	str	q0, [sp, #288]
	movi	v4.2d, #0000000000000000
	add	x28, sp, #288
	ldr	q0, [sp, #112]
	str	x25, [sp, #304]
	mov	x20, xzr
	stp	q1, q3, [x21, #64]
	stp	q0, q2, [x21, #96]
	stp	q1, q3, [x21, #128]
	ldr	q3, [sp, #128]
	stp	q0, q2, [x21, #160]
	ldp	q1, q0, [x8, #64]
	vj_page	x8, .L1_a64_CPI40_2
	str	x24, [sp, #328]
	str	w27, [sp, #336]
	mov	x24, x22
	eor	v0.16b, v0.16b, v5.16b
	ldp	q5, q2, [sp, #176]
	eor	v2.16b, v3.16b, v2.16b
	vj_load	q3, x8, .L1_a64_CPI40_2
	add	x8, x21, #344
	str	wzr, [sp, #340]
	eor	v1.16b, v1.16b, v5.16b
	str	xzr, [x21, #56]
	stp	q2, q3, [x8]
	stp	q2, q3, [x8, #64]
	stp	q1, q0, [x8, #32]
	stp	q1, q0, [x8, #96]
	add	x8, x28, #472
	str	xzr, [x21, #336]
	stp	q4, q4, [x21, #208]
	stp	q4, q4, [x21, #240]
	stp	q4, q4, [x21, #272]
	stp	q4, q4, [x21, #304]
	str	q4, [x21, #192]
	stp	q4, q4, [x8, #16]
	stp	q4, q4, [x8, #48]
	stp	q4, q4, [x8, #80]
	stp	q4, q4, [x8, #112]
	str	q4, [x8]
	str	xzr, [x21, #616]
	stp	x23, x22, [sp, #32]
	b	149f
148:
	add	x0, x28, #208
	add	x4, x28, #64
	mov	x1, x26
	mov	x2, x24
	mov	x3, x23
	bl	blake2_digest..buffer..digest_into..33c1e97afcdf8a5d_1_a64
	ldp	x23, x24, [sp, #32]
	mov	x20, xzr
	ldr	x8, [sp, #56]
	str	x0, [x21, #336]
	cmp	x8, x23
	b.lo	210f
149:
	add	x1, x24, x20
	sub	x2, x23, x20
	mov	w0, wzr
	sub	x19, x23, x20
	vj_system_call	read, b2_read
	tbnz	x0, #63, 200f
	cmp	x0, x19
	csel	x8, x0, x19, lo
	cbz	x8, 150f
	add	x20, x8, x20
	cmp	x20, x23
	b.lo	149b
150:
	add	x8, x28, #488
	ldr	x27, [x21, #56]
	ldr	w9, [sp, #336]
	str	x8, [sp, #80]
	ldr	x8, [x21, #192]
	mov	x12, #288230376151711744
	ldr	x26, [x21, #336]
	add	x10, x26, x8
	madd	x11, x27, x9, x10
	sub	x11, x12, x11
	cmp	x11, x20
	b.ls	201f
	sub	x25, x9, x10
	mov	x23, x20
	str	x20, [sp, #56]
	cmp	x25, x20
	b.lo	154f
	b	148b
151:
	ldp	q0, q1, [x10, #368]
	add	x9, x27, x8
	add	x26, x8, #64
	stp	q0, q1, [x9]
	ldp	q0, q2, [x10, #400]
	stp	q0, q2, [x9, #32]
152:
	ldr	x8, [x21, #56]
	str	x26, [x21, #616]
	ldr	w20, [sp, #336]
	ldr	x26, [x21, #336]
	add	x27, x8, #1
	ldr	x8, [x21, #192]
	str	x27, [x21, #56]
153:
	mov	w9, w20
	add	x10, x8, x26
	sub	x23, x23, x25
	add	x24, x24, x25
	sub	x25, x9, x10
	cmp	x25, x23
	b.hs	148b
154:
	cmn	x26, x8
	b.ne	158f
	lsl	x8, x9, #2
	cmp	x8, x23
	b.hs	158f
	movi	v0.2d, #0000000000000000
	add	x8, sp, #928
	add	x0, sp, #288
	add	x4, sp, #928
	mov	x1, x27
	mov	x2, x24
	mov	x3, x23
	stp	q0, q0, [x8]
	stp	q0, q0, [x8, #32]
	stp	q0, q0, [x8, #64]
	stp	q0, q0, [x8, #96]
	stp	q0, q0, [x8, #128]
	stp	q0, q0, [x8, #160]
	stp	q0, q0, [x8, #192]
	stp	q0, q0, [x8, #224]
	stp	q0, q0, [x8, #256]
	stp	q0, q0, [x8, #288]
	stp	q0, q0, [x8, #320]
	stp	q0, q0, [x8, #352]
	stp	q0, q0, [x8, #384]
	stp	q0, q0, [x8, #416]
	stp	q0, q0, [x8, #448]
	stp	q0, q0, [x8, #480]
	vj_call	blake2_tree..nodes..Nodes..hash_next_1_arm
	ldr	x20, [x21, #616]
	lsl	x26, x0, #6
	mov	w8, #128
	ldr	w22, [sp, #336]
	mov	x25, x0
	sub	x2, x8, x20
	subs	x19, x26, x2
	b.ls	167f
	str	x22, [sp, #128]
	add	x22, sp, #928
	add	x8, x28, #488
	cbz	x20, 155f
	add	x0, x8, x20
	add	x1, sp, #928
	add	x22, x22, x2
	vj_c_call	memcpy
	ldr	x8, [x21, #472]
	add	x0, x21, #344
	add	x1, x28, #488
	mov	w3, wzr
	mov	w4, wzr
	add	x2, x8, #128
	str	x2, [x21, #472]
	vj_call	blake2_compress..compress..blake2b..compress_1_arm
	mov	x26, x19
155:
	cmp	x26, #0
	cset	w8, ne
	sub	x19, x26, x8
	lsr	x20, x19, #7
	cbz	x20, 157f
	mov	x27, x22
156:
	ldr	x8, [x21, #472]
	add	x0, x21, #344
	mov	x1, x27
	mov	w3, wzr
	mov	w4, wzr
	add	x2, x8, #128
	str	x2, [x21, #472]
	vj_call	blake2_compress..compress..blake2b..compress_1_arm
	subs	x20, x20, #1
	add	x27, x27, #128
	b.ne	156b
157:
	movi	v0.2d, #0000000000000000
	and	x8, x19, #0xffffffffffffff80
	add	x10, x28, #488
	sub	x26, x26, x8
	add	x0, x28, #488
	add	x1, x22, x8
	mov	x2, x26
	stp	q0, q0, [x10]
	stp	q0, q0, [x10, #32]
	stp	q0, q0, [x10, #64]
	stp	q0, q0, [x10, #96]
	vj_c_call	memcpy
	ldr	x22, [sp, #128]
	b	168f
158:
	mov	w8, #128
	sub	x27, x8, x26
	subs	x19, x25, x27
	b.ls	162f
	mov	x20, x25
	mov	x22, x24
	cbz	x26, 172f
	add	x13, x28, #208
	add	x0, x13, x26
	sub	x8, x0, x24
	cmp	x8, x27
	b.hs	170f
	cmp	x27, #8
	b.lo	159f
	add	x8, x13, x26
	sub	x8, x8, x24
	cmp	x8, #32
	b.hs	184f
159:
	mov	x8, xzr
160:
	add	x9, x8, x26
	add	x8, x24, x8
161:
	ldrb	w10, [x8], #1
	strb	w10, [x13, x9]
	add	x9, x9, #1
	cmp	x9, #128
	b.ne	161b
	b	171f
162:
	add	x13, x28, #208
	add	x8, x13, x26
	sub	x8, x8, x24
	cmp	x8, x25
	b.hs	169f
	cmp	x25, #8
	add	x19, sp, #928
	add	x27, x28, #488
	b.lo	163f
	add	x8, x13, x26
	sub	x8, x8, x24
	cmp	x8, #32
	b.hs	182f
163:
	mov	x8, xzr
164:
	add	x10, x8, x26
	sub	x9, x25, x8
	add	x8, x24, x8
	add	x10, x13, x10
165:
	ldrb	w11, [x8], #1
	subs	x9, x9, #1
	strb	w11, [x10], #1
	b.ne	165b
166:
	add	x26, x26, x25
	b	179f
167:
	ldr	x8, [sp, #80]
	add	x1, sp, #928
	mov	x2, x26
	add	x0, x8, x20
	vj_c_call	memcpy
	add	x26, x20, x26
168:
	mov	w8, #64
	ldr	s0, [sp, #336]
	ldr	x9, [x21, #56]
	fmov	s1, w8
	mov	w8, #512
	and	x10, x25, #0x3ffffffffffffff
	ushll	v0.4s, v0.4h, #0
	add	x27, x9, x10
	movi	v2.2d, #0000000000000000
	str	x26, [x21, #616]
	ldr	x2, [sp, #304]
	ldr	x26, [sp, #328]
	mov	v1.h[1], w8
	str	x27, [x21, #56]
	add	x19, sp, #1440
	mov	w8, v0.s[1]
	str	h0, [sp, #212]
	add	x0, sp, #1504
	add	x1, sp, #288
	mul	x25, x25, x22
	mov	v1.h[2], v0.h[0]
	strh	w8, [sp, #214]
	ldr	w20, [sp, #212]
	stp	q2, q2, [x19, #64]
	mov	v1.h[3], w8
	mov	v3.16b, v1.16b
	fmov	d1, x27
	mov	v3.d[1], v1.d[0]
	str	q3, [sp, #128]
	vj_c_call	memcpy
	add	x8, sp, #1504
	add	x1, x28, #24
	mov	x2, x26
	orr	x0, x8, #0x10
	vj_c_call	memcpy
	ldp	q1, q4, [sp, #128]
	mov	x26, xzr
	ldr	q0, [sp, #192]
	ldr	q3, [sp, #160]
	mov	x8, xzr
	str	xzr, [x28, #336]
	eor	v0.16b, v1.16b, v0.16b
	ldp	q2, q1, [x19, #64]
	eor	v1.16b, v1.16b, v3.16b
	ldr	q3, [sp, #176]
	stp	q0, q4, [x21, #64]
	stp	q0, q4, [x21, #128]
	movi	v0.2d, #0000000000000000
	eor	v2.16b, v2.16b, v3.16b
	stp	q2, q1, [x21, #96]
	stp	q2, q1, [x21, #160]
	stp	q0, q0, [x28, #192]
	stp	q0, q0, [x28, #224]
	stp	q0, q0, [x28, #256]
	stp	q0, q0, [x28, #288]
	str	q0, [x28, #320]
	b	153b
169:
	add	x0, x13, x26
	mov	x1, x24
	mov	x2, x25
	vj_c_call	memmove
	add	x19, sp, #928
	add	x27, x28, #488
	add	x26, x26, x25
	b	179f
170:
	mov	x1, x24
	mov	x2, x27
	vj_c_call	memmove
171:
	ldr	x8, [x21, #192]
	add	x0, x28, #64
	add	x1, x28, #208
	mov	w3, wzr
	mov	w4, wzr
	add	x22, x24, x27
	add	x2, x8, #128
	str	x2, [x21, #192]
	vj_call	blake2_compress..compress..blake2b..compress_1_arm
	mov	x20, x19
172:
	cmp	x20, #0
	cset	w8, ne
	sub	x19, x20, x8
	lsr	x27, x19, #7
	cbz	x27, 174f
	mov	x26, x22
173:
	ldr	x8, [x21, #192]
	add	x0, x28, #64
	mov	x1, x26
	mov	w3, wzr
	mov	w4, wzr
	add	x2, x8, #128
	str	x2, [x21, #192]
	vj_call	blake2_compress..compress..blake2b..compress_1_arm
	subs	x27, x27, #1
	add	x26, x26, #128
	b.ne	173b
174:
	movi	v0.2d, #0000000000000000
	and	x8, x19, #0xffffffffffffff80
	add	x10, x28, #208
	add	x1, x22, x8
	sub	x26, x20, x8
	add	x14, x28, #208
	sub	x9, x10, x1
	cmp	x9, x26
	stp	q0, q0, [x10]
	stp	q0, q0, [x10, #32]
	stp	q0, q0, [x10, #64]
	stp	q0, q0, [x10, #96]
	b.hs	178f
	cmp	x26, #8
	add	x19, sp, #928
	add	x27, x28, #488
	b.lo	175f
	add	x9, x8, x22
	sub	x9, x14, x9
	cmp	x9, #32
	b.hs	183f
175:
	mov	x9, xzr
176:
	sub	x10, x20, x9
	add	x11, x9, x8
	add	x9, x14, x9
	sub	x8, x10, x8
	add	x10, x22, x11
177:
	ldrb	w11, [x10], #1
	subs	x8, x8, #1
	strb	w11, [x9], #1
	b.ne	177b
	b	179f
178:
	add	x0, x28, #208
	mov	x2, x26
	vj_c_call	memmove
	add	x19, sp, #928
	add	x27, x28, #488
179:
	add	x8, sp, #288
	movi	v1.2d, #0000000000000000
	ldr	x2, [sp, #304]
	add	x8, x8, #48
	str	x26, [x21, #336]
	add	x20, sp, #1440
	ld1r	{ v0.2s }, [x8]
	vj_page	x8, .L1_a64_CPI40_8
	ldr	x26, [sp, #328]
	vj_load	d2, x8, .L1_a64_CPI40_8
	ldr	x8, [x21, #56]
	add	x0, sp, #928
	add	x1, sp, #288
	stp	q1, q1, [x20, #368]
	mov	v2.s[1], v0.s[1]
	add	x8, x8, #1
	stp	q1, q1, [x20, #400]
	fmov	d0, x8
	stp	q1, q1, [x19]
	mov	v2.d[1], v0.d[0]
	str	q2, [sp, #128]
	vj_c_call	memcpy
	add	x22, sp, #928
	add	x1, x28, #24
	mov	x2, x26
	orr	x0, x22, #0x10
	vj_c_call	memcpy
	ldr	q2, [sp, #192]
	ldr	q3, [sp, #128]
	add	x0, sp, #928
	ldp	q1, q0, [x19]
	add	x1, x28, #64
	eor	v2.16b, v3.16b, v2.16b
	mov	w2, #280
	str	q2, [sp, #112]
	ldr	q2, [sp, #176]
	eor	v1.16b, v1.16b, v2.16b
	str	q1, [sp, #128]
	ldr	q1, [sp, #160]
	eor	v0.16b, v0.16b, v1.16b
	str	q0, [sp, #96]
	vj_c_call	memcpy
	ldp	q1, q0, [sp, #128]
	add	x0, sp, #1504
	ldp	q3, q2, [sp, #96]
	add	x1, x22, #144
	ldr	x2, [x19, #272]
	ldr	x8, [x19, #128]
	str	xzr, [x28, #336]
	stp	q2, q0, [x21, #64]
	add	x26, x8, x2
	stp	q1, q3, [x21, #96]
	stp	q2, q0, [x21, #128]
	movi	v0.2d, #0000000000000000
	stp	q1, q3, [x21, #160]
	str	x26, [x19, #128]
	stp	q0, q0, [x28, #192]
	stp	q0, q0, [x28, #224]
	stp	q0, q0, [x28, #256]
	stp	q0, q0, [x28, #288]
	str	q0, [x28, #320]
	stp	q0, q0, [x20, #64]
	stp	q0, q0, [x20, #96]
	stp	q0, q0, [x20, #128]
	stp	q0, q0, [x20, #160]
	vj_c_call	memcpy
	movi	v0.2d, #0000000000000000
	add	x8, sp, #1808
	ldrb	w4, [sp, #1064]
	add	x0, sp, #928
	add	x1, sp, #2016
	mov	x2, x26
	mov	w3, #1
	str	xzr, [x22, #272]
	stp	q0, q0, [x22, #144]
	stp	q0, q0, [x22, #176]
	stp	q0, q0, [x22, #208]
	stp	q0, q0, [x22, #240]
	ldp	q0, q1, [x20, #128]
	stp	q0, q1, [x8, #272]
	ldp	q2, q0, [x20, #160]
	stp	q2, q0, [x8, #304]
	ldp	q1, q0, [x20, #64]
	stp	q1, q0, [x8, #208]
	ldp	q2, q0, [x20, #96]
	stp	q2, q0, [x8, #240]
	vj_call	blake2_compress..compress..blake2b..compress_1_arm
	ldp	q0, q1, [x19]
	mov	w9, #128
	ldr	x8, [x21, #616]
	add	x10, sp, #1440
	str	q0, [x20, #368]
	ldp	q0, q2, [x19, #32]
	sub	x2, x9, x8
	cmp	x2, #64
	stp	q1, q0, [x10, #384]
	str	q2, [x10, #416]
	b.hs	151b
	add	x20, sp, #1808
	cbz	x8, 180f
	add	x0, x27, x8
	add	x1, sp, #1808
	add	x20, x20, x2
	sub	x22, x8, #64
	vj_c_call	memcpy
	ldr	x8, [x21, #472]
	add	x0, x21, #344
	add	x1, x28, #488
	mov	w3, wzr
	mov	w4, wzr
	add	x2, x8, #128
	str	x2, [x21, #472]
	vj_call	blake2_compress..compress..blake2b..compress_1_arm
	b	181f
180:
	mov	w22, #64
181:
	movi	v0.2d, #0000000000000000
	sub	x8, x22, #1
	add	x0, x28, #488
	and	x8, x8, #0xffffffffffffff80
	sub	x26, x22, x8
	add	x1, x20, x8
	mov	x2, x26
	stp	q0, q0, [x27]
	stp	q0, q0, [x27, #32]
	stp	q0, q0, [x27, #64]
	stp	q0, q0, [x27, #96]
	vj_c_call	memcpy
	b	152b
182:
	cmp	x25, #32
	b.hs	185f
	mov	x8, xzr
	b	187f
183:
	cmp	x26, #32
	b.hs	189f
	mov	x9, xzr
	b	191f
184:
	cmp	x27, #32
	b.hs	193f
	mov	x8, xzr
	b	195f
185:
	add	x11, x28, #224
	and	x9, x25, #0x18
	and	x8, x25, #0xffffffffffffffe0
	add	x10, x24, #16
	add	x11, x11, x26
	and	x12, x25, #0xffffffffffffffe0
186:
	ldp	q0, q1, [x10, #-16]
	subs	x12, x12, #32
	add	x10, x10, #32
	stp	q0, q1, [x11, #-16]
	add	x11, x11, #32
	b.ne	186b
	cmp	x25, x8
	b.eq	166b
	cbz	x9, 164b
187:
	mov	x10, x8
	and	x8, x25, #0xfffffffffffffff8
	add	x11, x26, x10
	sub	x9, x10, x8
	add	x10, x24, x10
	add	x11, x13, x11
188:
	ldr	d0, [x10], #8
	adds	x9, x9, #8
	str	d0, [x11], #8
	b.ne	188b
	cmp	x25, x8
	b.eq	166b
	b	164b
189:
	and	x10, x20, #0x1f
	add	x11, x22, x8
	add	x12, x28, #224
	sub	x9, x26, x10
	add	x11, x11, #16
	sub	x13, x26, x10
190:
	ldp	q0, q1, [x11, #-16]
	subs	x13, x13, #32
	add	x11, x11, #32
	stp	q0, q1, [x12, #-16]
	add	x12, x12, #32
	b.ne	190b
	cbz	x10, 179b
	cmp	x10, #8
	b.lo	176b
191:
	and	x10, x20, #0x7
	add	x13, x9, x8
	add	x11, x14, x9
	add	x12, x13, x10
	sub	x9, x26, x10
	add	x13, x22, x13
	sub	x12, x12, x20
192:
	ldr	d0, [x13], #8
	adds	x12, x12, #8
	str	d0, [x11], #8
	b.ne	192b
	cbnz	x10, 176b
	b	179b
193:
	add	x11, x28, #224
	and	x9, x27, #0x18
	and	x8, x27, #0xffffffffffffffe0
	add	x10, x24, #16
	add	x11, x11, x26
	and	x12, x27, #0xffffffffffffffe0
194:
	ldp	q0, q1, [x10, #-16]
	subs	x12, x12, #32
	add	x10, x10, #32
	stp	q0, q1, [x11, #-16]
	add	x11, x11, #32
	b.ne	194b
	cmp	x27, x8
	b.eq	171b
	cbz	x9, 160b
195:
	mov	x10, x8
	and	x8, x27, #0xfffffffffffffff8
	add	x11, x26, x10
	sub	x9, x10, x8
	add	x10, x24, x10
	add	x11, x13, x11
196:
	ldr	d0, [x10], #8
	adds	x9, x9, #8
	str	d0, [x11], #8
	b.ne	196b
	cmp	x27, x8
	b.eq	171b
	b	160b
197:
	mov	x22, xzr
	mov	w23, #8
	b	235f
198:
	ldr	x8, [sp, #248]
	str	x19, [sp, #72]
	add	x19, sp, #1808
	add	x0, sp, #1984
	mov	x1, x26
	mov	x2, x24
	str	x23, [sp, #160]
	str	x8, [sp, #144]
	stp	xzr, xzr, [x19, #176]
	vj_c_call	memcpy
	add	x0, sp, #2000
	mov	x1, x27
	mov	x2, x25
	stp	xzr, xzr, [x19, #192]
	vj_c_call	memcpy
	vj_page	x8, .L1_a64_CPI40_6
	movi	v3.2d, #0000000000000000
	add	x0, sp, #288
	vj_load	q0, x8, .L1_a64_CPI40_6
	ldp	q1, q2, [x19, #176]
	add	x8, sp, #1440
	add	x1, sp, #1808
	mov	x2, x24
	mov	v0.s[1], w20
	str	x24, [x8, #384]
	str	q1, [x8, #368]
	movi	v1.2d, #0000000000000000
	stur	q2, [x19, #24]
	str	x25, [x19, #40]
	add	x19, sp, #1808
	mov	v3.d[0], v0.d[0]
	str	w20, [sp, #1856]
	add	x20, sp, #288
	str	wzr, [sp, #1860]
	stp	q1, q1, [sp, #288]
	str	q3, [sp, #128]
	vj_c_call	memcpy
	orr	x0, x20, #0x10
	add	x1, x19, #24
	mov	x2, x25
	vj_c_call	memcpy
	vj_page	x8, .L1_a64_CPI40_1
	ldr	q5, [sp, #128]
	vj_page	x9, .L1_a64_CPI40_4
	vj_load	q0, x8, .L1_a64_CPI40_1
	vj_page	x8, .L1_a64_CPI40_2
	vj_load	q3, x9, .L1_a64_CPI40_4
	ldp	q2, q1, [sp, #288]
	vj_page	x9, .L1_a64_CPI40_3
	eor	v0.16b, v5.16b, v0.16b
	vj_load	q5, x8, .L1_a64_CPI40_2
	vj_load	q4, x9, .L1_a64_CPI40_3
	mov	w8, #1
	cmp	x22, #128
	add	x20, sp, #928
	eor	v1.16b, v1.16b, v3.16b
	eor	v2.16b, v2.16b, v4.16b
	add	x26, sp, #928
	stp	q0, q5, [x28]
	stp	q0, q5, [x28, #64]
	movi	v0.2d, #0000000000000000
	stp	q2, q1, [x28, #32]
	stp	q2, q1, [x28, #96]
	str	xzr, [x28, #272]
	stp	q0, q0, [x28, #128]
	stp	q0, q0, [x28, #160]
	stp	q0, q0, [x28, #192]
	stp	q0, q0, [x28, #224]
	str	q0, [x28, #256]
	strb	w8, [sp, #1064]
	b.ls	226f
	sub	x19, x22, #1
	ldr	x23, [sp, #192]
	lsr	x25, x19, #7
	mov	x24, x23
199:
	ldr	x8, [x26, #128]
	add	x0, sp, #928
	mov	x1, x24
	mov	w3, wzr
	mov	w4, wzr
	add	x2, x8, #128
	str	x2, [x26, #128]
	vj_call	blake2_compress..compress..blake2b..compress_1_arm
	subs	x25, x25, #1
	add	x24, x24, #128
	b.ne	199b
	movi	v0.2d, #0000000000000000
	and	x8, x19, #0xffffffffffffff80
	add	x0, x20, #144
	sub	x22, x22, x8
	add	x1, x23, x8
	stp	q0, q0, [x20, #144]
	stp	q0, q0, [x20, #176]
	stp	q0, q0, [x20, #208]
	stp	q0, q0, [x20, #240]
	b	227f
200:
	add	x0, sp, #928
	bl	std_io..io..error..last_error_1_a64
	ldr	x8, [sp, #48]
	mov	w9, #1
	mov	w23, #7
	strb	w9, [x8]
	b	202f
201:
	mov	w23, #6
202:
	ldr	x19, [sp, #72]
	mov	x0, x24
	vj_call	rattle_dealloc
	mov	x22, xzr
	mov	w28, #1
	b	235f
203:
	ldp	q0, q1, [x28, #160]
	movi	v2.2d, #0000000000000000
	ldur	x8, [x28, #192]
	add	x0, sp, #1504
	add	x1, x21, #344
	mov	w2, #280
	add	x20, sp, #1504
	stp	q0, q1, [x27, #96]
	ldp	q0, q1, [x28, #96]
	stp	q2, q2, [x27, #512]
	stp	q2, q2, [x27, #544]
	stp	q0, q1, [x27, #32]
	ldp	q0, q2, [x28, #128]
	str	x8, [x27, #128]
	stp	q0, q2, [x27, #64]
	ldp	q0, q1, [x28, #64]
	stp	q0, q1, [x27]
	vj_c_call	memcpy
	add	x8, sp, #288
	add	x22, sp, #928
	mov	w23, #1
	add	x8, x8, #201
	add	x9, x22, #137
	add	x19, sp, #1808
	ldur	q0, [x8, #127]
	ldp	q1, q2, [x8, #80]
	add	x0, sp, #2016
	add	x1, x22, #144
	strb	w23, [sp, #1064]
	stur	q0, [x9, #127]
	ldr	q0, [x8, #64]
	add	x24, sp, #1440
	stur	q1, [x27, #217]
	ldr	q1, [x8, #112]
	ldr	x2, [x27, #272]
	stur	q0, [x27, #201]
	ldur	q0, [x21, #201]
	ldr	x8, [x27, #128]
	stur	q2, [x27, #233]
	ldur	q2, [x21, #217]
	stur	q0, [x27, #137]
	movi	v0.2d, #0000000000000000
	stur	q1, [x27, #249]
	ldur	q1, [x21, #233]
	stur	q2, [x27, #153]
	ldur	q2, [x21, #249]
	add	x21, x8, x2
	stur	q1, [x27, #169]
	stur	q2, [x27, #185]
	str	x21, [x27, #128]
	stp	q0, q0, [x19, #208]
	stp	q0, q0, [x19, #240]
	stp	q0, q0, [x19, #272]
	stp	q0, q0, [x19, #304]
	vj_c_call	memcpy
	movi	v0.2d, #0000000000000000
	add	x0, sp, #928
	add	x1, sp, #1808
	mov	x2, x21
	mov	w3, #1
	mov	w4, #1
	str	xzr, [x27, #272]
	stp	q0, q0, [x27, #144]
	stp	q0, q0, [x27, #176]
	stp	q0, q0, [x27, #208]
	stp	q0, q0, [x27, #240]
	ldp	q0, q1, [x19, #272]
	stp	q0, q1, [x24, #432]
	ldp	q2, q0, [x19, #304]
	stp	q2, q0, [x24, #464]
	ldp	q1, q0, [x19, #208]
	stp	q1, q0, [x24, #368]
	ldp	q2, q0, [x19, #240]
	stp	q2, q0, [x24, #400]
	vj_call	blake2_compress..compress..blake2b..compress_1_arm
	ldp	q0, q1, [x27]
	add	x0, x20, #144
	ldr	x1, [x24, #336]
	add	x2, sp, #1440
	add	x4, sp, #1504
	mov	w3, #64
	stp	q0, q1, [x27, #512]
	ldp	q0, q2, [x27, #32]
	stp	q0, q2, [x27, #544]
	bl	blake2_digest..buffer..digest_into..33c1e97afcdf8a5d_1_a64
	str	x0, [x24, #336]
	add	x0, sp, #928
	add	x1, sp, #1504
	mov	w2, #280
	strb	w23, [sp, #1640]
	vj_c_call	memcpy
	movi	v0.2d, #0000000000000000
	ldr	x2, [x27, #272]
	ldr	x8, [x27, #128]
	add	x0, sp, #2016
	add	x1, x22, #144
	add	x21, x8, x2
	str	x21, [x27, #128]
	stp	q0, q0, [x19, #208]
	stp	q0, q0, [x19, #240]
	stp	q0, q0, [x19, #272]
	stp	q0, q0, [x19, #304]
	vj_c_call	memcpy
	movi	v0.2d, #0000000000000000
	ldrb	w4, [sp, #1064]
	add	x0, sp, #928
	add	x1, sp, #1808
	mov	x2, x21
	mov	w3, #1
	str	xzr, [x27, #272]
	stp	q0, q0, [x27, #144]
	stp	q0, q0, [x27, #176]
	stp	q0, q0, [x27, #208]
	stp	q0, q0, [x27, #240]
	ldp	q0, q1, [x19, #272]
	stp	q0, q1, [x24, #432]
	ldp	q2, q0, [x19, #304]
	stp	q2, q0, [x24, #464]
	ldp	q1, q0, [x19, #208]
	stp	q1, q0, [x24, #368]
	ldp	q2, q0, [x19, #240]
	stp	q2, q0, [x24, #400]
	vj_call	blake2_compress..compress..blake2b..compress_1_arm
	ldp	q0, q1, [x27]
	mov	x8, xzr
	orr	x9, x22, #0x1
	str	xzr, [x27, #416]
	stp	q0, q1, [sp, #224]
	movi	v0.2d, #0000000000000000
	stp	q0, q0, [x27]
	stp	q0, q0, [x27, #32]
	stp	q0, q0, [x27, #64]
	stp	q0, q0, [x27, #96]
	stp	q0, q0, [x27, #128]
	stp	q0, q0, [x27, #160]
	stp	q0, q0, [x27, #192]
	stp	q0, q0, [x27, #224]
	stp	q0, q0, [x27, #256]
	stp	q0, q0, [x27, #288]
	stp	q0, q0, [x27, #320]
	stp	q0, q0, [x27, #352]
	stp	q0, q0, [x27, #384]
204:
	add	x10, sp, #224
	vj_page	x12, .L1_a64_static.37
	vj_address	x12, x12, .L1_a64_static.37
	ldrb	w10, [x10, x8]
	add	x8, x8, #1
	cmp	x8, #32
	lsr	x11, x10, #4
	and	x10, x10, #0xf
	ldrb	w10, [x12, x10]
	ldrb	w11, [x12, x11]
	sturb	w11, [x9, #-1]
	strb	w10, [x9], #2
	b.ne	204b
	ldr	x20, [sp, #40]
	mov	x19, xzr
	mov	w8, #10
	mov	w9, #65
	strb	w8, [sp, #992]
	str	x9, [x27, #424]
205:
	mov	w8, #65
	add	x9, sp, #928
	mov	w0, #1
	sub	x21, x8, x19
	add	x1, x9, x19
	mov	w28, #1
	mov	x2, x21
	vj_system_call	write, b2_write
	tbnz	x0, #63, 230f
	cmp	x0, x21
	csel	x8, x0, x21, lo
	cbz	x8, 231f
	add	x19, x8, x19
	cmp	x19, #64
	b.ls	205b
	b	209f
206:
	ldp	q0, q1, [x28, #160]
	movi	v2.2d, #0000000000000000
	ldur	x8, [x28, #192]
	add	x0, sp, #1504
	add	x1, x21, #344
	mov	w2, #280
	add	x20, sp, #1504
	stp	q0, q1, [x27, #96]
	ldp	q0, q1, [x28, #96]
	stp	q2, q2, [x27, #512]
	stp	q2, q2, [x27, #544]
	stp	q0, q1, [x27, #32]
	ldp	q0, q2, [x28, #128]
	str	x8, [x27, #128]
	stp	q0, q2, [x27, #64]
	ldp	q0, q1, [x28, #64]
	stp	q0, q1, [x27]
	vj_c_call	memcpy
	add	x8, sp, #288
	add	x22, sp, #928
	mov	w23, #1
	add	x8, x8, #201
	add	x9, x22, #137
	add	x19, sp, #1808
	ldur	q0, [x8, #127]
	ldp	q1, q2, [x8, #80]
	add	x0, sp, #2016
	add	x1, x22, #144
	strb	w23, [sp, #1064]
	stur	q0, [x9, #127]
	ldr	q0, [x8, #64]
	add	x24, sp, #1440
	stur	q1, [x27, #217]
	ldr	q1, [x8, #112]
	ldr	x2, [x27, #272]
	stur	q0, [x27, #201]
	ldur	q0, [x21, #201]
	ldr	x8, [x27, #128]
	stur	q2, [x27, #233]
	ldur	q2, [x21, #217]
	stur	q0, [x27, #137]
	movi	v0.2d, #0000000000000000
	stur	q1, [x27, #249]
	ldur	q1, [x21, #233]
	stur	q2, [x27, #153]
	ldur	q2, [x21, #249]
	add	x21, x8, x2
	stur	q1, [x27, #169]
	stur	q2, [x27, #185]
	str	x21, [x27, #128]
	stp	q0, q0, [x19, #208]
	stp	q0, q0, [x19, #240]
	stp	q0, q0, [x19, #272]
	stp	q0, q0, [x19, #304]
	vj_c_call	memcpy
	movi	v0.2d, #0000000000000000
	add	x0, sp, #928
	add	x1, sp, #1808
	mov	x2, x21
	mov	w3, #1
	mov	w4, #1
	str	xzr, [x27, #272]
	stp	q0, q0, [x27, #144]
	stp	q0, q0, [x27, #176]
	stp	q0, q0, [x27, #208]
	stp	q0, q0, [x27, #240]
	ldp	q0, q1, [x19, #272]
	stp	q0, q1, [x24, #432]
	ldp	q2, q0, [x19, #304]
	stp	q2, q0, [x24, #464]
	ldp	q1, q0, [x19, #208]
	stp	q1, q0, [x24, #368]
	ldp	q2, q0, [x19, #240]
	stp	q2, q0, [x24, #400]
	vj_call	blake2_compress..compress..blake2b..compress_1_arm
	ldp	q0, q1, [x27]
	add	x0, x20, #144
	ldr	x1, [x24, #336]
	add	x2, sp, #1440
	add	x4, sp, #1504
	mov	w3, #64
	stp	q0, q1, [x27, #512]
	ldp	q0, q2, [x27, #32]
	stp	q0, q2, [x27, #544]
	bl	blake2_digest..buffer..digest_into..33c1e97afcdf8a5d_1_a64
	str	x0, [x24, #336]
	add	x0, sp, #928
	add	x1, sp, #1504
	mov	w2, #280
	strb	w23, [sp, #1640]
	vj_c_call	memcpy
	movi	v0.2d, #0000000000000000
	ldr	x2, [x27, #272]
	ldr	x8, [x27, #128]
	add	x0, sp, #2016
	add	x1, x22, #144
	add	x21, x8, x2
	str	x21, [x27, #128]
	stp	q0, q0, [x19, #208]
	stp	q0, q0, [x19, #240]
	stp	q0, q0, [x19, #272]
	stp	q0, q0, [x19, #304]
	vj_c_call	memcpy
	movi	v0.2d, #0000000000000000
	ldrb	w4, [sp, #1064]
	add	x0, sp, #928
	add	x1, sp, #1808
	mov	x2, x21
	mov	w3, #1
	str	xzr, [x27, #272]
	stp	q0, q0, [x27, #144]
	stp	q0, q0, [x27, #176]
	stp	q0, q0, [x27, #208]
	stp	q0, q0, [x27, #240]
	ldp	q0, q1, [x19, #272]
	stp	q0, q1, [x24, #432]
	ldp	q2, q0, [x19, #304]
	stp	q2, q0, [x24, #464]
	ldp	q1, q0, [x19, #208]
	stp	q1, q0, [x24, #368]
	ldp	q2, q0, [x19, #240]
	stp	q2, q0, [x24, #400]
	vj_call	blake2_compress..compress..blake2b..compress_1_arm
	ldp	q0, q1, [x27]
	mov	x8, xzr
	orr	x9, x22, #0x1
	str	xzr, [x27, #416]
	stp	q0, q1, [sp, #224]
	ldp	q0, q2, [x27, #32]
	stp	q0, q2, [sp, #256]
	movi	v0.2d, #0000000000000000
	stp	q0, q0, [x27]
	stp	q0, q0, [x27, #32]
	stp	q0, q0, [x27, #64]
	stp	q0, q0, [x27, #96]
	stp	q0, q0, [x27, #128]
	stp	q0, q0, [x27, #160]
	stp	q0, q0, [x27, #192]
	stp	q0, q0, [x27, #224]
	stp	q0, q0, [x27, #256]
	stp	q0, q0, [x27, #288]
	stp	q0, q0, [x27, #320]
	stp	q0, q0, [x27, #352]
	stp	q0, q0, [x27, #384]
207:
	add	x10, sp, #224
	vj_page	x12, .L1_a64_static.37
	vj_address	x12, x12, .L1_a64_static.37
	ldrb	w10, [x10, x8]
	add	x8, x8, #1
	cmp	x8, #64
	lsr	x11, x10, #4
	and	x10, x10, #0xf
	ldrb	w10, [x12, x10]
	ldrb	w11, [x12, x11]
	sturb	w11, [x9, #-1]
	strb	w10, [x9], #2
	b.ne	207b
	ldr	x20, [sp, #40]
	mov	x19, xzr
	mov	w8, #10
	mov	w9, #129
	strb	w8, [sp, #1056]
	str	x9, [x27, #424]
208:
	mov	w8, #129
	add	x9, sp, #928
	mov	w0, #1
	sub	x21, x8, x19
	add	x1, x9, x19
	mov	w28, #1
	mov	x2, x21
	vj_system_call	write, b2_write
	tbnz	x0, #63, 230f
	cmp	x0, x21
	csel	x8, x0, x21, lo
	cbz	x8, 231f
	add	x19, x8, x19
	cmp	x19, #128
	b.ls	208b
209:
	mov	w28, wzr
	b	233f
210:
	ldp	q0, q1, [x28, #160]
	movi	v2.2d, #0000000000000000
	add	x25, sp, #928
	ldur	x8, [x28, #192]
	add	x0, sp, #1504
	add	x1, x21, #344
	mov	w2, #280
	add	x23, sp, #1504
	stp	q0, q1, [x25, #96]
	ldp	q0, q1, [x28, #96]
	stp	q2, q2, [x25, #512]
	stp	q2, q2, [x25, #544]
	stp	q0, q1, [x25, #32]
	ldp	q0, q2, [x28, #128]
	str	x8, [x25, #128]
	stp	q0, q2, [x25, #64]
	ldp	q0, q1, [x28, #64]
	stp	q0, q1, [x25]
	vj_c_call	memcpy
	add	x8, sp, #288
	add	x20, sp, #928
	mov	x26, x24
	add	x8, x8, #201
	add	x9, x20, #137
	mov	w24, #1
	ldur	q0, [x8, #127]
	ldp	q1, q2, [x8, #80]
	add	x19, sp, #1808
	add	x0, sp, #2016
	add	x1, x20, #144
	stur	q0, [x9, #127]
	ldr	q0, [x8, #64]
	stur	q1, [x25, #217]
	ldr	q1, [x8, #112]
	ldr	x2, [x25, #272]
	stur	q0, [x25, #201]
	ldur	q0, [x21, #201]
	ldr	x8, [x25, #128]
	stur	q2, [x25, #233]
	ldur	q2, [x21, #217]
	stur	q0, [x25, #137]
	movi	v0.2d, #0000000000000000
	add	x22, x8, x2
	stur	q1, [x25, #249]
	ldur	q1, [x21, #233]
	stur	q2, [x25, #153]
	ldur	q2, [x21, #249]
	add	x21, sp, #1440
	stur	q1, [x25, #169]
	stur	q2, [x25, #185]
	strb	w24, [sp, #1064]
	str	x22, [x25, #128]
	stp	q0, q0, [x19, #208]
	stp	q0, q0, [x19, #240]
	stp	q0, q0, [x19, #272]
	stp	q0, q0, [x19, #304]
	vj_c_call	memcpy
	movi	v0.2d, #0000000000000000
	add	x0, sp, #928
	add	x1, sp, #1808
	mov	x2, x22
	mov	w3, #1
	mov	w4, #1
	str	xzr, [x25, #272]
	stp	q0, q0, [x25, #144]
	stp	q0, q0, [x25, #176]
	stp	q0, q0, [x25, #208]
	stp	q0, q0, [x25, #240]
	ldp	q0, q1, [x19, #272]
	stp	q0, q1, [x21, #432]
	ldp	q2, q0, [x19, #304]
	stp	q2, q0, [x21, #464]
	ldp	q1, q0, [x19, #208]
	stp	q1, q0, [x21, #368]
	ldp	q2, q0, [x19, #240]
	stp	q2, q0, [x21, #400]
	vj_call	blake2_compress..compress..blake2b..compress_1_arm
	ldp	q0, q1, [x25]
	add	x0, x23, #144
	ldr	x1, [x21, #336]
	add	x2, sp, #1440
	add	x4, sp, #1504
	mov	w3, #64
	stp	q0, q1, [x25, #512]
	ldp	q0, q2, [x25, #32]
	stp	q0, q2, [x25, #544]
	bl	blake2_digest..buffer..digest_into..33c1e97afcdf8a5d_1_a64
	str	x0, [x21, #336]
	add	x0, sp, #928
	add	x1, sp, #1504
	mov	w2, #280
	strb	w24, [sp, #1640]
	vj_c_call	memcpy
	movi	v0.2d, #0000000000000000
	ldr	x2, [x25, #272]
	ldr	x8, [x25, #128]
	add	x0, sp, #2016
	add	x1, x20, #144
	add	x22, x8, x2
	str	x22, [x25, #128]
	stp	q0, q0, [x19, #208]
	stp	q0, q0, [x19, #240]
	stp	q0, q0, [x19, #272]
	stp	q0, q0, [x19, #304]
	vj_c_call	memcpy
	movi	v0.2d, #0000000000000000
	movi	v1.2d, #0000000000000000
	ldrb	w4, [sp, #1064]
	add	x0, sp, #928
	add	x1, sp, #1808
	mov	x2, x22
	mov	w3, #1
	str	xzr, [x25, #272]
	stp	q0, q0, [x25, #144]
	stp	q0, q0, [x25, #176]
	stp	q0, q0, [x25, #208]
	stp	q1, q1, [x25, #240]
	ldp	q0, q1, [x19, #272]
	stp	q0, q1, [x21, #432]
	ldp	q2, q0, [x19, #304]
	stp	q2, q0, [x21, #464]
	ldp	q1, q0, [x19, #208]
	stp	q1, q0, [x21, #368]
	ldp	q2, q0, [x19, #240]
	stp	q2, q0, [x21, #400]
	vj_call	blake2_compress..compress..blake2b..compress_1_arm
	ldr	q0, [x25]
	ldr	x2, [sp, #64]
	add	x0, sp, #224
	add	x1, sp, #1952
	str	q0, [x19, #144]
	bl	b2_commands..print..print_digest..004958335f60c8e6_1_a64
	mov	x0, x26
	vj_call	rattle_dealloc
	ldrb	w28, [sp, #224]
	ldrb	w23, [sp, #232]
	ldr	x22, [sp, #240]
	ldr	x19, [sp, #72]
	b	235f
211:
	ldr	x26, [sp, #192]
	add	x0, x20, #144
	mov	x2, x22
	mov	x1, x26
	vj_c_call	memcpy
	ldr	x27, [sp, #160]
212:
	add	x0, sp, #288
	add	x1, sp, #928
	mov	w2, #280
	str	x22, [x25, #272]
	add	x20, sp, #288
	vj_c_call	memcpy
	movi	v0.2d, #0000000000000000
	ldr	x2, [x21, #272]
	ldr	x8, [x21, #128]
	add	x19, sp, #1440
	add	x0, sp, #1504
	add	x1, x20, #144
	add	x22, x8, x2
	str	x22, [x21, #128]
	stp	q0, q0, [x19, #64]
	stp	q0, q0, [x19, #96]
	stp	q0, q0, [x19, #128]
	stp	q0, q0, [x19, #160]
	vj_c_call	memcpy
	movi	v0.2d, #0000000000000000
	ldrb	w4, [sp, #424]
	add	x0, sp, #288
	add	x1, sp, #2016
	mov	x2, x22
	mov	w3, #1
	str	xzr, [x21, #272]
	stp	q0, q0, [x21, #144]
	stp	q0, q0, [x21, #176]
	stp	q0, q0, [x21, #208]
	stp	q0, q0, [x21, #240]
	ldp	q0, q1, [x19, #128]
	stp	q0, q1, [x28, #272]
	ldp	q2, q0, [x19, #160]
	stp	q2, q0, [x28, #304]
	ldp	q1, q0, [x19, #64]
	stp	q1, q0, [x28, #208]
	ldp	q2, q0, [x19, #96]
	stp	q2, q0, [x28, #240]
	vj_call	blake2_compress..compress..blake2b..compress_1_arm
	ldp	q0, q1, [sp, #288]
	mov	x8, xzr
	orr	x9, x20, #0x1
	str	xzr, [x21, #416]
	stp	q0, q1, [x25, #512]
	movi	v0.2d, #0000000000000000
	stp	q0, q0, [x21, #64]
	stp	q0, q0, [x21, #96]
	stp	q0, q0, [x21, #128]
	stp	q0, q0, [x21, #160]
	stp	q0, q0, [x21, #192]
	stp	q0, q0, [x21, #224]
	stp	q0, q0, [x21, #256]
	stp	q0, q0, [x21, #288]
	stp	q0, q0, [x21, #320]
	stp	q0, q0, [x21, #352]
	stp	q0, q0, [x21, #384]
	stp	q0, q0, [sp, #288]
	stp	q0, q0, [sp, #320]
213:
	add	x10, sp, #1440
	vj_page	x12, .L1_a64_static.37
	vj_address	x12, x12, .L1_a64_static.37
	ldrb	w10, [x10, x8]
	add	x8, x8, #1
	cmp	x8, #32
	lsr	x11, x10, #4
	and	x10, x10, #0xf
	ldrb	w10, [x12, x10]
	ldrb	w11, [x12, x11]
	sturb	w11, [x9, #-1]
	strb	w10, [x9], #2
	b.ne	213b
	mov	x19, xzr
	mov	w8, #10
	mov	w9, #65
	strb	w8, [sp, #352]
	str	x9, [x21, #424]
214:
	mov	w8, #65
	add	x9, sp, #288
	mov	w0, #1
	sub	x21, x8, x19
	add	x1, x9, x19
	mov	w28, #1
	mov	x2, x21
	vj_system_call	write, b2_write
	tbnz	x0, #63, 220f
	cmp	x0, x21
	csel	x8, x0, x21, lo
	cbz	x8, 221f
	add	x19, x8, x19
	cmp	x19, #64
	b.ls	214b
	b	219f
215:
	ldr	x26, [sp, #192]
	add	x0, x20, #144
	mov	x2, x22
	mov	x1, x26
	vj_c_call	memcpy
	ldr	x27, [sp, #160]
216:
	add	x0, sp, #288
	add	x1, sp, #928
	mov	w2, #280
	str	x22, [x25, #272]
	add	x20, sp, #288
	vj_c_call	memcpy
	movi	v0.2d, #0000000000000000
	ldr	x2, [x21, #272]
	ldr	x8, [x21, #128]
	add	x22, sp, #1440
	add	x0, sp, #1504
	add	x1, x20, #144
	add	x19, x8, x2
	str	x19, [x21, #128]
	stp	q0, q0, [x22, #64]
	stp	q0, q0, [x22, #96]
	stp	q0, q0, [x22, #128]
	stp	q0, q0, [x22, #160]
	vj_c_call	memcpy
	movi	v0.2d, #0000000000000000
	ldrb	w4, [sp, #424]
	add	x0, sp, #288
	add	x1, sp, #2016
	mov	x2, x19
	mov	w3, #1
	str	xzr, [x21, #272]
	stp	q0, q0, [x21, #144]
	stp	q0, q0, [x21, #176]
	stp	q0, q0, [x21, #208]
	stp	q0, q0, [x21, #240]
	ldp	q0, q1, [x22, #128]
	stp	q0, q1, [x28, #272]
	ldp	q2, q0, [x22, #160]
	stp	q2, q0, [x28, #304]
	ldp	q1, q0, [x22, #64]
	stp	q1, q0, [x28, #208]
	ldp	q2, q0, [x22, #96]
	stp	q2, q0, [x28, #240]
	vj_call	blake2_compress..compress..blake2b..compress_1_arm
	ldp	q0, q1, [sp, #288]
	mov	x8, xzr
	orr	x9, x20, #0x1
	stp	q0, q1, [x28]
	ldp	q0, q2, [sp, #320]
	str	xzr, [x21, #416]
	stp	q0, q2, [x28, #32]
	movi	v0.2d, #0000000000000000
	stp	q0, q0, [x21, #64]
	stp	q0, q0, [x21, #96]
	stp	q0, q0, [x21, #128]
	stp	q0, q0, [x21, #160]
	stp	q0, q0, [x21, #192]
	stp	q0, q0, [x21, #224]
	stp	q0, q0, [x21, #256]
	stp	q0, q0, [x21, #288]
	stp	q0, q0, [x21, #320]
	stp	q0, q0, [x21, #352]
	stp	q0, q0, [x21, #384]
	stp	q0, q0, [sp, #288]
	stp	q0, q0, [sp, #320]
217:
	add	x10, sp, #1808
	vj_page	x12, .L1_a64_static.37
	vj_address	x12, x12, .L1_a64_static.37
	ldrb	w10, [x10, x8]
	add	x8, x8, #1
	cmp	x8, #64
	lsr	x11, x10, #4
	and	x10, x10, #0xf
	ldrb	w10, [x12, x10]
	ldrb	w11, [x12, x11]
	sturb	w11, [x9, #-1]
	strb	w10, [x9], #2
	b.ne	217b
	mov	x19, xzr
	mov	w8, #10
	mov	w9, #129
	strb	w8, [sp, #416]
	str	x9, [x21, #424]
218:
	mov	w8, #129
	add	x9, sp, #288
	mov	w0, #1
	sub	x21, x8, x19
	add	x1, x9, x19
	mov	w28, #1
	mov	x2, x21
	vj_system_call	write, b2_write
	tbnz	x0, #63, 220f
	cmp	x0, x21
	csel	x8, x0, x21, lo
	cbz	x8, 221f
	add	x19, x8, x19
	cmp	x19, #128
	b.ls	218b
219:
	mov	w28, wzr
	b	223f
220:
	add	x0, sp, #928
	bl	std_io..io..error..last_error_1_a64
	b	222f
221:
	mov	w28, #1
222:
	ldr	x8, [sp, #64]
	strb	w28, [x8]
223:
	ldr	x19, [sp, #72]
	cbz	x23, 224f
	mov	x0, x26
	vj_call	rattle_dealloc
224:
	cbz	x27, 225f
	ldr	x0, [sp, #176]
	vj_call	rattle_dealloc
225:
	cmp	w28, #0
	mov	w8, #9
	mov	x22, xzr
	csel	w23, w8, wzr, ne
	b	235f
226:
	ldr	x23, [sp, #192]
	add	x0, x20, #144
	mov	x1, x23
227:
	mov	x2, x22
	vj_c_call	memcpy
	add	x0, sp, #288
	add	x1, sp, #928
	mov	w2, #280
	str	x22, [x26, #272]
	add	x20, sp, #288
	vj_c_call	memcpy
	movi	v0.2d, #0000000000000000
	ldr	x2, [x21, #272]
	ldr	x8, [x21, #128]
	add	x22, sp, #1440
	add	x0, sp, #1504
	add	x1, x20, #144
	add	x19, x8, x2
	str	x19, [x21, #128]
	stp	q0, q0, [x22, #64]
	stp	q0, q0, [x22, #96]
	stp	q0, q0, [x22, #128]
	stp	q0, q0, [x22, #160]
	vj_c_call	memcpy
	movi	v0.2d, #0000000000000000
	str	xzr, [x21, #272]
	ldrb	w4, [sp, #424]
	add	x0, sp, #288
	add	x1, sp, #2016
	mov	x2, x19
	mov	w3, #1
	stp	q0, q0, [x21, #144]
	stp	q0, q0, [x21, #176]
	stp	q0, q0, [x21, #208]
	stp	q0, q0, [x21, #240]
	ldp	q0, q1, [x22, #128]
	add	x21, sp, #1808
	stp	q0, q1, [x21, #272]
	ldp	q2, q0, [x22, #160]
	stp	q2, q0, [x21, #304]
	ldp	q1, q0, [x22, #64]
	stp	q1, q0, [x21, #208]
	ldp	q2, q0, [x22, #96]
	stp	q2, q0, [x21, #240]
	vj_call	blake2_compress..compress..blake2b..compress_1_arm
	ldr	q0, [sp, #288]
	ldr	x2, [sp, #64]
	add	x0, sp, #1952
	add	x1, sp, #1936
	add	x20, sp, #1808
	str	q0, [x21, #128]
	bl	b2_commands..print..print_digest..004958335f60c8e6_1_a64
	ldr	x21, [sp, #160]
	ldr	x8, [sp, #144]
	cbz	x8, 228f
	mov	x0, x23
	vj_call	rattle_dealloc
228:
	ldr	x19, [sp, #72]
	cbz	x21, 229f
	ldr	x0, [sp, #176]
	vj_call	rattle_dealloc
229:
	ldrb	w28, [sp, #1952]
	ldrb	w23, [sp, #1960]
	ldr	x22, [x20, #160]
	b	235f
230:
	add	x0, sp, #1504
	bl	std_io..io..error..last_error_1_a64
	b	232f
231:
	mov	w28, #1
232:
	ldr	x8, [sp, #64]
	strb	w28, [x8]
233:
	mov	x0, x20
	vj_call	rattle_dealloc
	cmp	w28, #0
	mov	w8, #9
	ldr	x19, [sp, #72]
	csel	w23, w8, wzr, ne
234:
	mov	x22, xzr
235:
	and	x8, x23, #0xff
	strb	w28, [x19]
	stp	x8, x22, [x19, #8]
	mov	sp, x29
	ldp	x20, x19, [sp, #80]
	ldp	x22, x21, [sp, #64]
	ldp	x24, x23, [sp, #48]
	ldp	x26, x25, [sp, #32]
	ldp	x28, x27, [sp, #16]
	ldp	x29, x30, [sp], #96
	ret
236:
	brk	#0x1
	vj_end	b2_commands..tree..tree..c4a7301ddbaa7a35_1_a64

	vj_function	b2_commands..print..print_digest..004958335f60c8e6_1_a64
	stp	x29, x30, [sp, #-64]!
	stp	x28, x23, [sp, #16]
	mov	x29, sp
	stp	x22, x21, [sp, #32]
	stp	x20, x19, [sp, #48]
	sub	sp, sp, #528
	ldrb	w9, [x1]
	vj_page	x8, .L1_a64_static.37
	vj_address	x8, x8, .L1_a64_static.37
	ldrb	w10, [x1, #1]
	ldrb	w12, [x1, #2]
	movi	v0.2d, #0000000000000000
	lsr	x11, x9, #4
	and	x9, x9, #0xf
	mov	x20, x2
	ldrb	w9, [x8, x9]
	lsr	x13, x10, #4
	and	x10, x10, #0xf
	ldrb	w11, [x8, x11]
	ldrb	w10, [x8, x10]
	mov	x19, x0
	strb	w9, [sp, #9]
	lsr	x9, x12, #4
	and	x12, x12, #0xf
	strb	w11, [sp, #8]
	ldrb	w11, [x1, #3]
	ldrb	w13, [x8, x13]
	ldrb	w9, [x8, x9]
	strb	w10, [sp, #11]
	ldrb	w10, [x8, x12]
	lsr	x12, x11, #4
	strb	w13, [sp, #10]
	and	x11, x11, #0xf
	strb	w9, [sp, #12]
	ldrb	w9, [x1, #4]
	ldrb	w13, [x1, #5]
	strb	w10, [sp, #13]
	ldrb	w10, [x8, x12]
	mov	x22, xzr
	lsr	x12, x9, #4
	and	x9, x9, #0xf
	stur	q0, [sp, #40]
	strb	w10, [sp, #14]
	ldrb	w10, [x8, x11]
	ldrb	w9, [x8, x9]
	ldrb	w11, [x8, x12]
	lsr	x12, x13, #4
	stur	q0, [sp, #248]
	strb	w10, [sp, #15]
	ldrb	w10, [x1, #6]
	strb	w11, [sp, #16]
	ldrb	w11, [x8, x12]
	and	x12, x13, #0xf
	strb	w9, [sp, #17]
	ldrb	w9, [x8, x12]
	lsr	x12, x10, #4
	strb	w11, [sp, #18]
	ldrb	w11, [x1, #7]
	and	x10, x10, #0xf
	strb	w9, [sp, #19]
	ldrb	w9, [x8, x12]
	ldrb	w13, [x1, #8]
	lsr	x12, x11, #4
	and	x11, x11, #0xf
	stur	q0, [sp, #232]
	strb	w9, [sp, #20]
	ldrb	w9, [x8, x10]
	ldrb	w10, [x8, x12]
	lsr	x12, x13, #4
	stur	q0, [sp, #216]
	strb	w9, [sp, #21]
	ldrb	w9, [x8, x11]
	ldrb	w11, [x1, #9]
	strb	w10, [sp, #22]
	ldrb	w10, [x8, x12]
	and	x12, x13, #0xf
	strb	w9, [sp, #23]
	ldrb	w9, [x8, x12]
	lsr	x12, x11, #4
	strb	w10, [sp, #24]
	ldrb	w10, [x1, #10]
	and	x11, x11, #0xf
	strb	w9, [sp, #25]
	ldrb	w9, [x8, x12]
	ldrb	w13, [x1, #11]
	lsr	x12, x10, #4
	and	x10, x10, #0xf
	stur	q0, [sp, #200]
	strb	w9, [sp, #26]
	ldrb	w9, [x8, x11]
	ldrb	w11, [x8, x12]
	lsr	x12, x13, #4
	stur	q0, [sp, #184]
	strb	w9, [sp, #27]
	ldrb	w9, [x8, x10]
	ldrb	w10, [x1, #12]
	strb	w11, [sp, #28]
	ldrb	w11, [x8, x12]
	and	x12, x13, #0xf
	strb	w9, [sp, #29]
	ldrb	w9, [x8, x12]
	lsr	x12, x10, #4
	strb	w11, [sp, #30]
	ldrb	w11, [x1, #13]
	and	x10, x10, #0xf
	strb	w9, [sp, #31]
	ldrb	w9, [x8, x12]
	ldrb	w13, [x1, #14]
	lsr	x12, x11, #4
	and	x11, x11, #0xf
	stur	q0, [sp, #168]
	strb	w9, [sp, #32]
	ldrb	w9, [x8, x10]
	ldrb	w10, [x8, x12]
	lsr	x12, x13, #4
	stur	q0, [sp, #152]
	strb	w9, [sp, #33]
	ldrb	w9, [x8, x11]
	strb	w10, [sp, #34]
	ldrb	w10, [x8, x12]
	strb	w9, [sp, #35]
	add	x9, sp, #153
	stur	q0, [x9, #255]
	add	x9, sp, #137
	stur	q0, [x9, #255]
	add	x9, sp, #121
	stur	q0, [x9, #255]
	add	x9, sp, #105
	stur	q0, [x9, #255]
	add	x9, sp, #89
	stur	q0, [x9, #255]
	add	x9, sp, #73
	stur	q0, [x9, #255]
	add	x9, sp, #57
	stur	q0, [x9, #255]
	add	x9, sp, #41
	stur	q0, [x9, #255]
	add	x9, sp, #25
	stur	q0, [x9, #255]
	add	x9, sp, #9
	stur	q0, [x9, #255]
	and	x9, x13, #0xf
	strb	w10, [sp, #36]
	ldrb	w9, [x8, x9]
	ldrb	w10, [x1, #15]
	stur	q0, [sp, #136]
	strb	w9, [sp, #37]
	lsr	x9, x10, #4
	and	x10, x10, #0xf
	stur	q0, [sp, #120]
	ldrb	w9, [x8, x9]
	ldrb	w8, [x8, x10]
	stur	q0, [sp, #104]
	stur	q0, [sp, #88]
	strb	w8, [sp, #39]
	mov	w8, #10
	strb	w8, [sp, #40]
	mov	w8, #33
	stur	q0, [sp, #72]
	stur	q0, [sp, #56]
	strb	w9, [sp, #38]
	stp	xzr, x8, [sp, #424]
1:
	mov	w8, #33
	add	x9, sp, #8
	mov	w0, #1
	sub	x21, x8, x22
	add	x1, x9, x22
	mov	w23, #1
	mov	x2, x21
	vj_system_call	write, b2_write
	tbnz	x0, #63, 2f
	cmp	x0, x21
	csel	x8, x0, x21, lo
	cbz	x8, 3f
	add	x22, x8, x22
	cmp	x22, #32
	b.ls	1b
	mov	w23, wzr
	b	4f
2:
	sub	x0, x29, #88
	bl	std_io..io..error..last_error_1_a64
3:
	strb	w23, [x20]
4:
	cmp	w23, #0
	mov	w8, #9
	strb	w23, [x19]
	csel	x8, x8, xzr, ne
	stp	x8, xzr, [x19, #8]
	add	sp, sp, #528
	ldp	x20, x19, [sp, #48]
	ldp	x22, x21, [sp, #32]
	ldp	x28, x23, [sp, #16]
	ldp	x29, x30, [sp], #64
	ret
	vj_end	b2_commands..print..print_digest..004958335f60c8e6_1_a64

	vj_constants	16
	.p2align	4, 0x0
.L1_a64_CPI42_0:
	.quad	1
	.quad	8
.L1_a64_CPI42_1:
	.quad	1
	.quad	3
.L1_a64_CPI42_2:
	.quad	1
	.quad	0
	vj_function	b2_commands..leaf_lines..digests_of_1_a64
	sub	sp, sp, #384
	movi	v0.2d, #0000000000000000
	stp	x20, x19, [sp, #368]
	mov	x19, x0
	stp	x29, x30, [sp, #304]
	add	x29, sp, #304
	stp	x28, x25, [sp, #320]
	stp	x24, x23, [sp, #336]
	stp	x22, x21, [sp, #352]
	str	wzr, [sp, #56]
	stp	q0, q0, [sp]
	stp	q0, q0, [sp, #64]
	stp	q0, q0, [sp, #96]
	stur	wzr, [sp, #59]
	stur	q0, [sp, #25]
	cbz	x2, 16f
	mov	x21, x2
	mov	x20, x1
	sub	x0, x29, #1
	sub	x22, x29, #144
	sub	x23, x29, #80
	add	x24, sp, #64
	stp	xzr, xzr, [sp, #144]
	str	x0, [sp, #136]
1:
	add	x9, x20, #1
	mov	x8, xzr
	mov	x10, x21
	mov	x20, x9
2:
	ldurb	w11, [x20, #-1]
	cmp	w11, #10
	b.eq	3f
	add	x8, x8, #1
	add	x20, x20, #1
	cmp	x10, x8
	b.ne	2b
	mov	x21, xzr
	vj_page	x20, .L1_a64_static.0
	vj_address	x20, x20, .L1_a64_static.0
	b	4f
3:
	mvn	x11, x8
	add	x21, x11, x10
	mov	x10, x8
4:
	ldr	x8, [sp, #144]
	movi	v0.2d, #0000000000000000
	cmp	x10, #128
	stur	wzr, [x29, #-88]
	lsr	x11, x8, #6
	stur	wzr, [x22, #59]
	add	x25, x11, #1
	stp	q0, q0, [x29, #-144]
	stur	q0, [x29, #-112]
	stp	q0, q0, [x29, #-80]
	stp	q0, q0, [x29, #-48]
	b.ne	11f
	mov	x10, xzr
	b	7f
5:
	sub	w13, w12, #55
6:
	add	w11, w13, w11, lsl #4
	sub	x12, x29, #80
	add	x9, x9, #2
	strb	w11, [x12, x10]
	add	x10, x10, #1
	cmp	x10, #64
	b.eq	14f
7:
	ldurb	w13, [x9, #-1]
	subs	w11, w13, #48
	b.lo	11f
	ldrb	w12, [x9]
	cmp	w13, #57
	b.ls	8f
	cmp	w13, #65
	b.lo	11f
	cmp	w13, #70
	b.hi	10f
	sub	w11, w13, #55
8:
	subs	w13, w12, #48
	b.lo	11f
9:
	cmp	w12, #57
	b.ls	6b
	cmp	w12, #65
	b.lo	11f
	cmp	w12, #70
	b.ls	5b
	sub	w13, w12, #97
	cmp	w13, #5
	b.hi	11f
	sub	w13, w12, #87
	b	6b
10:
	sub	w11, w13, #97
	cmp	w11, #5
	b.hi	11f
	sub	w11, w13, #87
	subs	w13, w12, #48
	b.hs	9b
11:
	mov	w10, wzr
	mov	w9, #3
12:
	ldp	q0, q1, [x29, #-144]
	ldur	w11, [x29, #-88]
	ldur	w12, [x22, #59]
	ldur	q2, [x22, #25]
	str	w11, [sp, #56]
	stur	w12, [sp, #59]
	stp	q0, q1, [sp]
	stur	q2, [sp, #25]
	cbz	w10, 17f
	ldr	w10, [sp, #56]
	ldp	q0, q1, [sp]
	ldur	w11, [sp, #59]
	stur	x9, [sp, #71]
	str	w10, [sp, #64]
	ldr	x10, [sp, #152]
	stur	q0, [x24, #23]
	ldur	q0, [sp, #25]
	sub	x9, x10, x8
	stur	w11, [sp, #67]
	cmp	x9, #63
	stur	q1, [x24, #39]
	stur	x25, [sp, #79]
	stur	q0, [x24, #48]
	b.ls	15f
13:
	ldp	q1, q0, [sp, #96]
	add	x9, x0, x8
	ldp	q2, q3, [sp, #64]
	add	x11, sp, #64
	sub	x11, x9, x11
	add	x8, x8, #64
	cmp	x11, #63
	stp	q1, q0, [x9, #32]
	stp	q2, q3, [x9]
	stp	x8, x10, [sp, #144]
	cbnz	x21, 1b
	b	19f
14:
	ldur	w9, [x29, #-80]
	ldur	q0, [x23, #23]
	ldur	q1, [x23, #39]
	ldur	w10, [x22, #67]
	ldur	x25, [x22, #79]
	stur	w9, [x29, #-88]
	ldur	x9, [x22, #71]
	stp	q0, q1, [x29, #-144]
	ldur	q0, [x23, #48]
	stur	w10, [x22, #59]
	mov	w10, #1
	stur	q0, [x22, #25]
	b	12b
15:
	add	x0, sp, #136
	mov	w1, #64
	bl	std_alloc..vec..Vec..grow_amortized..3378b08034dc46b4_1_a64
	cbz	w0, 21f
	ldp	x8, x10, [sp, #144]
	ldr	x0, [sp, #136]
	b	13b
16:
	vj_page	x8, .L1_a64_CPI42_1
	vj_page	x9, .L1_a64_CPI42_2
	vj_load	q0, x8, .L1_a64_CPI42_1
	vj_load	q1, x9, .L1_a64_CPI42_2
	stp	q0, q1, [x19]
	b	20f
17:
	ldr	x8, [sp, #152]
	and	x20, x9, #0xff
	cbz	x8, 18f
	vj_call	rattle_dealloc
18:
	mov	w8, #1
	stp	x25, xzr, [x19, #16]
	stp	x8, x20, [x19]
	b	20f
19:
	stp	xzr, x0, [x19]
	stp	x8, x10, [x19, #16]
20:
	ldp	x20, x19, [sp, #368]
	ldp	x22, x21, [sp, #352]
	ldp	x24, x23, [sp, #336]
	ldp	x28, x25, [sp, #320]
	ldp	x29, x30, [sp, #304]
	add	sp, sp, #384
	ret
21:
	ldr	x8, [sp, #152]
	cbz	x8, 22f
	ldr	x0, [sp, #136]
	vj_call	rattle_dealloc
22:
	vj_page	x8, .L1_a64_CPI42_0
	stp	xzr, xzr, [x19, #16]
	vj_load	q0, x8, .L1_a64_CPI42_0
	str	q0, [x19]
	b	20b
	vj_end	b2_commands..leaf_lines..digests_of_1_a64

	vj_constants	16
	.p2align	4, 0x0
.L1_a64_CPI43_0:
	.quad	9
	.quad	0
	vj_function	b2_commands..outputs..blake2xb..print_next..c1844c1740294036_1_a64
	stp	x29, x30, [sp, #-96]!
	stp	x28, x27, [sp, #16]
	mov	x29, sp
	stp	x26, x25, [sp, #32]
	stp	x24, x23, [sp, #48]
	stp	x22, x21, [sp, #64]
	stp	x20, x19, [sp, #80]
	sub	sp, sp, #3072
	str	xzr, [sp]
	sub	sp, sp, #3072
	str	xzr, [sp]
	sub	sp, sp, #3072
	str	xzr, [sp]
	sub	sp, sp, #3072
	str	xzr, [sp], #-96
	mov	x20, x4
	mov	w21, w3
	mov	x19, x0
	cbz	x2, 7f
	mov	x22, x2
	mov	x23, x1
	tbz	w21, #0, 3f
1:
	cmp	x22, #1, lsl #12
	mov	w8, #4096
	add	x0, sp, #2, lsl #12
	mov	w1, wzr
	mov	w2, #4096
	csel	x24, x22, x8, lo
	add	x25, sp, #2, lsl #12
	vj_c_call	memset
	add	x1, sp, #2, lsl #12
	mov	x0, x23
	mov	x2, x24
	vj_call	blake2_xof..blake2xb..State..squeeze_1_arm
	mov	x26, xzr
2:
	add	x1, x25, x26
	sub	x2, x24, x26
	mov	w0, #1
	sub	x27, x24, x26
	vj_system_call	write, b2_write
	tbnz	x0, #63, 8f
	cmp	x0, x27
	csel	x8, x0, x27, lo
	cbz	x8, 9f
	add	x26, x8, x26
	cmp	x26, x24
	b.lo	2b
	subs	x22, x22, x24
	b.ne	1b
	b	7f
3:
	mov	x8, sp
	add	x25, x8, #1
4:
	cmp	x22, #1, lsl #12
	mov	w8, #4096
	add	x0, sp, #2, lsl #12
	mov	w1, wzr
	mov	w2, #4096
	csel	x24, x22, x8, lo
	add	x26, sp, #2, lsl #12
	vj_c_call	memset
	mov	x0, sp
	mov	w1, wzr
	mov	w2, #8192
	vj_c_call	memset
	add	x1, sp, #2, lsl #12
	mov	x0, x23
	mov	x2, x24
	vj_call	blake2_xof..blake2xb..State..squeeze_1_arm
	mov	x8, x25
	mov	x9, x24
5:
	ldrb	w10, [x26], #1
	vj_page	x12, .L1_a64_static.37
	vj_address	x12, x12, .L1_a64_static.37
	subs	x9, x9, #1
	lsr	x11, x10, #4
	and	x10, x10, #0xf
	ldrb	w10, [x12, x10]
	ldrb	w11, [x12, x11]
	sturb	w11, [x8, #-1]
	strb	w10, [x8], #2
	b.ne	5b
	lsl	x26, x24, #1
	mov	x27, xzr
6:
	mov	x8, sp
	sub	x2, x26, x27
	mov	w0, #1
	add	x1, x8, x27
	sub	x28, x26, x27
	vj_system_call	write, b2_write
	tbnz	x0, #63, 8f
	cmp	x0, x28
	csel	x8, x0, x28, lo
	cbz	x8, 9f
	add	x27, x8, x27
	cmp	x27, x26
	b.lo	6b
	subs	x22, x22, x24
	b.ne	4b
7:
	cbz	w21, 10f
	strb	wzr, [x19]
	stp	xzr, xzr, [x19, #8]
	b	15f
8:
	sub	x0, x29, #96
	bl	std_io..io..error..last_error_1_a64
9:
	mov	w8, #1
	mov	w9, #1
	strb	w8, [x20]
	vj_page	x8, .L1_a64_CPI43_0
	vj_load	q0, x8, .L1_a64_CPI43_0
	strb	w9, [x19]
	stur	q0, [x19, #8]
	b	15f
10:
	vj_page	x1, .L1_a64_static.38
	vj_address	x1, x1, .L1_a64_static.38
	mov	w0, #1
	mov	w2, #1
	mov	w21, #1
	vj_system_call	write, b2_write
	tbnz	x0, #63, 11f
	cbz	x0, 12f
	mov	w21, wzr
	b	14f
11:
	mov	x0, sp
	bl	std_io..io..error..last_error_1_a64
	b	13f
12:
	mov	w21, #1
13:
	strb	w21, [x20]
14:
	cmp	w21, #0
	mov	w8, #9
	strb	w21, [x19]
	csel	x8, x8, xzr, ne
	stp	x8, xzr, [x19, #8]
15:
	add	sp, sp, #3, lsl #12
	add	sp, sp, #96
	ldp	x20, x19, [sp, #80]
	ldp	x22, x21, [sp, #64]
	ldp	x24, x23, [sp, #48]
	ldp	x26, x25, [sp, #32]
	ldp	x28, x27, [sp, #16]
	ldp	x29, x30, [sp], #96
	ret
	vj_end	b2_commands..outputs..blake2xb..print_next..c1844c1740294036_1_a64

	vj_function	b2_commands..fault..Fault..report..c1844c1740294036_1_a64
	stp	x29, x30, [sp, #-64]!
	stp	x28, x23, [sp, #16]
	mov	x29, sp
	stp	x22, x21, [sp, #32]
	stp	x20, x19, [sp, #48]
	sub	sp, sp, #1328
	and	w20, w0, #0xff
	str	xzr, [sp]
	cmp	w20, #9
	b.ne	1f
	mov	w0, #1
	add	sp, sp, #1328
	ldp	x20, x19, [sp, #48]
	ldp	x22, x21, [sp, #32]
	ldp	x28, x23, [sp, #16]
	ldp	x29, x30, [sp], #64
	ret
1:
	movi	v0.2d, #0000000000000000
	add	x8, sp, #872
	str	wzr, [sp, #1292]
	add	x9, x8, #404
	str	q0, [x9]
	add	x9, x8, #388
	str	q0, [x9]
	add	x9, x8, #372
	str	q0, [x9]
	add	x9, x8, #356
	str	q0, [x9]
	add	x9, x8, #340
	str	q0, [x9]
	add	x9, x8, #324
	str	q0, [x9]
	add	x9, x8, #308
	str	q0, [x9]
	add	x9, x8, #292
	str	q0, [x9]
	add	x9, x8, #276
	str	q0, [x9]
	add	x9, x8, #260
	str	q0, [x9]
	sub	w9, w20, #3
	cmp	w9, #2
	mov	w9, #12898
	stur	q0, [x8, #244]
	movk	w9, #8250, lsl #16
	stur	q0, [x8, #228]
	stur	q0, [x8, #212]
	stur	q0, [x8, #196]
	stur	q0, [x8, #180]
	stur	q0, [x8, #164]
	stur	q0, [x8, #148]
	stur	q0, [x8, #132]
	stur	q0, [x8, #116]
	stur	q0, [x8, #100]
	stur	q0, [x8, #84]
	stur	q0, [x8, #68]
	stur	q0, [x8, #52]
	stur	q0, [x8, #36]
	stur	q0, [x8, #20]
	stur	q0, [x8, #4]
	str	w9, [sp, #872]
	b.hi	4f
	mov	w10, #26988
	orr	x8, x8, #0x4
	mov	w9, #32
	movk	w10, #25966, lsl #16
	cmp	x1, #10
	mov	x21, x2
	mov	w19, #19
	strb	w9, [x8, #4]
	str	w10, [x8]
	stp	xzr, xzr, [x29, #-24]
	stur	wzr, [x29, #-8]
	b.lo	3f
	mov	x8, x1
2:
	mov	x9, #-3689348814741910324
	sub	x10, x29, #24
	cmp	x8, #99
	movk	x9, #52429
	umulh	x9, x8, x9
	lsr	x1, x9, #3
	mov	w9, #10
	msub	w9, w1, w9, w8
	orr	w8, w9, #0x30
	strb	w8, [x10, x19]
	sub	x19, x19, #1
	mov	x8, x1
	b.hi	2b
3:
	sub	x9, x29, #24
	mov	w10, #20
	add	x22, sp, #872
	orr	w8, w1, #0x30
	sub	x2, x10, x19
	add	x0, x22, #9
	add	x1, x9, x19
	strb	w8, [x9, x19]
	vj_c_call	memcpy
	mov	w10, #31
	sub	x8, x22, x19
	mov	w9, #8250
	sub	x22, x10, x19
	sturh	w9, [x8, #29]
	b	5f
4:
	mov	x21, x2
	mov	w22, #4
5:
	vj_page	x8, .L1_a64_switch.table.b2_commands..fault..Fault..report..c1844c1740294036_1_a64
	vj_address	x8, x8, .L1_a64_switch.table.b2_commands..fault..Fault..report..c1844c1740294036_1_a64
	add	x10, sp, #872
	ldr	x19, [x8, w20, uxtw #3]
	vj_page	x8, .L1_a64_switch.table.b2_commands..fault..Fault..report..c1844c1740294036.205.rel_1_a64
	vj_address	x8, x8, .L1_a64_switch.table.b2_commands..fault..Fault..report..c1844c1740294036.205.rel_1_a64
	ldrsw	x9, [x8, w20, uxtw #2]
	add	x0, x10, x22
	mov	x2, x19
	add	x1, x8, x9
	vj_c_call	memcpy
	add	x8, x19, x22
	add	x0, sp, #440
	add	x1, sp, #872
	mov	w2, #432
	str	x8, [sp, #1296]
	vj_c_call	memcpy
	add	x0, sp, #8
	add	x1, sp, #440
	mov	w2, #432
	add	x19, sp, #8
	vj_c_call	memcpy
	ldr	x8, [sp, #432]
	mov	w9, #10
	strb	w9, [x19, x8]
	adds	x19, x8, #1
	str	x19, [sp, #432]
	b.hs	7f
	mov	x22, xzr
6:
	add	x8, sp, #8
	sub	x2, x19, x22
	mov	w0, #1
	add	x1, x8, x22
	sub	x23, x19, x22
	vj_system_call	write, b2_write
	tbnz	x0, #63, 8f
	cmp	x0, x23
	csel	x8, x0, x23, lo
	cbz	x8, 9f
	add	x22, x8, x22
	cmp	x22, x19
	b.lo	6b
7:
	cmp	w20, #7
	mov	w8, #1
	cinc	w0, w8, lo
	add	sp, sp, #1328
	ldp	x20, x19, [sp, #48]
	ldp	x22, x21, [sp, #32]
	ldp	x28, x23, [sp, #16]
	ldp	x29, x30, [sp], #64
	ret
8:
	add	x0, sp, #872
	bl	std_io..io..error..last_error_1_a64
9:
	mov	w0, #1
	strb	w0, [x21]
	add	sp, sp, #1328
	ldp	x20, x19, [sp, #48]
	ldp	x22, x21, [sp, #32]
	ldp	x28, x23, [sp, #16]
	ldp	x29, x30, [sp], #64
	ret
	vj_end	b2_commands..fault..Fault..report..c1844c1740294036_1_a64

	vj_export	main_1_a64
	stp	x29, x30, [sp, #-96]!
	stp	x28, x27, [sp, #16]
	mov	x29, sp
	stp	x26, x25, [sp, #32]
	stp	x24, x23, [sp, #48]
	stp	x22, x21, [sp, #64]
	stp	x20, x19, [sp, #80]
	sub	sp, sp, #992
	mov	w0, #13
	mov	w1, #1
	add	x25, sp, #32
	vj_system_call	__sysv_signal, b2_signal
	mov	x27, xzr
	mov	x20, xzr
	sub	x19, x29, #16
	strb	wzr, [sp, #28]
	strb	wzr, [sp, #24]
	strb	wzr, [sp, #20]
	stp	xzr, xzr, [x25, #440]
	str	x19, [x25, #432]
1:
	mov	w28, #64
	mov	w22, #256
	b	3f
2:
	adds	x8, x22, x22
	csinv	x22, x8, xzr, lo
	subs	w28, w28, #1
	b.eq	48f
3:
	sub	x21, x29, #16
	stp	xzr, xzr, [x25, #8]
	str	x21, [sp, #32]
	cbnz	x22, 5f
	mov	x23, xzr
4:
	mov	x0, x20
	mov	x1, x21
	mov	x2, x23
	vj_call	rattle_arg
	mov	w8, #36
	cmn	x0, #1
	mov	w9, #22
	csel	w8, w9, w8, eq
	mov	x24, x0
	csel	w0, wzr, w8, gt
	vj_call	rattle_set_errno
	vj_call	rattle_errno
	cmp	w0, #36
	b.ne	6f
	ldr	x8, [sp, #48]
	cbz	x8, 2b
	mov	x0, x21
	vj_call	rattle_dealloc
	b	2b
5:
	add	x0, sp, #32
	mov	x1, x22
	bl	std_alloc..vec..Vec..grow_amortized..3378b08034dc46b4_1_a64
	cbz	w0, 47f
	ldp	x21, x8, [sp, #32]
	add	x23, x8, x22
	cmp	x8, x23
	b.hs	4b
	add	x0, x21, x8
	mov	w1, wzr
	mov	x2, x22
	vj_c_call	memset
	b	4b
6:
	cbnz	w0, 25f
	cmp	x24, x23
	csel	x8, x24, x23, lo
	cmp	x24, #0
	ldr	x23, [sp, #48]
	csel	x22, x8, xzr, gt
	cbz	x22, 22f
	mov	x9, xzr
	sub	x24, x22, #8
	b	11f
7:
	and	w10, w10, #0xff
	tbnz	w10, #7, 12f
8:
	mov	w8, #1
9:
	add	x8, x8, x9
10:
	cmp	x8, x22
	mov	x9, x8
	b.hs	22f
11:
	add	x8, x21, x9
	sub	x11, x22, x9
	ldrsb	w10, [x8]
	cmp	x11, #2
	b.lo	7b
	tbnz	w10, #31, 7b
	ldrsb	w10, [x8, #1]
	tbnz	w10, #31, 8b
	cmp	x11, #7
	stp	x21, x22, [sp, #32]
	b.hi	13f
	ldrsb	w8, [x21, x9]
	tbnz	w8, #31, 18f
	add	x8, x9, #1
	cmp	x8, x22
	b.eq	22f
	ldrsb	w10, [x21, x8]
	tbnz	w10, #31, 10b
	add	x8, x9, #2
	cmp	x8, x22
	b.eq	22f
	ldrsb	w10, [x21, x8]
	tbnz	w10, #31, 10b
	add	x8, x9, #3
	cmp	x8, x22
	b.eq	22f
	ldrsb	w10, [x21, x8]
	tbnz	w10, #31, 10b
	add	x8, x9, #4
	cmp	x8, x22
	b.eq	22f
	ldrsb	w10, [x21, x8]
	tbnz	w10, #31, 10b
	add	x8, x9, #5
	cmp	x8, x22
	b.eq	22f
	ldrsb	w10, [x21, x8]
	tbnz	w10, #31, 10b
	add	x8, x9, #6
	cmp	x8, x22
	b.eq	22f
	ldrsb	w9, [x21, x8]
	tbnz	w9, #31, 10b
	b	22f
12:
	cmp	w10, #194
	b.lo	43f
	cmp	w10, #223
	b.hi	17f
	cmp	x11, #2
	b.lo	43f
	ldrsb	w8, [x8, #1]
	cmn	w8, #65
	b.gt	43f
	mov	w8, #2
	b	9b
13:
	ldr	x8, [x8]
	mov	w10, #8
	ands	x8, x8, #0x8080808080808080
	rbit	x8, x8
	clz	x8, x8
	lsr	x8, x8, #3
	csel	x8, x10, x8, eq
	add	x8, x8, x9
	add	x9, x9, #8
	cmp	x8, x9
	b.lo	10b
	sub	x9, x22, x8
	cmp	x9, #32
	b.lo	15f
14:
	add	x9, x21, x8
	ldp	q1, q0, [x9]
	orr	v0.16b, v1.16b, v0.16b
	ext	v1.16b, v0.16b, v0.16b, #8
	orr	v0.8b, v0.8b, v1.8b
	fmov	x9, d0
	tst	x9, #0x8080808080808080
	b.ne	15f
	add	x0, sp, #32
	add	x1, x8, #32
	mov	x2, x22
	bl	core..slice..words..skip_far..52f9edcae2f82f51_1_a64
	sub	x9, x22, x0
	mov	x8, x0
	cmp	x9, #31
	b.hi	14b
15:
	sub	x9, x22, x8
16:
	cmp	x9, #9
	b.lo	21f
	ldr	x10, [x21, x8]
	mov	w11, #8
	sub	x9, x9, #8
	ands	x10, x10, #0x8080808080808080
	rbit	x10, x10
	clz	x10, x10
	lsr	x10, x10, #3
	csel	x10, x11, x10, eq
	add	x11, x10, x8
	add	x8, x8, #8
	cmp	x11, x8
	b.hs	16b
	add	x8, x10, x8
	sub	x8, x8, #8
	b	10b
17:
	cmp	w10, #239
	b.hi	19f
	cmp	x11, #3
	b.lo	43f
	ldrsb	w11, [x8, #1]
	cmn	w11, #65
	b.gt	43f
	ldrsb	w8, [x8, #2]
	cmn	w8, #65
	b.gt	43f
	and	w8, w11, #0xff
	add	w8, w8, w10, lsl #6
	mov	w10, #-14464
	add	w10, w8, w10
	cmp	w10, #32
	b.lo	43f
	cmp	w10, #896
	mov	w8, #3
	csel	x11, xzr, x8, lo
	cmp	w10, #864
	b.lo	9b
	mov	x8, x11
	b	20f
18:
	mov	x8, x9
	b	10b
19:
	cmp	x11, #4
	b.lo	43f
	ldrsb	w11, [x8, #1]
	cmn	w11, #65
	b.gt	43f
	ldrsb	w12, [x8, #2]
	cmn	w12, #65
	b.gt	43f
	ldrsb	w8, [x8, #3]
	cmn	w8, #65
	b.gt	43f
	and	w8, w11, #0xff
	add	w8, w8, w10, lsl #6
	mov	w10, #-15488
	add	w10, w8, w10
	mov	w8, #4
	cmp	w10, #272
	csel	x8, x8, xzr, lo
	cmp	w10, #16
	b.lo	43f
20:
	cbnz	x8, 9b
	b	43f
21:
	ldr	x8, [x21, x24]
	mov	w9, #8
	ands	x8, x8, #0x8080808080808080
	rbit	x8, x8
	clz	x8, x8
	lsr	x8, x8, #3
	csel	x8, x9, x8, eq
	add	x8, x8, x24
	b	10b
22:
	ldr	x8, [x25, #448]
	cmp	x8, x27
	b.eq	24f
23:
	mov	w8, #24
	add	x20, x20, #1
	madd	x8, x27, x8, x19
	add	x27, x27, #1
	cmn	x20, #1
	stp	x21, x22, [x8]
	str	x23, [x8, #16]
	str	x27, [x25, #440]
	b.ne	1b
	b	26f
24:
	add	x0, sp, #464
	mov	w1, #1
	bl	std_alloc..vec..Vec..grow_amortized..ab4c418570ac94f8_1_a64
	cbz	w0, 59f
	ldp	x19, x27, [x25, #432]
	b	23b
25:
	ldr	x8, [sp, #48]
	cbz	x8, 26f
	mov	x0, x21
	vj_call	rattle_dealloc
26:
	ldr	x0, [x25, #432]
	ldr	x9, [x25, #448]
	mov	x24, xzr
	mov	x21, xzr
	mov	x23, xzr
	sub	x20, x29, #16
	add	x13, x0, #24
	str	x20, [sp, #32]
	stp	x9, x13, [sp]
	cmp	x21, #0
	csel	x28, xzr, xzr, eq
27:
	cbz	x27, 37f
	mov	w8, #24
	sub	x22, x27, #1
	madd	x8, x23, x8, x0
	add	x23, x23, #1
	ldr	x9, [x8, #16]
	cbz	x9, 29f
	mov	x19, x0
	ldr	x0, [x8]
	vj_call	rattle_dealloc
	ldr	x13, [sp, #8]
	mov	x0, x19
	b	29f
28:
	mov	x22, x27
29:
	cbz	x22, 37f
	add	x8, x23, x23, lsl #1
	cmp	x21, x28
	sub	x27, x22, #1
	lsl	x12, x8, #3
	add	x8, x0, x12
	b.ne	30f
	add	x23, x23, #1
	ldp	x21, x26, [x8]
	sub	x9, x24, x28
	ldr	x19, [x8, #16]
	cmp	x22, x9
	stp	x28, x24, [sp, #40]
	b.ls	33f
	b	34f
30:
	mov	w9, #24
	ldr	x10, [x8, #16]
	ldr	q0, [x8]
	madd	x9, x21, x9, x20
	add	x8, x21, #1
	str	x10, [x9, #16]
	str	q0, [x9]
	cbz	x27, 58f
	mov	w10, #24
	mov	x9, xzr
	sub	x11, x8, x28
	madd	x10, x21, x10, x20
	add	x8, x13, x12
	add	x10, x10, #24
31:
	cmn	x11, x9
	b.eq	32f
	ldr	x12, [x8, #16]
	ldr	q0, [x8], #24
	add	x9, x9, #1
	cmp	x27, x9
	str	x12, [x10, #16]
	str	q0, [x10], #24
	b.ne	31b
	b	36f
32:
	add	x10, x23, x9
	sub	x9, x22, x9
	add	x23, x10, #2
	sub	x22, x9, #1
	sub	x27, x9, #2
	ldp	x21, x26, [x8]
	sub	x9, x24, x28
	ldr	x19, [x8, #16]
	cmp	x22, x9
	stp	x28, x24, [sp, #40]
	b.hi	34f
33:
	mov	w8, #24
	ldr	x20, [sp, #32]
	madd	x8, x28, x8, x20
	stp	x21, x26, [x8]
	add	x21, x28, #1
	str	x19, [x8, #16]
	mov	w8, #1
	str	x21, [sp, #40]
	cmp	x21, #0
	csel	x28, xzr, x24, eq
	tbz	w8, #0, 27b
	b	28b
34:
	mov	x20, x0
	add	x0, sp, #32
	mov	x1, x22
	bl	std_alloc..vec..Vec..grow_amortized..ab4c418570ac94f8_1_a64
	ldp	x28, x24, [sp, #40]
	tbnz	w0, #0, 35f
	ldr	x13, [sp, #8]
	cmp	x24, x28
	mov	x0, x20
	b.ne	33b
	add	x0, sp, #32
	mov	w1, #1
	bl	std_alloc..vec..Vec..grow_amortized..ab4c418570ac94f8_1_a64
	cbz	w0, 64f
	ldp	x28, x24, [sp, #40]
35:
	ldr	x13, [sp, #8]
	mov	x0, x20
	b	33b
36:
	add	x8, x21, x9
	add	x21, x8, #1
37:
	ldr	x8, [sp]
	cbz	x8, 39f
38:
	vj_call	rattle_dealloc
39:
	add	x2, sp, #28
	add	x3, sp, #24
	add	x4, sp, #20
	mov	x0, x20
	mov	x1, x21
	bl	b2_commands..dispatch..run_with_notes..8eebea7bb24a6da2_1_a64
	and	w19, w0, #0xff
	cbz	x21, 42f
	add	x22, x20, #16
	b	41f
40:
	subs	x21, x21, #1
	add	x22, x22, #24
	b.eq	42f
41:
	ldr	x8, [x22]
	cbz	x8, 40b
	ldur	x0, [x22, #-16]
	vj_call	rattle_dealloc
	b	40b
42:
	cbz	x24, 57f
	mov	x0, x20
	vj_call	rattle_dealloc
	b	57f
43:
	cbz	x23, 44f
	mov	x0, x21
	vj_call	rattle_dealloc
44:
	ldr	x20, [x25, #448]
	cbz	x27, 51f
	add	x21, x19, #16
	b	46f
45:
	subs	x27, x27, #1
	add	x21, x21, #24
	b.eq	51f
46:
	ldr	x8, [x21]
	cbz	x8, 45b
	ldur	x0, [x21, #-16]
	vj_call	rattle_dealloc
	b	45b
47:
	ldr	x8, [sp, #48]
	cbz	x8, 48f
	ldr	x0, [sp, #32]
	vj_call	rattle_dealloc
48:
	ldr	x20, [x25, #448]
	cbz	x27, 51f
	add	x21, x19, #16
	b	50f
49:
	subs	x27, x27, #1
	add	x21, x21, #24
	b.eq	51f
50:
	ldr	x8, [x21]
	cbz	x8, 49b
	ldur	x0, [x21, #-16]
	vj_call	rattle_dealloc
	b	49b
51:
	add	x23, sp, #464
	cbz	x20, 53f
52:
	mov	x0, x19
	vj_call	rattle_dealloc
53:
	movi	v0.2d, #0000000000000000
	add	x8, sp, #464
	add	x20, sp, #32
	add	x9, x8, #9
	add	x8, x8, #404
	orr	x0, x20, #0x4
	add	x1, sp, #464
	mov	w2, #420
	stp	q0, q0, [x9, #256]
	stp	q0, q0, [x9, #288]
	stp	q0, q0, [x9, #320]
	stp	q0, q0, [x9, #352]
	str	q0, [x9, #384]
	vj_page	x9, .L1_a64_static.71
	vj_address	x9, x9, .L1_a64_static.71
	str	q0, [x8]
	mov	w8, #121
	ldr	x9, [x9]
	strb	w8, [sp, #472]
	mov	w8, #12898
	movk	w8, #8250, lsl #16
	stur	q0, [x23, #9]
	stur	q0, [x23, #25]
	stur	q0, [x23, #41]
	stur	q0, [x23, #57]
	stur	q0, [x23, #73]
	stur	q0, [x23, #89]
	stur	q0, [x23, #105]
	stur	q0, [x23, #121]
	stur	q0, [x23, #137]
	stur	q0, [x23, #153]
	stur	q0, [x23, #169]
	stur	q0, [x23, #185]
	stur	q0, [x23, #201]
	stur	q0, [x23, #217]
	stur	q0, [x23, #233]
	stur	q0, [x23, #249]
	str	x9, [x23]
	str	w8, [sp, #32]
	vj_c_call	memcpy
	mov	x21, xzr
	mov	w8, #10
	mov	w9, #14
	strb	w8, [sp, #45]
	str	x9, [x25, #424]
54:
	mov	w8, #14
	add	x1, x20, x21
	mov	w0, #1
	sub	x19, x8, x21
	mov	x2, x19
	vj_system_call	write, b2_write
	tbnz	x0, #63, 55f
	cmp	x0, x19
	csel	x8, x0, x19, lo
	cbz	x8, 56f
	add	x21, x8, x21
	cmp	x21, #14
	b.lo	54b
	b	56f
55:
	sub	x0, x29, #104
	bl	std_io..io..error..last_error_1_a64
56:
	mov	w19, #1
57:
	mov	w0, w19
	add	sp, sp, #992
	ldp	x20, x19, [sp, #80]
	ldp	x22, x21, [sp, #64]
	ldp	x24, x23, [sp, #48]
	ldp	x26, x25, [sp, #32]
	ldp	x28, x27, [sp, #16]
	ldp	x29, x30, [sp], #96
	ret
58:
	mov	x21, x8
	ldr	x8, [sp]
	cbnz	x8, 38b
	b	39b
59:
	cbz	x23, 60f
	mov	x0, x21
	vj_call	rattle_dealloc
60:
	ldp	x19, x20, [x25, #432]
	add	x23, sp, #464
	ldr	x21, [x25, #448]
	cbz	x20, 63f
	add	x22, x19, #16
	b	62f
61:
	subs	x20, x20, #1
	add	x22, x22, #24
	b.eq	63f
62:
	ldr	x8, [x22]
	cbz	x8, 61b
	ldur	x0, [x22, #-16]
	vj_call	rattle_dealloc
	b	61b
63:
	cbnz	x21, 52b
	b	53b
64:
	cbz	x19, 65f
	mov	x0, x21
	vj_call	rattle_dealloc
65:
	cbz	x27, 68f
	add	x8, x27, x23
	cmp	x23, x8
	b.hs	68f
	mov	w8, #24
	madd	x8, x23, x8, x20
	add	x19, x8, #16
	b	67f
66:
	subs	x27, x27, #1
	add	x19, x19, #24
	b.eq	68f
67:
	ldr	x8, [x19]
	cbz	x8, 66b
	ldur	x0, [x19, #-16]
	vj_call	rattle_dealloc
	b	66b
68:
	ldr	x8, [sp]
	cbz	x8, 69f
	mov	x0, x20
	vj_call	rattle_dealloc
69:
	ldp	x19, x20, [sp, #32]
	ldr	x21, [sp, #48]
	cbz	x20, 72f
	add	x22, x19, #16
	b	71f
70:
	subs	x20, x20, #1
	add	x22, x22, #24
	b.eq	72f
71:
	ldr	x8, [x22]
	cbz	x8, 70b
	ldur	x0, [x22, #-16]
	vj_call	rattle_dealloc
	b	70b
72:
	cbz	x21, 73f
	mov	x0, x19
	vj_call	rattle_dealloc
73:
	add	x23, sp, #464
	b	53b
	vj_end	main_1_a64

	vj_data	static.0_1_a64
.L1_a64_static.0:

	vj_data	static.1_1_a64
.L1_a64_static.1:
	.ascii	"Usage: b2 COMMAND ARGUMENT..\nPrint BLAKE2 digests of standard input in hexadecimal, and what they are made of.\n\n  sum KIND [OPTION]..               the digest\n  script KIND [OPTION]..            the digests of the calls in its lines\n  steps KIND [OPTION]..             the transcript: the words and blocks that are compressed\n  witness KIND MESSAGE MESSAGE      a pair of steps of two messages with equal digests\n  tree KIND LEAF [SALT]..           the root of a tree with leaves of LEAF bytes\n  leaves LEAF FIRST END [SALT]..    the digests of the leaves of a part of a file\n  root KIND LEAF [SALT]..           the root over the digests of all leaves, which it reads\n  xof KIND LENGTH [raw] [OPTION]..  LENGTH bytes of output of BLAKE2X\n  derive LENGTH CONTEXT [raw]       a key of LENGTH bytes for a context, from the key that is read\n  --help (or -h, help)              this help\n  --version                         the version\n\nKIND is b128, b256, b512, s128 or s256: the family, and the bits of the digest. witness accepts\nb0, b8, s0 and s8 too, tree and root only those of BLAKE2b, and xof has xb and xs.\nOPTION is key=HEX, or a SALT: salt=HEX, persona=HEX or persona-text=TEXT.\nMESSAGE is HEX, or - for no bytes.\nraw prints the bytes instead of digits, such as a key for b2sum --key-file.\nFIRST is the index of the part's first leaf, from 0. END is last if the file ends with the part,\nand more if it does not.\n\nOther users of the machine can see a key on the command line.\nThe status is 0 for success, 1 if a read, a write or an allocation fails, and 2 for wrong\narguments or input. Errors are printed on standard output.\n"

	vj_data	static.2_1_a64
.L1_a64_static.2:
	.ascii	"b2 (Vulfsjor) 0.1.0\n"

	vj_data	static.13_1_a64
.L1_a64_static.13:
	.ascii	"-h"

	vj_constants	4
.L1_a64_static.14:
	.ascii	"help"

	vj_data	static.15_1_a64
.L1_a64_static.15:
	.ascii	"--version"

	vj_constants	16
.L1_a64_static.37:
	.ascii	"0123456789abcdef"

	vj_data	static.38_1_a64
.L1_a64_static.38:
	.byte	10

	vj_data	static.42_1_a64
.L1_a64_static.42:
	.ascii	" 1"

	vj_data	static.43_1_a64
.L1_a64_static.43:
	.ascii	" 0"

	vj_data	static.45_1_a64
.L1_a64_static.45:
	.ascii	"none\n"

	vj_data	static.46_1_a64
.L1_a64_static.46:
	.ascii	"Try 'b2 --help' for more information.\n"

	vj_data	static.47_1_a64
.L1_a64_static.47:
	.ascii	"b2: a command is missing\n"

	vj_data	static.48_1_a64
.L1_a64_static.48:
	.ascii	"usage: b2 sum KIND [key=HEX] [salt=HEX] [persona=HEX | persona-text=TEXT]\n"

	vj_data	static.49_1_a64
.L1_a64_static.49:
	.ascii	"usage: b2 script KIND [key=HEX] [salt=HEX] [persona=HEX | persona-text=TEXT]\n"

	vj_data	static.50_1_a64
.L1_a64_static.50:
	.ascii	"usage: b2 steps KIND [key=HEX] [salt=HEX] [persona=HEX | persona-text=TEXT]\n"

	vj_data	static.51_1_a64
.L1_a64_static.51:
	.ascii	"usage: b2 witness KIND MESSAGE MESSAGE\n"

	vj_data	static.52_1_a64
.L1_a64_static.52:
	.ascii	"usage: b2 tree KIND LEAF [salt=HEX] [persona=HEX | persona-text=TEXT]\n"

	vj_data	static.53_1_a64
.L1_a64_static.53:
	.ascii	"usage: b2 leaves LEAF FIRST more|last [salt=HEX] [persona=HEX | persona-text=TEXT]\n"

	vj_data	static.54_1_a64
.L1_a64_static.54:
	.ascii	"usage: b2 root KIND LEAF [salt=HEX] [persona=HEX | persona-text=TEXT]\n"

	vj_data	static.55_1_a64
.L1_a64_static.55:
	.ascii	"usage: b2 xof KIND LENGTH [raw] [key=HEX] [salt=HEX] [persona=HEX | persona-text=TEXT]\n"

	vj_data	static.56_1_a64
.L1_a64_static.56:
	.ascii	"usage: b2 derive LENGTH CONTEXT [raw]\n"

	vj_data	static.57_1_a64
.L1_a64_static.57:
	.ascii	"usage: b2 --version\n"

	vj_data	static.58_1_a64
.L1_a64_static.58:
	.ascii	"b2: the first argument is not a command\n"

	vj_data	static.59_1_a64
.L1_a64_static.59:
	.ascii	"usage: b2 --help\n"

	vj_data	static.62_1_a64
.L1_a64_static.62:
	.ascii	"line "

	vj_data	static.64_1_a64
.L1_a64_static.64:
	.ascii	"wrong words"

	vj_data	static.65_1_a64
.L1_a64_static.65:
	.ascii	"wrong hex"

	vj_data	static.66_1_a64
.L1_a64_static.66:
	.ascii	"wrong length"

	vj_data	static.67_1_a64
.L1_a64_static.67:
	.ascii	"wrong line"

	vj_data	static.68_1_a64
.L1_a64_static.68:
	.ascii	"no such slot"

	vj_data	static.69_1_a64
.L1_a64_static.69:
	.ascii	"too long"

	vj_data	static.70_1_a64
.L1_a64_static.70:
	.ascii	"read failed"

	vj_data	static.71_1_a64
.L1_a64_static.71:
	.ascii	"no memory"

	vj_data	Lswitch.table.b2_commands..dispatch..run_with_notes..8eebea7bb24a6da2.204_1_a64
	.p2align	2, 0x0
.L1_a64_switch.table.b2_commands..dispatch..run_with_notes..8eebea7bb24a6da2.204_1_a64:
	.long	16842768
	.long	16842784
	.long	16842816

	vj_data	Lswitch.table.b2_commands..digests..start_1_a64
	.p2align	3, 0x0
.L1_a64_switch.table.b2_commands..digests..start_1_a64:
	.quad	16
	.quad	32
	.quad	64

	vj_data	Lswitch.table.b2_commands..fault..Fault..report..c1844c1740294036_1_a64
	.p2align	3, 0x0
.L1_a64_switch.table.b2_commands..fault..Fault..report..c1844c1740294036_1_a64:
	.quad	11
	.quad	9
	.quad	12
	.quad	10
	.quad	12
	.quad	8
	.quad	8
	.quad	11
	.quad	9

	vj_data	Lswitch.table.b2_commands..fault..Fault..report..c1844c1740294036.205.rel_1_a64
	.p2align	2, 0x0
.L1_a64_switch.table.b2_commands..fault..Fault..report..c1844c1740294036.205.rel_1_a64:
	.long	.L1_a64_static.64-.L1_a64_switch.table.b2_commands..fault..Fault..report..c1844c1740294036.205.rel_1_a64
	.long	.L1_a64_static.65-.L1_a64_switch.table.b2_commands..fault..Fault..report..c1844c1740294036.205.rel_1_a64
	.long	.L1_a64_static.66-.L1_a64_switch.table.b2_commands..fault..Fault..report..c1844c1740294036.205.rel_1_a64
	.long	.L1_a64_static.67-.L1_a64_switch.table.b2_commands..fault..Fault..report..c1844c1740294036.205.rel_1_a64
	.long	.L1_a64_static.68-.L1_a64_switch.table.b2_commands..fault..Fault..report..c1844c1740294036.205.rel_1_a64
	.long	.L1_a64_static.69-.L1_a64_switch.table.b2_commands..fault..Fault..report..c1844c1740294036.205.rel_1_a64
	.long	.L1_a64_static.69-.L1_a64_switch.table.b2_commands..fault..Fault..report..c1844c1740294036.205.rel_1_a64
	.long	.L1_a64_static.70-.L1_a64_switch.table.b2_commands..fault..Fault..report..c1844c1740294036.205.rel_1_a64
	.long	.L1_a64_static.71-.L1_a64_switch.table.b2_commands..fault..Fault..report..c1844c1740294036.205.rel_1_a64

