/* Made by tools/dist.sh from the proved crate b2sum. dist/README.md says how. */
	vj_function	b2sum..argument..53019e254910033c_1_a64
	sub	sp, sp, #112
	stp	x24, x23, [sp, #64]
	mov	w24, #55
	stp	x22, x21, [sp, #80]
	mov	x22, x1
	mov	w21, #256
	stp	x20, x19, [sp, #96]
	mov	x19, x0
	stp	x29, x30, [sp, #32]
	add	x29, sp, #32
	str	x25, [sp, #48]
1:
	mov	x0, x21
	mov	w1, #1
	mov	w25, #1
	vj_call	rattle_alloc
	tbz	w0, #0, 2f
	mov	x20, x1
	sub	x2, x21, #1
	mov	x0, x1
	mov	w1, wzr
	sub	x23, x21, #1
	vj_c_call	memset
	mov	x0, x22
	mov	x1, x20
	mov	x2, x21
	strb	wzr, [x20, x23]
	vj_call	rattle_arg
	mov	w8, #36
	cmn	x0, #1
	mov	w9, #22
	csel	w8, w9, w8, eq
	mov	x23, x0
	csel	w0, wzr, w8, gt
	vj_call	rattle_set_errno
	vj_call	rattle_errno
	cmp	w0, #36
	b.ne	3f
	mov	x0, x20
	lsl	x21, x21, #1
	vj_call	rattle_dealloc
	subs	w24, w24, #1
	b.ne	1b
2:
	movi	v0.2d, #0000000000000000
	strb	w25, [x19]
	b	9f
3:
	cbnz	w0, 8f
	cmp	x23, x21
	add	x8, x29, #31
	stp	xzr, xzr, [sp, #16]
	csel	x9, x23, x21, lo
	cmp	x23, #0
	str	x8, [sp, #8]
	csel	x2, x9, xzr, gt
	cbnz	x2, 15f
	mov	x21, xzr
	mov	x9, xzr
	add	x0, x8, xzr
	add	x22, xzr, x2
	sub	x10, x0, x20
	cmp	x10, x2
	b.hs	16f
4:
	cmp	x2, #8
	b.lo	5f
	add	x10, x9, x8
	sub	x10, x10, x20
	cmp	x10, #32
	b.hs	10f
5:
	mov	x10, xzr
6:
	add	x11, x10, x9
	sub	x9, x2, x10
	add	x10, x20, x10
	add	x8, x8, x11
7:
	ldrb	w11, [x10], #1
	subs	x9, x9, #1
	strb	w11, [x8], #1
	b.ne	7b
	b	17f
8:
	mov	x0, x20
	vj_call	rattle_dealloc
	movi	v0.2d, #0000000000000000
	strb	wzr, [x19]
9:
	stur	q0, [x19, #8]
	stur	q0, [x19, #24]
	b	18f
10:
	cmp	x2, #32
	b.hs	11f
	mov	x10, xzr
	b	13f
11:
	add	x13, x9, x8
	and	x11, x2, #0x18
	and	x10, x2, #0xffffffffffffffe0
	add	x12, x20, #16
	add	x13, x13, #16
	and	x14, x2, #0xffffffffffffffe0
12:
	ldp	q0, q1, [x12, #-16]
	subs	x14, x14, #32
	add	x12, x12, #32
	stp	q0, q1, [x13, #-16]
	add	x13, x13, #32
	b.ne	12b
	cmp	x2, x10
	b.eq	17f
	cbz	x11, 6b
13:
	mov	x12, x10
	and	x10, x2, #0xfffffffffffffff8
	add	x13, x9, x12
	sub	x11, x12, x10
	add	x12, x20, x12
	add	x13, x8, x13
14:
	ldr	d0, [x12], #8
	adds	x11, x11, #8
	str	d0, [x13], #8
	b.ne	14b
	cmp	x2, x10
	b.eq	17f
	b	6b
15:
	add	x0, sp, #8
	mov	x1, x2
	mov	x22, x2
	bl	std_alloc..vec..Vec..grow_amortized..01eec35b572d02af_1_a64
	cbz	w0, 19f
	ldp	x9, x21, [sp, #16]
	mov	x2, x22
	ldr	x8, [sp, #8]
	add	x0, x8, x9
	add	x22, x9, x22
	sub	x10, x0, x20
	cmp	x10, x2
	b.lo	4b
16:
	mov	x1, x20
	vj_c_call	memmove
17:
	mov	x0, x20
	stp	x22, x21, [sp, #16]
	vj_call	rattle_dealloc
	ldur	q0, [sp, #8]
	ldr	x9, [sp, #24]
	mov	w8, #1
	strb	wzr, [x19]
	str	x8, [x19, #8]
	str	q0, [x19, #16]
	str	x9, [x19, #32]
18:
	ldp	x20, x19, [sp, #96]
	ldr	x25, [sp, #48]
	ldp	x22, x21, [sp, #80]
	ldp	x24, x23, [sp, #64]
	ldp	x29, x30, [sp, #32]
	add	sp, sp, #112
	ret
19:
	ldr	x8, [sp, #24]
	cbz	x8, 20f
	ldr	x0, [sp, #8]
	vj_call	rattle_dealloc
20:
	mov	x0, x20
	vj_call	rattle_dealloc
	mov	w8, #1
	movi	v0.2d, #0000000000000000
	strb	w8, [x19]
	b	9b
	vj_end	b2sum..argument..53019e254910033c_1_a64

	vj_function	b2sum..b2sum.disk.Opened.Destruct..drop..635567e538566947_1_a64
	stp	x29, x30, [sp, #-32]!
	stp	x20, x19, [sp, #16]
	ldrb	w8, [x0]
	ldr	x19, [x0, #8]
	ldr	x20, [x0, #24]
	mov	x29, sp
	cbz	w8, 2f
	cbz	x20, 3f
1:
	mov	x0, x19
	ldp	x20, x19, [sp, #16]
	ldp	x29, x30, [sp], #32
	vj_jump	rattle_dealloc
2:
	ldr	w0, [x0, #4]
	vj_call	b2sum_close
	cbnz	x20, 1b
3:
	ldp	x20, x19, [sp, #16]
	ldp	x29, x30, [sp], #32
	ret
	vj_end	b2sum..b2sum.disk.Opened.Destruct..drop..635567e538566947_1_a64

	vj_cold	std_alloc..vec..Vec..grow_amortized..1e3479f4918bcb88_1_a64
	ldr	x8, [x0, #8]
	cmn	x8, #1
	b.eq	2f
	stp	x29, x30, [sp, #-32]!
	ldr	x9, [x0, #16]
	cmp	x8, #3
	mov	w10, #3
	csel	x11, x8, x10, hi
	stp	x20, x19, [sp, #16]
	mov	x29, sp
	lsl	x10, x9, #1
	add	x12, x11, #1
	lsr	x13, x9, #62
	cmp	x12, x10
	csinc	x10, x10, x11, ls
	cmp	x13, #0
	csinc	x19, x10, x11, eq
	mov	x11, #6148914691236517205
	movk	x11, #1365, lsl #48
	cmp	x19, x11
	b.hi	4f
	cbz	x9, 3f
	add	x8, x8, x8, lsl #1
	add	x9, x19, x19, lsl #1
	mov	x20, x0
	ldr	x0, [x0]
	mov	w3, #8
	lsl	x1, x8, #3
	lsl	x2, x9, #3
	vj_call	rattle_realloc
	tbz	w0, #0, 4f
1:
	mov	w0, #1
	str	x1, [x20]
	str	x19, [x20, #16]
	ldp	x20, x19, [sp, #16]
	ldp	x29, x30, [sp], #32
	ret
2:
	mov	w0, wzr
	ret
3:
	add	x8, x10, x10, lsl #1
	mov	x20, x0
	mov	w1, #8
	lsl	x0, x8, #3
	vj_call	rattle_alloc
	tbnz	w0, #0, 1b
4:
	mov	w0, wzr
	ldp	x20, x19, [sp, #16]
	ldp	x29, x30, [sp], #32
	ret
	vj_end	std_alloc..vec..Vec..grow_amortized..1e3479f4918bcb88_1_a64

	vj_constants	16
	.p2align	4, 0x0
.L1_a64_CPI3_0:
	.quad	1
	.quad	65536
	vj_function	b2sum_commands..program..run_words..82a450bcca081e63_1_a64
	stp	x29, x30, [sp, #-96]!
	stp	x28, x27, [sp, #16]
	mov	x29, sp
	stp	x26, x25, [sp, #32]
	stp	x24, x23, [sp, #48]
	stp	x22, x21, [sp, #64]
	stp	x20, x19, [sp, #80]
	sub	sp, sp, #1376
	movi	v0.2d, #0000000000000000
	add	x9, sp, #169
	str	xzr, [sp]
	add	x8, sp, #124
	mov	x25, x1
	mov	x23, x0
	stur	wzr, [x8, #255]
	sub	x8, x29, #240
	add	x28, sp, #664
	stur	wzr, [x8, #195]
	sub	x8, x29, #24
	stur	q0, [x9, #255]
	add	x9, sp, #185
	stur	q0, [x9, #255]
	add	x9, sp, #201
	stur	q0, [x9, #255]
	add	x9, sp, #217
	stur	q0, [x9, #255]
	add	x9, sp, #233
	stur	q0, [x9, #255]
	add	x9, sp, #384
	str	wzr, [sp, #376]
	stur	wzr, [x29, #-48]
	stp	q0, q0, [sp, #384]
	str	x8, [sp, #416]
	stp	xzr, x8, [sp, #504]
	str	xzr, [sp, #528]
	str	xzr, [sp, #520]
	str	x8, [sp, #536]
	str	xzr, [sp, #544]
	str	xzr, [sp, #552]
	str	x8, [sp, #560]
	str	xzr, [sp, #576]
	str	xzr, [sp, #568]
	str	x8, [sp, #584]
	str	xzr, [sp, #656]
	stp	q0, q0, [x9, #208]
	stp	q0, q0, [x9, #240]
	stp	x8, xzr, [x29, #-136]
	stur	xzr, [x29, #-120]
	stp	x0, x1, [sp, #320]
	cbz	x3, 90f
	mov	x20, x3
	mov	x22, x2
	mov	x21, xzr
	mov	w8, wzr
	mov	w2, wzr
	mov	x25, xzr
	sub	x26, x29, #24
	b	5f
1:
	sub	x0, x29, #240
	add	x1, x23, #2
	add	x3, x23, #2
	bl	b2sum_commands..options..long_flag_1_a64
	ldurb	w8, [x29, #-240]
	cbz	w8, 56f
	sub	x13, x29, #240
	ldurb	w9, [x29, #-221]
	ldurb	w11, [x29, #-217]
	ldurh	w10, [x13, #17]
	ldurh	w12, [x13, #21]
	mov	w8, wzr
	ldur	d0, [x29, #-216]
	ldurb	w27, [x29, #-232]
	mov	w2, wzr
	orr	w24, w10, w9, lsl #16
	ldurb	w9, [x29, #-220]
	ldurb	w14, [x29, #-224]
	orr	w23, w12, w11, lsl #16
	str	q0, [sp, #352]
	ldr	q0, [x13, #48]
	str	x9, [sp, #304]
	ldur	x9, [x29, #-208]
	str	w14, [sp, #312]
	str	x9, [sp, #344]
	ldur	x9, [x29, #-200]
2:
	str	x9, [sp, #336]
	mov	w19, #1
	str	q0, [sp, #288]
3:
	mov	w10, wzr
	mov	w9, wzr
	cbnz	w19, 154f
4:
	add	x25, x25, #1
	cmp	x25, x20
	b.eq	85f
5:
	mov	w9, #24
	movi	v0.2d, #0000000000000000
	cmp	w8, #2
	madd	x9, x25, x9, x22
	stur	q0, [x28, #184]
	stur	q0, [x28, #168]
	ldp	x23, x19, [x9]
	stur	q0, [x28, #152]
	stur	q0, [x28, #136]
	b.eq	6f
	cmp	w8, #1
	b.ne	8f
	add	x0, sp, #800
	add	x1, sp, #384
	mov	x3, x23
	mov	x4, x19
	bl	b2sum_commands..options..take_value_1_a64
	ldrb	w8, [sp, #800]
	cbz	w8, 48f
	b	105f
6:
	cbz	x19, 11f
	tbnz	x19, #63, 153f
	mov	x0, x19
	mov	w1, #1
	vj_call	rattle_alloc
	tbz	w0, #0, 152f
	mov	x24, x1
	sub	x9, x1, x23
	cmp	x9, x19
	b.hs	12f
7:
	cmp	x19, #8
	mov	x8, xzr
	b.lo	28f
	cmp	x9, #32
	b.lo	28f
	cmp	x19, #32
	b.hs	24f
	mov	x8, xzr
	b	26f
8:
	subs	x4, x19, #2
	b.ne	9f
	ldrb	w8, [x23]
	cmp	w8, #45
	b.ne	38f
	ldrb	w8, [x23, #1]
	cmp	w8, #45
	b.ne	16f
	b	32f
9:
	b.hs	13f
	cbnz	x19, 38f
	sub	x24, x29, #24
	mov	w26, #1
	sub	x9, x24, x23
	cmp	x9, x19
	b.lo	39f
10:
	mov	x0, x24
	mov	x1, x23
	mov	x2, x19
	vj_c_call	memmove
	b	46f
11:
	sub	x24, x29, #24
	sub	x9, x24, x23
	cmp	x9, x19
	b.lo	7b
12:
	mov	x0, x24
	mov	x1, x23
	mov	x2, x19
	vj_c_call	memmove
	b	30f
13:
	ldrb	w8, [x23]
	cmp	w8, #45
	b.ne	15f
	ldrb	w9, [x23, #1]
	cmp	w9, #45
	b.ne	15f
	mov	w8, #3
	mov	x2, xzr
	add	x9, sp, #896
	add	x24, x23, #3
	sub	x19, x8, x19
	stur	q0, [x28, #8]
	stur	q0, [x28, #24]
	stur	q0, [x28, #40]
	stur	q0, [x28, #56]
	stp	q0, q0, [x9, #240]
	stp	q0, q0, [x9, #272]
14:
	ldurb	w8, [x24, #-1]
	cmp	w8, #61
	b.eq	1b
	add	x19, x19, #1
	add	x24, x24, #1
	add	x2, x2, #1
	cmp	x19, #1
	b.ne	14b
	add	x0, sp, #672
	add	x1, x23, #2
	add	x3, x23, #2
	mov	x2, x4
	bl	b2sum_commands..options..long_flag_1_a64
	ldrb	w8, [sp, #672]
	cbz	w8, 57f
	ldrb	w9, [sp, #691]
	ldurh	w10, [x28, #25]
	mov	w8, wzr
	ldr	d0, [sp, #696]
	ldrb	w11, [sp, #695]
	mov	w2, wzr
	orr	w24, w10, w9, lsl #16
	ldrb	w9, [sp, #692]
	ldurh	w12, [x28, #29]
	ldrb	w13, [sp, #688]
	ldrb	w27, [sp, #680]
	str	q0, [sp, #352]
	str	x9, [sp, #304]
	orr	w23, w12, w11, lsl #16
	ldr	x9, [sp, #704]
	ldur	q0, [x28, #56]
	str	w13, [sp, #312]
	str	x9, [sp, #344]
	ldr	x9, [sp, #712]
	b	2b
15:
	cmp	w8, #45
	b.ne	37f
16:
	add	x3, x23, #2
	stur	q0, [x28, #8]
	stur	q0, [x28, #24]
	b	19f
17:
	mov	w8, #1
	strb	w8, [sp, #646]
18:
	sub	x4, x4, #1
	add	x3, x3, #1
	cmn	x4, #1
	b.eq	33f
19:
	ldurb	w9, [x3, #-1]
	cmp	w9, #115
	b.le	20f
	cmp	w9, #116
	b.eq	22f
	cmp	w9, #119
	b.eq	17b
	cmp	w9, #122
	b.ne	55f
	mov	w8, #1
	strb	w8, [sp, #644]
	b	18b
20:
	cmp	w9, #98
	b.gt	21f
	b.ne	51f
	add	x8, sp, #384
	mov	w9, #257
	b	23f
21:
	cmp	w9, #99
	b.ne	53f
	mov	w8, #1
	strb	w8, [sp, #640]
	b	18b
22:
	add	x8, sp, #384
	mov	w9, #1
23:
	add	x8, x8, #257
	strh	w9, [x8]
	b	18b
24:
	and	x9, x19, #0x18
	and	x8, x19, #0xffffffffffffffe0
	add	x10, x23, #16
	add	x11, x24, #16
	and	x12, x19, #0xffffffffffffffe0
25:
	ldp	q0, q1, [x10, #-16]
	subs	x12, x12, #32
	add	x10, x10, #32
	stp	q0, q1, [x11, #-16]
	add	x11, x11, #32
	b.ne	25b
	cmp	x19, x8
	b.eq	30f
	cbz	x9, 28f
26:
	mov	x11, x8
	and	x8, x19, #0xfffffffffffffff8
	sub	x9, x11, x8
	add	x10, x23, x11
	add	x11, x24, x11
27:
	ldr	d0, [x10], #8
	adds	x9, x9, #8
	str	d0, [x11], #8
	b.ne	27b
	cmp	x19, x8
	b.eq	30f
28:
	sub	x9, x19, x8
	add	x10, x23, x8
	add	x8, x24, x8
29:
	ldrb	w11, [x10], #1
	subs	x9, x9, #1
	strb	w11, [x8], #1
	b.ne	29b
30:
	ldur	x8, [x29, #-120]
	cmp	x8, x21
	b.eq	49f
31:
	mov	w8, #24
	madd	x8, x21, x8, x26
	add	x21, x21, #1
	stp	x24, x19, [x8]
	str	x19, [x8, #16]
	stur	x21, [x29, #-128]
32:
	mov	w8, #2
	b	48f
33:
	mov	w24, wzr
	mov	w23, wzr
	mov	w19, wzr
	mov	w8, wzr
	str	wzr, [sp, #312]
	str	xzr, [sp, #304]
34:
	stp	xzr, xzr, [sp, #336]
	movi	v0.2d, #0000000000000000
	mov	w2, wzr
	mov	w9, wzr
	mov	w27, wzr
35:
	str	q0, [sp, #352]
	str	q0, [sp, #288]
36:
	mov	w10, w8
	cbz	w19, 4b
	b	154f
37:
	tbnz	x19, #63, 152f
38:
	mov	x0, x19
	mov	w1, #1
	vj_call	rattle_alloc
	tbz	w0, #0, 152f
	mov	x24, x1
	mov	w26, wzr
	sub	x9, x1, x23
	cmp	x9, x19
	b.hs	10b
39:
	cmp	x19, #8
	mov	x8, xzr
	b.lo	44f
	cmp	x9, #32
	b.lo	44f
	cmp	x19, #32
	b.hs	40f
	mov	x8, xzr
	b	42f
40:
	and	x9, x19, #0x18
	and	x8, x19, #0xffffffffffffffe0
	add	x10, x23, #16
	add	x11, x24, #16
	and	x12, x19, #0xffffffffffffffe0
41:
	ldp	q0, q1, [x10, #-16]
	subs	x12, x12, #32
	add	x10, x10, #32
	stp	q0, q1, [x11, #-16]
	add	x11, x11, #32
	b.ne	41b
	cmp	x19, x8
	b.eq	46f
	cbz	x9, 44f
42:
	mov	x11, x8
	and	x8, x19, #0xfffffffffffffff8
	sub	x9, x11, x8
	add	x10, x23, x11
	add	x11, x24, x11
43:
	ldr	d0, [x10], #8
	adds	x9, x9, #8
	str	d0, [x11], #8
	b.ne	43b
	cmp	x19, x8
	b.eq	46f
44:
	sub	x9, x19, x8
	add	x10, x23, x8
	add	x8, x24, x8
45:
	ldrb	w11, [x10], #1
	subs	x9, x9, #1
	strb	w11, [x8], #1
	b.ne	45b
46:
	ldur	x8, [x29, #-120]
	cmp	x8, x21
	b.eq	50f
47:
	mov	w9, #24
	ldur	x26, [x29, #-136]
	mov	w8, wzr
	madd	x9, x21, x9, x26
	add	x21, x21, #1
	stur	x21, [x29, #-128]
	stp	x24, x19, [x9]
	str	x19, [x9, #16]
48:
	mov	w9, wzr
	mov	w10, wzr
	mov	w2, wzr
	add	x25, x25, #1
	cmp	x25, x20
	b.ne	5b
	b	85f
49:
	sub	x0, x29, #136
	mov	w1, #1
	bl	std_alloc..vec..Vec..grow_amortized..bb23d2d2a8e2d2e5_1_a64
	cbz	w0, 150f
	ldp	x26, x21, [x29, #-136]
	b	31b
50:
	sub	x0, x29, #136
	mov	w1, #1
	bl	std_alloc..vec..Vec..grow_amortized..bb23d2d2a8e2d2e5_1_a64
	cbz	w0, 199f
	ldur	x21, [x29, #-128]
	b	47b
51:
	cmp	w9, #97
	b.ne	55f
	mov	w2, wzr
	movi	v0.2d, #0000000000000000
	add	x8, sp, #896
	stp	q0, q0, [x8]
	stp	q0, q0, [x8, #32]
	cbz	x4, 54f
52:
	add	x0, sp, #896
	add	x1, sp, #384
	bl	b2sum_commands..options..take_value_1_a64
	ldrb	w8, [sp, #896]
	cbz	w8, 59f
	add	x14, sp, #896
	ldrb	w10, [sp, #915]
	ldr	d0, [sp, #920]
	ldurh	w11, [x14, #17]
	ldrb	w12, [sp, #919]
	mov	w8, wzr
	ldurh	w13, [x14, #21]
	ldrb	w15, [sp, #912]
	mov	w2, wzr
	orr	w24, w11, w10, lsl #16
	ldrb	w10, [sp, #916]
	str	q0, [sp, #352]
	ldr	q0, [x14, #48]
	ldrb	w27, [sp, #904]
	mov	w9, wzr
	str	x10, [sp, #304]
	ldr	x10, [sp, #928]
	orr	w23, w13, w12, lsl #16
	str	w15, [sp, #312]
	mov	w19, #1
	str	x10, [sp, #344]
	ldr	x10, [sp, #936]
	str	q0, [sp, #288]
	str	x10, [sp, #336]
	b	36b
53:
	cmp	w9, #108
	b.ne	55f
	mov	w2, #1
	movi	v0.2d, #0000000000000000
	add	x8, sp, #896
	stp	q0, q0, [x8]
	stp	q0, q0, [x8, #32]
	cbnz	x4, 52b
54:
	mov	w23, wzr
	mov	w24, wzr
	str	wzr, [sp, #312]
	str	xzr, [sp, #304]
	mov	w19, wzr
	mov	w27, wzr
	stp	xzr, xzr, [sp, #336]
	mov	w8, #1
	b	35b
55:
	vj_page	x1, .L1_a64_static.41
	vj_address	x1, x1, .L1_a64_static.41
	vj_page	x5, .L1_a64_static.5
	vj_address	x5, x5, .L1_a64_static.5
	add	x0, sp, #672
	add	x3, sp, #896
	mov	w2, #19
	mov	w4, #1
	mov	w6, #1
	strb	w9, [sp, #896]
	mov	w19, #1
	bl	b2sum_commands..options..joined_1_a64
	movi	v0.2d, #0000000000000000
	ldrb	w8, [sp, #672]
	str	q0, [sp, #288]
	cbz	w8, 61f
	mov	w24, wzr
	mov	w23, wzr
	str	wzr, [sp, #312]
	str	xzr, [sp, #304]
	mov	w8, wzr
	mov	w2, wzr
	stp	xzr, xzr, [sp, #336]
	mov	w9, wzr
	mov	w27, #4
	str	q0, [sp, #352]
	b	36b
56:
	movi	v0.2d, #0000000000000000
	add	x8, sp, #896
	ldurb	w2, [x29, #-239]
	mov	w9, #48128
	neg	x4, x19
	movk	w9, #16382, lsl #16
	stp	q0, q0, [x8, #32]
	stp	q0, q0, [x8, #176]
	mov	w8, #1
	lsl	w8, w8, w2
	stur	q0, [x28, #232]
	stur	q0, [x28, #248]
	tst	w8, w9
	b.eq	60f
	sub	w8, w2, #10
	vj_page	x9, .L1_a64_switch.table.b2sum_commands..program..run_words..82a450bcca081e63_1_a64
	vj_address	x9, x9, .L1_a64_switch.table.b2sum_commands..program..run_words..82a450bcca081e63_1_a64
	and	x8, x8, #0xff
	vj_page	x1, .L1_a64_static.37
	vj_address	x1, x1, .L1_a64_static.37
	ldr	x4, [x9, x8, lsl #3]
	vj_page	x9, .L1_a64_switch.table.b2sum_commands..program..run_words..82a450bcca081e63.394.rel_1_a64
	vj_address	x9, x9, .L1_a64_switch.table.b2sum_commands..program..run_words..82a450bcca081e63.394.rel_1_a64
	ldrsw	x8, [x9, x8, lsl #2]
	vj_page	x5, .L1_a64_static.40
	vj_address	x5, x5, .L1_a64_static.40
	add	x0, sp, #1072
	mov	w2, #10
	mov	w6, #27
	add	x3, x9, x8
	bl	b2sum_commands..options..joined_1_a64
	movi	v0.2d, #0000000000000000
	ldrb	w8, [sp, #1072]
	str	q0, [sp, #288]
	cbz	w8, 62f
	mov	w24, wzr
	mov	w23, wzr
	str	wzr, [sp, #312]
	str	xzr, [sp, #304]
	mov	w27, #4
	stp	xzr, xzr, [sp, #336]
	str	q0, [sp, #352]
	b	63f
57:
	ldrb	w2, [sp, #673]
	movi	v0.2d, #0000000000000000
	mov	w8, #1
	mov	w10, #48128
	mov	w24, wzr
	mov	w23, wzr
	lsl	w9, w8, w2
	movk	w10, #16382, lsl #16
	mov	w19, wzr
	mov	w27, wzr
	str	wzr, [sp, #312]
	tst	w9, w10
	mov	w9, wzr
	str	q0, [sp, #288]
	str	q0, [sp, #352]
	str	x9, [sp, #304]
	stp	xzr, xzr, [sp, #336]
	b.eq	3b
	sub	w8, w2, #10
	vj_page	x9, .L1_a64_JTI3_0
	vj_address	x9, x9, .L1_a64_JTI3_0
	str	q0, [sp, #288]
	mov	w24, wzr
	mov	w23, wzr
	str	q0, [sp, #352]
	adr	x10, 3b
	ldrh	w11, [x9, x8, lsl #1]
	add	x10, x10, x11, lsl #2
	mov	w8, wzr
	str	wzr, [sp, #312]
	mov	w19, wzr
	mov	w2, wzr
	str	x8, [sp, #304]
	mov	w27, wzr
	stp	xzr, xzr, [sp, #336]
	ret	x10
58:
	mov	w9, #1
	mov	w24, wzr
	mov	w23, wzr
	str	wzr, [sp, #312]
	mov	w19, wzr
	mov	w8, wzr
	str	xzr, [sp, #304]
	mov	w2, wzr
	mov	w27, wzr
	stp	xzr, xzr, [sp, #336]
	str	q0, [sp, #352]
	str	q0, [sp, #288]
	strb	w9, [sp, #656]
	b	3b
59:
	mov	w23, wzr
	mov	w24, wzr
	str	wzr, [sp, #312]
	str	xzr, [sp, #304]
	mov	w19, wzr
	b	34b
60:
	add	x0, sp, #896
	add	x1, sp, #384
	mov	x3, x24
	bl	b2sum_commands..options..take_value_1_a64
	ldrb	w8, [sp, #896]
	cbz	w8, 65f
	add	x12, sp, #896
	ldrb	w8, [sp, #915]
	ldrb	w10, [sp, #919]
	ldurh	w9, [x12, #17]
	ldurh	w11, [x12, #21]
	ldr	d0, [sp, #920]
	ldrb	w27, [sp, #904]
	ldrb	w13, [sp, #912]
	orr	w24, w9, w8, lsl #16
	ldrb	w8, [sp, #916]
	orr	w23, w11, w10, lsl #16
	str	q0, [sp, #352]
	ldr	q0, [x12, #48]
	str	x8, [sp, #304]
	ldr	x8, [sp, #928]
	str	w13, [sp, #312]
	str	x8, [sp, #344]
	ldr	x8, [sp, #936]
	str	q0, [sp, #288]
	str	x8, [sp, #336]
	b	63f
61:
	ldrb	w10, [sp, #683]
	ldurh	w11, [x28, #17]
	mov	w2, wzr
	ldrb	w12, [sp, #687]
	ldurh	w13, [x28, #21]
	mov	w9, wzr
	orr	w24, w11, w10, lsl #16
	ldrb	w10, [sp, #684]
	ldrb	w14, [sp, #680]
	ldr	d0, [sp, #688]
	orr	w23, w13, w12, lsl #16
	mov	w27, #2
	str	x10, [sp, #304]
	ldr	x10, [sp, #696]
	mov	w19, #1
	str	w14, [sp, #312]
	str	q0, [sp, #352]
	stp	xzr, x10, [sp, #336]
	b	36b
62:
	add	x11, sp, #896
	ldrb	w8, [sp, #1083]
	ldrb	w12, [sp, #1080]
	ldurh	w9, [x11, #185]
	ldrb	w10, [sp, #1087]
	mov	w27, #2
	ldurh	w11, [x11, #189]
	str	w12, [sp, #312]
	ldrb	w12, [sp, #1084]
	orr	w24, w9, w8, lsl #16
	ldr	d0, [sp, #1088]
	ldr	x8, [sp, #1096]
	str	x12, [sp, #304]
	orr	w23, w11, w10, lsl #16
	str	q0, [sp, #352]
	stp	xzr, x8, [sp, #336]
63:
	mov	w19, #1
64:
	mov	w8, wzr
	mov	w2, wzr
	b	3b
65:
	movi	v0.2d, #0000000000000000
	mov	w24, wzr
	mov	w23, wzr
	str	wzr, [sp, #312]
	mov	w19, wzr
	mov	w27, wzr
	str	xzr, [sp, #304]
	stp	xzr, xzr, [sp, #336]
	str	q0, [sp, #352]
	str	q0, [sp, #288]
	b	64b
66:
	mov	w9, #1
	mov	w24, wzr
	mov	w23, wzr
	str	wzr, [sp, #312]
	mov	w19, wzr
	mov	w8, wzr
	str	xzr, [sp, #304]
	mov	w2, wzr
	mov	w27, wzr
	stp	xzr, xzr, [sp, #336]
	str	q0, [sp, #352]
	str	q0, [sp, #288]
	strb	w9, [sp, #647]
	b	3b
67:
	add	x9, sp, #384
	mov	w10, #257
	mov	w24, wzr
	add	x9, x9, #257
	mov	w23, wzr
	str	wzr, [sp, #312]
	strh	w10, [x9]
	mov	w9, #1
	mov	w19, wzr
	str	xzr, [sp, #304]
	mov	w8, wzr
	mov	w2, wzr
	stp	xzr, xzr, [sp, #336]
	mov	w27, wzr
	str	q0, [sp, #352]
	str	q0, [sp, #288]
	strb	w9, [sp, #643]
	b	3b
68:
	mov	w9, #3
	b	76f
69:
	mov	w9, #1
	mov	w24, wzr
	mov	w23, wzr
	str	wzr, [sp, #312]
	mov	w19, wzr
	mov	w8, wzr
	str	xzr, [sp, #304]
	mov	w2, wzr
	mov	w27, wzr
	stp	xzr, xzr, [sp, #336]
	str	q0, [sp, #352]
	str	q0, [sp, #288]
	strb	w9, [sp, #645]
	b	3b
70:
	mov	w9, #1
	mov	w24, wzr
	mov	w23, wzr
	str	wzr, [sp, #312]
	mov	w19, wzr
	mov	w8, wzr
	str	xzr, [sp, #304]
	mov	w2, wzr
	mov	w27, wzr
	stp	xzr, xzr, [sp, #336]
	str	q0, [sp, #352]
	str	q0, [sp, #288]
	strb	w9, [sp, #644]
	b	3b
71:
	mov	w9, #1
	mov	w24, wzr
	mov	w23, wzr
	str	wzr, [sp, #312]
	mov	w19, wzr
	mov	w8, wzr
	str	xzr, [sp, #304]
	mov	w2, wzr
	mov	w27, wzr
	stp	xzr, xzr, [sp, #336]
	str	q0, [sp, #352]
	str	q0, [sp, #288]
	strb	w9, [sp, #659]
	b	3b
72:
	add	x9, sp, #384
	mov	w10, #257
	mov	w24, wzr
	add	x9, x9, #257
	mov	w23, wzr
	str	wzr, [sp, #312]
	strh	w10, [x9]
	mov	w9, #1
	mov	w19, wzr
	str	xzr, [sp, #304]
	mov	w8, wzr
	mov	w2, wzr
	stp	xzr, xzr, [sp, #336]
	mov	w27, wzr
	str	q0, [sp, #352]
	str	q0, [sp, #288]
	strb	w9, [sp, #660]
	strb	w9, [sp, #643]
	b	3b
73:
	mov	w9, #1
	mov	w24, wzr
	mov	w23, wzr
	str	wzr, [sp, #312]
	mov	w19, wzr
	mov	w8, wzr
	str	xzr, [sp, #304]
	mov	w2, wzr
	mov	w27, wzr
	stp	xzr, xzr, [sp, #336]
	str	q0, [sp, #352]
	str	q0, [sp, #288]
	strb	w9, [sp, #640]
	b	3b
74:
	mov	w9, #1
	b	76f
75:
	mov	w9, #2
76:
	mov	w24, wzr
	mov	w23, wzr
	str	wzr, [sp, #312]
	mov	w19, wzr
	mov	w8, wzr
	str	xzr, [sp, #304]
	mov	w2, wzr
	mov	w27, wzr
	stp	xzr, xzr, [sp, #336]
	str	q0, [sp, #352]
	str	q0, [sp, #288]
	strb	w9, [sp, #646]
	b	3b
77:
	mov	w9, #1
	mov	w24, wzr
	mov	w23, wzr
	str	wzr, [sp, #312]
	mov	w19, wzr
	mov	w8, wzr
	str	xzr, [sp, #304]
	mov	w2, wzr
	mov	w27, wzr
	stp	xzr, xzr, [sp, #336]
	str	q0, [sp, #352]
	str	q0, [sp, #288]
	strb	w9, [sp, #658]
	b	3b
78:
	mov	w9, #1
	mov	w24, wzr
	mov	w23, wzr
	str	wzr, [sp, #312]
	mov	w19, wzr
	mov	w8, wzr
	str	xzr, [sp, #304]
	mov	w2, wzr
	mov	w27, wzr
	stp	xzr, xzr, [sp, #336]
	str	q0, [sp, #352]
	str	q0, [sp, #288]
	strb	w9, [sp, #657]
	b	3b
79:
	add	x9, sp, #384
	mov	w10, #1
	b	84f
80:
	mov	w9, #1
	mov	w24, wzr
	mov	w23, wzr
	str	wzr, [sp, #312]
	mov	w19, wzr
	mov	w8, wzr
	str	xzr, [sp, #304]
	mov	w2, wzr
	mov	w27, wzr
	stp	xzr, xzr, [sp, #336]
	str	q0, [sp, #352]
	str	q0, [sp, #288]
	strb	w9, [sp, #661]
	b	3b
81:
	mov	w24, #1
82:
	mov	w23, wzr
	str	wzr, [sp, #312]
	mov	w8, wzr
	str	xzr, [sp, #304]
	mov	w2, wzr
	mov	w27, w24
	stp	xzr, xzr, [sp, #336]
	mov	w19, #1
	mov	w24, wzr
	str	q0, [sp, #352]
	str	q0, [sp, #288]
	b	3b
83:
	add	x9, sp, #384
	mov	w10, #257
84:
	mov	w24, wzr
	add	x9, x9, #257
	mov	w23, wzr
	str	wzr, [sp, #312]
	str	xzr, [sp, #304]
	mov	w19, wzr
	mov	w8, wzr
	stp	xzr, xzr, [sp, #336]
	mov	w2, wzr
	mov	w27, wzr
	str	q0, [sp, #352]
	str	q0, [sp, #288]
	strh	w10, [x9]
	b	3b
85:
	cmp	w8, #1
	b.ne	89f
	movi	v0.2d, #0000000000000000
	ldr	x25, [sp, #328]
	add	x8, sp, #896
	stp	q0, q0, [x8]
	cbz	w10, 119f
	strb	w9, [sp, #672]
	vj_page	x1, .L1_a64_static.63
	vj_address	x1, x1, .L1_a64_static.63
	vj_page	x5, .L1_a64_static.5
	vj_address	x5, x5, .L1_a64_static.5
	add	x0, sp, #896
	add	x3, sp, #672
	mov	w2, #32
	mov	w4, #1
	mov	w6, #1
	bl	b2sum_commands..options..joined_1_a64
	ldrb	w8, [sp, #896]
	ldur	x19, [x29, #-136]
	ldur	x24, [x29, #-120]
	cbz	w8, 120f
86:
	cbz	x21, 106f
	add	x20, x19, #16
	b	88f
87:
	subs	x21, x21, #1
	add	x20, x20, #24
	b.eq	106f
88:
	ldr	x8, [x20]
	cbz	x8, 87b
	ldur	x0, [x20, #-16]
	vj_call	rattle_dealloc
	b	87b
89:
	ldp	x23, x25, [sp, #320]
	ldr	x22, [sp, #592]
	cbnz	x21, 92f
	cbz	x22, 90f
	ldrb	w8, [sp, #640]
	tbnz	w8, #0, 90f
	mov	x21, xzr
	b	92f
90:
	mov	w0, #1
	mov	w1, #1
	vj_call	rattle_alloc
	tbz	w0, #0, 93f
	ldur	x8, [x29, #-120]
	mov	w9, #45
	strb	w9, [x1]
	cbz	x8, 142f
	mov	x8, xzr
91:
	mov	w9, #24
	ldur	x10, [x29, #-136]
	add	x21, x8, #1
	madd	x9, x8, x9, x10
	mov	w10, #1
	dup	v0.2d, x10
	str	x1, [x9]
	stur	q0, [x9, #8]
	ldr	x22, [sp, #592]
92:
	ldrb	w8, [sp, #392]
	movi	v0.2d, #0000000000000000
	ldr	x12, [sp, #504]
	ldr	x20, [sp, #384]
	ldp	x9, x3, [sp, #408]
	str	w8, [sp, #288]
	add	x13, sp, #896
	ldrb	w8, [sp, #396]
	str	x12, [sp, #248]
	lsr	x19, x20, #32
	ldr	x12, [sp, #512]
	str	w8, [sp, #344]
	ldrb	w14, [sp, #659]
	ldur	x1, [x29, #-136]
	str	x12, [sp, #224]
	vj_page	x12, .L1_a64_switch.table.b2sum_commands..program..run_words..82a450bcca081e63.397_1_a64
	vj_address	x12, x12, .L1_a64_switch.table.b2sum_commands..program..run_words..82a450bcca081e63.397_1_a64
	ldp	x4, x8, [sp, #424]
	ldr	w10, [sp, #400]
	ldrb	w7, [sp, #472]
	ldrb	w26, [sp, #473]
	ldr	x27, [sp, #528]
	ldr	x2, [sp, #536]
	ldr	x24, [sp, #568]
	stp	q0, q0, [x13]
	str	x8, [sp, #336]
	ldrb	w8, [sp, #440]
	ldrb	w6, [sp, #640]
	ldrb	w16, [sp, #641]
	ldrb	w17, [sp, #642]
	ldrb	w0, [sp, #643]
	str	w8, [sp, #168]
	ldrb	w13, [sp, #647]
	ldrb	w5, [sp, #658]
	str	w14, [sp, #136]
	ldrb	w14, [sp, #660]
	ldrb	w15, [sp, #661]
	str	x1, [sp, #352]
	ldur	x1, [x29, #-120]
	stur	q0, [x28, #136]
	ldp	x11, x8, [sp, #448]
	stur	q0, [x28, #152]
	stp	q0, q0, [sp, #384]
	str	x8, [sp, #120]
	ldr	x8, [sp, #464]
	str	x11, [sp, #208]
	ldrb	w11, [sp, #480]
	str	x8, [sp, #104]
	ldp	x30, x8, [sp, #488]
	str	w11, [sp, #232]
	sub	x11, x29, #240
	stp	q0, q0, [x11]
	ldr	x11, [sp, #552]
	str	x8, [sp, #144]
	ldr	x8, [sp, #520]
	str	x11, [sp, #264]
	and	x11, x20, #0xff
	str	x8, [sp, #72]
	ldr	x8, [sp, #544]
	ldr	x11, [x12, x11, lsl #3]
	ldr	x12, [sp, #584]
	stur	q0, [x28, #8]
	cmp	x9, x11
	str	x8, [sp, #56]
	ldr	x8, [sp, #560]
	str	x12, [sp, #304]
	ldr	x12, [sp, #600]
	ldr	x11, [sp, #616]
	str	x8, [sp, #96]
	ldr	x8, [sp, #576]
	str	x12, [sp, #256]
	ldrb	w12, [sp, #608]
	str	x8, [sp, #160]
	ldr	x8, [sp, #624]
	str	x11, [sp, #200]
	ldr	x11, [sp, #632]
	str	x8, [sp, #64]
	ldrb	w8, [sp, #644]
	str	w12, [sp, #280]
	ldrb	w12, [sp, #648]
	str	w8, [sp, #84]
	ldrb	w8, [sp, #645]
	str	x11, [sp, #240]
	ldr	w11, [sp, #652]
	str	w8, [sp, #52]
	ldrb	w8, [sp, #646]
	str	x1, [sp, #272]
	str	w8, [sp, #140]
	ldrb	w8, [sp, #656]
	stur	q0, [x28, #24]
	str	w8, [sp, #132]
	ldrb	w8, [sp, #657]
	stp	x30, x2, [sp, #176]
	str	x27, [sp, #216]
	str	x3, [sp, #152]
	b.ls	104f
	vj_page	x1, .L1_a64_static.61
	vj_address	x1, x1, .L1_a64_static.61
	vj_page	x5, .L1_a64_static.1
	vj_address	x5, x5, .L1_a64_static.1
	add	x0, sp, #384
	mov	w2, #16
	mov	x6, xzr
	bl	b2sum_commands..options..joined_1_a64
	ldrb	w8, [sp, #384]
	cbnz	w8, 210f
	ldp	x26, x27, [sp, #392]
	add	x0, sp, #896
	ldr	x24, [sp, #408]
	mov	w1, w20
	mov	w2, w19
	bl	b2sum_lines..entry..Algorithm..tag_1_a64
	ldrb	w8, [sp, #896]
	cbz	w8, 136f
	cbz	x24, 210f
	mov	x0, x26
	vj_call	rattle_dealloc
	b	210f
93:
	ldur	x19, [x29, #-136]
	ldur	x20, [x29, #-120]
94:
	cbz	x20, 95f
	mov	x0, x19
	vj_call	rattle_dealloc
95:
	ldr	x8, [sp, #432]
	cbz	x8, 96f
	ldr	x0, [sp, #416]
	vj_call	rattle_dealloc
96:
	ldrb	w8, [sp, #440]
	cmp	w8, #1
	b.ne	97f
	ldr	x8, [sp, #464]
	cbz	x8, 97f
	ldr	x0, [sp, #448]
	vj_call	rattle_dealloc
97:
	ldrb	w8, [sp, #480]
	cmp	w8, #1
	b.ne	98f
	ldr	x8, [sp, #504]
	cbz	x8, 98f
	ldr	x0, [sp, #488]
	vj_call	rattle_dealloc
98:
	ldr	x8, [sp, #528]
	cbz	x8, 99f
	ldr	x0, [sp, #512]
	vj_call	rattle_dealloc
99:
	ldr	x8, [sp, #552]
	cbz	x8, 100f
	ldr	x0, [sp, #536]
	vj_call	rattle_dealloc
100:
	ldr	x8, [sp, #576]
	cbz	x8, 101f
	ldr	x0, [sp, #560]
	vj_call	rattle_dealloc
101:
	ldr	x20, [sp, #592]
	ldr	x19, [sp, #584]
	ldr	x21, [sp, #600]
	cbz	x20, 116f
	add	x22, x19, #16
	b	103f
102:
	subs	x20, x20, #1
	add	x22, x22, #24
	b.eq	116f
103:
	ldr	x8, [x22]
	cbz	x8, 102b
	ldur	x0, [x22, #-16]
	vj_call	rattle_dealloc
	b	102b
104:
	tbz	w14, #0, 202f
	tbz	w6, #0, 135f
	vj_page	x1, .L1_a64_static.74
	vj_address	x1, x1, .L1_a64_static.74
	mov	w2, #57
	b	209f
105:
	ldrb	w8, [sp, #819]
	ldurh	w9, [x28, #153]
	ldr	d0, [sp, #824]
	ldrb	w10, [sp, #823]
	ldurh	w11, [x28, #157]
	ldrb	w12, [sp, #816]
	orr	w24, w9, w8, lsl #16
	ldrb	w8, [sp, #820]
	str	q0, [sp, #352]
	orr	w23, w11, w10, lsl #16
	ldur	q0, [x28, #184]
	ldrb	w27, [sp, #808]
	str	x8, [sp, #304]
	ldr	x8, [sp, #832]
	str	w12, [sp, #312]
	str	x8, [sp, #344]
	ldr	x8, [sp, #840]
	str	q0, [sp, #288]
	str	x8, [sp, #336]
	b	154f
106:
	cbz	x24, 107f
	mov	x0, x19
	vj_call	rattle_dealloc
107:
	ldr	x8, [sp, #432]
	cbz	x8, 108f
	ldr	x0, [sp, #416]
	vj_call	rattle_dealloc
108:
	ldrb	w8, [sp, #440]
	cmp	w8, #1
	b.ne	109f
	ldr	x8, [sp, #464]
	cbz	x8, 109f
	ldr	x0, [sp, #448]
	vj_call	rattle_dealloc
109:
	ldrb	w8, [sp, #480]
	cmp	w8, #1
	b.ne	110f
	ldr	x8, [sp, #504]
	cbz	x8, 110f
	ldr	x0, [sp, #488]
	vj_call	rattle_dealloc
110:
	ldr	x8, [sp, #528]
	cbz	x8, 111f
	ldr	x0, [sp, #512]
	vj_call	rattle_dealloc
111:
	ldr	x8, [sp, #552]
	cbz	x8, 112f
	ldr	x0, [sp, #536]
	vj_call	rattle_dealloc
112:
	ldr	x8, [sp, #576]
	cbz	x8, 113f
	ldr	x0, [sp, #560]
	vj_call	rattle_dealloc
113:
	ldr	x20, [sp, #592]
	ldr	x19, [sp, #584]
	ldr	x21, [sp, #600]
	cbz	x20, 116f
	add	x22, x19, #16
	b	115f
114:
	subs	x20, x20, #1
	add	x22, x22, #24
	b.eq	116f
115:
	ldr	x8, [x22]
	cbz	x8, 114b
	ldur	x0, [x22, #-16]
	vj_call	rattle_dealloc
	b	114b
116:
	cbz	x21, 117f
	mov	x0, x19
	vj_call	rattle_dealloc
117:
	movi	v0.2d, #0000000000000000
	ldrb	w8, [sp, #608]
	mov	x22, xzr
	mov	w24, wzr
	mov	w27, #4
	cmp	w8, #1
	str	q0, [sp, #352]
	b.ne	118f
	ldr	x8, [sp, #632]
	mov	w23, w24
	mov	w19, w24
	mov	w21, w24
	mov	x20, x22
	mov	x26, x22
	str	x22, [sp, #288]
	cbz	x8, 170f
	ldr	x0, [sp, #616]
	vj_call	rattle_dealloc
	movi	v0.2d, #0000000000000000
	mov	w24, wzr
	mov	w23, wzr
	mov	w19, wzr
	mov	w21, wzr
	mov	x22, xzr
	mov	x20, xzr
	str	xzr, [sp, #288]
	mov	x26, xzr
	str	q0, [sp, #352]
	b	170f
118:
	mov	w23, w24
	mov	w19, w24
	mov	w21, w24
	mov	x20, x22
	str	x22, [sp, #288]
	mov	x26, x22
	b	170f
119:
	vj_page	x8, .L1_a64_switch.table.b2sum_commands..program..run_words..82a450bcca081e63.395_1_a64
	vj_address	x8, x8, .L1_a64_switch.table.b2sum_commands..program..run_words..82a450bcca081e63.395_1_a64
	vj_page	x1, .L1_a64_static.37
	vj_address	x1, x1, .L1_a64_static.37
	ldr	x4, [x8, w2, uxtw #3]
	vj_page	x8, .L1_a64_switch.table.b2sum_commands..program..run_words..82a450bcca081e63.396.rel_1_a64
	vj_address	x8, x8, .L1_a64_switch.table.b2sum_commands..program..run_words..82a450bcca081e63.396.rel_1_a64
	vj_page	x5, .L1_a64_static.64
	vj_address	x5, x5, .L1_a64_static.64
	ldrsw	x9, [x8, w2, uxtw #2]
	add	x0, sp, #896
	mov	w2, #10
	mov	w6, #22
	add	x3, x8, x9
	bl	b2sum_commands..options..joined_1_a64
	ldrb	w8, [sp, #896]
	ldur	x19, [x29, #-136]
	ldur	x24, [x29, #-120]
	cbnz	w8, 86b
120:
	ldrb	w8, [sp, #904]
	ldrb	w20, [sp, #907]
	ldrb	w9, [sp, #908]
	ldrb	w23, [sp, #911]
	ldr	d0, [sp, #912]
	str	w8, [sp, #312]
	add	x8, sp, #896
	ldurh	w22, [x8, #9]
	ldurh	w25, [x8, #13]
	ldr	x8, [sp, #920]
	str	x9, [sp, #304]
	str	q0, [sp, #352]
	str	x8, [sp, #344]
	cbz	x21, 123f
	add	x26, x19, #16
	b	122f
121:
	subs	x21, x21, #1
	add	x26, x26, #24
	b.eq	123f
122:
	ldr	x8, [x26]
	cbz	x8, 121b
	ldur	x0, [x26, #-16]
	vj_call	rattle_dealloc
	b	121b
123:
	cbz	x24, 124f
	mov	x0, x19
	vj_call	rattle_dealloc
124:
	ldr	x8, [sp, #432]
	cbz	x8, 125f
	ldr	x0, [sp, #416]
	vj_call	rattle_dealloc
125:
	ldrb	w8, [sp, #440]
	cmp	w8, #1
	b.ne	126f
	ldr	x8, [sp, #464]
	cbz	x8, 126f
	ldr	x0, [sp, #448]
	vj_call	rattle_dealloc
126:
	ldrb	w8, [sp, #480]
	cmp	w8, #1
	b.ne	127f
	ldr	x8, [sp, #504]
	cbz	x8, 127f
	ldr	x0, [sp, #488]
	vj_call	rattle_dealloc
127:
	ldr	x8, [sp, #528]
	cbz	x8, 128f
	ldr	x0, [sp, #512]
	vj_call	rattle_dealloc
128:
	ldr	x8, [sp, #552]
	cbz	x8, 129f
	ldr	x0, [sp, #536]
	vj_call	rattle_dealloc
129:
	ldr	x8, [sp, #576]
	cbz	x8, 130f
	ldr	x0, [sp, #560]
	vj_call	rattle_dealloc
130:
	ldr	x24, [sp, #592]
	ldr	x19, [sp, #584]
	ldr	x21, [sp, #600]
	cbz	x24, 133f
	add	x26, x19, #16
	b	132f
131:
	subs	x24, x24, #1
	add	x26, x26, #24
	b.eq	133f
132:
	ldr	x8, [x26]
	cbz	x8, 131b
	ldur	x0, [x26, #-16]
	vj_call	rattle_dealloc
	b	131b
133:
	orr	w24, w22, w20, lsl #16
	orr	w23, w25, w23, lsl #16
	cbz	x21, 134f
	mov	x0, x19
	vj_call	rattle_dealloc
134:
	ldrb	w8, [sp, #608]
	ldr	x25, [sp, #328]
	mov	x20, xzr
	ldr	x22, [sp, #344]
	mov	w27, #2
	cmp	w8, #1
	b.ne	141f
	ldr	x8, [sp, #632]
	ldr	w19, [sp, #312]
	ldr	x21, [sp, #304]
	cbz	x8, 140f
	ldr	x0, [sp, #616]
	vj_call	rattle_dealloc
	mov	x20, xzr
	mov	x26, xzr
	str	xzr, [sp, #288]
	b	170f
135:
	ldr	w1, [sp, #344]
	cmp	w1, #1
	b.ne	139f
	vj_page	x1, .L1_a64_static.75
	vj_address	x1, x1, .L1_a64_static.75
	mov	w2, #41
	b	209f
136:
	and	x8, x20, #0xff
	vj_page	x9, .L1_a64_switch.table.b2sum_commands..program..run_words..82a450bcca081e63.398.rel_1_a64
	vj_address	x9, x9, .L1_a64_switch.table.b2sum_commands..program..run_words..82a450bcca081e63.398.rel_1_a64
	ldr	x19, [sp, #904]
	ldrsw	x8, [x9, x8, lsl #2]
	ldr	x4, [sp, #912]
	ldr	x23, [sp, #920]
	vj_page	x1, .L1_a64_static.67
	vj_address	x1, x1, .L1_a64_static.67
	add	x0, sp, #672
	add	x5, x9, x8
	mov	w2, #27
	mov	x3, x19
	mov	w6, #13
	str	x24, [sp, #344]
	bl	b2sum_commands..options..joined_1_a64
	ldrb	w8, [sp, #672]
	cbz	w8, 144f
	cbz	x23, 137f
	mov	x0, x19
	vj_call	rattle_dealloc
137:
	ldr	x8, [sp, #344]
	cbz	x8, 138f
	mov	x0, x26
	vj_call	rattle_dealloc
138:
	mov	x20, xzr
	mov	w26, wzr
	mov	x27, xzr
	mov	w8, #4
	str	xzr, [sp, #288]
	str	xzr, [sp, #112]
	str	xzr, [sp, #312]
	str	xzr, [sp, #344]
	b	146f
139:
	ldr	w1, [sp, #84]
	tbz	w1, #0, 143f
	vj_page	x1, .L1_a64_static.76
	vj_address	x1, x1, .L1_a64_static.76
	mov	w2, #41
	b	209f
140:
	str	x20, [sp, #288]
	mov	x26, x20
	b	170f
141:
	str	x20, [sp, #288]
	mov	x26, x20
	b	169f
142:
	mov	x19, x1
	sub	x0, x29, #136
	mov	w1, #1
	bl	std_alloc..vec..Vec..grow_amortized..bb23d2d2a8e2d2e5_1_a64
	cbz	w0, 147f
	ldur	x8, [x29, #-128]
	mov	x1, x19
	b	91b
143:
	vj_page	x1, .L1_a64_static.77
	vj_address	x1, x1, .L1_a64_static.77
	mov	w2, #55
	tbnz	w8, #0, 209f
	tbnz	w5, #0, 209f
	cmp	w16, #1
	b.ne	201f
	cbnz	w17, 201f
	vj_page	x1, .L1_a64_static.79
	vj_address	x1, x1, .L1_a64_static.79
	mov	w2, #35
	b	209f
144:
	str	x26, [sp, #312]
	cbz	x23, 145f
	mov	x0, x19
	vj_call	rattle_dealloc
145:
	ldrb	w8, [sp, #703]
	ldurh	w9, [x28, #37]
	ldr	x10, [sp, #688]
	ldr	x20, [sp, #680]
	ldrb	w26, [sp, #696]
	orr	w8, w9, w8, lsl #16
	ldur	w9, [x28, #33]
	str	x10, [sp, #288]
	orr	x8, x9, x8, lsl #32
	str	x8, [sp, #112]
	mov	w8, #3
146:
	ldr	x23, [sp, #320]
	str	x8, [sp, #192]
	cbnz	x21, 212f
	b	274f
147:
	mov	x0, x19
	vj_call	rattle_dealloc
	ldp	x19, x21, [x29, #-136]
	ldur	x20, [x29, #-120]
	cbz	x21, 94b
	add	x22, x19, #16
	b	149f
148:
	subs	x21, x21, #1
	add	x22, x22, #24
	b.eq	94b
149:
	ldr	x8, [x22]
	cbz	x8, 148b
	ldur	x0, [x22, #-16]
	vj_call	rattle_dealloc
	b	148b
150:
	cbz	x19, 152f
151:
	mov	x0, x24
	vj_call	rattle_dealloc
152:
	movi	v0.2d, #0000000000000000
153:
	mov	w24, wzr
	mov	w23, wzr
	str	wzr, [sp, #312]
	str	xzr, [sp, #304]
	stp	xzr, xzr, [sp, #336]
	mov	w27, #4
	str	q0, [sp, #352]
	str	q0, [sp, #288]
154:
	ldp	x19, x20, [x29, #-136]
	ldur	x21, [x29, #-120]
	ldr	x25, [sp, #328]
	cbz	x20, 157f
	add	x22, x19, #16
	b	156f
155:
	subs	x20, x20, #1
	add	x22, x22, #24
	b.eq	157f
156:
	ldr	x8, [x22]
	cbz	x8, 155b
	ldur	x0, [x22, #-16]
	vj_call	rattle_dealloc
	b	155b
157:
	cbz	x21, 158f
	mov	x0, x19
	vj_call	rattle_dealloc
158:
	ldr	x8, [sp, #432]
	cbz	x8, 159f
	ldr	x0, [sp, #416]
	vj_call	rattle_dealloc
159:
	ldrb	w8, [sp, #440]
	cmp	w8, #1
	b.ne	160f
	ldr	x8, [sp, #464]
	cbz	x8, 160f
	ldr	x0, [sp, #448]
	vj_call	rattle_dealloc
160:
	ldrb	w8, [sp, #480]
	cmp	w8, #1
	b.ne	161f
	ldr	x8, [sp, #504]
	cbz	x8, 161f
	ldr	x0, [sp, #488]
	vj_call	rattle_dealloc
161:
	ldr	x8, [sp, #528]
	cbz	x8, 162f
	ldr	x0, [sp, #512]
	vj_call	rattle_dealloc
162:
	ldr	x8, [sp, #552]
	cbz	x8, 163f
	ldr	x0, [sp, #536]
	vj_call	rattle_dealloc
163:
	ldr	x8, [sp, #576]
	cbz	x8, 164f
	ldr	x0, [sp, #560]
	vj_call	rattle_dealloc
164:
	ldr	x20, [sp, #592]
	ldr	x19, [sp, #584]
	ldr	x21, [sp, #600]
	cbz	x20, 167f
	add	x22, x19, #16
	b	166f
165:
	subs	x20, x20, #1
	add	x22, x22, #24
	b.eq	167f
166:
	ldr	x8, [x22]
	cbz	x8, 165b
	ldur	x0, [x22, #-16]
	vj_call	rattle_dealloc
	b	165b
167:
	cbz	x21, 168f
	mov	x0, x19
	vj_call	rattle_dealloc
168:
	ldr	q0, [sp, #288]
	ldrb	w8, [sp, #608]
	ldp	x20, x22, [sp, #336]
	mov	x26, v0.d[1]
	cmp	w8, #1
	fmov	x8, d0
	str	x8, [sp, #288]
	b.ne	169f
	ldr	x8, [sp, #632]
	ldr	w19, [sp, #312]
	ldr	x21, [sp, #304]
	cbz	x8, 170f
	ldr	x0, [sp, #616]
	vj_call	rattle_dealloc
	b	170f
169:
	ldr	w19, [sp, #312]
	ldr	x21, [sp, #304]
170:
	orr	w8, w19, w24, lsl #8
	ldr	q0, [sp, #352]
	str	wzr, [sp, #376]
	mov	w9, v0.s[1]
	orr	x8, x8, x21, lsl #32
	fmov	w10, s0
	orr	x8, x8, x23, lsl #40
	ldr	x23, [sp, #320]
	and	w11, w10, #0xffffff00
	str	x8, [sp, #312]
	orr	x8, x11, x9, lsl #32
	and	w9, w10, #0xff
	lsr	x10, x26, #8
	orr	x19, x8, x9
	add	x8, sp, #124
	stur	wzr, [x8, #255]
	movi	v0.2d, #0000000000000000
	cmp	w27, #1
	stur	q0, [x28, #152]
	stur	q0, [x28, #136]
	b.le	290f
171:
	cmp	w27, #2
	b.eq	174f
	cmp	w27, #3
	b.ne	291f
	ldp	x1, x2, [x23]
	vj_page	x5, .L1_a64_static.1
	vj_address	x5, x5, .L1_a64_static.1
	ldr	x3, [sp, #312]
	sub	x8, x29, #240
	add	x0, sp, #672
	mov	x4, x19
	mov	x6, xzr
	mov	x7, x5
	stur	q0, [x28, #8]
	bfi	x26, x10, #8, #56
	stur	q0, [x28, #24]
	stp	q0, q0, [x8]
	str	xzr, [sp]
	bl	b2sum_commands..messages..line_of_1_a64
	ldrb	w8, [sp, #672]
	cbz	w8, 179f
172:
	cbz	x26, 173f
	mov	x0, x20
	vj_call	rattle_dealloc
173:
	cbz	x22, 291f
	ldr	x0, [sp, #312]
	b	176f
174:
	ldp	x20, x21, [x23]
	vj_page	x5, .L1_a64_static.1
	vj_address	x5, x5, .L1_a64_static.1
	ldr	x26, [sp, #312]
	sub	x8, x29, #240
	add	x0, sp, #672
	mov	x4, x19
	mov	x6, xzr
	mov	x1, x20
	mov	x2, x21
	mov	x3, x26
	mov	x7, x5
	stur	q0, [x28, #8]
	stur	q0, [x28, #24]
	stp	q0, q0, [x8]
	str	xzr, [sp]
	bl	b2sum_commands..messages..line_of_1_a64
	ldrb	w8, [sp, #672]
	cbz	w8, 177f
175:
	cbz	x22, 291f
	mov	x0, x26
176:
	vj_call	rattle_dealloc
	b	291f
177:
	ldur	q0, [x28, #16]
	ldr	x8, [sp, #696]
	add	x9, sp, #896
	vj_page	x1, .L1_a64_static.256
	vj_address	x1, x1, .L1_a64_static.256
	vj_page	x5, .L1_a64_static.255
	vj_address	x5, x5, .L1_a64_static.255
	sub	x0, x29, #240
	mov	w2, #5
	mov	x3, x20
	mov	x4, x21
	mov	w6, #31
	str	q0, [x9, #176]
	str	x8, [sp, #1088]
	bl	b2sum_commands..options..joined_1_a64
	ldurb	w8, [x29, #-240]
	cbz	w8, 181f
178:
	ldr	x8, [sp, #1088]
	cbz	x8, 175b
	ldr	x0, [sp, #1072]
	vj_call	rattle_dealloc
	b	175b
179:
	ldur	q0, [x28, #16]
	ldr	x8, [sp, #696]
	add	x9, sp, #896
	ldr	x4, [sp, #288]
	str	q0, [x9, #176]
	str	x8, [sp, #1088]
	cbz	x4, 186f
	ldp	x1, x2, [x23]
	vj_page	x5, .L1_a64_static.1
	vj_address	x5, x5, .L1_a64_static.1
	sub	x0, x29, #240
	mov	x3, x20
	mov	x6, xzr
	mov	x7, x5
	str	xzr, [sp]
	bl	b2sum_commands..messages..line_of_1_a64
	ldurb	w8, [x29, #-240]
	cbz	w8, 188f
	ldr	x8, [sp, #1088]
	cbz	x8, 172b
180:
	ldr	x0, [sp, #1072]
	vj_call	rattle_dealloc
	b	172b
181:
	ldr	x21, [sp, #1088]
	ldr	x8, [sp, #1080]
	ldur	x23, [x29, #-216]
	ldp	x20, x2, [x29, #-232]
	sub	x9, x21, x8
	cmp	x2, x9
	b.hi	223f
	mov	x24, x22
	ldr	x19, [sp, #1072]
	add	x22, x8, x2
	add	x0, x19, x8
	sub	x9, x0, x20
	cmp	x9, x2
	b.hs	224f
182:
	cmp	x2, #8
	b.lo	183f
	add	x9, x8, x19
	sub	x9, x9, x20
	cmp	x9, #32
	b.hs	200f
183:
	mov	x9, xzr
184:
	add	x10, x9, x8
	sub	x8, x2, x9
	add	x9, x20, x9
	add	x10, x19, x10
185:
	ldrb	w11, [x9], #1
	subs	x8, x8, #1
	strb	w11, [x10], #1
	b.ne	185b
	b	225f
186:
	mov	x27, x20
	ldr	x20, [sp, #1080]
	ldr	x19, [sp, #1072]
	mov	x24, x22
	cbz	x20, 195f
	ldrb	w8, [x25, #224]
	cmp	w8, #1
	b.eq	195f
	mov	x21, xzr
187:
	add	x1, x19, x21
	sub	x2, x20, x21
	mov	w0, #2
	sub	x22, x20, x21
	vj_system_call	write, b2_write
	tbnz	x0, #63, 193f
	cmp	x0, x22
	csel	x8, x0, x22, lo
	cbz	x8, 194f
	add	x21, x8, x21
	cmp	x21, x20
	b.lo	187b
	b	195f
188:
	mov	x27, x20
	ldr	x21, [sp, #1088]
	ldr	x8, [sp, #1080]
	ldp	x20, x2, [x29, #-232]
	ldur	x23, [x29, #-216]
	sub	x9, x21, x8
	cmp	x2, x9
	b.hi	237f
	mov	x24, x22
	ldr	x19, [sp, #1072]
	add	x22, x8, x2
	add	x0, x19, x8
	sub	x9, x0, x20
	cmp	x9, x2
	b.hs	238f
189:
	cmp	x2, #8
	b.lo	190f
	add	x9, x8, x19
	sub	x9, x9, x20
	cmp	x9, #32
	b.hs	218f
190:
	mov	x9, xzr
191:
	add	x10, x9, x8
	sub	x8, x2, x9
	add	x9, x20, x9
	add	x10, x19, x10
192:
	ldrb	w11, [x9], #1
	subs	x8, x8, #1
	strb	w11, [x10], #1
	b.ne	192b
	b	239f
193:
	add	x0, sp, #384
	bl	std_io..io..error..last_error_1_a64
	add	x8, sp, #137
	add	x9, sp, #896
	ldur	q0, [x8, #255]
	add	x8, sp, #201
	ldur	q1, [x8, #255]
	add	x8, sp, #185
	ldur	q2, [x8, #255]
	add	x8, sp, #153
	ldur	q3, [x8, #255]
	add	x8, sp, #169
	str	q1, [x25, #304]
	ldur	q4, [x8, #255]
	stp	q2, q1, [x9, #48]
	mov	w8, #1
	stp	q0, q3, [x9]
	str	q4, [x9, #32]
	ldr	x9, [sp, #384]
	stp	q0, q3, [x25, #240]
	stp	x8, x9, [x25, #224]
	stp	q4, q2, [x25, #272]
	b	195f
194:
	movi	v0.2d, #0000000000000000
	mov	w8, #1
	mov	w9, #5889
	str	q0, [x25, #234]!
	stur	x8, [x25, #-10]
	sturh	w9, [x25, #-2]
	stp	q0, q0, [x25, #16]
	stp	q0, q0, [x25, #48]
	stur	xzr, [x25, #78]
195:
	ldr	x8, [sp, #1088]
	cbz	x8, 197f
196:
	mov	x0, x19
	vj_call	rattle_dealloc
197:
	cbz	x26, 198f
	mov	x0, x27
	vj_call	rattle_dealloc
198:
	cbz	x24, 545f
	ldr	x0, [sp, #312]
	b	544f
199:
	tbz	w26, #0, 151b
	b	152b
200:
	cmp	x2, #32
	b.hs	219f
	mov	x9, xzr
	b	221f
201:
	ldr	w1, [sp, #168]
	cmp	w1, #1
	b.ne	232f
202:
	tbz	w15, #0, 203f
	tbz	w6, #0, 204f
	ldr	w1, [sp, #168]
	cmp	w1, #1
	b.ne	206f
203:
	cbz	x22, 208f
	ldr	w1, [sp, #280]
	cmp	w1, #1
	b.ne	205f
	vj_page	x1, .L1_a64_static.83
	vj_address	x1, x1, .L1_a64_static.83
	mov	w2, #48
	b	209f
204:
	vj_page	x1, .L1_a64_static.81
	vj_address	x1, x1, .L1_a64_static.81
	mov	w2, #63
	b	209f
205:
	tbz	w6, #0, 207f
	tbnz	w15, #0, 208f
	vj_page	x1, .L1_a64_static.85
	vj_address	x1, x1, .L1_a64_static.85
	mov	w2, #62
	b	209f
206:
	vj_page	x1, .L1_a64_static.82
	vj_address	x1, x1, .L1_a64_static.82
	mov	w2, #36
	b	209f
207:
	tbz	w5, #0, 208f
	vj_page	x1, .L1_a64_static.84
	vj_address	x1, x1, .L1_a64_static.84
	mov	w2, #45
	b	209f
208:
	ldr	w3, [sp, #168]
	ldr	w1, [sp, #232]
	cmp	w3, #1
	cset	w30, eq
	cmp	w1, #1
	b.ne	215f
	cmp	w3, #1
	b.eq	215f
	vj_page	x1, .L1_a64_static.73
	vj_address	x1, x1, .L1_a64_static.73
	mov	w2, #40
209:
	vj_page	x3, .L1_a64_static.1
	vj_address	x3, x3, .L1_a64_static.1
	sub	x0, x29, #240
	mov	x4, xzr
	mov	x5, x3
	mov	x6, xzr
	bl	b2sum_commands..options..joined_1_a64
	ldurb	w8, [x29, #-240]
	cbz	w8, 211f
210:
	mov	w8, #4
	mov	x20, xzr
	str	xzr, [sp, #288]
	str	xzr, [sp, #112]
	mov	w26, wzr
	mov	x27, xzr
	str	xzr, [sp, #312]
	str	xzr, [sp, #344]
	str	x8, [sp, #192]
	cbnz	x21, 212f
	b	274f
211:
	ldp	x8, x27, [x29, #-232]
	mov	x20, xzr
	str	xzr, [sp, #288]
	mov	w26, wzr
	str	xzr, [sp, #112]
	str	x8, [sp, #312]
	ldur	x8, [x29, #-216]
	str	x8, [sp, #344]
	mov	w8, #2
	str	x8, [sp, #192]
	cbz	x21, 274f
212:
	ldr	x8, [sp, #352]
	add	x19, x8, #16
	b	214f
213:
	subs	x21, x21, #1
	add	x19, x19, #24
	b.eq	274f
214:
	ldr	x8, [x19]
	cbz	x8, 213b
	ldur	x0, [x19, #-16]
	vj_call	rattle_dealloc
	b	213b
215:
	ldr	w1, [sp, #280]
	ldr	x4, [sp, #64]
	ldr	w27, [sp, #84]
	cmp	w1, #1
	b.ne	249f
	tbz	w15, #0, 216f
	vj_page	x1, .L1_a64_static.86
	vj_address	x1, x1, .L1_a64_static.86
	mov	w2, #45
	b	209b
216:
	vj_page	x1, .L1_a64_static.87
	vj_address	x1, x1, .L1_a64_static.87
	mov	w2, #66
	tbnz	w13, #0, 209b
	mov	w27, w30
	ldr	w30, [sp, #52]
	tbnz	w30, #0, 209b
	and	x1, x20, #0xff
	vj_page	x2, .L1_a64_switch.table.b2sum_lines..writes..push_body_1_a64
	vj_address	x2, x2, .L1_a64_switch.table.b2sum_lines..writes..push_body_1_a64
	ldr	x1, [x2, x1, lsl #3]
	cmp	x1, x4
	b.lo	217f
	mov	w30, w27
	cbz	x9, 248f
	ldr	w27, [sp, #84]
	cmp	x9, x4, lsl #3
	b.eq	249f
217:
	vj_page	x1, .L1_a64_static.88
	vj_address	x1, x1, .L1_a64_static.88
	mov	w2, #59
	b	209b
218:
	cmp	x2, #32
	b.hs	233f
	mov	x9, xzr
	b	235f
219:
	add	x12, x8, x19
	and	x10, x2, #0x18
	and	x9, x2, #0xffffffffffffffe0
	add	x11, x20, #16
	add	x12, x12, #16
	and	x13, x2, #0xffffffffffffffe0
220:
	ldp	q0, q1, [x11, #-16]
	subs	x13, x13, #32
	add	x11, x11, #32
	stp	q0, q1, [x12, #-16]
	add	x12, x12, #32
	b.ne	220b
	cmp	x2, x9
	b.eq	225f
	cbz	x10, 184b
221:
	mov	x11, x9
	and	x9, x2, #0xfffffffffffffff8
	add	x12, x8, x11
	sub	x10, x11, x9
	add	x11, x20, x11
	add	x12, x19, x12
222:
	ldr	d0, [x11], #8
	adds	x10, x10, #8
	str	d0, [x12], #8
	b.ne	222b
	cmp	x2, x9
	b.eq	225f
	b	184b
223:
	add	x0, sp, #1072
	mov	x1, x2
	mov	x19, x2
	bl	std_alloc..vec..Vec..grow_amortized..01eec35b572d02af_1_a64
	cbz	w0, 245f
	ldr	x8, [sp, #1080]
	ldr	x21, [sp, #1088]
	mov	x24, x22
	mov	x2, x19
	ldr	x19, [sp, #1072]
	add	x22, x8, x2
	add	x0, x19, x8
	sub	x9, x0, x20
	cmp	x9, x2
	b.lo	182b
224:
	mov	x1, x20
	vj_c_call	memmove
225:
	cbz	x23, 226f
	mov	x0, x20
	vj_call	rattle_dealloc
226:
	cbz	x22, 230f
	ldrb	w8, [x25, #224]
	cmp	w8, #1
	b.eq	230f
	mov	x20, xzr
227:
	add	x1, x19, x20
	sub	x2, x22, x20
	mov	w0, #2
	sub	x23, x22, x20
	vj_system_call	write, b2_write
	tbnz	x0, #63, 228f
	cmp	x0, x23
	csel	x8, x0, x23, lo
	cbz	x8, 229f
	add	x20, x8, x20
	cmp	x20, x22
	b.lo	227b
	b	230f
228:
	add	x0, sp, #384
	bl	std_io..io..error..last_error_1_a64
	add	x8, sp, #137
	add	x9, sp, #896
	ldur	q0, [x8, #255]
	add	x8, sp, #201
	ldur	q1, [x8, #255]
	add	x8, sp, #185
	ldur	q2, [x8, #255]
	add	x8, sp, #153
	ldur	q3, [x8, #255]
	add	x8, sp, #169
	str	q1, [x25, #304]
	ldur	q4, [x8, #255]
	stp	q2, q1, [x9, #48]
	mov	w8, #1
	stp	q0, q3, [x9]
	str	q4, [x9, #32]
	ldr	x9, [sp, #384]
	stp	q0, q3, [x25, #240]
	stp	x8, x9, [x25, #224]
	stp	q4, q2, [x25, #272]
	b	230f
229:
	movi	v0.2d, #0000000000000000
	mov	w8, #1
	mov	w9, #5889
	str	q0, [x25, #234]!
	stur	x8, [x25, #-10]
	sturh	w9, [x25, #-2]
	stp	q0, q0, [x25, #16]
	stp	q0, q0, [x25, #48]
	stur	xzr, [x25, #78]
230:
	cbz	x21, 231f
	mov	x0, x19
	vj_call	rattle_dealloc
231:
	cbz	x24, 545f
	mov	x0, x26
	b	544f
232:
	vj_page	x1, .L1_a64_static.80
	vj_address	x1, x1, .L1_a64_static.80
	mov	w2, #34
	b	209b
233:
	add	x12, x8, x19
	and	x10, x2, #0x18
	and	x9, x2, #0xffffffffffffffe0
	add	x11, x20, #16
	add	x12, x12, #16
	and	x13, x2, #0xffffffffffffffe0
234:
	ldp	q0, q1, [x11, #-16]
	subs	x13, x13, #32
	add	x11, x11, #32
	stp	q0, q1, [x12, #-16]
	add	x12, x12, #32
	b.ne	234b
	cmp	x2, x9
	b.eq	239f
	cbz	x10, 191b
235:
	mov	x11, x9
	and	x9, x2, #0xfffffffffffffff8
	add	x12, x8, x11
	sub	x10, x11, x9
	add	x11, x20, x11
	add	x12, x19, x12
236:
	ldr	d0, [x11], #8
	adds	x10, x10, #8
	str	d0, [x12], #8
	b.ne	236b
	cmp	x2, x9
	b.eq	239f
	b	191b
237:
	add	x0, sp, #1072
	mov	x1, x2
	mov	x19, x2
	bl	std_alloc..vec..Vec..grow_amortized..01eec35b572d02af_1_a64
	cbz	w0, 246f
	ldr	x8, [sp, #1080]
	ldr	x21, [sp, #1088]
	mov	x24, x22
	mov	x2, x19
	ldr	x19, [sp, #1072]
	add	x22, x8, x2
	add	x0, x19, x8
	sub	x9, x0, x20
	cmp	x9, x2
	b.lo	189b
238:
	mov	x1, x20
	vj_c_call	memmove
239:
	cbz	x23, 240f
	mov	x0, x20
	vj_call	rattle_dealloc
240:
	cbz	x22, 244f
	ldrb	w8, [x25, #224]
	cmp	w8, #1
	b.eq	244f
	mov	x20, xzr
241:
	add	x1, x19, x20
	sub	x2, x22, x20
	mov	w0, #2
	sub	x23, x22, x20
	vj_system_call	write, b2_write
	tbnz	x0, #63, 242f
	cmp	x0, x23
	csel	x8, x0, x23, lo
	cbz	x8, 243f
	add	x20, x8, x20
	cmp	x20, x22
	b.lo	241b
	b	244f
242:
	add	x0, sp, #384
	bl	std_io..io..error..last_error_1_a64
	add	x8, sp, #137
	add	x9, sp, #896
	ldur	q0, [x8, #255]
	add	x8, sp, #201
	ldur	q1, [x8, #255]
	add	x8, sp, #185
	ldur	q2, [x8, #255]
	add	x8, sp, #153
	ldur	q3, [x8, #255]
	add	x8, sp, #169
	str	q1, [x25, #304]
	ldur	q4, [x8, #255]
	stp	q2, q1, [x9, #48]
	mov	w8, #1
	stp	q0, q3, [x9]
	str	q4, [x9, #32]
	ldr	x9, [sp, #384]
	stp	q0, q3, [x25, #240]
	stp	x8, x9, [x25, #224]
	stp	q4, q2, [x25, #272]
	b	244f
243:
	movi	v0.2d, #0000000000000000
	mov	w8, #1
	mov	w9, #5889
	str	q0, [x25, #234]!
	stur	x8, [x25, #-10]
	sturh	w9, [x25, #-2]
	stp	q0, q0, [x25, #16]
	stp	q0, q0, [x25, #48]
	stur	xzr, [x25, #78]
244:
	cbnz	x21, 196b
	b	197b
245:
	cbz	x23, 178b
	mov	x0, x20
	vj_call	rattle_dealloc
	b	178b
246:
	cbz	x23, 247f
	mov	x0, x20
	vj_call	rattle_dealloc
247:
	ldr	x8, [sp, #1088]
	mov	x20, x27
	cbnz	x8, 180b
	b	172b
248:
	ldr	w27, [sp, #84]
	cmp	w3, #1
	b.ne	249f
	cmp	x4, x1
	b.eq	249f
	mov	w8, #1
	vj_page	x1, .L1_a64_static.88
	vj_address	x1, x1, .L1_a64_static.88
	str	w8, [sp, #168]
	mov	w2, #59
	b	209b
249:
	tbz	w0, #0, 251f
	cmp	w16, #1
	b.ne	250f
	cbnz	w17, 250f
	vj_page	x1, .L1_a64_static.89
	vj_address	x1, x1, .L1_a64_static.89
	mov	w2, #34
	b	209b
250:
	vj_page	x1, .L1_a64_static.90
	vj_address	x1, x1, .L1_a64_static.90
	mov	w2, #43
	tbnz	w8, #0, 209b
	tbnz	w5, #0, 209b
251:
	ldr	x1, [sp, #56]
	cbz	x1, 252f
	cbz	x24, 252f
	vj_page	x1, .L1_a64_static.91
	vj_address	x1, x1, .L1_a64_static.91
	mov	w2, #65
	b	209b
252:
	tbz	w7, #0, 253f
	tbz	w26, #0, 253f
	vj_page	x1, .L1_a64_static.92
	vj_address	x1, x1, .L1_a64_static.92
	mov	w2, #64
	b	209b
253:
	ldr	w1, [sp, #344]
	cmp	w1, #1
	b.ne	254f
	sub	w1, w20, #1
	mov	w2, #45
	mov	w4, #39
	and	w1, w1, #0xff
	cmp	w1, #3
	vj_page	x1, .L1_a64_static.94
	vj_address	x1, x1, .L1_a64_static.94
	csel	x2, x4, x2, lo
	vj_page	x4, .L1_a64_static.93
	vj_address	x4, x4, .L1_a64_static.93
	csel	x1, x4, x1, lo
	ldr	w4, [sp, #52]
	b.lo	209b
	cmp	w3, #1
	b.eq	209b
	cmp	w16, #1
	b.ne	255f
	cbnz	w17, 255f
	tbz	w6, #0, 259f
	vj_page	x9, .L1_a64_static.98
	vj_address	x9, x9, .L1_a64_static.98
	vj_page	x10, .L1_a64_static.97
	vj_address	x10, x10, .L1_a64_static.97
	tst	w27, #0x1
	orr	w8, w27, w0
	csel	x9, x10, x9, ne
	mov	w10, #56
	mov	w11, #59
	csel	x10, x11, x10, ne
	cmp	w8, #0
	mov	w8, #72
	csel	x2, x8, x10, eq
	vj_page	x8, .L1_a64_static.99
	vj_address	x8, x8, .L1_a64_static.99
	csel	x1, x8, x9, eq
	b	209b
254:
	ldr	w4, [sp, #52]
	cmp	w12, #1
	b.ne	255f
	tbnz	w6, #0, 256f
	vj_page	x1, .L1_a64_static.96
	vj_address	x1, x1, .L1_a64_static.96
	mov	w2, #51
	b	209b
255:
	tbz	w6, #0, 257f
256:
	vj_page	x1, .L1_a64_static.98
	vj_address	x1, x1, .L1_a64_static.98
	vj_page	x2, .L1_a64_static.97
	vj_address	x2, x2, .L1_a64_static.97
	tst	w27, #0x1
	orr	w4, w27, w0
	csel	x1, x2, x1, ne
	mov	w2, #56
	mov	w6, #59
	csel	x2, x6, x2, ne
	cmp	w4, #0
	mov	w6, #72
	csel	x2, x2, x6, ne
	vj_page	x6, .L1_a64_static.99
	vj_address	x6, x6, .L1_a64_static.99
	csel	x1, x1, x6, ne
	cbnz	w4, 209b
	cmp	w16, #1
	b.eq	209b
	vj_page	x1, .L1_a64_static.100
	vj_address	x1, x1, .L1_a64_static.100
	mov	w2, #73
	tbnz	w8, #0, 209b
	tbnz	w5, #0, 209b
	mov	w1, #1
	str	w30, [sp, #88]
	str	w1, [sp, #24]
	ldr	w1, [sp, #136]
	tbz	w1, #0, 267f
	ldr	w1, [sp, #168]
	cmp	w1, #1
	b.ne	267f
	mov	w8, #1
	vj_page	x1, .L1_a64_static.101
	vj_address	x1, x1, .L1_a64_static.101
	mov	w2, #88
	str	w8, [sp, #168]
	b	264f
257:
	tbz	w4, #0, 258f
	vj_page	x1, .L1_a64_static.102
	vj_address	x1, x1, .L1_a64_static.102
	mov	w2, #71
	b	209b
258:
	ldr	w1, [sp, #140]
	str	w30, [sp, #88]
	cmp	w1, #1
	b.gt	260f
	cbnz	w1, 261f
	tbz	w13, #0, 265f
	vj_page	x1, .L1_a64_static.106
	vj_address	x1, x1, .L1_a64_static.106
	b	263f
259:
	vj_page	x1, .L1_a64_static.95
	vj_address	x1, x1, .L1_a64_static.95
	mov	w2, #35
	b	209b
260:
	cmp	w1, #2
	b.ne	262f
	vj_page	x1, .L1_a64_static.105
	vj_address	x1, x1, .L1_a64_static.105
	mov	w2, #62
	b	264f
261:
	vj_page	x1, .L1_a64_static.104
	vj_address	x1, x1, .L1_a64_static.104
	mov	w2, #61
	b	264f
262:
	vj_page	x1, .L1_a64_static.103
	vj_address	x1, x1, .L1_a64_static.103
263:
	mov	w2, #63
264:
	ldp	x23, x25, [sp, #320]
	add	x28, sp, #664
	b	209b
265:
	ldr	w13, [sp, #136]
	tbz	w13, #0, 266f
	vj_page	x1, .L1_a64_static.107
	vj_address	x1, x1, .L1_a64_static.107
	mov	w2, #69
	b	264b
266:
	mov	w13, wzr
	str	wzr, [sp, #140]
	str	wzr, [sp, #52]
	str	wzr, [sp, #24]
267:
	and	x1, x20, #0xff
	vj_page	x2, .L1_a64_switch.table.b2sum_commands..program..run_words..82a450bcca081e63.400_1_a64
	vj_address	x2, x2, .L1_a64_switch.table.b2sum_commands..program..run_words..82a450bcca081e63.400_1_a64
	ldr	x1, [x2, x1, lsl #3]
	ldr	x2, [sp, #72]
	stp	q0, q0, [sp, #384]
	cmp	x1, x2
	b.hs	268f
	vj_page	x1, .L1_a64_static.108
	vj_address	x1, x1, .L1_a64_static.108
	vj_page	x3, .L1_a64_static.1
	vj_address	x3, x3, .L1_a64_static.1
	add	x0, sp, #384
	mov	w2, #66
	b	271f
268:
	ldr	x2, [sp, #56]
	cmp	x1, x2
	b.lo	270f
	cmp	x1, x24
	b.lo	270f
	cmp	x21, #1
	b.eq	652f
	tbz	w5, #0, 652f
	vj_page	x1, .L1_a64_static.110
	vj_address	x1, x1, .L1_a64_static.110
	mov	w2, #31
269:
	vj_page	x3, .L1_a64_static.1
	vj_address	x3, x3, .L1_a64_static.1
	add	x0, sp, #800
	mov	x4, xzr
	mov	x5, x3
	mov	x6, xzr
	bl	b2sum_commands..options..joined_1_a64
	ldrb	w8, [sp, #800]
	cbz	w8, 658f
	mov	w8, #4
	mov	x20, xzr
	str	xzr, [sp, #288]
	str	xzr, [sp, #112]
	mov	w26, wzr
	mov	x27, xzr
	str	xzr, [sp, #312]
	str	xzr, [sp, #344]
	str	x8, [sp, #192]
	ldp	x23, x25, [sp, #320]
	add	x28, sp, #664
	cbnz	x21, 212b
	b	274f
270:
	vj_page	x1, .L1_a64_static.109
	vj_address	x1, x1, .L1_a64_static.109
	vj_page	x3, .L1_a64_static.1
	vj_address	x3, x3, .L1_a64_static.1
	add	x0, sp, #384
	mov	w2, #77
271:
	mov	x4, xzr
	mov	x5, x3
	mov	x6, xzr
	bl	b2sum_commands..options..joined_1_a64
	ldrb	w8, [sp, #384]
	cbz	w8, 272f
	str	xzr, [sp, #344]
	mov	x27, xzr
	mov	w8, #4
	str	xzr, [sp, #312]
	b	273f
272:
	ldp	x8, x27, [sp, #392]
	str	x8, [sp, #312]
	ldr	x8, [sp, #408]
	str	x8, [sp, #344]
	mov	w8, #2
273:
	mov	x20, xzr
	mov	w26, wzr
	str	x8, [sp, #192]
	str	xzr, [sp, #288]
	str	xzr, [sp, #112]
	ldp	x23, x25, [sp, #320]
	add	x28, sp, #664
	cbnz	x21, 212b
274:
	ldr	x8, [sp, #272]
	cbz	x8, 275f
	ldr	x0, [sp, #352]
	vj_call	rattle_dealloc
275:
	ldr	x0, [sp, #152]
	ldr	x8, [sp, #336]
	cbz	x8, 276f
	vj_call	rattle_dealloc
276:
	ldr	w8, [sp, #168]
	cmp	w8, #1
	b.ne	277f
	ldr	x8, [sp, #104]
	cbz	x8, 277f
	ldr	x0, [sp, #208]
	vj_call	rattle_dealloc
277:
	ldr	w8, [sp, #232]
	cmp	w8, #1
	b.ne	278f
	ldr	x8, [sp, #248]
	cbz	x8, 278f
	ldr	x0, [sp, #176]
	vj_call	rattle_dealloc
278:
	ldr	x8, [sp, #216]
	cbz	x8, 279f
	ldr	x0, [sp, #224]
	vj_call	rattle_dealloc
279:
	ldr	x8, [sp, #264]
	cbz	x8, 280f
	ldr	x0, [sp, #184]
	vj_call	rattle_dealloc
280:
	ldr	x8, [sp, #160]
	cbz	x8, 281f
	ldr	x0, [sp, #96]
	vj_call	rattle_dealloc
281:
	cbz	x22, 284f
	ldr	x8, [sp, #304]
	add	x19, x8, #16
	b	283f
282:
	subs	x22, x22, #1
	add	x19, x19, #24
	b.eq	284f
283:
	ldr	x8, [x19]
	cbz	x8, 282b
	ldur	x0, [x19, #-16]
	vj_call	rattle_dealloc
	b	282b
284:
	ldr	x8, [sp, #256]
	cbz	x8, 285f
	ldr	x0, [sp, #304]
	vj_call	rattle_dealloc
285:
	ldr	w8, [sp, #280]
	str	x20, [sp, #336]
	cmp	w8, #1
	b.ne	286f
	ldr	x8, [sp, #240]
	cbz	x8, 286f
	ldr	x0, [sp, #200]
	vj_call	rattle_dealloc
286:
	sub	x13, x29, #240
	mov	w10, #1
	mov	w8, wzr
	mov	w17, wzr
	mov	x16, xzr
	mov	x0, xzr
	stp	xzr, xzr, [sp, #248]
	mov	x24, xzr
	mov	x15, xzr
	str	xzr, [sp, #168]
	mov	x14, xzr
	mov	x1, xzr
	str	xzr, [sp, #224]
	mov	x22, xzr
	mov	x2, xzr
	str	xzr, [sp, #264]
	mov	w30, wzr
	mov	w3, wzr
	str	xzr, [sp, #304]
	mov	w6, wzr
	mov	w5, wzr
	str	wzr, [sp, #280]
	mov	w4, wzr
	mov	w20, wzr
	stp	xzr, xzr, [sp, #200]
	mov	x21, xzr
	mov	x7, xzr
	str	xzr, [sp, #240]
	lsr	x19, x27, #8
	and	x9, x27, #0xffffffffffff0000
	stp	xzr, xzr, [sp, #32]
	str	wzr, [sp, #48]
	str	wzr, [sp, #160]
	str	wzr, [sp, #96]
	str	wzr, [sp, #28]
	str	xzr, [sp, #352]
	str	xzr, [sp, #272]
	str	wzr, [sp, #88]
	stur	wzr, [x13, #195]
	stur	wzr, [x29, #-48]
	str	w10, [sp, #152]
287:
	ldur	w10, [x29, #-48]
	ubfiz	x11, x19, #8, #8
	and	x12, x27, #0xff
	ldur	w13, [x13, #195]
	orr	x9, x9, x12
	str	w10, [sp, #376]
	ldr	x10, [sp, #192]
	orr	x19, x9, x11
	add	x9, sp, #124
	and	w27, w10, #0xff
	stur	w13, [x9, #255]
	cbz	w8, 289f
	movi	v0.2d, #0000000000000000
	add	x8, sp, #384
	str	wzr, [sp, #664]
	stur	wzr, [x28, #3]
	stp	x16, x14, [sp, #176]
	str	x15, [sp, #216]
	stp	q0, q0, [sp, #384]
	stp	q0, q0, [sp, #416]
	stp	q0, q0, [sp, #448]
	stp	q0, q0, [sp, #480]
	stp	q0, q0, [x8, #128]
	stp	q0, q0, [x8, #160]
	stp	q0, q0, [x8, #192]
	str	w17, [sp, #232]
	str	x0, [sp, #144]
	stp	w4, w5, [sp, #136]
	str	x7, [sp, #120]
	str	w30, [sp, #24]
	str	w20, [sp, #132]
	tbz	w20, #0, 288f
	mov	x20, x26
	mov	x26, x24
	mov	x24, x25
	mov	x25, x23
	mov	x23, x1
	mov	x27, x2
	str	x19, [sp, #104]
	mov	w19, w3
	mov	w28, w6
	vj_call	b2sum..disk..show_progress_1_a64
	ldp	x14, x8, [sp, #184]
	mov	w3, w19
	ldp	w4, w5, [sp, #136]
	ldr	w30, [sp, #24]
	ldr	x19, [sp, #104]
	mov	x1, x23
	mov	x23, x25
	mov	x25, x24
	mov	x24, x26
	mov	x26, x20
	ldr	w20, [sp, #132]
	ldr	x0, [sp, #144]
	ldr	w17, [sp, #232]
	ldr	x16, [sp, #176]
	ldr	x15, [sp, #216]
	mov	w6, w28
	mov	x2, x27
	and	w27, w8, #0xff
	add	x28, sp, #664
288:
	ldr	w8, [sp, #88]
	cbz	w8, 298f
	cmp	w17, #1
	stp	x1, x2, [sp, #56]
	str	w3, [sp, #84]
	str	w6, [sp, #52]
	b.eq	476f
	ldr	x8, [sp, #192]
	vj_page	x9, .L1_a64_switch.table.b2sum_lines..writes..push_body_1_a64
	vj_address	x9, x9, .L1_a64_switch.table.b2sum_lines..writes..push_body_1_a64
	and	x8, x8, #0xff
	ldr	x8, [x9, x8, lsl #3]
	b	477f
289:
	ldp	x20, x22, [sp, #336]
	ldr	x10, [sp, #112]
	movi	v0.2d, #0000000000000000
	cmp	w27, #1
	stur	q0, [x28, #152]
	stur	q0, [x28, #136]
	b.gt	171b
290:
	cbnz	w27, 294f
	ldp	x3, x4, [x23]
	vj_page	x1, .L1_a64_static.252
	vj_address	x1, x1, .L1_a64_static.252
	vj_page	x5, .L1_a64_static.253
	vj_address	x5, x5, .L1_a64_static.253
	add	x0, sp, #800
	mov	w2, #7
	mov	w6, #2827
	bl	b2sum_commands..options..joined_1_a64
	ldrb	w8, [sp, #800]
	cbz	w8, 474f
291:
	mov	w20, wzr
292:
	mov	w22, #1
293:
	mov	w0, w22
	mov	w1, w20
	add	sp, sp, #1376
	ldp	x20, x19, [sp, #80]
	ldp	x22, x21, [sp, #64]
	ldp	x24, x23, [sp, #48]
	ldp	x26, x25, [sp, #32]
	ldp	x28, x27, [sp, #16]
	ldp	x29, x30, [sp], #96
	ret
294:
	ldrb	w8, [x25, #128]
	cmp	w8, #1
	b.ne	296f
295:
	mov	w20, #1
	b	292b
296:
	mov	x20, xzr
297:
	mov	w8, #23
	vj_page	x9, .L1_a64_static.254
	vj_address	x9, x9, .L1_a64_static.254
	sub	x19, x8, x20
	add	x1, x9, x20
	mov	w0, #1
	mov	x2, x19
	vj_system_call	write, b2_write
	tbnz	x0, #63, 486f
	cmp	x0, x19
	csel	x8, x0, x19, lo
	cbz	x8, 487f
	add	x20, x8, x20
	cmp	x20, #23
	b.lo	297b
	b	485f
298:
	add	x9, sp, #124
	ldr	w8, [sp, #376]
	ldr	x11, [sp, #344]
	ldur	w9, [x9, #255]
	ldr	x12, [sp, #288]
299:
	str	w8, [sp, #664]
	stur	w9, [x28, #3]
	ldr	x8, [sp, #192]
	ldr	x9, [sp, #112]
	add	x13, sp, #178
	ldr	w10, [sp, #44]
	strb	w20, [sp, #600]
	str	x8, [sp, #384]
	ldr	x8, [sp, #336]
	stur	w9, [x13, #255]
	str	x8, [sp, #416]
	lsr	x8, x9, #48
	lsr	x9, x9, #32
	strb	w10, [sp, #587]
	ldr	x10, [sp, #168]
	strb	w8, [sp, #439]
	add	x8, sp, #182
	sturh	w9, [x8, #255]
	ldr	w8, [sp, #664]
	add	x9, sp, #384
	str	x24, [sp, #488]
	ldr	x24, [sp, #264]
	stur	w8, [x9, #217]
	ldr	w8, [sp, #32]
	sturh	wzr, [x9, #173]
	strb	w8, [sp, #585]
	ldr	w8, [sp, #40]
	stur	wzr, [x9, #169]
	ldr	x9, [sp, #312]
	strb	w8, [sp, #586]
	ldr	w8, [sp, #36]
	str	x19, [sp, #400]
	strb	w8, [sp, #588]
	ldr	w8, [sp, #48]
	strb	w26, [sp, #432]
	strb	w8, [sp, #589]
	ldr	w8, [sp, #160]
	str	x1, [sp, #512]
	strb	w8, [sp, #594]
	ldr	w8, [sp, #96]
	str	x2, [sp, #568]
	strb	w8, [sp, #595]
	ldr	w8, [sp, #28]
	strb	w30, [sp, #584]
	str	w8, [sp, #596]
	ldur	w8, [x28, #3]
	strb	w3, [sp, #590]
	str	w8, [sp, #604]
	ldr	x8, [sp, #224]
	strb	w6, [sp, #591]
	str	x8, [sp, #480]
	ldr	x8, [sp, #200]
	strb	w5, [sp, #592]
	str	x8, [sp, #560]
	add	x8, sp, #190
	sturh	wzr, [x8, #255]
	add	x8, sp, #186
	stur	wzr, [x8, #255]
	ldp	x8, x20, [sp, #248]
	strb	w4, [sp, #593]
	stp	x16, x0, [sp, #448]
	stp	x8, x10, [sp, #464]
	ldr	x8, [sp, #304]
	str	x9, [sp, #392]
	str	x8, [sp, #528]
	ldr	w8, [sp, #280]
	str	x11, [sp, #408]
	strb	w8, [sp, #552]
	ldr	x8, [sp, #240]
	str	x12, [sp, #424]
	strb	w17, [sp, #440]
	strb	wzr, [sp, #447]
	stp	x15, x14, [sp, #496]
	str	x24, [sp, #520]
	str	x22, [sp, #536]
	str	x20, [sp, #544]
	strb	wzr, [sp, #559]
	str	x8, [sp, #576]
	tbz	w10, #8, 300f
	cmp	x9, #15
	b.hi	300f
	ldp	x0, x1, [x23]
	vj_page	x3, .L1_a64_static.179
	vj_address	x3, x3, .L1_a64_static.179
	add	x2, x25, #224
	mov	w4, #46
	mov	x19, x11
	mov	x26, x12
	bl	b2sum_commands..messages..tell_named..068f3e307c5390f2_1_a64
	mov	x12, x26
	mov	x11, x19
300:
	cmp	w27, #4
	mov	w8, #65536
	mov	w9, #1048576
	ldr	x10, [x25, #328]
	csel	x19, x9, x8, eq
	sub	x26, x29, #240
	cmp	x10, x19
	b.hs	301f
	mov	x0, x19
	mov	w1, #1
	mov	x26, x12
	mov	x27, x11
	vj_call	rattle_alloc
	tbz	w0, #0, 490f
	sub	x2, x19, #1
	mov	x0, x1
	mov	x22, x1
	mov	w1, wzr
	sub	x20, x19, #1
	vj_c_call	memset
	strb	wzr, [x22, x20]
	sub	x26, x29, #240
	ldr	x0, [x25, #320]
	ldr	x8, [x25, #336]
	stp	x22, x19, [x25, #320]
	str	x19, [x25, #336]
	cbz	x8, 301f
	vj_call	rattle_dealloc
301:
	ldrb	w8, [sp, #584]
	cmp	w8, #1
	b.ne	479f
	cbz	x21, 525f
	mov	x24, xzr
	add	x8, x25, #369
	mov	w27, #1
	str	x8, [sp, #304]
302:
	mov	w8, #24
	ldr	x9, [sp, #352]
	madd	x8, x24, x8, x9
	ldrb	w9, [sp, #552]
	cmp	w9, #1
	ldp	x22, x20, [x8]
	b.ne	304f
	movi	v0.2d, #0000000000000000
	sub	x8, x29, #240
	add	x9, sp, #896
	mov	x26, x22
	str	x20, [sp, #344]
	ldr	x20, [sp, #560]
	ldr	x22, [sp, #568]
	sub	x19, x29, #24
	stur	xzr, [x29, #-192]
	stur	xzr, [x9, #40]
	stp	q0, q0, [x8]
	str	q0, [x8, #32]
	vj_page	x8, .L1_a64_CPI3_0
	stur	q0, [x28, #8]
	stur	q0, [x28, #24]
	stur	q0, [x28, #40]
	stur	q0, [x28, #56]
	stur	q0, [x9, #8]
	stur	q0, [x9, #24]
	vj_load	q0, x8, .L1_a64_CPI3_0
	add	x8, sp, #896
	str	x19, [sp, #896]
	str	q0, [x8, #48]
	ldrb	w8, [sp, #384]
	str	xzr, [sp, #960]
	str	w8, [sp, #336]
	ldr	w8, [sp, #388]
	str	x19, [sp, #968]
	str	w8, [sp, #312]
	stp	xzr, xzr, [x9, #80]
	cbz	x22, 303f
	tbnz	x22, #63, 323f
	mov	x0, x22
	mov	w1, #1
	mov	w25, #1
	vj_call	rattle_alloc
	tbz	w0, #0, 307f
	mov	x19, x1
303:
	sub	x9, x19, x20
	cmp	x9, x22
	b.hs	306f
	cmp	x22, #8
	mov	x8, xzr
	b.lo	319f
	cmp	x9, #32
	b.lo	319f
	cmp	x22, #32
	b.hs	315f
	mov	x8, xzr
	b	317f
304:
	ldrb	w8, [sp, #595]
	cmp	w8, #1
	b.ne	305f
	movi	v0.2d, #0000000000000000
	stp	q0, q0, [x26]
	stp	q0, q0, [x26, #32]
	stp	q0, q0, [x26, #64]
	cbz	x20, 309f
	tbnz	x20, #63, 368f
	mov	x0, x20
	mov	w1, #1
	mov	w25, #1
	vj_call	rattle_alloc
	tbz	w0, #0, 308f
	ldr	x25, [sp, #328]
	mov	x19, x1
	b	310f
305:
	cbz	x20, 311f
	tbnz	x20, #63, 368f
	mov	x0, x20
	mov	w1, #1
	mov	w25, #1
	vj_call	rattle_alloc
	tbz	w0, #0, 308f
	ldr	x25, [sp, #328]
	mov	x19, x1
	b	312f
306:
	mov	x0, x19
	mov	x1, x20
	mov	x2, x22
	vj_c_call	memmove
	b	321f
307:
	mov	w20, wzr
	sub	x26, x29, #240
	b	370f
308:
	mov	w20, wzr
	b	370f
309:
	sub	x19, x29, #24
310:
	sub	x9, x19, x22
	cmp	x9, x20
	b.hs	313f
	cmp	x20, #8
	mov	x8, xzr
	b.lo	344f
	cmp	x9, #32
	b.lo	344f
	cmp	x20, #32
	b.hs	340f
	mov	x8, xzr
	b	342f
311:
	sub	x19, x29, #24
312:
	sub	x9, x19, x22
	cmp	x9, x20
	b.hs	314f
	cmp	x20, #8
	mov	x8, xzr
	b.lo	363f
	cmp	x9, #32
	b.lo	363f
	cmp	x20, #32
	b.hs	359f
	mov	x8, xzr
	b	361f
313:
	mov	x0, x19
	mov	x1, x22
	mov	x2, x20
	vj_c_call	memmove
	b	346f
314:
	mov	x0, x19
	mov	x1, x22
	mov	x2, x20
	vj_c_call	memmove
	b	365f
315:
	and	x9, x22, #0x18
	and	x8, x22, #0xffffffffffffffe0
	add	x10, x20, #16
	add	x11, x19, #16
	and	x12, x22, #0xffffffffffffffe0
316:
	ldp	q0, q1, [x10, #-16]
	subs	x12, x12, #32
	add	x10, x10, #32
	stp	q0, q1, [x11, #-16]
	add	x11, x11, #32
	b.ne	316b
	cmp	x22, x8
	b.eq	321f
	cbz	x9, 319f
317:
	mov	x11, x8
	and	x8, x22, #0xfffffffffffffff8
	sub	x9, x11, x8
	add	x10, x20, x11
	add	x11, x19, x11
318:
	ldr	d0, [x10], #8
	adds	x9, x9, #8
	str	d0, [x11], #8
	b.ne	318b
	cmp	x22, x8
	b.eq	321f
319:
	sub	x9, x22, x8
	add	x10, x20, x8
	add	x8, x19, x8
320:
	ldrb	w11, [x10], #1
	subs	x9, x9, #1
	strb	w11, [x8], #1
	b.ne	320b
321:
	ldr	x20, [sp, #344]
	cbz	x20, 324f
	tbnz	x20, #63, 322f
	mov	x0, x20
	mov	w1, #1
	vj_call	rattle_alloc
	tbz	w0, #0, 322f
	mov	x25, x1
	b	325f
322:
	cbz	x22, 323f
	mov	x0, x19
	vj_call	rattle_dealloc
323:
	mov	w20, wzr
	mov	w25, #1
	sub	x26, x29, #240
	b	370f
324:
	sub	x25, x29, #24
325:
	sub	x9, x25, x26
	cmp	x9, x20
	b.hs	326f
	cmp	x20, #8
	mov	x8, xzr
	b.lo	331f
	cmp	x9, #32
	b.lo	331f
	cmp	x20, #32
	b.hs	327f
	mov	x8, xzr
	b	329f
326:
	mov	x1, x26
	mov	x0, x25
	mov	x2, x20
	vj_c_call	memmove
	b	333f
327:
	and	x9, x20, #0x18
	and	x8, x20, #0xffffffffffffffe0
	add	x10, x26, #16
	add	x11, x25, #16
	and	x12, x20, #0xffffffffffffffe0
328:
	ldp	q0, q1, [x10, #-16]
	subs	x12, x12, #32
	add	x10, x10, #32
	stp	q0, q1, [x11, #-16]
	add	x11, x11, #32
	b.ne	328b
	cmp	x20, x8
	b.eq	333f
	cbz	x9, 331f
329:
	mov	x11, x8
	and	x8, x20, #0xfffffffffffffff8
	sub	x9, x11, x8
	add	x10, x26, x11
	add	x11, x25, x11
330:
	ldr	d0, [x10], #8
	adds	x9, x9, #8
	str	d0, [x11], #8
	b.ne	330b
	cmp	x20, x8
	b.eq	333f
331:
	sub	x9, x20, x8
	add	x10, x26, x8
	add	x8, x25, x8
332:
	ldrb	w11, [x10], #1
	subs	x9, x9, #1
	strb	w11, [x8], #1
	b.ne	332b
333:
	ldr	w8, [sp, #336]
	add	x10, sp, #384
	ldr	x3, [sp, #328]
	ldurh	w9, [x10, #203]
	sub	x0, x29, #240
	add	x2, sp, #384
	str	w8, [sp, #672]
	ldr	w8, [sp, #312]
	add	x4, sp, #896
	add	x5, sp, #672
	mov	x1, x23
	str	x19, [sp, #680]
	str	w8, [sp, #676]
	ldrb	w8, [sp, #586]
	str	x22, [sp, #688]
	strb	w8, [sp, #728]
	ldurb	w8, [x10, #205]
	add	x10, sp, #672
	str	x22, [sp, #696]
	str	x25, [sp, #704]
	str	x20, [sp, #712]
	str	x20, [sp, #720]
	sturh	w9, [x10, #57]
	sturb	w8, [x10, #59]
	str	wzr, [sp, #732]
	bl	b2sum_commands..check..check_entry..82a450bcca081e63_1_a64
	ldurb	w8, [x29, #-240]
	cbz	w8, 336f
	ldurb	w20, [x29, #-239]
	sub	x26, x29, #240
	cbz	x22, 334f
	mov	x0, x19
	vj_call	rattle_dealloc
334:
	ldr	x8, [sp, #344]
	cbz	x8, 369f
	mov	x0, x25
335:
	vj_call	rattle_dealloc
	b	369f
336:
	ldurb	w8, [x29, #-232]
	sub	x26, x29, #240
	cmp	w8, #0
	cset	w20, eq
	cbz	x22, 337f
	mov	x0, x19
	vj_call	rattle_dealloc
337:
	ldr	x8, [sp, #344]
	cbz	x8, 339f
	mov	x0, x25
338:
	vj_call	rattle_dealloc
339:
	mov	w25, wzr
	b	370f
340:
	and	x9, x20, #0x18
	and	x8, x20, #0xffffffffffffffe0
	add	x10, x22, #16
	add	x11, x19, #16
	and	x12, x20, #0xffffffffffffffe0
341:
	ldp	q0, q1, [x10, #-16]
	subs	x12, x12, #32
	add	x10, x10, #32
	stp	q0, q1, [x11, #-16]
	add	x11, x11, #32
	b.ne	341b
	cmp	x20, x8
	b.eq	346f
	cbz	x9, 344f
342:
	mov	x11, x8
	and	x8, x20, #0xfffffffffffffff8
	sub	x9, x11, x8
	add	x10, x22, x11
	add	x11, x19, x11
343:
	ldr	d0, [x10], #8
	adds	x9, x9, #8
	str	d0, [x11], #8
	b.ne	343b
	cmp	x20, x8
	b.eq	346f
344:
	sub	x9, x20, x8
	add	x10, x22, x8
	add	x8, x19, x8
345:
	ldrb	w11, [x10], #1
	subs	x9, x9, #1
	strb	w11, [x8], #1
	b.ne	345b
346:
	ldrb	w8, [sp, #473]
	ldr	x0, [x25, #344]
	ldr	x9, [x25, #360]
	stp	x19, x20, [x25, #344]
	strb	w8, [x25, #368]
	ldr	x8, [sp, #304]
	str	x20, [x25, #360]
	str	xzr, [x8]
	stur	xzr, [x8, #7]
	cbz	x9, 347f
	vj_call	rattle_dealloc
347:
	movi	v0.2d, #0000000000000000
	add	x8, sp, #896
	cmp	x20, #1
	str	xzr, [sp, #832]
	str	xzr, [sp, #1024]
	str	xzr, [sp, #1104]
	stur	q0, [x28, #136]
	stur	q0, [x28, #152]
	stp	q0, q0, [x8]
	stp	q0, q0, [x8, #32]
	stp	q0, q0, [x8, #64]
	stp	q0, q0, [x8, #96]
	stp	q0, q0, [x8, #176]
	b.ne	348f
	ldrb	w8, [x22]
	cmp	w8, #45
	b.ne	348f
	add	x0, sp, #800
	add	x5, x25, #224
	mov	x1, x23
	mov	x2, x25
	mov	x3, x22
	mov	w4, #1
	str	x20, [sp, #344]
	mov	x26, x24
	add	x24, sp, #800
	str	x22, [sp, #288]
	bl	b2sum_commands..sealed_checks..read_list_from..fab5d8e6f6068f4d_1_a64
	ldrb	w20, [sp, #801]
	ldrb	w8, [sp, #808]
	ldr	x2, [sp, #816]
	ldr	x22, [sp, #824]
	ldr	x10, [sp, #832]
	b	352f
348:
	add	x0, sp, #896
	mov	x1, x22
	mov	x2, x20
	bl	b2sum..disk..SystemDisk..open..997c1e2eeb9618f7_1_a64
	ldrb	w8, [sp, #896]
	cbz	w8, 349f
	add	x8, sp, #896
	add	x2, x25, #224
	mov	x0, x23
	add	x1, x8, #8
	mov	x3, x22
	mov	x4, x20
	bl	b2sum_commands..messages..warn_of_file..fab5d8e6f6068f4d_1_a64
	tst	w0, #0xff
	b.ne	368f
	movi	v0.2d, #0000000000000000
	mov	x26, x24
	add	x8, sp, #1072
	str	x22, [sp, #288]
	str	x20, [sp, #344]
	strb	wzr, [sp, #1072]
	stur	q0, [x8, #8]
	stur	q0, [x8, #24]
	b	351f
349:
	add	x8, sp, #896
	add	x0, sp, #1072
	add	x2, sp, #672
	ldur	q0, [x8, #72]
	ldur	q1, [x8, #88]
	add	x5, x25, #224
	mov	x1, x23
	mov	x3, x22
	mov	x4, x20
	stur	q0, [x28, #72]
	ldur	q0, [x8, #104]
	mov	x26, x24
	stur	q1, [x28, #88]
	ldur	q1, [x8, #120]
	stur	q0, [x28, #104]
	ldur	q0, [x8, #8]
	stur	q1, [x28, #120]
	ldur	q1, [x8, #24]
	stur	q0, [x28, #8]
	ldur	q0, [x8, #40]
	stur	q1, [x28, #24]
	ldur	q1, [x8, #56]
	stur	q0, [x28, #40]
	stur	q1, [x28, #56]
	str	x20, [sp, #344]
	bl	b2sum_commands..sealed_checks..read_list_from..fab5d8e6f6068f4d_1_a64
	ldrb	w8, [sp, #672]
	ldr	x19, [sp, #680]
	ldr	x20, [sp, #696]
	cbnz	w8, 350f
	ldr	w0, [sp, #676]
	vj_call	b2sum_close
350:
	str	x22, [sp, #288]
	cbz	x20, 351f
	mov	x0, x19
	vj_call	rattle_dealloc
351:
	ldrb	w20, [sp, #1073]
	ldrb	w8, [sp, #1080]
	add	x24, sp, #1072
	ldr	x2, [sp, #1088]
	ldr	x22, [sp, #1096]
	ldr	x10, [sp, #1104]
352:
	ldrb	w9, [x24]
	cbz	w9, 354f
353:
	mov	w25, #1
	b	358f
354:
	cmp	w8, #1
	b.ne	357f
	movi	v0.2d, #0000000000000000
	cmp	x22, #1
	str	x10, [sp, #264]
	csinc	x8, x22, xzr, lo
	add	x10, sp, #896
	add	x19, sp, #896
	sub	x9, x22, x8
	add	x9, x2, x9
	stp	q0, q0, [x10]
	neg	x10, x8
	add	x8, x2, x22
	add	x9, x9, #16
355:
	mov	x20, x10
	cmn	x22, x10
	mov	x24, x9
	b.eq	356f
	add	x9, x8, x20
	sub	x10, x20, #1
	ldurb	w9, [x9, #-1]
	cmp	w9, #10
	sub	x9, x24, #1
	b.ne	355b
356:
	add	x0, sp, #896
	add	x1, sp, #384
	add	x3, x22, x20
	str	x2, [sp, #280]
	bl	b2sum_commands..seals..seal_line..d6b15712839574eb_1_a64
	ldrb	w8, [sp, #896]
	cbz	w8, 392f
	ldrb	w20, [sp, #897]
	ldr	x8, [sp, #264]
	cbz	x8, 353b
	ldr	x0, [sp, #280]
	vj_call	rattle_dealloc
	b	353b
357:
	mov	w20, wzr
	mov	w25, wzr
358:
	mov	x24, x26
	sub	x26, x29, #240
	b	370f
359:
	and	x9, x20, #0x18
	and	x8, x20, #0xffffffffffffffe0
	add	x10, x22, #16
	add	x11, x19, #16
	and	x12, x20, #0xffffffffffffffe0
360:
	ldp	q0, q1, [x10, #-16]
	subs	x12, x12, #32
	add	x10, x10, #32
	stp	q0, q1, [x11, #-16]
	add	x11, x11, #32
	b.ne	360b
	cmp	x20, x8
	b.eq	365f
	cbz	x9, 363f
361:
	mov	x11, x8
	and	x8, x20, #0xfffffffffffffff8
	sub	x9, x11, x8
	add	x10, x22, x11
	add	x11, x19, x11
362:
	ldr	d0, [x10], #8
	adds	x9, x9, #8
	str	d0, [x11], #8
	b.ne	362b
	cmp	x20, x8
	b.eq	365f
363:
	sub	x9, x20, x8
	add	x10, x22, x8
	add	x8, x19, x8
364:
	ldrb	w11, [x10], #1
	subs	x9, x9, #1
	strb	w11, [x8], #1
	b.ne	364b
365:
	ldrb	w8, [sp, #473]
	ldr	x0, [x25, #344]
	ldr	x9, [x25, #360]
	stp	x19, x20, [x25, #344]
	strb	w8, [x25, #368]
	ldr	x8, [sp, #304]
	str	x20, [x25, #360]
	str	xzr, [x8]
	stur	xzr, [x8, #7]
	cbz	x9, 366f
	vj_call	rattle_dealloc
366:
	movi	v0.2d, #0000000000000000
	add	x8, sp, #896
	mov	w0, #65536
	mov	w1, #1
	str	xzr, [sp, #1024]
	stp	q0, q0, [x8]
	stp	q0, q0, [x8, #32]
	stp	q0, q0, [x8, #64]
	stp	q0, q0, [x8, #96]
	vj_call	rattle_alloc
	tbz	w0, #0, 368f
	mov	x19, x1
	mov	x0, x1
	mov	w1, wzr
	mov	w2, #65536
	vj_c_call	memset
	cmp	x20, #1
	b.ne	367f
	ldrb	w8, [x22]
	cmp	w8, #45
	b.ne	367f
	movi	v0.2d, #0000000000000000
	str	x20, [sp, #344]
	add	x9, sp, #896
	str	w27, [sp, #336]
	mov	x27, xzr
	str	x24, [sp, #144]
	stp	xzr, xzr, [x29, #-72]
	stur	q0, [x28, #120]
	stur	q0, [x28, #104]
	stur	q0, [x28, #88]
	stur	q0, [x28, #72]
	stur	q0, [x28, #56]
	stur	q0, [x28, #40]
	stur	q0, [x28, #24]
	stur	q0, [x28, #8]
	b	372f
367:
	add	x0, sp, #896
	mov	x1, x22
	mov	x2, x20
	bl	b2sum..disk..SystemDisk..open..997c1e2eeb9618f7_1_a64
	ldrb	w8, [sp, #896]
	cbz	w8, 371f
	add	x8, sp, #896
	add	x2, x25, #224
	mov	x0, x23
	add	x1, x8, #8
	mov	x3, x22
	mov	x4, x20
	bl	b2sum_commands..messages..warn_of_file..fab5d8e6f6068f4d_1_a64
	and	w20, w0, #0xff
	mov	x0, x19
	vj_call	rattle_dealloc
	tbz	w20, #0, 472f
368:
	mov	w20, wzr
369:
	mov	w25, #1
370:
	tst	w25, #0xff
	b.ne	546f
	add	x24, x24, #1
	ldr	x25, [sp, #328]
	and	w27, w27, w20
	cmp	x24, x21
	b.ne	302b
	b	526f
371:
	add	x9, sp, #896
	str	w27, [sp, #336]
	mov	w27, #1
	ldur	q0, [x9, #72]
	ldur	q1, [x9, #88]
	str	x20, [sp, #344]
	str	x24, [sp, #144]
	stur	q0, [x28, #72]
	ldur	q0, [x9, #104]
	stur	q1, [x28, #88]
	ldur	q1, [x9, #120]
	stur	q0, [x28, #104]
	ldur	q0, [x9, #8]
	stur	q1, [x28, #120]
	ldur	q1, [x9, #24]
	stur	q0, [x28, #8]
	ldur	q0, [x9, #40]
	stur	q1, [x28, #24]
	ldur	q1, [x9, #56]
	stur	q0, [x28, #40]
	stur	q1, [x28, #56]
	stp	xzr, xzr, [x29, #-72]
372:
	ldur	q0, [x28, #72]
	mov	w8, #65536
	ldur	q1, [x28, #88]
	movi	v2.2d, #0000000000000000
	sub	x10, x29, #240
	str	xzr, [sp, #312]
	stur	q0, [x9, #72]
	ldur	q0, [x28, #104]
	mov	x24, #-1
	stur	q1, [x9, #88]
	ldur	q1, [x28, #120]
	stur	q0, [x9, #104]
	ldur	q0, [x28, #8]
	stur	q1, [x9, #120]
	stur	q0, [x9, #8]
	ldur	q0, [x28, #24]
	str	xzr, [sp, #256]
	stur	q0, [x9, #24]
	ldur	q0, [x28, #40]
	str	wzr, [sp, #280]
	stur	q0, [x9, #40]
	ldur	q0, [x28, #56]
	str	wzr, [sp, #264]
	stur	q0, [x9, #56]
	dup	v0.2d, x8
	add	x8, sp, #896
	stp	q2, q2, [x8, #192]
	str	q2, [x8, #176]
	str	q0, [x8, #144]
	ldur	q0, [x29, #-72]
	sub	x8, x29, #24
	str	wzr, [sp, #248]
	stur	q0, [x9, #160]
	sub	x9, x29, #48
	stp	xzr, xzr, [x9, #8]
	vj_page	x9, .L1_a64_CPI3_0
	vj_load	q0, x9, .L1_a64_CPI3_0
	str	wzr, [sp, #160]
	str	wzr, [sp, #192]
	str	wzr, [sp, #152]
	str	wzr, [sp, #176]
	str	wzr, [sp, #184]
	str	wzr, [sp, #168]
	stp	xzr, xzr, [sp, #200]
	stp	xzr, xzr, [sp, #232]
	stp	xzr, xzr, [sp, #216]
	stur	q2, [x28, #216]
	stur	q2, [x28, #200]
	stur	q2, [x28, #184]
	stur	q2, [x28, #168]
	stur	q2, [x28, #152]
	stur	q2, [x28, #136]
	str	x27, [sp, #896]
	str	x19, [sp, #1032]
	str	xzr, [sp, #1120]
	stur	x8, [x29, #-48]
	stur	q2, [x10, #8]
	stur	q2, [x10, #24]
	stur	xzr, [x10, #40]
	str	q0, [x26, #48]
	stur	x8, [x29, #-240]
	stp	xzr, x8, [x29, #-176]
	stp	xzr, xzr, [x10, #80]
	str	x22, [sp, #288]
373:
	add	x8, sp, #896
	cmp	x27, #1
	b.ne	374f
	add	x0, x8, #136
	add	x1, x8, #8
	sub	x2, x29, #48
	b	375f
374:
	add	x0, x8, #136
	sub	x2, x29, #48
	mov	x1, x25
375:
	bl	b2sum_commands..line_reader..LineReader..read_line..5254a3ddd78d1e3f_1_a64
	ldr	w27, [sp, #336]
	mov	w20, w1
	tst	w0, #0xff
	b.ne	385f
	ldur	x22, [x29, #-40]
	tst	w20, #0xff
	b.eq	376f
	cbz	x22, 391f
376:
	ldr	x8, [sp, #1032]
	ldr	x9, [sp, #1056]
	mov	x26, x25
	ldr	x10, [sp, #1064]
	ldrb	w27, [sp, #896]
	add	x0, sp, #384
	ldur	x19, [x29, #-48]
	add	x8, x8, x9
	sub	x1, x29, #136
	sub	x9, x10, x9
	ldrb	w10, [x25, #368]
	cmp	x27, #1
	cset	w25, ne
	sub	x2, x29, #240
	stp	x19, x22, [x29, #-136]
	stur	x8, [x29, #-120]
	stp	x9, xzr, [x29, #-112]
	sturb	w10, [x29, #-104]
	sturb	w25, [x29, #-103]
	bl	b2sum_commands..listed_ahead..go_on_in_list..432d41b752d14b0e_1_a64
	add	x0, sp, #1072
	add	x2, sp, #384
	sub	x4, x29, #240
	mov	x1, x23
	mov	x3, x26
	mov	w5, w25
	mov	x6, x19
	mov	x7, x22
	bl	b2sum_commands..check..check_line..82a450bcca081e63_1_a64
	ldrb	w8, [sp, #1072]
	cbnz	w8, 394f
	ldrb	w8, [sp, #1080]
	sub	x26, x29, #240
	cmp	w8, #2
	b.le	377f
	ldp	x23, x25, [sp, #320]
	cmp	w8, #4
	b.gt	378f
	cmp	w8, #3
	b.ne	381f
	ldr	x8, [sp, #232]
	adds	x8, x8, #1
	csinv	x8, x8, xzr, lo
	str	x8, [sp, #232]
	b	382f
377:
	ldp	x23, x25, [sp, #320]
	cbz	w8, 379f
	cmp	w8, #1
	b.ne	380f
	ldr	x8, [sp, #216]
	adds	x8, x8, #1
	csinv	x8, x8, xzr, lo
	str	x8, [sp, #216]
	b	382f
378:
	cmp	w8, #5
	b.ne	382f
	ldr	x12, [sp, #1088]
	ldr	w15, [sp, #184]
	ldr	w14, [sp, #168]
	ldr	w16, [sp, #176]
	ldr	w17, [sp, #152]
	ldr	x10, [sp, #200]
	orr	w15, w15, w12, lsr #8
	orr	w14, w14, w12
	lsr	x0, x12, #32
	orr	w16, w16, w12, lsr #16
	orr	w17, w17, w12, lsr #24
	lsr	x12, x12, #40
	and	w15, w15, #0x1
	adds	x10, x10, #1
	ldrb	w13, [sp, #1096]
	str	w15, [sp, #184]
	ldr	w15, [sp, #160]
	csinv	x10, x10, xzr, lo
	str	x10, [sp, #200]
	ldrb	w10, [sp, #1100]
	ldr	w11, [sp, #1104]
	orr	w12, w15, w12
	ldr	w15, [sp, #248]
	and	w14, w14, #0x1
	ldrb	w9, [sp, #1112]
	str	w14, [sp, #168]
	and	w14, w16, #0x1
	cmp	w15, #1
	str	w14, [sp, #176]
	ldr	w14, [sp, #192]
	csinc	w13, w13, wzr, ne
	ldr	x8, [sp, #1120]
	str	w13, [sp, #248]
	ldr	w13, [sp, #264]
	orr	w14, w14, w0
	and	w14, w14, #0x1
	csel	w13, w13, w10, eq
	ldr	w10, [sp, #280]
	str	w14, [sp, #192]
	and	w14, w17, #0x1
	str	w13, [sp, #264]
	csel	w10, w10, w11, eq
	str	w14, [sp, #152]
	str	w10, [sp, #280]
	ldr	x10, [sp, #256]
	cmp	x10, #1
	and	w10, w12, #0x1
	csinc	x9, x9, xzr, ne
	str	w10, [sp, #160]
	str	x9, [sp, #256]
	ldr	x9, [sp, #312]
	csel	x9, x9, x8, eq
	str	x9, [sp, #312]
	b	382f
379:
	ldr	x8, [sp, #208]
	adds	x8, x8, #1
	csinv	x8, x8, xzr, lo
	str	x8, [sp, #208]
	b	382f
380:
	ldr	x8, [sp, #224]
	adds	x8, x8, #1
	csinv	x8, x8, xzr, lo
	str	x8, [sp, #224]
	b	382f
381:
	ldr	x8, [sp, #240]
	adds	x8, x8, #1
	csinv	x8, x8, xzr, lo
	str	x8, [sp, #240]
382:
	tst	w20, #0xff
	b.ne	400f
	subs	x24, x24, #1
	b.ne	373b
	ldp	x20, x22, [x29, #-240]
	ldur	x23, [x29, #-224]
	ldr	w27, [sp, #336]
	cbz	x22, 401f
	add	x24, x20, #16
	b	384f
383:
	subs	x22, x22, #1
	add	x24, x24, #104
	b.eq	401f
384:
	ldr	x8, [x24]
	cbz	x8, 383b
	ldur	x0, [x24, #-16]
	vj_call	rattle_dealloc
	b	383b
385:
	ldp	x19, x20, [x29, #-240]
	ldur	x22, [x29, #-224]
	ldr	x24, [sp, #144]
	cbz	x20, 388f
	add	x23, x19, #16
	b	387f
386:
	subs	x20, x20, #1
	add	x23, x23, #104
	b.eq	388f
387:
	ldr	x8, [x23]
	cbz	x8, 386b
	ldur	x0, [x23, #-16]
	vj_call	rattle_dealloc
	b	386b
388:
	cbz	x22, 389f
	mov	x0, x19
	vj_call	rattle_dealloc
389:
	ldur	x8, [x29, #-152]
	cbz	x8, 390f
	ldur	x0, [x29, #-168]
	vj_call	rattle_dealloc
390:
	ldur	x8, [x29, #-32]
	ldr	x23, [sp, #320]
	cbz	x8, 405f
	ldur	x0, [x29, #-48]
	b	404f
391:
	and	w8, w20, #0xff
	cmp	w8, #2
	b.ne	409f
	stp	xzr, xzr, [sp, #208]
	mov	x22, xzr
	stp	xzr, xzr, [sp, #224]
	str	xzr, [sp, #240]
	str	xzr, [sp, #200]
	str	wzr, [sp, #168]
	str	wzr, [sp, #184]
	str	wzr, [sp, #176]
	str	wzr, [sp, #152]
	str	wzr, [sp, #192]
	str	wzr, [sp, #160]
	str	wzr, [sp, #248]
	str	wzr, [sp, #264]
	str	wzr, [sp, #280]
	str	xzr, [sp, #256]
	str	xzr, [sp, #312]
	b	410f
392:
	ldr	x8, [sp, #912]
	ldr	x0, [sp, #904]
	cmn	x8, x20
	b.eq	427f
	mov	w20, wzr
393:
	mov	x24, x26
	sub	x26, x29, #240
	b	437f
394:
	ldp	x22, x23, [x29, #-240]
	sub	x26, x29, #240
	ldrb	w20, [sp, #1073]
	ldur	x24, [x29, #-224]
	ldr	w27, [sp, #336]
	cbz	x23, 397f
	add	x25, x22, #16
	b	396f
395:
	subs	x23, x23, #1
	add	x25, x25, #104
	b.eq	397f
396:
	ldr	x8, [x25]
	cbz	x8, 395b
	ldur	x0, [x25, #-16]
	vj_call	rattle_dealloc
	b	395b
397:
	cbz	x24, 398f
	mov	x0, x22
	vj_call	rattle_dealloc
398:
	ldur	x8, [x29, #-152]
	ldr	x23, [sp, #320]
	cbz	x8, 399f
	ldur	x0, [x29, #-168]
	vj_call	rattle_dealloc
399:
	ldur	x8, [x29, #-32]
	ldr	x24, [sp, #144]
	cbz	x8, 406f
	mov	x0, x19
	vj_call	rattle_dealloc
	b	406f
400:
	and	w8, w20, #0xff
	cmp	w8, #2
	b.ne	416f
	stp	xzr, xzr, [sp, #208]
	mov	x22, xzr
	stp	xzr, xzr, [sp, #224]
	str	xzr, [sp, #240]
	str	xzr, [sp, #200]
	str	wzr, [sp, #168]
	str	wzr, [sp, #184]
	str	wzr, [sp, #176]
	str	wzr, [sp, #152]
	str	wzr, [sp, #192]
	str	wzr, [sp, #160]
	str	wzr, [sp, #248]
	str	wzr, [sp, #264]
	str	wzr, [sp, #280]
	str	xzr, [sp, #256]
	str	xzr, [sp, #312]
	b	417f
401:
	cbz	x23, 402f
	mov	x0, x20
	vj_call	rattle_dealloc
402:
	ldur	x8, [x29, #-152]
	ldr	x24, [sp, #144]
	cbz	x8, 403f
	ldur	x0, [x29, #-168]
	vj_call	rattle_dealloc
403:
	ldur	x8, [x29, #-32]
	ldr	x23, [sp, #320]
	cbz	x8, 405f
	mov	x0, x19
404:
	vj_call	rattle_dealloc
405:
	mov	w20, wzr
406:
	ldrb	w8, [sp, #896]
	cmp	w8, #1
	b.ne	408f
	ldrb	w8, [sp, #904]
	ldr	x19, [sp, #912]
	ldr	x22, [sp, #928]
	cbnz	w8, 407f
	ldr	w0, [sp, #908]
	vj_call	b2sum_close
407:
	cbz	x22, 408f
	mov	x0, x19
	vj_call	rattle_dealloc
408:
	ldr	x8, [sp, #1048]
	cbz	x8, 369b
	ldr	x0, [sp, #1032]
	b	335b
409:
	mov	w22, #1
410:
	ldp	x19, x20, [x29, #-240]
	ldur	x24, [x29, #-224]
	cbz	x20, 413f
	add	x25, x19, #16
	b	412f
411:
	subs	x20, x20, #1
	add	x25, x25, #104
	b.eq	413f
412:
	ldr	x8, [x25]
	cbz	x8, 411b
	ldur	x0, [x25, #-16]
	vj_call	rattle_dealloc
	b	411b
413:
	cbz	x24, 414f
	mov	x0, x19
	vj_call	rattle_dealloc
414:
	ldur	x8, [x29, #-152]
	ldr	x20, [sp, #328]
	cbz	x8, 415f
	ldur	x0, [x29, #-168]
	vj_call	rattle_dealloc
415:
	ldur	x8, [x29, #-32]
	ldr	x24, [sp, #144]
	cbz	x8, 424f
	ldur	x0, [x29, #-48]
	b	423f
416:
	mov	w22, #1
417:
	ldp	x20, x24, [x29, #-240]
	ldur	x25, [x29, #-224]
	cbz	x24, 420f
	add	x27, x20, #16
	b	419f
418:
	subs	x24, x24, #1
	add	x27, x27, #104
	b.eq	420f
419:
	ldr	x8, [x27]
	cbz	x8, 418b
	ldur	x0, [x27, #-16]
	vj_call	rattle_dealloc
	b	418b
420:
	cbz	x25, 421f
	mov	x0, x20
	vj_call	rattle_dealloc
421:
	ldur	x8, [x29, #-152]
	ldr	x24, [sp, #144]
	ldr	w27, [sp, #336]
	cbz	x8, 422f
	ldur	x0, [x29, #-168]
	vj_call	rattle_dealloc
422:
	ldur	x8, [x29, #-32]
	ldr	x20, [sp, #328]
	cbz	x8, 424f
	mov	x0, x19
423:
	vj_call	rattle_dealloc
424:
	ldr	x8, [sp, #208]
	ldr	x3, [sp, #288]
	add	x1, sp, #384
	ldr	x4, [sp, #344]
	add	x2, x20, #224
	add	x5, sp, #800
	str	x8, [sp, #808]
	ldr	x8, [sp, #216]
	mov	x0, x23
	str	x22, [sp, #800]
	str	x8, [sp, #816]
	ldr	x8, [sp, #224]
	strh	wzr, [sp, #862]
	str	x8, [sp, #824]
	ldr	x8, [sp, #232]
	str	wzr, [sp, #876]
	str	x8, [sp, #832]
	ldr	x8, [sp, #240]
	str	x8, [sp, #840]
	ldr	x8, [sp, #200]
	str	x8, [sp, #848]
	ldr	w8, [sp, #168]
	strb	w8, [sp, #856]
	ldr	w8, [sp, #184]
	strb	w8, [sp, #857]
	ldr	w8, [sp, #176]
	strb	w8, [sp, #858]
	ldr	w8, [sp, #152]
	strb	w8, [sp, #859]
	ldr	w8, [sp, #192]
	strb	w8, [sp, #860]
	ldr	w8, [sp, #160]
	strb	w8, [sp, #861]
	ldr	w8, [sp, #248]
	str	w8, [sp, #864]
	ldr	w8, [sp, #264]
	str	w8, [sp, #868]
	ldr	w8, [sp, #280]
	str	w8, [sp, #872]
	ldr	x8, [sp, #256]
	str	x8, [sp, #880]
	ldr	x8, [sp, #312]
	str	x8, [sp, #888]
	bl	b2sum_commands..check..end_manifest..068f3e307c5390f2_1_a64
	ldrb	w8, [sp, #896]
	mov	w25, w0
	mov	w20, w1
	cmp	w8, #1
	b.ne	426f
	ldrb	w8, [sp, #904]
	ldr	x19, [sp, #912]
	ldr	x22, [sp, #928]
	cbnz	w8, 425f
	ldr	w0, [sp, #908]
	vj_call	b2sum_close
425:
	cbz	x22, 426f
	mov	x0, x19
	vj_call	rattle_dealloc
426:
	ldr	x8, [sp, #1048]
	cbz	x8, 370b
	ldr	x0, [sp, #1032]
	vj_call	rattle_dealloc
	b	370b
427:
	cbz	x20, 428f
	cmp	x8, #8
	b.hs	429f
	mov	w10, wzr
	mov	x9, xzr
	mov	x24, x26
	sub	x26, x29, #240
	b	434f
428:
	mov	w20, #1
	b	393b
429:
	cmp	x8, #32
	b.hs	430f
	mov	x9, xzr
	mov	w10, wzr
	mov	x24, x26
	sub	x26, x29, #240
	b	432f
430:
	movi	v0.2d, #0000000000000000
	movi	v1.2d, #0000000000000000
	and	x11, x8, #0x18
	and	x9, x8, #0xffffffffffffffe0
	add	x10, x0, #16
	and	x12, x8, #0xffffffffffffffe0
431:
	ldp	q2, q3, [x24, #-16]
	subs	x12, x12, #32
	ldp	q4, q5, [x10, #-16]
	add	x24, x24, #32
	add	x10, x10, #32
	eor	v2.16b, v4.16b, v2.16b
	eor	v3.16b, v5.16b, v3.16b
	orr	v0.16b, v2.16b, v0.16b
	orr	v1.16b, v3.16b, v1.16b
	b.ne	431b
	orr	v0.16b, v1.16b, v0.16b
	cmp	x8, x9
	mov	x24, x26
	sub	x26, x29, #240
	ext	v1.16b, v0.16b, v0.16b, #8
	orr	v0.8b, v0.8b, v1.8b
	fmov	x10, d0
	orr	x10, x10, x10, lsr #32
	orr	x10, x10, x10, lsr #16
	lsr	x12, x10, #8
	orr	w10, w10, w12
	b.eq	436f
	cbz	x11, 434f
432:
	movi	v0.2d, #0000000000000000
	mov	x12, x9
	ldr	x11, [sp, #280]
	and	x9, x8, #0xfffffffffffffff8
	mov	v0.b[0], w10
	add	x10, x22, x12
	add	x10, x11, x10
	sub	x11, x12, x9
	add	x12, x0, x12
433:
	ldr	d1, [x10, x20]
	ldr	d2, [x12], #8
	adds	x11, x11, #8
	add	x10, x10, #8
	eor	v1.8b, v2.8b, v1.8b
	orr	v0.8b, v1.8b, v0.8b
	b.ne	433b
	fmov	x10, d0
	cmp	x8, x9
	orr	x10, x10, x10, lsr #32
	orr	x10, x10, x10, lsr #16
	lsr	x11, x10, #8
	orr	w10, w10, w11
	b.eq	436f
434:
	ldr	x12, [sp, #280]
	add	x11, x9, x22
	sub	x8, x8, x9
	add	x9, x0, x9
	add	x11, x12, x11
435:
	ldrb	w12, [x11, x20]
	ldrb	w13, [x9], #1
	subs	x8, x8, #1
	add	x11, x11, #1
	eor	w12, w13, w12
	orr	w10, w12, w10
	b.ne	435b
436:
	tst	w10, #0xff
	cset	w20, eq
437:
	ldr	x8, [sp, #920]
	cbz	x8, 438f
	vj_call	rattle_dealloc
438:
	tbz	w20, #0, 439f
	ldr	x20, [sp, #344]
	cmp	x20, #1
	b.ne	442f
	ldr	x8, [sp, #288]
	ldrb	w8, [x8]
	cmp	w8, #45
	cset	w8, eq
	str	w8, [sp, #312]
	b	443f
439:
	movi	v0.2d, #0000000000000000
	ldr	x1, [sp, #288]
	ldr	x2, [sp, #344]
	add	x8, sp, #896
	add	x0, sp, #896
	stp	q0, q0, [x8]
	bl	b2sum_commands..quoting..quoted_name_1_a64
	ldrb	w8, [sp, #896]
	cbnz	w8, 441f
	ldr	x20, [sp, #904]
	ldr	x4, [sp, #912]
	ldp	x0, x1, [x23]
	vj_page	x5, .L1_a64_static.123
	vj_address	x5, x5, .L1_a64_static.123
	ldr	x23, [sp, #920]
	vj_page	x7, .L1_a64_static.195
	vj_address	x7, x7, .L1_a64_static.195
	mov	w8, #22
	add	x2, x25, #224
	mov	x3, x20
	mov	w6, #2
	str	x8, [sp]
	bl	b2sum_commands..messages..warn..068f3e307c5390f2_1_a64
	mov	w22, w0
	cbz	x23, 440f
	mov	x0, x20
	vj_call	rattle_dealloc
440:
	ldr	x0, [sp, #280]
	and	w8, w22, #0xff
	tbz	w8, #0, 471f
	ldr	x23, [sp, #320]
441:
	ldr	x8, [sp, #264]
	cbz	x8, 368b
	ldr	x0, [sp, #280]
	vj_call	rattle_dealloc
	b	368b
442:
	str	wzr, [sp, #312]
443:
	movi	v0.2d, #0000000000000000
	add	x9, sp, #896
	vj_page	x8, .L1_a64_CPI3_0
	ldr	x10, [sp, #280]
	str	xzr, [sp, #832]
	str	xzr, [sp, #720]
	stur	xzr, [x9, #40]
	stur	q0, [x28, #136]
	stur	q0, [x28, #152]
	stur	q0, [x28, #8]
	stur	q0, [x28, #24]
	stur	q0, [x28, #40]
	stur	q0, [x9, #8]
	stur	q0, [x9, #24]
	vj_load	q0, x8, .L1_a64_CPI3_0
	sub	x8, x29, #24
	str	x8, [sp, #896]
	str	x8, [sp, #968]
	ldrb	w8, [x25, #368]
	str	q0, [x19, #48]
	str	xzr, [sp, #960]
	str	w8, [sp, #120]
	stp	xzr, xzr, [x9, #80]
	cbz	x22, 454f
	stp	xzr, x24, [sp, #136]
	mov	x24, x10
	mov	x25, x22
	str	x20, [sp, #344]
	str	w27, [sp, #336]
	str	xzr, [sp, #256]
	str	wzr, [sp, #240]
	str	wzr, [sp, #248]
	str	wzr, [sp, #232]
	str	wzr, [sp, #224]
	str	wzr, [sp, #176]
	str	wzr, [sp, #132]
	str	wzr, [sp, #152]
	str	wzr, [sp, #160]
	stp	xzr, xzr, [sp, #200]
	str	xzr, [sp, #216]
	stp	xzr, xzr, [sp, #184]
	str	xzr, [sp, #168]
	b	446f
444:
	ldr	x8, [sp, #168]
	adds	x8, x8, #1
	csinv	x8, x8, xzr, lo
	str	x8, [sp, #168]
445:
	cbz	x25, 461f
446:
	mov	x8, xzr
	mov	x27, x25
	mov	x20, x24
447:
	ldrb	w9, [x20, x8]
	cmp	w9, #10
	b.eq	448f
	add	x8, x8, #1
	cmp	x27, x8
	b.ne	447b
	mov	x25, xzr
	vj_page	x24, .L1_a64_static.1
	vj_address	x24, x24, .L1_a64_static.1
	b	449f
448:
	add	x9, x20, x8
	mvn	x10, x8
	add	x24, x9, #1
	add	x25, x10, x27
	mov	x27, x8
449:
	ldr	x19, [sp, #328]
	ldr	w26, [sp, #312]
	add	x0, sp, #384
	add	x1, sp, #800
	add	x2, sp, #896
	str	x20, [sp, #800]
	ldrb	w8, [x19, #368]
	str	x27, [sp, #808]
	str	x24, [sp, #816]
	str	x25, [sp, #824]
	strb	w8, [sp, #832]
	strb	w26, [sp, #833]
	bl	b2sum_commands..listed_ahead..go_on_in_list..432d41b752d14b0e_1_a64
	add	x0, sp, #672
	add	x2, sp, #384
	add	x4, sp, #896
	mov	x1, x23
	mov	x3, x19
	mov	w5, w26
	mov	x6, x20
	mov	x7, x27
	bl	b2sum_commands..check..check_line..82a450bcca081e63_1_a64
	ldrb	w8, [sp, #672]
	cbnz	w8, 455f
	ldrb	w8, [sp, #680]
	cmp	w8, #2
	b.le	450f
	cmp	w8, #4
	b.gt	451f
	cmp	w8, #3
	b.ne	453f
	ldr	x8, [sp, #208]
	adds	x8, x8, #1
	csinv	x8, x8, xzr, lo
	str	x8, [sp, #208]
	b	445b
450:
	cbz	w8, 444b
	cmp	w8, #1
	b.ne	452f
	ldr	x8, [sp, #184]
	adds	x8, x8, #1
	csinv	x8, x8, xzr, lo
	str	x8, [sp, #184]
	b	445b
451:
	cmp	w8, #5
	b.ne	445b
	ldr	x12, [sp, #688]
	ldr	w15, [sp, #160]
	ldr	w16, [sp, #152]
	ldp	w17, w14, [sp, #132]
	orr	w15, w15, w12, lsr #8
	orr	w16, w16, w12, lsr #16
	lsr	x0, x12, #32
	ldr	x10, [sp, #200]
	ldrb	w13, [sp, #696]
	ldr	w11, [sp, #704]
	and	w15, w15, #0x1
	orr	w14, w14, w12
	orr	w17, w17, w12, lsr #24
	lsr	x12, x12, #40
	str	w15, [sp, #160]
	ldr	w15, [sp, #140]
	adds	x10, x10, #1
	and	w14, w14, #0x1
	ldrb	w9, [sp, #712]
	orr	w12, w15, w12
	ldr	w15, [sp, #224]
	csinv	x10, x10, xzr, lo
	str	x10, [sp, #200]
	ldrb	w10, [sp, #700]
	ldr	x8, [sp, #720]
	cmp	w15, #1
	str	w14, [sp, #136]
	and	w14, w16, #0x1
	csinc	w13, w13, wzr, ne
	str	w14, [sp, #152]
	ldr	w14, [sp, #176]
	str	w13, [sp, #224]
	ldr	w13, [sp, #232]
	orr	w14, w14, w0
	csel	w13, w13, w10, eq
	ldr	w10, [sp, #248]
	and	w14, w14, #0x1
	str	w14, [sp, #176]
	and	w14, w17, #0x1
	csel	w10, w10, w11, eq
	str	w14, [sp, #132]
	str	w10, [sp, #248]
	ldr	w10, [sp, #240]
	str	w13, [sp, #232]
	cmp	w10, #1
	and	w10, w12, #0x1
	csinc	w9, w9, wzr, ne
	str	w10, [sp, #140]
	str	w9, [sp, #240]
	ldr	x9, [sp, #256]
	csel	x9, x9, x8, eq
	str	x9, [sp, #256]
	b	445b
452:
	ldr	x8, [sp, #192]
	adds	x8, x8, #1
	csinv	x8, x8, xzr, lo
	str	x8, [sp, #192]
	b	445b
453:
	ldr	x8, [sp, #216]
	adds	x8, x8, #1
	csinv	x8, x8, xzr, lo
	str	x8, [sp, #216]
	b	445b
454:
	str	xzr, [sp, #168]
	stp	xzr, xzr, [sp, #184]
	stp	xzr, xzr, [sp, #208]
	str	xzr, [sp, #200]
	str	xzr, [sp, #136]
	str	wzr, [sp, #160]
	str	wzr, [sp, #152]
	str	wzr, [sp, #132]
	str	wzr, [sp, #176]
	str	wzr, [sp, #224]
	str	wzr, [sp, #232]
	str	wzr, [sp, #248]
	str	wzr, [sp, #240]
	str	xzr, [sp, #256]
	b	466f
455:
	ldr	x23, [sp, #904]
	ldr	x22, [sp, #896]
	sub	x26, x29, #240
	ldrb	w20, [sp, #673]
	ldr	x24, [sp, #912]
	ldr	w27, [sp, #336]
	cbz	x23, 458f
	add	x25, x22, #16
	b	457f
456:
	subs	x23, x23, #1
	add	x25, x25, #104
	b.eq	458f
457:
	ldr	x8, [x25]
	cbz	x8, 456b
	ldur	x0, [x25, #-16]
	vj_call	rattle_dealloc
	b	456b
458:
	cbz	x24, 459f
	mov	x0, x22
	vj_call	rattle_dealloc
459:
	ldr	x8, [sp, #984]
	ldr	x23, [sp, #320]
	cbz	x8, 460f
	ldr	x0, [sp, #968]
	vj_call	rattle_dealloc
460:
	ldr	x24, [sp, #144]
	b	468f
461:
	ldr	x24, [sp, #904]
	ldr	x20, [sp, #896]
	ldr	x25, [sp, #912]
	cbz	x24, 464f
	add	x27, x20, #16
	b	463f
462:
	subs	x24, x24, #1
	add	x27, x27, #104
	b.eq	464f
463:
	ldr	x8, [x27]
	cbz	x8, 462b
	ldur	x0, [x27, #-16]
	vj_call	rattle_dealloc
	b	462b
464:
	cbz	x25, 465f
	mov	x0, x20
	vj_call	rattle_dealloc
465:
	ldr	x25, [sp, #328]
	ldr	x24, [sp, #144]
	sub	x26, x29, #240
	ldr	w27, [sp, #336]
	ldr	x20, [sp, #344]
466:
	ldr	x8, [sp, #984]
	cbz	x8, 467f
	ldr	x0, [sp, #968]
	vj_call	rattle_dealloc
467:
	mov	w8, #1
	ldr	w9, [sp, #224]
	ldr	x3, [sp, #288]
	stur	x8, [x29, #-240]
	ldr	x8, [sp, #168]
	add	x1, sp, #384
	add	x2, x25, #224
	sub	x5, x29, #240
	mov	x0, x23
	stur	x8, [x29, #-232]
	ldr	x8, [sp, #184]
	mov	x4, x20
	sturh	wzr, [x29, #-178]
	stur	x8, [x29, #-224]
	ldr	x8, [sp, #192]
	stur	x8, [x29, #-216]
	ldr	x8, [sp, #208]
	stur	x8, [x29, #-208]
	ldr	x8, [sp, #216]
	stur	x8, [x29, #-200]
	ldr	x8, [sp, #200]
	stur	x8, [x29, #-192]
	ldr	w8, [sp, #136]
	sturb	w8, [x29, #-184]
	ldr	w8, [sp, #160]
	sturb	w8, [x29, #-183]
	ldr	w8, [sp, #152]
	sturb	w8, [x29, #-182]
	ldr	w8, [sp, #132]
	sturb	w8, [x29, #-181]
	ldr	w8, [sp, #176]
	sturb	w8, [x29, #-180]
	ldr	w8, [sp, #140]
	sturb	w8, [x29, #-179]
	ldr	w8, [sp, #232]
	and	w8, w8, #0xff
	stp	w9, w8, [x29, #-176]
	ldr	w8, [sp, #248]
	stp	w8, wzr, [x29, #-168]
	ldr	w8, [sp, #240]
	mov	w8, w8
	stur	x8, [x29, #-160]
	ldr	x8, [sp, #256]
	stur	x8, [x29, #-152]
	bl	b2sum_commands..check..end_manifest..068f3e307c5390f2_1_a64
	tst	w0, #0xff
	mov	w20, w1
	b.eq	469f
468:
	ldr	x0, [sp, #280]
	ldr	x8, [sp, #264]
	cbnz	x8, 335b
	b	369b
469:
	ldr	w3, [sp, #120]
	ldr	w4, [sp, #312]
	add	x1, sp, #384
	ldr	x5, [sp, #280]
	mov	x0, x23
	mov	x2, x25
	mov	x6, x22
	bl	b2sum_commands..folder_checks..has_all..82a450bcca081e63_1_a64
	tst	w0, #0xff
	mov	w22, w1
	b.eq	473f
	ldr	x8, [sp, #264]
	cbz	x8, 470f
	ldr	x0, [sp, #280]
	vj_call	rattle_dealloc
470:
	mov	w25, #1
	mov	w20, w22
	b	370b
471:
	ldr	x23, [sp, #320]
	ldr	x8, [sp, #264]
	cbz	x8, 472f
	vj_call	rattle_dealloc
472:
	mov	w20, wzr
	mov	w25, wzr
	b	370b
473:
	and	w8, w20, #0x1
	and	w20, w8, w22
	ldr	x8, [sp, #264]
	cbz	x8, 339b
	ldr	x0, [sp, #280]
	b	338b
474:
	ldrb	w8, [x25, #128]
	ldr	x19, [sp, #808]
	ldr	x20, [sp, #824]
	cmp	w8, #1
	b.ne	482f
475:
	cbz	x20, 295b
	mov	x0, x19
	vj_call	rattle_dealloc
	mov	w20, #1
	b	292b
476:
	mov	w8, #64
477:
	str	x8, [sp, #336]
	vj_call	b2sum..disk..hide_memory_1_a64
	movi	v0.2d, #0000000000000000
	ldr	x2, [sp, #120]
	sub	x8, x29, #240
	stur	xzr, [x29, #-208]
	cmp	x2, #1
	str	xzr, [sp, #1024]
	str	xzr, [sp, #832]
	stp	q0, q0, [x8]
	add	x8, sp, #896
	stp	q0, q0, [x8]
	stp	q0, q0, [x8, #32]
	stp	q0, q0, [x8, #64]
	stp	q0, q0, [x8, #96]
	stur	q0, [x28, #136]
	stur	q0, [x28, #152]
	b.ne	478f
	ldr	x8, [sp, #208]
	ldrb	w8, [x8]
	cmp	w8, #45
	b.ne	478f
	ldr	x3, [sp, #208]
	ldr	x6, [sp, #336]
	sub	x0, x29, #240
	add	x7, x25, #224
	mov	x1, x23
	mov	x2, x25
	mov	w4, #1
	mov	w5, w26
	sub	x25, x29, #240
	bl	b2sum_commands..key..read_key_from..fab5d8e6f6068f4d_1_a64
	ldp	x9, x11, [x29, #-224]
	ldurb	w20, [x29, #-239]
	ldurb	w23, [x29, #-232]
	ldur	x10, [x29, #-208]
	b	505f
478:
	ldr	x20, [sp, #208]
	add	x0, sp, #896
	str	x24, [sp, #72]
	mov	x24, x19
	add	x23, sp, #896
	mov	x19, x2
	mov	x1, x20
	bl	b2sum..disk..SystemDisk..open..997c1e2eeb9618f7_1_a64
	ldrb	w8, [sp, #896]
	orr	x1, x23, #0x8
	cbz	w8, 488f
	ldr	x0, [sp, #320]
	add	x2, x25, #224
	mov	x3, x20
	mov	x4, x19
	bl	b2sum_commands..messages..warn_of_file..fab5d8e6f6068f4d_1_a64
	tst	w0, #0xff
	b.eq	503f
	mov	w20, wzr
	b	506f
479:
	ldr	x4, [sp, #536]
	cbz	x4, 527f
	movi	v0.2d, #0000000000000000
	add	x8, sp, #896
	ldr	x3, [sp, #528]
	add	x0, sp, #896
	mov	x1, x23
	mov	x2, x25
	str	xzr, [sp, #976]
	str	xzr, [sp, #816]
	stp	q0, q0, [x8]
	stp	q0, q0, [x8, #32]
	str	q0, [x8, #64]
	ldr	x8, [sp, #352]
	str	xzr, [sp, #800]
	stp	x8, x21, [x29, #-240]
	ldr	x8, [sp, #272]
	str	xzr, [sp, #808]
	str	xzr, [sp, #1088]
	str	xzr, [sp, #1072]
	str	xzr, [sp, #1080]
	stp	xzr, xzr, [x29, #-128]
	stur	xzr, [x29, #-136]
	stp	xzr, xzr, [x29, #-48]
	stur	xzr, [x29, #-32]
	stp	xzr, xzr, [x29, #-72]
	stur	xzr, [x29, #-56]
	stp	xzr, xzr, [x29, #-96]
	stur	xzr, [x29, #-80]
	stur	x8, [x29, #-224]
	bl	b2sum_commands..folders..walk..82a450bcca081e63_1_a64
	ldrb	w8, [sp, #896]
	cbz	w8, 552f
	ldrb	w20, [sp, #897]
	cbz	x21, 524f
	ldr	x8, [sp, #352]
	add	x19, x8, #16
	b	481f
480:
	subs	x21, x21, #1
	add	x19, x19, #24
	b.eq	524f
481:
	ldr	x8, [x19]
	cbz	x8, 480b
	ldur	x0, [x19, #-16]
	vj_call	rattle_dealloc
	b	480b
482:
	ldr	x21, [sp, #816]
	cbz	x21, 484f
	mov	x22, xzr
483:
	add	x1, x19, x22
	sub	x2, x21, x22
	mov	w0, #1
	sub	x23, x21, x22
	vj_system_call	write, b2_write
	tbnz	x0, #63, 558f
	cmp	x0, x23
	csel	x8, x0, x23, lo
	cbz	x8, 559f
	add	x22, x8, x22
	cmp	x22, x21
	b.lo	483b
484:
	cbz	x20, 485f
	mov	x0, x19
	vj_call	rattle_dealloc
485:
	mov	w22, wzr
	mov	w20, #1
	b	293b
486:
	add	x0, sp, #384
	bl	std_io..io..error..last_error_1_a64
	add	x8, sp, #137
	add	x9, sp, #169
	mov	w22, #1
	ldur	q0, [x8, #255]
	add	x8, sp, #201
	ldur	q4, [x9, #255]
	ldur	q1, [x8, #255]
	add	x8, sp, #185
	mov	w20, w22
	ldur	q2, [x8, #255]
	add	x8, sp, #153
	str	q0, [x25, #144]
	ldur	q3, [x8, #255]
	add	x8, sp, #896
	stp	q2, q1, [x8, #48]
	stp	q0, q3, [x8]
	str	q4, [x8, #32]
	ldr	x8, [sp, #384]
	stp	q3, q4, [x25, #160]
	stp	x22, x8, [x25, #128]
	stp	q2, q1, [x25, #192]
	b	293b
487:
	movi	v0.2d, #0000000000000000
	mov	w20, #1
	mov	w8, #5889
	str	x20, [x25, #128]
	mov	w22, #1
	strh	w8, [x25, #136]
	stur	q0, [x25, #138]
	stur	q0, [x25, #154]
	stur	q0, [x25, #170]
	stur	q0, [x25, #186]
	stur	q0, [x25, #202]
	str	xzr, [x25, #216]
	b	293b
488:
	ldp	q0, q1, [x1, #64]
	add	x0, sp, #800
	ldr	x6, [sp, #336]
	add	x2, sp, #672
	add	x7, x25, #224
	mov	x3, x20
	mov	x4, x19
	mov	w5, w26
	stur	q0, [x28, #72]
	stur	q1, [x28, #88]
	ldp	q0, q1, [x1, #96]
	stur	q0, [x28, #104]
	stur	q1, [x28, #120]
	ldp	q0, q1, [x1]
	stur	q0, [x28, #8]
	stur	q1, [x28, #24]
	ldp	q0, q1, [x1, #32]
	ldr	x1, [sp, #320]
	stur	q0, [x28, #40]
	stur	q1, [x28, #56]
	bl	b2sum_commands..key..read_key_from..fab5d8e6f6068f4d_1_a64
	ldrb	w8, [sp, #672]
	ldr	x20, [sp, #680]
	ldr	x23, [sp, #696]
	cbnz	w8, 489f
	ldr	w0, [sp, #676]
	vj_call	b2sum_close
489:
	mov	x19, x24
	cbz	x23, 504f
	mov	x0, x20
	vj_call	rattle_dealloc
	b	504f
490:
	cbz	x26, 491f
	mov	x0, x27
	vj_call	rattle_dealloc
491:
	ldr	w8, [sp, #232]
	cmp	w8, #1
	b.ne	492f
	ldr	x8, [sp, #248]
	cbz	x8, 492f
	ldr	x0, [sp, #176]
	vj_call	rattle_dealloc
492:
	ldr	x8, [sp, #216]
	cbz	x8, 493f
	ldr	x0, [sp, #224]
	vj_call	rattle_dealloc
493:
	cbz	x24, 494f
	ldr	x0, [sp, #184]
	vj_call	rattle_dealloc
494:
	cbz	x22, 497f
	ldr	x8, [sp, #304]
	add	x19, x8, #16
	b	496f
495:
	subs	x22, x22, #1
	add	x19, x19, #24
	b.eq	497f
496:
	ldr	x8, [x19]
	cbz	x8, 495b
	ldur	x0, [x19, #-16]
	vj_call	rattle_dealloc
	b	495b
497:
	cbz	x20, 498f
	ldr	x0, [sp, #304]
	vj_call	rattle_dealloc
498:
	ldr	w8, [sp, #280]
	cmp	w8, #1
	b.ne	499f
	ldr	x8, [sp, #240]
	cbz	x8, 499f
	ldr	x0, [sp, #200]
	vj_call	rattle_dealloc
499:
	cbz	x21, 502f
	ldr	x8, [sp, #352]
	add	x19, x8, #16
	b	501f
500:
	subs	x21, x21, #1
	add	x19, x19, #24
	b.eq	502f
501:
	ldr	x8, [x19]
	cbz	x8, 500b
	ldur	x0, [x19, #-16]
	vj_call	rattle_dealloc
	b	500b
502:
	ldr	x8, [sp, #272]
	cbz	x8, 291b
	ldr	x0, [sp, #352]
	b	176b
503:
	movi	v0.2d, #0000000000000000
	mov	x19, x24
	strb	wzr, [sp, #800]
	stp	q0, q0, [x28, #144]
504:
	ldrb	w20, [sp, #801]
	ldrb	w23, [sp, #808]
	add	x25, sp, #800
	ldr	x9, [sp, #816]
	ldr	x11, [sp, #824]
	ldr	x10, [sp, #832]
	ldr	x24, [sp, #72]
505:
	ldrb	w8, [x25]
	cbz	w8, 520f
506:
	ldr	w8, [sp, #152]
	tbnz	w8, #0, 507f
	ldr	x0, [sp, #208]
	vj_call	rattle_dealloc
507:
	ldp	x23, x19, [sp, #256]
	ldr	x8, [sp, #288]
	cbz	x8, 508f
	ldr	x0, [sp, #344]
	vj_call	rattle_dealloc
508:
	ldr	w8, [sp, #232]
	cmp	w8, #1
	b.ne	509f
	ldr	x8, [sp, #248]
	cbz	x8, 509f
	ldr	x0, [sp, #176]
	vj_call	rattle_dealloc
509:
	ldr	x8, [sp, #216]
	cbz	x8, 510f
	ldr	x0, [sp, #224]
	vj_call	rattle_dealloc
510:
	cbz	x19, 511f
	ldr	x0, [sp, #184]
	vj_call	rattle_dealloc
511:
	cbz	x22, 514f
	ldr	x8, [sp, #304]
	add	x19, x8, #16
	b	513f
512:
	subs	x22, x22, #1
	add	x19, x19, #24
	b.eq	514f
513:
	ldr	x8, [x19]
	cbz	x8, 512b
	ldur	x0, [x19, #-16]
	vj_call	rattle_dealloc
	b	512b
514:
	cbz	x23, 515f
	ldr	x0, [sp, #304]
	vj_call	rattle_dealloc
515:
	ldr	w8, [sp, #280]
	cmp	w8, #1
	b.ne	516f
	ldr	x8, [sp, #240]
	cbz	x8, 516f
	ldr	x0, [sp, #200]
	vj_call	rattle_dealloc
516:
	cbz	x21, 519f
	ldr	x8, [sp, #352]
	add	x19, x8, #16
	b	518f
517:
	subs	x21, x21, #1
	add	x19, x19, #24
	b.eq	519f
518:
	ldr	x8, [x19]
	cbz	x8, 517b
	ldur	x0, [x19, #-16]
	vj_call	rattle_dealloc
	b	517b
519:
	ldr	x8, [sp, #272]
	cbz	x8, 292b
	ldr	x0, [sp, #352]
	vj_call	rattle_dealloc
	b	292b
520:
	str	x11, [sp, #72]
	str	x10, [sp, #88]
	str	x9, [sp, #104]
	bl	blake2_digest..wiping..scrub_stack..4096_1_a64
	cmp	w23, #1
	b.ne	530f
	ldp	w20, w4, [sp, #132]
	ldr	x25, [sp, #328]
	ldr	w17, [sp, #232]
	ldr	x0, [sp, #144]
	ldr	w5, [sp, #140]
	ldr	x2, [sp, #120]
	ldr	w30, [sp, #24]
	ldr	x11, [sp, #104]
	ldr	x12, [sp, #88]
	ldr	x13, [sp, #72]
	cbz	x13, 618f
	tbnz	w26, #0, 618f
	sub	x9, x13, #1
	ldrb	w8, [x11, x9]
	cmp	w8, #10
	mov	x8, x13
	b.ne	521f
	sub	x8, x13, #1
	cbz	x9, 618f
521:
	mov	x9, xzr
	b	523f
522:
	add	x9, x9, #1
	cmp	x8, x9
	b.eq	578f
523:
	ldrb	w10, [x11, x9]
	cmp	w10, #48
	b.lo	618f
	cmp	w10, #58
	b.lo	522b
	cmp	w10, #65
	b.lo	618f
	cmp	w10, #71
	b.lo	522b
	sub	w10, w10, #97
	cmp	w10, #5
	b.ls	522b
	b	618f
524:
	ldr	x8, [sp, #272]
	cbz	x8, 586f
	ldr	x0, [sp, #352]
	vj_call	rattle_dealloc
	b	586f
525:
	mov	w27, #1
526:
	mov	w22, wzr
	and	w20, w27, #0x1
	b	547f
527:
	ldr	x3, [sp, #352]
	add	x1, sp, #384
	mov	x0, x23
	mov	x2, x25
	mov	x4, x21
	bl	b2sum_commands..seals..print_list..82a450bcca081e63_1_a64
	mov	w22, w0
	mov	w20, w1
	cbz	x21, 550f
	ldr	x8, [sp, #352]
	add	x19, x8, #16
	b	529f
528:
	subs	x21, x21, #1
	add	x19, x19, #24
	b.eq	550f
529:
	ldr	x8, [x19]
	cbz	x8, 528b
	ldur	x0, [x19, #-16]
	vj_call	rattle_dealloc
	b	528b
530:
	ldr	w8, [sp, #152]
	tbnz	w8, #0, 531f
	ldr	x0, [sp, #208]
	vj_call	rattle_dealloc
531:
	ldp	x20, x19, [sp, #256]
	ldr	x8, [sp, #288]
	cbz	x8, 532f
	ldr	x0, [sp, #344]
	vj_call	rattle_dealloc
532:
	ldr	w8, [sp, #232]
	cmp	w8, #1
	b.ne	533f
	ldr	x8, [sp, #248]
	cbz	x8, 533f
	ldr	x0, [sp, #176]
	vj_call	rattle_dealloc
533:
	ldr	x8, [sp, #216]
	cbz	x8, 534f
	ldr	x0, [sp, #224]
	vj_call	rattle_dealloc
534:
	cbz	x19, 535f
	ldr	x0, [sp, #184]
	vj_call	rattle_dealloc
535:
	cbz	x22, 538f
	ldr	x8, [sp, #304]
	add	x19, x8, #16
	b	537f
536:
	subs	x22, x22, #1
	add	x19, x19, #24
	b.eq	538f
537:
	ldr	x8, [x19]
	cbz	x8, 536b
	ldur	x0, [x19, #-16]
	vj_call	rattle_dealloc
	b	536b
538:
	cbz	x20, 539f
	ldr	x0, [sp, #304]
	vj_call	rattle_dealloc
539:
	ldr	w8, [sp, #280]
	cmp	w8, #1
	b.ne	540f
	ldr	x8, [sp, #240]
	cbz	x8, 540f
	ldr	x0, [sp, #200]
	vj_call	rattle_dealloc
540:
	cbz	x21, 543f
	ldr	x8, [sp, #352]
	add	x19, x8, #16
	b	542f
541:
	subs	x21, x21, #1
	add	x19, x19, #24
	b.eq	543f
542:
	ldr	x8, [x19]
	cbz	x8, 541b
	ldur	x0, [x19, #-16]
	vj_call	rattle_dealloc
	b	541b
543:
	ldr	x8, [sp, #272]
	cbz	x8, 545f
	ldr	x0, [sp, #352]
544:
	vj_call	rattle_dealloc
545:
	mov	w20, wzr
	mov	w22, wzr
	b	293b
546:
	mov	w22, #1
547:
	cbz	x21, 550f
	ldr	x8, [sp, #352]
	add	x19, x8, #16
	b	549f
548:
	subs	x21, x21, #1
	add	x19, x19, #24
	b.eq	550f
549:
	ldr	x8, [x19]
	cbz	x8, 548b
	ldur	x0, [x19, #-16]
	vj_call	rattle_dealloc
	b	548b
550:
	ldr	x8, [sp, #272]
	cbz	x8, 587f
551:
	ldr	x0, [sp, #352]
	vj_call	rattle_dealloc
	b	587f
552:
	ldr	x8, [sp, #904]
	ldr	x19, [sp, #912]
	ldr	x23, [sp, #960]
	ldr	x20, [sp, #936]
	str	x8, [sp, #280]
	ldr	x8, [sp, #920]
	str	x8, [sp, #304]
	ldr	x8, [sp, #928]
	str	x8, [sp, #288]
	ldr	x8, [sp, #952]
	str	x8, [sp, #344]
	ldr	x8, [sp, #944]
	str	x8, [sp, #312]
	ldr	x8, [sp, #968]
	str	x8, [sp, #336]
	ldrb	w8, [sp, #976]
	str	w8, [sp, #264]
	cbz	x23, 555f
	ldr	x8, [sp, #344]
	mov	x27, x23
	add	x24, x8, #8
553:
	movi	v0.2d, #0000000000000000
	ldp	x1, x2, [x24, #-8]
	add	x0, sp, #672
	stur	q0, [x28, #24]
	stur	q0, [x28, #8]
	bl	b2sum_commands..quoting..quoted_name_1_a64
	ldrb	w8, [sp, #672]
	cbnz	w8, 560f
	ldr	x8, [sp, #320]
	ldr	x22, [sp, #680]
	vj_page	x5, .L1_a64_static.123
	vj_address	x5, x5, .L1_a64_static.123
	ldr	x4, [sp, #688]
	ldr	x26, [sp, #696]
	ldp	x0, x1, [x8]
	vj_page	x7, .L1_a64_static.251
	vj_address	x7, x7, .L1_a64_static.251
	mov	w8, #21
	add	x2, x25, #224
	mov	x3, x22
	mov	w6, #2
	str	x8, [sp]
	bl	b2sum_commands..messages..warn..068f3e307c5390f2_1_a64
	mov	w25, w0
	cbz	x26, 554f
	mov	x0, x22
	vj_call	rattle_dealloc
554:
	and	w8, w25, #0xff
	tbnz	w8, #0, 560f
	ldr	x25, [sp, #328]
	subs	x27, x27, #1
	add	x24, x24, #24
	b.ne	553b
555:
	ldr	x8, [sp, #272]
	sub	x8, x8, x21
	cmp	x20, x8
	b.hi	635f
	ldr	x26, [sp, #288]
	cbz	x20, 581f
556:
	mov	w8, #24
	ldr	x9, [sp, #352]
	madd	x0, x21, x8, x9
	add	x8, x20, x20, lsl #1
	lsl	x2, x8, #3
	sub	x8, x0, x26
	cmp	x8, x2
	b.hs	579f
	mov	x8, x26
	mov	x9, x20
557:
	ldr	x10, [x8, #16]
	ldr	q0, [x8], #24
	subs	x9, x9, #1
	str	x10, [x0, #16]
	str	q0, [x0], #24
	b.ne	557b
	b	580f
558:
	add	x0, sp, #384
	bl	std_io..io..error..last_error_1_a64
	add	x8, sp, #137
	add	x9, sp, #896
	ldur	q0, [x8, #255]
	add	x8, sp, #201
	ldur	q1, [x8, #255]
	add	x8, sp, #185
	ldur	q2, [x8, #255]
	add	x8, sp, #153
	ldur	q3, [x8, #255]
	add	x8, sp, #169
	str	q1, [x25, #208]
	ldur	q4, [x8, #255]
	stp	q2, q1, [x9, #48]
	mov	w8, #1
	stp	q0, q3, [x9]
	str	q4, [x9, #32]
	ldr	x9, [sp, #384]
	stp	q0, q3, [x25, #144]
	stp	x8, x9, [x25, #128]
	stp	q4, q2, [x25, #176]
	b	475b
559:
	movi	v0.2d, #0000000000000000
	mov	w8, #1
	mov	w9, #5889
	str	x8, [x25, #128]
	strh	w9, [x25, #136]
	stur	q0, [x25, #138]
	stur	q0, [x25, #154]
	stur	q0, [x25, #170]
	stur	q0, [x25, #186]
	stur	q0, [x25, #202]
	str	xzr, [x25, #216]
	b	475b
560:
	ldp	x25, x24, [sp, #280]
	cbz	x19, 563f
	add	x22, x25, #16
	b	562f
561:
	subs	x19, x19, #1
	add	x22, x22, #24
	b.eq	563f
562:
	ldr	x8, [x22]
	cbz	x8, 561b
	ldur	x0, [x22, #-16]
	vj_call	rattle_dealloc
	b	561b
563:
	ldr	x8, [sp, #304]
	cbz	x8, 564f
	mov	x0, x25
	vj_call	rattle_dealloc
564:
	cbz	x20, 567f
	add	x19, x24, #16
	b	566f
565:
	subs	x20, x20, #1
	add	x19, x19, #24
	b.eq	567f
566:
	ldr	x8, [x19]
	cbz	x8, 565b
	ldur	x0, [x19, #-16]
	vj_call	rattle_dealloc
	b	565b
567:
	ldr	x8, [sp, #312]
	cbz	x8, 568f
	mov	x0, x24
	vj_call	rattle_dealloc
568:
	ldr	x8, [sp, #344]
	add	x19, x8, #16
	b	570f
569:
	subs	x23, x23, #1
	add	x19, x19, #24
	b.eq	571f
570:
	ldr	x8, [x19]
	cbz	x8, 569b
	ldur	x0, [x19, #-16]
	vj_call	rattle_dealloc
	b	569b
571:
	ldr	x8, [sp, #336]
	cbz	x8, 572f
	ldr	x0, [sp, #344]
	vj_call	rattle_dealloc
572:
	cbz	x21, 575f
	ldr	x8, [sp, #352]
	add	x19, x8, #16
	b	574f
573:
	subs	x21, x21, #1
	add	x19, x19, #24
	b.eq	575f
574:
	ldr	x8, [x19]
	cbz	x8, 573b
	ldur	x0, [x19, #-16]
	vj_call	rattle_dealloc
	b	573b
575:
	ldr	x8, [sp, #272]
	cbz	x8, 577f
	ldr	x0, [sp, #352]
576:
	vj_call	rattle_dealloc
577:
	mov	w20, wzr
	b	586f
578:
	movi	v0.2d, #0000000000000000
	ldr	x1, [sp, #208]
	add	x8, sp, #896
	add	x0, sp, #896
	stp	q0, q0, [x8]
	bl	b2sum_commands..quoting..quoted_name_1_a64
	ldrb	w8, [sp, #896]
	cbz	w8, 607f
	ldr	w17, [sp, #232]
	ldr	x11, [sp, #104]
	ldr	x12, [sp, #88]
	b	609f
579:
	mov	x1, x26
	vj_c_call	memmove
580:
	add	x21, x21, x20
	stur	x21, [x29, #-232]
581:
	ldr	w8, [sp, #264]
	tbz	w8, #0, 584f
	ldr	x0, [sp, #320]
	ldr	x3, [sp, #352]
	add	x1, sp, #384
	mov	x2, x25
	mov	x4, x21
	bl	b2sum_commands..seals..print_list..82a450bcca081e63_1_a64
	ldr	x25, [sp, #280]
	mov	w22, w0
	mov	w20, w1
	cbz	x19, 596f
	add	x24, x25, #16
	b	583f
582:
	subs	x19, x19, #1
	add	x24, x24, #24
	b.eq	596f
583:
	ldr	x8, [x24]
	cbz	x8, 582b
	ldur	x0, [x24, #-16]
	vj_call	rattle_dealloc
	b	582b
584:
	ldr	x0, [sp, #320]
	ldr	x3, [sp, #352]
	sub	x8, x29, #24
	add	x1, sp, #384
	add	x5, sp, #672
	mov	x2, x25
	mov	x4, x21
	str	xzr, [sp, #688]
	str	xzr, [sp, #680]
	str	x8, [sp, #672]
	bl	b2sum_commands..sums..print_lines..82a450bcca081e63_1_a64
	ldr	x8, [sp, #688]
	mov	w21, w0
	mov	w20, w1
	cbz	x8, 585f
	ldr	x0, [sp, #672]
	vj_call	rattle_dealloc
585:
	ldr	x8, [sp, #280]
	tst	w21, #0xff
	b.eq	606f
	str	x8, [sp, #800]
	ldr	x8, [sp, #304]
	add	x0, sp, #800
	str	x19, [sp, #808]
	str	x8, [sp, #816]
	bl	std_alloc..vec..Vec..drop..3374fb78d704bdda_1_a64
	ldr	x8, [sp, #312]
	add	x0, sp, #1072
	str	x26, [sp, #1072]
	str	xzr, [sp, #1080]
	str	x8, [sp, #1088]
	bl	std_alloc..vec..Vec..drop..3374fb78d704bdda_1_a64
	ldr	x8, [sp, #344]
	sub	x0, x29, #136
	stp	x8, x23, [x29, #-136]
	ldr	x8, [sp, #336]
	stur	x8, [x29, #-120]
	bl	std_alloc..vec..Vec..drop..3374fb78d704bdda_1_a64
	sub	x0, x29, #240
	bl	std_alloc..vec..Vec..drop..3374fb78d704bdda_1_a64
586:
	mov	w22, #1
587:
	ldr	x8, [sp, #424]
	cbz	x8, 588f
	ldr	x0, [sp, #408]
	vj_call	rattle_dealloc
588:
	ldrb	w8, [sp, #440]
	cmp	w8, #1
	b.ne	589f
	ldr	x8, [sp, #464]
	cbz	x8, 589f
	ldr	x0, [sp, #448]
	vj_call	rattle_dealloc
589:
	ldr	x8, [sp, #496]
	cbz	x8, 590f
	ldr	x0, [sp, #480]
	vj_call	rattle_dealloc
590:
	ldr	x8, [sp, #520]
	cbz	x8, 591f
	ldr	x0, [sp, #504]
	vj_call	rattle_dealloc
591:
	ldr	x21, [sp, #536]
	ldr	x19, [sp, #528]
	ldr	x23, [sp, #544]
	cbz	x21, 594f
	add	x24, x19, #16
	b	593f
592:
	subs	x21, x21, #1
	add	x24, x24, #24
	b.eq	594f
593:
	ldr	x8, [x24]
	cbz	x8, 592b
	ldur	x0, [x24, #-16]
	vj_call	rattle_dealloc
	b	592b
594:
	cbz	x23, 595f
	mov	x0, x19
	vj_call	rattle_dealloc
595:
	ldrb	w8, [sp, #552]
	cmp	w8, #1
	b.ne	293b
	ldr	x8, [sp, #576]
	cbz	x8, 293b
	ldr	x0, [sp, #560]
	vj_call	rattle_dealloc
	b	293b
596:
	ldr	x8, [sp, #304]
	cbz	x8, 597f
	mov	x0, x25
	vj_call	rattle_dealloc
597:
	ldr	x8, [sp, #312]
	cbz	x8, 598f
	mov	x0, x26
	vj_call	rattle_dealloc
598:
	cbz	x23, 601f
	ldr	x8, [sp, #344]
	add	x19, x8, #16
	b	600f
599:
	subs	x23, x23, #1
	add	x19, x19, #24
	b.eq	601f
600:
	ldr	x8, [x19]
	cbz	x8, 599b
	ldur	x0, [x19, #-16]
	vj_call	rattle_dealloc
	b	599b
601:
	ldr	x8, [sp, #336]
	cbz	x8, 602f
	ldr	x0, [sp, #344]
	vj_call	rattle_dealloc
602:
	ldur	x19, [x29, #-224]
	cbz	x21, 605f
	ldr	x8, [sp, #352]
	add	x23, x8, #16
	b	604f
603:
	subs	x21, x21, #1
	add	x23, x23, #24
	b.eq	605f
604:
	ldr	x8, [x23]
	cbz	x8, 603b
	ldur	x0, [x23, #-16]
	vj_call	rattle_dealloc
	b	603b
605:
	cbnz	x19, 551b
	b	587b
606:
	stp	x8, x19, [x29, #-48]
	ldr	x8, [sp, #304]
	sub	x0, x29, #48
	stur	x8, [x29, #-32]
	bl	std_alloc..vec..Vec..drop..3374fb78d704bdda_1_a64
	ldr	x8, [sp, #312]
	sub	x0, x29, #72
	stp	x26, xzr, [x29, #-72]
	stur	x8, [x29, #-56]
	bl	std_alloc..vec..Vec..drop..3374fb78d704bdda_1_a64
	ldr	x8, [sp, #344]
	sub	x0, x29, #96
	stp	x8, x23, [x29, #-96]
	ldr	x8, [sp, #336]
	stur	x8, [x29, #-80]
	bl	std_alloc..vec..Vec..drop..3374fb78d704bdda_1_a64
	sub	x0, x29, #240
	bl	std_alloc..vec..Vec..drop..3374fb78d704bdda_1_a64
	mov	w20, wzr
	mov	w22, wzr
	b	587b
607:
	ldr	x8, [sp, #320]
	ldr	x20, [sp, #904]
	mov	x9, x25
	ldr	x6, [sp, #912]
	ldr	x25, [sp, #920]
	vj_page	x3, .L1_a64_static.176
	vj_address	x3, x3, .L1_a64_static.176
	ldp	x0, x1, [x8]
	vj_page	x7, .L1_a64_static.175
	vj_address	x7, x7, .L1_a64_static.175
	mov	w8, #64
	add	x2, x9, #224
	mov	w4, #9
	mov	x5, x20
	str	x8, [sp]
	bl	b2sum_commands..messages..warn..068f3e307c5390f2_1_a64
	and	w23, w0, #0xff
	cbz	x25, 608f
	mov	x0, x20
	vj_call	rattle_dealloc
608:
	ldp	w20, w4, [sp, #132]
	ldr	x25, [sp, #328]
	ldr	w17, [sp, #232]
	ldr	x0, [sp, #144]
	ldr	w5, [sp, #140]
	ldr	w30, [sp, #24]
	ldr	x11, [sp, #104]
	ldr	x12, [sp, #88]
	ldr	x13, [sp, #72]
	tbz	w23, #0, 618f
609:
	ldp	x20, x19, [sp, #256]
	ldr	x23, [sp, #208]
	cbz	x12, 610f
	mov	x0, x11
	vj_call	rattle_dealloc
	ldr	w17, [sp, #232]
610:
	ldr	w8, [sp, #152]
	tbnz	w8, #0, 611f
	mov	x0, x23
	vj_call	rattle_dealloc
	ldr	w17, [sp, #232]
611:
	ldr	x8, [sp, #288]
	cbz	x8, 612f
	ldr	x0, [sp, #344]
	vj_call	rattle_dealloc
	ldr	w17, [sp, #232]
612:
	cmp	w17, #1
	b.ne	613f
	ldr	x8, [sp, #248]
	cbz	x8, 613f
	ldr	x0, [sp, #176]
	vj_call	rattle_dealloc
613:
	ldr	x8, [sp, #216]
	cbz	x8, 614f
	ldr	x0, [sp, #224]
	vj_call	rattle_dealloc
614:
	cbz	x19, 615f
	ldr	x0, [sp, #184]
	vj_call	rattle_dealloc
615:
	cbz	x22, 633f
	ldr	x8, [sp, #304]
	add	x19, x8, #16
	b	617f
616:
	subs	x22, x22, #1
	add	x19, x19, #24
	b.eq	633f
617:
	ldr	x8, [x19]
	cbz	x8, 616b
	ldur	x0, [x19, #-16]
	vj_call	rattle_dealloc
	b	616b
618:
	cmp	w17, #1
	b.eq	619f
	ldr	x23, [sp, #320]
	str	x13, [sp, #336]
	b	621f
619:
	ldr	x8, [sp, #192]
	vj_page	x9, .L1_a64_switch.table.b2sum_lines..writes..push_body_1_a64
	vj_address	x9, x9, .L1_a64_switch.table.b2sum_lines..writes..push_body_1_a64
	mov	w1, #1
	and	x8, x8, #0xff
	ldr	x20, [x9, x8, lsl #3]
	mov	x0, x20
	vj_call	rattle_alloc
	tbz	w0, #0, 624f
	mov	x23, x1
	sub	x2, x20, #1
	mov	x0, x1
	mov	w1, wzr
	vj_c_call	memset
	ldr	x0, [sp, #104]
	ldr	x1, [sp, #72]
	sub	x8, x20, #1
	ldr	x2, [sp, #176]
	ldr	x3, [sp, #144]
	mov	x4, x23
	mov	x5, x20
	strb	wzr, [x23, x8]
	bl	b2sum..hashes..derive_key_1_a64
	bl	blake2_digest..wiping..scrub_stack..8192_1_a64
	ldr	x8, [sp, #88]
	str	x20, [sp, #336]
	cbz	x8, 620f
	ldr	x0, [sp, #104]
	vj_call	rattle_dealloc
620:
	mov	x12, x20
	mov	x11, x23
	ldr	x23, [sp, #320]
	ldp	w20, w4, [sp, #132]
	ldr	w17, [sp, #232]
	ldr	x0, [sp, #144]
	ldr	w5, [sp, #140]
	ldr	w30, [sp, #24]
621:
	ldr	x8, [sp, #288]
	str	x11, [sp, #104]
	str	x12, [sp, #88]
	cbz	x8, 622f
	ldr	x0, [sp, #344]
	vj_call	rattle_dealloc
	ldp	w4, w5, [sp, #136]
	ldr	x12, [sp, #88]
	ldr	x11, [sp, #104]
	ldr	w30, [sp, #24]
	ldr	x0, [sp, #144]
	ldr	w17, [sp, #232]
622:
	ldr	w8, [sp, #152]
	tbnz	w8, #0, 623f
	ldr	x0, [sp, #208]
	vj_call	rattle_dealloc
	ldp	w4, w5, [sp, #136]
	ldr	x12, [sp, #88]
	ldr	x11, [sp, #104]
	ldr	w30, [sp, #24]
	ldr	x0, [sp, #144]
	ldr	w17, [sp, #232]
623:
	add	x9, sp, #124
	ldr	w8, [sp, #376]
	ldr	x15, [sp, #216]
	ldur	w9, [x9, #255]
	ldp	x16, x14, [sp, #176]
	ldp	x1, x2, [sp, #56]
	ldr	w3, [sp, #84]
	ldr	w6, [sp, #52]
	b	299b
624:
	ldr	x8, [sp, #88]
	cbz	x8, 625f
	ldr	x0, [sp, #104]
	vj_call	rattle_dealloc
625:
	ldp	x20, x19, [sp, #256]
	ldr	x0, [sp, #208]
	ldr	w8, [sp, #152]
	tbnz	w8, #0, 626f
	vj_call	rattle_dealloc
626:
	ldr	x8, [sp, #288]
	cbz	x8, 627f
	ldr	x0, [sp, #344]
	vj_call	rattle_dealloc
627:
	ldr	x8, [sp, #248]
	cbz	x8, 628f
	ldr	x0, [sp, #176]
	vj_call	rattle_dealloc
628:
	ldr	x8, [sp, #216]
	cbz	x8, 629f
	ldr	x0, [sp, #224]
	vj_call	rattle_dealloc
629:
	cbz	x19, 630f
	ldr	x0, [sp, #184]
	vj_call	rattle_dealloc
630:
	cbz	x22, 633f
	ldr	x8, [sp, #304]
	add	x19, x8, #16
	b	632f
631:
	subs	x22, x22, #1
	add	x19, x19, #24
	b.eq	633f
632:
	ldr	x8, [x19]
	cbz	x8, 631b
	ldur	x0, [x19, #-16]
	vj_call	rattle_dealloc
	b	631b
633:
	cbz	x20, 634f
	ldr	x0, [sp, #304]
	vj_call	rattle_dealloc
634:
	ldr	w8, [sp, #280]
	mov	w20, wzr
	cmp	w8, #1
	b.ne	516b
	ldr	x8, [sp, #240]
	cbz	x8, 516b
	ldr	x0, [sp, #200]
	vj_call	rattle_dealloc
	mov	w20, wzr
	b	516b
635:
	sub	x0, x29, #240
	mov	x1, x20
	bl	std_alloc..vec..Vec..grow_amortized..bb23d2d2a8e2d2e5_1_a64
	ldr	x26, [sp, #288]
	cbz	w0, 636f
	ldp	x8, x21, [x29, #-240]
	str	x8, [sp, #352]
	b	556b
636:
	ldr	x22, [sp, #280]
	cbz	x19, 639f
	add	x21, x22, #16
	b	638f
637:
	subs	x19, x19, #1
	add	x21, x21, #24
	b.eq	639f
638:
	ldr	x8, [x21]
	cbz	x8, 637b
	ldur	x0, [x21, #-16]
	vj_call	rattle_dealloc
	b	637b
639:
	ldr	x8, [sp, #304]
	cbz	x8, 640f
	mov	x0, x22
	vj_call	rattle_dealloc
640:
	add	x19, x26, #16
	b	642f
641:
	subs	x20, x20, #1
	add	x19, x19, #24
	b.eq	643f
642:
	ldr	x8, [x19]
	cbz	x8, 641b
	ldur	x0, [x19, #-16]
	vj_call	rattle_dealloc
	b	641b
643:
	ldr	x8, [sp, #312]
	cbz	x8, 644f
	mov	x0, x26
	vj_call	rattle_dealloc
644:
	cbz	x23, 647f
	ldr	x8, [sp, #344]
	add	x19, x8, #16
	b	646f
645:
	subs	x23, x23, #1
	add	x19, x19, #24
	b.eq	647f
646:
	ldr	x8, [x19]
	cbz	x8, 645b
	ldur	x0, [x19, #-16]
	vj_call	rattle_dealloc
	b	645b
647:
	ldr	x8, [sp, #336]
	cbz	x8, 648f
	ldr	x0, [sp, #344]
	vj_call	rattle_dealloc
648:
	ldp	x19, x20, [x29, #-240]
	ldur	x21, [x29, #-224]
	cbz	x20, 651f
	add	x22, x19, #16
	b	650f
649:
	subs	x20, x20, #1
	add	x22, x22, #24
	b.eq	651f
650:
	ldr	x8, [x22]
	cbz	x8, 649b
	ldur	x0, [x22, #-16]
	vj_call	rattle_dealloc
	b	649b
651:
	cbz	x21, 577b
	mov	x0, x19
	b	576b
652:
	ldr	w1, [sp, #168]
	cmp	w1, #1
	ldr	x1, [sp, #120]
	ccmp	x1, #1, #0, eq
	cset	w1, eq
	b.ne	655f
	cbz	x21, 655f
	ldr	x2, [sp, #208]
	ldrb	w2, [x2]
	cmp	w2, #45
	b.ne	655f
	ldr	x2, [sp, #352]
	mov	x4, x21
	add	x2, x2, #8
	b	654f
653:
	subs	x4, x4, #1
	add	x2, x2, #24
	b.eq	655f
654:
	ldr	x6, [x2]
	cmp	x6, #1
	b.ne	653b
	ldur	x6, [x2, #-8]
	ldrb	w6, [x6]
	cmp	w6, #45
	b.ne	653b
	vj_page	x1, .L1_a64_static.111
	vj_address	x1, x1, .L1_a64_static.111
	mov	w2, #51
	b	269b
655:
	and	x2, x20, #0xff
	vj_page	x4, .L1_a64_switch.table.b2sum_lines..writes..push_body_1_a64
	vj_address	x4, x4, .L1_a64_switch.table.b2sum_lines..writes..push_body_1_a64
	ldr	x4, [x4, x2, lsl #3]
	ldr	w2, [sp, #344]
	lsr	x6, x9, #3
	cmp	w2, #1
	cset	w2, eq
	csel	w28, w10, w19, eq
	cmp	x4, x6
	csel	x10, x4, x6, lo
	cmp	x9, #0
	csel	x9, x4, x10, eq
	ldr	w10, [sp, #168]
	str	x9, [sp, #312]
	cset	w9, ne
	cmp	w10, #1
	csinc	w27, w9, wzr, ne
	tbz	w1, #0, 656f
	ldr	x9, [sp, #208]
	ldrb	w9, [x9]
	cmp	w9, #45
	cset	w9, eq
	str	x9, [sp, #16]
	b	657f
656:
	str	xzr, [sp, #16]
657:
	ldr	w9, [sp, #168]
	cmp	w9, #1
	ldr	x9, [sp, #56]
	cset	w10, eq
	orr	x9, x9, x24
	stp	wzr, w10, [sp, #40]
	mov	w10, #2
	cmp	x9, #0
	cset	w9, ne
	str	w9, [sp, #192]
	ldr	x9, [sp, #72]
	cmp	x9, #0
	cset	w9, ne
	tst	w5, #0x1
	str	w9, [sp, #36]
	and	w9, w8, #0x1
	csel	w8, w10, w9, ne
	str	w8, [sp, #32]
	ldr	w8, [sp, #344]
	cmp	w8, #1
	ldr	w8, [sp, #288]
	orr	w19, w2, w8
	b.eq	659f
	ldr	w8, [sp, #192]
	str	w8, [sp, #48]
	tbnz	w0, #0, 660f
	cmp	w17, #0
	mov	w8, #1
	stp	wzr, wzr, [sp, #44]
	cinc	w8, w8, ne
	cmp	w16, #1
	csinc	w8, w8, wzr, eq
	stp	wzr, w8, [sp, #36]
	b	660f
658:
	ldr	x8, [sp, #808]
	ldr	x27, [sp, #816]
	mov	x20, xzr
	str	xzr, [sp, #288]
	mov	w26, wzr
	str	x8, [sp, #312]
	ldr	x8, [sp, #824]
	str	xzr, [sp, #112]
	str	x8, [sp, #344]
	mov	w8, #2
	str	x8, [sp, #192]
	ldp	x23, x25, [sp, #320]
	add	x28, sp, #664
	cbnz	x21, 212b
	b	274b
659:
	ldr	w8, [sp, #192]
	str	w8, [sp, #48]
660:
	ldr	w8, [sp, #168]
	orr	w25, w15, w14
	cmp	w8, #1
	cset	w8, eq
	cmp	w12, #1
	orr	w23, w8, w13
	csel	w8, w11, wzr, eq
	str	w8, [sp, #28]
	cbz	x24, 662f
	ldr	x8, [sp, #264]
	cbz	x8, 661f
	ldr	x0, [sp, #184]
	vj_call	rattle_dealloc
661:
	ldr	x8, [sp, #96]
	str	x24, [sp, #56]
	str	x8, [sp, #184]
	ldr	x8, [sp, #160]
	str	x8, [sp, #264]
	b	663f
662:
	ldr	x8, [sp, #160]
	cbz	x8, 663f
	ldr	x0, [sp, #96]
	vj_call	rattle_dealloc
663:
	and	w8, w23, #0x1
	and	x19, x19, #0x1
	str	w8, [sp, #160]
	and	w8, w25, #0x1
	str	w8, [sp, #96]
	ldr	x8, [sp, #336]
	cbz	x8, 664f
	ldr	x0, [sp, #152]
	vj_call	rattle_dealloc
664:
	ldr	w10, [sp, #344]
	and	x8, x20, #0xff
	ldr	x24, [sp, #72]
	ldr	w12, [sp, #168]
	mov	w11, #65536
	ldr	x15, [sp, #216]
	cmp	w10, #1
	mov	w10, #4
	ldr	w17, [sp, #232]
	csel	x8, x10, x8, eq
	ldr	w10, [sp, #192]
	ldr	x0, [sp, #144]
	orr	x8, x8, x28, lsl #32
	ldp	x23, x25, [sp, #320]
	cmp	w10, #0
	mov	w10, #16777216
	ldr	w3, [sp, #84]
	csel	x10, x10, xzr, ne
	cmp	x24, #0
	str	x8, [sp, #192]
	csel	x11, x11, xzr, ne
	cmp	w12, #1
	mov	w12, #256
	csel	x12, x12, xzr, eq
	ldr	x8, [sp, #104]
	ldr	w5, [sp, #140]
	orr	x11, x11, x12
	ldr	x12, [sp, #16]
	ldr	w6, [sp, #52]
	cmp	x8, #0
	ldp	x16, x14, [sp, #176]
	orr	x11, x11, x12
	ldp	x1, x2, [sp, #56]
	orr	x8, x11, x10
	ldr	x7, [sp, #120]
	ldr	w30, [sp, #24]
	str	x8, [sp, #168]
	cset	w8, eq
	mov	x9, xzr
	ldp	w20, w4, [sp, #132]
	str	w8, [sp, #152]
	sub	x8, x29, #24
	sub	x13, x29, #240
	stp	xzr, x8, [sp, #336]
	mov	w8, #1
	add	x28, sp, #664
	str	xzr, [sp, #288]
	str	xzr, [sp, #112]
	stur	wzr, [x13, #195]
	stur	wzr, [x29, #-48]
	b	287b
	vj_end	b2sum_commands..program..run_words..82a450bcca081e63_1_a64

	vj_data	b2sum_commands..program..run_words..82a450bcca081e63_1_a64
	.p2align	1, 0x0
.L1_a64_JTI3_0:
	.short	(58b-3b)>>2
	.short	(78b-3b)>>2
	.short	(77b-3b)>>2
	.short	(71b-3b)>>2
	.short	(3b-3b)>>2
	.short	(73b-3b)>>2
	.short	(3b-3b)>>2
	.short	(69b-3b)>>2
	.short	(75b-3b)>>2
	.short	(68b-3b)>>2
	.short	(74b-3b)>>2
	.short	(66b-3b)>>2
	.short	(67b-3b)>>2
	.short	(72b-3b)>>2
	.short	(80b-3b)>>2
	.short	(70b-3b)>>2
	.short	(83b-3b)>>2
	.short	(79b-3b)>>2
	.short	(82b-3b)>>2
	.short	(81b-3b)>>2

	vj_constants	16
	.p2align	4, 0x0
.L1_a64_CPI4_0:
	.byte	1
	.byte	2
	.byte	4
	.byte	8
	.byte	16
	.byte	32
	.byte	64
	.byte	128
	.byte	1
	.byte	2
	.byte	4
	.byte	8
	.byte	16
	.byte	32
	.byte	64
	.byte	128
	vj_function	core..cmp..slices..parts_equal..i8.31.core..cmp..numbers..U8PartialEq_1_a64
	cmp	x1, x3
	b.ne	1f
	stp	x29, x30, [sp, #-16]!
	cmp	x1, #3
	mov	x29, sp
	b.hi	2f
	cbz	x1, 4f
	lsr	x8, x1, #1
	ldrb	w9, [x0]
	ldrb	w10, [x2]
	sub	x11, x1, #1
	ldrb	w12, [x0, x8]
	ldrb	w8, [x2, x8]
	cmp	w9, w10
	ldrb	w9, [x0, x11]
	ldrb	w10, [x2, x11]
	ccmp	w12, w8, #0, eq
	ccmp	w9, w10, #0, eq
	cset	w0, ne
	eor	w0, w0, #0x1
	ldp	x29, x30, [sp], #16
	ret
1:
	mov	w0, wzr
	ret
2:
	cmp	x1, #8
	b.hi	3f
	sub	x8, x1, #4
	ldr	s0, [x0]
	ldr	s1, [x2]
	add	x9, x0, x8
	add	x8, x2, x8
	ld1	{ v0.s }[1], [x9]
	ld1	{ v1.s }[1], [x8]
	fmov	x8, d0
	fmov	x9, d1
	cmp	x8, x9
	cset	w0, ne
	eor	w0, w0, #0x1
	ldp	x29, x30, [sp], #16
	ret
3:
	subs	x8, x1, #32
	b.hi	5f
	mov	x8, x1
	mov	x1, x2
	mov	x2, x8
	bl	core..slice..scan..any_in_quarters..953750c03e87c3e2_1_a64
	eor	w0, w0, #0x1
	ldp	x29, x30, [sp], #16
	ret
4:
	eor	w0, wzr, #0x1
	ldp	x29, x30, [sp], #16
	ret
5:
	cmp	x1, #65
	b.hs	6f
	ldp	q1, q0, [x0]
	add	x9, x2, x8
	ldp	q3, q2, [x2]
	add	x8, x0, x8
	ldp	q4, q5, [x9]
	cmeq	v1.16b, v1.16b, v3.16b
	cmeq	v0.16b, v0.16b, v2.16b
	ldp	q2, q3, [x8]
	mvn	v1.16b, v1.16b
	mvn	v0.16b, v0.16b
	cmeq	v2.16b, v2.16b, v4.16b
	cmeq	v3.16b, v3.16b, v5.16b
	orn	v0.16b, v0.16b, v3.16b
	orn	v1.16b, v1.16b, v2.16b
	orr	v0.16b, v1.16b, v0.16b
	umaxv	b0, v0.16b
	fmov	w8, s0
	and	w0, w8, #0x1
	eor	w0, w0, #0x1
	ldp	x29, x30, [sp], #16
	ret
6:
	and	x9, x1, #0xffffffffffffffc0
	add	x10, x0, #32
	add	x12, x2, #32
	mov	w11, #32
	mov	x13, x1
7:
	ldp	q0, q3, [x12, #-32]
	ldp	q1, q2, [x10, #-32]
	ldp	q4, q5, [x12], #64
	cmeq	v0.16b, v1.16b, v0.16b
	cmeq	v1.16b, v2.16b, v3.16b
	ldp	q2, q3, [x10], #64
	mvn	v0.16b, v0.16b
	mvn	v1.16b, v1.16b
	cmeq	v2.16b, v2.16b, v4.16b
	cmeq	v3.16b, v3.16b, v5.16b
	orn	v0.16b, v0.16b, v2.16b
	orn	v1.16b, v1.16b, v3.16b
	orr	v0.16b, v1.16b, v0.16b
	umaxv	b0, v0.16b
	fmov	w14, s0
	tbnz	w14, #0, 8f
	sub	x13, x13, #64
	add	x11, x11, #64
	cmp	x13, #64
	b.hs	7b
	b	9f
8:
	sub	x9, x11, #32
9:
	sub	x10, x1, x9
	cmp	x10, #32
	b.lo	12f
	add	x11, x0, x9
	add	x9, x2, x9
10:
	ldp	q0, q1, [x11], #32
	ldp	q2, q3, [x9], #32
	vj_page	x12, .L1_a64_CPI4_0
	cmeq	v1.16b, v1.16b, v3.16b
	cmeq	v0.16b, v0.16b, v2.16b
	vj_load	q2, x12, .L1_a64_CPI4_0
	bic	v1.16b, v2.16b, v1.16b
	bic	v0.16b, v2.16b, v0.16b
	ext	v2.16b, v1.16b, v1.16b, #8
	ext	v3.16b, v0.16b, v0.16b, #8
	zip1	v1.16b, v1.16b, v2.16b
	zip1	v0.16b, v0.16b, v3.16b
	addv	h1, v1.8h
	addv	h0, v0.8h
	fmov	w12, s1
	fmov	w13, s0
	orr	w12, w13, w12
	tst	w12, #0xffff
	b.ne	11f
	sub	x10, x10, #32
	cmp	x10, #32
	b.hs	10b
	b	12f
11:
	cmp	x10, #31
	b.ls	12f
	mov	w0, #1
	eor	w0, w0, #0x1
	ldp	x29, x30, [sp], #16
	ret
12:
	add	x9, x0, x8
	add	x8, x2, x8
	ldp	q0, q3, [x8]
	ldp	q1, q2, [x9]
	cmeq	v0.16b, v1.16b, v0.16b
	cmeq	v1.16b, v2.16b, v3.16b
	mvn	v0.16b, v0.16b
	orn	v0.16b, v0.16b, v1.16b
	umaxv	b0, v0.16b
	fmov	w8, s0
	and	w0, w8, #0x1
	eor	w0, w0, #0x1
	ldp	x29, x30, [sp], #16
	ret
	vj_end	core..cmp..slices..parts_equal..i8.31.core..cmp..numbers..U8PartialEq_1_a64

	vj_function	core..slice..scan..any_in_quarters..953750c03e87c3e2_1_a64
	sub	x8, x2, #8
	mov	w9, #8
	ldr	d0, [x0]
	cmp	x8, #8
	ldr	d1, [x1]
	mov	w10, #16
	csel	x9, x8, x9, lo
	cmp	x8, #16
	ldr	d5, [x1, x8]
	ldr	d2, [x0, x9]
	ldr	d3, [x1, x9]
	csel	x9, x8, x10, lo
	ldr	d4, [x0, x9]
	mov	v0.d[1], v2.d[0]
	mov	v1.d[1], v3.d[0]
	ldr	d2, [x1, x9]
	ldr	d3, [x0, x8]
	mov	v2.d[1], v5.d[0]
	mov	v4.d[1], v3.d[0]
	cmeq	v0.16b, v0.16b, v1.16b
	cmeq	v1.16b, v4.16b, v2.16b
	mvn	v0.16b, v0.16b
	orn	v0.16b, v0.16b, v1.16b
	umaxv	b0, v0.16b
	fmov	w8, s0
	and	w0, w8, #0x1
	ret
	vj_end	core..slice..scan..any_in_quarters..953750c03e87c3e2_1_a64

	vj_constants	16
	.p2align	4, 0x0
.L1_a64_CPI6_0:
	.byte	1
	.byte	2
	.byte	4
	.byte	8
	.byte	16
	.byte	32
	.byte	64
	.byte	128
	.byte	1
	.byte	2
	.byte	4
	.byte	8
	.byte	16
	.byte	32
	.byte	64
	.byte	128
	vj_function	core..cmp..slices..groups_equal..i8.31.core..cmp..numbers..U8PartialEq_1_a64
	stp	x29, x30, [sp, #-16]!
	cmp	x1, #8
	mov	x29, sp
	b.hi	1f
	sub	x8, x1, #4
	ldr	s0, [x0]
	ldr	s1, [x2]
	add	x9, x0, x8
	add	x8, x2, x8
	ld1	{ v0.s }[1], [x9]
	ld1	{ v1.s }[1], [x8]
	fmov	x8, d0
	fmov	x9, d1
	cmp	x8, x9
	cset	w0, ne
	eor	w0, w0, #0x1
	ldp	x29, x30, [sp], #16
	ret
1:
	subs	x8, x1, #32
	b.hi	2f
	mov	x8, x1
	mov	x1, x2
	mov	x2, x8
	bl	core..slice..scan..any_in_quarters..953750c03e87c3e2_1_a64
	eor	w0, w0, #0x1
	ldp	x29, x30, [sp], #16
	ret
2:
	cmp	x1, #65
	b.hs	3f
	ldp	q1, q0, [x0]
	add	x9, x2, x8
	ldp	q3, q2, [x2]
	add	x8, x0, x8
	ldp	q4, q5, [x9]
	cmeq	v1.16b, v1.16b, v3.16b
	cmeq	v0.16b, v0.16b, v2.16b
	ldp	q2, q3, [x8]
	mvn	v1.16b, v1.16b
	mvn	v0.16b, v0.16b
	cmeq	v2.16b, v2.16b, v4.16b
	cmeq	v3.16b, v3.16b, v5.16b
	orn	v0.16b, v0.16b, v3.16b
	orn	v1.16b, v1.16b, v2.16b
	orr	v0.16b, v1.16b, v0.16b
	umaxv	b0, v0.16b
	fmov	w8, s0
	and	w0, w8, #0x1
	eor	w0, w0, #0x1
	ldp	x29, x30, [sp], #16
	ret
3:
	and	x9, x1, #0xffffffffffffffc0
	add	x10, x0, #32
	add	x12, x2, #32
	mov	w11, #32
	mov	x13, x1
4:
	ldp	q0, q3, [x12, #-32]
	ldp	q1, q2, [x10, #-32]
	ldp	q4, q5, [x12], #64
	cmeq	v0.16b, v1.16b, v0.16b
	cmeq	v1.16b, v2.16b, v3.16b
	ldp	q2, q3, [x10], #64
	mvn	v0.16b, v0.16b
	mvn	v1.16b, v1.16b
	cmeq	v2.16b, v2.16b, v4.16b
	cmeq	v3.16b, v3.16b, v5.16b
	orn	v0.16b, v0.16b, v2.16b
	orn	v1.16b, v1.16b, v3.16b
	orr	v0.16b, v1.16b, v0.16b
	umaxv	b0, v0.16b
	fmov	w14, s0
	tbnz	w14, #0, 5f
	sub	x13, x13, #64
	add	x11, x11, #64
	cmp	x13, #64
	b.hs	4b
	sub	x10, x1, x9
	cmp	x10, #32
	b.hs	6f
	b	9f
5:
	sub	x9, x11, #32
	sub	x10, x1, x9
	cmp	x10, #32
	b.lo	9f
6:
	add	x11, x0, x9
	add	x9, x2, x9
7:
	ldp	q0, q1, [x11], #32
	ldp	q2, q3, [x9], #32
	vj_page	x12, .L1_a64_CPI6_0
	cmeq	v1.16b, v1.16b, v3.16b
	cmeq	v0.16b, v0.16b, v2.16b
	vj_load	q2, x12, .L1_a64_CPI6_0
	bic	v1.16b, v2.16b, v1.16b
	bic	v0.16b, v2.16b, v0.16b
	ext	v2.16b, v1.16b, v1.16b, #8
	ext	v3.16b, v0.16b, v0.16b, #8
	zip1	v1.16b, v1.16b, v2.16b
	zip1	v0.16b, v0.16b, v3.16b
	addv	h1, v1.8h
	addv	h0, v0.8h
	fmov	w12, s1
	fmov	w13, s0
	orr	w12, w13, w12
	tst	w12, #0xffff
	b.ne	8f
	sub	x10, x10, #32
	cmp	x10, #32
	b.hs	7b
	b	9f
8:
	cmp	x10, #31
	b.ls	9f
	mov	w0, #1
	eor	w0, w0, #0x1
	ldp	x29, x30, [sp], #16
	ret
9:
	add	x9, x0, x8
	add	x8, x2, x8
	ldp	q0, q3, [x8]
	ldp	q1, q2, [x9]
	cmeq	v0.16b, v1.16b, v0.16b
	cmeq	v1.16b, v2.16b, v3.16b
	mvn	v0.16b, v0.16b
	orn	v0.16b, v0.16b, v1.16b
	umaxv	b0, v0.16b
	fmov	w8, s0
	and	w0, w8, #0x1
	eor	w0, w0, #0x1
	ldp	x29, x30, [sp], #16
	ret
	vj_end	core..cmp..slices..groups_equal..i8.31.core..cmp..numbers..U8PartialEq_1_a64

	vj_function	b2sum_commands..options..long_flag_1_a64
	sub	sp, sp, #256
	movi	v0.2d, #0000000000000000
	stp	x26, x25, [sp, #192]
	vj_page	x25, .L1_a64_static.6
	vj_address	x25, x25, .L1_a64_static.6
	stp	x24, x23, [sp, #208]
	mov	x23, x3
	stp	x22, x21, [sp, #224]
	mov	x22, x4
	mov	x21, x1
	stp	x20, x19, [sp, #240]
	mov	x20, x2
	mov	x19, x0
	mov	w26, #30
	stp	x29, x30, [sp, #160]
	add	x29, sp, #160
	stp	x28, x27, [sp, #176]
	stp	xzr, xzr, [sp, #16]
	str	xzr, [sp, #8]
	stp	q0, q0, [sp, #64]
	b	3f
1:
	cmp	x8, x20
	b.hs	39f
2:
	cbz	x26, 41f
3:
	ldrb	w24, [x25], #1
	vj_page	x10, .L1_a64_JTI7_0
	vj_address	x10, x10, .L1_a64_JTI7_0
	sub	x26, x26, #1
	vj_page	x0, .L1_a64_static.7
	vj_address	x0, x0, .L1_a64_static.7
	adr	x11, 4f
	ldrb	w12, [x10, x24]
	add	x11, x11, x12, lsl #2
	mov	w9, #9
	mov	w8, wzr
	ret	x11
4:
	mov	w8, wzr
	vj_page	x0, .L1_a64_static.8
	vj_address	x0, x0, .L1_a64_static.8
	mov	w9, #6
	cmp	x9, x20
	b.ne	2b
	b	35f
5:
	mov	w8, wzr
	vj_page	x0, .L1_a64_static.34
	vj_address	x0, x0, .L1_a64_static.34
	mov	w9, #4
	cmp	x9, x20
	b.ne	2b
	b	35f
6:
	mov	w8, wzr
	vj_page	x0, .L1_a64_static.23
	vj_address	x0, x0, .L1_a64_static.23
	mov	w9, #6
	cmp	x9, x20
	b.ne	2b
	b	35f
7:
	mov	w8, wzr
	vj_page	x0, .L1_a64_static.21
	vj_address	x0, x0, .L1_a64_static.21
	mov	w9, #9
	cmp	x9, x20
	b.ne	2b
	b	35f
8:
	mov	w8, wzr
	vj_page	x0, .L1_a64_static.18
	vj_address	x0, x0, .L1_a64_static.18
	mov	w9, #8
	cmp	x9, x20
	b.ne	2b
	b	35f
9:
	mov	w8, wzr
	vj_page	x0, .L1_a64_static.11
	vj_address	x0, x0, .L1_a64_static.11
	mov	w9, #10
	cmp	x9, x20
	b.ne	2b
	b	35f
10:
	vj_page	x0, .L1_a64_static.19
	vj_address	x0, x0, .L1_a64_static.19
	b	28f
11:
	mov	w8, wzr
	vj_page	x0, .L1_a64_static.16
	vj_address	x0, x0, .L1_a64_static.16
	b	33f
12:
	mov	w8, wzr
	vj_page	x0, .L1_a64_static.32
	vj_address	x0, x0, .L1_a64_static.32
	mov	w9, #4
	cmp	x9, x20
	b.ne	2b
	b	35f
13:
	mov	w8, wzr
	vj_page	x0, .L1_a64_static.31
	vj_address	x0, x0, .L1_a64_static.31
	mov	w9, #6
	cmp	x9, x20
	b.ne	2b
	b	35f
14:
	mov	w8, wzr
	vj_page	x0, .L1_a64_static.9
	vj_address	x0, x0, .L1_a64_static.9
	mov	w9, #8
	cmp	x9, x20
	b.ne	2b
	b	35f
15:
	mov	w8, wzr
	vj_page	x0, .L1_a64_static.22
	vj_address	x0, x0, .L1_a64_static.22
	mov	w9, #5
	cmp	x9, x20
	b.ne	2b
	b	35f
16:
	mov	w8, wzr
	vj_page	x0, .L1_a64_static.10
	vj_address	x0, x0, .L1_a64_static.10
	mov	w9, #12
	cmp	x9, x20
	b.ne	2b
	b	35f
17:
	mov	w8, wzr
	vj_page	x0, .L1_a64_static.14
	vj_address	x0, x0, .L1_a64_static.14
	mov	w9, #4
	cmp	x9, x20
	b.ne	2b
	b	35f
18:
	mov	w8, wzr
	vj_page	x0, .L1_a64_static.24
	vj_address	x0, x0, .L1_a64_static.24
	mov	w9, #14
	cmp	x9, x20
	b.ne	2b
	b	35f
19:
	mov	w8, wzr
	vj_page	x0, .L1_a64_static.27
	vj_address	x0, x0, .L1_a64_static.27
	mov	w9, #4
	cmp	x9, x20
	b.ne	2b
	b	35f
20:
	mov	w8, wzr
	vj_page	x0, .L1_a64_static.12
	vj_address	x0, x0, .L1_a64_static.12
	mov	w9, #8
	cmp	x9, x20
	b.ne	2b
	b	35f
21:
	mov	w8, wzr
	vj_page	x0, .L1_a64_static.28
	vj_address	x0, x0, .L1_a64_static.28
	mov	w9, #6
	cmp	x9, x20
	b.ne	2b
	b	35f
22:
	mov	w8, wzr
	vj_page	x0, .L1_a64_static.20
	vj_address	x0, x0, .L1_a64_static.20
	mov	w9, #12
	cmp	x9, x20
	b.ne	2b
	b	35f
23:
	mov	w8, wzr
	vj_page	x0, .L1_a64_static.13
	vj_address	x0, x0, .L1_a64_static.13
	mov	w9, #13
	cmp	x9, x20
	b.ne	2b
	b	35f
24:
	mov	w8, wzr
	vj_page	x0, .L1_a64_static.25
	vj_address	x0, x0, .L1_a64_static.25
	mov	w9, #5
	cmp	x9, x20
	b.ne	2b
	b	35f
25:
	mov	w8, wzr
	vj_page	x0, .L1_a64_static.17
	vj_address	x0, x0, .L1_a64_static.17
	mov	w9, #8
	cmp	x9, x20
	b.ne	2b
	b	35f
26:
	mov	w8, wzr
	vj_page	x0, .L1_a64_static.15
	vj_address	x0, x0, .L1_a64_static.15
	mov	w9, #4
	cmp	x9, x20
	b.ne	2b
	b	35f
27:
	vj_page	x0, .L1_a64_static.29
	vj_address	x0, x0, .L1_a64_static.29
28:
	mov	w8, #1
	mov	w9, #3
	cmp	x9, x20
	b.ne	2b
	b	35f
29:
	mov	w8, wzr
	vj_page	x0, .L1_a64_static.26
	vj_address	x0, x0, .L1_a64_static.26
	mov	w9, #6
	cmp	x9, x20
	b.ne	2b
	b	35f
30:
	mov	w8, wzr
	vj_page	x0, .L1_a64_static.30
	vj_address	x0, x0, .L1_a64_static.30
	mov	w9, #4
	cmp	x9, x20
	b.ne	2b
	b	35f
31:
	mov	w8, wzr
	vj_page	x0, .L1_a64_static.35
	vj_address	x0, x0, .L1_a64_static.35
	mov	w9, #4
	cmp	x9, x20
	b.ne	2b
	b	35f
32:
	mov	w8, wzr
	vj_page	x0, .L1_a64_static.36
	vj_address	x0, x0, .L1_a64_static.36
33:
	mov	w9, #7
34:
	cmp	x9, x20
	b.ne	2b
35:
	cbz	w8, 37f
	mov	x8, xzr
36:
	ldrb	w9, [x0, x8]
	ldrb	w10, [x21, x8]
	cmp	w9, w10
	b.ne	1b
	add	x8, x8, #1
	cmp	x20, x8
	b.ne	36b
	b	39f
37:
	ldr	w8, [x0]
	ldr	w9, [x21]
	cmp	w8, w9
	b.ne	2b
	mov	x1, x20
	mov	x2, x21
	bl	core..cmp..slices..groups_equal..i8.31.core..cmp..numbers..U8PartialEq_1_a64
	tbz	w0, #0, 2b
	b	39f
38:
	mov	w8, wzr
	vj_page	x0, .L1_a64_static.33
	vj_address	x0, x0, .L1_a64_static.33
	mov	w9, #6
	cmp	x9, x20
	b.ne	2b
	b	35b
39:
	mov	w8, #1
	and	w8, w8, #0xff
	cmp	w8, #1
	b.ne	42f
40:
	movi	v0.2d, #0000000000000000
	strb	wzr, [x19]
	strb	w24, [x19, #1]
	str	xzr, [x19, #56]
	stur	q0, [x19, #8]
	stur	q0, [x19, #24]
	stur	q0, [x19, #40]
	b	66f
41:
	mov	w24, wzr
	and	w8, wzr, #0xff
	cmp	w8, #1
	b.eq	40b
42:
	vj_page	x24, .L1_a64_static.6
	vj_address	x24, x24, .L1_a64_static.6
	str	x19, [sp]
	mov	x27, xzr
	mov	w8, #30
	mov	x19, x24
43:
	mov	w9, #1
	add	x19, x19, #1
	sub	x26, x9, x8
	b	45f
44:
	add	x26, x26, #1
	add	x19, x19, #1
	cmp	x26, #1
	b.eq	46f
45:
	ldurb	w8, [x19, #-1]
	vj_page	x25, .L1_a64_switch.table.b2sum_commands..options..long_flag.409_1_a64
	vj_address	x25, x25, .L1_a64_switch.table.b2sum_commands..options..long_flag.409_1_a64
	ldr	x9, [x25, x8, lsl #3]
	cmp	x9, x20
	b.lo	44b
	vj_page	x9, .L1_a64_switch.table.b2sum_commands..options..long_flag.410_1_a64
	vj_address	x9, x9, .L1_a64_switch.table.b2sum_commands..options..long_flag.410_1_a64
	mov	x0, x21
	ldr	x2, [x9, x8, lsl #3]
	mov	x1, x20
	mov	x3, x20
	bl	core..cmp..slices..parts_equal..i8.31.core..cmp..numbers..U8PartialEq_1_a64
	tbz	w0, #0, 44b
	add	x27, x27, #1
	neg	x8, x26
	cbnz	x26, 43b
46:
	mov	x28, xzr
	b	48f
47:
	add	x28, x28, #1
	cmp	x28, #30
	b.eq	49f
48:
	ldrb	w19, [x24, x28]
	ldr	x8, [x25, x19, lsl #3]
	cmp	x8, x20
	b.lo	47b
	vj_page	x26, .L1_a64_switch.table.b2sum_commands..options..long_flag.410_1_a64
	vj_address	x26, x26, .L1_a64_switch.table.b2sum_commands..options..long_flag.410_1_a64
	mov	x0, x21
	ldr	x2, [x26, x19, lsl #3]
	mov	x1, x20
	mov	x3, x20
	bl	core..cmp..slices..parts_equal..i8.31.core..cmp..numbers..U8PartialEq_1_a64
	tbz	w0, #0, 47b
	movi	v0.2d, #0000000000000000
	cmp	x27, #1
	b.ne	51f
	ldr	x8, [sp]
	strb	wzr, [x8]
	strb	w19, [x8, #1]
	stur	q0, [x8, #8]
	stur	q0, [x8, #24]
	stur	q0, [x8, #40]
	str	xzr, [x8, #56]
	b	66f
49:
	vj_page	x1, .L1_a64_static.4
	vj_address	x1, x1, .L1_a64_static.4
	vj_page	x5, .L1_a64_static.5
	vj_address	x5, x5, .L1_a64_static.5
	add	x0, sp, #64
	mov	w2, #23
	mov	x3, x23
	mov	x4, x22
	mov	w6, #1
	mov	w19, #1
	bl	b2sum_commands..options..joined_1_a64
	ldr	x11, [sp]
	ldrb	w9, [sp, #64]
	mov	x8, x11
	strh	w19, [x8], #16
	cbz	w9, 50f
	movi	v0.2d, #0000000000000000
	mov	w9, #4
	str	x9, [x11, #8]
	stp	q0, q0, [x8]
	str	q0, [x8, #32]
	b	66f
50:
	ldur	q0, [sp, #72]
	ldr	x10, [sp, #88]
	mov	w9, #2
	str	x9, [x11, #8]
	str	q0, [x8]
	str	x10, [x8, #16]
	stp	xzr, xzr, [x11, #48]
	str	xzr, [x11, #40]
	b	66f
51:
	vj_page	x1, .L1_a64_static.37
	vj_address	x1, x1, .L1_a64_static.37
	vj_page	x5, .L1_a64_static.38
	vj_address	x5, x5, .L1_a64_static.38
	sub	x0, x29, #64
	mov	w2, #10
	mov	x3, x23
	mov	x4, x22
	mov	w6, #30
	stp	q0, q0, [x29, #-64]
	bl	b2sum_commands..options..joined_1_a64
	ldurb	w8, [x29, #-64]
	ldr	x19, [sp]
	cbz	w8, 53f
52:
	movi	v0.2d, #0000000000000000
	mov	w8, #1
	mov	w9, #4
	strh	w8, [x19]
	str	x9, [x19, #8]
	stp	q0, q0, [x19, #16]
	str	q0, [x19, #48]
	b	66f
53:
	ldur	q0, [x29, #-56]
	ldur	x8, [x29, #-40]
	mov	x23, xzr
	stur	q0, [x29, #-32]
	stur	x8, [x29, #-16]
	b	58f
54:
	add	x0, x11, x19
	mov	x2, x22
	mov	x28, x11
	vj_c_call	memmove
	mov	x11, x28
55:
	add	x8, x19, x22
	cmp	x27, x8
	stp	x8, x27, [x29, #-24]
	b.eq	64f
56:
	add	x9, x8, #1
	mov	w10, #39
	strb	w10, [x11, x8]
	stp	x9, x27, [x29, #-24]
57:
	add	x23, x23, #1
	cmp	x23, #30
	b.eq	65f
58:
	ldrb	w28, [x24, x23]
	ldr	x8, [x25, x28, lsl #3]
	cmp	x8, x20
	b.lo	57b
	ldr	x2, [x26, x28, lsl #3]
	mov	x0, x21
	mov	x1, x20
	mov	x3, x20
	bl	core..cmp..slices..parts_equal..i8.31.core..cmp..numbers..U8PartialEq_1_a64
	cbz	w0, 57b
	ldp	x8, x27, [x29, #-24]
	sub	x9, x27, x8
	cmp	x9, #3
	b.ls	62f
59:
	ldur	x11, [x29, #-32]
	mov	w9, #10016
	add	x19, x8, #4
	movk	w9, #11565, lsl #16
	stp	x19, x27, [x29, #-24]
	str	w9, [x11, x8]
	sub	x8, x27, x19
	ldr	x22, [x25, x28, lsl #3]
	ldr	x1, [x26, x28, lsl #3]
	cmp	x22, x8
	b.hi	63f
	add	x8, x11, x19
	sub	x9, x8, x1
	cmp	x9, x22
	b.hs	54b
60:
	mov	x9, x22
61:
	ldrb	w10, [x1], #1
	subs	x9, x9, #1
	strb	w10, [x8], #1
	b.ne	61b
	b	55b
62:
	sub	x0, x29, #32
	mov	w1, #4
	bl	std_alloc..vec..Vec..grow_amortized..01eec35b572d02af_1_a64
	cbz	w0, 67f
	ldp	x8, x27, [x29, #-24]
	b	59b
63:
	mov	x28, x1
	sub	x0, x29, #32
	mov	x1, x22
	bl	std_alloc..vec..Vec..grow_amortized..01eec35b572d02af_1_a64
	cbz	w0, 67f
	ldp	x19, x27, [x29, #-24]
	mov	x1, x28
	ldur	x11, [x29, #-32]
	add	x8, x11, x19
	sub	x9, x8, x28
	cmp	x9, x22
	b.hs	54b
	b	60b
64:
	sub	x0, x29, #32
	mov	w1, #1
	bl	std_alloc..vec..Vec..grow_amortized..01eec35b572d02af_1_a64
	cbz	w0, 67f
	ldp	x8, x27, [x29, #-24]
	ldur	x11, [x29, #-32]
	b	56b
65:
	ldur	q0, [x29, #-31]
	ldur	x8, [x29, #-16]
	mov	w9, #1
	ldr	x10, [sp]
	str	q0, [sp, #32]
	stur	x8, [sp, #47]
	mov	w8, #2
	ldr	q0, [sp, #32]
	str	x8, [x10, #8]
	ldur	x8, [sp, #47]
	strh	w9, [x10]
	ldurb	w9, [x29, #-32]
	stur	q0, [x10, #17]
	ldur	q0, [sp, #8]
	str	x8, [x10, #32]
	ldr	x8, [sp, #24]
	strb	w9, [x10, #16]
	stur	q0, [x10, #40]
	str	x8, [x10, #56]
66:
	ldp	x20, x19, [sp, #240]
	ldp	x22, x21, [sp, #224]
	ldp	x24, x23, [sp, #208]
	ldp	x26, x25, [sp, #192]
	ldp	x28, x27, [sp, #176]
	ldp	x29, x30, [sp, #160]
	add	sp, sp, #256
	ret
67:
	ldur	x8, [x29, #-16]
	ldr	x19, [sp]
	cbz	x8, 52b
	ldur	x0, [x29, #-32]
	vj_call	rattle_dealloc
	b	52b
	vj_end	b2sum_commands..options..long_flag_1_a64

	vj_data	b2sum_commands..options..long_flag_1_a64
.L1_a64_JTI7_0:
	.byte	(34b-4b)>>2
	.byte	(4b-4b)>>2
	.byte	(14b-4b)>>2
	.byte	(16b-4b)>>2
	.byte	(9b-4b)>>2
	.byte	(20b-4b)>>2
	.byte	(23b-4b)>>2
	.byte	(17b-4b)>>2
	.byte	(26b-4b)>>2
	.byte	(11b-4b)>>2
	.byte	(25b-4b)>>2
	.byte	(8b-4b)>>2
	.byte	(10b-4b)>>2
	.byte	(22b-4b)>>2
	.byte	(7b-4b)>>2
	.byte	(15b-4b)>>2
	.byte	(6b-4b)>>2
	.byte	(18b-4b)>>2
	.byte	(24b-4b)>>2
	.byte	(29b-4b)>>2
	.byte	(19b-4b)>>2
	.byte	(21b-4b)>>2
	.byte	(27b-4b)>>2
	.byte	(30b-4b)>>2
	.byte	(13b-4b)>>2
	.byte	(12b-4b)>>2
	.byte	(38b-4b)>>2
	.byte	(5b-4b)>>2
	.byte	(31b-4b)>>2
	.byte	(32b-4b)>>2

	vj_function	b2sum_commands..options..joined_1_a64
	sub	sp, sp, #128
	stp	x29, x30, [sp, #32]
	add	x29, sp, #32
	stp	x26, x25, [sp, #64]
	add	x25, x29, #31
	stp	x24, x23, [sp, #80]
	mov	x23, x3
	stp	x22, x21, [sp, #96]
	mov	x21, x5
	mov	x22, x4
	stp	x20, x19, [sp, #112]
	mov	x20, x6
	mov	x19, x0
	str	x27, [sp, #48]
	stp	xzr, xzr, [sp, #16]
	str	x25, [sp, #8]
	cbnz	x2, 10f
	mov	x24, xzr
	mov	x8, xzr
	add	x0, x25, xzr
	add	x26, xzr, x2
	sub	x9, x0, x1
	cmp	x9, x2
	b.hs	11f
1:
	cmp	x2, #8
	b.lo	2f
	add	x9, x8, x25
	sub	x9, x9, x1
	cmp	x9, #32
	b.hs	5f
2:
	mov	x9, xzr
3:
	add	x10, x9, x8
	sub	x8, x2, x9
	add	x9, x1, x9
	add	x10, x25, x10
4:
	ldrb	w11, [x9], #1
	subs	x8, x8, #1
	strb	w11, [x10], #1
	b.ne	4b
	b	12f
5:
	cmp	x2, #32
	b.hs	6f
	mov	x9, xzr
	b	8f
6:
	add	x12, x8, x25
	and	x10, x2, #0x18
	and	x9, x2, #0xffffffffffffffe0
	add	x11, x1, #16
	add	x12, x12, #16
	and	x13, x2, #0xffffffffffffffe0
7:
	ldp	q0, q1, [x11, #-16]
	subs	x13, x13, #32
	add	x11, x11, #32
	stp	q0, q1, [x12, #-16]
	add	x12, x12, #32
	b.ne	7b
	cmp	x2, x9
	b.eq	12f
	cbz	x10, 3b
8:
	mov	x11, x9
	and	x9, x2, #0xfffffffffffffff8
	add	x12, x8, x11
	sub	x10, x11, x9
	add	x11, x1, x11
	add	x12, x25, x12
9:
	ldr	d0, [x11], #8
	adds	x10, x10, #8
	str	d0, [x12], #8
	b.ne	9b
	cmp	x2, x9
	b.eq	12f
	b	3b
10:
	mov	x26, x1
	add	x0, sp, #8
	mov	x1, x2
	mov	x27, x2
	bl	std_alloc..vec..Vec..grow_amortized..01eec35b572d02af_1_a64
	cbz	w0, 38f
	ldp	x8, x24, [sp, #16]
	mov	x2, x27
	ldr	x25, [sp, #8]
	mov	x1, x26
	add	x0, x25, x8
	add	x26, x8, x27
	sub	x9, x0, x1
	cmp	x9, x27
	b.lo	1b
11:
	vj_c_call	memmove
12:
	sub	x8, x24, x26
	stp	x26, x24, [sp, #16]
	cmp	x22, x8
	b.hi	22f
	add	x0, x25, x26
	add	x27, x26, x22
	sub	x8, x0, x23
	cmp	x8, x22
	b.hs	23f
13:
	cmp	x22, #8
	b.lo	14f
	add	x8, x26, x25
	sub	x8, x8, x23
	cmp	x8, #32
	b.hs	17f
14:
	mov	x8, xzr
15:
	add	x10, x8, x26
	sub	x9, x22, x8
	add	x8, x23, x8
	add	x10, x25, x10
16:
	ldrb	w11, [x8], #1
	subs	x9, x9, #1
	strb	w11, [x10], #1
	b.ne	16b
	b	24f
17:
	cmp	x22, #32
	b.hs	18f
	mov	x8, xzr
	b	20f
18:
	add	x11, x26, x25
	and	x9, x22, #0x18
	and	x8, x22, #0xffffffffffffffe0
	add	x10, x23, #16
	add	x11, x11, #16
	and	x12, x22, #0xffffffffffffffe0
19:
	ldp	q0, q1, [x10, #-16]
	subs	x12, x12, #32
	add	x10, x10, #32
	stp	q0, q1, [x11, #-16]
	add	x11, x11, #32
	b.ne	19b
	cmp	x22, x8
	b.eq	24f
	cbz	x9, 15b
20:
	mov	x10, x8
	and	x8, x22, #0xfffffffffffffff8
	add	x11, x26, x10
	sub	x9, x10, x8
	add	x10, x23, x10
	add	x11, x25, x11
21:
	ldr	d0, [x10], #8
	adds	x9, x9, #8
	str	d0, [x11], #8
	b.ne	21b
	cmp	x22, x8
	b.eq	24f
	b	15b
22:
	add	x0, sp, #8
	mov	x1, x22
	bl	std_alloc..vec..Vec..grow_amortized..01eec35b572d02af_1_a64
	cbz	w0, 38f
	ldp	x26, x24, [sp, #16]
	ldr	x25, [sp, #8]
	add	x0, x25, x26
	add	x27, x26, x22
	sub	x8, x0, x23
	cmp	x8, x22
	b.lo	13b
23:
	mov	x1, x23
	mov	x2, x22
	vj_c_call	memmove
24:
	sub	x8, x24, x27
	stp	x27, x24, [sp, #16]
	cmp	x20, x8
	b.hi	34f
	ldr	x8, [sp, #8]
	add	x22, x27, x20
	add	x0, x8, x27
	sub	x9, x0, x21
	cmp	x9, x20
	b.hs	35f
25:
	cmp	x20, #8
	b.lo	26f
	add	x9, x27, x8
	sub	x9, x9, x21
	cmp	x9, #32
	b.hs	29f
26:
	mov	x9, xzr
27:
	add	x11, x9, x27
	sub	x10, x20, x9
	add	x9, x21, x9
	add	x8, x8, x11
28:
	ldrb	w11, [x9], #1
	subs	x10, x10, #1
	strb	w11, [x8], #1
	b.ne	28b
	b	36f
29:
	cmp	x20, #32
	b.hs	30f
	mov	x9, xzr
	b	32f
30:
	add	x12, x27, x8
	and	x10, x20, #0x18
	and	x9, x20, #0xffffffffffffffe0
	add	x11, x21, #16
	add	x12, x12, #16
	and	x13, x20, #0xffffffffffffffe0
31:
	ldp	q0, q1, [x11, #-16]
	subs	x13, x13, #32
	add	x11, x11, #32
	stp	q0, q1, [x12, #-16]
	add	x12, x12, #32
	b.ne	31b
	cmp	x20, x9
	b.eq	36f
	cbz	x10, 27b
32:
	mov	x11, x9
	and	x9, x20, #0xfffffffffffffff8
	add	x12, x27, x11
	sub	x10, x11, x9
	add	x11, x21, x11
	add	x12, x8, x12
33:
	ldr	d0, [x11], #8
	adds	x10, x10, #8
	str	d0, [x12], #8
	b.ne	33b
	cmp	x20, x9
	b.eq	36f
	b	27b
34:
	add	x0, sp, #8
	mov	x1, x20
	bl	std_alloc..vec..Vec..grow_amortized..01eec35b572d02af_1_a64
	cbz	w0, 38f
	ldp	x27, x24, [sp, #16]
	ldr	x8, [sp, #8]
	add	x22, x27, x20
	add	x0, x8, x27
	sub	x9, x0, x21
	cmp	x9, x20
	b.lo	25b
35:
	mov	x1, x21
	mov	x2, x20
	vj_c_call	memmove
36:
	stp	x22, x24, [sp, #16]
	ldur	q0, [sp, #8]
	strb	wzr, [x19]
	str	x24, [x19, #24]
	stur	q0, [x19, #8]
37:
	ldp	x20, x19, [sp, #112]
	ldr	x27, [sp, #48]
	ldp	x22, x21, [sp, #96]
	ldp	x24, x23, [sp, #80]
	ldp	x26, x25, [sp, #64]
	ldp	x29, x30, [sp, #32]
	add	sp, sp, #128
	ret
38:
	ldr	x8, [sp, #24]
	cbz	x8, 39f
	ldr	x0, [sp, #8]
	vj_call	rattle_dealloc
39:
	mov	w8, #1
	stp	xzr, xzr, [x19, #16]
	strb	w8, [x19]
	str	xzr, [x19, #8]
	b	37b
	vj_end	b2sum_commands..options..joined_1_a64

	vj_function	b2sum_commands..options..take_value_1_a64
	stp	x29, x30, [sp, #-80]!
	stp	x28, x25, [sp, #16]
	mov	x29, sp
	stp	x24, x23, [sp, #32]
	stp	x22, x21, [sp, #48]
	stp	x20, x19, [sp, #64]
	sub	sp, sp, #544
	movi	v0.2d, #0000000000000000
	and	x8, x2, #0xff
	vj_page	x9, .L1_a64_JTI9_0
	vj_address	x9, x9, .L1_a64_JTI9_0
	stp	xzr, xzr, [x29, #-256]
	sub	x23, x29, #240
	stp	xzr, xzr, [sp, #272]
	mov	x19, x0
	stp	xzr, xzr, [sp, #256]
	stp	xzr, xzr, [sp, #240]
	stp	q0, q0, [sp, #128]
	stp	q0, q0, [sp, #176]
	stp	q0, q0, [sp, #208]
	stp	xzr, xzr, [sp, #160]
	stp	q0, q0, [sp, #96]
	stp	xzr, xzr, [sp, #80]
	stp	xzr, xzr, [sp, #64]
	stp	xzr, xzr, [sp, #48]
	stp	q0, q0, [sp, #16]
	adr	x10, 1f
	ldrb	w11, [x9, x8]
	add	x10, x10, x11, lsl #2
	ret	x10
1:
	movi	v0.2d, #0000000000000000
	ldur	q1, [x29, #-256]
	strb	wzr, [x19]
	str	xzr, [x19, #40]
	str	q1, [x19, #48]
	stur	q0, [x19, #8]
	stur	q0, [x19, #24]
	b	118f
2:
	mov	x20, x1
	vj_page	x1, .L1_a64_static.44
	vj_address	x1, x1, .L1_a64_static.44
	add	x0, sp, #96
	mov	w2, #14
	bl	b2sum_commands..values..bytes_of_1_a64
	ldrb	w9, [sp, #96]
	ldr	x8, [sp, #104]
	cbz	w9, 29f
	mov	w9, #1
	and	x8, x8, #0xff
	ldr	q0, [sp, #112]
	strb	w9, [x19]
	str	x8, [x19, #8]
	ldp	x8, x9, [sp, #128]
	str	q0, [x19, #16]
	ldr	q0, [sp, #144]
	b	26f
3:
	cbz	x4, 30f
	tbnz	x4, #63, 27f
	mov	x0, x4
	mov	x20, x1
	mov	w1, #1
	mov	x21, x4
	mov	x22, x3
	vj_call	rattle_alloc
	tbz	w0, #0, 27f
	sub	x10, x1, x22
	mov	x8, x22
	mov	x2, x21
	cmp	x10, x21
	b.hs	54f
	mov	x9, x20
	cmp	x2, #8
	mov	x10, xzr
	b.lo	98f
	sub	x11, x1, x8
	cmp	x11, #32
	b.lo	98f
	cmp	x2, #32
	b.hs	94f
	mov	x10, xzr
	b	96f
4:
	cbz	x4, 32f
	tbnz	x4, #63, 116f
	mov	x0, x4
	mov	x21, x1
	mov	w1, #1
	mov	x20, x4
	mov	x22, x3
	vj_call	rattle_alloc
	tbz	w0, #0, 116f
	mov	x3, x22
	mov	x4, x20
	mov	x20, x1
	mov	x1, x21
	b	33f
5:
	cbz	x4, 34f
	tbnz	x4, #63, 116f
	mov	x0, x4
	mov	x21, x1
	mov	w1, #1
	mov	x20, x4
	mov	x22, x3
	vj_call	rattle_alloc
	tbz	w0, #0, 116f
	mov	x3, x22
	mov	x4, x20
	mov	x20, x1
	mov	x1, x21
	b	35f
6:
	mov	x21, x1
	cmp	x4, #7
	stp	q0, q0, [x29, #-176]
	stp	q0, q0, [x29, #-64]
	b.eq	43f
	cmp	x4, #8
	b.ne	59f
	ldr	w8, [x3]
	mov	w9, #27746
	movk	w9, #27489, lsl #16
	cmp	w8, w9
	b.ne	59f
	vj_page	x2, .L1_a64_static.47
	vj_address	x2, x2, .L1_a64_static.47
	mov	x0, x3
	mov	w1, #8
	mov	x22, x4
	mov	x20, x3
	bl	core..cmp..slices..groups_equal..i8.31.core..cmp..numbers..U8PartialEq_1_a64
	tbz	w0, #0, 56f
	mov	w8, #2
	b	58f
7:
	cbz	x4, 36f
	tbnz	x4, #63, 28f
	mov	x0, x4
	mov	x20, x1
	mov	w1, #1
	mov	x21, x4
	mov	x22, x3
	vj_call	rattle_alloc
	tbz	w0, #0, 28f
	sub	x10, x1, x22
	mov	x8, x22
	mov	x2, x21
	cmp	x10, x21
	b.hs	55f
	mov	x9, x20
	cmp	x2, #8
	mov	x10, xzr
	b.lo	105f
	sub	x11, x1, x8
	cmp	x11, #32
	b.lo	105f
	cmp	x2, #32
	b.hs	101f
	mov	x10, xzr
	b	103f
8:
	stp	q0, q0, [x29, #-240]
	stp	q0, q0, [x29, #-176]
	cbz	x4, 11f
	mov	x11, xzr
	b	10f
9:
	add	x11, x11, #1
	cmp	x4, x11
	b.eq	11f
10:
	ldrb	w8, [x3, x11]
	sub	w9, w8, #9
	cmp	w9, #5
	b.lo	9b
	cmp	w8, #32
	b.eq	9b
	cmp	x4, x11
	b.eq	11f
	cmp	w8, #43
	cset	w10, eq
	csetm	x12, eq
	sub	x8, x4, x10
	cmp	x8, x11
	b.ne	109f
11:
	mov	x20, xzr
	vj_page	x21, .L1_a64_static.1
	vj_address	x21, x21, .L1_a64_static.1
	sub	x0, x29, #176
	mov	x1, x3
	mov	x2, x4
	bl	b2sum_commands..quoting..quoted_value_1_a64
	ldurb	w8, [x29, #-176]
	cbz	w8, 111f
12:
	movi	v1.2d, #0000000000000000
	mov	x8, xzr
	mov	x20, xzr
	mov	w9, #4
	stp	xzr, xzr, [sp, #48]
13:
	mov	w10, #1
	ldr	q0, [sp, #48]
	str	x9, [x19, #8]
	strb	w10, [x19]
	str	q1, [x19, #16]
	stp	x20, x8, [x19, #32]
	b	117f
14:
	mov	x20, x1
	vj_page	x1, .L1_a64_static.43
	vj_address	x1, x1, .L1_a64_static.43
	add	x0, sp, #176
	mov	w2, #25
	bl	b2sum_commands..values..bytes_of_1_a64
	ldrb	w9, [sp, #176]
	ldr	x8, [sp, #184]
	cbz	w9, 39f
	mov	w9, #1
	and	x8, x8, #0xff
	ldr	q0, [sp, #192]
	strb	w9, [x19]
	str	x8, [x19, #8]
	ldp	x8, x9, [sp, #208]
	str	q0, [x19, #16]
	ldr	q0, [sp, #224]
	b	26f
15:
	cbz	x4, 40f
	tbnz	x4, #63, 116f
	mov	x0, x4
	mov	x21, x1
	mov	w1, #1
	mov	x20, x4
	mov	x22, x3
	vj_call	rattle_alloc
	tbz	w0, #0, 116f
	mov	x3, x22
	mov	x4, x20
	mov	x20, x1
	mov	x1, x21
	b	41f
16:
	stp	q0, q0, [x29, #-96]
	cbz	x4, 42f
	mov	x24, x1
	sub	x0, x29, #96
	mov	x1, x3
	mov	x2, x4
	mov	x21, x3
	mov	x20, x4
	bl	hex..decode..1a9ba769f0efa4a8_1_a64
	ldurb	w8, [x29, #-96]
	cbz	w8, 47f
	ldurb	w8, [x29, #-88]
	cmp	w8, #3
	b.ne	49f
	movi	v1.2d, #0000000000000000
	mov	x8, xzr
	mov	x21, xzr
	mov	w20, #4
	stur	q1, [x29, #-112]
	b	50f
17:
	cbz	x4, 20f
	neg	x8, x4
	mov	x11, x3
	b	19f
18:
	adds	x8, x8, #1
	add	x11, x11, #1
	b.hs	20f
19:
	ldrb	w9, [x11]
	sub	w10, w9, #9
	cmp	w10, #5
	b.lo	18b
	cmp	w9, #32
	b.eq	18b
	cbz	x8, 20f
	cmp	w9, #43
	csetm	x9, eq
	cset	w12, eq
	subs	x10, x9, x8
	b.ne	90f
20:
	vj_page	x1, .L1_a64_static.57
	vj_address	x1, x1, .L1_a64_static.57
	vj_page	x5, .L1_a64_static.56
	vj_address	x5, x5, .L1_a64_static.56
	sub	x0, x29, #64
	mov	w2, #21
	mov	w6, #32
	bl	b2sum_commands..values..wrong_value_1_a64
	ldur	q0, [x23, #216]
	ldurb	w9, [x29, #-64]
	mov	w8, #1
	ldur	q1, [x23, #184]
	strb	w8, [x19]
	str	q0, [sp, #80]
	b	25f
21:
	cbz	x4, 24f
	neg	x8, x4
	mov	x11, x3
	b	23f
22:
	adds	x8, x8, #1
	add	x11, x11, #1
	b.hs	24f
23:
	ldrb	w9, [x11]
	sub	w10, w9, #9
	cmp	w10, #5
	b.lo	22b
	cmp	w9, #32
	b.eq	22b
	cbz	x8, 24f
	cmp	w9, #43
	csetm	x9, eq
	cset	w12, eq
	subs	x9, x9, x8
	b.ne	92f
24:
	vj_page	x1, .L1_a64_static.60
	vj_address	x1, x1, .L1_a64_static.60
	vj_page	x5, .L1_a64_static.59
	vj_address	x5, x5, .L1_a64_static.59
	sub	x0, x29, #64
	mov	w2, #27
	mov	w6, #61
	bl	b2sum_commands..values..wrong_value_1_a64
	ldur	q0, [x23, #216]
	mov	w8, #1
	ldurb	w9, [x29, #-64]
	ldur	q1, [x23, #184]
	strb	w8, [x19]
	str	q0, [sp, #64]
25:
	str	x9, [x19, #8]
	ldp	x8, x9, [x29, #-40]
	str	q1, [x19, #16]
26:
	stp	x8, x9, [x19, #32]
	b	117f
27:
	movi	v0.2d, #0000000000000000
	mov	x8, xzr
	mov	x9, xzr
	mov	w10, #4
	str	q0, [sp, #160]
	b	31f
28:
	movi	v0.2d, #0000000000000000
	mov	x8, xzr
	mov	x9, xzr
	mov	w10, #4
	str	q0, [sp, #256]
	b	37f
29:
	ldr	x9, [x20, #144]
	ldr	q0, [sp, #112]
	ldr	x0, [x20, #128]
	str	x8, [x20, #128]
	stur	q0, [x20, #136]
	cbnz	x9, 108f
	b	1b
30:
	vj_page	x1, .L1_a64_static.43
	vj_address	x1, x1, .L1_a64_static.43
	vj_page	x5, .L1_a64_static.54
	vj_address	x5, x5, .L1_a64_static.54
	sub	x0, x29, #64
	mov	w2, #25
	mov	w6, #22
	bl	b2sum_commands..values..wrong_value_1_a64
	ldur	q1, [x23, #216]
	ldp	x9, x8, [x29, #-40]
	ldurb	w10, [x29, #-64]
	ldur	q0, [x23, #184]
	str	q1, [sp, #160]
31:
	mov	w11, #1
	str	q0, [x19, #16]
	ldr	q0, [sp, #160]
	b	38f
32:
	sub	x20, x29, #1
33:
	sub	x9, x20, x3
	cmp	x9, x4
	b.hs	44f
	cmp	x4, #8
	mov	x8, xzr
	b.lo	69f
	cmp	x9, #32
	b.lo	69f
	cmp	x4, #32
	b.hs	65f
	mov	x8, xzr
	b	67f
34:
	sub	x20, x29, #1
35:
	sub	x9, x20, x3
	cmp	x9, x4
	b.hs	45f
	cmp	x4, #8
	mov	x8, xzr
	b.lo	77f
	cmp	x9, #32
	b.lo	77f
	cmp	x4, #32
	b.hs	73f
	mov	x8, xzr
	b	75f
36:
	vj_page	x1, .L1_a64_static.42
	vj_address	x1, x1, .L1_a64_static.42
	vj_page	x5, .L1_a64_static.54
	vj_address	x5, x5, .L1_a64_static.54
	sub	x0, x29, #64
	mov	w2, #17
	mov	w6, #22
	bl	b2sum_commands..values..wrong_value_1_a64
	ldur	q1, [x23, #216]
	ldp	x9, x8, [x29, #-40]
	ldurb	w10, [x29, #-64]
	ldur	q0, [x23, #184]
	str	q1, [sp, #256]
37:
	str	q0, [x19, #16]
	ldr	q0, [sp, #256]
	mov	w11, #1
38:
	str	x10, [x19, #8]
	strb	w11, [x19]
	stp	x9, x8, [x19, #32]
	b	117f
39:
	ldr	x9, [x20, #168]
	ldr	q0, [sp, #192]
	ldr	x0, [x20, #152]
	str	x8, [x20, #152]
	str	q0, [x20, #160]
	cbnz	x9, 108f
	b	1b
40:
	sub	x20, x29, #1
41:
	sub	x9, x20, x3
	cmp	x9, x4
	b.hs	46f
	cmp	x4, #8
	mov	x8, xzr
	b.lo	85f
	cmp	x9, #32
	b.lo	85f
	cmp	x4, #32
	b.hs	81f
	mov	x8, xzr
	b	83f
42:
	vj_page	x1, .L1_a64_static.50
	vj_address	x1, x1, .L1_a64_static.50
	vj_page	x5, .L1_a64_static.51
	vj_address	x5, x5, .L1_a64_static.51
	sub	x0, x29, #64
	mov	w2, #16
	mov	w6, #23
	bl	b2sum_commands..values..wrong_value_1_a64
	ldp	x21, x8, [x29, #-40]
	ldurb	w20, [x29, #-64]
	ldur	q0, [x23, #216]
	ldur	q1, [x23, #184]
	b	51f
43:
	ldr	w8, [x3]
	mov	w9, #27746
	movk	w9, #27489, lsl #16
	cmp	w8, w9
	b.ne	59f
	vj_page	x2, .L1_a64_static.45
	vj_address	x2, x2, .L1_a64_static.45
	mov	x0, x3
	mov	w1, #7
	mov	x22, x4
	mov	x20, x3
	bl	core..cmp..slices..groups_equal..i8.31.core..cmp..numbers..U8PartialEq_1_a64
	tbz	w0, #0, 57f
	mov	w8, wzr
	b	58f
44:
	mov	x0, x20
	mov	x21, x1
	mov	x1, x3
	mov	x2, x4
	mov	x22, x4
	vj_c_call	memmove
	mov	x1, x21
	mov	x4, x22
	b	71f
45:
	mov	x0, x20
	mov	x21, x1
	mov	x1, x3
	mov	x2, x4
	mov	x22, x4
	vj_c_call	memmove
	mov	x1, x21
	mov	x4, x22
	b	79f
46:
	mov	x0, x20
	mov	x21, x1
	mov	x1, x3
	mov	x2, x4
	mov	x22, x4
	vj_c_call	memmove
	mov	x1, x21
	mov	x4, x22
	b	87f
47:
	ldp	x22, x8, [x29, #-88]
	ldur	x25, [x29, #-72]
	cmp	x8, #65
	b.lo	52f
	vj_page	x1, .L1_a64_static.50
	vj_address	x1, x1, .L1_a64_static.50
	vj_page	x5, .L1_a64_static.52
	vj_address	x5, x5, .L1_a64_static.52
	sub	x0, x29, #176
	mov	w2, #16
	mov	x3, x21
	mov	x4, x20
	mov	w6, #29
	bl	b2sum_commands..values..wrong_value_1_a64
	ldurb	w20, [x29, #-176]
	ldur	q1, [x23, #72]
	ldur	x21, [x29, #-152]
	cbz	x25, 48f
	mov	x0, x22
	str	q1, [sp]
	vj_call	rattle_dealloc
	ldr	q1, [sp]
48:
	ldur	q0, [x23, #104]
	ldur	x8, [x29, #-144]
	b	51f
49:
	vj_page	x1, .L1_a64_static.50
	vj_address	x1, x1, .L1_a64_static.50
	vj_page	x5, .L1_a64_static.53
	vj_address	x5, x5, .L1_a64_static.53
	sub	x0, x29, #240
	mov	w2, #16
	mov	x3, x21
	mov	x4, x20
	mov	w6, #54
	bl	b2sum_commands..values..wrong_value_1_a64
	ldp	x21, x8, [x29, #-216]
	ldurb	w20, [x29, #-240]
	ldur	q0, [x23, #40]
	ldur	q1, [x23, #8]
	stur	q0, [x29, #-112]
50:
	ldur	q0, [x29, #-112]
51:
	str	q0, [sp, #240]
	mov	w9, #1
	mov	w10, w20
	ldr	q0, [sp, #240]
	strb	w9, [x19]
	str	x10, [x19, #8]
	str	q1, [x19, #16]
	stp	x21, x8, [x19, #32]
	b	117f
52:
	ldrb	w11, [x24, #224]
	ldr	x0, [x24, #232]
	mov	w20, #1
	ldr	x10, [x24, #248]
	mov	x9, x24
	stp	x20, x22, [x24, #224]
	cmp	w11, #1
	stp	x8, x25, [x24, #240]
	b.ne	53f
	cbz	x10, 53f
	vj_call	rattle_dealloc
	mov	x9, x24
53:
	strb	w20, [x9, #256]
	b	1b
54:
	mov	x0, x1
	mov	x22, x1
	mov	x1, x8
	vj_c_call	memmove
	mov	x1, x22
	mov	x9, x20
	mov	x2, x21
	b	100f
55:
	mov	x0, x1
	mov	x22, x1
	mov	x1, x8
	vj_c_call	memmove
	mov	x1, x22
	mov	x9, x20
	mov	x2, x21
	b	107f
56:
	vj_page	x2, .L1_a64_static.48
	vj_address	x2, x2, .L1_a64_static.48
	mov	x0, x20
	mov	w1, #8
	bl	core..cmp..slices..groups_equal..i8.31.core..cmp..numbers..U8PartialEq_1_a64
	mov	x3, x20
	mov	x4, x22
	tbz	w0, #0, 59f
	mov	w8, #3
	b	58f
57:
	vj_page	x2, .L1_a64_static.46
	vj_address	x2, x2, .L1_a64_static.46
	mov	x0, x20
	mov	w1, #7
	bl	core..cmp..slices..groups_equal..i8.31.core..cmp..numbers..U8PartialEq_1_a64
	mov	x3, x20
	mov	x4, x22
	tbz	w0, #0, 59f
	mov	w8, #1
58:
	stp	w8, wzr, [x21]
	mov	w8, #1
	strb	w8, [x21, #8]
	b	1b
59:
	sub	x0, x29, #64
	mov	x1, x3
	mov	x2, x4
	bl	b2sum_commands..quoting..quoted_value_1_a64
	ldurb	w8, [x29, #-64]
	cbz	w8, 62f
60:
	movi	v0.2d, #0000000000000000
	mov	x8, xzr
	mov	w9, #4
	str	q0, [sp, #272]
61:
	mov	w10, #1
	str	q0, [x19, #16]
	ldr	q0, [sp, #272]
	str	x9, [x19, #8]
	strb	w10, [x19]
	stp	x8, xzr, [x19, #32]
	b	117f
62:
	ldp	x20, x4, [x29, #-56]
	vj_page	x1, .L1_a64_static.49
	vj_address	x1, x1, .L1_a64_static.49
	ldur	x21, [x29, #-40]
	vj_page	x5, .L1_a64_static.1
	vj_address	x5, x5, .L1_a64_static.1
	sub	x0, x29, #176
	mov	w2, #19
	mov	x3, x20
	mov	x6, xzr
	bl	b2sum_commands..options..joined_1_a64
	ldurb	w8, [x29, #-176]
	cbz	w8, 63f
	cbz	x21, 60b
	mov	x0, x20
	vj_call	rattle_dealloc
	b	60b
63:
	cbz	x21, 64f
	mov	x0, x20
	vj_call	rattle_dealloc
64:
	ldur	q0, [x23, #72]
	ldur	x8, [x29, #-152]
	mov	w9, #2
	stp	xzr, xzr, [sp, #272]
	b	61b
65:
	and	x9, x4, #0x18
	and	x8, x4, #0xffffffffffffffe0
	add	x10, x3, #16
	add	x11, x20, #16
	and	x12, x4, #0xffffffffffffffe0
66:
	ldp	q0, q1, [x10, #-16]
	subs	x12, x12, #32
	add	x10, x10, #32
	stp	q0, q1, [x11, #-16]
	add	x11, x11, #32
	b.ne	66b
	cmp	x4, x8
	b.eq	71f
	cbz	x9, 69f
67:
	mov	x11, x8
	and	x8, x4, #0xfffffffffffffff8
	sub	x9, x11, x8
	add	x10, x3, x11
	add	x11, x20, x11
68:
	ldr	d0, [x10], #8
	adds	x9, x9, #8
	str	d0, [x11], #8
	b.ne	68b
	cmp	x4, x8
	b.eq	71f
69:
	sub	x9, x4, x8
	add	x10, x3, x8
	add	x8, x20, x8
70:
	ldrb	w11, [x10], #1
	subs	x9, x9, #1
	strb	w11, [x8], #1
	b.ne	70b
71:
	ldrb	w9, [x1, #56]
	ldr	x0, [x1, #64]
	mov	w21, #1
	ldr	x8, [x1, #80]
	stp	x21, x20, [x1, #56]
	cmp	w9, #1
	stp	x4, x4, [x1, #72]
	b.ne	72f
	cbz	x8, 72f
	mov	x20, x1
	vj_call	rattle_dealloc
	mov	x1, x20
72:
	strb	w21, [x1, #88]
	b	1b
73:
	and	x9, x4, #0x18
	and	x8, x4, #0xffffffffffffffe0
	add	x10, x3, #16
	add	x11, x20, #16
	and	x12, x4, #0xffffffffffffffe0
74:
	ldp	q0, q1, [x10, #-16]
	subs	x12, x12, #32
	add	x10, x10, #32
	stp	q0, q1, [x11, #-16]
	add	x11, x11, #32
	b.ne	74b
	cmp	x4, x8
	b.eq	79f
	cbz	x9, 77f
75:
	mov	x11, x8
	and	x8, x4, #0xfffffffffffffff8
	sub	x9, x11, x8
	add	x10, x3, x11
	add	x11, x20, x11
76:
	ldr	d0, [x10], #8
	adds	x9, x9, #8
	str	d0, [x11], #8
	b.ne	76b
	cmp	x4, x8
	b.eq	79f
77:
	sub	x9, x4, x8
	add	x10, x3, x8
	add	x8, x20, x8
78:
	ldrb	w11, [x10], #1
	subs	x9, x9, #1
	strb	w11, [x8], #1
	b.ne	78b
79:
	ldrb	w9, [x1, #56]
	ldr	x0, [x1, #64]
	mov	w21, #1
	ldr	x8, [x1, #80]
	stp	x21, x20, [x1, #56]
	cmp	w9, #1
	stp	x4, x4, [x1, #72]
	b.ne	80f
	cbz	x8, 80f
	mov	x20, x1
	vj_call	rattle_dealloc
	mov	x1, x20
80:
	strb	w21, [x1, #89]
	b	1b
81:
	and	x9, x4, #0x18
	and	x8, x4, #0xffffffffffffffe0
	add	x10, x3, #16
	add	x11, x20, #16
	and	x12, x4, #0xffffffffffffffe0
82:
	ldp	q0, q1, [x10, #-16]
	subs	x12, x12, #32
	add	x10, x10, #32
	stp	q0, q1, [x11, #-16]
	add	x11, x11, #32
	b.ne	82b
	cmp	x4, x8
	b.eq	87f
	cbz	x9, 85f
83:
	mov	x11, x8
	and	x8, x4, #0xfffffffffffffff8
	sub	x9, x11, x8
	add	x10, x3, x11
	add	x11, x20, x11
84:
	ldr	d0, [x10], #8
	adds	x9, x9, #8
	str	d0, [x11], #8
	b.ne	84b
	cmp	x4, x8
	b.eq	87f
85:
	sub	x9, x4, x8
	add	x10, x3, x8
	add	x8, x20, x8
86:
	ldrb	w11, [x10], #1
	subs	x9, x9, #1
	strb	w11, [x8], #1
	b.ne	86b
87:
	ldp	x8, x9, [x1, #208]
	cmp	x9, x8
	b.eq	89f
88:
	mov	w9, #24
	ldr	x10, [x1, #200]
	madd	x9, x8, x9, x10
	add	x8, x8, #1
	stp	x20, x4, [x9]
	str	x4, [x9, #16]
	str	x8, [x1, #208]
	b	1b
89:
	mov	x22, x1
	add	x0, x1, #200
	mov	w1, #1
	mov	x21, x4
	bl	std_alloc..vec..Vec..grow_amortized..bb23d2d2a8e2d2e5_1_a64
	cbz	w0, 115f
	ldr	x8, [x22, #208]
	mov	x1, x22
	mov	x4, x21
	b	88b
90:
	mov	x8, xzr
	mov	w9, wzr
	add	x11, x11, x12
91:
	ldrb	w12, [x11], #1
	sub	w13, w12, #58
	and	w13, w13, #0xff
	cmp	w13, #246
	b.lo	20b
	sub	w12, w12, #48
	mov	x14, #-3689348814741910324
	and	x12, x12, #0xff
	movk	x14, #52429
	mvn	x13, x12
	umulh	x13, x13, x14
	mov	w14, #10
	madd	x12, x8, x14, x12
	lsr	x13, x13, #3
	cmp	x13, x8
	cset	w13, lo
	csel	x8, x8, x12, lo
	subs	x10, x10, #1
	orr	w9, w13, w9
	b.ne	91b
	mov	x10, #-4294967296
	mov	x11, #-4294967295
	add	x10, x8, x10
	cmp	x10, x11
	cset	w10, lo
	orr	w9, w9, w10
	tbnz	w9, #0, 20b
	mov	w9, #1
	stp	w9, w8, [x1, #12]
	b	1b
92:
	mov	x8, xzr
	mov	w10, wzr
	add	x11, x11, x12
93:
	ldrb	w12, [x11], #1
	sub	w13, w12, #58
	and	w13, w13, #0xff
	cmp	w13, #246
	b.lo	24b
	sub	w12, w12, #48
	mov	x14, #-3689348814741910324
	and	x12, x12, #0xff
	movk	x14, #52429
	mvn	x13, x12
	umulh	x13, x13, x14
	mov	w14, #10
	madd	x12, x8, x14, x12
	lsr	x13, x13, #3
	cmp	x13, x8
	cset	w13, lo
	csel	x8, x8, x12, lo
	subs	x9, x9, #1
	orr	w10, w13, w10
	b.ne	93b
	tst	x8, #0xffffffff00000000
	cset	w9, ne
	orr	w9, w10, w9
	tbnz	w9, #0, 24b
	mov	w9, #1
	str	w8, [x1, #268]
	str	w9, [x1, #264]
	b	1b
94:
	and	x11, x2, #0x18
	and	x10, x2, #0x7fffffffffffffe0
	add	x12, x8, #16
	add	x13, x1, #16
	and	x14, x2, #0x7fffffffffffffe0
95:
	ldp	q0, q1, [x12, #-16]
	subs	x14, x14, #32
	add	x12, x12, #32
	stp	q0, q1, [x13, #-16]
	add	x13, x13, #32
	b.ne	95b
	cmp	x2, x10
	b.eq	100f
	cbz	x11, 98f
96:
	mov	x13, x10
	and	x10, x2, #0x7ffffffffffffff8
	sub	x11, x13, x10
	add	x12, x8, x13
	add	x13, x1, x13
97:
	ldr	d0, [x12], #8
	adds	x11, x11, #8
	str	d0, [x13], #8
	b.ne	97b
	cmp	x2, x10
	b.eq	100f
98:
	sub	x11, x2, x10
	add	x8, x8, x10
	add	x10, x1, x10
99:
	ldrb	w12, [x8], #1
	subs	x11, x11, #1
	strb	w12, [x10], #1
	b.ne	99b
100:
	ldr	x0, [x9, #176]
	ldr	x8, [x9, #192]
	stp	x1, x2, [x9, #176]
	str	x2, [x9, #192]
	cbnz	x8, 108f
	b	1b
101:
	and	x11, x2, #0x18
	and	x10, x2, #0x7fffffffffffffe0
	add	x12, x8, #16
	add	x13, x1, #16
	and	x14, x2, #0x7fffffffffffffe0
102:
	ldp	q0, q1, [x12, #-16]
	subs	x14, x14, #32
	add	x12, x12, #32
	stp	q0, q1, [x13, #-16]
	add	x13, x13, #32
	b.ne	102b
	cmp	x2, x10
	b.eq	107f
	cbz	x11, 105f
103:
	mov	x13, x10
	and	x10, x2, #0x7ffffffffffffff8
	sub	x11, x13, x10
	add	x12, x8, x13
	add	x13, x1, x13
104:
	ldr	d0, [x12], #8
	adds	x11, x11, #8
	str	d0, [x13], #8
	b.ne	104b
	cmp	x2, x10
	b.eq	107f
105:
	sub	x11, x2, x10
	add	x8, x8, x10
	add	x10, x1, x10
106:
	ldrb	w12, [x8], #1
	subs	x11, x11, #1
	strb	w12, [x10], #1
	b.ne	106b
107:
	mov	w8, #1
	ldrb	w10, [x9, #96]
	ldr	x0, [x9, #104]
	stp	x8, x1, [x9, #96]
	ldr	x8, [x9, #120]
	cmp	w10, #1
	stp	x2, x2, [x9, #112]
	b.ne	1b
	cbz	x8, 1b
108:
	vj_call	rattle_dealloc
	b	1b
109:
	add	x12, x12, x4
	add	x13, x3, x10
	mov	x8, xzr
	mov	w9, wzr
	sub	x10, x12, x11
	add	x11, x13, x11
110:
	ldrb	w12, [x11], #1
	sub	w13, w12, #58
	and	w13, w13, #0xff
	cmp	w13, #246
	b.lo	11b
	sub	w12, w12, #48
	mov	x14, #-3689348814741910324
	and	x12, x12, #0xff
	movk	x14, #52429
	mvn	x13, x12
	umulh	x13, x13, x14
	mov	w14, #10
	madd	x12, x8, x14, x12
	lsr	x13, x13, #3
	cmp	x13, x8
	cset	w13, lo
	csel	x8, x8, x12, lo
	subs	x10, x10, #1
	orr	w9, w13, w9
	b.ne	110b
	tbz	w9, #0, 119f
	vj_page	x21, .L1_a64_static.58
	vj_address	x21, x21, .L1_a64_static.58
	mov	w20, #39
	sub	x0, x29, #176
	mov	x1, x3
	mov	x2, x4
	bl	b2sum_commands..quoting..quoted_value_1_a64
	ldurb	w8, [x29, #-176]
	cbnz	w8, 12b
111:
	ldp	x22, x4, [x29, #-168]
	vj_page	x1, .L1_a64_static.61
	vj_address	x1, x1, .L1_a64_static.61
	ldur	x24, [x29, #-152]
	sub	x0, x29, #240
	mov	w2, #16
	mov	x5, x21
	mov	x6, x20
	mov	x3, x22
	bl	b2sum_commands..options..joined_1_a64
	ldurb	w8, [x29, #-240]
	cbz	w8, 112f
	cbz	x24, 12b
	mov	x0, x22
	vj_call	rattle_dealloc
	b	12b
112:
	ldur	q1, [x23, #8]
	ldur	x20, [x29, #-216]
	stp	xzr, xzr, [x29, #-96]
	cbz	x24, 113f
	mov	x0, x22
	str	q1, [sp]
	vj_call	rattle_dealloc
	ldr	q1, [sp]
113:
	sub	x8, x29, #1
	mov	w9, #3
114:
	ldur	q0, [x29, #-96]
	str	q0, [sp, #48]
	b	13b
115:
	cbz	x21, 116f
	mov	x0, x20
	vj_call	rattle_dealloc
116:
	movi	v0.2d, #0000000000000000
	mov	w8, #1
	mov	w9, #4
	strb	w8, [x19]
	str	x9, [x19, #8]
	stp	q0, q0, [x19, #16]
117:
	str	q0, [x19, #48]
118:
	add	sp, sp, #544
	ldp	x20, x19, [sp, #64]
	ldp	x22, x21, [sp, #48]
	ldp	x24, x23, [sp, #32]
	ldp	x28, x25, [sp, #16]
	ldp	x29, x30, [sp], #80
	ret
119:
	tst	x8, #0x7
	b.eq	120f
	vj_page	x1, .L1_a64_static.61
	vj_address	x1, x1, .L1_a64_static.61
	vj_page	x5, .L1_a64_static.62
	vj_address	x5, x5, .L1_a64_static.62
	sub	x0, x29, #64
	mov	w2, #16
	mov	w6, #29
	bl	b2sum_commands..values..wrong_value_1_a64
	ldp	x20, x8, [x29, #-40]
	ldurb	w9, [x29, #-64]
	ldur	q0, [x23, #216]
	ldur	q1, [x23, #184]
	stur	q0, [x29, #-96]
	b	114b
120:
	mov	x20, x1
	str	x8, [x1, #24]
	add	x0, sp, #16
	mov	x1, x3
	mov	x2, x4
	bl	b2sum_commands..quoting..quoted_value_1_a64
	ldrb	w8, [sp, #16]
	cbnz	w8, 116b
	ldur	q0, [sp, #24]
	ldr	x8, [x20, #48]
	ldr	x9, [sp, #40]
	ldr	x0, [x20, #32]
	str	q0, [x20, #32]
	str	x9, [x20, #48]
	cbnz	x8, 108b
	b	1b
	vj_end	b2sum_commands..options..take_value_1_a64

	vj_data	b2sum_commands..options..take_value_1_a64
.L1_a64_JTI9_0:
	.byte	(6b-1b)>>2
	.byte	(8b-1b)>>2
	.byte	(4b-1b)>>2
	.byte	(5b-1b)>>2
	.byte	(7b-1b)>>2
	.byte	(14b-1b)>>2
	.byte	(3b-1b)>>2
	.byte	(2b-1b)>>2
	.byte	(17b-1b)>>2
	.byte	(21b-1b)>>2
	.byte	(1b-1b)>>2
	.byte	(1b-1b)>>2
	.byte	(1b-1b)>>2
	.byte	(1b-1b)>>2
	.byte	(15b-1b)>>2
	.byte	(1b-1b)>>2
	.byte	(16b-1b)>>2
	.byte	(1b-1b)>>2
	.byte	(1b-1b)>>2
	.byte	(1b-1b)>>2
	.byte	(1b-1b)>>2
	.byte	(1b-1b)>>2
	.byte	(1b-1b)>>2
	.byte	(1b-1b)>>2
	.byte	(1b-1b)>>2
	.byte	(1b-1b)>>2
	.byte	(1b-1b)>>2
	.byte	(1b-1b)>>2
	.byte	(1b-1b)>>2
	.byte	(1b-1b)>>2

	vj_function	hex..decode..1a9ba769f0efa4a8_1_a64
	stp	x29, x30, [sp, #-64]!
	str	x23, [sp, #16]
	mov	x29, sp
	stp	x22, x21, [sp, #32]
	stp	x20, x19, [sp, #48]
	tbnz	w2, #0, 2f
	cbz	x2, 3f
	lsr	x19, x2, #1
	mov	x20, x1
	mov	x21, x0
	mov	w1, #1
	mov	x22, x2
	mov	x0, x19
	vj_call	rattle_alloc
	tbz	w0, #0, 5f
	cmp	x22, #2
	b.ne	6f
	mov	x22, xzr
	add	x9, x22, #1
	strb	wzr, [x1, xzr]
	cmp	x19, x9
	b.eq	7f
1:
	mov	x19, xzr
	mov	w20, #2
	b	16f
2:
	mov	w8, #1
	stp	xzr, xzr, [x0, #16]
	stp	x8, x8, [x0]
	ldp	x20, x19, [sp, #48]
	ldr	x23, [sp, #16]
	ldp	x22, x21, [sp, #32]
	ldp	x29, x30, [sp], #64
	ret
3:
	mov	x19, xzr
	add	x1, x29, #31
4:
	stp	xzr, x1, [x0]
	stp	x19, x19, [x0, #16]
	ldp	x20, x19, [sp, #48]
	ldr	x23, [sp, #16]
	ldp	x22, x21, [sp, #32]
	ldp	x29, x30, [sp], #64
	ret
5:
	mov	w8, #1
	mov	w9, #3
	stp	xzr, xzr, [x21, #16]
	stp	x8, x9, [x21]
	ldp	x20, x19, [sp, #48]
	ldr	x23, [sp, #16]
	ldp	x22, x21, [sp, #32]
	ldp	x29, x30, [sp], #64
	ret
6:
	sub	x2, x19, #1
	mov	x0, x1
	mov	x23, x1
	mov	w1, wzr
	sub	x22, x19, #1
	vj_c_call	memset
	mov	x1, x23
	add	x9, x22, #1
	strb	wzr, [x23, x22]
	cmp	x19, x9
	b.ne	1b
7:
	mov	x8, xzr
	mov	x10, xzr
	mov	x0, x21
	b	10f
8:
	sub	w13, w11, #55
9:
	add	w11, w13, w12, lsl #4
	add	x20, x20, #2
	sub	x8, x8, #2
	strb	w11, [x1, x10]
	add	x10, x10, #1
	cmp	x9, x10
	b.eq	4b
10:
	ldrb	w13, [x20]
	subs	w12, w13, #48
	b.lo	13f
	ldrb	w11, [x20, #1]
	cmp	w13, #57
	b.ls	12f
	cmp	w13, #65
	b.lo	13f
	cmp	w13, #70
	b.hi	11f
	sub	w12, w13, #55
	b	12f
11:
	sub	w12, w13, #97
	cmp	w12, #5
	b.hi	13f
	sub	w12, w13, #87
12:
	subs	w13, w11, #48
	b.lo	14f
	cmp	w11, #57
	b.ls	9b
	cmp	w11, #65
	b.lo	14f
	cmp	w11, #70
	b.ls	8b
	sub	w13, w11, #97
	cmp	w13, #5
	b.hi	14f
	sub	w13, w11, #87
	b	9b
13:
	neg	x19, x8
	mov	w11, w13
	b	15f
14:
	mov	w9, #1
	sub	x19, x9, x8
15:
	lsl	x20, x11, #32
16:
	mov	x0, x1
	vj_call	rattle_dealloc
	mov	w8, #1
	stp	x19, xzr, [x21, #16]
	stp	x8, x20, [x21]
	ldp	x20, x19, [sp, #48]
	ldr	x23, [sp, #16]
	ldp	x22, x21, [sp, #32]
	ldp	x29, x30, [sp], #64
	ret
	vj_end	hex..decode..1a9ba769f0efa4a8_1_a64

	vj_function	b2sum_commands..values..wrong_value_1_a64
	sub	sp, sp, #176
	movi	v0.2d, #0000000000000000
	stp	x29, x30, [sp, #96]
	add	x29, sp, #96
	stp	x24, x23, [sp, #128]
	mov	x23, x2
	mov	x24, x1
	stp	x20, x19, [sp, #160]
	mov	x19, x0
	sub	x0, x29, #32
	mov	x1, x3
	mov	x2, x4
	stp	x26, x25, [sp, #112]
	stp	x22, x21, [sp, #144]
	mov	x21, x6
	mov	x22, x5
	stp	q0, q0, [x29, #-32]
	stp	q0, q0, [sp]
	stp	q0, q0, [sp, #32]
	bl	b2sum_commands..quoting..quoted_value_1_a64
	ldurb	w8, [x29, #-32]
	cbnz	w8, 2f
	ldp	x20, x4, [x29, #-24]
	vj_page	x5, .L1_a64_static.1
	vj_address	x5, x5, .L1_a64_static.1
	ldur	x25, [x29, #-8]
	add	x0, sp, #32
	mov	x1, x24
	mov	x2, x23
	mov	x6, xzr
	mov	x3, x20
	bl	b2sum_commands..options..joined_1_a64
	ldrb	w8, [sp, #32]
	cbz	w8, 4f
1:
	cbz	x25, 2f
	mov	x0, x20
	vj_call	rattle_dealloc
2:
	movi	v0.2d, #0000000000000000
	mov	w8, #4
	str	x8, [x19]
	stur	q0, [x19, #8]
	stur	q0, [x19, #24]
	stur	q0, [x19, #40]
3:
	ldp	x20, x19, [sp, #160]
	ldp	x22, x21, [sp, #144]
	ldp	x24, x23, [sp, #128]
	ldp	x26, x25, [sp, #112]
	ldp	x29, x30, [sp, #96]
	add	sp, sp, #176
	ret
4:
	ldp	x23, x26, [sp, #40]
	vj_page	x3, .L1_a64_static.1
	vj_address	x3, x3, .L1_a64_static.1
	ldr	x24, [sp, #56]
	mov	x0, sp
	mov	x1, x22
	mov	x2, x21
	mov	x4, xzr
	mov	x5, x3
	mov	x6, xzr
	mov	x21, sp
	bl	b2sum_commands..options..joined_1_a64
	ldrb	w8, [sp]
	cbz	w8, 5f
	cbz	x24, 1b
	mov	x0, x23
	vj_call	rattle_dealloc
	b	1b
5:
	orr	x21, x21, #0x8
	cbz	x25, 6f
	mov	x0, x20
	vj_call	rattle_dealloc
6:
	mov	w8, #3
	ldr	q0, [x21]
	stp	x26, x24, [x19, #16]
	stp	x8, x23, [x19]
	ldr	x8, [x21, #16]
	str	q0, [x19, #32]
	str	x8, [x19, #48]
	b	3b
	vj_end	b2sum_commands..values..wrong_value_1_a64

	vj_function	b2sum_commands..values..bytes_of_1_a64
	sub	sp, sp, #336
	movi	v0.2d, #0000000000000000
	stp	x29, x30, [sp, #240]
	add	x29, sp, #240
	stp	x20, x19, [sp, #320]
	mov	x19, x0
	str	x28, [sp, #256]
	stp	x26, x25, [sp, #272]
	stp	x24, x23, [sp, #288]
	stp	x22, x21, [sp, #304]
	stp	xzr, xzr, [sp, #120]
	stp	q0, q0, [x29, #-96]
	str	xzr, [sp, #112]
	cbz	x4, 1f
	mov	x25, x1
	mov	x26, x2
	sub	x0, x29, #96
	mov	x1, x3
	mov	x2, x4
	mov	x21, x4
	mov	x22, x3
	bl	hex..decode..1a9ba769f0efa4a8_1_a64
	ldurb	w23, [x29, #-96]
	cbz	x23, 2f
	ldurb	w8, [x29, #-88]
	cmp	w8, #3
	b.ne	6f
	mov	x8, xzr
	mov	x24, xzr
	mov	x9, xzr
	stp	xzr, xzr, [sp, #112]
	mov	w20, #4
	str	xzr, [sp, #128]
	b	8f
1:
	vj_page	x5, .L1_a64_static.51
	vj_address	x5, x5, .L1_a64_static.51
	sub	x0, x29, #56
	mov	w6, #23
	sub	x20, x29, #56
	bl	b2sum_commands..values..wrong_value_1_a64
	ldurb	w8, [x29, #-56]
	mov	w9, #1
	ldur	q0, [x20, #8]
	stp	x9, x8, [x19]
	ldur	x9, [x29, #-32]
	ldur	x8, [x29, #-8]
	str	q0, [x19, #16]
	ldr	q0, [x20, #32]
	b	9f
2:
	ldp	x20, x8, [x29, #-88]
	mov	x2, x26
	ldur	x24, [x29, #-72]
	mov	x1, x25
	cbz	x8, 4f
	mov	x9, xzr
3:
	ldrb	w10, [x20, x9]
	cbnz	w10, 7f
	add	x9, x9, #1
	cmp	x8, x9
	b.ne	3b
4:
	vj_page	x5, .L1_a64_static.55
	vj_address	x5, x5, .L1_a64_static.55
	add	x0, sp, #56
	mov	x3, x22
	mov	x4, x21
	mov	w6, #41
	add	x21, sp, #56
	bl	b2sum_commands..values..wrong_value_1_a64
	ldp	x25, x26, [sp, #64]
	ldrb	w23, [sp, #56]
	ldr	x22, [sp, #80]
	cbz	x24, 5f
	mov	x0, x20
	vj_call	rattle_dealloc
5:
	mov	w8, #1
	ldur	q0, [x21, #32]
	stp	x25, x26, [x19, #16]
	stp	x8, x23, [x19]
	ldur	x8, [x21, #48]
	str	x22, [x19, #32]
	b	10f
6:
	mov	x2, x26
	mov	x1, x25
	vj_page	x5, .L1_a64_static.53
	vj_address	x5, x5, .L1_a64_static.53
	mov	x0, sp
	mov	x3, x22
	mov	x4, x21
	mov	w6, #54
	bl	b2sum_commands..values..wrong_value_1_a64
	ldp	x8, x24, [sp, #8]
	ldr	q0, [sp, #32]
	ldrb	w20, [sp]
	ldr	x10, [sp, #48]
	ldr	x9, [sp, #24]
	str	q0, [sp, #112]
	str	x10, [sp, #128]
	b	8f
7:
	mov	x9, xzr
8:
	stp	x8, x24, [x19, #16]
	ldr	q0, [sp, #112]
	ldr	x8, [sp, #128]
	stp	x23, x20, [x19]
9:
	str	x9, [x19, #32]
10:
	stur	q0, [x19, #40]
	ldp	x22, x21, [sp, #304]
	str	x8, [x19, #56]
	ldr	x28, [sp, #256]
	ldp	x20, x19, [sp, #320]
	ldp	x24, x23, [sp, #288]
	ldp	x26, x25, [sp, #272]
	ldp	x29, x30, [sp, #240]
	add	sp, sp, #336
	ret
	vj_end	b2sum_commands..values..bytes_of_1_a64

	vj_function	b2sum_commands..quoting..quoted_value_1_a64
	sub	sp, sp, #80
	stp	x29, x30, [sp, #32]
	add	x29, sp, #32
	stp	x22, x21, [sp, #48]
	mov	x21, x1
	sub	x8, x29, #1
	stp	x20, x19, [sp, #64]
	mov	x19, x0
	mov	x0, sp
	mov	w1, #1
	mov	x20, x2
	stp	xzr, xzr, [sp, #8]
	str	x8, [sp]
	bl	std_alloc..vec..Vec..grow_amortized..01eec35b572d02af_1_a64
	cbz	w0, 15f
	ldp	x8, x9, [sp]
	mov	w10, #39
	strb	w10, [x8, x9]
	add	x8, x9, #1
	str	x8, [sp, #8]
	cbnz	x20, 3f
	ldr	x9, [sp, #16]
	cmp	x9, x8
	b.ne	13f
	b	14f
1:
	mov	x0, sp
	mov	w1, w22
	bl	b2sum_commands..quoting..push_escape_1_a64
	and	w8, w0, #0xff
	tbnz	w8, #0, 15f
2:
	subs	x20, x20, #1
	b.eq	12f
3:
	ldrb	w22, [x21], #1
	cmp	w22, #92
	b.eq	4f
	cmp	w22, #39
	b.ne	7f
4:
	ldp	x8, x9, [sp, #8]
	cmp	x9, x8
	b.eq	9f
5:
	ldr	x10, [sp]
	add	x11, x8, #1
	mov	w12, #92
	cmp	x9, x11
	str	x11, [sp, #8]
	strb	w12, [x10, x8]
	b.eq	10f
6:
	add	x8, x11, #1
	strb	w22, [x10, x11]
	str	x8, [sp, #8]
	b	2b
7:
	sub	w8, w22, #32
	cmp	w8, #94
	b.hi	1b
	ldp	x8, x9, [sp, #8]
	cmp	x9, x8
	b.eq	11f
8:
	ldr	x9, [sp]
	add	x10, x8, #1
	str	x10, [sp, #8]
	strb	w22, [x9, x8]
	b	2b
9:
	mov	x0, sp
	mov	w1, #1
	bl	std_alloc..vec..Vec..grow_amortized..01eec35b572d02af_1_a64
	cbz	w0, 15f
	ldp	x8, x9, [sp, #8]
	b	5b
10:
	mov	x0, sp
	mov	w1, #1
	bl	std_alloc..vec..Vec..grow_amortized..01eec35b572d02af_1_a64
	cbz	w0, 15f
	ldp	x10, x11, [sp]
	b	6b
11:
	mov	x0, sp
	mov	w1, #1
	bl	std_alloc..vec..Vec..grow_amortized..01eec35b572d02af_1_a64
	cbz	w0, 15f
	ldr	x8, [sp, #8]
	b	8b
12:
	ldp	x8, x9, [sp, #8]
	cmp	x9, x8
	b.eq	14f
13:
	add	x10, x8, #1
	ldr	x9, [sp]
	ldr	x11, [sp, #16]
	str	x10, [sp, #8]
	mov	w10, #39
	ldr	q0, [sp]
	strb	w10, [x9, x8]
	strb	wzr, [x19]
	str	x11, [x19, #24]
	stur	q0, [x19, #8]
	ldp	x20, x19, [sp, #64]
	ldp	x22, x21, [sp, #48]
	ldp	x29, x30, [sp, #32]
	add	sp, sp, #80
	ret
14:
	mov	x0, sp
	mov	w1, #1
	bl	std_alloc..vec..Vec..grow_amortized..01eec35b572d02af_1_a64
	cbz	w0, 15f
	ldr	x8, [sp, #8]
	b	13b
15:
	ldr	x8, [sp, #16]
	cbz	x8, 16f
	ldr	x0, [sp]
	vj_call	rattle_dealloc
16:
	mov	w8, #1
	stp	xzr, xzr, [x19, #16]
	strb	w8, [x19]
	str	xzr, [x19, #8]
	ldp	x20, x19, [sp, #64]
	ldp	x22, x21, [sp, #48]
	ldp	x29, x30, [sp, #32]
	add	sp, sp, #80
	ret
	vj_end	b2sum_commands..quoting..quoted_value_1_a64

	vj_function	b2sum_commands..quoting..push_escape_1_a64
	stp	x29, x30, [sp, #-48]!
	ldp	x10, x8, [x0, #8]
	mov	x29, sp
	str	x21, [sp, #16]
	stp	x20, x19, [sp, #32]
	cmp	x8, x10
	b.eq	19f
1:
	ldr	x11, [x0]
	and	w8, w1, #0xff
	add	x9, x10, #1
	cmp	w8, #9
	mov	w12, #92
	strb	w12, [x11, x10]
	str	x9, [x0, #8]
	b.le	3f
	cmp	w8, #11
	b.gt	5f
	cmp	w8, #10
	b.eq	12f
	cmp	w8, #11
	b.ne	9f
	ldr	x8, [x0, #16]
	cmp	x8, x9
	b.eq	25f
2:
	ldr	x8, [x0]
	mov	w19, wzr
	mov	w10, #118
	b	18f
3:
	cmp	w8, #7
	b.eq	7f
	cmp	w8, #8
	b.eq	16f
	cmp	w8, #9
	b.ne	9f
	ldr	x8, [x0, #16]
	cmp	x8, x9
	b.eq	27f
4:
	ldr	x8, [x0]
	mov	w19, wzr
	mov	w10, #116
	b	18f
5:
	cmp	w8, #12
	b.eq	14f
	cmp	w8, #13
	b.ne	9f
	ldr	x8, [x0, #16]
	cmp	x8, x9
	b.eq	26f
6:
	ldr	x8, [x0]
	mov	w19, wzr
	mov	w10, #114
	b	18f
7:
	ldr	x8, [x0, #16]
	cmp	x8, x9
	b.eq	21f
8:
	ldr	x8, [x0]
	mov	w19, wzr
	mov	w10, #97
	b	18f
9:
	ldr	x8, [x0, #16]
	cmp	x8, x9
	b.eq	22f
10:
	mov	w8, #48
	mov	w10, #48
	ldr	x11, [x0]
	bfxil	w8, w1, #3, #3
	bfxil	w10, w1, #6, #2
	add	x12, x9, #1
	mov	w20, w1
	strb	w10, [x11, x9]
	mov	x19, x0
	mov	w1, w8
	str	x12, [x0, #8]
	bl	std_alloc..vec..Vec..push..a891bc11159506cb_1_a64
	tst	w0, #0xff
	b.eq	20f
	mov	w19, #1
11:
	mov	w0, w19
	ldp	x20, x19, [sp, #32]
	ldr	x21, [sp, #16]
	ldp	x29, x30, [sp], #48
	ret
12:
	ldr	x8, [x0, #16]
	cmp	x8, x9
	b.eq	23f
13:
	ldr	x8, [x0]
	mov	w19, wzr
	mov	w10, #110
	b	18f
14:
	ldr	x8, [x0, #16]
	cmp	x8, x9
	b.eq	24f
15:
	ldr	x8, [x0]
	mov	w19, wzr
	mov	w10, #102
	b	18f
16:
	ldr	x8, [x0, #16]
	cmp	x8, x9
	b.eq	28f
17:
	ldr	x8, [x0]
	mov	w19, wzr
	mov	w10, #98
18:
	add	x11, x9, #1
	strb	w10, [x8, x9]
	str	x11, [x0, #8]
	mov	w0, w19
	ldp	x20, x19, [sp, #32]
	ldr	x21, [sp, #16]
	ldp	x29, x30, [sp], #48
	ret
19:
	mov	w20, w1
	mov	w1, #1
	mov	x21, x0
	mov	w19, #1
	bl	std_alloc..vec..Vec..grow_amortized..01eec35b572d02af_1_a64
	cbz	w0, 11b
	ldr	x10, [x21, #8]
	mov	x0, x21
	mov	w1, w20
	b	1b
20:
	mov	w1, #48
	mov	x0, x19
	bfxil	w1, w20, #0, #3
	bl	std_alloc..vec..Vec..push..a891bc11159506cb_1_a64
	tst	w0, #0xff
	cset	w19, ne
	mov	w0, w19
	ldp	x20, x19, [sp, #32]
	ldr	x21, [sp, #16]
	ldp	x29, x30, [sp], #48
	ret
21:
	mov	w1, #1
	mov	x20, x0
	mov	w19, #1
	bl	std_alloc..vec..Vec..grow_amortized..01eec35b572d02af_1_a64
	cbz	w0, 11b
	ldr	x9, [x20, #8]
	mov	x0, x20
	b	8b
22:
	mov	w20, w1
	mov	w1, #1
	mov	x21, x0
	mov	w19, #1
	bl	std_alloc..vec..Vec..grow_amortized..01eec35b572d02af_1_a64
	cbz	w0, 11b
	ldr	x9, [x21, #8]
	mov	x0, x21
	mov	w1, w20
	b	10b
23:
	mov	w1, #1
	mov	x20, x0
	mov	w19, #1
	bl	std_alloc..vec..Vec..grow_amortized..01eec35b572d02af_1_a64
	cbz	w0, 11b
	ldr	x9, [x20, #8]
	mov	x0, x20
	b	13b
24:
	mov	w1, #1
	mov	x20, x0
	mov	w19, #1
	bl	std_alloc..vec..Vec..grow_amortized..01eec35b572d02af_1_a64
	cbz	w0, 11b
	ldr	x9, [x20, #8]
	mov	x0, x20
	b	15b
25:
	mov	w1, #1
	mov	x20, x0
	mov	w19, #1
	bl	std_alloc..vec..Vec..grow_amortized..01eec35b572d02af_1_a64
	cbz	w0, 11b
	ldr	x9, [x20, #8]
	mov	x0, x20
	b	2b
26:
	mov	w1, #1
	mov	x20, x0
	mov	w19, #1
	bl	std_alloc..vec..Vec..grow_amortized..01eec35b572d02af_1_a64
	cbz	w0, 11b
	ldr	x9, [x20, #8]
	mov	x0, x20
	b	6b
27:
	mov	w1, #1
	mov	x20, x0
	mov	w19, #1
	bl	std_alloc..vec..Vec..grow_amortized..01eec35b572d02af_1_a64
	cbz	w0, 11b
	ldr	x9, [x20, #8]
	mov	x0, x20
	b	4b
28:
	mov	w1, #1
	mov	x20, x0
	mov	w19, #1
	bl	std_alloc..vec..Vec..grow_amortized..01eec35b572d02af_1_a64
	cbz	w0, 11b
	ldr	x9, [x20, #8]
	mov	x0, x20
	b	17b
	vj_end	b2sum_commands..quoting..push_escape_1_a64

	vj_function	std_alloc..vec..Vec..push..a891bc11159506cb_1_a64
	stp	x29, x30, [sp, #-48]!
	ldp	x8, x9, [x0, #8]
	mov	x29, sp
	str	x21, [sp, #16]
	stp	x20, x19, [sp, #32]
	cmp	x9, x8
	b.eq	3f
1:
	ldr	x9, [x0]
	mov	w19, wzr
	add	x10, x8, #1
	strb	w1, [x9, x8]
	str	x10, [x0, #8]
2:
	mov	w0, w19
	ldp	x20, x19, [sp, #32]
	ldr	x21, [sp, #16]
	ldp	x29, x30, [sp], #48
	ret
3:
	mov	w20, w1
	mov	w1, #1
	mov	x21, x0
	mov	w19, #1
	bl	std_alloc..vec..Vec..grow_amortized..01eec35b572d02af_1_a64
	cbz	w0, 2b
	ldr	x8, [x21, #8]
	mov	x0, x21
	mov	w1, w20
	b	1b
	vj_end	std_alloc..vec..Vec..push..a891bc11159506cb_1_a64

	vj_cold	std_alloc..vec..Vec..grow_amortized..bb23d2d2a8e2d2e5_1_a64
	ldr	x8, [x0, #8]
	cmn	x8, x1
	b.lo	1f
	mov	w0, wzr
	ret
1:
	stp	x29, x30, [sp, #-32]!
	ldr	x9, [x0, #16]
	add	x10, x8, x1
	mov	w11, #4
	cmp	x10, #4
	stp	x20, x19, [sp, #16]
	mov	x29, sp
	lsl	x12, x9, #1
	csel	x11, x10, x11, hi
	lsr	x13, x9, #62
	cmp	x11, x12
	csel	x10, x11, x12, hi
	cmp	x13, #0
	csel	x19, x10, x11, eq
	mov	x11, #6148914691236517205
	movk	x11, #1365, lsl #48
	cmp	x19, x11
	b.hi	4f
	cbz	x9, 3f
	add	x8, x8, x8, lsl #1
	add	x9, x19, x19, lsl #1
	mov	x20, x0
	ldr	x0, [x0]
	mov	w3, #8
	lsl	x1, x8, #3
	lsl	x2, x9, #3
	vj_call	rattle_realloc
	tbz	w0, #0, 4f
2:
	mov	w0, #1
	str	x1, [x20]
	str	x19, [x20, #16]
	ldp	x20, x19, [sp, #16]
	ldp	x29, x30, [sp], #32
	ret
3:
	add	x8, x10, x10, lsl #1
	mov	x20, x0
	mov	w1, #8
	lsl	x0, x8, #3
	vj_call	rattle_alloc
	tbnz	w0, #0, 2b
4:
	mov	w0, wzr
	ldp	x20, x19, [sp, #16]
	ldp	x29, x30, [sp], #32
	ret
	vj_end	std_alloc..vec..Vec..grow_amortized..bb23d2d2a8e2d2e5_1_a64

	vj_function	std_alloc..vec..Vec..drop..3374fb78d704bdda_1_a64
	stp	x29, x30, [sp, #-48]!
	stp	x20, x19, [sp, #32]
	ldp	x19, x20, [x0]
	stp	x22, x21, [sp, #16]
	mov	x29, sp
	ldr	x21, [x0, #16]
	cbz	x20, 3f
	add	x22, x19, #16
	b	2f
1:
	subs	x20, x20, #1
	add	x22, x22, #24
	b.eq	3f
2:
	ldr	x8, [x22]
	cbz	x8, 1b
	ldur	x0, [x22, #-16]
	vj_call	rattle_dealloc
	b	1b
3:
	cbz	x21, 4f
	mov	x0, x19
	ldp	x20, x19, [sp, #32]
	ldp	x22, x21, [sp, #16]
	ldp	x29, x30, [sp], #48
	vj_jump	rattle_dealloc
4:
	ldp	x20, x19, [sp, #32]
	ldp	x22, x21, [sp, #16]
	ldp	x29, x30, [sp], #48
	ret
	vj_end	std_alloc..vec..Vec..drop..3374fb78d704bdda_1_a64

	vj_constants	8
	.p2align	3, 0x0
.L1_a64_CPI18_0:
	.byte	66
	.byte	76
	.byte	65
	.byte	75
	.byte	69
	.byte	50
	.byte	98
	.byte	45
.L1_a64_CPI18_1:
	.byte	116
	.byte	114
	.byte	101
	.byte	101
	.zero	1
	.zero	1
	.zero	1
	.zero	1
.L1_a64_CPI18_2:
	.byte	66
	.byte	76
	.byte	65
	.byte	75
	.zero	1
	.zero	1
	.zero	1
	.zero	1
	vj_function	b2sum_lines..entry..Algorithm..tag_1_a64
	sub	sp, sp, #112
	stp	x29, x30, [sp, #48]
	add	x29, sp, #48
	and	w8, w1, #0xff
	stp	x20, x19, [sp, #96]
	mov	x19, x0
	add	x9, x29, #31
	cmp	w8, #1
	str	x23, [sp, #64]
	stp	x22, x21, [sp, #80]
	stp	xzr, xzr, [sp, #8]
	str	x9, [sp]
	b.le	1f
	cmp	w8, #2
	b.eq	2f
	cmp	w8, #3
	b.ne	4f
	mov	x0, sp
	mov	w1, #8
	bl	std_alloc..vec..Vec..grow_amortized..01eec35b572d02af_1_a64
	ldr	x8, [sp, #16]
	cbz	w0, 7f
	mov	x11, #19522
	ldp	x9, x10, [sp]
	movk	x11, #19265, lsl #16
	movk	x11, #12869, lsl #32
	movk	x11, #28787, lsl #48
	b	3f
1:
	mov	x0, sp
	mov	w1, #7
	cbnz	w8, 5f
	bl	std_alloc..vec..Vec..grow_amortized..01eec35b572d02af_1_a64
	ldr	x8, [sp, #16]
	cbz	w0, 7f
	ldp	x9, x11, [sp]
	vj_page	x12, .L1_a64_static.68
	vj_address	x12, x12, .L1_a64_static.68
	add	x10, x9, x11
	add	x11, x11, #7
	sub	x12, x10, x12
	cmp	x12, #6
	b.hi	16f
	vj_page	x12, .L1_a64_CPI18_2
	mov	w13, #12869
	vj_load	d0, x12, .L1_a64_CPI18_2
	mov	w12, #98
	strh	w13, [x10, #4]
	b	6f
2:
	mov	x0, sp
	mov	w1, #8
	bl	std_alloc..vec..Vec..grow_amortized..01eec35b572d02af_1_a64
	ldr	x8, [sp, #16]
	cbz	w0, 7f
	mov	x11, #19522
	ldp	x9, x10, [sp]
	movk	x11, #19265, lsl #16
	movk	x11, #12869, lsl #32
	movk	x11, #28770, lsl #48
3:
	add	x12, x10, #8
	str	x11, [x9, x10]
	stp	x12, x8, [sp, #8]
	b	20f
4:
	mov	x0, sp
	mov	w1, #13
	mov	w21, w2
	bl	std_alloc..vec..Vec..grow_amortized..01eec35b572d02af_1_a64
	ldr	x20, [sp, #16]
	cbz	w0, 10f
	ldp	x8, x9, [sp]
	vj_page	x11, .L1_a64_static.72
	vj_address	x11, x11, .L1_a64_static.72
	add	x10, x8, x9
	add	x9, x9, #13
	sub	x12, x10, x11
	cmp	x12, #12
	b.hi	11f
	vj_page	x11, .L1_a64_CPI18_0
	vj_page	x12, .L1_a64_CPI18_1
	vj_load	d0, x11, .L1_a64_CPI18_0
	vj_load	d1, x12, .L1_a64_CPI18_1
	mov	w11, #45
	strb	w11, [x10, #12]
	str	d0, [x10]
	str	s1, [x10, #8]
	b	12f
5:
	bl	std_alloc..vec..Vec..grow_amortized..01eec35b572d02af_1_a64
	ldr	x8, [sp, #16]
	cbz	w0, 7f
	ldp	x9, x11, [sp]
	vj_page	x12, .L1_a64_static.69
	vj_address	x12, x12, .L1_a64_static.69
	add	x10, x9, x11
	add	x11, x11, #7
	sub	x12, x10, x12
	cmp	x12, #6
	b.hi	17f
	vj_page	x12, .L1_a64_CPI18_2
	mov	w13, #12869
	vj_load	d0, x12, .L1_a64_CPI18_2
	strh	w13, [x10, #4]
	mov	w12, #115
6:
	str	s0, [x10]
	strb	w12, [x10, #6]
	b	19f
7:
	cbz	x8, 9f
8:
	ldr	x0, [sp]
	vj_call	rattle_dealloc
9:
	mov	w8, #1
	stp	xzr, xzr, [x19, #16]
	strb	w8, [x19]
	str	xzr, [x19, #8]
	ldp	x20, x19, [sp, #96]
	ldr	x23, [sp, #64]
	ldp	x22, x21, [sp, #80]
	ldp	x29, x30, [sp, #48]
	add	sp, sp, #112
	ret
10:
	cbnz	x20, 8b
	b	9b
11:
	ldr	x12, [x11]
	ldur	x11, [x11, #5]
	str	x12, [x10]
	stur	x11, [x10, #5]
12:
	cmp	w21, #10
	mov	w10, w21
	mov	w21, #19
	stp	x9, x20, [sp, #8]
	stp	xzr, xzr, [sp, #24]
	str	wzr, [sp, #40]
	b.lo	14f
	mov	x11, x10
13:
	mov	x10, #-3689348814741910324
	mov	w12, #10
	add	x13, sp, #24
	movk	x10, #52429
	cmp	x11, #99
	umulh	x10, x11, x10
	lsr	x10, x10, #3
	msub	w12, w10, w12, w11
	orr	w11, w12, #0x30
	strb	w11, [x13, x21]
	sub	x21, x21, #1
	mov	x11, x10
	b.hi	13b
14:
	mov	w11, #20
	add	x22, sp, #24
	orr	w10, w10, #0x30
	sub	x2, x11, x21
	sub	x11, x20, x9
	strb	w10, [x22, x21]
	cmp	x2, x11
	b.hi	21f
15:
	add	x0, x8, x9
	add	x1, x22, x21
	add	x23, x9, x2
	vj_c_call	memcpy
	stp	x23, x20, [sp, #8]
	b	20f
16:
	mov	w12, #17739
	movk	w12, #25138, lsl #16
	b	18f
17:
	mov	w12, #17739
	movk	w12, #29490, lsl #16
18:
	mov	w13, #19522
	stur	w12, [x10, #3]
	movk	w13, #19265, lsl #16
	str	w13, [x10]
19:
	stp	x9, x11, [sp]
	str	x8, [sp, #16]
20:
	ldr	q0, [sp]
	ldr	x8, [sp, #16]
	strb	wzr, [x19]
	stur	q0, [x19, #8]
	str	x8, [x19, #24]
	ldp	x20, x19, [sp, #96]
	ldr	x23, [sp, #64]
	ldp	x22, x21, [sp, #80]
	ldp	x29, x30, [sp, #48]
	add	sp, sp, #112
	ret
21:
	mov	x0, sp
	mov	x1, x2
	mov	x23, x2
	bl	std_alloc..vec..Vec..grow_amortized..01eec35b572d02af_1_a64
	cbz	w0, 22f
	ldp	x9, x20, [sp, #8]
	mov	x2, x23
	ldr	x8, [sp]
	b	15b
22:
	ldr	x8, [sp, #16]
	cbnz	x8, 8b
	b	9b
	vj_end	b2sum_lines..entry..Algorithm..tag_1_a64

	vj_function	std_alloc..vec..Vec..extend_from_slice..0473daec321ef212_1_a64
	stp	x29, x30, [sp, #-64]!
	str	x23, [sp, #16]
	mov	x23, x0
	mov	x29, sp
	stp	x20, x19, [sp, #48]
	mov	x19, x0
	ldp	x8, x20, [x23, #8]!
	stp	x22, x21, [sp, #32]
	sub	x9, x20, x8
	cmp	x2, x9
	b.hi	12f
1:
	ldr	x21, [x19]
	add	x22, x8, x2
	stp	xzr, xzr, [x23]
	add	x0, x21, x8
	sub	x9, x0, x1
	cmp	x9, x2
	b.hs	5f
	cmp	x2, #8
	b.lo	2f
	add	x9, x8, x21
	sub	x9, x9, x1
	cmp	x9, #32
	b.hs	7f
2:
	mov	x9, xzr
3:
	add	x10, x9, x8
	sub	x8, x2, x9
	add	x9, x1, x9
	add	x10, x21, x10
4:
	ldrb	w11, [x9], #1
	subs	x8, x8, #1
	strb	w11, [x10], #1
	b.ne	4b
	b	6f
5:
	vj_c_call	memmove
6:
	mov	w0, wzr
	stp	x21, x22, [x19]
	str	x20, [x19, #16]
	ldp	x20, x19, [sp, #48]
	ldr	x23, [sp, #16]
	ldp	x22, x21, [sp, #32]
	ldp	x29, x30, [sp], #64
	ret
7:
	cmp	x2, #32
	b.hs	8f
	mov	x9, xzr
	b	10f
8:
	add	x12, x8, x21
	and	x10, x2, #0x18
	and	x9, x2, #0xffffffffffffffe0
	add	x11, x1, #16
	add	x12, x12, #16
	and	x13, x2, #0xffffffffffffffe0
9:
	ldp	q0, q1, [x11, #-16]
	subs	x13, x13, #32
	add	x11, x11, #32
	stp	q0, q1, [x12, #-16]
	add	x12, x12, #32
	b.ne	9b
	cmp	x2, x9
	b.eq	6b
	cbz	x10, 3b
10:
	mov	x11, x9
	and	x9, x2, #0xfffffffffffffff8
	add	x12, x8, x11
	sub	x10, x11, x9
	add	x11, x1, x11
	add	x12, x21, x12
11:
	ldr	d0, [x11], #8
	adds	x10, x10, #8
	str	d0, [x12], #8
	b.ne	11b
	cmp	x2, x9
	b.eq	6b
	b	3b
12:
	mov	x21, x1
	mov	x0, x19
	mov	x1, x2
	mov	x22, x2
	bl	std_alloc..vec..Vec..grow_amortized..01eec35b572d02af_1_a64
	cbz	w0, 13f
	ldp	x8, x20, [x19, #8]
	mov	x2, x22
	mov	x1, x21
	b	1b
13:
	mov	w0, #1
	ldp	x20, x19, [sp, #48]
	ldr	x23, [sp, #16]
	ldp	x22, x21, [sp, #32]
	ldp	x29, x30, [sp], #64
	ret
	vj_end	std_alloc..vec..Vec..extend_from_slice..0473daec321ef212_1_a64

	vj_cold	std_alloc..vec..Vec..grow_amortized..01eec35b572d02af_1_a64
	ldr	x8, [x0, #8]
	cmn	x8, x1
	b.lo	1f
	mov	w0, wzr
	ret
1:
	stp	x29, x30, [sp, #-32]!
	ldr	x10, [x0, #16]
	add	x9, x8, x1
	mov	w11, #8
	cmp	x9, #8
	stp	x20, x19, [sp, #16]
	mov	x29, sp
	lsl	x12, x10, #1
	csel	x11, x9, x11, hi
	lsr	x13, x10, #62
	cmp	x11, x12
	csel	x9, x11, x12, hi
	cmp	x13, #0
	csel	x19, x9, x11, eq
	tbnz	x19, #63, 4f
	cbz	x10, 3f
	mov	x20, x0
	ldr	x0, [x0]
	mov	x1, x8
	mov	x2, x19
	mov	w3, #1
	vj_call	rattle_realloc
	tbz	w0, #0, 4f
2:
	mov	w0, #1
	str	x1, [x20]
	str	x19, [x20, #16]
	ldp	x20, x19, [sp, #16]
	ldp	x29, x30, [sp], #32
	ret
3:
	mov	x20, x0
	mov	x0, x9
	mov	w1, #1
	vj_call	rattle_alloc
	tbnz	w0, #0, 2b
4:
	mov	w0, wzr
	ldp	x20, x19, [sp, #16]
	ldp	x29, x30, [sp], #32
	ret
	vj_end	std_alloc..vec..Vec..grow_amortized..01eec35b572d02af_1_a64

	vj_export	b2sum..disk..show_progress..proved_1_a64
	ret
	vj_end	b2sum..disk..show_progress..proved_1_a64

	vj_export	b2sum..disk..hide_memory..proved_1_a64
	ret
	vj_end	b2sum..disk..hide_memory..proved_1_a64

	vj_function	b2sum..disk..SystemDisk..open..997c1e2eeb9618f7_1_a64
	sub	sp, sp, #432
	movi	v0.2d, #0000000000000000
	stp	x20, x19, [sp, #416]
	mov	x19, x0
	add	x0, sp, #80
	stp	x29, x30, [sp, #336]
	add	x29, sp, #336
	stp	x28, x27, [sp, #352]
	mov	x20, x2
	stp	x26, x25, [sp, #368]
	stp	x24, x23, [sp, #384]
	mov	x24, x1
	stp	x22, x21, [sp, #400]
	stp	q0, q0, [sp, #80]
	bl	b2sum..disk..text_of_1_a64
	ldrb	w8, [sp, #80]
	cbz	w8, 1f
	movi	v0.2d, #0000000000000000
	mov	w8, #1
	mov	w9, #9729
	b	5f
1:
	ldp	x21, x23, [sp, #88]
	ldr	x25, [sp, #104]
	cbz	x20, 8f
	tbnz	x20, #63, 3f
	mov	x0, x20
	mov	w1, #1
	vj_call	rattle_alloc
	tbz	w0, #0, 3f
	mov	x22, x1
	sub	x9, x1, x24
	sub	x26, x29, #128
	str	x25, [sp, #8]
	cmp	x9, x20
	b.lo	9f
2:
	mov	x0, x22
	mov	x1, x24
	mov	x2, x20
	vj_c_call	memmove
	b	16f
3:
	cbz	x25, 4f
	mov	x0, x21
	vj_call	rattle_dealloc
4:
	mov	w8, #1
	mov	w9, #9729
	movi	v0.2d, #0000000000000000
5:
	str	x8, [x19]
	strh	w9, [x19, #8]
	stur	q0, [x19, #10]
	stur	q0, [x19, #26]
	stur	q0, [x19, #42]
	stur	q0, [x19, #58]
	stur	q0, [x19, #74]
	stur	q0, [x19, #90]
	stur	q0, [x19, #106]
6:
	stur	q0, [x19, #120]
7:
	ldp	x20, x19, [sp, #416]
	ldp	x22, x21, [sp, #400]
	ldp	x24, x23, [sp, #384]
	ldp	x26, x25, [sp, #368]
	ldp	x28, x27, [sp, #352]
	ldp	x29, x30, [sp, #336]
	add	sp, sp, #432
	ret
8:
	sub	x22, x29, #17
	sub	x9, x22, x24
	sub	x26, x29, #128
	str	x25, [sp, #8]
	cmp	x9, x20
	b.hs	2b
9:
	cmp	x20, #8
	mov	x8, xzr
	b.lo	14f
	cmp	x9, #32
	b.lo	14f
	cmp	x20, #32
	b.hs	10f
	mov	x8, xzr
	b	12f
10:
	and	x9, x20, #0x18
	and	x8, x20, #0xffffffffffffffe0
	add	x10, x24, #16
	add	x11, x22, #16
	and	x12, x20, #0xffffffffffffffe0
11:
	ldp	q0, q1, [x10, #-16]
	subs	x12, x12, #32
	add	x10, x10, #32
	stp	q0, q1, [x11, #-16]
	add	x11, x11, #32
	b.ne	11b
	cmp	x20, x8
	b.eq	16f
	cbz	x9, 14f
12:
	mov	x11, x8
	and	x8, x20, #0xfffffffffffffff8
	sub	x9, x11, x8
	add	x10, x24, x11
	add	x11, x22, x11
13:
	ldr	d0, [x10], #8
	adds	x9, x9, #8
	str	d0, [x11], #8
	b.ne	13b
	cmp	x20, x8
	b.eq	16f
14:
	sub	x9, x20, x8
	add	x10, x24, x8
	add	x8, x22, x8
15:
	ldrb	w11, [x10], #1
	subs	x9, x9, #1
	strb	w11, [x8], #1
	b.ne	15b
16:
	movi	v0.2d, #0000000000000000
	sub	x0, x29, #128
	mov	x1, x21
	mov	x2, x23
	mov	x24, x21
	stp	q0, q0, [x29, #-128]
	stp	q0, q0, [x29, #-96]
	stp	q0, q0, [x29, #-64]
	bl	std..fs..File..open..40609fae31b31c25_1_a64
	ldur	q0, [x26, #40]
	ldur	q1, [x26, #56]
	sub	x10, x29, #128
	ldp	x21, x28, [x29, #-104]
	ldurb	w8, [x29, #-128]
	stp	q0, q1, [sp, #16]
	ldur	w23, [x29, #-124]
	ldurb	w11, [x29, #-120]
	ldurb	w12, [x29, #-119]
	ldurh	w27, [x29, #-118]
	ldur	q0, [x26, #72]
	ldur	w26, [x29, #-116]
	ldur	x9, [x29, #-40]
	ldur	x25, [x29, #-112]
	str	q0, [sp, #48]
	str	x9, [sp, #64]
	cbz	w8, 19f
	movi	v3.2d, #0000000000000000
	ldp	q0, q1, [sp, #16]
	ldr	x8, [sp, #64]
	stur	xzr, [x29, #-40]
	ldr	q2, [sp, #48]
	stp	q0, q1, [x29, #-128]
	stur	q3, [x10, #56]
	stur	q3, [x10, #72]
	stur	x8, [x29, #-80]
	stp	q0, q1, [sp, #112]
	ldp	q0, q3, [x29, #-64]
	ldur	q1, [x29, #-80]
	stur	q2, [x29, #-96]
	stp	q2, q1, [sp, #144]
	stp	q0, q3, [sp, #176]
	cbz	x20, 17f
	mov	x0, x22
	mov	w20, w11
	mov	w22, w12
	vj_call	rattle_dealloc
	mov	w12, w22
	mov	w11, w20
17:
	ldr	x8, [sp, #8]
	cbz	x8, 18f
	mov	x0, x24
	mov	w20, w11
	mov	w22, w12
	vj_call	rattle_dealloc
	mov	w12, w22
	mov	w11, w20
18:
	ldp	q0, q1, [sp, #144]
	mov	w8, #1
	str	x8, [x19]
	strb	w11, [x19, #8]
	stur	q0, [x19, #72]
	stur	q1, [x19, #88]
	ldp	q0, q1, [sp, #176]
	strb	w12, [x19, #9]
	strh	w27, [x19, #10]
	stur	q0, [x19, #104]
	stur	q1, [x19, #120]
	ldp	q0, q1, [sp, #112]
	str	w26, [x19, #12]
	stp	x25, x21, [x19, #16]
	stur	q0, [x19, #40]
	str	x28, [x19, #32]
	stur	q1, [x19, #56]
	b	7b
19:
	ldr	x8, [sp, #8]
	cbz	x8, 20f
	mov	x0, x24
	vj_call	rattle_dealloc
20:
	movi	v0.2d, #0000000000000000
	str	xzr, [x19]
	stp	wzr, w23, [x19, #8]
	stp	x22, x20, [x19, #16]
	str	x20, [x19, #32]
	stur	q0, [x19, #40]
	stur	q0, [x19, #56]
	stur	q0, [x19, #72]
	stur	q0, [x19, #88]
	stur	q0, [x19, #104]
	b	6b
	vj_end	b2sum..disk..SystemDisk..open..997c1e2eeb9618f7_1_a64

	vj_function	b2sum..disk..text_of_1_a64
	sub	sp, sp, #176
	stp	x20, x19, [sp, #160]
	mov	x20, x2
	mov	x19, x0
	stp	x22, x21, [sp, #144]
	mov	x21, x1
	vj_page	x2, .L1_a64_static.113
	vj_address	x2, x2, .L1_a64_static.113
	mov	x0, x1
	mov	x1, x20
	stp	x29, x30, [sp, #112]
	add	x29, sp, #112
	str	x23, [sp, #128]
	stp	xzr, xzr, [sp, #56]
	stur	xzr, [sp, #79]
	str	xzr, [sp, #72]
	stp	xzr, xzr, [sp, #16]
	str	xzr, [sp, #8]
	bl	core..slice..reads..slice.T..contains..i8.31.core..cmp..numbers..U8PartialEq_1_a64
	tbz	w0, #0, 4f
	add	x8, x29, #31
	stp	xzr, xzr, [x29, #-16]
	stur	x8, [x29, #-24]
	cbz	x20, 9f
	mov	w22, #65280
	movk	w22, #16, lsl #16
	b	2f
1:
	sub	x0, x29, #24
	bl	std_alloc..string..add_wide..d0dbed8b188a1729_1_a64
	and	w8, w0, #0xff
	tbnz	w8, #0, 15f
	subs	x20, x20, #1
	b.eq	9f
2:
	ldrb	w8, [x21], #1
	orr	w9, w8, w22
	tst	w8, #0x80
	csel	w1, w9, w8, ne
	cmp	w1, #127
	b.hi	1b
	ldp	x8, x9, [x29, #-16]
	cmp	x9, x8
	b.eq	3f
	ldur	x9, [x29, #-24]
	add	x10, x8, #1
	stur	x10, [x29, #-16]
	strb	w1, [x9, x8]
	subs	x20, x20, #1
	b.ne	2b
	b	9f
3:
	mov	w23, w1
	sub	x0, x29, #24
	mov	w1, #1
	bl	std_alloc..vec..Vec..grow_amortized..01eec35b572d02af_1_a64
	cbz	w0, 15f
	ldp	x9, x8, [x29, #-24]
	add	x10, x8, #1
	stur	x10, [x29, #-16]
	strb	w23, [x9, x8]
	subs	x20, x20, #1
	b.ne	2b
	b	9f
4:
	add	x0, sp, #8
	mov	x1, x21
	mov	x2, x20
	bl	core..str..utf8..from_utf8_1_a64
	ldrb	w8, [sp, #8]
	cbz	w8, 10f
	add	x8, x29, #31
	stp	xzr, xzr, [x29, #-16]
	stur	x8, [x29, #-24]
	cbz	x20, 9f
	mov	w22, #65280
	movk	w22, #16, lsl #16
	b	6f
5:
	sub	x0, x29, #24
	bl	std_alloc..string..add_wide..d0dbed8b188a1729_1_a64
	and	w8, w0, #0xff
	tbnz	w8, #0, 15f
	subs	x20, x20, #1
	b.eq	9f
6:
	ldrb	w8, [x21], #1
	orr	w9, w8, w22
	tst	w8, #0x80
	csel	w1, w9, w8, ne
	cmp	w1, #127
	b.hi	5b
	ldp	x8, x9, [x29, #-16]
	cmp	x9, x8
	b.eq	8f
7:
	ldur	x9, [x29, #-24]
	add	x10, x8, #1
	stur	x10, [x29, #-16]
	strb	w1, [x9, x8]
	subs	x20, x20, #1
	b.ne	6b
	b	9f
8:
	mov	w23, w1
	sub	x0, x29, #24
	mov	w1, #1
	bl	std_alloc..vec..Vec..grow_amortized..01eec35b572d02af_1_a64
	cbz	w0, 15f
	ldur	x8, [x29, #-16]
	mov	w1, w23
	b	7b
9:
	ldur	q0, [x29, #-24]
	ldur	x9, [x29, #-8]
	mov	w8, wzr
	stur	q0, [sp, #63]
	stur	x9, [sp, #79]
	b	17f
10:
	ldp	x1, x2, [sp, #16]
	add	x8, x29, #31
	stp	xzr, xzr, [sp, #40]
	str	x8, [sp, #32]
	cbnz	x2, 23f
	mov	x20, xzr
	mov	x9, xzr
	add	x0, x8, xzr
	add	x21, xzr, x2
	sub	x10, x0, x1
	cmp	x10, x2
	b.hs	24f
11:
	cmp	x2, #8
	b.lo	12f
	add	x10, x9, x8
	sub	x10, x10, x1
	cmp	x10, #32
	b.hs	18f
12:
	mov	x10, xzr
13:
	add	x11, x10, x9
	sub	x9, x2, x10
	add	x10, x1, x10
	add	x8, x8, x11
14:
	ldrb	w11, [x10], #1
	subs	x9, x9, #1
	strb	w11, [x8], #1
	b.ne	14b
	b	25f
15:
	ldur	x8, [x29, #-8]
	cbz	x8, 16f
	ldur	x0, [x29, #-24]
	vj_call	rattle_dealloc
16:
	mov	w8, #1
	stur	xzr, [sp, #71]
	stur	xzr, [sp, #63]
	stur	xzr, [sp, #79]
17:
	ldur	q0, [sp, #63]
	strb	w8, [x19]
	ldur	x8, [sp, #79]
	stur	q0, [x19, #8]
	str	x8, [x19, #24]
	ldp	x20, x19, [sp, #160]
	ldr	x23, [sp, #128]
	ldp	x22, x21, [sp, #144]
	ldp	x29, x30, [sp, #112]
	add	sp, sp, #176
	ret
18:
	cmp	x2, #32
	b.hs	19f
	mov	x10, xzr
	b	21f
19:
	add	x13, x9, x8
	and	x11, x2, #0x18
	and	x10, x2, #0xffffffffffffffe0
	add	x12, x1, #16
	add	x13, x13, #16
	and	x14, x2, #0xffffffffffffffe0
20:
	ldp	q0, q1, [x12, #-16]
	subs	x14, x14, #32
	add	x12, x12, #32
	stp	q0, q1, [x13, #-16]
	add	x13, x13, #32
	b.ne	20b
	cmp	x2, x10
	b.eq	25f
	cbz	x11, 13b
21:
	mov	x12, x10
	and	x10, x2, #0xfffffffffffffff8
	add	x13, x9, x12
	sub	x11, x12, x10
	add	x12, x1, x12
	add	x13, x8, x13
22:
	ldr	d0, [x12], #8
	adds	x11, x11, #8
	str	d0, [x13], #8
	b.ne	22b
	cmp	x2, x10
	b.eq	25f
	b	13b
23:
	mov	x21, x1
	add	x0, sp, #32
	mov	x1, x2
	mov	x22, x2
	bl	std_alloc..vec..Vec..grow_amortized..01eec35b572d02af_1_a64
	cbz	w0, 26f
	ldp	x9, x20, [sp, #40]
	mov	x2, x22
	ldr	x8, [sp, #32]
	mov	x1, x21
	add	x0, x8, x9
	add	x21, x9, x22
	sub	x10, x0, x1
	cmp	x10, x22
	b.lo	11b
24:
	vj_c_call	memmove
25:
	stp	x21, x20, [sp, #40]
	ldr	q0, [sp, #32]
	strb	wzr, [x19]
	str	x20, [x19, #24]
	stur	q0, [x19, #8]
	ldp	x20, x19, [sp, #160]
	ldr	x23, [sp, #128]
	ldp	x22, x21, [sp, #144]
	ldp	x29, x30, [sp, #112]
	add	sp, sp, #176
	ret
26:
	ldr	x8, [sp, #48]
	cbz	x8, 27f
	ldr	x0, [sp, #32]
	vj_call	rattle_dealloc
27:
	mov	w8, #1
	stp	xzr, xzr, [x19, #16]
	strb	w8, [x19]
	str	xzr, [x19, #8]
	ldp	x20, x19, [sp, #160]
	ldr	x23, [sp, #128]
	ldp	x22, x21, [sp, #144]
	ldp	x29, x30, [sp, #112]
	add	sp, sp, #176
	ret
	vj_end	b2sum..disk..text_of_1_a64

	vj_constants	16
	.p2align	4, 0x0
.L1_a64_CPI25_0:
	.byte	1
	.byte	2
	.byte	4
	.byte	8
	.byte	16
	.byte	32
	.byte	64
	.byte	128
	.byte	1
	.byte	2
	.byte	4
	.byte	8
	.byte	16
	.byte	32
	.byte	64
	.byte	128
	vj_function	core..slice..reads..slice.T..contains..i8.31.core..cmp..numbers..U8PartialEq_1_a64
	cmp	x1, #3
	b.hi	1f
	cbz	x1, 3f
	lsr	x8, x1, #1
	ldrb	w9, [x2]
	ldrb	w10, [x0]
	add	x11, x0, x1
	ldrb	w8, [x0, x8]
	cmp	w10, w9
	ldurb	w10, [x11, #-1]
	ccmp	w8, w9, #4, ne
	ccmp	w10, w9, #4, ne
	cset	w0, eq
	ret
1:
	subs	x8, x1, #8
	b.hi	2f
	add	x8, x0, x1
	ldr	s0, [x0]
	ld1r	{ v1.8b }, [x2]
	sub	x8, x8, #4
	ld1	{ v0.s }[1], [x8]
	cmeq	v0.8b, v0.8b, v1.8b
	umaxv	b0, v0.8b
	fmov	w8, s0
	and	w0, w8, #0x1
	ret
2:
	cmp	x1, #32
	b.hi	4f
	cmp	x8, #8
	mov	w9, #8
	mov	w10, #16
	csel	x9, x8, x9, lo
	cmp	x8, #16
	ldr	d0, [x0]
	csel	x10, x8, x10, lo
	ldr	d1, [x0, x9]
	ldr	d3, [x0, x8]
	ldr	d2, [x0, x10]
	mov	v0.d[1], v1.d[0]
	ld1r	{ v1.16b }, [x2]
	mov	v2.d[1], v3.d[0]
	cmeq	v0.16b, v0.16b, v1.16b
	cmeq	v2.16b, v2.16b, v1.16b
	orr	v0.16b, v0.16b, v2.16b
	umaxv	b0, v0.16b
	fmov	w8, s0
	and	w0, w8, #0x1
	ret
3:
	mov	w0, wzr
	ret
4:
	ldrb	w9, [x2]
	cmp	x1, #64
	b.hi	5f
	add	x8, x0, x1
	dup	v0.16b, w9
	ldp	q1, q2, [x0]
	ldp	q4, q3, [x8, #-32]
	cmeq	v1.16b, v1.16b, v0.16b
	cmeq	v2.16b, v2.16b, v0.16b
	cmeq	v4.16b, v4.16b, v0.16b
	cmeq	v0.16b, v3.16b, v0.16b
	orr	v0.16b, v2.16b, v0.16b
	orr	v1.16b, v1.16b, v4.16b
	orr	v0.16b, v1.16b, v0.16b
	umaxv	b0, v0.16b
	fmov	w8, s0
	and	w0, w8, #0x1
	ret
5:
	dup	v1.16b, w9
	mov	x8, xzr
	mov	x9, x1
6:
	add	x10, x0, x8
	vj_page	x11, .L1_a64_CPI25_0
	ldp	q3, q2, [x10, #32]
	vj_load	q0, x11, .L1_a64_CPI25_0
	ldp	q5, q4, [x10]
	cmeq	v3.16b, v3.16b, v1.16b
	cmeq	v2.16b, v2.16b, v1.16b
	cmeq	v5.16b, v5.16b, v1.16b
	cmeq	v4.16b, v4.16b, v1.16b
	and	v3.16b, v3.16b, v0.16b
	and	v2.16b, v2.16b, v0.16b
	and	v5.16b, v5.16b, v0.16b
	and	v4.16b, v4.16b, v0.16b
	ext	v6.16b, v3.16b, v3.16b, #8
	ext	v17.16b, v2.16b, v2.16b, #8
	ext	v7.16b, v5.16b, v5.16b, #8
	ext	v16.16b, v4.16b, v4.16b, #8
	zip1	v3.16b, v3.16b, v6.16b
	zip1	v2.16b, v2.16b, v17.16b
	zip1	v5.16b, v5.16b, v7.16b
	zip1	v4.16b, v4.16b, v16.16b
	addv	h3, v3.8h
	addv	h2, v2.8h
	addv	h5, v5.8h
	addv	h4, v4.8h
	fmov	w10, s3
	fmov	w13, s2
	fmov	w11, s5
	fmov	w12, s4
	orr	w10, w11, w10
	orr	w11, w12, w13
	orr	w10, w10, w11
	tst	w10, #0xffff
	b.ne	7f
	sub	x9, x9, #64
	add	x8, x8, #64
	cmp	x9, #63
	b.hi	6b
	and	x8, x1, #0xffffffffffffffc0
7:
	sub	x9, x1, x8
	cmp	x9, #32
	b.lo	10f
	ld1r	{ v1.16b }, [x2]
	add	x8, x0, x8
8:
	ldp	q2, q3, [x8], #32
	cmeq	v3.16b, v3.16b, v1.16b
	cmeq	v2.16b, v2.16b, v1.16b
	and	v3.16b, v3.16b, v0.16b
	and	v2.16b, v2.16b, v0.16b
	ext	v4.16b, v3.16b, v3.16b, #8
	ext	v5.16b, v2.16b, v2.16b, #8
	zip1	v3.16b, v3.16b, v4.16b
	zip1	v2.16b, v2.16b, v5.16b
	addv	h3, v3.8h
	addv	h2, v2.8h
	fmov	w10, s3
	fmov	w11, s2
	orr	w10, w11, w10
	tst	w10, #0xffff
	b.ne	9f
	sub	x9, x9, #32
	cmp	x9, #32
	b.hs	8b
	b	10f
9:
	cmp	x9, #31
	b.ls	10f
	mov	w0, #1
	ret
10:
	add	x8, x0, x1
	ld1r	{ v0.16b }, [x2]
	ldp	q1, q2, [x8, #-32]
	cmeq	v2.16b, v2.16b, v0.16b
	cmeq	v0.16b, v1.16b, v0.16b
	orr	v0.16b, v0.16b, v2.16b
	umaxv	b0, v0.16b
	fmov	w8, s0
	and	w0, w8, #0x1
	ret
	vj_end	core..slice..reads..slice.T..contains..i8.31.core..cmp..numbers..U8PartialEq_1_a64

	vj_function	core..str..utf8..from_utf8_1_a64
	sub	sp, sp, #64
	stp	x22, x21, [sp, #32]
	mov	x21, x1
	stp	x20, x19, [sp, #48]
	mov	x20, x2
	mov	x19, x0
	stp	x29, x30, [sp, #16]
	add	x29, sp, #16
	cbz	x2, 16f
	mov	x9, xzr
	sub	x22, x20, #8
	b	5f
1:
	and	w11, w11, #0xff
	tbnz	w11, #7, 6f
2:
	mov	w12, #1
3:
	add	x8, x12, x9
4:
	cmp	x8, x20
	mov	x9, x8
	b.hs	16f
5:
	add	x8, x21, x9
	sub	x10, x20, x9
	ldrsb	w11, [x8]
	cmp	x10, #2
	b.lo	1b
	tbnz	w11, #31, 1b
	ldrsb	w11, [x8, #1]
	tbnz	w11, #31, 2b
	cmp	x10, #7
	stp	x21, x20, [sp]
	b.hi	7f
	ldrsb	w8, [x21, x9]
	tbnz	w8, #31, 12f
	add	x8, x9, #1
	cmp	x8, x20
	b.eq	16f
	ldrsb	w10, [x21, x8]
	tbnz	w10, #31, 4b
	add	x8, x9, #2
	cmp	x8, x20
	b.eq	16f
	ldrsb	w10, [x21, x8]
	tbnz	w10, #31, 4b
	add	x8, x9, #3
	cmp	x8, x20
	b.eq	16f
	ldrsb	w10, [x21, x8]
	tbnz	w10, #31, 4b
	add	x8, x9, #4
	cmp	x8, x20
	b.eq	16f
	ldrsb	w10, [x21, x8]
	tbnz	w10, #31, 4b
	add	x8, x9, #5
	cmp	x8, x20
	b.eq	16f
	ldrsb	w10, [x21, x8]
	tbnz	w10, #31, 4b
	add	x8, x9, #6
	cmp	x8, x20
	b.eq	16f
	ldrsb	w9, [x21, x8]
	tbnz	w9, #31, 4b
	b	16f
6:
	cmp	w11, #194
	b.lo	21f
	cmp	w11, #223
	b.hi	11f
	cmp	x10, #2
	b.lo	20f
	ldrsb	w12, [x8, #1]
	cmn	w12, #65
	b.gt	19f
	mov	w12, #2
	b	3b
7:
	ldr	x8, [x8]
	mov	w10, #8
	ands	x8, x8, #0x8080808080808080
	rbit	x8, x8
	clz	x8, x8
	lsr	x8, x8, #3
	csel	x8, x10, x8, eq
	add	x8, x8, x9
	add	x9, x9, #8
	cmp	x8, x9
	b.lo	4b
	sub	x9, x20, x8
	cmp	x9, #32
	b.lo	9f
8:
	add	x9, x21, x8
	ldp	q1, q0, [x9]
	orr	v0.16b, v1.16b, v0.16b
	ext	v1.16b, v0.16b, v0.16b, #8
	orr	v0.8b, v0.8b, v1.8b
	fmov	x9, d0
	tst	x9, #0x8080808080808080
	b.ne	9f
	mov	x0, sp
	add	x1, x8, #32
	mov	x2, x20
	bl	core..slice..words..skip_far..52f9edcae2f82f51_1_a64
	sub	x9, x20, x0
	mov	x8, x0
	cmp	x9, #31
	b.hi	8b
9:
	sub	x9, x20, x8
10:
	cmp	x9, #9
	b.lo	15f
	ldr	x10, [x21, x8]
	mov	w11, #8
	sub	x9, x9, #8
	ands	x10, x10, #0x8080808080808080
	rbit	x10, x10
	clz	x10, x10
	lsr	x10, x10, #3
	csel	x10, x11, x10, eq
	add	x11, x10, x8
	add	x8, x8, #8
	cmp	x11, x8
	b.hs	10b
	add	x8, x10, x8
	sub	x8, x8, #8
	b	4b
11:
	cmp	w11, #239
	b.hi	13f
	cmp	x10, #3
	b.lo	18f
	ldrsb	w12, [x8, #1]
	cmn	w12, #65
	b.gt	19f
	ldrsb	w13, [x8, #2]
	cmn	w13, #65
	b.gt	19f
	and	w13, w12, #0xff
	mov	w14, #-14464
	add	w13, w13, w11, lsl #6
	add	w13, w13, w14
	cmp	w13, #32
	b.lo	19f
	cmp	w13, #896
	mov	w12, #3
	csel	x14, xzr, x12, lo
	cmp	w13, #864
	b.lo	3b
	mov	x12, x14
	b	14f
12:
	mov	x8, x9
	b	4b
13:
	cmp	x10, #4
	b.lo	17f
	ldrsb	w12, [x8, #1]
	cmn	w12, #65
	b.gt	17f
	ldrsb	w13, [x8, #2]
	cmn	w13, #65
	b.gt	17f
	ldrsb	w13, [x8, #3]
	cmn	w13, #65
	b.gt	17f
	and	w12, w12, #0xff
	mov	w13, #-15488
	add	w12, w12, w11, lsl #6
	add	w13, w12, w13
	mov	w12, #4
	cmp	w13, #272
	csel	x12, x12, xzr, lo
	cmp	w13, #16
	b.lo	17f
14:
	cbnz	x12, 3b
	b	17f
15:
	ldr	x8, [x21, x22]
	mov	w9, #8
	ands	x8, x8, #0x8080808080808080
	rbit	x8, x8
	clz	x8, x8
	lsr	x8, x8, #3
	csel	x8, x9, x8, eq
	add	x8, x8, x22
	b	4b
16:
	stp	xzr, x21, [x19]
	str	x20, [x19, #16]
	ldp	x20, x19, [sp, #48]
	ldp	x22, x21, [sp, #32]
	ldp	x29, x30, [sp, #16]
	add	sp, sp, #64
	ret
17:
	cmp	w11, #244
	b.hi	21f
18:
	cmp	x10, #2
	b.lo	20f
	ldrb	w12, [x8, #1]
19:
	cmp	w11, #240
	mov	w13, #-128
	mov	w14, #-112
	mov	w15, #-96
	csel	w13, w14, w13, eq
	cmp	w11, #224
	mov	w14, #-65
	csel	w13, w15, w13, eq
	mov	w15, #-113
	cmp	w11, #244
	and	w16, w13, #0xf0
	csel	w13, w15, w14, eq
	cmp	w11, #237
	mov	w11, #-97
	csel	w13, w11, w13, eq
	cmp	w16, w12, uxtb
	mov	w11, #257
	b.hi	22f
	and	w12, w12, #0xff
	cmp	w12, w13, uxtb
	b.hi	22f
	cmp	x10, #2
	b.ne	23f
20:
	mov	x11, xzr
	b	22f
21:
	mov	w11, #257
22:
	mov	w8, #1
	str	x11, [x19, #16]
	stp	x8, x9, [x19]
	ldp	x20, x19, [sp, #48]
	ldp	x22, x21, [sp, #32]
	ldp	x29, x30, [sp, #16]
	add	sp, sp, #64
	ret
23:
	ldrsb	w8, [x8, #2]
	cmn	w8, #65
	b.gt	24f
	cmp	x10, #3
	mov	w8, #769
	csel	x11, x8, xzr, hi
	b	22b
24:
	mov	w11, #513
	b	22b
	vj_end	core..str..utf8..from_utf8_1_a64

	vj_function	core..slice..words..skip_far..52f9edcae2f82f51_1_a64
	sub	x8, x2, x1
	cmp	x8, #64
	b.lo	2f
	ldr	x9, [x0]
1:
	add	x10, x9, x1
	ldp	q0, q1, [x10, #32]
	ldp	q2, q3, [x10]
	orr	v1.16b, v3.16b, v1.16b
	orr	v0.16b, v2.16b, v0.16b
	orr	v0.16b, v0.16b, v1.16b
	ext	v1.16b, v0.16b, v0.16b, #8
	orr	v0.8b, v0.8b, v1.8b
	fmov	x10, d0
	tst	x10, #0x8080808080808080
	b.ne	2f
	sub	x8, x8, #64
	add	x1, x1, #64
	cmp	x8, #63
	b.hi	1b
2:
	mov	x0, x1
	ret
	vj_end	core..slice..words..skip_far..52f9edcae2f82f51_1_a64

	vj_constants	16
	.p2align	4, 0x0
.L1_a64_CPI28_0:
	.long	4294967278
	.long	4294967284
	.long	4294967290
	.long	0
	vj_constants	8
	.p2align	3, 0x0
.L1_a64_CPI28_1:
	.short	255
	.short	63
	.short	63
	.short	63
.L1_a64_CPI28_2:
	.short	240
	.short	128
	.short	128
	.short	128
	vj_function	std_alloc..string..add_wide..d0dbed8b188a1729_1_a64
	stp	x29, x30, [sp, #-32]!
	cmp	w1, #2047
	stp	x20, x19, [sp, #16]
	mov	x29, sp
	b.hi	2f
	ldp	x10, x9, [x0, #8]
	sub	x8, x9, x10
	cmp	x8, #1
	b.ls	6f
1:
	lsr	w11, w1, #6
	mov	w12, #-128
	ldr	x13, [x0]
	bfxil	w12, w1, #0, #6
	mov	w8, wzr
	orr	w11, w11, #0xffffffc0
	bfi	w11, w12, #8, #24
	strh	w11, [x13, x10]
	add	x10, x10, #2
	str	x13, [x0]
	stp	x10, x9, [x0, #8]
	ldp	x20, x19, [sp, #16]
	mov	w0, w8
	ldp	x29, x30, [sp], #32
	ret
2:
	lsr	w8, w1, #16
	cbnz	w8, 4f
	ldp	x10, x9, [x0, #8]
	sub	x8, x9, x10
	cmp	x8, #2
	b.ls	7f
3:
	lsr	w11, w1, #12
	ldr	x12, [x0]
	mov	w13, #-128
	mov	w14, #-128
	bfxil	w13, w1, #0, #6
	mov	w8, wzr
	bfxil	w14, w1, #6, #6
	orr	w11, w11, #0xffffffe0
	add	x15, x12, x10
	strb	w11, [x15]
	add	x10, x10, #3
	strb	w14, [x15, #1]
	strb	w13, [x15, #2]
	str	x12, [x0]
	stp	x10, x9, [x0, #8]
	ldp	x20, x19, [sp, #16]
	mov	w0, w8
	ldp	x29, x30, [sp], #32
	ret
4:
	ldp	x10, x9, [x0, #8]
	sub	x8, x9, x10
	cmp	x8, #3
	b.ls	8f
5:
	dup	v0.4s, w1
	vj_page	x11, .L1_a64_CPI28_0
	mov	w8, wzr
	vj_load	q1, x11, .L1_a64_CPI28_0
	vj_page	x11, .L1_a64_CPI28_1
	ushl	v0.4s, v0.4s, v1.4s
	vj_load	d1, x11, .L1_a64_CPI28_1
	vj_page	x11, .L1_a64_CPI28_2
	xtn	v0.4h, v0.4s
	and	v0.8b, v0.8b, v1.8b
	vj_load	d1, x11, .L1_a64_CPI28_2
	ldr	x11, [x0]
	add	v0.4h, v0.4h, v1.4h
	uzp1	v0.8b, v0.8b, v0.8b
	str	s0, [x11, x10]
	add	x10, x10, #4
	str	x11, [x0]
	stp	x10, x9, [x0, #8]
	ldp	x20, x19, [sp, #16]
	mov	w0, w8
	ldp	x29, x30, [sp], #32
	ret
6:
	mov	w19, w1
	mov	w1, #2
	mov	x20, x0
	bl	std_alloc..vec..Vec..grow_amortized..01eec35b572d02af_1_a64
	cbz	w0, 9f
	ldp	x10, x9, [x20, #8]
	mov	x0, x20
	mov	w1, w19
	b	1b
7:
	mov	w19, w1
	mov	w1, #3
	mov	x20, x0
	bl	std_alloc..vec..Vec..grow_amortized..01eec35b572d02af_1_a64
	cbz	w0, 9f
	ldp	x10, x9, [x20, #8]
	mov	x0, x20
	mov	w1, w19
	b	3b
8:
	mov	w19, w1
	mov	w1, #4
	mov	x20, x0
	bl	std_alloc..vec..Vec..grow_amortized..01eec35b572d02af_1_a64
	cbz	w0, 9f
	ldp	x10, x9, [x20, #8]
	mov	x0, x20
	mov	w1, w19
	b	5b
9:
	mov	w8, #1
	ldp	x20, x19, [sp, #16]
	mov	w0, w8
	ldp	x29, x30, [sp], #32
	ret
	vj_end	std_alloc..string..add_wide..d0dbed8b188a1729_1_a64

	vj_constants	16
	.p2align	4, 0x0
.L1_a64_CPI29_0:
	.byte	0
	.byte	1
	.byte	2
	.byte	3
	.byte	4
	.byte	5
	.byte	6
	.byte	7
	.byte	8
	.byte	9
	.byte	10
	.byte	11
	.byte	12
	.byte	13
	.byte	14
	.byte	15
.L1_a64_CPI29_1:
	.byte	16
	.byte	17
	.byte	18
	.byte	19
	.byte	20
	.byte	21
	.byte	22
	.byte	23
	.byte	24
	.byte	25
	.byte	26
	.byte	27
	.byte	28
	.byte	29
	.byte	30
	.byte	31
	vj_constants	8
	.p2align	3, 0x0
.L1_a64_CPI29_2:
	.byte	32
	.byte	33
	.byte	34
	.byte	35
	.byte	36
	.byte	37
	.byte	38
	.byte	39
	vj_function	std..fs..File..open..40609fae31b31c25_1_a64
	stp	x29, x30, [sp, #-64]!
	stp	x28, x23, [sp, #16]
	mov	x29, sp
	stp	x22, x21, [sp, #32]
	stp	x20, x19, [sp, #48]
	sub	sp, sp, #3072
	str	xzr, [sp]
	sub	sp, sp, #3072
	str	xzr, [sp]
	sub	sp, sp, #2224
	mov	x20, x2
	mov	x21, x1
	mov	x19, x0
	str	xzr, [sp]
	cbz	x2, 3f
	mov	x8, xzr
1:
	ldrb	w9, [x21, x8]
	cbz	w9, 2f
	add	x8, x8, #1
	cmp	x20, x8
	b.ne	1b
	b	3f
2:
	cmp	x8, x20
	b.hs	3f
	add	x0, sp, #1, lsl #12
	vj_page	x3, .L1_a64_static.114
	vj_address	x3, x3, .L1_a64_static.114
	add	x0, x0, #176
	mov	w1, #2
	mov	w2, #20
	mov	w4, #42
	mov	w5, #42
	bl	std_io..io..error..Error..from_bytes_1_a64
	ldr	x8, [sp, #4352]
	ldr	q0, [sp, #4336]
	mov	w0, wzr
	ldr	q1, [sp, #4320]
	ldr	q2, [sp, #4288]
	mov	w12, #1
	str	x8, [sp, #240]
	ldr	q3, [sp, #4304]
	ldr	x10, [sp, #4280]
	str	x8, [sp, #144]
	ldr	x8, [sp, #4272]
	stp	q2, q3, [sp, #80]
	ubfx	w9, w8, #8, #8
	lsr	x11, x8, #16
	stp	q1, q0, [sp, #112]
	stp	q2, q3, [sp, #176]
	stp	q1, q0, [sp, #208]
	b	17f
3:
	movi	v0.2d, #0000000000000000
	add	x22, sp, #1, lsl #12
	mov	x23, #-1
	add	x22, x22, #176
	str	xzr, [sp, #160]
	stp	q0, q0, [sp, #80]
	stp	q0, q0, [sp, #112]
	str	q0, [sp, #144]
4:
	cbz	x23, 14f
	cmp	x20, #1, lsl #12
	b.lo	6f
	mov	w0, #36
5:
	vj_call	rattle_set_errno
	b	12f
6:
	cbz	x20, 8f
	mov	x8, xzr
7:
	ldrb	w9, [x21, x8]
	cbz	w9, 9f
	add	x8, x8, #1
	cmp	x20, x8
	b.ne	7b
	b	10f
8:
	add	x0, sp, #1, lsl #12
	mov	w1, wzr
	mov	w2, #4095
	add	x0, x0, #176
	vj_c_call	memset
	b	11f
9:
	cmp	x8, x20
	b.hs	10f
	mov	w0, #22
	b	5b
10:
	add	x0, sp, #1, lsl #12
	mov	w1, wzr
	mov	w2, #4095
	add	x0, x0, #176
	vj_c_call	memset
	add	x0, sp, #1, lsl #12
	mov	x1, x21
	mov	x2, x20
	add	x0, x0, #176
	vj_c_call	memcpy
11:
	add	x1, sp, #1, lsl #12
	add	x0, sp, #176
	mov	w2, #4096
	add	x1, x1, #176
	strb	wzr, [x22, #4095]
	vj_c_call	memcpy
	mov	w1, #256
	add	x0, sp, #176
	movk	w1, #8, lsl #16
	vj_call	b2sum_open
	tbz	w0, #31, 15f
12:
	add	x0, sp, #80
	bl	std_io..io..error..last_error_1_a64
	vj_page	x8, .L1_a64_CPI29_0
	vj_page	x9, .L1_a64_CPI29_1
	mov	w10, #40
	vj_load	q0, x8, .L1_a64_CPI29_0
	vj_page	x8, .L1_a64_CPI29_2
	vj_load	q1, x9, .L1_a64_CPI29_1
	ldrb	w9, [sp, #81]
	vj_load	d2, x8, .L1_a64_CPI29_2
	ldrb	w8, [sp, #80]
	str	q0, [sp, #4272]
	cmp	w9, #41
	str	q1, [sp, #4288]
	str	d2, [sp, #4304]
	strb	w10, [x22, #40]
	b.hs	13f
	add	x10, sp, #1, lsl #12
	sub	x23, x23, #1
	add	x10, x10, #176
	ldrb	w10, [x10, w9, uxtw]
	cmp	w10, #35
	b.eq	4b
13:
	ldp	q0, q1, [sp, #112]
	mov	w0, wzr
	ldrh	w10, [sp, #86]
	ldur	w11, [sp, #82]
	ldr	q2, [sp, #96]
	ldr	x12, [sp, #160]
	str	q0, [sp, #4288]
	ldr	q0, [sp, #144]
	orr	x11, x11, x10, lsl #32
	ldr	x10, [sp, #88]
	str	q1, [sp, #4304]
	str	q0, [sp, #4320]
	str	x12, [sp, #4336]
	mov	w12, #1
	str	q2, [sp, #4272]
	b	16f
14:
	add	x0, sp, #1, lsl #12
	vj_page	x3, .L1_a64_static.118
	vj_address	x3, x3, .L1_a64_static.118
	add	x0, x0, #176
	mov	w1, #2
	mov	w2, #22
	mov	w4, #43
	mov	w5, #43
	bl	std_io..io..error..Error..from_bytes_1_a64
	ldrh	w11, [sp, #4278]
	ldur	w13, [x22, #2]
	mov	w0, wzr
	ldr	x12, [sp, #4352]
	ldr	q0, [sp, #4336]
	ldr	q1, [sp, #4320]
	ldr	q2, [sp, #4304]
	orr	x11, x13, x11, lsl #32
	ldr	q3, [sp, #4288]
	ldrb	w8, [x22]
	ldrb	w9, [x22, #1]
	ldr	x10, [sp, #4280]
	str	x12, [sp, #240]
	str	x12, [sp, #4336]
	mov	w12, #1
	stp	q3, q2, [sp, #176]
	stp	q1, q0, [sp, #208]
	str	q2, [sp, #4288]
	str	q1, [sp, #4304]
	str	q0, [sp, #4320]
	str	q3, [sp, #4272]
	b	16f
15:
	movi	v0.2d, #0000000000000000
	mov	x11, xzr
	mov	x10, xzr
	mov	w12, wzr
	mov	w8, wzr
	mov	w9, wzr
	str	xzr, [sp, #4336]
	str	q0, [sp, #4320]
	str	q0, [sp, #4304]
	str	q0, [sp, #4288]
	str	q0, [sp, #4272]
16:
	ldr	q0, [sp, #4304]
	ldr	q1, [sp, #4320]
	ldr	x13, [sp, #4336]
	stp	q0, q1, [sp, #112]
	ldr	q0, [sp, #4288]
	ldr	q1, [sp, #4272]
	str	x13, [sp, #144]
	stp	q1, q0, [sp, #80]
17:
	ldp	q1, q0, [sp, #112]
	ubfiz	x9, x9, #8, #32
	ldr	x13, [sp, #144]
	stp	w12, w0, [x19]
	orr	x9, x9, x11, lsl #16
	str	q0, [sp, #4320]
	stp	q1, q0, [sp, #32]
	ldp	q2, q0, [sp, #80]
	str	x13, [sp, #64]
	bfxil	x9, x8, #0, #8
	str	x13, [sp, #4336]
	stp	q2, q0, [sp]
	ldp	q0, q1, [sp, #16]
	ldr	q2, [sp]
	stp	x9, x10, [x19, #8]
	str	x13, [x19, #88]
	stur	q0, [x19, #40]
	ldr	q0, [sp, #48]
	stur	q1, [x19, #56]
	stur	q0, [x19, #72]
	stur	q2, [x19, #24]
	add	sp, sp, #2, lsl #12
	add	sp, sp, #176
	ldp	x20, x19, [sp, #48]
	ldp	x22, x21, [sp, #32]
	ldp	x28, x23, [sp, #16]
	ldp	x29, x30, [sp], #64
	ret
	vj_end	std..fs..File..open..40609fae31b31c25_1_a64

	vj_function	std_io..io..error..Error..from_bytes_1_a64
	str	x30, [sp, #-96]!
	stp	x28, x27, [sp, #16]
	stp	x26, x25, [sp, #32]
	stp	x24, x23, [sp, #48]
	stp	x22, x21, [sp, #64]
	stp	x20, x19, [sp, #80]
	sub	sp, sp, #448
	str	x5, [sp, #440]
	str	w2, [sp, #436]
	str	w1, [sp, #428]
	str	x0, [sp, #456]
	cbz	x4, 1f
	ldrb	w8, [x3]
	cmp	x4, #1
	str	w8, [sp, #432]
	b.ne	2f
	mov	w9, #11776
	mov	w8, #46
	mov	x6, #3314649325744685056
	str	x9, [sp, #72]
	mov	x9, #3314649325744685056
	mov	w10, #11776
	str	x9, [sp, #80]
	mov	x9, #50577534877696
	mov	w15, #771751936
	str	x9, [sp, #88]
	mov	w9, #771751936
	mov	w0, #771751936
	str	x9, [sp, #96]
	mov	x9, #3314649325744685056
	mov	w25, #11776
	str	x9, [sp, #112]
	mov	x9, #50577534877696
	mov	x11, #50577534877696
	str	x9, [sp, #120]
	mov	w9, #771751936
	mov	w14, #771751936
	str	x9, [sp, #128]
	mov	w9, #11776
	mov	w21, #11776
	str	x9, [sp, #136]
	mov	x9, #3314649325744685056
	str	x9, [sp, #144]
	mov	x9, #50577534877696
	str	x9, [sp, #160]
	mov	w9, #771751936
	str	x9, [sp, #176]
	mov	w9, #11776
	str	x9, [sp, #192]
	mov	x9, #3314649325744685056
	str	x9, [sp, #200]
	mov	x9, #50577534877696
	str	x9, [sp, #208]
	mov	w9, #771751936
	str	x9, [sp, #216]
	mov	w9, #11776
	str	x9, [sp, #224]
	mov	x9, #3314649325744685056
	str	x9, [sp, #240]
	mov	x9, #50577534877696
	str	x9, [sp, #256]
	mov	w9, #771751936
	str	x9, [sp, #264]
	mov	w9, #11776
	str	x9, [sp, #280]
	mov	x9, #3314649325744685056
	str	x9, [sp, #296]
	mov	x9, #50577534877696
	str	x9, [sp, #304]
	mov	w9, #771751936
	str	x9, [sp, #312]
	mov	w9, #11776
	str	w8, [sp, #404]
	mov	x8, #12947848928690176
	str	x9, [sp, #328]
	mov	x9, #3314649325744685056
	str	x8, [sp, #392]
	mov	x8, #197568495616
	str	x9, [sp, #344]
	mov	x9, #50577534877696
	str	x8, [sp, #408]
	mov	x8, #50577534877696
	str	x9, [sp, #360]
	mov	w9, #771751936
	str	x8, [sp, #24]
	mov	w8, #3014656
	str	x9, [sp, #376]
	mov	w9, #11776
	str	x8, [sp, #416]
	mov	x8, #3314649325744685056
	str	x9, [sp, #384]
	b	4f
1:
	mov	w9, #11776
	mov	x8, #12947848928690176
	mov	x6, #3314649325744685056
	str	x9, [sp, #72]
	mov	x9, #3314649325744685056
	mov	w10, #11776
	str	x9, [sp, #80]
	mov	x9, #50577534877696
	mov	w15, #771751936
	str	x9, [sp, #88]
	mov	w9, #771751936
	mov	w0, #771751936
	str	x9, [sp, #96]
	mov	x9, #3314649325744685056
	mov	w25, #11776
	str	x9, [sp, #112]
	mov	x9, #50577534877696
	mov	x11, #50577534877696
	str	x9, [sp, #120]
	mov	w9, #771751936
	mov	w14, #771751936
	str	x9, [sp, #128]
	mov	w9, #11776
	mov	w21, #11776
	str	x9, [sp, #136]
	mov	x9, #3314649325744685056
	str	x9, [sp, #144]
	mov	x9, #50577534877696
	str	x9, [sp, #160]
	mov	w9, #771751936
	str	x9, [sp, #176]
	mov	w9, #11776
	str	x9, [sp, #192]
	mov	x9, #3314649325744685056
	str	x9, [sp, #200]
	mov	x9, #50577534877696
	str	x9, [sp, #208]
	mov	w9, #771751936
	str	x9, [sp, #216]
	mov	w9, #11776
	str	x9, [sp, #224]
	mov	x9, #3314649325744685056
	str	x9, [sp, #240]
	mov	x9, #50577534877696
	str	x9, [sp, #256]
	mov	w9, #771751936
	str	x9, [sp, #264]
	mov	w9, #11776
	str	x9, [sp, #280]
	mov	x9, #3314649325744685056
	str	x9, [sp, #296]
	mov	x9, #50577534877696
	str	x9, [sp, #304]
	mov	w9, #771751936
	str	x9, [sp, #312]
	mov	w9, #11776
	str	x9, [sp, #328]
	mov	x9, #3314649325744685056
	str	x8, [sp, #392]
	mov	x8, #197568495616
	str	x9, [sp, #344]
	mov	x9, #50577534877696
	str	x8, [sp, #408]
	mov	w8, #46
	str	x9, [sp, #360]
	mov	w9, #771751936
	str	w8, [sp, #432]
	mov	x8, #50577534877696
	str	x9, [sp, #376]
	mov	w9, #11776
	str	x8, [sp, #24]
	mov	w8, #3014656
	str	x9, [sp, #384]
	mov	w9, #46
	str	x8, [sp, #416]
	mov	x8, #3314649325744685056
	str	w9, [sp, #404]
	b	4f
2:
	ldrb	w8, [x3, #1]
	cmp	x4, #3
	lsl	x8, x8, #8
	str	x8, [sp, #384]
	b.lo	3f
	ldrb	w8, [x3, #2]
	cmp	x4, #3
	lsl	x8, x8, #16
	str	x8, [sp, #416]
	b.ne	32f
	mov	w9, #11776
	mov	w8, #46
	mov	x6, #3314649325744685056
	str	x9, [sp, #72]
	mov	x9, #3314649325744685056
	mov	w10, #11776
	str	x9, [sp, #80]
	mov	x9, #50577534877696
	mov	w15, #771751936
	str	x9, [sp, #88]
	mov	w9, #771751936
	mov	w0, #771751936
	str	x9, [sp, #96]
	mov	x9, #3314649325744685056
	mov	w25, #11776
	str	x9, [sp, #112]
	mov	x9, #50577534877696
	mov	x11, #50577534877696
	str	x9, [sp, #120]
	mov	w9, #771751936
	mov	w14, #771751936
	str	x9, [sp, #128]
	mov	w9, #11776
	mov	w21, #11776
	str	x9, [sp, #136]
	mov	x9, #3314649325744685056
	str	x9, [sp, #144]
	mov	x9, #50577534877696
	str	x9, [sp, #160]
	mov	w9, #771751936
	str	x9, [sp, #176]
	mov	w9, #11776
	str	x9, [sp, #192]
	mov	x9, #3314649325744685056
	str	x9, [sp, #200]
	mov	x9, #50577534877696
	str	x9, [sp, #208]
	mov	w9, #771751936
	str	x9, [sp, #216]
	mov	w9, #11776
	str	x9, [sp, #224]
	mov	x9, #3314649325744685056
	str	x9, [sp, #240]
	mov	x9, #50577534877696
	str	x9, [sp, #256]
	mov	w9, #771751936
	str	x9, [sp, #264]
	mov	w9, #11776
	str	x9, [sp, #280]
	mov	x9, #3314649325744685056
	str	x9, [sp, #296]
	mov	x9, #50577534877696
	str	x9, [sp, #304]
	mov	w9, #771751936
	str	w8, [sp, #404]
	mov	x8, #12947848928690176
	str	x9, [sp, #312]
	mov	w9, #11776
	str	x8, [sp, #392]
	mov	x8, #197568495616
	str	x9, [sp, #328]
	mov	x9, #3314649325744685056
	str	x8, [sp, #408]
	mov	x8, #50577534877696
	str	x9, [sp, #344]
	mov	x9, #50577534877696
	str	x8, [sp, #24]
	mov	w8, #3014656
	stp	x9, x8, [sp, #360]
	mov	w9, #771751936
	mov	x8, #3314649325744685056
	str	x9, [sp, #376]
	b	5f
3:
	mov	w9, #11776
	mov	w8, #46
	mov	x6, #3314649325744685056
	str	x9, [sp, #72]
	mov	x9, #3314649325744685056
	mov	w10, #11776
	str	x9, [sp, #80]
	mov	x9, #50577534877696
	mov	w15, #771751936
	str	x9, [sp, #88]
	mov	w9, #771751936
	mov	w0, #771751936
	str	x9, [sp, #96]
	mov	x9, #3314649325744685056
	mov	w25, #11776
	str	x9, [sp, #112]
	mov	x9, #50577534877696
	mov	x11, #50577534877696
	str	x9, [sp, #120]
	mov	w9, #771751936
	mov	w14, #771751936
	str	x9, [sp, #128]
	mov	w9, #11776
	mov	w21, #11776
	str	x9, [sp, #136]
	mov	x9, #3314649325744685056
	str	x9, [sp, #144]
	mov	x9, #50577534877696
	str	x9, [sp, #160]
	mov	w9, #771751936
	str	x9, [sp, #176]
	mov	w9, #11776
	str	x9, [sp, #192]
	mov	x9, #3314649325744685056
	str	x9, [sp, #200]
	mov	x9, #50577534877696
	str	x9, [sp, #208]
	mov	w9, #771751936
	str	x9, [sp, #216]
	mov	w9, #11776
	str	x9, [sp, #224]
	mov	x9, #3314649325744685056
	str	x9, [sp, #240]
	mov	x9, #50577534877696
	str	x9, [sp, #256]
	mov	w9, #771751936
	str	x9, [sp, #264]
	mov	w9, #11776
	str	x9, [sp, #280]
	mov	x9, #3314649325744685056
	str	x9, [sp, #296]
	mov	x9, #50577534877696
	str	w8, [sp, #404]
	mov	x8, #12947848928690176
	str	x9, [sp, #304]
	mov	w9, #771751936
	str	x8, [sp, #392]
	mov	x8, #197568495616
	str	x9, [sp, #312]
	mov	w9, #11776
	str	x8, [sp, #408]
	mov	x8, #50577534877696
	str	x9, [sp, #328]
	mov	x9, #3314649325744685056
	str	x8, [sp, #24]
	mov	w8, #3014656
	str	x9, [sp, #344]
	mov	x9, #50577534877696
	str	x8, [sp, #416]
	mov	x8, #3314649325744685056
	str	x9, [sp, #360]
	mov	w9, #771751936
	str	x9, [sp, #376]
4:
	mov	w9, #3014656
	str	x9, [sp, #368]
5:
	mov	x9, #197568495616
	str	x9, [sp, #352]
6:
	mov	x9, #12947848928690176
	str	x9, [sp, #336]
7:
	mov	w9, #46
	str	w9, [sp, #324]
8:
	mov	w9, #3014656
	str	x9, [sp, #288]
9:
	mov	x9, #197568495616
	str	x9, [sp, #272]
10:
	mov	x9, #12947848928690176
	str	x9, [sp, #248]
11:
	mov	w9, #46
	str	w9, [sp, #236]
12:
	mov	w9, #3014656
	str	x9, [sp, #184]
13:
	mov	x9, #197568495616
	str	x9, [sp, #152]
14:
	mov	x9, #12947848928690176
	str	x9, [sp, #104]
15:
	mov	w9, #46
	mov	w30, #3014656
	mov	x13, #197568495616
	str	w9, [sp, #68]
	mov	x1, #12947848928690176
16:
	str	w9, [sp, #64]
	mov	w2, #3014656
	mov	x16, #197568495616
	mov	x17, #12947848928690176
17:
	str	w9, [sp, #60]
	mov	w7, #3014656
	mov	x19, #197568495616
	mov	x20, #12947848928690176
18:
	str	w9, [sp, #56]
	mov	w22, #3014656
	mov	x23, #197568495616
	mov	x24, #12947848928690176
19:
	str	w9, [sp, #52]
20:
	mov	w26, #3014656
21:
	mov	x27, #197568495616
22:
	mov	x28, #12947848928690176
23:
	mov	w5, #46
24:
	mov	w9, #3014656
25:
	mov	x12, #197568495616
	str	x12, [sp, #32]
26:
	str	w5, [sp, #48]
	mov	x5, x10
	cmp	x4, #78
	str	x9, [sp, #40]
	str	x15, [sp, #168]
	b.lo	27f
	ldrb	w9, [x3, #77]
	cmp	x4, #78
	lsl	x15, x9, #40
	b.ne	30f
	mov	x9, #3314649325744685056
	b	28f
27:
	mov	x9, #3314649325744685056
	mov	x15, #50577534877696
28:
	mov	x10, #12947848928690176
29:
	orr	x12, x28, x6
	orr	x0, x0, x27
	orr	x8, x24, x8
	str	x12, [sp, #16]
	ldr	x12, [sp, #24]
	orr	x14, x14, x23
	orr	x11, x14, x11
	orr	x21, x21, x7
	orr	x25, x25, x26
	orr	x0, x0, x12
	ldr	x12, [sp, #72]
	str	x8, [sp, #72]
	ldr	x8, [sp, #96]
	str	x11, [sp, #24]
	orr	x10, x10, x9
	orr	x6, x12, x22
	orr	x11, x8, x19
	ldr	x8, [sp, #80]
	orr	x8, x20, x8
	str	x8, [sp, #96]
	ldr	x8, [sp, #136]
	orr	x12, x8, x2
	ldr	x8, [sp, #88]
	orr	x4, x11, x8
	ldr	x8, [sp, #128]
	orr	x11, x8, x16
	ldr	x8, [sp, #112]
	orr	x3, x17, x8
	ldr	x8, [sp, #120]
	orr	x17, x11, x8
	ldr	x8, [sp, #192]
	orr	x30, x8, x30
	ldr	x8, [sp, #176]
	orr	x11, x8, x13
	ldr	x8, [sp, #160]
	orr	x13, x11, x8
	ldr	x8, [sp, #144]
	ldr	x11, [sp, #184]
	orr	x16, x1, x8
	ldr	x8, [sp, #224]
	orr	x14, x8, x11
	ldr	x8, [sp, #216]
	ldr	x11, [sp, #152]
	orr	x7, x8, x11
	ldr	x8, [sp, #200]
	ldr	x11, [sp, #104]
	orr	x1, x11, x8
	ldp	x11, x8, [sp, #280]
	orr	x11, x11, x8
	ldr	x8, [sp, #208]
	orr	x7, x7, x8
	ldp	x2, x8, [sp, #264]
	orr	x20, x2, x8
	ldp	x2, x8, [sp, #240]
	orr	x19, x8, x2
	ldr	x8, [sp, #256]
	ldr	x2, [sp, #328]
	orr	x20, x20, x8
	ldr	x8, [sp, #368]
	orr	x28, x2, x8
	ldr	x8, [sp, #352]
	ldr	x2, [sp, #312]
	orr	x22, x2, x8
	ldp	x2, x8, [sp, #296]
	orr	x23, x22, x8
	ldr	x8, [sp, #336]
	orr	x22, x8, x2
	ldr	x8, [sp, #416]
	ldr	x2, [sp, #384]
	orr	x27, x2, x8
	ldr	x8, [sp, #408]
	ldr	x2, [sp, #376]
	orr	x26, x2, x8
	ldr	x8, [sp, #392]
	ldr	x2, [sp, #344]
	orr	x24, x8, x2
	ldp	x2, x8, [sp, #32]
	orr	x5, x5, x8
	ldr	x8, [sp, #360]
	orr	x26, x26, x8
	ldr	x8, [sp, #168]
	orr	x2, x8, x2
	ldr	x8, [sp, #456]
	orr	x9, x2, x15
	ldr	w15, [sp, #428]
	strb	wzr, [x8, #3]
	strb	w15, [x8]
	ldr	w15, [sp, #52]
	str	wzr, [x8, #4]
	mov	w15, w15
	orr	x15, x25, x15
	orr	x25, x15, x0
	ldp	w15, w0, [sp, #56]
	mov	w15, w15
	mov	w0, w0
	orr	x6, x6, x15
	ldr	w15, [sp, #64]
	orr	x21, x21, x0
	ldr	w0, [sp, #236]
	mov	w15, w15
	orr	x12, x12, x15
	ldr	w15, [sp, #68]
	mov	w2, w0
	orr	x14, x14, x2
	ldr	w2, [sp, #432]
	mov	w15, w15
	orr	x14, x14, x7
	orr	x0, x30, x15
	ldr	w15, [sp, #324]
	mov	w2, w2
	orr	x2, x27, x2
	orr	x13, x0, x13
	orr	x14, x14, x1
	mov	w15, w15
	orr	x2, x2, x26
	ldr	w26, [sp, #48]
	orr	x11, x11, x15
	ldr	w15, [sp, #404]
	orr	x2, x2, x24
	orr	x11, x11, x20
	ldr	w27, [sp, #436]
	mov	w26, w26
	mov	w15, w15
	orr	x11, x11, x19
	orr	x15, x28, x15
	stp	x11, x14, [x8, #24]
	orr	x11, x13, x16
	orr	x15, x15, x23
	ldr	x14, [sp, #96]
	strb	w27, [x8, #1]
	orr	x15, x15, x22
	ldr	x27, [sp, #440]
	stp	x2, x15, [x8, #8]
	orr	x15, x12, x17
	orr	x12, x21, x4
	orr	x13, x15, x3
	orr	x12, x12, x14
	strb	w27, [x8, #2]
	stp	x11, x13, [x8, #40]
	ldr	x11, [sp, #24]
	ldr	x13, [sp, #72]
	orr	x11, x6, x11
	orr	x13, x11, x13
	orr	x11, x5, x26
	stp	x12, x13, [x8, #56]
	ldr	x12, [sp, #16]
	orr	x9, x11, x9
	orr	x9, x9, x10
	orr	x12, x25, x12
	stp	x12, x9, [x8, #72]
	add	sp, sp, #448
	ldp	x20, x19, [sp, #80]
	ldp	x22, x21, [sp, #64]
	ldp	x24, x23, [sp, #48]
	ldp	x26, x25, [sp, #32]
	ldp	x28, x27, [sp, #16]
	ldr	x30, [sp], #96
	ret
30:
	ldrb	w9, [x3, #78]
	cmp	x4, #80
	lsl	x10, x9, #48
	b.lo	31f
	ldrb	w9, [x3, #79]
	lsl	x9, x9, #56
	b	29b
31:
	mov	x9, #3314649325744685056
	b	29b
32:
	ldrb	w8, [x3, #3]
	cmp	x4, #5
	lsl	x8, x8, #24
	str	x8, [sp, #376]
	b.lo	33f
	ldrb	w8, [x3, #4]
	cmp	x4, #5
	lsl	x8, x8, #32
	str	x8, [sp, #408]
	b.ne	34f
	mov	w9, #11776
	mov	x8, #197568495616
	mov	x6, #3314649325744685056
	str	x9, [sp, #72]
	mov	x9, #3314649325744685056
	mov	w10, #11776
	str	x9, [sp, #80]
	mov	x9, #50577534877696
	mov	w15, #771751936
	str	x9, [sp, #88]
	mov	w9, #771751936
	mov	w0, #771751936
	str	x9, [sp, #96]
	mov	x9, #3314649325744685056
	mov	w25, #11776
	str	x9, [sp, #112]
	mov	x9, #50577534877696
	mov	x11, #50577534877696
	str	x9, [sp, #120]
	mov	w9, #771751936
	mov	w14, #771751936
	str	x9, [sp, #128]
	mov	w9, #11776
	mov	w21, #11776
	str	x9, [sp, #136]
	mov	x9, #3314649325744685056
	str	x9, [sp, #144]
	mov	x9, #50577534877696
	str	x9, [sp, #160]
	mov	w9, #771751936
	str	x9, [sp, #176]
	mov	w9, #11776
	str	x9, [sp, #192]
	mov	x9, #3314649325744685056
	str	x9, [sp, #200]
	mov	x9, #50577534877696
	str	x9, [sp, #208]
	mov	w9, #771751936
	str	x9, [sp, #216]
	mov	w9, #11776
	str	x9, [sp, #224]
	mov	x9, #3314649325744685056
	str	x9, [sp, #240]
	mov	x9, #50577534877696
	str	x9, [sp, #256]
	mov	w9, #771751936
	str	x9, [sp, #264]
	mov	w9, #11776
	str	x9, [sp, #280]
	mov	x9, #3314649325744685056
	str	x9, [sp, #296]
	mov	x9, #50577534877696
	str	x8, [sp, #352]
	mov	w8, #46
	str	x9, [sp, #304]
	mov	w9, #771751936
	str	w8, [sp, #404]
	mov	x8, #12947848928690176
	str	x9, [sp, #312]
	mov	w9, #11776
	str	x8, [sp, #392]
	mov	x8, #50577534877696
	str	x9, [sp, #328]
	mov	x9, #3314649325744685056
	str	x8, [sp, #24]
	mov	w8, #3014656
	str	x9, [sp, #344]
	mov	x9, #50577534877696
	stp	x9, x8, [sp, #360]
	mov	x8, #3314649325744685056
	b	6b
33:
	mov	w9, #11776
	mov	w8, #46
	mov	x6, #3314649325744685056
	str	x9, [sp, #72]
	mov	x9, #3314649325744685056
	mov	w10, #11776
	str	x9, [sp, #80]
	mov	x9, #50577534877696
	mov	w15, #771751936
	str	x9, [sp, #88]
	mov	w9, #771751936
	mov	w0, #771751936
	str	x9, [sp, #96]
	mov	x9, #3314649325744685056
	mov	w25, #11776
	str	x9, [sp, #112]
	mov	x9, #50577534877696
	mov	x11, #50577534877696
	str	x9, [sp, #120]
	mov	w9, #771751936
	mov	w14, #771751936
	str	x9, [sp, #128]
	mov	w9, #11776
	mov	w21, #11776
	str	x9, [sp, #136]
	mov	x9, #3314649325744685056
	str	x9, [sp, #144]
	mov	x9, #50577534877696
	str	x9, [sp, #160]
	mov	w9, #771751936
	str	x9, [sp, #176]
	mov	w9, #11776
	str	x9, [sp, #192]
	mov	x9, #3314649325744685056
	str	x9, [sp, #200]
	mov	x9, #50577534877696
	str	x9, [sp, #208]
	mov	w9, #771751936
	str	x9, [sp, #216]
	mov	w9, #11776
	str	x9, [sp, #224]
	mov	x9, #3314649325744685056
	str	x9, [sp, #240]
	mov	x9, #50577534877696
	str	x9, [sp, #256]
	mov	w9, #771751936
	str	x9, [sp, #264]
	mov	w9, #11776
	str	x9, [sp, #280]
	mov	x9, #3314649325744685056
	str	x9, [sp, #296]
	mov	x9, #50577534877696
	str	w8, [sp, #404]
	mov	x8, #12947848928690176
	str	x9, [sp, #304]
	mov	w9, #771751936
	str	x8, [sp, #392]
	mov	x8, #197568495616
	str	x9, [sp, #312]
	mov	w9, #11776
	str	x8, [sp, #408]
	mov	x8, #50577534877696
	str	x9, [sp, #328]
	mov	x9, #3314649325744685056
	str	x8, [sp, #24]
	mov	w8, #3014656
	str	x9, [sp, #344]
	mov	x9, #50577534877696
	stp	x9, x8, [sp, #360]
	mov	x8, #3314649325744685056
	b	5b
34:
	ldrb	w8, [x3, #5]
	cmp	x4, #7
	lsl	x8, x8, #40
	str	x8, [sp, #360]
	b.lo	35f
	ldrb	w8, [x3, #6]
	cmp	x4, #7
	lsl	x8, x8, #48
	str	x8, [sp, #392]
	b.ne	36f
	mov	w9, #11776
	mov	x8, #12947848928690176
	mov	x6, #3314649325744685056
	str	x9, [sp, #72]
	mov	x9, #3314649325744685056
	mov	w10, #11776
	str	x9, [sp, #80]
	mov	x9, #50577534877696
	mov	w15, #771751936
	str	x9, [sp, #88]
	mov	w9, #771751936
	mov	w0, #771751936
	str	x9, [sp, #96]
	mov	x9, #3314649325744685056
	mov	w25, #11776
	str	x9, [sp, #112]
	mov	x9, #50577534877696
	mov	x11, #50577534877696
	str	x9, [sp, #120]
	mov	w9, #771751936
	mov	w14, #771751936
	str	x9, [sp, #128]
	mov	w9, #11776
	mov	w21, #11776
	str	x9, [sp, #136]
	mov	x9, #3314649325744685056
	str	x9, [sp, #144]
	mov	x9, #50577534877696
	str	x9, [sp, #160]
	mov	w9, #771751936
	str	x9, [sp, #176]
	mov	w9, #11776
	str	x9, [sp, #192]
	mov	x9, #3314649325744685056
	str	x9, [sp, #200]
	mov	x9, #50577534877696
	str	x9, [sp, #208]
	mov	w9, #771751936
	str	x9, [sp, #216]
	mov	w9, #11776
	str	x9, [sp, #224]
	mov	x9, #3314649325744685056
	str	x9, [sp, #240]
	mov	x9, #50577534877696
	str	x9, [sp, #256]
	mov	w9, #771751936
	str	x9, [sp, #264]
	mov	w9, #11776
	str	x9, [sp, #280]
	mov	x9, #3314649325744685056
	str	x8, [sp, #336]
	mov	x8, #197568495616
	str	x9, [sp, #296]
	mov	x9, #50577534877696
	str	x8, [sp, #352]
	mov	w8, #46
	str	x9, [sp, #304]
	mov	w9, #771751936
	str	w8, [sp, #404]
	mov	x8, #50577534877696
	str	x9, [sp, #312]
	mov	w9, #11776
	str	x8, [sp, #24]
	mov	w8, #3014656
	str	x9, [sp, #328]
	mov	x9, #3314649325744685056
	str	x8, [sp, #368]
	mov	x8, #3314649325744685056
	str	x9, [sp, #344]
	b	7b
35:
	mov	w9, #11776
	mov	x8, #197568495616
	mov	x6, #3314649325744685056
	str	x9, [sp, #72]
	mov	x9, #3314649325744685056
	mov	w10, #11776
	str	x9, [sp, #80]
	mov	x9, #50577534877696
	mov	w15, #771751936
	str	x9, [sp, #88]
	mov	w9, #771751936
	mov	w0, #771751936
	str	x9, [sp, #96]
	mov	x9, #3314649325744685056
	mov	w25, #11776
	str	x9, [sp, #112]
	mov	x9, #50577534877696
	mov	x11, #50577534877696
	str	x9, [sp, #120]
	mov	w9, #771751936
	mov	w14, #771751936
	str	x9, [sp, #128]
	mov	w9, #11776
	mov	w21, #11776
	str	x9, [sp, #136]
	mov	x9, #3314649325744685056
	str	x9, [sp, #144]
	mov	x9, #50577534877696
	str	x9, [sp, #160]
	mov	w9, #771751936
	str	x9, [sp, #176]
	mov	w9, #11776
	str	x9, [sp, #192]
	mov	x9, #3314649325744685056
	str	x9, [sp, #200]
	mov	x9, #50577534877696
	str	x9, [sp, #208]
	mov	w9, #771751936
	str	x9, [sp, #216]
	mov	w9, #11776
	str	x9, [sp, #224]
	mov	x9, #3314649325744685056
	str	x9, [sp, #240]
	mov	x9, #50577534877696
	str	x9, [sp, #256]
	mov	w9, #771751936
	str	x9, [sp, #264]
	mov	w9, #11776
	str	x9, [sp, #280]
	mov	x9, #3314649325744685056
	str	x8, [sp, #352]
	mov	w8, #46
	str	x9, [sp, #296]
	mov	x9, #50577534877696
	str	w8, [sp, #404]
	mov	x8, #12947848928690176
	str	x9, [sp, #304]
	mov	w9, #771751936
	str	x8, [sp, #392]
	mov	x8, #50577534877696
	str	x9, [sp, #312]
	mov	w9, #11776
	str	x8, [sp, #24]
	mov	w8, #3014656
	str	x9, [sp, #328]
	mov	x9, #3314649325744685056
	str	x8, [sp, #368]
	mov	x8, #3314649325744685056
	str	x9, [sp, #344]
	b	6b
36:
	ldrb	w8, [x3, #7]
	cmp	x4, #9
	lsl	x8, x8, #56
	str	x8, [sp, #344]
	b.lo	37f
	ldrb	w8, [x3, #8]
	cmp	x4, #9
	str	w8, [sp, #404]
	b.ne	38f
	mov	w9, #11776
	mov	w8, #46
	mov	x6, #3314649325744685056
	str	x9, [sp, #72]
	mov	x9, #3314649325744685056
	mov	w10, #11776
	str	x9, [sp, #80]
	mov	x9, #50577534877696
	mov	w15, #771751936
	str	x9, [sp, #88]
	mov	w9, #771751936
	mov	w0, #771751936
	str	x9, [sp, #96]
	mov	x9, #3314649325744685056
	mov	w25, #11776
	str	x9, [sp, #112]
	mov	x9, #50577534877696
	mov	x11, #50577534877696
	str	x9, [sp, #120]
	mov	w9, #771751936
	mov	w14, #771751936
	str	x9, [sp, #128]
	mov	w9, #11776
	mov	w21, #11776
	str	x9, [sp, #136]
	mov	x9, #3314649325744685056
	str	x9, [sp, #144]
	mov	x9, #50577534877696
	str	x9, [sp, #160]
	mov	w9, #771751936
	str	x9, [sp, #176]
	mov	w9, #11776
	str	x9, [sp, #192]
	mov	x9, #3314649325744685056
	str	x9, [sp, #200]
	mov	x9, #50577534877696
	str	x9, [sp, #208]
	mov	w9, #771751936
	str	x9, [sp, #216]
	mov	w9, #11776
	str	x9, [sp, #224]
	mov	x9, #3314649325744685056
	str	x9, [sp, #240]
	mov	x9, #50577534877696
	str	x9, [sp, #256]
	mov	w9, #771751936
	str	x9, [sp, #264]
	mov	w9, #11776
	str	w8, [sp, #324]
	mov	x8, #12947848928690176
	str	x9, [sp, #280]
	mov	x9, #3314649325744685056
	str	x8, [sp, #336]
	mov	x8, #197568495616
	str	x9, [sp, #296]
	mov	x9, #50577534877696
	str	x8, [sp, #352]
	mov	x8, #50577534877696
	str	x9, [sp, #304]
	mov	w9, #771751936
	str	x8, [sp, #24]
	mov	w8, #3014656
	str	x9, [sp, #312]
	mov	w9, #11776
	str	x8, [sp, #368]
	mov	x8, #3314649325744685056
	str	x9, [sp, #328]
	b	8b
37:
	mov	w9, #11776
	mov	x8, #12947848928690176
	mov	x6, #3314649325744685056
	str	x9, [sp, #72]
	mov	x9, #3314649325744685056
	mov	w10, #11776
	str	x9, [sp, #80]
	mov	x9, #50577534877696
	mov	w15, #771751936
	str	x9, [sp, #88]
	mov	w9, #771751936
	mov	w0, #771751936
	str	x9, [sp, #96]
	mov	x9, #3314649325744685056
	mov	w25, #11776
	str	x9, [sp, #112]
	mov	x9, #50577534877696
	mov	x11, #50577534877696
	str	x9, [sp, #120]
	mov	w9, #771751936
	mov	w14, #771751936
	str	x9, [sp, #128]
	mov	w9, #11776
	mov	w21, #11776
	str	x9, [sp, #136]
	mov	x9, #3314649325744685056
	str	x9, [sp, #144]
	mov	x9, #50577534877696
	str	x9, [sp, #160]
	mov	w9, #771751936
	str	x9, [sp, #176]
	mov	w9, #11776
	str	x9, [sp, #192]
	mov	x9, #3314649325744685056
	str	x9, [sp, #200]
	mov	x9, #50577534877696
	str	x9, [sp, #208]
	mov	w9, #771751936
	str	x9, [sp, #216]
	mov	w9, #11776
	str	x9, [sp, #224]
	mov	x9, #3314649325744685056
	str	x9, [sp, #240]
	mov	x9, #50577534877696
	str	x9, [sp, #256]
	mov	w9, #771751936
	str	x9, [sp, #264]
	mov	w9, #11776
	str	x8, [sp, #336]
	mov	x8, #197568495616
	str	x9, [sp, #280]
	mov	x9, #3314649325744685056
	str	x8, [sp, #352]
	mov	w8, #46
	str	x9, [sp, #296]
	mov	x9, #50577534877696
	str	w8, [sp, #404]
	mov	x8, #50577534877696
	str	x9, [sp, #304]
	mov	w9, #771751936
	str	x8, [sp, #24]
	mov	w8, #3014656
	str	x9, [sp, #312]
	mov	w9, #11776
	str	x8, [sp, #368]
	mov	x8, #3314649325744685056
	str	x9, [sp, #328]
	b	7b
38:
	ldrb	w8, [x3, #9]
	cmp	x4, #11
	lsl	x8, x8, #8
	str	x8, [sp, #328]
	b.lo	39f
	ldrb	w8, [x3, #10]
	cmp	x4, #11
	lsl	x8, x8, #16
	str	x8, [sp, #368]
	b.ne	40f
	mov	w9, #11776
	mov	w8, #46
	mov	x6, #3314649325744685056
	str	x9, [sp, #72]
	mov	x9, #3314649325744685056
	mov	w10, #11776
	str	x9, [sp, #80]
	mov	x9, #50577534877696
	mov	w15, #771751936
	str	x9, [sp, #88]
	mov	w9, #771751936
	mov	w0, #771751936
	str	x9, [sp, #96]
	mov	x9, #3314649325744685056
	mov	w25, #11776
	str	x9, [sp, #112]
	mov	x9, #50577534877696
	mov	x11, #50577534877696
	str	x9, [sp, #120]
	mov	w9, #771751936
	mov	w14, #771751936
	str	x9, [sp, #128]
	mov	w9, #11776
	mov	w21, #11776
	str	x9, [sp, #136]
	mov	x9, #3314649325744685056
	str	x9, [sp, #144]
	mov	x9, #50577534877696
	str	x9, [sp, #160]
	mov	w9, #771751936
	str	x9, [sp, #176]
	mov	w9, #11776
	str	x9, [sp, #192]
	mov	x9, #3314649325744685056
	str	x9, [sp, #200]
	mov	x9, #50577534877696
	str	x9, [sp, #208]
	mov	w9, #771751936
	str	x9, [sp, #216]
	mov	w9, #11776
	str	x9, [sp, #224]
	mov	x9, #3314649325744685056
	str	x9, [sp, #240]
	mov	x9, #50577534877696
	str	x9, [sp, #256]
	mov	w9, #771751936
	str	w8, [sp, #324]
	mov	x8, #12947848928690176
	str	x9, [sp, #264]
	mov	w9, #11776
	str	x8, [sp, #336]
	mov	x8, #197568495616
	str	x9, [sp, #280]
	mov	x9, #3314649325744685056
	str	x8, [sp, #352]
	mov	x8, #50577534877696
	str	x9, [sp, #296]
	mov	x9, #50577534877696
	str	x8, [sp, #24]
	mov	w8, #3014656
	str	x9, [sp, #304]
	mov	w9, #771751936
	str	x8, [sp, #288]
	mov	x8, #3314649325744685056
	str	x9, [sp, #312]
	b	9b
39:
	mov	w9, #11776
	mov	w8, #46
	mov	x6, #3314649325744685056
	str	x9, [sp, #72]
	mov	x9, #3314649325744685056
	mov	w10, #11776
	str	x9, [sp, #80]
	mov	x9, #50577534877696
	mov	w15, #771751936
	str	x9, [sp, #88]
	mov	w9, #771751936
	mov	w0, #771751936
	str	x9, [sp, #96]
	mov	x9, #3314649325744685056
	mov	w25, #11776
	str	x9, [sp, #112]
	mov	x9, #50577534877696
	mov	x11, #50577534877696
	str	x9, [sp, #120]
	mov	w9, #771751936
	mov	w14, #771751936
	str	x9, [sp, #128]
	mov	w9, #11776
	mov	w21, #11776
	str	x9, [sp, #136]
	mov	x9, #3314649325744685056
	str	x9, [sp, #144]
	mov	x9, #50577534877696
	str	x9, [sp, #160]
	mov	w9, #771751936
	str	x9, [sp, #176]
	mov	w9, #11776
	str	x9, [sp, #192]
	mov	x9, #3314649325744685056
	str	x9, [sp, #200]
	mov	x9, #50577534877696
	str	x9, [sp, #208]
	mov	w9, #771751936
	str	x9, [sp, #216]
	mov	w9, #11776
	str	x9, [sp, #224]
	mov	x9, #3314649325744685056
	str	x9, [sp, #240]
	mov	x9, #50577534877696
	str	x9, [sp, #256]
	mov	w9, #771751936
	str	w8, [sp, #324]
	mov	x8, #12947848928690176
	str	x9, [sp, #264]
	mov	w9, #11776
	str	x8, [sp, #336]
	mov	x8, #197568495616
	str	x9, [sp, #280]
	mov	x9, #3314649325744685056
	str	x8, [sp, #352]
	mov	x8, #50577534877696
	str	x9, [sp, #296]
	mov	x9, #50577534877696
	str	x8, [sp, #24]
	mov	w8, #3014656
	str	x9, [sp, #304]
	mov	w9, #771751936
	str	x8, [sp, #368]
	mov	x8, #3314649325744685056
	str	x9, [sp, #312]
	b	8b
40:
	ldrb	w8, [x3, #11]
	cmp	x4, #13
	lsl	x8, x8, #24
	str	x8, [sp, #312]
	b.lo	41f
	ldrb	w8, [x3, #12]
	cmp	x4, #13
	lsl	x8, x8, #32
	str	x8, [sp, #352]
	b.ne	42f
	mov	w9, #11776
	mov	x8, #197568495616
	mov	x6, #3314649325744685056
	str	x9, [sp, #72]
	mov	x9, #3314649325744685056
	mov	w10, #11776
	str	x9, [sp, #80]
	mov	x9, #50577534877696
	mov	w15, #771751936
	str	x9, [sp, #88]
	mov	w9, #771751936
	mov	w0, #771751936
	str	x9, [sp, #96]
	mov	x9, #3314649325744685056
	mov	w25, #11776
	str	x9, [sp, #112]
	mov	x9, #50577534877696
	mov	x11, #50577534877696
	str	x9, [sp, #120]
	mov	w9, #771751936
	mov	w14, #771751936
	str	x9, [sp, #128]
	mov	w9, #11776
	mov	w21, #11776
	str	x9, [sp, #136]
	mov	x9, #3314649325744685056
	str	x9, [sp, #144]
	mov	x9, #50577534877696
	str	x9, [sp, #160]
	mov	w9, #771751936
	str	x9, [sp, #176]
	mov	w9, #11776
	str	x9, [sp, #192]
	mov	x9, #3314649325744685056
	str	x9, [sp, #200]
	mov	x9, #50577534877696
	str	x9, [sp, #208]
	mov	w9, #771751936
	str	x9, [sp, #216]
	mov	w9, #11776
	str	x9, [sp, #224]
	mov	x9, #3314649325744685056
	str	x9, [sp, #240]
	mov	x9, #50577534877696
	str	x8, [sp, #272]
	mov	w8, #46
	str	x9, [sp, #256]
	mov	w9, #771751936
	str	w8, [sp, #324]
	mov	x8, #12947848928690176
	str	x9, [sp, #264]
	mov	w9, #11776
	str	x8, [sp, #336]
	mov	x8, #50577534877696
	str	x9, [sp, #280]
	mov	x9, #3314649325744685056
	str	x8, [sp, #24]
	mov	w8, #3014656
	stp	x8, x9, [sp, #288]
	mov	x9, #50577534877696
	mov	x8, #3314649325744685056
	str	x9, [sp, #304]
	b	10b
41:
	mov	w9, #11776
	mov	w8, #46
	mov	x6, #3314649325744685056
	str	x9, [sp, #72]
	mov	x9, #3314649325744685056
	mov	w10, #11776
	str	x9, [sp, #80]
	mov	x9, #50577534877696
	mov	w15, #771751936
	str	x9, [sp, #88]
	mov	w9, #771751936
	mov	w0, #771751936
	str	x9, [sp, #96]
	mov	x9, #3314649325744685056
	mov	w25, #11776
	str	x9, [sp, #112]
	mov	x9, #50577534877696
	mov	x11, #50577534877696
	str	x9, [sp, #120]
	mov	w9, #771751936
	mov	w14, #771751936
	str	x9, [sp, #128]
	mov	w9, #11776
	mov	w21, #11776
	str	x9, [sp, #136]
	mov	x9, #3314649325744685056
	str	x9, [sp, #144]
	mov	x9, #50577534877696
	str	x9, [sp, #160]
	mov	w9, #771751936
	str	x9, [sp, #176]
	mov	w9, #11776
	str	x9, [sp, #192]
	mov	x9, #3314649325744685056
	str	x9, [sp, #200]
	mov	x9, #50577534877696
	str	x9, [sp, #208]
	mov	w9, #771751936
	str	x9, [sp, #216]
	mov	w9, #11776
	str	x9, [sp, #224]
	mov	x9, #3314649325744685056
	str	x9, [sp, #240]
	mov	x9, #50577534877696
	str	w8, [sp, #324]
	mov	x8, #12947848928690176
	str	x9, [sp, #256]
	mov	w9, #771751936
	str	x8, [sp, #336]
	mov	x8, #197568495616
	str	x9, [sp, #264]
	mov	w9, #11776
	str	x8, [sp, #352]
	mov	x8, #50577534877696
	str	x9, [sp, #280]
	mov	x9, #3314649325744685056
	str	x8, [sp, #24]
	mov	w8, #3014656
	stp	x8, x9, [sp, #288]
	mov	x9, #50577534877696
	mov	x8, #3314649325744685056
	str	x9, [sp, #304]
	b	9b
42:
	ldrb	w8, [x3, #13]
	cmp	x4, #15
	lsl	x8, x8, #40
	str	x8, [sp, #304]
	b.lo	43f
	ldrb	w8, [x3, #14]
	cmp	x4, #15
	lsl	x8, x8, #48
	str	x8, [sp, #336]
	b.ne	44f
	mov	w9, #11776
	mov	x8, #12947848928690176
	mov	x6, #3314649325744685056
	str	x9, [sp, #72]
	mov	x9, #3314649325744685056
	mov	w10, #11776
	str	x9, [sp, #80]
	mov	x9, #50577534877696
	mov	w15, #771751936
	str	x9, [sp, #88]
	mov	w9, #771751936
	mov	w0, #771751936
	str	x9, [sp, #96]
	mov	x9, #3314649325744685056
	mov	w25, #11776
	str	x9, [sp, #112]
	mov	x9, #50577534877696
	mov	x11, #50577534877696
	str	x9, [sp, #120]
	mov	w9, #771751936
	mov	w14, #771751936
	str	x9, [sp, #128]
	mov	w9, #11776
	mov	w21, #11776
	str	x9, [sp, #136]
	mov	x9, #3314649325744685056
	str	x9, [sp, #144]
	mov	x9, #50577534877696
	str	x9, [sp, #160]
	mov	w9, #771751936
	str	x9, [sp, #176]
	mov	w9, #11776
	str	x9, [sp, #192]
	mov	x9, #3314649325744685056
	str	x9, [sp, #200]
	mov	x9, #50577534877696
	str	x9, [sp, #208]
	mov	w9, #771751936
	str	x9, [sp, #216]
	mov	w9, #11776
	str	x9, [sp, #224]
	mov	x9, #3314649325744685056
	stp	x9, x8, [sp, #240]
	mov	x8, #197568495616
	mov	x9, #50577534877696
	str	x8, [sp, #272]
	mov	w8, #46
	str	x9, [sp, #256]
	mov	w9, #771751936
	str	w8, [sp, #324]
	mov	x8, #50577534877696
	str	x9, [sp, #264]
	mov	w9, #11776
	str	x8, [sp, #24]
	mov	w8, #3014656
	stp	x9, x8, [sp, #280]
	mov	x9, #3314649325744685056
	mov	x8, #3314649325744685056
	str	x9, [sp, #296]
	b	11b
43:
	mov	w9, #11776
	mov	x8, #197568495616
	mov	x6, #3314649325744685056
	str	x9, [sp, #72]
	mov	x9, #3314649325744685056
	mov	w10, #11776
	str	x9, [sp, #80]
	mov	x9, #50577534877696
	mov	w15, #771751936
	str	x9, [sp, #88]
	mov	w9, #771751936
	mov	w0, #771751936
	str	x9, [sp, #96]
	mov	x9, #3314649325744685056
	mov	w25, #11776
	str	x9, [sp, #112]
	mov	x9, #50577534877696
	mov	x11, #50577534877696
	str	x9, [sp, #120]
	mov	w9, #771751936
	mov	w14, #771751936
	str	x9, [sp, #128]
	mov	w9, #11776
	mov	w21, #11776
	str	x9, [sp, #136]
	mov	x9, #3314649325744685056
	str	x9, [sp, #144]
	mov	x9, #50577534877696
	str	x9, [sp, #160]
	mov	w9, #771751936
	str	x9, [sp, #176]
	mov	w9, #11776
	str	x9, [sp, #192]
	mov	x9, #3314649325744685056
	str	x9, [sp, #200]
	mov	x9, #50577534877696
	str	x9, [sp, #208]
	mov	w9, #771751936
	str	x9, [sp, #216]
	mov	w9, #11776
	str	x9, [sp, #224]
	mov	x9, #3314649325744685056
	str	x8, [sp, #272]
	mov	w8, #46
	str	x9, [sp, #240]
	mov	x9, #50577534877696
	str	w8, [sp, #324]
	mov	x8, #12947848928690176
	str	x9, [sp, #256]
	mov	w9, #771751936
	str	x8, [sp, #336]
	mov	x8, #50577534877696
	str	x9, [sp, #264]
	mov	w9, #11776
	str	x8, [sp, #24]
	mov	w8, #3014656
	stp	x9, x8, [sp, #280]
	mov	x9, #3314649325744685056
	mov	x8, #3314649325744685056
	str	x9, [sp, #296]
	b	10b
44:
	ldrb	w8, [x3, #15]
	cmp	x4, #17
	lsl	x8, x8, #56
	str	x8, [sp, #296]
	b.lo	45f
	ldrb	w8, [x3, #16]
	cmp	x4, #17
	str	w8, [sp, #324]
	b.ne	46f
	mov	w9, #11776
	mov	w8, #46
	mov	x6, #3314649325744685056
	str	x9, [sp, #72]
	mov	x9, #3314649325744685056
	mov	w10, #11776
	str	x9, [sp, #80]
	mov	x9, #50577534877696
	mov	w15, #771751936
	str	x9, [sp, #88]
	mov	w9, #771751936
	mov	w0, #771751936
	str	x9, [sp, #96]
	mov	x9, #3314649325744685056
	mov	w25, #11776
	str	x9, [sp, #112]
	mov	x9, #50577534877696
	mov	x11, #50577534877696
	str	x9, [sp, #120]
	mov	w9, #771751936
	mov	w14, #771751936
	str	x9, [sp, #128]
	mov	w9, #11776
	mov	w21, #11776
	str	x9, [sp, #136]
	mov	x9, #3314649325744685056
	str	x9, [sp, #144]
	mov	x9, #50577534877696
	str	x9, [sp, #160]
	mov	w9, #771751936
	str	x9, [sp, #176]
	mov	w9, #11776
	str	x9, [sp, #192]
	mov	x9, #3314649325744685056
	str	x9, [sp, #200]
	mov	x9, #50577534877696
	str	x9, [sp, #208]
	mov	w9, #771751936
	str	x9, [sp, #216]
	mov	w9, #11776
	str	w8, [sp, #236]
	mov	x8, #12947848928690176
	str	x9, [sp, #224]
	mov	x9, #3314649325744685056
	stp	x9, x8, [sp, #240]
	mov	x8, #197568495616
	mov	x9, #50577534877696
	str	x8, [sp, #272]
	mov	x8, #50577534877696
	str	x9, [sp, #256]
	mov	w9, #771751936
	str	x8, [sp, #24]
	mov	w8, #3014656
	str	x9, [sp, #264]
	mov	w9, #11776
	stp	x9, x8, [sp, #280]
	mov	x8, #3314649325744685056
	b	12b
45:
	mov	w9, #11776
	mov	x8, #12947848928690176
	mov	x6, #3314649325744685056
	str	x9, [sp, #72]
	mov	x9, #3314649325744685056
	mov	w10, #11776
	str	x9, [sp, #80]
	mov	x9, #50577534877696
	mov	w15, #771751936
	str	x9, [sp, #88]
	mov	w9, #771751936
	mov	w0, #771751936
	str	x9, [sp, #96]
	mov	x9, #3314649325744685056
	mov	w25, #11776
	str	x9, [sp, #112]
	mov	x9, #50577534877696
	mov	x11, #50577534877696
	str	x9, [sp, #120]
	mov	w9, #771751936
	mov	w14, #771751936
	str	x9, [sp, #128]
	mov	w9, #11776
	mov	w21, #11776
	str	x9, [sp, #136]
	mov	x9, #3314649325744685056
	str	x9, [sp, #144]
	mov	x9, #50577534877696
	str	x9, [sp, #160]
	mov	w9, #771751936
	str	x9, [sp, #176]
	mov	w9, #11776
	str	x9, [sp, #192]
	mov	x9, #3314649325744685056
	str	x9, [sp, #200]
	mov	x9, #50577534877696
	str	x9, [sp, #208]
	mov	w9, #771751936
	str	x9, [sp, #216]
	mov	w9, #11776
	str	x8, [sp, #248]
	mov	x8, #197568495616
	str	x9, [sp, #224]
	mov	x9, #3314649325744685056
	str	x8, [sp, #272]
	mov	w8, #46
	str	x9, [sp, #240]
	mov	x9, #50577534877696
	str	w8, [sp, #324]
	mov	x8, #50577534877696
	str	x9, [sp, #256]
	mov	w9, #771751936
	str	x8, [sp, #24]
	mov	w8, #3014656
	str	x9, [sp, #264]
	mov	w9, #11776
	stp	x9, x8, [sp, #280]
	mov	x8, #3314649325744685056
	b	11b
46:
	ldrb	w8, [x3, #17]
	cmp	x4, #19
	lsl	x8, x8, #8
	str	x8, [sp, #280]
	b.lo	47f
	ldrb	w8, [x3, #18]
	cmp	x4, #19
	lsl	x8, x8, #16
	str	x8, [sp, #288]
	b.ne	48f
	mov	w9, #11776
	mov	w8, #46
	mov	x6, #3314649325744685056
	str	x9, [sp, #72]
	mov	x9, #3314649325744685056
	mov	w10, #11776
	str	x9, [sp, #80]
	mov	x9, #50577534877696
	mov	w15, #771751936
	str	x9, [sp, #88]
	mov	w9, #771751936
	mov	w0, #771751936
	str	x9, [sp, #96]
	mov	x9, #3314649325744685056
	mov	w25, #11776
	str	x9, [sp, #112]
	mov	x9, #50577534877696
	mov	x11, #50577534877696
	str	x9, [sp, #120]
	mov	w9, #771751936
	mov	w14, #771751936
	str	x9, [sp, #128]
	mov	w9, #11776
	mov	w21, #11776
	str	x9, [sp, #136]
	mov	x9, #3314649325744685056
	str	x9, [sp, #144]
	mov	x9, #50577534877696
	str	x9, [sp, #160]
	mov	w9, #771751936
	str	x9, [sp, #176]
	mov	w9, #11776
	str	x9, [sp, #192]
	mov	x9, #3314649325744685056
	str	x9, [sp, #200]
	mov	x9, #50577534877696
	str	x9, [sp, #208]
	mov	w9, #771751936
	str	w8, [sp, #236]
	mov	x8, #12947848928690176
	str	x9, [sp, #216]
	mov	w9, #11776
	str	x8, [sp, #248]
	mov	x8, #197568495616
	str	x9, [sp, #224]
	mov	x9, #3314649325744685056
	str	x8, [sp, #272]
	mov	x8, #50577534877696
	str	x9, [sp, #240]
	mov	x9, #50577534877696
	str	x8, [sp, #24]
	mov	w8, #3014656
	str	x9, [sp, #256]
	mov	w9, #771751936
	str	x8, [sp, #184]
	mov	x8, #3314649325744685056
	str	x9, [sp, #264]
	b	13b
47:
	mov	w9, #11776
	mov	w8, #46
	mov	x6, #3314649325744685056
	str	x9, [sp, #72]
	mov	x9, #3314649325744685056
	mov	w10, #11776
	str	x9, [sp, #80]
	mov	x9, #50577534877696
	mov	w15, #771751936
	str	x9, [sp, #88]
	mov	w9, #771751936
	mov	w0, #771751936
	str	x9, [sp, #96]
	mov	x9, #3314649325744685056
	mov	w25, #11776
	str	x9, [sp, #112]
	mov	x9, #50577534877696
	mov	x11, #50577534877696
	str	x9, [sp, #120]
	mov	w9, #771751936
	mov	w14, #771751936
	str	x9, [sp, #128]
	mov	w9, #11776
	mov	w21, #11776
	str	x9, [sp, #136]
	mov	x9, #3314649325744685056
	str	x9, [sp, #144]
	mov	x9, #50577534877696
	str	x9, [sp, #160]
	mov	w9, #771751936
	str	x9, [sp, #176]
	mov	w9, #11776
	str	x9, [sp, #192]
	mov	x9, #3314649325744685056
	str	x9, [sp, #200]
	mov	x9, #50577534877696
	str	x9, [sp, #208]
	mov	w9, #771751936
	str	w8, [sp, #236]
	mov	x8, #12947848928690176
	str	x9, [sp, #216]
	mov	w9, #11776
	str	x8, [sp, #248]
	mov	x8, #197568495616
	str	x9, [sp, #224]
	mov	x9, #3314649325744685056
	str	x8, [sp, #272]
	mov	x8, #50577534877696
	str	x9, [sp, #240]
	mov	x9, #50577534877696
	str	x8, [sp, #24]
	mov	w8, #3014656
	str	x9, [sp, #256]
	mov	w9, #771751936
	str	x8, [sp, #288]
	mov	x8, #3314649325744685056
	str	x9, [sp, #264]
	b	12b
48:
	ldrb	w8, [x3, #19]
	cmp	x4, #21
	lsl	x8, x8, #24
	str	x8, [sp, #264]
	b.lo	49f
	ldrb	w8, [x3, #20]
	cmp	x4, #21
	lsl	x8, x8, #32
	str	x8, [sp, #272]
	b.ne	50f
	mov	w9, #11776
	mov	x8, #197568495616
	mov	x6, #3314649325744685056
	str	x9, [sp, #72]
	mov	x9, #3314649325744685056
	mov	w10, #11776
	str	x9, [sp, #80]
	mov	x9, #50577534877696
	mov	w15, #771751936
	str	x9, [sp, #88]
	mov	w9, #771751936
	mov	w0, #771751936
	str	x9, [sp, #96]
	mov	x9, #3314649325744685056
	mov	w25, #11776
	str	x9, [sp, #112]
	mov	x9, #50577534877696
	mov	x11, #50577534877696
	str	x9, [sp, #120]
	mov	w9, #771751936
	mov	w14, #771751936
	str	x9, [sp, #128]
	mov	w9, #11776
	mov	w21, #11776
	str	x9, [sp, #136]
	mov	x9, #3314649325744685056
	stp	x9, x8, [sp, #144]
	mov	x9, #50577534877696
	str	x9, [sp, #160]
	mov	w9, #771751936
	str	x9, [sp, #176]
	mov	w9, #11776
	str	x9, [sp, #192]
	mov	x9, #3314649325744685056
	str	x9, [sp, #200]
	mov	x9, #50577534877696
	mov	w8, #46
	str	x9, [sp, #208]
	mov	w9, #771751936
	str	w8, [sp, #236]
	mov	x8, #12947848928690176
	str	x9, [sp, #216]
	mov	w9, #11776
	str	x8, [sp, #248]
	mov	x8, #50577534877696
	str	x9, [sp, #224]
	mov	x9, #3314649325744685056
	str	x8, [sp, #24]
	mov	w8, #3014656
	str	x9, [sp, #240]
	mov	x9, #50577534877696
	str	x8, [sp, #184]
	mov	x8, #3314649325744685056
	str	x9, [sp, #256]
	b	14b
49:
	mov	w9, #11776
	mov	w8, #46
	mov	x6, #3314649325744685056
	str	x9, [sp, #72]
	mov	x9, #3314649325744685056
	mov	w10, #11776
	str	x9, [sp, #80]
	mov	x9, #50577534877696
	mov	w15, #771751936
	str	x9, [sp, #88]
	mov	w9, #771751936
	mov	w0, #771751936
	str	x9, [sp, #96]
	mov	x9, #3314649325744685056
	mov	w25, #11776
	str	x9, [sp, #112]
	mov	x9, #50577534877696
	mov	x11, #50577534877696
	str	x9, [sp, #120]
	mov	w9, #771751936
	mov	w14, #771751936
	str	x9, [sp, #128]
	mov	w9, #11776
	mov	w21, #11776
	str	x9, [sp, #136]
	mov	x9, #3314649325744685056
	str	x9, [sp, #144]
	mov	x9, #50577534877696
	str	x9, [sp, #160]
	mov	w9, #771751936
	str	x9, [sp, #176]
	mov	w9, #11776
	str	x9, [sp, #192]
	mov	x9, #3314649325744685056
	str	x9, [sp, #200]
	mov	x9, #50577534877696
	str	w8, [sp, #236]
	mov	x8, #12947848928690176
	str	x9, [sp, #208]
	mov	w9, #771751936
	str	x8, [sp, #248]
	mov	x8, #197568495616
	str	x9, [sp, #216]
	mov	w9, #11776
	str	x8, [sp, #272]
	mov	x8, #50577534877696
	str	x9, [sp, #224]
	mov	x9, #3314649325744685056
	str	x8, [sp, #24]
	mov	w8, #3014656
	str	x9, [sp, #240]
	mov	x9, #50577534877696
	str	x8, [sp, #184]
	mov	x8, #3314649325744685056
	str	x9, [sp, #256]
	b	13b
50:
	ldrb	w8, [x3, #21]
	cmp	x4, #23
	lsl	x8, x8, #40
	str	x8, [sp, #256]
	b.lo	51f
	ldrb	w8, [x3, #22]
	cmp	x4, #23
	lsl	x8, x8, #48
	str	x8, [sp, #248]
	b.ne	52f
	mov	w9, #11776
	mov	x8, #12947848928690176
	mov	x6, #3314649325744685056
	str	x9, [sp, #72]
	mov	x9, #3314649325744685056
	mov	w10, #11776
	str	x9, [sp, #80]
	mov	x9, #50577534877696
	mov	w15, #771751936
	str	x9, [sp, #88]
	mov	w9, #771751936
	mov	w0, #771751936
	str	x9, [sp, #96]
	mov	x9, #3314649325744685056
	mov	w25, #11776
	stp	x8, x9, [sp, #104]
	mov	x9, #50577534877696
	mov	x11, #50577534877696
	str	x9, [sp, #120]
	mov	w9, #771751936
	mov	w14, #771751936
	str	x9, [sp, #128]
	mov	w9, #11776
	mov	w21, #11776
	str	x9, [sp, #136]
	mov	x9, #3314649325744685056
	str	x9, [sp, #144]
	mov	x9, #50577534877696
	str	x9, [sp, #160]
	mov	w9, #771751936
	str	x9, [sp, #176]
	mov	w9, #11776
	str	x9, [sp, #192]
	mov	x9, #3314649325744685056
	mov	x8, #197568495616
	str	x9, [sp, #200]
	mov	x9, #50577534877696
	str	x8, [sp, #152]
	mov	w8, #46
	str	x9, [sp, #208]
	mov	w9, #771751936
	str	w8, [sp, #236]
	mov	x8, #50577534877696
	str	x9, [sp, #216]
	mov	w9, #11776
	str	x8, [sp, #24]
	mov	w8, #3014656
	str	x9, [sp, #224]
	mov	x9, #3314649325744685056
	str	x8, [sp, #184]
	mov	x8, #3314649325744685056
	str	x9, [sp, #240]
	b	15b
51:
	mov	w9, #11776
	mov	x8, #197568495616
	mov	x6, #3314649325744685056
	str	x9, [sp, #72]
	mov	x9, #3314649325744685056
	mov	w10, #11776
	str	x9, [sp, #80]
	mov	x9, #50577534877696
	mov	w15, #771751936
	str	x9, [sp, #88]
	mov	w9, #771751936
	mov	w0, #771751936
	str	x9, [sp, #96]
	mov	x9, #3314649325744685056
	mov	w25, #11776
	str	x9, [sp, #112]
	mov	x9, #50577534877696
	mov	x11, #50577534877696
	str	x9, [sp, #120]
	mov	w9, #771751936
	mov	w14, #771751936
	str	x9, [sp, #128]
	mov	w9, #11776
	mov	w21, #11776
	str	x9, [sp, #136]
	mov	x9, #3314649325744685056
	stp	x9, x8, [sp, #144]
	mov	x9, #50577534877696
	str	x9, [sp, #160]
	mov	w9, #771751936
	str	x9, [sp, #176]
	mov	w9, #11776
	str	x9, [sp, #192]
	mov	x9, #3314649325744685056
	mov	w8, #46
	str	x9, [sp, #200]
	mov	x9, #50577534877696
	str	w8, [sp, #236]
	mov	x8, #12947848928690176
	str	x9, [sp, #208]
	mov	w9, #771751936
	str	x8, [sp, #248]
	mov	x8, #50577534877696
	str	x9, [sp, #216]
	mov	w9, #11776
	str	x8, [sp, #24]
	mov	w8, #3014656
	str	x9, [sp, #224]
	mov	x9, #3314649325744685056
	str	x8, [sp, #184]
	mov	x8, #3314649325744685056
	str	x9, [sp, #240]
	b	14b
52:
	ldrb	w8, [x3, #23]
	cmp	x4, #25
	lsl	x8, x8, #56
	str	x8, [sp, #240]
	b.lo	53f
	ldrb	w8, [x3, #24]
	cmp	x4, #25
	str	w8, [sp, #236]
	b.ne	54f
	mov	w9, #11776
	mov	w8, #46
	mov	x6, #3314649325744685056
	str	x9, [sp, #72]
	mov	x9, #3314649325744685056
	mov	w10, #11776
	str	x9, [sp, #80]
	mov	x9, #50577534877696
	mov	w15, #771751936
	str	x9, [sp, #88]
	mov	w9, #771751936
	mov	w0, #771751936
	str	x9, [sp, #96]
	mov	x9, #3314649325744685056
	mov	w25, #11776
	str	x9, [sp, #112]
	mov	x9, #50577534877696
	mov	x11, #50577534877696
	str	x9, [sp, #120]
	mov	w9, #771751936
	mov	w14, #771751936
	str	x9, [sp, #128]
	mov	w9, #11776
	mov	w21, #11776
	str	x9, [sp, #136]
	mov	x9, #3314649325744685056
	str	x9, [sp, #144]
	mov	x9, #50577534877696
	str	x9, [sp, #160]
	mov	w9, #771751936
	str	x9, [sp, #176]
	mov	w9, #11776
	str	w8, [sp, #68]
	mov	x8, #12947848928690176
	str	x9, [sp, #192]
	mov	x9, #3314649325744685056
	str	x8, [sp, #104]
	mov	x8, #197568495616
	str	x9, [sp, #200]
	mov	x9, #50577534877696
	str	x8, [sp, #152]
	mov	x8, #50577534877696
	str	x9, [sp, #208]
	mov	w9, #771751936
	str	x8, [sp, #24]
	mov	w8, #3014656
	str	x9, [sp, #216]
	mov	w9, #11776
	str	x8, [sp, #184]
	mov	x8, #3314649325744685056
	str	x9, [sp, #224]
	b	56f
53:
	mov	w9, #11776
	mov	x8, #12947848928690176
	mov	x6, #3314649325744685056
	str	x9, [sp, #72]
	mov	x9, #3314649325744685056
	mov	w10, #11776
	str	x9, [sp, #80]
	mov	x9, #50577534877696
	mov	w15, #771751936
	str	x9, [sp, #88]
	mov	w9, #771751936
	mov	w0, #771751936
	stp	x9, x8, [sp, #96]
	mov	x9, #3314649325744685056
	mov	w25, #11776
	str	x9, [sp, #112]
	mov	x9, #50577534877696
	mov	x11, #50577534877696
	str	x9, [sp, #120]
	mov	w9, #771751936
	mov	w14, #771751936
	str	x9, [sp, #128]
	mov	w9, #11776
	mov	w21, #11776
	str	x9, [sp, #136]
	mov	x9, #3314649325744685056
	str	x9, [sp, #144]
	mov	x9, #50577534877696
	str	x9, [sp, #160]
	mov	w9, #771751936
	str	x9, [sp, #176]
	mov	w9, #11776
	mov	x8, #197568495616
	str	x9, [sp, #192]
	mov	x9, #3314649325744685056
	str	x8, [sp, #152]
	mov	w8, #46
	str	x9, [sp, #200]
	mov	x9, #50577534877696
	str	w8, [sp, #236]
	mov	x8, #50577534877696
	str	x9, [sp, #208]
	mov	w9, #771751936
	str	x8, [sp, #24]
	mov	w8, #3014656
	str	x9, [sp, #216]
	mov	w9, #11776
	str	x8, [sp, #184]
	mov	x8, #3314649325744685056
	str	x9, [sp, #224]
	b	15b
54:
	ldrb	w8, [x3, #25]
	cmp	x4, #27
	lsl	x8, x8, #8
	str	x8, [sp, #224]
	b.lo	55f
	ldrb	w8, [x3, #26]
	cmp	x4, #27
	lsl	x8, x8, #16
	str	x8, [sp, #184]
	b.ne	60f
	mov	w9, #11776
	mov	w8, #46
	mov	x6, #3314649325744685056
	str	x9, [sp, #72]
	mov	x9, #3314649325744685056
	mov	w30, #3014656
	str	x9, [sp, #80]
	mov	x9, #50577534877696
	mov	w10, #11776
	str	x9, [sp, #88]
	mov	w9, #771751936
	mov	w15, #771751936
	str	x9, [sp, #96]
	mov	x9, #3314649325744685056
	mov	w0, #771751936
	str	x9, [sp, #112]
	mov	x9, #50577534877696
	mov	w25, #11776
	str	x9, [sp, #120]
	mov	w9, #771751936
	mov	x11, #50577534877696
	str	x9, [sp, #128]
	mov	w9, #11776
	mov	w14, #771751936
	str	x9, [sp, #136]
	mov	x9, #3314649325744685056
	mov	w21, #11776
	str	x9, [sp, #144]
	mov	x9, #50577534877696
	str	x9, [sp, #160]
	mov	w9, #771751936
	str	x9, [sp, #176]
	mov	w9, #11776
	str	w8, [sp, #68]
	mov	x8, #12947848928690176
	str	x9, [sp, #192]
	mov	x9, #3314649325744685056
	str	x8, [sp, #104]
	mov	x8, #197568495616
	str	x9, [sp, #200]
	mov	x9, #50577534877696
	str	x8, [sp, #152]
	mov	x8, #50577534877696
	str	x9, [sp, #208]
	mov	w9, #771751936
	str	x8, [sp, #24]
	mov	x8, #3314649325744685056
	str	x9, [sp, #216]
	b	57f
55:
	mov	w9, #11776
	mov	w8, #46
	mov	x6, #3314649325744685056
	str	x9, [sp, #72]
	mov	x9, #3314649325744685056
	mov	w10, #11776
	str	x9, [sp, #80]
	mov	x9, #50577534877696
	mov	w15, #771751936
	str	x9, [sp, #88]
	mov	w9, #771751936
	mov	w0, #771751936
	str	x9, [sp, #96]
	mov	x9, #3314649325744685056
	mov	w25, #11776
	str	x9, [sp, #112]
	mov	x9, #50577534877696
	mov	x11, #50577534877696
	str	x9, [sp, #120]
	mov	w9, #771751936
	mov	w14, #771751936
	str	x9, [sp, #128]
	mov	w9, #11776
	mov	w21, #11776
	str	x9, [sp, #136]
	mov	x9, #3314649325744685056
	str	x9, [sp, #144]
	mov	x9, #50577534877696
	str	w8, [sp, #68]
	mov	x8, #12947848928690176
	str	x9, [sp, #160]
	mov	w9, #771751936
	str	x8, [sp, #104]
	mov	x8, #197568495616
	str	x9, [sp, #176]
	mov	w9, #11776
	str	x8, [sp, #152]
	mov	x8, #50577534877696
	str	x9, [sp, #192]
	mov	x9, #3314649325744685056
	str	x8, [sp, #24]
	mov	w8, #3014656
	str	x9, [sp, #200]
	mov	x9, #50577534877696
	str	x8, [sp, #184]
	mov	x8, #3314649325744685056
	str	x9, [sp, #208]
	mov	w9, #771751936
	str	x9, [sp, #216]
56:
	mov	w30, #3014656
57:
	mov	x13, #197568495616
58:
	mov	x1, #12947848928690176
59:
	mov	w9, #46
	b	16b
60:
	ldrb	w8, [x3, #27]
	cmp	x4, #29
	lsl	x8, x8, #24
	str	x8, [sp, #216]
	b.lo	61f
	ldrb	w8, [x3, #28]
	cmp	x4, #29
	lsl	x8, x8, #32
	str	x8, [sp, #152]
	b.ne	62f
	mov	w9, #11776
	mov	w8, #46
	mov	x13, #197568495616
	str	x9, [sp, #72]
	mov	x9, #3314649325744685056
	mov	x6, #3314649325744685056
	str	x9, [sp, #80]
	mov	x9, #50577534877696
	mov	w30, #3014656
	str	x9, [sp, #88]
	mov	w9, #771751936
	mov	w10, #11776
	str	x9, [sp, #96]
	mov	x9, #3314649325744685056
	mov	w15, #771751936
	str	x9, [sp, #112]
	mov	x9, #50577534877696
	mov	w0, #771751936
	str	x9, [sp, #120]
	mov	w9, #771751936
	mov	w25, #11776
	str	x9, [sp, #128]
	mov	w9, #11776
	mov	x11, #50577534877696
	str	x9, [sp, #136]
	mov	x9, #3314649325744685056
	mov	w14, #771751936
	str	x9, [sp, #144]
	mov	x9, #50577534877696
	mov	w21, #11776
	str	x9, [sp, #160]
	mov	w9, #771751936
	str	x9, [sp, #176]
	mov	w9, #11776
	str	w8, [sp, #68]
	mov	x8, #12947848928690176
	str	x9, [sp, #192]
	mov	x9, #3314649325744685056
	str	x8, [sp, #104]
	mov	x8, #50577534877696
	str	x9, [sp, #200]
	mov	x9, #50577534877696
	str	x8, [sp, #24]
	mov	x8, #3314649325744685056
	str	x9, [sp, #208]
	b	58b
61:
	mov	w9, #11776
	mov	w8, #46
	mov	x6, #3314649325744685056
	str	x9, [sp, #72]
	mov	x9, #3314649325744685056
	mov	w30, #3014656
	str	x9, [sp, #80]
	mov	x9, #50577534877696
	mov	w10, #11776
	str	x9, [sp, #88]
	mov	w9, #771751936
	mov	w15, #771751936
	str	x9, [sp, #96]
	mov	x9, #3314649325744685056
	mov	w0, #771751936
	str	x9, [sp, #112]
	mov	x9, #50577534877696
	mov	w25, #11776
	str	x9, [sp, #120]
	mov	w9, #771751936
	mov	x11, #50577534877696
	str	x9, [sp, #128]
	mov	w9, #11776
	mov	w14, #771751936
	str	x9, [sp, #136]
	mov	x9, #3314649325744685056
	mov	w21, #11776
	str	x9, [sp, #144]
	mov	x9, #50577534877696
	str	x9, [sp, #160]
	mov	w9, #771751936
	str	w8, [sp, #68]
	mov	x8, #12947848928690176
	str	x9, [sp, #176]
	mov	w9, #11776
	str	x8, [sp, #104]
	mov	x8, #197568495616
	str	x9, [sp, #192]
	mov	x9, #3314649325744685056
	str	x8, [sp, #152]
	mov	x8, #50577534877696
	str	x9, [sp, #200]
	mov	x9, #50577534877696
	str	x8, [sp, #24]
	mov	x8, #3314649325744685056
	str	x9, [sp, #208]
	b	57b
62:
	ldrb	w8, [x3, #29]
	cmp	x4, #31
	lsl	x8, x8, #40
	str	x8, [sp, #208]
	b.lo	63f
	ldrb	w8, [x3, #30]
	cmp	x4, #31
	lsl	x8, x8, #48
	str	x8, [sp, #104]
	b.ne	64f
	mov	w9, #11776
	mov	w8, #46
	mov	x1, #12947848928690176
	str	x9, [sp, #72]
	mov	x9, #3314649325744685056
	mov	x13, #197568495616
	str	x9, [sp, #80]
	mov	x9, #50577534877696
	mov	x6, #3314649325744685056
	str	x9, [sp, #88]
	mov	w9, #771751936
	mov	w30, #3014656
	str	x9, [sp, #96]
	mov	x9, #3314649325744685056
	mov	w10, #11776
	str	x9, [sp, #112]
	mov	x9, #50577534877696
	mov	w15, #771751936
	str	x9, [sp, #120]
	mov	w9, #771751936
	mov	w0, #771751936
	str	x9, [sp, #128]
	mov	w9, #11776
	mov	w25, #11776
	str	x9, [sp, #136]
	mov	x9, #3314649325744685056
	mov	x11, #50577534877696
	str	x9, [sp, #144]
	mov	x9, #50577534877696
	mov	w14, #771751936
	str	x9, [sp, #160]
	mov	w9, #771751936
	mov	w21, #11776
	str	x9, [sp, #176]
	mov	w9, #11776
	str	w8, [sp, #68]
	mov	x8, #50577534877696
	str	x9, [sp, #192]
	mov	x9, #3314649325744685056
	str	x8, [sp, #24]
	mov	x8, #3314649325744685056
	str	x9, [sp, #200]
	b	59b
63:
	mov	w9, #11776
	mov	w8, #46
	mov	x13, #197568495616
	str	x9, [sp, #72]
	mov	x9, #3314649325744685056
	mov	x6, #3314649325744685056
	str	x9, [sp, #80]
	mov	x9, #50577534877696
	mov	w30, #3014656
	str	x9, [sp, #88]
	mov	w9, #771751936
	mov	w10, #11776
	str	x9, [sp, #96]
	mov	x9, #3314649325744685056
	mov	w15, #771751936
	str	x9, [sp, #112]
	mov	x9, #50577534877696
	mov	w0, #771751936
	str	x9, [sp, #120]
	mov	w9, #771751936
	mov	w25, #11776
	str	x9, [sp, #128]
	mov	w9, #11776
	mov	x11, #50577534877696
	str	x9, [sp, #136]
	mov	x9, #3314649325744685056
	mov	w14, #771751936
	str	x9, [sp, #144]
	mov	x9, #50577534877696
	mov	w21, #11776
	str	x9, [sp, #160]
	mov	w9, #771751936
	str	w8, [sp, #68]
	mov	x8, #12947848928690176
	str	x9, [sp, #176]
	mov	w9, #11776
	str	x8, [sp, #104]
	mov	x8, #50577534877696
	str	x9, [sp, #192]
	mov	x9, #3314649325744685056
	str	x8, [sp, #24]
	mov	x8, #3314649325744685056
	str	x9, [sp, #200]
	b	58b
64:
	ldrb	w8, [x3, #31]
	cmp	x4, #33
	lsl	x8, x8, #56
	str	x8, [sp, #200]
	b.lo	65f
	ldrb	w8, [x3, #32]
	cmp	x4, #33
	str	w8, [sp, #68]
	b.ne	66f
	mov	w9, #11776
	mov	w8, #46
	mov	x1, #12947848928690176
	str	x9, [sp, #72]
	mov	x9, #3314649325744685056
	mov	x13, #197568495616
	str	x9, [sp, #80]
	mov	x9, #50577534877696
	mov	x6, #3314649325744685056
	str	x9, [sp, #88]
	mov	w9, #771751936
	mov	w30, #3014656
	str	x9, [sp, #96]
	mov	x9, #3314649325744685056
	mov	w10, #11776
	str	x9, [sp, #112]
	mov	x9, #50577534877696
	mov	w15, #771751936
	str	x9, [sp, #120]
	mov	w9, #771751936
	mov	w0, #771751936
	str	x9, [sp, #128]
	mov	w9, #11776
	mov	w25, #11776
	str	x9, [sp, #136]
	mov	x9, #3314649325744685056
	mov	x11, #50577534877696
	str	x9, [sp, #144]
	mov	x9, #50577534877696
	mov	w14, #771751936
	str	x9, [sp, #160]
	mov	w9, #771751936
	mov	w21, #11776
	str	w8, [sp, #64]
	mov	x8, #50577534877696
	str	x9, [sp, #176]
	mov	w9, #11776
	str	x8, [sp, #24]
	mov	x8, #3314649325744685056
	str	x9, [sp, #192]
	b	68f
65:
	mov	w9, #11776
	mov	w8, #46
	mov	x1, #12947848928690176
	str	x9, [sp, #72]
	mov	x9, #3314649325744685056
	mov	x13, #197568495616
	str	x9, [sp, #80]
	mov	x9, #50577534877696
	mov	x6, #3314649325744685056
	str	x9, [sp, #88]
	mov	w9, #771751936
	mov	w30, #3014656
	str	x9, [sp, #96]
	mov	x9, #3314649325744685056
	mov	w10, #11776
	str	x9, [sp, #112]
	mov	x9, #50577534877696
	mov	w15, #771751936
	str	x9, [sp, #120]
	mov	w9, #771751936
	mov	w0, #771751936
	str	x9, [sp, #128]
	mov	w9, #11776
	mov	w25, #11776
	str	x9, [sp, #136]
	mov	x9, #3314649325744685056
	mov	x11, #50577534877696
	str	x9, [sp, #144]
	mov	x9, #50577534877696
	mov	w14, #771751936
	str	x9, [sp, #160]
	mov	w9, #771751936
	mov	w21, #11776
	str	w8, [sp, #68]
	mov	x8, #50577534877696
	str	x9, [sp, #176]
	mov	w9, #11776
	str	x8, [sp, #24]
	mov	x8, #3314649325744685056
	str	x9, [sp, #192]
	b	59b
66:
	ldrb	w8, [x3, #33]
	cmp	x4, #35
	lsl	x8, x8, #8
	str	x8, [sp, #192]
	b.lo	67f
	ldrb	w8, [x3, #34]
	cmp	x4, #35
	lsl	x30, x8, #16
	b.ne	72f
	mov	w9, #11776
	mov	w8, #46
	mov	x1, #12947848928690176
	str	x9, [sp, #72]
	mov	x9, #3314649325744685056
	mov	x13, #197568495616
	str	x9, [sp, #80]
	mov	x9, #50577534877696
	mov	x6, #3314649325744685056
	str	x9, [sp, #88]
	mov	w9, #771751936
	mov	w2, #3014656
	str	x9, [sp, #96]
	mov	x9, #3314649325744685056
	mov	w10, #11776
	str	x9, [sp, #112]
	mov	x9, #50577534877696
	mov	w15, #771751936
	str	x9, [sp, #120]
	mov	w9, #771751936
	mov	w0, #771751936
	str	x9, [sp, #128]
	mov	w9, #11776
	mov	w25, #11776
	str	x9, [sp, #136]
	mov	x9, #3314649325744685056
	mov	x11, #50577534877696
	str	x9, [sp, #144]
	mov	x9, #50577534877696
	mov	w14, #771751936
	str	w8, [sp, #64]
	mov	x8, #50577534877696
	mov	w21, #11776
	str	x9, [sp, #160]
	mov	w9, #771751936
	str	x8, [sp, #24]
	mov	x8, #3314649325744685056
	str	x9, [sp, #176]
	b	69f
67:
	mov	w9, #11776
	mov	w8, #46
	mov	x1, #12947848928690176
	str	x9, [sp, #72]
	mov	x9, #3314649325744685056
	mov	x13, #197568495616
	str	x9, [sp, #80]
	mov	x9, #50577534877696
	mov	x6, #3314649325744685056
	str	x9, [sp, #88]
	mov	w9, #771751936
	mov	w30, #3014656
	str	x9, [sp, #96]
	mov	x9, #3314649325744685056
	mov	w10, #11776
	str	x9, [sp, #112]
	mov	x9, #50577534877696
	mov	w15, #771751936
	str	x9, [sp, #120]
	mov	w9, #771751936
	mov	w0, #771751936
	str	x9, [sp, #128]
	mov	w9, #11776
	mov	w25, #11776
	str	x9, [sp, #136]
	mov	x9, #3314649325744685056
	mov	x11, #50577534877696
	str	w8, [sp, #64]
	mov	x8, #50577534877696
	mov	w14, #771751936
	str	x9, [sp, #144]
	mov	x9, #50577534877696
	mov	w21, #11776
	str	x8, [sp, #24]
	mov	x8, #3314649325744685056
	str	x9, [sp, #160]
	mov	w9, #771751936
	str	x9, [sp, #176]
68:
	mov	w2, #3014656
69:
	mov	x16, #197568495616
70:
	mov	x17, #12947848928690176
71:
	mov	w9, #46
	b	17b
72:
	ldrb	w8, [x3, #35]
	cmp	x4, #37
	lsl	x8, x8, #24
	str	x8, [sp, #176]
	b.lo	73f
	ldrb	w8, [x3, #36]
	cmp	x4, #37
	lsl	x13, x8, #32
	b.ne	74f
	mov	w9, #11776
	mov	w8, #46
	mov	x16, #197568495616
	str	x9, [sp, #72]
	mov	x9, #3314649325744685056
	mov	x1, #12947848928690176
	str	x9, [sp, #80]
	mov	x9, #50577534877696
	mov	x6, #3314649325744685056
	str	x9, [sp, #88]
	mov	w9, #771751936
	mov	w2, #3014656
	str	x9, [sp, #96]
	mov	x9, #3314649325744685056
	mov	w10, #11776
	str	x9, [sp, #112]
	mov	x9, #50577534877696
	mov	w15, #771751936
	str	x9, [sp, #120]
	mov	w9, #771751936
	mov	w0, #771751936
	str	x9, [sp, #128]
	mov	w9, #11776
	mov	w25, #11776
	str	x9, [sp, #136]
	mov	x9, #3314649325744685056
	mov	x11, #50577534877696
	str	w8, [sp, #64]
	mov	x8, #50577534877696
	mov	w14, #771751936
	str	x9, [sp, #144]
	mov	x9, #50577534877696
	mov	w21, #11776
	str	x8, [sp, #24]
	mov	x8, #3314649325744685056
	str	x9, [sp, #160]
	b	70b
73:
	mov	w9, #11776
	mov	w8, #46
	mov	x1, #12947848928690176
	str	x9, [sp, #72]
	mov	x9, #3314649325744685056
	mov	x13, #197568495616
	str	x9, [sp, #80]
	mov	x9, #50577534877696
	mov	x6, #3314649325744685056
	str	x9, [sp, #88]
	mov	w9, #771751936
	mov	w2, #3014656
	str	x9, [sp, #96]
	mov	x9, #3314649325744685056
	mov	w10, #11776
	str	x9, [sp, #112]
	mov	x9, #50577534877696
	mov	w15, #771751936
	str	x9, [sp, #120]
	mov	w9, #771751936
	mov	w0, #771751936
	str	x9, [sp, #128]
	mov	w9, #11776
	mov	w25, #11776
	str	x9, [sp, #136]
	mov	x9, #3314649325744685056
	mov	x11, #50577534877696
	str	w8, [sp, #64]
	mov	x8, #50577534877696
	mov	w14, #771751936
	str	x9, [sp, #144]
	mov	x9, #50577534877696
	mov	w21, #11776
	str	x8, [sp, #24]
	mov	x8, #3314649325744685056
	str	x9, [sp, #160]
	b	69b
74:
	ldrb	w8, [x3, #37]
	cmp	x4, #39
	lsl	x8, x8, #40
	str	x8, [sp, #160]
	b.lo	75f
	ldrb	w8, [x3, #38]
	cmp	x4, #39
	lsl	x1, x8, #48
	b.ne	76f
	mov	w9, #11776
	mov	w8, #46
	mov	x17, #12947848928690176
	str	x9, [sp, #72]
	mov	x9, #3314649325744685056
	mov	x16, #197568495616
	str	x9, [sp, #80]
	mov	x9, #50577534877696
	mov	x6, #3314649325744685056
	str	x9, [sp, #88]
	mov	w9, #771751936
	mov	w2, #3014656
	str	x9, [sp, #96]
	mov	x9, #3314649325744685056
	mov	w10, #11776
	str	x9, [sp, #112]
	mov	x9, #50577534877696
	mov	w15, #771751936
	str	x9, [sp, #120]
	mov	w9, #771751936
	mov	w0, #771751936
	str	x9, [sp, #128]
	mov	w9, #11776
	mov	w25, #11776
	str	w8, [sp, #64]
	mov	x8, #50577534877696
	mov	x11, #50577534877696
	str	x9, [sp, #136]
	mov	x9, #3314649325744685056
	mov	w14, #771751936
	str	x8, [sp, #24]
	mov	x8, #3314649325744685056
	mov	w21, #11776
	str	x9, [sp, #144]
	b	71b
75:
	mov	w9, #11776
	mov	w8, #46
	mov	x16, #197568495616
	str	x9, [sp, #72]
	mov	x9, #3314649325744685056
	mov	x1, #12947848928690176
	str	x9, [sp, #80]
	mov	x9, #50577534877696
	mov	x6, #3314649325744685056
	str	x9, [sp, #88]
	mov	w9, #771751936
	mov	w2, #3014656
	str	x9, [sp, #96]
	mov	x9, #3314649325744685056
	mov	w10, #11776
	str	x9, [sp, #112]
	mov	x9, #50577534877696
	mov	w15, #771751936
	str	x9, [sp, #120]
	mov	w9, #771751936
	mov	w0, #771751936
	str	x9, [sp, #128]
	mov	w9, #11776
	mov	w25, #11776
	str	w8, [sp, #64]
	mov	x8, #50577534877696
	mov	x11, #50577534877696
	str	x9, [sp, #136]
	mov	x9, #3314649325744685056
	mov	w14, #771751936
	str	x8, [sp, #24]
	mov	x8, #3314649325744685056
	mov	w21, #11776
	str	x9, [sp, #144]
	b	70b
76:
	ldrb	w8, [x3, #39]
	cmp	x4, #41
	lsl	x8, x8, #56
	str	x8, [sp, #144]
	b.lo	77f
	ldrb	w8, [x3, #40]
	cmp	x4, #41
	str	w8, [sp, #64]
	b.ne	78f
	mov	w9, #11776
	mov	w8, #46
	mov	x17, #12947848928690176
	str	x9, [sp, #72]
	mov	x9, #3314649325744685056
	mov	x16, #197568495616
	str	x9, [sp, #80]
	mov	x9, #50577534877696
	mov	x6, #3314649325744685056
	str	x9, [sp, #88]
	mov	w9, #771751936
	mov	w2, #3014656
	str	x9, [sp, #96]
	mov	x9, #3314649325744685056
	mov	w10, #11776
	str	x9, [sp, #112]
	mov	x9, #50577534877696
	mov	w15, #771751936
	str	x9, [sp, #120]
	mov	w9, #771751936
	mov	w0, #771751936
	str	w8, [sp, #60]
	mov	x8, #50577534877696
	mov	w25, #11776
	str	x9, [sp, #128]
	mov	w9, #11776
	mov	x11, #50577534877696
	str	x8, [sp, #24]
	mov	x8, #3314649325744685056
	mov	w14, #771751936
	mov	w21, #11776
	str	x9, [sp, #136]
	b	80f
77:
	mov	w9, #11776
	mov	w8, #46
	mov	x17, #12947848928690176
	str	x9, [sp, #72]
	mov	x9, #3314649325744685056
	mov	x16, #197568495616
	str	x9, [sp, #80]
	mov	x9, #50577534877696
	mov	x6, #3314649325744685056
	str	x9, [sp, #88]
	mov	w9, #771751936
	mov	w2, #3014656
	str	x9, [sp, #96]
	mov	x9, #3314649325744685056
	mov	w10, #11776
	str	x9, [sp, #112]
	mov	x9, #50577534877696
	mov	w15, #771751936
	str	x9, [sp, #120]
	mov	w9, #771751936
	mov	w0, #771751936
	str	w8, [sp, #64]
	mov	x8, #50577534877696
	mov	w25, #11776
	str	x9, [sp, #128]
	mov	w9, #11776
	mov	x11, #50577534877696
	str	x8, [sp, #24]
	mov	x8, #3314649325744685056
	mov	w14, #771751936
	mov	w21, #11776
	str	x9, [sp, #136]
	b	71b
78:
	ldrb	w8, [x3, #41]
	cmp	x4, #43
	lsl	x8, x8, #8
	str	x8, [sp, #136]
	b.lo	79f
	ldrb	w8, [x3, #42]
	cmp	x4, #43
	lsl	x2, x8, #16
	b.ne	84f
	mov	w9, #11776
	mov	w8, #46
	mov	x17, #12947848928690176
	str	x9, [sp, #72]
	mov	x9, #3314649325744685056
	mov	x16, #197568495616
	str	x9, [sp, #80]
	mov	x9, #50577534877696
	mov	x6, #3314649325744685056
	str	x9, [sp, #88]
	mov	w9, #771751936
	mov	w7, #3014656
	str	x9, [sp, #96]
	mov	x9, #3314649325744685056
	mov	w10, #11776
	str	x9, [sp, #112]
	mov	x9, #50577534877696
	mov	w15, #771751936
	str	w8, [sp, #60]
	mov	x8, #50577534877696
	mov	w0, #771751936
	str	x9, [sp, #120]
	mov	w9, #771751936
	mov	w25, #11776
	str	x8, [sp, #24]
	mov	x8, #3314649325744685056
	mov	x11, #50577534877696
	mov	w14, #771751936
	mov	w21, #11776
	str	x9, [sp, #128]
	b	81f
79:
	mov	w9, #11776
	mov	w8, #46
	mov	x17, #12947848928690176
	str	x9, [sp, #72]
	mov	x9, #3314649325744685056
	mov	x16, #197568495616
	str	x9, [sp, #80]
	mov	x9, #50577534877696
	mov	x6, #3314649325744685056
	str	x9, [sp, #88]
	mov	w9, #771751936
	mov	w2, #3014656
	str	x9, [sp, #96]
	mov	x9, #3314649325744685056
	mov	w10, #11776
	str	w8, [sp, #60]
	mov	x8, #50577534877696
	mov	w15, #771751936
	str	x9, [sp, #112]
	mov	x9, #50577534877696
	mov	w0, #771751936
	str	x8, [sp, #24]
	mov	w25, #11776
	mov	x8, #3314649325744685056
	mov	x11, #50577534877696
	mov	w14, #771751936
	mov	w21, #11776
	str	x9, [sp, #120]
	mov	w9, #771751936
	str	x9, [sp, #128]
80:
	mov	w7, #3014656
81:
	mov	x19, #197568495616
82:
	mov	x20, #12947848928690176
83:
	mov	w9, #46
	b	18b
84:
	ldrb	w8, [x3, #43]
	cmp	x4, #45
	lsl	x8, x8, #24
	str	x8, [sp, #128]
	b.lo	85f
	ldrb	w8, [x3, #44]
	cmp	x4, #45
	lsl	x16, x8, #32
	b.ne	86f
	mov	w9, #11776
	mov	w8, #46
	mov	x19, #197568495616
	str	x9, [sp, #72]
	mov	x9, #3314649325744685056
	mov	x17, #12947848928690176
	str	x9, [sp, #80]
	mov	x9, #50577534877696
	mov	x6, #3314649325744685056
	str	x9, [sp, #88]
	mov	w9, #771751936
	mov	w7, #3014656
	str	x9, [sp, #96]
	mov	x9, #3314649325744685056
	mov	w10, #11776
	str	w8, [sp, #60]
	mov	x8, #50577534877696
	mov	w15, #771751936
	str	x9, [sp, #112]
	mov	x9, #50577534877696
	mov	w0, #771751936
	str	x8, [sp, #24]
	mov	w25, #11776
	mov	x8, #3314649325744685056
	mov	x11, #50577534877696
	mov	w14, #771751936
	mov	w21, #11776
	str	x9, [sp, #120]
	b	82b
85:
	mov	w9, #11776
	mov	w8, #46
	mov	x17, #12947848928690176
	str	x9, [sp, #72]
	mov	x9, #3314649325744685056
	mov	x16, #197568495616
	str	x9, [sp, #80]
	mov	x9, #50577534877696
	mov	x6, #3314649325744685056
	str	x9, [sp, #88]
	mov	w9, #771751936
	mov	w7, #3014656
	str	x9, [sp, #96]
	mov	x9, #3314649325744685056
	mov	w10, #11776
	str	w8, [sp, #60]
	mov	x8, #50577534877696
	mov	w15, #771751936
	str	x9, [sp, #112]
	mov	x9, #50577534877696
	mov	w0, #771751936
	str	x8, [sp, #24]
	mov	w25, #11776
	mov	x8, #3314649325744685056
	mov	x11, #50577534877696
	mov	w14, #771751936
	mov	w21, #11776
	str	x9, [sp, #120]
	b	81b
86:
	ldrb	w8, [x3, #45]
	cmp	x4, #47
	lsl	x8, x8, #40
	str	x8, [sp, #120]
	b.lo	87f
	ldrb	w8, [x3, #46]
	cmp	x4, #47
	lsl	x17, x8, #48
	b.ne	88f
	mov	w9, #11776
	mov	w8, #46
	mov	x20, #12947848928690176
	str	x9, [sp, #72]
	mov	x9, #3314649325744685056
	mov	x19, #197568495616
	str	x9, [sp, #80]
	mov	x9, #50577534877696
	mov	x6, #3314649325744685056
	str	x9, [sp, #88]
	mov	w9, #771751936
	mov	w7, #3014656
	str	w8, [sp, #60]
	mov	x8, #50577534877696
	mov	w10, #11776
	str	x9, [sp, #96]
	mov	x9, #3314649325744685056
	mov	w15, #771751936
	str	x8, [sp, #24]
	mov	w0, #771751936
	mov	w25, #11776
	mov	x8, #3314649325744685056
	mov	x11, #50577534877696
	mov	w14, #771751936
	mov	w21, #11776
	str	x9, [sp, #112]
	b	83b
87:
	mov	w9, #11776
	mov	w8, #46
	mov	x19, #197568495616
	str	x9, [sp, #72]
	mov	x9, #3314649325744685056
	mov	x17, #12947848928690176
	str	x9, [sp, #80]
	mov	x9, #50577534877696
	mov	x6, #3314649325744685056
	str	x9, [sp, #88]
	mov	w9, #771751936
	mov	w7, #3014656
	str	w8, [sp, #60]
	mov	x8, #50577534877696
	mov	w10, #11776
	str	x9, [sp, #96]
	mov	x9, #3314649325744685056
	mov	w15, #771751936
	str	x8, [sp, #24]
	mov	w0, #771751936
	mov	w25, #11776
	mov	x8, #3314649325744685056
	mov	x11, #50577534877696
	mov	w14, #771751936
	mov	w21, #11776
	str	x9, [sp, #112]
	b	82b
88:
	ldrb	w8, [x3, #47]
	cmp	x4, #49
	lsl	x8, x8, #56
	str	x8, [sp, #112]
	b.lo	89f
	ldrb	w8, [x3, #48]
	cmp	x4, #49
	str	w8, [sp, #60]
	b.ne	90f
	mov	w9, #11776
	mov	w8, #46
	mov	x20, #12947848928690176
	str	x9, [sp, #72]
	mov	x9, #3314649325744685056
	mov	x19, #197568495616
	str	x9, [sp, #80]
	mov	x9, #50577534877696
	mov	x6, #3314649325744685056
	str	w8, [sp, #56]
	mov	x8, #50577534877696
	mov	w7, #3014656
	str	x9, [sp, #88]
	mov	w9, #771751936
	mov	w10, #11776
	str	x8, [sp, #24]
	mov	w15, #771751936
	mov	w0, #771751936
	mov	w25, #11776
	mov	x8, #3314649325744685056
	mov	x11, #50577534877696
	mov	w14, #771751936
	str	x9, [sp, #96]
	mov	w21, #11776
	b	92f
89:
	mov	w9, #11776
	mov	w8, #46
	mov	x20, #12947848928690176
	str	x9, [sp, #72]
	mov	x9, #3314649325744685056
	mov	x19, #197568495616
	str	x9, [sp, #80]
	mov	x9, #50577534877696
	mov	x6, #3314649325744685056
	str	w8, [sp, #60]
	mov	x8, #50577534877696
	mov	w7, #3014656
	str	x9, [sp, #88]
	mov	w9, #771751936
	mov	w10, #11776
	str	x8, [sp, #24]
	mov	w15, #771751936
	mov	w0, #771751936
	mov	w25, #11776
	mov	x8, #3314649325744685056
	mov	x11, #50577534877696
	mov	w14, #771751936
	str	x9, [sp, #96]
	mov	w21, #11776
	b	83b
90:
	ldrb	w8, [x3, #49]
	cmp	x4, #51
	lsl	x21, x8, #8
	b.lo	91f
	ldrb	w8, [x3, #50]
	cmp	x4, #51
	lsl	x7, x8, #16
	b.ne	96f
	mov	w9, #11776
	mov	w8, #46
	mov	x20, #12947848928690176
	str	x9, [sp, #72]
	mov	x9, #3314649325744685056
	mov	x19, #197568495616
	str	x9, [sp, #80]
	mov	x9, #50577534877696
	mov	x6, #3314649325744685056
	str	w8, [sp, #56]
	mov	x8, #50577534877696
	mov	w22, #3014656
	str	x9, [sp, #88]
	mov	w9, #771751936
	mov	w10, #11776
	str	x8, [sp, #24]
	mov	w15, #771751936
	mov	w0, #771751936
	mov	w25, #11776
	mov	x8, #3314649325744685056
	mov	x11, #50577534877696
	mov	w14, #771751936
	str	x9, [sp, #96]
	b	93f
91:
	mov	w9, #11776
	mov	w8, #46
	mov	x20, #12947848928690176
	str	x9, [sp, #72]
	mov	x9, #3314649325744685056
	mov	x19, #197568495616
	str	w8, [sp, #56]
	mov	x8, #50577534877696
	mov	x6, #3314649325744685056
	str	x9, [sp, #80]
	mov	x9, #50577534877696
	mov	w7, #3014656
	str	x8, [sp, #24]
	mov	w10, #11776
	mov	w15, #771751936
	mov	w0, #771751936
	mov	w25, #11776
	mov	x8, #3314649325744685056
	mov	x11, #50577534877696
	mov	w14, #771751936
	str	x9, [sp, #88]
	mov	w9, #771751936
	str	x9, [sp, #96]
92:
	mov	w22, #3014656
93:
	mov	x23, #197568495616
94:
	mov	x24, #12947848928690176
95:
	mov	w9, #46
	b	19b
96:
	ldrb	w8, [x3, #51]
	cmp	x4, #53
	lsl	x8, x8, #24
	str	x8, [sp, #96]
	b.lo	97f
	ldrb	w8, [x3, #52]
	cmp	x4, #53
	lsl	x19, x8, #32
	b.ne	98f
	mov	w9, #11776
	mov	w8, #46
	mov	x23, #197568495616
	str	x9, [sp, #72]
	mov	x9, #3314649325744685056
	mov	x20, #12947848928690176
	str	w8, [sp, #56]
	mov	x8, #50577534877696
	mov	x6, #3314649325744685056
	str	x9, [sp, #80]
	mov	x9, #50577534877696
	mov	w22, #3014656
	str	x8, [sp, #24]
	mov	w10, #11776
	mov	w15, #771751936
	mov	w0, #771751936
	mov	w25, #11776
	mov	x8, #3314649325744685056
	mov	x11, #50577534877696
	mov	w14, #771751936
	str	x9, [sp, #88]
	b	94b
97:
	mov	w9, #11776
	mov	w8, #46
	mov	x20, #12947848928690176
	str	x9, [sp, #72]
	mov	x9, #3314649325744685056
	mov	x19, #197568495616
	str	w8, [sp, #56]
	mov	x8, #50577534877696
	mov	x6, #3314649325744685056
	str	x9, [sp, #80]
	mov	x9, #50577534877696
	mov	w22, #3014656
	str	x8, [sp, #24]
	mov	w10, #11776
	mov	w15, #771751936
	mov	w0, #771751936
	mov	w25, #11776
	mov	x8, #3314649325744685056
	mov	x11, #50577534877696
	mov	w14, #771751936
	str	x9, [sp, #88]
	b	93b
98:
	ldrb	w8, [x3, #53]
	cmp	x4, #55
	lsl	x8, x8, #40
	str	x8, [sp, #88]
	b.lo	99f
	ldrb	w8, [x3, #54]
	cmp	x4, #55
	lsl	x20, x8, #48
	b.ne	100f
	mov	w8, #46
	mov	w9, #11776
	mov	x24, #12947848928690176
	str	w8, [sp, #56]
	mov	x8, #50577534877696
	mov	x23, #197568495616
	str	x9, [sp, #72]
	mov	x9, #3314649325744685056
	mov	x6, #3314649325744685056
	str	x8, [sp, #24]
	mov	w22, #3014656
	mov	w10, #11776
	mov	w15, #771751936
	mov	w0, #771751936
	mov	w25, #11776
	mov	x8, #3314649325744685056
	mov	x11, #50577534877696
	mov	w14, #771751936
	str	x9, [sp, #80]
	b	95b
99:
	mov	w8, #46
	mov	w9, #11776
	mov	x23, #197568495616
	str	w8, [sp, #56]
	mov	x8, #50577534877696
	mov	x20, #12947848928690176
	str	x9, [sp, #72]
	mov	x9, #3314649325744685056
	mov	x6, #3314649325744685056
	str	x8, [sp, #24]
	mov	w22, #3014656
	mov	w10, #11776
	mov	w15, #771751936
	mov	w0, #771751936
	mov	w25, #11776
	mov	x8, #3314649325744685056
	mov	x11, #50577534877696
	mov	w14, #771751936
	str	x9, [sp, #80]
	b	94b
100:
	ldrb	w8, [x3, #55]
	cmp	x4, #57
	lsl	x8, x8, #56
	str	x8, [sp, #80]
	b.lo	101f
	ldrb	w8, [x3, #56]
	cmp	x4, #57
	str	w8, [sp, #56]
	b.ne	102f
	mov	w8, #46
	mov	w9, #11776
	mov	x24, #12947848928690176
	str	w8, [sp, #52]
	mov	x8, #50577534877696
	mov	x23, #197568495616
	str	x8, [sp, #24]
	mov	x6, #3314649325744685056
	mov	w22, #3014656
	mov	w10, #11776
	mov	w15, #771751936
	mov	w0, #771751936
	mov	w25, #11776
	mov	x8, #3314649325744685056
	mov	x11, #50577534877696
	mov	w14, #771751936
	str	x9, [sp, #72]
	b	20b
101:
	mov	w8, #46
	mov	w9, #11776
	mov	x24, #12947848928690176
	str	w8, [sp, #56]
	mov	x8, #50577534877696
	mov	x23, #197568495616
	str	x8, [sp, #24]
	mov	x6, #3314649325744685056
	mov	w22, #3014656
	mov	w10, #11776
	mov	w15, #771751936
	mov	w0, #771751936
	mov	w25, #11776
	mov	x8, #3314649325744685056
	mov	x11, #50577534877696
	mov	w14, #771751936
	str	x9, [sp, #72]
	b	95b
102:
	ldrb	w8, [x3, #57]
	cmp	x4, #59
	lsl	x8, x8, #8
	str	x8, [sp, #72]
	b.lo	103f
	ldrb	w8, [x3, #58]
	cmp	x4, #59
	lsl	x22, x8, #16
	b.ne	104f
	mov	w8, #46
	mov	x24, #12947848928690176
	mov	x23, #197568495616
	str	w8, [sp, #52]
	mov	x8, #50577534877696
	mov	x6, #3314649325744685056
	str	x8, [sp, #24]
	mov	w26, #3014656
	mov	w10, #11776
	mov	w15, #771751936
	mov	w0, #771751936
	mov	w25, #11776
	mov	x8, #3314649325744685056
	mov	x11, #50577534877696
	mov	w14, #771751936
	b	21b
103:
	mov	w8, #46
	mov	x24, #12947848928690176
	mov	x23, #197568495616
	str	w8, [sp, #52]
	mov	x8, #50577534877696
	mov	x6, #3314649325744685056
	str	x8, [sp, #24]
	mov	w22, #3014656
	mov	w10, #11776
	mov	w15, #771751936
	mov	w0, #771751936
	mov	w25, #11776
	mov	x8, #3314649325744685056
	mov	x11, #50577534877696
	mov	w14, #771751936
	b	20b
104:
	ldrb	w8, [x3, #59]
	cmp	x4, #61
	lsl	x14, x8, #24
	b.lo	105f
	ldrb	w8, [x3, #60]
	cmp	x4, #61
	lsl	x23, x8, #32
	b.ne	106f
	mov	w8, #46
	mov	x27, #197568495616
	mov	x24, #12947848928690176
	str	w8, [sp, #52]
	mov	x8, #50577534877696
	mov	x6, #3314649325744685056
	str	x8, [sp, #24]
	mov	w26, #3014656
	mov	w10, #11776
	mov	w15, #771751936
	mov	w0, #771751936
	mov	w25, #11776
	mov	x8, #3314649325744685056
	mov	x11, #50577534877696
	b	22b
105:
	mov	w8, #46
	mov	x24, #12947848928690176
	mov	x23, #197568495616
	str	w8, [sp, #52]
	mov	x8, #50577534877696
	mov	x6, #3314649325744685056
	str	x8, [sp, #24]
	mov	w26, #3014656
	mov	w10, #11776
	mov	w15, #771751936
	mov	w0, #771751936
	mov	w25, #11776
	mov	x8, #3314649325744685056
	mov	x11, #50577534877696
	b	21b
106:
	ldrb	w8, [x3, #61]
	cmp	x4, #63
	lsl	x11, x8, #40
	b.lo	107f
	ldrb	w8, [x3, #62]
	cmp	x4, #63
	lsl	x24, x8, #48
	b.ne	108f
	mov	w8, #46
	mov	x28, #12947848928690176
	mov	x27, #197568495616
	str	w8, [sp, #52]
	mov	x8, #50577534877696
	mov	x6, #3314649325744685056
	str	x8, [sp, #24]
	mov	w26, #3014656
	mov	w10, #11776
	mov	w15, #771751936
	mov	w0, #771751936
	mov	w25, #11776
	mov	x8, #3314649325744685056
	b	23b
107:
	mov	w8, #46
	mov	x27, #197568495616
	mov	x24, #12947848928690176
	str	w8, [sp, #52]
	mov	x8, #50577534877696
	mov	x6, #3314649325744685056
	str	x8, [sp, #24]
	mov	w26, #3014656
	mov	w10, #11776
	mov	w15, #771751936
	mov	w0, #771751936
	mov	w25, #11776
	mov	x8, #3314649325744685056
	b	22b
108:
	ldrb	w8, [x3, #63]
	cmp	x4, #65
	lsl	x8, x8, #56
	b.lo	109f
	ldrb	w9, [x3, #64]
	cmp	x4, #65
	str	w9, [sp, #52]
	b.ne	110f
	mov	x9, #50577534877696
	mov	w5, #46
	mov	x28, #12947848928690176
	mov	x27, #197568495616
	str	x9, [sp, #24]
	mov	x6, #3314649325744685056
	mov	w26, #3014656
	mov	w10, #11776
	mov	w15, #771751936
	mov	w0, #771751936
	mov	w25, #11776
	b	24b
109:
	mov	w9, #46
	mov	x28, #12947848928690176
	mov	x27, #197568495616
	str	w9, [sp, #52]
	mov	x9, #50577534877696
	mov	x6, #3314649325744685056
	str	x9, [sp, #24]
	mov	w26, #3014656
	mov	w10, #11776
	mov	w15, #771751936
	mov	w0, #771751936
	mov	w25, #11776
	b	23b
110:
	ldrb	w9, [x3, #65]
	cmp	x4, #67
	lsl	x25, x9, #8
	b.lo	111f
	ldrb	w9, [x3, #66]
	cmp	x4, #67
	lsl	x26, x9, #16
	b.ne	112f
	mov	x9, #50577534877696
	mov	w5, #46
	mov	x28, #12947848928690176
	mov	x27, #197568495616
	str	x9, [sp, #24]
	mov	x6, #3314649325744685056
	mov	w9, #3014656
	mov	w10, #11776
	mov	w15, #771751936
	mov	w0, #771751936
	b	25b
111:
	mov	x9, #50577534877696
	mov	w5, #46
	mov	x28, #12947848928690176
	mov	x27, #197568495616
	str	x9, [sp, #24]
	mov	x6, #3314649325744685056
	mov	w26, #3014656
	mov	w10, #11776
	mov	w15, #771751936
	mov	w0, #771751936
	b	24b
112:
	ldrb	w9, [x3, #67]
	cmp	x4, #69
	lsl	x0, x9, #24
	b.lo	113f
	ldrb	w9, [x3, #68]
	cmp	x4, #69
	lsl	x27, x9, #32
	b.ne	114f
	mov	x9, #197568495616
	mov	w5, #46
	mov	x28, #12947848928690176
	str	x9, [sp, #32]
	mov	x9, #50577534877696
	str	x9, [sp, #24]
	b	117f
113:
	mov	x9, #50577534877696
	mov	w5, #46
	mov	x28, #12947848928690176
	mov	x27, #197568495616
	str	x9, [sp, #24]
	mov	x6, #3314649325744685056
	mov	w9, #3014656
	mov	w10, #11776
	mov	w15, #771751936
	b	25b
114:
	ldrb	w9, [x3, #69]
	cmp	x4, #71
	lsl	x9, x9, #40
	str	x9, [sp, #24]
	b.lo	115f
	ldrb	w9, [x3, #70]
	cmp	x4, #71
	lsl	x28, x9, #48
	b.ne	118f
	mov	x9, #197568495616
	mov	w5, #46
	b	116f
115:
	mov	x9, #197568495616
	mov	w5, #46
	mov	x28, #12947848928690176
116:
	str	x9, [sp, #32]
117:
	mov	x6, #3314649325744685056
	b	121f
118:
	ldrb	w9, [x3, #71]
	cmp	x4, #73
	lsl	x6, x9, #56
	b.lo	119f
	ldrb	w5, [x3, #72]
	cmp	x4, #73
	b.ne	122f
	mov	x9, #197568495616
	b	120f
119:
	mov	x9, #197568495616
	mov	w5, #46
120:
	str	x9, [sp, #32]
121:
	mov	w9, #3014656
	mov	w10, #11776
	mov	w15, #771751936
	b	26b
122:
	ldrb	w9, [x3, #73]
	cmp	x4, #75
	lsl	x10, x9, #8
	b.lo	123f
	ldrb	w9, [x3, #74]
	cmp	x4, #75
	lsl	x9, x9, #16
	str	x9, [sp, #40]
	b.ne	124f
	mov	x9, #197568495616
	mov	w15, #771751936
	b	126f
123:
	mov	x9, #197568495616
	mov	w15, #771751936
	str	x9, [sp, #32]
	mov	w9, #3014656
	b	26b
124:
	ldrb	w9, [x3, #75]
	cmp	x4, #77
	lsl	x15, x9, #24
	b.lo	125f
	ldrb	w9, [x3, #76]
	lsl	x9, x9, #32
	b	126f
125:
	mov	x9, #197568495616
126:
	str	x9, [sp, #32]
	ldr	x9, [sp, #40]
	b	26b
	vj_end	std_io..io..error..Error..from_bytes_1_a64

	vj_function	std_io..io..error..last_error_1_a64
	stp	x29, x30, [sp, #-32]!
	str	x19, [sp, #16]
	mov	x29, sp
	mov	x19, x0
	vj_call	rattle_errno
	tbnz	w0, #31, 2f
	sub	w8, w0, #1
	cmp	w8, #121
	b.hi	2f
	vj_page	x9, .L1_a64_JTI31_0
	vj_address	x9, x9, .L1_a64_JTI31_0
	adr	x10, 1f
	ldrb	w11, [x9, x8]
	add	x10, x10, x11, lsl #2
	mov	w8, #1
	ret	x10
1:
	mov	w8, #36
	b	3f
2:
	mov	w8, #41
3:
	movi	v0.2d, #0000000000000000
	strb	wzr, [x19]
	strb	w8, [x19, #1]
	strh	wzr, [x19, #2]
	str	w0, [x19, #4]
	stur	q0, [x19, #8]
	stur	q0, [x19, #24]
	stur	q0, [x19, #40]
	stur	q0, [x19, #56]
	stur	q0, [x19, #72]
	ldr	x19, [sp, #16]
	ldp	x29, x30, [sp], #32
	ret
4:
	mov	w8, #4
	b	3b
5:
	mov	w8, #7
	b	3b
6:
	mov	w8, #26
	b	3b
7:
	mov	w8, #39
	b	3b
8:
	mov	w8, #9
	b	3b
9:
	mov	w8, #8
	b	3b
10:
	mov	w8, #30
	b	3b
11:
	mov	w8, #25
	b	3b
12:
	mov	w8, #32
	b	3b
13:
	mov	w8, #33
	b	3b
14:
	mov	w8, #22
	b	3b
15:
	mov	w8, #31
	b	3b
16:
	mov	w8, #29
	b	3b
17:
	mov	w8, #18
	b	3b
18:
	mov	w8, #10
	b	3b
19:
	mov	w8, #28
	b	3b
20:
	mov	w8, #14
	b	3b
21:
	mov	w8, #12
	b	3b
22:
	mov	w8, #5
	b	3b
23:
	mov	w8, #3
	b	3b
24:
	mov	w8, wzr
	b	3b
25:
	mov	w8, #13
	b	3b
26:
	mov	w8, #38
	b	3b
27:
	mov	w8, #11
	b	3b
28:
	mov	w8, #35
	b	3b
29:
	mov	w8, #34
	b	3b
30:
	mov	w8, #20
	b	3b
31:
	mov	w8, #15
	b	3b
32:
	mov	w8, #19
	b	3b
33:
	mov	w8, #16
	b	3b
34:
	mov	w8, #6
	b	3b
35:
	mov	w8, #27
	b	3b
36:
	mov	w8, #24
	b	3b
37:
	mov	w8, #2
	b	3b
38:
	mov	w8, #17
	b	3b
	vj_end	std_io..io..error..last_error_1_a64

	vj_data	std_io..io..error..last_error_1_a64
.L1_a64_JTI31_0:
	.byte	(3b-1b)>>2
	.byte	(24b-1b)>>2
	.byte	(2b-1b)>>2
	.byte	(28b-1b)>>2
	.byte	(2b-1b)>>2
	.byte	(2b-1b)>>2
	.byte	(29b-1b)>>2
	.byte	(2b-1b)>>2
	.byte	(2b-1b)>>2
	.byte	(2b-1b)>>2
	.byte	(25b-1b)>>2
	.byte	(26b-1b)>>2
	.byte	(3b-1b)>>2
	.byte	(2b-1b)>>2
	.byte	(2b-1b)>>2
	.byte	(19b-1b)>>2
	.byte	(21b-1b)>>2
	.byte	(15b-1b)>>2
	.byte	(2b-1b)>>2
	.byte	(20b-1b)>>2
	.byte	(31b-1b)>>2
	.byte	(30b-1b)>>2
	.byte	(2b-1b)>>2
	.byte	(2b-1b)>>2
	.byte	(2b-1b)>>2
	.byte	(16b-1b)>>2
	.byte	(35b-1b)>>2
	.byte	(36b-1b)>>2
	.byte	(11b-1b)>>2
	.byte	(38b-1b)>>2
	.byte	(12b-1b)>>2
	.byte	(27b-1b)>>2
	.byte	(2b-1b)>>2
	.byte	(2b-1b)>>2
	.byte	(10b-1b)>>2
	.byte	(13b-1b)>>2
	.byte	(2b-1b)>>2
	.byte	(1b-1b)>>2
	.byte	(33b-1b)>>2
	.byte	(17b-1b)>>2
	.byte	(2b-1b)>>2
	.byte	(2b-1b)>>2
	.byte	(2b-1b)>>2
	.byte	(2b-1b)>>2
	.byte	(2b-1b)>>2
	.byte	(2b-1b)>>2
	.byte	(2b-1b)>>2
	.byte	(2b-1b)>>2
	.byte	(2b-1b)>>2
	.byte	(2b-1b)>>2
	.byte	(2b-1b)>>2
	.byte	(2b-1b)>>2
	.byte	(2b-1b)>>2
	.byte	(2b-1b)>>2
	.byte	(2b-1b)>>2
	.byte	(2b-1b)>>2
	.byte	(2b-1b)>>2
	.byte	(2b-1b)>>2
	.byte	(2b-1b)>>2
	.byte	(2b-1b)>>2
	.byte	(2b-1b)>>2
	.byte	(2b-1b)>>2
	.byte	(2b-1b)>>2
	.byte	(2b-1b)>>2
	.byte	(2b-1b)>>2
	.byte	(2b-1b)>>2
	.byte	(2b-1b)>>2
	.byte	(2b-1b)>>2
	.byte	(2b-1b)>>2
	.byte	(2b-1b)>>2
	.byte	(2b-1b)>>2
	.byte	(2b-1b)>>2
	.byte	(2b-1b)>>2
	.byte	(2b-1b)>>2
	.byte	(2b-1b)>>2
	.byte	(2b-1b)>>2
	.byte	(2b-1b)>>2
	.byte	(2b-1b)>>2
	.byte	(2b-1b)>>2
	.byte	(2b-1b)>>2
	.byte	(2b-1b)>>2
	.byte	(2b-1b)>>2
	.byte	(2b-1b)>>2
	.byte	(2b-1b)>>2
	.byte	(2b-1b)>>2
	.byte	(2b-1b)>>2
	.byte	(2b-1b)>>2
	.byte	(2b-1b)>>2
	.byte	(2b-1b)>>2
	.byte	(2b-1b)>>2
	.byte	(2b-1b)>>2
	.byte	(2b-1b)>>2
	.byte	(2b-1b)>>2
	.byte	(2b-1b)>>2
	.byte	(1b-1b)>>2
	.byte	(2b-1b)>>2
	.byte	(2b-1b)>>2
	.byte	(9b-1b)>>2
	.byte	(8b-1b)>>2
	.byte	(18b-1b)>>2
	.byte	(22b-1b)>>2
	.byte	(2b-1b)>>2
	.byte	(34b-1b)>>2
	.byte	(23b-1b)>>2
	.byte	(2b-1b)>>2
	.byte	(2b-1b)>>2
	.byte	(5b-1b)>>2
	.byte	(2b-1b)>>2
	.byte	(2b-1b)>>2
	.byte	(14b-1b)>>2
	.byte	(37b-1b)>>2
	.byte	(2b-1b)>>2
	.byte	(4b-1b)>>2
	.byte	(2b-1b)>>2
	.byte	(7b-1b)>>2
	.byte	(32b-1b)>>2
	.byte	(2b-1b)>>2
	.byte	(2b-1b)>>2
	.byte	(2b-1b)>>2
	.byte	(2b-1b)>>2
	.byte	(2b-1b)>>2
	.byte	(6b-1b)>>2

	vj_function	b2sum_commands..key..read_key_from..fab5d8e6f6068f4d_1_a64
	sub	sp, sp, #448
	movi	v0.2d, #0000000000000000
	lsl	x8, x6, #1
	tst	w5, #0x1
	stp	x28, x27, [sp, #368]
	add	x28, sp, #72
	csinc	x27, x6, x8, eq
	stp	x26, x25, [sp, #384]
	mov	x26, x2
	stp	x22, x21, [sp, #416]
	mov	x21, x1
	mov	x1, x2
	stp	x20, x19, [sp, #432]
	mov	x19, x0
	add	x0, sp, #160
	mov	x2, x27
	stp	x29, x30, [sp, #352]
	add	x29, sp, #352
	stp	x24, x23, [sp, #400]
	mov	x20, x7
	mov	x25, x6
	mov	w24, w5
	mov	x22, x4
	mov	x23, x3
	str	xzr, [sp, #192]
	stur	q0, [x28, #104]
	stur	q0, [x28, #88]
	stp	q0, q0, [sp, #32]
	str	xzr, [sp, #64]
	bl	b2sum_commands..key..read_bytes..5254a3ddd78d1e3f_1_a64
	ldrb	w8, [sp, #160]
	cbz	w8, 1f
	movi	v0.2d, #0000000000000000
	ldrb	w8, [sp, #161]
	mov	w9, #1
	strb	w9, [x19]
	strb	w8, [x19, #1]
	b	13f
1:
	ldrb	w8, [sp, #168]
	cmp	w8, #1
	b.ne	4f
	ldp	x9, x8, [sp, #176]
	ldr	x26, [sp, #192]
	cmp	x27, x8
	b.hs	5f
	movi	v0.2d, #0000000000000000
	sub	x0, x29, #48
	mov	x1, x23
	mov	x2, x22
	mov	x27, x9
	stur	q0, [x28, #248]
	stur	q0, [x28, #232]
	bl	b2sum_commands..quoting..quoted_name_1_a64
	ldurb	w8, [x29, #-48]
	cbnz	w8, 3f
	vj_page	x8, .L1_a64_static.120
	vj_address	x8, x8, .L1_a64_static.120
	vj_page	x9, .L1_a64_static.119
	vj_address	x9, x9, .L1_a64_static.119
	cmp	x25, #64
	vj_page	x10, .L1_a64_static.121
	vj_address	x10, x10, .L1_a64_static.121
	ldp	x22, x4, [x29, #-40]
	csel	x8, x9, x8, eq
	vj_page	x9, .L1_a64_static.122
	vj_address	x9, x9, .L1_a64_static.122
	mov	w11, #78
	mov	w12, #56
	mov	w13, #46
	mov	w14, #23
	ldp	x0, x1, [x21]
	csel	x9, x10, x9, eq
	csel	x10, x12, x11, eq
	csel	x11, x14, x13, eq
	tst	w24, #0x1
	ldur	x23, [x29, #-24]
	vj_page	x5, .L1_a64_static.123
	vj_address	x5, x5, .L1_a64_static.123
	csel	x7, x8, x9, ne
	csel	x8, x10, x11, ne
	mov	x2, x20
	mov	x3, x22
	mov	w6, #2
	str	x8, [sp]
	bl	b2sum_commands..messages..warn..068f3e307c5390f2_1_a64
	and	w20, w0, #0xff
	cbz	x23, 2f
	mov	x0, x22
	vj_call	rattle_dealloc
2:
	tbz	w20, #0, 10f
3:
	cbz	x26, 8f
	mov	x0, x27
	vj_call	rattle_dealloc
	b	8f
4:
	ldrb	w8, [x26, #32]
	cmp	w8, #1
	b.ne	6f
	ldur	q0, [x26, #74]
	ldur	q1, [x26, #90]
	ldur	q2, [x26, #106]
	ldr	x8, [x26, #120]
	ldrb	w9, [x26, #40]
	stur	q0, [x28, #168]
	ldur	q0, [x26, #42]
	stur	q1, [x28, #184]
	ldur	q1, [x26, #58]
	stur	q2, [x28, #200]
	stur	x8, [x28, #214]
	ldrb	w8, [x26, #41]
	stur	q0, [x28, #136]
	stur	q1, [x28, #152]
	b	7f
5:
	add	x0, sp, #32
	add	x3, sp, #8
	mov	w1, w24
	mov	x2, x25
	stp	x9, x8, [sp, #8]
	str	x26, [sp, #24]
	bl	b2sum_commands..key..key_of_file_bytes_1_a64
	ldrb	w8, [sp, #32]
	cbz	w8, 9f
	ldrb	w8, [sp, #33]
	mov	w9, #1
	movi	v0.2d, #0000000000000000
	strb	w9, [x19]
	strb	w8, [x19, #1]
	b	13f
6:
	movi	v0.2d, #0000000000000000
	mov	w8, #40
	mov	w9, #1
	stur	xzr, [x28, #214]
	stur	q0, [x28, #200]
	stur	q0, [x28, #184]
	stur	q0, [x28, #168]
	stur	q0, [x28, #152]
	stur	q0, [x28, #136]
7:
	ldur	q0, [x28, #168]
	ldur	q1, [x28, #184]
	add	x1, sp, #72
	strb	w8, [sp, #73]
	ldur	q2, [x28, #200]
	mov	x0, x21
	stur	q0, [sp, #106]
	ldur	x8, [x28, #214]
	mov	x2, x20
	stur	q1, [sp, #122]
	ldur	q0, [x28, #136]
	mov	x3, x23
	ldur	q1, [x28, #152]
	mov	x4, x22
	strb	w9, [sp, #72]
	stur	q2, [x28, #66]
	str	x8, [sp, #152]
	stur	q0, [sp, #74]
	stur	q1, [sp, #90]
	bl	b2sum_commands..messages..warn_of_file..fab5d8e6f6068f4d_1_a64
	and	w8, w0, #0xff
	tbz	w8, #0, 12f
8:
	mov	w8, #1
	movi	v0.2d, #0000000000000000
	strh	w8, [x19]
	b	13f
9:
	ldrb	w8, [sp, #40]
	cmp	w8, #1
	b.ne	11f
	ldr	q0, [sp, #48]
	ldr	x9, [sp, #64]
	mov	w8, #1
	strh	wzr, [x19]
	str	x8, [x19, #8]
	str	q0, [x19, #16]
	str	x9, [x19, #32]
	b	14f
10:
	cbz	x26, 12f
	mov	x0, x27
	vj_call	rattle_dealloc
	b	12f
11:
	cmp	x25, #64
	mov	w8, #78
	mov	w9, #56
	vj_page	x10, .L1_a64_static.120
	vj_address	x10, x10, .L1_a64_static.120
	csel	x8, x9, x8, eq
	vj_page	x9, .L1_a64_static.119
	vj_address	x9, x9, .L1_a64_static.119
	vj_page	x11, .L1_a64_static.122
	vj_address	x11, x11, .L1_a64_static.122
	csel	x9, x9, x10, eq
	mov	w10, #46
	mov	w12, #23
	vj_page	x13, .L1_a64_static.121
	vj_address	x13, x13, .L1_a64_static.121
	csel	x10, x12, x10, eq
	csel	x11, x13, x11, eq
	tst	w24, #0x1
	csel	x5, x8, x10, ne
	csel	x4, x9, x11, ne
	mov	x0, x21
	mov	x1, x20
	mov	x2, x23
	mov	x3, x22
	bl	b2sum_commands..messages..warn_of_name..068f3e307c5390f2_1_a64
	and	w8, w0, #0xff
	tbnz	w8, #0, 8b
12:
	movi	v0.2d, #0000000000000000
	strh	wzr, [x19]
13:
	stur	q0, [x19, #8]
	stur	q0, [x19, #24]
14:
	ldp	x20, x19, [sp, #432]
	ldp	x22, x21, [sp, #416]
	ldp	x24, x23, [sp, #400]
	ldp	x26, x25, [sp, #384]
	ldp	x28, x27, [sp, #368]
	ldp	x29, x30, [sp, #352]
	add	sp, sp, #448
	ret
	vj_end	b2sum_commands..key..read_key_from..fab5d8e6f6068f4d_1_a64

	vj_function	b2sum_commands..key..read_bytes..5254a3ddd78d1e3f_1_a64
	sub	sp, sp, #256
	stp	x29, x30, [sp, #160]
	add	x29, sp, #160
	stp	x22, x21, [sp, #224]
	mov	x21, x1
	mov	w1, #1
	stp	x20, x19, [sp, #240]
	mov	x19, x0
	mov	x0, x2
	str	x27, [sp, #176]
	mov	x20, x2
	stp	x26, x25, [sp, #192]
	stp	x24, x23, [sp, #208]
	mov	w23, #1
	stp	xzr, xzr, [x29, #-32]
	stur	xzr, [x29, #-16]
	stp	xzr, xzr, [sp, #16]
	str	xzr, [sp, #8]
	vj_call	rattle_alloc
	tbz	w0, #0, 15f
	movi	v0.2d, #0000000000000000
	add	x8, sp, #32
	mov	x22, x1
	mov	x25, xzr
	mov	x24, xzr
	stp	x1, xzr, [x29, #-56]
	stur	x20, [x29, #-40]
	add	x26, x8, #16
	mov	x27, x20
	strb	wzr, [sp, #96]
	stp	q0, q0, [sp, #32]
	stp	q0, q0, [sp, #64]
1:
	add	x1, sp, #32
	mov	x0, x21
	mov	w2, #65
	bl	b2sum..disk..OpenedOpenFile..read..ec2583f154d97a77_1_a64
	tst	w0, #0xff
	b.ne	19f
	mov	x23, x1
	cbz	x1, 17f
	sub	x8, x27, x25
	cmp	x23, x8
	b.hi	11f
	add	x8, x22, x25
	add	x9, sp, #32
	sub	x8, x8, x9
	cmp	x8, x23
	b.hs	12f
2:
	cmp	x23, #8
	b.lo	3f
	add	x8, sp, #32
	sub	x8, x25, x8
	add	x8, x8, x22
	cmp	x8, #32
	b.hs	6f
3:
	mov	x8, xzr
4:
	add	x10, sp, #32
	add	x11, x8, x25
	sub	x9, x23, x8
	add	x8, x10, x8
	add	x10, x22, x11
5:
	ldrb	w11, [x8], #1
	subs	x9, x9, #1
	strb	w11, [x10], #1
	b.ne	5b
	b	13f
6:
	cmp	x23, #32
	b.hs	7f
	mov	x8, xzr
	b	9f
7:
	add	x10, x22, x25
	and	x9, x23, #0x18
	and	x8, x23, #0xffffffffffffffe0
	add	x10, x10, #16
	mov	x11, x26
	and	x12, x23, #0xffffffffffffffe0
8:
	ldp	q0, q1, [x11, #-16]
	subs	x12, x12, #32
	add	x11, x11, #32
	stp	q0, q1, [x10, #-16]
	add	x10, x10, #32
	b.ne	8b
	cmp	x23, x8
	b.eq	13f
	cbz	x9, 4b
9:
	mov	x10, x8
	and	x8, x23, #0xfffffffffffffff8
	add	x11, sp, #32
	add	x12, x25, x10
	sub	x9, x10, x8
	add	x10, x11, x10
	add	x11, x22, x12
10:
	ldr	d0, [x10], #8
	adds	x9, x9, #8
	str	d0, [x11], #8
	b.ne	10b
	cmp	x23, x8
	b.eq	13f
	b	4b
11:
	sub	x0, x29, #56
	mov	x1, x23
	bl	std_alloc..vec..Vec..grow_amortized..01eec35b572d02af_1_a64
	cbz	w0, 22f
	ldp	x25, x27, [x29, #-48]
	ldur	x22, [x29, #-56]
	add	x8, x22, x25
	add	x9, sp, #32
	sub	x8, x8, x9
	cmp	x8, x23
	b.lo	2b
12:
	add	x0, x22, x25
	add	x1, sp, #32
	mov	x2, x23
	vj_c_call	memmove
13:
	add	x25, x25, x23
	cmp	x20, x25
	stp	x25, x27, [x29, #-48]
	b.lo	17f
	add	x24, x24, #1
	cmn	x24, #1
	b.ne	1b
	cbz	x27, 14f
	ldur	x0, [x29, #-56]
	vj_call	rattle_dealloc
14:
	mov	w8, #1
	ldur	q0, [x29, #-32]
	ldur	x9, [x29, #-16]
	str	xzr, [x19, #8]
	strh	w8, [x19]
	b	18f
15:
	movi	v0.2d, #0000000000000000
	strh	w23, [x19]
16:
	stur	q0, [x19, #8]
	stur	q0, [x19, #24]
	b	21f
17:
	ldur	q0, [x29, #-56]
	ldur	x9, [x29, #-40]
	mov	w8, #1
	strh	wzr, [x19]
	str	x8, [x19, #8]
18:
	str	q0, [x19, #16]
	str	x9, [x19, #32]
	b	21f
19:
	ldur	q0, [sp, #8]
	ldr	x8, [sp, #24]
	stur	q0, [x29, #-32]
	stur	x8, [x29, #-16]
	cbz	x27, 20f
	mov	x0, x22
	vj_call	rattle_dealloc
20:
	ldur	q0, [x29, #-32]
	ldur	x8, [x29, #-16]
	strh	wzr, [x19]
	str	xzr, [x19, #8]
	str	q0, [x19, #16]
	str	x8, [x19, #32]
21:
	ldp	x20, x19, [sp, #240]
	ldr	x27, [sp, #176]
	ldp	x22, x21, [sp, #224]
	ldp	x24, x23, [sp, #208]
	ldp	x26, x25, [sp, #192]
	ldp	x29, x30, [sp, #160]
	add	sp, sp, #256
	ret
22:
	ldur	x8, [x29, #-40]
	cbz	x8, 23f
	ldur	x0, [x29, #-56]
	vj_call	rattle_dealloc
23:
	mov	w8, #1
	movi	v0.2d, #0000000000000000
	strh	w8, [x19]
	b	16b
	vj_end	b2sum_commands..key..read_bytes..5254a3ddd78d1e3f_1_a64

	vj_function	b2sum..disk..OpenedOpenFile..read..ec2583f154d97a77_1_a64
	sub	sp, sp, #384
	ldrb	w8, [x0]
	stp	x28, x21, [sp, #352]
	add	x21, sp, #168
	stp	x20, x19, [sp, #368]
	mov	x20, x2
	mov	x19, x0
	stp	x29, x30, [sp, #336]
	add	x29, sp, #336
	cbz	w8, 1f
	mov	w0, wzr
	mov	x2, x20
	vj_call	b2sum_read
	movi	v0.2d, #0000000000000000
	stp	q0, q0, [x29, #-80]
	stp	q0, q0, [x29, #-48]
	stur	q0, [x29, #-16]
	tbnz	x0, #63, 2f
	mov	x8, x0
	mov	w0, wzr
	cmp	x8, x20
	csel	x1, x8, x20, lo
	b	3f
1:
	ldr	w0, [x19, #4]
	mov	x2, x20
	vj_call	b2sum_read
	movi	v0.2d, #0000000000000000
	stp	q0, q0, [sp, #80]
	stp	q0, q0, [sp, #112]
	str	q0, [sp, #144]
	tbnz	x0, #63, 6f
	mov	x8, x0
	mov	w0, wzr
	cmp	x8, x20
	csel	x1, x8, x20, lo
	b	7f
2:
	add	x0, sp, #168
	bl	std_io..io..error..last_error_1_a64
	ldur	q0, [x21, #24]
	ldur	q1, [x21, #40]
	mov	w0, #1
	ldur	q2, [x21, #56]
	ldur	q3, [x21, #8]
	ldr	x1, [sp, #168]
	stp	q0, q1, [x29, #-64]
	ldur	q0, [x21, #72]
	stur	q3, [x29, #-80]
	stp	q2, q0, [x29, #-32]
3:
	ldp	q0, q1, [x29, #-48]
	ldur	q2, [x29, #-16]
	str	q2, [sp, #64]
	stp	q0, q1, [sp, #32]
	ldp	q1, q0, [x29, #-80]
	stp	q1, q0, [sp]
	cbz	w0, 5f
4:
	ldp	q0, q1, [sp, #32]
	mov	w8, #1
	ldr	q2, [sp, #64]
	stp	x8, x1, [x19, #32]
	mov	x1, xzr
	stp	q0, q1, [x19, #80]
	ldp	q1, q0, [sp]
	str	q2, [x19, #112]
	stp	q1, q0, [x19, #48]
5:
	ldp	x20, x19, [sp, #368]
	ldp	x28, x21, [sp, #352]
	ldp	x29, x30, [sp, #336]
	add	sp, sp, #384
	ret
6:
	add	x0, sp, #168
	bl	std_io..io..error..last_error_1_a64
	ldur	q0, [x21, #24]
	ldur	q1, [x21, #40]
	mov	w0, #1
	ldur	q2, [x21, #56]
	ldur	q3, [x21, #8]
	ldr	x1, [sp, #168]
	stp	q0, q1, [sp, #96]
	ldur	q0, [x21, #72]
	str	q3, [sp, #80]
	stp	q2, q0, [sp, #128]
7:
	ldp	q0, q1, [sp, #112]
	ldr	q2, [sp, #144]
	str	q2, [sp, #64]
	stp	q0, q1, [sp, #32]
	ldp	q1, q0, [sp, #80]
	stp	q1, q0, [sp]
	cbnz	w0, 4b
	b	5b
	vj_end	b2sum..disk..OpenedOpenFile..read..ec2583f154d97a77_1_a64

	vj_function	b2sum_commands..key..key_of_file_bytes_1_a64
	sub	sp, sp, #112
	movi	v0.2d, #0000000000000000
	stp	x20, x19, [sp, #96]
	mov	x19, x0
	ldp	x20, x8, [x3]
	stp	x22, x21, [sp, #80]
	ldr	x22, [x3, #16]
	stp	x29, x30, [sp, #32]
	add	x29, sp, #32
	str	x25, [sp, #48]
	stp	x24, x23, [sp, #64]
	stp	q0, q0, [sp]
	tbz	w1, #0, 3f
	mov	x25, x2
	cbz	x8, 5f
	sub	x9, x8, #1
	ldrb	w10, [x20, x9]
	cmp	w10, #10
	csel	x2, x9, x8, eq
	mov	x0, sp
	mov	x1, x20
	bl	hex..decode..1a9ba769f0efa4a8_1_a64
	ldrb	w8, [sp]
	cbz	w8, 6f
1:
	ldrb	w8, [sp, #8]
	cmp	w8, #3
	b.ne	7f
	cbz	x22, 2f
	mov	x0, x20
	vj_call	rattle_dealloc
2:
	mov	w8, #1
	movi	v0.2d, #0000000000000000
	strh	w8, [x19]
	b	9f
3:
	sub	x9, x8, #1
	cmp	x9, x2
	b.hs	4f
	mov	w9, #1
	b	12f
4:
	cbz	x22, 10f
	mov	x0, x20
	vj_call	rattle_dealloc
	mov	x20, xzr
	mov	x8, xzr
	mov	x22, xzr
	b	11f
5:
	mov	x2, xzr
	mov	x0, sp
	mov	x1, x20
	bl	hex..decode..1a9ba769f0efa4a8_1_a64
	ldrb	w8, [sp]
	cbnz	w8, 1b
6:
	ldp	x21, x23, [sp, #8]
	ldr	x24, [sp, #24]
	sub	x8, x23, #1
	cmp	x8, x25
	b.hs	13f
	mov	w25, #1
	cbnz	x22, 14f
	b	15f
7:
	cbz	x22, 8f
	mov	x0, x20
	vj_call	rattle_dealloc
8:
	movi	v0.2d, #0000000000000000
	strh	wzr, [x19]
9:
	stur	q0, [x19, #8]
	stur	q0, [x19, #24]
	b	16f
10:
	mov	x20, xzr
	mov	x8, xzr
11:
	mov	x9, xzr
12:
	strh	wzr, [x19]
	stp	x9, x20, [x19, #8]
	stp	x8, x22, [x19, #24]
	b	16f
13:
	cbz	x24, 17f
	mov	x0, x21
	vj_call	rattle_dealloc
	mov	x21, xzr
	mov	x23, xzr
	mov	x24, xzr
	mov	x25, xzr
	cbz	x22, 15f
14:
	mov	x0, x20
	vj_call	rattle_dealloc
15:
	strh	wzr, [x19]
	stp	x25, x21, [x19, #8]
	stp	x23, x24, [x19, #24]
16:
	ldp	x20, x19, [sp, #96]
	ldr	x25, [sp, #48]
	ldp	x22, x21, [sp, #80]
	ldp	x24, x23, [sp, #64]
	ldp	x29, x30, [sp, #32]
	add	sp, sp, #112
	ret
17:
	mov	x21, xzr
	mov	x23, xzr
	mov	x25, xzr
	cbnz	x22, 14b
	b	15b
	vj_end	b2sum_commands..key..key_of_file_bytes_1_a64

	vj_function	b2sum_commands..messages..warn_of_name..068f3e307c5390f2_1_a64
	sub	sp, sp, #112
	movi	v0.2d, #0000000000000000
	stp	x24, x23, [sp, #64]
	mov	x23, x0
	stp	x22, x21, [sp, #80]
	mov	x22, x1
	add	x0, sp, #16
	mov	x1, x2
	mov	x2, x3
	stp	x29, x30, [sp, #48]
	stp	x20, x19, [sp, #96]
	add	x29, sp, #48
	mov	x19, x5
	mov	x20, x4
	stp	q0, q0, [sp, #16]
	bl	b2sum_commands..quoting..quoted_name_1_a64
	ldrb	w8, [sp, #16]
	cbz	w8, 2f
	mov	w0, #1
1:
	ldp	x20, x19, [sp, #96]
	ldp	x22, x21, [sp, #80]
	ldp	x24, x23, [sp, #64]
	ldp	x29, x30, [sp, #48]
	add	sp, sp, #112
	ret
2:
	ldp	x21, x4, [sp, #24]
	vj_page	x5, .L1_a64_static.123
	vj_address	x5, x5, .L1_a64_static.123
	ldp	x0, x1, [x23]
	ldr	x24, [sp, #40]
	mov	x2, x22
	mov	w6, #2
	mov	x3, x21
	mov	x7, x20
	str	x19, [sp]
	bl	b2sum_commands..messages..warn..068f3e307c5390f2_1_a64
	and	w0, w0, #0xff
	cbz	x24, 1b
	mov	w19, w0
	mov	x0, x21
	vj_call	rattle_dealloc
	mov	w0, w19
	ldp	x20, x19, [sp, #96]
	ldp	x22, x21, [sp, #80]
	ldp	x24, x23, [sp, #64]
	ldp	x29, x30, [sp, #48]
	add	sp, sp, #112
	ret
	vj_end	b2sum_commands..messages..warn_of_name..068f3e307c5390f2_1_a64

	vj_function	b2sum_commands..quoting..quoted_name_1_a64
	sub	sp, sp, #112
	stp	x29, x30, [sp, #32]
	add	x29, sp, #32
	stp	x22, x21, [sp, #80]
	mov	x21, x1
	add	x8, x29, #31
	stp	x20, x19, [sp, #96]
	mov	x20, x2
	mov	x19, x0
	str	x25, [sp, #48]
	stp	x24, x23, [sp, #64]
	stp	xzr, xzr, [sp, #16]
	str	x8, [sp, #8]
	cbz	x2, 6f
	ldrb	w22, [x21]
	cmp	w22, #35
	b.eq	1f
	cmp	w22, #126
	b.ne	13f
1:
	vj_page	x2, .L1_a64_static.5
	vj_address	x2, x2, .L1_a64_static.5
	mov	x0, x21
	mov	x1, x20
	bl	core..slice..reads..slice.T..contains..i8.31.core..cmp..numbers..U8PartialEq_1_a64
	tbz	w0, #0, 22f
2:
	cmp	w22, #35
	b.eq	3f
	cmp	w22, #126
	b.ne	21f
3:
	subs	x22, x20, #1
	b.eq	7f
	add	x23, x21, #1
	b	5f
4:
	subs	x22, x22, #1
	b.eq	7f
5:
	ldrb	w8, [x23], #1
	sub	w9, w8, #48
	and	w10, w8, #0xffffffdf
	strb	w8, [x29, #28]
	sub	w10, w10, #65
	cmp	w9, #10
	ccmp	w10, #25, #0, hs
	b.ls	4b
	vj_page	x0, .L1_a64_static.125
	vj_address	x0, x0, .L1_a64_static.125
	add	x2, x29, #28
	mov	w1, #11
	bl	core..slice..reads..slice.T..contains..i8.31.core..cmp..numbers..U8PartialEq_1_a64
	cbnz	w0, 4b
	b	22f
6:
	vj_page	x2, .L1_a64_static.5
	vj_address	x2, x2, .L1_a64_static.5
	mov	x0, x21
	mov	x1, xzr
	bl	core..slice..reads..slice.T..contains..i8.31.core..cmp..numbers..U8PartialEq_1_a64
	tbz	w0, #0, 22f
7:
	ldp	x9, x23, [sp, #16]
	cmp	x23, x9
	b.eq	50f
	add	x22, x29, #31
8:
	add	x8, x9, #1
	mov	w11, #34
	strb	w11, [x22, x9]
	sub	x10, x23, x8
	str	x8, [sp, #16]
	cmp	x20, x10
	b.hi	51f
	add	x0, x22, x8
	add	x24, x8, x20
	sub	x9, x0, x21
	cmp	x9, x20
	b.hs	52f
9:
	cmp	x20, #8
	b.lo	10f
	add	x9, x8, x22
	sub	x9, x9, x21
	cmp	x9, #32
	b.hs	43f
10:
	mov	x9, xzr
11:
	add	x10, x9, x8
	sub	x8, x20, x9
	add	x9, x21, x9
	add	x10, x22, x10
12:
	ldrb	w11, [x9], #1
	subs	x8, x8, #1
	strb	w11, [x10], #1
	b.ne	12b
	b	53f
13:
	cmp	x20, #1
	mov	x23, x21
	mov	x24, x20
	b.ne	15f
	cmp	w22, #123
	b.eq	1b
	cmp	w22, #125
	b.eq	1b
	vj_page	x0, .L1_a64_static.124
	vj_address	x0, x0, .L1_a64_static.124
	add	x2, x29, #28
	mov	w1, #20
	strb	w22, [x29, #28]
	bl	core..slice..reads..slice.T..contains..i8.31.core..cmp..numbers..U8PartialEq_1_a64
	sub	w8, w22, #127
	cmn	w8, #95
	b.lo	14f
	tbz	w0, #0, 16f
14:
	vj_page	x2, .L1_a64_static.5
	vj_address	x2, x2, .L1_a64_static.5
	mov	x0, x21
	mov	w1, #1
	bl	core..slice..reads..slice.T..contains..i8.31.core..cmp..numbers..U8PartialEq_1_a64
	cbnz	w0, 2b
	b	22f
15:
	ldrb	w25, [x23], #1
	vj_page	x0, .L1_a64_static.124
	vj_address	x0, x0, .L1_a64_static.124
	add	x2, x29, #28
	mov	w1, #20
	strb	w25, [x29, #28]
	bl	core..slice..reads..slice.T..contains..i8.31.core..cmp..numbers..U8PartialEq_1_a64
	sub	w8, w25, #127
	cmn	w8, #95
	b.lo	1b
	tbnz	w0, #0, 1b
	subs	x24, x24, #1
	b.ne	15b
16:
	ldp	x8, x22, [sp, #16]
	sub	x9, x22, x8
	cmp	x20, x9
	b.hi	63f
	add	x23, x29, #31
	add	x0, x23, x8
	add	x24, x8, x20
	sub	x9, x0, x21
	cmp	x9, x20
	b.hs	64f
17:
	cmp	x20, #8
	b.lo	18f
	add	x9, x8, x23
	sub	x9, x9, x21
	cmp	x9, #32
	b.hs	58f
18:
	mov	x9, xzr
19:
	add	x10, x9, x8
	sub	x8, x20, x9
	add	x9, x21, x9
	add	x10, x23, x10
20:
	ldrb	w11, [x9], #1
	subs	x8, x8, #1
	strb	w11, [x10], #1
	b.ne	20b
	b	65f
21:
	sub	w8, w22, #48
	strb	w22, [x29, #28]
	cmp	w8, #10
	b.lo	3b
	and	w8, w22, #0xffffffdf
	sub	w8, w8, #65
	cmp	w8, #25
	b.ls	3b
	vj_page	x0, .L1_a64_static.125
	vj_address	x0, x0, .L1_a64_static.125
	add	x2, x29, #28
	mov	w1, #11
	bl	core..slice..reads..slice.T..contains..i8.31.core..cmp..numbers..U8PartialEq_1_a64
	cbnz	w0, 3b
22:
	ldp	x8, x9, [sp, #16]
	cmp	x9, x8
	b.eq	44f
	add	x9, x29, #31
	mov	w10, #39
	strb	w10, [x9, x8]
	add	x8, x8, #1
	str	x8, [sp, #16]
	cbz	x20, 41f
23:
	mov	w10, wzr
	b	28f
24:
	mov	w12, #39
	mov	w13, #9255
	strb	w12, [x11, #2]
	strh	w13, [x11]
25:
	add	x9, x9, #3
	str	x8, [sp, #24]
	stp	x10, x9, [sp, #8]
26:
	add	x0, sp, #8
	bl	b2sum_commands..quoting..push_escape_1_a64
	and	w8, w0, #0xff
	tbnz	w8, #0, 66f
27:
	ldrb	w8, [x21], #1
	sub	w8, w8, #127
	cmn	w8, #95
	cset	w10, lo
	subs	x20, x20, #1
	b.eq	40f
28:
	ldrb	w1, [x21]
	cmp	w1, #39
	b.ne	30f
	ldp	x9, x8, [sp, #16]
	sub	x10, x8, x9
	cmp	x10, #3
	b.ls	36f
29:
	ldr	x10, [sp, #8]
	mov	w11, #23591
	movk	w11, #10023, lsl #16
	str	w11, [x10, x9]
	add	x9, x9, #4
	stp	x10, x9, [sp, #8]
	str	x8, [sp, #24]
	b	27b
30:
	sub	w8, w1, #32
	cmp	w8, #94
	b.hi	34f
	ldp	x8, x9, [sp, #16]
	tbz	w10, #0, 32f
	sub	x10, x9, x8
	cmp	x10, #1
	b.ls	38f
31:
	ldr	x10, [sp, #8]
	mov	w11, #10023
	strh	w11, [x10, x8]
	add	x8, x8, #2
	stp	x10, x8, [sp, #8]
	str	x9, [sp, #24]
32:
	cmp	x9, x8
	b.eq	37f
33:
	ldr	x9, [sp, #8]
	add	x10, x8, #1
	strb	w1, [x9, x8]
	str	x10, [sp, #16]
	b	27b
34:
	tbnz	w10, #0, 26b
	ldp	x9, x8, [sp, #16]
	sub	x10, x8, x9
	cmp	x10, #2
	b.ls	39f
35:
	ldr	x10, [sp, #8]
	vj_page	x12, .L1_a64_static.128
	vj_address	x12, x12, .L1_a64_static.128
	add	x11, x10, x9
	sub	x12, x11, x12
	cmp	x12, #2
	b.hi	24b
	mov	w12, #9255
	mov	w13, #39
	strh	w12, [x11]
	strb	w13, [x11, #2]
	b	25b
36:
	add	x0, sp, #8
	mov	w1, #4
	bl	std_alloc..vec..Vec..grow_amortized..01eec35b572d02af_1_a64
	cbz	w0, 66f
	ldp	x9, x8, [sp, #16]
	b	29b
37:
	mov	w22, w1
	add	x0, sp, #8
	mov	w1, #1
	bl	std_alloc..vec..Vec..grow_amortized..01eec35b572d02af_1_a64
	cbz	w0, 66f
	ldr	x8, [sp, #16]
	mov	w1, w22
	b	33b
38:
	mov	w22, w1
	add	x0, sp, #8
	mov	w1, #2
	bl	std_alloc..vec..Vec..grow_amortized..01eec35b572d02af_1_a64
	cbz	w0, 66f
	ldp	x8, x9, [sp, #16]
	mov	w1, w22
	b	31b
39:
	mov	w22, w1
	add	x0, sp, #8
	mov	w1, #3
	bl	std_alloc..vec..Vec..grow_amortized..01eec35b572d02af_1_a64
	cbz	w0, 66f
	ldp	x9, x8, [sp, #16]
	mov	w1, w22
	b	35b
40:
	ldr	x8, [sp, #16]
41:
	ldr	x9, [sp, #24]
	cmp	x9, x8
	b.eq	45f
42:
	ldr	x9, [sp, #8]
	add	x11, x8, #1
	mov	w10, #39
	strb	w10, [x9, x8]
	str	x11, [sp, #16]
	b	55f
43:
	cmp	x20, #32
	b.hs	46f
	mov	x9, xzr
	b	48f
44:
	add	x0, sp, #8
	mov	w1, #1
	bl	std_alloc..vec..Vec..grow_amortized..01eec35b572d02af_1_a64
	cbz	w0, 66f
	ldp	x9, x8, [sp, #8]
	mov	w10, #39
	strb	w10, [x9, x8]
	add	x8, x8, #1
	str	x8, [sp, #16]
	cbnz	x20, 23b
	b	41b
45:
	add	x0, sp, #8
	mov	w1, #1
	bl	std_alloc..vec..Vec..grow_amortized..01eec35b572d02af_1_a64
	cbz	w0, 66f
	ldr	x8, [sp, #16]
	b	42b
46:
	add	x12, x8, x22
	and	x10, x20, #0x18
	and	x9, x20, #0xffffffffffffffe0
	add	x11, x21, #16
	add	x12, x12, #16
	and	x13, x20, #0xffffffffffffffe0
47:
	ldp	q0, q1, [x11, #-16]
	subs	x13, x13, #32
	add	x11, x11, #32
	stp	q0, q1, [x12, #-16]
	add	x12, x12, #32
	b.ne	47b
	cmp	x20, x9
	b.eq	53f
	cbz	x10, 11b
48:
	mov	x11, x9
	and	x9, x20, #0xfffffffffffffff8
	add	x12, x8, x11
	sub	x10, x11, x9
	add	x11, x21, x11
	add	x12, x22, x12
49:
	ldr	d0, [x11], #8
	adds	x10, x10, #8
	str	d0, [x12], #8
	b.ne	49b
	cmp	x20, x9
	b.eq	53f
	b	11b
50:
	add	x0, sp, #8
	mov	w1, #1
	bl	std_alloc..vec..Vec..grow_amortized..01eec35b572d02af_1_a64
	cbz	w0, 66f
	ldp	x22, x9, [sp, #8]
	ldr	x23, [sp, #24]
	b	8b
51:
	add	x0, sp, #8
	mov	x1, x20
	bl	std_alloc..vec..Vec..grow_amortized..01eec35b572d02af_1_a64
	cbz	w0, 66f
	ldp	x8, x23, [sp, #16]
	ldr	x22, [sp, #8]
	add	x0, x22, x8
	add	x24, x8, x20
	sub	x9, x0, x21
	cmp	x9, x20
	b.lo	9b
52:
	mov	x1, x21
	mov	x2, x20
	vj_c_call	memmove
53:
	cmp	x23, x24
	stp	x22, x24, [sp, #8]
	str	x23, [sp, #24]
	b.eq	57f
54:
	mov	w8, #34
	strb	w8, [x22, x24]
	add	x8, x24, #1
	str	x8, [sp, #16]
55:
	ldur	q0, [sp, #8]
	ldr	x8, [sp, #24]
	strb	wzr, [x19]
	stur	q0, [x19, #8]
	str	x8, [x19, #24]
56:
	ldp	x20, x19, [sp, #96]
	ldr	x25, [sp, #48]
	ldp	x22, x21, [sp, #80]
	ldp	x24, x23, [sp, #64]
	ldp	x29, x30, [sp, #32]
	add	sp, sp, #112
	ret
57:
	add	x0, sp, #8
	mov	w1, #1
	bl	std_alloc..vec..Vec..grow_amortized..01eec35b572d02af_1_a64
	cbz	w0, 66f
	ldp	x22, x24, [sp, #8]
	b	54b
58:
	cmp	x20, #32
	b.hs	59f
	mov	x9, xzr
	b	61f
59:
	add	x12, x8, x23
	and	x10, x20, #0x18
	and	x9, x20, #0xffffffffffffffe0
	add	x11, x21, #16
	add	x12, x12, #16
	and	x13, x20, #0xffffffffffffffe0
60:
	ldp	q0, q1, [x11, #-16]
	subs	x13, x13, #32
	add	x11, x11, #32
	stp	q0, q1, [x12, #-16]
	add	x12, x12, #32
	b.ne	60b
	cmp	x20, x9
	b.eq	65f
	cbz	x10, 19b
61:
	mov	x11, x9
	and	x9, x20, #0xfffffffffffffff8
	add	x12, x8, x11
	sub	x10, x11, x9
	add	x11, x21, x11
	add	x12, x23, x12
62:
	ldr	d0, [x11], #8
	adds	x10, x10, #8
	str	d0, [x12], #8
	b.ne	62b
	cmp	x20, x9
	b.eq	65f
	b	19b
63:
	add	x0, sp, #8
	mov	x1, x20
	bl	std_alloc..vec..Vec..grow_amortized..01eec35b572d02af_1_a64
	cbz	w0, 66f
	ldp	x8, x22, [sp, #16]
	ldr	x23, [sp, #8]
	add	x0, x23, x8
	add	x24, x8, x20
	sub	x9, x0, x21
	cmp	x9, x20
	b.lo	17b
64:
	mov	x1, x21
	mov	x2, x20
	vj_c_call	memmove
65:
	stp	x23, x24, [sp, #8]
	str	x22, [sp, #24]
	b	55b
66:
	ldr	x8, [sp, #24]
	cbz	x8, 67f
	ldr	x0, [sp, #8]
	vj_call	rattle_dealloc
67:
	mov	w8, #1
	stp	xzr, xzr, [x19, #16]
	strb	w8, [x19]
	str	xzr, [x19, #8]
	b	56b
	vj_end	b2sum_commands..quoting..quoted_name_1_a64

	vj_function	b2sum_commands..messages..warn..068f3e307c5390f2_1_a64
	sub	sp, sp, #320
	movi	v0.2d, #0000000000000000
	stp	x29, x30, [sp, #224]
	add	x29, sp, #224
	ldr	x8, [x29, #96]
	stp	x20, x19, [sp, #304]
	mov	x19, x2
	mov	x2, x1
	mov	x1, x0
	add	x0, sp, #16
	str	x28, [sp, #240]
	stp	x26, x25, [sp, #256]
	stp	x24, x23, [sp, #272]
	stp	x22, x21, [sp, #288]
	stp	q0, q0, [sp, #16]
	str	x8, [sp]
	bl	b2sum_commands..messages..line_of_1_a64
	ldrb	w20, [sp, #16]
	cbnz	w20, 5f
	ldp	x21, x24, [sp, #24]
	ldr	x22, [sp, #40]
	cbz	x24, 3f
	ldrb	w8, [x19]
	cmp	w8, #1
	b.eq	3f
	mov	x25, xzr
	sub	x23, x29, #88
1:
	add	x1, x21, x25
	sub	x2, x24, x25
	mov	w0, #2
	sub	x26, x24, x25
	vj_system_call	write, b2_write
	tbnz	x0, #63, 2f
	cmp	x0, x26
	csel	x8, x0, x26, lo
	cbz	x8, 6f
	add	x25, x8, x25
	cmp	x25, x24
	b.lo	1b
	b	3f
2:
	sub	x0, x29, #88
	bl	std_io..io..error..last_error_1_a64
	ldur	q0, [x23, #8]
	ldur	q1, [x23, #72]
	mov	w8, #1
	ldur	q2, [x23, #56]
	ldur	q3, [x23, #24]
	ldur	q4, [x23, #40]
	ldur	x9, [x29, #-88]
	str	q1, [x19, #80]
	stp	q0, q3, [sp, #48]
	stp	q2, q1, [sp, #96]
	str	q4, [sp, #80]
	stp	x8, x9, [x19]
	stp	q0, q3, [x19, #16]
	stp	q4, q2, [x19, #48]
3:
	cbz	x22, 5f
4:
	mov	x0, x21
	vj_call	rattle_dealloc
5:
	mov	w0, w20
	ldp	x20, x19, [sp, #304]
	ldp	x22, x21, [sp, #288]
	ldr	x28, [sp, #240]
	ldp	x24, x23, [sp, #272]
	ldp	x26, x25, [sp, #256]
	ldp	x29, x30, [sp, #224]
	add	sp, sp, #320
	ret
6:
	movi	v0.2d, #0000000000000000
	mov	w8, #1
	mov	w9, #5889
	str	x8, [x19]
	strh	w9, [x19, #8]
	stur	q0, [x19, #10]
	stur	q0, [x19, #26]
	stur	q0, [x19, #42]
	stur	q0, [x19, #58]
	stur	q0, [x19, #74]
	str	xzr, [x19, #88]
	cbnz	x22, 4b
	b	5b
	vj_end	b2sum_commands..messages..warn..068f3e307c5390f2_1_a64

	vj_function	b2sum_commands..messages..line_of_1_a64
	sub	sp, sp, #128
	stp	x29, x30, [sp, #32]
	add	x29, sp, #32
	stp	x26, x25, [sp, #64]
	sub	x26, x29, #1
	stp	x24, x23, [sp, #80]
	mov	x23, x4
	mov	x24, x3
	stp	x22, x21, [sp, #96]
	mov	x21, x6
	mov	x22, x5
	stp	x20, x19, [sp, #112]
	mov	x20, x7
	mov	x19, x0
	stp	x28, x27, [sp, #48]
	stp	xzr, xzr, [sp, #8]
	str	x26, [sp]
	cbnz	x2, 10f
	mov	x25, xzr
	mov	x8, xzr
	add	x0, x26, xzr
	add	x27, xzr, x2
	sub	x9, x0, x1
	cmp	x9, x2
	b.hs	11f
1:
	cmp	x2, #8
	b.lo	2f
	add	x9, x8, x26
	sub	x9, x9, x1
	cmp	x9, #32
	b.hs	5f
2:
	mov	x9, xzr
3:
	add	x10, x9, x8
	sub	x8, x2, x9
	add	x9, x1, x9
	add	x10, x26, x10
4:
	ldrb	w11, [x9], #1
	subs	x8, x8, #1
	strb	w11, [x10], #1
	b.ne	4b
	b	12f
5:
	cmp	x2, #32
	b.hs	6f
	mov	x9, xzr
	b	8f
6:
	add	x12, x8, x26
	and	x10, x2, #0x18
	and	x9, x2, #0xffffffffffffffe0
	add	x11, x1, #16
	add	x12, x12, #16
	and	x13, x2, #0xffffffffffffffe0
7:
	ldp	q0, q1, [x11, #-16]
	subs	x13, x13, #32
	add	x11, x11, #32
	stp	q0, q1, [x12, #-16]
	add	x12, x12, #32
	b.ne	7b
	cmp	x2, x9
	b.eq	12f
	cbz	x10, 3b
8:
	mov	x11, x9
	and	x9, x2, #0xfffffffffffffff8
	add	x12, x8, x11
	sub	x10, x11, x9
	add	x11, x1, x11
	add	x12, x26, x12
9:
	ldr	d0, [x11], #8
	adds	x10, x10, #8
	str	d0, [x12], #8
	b.ne	9b
	cmp	x2, x9
	b.eq	12f
	b	3b
10:
	mov	x27, x1
	mov	x0, sp
	mov	x1, x2
	mov	x28, x2
	bl	std_alloc..vec..Vec..grow_amortized..01eec35b572d02af_1_a64
	cbz	w0, 39f
	ldp	x8, x25, [sp, #8]
	mov	x2, x28
	ldr	x26, [sp]
	mov	x1, x27
	add	x0, x26, x8
	add	x27, x8, x28
	sub	x9, x0, x1
	cmp	x9, x28
	b.lo	1b
11:
	vj_c_call	memmove
12:
	sub	x8, x25, x27
	stp	x27, x25, [sp, #8]
	cmp	x8, #1
	b.ls	23f
13:
	add	x9, x26, x27
	vj_page	x8, .L1_a64_static.123
	vj_address	x8, x8, .L1_a64_static.123
	sub	x8, x9, x8
	mov	w10, #8250
	cmp	x8, #1
	add	x8, x27, #2
	strh	w10, [x9]
	sub	x9, x25, x8
	stp	x8, x25, [sp, #8]
	cmp	x23, x9
	b.hi	24f
	ldr	x26, [sp]
	add	x27, x8, x23
	add	x0, x26, x8
	sub	x9, x0, x24
	cmp	x9, x23
	b.hs	25f
14:
	cmp	x23, #8
	b.lo	15f
	add	x9, x8, x26
	sub	x9, x9, x24
	cmp	x9, #32
	b.hs	18f
15:
	mov	x9, xzr
16:
	add	x10, x9, x8
	sub	x8, x23, x9
	add	x9, x24, x9
	add	x10, x26, x10
17:
	ldrb	w11, [x9], #1
	subs	x8, x8, #1
	strb	w11, [x10], #1
	b.ne	17b
	b	26f
18:
	cmp	x23, #32
	b.hs	19f
	mov	x9, xzr
	b	21f
19:
	add	x12, x8, x26
	and	x10, x23, #0x18
	and	x9, x23, #0xffffffffffffffe0
	add	x11, x24, #16
	add	x12, x12, #16
	and	x13, x23, #0xffffffffffffffe0
20:
	ldp	q0, q1, [x11, #-16]
	subs	x13, x13, #32
	add	x11, x11, #32
	stp	q0, q1, [x12, #-16]
	add	x12, x12, #32
	b.ne	20b
	cmp	x23, x9
	b.eq	26f
	cbz	x10, 16b
21:
	mov	x11, x9
	and	x9, x23, #0xfffffffffffffff8
	add	x12, x8, x11
	sub	x10, x11, x9
	add	x11, x24, x11
	add	x12, x26, x12
22:
	ldr	d0, [x11], #8
	adds	x10, x10, #8
	str	d0, [x12], #8
	b.ne	22b
	cmp	x23, x9
	b.eq	26f
	b	16b
23:
	mov	x0, sp
	mov	w1, #2
	bl	std_alloc..vec..Vec..grow_amortized..01eec35b572d02af_1_a64
	cbz	w0, 39f
	ldp	x27, x25, [sp, #8]
	ldr	x26, [sp]
	b	13b
24:
	mov	x0, sp
	mov	x1, x23
	bl	std_alloc..vec..Vec..grow_amortized..01eec35b572d02af_1_a64
	cbz	w0, 39f
	ldp	x8, x25, [sp, #8]
	ldr	x26, [sp]
	add	x27, x8, x23
	add	x0, x26, x8
	sub	x9, x0, x24
	cmp	x9, x23
	b.lo	14b
25:
	mov	x1, x24
	mov	x2, x23
	vj_c_call	memmove
26:
	sub	x8, x25, x27
	stp	x27, x25, [sp, #8]
	cmp	x21, x8
	b.hi	36f
	add	x0, x26, x27
	ldr	x23, [x29, #96]
	add	x24, x27, x21
	sub	x8, x0, x22
	cmp	x8, x21
	b.hs	37f
27:
	cmp	x21, #8
	b.lo	28f
	add	x8, x27, x26
	sub	x8, x8, x22
	cmp	x8, #32
	b.hs	31f
28:
	mov	x8, xzr
29:
	add	x10, x8, x27
	sub	x9, x21, x8
	add	x8, x22, x8
	add	x10, x26, x10
30:
	ldrb	w11, [x8], #1
	subs	x9, x9, #1
	strb	w11, [x10], #1
	b.ne	30b
	b	38f
31:
	cmp	x21, #32
	b.hs	32f
	mov	x8, xzr
	b	34f
32:
	add	x11, x27, x26
	and	x9, x21, #0x18
	and	x8, x21, #0xffffffffffffffe0
	add	x10, x22, #16
	add	x11, x11, #16
	and	x12, x21, #0xffffffffffffffe0
33:
	ldp	q0, q1, [x10, #-16]
	subs	x12, x12, #32
	add	x10, x10, #32
	stp	q0, q1, [x11, #-16]
	add	x11, x11, #32
	b.ne	33b
	cmp	x21, x8
	b.eq	38f
	cbz	x9, 29b
34:
	mov	x10, x8
	and	x8, x21, #0xfffffffffffffff8
	add	x11, x27, x10
	sub	x9, x10, x8
	add	x10, x22, x10
	add	x11, x26, x11
35:
	ldr	d0, [x10], #8
	adds	x9, x9, #8
	str	d0, [x11], #8
	b.ne	35b
	cmp	x21, x8
	b.eq	38f
	b	29b
36:
	mov	x0, sp
	mov	x1, x21
	bl	std_alloc..vec..Vec..grow_amortized..01eec35b572d02af_1_a64
	cbz	w0, 39f
	ldp	x27, x25, [sp, #8]
	ldr	x26, [sp]
	add	x0, x26, x27
	ldr	x23, [x29, #96]
	add	x24, x27, x21
	sub	x8, x0, x22
	cmp	x8, x21
	b.lo	27b
37:
	mov	x1, x22
	mov	x2, x21
	vj_c_call	memmove
38:
	mov	x0, sp
	mov	x1, x20
	mov	x2, x23
	stp	x24, x25, [sp, #8]
	bl	std_alloc..vec..Vec..extend_from_slice..0473daec321ef212_1_a64
	and	w8, w0, #0xff
	tbnz	w8, #0, 39f
	mov	x0, sp
	mov	w1, #10
	bl	std_alloc..vec..Vec..push..a891bc11159506cb_1_a64
	tst	w0, #0xff
	b.eq	42f
39:
	ldr	x8, [sp, #16]
	cbz	x8, 40f
	ldr	x0, [sp]
	vj_call	rattle_dealloc
40:
	mov	w8, #1
	stp	xzr, xzr, [x19, #16]
	strb	w8, [x19]
	str	xzr, [x19, #8]
41:
	ldp	x20, x19, [sp, #112]
	ldp	x22, x21, [sp, #96]
	ldp	x24, x23, [sp, #80]
	ldp	x26, x25, [sp, #64]
	ldp	x28, x27, [sp, #48]
	ldp	x29, x30, [sp, #32]
	add	sp, sp, #128
	ret
42:
	ldr	q0, [sp]
	ldr	x8, [sp, #16]
	strb	wzr, [x19]
	stur	q0, [x19, #8]
	str	x8, [x19, #24]
	b	41b
	vj_end	b2sum_commands..messages..line_of_1_a64

	vj_function	b2sum_commands..messages..warn_of_file..fab5d8e6f6068f4d_1_a64
	sub	sp, sp, #224
	ldp	q0, q1, [x1, #32]
	movi	v3.2d, #0000000000000000
	stp	x29, x30, [sp, #144]
	add	x29, sp, #144
	ldr	q2, [x1, #64]
	ldr	x8, [x1, #80]
	stp	x22, x21, [sp, #192]
	mov	x21, x0
	stp	q0, q1, [sp, #48]
	ldp	q0, q1, [x1]
	sub	x0, x29, #32
	add	x1, sp, #16
	str	x25, [sp, #160]
	stp	x24, x23, [sp, #176]
	mov	x22, x4
	mov	x23, x3
	stp	x20, x19, [sp, #208]
	mov	x19, x2
	str	q2, [sp, #80]
	stp	q0, q1, [sp, #16]
	str	x8, [sp, #96]
	stp	q3, q3, [x29, #-32]
	bl	b2sum..disk..reason_of_1_a64
	ldurb	w8, [x29, #-32]
	cbz	w8, 1f
	mov	w0, #1
	b	4f
1:
	movi	v0.2d, #0000000000000000
	ldp	x20, x25, [x29, #-24]
	ldur	x24, [x29, #-8]
	add	x0, sp, #16
	mov	x1, x23
	mov	x2, x22
	stp	q0, q0, [sp, #16]
	bl	b2sum_commands..quoting..quoted_name_1_a64
	ldrb	w8, [sp, #16]
	cbz	w8, 2f
	mov	w0, #1
	b	3f
2:
	ldp	x22, x4, [sp, #24]
	vj_page	x5, .L1_a64_static.123
	vj_address	x5, x5, .L1_a64_static.123
	ldp	x0, x1, [x21]
	ldr	x23, [sp, #40]
	mov	x2, x19
	mov	w6, #2
	mov	x3, x22
	mov	x7, x20
	str	x25, [sp]
	bl	b2sum_commands..messages..warn..068f3e307c5390f2_1_a64
	and	w0, w0, #0xff
	cbz	x23, 3f
	mov	w19, w0
	mov	x0, x22
	vj_call	rattle_dealloc
	mov	w0, w19
3:
	cbz	x24, 4f
	mov	w19, w0
	mov	x0, x20
	vj_call	rattle_dealloc
	mov	w0, w19
4:
	ldp	x20, x19, [sp, #208]
	ldr	x25, [sp, #160]
	ldp	x22, x21, [sp, #192]
	ldp	x24, x23, [sp, #176]
	ldp	x29, x30, [sp, #144]
	add	sp, sp, #224
	ret
	vj_end	b2sum_commands..messages..warn_of_file..fab5d8e6f6068f4d_1_a64

	vj_constants	16
	.p2align	4, 0x0
.L1_a64_CPI41_0:
	.byte	1
	.byte	2
	.byte	4
	.byte	8
	.byte	16
	.byte	32
	.byte	64
	.byte	128
	.byte	1
	.byte	2
	.byte	4
	.byte	8
	.byte	16
	.byte	32
	.byte	64
	.byte	128
.L1_a64_CPI41_1:
	.byte	16
	.byte	15
	.byte	14
	.byte	13
	.byte	12
	.byte	11
	.byte	10
	.byte	9
	.byte	8
	.byte	7
	.byte	6
	.byte	5
	.byte	4
	.byte	3
	.byte	2
	.byte	1
.L1_a64_CPI41_2:
	.byte	0
	.byte	1
	.byte	2
	.byte	3
	.byte	4
	.byte	5
	.byte	6
	.byte	7
	.byte	8
	.byte	9
	.byte	10
	.byte	11
	.byte	12
	.byte	13
	.byte	14
	.byte	15
.L1_a64_CPI41_3:
	.byte	16
	.byte	17
	.byte	18
	.byte	19
	.byte	20
	.byte	21
	.byte	22
	.byte	23
	.byte	24
	.byte	25
	.byte	26
	.byte	27
	.byte	28
	.byte	29
	.byte	30
	.byte	31
.L1_a64_CPI41_5:
	.byte	117
	.byte	110
	.byte	99
	.byte	97
	.byte	116
	.byte	101
	.byte	103
	.byte	111
	.byte	114
	.byte	105
	.byte	122
	.byte	101
	.byte	100
	.byte	32
	.byte	101
	.byte	114
.L1_a64_CPI41_10:
	.byte	117
	.byte	110
	.byte	101
	.byte	120
	.byte	112
	.byte	101
	.byte	99
	.byte	116
	.byte	101
	.byte	100
	.byte	32
	.byte	101
	.byte	110
	.byte	100
	.byte	32
	.byte	111
.L1_a64_CPI41_13:
	.byte	111
	.byte	112
	.byte	101
	.byte	114
	.byte	97
	.byte	116
	.byte	105
	.byte	111
	.byte	110
	.byte	32
	.byte	105
	.byte	110
	.byte	116
	.byte	101
	.byte	114
	.byte	114
.L1_a64_CPI41_15:
	.byte	97
	.byte	114
	.byte	103
	.byte	117
	.byte	109
	.byte	101
	.byte	110
	.byte	116
	.byte	32
	.byte	108
	.byte	105
	.byte	115
	.byte	116
	.byte	32
	.byte	116
	.byte	111
.L1_a64_CPI41_17:
	.byte	105
	.byte	110
	.byte	118
	.byte	97
	.byte	108
	.byte	105
	.byte	100
	.byte	32
	.byte	102
	.byte	105
	.byte	108
	.byte	101
	.byte	110
	.byte	97
	.byte	109
	.byte	101
.L1_a64_CPI41_20:
	.byte	99
	.byte	114
	.byte	111
	.byte	115
	.byte	115
	.byte	45
	.byte	100
	.byte	101
	.byte	118
	.byte	105
	.byte	99
	.byte	101
	.byte	32
	.byte	108
	.byte	105
	.byte	110
.L1_a64_CPI41_22:
	.byte	101
	.byte	120
	.byte	101
	.byte	99
	.byte	117
	.byte	116
	.byte	97
	.byte	98
	.byte	108
	.byte	101
	.byte	32
	.byte	102
	.byte	105
	.byte	108
	.byte	101
	.byte	32
.L1_a64_CPI41_30:
	.byte	115
	.byte	101
	.byte	101
	.byte	107
	.byte	32
	.byte	111
	.byte	110
	.byte	32
	.byte	117
	.byte	110
	.byte	115
	.byte	101
	.byte	101
	.byte	107
	.byte	97
	.byte	98
.L1_a64_CPI41_32:
	.byte	110
	.byte	111
	.byte	32
	.byte	115
	.byte	116
	.byte	111
	.byte	114
	.byte	97
	.byte	103
	.byte	101
	.byte	32
	.byte	115
	.byte	112
	.byte	97
	.byte	99
	.byte	101
.L1_a64_CPI41_37:
	.byte	105
	.byte	110
	.byte	118
	.byte	97
	.byte	108
	.byte	105
	.byte	100
	.byte	32
	.byte	105
	.byte	110
	.byte	112
	.byte	117
	.byte	116
	.byte	32
	.byte	112
	.byte	97
.L1_a64_CPI41_39:
	.byte	115
	.byte	116
	.byte	97
	.byte	108
	.byte	101
	.byte	32
	.byte	110
	.byte	101
	.byte	116
	.byte	119
	.byte	111
	.byte	114
	.byte	107
	.byte	32
	.byte	102
	.byte	105
.L1_a64_CPI41_41:
	.byte	102
	.byte	105
	.byte	108
	.byte	101
	.byte	115
	.byte	121
	.byte	115
	.byte	116
	.byte	101
	.byte	109
	.byte	32
	.byte	108
	.byte	111
	.byte	111
	.byte	112
	.byte	32
.L1_a64_CPI41_42:
	.byte	111
	.byte	114
	.byte	32
	.byte	105
	.byte	110
	.byte	100
	.byte	105
	.byte	114
	.byte	101
	.byte	99
	.byte	116
	.byte	105
	.byte	111
	.byte	110
	.byte	32
	.byte	108
.L1_a64_CPI41_43:
	.byte	105
	.byte	109
	.byte	105
	.byte	116
	.byte	32
	.byte	40
	.byte	101
	.byte	46
	.byte	103
	.byte	46
	.byte	32
	.byte	115
	.byte	121
	.byte	109
	.byte	108
	.byte	105
.L1_a64_CPI41_45:
	.byte	114
	.byte	101
	.byte	97
	.byte	100
	.byte	45
	.byte	111
	.byte	110
	.byte	108
	.byte	121
	.byte	32
	.byte	102
	.byte	105
	.byte	108
	.byte	101
	.byte	115
	.byte	121
.L1_a64_CPI41_46:
	.byte	115
	.byte	116
	.byte	101
	.byte	109
	.byte	32
	.byte	111
	.byte	114
	.byte	32
	.byte	115
	.byte	116
	.byte	111
	.byte	114
	.byte	97
	.byte	103
	.byte	101
	.byte	32
.L1_a64_CPI41_48:
	.byte	100
	.byte	105
	.byte	114
	.byte	101
	.byte	99
	.byte	116
	.byte	111
	.byte	114
	.byte	121
	.byte	32
	.byte	110
	.byte	111
	.byte	116
	.byte	32
	.byte	101
	.byte	109
.L1_a64_CPI41_53:
	.byte	111
	.byte	112
	.byte	101
	.byte	114
	.byte	97
	.byte	116
	.byte	105
	.byte	111
	.byte	110
	.byte	32
	.byte	119
	.byte	111
	.byte	117
	.byte	108
	.byte	100
	.byte	32
.L1_a64_CPI41_55:
	.byte	101
	.byte	110
	.byte	116
	.byte	105
	.byte	116
	.byte	121
	.byte	32
	.byte	97
	.byte	108
	.byte	114
	.byte	101
	.byte	97
	.byte	100
	.byte	121
	.byte	32
	.byte	101
.L1_a64_CPI41_60:
	.byte	97
	.byte	100
	.byte	100
	.byte	114
	.byte	101
	.byte	115
	.byte	115
	.byte	32
	.byte	110
	.byte	111
	.byte	116
	.byte	32
	.byte	97
	.byte	118
	.byte	97
	.byte	105
.L1_a64_CPI41_66:
	.byte	99
	.byte	111
	.byte	110
	.byte	110
	.byte	101
	.byte	99
	.byte	116
	.byte	105
	.byte	111
	.byte	110
	.byte	32
	.byte	97
	.byte	98
	.byte	111
	.byte	114
	.byte	116
.L1_a64_CPI41_67:
	.byte	110
	.byte	101
	.byte	116
	.byte	119
	.byte	111
	.byte	114
	.byte	107
	.byte	32
	.byte	117
	.byte	110
	.byte	114
	.byte	101
	.byte	97
	.byte	99
	.byte	104
	.byte	97
.L1_a64_CPI41_68:
	.byte	104
	.byte	111
	.byte	115
	.byte	116
	.byte	32
	.byte	117
	.byte	110
	.byte	114
	.byte	101
	.byte	97
	.byte	99
	.byte	104
	.byte	97
	.byte	98
	.byte	108
	.byte	101
.L1_a64_CPI41_69:
	.byte	99
	.byte	111
	.byte	110
	.byte	110
	.byte	101
	.byte	99
	.byte	116
	.byte	105
	.byte	111
	.byte	110
	.byte	32
	.byte	114
	.byte	101
	.byte	115
	.byte	101
	.byte	116
.L1_a64_CPI41_70:
	.byte	99
	.byte	111
	.byte	110
	.byte	110
	.byte	101
	.byte	99
	.byte	116
	.byte	105
	.byte	111
	.byte	110
	.byte	32
	.byte	114
	.byte	101
	.byte	102
	.byte	117
	.byte	115
.L1_a64_CPI41_71:
	.byte	112
	.byte	101
	.byte	114
	.byte	109
	.byte	105
	.byte	115
	.byte	115
	.byte	105
	.byte	111
	.byte	110
	.byte	32
	.byte	100
	.byte	101
	.byte	110
	.byte	105
	.byte	101
.L1_a64_CPI41_72:
	.byte	101
	.byte	110
	.byte	116
	.byte	105
	.byte	116
	.byte	121
	.byte	32
	.byte	110
	.byte	111
	.byte	116
	.byte	32
	.byte	102
	.byte	111
	.byte	117
	.byte	110
	.byte	100
	vj_constants	8
	.p2align	3, 0x0
.L1_a64_CPI41_4:
	.byte	32
	.byte	33
	.byte	34
	.byte	35
	.byte	36
	.byte	37
	.byte	38
	.byte	39
.L1_a64_CPI41_6:
	.byte	111
	.byte	116
	.byte	104
	.byte	101
	.byte	114
	.byte	32
	.byte	101
	.byte	114
.L1_a64_CPI41_7:
	.byte	105
	.byte	110
	.byte	32
	.byte	112
	.byte	114
	.byte	111
	.byte	103
	.byte	114
.L1_a64_CPI41_8:
	.byte	111
	.byte	117
	.byte	116
	.byte	32
	.byte	111
	.byte	102
	.byte	32
	.byte	109
.L1_a64_CPI41_9:
	.byte	101
	.byte	109
	.byte	111
	.byte	114
	.zero	1
	.zero	1
	.zero	1
	.zero	1
.L1_a64_CPI41_11:
	.byte	102
	.byte	32
	.byte	102
	.byte	105
	.zero	1
	.zero	1
	.zero	1
	.zero	1
.L1_a64_CPI41_12:
	.byte	117
	.byte	110
	.byte	115
	.byte	117
	.byte	112
	.byte	112
	.byte	111
	.byte	114
.L1_a64_CPI41_14:
	.byte	117
	.byte	112
	.byte	116
	.byte	101
	.zero	1
	.zero	1
	.zero	1
	.zero	1
.L1_a64_CPI41_16:
	.byte	111
	.byte	32
	.byte	108
	.byte	111
	.zero	1
	.zero	1
	.zero	1
	.zero	1
.L1_a64_CPI41_18:
	.byte	116
	.byte	111
	.byte	111
	.byte	32
	.byte	109
	.byte	97
	.byte	110
	.byte	121
.L1_a64_CPI41_19:
	.byte	32
	.byte	108
	.byte	105
	.byte	110
	.zero	1
	.zero	1
	.zero	1
	.zero	1
.L1_a64_CPI41_21:
	.byte	107
	.byte	32
	.byte	111
	.byte	114
	.byte	32
	.byte	114
	.byte	101
	.byte	110
.L1_a64_CPI41_23:
	.byte	98
	.byte	117
	.byte	115
	.byte	121
	.zero	1
	.zero	1
	.zero	1
	.zero	1
.L1_a64_CPI41_24:
	.byte	114
	.byte	101
	.byte	115
	.byte	111
	.byte	117
	.byte	114
	.byte	99
	.byte	101
.L1_a64_CPI41_25:
	.byte	32
	.byte	98
	.byte	117
	.byte	115
	.zero	1
	.zero	1
	.zero	1
	.zero	1
.L1_a64_CPI41_26:
	.byte	102
	.byte	105
	.byte	108
	.byte	101
	.byte	32
	.byte	116
	.byte	111
	.byte	111
.L1_a64_CPI41_27:
	.byte	32
	.byte	108
	.byte	97
	.byte	114
	.zero	1
	.zero	1
	.zero	1
	.zero	1
.L1_a64_CPI41_28:
	.byte	113
	.byte	117
	.byte	111
	.byte	116
	.byte	97
	.byte	32
	.byte	101
	.byte	120
.L1_a64_CPI41_29:
	.byte	99
	.byte	101
	.byte	101
	.byte	100
	.zero	1
	.zero	1
	.zero	1
	.zero	1
.L1_a64_CPI41_31:
	.byte	108
	.byte	101
	.byte	32
	.byte	102
	.zero	1
	.zero	1
	.zero	1
	.zero	1
.L1_a64_CPI41_33:
	.byte	119
	.byte	114
	.byte	105
	.byte	116
	.byte	101
	.byte	32
	.byte	122
	.byte	101
.L1_a64_CPI41_34:
	.byte	116
	.byte	105
	.byte	109
	.byte	101
	.byte	100
	.byte	32
	.byte	111
	.byte	117
.L1_a64_CPI41_35:
	.byte	105
	.byte	110
	.byte	118
	.byte	97
	.byte	108
	.byte	105
	.byte	100
	.byte	32
.L1_a64_CPI41_36:
	.byte	100
	.byte	97
	.byte	116
	.byte	97
	.zero	1
	.zero	1
	.zero	1
	.zero	1
.L1_a64_CPI41_38:
	.byte	114
	.byte	97
	.byte	109
	.byte	101
	.zero	1
	.zero	1
	.zero	1
	.zero	1
.L1_a64_CPI41_40:
	.byte	108
	.byte	101
	.byte	32
	.byte	104
	.byte	97
	.byte	110
	.byte	100
	.byte	108
.L1_a64_CPI41_44:
	.byte	110
	.byte	107
	.byte	32
	.byte	108
	.byte	111
	.byte	111
	.byte	112
	.byte	41
.L1_a64_CPI41_47:
	.byte	109
	.byte	101
	.byte	100
	.byte	105
	.zero	1
	.zero	1
	.zero	1
	.zero	1
.L1_a64_CPI41_49:
	.byte	105
	.byte	115
	.byte	32
	.byte	97
	.byte	32
	.byte	100
	.byte	105
	.byte	114
.L1_a64_CPI41_50:
	.byte	101
	.byte	99
	.byte	116
	.byte	111
	.zero	1
	.zero	1
	.zero	1
	.zero	1
.L1_a64_CPI41_51:
	.byte	110
	.byte	111
	.byte	116
	.byte	32
	.byte	97
	.byte	32
	.byte	100
	.byte	105
.L1_a64_CPI41_52:
	.byte	114
	.byte	101
	.byte	99
	.byte	116
	.zero	1
	.zero	1
	.zero	1
	.zero	1
.L1_a64_CPI41_54:
	.byte	98
	.byte	108
	.byte	111
	.byte	99
	.zero	1
	.zero	1
	.zero	1
	.zero	1
.L1_a64_CPI41_56:
	.byte	120
	.byte	105
	.byte	115
	.byte	116
	.zero	1
	.zero	1
	.zero	1
	.zero	1
.L1_a64_CPI41_57:
	.byte	98
	.byte	114
	.byte	111
	.byte	107
	.byte	101
	.byte	110
	.byte	32
	.byte	112
.L1_a64_CPI41_58:
	.byte	110
	.byte	101
	.byte	116
	.byte	119
	.byte	111
	.byte	114
	.byte	107
	.byte	32
.L1_a64_CPI41_59:
	.byte	100
	.byte	111
	.byte	119
	.byte	110
	.zero	1
	.zero	1
	.zero	1
	.zero	1
.L1_a64_CPI41_61:
	.byte	108
	.byte	97
	.byte	98
	.byte	108
	.zero	1
	.zero	1
	.zero	1
	.zero	1
.L1_a64_CPI41_62:
	.byte	97
	.byte	100
	.byte	100
	.byte	114
	.byte	101
	.byte	115
	.byte	115
	.byte	32
.L1_a64_CPI41_63:
	.byte	105
	.byte	110
	.byte	32
	.byte	117
	.zero	1
	.zero	1
	.zero	1
	.zero	1
.L1_a64_CPI41_64:
	.byte	110
	.byte	111
	.byte	116
	.byte	32
	.byte	99
	.byte	111
	.byte	110
	.byte	110
.L1_a64_CPI41_65:
	.byte	101
	.byte	99
	.byte	116
	.byte	101
	.zero	1
	.zero	1
	.zero	1
	.zero	1
.L1_a64_CPI41_73:
	.byte	32
	.byte	40
	.byte	111
	.byte	115
	.byte	32
	.byte	101
	.byte	114
	.byte	114
	vj_function	b2sum..disk..reason_of_1_a64
	stp	x29, x30, [sp, #-96]!
	stp	x28, x27, [sp, #16]
	mov	x29, sp
	stp	x26, x25, [sp, #32]
	stp	x24, x23, [sp, #48]
	stp	x22, x21, [sp, #64]
	stp	x20, x19, [sp, #80]
	sub	sp, sp, #448
	sub	x8, x29, #17
	stur	xzr, [sp, #60]
	movi	v5.2d, #0000000000000000
	str	x8, [sp, #32]
	mov	w8, #32
	ldrb	w24, [x1]
	str	w8, [sp, #56]
	ldrb	w23, [x1, #1]
	ldrb	w2, [x1, #2]
	str	wzr, [sp, #68]
	ldr	w20, [x1, #4]
	ldur	q1, [x1, #24]
	ldur	q0, [sp, #56]
	mov	x19, x0
	mov	x9, #-1
	ldur	q2, [x1, #40]
	ldur	q3, [x1, #56]
	add	x21, sp, #128
	str	q0, [sp, #96]
	ldur	q0, [x1, #8]
	ldur	q4, [x1, #72]
	stp	xzr, xzr, [sp, #16]
	str	xzr, [sp, #8]
	stp	xzr, xzr, [sp, #40]
	stp	xzr, xzr, [sp, #80]
	str	x9, [sp, #72]
	str	x9, [sp, #112]
	str	w8, [sp, #56]
	stur	xzr, [sp, #60]
	str	wzr, [sp, #68]
	stp	q5, q5, [x21, #32]
	stp	q5, q5, [x21, #64]
	stp	q5, q5, [x21, #96]
	stp	q5, q5, [x21, #128]
	stp	q5, q5, [x21, #160]
	stp	q5, q5, [x21, #192]
	stp	q5, q5, [x21, #224]
	str	q5, [x21, #16]
	str	q5, [sp, #128]
	cbz	w24, 1f
	str	q0, [sp, #128]
	stp	q1, q2, [x21, #16]
	stp	q3, q4, [x21, #48]
	b	5f
1:
	add	x1, sp, #128
	mov	w0, w20
	mov	w2, #256
	add	x22, sp, #128
	vj_call	b2sum_strerror
	mov	x9, xzr
2:
	ldr	q0, [x22], #16
	sub	x8, x9, #16
	cmeq	v0.16b, v0.16b, #0
	umaxv	b1, v0.16b
	fmov	w10, s1
	tbnz	w10, #0, 3f
	cmn	x9, #240
	mov	x9, x8
	b.ne	2b
3:
	vj_page	x9, .L1_a64_CPI41_0
	vj_load	q1, x9, .L1_a64_CPI41_0
	and	v1.16b, v0.16b, v1.16b
	ext	v2.16b, v1.16b, v1.16b, #8
	zip1	v1.16b, v1.16b, v2.16b
	addv	h1, v1.8h
	fmov	w9, s1
	tst	w9, #0xffff
	b.eq	4f
	vj_page	x9, .L1_a64_CPI41_1
	mov	w10, #16
	vj_load	q1, x9, .L1_a64_CPI41_1
	and	v0.16b, v0.16b, v1.16b
	umaxv	b0, v0.16b
	fmov	w9, s0
	sub	w9, w10, w9
	and	x9, x9, #0xff
	sub	x8, x9, x8
	sub	x2, x8, #16
	b	5f
4:
	mov	w2, #256
5:
	sub	x0, x29, #64
	add	x1, sp, #128
	stp	xzr, xzr, [x29, #-64]
	add	x22, sp, #32
	stur	xzr, [x29, #-48]
	bl	core..str..utf8..from_utf8_1_a64
	ldurb	w8, [x29, #-64]
	ldp	x9, x10, [x29, #-56]
	vj_page	x11, .L1_a64_static.1
	vj_address	x11, x11, .L1_a64_static.1
	cmp	w8, #0
	csel	x1, x9, x11, eq
	csel	x2, x10, xzr, eq
	cmp	w24, #1
	b.eq	10f
	cbnz	w24, 13f
	mov	w8, #32
	ldr	x9, [sp, #80]
	stur	xzr, [x22, #28]
	str	w8, [sp, #56]
	mov	x8, #-1
	stur	wzr, [x22, #36]
	str	x8, [sp, #72]
	cbnz	x9, 65f
	ldp	x8, x23, [sp, #40]
	sub	x9, x23, x8
	cmp	x2, x9
	b.hi	71f
6:
	ldr	x24, [sp, #32]
	add	x25, x8, x2
	stp	xzr, xzr, [x22, #8]
	add	x0, x24, x8
	sub	x9, x0, x1
	cmp	x9, x2
	b.hs	24f
	cmp	x2, #8
	b.lo	7f
	add	x9, x8, x24
	sub	x9, x9, x1
	cmp	x9, #32
	b.hs	64f
7:
	mov	x9, xzr
8:
	add	x10, x9, x8
	sub	x8, x2, x9
	add	x9, x1, x9
	add	x10, x24, x10
9:
	ldrb	w11, [x9], #1
	subs	x8, x8, #1
	strb	w11, [x10], #1
	b.ne	9b
	b	25f
10:
	vj_page	x8, .L1_a64_CPI41_2
	vj_page	x9, .L1_a64_CPI41_3
	cmp	w23, #41
	vj_load	q0, x8, .L1_a64_CPI41_2
	vj_page	x8, .L1_a64_CPI41_4
	vj_load	q1, x9, .L1_a64_CPI41_3
	vj_load	d2, x8, .L1_a64_CPI41_4
	mov	w8, #40
	stp	q0, q1, [x21, #256]
	stur	d2, [x29, #-32]
	sturb	w8, [x29, #-24]
	b.hs	18f
	sub	x8, x29, #64
	vj_page	x10, .L1_a64_JTI41_0
	vj_address	x10, x10, .L1_a64_JTI41_0
	ldrb	w9, [x8, x23]
	ldr	x8, [sp, #80]
	adr	x11, 11f
	ldrh	w12, [x10, x9, lsl #1]
	add	x11, x11, x12, lsl #2
	ret	x11
11:
	cbnz	x8, 267f
	ldp	x9, x8, [sp, #40]
	sub	x10, x8, x9
	cmp	x10, #15
	b.ls	316f
12:
	ldr	x10, [sp, #32]
	vj_page	x12, .L1_a64_static.133
	vj_address	x12, x12, .L1_a64_static.133
	add	x11, x10, x9
	add	x9, x9, #16
	sub	x13, x11, x12
	cmp	x13, #15
	b.hi	143f
	vj_page	x12, .L1_a64_CPI41_72
	vj_load	q0, x12, .L1_a64_CPI41_72
	b	220f
13:
	ldr	x8, [sp, #64]
	cbnz	x8, 22f
	ldr	x8, [sp, #72]
	cmp	x2, x8
	b.hi	22f
	ldr	x8, [sp, #80]
	cbnz	x8, 83f
	ldp	x8, x23, [sp, #40]
	sub	x9, x23, x8
	cmp	x2, x9
	b.hi	89f
14:
	ldr	x24, [sp, #32]
	add	x25, x8, x2
	stp	xzr, xzr, [x22, #8]
	add	x0, x24, x8
	sub	x9, x0, x1
	cmp	x9, x2
	b.hs	44f
	cmp	x2, #8
	b.lo	15f
	add	x9, x8, x24
	sub	x9, x9, x1
	cmp	x9, #32
	b.hs	70f
15:
	mov	x9, xzr
16:
	add	x10, x9, x8
	sub	x8, x2, x9
	add	x9, x1, x9
	add	x10, x24, x10
17:
	ldrb	w11, [x9], #1
	subs	x8, x8, #1
	strb	w11, [x10], #1
	b.ne	17b
	b	45f
18:
	ldr	x8, [sp, #80]
	cbnz	x8, 153f
19:
	ldp	x10, x8, [sp, #40]
	sub	x9, x8, x10
	cmp	x9, #18
	b.ls	88f
20:
	ldr	x9, [sp, #32]
	vj_page	x12, .L1_a64_static.174
	vj_address	x12, x12, .L1_a64_static.174
	stp	xzr, xzr, [x22, #8]
	add	x11, x9, x10
	add	x10, x10, #19
	sub	x13, x11, x12
	cmp	x13, #18
	b.hi	40f
	vj_page	x12, .L1_a64_CPI41_5
	mov	w13, #28530
	vj_load	q0, x12, .L1_a64_CPI41_5
	strh	w13, [x11, #16]
	mov	w12, #114
21:
	str	q0, [x11]
	strb	w12, [x11, #18]
	b	43f
22:
	add	x0, sp, #32
	bl	core..fmt..formatter..Formatter..cut_and_fill..d3f2601cc94bc858_1_a64
23:
	and	w20, w0, #0xff
	b	46f
24:
	vj_c_call	memmove
25:
	stp	x24, x25, [sp, #32]
	str	x23, [sp, #48]
26:
	mov	w8, #32
	ldr	x9, [sp, #80]
	stur	xzr, [x22, #28]
	str	w8, [sp, #56]
	mov	x8, #-1
	stur	wzr, [x22, #36]
	str	x8, [sp, #72]
	cbnz	x9, 72f
	ldp	x10, x8, [sp, #40]
	sub	x9, x8, x10
	cmp	x9, #10
	b.ls	73f
27:
	ldr	x9, [sp, #32]
	vj_page	x12, .L1_a64_static.129
	vj_address	x12, x12, .L1_a64_static.129
	add	x11, x9, x10
	add	x10, x10, #11
	sub	x13, x11, x12
	cmp	x13, #10
	b.hi	28f
	vj_page	x12, .L1_a64_CPI41_73
	mov	w13, #29295
	vj_load	d0, x12, .L1_a64_CPI41_73
	mov	w12, #32
	strh	w13, [x11, #8]
	strb	w12, [x11, #10]
	str	d0, [x11]
	b	29f
28:
	mov	w13, #28530
	ldr	x12, [x12]
	movk	w13, #8306, lsl #16
	stur	w13, [x11, #7]
	str	x12, [x11]
29:
	stp	x9, x10, [sp, #32]
	str	x8, [sp, #48]
30:
	mov	w8, #32
	cmp	w20, #0
	stur	xzr, [x22, #28]
	str	w8, [sp, #56]
	mov	x8, #-1
	str	x8, [sp, #72]
	cneg	w8, w20, mi
	cmp	w8, #100
	stur	wzr, [x22, #36]
	stp	xzr, xzr, [x29, #-64]
	stur	xzr, [x29, #-48]
	b.lo	33f
	mov	x9, xzr
31:
	mov	x11, #62915
	mov	x10, x8
	lsr	x8, x8, #2
	movk	x11, #23592, lsl #16
	mov	w12, #205
	movk	x11, #49807, lsl #32
	movk	x11, #10485, lsl #48
	umulh	x8, x8, x11
	mov	w11, #100
	lsr	x8, x8, #2
	msub	w11, w8, w11, w10
	lsr	x10, x10, #4
	cmp	x10, #624
	and	w13, w11, #0xff
	mul	w12, w13, w12
	mov	w13, #10
	lsr	w12, w12, #11
	msub	w11, w12, w13, w11
	sub	x13, x29, #64
	orr	w10, w12, #0x30
	add	x13, x13, x9
	sub	x9, x9, #2
	strb	w10, [x13, #22]
	orr	w11, w11, #0x30
	strb	w11, [x13, #23]
	b.hi	31b
	add	x9, x9, #24
	cmp	x8, #10
	b.hs	34f
32:
	sub	x9, x9, #1
	sub	x10, x29, #64
	orr	w8, w8, #0x30
	strb	w8, [x10, x9]
	b	35f
33:
	mov	w9, #24
	cmp	x8, #10
	b.lo	32b
34:
	and	w10, w8, #0xff
	mov	w11, #205
	mul	w10, w10, w11
	mov	w11, #10
	lsr	w10, w10, #11
	msub	w8, w10, w11, w8
	sub	x11, x29, #64
	orr	w10, w10, #0x30
	add	x11, x11, x9
	sub	x9, x9, #2
	sturb	w10, [x11, #-2]
	orr	w8, w8, #0x30
	sturb	w8, [x11, #-1]
35:
	sub	x8, x9, #1
	cmp	w20, #0
	ldr	x10, [sp, #80]
	csel	x23, x8, x9, mi
	mov	w9, #24
	sub	x20, x29, #64
	sub	x2, x9, x23
	mov	w11, #45
	strb	w11, [x20, x8]
	cbnz	x10, 74f
	ldp	x8, x24, [sp, #40]
	sub	x9, x24, x8
	cmp	x2, x9
	b.hi	75f
36:
	ldr	x25, [sp, #32]
	add	x1, x20, x23
	add	x26, x8, x2
	add	x0, x25, x8
	vj_c_call	memcpy
	stp	x25, x26, [sp, #32]
	str	x24, [sp, #48]
37:
	mov	w8, #32
	ldr	x9, [sp, #80]
	stur	xzr, [x22, #28]
	str	w8, [sp, #56]
	mov	x8, #-1
	stur	wzr, [x22, #36]
	str	x8, [sp, #72]
	cbnz	x9, 77f
	ldp	x9, x8, [sp, #40]
	cmp	x8, x9
	b.eq	78f
38:
	ldr	x10, [sp, #32]
	mov	w20, wzr
	mov	w11, #41
	strb	w11, [x10, x9]
	add	x9, x9, #1
39:
	stp	x10, x9, [sp, #32]
	str	x8, [sp, #48]
	b	46f
40:
	mov	w13, #29298
	movk	w13, #29295, lsl #16
41:
	ldr	q0, [x12]
	stur	w13, [x11, #15]
42:
	str	q0, [x11]
43:
	mov	w20, wzr
	stp	x9, x10, [sp, #32]
	str	x8, [sp, #48]
	b	46f
44:
	vj_c_call	memmove
45:
	mov	w20, wzr
	stp	x24, x25, [sp, #32]
	str	x23, [sp, #48]
46:
	ldr	q0, [sp, #96]
	ldr	x8, [sp, #112]
	stur	q0, [x22, #24]
	stur	x8, [x22, #40]
	cbz	w20, 50f
	ldr	x8, [sp, #48]
	cbz	x8, 49f
47:
	ldr	x0, [sp, #32]
48:
	vj_call	rattle_dealloc
49:
	mov	w8, #1
	stp	xzr, xzr, [x19, #16]
	strb	w8, [x19]
	str	xzr, [x19, #8]
	b	52f
50:
	ldp	x20, x23, [sp, #32]
	ldr	x22, [sp, #48]
	cmp	x23, #11
	b.hs	53f
51:
	strb	wzr, [x19]
	stp	x20, x23, [x19, #8]
	str	x22, [x19, #24]
52:
	add	sp, sp, #448
	ldp	x20, x19, [sp, #80]
	ldp	x22, x21, [sp, #64]
	ldp	x24, x23, [sp, #48]
	ldp	x26, x25, [sp, #32]
	ldp	x28, x27, [sp, #16]
	ldp	x29, x30, [sp], #96
	ret
53:
	mov	w9, #8224
	sub	x26, x23, #18
	mov	x24, xzr
	strh	w9, [sp, #144]
	mov	w9, #10
	mov	x8, xzr
	sub	x25, x23, #10
	add	x27, x20, x26
	sub	x28, x9, x23
	stp	x20, x23, [sp, #128]
	stur	wzr, [x21, #18]
	strh	wzr, [sp, #150]
	str	x9, [sp, #152]
	b	55f
54:
	add	x8, x21, #1
	adds	x9, x24, #27
	csinv	x24, x9, xzr, lo
	adds	x9, x8, #128
	csinv	x9, x9, xzr, lo
	cmp	x9, x24, lsr #3
	b.lo	79f
55:
	sub	x9, x25, x8
	cmp	x9, #7
	b.hi	58f
	cmp	x25, x8
	b.ls	51b
	neg	x9, x8
	add	x8, x20, x8
	b	57f
56:
	sub	x9, x9, #1
	add	x8, x8, #1
	cmp	x28, x9
	b.eq	51b
57:
	ldrb	w10, [x8]
	cmp	w10, #32
	b.ne	56b
	ldrb	w10, [x8, #10]
	cmp	w10, #32
	b.ne	56b
	neg	x21, x9
	b	63f
58:
	add	x9, x20, x8
	mov	x11, #9187201950435737471
	ldr	x10, [x9]
	ldur	x9, [x9, #10]
	eor	x10, x10, #0x2020202020202020
	eor	x9, x9, #0x2020202020202020
	orr	x9, x9, x10
	and	x10, x9, #0x7f7f7f7f7f7f7f7f
	add	x10, x10, x11
	mov	x11, #-9187201950435737472
	orr	x9, x10, x9
	and	x9, x9, #0x8080808080808080
	eor	x10, x9, #0x8080808080808080
	cmp	x9, x11
	mov	w9, #8
	rbit	x10, x10
	clz	x10, x10
	lsr	x10, x10, #3
	csel	x9, x9, x10, eq
	add	x21, x9, x8
	add	x8, x8, #8
	cmp	x21, x8
	b.lo	63f
	sub	x8, x25, x21
	cmp	x8, #32
	b.lo	60f
59:
	movi	v0.16b, #32
	add	x8, x20, x21
	mov	x9, #-9187201950435737472
	ldp	q2, q1, [x8]
	ldur	q3, [x8, #10]
	ldur	q4, [x8, #26]
	eor	v1.16b, v1.16b, v0.16b
	eor	v2.16b, v2.16b, v0.16b
	eor	v4.16b, v4.16b, v0.16b
	eor	v0.16b, v3.16b, v0.16b
	movi	v3.16b, #127
	orr	v1.16b, v4.16b, v1.16b
	orr	v0.16b, v0.16b, v2.16b
	and	v2.16b, v1.16b, v3.16b
	and	v4.16b, v0.16b, v3.16b
	add	v2.2d, v2.2d, v3.2d
	add	v4.2d, v4.2d, v3.2d
	orr	v1.16b, v2.16b, v1.16b
	orr	v0.16b, v4.16b, v0.16b
	and	v0.16b, v0.16b, v1.16b
	ext	v1.16b, v0.16b, v0.16b, #8
	and	v0.8b, v0.8b, v1.8b
	fmov	x8, d0
	bics	xzr, x9, x8
	b.ne	60f
	add	x0, sp, #128
	add	x1, x21, #32
	sub	x2, x23, #10
	bl	core..slice..words..skip_far..878162fd265b9cd6_1_a64
	sub	x8, x25, x0
	mov	x21, x0
	cmp	x8, #31
	b.hi	59b
60:
	sub	x8, x25, x21
61:
	cmp	x8, #9
	b.lo	62f
	add	x9, x20, x21
	mov	x11, #9187201950435737471
	sub	x8, x8, #8
	ldr	x10, [x9]
	ldur	x9, [x9, #10]
	eor	x10, x10, #0x2020202020202020
	eor	x9, x9, #0x2020202020202020
	orr	x9, x9, x10
	and	x10, x9, #0x7f7f7f7f7f7f7f7f
	add	x10, x10, x11
	mov	x11, #-9187201950435737472
	orr	x9, x10, x9
	and	x9, x9, #0x8080808080808080
	eor	x10, x9, #0x8080808080808080
	cmp	x9, x11
	mov	w9, #8
	rbit	x10, x10
	clz	x10, x10
	lsr	x10, x10, #3
	csel	x9, x9, x10, eq
	add	x10, x9, x21
	add	x21, x21, #8
	cmp	x10, x21
	b.hs	61b
	add	x8, x9, x21
	sub	x21, x8, #8
	b	63f
62:
	ldr	x8, [x27]
	ldur	x9, [x27, #10]
	mov	x10, #9187201950435737471
	eor	x8, x8, #0x2020202020202020
	eor	x9, x9, #0x2020202020202020
	orr	x8, x9, x8
	and	x9, x8, #0x7f7f7f7f7f7f7f7f
	add	x9, x9, x10
	mov	x10, #-9187201950435737472
	orr	x8, x9, x8
	and	x8, x8, #0x8080808080808080
	eor	x9, x8, #0x8080808080808080
	cmp	x8, x10
	mov	w8, #8
	rbit	x9, x9
	clz	x9, x9
	lsr	x9, x9, #3
	csel	x8, x8, x9, eq
	add	x21, x8, x26
63:
	cmp	x21, x25
	b.eq	51b
	sub	x8, x23, x21
	cmp	x8, #11
	b.lo	54b
	mov	x10, #10272
	add	x8, x20, x21
	movk	x10, #29551, lsl #16
	ldr	x9, [x8]
	ldur	x8, [x8, #3]
	movk	x10, #25888, lsl #32
	movk	x10, #29298, lsl #48
	cmp	x9, x10
	mov	x9, #8307
	movk	x9, #29285, lsl #16
	movk	x9, #28530, lsl #32
	movk	x9, #8306, lsl #48
	ccmp	x8, x9, #0, eq
	b.ne	54b
	b	209f
64:
	cmp	x2, #32
	b.hs	66f
	mov	x9, xzr
	b	68f
65:
	add	x0, sp, #32
	bl	core..fmt..formatter..Formatter..write_indented..d3f2601cc94bc858_1_a64
	and	w8, w0, #0xff
	tbnz	w8, #0, 76f
	b	26b
66:
	add	x12, x8, x24
	and	x10, x2, #0x18
	and	x9, x2, #0xffffffffffffffe0
	add	x11, x1, #16
	add	x12, x12, #16
	and	x13, x2, #0xffffffffffffffe0
67:
	ldp	q0, q1, [x11, #-16]
	subs	x13, x13, #32
	add	x11, x11, #32
	stp	q0, q1, [x12, #-16]
	add	x12, x12, #32
	b.ne	67b
	cmp	x2, x9
	b.eq	25b
	cbz	x10, 8b
68:
	mov	x11, x9
	and	x9, x2, #0xfffffffffffffff8
	add	x12, x8, x11
	sub	x10, x11, x9
	add	x11, x1, x11
	add	x12, x24, x12
69:
	ldr	d0, [x11], #8
	adds	x10, x10, #8
	str	d0, [x12], #8
	b.ne	69b
	cmp	x2, x9
	b.eq	25b
	b	8b
70:
	cmp	x2, #32
	b.hs	84f
	mov	x9, xzr
	b	86f
71:
	mov	x24, x1
	add	x0, sp, #32
	mov	x1, x2
	mov	x25, x2
	bl	std_alloc..vec..Vec..grow_amortized..01eec35b572d02af_1_a64
	cbz	w0, 76f
	ldp	x8, x23, [sp, #40]
	mov	x2, x25
	mov	x1, x24
	b	6b
72:
	vj_page	x1, .L1_a64_static.129
	vj_address	x1, x1, .L1_a64_static.129
	add	x0, sp, #32
	mov	w2, #11
	bl	core..fmt..formatter..Formatter..write_indented..d3f2601cc94bc858_1_a64
	and	w8, w0, #0xff
	tbnz	w8, #0, 76f
	b	30b
73:
	add	x0, sp, #32
	mov	w1, #11
	bl	std_alloc..vec..Vec..grow_amortized..01eec35b572d02af_1_a64
	cbz	w0, 76f
	ldp	x10, x8, [sp, #40]
	b	27b
74:
	add	x0, sp, #32
	add	x1, x20, x23
	bl	core..fmt..formatter..Formatter..write_indented..d3f2601cc94bc858_1_a64
	and	w8, w0, #0xff
	tbnz	w8, #0, 76f
	b	37b
75:
	add	x0, sp, #32
	mov	x1, x2
	mov	x25, x2
	bl	std_alloc..vec..Vec..grow_amortized..01eec35b572d02af_1_a64
	cbz	w0, 76f
	ldp	x8, x24, [sp, #40]
	mov	x2, x25
	b	36b
76:
	ldr	q0, [sp, #96]
	ldr	x8, [sp, #112]
	stur	q0, [x22, #24]
	stur	x8, [x22, #40]
	ldr	x8, [sp, #48]
	cbnz	x8, 47b
	b	49b
77:
	vj_page	x1, .L1_a64_static.130
	vj_address	x1, x1, .L1_a64_static.130
	add	x0, sp, #32
	mov	w2, #1
	bl	core..fmt..formatter..Formatter..write_indented..d3f2601cc94bc858_1_a64
	b	23b
78:
	add	x0, sp, #32
	mov	w1, #1
	mov	w20, #1
	bl	std_alloc..vec..Vec..grow_amortized..01eec35b572d02af_1_a64
	cbz	w0, 46b
	ldp	x9, x8, [sp, #40]
	b	38b
79:
	mov	x13, xzr
	mov	x10, xzr
	mov	w14, #1
	mov	w12, #1
	mov	w11, #1
80:
	vj_page	x9, .L1_a64_static.129
	vj_address	x9, x9, .L1_a64_static.129
	add	x16, x10, #1
	add	x15, x9, x13
	ldrb	w12, [x9, x12]
	cmp	x16, x14
	ldrb	w10, [x15, x10]
	add	x15, x16, x11
	csel	x17, x14, xzr, eq
	csel	x16, xzr, x16, eq
	sub	x0, x15, x13
	add	x17, x17, x11
	cmp	w10, w12
	csel	x16, xzr, x16, lo
	csel	x15, x15, x17, lo
	csel	x14, x0, x14, lo
	cmp	w12, w10
	csel	x10, xzr, x16, lo
	csinc	x15, x15, x11, hs
	csel	x13, x11, x13, lo
	add	x12, x15, x10
	csinc	x14, x14, xzr, hs
	mov	x11, x15
	cmp	x12, #11
	b.lo	80b
	mov	x10, xzr
	mov	x12, xzr
	mov	w11, #1
	mov	w16, #1
	mov	w15, #1
81:
	add	x17, x9, x10
	add	x0, x12, #1
	ldrb	w16, [x9, x16]
	ldrb	w12, [x17, x12]
	cmp	x0, x11
	add	x17, x0, x15
	csel	x1, x11, xzr, eq
	csel	x0, xzr, x0, eq
	sub	x2, x17, x10
	cmp	w16, w12
	add	x1, x1, x15
	csel	x0, xzr, x0, lo
	csel	x17, x17, x1, lo
	csel	x11, x2, x11, lo
	cmp	w12, w16
	csel	x12, xzr, x0, lo
	csinc	x17, x17, x15, hs
	csel	x10, x15, x10, lo
	add	x16, x17, x12
	csinc	x11, x11, xzr, hs
	mov	x15, x17
	cmp	x16, #11
	b.lo	81b
	cmp	x10, x13
	b.hs	90f
	mov	w10, #11
	lsl	x11, x13, #1
	sub	x10, x10, x13
	cmp	x10, x13
	csel	x12, x10, x13, hi
	cmp	x11, #10
	b.hi	99f
	vj_page	x10, .L1_a64_static.129
	vj_address	x10, x10, .L1_a64_static.129
	mov	x11, x13
82:
	ldrb	w15, [x10]
	ldrb	w16, [x10, x14]
	cmp	w15, w16
	b.ne	99f
	subs	x11, x11, #1
	add	x10, x10, #1
	b.ne	82b
	mov	x10, x13
	mov	x11, x14
	b	92f
83:
	add	x0, sp, #32
	bl	core..fmt..formatter..Formatter..write_indented..d3f2601cc94bc858_1_a64
	b	23b
84:
	add	x12, x8, x24
	and	x10, x2, #0x18
	and	x9, x2, #0xffffffffffffffe0
	add	x11, x1, #16
	add	x12, x12, #16
	and	x13, x2, #0xffffffffffffffe0
85:
	ldp	q0, q1, [x11, #-16]
	subs	x13, x13, #32
	add	x11, x11, #32
	stp	q0, q1, [x12, #-16]
	add	x12, x12, #32
	b.ne	85b
	cmp	x2, x9
	b.eq	45b
	cbz	x10, 16b
86:
	mov	x11, x9
	and	x9, x2, #0xfffffffffffffff8
	add	x12, x8, x11
	sub	x10, x11, x9
	add	x11, x1, x11
	add	x12, x24, x12
87:
	ldr	d0, [x11], #8
	adds	x10, x10, #8
	str	d0, [x12], #8
	b.ne	87b
	cmp	x2, x9
	b.eq	45b
	b	16b
88:
	add	x0, sp, #32
	mov	w1, #19
	bl	std_alloc..vec..Vec..grow_amortized..01eec35b572d02af_1_a64
	cbz	w0, 338f
	ldp	x10, x8, [sp, #40]
	b	20b
89:
	mov	x20, x1
	add	x0, sp, #32
	mov	x1, x2
	mov	x24, x2
	bl	std_alloc..vec..Vec..grow_amortized..01eec35b572d02af_1_a64
	cbz	w0, 338f
	ldp	x8, x23, [sp, #40]
	mov	x2, x24
	mov	x1, x20
	b	14b
90:
	mov	w12, #11
	lsl	x13, x10, #1
	sub	x12, x12, x10
	cmp	x12, x10
	csel	x12, x12, x10, hi
	cmp	x13, #10
	b.hi	100f
	cbz	x10, 92f
	vj_page	x13, .L1_a64_static.129
	vj_address	x13, x13, .L1_a64_static.129
	mov	x14, x10
91:
	ldrb	w15, [x13]
	ldrb	w16, [x13, x11]
	cmp	w15, w16
	b.ne	100f
	subs	x14, x14, #1
	add	x13, x13, #1
	b.ne	91b
92:
	sub	x12, x23, x8
	cmp	x12, #11
	b.lo	51b
	mov	w12, #11
	mov	w13, #1
	mov	x14, xzr
	sub	x12, x12, x11
	sub	x13, x13, x10
	sub	x15, x20, #1
93:
	cmp	x14, x10
	csel	x17, x14, x10, hi
	cmp	x17, #10
	b.hi	95f
	add	x16, x13, x8
	add	x0, x20, x8
	add	x16, x16, x17
94:
	ldrb	w1, [x9, x17]
	ldrb	w2, [x0, x17]
	cmp	w1, w2
	b.ne	97f
	add	x17, x17, #1
	add	x16, x16, #1
	cmp	x17, #11
	b.ne	94b
95:
	add	x16, x15, x8
	mov	x17, x10
96:
	cmp	x14, x17
	b.hs	208f
	add	x0, x9, x17
	ldrb	w1, [x16, x17]
	sub	x17, x17, #1
	ldurb	w0, [x0, #-1]
	cmp	w0, w1
	b.eq	96b
	add	x16, x8, x11
	mov	x14, x12
	b	98f
97:
	mov	x14, xzr
98:
	sub	x8, x23, x16
	cmp	x8, #11
	mov	x8, x16
	b.hs	93b
	b	51b
99:
	mov	x10, x13
100:
	sub	x11, x23, x8
	cmp	x11, #11
	b.lo	51b
	cmp	x10, #11
	b.hs	205f
	sub	x11, x20, #1
101:
	add	x14, x20, x8
	mvn	x13, x8
	mov	x15, x10
102:
	ldrb	w16, [x9, x15]
	ldrb	w17, [x14, x15]
	cmp	w16, w17
	b.ne	104f
	add	x15, x15, #1
	sub	x13, x13, #1
	cmp	x15, #11
	b.ne	102b
	add	x13, x11, x8
	mov	x14, x10
103:
	cbz	x14, 208f
	add	x15, x9, x14
	ldrb	w16, [x13, x14]
	sub	x14, x14, #1
	ldurb	w15, [x15, #-1]
	cmp	w15, w16
	b.eq	103b
	add	x8, x8, x12
	b	105f
104:
	neg	x8, x13
105:
	sub	x13, x23, x8
	cmp	x13, #11
	b.hs	101b
	b	51b
106:
	cbnz	x8, 247f
	ldp	x10, x8, [sp, #40]
	sub	x9, x8, x10
	cmp	x9, #21
	b.ls	297f
107:
	ldr	x9, [sp, #32]
	vj_page	x12, .L1_a64_static.170
	vj_address	x12, x12, .L1_a64_static.170
	stp	xzr, xzr, [x22, #8]
	add	x11, x9, x10
	add	x10, x10, #22
	sub	x13, x11, x12
	cmp	x13, #21
	b.hi	202f
	vj_page	x12, .L1_a64_CPI41_10
	vj_page	x13, .L1_a64_CPI41_11
	vj_load	q0, x12, .L1_a64_CPI41_10
	vj_load	d1, x13, .L1_a64_CPI41_11
	mov	w12, #25964
	b	116f
108:
	cbnz	x8, 248f
	ldp	x10, x8, [sp, #40]
	sub	x9, x8, x10
	cmp	x9, #20
	b.ls	298f
109:
	ldr	x9, [sp, #32]
	vj_page	x12, .L1_a64_static.168
	vj_address	x12, x12, .L1_a64_static.168
	stp	xzr, xzr, [x22, #8]
	add	x11, x9, x10
	add	x10, x10, #21
	sub	x13, x11, x12
	cmp	x13, #20
	b.hi	165f
	vj_page	x12, .L1_a64_CPI41_13
	vj_page	x13, .L1_a64_CPI41_14
	vj_load	q0, x12, .L1_a64_CPI41_13
	vj_load	d1, x13, .L1_a64_CPI41_14
	mov	w12, #100
	b	164f
110:
	cbnz	x8, 249f
	ldp	x10, x8, [sp, #40]
	sub	x9, x8, x10
	cmp	x9, #10
	b.ls	299f
111:
	ldr	x9, [sp, #32]
	vj_page	x12, .L1_a64_static.169
	vj_address	x12, x12, .L1_a64_static.169
	add	x11, x9, x10
	add	x10, x10, #11
	sub	x13, x11, x12
	cmp	x13, #10
	b.hi	214f
	vj_page	x12, .L1_a64_CPI41_12
	mov	w13, #25972
	vj_load	d0, x12, .L1_a64_CPI41_12
	strh	w13, [x11, #8]
	mov	w12, #100
	b	184f
112:
	cbnz	x8, 250f
	ldp	x10, x8, [sp, #40]
	sub	x9, x8, x10
	cmp	x9, #13
	b.ls	300f
113:
	ldr	x9, [sp, #32]
	vj_page	x12, .L1_a64_static.160
	vj_address	x12, x12, .L1_a64_static.160
	add	x11, x9, x10
	add	x10, x10, #14
	sub	x13, x11, x12
	cmp	x13, #13
	b.hi	201f
	vj_page	x12, .L1_a64_CPI41_26
	vj_page	x13, .L1_a64_CPI41_27
	vj_load	d0, x12, .L1_a64_CPI41_26
	vj_load	d1, x13, .L1_a64_CPI41_27
	mov	w12, #25959
	b	200f
114:
	cbnz	x8, 251f
	ldp	x10, x8, [sp, #40]
	sub	x9, x8, x10
	cmp	x9, #21
	b.ls	301f
115:
	ldr	x9, [sp, #32]
	vj_page	x12, .L1_a64_static.167
	vj_address	x12, x12, .L1_a64_static.167
	stp	xzr, xzr, [x22, #8]
	add	x11, x9, x10
	add	x10, x10, #22
	sub	x13, x11, x12
	cmp	x13, #21
	b.hi	202f
	vj_page	x12, .L1_a64_CPI41_15
	vj_page	x13, .L1_a64_CPI41_16
	vj_load	q0, x12, .L1_a64_CPI41_15
	vj_load	d1, x13, .L1_a64_CPI41_16
	mov	w12, #26478
116:
	str	q0, [x11]
	str	s1, [x11, #16]
	strh	w12, [x11, #20]
	b	43b
117:
	cbnz	x8, 253f
	ldp	x10, x8, [sp, #40]
	sub	x9, x8, x10
	cmp	x9, #18
	b.ls	302f
118:
	ldr	x9, [sp, #32]
	vj_page	x12, .L1_a64_static.149
	vj_address	x12, x12, .L1_a64_static.149
	stp	xzr, xzr, [x22, #8]
	add	x11, x9, x10
	add	x10, x10, #19
	sub	x13, x11, x12
	cmp	x13, #18
	b.hi	215f
	vj_page	x12, .L1_a64_CPI41_48
	mov	w13, #29808
	vj_load	q0, x12, .L1_a64_CPI41_48
	strh	w13, [x11, #16]
	mov	w12, #121
	b	21b
119:
	cbnz	x8, 254f
	ldp	x10, x8, [sp, #40]
	sub	x9, x8, x10
	cmp	x9, #14
	b.ls	303f
120:
	ldr	x9, [sp, #32]
	vj_page	x12, .L1_a64_static.147
	vj_address	x12, x12, .L1_a64_static.147
	add	x11, x9, x10
	add	x10, x10, #15
	sub	x13, x11, x12
	cmp	x13, #14
	b.hi	216f
	vj_page	x12, .L1_a64_CPI41_51
	vj_page	x13, .L1_a64_CPI41_52
	mov	w14, #29295
	vj_load	d0, x12, .L1_a64_CPI41_51
	vj_load	d1, x13, .L1_a64_CPI41_52
	mov	w12, #121
	strh	w14, [x11, #12]
	str	d0, [x11]
	str	s1, [x11, #8]
	strb	w12, [x11, #14]
	b	43b
121:
	cbnz	x8, 255f
	ldp	x9, x8, [sp, #40]
	sub	x10, x8, x9
	cmp	x10, #15
	b.ls	304f
122:
	ldr	x10, [sp, #32]
	vj_page	x12, .L1_a64_static.166
	vj_address	x12, x12, .L1_a64_static.166
	add	x11, x10, x9
	add	x9, x9, #16
	sub	x13, x11, x12
	cmp	x13, #15
	b.hi	143f
	vj_page	x12, .L1_a64_CPI41_17
	vj_load	q0, x12, .L1_a64_CPI41_17
	b	220f
123:
	cbnz	x8, 256f
	ldp	x10, x8, [sp, #40]
	sub	x9, x8, x10
	cmp	x9, #10
	b.ls	305f
124:
	ldr	x9, [sp, #32]
	vj_page	x12, .L1_a64_static.144
	vj_address	x12, x12, .L1_a64_static.144
	add	x11, x9, x10
	add	x10, x10, #11
	sub	x13, x11, x12
	cmp	x13, #10
	b.hi	217f
	vj_page	x12, .L1_a64_CPI41_57
	mov	w13, #28777
	vj_load	d0, x12, .L1_a64_CPI41_57
	mov	w12, #101
	strh	w13, [x11, #8]
	b	184f
125:
	cbnz	x8, 257f
	ldp	x9, x8, [sp, #40]
	sub	x10, x8, x9
	cmp	x10, #15
	b.ls	306f
126:
	ldr	x10, [sp, #32]
	vj_page	x12, .L1_a64_static.137
	vj_address	x12, x12, .L1_a64_static.137
	add	x11, x10, x9
	add	x9, x9, #16
	sub	x13, x11, x12
	cmp	x13, #15
	b.hi	143f
	vj_page	x12, .L1_a64_CPI41_68
	vj_load	q0, x12, .L1_a64_CPI41_68
	b	220f
127:
	cbnz	x8, 258f
	ldp	x10, x8, [sp, #40]
	sub	x9, x8, x10
	cmp	x9, #10
	b.ls	307f
128:
	ldr	x9, [sp, #32]
	vj_page	x12, .L1_a64_static.173
	vj_address	x12, x12, .L1_a64_static.173
	add	x11, x9, x10
	add	x10, x10, #11
	sub	x13, x11, x12
	cmp	x13, #10
	b.hi	218f
	vj_page	x12, .L1_a64_CPI41_6
	mov	w13, #28530
	vj_load	d0, x12, .L1_a64_CPI41_6
	strh	w13, [x11, #8]
	mov	w12, #114
	b	184f
129:
	cbnz	x8, 259f
	ldp	x10, x8, [sp, #40]
	sub	x9, x8, x10
	cmp	x9, #20
	b.ls	308f
130:
	ldr	x9, [sp, #32]
	vj_page	x12, .L1_a64_static.145
	vj_address	x12, x12, .L1_a64_static.145
	stp	xzr, xzr, [x22, #8]
	add	x11, x9, x10
	add	x10, x10, #21
	sub	x13, x11, x12
	cmp	x13, #20
	b.hi	165f
	vj_page	x12, .L1_a64_CPI41_55
	vj_page	x13, .L1_a64_CPI41_56
	vj_load	q0, x12, .L1_a64_CPI41_55
	vj_load	d1, x13, .L1_a64_CPI41_56
	mov	w12, #115
	b	164f
131:
	cbnz	x8, 260f
	ldp	x10, x8, [sp, #40]
	sub	x9, x8, x10
	cmp	x9, #20
	b.ls	309f
132:
	ldr	x9, [sp, #32]
	vj_page	x12, .L1_a64_static.142
	vj_address	x12, x12, .L1_a64_static.142
	stp	xzr, xzr, [x22, #8]
	add	x11, x9, x10
	add	x10, x10, #21
	sub	x13, x11, x12
	cmp	x13, #20
	b.hi	165f
	vj_page	x12, .L1_a64_CPI41_60
	vj_page	x13, .L1_a64_CPI41_61
	vj_load	q0, x12, .L1_a64_CPI41_60
	vj_load	d1, x13, .L1_a64_CPI41_61
	mov	w12, #101
	b	164f
133:
	cbnz	x8, 261f
	ldp	x10, x8, [sp, #40]
	sub	x9, x8, x10
	cmp	x9, #22
	b.ls	310f
134:
	ldr	x9, [sp, #32]
	vj_page	x12, .L1_a64_static.158
	vj_address	x12, x12, .L1_a64_static.158
	stp	xzr, xzr, [x22, #8]
	add	x11, x9, x10
	add	x10, x10, #23
	sub	x13, x11, x12
	cmp	x13, #22
	b.hi	203f
	vj_page	x12, .L1_a64_CPI41_30
	vj_page	x13, .L1_a64_CPI41_31
	mov	w14, #27753
	vj_load	q0, x12, .L1_a64_CPI41_30
	vj_load	d1, x13, .L1_a64_CPI41_31
	strh	w14, [x11, #20]
	mov	w12, #101
	b	157f
135:
	cbnz	x8, 262f
	ldp	x9, x8, [sp, #40]
	sub	x10, x8, x9
	cmp	x10, #15
	b.ls	311f
136:
	ldr	x10, [sp, #32]
	vj_page	x12, .L1_a64_static.157
	vj_address	x12, x12, .L1_a64_static.157
	add	x11, x10, x9
	add	x9, x9, #16
	sub	x13, x11, x12
	cmp	x13, #15
	b.hi	143f
	vj_page	x12, .L1_a64_CPI41_32
	vj_load	q0, x12, .L1_a64_CPI41_32
	b	220f
137:
	cbnz	x8, 263f
	ldp	x9, x8, [sp, #40]
	sub	x10, x8, x9
	cmp	x10, #17
	b.ls	312f
138:
	ldr	x10, [sp, #32]
	vj_page	x12, .L1_a64_static.135
	vj_address	x12, x12, .L1_a64_static.135
	stp	xzr, xzr, [x22, #8]
	add	x11, x10, x9
	add	x9, x9, #18
	sub	x13, x11, x12
	cmp	x13, #17
	b.hi	204f
	vj_page	x12, .L1_a64_CPI41_70
	vj_load	q0, x12, .L1_a64_CPI41_70
	b	168f
139:
	cbnz	x8, 264f
	ldp	x10, x8, [sp, #40]
	sub	x9, x8, x10
	cmp	x9, #13
	b.ls	313f
140:
	ldr	x9, [sp, #32]
	vj_page	x12, .L1_a64_static.148
	vj_address	x12, x12, .L1_a64_static.148
	add	x11, x9, x10
	add	x10, x10, #14
	sub	x13, x11, x12
	cmp	x13, #13
	b.hi	201f
	vj_page	x12, .L1_a64_CPI41_49
	vj_page	x13, .L1_a64_CPI41_50
	vj_load	d0, x12, .L1_a64_CPI41_49
	vj_load	d1, x13, .L1_a64_CPI41_50
	mov	w12, #31090
	b	200f
141:
	cbnz	x8, 265f
	ldp	x9, x8, [sp, #40]
	sub	x10, x8, x9
	cmp	x10, #15
	b.ls	314f
142:
	ldr	x10, [sp, #32]
	vj_page	x12, .L1_a64_static.136
	vj_address	x12, x12, .L1_a64_static.136
	add	x11, x10, x9
	add	x9, x9, #16
	sub	x13, x11, x12
	cmp	x13, #15
	b.hi	143f
	vj_page	x12, .L1_a64_CPI41_69
	vj_load	q0, x12, .L1_a64_CPI41_69
	b	220f
143:
	ldr	q0, [x12]
	b	220f
144:
	cbnz	x8, 266f
	ldp	x10, x8, [sp, #40]
	sub	x9, x8, x10
	cmp	x9, #12
	b.ls	315f
145:
	ldr	x9, [sp, #32]
	vj_page	x12, .L1_a64_static.140
	vj_address	x12, x12, .L1_a64_static.140
	add	x11, x9, x10
	add	x10, x10, #13
	sub	x13, x11, x12
	cmp	x13, #12
	b.hi	197f
	vj_page	x12, .L1_a64_CPI41_64
	vj_page	x13, .L1_a64_CPI41_65
	vj_load	d0, x12, .L1_a64_CPI41_64
	vj_load	d1, x13, .L1_a64_CPI41_65
	mov	w12, #100
	b	196f
146:
	cbnz	x8, 269f
	ldp	x9, x8, [sp, #40]
	sub	x10, x8, x9
	cmp	x10, #16
	b.ls	317f
147:
	ldr	x10, [sp, #32]
	vj_page	x12, .L1_a64_static.134
	vj_address	x12, x12, .L1_a64_static.134
	stp	xzr, xzr, [x22, #8]
	add	x11, x10, x9
	add	x9, x9, #17
	sub	x13, x11, x12
	cmp	x13, #16
	b.hi	219f
	vj_page	x12, .L1_a64_CPI41_71
	vj_load	q0, x12, .L1_a64_CPI41_71
	mov	w12, #100
	strb	w12, [x11, #16]
	b	220f
148:
	cbnz	x8, 270f
	ldp	x10, x8, [sp, #40]
	sub	x9, x8, x10
	cmp	x9, #26
	b.ls	318f
149:
	ldr	x9, [sp, #32]
	vj_page	x12, .L1_a64_static.164
	vj_address	x12, x12, .L1_a64_static.164
	stp	xzr, xzr, [x22, #8]
	add	x11, x9, x10
	add	x10, x10, #27
	sub	x13, x11, x12
	cmp	x13, #26
	b.hi	222f
	vj_page	x12, .L1_a64_CPI41_20
	vj_page	x13, .L1_a64_CPI41_21
	mov	w14, #28001
	vj_load	q0, x12, .L1_a64_CPI41_20
	vj_load	d1, x13, .L1_a64_CPI41_21
	mov	w12, #101
	strh	w14, [x11, #24]
	str	q0, [x11]
	str	d1, [x11, #16]
	strb	w12, [x11, #26]
	b	43b
150:
	cbnz	x8, 271f
	ldp	x11, x8, [sp, #40]
	sub	x9, x8, x11
	cmp	x9, #37
	b.ls	319f
151:
	ldr	x9, [sp, #32]
	vj_page	x12, .L1_a64_static.150
	vj_address	x12, x12, .L1_a64_static.150
	stp	xzr, xzr, [x22, #8]
	add	x10, x9, x11
	add	x11, x11, #38
	sub	x13, x10, x12
	cmp	x13, #37
	b.hi	223f
	vj_page	x12, .L1_a64_CPI41_45
	vj_page	x13, .L1_a64_CPI41_46
	vj_load	q0, x12, .L1_a64_CPI41_45
	vj_page	x12, .L1_a64_CPI41_47
	vj_load	q1, x13, .L1_a64_CPI41_46
	vj_load	d2, x12, .L1_a64_CPI41_47
	mov	w12, #28021
	stp	q0, q1, [x10]
	str	s2, [x10, #32]
	strh	w12, [x10, #36]
	b	227f
152:
	cbz	x8, 19b
153:
	vj_page	x1, .L1_a64_static.174
	vj_address	x1, x1, .L1_a64_static.174
154:
	add	x0, sp, #32
	mov	w2, #19
	bl	core..fmt..formatter..Formatter..write_indented..d3f2601cc94bc858_1_a64
	b	23b
155:
	cbnz	x8, 272f
	ldp	x10, x8, [sp, #40]
	sub	x9, x8, x10
	cmp	x9, #22
	b.ls	320f
156:
	ldr	x9, [sp, #32]
	vj_page	x12, .L1_a64_static.153
	vj_address	x12, x12, .L1_a64_static.153
	stp	xzr, xzr, [x22, #8]
	add	x11, x9, x10
	add	x10, x10, #23
	sub	x13, x11, x12
	cmp	x13, #22
	b.hi	203f
	vj_page	x12, .L1_a64_CPI41_37
	vj_page	x13, .L1_a64_CPI41_38
	mov	w14, #25972
	vj_load	q0, x12, .L1_a64_CPI41_37
	vj_load	d1, x13, .L1_a64_CPI41_38
	mov	w12, #114
	strh	w14, [x11, #20]
157:
	str	q0, [x11]
	str	s1, [x11, #16]
	strb	w12, [x11, #22]
	b	43b
158:
	cbnz	x8, 274f
	ldp	x10, x8, [sp, #40]
	sub	x9, x8, x10
	cmp	x9, #18
	b.ls	321f
159:
	ldr	x9, [sp, #32]
	vj_page	x12, .L1_a64_static.138
	vj_address	x12, x12, .L1_a64_static.138
	stp	xzr, xzr, [x22, #8]
	add	x11, x9, x10
	add	x10, x10, #19
	sub	x13, x11, x12
	cmp	x13, #18
	b.hi	224f
	vj_page	x12, .L1_a64_CPI41_67
	mov	w13, #27746
	vj_load	q0, x12, .L1_a64_CPI41_67
	mov	w12, #101
	strh	w13, [x11, #16]
	b	21b
160:
	cbnz	x8, 275f
	ldp	x10, x8, [sp, #40]
	sub	x9, x8, x10
	cmp	x9, #11
	b.ls	322f
161:
	ldr	x9, [sp, #32]
	vj_page	x12, .L1_a64_static.154
	vj_address	x12, x12, .L1_a64_static.154
	add	x11, x9, x10
	add	x10, x10, #12
	sub	x13, x11, x12
	cmp	x13, #11
	b.hi	225f
	vj_page	x12, .L1_a64_CPI41_35
	vj_page	x13, .L1_a64_CPI41_36
	vj_load	d0, x12, .L1_a64_CPI41_35
	vj_load	d1, x13, .L1_a64_CPI41_36
	b	173f
162:
	cbnz	x8, 276f
	ldp	x10, x8, [sp, #40]
	sub	x9, x8, x10
	cmp	x9, #20
	b.ls	323f
163:
	ldr	x9, [sp, #32]
	vj_page	x12, .L1_a64_static.146
	vj_address	x12, x12, .L1_a64_static.146
	stp	xzr, xzr, [x22, #8]
	add	x11, x9, x10
	add	x10, x10, #21
	sub	x13, x11, x12
	cmp	x13, #20
	b.hi	165f
	vj_page	x12, .L1_a64_CPI41_53
	vj_page	x13, .L1_a64_CPI41_54
	vj_load	q0, x12, .L1_a64_CPI41_53
	vj_load	d1, x13, .L1_a64_CPI41_54
	mov	w12, #107
164:
	str	q0, [x11]
	str	s1, [x11, #16]
	strb	w12, [x11, #20]
	b	43b
165:
	ldr	q0, [x12]
	ldur	x12, [x12, #13]
	str	q0, [x11]
	stur	x12, [x11, #13]
	b	43b
166:
	cbnz	x8, 278f
	ldp	x9, x8, [sp, #40]
	sub	x10, x8, x9
	cmp	x10, #17
	b.ls	324f
167:
	ldr	x10, [sp, #32]
	vj_page	x12, .L1_a64_static.139
	vj_address	x12, x12, .L1_a64_static.139
	stp	xzr, xzr, [x22, #8]
	add	x11, x10, x9
	add	x9, x9, #18
	sub	x13, x11, x12
	cmp	x13, #17
	b.hi	204f
	vj_page	x12, .L1_a64_CPI41_66
	vj_load	q0, x12, .L1_a64_CPI41_66
168:
	mov	w12, #25701
	str	q0, [x11]
	strh	w12, [x11, #16]
	b	221f
169:
	cbnz	x8, 280f
	ldp	x11, x8, [sp, #40]
	sub	x9, x8, x11
	cmp	x9, #55
	b.ls	325f
170:
	ldr	x9, [sp, #32]
	vj_page	x12, .L1_a64_static.151
	vj_address	x12, x12, .L1_a64_static.151
	stp	xzr, xzr, [x22, #8]
	add	x10, x9, x11
	add	x11, x11, #56
	sub	x13, x10, x12
	cmp	x13, #55
	b.hi	226f
	vj_page	x12, .L1_a64_CPI41_41
	vj_page	x13, .L1_a64_CPI41_42
	vj_load	q0, x12, .L1_a64_CPI41_41
	vj_load	q1, x13, .L1_a64_CPI41_42
	vj_page	x12, .L1_a64_CPI41_43
	vj_page	x13, .L1_a64_CPI41_44
	vj_load	q2, x12, .L1_a64_CPI41_43
	stp	q0, q1, [x10]
	vj_load	d0, x13, .L1_a64_CPI41_44
	str	q2, [x10, #32]
	str	d0, [x10, #48]
	b	227f
171:
	cbnz	x8, 281f
	ldp	x10, x8, [sp, #40]
	sub	x9, x8, x10
	cmp	x9, #11
	b.ls	326f
172:
	ldr	x9, [sp, #32]
	vj_page	x12, .L1_a64_static.143
	vj_address	x12, x12, .L1_a64_static.143
	add	x11, x9, x10
	add	x10, x10, #12
	sub	x13, x11, x12
	cmp	x13, #11
	b.hi	228f
	vj_page	x12, .L1_a64_CPI41_58
	vj_page	x13, .L1_a64_CPI41_59
	vj_load	d0, x12, .L1_a64_CPI41_58
	vj_load	d1, x13, .L1_a64_CPI41_59
173:
	str	d0, [x11]
	str	s1, [x11, #8]
	b	43b
174:
	cbnz	x8, 283f
	ldp	x10, x8, [sp, #40]
	sub	x9, x8, x10
	cmp	x9, #13
	b.ls	327f
175:
	ldr	x9, [sp, #32]
	vj_page	x12, .L1_a64_static.141
	vj_address	x12, x12, .L1_a64_static.141
	add	x11, x9, x10
	add	x10, x10, #14
	sub	x13, x11, x12
	cmp	x13, #13
	b.hi	201f
	vj_page	x12, .L1_a64_CPI41_62
	vj_page	x13, .L1_a64_CPI41_63
	vj_load	d0, x12, .L1_a64_CPI41_62
	vj_load	d1, x13, .L1_a64_CPI41_63
	mov	w12, #25971
	b	200f
176:
	cbnz	x8, 284f
	ldp	x9, x8, [sp, #40]
	sub	x10, x8, x9
	cmp	x10, #7
	b.ls	328f
177:
	mov	x11, #25956
	ldr	x10, [sp, #32]
	mov	w20, wzr
	movk	x11, #25697, lsl #16
	movk	x11, #28524, lsl #32
	movk	x11, #27491, lsl #48
	str	x11, [x10, x9]
	add	x9, x9, #8
	b	39b
178:
	cbnz	x8, 285f
	ldp	x10, x8, [sp, #40]
	sub	x9, x8, x10
	cmp	x9, #13
	b.ls	329f
179:
	ldr	x9, [sp, #32]
	vj_page	x12, .L1_a64_static.165
	vj_address	x12, x12, .L1_a64_static.165
	add	x11, x9, x10
	add	x10, x10, #14
	sub	x13, x11, x12
	cmp	x13, #13
	b.hi	201f
	vj_page	x12, .L1_a64_CPI41_18
	vj_page	x13, .L1_a64_CPI41_19
	vj_load	d0, x12, .L1_a64_CPI41_18
	vj_load	d1, x13, .L1_a64_CPI41_19
	mov	w12, #29547
	b	200f
180:
	cbnz	x8, 286f
	ldp	x9, x8, [sp, #40]
	sub	x10, x8, x9
	cmp	x10, #8
	b.ls	330f
181:
	ldr	x10, [sp, #32]
	vj_page	x12, .L1_a64_static.155
	vj_address	x12, x12, .L1_a64_static.155
	add	x11, x10, x9
	add	x9, x9, #9
	sub	x13, x11, x12
	cmp	x13, #8
	b.hi	230f
	vj_page	x12, .L1_a64_CPI41_34
	vj_load	d0, x12, .L1_a64_CPI41_34
	mov	w12, #116
	strb	w12, [x11, #8]
	str	d0, [x11]
	b	221f
182:
	cbnz	x8, 287f
	ldp	x10, x8, [sp, #40]
	sub	x9, x8, x10
	cmp	x9, #10
	b.ls	331f
183:
	ldr	x9, [sp, #32]
	vj_page	x12, .L1_a64_static.172
	vj_address	x12, x12, .L1_a64_static.172
	add	x11, x9, x10
	add	x10, x10, #11
	sub	x13, x11, x12
	cmp	x13, #10
	b.hi	231f
	vj_page	x12, .L1_a64_CPI41_7
	mov	w13, #29541
	vj_load	d0, x12, .L1_a64_CPI41_7
	strh	w13, [x11, #8]
	mov	w12, #115
184:
	str	d0, [x11]
	strb	w12, [x11, #10]
	b	43b
185:
	cbnz	x8, 289f
	ldp	x10, x8, [sp, #40]
	sub	x9, x8, x10
	cmp	x9, #24
	b.ls	332f
186:
	ldr	x9, [sp, #32]
	vj_page	x12, .L1_a64_static.152
	vj_address	x12, x12, .L1_a64_static.152
	stp	xzr, xzr, [x22, #8]
	add	x11, x9, x10
	add	x10, x10, #25
	sub	x13, x11, x12
	cmp	x13, #24
	b.hi	233f
	vj_page	x12, .L1_a64_CPI41_39
	vj_page	x13, .L1_a64_CPI41_40
	vj_load	q0, x12, .L1_a64_CPI41_39
	vj_load	d1, x13, .L1_a64_CPI41_40
	mov	w12, #101
	strb	w12, [x11, #24]
	str	q0, [x11]
	str	d1, [x11, #16]
	b	43b
187:
	cbnz	x8, 290f
	ldp	x9, x8, [sp, #40]
	sub	x10, x8, x9
	cmp	x10, #9
	b.ls	333f
188:
	ldr	x10, [sp, #32]
	vj_page	x12, .L1_a64_static.156
	vj_address	x12, x12, .L1_a64_static.156
	add	x11, x10, x9
	add	x9, x9, #10
	sub	x13, x11, x12
	cmp	x13, #9
	b.hi	234f
	vj_page	x12, .L1_a64_CPI41_33
	vj_load	d0, x12, .L1_a64_CPI41_33
	mov	w12, #28530
	strh	w12, [x11, #8]
	str	d0, [x11]
	b	221f
189:
	cbnz	x8, 291f
	ldp	x10, x8, [sp, #40]
	sub	x9, x8, x10
	cmp	x9, #12
	b.ls	334f
190:
	ldr	x9, [sp, #32]
	vj_page	x12, .L1_a64_static.161
	vj_address	x12, x12, .L1_a64_static.161
	add	x11, x9, x10
	add	x10, x10, #13
	sub	x13, x11, x12
	cmp	x13, #12
	b.hi	197f
	vj_page	x12, .L1_a64_CPI41_24
	vj_page	x13, .L1_a64_CPI41_25
	vj_load	d0, x12, .L1_a64_CPI41_24
	vj_load	d1, x13, .L1_a64_CPI41_25
	b	195f
191:
	cbnz	x8, 292f
	ldp	x10, x8, [sp, #40]
	sub	x9, x8, x10
	cmp	x9, #19
	b.ls	335f
192:
	ldr	x9, [sp, #32]
	vj_page	x12, .L1_a64_static.162
	vj_address	x12, x12, .L1_a64_static.162
	stp	xzr, xzr, [x22, #8]
	add	x11, x9, x10
	add	x10, x10, #20
	sub	x13, x11, x12
	cmp	x13, #19
	b.hi	235f
	vj_page	x12, .L1_a64_CPI41_22
	vj_page	x13, .L1_a64_CPI41_23
	vj_load	q0, x12, .L1_a64_CPI41_22
	vj_load	d1, x13, .L1_a64_CPI41_23
	str	q0, [x11]
	str	s1, [x11, #16]
	b	43b
193:
	cbnz	x8, 293f
	ldp	x10, x8, [sp, #40]
	sub	x9, x8, x10
	cmp	x9, #12
	b.ls	336f
194:
	ldr	x9, [sp, #32]
	vj_page	x12, .L1_a64_static.171
	vj_address	x12, x12, .L1_a64_static.171
	add	x11, x9, x10
	add	x10, x10, #13
	sub	x13, x11, x12
	cmp	x13, #12
	b.hi	197f
	vj_page	x12, .L1_a64_CPI41_8
	vj_page	x13, .L1_a64_CPI41_9
	vj_load	d0, x12, .L1_a64_CPI41_8
	vj_load	d1, x13, .L1_a64_CPI41_9
195:
	mov	w12, #121
196:
	str	d0, [x11]
	str	s1, [x11, #8]
	strb	w12, [x11, #12]
	b	43b
197:
	ldr	x13, [x12]
	ldur	x12, [x12, #5]
	str	x13, [x11]
	stur	x12, [x11, #5]
	b	43b
198:
	cbnz	x8, 295f
	ldp	x10, x8, [sp, #40]
	sub	x9, x8, x10
	cmp	x9, #13
	b.ls	337f
199:
	ldr	x9, [sp, #32]
	vj_page	x12, .L1_a64_static.159
	vj_address	x12, x12, .L1_a64_static.159
	add	x11, x9, x10
	add	x10, x10, #14
	sub	x13, x11, x12
	cmp	x13, #13
	b.hi	201f
	vj_page	x12, .L1_a64_CPI41_28
	vj_page	x13, .L1_a64_CPI41_29
	vj_load	d0, x12, .L1_a64_CPI41_28
	vj_load	d1, x13, .L1_a64_CPI41_29
	mov	w12, #25701
200:
	str	d0, [x11]
	str	s1, [x11, #8]
	strh	w12, [x11, #12]
	b	43b
201:
	ldr	x13, [x12]
	ldur	x12, [x12, #6]
	str	x13, [x11]
	stur	x12, [x11, #6]
	b	43b
202:
	ldr	q0, [x12]
	ldur	x12, [x12, #14]
	str	q0, [x11]
	stur	x12, [x11, #14]
	b	43b
203:
	ldr	q0, [x12]
	ldur	x12, [x12, #15]
	str	q0, [x11]
	stur	x12, [x11, #15]
	b	43b
204:
	mov	w13, #25701
	ldr	q0, [x12]
	strh	w13, [x11, #16]
	b	220f
205:
	add	x11, x20, x21
206:
	mov	x13, x10
207:
	cbz	x13, 208f
	add	x14, x9, x13
	ldrb	w15, [x11, x13]
	sub	x13, x13, #1
	ldurb	w14, [x14, #-1]
	cmp	w14, w15
	b.eq	207b
	add	x8, x8, x12
	add	x11, x11, x12
	sub	x13, x23, x8
	cmp	x13, #11
	b.hs	206b
	b	51b
208:
	mov	x21, x8
209:
	sub	x23, x29, #17
	stp	xzr, xzr, [sp, #16]
	str	x23, [sp, #8]
	cbnz	x21, 241f
	mov	x24, xzr
	mov	x25, xzr
	add	x8, x23, xzr
	sub	x8, x8, x20
	cmp	x8, x21
	b.hs	242f
210:
	cmp	x21, #8
	b.lo	211f
	add	x8, x25, x23
	sub	x8, x8, x20
	cmp	x8, #32
	b.hs	236f
211:
	mov	x8, xzr
212:
	add	x10, x8, x25
	sub	x9, x21, x8
	add	x8, x20, x8
	add	x10, x23, x10
213:
	ldrb	w11, [x8], #1
	subs	x9, x9, #1
	strb	w11, [x10], #1
	b.ne	213b
	b	243f
214:
	mov	w13, #29810
	movk	w13, #25701, lsl #16
	b	232f
215:
	mov	w13, #28781
	movk	w13, #31092, lsl #16
	b	41b
216:
	ldr	x13, [x12]
	ldur	x12, [x12, #7]
	str	x13, [x11]
	stur	x12, [x11, #7]
	b	43b
217:
	mov	w13, #26992
	movk	w13, #25968, lsl #16
	b	232f
218:
	mov	w13, #29298
	movk	w13, #29295, lsl #16
	b	232f
219:
	ldr	q0, [x12]
	mov	w13, #100
	strb	w13, [x11, #16]
220:
	str	q0, [x11]
221:
	mov	w20, wzr
	b	39b
222:
	ldr	q0, [x12]
	ldur	q1, [x12, #11]
	str	q0, [x11]
	stur	q1, [x11, #11]
	b	43b
223:
	ldp	q0, q1, [x12]
	ldur	x12, [x12, #30]
	stp	q0, q1, [x10]
	stur	x12, [x10, #30]
	b	227f
224:
	mov	w13, #25185
	movk	w13, #25964, lsl #16
	b	41b
225:
	mov	w13, #24932
	movk	w13, #24948, lsl #16
	b	229f
226:
	ldp	q0, q1, [x12]
	ldr	q2, [x12, #32]
	ldr	x12, [x12, #48]
	str	q0, [x10]
	stp	q1, q2, [x10, #16]
	str	x12, [x10, #48]
227:
	mov	w20, wzr
	stp	x9, x11, [sp, #32]
	str	x8, [sp, #48]
	b	46b
228:
	mov	w13, #28516
	movk	w13, #28279, lsl #16
229:
	ldr	x12, [x12]
	str	w13, [x11, #8]
	str	x12, [x11]
	b	43b
230:
	ldr	x12, [x12]
	mov	w13, #116
	strb	w13, [x11, #8]
	str	x12, [x11]
	b	221b
231:
	mov	w13, #25970
	movk	w13, #29555, lsl #16
232:
	ldr	x12, [x12]
	stur	w13, [x11, #7]
	str	x12, [x11]
	b	43b
233:
	ldr	q0, [x12]
	ldur	q1, [x12, #9]
	str	q0, [x11]
	stur	q1, [x11, #9]
	b	43b
234:
	ldr	x12, [x12]
	mov	w13, #28530
	strh	w13, [x11, #8]
	str	x12, [x11]
	b	221b
235:
	mov	w13, #30050
	ldr	q0, [x12]
	movk	w13, #31091, lsl #16
	str	w13, [x11, #16]
	b	42b
236:
	cmp	x21, #32
	b.hs	237f
	mov	x8, xzr
	b	239f
237:
	add	x11, x25, x23
	and	x9, x21, #0x18
	and	x8, x21, #0xffffffffffffffe0
	add	x10, x20, #16
	add	x11, x11, #16
	and	x12, x21, #0xffffffffffffffe0
238:
	ldp	q0, q1, [x10, #-16]
	subs	x12, x12, #32
	add	x10, x10, #32
	stp	q0, q1, [x11, #-16]
	add	x11, x11, #32
	b.ne	238b
	cmp	x21, x8
	b.eq	243f
	cbz	x9, 212b
239:
	mov	x10, x8
	and	x8, x21, #0xfffffffffffffff8
	add	x11, x25, x10
	sub	x9, x10, x8
	add	x10, x20, x10
	add	x11, x23, x11
240:
	ldr	d0, [x10], #8
	adds	x9, x9, #8
	str	d0, [x11], #8
	b.ne	240b
	cmp	x21, x8
	b.eq	243f
	b	212b
241:
	add	x0, sp, #8
	mov	x1, x21
	bl	std_alloc..vec..Vec..grow_amortized..01eec35b572d02af_1_a64
	cbz	w0, 245f
	ldp	x25, x24, [sp, #16]
	ldr	x23, [sp, #8]
	add	x8, x23, x25
	sub	x8, x8, x20
	cmp	x8, x21
	b.lo	210b
242:
	add	x0, x23, x25
	mov	x1, x20
	mov	x2, x21
	vj_c_call	memmove
243:
	add	x21, x25, x21
	cbz	x22, 244f
	mov	x0, x20
	vj_call	rattle_dealloc
244:
	strb	wzr, [x19]
	stp	x23, x21, [x19, #8]
	str	x24, [x19, #24]
	b	52b
245:
	ldr	x8, [sp, #24]
	cbz	x8, 246f
	ldr	x0, [sp, #8]
	vj_call	rattle_dealloc
246:
	cbz	x22, 49b
	mov	x0, x20
	b	48b
247:
	vj_page	x1, .L1_a64_static.170
	vj_address	x1, x1, .L1_a64_static.170
	b	252f
248:
	vj_page	x1, .L1_a64_static.168
	vj_address	x1, x1, .L1_a64_static.168
	b	277f
249:
	vj_page	x1, .L1_a64_static.169
	vj_address	x1, x1, .L1_a64_static.169
	b	288f
250:
	vj_page	x1, .L1_a64_static.160
	vj_address	x1, x1, .L1_a64_static.160
	b	296f
251:
	vj_page	x1, .L1_a64_static.167
	vj_address	x1, x1, .L1_a64_static.167
252:
	add	x0, sp, #32
	mov	w2, #22
	bl	core..fmt..formatter..Formatter..write_indented..d3f2601cc94bc858_1_a64
	b	23b
253:
	vj_page	x1, .L1_a64_static.149
	vj_address	x1, x1, .L1_a64_static.149
	b	154b
254:
	vj_page	x1, .L1_a64_static.147
	vj_address	x1, x1, .L1_a64_static.147
	add	x0, sp, #32
	mov	w2, #15
	bl	core..fmt..formatter..Formatter..write_indented..d3f2601cc94bc858_1_a64
	b	23b
255:
	vj_page	x1, .L1_a64_static.166
	vj_address	x1, x1, .L1_a64_static.166
	b	268f
256:
	vj_page	x1, .L1_a64_static.144
	vj_address	x1, x1, .L1_a64_static.144
	b	288f
257:
	vj_page	x1, .L1_a64_static.137
	vj_address	x1, x1, .L1_a64_static.137
	b	268f
258:
	vj_page	x1, .L1_a64_static.173
	vj_address	x1, x1, .L1_a64_static.173
	b	288f
259:
	vj_page	x1, .L1_a64_static.145
	vj_address	x1, x1, .L1_a64_static.145
	b	277f
260:
	vj_page	x1, .L1_a64_static.142
	vj_address	x1, x1, .L1_a64_static.142
	b	277f
261:
	vj_page	x1, .L1_a64_static.158
	vj_address	x1, x1, .L1_a64_static.158
	b	273f
262:
	vj_page	x1, .L1_a64_static.157
	vj_address	x1, x1, .L1_a64_static.157
	b	268f
263:
	vj_page	x1, .L1_a64_static.135
	vj_address	x1, x1, .L1_a64_static.135
	b	279f
264:
	vj_page	x1, .L1_a64_static.148
	vj_address	x1, x1, .L1_a64_static.148
	b	296f
265:
	vj_page	x1, .L1_a64_static.136
	vj_address	x1, x1, .L1_a64_static.136
	b	268f
266:
	vj_page	x1, .L1_a64_static.140
	vj_address	x1, x1, .L1_a64_static.140
	b	294f
267:
	vj_page	x1, .L1_a64_static.133
	vj_address	x1, x1, .L1_a64_static.133
268:
	add	x0, sp, #32
	mov	w2, #16
	bl	core..fmt..formatter..Formatter..write_indented..d3f2601cc94bc858_1_a64
	b	23b
269:
	vj_page	x1, .L1_a64_static.134
	vj_address	x1, x1, .L1_a64_static.134
	add	x0, sp, #32
	mov	w2, #17
	bl	core..fmt..formatter..Formatter..write_indented..d3f2601cc94bc858_1_a64
	b	23b
270:
	vj_page	x1, .L1_a64_static.164
	vj_address	x1, x1, .L1_a64_static.164
	add	x0, sp, #32
	mov	w2, #27
	bl	core..fmt..formatter..Formatter..write_indented..d3f2601cc94bc858_1_a64
	b	23b
271:
	vj_page	x1, .L1_a64_static.150
	vj_address	x1, x1, .L1_a64_static.150
	add	x0, sp, #32
	mov	w2, #38
	bl	core..fmt..formatter..Formatter..write_indented..d3f2601cc94bc858_1_a64
	b	23b
272:
	vj_page	x1, .L1_a64_static.153
	vj_address	x1, x1, .L1_a64_static.153
273:
	add	x0, sp, #32
	mov	w2, #23
	bl	core..fmt..formatter..Formatter..write_indented..d3f2601cc94bc858_1_a64
	b	23b
274:
	vj_page	x1, .L1_a64_static.138
	vj_address	x1, x1, .L1_a64_static.138
	b	154b
275:
	vj_page	x1, .L1_a64_static.154
	vj_address	x1, x1, .L1_a64_static.154
	b	282f
276:
	vj_page	x1, .L1_a64_static.146
	vj_address	x1, x1, .L1_a64_static.146
277:
	add	x0, sp, #32
	mov	w2, #21
	bl	core..fmt..formatter..Formatter..write_indented..d3f2601cc94bc858_1_a64
	b	23b
278:
	vj_page	x1, .L1_a64_static.139
	vj_address	x1, x1, .L1_a64_static.139
279:
	add	x0, sp, #32
	mov	w2, #18
	bl	core..fmt..formatter..Formatter..write_indented..d3f2601cc94bc858_1_a64
	b	23b
280:
	vj_page	x1, .L1_a64_static.151
	vj_address	x1, x1, .L1_a64_static.151
	add	x0, sp, #32
	mov	w2, #56
	bl	core..fmt..formatter..Formatter..write_indented..d3f2601cc94bc858_1_a64
	b	23b
281:
	vj_page	x1, .L1_a64_static.143
	vj_address	x1, x1, .L1_a64_static.143
282:
	add	x0, sp, #32
	mov	w2, #12
	bl	core..fmt..formatter..Formatter..write_indented..d3f2601cc94bc858_1_a64
	b	23b
283:
	vj_page	x1, .L1_a64_static.141
	vj_address	x1, x1, .L1_a64_static.141
	b	296f
284:
	vj_page	x1, .L1_a64_static.163
	vj_address	x1, x1, .L1_a64_static.163
	add	x0, sp, #32
	mov	w2, #8
	bl	core..fmt..formatter..Formatter..write_indented..d3f2601cc94bc858_1_a64
	b	23b
285:
	vj_page	x1, .L1_a64_static.165
	vj_address	x1, x1, .L1_a64_static.165
	b	296f
286:
	vj_page	x1, .L1_a64_static.155
	vj_address	x1, x1, .L1_a64_static.155
	add	x0, sp, #32
	mov	w2, #9
	bl	core..fmt..formatter..Formatter..write_indented..d3f2601cc94bc858_1_a64
	b	23b
287:
	vj_page	x1, .L1_a64_static.172
	vj_address	x1, x1, .L1_a64_static.172
288:
	add	x0, sp, #32
	mov	w2, #11
	bl	core..fmt..formatter..Formatter..write_indented..d3f2601cc94bc858_1_a64
	b	23b
289:
	vj_page	x1, .L1_a64_static.152
	vj_address	x1, x1, .L1_a64_static.152
	add	x0, sp, #32
	mov	w2, #25
	bl	core..fmt..formatter..Formatter..write_indented..d3f2601cc94bc858_1_a64
	b	23b
290:
	vj_page	x1, .L1_a64_static.156
	vj_address	x1, x1, .L1_a64_static.156
	add	x0, sp, #32
	mov	w2, #10
	bl	core..fmt..formatter..Formatter..write_indented..d3f2601cc94bc858_1_a64
	b	23b
291:
	vj_page	x1, .L1_a64_static.161
	vj_address	x1, x1, .L1_a64_static.161
	b	294f
292:
	vj_page	x1, .L1_a64_static.162
	vj_address	x1, x1, .L1_a64_static.162
	add	x0, sp, #32
	mov	w2, #20
	bl	core..fmt..formatter..Formatter..write_indented..d3f2601cc94bc858_1_a64
	b	23b
293:
	vj_page	x1, .L1_a64_static.171
	vj_address	x1, x1, .L1_a64_static.171
294:
	add	x0, sp, #32
	mov	w2, #13
	bl	core..fmt..formatter..Formatter..write_indented..d3f2601cc94bc858_1_a64
	b	23b
295:
	vj_page	x1, .L1_a64_static.159
	vj_address	x1, x1, .L1_a64_static.159
296:
	add	x0, sp, #32
	mov	w2, #14
	bl	core..fmt..formatter..Formatter..write_indented..d3f2601cc94bc858_1_a64
	b	23b
297:
	add	x0, sp, #32
	mov	w1, #22
	bl	std_alloc..vec..Vec..grow_amortized..01eec35b572d02af_1_a64
	cbz	w0, 338f
	ldp	x10, x8, [sp, #40]
	b	107b
298:
	add	x0, sp, #32
	mov	w1, #21
	bl	std_alloc..vec..Vec..grow_amortized..01eec35b572d02af_1_a64
	cbz	w0, 338f
	ldp	x10, x8, [sp, #40]
	b	109b
299:
	add	x0, sp, #32
	mov	w1, #11
	bl	std_alloc..vec..Vec..grow_amortized..01eec35b572d02af_1_a64
	cbz	w0, 338f
	ldp	x10, x8, [sp, #40]
	b	111b
300:
	add	x0, sp, #32
	mov	w1, #14
	bl	std_alloc..vec..Vec..grow_amortized..01eec35b572d02af_1_a64
	cbz	w0, 338f
	ldp	x10, x8, [sp, #40]
	b	113b
301:
	add	x0, sp, #32
	mov	w1, #22
	bl	std_alloc..vec..Vec..grow_amortized..01eec35b572d02af_1_a64
	cbz	w0, 338f
	ldp	x10, x8, [sp, #40]
	b	115b
302:
	add	x0, sp, #32
	mov	w1, #19
	bl	std_alloc..vec..Vec..grow_amortized..01eec35b572d02af_1_a64
	cbz	w0, 338f
	ldp	x10, x8, [sp, #40]
	b	118b
303:
	add	x0, sp, #32
	mov	w1, #15
	bl	std_alloc..vec..Vec..grow_amortized..01eec35b572d02af_1_a64
	cbz	w0, 338f
	ldp	x10, x8, [sp, #40]
	b	120b
304:
	add	x0, sp, #32
	mov	w1, #16
	bl	std_alloc..vec..Vec..grow_amortized..01eec35b572d02af_1_a64
	cbz	w0, 338f
	ldp	x9, x8, [sp, #40]
	b	122b
305:
	add	x0, sp, #32
	mov	w1, #11
	bl	std_alloc..vec..Vec..grow_amortized..01eec35b572d02af_1_a64
	cbz	w0, 338f
	ldp	x10, x8, [sp, #40]
	b	124b
306:
	add	x0, sp, #32
	mov	w1, #16
	bl	std_alloc..vec..Vec..grow_amortized..01eec35b572d02af_1_a64
	cbz	w0, 338f
	ldp	x9, x8, [sp, #40]
	b	126b
307:
	add	x0, sp, #32
	mov	w1, #11
	bl	std_alloc..vec..Vec..grow_amortized..01eec35b572d02af_1_a64
	cbz	w0, 338f
	ldp	x10, x8, [sp, #40]
	b	128b
308:
	add	x0, sp, #32
	mov	w1, #21
	bl	std_alloc..vec..Vec..grow_amortized..01eec35b572d02af_1_a64
	cbz	w0, 338f
	ldp	x10, x8, [sp, #40]
	b	130b
309:
	add	x0, sp, #32
	mov	w1, #21
	bl	std_alloc..vec..Vec..grow_amortized..01eec35b572d02af_1_a64
	cbz	w0, 338f
	ldp	x10, x8, [sp, #40]
	b	132b
310:
	add	x0, sp, #32
	mov	w1, #23
	bl	std_alloc..vec..Vec..grow_amortized..01eec35b572d02af_1_a64
	cbz	w0, 338f
	ldp	x10, x8, [sp, #40]
	b	134b
311:
	add	x0, sp, #32
	mov	w1, #16
	bl	std_alloc..vec..Vec..grow_amortized..01eec35b572d02af_1_a64
	cbz	w0, 338f
	ldp	x9, x8, [sp, #40]
	b	136b
312:
	add	x0, sp, #32
	mov	w1, #18
	bl	std_alloc..vec..Vec..grow_amortized..01eec35b572d02af_1_a64
	cbz	w0, 338f
	ldp	x9, x8, [sp, #40]
	b	138b
313:
	add	x0, sp, #32
	mov	w1, #14
	bl	std_alloc..vec..Vec..grow_amortized..01eec35b572d02af_1_a64
	cbz	w0, 338f
	ldp	x10, x8, [sp, #40]
	b	140b
314:
	add	x0, sp, #32
	mov	w1, #16
	bl	std_alloc..vec..Vec..grow_amortized..01eec35b572d02af_1_a64
	cbz	w0, 338f
	ldp	x9, x8, [sp, #40]
	b	142b
315:
	add	x0, sp, #32
	mov	w1, #13
	bl	std_alloc..vec..Vec..grow_amortized..01eec35b572d02af_1_a64
	cbz	w0, 338f
	ldp	x10, x8, [sp, #40]
	b	145b
316:
	add	x0, sp, #32
	mov	w1, #16
	bl	std_alloc..vec..Vec..grow_amortized..01eec35b572d02af_1_a64
	cbz	w0, 338f
	ldp	x9, x8, [sp, #40]
	b	12b
317:
	add	x0, sp, #32
	mov	w1, #17
	bl	std_alloc..vec..Vec..grow_amortized..01eec35b572d02af_1_a64
	cbz	w0, 338f
	ldp	x9, x8, [sp, #40]
	b	147b
318:
	add	x0, sp, #32
	mov	w1, #27
	bl	std_alloc..vec..Vec..grow_amortized..01eec35b572d02af_1_a64
	cbz	w0, 338f
	ldp	x10, x8, [sp, #40]
	b	149b
319:
	add	x0, sp, #32
	mov	w1, #38
	bl	std_alloc..vec..Vec..grow_amortized..01eec35b572d02af_1_a64
	cbz	w0, 338f
	ldp	x11, x8, [sp, #40]
	b	151b
320:
	add	x0, sp, #32
	mov	w1, #23
	bl	std_alloc..vec..Vec..grow_amortized..01eec35b572d02af_1_a64
	cbz	w0, 338f
	ldp	x10, x8, [sp, #40]
	b	156b
321:
	add	x0, sp, #32
	mov	w1, #19
	bl	std_alloc..vec..Vec..grow_amortized..01eec35b572d02af_1_a64
	cbz	w0, 338f
	ldp	x10, x8, [sp, #40]
	b	159b
322:
	add	x0, sp, #32
	mov	w1, #12
	bl	std_alloc..vec..Vec..grow_amortized..01eec35b572d02af_1_a64
	cbz	w0, 338f
	ldp	x10, x8, [sp, #40]
	b	161b
323:
	add	x0, sp, #32
	mov	w1, #21
	bl	std_alloc..vec..Vec..grow_amortized..01eec35b572d02af_1_a64
	cbz	w0, 338f
	ldp	x10, x8, [sp, #40]
	b	163b
324:
	add	x0, sp, #32
	mov	w1, #18
	bl	std_alloc..vec..Vec..grow_amortized..01eec35b572d02af_1_a64
	cbz	w0, 338f
	ldp	x9, x8, [sp, #40]
	b	167b
325:
	add	x0, sp, #32
	mov	w1, #56
	bl	std_alloc..vec..Vec..grow_amortized..01eec35b572d02af_1_a64
	cbz	w0, 338f
	ldp	x11, x8, [sp, #40]
	b	170b
326:
	add	x0, sp, #32
	mov	w1, #12
	bl	std_alloc..vec..Vec..grow_amortized..01eec35b572d02af_1_a64
	cbz	w0, 338f
	ldp	x10, x8, [sp, #40]
	b	172b
327:
	add	x0, sp, #32
	mov	w1, #14
	bl	std_alloc..vec..Vec..grow_amortized..01eec35b572d02af_1_a64
	cbz	w0, 338f
	ldp	x10, x8, [sp, #40]
	b	175b
328:
	add	x0, sp, #32
	mov	w1, #8
	bl	std_alloc..vec..Vec..grow_amortized..01eec35b572d02af_1_a64
	cbz	w0, 338f
	ldp	x9, x8, [sp, #40]
	b	177b
329:
	add	x0, sp, #32
	mov	w1, #14
	bl	std_alloc..vec..Vec..grow_amortized..01eec35b572d02af_1_a64
	cbz	w0, 338f
	ldp	x10, x8, [sp, #40]
	b	179b
330:
	add	x0, sp, #32
	mov	w1, #9
	bl	std_alloc..vec..Vec..grow_amortized..01eec35b572d02af_1_a64
	cbz	w0, 338f
	ldp	x9, x8, [sp, #40]
	b	181b
331:
	add	x0, sp, #32
	mov	w1, #11
	bl	std_alloc..vec..Vec..grow_amortized..01eec35b572d02af_1_a64
	cbz	w0, 338f
	ldp	x10, x8, [sp, #40]
	b	183b
332:
	add	x0, sp, #32
	mov	w1, #25
	bl	std_alloc..vec..Vec..grow_amortized..01eec35b572d02af_1_a64
	cbz	w0, 338f
	ldp	x10, x8, [sp, #40]
	b	186b
333:
	add	x0, sp, #32
	mov	w1, #10
	bl	std_alloc..vec..Vec..grow_amortized..01eec35b572d02af_1_a64
	cbz	w0, 338f
	ldp	x9, x8, [sp, #40]
	b	188b
334:
	add	x0, sp, #32
	mov	w1, #13
	bl	std_alloc..vec..Vec..grow_amortized..01eec35b572d02af_1_a64
	cbz	w0, 338f
	ldp	x10, x8, [sp, #40]
	b	190b
335:
	add	x0, sp, #32
	mov	w1, #20
	bl	std_alloc..vec..Vec..grow_amortized..01eec35b572d02af_1_a64
	cbz	w0, 338f
	ldp	x10, x8, [sp, #40]
	b	192b
336:
	add	x0, sp, #32
	mov	w1, #13
	bl	std_alloc..vec..Vec..grow_amortized..01eec35b572d02af_1_a64
	cbz	w0, 338f
	ldp	x10, x8, [sp, #40]
	b	194b
337:
	add	x0, sp, #32
	mov	w1, #14
	bl	std_alloc..vec..Vec..grow_amortized..01eec35b572d02af_1_a64
	cbz	w0, 338f
	ldp	x10, x8, [sp, #40]
	b	199b
338:
	mov	w20, #1
	b	46b
	vj_end	b2sum..disk..reason_of_1_a64

	vj_data	b2sum..disk..reason_of_1_a64
	.p2align	1, 0x0
.L1_a64_JTI41_0:
	.short	(11b-11b)>>2
	.short	(146b-11b)>>2
	.short	(137b-11b)>>2
	.short	(141b-11b)>>2
	.short	(125b-11b)>>2
	.short	(158b-11b)>>2
	.short	(166b-11b)>>2
	.short	(144b-11b)>>2
	.short	(174b-11b)>>2
	.short	(131b-11b)>>2
	.short	(171b-11b)>>2
	.short	(123b-11b)>>2
	.short	(129b-11b)>>2
	.short	(162b-11b)>>2
	.short	(119b-11b)>>2
	.short	(139b-11b)>>2
	.short	(117b-11b)>>2
	.short	(150b-11b)>>2
	.short	(169b-11b)>>2
	.short	(185b-11b)>>2
	.short	(155b-11b)>>2
	.short	(160b-11b)>>2
	.short	(180b-11b)>>2
	.short	(187b-11b)>>2
	.short	(135b-11b)>>2
	.short	(133b-11b)>>2
	.short	(198b-11b)>>2
	.short	(112b-11b)>>2
	.short	(189b-11b)>>2
	.short	(191b-11b)>>2
	.short	(176b-11b)>>2
	.short	(148b-11b)>>2
	.short	(178b-11b)>>2
	.short	(121b-11b)>>2
	.short	(114b-11b)>>2
	.short	(108b-11b)>>2
	.short	(110b-11b)>>2
	.short	(106b-11b)>>2
	.short	(193b-11b)>>2
	.short	(182b-11b)>>2
	.short	(127b-11b)>>2
	.short	(152b-11b)>>2

	vj_cold	core..fmt..formatter..Formatter..write_indented..d3f2601cc94bc858_1_a64
	stp	x29, x30, [sp, #-80]!
	str	x25, [sp, #16]
	mov	x29, sp
	stp	x24, x23, [sp, #32]
	stp	x22, x21, [sp, #48]
	stp	x20, x19, [sp, #64]
	cbz	x2, 8f
	mov	x21, x2
	mov	x20, x1
	mov	x19, x0
	mov	x8, xzr
	mov	x24, xzr
	b	3f
1:
	mov	w23, #1
	add	x1, x20, x25
	mov	x0, x19
	mov	x2, x22
	strb	w23, [x19, #56]
	bl	core..fmt..formatter..Formatter..write_raw..d3f2601cc94bc858_1_a64
	and	w9, w0, #0xff
	mov	x8, x24
	tbnz	w9, #0, 10f
2:
	cmp	x24, x21
	b.eq	5f
3:
	ldrb	w10, [x20, x24]
	mov	x9, x24
	add	x24, x24, #1
	cmp	w10, #10
	b.ne	2b
	subs	x22, x24, x8
	csel	x25, xzr, x8, lo
	cmp	x8, x9
	mov	x8, x24
	b.hi	2b
	ldrb	w8, [x19, #56]
	cmp	w8, #1
	b.ne	1b
	ldr	x23, [x19, #48]
	cbz	x23, 1b
4:
	vj_page	x1, .L1_a64_static.131
	vj_address	x1, x1, .L1_a64_static.131
	mov	x0, x19
	mov	w2, #4
	bl	core..fmt..formatter..Formatter..write_raw..d3f2601cc94bc858_1_a64
	and	w8, w0, #0xff
	tbnz	w8, #0, 9f
	subs	x23, x23, #1
	b.ne	4b
	b	1b
5:
	cmp	x8, x21
	csel	x22, xzr, x8, hi
	subs	x8, x21, x8
	csel	x21, xzr, x8, lo
	b.ls	8f
	ldrb	w8, [x19, #56]
	cmp	w8, #1
	b.ne	7f
	ldr	x23, [x19, #48]
	cbz	x23, 7f
6:
	vj_page	x1, .L1_a64_static.131
	vj_address	x1, x1, .L1_a64_static.131
	mov	x0, x19
	mov	w2, #4
	bl	core..fmt..formatter..Formatter..write_raw..d3f2601cc94bc858_1_a64
	and	w8, w0, #0xff
	tbnz	w8, #0, 9f
	subs	x23, x23, #1
	b.ne	6b
7:
	add	x1, x20, x22
	mov	x0, x19
	mov	x2, x21
	strb	wzr, [x19, #56]
	ldp	x20, x19, [sp, #64]
	ldp	x22, x21, [sp, #48]
	ldr	x25, [sp, #16]
	ldp	x24, x23, [sp, #32]
	ldp	x29, x30, [sp], #80
	b	core..fmt..formatter..Formatter..write_raw..d3f2601cc94bc858_1_a64
8:
	mov	w23, wzr
	b	10f
9:
	mov	w23, #1
10:
	mov	w0, w23
	ldp	x20, x19, [sp, #64]
	ldp	x22, x21, [sp, #48]
	ldr	x25, [sp, #16]
	ldp	x24, x23, [sp, #32]
	ldp	x29, x30, [sp], #80
	ret
	vj_end	core..fmt..formatter..Formatter..write_indented..d3f2601cc94bc858_1_a64

	vj_function	core..fmt..formatter..Formatter..write_raw..d3f2601cc94bc858_1_a64
	cbz	x2, 6f
	mov	x9, xzr
	b	3f
1:
	mov	w8, #1
2:
	add	x9, x8, x9
	cmp	x9, x2
	b.hs	6f
3:
	ldrsb	w8, [x1, x9]
	tbz	w8, #31, 1b
	add	x10, x9, #1
	cmp	x2, x10
	b.ls	11f
	ldrsb	w11, [x1, x10]
	tbz	w11, #31, 11f
	and	w10, w8, #0xff
	cmn	w11, #64
	mov	w8, #-64
	csel	w11, w11, w8, lo
	cmp	w10, #194
	mov	w8, #1
	b.lo	15f
	and	w11, w11, #0x7f
	cmp	w11, #63
	b.hi	15f
	cmp	w10, #224
	b.hs	4f
	mov	w8, #2
	b	2b
4:
	add	x8, x9, #2
	cmp	x2, x8
	b.ls	11f
	ldrsb	w8, [x1, x8]
	cmn	w8, #65
	b.gt	11f
	cmp	w10, #239
	b.hi	5f
	lsl	w8, w10, #12
	add	w8, w8, w11, lsl #6
	sub	w8, w8, #224, lsl #12
	cmp	w8, #2048
	b.lo	11f
	lsr	w8, w8, #11
	cmp	w8, #27
	mov	w8, #3
	b.lo	2b
	cmp	w10, #238
	b.hs	2b
	b	11f
5:
	add	x8, x9, #3
	cmp	x2, x8
	b.ls	11f
	ldrsb	w8, [x1, x8]
	cmn	w8, #65
	b.gt	11f
	lsl	w8, w10, #18
	mov	w10, #-62980096
	add	w8, w8, w11, lsl #12
	add	w8, w8, w10
	lsr	w8, w8, #20
	cbnz	w8, 11f
	mov	w8, #4
	b	2b
6:
	stp	x29, x30, [sp, #-48]!
	stp	x22, x21, [sp, #16]
	mov	x22, x0
	mov	x29, sp
	stp	x20, x19, [sp, #32]
	ldp	x9, x19, [x22, #8]!
	sub	x8, x19, x9
	cmp	x2, x8
	b.hi	21f
7:
	ldr	x20, [x0]
	add	x21, x9, x2
	stp	xzr, xzr, [x22]
	add	x8, x20, x9
	sub	x10, x8, x1
	cmp	x10, x2
	b.hs	12f
	cmp	x2, #8
	b.lo	8f
	add	x8, x9, x20
	sub	x8, x8, x1
	cmp	x8, #32
	b.hs	16f
8:
	mov	x8, xzr
9:
	add	x10, x8, x9
	sub	x9, x2, x8
	add	x8, x1, x8
	add	x10, x20, x10
10:
	ldrb	w11, [x8], #1
	subs	x9, x9, #1
	strb	w11, [x10], #1
	b.ne	10b
	b	13f
11:
	mov	w0, #1
	ret
12:
	mov	x22, x0
	mov	x0, x8
	vj_c_call	memmove
	mov	x0, x22
13:
	mov	w8, wzr
	stp	x20, x21, [x0]
	str	x19, [x0, #16]
14:
	ldp	x20, x19, [sp, #32]
	ldp	x22, x21, [sp, #16]
	ldp	x29, x30, [sp], #48
15:
	mov	w0, w8
	ret
16:
	cmp	x2, #32
	b.hs	17f
	mov	x8, xzr
	b	19f
17:
	add	x12, x9, x20
	and	x10, x2, #0x18
	and	x8, x2, #0xffffffffffffffe0
	add	x11, x1, #16
	add	x12, x12, #16
	and	x13, x2, #0xffffffffffffffe0
18:
	ldp	q0, q1, [x11, #-16]
	subs	x13, x13, #32
	add	x11, x11, #32
	stp	q0, q1, [x12, #-16]
	add	x12, x12, #32
	b.ne	18b
	cmp	x2, x8
	b.eq	13b
	cbz	x10, 9b
19:
	mov	x11, x8
	and	x8, x2, #0xfffffffffffffff8
	add	x12, x9, x11
	sub	x10, x11, x8
	add	x11, x1, x11
	add	x12, x20, x12
20:
	ldr	d0, [x11], #8
	adds	x10, x10, #8
	str	d0, [x12], #8
	b.ne	20b
	cmp	x2, x8
	b.eq	13b
	b	9b
21:
	mov	x20, x1
	mov	x1, x2
	mov	x19, x0
	mov	x21, x2
	bl	std_alloc..vec..Vec..grow_amortized..01eec35b572d02af_1_a64
	cbz	w0, 22f
	mov	x0, x19
	ldp	x9, x19, [x19, #8]
	mov	x2, x21
	mov	x1, x20
	b	7b
22:
	mov	w8, #1
	b	14b
	vj_end	core..fmt..formatter..Formatter..write_raw..d3f2601cc94bc858_1_a64

	vj_constants	16
	.p2align	4, 0x0
.L1_a64_CPI44_0:
	.long	4294967278
	.long	4294967284
	.long	4294967290
	.long	0
	vj_constants	8
	.p2align	3, 0x0
.L1_a64_CPI44_1:
	.short	255
	.short	63
	.short	63
	.short	63
.L1_a64_CPI44_2:
	.short	240
	.short	128
	.short	128
	.short	128
	vj_function	core..fmt..formatter..Formatter..write_char_n_times..d3f2601cc94bc858_1_a64
	sub	sp, sp, #144
	stp	x20, x19, [sp, #128]
	mov	x20, x2
	mov	x19, x0
	cmp	w1, #127
	stp	x29, x30, [sp, #48]
	add	x29, sp, #48
	stp	x28, x27, [sp, #64]
	stp	x26, x25, [sp, #80]
	stp	x24, x23, [sp, #96]
	stp	x22, x21, [sp, #112]
	stp	xzr, xzr, [sp]
	str	xzr, [sp, #16]
	b.hi	6f
	mov	w8, w1
	mov	x9, #72340172838076673
	cmp	x20, #17
	mul	x8, x8, x9
	stp	x8, x8, [x29, #-16]
	b.lo	7f
1:
	ldr	x8, [x19, #48]
	cbnz	x8, 4f
	ldp	x9, x8, [x19, #8]
	sub	x10, x8, x9
	cmp	x10, #15
	b.ls	5f
2:
	ldr	x10, [x19]
	ldur	q0, [x29, #-16]
	str	q0, [x10, x9]
	add	x9, x9, #16
	stp	x10, x9, [x19]
	str	x8, [x19, #16]
3:
	sub	x20, x20, #16
	cmp	x20, #16
	b.hi	1b
	b	7f
4:
	sub	x1, x29, #16
	mov	x0, x19
	mov	w2, #16
	bl	core..fmt..formatter..Formatter..write_indented..d3f2601cc94bc858_1_a64
	and	w8, w0, #0xff
	tbz	w8, #0, 3b
	b	30f
5:
	mov	x0, x19
	mov	w1, #16
	bl	std_alloc..vec..Vec..grow_amortized..01eec35b572d02af_1_a64
	cbz	w0, 30f
	ldp	x9, x8, [x19, #8]
	b	2b
6:
	cmp	w1, #2047
	stur	wzr, [x29, #-20]
	b.hi	9f
	lsr	w8, w1, #6
	mov	w9, #128
	mov	w2, #2
	bfxil	w9, w1, #0, #6
	orr	w8, w8, #0xc0
	sturb	w8, [x29, #-20]
	sturb	w9, [x29, #-19]
	mov	x0, sp
	sub	x1, x29, #20
	bl	core..str..utf8..from_utf8_1_a64
	ldrb	w8, [sp]
	cbnz	w8, 30f
	b	12f
7:
	ldr	x8, [x19, #48]
	cbnz	x8, 28f
	ldp	x8, x21, [x19, #8]
	sub	x9, x21, x8
	cmp	x20, x9
	b.hi	29f
8:
	ldr	x22, [x19]
	sub	x1, x29, #16
	mov	x2, x20
	add	x23, x8, x20
	add	x0, x22, x8
	vj_c_call	memcpy
	mov	w0, wzr
	stp	x22, x23, [x19]
	str	x21, [x19, #16]
	b	31f
9:
	lsr	w8, w1, #11
	cmp	w8, #27
	b.lo	10f
	sub	w8, w1, #14, lsl #12
	cmp	w8, #258, lsl #12
	b.lo	10f
	mov	w8, #49135
	mov	w9, #189
	mov	w2, #3
	sturh	w8, [x29, #-20]
	sturb	w9, [x29, #-18]
	mov	x0, sp
	sub	x1, x29, #20
	bl	core..str..utf8..from_utf8_1_a64
	ldrb	w8, [sp]
	cbnz	w8, 30f
	b	12f
10:
	lsr	w8, w1, #16
	cbnz	w8, 11f
	lsr	w8, w1, #12
	mov	w9, #128
	mov	w10, #128
	bfxil	w9, w1, #6, #6
	bfxil	w10, w1, #0, #6
	mov	w2, #3
	orr	w8, w8, #0xe0
	sturb	w8, [x29, #-20]
	sturb	w9, [x29, #-19]
	sturb	w10, [x29, #-18]
	mov	x0, sp
	sub	x1, x29, #20
	bl	core..str..utf8..from_utf8_1_a64
	ldrb	w8, [sp]
	cbnz	w8, 30f
	b	12f
11:
	dup	v0.4s, w1
	vj_page	x8, .L1_a64_CPI44_0
	mov	w2, #4
	vj_load	q1, x8, .L1_a64_CPI44_0
	vj_page	x8, .L1_a64_CPI44_1
	ushl	v0.4s, v0.4s, v1.4s
	vj_load	d1, x8, .L1_a64_CPI44_1
	vj_page	x8, .L1_a64_CPI44_2
	xtn	v0.4h, v0.4s
	and	v0.8b, v0.8b, v1.8b
	vj_load	d1, x8, .L1_a64_CPI44_2
	orr	v0.8b, v0.8b, v1.8b
	uzp1	v0.8b, v0.8b, v0.8b
	stur	s0, [x29, #-20]
	mov	x0, sp
	sub	x1, x29, #20
	bl	core..str..utf8..from_utf8_1_a64
	ldrb	w8, [sp]
	cbnz	w8, 30f
12:
	ldp	x22, x21, [sp, #8]
	mov	x23, xzr
	and	x24, x21, #0xfffffffffffffff8
	neg	x27, x24
	b	14f
13:
	mov	x0, x19
	mov	x1, x22
	mov	x2, x21
	bl	core..fmt..formatter..Formatter..write_indented..d3f2601cc94bc858_1_a64
	and	w8, w0, #0xff
	tbnz	w8, #0, 30f
	add	x23, x23, #1
	cmp	x23, x20
	b.eq	27f
14:
	ldr	x8, [x19, #48]
	cbnz	x8, 13b
	ldp	x25, x28, [x19, #8]
	sub	x8, x28, x25
	cmp	x21, x8
	b.hi	25f
	ldr	x26, [x19]
	stp	xzr, xzr, [x19, #8]
	add	x8, x26, x25
	sub	x8, x8, x22
	cmp	x8, x21
	b.hs	26f
15:
	cmp	x21, #8
	b.lo	16f
	sub	x8, x25, x22
	add	x8, x8, x26
	cmp	x8, #32
	b.hs	19f
16:
	mov	x9, xzr
17:
	add	x10, x9, x25
	sub	x8, x21, x9
	add	x9, x22, x9
	add	x10, x26, x10
18:
	ldrb	w11, [x9], #1
	subs	x8, x8, #1
	strb	w11, [x10], #1
	b.ne	18b
	b	24f
19:
	cmp	x21, #32
	b.hs	20f
	mov	x10, xzr
	b	22f
20:
	add	x8, x26, x25
	add	x9, x22, #16
	and	x10, x21, #0xffffffffffffffe0
	add	x8, x8, #16
21:
	ldp	q0, q1, [x9, #-16]
	subs	x10, x10, #32
	add	x9, x9, #32
	stp	q0, q1, [x8, #-16]
	add	x8, x8, #32
	b.ne	21b
	and	x8, x21, #0xffffffffffffffe0
	cmp	x21, x8
	b.eq	24f
	and	x10, x21, #0xffffffffffffffe0
	and	x9, x21, #0xffffffffffffffe0
	and	x8, x21, #0x18
	cbz	x8, 17b
22:
	add	x11, x25, x10
	add	x8, x27, x10
	add	x9, x22, x10
	add	x10, x26, x11
23:
	ldr	d0, [x9], #8
	adds	x8, x8, #8
	str	d0, [x10], #8
	b.ne	23b
	cmp	x21, x24
	and	x9, x21, #0xfffffffffffffff8
	b.ne	17b
24:
	add	x8, x25, x21
	str	x28, [x19, #16]
	stp	x26, x8, [x19]
	add	x23, x23, #1
	cmp	x23, x20
	b.ne	14b
	b	27f
25:
	mov	x0, x19
	mov	x1, x21
	bl	std_alloc..vec..Vec..grow_amortized..01eec35b572d02af_1_a64
	cbz	w0, 30f
	ldp	x25, x28, [x19, #8]
	ldr	x26, [x19]
	stp	xzr, xzr, [x19, #8]
	add	x8, x26, x25
	sub	x8, x8, x22
	cmp	x8, x21
	b.lo	15b
26:
	add	x0, x26, x25
	mov	x1, x22
	mov	x2, x21
	vj_c_call	memmove
	add	x8, x25, x21
	str	x28, [x19, #16]
	stp	x26, x8, [x19]
	add	x23, x23, #1
	cmp	x23, x20
	b.ne	14b
27:
	mov	w0, wzr
	b	31f
28:
	sub	x1, x29, #16
	mov	x0, x19
	mov	x2, x20
	bl	core..fmt..formatter..Formatter..write_indented..d3f2601cc94bc858_1_a64
	and	w0, w0, #0xff
	b	31f
29:
	mov	x0, x19
	mov	x1, x20
	bl	std_alloc..vec..Vec..grow_amortized..01eec35b572d02af_1_a64
	cbz	w0, 30f
	ldp	x8, x21, [x19, #8]
	b	8b
30:
	mov	w0, #1
31:
	ldp	x20, x19, [sp, #128]
	ldp	x22, x21, [sp, #112]
	ldp	x24, x23, [sp, #96]
	ldp	x26, x25, [sp, #80]
	ldp	x28, x27, [sp, #64]
	ldp	x29, x30, [sp, #48]
	add	sp, sp, #144
	ret
	vj_end	core..fmt..formatter..Formatter..write_char_n_times..d3f2601cc94bc858_1_a64

	vj_function	core..fmt..formatter..Formatter..cut_and_fill..d3f2601cc94bc858_1_a64
	stp	x29, x30, [sp, #-80]!
	ldr	x8, [x0, #40]
	stp	x20, x19, [sp, #64]
	mov	x19, x2
	stp	x26, x25, [sp, #16]
	mov	x29, sp
	cmp	x2, x8
	stp	x24, x23, [sp, #32]
	stp	x22, x21, [sp, #48]
	b.ls	5f
	mov	x19, xzr
	b	2f
1:
	add	x19, x19, #1
	cmp	x2, x19
	b.eq	3f
2:
	ldrsb	w9, [x1, x19]
	cmn	w9, #64
	b.lt	1b
	cbz	x8, 4f
	sub	x8, x8, #1
	b	1b
3:
	mov	x19, x2
	b	6f
4:
	cmp	x2, x19
	b.lo	13f
5:
	cbz	x2, 7f
6:
	ldrsb	w8, [x1]
	cmn	w8, #64
	b.lt	13f
7:
	cmp	x19, x2
	b.eq	8f
	ldrsb	w8, [x1, x19]
	cmn	w8, #64
	b.lt	13f
8:
	ldr	x23, [x0, #32]
	cbz	x19, 10f
	cbz	x23, 10f
	mov	x8, xzr
9:
	ldrsb	w9, [x1, x8]
	add	x8, x8, #1
	cmn	w9, #65
	cset	w9, gt
	cmp	x8, x19
	sub	x23, x23, x9
	b.hs	10f
	cbnz	x23, 9b
10:
	ldrb	w8, [x0, #28]
	cmp	w8, #1
	csinc	w8, w8, wzr, hi
	cmp	w8, #2
	b.eq	11f
	cmp	w8, #1
	mov	x21, x23
	b.ne	12f
	ldr	w20, [x0, #24]
	mov	x21, xzr
	b	14f
11:
	lsr	x21, x23, #1
12:
	ldr	w20, [x0, #24]
	cbz	x21, 14f
	mov	x24, x1
	mov	w1, w20
	mov	x2, x21
	mov	x22, x0
	bl	core..fmt..formatter..Formatter..write_char_n_times..d3f2601cc94bc858_1_a64
	mov	w8, w0
	mov	x1, x24
	mov	x0, x22
	and	w8, w8, #0xff
	tbz	w8, #0, 14f
13:
	mov	w0, #1
	ldp	x20, x19, [sp, #64]
	ldp	x22, x21, [sp, #48]
	ldp	x24, x23, [sp, #32]
	ldp	x26, x25, [sp, #16]
	ldp	x29, x30, [sp], #80
	ret
14:
	ldr	x8, [x0, #48]
	cbnz	x8, 24f
	mov	x26, x0
	ldp	x9, x22, [x26, #8]!
	sub	x8, x22, x9
	cmp	x19, x8
	b.hi	29f
15:
	ldr	x24, [x0]
	add	x25, x9, x19
	stp	xzr, xzr, [x26]
	add	x8, x24, x9
	sub	x10, x8, x1
	cmp	x10, x19
	b.hs	19f
	cmp	x19, #8
	b.lo	16f
	add	x8, x9, x24
	sub	x8, x8, x1
	cmp	x8, #32
	b.hs	23f
16:
	mov	x8, xzr
17:
	add	x10, x8, x9
	sub	x9, x19, x8
	add	x8, x1, x8
	add	x10, x24, x10
18:
	ldrb	w11, [x8], #1
	subs	x9, x9, #1
	strb	w11, [x10], #1
	b.ne	18b
	b	20f
19:
	mov	x26, x0
	mov	x0, x8
	mov	x2, x19
	vj_c_call	memmove
	mov	x0, x26
20:
	stp	x24, x25, [x0]
	str	x22, [x0, #16]
21:
	subs	x2, x23, x21
	b.ls	22f
	mov	w1, w20
	ldp	x20, x19, [sp, #64]
	ldp	x22, x21, [sp, #48]
	ldp	x24, x23, [sp, #32]
	ldp	x26, x25, [sp, #16]
	ldp	x29, x30, [sp], #80
	b	core..fmt..formatter..Formatter..write_char_n_times..d3f2601cc94bc858_1_a64
22:
	mov	w0, wzr
	ldp	x20, x19, [sp, #64]
	ldp	x22, x21, [sp, #48]
	ldp	x24, x23, [sp, #32]
	ldp	x26, x25, [sp, #16]
	ldp	x29, x30, [sp], #80
	ret
23:
	cmp	x19, #32
	b.hs	25f
	mov	x8, xzr
	b	27f
24:
	mov	x2, x19
	mov	x22, x0
	bl	core..fmt..formatter..Formatter..write_indented..d3f2601cc94bc858_1_a64
	mov	w8, w0
	mov	x0, x22
	and	w8, w8, #0xff
	tbz	w8, #0, 21b
	b	13b
25:
	add	x12, x9, x24
	and	x10, x19, #0x18
	and	x8, x19, #0xffffffffffffffe0
	add	x11, x1, #16
	add	x12, x12, #16
	and	x13, x19, #0xffffffffffffffe0
26:
	ldp	q0, q1, [x11, #-16]
	subs	x13, x13, #32
	add	x11, x11, #32
	stp	q0, q1, [x12, #-16]
	add	x12, x12, #32
	b.ne	26b
	cmp	x19, x8
	b.eq	20b
	cbz	x10, 17b
27:
	mov	x11, x8
	and	x8, x19, #0xfffffffffffffff8
	add	x12, x9, x11
	sub	x10, x11, x8
	add	x11, x1, x11
	add	x12, x24, x12
28:
	ldr	d0, [x11], #8
	adds	x10, x10, #8
	str	d0, [x12], #8
	b.ne	28b
	cmp	x19, x8
	b.eq	20b
	b	17b
29:
	mov	x24, x1
	mov	x1, x19
	mov	x22, x0
	bl	std_alloc..vec..Vec..grow_amortized..01eec35b572d02af_1_a64
	cbz	w0, 13b
	mov	x0, x22
	ldp	x9, x22, [x22, #8]
	mov	x1, x24
	b	15b
	vj_end	core..fmt..formatter..Formatter..cut_and_fill..d3f2601cc94bc858_1_a64

	vj_function	core..slice..words..skip_far..878162fd265b9cd6_1_a64
	sub	x8, x2, x1
	cmp	x8, #64
	b.lo	2f
	ldrb	w9, [x0, #16]
	ldrb	w11, [x0, #17]
	mov	x10, #72340172838076673
	mul	x12, x9, x10
	ldr	x9, [x0]
	mul	x10, x11, x10
	ldr	x11, [x0, #24]
	dup	v1.2d, x12
	dup	v0.2d, x10
	add	x10, x9, x11
1:
	add	x11, x9, x1
	add	x12, x10, x1
	movi	v18.16b, #127
	ldp	q2, q3, [x11, #32]
	ldp	q4, q5, [x11]
	ldp	q6, q7, [x12]
	ldp	q16, q17, [x12, #32]
	eor	v3.16b, v1.16b, v3.16b
	eor	v5.16b, v1.16b, v5.16b
	eor	v2.16b, v1.16b, v2.16b
	eor	v4.16b, v1.16b, v4.16b
	eor	v7.16b, v0.16b, v7.16b
	eor	v6.16b, v0.16b, v6.16b
	mov	x12, #-9187201950435737472
	eor	v17.16b, v0.16b, v17.16b
	eor	v16.16b, v0.16b, v16.16b
	orr	v5.16b, v7.16b, v5.16b
	orr	v4.16b, v6.16b, v4.16b
	orr	v2.16b, v16.16b, v2.16b
	orr	v3.16b, v17.16b, v3.16b
	and	v6.16b, v5.16b, v18.16b
	and	v17.16b, v4.16b, v18.16b
	and	v7.16b, v3.16b, v18.16b
	and	v16.16b, v2.16b, v18.16b
	add	v6.2d, v6.2d, v18.2d
	add	v17.2d, v17.2d, v18.2d
	add	v16.2d, v16.2d, v18.2d
	add	v7.2d, v7.2d, v18.2d
	orr	v5.16b, v6.16b, v5.16b
	orr	v4.16b, v17.16b, v4.16b
	orr	v3.16b, v7.16b, v3.16b
	orr	v2.16b, v16.16b, v2.16b
	and	v2.16b, v4.16b, v2.16b
	and	v3.16b, v5.16b, v3.16b
	and	v2.16b, v2.16b, v3.16b
	ext	v3.16b, v2.16b, v2.16b, #8
	and	v2.8b, v2.8b, v3.8b
	fmov	x11, d2
	bics	xzr, x12, x11
	b.ne	2f
	sub	x8, x8, #64
	add	x1, x1, #64
	cmp	x8, #63
	b.hi	1b
2:
	mov	x0, x1
	ret
	vj_end	core..slice..words..skip_far..878162fd265b9cd6_1_a64

	vj_function	blake2_digest..wiping..scrub_stack..4096_1_a64
	stp	x29, x30, [sp, #-32]!
	str	x28, [sp, #16]
	mov	x29, sp
	sub	sp, sp, #3072
	str	xzr, [sp]
	sub	sp, sp, #1024
	mov	x0, sp
	mov	w1, wzr
	mov	w2, #4096
	vj_c_call	memset
	mov	x0, sp
	bl	blake2_digest..wiping..settle..4096_1_a64
	add	sp, sp, #1, lsl #12
	ldr	x28, [sp, #16]
	ldp	x29, x30, [sp], #32
	ret
	vj_end	blake2_digest..wiping..scrub_stack..4096_1_a64

	vj_function	blake2_digest..wiping..settle..4096_1_a64
	movi	v0.2d, #0000000000000000
	movi	v1.2d, #0000000000000000
	add	x8, x0, #16
	mov	w9, #4096
1:
	ldp	q2, q3, [x8, #-16]
	subs	x9, x9, #32
	add	x8, x8, #32
	orr	v0.16b, v2.16b, v0.16b
	orr	v1.16b, v3.16b, v1.16b
	b.ne	1b
	orr	v0.16b, v1.16b, v0.16b
	ext	v1.16b, v0.16b, v0.16b, #8
	orr	v0.8b, v0.8b, v1.8b
	fmov	x8, d0
	orr	x8, x8, x8, lsr #32
	lsr	x9, x8, #16
	orr	w8, w8, w9
	orr	w8, w8, w8, lsr #8
	tst	w8, #0xff
	b.eq	2f
	isb
2:
	ret
	vj_end	blake2_digest..wiping..settle..4096_1_a64

	vj_constants	16
	.p2align	4, 0x0
.L1_a64_CPI49_0:
	.quad	7640891576956012808
	.quad	-4942790177534073029
.L1_a64_CPI49_1:
	.quad	4354685564936845355
	.quad	-6534734903238641935
.L1_a64_CPI49_3:
	.quad	5840696475078001361
	.quad	-7276294671716946913
.L1_a64_CPI49_4:
	.quad	2270897969802886507
	.quad	6620516959819538809
	vj_constants	8
	.p2align	3, 0x0
.L1_a64_CPI49_2:
	.short	64
	.short	257
	.short	0
	.short	0
.L1_a64_CPI49_5:
	.long	64
	.long	0
	vj_function	b2sum..hashes..derive_key_1_a64
	stp	x29, x30, [sp, #-80]!
	stp	x28, x25, [sp, #16]
	mov	x29, sp
	stp	x24, x23, [sp, #32]
	stp	x22, x21, [sp, #48]
	stp	x20, x19, [sp, #64]
	sub	sp, sp, #688
	cmp	x1, #64
	b.hi	6f
	sub	x8, x5, #1
	mov	w9, #-2
	mov	x19, x5
	cmp	x8, x9
	b.hi	6f
	lsl	x8, x19, #32
	mov	x20, x4
	mov	x22, x3
	mov	x23, x1
	mov	x21, x2
	add	x25, sp, #32
	fmov	d0, x8
	cbz	x1, 1f
	mov	w8, #64
	mov	w9, #64
	cmp	x23, #63
	movk	w8, #257, lsl #16
	mov	x24, x0
	mov	w1, wzr
	orr	w8, w8, w23, lsl #8
	fmov	s1, w8
	vj_page	x8, .L1_a64_CPI49_0
	mov	v1.s[1], wzr
	mov	v1.d[1], v0.d[0]
	vj_load	q0, x8, .L1_a64_CPI49_0
	vj_page	x8, .L1_a64_CPI49_1
	eor	v0.16b, v1.16b, v0.16b
	str	q0, [sp, #16]
	vj_load	q0, x8, .L1_a64_CPI49_1
	sub	x8, x9, x23
	csel	x2, xzr, x8, hi
	sub	x8, x29, #192
	add	x0, x8, x23
	str	q0, [sp]
	vj_c_call	memset
	sub	x0, x29, #192
	mov	x1, x24
	mov	x2, x23
	vj_c_call	memcpy
	movi	v0.2d, #0000000000000000
	ldp	q1, q2, [x29, #-192]
	mov	w8, #128
	stp	q1, q2, [x29, #-128]
	ldp	q3, q2, [sp]
	stp	q0, q0, [x29, #-64]
	stp	q0, q0, [x29, #-32]
	ldp	q0, q1, [x29, #-160]
	stp	q0, q1, [x29, #-96]
	b	2f
1:
	vj_page	x9, .L1_a64_CPI49_2
	movi	v1.2d, #0000000000000000
	mov	w8, wzr
	vj_load	d2, x9, .L1_a64_CPI49_2
	vj_page	x9, .L1_a64_CPI49_0
	mov	v2.d[1], v0.d[0]
	vj_load	q0, x9, .L1_a64_CPI49_0
	vj_page	x9, .L1_a64_CPI49_1
	vj_load	q3, x9, .L1_a64_CPI49_1
	stp	q1, q1, [x29, #-192]
	stp	q1, q1, [x29, #-160]
	stp	q1, q1, [x29, #-128]
	stp	q1, q1, [x29, #-96]
	eor	v2.16b, v2.16b, v0.16b
	stp	q1, q1, [x29, #-64]
	stp	q1, q1, [x29, #-32]
2:
	vj_page	x9, .L1_a64_CPI49_3
	vj_page	x10, .L1_a64_CPI49_4
	stp	q2, q3, [sp, #32]
	vj_load	q0, x9, .L1_a64_CPI49_3
	vj_load	q1, x10, .L1_a64_CPI49_4
	stp	q2, q3, [sp, #96]
	vj_page	x9, .L1_a64_CPI49_5
	add	x10, sp, #32
	movi	v3.2d, #0000000000000000
	stp	q0, q1, [sp, #64]
	add	x11, x10, #280
	cmp	x22, #1
	stp	q0, q1, [sp, #128]
	ldp	q2, q1, [x29, #-32]
	vj_load	d0, x9, .L1_a64_CPI49_5
	add	x9, x10, #152
	add	x10, x10, #344
	str	xzr, [sp, #160]
	str	d0, [sp, #176]
	str	q1, [x9, #112]
	ldp	q0, q1, [x29, #-64]
	stur	q2, [x25, #248]
	stp	w8, w8, [sp, #168]
	stur	q0, [x25, #216]
	stur	q1, [x25, #232]
	ldp	q0, q1, [x29, #-128]
	stp	q3, q3, [x10]
	stp	q3, q3, [x10, #32]
	stur	q0, [x25, #152]
	stur	q1, [x25, #168]
	ldp	q0, q1, [x29, #-96]
	stp	q3, q3, [x10, #64]
	stp	xzr, xzr, [sp, #480]
	stur	q0, [x25, #184]
	stur	q1, [x25, #200]
	ldp	q1, q0, [x29, #-160]
	str	x19, [sp, #472]
	stp	q1, q0, [x11, #32]
	ldp	q0, q2, [x29, #-192]
	stp	q0, q2, [x11]
	b.ne	3f
	cbz	x23, 4f
	add	x0, sp, #32
	mov	x1, x21
	mov	w2, #1
	bl	blake2_state..blake2b..State..absorb_blocks_1_a64
	b	5f
3:
	add	x0, sp, #32
	mov	x1, x21
	mov	x2, x22
	bl	blake2_state..blake2b..State..absorb_blocks_1_a64
	b	5f
4:
	ldrb	w10, [x21]
	orr	w11, w8, #0x1
	strb	w10, [x9, w8, uxtw]
	str	w11, [sp, #168]
5:
	add	x0, sp, #32
	mov	x1, x20
	mov	x2, x19
	vj_call	blake2_xof..blake2xb..State..squeeze_1_arm
	add	sp, sp, #688
	ldp	x20, x19, [sp, #64]
	ldp	x22, x21, [sp, #48]
	ldp	x24, x23, [sp, #32]
	ldp	x28, x25, [sp, #16]
	ldp	x29, x30, [sp], #80
	ret
6:
	brk	#0x1
	vj_end	b2sum..hashes..derive_key_1_a64

	vj_function	blake2_state..blake2b..State..absorb_blocks_1_a64
	sub	sp, sp, #224
	stp	x22, x21, [sp, #192]
	ldr	w22, [x0, #136]
	mov	w8, #128
	mov	x21, x2
	stp	x24, x23, [sp, #176]
	sub	x2, x8, x22
	stp	x20, x19, [sp, #208]
	mov	x19, x0
	subs	x24, x21, x2
	mov	x20, x1
	stp	x29, x30, [sp, #144]
	stp	x26, x25, [sp, #160]
	add	x29, sp, #144
	b.ls	4f
	ldp	q1, q0, [x19]
	add	x23, x19, #152
	ldr	w8, [x19, #148]
	ldr	x25, [x19, #128]
	stp	q1, q0, [sp]
	ldp	q2, q0, [x19, #32]
	cmp	w8, #0
	cset	w8, ne
	stp	q2, q0, [sp, #32]
	ldp	q1, q0, [x19, #64]
	stp	x25, x8, [sp, #128]
	stp	q1, q0, [sp, #64]
	ldp	q0, q2, [x19, #96]
	stp	q0, q2, [sp, #96]
	cbz	w22, 12f
	add	x0, x23, x22
	add	x26, x20, x2
	sub	x8, x0, x20
	cmp	x8, x2
	b.hs	10f
	cmp	x2, #8
	b.lo	1f
	add	x8, x19, x22
	sub	x8, x8, x20
	add	x8, x8, #152
	cmp	x8, #32
	b.hs	23f
1:
	mov	x8, xzr
2:
	add	x9, x8, x22
	add	x8, x20, x8
3:
	ldrb	w10, [x8], #1
	strb	w10, [x23, x9]
	add	x9, x9, #1
	cmp	x9, #128
	b.ne	3b
	b	11f
4:
	add	x8, x19, x22
	add	x0, x8, #152
	sub	x8, x0, x20
	cmp	x8, x21
	b.hs	8f
	cmp	x21, #8
	b.lo	5f
	add	x8, x19, x22
	sub	x8, x8, x20
	add	x8, x8, #152
	cmp	x8, #32
	b.hs	21f
5:
	mov	x8, xzr
6:
	add	x9, x8, x22
	add	x10, x9, x19
	sub	x9, x21, x8
	add	x8, x20, x8
	add	x10, x10, #152
7:
	ldrb	w11, [x8], #1
	subs	x9, x9, #1
	strb	w11, [x10], #1
	b.ne	7b
	b	9f
8:
	mov	x1, x20
	mov	x2, x21
	vj_c_call	memmove
9:
	add	w8, w22, w21
	str	w8, [x19, #136]
	b	20f
10:
	mov	x1, x20
	vj_c_call	memmove
11:
	add	x2, x25, #128
	mov	x0, sp
	add	x1, x19, #152
	mov	w3, wzr
	mov	w4, wzr
	str	x2, [sp, #128]
	vj_call	blake2_compress..compress..blake2b..compress_1_arm
	mov	x21, x24
	mov	x20, x26
12:
	cmp	x21, #0
	cset	w8, ne
	sub	x8, x21, x8
	lsr	x25, x8, #7
	and	x24, x8, #0xffffffffffffff80
	cbz	x25, 14f
	mov	x22, x20
13:
	ldr	x8, [sp, #128]
	mov	x0, sp
	mov	x1, x22
	mov	w3, wzr
	mov	w4, wzr
	add	x2, x8, #128
	str	x2, [sp, #128]
	vj_call	blake2_compress..compress..blake2b..compress_1_arm
	subs	x25, x25, #1
	add	x22, x22, #128
	b.ne	13b
14:
	movi	v0.2d, #0000000000000000
	add	x1, x20, x24
	sub	x22, x21, x24
	sub	x8, x23, x1
	cmp	x8, x22
	stp	q0, q0, [x23]
	stp	q0, q0, [x23, #32]
	stp	q0, q0, [x23, #64]
	stp	q0, q0, [x23, #96]
	b.hs	18f
	cmp	x22, #8
	b.lo	15f
	add	x8, x24, x20
	sub	x8, x19, x8
	add	x8, x8, #152
	cmp	x8, #32
	b.hs	22f
15:
	mov	x8, xzr
16:
	sub	x9, x21, x8
	add	x10, x8, x24
	add	x11, x8, x19
	sub	x8, x9, x24
	add	x9, x20, x10
	add	x10, x11, #152
17:
	ldrb	w11, [x9], #1
	subs	x8, x8, #1
	strb	w11, [x10], #1
	b.ne	17b
	b	19f
18:
	add	x0, x19, #152
	mov	x2, x22
	vj_c_call	memmove
19:
	ldp	q0, q1, [sp]
	ldr	x8, [sp, #128]
	str	w22, [x19, #136]
	str	x8, [x19, #128]
	stp	q0, q1, [x19]
	ldp	q2, q0, [sp, #32]
	stp	q2, q0, [x19, #32]
20:
	ldp	x20, x19, [sp, #208]
	ldp	x22, x21, [sp, #192]
	ldp	x24, x23, [sp, #176]
	ldp	x26, x25, [sp, #160]
	ldp	x29, x30, [sp, #144]
	add	sp, sp, #224
	ret
21:
	cmp	x21, #32
	b.hs	24f
	mov	x8, xzr
	b	26f
22:
	cmp	x22, #32
	b.hs	28f
	mov	x8, xzr
	b	30f
23:
	cmp	x2, #32
	b.hs	32f
	mov	x8, xzr
	b	34f
24:
	add	x11, x22, x19
	and	x9, x21, #0x18
	and	x8, x21, #0xffffffffffffffe0
	add	x10, x20, #16
	add	x11, x11, #168
	and	x12, x21, #0xffffffffffffffe0
25:
	ldp	q0, q1, [x10, #-16]
	subs	x12, x12, #32
	add	x10, x10, #32
	stp	q0, q1, [x11, #-16]
	add	x11, x11, #32
	b.ne	25b
	cmp	x21, x8
	b.eq	9b
	cbz	x9, 6b
26:
	mov	x10, x8
	and	x8, x21, #0xfffffffffffffff8
	add	x9, x10, x22
	add	x11, x9, x19
	sub	x9, x10, x8
	add	x10, x20, x10
	add	x11, x11, #152
27:
	ldr	d0, [x10], #8
	adds	x9, x9, #8
	str	d0, [x11], #8
	b.ne	27b
	cmp	x21, x8
	b.eq	9b
	b	6b
28:
	and	x9, x21, #0x1f
	add	x11, x24, x20
	add	x10, x19, #168
	sub	x8, x22, x9
	add	x11, x11, #16
	sub	x12, x22, x9
29:
	ldp	q0, q1, [x11, #-16]
	subs	x12, x12, #32
	add	x11, x11, #32
	stp	q0, q1, [x10, #-16]
	add	x10, x10, #32
	b.ne	29b
	cbz	x9, 19b
	cmp	x9, #8
	b.lo	16b
30:
	and	x9, x21, #0x7
	add	x11, x8, x24
	add	x12, x8, x19
	add	x10, x11, x9
	sub	x8, x22, x9
	add	x11, x20, x11
	sub	x10, x10, x21
	add	x12, x12, #152
31:
	ldr	d0, [x11], #8
	adds	x10, x10, #8
	str	d0, [x12], #8
	b.ne	31b
	cbnz	x9, 16b
	b	19b
32:
	add	x11, x22, x19
	and	x9, x2, #0x18
	and	x8, x2, #0xffffffffffffffe0
	add	x10, x20, #16
	add	x11, x11, #168
	and	x12, x2, #0xffffffffffffffe0
33:
	ldp	q0, q1, [x10, #-16]
	subs	x12, x12, #32
	add	x10, x10, #32
	stp	q0, q1, [x11, #-16]
	add	x11, x11, #32
	b.ne	33b
	cmp	x2, x8
	b.eq	11b
	cbz	x9, 2b
34:
	mov	x10, x8
	and	x8, x2, #0xfffffffffffffff8
	add	x9, x10, x22
	add	x11, x9, x19
	sub	x9, x10, x8
	add	x10, x20, x10
	add	x11, x11, #152
35:
	ldr	d0, [x10], #8
	adds	x9, x9, #8
	str	d0, [x11], #8
	b.ne	35b
	cmp	x2, x8
	b.eq	11b
	b	2b
	vj_end	blake2_state..blake2b..State..absorb_blocks_1_a64

	vj_function	blake2_state..blake2b..State..write_digest_1_a64
	sub	sp, sp, #432
	ldp	q2, q1, [x0]
	movi	v0.2d, #0000000000000000
	stp	x28, x21, [sp, #400]
	ldr	w21, [x0, #136]
	stp	x29, x30, [sp, #384]
	add	x29, sp, #384
	stp	q2, q1, [sp, #192]
	ldp	q3, q1, [x0, #32]
	stp	x20, x19, [sp, #416]
	mov	x20, x0
	mov	x19, x1
	sub	x0, x29, #128
	add	x1, x20, #152
	mov	x2, x21
	stp	q0, q0, [sp]
	stp	q0, q0, [sp, #32]
	stp	q3, q1, [sp, #224]
	stp	q0, q0, [x29, #-128]
	stp	q0, q0, [x29, #-96]
	stp	q0, q0, [x29, #-64]
	stp	q0, q0, [x29, #-32]
	vj_c_call	memcpy
	ldp	q0, q1, [x29, #-64]
	add	x0, sp, #192
	ldr	w8, [x20, #148]
	add	x1, sp, #64
	mov	w3, #1
	stp	q0, q1, [sp, #128]
	ldp	q0, q2, [x29, #-32]
	cmp	w8, #0
	ldr	x8, [x20, #128]
	cset	w4, ne
	stp	q0, q2, [sp, #160]
	ldp	q1, q0, [x29, #-128]
	add	x2, x8, x21
	stp	q1, q0, [sp, #64]
	ldp	q2, q0, [x29, #-96]
	stp	q2, q0, [sp, #96]
	vj_call	blake2_compress..compress..blake2b..compress_1_arm
	ldp	q0, q1, [sp, #192]
	mov	x1, sp
	ldr	w2, [x20, #144]
	mov	x0, x19
	stp	q0, q1, [sp]
	ldp	q0, q2, [sp, #224]
	stp	q0, q2, [sp, #32]
	vj_c_call	memcpy
	ldp	x20, x19, [sp, #416]
	ldp	x28, x21, [sp, #400]
	ldp	x29, x30, [sp, #384]
	add	sp, sp, #432
	ret
	vj_end	blake2_state..blake2b..State..write_digest_1_a64

	vj_function	blake2_digest..wiping..scrub_stack..8192_1_a64
	stp	x29, x30, [sp, #-32]!
	str	x28, [sp, #16]
	mov	x29, sp
	sub	sp, sp, #3072
	str	xzr, [sp]
	sub	sp, sp, #3072
	str	xzr, [sp]
	sub	sp, sp, #2048
	mov	x0, sp
	mov	w1, wzr
	mov	w2, #8192
	str	xzr, [sp]
	vj_c_call	memset
	mov	x0, sp
	bl	blake2_digest..wiping..settle..8192_1_a64
	add	sp, sp, #2, lsl #12
	ldr	x28, [sp, #16]
	ldp	x29, x30, [sp], #32
	ret
	vj_end	blake2_digest..wiping..scrub_stack..8192_1_a64

	vj_function	blake2_digest..wiping..settle..8192_1_a64
	movi	v0.2d, #0000000000000000
	movi	v1.2d, #0000000000000000
	add	x8, x0, #16
	mov	w9, #8192
1:
	ldp	q2, q3, [x8, #-16]
	subs	x9, x9, #32
	add	x8, x8, #32
	orr	v0.16b, v2.16b, v0.16b
	orr	v1.16b, v3.16b, v1.16b
	b.ne	1b
	orr	v0.16b, v1.16b, v0.16b
	ext	v1.16b, v0.16b, v0.16b, #8
	orr	v0.8b, v0.8b, v1.8b
	fmov	x8, d0
	orr	x8, x8, x8, lsr #32
	lsr	x9, x8, #16
	orr	w8, w8, w9
	orr	w8, w8, w8, lsr #8
	tst	w8, #0xff
	b.eq	2f
	isb
2:
	ret
	vj_end	blake2_digest..wiping..settle..8192_1_a64

	vj_function	b2sum_commands..messages..tell_named..068f3e307c5390f2_1_a64
	sub	sp, sp, #256
	ldrb	w8, [x2]
	stp	x24, x23, [sp, #208]
	add	x24, sp, #88
	stp	x22, x21, [sp, #224]
	mov	x21, x3
	stp	x20, x19, [sp, #240]
	mov	x20, x4
	mov	x19, x2
	stp	x29, x30, [sp, #176]
	add	x29, sp, #176
	stp	x26, x25, [sp, #192]
	cbz	x1, 2f
	cmp	w8, #1
	b.eq	2f
	mov	x22, x1
	mov	x23, x0
	mov	x25, xzr
1:
	add	x1, x23, x25
	sub	x2, x22, x25
	mov	w0, #2
	sub	x26, x22, x25
	vj_system_call	write, b2_write
	tbnz	x0, #63, 4f
	cmp	x0, x26
	csel	x8, x0, x26, lo
	cbz	x8, 5f
	add	x25, x8, x25
	cmp	x25, x22
	b.lo	1b
	ldrb	w8, [x19]
2:
	cmp	w8, #1
	b.eq	6f
	mov	x22, xzr
3:
	add	x1, x21, x22
	sub	x2, x20, x22
	mov	w0, #2
	sub	x23, x20, x22
	vj_system_call	write, b2_write
	tbnz	x0, #63, 4f
	cmp	x0, x23
	csel	x8, x0, x23, lo
	cbz	x8, 5f
	add	x22, x8, x22
	cmp	x22, x20
	b.lo	3b
	b	6f
4:
	add	x0, sp, #88
	bl	std_io..io..error..last_error_1_a64
	ldp	q0, q3, [sp, #96]
	mov	w8, #1
	ldur	q1, [x24, #72]
	ldur	q2, [x24, #56]
	ldur	q4, [x24, #40]
	ldr	x9, [sp, #88]
	stp	q0, q3, [sp]
	stp	q2, q1, [sp, #48]
	str	q4, [sp, #32]
	stp	x8, x9, [x19]
	stp	q0, q3, [x19, #16]
	stp	q4, q2, [x19, #48]
	str	q1, [x19, #80]
	b	6f
5:
	movi	v0.2d, #0000000000000000
	mov	w8, #1
	mov	w9, #5889
	str	x8, [x19]
	strh	w9, [x19, #8]
	stur	q0, [x19, #10]
	stur	q0, [x19, #26]
	stur	q0, [x19, #42]
	stur	q0, [x19, #58]
	stur	q0, [x19, #74]
	str	xzr, [x19, #88]
6:
	ldp	x20, x19, [sp, #240]
	ldp	x22, x21, [sp, #224]
	ldp	x24, x23, [sp, #208]
	ldp	x26, x25, [sp, #192]
	ldp	x29, x30, [sp, #176]
	add	sp, sp, #256
	ret
	vj_end	b2sum_commands..messages..tell_named..068f3e307c5390f2_1_a64

	vj_function	b2sum_commands..check..check_entry..82a450bcca081e63_1_a64
	sub	sp, sp, #448
	movi	v0.2d, #0000000000000000
	stp	x24, x23, [sp, #400]
	mov	x8, x4
	stp	x22, x21, [sp, #416]
	mov	x22, x5
	ldrb	w9, [x5]
	ldr	w10, [x5, #4]
	ldr	x24, [x5, #16]
	stp	x29, x30, [sp, #352]
	ldp	x4, x5, [x5, #32]
	add	x29, sp, #352
	stp	x20, x19, [sp, #432]
	mov	x20, x3
	mov	x21, x2
	mov	x19, x0
	sub	x6, x29, #112
	add	x7, sp, #64
	mov	x0, x1
	mov	x1, x2
	mov	x2, x3
	mov	x3, x8
	stp	x28, x27, [sp, #368]
	stp	x26, x25, [sp, #384]
	stp	w9, w10, [x29, #-112]
	stp	q0, q0, [sp, #64]
	stp	q0, q0, [sp, #96]
	stur	x24, [x29, #-104]
	bl	b2sum_commands..sums..digest_file..82a450bcca081e63_1_a64
	tst	w0, #0xff
	b.eq	1f
	movi	v0.2d, #0000000000000000
	mov	w8, #1
	strb	w1, [x19, #1]
	b	53f
1:
	ldr	x23, [x22, #8]
	ands	w8, w1, #0xff
	b.eq	2f
	cmp	w8, #1
	b.ne	3f
	mov	w26, wzr
	mov	w8, #3
	b	14f
2:
	ldr	x8, [x22, #16]
	cmp	x24, x8
	b.ne	12f
	cbz	x24, 13f
	cmp	x24, #8
	b.hs	4f
	mov	w9, wzr
	mov	x8, xzr
	b	9f
3:
	mov	w26, wzr
	mov	w8, #2
	b	14f
4:
	cmp	x24, #32
	b.hs	5f
	mov	x8, xzr
	mov	w9, wzr
	b	7f
5:
	movi	v0.2d, #0000000000000000
	movi	v1.2d, #0000000000000000
	add	x11, sp, #64
	and	x10, x24, #0x18
	and	x8, x24, #0xffffffffffffffe0
	add	x9, x23, #16
	add	x11, x11, #16
	and	x12, x24, #0xffffffffffffffe0
6:
	ldp	q2, q3, [x11, #-16]
	subs	x12, x12, #32
	ldp	q4, q5, [x9, #-16]
	add	x9, x9, #32
	add	x11, x11, #32
	eor	v2.16b, v4.16b, v2.16b
	eor	v3.16b, v5.16b, v3.16b
	orr	v0.16b, v2.16b, v0.16b
	orr	v1.16b, v3.16b, v1.16b
	b.ne	6b
	orr	v0.16b, v1.16b, v0.16b
	cmp	x24, x8
	ext	v1.16b, v0.16b, v0.16b, #8
	orr	v0.8b, v0.8b, v1.8b
	fmov	x9, d0
	orr	x9, x9, x9, lsr #32
	orr	x9, x9, x9, lsr #16
	lsr	x11, x9, #8
	orr	w9, w9, w11
	b.eq	11f
	cbz	x10, 9f
7:
	movi	v0.2d, #0000000000000000
	mov	x11, x8
	and	x8, x24, #0xfffffffffffffff8
	add	x12, sp, #64
	add	x10, x23, x11
	mov	v0.b[0], w9
	sub	x9, x11, x8
	add	x11, x12, x11
8:
	ldr	d1, [x11], #8
	adds	x9, x9, #8
	ldr	d2, [x10], #8
	eor	v1.8b, v2.8b, v1.8b
	orr	v0.8b, v1.8b, v0.8b
	b.ne	8b
	fmov	x9, d0
	cmp	x24, x8
	orr	x9, x9, x9, lsr #32
	orr	x9, x9, x9, lsr #16
	lsr	x10, x9, #8
	orr	w9, w9, w10
	b.eq	11f
9:
	add	x12, sp, #64
	sub	x10, x24, x8
	add	x11, x23, x8
	add	x8, x12, x8
10:
	ldrb	w12, [x8], #1
	subs	x10, x10, #1
	ldrb	w13, [x11], #1
	eor	w12, w13, w12
	orr	w9, w12, w9
	b.ne	10b
11:
	tst	w9, #0xff
	b.eq	13f
12:
	mov	w26, #1
	mov	w8, #1
	b	14f
13:
	mov	w26, wzr
	mov	w8, wzr
14:
	movi	v0.2d, #0000000000000000
	ldrb	w10, [x21, #208]
	ldr	x24, [x22, #16]
	sub	x9, x29, #17
	mov	w25, w8
	str	xzr, [sp, #48]
	cmp	w10, #2
	stp	xzr, xzr, [x29, #-104]
	stur	x9, [x29, #-112]
	stp	q0, q0, [sp, #16]
	b.hs	15f
	cmp	w25, #3
	b.eq	18f
	cbz	w25, 60f
	cmp	w25, #1
	b.eq	16f
	b	32f
15:
	b.ne	18f
	cmp	w25, #1
	b.gt	17f
	cbz	w25, 18f
16:
	vj_page	x8, .L1_a64_static.188
	vj_address	x8, x8, .L1_a64_static.188
	mov	w1, #9
	b	61f
17:
	cmp	w25, #3
	b.ne	32f
18:
	mov	x28, xzr
	mov	x27, xzr
	mov	x2, xzr
	vj_page	x1, .L1_a64_static.1
	vj_address	x1, x1, .L1_a64_static.1
	sub	x0, x29, #17
19:
	vj_c_call	memcpy
20:
	ldrb	w8, [x21, #209]
	stp	x28, x27, [x29, #-104]
	and	w8, w26, w8
	cmp	w8, #1
	b.ne	21f
	ldrb	w8, [x21, #208]
	cmp	w8, #3
	b.ne	27f
21:
	ldp	x21, x23, [x29, #-112]
	sub	x8, x29, #17
	ldp	x24, x22, [x22, #32]
	ldur	x26, [x29, #-96]
	stp	xzr, xzr, [sp, #144]
	str	x8, [sp, #136]
	cbz	x23, 26f
	vj_page	x2, .L1_a64_static.190
	vj_address	x2, x2, .L1_a64_static.190
	mov	x0, x24
	mov	x1, x22
	bl	core..slice..reads..slice.T..contains..i8.31.core..cmp..numbers..U8PartialEq_1_a64
	cbnz	w0, 33f
	cbnz	x22, 38f
	mov	x27, xzr
	mov	x8, xzr
	sub	x9, x29, #17
	add	x0, x9, xzr
	add	x28, xzr, x22
	sub	x10, x0, x24
	cmp	x10, x22
	b.hs	39f
22:
	cmp	x22, #8
	b.lo	23f
	add	x10, x8, x9
	sub	x10, x10, x24
	cmp	x10, #32
	b.hs	31f
23:
	mov	x10, xzr
24:
	add	x11, x10, x8
	sub	x8, x22, x10
	add	x10, x24, x10
	add	x9, x9, x11
25:
	ldrb	w11, [x10], #1
	subs	x8, x8, #1
	strb	w11, [x9], #1
	b.ne	25b
	b	40f
26:
	mov	w20, wzr
	mov	w22, #1
	cbnz	x26, 50f
	b	51f
27:
	vj_page	x1, .L1_a64_static.184
	vj_address	x1, x1, .L1_a64_static.184
	sub	x0, x29, #112
	mov	x2, x23
	mov	x3, x24
	bl	b2sum_commands..check..push_digest_1_a64
	and	w8, w0, #0xff
	tbnz	w8, #0, 28f
	vj_page	x1, .L1_a64_static.185
	vj_address	x1, x1, .L1_a64_static.185
	sub	x0, x29, #112
	add	x2, sp, #64
	mov	x3, x24
	bl	b2sum_commands..check..push_digest_1_a64
	and	w8, w0, #0xff
	tbz	w8, #0, 21b
28:
	ldur	x8, [x29, #-96]
	cbz	x8, 30f
29:
	ldur	x0, [x29, #-112]
	vj_call	rattle_dealloc
30:
	mov	w20, wzr
	b	52f
31:
	cmp	x22, #32
	b.hs	34f
	mov	x10, xzr
	b	36f
32:
	vj_page	x8, .L1_a64_static.187
	vj_address	x8, x8, .L1_a64_static.187
	str	wzr, [sp, #4]
	str	x8, [sp, #8]
	mov	w1, #22
	b	62f
33:
	add	x0, sp, #136
	mov	w1, #1
	bl	std_alloc..vec..Vec..grow_amortized..01eec35b572d02af_1_a64
	cbz	w0, 75f
	ldp	x8, x9, [sp, #136]
	add	x0, sp, #136
	mov	x1, x24
	mov	x2, x22
	mov	w11, #92
	add	x10, x9, #1
	strb	w11, [x8, x9]
	str	x10, [sp, #144]
	bl	b2sum_lines..names..push_escaped_1_a64
	ldr	x27, [sp, #152]
	and	w8, w0, #0xff
	tbz	w8, #0, 65f
	cbnz	x27, 76f
	b	77f
34:
	add	x13, x8, x9
	and	x11, x22, #0x18
	and	x10, x22, #0xffffffffffffffe0
	add	x12, x24, #16
	add	x13, x13, #16
	and	x14, x22, #0xffffffffffffffe0
35:
	ldp	q0, q1, [x12, #-16]
	subs	x14, x14, #32
	add	x12, x12, #32
	stp	q0, q1, [x13, #-16]
	add	x13, x13, #32
	b.ne	35b
	cmp	x22, x10
	b.eq	40f
	cbz	x11, 24b
36:
	mov	x12, x10
	and	x10, x22, #0xfffffffffffffff8
	add	x13, x8, x12
	sub	x11, x12, x10
	add	x12, x24, x12
	add	x13, x9, x13
37:
	ldr	d0, [x12], #8
	adds	x11, x11, #8
	str	d0, [x13], #8
	b.ne	37b
	cmp	x22, x10
	b.eq	40f
	b	24b
38:
	add	x0, sp, #136
	mov	x1, x22
	bl	std_alloc..vec..Vec..grow_amortized..01eec35b572d02af_1_a64
	cbz	w0, 75f
	ldp	x8, x27, [sp, #144]
	ldr	x9, [sp, #136]
	add	x0, x9, x8
	add	x28, x8, x22
	sub	x10, x0, x24
	cmp	x10, x22
	b.lo	22b
39:
	mov	x1, x24
	mov	x2, x22
	vj_c_call	memmove
40:
	stp	x28, x27, [sp, #144]
	sub	x8, x27, x28
	cmp	x23, x8
	b.hi	66f
41:
	ldr	x22, [sp, #136]
	add	x8, x22, x28
	sub	x8, x8, x21
	cmp	x8, x23
	b.hs	67f
42:
	cmp	x23, #8
	b.lo	43f
	add	x8, x28, x22
	sub	x8, x8, x21
	cmp	x8, #32
	b.hs	55f
43:
	mov	x8, xzr
44:
	add	x10, x8, x28
	sub	x9, x23, x8
	add	x8, x21, x8
	add	x10, x22, x10
45:
	ldrb	w11, [x8], #1
	subs	x9, x9, #1
	strb	w11, [x10], #1
	b.ne	45b
46:
	ldrb	w8, [x20, #128]
	cmp	w8, #1
	b.ne	68f
47:
	cbz	x27, 49f
48:
	mov	x0, x22
	vj_call	rattle_dealloc
49:
	mov	w22, wzr
	mov	w20, #1
	cbz	x26, 51f
50:
	mov	x0, x21
	vj_call	rattle_dealloc
51:
	tbz	w22, #0, 52f
	ldp	q0, q1, [sp, #16]
	ldr	x8, [sp, #48]
	strh	wzr, [x19]
	str	x25, [x19, #8]
	stp	q0, q1, [x19, #16]
	str	x8, [x19, #48]
	b	54f
52:
	mov	w8, #1
	movi	v0.2d, #0000000000000000
	strb	w20, [x19, #1]
53:
	strb	w8, [x19]
	stur	q0, [x19, #8]
	stur	q0, [x19, #24]
	stur	q0, [x19, #40]
54:
	ldp	x20, x19, [sp, #432]
	ldp	x22, x21, [sp, #416]
	ldp	x24, x23, [sp, #400]
	ldp	x26, x25, [sp, #384]
	ldp	x28, x27, [sp, #368]
	ldp	x29, x30, [sp, #352]
	add	sp, sp, #448
	ret
55:
	cmp	x23, #32
	b.hs	56f
	mov	x8, xzr
	b	58f
56:
	add	x11, x28, x22
	and	x9, x23, #0x18
	and	x8, x23, #0xffffffffffffffe0
	add	x10, x21, #16
	add	x11, x11, #16
	and	x12, x23, #0xffffffffffffffe0
57:
	ldp	q0, q1, [x10, #-16]
	subs	x12, x12, #32
	add	x10, x10, #32
	stp	q0, q1, [x11, #-16]
	add	x11, x11, #32
	b.ne	57b
	cmp	x23, x8
	b.eq	46b
	cbz	x9, 44b
58:
	mov	x10, x8
	and	x8, x23, #0xfffffffffffffff8
	add	x11, x28, x10
	sub	x9, x10, x8
	add	x10, x21, x10
	add	x11, x22, x11
59:
	ldr	d0, [x10], #8
	adds	x9, x9, #8
	str	d0, [x11], #8
	b.ne	59b
	cmp	x23, x8
	b.eq	46b
	b	44b
60:
	vj_page	x8, .L1_a64_static.186
	vj_address	x8, x8, .L1_a64_static.186
	mov	w1, #5
61:
	str	x8, [sp, #8]
	mov	w8, #1
	str	w8, [sp, #4]
62:
	sub	x0, x29, #112
	mov	x28, x1
	bl	std_alloc..vec..Vec..grow_amortized..01eec35b572d02af_1_a64
	ldur	x27, [x29, #-96]
	cbz	w0, 63f
	ldp	x8, x9, [x29, #-112]
	sub	x10, x29, #112
	ldr	x1, [sp, #8]
	mov	x2, x28
	stp	xzr, xzr, [x10, #8]
	add	x0, x8, x9
	sub	x11, x0, x1
	cmp	x11, x28
	add	x28, x9, x28
	b.hs	19b
	add	x10, x9, x8
	sub	x10, x10, x1
	cmp	x10, #16
	b.hs	64f
	mov	x10, xzr
	b	82f
63:
	cbnz	x27, 29b
	b	30b
64:
	ldr	w10, [sp, #4]
	tbz	w10, #0, 78f
	mov	x10, xzr
	b	80f
65:
	ldr	x28, [sp, #144]
	sub	x8, x27, x28
	cmp	x23, x8
	b.ls	41b
66:
	add	x0, sp, #136
	mov	x1, x23
	bl	std_alloc..vec..Vec..grow_amortized..01eec35b572d02af_1_a64
	cbz	w0, 75f
	ldp	x28, x27, [sp, #144]
	ldr	x22, [sp, #136]
	add	x8, x22, x28
	sub	x8, x8, x21
	cmp	x8, x23
	b.lo	42b
67:
	add	x0, x22, x28
	mov	x1, x21
	mov	x2, x23
	vj_c_call	memmove
	ldrb	w8, [x20, #128]
	cmp	w8, #1
	b.eq	47b
68:
	str	x21, [sp, #8]
	mov	x21, x25
	mov	x25, x26
	add	x24, x28, x23
	cbz	x24, 70f
	mov	x28, xzr
	sub	x23, x29, #112
69:
	add	x1, x22, x28
	sub	x2, x24, x28
	mov	w0, #1
	sub	x26, x24, x28
	vj_system_call	write, b2_write
	tbnz	x0, #63, 72f
	cmp	x0, x26
	csel	x8, x0, x26, lo
	cbz	x8, 73f
	add	x28, x8, x28
	cmp	x28, x24
	b.lo	69b
70:
	cbz	x27, 71f
	mov	x0, x22
	vj_call	rattle_dealloc
71:
	mov	x26, x25
	mov	x25, x21
	ldr	x21, [sp, #8]
	mov	w20, wzr
	mov	w22, #1
	cbnz	x26, 50b
	b	51b
72:
	sub	x0, x29, #112
	bl	std_io..io..error..last_error_1_a64
	ldur	q0, [x23, #8]
	ldur	q1, [x23, #72]
	mov	w8, #1
	ldur	q2, [x23, #56]
	ldur	q3, [x23, #24]
	ldur	q4, [x23, #40]
	ldur	x9, [x29, #-112]
	str	q1, [x20, #208]
	stp	q0, q3, [sp, #160]
	stp	q2, q1, [sp, #208]
	str	q4, [sp, #192]
	stp	x8, x9, [x20, #128]
	stp	q0, q3, [x20, #144]
	stp	q4, q2, [x20, #176]
	b	74f
73:
	movi	v0.2d, #0000000000000000
	mov	w8, #1
	mov	w9, #5889
	str	x8, [x20, #128]
	strh	w9, [x20, #136]
	stur	q0, [x20, #138]
	stur	q0, [x20, #154]
	stur	q0, [x20, #170]
	stur	q0, [x20, #186]
	stur	q0, [x20, #202]
	str	xzr, [x20, #216]
74:
	mov	x26, x25
	mov	x25, x21
	ldr	x21, [sp, #8]
	cbnz	x27, 48b
	b	49b
75:
	ldr	x8, [sp, #152]
	cbz	x8, 77f
76:
	ldr	x0, [sp, #136]
	vj_call	rattle_dealloc
77:
	mov	w20, wzr
	mov	w22, wzr
	cbnz	x26, 50b
	b	51b
78:
	and	x11, x2, #0xc
	and	x10, x2, #0x10
	mov	x12, x1
	and	x13, x2, #0x10
79:
	ldr	q0, [x12], #16
	subs	x13, x13, #16
	str	q0, [x0], #16
	b.ne	79b
	cmp	x2, x10
	b.eq	20b
	cbz	x11, 82f
80:
	mov	x12, x10
	and	x10, x2, #0x1c
	add	x13, x12, x9
	sub	x11, x12, x10
	add	x12, x1, x12
	add	x13, x8, x13
81:
	ldr	w14, [x12], #4
	adds	x11, x11, #4
	str	w14, [x13], #4
	b.ne	81b
	cmp	x2, x10
	b.eq	20b
82:
	add	x11, x10, x9
	sub	x9, x2, x10
	add	x10, x1, x10
	add	x8, x8, x11
83:
	ldrb	w11, [x10], #1
	subs	x9, x9, #1
	strb	w11, [x8], #1
	b.ne	83b
	b	20b
	vj_end	b2sum_commands..check..check_entry..82a450bcca081e63_1_a64

	vj_constants	16
	.p2align	4, 0x0
.L1_a64_CPI56_0:
	.byte	0
	.byte	1
	.byte	2
	.byte	3
	.byte	4
	.byte	5
	.byte	6
	.byte	7
	.byte	8
	.byte	9
	.byte	10
	.byte	11
	.byte	12
	.byte	13
	.byte	14
	.byte	15
.L1_a64_CPI56_1:
	.byte	16
	.byte	17
	.byte	18
	.byte	19
	.byte	20
	.byte	21
	.byte	22
	.byte	23
	.byte	24
	.byte	25
	.byte	26
	.byte	27
	.byte	28
	.byte	29
	.byte	30
	.byte	31
	vj_constants	8
	.p2align	3, 0x0
.L1_a64_CPI56_2:
	.byte	32
	.byte	33
	.byte	34
	.byte	35
	.byte	36
	.byte	37
	.byte	38
	.byte	39
	vj_function	b2sum_commands..sums..digest_file..82a450bcca081e63_1_a64
	stp	x29, x30, [sp, #-96]!
	stp	x28, x27, [sp, #16]
	mov	x29, sp
	stp	x26, x25, [sp, #32]
	stp	x24, x23, [sp, #48]
	stp	x22, x21, [sp, #64]
	stp	x20, x19, [sp, #80]
	sub	sp, sp, #752
	movi	v0.2d, #0000000000000000
	ldrb	w8, [x6]
	ldr	w9, [x6, #4]
	ldr	x25, [x6, #8]
	mov	x23, x7
	mov	x22, x5
	mov	x19, x4
	mov	x21, x2
	mov	x24, x1
	mov	x20, x0
	and	w10, w8, #0xff
	cmp	x5, #1
	stp	w10, w9, [x29, #-64]
	stur	x25, [x29, #-56]
	stp	q0, q0, [sp, #208]
	stp	q0, q0, [sp, #240]
	stp	q0, q0, [sp, #272]
	stp	q0, q0, [sp, #320]
	stp	q0, q0, [sp, #352]
	stp	q0, q0, [sp, #384]
	stp	q0, q0, [sp, #416]
	stp	q0, q0, [sp, #464]
	stp	q0, q0, [sp, #496]
	stp	q0, q0, [sp, #528]
	str	xzr, [sp, #448]
	str	xzr, [sp, #304]
	stp	q0, q0, [sp, #128]
	stp	q0, q0, [sp, #160]
	str	q0, [sp, #192]
	b.ne	1f
	ldrb	w9, [x19]
	cmp	w9, #45
	b.ne	1f
	ldp	x4, x5, [x21, #320]
	add	x0, sp, #464
	sub	x2, x29, #64
	mov	x1, x24
	mov	x3, x21
	mov	x6, x23
	add	x22, sp, #464
	bl	b2sum_commands..sums..digest_open..88d5947bde654d8d_1_a64
	ldrb	w8, [sp, #464]
	cmp	w8, #1
	b.ne	26f
	orr	x1, x22, #0x8
	add	x2, x21, #224
	mov	x0, x20
	mov	x3, x19
	mov	w4, #1
	b	15f
1:
	ldp	x9, x10, [x3, #24]
	cmp	x10, x9
	b.lo	13f
	ldr	x27, [x3, #8]
	cbz	x27, 13f
	ldr	x26, [x3]
	cmp	x22, #3
	b.hi	12f
	cbnz	x22, 8f
	and	w9, w8, #0xff
	cmp	w9, #1
	b.eq	3f
	tst	w8, #0xff
	b.ne	13f
	b	5f
2:
	subs	x27, x27, #1
	add	x26, x26, #104
	b.eq	13f
3:
	ldr	x8, [x26, #32]
	cmp	x8, x25
	b.ne	2b
	ldrb	w8, [x26, #24]
	cmp	w8, #1
	b.ne	2b
	ldr	x8, [x26, #8]
	cbnz	x8, 2b
	b	20f
4:
	subs	x27, x27, #1
	add	x26, x26, #104
	b.eq	13f
5:
	ldr	x8, [x26, #32]
	cmp	x8, x25
	b.ne	4b
	ldrb	w8, [x26, #24]
	cbnz	w8, 4b
	ldr	x8, [x26, #8]
	cbnz	x8, 4b
	b	20f
6:
	tst	w8, #0xff
	b.eq	9f
7:
	subs	x27, x27, #1
	add	x26, x26, #104
	b.eq	13f
8:
	ldr	x9, [x26, #32]
	cmp	x9, x25
	b.ne	7b
	ldrb	w9, [x26, #24]
	sub	w10, w9, #2
	cmp	w10, #3
	b.lo	7b
	cbz	w9, 6b
	and	w9, w8, #0xff
	cmp	w9, #1
	b.ne	7b
9:
	ldr	x9, [x26, #8]
	cmp	x9, x22
	b.ne	7b
	ldr	x9, [x26]
	ldrb	w11, [x19]
	ldrb	w10, [x9]
	cmp	w10, w11
	b.ne	10f
	cmp	x22, #1
	b.eq	20f
	ldrb	w10, [x9, #1]
	ldrb	w11, [x19, #1]
	cmp	w10, w11
	b.ne	11f
	cmp	x22, #2
	b.eq	20f
	ldrb	w9, [x9, #2]
	ldrb	w10, [x19, #2]
	cmp	w9, w10
	b.eq	20f
	mov	w9, #2
	cmp	x9, x22
	b.lo	7b
	b	20f
10:
	cmp	xzr, x22
	b.lo	7b
	b	20f
11:
	mov	w9, #1
	cmp	x9, x22
	b.lo	7b
	b	20f
12:
	and	w9, w8, #0xff
	cmp	w9, #1
	b.eq	17f
	tst	w8, #0xff
	b.eq	19f
13:
	add	x0, sp, #320
	mov	x1, x19
	mov	x2, x22
	add	x25, sp, #320
	bl	b2sum..disk..SystemDisk..open..997c1e2eeb9618f7_1_a64
	ldrb	w8, [sp, #320]
	cbz	w8, 21f
	ldrb	w10, [x24, #207]
	ldrb	w9, [sp, #328]
	ldrb	w8, [sp, #329]
	cmp	w10, #1
	b.ne	14f
	vj_page	x10, .L1_a64_CPI56_0
	vj_page	x11, .L1_a64_CPI56_1
	cmp	w8, #41
	vj_load	q0, x10, .L1_a64_CPI56_0
	vj_page	x10, .L1_a64_CPI56_2
	vj_load	q1, x11, .L1_a64_CPI56_1
	vj_load	d2, x10, .L1_a64_CPI56_2
	mov	w10, #40
	stp	q0, q1, [x29, #-48]
	stur	d2, [x29, #-16]
	sturb	w10, [x29, #-8]
	b.hs	14f
	sub	x10, x29, #48
	ldrb	w10, [x10, x8]
	cbz	w10, 28f
14:
	mov	w10, #10
	add	x11, sp, #224
	strb	w9, [sp, #224]
	orr	x10, x25, x10
	strb	w8, [sp, #225]
	add	x1, sp, #224
	ldp	q0, q1, [x10, #32]
	ldur	x9, [x10, #78]
	add	x2, x21, #224
	mov	x0, x20
	mov	x3, x19
	mov	x4, x22
	stur	q0, [x11, #34]
	ldr	q0, [x10, #64]
	stur	q1, [x11, #50]
	stur	q0, [x11, #66]
	ldp	q1, q0, [x10]
	str	x9, [sp, #304]
	stur	q1, [x11, #2]
	stur	q0, [x11, #18]
15:
	bl	b2sum_commands..messages..warn_of_file..fab5d8e6f6068f4d_1_a64
	and	w0, w0, #0xff
	lsl	w8, w0, #1
	eor	w1, w8, #0x2
	b	29f
16:
	subs	x27, x27, #1
	add	x26, x26, #104
	b.eq	13b
17:
	ldr	x8, [x26, #32]
	cmp	x8, x25
	b.ne	16b
	ldrb	w8, [x26, #24]
	cmp	w8, #1
	b.ne	16b
	ldr	x8, [x26, #8]
	cmp	x8, x22
	b.ne	16b
	ldr	x0, [x26]
	ldr	w9, [x19]
	ldr	w8, [x0]
	cmp	w8, w9
	b.ne	16b
	mov	x1, x22
	mov	x2, x19
	bl	core..cmp..slices..groups_equal..i8.31.core..cmp..numbers..U8PartialEq_1_a64
	tbz	w0, #0, 16b
	b	20f
18:
	subs	x27, x27, #1
	add	x26, x26, #104
	b.eq	13b
19:
	ldr	x8, [x26, #32]
	cmp	x8, x25
	b.ne	18b
	ldrb	w8, [x26, #24]
	cbnz	w8, 18b
	ldr	x8, [x26, #8]
	cmp	x8, x22
	b.ne	18b
	ldr	x0, [x26]
	ldr	w9, [x19]
	ldr	w8, [x0]
	cmp	w8, w9
	b.ne	18b
	mov	x1, x22
	mov	x2, x19
	bl	core..cmp..slices..groups_equal..i8.31.core..cmp..numbers..U8PartialEq_1_a64
	tbz	w0, #0, 18b
20:
	ldur	q0, [x26, #88]
	ldur	q1, [x26, #72]
	mov	w1, wzr
	ldur	q2, [x26, #40]
	ldur	q3, [x26, #56]
	mov	w0, wzr
	stp	q1, q0, [x23, #32]
	stp	q2, q3, [x23]
	b	29f
21:
	orr	x8, x25, #0x8
	ldp	x4, x5, [x21, #320]
	ldp	q0, q1, [x8, #64]
	add	x0, sp, #128
	sub	x2, x29, #64
	sub	x3, x29, #192
	mov	x1, x24
	mov	x6, x23
	add	x23, sp, #128
	stp	q0, q1, [x29, #-128]
	ldp	q0, q2, [x8, #96]
	stp	q0, q2, [x29, #-96]
	ldp	q1, q0, [x8]
	stp	q1, q0, [x29, #-192]
	ldp	q2, q0, [x8, #32]
	stp	q2, q0, [x29, #-160]
	bl	b2sum_commands..sums..digest_open..88d5947bde654d8d_1_a64
	ldrb	w8, [sp, #128]
	cmp	w8, #1
	b.ne	24f
	orr	x1, x23, #0x8
	add	x2, x21, #224
	mov	x0, x20
	mov	x3, x19
	mov	x4, x22
	bl	b2sum_commands..messages..warn_of_file..fab5d8e6f6068f4d_1_a64
	and	w8, w0, #0xff
	tbz	w8, #0, 27f
	ldurb	w8, [x29, #-192]
	ldur	x19, [x29, #-184]
	ldur	x20, [x29, #-168]
	cbnz	w8, 22f
	ldur	w0, [x29, #-188]
	vj_call	b2sum_close
22:
	cbz	x20, 23f
	mov	x0, x19
	vj_call	rattle_dealloc
23:
	mov	w1, wzr
	mov	w0, #1
	b	29f
24:
	ldurb	w8, [x29, #-192]
	ldur	x19, [x29, #-184]
	ldur	x20, [x29, #-168]
	cbnz	w8, 25f
	ldur	w0, [x29, #-188]
	vj_call	b2sum_close
25:
	cbz	x20, 26f
	mov	x0, x19
	vj_call	rattle_dealloc
26:
	mov	w1, wzr
	mov	w0, wzr
	b	29f
27:
	ldp	q0, q1, [x29, #-128]
	mov	x0, sp
	stp	q0, q1, [sp, #64]
	ldp	q0, q2, [x29, #-96]
	stp	q0, q2, [sp, #96]
	ldp	q1, q0, [x29, #-192]
	stp	q1, q0, [sp]
	ldp	q2, q0, [x29, #-160]
	stp	q2, q0, [sp, #32]
	bl	b2sum..b2sum.disk.Opened.Destruct..drop..635567e538566947_1_a64
	mov	w0, wzr
	mov	w1, #2
	b	29f
28:
	mov	w0, wzr
	mov	w1, #1
29:
	add	sp, sp, #752
	ldp	x20, x19, [sp, #80]
	ldp	x22, x21, [sp, #64]
	ldp	x24, x23, [sp, #48]
	ldp	x26, x25, [sp, #32]
	ldp	x28, x27, [sp, #16]
	ldp	x29, x30, [sp], #96
	ret
	vj_end	b2sum_commands..sums..digest_file..82a450bcca081e63_1_a64

	vj_constants	16
	.p2align	4, 0x0
.L1_a64_CPI57_0:
	.short	64
	.short	512
	.zero	2
	.zero	2
	.zero	2
	.zero	2
	.zero	2
	.zero	2
.L1_a64_CPI57_1:
	.quad	7640891576956012808
	.quad	-4942790177534073029
.L1_a64_CPI57_2:
	.quad	4354685564936828971
	.quad	-6534734903238641935
.L1_a64_CPI57_3:
	.quad	2270897969802886507
	.quad	6620516959819538809
.L1_a64_CPI57_4:
	.quad	5840696475078001361
	.quad	-7276294671716946913
.L1_a64_CPI57_5:
	.quad	4354685564936828970
	.quad	-6534734903238641935
	vj_function	b2sum_commands..sums..digest_open..88d5947bde654d8d_1_a64
	stp	x29, x30, [sp, #-96]!
	sub	x9, sp, #3040
	stp	x28, x27, [sp, #16]
	mov	x29, sp
	stp	x26, x25, [sp, #32]
	stp	x24, x23, [sp, #48]
	stp	x22, x21, [sp, #64]
	stp	x20, x19, [sp, #80]
	and	sp, x9, #0xffffffffffffffe0
	str	xzr, [sp]
	movi	v0.2d, #0000000000000000
	mov	x20, x3
	ldrb	w9, [x3, #32]
	ldrb	w8, [x2]
	ldr	w24, [x2, #4]
	ldr	x22, [x2, #8]
	mov	x19, x0
	cmp	w9, #1
	stp	q0, q0, [sp, #176]
	stp	q0, q0, [sp, #208]
	str	q0, [sp, #240]
	stur	xzr, [sp, #254]
	b.ne	1f
	ldur	q0, [x20, #106]
	ldr	x8, [x20, #120]
	ldur	q1, [x20, #74]
	ldur	q2, [x20, #42]
	ldur	q3, [x20, #58]
	ldrh	w9, [x20, #40]
	str	q0, [sp, #240]
	ldur	q0, [x20, #90]
	stur	x8, [sp, #254]
	mov	w8, #1
	stp	q1, q0, [sp, #208]
	strb	w8, [x19]
	ldur	x8, [sp, #254]
	stur	q0, [x19, #58]
	ldr	q0, [sp, #240]
	stp	q2, q3, [sp, #176]
	strh	w9, [x19, #8]
	stur	q1, [x19, #42]
	stur	q2, [x19, #10]
	stur	q3, [x19, #26]
	stur	q0, [x19, #74]
	str	x8, [x19, #88]
	b	34f
1:
	ldp	x9, x21, [x1, #24]
	mov	x23, x4
	ldp	x28, x26, [x1, #96]
	cmp	w8, #1
	ldp	x27, x25, [x1, #120]
	stp	x6, x5, [sp, #160]
	stp	x22, x9, [sp, #264]
	stp	x21, x28, [sp, #280]
	stp	x26, x27, [sp, #296]
	str	x25, [sp, #312]
	b.le	4f
	cmp	w8, #2
	b.eq	6f
	cmp	w8, #3
	b.ne	9f
	add	x0, sp, #320
	mov	w1, wzr
	mov	w2, #1600
	vj_c_call	memset
	add	x0, sp, #320
	add	x1, sp, #264
	bl	b2sum..hashes..init_state..c5fd3bf45536a406_1_a64
	cbz	w0, 13f
	cbz	x21, 2f
	bl	blake2_digest..wiping..scrub_stack..4096_1_a64
2:
	ldr	x24, [sp, #168]
	ldr	x21, [sp, #576]
	mov	x0, x20
	ldr	x22, [sp, #584]
	mov	x1, x23
	mov	x2, x24
	bl	b2sum..disk..OpenedOpenFile..read..ec2583f154d97a77_1_a64
	tst	w0, #0xff
	b.ne	13f
	add	x8, x22, x21, lsl #3
	mov	x2, x1
	mvn	x21, x8
3:
	cbz	x2, 29f
	subs	x21, x21, x2
	b.lo	13f
	add	x0, sp, #320
	mov	x1, x23
	vj_call	blake2_parallel..lanes..blake2sp..Lanes..update_1_arm
	mov	x0, x20
	mov	x1, x23
	mov	x2, x24
	bl	b2sum..disk..OpenedOpenFile..read..ec2583f154d97a77_1_a64
	tst	w0, #0xff
	mov	x2, x1
	b.eq	3b
	b	13f
4:
	cbnz	w8, 11f
	add	x0, sp, #320
	add	x1, sp, #264
	str	xzr, [sp, #656]
	stp	q0, q0, [sp, #336]
	stp	q0, q0, [sp, #368]
	stp	q0, q0, [sp, #400]
	stp	q0, q0, [sp, #432]
	stp	q0, q0, [sp, #464]
	stp	q0, q0, [sp, #496]
	stp	q0, q0, [sp, #528]
	stp	q0, q0, [sp, #560]
	stp	q0, q0, [sp, #592]
	stp	q0, q0, [sp, #624]
	str	q0, [sp, #320]
	bl	b2sum..hashes..init_state..a920819b086c025a_1_a64
	ldr	x24, [sp, #168]
	cbz	w0, 13f
	cbz	x21, 5f
	bl	blake2_digest..wiping..scrub_stack..4096_1_a64
5:
	ldr	x21, [sp, #448]
	ldr	w22, [sp, #456]
	mov	x0, x20
	mov	x1, x23
	mov	x2, x24
	bl	b2sum..disk..OpenedOpenFile..read..ec2583f154d97a77_1_a64
	tst	w0, #0xff
	b.ne	13f
	add	x8, x21, x22
	add	x9, sp, #320
	mov	x2, x1
	mvn	x21, x8
	add	x22, x9, #152
	b	20f
6:
	add	x0, sp, #320
	mov	w1, wzr
	mov	w2, #1632
	vj_c_call	memset
	add	x0, sp, #320
	add	x1, sp, #264
	bl	b2sum..hashes..init_state..782804cb012a25f7_1_a64
	cbz	w0, 13f
	cbz	x21, 7f
	bl	blake2_digest..wiping..scrub_stack..4096_1_a64
7:
	ldr	x24, [sp, #168]
	ldr	x21, [sp, #576]
	mov	x0, x20
	ldr	x22, [sp, #584]
	mov	x1, x23
	mov	x2, x24
	bl	b2sum..disk..OpenedOpenFile..read..ec2583f154d97a77_1_a64
	tst	w0, #0xff
	b.ne	13f
	add	x8, x22, x21, lsl #2
	mov	x2, x1
	mvn	x21, x8
8:
	cbz	x2, 28f
	subs	x21, x21, x2
	b.lo	13f
	add	x0, sp, #320
	mov	x1, x23
	vj_call	blake2_parallel..lanes..blake2bp..Lanes..update_1_arm
	mov	x0, x20
	mov	x1, x23
	mov	x2, x24
	bl	b2sum..disk..OpenedOpenFile..read..ec2583f154d97a77_1_a64
	tst	w0, #0xff
	mov	x2, x1
	b.eq	8b
	b	13f
9:
	ldr	w8, [x1, #212]
	add	x0, sp, #320
	mov	w1, wzr
	mov	w2, #752
	str	w8, [sp, #156]
	vj_c_call	memset
	mov	w21, #1
	cbz	w24, 14f
	sub	x8, x22, #1
	cmp	x8, #63
	b.hi	14f
	cmp	x26, #16
	b.hi	14f
	cmp	x25, #16
	b.hi	14f
	add	x0, sp, #2176
	mov	x1, x28
	mov	x2, x26
	str	xzr, [sp, #2184]
	add	x21, sp, #2592
	str	xzr, [sp, #2176]
	vj_c_call	memcpy
	add	x0, sp, #2016
	mov	x1, x27
	mov	x2, x25
	str	xzr, [sp, #2024]
	str	xzr, [sp, #2016]
	vj_c_call	memcpy
	vj_page	x8, .L1_a64_CPI57_0
	ldr	q0, [sp, #2176]
	ldr	q2, [sp, #2016]
	vj_load	q1, x8, .L1_a64_CPI57_0
	add	x0, sp, #2240
	add	x1, sp, #2592
	str	q0, [sp, #2592]
	movi	v0.2d, #0000000000000000
	mov	x2, x26
	mov	v1.s[1], w24
	stur	q2, [x21, #24]
	add	x21, sp, #2240
	str	x26, [sp, #2608]
	str	x25, [sp, #2632]
	str	w24, [sp, #2640]
	mov	v0.d[0], v1.d[0]
	str	wzr, [sp, #2644]
	str	q0, [sp, #128]
	movi	v0.2d, #0000000000000000
	str	q0, [sp, #2256]
	str	q0, [sp, #2240]
	vj_c_call	memcpy
	add	x8, sp, #2592
	orr	x0, x21, #0x10
	mov	x2, x25
	add	x1, x8, #24
	add	x21, sp, #2592
	vj_c_call	memcpy
	orr	w8, w22, #0x2000000
	movi	v5.2d, #0000000000000000
	vj_page	x9, .L1_a64_CPI57_3
	fmov	s0, w8
	vj_load	q4, x9, .L1_a64_CPI57_3
	ldr	q2, [sp, #2256]
	vj_page	x8, .L1_a64_CPI57_1
	ldr	q1, [sp, #2240]
	ldr	q3, [sp, #128]
	vj_load	q6, x8, .L1_a64_CPI57_1
	vj_page	x8, .L1_a64_CPI57_4
	add	x0, sp, #2240
	mov	v0.s[1], w24
	vj_load	q7, x8, .L1_a64_CPI57_4
	vj_page	x8, .L1_a64_CPI57_2
	eor	v3.16b, v3.16b, v6.16b
	add	x1, sp, #2592
	mov	x2, x26
	stp	q4, q6, [sp, #96]
	mov	v5.d[0], v0.d[0]
	eor	v0.16b, v2.16b, v4.16b
	stp	q3, q7, [sp, #64]
	str	q0, [sp, #48]
	eor	v0.16b, v1.16b, v7.16b
	str	q5, [sp, #128]
	str	q0, [sp, #32]
	vj_load	q0, x8, .L1_a64_CPI57_2
	str	q0, [sp, #16]
	movi	v0.2d, #0000000000000000
	str	q0, [sp, #2256]
	str	q0, [sp, #2240]
	vj_c_call	memcpy
	add	x8, sp, #2240
	add	x1, x21, #24
	mov	x2, x25
	orr	x0, x8, #0x10
	vj_c_call	memcpy
	ldp	q2, q3, [sp, #112]
	vj_page	x8, .L1_a64_CPI57_5
	ldr	q1, [sp, #2240]
	ldr	q0, [sp, #2256]
	add	x0, sp, #2144
	mov	x1, x28
	mov	x2, x26
	str	xzr, [sp, #2152]
	eor	v2.16b, v3.16b, v2.16b
	str	xzr, [sp, #2144]
	str	q2, [sp, #128]
	ldr	q2, [sp, #80]
	eor	v1.16b, v1.16b, v2.16b
	str	q1, [sp, #112]
	ldr	q1, [sp, #96]
	eor	v0.16b, v0.16b, v1.16b
	str	q0, [sp, #96]
	vj_load	q0, x8, .L1_a64_CPI57_5
	add	x8, sp, #320
	add	x28, x8, #344
	str	q0, [sp, #80]
	vj_c_call	memcpy
	add	x0, sp, #2160
	mov	x1, x27
	mov	x2, x25
	str	xzr, [sp, #2168]
	str	xzr, [sp, #2160]
	vj_c_call	memcpy
	ldr	q0, [sp, #2144]
	ldr	q1, [sp, #2160]
	add	x27, sp, #320
	ldp	q3, q2, [sp, #16]
	add	x8, x27, #148
	str	q0, [sp, #1952]
	add	x9, sp, #320
	mov	w1, wzr
	str	q1, [sp, #1968]
	ldp	q1, q0, [sp, #48]
	str	w22, [sp, #808]
	add	x22, x9, #344
	stp	xzr, xzr, [sp, #448]
	stp	q0, q3, [sp, #320]
	stp	q2, q1, [sp, #352]
	stp	q0, q3, [sp, #384]
	movi	v0.2d, #0000000000000000
	stp	q2, q1, [sp, #416]
	ldp	q3, q4, [sp, #80]
	ldp	q2, q1, [sp, #112]
	str	wzr, [sp, #660]
	str	xzr, [sp, #800]
	stp	q0, q0, [x8, #128]
	stp	q0, q0, [x8, #160]
	str	q0, [x8, #112]
	mov	w8, #64
	str	w8, [sp, #464]
	add	x8, sp, #320
	stur	q0, [x8, #244]
	stur	q0, [x8, #228]
	stur	q0, [x8, #212]
	stur	q0, [x8, #196]
	stur	q0, [x8, #180]
	stur	q0, [x8, #164]
	stur	q0, [x8, #148]
	add	x8, x27, #492
	stp	q1, q3, [x28]
	stur	q0, [x8, #188]
	stp	q0, q0, [x8]
	stp	q0, q0, [x8, #32]
	stp	q0, q0, [x8, #64]
	stp	q0, q0, [x8, #96]
	stp	q0, q0, [x8, #128]
	stp	q0, q0, [x8, #160]
	ldr	q0, [sp, #1968]
	ldrb	w8, [x20]
	str	q1, [x22, #64]!
	ldr	q1, [sp, #1952]
	stp	q2, q4, [x28, #32]
	stp	q2, q4, [x28, #96]
	str	q3, [x28, #80]
	str	xzr, [sp, #792]
	str	x24, [sp, #1016]
	str	x26, [sp, #1024]
	str	x25, [sp, #1032]
	str	q0, [sp, #1056]
	str	q1, [sp, #1040]
	cbnz	w8, 10f
	ldr	w1, [x20, #4]
10:
	ldr	w2, [sp, #156]
	ldr	x5, [sp, #168]
	add	x3, sp, #320
	mov	x0, x20
	mov	x4, x23
	add	x23, sp, #320
	vj_call	b2sum..hashes..absorb_tree..5254a3ddd78d1e3f_1_a64
	mov	w21, #1
	cbz	w0, 14f
	ldp	q0, q1, [sp, #320]
	add	x9, x23, #152
	ldr	x8, [sp, #448]
	ldr	w10, [sp, #464]
	add	x11, sp, #320
	ldr	q4, [sp, #832]
	add	x0, sp, #2592
	add	x1, sp, #2016
	str	q0, [sp, #2592]
	ldp	q0, q2, [sp, #352]
	str	q1, [sp, #2608]
	str	x8, [sp, #2720]
	add	x8, sp, #2592
	str	q0, [sp, #2624]
	ldp	q1, q0, [x27, #64]
	str	q2, [sp, #2640]
	str	w10, [sp, #2736]
	add	x10, sp, #2592
	str	q0, [sp, #2672]
	ldp	q2, q0, [x27, #96]
	str	q1, [sp, #2656]
	ldur	q1, [x11, #200]
	str	w21, [sp, #2740]
	str	q0, [sp, #2704]
	ldr	d0, [sp, #456]
	str	q2, [sp, #2688]
	ldur	q2, [x11, #168]
	str	d0, [sp, #2728]
	ldr	q0, [x9, #112]
	add	x9, x8, #152
	stur	q2, [x10, #168]
	ldur	q2, [x11, #232]
	add	x8, x8, #280
	str	q0, [x9, #112]
	ldur	q0, [x11, #184]
	add	x9, x23, #280
	stur	q1, [x10, #200]
	ldur	q1, [x11, #152]
	stur	q0, [x10, #184]
	ldur	q0, [x11, #248]
	stur	q2, [x10, #232]
	stur	q0, [x10, #248]
	ldp	q2, q0, [x9, #32]
	stur	q1, [x10, #152]
	ldur	q1, [x11, #216]
	stur	q1, [x10, #216]
	add	x10, sp, #2240
	stp	q2, q0, [x8, #32]
	ldp	q1, q0, [x9]
	add	x11, x10, #152
	ldr	x9, [sp, #792]
	stp	q1, q0, [x8]
	ldp	q1, q0, [x28, #32]
	add	x8, sp, #2240
	str	x9, [sp, #2368]
	add	x9, x10, #280
	stur	q4, [x8, #168]
	movi	v4.2d, #0000000000000000
	str	q0, [sp, #2288]
	ldp	q2, q0, [x28]
	str	q1, [sp, #2272]
	str	q0, [sp, #2256]
	ldp	q1, q0, [x22, #32]
	str	q2, [sp, #2240]
	str	q4, [sp, #2064]
	str	q0, [sp, #2352]
	ldp	q2, q0, [x22]
	str	q1, [sp, #2336]
	ldp	q1, q3, [sp, #928]
	str	q4, [sp, #2048]
	str	q0, [sp, #2320]
	str	q2, [sp, #2304]
	ldp	q0, q2, [sp, #800]
	str	q1, [x11, #112]
	str	q4, [sp, #2032]
	stur	q0, [x8, #136]
	ldp	q1, q0, [sp, #848]
	stur	q2, [x8, #152]
	ldr	q2, [sp, #880]
	str	q4, [sp, #2016]
	stur	q0, [x8, #200]
	stur	q1, [x8, #184]
	ldp	q1, q0, [sp, #896]
	stur	q2, [x8, #216]
	ldr	q2, [sp, #960]
	stur	q0, [x8, #248]
	stur	q1, [x8, #232]
	ldp	q1, q0, [sp, #976]
	stp	q3, q2, [x9]
	stp	q1, q0, [x9, #32]
	bl	blake2_state..blake2b..State..write_digest_1_a64
	ldr	q0, [sp, #2016]
	ldr	q1, [sp, #2032]
	add	x0, sp, #2240
	ldr	q2, [sp, #2064]
	add	x1, sp, #2176
	mov	w2, #64
	str	q0, [sp, #2176]
	ldr	q0, [sp, #2048]
	str	q1, [sp, #2192]
	str	q0, [sp, #2208]
	str	q2, [sp, #2224]
	bl	blake2_state..blake2b..State..absorb_blocks_1_a64
	add	x0, sp, #2240
	str	w21, [sp, #2388]
	ldr	x1, [sp, #160]
	bl	blake2_state..blake2b..State..write_digest_1_a64
	b	33f
11:
	add	x0, sp, #320
	add	x1, sp, #264
	stp	q0, q0, [sp, #336]
	stp	q0, q0, [sp, #368]
	stp	q0, q0, [sp, #400]
	stp	q0, q0, [sp, #432]
	stp	q0, q0, [sp, #464]
	str	q0, [sp, #320]
	bl	b2sum..hashes..init_state..5100c9fa7e8d9213_1_a64
	ldr	x24, [sp, #168]
	cbz	w0, 13f
	cbz	x21, 12f
	bl	blake2_digest..wiping..scrub_stack..4096_1_a64
12:
	ldr	x21, [sp, #384]
	ldrh	w22, [sp, #392]
	mov	x0, x20
	mov	x1, x23
	mov	x2, x24
	bl	b2sum..disk..OpenedOpenFile..read..ec2583f154d97a77_1_a64
	tst	w0, #0xff
	b.eq	22f
13:
	mov	w21, #1
14:
	cbz	w21, 33f
	ldrb	w8, [x20, #32]
	cmp	w8, #1
	add	x8, sp, #2944
	b.ne	15f
	ldur	q0, [x20, #74]
	ldur	q1, [x20, #90]
	ldur	q2, [x20, #106]
	ldr	x9, [x20, #120]
	ldrb	w10, [x20, #40]
	str	q0, [sp, #2976]
	ldur	q0, [x20, #42]
	str	q1, [sp, #2992]
	ldur	q1, [x20, #58]
	str	q2, [sp, #3008]
	stur	x9, [x8, #78]
	ldrb	w9, [x20, #41]
	str	q0, [sp, #2944]
	str	q1, [sp, #2960]
	b	16f
15:
	movi	v0.2d, #0000000000000000
	mov	w9, #40
	mov	w10, #1
	stur	xzr, [x8, #78]
	str	q0, [sp, #3008]
	str	q0, [sp, #2992]
	str	q0, [sp, #2976]
	str	q0, [sp, #2960]
	str	q0, [sp, #2944]
16:
	ldr	q0, [sp, #2976]
	ldr	q1, [sp, #2992]
	mov	w11, #1
	ldur	x8, [x8, #78]
	strb	w11, [x19]
	stur	q0, [x19, #42]
	ldr	q0, [sp, #3008]
	stur	q1, [x19, #58]
	ldr	q1, [sp, #2944]
	stur	q0, [x19, #74]
	ldr	q0, [sp, #2960]
	stur	q1, [x19, #10]
	strb	w10, [x19, #8]
	strb	w9, [x19, #9]
	str	x8, [x19, #88]
	stur	q0, [x19, #26]
	b	34f
17:
	add	x0, sp, #320
	mov	x1, x23
18:
	bl	blake2_state..blake2b..State..absorb_blocks_1_a64
19:
	mov	x0, x20
	mov	x1, x23
	mov	x2, x24
	bl	b2sum..disk..OpenedOpenFile..read..ec2583f154d97a77_1_a64
	tst	w0, #0xff
	mov	x2, x1
	b.ne	13b
20:
	cbz	x2, 31f
	subs	x21, x21, x2
	b.lo	13b
	cmp	x2, #1
	b.ne	17b
	ldr	w8, [sp, #456]
	cmp	w8, #128
	b.hs	21f
	ldrb	w9, [x23]
	add	w10, w8, #1
	strb	w9, [x22, x8]
	str	w10, [sp, #456]
	b	19b
21:
	add	x0, sp, #320
	mov	x1, x23
	mov	w2, #1
	b	18b
22:
	add	x8, x21, x22
	add	x9, sp, #320
	mov	x2, x1
	mvn	x21, x8
	add	x22, x9, #80
	b	26f
23:
	add	x0, sp, #320
	mov	x1, x23
24:
	bl	blake2_state..blake2s..State..absorb_blocks_1_a64
25:
	mov	x0, x20
	mov	x1, x23
	mov	x2, x24
	bl	b2sum..disk..OpenedOpenFile..read..ec2583f154d97a77_1_a64
	tst	w0, #0xff
	mov	x2, x1
	b.ne	13b
26:
	cbz	x2, 32f
	subs	x21, x21, x2
	b.lo	13b
	cmp	x2, #1
	b.ne	23b
	ldrh	w8, [sp, #392]
	cmp	w8, #64
	b.hs	27f
	ldrb	w9, [x23]
	add	w10, w8, #1
	strb	w9, [x22, w8, uxtw]
	strh	w10, [sp, #392]
	b	25b
27:
	add	x0, sp, #320
	mov	x1, x23
	mov	w2, #1
	b	24b
28:
	movi	v0.2d, #0000000000000000
	add	x0, sp, #2240
	add	x1, sp, #320
	add	x21, sp, #320
	str	q0, [sp, #2000]
	str	q0, [sp, #1984]
	str	q0, [sp, #1968]
	str	q0, [sp, #1952]
	str	q0, [sp, #2480]
	str	q0, [sp, #2464]
	str	q0, [sp, #2448]
	str	q0, [sp, #2432]
	str	q0, [sp, #2416]
	str	q0, [sp, #2400]
	str	q0, [sp, #2384]
	str	q0, [sp, #2368]
	str	q0, [sp, #2352]
	str	q0, [sp, #2336]
	str	q0, [sp, #2320]
	str	q0, [sp, #2304]
	str	q0, [sp, #2288]
	str	q0, [sp, #2272]
	str	q0, [sp, #2256]
	str	q0, [sp, #2240]
	vj_call	blake2_parallel..lanes..blake2bp..Lanes..outputs_1_arm
	ldr	q0, [sp, #2432]
	ldr	q1, [sp, #2448]
	add	x8, x21, #1432
	ldr	q2, [sp, #2480]
	ldr	d3, [sp, #1776]
	add	x0, sp, #2176
	str	q0, [sp, #2784]
	ldr	q0, [sp, #2464]
	add	x1, sp, #2592
	str	q1, [sp, #2800]
	ldr	q1, [sp, #2368]
	mov	w2, #128
	str	q0, [sp, #2816]
	ldr	q0, [sp, #2384]
	mov	w3, wzr
	str	q2, [sp, #2832]
	ldr	q2, [sp, #2400]
	mov	w4, wzr
	str	q0, [sp, #2736]
	ldr	q0, [sp, #2416]
	str	q1, [sp, #2720]
	ldr	q1, [sp, #2304]
	str	q0, [sp, #2768]
	ldr	q0, [sp, #2320]
	str	q2, [sp, #2752]
	ldr	q2, [sp, #2336]
	str	q0, [sp, #2672]
	ldr	q0, [sp, #2352]
	str	q1, [sp, #2656]
	ldr	q1, [sp, #2240]
	str	q0, [sp, #2704]
	ldr	q0, [sp, #2256]
	str	q2, [sp, #2688]
	ldr	q2, [sp, #2272]
	str	q0, [sp, #2608]
	ldr	d0, [sp, #1744]
	str	q1, [sp, #2592]
	ldr	q1, [sp, #2288]
	ld1	{ v0.d }[1], [x8]
	add	x8, x21, #1464
	str	q2, [sp, #2624]
	ld1	{ v3.d }[1], [x8]
	ldr	q2, [sp, #1760]
	str	q1, [sp, #2640]
	ldr	q1, [sp, #1792]
	str	q2, [sp, #2192]
	str	q0, [sp, #2176]
	str	q1, [sp, #2224]
	str	q3, [sp, #2208]
	vj_call	blake2_compress..compress..blake2b..compress_1_arm
	ldr	q0, [sp, #2784]
	ldr	q1, [sp, #2800]
	add	x0, sp, #2176
	ldr	q2, [sp, #2832]
	add	x1, sp, #2016
	mov	w2, #256
	str	q0, [sp, #2080]
	ldr	q0, [sp, #2816]
	mov	w3, #1
	str	q1, [sp, #2096]
	ldr	q1, [sp, #2720]
	mov	w4, #1
	str	q0, [sp, #2112]
	ldr	q0, [sp, #2736]
	str	q2, [sp, #2128]
	ldr	q2, [sp, #2752]
	str	q0, [sp, #2032]
	ldr	q0, [sp, #2768]
	str	q1, [sp, #2016]
	str	q2, [sp, #2048]
	str	q0, [sp, #2064]
	vj_call	blake2_compress..compress..blake2b..compress_1_arm
	ldr	q0, [sp, #2176]
	ldr	q1, [sp, #2192]
	add	x1, sp, #1952
	ldr	q2, [sp, #2224]
	ldr	x2, [sp, #1816]
	str	q0, [sp, #1952]
	ldr	q0, [sp, #2208]
	str	q1, [sp, #1968]
	str	q0, [sp, #1984]
	str	q2, [sp, #2000]
	b	30f
29:
	movi	v0.2d, #0000000000000000
	add	x0, sp, #2240
	add	x1, sp, #320
	str	q0, [sp, #2480]
	str	q0, [sp, #2464]
	str	q0, [sp, #2448]
	str	q0, [sp, #2432]
	str	q0, [sp, #2416]
	str	q0, [sp, #2400]
	str	q0, [sp, #2384]
	str	q0, [sp, #2368]
	str	q0, [sp, #2352]
	str	q0, [sp, #2336]
	str	q0, [sp, #2320]
	str	q0, [sp, #2304]
	str	q0, [sp, #2288]
	str	q0, [sp, #2272]
	str	q0, [sp, #2256]
	str	q0, [sp, #2240]
	vj_call	blake2_parallel..lanes..blake2sp..Lanes..outputs_1_arm
	ldr	q0, [sp, #2432]
	ldr	q1, [sp, #2448]
	add	x0, sp, #2176
	ldr	q2, [sp, #2480]
	add	x1, sp, #2592
	mov	w2, #64
	str	q0, [sp, #2784]
	ldr	q0, [sp, #2464]
	mov	w3, wzr
	str	q1, [sp, #2800]
	ldr	q1, [sp, #2368]
	mov	w4, wzr
	str	q0, [sp, #2816]
	ldr	q0, [sp, #2384]
	add	x21, sp, #2592
	str	q2, [sp, #2832]
	ldr	q2, [sp, #2400]
	str	q0, [sp, #2736]
	ldr	q0, [sp, #2416]
	str	q1, [sp, #2720]
	ldr	q1, [sp, #2304]
	str	q0, [sp, #2768]
	ldr	q0, [sp, #2320]
	str	q2, [sp, #2752]
	ldr	q2, [sp, #2336]
	str	q0, [sp, #2672]
	ldr	q0, [sp, #2352]
	str	q1, [sp, #2656]
	ldr	q1, [sp, #2240]
	str	q0, [sp, #2704]
	ldr	q0, [sp, #2256]
	str	q2, [sp, #2688]
	ldr	q2, [sp, #2272]
	str	q0, [sp, #2608]
	ldr	q0, [sp, #2288]
	str	q1, [sp, #2592]
	ldr	q1, [sp, #1808]
	str	q0, [sp, #2640]
	ldr	q0, [sp, #1824]
	str	q2, [sp, #2624]
	str	q1, [sp, #2176]
	str	q0, [sp, #2192]
	vj_call	blake2_compress..compress..blake2s..compress_1_arm
	add	x0, sp, #2176
	add	x1, x21, #64
	mov	w2, #128
	mov	w3, wzr
	mov	w4, wzr
	vj_call	blake2_compress..compress..blake2s..compress_1_arm
	add	x0, sp, #2176
	add	x1, x21, #128
	mov	w2, #192
	mov	w3, wzr
	mov	w4, wzr
	vj_call	blake2_compress..compress..blake2s..compress_1_arm
	ldr	q0, [sp, #2784]
	ldr	q1, [sp, #2800]
	add	x0, sp, #2176
	ldr	q2, [sp, #2832]
	add	x1, sp, #2016
	mov	w2, #256
	str	q0, [sp, #2016]
	ldr	q0, [sp, #2816]
	mov	w3, #1
	mov	w4, #1
	str	q1, [sp, #2032]
	str	q0, [sp, #2048]
	str	q2, [sp, #2064]
	vj_call	blake2_compress..compress..blake2s..compress_1_arm
	ldr	q0, [sp, #2176]
	ldr	q1, [sp, #2192]
	add	x1, sp, #2592
	ldr	x2, [sp, #1848]
	str	q0, [sp, #2592]
	str	q1, [sp, #2608]
30:
	ldr	x0, [sp, #160]
	vj_c_call	memcpy
	b	33f
31:
	add	x0, sp, #320
	ldr	x1, [sp, #160]
	bl	blake2_state..blake2b..State..write_digest_1_a64
	b	33f
32:
	ldr	x1, [sp, #160]
	add	x0, sp, #320
	bl	b2sum..states..blake2s..StateHashState..write_digest_1_a64
33:
	ldp	q0, q1, [sp, #208]
	ldr	q2, [sp, #240]
	ldur	x8, [sp, #254]
	strb	wzr, [x19]
	strh	wzr, [x19, #8]
	stur	q0, [x19, #42]
	stur	q1, [x19, #58]
	ldp	q0, q1, [sp, #176]
	stur	q2, [x19, #74]
	str	x8, [x19, #88]
	stur	q0, [x19, #10]
	stur	q1, [x19, #26]
34:
	mov	sp, x29
	ldp	x20, x19, [sp, #80]
	ldp	x22, x21, [sp, #64]
	ldp	x24, x23, [sp, #48]
	ldp	x26, x25, [sp, #32]
	ldp	x28, x27, [sp, #16]
	ldp	x29, x30, [sp], #96
	ret
	vj_end	b2sum_commands..sums..digest_open..88d5947bde654d8d_1_a64

	vj_constants	16
	.p2align	4, 0x0
.L1_a64_CPI58_0:
	.quad	7640891576956012808
	.quad	-4942790177534073029
.L1_a64_CPI58_1:
	.quad	4354685564936845355
	.quad	-6534734903238641935
.L1_a64_CPI58_2:
	.quad	5840696475078001361
	.quad	-7276294671716946913
.L1_a64_CPI58_3:
	.quad	2270897969802886507
	.quad	6620516959819538809
	vj_function	b2sum..hashes..init_state..a920819b086c025a_1_a64
	stp	x29, x30, [sp, #-96]!
	sub	x9, sp, #256
	str	x28, [sp, #16]
	mov	x29, sp
	stp	x26, x25, [sp, #32]
	stp	x24, x23, [sp, #48]
	stp	x22, x21, [sp, #64]
	stp	x20, x19, [sp, #80]
	and	sp, x9, #0xffffffffffffffe0
	ldr	x25, [x1]
	ldr	x21, [x1, #16]
	mov	w9, #65
	ldr	x2, [x1, #32]
	ldr	x22, [x1, #48]
	sub	x10, x25, #1
	cmp	x10, #64
	ccmp	x21, x9, #2, lo
	ccmp	x2, #17, #2, lo
	ccmp	x22, #17, #2, lo
	cset	w19, lo
	cmp	w19, #1
	b.ne	3f
	movi	v0.2d, #0000000000000000
	mov	x8, x1
	ldr	x1, [x1, #24]
	ldr	x23, [x8, #40]
	mov	x20, x0
	cbz	x21, 1f
	orr	w9, w25, w21, lsl #8
	mov	w10, #16842752
	movi	v2.2d, #0000000000000000
	movi	v1.2d, #0000000000000000
	ldr	x24, [x8, #8]
	add	x0, sp, #128
	orr	w9, w9, w10
	add	x26, sp, #128
	mov	v0.s[0], w9
	stp	q1, q1, [sp, #128]
	mov	v2.d[0], v0.d[0]
	str	q2, [sp, #48]
	vj_c_call	memcpy
	orr	x0, x26, #0x10
	mov	x1, x23
	mov	x2, x22
	vj_c_call	memcpy
	vj_page	x8, .L1_a64_CPI58_0
	ldr	q5, [sp, #48]
	vj_page	x9, .L1_a64_CPI58_2
	vj_load	q0, x8, .L1_a64_CPI58_0
	ldp	q2, q1, [sp, #128]
	vj_load	q3, x9, .L1_a64_CPI58_2
	vj_page	x8, .L1_a64_CPI58_3
	mov	w9, #64
	eor	v0.16b, v5.16b, v0.16b
	vj_load	q4, x8, .L1_a64_CPI58_3
	vj_page	x8, .L1_a64_CPI58_1
	cmp	x21, #63
	mov	w1, wzr
	str	q0, [sp, #32]
	eor	v0.16b, v2.16b, v3.16b
	str	q0, [sp, #16]
	eor	v0.16b, v1.16b, v4.16b
	str	q0, [sp, #48]
	vj_load	q0, x8, .L1_a64_CPI58_1
	sub	x8, x9, x21
	csel	x2, xzr, x8, hi
	add	x8, sp, #64
	add	x0, x8, x21
	str	q0, [sp]
	vj_c_call	memset
	add	x0, sp, #64
	mov	x1, x24
	mov	x2, x21
	vj_c_call	memcpy
	movi	v1.2d, #0000000000000000
	mov	w8, #128
	stp	q1, q1, [sp, #192]
	stp	q1, q1, [sp, #224]
	ldp	q0, q1, [sp, #64]
	stp	q0, q1, [sp, #128]
	ldp	q2, q0, [sp, #96]
	ldp	q3, q1, [sp]
	stp	q2, q0, [sp, #160]
	ldp	q2, q0, [sp, #32]
	b	2f
1:
	mov	w8, #16842752
	movi	v2.2d, #0000000000000000
	movi	v1.2d, #0000000000000000
	orr	w8, w25, w8
	add	x0, sp, #128
	add	x21, sp, #128
	mov	v0.s[0], w8
	stp	q1, q1, [sp, #128]
	mov	v2.d[0], v0.d[0]
	str	q2, [sp, #48]
	vj_c_call	memcpy
	orr	x0, x21, #0x10
	mov	x1, x23
	mov	x2, x22
	vj_c_call	memcpy
	vj_page	x9, .L1_a64_CPI58_0
	ldp	q1, q0, [sp, #128]
	movi	v5.2d, #0000000000000000
	vj_load	q2, x9, .L1_a64_CPI58_0
	vj_page	x9, .L1_a64_CPI58_2
	vj_page	x10, .L1_a64_CPI58_3
	vj_load	q3, x9, .L1_a64_CPI58_2
	ldr	q6, [sp, #48]
	vj_load	q4, x10, .L1_a64_CPI58_3
	vj_page	x9, .L1_a64_CPI58_1
	mov	w8, wzr
	eor	v1.16b, v1.16b, v3.16b
	vj_load	q3, x9, .L1_a64_CPI58_1
	eor	v2.16b, v6.16b, v2.16b
	stp	q5, q5, [sp, #64]
	eor	v0.16b, v0.16b, v4.16b
	stp	q5, q5, [sp, #96]
	stp	q5, q5, [sp, #128]
	stp	q5, q5, [sp, #160]
	stp	q5, q5, [sp, #192]
	stp	q5, q5, [sp, #224]
2:
	stp	q2, q3, [x20]
	stp	q1, q0, [x20, #32]
	stp	q2, q3, [x20, #64]
	stp	q1, q0, [x20, #96]
	ldp	q0, q1, [sp, #192]
	stp	w8, w8, [x20, #136]
	add	x8, x20, #152
	str	xzr, [x20, #128]
	stur	q0, [x20, #216]
	ldp	q0, q2, [sp, #224]
	stur	q1, [x20, #232]
	stp	w25, wzr, [x20, #144]
	stur	q0, [x20, #248]
	ldp	q1, q0, [sp, #128]
	str	q2, [x8, #112]
	add	x8, x20, #280
	stur	q1, [x20, #152]
	stur	q0, [x20, #168]
	ldp	q1, q0, [sp, #160]
	stur	q1, [x20, #184]
	stur	q0, [x20, #200]
	ldp	q1, q0, [sp, #96]
	stp	q1, q0, [x8, #32]
	ldp	q0, q2, [sp, #64]
	stp	q0, q2, [x8]
3:
	mov	w0, w19
	mov	sp, x29
	ldp	x20, x19, [sp, #80]
	ldr	x28, [sp, #16]
	ldp	x22, x21, [sp, #64]
	ldp	x24, x23, [sp, #48]
	ldp	x26, x25, [sp, #32]
	ldp	x29, x30, [sp], #96
	ret
	vj_end	b2sum..hashes..init_state..a920819b086c025a_1_a64

	vj_constants	16
	.p2align	4, 0x0
.L1_a64_CPI59_0:
	.long	1359893119
	.long	2600822924
	.long	528734635
	.long	1541459225
.L1_a64_CPI59_1:
	.long	1779033703
	.long	3144134277
	.long	1013904242
	.long	2773480762
	vj_function	b2sum..hashes..init_state..5100c9fa7e8d9213_1_a64
	sub	sp, sp, #208
	stp	x26, x25, [sp, #144]
	ldr	x25, [x1]
	mov	w9, #33
	stp	x22, x21, [sp, #176]
	ldr	x22, [x1, #16]
	ldr	x2, [x1, #32]
	sub	x10, x25, #1
	ldr	x21, [x1, #48]
	stp	x20, x19, [sp, #192]
	cmp	x10, #32
	stp	x29, x30, [sp, #128]
	add	x29, sp, #128
	ccmp	x22, x9, #2, lo
	stp	x24, x23, [sp, #160]
	ccmp	x2, #9, #2, lo
	ccmp	x21, #9, #2, lo
	cset	w19, lo
	cmp	w19, #1
	b.ne	3f
	mov	x8, x1
	ldr	x1, [x1, #24]
	mov	x20, x0
	ldr	x23, [x8, #40]
	cbz	x22, 1f
	orr	w9, w25, w22, lsl #8
	mov	w10, #16842752
	movi	v1.2d, #0000000000000000
	ldr	x24, [x8, #8]
	add	x0, sp, #64
	stp	xzr, xzr, [sp, #64]
	orr	w9, w9, w10
	add	x26, sp, #64
	fmov	s0, w9
	mov	v0.s[1], v1.s[1]
	mov	v0.d[1], v1.d[1]
	str	q0, [sp, #16]
	vj_c_call	memcpy
	orr	x0, x26, #0x8
	mov	x1, x23
	mov	x2, x21
	vj_c_call	memcpy
	mov	w8, #32
	cmp	x22, #31
	ldr	q0, [sp, #64]
	sub	x8, x8, x22
	mov	w1, wzr
	csel	x2, xzr, x8, hi
	add	x8, sp, #32
	str	q0, [sp]
	add	x0, x8, x22
	vj_c_call	memset
	add	x0, sp, #32
	mov	x1, x24
	mov	x2, x22
	vj_c_call	memcpy
	movi	v1.2d, #0000000000000000
	ldr	q3, [sp]
	mov	w8, #64
	stp	q1, q1, [sp, #96]
	ldp	q0, q1, [sp, #32]
	stp	q0, q1, [sp, #64]
	b	2f
1:
	mov	w8, #16842752
	movi	v1.2d, #0000000000000000
	add	x0, sp, #64
	orr	w8, w25, w8
	stp	xzr, xzr, [sp, #64]
	add	x22, sp, #64
	fmov	s0, w8
	mov	v0.s[1], v1.s[1]
	mov	v0.d[1], v1.d[1]
	str	q0, [sp, #16]
	vj_c_call	memcpy
	orr	x0, x22, #0x8
	mov	x1, x23
	mov	x2, x21
	vj_c_call	memcpy
	movi	v0.2d, #0000000000000000
	ldr	q3, [sp, #64]
	mov	w8, wzr
	stp	q0, q0, [sp, #32]
	stp	q0, q0, [sp, #64]
	stp	q0, q0, [sp, #96]
2:
	vj_page	x9, .L1_a64_CPI59_1
	ldr	q2, [sp, #16]
	str	xzr, [x20, #64]
	vj_load	q0, x9, .L1_a64_CPI59_1
	vj_page	x9, .L1_a64_CPI59_0
	strh	w8, [x20, #72]
	vj_load	q1, x9, .L1_a64_CPI59_0
	strh	w8, [x20, #74]
	eor	v0.16b, v2.16b, v0.16b
	strh	w25, [x20, #76]
	eor	v1.16b, v3.16b, v1.16b
	strh	wzr, [x20, #78]
	stp	q0, q1, [x20]
	stp	q0, q1, [x20, #32]
	ldp	q0, q1, [sp, #64]
	stp	q0, q1, [x20, #80]
	ldp	q2, q0, [sp, #96]
	stp	q2, q0, [x20, #112]
	ldp	q2, q1, [sp, #32]
	stp	q2, q1, [x20, #144]
3:
	mov	w0, w19
	ldp	x20, x19, [sp, #192]
	ldp	x22, x21, [sp, #176]
	ldp	x24, x23, [sp, #160]
	ldp	x26, x25, [sp, #144]
	ldp	x29, x30, [sp, #128]
	add	sp, sp, #208
	ret
	vj_end	b2sum..hashes..init_state..5100c9fa7e8d9213_1_a64

	vj_function	blake2_state..blake2s..State..absorb_blocks_1_a64
	sub	sp, sp, #160
	stp	x22, x21, [sp, #128]
	ldrh	w22, [x0, #72]
	mov	w8, #64
	mov	x21, x2
	stp	x24, x23, [sp, #112]
	sub	x2, x8, x22
	stp	x20, x19, [sp, #144]
	mov	x19, x0
	subs	x24, x21, x2
	mov	x20, x1
	stp	x29, x30, [sp, #80]
	stp	x26, x25, [sp, #96]
	add	x29, sp, #80
	b.ls	4f
	ldp	q0, q1, [x19]
	add	x23, x19, #80
	ldrh	w8, [x19, #78]
	ldr	x25, [x19, #64]
	stp	q0, q1, [sp]
	ldp	q2, q0, [x19, #32]
	cmp	w8, #0
	cset	w8, ne
	stp	q2, q0, [sp, #32]
	stp	x25, x8, [sp, #64]
	cbz	w22, 12f
	add	x0, x23, x22
	add	x26, x20, x2
	sub	x8, x0, x20
	cmp	x8, x2
	b.hs	10f
	cmp	x2, #8
	b.lo	1f
	add	x8, x19, x22
	sub	x8, x8, x20
	add	x8, x8, #80
	cmp	x8, #32
	b.hs	23f
1:
	mov	x8, xzr
2:
	add	x9, x8, x22
	add	x8, x20, x8
3:
	ldrb	w10, [x8], #1
	strb	w10, [x23, x9]
	add	x9, x9, #1
	cmp	x9, #64
	b.ne	3b
	b	11f
4:
	add	x8, x19, x22
	add	x0, x8, #80
	sub	x8, x0, x20
	cmp	x8, x21
	b.hs	8f
	cmp	x21, #8
	b.lo	5f
	add	x8, x19, x22
	sub	x8, x8, x20
	add	x8, x8, #80
	cmp	x8, #32
	b.hs	21f
5:
	mov	x8, xzr
6:
	add	x9, x8, x22
	add	x10, x9, x19
	sub	x9, x21, x8
	add	x8, x20, x8
	add	x10, x10, #80
7:
	ldrb	w11, [x8], #1
	subs	x9, x9, #1
	strb	w11, [x10], #1
	b.ne	7b
	b	9f
8:
	mov	x1, x20
	mov	x2, x21
	vj_c_call	memmove
9:
	add	w8, w22, w21
	strh	w8, [x19, #72]
	b	20f
10:
	mov	x1, x20
	vj_c_call	memmove
11:
	add	x2, x25, #64
	mov	x0, sp
	add	x1, x19, #80
	mov	w3, wzr
	mov	w4, wzr
	str	x2, [sp, #64]
	vj_call	blake2_compress..compress..blake2s..compress_1_arm
	mov	x21, x24
	mov	x20, x26
12:
	cmp	x21, #0
	cset	w8, ne
	sub	x8, x21, x8
	lsr	x25, x8, #6
	and	x24, x8, #0xffffffffffffffc0
	cbz	x25, 14f
	mov	x22, x20
13:
	ldr	x8, [sp, #64]
	mov	x0, sp
	mov	x1, x22
	mov	w3, wzr
	mov	w4, wzr
	add	x2, x8, #64
	str	x2, [sp, #64]
	vj_call	blake2_compress..compress..blake2s..compress_1_arm
	subs	x25, x25, #1
	add	x22, x22, #64
	b.ne	13b
14:
	movi	v0.2d, #0000000000000000
	add	x1, x20, x24
	sub	x22, x21, x24
	sub	x8, x23, x1
	cmp	x8, x22
	stp	q0, q0, [x23]
	stp	q0, q0, [x23, #32]
	b.hs	18f
	cmp	x22, #8
	b.lo	15f
	add	x8, x24, x20
	sub	x8, x19, x8
	add	x8, x8, #80
	cmp	x8, #32
	b.hs	22f
15:
	mov	x8, xzr
16:
	sub	x9, x21, x8
	add	x10, x8, x24
	add	x11, x8, x19
	sub	x8, x9, x24
	add	x9, x20, x10
	add	x10, x11, #80
17:
	ldrb	w11, [x9], #1
	subs	x8, x8, #1
	strb	w11, [x10], #1
	b.ne	17b
	b	19f
18:
	add	x0, x19, #80
	mov	x2, x22
	vj_c_call	memmove
19:
	ldp	q0, q1, [sp]
	ldr	x8, [sp, #64]
	strh	w22, [x19, #72]
	str	x8, [x19, #64]
	stp	q0, q1, [x19]
20:
	ldp	x20, x19, [sp, #144]
	ldp	x22, x21, [sp, #128]
	ldp	x24, x23, [sp, #112]
	ldp	x26, x25, [sp, #96]
	ldp	x29, x30, [sp, #80]
	add	sp, sp, #160
	ret
21:
	cmp	x21, #32
	b.hs	24f
	mov	x8, xzr
	b	26f
22:
	cmp	x22, #32
	b.hs	28f
	mov	x8, xzr
	b	30f
23:
	cmp	x2, #32
	b.hs	32f
	mov	x8, xzr
	b	34f
24:
	add	x11, x22, x19
	and	x9, x21, #0x18
	and	x8, x21, #0xffffffffffffffe0
	add	x10, x20, #16
	add	x11, x11, #96
	and	x12, x21, #0xffffffffffffffe0
25:
	ldp	q0, q1, [x10, #-16]
	subs	x12, x12, #32
	add	x10, x10, #32
	stp	q0, q1, [x11, #-16]
	add	x11, x11, #32
	b.ne	25b
	cmp	x21, x8
	b.eq	9b
	cbz	x9, 6b
26:
	mov	x10, x8
	and	x8, x21, #0xfffffffffffffff8
	add	x9, x10, x22
	add	x11, x9, x19
	sub	x9, x10, x8
	add	x10, x20, x10
	add	x11, x11, #80
27:
	ldr	d0, [x10], #8
	adds	x9, x9, #8
	str	d0, [x11], #8
	b.ne	27b
	cmp	x21, x8
	b.eq	9b
	b	6b
28:
	and	x9, x21, #0x1f
	add	x11, x24, x20
	add	x10, x19, #96
	sub	x8, x22, x9
	add	x11, x11, #16
	sub	x12, x22, x9
29:
	ldp	q0, q1, [x11, #-16]
	subs	x12, x12, #32
	add	x11, x11, #32
	stp	q0, q1, [x10, #-16]
	add	x10, x10, #32
	b.ne	29b
	cbz	x9, 19b
	cmp	x9, #8
	b.lo	16b
30:
	and	x9, x21, #0x7
	add	x11, x8, x24
	add	x12, x8, x19
	add	x10, x11, x9
	sub	x8, x22, x9
	add	x11, x20, x11
	sub	x10, x10, x21
	add	x12, x12, #80
31:
	ldr	d0, [x11], #8
	adds	x10, x10, #8
	str	d0, [x12], #8
	b.ne	31b
	cbnz	x9, 16b
	b	19b
32:
	add	x11, x22, x19
	and	x9, x2, #0x18
	and	x8, x2, #0xffffffffffffffe0
	add	x10, x20, #16
	add	x11, x11, #96
	and	x12, x2, #0xffffffffffffffe0
33:
	ldp	q0, q1, [x10, #-16]
	subs	x12, x12, #32
	add	x10, x10, #32
	stp	q0, q1, [x11, #-16]
	add	x11, x11, #32
	b.ne	33b
	cmp	x2, x8
	b.eq	11b
	cbz	x9, 2b
34:
	mov	x10, x8
	and	x8, x2, #0xfffffffffffffff8
	add	x9, x10, x22
	add	x11, x9, x19
	sub	x9, x10, x8
	add	x10, x20, x10
	add	x11, x11, #80
35:
	ldr	d0, [x10], #8
	adds	x9, x9, #8
	str	d0, [x11], #8
	b.ne	35b
	cmp	x2, x8
	b.eq	11b
	b	2b
	vj_end	blake2_state..blake2s..State..absorb_blocks_1_a64

	vj_function	b2sum..states..blake2s..StateHashState..write_digest_1_a64
	sub	sp, sp, #240
	movi	v0.2d, #0000000000000000
	str	x21, [sp, #208]
	ldrh	w21, [x0, #72]
	ldp	q1, q2, [x0]
	stp	x29, x30, [sp, #192]
	stp	x20, x19, [sp, #224]
	add	x29, sp, #192
	mov	x20, x0
	mov	x19, x1
	sub	x0, x29, #64
	add	x1, x20, #80
	mov	x2, x21
	stp	q1, q2, [sp, #96]
	stp	q0, q0, [x29, #-64]
	stp	q0, q0, [x29, #-32]
	vj_c_call	memcpy
	ldp	q0, q1, [x29, #-64]
	add	x0, sp, #96
	ldrh	w8, [x20, #78]
	add	x1, sp, #32
	mov	w3, #1
	stp	q0, q1, [sp, #32]
	ldp	q2, q0, [x29, #-32]
	cmp	w8, #0
	ldr	x8, [x20, #64]
	cset	w4, ne
	add	x2, x8, x21
	stp	q2, q0, [sp, #64]
	vj_call	blake2_compress..compress..blake2s..compress_1_arm
	ldp	q0, q1, [sp, #96]
	mov	x1, sp
	ldrh	w2, [x20, #76]
	mov	x0, x19
	stp	q0, q1, [sp]
	vj_c_call	memcpy
	ldp	x20, x19, [sp, #224]
	ldr	x21, [sp, #208]
	ldp	x29, x30, [sp, #192]
	add	sp, sp, #240
	ret
	vj_end	b2sum..states..blake2s..StateHashState..write_digest_1_a64

	vj_constants	16
	.p2align	4, 0x0
.L1_a64_CPI62_0:
	.quad	2270897969802886507
	.quad	6620516959819538809
.L1_a64_CPI62_1:
	.quad	7640891576956012808
	.quad	-4942790177534073029
.L1_a64_CPI62_2:
	.quad	4354685564936828970
	.quad	-6534734903238641935
.L1_a64_CPI62_3:
	.quad	4354685564936828971
	.quad	-6534734903238641935
.L1_a64_CPI62_4:
	.quad	-4942790177534073030
	.quad	-4942790177534073031
.L1_a64_CPI62_5:
	.quad	5840696475078001361
	.quad	-7276294671716946913
.L1_a64_CPI62_6:
	.quad	-4942790177534073031
	.quad	-4942790177534073032
	vj_function	b2sum..hashes..init_state..782804cb012a25f7_1_a64
	stp	x29, x30, [sp, #-96]!
	sub	x9, sp, #1792
	stp	x28, x27, [sp, #16]
	mov	x29, sp
	stp	x26, x25, [sp, #32]
	stp	x24, x23, [sp, #48]
	stp	x22, x21, [sp, #64]
	stp	x20, x19, [sp, #80]
	and	sp, x9, #0xffffffffffffffe0
	str	xzr, [sp]
	mov	w8, #65
	ldr	x27, [x1]
	ldr	x21, [x1, #16]
	ldr	x23, [x1, #32]
	ldr	x22, [x1, #48]
	sub	x9, x27, #1
	cmp	x9, #64
	ccmp	x21, x8, #2, lo
	ccmp	x23, #17, #2, lo
	ccmp	x22, #17, #2, lo
	cset	w19, lo
	cmp	w19, #1
	b.ne	3f
	movi	v0.2d, #0000000000000000
	ldr	x25, [x1, #24]
	mov	x20, x0
	ldr	x24, [x1, #40]
	ldr	x26, [x1, #8]
	add	x0, sp, #384
	mov	x1, x25
	mov	x2, x23
	add	x28, sp, #384
	stp	q0, q0, [sp, #384]
	vj_c_call	memcpy
	orr	x0, x28, #0x10
	mov	x1, x24
	mov	x2, x22
	vj_c_call	memcpy
	ldr	q0, [sp, #400]
	add	x0, sp, #384
	mov	x1, x25
	mov	x2, x23
	str	q0, [sp, #208]
	ldr	q0, [sp, #384]
	str	q0, [sp, #192]
	movi	v0.2d, #0000000000000000
	stp	q0, q0, [sp, #384]
	vj_c_call	memcpy
	orr	x0, x28, #0x10
	mov	x1, x24
	mov	x2, x22
	vj_c_call	memcpy
	movi	v1.2d, #0000000000000000
	ldr	q0, [sp, #400]
	add	x0, sp, #256
	mov	x1, x26
	mov	x2, x21
	str	q0, [sp, #240]
	ldr	q0, [sp, #384]
	stp	q1, q1, [sp, #256]
	stp	q1, q1, [sp, #288]
	stp	q1, q1, [sp, #320]
	str	q0, [sp, #224]
	stp	q1, q1, [sp, #352]
	vj_c_call	memcpy
	cbz	x21, 1f
	ldp	q1, q5, [sp, #256]
	add	x0, sp, #896
	ldp	q0, q2, [sp, #320]
	add	x1, sp, #384
	ldp	q4, q3, [sp, #320]
	mov	w2, #512
	stp	q1, q5, [sp, #384]
	ldp	q7, q6, [sp, #256]
	stp	q0, q2, [sp, #448]
	mov	w22, #512
	stp	q1, q5, [sp, #512]
	ldp	q16, q1, [sp, #288]
	stp	q0, q2, [sp, #576]
	ldp	q17, q5, [sp, #288]
	stp	q7, q6, [sp, #640]
	stp	q16, q1, [sp, #416]
	stp	q16, q1, [sp, #544]
	ldp	q1, q0, [sp, #352]
	ldp	q16, q2, [sp, #352]
	stp	q17, q5, [sp, #672]
	stp	q4, q3, [sp, #704]
	stp	q1, q0, [sp, #480]
	stp	q1, q0, [sp, #608]
	movi	v0.2d, #0000000000000000
	stp	q16, q2, [sp, #736]
	stp	q7, q6, [sp, #768]
	stp	q17, q5, [sp, #800]
	stp	q4, q3, [sp, #832]
	stp	q16, q2, [sp, #864]
	str	q0, [sp, #1776]
	str	q0, [sp, #1760]
	str	q0, [sp, #1744]
	str	q0, [sp, #1728]
	str	q0, [sp, #1712]
	str	q0, [sp, #1696]
	str	q0, [sp, #1680]
	str	q0, [sp, #1664]
	str	q0, [sp, #1648]
	str	q0, [sp, #1632]
	str	q0, [sp, #1616]
	str	q0, [sp, #1600]
	str	q0, [sp, #1584]
	str	q0, [sp, #1568]
	str	q0, [sp, #1552]
	str	q0, [sp, #1536]
	str	q0, [sp, #1520]
	str	q0, [sp, #1504]
	str	q0, [sp, #1488]
	str	q0, [sp, #1472]
	str	q0, [sp, #1456]
	str	q0, [sp, #1440]
	str	q0, [sp, #1424]
	str	q0, [sp, #1408]
	vj_c_call	memcpy
	b	2f
1:
	add	x0, sp, #896
	mov	w1, wzr
	mov	w2, #896
	vj_c_call	memset
	mov	x22, xzr
2:
	vj_page	x8, .L1_a64_CPI62_0
	orr	w9, w27, w21, lsl #8
	vj_page	x10, .L1_a64_CPI62_4
	vj_load	q0, x8, .L1_a64_CPI62_0
	mov	w8, #33816576
	vj_load	q2, x10, .L1_a64_CPI62_4
	orr	w8, w9, w8
	mov	x9, #47147
	movi	v1.2d, #0000000000000000
	movk	x9, #65172, lsl #16
	vj_page	x10, .L1_a64_CPI62_5
	stur	q2, [x20, #40]
	movk	x9, #62322, lsl #32
	vj_load	q3, x10, .L1_a64_CPI62_5
	ldr	q2, [sp, #192]
	movk	x9, #15470, lsl #48
	vj_page	x10, .L1_a64_CPI62_3
	movi	v4.2d, #0000000000000000
	dup	v5.2d, x9
	eor	v2.16b, v2.16b, v3.16b
	mov	v1.s[0], w8
	mov	x8, #14065
	mov	x21, #42808
	add	x0, x20, #272
	movk	x8, #24349, lsl #16
	movk	x21, #33994, lsl #16
	add	x1, sp, #896
	stp	q5, q3, [sp, #160]
	vj_load	q3, x10, .L1_a64_CPI62_3
	movk	x8, #62778, lsl #32
	str	q5, [x20, #64]
	movk	x8, #42319, lsl #48
	dup	v7.2d, v2.d[0]
	ext	v5.16b, v3.16b, v2.16b, #8
	stur	q3, [x20, #88]
	ldr	q3, [sp, #208]
	dup	v6.2d, x8
	mov	v4.d[0], v1.d[0]
	vj_page	x8, .L1_a64_CPI62_1
	eor	v3.16b, v3.16b, v0.16b
	vj_load	q1, x8, .L1_a64_CPI62_1
	stur	q2, [x20, #152]
	add	x8, x20, #248
	movk	x21, #44677, lsl #32
	mov	w2, #896
	stp	q6, q7, [sp, #96]
	movk	x21, #47975, lsl #48
	stur	q6, [x20, #104]
	dup	v6.2d, v2.d[1]
	ext	v2.16b, v2.16b, v3.16b, #8
	eor	v1.16b, v4.16b, v1.16b
	stur	q5, [x20, #120]
	dup	v5.2d, v3.d[0]
	st1	{ v3.d }[1], [x8]
	vj_page	x8, .L1_a64_CPI62_2
	str	q6, [sp, #64]
	stur	q2, [x20, #184]
	dup	v2.2d, v1.d[0]
	str	d1, [x20, #16]
	stur	q1, [x20, #24]
	stp	q2, q1, [sp, #32]
	ldr	q1, [sp, #240]
	stur	q6, [x20, #168]
	dup	v6.2d, v3.d[1]
	eor	v0.16b, v1.16b, v0.16b
	str	x21, [x20, #56]
	str	x9, [x20, #80]
	stur	q7, [x20, #136]
	stp	q3, q5, [sp, #128]
	stp	q0, q6, [sp, #192]
	vj_load	q0, x8, .L1_a64_CPI62_2
	stur	q5, [x20, #200]
	stur	q3, [x20, #216]
	stur	q6, [x20, #232]
	str	q2, [x20]
	str	q0, [sp, #80]
	stp	xzr, x22, [x20, #256]
	vj_c_call	memcpy
	ldp	q0, q1, [sp, #32]
	vj_page	x8, .L1_a64_CPI62_6
	add	x9, x20, #1192
	ldr	q3, [sp, #144]
	str	x22, [x20, #1488]
	str	x27, [x20, #1496]
	str	q0, [x20, #1168]
	vj_load	q0, x8, .L1_a64_CPI62_6
	mov	v4.16b, v1.16b
	str	d1, [x20, #1184]
	orr	x8, x21, #0x2
	str	q1, [x9]
	str	q0, [x20, #1216]
	ldp	q0, q1, [sp, #160]
	str	x8, [x20, #1208]
	mov	x8, #48491
	movk	x8, #64321, lsl #16
	str	q3, [x20, #1360]
	str	q0, [x20, #1232]
	movk	x8, #55723, lsl #32
	str	q0, [x20, #1248]
	ldr	q0, [sp, #96]
	movk	x8, #8067, lsl #48
	str	q3, [x20, #1376]
	str	q0, [x20, #1264]
	str	q0, [x20, #1280]
	ldp	q0, q5, [sp, #112]
	str	q0, [x20, #1296]
	ext	v2.16b, v5.16b, v4.16b, #8
	str	q0, [x20, #1312]
	ldr	q0, [sp, #64]
	str	q0, [x20, #1328]
	str	q0, [x20, #1344]
	ldp	q0, q6, [sp, #224]
	eor	v0.16b, v0.16b, v1.16b
	fmov	d1, x8
	add	x8, x20, #1408
	st1	{ v5.d }[1], [x8]
	eor	v1.16b, v6.16b, v1.16b
	ldr	q6, [sp, #80]
	ext	v3.16b, v4.16b, v6.16b, #8
	ldr	q4, [sp, #208]
	str	q4, [x20, #1392]
	ext	v4.16b, v6.16b, v0.16b, #8
	ext	v0.16b, v0.16b, v1.16b, #8
	ldr	q1, [sp, #192]
	stp	q2, q3, [x9, #224]
	mov	d1, v1.d[1]
	stp	q4, q0, [x9, #256]
	str	d1, [x20, #1480]
	ldp	q0, q1, [sp, #320]
	str	q0, [x20, #1568]
	str	q1, [x20, #1584]
	ldp	q0, q1, [sp, #352]
	str	q0, [x20, #1600]
	str	q1, [x20, #1616]
	ldp	q0, q1, [sp, #256]
	str	q0, [x20, #1504]
	str	q1, [x20, #1520]
	ldp	q0, q1, [sp, #288]
	str	q0, [x20, #1536]
	str	q1, [x20, #1552]
3:
	mov	w0, w19
	mov	sp, x29
	ldp	x20, x19, [sp, #80]
	ldp	x22, x21, [sp, #64]
	ldp	x24, x23, [sp, #48]
	ldp	x26, x25, [sp, #32]
	ldp	x28, x27, [sp, #16]
	ldp	x29, x30, [sp], #96
	ret
	vj_end	b2sum..hashes..init_state..782804cb012a25f7_1_a64

	vj_constants	16
	.p2align	4, 0x0
.L1_a64_CPI63_0:
	.long	1359893119
	.long	2600822924
	.long	528734635
	.long	1541459225
.L1_a64_CPI63_1:
	.zero	2
	.zero	2
	.zero	2
	.zero	2
	.short	0
	.short	0
	.short	0
	.short	8193
.L1_a64_CPI63_2:
	.long	1779033703
	.long	3144134277
	.long	1013904242
	.long	2773480762
.L1_a64_CPI63_3:
	.zero	2
	.zero	2
	.zero	2
	.zero	2
	.short	0
	.short	0
	.short	0
	.short	8192
.L1_a64_CPI63_4:
	.long	1013904243
	.long	1013904240
	.long	1013904241
	.long	1013904246
	vj_constants	8
	.p2align	3, 0x0
.L1_a64_CPI63_5:
	.long	1013904247
	.long	1013904244
.L1_a64_CPI63_6:
	.long	1013904244
	.long	1013904245
	vj_function	b2sum..hashes..init_state..c5fd3bf45536a406_1_a64
	stp	x29, x30, [sp, #-96]!
	stp	x28, x27, [sp, #16]
	mov	x29, sp
	stp	x26, x25, [sp, #32]
	stp	x24, x23, [sp, #48]
	stp	x22, x21, [sp, #64]
	stp	x20, x19, [sp, #80]
	sub	sp, sp, #1728
	str	xzr, [sp]
	mov	w8, #33
	ldr	x27, [x1]
	ldr	x21, [x1, #16]
	ldr	x23, [x1, #32]
	ldr	x22, [x1, #48]
	sub	x9, x27, #1
	cmp	x9, #32
	ccmp	x21, x8, #2, lo
	ccmp	x23, #9, #2, lo
	ccmp	x22, #9, #2, lo
	cset	w19, lo
	cmp	w19, #1
	b.ne	3f
	movi	v0.2d, #0000000000000000
	ldr	x25, [x1, #24]
	mov	x20, x0
	ldr	x24, [x1, #40]
	ldr	x26, [x1, #8]
	add	x0, sp, #240
	mov	x1, x25
	mov	x2, x23
	add	x28, sp, #240
	str	q0, [sp, #240]
	vj_c_call	memcpy
	orr	x0, x28, #0x8
	mov	x1, x24
	mov	x2, x22
	vj_c_call	memcpy
	ldr	q0, [sp, #240]
	add	x0, sp, #240
	mov	x1, x25
	mov	x2, x23
	str	q0, [sp, #144]
	movi	v0.2d, #0000000000000000
	str	q0, [sp, #240]
	vj_c_call	memcpy
	orr	x0, x28, #0x8
	mov	x1, x24
	mov	x2, x22
	vj_c_call	memcpy
	movi	v1.2d, #0000000000000000
	ldr	q0, [sp, #240]
	add	x0, sp, #176
	mov	x1, x26
	mov	x2, x21
	str	q0, [sp, #160]
	stp	q1, q1, [sp, #176]
	stp	q1, q1, [sp, #208]
	vj_c_call	memcpy
	cbz	x21, 1f
	ldp	q0, q1, [sp, #176]
	add	x8, sp, #1449
	ldp	q3, q2, [sp, #176]
	add	x0, sp, #760
	add	x1, sp, #240
	mov	w2, #512
	mov	w22, #512
	stp	q0, q1, [sp, #240]
	stp	q0, q1, [sp, #304]
	stp	q0, q1, [sp, #368]
	stp	q0, q1, [sp, #432]
	ldp	q4, q0, [sp, #208]
	ldp	q5, q1, [sp, #208]
	stp	q3, q2, [sp, #496]
	stp	q3, q2, [sp, #560]
	stp	q4, q0, [sp, #272]
	stp	q4, q0, [sp, #336]
	stp	q4, q0, [sp, #400]
	stp	q4, q0, [sp, #464]
	movi	v0.2d, #0000000000000000
	stp	q5, q1, [sp, #528]
	stp	q5, q1, [sp, #592]
	stp	q3, q2, [sp, #624]
	stur	q0, [x8, #255]
	add	x8, sp, #1433
	stur	q0, [x8, #255]
	add	x8, sp, #1417
	stur	q0, [x8, #255]
	add	x8, sp, #1401
	stur	q0, [x8, #255]
	add	x8, sp, #1385
	stur	q0, [x8, #255]
	add	x8, sp, #1369
	stur	q0, [x8, #255]
	add	x8, sp, #1353
	stur	q0, [x8, #255]
	add	x8, sp, #1337
	stur	q0, [x8, #255]
	add	x8, sp, #1321
	stur	q0, [x8, #255]
	add	x8, sp, #1305
	stur	q0, [x8, #255]
	add	x8, sp, #1289
	stur	q0, [x8, #255]
	add	x8, sp, #1273
	stur	q0, [x8, #255]
	add	x8, sp, #1257
	stur	q0, [x8, #255]
	add	x8, sp, #1241
	stur	q0, [x8, #255]
	add	x8, sp, #1225
	stur	q0, [x8, #255]
	add	x8, sp, #1209
	stur	q0, [x8, #255]
	add	x8, sp, #1193
	stur	q0, [x8, #255]
	add	x8, sp, #1177
	stur	q0, [x8, #255]
	add	x8, sp, #1161
	stur	q0, [x8, #255]
	add	x8, sp, #1145
	stur	q0, [x8, #255]
	add	x8, sp, #1129
	stur	q0, [x8, #255]
	add	x8, sp, #1113
	stur	q0, [x8, #255]
	add	x8, sp, #1097
	stur	q0, [x8, #255]
	add	x8, sp, #1081
	stur	q0, [x8, #255]
	add	x8, sp, #1065
	stur	q0, [x8, #255]
	add	x8, sp, #1049
	stur	q0, [x8, #255]
	add	x8, sp, #1033
	stur	q0, [x8, #255]
	add	x8, sp, #1017
	stp	q5, q1, [sp, #656]
	stp	q3, q2, [sp, #688]
	stp	q5, q1, [sp, #720]
	stur	q0, [x8, #255]
	vj_c_call	memcpy
	b	2f
1:
	add	x0, sp, #760
	mov	w1, wzr
	mov	w2, #960
	vj_c_call	memset
	mov	x22, xzr
2:
	orr	w9, w27, w21, lsl #8
	mov	w10, #34078720
	movi	v1.2d, #0000000000000000
	vj_page	x8, .L1_a64_CPI63_0
	ldr	q3, [sp, #144]
	mov	w21, #62325
	orr	w9, w9, w10
	vj_page	x10, .L1_a64_CPI63_5
	vj_load	q0, x8, .L1_a64_CPI63_0
	fmov	s2, w9
	vj_page	x8, .L1_a64_CPI63_3
	vj_address	x8, x8, .L1_a64_CPI63_3
	vj_page	x9, .L1_a64_CPI63_4
	add	x8, x8, #8
	eor	v3.16b, v3.16b, v0.16b
	vj_load	q4, x9, .L1_a64_CPI63_4
	movk	w21, #15470, lsl #16
	add	x0, x20, #272
	mov	v2.s[1], v1.s[1]
	vj_load	d1, x10, .L1_a64_CPI63_5
	add	x1, sp, #760
	str	q4, [sp, #144]
	dup	v6.4s, v3.s[1]
	dup	v7.4s, v3.s[2]
	stur	d1, [x20, #84]
	dup	v5.4s, v3.s[0]
	dup	v3.4s, v3.s[3]
	stur	q4, [x20, #68]
	mov	w2, #960
	mov	v1.16b, v2.16b
	ld1	{ v2.d }[1], [x8]
	vj_page	x8, .L1_a64_CPI63_2
	vj_load	q4, x8, .L1_a64_CPI63_2
	stp	q7, q6, [sp, #96]
	add	x8, x20, #64
	stp	q5, q5, [x20, #128]
	eor	v2.16b, v2.16b, v4.16b
	stp	q6, q6, [x20, #160]
	str	q5, [sp, #128]
	str	q3, [sp, #80]
	dup	v6.4s, v2.s[0]
	stp	q3, q3, [x20, #224]
	dup	v5.4s, v2.s[1]
	st1	{ v2.s }[2], [x8]
	vj_page	x8, .L1_a64_CPI63_1
	vj_address	x8, x8, .L1_a64_CPI63_1
	dup	v3.4s, v2.s[3]
	add	x8, x8, #8
	str	w21, [x20, #92]
	stp	q6, q2, [sp, #16]
	ldr	q2, [sp, #160]
	ld1	{ v1.d }[1], [x8]
	stp	q6, q6, [x20]
	eor	v0.16b, v2.16b, v0.16b
	stp	q5, q5, [x20, #32]
	stp	q3, q3, [x20, #96]
	stp	q7, q7, [x20, #192]
	str	q0, [sp, #160]
	eor	v0.16b, v1.16b, v4.16b
	stp	q3, q0, [sp, #48]
	str	q5, [sp]
	stp	xzr, x22, [x20, #256]
	vj_c_call	memcpy
	ldp	q1, q0, [sp]
	add	x8, x20, #1296
	orr	w9, w21, #0x2
	str	x22, [x20, #1520]
	str	w9, [x20, #1316]
	str	q0, [x20, #1232]
	str	q0, [x20, #1248]
	ldr	q0, [sp, #32]
	str	q1, [x20, #1264]
	st1	{ v0.s }[2], [x8]
	ldr	q0, [sp, #144]
	add	x8, x20, #1300
	str	q1, [x20, #1280]
	str	q0, [x8]
	vj_page	x8, .L1_a64_CPI63_6
	vj_load	d0, x8, .L1_a64_CPI63_6
	str	x27, [x20, #1528]
	str	d0, [x20, #1320]
	ldr	q0, [sp, #48]
	str	q0, [x20, #1328]
	str	q0, [x20, #1344]
	ldr	q0, [sp, #128]
	str	q0, [x20, #1360]
	str	q0, [x20, #1376]
	ldr	q0, [sp, #112]
	str	q0, [x20, #1392]
	str	q0, [x20, #1408]
	ldr	q0, [sp, #96]
	str	q0, [x20, #1424]
	str	q0, [x20, #1440]
	ldr	q0, [sp, #80]
	str	q0, [x20, #1456]
	str	q0, [x20, #1472]
	ldr	q0, [sp, #64]
	str	q0, [x20, #1488]
	ldr	q0, [sp, #160]
	str	q0, [x20, #1504]
	ldp	q0, q1, [sp, #176]
	str	q0, [x20, #1536]
	str	q1, [x20, #1552]
	ldp	q0, q1, [sp, #208]
	str	q0, [x20, #1568]
	str	q1, [x20, #1584]
3:
	mov	w0, w19
	add	sp, sp, #1728
	ldp	x20, x19, [sp, #80]
	ldp	x22, x21, [sp, #64]
	ldp	x24, x23, [sp, #48]
	ldp	x26, x25, [sp, #32]
	ldp	x28, x27, [sp, #16]
	ldp	x29, x30, [sp], #96
	ret
	vj_end	b2sum..hashes..init_state..c5fd3bf45536a406_1_a64

	vj_constants	8
	.p2align	3, 0x0
.L1_a64_CPI64_0:
	.short	64
	.short	512
	.zero	2
	.zero	2
	vj_constants	16
	.p2align	4, 0x0
.L1_a64_CPI64_1:
	.quad	7640891576956012808
	.quad	-4942790177534073029
.L1_a64_CPI64_2:
	.quad	4354685564936828971
	.quad	-6534734903238641935
.L1_a64_CPI64_3:
	.quad	2270897969802886507
	.quad	6620516959819538809
.L1_a64_CPI64_4:
	.quad	5840696475078001361
	.quad	-7276294671716946913
	vj_export	b2sum..hashes..absorb_tree..5254a3ddd78d1e3f.proved_1_a64
	stp	x29, x30, [sp, #-96]!
	sub	x9, sp, #832
	stp	x28, x27, [sp, #16]
	mov	x29, sp
	stp	x26, x25, [sp, #32]
	stp	x24, x23, [sp, #48]
	stp	x22, x21, [sp, #64]
	stp	x20, x19, [sp, #80]
	and	sp, x9, #0xffffffffffffffe0
	mov	x26, x3
	mov	x1, x4
	mov	x2, x5
	ldr	x19, [x26, #128]!
	ldr	x23, [x26, #560]
	ldr	x24, [x26, #568]
	ldr	w20, [x26, #8]
	mov	x22, x5
	mov	x25, x4
	mov	x21, x3
	mov	x27, x0
	bl	b2sum..disk..OpenedOpenFile..read..ec2583f154d97a77_1_a64
	tst	w0, #0xff
	b.eq	1f
	mov	w0, wzr
	b	15f
1:
	madd	x8, x24, x23, x19
	mov	x9, #288230376151711743
	stp	x25, x22, [sp, #40]
	sub	x9, x9, x20
	str	x26, [sp, #72]
	str	x27, [sp, #32]
	sub	x23, x9, x8
	b	5f
2:
	mov	x0, x21
	mov	x1, x24
	mov	x2, x25
	bl	blake2_state..blake2b..State..absorb_blocks_1_a64
	ldp	x25, x22, [sp, #40]
	ldr	x27, [sp, #32]
3:
	ldp	x20, x23, [sp, #56]
4:
	mov	x0, x27
	mov	x1, x25
	mov	x2, x22
	sub	x23, x23, x20
	bl	b2sum..disk..OpenedOpenFile..read..ec2583f154d97a77_1_a64
	tst	w0, #0xff
	b.ne	14f
5:
	sub	x8, x1, #1
	mov	x20, x1
	cmp	x8, x23
	b.hs	14f
	ldr	x9, [x21, #128]
	ldr	w8, [x21, #136]
	ldr	x10, [x21, #696]
	add	x9, x9, x8
	sub	x9, x10, x9
	cmp	x20, x9
	b.ls	9f
	mov	x0, x21
	mov	x1, x25
	mov	x2, x20
	stp	x20, x23, [sp, #56]
	bl	blake2_state..tree..TreeState..close_leaf_1_a64
	ldr	x19, [x21, #696]
	mov	x25, x1
	mov	x24, x0
	cmp	x19, x1
	b.lo	7f
	b	8f
6:
	mov	x0, x21
	mov	x1, x24
	mov	x2, x25
	bl	blake2_state..tree..TreeState..close_leaf_1_a64
	mov	x24, x0
	mov	x25, x1
	ldr	x19, [x21, #696]
	cmp	x19, x1
	b.hs	8f
7:
	cmp	x25, x19, lsl #2
	b.ls	6b
	ldr	x26, [x21, #704]
	ldr	x27, [x21, #712]
	add	x0, sp, #672
	add	x1, x21, #720
	str	xzr, [sp, #680]
	mov	x2, x26
	str	xzr, [sp, #672]
	vj_c_call	memcpy
	add	x0, sp, #688
	add	x1, x21, #736
	mov	x2, x27
	str	xzr, [sp, #696]
	str	xzr, [sp, #688]
	vj_c_call	memcpy
	ldp	q0, q1, [sp, #672]
	add	x8, sp, #608
	ldr	x1, [x21, #688]
	add	x0, sp, #608
	add	x4, sp, #96
	mov	x2, x24
	mov	x3, x25
	str	x26, [sp, #624]
	str	q0, [sp, #608]
	movi	v0.2d, #0000000000000000
	stur	q1, [x8, #24]
	str	x27, [sp, #648]
	str	w19, [sp, #656]
	str	wzr, [sp, #660]
	stp	q0, q0, [sp, #96]
	stp	q0, q0, [sp, #128]
	stp	q0, q0, [sp, #160]
	stp	q0, q0, [sp, #192]
	stp	q0, q0, [sp, #224]
	stp	q0, q0, [sp, #256]
	stp	q0, q0, [sp, #288]
	stp	q0, q0, [sp, #320]
	stp	q0, q0, [sp, #352]
	stp	q0, q0, [sp, #384]
	stp	q0, q0, [sp, #416]
	stp	q0, q0, [sp, #448]
	stp	q0, q0, [sp, #480]
	stp	q0, q0, [sp, #512]
	stp	q0, q0, [sp, #544]
	stp	q0, q0, [sp, #576]
	vj_call	blake2_tree..nodes..Nodes..hash_next_1_arm
	ldr	x22, [x21, #696]
	ldr	x27, [x21, #704]
	mov	x28, x0
	lsl	x19, x0, #6
	ldr	x26, [x21, #712]
	add	x1, x21, #720
	mul	x23, x22, x0
	add	x0, sp, #768
	mov	x2, x27
	str	xzr, [sp, #776]
	str	xzr, [sp, #768]
	vj_c_call	memcpy
	add	x0, sp, #784
	add	x1, x21, #736
	mov	x2, x26
	str	xzr, [sp, #792]
	str	xzr, [sp, #784]
	vj_c_call	memcpy
	ldp	q0, q1, [sp, #768]
	add	x20, sp, #704
	add	x0, x21, #344
	add	x1, sp, #96
	mov	x2, x19
	str	x27, [sp, #720]
	str	q0, [sp, #704]
	stur	q1, [x20, #24]
	str	x26, [sp, #744]
	str	w22, [sp, #752]
	str	wzr, [sp, #756]
	bl	blake2_state..blake2b..State..absorb_blocks_1_a64
	dup	v0.2s, w22
	vj_page	x8, .L1_a64_CPI64_0
	and	x9, x28, #0x3ffffffffffffff
	vj_load	d1, x8, .L1_a64_CPI64_0
	ldr	x8, [x21, #688]
	add	x0, sp, #800
	add	x1, sp, #704
	mov	x2, x27
	add	x8, x8, x9
	mov	v1.s[1], v0.s[1]
	fmov	d0, x8
	str	x8, [x21, #688]
	mov	v1.d[1], v0.d[0]
	movi	v0.2d, #0000000000000000
	str	q1, [sp, #80]
	stp	q0, q0, [sp, #800]
	vj_c_call	memcpy
	add	x8, sp, #800
	add	x1, x20, #24
	mov	x2, x26
	orr	x0, x8, #0x10
	ldr	x26, [sp, #72]
	vj_c_call	memcpy
	vj_page	x8, .L1_a64_CPI64_1
	ldr	q2, [sp, #80]
	stp	xzr, xzr, [x26]
	vj_load	q0, x8, .L1_a64_CPI64_1
	vj_page	x8, .L1_a64_CPI64_4
	add	x24, x24, x23
	vj_load	q1, x8, .L1_a64_CPI64_4
	vj_page	x8, .L1_a64_CPI64_3
	sub	x25, x25, x23
	eor	v0.16b, v2.16b, v0.16b
	ldp	q2, q3, [sp, #800]
	vj_load	q4, x8, .L1_a64_CPI64_3
	vj_page	x8, .L1_a64_CPI64_2
	eor	v1.16b, v2.16b, v1.16b
	vj_load	q2, x8, .L1_a64_CPI64_2
	eor	v3.16b, v3.16b, v4.16b
	mov	w8, #64
	stp	q0, q2, [x21]
	stp	q0, q2, [x21, #64]
	movi	v0.2d, #0000000000000000
	str	w8, [x21, #144]
	add	x8, x21, #148
	stp	q1, q3, [x21, #32]
	stp	q1, q3, [x21, #96]
	stp	q0, q0, [x8]
	stp	q0, q0, [x8, #32]
	stp	q0, q0, [x8, #64]
	stp	q0, q0, [x8, #96]
	stp	q0, q0, [x8, #128]
	stp	q0, q0, [x8, #160]
	str	wzr, [x8, #192]
	ldr	x19, [x21, #696]
	cmp	x19, x25
	b.lo	7b
8:
	cmp	x25, #1
	b.ne	2b
	ldr	w8, [x21, #136]
	ldr	x27, [sp, #32]
	cmp	w8, #128
	b.hs	11f
	ldrb	w9, [x24]
	add	w10, w8, #1
	add	x11, x21, #152
	strb	w9, [x11, x8]
	str	w10, [x21, #136]
	b	12f
9:
	cmp	x20, #1
	b.ne	10f
	cmp	w8, #128
	b.hs	13f
	ldrb	w9, [x25]
	add	w10, w8, #1
	add	x11, x21, #152
	strb	w9, [x11, x8]
	str	w10, [x21, #136]
	b	4b
10:
	mov	x0, x21
	mov	x1, x25
	mov	x2, x20
	bl	blake2_state..blake2b..State..absorb_blocks_1_a64
	b	4b
11:
	mov	x0, x21
	mov	x1, x24
	mov	w2, #1
	bl	blake2_state..blake2b..State..absorb_blocks_1_a64
12:
	ldp	x25, x22, [sp, #40]
	b	3b
13:
	mov	x0, x21
	mov	x1, x25
	mov	w2, #1
	bl	blake2_state..blake2b..State..absorb_blocks_1_a64
	b	4b
14:
	cmp	x20, #0
	cset	w0, eq
15:
	mov	sp, x29
	ldp	x20, x19, [sp, #80]
	ldp	x22, x21, [sp, #64]
	ldp	x24, x23, [sp, #48]
	ldp	x26, x25, [sp, #32]
	ldp	x28, x27, [sp, #16]
	ldp	x29, x30, [sp], #96
	ret
	vj_end	b2sum..hashes..absorb_tree..5254a3ddd78d1e3f.proved_1_a64

	vj_constants	8
	.p2align	3, 0x0
.L1_a64_CPI65_0:
	.short	64
	.short	512
	.zero	2
	.zero	2
	vj_constants	16
	.p2align	4, 0x0
.L1_a64_CPI65_1:
	.quad	7640891576956012808
	.quad	-4942790177534073029
.L1_a64_CPI65_2:
	.quad	4354685564936828971
	.quad	-6534734903238641935
.L1_a64_CPI65_3:
	.quad	2270897969802886507
	.quad	6620516959819538809
.L1_a64_CPI65_4:
	.quad	5840696475078001361
	.quad	-7276294671716946913
	vj_function	blake2_state..tree..TreeState..close_leaf_1_a64
	stp	x29, x30, [sp, #-96]!
	sub	x9, sp, #288
	stp	x28, x27, [sp, #16]
	mov	x29, sp
	stp	x26, x25, [sp, #32]
	stp	x24, x23, [sp, #48]
	stp	x22, x21, [sp, #64]
	stp	x20, x19, [sp, #80]
	and	sp, x9, #0xffffffffffffffe0
	mov	x25, x0
	mov	x22, x2
	mov	x19, x0
	ldr	x9, [x25, #128]!
	ldr	w8, [x25, #8]
	ldr	x10, [x25, #568]
	mov	x21, x1
	add	x9, x9, x8
	sub	x20, x10, x9
	cmp	x20, #1
	b.ne	1f
	cmp	w8, #128
	b.hs	2f
	ldrb	w9, [x21]
	add	x10, x19, x8
	add	w8, w8, #1
	str	w8, [x19, #136]
	strb	w9, [x10, #152]
	b	4f
1:
	mov	x0, x19
	mov	x1, x21
	mov	x2, x20
	b	3f
2:
	mov	x0, x19
	mov	x1, x21
	mov	w2, #1
3:
	bl	blake2_state..blake2b..State..absorb_blocks_1_a64
4:
	ldr	x24, [x19, #704]
	ldr	x23, [x19, #712]
	add	x0, sp, #160
	ldr	w27, [x19, #696]
	add	x1, x19, #720
	stp	xzr, xzr, [sp, #160]
	mov	x2, x24
	sub	x22, x22, x20
	vj_c_call	memcpy
	add	x0, sp, #176
	add	x1, x19, #736
	mov	x2, x23
	stp	xzr, xzr, [sp, #176]
	vj_c_call	memcpy
	ldr	q0, [sp, #160]
	mov	x26, x19
	add	x1, sp, #192
	mov	x0, x19
	str	x24, [sp, #112]
	add	x28, sp, #96
	str	q0, [sp, #96]
	ldr	q0, [sp, #176]
	str	x23, [sp, #136]
	stur	q0, [sp, #120]
	movi	v0.2d, #0000000000000000
	stp	w27, wzr, [sp, #144]
	str	wzr, [x26, #148]!
	stp	q0, q0, [sp, #192]
	stp	q0, q0, [sp, #224]
	bl	blake2_state..blake2b..State..write_digest_1_a64
	ldp	q0, q1, [sp, #192]
	add	x0, x19, #344
	add	x1, sp, #32
	mov	w2, #64
	stp	q0, q1, [sp, #32]
	ldp	q0, q2, [sp, #224]
	stp	q0, q2, [sp, #64]
	bl	blake2_state..blake2b..State..absorb_blocks_1_a64
	dup	v0.2s, w27
	vj_page	x8, .L1_a64_CPI65_0
	add	x0, sp, #256
	vj_load	d1, x8, .L1_a64_CPI65_0
	ldr	x8, [x19, #688]
	add	x1, sp, #96
	mov	x2, x24
	add	x24, sp, #256
	add	x8, x8, #1
	mov	v1.s[1], v0.s[1]
	fmov	d0, x8
	str	x8, [x19, #688]
	mov	v1.d[1], v0.d[0]
	movi	v0.2d, #0000000000000000
	str	q1, [sp, #16]
	stp	q0, q0, [sp, #256]
	vj_c_call	memcpy
	orr	x0, x24, #0x10
	add	x1, x28, #24
	mov	x2, x23
	vj_c_call	memcpy
	vj_page	x8, .L1_a64_CPI65_1
	ldr	q2, [sp, #16]
	stp	xzr, xzr, [x25]
	vj_load	q0, x8, .L1_a64_CPI65_1
	vj_page	x8, .L1_a64_CPI65_4
	add	x0, x21, x20
	vj_load	q1, x8, .L1_a64_CPI65_4
	vj_page	x8, .L1_a64_CPI65_3
	mov	x1, x22
	eor	v0.16b, v2.16b, v0.16b
	ldp	q2, q3, [sp, #256]
	vj_load	q4, x8, .L1_a64_CPI65_3
	vj_page	x8, .L1_a64_CPI65_2
	str	wzr, [x19, #340]
	eor	v1.16b, v2.16b, v1.16b
	vj_load	q2, x8, .L1_a64_CPI65_2
	eor	v3.16b, v3.16b, v4.16b
	mov	w8, #64
	stp	q0, q2, [x19]
	stp	q1, q3, [x19, #32]
	stp	q0, q2, [x19, #64]
	movi	v0.2d, #0000000000000000
	stp	q1, q3, [x19, #96]
	str	w8, [x19, #144]
	str	q0, [x26]
	stur	q0, [x19, #164]
	stur	q0, [x19, #180]
	stur	q0, [x19, #196]
	stur	q0, [x19, #212]
	stur	q0, [x19, #228]
	stur	q0, [x19, #244]
	stp	q0, q0, [x26, #112]
	stp	q0, q0, [x26, #144]
	str	q0, [x26, #176]
	mov	sp, x29
	ldp	x20, x19, [sp, #80]
	ldp	x22, x21, [sp, #64]
	ldp	x24, x23, [sp, #48]
	ldp	x26, x25, [sp, #32]
	ldp	x28, x27, [sp, #16]
	ldp	x29, x30, [sp], #96
	ret
	vj_end	blake2_state..tree..TreeState..close_leaf_1_a64

	vj_function	b2sum_commands..check..push_digest_1_a64
	stp	x29, x30, [sp, #-80]!
	stp	x22, x21, [sp, #48]
	mov	x22, x0
	mov	x29, sp
	ldp	x9, x8, [x22, #8]!
	stp	x20, x19, [sp, #64]
	mov	x19, x0
	stp	x26, x25, [sp, #16]
	sub	x10, x8, x9
	stp	x24, x23, [sp, #32]
	cmp	x10, #11
	b.ls	10f
1:
	ldr	x10, [x19]
	stp	xzr, xzr, [x22]
	add	x11, x10, x9
	add	x9, x9, #12
	sub	x12, x11, x1
	cmp	x12, #11
	b.hi	2f
	ldrb	w12, [x1]
	strb	w12, [x11]
	ldrb	w12, [x1, #1]
	strb	w12, [x11, #1]
	ldrb	w12, [x1, #2]
	strb	w12, [x11, #2]
	ldrb	w12, [x1, #3]
	strb	w12, [x11, #3]
	ldrb	w12, [x1, #4]
	strb	w12, [x11, #4]
	ldrb	w12, [x1, #5]
	strb	w12, [x11, #5]
	ldrb	w12, [x1, #6]
	strb	w12, [x11, #6]
	ldrb	w12, [x1, #7]
	strb	w12, [x11, #7]
	ldrb	w12, [x1, #8]
	strb	w12, [x11, #8]
	ldrb	w12, [x1, #9]
	strb	w12, [x11, #9]
	ldrb	w12, [x1, #10]
	strb	w12, [x11, #10]
	ldrb	w12, [x1, #11]
	strb	w12, [x11, #11]
	stp	x10, x9, [x19]
	str	x8, [x19, #16]
	tbz	x3, #63, 3f
	b	23f
2:
	ldr	w12, [x1, #8]
	ldr	x13, [x1]
	str	w12, [x11, #8]
	str	x13, [x11]
	stp	x10, x9, [x19]
	str	x8, [x19, #16]
	tbnz	x3, #63, 23f
3:
	cbz	x3, 9f
	bic	x25, x3, x3, asr #63
	lsl	x21, x25, #1
	tbnz	x21, #63, 23f
	mov	x0, x21
	mov	w1, #1
	mov	x23, x2
	mov	x24, x3
	vj_call	rattle_alloc
	mov	x8, x0
	mov	w0, #1
	tbz	w8, #0, 14f
	mov	x20, x1
	sub	x2, x21, #1
	mov	x0, x1
	mov	w1, wzr
	sub	x26, x21, #1
	vj_c_call	memset
	mov	x8, xzr
	add	x10, x20, #1
	mov	x9, x24
	strb	wzr, [x20, x26]
4:
	ldrb	w11, [x23, x8]
	vj_page	x13, .L1_a64_static.189
	vj_address	x13, x13, .L1_a64_static.189
	add	x8, x8, #1
	lsr	x12, x11, #4
	and	x11, x11, #0xf
	cmp	x9, x8
	ldrb	w12, [x13, x12]
	sturb	w12, [x10, #-1]
	ldrb	w11, [x13, x11]
	strb	w11, [x10], #2
	b.ne	4b
	ldp	x8, x23, [x19, #8]
	sub	x10, x23, x8
	cmp	x21, x10
	b.hi	21f
5:
	ldr	x24, [x19]
	add	x26, x8, x21
	stp	xzr, xzr, [x22]
	add	x0, x24, x8
	sub	x10, x0, x20
	cmp	x10, x21
	b.hs	11f
	cmp	x9, #4
	b.lt	6f
	add	x10, x8, x24
	sub	x10, x10, x20
	cmp	x10, #32
	b.hs	16f
6:
	mov	x9, xzr
7:
	add	x10, x9, x8
	sub	x8, x9, x21
	add	x9, x20, x9
	add	x10, x24, x10
8:
	ldrb	w11, [x9], #1
	adds	x8, x8, #1
	strb	w11, [x10], #1
	b.lo	8b
	b	12f
9:
	stp	x9, x8, [x19, #8]
	cmp	x8, x9
	b.ne	13f
	b	15f
10:
	mov	x20, x1
	mov	x0, x19
	mov	w1, #12
	mov	x21, x2
	mov	x23, x3
	bl	std_alloc..vec..Vec..grow_amortized..01eec35b572d02af_1_a64
	cbz	w0, 23f
	ldp	x9, x8, [x19, #8]
	mov	x3, x23
	mov	x2, x21
	mov	x1, x20
	b	1b
11:
	mov	x1, x20
	mov	x2, x21
	vj_c_call	memmove
12:
	mov	x0, x20
	stp	x24, x26, [x19]
	str	x23, [x19, #16]
	vj_call	rattle_dealloc
	ldp	x9, x8, [x19, #8]
	cmp	x8, x9
	b.eq	15f
13:
	ldr	x8, [x19]
	add	x11, x9, #1
	mov	w0, wzr
	mov	w10, #10
	strb	w10, [x8, x9]
	str	x11, [x19, #8]
14:
	ldp	x20, x19, [sp, #64]
	ldp	x22, x21, [sp, #48]
	ldp	x24, x23, [sp, #32]
	ldp	x26, x25, [sp, #16]
	ldp	x29, x30, [sp], #80
	ret
15:
	mov	x0, x19
	mov	w1, #1
	mov	w20, #1
	bl	std_alloc..vec..Vec..grow_amortized..01eec35b572d02af_1_a64
	mov	w8, w0
	mov	w0, w20
	cbz	w8, 14b
	ldr	x9, [x22]
	b	13b
16:
	cmp	x9, #16
	b.ge	17f
	mov	x9, xzr
	b	19f
17:
	add	x11, x8, x24
	and	x9, x21, #0x7fffffffffffffe0
	add	x10, x20, #16
	add	x11, x11, #16
	and	x12, x21, #0x7fffffffffffffe0
18:
	ldp	q0, q1, [x10, #-16]
	subs	x12, x12, #32
	add	x10, x10, #32
	stp	q0, q1, [x11, #-16]
	add	x11, x11, #32
	b.ne	18b
	cmp	x21, x9
	b.eq	12b
	tst	x25, #0xc
	b.eq	7b
19:
	mov	x11, x9
	and	x9, x21, #0x7ffffffffffffff8
	add	x12, x8, x11
	sub	x10, x11, x9
	add	x11, x20, x11
	add	x12, x24, x12
20:
	ldr	d0, [x11], #8
	adds	x10, x10, #8
	str	d0, [x12], #8
	b.ne	20b
	cmp	x21, x9
	b.eq	12b
	b	7b
21:
	mov	x0, x19
	mov	x1, x21
	bl	std_alloc..vec..Vec..grow_amortized..01eec35b572d02af_1_a64
	cbz	w0, 22f
	ldp	x8, x23, [x19, #8]
	mov	x9, x24
	b	5b
22:
	mov	x0, x20
	vj_call	rattle_dealloc
23:
	mov	w0, #1
	ldp	x20, x19, [sp, #64]
	ldp	x22, x21, [sp, #48]
	ldp	x24, x23, [sp, #32]
	ldp	x26, x25, [sp, #16]
	ldp	x29, x30, [sp], #80
	ret
	vj_end	b2sum_commands..check..push_digest_1_a64

	vj_function	b2sum_lines..names..push_escaped_1_a64
	cbz	x2, 14f
	stp	x29, x30, [sp, #-48]!
	ldr	x8, [x0, #8]
	stp	x22, x21, [sp, #16]
	mov	x21, x0
	stp	x20, x19, [sp, #32]
	mov	x19, x2
	mov	x20, x1
	mov	x29, sp
	b	4f
1:
	sub	x10, x9, x8
	cmp	x10, #1
	b.ls	9f
2:
	ldr	x10, [x21]
	vj_page	x12, .L1_a64_static.194
	vj_address	x12, x12, .L1_a64_static.194
	add	x11, x10, x8
	sub	x12, x11, x12
	cmp	x12, #1
	mov	w12, #29276
3:
	strh	w12, [x11]
	add	x8, x8, #2
	str	x9, [x21, #16]
	stp	x10, x8, [x21]
	subs	x19, x19, #1
	b.eq	13f
4:
	ldrb	w22, [x20], #1
	ldr	x9, [x21, #16]
	cmp	w22, #10
	b.eq	6f
	cmp	w22, #13
	b.eq	1b
	cmp	w22, #92
	b.ne	8f
	sub	x10, x9, x8
	cmp	x10, #1
	b.ls	11f
5:
	ldr	x10, [x21]
	mov	w11, #23644
	strh	w11, [x10, x8]
	add	x8, x8, #2
	str	x9, [x21, #16]
	stp	x10, x8, [x21]
	subs	x19, x19, #1
	b.ne	4b
	b	13f
6:
	sub	x10, x9, x8
	cmp	x10, #1
	b.ls	10f
7:
	ldr	x10, [x21]
	vj_page	x12, .L1_a64_static.193
	vj_address	x12, x12, .L1_a64_static.193
	add	x11, x10, x8
	sub	x12, x11, x12
	cmp	x12, #1
	mov	w12, #28252
	b	3b
8:
	cmp	x9, x8
	b.eq	12f
	ldr	x9, [x21]
	strb	w22, [x9, x8]
	add	x8, x8, #1
	str	x8, [x21, #8]
	subs	x19, x19, #1
	b.ne	4b
	b	13f
9:
	mov	x0, x21
	mov	w1, #2
	bl	std_alloc..vec..Vec..grow_amortized..01eec35b572d02af_1_a64
	cbz	w0, 15f
	ldp	x8, x9, [x21, #8]
	b	2b
10:
	mov	x0, x21
	mov	w1, #2
	bl	std_alloc..vec..Vec..grow_amortized..01eec35b572d02af_1_a64
	cbz	w0, 15f
	ldp	x8, x9, [x21, #8]
	b	7b
11:
	mov	x0, x21
	mov	w1, #2
	bl	std_alloc..vec..Vec..grow_amortized..01eec35b572d02af_1_a64
	cbz	w0, 15f
	ldp	x8, x9, [x21, #8]
	b	5b
12:
	mov	x0, x21
	mov	w1, #1
	bl	std_alloc..vec..Vec..grow_amortized..01eec35b572d02af_1_a64
	cbz	w0, 15f
	ldp	x9, x8, [x21]
	strb	w22, [x9, x8]
	add	x8, x8, #1
	str	x8, [x21, #8]
	subs	x19, x19, #1
	b.ne	4b
13:
	mov	w0, wzr
	ldp	x20, x19, [sp, #32]
	ldp	x22, x21, [sp, #16]
	ldp	x29, x30, [sp], #48
	ret
14:
	mov	w0, wzr
	ret
15:
	mov	w0, #1
	ldp	x20, x19, [sp, #32]
	ldp	x22, x21, [sp, #16]
	ldp	x29, x30, [sp], #48
	ret
	vj_end	b2sum_lines..names..push_escaped_1_a64

	vj_function	b2sum_commands..sealed_checks..read_list_from..fab5d8e6f6068f4d_1_a64
	sub	sp, sp, #384
	movi	v0.2d, #0000000000000000
	stp	x26, x25, [sp, #320]
	mov	x26, x1
	stp	x20, x19, [sp, #368]
	mov	x19, x0
	mov	w0, #65536
	mov	w1, #1
	stp	x29, x30, [sp, #288]
	add	x29, sp, #288
	stp	x28, x27, [sp, #304]
	mov	x25, x2
	stp	x24, x23, [sp, #336]
	mov	x23, x4
	mov	x24, x3
	stp	x22, x21, [sp, #352]
	mov	x22, x5
	mov	w21, #1
	str	xzr, [sp, #112]
	stp	q0, q0, [sp, #48]
	stp	q0, q0, [sp, #80]
	str	q0, [sp, #32]
	vj_call	rattle_alloc
	tbz	w0, #0, 15f
	mov	x20, x1
	mov	x0, x1
	mov	w1, wzr
	mov	w2, #65536
	stp	x26, x22, [sp, #16]
	vj_c_call	memset
	sub	x26, x29, #17
	mov	x21, xzr
	mov	x28, xzr
	mov	x22, xzr
	stp	xzr, xzr, [x29, #-56]
	stur	x26, [x29, #-64]
1:
	mov	x0, x25
	mov	x1, x20
	mov	w2, #65536
	bl	b2sum..disk..OpenedOpenFile..read..ec2583f154d97a77_1_a64
	tst	w0, #0xff
	b.ne	16f
	mov	x27, x1
	cbz	x1, 18f
	sub	x8, x28, x21
	cmp	x27, x8
	b.hi	11f
	add	x8, x26, x21
	sub	x8, x8, x20
	cmp	x8, x27
	b.hs	12f
2:
	cmp	x27, #8
	b.lo	3f
	sub	x8, x21, x20
	add	x8, x8, x26
	cmp	x8, #32
	b.hs	6f
3:
	mov	x8, xzr
4:
	add	x10, x8, x21
	sub	x9, x27, x8
	add	x8, x20, x8
	add	x10, x26, x10
5:
	ldrb	w11, [x8], #1
	subs	x9, x9, #1
	strb	w11, [x10], #1
	b.ne	5b
	b	13f
6:
	cmp	x27, #32
	b.hs	7f
	mov	x8, xzr
	b	9f
7:
	add	x10, x26, x21
	and	x9, x27, #0x18
	and	x8, x27, #0xffffffffffffffe0
	add	x10, x10, #16
	add	x11, x20, #16
	and	x12, x27, #0xffffffffffffffe0
8:
	ldp	q0, q1, [x11, #-16]
	subs	x12, x12, #32
	add	x11, x11, #32
	stp	q0, q1, [x10, #-16]
	add	x10, x10, #32
	b.ne	8b
	cmp	x27, x8
	b.eq	13f
	cbz	x9, 4b
9:
	mov	x10, x8
	and	x8, x27, #0xfffffffffffffff8
	add	x11, x21, x10
	sub	x9, x10, x8
	add	x10, x20, x10
	add	x11, x26, x11
10:
	ldr	d0, [x10], #8
	adds	x9, x9, #8
	str	d0, [x11], #8
	b.ne	10b
	cmp	x27, x8
	b.eq	13f
	b	4b
11:
	sub	x0, x29, #64
	mov	x1, x27
	bl	std_alloc..vec..Vec..grow_amortized..01eec35b572d02af_1_a64
	cbz	w0, 32f
	ldp	x21, x28, [x29, #-56]
	ldur	x26, [x29, #-64]
	add	x8, x26, x21
	sub	x8, x8, x20
	cmp	x8, x27
	b.lo	2b
12:
	add	x0, x26, x21
	mov	x1, x20
	mov	x2, x27
	vj_c_call	memmove
13:
	add	x21, x21, x27
	mov	w8, #268435456
	cmp	x21, x8
	stp	x21, x28, [x29, #-56]
	b.hi	19f
	add	x22, x22, #1
	cmn	x22, #1
	b.ne	1b
	cbz	x28, 23f
14:
	ldur	x0, [x29, #-64]
	b	22f
15:
	movi	v0.2d, #0000000000000000
	strh	w21, [x19]
	b	30f
16:
	cbz	x28, 17f
	mov	x0, x26
	vj_call	rattle_dealloc
17:
	ldrb	w8, [x25, #32]
	ldr	x2, [sp, #24]
	cmp	w8, #1
	b.ne	24f
	ldur	q0, [x25, #74]
	ldur	q1, [x25, #90]
	add	x10, sp, #128
	ldur	q2, [x25, #106]
	ldr	x8, [x25, #120]
	ldrb	w9, [x25, #40]
	stp	q0, q1, [sp, #160]
	ldur	q0, [x25, #42]
	ldur	q1, [x25, #58]
	str	q2, [sp, #192]
	stur	x8, [x10, #78]
	ldrb	w8, [x25, #41]
	stp	q0, q1, [sp, #128]
	b	25f
18:
	ldur	x22, [x29, #-64]
	mov	x0, x20
	vj_call	rattle_dealloc
	mov	w8, #1
	strh	wzr, [x19]
	stp	x8, x22, [x19, #8]
	stp	x21, x28, [x19, #24]
	b	31f
19:
	movi	v0.2d, #0000000000000000
	ldur	x25, [x29, #-64]
	sub	x0, x29, #64
	mov	x1, x24
	mov	x2, x23
	stp	q0, q0, [x29, #-64]
	bl	b2sum_commands..quoting..quoted_name_1_a64
	ldurb	w8, [x29, #-64]
	cbnz	w8, 21f
	ldp	x8, x2, [sp, #16]
	vj_page	x5, .L1_a64_static.123
	vj_address	x5, x5, .L1_a64_static.123
	ldp	x23, x4, [x29, #-56]
	ldur	x22, [x29, #-40]
	vj_page	x7, .L1_a64_static.196
	vj_address	x7, x7, .L1_a64_static.196
	ldp	x0, x1, [x8]
	mov	w8, #38
	mov	x3, x23
	mov	w6, #2
	str	x8, [sp]
	bl	b2sum_commands..messages..warn..068f3e307c5390f2_1_a64
	and	w21, w0, #0xff
	cbz	x22, 20f
	mov	x0, x23
	vj_call	rattle_dealloc
20:
	tbz	w21, #0, 27f
21:
	cbz	x28, 23f
	mov	x0, x25
22:
	vj_call	rattle_dealloc
23:
	mov	x0, x20
	vj_call	rattle_dealloc
	b	26f
24:
	movi	v0.2d, #0000000000000000
	add	x10, sp, #128
	mov	w8, #40
	mov	w9, #1
	stur	xzr, [x10, #78]
	stp	q0, q0, [sp, #144]
	stp	q0, q0, [sp, #176]
	str	q0, [sp, #128]
25:
	ldp	q0, q1, [sp, #160]
	add	x1, sp, #32
	ldr	x0, [sp, #16]
	strb	w8, [sp, #33]
	mov	x3, x24
	ldr	q2, [sp, #192]
	ldur	x8, [x10, #78]
	mov	x4, x23
	stur	q0, [sp, #66]
	stur	q1, [sp, #82]
	ldp	q0, q1, [sp, #128]
	strb	w9, [sp, #32]
	stur	q2, [sp, #98]
	str	x8, [sp, #112]
	stur	q0, [sp, #34]
	stur	q1, [sp, #50]
	bl	b2sum_commands..messages..warn_of_file..fab5d8e6f6068f4d_1_a64
	and	w21, w0, #0xff
	mov	x0, x20
	vj_call	rattle_dealloc
	tbz	w21, #0, 29f
26:
	mov	w8, #1
	movi	v0.2d, #0000000000000000
	strh	w8, [x19]
	b	30f
27:
	cbz	x28, 28f
	mov	x0, x25
	vj_call	rattle_dealloc
28:
	mov	x0, x20
	vj_call	rattle_dealloc
29:
	movi	v0.2d, #0000000000000000
	strh	wzr, [x19]
30:
	stur	q0, [x19, #8]
	stur	q0, [x19, #24]
31:
	ldp	x20, x19, [sp, #368]
	ldp	x22, x21, [sp, #352]
	ldp	x24, x23, [sp, #336]
	ldp	x26, x25, [sp, #320]
	ldp	x28, x27, [sp, #304]
	ldp	x29, x30, [sp, #288]
	add	sp, sp, #384
	ret
32:
	ldur	x8, [x29, #-48]
	cbnz	x8, 14b
	b	23b
	vj_end	b2sum_commands..sealed_checks..read_list_from..fab5d8e6f6068f4d_1_a64

	vj_constants	8
	.p2align	3, 0x0
.L1_a64_CPI69_0:
	.byte	35
	.byte	32
	.byte	115
	.byte	101
	.byte	97
	.byte	108
	.byte	101
	.byte	100
	vj_function	b2sum_commands..seals..seal_line..d6b15712839574eb_1_a64
	stp	x29, x30, [sp, #-64]!
	stp	x28, x23, [sp, #16]
	mov	x29, sp
	stp	x22, x21, [sp, #32]
	stp	x20, x19, [sp, #48]
	sub	sp, sp, #512
	ldp	x9, x22, [x1, #24]
	mov	w8, #64
	ldp	x11, x10, [x1, #96]
	movi	v0.2d, #0000000000000000
	mov	x19, x0
	add	x0, sp, #160
	add	x1, sp, #104
	cmp	x22, #64
	stp	x8, x9, [sp, #104]
	mov	w9, #16
	csel	x8, x22, x8, lo
	cmp	x10, #16
	mov	x20, x3
	stp	x8, x11, [sp, #120]
	csel	x8, x10, x9, lo
	vj_page	x9, .L1_a64_static.199
	vj_address	x9, x9, .L1_a64_static.199
	mov	x21, x2
	stp	q0, q0, [sp, #32]
	stp	x8, x9, [sp, #136]
	mov	w8, #12
	str	x8, [sp, #152]
	add	x8, sp, #160
	stp	q0, q0, [sp, #64]
	str	xzr, [sp, #496]
	stp	q0, q0, [x8, #16]
	stp	q0, q0, [x8, #48]
	stp	q0, q0, [x8, #80]
	stp	q0, q0, [x8, #112]
	stp	q0, q0, [x8, #144]
	stp	q0, q0, [x8, #176]
	stp	q0, q0, [x8, #208]
	stp	q0, q0, [x8, #240]
	stp	q0, q0, [x8, #272]
	stp	q0, q0, [x8, #304]
	str	q0, [x8]
	bl	b2sum..hashes..init_state..a920819b086c025a_1_a64
	cbz	w0, 6f
	cbz	x22, 1f
	bl	blake2_digest..wiping..scrub_stack..4096_1_a64
1:
	cmp	x20, #1
	b.ne	2f
	ldr	w8, [sp, #296]
	cmp	w8, #128
	b.hs	3f
	ldrb	w9, [x21]
	add	x10, sp, #160
	add	x10, x10, x8
	add	w8, w8, #1
	strb	w9, [x10, #152]
	str	w8, [sp, #296]
	b	5f
2:
	add	x0, sp, #160
	mov	x1, x21
	mov	x2, x20
	b	4f
3:
	add	x0, sp, #160
	mov	x1, x21
	mov	w2, #1
4:
	bl	blake2_state..blake2b..State..absorb_blocks_1_a64
5:
	add	x0, sp, #160
	add	x1, sp, #32
	bl	blake2_state..blake2b..State..write_digest_1_a64
6:
	sub	x8, x29, #1
	add	x0, sp, #8
	mov	w1, #9
	stp	xzr, xzr, [sp, #16]
	str	x8, [sp, #8]
	bl	std_alloc..vec..Vec..grow_amortized..01eec35b572d02af_1_a64
	ldr	x22, [sp, #24]
	cbz	w0, 7f
	ldp	x8, x9, [sp, #8]
	vj_page	x11, .L1_a64_static.197
	vj_address	x11, x11, .L1_a64_static.197
	add	x10, x8, x9
	add	x9, x9, #9
	sub	x12, x10, x11
	cmp	x12, #8
	b.hi	8f
	vj_page	x11, .L1_a64_CPI69_0
	vj_load	d0, x11, .L1_a64_CPI69_0
	mov	w11, #32
	strb	w11, [x10, #8]
	str	d0, [x10]
	b	9f
7:
	cbnz	x22, 18f
	b	21f
8:
	ldr	x11, [x11]
	mov	w12, #32
	strb	w12, [x10, #8]
	str	x11, [x10]
9:
	mov	x10, xzr
	stp	x9, x22, [sp, #16]
10:
	cbz	x20, 11f
	ldrb	w11, [x21], #1
	sub	x20, x20, #1
	cmp	w11, #10
	b.ne	10b
	add	x10, x10, #1
	b	10b
11:
	cmp	x10, #10
	mov	w20, #19
	stp	xzr, xzr, [sp, #160]
	str	wzr, [sp, #176]
	b.lo	13f
	mov	x11, x10
12:
	mov	x10, #-3689348814741910324
	mov	w12, #10
	add	x13, sp, #160
	movk	x10, #52429
	cmp	x11, #99
	umulh	x10, x11, x10
	lsr	x10, x10, #3
	msub	w12, w10, w12, w11
	orr	w11, w12, #0x30
	strb	w11, [x13, x20]
	sub	x20, x20, #1
	mov	x11, x10
	b.hi	12b
13:
	mov	w11, #20
	add	x21, sp, #160
	orr	w10, w10, #0x30
	sub	x2, x11, x20
	sub	x11, x22, x9
	strb	w10, [x21, x20]
	cmp	x2, x11
	b.hi	23f
14:
	add	x0, x8, x9
	add	x1, x21, x20
	add	x23, x9, x2
	vj_c_call	memcpy
	cmp	x22, x23
	stp	x23, x22, [sp, #16]
	b.eq	24f
15:
	ldr	x20, [sp, #8]
	add	x8, x23, #1
	mov	w0, #128
	mov	w1, #1
	mov	w9, #32
	stp	x8, x22, [sp, #16]
	strb	w9, [x20, x23]
	vj_call	rattle_alloc
	tbz	w0, #0, 19f
	movi	v0.2d, #0000000000000000
	mov	x8, xzr
	add	x9, sp, #32
	stp	q0, q0, [x1]
	stp	q0, q0, [x1, #32]
	stp	q0, q0, [x1, #64]
	stp	q0, q0, [x1, #96]
16:
	ldrb	w10, [x9], #1
	vj_page	x12, .L1_a64_static.189
	vj_address	x12, x12, .L1_a64_static.189
	add	x13, x1, x8
	add	x8, x8, #2
	lsr	x11, x10, #4
	and	x10, x10, #0xf
	cmp	x8, #128
	ldrb	w11, [x12, x11]
	strb	w11, [x13]
	ldrb	w10, [x12, x10]
	strb	w10, [x13, #1]
	b.ne	16b
	add	x0, sp, #8
	mov	w2, #128
	mov	x20, x1
	bl	std_alloc..vec..Vec..extend_from_slice..0473daec321ef212_1_a64
	and	w21, w0, #0xff
	mov	x0, x20
	vj_call	rattle_dealloc
	tbnz	w21, #0, 17f
	add	x0, sp, #8
	mov	w1, #10
	bl	std_alloc..vec..Vec..push..a891bc11159506cb_1_a64
	tst	w0, #0xff
	b.eq	22f
17:
	ldr	x8, [sp, #24]
	cbz	x8, 21f
18:
	ldr	x0, [sp, #8]
	b	20f
19:
	cbz	x22, 21f
	mov	x0, x20
20:
	vj_call	rattle_dealloc
21:
	mov	w8, #1
	stp	xzr, xzr, [x19, #16]
	strh	w8, [x19]
	str	xzr, [x19, #8]
	add	sp, sp, #512
	ldp	x20, x19, [sp, #48]
	ldp	x22, x21, [sp, #32]
	ldp	x28, x23, [sp, #16]
	ldp	x29, x30, [sp], #64
	ret
22:
	ldur	q0, [sp, #8]
	ldr	x8, [sp, #24]
	strh	wzr, [x19]
	stur	q0, [x19, #8]
	str	x8, [x19, #24]
	add	sp, sp, #512
	ldp	x20, x19, [sp, #48]
	ldp	x22, x21, [sp, #32]
	ldp	x28, x23, [sp, #16]
	ldp	x29, x30, [sp], #64
	ret
23:
	add	x0, sp, #8
	mov	x1, x2
	mov	x23, x2
	bl	std_alloc..vec..Vec..grow_amortized..01eec35b572d02af_1_a64
	cbz	w0, 17b
	ldp	x9, x22, [sp, #16]
	mov	x2, x23
	ldr	x8, [sp, #8]
	b	14b
24:
	add	x0, sp, #8
	mov	w1, #1
	bl	std_alloc..vec..Vec..grow_amortized..01eec35b572d02af_1_a64
	cbz	w0, 17b
	ldp	x23, x22, [sp, #16]
	b	15b
	vj_end	b2sum_commands..seals..seal_line..d6b15712839574eb_1_a64

	vj_function	b2sum_commands..listed_ahead..go_on_in_list..432d41b752d14b0e_1_a64
	ldr	x8, [x2, #24]
	ldr	x9, [x2, #40]
	adds	x10, x8, #1
	csinv	x10, x10, xzr, lo
	cmp	x9, x8
	str	x10, [x2, #24]
	b.hi	1f
	ldr	x8, [x0, #32]
	cbz	x8, 2f
1:
	ret
2:
	ldrb	w8, [x0, #216]
	cmp	w8, #1
	b.eq	1b
	sub	sp, sp, #352
	movi	v0.2d, #0000000000000000
	ldp	x4, x5, [x1]
	stp	x29, x30, [sp, #256]
	add	x29, sp, #256
	ldrb	w3, [x1, #33]
	stp	x28, x27, [sp, #272]
	ldr	x28, [x2, #48]
	stp	x20, x19, [sp, #336]
	mov	x20, x2
	ldrb	w2, [x1, #32]
	mov	x19, x1
	mov	x1, x0
	sub	x0, x29, #96
	stp	x26, x25, [sp, #288]
	stp	x24, x23, [sp, #304]
	stp	x22, x21, [sp, #320]
	mov	x21, x1
	stp	q0, q0, [x29, #-80]
	stp	q0, q0, [x29, #-48]
	stur	q0, [x29, #-96]
	bl	b2sum_commands..check..read_item_1_a64
	ldurb	w8, [x29, #-96]
	cbnz	w8, 3f
	ldurb	w8, [x29, #-88]
	cmp	w8, #1
	b.eq	4f
3:
	ldp	x20, x19, [sp, #336]
	ldp	x22, x21, [sp, #320]
	ldp	x24, x23, [sp, #304]
	ldp	x26, x25, [sp, #288]
	ldp	x28, x27, [sp, #272]
	ldp	x29, x30, [sp, #256]
	add	sp, sp, #352
	ret
4:
	ldurb	w8, [x29, #-24]
	ldur	x25, [x29, #-72]
	sub	w9, w8, #1
	cmp	w9, #2
	b.hs	5f
	mov	w8, #1
	b	7f
5:
	cbnz	w8, 6f
	ldrb	w8, [x19, #32]
	b	7f
6:
	mov	w8, #2
7:
	str	w8, [sp, #96]
	ldurb	w8, [x29, #-80]
	ldur	w27, [x29, #-76]
	ldp	x22, x24, [x29, #-48]
	sub	x0, x29, #120
	str	w8, [sp, #108]
	mov	w1, #1
	ldur	x23, [x29, #-32]
	ldp	x8, x26, [x29, #-64]
	stp	xzr, xzr, [x29, #-112]
	str	x8, [sp, #112]
	sub	x8, x29, #16
	stur	x8, [x29, #-120]
	bl	std_alloc..vec..Vec..grow_amortized..bb23d2d2a8e2d2e5_1_a64
	cbz	w0, 36f
	ldp	x12, x8, [x29, #-120]
	mov	w9, #24
	str	w27, [sp, #92]
	madd	x9, x8, x9, x12
	stp	x22, x24, [x9]
	add	x22, x8, #1
	cmp	x22, x28
	str	x23, [x9, #16]
	stur	x22, [x29, #-112]
	b.hs	42f
	ldr	x27, [x19, #24]
	mov	x0, x21
	cbz	x27, 47f
	ldr	x10, [sp, #112]
	ldr	x23, [x19, #16]
	mov	x8, x19
	str	x26, [sp, #80]
	lsl	x9, x10, #1
	cmn	x10, #1
	csinv	x11, x9, xzr, gt
	mov	x9, #-2
	neg	x10, x11
	str	x10, [sp, #48]
	sub	x10, x9, x11
	add	x9, x11, #18
	str	x9, [sp, #32]
	add	x9, x11, #2
	str	x9, [sp, #40]
8:
	mov	x24, xzr
	mov	x26, x10
9:
	ldrb	w9, [x23, x24]
	cmp	w9, #10
	b.eq	10f
	add	x24, x24, #1
	add	x26, x26, #1
	cmp	x27, x24
	b.ne	9b
	b	46f
10:
	cmp	x24, x11
	stp	x10, x11, [sp, #56]
	str	x25, [sp, #72]
	b.lo	14f
	cbz	x11, 14f
	ldrb	w9, [x23]
	cmp	w9, #48
	b.lo	14f
	ldr	x10, [sp, #48]
	cmp	w9, #58
	add	x10, x10, x24
	b.hs	13f
11:
	cmp	x10, #2
	b.lo	14f
	add	x25, x23, x11
	ldrb	w9, [x25]
	cmp	w9, #32
	b.ne	14f
	ldrb	w9, [x25, #1]
	cmp	w9, #42
	b.eq	12f
	cmp	w9, #32
	b.ne	14f
12:
	ldr	x9, [sp, #48]
	add	x9, x9, x24
	subs	x9, x9, #2
	str	x9, [sp, #24]
	b.eq	14f
	add	x9, x23, x24
	ldurb	w9, [x9, #-1]
	cmp	w9, #13
	b.eq	14f
	ldr	w9, [sp, #96]
	and	w9, w9, #0xff
	cmp	w9, #1
	b.ne	14f
	ldr	x8, [sp, #24]
	str	x12, [sp, #16]
	tbnz	x8, #63, 56f
	ldr	x0, [sp, #24]
	mov	w1, #1
	vj_call	rattle_alloc
	str	x1, [sp, #96]
	tbz	w0, #0, 56f
	ldr	x8, [sp, #96]
	add	x1, x25, #2
	ldr	x9, [sp, #24]
	sub	x8, x8, x1
	cmp	x8, x9
	b.hs	25f
	ldr	x8, [sp, #24]
	cmp	x8, #8
	b.hs	26f
	mov	x8, xzr
	b	32f
13:
	cmp	w9, #65
	b.hs	24f
14:
	movi	v0.2d, #0000000000000000
	ldrb	w3, [x8, #33]
	ldr	w2, [sp, #96]
	sub	x0, x29, #96
	mov	x1, x21
	mov	x4, x23
	mov	x5, x24
	stp	q0, q0, [x29, #-80]
	stp	q0, q0, [x29, #-48]
	stur	q0, [x29, #-96]
	bl	b2sum_commands..check..read_item_1_a64
	ldurb	w8, [x29, #-96]
	cbnz	w8, 56f
	ldurb	w8, [x29, #-88]
	cmp	w8, #1
	b.ne	45f
	ldp	x0, x8, [x29, #-72]
	ldr	x9, [sp, #112]
	ldp	x10, x26, [x29, #-56]
	ldur	x25, [x29, #-32]
	cmp	x8, x9
	b.ne	43f
	ldurb	w9, [x29, #-80]
	ldur	x11, [x29, #-40]
	ldurb	w8, [x29, #-24]
	cbz	w9, 15f
	cmp	w9, #1
	b.ne	43f
	ldr	w9, [sp, #108]
	cmp	w9, #1
	b.eq	16f
	b	43f
15:
	ldr	w9, [sp, #108]
	cbnz	w9, 43f
16:
	sub	w9, w8, #1
	cmp	w9, #2
	b.hs	17f
	mov	w8, #1
	b	18f
17:
	cbz	w8, 19f
	mov	w8, #2
18:
	str	w8, [sp, #96]
19:
	ldur	x8, [x29, #-104]
	cmp	x8, x22
	b.eq	23f
20:
	mov	w8, #24
	ldur	x12, [x29, #-120]
	madd	x8, x22, x8, x12
	add	x22, x22, #1
	stur	x22, [x29, #-112]
	stp	x26, x11, [x8]
	str	x25, [x8, #16]
	cbz	x10, 21f
	mov	x25, x12
	vj_call	rattle_dealloc
	mov	x12, x25
21:
	ldp	x25, x26, [sp, #72]
	mov	x0, x21
	mov	x8, x19
	cmp	x22, x28
	b.hs	47f
22:
	sub	x10, x27, #1
	add	x11, x23, x24
	mvn	x9, x24
	cmp	x10, x24
	add	x23, x11, #1
	add	x27, x9, x27
	ldp	x10, x11, [sp, #56]
	b.ne	8b
	b	47f
23:
	stp	x11, x0, [sp, #8]
	sub	x0, x29, #120
	mov	w1, #1
	str	x10, [sp, #24]
	bl	std_alloc..vec..Vec..grow_amortized..bb23d2d2a8e2d2e5_1_a64
	cbz	w0, 53f
	ldp	x0, x10, [sp, #16]
	ldur	x22, [x29, #-112]
	ldr	x11, [sp, #8]
	b	20b
24:
	cmp	w9, #71
	b.lo	11b
	sub	w9, w9, #103
	cmn	w9, #6
	b.hs	11b
	b	14b
25:
	ldr	x0, [sp, #96]
	ldr	x2, [sp, #24]
	vj_c_call	memmove
	b	33f
26:
	ldr	x8, [sp, #64]
	ldr	x9, [sp, #96]
	add	x8, x8, x23
	sub	x8, x9, x8
	sub	x8, x8, #2
	cmp	x8, #32
	b.hs	27f
	mov	x8, xzr
	b	32f
27:
	ldr	x8, [sp, #24]
	cmp	x8, #32
	b.hs	28f
	mov	x8, xzr
	b	30f
28:
	ldp	x8, x11, [sp, #24]
	and	x10, x26, #0x7fffffffffffffe0
	ldr	x12, [sp, #96]
	and	x9, x8, #0x18
	and	x8, x8, #0x7fffffffffffffe0
	add	x11, x23, x11
	add	x12, x12, #16
29:
	ldp	q0, q1, [x11, #-16]
	subs	x10, x10, #32
	add	x11, x11, #32
	stp	q0, q1, [x12, #-16]
	add	x12, x12, #32
	b.ne	29b
	ldr	x10, [sp, #24]
	cmp	x10, x8
	b.eq	33f
	cbz	x9, 32f
30:
	ldr	x10, [sp, #40]
	ldr	x11, [sp, #96]
	and	x9, x26, #0x7ffffffffffffff8
	sub	x9, x8, x9
	add	x10, x23, x10
	add	x11, x11, x8
	add	x10, x10, x8
	ldr	x8, [sp, #24]
	and	x8, x8, #0x7ffffffffffffff8
31:
	ldr	d0, [x10], #8
	adds	x9, x9, #8
	str	d0, [x11], #8
	b.ne	31b
	ldr	x9, [sp, #24]
	cmp	x9, x8
	b.eq	33f
32:
	ldr	x10, [sp, #96]
	ldrb	w9, [x1, x8]
	strb	w9, [x10, x8]
	add	x8, x8, #1
	cmp	x26, x8
	b.ne	32b
33:
	ldur	x8, [x29, #-104]
	cmp	x8, x22
	b.eq	35f
34:
	mov	w8, #24
	ldr	x12, [sp, #16]
	ldr	x9, [sp, #96]
	madd	x8, x22, x8, x12
	add	x22, x22, #1
	str	x9, [x8]
	ldr	x9, [sp, #24]
	stp	x9, x9, [x8, #8]
	mov	w8, #1
	stur	x22, [x29, #-112]
	str	w8, [sp, #96]
	ldp	x25, x26, [sp, #72]
	mov	x0, x21
	mov	x8, x19
	cmp	x22, x28
	b.lo	22b
	b	47f
35:
	sub	x0, x29, #120
	mov	w1, #1
	bl	std_alloc..vec..Vec..grow_amortized..bb23d2d2a8e2d2e5_1_a64
	cbz	w0, 57f
	ldp	x8, x22, [x29, #-120]
	str	x8, [sp, #16]
	b	34b
36:
	cbz	x23, 37f
	mov	x0, x22
	vj_call	rattle_dealloc
37:
	ldp	x20, x19, [x29, #-120]
	ldur	x21, [x29, #-104]
	cbz	x19, 40f
	add	x22, x20, #16
	b	39f
38:
	subs	x19, x19, #1
	add	x22, x22, #24
	b.eq	40f
39:
	ldr	x8, [x22]
	cbz	x8, 38b
	ldur	x0, [x22, #-16]
	vj_call	rattle_dealloc
	b	38b
40:
	cbz	x21, 41f
	mov	x0, x20
	vj_call	rattle_dealloc
41:
	cbz	x26, 3b
	mov	x0, x25
	b	52f
42:
	mov	x0, x21
	b	47f
43:
	cbz	x10, 44f
	vj_call	rattle_dealloc
44:
	cbz	x25, 45f
	mov	x0, x26
	vj_call	rattle_dealloc
45:
	ldr	x25, [sp, #72]
	mov	x0, x21
46:
	ldr	x26, [sp, #80]
47:
	cbz	x26, 48f
	mov	x0, x25
	vj_call	rattle_dealloc
	mov	x0, x21
48:
	ldr	w8, [sp, #108]
	ldur	x19, [x29, #-120]
	add	x1, sp, #120
	ldur	x21, [x29, #-104]
	mov	x3, x22
	mov	x4, x20
	str	w8, [sp, #120]
	ldr	w8, [sp, #92]
	mov	x2, x19
	str	w8, [sp, #124]
	ldr	x8, [sp, #112]
	str	x8, [sp, #128]
	bl	b2sum_commands..ahead..read_group..432d41b752d14b0e_1_a64
	cbz	x22, 51f
	add	x20, x19, #16
	b	50f
49:
	subs	x22, x22, #1
	add	x20, x20, #24
	b.eq	51f
50:
	ldr	x8, [x20]
	cbz	x8, 49b
	ldur	x0, [x20, #-16]
	vj_call	rattle_dealloc
	b	49b
51:
	cbz	x21, 3b
	mov	x0, x19
52:
	vj_call	rattle_dealloc
	b	3b
53:
	cbz	x25, 54f
	mov	x0, x26
	vj_call	rattle_dealloc
54:
	ldr	x8, [sp, #24]
	cbz	x8, 56f
	ldr	x0, [sp, #16]
55:
	vj_call	rattle_dealloc
56:
	sub	x0, x29, #120
	bl	std_alloc..vec..Vec..drop..3374fb78d704bdda_1_a64
	ldp	x0, x8, [sp, #72]
	cbnz	x8, 52b
	b	3b
57:
	ldr	x0, [sp, #96]
	b	55b
	vj_end	b2sum_commands..listed_ahead..go_on_in_list..432d41b752d14b0e_1_a64

	vj_function	b2sum_commands..check..read_item_1_a64
	sub	sp, sp, #176
	stp	x29, x30, [sp, #80]
	add	x29, sp, #80
	str	x27, [sp, #96]
	stp	x26, x25, [sp, #112]
	stp	x24, x23, [sp, #128]
	stp	x22, x21, [sp, #144]
	stp	x20, x19, [sp, #160]
	cbz	x5, 3f
	ldrb	w8, [x4]
	cmp	w8, #35
	b.eq	3f
	sub	x8, x5, #1
	ldrb	w9, [x4, x8]
	cmp	w9, #13
	csel	x6, x8, x5, eq
	cmp	x6, #0
	csel	x5, xzr, x4, eq
	cbz	x6, 3f
	movi	v0.2d, #0000000000000000
	ldrb	w9, [x1]
	ldr	w8, [x1, #4]
	stp	q0, q0, [sp, #16]
	stp	q0, q0, [sp, #48]
	str	q0, [sp]
	b	2f
1:
	subs	x6, x6, #1
	add	x5, x5, #1
	b.eq	6f
2:
	ldrb	w11, [x4], #1
	cmp	w11, #32
	b.eq	1b
	cmp	w11, #9
	b.eq	1b
	cbz	x6, 6f
	mov	w10, w2
	mov	w19, w3
	mov	x20, x1
	mov	x21, x0
	cmp	w11, #92
	b.ne	8f
	sub	x6, x6, #1
	mov	x0, sp
	add	x5, x5, #1
	mov	w1, w9
	mov	w2, w8
	mov	w3, w10
	mov	w4, #1
	b	9f
3:
	movi	v0.2d, #0000000000000000
	strh	wzr, [x0]
4:
	stur	q0, [x0, #8]
	stur	q0, [x0, #24]
	stur	q0, [x0, #40]
	stur	q0, [x0, #56]
	str	xzr, [x0, #72]
5:
	ldp	x20, x19, [sp, #160]
	ldr	x27, [sp, #96]
	ldp	x22, x21, [sp, #144]
	ldp	x24, x23, [sp, #128]
	ldp	x26, x25, [sp, #112]
	ldp	x29, x30, [sp, #80]
	add	sp, sp, #176
	ret
6:
	movi	v0.2d, #0000000000000000
	str	xzr, [sp, #72]
	stur	q0, [sp, #56]
	stur	q0, [sp, #40]
	stur	q0, [sp, #24]
	stur	q0, [sp, #8]
	ldrb	w8, [sp]
	cbz	w8, 10f
7:
	mov	w8, #1
	movi	v0.2d, #0000000000000000
	strh	w8, [x0]
	b	4b
8:
	mov	x0, sp
	mov	w1, w9
	mov	w2, w8
	mov	w3, w10
	mov	w4, wzr
9:
	bl	b2sum_lines..reads..read_body_1_a64
	mov	x0, x21
	mov	x1, x20
	mov	w3, w19
	ldrb	w8, [sp]
	cbnz	w8, 7b
10:
	ldrb	w8, [sp, #8]
	cbz	w8, 18f
	ldp	x8, x10, [sp, #24]
	ldrb	w11, [sp, #16]
	ldp	x9, x19, [sp, #40]
	ldrb	w6, [sp, #19]
	ldurh	w7, [sp, #17]
	ldr	w12, [sp, #20]
	ldrb	w2, [sp, #72]
	ldrb	w13, [sp, #75]
	ldurh	w14, [sp, #73]
	ldr	w4, [sp, #76]
	ldp	x5, x20, [sp, #56]
	tbnz	w3, #0, 11f
	ldrb	w15, [x1, #88]
	cmp	w15, #1
	b.ne	14f
11:
	cmp	x5, #1
	b.ne	14f
	ldrb	w15, [x19]
	cmp	w15, #45
	b.ne	14f
	cbz	x9, 12f
	mov	x21, x0
	mov	x0, x8
	vj_call	rattle_dealloc
	mov	x0, x21
12:
	cbz	x20, 13f
	mov	x20, x0
	mov	x0, x19
	vj_call	rattle_dealloc
	mov	x0, x20
13:
	movi	v0.2d, #0000000000000000
	mov	w8, #3
	strh	wzr, [x0]
	str	x8, [x0, #8]
	stp	q0, q0, [x0, #16]
	stp	q0, q0, [x0, #48]
	b	5b
14:
	ldrb	w17, [x1, #16]
	orr	w13, w14, w13, lsl #16
	cmp	w17, #1
	b.ne	15f
	ldr	x14, [x1, #8]
	cmp	x10, x14
	b.ne	29f
15:
	cbnz	w2, 16f
	ldrb	w14, [x1, #89]
	ldrb	w15, [x1, #90]
	ldrb	w16, [x1, #91]
	eor	w3, w14, w13
	tbnz	w3, #0, 30f
	and	w3, w13, #0xffffff
	eor	w21, w15, w3, lsr #8
	tbnz	w21, #0, 30f
	eor	w3, w16, w3, lsr #16
	tbnz	w3, #0, 30f
16:
	ldrb	w14, [x1, #17]
	tbnz	w14, #0, 17f
	ldrb	w14, [x1, #89]
	tbz	w14, #0, 20f
17:
	cmp	w11, #1
	b.le	19f
	cmp	w11, #2
	b.eq	22f
	cmp	w11, #3
	b.ne	21f
	mov	w14, #3
	b	23f
18:
	mov	x26, xzr
	mov	w21, wzr
	mov	w22, wzr
	mov	w23, wzr
	mov	x24, xzr
	mov	x25, xzr
	mov	w8, #3
	b	59f
19:
	mov	x14, x11
	cbz	w11, 23f
	mov	w14, #1
	b	23f
20:
	ldrb	w14, [x1, #90]
	tbnz	w14, #0, 17b
	ldrb	w14, [x1, #91]
	tbnz	w14, #0, 17b
	cmp	w11, #4
	b.ne	28f
	cmp	w12, #1024
	b.hs	28f
21:
	add	x14, x12, #4
	b	23f
22:
	mov	w14, #2
23:
	ldrb	w15, [x1]
	cmp	w15, #1
	b.le	24f
	cmp	w15, #2
	b.eq	25f
	cmp	w15, #3
	b.ne	26f
	mov	w15, #3
	b	27f
24:
	cbz	w15, 27f
	mov	w15, #1
	b	27f
25:
	mov	w15, #2
	b	27f
26:
	ldr	w15, [x1, #4]
	add	x15, x15, #4
27:
	cmp	x14, x15
	b.ne	29f
28:
	orr	w14, w7, w6, lsl #16
	stp	x8, x10, [x0, #24]
	stp	x9, x19, [x0, #40]
	mov	w9, #1
	lsl	w14, w14, #8
	strh	wzr, [x0]
	stp	x5, x20, [x0, #56]
	orr	x8, x14, x12, lsl #32
	strb	w2, [x0, #72]
	sturh	w13, [x0, #73]
	orr	x8, x8, x11
	str	w4, [x0, #76]
	stp	x9, x8, [x0, #8]
	lsr	w8, w13, #16
	strb	w8, [x0, #75]
	b	5b
29:
	ldrb	w14, [x1, #89]
	ldrb	w15, [x1, #90]
	ldrb	w16, [x1, #91]
	cbz	w2, 30f
	mov	w5, wzr
	mov	w2, w15
	mov	w3, w14
	mov	w4, w16
	b	31f
30:
	ubfx	w2, w13, #8, #1
	ubfx	w4, w13, #16, #1
	mov	w5, #1
	mov	w3, w13
31:
	cmp	w11, #1
	b.le	32f
	cmp	w11, #2
	b.eq	33f
	cmp	w11, #3
	b.ne	34f
	mov	w7, #3
	b	35f
32:
	mov	x7, x11
	cbz	w11, 35f
	mov	w7, #1
	b	35f
33:
	mov	w7, #2
	b	35f
34:
	add	x7, x12, #4
35:
	ldrb	w6, [x1]
	cmp	w6, #1
	b.le	36f
	cmp	w6, #2
	b.eq	37f
	cmp	w6, #3
	b.ne	38f
	mov	w21, #3
	b	39f
36:
	mov	x21, x6
	cbz	w6, 39f
	mov	w21, #1
	b	39f
37:
	mov	w21, #2
	b	39f
38:
	ldr	w21, [x1, #4]
	add	x21, x21, #4
39:
	cmp	x7, x21
	b.ne	40f
	mov	w21, wzr
	mov	w22, wzr
	mov	w23, wzr
	b	42f
40:
	ldrb	w7, [x1, #17]
	tbz	w7, #0, 44f
41:
	mov	w21, #1
	mov	w22, w11
	mov	w23, w12
42:
	eor	w7, w14, #0x1
	cmp	w5, #0
	and	w7, w17, w7
	csel	w24, w13, w14, ne
	tbnz	w7, #0, 43f
	tbnz	w24, #0, 43f
	mov	x24, xzr
	mov	x25, xzr
	b	56f
43:
	vj_page	x7, .L1_a64_switch.table.b2sum_lines..writes..push_body_1_a64
	vj_address	x7, x7, .L1_a64_switch.table.b2sum_lines..writes..push_body_1_a64
	cbz	w17, 54f
	cmp	w11, #1
	b.le	45f
	cmp	w11, #2
	b.eq	46f
	cmp	w11, #3
	b.ne	47f
	mov	w25, #3
	b	48f
44:
	ubfx	w7, w13, #16, #1
	ubfx	w21, w13, #8, #1
	cmp	w5, #0
	csel	w22, w13, w14, ne
	csel	w7, w7, w16, ne
	csel	w21, w21, w15, ne
	tbnz	w22, #0, 41b
	tbnz	w21, #0, 41b
	tbnz	w7, #0, 41b
	cmp	w11, #4
	mov	w21, wzr
	b.ne	61f
	cmp	w12, #1023
	mov	w22, w21
	mov	w23, w21
	b.ls	41b
	b	42b
45:
	mov	x25, x11
	cbz	w11, 48f
	mov	w25, #1
	b	48f
46:
	mov	w25, #2
	b	48f
47:
	add	x25, x12, #4
48:
	ldr	x17, [x1, #8]
	cmp	w6, #1
	b.le	49f
	cmp	w6, #2
	b.eq	50f
	cmp	w6, #3
	b.ne	51f
	mov	w26, #3
	b	52f
49:
	mov	x26, x6
	cbz	w6, 52f
	mov	w26, #1
	b	52f
50:
	mov	w26, #2
	b	52f
51:
	ldr	w26, [x1, #4]
	add	x26, x26, #4
52:
	cmp	x25, x26
	b.eq	55f
	ldrb	w25, [x1, #17]
	ldr	x1, [x7, x6, lsl #3]
	tbz	w25, #0, 60f
53:
	cmp	x17, x1
	b.ne	55f
54:
	ldr	x17, [x7, x11, lsl #3]
55:
	cmp	x10, x17
	cset	w24, ne
	csel	x25, x10, xzr, ne
56:
	bic	w10, w4, w16
	mov	w11, #65536
	bic	w12, w2, w15
	tst	w10, #0x1
	bic	w10, w16, w4
	mov	w16, #1
	csel	x13, x11, xzr, ne
	tst	w12, #0x1
	mov	w12, #256
	csel	x17, x12, xzr, ne
	bic	w16, w16, w14
	tst	w3, #0x1
	bic	w15, w15, w2
	csel	x16, x16, xzr, ne
	tst	w10, #0x1
	csel	x10, x11, xzr, ne
	tst	w15, #0x1
	csel	x11, x12, xzr, ne
	bic	w12, w14, w3
	orr	x10, x11, x10
	orr	x11, x16, x17
	bfxil	x10, x12, #0, #1
	orr	x11, x11, x13
	orr	x26, x11, x10, lsl #24
	cbz	x9, 57f
	mov	x27, x0
	mov	x0, x8
	vj_call	rattle_dealloc
	mov	x0, x27
57:
	cbz	x20, 58f
	mov	x20, x0
	mov	x0, x19
	vj_call	rattle_dealloc
	mov	x0, x20
58:
	mov	w8, #2
59:
	mov	w9, w21
	stp	x8, x26, [x0, #8]
	mov	w8, w23
	orr	x9, x9, x22, lsl #32
	strh	wzr, [x0]
	stp	x24, x25, [x0, #40]
	stp	x9, x8, [x0, #24]
	stp	xzr, xzr, [x0, #64]
	str	xzr, [x0, #56]
	b	5b
60:
	ubfx	w6, w13, #8, #1
	tst	w5, #0x1
	ubfx	w13, w13, #16, #1
	csel	w5, w6, w15, ne
	csel	w13, w13, w16, ne
	orr	w5, w24, w5
	tbnz	w5, #0, 53b
	tbnz	w13, #0, 53b
	cmp	w12, #1023
	ccmp	x17, x1, #0, ls
	ccmp	w11, #4, #0, eq
	mov	w11, #64
	csel	x17, x17, x11, ne
	b	55b
61:
	mov	w22, w21
	mov	w23, w21
	b	42b
	vj_end	b2sum_commands..check..read_item_1_a64

	vj_function	b2sum_lines..reads..read_body_1_a64
	sub	sp, sp, #464
	movi	v0.2d, #0000000000000000
	stp	x20, x19, [sp, #448]
	mov	x19, x0
	subs	x8, x6, #7
	stp	x29, x30, [sp, #368]
	add	x29, sp, #368
	stp	x28, x27, [sp, #384]
	stp	x26, x25, [sp, #400]
	stp	x24, x23, [sp, #416]
	stp	x22, x21, [sp, #432]
	stp	q0, q0, [sp, #64]
	stp	q0, q0, [sp, #96]
	b.hs	2f
1:
	and	w8, w1, #0xff
	cmp	w8, #4
	b.ne	3f
	mov	w9, wzr
	mov	w8, wzr
	b	50f
2:
	ldrb	w9, [x5, #4]
	ldrb	w10, [x5, #5]
	ldrb	w11, [x5]
	ldrb	w12, [x5, #1]
	ldrb	w14, [x5, #2]
	ldrb	w13, [x5, #6]
	cmp	w9, #69
	mov	w9, #50
	ccmp	w10, w9, #0, eq
	mov	w9, #76
	cset	w10, eq
	cmp	w11, #66
	ldrb	w11, [x5, #3]
	ccmp	w12, w9, #0, eq
	mov	w9, #65
	ccmp	w14, w9, #0, eq
	add	x9, x5, #7
	cset	w12, eq
	b.ne	7f
	cmp	w11, #75
	b.ne	7f
	cbz	w10, 7f
	cmp	w13, #98
	b.ne	7f
	cbz	x8, 12f
	ldrb	w10, [x9]
	cmp	w10, #112
	b.ne	10f
	mov	w20, wzr
	sub	x8, x6, #8
	add	x9, x5, #8
	mov	w21, #2
	b	13f
3:
	movi	v0.2d, #0000000000000000
	stur	xzr, [x29, #-128]
	stur	q0, [x29, #-48]
	stp	q0, q0, [x29, #-160]
	stp	q0, q0, [x29, #-112]
	stp	q0, q0, [x29, #-80]
	cbz	x6, 8f
	mov	x22, x6
	mov	x21, x5
	b	5f
4:
	subs	x22, x22, #1
	add	x21, x21, #1
	b.eq	22f
5:
	ldrb	w8, [x21]
	cmp	w8, #48
	b.lo	6f
	cmp	w8, #58
	b.lo	4b
	cmp	w8, #65
	b.lo	6f
	cmp	w8, #71
	b.lo	4b
	sub	w8, w8, #97
	cmp	w8, #5
	b.ls	4b
6:
	mov	w24, w3
	mov	w25, w2
	mov	w20, w4
	b	24f
7:
	cmp	w13, #115
	csel	w10, wzr, w10, ne
	cmp	w11, #75
	csel	w10, wzr, w10, ne
	and	w10, w12, w10
	cmp	w10, #1
	b.ne	1b
	cbz	x8, 9f
	ldrb	w10, [x9]
	cmp	w10, #112
	b.ne	9f
	mov	w20, wzr
	sub	x8, x6, #8
	add	x9, x5, #8
	mov	w21, #3
	b	13f
8:
	mov	w24, w3
	mov	w25, w2
	mov	w20, w4
	mov	x22, xzr
	b	23f
9:
	mov	w20, wzr
	mov	w21, #1
	b	13f
10:
	cmp	x8, #6
	b.lo	12f
	ldrb	w11, [x5, #8]
	ldur	w12, [x5, #9]
	cmp	w11, #116
	mov	w11, #25970
	movk	w11, #11621, lsl #16
	cset	w13, eq
	cmp	w12, w11
	mov	w11, #45
	sub	x12, x6, #13
	ccmp	w10, w11, #0, eq
	add	x10, x5, #13
	cset	w11, eq
	ands	w14, w11, w13
	csel	x13, x10, xzr, ne
	csel	x11, x12, xzr, ne
	cbz	w14, 12f
	cbz	x12, 39f
	add	x12, x5, #13
	mov	x9, x13
	mov	x8, x11
11:
	ldrb	w13, [x12], #1
	sub	w13, w13, #48
	cmp	w13, #9
	b.hi	41f
	subs	x8, x8, #1
	add	x9, x9, #1
	b.ne	11b
	b	40f
12:
	mov	w20, wzr
	mov	w21, wzr
13:
	movi	v0.2d, #0000000000000000
	subs	x10, x8, #4
	stur	xzr, [x29, #-128]
	stp	xzr, xzr, [sp, #144]
	str	xzr, [sp, #136]
	str	wzr, [sp, #132]
	stur	q0, [x29, #-48]
	stp	q0, q0, [x29, #-160]
	stp	q0, q0, [x29, #-112]
	stp	q0, q0, [x29, #-80]
	b.hs	16f
	mov	w25, wzr
	cmp	w25, #0
	csel	x10, x8, xzr, eq
	csel	x8, x9, xzr, eq
	subs	x11, x10, #5
	b.lo	17f
14:
	ldrb	w9, [x8]
	ldur	w12, [x8, #1]
	cmp	w9, #45
	mov	w9, #24947
	movk	w9, #29804, lsl #16
	cset	w13, eq
	cmp	w12, w9
	add	x12, x8, #5
	cset	w9, eq
	ands	w26, w9, w13
	csel	x9, x12, xzr, ne
	csel	x11, x11, xzr, ne
	tst	w26, #0xff
	mov	w22, w4
	csel	x27, x10, x11, eq
	csel	x23, x8, x9, eq
	subs	x24, x27, #9
	b.lo	18f
15:
	vj_page	x1, .L1_a64_static.204
	vj_address	x1, x1, .L1_a64_static.204
	mov	x0, x23
	mov	w2, #9
	bl	core..slice..scan..any_in_quarters..953750c03e87c3e2_1_a64
	add	x8, x23, #9
	cmp	w0, #0
	eor	w28, w0, #0x1
	csel	x8, xzr, x8, ne
	csel	x9, xzr, x24, ne
	b	19f
16:
	mov	x11, x9
	mov	w13, #27437
	ldr	w12, [x11], #4
	movk	w13, #31077, lsl #16
	cmp	w12, w13
	cset	w25, eq
	csel	x11, x11, xzr, eq
	csel	x10, x10, xzr, eq
	cmp	w25, #0
	csel	x10, x8, x10, eq
	csel	x8, x9, x11, eq
	subs	x11, x10, #5
	b.hs	14b
17:
	mov	w26, wzr
	tst	wzr, #0xff
	mov	w22, w4
	csel	x27, x10, xzr, eq
	csel	x23, x8, xzr, eq
	subs	x24, x27, #9
	b.hs	15b
18:
	mov	w28, wzr
	mov	x8, xzr
	mov	x9, xzr
19:
	cmp	w28, #0
	csel	x24, x23, x8, eq
	csel	x23, x27, x9, eq
	mov	w27, #4
	add	x8, x23, x24
	sub	x8, x8, #1
20:
	add	x9, x23, x27
	cmp	x9, #4
	b.eq	48f
	add	x9, x8, x27
	sub	x27, x27, #1
	ldurb	w9, [x9, #-4]
	cmp	w9, #41
	b.ne	20b
	cmp	x27, #3
	b.eq	48f
	add	x9, x23, x27
	sub	x8, x27, #1
	add	x10, x24, x23
	sub	x12, x9, #4
	mov	x9, x27
21:
	add	x11, x10, x8
	ldurb	w11, [x11, #-2]
	cmp	w11, #32
	ccmp	w11, #9, #4, ne
	b.ne	28f
	add	x9, x9, #1
	add	x8, x8, #1
	cmp	x9, #3
	b.ne	21b
	b	48f
22:
	mov	w24, w3
	mov	w25, w2
	mov	w20, w4
23:
	vj_page	x21, .L1_a64_static.1
	vj_address	x21, x21, .L1_a64_static.1
24:
	sub	x3, x6, x22
	sub	x0, x29, #160
	mov	x2, x5
	mov	w23, w1
	bl	b2sum_lines..reads..digest_of_digits_1_a64
	ldurb	w8, [x29, #-160]
	cbz	w8, 26f
25:
	movi	v0.2d, #0000000000000000
	mov	w8, wzr
	mov	w9, #1
	b	49f
26:
	ldurb	w8, [x29, #-152]
	cmp	w8, #1
	b.ne	48f
	ldur	x0, [x29, #-144]
	ldur	x9, [x29, #-128]
	cbz	x22, 46f
	ldrb	w10, [x21]
	add	x8, sp, #184
	mov	w2, w25
	ldur	q0, [x8, #48]
	cmp	w10, #32
	b.eq	27f
	cmp	w10, #9
	b.ne	46f
27:
	and	w10, w24, #0xff
	add	x6, x21, #1
	sub	x7, x22, #1
	cmp	w10, #2
	b.eq	34f
	cmp	w10, #1
	b.ne	35f
	cbz	x7, 46f
	ldrb	w10, [x6]
	cmp	w10, #42
	b.eq	44f
	cmp	w10, #32
	b.ne	46f
	subs	x7, x22, #2
	b.eq	46f
	mov	w1, w23
	b	52f
28:
	cmp	x9, #3
	b.eq	48f
	cmp	w11, #61
	b.ne	48f
	cmp	x8, #1
	str	x12, [sp, #56]
	b.ne	36f
29:
	mov	x3, xzr
	vj_page	x2, .L1_a64_static.1
	vj_address	x2, x2, .L1_a64_static.1
	sub	x0, x29, #160
	mov	w1, w21
	bl	b2sum_lines..reads..digest_of_digits_1_a64
	ldurb	w8, [x29, #-160]
	cbnz	w8, 25b
30:
	ldurb	w8, [x29, #-152]
	cmp	w8, #1
	b.ne	48f
	ldur	x9, [x29, #-144]
	sub	x8, x29, #17
	add	x0, sp, #184
	mov	w1, #1
	stp	xzr, xzr, [sp, #192]
	str	x9, [sp, #32]
	ldur	x9, [x29, #-136]
	str	x8, [sp, #184]
	str	x9, [sp, #48]
	ldur	x9, [x29, #-128]
	str	x9, [sp, #40]
	bl	std_alloc..vec..Vec..grow_amortized..01eec35b572d02af_1_a64
	cbz	w0, 61f
	ldr	x8, [sp, #48]
	ldp	x13, x9, [sp, #184]
	stp	w26, w28, [sp, #8]
	mov	w26, #19
	mov	w10, #45
	lsl	x8, x8, #3
	str	w25, [sp, #4]
	add	x28, x9, #1
	stp	xzr, xzr, [sp, #160]
	cmp	x8, #10
	strb	w10, [x13, x9]
	str	x28, [sp, #192]
	str	wzr, [sp, #176]
	b.lo	32f
	mov	x9, x8
31:
	mov	x8, #-3689348814741910324
	mov	w10, #10
	add	x11, sp, #160
	movk	x8, #52429
	cmp	x9, #99
	umulh	x8, x9, x8
	lsr	x8, x8, #3
	msub	w10, w8, w10, w9
	orr	w9, w10, #0x30
	strb	w9, [x11, x26]
	sub	x26, x26, #1
	mov	x9, x8
	b.hi	31b
32:
	ldr	x10, [sp, #200]
	mov	w9, #20
	orr	w8, w8, #0x30
	sub	x2, x9, x26
	sub	x9, x10, x28
	str	x10, [sp, #24]
	add	x10, sp, #160
	cmp	x2, x9
	strb	w8, [x10, x26]
	b.hi	60f
33:
	add	x0, x13, x28
	add	x1, x10, x26
	add	x25, x28, x2
	str	x13, [sp, #16]
	vj_c_call	memcpy
	ldr	x8, [sp, #56]
	cmp	x8, x25
	ldr	x8, [sp, #24]
	stp	x25, x8, [sp, #192]
	b.lo	56f
	ldr	x2, [sp, #16]
	mov	x0, x24
	mov	x1, x25
	mov	x3, x25
	bl	core..cmp..slices..parts_equal..i8.31.core..cmp..numbers..U8PartialEq_1_a64
	tbz	w0, #0, 56f
	sub	x8, x26, x28
	add	x9, x23, x27
	add	x10, x9, x8
	cmp	x10, #24
	b.eq	57f
	add	x9, x24, x25
	ldrb	w11, [x9]
	cmp	w11, #40
	b.eq	63f
	cmp	w11, #32
	b.ne	57f
	cmp	x10, #25
	b.eq	57f
	ldrb	w10, [x9, #1]
	cmp	w10, #40
	b.ne	57f
	add	x10, x23, x27
	add	x24, x9, #2
	add	x8, x10, x8
	sub	x26, x8, #26
	b	64f
34:
	mov	w9, #3
	mov	w1, w23
	b	54f
35:
	mov	w1, w23
	cbz	x7, 43f
	ldrb	w9, [x6]
	cmp	w9, #32
	b.eq	51f
	cmp	w9, #42
	b.ne	43f
	subs	x7, x22, #2
	b.ne	45f
	b	53f
36:
	sub	x9, x8, #1
	add	x10, x24, x23
	add	x2, x9, x10
	b	38f
37:
	add	x8, x8, #1
	add	x2, x2, #1
	add	x9, x9, #1
	cmp	x8, #1
	b.eq	29b
38:
	ldrb	w10, [x2]
	cmp	w10, #9
	b.eq	37b
	cmp	w10, #32
	b.eq	37b
	neg	x3, x9
	sub	x0, x29, #160
	mov	w1, w21
	bl	b2sum_lines..reads..digest_of_digits_1_a64
	ldurb	w8, [x29, #-160]
	cbnz	w8, 25b
	b	30b
39:
	mov	x8, xzr
40:
	vj_page	x9, .L1_a64_static.1
	vj_address	x9, x9, .L1_a64_static.1
41:
	sub	x11, x11, x8
	sub	x12, x11, #11
	cmn	x12, #10
	b.lo	1b
	ldrb	w12, [x10]
	cmp	w12, #48
	b.eq	1b
	mov	x20, xzr
42:
	ldrb	w12, [x10], #1
	sub	w12, w12, #48
	cmp	w12, #9
	b.hi	1b
	mov	w13, #10
	subs	x11, x11, #1
	mul	x13, x20, x13
	add	x20, x13, w12, uxtb
	b.ne	42b
	lsr	x10, x20, #32
	cbnz	x10, 1b
	mov	w21, #4
	b	13b
43:
	mov	w9, #3
	b	54f
44:
	subs	x7, x22, #2
	b.eq	46f
	mov	w1, w23
45:
	add	x6, x21, #2
	mov	w9, #2
	b	54f
46:
	cbz	x9, 48f
47:
	vj_call	rattle_dealloc
48:
	movi	v0.2d, #0000000000000000
	mov	w9, wzr
	mov	w8, wzr
49:
	stp	q0, q0, [sp, #64]
	stp	q0, q0, [sp, #96]
50:
	ldp	q0, q1, [sp, #64]
	mov	w8, w8
	strb	w9, [x19]
	ldp	x22, x21, [sp, #432]
	str	x8, [x19, #8]
	ldp	x24, x23, [sp, #416]
	stp	q0, q1, [x19, #16]
	ldp	q2, q0, [sp, #96]
	ldp	x26, x25, [sp, #400]
	ldp	x28, x27, [sp, #384]
	stp	q2, q0, [x19, #48]
	ldp	x20, x19, [sp, #448]
	ldp	x29, x30, [sp, #368]
	add	sp, sp, #464
	ret
51:
	subs	x7, x22, #2
	b.eq	53f
52:
	add	x6, x21, #2
	mov	w9, #1
	b	54f
53:
	mov	w9, #3
	mov	w7, #1
54:
	str	x0, [sp, #184]
	sub	x0, x29, #112
	add	x4, sp, #184
	add	x5, sp, #136
	mov	w3, w20
	strb	w9, [sp, #136]
	sturh	wzr, [sp, #137]
	strb	wzr, [sp, #139]
	stur	q0, [x8, #8]
55:
	bl	b2sum_lines..reads..entry_with_1_a64
	ldp	q0, q1, [x29, #-96]
	ldurb	w9, [x29, #-112]
	ldurb	w8, [x29, #-104]
	stp	q0, q1, [sp, #64]
	ldp	q0, q2, [x29, #-64]
	stp	q0, q2, [sp, #96]
	b	50b
56:
	vj_page	x8, .L1_a64_switch.table.b2sum_lines..writes..push_body_1_a64
	vj_address	x8, x8, .L1_a64_switch.table.b2sum_lines..writes..push_body_1_a64
	ldr	x9, [sp, #48]
	ldr	x8, [x8, w21, uxtw #3]
	cmp	x9, x8
	b.ne	58f
	add	x8, x23, x27
	cmp	x8, #4
	b.eq	57f
	ldrb	w8, [x24]
	cmp	w8, #40
	b.eq	59f
	cmp	w8, #32
	b.ne	57f
	add	x8, x23, x27
	cmp	x8, #5
	b.eq	57f
	ldrb	w8, [x24, #1]
	cmp	w8, #40
	b.ne	57f
	add	x8, x23, x27
	add	x24, x24, #2
	sub	x26, x8, #6
	b	64f
57:
	mov	w23, wzr
	mov	x24, xzr
	mov	x26, xzr
	b	65f
58:
	ldr	x8, [sp, #24]
	cbz	x8, 67f
	ldr	x0, [sp, #16]
	vj_call	rattle_dealloc
	b	67f
59:
	add	x8, x23, x27
	add	x24, x24, #1
	sub	x26, x8, #5
	b	64f
60:
	add	x0, sp, #184
	mov	x1, x2
	mov	x25, x2
	bl	std_alloc..vec..Vec..grow_amortized..01eec35b572d02af_1_a64
	cbz	w0, 61f
	ldp	x28, x8, [sp, #192]
	mov	x2, x25
	ldr	x13, [sp, #184]
	add	x10, sp, #160
	str	x8, [sp, #24]
	b	33b
61:
	ldr	x8, [sp, #200]
	cbz	x8, 62f
	ldr	x0, [sp, #184]
	vj_call	rattle_dealloc
62:
	ldr	x8, [sp, #40]
	cbz	x8, 25b
	ldr	x0, [sp, #32]
	vj_call	rattle_dealloc
	b	25b
63:
	add	x10, x23, x27
	add	x24, x9, #1
	add	x8, x10, x8
	sub	x26, x8, #25
64:
	mov	w23, #1
65:
	ldr	x8, [sp, #24]
	cbz	x8, 66f
	ldr	x0, [sp, #16]
	vj_call	rattle_dealloc
66:
	cmp	w23, #1
	b.ne	67f
	ldr	x8, [sp, #32]
	strb	wzr, [sp, #132]
	sub	x0, x29, #112
	add	x4, sp, #136
	add	x5, sp, #132
	mov	w1, w21
	str	x8, [sp, #136]
	ldr	x8, [sp, #48]
	mov	w2, w20
	mov	w3, w22
	mov	x6, x24
	mov	x7, x26
	str	x8, [sp, #144]
	ldr	x8, [sp, #40]
	str	x8, [sp, #152]
	ldr	w8, [sp, #4]
	strb	w8, [sp, #133]
	ldr	w8, [sp, #8]
	strb	w8, [sp, #134]
	ldr	w8, [sp, #12]
	strb	w8, [sp, #135]
	b	55b
67:
	ldr	x8, [sp, #40]
	cbz	x8, 48b
	ldr	x0, [sp, #32]
	b	47b
	vj_end	b2sum_lines..reads..read_body_1_a64

	vj_function	b2sum_lines..reads..digest_of_digits_1_a64
	stp	x29, x30, [sp, #-64]!
	mov	w8, w1
	vj_page	x9, .L1_a64_switch.table.b2sum_lines..reads..digest_of_digits_1_a64
	vj_address	x9, x9, .L1_a64_switch.table.b2sum_lines..reads..digest_of_digits_1_a64
	and	x8, x8, #0xff
	stp	x24, x23, [sp, #16]
	mov	x29, sp
	ldr	x8, [x9, x8, lsl #3]
	stp	x22, x21, [sp, #32]
	stp	x20, x19, [sp, #48]
	cmp	x8, x3
	b.hs	2f
1:
	movi	v0.2d, #0000000000000000
	strb	wzr, [x0]
	stur	q0, [x0, #8]
	stur	q0, [x0, #24]
	ldp	x20, x19, [sp, #48]
	ldp	x22, x21, [sp, #32]
	ldp	x24, x23, [sp, #16]
	ldp	x29, x30, [sp], #64
	ret
2:
	tbnz	w3, #0, 3f
	cbz	x3, 1b
	lsr	x19, x3, #1
	mov	x21, x1
	mov	x20, x0
	mov	w1, #1
	mov	x23, x2
	mov	x24, x3
	mov	x0, x19
	mov	w22, #1
	vj_call	rattle_alloc
	mov	x8, x0
	mov	x0, x20
	tbz	w8, #0, 12f
	cmp	x24, #2
	b.ne	4f
	mov	x22, xzr
	add	x8, x22, #1
	strb	wzr, [x1, xzr]
	cmp	x19, x8
	b.eq	5f
	b	11f
3:
	mov	w22, wzr
	b	12f
4:
	sub	x2, x19, #1
	mov	x0, x1
	mov	x24, x1
	mov	w1, wzr
	sub	x22, x19, #1
	vj_c_call	memset
	mov	x1, x24
	add	x8, x22, #1
	strb	wzr, [x24, x22]
	cmp	x19, x8
	b.ne	11f
5:
	mov	x9, xzr
	add	x10, x23, #1
	b	8f
6:
	sub	w13, w12, #55
7:
	add	w11, w13, w11, lsl #4
	add	x10, x10, #2
	strb	w11, [x1, x9]
	add	x9, x9, #1
	cmp	x8, x9
	b.eq	14f
8:
	ldurb	w13, [x10, #-1]
	subs	w11, w13, #48
	b.lo	11f
	ldrb	w12, [x10]
	cmp	w13, #57
	b.ls	10f
	cmp	w13, #65
	b.lo	11f
	cmp	w13, #70
	b.hi	9f
	sub	w11, w13, #55
	b	10f
9:
	sub	w11, w13, #97
	cmp	w11, #5
	b.hi	11f
	sub	w11, w13, #87
10:
	subs	w13, w12, #48
	b.lo	11f
	cmp	w12, #57
	b.ls	7b
	cmp	w12, #65
	b.lo	11f
	cmp	w12, #70
	b.ls	6b
	sub	w13, w12, #97
	cmp	w13, #5
	b.hi	11f
	sub	w13, w12, #87
	b	7b
11:
	mov	x0, x1
	vj_call	rattle_dealloc
	mov	w22, wzr
	mov	x0, x20
12:
	mov	x1, xzr
	mov	x19, xzr
	mov	x8, xzr
13:
	strb	w22, [x0]
	stp	x8, x1, [x0, #8]
	stp	x19, x19, [x0, #24]
	ldp	x20, x19, [sp, #48]
	ldp	x22, x21, [sp, #32]
	ldp	x24, x23, [sp, #16]
	ldp	x29, x30, [sp], #64
	ret
14:
	and	x8, x21, #0xff
	vj_page	x9, .L1_a64_switch.table.b2sum_lines..writes..push_body_1_a64
	vj_address	x9, x9, .L1_a64_switch.table.b2sum_lines..writes..push_body_1_a64
	ldr	x8, [x9, x8, lsl #3]
	cmp	x8, x19
	b.hs	15f
	mov	x0, x1
	vj_call	rattle_dealloc
	mov	x0, x20
	b	1b
15:
	mov	w22, wzr
	mov	w8, #1
	mov	x0, x20
	b	13b
	vj_end	b2sum_lines..reads..digest_of_digits_1_a64

	vj_function	b2sum_lines..reads..entry_with_1_a64
	sub	sp, sp, #192
	stp	x26, x25, [sp, #128]
	ldurh	w8, [x5, #1]
	ldrb	w9, [x5, #3]
	stp	x20, x19, [sp, #176]
	mov	x19, x0
	ldrb	w26, [x5]
	ldp	x20, x25, [x4]
	stp	x24, x23, [sp, #144]
	ldr	x24, [x4, #16]
	stp	x22, x21, [sp, #160]
	mov	w22, w1
	stp	x29, x30, [sp, #96]
	add	x29, sp, #96
	stp	x28, x27, [sp, #112]
	strh	w8, [sp, #36]
	strb	w9, [sp, #38]
	strh	wzr, [sp, #32]
	strb	wzr, [sp, #34]
	tbz	w3, #0, 9f
	sub	x8, x29, #1
	stp	xzr, xzr, [x29, #-24]
	stur	x8, [x29, #-32]
	cbz	x7, 11f
	mov	x27, xzr
	mov	x28, xzr
	add	x10, x6, #1
	str	w2, [sp, #12]
	stp	x10, x25, [sp, #16]
1:
	ldrb	w21, [x6, x28]
	cmp	w21, #92
	b.ne	3f
	add	x21, x28, #1
	cmp	x21, x7
	b.eq	19f
	ldrb	w28, [x10, x28]
	cmp	w28, #92
	b.eq	2f
	cmp	w28, #114
	b.eq	5f
	cmp	w28, #110
	b.ne	19f
	mov	w28, #10
2:
	ldur	x8, [x29, #-16]
	cmp	x8, x27
	b.ne	6f
	b	8f
3:
	ldur	x9, [x29, #-16]
	cmp	x9, x27
	b.eq	7f
4:
	strb	w21, [x8, x27]
	add	x28, x28, #1
	mov	x9, x27
	add	x27, x27, #1
	cmp	x28, x7
	stur	x27, [x29, #-24]
	b.ne	1b
	b	17f
5:
	mov	w28, #13
	ldur	x8, [x29, #-16]
	cmp	x8, x27
	b.eq	8f
6:
	ldur	x8, [x29, #-32]
	strb	w28, [x8, x27]
	add	x28, x21, #1
	mov	x9, x27
	add	x27, x27, #1
	cmp	x28, x7
	stur	x27, [x29, #-24]
	b.ne	1b
	b	17f
7:
	sub	x0, x29, #32
	mov	w1, #1
	mov	w23, w26
	mov	w26, w22
	mov	x25, x7
	mov	x22, x6
	bl	std_alloc..vec..Vec..grow_amortized..01eec35b572d02af_1_a64
	cbz	w0, 34f
	ldp	x8, x27, [x29, #-32]
	mov	x7, x25
	ldp	x10, x25, [sp, #16]
	mov	x6, x22
	mov	w22, w26
	mov	w26, w23
	b	4b
8:
	sub	x0, x29, #32
	mov	w1, #1
	mov	w23, w26
	mov	w26, w22
	mov	x22, x7
	mov	x25, x6
	bl	std_alloc..vec..Vec..grow_amortized..01eec35b572d02af_1_a64
	cbz	w0, 34f
	mov	x6, x25
	ldp	x10, x25, [sp, #16]
	ldur	x27, [x29, #-24]
	mov	x7, x22
	mov	w22, w26
	mov	w26, w23
	b	6b
9:
	cbz	x7, 12f
	mov	x8, xzr
10:
	ldrb	w9, [x6, x8]
	cbz	w9, 25f
	add	x8, x8, #1
	cmp	x7, x8
	b.ne	10b
	sub	x8, x29, #1
	add	x0, sp, #40
	mov	x1, x7
	str	x25, [sp, #24]
	mov	w27, w22
	mov	w25, w2
	mov	x21, x6
	stp	xzr, xzr, [sp, #48]
	mov	x22, x7
	str	x8, [sp, #40]
	bl	std_alloc..vec..Vec..grow_amortized..01eec35b572d02af_1_a64
	cbz	w0, 35f
	ldp	x8, x28, [sp, #48]
	mov	w2, w25
	ldr	x23, [sp, #40]
	ldr	x25, [sp, #24]
	mov	x6, x21
	mov	x7, x22
	mov	w22, w27
	b	13f
11:
	mov	x27, xzr
	mov	x28, xzr
	sub	x23, x29, #1
	b	22f
12:
	mov	x28, xzr
	mov	x8, xzr
	sub	x23, x29, #1
13:
	add	x0, x23, x8
	add	x27, x8, x7
	sub	x9, x0, x6
	cmp	x9, x7
	b.hs	20f
	cmp	x7, #8
	b.lo	14f
	add	x9, x8, x23
	sub	x9, x9, x6
	cmp	x9, #32
	b.hs	29f
14:
	mov	x9, xzr
15:
	sub	x10, x7, x9
	add	x11, x6, x9
	add	x8, x9, x8
16:
	ldrb	w9, [x11], #1
	subs	x10, x10, #1
	strb	w9, [x23, x8]
	add	x8, x8, #1
	b.ne	16b
	b	22f
17:
	ldur	x23, [x29, #-32]
	ldur	x28, [x29, #-16]
	cbz	x27, 21f
	ldr	w2, [sp, #12]
	mov	x8, xzr
	add	x9, x9, #1
18:
	ldrb	w10, [x23, x8]
	cbz	w10, 23f
	add	x8, x8, #1
	cmp	x9, x8
	b.ne	18b
	b	22f
19:
	ldur	x8, [x29, #-16]
	cbz	x8, 25f
	ldur	x0, [x29, #-32]
	b	24f
20:
	mov	x1, x6
	mov	w21, w2
	mov	x2, x7
	vj_c_call	memmove
	mov	w2, w21
	b	22f
21:
	ldr	w2, [sp, #12]
22:
	mov	w8, #1
	and	w9, w22, #0xff
	strb	wzr, [x19]
	str	x8, [x19, #8]
	ldrh	w8, [sp, #36]
	stp	w9, w2, [x19, #16]
	ldrb	w9, [sp, #38]
	stp	x20, x25, [x19, #24]
	stp	x24, x23, [x19, #40]
	stp	x27, x28, [x19, #56]
	strb	w26, [x19, #72]
	b	27f
23:
	cbz	x28, 25f
	mov	x0, x23
24:
	vj_call	rattle_dealloc
25:
	cbz	x24, 26f
	mov	x0, x20
	vj_call	rattle_dealloc
26:
	movi	v0.2d, #0000000000000000
	ldrh	w8, [sp, #32]
	ldrb	w9, [sp, #34]
	strb	wzr, [x19]
	strb	wzr, [x19, #72]
	stur	q0, [x19, #8]
	stur	q0, [x19, #24]
	stur	q0, [x19, #40]
	stur	q0, [x19, #56]
27:
	sturh	w8, [x19, #73]
	strb	w9, [x19, #75]
	str	wzr, [x19, #76]
28:
	ldp	x20, x19, [sp, #176]
	ldp	x22, x21, [sp, #160]
	ldp	x24, x23, [sp, #144]
	ldp	x26, x25, [sp, #128]
	ldp	x28, x27, [sp, #112]
	ldp	x29, x30, [sp, #96]
	add	sp, sp, #192
	ret
29:
	cmp	x7, #32
	b.hs	30f
	mov	x9, xzr
	b	32f
30:
	add	x12, x8, x23
	and	x10, x7, #0x18
	and	x9, x7, #0xffffffffffffffe0
	add	x11, x6, #16
	add	x12, x12, #16
	and	x13, x7, #0xffffffffffffffe0
31:
	ldp	q0, q1, [x11, #-16]
	subs	x13, x13, #32
	add	x11, x11, #32
	stp	q0, q1, [x12, #-16]
	add	x12, x12, #32
	b.ne	31b
	cmp	x7, x9
	b.eq	22b
	cbz	x10, 15b
32:
	mov	x12, x9
	and	x9, x7, #0xfffffffffffffff8
	sub	x10, x12, x9
	add	x11, x6, x12
	add	x12, x8, x12
33:
	ldr	d0, [x11], #8
	adds	x10, x10, #8
	str	d0, [x23, x12]
	add	x12, x12, #8
	b.ne	33b
	cmp	x7, x9
	b.eq	22b
	b	15b
34:
	ldur	x8, [x29, #-16]
	cbz	x8, 37f
	ldur	x0, [x29, #-32]
	b	36f
35:
	ldr	x8, [sp, #56]
	cbz	x8, 37f
	ldr	x0, [sp, #40]
36:
	vj_call	rattle_dealloc
37:
	cbz	x24, 38f
	mov	x0, x20
	vj_call	rattle_dealloc
38:
	movi	v0.2d, #0000000000000000
	mov	w8, #1
	str	xzr, [x19, #72]
	strb	w8, [x19]
	stur	q0, [x19, #8]
	stur	q0, [x19, #24]
	stur	q0, [x19, #40]
	stur	q0, [x19, #56]
	b	28b
	vj_end	b2sum_lines..reads..entry_with_1_a64

	vj_constants	16
	.p2align	4, 0x0
.L1_a64_CPI75_0:
	.quad	7640891576956012808
	.quad	-4942790177534073029
.L1_a64_CPI75_1:
	.quad	4354685564936845355
	.quad	-6534734903238641935
.L1_a64_CPI75_2:
	.quad	2270897969802886507
	.quad	6620516959819538809
.L1_a64_CPI75_3:
	.quad	5840696475078001361
	.quad	-7276294671716946913
.L1_a64_CPI75_4:
	.long	1779033703
	.long	3144134277
	.long	1013904242
	.long	2773480762
.L1_a64_CPI75_5:
	.long	1359893119
	.long	2600822924
	.long	528734635
	.long	1541459225
	vj_function	b2sum_commands..ahead..read_group..432d41b752d14b0e_1_a64
	stp	x29, x30, [sp, #-96]!
	sub	x9, sp, #1, lsl #12
	stp	x28, x27, [sp, #16]
	mov	x29, sp
	sub	x9, x9, #480
	stp	x26, x25, [sp, #32]
	and	x9, x9, #0xffffffffffffffe0
	stp	x24, x23, [sp, #48]
	stp	x22, x21, [sp, #64]
	stp	x20, x19, [sp, #80]
	sub	sp, sp, #3072
	cmp	sp, x9
	b.le	2f
1:
	str	xzr, [sp]
	sub	sp, sp, #3072
	cmp	sp, x9
	b.gt	1b
2:
	mov	sp, x9
	mov	x10, x4
	ldr	xzr, [sp]
	mov	w8, #64
	ldr	x19, [x10, #8]!
	ldr	x24, [x10, #40]
	ldrb	w11, [x1]
	mov	x28, x4
	mov	x23, x3
	cmp	x24, #64
	mov	x26, x2
	str	x0, [sp, #144]
	csel	x9, x24, x8, lo
	str	w11, [sp, #220]
	ldr	w11, [x1, #4]
	lsl	x9, x9, #1
	str	w11, [sp, #84]
	cmp	x9, #64
	csel	x8, x9, x8, lo
	ldr	x9, [x1, #8]
	str	xzr, [x10, #24]
	stp	x9, x10, [sp, #184]
	ldr	x9, [x10, #16]
	stp	x9, x8, [x10, #32]
	cbz	x19, 6f
	ldr	x21, [x28]
	ldr	x20, [x28, #16]
	ldr	x8, [sp, #192]
	add	x22, x21, #16
	stp	xzr, xzr, [x8]
	b	4f
3:
	subs	x19, x19, #1
	add	x22, x22, #104
	b.eq	5f
4:
	ldr	x8, [x22]
	cbz	x8, 3b
	ldur	x0, [x22, #-16]
	vj_call	rattle_dealloc
	b	3b
5:
	stp	x21, xzr, [x28]
	str	x20, [x28, #16]
6:
	cmp	x23, x24
	csel	x8, x23, x24, lo
	cmp	x8, #8
	b.lo	168f
	ldr	w8, [sp, #220]
	cmp	w8, #1
	b.hi	168f
	mov	x19, x28
	ldr	x9, [x19, #80]!
	ldur	x21, [x19, #-24]
	cmp	x9, x21
	b.hs	12f
	add	x8, sp, #1, lsl #12
	ldr	x0, [x28, #72]
	ldr	x9, [x28, #88]
	add	x8, x8, #472
	stp	xzr, xzr, [x19]
	str	x8, [x28, #72]
	cbz	x9, 7f
	vj_call	rattle_dealloc
	ldr	x21, [x28, #56]
	mov	w8, #4194304
	cmp	x21, #1024, lsl #12
	csel	x20, x21, x8, lo
	cbnz	x21, 8f
	add	x1, sp, #1, lsl #12
	mov	x9, xzr
	add	x1, x1, #472
	ldr	x0, [x28, #72]
	ldr	x8, [x28, #88]
	stp	x1, xzr, [x28, #72]
	str	x20, [x28, #88]
	cbnz	x8, 11f
	b	12f
7:
	cmp	x21, #1024, lsl #12
	mov	w8, #4194304
	csel	x20, x21, x8, lo
8:
	mov	x0, x20
	mov	w1, #1
	vj_call	rattle_alloc
	tbz	w0, #0, 168f
	cmp	x21, #1
	b.ne	9f
	mov	x21, xzr
	b	10f
9:
	sub	x2, x20, #1
	mov	x0, x1
	mov	x22, x1
	mov	w1, wzr
	sub	x21, x20, #1
	vj_c_call	memset
	mov	x1, x22
10:
	add	x9, x21, #1
	strb	wzr, [x1, x21]
	ldr	x0, [x28, #72]
	ldr	x8, [x28, #88]
	stp	x1, x9, [x28, #72]
	str	x20, [x28, #88]
	cbz	x8, 12f
11:
	vj_call	rattle_dealloc
	ldr	x9, [x19]
12:
	add	x8, sp, #1, lsl #12
	str	x9, [sp, #168]
	add	x9, sp, #1, lsl #12
	add	x8, x8, #472
	ldr	x27, [x28, #72]
	mov	x20, xzr
	str	x8, [sp, #128]
	add	x8, sp, #1632
	mov	x22, xzr
	mov	x19, xzr
	add	x9, x9, #472
	add	x8, x8, #344
	str	x9, [sp, #4384]
	str	xzr, [sp, #4400]
	stp	x8, x28, [sp, #64]
	str	xzr, [sp, #4392]
	str	x27, [sp, #200]
	stp	x24, x26, [sp, #88]
	str	x23, [sp, #112]
13:
	cmp	x24, x20
	b.ls	45f
	cmp	x22, #512, lsl #12
	b.lo	14f
	and	x8, x20, #0x7
	cbz	x8, 45f
14:
	mov	w8, #24
	madd	x21, x19, x8, x26
	ldp	x24, x25, [x21]
	cmp	x25, #1
	b.ne	15f
	ldrb	w8, [x24]
	cmp	w8, #45
	b.eq	50f
15:
	movi	v0.2d, #0000000000000000
	add	x0, sp, #1, lsl #12
	mov	x1, x24
	add	x0, x0, #336
	mov	x2, x25
	str	q0, [sp, #4448]
	str	q0, [sp, #4432]
	bl	b2sum..disk..text_of_1_a64
	add	x8, sp, #1632
	ldrb	w8, [x8, #2800]
	cbnz	w8, 49f
	ldr	x27, [sp, #4440]
	ldr	x28, [sp, #4448]
	ldr	x8, [sp, #4456]
	str	x8, [sp, #208]
	cbz	x25, 17f
	tbnz	x25, #63, 47f
	mov	x0, x25
	mov	w1, #1
	vj_call	rattle_alloc
	tbz	w0, #0, 47f
	mov	x26, x1
	sub	x9, x1, x24
	cmp	x9, x25
	b.hs	18f
16:
	cmp	x25, #8
	mov	x8, xzr
	b.lo	23f
	cmp	x9, #32
	b.lo	23f
	cmp	x25, #32
	b.hs	19f
	mov	x8, xzr
	b	21f
17:
	add	x26, sp, #1, lsl #12
	add	x26, x26, #472
	sub	x9, x26, x24
	cmp	x9, x25
	b.lo	16b
18:
	mov	x0, x26
	mov	x1, x24
	mov	x2, x25
	vj_c_call	memmove
	b	25f
19:
	and	x9, x25, #0x18
	and	x8, x25, #0xffffffffffffffe0
	add	x10, x24, #16
	add	x11, x26, #16
	and	x12, x25, #0xffffffffffffffe0
20:
	ldp	q0, q1, [x10, #-16]
	subs	x12, x12, #32
	add	x10, x10, #32
	stp	q0, q1, [x11, #-16]
	add	x11, x11, #32
	b.ne	20b
	cmp	x25, x8
	b.eq	25f
	cbz	x9, 23f
21:
	mov	x11, x8
	and	x8, x25, #0xfffffffffffffff8
	sub	x9, x11, x8
	add	x10, x24, x11
	add	x11, x26, x11
22:
	ldr	d0, [x10], #8
	adds	x9, x9, #8
	str	d0, [x11], #8
	b.ne	22b
	cmp	x25, x8
	b.eq	25f
23:
	sub	x9, x25, x8
	add	x10, x24, x8
	add	x8, x26, x8
24:
	ldrb	w11, [x10], #1
	subs	x9, x9, #1
	strb	w11, [x8], #1
	b.ne	24b
25:
	movi	v0.2d, #0000000000000000
	vj_page	x1, .L1_a64_static.205
	vj_address	x1, x1, .L1_a64_static.205
	add	x0, sp, #224
	mov	x2, x27
	mov	x3, x28
	stp	q0, q0, [sp, #224]
	str	q0, [sp, #1632]
	str	q0, [sp, #1648]
	str	q0, [sp, #1664]
	str	q0, [sp, #1680]
	str	q0, [sp, #1696]
	str	q0, [sp, #1712]
	bl	b2sum..disk..marked_1_a64
	ldrb	w8, [sp, #224]
	cbnz	w8, 46f
	ldp	x28, x2, [sp, #232]
	add	x0, sp, #1632
	ldr	x23, [sp, #248]
	str	x19, [sp, #176]
	mov	x1, x28
	bl	std..fs..File..open..40609fae31b31c25_1_a64
	ldrb	w19, [sp, #1632]
	ldr	w24, [sp, #1636]
	cbz	x23, 26f
	mov	x0, x28
	vj_call	rattle_dealloc
26:
	cbnz	w19, 46f
	ldr	x8, [sp, #208]
	cbz	x8, 27f
	mov	x0, x27
	vj_call	rattle_dealloc
27:
	ldr	x8, [sp, #168]
	subs	x28, x8, x22
	b.ne	28f
	mov	x27, xzr
	b	30f
28:
	ldr	x8, [sp, #200]
	mov	x27, xzr
	add	x23, x8, x22
29:
	add	x1, x23, x27
	sub	x2, x28, x27
	mov	w0, w24
	sub	x19, x28, x27
	vj_call	b2sum_read
	tbnz	x0, #63, 44f
	cmp	x0, x19
	csel	x8, x0, x19, lo
	cbz	x8, 30f
	add	x27, x8, x27
	cmp	x27, x28
	b.lo	29b
30:
	mov	w0, w24
	cmp	x27, x28
	b.eq	62f
	vj_call	b2sum_close
	cbz	x25, 31f
	mov	x0, x26
	vj_call	rattle_dealloc
31:
	ldp	x24, x25, [x21]
	ldr	x23, [sp, #112]
	cbz	x25, 33f
	ldr	x19, [sp, #176]
	tbnz	x25, #63, 58f
	mov	x0, x25
	mov	w1, #1
	vj_call	rattle_alloc
	tbz	w0, #0, 58f
	mov	x26, x1
	sub	x9, x1, x24
	cmp	x9, x25
	b.hs	34f
32:
	cmp	x25, #8
	mov	x8, xzr
	b.lo	39f
	cmp	x9, #32
	b.lo	39f
	cmp	x25, #32
	b.hs	35f
	mov	x8, xzr
	b	37f
33:
	add	x26, sp, #1, lsl #12
	ldr	x19, [sp, #176]
	add	x26, x26, #472
	sub	x9, x26, x24
	cmp	x9, x25
	b.lo	32b
34:
	mov	x0, x26
	mov	x1, x24
	mov	x2, x25
	vj_c_call	memmove
	b	41f
35:
	and	x9, x25, #0x18
	and	x8, x25, #0xffffffffffffffe0
	add	x10, x24, #16
	add	x11, x26, #16
	and	x12, x25, #0xffffffffffffffe0
36:
	ldp	q0, q1, [x10, #-16]
	subs	x12, x12, #32
	add	x10, x10, #32
	stp	q0, q1, [x11, #-16]
	add	x11, x11, #32
	b.ne	36b
	cmp	x25, x8
	b.eq	41f
	cbz	x9, 39f
37:
	mov	x11, x8
	and	x8, x25, #0xfffffffffffffff8
	sub	x9, x11, x8
	add	x10, x24, x11
	add	x11, x26, x11
38:
	ldr	d0, [x10], #8
	adds	x9, x9, #8
	str	d0, [x11], #8
	b.ne	38b
	cmp	x25, x8
	b.eq	41f
39:
	sub	x9, x25, x8
	add	x10, x24, x8
	add	x8, x26, x8
40:
	ldrb	w11, [x10], #1
	subs	x9, x9, #1
	strb	w11, [x8], #1
	b.ne	40b
41:
	ldr	x8, [sp, #4400]
	cmp	x8, x20
	b.eq	43f
42:
	mov	w8, #40
	ldr	x9, [sp, #128]
	add	x19, x19, #1
	madd	x8, x20, x8, x9
	add	x20, x20, #1
	cmp	x19, x23
	stp	x26, x25, [x8]
	ldp	x24, x26, [sp, #88]
	stp	x25, x22, [x8, #16]
	add	x22, x27, x22
	ldr	x27, [sp, #200]
	str	x22, [x8, #32]
	str	x20, [sp, #4392]
	b.ne	13b
	b	45f
43:
	add	x0, sp, #1, lsl #12
	add	x0, x0, #288
	bl	std_alloc..vec..Vec..grow_amortized..ceac4a91d2a6d4e6_1_a64
	cbz	w0, 77f
	ldr	x20, [sp, #4392]
	ldr	x8, [sp, #4384]
	str	x8, [sp, #128]
	b	42b
44:
	add	x0, sp, #1632
	bl	std_io..io..error..last_error_1_a64
	mov	w0, w24
	vj_call	b2sum_close
	cbz	x25, 49f
	mov	x0, x26
	b	48f
45:
	mov	x26, xzr
	ldr	x21, [sp, #4384]
	ldr	x25, [sp, #4400]
	cmp	x20, #20
	b.hi	64f
	b	51f
46:
	cbz	x25, 47f
	mov	x0, x26
	vj_call	rattle_dealloc
47:
	ldr	x8, [sp, #208]
	cbz	x8, 49f
	mov	x0, x27
48:
	vj_call	rattle_dealloc
49:
	ldr	x27, [sp, #200]
50:
	mov	w26, #1
	ldr	x21, [sp, #4384]
	ldr	x25, [sp, #4400]
	cmp	x20, #20
	b.hi	64f
51:
	cmp	x20, #2
	b.lo	97f
	mov	w8, #1
	mov	x9, x21
	b	55f
52:
	mov	x12, xzr
53:
	ldr	q0, [sp, #1632]
	add	x12, x21, x12
	str	q0, [x12]
	ldr	x13, [sp, #1648]
	str	x11, [x12, #32]
	stp	x13, x10, [x12, #16]
54:
	add	x8, x8, #1
	add	x9, x9, #40
	cmp	x8, x20
	b.eq	69f
55:
	mov	w10, #40
	madd	x14, x8, x10, x21
	ldp	x10, x11, [x14, #24]
	ldp	x13, x15, [x14, #-16]
	sub	x12, x10, x11
	sub	x13, x13, x15
	cmp	x12, x13
	b.hs	54b
	ldr	q0, [x14]
	sub	x15, x14, #40
	str	q0, [sp, #1632]
	ldr	x13, [x14, #16]
	str	x13, [sp, #1648]
	sub	x13, x8, #1
	ldp	q0, q1, [x15]
	ldr	x15, [x15, #32]
	str	x15, [x14, #32]
	stp	q0, q1, [x14]
	cbz	x13, 52b
	mov	x14, x9
56:
	ldp	x15, x16, [x14, #-16]
	sub	x15, x15, x16
	cmp	x12, x15
	b.hs	57f
	sub	x15, x14, #40
	sub	x13, x13, #1
	ldp	q0, q1, [x15]
	ldr	x16, [x15, #32]
	str	x16, [x14, #32]
	stp	q0, q1, [x14]
	mov	x14, x15
	cbnz	x13, 56b
57:
	add	x12, x13, x13, lsl #2
	lsl	x12, x12, #3
	b	53b
58:
	ldr	x19, [sp, #4400]
	cbz	x20, 61f
	ldr	x8, [sp, #128]
	add	x21, x8, #16
	b	60f
59:
	subs	x20, x20, #1
	add	x21, x21, #40
	b.eq	61f
60:
	ldr	x8, [x21]
	cbz	x8, 59b
	ldur	x0, [x21, #-16]
	vj_call	rattle_dealloc
	b	59b
61:
	cbz	x19, 168f
	ldr	x0, [sp, #128]
	b	167f
62:
	vj_call	b2sum_close
	cbz	x25, 63f
	mov	x0, x26
	vj_call	rattle_dealloc
63:
	ldr	x27, [sp, #200]
	mov	w26, #257
	ldr	x21, [sp, #4384]
	ldr	x25, [sp, #4400]
	cmp	x20, #20
	b.ls	51b
64:
	ldp	x8, x9, [x21, #64]
	mov	w19, #2
	ldp	x10, x11, [x21, #24]
	sub	x22, x8, x9
	add	x8, x21, #112
	sub	x24, x10, x11
	cmp	x22, x24
	b.hs	66f
65:
	ldp	x9, x10, [x8, #-8]
	ldp	x11, x12, [x8, #-48]
	sub	x9, x9, x10
	sub	x10, x11, x12
	cmp	x9, x10
	b.hs	67f
	add	x19, x19, #1
	add	x8, x8, #40
	cmp	x20, x19
	b.ne	65b
	b	68f
66:
	ldp	x9, x10, [x8, #-8]
	ldp	x11, x12, [x8, #-48]
	sub	x9, x9, x10
	sub	x10, x11, x12
	cmp	x9, x10
	b.lo	67f
	add	x19, x19, #1
	add	x8, x8, #40
	cmp	x20, x19
	b.ne	66b
	b	69f
67:
	cmp	x19, x20
	b.ne	70f
	cmp	x22, x24
	b.hs	69f
68:
	lsr	x2, x20, #1
	mov	w9, #40
	mov	x0, x21
	sub	x8, x20, x2
	madd	x1, x8, x9, x21
	bl	core..slice..edits..mirror..27.b2sum_commands..ahead..Part_1_a64
69:
	add	x8, sp, #1, lsl #12
	str	xzr, [sp, #1648]
	add	x8, x8, #472
	str	xzr, [sp, #1640]
	str	x8, [sp, #1632]
	b	98f
70:
	add	x8, x20, x20, lsl #2
	lsl	x0, x8, #3
	tbnz	x0, #63, 97f
	mov	w1, #8
	vj_call	rattle_alloc
	tst	w0, #0x1
	csel	x23, x1, xzr, ne
	tbz	w0, #0, 97f
	lsr	x8, x20, #1
	cmp	x20, #64
	str	x1, [sp, #4432]
	str	x20, [sp, #4440]
	b.hi	71f
	cmp	x19, x8
	b.hs	71f
	clz	x8, x20
	mov	w9, #126
	add	x4, sp, #1, lsl #12
	sub	w3, w9, w8, lsl #1
	add	x4, x4, #336
	mov	x0, x21
	mov	x1, x20
	mov	x2, x20
	b	95f
71:
	movi	v0.2d, #0000000000000000
	cmp	x20, #1, lsl #12
	str	xzr, [sp, #256]
	stp	q0, q0, [sp, #224]
	b.hi	72f
	mov	w9, #64
	b	74f
72:
	mov	x9, xzr
	mov	x10, #4294967296
73:
	add	x11, x10, x9
	lsr	x11, x11, #1
	mul	x12, x11, x11
	cmp	x12, x20
	csel	x9, x9, x11, hi
	csel	x10, x11, x10, hi
	add	x11, x9, #1
	cmp	x11, x10
	b.lo	73b
	cmp	x9, #64
	mov	w10, #64
	csel	x9, x9, x10, hi
74:
	mov	x10, #4611686018427387904
	cmp	x8, x9
	udiv	x10, x10, x20
	csel	x7, x8, x9, lo
	cmp	x19, x7
	cset	w5, hs
	csel	x4, x19, x7, hi
	cmp	x22, x24
	add	x24, x10, #1
	b.hs	94f
	cmp	x19, x7
	b.lo	94f
	cmp	x19, #15
	b.ls	75f
	lsr	x2, x19, #1
	mov	w9, #40
	mov	x0, x21
	mov	x22, x7
	sub	x8, x19, x2
	madd	x1, x8, x9, x21
	bl	core..slice..edits..mirror..27.b2sum_commands..ahead..Part_1_a64
	mov	x7, x22
	b	93f
75:
	sub	x9, x19, #2
	subs	x10, x19, #1
	lsr	x8, x9, #1
	b.eq	76f
	mov	w11, #40
	ldp	q2, q3, [x21]
	madd	x10, x10, x11, x21
	ldr	x12, [x21, #32]
	ldp	q0, q1, [x10]
	ldr	x11, [x10, #32]
	str	x11, [x21, #32]
	stp	q0, q1, [x21]
	str	x12, [x10, #32]
	stp	q2, q3, [x10]
76:
	cbz	x8, 93f
	cmp	x9, #1
	b.ls	82f
	mov	w10, #40
	ldur	q2, [x21, #40]
	ldr	x11, [x21, #72]
	madd	x9, x9, x10, x21
	ldp	q0, q1, [x9]
	ldr	x10, [x9, #32]
	str	x10, [x21, #72]
	stur	q0, [x21, #40]
	ldur	q0, [x21, #56]
	stur	q1, [x21, #56]
	str	x11, [x9, #32]
	stp	q2, q0, [x9]
	b	83f
77:
	cbz	x25, 78f
	mov	x0, x26
	vj_call	rattle_dealloc
78:
	ldr	x20, [sp, #4392]
	ldr	x19, [sp, #4384]
	ldr	x21, [sp, #4400]
	cbz	x20, 81f
	add	x22, x19, #16
	b	80f
79:
	subs	x20, x20, #1
	add	x22, x22, #40
	b.eq	81f
80:
	ldr	x8, [x22]
	cbz	x8, 79b
	ldur	x0, [x22, #-16]
	vj_call	rattle_dealloc
	b	79b
81:
	cbz	x21, 168f
	mov	x0, x19
	b	167f
82:
	cbnz	x9, 83f
	mov	w10, #40
	ldur	q0, [x21, #40]
	ldur	q1, [x21, #56]
	madd	x9, x9, x10, x21
	ldr	x10, [x21, #72]
	ldp	q2, q3, [x9]
	ldr	x11, [x9, #32]
	stp	q0, q1, [x9]
	str	x10, [x9, #32]
	str	x11, [x21, #72]
	stur	q3, [x21, #56]
	stur	q2, [x21, #40]
83:
	cmp	x8, #1
	b.eq	93f
	sub	x9, x19, #3
	cmp	x9, #2
	b.ls	84f
	mov	w10, #40
	ldp	q2, q3, [x21, #80]
	madd	x9, x9, x10, x21
	ldr	x11, [x21, #112]
	ldp	q0, q1, [x9]
	ldr	x10, [x9, #32]
	str	x10, [x21, #112]
	stp	q0, q1, [x21, #80]
	str	x11, [x9, #32]
	stp	q2, q3, [x9]
	b	85f
84:
	b.eq	85f
	mov	w10, #40
	ldp	q0, q1, [x21, #80]
	madd	x9, x9, x10, x21
	ldr	x10, [x21, #112]
	ldp	q2, q3, [x9]
	ldr	x11, [x9, #32]
	stp	q0, q1, [x9]
	str	x10, [x9, #32]
	str	x11, [x21, #112]
	stp	q2, q3, [x21, #80]
85:
	cmp	x8, #2
	b.eq	93f
	sub	x9, x19, #4
	cmp	x9, #3
	b.ls	86f
	mov	w10, #40
	ldur	q2, [x21, #120]
	ldr	x11, [x21, #152]
	madd	x9, x9, x10, x21
	ldp	q0, q1, [x9]
	ldr	x10, [x9, #32]
	str	x10, [x21, #152]
	stur	q0, [x21, #120]
	ldur	q0, [x21, #136]
	stur	q1, [x21, #136]
	str	x11, [x9, #32]
	stp	q2, q0, [x9]
	b	87f
86:
	b.eq	87f
	mov	w10, #40
	ldur	q0, [x21, #120]
	ldur	q1, [x21, #136]
	madd	x9, x9, x10, x21
	ldr	x10, [x21, #152]
	ldp	q2, q3, [x9]
	ldr	x11, [x9, #32]
	stp	q0, q1, [x9]
	str	x10, [x9, #32]
	str	x11, [x21, #152]
	stur	q3, [x21, #136]
	stur	q2, [x21, #120]
87:
	cmp	x8, #3
	b.eq	93f
	sub	x9, x19, #5
	cmp	x9, #4
	b.ls	88f
	mov	w10, #40
	ldp	q2, q3, [x21, #160]
	madd	x9, x9, x10, x21
	ldr	x11, [x21, #192]
	ldp	q0, q1, [x9]
	ldr	x10, [x9, #32]
	str	x10, [x21, #192]
	stp	q0, q1, [x21, #160]
	str	x11, [x9, #32]
	stp	q2, q3, [x9]
	b	89f
88:
	b.eq	89f
	mov	w10, #40
	ldp	q0, q1, [x21, #160]
	madd	x9, x9, x10, x21
	ldr	x10, [x21, #192]
	ldp	q2, q3, [x9]
	ldr	x11, [x9, #32]
	stp	q0, q1, [x9]
	str	x10, [x9, #32]
	str	x11, [x21, #192]
	stp	q2, q3, [x21, #160]
89:
	cmp	x8, #4
	b.eq	93f
	sub	x9, x19, #6
	cmp	x9, #5
	b.ls	90f
	mov	w10, #40
	ldur	q2, [x21, #200]
	ldr	x11, [x21, #232]
	madd	x9, x9, x10, x21
	ldp	q0, q1, [x9]
	ldr	x10, [x9, #32]
	str	x10, [x21, #232]
	stur	q0, [x21, #200]
	ldur	q0, [x21, #216]
	stur	q1, [x21, #216]
	str	x11, [x9, #32]
	stp	q2, q0, [x9]
	b	91f
90:
	b.eq	91f
	mov	w10, #40
	ldur	q0, [x21, #200]
	ldur	q1, [x21, #216]
	madd	x9, x9, x10, x21
	ldr	x10, [x21, #232]
	ldp	q2, q3, [x9]
	ldr	x11, [x9, #32]
	stp	q0, q1, [x9]
	str	x10, [x9, #32]
	str	x11, [x21, #232]
	stur	q3, [x21, #216]
	stur	q2, [x21, #200]
91:
	cmp	x8, #5
	b.eq	93f
	sub	x8, x19, #7
	cmp	x8, #6
	b.ls	92f
	mov	w9, #40
	ldp	q2, q3, [x21, #240]
	madd	x8, x8, x9, x21
	ldr	x10, [x21, #272]
	ldp	q0, q1, [x8]
	ldr	x9, [x8, #32]
	str	x9, [x21, #272]
	stp	q0, q1, [x21, #240]
	str	x10, [x8, #32]
	stp	q2, q3, [x8]
	b	93f
92:
	b.eq	93f
	mov	w9, #40
	ldp	q0, q1, [x21, #240]
	madd	x8, x8, x9, x21
	ldr	x9, [x21, #272]
	ldp	q2, q3, [x8]
	ldr	x10, [x8, #32]
	stp	q0, q1, [x8]
	str	x9, [x8, #32]
	str	x10, [x21, #272]
	stp	q2, q3, [x21, #240]
93:
	mov	w5, #1
	mov	x4, x19
94:
	add	x8, sp, #1, lsl #12
	mov	x3, xzr
	mov	w6, wzr
	add	x8, x8, #336
	add	x0, sp, #224
	mov	x1, x21
	mov	x2, x20
	stp	x24, x8, [sp]
	bl	core..slice..sort..runs..climb..610785a6ec0ddab1_1_a64
	ldrb	w8, [sp, #232]
	tbnz	w8, #0, 96f
	ldr	x1, [sp, #224]
	mov	w9, #126
	add	x4, sp, #1, lsl #12
	add	x4, x4, #336
	mov	x0, x21
	clz	x8, x1
	mov	x2, x1
	sub	w3, w9, w8, lsl #1
95:
	bl	core..slice..sort..stable..quicksort..610785a6ec0ddab1_1_a64
96:
	mov	x0, x23
	vj_call	rattle_dealloc
97:
	add	x8, sp, #1, lsl #12
	str	xzr, [sp, #1648]
	add	x8, x8, #472
	str	xzr, [sp, #1640]
	str	x8, [sp, #1632]
	cbz	x20, 108f
98:
	add	x8, sp, #1, lsl #12
	mov	x28, xzr
	add	x19, x21, #32
	add	x8, x8, #472
	mov	x22, x20
	b	101f
99:
	ldr	x28, [sp, #1640]
	ldr	x8, [sp, #1632]
100:
	add	x9, x8, x28, lsl #4
	add	x10, x27, x23
	sub	x11, x24, x23
	add	x28, x28, #1
	subs	x22, x22, #1
	add	x19, x19, #40
	stp	x10, x11, [x9]
	str	x28, [sp, #1640]
	b.eq	102f
101:
	ldr	x9, [sp, #1648]
	ldp	x23, x24, [x19, #-8]
	cmp	x9, x28
	b.ne	100b
	add	x0, sp, #1632
	bl	std_alloc..vec..Vec..grow_amortized..61dd7b1dc1d96f4a_1_a64
	cbnz	w0, 99b
	ldr	x8, [sp, #1648]
	cbz	x8, 105f
	ldr	x0, [sp, #1632]
	b	104f
102:
	lsr	x8, x20, #57
	ldr	x22, [sp, #1632]
	ldr	x19, [sp, #1648]
	cbnz	x8, 103f
	lsl	x24, x20, #6
	mov	w1, #1
	mov	x0, x24
	vj_call	rattle_alloc
	tbz	w0, #0, 103f
	mov	x23, x1
	cmp	x20, #1
	b.ne	109f
	mov	x24, xzr
	b	110f
103:
	cbz	x19, 105f
	mov	x0, x22
104:
	vj_call	rattle_dealloc
105:
	add	x19, x21, #16
	b	107f
106:
	subs	x20, x20, #1
	add	x19, x19, #40
	b.eq	166f
107:
	ldr	x8, [x19]
	cbz	x8, 106b
	ldur	x0, [x19, #-16]
	vj_call	rattle_dealloc
	b	106b
108:
	add	x22, sp, #1, lsl #12
	add	x23, sp, #1, lsl #12
	ldr	x9, [sp, #144]
	mov	x28, xzr
	add	x22, x22, #472
	mov	w10, #1
	mov	w24, #1
	add	x23, x23, #472
	ldr	x8, [x9, #32]
	cbnz	x8, 132f
	b	111f
109:
	sub	x24, x24, #64
	mov	x0, x23
	mov	w1, wzr
	mov	x2, x24
	vj_c_call	memset
110:
	movi	v0.2d, #0000000000000000
	ldr	x9, [sp, #144]
	add	x8, x23, x24
	cmp	x19, #0
	mov	w10, wzr
	cset	w24, eq
	stp	q0, q0, [x8]
	stp	q0, q0, [x8, #32]
	ldr	x8, [x9, #32]
	cbnz	x8, 132f
111:
	ldp	x19, x8, [x9, #120]
	cmp	x28, #8
	str	x25, [sp, #88]
	ldp	x25, x27, [x9, #96]
	str	x26, [sp, #56]
	str	x8, [sp, #208]
	mov	w8, #8
	csel	x26, x28, x8, lo
	ldr	w8, [sp, #220]
	str	w10, [sp, #52]
	tbz	w8, #0, 121f
	add	x0, sp, #224
	mov	w1, wzr
	mov	w2, #1408
	vj_c_call	memset
	movi	v0.2d, #0000000000000000
	str	q0, [sp, #4544]
	str	q0, [sp, #4528]
	str	q0, [sp, #4512]
	str	q0, [sp, #4496]
	str	q0, [sp, #4480]
	str	q0, [sp, #4464]
	str	q0, [sp, #4448]
	str	q0, [sp, #4432]
	cbz	x28, 138f
	ldr	x9, [sp, #184]
	sub	x8, x9, #1
	cmp	x8, #31
	b.hi	131f
	cmp	x27, #8
	b.hi	131f
	ldr	x8, [sp, #208]
	cmp	x8, #8
	b.hi	131f
	mov	w8, #16842752
	add	x0, sp, #1, lsl #12
	str	w24, [sp, #48]
	orr	w8, w9, w8
	add	x0, x0, #288
	mov	x1, x25
	fmov	s1, w8
	vj_page	x8, .L1_a64_CPI75_4
	mov	x2, x27
	mov	x24, x19
	add	x19, sp, #1, lsl #12
	str	xzr, [sp, #4392]
	str	xzr, [sp, #4384]
	add	x19, x19, #288
	mov	v1.s[1], v0.s[1]
	vj_load	q0, x8, .L1_a64_CPI75_4
	mov	v1.d[1], xzr
	eor	v0.16b, v1.16b, v0.16b
	str	q0, [sp, #144]
	vj_c_call	memcpy
	ldr	x2, [sp, #208]
	orr	x0, x19, #0x8
	mov	x1, x24
	vj_c_call	memcpy
	vj_page	x8, .L1_a64_CPI75_5
	ldr	q0, [sp, #4384]
	ldr	q1, [sp, #144]
	vj_load	q2, x8, .L1_a64_CPI75_5
	ldr	x8, [sp, #184]
	cmp	x28, #1
	str	xzr, [sp, #288]
	eor	v0.16b, v0.16b, v2.16b
	strh	w8, [sp, #300]
	add	x8, sp, #47
	str	q2, [sp, #128]
	str	wzr, [sp, #296]
	stp	q1, q0, [sp, #224]
	stp	q1, q0, [sp, #256]
	movi	v0.2d, #0000000000000000
	strh	wzr, [sp, #398]
	str	xzr, [sp, #4440]
	str	xzr, [sp, #4432]
	stur	q0, [x8, #255]
	add	x8, sp, #63
	stur	q0, [x8, #255]
	add	x8, sp, #79
	stur	q0, [x8, #255]
	add	x8, sp, #95
	stur	q0, [x8, #255]
	add	x8, sp, #224
	stur	q0, [x8, #142]
	stur	q0, [x8, #158]
	b.eq	112f
	add	x0, sp, #1, lsl #12
	mov	x1, x25
	mov	x2, x27
	add	x0, x0, #288
	str	xzr, [sp, #4392]
	str	xzr, [sp, #4384]
	vj_c_call	memcpy
	ldr	x2, [sp, #208]
	orr	x0, x19, #0x8
	mov	x1, x24
	vj_c_call	memcpy
	ldp	q2, q1, [sp, #128]
	add	x9, sp, #224
	ldr	q0, [sp, #4384]
	ldr	x8, [sp, #184]
	cmp	x28, #2
	str	xzr, [sp, #464]
	eor	v0.16b, v0.16b, v2.16b
	strh	w8, [sp, #476]
	add	x8, x9, #254
	str	wzr, [sp, #472]
	str	q1, [sp, #400]
	stp	q0, q1, [sp, #416]
	str	q0, [sp, #448]
	movi	v0.2d, #0000000000000000
	strh	wzr, [sp, #574]
	str	xzr, [sp, #4456]
	stp	q0, q0, [x8, #16]
	stp	q0, q0, [x8, #48]
	str	q0, [x8, #80]
	add	x8, sp, #224
	stur	q0, [x8, #254]
	mov	w8, #1
	str	x8, [sp, #4448]
	b.eq	112f
	add	x0, sp, #1, lsl #12
	mov	x1, x25
	mov	x2, x27
	add	x0, x0, #288
	add	x19, sp, #1, lsl #12
	str	xzr, [sp, #4392]
	str	xzr, [sp, #4384]
	add	x19, x19, #288
	vj_c_call	memcpy
	ldr	x2, [sp, #208]
	orr	x0, x19, #0x8
	mov	x1, x24
	vj_c_call	memcpy
	ldp	q2, q1, [sp, #128]
	cmp	x28, #3
	ldr	q0, [sp, #4384]
	ldr	x8, [sp, #184]
	str	xzr, [sp, #640]
	str	wzr, [sp, #648]
	eor	v0.16b, v0.16b, v2.16b
	strh	w8, [sp, #652]
	add	x8, sp, #224
	add	x8, x8, #430
	strh	wzr, [sp, #750]
	str	xzr, [sp, #4472]
	stp	q1, q0, [sp, #576]
	stp	q1, q0, [sp, #608]
	movi	v0.2d, #0000000000000000
	stp	q0, q0, [x8]
	stp	q0, q0, [x8, #32]
	stp	q0, q0, [x8, #64]
	mov	w8, #2
	str	x8, [sp, #4464]
	b.eq	112f
	add	x0, sp, #1, lsl #12
	mov	x1, x25
	mov	x2, x27
	add	x0, x0, #288
	str	xzr, [sp, #4392]
	str	xzr, [sp, #4384]
	vj_c_call	memcpy
	add	x8, sp, #1, lsl #12
	ldr	x2, [sp, #208]
	mov	x1, x24
	add	x8, x8, #288
	orr	x0, x8, #0x8
	vj_c_call	memcpy
	ldp	q2, q1, [sp, #128]
	add	x9, sp, #224
	ldr	q0, [sp, #4384]
	ldr	x8, [sp, #184]
	cmp	x28, #4
	str	xzr, [sp, #816]
	eor	v0.16b, v0.16b, v2.16b
	strh	w8, [sp, #828]
	add	x8, x9, #606
	str	wzr, [sp, #824]
	str	q1, [sp, #752]
	stp	q0, q1, [sp, #768]
	str	q0, [sp, #800]
	movi	v0.2d, #0000000000000000
	strh	wzr, [sp, #926]
	str	xzr, [sp, #4488]
	stp	q0, q0, [x8]
	stp	q0, q0, [x8, #32]
	stp	q0, q0, [x8, #64]
	mov	w8, #3
	str	x8, [sp, #4480]
	b.eq	112f
	add	x0, sp, #1, lsl #12
	mov	x1, x25
	mov	x2, x27
	add	x0, x0, #288
	add	x19, sp, #1, lsl #12
	str	xzr, [sp, #4392]
	str	xzr, [sp, #4384]
	add	x19, x19, #288
	vj_c_call	memcpy
	ldr	x2, [sp, #208]
	orr	x0, x19, #0x8
	mov	x1, x24
	vj_c_call	memcpy
	ldp	q2, q1, [sp, #128]
	cmp	x28, #5
	ldr	q0, [sp, #4384]
	ldr	x8, [sp, #184]
	str	xzr, [sp, #992]
	str	wzr, [sp, #1000]
	eor	v0.16b, v0.16b, v2.16b
	strh	w8, [sp, #1004]
	add	x8, sp, #224
	add	x8, x8, #782
	strh	wzr, [sp, #1102]
	str	xzr, [sp, #4504]
	stp	q1, q0, [sp, #928]
	stp	q1, q0, [sp, #960]
	movi	v0.2d, #0000000000000000
	stp	q0, q0, [x8]
	stp	q0, q0, [x8, #32]
	stp	q0, q0, [x8, #64]
	mov	w8, #4
	str	x8, [sp, #4496]
	b.eq	112f
	add	x0, sp, #1, lsl #12
	mov	x1, x25
	mov	x2, x27
	add	x0, x0, #288
	str	xzr, [sp, #4392]
	str	xzr, [sp, #4384]
	vj_c_call	memcpy
	add	x8, sp, #1, lsl #12
	ldr	x2, [sp, #208]
	mov	x1, x24
	add	x8, x8, #288
	orr	x0, x8, #0x8
	vj_c_call	memcpy
	ldp	q2, q1, [sp, #128]
	add	x9, sp, #224
	ldr	q0, [sp, #4384]
	ldr	x8, [sp, #184]
	cmp	x28, #6
	str	xzr, [sp, #1168]
	eor	v0.16b, v0.16b, v2.16b
	strh	w8, [sp, #1180]
	add	x8, x9, #958
	str	wzr, [sp, #1176]
	str	q1, [sp, #1136]
	str	q0, [sp, #1120]
	str	q0, [sp, #1152]
	movi	v0.2d, #0000000000000000
	str	q1, [sp, #1104]
	strh	wzr, [sp, #1278]
	str	xzr, [sp, #4520]
	stp	q0, q0, [x8]
	stp	q0, q0, [x8, #32]
	stp	q0, q0, [x8, #64]
	mov	w8, #5
	str	x8, [sp, #4512]
	b.eq	112f
	add	x0, sp, #1, lsl #12
	mov	x1, x25
	mov	x2, x27
	add	x0, x0, #288
	add	x19, sp, #1, lsl #12
	str	xzr, [sp, #4392]
	str	xzr, [sp, #4384]
	add	x19, x19, #288
	vj_c_call	memcpy
	ldr	x2, [sp, #208]
	orr	x0, x19, #0x8
	mov	x1, x24
	vj_c_call	memcpy
	ldp	q2, q1, [sp, #128]
	cmp	x28, #7
	ldr	q0, [sp, #4384]
	ldr	x8, [sp, #184]
	str	xzr, [sp, #1344]
	str	wzr, [sp, #1352]
	eor	v0.16b, v0.16b, v2.16b
	strh	w8, [sp, #1356]
	add	x8, sp, #224
	add	x8, x8, #1134
	str	q1, [sp, #1280]
	str	q1, [sp, #1312]
	str	q0, [sp, #1296]
	str	q0, [sp, #1328]
	movi	v0.2d, #0000000000000000
	strh	wzr, [sp, #1454]
	str	xzr, [sp, #4536]
	stp	q0, q0, [x8]
	stp	q0, q0, [x8, #32]
	stp	q0, q0, [x8, #64]
	mov	w8, #6
	str	x8, [sp, #4528]
	b.eq	112f
	add	x0, sp, #1, lsl #12
	mov	x1, x25
	mov	x2, x27
	add	x0, x0, #288
	str	xzr, [sp, #4392]
	str	xzr, [sp, #4384]
	vj_c_call	memcpy
	add	x8, sp, #1, lsl #12
	ldr	x2, [sp, #208]
	mov	x1, x24
	add	x8, x8, #288
	orr	x0, x8, #0x8
	vj_c_call	memcpy
	ldr	q1, [sp, #144]
	ldr	q0, [sp, #4384]
	add	x8, sp, #224
	ldr	x9, [sp, #184]
	add	x8, x8, #1310
	str	xzr, [sp, #1520]
	str	q1, [sp, #1456]
	str	q1, [sp, #1488]
	ldr	q1, [sp, #128]
	str	wzr, [sp, #1528]
	eor	v0.16b, v0.16b, v1.16b
	strh	w9, [sp, #1532]
	strh	wzr, [sp, #1630]
	str	xzr, [sp, #4552]
	str	q0, [sp, #1472]
	str	q0, [sp, #1504]
	movi	v0.2d, #0000000000000000
	stp	q0, q0, [x8]
	stp	q0, q0, [x8, #32]
	stp	q0, q0, [x8, #64]
	mov	w8, #7
	str	x8, [sp, #4544]
112:
	cmp	x28, #9
	str	x24, [sp, #200]
	stp	x27, x25, [sp, #168]
	b.lo	134f
	mov	x19, x26
	b	114f
113:
	add	x3, sp, #1, lsl #12
	add	x4, sp, #224
	mov	x0, x22
	add	x3, x3, #336
	mov	x1, x26
	mov	x2, x25
	mov	x5, x23
	add	x27, sp, #1, lsl #12
	add	x24, sp, #224
	add	x27, x27, #336
	bl	b2sum..lanes..finish..86239a0cbe7e8a42_1_a64
	ldp	x2, x1, [sp, #168]
	add	x0, sp, #1, lsl #12
	mov	w8, #176
	add	x0, x0, #288
	str	xzr, [sp, #4392]
	umaddl	x24, w25, w8, x24
	str	xzr, [sp, #4384]
	vj_c_call	memcpy
	add	x8, sp, #1, lsl #12
	ldp	x1, x2, [sp, #200]
	add	x8, x8, #288
	orr	x0, x8, #0x8
	vj_c_call	memcpy
	ldr	q0, [sp, #4384]
	ldr	q1, [sp, #128]
	ldr	x8, [sp, #184]
	str	xzr, [x24, #64]
	eor	v0.16b, v0.16b, v1.16b
	ldr	q1, [sp, #144]
	strh	w8, [x24, #76]
	add	x8, x27, x25, lsl #4
	str	wzr, [x24, #72]
	strh	wzr, [x24, #174]
	stp	q1, q0, [x24]
	stp	q1, q0, [x24, #32]
	movi	v0.2d, #0000000000000000
	stp	x19, xzr, [x8]
	add	x19, x19, #1
	cmp	x28, x19
	stur	q0, [x24, #78]
	stur	q0, [x24, #94]
	stur	q0, [x24, #110]
	stur	q0, [x24, #126]
	stur	q0, [x24, #142]
	stur	q0, [x24, #158]
	b.eq	134f
114:
	ldr	x8, [sp, #4528]
	ldr	x10, [sp, #4512]
	ldr	x12, [sp, #4496]
	ldr	x9, [sp, #4536]
	ldr	x13, [sp, #4480]
	ldr	x11, [sp, #4520]
	add	x8, x22, x8, lsl #4
	add	x10, x22, x10, lsl #4
	add	x12, x22, x12, lsl #4
	ldr	x15, [sp, #4464]
	ldr	x14, [sp, #4504]
	add	x13, x22, x13, lsl #4
	ldr	x8, [x8, #8]
	ldr	x10, [x10, #8]
	ldr	x12, [x12, #8]
	ldr	x0, [sp, #4448]
	add	x15, x22, x15, lsl #4
	ldr	x16, [sp, #4488]
	subs	x8, x8, x9
	ldr	x13, [x13, #8]
	ldr	x17, [sp, #4472]
	csel	x8, xzr, x8, lo
	subs	x9, x10, x11
	ldr	x10, [sp, #4432]
	csel	x9, xzr, x9, lo
	subs	x11, x12, x14
	add	x12, x22, x0, lsl #4
	ldr	x14, [x15, #8]
	add	x0, x22, x10, lsl #4
	ldr	x1, [sp, #4456]
	csel	x10, xzr, x11, lo
	subs	x11, x13, x16
	ldr	x12, [x12, #8]
	ldr	x15, [sp, #4440]
	csel	x11, xzr, x11, lo
	subs	x13, x14, x17
	ldr	x14, [x0, #8]
	csel	x16, xzr, x13, lo
	subs	x12, x12, x1
	csel	x13, xzr, x12, lo
	subs	x12, x14, x15
	csel	x14, xzr, x12, lo
	mov	w12, #16
	cmp	x13, x14
	csel	x15, x12, xzr, lo
	add	x12, sp, #1, lsl #12
	add	x12, x12, #336
	add	x15, x12, x15
	ldp	x17, x15, [x15]
	add	x17, x22, x17, lsl #4
	ldr	x17, [x17, #8]
	subs	x15, x17, x15
	csel	x15, xzr, x15, lo
	cmp	x16, x15
	b.hs	115f
	mov	w25, #2
	b	116f
115:
	cmp	x13, x14
	cset	w25, lo
116:
	add	x12, x12, x25, lsl #4
	ldp	x13, x12, [x12]
	add	x13, x22, x13, lsl #4
	ldr	x13, [x13, #8]
	subs	x12, x13, x12
	csel	x12, xzr, x12, lo
	cmp	x11, x12
	b.hs	117f
	mov	w25, #3
117:
	add	x11, sp, #1, lsl #12
	add	x11, x11, #336
	add	x12, x11, x25, lsl #4
	ldp	x13, x12, [x12]
	add	x13, x22, x13, lsl #4
	ldr	x13, [x13, #8]
	subs	x12, x13, x12
	csel	x12, xzr, x12, lo
	cmp	x10, x12
	b.hs	118f
	mov	w25, #4
118:
	add	x10, x11, x25, lsl #4
	ldp	x11, x10, [x10]
	add	x11, x22, x11, lsl #4
	ldr	x11, [x11, #8]
	subs	x10, x11, x10
	csel	x10, xzr, x10, lo
	cmp	x9, x10
	b.hs	119f
	mov	w25, #5
119:
	add	x9, sp, #1, lsl #12
	add	x9, x9, #336
	add	x10, x9, x25, lsl #4
	ldp	x11, x10, [x10]
	add	x11, x22, x11, lsl #4
	ldr	x11, [x11, #8]
	subs	x10, x11, x10
	csel	x10, xzr, x10, lo
	cmp	x8, x10
	b.hs	120f
	mov	w25, #6
120:
	add	x8, x9, x25, lsl #4
	ldr	x9, [sp, #4544]
	ldr	x11, [sp, #4552]
	ldp	x10, x8, [x8]
	add	x9, x22, x9, lsl #4
	ldr	x9, [x9, #8]
	add	x10, x22, x10, lsl #4
	subs	x9, x9, x11
	ldr	x10, [x10, #8]
	csel	x9, xzr, x9, lo
	subs	x8, x10, x8
	csel	x8, xzr, x8, lo
	cmp	x9, x8
	b.hs	113b
	mov	w25, #7
	b	113b
121:
	add	x0, sp, #1632
	mov	w1, wzr
	mov	w2, #2752
	vj_c_call	memset
	movi	v0.2d, #0000000000000000
	str	q0, [sp, #4544]
	str	q0, [sp, #4528]
	str	q0, [sp, #4512]
	str	q0, [sp, #4496]
	str	q0, [sp, #4480]
	str	q0, [sp, #4464]
	str	q0, [sp, #4448]
	str	q0, [sp, #4432]
	cbz	x28, 138f
	ldr	x9, [sp, #184]
	sub	x8, x9, #1
	cmp	x8, #63
	b.hi	131f
	cmp	x27, #16
	b.hi	131f
	ldr	x8, [sp, #208]
	cmp	x8, #16
	b.hi	131f
	mov	w8, #16842752
	movi	v1.2d, #0000000000000000
	movi	v2.2d, #0000000000000000
	orr	w8, w9, w8
	add	x0, sp, #1, lsl #12
	str	w24, [sp, #48]
	mov	v0.s[0], w8
	vj_page	x8, .L1_a64_CPI75_0
	add	x0, x0, #288
	mov	x1, x25
	mov	x2, x27
	mov	x24, x19
	add	x19, sp, #1, lsl #12
	str	q2, [sp, #4400]
	str	q2, [sp, #4384]
	add	x19, x19, #288
	mov	v1.d[0], v0.d[0]
	vj_load	q0, x8, .L1_a64_CPI75_0
	vj_page	x8, .L1_a64_CPI75_1
	eor	v0.16b, v1.16b, v0.16b
	str	q0, [sp, #144]
	vj_load	q0, x8, .L1_a64_CPI75_1
	str	q0, [sp, #128]
	vj_c_call	memcpy
	ldr	x2, [sp, #208]
	orr	x0, x19, #0x10
	mov	x1, x24
	str	x24, [sp, #200]
	vj_c_call	memcpy
	vj_page	x8, .L1_a64_CPI75_3
	ldr	q0, [sp, #4384]
	vj_page	x9, .L1_a64_CPI75_2
	vj_load	q4, x8, .L1_a64_CPI75_3
	ldr	q1, [sp, #4400]
	vj_load	q5, x9, .L1_a64_CPI75_2
	add	x24, sp, #1632
	ldp	q3, q2, [sp, #128]
	eor	v0.16b, v0.16b, v4.16b
	add	x8, x24, #148
	eor	v1.16b, v1.16b, v5.16b
	cmp	x28, #1
	stp	q5, q4, [sp, #96]
	str	q0, [sp, #1664]
	str	q0, [sp, #1728]
	movi	v0.2d, #0000000000000000
	str	q2, [sp, #1632]
	str	q3, [sp, #1648]
	str	q2, [sp, #1696]
	stp	q0, q0, [x8, #112]
	stp	q0, q0, [x8, #144]
	str	q0, [x8, #176]
	add	x8, sp, #1632
	stur	q0, [x8, #148]
	stur	q0, [x8, #164]
	stur	q0, [x8, #180]
	stur	q0, [x8, #196]
	stur	q0, [x8, #212]
	stur	q0, [x8, #228]
	stur	q0, [x8, #244]
	ldr	x8, [sp, #184]
	str	q3, [sp, #1712]
	str	q1, [sp, #1680]
	str	q1, [sp, #1744]
	str	xzr, [sp, #1768]
	str	xzr, [sp, #1760]
	str	w8, [sp, #1776]
	str	wzr, [sp, #1972]
	str	xzr, [sp, #4440]
	str	xzr, [sp, #4432]
	b.eq	122f
	add	x0, sp, #1, lsl #12
	mov	x1, x25
	mov	x2, x27
	add	x0, x0, #288
	str	q0, [sp, #4400]
	str	q0, [sp, #4384]
	vj_c_call	memcpy
	ldp	x1, x2, [sp, #200]
	orr	x0, x19, #0x10
	vj_c_call	memcpy
	ldr	q0, [sp, #4384]
	ldr	q4, [sp, #112]
	cmp	x28, #2
	ldr	q1, [sp, #4400]
	ldp	q3, q2, [sp, #128]
	eor	v0.16b, v0.16b, v4.16b
	ldr	q4, [sp, #96]
	ldr	x8, [sp, #64]
	str	xzr, [sp, #2112]
	eor	v1.16b, v1.16b, v4.16b
	stp	q2, q3, [x8]
	stp	q2, q3, [x8, #64]
	str	xzr, [sp, #2104]
	stp	q0, q1, [x8, #32]
	stp	q0, q1, [x8, #96]
	movi	v0.2d, #0000000000000000
	ldr	x8, [sp, #184]
	str	wzr, [sp, #2316]
	str	w8, [sp, #2120]
	add	x8, x24, #492
	str	xzr, [sp, #4456]
	stp	q0, q0, [x8]
	stp	q0, q0, [x8, #32]
	stp	q0, q0, [x8, #64]
	stp	q0, q0, [x8, #96]
	stp	q0, q0, [x8, #128]
	stp	q0, q0, [x8, #160]
	mov	w8, #1
	str	x8, [sp, #4448]
	b.eq	122f
	add	x0, sp, #1, lsl #12
	mov	x1, x25
	mov	x2, x27
	add	x0, x0, #288
	add	x19, sp, #1, lsl #12
	str	q0, [sp, #4400]
	str	q0, [sp, #4384]
	add	x19, x19, #288
	vj_c_call	memcpy
	ldp	x1, x2, [sp, #200]
	orr	x0, x19, #0x10
	vj_c_call	memcpy
	ldr	q0, [sp, #4384]
	ldr	q4, [sp, #112]
	add	x24, sp, #1632
	ldr	q1, [sp, #4400]
	ldr	x8, [sp, #184]
	cmp	x28, #3
	eor	v0.16b, v0.16b, v4.16b
	ldr	q4, [sp, #96]
	str	wzr, [sp, #2660]
	ldp	q3, q2, [sp, #128]
	str	w8, [sp, #2464]
	eor	v1.16b, v1.16b, v4.16b
	add	x8, x24, #836
	str	xzr, [sp, #4472]
	str	q0, [sp, #2352]
	str	q0, [sp, #2416]
	movi	v0.2d, #0000000000000000
	str	q2, [sp, #2320]
	str	q3, [sp, #2336]
	str	q2, [sp, #2384]
	stp	q0, q0, [x8]
	stp	q0, q0, [x8, #32]
	stp	q0, q0, [x8, #64]
	stp	q0, q0, [x8, #96]
	stp	q0, q0, [x8, #128]
	stp	q0, q0, [x8, #160]
	mov	w8, #2
	str	q3, [sp, #2400]
	str	q1, [sp, #2368]
	str	q1, [sp, #2432]
	str	q0, [sp, #2448]
	str	x8, [sp, #4464]
	b.eq	122f
	add	x0, sp, #1, lsl #12
	mov	x1, x25
	mov	x2, x27
	add	x0, x0, #288
	str	q0, [sp, #4400]
	str	q0, [sp, #4384]
	vj_c_call	memcpy
	ldp	x1, x2, [sp, #200]
	orr	x0, x19, #0x10
	vj_c_call	memcpy
	ldr	q0, [sp, #4384]
	ldr	q4, [sp, #112]
	cmp	x28, #4
	ldr	q1, [sp, #4400]
	ldr	x8, [sp, #64]
	str	wzr, [sp, #3004]
	eor	v0.16b, v0.16b, v4.16b
	ldr	q4, [sp, #96]
	str	xzr, [sp, #4488]
	ldp	q3, q2, [sp, #128]
	eor	v1.16b, v1.16b, v4.16b
	stp	q2, q3, [x8, #688]
	stp	q0, q1, [x8, #720]
	stp	q2, q3, [x8, #752]
	stp	q0, q1, [x8, #784]
	movi	v0.2d, #0000000000000000
	add	x8, x24, #1160
	str	q0, [x8]
	ldr	x8, [sp, #184]
	str	w8, [sp, #2808]
	add	x8, x24, #1180
	stp	q0, q0, [x8]
	stp	q0, q0, [x8, #32]
	stp	q0, q0, [x8, #64]
	stp	q0, q0, [x8, #96]
	stp	q0, q0, [x8, #128]
	stp	q0, q0, [x8, #160]
	mov	w8, #3
	str	x8, [sp, #4480]
	b.eq	122f
	add	x0, sp, #1, lsl #12
	mov	x1, x25
	mov	x2, x27
	add	x0, x0, #288
	add	x19, sp, #1, lsl #12
	str	q0, [sp, #4400]
	str	q0, [sp, #4384]
	add	x19, x19, #288
	vj_c_call	memcpy
	ldp	x1, x2, [sp, #200]
	orr	x0, x19, #0x10
	vj_c_call	memcpy
	ldr	q0, [sp, #4384]
	ldr	q4, [sp, #112]
	add	x24, sp, #1632
	ldp	q3, q2, [sp, #128]
	cmp	x28, #5
	eor	v0.16b, v0.16b, v4.16b
	ldr	q1, [sp, #4400]
	ldr	x8, [sp, #184]
	str	wzr, [sp, #3348]
	str	q2, [sp, #3008]
	str	q2, [sp, #3072]
	ldr	q2, [sp, #96]
	str	q0, [sp, #3040]
	str	q0, [sp, #3104]
	movi	v0.2d, #0000000000000000
	eor	v1.16b, v1.16b, v2.16b
	str	w8, [sp, #3152]
	add	x8, x24, #1524
	str	q3, [sp, #3024]
	str	q3, [sp, #3088]
	stp	q0, q0, [x8]
	stp	q0, q0, [x8, #32]
	stp	q0, q0, [x8, #64]
	stp	q0, q0, [x8, #96]
	stp	q0, q0, [x8, #128]
	stp	q0, q0, [x8, #160]
	mov	w8, #4
	str	q1, [sp, #3056]
	str	q1, [sp, #3120]
	str	q0, [sp, #3136]
	str	x8, [sp, #4496]
	str	xzr, [sp, #4504]
	b.eq	122f
	add	x0, sp, #1, lsl #12
	mov	x1, x25
	mov	x2, x27
	add	x0, x0, #288
	str	q0, [sp, #4400]
	str	q0, [sp, #4384]
	vj_c_call	memcpy
	ldp	x1, x2, [sp, #200]
	orr	x0, x19, #0x10
	vj_c_call	memcpy
	ldp	q3, q2, [sp, #128]
	cmp	x28, #6
	ldr	q0, [sp, #4384]
	ldr	q4, [sp, #112]
	ldr	x8, [sp, #64]
	ldr	q1, [sp, #4400]
	str	wzr, [sp, #3692]
	eor	v0.16b, v0.16b, v4.16b
	str	q2, [x8, #1376]
	str	q2, [x8, #1440]
	ldr	q2, [sp, #96]
	str	q3, [x8, #1392]
	eor	v1.16b, v1.16b, v2.16b
	str	q0, [x8, #1408]
	str	q0, [x8, #1472]
	movi	v0.2d, #0000000000000000
	str	q3, [x8, #1456]
	str	q1, [x8, #1424]
	str	q1, [x8, #1488]
	add	x8, x24, #1848
	str	q0, [x8]
	ldr	x8, [sp, #184]
	str	xzr, [sp, #4520]
	str	w8, [sp, #3496]
	add	x8, x24, #1868
	stp	q0, q0, [x8]
	stp	q0, q0, [x8, #32]
	stp	q0, q0, [x8, #64]
	stp	q0, q0, [x8, #96]
	stp	q0, q0, [x8, #128]
	stp	q0, q0, [x8, #160]
	mov	w8, #5
	str	x8, [sp, #4512]
	b.eq	122f
	add	x0, sp, #1, lsl #12
	mov	x1, x25
	mov	x2, x27
	add	x0, x0, #288
	add	x19, sp, #1, lsl #12
	str	q0, [sp, #4400]
	str	q0, [sp, #4384]
	add	x19, x19, #288
	vj_c_call	memcpy
	ldp	x1, x2, [sp, #200]
	orr	x0, x19, #0x10
	vj_c_call	memcpy
	ldr	q0, [sp, #4384]
	ldr	q4, [sp, #112]
	add	x24, sp, #1632
	ldp	q3, q2, [sp, #128]
	cmp	x28, #7
	eor	v0.16b, v0.16b, v4.16b
	ldr	q1, [sp, #4400]
	ldr	x8, [sp, #184]
	str	wzr, [sp, #4036]
	str	q2, [sp, #3696]
	str	q2, [sp, #3760]
	ldr	q2, [sp, #96]
	str	q0, [sp, #3728]
	str	q0, [sp, #3792]
	movi	v0.2d, #0000000000000000
	eor	v1.16b, v1.16b, v2.16b
	str	w8, [sp, #3840]
	add	x8, x24, #2212
	str	q3, [sp, #3712]
	str	q3, [sp, #3776]
	stp	q0, q0, [x8]
	stp	q0, q0, [x8, #32]
	stp	q0, q0, [x8, #64]
	stp	q0, q0, [x8, #96]
	stp	q0, q0, [x8, #128]
	stp	q0, q0, [x8, #160]
	mov	w8, #6
	str	q1, [sp, #3744]
	str	q1, [sp, #3808]
	str	q0, [sp, #3824]
	str	x8, [sp, #4528]
	str	xzr, [sp, #4536]
	b.eq	122f
	add	x0, sp, #1, lsl #12
	mov	x1, x25
	mov	x2, x27
	add	x0, x0, #288
	str	q0, [sp, #4400]
	str	q0, [sp, #4384]
	vj_c_call	memcpy
	ldp	x1, x2, [sp, #200]
	orr	x0, x19, #0x10
	vj_c_call	memcpy
	ldp	q3, q2, [sp, #128]
	ldr	q0, [sp, #4384]
	ldr	q4, [sp, #112]
	ldr	x8, [sp, #64]
	ldr	q1, [sp, #4400]
	str	wzr, [sp, #4380]
	eor	v0.16b, v0.16b, v4.16b
	str	q2, [x8, #2064]
	str	q2, [x8, #2128]
	ldr	q2, [sp, #96]
	str	q3, [x8, #2080]
	eor	v1.16b, v1.16b, v2.16b
	str	q0, [x8, #2096]
	str	q0, [x8, #2160]
	movi	v0.2d, #0000000000000000
	str	q3, [x8, #2144]
	str	q1, [x8, #2112]
	str	q1, [x8, #2176]
	add	x8, x24, #2536
	str	q0, [x8]
	ldr	x8, [sp, #184]
	str	xzr, [sp, #4552]
	str	w8, [sp, #4184]
	add	x8, x24, #2556
	stp	q0, q0, [x8]
	stp	q0, q0, [x8, #32]
	stp	q0, q0, [x8, #64]
	stp	q0, q0, [x8, #96]
	stp	q0, q0, [x8, #128]
	stp	q0, q0, [x8, #160]
	mov	w8, #7
	str	x8, [sp, #4544]
122:
	cmp	x28, #9
	stp	x27, x25, [sp, #168]
	b.lo	136f
	mov	x24, x26
	b	124f
123:
	add	x3, sp, #1, lsl #12
	add	x4, sp, #1632
	mov	x0, x22
	add	x3, x3, #336
	mov	x1, x26
	mov	x2, x25
	mov	x5, x23
	add	x19, sp, #1, lsl #12
	add	x27, sp, #1632
	add	x19, x19, #336
	bl	b2sum..lanes..finish..d634354ca11db3c0_1_a64
	movi	v0.2d, #0000000000000000
	ldp	x2, x1, [sp, #168]
	add	x0, sp, #1, lsl #12
	mov	w8, #344
	add	x0, x0, #288
	umaddl	x27, w25, w8, x27
	str	q0, [sp, #4400]
	str	q0, [sp, #4384]
	vj_c_call	memcpy
	add	x8, sp, #1, lsl #12
	ldp	x1, x2, [sp, #200]
	add	x8, x8, #288
	orr	x0, x8, #0x10
	vj_c_call	memcpy
	ldr	q0, [sp, #4384]
	ldr	q4, [sp, #112]
	ldr	q1, [sp, #4400]
	ldr	x8, [sp, #184]
	stp	xzr, xzr, [x27, #128]
	eor	v0.16b, v0.16b, v4.16b
	ldr	q4, [sp, #96]
	str	wzr, [x27, #340]
	str	w8, [x27, #144]
	add	x8, x19, x25, lsl #4
	eor	v1.16b, v1.16b, v4.16b
	ldp	q3, q2, [sp, #128]
	stp	x24, xzr, [x8]
	add	x24, x24, #1
	cmp	x28, x24
	stp	q2, q3, [x27]
	stp	q0, q1, [x27, #32]
	stp	q2, q3, [x27, #64]
	stp	q0, q1, [x27, #96]
	movi	v0.2d, #0000000000000000
	stur	q0, [x27, #164]
	stur	q0, [x27, #180]
	stur	q0, [x27, #196]
	stur	q0, [x27, #212]
	stur	q0, [x27, #228]
	stur	q0, [x27, #244]
	str	q0, [x27, #148]!
	stp	q0, q0, [x27, #112]
	stp	q0, q0, [x27, #144]
	str	q0, [x27, #176]
	b.eq	136f
124:
	ldr	x8, [sp, #4528]
	ldr	x10, [sp, #4512]
	ldr	x12, [sp, #4496]
	ldr	x9, [sp, #4536]
	ldr	x13, [sp, #4480]
	ldr	x11, [sp, #4520]
	add	x8, x22, x8, lsl #4
	add	x10, x22, x10, lsl #4
	add	x12, x22, x12, lsl #4
	ldr	x15, [sp, #4464]
	ldr	x14, [sp, #4504]
	add	x13, x22, x13, lsl #4
	ldr	x8, [x8, #8]
	ldr	x10, [x10, #8]
	ldr	x12, [x12, #8]
	ldr	x0, [sp, #4448]
	add	x15, x22, x15, lsl #4
	ldr	x16, [sp, #4488]
	subs	x8, x8, x9
	ldr	x13, [x13, #8]
	ldr	x17, [sp, #4472]
	csel	x8, xzr, x8, lo
	subs	x9, x10, x11
	ldr	x10, [sp, #4432]
	csel	x9, xzr, x9, lo
	subs	x11, x12, x14
	add	x12, x22, x0, lsl #4
	ldr	x14, [x15, #8]
	add	x0, x22, x10, lsl #4
	ldr	x1, [sp, #4456]
	csel	x10, xzr, x11, lo
	subs	x11, x13, x16
	ldr	x12, [x12, #8]
	ldr	x15, [sp, #4440]
	csel	x11, xzr, x11, lo
	subs	x13, x14, x17
	ldr	x14, [x0, #8]
	csel	x16, xzr, x13, lo
	subs	x12, x12, x1
	csel	x13, xzr, x12, lo
	subs	x12, x14, x15
	csel	x14, xzr, x12, lo
	mov	w12, #16
	cmp	x13, x14
	csel	x15, x12, xzr, lo
	add	x12, sp, #1, lsl #12
	add	x12, x12, #336
	add	x15, x12, x15
	ldp	x17, x15, [x15]
	add	x17, x22, x17, lsl #4
	ldr	x17, [x17, #8]
	subs	x15, x17, x15
	csel	x15, xzr, x15, lo
	cmp	x16, x15
	b.hs	125f
	mov	w25, #2
	b	126f
125:
	cmp	x13, x14
	cset	w25, lo
126:
	add	x12, x12, x25, lsl #4
	ldp	x13, x12, [x12]
	add	x13, x22, x13, lsl #4
	ldr	x13, [x13, #8]
	subs	x12, x13, x12
	csel	x12, xzr, x12, lo
	cmp	x11, x12
	b.hs	127f
	mov	w25, #3
127:
	add	x11, sp, #1, lsl #12
	add	x11, x11, #336
	add	x12, x11, x25, lsl #4
	ldp	x13, x12, [x12]
	add	x13, x22, x13, lsl #4
	ldr	x13, [x13, #8]
	subs	x12, x13, x12
	csel	x12, xzr, x12, lo
	cmp	x10, x12
	b.hs	128f
	mov	w25, #4
128:
	add	x10, x11, x25, lsl #4
	ldp	x11, x10, [x10]
	add	x11, x22, x11, lsl #4
	ldr	x11, [x11, #8]
	subs	x10, x11, x10
	csel	x10, xzr, x10, lo
	cmp	x9, x10
	b.hs	129f
	mov	w25, #5
129:
	add	x9, sp, #1, lsl #12
	add	x9, x9, #336
	add	x10, x9, x25, lsl #4
	ldp	x11, x10, [x10]
	add	x11, x22, x11, lsl #4
	ldr	x11, [x11, #8]
	subs	x10, x11, x10
	csel	x10, xzr, x10, lo
	cmp	x8, x10
	b.hs	130f
	mov	w25, #6
130:
	add	x8, x9, x25, lsl #4
	ldr	x9, [sp, #4544]
	ldr	x11, [sp, #4552]
	ldp	x10, x8, [x8]
	add	x9, x22, x9, lsl #4
	ldr	x9, [x9, #8]
	add	x10, x22, x10, lsl #4
	subs	x9, x9, x11
	ldr	x10, [x10, #8]
	csel	x9, xzr, x9, lo
	subs	x8, x10, x8
	csel	x8, xzr, x8, lo
	cmp	x9, x8
	b.hs	123b
	mov	w25, #7
	b	123b
131:
	ldr	x25, [sp, #88]
	ldr	x26, [sp, #56]
	ldr	w10, [sp, #52]
132:
	ldr	x27, [sp, #72]
	tbnz	w10, #0, 133f
	mov	x0, x23
	vj_call	rattle_dealloc
133:
	tbnz	w24, #0, 159f
	mov	x0, x22
	vj_call	rattle_dealloc
	b	159f
134:
	ldr	w24, [sp, #48]
	mov	x25, xzr
135:
	add	x3, sp, #1, lsl #12
	add	x4, sp, #224
	mov	x0, x22
	add	x3, x3, #336
	mov	x1, x26
	mov	x2, x25
	mov	x5, x23
	bl	b2sum..lanes..finish..86239a0cbe7e8a42_1_a64
	add	x25, x25, #1
	cmp	x26, x25
	b.ne	135b
	b	138f
136:
	ldr	w24, [sp, #48]
	mov	x25, xzr
137:
	add	x3, sp, #1, lsl #12
	add	x4, sp, #1632
	mov	x0, x22
	add	x3, x3, #336
	mov	x1, x26
	mov	x2, x25
	mov	x5, x23
	bl	b2sum..lanes..finish..d634354ca11db3c0_1_a64
	add	x25, x25, #1
	cmp	x26, x25
	b.ne	137b
138:
	ldr	w8, [sp, #52]
	tbz	w8, #0, 139f
	ldr	x27, [sp, #72]
	ldr	x25, [sp, #88]
	mov	w23, #1
	ldr	x26, [sp, #56]
	mov	w19, #1
	b	157f
139:
	ldr	x27, [sp, #72]
	ldr	w28, [sp, #84]
	mov	x19, xzr
	str	w24, [sp, #48]
140:
	mov	w8, #40
	madd	x8, x19, x8, x21
	ldp	x26, x24, [x8]
	cbz	x24, 142f
	tbnz	x24, #63, 155f
	mov	x0, x24
	mov	w1, #1
	vj_call	rattle_alloc
	tbz	w0, #0, 155f
	mov	x25, x1
	sub	x9, x1, x26
	cmp	x9, x24
	b.hs	143f
141:
	cmp	x24, #8
	mov	x8, xzr
	b.lo	148f
	cmp	x9, #32
	b.lo	148f
	cmp	x24, #32
	b.hs	144f
	mov	x8, xzr
	b	146f
142:
	add	x25, sp, #1, lsl #12
	add	x25, x25, #472
	sub	x9, x25, x26
	cmp	x9, x24
	b.lo	141b
143:
	mov	x0, x25
	mov	x1, x26
	mov	x2, x24
	vj_c_call	memmove
	b	150f
144:
	and	x9, x24, #0x18
	and	x8, x24, #0xffffffffffffffe0
	add	x10, x26, #16
	add	x11, x25, #16
	and	x12, x24, #0xffffffffffffffe0
145:
	ldp	q0, q1, [x10, #-16]
	subs	x12, x12, #32
	add	x10, x10, #32
	stp	q0, q1, [x11, #-16]
	add	x11, x11, #32
	b.ne	145b
	cmp	x24, x8
	b.eq	150f
	cbz	x9, 148f
146:
	mov	x11, x8
	and	x8, x24, #0xfffffffffffffff8
	sub	x9, x11, x8
	add	x10, x26, x11
	add	x11, x25, x11
147:
	ldr	d0, [x10], #8
	adds	x9, x9, #8
	str	d0, [x11], #8
	b.ne	147b
	cmp	x24, x8
	b.eq	150f
148:
	sub	x9, x24, x8
	add	x10, x26, x8
	add	x8, x25, x8
149:
	ldrb	w11, [x10], #1
	subs	x9, x9, #1
	strb	w11, [x8], #1
	b.ne	149b
150:
	add	x9, x23, x19, lsl #6
	ldp	x8, x10, [x27, #8]
	ldr	q0, [x9]
	cmp	x10, x8
	str	q0, [sp, #1632]
	ldr	q0, [x9, #16]
	str	q0, [sp, #1648]
	ldr	q0, [x9, #32]
	str	q0, [sp, #1664]
	ldr	q0, [x9, #48]
	str	q0, [sp, #1680]
	b.eq	152f
151:
	mov	w9, #104
	ldr	x10, [x27]
	add	x19, x19, #1
	madd	x9, x8, x9, x10
	ldr	w10, [sp, #220]
	add	x8, x8, #1
	cmp	x19, x20
	stp	w10, w28, [x9, #24]
	ldr	x10, [sp, #184]
	stp	x25, x24, [x9]
	str	x24, [x9, #16]
	str	x10, [x9, #32]
	ldr	q0, [sp, #1632]
	stur	q0, [x9, #40]
	ldr	q0, [sp, #1648]
	stur	q0, [x9, #56]
	ldr	q0, [sp, #1664]
	stur	q0, [x9, #72]
	ldr	q0, [sp, #1680]
	stur	q0, [x9, #88]
	str	x8, [x27, #8]
	b.ne	140b
	b	153f
152:
	mov	x0, x27
	bl	std_alloc..vec..Vec..grow_amortized..bf97339f63b56ecc_1_a64
	cbz	w0, 154f
	ldr	x8, [sp, #192]
	ldr	x8, [x8]
	b	151b
153:
	mov	w19, #1
	b	156f
154:
	cbz	x24, 155f
	mov	x0, x25
	vj_call	rattle_dealloc
155:
	mov	w19, wzr
156:
	ldr	x25, [sp, #88]
	ldr	x26, [sp, #56]
	mov	x0, x23
	vj_call	rattle_dealloc
	ldr	w24, [sp, #48]
	mov	w23, wzr
157:
	tbnz	w24, #0, 158f
	mov	x0, x22
	vj_call	rattle_dealloc
158:
	tbz	w19, #0, 165f
159:
	cbz	x20, 161f
	mov	x8, xzr
	add	x9, x21, #32
	mov	x10, x20
160:
	ldp	x12, x11, [x9, #-8]
	add	x9, x9, #40
	subs	x11, x11, x12
	csel	x11, xzr, x11, lo
	adds	x8, x11, x8
	csinv	x8, x8, xzr, lo
	subs	x10, x10, #1
	b.ne	160b
	lsr	x10, x26, #8
	cmp	x20, x8, lsr #11
	cset	w9, hi
	mov	w8, w10
	b	162f
161:
	lsr	x8, x26, #8
	eor	w9, w8, #0x1
162:
	ldp	x11, x10, [x27, #56]
	mov	w12, #1024
	ldr	x13, [x27, #24]
	cmp	x10, #1024
	csel	x10, x10, x12, lo
	mov	w12, #960
	lsl	x10, x10, #1
	cmp	x10, #960
	csel	x10, x10, x12, lo
	cmp	w9, #0
	add	x10, x10, #64
	csel	x9, x10, xzr, ne
	cmp	x11, #1024, lsl #12
	mov	w10, #4194304
	csel	x12, x11, x10, lo
	lsl	x12, x12, #1
	cmp	x12, #1024, lsl #12
	csel	x10, x12, x10, lo
	cmp	w8, #0
	csel	x8, x10, x11, ne
	adds	x10, x20, x13
	csinv	x10, x10, xzr, lo
	stp	x8, x9, [x27, #56]
	cmp	x10, #0
	cset	w11, ne
	sub	x10, x10, x11
	and	x11, x26, #0x1
	add	x11, x10, x11
	adds	x8, x9, x11
	csinv	x8, x8, xzr, lo
	stp	x10, x8, [x27, #32]
	cbz	x20, 166f
	add	x19, x21, #16
	b	164f
163:
	subs	x20, x20, #1
	add	x19, x19, #40
	b.eq	166f
164:
	ldr	x8, [x19]
	cbz	x8, 163b
	ldur	x0, [x19, #-16]
	vj_call	rattle_dealloc
	b	163b
165:
	tbz	w23, #0, 105b
166:
	cbz	x25, 168f
	mov	x0, x21
167:
	vj_call	rattle_dealloc
168:
	mov	sp, x29
	ldp	x20, x19, [sp, #80]
	ldp	x22, x21, [sp, #64]
	ldp	x24, x23, [sp, #48]
	ldp	x26, x25, [sp, #32]
	ldp	x28, x27, [sp, #16]
	ldp	x29, x30, [sp], #96
	ret
	vj_end	b2sum_commands..ahead..read_group..432d41b752d14b0e_1_a64

	vj_function	b2sum..disk..marked_1_a64
	sub	sp, sp, #96
	stp	x29, x30, [sp, #32]
	add	x29, sp, #32
	stp	x22, x21, [sp, #64]
	mov	x22, x1
	add	x8, x29, #31
	stp	x20, x19, [sp, #80]
	mov	x19, x0
	add	x0, sp, #8
	mov	w1, #4
	str	x23, [sp, #48]
	mov	x20, x3
	mov	x21, x2
	stp	xzr, xzr, [sp, #16]
	str	x8, [sp, #8]
	bl	std_alloc..vec..Vec..grow_amortized..01eec35b572d02af_1_a64
	ldr	x23, [sp, #24]
	cbz	w0, 6f
	ldp	x8, x9, [sp, #8]
	add	x10, x8, x9
	add	x9, x9, #4
	sub	x11, x10, x22
	cmp	x11, #3
	b.hi	9f
	ldrb	w11, [x22]
	strb	w11, [x10]
	ldrb	w11, [x22, #1]
	strb	w11, [x10, #1]
	ldrb	w11, [x22, #2]
	strb	w11, [x10, #2]
	ldrb	w11, [x22, #3]
	strb	w11, [x10, #3]
	sub	x10, x23, x9
	stp	x9, x23, [sp, #16]
	cmp	x20, x10
	b.hi	10f
1:
	add	x0, x8, x9
	add	x22, x9, x20
	sub	x10, x0, x21
	cmp	x10, x20
	b.hs	11f
2:
	cmp	x20, #8
	b.lo	3f
	add	x10, x9, x8
	sub	x10, x10, x21
	cmp	x10, #32
	b.hs	13f
3:
	mov	x10, xzr
4:
	add	x11, x10, x9
	sub	x9, x20, x10
	add	x10, x21, x10
	add	x8, x8, x11
5:
	ldrb	w11, [x10], #1
	subs	x9, x9, #1
	strb	w11, [x8], #1
	b.ne	5b
	b	12f
6:
	cbz	x23, 8f
7:
	ldr	x0, [sp, #8]
	vj_call	rattle_dealloc
8:
	mov	w8, #1
	stp	xzr, xzr, [x19, #16]
	strb	w8, [x19]
	str	xzr, [x19, #8]
	ldp	x20, x19, [sp, #80]
	ldr	x23, [sp, #48]
	ldp	x22, x21, [sp, #64]
	ldp	x29, x30, [sp, #32]
	add	sp, sp, #96
	ret
9:
	ldr	w11, [x22]
	str	w11, [x10]
	sub	x10, x23, x9
	stp	x9, x23, [sp, #16]
	cmp	x20, x10
	b.ls	1b
10:
	add	x0, sp, #8
	mov	x1, x20
	bl	std_alloc..vec..Vec..grow_amortized..01eec35b572d02af_1_a64
	cbz	w0, 18f
	ldp	x9, x23, [sp, #16]
	ldr	x8, [sp, #8]
	add	x0, x8, x9
	add	x22, x9, x20
	sub	x10, x0, x21
	cmp	x10, x20
	b.lo	2b
11:
	mov	x1, x21
	mov	x2, x20
	vj_c_call	memmove
12:
	stp	x22, x23, [sp, #16]
	ldur	q0, [sp, #8]
	strb	wzr, [x19]
	str	x23, [x19, #24]
	stur	q0, [x19, #8]
	ldp	x20, x19, [sp, #80]
	ldr	x23, [sp, #48]
	ldp	x22, x21, [sp, #64]
	ldp	x29, x30, [sp, #32]
	add	sp, sp, #96
	ret
13:
	cmp	x20, #32
	b.hs	14f
	mov	x10, xzr
	b	16f
14:
	add	x13, x9, x8
	and	x11, x20, #0x18
	and	x10, x20, #0xffffffffffffffe0
	add	x12, x21, #16
	add	x13, x13, #16
	and	x14, x20, #0xffffffffffffffe0
15:
	ldp	q0, q1, [x12, #-16]
	subs	x14, x14, #32
	add	x12, x12, #32
	stp	q0, q1, [x13, #-16]
	add	x13, x13, #32
	b.ne	15b
	cmp	x20, x10
	b.eq	12b
	cbz	x11, 4b
16:
	mov	x12, x10
	and	x10, x20, #0xfffffffffffffff8
	add	x13, x9, x12
	sub	x11, x12, x10
	add	x12, x21, x12
	add	x13, x8, x13
17:
	ldr	d0, [x12], #8
	adds	x11, x11, #8
	str	d0, [x13], #8
	b.ne	17b
	cmp	x20, x10
	b.eq	12b
	b	4b
18:
	ldr	x8, [sp, #24]
	cbnz	x8, 7b
	b	8b
	vj_end	b2sum..disk..marked_1_a64

	vj_cold	std_alloc..vec..Vec..grow_amortized..ceac4a91d2a6d4e6_1_a64
	ldr	x8, [x0, #8]
	cmn	x8, #1
	b.eq	2f
	stp	x29, x30, [sp, #-32]!
	ldr	x9, [x0, #16]
	cmp	x8, #3
	mov	w10, #3
	csel	x11, x8, x10, hi
	stp	x20, x19, [sp, #16]
	mov	x29, sp
	lsl	x10, x9, #1
	add	x12, x11, #1
	lsr	x13, x9, #62
	cmp	x12, x10
	csinc	x10, x10, x11, ls
	cmp	x13, #0
	csinc	x19, x10, x11, eq
	mov	x11, #3689348814741910323
	movk	x11, #819, lsl #48
	cmp	x19, x11
	b.hi	4f
	cbz	x9, 3f
	add	x8, x8, x8, lsl #2
	add	x9, x19, x19, lsl #2
	mov	x20, x0
	ldr	x0, [x0]
	mov	w3, #8
	lsl	x1, x8, #3
	lsl	x2, x9, #3
	vj_call	rattle_realloc
	tbz	w0, #0, 4f
1:
	mov	w0, #1
	str	x1, [x20]
	str	x19, [x20, #16]
	ldp	x20, x19, [sp, #16]
	ldp	x29, x30, [sp], #32
	ret
2:
	mov	w0, wzr
	ret
3:
	add	x8, x10, x10, lsl #2
	mov	x20, x0
	mov	w1, #8
	lsl	x0, x8, #3
	vj_call	rattle_alloc
	tbnz	w0, #0, 1b
4:
	mov	w0, wzr
	ldp	x20, x19, [sp, #16]
	ldp	x29, x30, [sp], #32
	ret
	vj_end	std_alloc..vec..Vec..grow_amortized..ceac4a91d2a6d4e6_1_a64

	vj_function	core..slice..edits..mirror..27.b2sum_commands..ahead..Part_1_a64
	sub	sp, sp, #48
	mov	w8, #40
	madd	x8, x2, x8, x1
	sub	x8, x8, #40
1:
	ldp	q0, q1, [x8]
	sub	x2, x2, #1
	ldp	q2, q3, [x0]
	ldr	x9, [x8, #32]
	ldr	x10, [x0, #32]
	stp	q0, q1, [x0]
	str	x9, [x0, #32]
	add	x0, x0, #40
	str	x10, [x8, #32]
	stp	q2, q3, [x8]
	sub	x8, x8, #40
	cbnz	x2, 1b
	add	sp, sp, #48
	ret
	vj_end	core..slice..edits..mirror..27.b2sum_commands..ahead..Part_1_a64

	vj_function	core..slice..sort..stable..quicksort..610785a6ec0ddab1_1_a64
	sub	sp, sp, #128
	stp	x24, x23, [sp, #80]
	mov	x23, x2
	cmp	x1, #33
	stp	x22, x21, [sp, #96]
	mov	x21, x1
	mov	x22, x0
	stp	x20, x19, [sp, #112]
	mov	x19, x4
	mov	w20, w3
	stp	x29, x30, [sp, #32]
	add	x29, sp, #32
	stp	x28, x27, [sp, #48]
	stp	x26, x25, [sp, #64]
	b.hs	4f
1:
	mov	x0, x22
	mov	x1, x21
	mov	x2, x19
	ldp	x20, x19, [sp, #112]
	ldp	x22, x21, [sp, #96]
	ldp	x24, x23, [sp, #80]
	ldp	x26, x25, [sp, #64]
	ldp	x28, x27, [sp, #48]
	ldp	x29, x30, [sp, #32]
	add	sp, sp, #128
	b	core..slice..sort..short..sort..610785a6ec0ddab1_1_a64
2:
	mov	x0, x24
	mov	x1, x23
	vj_c_call	memmove
3:
	sub	w20, w20, #1
	mov	x0, x22
	mov	x1, x25
	mov	x2, x21
	mov	w3, w20
	mov	x4, x19
	stp	x23, x26, [x19]
	bl	core..slice..sort..stable..quicksort..610785a6ec0ddab1_1_a64
	mov	x21, x28
	cmp	x27, #33
	mov	x23, x21
	mov	x22, x24
	mov	x21, x27
	b.lo	1b
4:
	cbz	w20, 22f
	lsr	x4, x21, #3
	cmp	x21, #63
	lsl	x8, x4, #3
	lsl	x2, x4, #2
	sub	x3, x8, x4
	b.hi	6f
	mov	w8, #160
	mov	w9, #280
	madd	x8, x4, x8, x22
	ldp	x10, x11, [x22, #24]
	madd	x9, x4, x9, x22
	sub	x10, x10, x11
	ldp	x12, x8, [x8, #24]
	ldp	x13, x9, [x9, #24]
	sub	x8, x12, x8
	cmp	x10, x8
	sub	x9, x13, x9
	cset	w11, lo
	cmp	x10, x9
	cset	w10, lo
	cmp	x8, x9
	cset	w8, lo
	eor	w9, w11, w10
	eor	w8, w11, w8
	cmp	w8, #0
	csel	x8, x3, x2, ne
	cmp	w9, #0
	csel	x0, xzr, x8, ne
	add	x8, x0, x0, lsl #2
	cmp	x23, x21
	lsl	x11, x8, #3
	b.lo	7f
5:
	ldp	x23, x26, [x19]
	b	8f
6:
	mov	x0, x22
	mov	x1, xzr
	bl	core..slice..sort..pivot..median_of_medians..610785a6ec0ddab1_1_a64
	add	x8, x0, x0, lsl #2
	cmp	x23, x21
	lsl	x11, x8, #3
	b.hs	5b
7:
	mov	w8, #40
	add	x12, x22, x11
	madd	x8, x23, x8, x22
	ldp	x23, x26, [x19]
	ldp	x10, x13, [x8, #24]
	ldp	x9, x8, [x12, #24]
	sub	x13, x10, x13
	sub	x10, x9, x8
	cmp	x13, x10
	b.hs	14f
8:
	add	x8, x22, x11
	mov	x10, xzr
	ldr	x9, [x8, #16]
	ldr	q0, [x8]
	str	x9, [sp, #16]
	str	q0, [sp]
	ldp	x9, x8, [x8, #24]
	cbz	x0, 10f
	mov	x11, xzr
	sub	x12, x9, x8
	add	x13, x22, #32
9:
	ldp	x14, x15, [x13, #-8]
	sub	x16, x11, x10
	ldp	q1, q0, [x13, #-32]
	add	x11, x11, #1
	add	x13, x13, #40
	sub	x14, x14, x15
	cmp	x14, x12
	mov	w14, #40
	csel	x16, x10, x16, lo
	csel	x17, x22, x23, lo
	cinc	x10, x10, lo
	madd	x14, x16, x14, x17
	cmp	x0, x11
	str	x15, [x14, #32]
	stp	q1, q0, [x14]
	b.ne	9b
10:
	add	x11, x0, #1
	mov	x25, x10
	cmp	x11, x21
	b.hs	12f
	mov	w12, #40
	mov	x25, x10
	madd	x13, x0, x12, x22
	sub	x12, x9, x8
	add	x13, x13, #72
11:
	ldp	x14, x15, [x13, #-8]
	sub	x16, x11, x25
	ldp	q1, q0, [x13, #-32]
	add	x11, x11, #1
	add	x13, x13, #40
	sub	x14, x14, x15
	cmp	x14, x12
	mov	w14, #40
	csel	x16, x25, x16, lo
	csel	x17, x22, x23, lo
	cinc	x25, x25, lo
	madd	x14, x16, x14, x17
	cmp	x21, x11
	str	x15, [x14, #32]
	stp	q1, q0, [x14]
	b.ne	11b
12:
	sub	x28, x0, x10
	mov	w10, #40
	sub	x27, x21, x25
	madd	x11, x28, x10, x23
	add	x12, x27, x27, lsl #2
	ldr	q0, [sp]
	madd	x24, x25, x10, x22
	ldr	x10, [sp, #16]
	lsl	x2, x12, #3
	stp	x10, x9, [x11, #16]
	str	q0, [x11]
	sub	x9, x24, x23
	str	x8, [x11, #32]
	cmp	x9, x2
	b.hs	2b
	cmp	x21, x25
	mov	x8, x24
	mov	x9, x23
	sub	x10, x21, x25
	b.eq	3b
13:
	ldp	q1, q0, [x9]
	subs	x10, x10, #1
	ldr	x11, [x9, #32]
	add	x9, x9, #40
	str	x11, [x8, #32]
	stp	q1, q0, [x8]
	add	x8, x8, #40
	b.ne	13b
	b	3b
14:
	ldr	x11, [x12, #16]
	ldr	q0, [x12]
	str	x11, [sp, #16]
	mov	x11, xzr
	str	q0, [sp]
	cbz	x0, 16f
	mov	x12, xzr
	add	x13, x22, #32
15:
	ldp	x14, x15, [x13, #-8]
	sub	x16, x12, x11
	ldp	q1, q0, [x13, #-32]
	add	x12, x12, #1
	add	x13, x13, #40
	sub	x14, x14, x15
	cmp	x10, x14
	mov	w14, #40
	csel	x16, x11, x16, hs
	csel	x17, x22, x23, hs
	cinc	x11, x11, hs
	madd	x14, x16, x14, x17
	cmp	x0, x12
	str	x15, [x14, #32]
	stp	q1, q0, [x14]
	b.ne	15b
16:
	add	x13, x0, #1
	add	x12, x11, #1
	cmp	x13, x21
	b.hs	18f
	mov	w14, #40
	madd	x14, x0, x14, x22
	add	x14, x14, #72
17:
	ldp	x15, x16, [x14, #-8]
	sub	x17, x13, x12
	ldp	q1, q0, [x14, #-32]
	add	x13, x13, #1
	add	x14, x14, #40
	sub	x15, x15, x16
	cmp	x10, x15
	mov	w15, #40
	csel	x17, x12, x17, hs
	csel	x0, x22, x23, hs
	cinc	x12, x12, hs
	madd	x15, x17, x15, x0
	cmp	x21, x13
	str	x16, [x15, #32]
	stp	q1, q0, [x15]
	b.ne	17b
18:
	mov	w10, #40
	sub	x27, x21, x12
	ldr	q0, [sp]
	madd	x24, x12, x10, x22
	ldr	x13, [sp, #16]
	madd	x11, x11, x10, x22
	add	x10, x27, x27, lsl #2
	lsl	x2, x10, #3
	sub	x10, x24, x23
	cmp	x10, x2
	str	q0, [x11]
	stp	x13, x9, [x11, #16]
	str	x8, [x11, #32]
	b.hs	20f
	cmp	x21, x12
	mov	x8, x24
	mov	x9, x23
	mov	x10, x27
	b.eq	21f
19:
	ldp	q1, q0, [x9]
	subs	x10, x10, #1
	ldr	x11, [x9, #32]
	add	x9, x9, #40
	str	x11, [x8, #32]
	stp	q1, q0, [x8]
	add	x8, x8, #40
	b.ne	19b
	b	21f
20:
	mov	x0, x24
	mov	x1, x23
	vj_c_call	memmove
21:
	sub	w20, w20, #1
	stp	x23, x26, [x19]
	cmp	x27, #33
	mov	x23, x21
	mov	x22, x24
	mov	x21, x27
	b.hs	4b
	b	1b
22:
	mov	x0, x22
	mov	x1, x21
	mov	x2, x19
	ldp	x20, x19, [sp, #112]
	ldp	x22, x21, [sp, #96]
	ldp	x24, x23, [sp, #80]
	ldp	x26, x25, [sp, #64]
	ldp	x28, x27, [sp, #48]
	ldp	x29, x30, [sp, #32]
	add	sp, sp, #128
	b	core..slice..sort..stable..merge_sort..610785a6ec0ddab1_1_a64
	vj_end	core..slice..sort..stable..quicksort..610785a6ec0ddab1_1_a64

	vj_function	core..slice..sort..short..sort..610785a6ec0ddab1_1_a64
	sub	sp, sp, #96
	stp	x20, x19, [sp, #80]
	mov	x19, x2
	cmp	x1, #16
	stp	x29, x30, [sp, #32]
	add	x29, sp, #32
	stp	x24, x23, [sp, #48]
	stp	x22, x21, [sp, #64]
	b.hs	1f
	mov	x2, x19
	ldp	x20, x19, [sp, #80]
	ldp	x22, x21, [sp, #64]
	ldp	x24, x23, [sp, #48]
	ldp	x29, x30, [sp, #32]
	add	sp, sp, #96
	b	core..slice..sort..short..sort_half..610785a6ec0ddab1_1_a64
1:
	lsr	x21, x1, #1
	mov	w8, #40
	mov	x24, x1
	mov	x2, x19
	mov	x20, x0
	sub	x23, x1, x21
	mov	x1, x21
	madd	x22, x21, x8, x0
	bl	core..slice..sort..short..sort_half..610785a6ec0ddab1_1_a64
	mov	x0, x22
	mov	x1, x23
	mov	x2, x19
	bl	core..slice..sort..short..sort_half..610785a6ec0ddab1_1_a64
	movi	v0.2d, #0000000000000000
	mov	x0, x20
	mov	x11, sp
	ldp	x20, x22, [x19]
	mov	x8, x24
	mov	x9, xzr
	mov	x14, x21
	sub	x15, x11, #1
	mov	x10, x21
	mov	x12, x21
	mov	x13, x24
	stp	q0, q0, [sp]
	b	3f
2:
	sub	x13, x13, #1
	sub	x14, x14, #1
	sub	x15, x15, #1
	add	x11, x11, #1
	cbz	x14, 8f
3:
	mov	w16, #40
	madd	x17, x12, x16, x0
	madd	x16, x9, x16, x0
	ldp	x1, x17, [x17, #24]
	ldp	x2, x3, [x16, #24]
	sub	x16, x1, x17
	mov	x1, x12
	sub	x17, x2, x3
	cmp	x16, x17
	b.lo	4f
	mov	x1, x9
4:
	cmp	x16, x17
	strb	w1, [x11]
	b.hs	5f
	add	x12, x12, #1
	b	6f
5:
	add	x9, x9, #1
6:
	mov	w16, #40
	madd	x17, x13, x16, x0
	madd	x16, x10, x16, x0
	ldp	x1, x17, [x17, #-16]
	ldp	x2, x3, [x16, #-16]
	sub	x16, x1, x17
	mov	x1, x10
	sub	x17, x2, x3
	cmp	x16, x17
	b.lo	7f
	mov	x1, x13
7:
	cmp	x16, x17
	sub	w16, w1, #1
	strb	w16, [x15, x8]
	b.hs	2b
	sub	x10, x10, #1
	sub	x14, x14, #1
	sub	x15, x15, #1
	add	x11, x11, #1
	cbnz	x14, 3b
8:
	tbz	w8, #0, 9f
	cmp	x9, x10
	mov	x11, sp
	csel	x14, x9, x12, lo
	strb	w14, [x11, x21]
9:
	cmp	x12, x13
	b.hi	12f
	cmp	x9, x10
	b.hi	12f
	mov	x9, sp
	mov	x10, x20
	mov	x11, x8
10:
	ldrb	w12, [x9], #1
	mov	w13, #40
	subs	x11, x11, #1
	umaddl	x12, w12, w13, x0
	ldp	q0, q1, [x12]
	ldr	x12, [x12, #32]
	str	x12, [x10, #32]
	stp	q0, q1, [x10]
	add	x10, x10, #40
	b.ne	10b
	add	x9, x8, x8, lsl #2
	lsl	x2, x9, #3
	sub	x9, x0, x20
	cmp	x9, x2
	b.hs	19f
	mov	x9, x20
11:
	ldp	q1, q0, [x9]
	subs	x8, x8, #1
	ldr	x10, [x9, #32]
	add	x9, x9, #40
	str	x10, [x0, #32]
	stp	q1, q0, [x0]
	add	x0, x0, #40
	b.ne	11b
	b	20f
12:
	mov	w9, #1
	mov	x10, x0
	b	16f
13:
	mov	x13, xzr
14:
	ldr	q0, [sp]
	ldr	x14, [sp, #16]
	add	x13, x0, x13
	str	x12, [x13, #32]
	str	q0, [x13]
	stp	x14, x11, [x13, #16]
15:
	add	x9, x9, #1
	add	x10, x10, #40
	cmp	x9, x8
	b.eq	21f
16:
	mov	w11, #40
	madd	x15, x9, x11, x0
	ldp	x11, x12, [x15, #24]
	ldp	x14, x16, [x15, #-16]
	sub	x13, x11, x12
	sub	x14, x14, x16
	cmp	x13, x14
	b.hs	15b
	ldr	q0, [x15]
	sub	x14, x15, #40
	ldr	x16, [x15, #16]
	str	q0, [sp]
	ldp	q0, q1, [x14]
	str	x16, [sp, #16]
	ldr	x16, [x14, #32]
	sub	x14, x9, #1
	stp	q0, q1, [x15]
	str	x16, [x15, #32]
	cbz	x14, 13b
	mov	x15, x10
17:
	ldp	x16, x17, [x15, #-16]
	sub	x16, x16, x17
	cmp	x13, x16
	b.hs	18f
	sub	x16, x15, #40
	sub	x14, x14, #1
	ldp	q0, q1, [x16]
	ldr	x17, [x16, #32]
	str	x17, [x15, #32]
	stp	q0, q1, [x15]
	mov	x15, x16
	cbnz	x14, 17b
18:
	add	x13, x14, x14, lsl #2
	lsl	x13, x13, #3
	b	14b
19:
	mov	x1, x20
	vj_c_call	memmove
20:
	stp	x20, x22, [x19]
21:
	ldp	x20, x19, [sp, #80]
	ldp	x22, x21, [sp, #64]
	ldp	x24, x23, [sp, #48]
	ldp	x29, x30, [sp, #32]
	add	sp, sp, #96
	ret
	vj_end	core..slice..sort..short..sort..610785a6ec0ddab1_1_a64

	vj_function	core..slice..sort..short..sort_half..610785a6ec0ddab1_1_a64
	sub	sp, sp, #208
	stp	x29, x30, [sp, #112]
	add	x29, sp, #112
	cmp	x1, #8
	stp	x28, x27, [sp, #128]
	stp	x26, x25, [sp, #144]
	stp	x24, x23, [sp, #160]
	stp	x22, x21, [sp, #176]
	stp	x20, x19, [sp, #192]
	stur	x2, [x29, #-40]
	b.lo	1f
	ldp	x8, x9, [x0, #144]
	ldp	x10, x11, [x0, #104]
	ldp	x12, x13, [x0, #64]
	sub	x8, x8, x9
	sub	x9, x10, x11
	ldp	x10, x11, [x0, #24]
	cmp	x8, x9
	mov	w9, #2
	sub	x12, x12, x13
	mov	w8, #40
	sub	x10, x10, x11
	cinc	x11, x9, lo
	cinc	x9, x9, hs
	cmp	x12, x10
	umaddl	x12, w9, w8, x0
	umaddl	x13, w11, w8, x0
	csel	x14, xzr, x8, lo
	csel	x10, x8, xzr, lo
	add	x14, x0, x14
	add	x10, x0, x10
	ldp	x16, x14, [x14, #24]
	ldp	x17, x12, [x12, #24]
	ldp	x15, x13, [x13, #24]
	ldp	x2, x10, [x10, #24]
	sub	x14, x16, x14
	sub	x12, x17, x12
	cset	w16, lo
	sub	x13, x15, x13
	cset	w15, hs
	cmp	x12, x14
	sub	x10, x2, x10
	csel	x17, x11, x15, lo
	ldur	x2, [x29, #-40]
	cmp	x13, x10
	csel	x10, x11, x16, lo
	csel	x13, x16, x17, lo
	csel	x11, x15, x11, lo
	cmp	x12, x14
	umaddl	x12, w13, w8, x0
	csel	x11, x9, x11, lo
	umaddl	x10, w10, w8, x0
	csel	x9, x15, x9, lo
	umaddl	x14, w11, w8, x0
	ldp	x16, x12, [x12, #24]
	umaddl	x9, w9, w8, x0
	ldr	x15, [x10, #32]
	ldp	q0, q1, [x10]
	ldp	x17, x14, [x14, #24]
	sub	x12, x16, x12
	sub	x14, x17, x14
	cmp	x14, x12
	ldp	x19, x12, [x2]
	csel	x10, x11, x13, lo
	csel	x11, x13, x11, lo
	umaddl	x10, w10, w8, x0
	str	x15, [x19, #32]
	stp	q0, q1, [x19]
	ldp	q1, q0, [x10]
	stur	x12, [x29, #-48]
	ldr	x12, [x10, #32]
	umaddl	x10, w11, w8, x0
	str	x12, [x19, #72]
	stur	q0, [x19, #56]
	stur	q1, [x19, #40]
	ldp	q1, q0, [x10]
	ldr	x11, [x10, #32]
	str	x11, [x19, #112]
	stp	q1, q0, [x19, #80]
	ldp	q1, q0, [x9]
	ldr	x10, [x9, #32]
	str	x10, [x19, #152]
	stur	q0, [x19, #136]
	stur	q1, [x19, #120]
	ldp	x9, x10, [x0, #224]
	ldp	x11, x12, [x0, #184]
	ldp	x13, x14, [x0, #304]
	ldp	x15, x16, [x0, #264]
	sub	x10, x9, x10
	sub	x11, x11, x12
	mov	w9, #4
	mov	w12, #6
	cmp	x10, x11
	sub	x11, x13, x14
	sub	x13, x15, x16
	cinc	x14, x9, lo
	cinc	x10, x9, hs
	cmp	x11, x13
	umaddl	x15, w10, w8, x0
	cinc	x13, x12, hs
	cinc	x12, x12, lo
	umaddl	x11, w14, w8, x0
	umaddl	x16, w13, w8, x0
	umaddl	x17, w12, w8, x0
	ldp	x2, x15, [x15, #24]
	ldp	x4, x11, [x11, #24]
	ldp	x3, x16, [x16, #24]
	ldp	x5, x17, [x17, #24]
	sub	x15, x2, x15
	sub	x11, x4, x11
	sub	x16, x3, x16
	sub	x17, x5, x17
	cmp	x16, x15
	csel	x2, x12, x10, lo
	cmp	x17, x11
	csel	x17, x12, x14, lo
	csel	x11, x14, x2, lo
	csel	x12, x10, x12, lo
	cmp	x16, x15
	umaddl	x14, w11, w8, x0
	csel	x12, x13, x12, lo
	umaddl	x16, w17, w8, x0
	csel	x10, x10, x13, lo
	umaddl	x15, w12, w8, x0
	ldp	x17, x14, [x14, #24]
	umaddl	x10, w10, w8, x0
	ldr	x13, [x16, #32]
	ldp	q1, q0, [x16]
	ldp	x2, x15, [x15, #24]
	sub	x14, x17, x14
	str	x13, [x19, #192]
	stp	q1, q0, [x19, #160]
	sub	x15, x2, x15
	cmp	x15, x14
	csel	x14, x12, x11, lo
	csel	x11, x11, x12, lo
	umaddl	x13, w14, w8, x0
	ldp	x14, x15, [x19, #24]
	umaddl	x11, w11, w8, x0
	ldr	x12, [x13, #32]
	ldp	q0, q1, [x13]
	ldp	x13, x16, [x19, #184]
	sub	x14, x14, x15
	str	x12, [x19, #232]
	add	x12, x19, #280
	stur	q1, [x19, #216]
	sub	x13, x13, x16
	stur	q0, [x19, #200]
	cmp	x13, x14
	ldp	q0, q1, [x11]
	cinc	x3, x9, lo
	ldr	x15, [x11, #32]
	csel	x9, x8, xzr, hs
	umaddl	x11, w3, w8, x19
	add	x9, x19, x9
	stp	x3, x13, [sp, #24]
	str	x15, [x19, #272]
	ldp	x15, x9, [x9, #24]
	stp	q0, q1, [x19, #240]
	ldp	x17, x11, [x11, #24]
	ldr	x16, [x10, #32]
	ldp	q0, q1, [x10]
	sub	x9, x15, x9
	ldp	x10, x2, [x19, #144]
	mov	w15, #7
	sub	x11, x17, x11
	str	x16, [x19, #312]
	str	q1, [x12, #16]
	cmp	x11, x9
	stp	x11, x9, [sp, #8]
	ldr	x9, [x19, #304]
	sub	x12, x10, x2
	cset	w10, hs
	cinc	x3, x3, lo
	cmp	x13, x14
	sub	x9, x9, x16
	str	x12, [sp, #56]
	cset	w11, hs
	cinc	x4, x10, hs
	stp	x14, x9, [sp, #40]
	cmp	x9, x12
	mov	w9, #3
	str	x11, [sp]
	cinc	x5, x15, lo
	cinc	x6, x9, hs
	umaddl	x9, w5, w8, x19
	umaddl	x10, w6, w8, x19
	ldp	x11, x9, [x9, #-16]
	ldp	x15, x10, [x10, #-16]
	sub	x7, x11, x9
	sub	x20, x15, x10
	umaddl	x10, w3, w8, x19
	cmp	x7, x20
	umaddl	x15, w4, w8, x19
	sbc	x22, x6, xzr
	cset	w11, hs
	madd	x9, x22, x8, x19
	sub	x23, x5, x11
	ldp	x17, x10, [x10, #24]
	smaddl	x11, w23, w8, x19
	ldp	x2, x15, [x15, #24]
	sub	x24, x17, x10
	ldp	x21, x11, [x11, #-16]
	sub	x25, x2, x15
	ldp	x27, x9, [x9, #-16]
	cmp	x24, x25
	cinc	x30, x3, lo
	sub	x26, x21, x11
	cinc	x21, x4, hs
	umaddl	x10, w30, w8, x19
	sub	x27, x27, x9
	umaddl	x17, w21, w8, x19
	cmp	x26, x27
	cset	w15, lo
	cset	w11, hs
	sub	x28, x22, x15
	sub	x11, x23, x11
	madd	x9, x28, x8, x19
	ldp	x2, x10, [x10, #24]
	ldp	x16, x17, [x17, #24]
	smaddl	x8, w11, w8, x19
	sub	x17, x16, x17
	ldp	x12, x13, [x8, #-16]
	sub	x8, x2, x10
	ldp	x14, x9, [x9, #-16]
	cmp	x8, x17
	cinc	x10, x21, hs
	sub	x2, x12, x13
	cinc	x12, x30, lo
	sub	x9, x14, x9
	cmp	x2, x9
	cset	w13, hs
	sbc	x15, x22, x15
	sub	x13, x11, x13
	cmp	x12, x13
	add	x12, x19, #280
	str	q0, [x12]
	b.hi	2f
	cmp	x10, x15
	b.hi	2f
	cmp	x2, x9
	ldp	x12, x10, [sp, #8]
	csel	w28, w28, w11, lo
	cmp	x8, x17
	ldr	x13, [sp]
	csel	x21, x30, x21, lo
	cmp	x26, x27
	csel	w11, w22, w23, lo
	cmp	x24, x25
	csel	x9, x3, x4, lo
	cmp	x7, x20
	csel	w8, w6, w5, lo
	cmp	x12, x10
	mov	w10, #160
	ldp	x12, x14, [sp, #24]
	sub	w8, w8, #1
	and	x8, x8, #0xff
	csel	x13, x12, x13, lo
	ldr	x12, [sp, #40]
	cmp	x14, x12
	mov	w12, #40
	csel	x10, xzr, x10, hs
	umaddl	x9, w9, w12, x19
	add	x10, x19, x10
	umaddl	x8, w8, w12, x19
	ldp	q1, q0, [x10]
	ldr	x14, [x10, #32]
	umaddl	x10, w13, w12, x19
	str	x14, [x0, #32]
	stp	q1, q0, [x0]
	ldp	q1, q0, [x10]
	ldr	x13, [x10, #32]
	str	x13, [x0, #72]
	stur	q0, [x0, #56]
	stur	q1, [x0, #40]
	ldp	q1, q0, [x9]
	ldr	x10, [x9, #32]
	umaddl	x9, w21, w12, x19
	str	x10, [x0, #112]
	sub	w10, w28, #1
	stp	q1, q0, [x0, #80]
	and	x10, x10, #0xff
	ldp	q1, q0, [x9]
	ldr	x13, [x9, #32]
	umaddl	x9, w10, w12, x19
	sub	w10, w11, #1
	str	x13, [x0, #152]
	and	x10, x10, #0xff
	stur	q0, [x0, #136]
	stur	q1, [x0, #120]
	ldp	q1, q0, [x9]
	ldr	x11, [x9, #32]
	umaddl	x9, w10, w12, x19
	str	x11, [x0, #192]
	ldp	x12, x11, [sp, #48]
	stp	q1, q0, [x0, #160]
	ldp	q1, q0, [x9]
	ldr	x10, [x9, #32]
	cmp	x12, x11
	str	x10, [x0, #232]
	mov	w10, #280
	stur	q0, [x0, #216]
	stur	q1, [x0, #200]
	ldp	q0, q1, [x8]
	ldr	x9, [x8, #32]
	mov	w8, #120
	csel	x8, x8, x10, lo
	str	x9, [x0, #272]
	stp	q0, q1, [x0, #240]
	add	x8, x19, x8
	ldp	q1, q0, [x8]
	ldr	x9, [x8, #32]
	add	x8, x0, #280
	str	x9, [x0, #312]
	stp	q1, q0, [x8]
	mov	w8, #8
	ldp	x10, x9, [x29, #-48]
	stp	x19, x10, [x9]
	cmp	x8, x1
	b.lo	7f
	b	14f
1:
	cmp	x1, #4
	b.lo	3f
	ldp	x8, x9, [x0, #144]
	ldur	x3, [x29, #-40]
	ldp	x10, x11, [x0, #104]
	ldp	x12, x13, [x0, #64]
	sub	x8, x8, x9
	sub	x9, x10, x11
	ldp	x10, x11, [x0, #24]
	cmp	x8, x9
	mov	w8, #2
	sub	x12, x12, x13
	cinc	x9, x8, hs
	cinc	x13, x8, lo
	sub	x11, x10, x11
	mov	w10, #40
	cmp	x12, x11
	umaddl	x12, w9, w10, x0
	umaddl	x8, w13, w10, x0
	csel	x14, xzr, x10, lo
	csel	x11, x10, xzr, lo
	add	x14, x0, x14
	add	x11, x0, x11
	ldp	x16, x14, [x14, #24]
	ldp	x17, x12, [x12, #24]
	ldp	x15, x8, [x8, #24]
	ldp	x2, x11, [x11, #24]
	sub	x14, x16, x14
	sub	x12, x17, x12
	cset	w16, lo
	sub	x8, x15, x8
	cset	w15, hs
	cmp	x12, x14
	sub	x11, x2, x11
	csel	x17, x13, x15, lo
	cmp	x8, x11
	csel	x8, x13, x16, lo
	csel	x11, x16, x17, lo
	csel	x13, x15, x13, lo
	cmp	x12, x14
	umaddl	x16, w8, w10, x0
	csel	x12, x9, x13, lo
	umaddl	x13, w11, w10, x0
	csel	x15, x15, x9, lo
	umaddl	x14, w12, w10, x0
	ldp	x8, x9, [x3]
	ldp	q0, q1, [x16]
	ldp	x17, x13, [x13, #24]
	ldp	x2, x14, [x14, #24]
	sub	x13, x17, x13
	ldr	x17, [x16, #32]
	stp	q0, q1, [x8]
	sub	x14, x2, x14
	cmp	x14, x13
	str	x17, [x8, #32]
	csel	x13, x12, x11, lo
	csel	x11, x11, x12, lo
	umaddl	x13, w13, w10, x0
	umaddl	x11, w11, w10, x0
	umaddl	x10, w15, w10, x0
	ldp	q1, q0, [x13]
	ldr	x14, [x13, #32]
	str	x14, [x8, #72]
	stur	q0, [x8, #56]
	stur	q1, [x8, #40]
	ldp	q1, q0, [x11]
	ldr	x12, [x11, #32]
	str	x12, [x8, #112]
	stp	q1, q0, [x8, #80]
	ldp	q1, q0, [x10]
	ldr	x11, [x10, #32]
	sub	x10, x0, x8
	cmp	x10, #159
	str	x11, [x8, #152]
	stur	q0, [x8, #136]
	stur	q1, [x8, #120]
	b.hi	5f
	ldp	q1, q0, [x8]
	ldr	x10, [x8, #32]
	str	x10, [x0, #32]
	stp	q1, q0, [x0]
	ldur	x10, [x8, #72]
	ldur	q0, [x8, #56]
	ldur	q1, [x8, #40]
	str	x10, [x0, #72]
	stur	q0, [x0, #56]
	stur	q1, [x0, #40]
	ldp	q1, q0, [x8, #80]
	ldur	x10, [x8, #112]
	str	x10, [x0, #112]
	stp	q1, q0, [x0, #80]
	ldur	x10, [x8, #152]
	ldur	q0, [x8, #136]
	ldur	q1, [x8, #120]
	str	x10, [x0, #152]
	stur	q0, [x0, #136]
	stur	q1, [x0, #120]
	b	6f
2:
	sub	x8, x0, x19
	cmp	x8, #319
	b.hi	4f
	ldp	q1, q0, [x19]
	add	x9, x0, #280
	ldr	x8, [x19, #32]
	str	x8, [x0, #32]
	stp	q1, q0, [x0]
	ldur	x8, [x19, #72]
	ldur	q0, [x19, #56]
	ldur	q1, [x19, #40]
	str	x8, [x0, #72]
	stur	q0, [x0, #56]
	stur	q1, [x0, #40]
	ldp	q1, q0, [x19, #80]
	ldur	x8, [x19, #112]
	str	x8, [x0, #112]
	stp	q1, q0, [x0, #80]
	ldur	x8, [x19, #152]
	ldur	q0, [x19, #136]
	ldur	q1, [x19, #120]
	str	x8, [x0, #152]
	stur	q0, [x0, #136]
	stur	q1, [x0, #120]
	ldp	q1, q0, [x19, #160]
	ldur	x8, [x19, #192]
	str	x8, [x0, #192]
	stp	q1, q0, [x0, #160]
	ldur	x8, [x19, #232]
	ldur	q0, [x19, #216]
	ldur	q1, [x19, #200]
	str	x8, [x0, #232]
	stur	q0, [x0, #216]
	stur	q1, [x0, #200]
	ldp	q1, q0, [x19, #240]
	ldr	x8, [x19, #272]
	str	x8, [x0, #272]
	stp	q1, q0, [x0, #240]
	ldp	q1, q0, [x12]
	ldr	x8, [x12, #32]
	str	x8, [x0, #312]
	stp	q1, q0, [x9]
	mov	w8, #4
	ldp	x10, x9, [x29, #-48]
	stp	x19, x10, [x9]
	cmp	x8, x1
	b.lo	7f
	b	14f
3:
	mov	w8, #1
	cmp	x8, x1
	b.lo	7f
	b	14f
4:
	mov	x21, x1
	mov	x1, x19
	mov	w2, #320
	mov	x20, x0
	vj_c_call	memmove
	mov	x0, x20
	mov	x1, x21
	mov	w8, #4
	ldp	x10, x9, [x29, #-48]
	stp	x19, x10, [x9]
	cmp	x8, x21
	b.lo	7f
	b	14f
5:
	ldp	q0, q1, [x8]
	ldp	q2, q3, [x8, #128]
	ldp	q4, q5, [x8, #32]
	ldp	q6, q7, [x8, #64]
	ldp	q16, q17, [x8, #96]
	stp	q0, q1, [x0]
	stp	q4, q5, [x0, #32]
	stp	q6, q7, [x0, #64]
	stp	q16, q17, [x0, #96]
	stp	q2, q3, [x0, #128]
6:
	ldur	x10, [x29, #-40]
	stp	x8, x9, [x10]
	mov	w8, #4
	cmp	x8, x1
	b.hs	14f
7:
	mov	w9, #40
	umaddl	x9, w8, w9, x0
	sub	x9, x9, #40
	b	11f
8:
	mov	x12, xzr
9:
	ldur	q0, [x29, #-32]
	ldur	x13, [x29, #-16]
	add	x12, x0, x12
	str	x11, [x12, #32]
	str	q0, [x12]
	stp	x13, x10, [x12, #16]
10:
	add	x8, x8, #1
	add	x9, x9, #40
	cmp	x8, x1
	b.eq	14f
11:
	mov	w10, #40
	madd	x14, x8, x10, x0
	ldp	x10, x11, [x14, #24]
	ldp	x13, x15, [x14, #-16]
	sub	x12, x10, x11
	sub	x13, x13, x15
	cmp	x12, x13
	b.hs	10b
	ldr	q0, [x14]
	sub	x13, x14, #40
	ldr	x15, [x14, #16]
	stur	q0, [x29, #-32]
	ldp	q0, q1, [x13]
	stur	x15, [x29, #-16]
	ldr	x15, [x13, #32]
	sub	x13, x8, #1
	stp	q0, q1, [x14]
	str	x15, [x14, #32]
	cbz	x13, 8b
	mov	x14, x9
12:
	ldp	x15, x16, [x14, #-16]
	sub	x15, x15, x16
	cmp	x12, x15
	b.hs	13f
	sub	x15, x14, #40
	sub	x13, x13, #1
	ldp	q0, q1, [x15]
	ldr	x16, [x15, #32]
	str	x16, [x14, #32]
	stp	q0, q1, [x14]
	mov	x14, x15
	cbnz	x13, 12b
13:
	add	x12, x13, x13, lsl #2
	lsl	x12, x12, #3
	b	9b
14:
	ldp	x20, x19, [sp, #192]
	ldp	x22, x21, [sp, #176]
	ldp	x24, x23, [sp, #160]
	ldp	x26, x25, [sp, #144]
	ldp	x28, x27, [sp, #128]
	ldp	x29, x30, [sp, #112]
	add	sp, sp, #208
	ret
	vj_end	core..slice..sort..short..sort_half..610785a6ec0ddab1_1_a64

	vj_function	core..slice..sort..stable..merge_sort..610785a6ec0ddab1_1_a64
	cmp	x1, #32
	b.hi	1f
	b	core..slice..sort..short..sort..610785a6ec0ddab1_1_a64
1:
	stp	x29, x30, [sp, #-64]!
	stp	x20, x19, [sp, #48]
	lsr	x19, x1, #1
	mov	w8, #40
	stp	x22, x21, [sp, #32]
	mov	x22, x1
	mov	x29, sp
	mov	x1, x19
	str	x23, [sp, #16]
	madd	x20, x19, x8, x0
	mov	x21, x0
	mov	x23, x2
	bl	core..slice..sort..stable..merge_sort..610785a6ec0ddab1_1_a64
	sub	x1, x22, x19
	mov	x0, x20
	mov	x2, x23
	bl	core..slice..sort..stable..merge_sort..610785a6ec0ddab1_1_a64
	mov	x0, x21
	mov	x1, x22
	mov	x2, x19
	ldp	x20, x19, [sp, #48]
	mov	x3, x23
	ldp	x22, x21, [sp, #32]
	ldr	x23, [sp, #16]
	ldp	x29, x30, [sp], #64
	b	core..slice..sort..merge..merge..610785a6ec0ddab1_1_a64
	vj_end	core..slice..sort..stable..merge_sort..610785a6ec0ddab1_1_a64

	vj_function	core..slice..sort..merge..merge..610785a6ec0ddab1_1_a64
	stp	x29, x30, [sp, #-96]!
	lsr	x8, x1, #2
	stp	x28, x27, [sp, #16]
	sub	x28, x1, x2
	stp	x22, x21, [sp, #64]
	mov	x21, x2
	mov	x22, x1
	cmp	x8, x2
	stp	x20, x19, [sp, #80]
	mov	x19, x3
	ccmp	x8, x28, #2, ls
	mov	x20, x0
	stp	x26, x25, [sp, #32]
	cset	w8, ls
	cmp	x1, #1, lsl #12
	stp	x24, x23, [sp, #48]
	mov	x29, sp
	b.ls	3f
	cbz	w8, 3f
	cmp	x22, #16, lsl #12
	b.ls	4f
1:
	add	x8, x21, x21, lsl #2
	ldp	x23, x27, [x19]
	cmp	x21, x28
	lsl	x25, x8, #3
	b.ls	7f
	add	x9, x28, x28, lsl #2
	add	x8, x20, x25
	add	x24, x23, x25
	lsl	x26, x9, #3
	sub	x9, x24, x8
	cmp	x9, x26
	b.hs	30f
	cmp	x22, x21
	add	x9, x23, x25
	sub	x10, x22, x21
	b.eq	31f
2:
	ldp	q1, q0, [x8]
	subs	x10, x10, #1
	ldr	x11, [x8, #32]
	add	x8, x8, #40
	str	x11, [x9, #32]
	stp	q1, q0, [x9]
	add	x9, x9, #40
	b.ne	2b
	b	31f
3:
	cmp	x22, #1, lsl #12
	eor	w8, w8, #0x1
	csel	w8, wzr, w8, ls
	tbnz	w8, #0, 1b
4:
	add	x8, x22, x22, lsl #2
	ldp	x23, x24, [x19]
	lsl	x2, x8, #3
	sub	x8, x23, x20
	cmp	x8, x2
	b.hs	14f
	mov	x8, x23
	mov	x9, x20
	mov	x10, x22
	cbz	x22, 6f
5:
	ldp	q1, q0, [x9]
	subs	x10, x10, #1
	ldr	x11, [x9, #32]
	add	x9, x9, #40
	str	x11, [x8, #32]
	stp	q1, q0, [x8]
	add	x8, x8, #40
	b.ne	5b
6:
	mov	x8, xzr
	cbnz	x21, 15f
	b	25f
7:
	sub	x8, x23, x20
	cmp	x8, x25
	b.hs	39f
	mov	x8, x23
	mov	x9, x20
	mov	x10, x21
	cbz	x21, 44f
8:
	ldp	q1, q0, [x9]
	subs	x10, x10, #1
	ldr	x11, [x9, #32]
	add	x9, x9, #40
	str	x11, [x8, #32]
	stp	q1, q0, [x8]
	add	x8, x8, #40
	b.ne	8b
	mov	x8, xzr
	cbz	x21, 40f
9:
	cmp	x22, x21
	mov	x9, x8
	b.ls	41f
	mov	x8, xzr
	mov	x9, xzr
	mov	x10, x21
	b	12f
10:
	add	x9, x9, #1
	cmp	x9, x21
	add	x8, x8, #40
	b.hs	41f
11:
	cmp	x10, x22
	b.hs	41f
12:
	mov	w11, #40
	madd	x12, x10, x11, x20
	madd	x11, x9, x11, x23
	ldp	x13, x12, [x12, #24]
	ldp	x14, x15, [x11, #24]
	sub	x11, x13, x12
	mov	x13, x20
	sub	x12, x14, x15
	mov	x14, x10
	cmp	x11, x12
	b.lo	13f
	mov	x13, x23
	mov	x14, x9
13:
	mov	w15, #40
	cmp	x11, x12
	madd	x13, x14, x15, x13
	add	x15, x20, x8
	ldp	q1, q0, [x13]
	ldr	x14, [x13, #32]
	str	x14, [x15, #32]
	stp	q1, q0, [x15]
	b.hs	10b
	add	x10, x10, #1
	cmp	x9, x21
	add	x8, x8, #40
	b.lo	11b
	b	41f
14:
	mov	x0, x23
	mov	x1, x20
	vj_c_call	memmove
	mov	x8, xzr
	cbz	x21, 25f
15:
	cmp	x22, x21
	b.ls	25f
	mov	x10, xzr
	mov	x8, xzr
	mov	x11, x20
	mov	x12, x21
	mov	x9, x22
16:
	mov	w13, #40
	madd	x14, x12, x13, x23
	madd	x13, x10, x13, x23
	ldp	x15, x14, [x14, #24]
	ldp	x16, x17, [x13, #24]
	sub	x13, x15, x14
	mov	x15, x12
	sub	x14, x16, x17
	cmp	x13, x14
	b.lo	17f
	mov	x15, x10
17:
	mov	w16, #40
	cmp	x13, x14
	madd	x15, x15, x16, x23
	ldp	q1, q0, [x15]
	ldr	x16, [x15, #32]
	str	x16, [x11, #32]
	stp	q1, q0, [x11]
	b.hs	18f
	add	x12, x12, #1
	cmp	x10, x21
	b.lo	19f
	b	21f
18:
	add	x10, x10, #1
	cmp	x10, x21
	b.hs	21f
19:
	cmp	x12, x22
	b.hs	21f
	mov	w13, #40
	madd	x14, x22, x13, x23
	madd	x13, x21, x13, x23
	ldp	x15, x14, [x14, #-16]
	ldp	x16, x17, [x13, #-16]
	sub	x13, x15, x14
	mov	x15, x21
	sub	x14, x16, x17
	cmp	x13, x14
	b.lo	20f
	mov	x15, x22
20:
	mov	w16, #40
	sub	x9, x9, #1
	cmp	x13, x14
	madd	x15, x15, x16, x23
	madd	x16, x9, x16, x20
	ldur	x17, [x15, #-8]
	ldur	q0, [x15, #-24]
	ldur	q1, [x15, #-40]
	str	x17, [x16, #32]
	stp	q1, q0, [x16]
	b.hs	23f
	sub	x21, x21, #1
21:
	cmp	x10, x21
	add	x8, x8, #1
	b.hs	24f
22:
	cmp	x12, x22
	add	x11, x11, #40
	b.lo	16b
	b	24f
23:
	sub	x22, x22, #1
	cmp	x10, x21
	add	x8, x8, #1
	b.lo	22b
24:
	cmp	x10, x21
	csel	x10, x10, x12, lo
	add	x10, x10, x10, lsl #2
	lsl	x11, x10, #3
	b	26f
25:
	mov	x9, x22
	mov	x11, x8
26:
	mov	w10, #40
	add	x1, x23, x11
	madd	x0, x8, x10, x20
	sub	x10, x9, x8
	add	x12, x10, x10, lsl #2
	lsl	x2, x12, #3
	sub	x11, x0, x1
	cmp	x11, x2
	b.hs	28f
	cmp	x9, x8
	b.eq	29f
27:
	ldp	q1, q0, [x1]
	subs	x10, x10, #1
	ldr	x8, [x1, #32]
	add	x1, x1, #40
	str	x8, [x0, #32]
	stp	q1, q0, [x0]
	add	x0, x0, #40
	b.ne	27b
	b	29f
28:
	vj_c_call	memmove
29:
	stp	x23, x24, [x19]
	b	48f
30:
	add	x0, x23, x25
	add	x1, x20, x25
	mov	x2, x26
	vj_c_call	memmove
31:
	cmp	x22, x21
	b.ls	37f
	mov	w8, #40
	mov	x9, #-40
	madd	x8, x22, x8, x9
	mov	x9, x21
	b	34f
32:
	mov	x22, x10
	cbz	x9, 36f
33:
	cmp	x22, x21
	sub	x8, x8, #40
	b.ls	36f
34:
	sub	x10, x22, #1
	mov	w12, #40
	sub	x11, x9, #1
	madd	x13, x10, x12, x23
	madd	x12, x11, x12, x20
	ldp	x14, x13, [x13, #24]
	ldp	x15, x16, [x12, #24]
	sub	x12, x14, x13
	mov	x14, x20
	sub	x13, x15, x16
	sub	x15, x9, #1
	cmp	x12, x13
	b.lo	35f
	mov	x14, x23
	sub	x15, x22, #1
35:
	mov	w16, #40
	cmp	x12, x13
	madd	x14, x15, x16, x14
	add	x16, x20, x8
	ldp	q1, q0, [x14]
	ldr	x15, [x14, #32]
	str	x15, [x16, #32]
	stp	q1, q0, [x16]
	b.hs	32b
	mov	x9, x11
	cbnz	x11, 33b
36:
	sub	x28, x22, x21
	add	x8, x9, x9, lsl #2
	add	x9, x28, x28, lsl #2
	lsl	x25, x8, #3
	lsl	x26, x9, #3
37:
	add	x0, x20, x25
	sub	x8, x0, x24
	cmp	x8, x26
	b.hs	43f
	cmp	x22, x21
	b.eq	47f
38:
	ldp	q1, q0, [x24]
	subs	x28, x28, #1
	ldr	x8, [x24, #32]
	add	x24, x24, #40
	str	x8, [x0, #32]
	stp	q1, q0, [x0]
	add	x0, x0, #40
	b.ne	38b
	b	47f
39:
	mov	x0, x23
	mov	x1, x20
	mov	x2, x25
	vj_c_call	memmove
	mov	x8, xzr
	cbnz	x21, 9b
40:
	mov	x9, x8
41:
	mov	w10, #40
	add	x20, x20, x8
	madd	x1, x9, x10, x23
	sub	x10, x21, x9
	add	x11, x10, x10, lsl #2
	lsl	x2, x11, #3
	sub	x8, x20, x1
	cmp	x8, x2
	b.hs	45f
	cmp	x21, x9
	b.eq	47f
42:
	ldp	q1, q0, [x1]
	subs	x10, x10, #1
	ldr	x8, [x1, #32]
	add	x1, x1, #40
	str	x8, [x20, #32]
	stp	q1, q0, [x20]
	add	x20, x20, #40
	b.ne	42b
	b	47f
43:
	mov	x1, x24
	mov	x2, x26
	b	46f
44:
	sub	x8, x20, x23
	cmp	x8, x25
	b.lo	47f
	mov	x2, xzr
	mov	x1, x23
45:
	mov	x0, x20
46:
	vj_c_call	memmove
47:
	stp	x23, x27, [x19]
48:
	ldp	x20, x19, [sp, #80]
	ldp	x22, x21, [sp, #64]
	ldp	x24, x23, [sp, #48]
	ldp	x26, x25, [sp, #32]
	ldp	x28, x27, [sp, #16]
	ldp	x29, x30, [sp], #96
	ret
	vj_end	core..slice..sort..merge..merge..610785a6ec0ddab1_1_a64

	vj_function	core..slice..sort..pivot..median_of_medians..610785a6ec0ddab1_1_a64
	stp	x29, x30, [sp, #-80]!
	stp	x20, x19, [sp, #64]
	mov	x19, x3
	mov	x20, x2
	cmp	x4, #8
	str	x25, [sp, #16]
	mov	x29, sp
	stp	x24, x23, [sp, #32]
	stp	x22, x21, [sp, #48]
	b.hs	1f
	mov	w8, #40
	madd	x9, x1, x8, x0
	madd	x10, x20, x8, x0
	madd	x8, x19, x8, x0
	ldp	x11, x9, [x9, #24]
	ldp	x12, x10, [x10, #24]
	sub	x9, x11, x9
	ldp	x13, x8, [x8, #24]
	sub	x10, x12, x10
	cmp	x9, x10
	sub	x8, x13, x8
	cset	w11, lo
	cmp	x9, x8
	cset	w9, lo
	cmp	x10, x8
	cset	w8, lo
	eor	w9, w11, w9
	eor	w8, w11, w8
	cmp	w8, #0
	csel	x8, x19, x20, ne
	cmp	w9, #0
	csel	x0, x1, x8, ne
	ldp	x20, x19, [sp, #64]
	ldr	x25, [sp, #16]
	ldp	x22, x21, [sp, #48]
	ldp	x24, x23, [sp, #32]
	ldp	x29, x30, [sp], #80
	ret
1:
	lsr	x21, x4, #3
	mov	x22, x0
	lsl	x8, x21, #3
	lsl	x24, x21, #2
	mov	x4, x21
	sub	x25, x8, x21
	add	x2, x24, x1
	add	x3, x25, x1
	bl	core..slice..sort..pivot..median_of_medians..610785a6ec0ddab1_1_a64
	mov	x23, x0
	add	x2, x24, x20
	add	x3, x25, x20
	mov	x0, x22
	mov	x1, x20
	mov	x4, x21
	bl	core..slice..sort..pivot..median_of_medians..610785a6ec0ddab1_1_a64
	mov	x20, x0
	add	x2, x24, x19
	add	x3, x25, x19
	mov	x0, x22
	mov	x1, x19
	mov	x4, x21
	bl	core..slice..sort..pivot..median_of_medians..610785a6ec0ddab1_1_a64
	mov	w8, #40
	madd	x9, x23, x8, x22
	madd	x10, x20, x8, x22
	madd	x8, x0, x8, x22
	ldp	x11, x9, [x9, #24]
	ldp	x12, x10, [x10, #24]
	sub	x9, x11, x9
	ldp	x13, x8, [x8, #24]
	sub	x10, x12, x10
	cmp	x9, x10
	sub	x8, x13, x8
	cset	w11, lo
	cmp	x9, x8
	cset	w9, lo
	cmp	x10, x8
	cset	w8, lo
	eor	w9, w11, w9
	eor	w8, w11, w8
	cmp	w8, #0
	csel	x8, x0, x20, ne
	cmp	w9, #0
	csel	x0, x23, x8, ne
	ldp	x20, x19, [sp, #64]
	ldr	x25, [sp, #16]
	ldp	x22, x21, [sp, #48]
	ldp	x24, x23, [sp, #32]
	ldp	x29, x30, [sp], #80
	ret
	vj_end	core..slice..sort..pivot..median_of_medians..610785a6ec0ddab1_1_a64

	vj_function	core..slice..sort..runs..climb..610785a6ec0ddab1_1_a64
	sub	sp, sp, #288
	stp	x22, x21, [sp, #256]
	mov	w21, w5
	subs	x8, x2, x4
	stp	x20, x19, [sp, #272]
	mov	x19, x4
	stp	x29, x30, [sp, #192]
	add	x29, sp, #192
	stp	x28, x27, [sp, #208]
	stp	x26, x25, [sp, #224]
	stp	x24, x23, [sp, #240]
	str	w6, [sp, #44]
	str	x2, [sp, #48]
	str	xzr, [sp, #88]
	b.ne	1f
	str	x19, [x0]
	strb	w21, [x0, #8]
	stur	wzr, [x0, #9]
	str	wzr, [x0, #12]
	str	x19, [x0, #16]
	strb	w21, [x0, #24]
	stur	xzr, [x0, #25]
	str	xzr, [x0, #32]
	b	28f
1:
	ldr	x9, [x29, #96]
	mov	x25, x1
	cmp	x8, x7
	str	x9, [sp, #32]
	b.hs	2f
	ldr	x20, [sp, #48]
	mov	w8, wzr
	b	18f
2:
	add	x8, x19, x19, lsl #2
	mov	x22, x0
	add	x20, x19, #2
	lsl	x8, x8, #3
	add	x0, x25, x8
	ldp	x9, x10, [x0, #64]
	ldp	x11, x12, [x0, #24]
	sub	x9, x9, x10
	sub	x10, x11, x12
	cmp	x9, x10
	b.hs	4f
	ldr	x11, [sp, #48]
	cmp	x20, x11
	b.hs	8f
	add	x11, x8, x25
	add	x11, x11, #112
3:
	ldp	x12, x13, [x11, #-8]
	ldp	x14, x15, [x11, #-48]
	sub	x12, x12, x13
	sub	x13, x14, x15
	cmp	x12, x13
	b.hs	7f
	ldr	x12, [sp, #48]
	add	x20, x20, #1
	add	x11, x11, #40
	cmp	x12, x20
	b.ne	3b
	b	6f
4:
	ldr	x11, [sp, #48]
	cmp	x20, x11
	b.hs	13f
	add	x11, x8, x25
	add	x11, x11, #112
5:
	ldp	x12, x13, [x11, #-8]
	ldp	x14, x15, [x11, #-48]
	sub	x12, x12, x13
	sub	x13, x14, x15
	cmp	x12, x13
	b.lo	7f
	ldr	x12, [sp, #48]
	add	x20, x20, #1
	add	x11, x11, #40
	cmp	x12, x20
	b.ne	5b
6:
	ldr	x20, [sp, #48]
7:
	sub	x11, x20, x19
	cmp	x11, x7
	b.lo	14f
	cmp	x9, x10
	b.hs	16f
	cmp	x11, #15
	b.ls	15f
	lsr	x2, x11, #1
	mov	w9, #40
	mov	x24, x7
	mov	x23, x3
	sub	x8, x11, x2
	madd	x1, x8, x9, x0
	bl	core..slice..edits..mirror..27.b2sum_commands..ahead..Part_1_a64
	mov	x3, x23
	mov	x7, x24
	b	16f
8:
	cmp	x7, #2
	b.hi	14f
	mov	w11, #2
9:
	mov	w10, #40
	mov	x9, xzr
	madd	x8, x11, x10, x8
	sub	x10, x11, #2
	sub	x11, x11, #1
	lsr	x10, x10, #1
	add	x12, x8, x25
	add	x8, x10, #1
	sub	x10, x12, #40
	b	12f
10:
	ldp	q0, q1, [x10]
	ldr	x12, [x10, #32]
	ldp	q2, q3, [x0]
	ldr	x13, [x0, #32]
	str	x12, [x0, #32]
	stp	q0, q1, [x0]
	str	x13, [x10, #32]
	stp	q2, q3, [x10]
11:
	add	x9, x9, #1
	add	x0, x0, #40
	sub	x10, x10, #40
	cmp	x8, x9
	sub	x11, x11, #1
	b.eq	16f
12:
	cmp	x9, x11
	b.lo	10b
	cmp	x11, x9
	b.hs	11b
	ldp	q0, q1, [x0]
	ldr	x12, [x0, #32]
	ldp	q2, q3, [x10]
	ldr	x13, [x10, #32]
	str	x12, [x10, #32]
	stp	q0, q1, [x10]
	str	x13, [x0, #32]
	stp	q2, q3, [x0]
	b	11b
13:
	cmp	x7, #3
	b.lo	16f
14:
	mov	w8, wzr
	add	x20, x7, x19
	b	17f
15:
	cmp	x11, #2
	b.hs	9b
16:
	mov	w8, #1
17:
	mov	x0, x22
18:
	ldr	x12, [sp, #32]
	add	x10, x19, x3
	add	x11, x20, x19
	add	x22, sp, #56
	str	x19, [sp, #56]
	mul	x10, x12, x10
	strb	w21, [sp, #64]
	stur	wzr, [sp, #65]
	mul	x11, x11, x12
	str	wzr, [sp, #68]
	str	x20, [sp, #72]
	strb	w8, [sp, #80]
	stur	wzr, [sp, #81]
	eor	x10, x11, x10
	ldr	w11, [sp, #44]
	clz	x10, x10
	add	w6, w10, #1
	cmp	w11, w10
	stp	wzr, w6, [sp, #84]
	b.ls	19f
	mov	w9, wzr
	b	27f
19:
	mov	w8, #40
	ldr	x28, [x29, #104]
	mov	x23, x3
	madd	x27, x3, x8, x25
	str	x0, [sp, #24]
	b	22f
20:
	mov	w21, w26
21:
	ldr	w6, [sp, #88]
	ldr	w8, [sp, #44]
	mov	x7, x24
	strb	w21, [sp, #64]
	cmp	w8, w6
	stur	wzr, [x22, #9]
	stur	wzr, [x22, #12]
	b.hs	26f
22:
	ldr	x4, [sp, #72]
	ldrb	w5, [sp, #80]
	add	x0, sp, #56
	ldr	x2, [sp, #48]
	ldr	x8, [sp, #32]
	mov	x1, x25
	mov	x3, x19
	mov	x20, x19
	mov	x24, x7
	stp	x8, x28, [sp]
	bl	core..slice..sort..runs..climb..610785a6ec0ddab1_1_a64
	ldrb	w26, [sp, #64]
	ldr	x19, [sp, #56]
	orr	w8, w26, w21
	tbz	w8, #0, 20b
	tbnz	w21, #0, 23f
	sub	x8, x20, x23
	mov	w9, #126
	sub	x1, x20, x23
	clz	x8, x8
	sub	x2, x20, x23
	mov	x0, x27
	sub	w3, w9, w8, lsl #1
	mov	x4, x28
	bl	core..slice..sort..stable..quicksort..610785a6ec0ddab1_1_a64
23:
	add	x8, x20, x20, lsl #2
	lsl	x21, x8, #3
	tbnz	w26, #0, 24f
	sub	x8, x19, x20
	mov	w9, #126
	add	x0, x25, x21
	clz	x8, x8
	sub	x1, x19, x20
	sub	x2, x19, x20
	sub	w3, w9, w8, lsl #1
	mov	x4, x28
	bl	core..slice..sort..stable..quicksort..610785a6ec0ddab1_1_a64
24:
	add	x8, x25, x21
	ldp	x9, x10, [x8, #24]
	ldp	x11, x8, [x8, #-16]
	sub	x9, x9, x10
	sub	x8, x11, x8
	cmp	x9, x8
	b.hs	25f
	sub	x2, x20, x23
	sub	x1, x19, x23
	mov	x0, x27
	mov	x3, x28
	bl	core..slice..sort..merge..merge..610785a6ec0ddab1_1_a64
25:
	mov	w21, #1
	b	21b
26:
	ldr	x20, [sp, #72]
	ldrb	w8, [sp, #80]
	ldr	w9, [sp, #92]
	ldr	x0, [sp, #24]
27:
	ldur	w10, [x22, #9]
	ldur	w11, [x22, #12]
	strb	w8, [x0, #24]
	ldur	w8, [x22, #28]
	str	x19, [x0]
	stur	w10, [x0, #9]
	ldur	w10, [x22, #25]
	strb	w21, [x0, #8]
	str	w11, [x0, #12]
	str	x20, [x0, #16]
	stur	w10, [x0, #25]
	stp	w8, w6, [x0, #28]
	str	w9, [x0, #36]
28:
	ldp	x20, x19, [sp, #272]
	ldp	x22, x21, [sp, #256]
	ldp	x24, x23, [sp, #240]
	ldp	x26, x25, [sp, #224]
	ldp	x28, x27, [sp, #208]
	ldp	x29, x30, [sp, #192]
	add	sp, sp, #288
	ret
	vj_end	core..slice..sort..runs..climb..610785a6ec0ddab1_1_a64

	vj_cold	std_alloc..vec..Vec..grow_amortized..61dd7b1dc1d96f4a_1_a64
	ldr	x8, [x0, #8]
	cmn	x8, #1
	b.eq	2f
	stp	x29, x30, [sp, #-32]!
	ldr	x9, [x0, #16]
	cmp	x8, #3
	mov	w10, #3
	csel	x11, x8, x10, hi
	stp	x20, x19, [sp, #16]
	mov	x29, sp
	lsl	x10, x9, #1
	add	x12, x11, #1
	lsr	x13, x9, #62
	cmp	x12, x10
	csinc	x10, x10, x11, ls
	cmp	x13, #0
	csinc	x19, x10, x11, eq
	lsr	x11, x19, #59
	cbnz	x11, 4f
	cbz	x9, 3f
	mov	x20, x0
	ldr	x0, [x0]
	lsl	x1, x8, #4
	lsl	x2, x19, #4
	mov	w3, #8
	vj_call	rattle_realloc
	tbz	w0, #0, 4f
1:
	mov	w0, #1
	str	x1, [x20]
	str	x19, [x20, #16]
	ldp	x20, x19, [sp, #16]
	ldp	x29, x30, [sp], #32
	ret
2:
	mov	w0, wzr
	ret
3:
	mov	x20, x0
	lsl	x0, x10, #4
	mov	w1, #8
	vj_call	rattle_alloc
	tbnz	w0, #0, 1b
4:
	mov	w0, wzr
	ldp	x20, x19, [sp, #16]
	ldp	x29, x30, [sp], #32
	ret
	vj_end	std_alloc..vec..Vec..grow_amortized..61dd7b1dc1d96f4a_1_a64

	vj_function	b2sum..lanes..finish..d634354ca11db3c0_1_a64
	sub	sp, sp, #480
	stp	x26, x25, [sp, #416]
	add	x25, x3, x2, lsl #4
	movi	v0.2d, #0000000000000000
	stp	x29, x30, [sp, #384]
	add	x29, sp, #384
	vj_page	x8, .L1_a64_static.1
	vj_address	x8, x8, .L1_a64_static.1
	ldp	x9, x10, [x25]
	stp	x22, x21, [sp, #448]
	mov	x21, x2
	stp	x20, x19, [sp, #464]
	mov	x19, x5
	mov	x20, x4
	add	x9, x0, x9, lsl #4
	str	x28, [sp, #400]
	stp	x24, x23, [sp, #432]
	ldr	x9, [x9, #8]
	stp	q0, q0, [sp]
	stp	q0, q0, [sp, #32]
	subs	x9, x9, x10
	stp	q0, q0, [sp, #64]
	csel	x26, xzr, x9, lo
	stp	q0, q0, [sp, #96]
	stp	q0, q0, [sp, #128]
	stp	q0, q0, [sp, #160]
	stp	q0, q0, [sp, #192]
	stp	q0, q0, [sp, #224]
	stp	x8, xzr, [x29, #-128]
	stp	x8, xzr, [x29, #-112]
	stp	x8, xzr, [x29, #-96]
	stp	x8, xzr, [x29, #-80]
	stp	x8, xzr, [x29, #-64]
	stp	x8, xzr, [x29, #-48]
	stp	x8, xzr, [x29, #-32]
	stp	x8, xzr, [x29, #-16]
	cbz	x1, 3f
	sub	x8, x29, #128
	mov	x24, x3
	mov	x22, x1
	mov	x23, x0
	add	x8, x8, #8
	add	x9, x3, #8
	mov	x10, x1
1:
	ldp	x11, x12, [x9, #-8]
	add	x9, x9, #16
	add	x11, x23, x11, lsl #4
	ldp	x11, x13, [x11]
	sub	x13, x13, x12
	add	x11, x11, x12
	cmp	x13, x26
	csel	x12, x13, x26, lo
	subs	x10, x10, #1
	stp	x11, x12, [x8, #-8]
	add	x8, x8, #16
	b.ne	1b
	ldp	q0, q1, [x29, #-64]
	add	x2, sp, #128
	ldp	q2, q3, [x29, #-32]
	mov	x0, x20
	ldp	q4, q5, [x29, #-128]
	mov	x1, x22
	ldp	q6, q7, [x29, #-96]
	mov	x3, x22
	stp	q0, q1, [sp, #64]
	stp	q4, q5, [sp]
	stp	q6, q7, [sp, #32]
	stp	q2, q3, [sp, #96]
	stp	q4, q5, [sp, #128]
	stp	q6, q7, [sp, #160]
	stp	q0, q1, [sp, #192]
	stp	q2, q3, [sp, #224]
	vj_call	blake2_state..many..blake2b..update_many_1_arm
	add	x8, x24, #8
2:
	ldp	x9, x10, [x8, #-8]
	add	x9, x23, x9, lsl #4
	ldr	x9, [x9, #8]
	subs	x10, x9, x10
	csel	x10, xzr, x10, lo
	subs	x10, x10, x26
	csel	x10, xzr, x10, lo
	subs	x22, x22, #1
	sub	x9, x9, x10
	str	x9, [x8], #16
	b.ne	2b
	b	4f
3:
	ldp	q0, q1, [x29, #-64]
	add	x2, sp, #128
	ldp	q2, q3, [x29, #-32]
	mov	x0, x20
	ldp	q4, q5, [x29, #-128]
	mov	x3, xzr
	ldp	q6, q7, [x29, #-96]
	stp	q0, q1, [sp, #64]
	stp	q2, q3, [sp, #96]
	stp	q4, q5, [sp]
	stp	q6, q7, [sp, #32]
	stp	q4, q5, [sp, #128]
	stp	q6, q7, [sp, #160]
	stp	q0, q1, [sp, #192]
	stp	q2, q3, [sp, #224]
	vj_call	blake2_state..many..blake2b..update_many_1_arm
4:
	mov	w8, #344
	madd	x0, x21, x8, x20
	ldr	x8, [x25]
	add	x1, x19, x8, lsl #6
	bl	blake2_state..blake2b..State..write_digest_1_a64
	ldp	x20, x19, [sp, #464]
	ldr	x28, [sp, #400]
	ldp	x22, x21, [sp, #448]
	ldp	x24, x23, [sp, #432]
	ldp	x26, x25, [sp, #416]
	ldp	x29, x30, [sp, #384]
	add	sp, sp, #480
	ret
	vj_end	b2sum..lanes..finish..d634354ca11db3c0_1_a64

	vj_function	b2sum..lanes..finish..86239a0cbe7e8a42_1_a64
	sub	sp, sp, #480
	stp	x26, x25, [sp, #416]
	add	x25, x3, x2, lsl #4
	movi	v0.2d, #0000000000000000
	stp	x29, x30, [sp, #384]
	add	x29, sp, #384
	vj_page	x8, .L1_a64_static.1
	vj_address	x8, x8, .L1_a64_static.1
	ldp	x9, x10, [x25]
	stp	x22, x21, [sp, #448]
	mov	x21, x2
	stp	x20, x19, [sp, #464]
	mov	x19, x5
	mov	x20, x4
	add	x9, x0, x9, lsl #4
	str	x28, [sp, #400]
	stp	x24, x23, [sp, #432]
	ldr	x9, [x9, #8]
	stp	q0, q0, [sp]
	stp	q0, q0, [sp, #32]
	subs	x9, x9, x10
	stp	q0, q0, [sp, #64]
	csel	x26, xzr, x9, lo
	stp	q0, q0, [sp, #96]
	stp	q0, q0, [sp, #128]
	stp	q0, q0, [sp, #160]
	stp	q0, q0, [sp, #192]
	stp	q0, q0, [sp, #224]
	stp	x8, xzr, [x29, #-128]
	stp	x8, xzr, [x29, #-112]
	stp	x8, xzr, [x29, #-96]
	stp	x8, xzr, [x29, #-80]
	stp	x8, xzr, [x29, #-64]
	stp	x8, xzr, [x29, #-48]
	stp	x8, xzr, [x29, #-32]
	stp	x8, xzr, [x29, #-16]
	cbz	x1, 3f
	sub	x8, x29, #128
	mov	x24, x3
	mov	x22, x1
	mov	x23, x0
	add	x8, x8, #8
	add	x9, x3, #8
	mov	x10, x1
1:
	ldp	x11, x12, [x9, #-8]
	add	x9, x9, #16
	add	x11, x23, x11, lsl #4
	ldp	x11, x13, [x11]
	sub	x13, x13, x12
	add	x11, x11, x12
	cmp	x13, x26
	csel	x12, x13, x26, lo
	subs	x10, x10, #1
	stp	x11, x12, [x8, #-8]
	add	x8, x8, #16
	b.ne	1b
	ldp	q0, q1, [x29, #-64]
	add	x2, sp, #128
	ldp	q2, q3, [x29, #-32]
	mov	x0, x20
	ldp	q4, q5, [x29, #-128]
	mov	x1, x22
	ldp	q6, q7, [x29, #-96]
	mov	x3, x22
	stp	q0, q1, [sp, #64]
	stp	q4, q5, [sp]
	stp	q6, q7, [sp, #32]
	stp	q2, q3, [sp, #96]
	stp	q4, q5, [sp, #128]
	stp	q6, q7, [sp, #160]
	stp	q0, q1, [sp, #192]
	stp	q2, q3, [sp, #224]
	vj_call	blake2_state..many..blake2s..update_many_1_arm
	add	x8, x24, #8
2:
	ldp	x9, x10, [x8, #-8]
	add	x9, x23, x9, lsl #4
	ldr	x9, [x9, #8]
	subs	x10, x9, x10
	csel	x10, xzr, x10, lo
	subs	x10, x10, x26
	csel	x10, xzr, x10, lo
	subs	x22, x22, #1
	sub	x9, x9, x10
	str	x9, [x8], #16
	b.ne	2b
	b	4f
3:
	ldp	q0, q1, [x29, #-64]
	add	x2, sp, #128
	ldp	q2, q3, [x29, #-32]
	mov	x0, x20
	ldp	q4, q5, [x29, #-128]
	mov	x3, xzr
	ldp	q6, q7, [x29, #-96]
	stp	q0, q1, [sp, #64]
	stp	q2, q3, [sp, #96]
	stp	q4, q5, [sp]
	stp	q6, q7, [sp, #32]
	stp	q4, q5, [sp, #128]
	stp	q6, q7, [sp, #160]
	stp	q0, q1, [sp, #192]
	stp	q2, q3, [sp, #224]
	vj_call	blake2_state..many..blake2s..update_many_1_arm
4:
	mov	w8, #176
	madd	x0, x21, x8, x20
	ldr	x8, [x25]
	add	x1, x19, x8, lsl #6
	bl	b2sum..states..blake2s..StateHashState..write_digest_1_a64
	ldp	x20, x19, [sp, #464]
	ldr	x28, [sp, #400]
	ldp	x22, x21, [sp, #448]
	ldp	x24, x23, [sp, #432]
	ldp	x26, x25, [sp, #416]
	ldp	x29, x30, [sp, #384]
	add	sp, sp, #480
	ret
	vj_end	b2sum..lanes..finish..86239a0cbe7e8a42_1_a64

	vj_cold	std_alloc..vec..Vec..grow_amortized..bf97339f63b56ecc_1_a64
	ldr	x8, [x0, #8]
	cmn	x8, #1
	b.eq	2f
	stp	x29, x30, [sp, #-32]!
	ldr	x9, [x0, #16]
	cmp	x8, #3
	mov	w10, #3
	csel	x11, x8, x10, hi
	stp	x20, x19, [sp, #16]
	mov	x29, sp
	lsl	x10, x9, #1
	add	x12, x11, #1
	lsr	x13, x9, #62
	cmp	x12, x10
	csinc	x10, x10, x11, ls
	cmp	x13, #0
	csinc	x19, x10, x11, eq
	mov	x11, #-20165
	movk	x11, #64275, lsl #16
	eor	x11, x11, x11, lsl #30
	cmp	x19, x11
	b.hi	4f
	cbz	x9, 3f
	mov	w9, #104
	mov	x20, x0
	ldr	x0, [x0]
	mul	x1, x8, x9
	mov	w3, #8
	mul	x2, x19, x9
	vj_call	rattle_realloc
	tbz	w0, #0, 4f
1:
	mov	w0, #1
	str	x1, [x20]
	str	x19, [x20, #16]
	ldp	x20, x19, [sp, #16]
	ldp	x29, x30, [sp], #32
	ret
2:
	mov	w0, wzr
	ret
3:
	mov	w8, #104
	mov	x20, x0
	mov	w1, #8
	mul	x0, x10, x8
	vj_call	rattle_alloc
	tbnz	w0, #0, 1b
4:
	mov	w0, wzr
	ldp	x20, x19, [sp, #16]
	ldp	x29, x30, [sp], #32
	ret
	vj_end	std_alloc..vec..Vec..grow_amortized..bf97339f63b56ecc_1_a64

	vj_constants	8
	.p2align	3, 0x0
.L1_a64_CPI90_0:
	.byte	58
	.byte	32
	.byte	110
	.byte	101
	.zero	1
	.zero	1
	.zero	1
	.zero	1
.L1_a64_CPI90_2:
	.byte	109
	.byte	97
	.byte	116
	.byte	116
	.zero	1
	.zero	1
	.zero	1
	.zero	1
	vj_constants	16
	.p2align	4, 0x0
.L1_a64_CPI90_1:
	.byte	58
	.byte	32
	.byte	105
	.byte	109
	.byte	112
	.byte	114
	.byte	111
	.byte	112
	.byte	101
	.byte	114
	.byte	108
	.byte	121
	.byte	32
	.byte	102
	.byte	111
	.byte	114
	vj_function	b2sum_commands..check..check_line..82a450bcca081e63_1_a64
	stp	x29, x30, [sp, #-96]!
	stp	x28, x27, [sp, #16]
	mov	x29, sp
	stp	x26, x25, [sp, #32]
	stp	x24, x23, [sp, #48]
	stp	x22, x21, [sp, #64]
	stp	x20, x19, [sp, #80]
	sub	sp, sp, #480
	movi	v0.2d, #0000000000000000
	mov	x24, x2
	ldrb	w2, [x3, #368]
	mov	x22, x4
	mov	x20, x3
	mov	x21, x1
	mov	x19, x0
	add	x0, sp, #144
	mov	x1, x24
	mov	w3, w5
	mov	x4, x6
	mov	x5, x7
	mov	x26, x7
	mov	x25, x6
	stur	xzr, [x29, #-160]
	stp	q0, q0, [x29, #-192]
	add	x23, sp, #144
	stp	q0, q0, [sp, #144]
	stp	q0, q0, [sp, #176]
	stp	q0, q0, [sp, #224]
	stp	q0, q0, [sp, #256]
	str	q0, [sp, #208]
	stp	q0, q0, [sp, #80]
	str	q0, [sp, #112]
	str	xzr, [sp, #128]
	stp	q0, q0, [sp, #32]
	str	xzr, [sp, #64]
	bl	b2sum_commands..check..read_item_1_a64
	ldrb	w8, [sp, #144]
	cbz	w8, 2f
	movi	v0.2d, #0000000000000000
	ldrb	w8, [sp, #145]
	mov	w9, #1
	strb	w9, [x19]
	strb	w8, [x19, #1]
1:
	stur	q0, [x19, #8]
	stur	q0, [x19, #24]
	stur	q0, [x19, #40]
	b	14f
2:
	ldrb	w8, [sp, #152]
	cmp	w8, #1
	b.ne	3f
	ldrb	w8, [sp, #216]
	sub	w9, w8, #1
	cmp	w9, #2
	b.hs	5f
	mov	w9, #1
	b	11f
3:
	ldr	x9, [x20, #376]
	adds	x9, x9, #1
	csinv	x27, x9, xzr, lo
	str	x27, [x20, #376]
	cbz	w8, 6f
	cmp	w8, #2
	b.ne	7f
	ldp	q0, q1, [x23, #16]
	ldrb	w8, [x24, #208]
	ldur	x9, [x23, #48]
	cmp	w8, #1
	stp	q0, q1, [x29, #-192]
	stur	x9, [x29, #-160]
	b.eq	15f
4:
	mov	w8, #5
	ldp	q0, q1, [x29, #-192]
	str	x8, [sp, #88]
	ldur	x8, [x29, #-160]
	b	9f
5:
	cbnz	w8, 10f
	ldrb	w9, [x20, #368]
	b	11f
6:
	movi	v0.2d, #0000000000000000
	mov	w8, #6
	strb	wzr, [sp, #80]
	str	x8, [sp, #88]
	str	xzr, [sp, #128]
	stp	q0, q0, [sp, #96]
	b	13f
7:
	ldrb	w8, [x24, #208]
	cmp	w8, #1
	b.eq	20f
8:
	mov	w8, #4
	ldp	q0, q1, [sp, #32]
	str	x8, [sp, #88]
	ldr	x8, [sp, #64]
9:
	strb	wzr, [sp, #80]
	stp	q0, q1, [sp, #96]
	str	x8, [sp, #128]
	b	13f
10:
	mov	w9, #2
11:
	ldr	x10, [x20, #376]
	strb	w9, [x20, #368]
	add	x0, sp, #80
	ldp	q0, q1, [x23, #16]
	add	x5, sp, #224
	adds	x9, x10, #1
	strb	w8, [sp, #280]
	ldur	w8, [x23, #76]
	csinv	x9, x9, xzr, lo
	add	x10, sp, #26
	mov	x1, x21
	str	x9, [x20, #376]
	ldur	x9, [x23, #64]
	mov	x2, x24
	stp	q0, q1, [sp, #224]
	ldur	q0, [x23, #48]
	mov	x3, x20
	str	x9, [sp, #272]
	ldur	w9, [x23, #73]
	mov	x4, x22
	str	q0, [sp, #256]
	stur	w9, [x10, #255]
	str	w8, [sp, #284]
	bl	b2sum_commands..check..check_entry..82a450bcca081e63_1_a64
	ldr	x8, [sp, #248]
	cbz	x8, 12f
	ldr	x0, [sp, #232]
	vj_call	rattle_dealloc
12:
	ldr	x8, [sp, #272]
	cbz	x8, 13f
	ldr	x0, [sp, #256]
	vj_call	rattle_dealloc
13:
	ldrh	w8, [sp, #80]
	ldp	q0, q1, [sp, #96]
	ldrb	w9, [sp, #88]
	strh	w8, [x19]
	ldr	x8, [sp, #128]
	str	x9, [x19, #8]
	stp	q0, q1, [x19, #16]
	str	x8, [x19, #48]
14:
	add	sp, sp, #480
	ldp	x20, x19, [sp, #80]
	ldp	x22, x21, [sp, #64]
	ldp	x24, x23, [sp, #48]
	ldp	x26, x25, [sp, #32]
	ldp	x28, x27, [sp, #16]
	ldp	x29, x30, [sp], #96
	ret
15:
	ldp	q0, q1, [x23, #16]
	sub	x0, x29, #120
	ldur	x8, [x23, #48]
	ldp	x23, x24, [x20, #344]
	mov	w1, #2
	stp	xzr, xzr, [x29, #-136]
	stur	x8, [x29, #-64]
	sub	x8, x29, #9
	stp	q0, q1, [x29, #-96]
	stur	xzr, [x29, #-144]
	stp	xzr, xzr, [x29, #-112]
	stur	x8, [x29, #-120]
	bl	std_alloc..vec..Vec..grow_amortized..01eec35b572d02af_1_a64
	cbz	w0, 79f
	ldp	x22, x8, [x29, #-120]
	vj_page	x10, .L1_a64_static.123
	vj_address	x10, x10, .L1_a64_static.123
	ldur	x26, [x29, #-104]
	mov	w25, #19
	stp	xzr, xzr, [x29, #-48]
	add	x9, x22, x8
	add	x8, x8, #2
	stur	wzr, [x29, #-32]
	sub	x10, x9, x10
	stur	x8, [x29, #-112]
	cmp	x10, #1
	mov	w10, #8250
	cmp	x27, #10
	strh	w10, [x9]
	b.lo	17f
	mov	x9, x27
16:
	mov	x10, #-3689348814741910324
	sub	x11, x29, #48
	cmp	x9, #99
	movk	x10, #52429
	umulh	x10, x9, x10
	lsr	x27, x10, #3
	mov	w10, #10
	msub	w10, w27, w10, w9
	orr	w9, w10, #0x30
	strb	w9, [x11, x25]
	sub	x25, x25, #1
	mov	x9, x27
	b.hi	16b
17:
	mov	w9, #20
	sub	x28, x29, #48
	sub	x2, x9, x25
	sub	x9, x26, x8
	cmp	x2, x9
	orr	w9, w27, #0x30
	strb	w9, [x28, x25]
	b.hi	50f
18:
	add	x0, x22, x8
	add	x1, x28, x25
	add	x27, x8, x2
	vj_c_call	memcpy
	sub	x8, x26, x27
	stp	x27, x26, [x29, #-112]
	cmp	x8, #6
	b.ls	51f
	add	x8, x22, x27
	vj_page	x9, .L1_a64_static.220
	vj_address	x9, x9, .L1_a64_static.220
	sub	x9, x8, x9
	cmp	x9, #6
	b.hi	52f
19:
	vj_page	x9, .L1_a64_CPI90_0
	mov	w10, #25701
	vj_load	d0, x9, .L1_a64_CPI90_0
	mov	w9, #115
	strh	w10, [x8, #4]
	strb	w9, [x8, #6]
	str	s0, [x8]
	b	53f
20:
	ldp	x22, x23, [x20, #344]
	cmp	x26, #5
	b.hs	26f
21:
	movi	v0.2d, #0000000000000000
	sub	x8, x29, #9
	ldrb	w25, [x24]
	ldr	w24, [x24, #4]
	sub	x0, x29, #120
	mov	w1, #2
	stp	xzr, xzr, [x29, #-112]
	stur	x8, [x29, #-120]
	stp	q0, q0, [x29, #-48]
	bl	std_alloc..vec..Vec..grow_amortized..01eec35b572d02af_1_a64
	cbz	w0, 79f
	ldp	x26, x8, [x29, #-120]
	vj_page	x10, .L1_a64_static.123
	vj_address	x10, x10, .L1_a64_static.123
	ldur	x28, [x29, #-104]
	stp	x23, x22, [sp, #16]
	mov	w23, #19
	stp	xzr, xzr, [x29, #-96]
	add	x9, x26, x8
	add	x8, x8, #2
	stur	wzr, [x29, #-80]
	sub	x10, x9, x10
	stur	x8, [x29, #-112]
	cmp	x10, #1
	mov	w10, #8250
	cmp	x27, #10
	strh	w10, [x9]
	b.lo	23f
	mov	x9, x27
22:
	mov	x10, #-3689348814741910324
	sub	x11, x29, #96
	cmp	x9, #99
	movk	x10, #52429
	umulh	x10, x9, x10
	lsr	x27, x10, #3
	mov	w10, #10
	msub	w10, w27, w10, w9
	orr	w9, w10, #0x30
	strb	w9, [x11, x23]
	sub	x23, x23, #1
	mov	x9, x27
	b.hi	22b
23:
	mov	w9, #20
	sub	x22, x29, #96
	sub	x2, x9, x23
	sub	x9, x28, x8
	cmp	x2, x9
	orr	w9, w27, #0x30
	strb	w9, [x22, x23]
	b.hi	61f
24:
	add	x0, x26, x8
	add	x1, x22, x23
	add	x27, x8, x2
	vj_c_call	memcpy
	sub	x8, x28, x27
	stp	x27, x28, [x29, #-112]
	cmp	x8, #22
	b.ls	62f
25:
	add	x8, x26, x27
	vj_page	x9, .L1_a64_static.218
	vj_address	x9, x9, .L1_a64_static.218
	sub	x10, x8, x9
	ldr	x23, [sp, #16]
	sub	x11, x29, #120
	cmp	x10, #22
	add	x27, x27, #23
	stp	xzr, xzr, [x11, #8]
	b.hi	37f
	vj_page	x9, .L1_a64_CPI90_1
	vj_page	x10, .L1_a64_CPI90_2
	mov	w11, #25701
	vj_load	q0, x9, .L1_a64_CPI90_1
	vj_load	d1, x10, .L1_a64_CPI90_2
	mov	w9, #32
	strh	w11, [x8, #20]
	str	q0, [x8]
	str	s1, [x8, #16]
	strb	w9, [x8, #22]
	b	38f
26:
	ldrb	w8, [x25, #3]
	ldrb	w11, [x25]
	ldrb	w10, [x25, #1]
	ldrb	w12, [x25, #2]
	ldrb	w9, [x25, #4]
	cmp	w8, #32
	b.ne	27f
	cmp	w11, #77
	b.ne	27f
	cmp	w10, #68
	b.ne	27f
	cmp	w12, #53
	b.ne	27f
	cmp	w9, #40
	b.eq	32f
27:
	cmp	x26, #5
	b.ne	31f
28:
	cmp	w11, #83
	b.ne	29f
	cmp	w12, #65
	b.ne	29f
	cmp	w8, #51
	b.ne	29f
	cmp	w10, #72
	b.ne	29f
	cmp	w9, #45
	b.eq	32f
29:
	cmp	w11, #83
	b.ne	30f
	cmp	w8, #32
	b.ne	30f
	cmp	w10, #77
	b.ne	30f
	cmp	w12, #51
	b.ne	30f
	cmp	w9, #40
	b.eq	32f
30:
	cmp	x26, #8
	b.lo	21b
	cmp	w12, #65
	b.ne	21b
	cmp	w11, #66
	b.ne	21b
	cmp	w10, #76
	b.ne	21b
	cmp	w8, #75
	b.ne	21b
	cmp	w9, #69
	b.ne	21b
	ldrb	w8, [x25, #5]
	cmp	w8, #51
	b.ne	21b
	ldrb	w8, [x25, #6]
	cmp	w8, #32
	b.ne	21b
	ldrb	w8, [x25, #7]
	cmp	w8, #40
	b.eq	32f
	b	21b
31:
	cmp	w11, #83
	mov	w14, #72
	ldrb	w13, [x25, #5]
	ccmp	w10, w14, #0, eq
	cset	w14, eq
	b.ne	48f
	cmp	w12, #65
	b.ne	48f
	cmp	w8, #49
	b.ne	48f
	cmp	w9, #32
	b.ne	48f
	cmp	w13, #40
	b.ne	48f
32:
	sub	x8, x29, #9
	sub	x0, x29, #48
	mov	w1, #2
	stp	xzr, xzr, [x29, #-40]
	stur	x8, [x29, #-48]
	bl	std_alloc..vec..Vec..grow_amortized..01eec35b572d02af_1_a64
	cbz	w0, 64f
	ldp	x24, x9, [x29, #-48]
	vj_page	x10, .L1_a64_static.123
	vj_address	x10, x10, .L1_a64_static.123
	ldur	x11, [x29, #-32]
	str	x22, [sp, #24]
	mov	x26, x23
	mov	w22, #19
	stp	xzr, xzr, [x29, #-96]
	add	x8, x24, x9
	add	x28, x9, #2
	mov	w9, #8250
	sub	x10, x8, x10
	strh	w9, [x8]
	cmp	x10, #1
	stur	x28, [x29, #-40]
	cmp	x27, #10
	stur	wzr, [x29, #-80]
	b.lo	34f
	mov	x8, x27
33:
	mov	x9, #-3689348814741910324
	sub	x10, x29, #96
	cmp	x8, #99
	movk	x9, #52429
	umulh	x9, x8, x9
	lsr	x27, x9, #3
	mov	w9, #10
	msub	w9, w27, w9, w8
	orr	w8, w9, #0x30
	strb	w8, [x10, x22]
	sub	x22, x22, #1
	mov	x8, x27
	b.hi	33b
34:
	mov	w8, #20
	sub	x23, x29, #96
	sub	x25, x8, x22
	sub	x8, x11, x28
	cmp	x25, x8
	orr	w8, w27, #0x30
	strb	w8, [x23, x22]
	b.hi	63f
	mov	x27, x11
35:
	add	x0, x24, x28
	add	x1, x23, x22
	mov	x2, x25
	vj_c_call	memcpy
	movi	v0.2d, #0000000000000000
	ldr	x1, [sp, #24]
	cmp	x26, #1
	stp	q0, q0, [x29, #-96]
	b.ne	36f
	ldrb	w8, [x1]
	cmp	w8, #45
	b.ne	36f
	vj_page	x1, .L1_a64_static.217
	vj_address	x1, x1, .L1_a64_static.217
	mov	w26, #14
36:
	sub	x0, x29, #96
	mov	x2, x26
	bl	b2sum_commands..quoting..quoted_name_1_a64
	ldurb	w8, [x29, #-96]
	cbz	w8, 44f
	cbnz	x27, 75f
	b	81f
37:
	ldr	q0, [x9]
	ldur	x9, [x9, #15]
	str	q0, [x8]
	stur	x9, [x8, #15]
38:
	sub	x0, x29, #48
	mov	w1, w25
	mov	w2, w24
	stp	x27, x28, [x29, #-112]
	bl	b2sum_lines..entry..Algorithm..tag_1_a64
	ldurb	w8, [x29, #-48]
	cbz	w8, 39f
	cbz	x28, 81f
	mov	x0, x26
	b	80f
39:
	ldp	x26, x25, [x29, #-40]
	sub	x8, x28, x27
	ldur	x22, [x29, #-24]
	cmp	x25, x8
	b.hi	70f
	ldur	x24, [x29, #-120]
	add	x8, x24, x27
	sub	x8, x8, x26
	cmp	x8, x25
	b.hs	71f
40:
	cmp	x25, #8
	b.lo	41f
	add	x8, x27, x24
	sub	x8, x8, x26
	cmp	x8, #32
	b.hs	65f
41:
	mov	x8, xzr
42:
	add	x10, x8, x27
	sub	x9, x25, x8
	add	x8, x26, x8
	add	x10, x24, x10
43:
	ldrb	w11, [x8], #1
	subs	x9, x9, #1
	strb	w11, [x10], #1
	b.ne	43b
	b	72f
44:
	ldp	x22, x4, [x29, #-88]
	vj_page	x7, .L1_a64_static.216
	vj_address	x7, x7, .L1_a64_static.216
	ldp	x0, x1, [x21]
	ldur	x23, [x29, #-72]
	mov	w8, #36
	add	x2, x20, #224
	add	x6, x28, x25
	mov	x3, x22
	mov	x5, x24
	str	x8, [sp]
	bl	b2sum_commands..messages..warn..068f3e307c5390f2_1_a64
	and	w20, w0, #0xff
	cbz	x23, 45f
	mov	x0, x22
	vj_call	rattle_dealloc
45:
	cbz	x27, 47f
46:
	mov	x0, x24
	vj_call	rattle_dealloc
47:
	tbz	w20, #0, 8b
	b	81f
48:
	cmp	x26, #8
	b.lo	28b
	cmp	w12, #65
	ldrb	w16, [x25, #6]
	ldrb	w15, [x25, #7]
	csel	w14, wzr, w14, ne
	cmp	w8, #50
	csel	w17, wzr, w14, ne
	cmp	w17, #1
	b.ne	49f
	cmp	w9, #50
	b.ne	49f
	cmp	w13, #52
	b.ne	49f
	cmp	w16, #32
	b.ne	49f
	cmp	w15, #40
	b.eq	32b
49:
	cmp	w9, #53
	mov	w0, #54
	mov	w1, #40
	ccmp	w13, w0, #0, eq
	mov	w0, #32
	ccmp	w16, w0, #0, eq
	ccmp	w15, w1, #0, eq
	csel	w17, wzr, w17, ne
	tbnz	w17, #0, 32b
	cmp	w8, #51
	mov	w17, #56
	ccmp	w9, w17, #0, eq
	mov	w17, #52
	ccmp	w13, w17, #0, eq
	ccmp	w16, w0, #0, eq
	ccmp	w15, w1, #0, eq
	csel	w17, wzr, w14, ne
	tbnz	w17, #0, 32b
	cmp	w9, #49
	mov	w17, #50
	ccmp	w13, w17, #0, eq
	mov	w13, #53
	ccmp	w8, w13, #0, eq
	mov	w13, #32
	ccmp	w16, w13, #0, eq
	mov	w13, #40
	ccmp	w15, w13, #0, eq
	csel	w13, wzr, w14, ne
	tbz	w13, #0, 28b
	b	32b
50:
	sub	x0, x29, #120
	mov	x1, x2
	mov	x27, x2
	bl	std_alloc..vec..Vec..grow_amortized..01eec35b572d02af_1_a64
	cbz	w0, 79f
	ldp	x8, x26, [x29, #-112]
	mov	x2, x27
	ldur	x22, [x29, #-120]
	b	18b
51:
	sub	x0, x29, #120
	mov	w1, #7
	bl	std_alloc..vec..Vec..grow_amortized..01eec35b572d02af_1_a64
	cbz	w0, 79f
	ldp	x27, x26, [x29, #-112]
	ldur	x22, [x29, #-120]
	add	x8, x22, x27
	vj_page	x9, .L1_a64_static.220
	vj_address	x9, x9, .L1_a64_static.220
	sub	x9, x8, x9
	cmp	x9, #6
	b.ls	19b
52:
	mov	w9, #25957
	mov	w10, #8250
	movk	w9, #29540, lsl #16
	movk	w10, #25966, lsl #16
	stur	w9, [x8, #3]
	str	w10, [x8]
53:
	sub	x8, x29, #9
	sub	x0, x29, #96
	sub	x1, x29, #144
	stp	xzr, xzr, [x29, #-136]
	stur	x8, [x29, #-144]
	bl	b2sum_commands..line_needs..Lacks..push_options_1_a64
	and	w8, w0, #0xff
	tbz	w8, #0, 55f
	ldur	x8, [x29, #-128]
	cbz	x8, 54f
	ldur	x0, [x29, #-144]
	vj_call	rattle_dealloc
54:
	cbz	x26, 81f
	mov	x0, x22
	b	80f
55:
	movi	v0.2d, #0000000000000000
	ldp	x25, x28, [x29, #-144]
	cmp	x24, #1
	stp	q0, q0, [x29, #-48]
	b.ne	56f
	ldrb	w8, [x23]
	cmp	w8, #45
	b.ne	56f
	vj_page	x23, .L1_a64_static.217
	vj_address	x23, x23, .L1_a64_static.217
	mov	w24, #14
56:
	sub	x0, x29, #48
	mov	x1, x23
	mov	x2, x24
	bl	b2sum_commands..quoting..quoted_name_1_a64
	ldurb	w8, [x29, #-48]
	cbz	w8, 57f
	mov	w20, #1
	b	58f
57:
	ldp	x23, x4, [x29, #-40]
	add	x2, x20, #224
	ldp	x0, x1, [x21]
	add	x6, x27, #7
	ldur	x24, [x29, #-24]
	mov	x5, x22
	mov	x7, x25
	mov	x3, x23
	str	x28, [sp]
	bl	b2sum_commands..messages..warn..068f3e307c5390f2_1_a64
	and	w20, w0, #0xff
	cbz	x24, 58f
	mov	x0, x23
	vj_call	rattle_dealloc
58:
	ldur	x8, [x29, #-128]
	cbz	x8, 59f
	mov	x0, x25
	vj_call	rattle_dealloc
59:
	cbz	x26, 60f
	mov	x0, x22
	vj_call	rattle_dealloc
60:
	tbz	w20, #0, 4b
	b	81f
61:
	sub	x0, x29, #120
	mov	x1, x2
	mov	x27, x2
	bl	std_alloc..vec..Vec..grow_amortized..01eec35b572d02af_1_a64
	cbz	w0, 79f
	ldp	x8, x28, [x29, #-112]
	mov	x2, x27
	ldur	x26, [x29, #-120]
	b	24b
62:
	sub	x0, x29, #120
	mov	w1, #23
	bl	std_alloc..vec..Vec..grow_amortized..01eec35b572d02af_1_a64
	cbz	w0, 79f
	ldp	x27, x28, [x29, #-112]
	ldur	x26, [x29, #-120]
	b	25b
63:
	sub	x0, x29, #48
	mov	x1, x25
	bl	std_alloc..vec..Vec..grow_amortized..01eec35b572d02af_1_a64
	cbz	w0, 64f
	ldp	x28, x27, [x29, #-40]
	ldur	x24, [x29, #-48]
	b	35b
64:
	ldur	x8, [x29, #-32]
	cbz	x8, 81f
	ldur	x0, [x29, #-48]
	b	80f
65:
	cmp	x25, #32
	b.hs	66f
	mov	x8, xzr
	b	68f
66:
	add	x11, x27, x24
	and	x9, x25, #0x18
	and	x8, x25, #0xffffffffffffffe0
	add	x10, x26, #16
	add	x11, x11, #16
	and	x12, x25, #0xffffffffffffffe0
67:
	ldp	q0, q1, [x10, #-16]
	subs	x12, x12, #32
	add	x10, x10, #32
	stp	q0, q1, [x11, #-16]
	add	x11, x11, #32
	b.ne	67b
	ldr	x23, [sp, #16]
	cmp	x25, x8
	b.eq	72f
	cbz	x9, 42b
68:
	mov	x10, x8
	and	x8, x25, #0xfffffffffffffff8
	add	x11, x27, x10
	sub	x9, x10, x8
	add	x10, x26, x10
	add	x11, x24, x11
69:
	ldr	d0, [x10], #8
	adds	x9, x9, #8
	str	d0, [x11], #8
	b.ne	69b
	ldr	x23, [sp, #16]
	cmp	x25, x8
	b.eq	72f
	b	42b
70:
	sub	x0, x29, #120
	mov	x1, x25
	bl	std_alloc..vec..Vec..grow_amortized..01eec35b572d02af_1_a64
	cbz	w0, 78f
	ldp	x27, x28, [x29, #-112]
	ldr	x23, [sp, #16]
	ldur	x24, [x29, #-120]
	add	x8, x24, x27
	sub	x8, x8, x26
	cmp	x8, x25
	b.lo	40b
71:
	add	x0, x24, x27
	mov	x1, x26
	mov	x2, x25
	vj_c_call	memmove
72:
	cbz	x22, 73f
	mov	x0, x26
	vj_call	rattle_dealloc
73:
	movi	v0.2d, #0000000000000000
	ldr	x1, [sp, #24]
	cmp	x23, #1
	stp	q0, q0, [x29, #-96]
	b.ne	74f
	ldrb	w8, [x1]
	cmp	w8, #45
	b.ne	74f
	vj_page	x1, .L1_a64_static.217
	vj_address	x1, x1, .L1_a64_static.217
	mov	w23, #14
74:
	sub	x0, x29, #96
	mov	x2, x23
	bl	b2sum_commands..quoting..quoted_name_1_a64
	ldurb	w8, [x29, #-96]
	cbz	w8, 76f
	cbz	x28, 81f
75:
	mov	x0, x24
	b	80f
76:
	ldp	x22, x4, [x29, #-88]
	vj_page	x7, .L1_a64_static.219
	vj_address	x7, x7, .L1_a64_static.219
	ldp	x0, x1, [x21]
	ldur	x23, [x29, #-72]
	mov	w8, #14
	add	x2, x20, #224
	add	x6, x27, x25
	mov	x3, x22
	mov	x5, x24
	str	x8, [sp]
	bl	b2sum_commands..messages..warn..068f3e307c5390f2_1_a64
	and	w20, w0, #0xff
	cbz	x23, 77f
	mov	x0, x22
	vj_call	rattle_dealloc
77:
	cbnz	x28, 46b
	b	47b
78:
	cbz	x22, 79f
	mov	x0, x26
	vj_call	rattle_dealloc
79:
	ldur	x8, [x29, #-104]
	cbz	x8, 81f
	ldur	x0, [x29, #-120]
80:
	vj_call	rattle_dealloc
81:
	movi	v0.2d, #0000000000000000
	mov	w8, #1
	strh	w8, [x19]
	b	1b
	vj_end	b2sum_commands..check..check_line..82a450bcca081e63_1_a64

	vj_constants	16
	.p2align	4, 0x0
.L1_a64_CPI91_0:
	.byte	32
	.byte	45
	.byte	45
	.byte	97
	.byte	108
	.byte	103
	.byte	111
	.byte	114
	.byte	105
	.byte	116
	.byte	104
	.byte	109
	.byte	32
	.byte	98
	.byte	108
	.byte	97
	vj_constants	8
	.p2align	3, 0x0
.L1_a64_CPI91_1:
	.byte	107
	.byte	101
	.byte	50
	.byte	115
	.zero	1
	.zero	1
	.zero	1
	.zero	1
.L1_a64_CPI91_2:
	.byte	107
	.byte	101
	.byte	50
	.byte	98
	.zero	1
	.zero	1
	.zero	1
	.zero	1
.L1_a64_CPI91_3:
	.byte	32
	.byte	45
	.byte	45
	.byte	108
	.byte	101
	.byte	110
	.byte	103
	.byte	116
	vj_function	b2sum_commands..line_needs..Lacks..push_options_1_a64
	sub	sp, sp, #112
	stp	x26, x25, [sp, #48]
	ldr	x26, [x0]
	ldrb	w25, [x0, #12]
	stp	x20, x19, [sp, #96]
	mov	x19, x1
	vj_page	x1, .L1_a64_static.198
	vj_address	x1, x1, .L1_a64_static.198
	lsr	w8, w26, #16
	stp	x24, x23, [sp, #64]
	stp	x22, x21, [sp, #80]
	ldrb	w23, [x0, #8]
	ldr	w24, [x0, #16]
	ldrb	w22, [x0, #24]
	ldr	x21, [x0, #32]
	add	x3, sp, #4
	mov	x0, x19
	mov	w2, #1
	stp	x29, x30, [sp, #32]
	add	x29, sp, #32
	strh	w26, [sp, #4]
	mov	w20, #1
	strb	w8, [sp, #6]
	bl	b2sum_commands..line_needs..push_needs_options_1_a64
	and	w8, w0, #0xff
	tbnz	w8, #0, 31f
	lsr	x8, x26, #24
	vj_page	x1, .L1_a64_static.221
	vj_address	x1, x1, .L1_a64_static.221
	mov	x3, sp
	mov	x0, x19
	mov	w2, #4
	lsr	w9, w8, #16
	strh	w8, [sp]
	strb	w9, [sp, #2]
	bl	b2sum_commands..line_needs..push_needs_options_1_a64
	and	w8, w0, #0xff
	tbz	w8, #0, 2f
1:
	mov	w20, #1
	b	31f
2:
	cbz	w23, 23f
	mov	x23, x19
	cmp	w25, #1
	ldp	x8, x20, [x23, #8]!
	sub	x9, x20, x8
	b.le	4f
	cmp	w25, #2
	b.eq	6f
	cmp	w25, #3
	b.ne	9f
	cmp	x9, #20
	b.ls	35f
3:
	ldr	x9, [x19]
	vj_page	x11, .L1_a64_static.228
	vj_address	x11, x11, .L1_a64_static.228
	stp	xzr, xzr, [x23]
	add	x10, x9, x8
	add	x8, x8, #21
	sub	x12, x10, x11
	cmp	x12, #20
	b.hi	17f
	vj_page	x11, .L1_a64_CPI91_0
	vj_page	x12, .L1_a64_CPI91_1
	vj_load	q0, x11, .L1_a64_CPI91_0
	vj_load	d1, x12, .L1_a64_CPI91_1
	b	8f
4:
	cmp	x9, #19
	cbnz	w25, 14f
	b.ls	37f
5:
	ldr	x9, [x19]
	vj_page	x11, .L1_a64_static.225
	vj_address	x11, x11, .L1_a64_static.225
	stp	xzr, xzr, [x23]
	add	x10, x9, x8
	add	x8, x8, #20
	sub	x12, x10, x11
	cmp	x12, #19
	b.hi	18f
	vj_page	x11, .L1_a64_CPI91_0
	vj_page	x12, .L1_a64_CPI91_2
	vj_load	q0, x11, .L1_a64_CPI91_0
	vj_load	d1, x12, .L1_a64_CPI91_2
	b	16f
6:
	cmp	x9, #20
	b.ls	34f
7:
	ldr	x9, [x19]
	vj_page	x11, .L1_a64_static.227
	vj_address	x11, x11, .L1_a64_static.227
	stp	xzr, xzr, [x23]
	add	x10, x9, x8
	add	x8, x8, #21
	sub	x12, x10, x11
	cmp	x12, #20
	b.hi	17f
	vj_page	x11, .L1_a64_CPI91_0
	vj_page	x12, .L1_a64_CPI91_2
	vj_load	q0, x11, .L1_a64_CPI91_0
	vj_load	d1, x12, .L1_a64_CPI91_2
8:
	mov	w11, #112
	str	q0, [x10]
	str	s1, [x10, #16]
	strb	w11, [x10, #20]
	b	21f
9:
	cmp	x9, #7
	b.ls	36f
10:
	mov	x9, #11552
	ldr	x23, [x19]
	cmp	w24, #10
	movk	x9, #29741, lsl #16
	mov	w25, #19
	stp	xzr, xzr, [sp, #8]
	movk	x9, #25970, lsl #32
	str	wzr, [sp, #24]
	movk	x9, #8293, lsl #48
	str	x9, [x23, x8]
	add	x8, x8, #8
	stp	x23, x8, [x19]
	str	x20, [x19, #16]
	b.lo	12f
	mov	x9, x24
11:
	mov	x10, #-3689348814741910324
	add	x11, sp, #8
	cmp	x9, #99
	movk	x10, #52429
	umulh	x10, x9, x10
	lsr	x24, x10, #3
	mov	w10, #10
	msub	w10, w24, w10, w9
	orr	w9, w10, #0x30
	strb	w9, [x11, x25]
	sub	x25, x25, #1
	mov	x9, x24
	b.hi	11b
12:
	mov	w9, #20
	add	x26, sp, #8
	sub	x2, x9, x25
	sub	x9, x20, x8
	cmp	x2, x9
	orr	w9, w24, #0x30
	strb	w9, [x26, x25]
	b.hi	39f
13:
	add	x0, x23, x8
	add	x1, x26, x25
	add	x24, x8, x2
	vj_c_call	memcpy
	stp	x23, x24, [x19]
	b	22f
14:
	b.ls	38f
15:
	ldr	x9, [x19]
	vj_page	x11, .L1_a64_static.226
	vj_address	x11, x11, .L1_a64_static.226
	stp	xzr, xzr, [x23]
	add	x10, x9, x8
	add	x8, x8, #20
	sub	x12, x10, x11
	cmp	x12, #19
	b.hi	19f
	vj_page	x11, .L1_a64_CPI91_0
	vj_page	x12, .L1_a64_CPI91_1
	vj_load	q0, x11, .L1_a64_CPI91_0
	vj_load	d1, x12, .L1_a64_CPI91_1
16:
	str	q0, [x10]
	str	s1, [x10, #16]
	b	21f
17:
	ldr	q0, [x11]
	ldur	x11, [x11, #13]
	str	q0, [x10]
	stur	x11, [x10, #13]
	b	21f
18:
	mov	w12, #25963
	movk	w12, #25138, lsl #16
	b	20f
19:
	mov	w12, #25963
	movk	w12, #29490, lsl #16
20:
	ldr	q0, [x11]
	str	w12, [x10, #16]
	str	q0, [x10]
21:
	stp	x9, x8, [x19]
22:
	str	x20, [x19, #16]
23:
	cmp	w22, #1
	b.ne	25f
	ldp	x8, x22, [x19, #8]
	sub	x9, x22, x8
	cmp	x9, #9
	b.ls	32f
24:
	ldr	x23, [x19]
	vj_page	x10, .L1_a64_static.230
	vj_address	x10, x10, .L1_a64_static.230
	add	x9, x23, x8
	add	x8, x8, #10
	sub	x11, x9, x10
	cmp	x11, #9
	b.hi	26f
	vj_page	x10, .L1_a64_CPI91_3
	vj_load	d0, x10, .L1_a64_CPI91_3
	mov	w10, #8296
	strh	w10, [x9, #8]
	str	d0, [x9]
	b	27f
25:
	mov	w20, wzr
	b	31f
26:
	ldr	x10, [x10]
	mov	w11, #8296
	strh	w11, [x9, #8]
	str	x10, [x9]
27:
	lsr	x10, x21, #61
	lsl	x9, x21, #3
	mov	w20, #19
	stp	x23, x8, [x19]
	cmp	x10, #0
	str	x22, [x19, #16]
	csinv	x10, x9, xzr, eq
	stp	xzr, xzr, [sp, #8]
	cmp	x10, #10
	str	wzr, [sp, #24]
	b.lo	29f
28:
	mov	x9, #-3689348814741910324
	mov	w11, #10
	add	x12, sp, #8
	movk	x9, #52429
	cmp	x10, #99
	umulh	x9, x10, x9
	lsr	x9, x9, #3
	msub	w11, w9, w11, w10
	orr	w10, w11, #0x30
	strb	w10, [x12, x20]
	sub	x20, x20, #1
	mov	x10, x9
	b.hi	28b
29:
	mov	w10, #20
	add	x21, sp, #8
	orr	w9, w9, #0x30
	sub	x2, x10, x20
	sub	x10, x22, x8
	strb	w9, [x21, x20]
	cmp	x2, x10
	b.hi	33f
30:
	add	x0, x23, x8
	add	x1, x21, x20
	add	x24, x8, x2
	vj_c_call	memcpy
	mov	w20, wzr
	stp	x23, x24, [x19]
	str	x22, [x19, #16]
31:
	mov	w0, w20
	ldp	x20, x19, [sp, #96]
	ldp	x22, x21, [sp, #80]
	ldp	x24, x23, [sp, #64]
	ldp	x26, x25, [sp, #48]
	ldp	x29, x30, [sp, #32]
	add	sp, sp, #112
	ret
32:
	mov	x0, x19
	mov	w1, #10
	bl	std_alloc..vec..Vec..grow_amortized..01eec35b572d02af_1_a64
	cbz	w0, 1b
	ldp	x8, x22, [x19, #8]
	b	24b
33:
	mov	x0, x19
	mov	x1, x2
	mov	x24, x2
	bl	std_alloc..vec..Vec..grow_amortized..01eec35b572d02af_1_a64
	cbz	w0, 1b
	ldp	x8, x22, [x19, #8]
	mov	x2, x24
	ldr	x23, [x19]
	b	30b
34:
	mov	x0, x19
	mov	w1, #21
	bl	std_alloc..vec..Vec..grow_amortized..01eec35b572d02af_1_a64
	cbz	w0, 1b
	ldp	x8, x20, [x19, #8]
	b	7b
35:
	mov	x0, x19
	mov	w1, #21
	bl	std_alloc..vec..Vec..grow_amortized..01eec35b572d02af_1_a64
	cbz	w0, 1b
	ldp	x8, x20, [x19, #8]
	b	3b
36:
	mov	x0, x19
	mov	w1, #8
	bl	std_alloc..vec..Vec..grow_amortized..01eec35b572d02af_1_a64
	cbz	w0, 1b
	ldp	x8, x20, [x19, #8]
	b	10b
37:
	mov	x0, x19
	mov	w1, #20
	bl	std_alloc..vec..Vec..grow_amortized..01eec35b572d02af_1_a64
	cbz	w0, 1b
	ldp	x8, x20, [x19, #8]
	b	5b
38:
	mov	x0, x19
	mov	w1, #20
	bl	std_alloc..vec..Vec..grow_amortized..01eec35b572d02af_1_a64
	cbz	w0, 1b
	ldp	x8, x20, [x19, #8]
	b	15b
39:
	mov	x0, x19
	mov	x1, x2
	mov	x24, x2
	bl	std_alloc..vec..Vec..grow_amortized..01eec35b572d02af_1_a64
	cbz	w0, 1b
	ldp	x8, x20, [x19, #8]
	mov	x2, x24
	ldr	x23, [x19]
	b	13b
	vj_end	b2sum_commands..line_needs..Lacks..push_options_1_a64

	vj_constants	8
	.p2align	3, 0x0
.L1_a64_CPI92_0:
	.byte	45
	.byte	45
	.byte	107
	.byte	101
	.byte	121
	.byte	45
	.byte	102
	.byte	105
.L1_a64_CPI92_1:
	.byte	45
	.byte	45
	.byte	115
	.byte	97
	.zero	1
	.zero	1
	.zero	1
	.zero	1
.L1_a64_CPI92_2:
	.byte	45
	.byte	45
	.byte	112
	.byte	101
	.byte	114
	.byte	115
	.byte	111
	.byte	110
	vj_function	b2sum_commands..line_needs..push_needs_options_1_a64
	stp	x29, x30, [sp, #-96]!
	stp	x24, x23, [sp, #48]
	ldrb	w8, [x3]
	ldrb	w23, [x3, #1]
	stp	x22, x21, [sp, #64]
	mov	x21, x2
	mov	x29, sp
	ldrb	w22, [x3, #2]
	stp	x20, x19, [sp, #80]
	mov	x20, x1
	mov	x19, x0
	str	x27, [sp, #16]
	stp	x26, x25, [sp, #32]
	tbz	w8, #0, 7f
	mov	x27, x19
	ldp	x8, x24, [x27, #8]!
	sub	x9, x24, x8
	cmp	x21, x9
	b.hi	23f
1:
	ldr	x25, [x19]
	add	x26, x8, x21
	stp	xzr, xzr, [x27]
	add	x0, x25, x8
	sub	x9, x0, x20
	cmp	x9, x21
	b.hs	2f
	ldrb	w8, [x20]
	cmp	x21, #1
	strb	w8, [x0]
	b.eq	3f
	ldrb	w8, [x20, #1]
	cmp	x21, #2
	strb	w8, [x0, #1]
	b.eq	3f
	ldrb	w8, [x20, #2]
	cmp	x21, #3
	strb	w8, [x0, #2]
	b.eq	3f
	ldrb	w8, [x20, #3]
	strb	w8, [x0, #3]
	b	3f
2:
	mov	x1, x20
	mov	x2, x21
	vj_c_call	memmove
3:
	sub	x8, x24, x26
	stp	x25, x26, [x19]
	cmp	x8, #9
	str	x24, [x19, #16]
	b.ls	25f
4:
	add	x8, x25, x26
	vj_page	x10, .L1_a64_static.222
	vj_address	x10, x10, .L1_a64_static.222
	sub	x9, x8, x10
	cmp	x9, #9
	add	x9, x26, #10
	b.hi	5f
	vj_page	x10, .L1_a64_CPI92_0
	vj_load	d0, x10, .L1_a64_CPI92_0
	mov	w10, #25964
	strh	w10, [x8, #8]
	str	d0, [x8]
	b	6f
5:
	ldr	x10, [x10]
	mov	w11, #25964
	strh	w11, [x8, #8]
	str	x10, [x8]
6:
	stp	x25, x9, [x19]
	str	x24, [x19, #16]
7:
	tbz	w23, #0, 14f
	mov	x26, x19
	ldp	x8, x23, [x26, #8]!
	sub	x9, x23, x8
	cmp	x21, x9
	b.hi	24f
8:
	ldr	x24, [x19]
	add	x25, x8, x21
	stp	xzr, xzr, [x26]
	add	x0, x24, x8
	sub	x9, x0, x20
	cmp	x9, x21
	b.hs	9f
	ldrb	w8, [x20]
	cmp	x21, #1
	strb	w8, [x0]
	b.eq	10f
	ldrb	w8, [x20, #1]
	cmp	x21, #2
	strb	w8, [x0, #1]
	b.eq	10f
	ldrb	w8, [x20, #2]
	cmp	x21, #3
	strb	w8, [x0, #2]
	b.eq	10f
	ldrb	w8, [x20, #3]
	strb	w8, [x0, #3]
	b	10f
9:
	mov	x1, x20
	mov	x2, x21
	vj_c_call	memmove
10:
	sub	x8, x23, x25
	stp	x24, x25, [x19]
	cmp	x8, #5
	str	x23, [x19, #16]
	b.ls	27f
11:
	add	x8, x24, x25
	vj_page	x9, .L1_a64_static.223
	vj_address	x9, x9, .L1_a64_static.223
	sub	x9, x8, x9
	cmp	x9, #5
	add	x9, x25, #6
	b.hi	12f
	vj_page	x10, .L1_a64_CPI92_1
	vj_load	d0, x10, .L1_a64_CPI92_1
	mov	w10, #29804
	strh	w10, [x8, #4]
	str	s0, [x8]
	b	13f
12:
	mov	w11, #11565
	mov	w10, #29804
	movk	w11, #24947, lsl #16
	strh	w10, [x8, #4]
	str	w11, [x8]
13:
	stp	x24, x9, [x19]
	str	x23, [x19, #16]
14:
	tbz	w22, #0, 16f
	mov	x25, x19
	ldp	x8, x22, [x25, #8]!
	sub	x9, x22, x8
	cmp	x21, x9
	b.hi	26f
15:
	ldr	x23, [x19]
	add	x24, x8, x21
	stp	xzr, xzr, [x25]
	add	x0, x23, x8
	sub	x9, x0, x20
	cmp	x9, x21
	b.hs	17f
	ldrb	w8, [x20]
	cmp	x21, #1
	strb	w8, [x0]
	b.eq	18f
	ldrb	w8, [x20, #1]
	cmp	x21, #2
	strb	w8, [x0, #1]
	b.eq	18f
	ldrb	w8, [x20, #2]
	cmp	x21, #3
	strb	w8, [x0, #2]
	b.eq	18f
	ldrb	w8, [x20, #3]
	strb	w8, [x0, #3]
	b	18f
16:
	mov	w0, wzr
	b	22f
17:
	mov	x1, x20
	mov	x2, x21
	vj_c_call	memmove
18:
	sub	x8, x22, x24
	stp	x23, x24, [x19]
	cmp	x8, #9
	str	x22, [x19, #16]
	b.ls	28f
19:
	add	x9, x23, x24
	vj_page	x10, .L1_a64_static.224
	vj_address	x10, x10, .L1_a64_static.224
	sub	x8, x9, x10
	cmp	x8, #9
	add	x8, x24, #10
	b.hi	20f
	vj_page	x10, .L1_a64_CPI92_2
	vj_load	d0, x10, .L1_a64_CPI92_2
	mov	w10, #27745
	strh	w10, [x9, #8]
	str	d0, [x9]
	b	21f
20:
	ldr	x10, [x10]
	mov	w11, #27745
	strh	w11, [x9, #8]
	str	x10, [x9]
21:
	mov	w0, wzr
	stp	x23, x8, [x19]
	str	x22, [x19, #16]
22:
	ldp	x20, x19, [sp, #80]
	ldr	x27, [sp, #16]
	ldp	x22, x21, [sp, #64]
	ldp	x24, x23, [sp, #48]
	ldp	x26, x25, [sp, #32]
	ldp	x29, x30, [sp], #96
	ret
23:
	mov	x0, x19
	mov	x1, x21
	bl	std_alloc..vec..Vec..grow_amortized..01eec35b572d02af_1_a64
	cbz	w0, 29f
	ldp	x8, x24, [x19, #8]
	b	1b
24:
	mov	x0, x19
	mov	x1, x21
	bl	std_alloc..vec..Vec..grow_amortized..01eec35b572d02af_1_a64
	cbz	w0, 29f
	ldp	x8, x23, [x19, #8]
	b	8b
25:
	mov	x0, x19
	mov	w1, #10
	bl	std_alloc..vec..Vec..grow_amortized..01eec35b572d02af_1_a64
	cbz	w0, 29f
	ldp	x26, x24, [x19, #8]
	ldr	x25, [x19]
	b	4b
26:
	mov	x0, x19
	mov	x1, x21
	bl	std_alloc..vec..Vec..grow_amortized..01eec35b572d02af_1_a64
	cbz	w0, 29f
	ldp	x8, x22, [x19, #8]
	b	15b
27:
	mov	x0, x19
	mov	w1, #6
	bl	std_alloc..vec..Vec..grow_amortized..01eec35b572d02af_1_a64
	cbz	w0, 29f
	ldp	x25, x23, [x19, #8]
	ldr	x24, [x19]
	b	11b
28:
	mov	x0, x19
	mov	w1, #10
	bl	std_alloc..vec..Vec..grow_amortized..01eec35b572d02af_1_a64
	cbz	w0, 29f
	ldp	x24, x22, [x19, #8]
	ldr	x23, [x19]
	b	19b
29:
	mov	w0, #1
	b	22b
	vj_end	b2sum_commands..line_needs..push_needs_options_1_a64

	vj_function	b2sum_commands..check..end_manifest..068f3e307c5390f2_1_a64
	sub	sp, sp, #256
	ldrb	w8, [x5]
	stp	x20, x19, [sp, #240]
	mov	x19, x2
	mov	x20, x0
	stp	x29, x30, [sp, #160]
	add	x29, sp, #160
	cmp	w8, #1
	stp	x28, x27, [sp, #176]
	stp	x26, x25, [sp, #192]
	stp	x24, x23, [sp, #208]
	stp	x22, x21, [sp, #224]
	b.ne	4f
	ldp	x27, x21, [x5, #8]
	ldr	x24, [x5, #24]
	ldp	x22, x23, [x5, #40]
	cbnz	x27, 7f
	cbnz	x21, 7f
	cbnz	x24, 7f
	ldr	x8, [x5, #32]
	cbnz	x8, 7f
	cbnz	x23, 7f
	movi	v0.2d, #0000000000000000
	cmp	x4, #1
	stp	q0, q0, [sp, #64]
	b.ne	1f
	ldrb	w8, [x3]
	cmp	w8, #45
	b.ne	1f
	vj_page	x3, .L1_a64_static.217
	vj_address	x3, x3, .L1_a64_static.217
	mov	w4, #14
1:
	add	x0, sp, #64
	mov	x1, x3
	mov	x2, x4
	bl	b2sum_commands..quoting..quoted_name_1_a64
	ldrb	w8, [sp, #64]
	cbnz	w8, 19f
	ldp	x21, x4, [sp, #72]
	vj_page	x5, .L1_a64_static.232
	vj_address	x5, x5, .L1_a64_static.232
	ldp	x0, x1, [x20]
	ldr	x22, [sp, #88]
	vj_page	x7, .L1_a64_static.1
	vj_address	x7, x7, .L1_a64_static.1
	mov	x2, x19
	mov	x3, x21
	mov	w6, #44
	str	xzr, [sp]
	bl	b2sum_commands..messages..warn..068f3e307c5390f2_1_a64
	and	w19, w0, #0xff
	cbz	x22, 3f
2:
	mov	x0, x21
	vj_call	rattle_dealloc
3:
	tbnz	w19, #0, 19f
	b	10f
4:
	movi	v0.2d, #0000000000000000
	cmp	x4, #1
	stp	q0, q0, [sp, #64]
	b.ne	5f
	ldrb	w8, [x3]
	cmp	w8, #45
	b.ne	5f
	vj_page	x3, .L1_a64_static.217
	vj_address	x3, x3, .L1_a64_static.217
	mov	w4, #14
5:
	add	x0, sp, #64
	mov	x1, x3
	mov	x2, x4
	bl	b2sum_commands..quoting..quoted_name_1_a64
	ldrb	w8, [sp, #64]
	cbnz	w8, 19f
	ldp	x21, x4, [sp, #72]
	vj_page	x5, .L1_a64_static.123
	vj_address	x5, x5, .L1_a64_static.123
	ldp	x0, x1, [x20]
	ldr	x22, [sp, #88]
	vj_page	x7, .L1_a64_static.231
	vj_address	x7, x7, .L1_a64_static.231
	mov	w8, #10
	mov	x2, x19
	mov	x3, x21
	mov	w6, #2
	str	x8, [sp]
	bl	b2sum_commands..messages..warn..068f3e307c5390f2_1_a64
	and	w19, w0, #0xff
	cbz	x22, 6f
	mov	x0, x21
	vj_call	rattle_dealloc
6:
	cbz	w19, 10f
	b	19f
7:
	ldrb	w8, [x1, #208]
	cmp	w8, #3
	b.ne	12f
8:
	cbz	x27, 10f
9:
	ldrb	w8, [x1, #210]
	orr	x9, x21, x24
	cbnz	x9, 10f
	cmp	x23, #0
	cset	w9, eq
	tst	w9, w8
	csel	x8, x22, x23, ne
	cmp	x8, #0
	cset	w1, eq
	b	11f
10:
	mov	w1, wzr
11:
	mov	w0, wzr
	b	20f
12:
	ldur	q0, [x5, #56]
	ldur	q1, [x5, #72]
	mov	x28, x3
	ldur	x8, [x5, #88]
	stp	x1, x4, [sp, #24]
	stp	q0, q1, [sp, #64]
	str	x8, [sp, #96]
	cbz	x23, 18f
	sub	x8, x29, #1
	add	x0, sp, #64
	add	x1, sp, #40
	stp	xzr, xzr, [sp, #48]
	str	x8, [sp, #40]
	bl	b2sum_commands..line_needs..Lacks..push_options_1_a64
	and	w8, w0, #0xff
	tbz	w8, #0, 13f
	ldr	x8, [sp, #56]
	cbz	x8, 19f
	ldr	x0, [sp, #40]
	vj_call	rattle_dealloc
	b	19f
13:
	movi	v0.2d, #0000000000000000
	ldp	x26, x25, [sp, #40]
	ldr	x2, [sp, #32]
	mov	x1, x28
	cmp	x2, #1
	stp	q0, q0, [x29, #-48]
	b.ne	14f
	ldrb	w8, [x1]
	cmp	w8, #45
	b.ne	14f
	vj_page	x1, .L1_a64_static.217
	vj_address	x1, x1, .L1_a64_static.217
	mov	w2, #14
14:
	sub	x0, x29, #48
	bl	b2sum_commands..quoting..quoted_name_1_a64
	ldurb	w8, [x29, #-48]
	cbz	w8, 15f
	mov	x25, x26
	mov	w26, #1
	b	16f
15:
	ldp	x3, x4, [x29, #-40]
	vj_page	x5, .L1_a64_static.233
	vj_address	x5, x5, .L1_a64_static.233
	ldur	x8, [x29, #-24]
	mov	x2, x19
	ldp	x0, x1, [x20]
	mov	w6, #12
	stp	x3, x8, [sp, #8]
	mov	x8, x25
	mov	x7, x26
	mov	x25, x26
	str	x8, [sp]
	bl	b2sum_commands..messages..warn..068f3e307c5390f2_1_a64
	ldr	x8, [sp, #16]
	and	w26, w0, #0xff
	cbz	x8, 16f
	ldr	x0, [sp, #8]
	vj_call	rattle_dealloc
16:
	ldr	x8, [sp, #56]
	cbz	x8, 17f
	mov	x0, x25
	vj_call	rattle_dealloc
17:
	tbnz	w26, #0, 19f
18:
	vj_page	x3, .L1_a64_static.234
	vj_address	x3, x3, .L1_a64_static.234
	vj_page	x5, .L1_a64_static.235
	vj_address	x5, x5, .L1_a64_static.235
	mov	x0, x20
	mov	x1, x19
	mov	x2, x22
	mov	w4, #29
	mov	w6, #31
	bl	b2sum_commands..messages..warn_of_count..068f3e307c5390f2_1_a64
	and	w8, w0, #0xff
	tbnz	w8, #0, 19f
	vj_page	x3, .L1_a64_static.236
	vj_address	x3, x3, .L1_a64_static.236
	vj_page	x5, .L1_a64_static.237
	vj_address	x5, x5, .L1_a64_static.237
	mov	x0, x20
	mov	x1, x19
	mov	x2, x23
	mov	w4, #25
	mov	w6, #25
	bl	b2sum_commands..messages..warn_of_count..068f3e307c5390f2_1_a64
	and	w8, w0, #0xff
	tbnz	w8, #0, 19f
	vj_page	x3, .L1_a64_static.238
	vj_address	x3, x3, .L1_a64_static.238
	vj_page	x5, .L1_a64_static.239
	vj_address	x5, x5, .L1_a64_static.239
	mov	x0, x20
	mov	x1, x19
	mov	x2, x24
	mov	w4, #30
	mov	w6, #31
	bl	b2sum_commands..messages..warn_of_count..068f3e307c5390f2_1_a64
	and	w8, w0, #0xff
	tbnz	w8, #0, 19f
	vj_page	x3, .L1_a64_static.240
	vj_address	x3, x3, .L1_a64_static.240
	vj_page	x5, .L1_a64_static.241
	vj_address	x5, x5, .L1_a64_static.241
	mov	x0, x20
	mov	x1, x19
	mov	x2, x21
	mov	w4, #32
	mov	w6, #33
	bl	b2sum_commands..messages..warn_of_count..068f3e307c5390f2_1_a64
	and	w8, w0, #0xff
	tbz	w8, #0, 21f
19:
	mov	w1, wzr
	mov	w0, #1
20:
	ldp	x20, x19, [sp, #240]
	ldp	x22, x21, [sp, #224]
	ldp	x24, x23, [sp, #208]
	ldp	x26, x25, [sp, #192]
	ldp	x28, x27, [sp, #176]
	ldp	x29, x30, [sp, #160]
	add	sp, sp, #256
	ret
21:
	ldp	x1, x2, [sp, #24]
	ldrb	w8, [x1, #207]
	cmp	w8, #1
	b.ne	8b
	cbnz	x27, 9b
	movi	v0.2d, #0000000000000000
	cmp	x2, #1
	stp	q0, q0, [sp, #64]
	b.ne	22f
	ldrb	w9, [x28]
	cmp	w9, #45
	b.ne	22f
	vj_page	x28, .L1_a64_static.217
	vj_address	x28, x28, .L1_a64_static.217
	mov	w2, #14
22:
	add	x0, sp, #64
	mov	x1, x28
	bl	b2sum_commands..quoting..quoted_name_1_a64
	ldrb	w8, [sp, #64]
	cbnz	w8, 19b
	ldp	x21, x4, [sp, #72]
	vj_page	x5, .L1_a64_static.242
	vj_address	x5, x5, .L1_a64_static.242
	ldp	x0, x1, [x20]
	ldr	x22, [sp, #88]
	vj_page	x7, .L1_a64_static.1
	vj_address	x7, x7, .L1_a64_static.1
	mov	x2, x19
	mov	x3, x21
	mov	w6, #22
	str	xzr, [sp]
	bl	b2sum_commands..messages..warn..068f3e307c5390f2_1_a64
	and	w19, w0, #0xff
	cbnz	x22, 2b
	b	3b
	vj_end	b2sum_commands..check..end_manifest..068f3e307c5390f2_1_a64

	vj_function	b2sum_commands..messages..warn_of_count..068f3e307c5390f2_1_a64
	sub	sp, sp, #176
	stp	x29, x30, [sp, #80]
	add	x29, sp, #80
	stp	x28, x27, [sp, #96]
	stp	x26, x25, [sp, #112]
	stp	x24, x23, [sp, #128]
	stp	x22, x21, [sp, #144]
	stp	x20, x19, [sp, #160]
	cbz	x2, 2f
	mov	x25, x2
	sub	x8, x29, #1
	cmp	x2, #10
	mov	w28, #19
	stp	xzr, xzr, [sp, #40]
	str	x8, [sp, #32]
	stp	xzr, xzr, [x29, #-24]
	stur	wzr, [x29, #-8]
	b.lo	3f
	mov	x9, x25
1:
	mov	x8, #-3689348814741910324
	mov	w10, #10
	sub	x11, x29, #24
	movk	x8, #52429
	cmp	x9, #99
	umulh	x8, x9, x8
	lsr	x8, x8, #3
	msub	w10, w8, w10, w9
	orr	w9, w10, #0x30
	strb	w9, [x11, x28]
	sub	x28, x28, #1
	mov	x9, x8
	b.hi	1b
	b	4f
2:
	mov	w19, wzr
	b	6f
3:
	mov	x8, x25
4:
	ldp	x19, x10, [sp, #40]
	mov	w9, #20
	sub	x26, x9, x28
	sub	x11, x29, #24
	orr	w8, w8, #0x30
	strb	w8, [x11, x28]
	sub	x9, x10, x19
	str	x1, [sp, #24]
	cmp	x26, x9
	b.hi	7f
	str	x10, [sp, #16]
	mov	x20, x0
	mov	x22, x3
	mov	x24, x5
	mov	x21, x4
	mov	x23, x6
	sub	x27, x29, #1
5:
	add	x0, x27, x19
	add	x1, x11, x28
	mov	x2, x26
	vj_c_call	memcpy
	ldp	x0, x1, [x20]
	cmp	x25, #1
	ldr	x2, [sp, #24]
	csel	x7, x22, x24, eq
	csel	x8, x21, x23, eq
	vj_page	x3, .L1_a64_static.176
	vj_address	x3, x3, .L1_a64_static.176
	add	x6, x19, x26
	mov	w4, #9
	mov	x5, x27
	str	x8, [sp]
	bl	b2sum_commands..messages..warn..068f3e307c5390f2_1_a64
	ldr	x8, [sp, #16]
	and	w19, w0, #0xff
	cbz	x8, 6f
	mov	x0, x27
	vj_call	rattle_dealloc
6:
	mov	w0, w19
	ldp	x20, x19, [sp, #160]
	ldp	x22, x21, [sp, #144]
	ldp	x24, x23, [sp, #128]
	ldp	x26, x25, [sp, #112]
	ldp	x28, x27, [sp, #96]
	ldp	x29, x30, [sp, #80]
	add	sp, sp, #176
	ret
7:
	mov	x20, x0
	add	x0, sp, #32
	mov	x1, x26
	mov	x22, x3
	mov	x24, x5
	mov	x21, x4
	mov	x23, x6
	bl	std_alloc..vec..Vec..grow_amortized..01eec35b572d02af_1_a64
	cbz	w0, 8f
	ldp	x19, x8, [sp, #40]
	sub	x11, x29, #24
	ldr	x27, [sp, #32]
	str	x8, [sp, #16]
	b	5b
8:
	ldr	x8, [sp, #48]
	cbz	x8, 9f
	ldr	x0, [sp, #32]
	vj_call	rattle_dealloc
9:
	mov	w19, #1
	b	6b
	vj_end	b2sum_commands..messages..warn_of_count..068f3e307c5390f2_1_a64

	vj_function	b2sum_commands..folder_checks..has_all..82a450bcca081e63_1_a64
	stp	x29, x30, [sp, #-96]!
	stp	x28, x27, [sp, #16]
	mov	x29, sp
	stp	x26, x25, [sp, #32]
	stp	x24, x23, [sp, #48]
	stp	x22, x21, [sp, #64]
	stp	x20, x19, [sp, #80]
	sub	sp, sp, #560
	movi	v0.2d, #0000000000000000
	ldr	x8, [x1, #152]
	stp	xzr, xzr, [x29, #-224]
	stur	xzr, [x29, #-208]
	str	xzr, [sp, #320]
	stp	xzr, xzr, [sp, #224]
	stp	q0, q0, [sp, #240]
	stp	q0, q0, [sp, #272]
	str	q0, [sp, #304]
	stp	xzr, xzr, [sp, #208]
	stp	xzr, xzr, [sp, #192]
	stp	xzr, xzr, [sp, #176]
	stp	xzr, xzr, [sp, #160]
	stp	xzr, xzr, [sp, #144]
	stp	xzr, xzr, [sp, #120]
	str	xzr, [sp, #136]
	stp	xzr, xzr, [sp, #96]
	str	xzr, [sp, #112]
	cbz	x8, 17f
	mov	x25, x6
	mov	x21, x2
	mov	x20, x1
	mov	x28, x0
	sub	x22, x29, #16
	stp	xzr, xzr, [x29, #-192]
	stur	x22, [x29, #-200]
	cbz	x6, 18f
	mov	x26, x5
	mov	w23, w4
	mov	w24, w3
	b	2f
1:
	cbz	x25, 23f
2:
	mov	x8, xzr
	mov	x4, x26
	mov	x5, x25
3:
	ldrb	w9, [x4, x8]
	cmp	w9, #10
	b.eq	4f
	add	x8, x8, #1
	cmp	x5, x8
	b.ne	3b
	mov	x25, xzr
	vj_page	x26, .L1_a64_static.1
	vj_address	x26, x26, .L1_a64_static.1
	movi	v0.2d, #0000000000000000
	stp	q0, q0, [x29, #-160]
	stp	q0, q0, [x29, #-128]
	stur	q0, [x29, #-176]
	cbnz	x5, 5f
	b	12f
4:
	add	x9, x4, x8
	mvn	x10, x8
	add	x26, x9, #1
	add	x25, x10, x5
	mov	x5, x8
	movi	v0.2d, #0000000000000000
	stp	q0, q0, [x29, #-160]
	stp	q0, q0, [x29, #-128]
	stur	q0, [x29, #-176]
	cbz	x8, 12f
5:
	ldrb	w8, [x4]
	cmp	w8, #35
	b.eq	12f
	sub	x8, x5, #1
	ldrb	w9, [x4, x8]
	cmp	w9, #13
	csel	x6, x8, x5, eq
	cmp	x6, #0
	csel	x8, xzr, x4, eq
	cbz	x6, 12f
	ldrb	w1, [x20]
	ldr	w2, [x20, #4]
	mov	x9, x4
	stp	q0, q0, [x29, #-80]
	stp	q0, q0, [x29, #-48]
	stur	q0, [x29, #-96]
	b	7f
6:
	subs	x6, x6, #1
	add	x8, x8, #1
	b.eq	12f
7:
	ldrb	w10, [x9], #1
	cmp	w10, #32
	b.eq	6b
	cmp	w10, #9
	b.eq	6b
	cbz	x6, 12f
	mov	x19, x5
	mov	x27, x4
	cmp	w10, #92
	b.ne	8f
	sub	x6, x6, #1
	sub	x0, x29, #96
	add	x5, x8, #1
	mov	w3, w24
	mov	w4, #1
	b	9f
8:
	sub	x0, x29, #96
	mov	w3, w24
	mov	w4, wzr
	mov	x5, x8
9:
	bl	b2sum_lines..reads..read_body_1_a64
	ldurb	w8, [x29, #-96]
	cbnz	w8, 78f
	ldurb	w8, [x29, #-88]
	mov	x4, x27
	mov	x5, x19
	cmp	w8, #1
	b.ne	12f
	stp	x28, x21, [sp, #80]
	ldp	x8, x22, [x29, #-56]
	ldp	x28, x21, [x29, #-40]
	cbz	x8, 10f
	ldur	x0, [x29, #-72]
	vj_call	rattle_dealloc
	mov	x5, x19
	mov	x4, x27
10:
	ldp	x8, x9, [x29, #-192]
	cmp	x9, x8
	b.eq	16f
11:
	mov	w9, #24
	ldur	x10, [x29, #-200]
	madd	x9, x8, x9, x10
	add	x8, x8, #1
	stur	x8, [x29, #-192]
	stp	x22, x28, [x9]
	str	x21, [x9, #16]
	ldp	x28, x21, [sp, #80]
12:
	sub	x0, x29, #176
	mov	x1, x20
	mov	w2, w24
	mov	w3, w23
	bl	b2sum_commands..check..read_item_1_a64
	ldurb	w8, [x29, #-176]
	cbnz	w8, 19f
	ldurb	w8, [x29, #-168]
	cmp	w8, #1
	b.ne	1b
	ldurb	w8, [x29, #-104]
	sub	w9, w8, #1
	cmp	w9, #2
	b.hs	13f
	mov	w24, #1
	b	14f
13:
	cbz	w8, 14f
	mov	w24, #2
14:
	ldp	x8, x22, [x29, #-136]
	ldur	x19, [x29, #-112]
	cbz	x8, 15f
	ldur	x0, [x29, #-152]
	vj_call	rattle_dealloc
15:
	cbz	x19, 1b
	mov	x0, x22
	vj_call	rattle_dealloc
	b	1b
16:
	sub	x0, x29, #200
	mov	w1, #1
	bl	std_alloc..vec..Vec..grow_amortized..bb23d2d2a8e2d2e5_1_a64
	cbz	w0, 77f
	ldur	x8, [x29, #-192]
	mov	x4, x27
	mov	x5, x19
	b	11b
17:
	mov	w0, wzr
	mov	w19, #1
	b	82f
18:
	mov	x24, xzr
	mov	x23, xzr
	b	24f
19:
	ldurb	w19, [x29, #-175]
	ldp	x20, x21, [x29, #-200]
	ldur	x22, [x29, #-184]
	cbz	x21, 79f
20:
	add	x23, x20, #16
	b	22f
21:
	subs	x21, x21, #1
	add	x23, x23, #24
	b.eq	79f
22:
	ldr	x8, [x23]
	cbz	x8, 21b
	ldur	x0, [x23, #-16]
	vj_call	rattle_dealloc
	b	21b
23:
	ldp	x22, x23, [x29, #-200]
	ldur	x24, [x29, #-184]
24:
	mov	x0, x22
	mov	x1, x23
	bl	std_alloc..vec..Vec..sort_unstable..6c2966b20b9e9cac_1_a64
	ldp	x3, x4, [x20, #144]
	add	x0, sp, #240
	mov	x1, x28
	mov	x2, x21
	bl	b2sum_commands..folders..walk..82a450bcca081e63_1_a64
	ldrb	w8, [sp, #240]
	cbz	w8, 28f
	ldrb	w19, [sp, #241]
	cbz	x23, 27f
	add	x20, x22, #16
	b	26f
25:
	subs	x23, x23, #1
	add	x20, x20, #24
	b.eq	27f
26:
	ldr	x8, [x20]
	cbz	x8, 25b
	ldur	x0, [x20, #-16]
	vj_call	rattle_dealloc
	b	25b
27:
	cbz	x24, 81f
	mov	x0, x22
	b	80f
28:
	ldr	x9, [sp, #248]
	ldr	q0, [sp, #272]
	ldrb	w10, [sp, #320]
	ldp	x8, x27, [sp, #288]
	stp	x9, x24, [sp, #56]
	ldr	x9, [sp, #256]
	stur	q0, [x29, #-224]
	ldp	x25, x19, [sp, #304]
	ldur	x26, [x29, #-216]
	str	x9, [sp, #40]
	ldr	x9, [sp, #264]
	str	w10, [sp, #28]
	str	x9, [sp, #48]
	sub	x9, x8, x26
	cmp	x25, x9
	stur	x8, [x29, #-208]
	b.hi	61f
	cbz	x25, 31f
29:
	mov	w8, #24
	ldur	x9, [x29, #-224]
	mov	x1, x27
	madd	x0, x26, x8, x9
	add	x8, x25, x25, lsl #1
	mov	x24, x9
	lsl	x2, x8, #3
	sub	x8, x0, x27
	cmp	x8, x2
	b.hs	33f
	mov	x8, x1
	mov	x9, x25
30:
	ldr	x10, [x8, #16]
	ldr	q0, [x8], #24
	subs	x9, x9, #1
	str	x10, [x0, #16]
	str	q0, [x0], #24
	b.ne	30b
	b	34f
31:
	ldur	x0, [x29, #-224]
	mov	x1, x26
	str	x0, [sp, #72]
	bl	std_alloc..vec..Vec..sort_unstable..6c2966b20b9e9cac_1_a64
	str	x19, [sp, #32]
	cbnz	x26, 35f
32:
	ldr	w8, [sp, #28]
	and	w19, w8, #0x1
	b	54f
33:
	vj_c_call	memmove
34:
	add	x26, x26, x25
	mov	x0, x24
	ldr	x24, [sp, #64]
	stur	x26, [x29, #-216]
	mov	x1, x26
	str	x0, [sp, #72]
	bl	std_alloc..vec..Vec..sort_unstable..6c2966b20b9e9cac_1_a64
	str	x19, [sp, #32]
	cbz	x26, 32b
35:
	cbz	x23, 53f
	str	x27, [sp, #16]
	ldr	x27, [sp, #72]
	mov	x24, xzr
	mov	w19, #1
	stp	x28, x21, [sp, #80]
	b	38f
36:
	ldr	x27, [sp, #72]
	and	w8, w28, #0xff
	tbnz	w8, #0, 59f
37:
	cmp	w21, #1
	add	x24, x24, #1
	cset	w8, eq
	cmp	x24, x26
	and	w19, w19, w8
	b.eq	51f
38:
	mov	w8, #24
	cmp	x23, #1
	madd	x8, x24, x8, x27
	ldp	x28, x25, [x8]
	b.ne	39f
	mov	x8, xzr
	b	50f
39:
	mov	x8, xzr
	mov	x9, x23
	b	41f
40:
	cmp	x12, x25
	mov	w12, #2
	csel	w12, wzr, w12, lo
	csinc	w12, w12, wzr, ne
	cmp	w12, #2
	sub	x9, x9, x10
	csel	x8, x8, x11, eq
	cmp	x9, #1
	b.ls	49f
41:
	lsr	x10, x9, #1
	mov	w12, #24
	add	x11, x10, x8
	madd	x13, x11, x12, x22
	ldp	x13, x12, [x13]
	cmp	x25, x12
	csel	x14, x25, x12, lo
	cmp	x14, #64
	b.hs	42f
	mov	x15, xzr
	b	44f
42:
	mov	x15, xzr
	mov	x16, x14
43:
	add	x17, x13, x15
	add	x0, x28, x15
	ldp	q0, q3, [x0]
	ldp	q1, q2, [x17]
	ldp	q4, q5, [x0, #32]
	cmeq	v0.16b, v1.16b, v0.16b
	cmeq	v1.16b, v2.16b, v3.16b
	ldp	q2, q3, [x17, #32]
	mvn	v0.16b, v0.16b
	mvn	v1.16b, v1.16b
	cmeq	v2.16b, v2.16b, v4.16b
	cmeq	v3.16b, v3.16b, v5.16b
	orn	v0.16b, v0.16b, v2.16b
	orn	v1.16b, v1.16b, v3.16b
	orr	v0.16b, v1.16b, v0.16b
	umaxv	b0, v0.16b
	fmov	w17, s0
	tbnz	w17, #0, 44f
	sub	x16, x16, #64
	add	x15, x15, #64
	cmp	x16, #63
	b.hi	43b
	and	x15, x14, #0xffffffffffffffc0
44:
	sub	x16, x14, x15
	cmp	x16, #8
	b.lo	46f
45:
	ldr	x17, [x13, x15]
	ldr	x0, [x28, x15]
	cmp	x17, x0
	b.ne	46f
	sub	x16, x16, #8
	add	x15, x15, #8
	cmp	x16, #7
	b.hi	45b
46:
	subs	x14, x14, x15
	b.ls	40b
	add	x16, x28, x15
	add	x13, x13, x15
47:
	ldrb	w15, [x13], #1
	ldrb	w17, [x16], #1
	cmp	w15, w17
	b.ne	48f
	subs	x14, x14, #1
	b.ne	47b
	b	40b
48:
	mov	w12, #2
	csel	w12, wzr, w12, lo
	cmp	w12, #2
	sub	x9, x9, x10
	csel	x8, x8, x11, eq
	cmp	x9, #1
	b.hi	41b
49:
	add	x8, x8, x8, lsl #1
	lsl	x8, x8, #3
50:
	add	x8, x22, x8
	mov	x2, x28
	mov	x3, x25
	ldp	x0, x1, [x8]
	bl	std_alloc..compared..VecOrd..cmp..330a034538f27f99_1_a64
	and	w21, w0, #0xff
	cmp	w21, #1
	b.eq	37b
	ldrb	w8, [x20, #208]
	cmp	w8, #3
	b.eq	37b
	movi	v0.2d, #0000000000000000
	sub	x0, x29, #96
	mov	x1, x28
	mov	x2, x25
	stp	q0, q0, [x29, #-96]
	bl	b2sum_commands..quoting..quoted_name_1_a64
	ldurb	w8, [x29, #-96]
	cbnz	w8, 59f
	ldp	x8, x9, [sp, #80]
	vj_page	x5, .L1_a64_static.123
	vj_address	x5, x5, .L1_a64_static.123
	ldp	x25, x4, [x29, #-88]
	ldur	x27, [x29, #-72]
	vj_page	x7, .L1_a64_static.245
	vj_address	x7, x7, .L1_a64_static.245
	ldp	x0, x1, [x8]
	mov	w8, #18
	add	x2, x9, #224
	mov	x3, x25
	mov	w6, #2
	str	x8, [sp]
	bl	b2sum_commands..messages..warn..068f3e307c5390f2_1_a64
	mov	w28, w0
	cbz	x27, 36b
	mov	x0, x25
	vj_call	rattle_dealloc
	b	36b
51:
	ldr	w8, [sp, #28]
	and	w19, w19, w8
52:
	ldr	x24, [sp, #64]
	ldr	x27, [sp, #16]
	b	54f
53:
	ldrb	w8, [x20, #208]
	cmp	w8, #3
	b.ne	55f
	mov	w19, wzr
54:
	sub	x0, x29, #224
	bl	std_alloc..vec..Vec..drop..3374fb78d704bdda_1_a64
	ldr	x8, [sp, #56]
	add	x0, sp, #144
	str	x8, [sp, #144]
	ldr	x8, [sp, #40]
	str	x8, [sp, #152]
	ldr	x8, [sp, #48]
	str	x8, [sp, #160]
	bl	std_alloc..vec..Vec..drop..3374fb78d704bdda_1_a64
	ldr	x8, [sp, #32]
	add	x0, sp, #120
	stp	x27, xzr, [sp, #120]
	str	x8, [sp, #136]
	bl	std_alloc..vec..Vec..drop..3374fb78d704bdda_1_a64
	add	x0, sp, #96
	stp	x22, x23, [sp, #96]
	str	x24, [sp, #112]
	bl	std_alloc..vec..Vec..drop..3374fb78d704bdda_1_a64
	mov	w0, wzr
	b	82f
55:
	ldr	x9, [sp, #72]
	str	x27, [sp, #16]
	mov	x27, x21
	sub	x19, x26, #1
	add	x24, x9, #8
	cmp	w8, #3
	b.eq	58f
56:
	movi	v0.2d, #0000000000000000
	ldp	x1, x2, [x24, #-8]
	sub	x0, x29, #96
	stp	q0, q0, [x29, #-96]
	bl	b2sum_commands..quoting..quoted_name_1_a64
	ldurb	w8, [x29, #-96]
	cbnz	w8, 59f
	ldp	x25, x4, [x29, #-88]
	vj_page	x5, .L1_a64_static.123
	vj_address	x5, x5, .L1_a64_static.123
	ldp	x0, x1, [x28]
	ldur	x21, [x29, #-72]
	vj_page	x7, .L1_a64_static.245
	vj_address	x7, x7, .L1_a64_static.245
	mov	w8, #18
	add	x2, x27, #224
	mov	x3, x25
	mov	w6, #2
	str	x8, [sp]
	bl	b2sum_commands..messages..warn..068f3e307c5390f2_1_a64
	mov	w26, w0
	cbz	x21, 57f
	mov	x0, x25
	vj_call	rattle_dealloc
57:
	and	w8, w26, #0xff
	tbnz	w8, #0, 59f
58:
	cbz	x19, 52b
	ldrb	w8, [x20, #208]
	sub	x19, x19, #1
	add	x24, x24, #24
	cmp	w8, #3
	b.ne	56b
	b	58b
59:
	sub	x0, x29, #224
	bl	std_alloc..vec..Vec..drop..3374fb78d704bdda_1_a64
	ldr	x8, [sp, #56]
	add	x0, sp, #216
	str	x8, [sp, #216]
	ldr	x8, [sp, #40]
	str	x8, [sp, #224]
	ldr	x8, [sp, #48]
	str	x8, [sp, #232]
	bl	std_alloc..vec..Vec..drop..3374fb78d704bdda_1_a64
	ldr	x8, [sp, #16]
	add	x0, sp, #192
	stp	x8, xzr, [sp, #192]
	ldr	x8, [sp, #32]
	str	x8, [sp, #208]
	bl	std_alloc..vec..Vec..drop..3374fb78d704bdda_1_a64
	ldr	x8, [sp, #64]
	add	x0, sp, #168
	stp	x22, x23, [sp, #168]
	str	x8, [sp, #184]
	bl	std_alloc..vec..Vec..drop..3374fb78d704bdda_1_a64
60:
	mov	w19, wzr
	b	81f
61:
	sub	x0, x29, #224
	mov	x1, x25
	bl	std_alloc..vec..Vec..grow_amortized..bb23d2d2a8e2d2e5_1_a64
	ldur	x26, [x29, #-216]
	tbnz	w0, #0, 29b
	mov	x28, x19
	ldur	x19, [x29, #-224]
	ldur	x20, [x29, #-208]
	cbz	x26, 64f
	add	x21, x19, #16
	b	63f
62:
	subs	x26, x26, #1
	add	x21, x21, #24
	b.eq	64f
63:
	ldr	x8, [x21]
	cbz	x8, 62b
	ldur	x0, [x21, #-16]
	vj_call	rattle_dealloc
	b	62b
64:
	cbz	x20, 65f
	mov	x0, x19
	vj_call	rattle_dealloc
65:
	ldr	x20, [sp, #56]
	ldr	x21, [sp, #40]
	cbz	x21, 68f
	add	x19, x20, #16
	b	67f
66:
	subs	x21, x21, #1
	add	x19, x19, #24
	b.eq	68f
67:
	ldr	x8, [x19]
	cbz	x8, 66b
	ldur	x0, [x19, #-16]
	vj_call	rattle_dealloc
	b	66b
68:
	ldr	x8, [sp, #48]
	cbz	x8, 69f
	mov	x0, x20
	vj_call	rattle_dealloc
69:
	add	x19, x27, #16
	b	71f
70:
	subs	x25, x25, #1
	add	x19, x19, #24
	b.eq	72f
71:
	ldr	x8, [x19]
	cbz	x8, 70b
	ldur	x0, [x19, #-16]
	vj_call	rattle_dealloc
	b	70b
72:
	cbz	x28, 73f
	mov	x0, x27
	vj_call	rattle_dealloc
73:
	cbz	x23, 76f
	add	x19, x22, #16
	b	75f
74:
	subs	x23, x23, #1
	add	x19, x19, #24
	b.eq	76f
75:
	ldr	x8, [x19]
	cbz	x8, 74b
	ldur	x0, [x19, #-16]
	vj_call	rattle_dealloc
	b	74b
76:
	cbz	x24, 60b
	mov	x0, x22
	vj_call	rattle_dealloc
	b	60b
77:
	cbz	x21, 78f
	mov	x0, x22
	vj_call	rattle_dealloc
78:
	mov	w19, wzr
	ldp	x20, x21, [x29, #-200]
	ldur	x22, [x29, #-184]
	cbnz	x21, 20b
79:
	cbz	x22, 81f
	mov	x0, x20
80:
	vj_call	rattle_dealloc
81:
	mov	w0, #1
82:
	mov	w1, w19
	add	sp, sp, #560
	ldp	x20, x19, [sp, #80]
	ldp	x22, x21, [sp, #64]
	ldp	x24, x23, [sp, #48]
	ldp	x26, x25, [sp, #32]
	ldp	x28, x27, [sp, #16]
	ldp	x29, x30, [sp], #96
	ret
	vj_end	b2sum_commands..folder_checks..has_all..82a450bcca081e63_1_a64

	vj_function	b2sum_commands..folders..walk..82a450bcca081e63_1_a64
	stp	x29, x30, [sp, #-96]!
	stp	x28, x27, [sp, #16]
	mov	x29, sp
	stp	x26, x25, [sp, #32]
	stp	x24, x23, [sp, #48]
	stp	x22, x21, [sp, #64]
	stp	x20, x19, [sp, #80]
	sub	sp, sp, #832
	movi	v0.2d, #0000000000000000
	add	x8, sp, #184
	add	x28, sp, #184
	sub	x21, x29, #24
	stp	x1, x2, [sp, #32]
	str	x0, [sp, #8]
	stp	xzr, xzr, [sp, #184]
	stur	xzr, [x8, #22]
	str	xzr, [sp, #200]
	str	wzr, [sp, #176]
	stur	wzr, [sp, #179]
	stp	q0, q0, [sp, #96]
	stp	q0, q0, [sp, #128]
	str	xzr, [sp, #160]
	stp	xzr, xzr, [sp, #64]
	stur	xzr, [sp, #79]
	str	wzr, [sp, #56]
	stur	wzr, [sp, #59]
	stp	xzr, xzr, [sp, #312]
	str	x21, [sp, #304]
	cbz	x4, 14f
	mov	x22, x4
	mov	x23, x3
	mov	x19, xzr
	mov	x20, xzr
	sub	x24, x29, #24
1:
	mov	w8, #24
	madd	x8, x20, x8, x23
	ldp	x27, x25, [x8]
	cbz	x25, 3f
	tbnz	x25, #63, 15f
	mov	x0, x25
	mov	w1, #1
	vj_call	rattle_alloc
	tbz	w0, #0, 15f
	mov	x26, x1
	sub	x9, x1, x27
	cmp	x9, x25
	b.hs	4f
2:
	cmp	x25, #8
	mov	x8, xzr
	b.lo	9f
	cmp	x9, #32
	b.lo	9f
	cmp	x25, #32
	b.hs	5f
	mov	x8, xzr
	b	7f
3:
	sub	x26, x29, #24
	sub	x9, x26, x27
	cmp	x9, x25
	b.lo	2b
4:
	mov	x0, x26
	mov	x1, x27
	mov	x2, x25
	vj_c_call	memmove
	b	11f
5:
	and	x9, x25, #0x18
	and	x8, x25, #0xffffffffffffffe0
	add	x10, x27, #16
	add	x11, x26, #16
	and	x12, x25, #0xffffffffffffffe0
6:
	ldp	q0, q1, [x10, #-16]
	subs	x12, x12, #32
	add	x10, x10, #32
	stp	q0, q1, [x11, #-16]
	add	x11, x11, #32
	b.ne	6b
	cmp	x25, x8
	b.eq	11f
	cbz	x9, 9f
7:
	mov	x11, x8
	and	x8, x25, #0xfffffffffffffff8
	sub	x9, x11, x8
	add	x10, x27, x11
	add	x11, x26, x11
8:
	ldr	d0, [x10], #8
	adds	x9, x9, #8
	str	d0, [x11], #8
	b.ne	8b
	cmp	x25, x8
	b.eq	11f
9:
	sub	x9, x25, x8
	add	x10, x27, x8
	add	x8, x26, x8
10:
	ldrb	w11, [x10], #1
	subs	x9, x9, #1
	strb	w11, [x8], #1
	b.ne	10b
11:
	ldr	x8, [sp, #320]
	cmp	x8, x19
	b.eq	13f
12:
	mov	w8, #24
	add	x20, x20, #1
	madd	x8, x19, x8, x24
	add	x19, x19, #1
	cmp	x20, x22
	stp	x26, x25, [x8]
	str	x25, [x8, #16]
	str	x19, [sp, #312]
	b.ne	1b
	b	21f
13:
	add	x0, sp, #304
	mov	w1, #1
	bl	std_alloc..vec..Vec..grow_amortized..bb23d2d2a8e2d2e5_1_a64
	cbz	w0, 92f
	ldp	x24, x19, [sp, #304]
	b	12b
14:
	sub	x8, x29, #24
	b	22f
15:
	ldr	x20, [sp, #320]
	ldr	x22, [sp, #8]
	cbz	x19, 18f
	add	x21, x24, #16
	b	17f
16:
	subs	x19, x19, #1
	add	x21, x21, #24
	b.eq	18f
17:
	ldr	x8, [x21]
	cbz	x8, 16b
	ldur	x0, [x21, #-16]
	vj_call	rattle_dealloc
	b	16b
18:
	cbz	x20, 20f
	mov	x0, x24
19:
	vj_call	rattle_dealloc
20:
	movi	v0.2d, #0000000000000000
	mov	w8, #1
	strh	w8, [x22]
	stur	q0, [x22, #8]
	stur	q0, [x22, #24]
	stur	q0, [x22, #40]
	stur	q0, [x22, #56]
	stur	q0, [x22, #72]
	b	115f
21:
	ldrb	w8, [sp, #304]
22:
	ldur	q0, [x28, #121]
	ldr	x9, [sp, #320]
	mov	x19, xzr
	strb	w8, [sp, #96]
	mov	w27, #1
	str	q0, [sp, #64]
	stur	x9, [sp, #79]
	ldr	q0, [sp, #64]
	stp	x21, xzr, [sp, #144]
	stp	xzr, xzr, [sp, #128]
	stur	q0, [sp, #97]
	stp	x9, x21, [sp, #112]
	add	x21, sp, #432
	str	xzr, [sp, #160]
	b	24f
23:
	add	x19, x19, #1
	and	w27, w27, w20
	cmn	x19, #1
	b.eq	79f
24:
	ldr	x20, [sp, #104]
	cmp	x19, x20
	b.eq	78f
	mov	w8, #24
	ldr	x25, [sp, #96]
	madd	x8, x19, x8, x25
	ldp	x24, x22, [x8]
	cbz	x22, 26f
	tbnz	x22, #63, 65f
	mov	x0, x22
	mov	w1, #1
	vj_call	rattle_alloc
	tbz	w0, #0, 65f
	mov	x23, x1
	sub	x9, x1, x24
	cmp	x9, x22
	b.hs	27f
25:
	cmp	x22, #8
	mov	x8, xzr
	b.lo	32f
	cmp	x9, #32
	b.lo	32f
	cmp	x22, #32
	b.hs	28f
	mov	x8, xzr
	b	30f
26:
	sub	x23, x29, #24
	sub	x9, x23, x24
	cmp	x9, x22
	b.lo	25b
27:
	mov	x0, x23
	mov	x1, x24
	mov	x2, x22
	vj_c_call	memmove
	b	34f
28:
	and	x9, x22, #0x18
	and	x8, x22, #0xffffffffffffffe0
	add	x10, x24, #16
	add	x11, x23, #16
	and	x12, x22, #0xffffffffffffffe0
29:
	ldp	q0, q1, [x10, #-16]
	subs	x12, x12, #32
	add	x10, x10, #32
	stp	q0, q1, [x11, #-16]
	add	x11, x11, #32
	b.ne	29b
	cmp	x22, x8
	b.eq	34f
	cbz	x9, 32f
30:
	mov	x11, x8
	and	x8, x22, #0xfffffffffffffff8
	sub	x9, x11, x8
	add	x10, x24, x11
	add	x11, x23, x11
31:
	ldr	d0, [x10], #8
	adds	x9, x9, #8
	str	d0, [x11], #8
	b.ne	31b
	cmp	x22, x8
	b.eq	34f
32:
	sub	x9, x22, x8
	add	x10, x24, x8
	add	x8, x23, x8
33:
	ldrb	w11, [x10], #1
	subs	x9, x9, #1
	strb	w11, [x8], #1
	b.ne	33b
34:
	movi	v0.2d, #0000000000000000
	add	x8, sp, #184
	add	x0, sp, #544
	mov	x1, x23
	mov	x2, x22
	str	xzr, [sp, #464]
	stur	q0, [x8, #248]
	str	q0, [x21, #16]
	stur	q0, [x8, #120]
	stur	q0, [x8, #136]
	stur	q0, [x8, #152]
	stur	q0, [x8, #168]
	stur	q0, [x8, #184]
	stur	q0, [x8, #200]
	stur	q0, [x8, #216]
	stur	q0, [x8, #232]
	stp	q0, q0, [x21, #112]
	bl	b2sum..disk..text_of_1_a64
	ldrb	w8, [sp, #544]
	str	w27, [sp, #52]
	cbz	w8, 36f
	movi	v0.2d, #0000000000000000
	mov	w26, wzr
	add	x8, sp, #432
	mov	w21, wzr
	mov	x24, xzr
	mov	x28, xzr
	mov	x25, xzr
35:
	mov	w27, #38
	mov	w20, #1
	stp	q0, q0, [x8, #272]
	stp	q0, q0, [x8, #304]
	stp	q0, q0, [x8, #336]
	b	54f
36:
	ldr	x20, [sp, #552]
	ldr	x26, [sp, #560]
	ldr	x24, [sp, #568]
	cbz	x22, 38f
	mov	x0, x22
	mov	w1, #1
	vj_call	rattle_alloc
	tbz	w0, #0, 40f
	mov	x25, x1
	sub	x9, x1, x23
	cmp	x9, x22
	b.lo	39f
37:
	mov	x0, x25
	mov	x1, x23
	mov	x2, x22
	vj_c_call	memmove
	b	48f
38:
	sub	x25, x29, #24
	sub	x9, x25, x23
	cmp	x9, x22
	b.hs	37b
39:
	cmp	x22, #8
	mov	x8, xzr
	b.lo	46f
	cmp	x9, #32
	b.lo	46f
	cmp	x22, #32
	b.hs	42f
	mov	x8, xzr
	b	44f
40:
	cbz	x24, 41f
	mov	x0, x20
	vj_call	rattle_dealloc
41:
	mov	w26, wzr
	mov	w21, wzr
	mov	x24, xzr
	mov	x28, xzr
	mov	x25, xzr
	movi	v0.2d, #0000000000000000
	add	x8, sp, #432
	b	35b
42:
	and	x9, x22, #0x18
	and	x8, x22, #0xffffffffffffffe0
	add	x10, x23, #16
	add	x11, x25, #16
	and	x12, x22, #0xffffffffffffffe0
43:
	ldp	q0, q1, [x10, #-16]
	subs	x12, x12, #32
	add	x10, x10, #32
	stp	q0, q1, [x11, #-16]
	add	x11, x11, #32
	b.ne	43b
	cmp	x22, x8
	b.eq	48f
	cbz	x9, 46f
44:
	mov	x11, x8
	and	x8, x22, #0xfffffffffffffff8
	sub	x9, x11, x8
	add	x10, x23, x11
	add	x11, x25, x11
45:
	ldr	d0, [x10], #8
	adds	x9, x9, #8
	str	d0, [x11], #8
	b.ne	45b
	cmp	x22, x8
	b.eq	48f
46:
	sub	x9, x22, x8
	add	x10, x23, x8
	add	x8, x25, x8
47:
	ldrb	w11, [x10], #1
	subs	x9, x9, #1
	strb	w11, [x8], #1
	b.ne	47b
48:
	movi	v0.2d, #0000000000000000
	vj_page	x1, .L1_a64_static.243
	vj_address	x1, x1, .L1_a64_static.243
	sub	x0, x29, #256
	mov	x2, x20
	mov	x3, x26
	str	x20, [sp]
	stp	q0, q0, [x21, #144]
	stp	q0, q0, [x21, #176]
	stp	q0, q0, [x21, #208]
	stp	q0, q0, [x21, #240]
	bl	b2sum..disk..marked_1_a64
	ldurb	w8, [x29, #-256]
	stp	x25, x24, [sp, #16]
	cbz	w8, 49f
	movi	v0.2d, #0000000000000000
	mov	w26, wzr
	add	x9, sp, #432
	mov	w21, wzr
	mov	x24, xzr
	mov	x28, xzr
	mov	x25, xzr
	mov	w27, #38
	mov	w20, #1
	str	xzr, [sp, #528]
	stp	q0, q0, [x9, #64]
	str	q0, [x9, #48]
	b	51f
49:
	ldp	x26, x2, [x29, #-248]
	sub	x0, x29, #224
	ldur	x20, [x29, #-232]
	mov	x1, x26
	bl	std..fs..File..open..40609fae31b31c25_1_a64
	cbz	x20, 50f
	mov	x0, x26
	vj_call	rattle_dealloc
50:
	sub	x9, x29, #224
	ldp	x24, x28, [x29, #-208]
	ldur	q0, [x9, #40]
	ldur	q1, [x9, #56]
	add	x10, sp, #432
	ldurb	w8, [x29, #-224]
	ldur	w11, [x29, #-220]
	ldurb	w20, [x29, #-216]
	stp	q0, q1, [x21, #48]
	ldurb	w27, [x29, #-215]
	ldurh	w26, [x29, #-214]
	ldur	q0, [x9, #72]
	ldur	w21, [x29, #-212]
	ldur	x9, [x9, #88]
	ldur	x25, [x29, #-192]
	str	q0, [x10, #80]
	str	x9, [sp, #528]
	cbz	w8, 56f
	add	x9, sp, #432
51:
	ldp	q0, q1, [x9, #48]
	ldr	q2, [x9, #80]
	ldr	x8, [sp, #528]
	str	q2, [x9, #304]
	stp	q0, q1, [x9, #272]
	stur	x8, [x29, #-80]
	cbz	x22, 52f
	ldr	x0, [sp, #16]
	vj_call	rattle_dealloc
52:
	ldr	x8, [sp, #24]
	cbz	x8, 53f
	ldr	x0, [sp]
	vj_call	rattle_dealloc
53:
	add	x8, sp, #432
54:
	ldp	q0, q1, [x8, #272]
	add	x9, sp, #216
	add	x1, sp, #216
	mov	x3, x23
	mov	x4, x22
	strb	w20, [sp, #216]
	stp	q0, q1, [x9, #32]
	ldr	q0, [x8, #304]
	ldur	x8, [x29, #-80]
	strb	w27, [sp, #217]
	stur	x8, [x9, #80]
	ldp	x0, x8, [sp, #32]
	strh	w26, [sp, #218]
	str	w21, [sp, #220]
	add	x2, x8, #224
	stp	x24, x28, [sp, #224]
	str	x25, [sp, #240]
	stur	q0, [x9, #64]
	bl	b2sum_commands..messages..warn_of_file..fab5d8e6f6068f4d_1_a64
	ldr	w27, [sp, #52]
	tst	w0, #0xff
	mov	w20, wzr
	add	x21, sp, #432
	b.ne	99f
	cbz	x22, 23b
55:
	mov	x0, x23
	vj_call	rattle_dealloc
	b	23b
56:
	ldr	x8, [sp, #24]
	cbz	x8, 57f
	ldr	x0, [sp]
	mov	w20, w11
	vj_call	rattle_dealloc
	mov	w11, w20
57:
	movi	v0.2d, #0000000000000000
	ldr	x8, [sp, #16]
	add	x0, sp, #432
	add	x2, sp, #304
	mov	x3, x23
	mov	x4, x22
	stp	x8, x22, [sp, #312]
	add	x8, sp, #304
	str	wzr, [sp, #304]
	stp	q0, q0, [x8, #32]
	stp	q0, q0, [x8, #64]
	stp	q0, q0, [x8, #96]
	ldp	x1, x8, [sp, #32]
	str	w11, [sp, #308]
	str	x22, [sp, #328]
	add	x5, x8, #224
	bl	b2sum_commands..sealed_checks..read_list_from..fab5d8e6f6068f4d_1_a64
	ldrb	w8, [sp, #304]
	ldr	x24, [sp, #312]
	ldr	x20, [sp, #328]
	ldr	w27, [sp, #52]
	cbnz	w8, 58f
	ldr	w0, [sp, #308]
	vj_call	b2sum_close
58:
	cbz	x20, 59f
	mov	x0, x24
	vj_call	rattle_dealloc
59:
	ldrb	w8, [sp, #432]
	cbnz	w8, 97f
	ldrb	w8, [sp, #440]
	cmp	w8, #1
	cset	w20, eq
	b.ne	64f
	ldp	x24, x25, [sp, #448]
	ldr	x21, [sp, #464]
	mov	x3, x24
60:
	cbz	x25, 63f
	mov	x4, xzr
61:
	ldrb	w8, [x3, x4]
	cbz	w8, 62f
	add	x4, x4, #1
	cmp	x25, x4
	b.ne	61b
	b	63f
62:
	add	x8, x3, x4
	mvn	x9, x4
	add	x0, sp, #96
	mov	x1, x23
	mov	x2, x22
	add	x26, x8, #1
	add	x25, x9, x25
	bl	b2sum_commands..folders..Found..add_entry_1_a64
	and	w8, w0, #0xff
	mov	x3, x26
	tbz	w8, #0, 60b
	b	98f
63:
	add	x0, sp, #96
	mov	x1, x23
	mov	x2, x22
	mov	x4, x25
	bl	b2sum_commands..folders..Found..add_entry_1_a64
	and	w8, w0, #0xff
	tbnz	w8, #0, 98f
	cbz	x21, 64f
	mov	x0, x24
	vj_call	rattle_dealloc
64:
	add	x21, sp, #432
	cbnz	x22, 55b
	b	23b
65:
	ldr	x19, [sp, #112]
	cbz	x20, 68f
	add	x21, x25, #16
	b	67f
66:
	subs	x20, x20, #1
	add	x21, x21, #24
	b.eq	68f
67:
	ldr	x8, [x21]
	cbz	x8, 66b
	ldur	x0, [x21, #-16]
	vj_call	rattle_dealloc
	b	66b
68:
	cbz	x19, 69f
	mov	x0, x25
	vj_call	rattle_dealloc
69:
	ldp	x20, x19, [sp, #120]
	ldr	x21, [sp, #136]
	cbz	x19, 72f
	add	x22, x20, #16
	b	71f
70:
	subs	x19, x19, #1
	add	x22, x22, #24
	b.eq	72f
71:
	ldr	x8, [x22]
	cbz	x8, 70b
	ldur	x0, [x22, #-16]
	vj_call	rattle_dealloc
	b	70b
72:
	cbz	x21, 73f
	mov	x0, x20
	vj_call	rattle_dealloc
73:
	ldp	x20, x19, [sp, #144]
	ldr	x21, [sp, #160]
	cbz	x19, 76f
	add	x22, x20, #16
	b	75f
74:
	subs	x19, x19, #1
	add	x22, x22, #24
	b.eq	76f
75:
	ldr	x8, [x22]
	cbz	x8, 74b
	ldur	x0, [x22, #-16]
	vj_call	rattle_dealloc
	b	74b
76:
	cbz	x21, 77f
	mov	x0, x20
	vj_call	rattle_dealloc
77:
	movi	v0.2d, #0000000000000000
	ldr	x9, [sp, #8]
	mov	w8, #1
	strh	w8, [x9]
	b	114f
78:
	ldp	x20, x21, [sp, #120]
	ldp	x19, x22, [sp, #136]
	ldp	x23, x24, [sp, #152]
	mov	x0, x20
	mov	x1, x21
	bl	std_alloc..vec..Vec..sort_unstable..6c2966b20b9e9cac_1_a64
	mov	x0, x22
	mov	x1, x23
	bl	std_alloc..vec..Vec..sort_unstable..6c2966b20b9e9cac_1_a64
	ldr	x10, [sp, #8]
	ldr	x8, [sp, #112]
	ldr	q0, [sp, #96]
	ldr	w9, [sp, #56]
	stp	x8, x20, [x10, #24]
	and	w8, w27, #0x1
	strb	w8, [x10, #80]
	ldur	w8, [sp, #59]
	strh	wzr, [x10]
	stur	q0, [x10, #8]
	stp	x21, x19, [x10, #40]
	stp	x22, x23, [x10, #56]
	str	x24, [x10, #72]
	stur	w9, [x10, #81]
	str	w8, [x10, #84]
	b	115f
79:
	ldp	x20, x19, [sp, #96]
	ldr	x21, [sp, #112]
	cbz	x19, 82f
	add	x22, x20, #16
	b	81f
80:
	subs	x19, x19, #1
	add	x22, x22, #24
	b.eq	82f
81:
	ldr	x8, [x22]
	cbz	x8, 80b
	ldur	x0, [x22, #-16]
	vj_call	rattle_dealloc
	b	80b
82:
	cbz	x21, 83f
	mov	x0, x20
	vj_call	rattle_dealloc
83:
	ldp	x20, x19, [sp, #120]
	ldr	x21, [sp, #136]
	cbz	x19, 86f
	add	x22, x20, #16
	b	85f
84:
	subs	x19, x19, #1
	add	x22, x22, #24
	b.eq	86f
85:
	ldr	x8, [x22]
	cbz	x8, 84b
	ldur	x0, [x22, #-16]
	vj_call	rattle_dealloc
	b	84b
86:
	cbz	x21, 87f
	mov	x0, x20
	vj_call	rattle_dealloc
87:
	ldp	x20, x19, [sp, #144]
	ldr	x21, [sp, #160]
	cbz	x19, 90f
	add	x22, x20, #16
	b	89f
88:
	subs	x19, x19, #1
	add	x22, x22, #24
	b.eq	90f
89:
	ldr	x8, [x22]
	cbz	x8, 88b
	ldur	x0, [x22, #-16]
	vj_call	rattle_dealloc
	b	88b
90:
	cbz	x21, 91f
	mov	x0, x20
	vj_call	rattle_dealloc
91:
	add	x9, sp, #184
	movi	v1.2d, #0000000000000000
	ldr	x10, [sp, #8]
	ldur	q0, [x9, #6]
	ldur	x9, [x9, #22]
	mov	w8, #1
	strh	w8, [x10]
	ldr	w8, [sp, #176]
	str	x9, [x10, #24]
	ldur	w9, [sp, #179]
	stur	q0, [x10, #8]
	stp	q1, q1, [x10, #32]
	str	q1, [x10, #64]
	strb	wzr, [x10, #80]
	stur	w8, [x10, #81]
	str	w9, [x10, #84]
	b	115f
92:
	cbz	x25, 93f
	mov	x0, x26
	vj_call	rattle_dealloc
93:
	ldp	x20, x19, [sp, #304]
	ldr	x21, [sp, #320]
	cbz	x19, 96f
	add	x22, x20, #16
	b	95f
94:
	subs	x19, x19, #1
	add	x22, x22, #24
	b.eq	96f
95:
	ldr	x8, [x22]
	cbz	x8, 94b
	ldur	x0, [x22, #-16]
	vj_call	rattle_dealloc
	b	94b
96:
	ldr	x22, [sp, #8]
	cbz	x21, 20b
	mov	x0, x20
	b	19b
97:
	ldrb	w19, [sp, #433]
	b	100f
98:
	cbz	x21, 99f
	mov	x0, x24
	vj_call	rattle_dealloc
99:
	mov	w19, wzr
100:
	cbz	x22, 101f
	mov	x0, x23
	vj_call	rattle_dealloc
101:
	ldp	x20, x21, [sp, #96]
	ldr	x22, [sp, #112]
	cbz	x21, 104f
	add	x23, x20, #16
	b	103f
102:
	subs	x21, x21, #1
	add	x23, x23, #24
	b.eq	104f
103:
	ldr	x8, [x23]
	cbz	x8, 102b
	ldur	x0, [x23, #-16]
	vj_call	rattle_dealloc
	b	102b
104:
	cbz	x22, 105f
	mov	x0, x20
	vj_call	rattle_dealloc
105:
	ldp	x20, x21, [sp, #120]
	ldr	x22, [sp, #136]
	cbz	x21, 108f
	add	x23, x20, #16
	b	107f
106:
	subs	x21, x21, #1
	add	x23, x23, #24
	b.eq	108f
107:
	ldr	x8, [x23]
	cbz	x8, 106b
	ldur	x0, [x23, #-16]
	vj_call	rattle_dealloc
	b	106b
108:
	cbz	x22, 109f
	mov	x0, x20
	vj_call	rattle_dealloc
109:
	ldp	x20, x21, [sp, #144]
	ldr	x22, [sp, #160]
	cbz	x21, 112f
	add	x23, x20, #16
	b	111f
110:
	subs	x21, x21, #1
	add	x23, x23, #24
	b.eq	112f
111:
	ldr	x8, [x23]
	cbz	x8, 110b
	ldur	x0, [x23, #-16]
	vj_call	rattle_dealloc
	b	110b
112:
	cbz	x22, 113f
	mov	x0, x20
	vj_call	rattle_dealloc
113:
	ldr	x9, [sp, #8]
	mov	w8, #1
	movi	v0.2d, #0000000000000000
	strb	w19, [x9, #1]
	strb	w8, [x9]
114:
	stur	q0, [x9, #8]
	stur	q0, [x9, #24]
	stur	q0, [x9, #40]
	stur	q0, [x9, #56]
	stur	q0, [x9, #72]
115:
	add	sp, sp, #832
	ldp	x20, x19, [sp, #80]
	ldp	x22, x21, [sp, #64]
	ldp	x24, x23, [sp, #48]
	ldp	x26, x25, [sp, #32]
	ldp	x28, x27, [sp, #16]
	ldp	x29, x30, [sp], #96
	ret
	vj_end	b2sum_commands..folders..walk..82a450bcca081e63_1_a64

	vj_function	b2sum_commands..folders..Found..add_entry_1_a64
	cbz	x4, 2f
	sub	sp, sp, #112
	stp	x24, x23, [sp, #64]
	mov	x23, x1
	stp	x22, x21, [sp, #80]
	mov	x21, x4
	mov	x22, x2
	stp	x20, x19, [sp, #96]
	mov	x20, x3
	mov	x19, x0
	stp	x29, x30, [sp, #32]
	add	x29, sp, #32
	str	x25, [sp, #48]
	stp	xzr, xzr, [sp, #8]
	str	xzr, [sp, #24]
	cbz	x2, 3f
	tbnz	x22, #63, 1f
	mov	x0, x22
	mov	w1, #1
	vj_call	rattle_alloc
	tbnz	w0, #0, 4f
1:
	mov	w0, #1
	b	25f
2:
	mov	w0, wzr
	ret
3:
	add	x1, x29, #31
4:
	sub	x9, x1, x23
	cmp	x9, x22
	b.hs	5f
	cmp	x22, #8
	mov	x8, xzr
	b.lo	10f
	cmp	x9, #32
	b.lo	10f
	cmp	x22, #32
	b.hs	6f
	mov	x8, xzr
	b	8f
5:
	mov	x0, x1
	mov	x24, x1
	mov	x1, x23
	mov	x2, x22
	vj_c_call	memmove
	add	x8, sp, #8
	stp	x24, x22, [sp, #8]
	add	x25, x8, #8
	str	x22, [sp, #24]
	cbnz	x22, 13f
	b	27f
6:
	and	x9, x22, #0x18
	and	x8, x22, #0xffffffffffffffe0
	add	x10, x23, #16
	add	x11, x1, #16
	and	x12, x22, #0xffffffffffffffe0
7:
	ldp	q0, q1, [x10, #-16]
	subs	x12, x12, #32
	add	x10, x10, #32
	stp	q0, q1, [x11, #-16]
	add	x11, x11, #32
	b.ne	7b
	cmp	x22, x8
	b.eq	12f
	cbz	x9, 10f
8:
	mov	x11, x8
	and	x8, x22, #0xfffffffffffffff8
	sub	x9, x11, x8
	add	x10, x23, x11
	add	x11, x1, x11
9:
	ldr	d0, [x10], #8
	adds	x9, x9, #8
	str	d0, [x11], #8
	b.ne	9b
	cmp	x22, x8
	b.eq	12f
10:
	sub	x9, x22, x8
	add	x10, x23, x8
	add	x8, x1, x8
11:
	ldrb	w11, [x10], #1
	subs	x9, x9, #1
	strb	w11, [x8], #1
	b.ne	11b
12:
	add	x8, sp, #8
	stp	x1, x22, [sp, #8]
	add	x25, x8, #8
	str	x22, [sp, #24]
13:
	add	x8, x23, x22
	mov	x23, x22
	ldurb	w8, [x8, #-1]
	cmp	w8, #47
	b.ne	27f
	sub	x2, x21, #1
	sub	x8, x23, x22
	cmp	x2, x8
	b.hi	28f
14:
	ldr	x8, [sp, #8]
	add	x9, x20, #1
	add	x24, x22, x2
	stp	xzr, xzr, [x25]
	add	x0, x8, x22
	sub	x9, x0, x9
	cmp	x9, x2
	b.hs	18f
	cmp	x21, #9
	b.lo	15f
	sub	x9, x20, x22
	sub	x9, x9, x8
	cmn	x9, #33
	b.ls	26f
15:
	mov	x9, xzr
16:
	mvn	x10, x9
	add	x11, x9, x20
	add	x12, x9, x22
	add	x9, x10, x21
	add	x10, x11, #1
	add	x8, x8, x12
17:
	ldrb	w11, [x10], #1
	subs	x9, x9, #1
	strb	w11, [x8], #1
	b.ne	17b
	b	19f
18:
	add	x1, x20, #1
	vj_c_call	memmove
19:
	ldrb	w8, [x20]
	ldr	x20, [sp, #8]
	cmp	w8, #100
	b.eq	21f
	cmp	w8, #102
	b.ne	23f
	ldp	x8, x9, [x19, #32]
	cmp	x9, x8
	b.eq	34f
20:
	mov	w9, #24
	ldr	x10, [x19, #24]
	mov	w0, wzr
	madd	x9, x8, x9, x10
	add	x8, x8, #1
	stp	x20, x24, [x9]
	str	x23, [x9, #16]
	str	x8, [x19, #32]
	b	25f
21:
	ldp	x8, x9, [x19, #8]
	cmp	x9, x8
	b.eq	35f
22:
	mov	w9, #24
	ldr	x10, [x19]
	mov	w0, wzr
	madd	x9, x8, x9, x10
	add	x8, x8, #1
	stp	x20, x24, [x9]
	str	x23, [x9, #16]
	str	x8, [x19, #8]
	b	25f
23:
	ldp	x8, x9, [x19, #56]
	cmp	x9, x8
	b.eq	36f
24:
	mov	w9, #24
	ldr	x10, [x19, #48]
	mov	w0, wzr
	madd	x9, x8, x9, x10
	add	x8, x8, #1
	stp	x20, x24, [x9]
	str	x23, [x9, #16]
	str	x8, [x19, #56]
25:
	ldp	x20, x19, [sp, #96]
	ldr	x25, [sp, #48]
	ldp	x22, x21, [sp, #80]
	ldp	x24, x23, [sp, #64]
	ldp	x29, x30, [sp, #32]
	add	sp, sp, #112
	ret
26:
	cmp	x21, #33
	b.hs	30f
	mov	x9, xzr
	b	32f
27:
	add	x0, sp, #8
	mov	w1, #1
	bl	std_alloc..vec..Vec..grow_amortized..01eec35b572d02af_1_a64
	cbz	w0, 29f
	ldp	x9, x8, [sp, #8]
	mov	w10, #47
	ldr	x23, [sp, #24]
	add	x22, x8, #1
	strb	w10, [x9, x8]
	str	x22, [sp, #16]
	sub	x2, x21, #1
	sub	x8, x23, x22
	cmp	x2, x8
	b.ls	14b
28:
	add	x0, sp, #8
	sub	x1, x21, #1
	bl	std_alloc..vec..Vec..grow_amortized..01eec35b572d02af_1_a64
	cbz	w0, 29f
	ldp	x22, x23, [sp, #16]
	sub	x2, x21, #1
	b	14b
29:
	ldr	x8, [sp, #24]
	cbz	x8, 1b
	ldr	x0, [sp, #8]
	b	38f
30:
	add	x12, x22, x8
	and	x10, x2, #0x18
	and	x9, x2, #0xffffffffffffffe0
	add	x11, x20, #17
	add	x12, x12, #16
	and	x13, x2, #0xffffffffffffffe0
31:
	ldp	q0, q1, [x11, #-16]
	subs	x13, x13, #32
	add	x11, x11, #32
	stp	q0, q1, [x12, #-16]
	add	x12, x12, #32
	b.ne	31b
	cmp	x2, x9
	b.eq	19b
	cbz	x10, 16b
32:
	mov	x10, x9
	and	x9, x2, #0xfffffffffffffff8
	add	x11, x10, x20
	add	x12, x22, x10
	sub	x10, x10, x9
	add	x11, x11, #1
	add	x12, x8, x12
33:
	ldr	d0, [x11], #8
	adds	x10, x10, #8
	str	d0, [x12], #8
	b.ne	33b
	cmp	x2, x9
	b.eq	19b
	b	16b
34:
	add	x0, x19, #24
	mov	w1, #1
	bl	std_alloc..vec..Vec..grow_amortized..bb23d2d2a8e2d2e5_1_a64
	cbz	w0, 37f
	ldr	x8, [x19, #32]
	b	20b
35:
	mov	x0, x19
	mov	w1, #1
	bl	std_alloc..vec..Vec..grow_amortized..bb23d2d2a8e2d2e5_1_a64
	cbz	w0, 37f
	ldr	x8, [x19, #8]
	b	22b
36:
	add	x0, x19, #48
	mov	w1, #1
	bl	std_alloc..vec..Vec..grow_amortized..bb23d2d2a8e2d2e5_1_a64
	cbz	w0, 37f
	ldr	x8, [x19, #56]
	b	24b
37:
	cbz	x23, 1b
	mov	x0, x20
38:
	vj_call	rattle_dealloc
	b	1b
	vj_end	b2sum_commands..folders..Found..add_entry_1_a64

	vj_function	std_alloc..vec..Vec..sort_unstable..6c2966b20b9e9cac_1_a64
	stp	x29, x30, [sp, #-64]!
	stp	x20, x19, [sp, #48]
	mov	x19, x1
	cmp	x1, #20
	mov	x20, x0
	str	x23, [sp, #16]
	mov	x29, sp
	stp	x22, x21, [sp, #32]
	b.hi	1f
	mov	x0, x20
	mov	x1, x19
	ldr	x23, [sp, #16]
	ldp	x20, x19, [sp, #48]
	ldp	x22, x21, [sp, #32]
	ldp	x29, x30, [sp], #64
	b	core..slice..sort..small..insertion_sort..e08de7559db7a9ba_1_a64
1:
	ldp	x0, x1, [x20, #24]
	ldp	x2, x3, [x20]
	bl	std_alloc..compared..VecOrd..cmp..330a034538f27f99_1_a64
	add	x8, x20, #32
	mov	w22, #2
	ands	w21, w0, #0xff
	mov	x23, x8
	b.eq	4f
2:
	ldp	x2, x3, [x8, #-8]
	ldr	x0, [x8, #16]
	ldr	x1, [x23, #24]!
	bl	std_alloc..compared..VecOrd..cmp..330a034538f27f99_1_a64
	tst	w0, #0xff
	b.eq	5f
	add	x22, x22, #1
	mov	x8, x23
	cmp	x19, x22
	b.ne	2b
	b	7f
3:
	add	x22, x22, #1
	mov	x8, x23
	cmp	x19, x22
	b.eq	8f
4:
	ldp	x2, x3, [x8, #-8]
	ldr	x0, [x8, #16]
	ldr	x1, [x23, #24]!
	bl	std_alloc..compared..VecOrd..cmp..330a034538f27f99_1_a64
	tst	w0, #0xff
	b.eq	3b
5:
	cmp	x22, x19
	b.hs	6f
	clz	x8, x19
	mov	x0, x20
	mov	x2, x19
	lsl	w8, w8, #1
	ldp	x20, x19, [sp, #48]
	ldp	x22, x21, [sp, #32]
	ldr	x23, [sp, #16]
	eor	w3, w8, #0x7e
	mov	x1, xzr
	ldp	x29, x30, [sp], #64
	b	core..slice..sort..unstable..quicksort..e08de7559db7a9ba_1_a64
6:
	cbz	w21, 8f
7:
	ldp	x20, x19, [sp, #48]
	ldr	x23, [sp, #16]
	ldp	x22, x21, [sp, #32]
	ldp	x29, x30, [sp], #64
	ret
8:
	lsr	x2, x19, #1
	mov	w9, #24
	mov	x0, x20
	ldp	x22, x21, [sp, #32]
	ldr	x23, [sp, #16]
	sub	x8, x19, x2
	madd	x1, x8, x9, x20
	ldp	x20, x19, [sp, #48]
	ldp	x29, x30, [sp], #64
	b	core..slice..edits..mirror..2262cf5b90b10fda_1_a64
	vj_end	std_alloc..vec..Vec..sort_unstable..6c2966b20b9e9cac_1_a64

	vj_function	core..slice..sort..small..insertion_sort..e08de7559db7a9ba_1_a64
	cmp	x1, #2
	b.lo	16f
	stp	x29, x30, [sp, #-80]!
	stp	x24, x23, [sp, #32]
	mov	w23, #1
	mov	x29, sp
	stp	x20, x19, [sp, #64]
	mov	x19, x1
	mov	x20, x0
	str	x25, [sp, #16]
	stp	x22, x21, [sp, #48]
	b	4f
1:
	add	x9, x9, x9, lsl #1
	lsl	x9, x9, #3
2:
	add	x9, x20, x9
	stp	x22, x21, [x9]
	str	x8, [x9, #16]
3:
	add	x23, x23, #1
	cmp	x23, x19
	b.eq	15f
4:
	mov	w8, #24
	madd	x24, x23, x8, x20
	ldp	x22, x21, [x24]
	mov	x25, x24
	ldr	x2, [x25, #-24]!
	ldur	x3, [x24, #-16]
	mov	x0, x22
	mov	x1, x21
	bl	std_alloc..compared..VecOrd..cmp..330a034538f27f99_1_a64
	tst	w0, #0xff
	b.ne	3b
	ldr	q0, [x25]
	ldr	x10, [x25, #16]
	sub	x9, x23, #1
	ldr	x8, [x24, #16]
	str	q0, [x24]
	str	x10, [x24, #16]
	cbnz	x9, 7f
	b	2b
5:
	cmp	x21, x12
	b.hs	1b
6:
	mov	w12, #24
	ldr	q0, [x11]
	ldr	x11, [x11, #16]
	madd	x9, x9, x12, x20
	str	q0, [x9]
	str	x11, [x9, #16]
	mov	x9, x10
	cbz	x10, 1b
7:
	sub	x10, x9, #1
	mov	w11, #24
	madd	x11, x10, x11, x20
	ldp	x13, x12, [x11]
	cmp	x12, x21
	csel	x14, x12, x21, lo
	cmp	x14, #64
	b.hs	8f
	mov	x15, xzr
	b	10f
8:
	mov	x15, xzr
	mov	x16, x14
9:
	add	x17, x22, x15
	add	x0, x13, x15
	ldp	q0, q3, [x0]
	ldp	q1, q2, [x17]
	ldp	q4, q5, [x0, #32]
	cmeq	v0.16b, v1.16b, v0.16b
	cmeq	v1.16b, v2.16b, v3.16b
	ldp	q2, q3, [x17, #32]
	mvn	v0.16b, v0.16b
	mvn	v1.16b, v1.16b
	cmeq	v2.16b, v2.16b, v4.16b
	cmeq	v3.16b, v3.16b, v5.16b
	orn	v0.16b, v0.16b, v2.16b
	orn	v1.16b, v1.16b, v3.16b
	orr	v0.16b, v1.16b, v0.16b
	umaxv	b0, v0.16b
	fmov	w17, s0
	tbnz	w17, #0, 10f
	sub	x16, x16, #64
	add	x15, x15, #64
	cmp	x16, #63
	b.hi	9b
	and	x15, x14, #0xffffffffffffffc0
10:
	sub	x16, x14, x15
	cmp	x16, #8
	b.lo	12f
11:
	ldr	x17, [x22, x15]
	ldr	x0, [x13, x15]
	cmp	x17, x0
	b.ne	12f
	sub	x16, x16, #8
	add	x15, x15, #8
	cmp	x16, #7
	b.hi	11b
12:
	subs	x14, x14, x15
	b.ls	5b
	add	x13, x13, x15
	add	x15, x22, x15
13:
	ldrb	w16, [x15], #1
	ldrb	w17, [x13], #1
	cmp	w16, w17
	b.ne	14f
	subs	x14, x14, #1
	b.ne	13b
	b	5b
14:
	b.lo	6b
	b	1b
15:
	ldp	x20, x19, [sp, #64]
	ldr	x25, [sp, #16]
	ldp	x22, x21, [sp, #48]
	ldp	x24, x23, [sp, #32]
	ldp	x29, x30, [sp], #80
16:
	ret
	vj_end	core..slice..sort..small..insertion_sort..e08de7559db7a9ba_1_a64

	vj_function	std_alloc..compared..VecOrd..cmp..330a034538f27f99_1_a64
	cmp	x3, x1
	csel	x8, x3, x1, lo
	cmp	x8, #64
	b.hs	1f
	mov	x9, xzr
	b	3f
1:
	mov	x9, xzr
	mov	x10, x8
2:
	add	x11, x0, x9
	add	x12, x2, x9
	ldp	q0, q3, [x12]
	ldp	q1, q2, [x11]
	ldp	q4, q5, [x12, #32]
	cmeq	v0.16b, v1.16b, v0.16b
	cmeq	v1.16b, v2.16b, v3.16b
	ldp	q2, q3, [x11, #32]
	mvn	v0.16b, v0.16b
	mvn	v1.16b, v1.16b
	cmeq	v2.16b, v2.16b, v4.16b
	cmeq	v3.16b, v3.16b, v5.16b
	orn	v0.16b, v0.16b, v2.16b
	orn	v1.16b, v1.16b, v3.16b
	orr	v0.16b, v1.16b, v0.16b
	umaxv	b0, v0.16b
	fmov	w11, s0
	tbnz	w11, #0, 3f
	sub	x10, x10, #64
	add	x9, x9, #64
	cmp	x10, #63
	b.hi	2b
	and	x9, x8, #0xffffffffffffffc0
3:
	sub	x10, x8, x9
	cmp	x10, #8
	b.lo	5f
4:
	ldr	x11, [x0, x9]
	ldr	x12, [x2, x9]
	cmp	x11, x12
	b.ne	5f
	sub	x10, x10, #8
	add	x9, x9, #8
	cmp	x10, #7
	b.hi	4b
5:
	subs	x8, x8, x9
	b.ls	7f
	add	x10, x2, x9
	add	x9, x0, x9
6:
	ldrb	w11, [x9], #1
	ldrb	w12, [x10], #1
	cmp	w11, w12
	b.ne	8f
	subs	x8, x8, #1
	b.ne	6b
7:
	cmp	x1, x3
	mov	w8, #2
	csel	w8, wzr, w8, lo
	csinc	w0, w8, wzr, ne
	ret
8:
	mov	w8, #2
	csel	w0, wzr, w8, lo
	ret
	vj_end	std_alloc..compared..VecOrd..cmp..330a034538f27f99_1_a64

	vj_function	core..slice..sort..unstable..quicksort..e08de7559db7a9ba_1_a64
	sub	sp, sp, #368
	stp	x20, x19, [sp, #352]
	sub	x19, x2, x1
	mov	x20, x1
	stp	x28, x27, [sp, #288]
	cmp	x19, #17
	mov	x27, x0
	stp	x29, x30, [sp, #272]
	add	x29, sp, #272
	stp	x26, x25, [sp, #304]
	stp	x24, x23, [sp, #320]
	stp	x22, x21, [sp, #336]
	str	w3, [sp, #44]
	str	x2, [sp, #24]
	b.lo	50f
	add	x8, x27, #48
	str	x27, [sp, #32]
	str	x8, [sp]
	b	3f
1:
	add	x9, x8, x8, lsl #1
	lsl	x9, x9, #3
	add	x10, x22, x9
	ldr	x11, [x10, #16]
	ldr	q0, [x10]
	str	x11, [x22, #16]
	str	q0, [x22]
2:
	ldr	w3, [sp, #44]
	add	x9, x22, x9
	add	x2, x8, x20
	mov	x0, x27
	mov	x1, x20
	stp	x24, x25, [x9]
	str	x23, [x9, #16]
	bl	core..slice..sort..unstable..quicksort..e08de7559db7a9ba_1_a64
	ldr	x8, [sp, #24]
	add	x20, x21, x20
	sub	x19, x8, x20
	cmp	x19, #16
	b.ls	50f
3:
	ldr	w8, [sp, #44]
	cbz	w8, 51f
	lsr	x4, x19, #3
	cmp	x19, #63
	sub	x8, x20, x4
	add	x24, x20, x4, lsl #2
	add	x25, x8, x4, lsl #3
	b.hi	17f
	mov	w22, #24
	madd	x8, x20, x22, x27
	madd	x9, x24, x22, x27
	ldp	x26, x21, [x8]
	ldp	x2, x28, [x9]
	mov	x0, x26
	mov	x1, x21
	mov	x3, x28
	str	x2, [sp, #16]
	bl	std_alloc..compared..VecOrd..cmp..330a034538f27f99_1_a64
	madd	x8, x25, x22, x27
	ands	w9, w0, #0xff
	mov	x0, x26
	mov	x1, x21
	str	w9, [sp, #8]
	mov	x27, x20
	cset	w20, eq
	ldp	x23, x22, [x8]
	mov	x2, x23
	mov	x3, x22
	bl	std_alloc..compared..VecOrd..cmp..330a034538f27f99_1_a64
	tst	w0, #0xff
	mov	x26, x27
	cset	w8, eq
	eor	w8, w20, w8
	mov	x20, x27
	tbnz	w8, #0, 4f
	ldr	w8, [sp, #8]
	ldr	x0, [sp, #16]
	mov	x1, x28
	mov	x2, x23
	mov	x3, x22
	cmp	w8, #0
	cset	w20, eq
	bl	std_alloc..compared..VecOrd..cmp..330a034538f27f99_1_a64
	tst	w0, #0xff
	cset	w8, eq
	eor	w8, w20, w8
	mov	x20, x27
	cmp	w8, #0
	csel	x26, x25, x24, ne
4:
	ldr	w8, [sp, #44]
	sub	w8, w8, #1
	str	w8, [sp, #44]
	cbz	x20, 18f
5:
	mov	w9, #24
	add	x8, x20, x20, lsl #1
	ldr	x27, [sp, #32]
	madd	x9, x26, x9, x27
	lsl	x28, x8, #3
	add	x22, x27, x28
	ldp	x0, x1, [x22, #-24]
	ldp	x2, x3, [x9]
	bl	std_alloc..compared..VecOrd..cmp..330a034538f27f99_1_a64
	tst	w0, #0xff
	b.eq	19f
	subs	x8, x26, x20
	b.eq	6f
	mov	w9, #24
	ldr	q1, [x22]
	ldr	x10, [x22, #16]
	madd	x8, x8, x9, x22
	ldr	q0, [x8]
	ldr	x9, [x8, #16]
	str	q0, [x22]
	str	x9, [x22, #16]
	str	q1, [x8]
	str	x10, [x8, #16]
6:
	ldp	x24, x25, [x22]
	mov	w21, #1
	ldr	x15, [x22, #16]
	b	9f
7:
	cmp	x25, x8
	b.lo	45f
8:
	add	x21, x21, #1
	cmp	x21, x19
	b.eq	44f
9:
	mov	w8, #24
	madd	x9, x21, x8, x22
	ldp	x9, x8, [x9]
	cmp	x8, x25
	csel	x10, x8, x25, lo
	cmp	x10, #64
	b.hs	10f
	mov	x11, xzr
	b	12f
10:
	mov	x11, xzr
	mov	x12, x10
11:
	add	x13, x24, x11
	add	x14, x9, x11
	ldp	q0, q3, [x14]
	ldp	q1, q2, [x13]
	ldp	q4, q5, [x14, #32]
	cmeq	v0.16b, v1.16b, v0.16b
	cmeq	v1.16b, v2.16b, v3.16b
	ldp	q2, q3, [x13, #32]
	mvn	v0.16b, v0.16b
	mvn	v1.16b, v1.16b
	cmeq	v2.16b, v2.16b, v4.16b
	cmeq	v3.16b, v3.16b, v5.16b
	orn	v0.16b, v0.16b, v2.16b
	orn	v1.16b, v1.16b, v3.16b
	orr	v0.16b, v1.16b, v0.16b
	umaxv	b0, v0.16b
	fmov	w13, s0
	tbnz	w13, #0, 12f
	sub	x12, x12, #64
	add	x11, x11, #64
	cmp	x12, #63
	b.hi	11b
	and	x11, x10, #0xffffffffffffffc0
12:
	sub	x12, x10, x11
	cmp	x12, #8
	b.lo	14f
13:
	ldr	x13, [x24, x11]
	ldr	x14, [x9, x11]
	cmp	x13, x14
	b.ne	14f
	sub	x12, x12, #8
	add	x11, x11, #8
	cmp	x12, #7
	b.hi	13b
14:
	subs	x10, x10, x11
	b.ls	7b
	add	x9, x9, x11
	add	x11, x24, x11
15:
	ldrb	w12, [x11], #1
	ldrb	w13, [x9], #1
	cmp	w12, w13
	b.ne	16f
	subs	x10, x10, #1
	b.ne	15b
	b	7b
16:
	b.hs	8b
	b	45f
17:
	mov	x0, x27
	mov	x1, x20
	mov	x2, x24
	mov	x3, x25
	bl	core..slice..sort..pivot..median_of_medians..e08de7559db7a9ba_1_a64
	mov	x26, x0
	ldr	w8, [sp, #44]
	sub	w8, w8, #1
	str	w8, [sp, #44]
	cbnz	x20, 5b
18:
	ldr	x27, [sp, #32]
	mov	x28, xzr
19:
	subs	x8, x26, x20
	add	x22, x27, x28
	b.eq	20f
	mov	w9, #24
	ldr	q1, [x22]
	ldr	x10, [x22, #16]
	madd	x8, x8, x9, x22
	ldr	q0, [x8]
	ldr	x9, [x8, #16]
	str	q0, [x22]
	str	x9, [x22, #16]
	str	q1, [x8]
	str	x10, [x8, #16]
20:
	ldp	x24, x25, [x22]
	mov	w21, #1
	ldr	x23, [x22, #16]
	b	23f
21:
	cmp	x8, x25
	b.hs	32f
22:
	add	x21, x21, #1
	cmp	x21, x19
	b.eq	31f
23:
	mov	w8, #24
	madd	x9, x21, x8, x22
	ldp	x9, x8, [x9]
	cmp	x25, x8
	csel	x10, x25, x8, lo
	cmp	x10, #64
	b.hs	24f
	mov	x11, xzr
	b	26f
24:
	mov	x11, xzr
	mov	x12, x10
25:
	add	x13, x9, x11
	add	x14, x24, x11
	ldp	q0, q3, [x14]
	ldp	q1, q2, [x13]
	ldp	q4, q5, [x14, #32]
	cmeq	v0.16b, v1.16b, v0.16b
	cmeq	v1.16b, v2.16b, v3.16b
	ldp	q2, q3, [x13, #32]
	mvn	v0.16b, v0.16b
	mvn	v1.16b, v1.16b
	cmeq	v2.16b, v2.16b, v4.16b
	cmeq	v3.16b, v3.16b, v5.16b
	orn	v0.16b, v0.16b, v2.16b
	orn	v1.16b, v1.16b, v3.16b
	orr	v0.16b, v1.16b, v0.16b
	umaxv	b0, v0.16b
	fmov	w13, s0
	tbnz	w13, #0, 26f
	sub	x12, x12, #64
	add	x11, x11, #64
	cmp	x12, #63
	b.hi	25b
	and	x11, x10, #0xffffffffffffffc0
26:
	sub	x12, x10, x11
	cmp	x12, #8
	b.lo	28f
27:
	ldr	x13, [x9, x11]
	ldr	x14, [x24, x11]
	cmp	x13, x14
	b.ne	28f
	sub	x12, x12, #8
	add	x11, x11, #8
	cmp	x12, #7
	b.hi	27b
28:
	subs	x10, x10, x11
	b.ls	21b
	add	x12, x24, x11
	add	x9, x9, x11
29:
	ldrb	w11, [x9], #1
	ldrb	w13, [x12], #1
	cmp	w11, w13
	b.ne	30f
	subs	x10, x10, #1
	b.ne	29b
	b	21b
30:
	b.lo	22b
	b	32f
31:
	mov	x21, x19
32:
	sub	x27, x19, #1
	cmp	x21, x27
	b.hs	34f
	add	x9, x21, #1
	mov	w8, #24
	madd	x8, x9, x8, x22
	cmp	x9, x27
	ldp	x26, x19, [x8]
	ldr	x28, [x8, #16]
	b.lo	37f
33:
	mov	x0, x26
	mov	x1, x19
	mov	x2, x24
	mov	x3, x25
	bl	std_alloc..compared..VecOrd..cmp..330a034538f27f99_1_a64
	mov	w8, #24
	tst	w0, #0xff
	madd	x9, x21, x8, x22
	cinc	x21, x21, eq
	madd	x8, x27, x8, x22
	ldr	q0, [x9]
	ldr	x10, [x9, #16]
	str	q0, [x8]
	str	x10, [x8, #16]
	stp	x26, x19, [x9]
	str	x28, [x9, #16]
34:
	ldr	x27, [sp, #32]
	subs	x8, x21, #1
	b.ne	1b
	mov	x9, xzr
	b	2b
35:
	cmp	x11, x25
36:
	mov	w12, #24
	cset	w11, lo
	ldr	x14, [x10, #16]
	madd	x13, x21, x12, x22
	ldr	q1, [x10]
	add	x21, x21, w11, uxtw
	cmp	x8, x27
	madd	x9, x9, x12, x22
	ldr	x12, [x13, #16]
	ldr	q0, [x13]
	str	x12, [x9, #16]
	str	q0, [x9]
	mov	x9, x8
	str	x14, [x13, #16]
	str	q1, [x13]
	b.eq	33b
37:
	add	x8, x9, #1
	mov	w10, #24
	madd	x10, x8, x10, x22
	ldp	x12, x11, [x10]
	cmp	x25, x11
	csel	x13, x25, x11, lo
	cmp	x13, #64
	b.hs	38f
	mov	x14, xzr
	b	40f
38:
	mov	x14, xzr
	mov	x15, x13
39:
	add	x16, x12, x14
	add	x17, x24, x14
	ldp	q0, q3, [x17]
	ldp	q1, q2, [x16]
	ldp	q4, q5, [x17, #32]
	cmeq	v0.16b, v1.16b, v0.16b
	cmeq	v1.16b, v2.16b, v3.16b
	ldp	q2, q3, [x16, #32]
	mvn	v0.16b, v0.16b
	mvn	v1.16b, v1.16b
	cmeq	v2.16b, v2.16b, v4.16b
	cmeq	v3.16b, v3.16b, v5.16b
	orn	v0.16b, v0.16b, v2.16b
	orn	v1.16b, v1.16b, v3.16b
	orr	v0.16b, v1.16b, v0.16b
	umaxv	b0, v0.16b
	fmov	w16, s0
	tbnz	w16, #0, 40f
	sub	x15, x15, #64
	add	x14, x14, #64
	cmp	x15, #63
	b.hi	39b
	and	x14, x13, #0xffffffffffffffc0
40:
	sub	x15, x13, x14
	cmp	x15, #8
	b.lo	42f
41:
	ldr	x16, [x12, x14]
	ldr	x17, [x24, x14]
	cmp	x16, x17
	b.ne	42f
	sub	x15, x15, #8
	add	x14, x14, #8
	cmp	x15, #7
	b.hi	41b
42:
	subs	x13, x13, x14
	b.ls	35b
	add	x15, x24, x14
	add	x12, x12, x14
43:
	ldrb	w14, [x12], #1
	ldrb	w16, [x15], #1
	cmp	w14, w16
	b.ne	36b
	subs	x13, x13, #1
	b.ne	43b
	b	35b
44:
	mov	x21, x19
45:
	sub	x23, x19, #1
	cmp	x21, x23
	b.hs	48f
	add	x8, x21, #1
	mov	w9, #24
	madd	x9, x8, x9, x22
	cmp	x8, x23
	ldp	x27, x26, [x9]
	ldr	x9, [x9, #16]
	stp	x9, x15, [sp, #8]
	b.hs	47f
	mov	w8, #24
	ldr	x10, [sp]
	sub	x9, x19, x21
	madd	x8, x21, x8, x28
	sub	x28, x9, #2
	add	x19, x10, x8
46:
	ldp	x2, x3, [x19]
	mov	x0, x24
	mov	x1, x25
	bl	std_alloc..compared..VecOrd..cmp..330a034538f27f99_1_a64
	mov	w8, #24
	tst	w0, #0xff
	madd	x8, x21, x8, x22
	cinc	x21, x21, ne
	subs	x28, x28, #1
	ldr	x9, [x8, #16]
	ldr	q0, [x8]
	stur	x9, [x19, #-8]
	ldr	x9, [x19, #16]
	stur	q0, [x19, #-24]
	ldr	q0, [x19], #24
	str	x9, [x8, #16]
	str	q0, [x8]
	b.ne	46b
47:
	mov	x0, x24
	mov	x1, x25
	mov	x2, x27
	mov	x3, x26
	bl	std_alloc..compared..VecOrd..cmp..330a034538f27f99_1_a64
	mov	w8, #24
	tst	w0, #0xff
	madd	x9, x21, x8, x22
	cinc	x21, x21, ne
	madd	x8, x23, x8, x22
	ldr	q0, [x9]
	ldr	x10, [x9, #16]
	str	q0, [x8]
	str	x10, [x8, #16]
	ldp	x8, x15, [sp, #8]
	stp	x27, x26, [x9]
	ldr	x27, [sp, #32]
	str	x8, [x9, #16]
48:
	subs	x8, x21, #1
	b.eq	49f
	add	x8, x8, x8, lsl #1
	lsl	x8, x8, #3
	add	x9, x22, x8
	ldr	x10, [x9, #16]
	ldr	q0, [x9]
	str	x10, [x22, #16]
	str	q0, [x22]
49:
	add	x8, x22, x8
	stp	x24, x25, [x8]
	str	x15, [x8, #16]
	ldr	x8, [sp, #24]
	add	x20, x21, x20
	sub	x19, x8, x20
	cmp	x19, #16
	b.hi	3b
50:
	mov	w8, #24
	mov	x1, x19
	madd	x0, x20, x8, x27
	ldp	x20, x19, [sp, #352]
	ldp	x22, x21, [sp, #336]
	ldp	x24, x23, [sp, #320]
	ldp	x26, x25, [sp, #304]
	ldp	x28, x27, [sp, #288]
	ldp	x29, x30, [sp, #272]
	add	sp, sp, #368
	b	core..slice..sort..small..insertion_sort..e08de7559db7a9ba_1_a64
51:
	mov	w8, #24
	lsr	x9, x19, #1
	madd	x8, x20, x8, x27
	mov	x10, x9
	b	53f
52:
	cbz	x10, 75f
53:
	sub	x10, x10, #1
	mov	x11, x10
	b	56f
54:
	ldr	q0, [x14]
	ldr	x12, [x14, #16]
	ldr	q1, [x13]
	ldr	x15, [x13, #16]
	str	q0, [x13]
	str	x12, [x13, #16]
	str	q1, [x14]
	str	x15, [x14, #16]
55:
	cmp	x11, x9
	b.hs	52b
56:
	mov	x12, x11
	mov	w11, #1
	lsl	x13, x12, #1
	bfi	x11, x12, #1, #63
	add	x13, x13, #2
	cmp	x13, x19
	b.eq	65f
	mov	w14, #24
	madd	x16, x11, x14, x8
	madd	x17, x13, x14, x8
	ldp	x16, x14, [x16]
	ldp	x17, x15, [x17]
	cmp	x15, x14
	csel	x0, x15, x14, lo
	cmp	x0, #64
	b.hs	57f
	mov	x1, xzr
	b	59f
57:
	mov	x1, xzr
	mov	x2, x0
58:
	add	x3, x16, x1
	add	x4, x17, x1
	ldp	q0, q3, [x4]
	ldp	q1, q2, [x3]
	ldp	q4, q5, [x4, #32]
	cmeq	v0.16b, v1.16b, v0.16b
	cmeq	v1.16b, v2.16b, v3.16b
	ldp	q2, q3, [x3, #32]
	mvn	v0.16b, v0.16b
	mvn	v1.16b, v1.16b
	cmeq	v2.16b, v2.16b, v4.16b
	cmeq	v3.16b, v3.16b, v5.16b
	orn	v0.16b, v0.16b, v2.16b
	orn	v1.16b, v1.16b, v3.16b
	orr	v0.16b, v1.16b, v0.16b
	umaxv	b0, v0.16b
	fmov	w3, s0
	tbnz	w3, #0, 59f
	sub	x2, x2, #64
	add	x1, x1, #64
	cmp	x2, #63
	b.hi	58b
	and	x1, x0, #0xffffffffffffffc0
59:
	sub	x2, x0, x1
	cmp	x2, #8
	b.lo	61f
60:
	ldr	x3, [x16, x1]
	ldr	x4, [x17, x1]
	cmp	x3, x4
	b.ne	61f
	sub	x2, x2, #8
	add	x1, x1, #8
	cmp	x2, #7
	b.hi	60b
61:
	subs	x0, x0, x1
	b.ls	63f
	add	x17, x17, x1
	add	x16, x16, x1
62:
	ldrb	w1, [x16], #1
	ldrb	w2, [x17], #1
	cmp	w1, w2
	b.ne	64f
	subs	x0, x0, #1
	b.ne	62b
63:
	cmp	x14, x15
64:
	cset	w14, lo
	cmp	w14, #0
	csel	x11, x13, x11, ne
65:
	mov	w14, #24
	madd	x13, x12, x14, x8
	madd	x14, x11, x14, x8
	ldp	x17, x15, [x13]
	ldp	x0, x16, [x14]
	cmp	x16, x15
	csel	x1, x16, x15, lo
	cmp	x1, #64
	b.hs	66f
	mov	x2, xzr
	b	68f
66:
	mov	x2, xzr
	mov	x3, x1
67:
	add	x4, x17, x2
	add	x5, x0, x2
	ldp	q0, q3, [x5]
	ldp	q1, q2, [x4]
	ldp	q4, q5, [x5, #32]
	cmeq	v0.16b, v1.16b, v0.16b
	cmeq	v1.16b, v2.16b, v3.16b
	ldp	q2, q3, [x4, #32]
	mvn	v0.16b, v0.16b
	mvn	v1.16b, v1.16b
	cmeq	v2.16b, v2.16b, v4.16b
	cmeq	v3.16b, v3.16b, v5.16b
	orn	v0.16b, v0.16b, v2.16b
	orn	v1.16b, v1.16b, v3.16b
	orr	v0.16b, v1.16b, v0.16b
	umaxv	b0, v0.16b
	fmov	w4, s0
	tbnz	w4, #0, 68f
	sub	x3, x3, #64
	add	x2, x2, #64
	cmp	x3, #63
	b.hi	67b
	and	x2, x1, #0xffffffffffffffc0
68:
	sub	x3, x1, x2
	cmp	x3, #8
	b.lo	70f
69:
	ldr	x4, [x17, x2]
	ldr	x5, [x0, x2]
	cmp	x4, x5
	b.ne	70f
	sub	x3, x3, #8
	add	x2, x2, #8
	cmp	x3, #7
	b.hi	69b
70:
	subs	x1, x1, x2
	b.ls	72f
	add	x0, x0, x2
	add	x17, x17, x2
71:
	ldrb	w2, [x17], #1
	ldrb	w3, [x0], #1
	cmp	w2, w3
	b.ne	73f
	subs	x1, x1, #1
	b.ne	71b
72:
	cmp	x15, x16
73:
	b.hs	52b
	cmp	x12, x11
	b.lo	54b
	cmp	x11, x12
	b.hs	55b
	ldr	q0, [x13]
	ldr	x12, [x13, #16]
	ldr	q1, [x14]
	ldr	x15, [x14, #16]
	str	q0, [x14]
	str	x12, [x14, #16]
	str	q1, [x13]
	str	x15, [x13, #16]
	b	55b
74:
	cmp	x19, #1
	b.ls	96f
75:
	sub	x19, x19, #1
	mov	w9, #24
	ldr	q1, [x8]
	madd	x10, x19, x9, x8
	ldr	x12, [x8, #16]
	lsr	x9, x19, #1
	ldr	q0, [x10]
	ldr	x11, [x10, #16]
	str	q0, [x8]
	str	x11, [x8, #16]
	str	q1, [x10]
	str	x12, [x10, #16]
	cbz	x9, 74b
	mov	x10, xzr
	b	78f
76:
	ldr	q0, [x13]
	ldr	x11, [x13, #16]
	ldr	q1, [x12]
	ldr	x14, [x12, #16]
	str	q0, [x12]
	str	x11, [x12, #16]
	str	q1, [x13]
	str	x14, [x13, #16]
77:
	cmp	x10, x9
	b.hs	74b
78:
	mov	x11, x10
	mov	w10, #1
	lsl	x12, x11, #1
	bfi	x10, x11, #1, #63
	add	x12, x12, #2
	cmp	x12, x19
	b.eq	87f
	mov	w13, #24
	madd	x15, x10, x13, x8
	madd	x16, x12, x13, x8
	ldp	x15, x13, [x15]
	ldp	x16, x14, [x16]
	cmp	x14, x13
	csel	x17, x14, x13, lo
	cmp	x17, #64
	b.hs	79f
	mov	x0, xzr
	b	81f
79:
	mov	x0, xzr
	mov	x1, x17
80:
	add	x2, x15, x0
	add	x3, x16, x0
	ldp	q0, q3, [x3]
	ldp	q1, q2, [x2]
	ldp	q4, q5, [x3, #32]
	cmeq	v0.16b, v1.16b, v0.16b
	cmeq	v1.16b, v2.16b, v3.16b
	ldp	q2, q3, [x2, #32]
	mvn	v0.16b, v0.16b
	mvn	v1.16b, v1.16b
	cmeq	v2.16b, v2.16b, v4.16b
	cmeq	v3.16b, v3.16b, v5.16b
	orn	v0.16b, v0.16b, v2.16b
	orn	v1.16b, v1.16b, v3.16b
	orr	v0.16b, v1.16b, v0.16b
	umaxv	b0, v0.16b
	fmov	w2, s0
	tbnz	w2, #0, 81f
	sub	x1, x1, #64
	add	x0, x0, #64
	cmp	x1, #63
	b.hi	80b
	and	x0, x17, #0xffffffffffffffc0
81:
	sub	x1, x17, x0
	cmp	x1, #8
	b.lo	83f
82:
	ldr	x2, [x15, x0]
	ldr	x3, [x16, x0]
	cmp	x2, x3
	b.ne	83f
	sub	x1, x1, #8
	add	x0, x0, #8
	cmp	x1, #7
	b.hi	82b
83:
	subs	x17, x17, x0
	b.ls	85f
	add	x16, x16, x0
	add	x15, x15, x0
84:
	ldrb	w0, [x15], #1
	ldrb	w1, [x16], #1
	cmp	w0, w1
	b.ne	86f
	subs	x17, x17, #1
	b.ne	84b
85:
	cmp	x13, x14
86:
	cset	w13, lo
	cmp	w13, #0
	csel	x10, x12, x10, ne
87:
	mov	w13, #24
	madd	x12, x11, x13, x8
	madd	x13, x10, x13, x8
	ldp	x16, x14, [x12]
	ldp	x17, x15, [x13]
	cmp	x15, x14
	csel	x0, x15, x14, lo
	cmp	x0, #64
	b.hs	88f
	mov	x1, xzr
	b	90f
88:
	mov	x1, xzr
	mov	x2, x0
89:
	add	x3, x16, x1
	add	x4, x17, x1
	ldp	q0, q3, [x4]
	ldp	q1, q2, [x3]
	ldp	q4, q5, [x4, #32]
	cmeq	v0.16b, v1.16b, v0.16b
	cmeq	v1.16b, v2.16b, v3.16b
	ldp	q2, q3, [x3, #32]
	mvn	v0.16b, v0.16b
	mvn	v1.16b, v1.16b
	cmeq	v2.16b, v2.16b, v4.16b
	cmeq	v3.16b, v3.16b, v5.16b
	orn	v0.16b, v0.16b, v2.16b
	orn	v1.16b, v1.16b, v3.16b
	orr	v0.16b, v1.16b, v0.16b
	umaxv	b0, v0.16b
	fmov	w3, s0
	tbnz	w3, #0, 90f
	sub	x2, x2, #64
	add	x1, x1, #64
	cmp	x2, #63
	b.hi	89b
	and	x1, x0, #0xffffffffffffffc0
90:
	sub	x2, x0, x1
	cmp	x2, #8
	b.lo	92f
91:
	ldr	x3, [x16, x1]
	ldr	x4, [x17, x1]
	cmp	x3, x4
	b.ne	92f
	sub	x2, x2, #8
	add	x1, x1, #8
	cmp	x2, #7
	b.hi	91b
92:
	subs	x0, x0, x1
	b.ls	94f
	add	x17, x17, x1
	add	x16, x16, x1
93:
	ldrb	w1, [x16], #1
	ldrb	w2, [x17], #1
	cmp	w1, w2
	b.ne	95f
	subs	x0, x0, #1
	b.ne	93b
94:
	cmp	x14, x15
95:
	b.hs	74b
	cmp	x11, x10
	b.lo	76b
	cmp	x10, x11
	b.hs	77b
	ldr	q0, [x12]
	ldr	x11, [x12, #16]
	ldr	q1, [x13]
	ldr	x14, [x13, #16]
	str	q0, [x13]
	str	x11, [x13, #16]
	str	q1, [x12]
	str	x14, [x12, #16]
	b	77b
96:
	ldp	x20, x19, [sp, #352]
	ldp	x22, x21, [sp, #336]
	ldp	x24, x23, [sp, #320]
	ldp	x26, x25, [sp, #304]
	ldp	x28, x27, [sp, #288]
	ldp	x29, x30, [sp, #272]
	add	sp, sp, #368
	ret
	vj_end	core..slice..sort..unstable..quicksort..e08de7559db7a9ba_1_a64

	vj_function	core..slice..sort..pivot..median_of_medians..e08de7559db7a9ba_1_a64
	sub	sp, sp, #112
	stp	x22, x21, [sp, #80]
	mov	x21, x2
	cmp	x4, #8
	stp	x20, x19, [sp, #96]
	mov	x20, x3
	mov	x19, x1
	mov	x22, x0
	stp	x29, x30, [sp, #16]
	add	x29, sp, #16
	stp	x28, x27, [sp, #32]
	stp	x26, x25, [sp, #48]
	stp	x24, x23, [sp, #64]
	b.hs	1f
	mov	w25, #24
	madd	x8, x19, x25, x22
	madd	x9, x21, x25, x22
	ldp	x26, x27, [x8]
	ldp	x23, x24, [x9]
	mov	x0, x26
	mov	x1, x27
	mov	x2, x23
	mov	x3, x24
	bl	std_alloc..compared..VecOrd..cmp..330a034538f27f99_1_a64
	madd	x8, x20, x25, x22
	ands	w9, w0, #0xff
	mov	x0, x26
	mov	x1, x27
	str	w9, [sp, #8]
	cset	w28, eq
	ldp	x22, x25, [x8]
	mov	x2, x22
	mov	x3, x25
	bl	std_alloc..compared..VecOrd..cmp..330a034538f27f99_1_a64
	tst	w0, #0xff
	cset	w8, eq
	eor	w8, w28, w8
	tbnz	w8, #0, 2f
	ldr	w8, [sp, #8]
	mov	x0, x23
	mov	x1, x24
	mov	x2, x22
	mov	x3, x25
	cmp	w8, #0
	cset	w19, eq
	bl	std_alloc..compared..VecOrd..cmp..330a034538f27f99_1_a64
	tst	w0, #0xff
	cset	w8, eq
	eor	w8, w19, w8
	cmp	w8, #0
	csel	x19, x20, x21, ne
	b	2f
1:
	lsr	x23, x4, #3
	mov	x0, x22
	mov	x1, x19
	lsl	x8, x23, #3
	lsl	x24, x23, #2
	mov	x4, x23
	sub	x25, x8, x23
	add	x2, x24, x19
	add	x3, x25, x19
	bl	core..slice..sort..pivot..median_of_medians..e08de7559db7a9ba_1_a64
	mov	x19, x0
	add	x2, x24, x21
	add	x3, x25, x21
	mov	x0, x22
	mov	x1, x21
	mov	x4, x23
	bl	core..slice..sort..pivot..median_of_medians..e08de7559db7a9ba_1_a64
	mov	x21, x0
	add	x2, x24, x20
	add	x3, x25, x20
	mov	x0, x22
	mov	x1, x20
	mov	x4, x23
	bl	core..slice..sort..pivot..median_of_medians..e08de7559db7a9ba_1_a64
	mov	w25, #24
	mov	x20, x0
	str	x21, [sp, #8]
	madd	x8, x19, x25, x22
	madd	x9, x21, x25, x22
	ldp	x26, x27, [x8]
	ldp	x23, x24, [x9]
	mov	x0, x26
	mov	x1, x27
	mov	x2, x23
	mov	x3, x24
	bl	std_alloc..compared..VecOrd..cmp..330a034538f27f99_1_a64
	madd	x8, x20, x25, x22
	ands	w28, w0, #0xff
	mov	x0, x26
	mov	x1, x27
	cset	w21, eq
	ldp	x22, x25, [x8]
	mov	x2, x22
	mov	x3, x25
	bl	std_alloc..compared..VecOrd..cmp..330a034538f27f99_1_a64
	tst	w0, #0xff
	cset	w8, eq
	eor	w8, w21, w8
	tbnz	w8, #0, 2f
	cmp	w28, #0
	mov	x0, x23
	mov	x1, x24
	mov	x2, x22
	mov	x3, x25
	cset	w19, eq
	bl	std_alloc..compared..VecOrd..cmp..330a034538f27f99_1_a64
	tst	w0, #0xff
	cset	w8, eq
	eor	w8, w19, w8
	cmp	w8, #0
	ldr	x8, [sp, #8]
	csel	x19, x20, x8, ne
2:
	mov	x0, x19
	ldp	x20, x19, [sp, #96]
	ldp	x22, x21, [sp, #80]
	ldp	x24, x23, [sp, #64]
	ldp	x26, x25, [sp, #48]
	ldp	x28, x27, [sp, #32]
	ldp	x29, x30, [sp, #16]
	add	sp, sp, #112
	ret
	vj_end	core..slice..sort..pivot..median_of_medians..e08de7559db7a9ba_1_a64

	vj_function	core..slice..edits..mirror..2262cf5b90b10fda_1_a64
	sub	sp, sp, #32
	mov	w8, #24
	madd	x8, x2, x8, x1
	sub	x8, x8, #24
1:
	ldr	q0, [x8]
	ldr	x9, [x8, #16]
	sub	x2, x2, #1
	ldr	q1, [x0]
	ldr	x10, [x0, #16]
	str	q0, [x0]
	str	x9, [x0, #16]
	add	x0, x0, #24
	str	q1, [x8]
	str	x10, [x8, #16]
	sub	x8, x8, #24
	cbnz	x2, 1b
	add	sp, sp, #32
	ret
	vj_end	core..slice..edits..mirror..2262cf5b90b10fda_1_a64

	vj_function	b2sum_commands..line_reader..LineReader..read_line..5254a3ddd78d1e3f_1_a64
	sub	sp, sp, #112
	stp	x26, x25, [sp, #48]
	mov	x26, x2
	ldr	x8, [x26, #8]!
	stp	x20, x19, [sp, #96]
	mov	x20, x2
	mov	x19, x0
	stp	x29, x30, [sp, #16]
	stp	x28, x27, [sp, #32]
	add	x29, sp, #16
	stp	x24, x23, [sp, #64]
	stp	x22, x21, [sp, #80]
	str	x1, [sp, #8]
	cbz	x8, 1f
	str	xzr, [x26]
1:
	ldr	x1, [x19, #32]
	mov	x27, xzr
2:
	ldr	x25, [x19, #24]
	ldr	x14, [x19]
	subs	x22, x1, x25
	add	x23, x14, x25
	b.eq	4f
	mov	x28, xzr
	sub	x21, x25, x1
	add	x8, x14, x25
3:
	ldrb	w9, [x8], #1
	cmp	w9, #10
	b.eq	17f
	sub	x28, x28, #1
	cmp	x21, x28
	b.ne	3b
4:
	ldp	x28, x21, [x20, #8]
	sub	x8, x21, x28
	cmp	x22, x8
	b.hi	14f
	ldr	x24, [x20]
	stp	xzr, xzr, [x26]
	add	x8, x24, x28
	sub	x8, x8, x23
	cmp	x8, x22
	b.hs	15f
5:
	cmp	x22, #8
	b.lo	6f
	add	x8, x28, x24
	add	x9, x25, x14
	sub	x8, x8, x9
	cmp	x8, #32
	b.hs	9f
6:
	mov	x8, xzr
7:
	add	x9, x8, x25
	add	x10, x8, x28
	sub	x8, x9, x1
	add	x9, x14, x9
	add	x10, x24, x10
8:
	ldrb	w11, [x9], #1
	adds	x8, x8, #1
	strb	w11, [x10], #1
	b.lo	8b
	b	16f
9:
	cmp	x22, #32
	b.hs	10f
	mov	x8, xzr
	b	12f
10:
	add	x10, x14, x25
	add	x11, x24, x28
	and	x9, x22, #0x18
	and	x8, x22, #0xffffffffffffffe0
	add	x10, x10, #16
	add	x11, x11, #16
	and	x12, x22, #0xffffffffffffffe0
11:
	ldp	q0, q1, [x10, #-16]
	subs	x12, x12, #32
	add	x10, x10, #32
	stp	q0, q1, [x11, #-16]
	add	x11, x11, #32
	b.ne	11b
	cmp	x22, x8
	b.eq	16f
	cbz	x9, 7b
12:
	mov	x9, x8
	and	x8, x22, #0xfffffffffffffff8
	add	x10, x9, x25
	add	x11, x28, x9
	sub	x9, x9, x8
	add	x10, x14, x10
	add	x11, x24, x11
13:
	ldr	d0, [x10], #8
	adds	x9, x9, #8
	str	d0, [x11], #8
	b.ne	13b
	cmp	x22, x8
	b.eq	16f
	b	7b
14:
	mov	x24, x1
	mov	x0, x20
	mov	x1, x22
	str	x14, [sp]
	bl	std_alloc..vec..Vec..grow_amortized..01eec35b572d02af_1_a64
	cbz	w0, 33f
	ldp	x28, x21, [x20, #8]
	mov	x1, x24
	ldr	x14, [sp]
	ldr	x24, [x20]
	stp	xzr, xzr, [x26]
	add	x8, x24, x28
	sub	x8, x8, x23
	cmp	x8, x22
	b.lo	5b
15:
	add	x0, x24, x28
	mov	x1, x23
	mov	x2, x22
	vj_c_call	memmove
16:
	add	x8, x28, x22
	str	x21, [x20, #16]
	ldr	x0, [sp, #8]
	stp	x24, x8, [x20]
	ldp	x1, x2, [x19]
	stp	xzr, xzr, [x19, #24]
	bl	b2sum..disk..OpenedOpenFile..read..ec2583f154d97a77_1_a64
	tst	w0, #0xff
	b.ne	26f
	str	x1, [x19, #32]
	cbz	x1, 27f
	add	x27, x27, #1
	cmn	x27, #1
	b.ne	2b
	b	33f
17:
	ldp	x8, x22, [x20, #8]
	neg	x27, x28
	sub	x9, x22, x8
	cmp	x27, x9
	b.hi	32f
18:
	ldr	x24, [x20]
	sub	x15, x8, x28
	stp	xzr, xzr, [x26]
	add	x0, x24, x8
	sub	x9, x0, x23
	cmp	x9, x27
	b.hs	22f
	cmp	x27, #8
	b.lo	19f
	add	x9, x8, x24
	add	x10, x25, x14
	sub	x9, x9, x10
	cmp	x9, #32
	b.hs	25f
19:
	mov	x9, xzr
20:
	add	x8, x14, x25
21:
	ldrb	w10, [x8, x9]
	strb	w10, [x0, x9]
	add	x9, x9, #1
	cmp	x27, x9
	b.ne	21b
	b	23f
22:
	neg	x2, x28
	mov	x1, x23
	mov	x23, x15
	vj_c_call	memmove
	mov	x15, x23
23:
	stp	x24, x15, [x20]
	mov	w1, wzr
	mov	w0, wzr
	str	x22, [x20, #16]
	ldr	x8, [x19, #32]
	add	x8, x8, x21
	sub	x8, x8, x28
	add	x8, x8, #1
	str	x8, [x19, #24]
24:
	ldp	x20, x19, [sp, #96]
	ldp	x22, x21, [sp, #80]
	ldp	x24, x23, [sp, #64]
	ldp	x26, x25, [sp, #48]
	ldp	x28, x27, [sp, #32]
	ldp	x29, x30, [sp, #16]
	add	sp, sp, #112
	ret
25:
	cmp	x27, #32
	b.hs	28f
	mov	x9, xzr
	b	30f
26:
	mov	w8, w0
	mov	w0, wzr
	and	w8, w8, #0xff
	cmp	w8, #1
	mov	w8, #1
	cinc	w1, w8, eq
	b	24b
27:
	mov	w0, wzr
	mov	w1, #1
	b	24b
28:
	add	x11, x14, x25
	add	x12, x8, x24
	and	x10, x27, #0x18
	and	x9, x27, #0xffffffffffffffe0
	add	x11, x11, #16
	add	x12, x12, #16
	and	x13, x27, #0xffffffffffffffe0
29:
	ldp	q0, q1, [x11, #-16]
	subs	x13, x13, #32
	add	x11, x11, #32
	stp	q0, q1, [x12, #-16]
	add	x12, x12, #32
	b.ne	29b
	cmp	x27, x9
	b.eq	23b
	cbz	x10, 20b
30:
	mov	x10, x9
	and	x9, x27, #0xfffffffffffffff8
	add	x11, x14, x10
	add	x12, x8, x10
	sub	x8, x10, x9
	add	x10, x11, x25
	add	x11, x24, x12
31:
	ldr	d0, [x10], #8
	adds	x8, x8, #8
	str	d0, [x11], #8
	b.ne	31b
	cmp	x27, x9
	b.eq	23b
	b	20b
32:
	neg	x1, x28
	mov	x0, x20
	mov	x24, x14
	bl	std_alloc..vec..Vec..grow_amortized..01eec35b572d02af_1_a64
	cbz	w0, 33f
	ldp	x8, x22, [x20, #8]
	mov	x14, x24
	b	18b
33:
	mov	w1, wzr
	mov	w0, #1
	b	24b
	vj_end	b2sum_commands..line_reader..LineReader..read_line..5254a3ddd78d1e3f_1_a64

	vj_function	b2sum_commands..seals..print_list..82a450bcca081e63_1_a64
	sub	sp, sp, #336
	movi	v0.2d, #0000000000000000
	ldrb	w8, [x1, #211]
	stp	x29, x30, [sp, #240]
	str	x28, [sp, #256]
	add	x29, sp, #240
	stp	x26, x25, [sp, #272]
	stp	x24, x23, [sp, #288]
	stp	x22, x21, [sp, #304]
	stp	x20, x19, [sp, #320]
	stp	q0, q0, [sp]
	tbz	w8, #0, 3f
	sub	x8, x29, #1
	add	x5, sp, #40
	stp	xzr, xzr, [sp, #48]
	str	x8, [sp, #40]
	mov	x20, x1
	mov	x21, x2
	bl	b2sum_commands..sums..print_lines..82a450bcca081e63_1_a64
	tst	w0, #0xff
	b.eq	4f
	ldr	x8, [sp, #56]
	cbz	x8, 2f
	ldr	x0, [sp, #40]
1:
	mov	w19, w1
	vj_call	rattle_dealloc
	mov	w1, w19
2:
	mov	w0, #1
	b	7f
3:
	sub	x8, x29, #1
	sub	x5, x29, #96
	stp	xzr, xzr, [x29, #-88]
	stur	x8, [x29, #-96]
	bl	b2sum_commands..sums..print_lines..82a450bcca081e63_1_a64
	ldur	x8, [x29, #-80]
	cbz	x8, 7f
	ldur	x8, [x29, #-96]
	mov	w19, w0
	mov	w20, w1
	mov	x0, x8
	vj_call	rattle_dealloc
	mov	w0, w19
	mov	w1, w20
	b	7f
4:
	tbz	w1, #0, 5f
	ldp	x19, x3, [sp, #40]
	mov	x0, sp
	mov	x1, x20
	mov	x2, x19
	bl	b2sum_commands..seals..seal_line..d6b15712839574eb_1_a64
	ldrb	w8, [sp]
	cbz	w8, 8f
	ldr	x8, [sp, #56]
	ldrb	w1, [sp, #1]
	cbz	x8, 2b
	mov	x0, x19
	b	1b
5:
	ldr	x8, [sp, #56]
	cbz	x8, 6f
	ldr	x0, [sp, #40]
	vj_call	rattle_dealloc
6:
	mov	w1, wzr
	mov	w0, wzr
7:
	ldp	x20, x19, [sp, #320]
	ldr	x28, [sp, #256]
	ldp	x22, x21, [sp, #304]
	ldp	x24, x23, [sp, #288]
	ldp	x26, x25, [sp, #272]
	ldp	x29, x30, [sp, #240]
	add	sp, sp, #336
	ret
8:
	ldrb	w8, [x21, #128]
	ldr	x20, [sp, #8]
	ldr	x22, [sp, #24]
	cmp	w8, #1
	b.ne	12f
9:
	cbz	x22, 10f
	mov	x0, x20
	vj_call	rattle_dealloc
10:
	ldr	x8, [sp, #56]
	cbz	x8, 11f
	mov	x0, x19
	vj_call	rattle_dealloc
11:
	mov	w1, #1
	b	2b
12:
	ldr	x24, [sp, #16]
	cbz	x24, 14f
	mov	x25, xzr
	sub	x23, x29, #96
13:
	add	x1, x20, x25
	sub	x2, x24, x25
	mov	w0, #1
	sub	x26, x24, x25
	vj_system_call	write, b2_write
	tbnz	x0, #63, 17f
	cmp	x0, x26
	csel	x8, x0, x26, lo
	cbz	x8, 18f
	add	x25, x8, x25
	cmp	x25, x24
	b.lo	13b
14:
	cbz	x22, 15f
	mov	x0, x20
	vj_call	rattle_dealloc
15:
	ldr	x8, [sp, #56]
	cbz	x8, 16f
	mov	x0, x19
	vj_call	rattle_dealloc
16:
	mov	w0, wzr
	mov	w1, #1
	b	7b
17:
	sub	x0, x29, #96
	bl	std_io..io..error..last_error_1_a64
	ldur	q0, [x23, #8]
	ldur	q1, [x23, #72]
	mov	w8, #1
	ldur	q2, [x23, #56]
	ldur	q3, [x23, #24]
	ldur	q4, [x23, #40]
	ldur	x9, [x29, #-96]
	str	q1, [x21, #208]
	stp	q0, q3, [sp, #64]
	stp	q2, q1, [sp, #112]
	str	q4, [sp, #96]
	stp	x8, x9, [x21, #128]
	stp	q0, q3, [x21, #144]
	stp	q4, q2, [x21, #176]
	b	9b
18:
	movi	v0.2d, #0000000000000000
	mov	w8, #1
	mov	w9, #5889
	str	x8, [x21, #128]
	strh	w9, [x21, #136]
	stur	q0, [x21, #138]
	stur	q0, [x21, #154]
	stur	q0, [x21, #170]
	stur	q0, [x21, #186]
	stur	q0, [x21, #202]
	str	xzr, [x21, #216]
	b	9b
	vj_end	b2sum_commands..seals..print_list..82a450bcca081e63_1_a64

	vj_constants	16
	.p2align	4, 0x0
.L1_a64_CPI106_0:
	.quad	1
	.quad	65536
	vj_function	b2sum_commands..sums..print_lines..82a450bcca081e63_1_a64
	stp	x29, x30, [sp, #-96]!
	stp	x28, x27, [sp, #16]
	mov	x29, sp
	stp	x26, x25, [sp, #32]
	stp	x24, x23, [sp, #48]
	stp	x22, x21, [sp, #64]
	stp	x20, x19, [sp, #80]
	sub	sp, sp, #608
	movi	v1.2d, #0000000000000000
	vj_page	x8, .L1_a64_CPI106_0
	sub	x23, x29, #24
	vj_load	q0, x8, .L1_a64_CPI106_0
	stp	x0, x3, [sp, #64]
	str	x23, [sp, #80]
	str	q0, [sp, #128]
	str	xzr, [sp, #120]
	stur	q1, [sp, #88]
	stur	q1, [sp, #104]
	stp	xzr, x23, [sp, #144]
	stp	xzr, xzr, [sp, #160]
	cbz	x4, 96f
	sub	x9, x29, #248
	add	x8, sp, #312
	mov	x27, x5
	mov	x21, x4
	mov	x20, x2
	mov	x24, x1
	mov	x22, xzr
	orr	x9, x9, #0x1
	orr	x8, x8, #0x1
	mov	w19, #1
	stp	x8, x9, [sp, #8]
	str	x4, [sp, #48]
	b	2f
1:
	tst	w26, #0xff
	add	x22, x22, #1
	cset	w8, eq
	cmp	x22, x21
	and	w19, w19, w8
	b.eq	108f
2:
	ldr	x8, [sp, #104]
	ldr	x9, [sp, #120]
	adds	x10, x8, #1
	csinv	x10, x10, xzr, lo
	cmp	x9, x8
	str	x10, [sp, #104]
	b.hi	3f
	ldr	x9, [x24, #32]
	cbnz	x9, 3f
	ldrb	w9, [x24, #216]
	tbnz	w9, #0, 3f
	ldrb	w9, [x24]
	ldr	w10, [x24, #4]
	subs	x3, x21, x8
	ldr	x11, [x24, #8]
	stp	w9, w10, [x29, #-112]
	stur	x11, [x29, #-104]
	b.lo	3f
	mov	w9, #24
	ldr	x10, [sp, #72]
	sub	x1, x29, #112
	madd	x2, x8, x9, x10
	add	x4, sp, #80
	mov	x0, x24
	bl	b2sum_commands..ahead..read_group..432d41b752d14b0e_1_a64
3:
	mov	w8, #24
	ldp	x0, x9, [sp, #64]
	madd	x8, x22, x8, x9
	movi	v0.2d, #0000000000000000
	ldrb	w9, [x24]
	ldr	w10, [x24, #4]
	ldr	x25, [x24, #8]
	add	x3, sp, #80
	add	x6, sp, #176
	add	x7, sp, #192
	mov	x1, x24
	mov	x2, x20
	stp	w9, w10, [sp, #176]
	stp	q0, q0, [sp, #192]
	ldp	x28, x23, [x8]
	stp	q0, q0, [sp, #224]
	str	x25, [sp, #184]
	mov	x4, x28
	mov	x5, x23
	bl	b2sum_commands..sums..digest_file..82a450bcca081e63_1_a64
	tst	w0, #0xff
	mov	w26, w1
	b.ne	103f
	tst	w26, #0xff
	b.ne	1b
	ldrb	w8, [x24, #201]
	cmp	w8, #2
	b.eq	4f
	cmp	w8, #1
	b.ne	6f
	sturh	wzr, [x29, #-108]
	stur	wzr, [x29, #-112]
	tbnz	x25, #63, 46f
	str	x27, [sp, #40]
	cbz	x25, 13f
	bic	x28, x25, x25, asr #63
	lsl	x27, x28, #1
	tbnz	x27, #63, 69f
	mov	x0, x27
	mov	w1, #1
	mov	w21, #1
	vj_call	rattle_alloc
	tbnz	w0, #0, 58f
	ldr	x27, [sp, #40]
	mov	x28, xzr
	mov	x23, xzr
	str	xzr, [sp, #56]
	cbz	w21, 70f
	b	112f
4:
	sub	x28, x29, #24
	sub	x8, x29, #112
	stur	x28, [x29, #-112]
	stp	xzr, xzr, [x8, #8]
	cbnz	x25, 28f
	str	xzr, [sp, #56]
	mov	x8, xzr
5:
	add	x0, x28, x8
	add	x9, sp, #192
	add	x23, x8, x25
	sub	x9, x0, x9
	add	x1, sp, #192
	mov	x2, x25
	cmp	x9, x25
	b.hs	8f
	vj_c_call	memcpy
	mov	w21, wzr
	cbz	w21, 70f
	b	112f
6:
	movi	v0.2d, #0000000000000000
	add	x8, sp, #256
	stp	xzr, xzr, [x29, #-184]
	stur	xzr, [x8, #182]
	ldrb	w21, [x24]
	sub	x10, x29, #24
	stp	xzr, xzr, [sp, #288]
	stur	xzr, [x8, #47]
	stp	xzr, xzr, [sp, #256]
	stur	xzr, [x8, #15]
	ldr	w8, [x24, #4]
	stp	xzr, xzr, [sp, #320]
	stp	w8, w21, [sp]
	sub	x8, x29, #248
	stp	q0, q0, [x29, #-112]
	stp	q0, q0, [x29, #-80]
	str	xzr, [sp, #312]
	stur	xzr, [x29, #-192]
	stur	x10, [x29, #-248]
	stp	xzr, xzr, [x8, #8]
	cbnz	x25, 29f
	str	xzr, [sp, #24]
	mov	x21, xzr
7:
	add	x8, x10, x21
	add	x9, sp, #192
	add	x0, x10, x21
	sub	x8, x8, x9
	add	x1, sp, #192
	mov	x2, x25
	cmp	x8, x25
	str	x10, [sp, #56]
	b.hs	9f
	vj_c_call	memcpy
	b	10f
8:
	vj_c_call	memmove
	mov	w21, wzr
	cbz	w21, 70f
	b	112f
9:
	vj_c_call	memmove
10:
	sub	x8, x29, #24
	sub	x9, x29, #248
	str	x27, [sp, #40]
	stur	x8, [x29, #-248]
	stp	xzr, xzr, [x9, #8]
	cbnz	x23, 30f
	mov	x15, xzr
	mov	x27, xzr
	add	x0, x8, xzr
	sub	x9, x0, x28
	cmp	x9, x23
	b.hs	31f
11:
	cmp	x23, #8
	b.hs	12f
	ldr	x14, [sp, #56]
	mov	x9, xzr
	b	26f
12:
	add	x9, x27, x8
	ldr	x14, [sp, #56]
	sub	x9, x9, x28
	cmp	x9, #32
	b.hs	21f
	mov	x9, xzr
	b	26f
13:
	mov	x21, xzr
	mov	x28, xzr
	mov	x27, xzr
	sub	x0, x29, #24
	sub	x23, x29, #24
	stur	x0, [x29, #-192]
14:
	mov	x1, x23
	mov	x2, x27
	vj_c_call	memmove
	sub	x9, x29, #112
	stp	x21, x28, [x29, #-184]
	ldur	q0, [x29, #-192]
	stur	x28, [x9, #22]
	stur	q0, [x9, #6]
	ldur	q0, [x9, #6]
	stur	q0, [x29, #-192]
	cbz	x25, 16f
15:
	mov	x0, x23
	vj_call	rattle_dealloc
16:
	ldp	x8, x9, [x29, #-184]
	ldrb	w10, [x24, #206]
	ldr	x27, [sp, #40]
	cmp	x9, x8
	tbz	w10, #0, 18f
	b.eq	86f
17:
	ldur	x28, [x29, #-192]
	strb	wzr, [x28, x8]
	b	20f
18:
	b.eq	87f
19:
	ldur	x28, [x29, #-192]
	mov	w9, #10
	strb	w9, [x28, x8]
20:
	ldur	x9, [x29, #-176]
	mov	w21, wzr
	add	x23, x8, #1
	str	x9, [sp, #56]
	cbz	w21, 70f
	b	112f
21:
	cmp	x23, #32
	b.hs	22f
	mov	x9, xzr
	b	24f
22:
	add	x12, x8, x27
	and	x10, x23, #0x18
	and	x9, x23, #0xffffffffffffffe0
	add	x11, x28, #16
	add	x12, x12, #16
	and	x13, x23, #0xffffffffffffffe0
23:
	ldp	q0, q1, [x11, #-16]
	subs	x13, x13, #32
	add	x11, x11, #32
	stp	q0, q1, [x12, #-16]
	add	x12, x12, #32
	b.ne	23b
	cmp	x23, x9
	b.eq	32f
	cbz	x10, 26f
24:
	mov	x11, x9
	and	x9, x23, #0xfffffffffffffff8
	add	x12, x27, x11
	sub	x10, x11, x9
	add	x11, x28, x11
	add	x12, x8, x12
25:
	ldr	d0, [x11], #8
	adds	x10, x10, #8
	str	d0, [x12], #8
	b.ne	25b
	cmp	x23, x9
	b.eq	32f
26:
	add	x11, x9, x27
	sub	x10, x23, x9
	add	x9, x28, x9
	add	x8, x8, x11
27:
	ldrb	w11, [x9], #1
	subs	x10, x10, #1
	strb	w11, [x8], #1
	b.ne	27b
	b	32f
28:
	sub	x0, x29, #112
	mov	x1, x25
	bl	std_alloc..vec..Vec..grow_amortized..01eec35b572d02af_1_a64
	cbz	w0, 54f
	ldur	x8, [x29, #-96]
	str	x8, [sp, #56]
	ldp	x28, x8, [x29, #-112]
	b	5b
29:
	sub	x0, x29, #248
	mov	x1, x25
	bl	std_alloc..vec..Vec..grow_amortized..01eec35b572d02af_1_a64
	cbz	w0, 55f
	ldp	x21, x8, [x29, #-240]
	ldur	x10, [x29, #-248]
	str	x8, [sp, #24]
	b	7b
30:
	sub	x0, x29, #248
	mov	x1, x23
	bl	std_alloc..vec..Vec..grow_amortized..01eec35b572d02af_1_a64
	cbz	w0, 56f
	ldp	x27, x15, [x29, #-240]
	ldur	x8, [x29, #-248]
	add	x0, x8, x27
	sub	x9, x0, x28
	cmp	x9, x23
	b.lo	11b
31:
	mov	x1, x28
	mov	x2, x23
	mov	x28, x15
	vj_c_call	memmove
	ldr	x14, [sp, #56]
	mov	x15, x28
32:
	add	x8, x27, x23
	add	x28, sp, #256
	sub	x9, x29, #192
	stur	x8, [x29, #-240]
	ldr	w8, [sp, #4]
	sub	x11, x29, #112
	ldur	q0, [x28, #104]
	stur	x15, [x9, #22]
	ldrb	w10, [x24, #205]
	stur	w8, [x29, #-112]
	ldr	w8, [sp]
	stur	q0, [x9, #6]
	stur	w8, [x29, #-108]
	add	x8, x21, x25
	ldur	q0, [x9, #6]
	stp	x14, x8, [x29, #-104]
	ldrb	w9, [x24, #202]
	stur	x15, [x11, #48]
	ldurh	w8, [x24, #203]
	ldr	x21, [sp, #24]
	sturb	w9, [x29, #-56]
	ldrb	w9, [x24, #206]
	sturh	w8, [x11, #57]
	sub	x8, x29, #24
	stur	x21, [x29, #-88]
	stur	q0, [x11, #32]
	sturb	w10, [x29, #-53]
	tbz	w9, #0, 33f
	ldp	x25, x3, [x29, #-80]
	sub	x0, x29, #248
	stur	x8, [x29, #-248]
	sub	x8, x29, #248
	sub	x1, x29, #112
	stp	xzr, xzr, [x8, #8]
	mov	x2, x25
	bl	b2sum_lines..writes..push_body_1_a64
	ldr	x27, [sp, #40]
	tst	w0, #0xff
	b.ne	41f
	ldr	x8, [sp, #16]
	ldurb	w21, [x29, #-248]
	ldr	x0, [sp, #56]
	ldr	q0, [x8]
	ldur	x8, [x8, #15]
	str	q0, [sp, #256]
	stur	x8, [x28, #15]
	ldr	q0, [sp, #256]
	b	49f
33:
	ldp	x25, x3, [x29, #-80]
	ldr	x27, [sp, #40]
	stur	x8, [x29, #-248]
	sub	x8, x29, #248
	stp	xzr, xzr, [x8, #8]
	cbz	x3, 35f
	mov	x8, xzr
34:
	ldrb	w9, [x25, x8]
	cmp	w9, #10
	b.eq	36f
	cmp	w9, #13
	b.eq	36f
	cmp	w9, #92
	b.eq	36f
	add	x8, x8, #1
	cmp	x3, x8
	b.ne	34b
35:
	sub	x0, x29, #248
	sub	x1, x29, #112
	mov	x2, x25
	bl	b2sum_lines..writes..push_body_1_a64
	and	w8, w0, #0xff
	tbnz	w8, #0, 41f
	ldr	x8, [sp, #16]
	ldurb	w21, [x29, #-248]
	ldr	q0, [x8]
	ldur	x8, [x8, #15]
	stur	q0, [x29, #-224]
	stur	x8, [x28, #143]
	b	48f
36:
	sub	x8, x29, #24
	add	x0, sp, #336
	mov	x1, x25
	str	x8, [sp, #336]
	add	x8, sp, #336
	mov	x2, x3
	stp	xzr, xzr, [x8, #8]
	bl	b2sum_lines..names..push_escaped_1_a64
	and	w8, w0, #0xff
	tbz	w8, #0, 38f
37:
	ldr	x8, [sp, #352]
	cbz	x8, 41f
	ldr	x0, [sp, #336]
	b	40f
38:
	ldp	x8, x9, [x29, #-240]
	cmp	x9, x8
	b.eq	89f
39:
	ldp	x23, x3, [sp, #336]
	add	x11, x8, #1
	ldur	x9, [x29, #-248]
	sub	x0, x29, #248
	sub	x1, x29, #112
	mov	w10, #92
	mov	x2, x23
	strb	w10, [x9, x8]
	stur	x11, [x29, #-240]
	bl	b2sum_lines..writes..push_body_1_a64
	and	w8, w0, #0xff
	tbz	w8, #0, 47f
	ldr	x8, [sp, #352]
	cbz	x8, 41f
	mov	x0, x23
40:
	vj_call	rattle_dealloc
41:
	ldur	x8, [x29, #-232]
	cbz	x8, 43f
	ldur	x0, [x29, #-248]
42:
	vj_call	rattle_dealloc
43:
	cbz	x21, 44f
	ldr	x0, [sp, #56]
	vj_call	rattle_dealloc
44:
	ldur	x8, [x29, #-64]
	cbz	x8, 46f
	mov	x0, x25
45:
	vj_call	rattle_dealloc
46:
	mov	x28, xzr
	mov	x23, xzr
	mov	w21, #1
	str	xzr, [sp, #56]
	cbz	w21, 70f
	b	112f
47:
	ldr	x8, [sp, #16]
	ldr	x9, [sp, #352]
	ldurb	w21, [x29, #-248]
	ldr	q0, [x8]
	ldur	x8, [x8, #15]
	stur	q0, [x29, #-224]
	stur	x8, [x28, #143]
	cbz	x9, 48f
	mov	x0, x23
	vj_call	rattle_dealloc
48:
	ldur	q0, [x29, #-224]
	ldur	x8, [x28, #143]
	ldr	x0, [sp, #56]
49:
	str	q0, [sp, #288]
	stur	x8, [x28, #47]
	ldr	q0, [sp, #288]
	ldr	x9, [sp, #8]
	ldrb	w10, [x24, #206]
	strb	w21, [sp, #312]
	str	q0, [x9]
	stur	x8, [x9, #15]
	cmp	w10, #1
	ldp	x8, x9, [sp, #320]
	b.ne	50f
	ldr	x21, [sp, #24]
	cmp	x9, x8
	b.eq	64f
	ldr	x28, [sp, #312]
	strb	wzr, [x28, x8]
	add	x23, x8, #1
	str	x23, [sp, #320]
	cbnz	x21, 51f
	b	52f
50:
	ldr	x21, [sp, #24]
	cmp	x9, x8
	b.eq	65f
	ldr	x28, [sp, #312]
	mov	w9, #10
	strb	w9, [x28, x8]
	add	x23, x8, #1
	str	x23, [sp, #320]
	cbz	x21, 52f
51:
	vj_call	rattle_dealloc
52:
	ldur	x8, [x29, #-64]
	cbz	x8, 53f
	mov	x0, x25
	vj_call	rattle_dealloc
53:
	ldr	x8, [sp, #328]
	mov	w21, wzr
	str	x8, [sp, #56]
	cbz	w21, 70f
	b	112f
54:
	ldur	x8, [x29, #-96]
	cbz	x8, 46b
	ldur	x0, [x29, #-112]
	b	45b
55:
	ldur	x8, [x29, #-232]
	cbz	x8, 46b
	ldur	x0, [x29, #-248]
	b	45b
56:
	ldur	x8, [x29, #-232]
	cbz	x8, 57f
	ldur	x0, [x29, #-248]
	vj_call	rattle_dealloc
57:
	ldr	x8, [sp, #24]
	cbz	x8, 46b
	ldr	x0, [sp, #56]
	b	45b
58:
	mov	x23, x1
	sub	x2, x27, #1
	mov	x0, x1
	mov	w1, wzr
	sub	x21, x27, #1
	vj_c_call	memset
	mov	x8, xzr
	add	x9, x23, #1
	strb	wzr, [x23, x21]
59:
	add	x10, sp, #192
	vj_page	x12, .L1_a64_static.189
	vj_address	x12, x12, .L1_a64_static.189
	ldrb	w10, [x10, x8]
	add	x8, x8, #1
	cmp	x25, x8
	lsr	x11, x10, #4
	and	x10, x10, #0xf
	ldrb	w11, [x12, x11]
	sturb	w11, [x9, #-1]
	ldrb	w10, [x12, x10]
	strb	w10, [x9], #2
	b.ne	59b
	sub	x8, x29, #24
	sub	x0, x29, #192
	mov	x1, x27
	stur	x8, [x29, #-192]
	sub	x8, x29, #192
	stp	xzr, xzr, [x8, #8]
	bl	std_alloc..vec..Vec..grow_amortized..01eec35b572d02af_1_a64
	cbz	w0, 67f
	ldp	x8, x9, [x29, #-192]
	add	x0, x8, x9
	add	x21, x9, x27
	sub	x10, x0, x23
	cmp	x10, x27
	b.hs	90f
	cmp	x25, #4
	b.lt	60f
	add	x10, x9, x8
	sub	x10, x10, x23
	cmp	x10, #32
	b.hs	91f
60:
	mov	x10, xzr
61:
	add	x11, x10, x9
	sub	x9, x10, x27
	add	x10, x23, x10
	add	x8, x8, x11
62:
	ldrb	w11, [x10], #1
	adds	x9, x9, #1
	strb	w11, [x8], #1
	b.lo	62b
63:
	ldur	x8, [x29, #-176]
	sub	x9, x29, #112
	stp	x21, x8, [x29, #-184]
	ldur	q0, [x29, #-192]
	stur	x8, [x9, #22]
	stur	q0, [x9, #6]
	ldur	q0, [x9, #6]
	stur	q0, [x29, #-192]
	b	15b
64:
	add	x0, sp, #312
	mov	w1, #1
	bl	std_alloc..vec..Vec..grow_amortized..01eec35b572d02af_1_a64
	cbz	w0, 66f
	ldp	x28, x8, [sp, #312]
	ldr	x0, [sp, #56]
	strb	wzr, [x28, x8]
	add	x23, x8, #1
	str	x23, [sp, #320]
	cbnz	x21, 51b
	b	52b
65:
	add	x0, sp, #312
	mov	w1, #1
	bl	std_alloc..vec..Vec..grow_amortized..01eec35b572d02af_1_a64
	cbz	w0, 66f
	ldp	x28, x8, [sp, #312]
	ldr	x0, [sp, #56]
	mov	w9, #10
	strb	w9, [x28, x8]
	add	x23, x8, #1
	str	x23, [sp, #320]
	cbnz	x21, 51b
	b	52b
66:
	ldr	x8, [sp, #328]
	cbz	x8, 43b
	ldr	x0, [sp, #312]
	b	42b
67:
	ldur	x8, [x29, #-176]
	cbz	x8, 68f
	ldur	x0, [x29, #-192]
	vj_call	rattle_dealloc
68:
	mov	x0, x23
	vj_call	rattle_dealloc
69:
	ldr	x27, [sp, #40]
	mov	x28, xzr
	mov	x23, xzr
	str	xzr, [sp, #56]
	mov	w21, #1
	cbnz	w21, 112f
70:
	ldrb	w8, [x24, #211]
	cmp	w8, #1
	b.ne	77f
	ldp	x25, x21, [x27, #8]
	str	x20, [sp, #32]
	sub	x8, x21, x25
	cmp	x23, x8
	b.hi	85f
71:
	mov	x9, x27
	ldr	x27, [x27]
	mov	x20, x9
	stp	xzr, xzr, [x9, #8]
	add	x8, x27, x25
	sub	x8, x8, x28
	cmp	x8, x23
	b.hs	75f
	cmp	x23, #8
	b.lo	72f
	add	x8, x25, x27
	sub	x8, x8, x28
	cmp	x8, #32
	b.hs	80f
72:
	mov	x8, xzr
73:
	add	x10, x8, x25
	sub	x9, x23, x8
	add	x8, x28, x8
	add	x10, x27, x10
74:
	ldrb	w11, [x8], #1
	subs	x9, x9, #1
	strb	w11, [x10], #1
	b.ne	74b
	b	76f
75:
	add	x0, x27, x25
	mov	x1, x28
	mov	x2, x23
	vj_c_call	memmove
76:
	add	x8, x25, x23
	str	x21, [x20, #16]
	stp	x27, x8, [x20]
	mov	x27, x20
	ldr	x20, [sp, #32]
77:
	ldrb	w8, [x20, #128]
	cmp	w8, #1
	b.eq	117f
	cbz	x23, 79f
	mov	x21, xzr
78:
	add	x1, x28, x21
	sub	x2, x23, x21
	mov	w0, #1
	sub	x25, x23, x21
	vj_system_call	write, b2_write
	tbnz	x0, #63, 100f
	cmp	x0, x25
	csel	x8, x0, x25, lo
	cbz	x8, 101f
	add	x21, x8, x21
	cmp	x21, x23
	b.lo	78b
79:
	ldp	x21, x8, [sp, #48]
	cbz	x8, 1b
	mov	x0, x28
	vj_call	rattle_dealloc
	b	1b
80:
	cmp	x23, #32
	b.hs	81f
	mov	x8, xzr
	b	83f
81:
	add	x11, x27, x25
	and	x9, x23, #0x18
	and	x8, x23, #0xffffffffffffffe0
	add	x10, x28, #16
	add	x11, x11, #16
	and	x12, x23, #0xffffffffffffffe0
82:
	ldp	q0, q1, [x10, #-16]
	subs	x12, x12, #32
	add	x10, x10, #32
	stp	q0, q1, [x11, #-16]
	add	x11, x11, #32
	b.ne	82b
	cmp	x23, x8
	b.eq	76b
	cbz	x9, 73b
83:
	mov	x10, x8
	and	x8, x23, #0xfffffffffffffff8
	add	x11, x25, x10
	sub	x9, x10, x8
	add	x10, x28, x10
	add	x11, x27, x11
84:
	ldr	d0, [x10], #8
	adds	x9, x9, #8
	str	d0, [x11], #8
	b.ne	84b
	cmp	x23, x8
	b.eq	76b
	b	73b
85:
	mov	x0, x27
	mov	x1, x23
	bl	std_alloc..vec..Vec..grow_amortized..01eec35b572d02af_1_a64
	cbz	w0, 118f
	ldp	x25, x21, [x27, #8]
	b	71b
86:
	sub	x0, x29, #192
	mov	w1, #1
	bl	std_alloc..vec..Vec..grow_amortized..01eec35b572d02af_1_a64
	cbz	w0, 88f
	ldur	x8, [x29, #-184]
	b	17b
87:
	sub	x0, x29, #192
	mov	w1, #1
	bl	std_alloc..vec..Vec..grow_amortized..01eec35b572d02af_1_a64
	cbz	w0, 88f
	ldur	x8, [x29, #-184]
	b	19b
88:
	ldur	x8, [x29, #-176]
	cbz	x8, 46b
	ldur	x0, [x29, #-192]
	b	45b
89:
	sub	x0, x29, #248
	mov	w1, #1
	bl	std_alloc..vec..Vec..grow_amortized..01eec35b572d02af_1_a64
	cbz	w0, 37b
	ldur	x8, [x29, #-240]
	b	39b
90:
	ldur	x28, [x29, #-176]
	b	14b
91:
	cmp	x25, #16
	b.ge	92f
	mov	x10, xzr
	b	94f
92:
	add	x12, x8, x9
	and	x10, x27, #0x7fffffffffffffe0
	add	x11, x23, #16
	add	x12, x12, #16
	and	x13, x27, #0x7fffffffffffffe0
93:
	ldp	q0, q1, [x11, #-16]
	subs	x13, x13, #32
	add	x11, x11, #32
	stp	q0, q1, [x12, #-16]
	add	x12, x12, #32
	b.ne	93b
	cmp	x27, x10
	b.eq	63b
	tst	x28, #0xc
	b.eq	61b
94:
	mov	x12, x10
	and	x10, x27, #0x7ffffffffffffff8
	add	x13, x12, x9
	sub	x11, x12, x10
	add	x12, x23, x12
	add	x13, x8, x13
95:
	ldr	d0, [x12], #8
	adds	x11, x11, #8
	str	d0, [x13], #8
	b.ne	95b
	cmp	x27, x10
	b.eq	63b
	b	61b
96:
	mov	w19, #1
	ldp	x21, x20, [sp, #88]
	cbz	x21, 109f
97:
	add	x22, x23, #16
	b	99f
98:
	subs	x21, x21, #1
	add	x22, x22, #104
	b.eq	109f
99:
	ldr	x8, [x22]
	cbz	x8, 98b
	ldur	x0, [x22, #-16]
	vj_call	rattle_dealloc
	b	98b
100:
	sub	x0, x29, #112
	bl	std_io..io..error..last_error_1_a64
	sub	x8, x29, #112
	mov	w19, #1
	ldur	q0, [x8, #8]
	ldur	q1, [x8, #72]
	ldur	q2, [x8, #56]
	ldur	q3, [x8, #24]
	ldur	q4, [x8, #40]
	ldur	x8, [x29, #-112]
	stp	q2, q1, [x29, #-144]
	stp	q0, q3, [x29, #-192]
	stur	q4, [x29, #-160]
	stp	x19, x8, [x20, #128]
	stp	q3, q4, [x20, #160]
	stp	q2, q1, [x20, #192]
	str	q0, [x20, #144]
	b	102f
101:
	movi	v0.2d, #0000000000000000
	mov	w19, #1
	mov	w8, #5889
	str	x19, [x20, #128]
	strh	w8, [x20, #136]
	stur	q0, [x20, #138]
	stur	q0, [x20, #154]
	stur	q0, [x20, #170]
	stur	q0, [x20, #186]
	stur	q0, [x20, #202]
	str	xzr, [x20, #216]
102:
	ldr	x8, [sp, #56]
	cbz	x8, 104f
	mov	x0, x28
	vj_call	rattle_dealloc
	ldp	x20, x21, [sp, #80]
	ldr	x22, [sp, #96]
	cbnz	x21, 105f
	b	113f
103:
	mov	w19, w26
104:
	ldp	x20, x21, [sp, #80]
	ldr	x22, [sp, #96]
	cbz	x21, 113f
105:
	add	x23, x20, #16
	b	107f
106:
	subs	x21, x21, #1
	add	x23, x23, #104
	b.eq	113f
107:
	ldr	x8, [x23]
	cbz	x8, 106b
	ldur	x0, [x23, #-16]
	vj_call	rattle_dealloc
	b	106b
108:
	ldr	x23, [sp, #80]
	ldp	x21, x20, [sp, #88]
	cbnz	x21, 97b
109:
	cbz	x20, 110f
	mov	x0, x23
	vj_call	rattle_dealloc
110:
	ldr	x8, [sp, #168]
	cbz	x8, 111f
	ldr	x0, [sp, #152]
	vj_call	rattle_dealloc
111:
	mov	w0, wzr
	b	116f
112:
	mov	w19, wzr
	ldp	x20, x21, [sp, #80]
	ldr	x22, [sp, #96]
	cbnz	x21, 105b
113:
	cbz	x22, 114f
	mov	x0, x20
	vj_call	rattle_dealloc
114:
	ldr	x8, [sp, #168]
	cbz	x8, 115f
	ldr	x0, [sp, #152]
	vj_call	rattle_dealloc
115:
	mov	w0, #1
116:
	mov	w1, w19
	add	sp, sp, #608
	ldp	x20, x19, [sp, #80]
	ldp	x22, x21, [sp, #64]
	ldp	x24, x23, [sp, #48]
	ldp	x26, x25, [sp, #32]
	ldp	x28, x27, [sp, #16]
	ldp	x29, x30, [sp], #96
	ret
117:
	mov	w19, #1
	b	102b
118:
	mov	w19, wzr
	b	102b
	vj_end	b2sum_commands..sums..print_lines..82a450bcca081e63_1_a64

	vj_constants	8
	.p2align	3, 0x0
.L1_a64_CPI107_0:
	.byte	45
	.byte	115
	.byte	97
	.byte	108
	.zero	1
	.zero	1
	.zero	1
	.zero	1
.L1_a64_CPI107_1:
	.byte	45
	.byte	112
	.byte	101
	.byte	114
	.byte	115
	.byte	111
	.byte	110
	.byte	97
	vj_function	b2sum_lines..writes..push_body_1_a64
	sub	sp, sp, #192
	ldrb	w8, [x1, #56]
	stp	x22, x21, [sp, #160]
	mov	x21, x2
	stp	x20, x19, [sp, #176]
	mov	x20, x3
	mov	x19, x0
	cmp	w8, #1
	stp	x29, x30, [sp, #96]
	add	x29, sp, #96
	stp	x28, x27, [sp, #112]
	stp	x26, x25, [sp, #128]
	stp	x24, x23, [sp, #144]
	b.gt	5f
	cbnz	w8, 11f
	movi	v0.2d, #0000000000000000
	ldrb	w27, [x1, #57]
	ldrb	w26, [x1, #58]
	ldrb	w28, [x1, #59]
	ldr	w2, [x1, #4]
	add	x0, sp, #32
	str	x1, [sp, #24]
	ldrb	w1, [x1]
	stp	q0, q0, [sp, #32]
	bl	b2sum_lines..entry..Algorithm..tag_1_a64
	ldrb	w8, [sp, #32]
	cbnz	w8, 85f
	mov	x24, x19
	ldp	x22, x2, [sp, #40]
	ldp	x8, x23, [x24, #8]!
	ldr	x10, [sp, #56]
	str	w28, [sp, #12]
	sub	x9, x23, x8
	str	x10, [sp, #16]
	cmp	x2, x9
	b.hi	76f
1:
	ldr	x28, [x19]
	add	x25, x8, x2
	stp	xzr, xzr, [x24]
	add	x0, x28, x8
	sub	x9, x0, x22
	cmp	x9, x2
	b.hs	23f
	cmp	x2, #8
	b.lo	2f
	add	x9, x8, x28
	sub	x9, x9, x22
	cmp	x9, #32
	b.hs	50f
2:
	mov	x9, xzr
3:
	add	x10, x9, x8
	sub	x8, x2, x9
	add	x9, x22, x9
	add	x10, x28, x10
4:
	ldrb	w11, [x9], #1
	subs	x8, x8, #1
	strb	w11, [x10], #1
	b.ne	4b
	b	24f
5:
	cmp	w8, #2
	b.ne	17f
	ldp	x8, x2, [x1, #8]
	mov	x0, x19
	mov	x1, x8
	bl	b2sum_lines..writes..push_hex_1_a64
	and	w8, w0, #0xff
	tbnz	w8, #0, 85f
	mov	x25, x19
	ldp	x8, x22, [x25, #8]!
	sub	x9, x22, x8
	cmp	x9, #1
	b.ls	64f
6:
	ldr	x23, [x19]
	vj_page	x10, .L1_a64_static.250
	vj_address	x10, x10, .L1_a64_static.250
	add	x9, x23, x8
	add	x8, x8, #2
	sub	x10, x9, x10
	cmp	x10, #1
	mov	w10, #10784
	strh	w10, [x9]
	sub	x9, x22, x8
	cmp	x20, x9
	stp	x23, x8, [x19]
	str	x22, [x19, #16]
	b.hi	67f
	add	x0, x23, x8
	add	x24, x8, x20
	stp	xzr, xzr, [x25]
	sub	x9, x0, x21
	cmp	x9, x20
	b.hs	70f
7:
	cmp	x20, #8
	b.lo	8f
	add	x9, x8, x23
	sub	x9, x9, x21
	cmp	x9, #32
	b.hs	47f
8:
	mov	x9, xzr
9:
	add	x10, x9, x8
	sub	x8, x20, x9
	add	x9, x21, x9
	add	x10, x23, x10
10:
	ldrb	w11, [x9], #1
	subs	x8, x8, #1
	strb	w11, [x10], #1
	b.ne	10b
	b	71f
11:
	ldp	x8, x2, [x1, #8]
	mov	x0, x19
	mov	x1, x8
	bl	b2sum_lines..writes..push_hex_1_a64
	and	w8, w0, #0xff
	tbnz	w8, #0, 85f
	mov	x25, x19
	ldp	x9, x22, [x25, #8]!
	sub	x8, x22, x9
	cmp	x8, #1
	b.ls	65f
12:
	ldr	x23, [x19]
	add	x8, x9, #2
	mov	w10, #8224
	strh	w10, [x23, x9]
	sub	x9, x22, x8
	cmp	x20, x9
	stp	x23, x8, [x19]
	str	x22, [x19, #16]
	b.hi	68f
	add	x0, x23, x8
	add	x24, x8, x20
	stp	xzr, xzr, [x25]
	sub	x9, x0, x21
	cmp	x9, x20
	b.hs	70f
13:
	cmp	x20, #8
	b.lo	14f
	add	x9, x8, x23
	sub	x9, x9, x21
	cmp	x9, #32
	b.hs	48f
14:
	mov	x9, xzr
15:
	add	x10, x9, x8
	sub	x8, x20, x9
	add	x9, x21, x9
	add	x10, x23, x10
16:
	ldrb	w11, [x9], #1
	subs	x8, x8, #1
	strb	w11, [x10], #1
	b.ne	16b
	b	71f
17:
	ldp	x8, x2, [x1, #8]
	mov	x0, x19
	mov	x1, x8
	bl	b2sum_lines..writes..push_hex_1_a64
	and	w8, w0, #0xff
	tbnz	w8, #0, 85f
	mov	x25, x19
	ldp	x9, x22, [x25, #8]!
	cmp	x22, x9
	b.eq	66f
18:
	ldr	x23, [x19]
	add	x8, x9, #1
	mov	w10, #32
	strb	w10, [x23, x9]
	sub	x9, x22, x8
	cmp	x20, x9
	stp	x23, x8, [x19]
	str	x22, [x19, #16]
	b.hi	69f
	add	x0, x23, x8
	add	x24, x8, x20
	stp	xzr, xzr, [x25]
	sub	x9, x0, x21
	cmp	x9, x20
	b.hs	70f
19:
	cmp	x20, #8
	b.lo	20f
	add	x9, x8, x23
	sub	x9, x9, x21
	cmp	x9, #32
	b.hs	49f
20:
	mov	x9, xzr
21:
	add	x10, x9, x8
	sub	x8, x20, x9
	add	x9, x21, x9
	add	x10, x23, x10
22:
	ldrb	w11, [x9], #1
	subs	x8, x8, #1
	strb	w11, [x10], #1
	b.ne	22b
	b	71f
23:
	mov	x1, x22
	vj_c_call	memmove
24:
	ldr	x8, [sp, #16]
	stp	x28, x25, [x19]
	str	x23, [x19, #16]
	cbz	x8, 25f
	mov	x0, x22
	vj_call	rattle_dealloc
25:
	ldr	x8, [sp, #24]
	ldr	w22, [sp, #12]
	tbz	w27, #0, 27f
	ldp	x10, x9, [x19, #8]
	sub	x11, x9, x10
	cmp	x11, #3
	b.ls	89f
26:
	ldr	x11, [x19]
	mov	w12, #27437
	movk	w12, #31077, lsl #16
	str	w12, [x11, x10]
	add	x10, x10, #4
	stp	x11, x10, [x19]
	str	x9, [x19, #16]
27:
	tbz	w26, #0, 31f
	ldp	x10, x9, [x19, #8]
	sub	x11, x9, x10
	cmp	x11, #4
	b.ls	90f
28:
	ldr	x11, [x19]
	vj_page	x13, .L1_a64_static.203
	vj_address	x13, x13, .L1_a64_static.203
	add	x12, x11, x10
	add	x10, x10, #5
	sub	x13, x12, x13
	cmp	x13, #4
	b.hi	29f
	vj_page	x13, .L1_a64_CPI107_0
	vj_load	d0, x13, .L1_a64_CPI107_0
	mov	w13, #116
	strb	w13, [x12, #4]
	str	s0, [x12]
	b	30f
29:
	mov	w14, #29485
	mov	w13, #116
	movk	w14, #27745, lsl #16
	strb	w13, [x12, #4]
	str	w14, [x12]
30:
	stp	x11, x10, [x19]
	str	x9, [x19, #16]
31:
	tbz	w22, #0, 35f
	ldp	x10, x9, [x19, #8]
	sub	x11, x9, x10
	cmp	x11, #8
	b.ls	91f
32:
	ldr	x11, [x19]
	vj_page	x13, .L1_a64_static.204
	vj_address	x13, x13, .L1_a64_static.204
	add	x12, x11, x10
	add	x10, x10, #9
	sub	x14, x12, x13
	cmp	x14, #8
	b.hi	33f
	vj_page	x13, .L1_a64_CPI107_1
	vj_load	d0, x13, .L1_a64_CPI107_1
	mov	w13, #108
	strb	w13, [x12, #8]
	str	d0, [x12]
	b	34f
33:
	ldr	x13, [x13]
	mov	w14, #108
	strb	w14, [x12, #8]
	str	x13, [x12]
34:
	stp	x11, x10, [x19]
	str	x9, [x19, #16]
35:
	ldrb	w9, [x8]
	ldr	x22, [x8, #16]
	vj_page	x8, .L1_a64_switch.table.b2sum_lines..writes..push_body_1_a64
	vj_address	x8, x8, .L1_a64_switch.table.b2sum_lines..writes..push_body_1_a64
	ldr	x8, [x8, x9, lsl #3]
	cmp	x22, x8
	b.ne	36f
	ldp	x26, x22, [x19, #8]
	b	41f
36:
	ldp	x9, x8, [x19, #8]
	cmp	x8, x9
	b.eq	92f
37:
	ldr	x10, [x19]
	mov	w11, #45
	add	x8, x9, #1
	mov	w23, #19
	stp	xzr, xzr, [x29, #-24]
	strb	w11, [x10, x9]
	lsl	x9, x22, #3
	str	x8, [x19, #8]
	cmp	x9, #10
	stur	wzr, [x29, #-8]
	b.lo	39f
	mov	x10, x9
38:
	mov	x9, #-3689348814741910324
	mov	w11, #10
	sub	x12, x29, #24
	movk	x9, #52429
	cmp	x10, #99
	umulh	x9, x10, x9
	lsr	x9, x9, #3
	msub	w11, w9, w11, w10
	orr	w10, w11, #0x30
	strb	w10, [x12, x23]
	sub	x23, x23, #1
	mov	x10, x9
	b.hi	38b
39:
	ldr	x22, [x19, #16]
	mov	w10, #20
	sub	x25, x29, #24
	sub	x2, x10, x23
	orr	w9, w9, #0x30
	strb	w9, [x25, x23]
	sub	x10, x22, x8
	cmp	x2, x10
	b.hi	93f
40:
	ldr	x27, [x19]
	add	x1, x25, x23
	add	x26, x8, x2
	add	x0, x27, x8
	vj_c_call	memcpy
	stp	x27, x26, [x19]
	str	x22, [x19, #16]
41:
	sub	x8, x22, x26
	cmp	x8, #1
	b.ls	81f
42:
	ldr	x25, [x19]
	vj_page	x8, .L1_a64_static.247
	vj_address	x8, x8, .L1_a64_static.247
	mov	w10, #10272
	add	x9, x25, x26
	sub	x8, x9, x8
	strh	w10, [x9]
	cmp	x8, #1
	add	x8, x26, #2
	str	x22, [x19, #16]
	sub	x9, x22, x8
	stp	x25, x8, [x19]
	cmp	x20, x9
	b.hi	82f
	add	x0, x25, x8
	add	x23, x8, x20
	stp	xzr, xzr, [x24]
	sub	x9, x0, x21
	cmp	x9, x20
	b.hs	83f
43:
	cmp	x20, #8
	b.lo	44f
	add	x9, x8, x25
	sub	x9, x9, x21
	cmp	x9, #32
	b.hs	51f
44:
	mov	x9, xzr
45:
	add	x10, x9, x8
	sub	x8, x20, x9
	add	x9, x21, x9
	add	x10, x25, x10
46:
	ldrb	w11, [x9], #1
	subs	x8, x8, #1
	strb	w11, [x10], #1
	b.ne	46b
	b	84f
47:
	cmp	x20, #32
	b.hs	52f
	mov	x9, xzr
	b	54f
48:
	cmp	x20, #32
	b.hs	56f
	mov	x9, xzr
	b	58f
49:
	cmp	x20, #32
	b.hs	60f
	mov	x9, xzr
	b	62f
50:
	cmp	x2, #32
	b.hs	72f
	mov	x9, xzr
	b	74f
51:
	cmp	x20, #32
	b.hs	77f
	mov	x9, xzr
	b	79f
52:
	add	x12, x8, x23
	and	x10, x20, #0x18
	and	x9, x20, #0xffffffffffffffe0
	add	x11, x21, #16
	add	x12, x12, #16
	and	x13, x20, #0xffffffffffffffe0
53:
	ldp	q0, q1, [x11, #-16]
	subs	x13, x13, #32
	add	x11, x11, #32
	stp	q0, q1, [x12, #-16]
	add	x12, x12, #32
	b.ne	53b
	cmp	x20, x9
	b.eq	71f
	cbz	x10, 9b
54:
	mov	x11, x9
	and	x9, x20, #0xfffffffffffffff8
	add	x12, x8, x11
	sub	x10, x11, x9
	add	x11, x21, x11
	add	x12, x23, x12
55:
	ldr	d0, [x11], #8
	adds	x10, x10, #8
	str	d0, [x12], #8
	b.ne	55b
	cmp	x20, x9
	b.eq	71f
	b	9b
56:
	add	x12, x8, x23
	and	x10, x20, #0x18
	and	x9, x20, #0xffffffffffffffe0
	add	x11, x21, #16
	add	x12, x12, #16
	and	x13, x20, #0xffffffffffffffe0
57:
	ldp	q0, q1, [x11, #-16]
	subs	x13, x13, #32
	add	x11, x11, #32
	stp	q0, q1, [x12, #-16]
	add	x12, x12, #32
	b.ne	57b
	cmp	x20, x9
	b.eq	71f
	cbz	x10, 15b
58:
	mov	x11, x9
	and	x9, x20, #0xfffffffffffffff8
	add	x12, x8, x11
	sub	x10, x11, x9
	add	x11, x21, x11
	add	x12, x23, x12
59:
	ldr	d0, [x11], #8
	adds	x10, x10, #8
	str	d0, [x12], #8
	b.ne	59b
	cmp	x20, x9
	b.eq	71f
	b	15b
60:
	add	x12, x8, x23
	and	x10, x20, #0x18
	and	x9, x20, #0xffffffffffffffe0
	add	x11, x21, #16
	add	x12, x12, #16
	and	x13, x20, #0xffffffffffffffe0
61:
	ldp	q0, q1, [x11, #-16]
	subs	x13, x13, #32
	add	x11, x11, #32
	stp	q0, q1, [x12, #-16]
	add	x12, x12, #32
	b.ne	61b
	cmp	x20, x9
	b.eq	71f
	cbz	x10, 21b
62:
	mov	x11, x9
	and	x9, x20, #0xfffffffffffffff8
	add	x12, x8, x11
	sub	x10, x11, x9
	add	x11, x21, x11
	add	x12, x23, x12
63:
	ldr	d0, [x11], #8
	adds	x10, x10, #8
	str	d0, [x12], #8
	b.ne	63b
	cmp	x20, x9
	b.eq	71f
	b	21b
64:
	mov	x0, x19
	mov	w1, #2
	bl	std_alloc..vec..Vec..grow_amortized..01eec35b572d02af_1_a64
	cbz	w0, 85f
	ldp	x8, x22, [x19, #8]
	b	6b
65:
	mov	x0, x19
	mov	w1, #2
	bl	std_alloc..vec..Vec..grow_amortized..01eec35b572d02af_1_a64
	cbz	w0, 85f
	ldp	x9, x22, [x19, #8]
	b	12b
66:
	mov	x0, x19
	mov	w1, #1
	bl	std_alloc..vec..Vec..grow_amortized..01eec35b572d02af_1_a64
	mov	w8, w0
	mov	w0, #1
	cbz	w8, 86f
	ldp	x9, x22, [x19, #8]
	b	18b
67:
	mov	x0, x19
	mov	x1, x20
	bl	std_alloc..vec..Vec..grow_amortized..01eec35b572d02af_1_a64
	cbz	w0, 85f
	ldp	x8, x22, [x19, #8]
	ldr	x23, [x19]
	add	x0, x23, x8
	add	x24, x8, x20
	stp	xzr, xzr, [x25]
	sub	x9, x0, x21
	cmp	x9, x20
	b.lo	7b
	b	70f
68:
	mov	x0, x19
	mov	x1, x20
	bl	std_alloc..vec..Vec..grow_amortized..01eec35b572d02af_1_a64
	cbz	w0, 85f
	ldp	x8, x22, [x19, #8]
	ldr	x23, [x19]
	add	x0, x23, x8
	add	x24, x8, x20
	stp	xzr, xzr, [x25]
	sub	x9, x0, x21
	cmp	x9, x20
	b.lo	13b
	b	70f
69:
	mov	x0, x19
	mov	x1, x20
	bl	std_alloc..vec..Vec..grow_amortized..01eec35b572d02af_1_a64
	cbz	w0, 85f
	ldp	x8, x22, [x19, #8]
	ldr	x23, [x19]
	add	x0, x23, x8
	add	x24, x8, x20
	stp	xzr, xzr, [x25]
	sub	x9, x0, x21
	cmp	x9, x20
	b.lo	19b
70:
	mov	x1, x21
	mov	x2, x20
	vj_c_call	memmove
71:
	mov	w0, wzr
	stp	x23, x24, [x19]
	str	x22, [x19, #16]
	b	86f
72:
	add	x12, x8, x28
	and	x10, x2, #0x18
	and	x9, x2, #0xffffffffffffffe0
	add	x11, x22, #16
	add	x12, x12, #16
	and	x13, x2, #0xffffffffffffffe0
73:
	ldp	q0, q1, [x11, #-16]
	subs	x13, x13, #32
	add	x11, x11, #32
	stp	q0, q1, [x12, #-16]
	add	x12, x12, #32
	b.ne	73b
	cmp	x2, x9
	b.eq	24b
	cbz	x10, 3b
74:
	mov	x11, x9
	and	x9, x2, #0xfffffffffffffff8
	add	x12, x8, x11
	sub	x10, x11, x9
	add	x11, x22, x11
	add	x12, x28, x12
75:
	ldr	d0, [x11], #8
	adds	x10, x10, #8
	str	d0, [x12], #8
	b.ne	75b
	cmp	x2, x9
	b.eq	24b
	b	3b
76:
	mov	x0, x19
	mov	x1, x2
	mov	x25, x2
	bl	std_alloc..vec..Vec..grow_amortized..01eec35b572d02af_1_a64
	cbz	w0, 88f
	ldp	x8, x23, [x19, #8]
	mov	x2, x25
	b	1b
77:
	add	x12, x8, x25
	and	x10, x20, #0x18
	and	x9, x20, #0xffffffffffffffe0
	add	x11, x21, #16
	add	x12, x12, #16
	and	x13, x20, #0xffffffffffffffe0
78:
	ldp	q0, q1, [x11, #-16]
	subs	x13, x13, #32
	add	x11, x11, #32
	stp	q0, q1, [x12, #-16]
	add	x12, x12, #32
	b.ne	78b
	cmp	x20, x9
	b.eq	84f
	cbz	x10, 45b
79:
	mov	x11, x9
	and	x9, x20, #0xfffffffffffffff8
	add	x12, x8, x11
	sub	x10, x11, x9
	add	x11, x21, x11
	add	x12, x25, x12
80:
	ldr	d0, [x11], #8
	adds	x10, x10, #8
	str	d0, [x12], #8
	b.ne	80b
	cmp	x20, x9
	b.eq	84f
	b	45b
81:
	mov	x0, x19
	mov	w1, #2
	bl	std_alloc..vec..Vec..grow_amortized..01eec35b572d02af_1_a64
	cbz	w0, 85f
	ldp	x26, x22, [x19, #8]
	b	42b
82:
	mov	x0, x19
	mov	x1, x20
	bl	std_alloc..vec..Vec..grow_amortized..01eec35b572d02af_1_a64
	cbz	w0, 85f
	ldp	x8, x22, [x19, #8]
	ldr	x25, [x19]
	add	x0, x25, x8
	add	x23, x8, x20
	stp	xzr, xzr, [x24]
	sub	x9, x0, x21
	cmp	x9, x20
	b.lo	43b
83:
	mov	x1, x21
	mov	x2, x20
	vj_c_call	memmove
84:
	vj_page	x1, .L1_a64_static.248
	vj_address	x1, x1, .L1_a64_static.248
	mov	x0, x19
	mov	w2, #4
	stp	x25, x23, [x19]
	str	x22, [x19, #16]
	bl	std_alloc..vec..Vec..extend_from_slice..0473daec321ef212_1_a64
	and	w8, w0, #0xff
	tbz	w8, #0, 87f
85:
	mov	w0, #1
86:
	ldp	x20, x19, [sp, #176]
	ldp	x22, x21, [sp, #160]
	ldp	x24, x23, [sp, #144]
	ldp	x26, x25, [sp, #128]
	ldp	x28, x27, [sp, #112]
	ldp	x29, x30, [sp, #96]
	add	sp, sp, #192
	ret
87:
	ldr	x8, [sp, #24]
	mov	x0, x19
	ldp	x20, x19, [sp, #176]
	ldp	x1, x2, [x8, #8]
	ldp	x22, x21, [sp, #160]
	ldp	x24, x23, [sp, #144]
	ldp	x26, x25, [sp, #128]
	ldp	x28, x27, [sp, #112]
	ldp	x29, x30, [sp, #96]
	add	sp, sp, #192
	b	b2sum_lines..writes..push_hex_1_a64
88:
	ldr	x8, [sp, #16]
	cbz	x8, 85b
	mov	x0, x22
	vj_call	rattle_dealloc
	b	85b
89:
	mov	x0, x19
	mov	w1, #4
	bl	std_alloc..vec..Vec..grow_amortized..01eec35b572d02af_1_a64
	cbz	w0, 85b
	ldp	x10, x9, [x19, #8]
	ldr	x8, [sp, #24]
	b	26b
90:
	mov	x0, x19
	mov	w1, #5
	bl	std_alloc..vec..Vec..grow_amortized..01eec35b572d02af_1_a64
	cbz	w0, 85b
	ldp	x10, x9, [x19, #8]
	ldr	x8, [sp, #24]
	b	28b
91:
	mov	x0, x19
	mov	w1, #9
	bl	std_alloc..vec..Vec..grow_amortized..01eec35b572d02af_1_a64
	cbz	w0, 85b
	ldp	x10, x9, [x19, #8]
	ldr	x8, [sp, #24]
	b	32b
92:
	mov	x0, x19
	mov	w1, #1
	bl	std_alloc..vec..Vec..grow_amortized..01eec35b572d02af_1_a64
	cbz	w0, 85b
	ldr	x9, [x24]
	b	37b
93:
	mov	x0, x19
	mov	x1, x2
	mov	x26, x2
	bl	std_alloc..vec..Vec..grow_amortized..01eec35b572d02af_1_a64
	cbz	w0, 85b
	ldp	x8, x22, [x19, #8]
	mov	x2, x26
	b	40b
	vj_end	b2sum_lines..writes..push_body_1_a64

	vj_function	b2sum_lines..writes..push_hex_1_a64
	tbnz	x2, #63, 7f
	cbz	x2, 8f
	stp	x29, x30, [sp, #-80]!
	stp	x24, x23, [sp, #32]
	bic	x23, x2, x2, asr #63
	mov	x29, sp
	stp	x20, x19, [sp, #64]
	lsl	x20, x23, #1
	str	x25, [sp, #16]
	stp	x22, x21, [sp, #48]
	tbnz	x20, #63, 9f
	mov	x21, x1
	mov	x24, x0
	mov	x0, x20
	mov	w1, #1
	mov	x22, x2
	vj_call	rattle_alloc
	mov	x8, x0
	mov	w0, #1
	tbz	w8, #0, 10f
	mov	x19, x1
	sub	x2, x20, #1
	mov	x0, x1
	mov	w1, wzr
	sub	x25, x20, #1
	vj_c_call	memset
	mov	x8, xzr
	add	x9, x19, #1
	mov	x10, x22
	strb	wzr, [x19, x25]
1:
	ldrb	w11, [x21, x8]
	vj_page	x13, .L1_a64_static.189
	vj_address	x13, x13, .L1_a64_static.189
	add	x8, x8, #1
	lsr	x12, x11, #4
	and	x11, x11, #0xf
	cmp	x10, x8
	ldrb	w12, [x13, x12]
	sturb	w12, [x9, #-1]
	ldrb	w11, [x13, x11]
	strb	w11, [x9], #2
	b.ne	1b
	mov	x25, x24
	mov	x8, x24
	ldp	x9, x21, [x25, #8]!
	sub	x11, x21, x9
	cmp	x20, x11
	b.hi	18f
2:
	ldr	x22, [x8]
	add	x24, x9, x20
	stp	xzr, xzr, [x25]
	add	x0, x22, x9
	sub	x11, x0, x19
	cmp	x11, x20
	b.hs	11f
	cmp	x10, #4
	b.lt	3f
	add	x11, x9, x22
	sub	x11, x11, x19
	cmp	x11, #32
	b.hs	13f
3:
	mov	x10, xzr
4:
	add	x11, x10, x9
	sub	x9, x10, x20
	add	x10, x19, x10
	add	x11, x22, x11
5:
	ldrb	w12, [x10], #1
	adds	x9, x9, #1
	strb	w12, [x11], #1
	b.lo	5b
6:
	mov	w20, wzr
	stp	x22, x24, [x8]
	str	x21, [x8, #16]
	b	12f
7:
	mov	w0, #1
	ret
8:
	mov	w0, wzr
	ret
9:
	mov	w0, #1
10:
	ldp	x20, x19, [sp, #64]
	ldr	x25, [sp, #16]
	ldp	x22, x21, [sp, #48]
	ldp	x24, x23, [sp, #32]
	ldp	x29, x30, [sp], #80
	ret
11:
	mov	x1, x19
	mov	x2, x20
	mov	x23, x8
	vj_c_call	memmove
	mov	w20, wzr
	stp	x22, x24, [x23]
	str	x21, [x23, #16]
12:
	mov	x0, x19
	vj_call	rattle_dealloc
	mov	x0, x20
	ldp	x20, x19, [sp, #64]
	ldr	x25, [sp, #16]
	ldp	x22, x21, [sp, #48]
	ldp	x24, x23, [sp, #32]
	ldp	x29, x30, [sp], #80
	ret
13:
	cmp	x10, #16
	b.ge	14f
	mov	x10, xzr
	b	16f
14:
	add	x12, x9, x22
	and	x10, x20, #0x7fffffffffffffe0
	add	x11, x19, #16
	add	x12, x12, #16
	and	x13, x20, #0x7fffffffffffffe0
15:
	ldp	q0, q1, [x11, #-16]
	subs	x13, x13, #32
	add	x11, x11, #32
	stp	q0, q1, [x12, #-16]
	add	x12, x12, #32
	b.ne	15b
	cmp	x20, x10
	b.eq	6b
	tst	x23, #0xc
	b.eq	4b
16:
	mov	x12, x10
	and	x10, x20, #0x7ffffffffffffff8
	add	x13, x9, x12
	sub	x11, x12, x10
	add	x12, x19, x12
	add	x13, x22, x13
17:
	ldr	d0, [x12], #8
	adds	x11, x11, #8
	str	d0, [x13], #8
	b.ne	17b
	cmp	x20, x10
	b.eq	6b
	b	4b
18:
	mov	x0, x8
	mov	x1, x20
	bl	std_alloc..vec..Vec..grow_amortized..01eec35b572d02af_1_a64
	cbz	w0, 19f
	ldp	x9, x21, [x24, #8]
	mov	x8, x24
	mov	x10, x22
	b	2b
19:
	mov	w20, #1
	b	12b
	vj_end	b2sum_lines..writes..push_hex_1_a64

	vj_constants	8
	.p2align	3, 0x0
.L1_a64_CPI109_0:
	.byte	98
	.byte	50
	.byte	115
	.byte	117
	.zero	1
	.zero	1
	.zero	1
	.zero	1
	vj_export	main_1_a64
	stp	x29, x30, [sp, #-96]!
	stp	x28, x27, [sp, #16]
	mov	x29, sp
	stp	x26, x25, [sp, #32]
	stp	x24, x23, [sp, #48]
	stp	x22, x21, [sp, #64]
	stp	x20, x19, [sp, #80]
	sub	sp, sp, #1056
	mov	w0, #13
	mov	w1, #1
	str	xzr, [sp]
	vj_call	b2sum_signal
	movi	v0.2d, #0000000000000000
	sub	x0, x29, #112
	mov	x1, xzr
	strh	wzr, [sp, #780]
	strb	wzr, [sp, #782]
	str	xzr, [sp, #656]
	stp	q0, q0, [sp, #48]
	stp	q0, q0, [sp, #80]
	stp	q0, q0, [sp, #112]
	stp	q0, q0, [sp, #144]
	stp	q0, q0, [sp, #176]
	stp	q0, q0, [sp, #208]
	stp	q0, q0, [sp, #240]
	stp	q0, q0, [sp, #272]
	stp	q0, q0, [sp, #304]
	stp	q0, q0, [sp, #336]
	stp	q0, q0, [sp, #368]
	stp	q0, q0, [sp, #400]
	stp	q0, q0, [sp, #432]
	stp	q0, q0, [sp, #496]
	stp	q0, q0, [sp, #528]
	stp	q0, q0, [sp, #576]
	stp	q0, q0, [sp, #608]
	stp	q0, q0, [sp, #672]
	stp	q0, q0, [sp, #704]
	stp	q0, q0, [sp, #736]
	str	q0, [sp, #640]
	str	xzr, [sp, #560]
	str	q0, [sp, #480]
	stp	xzr, xzr, [sp, #464]
	stur	xzr, [x29, #-80]
	stp	q0, q0, [x29, #-112]
	bl	b2sum..argument..53019e254910033c_1_a64
	ldurb	w8, [x29, #-112]
	vj_page	x23, .L1_a64_static.0
	vj_address	x23, x23, .L1_a64_static.0
	cbz	w8, 5f
1:
	mov	x20, xzr
2:
	mov	w8, #5
	add	x1, x23, x20
	mov	w0, #2
	sub	x19, x8, x20
	mov	x2, x19
	vj_system_call	write, b2_write
	tbnz	x0, #63, 4f
	cmp	x0, x19
	csel	x8, x0, x19, lo
	cbz	x8, 75f
	add	x20, x8, x20
	cmp	x20, #5
	b.lo	2b
	mov	x20, xzr
3:
	mov	w8, #19
	vj_page	x9, .L1_a64_static.259
	vj_address	x9, x9, .L1_a64_static.259
	sub	x19, x8, x20
	add	x1, x9, x20
	mov	w0, #2
	mov	x2, x19
	vj_system_call	write, b2_write
	tbnz	x0, #63, 4f
	cmp	x0, x19
	mov	w23, #1
	csel	x8, x0, x19, lo
	cbz	x8, 76f
	add	x20, x8, x20
	cmp	x20, #19
	b.lo	3b
	b	76f
4:
	sub	x0, x29, #112
	bl	std_io..io..error..last_error_1_a64
	b	75f
5:
	ldurb	w8, [x29, #-104]
	cmp	w8, #1
	b.ne	8f
	ldp	x21, x8, [x29, #-96]
	mov	x11, xzr
	ldur	x24, [x29, #-80]
	add	x10, x21, x8
6:
	mov	x9, x11
	cmn	x8, x11
	b.eq	7f
	add	x11, x10, x9
	ldurb	w11, [x11, #-1]
	cmp	w11, #47
	sub	x11, x9, #1
	b.ne	6b
7:
	add	x8, x21, x8
	cmp	x9, #0
	mov	w10, #5
	add	x8, x8, x9
	csneg	x20, x10, x9, eq
	csel	x22, x23, x8, eq
	tbnz	x20, #63, 9f
	mov	x0, x20
	mov	w1, #1
	vj_call	rattle_alloc
	tbz	w0, #0, 9f
	sub	x8, x1, x22
	mov	x19, x1
	cmp	x8, x20
	b.hs	31f
	cmp	x20, #8
	mov	x8, xzr
	b.lo	82f
	sub	x9, x19, x22
	cmp	x9, #32
	b.lo	82f
	cmp	x20, #32
	b.hs	36f
	mov	x8, xzr
	b	38f
8:
	mov	w0, #5
	mov	w1, #1
	vj_call	rattle_alloc
	tbz	w0, #0, 1b
	sub	x8, x1, x23
	mov	x19, x1
	cmp	x8, #4
	b.hi	12f
	vj_page	x8, .L1_a64_CPI109_0
	vj_load	d0, x8, .L1_a64_CPI109_0
	mov	w8, #109
	strb	w8, [x19, #4]
	str	s0, [x19]
	mov	w0, #1
	mov	w1, #1
	vj_call	rattle_alloc
	mov	w20, #5
	tbnz	w0, #0, 13f
	b	14f
9:
	mov	w22, wzr
	mov	x19, xzr
	mov	x20, xzr
	cbz	x24, 11f
10:
	mov	x0, x21
	vj_call	rattle_dealloc
11:
	cbz	w22, 1b
	mov	w0, #1
	mov	w1, #1
	vj_call	rattle_alloc
	tbnz	w0, #0, 13f
	cbnz	x20, 14f
	mov	w21, #1
	b	16f
12:
	mov	w9, #12898
	mov	w8, #109
	movk	w9, #30067, lsl #16
	strb	w8, [x19, #4]
	str	w9, [x19]
	mov	w0, #1
	mov	w1, #1
	vj_call	rattle_alloc
	mov	w20, #5
	tbz	w0, #0, 14f
13:
	mov	w8, #45
	mov	x24, x1
	mov	w0, #65536
	strb	w8, [x1]
	mov	w1, #1
	vj_call	rattle_alloc
	str	x0, [sp, #40]
	tbz	w0, #0, 19f
	str	x1, [sp, #32]
	mov	x0, x1
	mov	w1, wzr
	mov	w2, #65536
	mov	w8, #65536
	str	x8, [sp, #24]
	vj_c_call	memset
	movi	v0.2d, #0000000000000000
	sub	x8, x29, #24
	strh	wzr, [sp, #780]
	str	x8, [sp, #16]
	mov	w8, #1
	mov	w23, #1
	strb	wzr, [sp, #782]
	str	xzr, [sp, #656]
	stp	q0, q0, [sp, #480]
	stp	q0, q0, [sp, #512]
	stp	q0, q0, [sp, #576]
	stp	q0, q0, [sp, #608]
	stp	q0, q0, [sp, #672]
	stp	q0, q0, [sp, #704]
	stp	q0, q0, [sp, #736]
	str	q0, [sp, #640]
	str	q0, [sp, #544]
	str	xzr, [sp, #560]
	str	xzr, [sp, #472]
	str	x8, [sp, #8]
	b	20f
14:
	mov	x21, xzr
15:
	add	x1, x19, x21
	sub	x2, x20, x21
	mov	w0, #2
	sub	x22, x20, x21
	vj_system_call	write, b2_write
	tbnz	x0, #63, 32f
	cmp	x0, x22
	csel	x8, x0, x22, lo
	cbz	x8, 74f
	add	x21, x8, x21
	cmp	x21, x20
	b.lo	15b
	mov	w21, wzr
16:
	mov	x22, xzr
17:
	mov	w8, #19
	vj_page	x9, .L1_a64_static.259
	vj_address	x9, x9, .L1_a64_static.259
	sub	x20, x8, x22
	add	x1, x9, x22
	mov	w0, #2
	mov	x2, x20
	vj_system_call	write, b2_write
	tbnz	x0, #63, 33f
	cmp	x0, x20
	csel	x8, x0, x20, lo
	cbz	x8, 18f
	add	x22, x8, x22
	cmp	x22, #19
	b.lo	17b
18:
	tbz	w21, #0, 74f
	b	75f
19:
	mov	x0, x24
	vj_call	rattle_dealloc
	movi	v0.2d, #0000000000000000
	mov	x24, xzr
	mov	x23, xzr
	stp	xzr, xzr, [sp, #8]
	stp	xzr, xzr, [sp, #24]
	strb	wzr, [sp, #782]
	strh	wzr, [sp, #780]
	stp	q0, q0, [sp, #480]
	stp	q0, q0, [sp, #576]
	stp	q0, q0, [sp, #608]
	stp	q0, q0, [sp, #672]
	stp	q0, q0, [sp, #704]
	stp	q0, q0, [sp, #736]
	str	q0, [sp, #640]
	str	xzr, [sp, #656]
	stp	q0, q0, [sp, #512]
	str	q0, [sp, #544]
	str	xzr, [sp, #560]
	str	xzr, [sp, #472]
20:
	mov	x21, xzr
	sub	x22, x29, #24
	mov	w26, #1
	str	xzr, [sp, #464]
	stur	xzr, [x29, #-144]
	stur	xzr, [x29, #-80]
	str	x22, [sp, #784]
	stp	q0, q0, [x29, #-112]
	str	xzr, [sp, #800]
	str	xzr, [sp, #792]
21:
	sub	x0, x29, #112
	mov	x1, x26
	bl	b2sum..argument..53019e254910033c_1_a64
	ldurb	w8, [x29, #-112]
	cbnz	w8, 24f
	ldurb	w8, [x29, #-104]
	ldr	x28, [sp, #800]
	cmp	w8, #1
	b.ne	29f
	ldp	x27, x25, [x29, #-96]
	cmp	x28, x21
	ldur	x28, [x29, #-80]
	b.eq	23f
22:
	mov	w8, #24
	add	x26, x26, #1
	madd	x8, x21, x8, x22
	add	x21, x21, #1
	cmn	x26, #1
	stp	x27, x25, [x8]
	str	x28, [x8, #16]
	str	x21, [sp, #792]
	b.ne	21b
	b	28f
23:
	add	x0, sp, #784
	bl	std_alloc..vec..Vec..grow_amortized..1e3479f4918bcb88_1_a64
	cbz	w0, 56f
	ldr	x21, [sp, #792]
	ldr	x22, [sp, #784]
	b	22b
24:
	ldr	x23, [sp, #800]
	add	x26, sp, #784
	stur	xzr, [x26, #135]
	cbz	x21, 27f
	add	x25, x22, #16
	b	26f
25:
	subs	x21, x21, #1
	add	x25, x25, #24
	b.eq	27f
26:
	ldr	x8, [x25]
	cbz	x8, 25b
	ldur	x0, [x25, #-16]
	vj_call	rattle_dealloc
	b	25b
27:
	cbz	x23, 61f
	mov	x0, x22
	vj_call	rattle_dealloc
	ldur	x22, [x26, #135]
	b	62f
28:
	ldr	x28, [sp, #800]
29:
	ldr	x22, [sp, #784]
	cmp	x28, #0
	ldr	x8, [sp, #40]
	cset	w27, eq
	add	x25, sp, #784
	tbz	w8, #0, 30f
	ldp	q0, q1, [sp, #704]
	add	x0, sp, #48
	stp	x24, x23, [sp, #88]
	ldrh	w8, [sp, #780]
	add	x24, sp, #80
	str	x23, [sp, #104]
	add	x23, sp, #80
	ldr	x9, [sp, #8]
	stp	q0, q1, [sp, #144]
	ldp	q2, q0, [sp, #736]
	sturh	w8, [sp, #81]
	add	x1, sp, #80
	mov	x2, x22
	ldr	x8, [sp, #656]
	strb	w9, [sp, #80]
	mov	x3, x21
	stp	q2, q0, [sp, #176]
	ldp	q1, q0, [sp, #672]
	stp	x8, xzr, [sp, #296]
	add	x8, x24, #232
	ldrb	w9, [sp, #782]
	str	wzr, [sp, #84]
	stp	q1, q0, [sp, #112]
	ldp	q2, q0, [sp, #608]
	ldr	q1, [sp, #640]
	strb	w9, [sp, #83]
	str	xzr, [sp, #208]
	stur	q0, [x23, #184]
	stur	q1, [x23, #200]
	ldp	q0, q1, [sp, #576]
	stur	q2, [x23, #168]
	str	xzr, [sp, #440]
	stur	q0, [x23, #136]
	stur	q1, [x23, #152]
	ldp	q1, q0, [sp, #528]
	stp	x19, x20, [sp, #48]
	stp	q1, q0, [x8, #48]
	ldp	q0, q2, [sp, #496]
	str	q2, [x8, #32]
	ldr	x8, [sp, #560]
	stur	q0, [x23, #248]
	ldp	q0, q1, [sp, #464]
	str	x8, [sp, #392]
	ldr	x8, [sp, #32]
	stur	q1, [x23, #232]
	str	x8, [sp, #400]
	ldr	x8, [sp, #24]
	str	q0, [sp, #448]
	stp	x8, x8, [sp, #408]
	ldr	x8, [sp, #16]
	stp	x8, xzr, [sp, #424]
	sub	x8, x29, #24
	stp	x20, x8, [sp, #64]
	bl	b2sum_commands..program..run_words..82a450bcca081e63_1_a64
	tst	w0, #0xff
	b.eq	34f
	and	w8, w1, #0xff
	cmp	w8, #1
	b.ne	35f
	ldrb	w8, [sp, #208]
	cmp	w8, #1
	b.ne	40f
	ldur	q0, [x23, #170]
	ldur	q1, [x23, #186]
	ldur	q2, [x23, #202]
	ldr	x8, [sp, #296]
	ldrb	w9, [sp, #216]
	stp	q0, q1, [sp, #816]
	ldur	q0, [x23, #138]
	ldur	q1, [x23, #154]
	str	q2, [sp, #848]
	stur	x8, [x25, #78]
	ldrb	w8, [sp, #217]
	stp	q0, q1, [sp, #784]
	b	41f
30:
	mov	w23, #1
	cbnz	x20, 63f
	b	65f
31:
	mov	x0, x19
	mov	x1, x22
	mov	x2, x20
	vj_c_call	memmove
	b	84f
32:
	sub	x0, x29, #112
	bl	std_io..io..error..last_error_1_a64
	b	74f
33:
	sub	x0, x29, #112
	bl	std_io..io..error..last_error_1_a64
	tbz	w21, #0, 74f
	b	75f
34:
	mov	w8, #1
	bic	w23, w8, w1
	b	47f
35:
	vj_page	x3, .L1_a64_static.259
	vj_address	x3, x3, .L1_a64_static.259
	add	x2, x24, #224
	mov	x0, x19
	mov	x1, x20
	mov	w4, #19
	b	45f
36:
	and	x9, x20, #0x18
	and	x8, x20, #0x7fffffffffffffe0
	add	x10, x22, #16
	add	x11, x19, #16
	and	x12, x20, #0x7fffffffffffffe0
37:
	ldp	q0, q1, [x10, #-16]
	subs	x12, x12, #32
	add	x10, x10, #32
	stp	q0, q1, [x11, #-16]
	add	x11, x11, #32
	b.ne	37b
	cmp	x20, x8
	b.eq	84f
	cbz	x9, 82f
38:
	mov	x9, x8
	and	x8, x20, #0x7ffffffffffffff8
39:
	ldr	d0, [x22, x9]
	str	d0, [x19, x9]
	add	x9, x9, #8
	cmp	x8, x9
	b.ne	39b
	b	83f
40:
	movi	v0.2d, #0000000000000000
	mov	w8, #40
	mov	w9, #1
	stur	xzr, [x25, #78]
	stp	q0, q0, [sp, #800]
	stp	q0, q0, [sp, #832]
	str	q0, [sp, #784]
41:
	ldp	q0, q1, [sp, #816]
	sub	x0, x29, #144
	sturb	w9, [x29, #-112]
	ldur	x9, [x25, #78]
	sub	x1, x29, #112
	sturb	w8, [x29, #-111]
	stur	q0, [x25, #194]
	ldr	q0, [sp, #848]
	stur	q1, [x25, #210]
	stur	q0, [x25, #226]
	ldp	q1, q0, [sp, #784]
	stur	x9, [x29, #-32]
	stur	q0, [x25, #178]
	movi	v0.2d, #0000000000000000
	stur	q1, [x25, #162]
	stp	q0, q0, [x29, #-176]
	stp	q0, q0, [x29, #-144]
	bl	b2sum..disk..reason_of_1_a64
	ldurb	w8, [x29, #-144]
	cbz	w8, 42f
	mov	x1, x20
	mov	x0, x19
	b	44f
42:
	ldp	x23, x6, [x29, #-136]
	vj_page	x3, .L1_a64_static.258
	vj_address	x3, x3, .L1_a64_static.258
	ldur	x25, [x29, #-120]
	vj_page	x7, .L1_a64_static.1
	vj_address	x7, x7, .L1_a64_static.1
	sub	x0, x29, #176
	mov	x1, x19
	mov	x2, x20
	mov	w4, #13
	mov	x5, x23
	str	xzr, [sp]
	bl	b2sum_commands..messages..line_of_1_a64
	cbz	x25, 43f
	mov	x0, x23
	vj_call	rattle_dealloc
43:
	ldurb	w8, [x29, #-176]
	cbz	w8, 77f
	ldp	x0, x1, [sp, #48]
44:
	vj_page	x3, .L1_a64_static.257
	vj_address	x3, x3, .L1_a64_static.257
	add	x2, x24, #224
	mov	w4, #14
45:
	bl	b2sum_commands..messages..tell_named..068f3e307c5390f2_1_a64
46:
	mov	w23, #1
47:
	cbz	x20, 48f
	mov	x0, x19
	vj_call	rattle_dealloc
48:
	cbz	x21, 51f
	add	x19, x22, #16
	b	50f
49:
	subs	x21, x21, #1
	add	x19, x19, #24
	b.eq	51f
50:
	ldr	x8, [x19]
	cbz	x8, 49b
	ldur	x0, [x19, #-16]
	vj_call	rattle_dealloc
	b	49b
51:
	cbz	x28, 52f
	mov	x0, x22
	vj_call	rattle_dealloc
52:
	ldrb	w8, [sp, #80]
	ldr	x19, [sp, #88]
	ldr	x20, [sp, #104]
	cbnz	w8, 53f
	ldr	w0, [sp, #84]
	vj_call	b2sum_close
53:
	cbz	x20, 54f
	mov	x0, x19
	vj_call	rattle_dealloc
54:
	ldr	x8, [sp, #416]
	cbz	x8, 55f
	ldr	x0, [sp, #400]
	vj_call	rattle_dealloc
55:
	ldr	x8, [sp, #440]
	cbz	x8, 76f
	ldr	x0, [sp, #424]
	vj_call	rattle_dealloc
	b	76f
56:
	cbz	x28, 57f
	mov	x0, x27
	vj_call	rattle_dealloc
57:
	ldr	x22, [sp, #792]
	ldr	x21, [sp, #784]
	ldr	x23, [sp, #800]
	cbz	x22, 60f
	add	x25, x21, #16
	b	59f
58:
	subs	x22, x22, #1
	add	x25, x25, #24
	b.eq	60f
59:
	ldr	x8, [x25]
	cbz	x8, 58b
	ldur	x0, [x25, #-16]
	vj_call	rattle_dealloc
	b	58b
60:
	cbz	x23, 61f
	mov	x0, x21
	vj_call	rattle_dealloc
61:
	mov	x22, xzr
62:
	mov	x21, xzr
	mov	w23, wzr
	mov	w27, #1
	cbz	x20, 65f
63:
	mov	x25, xzr
64:
	add	x1, x19, x25
	sub	x2, x20, x25
	mov	w0, #2
	sub	x26, x20, x25
	vj_system_call	write, b2_write
	tbnz	x0, #63, 67f
	cmp	x0, x26
	csel	x8, x0, x26, lo
	cbz	x8, 68f
	add	x25, x8, x25
	cmp	x25, x20
	b.lo	64b
65:
	mov	x25, xzr
66:
	mov	w8, #19
	vj_page	x9, .L1_a64_static.259
	vj_address	x9, x9, .L1_a64_static.259
	sub	x26, x8, x25
	add	x1, x9, x25
	mov	w0, #2
	mov	x2, x26
	vj_system_call	write, b2_write
	tbnz	x0, #63, 67f
	cmp	x0, x26
	csel	x8, x0, x26, lo
	cbz	x8, 68f
	add	x25, x8, x25
	cmp	x25, #19
	b.lo	66b
	b	68f
67:
	sub	x0, x29, #112
	bl	std_io..io..error..last_error_1_a64
68:
	ldr	x8, [sp, #40]
	tbz	w8, #0, 69f
	mov	x0, x24
	vj_call	rattle_dealloc
	ldr	x0, [sp, #32]
	vj_call	rattle_dealloc
69:
	cbz	w23, 73f
	cbz	x21, 72f
	add	x23, x22, #16
	b	71f
70:
	subs	x21, x21, #1
	add	x23, x23, #24
	b.eq	72f
71:
	ldr	x8, [x23]
	cbz	x8, 70b
	ldur	x0, [x23, #-16]
	vj_call	rattle_dealloc
	b	70b
72:
	tbnz	w27, #0, 73f
	mov	x0, x22
	vj_call	rattle_dealloc
73:
	cbz	x20, 75f
74:
	mov	x0, x19
	vj_call	rattle_dealloc
75:
	mov	w23, #1
76:
	mov	w0, w23
	add	sp, sp, #1056
	ldp	x20, x19, [sp, #80]
	ldp	x22, x21, [sp, #64]
	ldp	x24, x23, [sp, #48]
	ldp	x26, x25, [sp, #32]
	ldp	x28, x27, [sp, #16]
	ldp	x29, x30, [sp], #96
	ret
77:
	ldp	x23, x25, [x29, #-168]
	ldur	x24, [x29, #-152]
	cbz	x25, 81f
	ldrb	w8, [sp, #304]
	cmp	w8, #1
	b.eq	81f
	mov	x26, xzr
78:
	add	x1, x23, x26
	sub	x2, x25, x26
	mov	w0, #2
	sub	x27, x25, x26
	vj_system_call	write, b2_write
	tbnz	x0, #63, 79f
	cmp	x0, x27
	csel	x8, x0, x27, lo
	cbz	x8, 80f
	add	x26, x8, x26
	cmp	x26, x25
	b.lo	78b
	b	81f
79:
	sub	x0, x29, #112
	bl	std_io..io..error..last_error_1_a64
	add	x8, sp, #784
	ldur	x9, [x29, #-112]
	ldur	q0, [x8, #184]
	ldur	q1, [x8, #200]
	ldur	q2, [x8, #216]
	ldur	q3, [x8, #168]
	stp	q0, q1, [sp, #336]
	ldur	q0, [x8, #232]
	mov	w8, #1
	str	q3, [sp, #320]
	stp	q2, q0, [sp, #368]
	stp	x8, x9, [sp, #304]
	b	81f
80:
	movi	v0.2d, #0000000000000000
	mov	w8, #1
	add	x10, sp, #80
	str	x8, [sp, #304]
	add	x8, x10, #234
	mov	w9, #5889
	strh	w9, [sp, #312]
	stp	q0, q0, [x8, #32]
	str	q0, [x8, #64]
	add	x8, sp, #80
	stur	q0, [x8, #234]
	stur	q0, [x8, #250]
	str	xzr, [sp, #392]
81:
	cbz	x24, 46b
	mov	x0, x23
	vj_call	rattle_dealloc
	b	46b
82:
	ldrb	w9, [x22, x8]
	strb	w9, [x19, x8]
	add	x8, x8, #1
83:
	cmp	x20, x8
	b.ne	82b
84:
	mov	w22, #1
	cbnz	x24, 10b
	b	11b
	vj_end	main_1_a64

	vj_data	static.0_1_a64
.L1_a64_static.0:
	.ascii	"b2sum"

	vj_data	static.1_1_a64
.L1_a64_static.1:

	vj_data	static.4_1_a64
.L1_a64_static.4:
	.ascii	"unrecognized option '--"

	vj_data	static.5_1_a64
.L1_a64_static.5:
	.byte	39

	vj_data	static.6_1_a64
.L1_a64_static.6:
	.ascii	"\001\017\021\022\023\024\025\026\031\032\033\000\002\003\004\005\006\007\b\t\n\013\f\r\016\020\027\030\034\035"

	vj_data	static.7_1_a64
.L1_a64_static.7:
	.ascii	"algorithm"

	vj_data	static.8_1_a64
.L1_a64_static.8:
	.ascii	"length"

	vj_data	static.9_1_a64
.L1_a64_static.9:
	.ascii	"key-file"

	vj_data	static.10_1_a64
.L1_a64_static.10:
	.ascii	"key-hex-file"

	vj_data	static.11_1_a64
.L1_a64_static.11:
	.ascii	"derive-key"

	vj_data	static.12_1_a64
.L1_a64_static.12:
	.ascii	"personal"

	vj_data	static.13_1_a64
.L1_a64_static.13:
	.ascii	"personal-text"

	vj_data	static.14_1_a64
.L1_a64_static.14:
	.ascii	"salt"

	vj_data	static.15_1_a64
.L1_a64_static.15:
	.ascii	"tree"

	vj_data	static.16_1_a64
.L1_a64_static.16:
	.ascii	"threads"

	vj_data	static.17_1_a64
.L1_a64_static.17:
	.ascii	"progress"

	vj_data	static.18_1_a64
.L1_a64_static.18:
	.ascii	"no-names"

	vj_data	static.19_1_a64
.L1_a64_static.19:
	.ascii	"raw"

	vj_data	static.20_1_a64
.L1_a64_static.20:
	.ascii	"show-digests"

	vj_data	static.21_1_a64
.L1_a64_static.21:
	.ascii	"recursive"

	vj_data	static.22_1_a64
.L1_a64_static.22:
	.ascii	"check"

	vj_data	static.23_1_a64
.L1_a64_static.23:
	.ascii	"expect"

	vj_data	static.24_1_a64
.L1_a64_static.24:
	.ascii	"ignore-missing"

	vj_data	static.25_1_a64
.L1_a64_static.25:
	.ascii	"quiet"

	vj_data	static.26_1_a64
.L1_a64_static.26:
	.ascii	"status"

	vj_data	static.27_1_a64
.L1_a64_static.27:
	.ascii	"warn"

	vj_data	static.28_1_a64
.L1_a64_static.28:
	.ascii	"strict"

	vj_data	static.29_1_a64
.L1_a64_static.29:
	.ascii	"tag"

	vj_data	static.30_1_a64
.L1_a64_static.30:
	.ascii	"seal"

	vj_data	static.31_1_a64
.L1_a64_static.31:
	.ascii	"sealed"

	vj_data	static.32_1_a64
.L1_a64_static.32:
	.ascii	"zero"

	vj_data	static.33_1_a64
.L1_a64_static.33:
	.ascii	"binary"

	vj_data	static.34_1_a64
.L1_a64_static.34:
	.ascii	"text"

	vj_data	static.35_1_a64
.L1_a64_static.35:
	.ascii	"help"

	vj_data	static.36_1_a64
.L1_a64_static.36:
	.ascii	"version"

	vj_data	static.37_1_a64
.L1_a64_static.37:
	.ascii	"option '--"

	vj_data	static.38_1_a64
.L1_a64_static.38:
	.ascii	"' is ambiguous; possibilities:"

	vj_data	static.40_1_a64
.L1_a64_static.40:
	.ascii	"' doesn't allow an argument"

	vj_data	static.41_1_a64
.L1_a64_static.41:
	.ascii	"invalid option -- '"

	vj_data	static.42_1_a64
.L1_a64_static.42:
	.ascii	"invalid context: "

	vj_data	static.43_1_a64
.L1_a64_static.43:
	.ascii	"invalid personalization: "

	vj_data	static.44_1_a64
.L1_a64_static.44:
	.ascii	"invalid salt: "

	vj_data	static.45_1_a64
.L1_a64_static.45:
	.ascii	"blake2b"

	vj_data	static.46_1_a64
.L1_a64_static.46:
	.ascii	"blake2s"

	vj_constants	8
.L1_a64_static.47:
	.ascii	"blake2bp"

.L1_a64_static.48:
	.ascii	"blake2sp"

	vj_data	static.49_1_a64
.L1_a64_static.49:
	.ascii	"invalid algorithm: "

	vj_constants	16
.L1_a64_static.50:
	.ascii	"invalid digest: "

	vj_data	static.51_1_a64
.L1_a64_static.51:
	.ascii	"the value has no digits"

	vj_data	static.52_1_a64
.L1_a64_static.52:
	.ascii	"a digest has at most 512 bits"

	vj_data	static.53_1_a64
.L1_a64_static.53:
	.ascii	"the value is not hexadecimal digits, two for each byte"

	vj_data	static.54_1_a64
.L1_a64_static.54:
	.ascii	"the value has no bytes"

	vj_data	static.55_1_a64
.L1_a64_static.55:
	.ascii	"a value of zeros only is the same as none"

	vj_constants	32
.L1_a64_static.56:
	.ascii	"a leaf has 1 to 4294967295 bytes"

	vj_data	static.57_1_a64
.L1_a64_static.57:
	.ascii	"invalid leaf length: "

	vj_data	static.58_1_a64
.L1_a64_static.58:
	.ascii	": Value too large for defined data type"

	vj_data	static.59_1_a64
.L1_a64_static.59:
	.ascii	"the value is not a number of threads, or 0 for all processors"

	vj_data	static.60_1_a64
.L1_a64_static.60:
	.ascii	"invalid number of threads: "

	vj_constants	16
.L1_a64_static.61:
	.ascii	"invalid length: "

	vj_data	static.62_1_a64
.L1_a64_static.62:
	.ascii	"length is not a multiple of 8"

	vj_constants	32
.L1_a64_static.63:
	.ascii	"option requires an argument -- '"

	vj_data	static.64_1_a64
.L1_a64_static.64:
	.ascii	"' requires an argument"

	vj_data	static.65_1_a64
.L1_a64_static.65:
	.ascii	"' is 256 bits"

	vj_data	static.66_1_a64
.L1_a64_static.66:
	.ascii	"' is 512 bits"

	vj_data	static.67_1_a64
.L1_a64_static.67:
	.ascii	"maximum digest length for '"

	vj_data	static.68_1_a64
.L1_a64_static.68:
	.ascii	"BLAKE2b"

	vj_data	static.69_1_a64
.L1_a64_static.69:
	.ascii	"BLAKE2s"

	vj_data	static.72_1_a64
.L1_a64_static.72:
	.ascii	"BLAKE2b-tree-"

	vj_data	static.73_1_a64
.L1_a64_static.73:
	.ascii	"the --derive-key option needs --key-file"

	vj_data	static.74_1_a64
.L1_a64_static.74:
	.ascii	"the --seal option is meaningless when verifying checksums"

	vj_data	static.75_1_a64
.L1_a64_static.75:
	.ascii	"the --seal option does not support --tree"

	vj_data	static.76_1_a64
.L1_a64_static.76:
	.ascii	"the --seal option does not support --zero"

	vj_data	static.77_1_a64
.L1_a64_static.77:
	.ascii	"the --seal option does not support --no-names and --raw"

	vj_data	static.79_1_a64
.L1_a64_static.79:
	.ascii	"--seal does not support --text mode"

	vj_data	static.80_1_a64
.L1_a64_static.80:
	.ascii	"the --seal option needs --key-file"

	vj_data	static.81_1_a64
.L1_a64_static.81:
	.ascii	"the --sealed option is meaningful only when verifying checksums"

	vj_data	static.82_1_a64
.L1_a64_static.82:
	.ascii	"the --sealed option needs --key-file"

	vj_data	static.83_1_a64
.L1_a64_static.83:
	.ascii	"the --recursive option does not support --expect"

	vj_data	static.84_1_a64
.L1_a64_static.84:
	.ascii	"the --recursive option does not support --raw"

	vj_data	static.85_1_a64
.L1_a64_static.85:
	.ascii	"the --recursive option needs --sealed when verifying checksums"

	vj_data	static.86_1_a64
.L1_a64_static.86:
	.ascii	"the --expect option does not support --sealed"

	vj_data	static.87_1_a64
.L1_a64_static.87:
	.ascii	"the --expect option does not support --strict and --ignore-missing"

	vj_data	static.88_1_a64
.L1_a64_static.88:
	.ascii	"the expected digest does not have the length of the digests"

	vj_data	static.89_1_a64
.L1_a64_static.89:
	.ascii	"--tag does not support --text mode"

	vj_data	static.90_1_a64
.L1_a64_static.90:
	.ascii	"--tag does not support --no-names and --raw"

	vj_data	static.91_1_a64
.L1_a64_static.91:
	.ascii	"the --personal and --personal-text options are mutually exclusive"

	vj_data	static.92_1_a64
.L1_a64_static.92:
	.ascii	"the --key-file and --key-hex-file options are mutually exclusive"

	vj_data	static.93_1_a64
.L1_a64_static.93:
	.ascii	"the --tree option supports blake2b only"

	vj_data	static.94_1_a64
.L1_a64_static.94:
	.ascii	"the --tree option does not support --key-file"

	vj_data	static.95_1_a64
.L1_a64_static.95:
	.ascii	"--tree does not support --text mode"

	vj_data	static.96_1_a64
.L1_a64_static.96:
	.ascii	"the --threads option is meaningful only with --tree"

	vj_data	static.97_1_a64
.L1_a64_static.97:
	.ascii	"the --zero option is not supported when verifying checksums"

	vj_data	static.98_1_a64
.L1_a64_static.98:
	.ascii	"the --tag option is meaningless when verifying checksums"

	vj_data	static.99_1_a64
.L1_a64_static.99:
	.ascii	"the --binary and --text options are meaningless when verifying checksums"

	vj_data	static.100_1_a64
.L1_a64_static.100:
	.ascii	"the --no-names and --raw options are meaningless when verifying checksums"

	vj_data	static.101_1_a64
.L1_a64_static.101:
	.ascii	"--show-digests does not support --key-file: it would print a valid MAC of a changed file"

	vj_data	static.102_1_a64
.L1_a64_static.102:
	.ascii	"the --ignore-missing option is meaningful only when verifying checksums"

	vj_data	static.103_1_a64
.L1_a64_static.103:
	.ascii	"the --status option is meaningful only when verifying checksums"

	vj_data	static.104_1_a64
.L1_a64_static.104:
	.ascii	"the --warn option is meaningful only when verifying checksums"

	vj_data	static.105_1_a64
.L1_a64_static.105:
	.ascii	"the --quiet option is meaningful only when verifying checksums"

	vj_data	static.106_1_a64
.L1_a64_static.106:
	.ascii	"the --strict option is meaningful only when verifying checksums"

	vj_data	static.107_1_a64
.L1_a64_static.107:
	.ascii	"the --show-digests option is meaningful only when verifying checksums"

	vj_data	static.108_1_a64
.L1_a64_static.108:
	.ascii	"the salt is too long: at most 16 bytes, 8 for BLAKE2s and BLAKE2sp"

	vj_data	static.109_1_a64
.L1_a64_static.109:
	.ascii	"the personalization is too long: at most 16 bytes, 8 for BLAKE2s and BLAKE2sp"

	vj_data	static.110_1_a64
.L1_a64_static.110:
	.ascii	"the --raw option needs one file"

	vj_data	static.111_1_a64
.L1_a64_static.111:
	.ascii	"standard input is the key, and cannot be a file too"

	vj_data	static.113_1_a64
.L1_a64_static.113:
	.byte	244

	vj_data	static.114_1_a64
.L1_a64_static.114:
	.ascii	"file name contained an unexpected NUL byte"

	vj_data	static.118_1_a64
.L1_a64_static.118:
	.ascii	"gave up reading or writing after 2^64 tries"

	vj_data	static.119_1_a64
.L1_a64_static.119:
	.ascii	"a key has 2 to 128 hexadecimal digits, two for each byte"

	vj_data	static.120_1_a64
.L1_a64_static.120:
	.ascii	"a key of BLAKE2s or BLAKE2sp has 2 to 64 hexadecimal digits, two for each byte"

	vj_data	static.121_1_a64
.L1_a64_static.121:
	.ascii	"a key has 1 to 64 bytes"

	vj_data	static.122_1_a64
.L1_a64_static.122:
	.ascii	"a key of BLAKE2s or BLAKE2sp has 1 to 32 bytes"

	vj_data	static.123_1_a64
.L1_a64_static.123:
	.ascii	": "

	vj_data	static.124_1_a64
.L1_a64_static.124:
	.ascii	" !\"$&'()*:;<=>?[\\^`|"

	vj_data	static.125_1_a64
.L1_a64_static.125:
	.ascii	" %'+,-./:]_"

	vj_data	static.128_1_a64
.L1_a64_static.128:
	.ascii	"'$'"

	vj_data	static.129_1_a64
.L1_a64_static.129:
	.ascii	" (os error "

	vj_data	static.130_1_a64
.L1_a64_static.130:
	.byte	41

	vj_constants	4
.L1_a64_static.131:
	.zero	4,32

	vj_constants	16
.L1_a64_static.133:
	.ascii	"entity not found"

	vj_data	static.134_1_a64
.L1_a64_static.134:
	.ascii	"permission denied"

	vj_data	static.135_1_a64
.L1_a64_static.135:
	.ascii	"connection refused"

	vj_constants	16
.L1_a64_static.136:
	.ascii	"connection reset"

.L1_a64_static.137:
	.ascii	"host unreachable"

	vj_data	static.138_1_a64
.L1_a64_static.138:
	.ascii	"network unreachable"

	vj_data	static.139_1_a64
.L1_a64_static.139:
	.ascii	"connection aborted"

	vj_data	static.140_1_a64
.L1_a64_static.140:
	.ascii	"not connected"

	vj_data	static.141_1_a64
.L1_a64_static.141:
	.ascii	"address in use"

	vj_data	static.142_1_a64
.L1_a64_static.142:
	.ascii	"address not available"

	vj_data	static.143_1_a64
.L1_a64_static.143:
	.ascii	"network down"

	vj_data	static.144_1_a64
.L1_a64_static.144:
	.ascii	"broken pipe"

	vj_data	static.145_1_a64
.L1_a64_static.145:
	.ascii	"entity already exists"

	vj_data	static.146_1_a64
.L1_a64_static.146:
	.ascii	"operation would block"

	vj_data	static.147_1_a64
.L1_a64_static.147:
	.ascii	"not a directory"

	vj_data	static.148_1_a64
.L1_a64_static.148:
	.ascii	"is a directory"

	vj_data	static.149_1_a64
.L1_a64_static.149:
	.ascii	"directory not empty"

	vj_data	static.150_1_a64
.L1_a64_static.150:
	.ascii	"read-only filesystem or storage medium"

	vj_data	static.151_1_a64
.L1_a64_static.151:
	.ascii	"filesystem loop or indirection limit (e.g. symlink loop)"

	vj_data	static.152_1_a64
.L1_a64_static.152:
	.ascii	"stale network file handle"

	vj_data	static.153_1_a64
.L1_a64_static.153:
	.ascii	"invalid input parameter"

	vj_data	static.154_1_a64
.L1_a64_static.154:
	.ascii	"invalid data"

	vj_data	static.155_1_a64
.L1_a64_static.155:
	.ascii	"timed out"

	vj_data	static.156_1_a64
.L1_a64_static.156:
	.ascii	"write zero"

	vj_constants	16
.L1_a64_static.157:
	.ascii	"no storage space"

	vj_data	static.158_1_a64
.L1_a64_static.158:
	.ascii	"seek on unseekable file"

	vj_data	static.159_1_a64
.L1_a64_static.159:
	.ascii	"quota exceeded"

	vj_data	static.160_1_a64
.L1_a64_static.160:
	.ascii	"file too large"

	vj_data	static.161_1_a64
.L1_a64_static.161:
	.ascii	"resource busy"

	vj_data	static.162_1_a64
.L1_a64_static.162:
	.ascii	"executable file busy"

	vj_constants	8
.L1_a64_static.163:
	.ascii	"deadlock"

	vj_data	static.164_1_a64
.L1_a64_static.164:
	.ascii	"cross-device link or rename"

	vj_data	static.165_1_a64
.L1_a64_static.165:
	.ascii	"too many links"

	vj_constants	16
.L1_a64_static.166:
	.ascii	"invalid filename"

	vj_data	static.167_1_a64
.L1_a64_static.167:
	.ascii	"argument list too long"

	vj_data	static.168_1_a64
.L1_a64_static.168:
	.ascii	"operation interrupted"

	vj_data	static.169_1_a64
.L1_a64_static.169:
	.ascii	"unsupported"

	vj_data	static.170_1_a64
.L1_a64_static.170:
	.ascii	"unexpected end of file"

	vj_data	static.171_1_a64
.L1_a64_static.171:
	.ascii	"out of memory"

	vj_data	static.172_1_a64
.L1_a64_static.172:
	.ascii	"in progress"

	vj_data	static.173_1_a64
.L1_a64_static.173:
	.ascii	"other error"

	vj_data	static.174_1_a64
.L1_a64_static.174:
	.ascii	"uncategorized error"

	vj_data	static.175_1_a64
.L1_a64_static.175:
	.ascii	": has only hexadecimal digits, which --key-hex-file would decode"

	vj_data	static.176_1_a64
.L1_a64_static.176:
	.ascii	"WARNING: "

	vj_data	static.179_1_a64
.L1_a64_static.179:
	.ascii	": WARNING: MACs below 128 bits can be guessed\n"

	vj_data	static.184_1_a64
.L1_a64_static.184:
	.ascii	"  expected: "

	vj_data	static.185_1_a64
.L1_a64_static.185:
	.ascii	"  found:    "

	vj_data	static.186_1_a64
.L1_a64_static.186:
	.ascii	": OK\n"

	vj_data	static.187_1_a64
.L1_a64_static.187:
	.ascii	": FAILED open or read\n"

	vj_data	static.188_1_a64
.L1_a64_static.188:
	.ascii	": FAILED\n"

	vj_constants	16
.L1_a64_static.189:
	.ascii	"0123456789abcdef"

	vj_data	static.190_1_a64
.L1_a64_static.190:
	.byte	10

	vj_data	static.193_1_a64
.L1_a64_static.193:
	.ascii	"\\n"

	vj_data	static.194_1_a64
.L1_a64_static.194:
	.ascii	"\\r"

	vj_data	static.195_1_a64
.L1_a64_static.195:
	.ascii	"the seal does not hold"

	vj_data	static.196_1_a64
.L1_a64_static.196:
	.ascii	"the list has more than 268435456 bytes"

	vj_data	static.197_1_a64
.L1_a64_static.197:
	.ascii	"# sealed "

	vj_data	static.198_1_a64
.L1_a64_static.198:
	.byte	32

	vj_data	static.199_1_a64
.L1_a64_static.199:
	.ascii	"b2sum sealed"

	vj_data	static.203_1_a64
.L1_a64_static.203:
	.ascii	"-salt"

	vj_data	static.204_1_a64
.L1_a64_static.204:
	.ascii	"-personal"

	vj_constants	4
.L1_a64_static.205:
	.ascii	"\364\217\274\200"

	vj_data	static.216_1_a64
.L1_a64_static.216:
	.ascii	": checksum line of another algorithm"

	vj_data	static.217_1_a64
.L1_a64_static.217:
	.ascii	"standard input"

	vj_data	static.218_1_a64
.L1_a64_static.218:
	.ascii	": improperly formatted "

	vj_data	static.219_1_a64
.L1_a64_static.219:
	.ascii	" checksum line"

	vj_data	static.220_1_a64
.L1_a64_static.220:
	.ascii	": needs"

	vj_constants	4
.L1_a64_static.221:
	.ascii	" no "

	vj_data	static.222_1_a64
.L1_a64_static.222:
	.ascii	"--key-file"

	vj_data	static.223_1_a64
.L1_a64_static.223:
	.ascii	"--salt"

	vj_data	static.224_1_a64
.L1_a64_static.224:
	.ascii	"--personal"

	vj_data	static.225_1_a64
.L1_a64_static.225:
	.ascii	" --algorithm blake2b"

	vj_data	static.226_1_a64
.L1_a64_static.226:
	.ascii	" --algorithm blake2s"

	vj_data	static.227_1_a64
.L1_a64_static.227:
	.ascii	" --algorithm blake2bp"

	vj_data	static.228_1_a64
.L1_a64_static.228:
	.ascii	" --algorithm blake2sp"

	vj_data	static.230_1_a64
.L1_a64_static.230:
	.ascii	" --length "

	vj_data	static.231_1_a64
.L1_a64_static.231:
	.ascii	"read error"

	vj_data	static.232_1_a64
.L1_a64_static.232:
	.ascii	": no properly formatted checksum lines found"

	vj_data	static.233_1_a64
.L1_a64_static.233:
	.ascii	": lines need"

	vj_data	static.234_1_a64
.L1_a64_static.234:
	.ascii	" line is improperly formatted"

	vj_data	static.235_1_a64
.L1_a64_static.235:
	.ascii	" lines are improperly formatted"

	vj_data	static.236_1_a64
.L1_a64_static.236:
	.ascii	" line needs other options"

	vj_data	static.237_1_a64
.L1_a64_static.237:
	.ascii	" lines need other options"

	vj_data	static.238_1_a64
.L1_a64_static.238:
	.ascii	" listed file could not be read"

	vj_data	static.239_1_a64
.L1_a64_static.239:
	.ascii	" listed files could not be read"

	vj_constants	32
.L1_a64_static.240:
	.ascii	" computed checksum did NOT match"

	vj_data	static.241_1_a64
.L1_a64_static.241:
	.ascii	" computed checksums did NOT match"

	vj_data	static.242_1_a64
.L1_a64_static.242:
	.ascii	": no file was verified"

	vj_constants	4
.L1_a64_static.243:
	.ascii	"\364\217\274\201"

	vj_data	static.245_1_a64
.L1_a64_static.245:
	.ascii	"is not in the list"

	vj_data	static.247_1_a64
.L1_a64_static.247:
	.ascii	" ("

	vj_constants	4
.L1_a64_static.248:
	.ascii	") = "

	vj_data	static.250_1_a64
.L1_a64_static.250:
	.ascii	" *"

	vj_data	static.251_1_a64
.L1_a64_static.251:
	.ascii	"is not a regular file"

	vj_data	static.252_1_a64
.L1_a64_static.252:
	.ascii	"Usage: "

	vj_data	static.253_1_a64
.L1_a64_static.253:
	.ascii	" [OPTION].. [FILE]..\nPrint or check BLAKE2 digests. Without FILE and --recursive, or for -, read standard input.\n\n  -a, --algorithm NAME  blake2b (the default), blake2s, blake2bp or blake2sp\n  -l, --length BITS     length of the digests: a multiple of 8, at most 512, or 256 for blake2s\n                        and blake2sp\n  -b, --binary          print * before each name\n  -t, --text            print a space before each name (the default)\n      --tag             print lines that name the algorithm\n      --seal            print lines as --tag does, and one that seals them; needs --key-file\n  -z, --zero            end each line with a zero byte, and do not escape names\n      --no-names        print only the digits of each digest\n      --raw             print only the bytes of the digest of one FILE\n      --key-file FILE   use the bytes of the file, or of standard input if it is -, as the key:\n                        at most 64, or 32 for blake2s and blake2sp\n      --key-hex-file FILE\n                        use the key that the hexadecimal digits of the file write\n      --derive-key CONTEXT\n                        for the purpose CONTEXT, use a key that is derived from that of the file\n      --salt HEX        use this salt: at most 16 bytes, or 8 for blake2s and blake2sp\n      --personal HEX    use this personalization: at most 16 bytes, or 8 for blake2s and blake2sp\n      --personal-text TEXT\n                        use the bytes of TEXT as the personalization\n      --tree LEAF       print roots of trees of blake2b with leaves of LEAF bytes, such as 65536,\n                        which is fastest for large files\n      --recursive DIR   print the lines of all files in DIR and below; with --check --sealed, name\n                        what is there and not in the list\n  -c, --check           read digests from the FILEs and check them\n      --expect DIGEST   check that each FILE has this digest, whose digits tell its length\n      --ignore-missing  do not fail for missing files\n      --quiet           do not print OK\n      --status          print nothing, the status shows success\n      --sealed          with --check, believe only lists whose seal holds; needs --key-file\n      --strict          fail for improperly formatted lines\n      --show-digests    print the expected and the found digest of each file that differs\n  -w, --warn            warn about each line that is improperly formatted or needs other options\n      --threads N       hash trees by at most N threads; 0, the default: all processors\n      --progress        show the progress of long reads on a terminal\n      --help            print this help\n      --version         print the version\n\nThe status is 0 for success, and 1 for a file that cannot be read, a check that fails, wrong\noptions, or output that cannot be written.\n"

	vj_data	static.254_1_a64
.L1_a64_static.254:
	.ascii	"b2sum (Vulfsjor) 0.1.0\n"

	vj_data	static.255_1_a64
.L1_a64_static.255:
	.ascii	" --help' for more information.\n"

	vj_data	static.256_1_a64
.L1_a64_static.256:
	.ascii	"Try '"

	vj_data	static.257_1_a64
.L1_a64_static.257:
	.ascii	": write error\n"

	vj_data	static.258_1_a64
.L1_a64_static.258:
	.ascii	"write error: "

	vj_data	static.259_1_a64
.L1_a64_static.259:
	.ascii	": memory exhausted\n"

	vj_data	Lswitch.table.b2sum_commands..program..run_words..82a450bcca081e63_1_a64
	.p2align	3, 0x0
.L1_a64_switch.table.b2sum_commands..program..run_words..82a450bcca081e63_1_a64:
	.quad	8
	.quad	8
	.quad	3
	.quad	12
	.quad	9
	.quad	5
	.quad	6
	.quad	14
	.quad	5
	.quad	6
	.quad	4
	.quad	6
	.quad	3
	.quad	4
	.quad	6
	.quad	4
	.quad	6
	.quad	4
	.quad	4
	.quad	7

	vj_data	Lswitch.table.b2sum_commands..program..run_words..82a450bcca081e63.394.rel_1_a64
	.p2align	2, 0x0
.L1_a64_switch.table.b2sum_commands..program..run_words..82a450bcca081e63.394.rel_1_a64:
	.long	.L1_a64_static.17-.L1_a64_switch.table.b2sum_commands..program..run_words..82a450bcca081e63.394.rel_1_a64
	.long	.L1_a64_static.18-.L1_a64_switch.table.b2sum_commands..program..run_words..82a450bcca081e63.394.rel_1_a64
	.long	.L1_a64_static.19-.L1_a64_switch.table.b2sum_commands..program..run_words..82a450bcca081e63.394.rel_1_a64
	.long	.L1_a64_static.20-.L1_a64_switch.table.b2sum_commands..program..run_words..82a450bcca081e63.394.rel_1_a64
	.long	.L1_a64_static.21-.L1_a64_switch.table.b2sum_commands..program..run_words..82a450bcca081e63.394.rel_1_a64
	.long	.L1_a64_static.22-.L1_a64_switch.table.b2sum_commands..program..run_words..82a450bcca081e63.394.rel_1_a64
	.long	.L1_a64_static.23-.L1_a64_switch.table.b2sum_commands..program..run_words..82a450bcca081e63.394.rel_1_a64
	.long	.L1_a64_static.24-.L1_a64_switch.table.b2sum_commands..program..run_words..82a450bcca081e63.394.rel_1_a64
	.long	.L1_a64_static.25-.L1_a64_switch.table.b2sum_commands..program..run_words..82a450bcca081e63.394.rel_1_a64
	.long	.L1_a64_static.26-.L1_a64_switch.table.b2sum_commands..program..run_words..82a450bcca081e63.394.rel_1_a64
	.long	.L1_a64_static.27-.L1_a64_switch.table.b2sum_commands..program..run_words..82a450bcca081e63.394.rel_1_a64
	.long	.L1_a64_static.28-.L1_a64_switch.table.b2sum_commands..program..run_words..82a450bcca081e63.394.rel_1_a64
	.long	.L1_a64_static.29-.L1_a64_switch.table.b2sum_commands..program..run_words..82a450bcca081e63.394.rel_1_a64
	.long	.L1_a64_static.30-.L1_a64_switch.table.b2sum_commands..program..run_words..82a450bcca081e63.394.rel_1_a64
	.long	.L1_a64_static.31-.L1_a64_switch.table.b2sum_commands..program..run_words..82a450bcca081e63.394.rel_1_a64
	.long	.L1_a64_static.32-.L1_a64_switch.table.b2sum_commands..program..run_words..82a450bcca081e63.394.rel_1_a64
	.long	.L1_a64_static.33-.L1_a64_switch.table.b2sum_commands..program..run_words..82a450bcca081e63.394.rel_1_a64
	.long	.L1_a64_static.34-.L1_a64_switch.table.b2sum_commands..program..run_words..82a450bcca081e63.394.rel_1_a64
	.long	.L1_a64_static.35-.L1_a64_switch.table.b2sum_commands..program..run_words..82a450bcca081e63.394.rel_1_a64
	.long	.L1_a64_static.36-.L1_a64_switch.table.b2sum_commands..program..run_words..82a450bcca081e63.394.rel_1_a64

	vj_data	Lswitch.table.b2sum_commands..program..run_words..82a450bcca081e63.395_1_a64
	.p2align	3, 0x0
.L1_a64_switch.table.b2sum_commands..program..run_words..82a450bcca081e63.395_1_a64:
	.quad	9
	.quad	6
	.quad	8
	.quad	12
	.quad	10
	.quad	8
	.quad	13
	.quad	4
	.quad	4
	.quad	7
	.quad	8
	.quad	8
	.quad	3
	.quad	12
	.quad	9
	.quad	5
	.quad	6

	vj_data	Lswitch.table.b2sum_commands..program..run_words..82a450bcca081e63.396.rel_1_a64
	.p2align	2, 0x0
.L1_a64_switch.table.b2sum_commands..program..run_words..82a450bcca081e63.396.rel_1_a64:
	.long	.L1_a64_static.7-.L1_a64_switch.table.b2sum_commands..program..run_words..82a450bcca081e63.396.rel_1_a64
	.long	.L1_a64_static.8-.L1_a64_switch.table.b2sum_commands..program..run_words..82a450bcca081e63.396.rel_1_a64
	.long	.L1_a64_static.9-.L1_a64_switch.table.b2sum_commands..program..run_words..82a450bcca081e63.396.rel_1_a64
	.long	.L1_a64_static.10-.L1_a64_switch.table.b2sum_commands..program..run_words..82a450bcca081e63.396.rel_1_a64
	.long	.L1_a64_static.11-.L1_a64_switch.table.b2sum_commands..program..run_words..82a450bcca081e63.396.rel_1_a64
	.long	.L1_a64_static.12-.L1_a64_switch.table.b2sum_commands..program..run_words..82a450bcca081e63.396.rel_1_a64
	.long	.L1_a64_static.13-.L1_a64_switch.table.b2sum_commands..program..run_words..82a450bcca081e63.396.rel_1_a64
	.long	.L1_a64_static.14-.L1_a64_switch.table.b2sum_commands..program..run_words..82a450bcca081e63.396.rel_1_a64
	.long	.L1_a64_static.15-.L1_a64_switch.table.b2sum_commands..program..run_words..82a450bcca081e63.396.rel_1_a64
	.long	.L1_a64_static.16-.L1_a64_switch.table.b2sum_commands..program..run_words..82a450bcca081e63.396.rel_1_a64
	.long	.L1_a64_static.17-.L1_a64_switch.table.b2sum_commands..program..run_words..82a450bcca081e63.396.rel_1_a64
	.long	.L1_a64_static.18-.L1_a64_switch.table.b2sum_commands..program..run_words..82a450bcca081e63.396.rel_1_a64
	.long	.L1_a64_static.19-.L1_a64_switch.table.b2sum_commands..program..run_words..82a450bcca081e63.396.rel_1_a64
	.long	.L1_a64_static.20-.L1_a64_switch.table.b2sum_commands..program..run_words..82a450bcca081e63.396.rel_1_a64
	.long	.L1_a64_static.21-.L1_a64_switch.table.b2sum_commands..program..run_words..82a450bcca081e63.396.rel_1_a64
	.long	.L1_a64_static.22-.L1_a64_switch.table.b2sum_commands..program..run_words..82a450bcca081e63.396.rel_1_a64
	.long	.L1_a64_static.23-.L1_a64_switch.table.b2sum_commands..program..run_words..82a450bcca081e63.396.rel_1_a64

	vj_data	Lswitch.table.b2sum_commands..program..run_words..82a450bcca081e63.397_1_a64
	.p2align	3, 0x0
.L1_a64_switch.table.b2sum_commands..program..run_words..82a450bcca081e63.397_1_a64:
	.quad	512
	.quad	256
	.quad	512
	.quad	256
	.quad	512

	vj_data	Lswitch.table.b2sum_commands..program..run_words..82a450bcca081e63.398.rel_1_a64
	.p2align	2, 0x0
.L1_a64_switch.table.b2sum_commands..program..run_words..82a450bcca081e63.398.rel_1_a64:
	.long	.L1_a64_static.66-.L1_a64_switch.table.b2sum_commands..program..run_words..82a450bcca081e63.398.rel_1_a64
	.long	.L1_a64_static.65-.L1_a64_switch.table.b2sum_commands..program..run_words..82a450bcca081e63.398.rel_1_a64
	.long	.L1_a64_static.66-.L1_a64_switch.table.b2sum_commands..program..run_words..82a450bcca081e63.398.rel_1_a64
	.long	.L1_a64_static.65-.L1_a64_switch.table.b2sum_commands..program..run_words..82a450bcca081e63.398.rel_1_a64
	.long	.L1_a64_static.66-.L1_a64_switch.table.b2sum_commands..program..run_words..82a450bcca081e63.398.rel_1_a64

	vj_data	Lswitch.table.b2sum_commands..program..run_words..82a450bcca081e63.400_1_a64
	.p2align	3, 0x0
.L1_a64_switch.table.b2sum_commands..program..run_words..82a450bcca081e63.400_1_a64:
	.quad	16
	.quad	8
	.quad	16
	.quad	8
	.quad	16

	vj_data	Lswitch.table.b2sum_commands..options..long_flag.409_1_a64
	.p2align	3, 0x0
.L1_a64_switch.table.b2sum_commands..options..long_flag.409_1_a64:
	.quad	9
	.quad	6
	.quad	8
	.quad	12
	.quad	10
	.quad	8
	.quad	13
	.quad	4
	.quad	4
	.quad	7
	.quad	8
	.quad	8
	.quad	3
	.quad	12
	.quad	9
	.quad	5
	.quad	6
	.quad	14
	.quad	5
	.quad	6
	.quad	4
	.quad	6
	.quad	3
	.quad	4
	.quad	6
	.quad	4
	.quad	6
	.quad	4
	.quad	4
	.quad	7

	vj_relocated	Lswitch.table.b2sum_commands..options..long_flag.410_1_a64
	.p2align	3, 0x0
.L1_a64_switch.table.b2sum_commands..options..long_flag.410_1_a64:
	.quad	.L1_a64_static.7
	.quad	.L1_a64_static.8
	.quad	.L1_a64_static.9
	.quad	.L1_a64_static.10
	.quad	.L1_a64_static.11
	.quad	.L1_a64_static.12
	.quad	.L1_a64_static.13
	.quad	.L1_a64_static.14
	.quad	.L1_a64_static.15
	.quad	.L1_a64_static.16
	.quad	.L1_a64_static.17
	.quad	.L1_a64_static.18
	.quad	.L1_a64_static.19
	.quad	.L1_a64_static.20
	.quad	.L1_a64_static.21
	.quad	.L1_a64_static.22
	.quad	.L1_a64_static.23
	.quad	.L1_a64_static.24
	.quad	.L1_a64_static.25
	.quad	.L1_a64_static.26
	.quad	.L1_a64_static.27
	.quad	.L1_a64_static.28
	.quad	.L1_a64_static.29
	.quad	.L1_a64_static.30
	.quad	.L1_a64_static.31
	.quad	.L1_a64_static.32
	.quad	.L1_a64_static.33
	.quad	.L1_a64_static.34
	.quad	.L1_a64_static.35
	.quad	.L1_a64_static.36

	vj_data	Lswitch.table.b2sum_lines..reads..digest_of_digits_1_a64
	.p2align	3, 0x0
.L1_a64_switch.table.b2sum_lines..reads..digest_of_digits_1_a64:
	.quad	128
	.quad	64
	.quad	128
	.quad	64
	.quad	128

	vj_data	Lswitch.table.b2sum_lines..writes..push_body_1_a64
	.p2align	3, 0x0
.L1_a64_switch.table.b2sum_lines..writes..push_body_1_a64:
	.quad	64
	.quad	32
	.quad	64
	.quad	32
	.quad	64

