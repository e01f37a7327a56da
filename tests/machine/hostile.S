/* A program that calls functions as the calling convention allows, and is their C library. What a function need not
   keep is overwritten before each call, and by memcpy, memmove and memset: registers, masks, flags, and the stack
   below. hostile.c has the block of a call.  */
#define MASKS 8
#define LEAVES 16
#define RESULT 24
#define SAVED 40
#define LINK 48
#define ARGUMENTS 56
#define AFTER 152
#define JUNK 512
#define OWN (JUNK + 1024)
#define FILLED 1984
	.text
	.globl	_start, system_call, memcpy, memmove, memset
#ifdef __x86_64__
/* The general registers but those of arguments and rsp; vectors and masks; flags but the direction.  */
	.macro	overwrite
	leaq	JUNK+block(%rip), %r11
	cmpl	$0, MASKS+block(%rip)
	je	1f
	.irp	n, 0,1,2,3,4,5,6,7,8,9,10,11,12,13,14,15,16,17,18,19,20,21,22,23,24,25,26,27,28,29,30,31
	vmovdqu64	64*\n(%r11), %zmm\n
	.endr
	.irp	n, 0,1,2,3,4,5,6,7
	kmovq	8*\n(%r11), %k\n
	.endr
	jmp	2f
1:	.irp	n, 0,1,2,3,4,5,6,7,8,9,10,11,12,13,14,15
	vmovdqu	64*\n(%r11), %ymm\n
	.endr
2:	cmpl	$0, LEAVES+block(%rip)
	jne	4f
	movq	$-FILLED, %rax
3:	movq	2048(%r11,%rax), %r10
	movq	%r10, -8(%rsp,%rax)
	addq	$8, %rax
	jne	3b
4:	movq	264(%r11), %r10
	andl	$0x8d5, %r10d
	pushq	%r10
	popfq
	movq	272(%r11), %rax
	movq	280(%r11), %r10
	movq	288(%r11), %r11
	.endm

memset:	callq	fill
	jmp	returns
memcpy:
memmove:
	callq	copy
returns:
	pushq	%rax
	leaq	JUNK+block(%rip), %r11
	.irp	r, rdi,rsi,rdx,rcx,r8,r9
	movq	512(%r11), %\r
	addq	$8, %r11
	.endr
	overwrite
	popq	%rax
	retq

system_call:	movl	%ecx, %eax
	syscall
	retq

_start:	callq	read_block
	subq	$512, %rsp
	movq	%rsp, SAVED+block(%rip)
	.irp	k, 11,10,9,8,7,6
	pushq	ARGUMENTS+8*\k+block(%rip)
	.endr
	leaq	OWN+block(%rip), %r11
	.irp	r, rbx,rbp,r12,r13,r14,r15
	movq	(%r11), %\r
	addq	$8, %r11
	.endr
	overwrite
	movq	ARGUMENTS+block(%rip), %rdi
	movq	ARGUMENTS+8+block(%rip), %rsi
	movq	ARGUMENTS+16+block(%rip), %rdx
	movq	ARGUMENTS+24+block(%rip), %rcx
	movq	ARGUMENTS+32+block(%rip), %r8
	movq	ARGUMENTS+40+block(%rip), %r9
	callq	*block(%rip)
	movq	%rax, RESULT+block(%rip)
	pushfq
	popq	%rdi
	cld
	leaq	AFTER+block(%rip), %r11
	.irp	r, rbx,rbp,r12,r13,r14,r15
	movq	%\r, (%r11)
	addq	$8, %r11
	.endr
	andl	$0x400, %edi
	leaq	48(%rsp), %rax
	movq	SAVED+block(%rip), %rsp
	subq	%rsp, %rax
	orq	%rax, %rdi
	leaq	-48(%rsp), %rsi
	addq	$512, %rsp
	callq	write_block
	jmp	_start
#else
/* The registers 8 to 17, vectors but the low halves of 8 to 15, and flags. Then those of arguments.  */
	.macro	overwrite
	adrp	x9, block
	ldr	x10, [x9, #LEAVES]
	add	x9, x9, #JUNK
	.irp	n, 0,1,2,3,4,5,6,7,16,17,18,19,20,21,22,23,24,25,26,27,28,29,30,31
	ldr	q\n, [x9, #16*\n]
	.endr
	mov	x12, x9
	.irp	v, v8.d,v9.d,v10.d,v11.d,v12.d,v13.d,v14.d,v15.d
	ldr	x11, [x12], #16
	ins	\v[1], x11
	.endr
	cbnz	x10, 2f
	mov	x10, #FILLED
1:	ldr	x11, [x9, x10]
	sub	x12, sp, x10
	str	x11, [x12]
	subs	x10, x10, #8
	b.ne	1b
2:	ldr	x10, [x9, #264]
	msr	nzcv, x10
	.irp	n, 8,10,11,12,13,14,15,16,17
	ldr	x\n, [x9, #272+8*\n]
	.endr
	.endm

	.macro	call_c_function f
	adrp	x9, block
	str	x30, [x9, #LINK]
	bl	\f
	.endm

memset:	call_c_function	fill
	b	returns
memcpy:
memmove:
	call_c_function	copy
returns:
	overwrite
	.irp	n, 1,2,3,4,5,6,7
	ldr	x\n, [x9, #512+8*\n]
	.endr
	adrp	x9, block
	ldr	x30, [x9, #LINK]
	ret

system_call:	mov	x8, x3
	svc	#0
	ret

_start:	bl	read_block
	sub	sp, sp, #512
	adrp	x9, block
	mov	x10, sp
	str	x10, [x9, #SAVED]
	ldp	x10, x11, [x9, #ARGUMENTS+64]
	ldp	x12, x13, [x9, #ARGUMENTS+80]
	stp	x12, x13, [sp, #-16]!
	stp	x10, x11, [sp, #-16]!
	add	x9, x9, #OWN
	.irp	n, 8,9,10,11,12,13,14,15
	ldr	d\n, [x9, #8*\n-64]
	.endr
	.irp	n, 19,20,21,22,23,24,25,26,27,28,29
	ldr	x\n, [x9, #8*\n-88]
	.endr
	overwrite
	adrp	x9, block
	.irp	n, 0,1,2,3,4,5,6,7
	ldr	x\n, [x9, #ARGUMENTS+8*\n]
	.endr
	ldr	x16, [x9]
	blr	x16
	adrp	x9, block
	str	x0, [x9, #RESULT]
	add	x10, x9, #AFTER
	.irp	n, 8,9,10,11,12,13,14,15
	str	d\n, [x10, #8*\n-64]
	.endr
	.irp	n, 19,20,21,22,23,24,25,26,27,28,29
	str	x\n, [x10, #8*\n-88]
	.endr
	add	x10, sp, #32
	ldr	x11, [x9, #SAVED]
	sub	x0, x10, x11
	sub	x1, x11, #32
	add	sp, x11, #512
	bl	write_block
	b	_start
#endif
	.section .note.GNU-stack,"",%progbits
