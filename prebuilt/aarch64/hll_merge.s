	.file	"rattle"
	.section	.text.std_io.io.error.last_error,"ax",@progbits
	.p2align	2
	.type	std_io.io.error.last_error,@function
std_io.io.error.last_error:
	stp	x29, x30, [sp, #-32]!
	str	x19, [sp, #16]
	mov	x29, sp
	mov	x19, x0
	bl	rattle_errno
	tbnz	w0, #31, .LBBbca4a5a3_4
	sub	w8, w0, #1
	cmp	w8, #121
	b.hi	.LBBbca4a5a3_4
	adrp	x9, .LJTIbca4a5a3_0
	add	x9, x9, :lo12:.LJTIbca4a5a3_0
	adr	x10, .LBBbca4a5a3_3
	ldrb	w11, [x9, x8]
	add	x10, x10, x11, lsl #2
	mov	w8, #1
	br	x10
.LBBbca4a5a3_3:
	mov	w8, #36
	b	.LBBbca4a5a3_5
.LBBbca4a5a3_4:
	mov	w8, #41
.LBBbca4a5a3_5:
	movi	v0.2d, #0000000000000000
	strb	wzr, [x19]
	strb	w8, [x19, #1]
	strh	wzr, [x19, #2]
	str	w0, [x19, #4]
	stur	q0, [x19, #8]
	stur	q0, [x19, #24]
	stur	q0, [x19, #40]
	stur	q0, [x19, #56]
	stur	q0, [x19, #72]
	ldr	x19, [sp, #16]
	ldp	x29, x30, [sp], #32
	ret
.LBBbca4a5a3_6:
	mov	w8, #4
	b	.LBBbca4a5a3_5
.LBBbca4a5a3_7:
	mov	w8, #7
	b	.LBBbca4a5a3_5
.LBBbca4a5a3_8:
	mov	w8, #26
	b	.LBBbca4a5a3_5
.LBBbca4a5a3_9:
	mov	w8, #39
	b	.LBBbca4a5a3_5
.LBBbca4a5a3_10:
	mov	w8, #9
	b	.LBBbca4a5a3_5
.LBBbca4a5a3_11:
	mov	w8, #8
	b	.LBBbca4a5a3_5
.LBBbca4a5a3_12:
	mov	w8, #30
	b	.LBBbca4a5a3_5
.LBBbca4a5a3_13:
	mov	w8, #25
	b	.LBBbca4a5a3_5
.LBBbca4a5a3_14:
	mov	w8, #32
	b	.LBBbca4a5a3_5
.LBBbca4a5a3_15:
	mov	w8, #33
	b	.LBBbca4a5a3_5
.LBBbca4a5a3_16:
	mov	w8, #22
	b	.LBBbca4a5a3_5
.LBBbca4a5a3_17:
	mov	w8, #31
	b	.LBBbca4a5a3_5
.LBBbca4a5a3_18:
	mov	w8, #29
	b	.LBBbca4a5a3_5
.LBBbca4a5a3_19:
	mov	w8, #18
	b	.LBBbca4a5a3_5
.LBBbca4a5a3_20:
	mov	w8, #10
	b	.LBBbca4a5a3_5
.LBBbca4a5a3_21:
	mov	w8, #28
	b	.LBBbca4a5a3_5
.LBBbca4a5a3_22:
	mov	w8, #14
	b	.LBBbca4a5a3_5
.LBBbca4a5a3_23:
	mov	w8, #12
	b	.LBBbca4a5a3_5
.LBBbca4a5a3_24:
	mov	w8, #5
	b	.LBBbca4a5a3_5
.LBBbca4a5a3_25:
	mov	w8, #3
	b	.LBBbca4a5a3_5
.LBBbca4a5a3_26:
	mov	w8, wzr
	b	.LBBbca4a5a3_5
.LBBbca4a5a3_27:
	mov	w8, #13
	b	.LBBbca4a5a3_5
.LBBbca4a5a3_28:
	mov	w8, #38
	b	.LBBbca4a5a3_5
.LBBbca4a5a3_29:
	mov	w8, #11
	b	.LBBbca4a5a3_5
.LBBbca4a5a3_30:
	mov	w8, #35
	b	.LBBbca4a5a3_5
.LBBbca4a5a3_31:
	mov	w8, #34
	b	.LBBbca4a5a3_5
.LBBbca4a5a3_32:
	mov	w8, #20
	b	.LBBbca4a5a3_5
.LBBbca4a5a3_33:
	mov	w8, #15
	b	.LBBbca4a5a3_5
.LBBbca4a5a3_34:
	mov	w8, #19
	b	.LBBbca4a5a3_5
.LBBbca4a5a3_35:
	mov	w8, #16
	b	.LBBbca4a5a3_5
.LBBbca4a5a3_36:
	mov	w8, #6
	b	.LBBbca4a5a3_5
.LBBbca4a5a3_37:
	mov	w8, #27
	b	.LBBbca4a5a3_5
.LBBbca4a5a3_38:
	mov	w8, #24
	b	.LBBbca4a5a3_5
.LBBbca4a5a3_39:
	mov	w8, #2
	b	.LBBbca4a5a3_5
.LBBbca4a5a3_40:
	mov	w8, #17
	b	.LBBbca4a5a3_5
.Lfunc_endbca4a5a3:
	.size	std_io.io.error.last_error, .Lfunc_endbca4a5a3-std_io.io.error.last_error
	.section	.rodata.std_io.io.error.last_error,"a",@progbits
.LJTIbca4a5a3_0:
	.byte	(.LBBbca4a5a3_5-.LBBbca4a5a3_3)>>2
	.byte	(.LBBbca4a5a3_26-.LBBbca4a5a3_3)>>2
	.byte	(.LBBbca4a5a3_4-.LBBbca4a5a3_3)>>2
	.byte	(.LBBbca4a5a3_30-.LBBbca4a5a3_3)>>2
	.byte	(.LBBbca4a5a3_4-.LBBbca4a5a3_3)>>2
	.byte	(.LBBbca4a5a3_4-.LBBbca4a5a3_3)>>2
	.byte	(.LBBbca4a5a3_31-.LBBbca4a5a3_3)>>2
	.byte	(.LBBbca4a5a3_4-.LBBbca4a5a3_3)>>2
	.byte	(.LBBbca4a5a3_4-.LBBbca4a5a3_3)>>2
	.byte	(.LBBbca4a5a3_4-.LBBbca4a5a3_3)>>2
	.byte	(.LBBbca4a5a3_27-.LBBbca4a5a3_3)>>2
	.byte	(.LBBbca4a5a3_28-.LBBbca4a5a3_3)>>2
	.byte	(.LBBbca4a5a3_5-.LBBbca4a5a3_3)>>2
	.byte	(.LBBbca4a5a3_4-.LBBbca4a5a3_3)>>2
	.byte	(.LBBbca4a5a3_4-.LBBbca4a5a3_3)>>2
	.byte	(.LBBbca4a5a3_21-.LBBbca4a5a3_3)>>2
	.byte	(.LBBbca4a5a3_23-.LBBbca4a5a3_3)>>2
	.byte	(.LBBbca4a5a3_17-.LBBbca4a5a3_3)>>2
	.byte	(.LBBbca4a5a3_4-.LBBbca4a5a3_3)>>2
	.byte	(.LBBbca4a5a3_22-.LBBbca4a5a3_3)>>2
	.byte	(.LBBbca4a5a3_33-.LBBbca4a5a3_3)>>2
	.byte	(.LBBbca4a5a3_32-.LBBbca4a5a3_3)>>2
	.byte	(.LBBbca4a5a3_4-.LBBbca4a5a3_3)>>2
	.byte	(.LBBbca4a5a3_4-.LBBbca4a5a3_3)>>2
	.byte	(.LBBbca4a5a3_4-.LBBbca4a5a3_3)>>2
	.byte	(.LBBbca4a5a3_18-.LBBbca4a5a3_3)>>2
	.byte	(.LBBbca4a5a3_37-.LBBbca4a5a3_3)>>2
	.byte	(.LBBbca4a5a3_38-.LBBbca4a5a3_3)>>2
	.byte	(.LBBbca4a5a3_13-.LBBbca4a5a3_3)>>2
	.byte	(.LBBbca4a5a3_40-.LBBbca4a5a3_3)>>2
	.byte	(.LBBbca4a5a3_14-.LBBbca4a5a3_3)>>2
	.byte	(.LBBbca4a5a3_29-.LBBbca4a5a3_3)>>2
	.byte	(.LBBbca4a5a3_4-.LBBbca4a5a3_3)>>2
	.byte	(.LBBbca4a5a3_4-.LBBbca4a5a3_3)>>2
	.byte	(.LBBbca4a5a3_12-.LBBbca4a5a3_3)>>2
	.byte	(.LBBbca4a5a3_15-.LBBbca4a5a3_3)>>2
	.byte	(.LBBbca4a5a3_4-.LBBbca4a5a3_3)>>2
	.byte	(.LBBbca4a5a3_3-.LBBbca4a5a3_3)>>2
	.byte	(.LBBbca4a5a3_35-.LBBbca4a5a3_3)>>2
	.byte	(.LBBbca4a5a3_19-.LBBbca4a5a3_3)>>2
	.byte	(.LBBbca4a5a3_4-.LBBbca4a5a3_3)>>2
	.byte	(.LBBbca4a5a3_4-.LBBbca4a5a3_3)>>2
	.byte	(.LBBbca4a5a3_4-.LBBbca4a5a3_3)>>2
	.byte	(.LBBbca4a5a3_4-.LBBbca4a5a3_3)>>2
	.byte	(.LBBbca4a5a3_4-.LBBbca4a5a3_3)>>2
	.byte	(.LBBbca4a5a3_4-.LBBbca4a5a3_3)>>2
	.byte	(.LBBbca4a5a3_4-.LBBbca4a5a3_3)>>2
	.byte	(.LBBbca4a5a3_4-.LBBbca4a5a3_3)>>2
	.byte	(.LBBbca4a5a3_4-.LBBbca4a5a3_3)>>2
	.byte	(.LBBbca4a5a3_4-.LBBbca4a5a3_3)>>2
	.byte	(.LBBbca4a5a3_4-.LBBbca4a5a3_3)>>2
	.byte	(.LBBbca4a5a3_4-.LBBbca4a5a3_3)>>2
	.byte	(.LBBbca4a5a3_4-.LBBbca4a5a3_3)>>2
	.byte	(.LBBbca4a5a3_4-.LBBbca4a5a3_3)>>2
	.byte	(.LBBbca4a5a3_4-.LBBbca4a5a3_3)>>2
	.byte	(.LBBbca4a5a3_4-.LBBbca4a5a3_3)>>2
	.byte	(.LBBbca4a5a3_4-.LBBbca4a5a3_3)>>2
	.byte	(.LBBbca4a5a3_4-.LBBbca4a5a3_3)>>2
	.byte	(.LBBbca4a5a3_4-.LBBbca4a5a3_3)>>2
	.byte	(.LBBbca4a5a3_4-.LBBbca4a5a3_3)>>2
	.byte	(.LBBbca4a5a3_4-.LBBbca4a5a3_3)>>2
	.byte	(.LBBbca4a5a3_4-.LBBbca4a5a3_3)>>2
	.byte	(.LBBbca4a5a3_4-.LBBbca4a5a3_3)>>2
	.byte	(.LBBbca4a5a3_4-.LBBbca4a5a3_3)>>2
	.byte	(.LBBbca4a5a3_4-.LBBbca4a5a3_3)>>2
	.byte	(.LBBbca4a5a3_4-.LBBbca4a5a3_3)>>2
	.byte	(.LBBbca4a5a3_4-.LBBbca4a5a3_3)>>2
	.byte	(.LBBbca4a5a3_4-.LBBbca4a5a3_3)>>2
	.byte	(.LBBbca4a5a3_4-.LBBbca4a5a3_3)>>2
	.byte	(.LBBbca4a5a3_4-.LBBbca4a5a3_3)>>2
	.byte	(.LBBbca4a5a3_4-.LBBbca4a5a3_3)>>2
	.byte	(.LBBbca4a5a3_4-.LBBbca4a5a3_3)>>2
	.byte	(.LBBbca4a5a3_4-.LBBbca4a5a3_3)>>2
	.byte	(.LBBbca4a5a3_4-.LBBbca4a5a3_3)>>2
	.byte	(.LBBbca4a5a3_4-.LBBbca4a5a3_3)>>2
	.byte	(.LBBbca4a5a3_4-.LBBbca4a5a3_3)>>2
	.byte	(.LBBbca4a5a3_4-.LBBbca4a5a3_3)>>2
	.byte	(.LBBbca4a5a3_4-.LBBbca4a5a3_3)>>2
	.byte	(.LBBbca4a5a3_4-.LBBbca4a5a3_3)>>2
	.byte	(.LBBbca4a5a3_4-.LBBbca4a5a3_3)>>2
	.byte	(.LBBbca4a5a3_4-.LBBbca4a5a3_3)>>2
	.byte	(.LBBbca4a5a3_4-.LBBbca4a5a3_3)>>2
	.byte	(.LBBbca4a5a3_4-.LBBbca4a5a3_3)>>2
	.byte	(.LBBbca4a5a3_4-.LBBbca4a5a3_3)>>2
	.byte	(.LBBbca4a5a3_4-.LBBbca4a5a3_3)>>2
	.byte	(.LBBbca4a5a3_4-.LBBbca4a5a3_3)>>2
	.byte	(.LBBbca4a5a3_4-.LBBbca4a5a3_3)>>2
	.byte	(.LBBbca4a5a3_4-.LBBbca4a5a3_3)>>2
	.byte	(.LBBbca4a5a3_4-.LBBbca4a5a3_3)>>2
	.byte	(.LBBbca4a5a3_4-.LBBbca4a5a3_3)>>2
	.byte	(.LBBbca4a5a3_4-.LBBbca4a5a3_3)>>2
	.byte	(.LBBbca4a5a3_4-.LBBbca4a5a3_3)>>2
	.byte	(.LBBbca4a5a3_4-.LBBbca4a5a3_3)>>2
	.byte	(.LBBbca4a5a3_4-.LBBbca4a5a3_3)>>2
	.byte	(.LBBbca4a5a3_3-.LBBbca4a5a3_3)>>2
	.byte	(.LBBbca4a5a3_4-.LBBbca4a5a3_3)>>2
	.byte	(.LBBbca4a5a3_4-.LBBbca4a5a3_3)>>2
	.byte	(.LBBbca4a5a3_11-.LBBbca4a5a3_3)>>2
	.byte	(.LBBbca4a5a3_10-.LBBbca4a5a3_3)>>2
	.byte	(.LBBbca4a5a3_20-.LBBbca4a5a3_3)>>2
	.byte	(.LBBbca4a5a3_24-.LBBbca4a5a3_3)>>2
	.byte	(.LBBbca4a5a3_4-.LBBbca4a5a3_3)>>2
	.byte	(.LBBbca4a5a3_36-.LBBbca4a5a3_3)>>2
	.byte	(.LBBbca4a5a3_25-.LBBbca4a5a3_3)>>2
	.byte	(.LBBbca4a5a3_4-.LBBbca4a5a3_3)>>2
	.byte	(.LBBbca4a5a3_4-.LBBbca4a5a3_3)>>2
	.byte	(.LBBbca4a5a3_7-.LBBbca4a5a3_3)>>2
	.byte	(.LBBbca4a5a3_4-.LBBbca4a5a3_3)>>2
	.byte	(.LBBbca4a5a3_4-.LBBbca4a5a3_3)>>2
	.byte	(.LBBbca4a5a3_16-.LBBbca4a5a3_3)>>2
	.byte	(.LBBbca4a5a3_39-.LBBbca4a5a3_3)>>2
	.byte	(.LBBbca4a5a3_4-.LBBbca4a5a3_3)>>2
	.byte	(.LBBbca4a5a3_6-.LBBbca4a5a3_3)>>2
	.byte	(.LBBbca4a5a3_4-.LBBbca4a5a3_3)>>2
	.byte	(.LBBbca4a5a3_9-.LBBbca4a5a3_3)>>2
	.byte	(.LBBbca4a5a3_34-.LBBbca4a5a3_3)>>2
	.byte	(.LBBbca4a5a3_4-.LBBbca4a5a3_3)>>2
	.byte	(.LBBbca4a5a3_4-.LBBbca4a5a3_3)>>2
	.byte	(.LBBbca4a5a3_4-.LBBbca4a5a3_3)>>2
	.byte	(.LBBbca4a5a3_4-.LBBbca4a5a3_3)>>2
	.byte	(.LBBbca4a5a3_4-.LBBbca4a5a3_3)>>2
	.byte	(.LBBbca4a5a3_8-.LBBbca4a5a3_3)>>2

	.section	.text.unlikely.std_alloc.vec.Vec.grow_amortized.e3d5df6901cfba47,"ax",@progbits
	.p2align	2
	.type	std_alloc.vec.Vec.grow_amortized.e3d5df6901cfba47,@function
std_alloc.vec.Vec.grow_amortized.e3d5df6901cfba47:
	ldr	x8, [x0, #8]
	cmn	x8, x1
	b.lo	.LBBb0fa3bf3_2
	mov	w0, wzr
	ret
.LBBb0fa3bf3_2:
	stp	x29, x30, [sp, #-32]!
	ldr	x10, [x0, #16]
	add	x9, x8, x1
	mov	w11, #8
	cmp	x9, #8
	stp	x20, x19, [sp, #16]
	mov	x29, sp
	lsl	x12, x10, #1
	csel	x11, x9, x11, hi
	lsr	x13, x10, #62
	cmp	x11, x12
	csel	x9, x11, x12, hi
	cmp	x13, #0
	csel	x19, x9, x11, eq
	tbnz	x19, #63, .LBBb0fa3bf3_7
	cbz	x10, .LBBb0fa3bf3_6
	mov	x20, x0
	ldr	x0, [x0]
	mov	x1, x8
	mov	x2, x19
	mov	w3, #1
	bl	rattle_realloc
	tbz	w0, #0, .LBBb0fa3bf3_7
.LBBb0fa3bf3_5:
	mov	w0, #1
	str	x1, [x20]
	str	x19, [x20, #16]
	ldp	x20, x19, [sp, #16]
	ldp	x29, x30, [sp], #32
	ret
.LBBb0fa3bf3_6:
	mov	x20, x0
	mov	x0, x9
	mov	w1, #1
	bl	rattle_alloc
	tbnz	w0, #0, .LBBb0fa3bf3_5
.LBBb0fa3bf3_7:
	mov	w0, wzr
	ldp	x20, x19, [sp, #16]
	ldp	x29, x30, [sp], #32
	ret
.Lfunc_endb0fa3bf3:
	.size	std_alloc.vec.Vec.grow_amortized.e3d5df6901cfba47, .Lfunc_endb0fa3bf3-std_alloc.vec.Vec.grow_amortized.e3d5df6901cfba47

	.section	.rodata.cst8,"aM",@progbits,8
	.p2align	3, 0x0
.LCPI37d7e3d0_0:
	.byte	1
	.byte	2
	.byte	4
	.byte	8
	.byte	16
	.byte	32
	.byte	64
	.byte	128
	.section	.rodata.cst16,"aM",@progbits,16
	.p2align	4, 0x0
.LCPI37d7e3d0_1:
	.byte	1
	.byte	2
	.byte	4
	.byte	8
	.byte	16
	.byte	32
	.byte	64
	.byte	128
	.byte	1
	.byte	2
	.byte	4
	.byte	8
	.byte	16
	.byte	32
	.byte	64
	.byte	128
.LCPI37d7e3d0_2:
	.xword	0
	.xword	3
	.section	.text.hll_merge.stack.Stack.carry_line.8a2f8b2564a2651f,"ax",@progbits
	.p2align	2
	.type	hll_merge.stack.Stack.carry_line.8a2f8b2564a2651f,@function
hll_merge.stack.Stack.carry_line.8a2f8b2564a2651f:
	stp	x29, x30, [sp, #-96]!
	stp	x28, x27, [sp, #16]
	mov	x29, sp
	stp	x26, x25, [sp, #32]
	stp	x24, x23, [sp, #48]
	stp	x22, x21, [sp, #64]
	stp	x20, x19, [sp, #80]
	sub	sp, sp, #1104
	str	xzr, [sp]
	cbz	x3, .LBB37d7e3d0_2
	ldrb	w20, [x2]
	cmp	w20, #35
	b.ne	.LBB37d7e3d0_4
.LBB37d7e3d0_2:
	mov	w11, wzr
	mov	w9, wzr
	mov	w10, wzr
.LBB37d7e3d0_3:
	strb	w11, [x0]
	strb	w9, [x0, #1]
	strb	w10, [x0, #2]
	b	.LBB37d7e3d0_248
.LBB37d7e3d0_4:
	sub	x21, x29, #128
	subs	x13, x3, #7
	add	x22, sp, #736
	add	x28, sp, #240
	adrp	x19, .LCPI37d7e3d0_1
	b.hs	.LBB37d7e3d0_7
	cmp	x3, #6
	b.ne	.LBB37d7e3d0_32
	ldrb	w8, [x2, #1]
	ldrb	w9, [x2, #2]
	ldrb	w10, [x2, #4]
	ldrb	w11, [x2, #5]
	b	.LBB37d7e3d0_14
.LBB37d7e3d0_7:
	ldur	s0, [x2, #3]
	mov	w10, #28528
	ldrb	w8, [x2, #1]
	movk	w10, #8302, lsl #16
	mov	w11, #117
	add	x12, x2, #7
	fmov	w9, s0
	cmp	w9, w10
	mov	w9, #99
	ccmp	w20, w9, #0, eq
	ldrb	w9, [x2, #2]
	cset	w10, eq
	cmp	w8, #111
	ccmp	w9, w11, #0, eq
	cset	w11, eq
	ands	w14, w10, w11
	csel	x11, x12, xzr, ne
	csel	x10, x13, xzr, ne
	cbz	w14, .LBB37d7e3d0_13
	cmp	x13, #7
	b.hi	.LBB37d7e3d0_78
	cbz	x13, .LBB37d7e3d0_246
	mov	w8, wzr
	mov	x13, xzr
.LBB37d7e3d0_11:
	ldrb	w9, [x12, x13]
	sub	w9, w9, #48
	cmp	w9, #9
	b.hi	.LBB37d7e3d0_79
	mov	w14, #10
	add	x13, x13, #1
	mul	w8, w8, w14
	cmp	x10, x13
	add	w8, w8, w9, uxtb
	b.ne	.LBB37d7e3d0_11
	b	.LBB37d7e3d0_246
.LBB37d7e3d0_13:
	ushll	v0.8h, v0.8b, #0
	umov	w10, v0.h[1]
	umov	w11, v0.h[2]
.LBB37d7e3d0_14:
	and	w11, w11, #0xff
	ldrb	w12, [x2, #3]
	and	w10, w10, #0xff
	cmp	w11, #32
	mov	w11, #101
	ccmp	w10, w11, #0, eq
	mov	w10, #103
	ccmp	w12, w10, #0, eq
	mov	w10, #97
	ccmp	w9, w10, #0, eq
	mov	w9, #109
	cset	w10, eq
	cmp	w20, #105
	ccmp	w8, w9, #0, eq
	add	x8, x2, #6
	sub	x9, x3, #6
	cset	w11, eq
	ands	w10, w10, w11
	csel	x23, x8, xzr, ne
	csel	x27, x9, xzr, ne
	cbz	w10, .LBB37d7e3d0_32
	cbz	x9, .LBB37d7e3d0_247
	lsr	x9, x9, #6
	cbz	x9, .LBB37d7e3d0_19
.LBB37d7e3d0_17:
	movi	v0.16b, #32
	ldp	q1, q4, [x8]
	ldp	q3, q2, [x8, #32]
	cmeq	v2.16b, v2.16b, v0.16b
	cmeq	v1.16b, v1.16b, v0.16b
	cmeq	v3.16b, v3.16b, v0.16b
	cmeq	v0.16b, v4.16b, v0.16b
	ldr	q4, [x19, :lo12:.LCPI37d7e3d0_1]
	and	v1.16b, v1.16b, v4.16b
	and	v3.16b, v3.16b, v4.16b
	and	v2.16b, v2.16b, v4.16b
	and	v0.16b, v0.16b, v4.16b
	addp	v0.16b, v1.16b, v0.16b
	addp	v1.16b, v3.16b, v2.16b
	addp	v0.16b, v0.16b, v1.16b
	addp	v0.16b, v0.16b, v0.16b
	fmov	x10, d0
	cbnz	x10, .LBB37d7e3d0_246
	subs	x9, x9, #1
	add	x8, x8, #64
	b.ne	.LBB37d7e3d0_17
.LBB37d7e3d0_19:
	ands	x8, x27, #0x3f
	b.eq	.LBB37d7e3d0_23
	and	x9, x27, #0xffffffffffffffc0
.LBB37d7e3d0_21:
	ldrb	w10, [x23, x9]
	cmp	w10, #32
	b.eq	.LBB37d7e3d0_246
	subs	x8, x8, #1
	add	x9, x9, #1
	b.ne	.LBB37d7e3d0_21
.LBB37d7e3d0_23:
	movi	v0.2d, #0000000000000000
	lsr	x19, x27, #1
	ldr	x9, [x1, #40]
	sub	x8, x29, #20
	str	xzr, [x28, #240]
	stp	q0, q0, [x28, #144]
	stp	q0, q0, [x28, #176]
	stp	q0, q0, [x28, #208]
	ldur	q0, [x1, #24]
	str	x8, [x1, #24]
	str	q0, [x22, #240]
	ldr	x10, [x22, #248]
	stp	xzr, xzr, [x1, #32]
	cmp	x10, x19
	csel	x8, x10, x19, lo
	stp	x8, x9, [x22, #248]
	b.hs	.LBB37d7e3d0_28
	ldr	x24, [x22, #256]
	sub	x2, x19, x8
	sub	x9, x24, x8
	cmp	x2, x9
	b.hi	.LBB37d7e3d0_224
	add	x20, x8, x2
	cmp	x8, x20
	b.hs	.LBB37d7e3d0_27
.LBB37d7e3d0_26:
	ldr	x9, [x22, #240]
	mov	x25, x0
	mov	x21, x1
	mov	w1, wzr
	add	x0, x9, x8
	bl	memset
	mov	x1, x21
	mov	x0, x25
.LBB37d7e3d0_27:
	mov	x8, x20
	str	x24, [x22, #256]
.LBB37d7e3d0_28:
	ldr	x20, [x22, #240]
	tbnz	w27, #0, .LBB37d7e3d0_151
	cmp	x19, x8
	b.ne	.LBB37d7e3d0_151
	cbz	x19, .LBB37d7e3d0_171
	add	x8, x23, #1
	mov	x9, x20
	mov	x10, x19
	b	.LBB37d7e3d0_138
.LBB37d7e3d0_32:
	mov	x8, xzr
.LBB37d7e3d0_33:
	ldrb	w24, [x2, x8]
	cmp	w24, #32
	b.eq	.LBB37d7e3d0_60
	add	x8, x8, #1
	cmp	x3, x8
	b.ne	.LBB37d7e3d0_33
	mov	x23, xzr
	mov	x25, xzr
	cmp	x3, #4
	mov	w9, wzr
	b.le	.LBB37d7e3d0_61
.LBB37d7e3d0_36:
	cmp	x3, #5
	b.eq	.LBB37d7e3d0_87
	cmp	x3, #6
	b.ne	.LBB37d7e3d0_247
	cmp	w20, #99
	mov	w9, wzr
	b.ne	.LBB37d7e3d0_247
	ldrb	w8, [x2, #1]
	cmp	w8, #111
	b.ne	.LBB37d7e3d0_247
	ldrb	w8, [x2, #2]
	cmp	w8, #117
	b.ne	.LBB37d7e3d0_247
	ldrb	w8, [x2, #3]
	cmp	w8, #112
	b.ne	.LBB37d7e3d0_247
	adrp	x8, .Lstatic.5
	add	x8, x8, :lo12:.Lstatic.5
	mov	x20, x1
	mov	x19, x0
	mov	x0, x2
	mov	w1, #6
	mov	x2, x8
	bl	core.cmp.slices.groups_equal._i8_31_core.cmp.numbers.U8PartialEq
	cmp	w24, #32
	mov	w9, wzr
	b.ne	.LBB37d7e3d0_531
	mov	w8, w0
	mov	x0, x19
	cbz	w8, .LBB37d7e3d0_247
	mov	x1, x20
	cmp	x25, #7
	b.hi	.LBB37d7e3d0_178
	cbz	x25, .LBB37d7e3d0_246
	ldrb	w8, [x23]
	sub	w8, w8, #48
	cmp	w8, #9
	b.hi	.LBB37d7e3d0_184
	cmp	x25, #1
	b.eq	.LBB37d7e3d0_246
	ldrb	w9, [x23, #1]
	and	w8, w8, #0xff
	sub	w9, w9, #48
	cmp	w9, #9
	b.hi	.LBB37d7e3d0_273
	cmp	x25, #2
	b.eq	.LBB37d7e3d0_246
	mov	w10, #10
	mul	w8, w8, w10
	ldrb	w10, [x23, #2]
	sub	w10, w10, #48
	add	w8, w8, w9, uxtb
	cmp	w10, #9
	b.hi	.LBB37d7e3d0_532
	cmp	x25, #3
	b.eq	.LBB37d7e3d0_135
	mov	w9, #10
	mov	x11, x25
	mul	w8, w8, w9
	ldrb	w9, [x23, #3]
	sub	w9, w9, #48
	add	w8, w8, w10, uxtb
	cmp	w9, #9
	b.hi	.LBB37d7e3d0_594
	cmp	x11, #4
	b.eq	.LBB37d7e3d0_135
	mov	w10, #10
	mul	w8, w8, w10
	ldrb	w10, [x23, #4]
	sub	w10, w10, #48
	add	w8, w8, w9, uxtb
	cmp	w10, #9
	b.hi	.LBB37d7e3d0_687
	cmp	x11, #5
	b.eq	.LBB37d7e3d0_135
	mov	w9, #10
	mul	w8, w8, w9
	ldrb	w9, [x23, #5]
	sub	w9, w9, #48
	add	w8, w8, w10, uxtb
	cmp	w9, #9
	b.hi	.LBB37d7e3d0_763
	cmp	x11, #6
	b.eq	.LBB37d7e3d0_135
	ldrb	w10, [x23, #6]
	sub	w10, w10, #48
	cmp	w10, #10
	b.lo	.LBB37d7e3d0_135
	mov	w10, #10
	mul	w8, w8, w10
	mov	w10, #6
	add	w8, w8, w9, uxtb
	b	.LBB37d7e3d0_595
.LBB37d7e3d0_60:
	add	x9, x2, x8
	mvn	x10, x8
	add	x23, x9, #1
	add	x25, x10, x3
	mov	x3, x8
	cmp	x8, #4
	mov	w9, wzr
	b.gt	.LBB37d7e3d0_36
.LBB37d7e3d0_61:
	cmp	x3, #3
	b.eq	.LBB37d7e3d0_101
	cmp	x3, #4
	b.ne	.LBB37d7e3d0_247
	cmp	w20, #102
	mov	w9, wzr
	b.ne	.LBB37d7e3d0_247
	ldrb	w8, [x2, #1]
	cmp	w8, #111
	b.ne	.LBB37d7e3d0_247
	ldrb	w8, [x2, #2]
	cmp	w8, #108
	b.ne	.LBB37d7e3d0_247
	ldrb	w8, [x2, #3]
	cmp	w8, #100
	b.ne	.LBB37d7e3d0_247
	adrp	x8, .Lstatic.7
	add	x8, x8, :lo12:.Lstatic.7
	mov	x19, x1
	mov	x20, x0
	mov	x0, x2
	mov	w1, #4
	mov	x2, x8
	bl	core.cmp.slices.groups_equal._i8_31_core.cmp.numbers.U8PartialEq
	cmp	w24, #32
	mov	w9, wzr
	b.ne	.LBB37d7e3d0_176
	mov	w8, w0
	mov	x0, x20
	cbz	w8, .LBB37d7e3d0_247
	mov	x1, x19
	cmp	x25, #7
	b.hi	.LBB37d7e3d0_177
	cbz	x25, .LBB37d7e3d0_246
	ldrb	w8, [x23]
	sub	w8, w8, #48
	cmp	w8, #9
	b.hi	.LBB37d7e3d0_193
	cmp	x25, #1
	and	w10, w8, #0xff
	b.eq	.LBB37d7e3d0_196
	ldrb	w8, [x23, #1]
	sub	w8, w8, #48
	cmp	w8, #9
	b.hi	.LBB37d7e3d0_274
	mov	w9, #10
	cmp	x25, #2
	mul	w9, w10, w9
	add	w10, w9, w8, uxtb
	b.eq	.LBB37d7e3d0_196
	ldrb	w8, [x23, #2]
	sub	w8, w8, #48
	cmp	w8, #9
	b.hi	.LBB37d7e3d0_533
	mov	w9, #10
	cmp	x25, #3
	mul	w9, w10, w9
	add	w10, w9, w8, uxtb
	b.ne	.LBB37d7e3d0_552
.LBB37d7e3d0_77:
	mov	x0, x20
	mov	x1, x19
	add	x28, sp, #240
	sub	x21, x29, #128
	add	x22, sp, #736
	b	.LBB37d7e3d0_196
.LBB37d7e3d0_78:
	movi	v0.8b, #198
	ldr	d1, [x12]
	movi	v2.8b, #246
	adrp	x8, .LCPI37d7e3d0_0
	add	v0.8b, v1.8b, v0.8b
	cmhi	v0.8b, v2.8b, v0.8b
	ldr	d2, [x8, :lo12:.LCPI37d7e3d0_0]
	and	v0.8b, v0.8b, v2.8b
	movi	v2.8b, #48
	addv	b0, v0.8b
	uqsub	v1.8b, v1.8b, v2.8b
	fmov	w8, s0
	ushll	v0.8h, v1.8b, #0
	orr	w8, w8, #0x100
	rbit	w8, w8
	ushll2	v1.4s, v0.8h, #0
	ushll	v0.4s, v0.4h, #0
	clz	w13, w8
	adrp	x8, .Lstatic.2
	add	x8, x8, :lo12:.Lstatic.2
	sub	x8, x8, w13, uxtw #2
	ldr	q2, [x8, #48]
	mul	v1.4s, v2.4s, v1.4s
	ldr	q2, [x8, #32]
	mla	v1.4s, v2.4s, v0.4s
	addv	s0, v1.4s
	fmov	w8, s0
.LBB37d7e3d0_79:
	mov	w9, wzr
	cbz	x13, .LBB37d7e3d0_247
	cmp	x13, x10
	b.eq	.LBB37d7e3d0_247
	ldrb	w9, [x12, x13]
	cmp	w9, #32
	b.ne	.LBB37d7e3d0_246
	add	x13, x13, #1
	sub	x12, x10, x13
	add	x9, x11, x13
	cmp	x12, #7
	b.hi	.LBB37d7e3d0_156
	cmp	x10, x13
	b.eq	.LBB37d7e3d0_246
	mov	w10, wzr
	mov	x11, xzr
.LBB37d7e3d0_85:
	ldrb	w13, [x9, x11]
	sub	w13, w13, #48
	cmp	w13, #9
	b.hi	.LBB37d7e3d0_157
	mov	w14, #10
	add	x11, x11, #1
	mul	w10, w10, w14
	cmp	x12, x11
	add	w10, w10, w13, uxtb
	b.ne	.LBB37d7e3d0_85
	b	.LBB37d7e3d0_159
.LBB37d7e3d0_87:
	str	x25, [sp, #112]
	ldrb	w26, [x2, #1]
	ldrb	w25, [x2, #2]
	ldrb	w27, [x2, #3]
	cmp	w20, #105
	b.ne	.LBB37d7e3d0_121
	cmp	w26, #109
	b.ne	.LBB37d7e3d0_121
	cmp	w25, #97
	b.ne	.LBB37d7e3d0_121
	cmp	w27, #103
	b.ne	.LBB37d7e3d0_121
	adrp	x8, .Lstatic.4
	add	x8, x8, :lo12:.Lstatic.4
	mov	x28, x0
	mov	x0, x2
	mov	x21, x1
	mov	w1, #5
	mov	x22, x2
	mov	x2, x8
	bl	core.cmp.slices.groups_equal._i8_31_core.cmp.numbers.U8PartialEq
	mov	x2, x22
	add	x22, sp, #736
	mov	x1, x21
	mov	w8, w0
	mov	x0, x28
	add	x28, sp, #240
	cbz	w8, .LBB37d7e3d0_121
	cmp	w24, #32
	mov	w9, wzr
	b.ne	.LBB37d7e3d0_247
	ldr	x27, [sp, #112]
	cbz	x27, .LBB37d7e3d0_247
	lsr	x8, x27, #6
	mov	x9, x23
	cbz	x8, .LBB37d7e3d0_97
.LBB37d7e3d0_95:
	movi	v0.16b, #32
	ldp	q1, q4, [x9]
	ldp	q3, q2, [x9, #32]
	cmeq	v2.16b, v2.16b, v0.16b
	cmeq	v1.16b, v1.16b, v0.16b
	cmeq	v3.16b, v3.16b, v0.16b
	cmeq	v0.16b, v4.16b, v0.16b
	ldr	q4, [x19, :lo12:.LCPI37d7e3d0_1]
	and	v1.16b, v1.16b, v4.16b
	and	v3.16b, v3.16b, v4.16b
	and	v2.16b, v2.16b, v4.16b
	and	v0.16b, v0.16b, v4.16b
	addp	v0.16b, v1.16b, v0.16b
	addp	v1.16b, v3.16b, v2.16b
	addp	v0.16b, v0.16b, v1.16b
	addp	v0.16b, v0.16b, v0.16b
	fmov	x10, d0
	cbnz	x10, .LBB37d7e3d0_246
	subs	x8, x8, #1
	add	x9, x9, #64
	b.ne	.LBB37d7e3d0_95
.LBB37d7e3d0_97:
	ands	x8, x27, #0x3f
	b.eq	.LBB37d7e3d0_23
	and	x9, x27, #0xffffffffffffffc0
.LBB37d7e3d0_99:
	ldrb	w10, [x23, x9]
	cmp	w10, #32
	b.eq	.LBB37d7e3d0_246
	subs	x8, x8, #1
	add	x9, x9, #1
	b.ne	.LBB37d7e3d0_99
	b	.LBB37d7e3d0_23
.LBB37d7e3d0_101:
	cmp	w20, #110
	b.ne	.LBB37d7e3d0_246
	ldrb	w8, [x2, #1]
	cmp	w8, #101
	b.ne	.LBB37d7e3d0_246
	ldrb	w8, [x2, #2]
	mov	w9, wzr
	cmp	w8, #119
	b.ne	.LBB37d7e3d0_247
	cmp	w24, #32
	b.ne	.LBB37d7e3d0_247
	cmp	x25, #7
	b.hi	.LBB37d7e3d0_183
	cbz	x25, .LBB37d7e3d0_246
	ldrb	w8, [x23]
	sub	w8, w8, #48
	cmp	w8, #9
	b.hi	.LBB37d7e3d0_232
	cmp	x25, #1
	b.eq	.LBB37d7e3d0_246
	ldrb	w9, [x23, #1]
	and	w8, w8, #0xff
	sub	w9, w9, #48
	cmp	w9, #9
	b.hi	.LBB37d7e3d0_280
	cmp	x25, #2
	b.eq	.LBB37d7e3d0_246
	mov	w10, #10
	mul	w8, w8, w10
	ldrb	w10, [x23, #2]
	sub	w10, w10, #48
	add	w8, w8, w9, uxtb
	cmp	w10, #9
	b.hi	.LBB37d7e3d0_551
	cmp	x25, #3
	b.eq	.LBB37d7e3d0_246
	mov	w9, #10
	mov	x11, x25
	mul	w8, w8, w9
	ldrb	w9, [x23, #3]
	sub	w9, w9, #48
	add	w8, w8, w10, uxtb
	cmp	w9, #9
	b.hi	.LBB37d7e3d0_672
	cmp	x11, #4
	b.eq	.LBB37d7e3d0_246
	mov	w10, #10
	mul	w8, w8, w10
	ldrb	w10, [x23, #4]
	sub	w10, w10, #48
	add	w8, w8, w9, uxtb
	cmp	w10, #9
	b.hi	.LBB37d7e3d0_740
	cmp	x11, #5
	b.eq	.LBB37d7e3d0_246
	mov	w9, #10
	mul	w8, w8, w9
	ldrb	w9, [x23, #5]
	sub	w9, w9, #48
	add	w8, w8, w10, uxtb
	cmp	w9, #9
	b.hi	.LBB37d7e3d0_817
	cmp	x11, #6
	b.eq	.LBB37d7e3d0_246
	ldrb	w10, [x23, #6]
	sub	w10, w10, #48
	cmp	w10, #10
	b.lo	.LBB37d7e3d0_246
	mov	w10, #10
	mul	w8, w8, w10
	add	w8, w8, w9, uxtb
	mov	w9, #6
	b	.LBB37d7e3d0_673
.LBB37d7e3d0_121:
	cmp	w20, #117
	mov	w9, wzr
	b.ne	.LBB37d7e3d0_247
	cmp	w26, #110
	b.ne	.LBB37d7e3d0_247
	cmp	w25, #105
	b.ne	.LBB37d7e3d0_247
	ldr	x21, [sp, #112]
	cmp	w27, #111
	b.ne	.LBB37d7e3d0_247
	adrp	x8, .Lstatic.6
	add	x8, x8, :lo12:.Lstatic.6
	mov	x20, x1
	mov	x19, x0
	mov	x0, x2
	mov	w1, #5
	mov	x2, x8
	bl	core.cmp.slices.groups_equal._i8_31_core.cmp.numbers.U8PartialEq
	cmp	w24, #32
	mov	w9, wzr
	b.ne	.LBB37d7e3d0_531
	mov	w8, w0
	mov	x0, x19
	cbz	w8, .LBB37d7e3d0_247
	cmp	x21, #7
	b.hi	.LBB37d7e3d0_179
	cbz	x21, .LBB37d7e3d0_246
	ldrb	w8, [x23]
	sub	w8, w8, #48
	cmp	w8, #9
	b.hi	.LBB37d7e3d0_215
	cmp	x21, #1
	b.eq	.LBB37d7e3d0_246
	ldrb	w9, [x23, #1]
	and	w8, w8, #0xff
	sub	w9, w9, #48
	cmp	w9, #9
	b.hi	.LBB37d7e3d0_279
	cmp	x21, #2
	b.eq	.LBB37d7e3d0_246
	mov	w10, #10
	mul	w8, w8, w10
	ldrb	w10, [x23, #2]
	sub	w10, w10, #48
	add	w8, w8, w9, uxtb
	cmp	w10, #9
	b.hi	.LBB37d7e3d0_539
	cmp	x21, #3
	b.ne	.LBB37d7e3d0_571
.LBB37d7e3d0_135:
	mov	w9, wzr
	mov	x0, x19
	b	.LBB37d7e3d0_247
.LBB37d7e3d0_136:
	sub	w13, w12, #55
.LBB37d7e3d0_137:
	add	w11, w13, w11, lsl #4
	subs	x10, x10, #1
	add	x8, x8, #2
	strb	w11, [x9], #1
	b.eq	.LBB37d7e3d0_171
.LBB37d7e3d0_138:
	ldurb	w13, [x8, #-1]
	subs	w11, w13, #48
	b.lo	.LBB37d7e3d0_151
	ldrb	w12, [x8]
	cmp	w13, #57
	b.ls	.LBB37d7e3d0_145
	cmp	w13, #65
	b.lo	.LBB37d7e3d0_151
	cmp	w13, #70
	b.hi	.LBB37d7e3d0_143
	sub	w11, w13, #55
	b	.LBB37d7e3d0_145
.LBB37d7e3d0_143:
	sub	w11, w13, #97
	cmp	w11, #5
	b.hi	.LBB37d7e3d0_151
	sub	w11, w13, #87
.LBB37d7e3d0_145:
	subs	w13, w12, #48
	b.lo	.LBB37d7e3d0_151
	cmp	w12, #57
	b.ls	.LBB37d7e3d0_137
	cmp	w12, #65
	b.lo	.LBB37d7e3d0_151
	cmp	w12, #70
	b.ls	.LBB37d7e3d0_136
	sub	w13, w12, #97
	cmp	w13, #5
	b.hi	.LBB37d7e3d0_151
	sub	w13, w12, #87
	b	.LBB37d7e3d0_137
.LBB37d7e3d0_151:
	ldr	x8, [x22, #256]
	cbz	x8, .LBB37d7e3d0_153
	mov	x19, x0
	mov	x0, x20
	bl	rattle_dealloc
	mov	x0, x19
.LBB37d7e3d0_153:
	mov	w9, #2
.LBB37d7e3d0_154:
	mov	w10, wzr
.LBB37d7e3d0_155:
	mov	w11, #1
	b	.LBB37d7e3d0_3
.LBB37d7e3d0_156:
	movi	v0.8b, #198
	ldr	d1, [x9]
	movi	v2.8b, #246
	adrp	x9, .LCPI37d7e3d0_0
	add	v0.8b, v1.8b, v0.8b
	cmhi	v0.8b, v2.8b, v0.8b
	ldr	d2, [x9, :lo12:.LCPI37d7e3d0_0]
	and	v0.8b, v0.8b, v2.8b
	movi	v2.8b, #48
	addv	b0, v0.8b
	uqsub	v1.8b, v1.8b, v2.8b
	fmov	w9, s0
	ushll	v0.8h, v1.8b, #0
	orr	w9, w9, #0x100
	rbit	w9, w9
	ushll2	v1.4s, v0.8h, #0
	ushll	v0.4s, v0.4h, #0
	clz	w11, w9
	adrp	x9, .Lstatic.2
	add	x9, x9, :lo12:.Lstatic.2
	sub	x9, x9, w11, uxtw #2
	ldr	q2, [x9, #48]
	mul	v1.4s, v2.4s, v1.4s
	ldr	q2, [x9, #32]
	mla	v1.4s, v2.4s, v0.4s
	addv	s0, v1.4s
	fmov	w10, s0
.LBB37d7e3d0_157:
	mov	w9, wzr
	cbz	x11, .LBB37d7e3d0_247
	cmp	x11, x12
	b.ne	.LBB37d7e3d0_247
.LBB37d7e3d0_159:
	lsr	w11, w8, #26
	mov	w9, #1
	cbnz	w11, .LBB37d7e3d0_247
	sub	w11, w10, #64
	cmn	w11, #63
	b.lo	.LBB37d7e3d0_247
	mov	w9, #2
	mov	w15, w10
	orr	x20, x9, x8, lsl #32
	and	w8, w20, #0xff
	lsr	x19, x20, #8
	cmp	w8, #1
	b.le	.LBB37d7e3d0_199
.LBB37d7e3d0_162:
	lsr	x11, x20, #32
	cmp	w8, #2
	and	w25, w15, #0xff
	b.eq	.LBB37d7e3d0_202
	cmp	w8, #3
	add	x26, sp, #496
	b.ne	.LBB37d7e3d0_208
	mov	x9, x1
	ldr	x8, [x9, #8]!
	str	x8, [sp, #112]
	subs	x8, x8, x11
	csel	x8, xzr, x8, lo
	b.lo	.LBB37d7e3d0_211
	str	x8, [sp, #72]
	add	x8, x8, x8, lsl #1
	ldr	x19, [x1]
	stp	x11, x9, [sp, #40]
	lsr	x9, x15, #8
	lsl	x8, x8, #5
	cmp	x9, #2
	str	x9, [sp, #32]
	stp	x15, x8, [sp, #56]
	b.ne	.LBB37d7e3d0_169
	ldr	x8, [sp, #112]
	ldr	x9, [sp, #72]
	cmp	x8, x9
	b.eq	.LBB37d7e3d0_169
	ldr	x8, [sp, #64]
	add	x23, x19, x8
	ldrb	w8, [x23, #8]
	cmp	w8, #4
	b.ne	.LBB37d7e3d0_169
	ldrb	w20, [x23]
	cmp	w20, w25
	b.ls	.LBB37d7e3d0_563
.LBB37d7e3d0_169:
	movi	v0.2d, #0000000000000000
	sub	w8, w25, #22
	stp	xzr, xzr, [sp, #208]
	cmn	w8, #18
	stur	xzr, [sp, #223]
	stp	xzr, xzr, [sp, #128]
	stur	xzr, [sp, #143]
	str	q0, [sp, #240]
	str	q0, [x28, #16]
	stur	wzr, [x28, #31]
	stp	q0, q0, [sp, #160]
	stur	wzr, [sp, #191]
	stp	xzr, xzr, [x28, #144]
	stp	q0, q0, [x26, #144]
	stp	q0, q0, [x26, #176]
	str	q0, [x26, #208]
	str	xzr, [x26, #224]
	stp	q0, q0, [x28, #48]
	stp	q0, q0, [x28, #80]
	str	q0, [x28, #112]
	str	xzr, [x28, #128]
	b.hs	.LBB37d7e3d0_277
	mov	w24, #11
	b	.LBB37d7e3d0_825
.LBB37d7e3d0_171:
	add	x8, sp, #736
	mov	x22, x0
	add	x0, sp, #384
	ldr	x24, [x8, #256]
	mov	x23, x1
	mov	x1, x20
	mov	x2, x19
	add	x21, sp, #384
	bl	hll_sketch.sketch.HllSketch.deserialize.8a2f8b2564a2651f
	ldr	x0, [x23, #24]
	ldr	x9, [x23, #40]
	mov	x8, x23
	stp	x20, x19, [x23, #24]
	str	x24, [x23, #40]
	cbz	x9, .LBB37d7e3d0_173
	bl	rattle_dealloc
	mov	x8, x23
.LBB37d7e3d0_173:
	ldrb	w9, [sp, #384]
	cbz	w9, .LBB37d7e3d0_180
	ldrb	w8, [sp, #385]
	mov	w9, #3
	mov	w10, #5
	cmp	w8, #12
	csel	w9, w10, w9, eq
	csel	w10, wzr, w8, eq
.LBB37d7e3d0_175:
	mov	w11, #1
	mov	x0, x22
	b	.LBB37d7e3d0_3
.LBB37d7e3d0_176:
	mov	x0, x20
	b	.LBB37d7e3d0_247
.LBB37d7e3d0_177:
	movi	v0.8b, #198
	ldr	d1, [x23]
	movi	v2.8b, #246
	adrp	x8, .LCPI37d7e3d0_0
	adrp	x9, .Lstatic.2
	add	x9, x9, :lo12:.Lstatic.2
	add	v0.8b, v1.8b, v0.8b
	cmhi	v0.8b, v2.8b, v0.8b
	ldr	d2, [x8, :lo12:.LCPI37d7e3d0_0]
	and	v0.8b, v0.8b, v2.8b
	movi	v2.8b, #48
	addv	b0, v0.8b
	uqsub	v1.8b, v1.8b, v2.8b
	fmov	w8, s0
	ushll	v0.8h, v1.8b, #0
	orr	w8, w8, #0x100
	rbit	w8, w8
	ushll2	v1.4s, v0.8h, #0
	ushll	v0.4s, v0.4h, #0
	clz	w8, w8
	sub	x9, x9, w8, uxtw #2
	ldr	q2, [x9, #48]
	mul	v1.4s, v2.4s, v1.4s
	ldr	q2, [x9, #32]
	mla	v1.4s, v2.4s, v0.4s
	addv	s0, v1.4s
	fmov	w10, s0
	b	.LBB37d7e3d0_194
.LBB37d7e3d0_178:
	movi	v0.8b, #198
	ldr	d1, [x23]
	movi	v2.8b, #246
	adrp	x8, .LCPI37d7e3d0_0
	add	v0.8b, v1.8b, v0.8b
	cmhi	v0.8b, v2.8b, v0.8b
	ldr	d2, [x8, :lo12:.LCPI37d7e3d0_0]
	and	v0.8b, v0.8b, v2.8b
	movi	v2.8b, #48
	addv	b0, v0.8b
	uqsub	v1.8b, v1.8b, v2.8b
	fmov	w8, s0
	ushll	v0.8h, v1.8b, #0
	orr	w8, w8, #0x100
	rbit	w8, w8
	ushll2	v1.4s, v0.8h, #0
	ushll	v0.4s, v0.4h, #0
	clz	w10, w8
	adrp	x8, .Lstatic.2
	add	x8, x8, :lo12:.Lstatic.2
	sub	x8, x8, w10, uxtw #2
	ldr	q2, [x8, #48]
	mul	v1.4s, v2.4s, v1.4s
	ldr	q2, [x8, #32]
	mla	v1.4s, v2.4s, v0.4s
	addv	s0, v1.4s
	fmov	w8, s0
	b	.LBB37d7e3d0_185
.LBB37d7e3d0_179:
	movi	v0.8b, #198
	ldr	d1, [x23]
	movi	v2.8b, #246
	adrp	x8, .LCPI37d7e3d0_0
	add	v0.8b, v1.8b, v0.8b
	cmhi	v0.8b, v2.8b, v0.8b
	ldr	d2, [x8, :lo12:.LCPI37d7e3d0_0]
	and	v0.8b, v0.8b, v2.8b
	movi	v2.8b, #48
	addv	b0, v0.8b
	uqsub	v1.8b, v1.8b, v2.8b
	fmov	w8, s0
	ushll	v0.8h, v1.8b, #0
	orr	w8, w8, #0x100
	rbit	w8, w8
	ushll2	v1.4s, v0.8h, #0
	ushll	v0.4s, v0.4h, #0
	clz	w10, w8
	adrp	x8, .Lstatic.2
	add	x8, x8, :lo12:.Lstatic.2
	sub	x8, x8, w10, uxtw #2
	ldr	q2, [x8, #48]
	mul	v1.4s, v2.4s, v1.4s
	ldr	q2, [x8, #32]
	mla	v1.4s, v2.4s, v0.4s
	addv	s0, v1.4s
	fmov	w8, s0
	b	.LBB37d7e3d0_216
.LBB37d7e3d0_180:
	ldp	x12, x9, [x8, #8]
	mov	x0, x22
	ldrb	w20, [sp, #392]
	ldrb	w19, [sp, #400]
	cmp	x9, x12
	b.eq	.LBB37d7e3d0_281
.LBB37d7e3d0_181:
	mov	w13, #96
	ldr	x14, [x8]
	mov	w11, wzr
	madd	x13, x12, x13, x14
	mov	w9, wzr
	mov	w10, wzr
	strb	w20, [x13]
	str	x19, [x13, #8]
	ldur	q0, [x21, #40]
	str	q0, [x13, #32]
	ldur	q0, [x21, #56]
	str	q0, [x13, #48]
	ldur	q0, [x21, #72]
	str	q0, [x13, #64]
	ldur	q0, [x21, #88]
	str	q0, [x13, #80]
	ldur	q0, [x21, #24]
.LBB37d7e3d0_182:
	add	x12, x12, #1
	str	q0, [x13, #16]
	str	x12, [x8, #8]
	b	.LBB37d7e3d0_3
.LBB37d7e3d0_183:
	movi	v0.8b, #198
	ldr	d1, [x23]
	movi	v2.8b, #246
	adrp	x8, .LCPI37d7e3d0_0
	add	v0.8b, v1.8b, v0.8b
	cmhi	v0.8b, v2.8b, v0.8b
	ldr	d2, [x8, :lo12:.LCPI37d7e3d0_0]
	and	v0.8b, v0.8b, v2.8b
	movi	v2.8b, #48
	addv	b0, v0.8b
	uqsub	v1.8b, v1.8b, v2.8b
	fmov	w8, s0
	ushll	v0.8h, v1.8b, #0
	orr	w8, w8, #0x100
	rbit	w8, w8
	ushll2	v1.4s, v0.8h, #0
	ushll	v0.4s, v0.4h, #0
	clz	w9, w8
	adrp	x8, .Lstatic.2
	add	x8, x8, :lo12:.Lstatic.2
	sub	x8, x8, w9, uxtw #2
	ldr	q2, [x8, #48]
	mul	v1.4s, v2.4s, v1.4s
	ldr	q2, [x8, #32]
	mla	v1.4s, v2.4s, v0.4s
	addv	s0, v1.4s
	fmov	w8, s0
	b	.LBB37d7e3d0_233
.LBB37d7e3d0_184:
	mov	w8, wzr
	mov	x10, xzr
.LBB37d7e3d0_185:
	mov	w9, wzr
	cbz	x10, .LBB37d7e3d0_247
	cmp	x10, x25
	b.eq	.LBB37d7e3d0_247
	ldrb	w9, [x23, x10]
	cmp	w9, #32
	b.ne	.LBB37d7e3d0_246
	add	x10, x10, #1
	sub	x11, x25, x10
	add	x9, x23, x10
	cmp	x11, #7
	b.hi	.LBB37d7e3d0_226
	cmp	x25, x10
	b.eq	.LBB37d7e3d0_246
	mov	w10, wzr
	mov	x12, xzr
.LBB37d7e3d0_191:
	ldrb	w13, [x9, x12]
	sub	w13, w13, #48
	cmp	w13, #9
	b.hi	.LBB37d7e3d0_227
	mov	w14, #10
	add	x12, x12, #1
	mul	w10, w10, w14
	cmp	x11, x12
	add	w10, w10, w13, uxtb
	b.ne	.LBB37d7e3d0_191
	b	.LBB37d7e3d0_229
.LBB37d7e3d0_193:
	mov	w10, wzr
	mov	x8, xzr
.LBB37d7e3d0_194:
	mov	w9, wzr
	cbz	x8, .LBB37d7e3d0_247
	cmp	x8, x25
	b.ne	.LBB37d7e3d0_247
.LBB37d7e3d0_196:
	sub	w8, w10, #4
	cmp	w8, #17
	b.hi	.LBB37d7e3d0_264
	mov	w11, #4
	mov	x9, xzr
	mov	w8, wzr
	orr	w11, w11, w10, lsl #8
	mov	w10, wzr
.LBB37d7e3d0_198:
	mov	w10, w10
	orr	x20, x11, x8, lsl #32
	orr	x15, x9, x10
	and	w8, w20, #0xff
	lsr	x19, x20, #8
	cmp	w8, #1
	b.gt	.LBB37d7e3d0_162
.LBB37d7e3d0_199:
	cbnz	w8, .LBB37d7e3d0_212
	lsr	w8, w20, #8
	sub	w8, w8, #22
	and	w8, w8, #0xff
	cmp	w8, #238
	b.hs	.LBB37d7e3d0_249
	mov	w10, #11
	mov	w9, #3
	b	.LBB37d7e3d0_155
.LBB37d7e3d0_202:
	ldr	x8, [x1, #8]
	cbz	x8, .LBB37d7e3d0_211
	mov	w9, #96
	ldr	x10, [x1]
	mov	w1, w11
	madd	x19, x8, x9, x10
	bfi	w1, w15, #26, #6
	ldurb	w8, [x19, #-88]
	cmp	w8, #2
	b.gt	.LBB37d7e3d0_275
	b.hs	.LBB37d7e3d0_283
	mov	x20, x0
	sub	x0, x19, #96
	bl	hll_sketch.sketch.HllSketch.update_table.8a2f8b2564a2651f
	tst	w0, #0xff
	b.eq	.LBB37d7e3d0_591
	mov	x0, x20
.LBB37d7e3d0_207:
	and	w8, w1, #0xff
	mov	w9, #5
	cmp	w8, #12
	mov	w8, #3
	csel	w9, w9, w8, eq
	csel	w10, wzr, w1, eq
	b	.LBB37d7e3d0_155
.LBB37d7e3d0_208:
	movi	v0.2d, #0000000000000000
	ldr	x8, [x1, #8]
	str	xzr, [x26, #224]
	stp	q0, q0, [x22]
	stp	q0, q0, [x22, #32]
	stp	q0, q0, [x22, #64]
	stp	q0, q0, [x22, #96]
	stp	q0, q0, [x22, #128]
	stp	q0, q0, [x26, #144]
	stp	q0, q0, [x26, #176]
	str	q0, [x26, #208]
	cbz	x8, .LBB37d7e3d0_211
	mov	w9, #96
	ldr	x10, [x1]
	madd	x27, x8, x9, x10
	lsr	w8, w20, #8
	ldurb	w9, [x27, #-96]
	cmp	w9, w8, uxtb
	b.hs	.LBB37d7e3d0_265
	mov	w10, wzr
	mov	w9, #8
	b	.LBB37d7e3d0_155
.LBB37d7e3d0_211:
	mov	w10, wzr
	mov	w9, #4
	b	.LBB37d7e3d0_155
.LBB37d7e3d0_212:
	movi	v0.2d, #0000000000000000
	mov	x22, x1
	mov	x19, x0
	add	x0, sp, #384
	mov	x1, x15
	mov	x2, xzr
	str	xzr, [x28, #240]
	add	x20, sp, #384
	stp	q0, q0, [x28, #144]
	stp	q0, q0, [x28, #176]
	stp	q0, q0, [x28, #208]
	bl	hll_sketch.sketch.HllSketch.deserialize.8a2f8b2564a2651f
	ldrb	w8, [sp, #384]
	cbz	w8, .LBB37d7e3d0_251
	ldrb	w8, [sp, #385]
	mov	w9, #3
	mov	w10, #5
	cmp	w8, #12
	csel	w9, w10, w9, eq
	csel	w10, wzr, w8, eq
.LBB37d7e3d0_214:
	mov	w11, #1
	mov	x0, x19
	b	.LBB37d7e3d0_3
.LBB37d7e3d0_215:
	mov	w8, wzr
	mov	x10, xzr
.LBB37d7e3d0_216:
	mov	w9, wzr
	cbz	x10, .LBB37d7e3d0_247
	cmp	x10, x21
	b.eq	.LBB37d7e3d0_247
	ldrb	w9, [x23, x10]
	cmp	w9, #32
	b.ne	.LBB37d7e3d0_246
	add	x9, x10, #1
	sub	x11, x21, x9
	add	x12, x23, x9
	cmp	x11, #7
	b.hi	.LBB37d7e3d0_240
	cmp	x21, x9
	b.eq	.LBB37d7e3d0_246
	mov	w10, wzr
	mov	x13, xzr
.LBB37d7e3d0_222:
	ldrb	w9, [x12, x13]
	sub	w9, w9, #48
	cmp	w9, #9
	b.hi	.LBB37d7e3d0_241
	mov	w14, #10
	add	x13, x13, #1
	mul	w10, w10, w14
	cmp	x11, x13
	add	w10, w10, w9, uxtb
	mov	w9, wzr
	b.ne	.LBB37d7e3d0_222
	b	.LBB37d7e3d0_247
.LBB37d7e3d0_224:
	mov	x25, x1
	mov	x20, x0
	sub	x0, x29, #128
	mov	x1, x2
	mov	x26, x2
	bl	std_alloc.vec.Vec.grow_amortized.e3d5df6901cfba47
	cbz	w0, .LBB37d7e3d0_253
	ldp	x8, x24, [x22, #248]
	mov	x0, x20
	mov	x1, x25
	mov	x2, x26
	add	x20, x8, x26
	cmp	x8, x20
	b.lo	.LBB37d7e3d0_26
	b	.LBB37d7e3d0_27
.LBB37d7e3d0_226:
	movi	v0.8b, #198
	ldr	d1, [x9]
	movi	v2.8b, #246
	adrp	x9, .LCPI37d7e3d0_0
	add	v0.8b, v1.8b, v0.8b
	cmhi	v0.8b, v2.8b, v0.8b
	ldr	d2, [x9, :lo12:.LCPI37d7e3d0_0]
	and	v0.8b, v0.8b, v2.8b
	movi	v2.8b, #48
	addv	b0, v0.8b
	uqsub	v1.8b, v1.8b, v2.8b
	fmov	w9, s0
	ushll	v0.8h, v1.8b, #0
	orr	w9, w9, #0x100
	rbit	w9, w9
	ushll2	v1.4s, v0.8h, #0
	ushll	v0.4s, v0.4h, #0
	clz	w12, w9
	adrp	x9, .Lstatic.2
	add	x9, x9, :lo12:.Lstatic.2
	sub	x9, x9, w12, uxtw #2
	ldr	q2, [x9, #48]
	mul	v1.4s, v2.4s, v1.4s
	ldr	q2, [x9, #32]
	mla	v1.4s, v2.4s, v0.4s
	addv	s0, v1.4s
	fmov	w10, s0
.LBB37d7e3d0_227:
	mov	w9, wzr
	cbz	x12, .LBB37d7e3d0_247
	cmp	x12, x11
	b.ne	.LBB37d7e3d0_247
.LBB37d7e3d0_229:
	lsr	w11, w8, #26
	mov	w9, #1
	cbnz	w11, .LBB37d7e3d0_247
	sub	w11, w10, #64
	cmn	w11, #63
	b.lo	.LBB37d7e3d0_247
	mov	x9, xzr
	mov	w11, #2
	b	.LBB37d7e3d0_198
.LBB37d7e3d0_232:
	mov	w8, wzr
	mov	x9, xzr
.LBB37d7e3d0_233:
	cmp	x9, #0
	ccmp	x9, x25, #4, ne
	b.eq	.LBB37d7e3d0_246
	ldrb	w10, [x23, x9]
	cmp	w10, #32
	b.ne	.LBB37d7e3d0_246
	add	x11, x9, #1
	sub	x10, x25, x11
	add	x9, x23, x11
	cmp	x10, #7
	b.hi	.LBB37d7e3d0_256
	cmp	x25, x11
	b.eq	.LBB37d7e3d0_246
	mov	w11, wzr
	mov	x12, xzr
.LBB37d7e3d0_238:
	ldrb	w13, [x9, x12]
	sub	w13, w13, #48
	cmp	w13, #9
	b.hi	.LBB37d7e3d0_257
	mov	w14, #10
	add	x12, x12, #1
	mul	w11, w11, w14
	cmp	x10, x12
	add	w11, w11, w13, uxtb
	b.ne	.LBB37d7e3d0_238
	b	.LBB37d7e3d0_259
.LBB37d7e3d0_240:
	movi	v0.8b, #198
	ldr	d1, [x12]
	movi	v2.8b, #246
	adrp	x9, .LCPI37d7e3d0_0
	add	v0.8b, v1.8b, v0.8b
	cmhi	v0.8b, v2.8b, v0.8b
	ldr	d2, [x9, :lo12:.LCPI37d7e3d0_0]
	and	v0.8b, v0.8b, v2.8b
	movi	v2.8b, #48
	addv	b0, v0.8b
	uqsub	v1.8b, v1.8b, v2.8b
	fmov	w9, s0
	ushll	v0.8h, v1.8b, #0
	orr	w9, w9, #0x100
	rbit	w9, w9
	ushll2	v1.4s, v0.8h, #0
	ushll	v0.4s, v0.4h, #0
	clz	w13, w9
	adrp	x9, .Lstatic.2
	add	x9, x9, :lo12:.Lstatic.2
	sub	x9, x9, w13, uxtw #2
	ldr	q2, [x9, #48]
	mul	v1.4s, v2.4s, v1.4s
	ldr	q2, [x9, #32]
	mla	v1.4s, v2.4s, v0.4s
	addv	s0, v1.4s
	fmov	w10, s0
.LBB37d7e3d0_241:
	mov	w9, wzr
	cbz	x13, .LBB37d7e3d0_247
	cmp	x13, x11
	b.eq	.LBB37d7e3d0_247
	ldrb	w9, [x12, x13]
	cmp	w9, #32
	b.ne	.LBB37d7e3d0_246
	add	x14, x13, #1
	sub	x13, x11, x14
	add	x9, x12, x14
	cmp	x13, #7
	b.hi	.LBB37d7e3d0_528
	cmp	x11, x14
	b.ne	.LBB37d7e3d0_542
.LBB37d7e3d0_246:
	mov	w9, wzr
.LBB37d7e3d0_247:
	mov	w8, #1
	strb	w9, [x0, #1]
	strb	w8, [x0]
	strb	wzr, [x0, #2]
.LBB37d7e3d0_248:
	add	sp, sp, #1104
	ldp	x20, x19, [sp, #80]
	ldp	x22, x21, [sp, #64]
	ldp	x24, x23, [sp, #48]
	ldp	x26, x25, [sp, #32]
	ldp	x28, x27, [sp, #16]
	ldp	x29, x30, [sp], #96
	ret
.LBB37d7e3d0_249:
	ldp	x8, x9, [x1, #8]
	cmp	x9, x8
	b.eq	.LBB37d7e3d0_569
.LBB37d7e3d0_250:
	mov	w12, #96
	ldr	x13, [x1]
	movi	v1.2d, #0000000000000000
	madd	x12, x8, x12, x13
	adrp	x13, .LCPI37d7e3d0_2
	add	x8, x8, #1
	ldr	q0, [x13, :lo12:.LCPI37d7e3d0_2]
	lsr	x13, x20, #16
	mov	w11, wzr
	mov	w9, wzr
	mov	w10, wzr
	stur	q0, [x12, #8]
	strb	w19, [x12]
	strb	w13, [x12, #72]
	stur	q1, [x12, #24]
	stur	q1, [x12, #40]
	stur	q1, [x12, #56]
	stur	xzr, [x12, #81]
	stur	xzr, [x12, #73]
	str	xzr, [x12, #88]
	str	x8, [x1, #8]
	b	.LBB37d7e3d0_3
.LBB37d7e3d0_251:
	ldp	x12, x9, [x22, #8]
	mov	x8, x22
	ldrb	w23, [sp, #392]
	ldrb	w21, [sp, #400]
	mov	x0, x19
	cmp	x9, x12
	b.eq	.LBB37d7e3d0_592
.LBB37d7e3d0_252:
	mov	w13, #96
	ldr	x14, [x8]
	mov	w11, wzr
	madd	x13, x12, x13, x14
	mov	w9, wzr
	mov	w10, wzr
	strb	w23, [x13]
	str	x21, [x13, #8]
	ldur	q0, [x20, #40]
	str	q0, [x13, #32]
	ldur	q0, [x20, #56]
	str	q0, [x13, #48]
	ldur	q0, [x20, #72]
	str	q0, [x13, #64]
	ldur	q0, [x20, #88]
	str	q0, [x13, #80]
	ldur	q0, [x20, #24]
	b	.LBB37d7e3d0_182
.LBB37d7e3d0_253:
	ldr	x8, [x22, #256]
	cbz	x8, .LBB37d7e3d0_255
	ldr	x0, [x22, #240]
	bl	rattle_dealloc
.LBB37d7e3d0_255:
	mov	w9, #5
	mov	x0, x20
	b	.LBB37d7e3d0_154
.LBB37d7e3d0_256:
	movi	v0.8b, #198
	ldr	d1, [x9]
	movi	v2.8b, #246
	adrp	x9, .LCPI37d7e3d0_0
	add	v0.8b, v1.8b, v0.8b
	cmhi	v0.8b, v2.8b, v0.8b
	ldr	d2, [x9, :lo12:.LCPI37d7e3d0_0]
	and	v0.8b, v0.8b, v2.8b
	movi	v2.8b, #48
	addv	b0, v0.8b
	uqsub	v1.8b, v1.8b, v2.8b
	fmov	w9, s0
	ushll	v0.8h, v1.8b, #0
	orr	w9, w9, #0x100
	rbit	w9, w9
	ushll2	v1.4s, v0.8h, #0
	ushll	v0.4s, v0.4h, #0
	clz	w12, w9
	adrp	x9, .Lstatic.2
	add	x9, x9, :lo12:.Lstatic.2
	sub	x9, x9, w12, uxtw #2
	ldr	q2, [x9, #48]
	mul	v1.4s, v2.4s, v1.4s
	ldr	q2, [x9, #32]
	mla	v1.4s, v2.4s, v0.4s
	addv	s0, v1.4s
	fmov	w11, s0
.LBB37d7e3d0_257:
	mov	w9, wzr
	cbz	x12, .LBB37d7e3d0_247
	cmp	x12, x10
	b.ne	.LBB37d7e3d0_247
.LBB37d7e3d0_259:
	sub	w9, w8, #4
	cmp	w9, #17
	b.hi	.LBB37d7e3d0_264
	cmp	w11, #4
	b.eq	.LBB37d7e3d0_561
	cmp	w11, #8
	b.eq	.LBB37d7e3d0_560
	cmp	w11, #6
	b.ne	.LBB37d7e3d0_264
	mov	w9, #65536
	add	x28, sp, #240
	sub	x21, x29, #128
	add	x22, sp, #736
	b	.LBB37d7e3d0_562
.LBB37d7e3d0_264:
	mov	w9, #1
	b	.LBB37d7e3d0_247
.LBB37d7e3d0_265:
	cmp	w9, w8, uxtb
	b.ne	.LBB37d7e3d0_607
	ldurb	w11, [x27, #-88]
	sub	w10, w11, #2
	cmp	w10, #3
	b.lo	.LBB37d7e3d0_2
	mov	x10, x0
	cmp	w11, #1
	b.ne	.LBB37d7e3d0_565
	ldur	x11, [x27, #-72]
	cmp	x11, #8
	b.lo	.LBB37d7e3d0_566
	add	w12, w8, #1
	mov	x0, x10
	add	x28, sp, #240
	and	w12, w12, #0xff
	sub	x21, x29, #128
	add	x22, sp, #736
	subs	w12, w12, #3
	csel	w12, wzr, w12, lo
	cmp	w12, #6
	b.lo	.LBB37d7e3d0_607
	and	x13, x12, #0xff
	mov	w12, #5
.LBB37d7e3d0_271:
	mov	w14, #3
	lsl	x14, x14, x12
	cmp	x11, x14, lsr #2
	b.ls	.LBB37d7e3d0_567
	add	x12, x12, #1
	cmp	x13, x12
	b.ne	.LBB37d7e3d0_271
	b	.LBB37d7e3d0_607
.LBB37d7e3d0_273:
	mov	w10, #1
	b	.LBB37d7e3d0_185
.LBB37d7e3d0_274:
	mov	w8, #1
	b	.LBB37d7e3d0_194
.LBB37d7e3d0_275:
	cmp	w8, #3
	b.ne	.LBB37d7e3d0_289
	sub	x8, x19, #80
	mov	x19, x0
	mov	x0, x8
	bl	hll_arrays.array6.Array6.update.309f015d8caa795c
	mov	x0, x19
	b	.LBB37d7e3d0_2
.LBB37d7e3d0_277:
	adrp	x8, .LCPI37d7e3d0_2
	ldr	x9, [sp, #72]
	strb	w25, [sp, #384]
	ldr	q1, [x8, :lo12:.LCPI37d7e3d0_2]
	mov	w8, #2
	strb	w25, [sp, #392]
	strb	w8, [sp, #464]
	ldr	x8, [sp, #112]
	stp	q1, q0, [x28, #160]
	sub	x27, x8, x9
	stp	q0, q0, [x28, #192]
	stur	xzr, [x28, #233]
	stur	xzr, [x28, #225]
	str	xzr, [x28, #240]
	str	x0, [sp, #104]
	str	x1, [sp, #80]
	cbz	x27, .LBB37d7e3d0_291
	ldr	x8, [sp, #64]
	add	x19, x19, x8
	sub	x8, x29, #128
	orr	x8, x8, #0x1
	str	x8, [sp, #24]
	b	.LBB37d7e3d0_297
.LBB37d7e3d0_279:
	mov	w10, #1
	b	.LBB37d7e3d0_216
.LBB37d7e3d0_280:
	mov	w9, #1
	b	.LBB37d7e3d0_233
.LBB37d7e3d0_281:
	mov	x0, x8
	bl	std_alloc.vec.Vec.grow_amortized.f10ba080d3fae16a
	cbz	w0, .LBB37d7e3d0_534
	ldr	x12, [x23, #8]
	mov	x8, x23
	mov	x0, x22
	b	.LBB37d7e3d0_181
.LBB37d7e3d0_283:
	mov	x8, x19
	ldrb	w9, [x8, #-80]!
	cmp	x9, #31
	b.hi	.LBB37d7e3d0_648
	mov	w10, #1
	and	w2, w15, #0x3f
	lsl	x9, x10, x9
	ubfx	x10, x20, #32, #26
	sub	w9, w9, #1
	and	w1, w9, w10
	ldur	x9, [x19, #-72]
	lsr	x10, x1, #1
	tst	x1, #0x1
	ldrb	w11, [x9, x10]
	lsr	w13, w11, #4
	and	w12, w11, #0xf
	csel	w14, w12, w13, eq
	cmp	w14, #15
	b.ne	.LBB37d7e3d0_535
	ldurb	w13, [x19, #-48]
	cmp	w13, #1
	b.ne	.LBB37d7e3d0_648
	ldur	x15, [x19, #-40]
	mov	x20, x0
	ldrb	w16, [x15, #24]
	cbz	w16, .LBB37d7e3d0_581
	ldr	x17, [x15, #40]
	cbz	x17, .LBB37d7e3d0_648
	ldr	x18, [x15, #32]
	b	.LBB37d7e3d0_582
.LBB37d7e3d0_289:
	ldurb	w8, [x19, #-80]
	mov	x9, #-1
	and	w13, w25, #0x3f
	lsl	x8, x9, x8
	bic	w9, w11, w8
	ldur	x8, [x19, #-64]
	and	x12, x9, #0x3ffffff
	ldrb	w14, [x8, x12]
	cmp	w14, w13
	b.hs	.LBB37d7e3d0_2
	ldurb	w15, [x19, #-76]
	cmp	w14, #0
	ldur	w14, [x19, #-72]
	mov	w11, wzr
	mov	w9, wzr
	mov	w10, wzr
	ccmp	w15, #1, #0, eq
	cset	w16, eq
	sub	w14, w14, w16
	stp	w15, w14, [x19, #-76]
	strb	w13, [x8, x12]
	mov	w8, #1
	stp	xzr, xzr, [x19, #-40]
	stur	xzr, [x19, #-24]
	sturb	w8, [x19, #-16]
	stur	wzr, [x19, #-15]
	stur	wzr, [x19, #-12]
	b	.LBB37d7e3d0_3
.LBB37d7e3d0_291:
	mov	w24, wzr
	mov	x23, xzr
	mov	w19, wzr
	stur	wzr, [x28, #31]
	add	x10, sp, #240
	mov	w20, #2
	stp	xzr, xzr, [sp, #208]
	mov	w22, #3
	mov	w8, #2
	str	q0, [x28, #16]
	str	q0, [sp, #240]
	stur	xzr, [sp, #223]
	b	.LBB37d7e3d0_627
.LBB37d7e3d0_292:
	ldurb	w24, [x29, #-207]
.LBB37d7e3d0_293:
	ldp	x27, x0, [sp, #96]
	add	x26, sp, #496
	ldr	x1, [sp, #80]
.LBB37d7e3d0_294:
	ldr	x21, [sp, #88]
.LBB37d7e3d0_295:
	tst	w22, #0xff
	b.ne	.LBB37d7e3d0_568
.LBB37d7e3d0_296:
	mov	x19, x21
	cbz	x27, .LBB37d7e3d0_536
.LBB37d7e3d0_297:
	ldrb	w8, [sp, #400]
	cmp	w8, #1
	b.hi	.LBB37d7e3d0_299
	ldr	x8, [x28, #176]
	cmp	x8, #9
	b.hs	.LBB37d7e3d0_306
.LBB37d7e3d0_299:
	ldrb	w8, [x19, #8]
	add	x21, x19, #96
	sub	x27, x27, #1
	cmp	w8, #1
	b.le	.LBB37d7e3d0_304
	cmp	w8, #2
	b.eq	.LBB37d7e3d0_335
	cmp	w8, #3
	b.ne	.LBB37d7e3d0_341
	mov	x20, x27
	mov	x27, x0
	mov	x25, x1
	ldp	x0, x8, [x19, #32]
	add	x1, x8, x8, lsl #1
	bl	hll_kernels.kernels.all_zero
	tbz	w0, #0, .LBB37d7e3d0_346
	mov	x0, x27
	mov	x1, x25
	mov	x27, x20
	b	.LBB37d7e3d0_296
.LBB37d7e3d0_304:
	ldr	x8, [x19, #24]
	cbz	x8, .LBB37d7e3d0_296
	mov	x23, x0
	add	x0, sp, #384
	add	x2, x19, #16
	mov	x20, x1
	mov	x1, x19
	bl	hll_sketch.union.HllUnion.merge_table.8a2f8b2564a2651f
	mov	w22, w0
	mov	x0, x23
	mov	w24, w1
	mov	x1, x20
	b	.LBB37d7e3d0_295
.LBB37d7e3d0_306:
	cmp	x8, #256
	mov	w9, #256
	sub	x10, x29, #20
	csel	x8, x8, x9, hi
	mov	w9, #262143
	mov	x22, xzr
	cmp	x8, x9
	mov	x25, xzr
	str	x10, [x28, #256]
	add	x10, sp, #496
	csel	x23, x8, x9, lo
	stp	xzr, xzr, [x10, #8]
	b	.LBB37d7e3d0_309
.LBB37d7e3d0_307:
	ldrb	w8, [x9, #16]
	ldr	w9, [x9, #24]
	mov	w10, #1
	lsl	x8, x10, x8
	cmp	x8, x9
	b.ne	.LBB37d7e3d0_343
.LBB37d7e3d0_308:
	add	x25, x25, #1
	cmp	x25, x27
	b.eq	.LBB37d7e3d0_356
.LBB37d7e3d0_309:
	cmp	x23, x22
	b.ls	.LBB37d7e3d0_343
	mov	w8, #96
	madd	x9, x25, x8, x19
	ldrb	w8, [x9, #8]
	cmp	w8, #1
	b.le	.LBB37d7e3d0_314
	cmp	w8, #2
	b.eq	.LBB37d7e3d0_317
	cmp	w8, #3
	b.ne	.LBB37d7e3d0_319
	ldp	x8, x10, [x9, #32]
	add	x9, x10, x10, lsl #1
	b	.LBB37d7e3d0_321
.LBB37d7e3d0_314:
	ldr	x8, [x9, #24]
	cbz	x8, .LBB37d7e3d0_308
	ldrb	w8, [x9, #32]
	mov	x21, x27
	cbz	w8, .LBB37d7e3d0_322
	ldp	x24, x27, [x9, #40]
	b	.LBB37d7e3d0_323
.LBB37d7e3d0_317:
	ldrb	w8, [x9, #17]
	cbnz	w8, .LBB37d7e3d0_343
	ldrb	w8, [x9, #16]
	ldr	w9, [x9, #20]
	mov	w10, #1
	lsl	x8, x10, x8
	cmp	x8, x9
	b.eq	.LBB37d7e3d0_308
	b	.LBB37d7e3d0_343
.LBB37d7e3d0_319:
	ldrb	w8, [x9, #20]
	cmp	w8, #1
	b.eq	.LBB37d7e3d0_307
	ldp	x8, x9, [x9, #32]
.LBB37d7e3d0_321:
	mov	x20, x0
	mov	x0, x8
	mov	x21, x1
	mov	x1, x9
	bl	hll_kernels.kernels.all_zero
	mov	x1, x21
	mov	w8, w0
	mov	x0, x20
	tbnz	w8, #0, .LBB37d7e3d0_308
	b	.LBB37d7e3d0_343
.LBB37d7e3d0_322:
	add	x24, x9, #36
	mov	w27, #8
.LBB37d7e3d0_323:
	mov	x8, x22
.LBB37d7e3d0_324:
	cbz	x27, .LBB37d7e3d0_330
	ldr	w26, [x24], #4
	sub	x27, x27, #1
	cbz	w26, .LBB37d7e3d0_324
	ldr	x9, [x28, #272]
	cmp	x9, x8
	b.eq	.LBB37d7e3d0_328
.LBB37d7e3d0_327:
	ldr	x9, [x28, #256]
	str	w26, [x9, x8, lsl #2]
	add	x8, x8, #1
	str	x8, [x28, #264]
	b	.LBB37d7e3d0_324
.LBB37d7e3d0_328:
	mov	x20, x0
	add	x0, sp, #496
	mov	w1, #1
	bl	std_alloc.vec.Vec.grow_amortized.e9163d01fd20791a
	ldr	x8, [x28, #264]
	cbz	w0, .LBB37d7e3d0_332
	ldr	x1, [sp, #80]
	mov	x0, x20
	b	.LBB37d7e3d0_327
.LBB37d7e3d0_330:
	mov	w9, wzr
	mov	w24, wzr
.LBB37d7e3d0_331:
	tst	w9, #0xff
	mov	x22, x8
	add	x26, sp, #496
	mov	x27, x21
	b.eq	.LBB37d7e3d0_308
	b	.LBB37d7e3d0_540
.LBB37d7e3d0_332:
	cmp	x8, x22
	b.ls	.LBB37d7e3d0_334
	ldr	x1, [sp, #80]
	add	x28, sp, #240
	mov	w24, #12
	mov	w9, #1
	mov	x8, x22
	mov	x0, x20
	str	x22, [x28, #264]
	b	.LBB37d7e3d0_331
.LBB37d7e3d0_334:
	ldr	x1, [sp, #80]
	mov	w24, #12
	mov	w9, #1
	mov	x0, x20
	add	x28, sp, #240
	b	.LBB37d7e3d0_331
.LBB37d7e3d0_335:
	ldrb	w8, [x19, #17]
	cbnz	w8, .LBB37d7e3d0_337
	ldrb	w8, [x19, #16]
	mov	w9, #1
	ldr	w10, [x19, #20]
	lsl	x8, x9, x8
	cmp	x8, x10
	b.eq	.LBB37d7e3d0_296
.LBB37d7e3d0_337:
	ldrb	w22, [sp, #400]
	add	x8, x19, #96
	str	x27, [sp, #96]
	cmp	w22, #1
	b.le	.LBB37d7e3d0_362
	cmp	w22, #2
	str	x8, [sp, #88]
	b.eq	.LBB37d7e3d0_379
	cmp	w22, #3
	b.ne	.LBB37d7e3d0_381
	ldp	x0, x8, [x28, #184]
	add	x1, x8, x8, lsl #1
	b	.LBB37d7e3d0_398
.LBB37d7e3d0_341:
	ldrb	w8, [x19, #20]
	cmp	w8, #1
	b.ne	.LBB37d7e3d0_350
	ldrb	w8, [x19, #16]
	mov	w9, #1
	ldr	w10, [x19, #24]
	lsl	x8, x9, x8
	cmp	x8, x10
	b.eq	.LBB37d7e3d0_296
	b	.LBB37d7e3d0_352
.LBB37d7e3d0_343:
	cbnz	x25, .LBB37d7e3d0_357
	ldr	x8, [x28, #272]
	cbz	x8, .LBB37d7e3d0_299
	ldr	x8, [x28, #256]
	mov	x20, x0
	mov	x21, x1
	mov	x0, x8
	bl	rattle_dealloc
	mov	x1, x21
	mov	x0, x20
	b	.LBB37d7e3d0_299
.LBB37d7e3d0_346:
	ldrb	w22, [sp, #400]
	sub	x26, x29, #128
	add	x8, x19, #96
	cmp	w22, #1
	b.le	.LBB37d7e3d0_364
	cmp	w22, #2
	str	x8, [sp, #88]
	b.eq	.LBB37d7e3d0_383
	cmp	w22, #3
	b.ne	.LBB37d7e3d0_387
	add	x9, sp, #240
	ldp	x0, x8, [x9, #184]
	add	x1, x8, x8, lsl #1
	b	.LBB37d7e3d0_425
.LBB37d7e3d0_350:
	ldp	x8, x9, [x19, #32]
	mov	x20, x0
	mov	x21, x1
	mov	x0, x8
	mov	x1, x9
	bl	hll_kernels.kernels.all_zero
	mov	x1, x21
	add	x21, x19, #96
	tbz	w0, #0, .LBB37d7e3d0_352
	mov	x0, x20
	b	.LBB37d7e3d0_296
.LBB37d7e3d0_352:
	ldrb	w24, [sp, #400]
	add	x8, x19, #96
	stp	x8, x27, [sp, #88]
	cmp	w24, #1
	b.le	.LBB37d7e3d0_366
	cmp	w24, #2
	b.eq	.LBB37d7e3d0_385
	cmp	w24, #3
	b.ne	.LBB37d7e3d0_390
	add	x9, sp, #240
	ldp	x22, x8, [x9, #184]
	add	x23, x8, x8, lsl #1
	b	.LBB37d7e3d0_441
.LBB37d7e3d0_356:
	mov	x25, x27
.LBB37d7e3d0_357:
	movi	v0.2d, #0000000000000000
	sub	x8, x29, #128
	str	xzr, [x8, #48]
	stp	q0, q0, [x8, #16]
	str	q0, [x8]
	cbz	x22, .LBB37d7e3d0_472
	ldr	x23, [x28, #256]
	add	x8, sp, #736
	mov	x1, x22
	stp	q0, q0, [x8, #80]
	mov	x0, x23
	bl	std_alloc.vec.Vec.sort_unstable.d18826c7c15f4115
	subs	x13, x22, #1
	str	x27, [sp, #96]
	b.eq	.LBB37d7e3d0_369
	mov	x9, xzr
	mov	x12, xzr
	mov	x8, xzr
	add	x10, x23, #4
	mov	x11, x13
.LBB37d7e3d0_360:
	add	x14, x23, x8, lsl #2
	ldp	w14, w15, [x14]
	cmp	w15, w14
	b.eq	.LBB37d7e3d0_368
	add	x8, x8, #1
	sub	x12, x12, #4
	add	x10, x10, #4
	cmp	x13, x8
	sub	x11, x11, #1
	add	x9, x9, #4
	b.ne	.LBB37d7e3d0_360
	b	.LBB37d7e3d0_369
.LBB37d7e3d0_362:
	str	x8, [sp, #88]
	ldr	x8, [x28, #176]
	cbz	x8, .LBB37d7e3d0_399
	ldrb	w8, [sp, #392]
	ldurb	w9, [x19, #16]
	b	.LBB37d7e3d0_408
.LBB37d7e3d0_364:
	str	x8, [sp, #88]
	ldr	x8, [x28, #176]
	cbz	x8, .LBB37d7e3d0_426
	ldrb	w8, [sp, #392]
	ldurb	w9, [x19, #16]
	b	.LBB37d7e3d0_431
.LBB37d7e3d0_366:
	ldr	x8, [x28, #176]
	cbz	x8, .LBB37d7e3d0_442
.LBB37d7e3d0_367:
	ldrb	w8, [sp, #392]
	ldrb	w9, [x19, #16]
	b	.LBB37d7e3d0_499
.LBB37d7e3d0_368:
	cmp	x13, x8
	b.ne	.LBB37d7e3d0_393
.LBB37d7e3d0_369:
	clz	x8, x22
	cmp	x8, #4
	b.lo	.LBB37d7e3d0_820
.LBB37d7e3d0_370:
	neg	x9, x8
	mov	w10, #1
	mov	w11, #64
	lsl	x27, x10, x9
	sub	x21, x11, x8
	mov	w8, #4
	mov	w1, #4
	lsl	x0, x8, x21
	bl	rattle_alloc
	tbz	w0, #0, .LBB37d7e3d0_820
.LBB37d7e3d0_371:
	cmp	x22, x27
	stp	x1, xzr, [x26, #240]
	str	x27, [x26, #256]
	b.hi	.LBB37d7e3d0_459
	mov	x24, xzr
	mov	x20, x27
	lsl	x8, xzr, #2
	lsl	x2, x22, #2
	add	x0, x1, x8
	sub	x9, x0, x23
	cmp	x9, x2
	b.hs	.LBB37d7e3d0_461
.LBB37d7e3d0_373:
	cbz	x22, .LBB37d7e3d0_462
	cmp	x22, #8
	b.lo	.LBB37d7e3d0_376
	add	x9, x8, x1
	sub	x9, x9, x23
	cmp	x9, #32
	b.hs	.LBB37d7e3d0_452
.LBB37d7e3d0_376:
	mov	x9, xzr
	add	x28, sp, #240
	add	x26, sp, #496
.LBB37d7e3d0_377:
	lsl	x10, x9, #2
	add	x11, x1, x8
	sub	x8, x22, x9
	add	x9, x23, x10
	add	x10, x11, x10
.LBB37d7e3d0_378:
	ldr	w11, [x9], #4
	subs	x8, x8, #1
	str	w11, [x10], #4
	b.ne	.LBB37d7e3d0_378
	b	.LBB37d7e3d0_462
.LBB37d7e3d0_379:
	ldrb	w8, [sp, #409]
	cbnz	w8, .LBB37d7e3d0_400
	ldrb	w8, [sp, #408]
	mov	w9, #1
	ldr	w10, [sp, #412]
	lsl	x8, x9, x8
	cmp	x8, x10
	b.eq	.LBB37d7e3d0_399
	b	.LBB37d7e3d0_400
.LBB37d7e3d0_381:
	ldrb	w8, [sp, #412]
	cmp	w8, #1
	b.ne	.LBB37d7e3d0_397
	ldrb	w8, [sp, #408]
	mov	w9, #1
	ldr	w10, [sp, #416]
	add	x28, sp, #240
	lsl	x8, x9, x8
	cmp	x8, x10
	b.eq	.LBB37d7e3d0_399
	b	.LBB37d7e3d0_400
.LBB37d7e3d0_383:
	ldrb	w8, [sp, #409]
	cbnz	w8, .LBB37d7e3d0_427
	ldrb	w8, [sp, #408]
	ldr	w10, [sp, #412]
	b	.LBB37d7e3d0_389
.LBB37d7e3d0_385:
	ldrb	w8, [sp, #409]
	cbnz	w8, .LBB37d7e3d0_493
	ldrb	w8, [sp, #408]
	ldr	w10, [sp, #412]
	b	.LBB37d7e3d0_392
.LBB37d7e3d0_387:
	ldrb	w8, [sp, #412]
	cmp	w8, #1
	b.ne	.LBB37d7e3d0_424
	ldrb	w8, [sp, #408]
	ldr	w10, [sp, #416]
.LBB37d7e3d0_389:
	mov	w9, #1
	lsl	x8, x9, x8
	cmp	x8, x10
	b.eq	.LBB37d7e3d0_426
	b	.LBB37d7e3d0_427
.LBB37d7e3d0_390:
	ldrb	w8, [sp, #412]
	cmp	w8, #1
	b.ne	.LBB37d7e3d0_440
	ldrb	w8, [sp, #408]
	ldr	w10, [sp, #416]
.LBB37d7e3d0_392:
	mov	w9, #1
	lsl	x8, x9, x8
	cmp	x8, x10
	b.eq	.LBB37d7e3d0_442
	b	.LBB37d7e3d0_493
.LBB37d7e3d0_393:
	add	x13, x8, #1
	cmp	x13, x22
	b.hs	.LBB37d7e3d0_455
	mov	w14, #1
.LBB37d7e3d0_395:
	ldp	w13, w12, [x10, #-4]
	and	x14, x14, #0x1
	add	x10, x10, #4
	add	x9, x9, #4
	str	w13, [x23, x8, lsl #2]
	add	x8, x8, x14
	cmp	w12, w13
	cset	w15, ne
	subs	x11, x11, #1
	mov	w14, w15
	b.ne	.LBB37d7e3d0_395
	cmp	w12, w13
	lsl	x10, x8, #2
	cset	w11, ne
	b	.LBB37d7e3d0_456
.LBB37d7e3d0_397:
	add	x28, sp, #240
	ldp	x0, x1, [x28, #184]
.LBB37d7e3d0_398:
	bl	hll_kernels.kernels.all_zero
	tbz	w0, #0, .LBB37d7e3d0_400
.LBB37d7e3d0_399:
	ldurb	w1, [x19, #16]
	ldrb	w8, [sp, #384]
	cmp	w1, w8
	b.ls	.LBB37d7e3d0_417
.LBB37d7e3d0_400:
	ldrb	w8, [sp, #392]
	ldurb	w9, [x19, #16]
	cmp	w22, #2
	b.lo	.LBB37d7e3d0_408
	cmp	w8, w9
	b.hi	.LBB37d7e3d0_408
	cmp	w22, #4
	b.ne	.LBB37d7e3d0_648
	ldrb	w2, [sp, #408]
	str	wzr, [sp, #416]
	str	wzr, [sp, #412]
	ldp	x22, x23, [x28, #184]
	ldurb	w8, [x19, #16]
	cmp	w2, #13
	b.hi	.LBB37d7e3d0_414
	cmp	w8, #15
	b.lo	.LBB37d7e3d0_414
	ldrb	w9, [x19, #48]
	cmp	w9, #1
	b.ne	.LBB37d7e3d0_414
	ldr	x9, [x19, #56]
	mov	w10, #4
	ldr	x9, [x9, #8]
	lsl	x9, x10, x9
	cmp	x9, #2, lsl #12
	b.ls	.LBB37d7e3d0_414
	add	x3, x19, #16
	mov	x0, x22
	mov	x1, x23
	bl	hll_registers.folds.max_by_stages.8fbc67663473d8ac
	b	.LBB37d7e3d0_416
.LBB37d7e3d0_408:
	movi	v0.2d, #0000000000000000
	cmp	w9, w8
	add	x10, sp, #736
	csel	w25, w9, w8, lo
	add	x8, sp, #384
	sub	x0, x29, #208
	add	x1, x8, #16
	mov	w2, w25
	stp	q0, q0, [x10, #160]
	stp	q0, q0, [x10, #192]
	str	q0, [x10, #224]
	bl	hll_sketch.folding.fold_of.8a2f8b2564a2651f
	ldurb	w22, [x29, #-208]
	cbnz	w22, .LBB37d7e3d0_292
	ldur	w8, [x29, #-188]
	ldurb	w9, [x29, #-200]
	str	w8, [sp, #20]
	add	x8, sp, #736
	mov	w21, w9
	ldp	x23, x24, [x8, #184]
	ldr	x8, [x8, #200]
	cmp	w9, #13
	str	x8, [sp, #8]
	ldurb	w8, [x19, #16]
	b.hi	.LBB37d7e3d0_420
	cmp	w8, #15
	b.lo	.LBB37d7e3d0_420
	ldrb	w9, [x19, #48]
	cmp	w9, #1
	b.ne	.LBB37d7e3d0_420
	ldr	x9, [x19, #56]
	mov	w10, #4
	ldr	x9, [x9, #8]
	lsl	x9, x10, x9
	cmp	x9, #2, lsl #12
	b.ls	.LBB37d7e3d0_420
	add	x3, x19, #16
	mov	x0, x23
	mov	x1, x24
	mov	w2, w21
	bl	hll_registers.folds.max_by_stages.8fbc67663473d8ac
	b	.LBB37d7e3d0_422
.LBB37d7e3d0_414:
	sub	w8, w8, w2
	mov	w24, wzr
	mov	w20, #1
	and	x25, x8, #0xff
.LBB37d7e3d0_415:
	ldr	x3, [x19, #24]
	ldrb	w5, [x19, #17]
	add	x4, x19, #48
	mov	x0, x22
	mov	x1, x23
	mov	w2, w24
	bl	hll_registers.exception_map.max_with_registers.309f015d8caa795c
	lsr	x8, x20, x25
	add	x20, x20, #1
	add	w24, w24, w23
	cbz	x8, .LBB37d7e3d0_415
.LBB37d7e3d0_416:
	add	x9, sp, #384
	mov	w8, #1
	mov	w24, wzr
	mov	w22, wzr
	stp	xzr, xzr, [x9, #64]
	stur	xzr, [x9, #80]
	strb	w8, [sp, #472]
	stur	wzr, [x9, #89]
	stur	wzr, [x9, #92]
	b	.LBB37d7e3d0_419
.LBB37d7e3d0_417:
	movi	v0.2d, #0000000000000000
	sub	x8, x29, #128
	sub	x0, x29, #128
	add	x2, x19, #16
	sub	x20, x29, #128
	stp	q0, q0, [x8, #16]
	stp	q0, q0, [x8, #48]
	str	q0, [x8]
	bl	hll_sketch.register_folds.fold_of_registers.64a1999876867b1f
	ldurb	w8, [x29, #-128]
	cbz	w8, .LBB37d7e3d0_423
	ldurb	w24, [x29, #-127]
	mov	w22, #1
.LBB37d7e3d0_419:
	ldp	x27, x0, [sp, #96]
	add	x28, sp, #240
	ldr	x1, [sp, #80]
	add	x26, sp, #496
	b	.LBB37d7e3d0_294
.LBB37d7e3d0_420:
	sub	w8, w8, w21
	mov	w27, wzr
	mov	w20, #1
	and	x26, x8, #0xff
.LBB37d7e3d0_421:
	ldr	x3, [x19, #24]
	ldrb	w5, [x19, #17]
	add	x4, x19, #48
	mov	x0, x23
	mov	x1, x24
	mov	w2, w27
	bl	hll_registers.exception_map.max_with_registers.309f015d8caa795c
	lsr	x8, x20, x26
	add	x20, x20, #1
	add	w27, w27, w24
	cbz	x8, .LBB37d7e3d0_421
.LBB37d7e3d0_422:
	add	x11, sp, #384
	sub	x8, x29, #128
	add	x28, sp, #240
	ldur	q0, [x11, #40]
	ldur	q1, [x11, #56]
	sub	x10, x29, #208
	ldrb	w9, [sp, #400]
	strb	w25, [sp, #392]
	stur	q0, [x8, #24]
	ldur	q0, [x11, #72]
	stur	q1, [x8, #40]
	ldur	q1, [x11, #88]
	stur	q0, [x8, #56]
	ldur	q0, [x11, #24]
	stur	q1, [x8, #72]
	stur	q0, [x8, #8]
	mov	w8, #4
	str	x8, [x28, #160]
	ldurb	w8, [x10, #11]
	ldurh	w10, [x10, #9]
	strb	w21, [sp, #408]
	sturb	w8, [x11, #27]
	ldr	w8, [sp, #20]
	sturh	w10, [x11, #25]
	str	wzr, [sp, #412]
	str	wzr, [sp, #416]
	str	w8, [sp, #420]
	stp	x23, x24, [x28, #184]
	b	.LBB37d7e3d0_504
.LBB37d7e3d0_423:
	sub	x9, x29, #128
	add	x28, sp, #240
	add	x26, sp, #496
	ldur	q0, [x9, #9]
	ldur	q1, [x9, #25]
	ldur	x8, [x9, #40]
	add	x11, sp, #384
	ldrb	w10, [sp, #400]
	sub	x0, x29, #128
	stp	q0, q1, [x28, #256]
	ldur	q2, [x11, #40]
	stur	x8, [x26, #31]
	add	x8, sp, #496
	ldp	q0, q1, [x19, #64]
	str	x10, [x20]
	stur	q0, [x8, #39]
	ldur	q0, [x11, #56]
	stur	q1, [x8, #55]
	ldur	q1, [x11, #72]
	ldurb	w8, [x29, #-120]
	stur	q0, [x9, #40]
	ldur	q0, [x11, #88]
	stur	q1, [x9, #56]
	ldur	q1, [x11, #24]
	stur	q0, [x9, #72]
	stur	q1, [x9, #8]
	ldp	q0, q1, [x26]
	stur	q2, [x9, #24]
	ldur	x9, [x26, #63]
	strb	w8, [sp, #392]
	stur	q0, [x11, #25]
	ldp	q2, q0, [x26, #32]
	stur	x9, [x11, #88]
	mov	w9, #4
	str	x9, [x28, #160]
	stur	q0, [x11, #73]
	strb	w8, [sp, #408]
	stur	q2, [x11, #57]
	stur	q1, [x11, #41]
	str	xzr, [x28, #240]
	bl	hll_sketch.mode.Mode.drop.309f015d8caa795c
	ldp	x27, x0, [sp, #96]
	mov	w24, wzr
	ldr	x1, [sp, #80]
	mov	w22, wzr
	b	.LBB37d7e3d0_294
.LBB37d7e3d0_424:
	add	x8, sp, #240
	ldp	x0, x1, [x8, #184]
.LBB37d7e3d0_425:
	bl	hll_kernels.kernels.all_zero
	tbz	w0, #0, .LBB37d7e3d0_427
.LBB37d7e3d0_426:
	ldurb	w24, [x19, #16]
	ldrb	w8, [sp, #384]
	cmp	w24, w8
	b.ls	.LBB37d7e3d0_435
.LBB37d7e3d0_427:
	ldrb	w8, [sp, #392]
	ldurb	w9, [x19, #16]
	cmp	w22, #2
	b.lo	.LBB37d7e3d0_431
	cmp	w8, w9
	b.hi	.LBB37d7e3d0_431
	cmp	w22, #4
	b.ne	.LBB37d7e3d0_648
	add	x8, sp, #384
	add	x1, x19, #16
	add	x0, x8, #24
	bl	hll_arrays.merge.merge_from.dd8a39ea15bd038f
	mov	w24, wzr
	mov	w22, wzr
	b	.LBB37d7e3d0_434
.LBB37d7e3d0_431:
	movi	v0.2d, #0000000000000000
	cmp	w9, w8
	add	x10, sp, #736
	csel	w23, w9, w8, lo
	add	x8, sp, #384
	sub	x0, x29, #208
	add	x1, x8, #16
	mov	w2, w23
	stp	q0, q0, [x10, #160]
	stp	q0, q0, [x10, #192]
	str	q0, [x10, #224]
	bl	hll_sketch.folding.fold_of.8a2f8b2564a2651f
	ldurb	w22, [x29, #-208]
	cbz	w22, .LBB37d7e3d0_433
	ldurb	w24, [x29, #-207]
	b	.LBB37d7e3d0_434
.LBB37d7e3d0_433:
	sub	x9, x29, #208
	add	x21, sp, #736
	add	x0, sp, #816
	ldur	q0, [x9, #40]
	ldur	q1, [x9, #56]
	ldur	x8, [x9, #72]
	add	x1, x19, #16
	stp	q0, q1, [x21, #112]
	ldur	q0, [x9, #24]
	ldur	q1, [x9, #8]
	str	x8, [x21, #144]
	stp	q1, q0, [x21, #80]
	bl	hll_arrays.merge.merge_from.dd8a39ea15bd038f
	add	x11, sp, #384
	sub	x8, x29, #128
	add	x10, sp, #240
	ldur	q0, [x11, #40]
	ldur	q1, [x11, #56]
	ldrb	w9, [sp, #400]
	sub	x0, x29, #128
	strb	w23, [sp, #392]
	stur	q0, [x8, #24]
	ldur	q0, [x11, #72]
	stur	q1, [x8, #40]
	ldur	q1, [x11, #88]
	stur	q0, [x8, #56]
	ldur	q0, [x11, #24]
	stur	q1, [x8, #72]
	stur	q0, [x8, #8]
	ldp	q1, q0, [x21, #80]
	mov	w8, #4
	str	xzr, [x10, #240]
	str	x8, [x10, #160]
	ldr	x8, [x21, #144]
	stur	q1, [x11, #24]
	stur	q0, [x11, #40]
	ldp	q1, q0, [x21, #112]
	stur	x8, [x11, #88]
	str	x9, [x26]
	stur	q1, [x11, #56]
	stur	q0, [x11, #72]
	bl	hll_sketch.mode.Mode.drop.309f015d8caa795c
	mov	w24, wzr
.LBB37d7e3d0_434:
	ldr	x21, [sp, #88]
	add	x28, sp, #240
	add	x26, sp, #496
	mov	x0, x27
	mov	x1, x25
	mov	x27, x20
	b	.LBB37d7e3d0_295
.LBB37d7e3d0_435:
	cmp	w24, #63
	b.eq	.LBB37d7e3d0_439
	mov	w8, #1
	mov	w1, #1
	lsl	x22, x8, x24
	mov	x0, x22
	bl	rattle_alloc
	tbz	w0, #0, .LBB37d7e3d0_439
	mov	x23, x1
	cbz	w24, .LBB37d7e3d0_511
	sub	x2, x22, #1
	mov	x0, x23
	mov	w1, wzr
	sub	x21, x22, #1
	bl	memset
	b	.LBB37d7e3d0_512
.LBB37d7e3d0_439:
	ldr	x21, [sp, #88]
	mov	w22, #1
	mov	w24, #12
	mov	x0, x27
	mov	x1, x25
	add	x28, sp, #240
	add	x26, sp, #496
	mov	x27, x20
	b	.LBB37d7e3d0_295
.LBB37d7e3d0_440:
	add	x8, sp, #240
	ldp	x22, x23, [x8, #184]
.LBB37d7e3d0_441:
	mov	x0, x22
	mov	x1, x23
	bl	hll_kernels.kernels.all_zero
	tbz	w0, #0, .LBB37d7e3d0_491
.LBB37d7e3d0_442:
	ldrb	w8, [sp, #384]
	ldrb	w25, [x19, #16]
	cmp	w8, w25
	b.hs	.LBB37d7e3d0_448
	cmp	w24, #1
	b.le	.LBB37d7e3d0_458
	cmp	w24, #2
	b.eq	.LBB37d7e3d0_484
	cmp	w24, #4
	b.ne	.LBB37d7e3d0_487
	ldrb	w8, [sp, #412]
	cmp	w8, #1
	b.ne	.LBB37d7e3d0_490
	ldrb	w8, [sp, #408]
	ldr	w10, [sp, #416]
	b	.LBB37d7e3d0_486
.LBB37d7e3d0_448:
	ldp	x24, x22, [x19, #32]
	cbz	x22, .LBB37d7e3d0_475
	tbnz	x22, #63, .LBB37d7e3d0_483
	mov	x0, x22
	mov	w1, #1
	mov	w20, #1
	bl	rattle_alloc
	tbz	w0, #0, .LBB37d7e3d0_510
	mov	x23, x1
	b	.LBB37d7e3d0_476
.LBB37d7e3d0_452:
	add	x11, x1, x8
	and	x9, x22, #0xfffffffffffffff8
	add	x10, x23, #16
	add	x11, x11, #16
	and	x12, x22, #0xfffffffffffffff8
.LBB37d7e3d0_453:
	ldp	q0, q1, [x10, #-16]
	subs	x12, x12, #8
	add	x10, x10, #32
	stp	q0, q1, [x11, #-16]
	add	x11, x11, #32
	b.ne	.LBB37d7e3d0_453
	cmp	x22, x9
	add	x28, sp, #240
	add	x26, sp, #496
	b.ne	.LBB37d7e3d0_377
	b	.LBB37d7e3d0_462
.LBB37d7e3d0_455:
	neg	x10, x12
	mov	w11, #1
	mov	x9, x10
.LBB37d7e3d0_456:
	ldr	w9, [x23, x9]
	adds	x22, x8, x11
	str	w9, [x23, x10]
	b.eq	.LBB37d7e3d0_481
	clz	x8, x22
	add	x28, sp, #240
	add	x26, sp, #496
	cmp	x8, #4
	b.hs	.LBB37d7e3d0_370
	b	.LBB37d7e3d0_820
.LBB37d7e3d0_458:
	add	x8, sp, #240
	ldr	x8, [x8, #176]
	cbnz	x8, .LBB37d7e3d0_367
	b	.LBB37d7e3d0_492
.LBB37d7e3d0_459:
	add	x0, sp, #736
	mov	x1, x22
	bl	std_alloc.vec.Vec.grow_amortized.e9163d01fd20791a
	cbz	w0, .LBB37d7e3d0_818
	add	x26, sp, #496
	add	x28, sp, #240
	ldp	x24, x20, [x26, #248]
	ldr	x1, [x26, #240]
	lsl	x8, x24, #2
	lsl	x2, x22, #2
	add	x0, x1, x8
	sub	x9, x0, x23
	cmp	x9, x2
	b.lo	.LBB37d7e3d0_373
.LBB37d7e3d0_461:
	mov	x1, x23
	bl	memmove
.LBB37d7e3d0_462:
	add	x8, x24, x22
	subs	x24, x27, x8
	stp	x8, x20, [x26, #248]
	b.ls	.LBB37d7e3d0_467
	sub	x9, x20, x8
	mov	x27, x20
	cmp	x24, x9
	b.hi	.LBB37d7e3d0_488
	add	x20, x8, x24
	cmp	x8, x20
	b.hs	.LBB37d7e3d0_466
.LBB37d7e3d0_465:
	ldr	x9, [x26, #240]
	lsl	x2, x24, #2
	mov	w1, wzr
	add	x0, x9, x8, lsl #2
	bl	memset
.LBB37d7e3d0_466:
	stp	x20, x27, [x26, #248]
	add	x28, sp, #240
	b	.LBB37d7e3d0_469
.LBB37d7e3d0_467:
	b.hs	.LBB37d7e3d0_469
	str	x27, [x26, #248]
.LBB37d7e3d0_469:
	movi	v0.2d, #0000000000000000
	ldr	q1, [x26, #240]
	ldr	x8, [x26, #256]
	add	x9, sp, #736
	sub	x10, x29, #208
	sub	x20, x29, #128
	sub	x1, x29, #128
	stp	x21, x22, [x20]
	stp	q0, q0, [x9, #160]
	stur	q1, [x10, #4]
	stur	x8, [x10, #20]
	sub	x8, x29, #128
	ldp	q0, q1, [x9, #160]
	stur	q0, [x8, #20]
	stur	q1, [x8, #36]
	mov	w8, #1
	stur	w8, [x29, #-112]
	add	x8, sp, #384
	add	x0, x8, #8
	stp	q0, q1, [x9, #80]
	bl	hll_sketch.sketch.HllSketch.add_table.8a2f8b2564a2651f
	ldr	x8, [x20, #40]
	mov	w22, w0
	sub	x9, x29, #128
	mov	w24, w1
	cbz	x8, .LBB37d7e3d0_471
	ldr	x0, [x9, #24]
	bl	rattle_dealloc
.LBB37d7e3d0_471:
	ldp	x27, x0, [sp, #96]
	tst	w22, #0xff
	ldr	x1, [sp, #80]
	b.ne	.LBB37d7e3d0_677
.LBB37d7e3d0_472:
	ldr	x8, [x28, #272]
	cbz	x8, .LBB37d7e3d0_474
	ldr	x8, [x28, #256]
	mov	x20, x0
	mov	x21, x1
	mov	x0, x8
	bl	rattle_dealloc
	mov	x1, x21
	mov	x0, x20
.LBB37d7e3d0_474:
	mov	w8, #96
	sub	x27, x27, x25
	madd	x21, x25, x8, x19
	b	.LBB37d7e3d0_296
.LBB37d7e3d0_475:
	sub	x23, x29, #20
.LBB37d7e3d0_476:
	sub	x9, x23, x24
	cmp	x9, x22
	b.hs	.LBB37d7e3d0_482
	cmp	x22, #8
	mov	x8, xzr
	b.lo	.LBB37d7e3d0_520
	cmp	x9, #32
	b.lo	.LBB37d7e3d0_520
	cmp	x22, #32
	b.hs	.LBB37d7e3d0_513
	mov	x8, xzr
	b	.LBB37d7e3d0_517
.LBB37d7e3d0_481:
	mov	x21, xzr
	mov	w27, #1
	add	x28, sp, #240
	add	x26, sp, #496
	mov	w8, #4
	mov	w1, #4
	lsl	x0, x8, xzr
	bl	rattle_alloc
	tbnz	w0, #0, .LBB37d7e3d0_371
	b	.LBB37d7e3d0_820
.LBB37d7e3d0_482:
	mov	x0, x23
	mov	x1, x24
	mov	x2, x22
	bl	memmove
	b	.LBB37d7e3d0_522
.LBB37d7e3d0_483:
	mov	w22, #1
	b	.LBB37d7e3d0_506
.LBB37d7e3d0_484:
	ldrb	w8, [sp, #409]
	cbnz	w8, .LBB37d7e3d0_493
	ldrb	w8, [sp, #408]
	ldr	w10, [sp, #412]
.LBB37d7e3d0_486:
	mov	w9, #1
	lsl	x8, x9, x8
	cmp	x8, x10
	b.eq	.LBB37d7e3d0_492
	b	.LBB37d7e3d0_493
.LBB37d7e3d0_487:
	add	x9, sp, #240
	ldp	x22, x8, [x9, #184]
	add	x23, x8, x8, lsl #1
	b	.LBB37d7e3d0_491
.LBB37d7e3d0_488:
	add	x0, sp, #736
	mov	x1, x24
	bl	std_alloc.vec.Vec.grow_amortized.e9163d01fd20791a
	cbz	w0, .LBB37d7e3d0_818
	add	x26, sp, #496
	ldp	x8, x27, [x26, #248]
	add	x20, x8, x24
	cmp	x8, x20
	b.lo	.LBB37d7e3d0_465
	b	.LBB37d7e3d0_466
.LBB37d7e3d0_490:
	add	x8, sp, #240
	ldp	x22, x23, [x8, #184]
.LBB37d7e3d0_491:
	mov	x0, x22
	mov	x1, x23
	bl	hll_kernels.kernels.all_zero
	tbz	w0, #0, .LBB37d7e3d0_493
.LBB37d7e3d0_492:
	ldrb	w25, [x19, #16]
	ldrb	w8, [sp, #384]
	cmp	w25, w8
	b.ls	.LBB37d7e3d0_505
.LBB37d7e3d0_493:
	ldrb	w8, [sp, #392]
	ldrb	w9, [x19, #16]
	cmp	w24, #2
	b.lo	.LBB37d7e3d0_499
	cmp	w8, w9
	b.hi	.LBB37d7e3d0_499
	cmp	w24, #4
	b.ne	.LBB37d7e3d0_648
	str	wzr, [sp, #416]
	ldrb	w8, [sp, #408]
	add	x10, sp, #240
	str	wzr, [sp, #412]
	ldp	x22, x23, [x10, #184]
	ldrb	w9, [x19, #16]
	mov	x24, xzr
	mov	w25, #1
	sub	w8, w9, w8
	and	x20, x8, #0xff
.LBB37d7e3d0_497:
	ldr	x8, [x19, #32]
	mov	x0, x22
	mov	x1, x23
	mov	x3, x23
	add	x2, x8, w24, uxtw
	bl	hll_kernels.kernels.max_into
	lsr	x8, x25, x20
	add	x25, x25, #1
	add	x24, x24, x23
	cbz	x8, .LBB37d7e3d0_497
	add	x9, sp, #384
	mov	w8, #1
	mov	w24, wzr
	mov	w22, wzr
	stp	xzr, xzr, [x9, #64]
	add	x28, sp, #240
	stur	xzr, [x9, #80]
	strb	w8, [sp, #472]
	stur	wzr, [x9, #89]
	stur	wzr, [x9, #92]
	b	.LBB37d7e3d0_293
.LBB37d7e3d0_499:
	movi	v0.2d, #0000000000000000
	cmp	w9, w8
	add	x10, sp, #736
	csel	w23, w9, w8, lo
	add	x8, sp, #384
	sub	x0, x29, #208
	add	x1, x8, #16
	mov	w2, w23
	stp	q0, q0, [x10, #160]
	stp	q0, q0, [x10, #192]
	str	q0, [x10, #224]
	bl	hll_sketch.folding.fold_of.8a2f8b2564a2651f
	ldurb	w22, [x29, #-208]
	cbz	w22, .LBB37d7e3d0_501
	ldurb	w24, [x29, #-207]
	add	x28, sp, #240
	b	.LBB37d7e3d0_293
.LBB37d7e3d0_501:
	ldur	w9, [x29, #-188]
	ldurb	w10, [x29, #-200]
	mov	x27, xzr
	ldrb	w8, [x19, #16]
	mov	w26, #1
	str	w9, [sp, #20]
	add	x9, sp, #736
	mov	w21, w10
	ldp	x24, x25, [x9, #184]
	ldr	x9, [x9, #200]
	sub	w8, w8, w10
	and	x20, x8, #0xff
	str	x9, [sp, #8]
.LBB37d7e3d0_502:
	ldr	x8, [x19, #32]
	mov	x0, x24
	mov	x1, x25
	mov	x3, x25
	add	x2, x8, w27, uxtw
	bl	hll_kernels.kernels.max_into
	lsr	x8, x26, x20
	add	x26, x26, #1
	add	x27, x27, x25
	cbz	x8, .LBB37d7e3d0_502
	add	x11, sp, #384
	sub	x8, x29, #128
	add	x28, sp, #240
	ldur	q0, [x11, #40]
	ldur	q1, [x11, #56]
	sub	x10, x29, #208
	ldrb	w9, [sp, #400]
	strb	w23, [sp, #392]
	stur	q0, [x8, #24]
	ldur	q0, [x11, #72]
	stur	q1, [x8, #40]
	ldur	q1, [x11, #88]
	stur	q0, [x8, #56]
	ldur	q0, [x11, #24]
	stur	q1, [x8, #72]
	stur	q0, [x8, #8]
	mov	w8, #4
	str	x8, [x28, #160]
	ldurb	w8, [x10, #11]
	ldurh	w10, [x10, #9]
	strb	w21, [sp, #408]
	sturb	w8, [x11, #27]
	ldr	w8, [sp, #20]
	sturh	w10, [x11, #25]
	str	wzr, [sp, #412]
	str	wzr, [sp, #416]
	str	w8, [sp, #420]
	stp	x24, x25, [x28, #184]
.LBB37d7e3d0_504:
	ldr	x8, [sp, #8]
	sub	x0, x29, #128
	stp	xzr, xzr, [x11, #64]
	stur	xzr, [x11, #80]
	str	x8, [x28, #200]
	mov	w8, #1
	strb	w8, [sp, #472]
	sub	x8, x29, #128
	stur	xzr, [x11, #96]
	stur	xzr, [x11, #89]
	str	x9, [x8]
	bl	hll_sketch.mode.Mode.drop.309f015d8caa795c
	mov	w24, wzr
	b	.LBB37d7e3d0_293
.LBB37d7e3d0_505:
	cmp	w25, #63
	mov	w22, #1
	b.ne	.LBB37d7e3d0_507
.LBB37d7e3d0_506:
	mov	w24, #12
	add	x28, sp, #240
	b	.LBB37d7e3d0_293
.LBB37d7e3d0_507:
	lsl	x22, x22, x25
	mov	w1, #1
	mov	w20, #1
	mov	x0, x22
	bl	rattle_alloc
	tbz	w0, #0, .LBB37d7e3d0_510
	mov	x23, x1
	cbz	w25, .LBB37d7e3d0_524
	sub	x2, x22, #1
	mov	x0, x23
	mov	w1, wzr
	sub	x20, x22, #1
	bl	memset
	b	.LBB37d7e3d0_525
.LBB37d7e3d0_510:
	mov	w24, #12
	mov	w22, w20
	add	x28, sp, #240
	b	.LBB37d7e3d0_293
.LBB37d7e3d0_511:
	mov	x21, xzr
.LBB37d7e3d0_512:
	strb	wzr, [x23, x21]
	mov	w8, #1
	add	x9, x21, #1
	sturb	w24, [x29, #-128]
	ldr	x24, [sp, #24]
	sub	x21, x29, #128
	stp	w8, w22, [x29, #-124]
	sub	x0, x29, #128
	add	x1, x19, #16
	str	x22, [x21, #32]
	sub	x22, x29, #128
	strh	wzr, [x24]
	strb	wzr, [x24, #2]
	stur	wzr, [x29, #-116]
	stp	x23, x9, [x21, #16]
	stp	xzr, xzr, [x22, #48]
	stur	xzr, [x22, #40]
	sturb	w8, [x29, #-64]
	stur	wzr, [x22, #65]
	stur	wzr, [x22, #68]
	bl	hll_arrays.merge.merge_from.dd8a39ea15bd038f
	ldp	q0, q1, [x24]
	add	x26, sp, #496
	ldur	x8, [x24, #31]
	add	x10, sp, #736
	add	x11, sp, #384
	ldur	q2, [x11, #40]
	ldurb	w9, [x29, #-128]
	add	x28, sp, #240
	stp	q0, q1, [x26, #240]
	sub	x0, x29, #128
	stur	x8, [x10, #31]
	add	x8, sp, #736
	ldur	q0, [x19, #72]
	ldur	q1, [x19, #56]
	stur	q2, [x22, #24]
	strb	w9, [sp, #392]
	stur	q0, [x8, #55]
	ldur	q0, [x11, #56]
	stur	q1, [x8, #39]
	ldur	q1, [x11, #72]
	stur	q0, [x22, #40]
	ldur	q0, [x11, #88]
	ldur	x8, [x10, #63]
	stur	q1, [x22, #56]
	ldur	q1, [x11, #24]
	stur	q0, [x22, #72]
	stur	q1, [x22, #8]
	ldp	q0, q1, [x10]
	stur	x8, [x11, #88]
	mov	w8, #4
	strb	w9, [sp, #408]
	stur	q0, [x11, #25]
	ldp	q2, q0, [x10, #32]
	ldrb	w10, [sp, #400]
	str	x8, [x28, #160]
	stur	q1, [x11, #41]
	stur	q0, [x11, #73]
	stur	q2, [x11, #57]
	str	xzr, [x28, #240]
	str	x10, [x21]
	bl	hll_sketch.mode.Mode.drop.309f015d8caa795c
	ldr	x21, [sp, #88]
	mov	w24, wzr
	mov	w22, wzr
	mov	x0, x27
	mov	x1, x25
	mov	x27, x20
	b	.LBB37d7e3d0_295
.LBB37d7e3d0_513:
	and	x9, x22, #0x18
	and	x8, x22, #0xffffffffffffffe0
	add	x10, x24, #16
	add	x11, x23, #16
	and	x12, x22, #0xffffffffffffffe0
.LBB37d7e3d0_514:
	ldp	q0, q1, [x10, #-16]
	subs	x12, x12, #32
	add	x10, x10, #32
	stp	q0, q1, [x11, #-16]
	add	x11, x11, #32
	b.ne	.LBB37d7e3d0_514
	cmp	x22, x8
	b.eq	.LBB37d7e3d0_522
	cbz	x9, .LBB37d7e3d0_520
.LBB37d7e3d0_517:
	mov	x11, x8
	and	x8, x22, #0xfffffffffffffff8
	sub	x9, x11, x8
	add	x10, x24, x11
	add	x11, x23, x11
.LBB37d7e3d0_518:
	ldr	d0, [x10], #8
	adds	x9, x9, #8
	str	d0, [x11], #8
	b.ne	.LBB37d7e3d0_518
	cmp	x22, x8
	b.eq	.LBB37d7e3d0_522
.LBB37d7e3d0_520:
	sub	x9, x22, x8
	add	x10, x24, x8
	add	x8, x23, x8
.LBB37d7e3d0_521:
	ldrb	w11, [x10], #1
	subs	x9, x9, #1
	strb	w11, [x8], #1
	b.ne	.LBB37d7e3d0_521
.LBB37d7e3d0_522:
	ldur	q0, [x19, #72]
	ldur	q1, [x19, #56]
	add	x13, sp, #384
	add	x12, sp, #736
	ldrb	w8, [x19, #20]
	ldr	w9, [x19, #24]
	stp	q1, q0, [x12, #160]
	ldur	q0, [x13, #56]
	sub	x10, x29, #128
	ldur	q1, [x13, #72]
	ldur	q2, [x13, #40]
	add	x28, sp, #240
	stur	q0, [x10, #40]
	ldur	q0, [x13, #88]
	ldrb	w11, [sp, #400]
	stur	q1, [x10, #56]
	ldur	q1, [x13, #24]
	stur	q0, [x10, #72]
	stur	q1, [x10, #8]
	ldp	q1, q0, [x12, #160]
	stur	q2, [x10, #24]
	mov	w10, #4
	str	w8, [sp, #412]
	sub	x8, x29, #128
	strb	w25, [sp, #392]
	str	x10, [x28, #160]
	strb	w25, [sp, #408]
	sturb	wzr, [x13, #27]
	sturh	wzr, [x13, #25]
	str	w9, [sp, #416]
	str	wzr, [sp, #420]
	stp	x23, x22, [x28, #184]
	str	x22, [x28, #200]
	stp	q1, q0, [x13, #64]
	str	xzr, [x28, #240]
	str	x11, [x8]
.LBB37d7e3d0_523:
	sub	x0, x29, #128
	bl	hll_sketch.mode.Mode.drop.309f015d8caa795c
	mov	w24, wzr
	mov	w22, wzr
	b	.LBB37d7e3d0_293
.LBB37d7e3d0_524:
	mov	x20, xzr
.LBB37d7e3d0_525:
	strb	wzr, [x23, x20]
	mov	x26, xzr
	add	x24, x20, #1
	ldrb	w8, [x19, #16]
	mov	w27, #1
	sub	w8, w8, w25
	and	x20, x8, #0xff
.LBB37d7e3d0_526:
	ldr	x8, [x19, #32]
	mov	x0, x23
	mov	x1, x24
	mov	x3, x24
	add	x2, x8, w26, uxtw
	bl	hll_kernels.kernels.max_into
	lsr	x8, x27, x20
	add	x27, x27, #1
	add	x26, x26, x24
	cbz	x8, .LBB37d7e3d0_526
	ldr	x8, [x19, #72]
	ldur	q0, [x19, #56]
	add	x11, sp, #736
	ldrb	w9, [x19, #80]
	add	x12, sp, #384
	sub	x13, x29, #128
	str	x8, [x11, #176]
	add	x28, sp, #240
	ldur	q1, [x12, #40]
	str	q0, [x11, #160]
	ldur	q0, [x12, #56]
	ldur	w8, [x19, #81]
	ldr	w10, [x19, #84]
	stur	q1, [x13, #24]
	stur	q0, [x13, #40]
	ldur	q0, [x12, #88]
	ldur	q1, [x12, #72]
	stur	w10, [x11, #83]
	ldrb	w10, [sp, #400]
	str	w8, [sp, #816]
	mov	w8, #4
	str	x8, [x28, #160]
	ldr	x8, [x11, #176]
	stur	q0, [x13, #72]
	ldur	q0, [x12, #24]
	stur	x8, [x12, #80]
	ldur	w8, [x11, #83]
	stur	q0, [x13, #8]
	ldr	q0, [x11, #160]
	strb	w9, [sp, #472]
	ldr	w9, [sp, #816]
	stur	w8, [x12, #92]
	sub	x8, x29, #128
	stur	q1, [x13, #56]
	strb	w25, [sp, #392]
	strb	w25, [sp, #408]
	stur	xzr, [x12, #32]
	stur	xzr, [x12, #25]
	stp	x23, x24, [x28, #184]
	str	x22, [x28, #200]
	stur	q0, [x12, #64]
	stur	w9, [x12, #89]
	str	xzr, [x28, #240]
	str	x10, [x8]
	b	.LBB37d7e3d0_523
.LBB37d7e3d0_528:
	movi	v0.8b, #198
	ldr	d1, [x9]
	movi	v2.8b, #246
	adrp	x9, .LCPI37d7e3d0_0
	add	v0.8b, v1.8b, v0.8b
	cmhi	v0.8b, v2.8b, v0.8b
	ldr	d2, [x9, :lo12:.LCPI37d7e3d0_0]
	and	v0.8b, v0.8b, v2.8b
	movi	v2.8b, #48
	addv	b0, v0.8b
	uqsub	v1.8b, v1.8b, v2.8b
	fmov	w9, s0
	ushll	v0.8h, v1.8b, #0
	orr	w9, w9, #0x100
	rbit	w9, w9
	ushll2	v1.4s, v0.8h, #0
	ushll	v0.4s, v0.4h, #0
	clz	w12, w9
	adrp	x9, .Lstatic.2
	add	x9, x9, :lo12:.Lstatic.2
	sub	x9, x9, w12, uxtw #2
	ldr	q2, [x9, #48]
	mul	v1.4s, v2.4s, v1.4s
	ldr	q2, [x9, #32]
	mla	v1.4s, v2.4s, v0.4s
	addv	s0, v1.4s
	fmov	w11, s0
.LBB37d7e3d0_529:
	mov	w9, wzr
	cbz	x12, .LBB37d7e3d0_531
	cmp	x12, x13
	mov	x0, x19
	b.eq	.LBB37d7e3d0_545
	b	.LBB37d7e3d0_247
.LBB37d7e3d0_531:
	mov	x0, x19
	b	.LBB37d7e3d0_247
.LBB37d7e3d0_532:
	mov	w10, #2
	b	.LBB37d7e3d0_185
.LBB37d7e3d0_533:
	mov	w8, #2
	b	.LBB37d7e3d0_194
.LBB37d7e3d0_534:
	ldur	q0, [x21, #40]
	ldur	q1, [x21, #56]
	sub	x8, x29, #128
	ldur	q2, [x21, #72]
	sub	x0, x29, #128
	str	x19, [x8]
	stur	q0, [x8, #24]
	ldur	q0, [x21, #88]
	stur	q1, [x8, #40]
	ldur	q1, [x21, #24]
	stur	q2, [x8, #56]
	stur	q0, [x8, #72]
	stur	q1, [x8, #8]
	bl	hll_sketch.mode.Mode.drop.309f015d8caa795c
	mov	w10, wzr
	mov	w9, #5
	b	.LBB37d7e3d0_175
.LBB37d7e3d0_535:
	ldurb	w13, [x19, #-79]
	mov	x20, x0
	add	w14, w13, w14
	cmp	w2, w14, uxtb
	b.hi	.LBB37d7e3d0_651
	b	.LBB37d7e3d0_591
.LBB37d7e3d0_536:
	ldur	q0, [x28, #185]
	ldr	w8, [sp, #456]
	add	x9, sp, #384
	ldrb	w24, [sp, #400]
	ldp	x22, x23, [x28, #168]
	str	q0, [sp, #240]
	add	x10, sp, #240
	ldur	q0, [x28, #201]
	ldrb	w25, [sp, #392]
	cmp	w24, #2
	ldr	w19, [sp, #460]
	str	q0, [x28, #16]
	ldur	q0, [x9, #81]
	ldrb	w27, [sp, #424]
	stur	w8, [x28, #31]
	ldur	x8, [x9, #96]
	ldrb	w20, [sp, #464]
	str	q0, [sp, #208]
	stur	x8, [sp, #223]
	b.gt	.LBB37d7e3d0_579
	b.hs	.LBB37d7e3d0_625
	mov	w8, w20
	b	.LBB37d7e3d0_627
.LBB37d7e3d0_539:
	mov	w10, #2
	b	.LBB37d7e3d0_216
.LBB37d7e3d0_540:
	ldr	x8, [x28, #272]
	add	x9, sp, #240
	cbz	x8, .LBB37d7e3d0_824
	ldr	x0, [x9, #256]
	b	.LBB37d7e3d0_823
.LBB37d7e3d0_542:
	mov	w11, wzr
	mov	x12, xzr
.LBB37d7e3d0_543:
	ldrb	w14, [x9, x12]
	sub	w14, w14, #48
	cmp	w14, #9
	b.hi	.LBB37d7e3d0_529
	mov	w15, #10
	add	x12, x12, #1
	mul	w11, w11, w15
	cmp	x13, x12
	add	w11, w11, w14, uxtb
	b.ne	.LBB37d7e3d0_543
.LBB37d7e3d0_545:
	sub	w9, w10, #4
	cmp	w9, #17
	b.hi	.LBB37d7e3d0_550
	cmp	w11, #4
	b.eq	.LBB37d7e3d0_675
	cmp	w11, #8
	b.eq	.LBB37d7e3d0_674
	cmp	w11, #6
	b.ne	.LBB37d7e3d0_550
	mov	w11, #3
	mov	w9, #256
	b	.LBB37d7e3d0_676
.LBB37d7e3d0_550:
	mov	w9, #1
	mov	x0, x19
	b	.LBB37d7e3d0_247
.LBB37d7e3d0_551:
	mov	w9, #2
	add	x28, sp, #240
	sub	x21, x29, #128
	add	x22, sp, #736
	b	.LBB37d7e3d0_233
.LBB37d7e3d0_552:
	ldrb	w8, [x23, #3]
	mov	x11, x25
	sub	w8, w8, #48
	cmp	w8, #9
	b.hi	.LBB37d7e3d0_596
	mov	w9, #10
	cmp	x11, #4
	mul	w9, w10, w9
	add	w10, w9, w8, uxtb
	b.eq	.LBB37d7e3d0_77
	ldrb	w8, [x23, #4]
	sub	w8, w8, #48
	cmp	w8, #9
	b.hi	.LBB37d7e3d0_688
	mov	w9, #10
	cmp	x11, #5
	mul	w9, w10, w9
	add	w10, w9, w8, uxtb
	b.eq	.LBB37d7e3d0_77
	ldrb	w8, [x23, #5]
	sub	w8, w8, #48
	cmp	w8, #9
	b.hi	.LBB37d7e3d0_764
	mov	w9, #10
	cmp	x11, #6
	mul	w9, w10, w9
	add	w10, w9, w8, uxtb
	b.eq	.LBB37d7e3d0_77
	ldrb	w8, [x23, #6]
	sub	w8, w8, #48
	cmp	w8, #9
	b.hi	.LBB37d7e3d0_826
	mov	w9, #10
	mul	w9, w10, w9
	add	w10, w9, w8, uxtb
	b	.LBB37d7e3d0_77
.LBB37d7e3d0_560:
	mov	w9, #131072
	b	.LBB37d7e3d0_562
.LBB37d7e3d0_561:
	mov	x9, xzr
.LBB37d7e3d0_562:
	lsl	w8, w8, #8
	mov	x15, xzr
	orr	x20, x9, x8
	and	w8, w20, #0xff
	lsr	x19, x20, #8
	cmp	w8, #1
	b.gt	.LBB37d7e3d0_162
	b	.LBB37d7e3d0_199
.LBB37d7e3d0_563:
	ldrb	w8, [x23, #20]
	str	x1, [sp, #80]
	str	x0, [sp, #104]
	cmp	w8, #1
	b.ne	.LBB37d7e3d0_598
	ldrb	w8, [x23, #16]
	mov	w9, #1
	ldr	w10, [x23, #24]
	ldr	x0, [sp, #104]
	ldr	x1, [sp, #80]
	add	x28, sp, #240
	lsl	x8, x9, x8
	add	x26, sp, #496
	cmp	x8, x10
	b.eq	.LBB37d7e3d0_169
	b	.LBB37d7e3d0_599
.LBB37d7e3d0_565:
	ldur	x11, [x27, #-72]
	cmp	x11, #8
	b.hs	.LBB37d7e3d0_603
.LBB37d7e3d0_566:
	mov	w12, #3
.LBB37d7e3d0_567:
	ldurb	w11, [x27, #-80]
	mov	x0, x10
	add	x28, sp, #240
	sub	x21, x29, #128
	add	x22, sp, #736
	cmp	w12, w11
	b.eq	.LBB37d7e3d0_2
	b	.LBB37d7e3d0_607
.LBB37d7e3d0_568:
	add	x9, sp, #384
	ldrb	w8, [sp, #400]
	mov	x19, x0
	ldur	q0, [x9, #40]
	ldur	q1, [x9, #56]
	ldur	q2, [x9, #72]
	add	x0, sp, #288
	str	x8, [x28, #48]
	stur	q0, [x28, #72]
	ldur	q0, [x9, #88]
	stur	q1, [x28, #88]
	ldur	q1, [x9, #24]
	stur	q2, [x28, #104]
	stur	q0, [x28, #120]
	stur	q1, [x28, #56]
	bl	hll_sketch.mode.Mode.drop.309f015d8caa795c
	mov	x0, x19
	b	.LBB37d7e3d0_825
.LBB37d7e3d0_569:
	mov	x21, x0
	mov	x0, x1
	mov	x22, x1
	bl	std_alloc.vec.Vec.grow_amortized.f10ba080d3fae16a
	cbz	w0, .LBB37d7e3d0_622
	ldr	x8, [x22, #8]
	mov	x1, x22
	mov	x0, x21
	b	.LBB37d7e3d0_250
.LBB37d7e3d0_571:
	mov	w9, #10
	mul	w8, w8, w9
	ldrb	w9, [x23, #3]
	sub	w9, w9, #48
	add	w8, w8, w10, uxtb
	cmp	w9, #9
	b.hi	.LBB37d7e3d0_623
	ldr	x10, [sp, #112]
	cmp	x10, #4
	b.eq	.LBB37d7e3d0_135
	mov	w10, #10
	mul	w8, w8, w10
	ldrb	w10, [x23, #4]
	sub	w10, w10, #48
	add	w8, w8, w9, uxtb
	cmp	w10, #9
	b.hi	.LBB37d7e3d0_706
	ldr	x9, [sp, #112]
	cmp	x9, #5
	b.eq	.LBB37d7e3d0_135
	mov	w9, #10
	mul	w8, w8, w9
	ldrb	w9, [x23, #5]
	sub	w9, w9, #48
	add	w8, w8, w10, uxtb
	cmp	w9, #9
	b.hi	.LBB37d7e3d0_765
	ldr	x10, [sp, #112]
	cmp	x10, #6
	b.eq	.LBB37d7e3d0_135
	ldrb	w10, [x23, #6]
	sub	w10, w10, #48
	cmp	w10, #10
	b.lo	.LBB37d7e3d0_135
	mov	w10, #10
	mul	w8, w8, w10
	mov	w10, #6
	add	w8, w8, w9, uxtb
	b	.LBB37d7e3d0_624
.LBB37d7e3d0_579:
	cmp	w24, #4
	b.ne	.LBB37d7e3d0_626
	mov	w8, #2
	b	.LBB37d7e3d0_627
.LBB37d7e3d0_581:
	add	x18, x15, #28
	mov	w17, #8
.LBB37d7e3d0_582:
	ldr	x13, [x15, #8]
	mov	x14, #-1
	lsr	w0, w1, w13
	lsl	x14, x14, x13
	orr	w13, w0, #0x1
	mvn	x14, x14
	mov	x0, x1
.LBB37d7e3d0_583:
	and	x0, x0, x14
	ldr	w3, [x18, x0, lsl #2]
	cbz	w3, .LBB37d7e3d0_586
	and	w4, w3, #0x3ffffff
	cmp	w4, w1
	b.eq	.LBB37d7e3d0_586
	subs	x17, x17, #1
	add	x0, x0, x13
	b.ne	.LBB37d7e3d0_583
	b	.LBB37d7e3d0_648
.LBB37d7e3d0_586:
	cbz	w3, .LBB37d7e3d0_648
	cmp	w2, w3, lsr #26
	b.ls	.LBB37d7e3d0_591
	cbz	w16, .LBB37d7e3d0_643
	ldr	x16, [x15, #40]
	cbz	x16, .LBB37d7e3d0_648
	ldr	x15, [x15, #32]
	b	.LBB37d7e3d0_644
.LBB37d7e3d0_591:
	mov	w11, wzr
	mov	w9, wzr
	mov	w10, wzr
	mov	x0, x20
	b	.LBB37d7e3d0_3
.LBB37d7e3d0_592:
	mov	x0, x8
	bl	std_alloc.vec.Vec.grow_amortized.f10ba080d3fae16a
	cbz	w0, .LBB37d7e3d0_663
	ldr	x12, [x22, #8]
	mov	x8, x22
	mov	x0, x19
	b	.LBB37d7e3d0_252
.LBB37d7e3d0_594:
	mov	w10, #3
.LBB37d7e3d0_595:
	mov	x0, x19
	mov	x1, x20
	add	x28, sp, #240
	sub	x21, x29, #128
	add	x22, sp, #736
	mov	x25, x11
	b	.LBB37d7e3d0_185
.LBB37d7e3d0_596:
	mov	w8, #3
.LBB37d7e3d0_597:
	mov	x0, x20
	mov	x1, x19
	add	x28, sp, #240
	sub	x21, x29, #128
	add	x22, sp, #736
	mov	x25, x11
	b	.LBB37d7e3d0_194
.LBB37d7e3d0_598:
	ldp	x0, x1, [x23, #32]
	bl	hll_kernels.kernels.all_zero
	mov	w8, w0
	ldr	x0, [sp, #104]
	ldr	x1, [sp, #80]
	add	x28, sp, #240
	add	x26, sp, #496
	tbnz	w8, #0, .LBB37d7e3d0_169
.LBB37d7e3d0_599:
	ldr	x8, [sp, #72]
	ldr	x9, [sp, #112]
	mvn	x8, x8
	add	x24, x9, x8
	add	x8, x23, #96
	mov	x9, x24
	cbz	x24, .LBB37d7e3d0_678
.LBB37d7e3d0_600:
	ldrb	w10, [x8], #96
	cmp	w10, w20
	b.lo	.LBB37d7e3d0_169
	subs	x9, x9, #1
	b.ne	.LBB37d7e3d0_600
	mov	x21, xzr
	b	.LBB37d7e3d0_710
.LBB37d7e3d0_603:
	add	w12, w8, #1
	mov	x0, x10
	add	x28, sp, #240
	and	w12, w12, #0xff
	sub	x21, x29, #128
	add	x22, sp, #736
	subs	w12, w12, #3
	csel	w12, wzr, w12, lo
	cmp	w12, #6
	b.lo	.LBB37d7e3d0_607
	and	x13, x12, #0xff
	mov	w12, #5
.LBB37d7e3d0_605:
	mov	w14, #3
	lsl	x14, x14, x12
	cmp	x11, x14, lsr #2
	b.ls	.LBB37d7e3d0_567
	add	x12, x12, #1
	cmp	x13, x12
	b.ne	.LBB37d7e3d0_605
.LBB37d7e3d0_607:
	movi	v0.2d, #0000000000000000
	ubfx	w10, w20, #8, #8
	cmp	w10, #4
	stp	q0, q0, [x22, #176]
	stp	q0, q0, [x22, #208]
	str	q0, [x22, #160]
	b.hs	.LBB37d7e3d0_609
	mov	w10, #11
	b	.LBB37d7e3d0_814
.LBB37d7e3d0_609:
	stp	q0, q0, [x21]
	mov	x20, x27
	stp	q0, q0, [x21, #32]
	stp	q0, q0, [x21, #64]
	ldrb	w25, [x20, #-88]!
	str	x0, [sp, #104]
	sub	w10, w25, #2
	cmp	w10, #3
	b.hs	.LBB37d7e3d0_619
	cmp	w9, w8, uxtb
	add	x21, sp, #240
	stp	q0, q0, [x28, #48]
	stp	q0, q0, [x28, #80]
	stp	q0, q0, [x28, #144]
	stp	q0, q0, [x28, #176]
	stp	q0, q0, [x28, #208]
	str	q0, [x28, #112]
	b.ne	.LBB37d7e3d0_620
	ldurb	w26, [x27, #-80]
	add	x8, sp, #496
	cmp	w25, #4
	stp	xzr, xzr, [x8]
	stur	xzr, [x8, #15]
	stp	xzr, xzr, [sp, #240]
	stur	xzr, [x21, #15]
	stp	xzr, xzr, [sp, #160]
	stur	xzr, [sp, #175]
	b.eq	.LBB37d7e3d0_664
	cmp	w25, #3
	b.ne	.LBB37d7e3d0_668
	ldp	x24, x22, [x27, #-64]
	cbz	x22, .LBB37d7e3d0_691
	mov	x8, #-6148914691236517206
	movk	x8, #10922, lsl #48
	cmp	x22, x8
	b.hi	.LBB37d7e3d0_810
	add	x23, x22, x22, lsl #1
	mov	w1, #1
	mov	x0, x23
	bl	rattle_alloc
	tbz	w0, #0, .LBB37d7e3d0_810
	sub	x8, x1, x24
	mov	x20, x1
	cmp	x8, x23
	b.hs	.LBB37d7e3d0_692
	mov	x8, x20
	mov	x9, x22
.LBB37d7e3d0_618:
	ldrb	w10, [x24, #2]
	ldrh	w11, [x24], #3
	subs	x9, x9, #1
	strb	w10, [x8, #2]
	strh	w11, [x8], #3
	b.ne	.LBB37d7e3d0_618
	b	.LBB37d7e3d0_693
.LBB37d7e3d0_619:
	ldurb	w2, [x27, #-24]
	sub	x0, x29, #128
	sub	x3, x27, #80
	mov	w1, w19
	cmp	w25, #1
	bl	hll_sketch.folding.mode_of_coupons.8a2f8b2564a2651f
	sub	x10, x29, #128
	b	.LBB37d7e3d0_812
.LBB37d7e3d0_620:
	add	x0, sp, #288
	mov	x1, x20
	mov	w2, w19
	add	x22, sp, #288
	bl	hll_sketch.folding.fold_of.8a2f8b2564a2651f
	ldrb	w8, [sp, #288]
	cbz	w8, .LBB37d7e3d0_660
	movi	v0.2d, #0000000000000000
	ldrb	w8, [sp, #289]
	mov	w9, #1
	sub	x10, x29, #128
	sturb	w9, [x29, #-128]
	sturb	w8, [x29, #-127]
	str	xzr, [x10, #88]
	stur	q0, [x10, #8]
	stur	q0, [x10, #24]
	stur	q0, [x10, #40]
	stur	q0, [x10, #56]
	stur	q0, [x10, #72]
	b	.LBB37d7e3d0_812
.LBB37d7e3d0_622:
	lsr	x8, x20, #16
	movi	v0.2d, #0000000000000000
	add	x9, sp, #240
	add	x0, sp, #384
	stur	xzr, [x9, #217]
	strb	w8, [sp, #448]
	adrp	x8, .LCPI37d7e3d0_2
	ldr	q1, [x8, :lo12:.LCPI37d7e3d0_2]
	stur	xzr, [x9, #209]
	stp	q0, q0, [x9, #176]
	str	xzr, [x9, #224]
	stp	q1, q0, [x9, #144]
	bl	hll_sketch.mode.Mode.drop.309f015d8caa795c
	mov	w10, wzr
	mov	w9, #5
	mov	w11, #1
	mov	x0, x21
	b	.LBB37d7e3d0_3
.LBB37d7e3d0_623:
	mov	w10, #3
.LBB37d7e3d0_624:
	ldr	x21, [sp, #112]
	mov	x0, x19
	b	.LBB37d7e3d0_216
.LBB37d7e3d0_625:
	mov	w8, wzr
	b	.LBB37d7e3d0_627
.LBB37d7e3d0_626:
	mov	w8, #1
.LBB37d7e3d0_627:
	ldr	x9, [sp, #56]
	lsr	w9, w9, #8
	cmp	w8, w9, uxtb
	b.ne	.LBB37d7e3d0_629
	add	x8, sp, #240
	ldr	q0, [sp, #240]
	add	x10, sp, #496
	ldr	q1, [x8, #16]
	ldur	w8, [x8, #31]
	stp	q0, q1, [x10]
	ldr	q0, [sp, #208]
	stur	w8, [x10, #31]
	ldur	x8, [sp, #223]
	b	.LBB37d7e3d0_753
.LBB37d7e3d0_629:
	movi	v0.2d, #0000000000000000
	sub	x8, x29, #128
	cmp	w24, #1
	stp	q0, q0, [x8]
	stp	q0, q0, [x8, #32]
	stp	q0, q0, [x8, #64]
	b.le	.LBB37d7e3d0_636
	cmp	w24, #2
	b.eq	.LBB37d7e3d0_638
	cmp	w24, #3
	b.ne	.LBB37d7e3d0_640
	ldr	q0, [sp, #240]
	add	x11, sp, #736
	add	x10, sp, #240
	ldur	w8, [x10, #31]
	stp	x22, x23, [x11, #80]
	ldur	x9, [sp, #215]
	stur	q0, [x11, #97]
	ldr	q0, [x10, #16]
	and	w23, w22, #0xff
	add	x26, sp, #736
	cmp	w23, #63
	strb	w27, [sp, #832]
	stur	q0, [x11, #113]
	movi	v0.2d, #0000000000000000
	str	w8, [sp, #864]
	ldr	x8, [sp, #208]
	str	w19, [sp, #868]
	strb	w20, [sp, #872]
	stur	x8, [x11, #137]
	str	x9, [x11, #144]
	stp	q0, q0, [x10, #144]
	stp	q0, q0, [x10, #176]
	stp	q0, q0, [x10, #208]
	b.eq	.LBB37d7e3d0_659
	mov	w8, #1
	mov	w1, #1
	lsl	x20, x8, x22
	mov	x0, x20
	bl	rattle_alloc
	tbz	w0, #0, .LBB37d7e3d0_659
	mov	x19, x1
	cbz	w23, .LBB37d7e3d0_744
	sub	x2, x20, #1
	mov	x0, x19
	mov	w1, wzr
	sub	x22, x20, #1
	bl	memset
	b	.LBB37d7e3d0_745
.LBB37d7e3d0_636:
	mov	w28, wzr
	mov	w11, wzr
	cbnz	w24, .LBB37d7e3d0_641
	ldur	q0, [sp, #243]
	ldur	q1, [x10, #19]
	b	.LBB37d7e3d0_642
.LBB37d7e3d0_638:
	ldr	q0, [sp, #240]
	add	x9, sp, #240
	add	x0, sp, #640
	ldur	w8, [x9, #31]
	add	x2, sp, #288
	mov	w1, w22
	stur	q0, [x9, #65]
	ldr	q0, [x9, #16]
	stp	x22, x23, [x9, #48]
	stur	q0, [x9, #81]
	ldr	q0, [sp, #208]
	str	w8, [sp, #336]
	ldur	x8, [sp, #223]
	stur	q0, [x9, #105]
	movi	v0.2d, #0000000000000000
	str	x8, [x9, #120]
	add	x8, sp, #496
	strb	w27, [sp, #304]
	str	w19, [sp, #340]
	strb	w20, [sp, #344]
	stp	q0, q0, [x9, #144]
	stp	q0, q0, [x9, #176]
	stp	q0, q0, [x9, #208]
	stp	q0, q0, [x8, #160]
	stp	q0, q0, [x8, #192]
	str	q0, [x8, #144]
	bl	hll_sketch.register_folds.fold_of_registers.64a1999876867b1f
	ldrb	w8, [sp, #640]
	cbz	w8, .LBB37d7e3d0_679
	movi	v0.2d, #0000000000000000
	ldrb	w28, [sp, #641]
	mov	w24, wzr
	sub	x8, x29, #128
	mov	w26, #1
	stp	q0, q0, [x8, #16]
	stp	q0, q0, [x8, #48]
	str	q0, [x8, #80]
	b	.LBB37d7e3d0_680
.LBB37d7e3d0_640:
	add	x10, sp, #240
	ldr	q0, [sp, #240]
	ldur	x9, [sp, #215]
	ldr	q1, [x10, #16]
	ldur	w8, [x10, #31]
	sub	x0, x29, #128
	add	x1, sp, #384
	ldr	x2, [sp, #32]
	stp	x22, x23, [x10, #144]
	stur	q1, [x10, #177]
	str	w8, [sp, #432]
	ldr	x8, [sp, #208]
	strb	w27, [sp, #400]
	stur	q0, [x10, #161]
	str	w19, [sp, #436]
	strb	w20, [sp, #440]
	stur	x8, [x10, #201]
	str	x9, [x10, #208]
	bl	hll_sketch.mode.array_into_mode.8a2f8b2564a2651f
	ldurb	w11, [x29, #-128]
	ldurb	w28, [x29, #-127]
	ldurb	w24, [x29, #-120]
	b	.LBB37d7e3d0_749
.LBB37d7e3d0_641:
	ldur	q0, [sp, #243]
	ldur	q1, [x10, #19]
	mov	w24, #1
.LBB37d7e3d0_642:
	ldr	x9, [sp, #32]
	stp	x22, x23, [x8, #16]
	stur	w27, [x29, #-96]
	stur	q0, [x8, #36]
	stur	q1, [x8, #52]
	sturb	w9, [x29, #-56]
	stur	xzr, [x8, #81]
	stur	xzr, [x8, #73]
	str	xzr, [x8, #88]
	b	.LBB37d7e3d0_749
.LBB37d7e3d0_643:
	add	x15, x15, #28
	mov	w16, #8
.LBB37d7e3d0_644:
	mov	x17, x1
.LBB37d7e3d0_645:
	and	x17, x17, x14
	ldr	w18, [x15, x17, lsl #2]
	cbz	w18, .LBB37d7e3d0_649
	and	w0, w18, #0x3ffffff
	cmp	w0, w1
	b.eq	.LBB37d7e3d0_649
	subs	x16, x16, #1
	add	x17, x17, x13
	b.ne	.LBB37d7e3d0_645
.LBB37d7e3d0_648:
	brk	#0x1
.LBB37d7e3d0_649:
	cbz	w18, .LBB37d7e3d0_648
	lsr	w14, w18, #26
	ldurb	w13, [x19, #-79]
.LBB37d7e3d0_651:
	ldur	w15, [x19, #-76]
	cmp	w13, w14, uxtb
	b.ne	.LBB37d7e3d0_654
	cmp	w15, #1
	b.ne	.LBB37d7e3d0_654
	mov	x0, x8
	bl	hll_registers.nibble_registers.NibbleRegisters.rise.8a2f8b2564a2651f
	b	.LBB37d7e3d0_657
.LBB37d7e3d0_654:
	cmp	w13, w14, uxtb
	add	w14, w13, #15
	cset	w16, eq
	cmp	w2, w14, uxtb
	sub	w3, w15, w16
	b.hs	.LBB37d7e3d0_656
	sub	w8, w2, w13
	and	w11, w11, #0xf0
	tst	x1, #0x1
	orr	w12, w12, w8, lsl #4
	add	w8, w8, w11
	mov	x0, x20
	csel	w8, w8, w12, eq
	strb	w8, [x9, x10]
	stur	w3, [x19, #-76]
	b	.LBB37d7e3d0_658
.LBB37d7e3d0_656:
	mov	x0, x8
	bl	hll_registers.nibble_registers.NibbleRegisters.put_high.8a2f8b2564a2651f
.LBB37d7e3d0_657:
	tst	w0, #0xff
	mov	x0, x20
	b.ne	.LBB37d7e3d0_207
.LBB37d7e3d0_658:
	mov	w8, #1
	mov	w11, wzr
	mov	w9, wzr
	mov	w10, wzr
	stp	xzr, xzr, [x19, #-32]
	stur	xzr, [x19, #-16]
	sturb	w8, [x19, #-8]
	stur	wzr, [x19, #-7]
	stur	wzr, [x19, #-4]
	b	.LBB37d7e3d0_3
.LBB37d7e3d0_659:
	movi	v0.2d, #0000000000000000
	mov	w24, wzr
	sub	x8, x29, #128
	mov	w19, #1
	mov	w28, #12
	str	xzr, [x8, #88]
	stur	q0, [x8, #8]
	stur	q0, [x8, #24]
	stur	q0, [x8, #40]
	stur	q0, [x8, #56]
	stur	q0, [x8, #72]
	b	.LBB37d7e3d0_746
.LBB37d7e3d0_660:
	ldrb	w8, [x20]
	cmp	w8, #2
	b.gt	.LBB37d7e3d0_689
	b.hs	.LBB37d7e3d0_741
	ldurb	w2, [x27, #-24]
	b	.LBB37d7e3d0_743
.LBB37d7e3d0_663:
	ldur	q0, [x20, #40]
	ldur	q1, [x20, #56]
	sub	x8, x29, #128
	ldur	q2, [x20, #72]
	sub	x0, x29, #128
	str	x21, [x8]
	stur	q0, [x8, #24]
	ldur	q0, [x20, #88]
	stur	q1, [x8, #40]
	ldur	q1, [x20, #24]
	stur	q2, [x8, #56]
	stur	q0, [x8, #72]
	stur	q1, [x8, #8]
	bl	hll_sketch.mode.Mode.drop.309f015d8caa795c
	mov	w10, wzr
	mov	w9, #5
	b	.LBB37d7e3d0_214
.LBB37d7e3d0_664:
	ldp	x23, x22, [x27, #-64]
	cbz	x22, .LBB37d7e3d0_694
	tbnz	x22, #63, .LBB37d7e3d0_810
	mov	x0, x22
	mov	w1, #1
	bl	rattle_alloc
	tbz	w0, #0, .LBB37d7e3d0_810
	mov	x20, x1
	b	.LBB37d7e3d0_695
.LBB37d7e3d0_668:
	ldp	x22, x20, [x27, #-72]
	ldurb	w28, [x27, #-79]
	ldur	w8, [x27, #-76]
	str	x8, [sp, #112]
	cbz	x20, .LBB37d7e3d0_700
	tbnz	x20, #63, .LBB37d7e3d0_810
	mov	x0, x20
	mov	w1, #1
	bl	rattle_alloc
	tbz	w0, #0, .LBB37d7e3d0_810
	mov	x24, x1
	b	.LBB37d7e3d0_701
.LBB37d7e3d0_672:
	mov	w9, #3
.LBB37d7e3d0_673:
	add	x28, sp, #240
	sub	x21, x29, #128
	add	x22, sp, #736
	mov	x25, x11
	b	.LBB37d7e3d0_233
.LBB37d7e3d0_674:
	mov	w11, #3
	mov	w9, #512
	b	.LBB37d7e3d0_676
.LBB37d7e3d0_675:
	mov	x9, xzr
	mov	w11, #3
.LBB37d7e3d0_676:
	mov	x0, x19
	mov	x1, x20
	add	x28, sp, #240
	sub	x21, x29, #128
	add	x22, sp, #736
	b	.LBB37d7e3d0_198
.LBB37d7e3d0_677:
	add	x8, sp, #240
	b	.LBB37d7e3d0_821
.LBB37d7e3d0_678:
	ldr	x8, [sp, #112]
	b	.LBB37d7e3d0_734
.LBB37d7e3d0_679:
	add	x19, sp, #240
	add	x10, sp, #496
	add	x9, sp, #736
	ldp	q1, q0, [x19, #96]
	ldr	x8, [x10, #184]
	ldur	q2, [x10, #168]
	add	x0, sp, #384
	add	x1, sp, #640
	str	x8, [x9, #112]
	ldr	x2, [sp, #32]
	stur	q0, [x9, #136]
	ldur	q0, [x10, #152]
	stur	q1, [x9, #120]
	ldr	x8, [x9, #144]
	stur	q0, [x9, #166]
	ldp	q1, q0, [x9, #112]
	stur	q2, [x9, #182]
	ldur	q2, [x9, #166]
	stur	x8, [x9, #230]
	stur	q0, [x9, #214]
	stur	q1, [x9, #198]
	ldur	q0, [x9, #214]
	ldur	q1, [x9, #198]
	str	x8, [x10, #208]
	stp	q1, q0, [x10, #176]
	ldur	q0, [x9, #182]
	stp	q2, q0, [x10, #144]
	bl	hll_sketch.mode.array_into_mode.8a2f8b2564a2651f
	ldp	q0, q1, [x19, #192]
	sub	x8, x29, #128
	ldr	q2, [x19, #224]
	ldrb	w26, [sp, #384]
	ldrb	w28, [sp, #385]
	ldrb	w24, [sp, #392]
	stp	q0, q1, [x8, #48]
	ldp	q1, q0, [x19, #160]
	str	q2, [x8, #80]
	stp	q1, q0, [x8, #16]
.LBB37d7e3d0_680:
	add	x9, sp, #240
	ldrb	w20, [sp, #320]
	ldr	x8, [x9, #72]
	ldr	x19, [x9, #88]
	cbz	x8, .LBB37d7e3d0_682
	mov	x0, x23
	bl	rattle_dealloc
.LBB37d7e3d0_682:
	cbz	w20, .LBB37d7e3d0_686
	ldrb	w21, [x19, #24]
	ldr	x20, [x19, #32]
	mov	x0, x19
	ldr	x22, [x19, #48]
	bl	rattle_dealloc
	cbz	w21, .LBB37d7e3d0_686
	cbz	x22, .LBB37d7e3d0_686
	mov	x0, x20
	bl	rattle_dealloc
.LBB37d7e3d0_686:
	mov	w11, w26
	b	.LBB37d7e3d0_749
.LBB37d7e3d0_687:
	mov	w10, #4
	b	.LBB37d7e3d0_595
.LBB37d7e3d0_688:
	mov	w8, #4
	b	.LBB37d7e3d0_597
.LBB37d7e3d0_689:
	cmp	w8, #4
	b.ne	.LBB37d7e3d0_742
	mov	w2, #2
	b	.LBB37d7e3d0_743
.LBB37d7e3d0_691:
	mov	x23, xzr
	sub	x20, x29, #20
.LBB37d7e3d0_692:
	mov	x0, x20
	mov	x1, x24
	mov	x2, x23
	bl	memmove
.LBB37d7e3d0_693:
	ldur	x8, [x27, #-23]
	ldur	x9, [x27, #-16]
	ldurb	w10, [x27, #-76]
	ldur	w24, [x27, #-72]
	ldur	x1, [x27, #-40]
	ldur	d0, [x27, #-32]
	str	x8, [sp, #240]
	ldur	x8, [x21, #15]
	stur	x9, [sp, #247]
	ldr	q1, [sp, #240]
	b	.LBB37d7e3d0_776
.LBB37d7e3d0_694:
	sub	x20, x29, #20
.LBB37d7e3d0_695:
	sub	x9, x20, x23
	cmp	x9, x22
	b.hs	.LBB37d7e3d0_738
	cmp	x22, #8
	mov	x8, xzr
	b.lo	.LBB37d7e3d0_773
	cmp	x9, #32
	b.lo	.LBB37d7e3d0_773
	cmp	x22, #32
	b.hs	.LBB37d7e3d0_766
	mov	x8, xzr
	b	.LBB37d7e3d0_770
.LBB37d7e3d0_700:
	sub	x24, x29, #20
.LBB37d7e3d0_701:
	sub	x9, x24, x22
	cmp	x9, x20
	b.hs	.LBB37d7e3d0_739
	cmp	x20, #8
	mov	x8, xzr
	b.lo	.LBB37d7e3d0_784
	cmp	x9, #32
	b.lo	.LBB37d7e3d0_784
	cmp	x20, #32
	b.hs	.LBB37d7e3d0_777
	mov	x8, xzr
	b	.LBB37d7e3d0_781
.LBB37d7e3d0_706:
	mov	w10, #4
	b	.LBB37d7e3d0_624
.LBB37d7e3d0_707:
	add	x3, x25, #16
	mov	x0, x19
	mov	x1, x20
	bl	hll_registers.folds.max_by_stages.8fbc67663473d8ac
.LBB37d7e3d0_708:
	mov	w8, #1
	stp	xzr, xzr, [x23, #56]
	stur	xzr, [x23, #72]
	strb	w8, [x23, #80]
	stur	wzr, [x23, #81]
	stur	wzr, [x23, #84]
.LBB37d7e3d0_709:
	add	x21, x21, #1
	cmp	x21, x24
	b.eq	.LBB37d7e3d0_733
.LBB37d7e3d0_710:
	mov	w8, #96
	add	x9, x23, #96
	madd	x25, x21, x8, x9
	ldrb	w8, [x25, #8]
	cmp	w8, #1
	b.le	.LBB37d7e3d0_716
	cmp	w8, #2
	b.eq	.LBB37d7e3d0_718
	cmp	w8, #3
	b.ne	.LBB37d7e3d0_727
	ldp	x0, x8, [x25, #32]
	add	x1, x8, x8, lsl #1
	bl	hll_kernels.kernels.all_zero
	tbnz	w0, #0, .LBB37d7e3d0_709
	ldrb	w8, [x23, #8]
	cmp	w8, #4
	b.ne	.LBB37d7e3d0_648
	add	x0, x23, #16
	add	x1, x25, #16
	bl	hll_arrays.merge.merge_from.dd8a39ea15bd038f
	b	.LBB37d7e3d0_709
.LBB37d7e3d0_716:
	ldr	x8, [x25, #24]
	cbz	x8, .LBB37d7e3d0_709
	add	x1, x25, #16
	mov	x0, x23
	bl	hll_sketch.sketch.HllSketch.add_each.8a2f8b2564a2651f
	b	.LBB37d7e3d0_709
.LBB37d7e3d0_718:
	ldrb	w8, [x25, #17]
	cbnz	w8, .LBB37d7e3d0_720
	ldrb	w8, [x25, #16]
	mov	w9, #1
	ldr	w10, [x25, #20]
	lsl	x8, x9, x8
	cmp	x8, x10
	b.eq	.LBB37d7e3d0_709
.LBB37d7e3d0_720:
	ldrb	w8, [x23, #8]
	cmp	w8, #4
	b.ne	.LBB37d7e3d0_648
	ldrb	w2, [x23, #16]
	ldp	x19, x20, [x23, #32]
	ldurb	w8, [x25, #16]
	stp	wzr, wzr, [x23, #20]
	cmp	w2, #13
	b.hi	.LBB37d7e3d0_725
	cmp	w8, #15
	b.lo	.LBB37d7e3d0_725
	ldrb	w9, [x25, #48]
	cmp	w9, #1
	b.ne	.LBB37d7e3d0_725
	ldr	x9, [x25, #56]
	mov	w10, #4
	ldr	x9, [x9, #8]
	lsl	x9, x10, x9
	cmp	x9, #2, lsl #12
	b.hi	.LBB37d7e3d0_707
.LBB37d7e3d0_725:
	sub	w8, w8, w2
	mov	w22, wzr
	mov	w27, #1
	and	x26, x8, #0xff
.LBB37d7e3d0_726:
	ldr	x3, [x25, #24]
	ldrb	w5, [x25, #17]
	add	x4, x25, #48
	mov	x0, x19
	mov	x1, x20
	mov	w2, w22
	bl	hll_registers.exception_map.max_with_registers.309f015d8caa795c
	lsr	x8, x27, x26
	add	x27, x27, #1
	add	w22, w22, w20
	cbz	x8, .LBB37d7e3d0_726
	b	.LBB37d7e3d0_708
.LBB37d7e3d0_727:
	ldrb	w8, [x25, #20]
	cmp	w8, #1
	b.ne	.LBB37d7e3d0_729
	ldrb	w8, [x25, #16]
	mov	w9, #1
	ldr	w10, [x25, #24]
	lsl	x8, x9, x8
	cmp	x8, x10
	b.eq	.LBB37d7e3d0_709
	b	.LBB37d7e3d0_730
.LBB37d7e3d0_729:
	ldp	x0, x1, [x25, #32]
	bl	hll_kernels.kernels.all_zero
	tbnz	w0, #0, .LBB37d7e3d0_709
.LBB37d7e3d0_730:
	ldrb	w8, [x23, #8]
	cmp	w8, #4
	b.ne	.LBB37d7e3d0_648
	ldrb	w8, [x23, #16]
	ldrb	w9, [x25, #16]
	mov	x22, xzr
	ldp	x19, x20, [x23, #32]
	mov	w27, #1
	sub	w8, w9, w8
	stp	wzr, wzr, [x23, #20]
	and	x26, x8, #0xff
.LBB37d7e3d0_732:
	ldr	x8, [x25, #32]
	mov	x0, x19
	mov	x1, x20
	mov	x3, x20
	add	x2, x8, w22, uxtw
	bl	hll_kernels.kernels.max_into
	lsr	x8, x27, x26
	add	x27, x27, #1
	add	x22, x22, x20
	cbz	x8, .LBB37d7e3d0_732
	b	.LBB37d7e3d0_708
.LBB37d7e3d0_733:
	ldr	x8, [sp, #48]
	ldr	x8, [x8]
.LBB37d7e3d0_734:
	ldr	x9, [sp, #72]
	add	x19, x9, #1
	cmp	x8, x19
	b.ls	.LBB37d7e3d0_816
	ldr	x12, [sp, #112]
	mov	w9, #96
	ldr	x11, [sp, #40]
	add	x22, sp, #384
	add	x25, sp, #240
	mul	x10, x12, x9
	cmp	x12, x11
	csel	x11, x12, x11, lo
	add	x8, x8, x11
	msub	x9, x11, x9, x10
	ldr	x10, [sp, #80]
	ldr	x21, [x10]
	ldr	x20, [x10, #16]
	ldr	x10, [sp, #48]
	stp	xzr, xzr, [x10]
	mvn	x10, x12
	add	x9, x9, x21
	add	x23, x10, x8
	add	x24, x9, #112
.LBB37d7e3d0_736:
	ldr	q0, [x24, #16]
	ldurb	w8, [x24, #-8]
	add	x0, sp, #384
	stur	q0, [x22, #24]
	ldr	q0, [x24, #32]
	stur	q0, [x22, #40]
	ldr	q0, [x24, #48]
	stur	q0, [x22, #56]
	ldr	q0, [x24, #64]
	stur	q0, [x22, #72]
	ldr	q0, [x24], #96
	str	x8, [x25, #144]
	stur	q0, [x22, #8]
	bl	hll_sketch.mode.Mode.drop.309f015d8caa795c
	subs	x23, x23, #1
	b.ne	.LBB37d7e3d0_736
	ldr	x8, [sp, #80]
	ldr	x0, [sp, #104]
	mov	w11, wzr
	mov	w9, wzr
	mov	w10, wzr
	stp	x21, x19, [x8]
	str	x20, [x8, #16]
	b	.LBB37d7e3d0_3
.LBB37d7e3d0_738:
	mov	x0, x20
	mov	x1, x23
	mov	x2, x22
	bl	memmove
	b	.LBB37d7e3d0_775
.LBB37d7e3d0_739:
	mov	x0, x24
	mov	x1, x22
	mov	x2, x20
	bl	memmove
	b	.LBB37d7e3d0_786
.LBB37d7e3d0_740:
	mov	w9, #4
	b	.LBB37d7e3d0_673
.LBB37d7e3d0_741:
	mov	w2, wzr
	b	.LBB37d7e3d0_743
.LBB37d7e3d0_742:
	mov	w2, #1
.LBB37d7e3d0_743:
	add	x0, sp, #384
	orr	x1, x22, #0x8
	bl	hll_sketch.mode.array_into_mode.8a2f8b2564a2651f
	ldrb	w8, [sp, #384]
	ldrb	w9, [sp, #385]
	ldrb	w25, [sp, #392]
	b	.LBB37d7e3d0_811
.LBB37d7e3d0_744:
	mov	x22, xzr
.LBB37d7e3d0_745:
	add	x21, sp, #240
	mov	w8, #1
	add	x9, x22, #1
	add	x0, sp, #288
	add	x1, sp, #816
	strb	wzr, [x19, x22]
	strb	w23, [sp, #288]
	sturh	wzr, [x21, #49]
	strb	wzr, [sp, #291]
	str	w8, [sp, #292]
	str	w20, [sp, #296]
	str	wzr, [sp, #300]
	stp	x19, x9, [x21, #64]
	stp	x20, xzr, [x21, #80]
	stp	xzr, xzr, [x21, #96]
	strb	w8, [sp, #352]
	stur	wzr, [x21, #113]
	str	wzr, [sp, #356]
	bl	hll_arrays.merge.merge_from.dd8a39ea15bd038f
	ldp	q0, q2, [x21, #80]
	add	x10, sp, #496
	add	x9, sp, #736
	ldr	x8, [x21, #112]
	add	x0, sp, #384
	add	x1, sp, #640
	ldr	x2, [sp, #32]
	add	x26, sp, #736
	stur	q0, [x10, #182]
	ldp	q1, q0, [x21, #48]
	stur	x8, [x10, #214]
	ldur	x8, [x10, #182]
	stur	q2, [x10, #198]
	stur	q1, [x10, #150]
	stur	q0, [x10, #166]
	stp	q1, q0, [x9, #160]
	ldur	q0, [x9, #136]
	ldur	q1, [x9, #120]
	str	x8, [x9, #192]
	stur	q0, [x9, #216]
	stur	q1, [x9, #200]
	ldp	q0, q1, [x9, #160]
	ldr	x8, [x9, #224]
	stur	q0, [x21, #54]
	ldp	q2, q0, [x9, #192]
	stur	q1, [x21, #70]
	stur	x8, [x21, #118]
	stur	q0, [x21, #102]
	stur	q2, [x21, #86]
	ldur	q0, [x21, #102]
	ldur	q2, [x21, #54]
	ldur	q1, [x21, #86]
	str	x8, [x10, #208]
	stp	q1, q0, [x10, #176]
	ldur	q0, [x21, #70]
	stp	q2, q0, [x10, #144]
	bl	hll_sketch.mode.array_into_mode.8a2f8b2564a2651f
	ldp	q0, q1, [x21, #192]
	sub	x8, x29, #128
	ldr	q2, [x21, #224]
	ldrb	w19, [sp, #384]
	ldrb	w28, [sp, #385]
	ldrb	w24, [sp, #392]
	stp	q0, q1, [x8, #48]
	ldp	q1, q0, [x21, #160]
	str	q2, [x8, #80]
	stp	q1, q0, [x8, #16]
.LBB37d7e3d0_746:
	ldr	x8, [x26, #112]
	cbz	x8, .LBB37d7e3d0_748
	ldr	x0, [x26, #96]
	bl	rattle_dealloc
.LBB37d7e3d0_748:
	mov	w11, w19
.LBB37d7e3d0_749:
	sub	x9, x29, #128
	add	x10, sp, #736
	ldurb	w27, [x29, #-96]
	ldp	w8, w19, [x29, #-64]
	ldur	q0, [x9, #33]
	ldur	q1, [x9, #49]
	ldurb	w20, [x29, #-56]
	ldp	x22, x23, [x9, #16]
	stp	q0, q1, [x10]
	ldur	q0, [x9, #73]
	stur	w8, [x10, #31]
	ldr	x8, [x9, #88]
	add	x9, sp, #496
	str	q0, [x9, #112]
	stur	x8, [x9, #127]
	cbz	w11, .LBB37d7e3d0_752
	cmp	w28, #12
	mov	w8, #3
	mov	w9, #5
	csel	w9, w9, w8, eq
	csel	w10, wzr, w28, eq
.LBB37d7e3d0_751:
	ldr	x0, [sp, #104]
	mov	w11, #1
	b	.LBB37d7e3d0_3
.LBB37d7e3d0_752:
	add	x8, sp, #736
	add	x10, sp, #496
	ldp	q0, q1, [x8]
	ldur	w8, [x8, #31]
	stp	q0, q1, [x10]
	ldr	q0, [x10, #112]
	stur	w8, [x10, #31]
	ldur	x8, [x10, #127]
.LBB37d7e3d0_753:
	ldr	x0, [sp, #80]
	str	q0, [x10, #80]
	mov	w24, w24
	ldp	q0, q1, [x10]
	stur	x8, [x10, #95]
	ldp	x21, x9, [x0, #8]
	ldur	w8, [x10, #31]
	ldr	q2, [x10, #80]
	ldur	x10, [x10, #95]
	stp	q0, q1, [sp, #160]
	stur	w8, [sp, #191]
	cmp	x9, x21
	mov	x8, x21
	str	q2, [sp, #128]
	stur	x10, [sp, #143]
	b.eq	.LBB37d7e3d0_760
.LBB37d7e3d0_754:
	mov	w9, #96
	ldr	x10, [x0]
	ldr	x16, [sp, #72]
	madd	x9, x8, x9, x10
	ldp	q0, q1, [sp, #160]
	ldur	w10, [sp, #191]
	add	x8, x8, #1
	cmp	x16, x21
	stur	q0, [x9, #33]
	ldr	q0, [sp, #128]
	stur	q1, [x9, #49]
	stp	w10, w19, [x9, #64]
	ldur	x10, [sp, #143]
	strb	w25, [x9]
	stp	x24, x22, [x9, #8]
	str	x23, [x9, #24]
	strb	w27, [x9, #32]
	strb	w20, [x9, #72]
	stur	q0, [x9, #73]
	str	x10, [x9, #88]
	str	x8, [x0, #8]
	b.eq	.LBB37d7e3d0_756
	ldr	x8, [x0]
	ldr	x9, [sp, #64]
	add	x14, sp, #240
	mov	w12, #96
	sub	x15, x29, #128
	add	x9, x8, x9
	madd	x8, x21, x12, x8
	ldr	q0, [x9, #32]
	ldrb	w10, [x9]
	ldrb	w11, [x9, #8]
	str	q0, [x14, #160]
	ldr	q0, [x9, #48]
	str	q0, [x14, #176]
	ldr	q0, [x9, #64]
	str	q0, [x14, #192]
	ldr	q0, [x9, #80]
	str	q0, [x14, #208]
	ldr	q0, [x9, #16]
	str	q0, [x14, #144]
	ldr	q0, [x8, #16]
	ldrb	w12, [x8]
	ldrb	w13, [x8, #8]
	str	q0, [x15]
	ldp	q1, q0, [x8, #64]
	ldp	q2, q3, [x8, #32]
	stp	q1, q0, [x15, #48]
	stp	q2, q3, [x15, #16]
	strb	w12, [x9]
	str	x13, [x9, #8]
	ldr	q0, [x15, #64]
	str	q0, [x9, #80]
	ldr	q0, [x15, #48]
	str	q0, [x9, #64]
	ldr	q0, [x15, #32]
	str	q0, [x9, #48]
	ldr	q0, [x15, #16]
	str	q0, [x9, #32]
	ldr	q0, [x15]
	strb	w10, [x8]
	str	x11, [x8, #8]
	str	q0, [x9, #16]
	ldr	q0, [x14, #160]
	str	q0, [x8, #32]
	ldr	q0, [x14, #176]
	str	q0, [x8, #48]
	ldr	q0, [x14, #192]
	str	q0, [x8, #64]
	ldr	q0, [x14, #208]
	str	q0, [x8, #80]
	ldr	q0, [x14, #144]
	str	q0, [x8, #16]
	ldr	x8, [x0, #8]
.LBB37d7e3d0_756:
	add	x19, x16, #1
	cmp	x8, x19
	b.ls	.LBB37d7e3d0_816
	ldr	x12, [sp, #112]
	mov	w9, #96
	ldr	x11, [sp, #40]
	ldr	x21, [x0]
	ldr	x20, [x0, #16]
	mov	x22, x0
	mul	x10, x12, x9
	cmp	x12, x11
	add	x23, sp, #384
	csel	x11, x12, x11, lo
	add	x26, sp, #240
	msub	x9, x11, x9, x10
	mvn	x10, x12
	ldr	x12, [sp, #48]
	add	x10, x10, x11
	add	x24, x10, x8
	stp	xzr, xzr, [x12]
	add	x9, x9, x21
	add	x25, x9, #112
.LBB37d7e3d0_758:
	ldr	q0, [x25, #16]
	ldurb	w8, [x25, #-8]
	add	x0, sp, #384
	stur	q0, [x23, #24]
	ldr	q0, [x25, #32]
	stur	q0, [x23, #40]
	ldr	q0, [x25, #48]
	stur	q0, [x23, #56]
	ldr	q0, [x25, #64]
	stur	q0, [x23, #72]
	ldr	q0, [x25], #96
	str	x8, [x26, #144]
	stur	q0, [x23, #8]
	bl	hll_sketch.mode.Mode.drop.309f015d8caa795c
	subs	x24, x24, #1
	b.ne	.LBB37d7e3d0_758
	ldr	x0, [sp, #104]
	mov	w11, wzr
	mov	w9, wzr
	mov	w10, wzr
	stp	x21, x19, [x22]
	str	x20, [x22, #16]
	b	.LBB37d7e3d0_3
.LBB37d7e3d0_760:
	mov	x26, x0
	bl	std_alloc.vec.Vec.grow_amortized.f10ba080d3fae16a
	cbz	w0, .LBB37d7e3d0_762
	ldr	x8, [sp, #48]
	mov	x0, x26
	ldr	x8, [x8]
	b	.LBB37d7e3d0_754
.LBB37d7e3d0_762:
	ldp	q0, q1, [sp, #160]
	add	x9, sp, #240
	ldur	w8, [sp, #191]
	add	x0, sp, #384
	stp	x22, x23, [x9, #152]
	strb	w27, [sp, #408]
	stur	q0, [x9, #169]
	ldr	q0, [sp, #128]
	stur	q1, [x9, #185]
	str	w8, [sp, #440]
	ldur	x8, [sp, #143]
	str	w19, [sp, #444]
	strb	w20, [sp, #448]
	stur	q0, [x9, #209]
	str	x8, [x9, #224]
	str	x24, [x9, #144]
	bl	hll_sketch.mode.Mode.drop.309f015d8caa795c
	mov	w10, wzr
	mov	w9, #5
	b	.LBB37d7e3d0_751
.LBB37d7e3d0_763:
	mov	w10, #5
	b	.LBB37d7e3d0_595
.LBB37d7e3d0_764:
	mov	w8, #5
	b	.LBB37d7e3d0_597
.LBB37d7e3d0_765:
	mov	w10, #5
	b	.LBB37d7e3d0_624
.LBB37d7e3d0_766:
	and	x9, x22, #0x18
	and	x8, x22, #0xffffffffffffffe0
	add	x10, x23, #16
	add	x11, x20, #16
	and	x12, x22, #0xffffffffffffffe0
.LBB37d7e3d0_767:
	ldp	q0, q1, [x10, #-16]
	subs	x12, x12, #32
	add	x10, x10, #32
	stp	q0, q1, [x11, #-16]
	add	x11, x11, #32
	b.ne	.LBB37d7e3d0_767
	cmp	x22, x8
	b.eq	.LBB37d7e3d0_775
	cbz	x9, .LBB37d7e3d0_773
.LBB37d7e3d0_770:
	mov	x11, x8
	and	x8, x22, #0xfffffffffffffff8
	sub	x9, x11, x8
	add	x10, x23, x11
	add	x11, x20, x11
.LBB37d7e3d0_771:
	ldr	d0, [x10], #8
	adds	x9, x9, #8
	str	d0, [x11], #8
	b.ne	.LBB37d7e3d0_771
	cmp	x22, x8
	b.eq	.LBB37d7e3d0_775
.LBB37d7e3d0_773:
	sub	x9, x22, x8
	add	x10, x23, x8
	add	x8, x20, x8
.LBB37d7e3d0_774:
	ldrb	w11, [x10], #1
	subs	x9, x9, #1
	strb	w11, [x8], #1
	b.ne	.LBB37d7e3d0_774
.LBB37d7e3d0_775:
	ldur	x8, [x27, #-23]
	ldur	x9, [x27, #-16]
	ldurb	w10, [x27, #-76]
	ldur	w24, [x27, #-72]
	ldur	x1, [x27, #-40]
	ldur	d0, [x27, #-32]
	str	x8, [sp, #160]
	ldur	x8, [sp, #175]
	stur	x9, [sp, #167]
	ldr	q1, [sp, #160]
.LBB37d7e3d0_776:
	orr	x11, x26, x10, lsl #32
	ldurb	w10, [x27, #-24]
	add	x9, sp, #496
	stur	x8, [x9, #15]
	mov	x23, x22
	str	q1, [x9]
	b	.LBB37d7e3d0_804
.LBB37d7e3d0_777:
	and	x9, x20, #0x18
	and	x8, x20, #0xffffffffffffffe0
	add	x10, x22, #16
	add	x11, x24, #16
	and	x12, x20, #0xffffffffffffffe0
.LBB37d7e3d0_778:
	ldp	q0, q1, [x10, #-16]
	subs	x12, x12, #32
	add	x10, x10, #32
	stp	q0, q1, [x11, #-16]
	add	x11, x11, #32
	b.ne	.LBB37d7e3d0_778
	cmp	x20, x8
	b.eq	.LBB37d7e3d0_786
	cbz	x9, .LBB37d7e3d0_784
.LBB37d7e3d0_781:
	mov	x11, x8
	and	x8, x20, #0xfffffffffffffff8
	sub	x9, x11, x8
	add	x10, x22, x11
	add	x11, x24, x11
.LBB37d7e3d0_782:
	ldr	d0, [x10], #8
	adds	x9, x9, #8
	str	d0, [x11], #8
	b.ne	.LBB37d7e3d0_782
	cmp	x20, x8
	b.eq	.LBB37d7e3d0_786
.LBB37d7e3d0_784:
	sub	x9, x20, x8
	add	x10, x22, x8
	add	x8, x24, x8
.LBB37d7e3d0_785:
	ldrb	w11, [x10], #1
	subs	x9, x9, #1
	strb	w11, [x8], #1
	b.ne	.LBB37d7e3d0_785
.LBB37d7e3d0_786:
	ldurb	w23, [x27, #-48]
	cmp	x23, #1
	b.ne	.LBB37d7e3d0_796
	ldur	x8, [x27, #-40]
	ldrb	w10, [x8]
	ldrb	w9, [x8, #24]
	str	x10, [sp, #72]
	ldr	x10, [x8, #8]
	str	w9, [sp, #80]
	str	x10, [sp, #64]
	ldr	x10, [x8, #16]
	str	x10, [sp, #56]
	cbz	w9, .LBB37d7e3d0_797
	ldp	x8, x22, [x8, #32]
	str	x8, [sp, #88]
	cbz	x22, .LBB37d7e3d0_798
	lsr	x8, x22, #61
	cbnz	x8, .LBB37d7e3d0_808
	lsl	x0, x22, #2
	mov	w1, #4
	mov	x21, x0
	bl	rattle_alloc
	str	x1, [sp, #96]
	tbz	w0, #0, .LBB37d7e3d0_808
	ldp	x9, x8, [sp, #88]
	sub	x8, x8, x9
	cmp	x8, x21
	b.hs	.LBB37d7e3d0_799
	cmp	x22, #8
	mov	x8, xzr
	b.lo	.LBB37d7e3d0_827
	ldp	x10, x9, [sp, #88]
	sub	x9, x9, x10
	cmp	x9, #32
	b.lo	.LBB37d7e3d0_827
	ldp	x9, x10, [sp, #88]
	and	x8, x22, #0x1ffffffffffffff8
	and	x11, x22, #0x1ffffffffffffff8
	add	x9, x9, #16
	add	x10, x10, #16
.LBB37d7e3d0_795:
	ldp	q0, q1, [x9, #-16]
	subs	x11, x11, #8
	add	x9, x9, #32
	stp	q0, q1, [x10, #-16]
	add	x10, x10, #32
	b.ne	.LBB37d7e3d0_795
	b	.LBB37d7e3d0_828
.LBB37d7e3d0_796:
	mov	x1, xzr
	b	.LBB37d7e3d0_803
.LBB37d7e3d0_797:
	ldr	w9, [x8, #28]
	str	w9, [sp, #48]
	ldp	x9, x22, [x8, #32]
	str	x9, [sp, #96]
	ldr	x9, [x8, #48]
	ldr	w8, [x8, #56]
	str	x9, [sp, #88]
	str	w8, [sp, #40]
	b	.LBB37d7e3d0_801
.LBB37d7e3d0_798:
	mov	x21, xzr
	sub	x8, x29, #20
	str	x8, [sp, #96]
.LBB37d7e3d0_799:
	ldp	x1, x0, [sp, #88]
	mov	x2, x21
	bl	memmove
.LBB37d7e3d0_800:
	str	wzr, [sp, #48]
	str	wzr, [sp, #40]
	str	x22, [sp, #88]
.LBB37d7e3d0_801:
	mov	w0, #64
	mov	w1, #8
	bl	rattle_alloc
	tbz	w0, #0, .LBB37d7e3d0_805
	ldr	x8, [sp, #72]
	str	x8, [x1]
	ldr	x8, [sp, #64]
	str	x8, [x1, #8]
	ldr	x8, [sp, #56]
	str	x8, [x1, #16]
	ldr	w8, [sp, #80]
	str	w8, [x1, #24]
	ldr	w8, [sp, #48]
	str	w8, [x1, #28]
	ldr	x8, [sp, #96]
	stp	x8, x22, [x1, #32]
	ldr	x8, [sp, #88]
	str	x8, [x1, #48]
	ldr	w8, [sp, #40]
	stp	w8, wzr, [x1, #56]
.LBB37d7e3d0_803:
	orr	x8, x26, x28, lsl #8
	ldr	x11, [sp, #112]
	ldur	q1, [x27, #-23]
	ldur	d0, [x27, #-32]
	ldur	x9, [x27, #-8]
	mov	x22, x20
	ldurb	w10, [x27, #-24]
	orr	x11, x8, x11, lsl #32
	add	x8, sp, #496
	str	q1, [x8]
	stur	x9, [x8, #15]
.LBB37d7e3d0_804:
	add	x12, sp, #240
	strb	w10, [sp, #456]
	mov	w9, wzr
	stp	x11, x24, [x12, #160]
	add	x11, sp, #496
	mov	w8, wzr
	str	d0, [x12, #208]
	ldr	q0, [x11]
	ldur	x10, [x11, #15]
	stp	x20, x22, [x12, #176]
	stp	x23, x1, [x12, #192]
	stur	q0, [x12, #217]
	str	x10, [x12, #232]
	b	.LBB37d7e3d0_811
.LBB37d7e3d0_805:
	ldr	w8, [sp, #80]
	cbz	w8, .LBB37d7e3d0_808
	ldr	x8, [sp, #88]
	cbz	x8, .LBB37d7e3d0_808
	ldr	x0, [sp, #96]
	bl	rattle_dealloc
.LBB37d7e3d0_808:
	cbz	x20, .LBB37d7e3d0_810
	mov	x0, x24
	bl	rattle_dealloc
.LBB37d7e3d0_810:
	movi	v0.2d, #0000000000000000
	add	x10, sp, #240
	mov	w25, wzr
	str	xzr, [x10, #232]
	mov	w8, #1
	mov	w9, #12
	stur	q0, [x10, #216]
	stur	q0, [x10, #200]
	stur	q0, [x10, #184]
	stur	q0, [x10, #168]
	stur	q0, [x10, #152]
.LBB37d7e3d0_811:
	sturb	w9, [x29, #-127]
	add	x9, sp, #240
	sub	x10, x29, #128
	ldp	q0, q1, [x9, #192]
	sturb	w8, [x29, #-128]
	mov	w8, w25
	str	x8, [x10, #8]
	stp	q0, q1, [x10, #48]
	ldr	q0, [x9, #224]
	str	q0, [x10, #80]
	ldp	q0, q2, [x9, #160]
	stp	q0, q2, [x10, #16]
.LBB37d7e3d0_812:
	ldp	q0, q1, [x10, #48]
	add	x11, sp, #736
	ldr	q2, [x10, #80]
	ldurb	w9, [x29, #-128]
	ldurb	w8, [x29, #-120]
	stp	q0, q1, [x11, #192]
	ldp	q1, q0, [x10, #16]
	ldurb	w10, [x29, #-127]
	str	q2, [x11, #224]
	stp	q1, q0, [x11, #160]
	cbz	w9, .LBB37d7e3d0_815
	ldr	x0, [sp, #104]
.LBB37d7e3d0_814:
	cmp	w10, #12
	mov	w8, #3
	mov	w9, #5
	csel	w9, w9, w8, eq
	csel	w10, wzr, w10, eq
	b	.LBB37d7e3d0_155
.LBB37d7e3d0_815:
	ldp	q0, q1, [x11, #176]
	add	x0, sp, #640
	ldr	q3, [x11, #160]
	ldurb	w9, [x27, #-88]
	stur	x8, [x27, #-88]
	add	x8, sp, #496
	sturb	w19, [x27, #-96]
	stp	q0, q1, [x11, #96]
	ldp	q2, q0, [x11, #208]
	str	x9, [x8, #144]
	stp	q2, q0, [x11, #128]
	ldp	q1, q0, [x27, #-32]
	stp	q0, q3, [x11, #64]
	ldp	q2, q0, [x27, #-64]
	stp	q0, q1, [x11, #32]
	ldur	q0, [x27, #-80]
	stp	q0, q2, [x11]
	ldp	q0, q1, [x11, #80]
	stp	q0, q1, [x27, #-80]
	ldp	q2, q0, [x11, #112]
	ldr	q1, [x11, #144]
	stp	q2, q0, [x27, #-48]
	ldr	q2, [x11, #32]
	stur	q1, [x27, #-16]
	ldp	q0, q1, [x11]
	stur	q2, [x8, #184]
	stur	q0, [x8, #152]
	ldp	q0, q3, [x11, #48]
	stur	q1, [x8, #168]
	stur	q3, [x8, #216]
	stur	q0, [x8, #200]
	bl	hll_sketch.mode.Mode.drop.309f015d8caa795c
.LBB37d7e3d0_816:
	ldr	x0, [sp, #104]
	b	.LBB37d7e3d0_2
.LBB37d7e3d0_817:
	mov	w9, #5
	b	.LBB37d7e3d0_673
.LBB37d7e3d0_818:
	add	x9, sp, #496
	ldr	x8, [x9, #256]
	cbz	x8, .LBB37d7e3d0_820
	ldr	x0, [x9, #240]
	bl	rattle_dealloc
.LBB37d7e3d0_820:
	add	x8, sp, #240
	mov	w24, #12
.LBB37d7e3d0_821:
	ldr	x8, [x8, #272]
	cbz	x8, .LBB37d7e3d0_824
	mov	x0, x23
.LBB37d7e3d0_823:
	bl	rattle_dealloc
.LBB37d7e3d0_824:
	add	x10, sp, #384
	add	x9, sp, #496
	ldrb	w8, [sp, #400]
	ldur	q0, [x10, #40]
	ldur	q1, [x10, #56]
	ldur	q2, [x10, #72]
	add	x0, sp, #640
	str	x8, [x9, #144]
	stur	q0, [x9, #168]
	ldur	q0, [x10, #88]
	stur	q1, [x9, #184]
	ldur	q1, [x10, #24]
	stur	q2, [x9, #200]
	stur	q0, [x9, #216]
	stur	q1, [x9, #152]
	bl	hll_sketch.mode.Mode.drop.309f015d8caa795c
	ldr	x0, [sp, #104]
.LBB37d7e3d0_825:
	and	w8, w24, #0xff
	mov	w9, #5
	cmp	w8, #12
	mov	w8, #3
	csel	w9, w9, w8, eq
	csel	w10, wzr, w24, eq
	b	.LBB37d7e3d0_155
.LBB37d7e3d0_826:
	mov	w8, #6
	b	.LBB37d7e3d0_597
.LBB37d7e3d0_827:
	ldp	x9, x10, [sp, #88]
	ldr	w9, [x9, x8, lsl #2]
	str	w9, [x10, x8, lsl #2]
	add	x8, x8, #1
.LBB37d7e3d0_828:
	cmp	x22, x8
	b.ne	.LBB37d7e3d0_827
	b	.LBB37d7e3d0_800
.Lfunc_end37d7e3d0:
	.size	hll_merge.stack.Stack.carry_line.8a2f8b2564a2651f, .Lfunc_end37d7e3d0-hll_merge.stack.Stack.carry_line.8a2f8b2564a2651f

	.section	.rodata.cst16,"aM",@progbits,16
	.p2align	4, 0x0
.LCPIb5d67b4a_0:
	.byte	1
	.byte	2
	.byte	4
	.byte	8
	.byte	16
	.byte	32
	.byte	64
	.byte	128
	.byte	1
	.byte	2
	.byte	4
	.byte	8
	.byte	16
	.byte	32
	.byte	64
	.byte	128
	.section	.text.core.cmp.slices.groups_equal._i8_31_core.cmp.numbers.U8PartialEq,"ax",@progbits
	.p2align	2
	.type	core.cmp.slices.groups_equal._i8_31_core.cmp.numbers.U8PartialEq,@function
core.cmp.slices.groups_equal._i8_31_core.cmp.numbers.U8PartialEq:
	subs	x9, x1, #8
	b.hi	.LBBb5d67b4a_2
	sub	x8, x1, #4
	ldr	s0, [x0]
	ldr	s1, [x2]
	add	x9, x0, x8
	add	x8, x2, x8
	ld1	{ v0.s }[1], [x9]
	ld1	{ v1.s }[1], [x8]
	fmov	x8, d0
	fmov	x9, d1
	cmp	x8, x9
	cset	w8, ne
	eor	w0, w8, #0x1
	ret
.LBBb5d67b4a_2:
	subs	x8, x1, #32
	b.hi	.LBBb5d67b4a_4
	cmp	x9, #8
	mov	w8, #8
	mov	w10, #16
	csel	x8, x9, x8, lo
	cmp	x9, #16
	ldr	d0, [x0]
	ldr	d1, [x2]
	ldr	d2, [x0, x8]
	ldr	d3, [x2, x8]
	csel	x8, x9, x10, lo
	ldr	d5, [x2, x9]
	ldr	d4, [x0, x8]
	mov	v0.d[1], v2.d[0]
	mov	v1.d[1], v3.d[0]
	ldr	d2, [x2, x8]
	ldr	d3, [x0, x9]
	mov	v4.d[1], v3.d[0]
	mov	v2.d[1], v5.d[0]
	cmeq	v0.16b, v0.16b, v1.16b
	cmeq	v1.16b, v4.16b, v2.16b
	b	.LBBb5d67b4a_17
.LBBb5d67b4a_4:
	cmp	x1, #65
	b.hs	.LBBb5d67b4a_6
	ldp	q1, q0, [x0]
	add	x9, x2, x8
	ldp	q3, q2, [x2]
	add	x8, x0, x8
	ldp	q4, q5, [x9]
	cmeq	v1.16b, v1.16b, v3.16b
	cmeq	v0.16b, v0.16b, v2.16b
	ldp	q2, q3, [x8]
	mvn	v1.16b, v1.16b
	mvn	v0.16b, v0.16b
	cmeq	v2.16b, v2.16b, v4.16b
	cmeq	v3.16b, v3.16b, v5.16b
	orn	v0.16b, v0.16b, v3.16b
	orn	v1.16b, v1.16b, v2.16b
	orr	v0.16b, v1.16b, v0.16b
	umaxv	b0, v0.16b
	fmov	w8, s0
	and	w8, w8, #0x1
	eor	w0, w8, #0x1
	ret
.LBBb5d67b4a_6:
	and	x9, x1, #0xffffffffffffffc0
	add	x10, x0, #32
	add	x12, x2, #32
	mov	w11, #32
	mov	x13, x1
.LBBb5d67b4a_7:
	ldp	q0, q3, [x12, #-32]
	ldp	q1, q2, [x10, #-32]
	ldp	q4, q5, [x12], #64
	cmeq	v0.16b, v1.16b, v0.16b
	cmeq	v1.16b, v2.16b, v3.16b
	ldp	q2, q3, [x10], #64
	mvn	v0.16b, v0.16b
	mvn	v1.16b, v1.16b
	cmeq	v2.16b, v2.16b, v4.16b
	cmeq	v3.16b, v3.16b, v5.16b
	orn	v0.16b, v0.16b, v2.16b
	orn	v1.16b, v1.16b, v3.16b
	orr	v0.16b, v1.16b, v0.16b
	umaxv	b0, v0.16b
	fmov	w14, s0
	tbnz	w14, #0, .LBBb5d67b4a_10
	sub	x13, x13, #64
	add	x11, x11, #64
	cmp	x13, #64
	b.hs	.LBBb5d67b4a_7
	sub	x10, x1, x9
	cmp	x10, #32
	b.hs	.LBBb5d67b4a_11
	b	.LBBb5d67b4a_16
.LBBb5d67b4a_10:
	sub	x9, x11, #32
	sub	x10, x1, x9
	cmp	x10, #32
	b.lo	.LBBb5d67b4a_16
.LBBb5d67b4a_11:
	add	x11, x0, x9
	add	x9, x2, x9
.LBBb5d67b4a_12:
	ldp	q0, q1, [x11], #32
	ldp	q2, q3, [x9], #32
	adrp	x12, .LCPIb5d67b4a_0
	cmeq	v1.16b, v1.16b, v3.16b
	cmeq	v0.16b, v0.16b, v2.16b
	ldr	q2, [x12, :lo12:.LCPIb5d67b4a_0]
	bic	v1.16b, v2.16b, v1.16b
	bic	v0.16b, v2.16b, v0.16b
	ext	v2.16b, v1.16b, v1.16b, #8
	ext	v3.16b, v0.16b, v0.16b, #8
	zip1	v1.16b, v1.16b, v2.16b
	zip1	v0.16b, v0.16b, v3.16b
	addv	h1, v1.8h
	addv	h0, v0.8h
	fmov	w12, s1
	fmov	w13, s0
	orr	w12, w13, w12
	tst	w12, #0xffff
	b.ne	.LBBb5d67b4a_14
	sub	x10, x10, #32
	cmp	x10, #32
	b.hs	.LBBb5d67b4a_12
	b	.LBBb5d67b4a_16
.LBBb5d67b4a_14:
	cmp	x10, #31
	b.ls	.LBBb5d67b4a_16
	mov	w8, #1
	eor	w0, w8, #0x1
	ret
.LBBb5d67b4a_16:
	add	x9, x0, x8
	add	x8, x2, x8
	ldp	q0, q3, [x8]
	ldp	q1, q2, [x9]
	cmeq	v0.16b, v1.16b, v0.16b
	cmeq	v1.16b, v2.16b, v3.16b
.LBBb5d67b4a_17:
	mvn	v0.16b, v0.16b
	orn	v0.16b, v0.16b, v1.16b
	umaxv	b0, v0.16b
	fmov	w8, s0
	and	w8, w8, #0x1
	eor	w0, w8, #0x1
	ret
.Lfunc_endb5d67b4a:
	.size	core.cmp.slices.groups_equal._i8_31_core.cmp.numbers.U8PartialEq, .Lfunc_endb5d67b4a-core.cmp.slices.groups_equal._i8_31_core.cmp.numbers.U8PartialEq

	.section	.rodata.cst16,"aM",@progbits,16
	.p2align	4, 0x0
.LCPIfbb66151_0:
	.byte	1
	.byte	2
	.byte	4
	.byte	8
	.byte	16
	.byte	32
	.byte	64
	.byte	128
	.byte	1
	.byte	2
	.byte	4
	.byte	8
	.byte	16
	.byte	32
	.byte	64
	.byte	128
	.section	.rodata.cst8,"aM",@progbits,8
	.p2align	3, 0x0
.LCPIfbb66151_1:
	.word	1
	.word	0
	.section	.text.hll_sketch.sketch.HllSketch.deserialize.8a2f8b2564a2651f,"ax",@progbits
	.p2align	2
	.type	hll_sketch.sketch.HllSketch.deserialize.8a2f8b2564a2651f,@function
hll_sketch.sketch.HllSketch.deserialize.8a2f8b2564a2651f:
	str	d8, [sp, #-112]!
	stp	x29, x30, [sp, #16]
	add	x29, sp, #16
	stp	x28, x27, [sp, #32]
	stp	x26, x25, [sp, #48]
	stp	x24, x23, [sp, #64]
	stp	x22, x21, [sp, #80]
	stp	x20, x19, [sp, #96]
	sub	sp, sp, #528
	subs	x8, x2, #8
	b.hs	.LBBfbb66151_2
	mov	w8, wzr
	b	.LBBfbb66151_10
.LBBfbb66151_2:
	ldrb	w9, [x1, #2]
	cmp	w9, #7
	b.ne	.LBBfbb66151_7
	ldrb	w9, [x1, #1]
	cmp	w9, #1
	b.ne	.LBBfbb66151_8
	ldrb	w19, [x1, #3]
	sub	w9, w19, #4
	and	w9, w9, #0xff
	cmp	w9, #17
	b.hi	.LBBfbb66151_9
	ldrb	w9, [x1, #7]
	ubfx	x10, x9, #2, #2
	cmp	w10, #3
	b.ne	.LBBfbb66151_12
	mov	w8, #4
	b	.LBBfbb66151_10
.LBBfbb66151_7:
	mov	w8, #1
	b	.LBBfbb66151_10
.LBBfbb66151_8:
	mov	w8, #2
	b	.LBBfbb66151_10
.LBBfbb66151_9:
	mov	w8, #3
.LBBfbb66151_10:
	movi	v0.2d, #0000000000000000
	strb	w8, [x0, #1]
	mov	w8, #1
	strb	wzr, [x0, #8]
	strb	w8, [x0]
	str	xzr, [x0, #96]
	stp	q0, q0, [x0, #16]
	stp	q0, q0, [x0, #48]
	str	q0, [x0, #80]
.LBBfbb66151_11:
	add	sp, sp, #528
	ldp	x20, x19, [sp, #96]
	ldp	x22, x21, [sp, #80]
	ldp	x24, x23, [sp, #64]
	ldp	x26, x25, [sp, #48]
	ldp	x28, x27, [sp, #32]
	ldp	x29, x30, [sp, #16]
	ldr	d8, [sp], #112
	ret
.LBBfbb66151_12:
	and	x9, x9, #0x3
	cmp	w9, #1
	b.gt	.LBBfbb66151_15
	cbnz	w9, .LBBfbb66151_17
	mov	w11, #2
	b	.LBBfbb66151_18
.LBBfbb66151_15:
	cmp	w9, #2
	b.ne	.LBBfbb66151_32
	mov	w11, #10
	b	.LBBfbb66151_18
.LBBfbb66151_17:
	mov	w11, #3
.LBBfbb66151_18:
	ldrb	w12, [x1]
	cmp	w12, w11
	b.ne	.LBBfbb66151_31
	ldrb	w11, [x1, #5]
	ldrb	w13, [x1, #4]
	lsl	x10, x10, #8
	ldrb	w15, [x1, #6]
	cmp	w9, #2
	sub	x27, x29, #192
	ubfx	w12, w11, #3, #1
	ubfx	w14, w11, #2, #1
	orr	x10, x10, x13, lsl #24
	ubfx	w11, w11, #4, #1
	lsl	x13, x15, #56
	lsl	x12, x12, #40
	orr	x10, x10, x9, lsl #16
	orr	x11, x13, x11, lsl #48
	orr	x12, x12, x14, lsl #32
	orr	x12, x12, x19
	orr	x5, x12, x10
	orr	x25, x5, x11
	lsr	x20, x25, #56
	b.eq	.LBBfbb66151_33
	lsr	x26, x25, #8
	lsr	w24, w25, #24
	cmp	w9, #1
	b.ne	.LBBfbb66151_37
	mov	w9, wzr
	mov	x8, xzr
	cmp	w24, #5
	mov	w21, #7
	mov	w13, #1
	b.lo	.LBBfbb66151_342
	lsr	x6, x25, #24
	sub	w10, w19, #3
	mov	w16, w9
	and	w12, w10, #0xff
	mov	x15, x8
	mov	x22, x8
	mov	x10, x8
	mov	x11, x8
	cmp	w12, w6, uxtb
	mov	x25, x8
	mov	x12, x8
	mov	w23, w9
	mov	x17, x8
	mov	x14, x8
	mov	x18, x8
	mov	w28, w9
	mov	x3, x8
	mov	x4, x8
	b.lo	.LBBfbb66151_82
	tbz	x5, #40, .LBBfbb66151_64
	and	w8, w6, #0xff
	cmp	w8, #9
	b.lo	.LBBfbb66151_64
	cmp	x2, #11
	b.ls	.LBBfbb66151_79
	ldr	w22, [x1, #8]
	sub	x20, x2, #12
	lsr	x8, x22, x24
	cbnz	x8, .LBBfbb66151_76
	lsr	x8, x20, #2
	cmp	x8, x22
	b.lo	.LBBfbb66151_76
	add	x8, x1, #12
	cmp	w22, #128
	stur	x22, [x29, #-176]
	stp	x8, x20, [x29, #-192]
	b.hi	.LBBfbb66151_76
	mov	x27, x0
	sub	x0, x29, #192
	mov	x23, x1
	bl	hll_sketch.raw_coupons.RawCoupons.differ
	cbz	w0, .LBBfbb66151_116
	stur	xzr, [x29, #-144]
	mov	w21, #1
	mov	x0, x27
	mov	x1, x23
	b	.LBBfbb66151_77
.LBBfbb66151_31:
	mov	w8, #6
	b	.LBBfbb66151_10
.LBBfbb66151_32:
	mov	w8, #5
	b	.LBBfbb66151_10
.LBBfbb66151_33:
	ubfx	w9, w25, #8, #8
	cmp	w9, #2
	b.eq	.LBBfbb66151_52
	cmp	w9, #1
	b.ne	.LBBfbb66151_54
	cmp	x8, #8
	mov	w13, #1
	b.hs	.LBBfbb66151_66
	mov	w21, wzr
	mov	w9, wzr
	mov	x8, xzr
	mov	x10, xzr
	mov	x11, xzr
	mov	x12, xzr
	mov	x23, xzr
	mov	x14, xzr
	mov	w28, wzr
	b	.LBBfbb66151_70
.LBBfbb66151_37:
	cmp	w24, #3
	b.ne	.LBBfbb66151_51
	cmp	x20, #0
	mov	w21, #8
	stur	xzr, [x29, #-144]
	cset	w9, ne
	cmp	x20, #8
	b.hi	.LBBfbb66151_80
	ubfx	x10, x5, #32, #1
	eor	w9, w10, w9
	cbz	w9, .LBBfbb66151_80
	lsr	x9, x25, #40
	mov	w10, #8
	tst	w9, #0x1
	csel	x10, x20, x10, ne
	tst	x5, #0x100000000
	csel	x22, xzr, x10, ne
	cmp	x8, x22, lsl #2
	b.lo	.LBBfbb66151_79
	movi	v0.2d, #0000000000000000
	mov	w8, #3
	stur	x8, [x29, #-192]
	stur	q0, [x27, #8]
	stur	q0, [x27, #24]
	stur	q0, [x27, #36]
	cbz	x22, .LBBfbb66151_98
	sub	x8, x29, #192
	add	x23, x1, #8
	mov	x25, xzr
	add	x24, x8, #20
	tbz	w9, #0, .LBBfbb66151_102
	mov	w27, #67108863
	b	.LBBfbb66151_47
.LBBfbb66151_44:
	ldurb	w8, [x29, #-176]
	cbz	w8, .LBBfbb66151_50
	ldur	x8, [x29, #-168]
	str	w21, [x8, x25, lsl #2]
.LBBfbb66151_46:
	ldur	x8, [x29, #-184]
	cmp	w21, w27
	csel	w27, w21, w27, hi
	subs	x22, x22, #1
	add	x25, x8, #1
	stur	x25, [x29, #-184]
	b.eq	.LBBfbb66151_99
.LBBfbb66151_47:
	ldr	w21, [x23], #4
	cmp	w21, w27
	b.hi	.LBBfbb66151_44
	lsr	w8, w21, #26
	cbz	w8, .LBBfbb66151_113
	mov	x28, x0
	sub	x0, x29, #192
	mov	w1, w21
	bl	hll_coupons.list.List.contains.309f015d8caa795c
	mov	w8, w0
	mov	x0, x28
	tbz	w8, #0, .LBBfbb66151_44
	b	.LBBfbb66151_113
.LBBfbb66151_50:
	str	w21, [x24, x25, lsl #2]
	b	.LBBfbb66151_46
.LBBfbb66151_51:
	mov	w9, wzr
	mov	x8, xzr
	mov	w16, wzr
	mov	x15, xzr
	mov	x22, xzr
	mov	x10, xzr
	mov	x11, xzr
	mov	x25, xzr
	mov	x12, xzr
	mov	w23, wzr
	mov	x17, xzr
	mov	x14, xzr
	mov	x18, xzr
	mov	w28, wzr
	mov	x3, xzr
	mov	x4, xzr
	mov	w21, #7
	b	.LBBfbb66151_81
.LBBfbb66151_52:
	cmp	x8, #8
	mov	w13, #1
	b.hs	.LBBfbb66151_71
	mov	w21, wzr
	mov	w9, wzr
	mov	x8, xzr
	mov	x10, xzr
	mov	x11, xzr
	mov	x12, xzr
	mov	x23, xzr
	mov	x14, xzr
	mov	w28, wzr
	b	.LBBfbb66151_75
.LBBfbb66151_54:
	cmp	x8, #8
	b.lo	.LBBfbb66151_79
	and	x9, x8, #0xfffffffffffffff8
	cmp	x9, #8
	b.eq	.LBBfbb66151_79
	cmp	x9, #16
	b.eq	.LBBfbb66151_79
	orr	x8, x8, #0x4
	and	x8, x8, #0xfffffffffffffffc
	cmp	x8, #28
	b.eq	.LBBfbb66151_79
	mov	w13, #1
	ldr	w10, [x1, #32]
	mov	w9, wzr
	lsl	x11, x13, x19
	mov	x8, xzr
	mov	w21, #8
	str	x25, [sp, #184]
	cmp	x11, x10
	str	x0, [sp, #200]
	stur	x1, [x29, #-8]
	str	x11, [sp, #192]
	b.lo	.LBBfbb66151_341
	ldur	x1, [x29, #-8]
	ldp	x14, x0, [sp, #192]
	mov	w16, w9
	mov	x15, x8
	mov	x22, x8
	ldr	w26, [x1, #36]
	mov	x10, x8
	mov	x11, x8
	mov	x25, x8
	mov	x12, x8
	mov	w23, w9
	cmp	x14, x26
	mov	x17, x8
	mov	x14, x8
	mov	x18, x8
	mov	w28, w9
	mov	x3, x8
	mov	x4, x8
	b.lo	.LBBfbb66151_82
	ldr	x8, [sp, #184]
	mov	x28, x26
	lsr	x9, x8, #40
	ldr	x8, [x1, #8]
	str	x8, [sp, #136]
	ldr	x8, [x1, #16]
	str	x9, [sp, #160]
	str	x8, [sp, #176]
	ldr	x8, [x1, #24]
	str	x8, [sp, #144]
	tbnz	w9, #0, .LBBfbb66151_166
	cbz	w26, .LBBfbb66151_164
	ldr	x8, [sp, #184]
	lsr	w8, w8, #24
	cmp	w8, #26
	b.ls	.LBBfbb66151_165
	mov	w9, wzr
	mov	x8, xzr
	mov	w16, wzr
	mov	x15, xzr
	mov	x22, xzr
	mov	x10, xzr
	mov	x11, xzr
	mov	x25, xzr
	mov	x12, xzr
	mov	w23, wzr
	mov	x17, xzr
	mov	x14, xzr
	mov	x18, xzr
	mov	w28, wzr
	mov	x3, xzr
	mov	x4, xzr
	mov	w21, #7
	b	.LBBfbb66151_209
.LBBfbb66151_64:
	subs	x20, x2, #12
	stur	xzr, [x29, #-144]
	b.lo	.LBBfbb66151_79
	lsr	x21, x5, #40
	ldr	w22, [x1, #8]
	b	.LBBfbb66151_77
.LBBfbb66151_66:
	and	x9, x8, #0xfffffffffffffff8
	cmp	x9, #8
	b.eq	.LBBfbb66151_69
	cmp	x9, #16
	b.eq	.LBBfbb66151_69
	orr	x8, x8, #0x4
	and	x8, x8, #0xfffffffffffffffc
	cmp	x8, #28
	b.ne	.LBBfbb66151_118
.LBBfbb66151_69:
	mov	w21, wzr
	mov	w9, wzr
	mov	x8, xzr
	mov	x10, xzr
	mov	x11, xzr
	mov	x12, xzr
	mov	x23, xzr
	mov	x14, xzr
	mov	w28, wzr
	mov	w13, #1
.LBBfbb66151_70:
	mov	x15, xzr
	mov	x22, xzr
	mov	x3, xzr
	mov	x4, xzr
	and	x17, x23, #0xffffffff00000000
	and	x18, x14, #0xffffffffffffff00
	mov	w16, w9
	mov	x25, x11
	b	.LBBfbb66151_82
.LBBfbb66151_71:
	and	x9, x8, #0xfffffffffffffff8
	cmp	x9, #8
	b.eq	.LBBfbb66151_74
	cmp	x9, #16
	b.eq	.LBBfbb66151_74
	orr	x8, x8, #0x4
	and	x8, x8, #0xfffffffffffffffc
	cmp	x8, #28
	b.ne	.LBBfbb66151_126
.LBBfbb66151_74:
	mov	w21, wzr
	mov	w9, wzr
	mov	x8, xzr
	mov	x10, xzr
	mov	x11, xzr
	mov	x12, xzr
	mov	x23, xzr
	mov	x14, xzr
	mov	w28, wzr
	mov	w13, #1
.LBBfbb66151_75:
	mov	x15, xzr
	mov	x22, xzr
	mov	x3, xzr
	mov	x4, xzr
	and	x17, x23, #0xffffffff00000000
	and	x18, x14, #0xffffffffffffff00
	mov	w16, w9
	mov	x25, x11
	b	.LBBfbb66151_82
.LBBfbb66151_76:
	stur	xzr, [x29, #-144]
	mov	w21, #1
.LBBfbb66151_77:
	mov	w8, #1
	lsl	x27, x8, x24
	cmp	x27, x22
	b.ls	.LBBfbb66151_83
	cmp	w21, #0
	csel	x28, x22, x27, ne
	cmp	x20, x28, lsl #2
	b.hs	.LBBfbb66151_84
.LBBfbb66151_79:
	mov	w21, wzr
.LBBfbb66151_80:
	mov	w9, wzr
	mov	x8, xzr
	mov	w16, wzr
	mov	x15, xzr
	mov	x22, xzr
	mov	x10, xzr
	mov	x11, xzr
	mov	x25, xzr
	mov	x12, xzr
	mov	w23, wzr
	mov	x17, xzr
	mov	x14, xzr
	mov	x18, xzr
	mov	w28, wzr
	mov	x3, xzr
	mov	x4, xzr
.LBBfbb66151_81:
	mov	w13, #1
.LBBfbb66151_82:
	strb	w13, [x0]
	and	x13, x16, #0xff
	strb	w9, [x0, #8]
	orr	x9, x15, x13
	stp	x8, x9, [x0, #16]
	mov	w8, w23
	and	x9, x14, #0xff
	stp	x22, x10, [x0, #32]
	orr	x8, x17, x8
	and	x10, x28, #0xff
	stp	x12, x8, [x0, #64]
	orr	x9, x18, x9
	orr	x8, x3, x10
	strb	w21, [x0, #1]
	stp	x11, x25, [x0, #48]
	stp	x9, x8, [x0, #80]
	str	x4, [x0, #96]
	b	.LBBfbb66151_11
.LBBfbb66151_83:
	mov	w21, #8
	b	.LBBfbb66151_80
.LBBfbb66151_84:
	cmp	x24, #60
	stur	x1, [x29, #-8]
	b.hi	.LBBfbb66151_112
	mov	w8, #4
	str	x0, [sp, #200]
	mov	w1, #4
	lsl	x25, x8, x24
	mov	x0, x25
	bl	rattle_alloc
	tbz	w0, #0, .LBBfbb66151_117
	mov	x23, x1
	sub	x2, x25, #4
	mov	x0, x1
	mov	w1, wzr
	bl	memset
	adrp	x9, .LCPIfbb66151_1
	add	x8, x23, x25
	ldr	d0, [x9, :lo12:.LCPIfbb66151_1]
	stur	wzr, [x8, #-4]
	stur	x24, [x29, #-192]
	stur	d0, [x29, #-176]
	stp	x23, x27, [x29, #-168]
	stur	x27, [x29, #-152]
	stur	wzr, [x29, #-144]
	cbz	x28, .LBBfbb66151_130
	mov	x8, #-1
	cmp	x27, #64
	mov	w10, #64
	lsl	x9, x8, x24
	ldur	x8, [x29, #-8]
	csel	x10, x27, x10, lo
	add	x1, x8, #12
	mvn	x9, x9
	mov	x8, xzr
	tbz	w21, #0, .LBBfbb66151_131
	mov	x11, x1
	mov	x12, x20
.LBBfbb66151_89:
	subs	x12, x12, #4
	b.lo	.LBBfbb66151_205
	ldr	w13, [x11], #4
	lsr	w14, w13, #26
	cbz	w14, .LBBfbb66151_204
	and	w14, w13, #0x3ffffff
	mov	x15, x10
	mov	x16, x13
	lsr	w14, w14, w24
	orr	w14, w14, #0x1
.LBBfbb66151_92:
	and	x16, x16, x9
	ldr	w17, [x23, x16, lsl #2]
	cbz	w17, .LBBfbb66151_95
	cmp	w17, w13
	b.eq	.LBBfbb66151_95
	subs	x15, x15, #1
	add	x16, x16, x14
	b.ne	.LBBfbb66151_92
	b	.LBBfbb66151_142
.LBBfbb66151_95:
	cbnz	w17, .LBBfbb66151_204
	add	x8, x8, #1
	str	w13, [x23, x16, lsl #2]
	cmp	x8, x28
	b.ne	.LBBfbb66151_89
	mov	x8, x28
	b	.LBBfbb66151_156
.LBBfbb66151_98:
	mov	x25, xzr
.LBBfbb66151_99:
	cmp	x25, x20
	b.ne	.LBBfbb66151_101
	ldur	x16, [x29, #-192]
	ldurb	w9, [x29, #-176]
	mov	w13, wzr
	ldur	w10, [x29, #-172]
	ldp	x11, x25, [x29, #-168]
	ldur	x12, [x29, #-152]
	mov	w21, wzr
	mov	x8, xzr
	ldur	w23, [x29, #-144]
	mov	x17, xzr
	mov	x18, xzr
	mov	w28, wzr
	mov	x3, xzr
	mov	x4, xzr
	orr	x10, x9, x10, lsl #32
	and	x15, x16, #0xffffffffffffff00
	mov	w9, w19
	mov	x22, x20
	mov	x14, x26
	b	.LBBfbb66151_82
.LBBfbb66151_101:
	ldurb	w8, [x29, #-176]
	mov	w21, #8
	cbnz	w8, .LBBfbb66151_114
	b	.LBBfbb66151_80
.LBBfbb66151_102:
	mov	x27, xzr
	mov	w28, #67108863
.LBBfbb66151_103:
	ldr	w21, [x23, x27, lsl #2]
	cmp	w21, w28
	b.hi	.LBBfbb66151_108
	cbnz	w21, .LBBfbb66151_106
	add	x27, x27, #1
	cmp	x27, x22
	b.lo	.LBBfbb66151_103
	b	.LBBfbb66151_99
.LBBfbb66151_106:
	lsr	w8, w21, #26
	cbz	w8, .LBBfbb66151_113
	stur	x24, [x29, #-8]
	mov	x24, x0
	sub	x0, x29, #192
	mov	w1, w21
	bl	hll_coupons.list.List.contains.309f015d8caa795c
	mov	w8, w0
	mov	x0, x24
	ldur	x24, [x29, #-8]
	tbnz	w8, #0, .LBBfbb66151_113
.LBBfbb66151_108:
	ldurb	w8, [x29, #-176]
	cbz	w8, .LBBfbb66151_110
	ldur	x8, [x29, #-168]
	str	w21, [x8, x25, lsl #2]
	b	.LBBfbb66151_111
.LBBfbb66151_110:
	str	w21, [x24, x25, lsl #2]
.LBBfbb66151_111:
	ldur	x8, [x29, #-184]
	cmp	w21, w28
	add	x27, x27, #1
	csel	w28, w21, w28, hi
	cmp	x27, x22
	add	x25, x8, #1
	stur	x25, [x29, #-184]
	b.lo	.LBBfbb66151_103
	b	.LBBfbb66151_99
.LBBfbb66151_112:
	mov	w21, #12
	b	.LBBfbb66151_80
.LBBfbb66151_113:
	ldurb	w8, [x29, #-176]
	mov	w21, #9
	cbz	w8, .LBBfbb66151_80
.LBBfbb66151_114:
	ldur	x8, [x29, #-152]
	cbz	x8, .LBBfbb66151_80
	ldur	x8, [x29, #-168]
	mov	x19, x0
	mov	x0, x8
	bl	rattle_dealloc
	mov	x0, x19
	b	.LBBfbb66151_80
.LBBfbb66151_116:
	mov	w9, wzr
	mov	x8, xzr
	mov	w16, wzr
	mov	x15, xzr
	mov	x22, xzr
	mov	x10, xzr
	mov	x11, xzr
	mov	x25, xzr
	mov	x12, xzr
	mov	w23, wzr
	mov	x17, xzr
	mov	x14, xzr
	mov	x18, xzr
	mov	w28, wzr
	mov	x3, xzr
	mov	x4, xzr
	mov	w21, #9
	mov	w13, #1
	mov	x0, x27
	b	.LBBfbb66151_82
.LBBfbb66151_117:
	ldr	x0, [sp, #200]
	mov	w21, #12
	b	.LBBfbb66151_80
.LBBfbb66151_118:
	lsl	x10, x13, x19
	ldr	w11, [x1, #32]
	mov	x22, x0
	mov	x8, xzr
	mov	w9, wzr
	mov	w21, #8
	cmp	x10, x11
	mov	w13, #1
	b.lo	.LBBfbb66151_146
	ldr	w15, [x1, #36]
	mov	x24, x1
	mov	x10, x8
	mov	x11, x8
	mov	x12, x8
	mov	x23, x8
	mov	x14, x8
	mov	w28, w9
	mov	x0, x22
	cbnz	w15, .LBBfbb66151_70
	mov	w8, #3
	sub	x9, x2, #40
	lsl	x8, x8, x19
	cmp	x9, x8, lsr #2
	b.ls	.LBBfbb66151_147
	lsr	x8, x8, #2
	mov	w9, #43691
	mov	w1, #1
	movk	w9, #43690, lsl #16
	mov	x27, x25
	mov	w25, #1
	add	w8, w8, #1
	umull	x8, w8, w9
	lsr	x9, x8, #33
	ldp	x8, x23, [x24, #8]
	add	x20, x9, x9, lsl #1
	mov	x26, x9
	str	x8, [sp, #8]
	ldr	x8, [x24, #24]
	mov	x0, x20
	str	x8, [sp, #176]
	bl	rattle_alloc
	tbz	w0, #0, .LBBfbb66151_161
	mov	x21, x1
	add	x1, x24, #40
	ubfx	x28, x27, #48, #1
	sub	x9, x21, x1
	cmp	x9, x20
	b.hs	.LBBfbb66151_200
	mov	x9, xzr
	mov	x11, x26
	mov	x10, x21
.LBBfbb66151_124:
	add	x8, x1, x9
	add	x13, x10, x9
	subs	x11, x11, #1
	ldrb	w12, [x8, #2]
	ldrh	w8, [x8]
	add	x9, x9, #3
	strh	w8, [x13]
	mov	w8, #3
	strb	w12, [x13, #2]
	b.ne	.LBBfbb66151_124
	mov	w13, wzr
	mov	w21, wzr
	b	.LBBfbb66151_201
.LBBfbb66151_126:
	lsl	x20, x13, x19
	ldr	w10, [x1, #32]
	mov	x24, x0
	mov	x8, xzr
	mov	w9, wzr
	mov	w21, #8
	cmp	x20, x10
	mov	w13, #1
	b.lo	.LBBfbb66151_148
	ldr	w15, [x1, #36]
	mov	x22, x1
	mov	x10, x8
	mov	x11, x8
	mov	x12, x8
	mov	x23, x8
	mov	x14, x8
	mov	w28, w9
	mov	x0, x24
	cbnz	w15, .LBBfbb66151_75
	sub	x8, x2, #40
	cmp	x8, x20
	b.hs	.LBBfbb66151_149
	mov	w21, wzr
	mov	w9, wzr
	mov	x8, xzr
	mov	x10, xzr
	mov	x11, xzr
	mov	x12, xzr
	mov	x23, xzr
	mov	x14, xzr
	mov	w28, wzr
	b	.LBBfbb66151_243
.LBBfbb66151_130:
	mov	x8, xzr
	b	.LBBfbb66151_156
.LBBfbb66151_131:
	mov	x11, xzr
	mov	x12, x1
	mov	x13, x20
	b	.LBBfbb66151_133
.LBBfbb66151_132:
	add	x11, x11, #1
	cmp	x11, x28
	b.eq	.LBBfbb66151_156
.LBBfbb66151_133:
	subs	x13, x13, #4
	b.lo	.LBBfbb66151_205
	ldr	w14, [x12], #4
	cbz	w14, .LBBfbb66151_132
	lsr	w15, w14, #26
	cbz	w15, .LBBfbb66151_204
	and	w15, w14, #0x3ffffff
	mov	x16, x10
	mov	x17, x14
	lsr	w15, w15, w24
	orr	w15, w15, #0x1
.LBBfbb66151_137:
	and	x17, x17, x9
	ldr	w18, [x23, x17, lsl #2]
	cbz	w18, .LBBfbb66151_140
	cmp	w18, w14
	b.eq	.LBBfbb66151_140
	subs	x16, x16, #1
	add	x17, x17, x15
	b.ne	.LBBfbb66151_137
	b	.LBBfbb66151_142
.LBBfbb66151_140:
	cbnz	w18, .LBBfbb66151_204
	str	w14, [x23, x17, lsl #2]
	add	x8, x8, #1
	b	.LBBfbb66151_132
.LBBfbb66151_142:
	sub	x0, x29, #192
	mov	x2, x20
	mov	x3, x28
	mov	w4, w21
	stur	x8, [x29, #-184]
	bl	hll_coupons.hash_set.read_by_order.8a2f8b2564a2651f
	tst	w0, #0xff
	b.eq	.LBBfbb66151_155
	ldurb	w8, [x29, #-176]
	mov	w21, w1
	cbz	w8, .LBBfbb66151_208
	ldur	x8, [x29, #-152]
	cbz	x8, .LBBfbb66151_208
	ldur	x23, [x29, #-168]
	b	.LBBfbb66151_206
.LBBfbb66151_146:
	mov	x10, x8
	mov	x11, x8
	mov	x12, x8
	mov	x23, x8
	mov	x14, x8
	mov	w28, w9
	mov	x0, x22
	b	.LBBfbb66151_70
.LBBfbb66151_147:
	mov	w21, wzr
	mov	w9, wzr
	mov	x8, xzr
	mov	x10, xzr
	mov	x11, xzr
	mov	x12, xzr
	mov	x23, xzr
	mov	x14, xzr
	mov	w28, wzr
	mov	w13, #1
	mov	x0, x22
	b	.LBBfbb66151_70
.LBBfbb66151_148:
	mov	x10, x8
	mov	x11, x8
	mov	x12, x8
	mov	x23, x8
	mov	x14, x8
	mov	w28, w9
	mov	x0, x24
	b	.LBBfbb66151_75
.LBBfbb66151_149:
	lsr	x8, x20, #6
	add	x21, x22, #40
	cbz	x8, .LBBfbb66151_153
	movi	v0.2d, #0000000000000000
	movi	v1.2d, #0000000000000000
	add	x9, x22, #40
	movi	v2.2d, #0000000000000000
	movi	v3.2d, #0000000000000000
.LBBfbb66151_151:
	ldp	q5, q4, [x9]
	subs	x8, x8, #1
	ldp	q7, q6, [x9, #32]
	add	x9, x9, #64
	umax	v0.16b, v0.16b, v4.16b
	umax	v1.16b, v1.16b, v5.16b
	umax	v2.16b, v2.16b, v7.16b
	umax	v3.16b, v3.16b, v6.16b
	b.ne	.LBBfbb66151_151
	umax	v1.16b, v1.16b, v2.16b
	umax	v0.16b, v0.16b, v3.16b
	umax	v0.16b, v1.16b, v0.16b
	umaxv	b0, v0.16b
	fmov	w8, s0
.LBBfbb66151_153:
	cmp	w19, #5
	b.ls	.LBBfbb66151_162
	mov	w12, wzr
	b	.LBBfbb66151_234
.LBBfbb66151_155:
	ldur	x8, [x29, #-184]
.LBBfbb66151_156:
	cmp	x8, x22
	b.ne	.LBBfbb66151_158
	ldur	x16, [x29, #-192]
	ldurb	w8, [x29, #-176]
	mov	w13, wzr
	ldur	w9, [x29, #-172]
	ldp	x11, x25, [x29, #-168]
	ldur	x12, [x29, #-152]
	mov	w21, wzr
	mov	x17, xzr
	ldur	w23, [x29, #-144]
	ldr	x0, [sp, #200]
	mov	x18, xzr
	mov	w28, wzr
	mov	x3, xzr
	mov	x4, xzr
	and	x15, x16, #0xffffffffffffff00
	orr	x10, x8, x9, lsl #32
	mov	w8, #1
	mov	w9, w19
	mov	x14, x26
	b	.LBBfbb66151_82
.LBBfbb66151_158:
	ldurb	w8, [x29, #-176]
	mov	w21, #8
	cbz	w8, .LBBfbb66151_208
	ldur	x8, [x29, #-152]
	cbz	x8, .LBBfbb66151_208
	ldur	x0, [x29, #-168]
	b	.LBBfbb66151_207
.LBBfbb66151_161:
	mov	w9, wzr
	mov	x8, xzr
	mov	x10, xzr
	mov	x11, xzr
	mov	x12, xzr
	mov	x23, xzr
	mov	x14, xzr
	mov	w28, wzr
	mov	w21, #12
	mov	w13, w25
	mov	x0, x22
	b	.LBBfbb66151_70
.LBBfbb66151_162:
	and	x9, x20, #0x3f
	and	x10, x20, #0xffffffc0
	cmp	x9, #4
	b.hs	.LBBfbb66151_202
	mov	w12, wzr
	mov	x11, xzr
	b	.LBBfbb66151_232
.LBBfbb66151_164:
	mov	x28, xzr
	b	.LBBfbb66151_166
.LBBfbb66151_165:
	ldr	x8, [sp, #184]
	mov	w9, #1
	ubfx	x8, x8, #24, #5
	lsl	x28, x9, x8
.LBBfbb66151_166:
	sub	w8, w19, #1
	mov	w13, #1
	sub	x9, x2, #40
	lsl	x8, x13, x8
	subs	x22, x9, x8
	str	x8, [sp, #152]
	b.hs	.LBBfbb66151_168
	ldr	x0, [sp, #200]
	mov	w21, wzr
	mov	w9, wzr
	mov	x8, xzr
	mov	w16, wzr
	mov	x15, xzr
	mov	x22, xzr
	mov	x10, xzr
	mov	x11, xzr
	mov	x25, xzr
	mov	x12, xzr
	mov	w23, wzr
	mov	x17, xzr
	mov	x14, xzr
	mov	x18, xzr
	mov	w28, wzr
	mov	x3, xzr
	mov	x4, xzr
	b	.LBBfbb66151_82
.LBBfbb66151_168:
	cmp	x22, x28, lsl #2
	b.hs	.LBBfbb66151_170
.LBBfbb66151_169:
	mov	w21, wzr
	b	.LBBfbb66151_208
.LBBfbb66151_170:
	movi	v0.2d, #0000000000000000
	ldur	x8, [x29, #-8]
	stp	xzr, xzr, [x29, #-48]
	stur	xzr, [x29, #-56]
	add	x8, x8, #40
	str	xzr, [sp, #336]
	str	x8, [sp]
	stur	q0, [x27, #8]
	stur	q0, [x27, #24]
	stur	q0, [x27, #40]
	stur	q0, [x27, #56]
	stur	q0, [x27, #72]
	stur	q0, [x27, #88]
	stur	q0, [x27, #104]
	stur	q0, [x27, #120]
	stp	q0, q0, [sp, #208]
	stp	q0, q0, [sp, #240]
	stp	q0, q0, [sp, #272]
	stp	q0, q0, [sp, #304]
	stur	xzr, [x29, #-192]
	cbz	x28, .LBBfbb66151_210
	ldr	x8, [sp, #192]
	ldr	x10, [sp]
	mov	x24, xzr
	str	xzr, [sp, #112]
	sub	w9, w8, #1
	ldr	x8, [sp, #152]
	add	x23, x10, x8
	and	w8, w9, #0x3ffffff
	str	w8, [sp, #96]
.LBBfbb66151_172:
	ldr	x8, [sp, #160]
	tbz	w8, #0, .LBBfbb66151_180
	subs	x22, x22, #4
	b.lo	.LBBfbb66151_214
	ldr	w8, [x23], #4
	cbz	w8, .LBBfbb66151_194
.LBBfbb66151_175:
	lsr	w9, w8, #26
	str	w9, [sp, #80]
	cbz	w9, .LBBfbb66151_194
	ldurb	w9, [x29, #-192]
	cmp	w9, #1
	ldr	w9, [sp, #96]
	and	w25, w9, w8
	b.ne	.LBBfbb66151_195
	ldurb	w8, [x29, #-160]
	cbz	w8, .LBBfbb66151_184
	ldur	x9, [x29, #-144]
	mov	w8, #256
	cmp	x9, #256
	csel	x8, x9, x8, lo
	cbz	x9, .LBBfbb66151_189
	ldur	x9, [x29, #-152]
	b	.LBBfbb66151_185
.LBBfbb66151_180:
	add	x23, x23, #4
.LBBfbb66151_181:
	subs	x22, x22, #4
	b.lo	.LBBfbb66151_214
	ldur	w8, [x23, #-4]
	cbnz	w8, .LBBfbb66151_175
	add	x24, x24, #1
	add	x23, x23, #4
	cmp	x24, x28
	b.lo	.LBBfbb66151_181
	b	.LBBfbb66151_198
.LBBfbb66151_184:
	sub	x9, x29, #192
	mov	w8, #8
	add	x9, x9, #36
.LBBfbb66151_185:
	ldur	x10, [x29, #-176]
	mov	x11, #-1
	lsr	w12, w25, w10
	lsl	x11, x11, x10
	orr	w10, w12, #0x1
	mvn	x11, x11
	mov	x12, x25
.LBBfbb66151_186:
	and	x12, x12, x11
	ldr	w13, [x9, x12, lsl #2]
	cbz	w13, .LBBfbb66151_190
	and	w14, w13, #0x3ffffff
	cmp	w14, w25
	b.eq	.LBBfbb66151_190
	subs	x8, x8, #1
	add	x12, x12, x10
	b.ne	.LBBfbb66151_186
.LBBfbb66151_189:
	sub	x8, x29, #192
	mov	w2, w25
	add	x0, x8, #8
	add	x1, x8, #104
	bl	hll_coupons.aux_map_builder.has_mark.8a2f8b2564a2651f
	mov	w21, w1
	b	.LBBfbb66151_191
.LBBfbb66151_190:
	cmp	w13, #0
	mov	w0, wzr
	cset	w21, ne
.LBBfbb66151_191:
	tst	w0, #0xff
	b.eq	.LBBfbb66151_193
	mov	w0, #1
	b	.LBBfbb66151_196
.LBBfbb66151_193:
	tbz	w21, #0, .LBBfbb66151_195
.LBBfbb66151_194:
	mov	w21, #9
	mov	w0, #1
	b	.LBBfbb66151_196
.LBBfbb66151_195:
	ldr	w3, [sp, #80]
	sub	x0, x29, #192
	mov	w1, w19
	mov	w2, w25
	bl	hll_registers.exception_map.add_exception.8a2f8b2564a2651f
	mov	w21, w1
.LBBfbb66151_196:
	tst	w0, #0xff
	b.ne	.LBBfbb66151_284
	ldr	x8, [sp, #112]
	add	x24, x24, #1
	cmp	x24, x28
	add	x8, x8, #1
	str	x8, [sp, #112]
	b.lo	.LBBfbb66151_172
.LBBfbb66151_198:
	ldr	x9, [sp, #112]
	ldurb	w8, [x29, #-192]
	cmp	x9, x26
	b.ne	.LBBfbb66151_252
	ldurb	w9, [x29, #-88]
	b	.LBBfbb66151_212
.LBBfbb66151_200:
	mov	x0, x21
	mov	x2, x20
	bl	memmove
	mov	x10, x21
	mov	w13, wzr
	mov	w21, wzr
	mov	w8, #3
.LBBfbb66151_201:
	ldr	x12, [sp, #8]
	ldr	x14, [sp, #176]
	mov	w9, w19
	mov	x0, x22
	mov	x11, x26
	b	.LBBfbb66151_70
.LBBfbb66151_202:
	cmp	x9, #32
	b.hs	.LBBfbb66151_225
	mov	x11, xzr
	mov	w12, wzr
	b	.LBBfbb66151_229
.LBBfbb66151_204:
	mov	w21, #9
	b	.LBBfbb66151_206
.LBBfbb66151_205:
	mov	w21, wzr
.LBBfbb66151_206:
	mov	x0, x23
.LBBfbb66151_207:
	bl	rattle_dealloc
.LBBfbb66151_208:
	mov	w9, wzr
	mov	x8, xzr
	mov	w16, wzr
	mov	x15, xzr
	mov	x22, xzr
	mov	x10, xzr
	mov	x11, xzr
	mov	x25, xzr
	mov	x12, xzr
	mov	w23, wzr
	mov	x17, xzr
	mov	x14, xzr
	mov	x18, xzr
	mov	w28, wzr
	mov	x3, xzr
	mov	x4, xzr
.LBBfbb66151_209:
	ldr	x0, [sp, #200]
	b	.LBBfbb66151_81
.LBBfbb66151_210:
	cbnz	w26, .LBBfbb66151_208
	mov	x9, xzr
	mov	x8, xzr
.LBBfbb66151_212:
	sub	x10, x29, #192
	str	x8, [sp, #208]
	add	x8, sp, #41
	ldur	q0, [x10, #8]
	ldur	q1, [x10, #24]
	sub	x0, x29, #56
	add	x1, sp, #208
	str	x9, [sp, #312]
	stur	q0, [sp, #216]
	ldur	q0, [x10, #40]
	stur	q1, [sp, #232]
	ldur	q1, [x10, #56]
	add	x10, sp, #9
	stur	q0, [sp, #248]
	ldur	q0, [x27, #72]
	stur	q1, [x10, #255]
	add	x10, sp, #25
	stur	q0, [x10, #255]
	ldur	q0, [x27, #88]
	stur	q0, [x8, #255]
	ldur	q0, [x29, #-80]
	ldur	x8, [x29, #-64]
	str	q0, [sp, #320]
	str	x8, [sp, #336]
	bl	hll_registers.exception_map.built.8a2f8b2564a2651f
	ldurb	w8, [x29, #-56]
	cbz	w8, .LBBfbb66151_263
	ldurb	w21, [x29, #-55]
	b	.LBBfbb66151_208
.LBBfbb66151_214:
	ldurb	w8, [x29, #-192]
	cmp	w8, #1
	b.ne	.LBBfbb66151_169
	ldp	x20, x25, [x29, #-112]
	ldurb	w8, [x29, #-160]
	ldur	x24, [x29, #-96]
	ldurb	w23, [x29, #-88]
	ldur	x19, [x29, #-80]
	ldur	x22, [x29, #-64]
	cbz	w8, .LBBfbb66151_218
	ldur	x8, [x29, #-136]
	cbz	x8, .LBBfbb66151_218
	ldur	x0, [x29, #-152]
	bl	rattle_dealloc
.LBBfbb66151_218:
	cbz	x25, .LBBfbb66151_247
	add	x26, x20, #40
	b	.LBBfbb66151_221
.LBBfbb66151_220:
	subs	x25, x25, #1
	add	x26, x26, #72
	b.eq	.LBBfbb66151_247
.LBBfbb66151_221:
	ldp	x8, x21, [x26]
	ldr	x27, [x26, #24]
	cbz	x8, .LBBfbb66151_223
	ldur	x0, [x26, #-16]
	bl	rattle_dealloc
.LBBfbb66151_223:
	cbz	x27, .LBBfbb66151_220
	mov	x0, x21
	bl	rattle_dealloc
	b	.LBBfbb66151_220
.LBBfbb66151_225:
	movi	v0.2d, #0000000000000000
	movi	v1.2d, #0000000000000000
	add	x12, x10, x22
	and	x13, x20, #0x1c
	and	x11, x20, #0x20
	add	x12, x12, #56
	and	x14, x20, #0x20
.LBBfbb66151_226:
	ldp	q2, q3, [x12, #-16]
	subs	x14, x14, #32
	add	x12, x12, #32
	umax	v0.16b, v2.16b, v0.16b
	umax	v1.16b, v3.16b, v1.16b
	b.ne	.LBBfbb66151_226
	umax	v0.16b, v0.16b, v1.16b
	cmp	x9, x11
	umaxv	b0, v0.16b
	fmov	w12, s0
	b.eq	.LBBfbb66151_234
	cbz	x13, .LBBfbb66151_232
.LBBfbb66151_229:
	dup	v0.4h, w12
	add	x12, x11, x10
	mov	x13, x11
	and	x11, x20, #0x3c
	add	x14, x12, x22
	sub	x12, x13, x11
	add	x13, x14, #40
.LBBfbb66151_230:
	ldr	s1, [x13], #4
	bic	v0.4h, #255, lsl #8
	adds	x12, x12, #4
	ushll	v1.8h, v1.8b, #0
	umax	v0.4h, v1.4h, v0.4h
	b.ne	.LBBfbb66151_230
	umaxv	h0, v0.4h
	cmp	x9, x11
	fmov	w12, s0
	b.eq	.LBBfbb66151_234
.LBBfbb66151_232:
	add	x10, x11, x10
	sub	x9, x9, x11
	add	x10, x10, x22
	add	x10, x10, #40
.LBBfbb66151_233:
	ldrb	w11, [x10], #1
	and	w12, w12, #0xff
	cmp	w11, w12
	csel	w12, w11, w12, hi
	subs	x9, x9, #1
	b.ne	.LBBfbb66151_233
.LBBfbb66151_234:
	and	w9, w12, #0xff
	and	w8, w8, #0xff
	cmp	w8, w9
	csel	w8, w8, w9, hi
	cmp	w8, #63
	b.hi	.LBBfbb66151_242
	ldp	x27, x23, [x22, #8]
	mov	x0, x20
	ldr	x8, [x22, #24]
	mov	w1, #1
	mov	w26, #1
	str	x8, [sp, #176]
	bl	rattle_alloc
	tbz	w0, #0, .LBBfbb66151_244
	sub	x8, x1, x21
	ubfx	x28, x25, #48, #1
	cmp	x8, x20
	b.hs	.LBBfbb66151_245
	cmp	w19, #2
	b.ls	.LBBfbb66151_239
	sub	x8, x1, x22
	sub	x8, x8, #40
	cmp	x8, #32
	b.hs	.LBBfbb66151_268
.LBBfbb66151_239:
	mov	x9, xzr
.LBBfbb66151_240:
	ldrb	w8, [x21, x9]
	strb	w8, [x1, x9]
	add	x9, x9, #1
	mov	w8, #4
	cmp	x20, x9
	b.ne	.LBBfbb66151_240
.LBBfbb66151_241:
	mov	w13, wzr
	mov	w21, wzr
	mov	w9, w19
	mov	x11, x20
	mov	x0, x24
	mov	x12, x27
	mov	x10, x1
	b	.LBBfbb66151_246
.LBBfbb66151_242:
	mov	w9, wzr
	mov	x8, xzr
	mov	x10, xzr
	mov	x11, xzr
	mov	x12, xzr
	mov	x23, xzr
	mov	x14, xzr
	mov	w28, wzr
	mov	w21, #10
.LBBfbb66151_243:
	mov	w13, #1
	mov	x0, x24
	b	.LBBfbb66151_75
.LBBfbb66151_244:
	mov	w9, wzr
	mov	x8, xzr
	mov	x10, xzr
	mov	x11, xzr
	mov	x12, xzr
	mov	x23, xzr
	mov	x14, xzr
	mov	w28, wzr
	mov	w21, #12
	mov	w13, w26
	mov	x0, x24
	b	.LBBfbb66151_75
.LBBfbb66151_245:
	mov	x22, x1
	mov	x0, x1
	mov	x1, x21
	mov	x2, x20
	bl	memmove
	mov	x10, x22
	mov	w13, wzr
	mov	w21, wzr
	mov	w8, #4
	mov	w9, w19
	mov	x11, x20
	mov	x0, x24
	mov	x12, x27
.LBBfbb66151_246:
	ldr	x14, [sp, #176]
	b	.LBBfbb66151_75
.LBBfbb66151_247:
	cbz	x24, .LBBfbb66151_249
	mov	x0, x20
	bl	rattle_dealloc
.LBBfbb66151_249:
	cmp	w23, #1
	mov	w21, wzr
	b.ne	.LBBfbb66151_208
	cbz	x22, .LBBfbb66151_208
	mov	x0, x19
	bl	rattle_dealloc
	mov	w21, wzr
	b	.LBBfbb66151_208
.LBBfbb66151_252:
	cmp	w8, #1
	b.ne	.LBBfbb66151_271
	ldp	x20, x25, [x29, #-112]
	ldurb	w8, [x29, #-160]
	ldur	x24, [x29, #-96]
	ldurb	w23, [x29, #-88]
	ldur	x19, [x29, #-80]
	ldur	x22, [x29, #-64]
	cbz	w8, .LBBfbb66151_256
	ldur	x8, [x29, #-136]
	cbz	x8, .LBBfbb66151_256
	ldur	x0, [x29, #-152]
	bl	rattle_dealloc
.LBBfbb66151_256:
	cbz	x25, .LBBfbb66151_272
	add	x26, x20, #40
	b	.LBBfbb66151_259
.LBBfbb66151_258:
	subs	x25, x25, #1
	add	x26, x26, #72
	b.eq	.LBBfbb66151_272
.LBBfbb66151_259:
	ldp	x8, x21, [x26]
	ldr	x27, [x26, #24]
	cbz	x8, .LBBfbb66151_261
	ldur	x0, [x26, #-16]
	bl	rattle_dealloc
.LBBfbb66151_261:
	cbz	x27, .LBBfbb66151_258
	mov	x0, x21
	bl	rattle_dealloc
	b	.LBBfbb66151_258
.LBBfbb66151_263:
	ldr	x8, [sp, #152]
	ldurb	w25, [x29, #-48]
	lsr	x23, x8, #6
	ldur	x8, [x29, #-40]
	str	x8, [sp, #8]
	cbz	x23, .LBBfbb66151_277
	ldur	x8, [x29, #-8]
	mov	w21, wzr
	mov	w22, wzr
	add	x24, x8, #56
	b	.LBBfbb66151_266
.LBBfbb66151_265:
	ldp	q3, q2, [sp, #16]
	movi	v0.16b, #1
	movi	v1.16b, #16
	ldp	q5, q4, [sp, #48]
	subs	x23, x23, #1
	add	x24, x24, #64
	add	w22, w8, w22
	cmeq	v2.16b, v2.16b, #0
	cmeq	v3.16b, v3.16b, #0
	cmeq	v5.16b, v5.16b, #0
	cmhi	v4.16b, v1.16b, v4.16b
	and	v2.16b, v2.16b, v0.16b
	and	v0.16b, v3.16b, v0.16b
	ldr	q3, [sp, #96]
	cmhi	v3.16b, v1.16b, v3.16b
	sub	v2.16b, v2.16b, v4.16b
	ldr	q4, [sp, #160]
	sub	v0.16b, v0.16b, v3.16b
	ldr	q3, [sp, #112]
	cmhi	v3.16b, v1.16b, v3.16b
	cmhi	v1.16b, v1.16b, v4.16b
	ldr	q4, [sp, #80]
	cmeq	v4.16b, v4.16b, #0
	sub	v2.16b, v2.16b, v3.16b
	sub	v0.16b, v0.16b, v1.16b
	sub	v1.16b, v2.16b, v4.16b
	sub	v0.16b, v0.16b, v5.16b
	add	v0.16b, v0.16b, v1.16b
	addv	b0, v0.16b
	fmov	w9, s0
	add	w21, w21, w9, uxtb
	b.eq	.LBBfbb66151_278
.LBBfbb66151_266:
	movi	v0.16b, #15
	ldp	q6, q5, [x24, #16]
	ldr	q7, [x24]
	mov	x0, x24
	adrp	x8, .LCPIfbb66151_0
	ldr	q16, [x0, #-16]!
	ushr	v3.16b, v6.16b, #4
	stp	q7, q6, [sp, #96]
	ushr	v1.16b, v7.16b, #4
	and	v6.16b, v6.16b, v0.16b
	ushr	v2.16b, v5.16b, #4
	ushr	v4.16b, v16.16b, #4
	and	v7.16b, v7.16b, v0.16b
	str	q5, [sp, #160]
	and	v5.16b, v5.16b, v0.16b
	stp	q16, q6, [sp, #64]
	and	v16.16b, v16.16b, v0.16b
	umax	v3.16b, v6.16b, v3.16b
	umax	v2.16b, v5.16b, v2.16b
	umax	v1.16b, v7.16b, v1.16b
	str	q7, [sp, #16]
	umax	v4.16b, v16.16b, v4.16b
	stp	q16, q5, [sp, #32]
	umax	v1.16b, v1.16b, v2.16b
	umax	v2.16b, v4.16b, v3.16b
	umax	v1.16b, v2.16b, v1.16b
	cmeq	v0.16b, v1.16b, v0.16b
	ldr	q1, [x8, :lo12:.LCPIfbb66151_0]
	and	v0.16b, v0.16b, v1.16b
	addp	v0.16b, v0.16b, v0.16b
	addp	v0.16b, v0.16b, v0.16b
	addp	v0.16b, v0.16b, v0.16b
	umov	w8, v0.h[0]
	cbz	w8, .LBBfbb66151_265
	bl	hll_kernels.nibbles.some_mark_nibbles_in
	and	w8, w0, #0xff
	b	.LBBfbb66151_265
.LBBfbb66151_268:
	cmp	w19, #5
	b.hs	.LBBfbb66151_282
	mov	x9, xzr
	and	x10, x20, #0xf8
.LBBfbb66151_270:
	ldr	d0, [x21, x9]
	mov	w8, #4
	str	d0, [x1, x9]
	add	x9, x9, #8
	cmp	x10, x9
	b.ne	.LBBfbb66151_270
	b	.LBBfbb66151_241
.LBBfbb66151_271:
	mov	w21, #8
	b	.LBBfbb66151_208
.LBBfbb66151_272:
	cbz	x24, .LBBfbb66151_274
	mov	x0, x20
	bl	rattle_dealloc
.LBBfbb66151_274:
	cmp	w23, #1
	mov	w21, #8
	b.ne	.LBBfbb66151_208
	cbz	x22, .LBBfbb66151_208
.LBBfbb66151_276:
	mov	x0, x19
	b	.LBBfbb66151_207
.LBBfbb66151_277:
	mov	w22, wzr
	mov	w21, wzr
.LBBfbb66151_278:
	sub	w8, w19, #1
	and	w8, w8, #0xff
	cmp	w8, #5
	b.ls	.LBBfbb66151_280
	mov	w13, wzr
	b	.LBBfbb66151_324
.LBBfbb66151_280:
	ldr	x9, [sp, #152]
	and	x8, x9, #0x3f
	and	x9, x9, #0x7fffffffffffffc0
	cmp	x8, #4
	b.hs	.LBBfbb66151_295
	mov	w10, wzr
	mov	x11, xzr
	b	.LBBfbb66151_308
.LBBfbb66151_282:
	and	x9, x20, #0xffffffe0
	add	x10, x22, #56
	add	x11, x1, #16
.LBBfbb66151_283:
	ldp	q0, q1, [x10, #-16]
	subs	x9, x9, #32
	add	x10, x10, #32
	mov	w8, #4
	stp	q0, q1, [x11, #-16]
	add	x11, x11, #32
	b.ne	.LBBfbb66151_283
	b	.LBBfbb66151_241
.LBBfbb66151_284:
	ldurb	w8, [x29, #-192]
	cmp	w8, #1
	b.ne	.LBBfbb66151_208
	ldp	x20, x26, [x29, #-112]
	ldurb	w8, [x29, #-160]
	ldur	x25, [x29, #-96]
	ldurb	w24, [x29, #-88]
	ldur	x19, [x29, #-80]
	ldur	x23, [x29, #-64]
	cbz	w8, .LBBfbb66151_288
	ldur	x8, [x29, #-136]
	cbz	x8, .LBBfbb66151_288
	ldur	x0, [x29, #-152]
	bl	rattle_dealloc
.LBBfbb66151_288:
	cbz	x26, .LBBfbb66151_297
	add	x27, x20, #40
	b	.LBBfbb66151_291
.LBBfbb66151_290:
	subs	x26, x26, #1
	add	x27, x27, #72
	b.eq	.LBBfbb66151_297
.LBBfbb66151_291:
	ldp	x8, x22, [x27]
	ldr	x28, [x27, #24]
	cbz	x8, .LBBfbb66151_293
	ldur	x0, [x27, #-16]
	bl	rattle_dealloc
.LBBfbb66151_293:
	cbz	x28, .LBBfbb66151_290
	mov	x0, x22
	bl	rattle_dealloc
	b	.LBBfbb66151_290
.LBBfbb66151_295:
	cmp	x8, #32
	b.hs	.LBBfbb66151_301
	mov	x11, xzr
	mov	w10, wzr
	b	.LBBfbb66151_305
.LBBfbb66151_297:
	cbz	x25, .LBBfbb66151_299
	mov	x0, x20
	bl	rattle_dealloc
.LBBfbb66151_299:
	cmp	w24, #1
	b.ne	.LBBfbb66151_208
	cbnz	x23, .LBBfbb66151_276
	b	.LBBfbb66151_208
.LBBfbb66151_301:
	movi	v0.2d, #0000000000000000
	movi	v2.2d, #0000000000000000
	ldur	x10, [x29, #-8]
	movi	v3.2d, #0000000000000000
	movi	v4.2d, #0000000000000000
	ldr	x13, [sp, #152]
	movi	v5.2d, #0000000000000000
	movi	v6.2d, #0000000000000000
	add	x10, x9, x10
	movi	v1.2d, #0000000000000000
	movi	v7.2d, #0000000000000000
	and	x12, x13, #0x1c
	and	x11, x13, #0x20
	add	x10, x10, #56
	and	x13, x13, #0x20
.LBBfbb66151_302:
	movi	v16.16b, #15
	movi	v17.16b, #16
	subs	x13, x13, #32
	ldp	q18, q19, [x10, #-16]
	movi	v21.4s, #1
	add	x10, x10, #32
	and	v20.16b, v18.16b, v16.16b
	and	v16.16b, v19.16b, v16.16b
	cmhi	v18.16b, v17.16b, v18.16b
	cmhi	v17.16b, v17.16b, v19.16b
	cmeq	v20.16b, v20.16b, #0
	cmeq	v16.16b, v16.16b, #0
	ushll2	v19.8h, v18.16b, #0
	ushll	v18.8h, v18.8b, #0
	ushll2	v23.8h, v17.16b, #0
	ushll	v17.8h, v17.8b, #0
	ushll	v22.8h, v20.8b, #0
	ushll2	v20.8h, v20.16b, #0
	ushll	v24.8h, v16.8b, #0
	ushll2	v16.8h, v16.16b, #0
	ushll2	v25.4s, v19.8h, #0
	ushll	v19.4s, v19.4h, #0
	ushll2	v29.4s, v18.8h, #0
	ushll	v18.4s, v18.4h, #0
	ushll2	v31.4s, v23.8h, #0
	ushll	v23.4s, v23.4h, #0
	ushll2	v8.4s, v17.8h, #0
	ushll	v17.4s, v17.4h, #0
	ushll	v26.4s, v22.4h, #0
	ushll2	v22.4s, v22.8h, #0
	ushll	v27.4s, v20.4h, #0
	ushll2	v20.4s, v20.8h, #0
	ushll	v28.4s, v24.4h, #0
	ushll2	v24.4s, v24.8h, #0
	ushll	v30.4s, v16.4h, #0
	ushll2	v16.4s, v16.8h, #0
	and	v25.16b, v25.16b, v21.16b
	and	v19.16b, v19.16b, v21.16b
	and	v29.16b, v29.16b, v21.16b
	and	v18.16b, v18.16b, v21.16b
	and	v31.16b, v31.16b, v21.16b
	and	v23.16b, v23.16b, v21.16b
	and	v8.16b, v8.16b, v21.16b
	and	v17.16b, v17.16b, v21.16b
	and	v26.16b, v26.16b, v21.16b
	and	v22.16b, v22.16b, v21.16b
	and	v27.16b, v27.16b, v21.16b
	and	v20.16b, v20.16b, v21.16b
	and	v28.16b, v28.16b, v21.16b
	and	v24.16b, v24.16b, v21.16b
	and	v30.16b, v30.16b, v21.16b
	and	v16.16b, v16.16b, v21.16b
	add	v4.4s, v4.4s, v19.4s
	add	v5.4s, v5.4s, v25.4s
	add	v2.4s, v2.4s, v18.4s
	add	v3.4s, v3.4s, v29.4s
	add	v7.4s, v7.4s, v31.4s
	add	v6.4s, v6.4s, v17.4s
	add	v0.4s, v0.4s, v8.4s
	add	v1.4s, v1.4s, v23.4s
	add	v5.4s, v5.4s, v20.4s
	add	v4.4s, v4.4s, v27.4s
	add	v2.4s, v2.4s, v26.4s
	add	v3.4s, v3.4s, v22.4s
	add	v7.4s, v7.4s, v16.4s
	add	v6.4s, v6.4s, v28.4s
	add	v1.4s, v1.4s, v30.4s
	add	v0.4s, v0.4s, v24.4s
	b.ne	.LBBfbb66151_302
	add	v0.4s, v0.4s, v3.4s
	add	v3.4s, v7.4s, v5.4s
	cmp	x8, x11
	add	v2.4s, v6.4s, v2.4s
	add	v1.4s, v1.4s, v4.4s
	add	v0.4s, v0.4s, v3.4s
	add	v1.4s, v2.4s, v1.4s
	add	v0.4s, v1.4s, v0.4s
	addv	s0, v0.4s
	fmov	w10, s0
	b.eq	.LBBfbb66151_310
	cbz	x12, .LBBfbb66151_308
.LBBfbb66151_305:
	movi	v0.2d, #0000000000000000
	mov	x12, x11
	add	x13, x11, x9
	mov	v0.s[0], w10
	ldr	x10, [sp, #152]
	and	x11, x10, #0x3c
	ldur	x10, [x29, #-8]
	add	x13, x13, x10
	sub	x10, x12, x11
	add	x12, x13, #40
.LBBfbb66151_306:
	ldr	s1, [x12], #4
	movi	v2.4h, #16
	adds	x10, x10, #4
	ushll	v1.8h, v1.8b, #0
	fmov	d3, d1
	cmhi	v1.4h, v2.4h, v1.4h
	movi	v2.4s, #1
	ushll	v1.4s, v1.4h, #0
	bic	v3.4h, #240
	and	v1.16b, v1.16b, v2.16b
	cmeq	v3.4h, v3.4h, #0
	add	v0.4s, v0.4s, v1.4s
	ushll	v3.4s, v3.4h, #0
	and	v2.16b, v3.16b, v2.16b
	add	v0.4s, v0.4s, v2.4s
	b.ne	.LBBfbb66151_306
	addv	s0, v0.4s
	cmp	x8, x11
	fmov	w10, s0
	b.eq	.LBBfbb66151_310
.LBBfbb66151_308:
	ldur	x12, [x29, #-8]
	add	x13, x11, x9
	sub	x11, x8, x11
	add	x12, x13, x12
	add	x12, x12, #40
.LBBfbb66151_309:
	ldrb	w13, [x12], #1
	cmp	w13, #16
	cinc	w10, w10, lo
	tst	w13, #0xf
	cinc	w10, w10, eq
	subs	x11, x11, #1
	b.ne	.LBBfbb66151_309
.LBBfbb66151_310:
	cmp	x8, #4
	b.hs	.LBBfbb66151_312
	mov	w13, wzr
	mov	x11, xzr
	b	.LBBfbb66151_321
.LBBfbb66151_312:
	cmp	x8, #32
	b.hs	.LBBfbb66151_314
	mov	x11, xzr
	mov	w13, wzr
	b	.LBBfbb66151_318
.LBBfbb66151_314:
	movi	v0.2d, #0000000000000000
	movi	v2.2d, #0000000000000000
	ldur	x11, [x29, #-8]
	movi	v3.2d, #0000000000000000
	movi	v4.2d, #0000000000000000
	ldr	x14, [sp, #152]
	movi	v5.2d, #0000000000000000
	movi	v6.2d, #0000000000000000
	add	x13, x9, x11
	movi	v1.2d, #0000000000000000
	movi	v7.2d, #0000000000000000
	and	x12, x14, #0x1c
	and	x11, x14, #0x20
	add	x13, x13, #56
	and	x14, x14, #0x20
.LBBfbb66151_315:
	movi	v16.16b, #15
	movi	v17.16b, #239
	subs	x14, x14, #32
	ldp	q18, q19, [x13, #-16]
	add	x13, x13, #32
	and	v20.16b, v18.16b, v16.16b
	and	v21.16b, v19.16b, v16.16b
	cmhi	v18.16b, v18.16b, v17.16b
	cmhi	v17.16b, v19.16b, v17.16b
	cmeq	v20.16b, v20.16b, v16.16b
	cmeq	v16.16b, v21.16b, v16.16b
	ushll2	v19.8h, v18.16b, #0
	ushll	v18.8h, v18.8b, #0
	ushll2	v23.8h, v17.16b, #0
	ushll	v17.8h, v17.8b, #0
	movi	v21.4s, #1
	ushll	v22.8h, v20.8b, #0
	ushll2	v20.8h, v20.16b, #0
	ushll	v24.8h, v16.8b, #0
	ushll2	v16.8h, v16.16b, #0
	ushll2	v25.4s, v19.8h, #0
	ushll	v19.4s, v19.4h, #0
	ushll2	v29.4s, v18.8h, #0
	ushll	v18.4s, v18.4h, #0
	ushll2	v31.4s, v23.8h, #0
	ushll	v23.4s, v23.4h, #0
	ushll2	v8.4s, v17.8h, #0
	ushll	v17.4s, v17.4h, #0
	ushll	v26.4s, v22.4h, #0
	ushll2	v22.4s, v22.8h, #0
	ushll	v27.4s, v20.4h, #0
	ushll2	v20.4s, v20.8h, #0
	ushll	v28.4s, v24.4h, #0
	ushll2	v24.4s, v24.8h, #0
	ushll	v30.4s, v16.4h, #0
	ushll2	v16.4s, v16.8h, #0
	and	v25.16b, v25.16b, v21.16b
	and	v19.16b, v19.16b, v21.16b
	and	v29.16b, v29.16b, v21.16b
	and	v18.16b, v18.16b, v21.16b
	and	v31.16b, v31.16b, v21.16b
	and	v23.16b, v23.16b, v21.16b
	and	v8.16b, v8.16b, v21.16b
	and	v17.16b, v17.16b, v21.16b
	and	v26.16b, v26.16b, v21.16b
	and	v22.16b, v22.16b, v21.16b
	and	v27.16b, v27.16b, v21.16b
	and	v20.16b, v20.16b, v21.16b
	and	v28.16b, v28.16b, v21.16b
	and	v24.16b, v24.16b, v21.16b
	and	v30.16b, v30.16b, v21.16b
	and	v16.16b, v16.16b, v21.16b
	add	v4.4s, v4.4s, v19.4s
	add	v5.4s, v5.4s, v25.4s
	add	v2.4s, v2.4s, v18.4s
	add	v3.4s, v3.4s, v29.4s
	add	v7.4s, v7.4s, v31.4s
	add	v6.4s, v6.4s, v17.4s
	add	v0.4s, v0.4s, v8.4s
	add	v1.4s, v1.4s, v23.4s
	add	v5.4s, v5.4s, v20.4s
	add	v4.4s, v4.4s, v27.4s
	add	v2.4s, v2.4s, v26.4s
	add	v3.4s, v3.4s, v22.4s
	add	v7.4s, v7.4s, v16.4s
	add	v6.4s, v6.4s, v28.4s
	add	v1.4s, v1.4s, v30.4s
	add	v0.4s, v0.4s, v24.4s
	b.ne	.LBBfbb66151_315
	add	v0.4s, v0.4s, v3.4s
	add	v3.4s, v7.4s, v5.4s
	cmp	x8, x11
	add	v2.4s, v6.4s, v2.4s
	add	v1.4s, v1.4s, v4.4s
	add	v0.4s, v0.4s, v3.4s
	add	v1.4s, v2.4s, v1.4s
	add	v0.4s, v1.4s, v0.4s
	addv	s0, v0.4s
	fmov	w13, s0
	b.eq	.LBBfbb66151_323
	cbz	x12, .LBBfbb66151_321
.LBBfbb66151_318:
	movi	v0.2d, #0000000000000000
	mov	x14, x11
	ldur	x12, [x29, #-8]
	mov	v0.s[0], w13
	add	x13, x11, x9
	ldr	x11, [sp, #152]
	add	x13, x13, x12
	and	x11, x11, #0x3c
	add	x13, x13, #40
	sub	x12, x14, x11
.LBBfbb66151_319:
	ldr	s1, [x13], #4
	movi	v2.4h, #239
	movi	v4.4h, #15
	adds	x12, x12, #4
	ushll	v1.8h, v1.8b, #0
	fmov	d3, d1
	cmhi	v1.4h, v1.4h, v2.4h
	movi	v2.4s, #1
	ushll	v1.4s, v1.4h, #0
	bic	v3.4h, #240
	and	v1.16b, v1.16b, v2.16b
	cmeq	v3.4h, v3.4h, v4.4h
	add	v0.4s, v0.4s, v1.4s
	ushll	v3.4s, v3.4h, #0
	and	v2.16b, v3.16b, v2.16b
	add	v0.4s, v0.4s, v2.4s
	b.ne	.LBBfbb66151_319
	addv	s0, v0.4s
	cmp	x8, x11
	fmov	w13, s0
	b.eq	.LBBfbb66151_323
.LBBfbb66151_321:
	add	x12, x11, x9
	ldur	x9, [x29, #-8]
	sub	x8, x8, x11
	add	x9, x12, x9
	add	x9, x9, #40
.LBBfbb66151_322:
	ldrb	w11, [x9], #1
	mov	w12, #15
	cmp	w11, #239
	cinc	w13, w13, hi
	bics	wzr, w12, w11
	cinc	w13, w13, eq
	subs	x8, x8, #1
	b.ne	.LBBfbb66151_322
.LBBfbb66151_323:
	add	w21, w10, w21
.LBBfbb66151_324:
	cmp	w25, #1
	add	w8, w13, w22
	b.ne	.LBBfbb66151_326
	ldr	x9, [sp, #8]
	ldr	x9, [x9, #16]
	b	.LBBfbb66151_327
.LBBfbb66151_326:
	mov	x9, xzr
.LBBfbb66151_327:
	cmp	x9, x8
	b.ne	.LBBfbb66151_337
	ldr	x8, [sp, #184]
	lsr	x8, x8, #57
	cmp	x8, #25
	b.hs	.LBBfbb66151_332
.LBBfbb66151_329:
	cmp	w25, #1
	b.ne	.LBBfbb66151_359
	ldr	x8, [sp, #8]
	ldrb	w8, [x8, #24]
	cbz	w8, .LBBfbb66151_344
	ldr	x8, [sp, #8]
	ldp	x10, x8, [x8, #32]
	b	.LBBfbb66151_345
.LBBfbb66151_332:
	ldr	x8, [sp, #184]
	lsr	x8, x8, #62
	cbnz	x8, .LBBfbb66151_337
	ldr	x8, [sp, #184]
	mov	w9, #63
	ldr	x10, [sp, #152]
	sub	x8, x9, x8, lsr #56
	ldur	x9, [x29, #-8]
	add	x9, x9, #40
.LBBfbb66151_334:
	cbz	x10, .LBBfbb66151_329
	ldrb	w11, [x9], #1
	and	w12, w11, #0xf
	cmp	w12, w8, uxtb
	b.hi	.LBBfbb66151_337
	lsr	w11, w11, #4
	sub	x10, x10, #1
	cmp	w11, w8, uxtb
	b.ls	.LBBfbb66151_334
.LBBfbb66151_337:
	cmp	w25, #1
	b.ne	.LBBfbb66151_343
	ldr	x0, [sp, #8]
	ldrb	w22, [x0, #24]
	ldr	x19, [x0, #32]
	ldr	x20, [x0, #48]
	bl	rattle_dealloc
	mov	w9, wzr
	mov	x8, xzr
	mov	w21, #10
	mov	w13, #1
	cbz	w22, .LBBfbb66151_341
	ldr	x0, [sp, #200]
	mov	w16, w9
	mov	x15, x8
	mov	x22, x8
	mov	x10, x8
	mov	x11, x8
	mov	x25, x8
	mov	x12, x8
	mov	w23, w9
	mov	x17, x8
	mov	x14, x8
	mov	x18, x8
	mov	w28, w9
	mov	x3, x8
	mov	x4, x8
	cbz	x20, .LBBfbb66151_82
	mov	x0, x19
	bl	rattle_dealloc
	ldr	x0, [sp, #200]
	b	.LBBfbb66151_80
.LBBfbb66151_341:
	ldr	x0, [sp, #200]
.LBBfbb66151_342:
	mov	w16, w9
	mov	x15, x8
	mov	x22, x8
	mov	x10, x8
	mov	x11, x8
	mov	x25, x8
	mov	x12, x8
	mov	w23, w9
	mov	x17, x8
	mov	x14, x8
	mov	x18, x8
	mov	w28, w9
	mov	x3, x8
	mov	x4, x8
	b	.LBBfbb66151_82
.LBBfbb66151_343:
	mov	w9, wzr
	mov	x8, xzr
	mov	w16, wzr
	mov	x15, xzr
	mov	x22, xzr
	mov	x10, xzr
	mov	x11, xzr
	mov	x25, xzr
	mov	x12, xzr
	mov	w23, wzr
	mov	x17, xzr
	mov	x14, xzr
	mov	x18, xzr
	mov	w28, wzr
	mov	x3, xzr
	mov	x4, xzr
	mov	w21, #10
	b	.LBBfbb66151_209
.LBBfbb66151_344:
	ldr	x8, [sp, #8]
	add	x10, x8, #28
	mov	w8, #8
.LBBfbb66151_345:
	add	w9, w20, #15
.LBBfbb66151_346:
	cmp	x8, #4
	b.hs	.LBBfbb66151_353
.LBBfbb66151_347:
	mov	x11, x10
.LBBfbb66151_348:
	mov	x10, x11
.LBBfbb66151_349:
	cbz	x8, .LBBfbb66151_359
	ldr	w11, [x10], #4
	sub	x8, x8, #1
	cbz	w11, .LBBfbb66151_349
	and	w12, w9, #0xff
	cmp	w12, w11, lsr #26
	b.hi	.LBBfbb66151_337
	ubfx	x12, x11, #1, #25
	ldr	x13, [sp]
	tst	x11, #0x1
	ldrb	w12, [x13, x12]
	lsr	w13, w12, #4
	and	w12, w12, #0xf
	csel	w11, w12, w13, eq
	cmp	w11, #15
	b.eq	.LBBfbb66151_346
	b	.LBBfbb66151_337
.LBBfbb66151_353:
	mov	x11, x10
.LBBfbb66151_354:
	ldr	w12, [x11], #16
	cbnz	w12, .LBBfbb66151_347
	ldr	w12, [x10, #4]
	cbnz	w12, .LBBfbb66151_347
	ldr	w12, [x10, #8]
	cbnz	w12, .LBBfbb66151_347
	ldr	w12, [x10, #12]
	cbnz	w12, .LBBfbb66151_347
	sub	x8, x8, #4
	mov	x10, x11
	cmp	x8, #3
	b.hi	.LBBfbb66151_354
	b	.LBBfbb66151_348
.LBBfbb66151_359:
	movi	v0.2d, #0000000000000000
	ldr	x8, [sp, #8]
	stur	xzr, [x29, #-144]
	stp	x25, x8, [sp, #208]
	stp	q0, q0, [x29, #-192]
	stur	q0, [x29, #-160]
	cbz	w21, .LBBfbb66151_367
	sub	w8, w19, #1
	and	w8, w8, #0xff
	cmp	w8, #63
	b.eq	.LBBfbb66151_370
	ldr	x0, [sp, #152]
	mov	w1, #1
	bl	rattle_alloc
	tbz	w0, #0, .LBBfbb66151_370
	ldr	x8, [sp]
	mov	x22, x1
	sub	x9, x1, x8
	ldr	x8, [sp, #152]
	cmp	x9, x8
	b.hs	.LBBfbb66151_375
	sub	w8, w19, #1
	and	w8, w8, #0xff
	cmp	w8, #2
	b.ls	.LBBfbb66151_365
	ldur	x8, [x29, #-8]
	sub	x8, x22, x8
	sub	x8, x8, #40
	cmp	x8, #32
	b.hs	.LBBfbb66151_386
.LBBfbb66151_365:
	ldr	x9, [sp, #152]
	mov	x8, x22
.LBBfbb66151_366:
	ldr	x11, [sp]
	subs	x9, x9, #1
	ldrb	w10, [x11], #1
	str	x11, [sp]
	strb	w10, [x8], #1
	b.ne	.LBBfbb66151_366
	b	.LBBfbb66151_376
.LBBfbb66151_367:
	ldr	x0, [sp, #192]
	mov	w1, #1
	bl	rattle_alloc
	tbz	w0, #0, .LBBfbb66151_370
	mov	x21, x1
	cbz	w19, .LBBfbb66151_377
	ldr	x8, [sp, #192]
	mov	x0, x21
	mov	w1, wzr
	sub	x22, x8, #1
	mov	x2, x22
	bl	memset
	b	.LBBfbb66151_378
.LBBfbb66151_370:
	cmp	w25, #1
	b.ne	.LBBfbb66151_374
	ldr	x0, [sp, #8]
	ldrb	w21, [x0, #24]
	ldr	x19, [x0, #32]
	ldr	x20, [x0, #48]
	bl	rattle_dealloc
	cbz	w21, .LBBfbb66151_374
	cbz	x20, .LBBfbb66151_374
	mov	x0, x19
	bl	rattle_dealloc
.LBBfbb66151_374:
	mov	w9, wzr
	mov	x8, xzr
	mov	w16, wzr
	mov	x15, xzr
	mov	x22, xzr
	mov	x10, xzr
	mov	x11, xzr
	mov	x25, xzr
	mov	x12, xzr
	mov	w23, wzr
	mov	x17, xzr
	mov	x14, xzr
	mov	x18, xzr
	mov	w28, wzr
	mov	x3, xzr
	mov	x4, xzr
	mov	w21, #12
	b	.LBBfbb66151_209
.LBBfbb66151_375:
	ldr	x1, [sp]
	ldr	x2, [sp, #152]
	mov	x0, x22
	bl	memmove
.LBBfbb66151_376:
	sturb	w19, [x29, #-184]
	ldr	x10, [sp, #152]
	sturb	w20, [x29, #-183]
	sturh	wzr, [x29, #-182]
	stur	w21, [x29, #-180]
	ldur	x16, [x29, #-184]
	b	.LBBfbb66151_385
.LBBfbb66151_377:
	mov	x22, xzr
.LBBfbb66151_378:
	ldr	x3, [sp]
	add	x1, x22, #1
	add	x4, sp, #208
	mov	x0, x21
	mov	w2, wzr
	mov	w5, w20
	strb	wzr, [x21, x22]
	bl	hll_registers.exception_map.max_with_registers.309f015d8caa795c
	sub	x0, x29, #192
	add	x3, x22, #1
	mov	w1, w19
	mov	x2, x21
	bl	hll_registers.nibble_registers.NibbleRegisters.from_values.8a2f8b2564a2651f
	mov	x0, x21
	bl	rattle_dealloc
	cmp	w25, #1
	b.ne	.LBBfbb66151_382
	ldr	x0, [sp, #8]
	ldrb	w22, [x0, #24]
	ldr	x20, [x0, #32]
	ldr	x21, [x0, #48]
	bl	rattle_dealloc
	cbz	w22, .LBBfbb66151_382
	cbz	x21, .LBBfbb66151_382
	mov	x0, x20
	bl	rattle_dealloc
.LBBfbb66151_382:
	ldurb	w8, [x29, #-192]
	cbz	w8, .LBBfbb66151_384
	ldurb	w21, [x29, #-191]
	b	.LBBfbb66151_208
.LBBfbb66151_384:
	ldp	x10, x8, [x29, #-168]
	ldp	x16, x22, [x29, #-184]
	str	x8, [sp, #152]
	ldp	x25, x8, [x29, #-152]
	str	x8, [sp, #8]
.LBBfbb66151_385:
	ldp	x14, x8, [sp, #176]
	mov	w13, wzr
	ldp	x23, x28, [sp, #136]
	mov	w21, wzr
	ldr	x0, [sp, #200]
	ldr	x11, [sp, #152]
	and	x15, x16, #0xffffffffffffff00
	ldr	x12, [sp, #8]
	ubfx	x4, x8, #48, #1
	and	x18, x14, #0xffffffffffffff00
	and	x17, x23, #0xffffffff00000000
	and	x3, x28, #0xffffffffffffff00
	mov	w8, #2
	mov	w9, w19
	b	.LBBfbb66151_82
.LBBfbb66151_386:
	sub	w8, w19, #1
	and	w8, w8, #0xff
	cmp	w8, #5
	b.hs	.LBBfbb66151_389
	ldr	x8, [sp, #152]
	mov	x9, x22
	and	x8, x8, #0xf8
.LBBfbb66151_388:
	ldr	x10, [sp]
	subs	x8, x8, #8
	ldr	d0, [x10], #8
	str	x10, [sp]
	str	d0, [x9], #8
	b.ne	.LBBfbb66151_388
	b	.LBBfbb66151_376
.LBBfbb66151_389:
	ldr	x8, [sp, #152]
	ldur	x9, [x29, #-8]
	add	x10, x22, #16
	and	x8, x8, #0x7fffffffffffffe0
	add	x9, x9, #56
.LBBfbb66151_390:
	ldp	q0, q1, [x9, #-16]
	subs	x8, x8, #32
	add	x9, x9, #32
	stp	q0, q1, [x10, #-16]
	add	x10, x10, #32
	b.ne	.LBBfbb66151_390
	b	.LBBfbb66151_376
.Lfunc_endfbb66151:
	.size	hll_sketch.sketch.HllSketch.deserialize.8a2f8b2564a2651f, .Lfunc_endfbb66151-hll_sketch.sketch.HllSketch.deserialize.8a2f8b2564a2651f

	.section	.text.hll_coupons.list.List.contains.309f015d8caa795c,"ax",@progbits
	.p2align	2
	.type	hll_coupons.list.List.contains.309f015d8caa795c,@function
hll_coupons.list.List.contains.309f015d8caa795c:
	ldrb	w8, [x0, #16]
	cbz	w8, .LBB435688d8_4
	ldr	x8, [x0, #24]
	ldr	x9, [x0, #8]
	cbz	x9, .LBB435688d8_5
.LBB435688d8_2:
	subs	x10, x9, #2
	b.hi	.LBB435688d8_6
	add	x9, x8, x9, lsl #2
	ldr	w8, [x8]
	ldur	w9, [x9, #-4]
	cmp	w8, w1
	ccmp	w9, w1, #4, ne
	cset	w0, eq
	ret
.LBB435688d8_4:
	add	x8, x0, #20
	ldr	x9, [x0, #8]
	cbnz	x9, .LBB435688d8_2
.LBB435688d8_5:
	mov	w0, wzr
	ret
.LBB435688d8_6:
	cmp	x9, #8
	b.hi	.LBB435688d8_8
	cmp	x10, #2
	mov	w9, #2
	mov	w11, #4
	csel	x9, x10, x9, lo
	cmp	x10, #4
	ldr	d0, [x8]
	csel	x11, x10, x11, lo
	lsl	x9, x9, #2
	lsl	x10, x10, #2
	lsl	x11, x11, #2
	ldr	d1, [x8, x9]
	ldr	d3, [x8, x10]
	ldr	d2, [x8, x11]
	mov	v0.d[1], v1.d[0]
	dup	v1.4s, w1
	mov	v2.d[1], v3.d[0]
	cmeq	v0.4s, v0.4s, v1.4s
	cmeq	v2.4s, v2.4s, v1.4s
	uzp1	v0.8h, v0.8h, v2.8h
	umaxv	h0, v0.8h
	fmov	w8, s0
	and	w0, w8, #0x1
	ret
.LBB435688d8_8:
	cmp	x9, #16
	b.hi	.LBB435688d8_10
	add	x9, x8, x9, lsl #2
	dup	v0.4s, w1
	ldp	q2, q1, [x8]
	ldp	q3, q4, [x9, #-32]
	cmeq	v1.4s, v1.4s, v0.4s
	cmeq	v2.4s, v2.4s, v0.4s
	cmeq	v4.4s, v4.4s, v0.4s
	cmeq	v0.4s, v3.4s, v0.4s
	uzp1	v1.8h, v2.8h, v1.8h
	uzp1	v0.8h, v0.8h, v4.8h
	uzp1	v0.16b, v1.16b, v0.16b
	umaxv	b0, v0.16b
	fmov	w8, s0
	and	w0, w8, #0x1
	ret
.LBB435688d8_10:
	dup	v0.4s, w1
	mov	x10, xzr
	mov	x11, x8
	mov	x12, x9
.LBB435688d8_11:
	ldp	q2, q1, [x11]
	ldp	q4, q3, [x11, #32]
	cmeq	v1.4s, v1.4s, v0.4s
	cmeq	v2.4s, v2.4s, v0.4s
	cmeq	v4.4s, v4.4s, v0.4s
	cmeq	v3.4s, v3.4s, v0.4s
	uzp1	v1.8h, v2.8h, v1.8h
	uzp1	v2.8h, v4.8h, v3.8h
	uzp1	v1.16b, v1.16b, v2.16b
	umaxv	b1, v1.16b
	fmov	w13, s1
	tbnz	w13, #0, .LBB435688d8_14
	sub	x12, x12, #16
	add	x10, x10, #16
	add	x11, x11, #64
	cmp	x12, #15
	b.hi	.LBB435688d8_11
	and	x10, x9, #0xfffffffffffffff0
.LBB435688d8_14:
	sub	x11, x9, x10
	cmp	x11, #8
	b.lo	.LBB435688d8_20
	add	x10, x8, x10, lsl #2
.LBB435688d8_16:
	ldp	q1, q2, [x10], #32
	cmeq	v2.4s, v2.4s, v0.4s
	cmeq	v1.4s, v1.4s, v0.4s
	uzp1	v1.8h, v1.8h, v2.8h
	umaxv	h1, v1.8h
	fmov	w12, s1
	tbnz	w12, #0, .LBB435688d8_18
	sub	x11, x11, #8
	cmp	x11, #7
	b.hi	.LBB435688d8_16
	b	.LBB435688d8_20
.LBB435688d8_18:
	cmp	x11, #7
	b.ls	.LBB435688d8_20
	mov	w0, #1
	ret
.LBB435688d8_20:
	add	x8, x8, x9, lsl #2
	ldp	q1, q2, [x8, #-32]
	cmeq	v2.4s, v2.4s, v0.4s
	cmeq	v0.4s, v1.4s, v0.4s
	uzp1	v0.8h, v0.8h, v2.8h
	umaxv	h0, v0.8h
	fmov	w8, s0
	and	w0, w8, #0x1
	ret
.Lfunc_end435688d8:
	.size	hll_coupons.list.List.contains.309f015d8caa795c, .Lfunc_end435688d8-hll_coupons.list.List.contains.309f015d8caa795c

	.section	.text.hll_sketch.raw_coupons.RawCoupons.differ,"ax",@progbits
	.p2align	2
	.type	hll_sketch.raw_coupons.RawCoupons.differ,@function
hll_sketch.raw_coupons.RawCoupons.differ:
	stp	x29, x30, [sp, #-32]!
	stp	x28, x19, [sp, #16]
	mov	x29, sp
	sub	sp, sp, #1024
	mov	x19, x0
	mov	x0, sp
	mov	w1, wzr
	mov	w2, #1024
	bl	memset
	ldr	x8, [x19, #16]
	cmp	x8, #0
	cset	w0, eq
	cbz	x8, .LBB8d0b1b5a_21
	ldr	x9, [x19, #8]
	cmp	x9, #4
	b.lo	.LBB8d0b1b5a_21
	ldr	x11, [x19]
	mov	x10, xzr
	mov	x12, x11
.LBB8d0b1b5a_3:
	ldr	w15, [x12], #4
	lsr	w13, w15, #26
	cbz	w13, .LBB8d0b1b5a_22
	and	x13, x15, #0x3ff
	mov	x14, sp
	cbz	x10, .LBB8d0b1b5a_19
	ldrb	w16, [x14, x13]
	tbz	w16, #0, .LBB8d0b1b5a_19
	cmp	x10, #4
	b.hs	.LBB8d0b1b5a_8
	mov	w18, wzr
	mov	x16, xzr
	b	.LBB8d0b1b5a_17
.LBB8d0b1b5a_8:
	cmp	x10, #32
	b.hs	.LBB8d0b1b5a_10
	mov	x16, xzr
	mov	w18, wzr
	b	.LBB8d0b1b5a_14
.LBB8d0b1b5a_10:
	movi	v0.2d, #0000000000000000
	movi	v1.2d, #0000000000000000
	and	x18, x10, #0xffffffffffffffe0
	dup	v2.4s, w15
	and	x17, x10, #0x1c
	and	x16, x10, #0x7fffffffffffffe0
	add	x0, x11, #64
.LBB8d0b1b5a_11:
	ldp	q4, q3, [x0, #-64]
	subs	x18, x18, #32
	ldp	q6, q5, [x0, #-32]
	ldp	q7, q16, [x0]
	ldp	q18, q17, [x0, #32]
	cmeq	v3.4s, v3.4s, v2.4s
	cmeq	v4.4s, v4.4s, v2.4s
	cmeq	v6.4s, v6.4s, v2.4s
	cmeq	v5.4s, v5.4s, v2.4s
	cmeq	v16.4s, v16.4s, v2.4s
	cmeq	v7.4s, v7.4s, v2.4s
	add	x0, x0, #128
	cmeq	v18.4s, v18.4s, v2.4s
	cmeq	v17.4s, v17.4s, v2.4s
	uzp1	v3.8h, v4.8h, v3.8h
	uzp1	v4.8h, v6.8h, v5.8h
	uzp1	v5.8h, v7.8h, v16.8h
	uzp1	v6.8h, v18.8h, v17.8h
	uzp1	v3.16b, v3.16b, v4.16b
	uzp1	v4.16b, v5.16b, v6.16b
	orr	v0.16b, v0.16b, v3.16b
	orr	v1.16b, v1.16b, v4.16b
	b.ne	.LBB8d0b1b5a_11
	orr	v0.16b, v1.16b, v0.16b
	cmp	x10, x16
	shl	v0.16b, v0.16b, #7
	cmlt	v0.16b, v0.16b, #0
	umaxv	b0, v0.16b
	fmov	w18, s0
	and	w18, w18, #0x1
	b.eq	.LBB8d0b1b5a_18
	cbz	x17, .LBB8d0b1b5a_17
.LBB8d0b1b5a_14:
	movi	v0.2d, #0000000000000000
	dup	v1.4s, w15
	add	x17, x11, x16, lsl #2
	mov	v0.h[0], w18
	and	x18, x10, #0xfffffffffffffffc
	sub	x18, x16, x18
	and	x16, x10, #0x7ffffffffffffffc
.LBB8d0b1b5a_15:
	ldr	q2, [x17], #16
	adds	x18, x18, #4
	cmeq	v2.4s, v2.4s, v1.4s
	xtn	v2.4h, v2.4s
	orr	v0.8b, v0.8b, v2.8b
	b.ne	.LBB8d0b1b5a_15
	shl	v0.4h, v0.4h, #15
	cmp	x10, x16
	cmlt	v0.4h, v0.4h, #0
	umaxv	h0, v0.4h
	fmov	w17, s0
	and	w18, w17, #0x1
	b.eq	.LBB8d0b1b5a_18
.LBB8d0b1b5a_17:
	ldr	w17, [x11, x16, lsl #2]
	add	x16, x16, #1
	cmp	w17, w15
	cset	w17, eq
	cmp	x10, x16
	orr	w18, w18, w17
	b.ne	.LBB8d0b1b5a_17
.LBB8d0b1b5a_18:
	tbnz	w18, #0, .LBB8d0b1b5a_22
.LBB8d0b1b5a_19:
	add	x10, x10, #1
	mov	w15, #1
	strb	w15, [x14, x13]
	cmp	x10, x8
	cset	w0, hs
	b.hs	.LBB8d0b1b5a_21
	sub	x9, x9, #4
	cmp	x9, #4
	b.hs	.LBB8d0b1b5a_3
.LBB8d0b1b5a_21:
	add	sp, sp, #1024
	ldp	x28, x19, [sp, #16]
	ldp	x29, x30, [sp], #32
	ret
.LBB8d0b1b5a_22:
	mov	w0, wzr
	add	sp, sp, #1024
	ldp	x28, x19, [sp, #16]
	ldp	x29, x30, [sp], #32
	ret
.Lfunc_end8d0b1b5a:
	.size	hll_sketch.raw_coupons.RawCoupons.differ, .Lfunc_end8d0b1b5a-hll_sketch.raw_coupons.RawCoupons.differ

	.section	.text.hll_coupons.hash_set.read_by_order.8a2f8b2564a2651f,"ax",@progbits
	.p2align	2
	.type	hll_coupons.hash_set.read_by_order.8a2f8b2564a2651f,@function
hll_coupons.hash_set.read_by_order.8a2f8b2564a2651f:
	sub	sp, sp, #176
	movi	v0.2d, #0000000000000000
	stp	x20, x19, [sp, #160]
	mov	x19, x0
	mov	w8, #3
	stp	x24, x23, [sp, #128]
	ldr	x24, [x0]
	str	x8, [x0]
	ldrb	w9, [x0, #16]
	ldr	x8, [x0, #40]
	stp	x22, x21, [sp, #144]
	mov	w20, w4
	mov	x21, x3
	stur	q0, [x0, #8]
	ldr	x0, [x0, #24]
	mov	x22, x2
	mov	x23, x1
	stp	x29, x30, [sp, #96]
	add	x29, sp, #96
	stp	x26, x25, [sp, #112]
	str	xzr, [sp, #48]
	stp	q0, q0, [sp, #16]
	str	q0, [sp]
	stur	q0, [x19, #24]
	stur	q0, [x19, #36]
	cbz	w9, .LBB0fe8a46e_3
	cbz	x8, .LBB0fe8a46e_3
	bl	rattle_dealloc
.LBB0fe8a46e_3:
	stp	xzr, xzr, [x29, #-32]
	stur	xzr, [x29, #-16]
	cbz	x21, .LBB0fe8a46e_18
	lsr	x8, x21, #61
	cbnz	x8, .LBB0fe8a46e_44
	lsl	x0, x21, #2
	mov	w1, #4
	bl	rattle_alloc
	tbz	w0, #0, .LBB0fe8a46e_44
	stp	x1, xzr, [x29, #-32]
	stur	x21, [x29, #-16]
	tbz	w20, #0, .LBB0fe8a46e_33
	mov	x20, xzr
.LBB0fe8a46e_8:
	subs	x22, x22, #4
	b.lo	.LBB0fe8a46e_47
	ldr	w25, [x23], #4
	lsr	w8, w25, #26
	cbz	w8, .LBB0fe8a46e_49
	ldur	x8, [x29, #-16]
	cmp	x8, x20
	b.eq	.LBB0fe8a46e_12
	str	w25, [x1, x20, lsl #2]
	add	x20, x20, #1
	sub	x21, x21, #1
	stur	x20, [x29, #-24]
	cbnz	x21, .LBB0fe8a46e_8
	b	.LBB0fe8a46e_14
.LBB0fe8a46e_12:
	sub	x0, x29, #32
	mov	w1, #1
	bl	std_alloc.vec.Vec.grow_amortized.e9163d01fd20791a
	cbz	w0, .LBB0fe8a46e_42
	ldp	x1, x20, [x29, #-32]
	str	w25, [x1, x20, lsl #2]
	add	x20, x20, #1
	sub	x21, x21, #1
	stur	x20, [x29, #-24]
	cbnz	x21, .LBB0fe8a46e_8
.LBB0fe8a46e_14:
	ldur	x21, [x29, #-32]
	ldur	x25, [x29, #-16]
	cmp	x20, #2
	b.lo	.LBB0fe8a46e_19
	mov	x8, xzr
	sub	x26, x20, #1
.LBB0fe8a46e_16:
	add	x9, x21, x8, lsl #2
	ldp	w10, w9, [x9]
	cmp	w10, w9
	b.hs	.LBB0fe8a46e_53
	add	x8, x8, #1
	cmp	x26, x8
	b.ne	.LBB0fe8a46e_16
	b	.LBB0fe8a46e_19
.LBB0fe8a46e_18:
	ldur	x25, [x29, #-16]
	mov	x20, xzr
	sub	x21, x29, #4
.LBB0fe8a46e_19:
	cmp	x24, #3
	b.ne	.LBB0fe8a46e_68
.LBB0fe8a46e_20:
	mov	w9, wzr
	mov	x1, xzr
	mov	x8, xzr
	mov	x23, xzr
.LBB0fe8a46e_21:
	stp	x1, x8, [sp, #24]
	mov	x0, sp
	mov	w1, wzr
	mov	x2, x21
	mov	x3, x20
	stp	x24, xzr, [sp]
	stp	w9, wzr, [sp, #16]
	mov	x22, sp
	str	x23, [sp, #40]
	str	wzr, [sp, #48]
	bl	hll_coupons.filling.put_by_cycles.8a2f8b2564a2651f
	ldrb	w8, [sp, #16]
	tst	w0, #0xff
	b.eq	.LBB0fe8a46e_27
	cbz	w8, .LBB0fe8a46e_25
	ldr	x8, [sp, #40]
	cbz	x8, .LBB0fe8a46e_25
	ldr	x0, [sp, #24]
	mov	w19, w1
	bl	rattle_dealloc
	mov	w1, w19
.LBB0fe8a46e_25:
	cbz	x25, .LBB0fe8a46e_45
	mov	x0, x21
	mov	w19, w1
	bl	rattle_dealloc
	mov	w1, w19
	b	.LBB0fe8a46e_45
.LBB0fe8a46e_27:
	ldr	q0, [sp]
	ldrb	w9, [x19, #16]
	str	w8, [x19, #16]
	ldur	q1, [x22, #20]
	ldur	q2, [x22, #36]
	ldr	x0, [x19, #24]
	ldr	x8, [x19, #40]
	str	q0, [x19]
	stur	q1, [x19, #20]
	stur	q2, [x19, #36]
	cbz	w9, .LBB0fe8a46e_30
	cbz	x8, .LBB0fe8a46e_30
	bl	rattle_dealloc
.LBB0fe8a46e_30:
	cbz	x25, .LBB0fe8a46e_32
	mov	x0, x21
	bl	rattle_dealloc
.LBB0fe8a46e_32:
	mov	w1, wzr
	mov	w0, wzr
	b	.LBB0fe8a46e_46
.LBB0fe8a46e_33:
	mov	x20, xzr
	b	.LBB0fe8a46e_37
.LBB0fe8a46e_34:
	ldp	x1, x20, [x29, #-32]
.LBB0fe8a46e_35:
	str	w25, [x1, x20, lsl #2]
	add	x20, x20, #1
	stur	x20, [x29, #-24]
.LBB0fe8a46e_36:
	sub	x21, x21, #1
	cbz	x21, .LBB0fe8a46e_14
.LBB0fe8a46e_37:
	subs	x22, x22, #4
	b.lo	.LBB0fe8a46e_47
	ldr	w25, [x23], #4
	cbz	w25, .LBB0fe8a46e_36
	lsr	w8, w25, #26
	cbz	w8, .LBB0fe8a46e_49
	ldur	x8, [x29, #-16]
	cmp	x8, x20
	b.ne	.LBB0fe8a46e_35
	sub	x0, x29, #32
	mov	w1, #1
	bl	std_alloc.vec.Vec.grow_amortized.e9163d01fd20791a
	cbnz	w0, .LBB0fe8a46e_34
.LBB0fe8a46e_42:
	ldur	x8, [x29, #-16]
	cbz	x8, .LBB0fe8a46e_44
	ldur	x0, [x29, #-32]
	bl	rattle_dealloc
.LBB0fe8a46e_44:
	mov	w1, #12
.LBB0fe8a46e_45:
	mov	w0, #1
.LBB0fe8a46e_46:
	ldp	x20, x19, [sp, #160]
	ldp	x22, x21, [sp, #144]
	ldp	x24, x23, [sp, #128]
	ldp	x26, x25, [sp, #112]
	ldp	x29, x30, [sp, #96]
	add	sp, sp, #176
	ret
.LBB0fe8a46e_47:
	ldur	x8, [x29, #-16]
	cbz	x8, .LBB0fe8a46e_51
	ldur	x0, [x29, #-32]
	bl	rattle_dealloc
	mov	w1, wzr
	b	.LBB0fe8a46e_45
.LBB0fe8a46e_49:
	ldur	x8, [x29, #-16]
	cbz	x8, .LBB0fe8a46e_52
	ldur	x0, [x29, #-32]
	bl	rattle_dealloc
	mov	w1, #9
	b	.LBB0fe8a46e_45
.LBB0fe8a46e_51:
	mov	w1, wzr
	b	.LBB0fe8a46e_45
.LBB0fe8a46e_52:
	mov	w1, #9
	b	.LBB0fe8a46e_45
.LBB0fe8a46e_53:
	lsr	x8, x20, #61
	cbnz	x8, .LBB0fe8a46e_72
	lsl	x23, x20, #2
	mov	w1, #4
	mov	x0, x23
	bl	rattle_alloc
	tbz	w0, #0, .LBB0fe8a46e_72
	sub	x8, x1, x21
	mov	x22, x1
	cmp	x8, x23
	b.hs	.LBB0fe8a46e_63
	cmp	x20, #8
	mov	x8, xzr
	b.lo	.LBB0fe8a46e_61
	sub	x9, x22, x21
	cmp	x9, #32
	b.lo	.LBB0fe8a46e_61
	and	x8, x20, #0x1ffffffffffffff8
	add	x9, x21, #16
	add	x10, x22, #16
	and	x11, x20, #0x1ffffffffffffff8
.LBB0fe8a46e_59:
	ldp	q0, q1, [x9, #-16]
	subs	x11, x11, #8
	add	x9, x9, #32
	stp	q0, q1, [x10, #-16]
	add	x10, x10, #32
	b.ne	.LBB0fe8a46e_59
	cmp	x20, x8
	b.eq	.LBB0fe8a46e_64
.LBB0fe8a46e_61:
	lsl	x10, x8, #2
	sub	x8, x20, x8
	add	x9, x21, x10
	add	x10, x22, x10
.LBB0fe8a46e_62:
	ldr	w11, [x9], #4
	subs	x8, x8, #1
	str	w11, [x10], #4
	b.ne	.LBB0fe8a46e_62
	b	.LBB0fe8a46e_64
.LBB0fe8a46e_63:
	mov	x0, x22
	mov	x1, x21
	mov	x2, x23
	bl	memmove
.LBB0fe8a46e_64:
	mov	x0, x22
	mov	x1, x20
	bl	std_alloc.vec.Vec.sort_unstable.d18826c7c15f4115
	mov	x8, xzr
.LBB0fe8a46e_65:
	add	x9, x22, x8, lsl #2
	ldp	w10, w9, [x9]
	cmp	w10, w9
	b.hs	.LBB0fe8a46e_77
	add	x8, x8, #1
	cmp	x26, x8
	b.ne	.LBB0fe8a46e_65
	mov	x0, x22
	bl	rattle_dealloc
	cmp	x24, #3
	b.eq	.LBB0fe8a46e_20
.LBB0fe8a46e_68:
	cmp	x24, #60
	b.hi	.LBB0fe8a46e_72
	mov	w8, #4
	mov	w1, #4
	lsl	x22, x8, x24
	mov	x0, x22
	bl	rattle_alloc
	tbz	w0, #0, .LBB0fe8a46e_72
	mov	w8, #1
	lsl	x23, x8, x24
	cbz	x24, .LBB0fe8a46e_75
	sub	x2, x22, #4
	mov	x0, x1
	mov	x22, x1
	mov	w1, wzr
	bl	memset
	mov	x1, x22
	sub	x8, x23, #1
	b	.LBB0fe8a46e_76
.LBB0fe8a46e_72:
	cbz	x25, .LBB0fe8a46e_74
	mov	x0, x21
	bl	rattle_dealloc
.LBB0fe8a46e_74:
	mov	w0, #1
	mov	w1, #12
	b	.LBB0fe8a46e_46
.LBB0fe8a46e_75:
	mov	x8, xzr
.LBB0fe8a46e_76:
	str	wzr, [x1, x8, lsl #2]
	add	x8, x8, #1
	mov	w9, #1
	b	.LBB0fe8a46e_21
.LBB0fe8a46e_77:
	mov	x0, x22
	bl	rattle_dealloc
	cbz	x25, .LBB0fe8a46e_79
	mov	x0, x21
	bl	rattle_dealloc
.LBB0fe8a46e_79:
	mov	w0, #1
	mov	w1, #9
	b	.LBB0fe8a46e_46
.Lfunc_end0fe8a46e:
	.size	hll_coupons.hash_set.read_by_order.8a2f8b2564a2651f, .Lfunc_end0fe8a46e-hll_coupons.hash_set.read_by_order.8a2f8b2564a2651f

	.section	.text.unlikely.std_alloc.vec.Vec.grow_amortized.e9163d01fd20791a,"ax",@progbits
	.p2align	2
	.type	std_alloc.vec.Vec.grow_amortized.e9163d01fd20791a,@function
std_alloc.vec.Vec.grow_amortized.e9163d01fd20791a:
	ldr	x8, [x0, #8]
	cmn	x8, x1
	b.lo	.LBB0f3d30c6_2
	mov	w0, wzr
	ret
.LBB0f3d30c6_2:
	stp	x29, x30, [sp, #-32]!
	ldr	x9, [x0, #16]
	add	x10, x8, x1
	mov	w11, #4
	cmp	x10, #4
	stp	x20, x19, [sp, #16]
	mov	x29, sp
	lsl	x12, x9, #1
	csel	x11, x10, x11, hi
	lsr	x13, x9, #62
	cmp	x11, x12
	csel	x10, x11, x12, hi
	cmp	x13, #0
	csel	x19, x10, x11, eq
	lsr	x11, x19, #61
	cbnz	x11, .LBB0f3d30c6_7
	cbz	x9, .LBB0f3d30c6_6
	mov	x20, x0
	ldr	x0, [x0]
	lsl	x1, x8, #2
	lsl	x2, x19, #2
	mov	w3, #4
	bl	rattle_realloc
	tbz	w0, #0, .LBB0f3d30c6_7
.LBB0f3d30c6_5:
	mov	w0, #1
	str	x1, [x20]
	str	x19, [x20, #16]
	ldp	x20, x19, [sp, #16]
	ldp	x29, x30, [sp], #32
	ret
.LBB0f3d30c6_6:
	mov	x20, x0
	lsl	x0, x10, #2
	mov	w1, #4
	bl	rattle_alloc
	tbnz	w0, #0, .LBB0f3d30c6_5
.LBB0f3d30c6_7:
	mov	w0, wzr
	ldp	x20, x19, [sp, #16]
	ldp	x29, x30, [sp], #32
	ret
.Lfunc_end0f3d30c6:
	.size	std_alloc.vec.Vec.grow_amortized.e9163d01fd20791a, .Lfunc_end0f3d30c6-std_alloc.vec.Vec.grow_amortized.e9163d01fd20791a

	.section	.text.std_alloc.vec.Vec.sort_unstable.d18826c7c15f4115,"ax",@progbits
	.p2align	2
	.type	std_alloc.vec.Vec.sort_unstable.d18826c7c15f4115,@function
std_alloc.vec.Vec.sort_unstable.d18826c7c15f4115:
	cmp	x1, #20
	b.hi	.LBB70d52f9e_10
	cmp	x1, #2
	b.lo	.LBB70d52f9e_21
	mov	w8, #1
	b	.LBB70d52f9e_6
.LBB70d52f9e_3:
	lsl	x10, x10, #2
.LBB70d52f9e_4:
	str	w9, [x0, x10]
.LBB70d52f9e_5:
	add	x8, x8, #1
	cmp	x8, x1
	b.eq	.LBB70d52f9e_21
.LBB70d52f9e_6:
	sub	x10, x8, #1
	ldr	w9, [x0, x8, lsl #2]
	ldr	w11, [x0, x10, lsl #2]
	cmp	w9, w11
	b.hs	.LBB70d52f9e_5
	str	w11, [x0, x8, lsl #2]
	cbz	x10, .LBB70d52f9e_4
.LBB70d52f9e_8:
	add	x11, x0, x10, lsl #2
	ldur	w11, [x11, #-4]
	cmp	w9, w11
	b.hs	.LBB70d52f9e_3
	sub	x12, x10, #1
	str	w11, [x0, x10, lsl #2]
	mov	x10, x12
	cbnz	x12, .LBB70d52f9e_8
	b	.LBB70d52f9e_3
.LBB70d52f9e_10:
	ldp	w9, w8, [x0]
	cmp	w8, w9
	b.hs	.LBB70d52f9e_14
	neg	x11, x1
	add	x12, x0, #8
	mov	x10, #-2
.LBB70d52f9e_12:
	ldp	w14, w13, [x12, #-4]
	cmp	w13, w14
	b.hs	.LBB70d52f9e_17
	sub	x10, x10, #1
	add	x12, x12, #4
	cmp	x11, x10
	b.ne	.LBB70d52f9e_12
	b	.LBB70d52f9e_20
.LBB70d52f9e_14:
	neg	x11, x1
	add	x12, x0, #8
	mov	x10, #-2
.LBB70d52f9e_15:
	ldp	w14, w13, [x12, #-4]
	cmp	w13, w14
	b.lo	.LBB70d52f9e_17
	sub	x10, x10, #1
	add	x12, x12, #4
	cmp	x11, x10
	b.ne	.LBB70d52f9e_15
	b	.LBB70d52f9e_21
.LBB70d52f9e_17:
	neg	x10, x10
	cmp	x10, x1
	b.hs	.LBB70d52f9e_19
	clz	x8, x1
	mov	x2, x1
	mov	x1, xzr
	lsl	w8, w8, #1
	eor	w3, w8, #0x7e
	b	core.slice.sort.unstable.quicksort.190f92464ae8a1e1
.LBB70d52f9e_19:
	cmp	w8, w9
	b.hs	.LBB70d52f9e_21
.LBB70d52f9e_20:
	lsr	x2, x1, #1
	sub	x8, x1, x2
	add	x1, x0, x8, lsl #2
	b	core.slice.edits.mirror._27_hll_coupons.coupon.Coupon
.LBB70d52f9e_21:
	ret
.Lfunc_end70d52f9e:
	.size	std_alloc.vec.Vec.sort_unstable.d18826c7c15f4115, .Lfunc_end70d52f9e-std_alloc.vec.Vec.sort_unstable.d18826c7c15f4115

	.section	.text.core.slice.sort.unstable.quicksort.190f92464ae8a1e1,"ax",@progbits
	.p2align	2
	.type	core.slice.sort.unstable.quicksort.190f92464ae8a1e1,@function
core.slice.sort.unstable.quicksort.190f92464ae8a1e1:
	stp	x29, x30, [sp, #-80]!
	stp	x24, x23, [sp, #32]
	sub	x23, x2, x1
	mov	x29, sp
	stp	x20, x19, [sp, #64]
	mov	x19, x2
	cmp	x23, #17
	mov	x20, x0
	str	x25, [sp, #16]
	stp	x22, x21, [sp, #48]
	b.lo	.LBB315b4148_37
	mov	w22, w3
	mov	x21, x1
	add	x24, x20, #8
	b	.LBB315b4148_4
.LBB315b4148_2:
	mov	x11, xzr
.LBB315b4148_3:
	add	x2, x9, x21
	mov	x0, x20
	mov	x1, x21
	mov	w3, w22
	str	w10, [x8, x11]
	bl	core.slice.sort.unstable.quicksort.190f92464ae8a1e1
	add	x21, x25, x21
	sub	x23, x19, x21
	cmp	x23, #16
	b.ls	.LBB315b4148_37
.LBB315b4148_4:
	cbz	w22, .LBB315b4148_40
	lsr	x4, x23, #3
	cmp	x23, #63
	sub	x8, x21, x4
	add	x2, x21, x4, lsl #2
	add	x3, x8, x4, lsl #3
	b.hi	.LBB315b4148_22
	ldr	w8, [x20, x21, lsl #2]
	ldr	w9, [x20, x2, lsl #2]
	ldr	w10, [x20, x3, lsl #2]
	cmp	w8, w9
	cset	w11, lo
	cmp	w8, w10
	cset	w8, lo
	cmp	w9, w10
	cset	w9, lo
	eor	w8, w11, w8
	eor	w9, w11, w9
	cmp	w9, #0
	csel	x9, x3, x2, ne
	cmp	w8, #0
	csel	x0, x21, x9, ne
	sub	w22, w22, #1
	cbz	x21, .LBB315b4148_23
.LBB315b4148_7:
	lsl	x9, x21, #2
	ldr	w11, [x20, x0, lsl #2]
	add	x8, x20, x9
	ldur	w10, [x8, #-4]
	cmp	w10, w11
	b.lo	.LBB315b4148_24
	subs	x10, x0, x21
	b.eq	.LBB315b4148_10
	ldr	w11, [x8, x10, lsl #2]
	ldr	w12, [x8]
	str	w11, [x8]
	str	w12, [x8, x10, lsl #2]
.LBB315b4148_10:
	ldr	w10, [x8]
	mov	w25, #1
.LBB315b4148_11:
	ldr	w11, [x8, x25, lsl #2]
	cmp	w10, w11
	b.lo	.LBB315b4148_14
	add	x25, x25, #1
	cmp	x23, x25
	b.ne	.LBB315b4148_11
	mov	x25, x23
.LBB315b4148_14:
	sub	x11, x23, #1
	cmp	x25, x11
	b.hs	.LBB315b4148_19
	add	x13, x25, #1
	ldr	w12, [x8, x13, lsl #2]
	cmp	x13, x11
	b.hs	.LBB315b4148_18
	add	x9, x9, x25, lsl #2
	sub	x13, x23, x25
	sub	x13, x13, #2
	add	x9, x24, x9
.LBB315b4148_17:
	ldr	w14, [x9]
	ldr	w15, [x8, x25, lsl #2]
	cmp	w10, w14
	stur	w15, [x9, #-4]
	add	x9, x9, #4
	str	w14, [x8, x25, lsl #2]
	cinc	x25, x25, hs
	subs	x13, x13, #1
	b.ne	.LBB315b4148_17
.LBB315b4148_18:
	ldr	w9, [x8, x25, lsl #2]
	cmp	w10, w12
	str	w9, [x8, x11, lsl #2]
	str	w12, [x8, x25, lsl #2]
	cinc	x25, x25, hs
.LBB315b4148_19:
	subs	x9, x25, #1
	b.eq	.LBB315b4148_21
	lsl	x9, x9, #2
	ldr	w11, [x8, x9]
	str	w11, [x8]
.LBB315b4148_21:
	str	w10, [x8, x9]
	add	x21, x25, x21
	sub	x23, x19, x21
	cmp	x23, #16
	b.hi	.LBB315b4148_4
	b	.LBB315b4148_37
.LBB315b4148_22:
	mov	x0, x20
	mov	x1, x21
	bl	core.slice.sort.pivot.median_of_medians.190f92464ae8a1e1
	sub	w22, w22, #1
	cbnz	x21, .LBB315b4148_7
.LBB315b4148_23:
	mov	x9, xzr
.LBB315b4148_24:
	subs	x10, x0, x21
	add	x8, x20, x9
	b.eq	.LBB315b4148_26
	ldr	w11, [x8, x10, lsl #2]
	ldr	w12, [x8]
	str	w11, [x8]
	str	w12, [x8, x10, lsl #2]
.LBB315b4148_26:
	ldr	w10, [x8]
	mov	w25, #1
.LBB315b4148_27:
	ldr	w11, [x8, x25, lsl #2]
	cmp	w11, w10
	b.hs	.LBB315b4148_30
	add	x25, x25, #1
	cmp	x23, x25
	b.ne	.LBB315b4148_27
	mov	x25, x23
.LBB315b4148_30:
	sub	x11, x23, #1
	cmp	x25, x11
	b.hs	.LBB315b4148_35
	add	x13, x25, #1
	ldr	w12, [x8, x13, lsl #2]
	cmp	x13, x11
	b.hs	.LBB315b4148_34
	add	x9, x9, x25, lsl #2
	sub	x13, x23, x25
	sub	x13, x13, #2
	add	x9, x24, x9
.LBB315b4148_33:
	ldr	w14, [x9]
	ldr	w15, [x8, x25, lsl #2]
	cmp	w14, w10
	stur	w15, [x9, #-4]
	add	x9, x9, #4
	str	w14, [x8, x25, lsl #2]
	cinc	x25, x25, lo
	subs	x13, x13, #1
	b.ne	.LBB315b4148_33
.LBB315b4148_34:
	ldr	w9, [x8, x25, lsl #2]
	cmp	w12, w10
	str	w9, [x8, x11, lsl #2]
	str	w12, [x8, x25, lsl #2]
	cinc	x25, x25, lo
.LBB315b4148_35:
	subs	x9, x25, #1
	b.eq	.LBB315b4148_2
	lsl	x11, x9, #2
	ldr	w12, [x8, x11]
	str	w12, [x8]
	b	.LBB315b4148_3
.LBB315b4148_37:
	cmp	x23, #2
	b.lo	.LBB315b4148_76
	cmp	x23, #12
	mov	w8, #12
	mov	w9, #16
	csel	x8, x9, x8, hi
	cmp	x23, #8
	mov	w9, #8
	csel	x8, x8, x9, hi
	subs	x8, x19, x8
	csel	x9, xzr, x8, lo
	sub	x8, x19, x9
	add	x9, x20, x9, lsl #2
	cmp	x8, #16
	b.lo	.LBB315b4148_62
	ldp	w10, w11, [x9]
	ldp	w13, w12, [x9, #48]
	ldp	w14, w15, [x9, #8]
	ldp	w17, w16, [x9, #56]
	cmp	w12, w10
	csel	w18, w12, w10, hi
	csel	w12, w12, w10, lo
	cmp	w13, w11
	csel	w10, w13, w11, hi
	csel	w11, w13, w11, lo
	cmp	w16, w14
	csel	w13, w16, w14, hi
	csel	w14, w16, w14, lo
	cmp	w17, w15
	ldp	w0, w2, [x9, #32]
	csel	w1, w17, w15, hi
	csel	w15, w17, w15, lo
	ldp	w16, w17, [x9, #16]
	ldp	w3, w5, [x9, #24]
	cmp	w0, w16
	csel	w4, w0, w16, hi
	csel	w16, w0, w16, lo
	cmp	w3, w17
	ldp	w0, w6, [x9, #40]
	csel	w7, w3, w17, hi
	csel	w17, w3, w17, lo
	cmp	w6, w5
	csel	w3, w6, w5, hi
	csel	w5, w6, w5, lo
	cmp	w0, w2
	csel	w6, w0, w2, hi
	csel	w0, w0, w2, lo
	cmp	w17, w12
	csel	w2, w17, w12, hi
	csel	w12, w17, w12, lo
	cmp	w5, w11
	csel	w17, w5, w11, hi
	csel	w11, w5, w11, lo
	cmp	w0, w14
	csel	w5, w0, w14, hi
	csel	w14, w0, w14, lo
	cmp	w16, w15
	csel	w0, w16, w15, hi
	csel	w15, w16, w15, lo
	cmp	w18, w7
	csel	w16, w18, w7, hi
	csel	w18, w18, w7, lo
	cmp	w1, w4
	csel	w7, w1, w4, hi
	csel	w1, w1, w4, lo
	cmp	w13, w6
	csel	w4, w13, w6, hi
	csel	w13, w13, w6, lo
	cmp	w10, w3
	csel	w6, w10, w3, hi
	csel	w10, w10, w3, lo
	cmp	w11, w12
	csel	w3, w11, w12, hi
	csel	w11, w11, w12, lo
	cmp	w15, w14
	csel	w12, w15, w14, hi
	csel	w14, w15, w14, lo
	cmp	w2, w0
	csel	w15, w2, w0, hi
	csel	w0, w2, w0, lo
	cmp	w1, w18
	csel	w2, w1, w18, hi
	csel	w18, w1, w18, lo
	cmp	w5, w17
	csel	w1, w5, w17, hi
	csel	w17, w5, w17, lo
	cmp	w10, w13
	csel	w5, w10, w13, hi
	csel	w13, w10, w13, lo
	cmp	w16, w6
	csel	w19, w16, w6, hi
	csel	w16, w16, w6, lo
	cmp	w4, w7
	csel	w6, w4, w7, hi
	csel	w4, w4, w7, lo
	cmp	w14, w11
	csel	w7, w14, w11, hi
	csel	w10, w14, w11, lo
	cmp	w12, w3
	csel	w11, w12, w3, hi
	csel	w12, w12, w3, lo
	cmp	w13, w0
	csel	w14, w13, w0, hi
	csel	w13, w13, w0, lo
	cmp	w5, w15
	csel	w0, w5, w15, hi
	csel	w15, w5, w15, lo
	cmp	w17, w18
	csel	w3, w17, w18, hi
	csel	w17, w17, w18, lo
	cmp	w1, w2
	csel	w18, w1, w2, hi
	csel	w1, w1, w2, lo
	cmp	w4, w16
	csel	w2, w4, w16, hi
	csel	w16, w4, w16, lo
	cmp	w6, w19
	csel	w4, w6, w19, hi
	csel	w5, w6, w19, lo
	cmp	w7, w12
	csel	w6, w7, w12, hi
	csel	w12, w7, w12, lo
	cmp	w16, w11
	csel	w7, w16, w11, hi
	csel	w11, w16, w11, lo
	cmp	w17, w13
	csel	w16, w17, w13, hi
	csel	w13, w17, w13, lo
	cmp	w3, w15
	csel	w17, w3, w15, hi
	csel	w15, w3, w15, lo
	cmp	w14, w1
	csel	w3, w14, w1, hi
	csel	w14, w14, w1, lo
	cmp	w0, w18
	csel	w1, w0, w18, hi
	csel	w18, w0, w18, lo
	cmp	w2, w5
	csel	w0, w2, w5, hi
	csel	w2, w2, w5, lo
	cmp	w13, w12
	csel	w5, w13, w12, hi
	csel	w12, w13, w12, lo
	cmp	w16, w6
	csel	w13, w16, w6, hi
	csel	w16, w16, w6, lo
	cmp	w14, w15
	csel	w6, w14, w15, hi
	csel	w14, w14, w15, lo
	cmp	w3, w17
	csel	w15, w3, w17, hi
	csel	w17, w3, w17, lo
	cmp	w2, w18
	csel	w3, w2, w18, hi
	csel	w18, w2, w18, lo
	cmp	w0, w1
	csel	w2, w0, w1, hi
	stp	w10, w12, [x9]
	csel	w10, w0, w1, lo
	cmp	w5, w16
	stp	w2, w4, [x9, #56]
	csel	w12, w5, w16, hi
	csel	w16, w5, w16, lo
	cmp	w13, w11
	csel	w0, w13, w11, hi
	csel	w11, w13, w11, lo
	cmp	w7, w18
	csel	w13, w7, w18, hi
	csel	w18, w7, w18, lo
	cmp	w3, w10
	csel	w1, w3, w10, hi
	csel	w10, w3, w10, lo
	cmp	w14, w11
	csel	w2, w14, w11, hi
	csel	w11, w14, w11, lo
	cmp	w6, w0
	csel	w14, w6, w0, hi
	csel	w0, w6, w0, lo
	cmp	w18, w17
	csel	w3, w18, w17, hi
	csel	w17, w18, w17, lo
	cmp	w13, w15
	csel	w18, w13, w15, hi
	csel	w13, w13, w15, lo
	cmp	w12, w11
	csel	w15, w12, w11, lo
	csel	w11, w12, w11, hi
	cmp	w0, w2
	csel	w12, w0, w2, lo
	stp	w16, w15, [x9, #8]
	stp	w11, w12, [x9, #16]
	csel	w11, w0, w2, hi
	cmp	w14, w17
	csel	w12, w14, w17, hi
	csel	w14, w14, w17, lo
	cmp	w13, w3
	csel	w15, w13, w3, hi
	csel	w13, w13, w3, lo
	cmp	w18, w10
	csel	w16, w18, w10, lo
	csel	w10, w18, w10, hi
	cmp	w14, w11
	stp	w10, w1, [x9, #48]
	csel	w10, w14, w11, lo
	csel	w11, w14, w11, hi
	cmp	w13, w12
	stp	w10, w11, [x9, #24]
	csel	w10, w13, w12, lo
	csel	w11, w13, w12, hi
	stp	w15, w16, [x9, #40]
	stp	w10, w11, [x9, #32]
	b	.LBB315b4148_67
.LBB315b4148_40:
	lsr	x9, x23, #1
	add	x8, x20, x21, lsl #2
	mov	x10, x9
	b	.LBB315b4148_42
.LBB315b4148_41:
	cbz	x10, .LBB315b4148_52
.LBB315b4148_42:
	sub	x10, x10, #1
	mov	x11, x10
	b	.LBB315b4148_45
.LBB315b4148_43:
	str	w14, [x8, x12, lsl #2]
	str	w13, [x8, x11, lsl #2]
.LBB315b4148_44:
	cmp	x11, x9
	b.hs	.LBB315b4148_41
.LBB315b4148_45:
	mov	x12, x11
	mov	w11, #1
	lsl	x13, x12, #1
	bfi	x11, x12, #1, #63
	add	x13, x13, #2
	cmp	x13, x23
	b.eq	.LBB315b4148_47
	ldr	w14, [x8, x11, lsl #2]
	ldr	w15, [x8, x13, lsl #2]
	cmp	w14, w15
	csel	x11, x13, x11, lo
.LBB315b4148_47:
	ldr	w13, [x8, x12, lsl #2]
	ldr	w14, [x8, x11, lsl #2]
	cmp	w13, w14
	b.hs	.LBB315b4148_41
	cmp	x12, x11
	b.lo	.LBB315b4148_43
	cmp	x11, x12
	b.hs	.LBB315b4148_44
	str	w13, [x8, x11, lsl #2]
	str	w14, [x8, x12, lsl #2]
	b	.LBB315b4148_44
.LBB315b4148_51:
	cmp	x23, #1
	b.ls	.LBB315b4148_76
.LBB315b4148_52:
	sub	x23, x23, #1
	ldr	w11, [x8]
	ldr	w10, [x8, x23, lsl #2]
	lsr	x9, x23, #1
	str	w10, [x8]
	str	w11, [x8, x23, lsl #2]
	cbz	x9, .LBB315b4148_51
	mov	x10, xzr
	b	.LBB315b4148_56
.LBB315b4148_54:
	str	w13, [x8, x11, lsl #2]
	str	w12, [x8, x10, lsl #2]
.LBB315b4148_55:
	cmp	x10, x9
	b.hs	.LBB315b4148_51
.LBB315b4148_56:
	mov	x11, x10
	mov	w10, #1
	lsl	x12, x11, #1
	bfi	x10, x11, #1, #63
	add	x12, x12, #2
	cmp	x12, x23
	b.eq	.LBB315b4148_58
	ldr	w13, [x8, x10, lsl #2]
	ldr	w14, [x8, x12, lsl #2]
	cmp	w13, w14
	csel	x10, x12, x10, lo
.LBB315b4148_58:
	ldr	w12, [x8, x11, lsl #2]
	ldr	w13, [x8, x10, lsl #2]
	cmp	w12, w13
	b.hs	.LBB315b4148_51
	cmp	x11, x10
	b.lo	.LBB315b4148_54
	cmp	x10, x11
	b.hs	.LBB315b4148_55
	str	w12, [x8, x10, lsl #2]
	str	w13, [x8, x11, lsl #2]
	b	.LBB315b4148_55
.LBB315b4148_62:
	cmp	x8, #12
	b.lo	.LBB315b4148_64
	ldp	w10, w13, [x9, #32]
	ldp	w11, w12, [x9]
	ldp	w15, w14, [x9, #24]
	cmp	w10, w11
	csel	w16, w10, w11, hi
	csel	w10, w10, w11, lo
	cmp	w14, w12
	ldp	w11, w17, [x9, #8]
	csel	w18, w14, w12, hi
	csel	w12, w14, w12, lo
	ldp	w2, w14, [x9, #40]
	cmp	w15, w11
	csel	w1, w15, w11, hi
	csel	w11, w15, w11, lo
	ldp	w0, w15, [x9, #16]
	cmp	w14, w17
	csel	w3, w14, w17, hi
	csel	w14, w14, w17, lo
	cmp	w2, w0
	csel	w17, w2, w0, hi
	csel	w0, w2, w0, lo
	cmp	w13, w15
	csel	w2, w13, w15, hi
	csel	w13, w13, w15, lo
	cmp	w12, w10
	csel	w15, w12, w10, hi
	csel	w10, w12, w10, lo
	cmp	w13, w11
	csel	w12, w13, w11, hi
	csel	w11, w13, w11, lo
	cmp	w0, w14
	csel	w13, w0, w14, hi
	csel	w14, w0, w14, lo
	cmp	w2, w1
	csel	w0, w2, w1, hi
	csel	w1, w2, w1, lo
	cmp	w16, w18
	csel	w2, w16, w18, hi
	csel	w16, w16, w18, lo
	cmp	w3, w17
	csel	w18, w3, w17, hi
	csel	w17, w3, w17, lo
	cmp	w11, w10
	csel	w3, w11, w10, hi
	csel	w10, w11, w10, lo
	cmp	w1, w15
	csel	w11, w1, w15, hi
	csel	w15, w1, w15, lo
	cmp	w17, w12
	csel	w1, w17, w12, hi
	csel	w12, w17, w12, lo
	cmp	w18, w0
	csel	w17, w18, w0, hi
	csel	w18, w18, w0, lo
	cmp	w14, w10
	csel	w0, w14, w10, hi
	csel	w10, w14, w10, lo
	cmp	w3, w15
	csel	w14, w3, w15, hi
	csel	w15, w3, w15, lo
	cmp	w11, w13
	csel	w3, w11, w13, hi
	csel	w11, w11, w13, lo
	cmp	w16, w12
	csel	w13, w16, w12, hi
	csel	w12, w16, w12, lo
	cmp	w17, w2
	csel	w16, w17, w2, hi
	csel	w17, w17, w2, lo
	cmp	w1, w18
	csel	w2, w1, w18, hi
	csel	w18, w1, w18, lo
	cmp	w11, w15
	csel	w1, w11, w15, hi
	csel	w11, w11, w15, lo
	cmp	w12, w0
	csel	w15, w12, w0, hi
	csel	w12, w12, w0, lo
	cmp	w17, w3
	csel	w0, w17, w3, hi
	csel	w17, w17, w3, lo
	cmp	w2, w13
	csel	w3, w2, w13, hi
	csel	w13, w2, w13, lo
	cmp	w12, w11
	csel	w2, w12, w11, hi
	csel	w11, w12, w11, lo
	cmp	w15, w14
	csel	w12, w15, w14, hi
	csel	w14, w15, w14, lo
	cmp	w18, w17
	csel	w15, w18, w17, hi
	csel	w17, w18, w17, lo
	cmp	w3, w0
	csel	w18, w3, w0, hi
	stp	w10, w11, [x9]
	csel	w10, w3, w0, lo
	cmp	w2, w14
	stp	w18, w16, [x9, #40]
	csel	w11, w2, w14, hi
	csel	w14, w2, w14, lo
	cmp	w12, w1
	csel	w16, w12, w1, hi
	csel	w12, w12, w1, lo
	cmp	w13, w17
	csel	w18, w13, w17, hi
	csel	w13, w13, w17, lo
	cmp	w15, w10
	csel	w17, w15, w10, hi
	csel	w10, w15, w10, lo
	cmp	w13, w12
	csel	w15, w13, w12, hi
	csel	w12, w13, w12, lo
	cmp	w18, w16
	csel	w13, w18, w16, hi
	csel	w16, w18, w16, lo
	cmp	w12, w11
	csel	w18, w12, w11, lo
	csel	w11, w12, w11, hi
	cmp	w15, w16
	csel	w12, w15, w16, lo
	stp	w14, w18, [x9, #8]
	stp	w11, w12, [x9, #16]
	csel	w11, w15, w16, hi
	cmp	w10, w13
	csel	w12, w10, w13, lo
	csel	w10, w10, w13, hi
	stp	w11, w12, [x9, #24]
	stp	w10, w17, [x9, #32]
	b	.LBB315b4148_67
.LBB315b4148_64:
	cmp	x8, #8
	b.lo	.LBB315b4148_66
	ldp	w10, w11, [x9]
	ldp	w12, w13, [x9, #8]
	ldp	w14, w15, [x9, #16]
	ldp	w16, w17, [x9, #24]
	cmp	w12, w10
	csel	w18, w12, w10, hi
	csel	w10, w12, w10, lo
	cmp	w13, w11
	csel	w12, w13, w11, hi
	csel	w11, w13, w11, lo
	cmp	w16, w14
	csel	w13, w16, w14, hi
	csel	w14, w16, w14, lo
	cmp	w17, w15
	csel	w16, w17, w15, hi
	csel	w15, w17, w15, lo
	cmp	w14, w10
	csel	w17, w14, w10, hi
	csel	w10, w14, w10, lo
	cmp	w15, w11
	csel	w14, w15, w11, hi
	csel	w11, w15, w11, lo
	cmp	w13, w18
	csel	w15, w13, w18, hi
	csel	w13, w13, w18, lo
	cmp	w16, w12
	csel	w18, w16, w12, hi
	csel	w12, w16, w12, lo
	cmp	w11, w10
	csel	w16, w11, w10, hi
	csel	w10, w11, w10, lo
	cmp	w12, w13
	csel	w11, w12, w13, hi
	csel	w12, w12, w13, lo
	cmp	w14, w17
	csel	w13, w14, w17, hi
	csel	w14, w14, w17, lo
	cmp	w18, w15
	csel	w17, w18, w15, hi
	csel	w15, w18, w15, lo
	cmp	w14, w12
	csel	w18, w14, w12, hi
	csel	w12, w14, w12, lo
	cmp	w13, w11
	csel	w14, w13, w11, hi
	csel	w11, w13, w11, lo
	cmp	w18, w16
	csel	w13, w18, w16, hi
	csel	w16, w18, w16, lo
	cmp	w15, w11
	csel	w18, w15, w11, hi
	csel	w11, w15, w11, lo
	cmp	w12, w16
	csel	w15, w12, w16, lo
	stp	w10, w15, [x9]
	csel	w10, w12, w16, hi
	cmp	w13, w11
	csel	w12, w13, w11, lo
	stp	w10, w12, [x9, #8]
	csel	w10, w13, w11, hi
	cmp	w18, w14
	csel	w11, w18, w14, lo
	stp	w10, w11, [x9, #16]
	csel	w10, w18, w14, hi
	stp	w10, w17, [x9, #24]
	b	.LBB315b4148_67
.LBB315b4148_66:
	cmp	x8, #2
	b.lo	.LBB315b4148_76
.LBB315b4148_67:
	mov	w10, #1
	mov	x11, x9
	b	.LBB315b4148_71
.LBB315b4148_68:
	lsl	x13, x13, #2
.LBB315b4148_69:
	str	w12, [x9, x13]
.LBB315b4148_70:
	add	x10, x10, #1
	add	x11, x11, #4
	cmp	x10, x8
	b.eq	.LBB315b4148_76
.LBB315b4148_71:
	sub	x13, x10, #1
	ldr	w12, [x9, x10, lsl #2]
	ldr	w14, [x9, x13, lsl #2]
	cmp	w12, w14
	b.hs	.LBB315b4148_70
	str	w14, [x9, x10, lsl #2]
	cbz	x13, .LBB315b4148_69
	mov	x15, x11
	mov	x14, x11
.LBB315b4148_74:
	ldr	w16, [x14, #-4]!
	cmp	w12, w16
	b.hs	.LBB315b4148_68
	sub	x13, x13, #1
	str	w16, [x15]
	mov	x15, x14
	cbnz	x13, .LBB315b4148_74
	b	.LBB315b4148_68
.LBB315b4148_76:
	ldp	x20, x19, [sp, #64]
	ldr	x25, [sp, #16]
	ldp	x22, x21, [sp, #48]
	ldp	x24, x23, [sp, #32]
	ldp	x29, x30, [sp], #80
	ret
.Lfunc_end315b4148:
	.size	core.slice.sort.unstable.quicksort.190f92464ae8a1e1, .Lfunc_end315b4148-core.slice.sort.unstable.quicksort.190f92464ae8a1e1

	.section	.text.core.slice.sort.pivot.median_of_medians.190f92464ae8a1e1,"ax",@progbits
	.p2align	2
	.type	core.slice.sort.pivot.median_of_medians.190f92464ae8a1e1,@function
core.slice.sort.pivot.median_of_medians.190f92464ae8a1e1:
	stp	x29, x30, [sp, #-80]!
	stp	x20, x19, [sp, #64]
	mov	x19, x3
	mov	x20, x2
	cmp	x4, #8
	str	x25, [sp, #16]
	mov	x29, sp
	stp	x24, x23, [sp, #32]
	stp	x22, x21, [sp, #48]
	b.hs	.LBB71ffa8e2_2
	ldr	w8, [x0, x1, lsl #2]
	ldr	w9, [x0, x20, lsl #2]
	ldr	w10, [x0, x19, lsl #2]
	cmp	w8, w9
	cset	w11, lo
	cmp	w8, w10
	cset	w8, lo
	cmp	w9, w10
	cset	w9, lo
	eor	w8, w11, w8
	eor	w9, w11, w9
	cmp	w9, #0
	csel	x9, x19, x20, ne
	cmp	w8, #0
	csel	x0, x1, x9, ne
	ldp	x20, x19, [sp, #64]
	ldr	x25, [sp, #16]
	ldp	x22, x21, [sp, #48]
	ldp	x24, x23, [sp, #32]
	ldp	x29, x30, [sp], #80
	ret
.LBB71ffa8e2_2:
	lsr	x21, x4, #3
	mov	x22, x0
	lsl	x8, x21, #3
	lsl	x24, x21, #2
	mov	x4, x21
	sub	x25, x8, x21
	add	x2, x24, x1
	add	x3, x25, x1
	bl	core.slice.sort.pivot.median_of_medians.190f92464ae8a1e1
	mov	x23, x0
	add	x2, x24, x20
	add	x3, x25, x20
	mov	x0, x22
	mov	x1, x20
	mov	x4, x21
	bl	core.slice.sort.pivot.median_of_medians.190f92464ae8a1e1
	mov	x20, x0
	add	x2, x24, x19
	add	x3, x25, x19
	mov	x0, x22
	mov	x1, x19
	mov	x4, x21
	bl	core.slice.sort.pivot.median_of_medians.190f92464ae8a1e1
	ldr	w8, [x22, x23, lsl #2]
	ldr	w9, [x22, x20, lsl #2]
	ldr	w10, [x22, x0, lsl #2]
	cmp	w8, w9
	cset	w11, lo
	cmp	w8, w10
	cset	w8, lo
	cmp	w9, w10
	cset	w9, lo
	eor	w8, w11, w8
	eor	w9, w11, w9
	cmp	w9, #0
	csel	x9, x0, x20, ne
	cmp	w8, #0
	csel	x0, x23, x9, ne
	ldp	x20, x19, [sp, #64]
	ldr	x25, [sp, #16]
	ldp	x22, x21, [sp, #48]
	ldp	x24, x23, [sp, #32]
	ldp	x29, x30, [sp], #80
	ret
.Lfunc_end71ffa8e2:
	.size	core.slice.sort.pivot.median_of_medians.190f92464ae8a1e1, .Lfunc_end71ffa8e2-core.slice.sort.pivot.median_of_medians.190f92464ae8a1e1

	.section	.text.core.slice.edits.mirror._27_hll_coupons.coupon.Coupon,"ax",@progbits
	.p2align	2
	.type	core.slice.edits.mirror._27_hll_coupons.coupon.Coupon,@function
core.slice.edits.mirror._27_hll_coupons.coupon.Coupon:
	lsl	x8, x2, #2
	add	x9, x1, x8
	add	x8, x0, x8
	cmp	x0, x9
	ccmp	x1, x8, #2, lo
	b.lo	.LBBce6058b4_4
	add	x9, x1, x2, lsl #2
	and	x8, x2, #0x7ffffffffffffffc
	mov	x10, x0
	and	x11, x2, #0x7ffffffffffffffc
	sub	x9, x9, #16
.LBBce6058b4_2:
	ldr	q0, [x9]
	ldr	q1, [x10]
	subs	x11, x11, #4
	rev64	v0.4s, v0.4s
	rev64	v1.4s, v1.4s
	ext	v0.16b, v0.16b, v0.16b, #8
	ext	v1.16b, v1.16b, v1.16b, #8
	str	q0, [x10], #16
	str	q1, [x9], #-16
	b.ne	.LBBce6058b4_2
	cmp	x2, x8
	b.ne	.LBBce6058b4_5
	b	.LBBce6058b4_7
.LBBce6058b4_4:
	mov	x8, xzr
.LBBce6058b4_5:
	add	x9, x0, x8, lsl #2
	sub	x8, x2, x8
	sub	x10, x1, #4
.LBBce6058b4_6:
	ldr	w11, [x10, x8, lsl #2]
	ldr	w12, [x9]
	str	w11, [x9], #4
	str	w12, [x10, x8, lsl #2]
	subs	x8, x8, #1
	b.ne	.LBBce6058b4_6
.LBBce6058b4_7:
	ret
.Lfunc_endce6058b4:
	.size	core.slice.edits.mirror._27_hll_coupons.coupon.Coupon, .Lfunc_endce6058b4-core.slice.edits.mirror._27_hll_coupons.coupon.Coupon

	.section	.text.hll_coupons.filling.put_by_cycles.8a2f8b2564a2651f,"ax",@progbits
	.p2align	2
	.type	hll_coupons.filling.put_by_cycles.8a2f8b2564a2651f,@function
hll_coupons.filling.put_by_cycles.8a2f8b2564a2651f:
	sub	sp, sp, #112
	movi	v0.2d, #0000000000000000
	stp	x29, x30, [sp, #32]
	add	x29, sp, #32
	stp	x24, x23, [sp, #64]
	mov	x23, x0
	add	x8, x29, #24
	stp	x22, x21, [sp, #80]
	mov	x21, x2
	mov	w22, w1
	stp	x20, x19, [sp, #96]
	mov	x20, x3
	str	x25, [sp, #48]
	stp	q0, q0, [sp]
	str	x8, [sp, #8]
	b	.LBB20af74d2_2
.LBB20af74d2_1:
	sub	x20, x20, #1
.LBB20af74d2_2:
	cbz	x20, .LBB20af74d2_12
	ldr	w3, [x21], #4
	cbz	w3, .LBB20af74d2_1
	mov	x1, sp
	mov	x0, x23
	mov	w2, w22
	bl	hll_coupons.filling.put_absent.8a2f8b2564a2651f
	tst	w0, #0xff
	b.eq	.LBB20af74d2_1
	ldp	x20, x23, [sp, #8]
	mov	w19, w1
	ldr	x22, [sp, #24]
	cbz	x23, .LBB20af74d2_22
	add	x24, x20, #40
	b	.LBB20af74d2_8
.LBB20af74d2_7:
	subs	x23, x23, #1
	add	x24, x24, #72
	b.eq	.LBB20af74d2_22
.LBB20af74d2_8:
	ldp	x8, x21, [x24]
	ldr	x25, [x24, #24]
	cbz	x8, .LBB20af74d2_10
	ldur	x0, [x24, #-16]
	bl	rattle_dealloc
.LBB20af74d2_10:
	cbz	x25, .LBB20af74d2_7
	mov	x0, x21
	bl	rattle_dealloc
	b	.LBB20af74d2_7
.LBB20af74d2_12:
	ldp	x19, x21, [sp, #8]
	ldr	x22, [sp, #24]
	cbz	x21, .LBB20af74d2_19
	add	x23, x19, #40
	b	.LBB20af74d2_15
.LBB20af74d2_14:
	subs	x21, x21, #1
	add	x23, x23, #72
	b.eq	.LBB20af74d2_19
.LBB20af74d2_15:
	ldp	x8, x20, [x23]
	ldr	x24, [x23, #24]
	cbz	x8, .LBB20af74d2_17
	ldur	x0, [x23, #-16]
	bl	rattle_dealloc
.LBB20af74d2_17:
	cbz	x24, .LBB20af74d2_14
	mov	x0, x20
	bl	rattle_dealloc
	b	.LBB20af74d2_14
.LBB20af74d2_19:
	cbz	x22, .LBB20af74d2_21
	mov	x0, x19
	bl	rattle_dealloc
.LBB20af74d2_21:
	mov	w0, wzr
	mov	w19, wzr
	b	.LBB20af74d2_25
.LBB20af74d2_22:
	cbz	x22, .LBB20af74d2_24
	mov	x0, x20
	bl	rattle_dealloc
.LBB20af74d2_24:
	mov	w0, #1
.LBB20af74d2_25:
	mov	w1, w19
	ldp	x20, x19, [sp, #96]
	ldp	x22, x21, [sp, #80]
	ldr	x25, [sp, #48]
	ldp	x24, x23, [sp, #64]
	ldp	x29, x30, [sp, #32]
	add	sp, sp, #112
	ret
.Lfunc_end20af74d2:
	.size	hll_coupons.filling.put_by_cycles.8a2f8b2564a2651f, .Lfunc_end20af74d2-hll_coupons.filling.put_by_cycles.8a2f8b2564a2651f

	.section	.text.hll_coupons.filling.put_absent.8a2f8b2564a2651f,"ax",@progbits
	.p2align	2
	.type	hll_coupons.filling.put_absent.8a2f8b2564a2651f,@function
hll_coupons.filling.put_absent.8a2f8b2564a2651f:
	sub	sp, sp, #112
	stp	x28, x27, [sp, #32]
	ldrb	w27, [x0, #16]
	stp	x24, x23, [sp, #64]
	ldr	x23, [x0]
	stp	x22, x21, [sp, #80]
	mov	w21, w3
	mov	w22, w2
	stp	x20, x19, [sp, #96]
	mov	x19, x0
	mov	x20, x1
	stp	x29, x30, [sp, #16]
	add	x29, sp, #16
	stp	x26, x25, [sp, #48]
	cbz	w27, .LBB02310beb_2
	ldp	x24, x25, [x19, #24]
	ldr	x1, [x20, #16]
	and	w28, w21, #0x3ffffff
	tst	w22, #0x1
	csel	w26, w28, w21, ne
	stp	xzr, xzr, [sp]
	cbnz	x1, .LBB02310beb_3
	b	.LBB02310beb_4
.LBB02310beb_2:
	add	x24, x19, #20
	mov	w25, #8
	ldr	x1, [x20, #16]
	and	w28, w21, #0x3ffffff
	tst	w22, #0x1
	csel	w26, w28, w21, ne
	stp	xzr, xzr, [sp]
	cbz	x1, .LBB02310beb_4
.LBB02310beb_3:
	ldr	x0, [x20, #8]
	mov	x2, x23
	mov	w3, w26
	bl	hll_coupons.long_searches.LongSearches.end_by_cycle.309f015d8caa795c
	and	w8, w0, #0xff
	cmp	w8, #1
	b.eq	.LBB02310beb_15
.LBB02310beb_4:
	cmp	x25, #64
	mov	w8, #64
	csel	x7, x25, x8, lo
	cbz	x25, .LBB02310beb_12
	mov	x8, #-1
	lsr	w9, w28, w23
	mov	x10, x7
	lsl	x8, x8, x23
	orr	w9, w9, #0x1
	mvn	x8, x8
	and	x1, x8, x26
	tbz	w22, #0, .LBB02310beb_9
.LBB02310beb_6:
	ldr	w11, [x24, x1, lsl #2]
	cbz	w11, .LBB02310beb_15
	and	w11, w11, #0x3ffffff
	cmp	w11, w26
	b.eq	.LBB02310beb_15
	add	x11, x1, x9
	subs	x10, x10, #1
	and	x1, x11, x8
	b.ne	.LBB02310beb_6
	b	.LBB02310beb_12
.LBB02310beb_9:
	ldr	w11, [x24, x1, lsl #2]
	cbz	w11, .LBB02310beb_15
	cmp	w11, w26
	b.eq	.LBB02310beb_15
	add	x11, x1, x9
	subs	x10, x10, #1
	and	x1, x11, x8
	b.ne	.LBB02310beb_9
.LBB02310beb_12:
	mov	x0, sp
	mov	x1, x20
	mov	w2, w22
	mov	x3, x23
	mov	x4, x24
	mov	x5, x25
	mov	w6, w26
	bl	hll_coupons.long_searches.LongSearches.end_of_long.8a2f8b2564a2651f
	ldrb	w0, [sp]
	cbz	w0, .LBB02310beb_14
	ldrb	w1, [sp, #1]
	b	.LBB02310beb_23
.LBB02310beb_14:
	ldr	x1, [sp, #8]
	ldrb	w27, [x19, #16]
.LBB02310beb_15:
	cbz	w27, .LBB02310beb_17
	ldr	x8, [x19, #24]
	str	w21, [x8, x1, lsl #2]
	ldr	x8, [x19, #8]
	add	x8, x8, #1
	str	x8, [x19, #8]
	ldr	x8, [x20, #16]
	cbnz	x8, .LBB02310beb_18
	b	.LBB02310beb_22
.LBB02310beb_17:
	add	x8, x19, x1, lsl #2
	str	w21, [x8, #20]
	ldr	x8, [x19, #8]
	add	x8, x8, #1
	str	x8, [x19, #8]
	ldr	x8, [x20, #16]
	cbz	x8, .LBB02310beb_22
.LBB02310beb_18:
	ldr	x9, [x20, #8]
	add	x9, x9, #24
	b	.LBB02310beb_20
.LBB02310beb_19:
	subs	x8, x8, #1
	add	x9, x9, #72
	b.eq	.LBB02310beb_22
.LBB02310beb_20:
	ldp	x10, x12, [x9, #-8]
	mov	x13, #-1
	ldur	x11, [x9, #-24]
	mul	x10, x10, x1
	lsl	x11, x13, x11
	bic	x10, x10, x11
	lsr	x11, x10, #3
	and	x13, x11, #0xffffffffffffff8
	mov	w11, #1
	ldr	x14, [x12, x13]
	lsl	x15, x11, x10
	ldr	x11, [x9, #24]
	bics	x14, x14, x15
	str	x14, [x12, x13]
	b.ne	.LBB02310beb_19
	lsr	x12, x10, #9
	lsr	x10, x10, #6
	mov	w13, #1
	and	x12, x12, #0x3ffffffffffff8
	lsl	x10, x13, x10
	ldr	x14, [x11, x12]
	bic	x10, x14, x10
	str	x10, [x11, x12]
	b	.LBB02310beb_19
.LBB02310beb_22:
	mov	w0, wzr
	mov	w1, wzr
.LBB02310beb_23:
	ldp	x20, x19, [sp, #96]
	ldp	x22, x21, [sp, #80]
	ldp	x24, x23, [sp, #64]
	ldp	x26, x25, [sp, #48]
	ldp	x28, x27, [sp, #32]
	ldp	x29, x30, [sp, #16]
	add	sp, sp, #112
	ret
.Lfunc_end02310beb:
	.size	hll_coupons.filling.put_absent.8a2f8b2564a2651f, .Lfunc_end02310beb-hll_coupons.filling.put_absent.8a2f8b2564a2651f

	.section	.text.hll_coupons.long_searches.LongSearches.end_by_cycle.309f015d8caa795c,"ax",@progbits
	.p2align	2
	.type	hll_coupons.long_searches.LongSearches.end_by_cycle.309f015d8caa795c,@function
hll_coupons.long_searches.LongSearches.end_by_cycle.309f015d8caa795c:
	cbz	x1, .LBB39fb2916_5
	stp	x29, x30, [sp, #-32]!
	and	w8, w3, #0x3ffffff
	stp	x20, x19, [sp, #16]
	mov	x29, sp
	lsr	w8, w8, w2
	orr	w19, w8, #0x1
	add	x8, x0, #32
.LBB39fb2916_2:
	ldur	w9, [x8, #-24]
	cmp	w9, w19
	b.eq	.LBB39fb2916_6
	subs	x1, x1, #1
	add	x8, x8, #72
	b.ne	.LBB39fb2916_2
	mov	w0, wzr
	ldp	x20, x19, [sp, #16]
	ldp	x29, x30, [sp], #32
	ret
.LBB39fb2916_5:
	mov	w0, wzr
	ret
.LBB39fb2916_6:
	ldp	x9, x0, [x8, #-16]
	mov	w10, w3
	ldur	x11, [x8, #-32]
	ldp	x2, x3, [x8, #16]
	ldr	x1, [x8]
	mul	x9, x9, x10
	mov	x10, #-1
	lsl	x20, x10, x11
	bic	x4, x9, x20
	bl	hll_coupons.cycle.next_round
	mul	x8, x1, x19
	ands	w0, w0, #0x1
	bic	x8, x8, x20
	csel	x1, x8, xzr, ne
	ldp	x20, x19, [sp, #16]
	ldp	x29, x30, [sp], #32
	ret
.Lfunc_end39fb2916:
	.size	hll_coupons.long_searches.LongSearches.end_by_cycle.309f015d8caa795c, .Lfunc_end39fb2916-hll_coupons.long_searches.LongSearches.end_by_cycle.309f015d8caa795c

	.section	.text.hll_coupons.cycle.next_round,"ax",@progbits
	.p2align	2
	.type	hll_coupons.cycle.next_round,@function
hll_coupons.cycle.next_round:
	lsr	x8, x4, #6
	cmp	x8, x1
	b.ne	.LBB1fc758d1_4
.LBB1fc758d1_1:
	cbz	x1, .LBB1fc758d1_6
	ldr	x8, [x0]
	cbz	x8, .LBB1fc758d1_10
	rbit	x8, x8
	mov	w0, #1
	clz	x1, x8
	ret
.LBB1fc758d1_4:
	ldr	x9, [x0, x8, lsl #3]
	lsr	x9, x9, x4
	lsl	x9, x9, x4
	cbz	x9, .LBB1fc758d1_7
	rbit	x8, x9
	and	x9, x4, #0xffffffffffffffc0
	mov	w0, #1
	clz	x8, x8
	orr	x1, x8, x9
	ret
.LBB1fc758d1_6:
	mov	w0, wzr
	ret
.LBB1fc758d1_7:
	add	x8, x8, #1
	lsr	x9, x8, #6
	cmp	x9, x3
	b.eq	.LBB1fc758d1_1
	ldr	x10, [x2, x9, lsl #3]
	lsr	x10, x10, x8
	lsl	x10, x10, x8
	cbz	x10, .LBB1fc758d1_13
	rbit	x9, x10
	and	x8, x8, #0x7ffffffffffffc0
	clz	x9, x9
	orr	x8, x9, x8
	ldr	x9, [x0, x8, lsl #3]
	mov	w0, #1
	rbit	x9, x9
	clz	x9, x9
	add	x1, x9, x8, lsl #6
	ret
.LBB1fc758d1_10:
	cbz	x3, .LBB1fc758d1_21
	ldr	x8, [x2]
	ands	x8, x8, #0xfffffffffffffffe
	b.eq	.LBB1fc758d1_17
	rbit	x8, x8
	clz	x8, x8
	ldr	x9, [x0, x8, lsl #3]
	mov	w0, #1
	rbit	x9, x9
	clz	x9, x9
	add	x1, x9, x8, lsl #6
	ret
.LBB1fc758d1_13:
	lsl	x8, x9, #6
	add	x9, x9, #1
.LBB1fc758d1_14:
	cmp	x9, x3
	b.hs	.LBB1fc758d1_1
	ldr	x10, [x2, x9, lsl #3]
	add	x8, x8, #64
	add	x9, x9, #1
	cbz	x10, .LBB1fc758d1_14
	rbit	x9, x10
	clz	x9, x9
	add	x8, x9, x8
	ldr	x9, [x0, x8, lsl #3]
	mov	w0, #1
	rbit	x9, x9
	clz	x9, x9
	add	x1, x9, x8, lsl #6
	ret
.LBB1fc758d1_17:
	sub	x9, x3, #1
	add	x10, x2, #8
.LBB1fc758d1_18:
	cbz	x9, .LBB1fc758d1_21
	ldr	x11, [x10], #8
	sub	x9, x9, #1
	sub	x8, x8, #64
	cbz	x11, .LBB1fc758d1_18
	rbit	x9, x11
	clz	x9, x9
	sub	x8, x9, x8
	ldr	x9, [x0, x8, lsl #3]
	mov	w0, #1
	rbit	x9, x9
	clz	x9, x9
	add	x1, x9, x8, lsl #6
	ret
.LBB1fc758d1_21:
	mov	w0, wzr
	mov	x1, xzr
	ret
.Lfunc_end1fc758d1:
	.size	hll_coupons.cycle.next_round, .Lfunc_end1fc758d1-hll_coupons.cycle.next_round

	.section	.text.hll_coupons.long_searches.LongSearches.end_of_long.8a2f8b2564a2651f,"ax",@progbits
	.p2align	2
	.type	hll_coupons.long_searches.LongSearches.end_of_long.8a2f8b2564a2651f,@function
hll_coupons.long_searches.LongSearches.end_of_long.8a2f8b2564a2651f:
	sub	sp, sp, #144
	stp	x26, x25, [sp, #80]
	mov	w25, w6
	stp	x24, x23, [sp, #96]
	mov	x23, x5
	mov	x24, x4
	stp	x22, x21, [sp, #112]
	mov	x21, x3
	stp	x20, x19, [sp, #128]
	mov	x20, x1
	mov	x19, x0
	add	x0, sp, #16
	mov	w1, w2
	mov	x2, x3
	mov	x3, x4
	mov	x4, x5
	mov	w5, w6
	mov	x6, x7
	stp	x29, x30, [sp, #48]
	add	x29, sp, #48
	stp	x28, x27, [sp, #64]
	stp	xzr, xzr, [sp, #16]
	str	xzr, [sp, #32]
	bl	hll_coupons.search.search_on
	ldrb	w8, [sp, #16]
	cmp	w8, #1
	b.ne	.LBBa0bdc0ae_34
	ldp	x10, x8, [sp, #24]
	ldr	x9, [x20]
	adds	x8, x8, x9
	csinv	x8, x8, xzr, lo
	cmp	x21, #6
	str	x8, [x20]
	b.lo	.LBBa0bdc0ae_27
	mov	w9, #4
	lsl	x9, x9, x21
	cmp	x9, x8
	b.hi	.LBBa0bdc0ae_27
	lsr	x28, x23, #6
	str	x10, [sp, #8]
	str	xzr, [x20]
	cbz	x28, .LBBa0bdc0ae_8
	lsl	x26, x28, #3
	mov	w1, #8
	mov	x0, x26
	bl	rattle_alloc
	tbz	w0, #0, .LBBa0bdc0ae_24
	mov	x22, x1
	subs	x27, x28, #1
	b.eq	.LBBa0bdc0ae_7
	sub	x2, x26, #8
	mov	x0, x22
	mov	w1, wzr
	bl	memset
.LBBa0bdc0ae_7:
	add	x26, x27, #1
	str	xzr, [x22, x27, lsl #3]
	and	w8, w25, #0x3ffffff
	lsr	w8, w8, w21
	orr	w25, w8, #0x1
	cbnz	x23, .LBBa0bdc0ae_9
	b	.LBBa0bdc0ae_13
.LBBa0bdc0ae_8:
	mov	x26, xzr
	sub	x22, x29, #8
	and	w8, w25, #0x3ffffff
	lsr	w8, w8, w21
	orr	w25, w8, #0x1
	cbz	x23, .LBBa0bdc0ae_13
.LBBa0bdc0ae_9:
	mov	x10, #-1
	mov	x9, xzr
	mov	x8, xzr
	lsl	x10, x10, x21
	mvn	x10, x10
	b	.LBBa0bdc0ae_11
.LBBa0bdc0ae_10:
	add	x8, x8, #1
	add	x9, x9, x25
	cmp	x23, x8
	and	x9, x9, x10
	b.eq	.LBBa0bdc0ae_13
.LBBa0bdc0ae_11:
	ldr	w11, [x24, x9, lsl #2]
	cbnz	w11, .LBBa0bdc0ae_10
	lsr	x11, x8, #3
	mov	w12, #1
	lsl	x12, x12, x8
	and	x11, x11, #0x1ffffffffffffff8
	ldr	x13, [x22, x11]
	orr	x12, x13, x12
	str	x12, [x22, x11]
	b	.LBBa0bdc0ae_10
.LBBa0bdc0ae_13:
	lsr	x27, x26, #6
	mov	w1, #8
	add	x24, x27, #1
	lsl	x23, x24, #3
	mov	x0, x23
	bl	rattle_alloc
	tbz	w0, #0, .LBBa0bdc0ae_21
	cbz	x27, .LBBa0bdc0ae_16
	sub	x2, x23, #8
	mov	x0, x1
	mov	x23, x1
	mov	w1, wzr
	bl	memset
	mov	x1, x23
.LBBa0bdc0ae_16:
	str	xzr, [x1, x27, lsl #3]
	cbz	x26, .LBBa0bdc0ae_25
	mov	x8, xzr
	b	.LBBa0bdc0ae_19
.LBBa0bdc0ae_18:
	add	x8, x8, #1
	cmp	x26, x8
	b.eq	.LBBa0bdc0ae_25
.LBBa0bdc0ae_19:
	ldr	x9, [x22, x8, lsl #3]
	cbz	x9, .LBBa0bdc0ae_18
	lsr	x9, x8, #3
	mov	w10, #1
	lsl	x10, x10, x8
	and	x9, x9, #0xffffffffffffff8
	ldr	x11, [x1, x9]
	orr	x10, x11, x10
	str	x10, [x1, x9]
	b	.LBBa0bdc0ae_18
.LBBa0bdc0ae_21:
	cbz	x28, .LBBa0bdc0ae_24
	mov	x0, x22
.LBBa0bdc0ae_23:
	bl	rattle_dealloc
.LBBa0bdc0ae_24:
	mov	w8, #3073
	str	xzr, [x19, #8]
	strh	w8, [x19]
	b	.LBBa0bdc0ae_28
.LBBa0bdc0ae_25:
	ldp	x8, x9, [x20, #16]
	cmp	x9, x8
	b.eq	.LBBa0bdc0ae_29
.LBBa0bdc0ae_26:
	mov	w9, #2
	mov	w12, #72
	sub	w10, w9, w25
	msub	w11, w10, w25, w9
	mul	w10, w11, w10
	msub	w11, w10, w25, w9
	mul	w10, w11, w10
	ldr	x11, [x20, #8]
	madd	x11, x8, x12, x11
	add	x8, x8, #1
	msub	w12, w10, w25, w9
	mul	w10, w12, w10
	str	x21, [x11]
	stp	w25, wzr, [x11, #8]
	stp	x26, x28, [x11, #32]
	msub	w9, w10, w25, w9
	stp	x1, x24, [x11, #48]
	str	x24, [x11, #64]
	mul	w9, w9, w10
	ldr	x10, [sp, #8]
	stp	x9, x22, [x11, #16]
	str	x8, [x20, #16]
.LBBa0bdc0ae_27:
	strh	wzr, [x19]
	str	x10, [x19, #8]
.LBBa0bdc0ae_28:
	ldp	x20, x19, [sp, #128]
	ldp	x22, x21, [sp, #112]
	ldp	x24, x23, [sp, #96]
	ldp	x26, x25, [sp, #80]
	ldp	x28, x27, [sp, #64]
	ldp	x29, x30, [sp, #48]
	add	sp, sp, #144
	ret
.LBBa0bdc0ae_29:
	add	x0, x20, #8
	mov	x23, x1
	bl	std_alloc.vec.Vec.grow_amortized.9979bc81490ca4ba
	cbz	w0, .LBBa0bdc0ae_31
	ldr	x8, [x20, #16]
	mov	x1, x23
	b	.LBBa0bdc0ae_26
.LBBa0bdc0ae_31:
	cbz	x28, .LBBa0bdc0ae_33
	mov	x0, x22
	bl	rattle_dealloc
.LBBa0bdc0ae_33:
	mov	x0, x23
	b	.LBBa0bdc0ae_23
.LBBa0bdc0ae_34:
	brk	#0x1
.Lfunc_enda0bdc0ae:
	.size	hll_coupons.long_searches.LongSearches.end_of_long.8a2f8b2564a2651f, .Lfunc_enda0bdc0ae-hll_coupons.long_searches.LongSearches.end_of_long.8a2f8b2564a2651f

	.section	.text.hll_coupons.search.search_on,"ax",@progbits
	.p2align	2
	.type	hll_coupons.search.search_on,@function
hll_coupons.search.search_on:
	cmp	x6, x4
	b.hs	.LBB9360943f_8
	and	w8, w5, #0x3ffffff
	mov	x9, #-1
	lsr	w8, w8, w2
	lsl	x9, x9, x2
	orr	w10, w8, #0x1
	mvn	x11, x9
	mul	x8, x6, x10
	add	x8, x8, w5, uxtw
	and	x9, x8, x11
	mov	x8, x6
	tbz	w1, #0, .LBB9360943f_5
.LBB9360943f_2:
	ldr	w12, [x3, x9, lsl #2]
	cbz	w12, .LBB9360943f_9
	and	w12, w12, #0x3ffffff
	cmp	w12, w5
	b.eq	.LBB9360943f_9
	add	x8, x8, #1
	add	x9, x9, x10
	cmp	x4, x8
	and	x9, x9, x11
	b.ne	.LBB9360943f_2
	b	.LBB9360943f_8
.LBB9360943f_5:
	ldr	w12, [x3, x9, lsl #2]
	cbz	w12, .LBB9360943f_9
	cmp	w12, w5
	b.eq	.LBB9360943f_9
	add	x8, x8, #1
	add	x9, x9, x10
	cmp	x4, x8
	and	x9, x9, x11
	b.ne	.LBB9360943f_5
.LBB9360943f_8:
	stp	xzr, xzr, [x0]
	str	xzr, [x0, #16]
	ret
.LBB9360943f_9:
	mov	w10, #1
	sub	x8, x8, x6
	stp	x10, x9, [x0]
	str	x8, [x0, #16]
	ret
.Lfunc_end9360943f:
	.size	hll_coupons.search.search_on, .Lfunc_end9360943f-hll_coupons.search.search_on

	.section	.text.unlikely.std_alloc.vec.Vec.grow_amortized.9979bc81490ca4ba,"ax",@progbits
	.p2align	2
	.type	std_alloc.vec.Vec.grow_amortized.9979bc81490ca4ba,@function
std_alloc.vec.Vec.grow_amortized.9979bc81490ca4ba:
	ldr	x8, [x0, #8]
	cmn	x8, #1
	b.eq	.LBB9d29b8bd_5
	stp	x29, x30, [sp, #-32]!
	ldr	x9, [x0, #16]
	cmp	x8, #3
	mov	w10, #3
	csel	x11, x8, x10, hi
	stp	x20, x19, [sp, #16]
	mov	x29, sp
	lsl	x10, x9, #1
	add	x12, x11, #1
	lsr	x13, x9, #62
	cmp	x12, x10
	csinc	x10, x10, x11, ls
	cmp	x13, #0
	csinc	x19, x10, x11, eq
	mov	x11, #29127
	movk	x11, #50972, lsl #16
	movk	x11, #7281, lsl #32
	movk	x11, #455, lsl #48
	cmp	x19, x11
	b.hi	.LBB9d29b8bd_7
	cbz	x9, .LBB9d29b8bd_6
	add	x8, x8, x8, lsl #3
	add	x9, x19, x19, lsl #3
	mov	x20, x0
	ldr	x0, [x0]
	mov	w3, #8
	lsl	x1, x8, #3
	lsl	x2, x9, #3
	bl	rattle_realloc
	tbz	w0, #0, .LBB9d29b8bd_7
.LBB9d29b8bd_4:
	mov	w0, #1
	str	x1, [x20]
	str	x19, [x20, #16]
	ldp	x20, x19, [sp, #16]
	ldp	x29, x30, [sp], #32
	ret
.LBB9d29b8bd_5:
	mov	w0, wzr
	ret
.LBB9d29b8bd_6:
	add	x8, x10, x10, lsl #3
	mov	x20, x0
	mov	w1, #8
	lsl	x0, x8, #3
	bl	rattle_alloc
	tbnz	w0, #0, .LBB9d29b8bd_4
.LBB9d29b8bd_7:
	mov	w0, wzr
	ldp	x20, x19, [sp, #16]
	ldp	x29, x30, [sp], #32
	ret
.Lfunc_end9d29b8bd:
	.size	std_alloc.vec.Vec.grow_amortized.9979bc81490ca4ba, .Lfunc_end9d29b8bd-std_alloc.vec.Vec.grow_amortized.9979bc81490ca4ba

	.section	.text.hll_coupons.aux_map_builder.has_mark.8a2f8b2564a2651f,"ax",@progbits
	.p2align	2
	.type	hll_coupons.aux_map_builder.has_mark.8a2f8b2564a2651f,@function
hll_coupons.aux_map_builder.has_mark.8a2f8b2564a2651f:
	stp	x29, x30, [sp, #-80]!
	ldrb	w8, [x1]
	stp	x20, x19, [sp, #64]
	mov	w20, w2
	mov	x19, x1
	str	x25, [sp, #16]
	mov	x29, sp
	cmp	w8, #1
	stp	x24, x23, [sp, #32]
	stp	x22, x21, [sp, #48]
	b.ne	.LBBcf2f071a_2
	mov	w8, w20
	ldr	x10, [x19, #8]
	mov	w21, wzr
	lsr	x9, x8, #3
	and	x9, x9, #0x1ffffff8
	ldr	x9, [x10, x9]
	lsr	x8, x9, x8
	and	w1, w8, #0x1
	b	.LBBcf2f071a_23
.LBBcf2f071a_2:
	ldrb	w8, [x0]
	mov	w21, #1
	mov	x22, x0
	mov	w1, #8
	lsl	x8, x21, x8
	lsr	x25, x8, #6
	add	x24, x25, #1
	lsl	x23, x24, #3
	mov	x0, x23
	bl	rattle_alloc
	tbz	w0, #0, .LBBcf2f071a_7
	cbz	x25, .LBBcf2f071a_5
	sub	x2, x23, #8
	mov	x0, x1
	mov	x21, x1
	mov	w1, wzr
	bl	memset
	mov	x1, x21
.LBBcf2f071a_5:
	str	xzr, [x1, x25, lsl #3]
	ldrb	w8, [x22, #24]
	cbz	w8, .LBBcf2f071a_8
	ldp	x9, x8, [x22, #32]
	cmp	x8, #4
	b.hs	.LBBcf2f071a_9
	b	.LBBcf2f071a_15
.LBBcf2f071a_7:
	mov	w1, #12
	b	.LBBcf2f071a_23
.LBBcf2f071a_8:
	add	x9, x22, #28
	mov	w8, #8
	cmp	x8, #4
	b.lo	.LBBcf2f071a_15
.LBBcf2f071a_9:
	mov	x10, x9
.LBBcf2f071a_10:
	ldr	w11, [x10], #16
	cbnz	w11, .LBBcf2f071a_15
	ldr	w11, [x9, #4]
	cbnz	w11, .LBBcf2f071a_15
	ldr	w11, [x9, #8]
	cbnz	w11, .LBBcf2f071a_15
	ldr	w11, [x9, #12]
	cbnz	w11, .LBBcf2f071a_15
	sub	x8, x8, #4
	mov	x9, x10
	cmp	x8, #3
	b.hi	.LBBcf2f071a_10
	b	.LBBcf2f071a_16
.LBBcf2f071a_15:
	mov	x10, x9
.LBBcf2f071a_16:
	mov	x9, x10
.LBBcf2f071a_17:
	cbz	x8, .LBBcf2f071a_20
	ldr	w10, [x9], #4
	sub	x8, x8, #1
	cbz	w10, .LBBcf2f071a_17
	lsr	x11, x10, #3
	mov	w12, #1
	lsl	x10, x12, x10
	and	x11, x11, #0x7ffff8
	ldr	x13, [x1, x11]
	orr	x10, x13, x10
	str	x10, [x1, x11]
	cmp	x8, #4
	b.lo	.LBBcf2f071a_15
	b	.LBBcf2f071a_9
.LBBcf2f071a_20:
	mov	w8, w20
	ldrb	w11, [x19]
	mov	w10, #1
	lsr	x9, x8, #3
	ldr	x0, [x19, #8]
	mov	w21, wzr
	cmp	w11, #1
	and	x9, x9, #0x1ffffff8
	ldr	x9, [x1, x9]
	stp	x10, x1, [x19]
	lsr	x9, x9, x8
	ldr	x8, [x19, #24]
	stp	x24, x24, [x19, #16]
	and	w1, w9, #0x1
	b.ne	.LBBcf2f071a_23
	cbz	x8, .LBBcf2f071a_23
	mov	w19, w1
	bl	rattle_dealloc
	mov	w1, w19
	mov	w21, wzr
.LBBcf2f071a_23:
	mov	w0, w21
	ldp	x20, x19, [sp, #64]
	ldp	x22, x21, [sp, #48]
	ldr	x25, [sp, #16]
	ldp	x24, x23, [sp, #32]
	ldp	x29, x30, [sp], #80
	ret
.Lfunc_endcf2f071a:
	.size	hll_coupons.aux_map_builder.has_mark.8a2f8b2564a2651f, .Lfunc_endcf2f071a-hll_coupons.aux_map_builder.has_mark.8a2f8b2564a2651f

	.section	.text.hll_registers.exception_map.add_exception.8a2f8b2564a2651f,"ax",@progbits
	.p2align	2
	.type	hll_registers.exception_map.add_exception.8a2f8b2564a2651f,@function
hll_registers.exception_map.add_exception.8a2f8b2564a2651f:
	sub	sp, sp, #368
	movi	v0.2d, #0000000000000000
	ldrb	w8, [x0]
	stp	x29, x30, [sp, #272]
	stp	x28, x27, [sp, #288]
	add	x29, sp, #272
	cmp	w8, #1
	stp	x26, x25, [sp, #304]
	stp	x24, x23, [sp, #320]
	stp	x22, x21, [sp, #336]
	stp	x20, x19, [sp, #352]
	stur	xzr, [sp, #126]
	stp	q0, q0, [sp, #32]
	stp	q0, q0, [sp, #64]
	stp	q0, q0, [sp, #96]
	b.ne	.LBB9118479f_2
	add	x0, x0, #8
	mov	w1, w2
	mov	w2, w3
	bl	hll_registers.exception_map.fill_value.8a2f8b2564a2651f
	mov	w19, w1
	b	.LBB9118479f_49
.LBB9118479f_2:
	and	w8, w1, #0xff
	cmp	w8, #7
	b.hs	.LBB9118479f_6
	mov	x25, x1
	mov	w24, w2
	mov	w23, w3
	mov	x21, x0
	mov	w22, #2
.LBB9118479f_4:
	mov	w8, #4
	mov	w1, #4
	lsl	x20, x8, x22
	mov	x0, x20
	bl	rattle_alloc
	tbz	w0, #0, .LBB9118479f_48
	mov	x19, x1
	mov	w27, #1
	sub	x2, x20, #4
	mov	x0, x1
	mov	w1, wzr
	lsl	x26, x27, x22
	bl	memset
	add	x8, x19, x20
	mov	w3, w23
	mov	w2, w24
	mov	x1, x25
	stur	wzr, [x8, #-4]
	b	.LBB9118479f_8
.LBB9118479f_6:
	cmp	w8, #10
	b.hs	.LBB9118479f_25
	mov	x21, x0
	mov	w27, wzr
	mov	x19, xzr
	mov	x26, xzr
	mov	w22, #3
.LBB9118479f_8:
	movi	v0.2d, #0000000000000000
	add	x20, sp, #136
	strb	w1, [sp, #136]
	sub	x8, x29, #8
	add	x0, sp, #136
	mov	w1, w2
	mov	w2, w3
	stur	wzr, [x20, #1]
	str	wzr, [sp, #140]
	stp	x22, xzr, [sp, #144]
	add	x22, sp, #136
	stp	w27, wzr, [sp, #160]
	stp	x19, x26, [sp, #168]
	stp	x26, xzr, [sp, #184]
	stp	xzr, x8, [sp, #200]
	stp	q0, q0, [x20, #80]
	str	q0, [x20, #112]
	bl	hll_registers.exception_map.fill_value.8a2f8b2564a2651f
	ands	w8, w0, #0xff
	csel	w19, wzr, w1, eq
	cbz	w8, .LBB9118479f_27
	ldrb	w8, [sp, #160]
	cbz	w8, .LBB9118479f_12
	ldr	x8, [sp, #184]
	cbz	x8, .LBB9118479f_12
	ldr	x0, [sp, #168]
	bl	rattle_dealloc
.LBB9118479f_12:
	ldp	x20, x22, [sp, #208]
	ldr	x23, [sp, #224]
	cbz	x22, .LBB9118479f_19
	add	x24, x20, #40
	b	.LBB9118479f_15
.LBB9118479f_14:
	subs	x22, x22, #1
	add	x24, x24, #72
	b.eq	.LBB9118479f_19
.LBB9118479f_15:
	ldp	x8, x21, [x24]
	ldr	x25, [x24, #24]
	cbz	x8, .LBB9118479f_17
	ldur	x0, [x24, #-16]
	bl	rattle_dealloc
.LBB9118479f_17:
	cbz	x25, .LBB9118479f_14
	mov	x0, x21
	bl	rattle_dealloc
	b	.LBB9118479f_14
.LBB9118479f_19:
	cbz	x23, .LBB9118479f_21
	mov	x0, x20
	bl	rattle_dealloc
.LBB9118479f_21:
	ldrb	w8, [sp, #232]
	cmp	w8, #1
	b.ne	.LBB9118479f_24
	ldr	x8, [sp, #256]
	cbz	x8, .LBB9118479f_24
	ldr	x0, [sp, #240]
	bl	rattle_dealloc
.LBB9118479f_24:
	mov	w0, #1
	b	.LBB9118479f_49
.LBB9118479f_25:
	and	w8, w1, #0xff
	cmp	w8, #12
	b.hs	.LBB9118479f_38
	mov	x25, x1
	mov	w24, w2
	mov	w23, w3
	mov	x21, x0
	mov	w22, #4
	b	.LBB9118479f_4
.LBB9118479f_27:
	ldp	q0, q1, [x20]
	ldur	x8, [x22, #120]
	ldrb	w11, [x21]
	ldr	x0, [x21, #40]
	ldrb	w10, [sp, #232]
	str	x8, [sp, #16]
	mov	w8, #1
	ldr	x9, [x21, #56]
	cmp	w11, #1
	stur	q0, [sp, #38]
	ldr	x24, [x21, #96]
	stur	q1, [sp, #54]
	ldr	x12, [sp, #16]
	ldr	x23, [x21, #128]
	str	x8, [x21]
	ldrb	w8, [x21, #32]
	str	x12, [x21, #128]
	ldp	q0, q1, [x20, #32]
	ldp	x19, x25, [x21, #80]
	stur	q0, [sp, #70]
	stur	q1, [sp, #86]
	ldp	q0, q1, [x20, #64]
	ldr	x20, [x21, #112]
	stur	q0, [sp, #102]
	ldur	q0, [x22, #104]
	ldrb	w22, [x21, #104]
	stur	q1, [sp, #118]
	ldur	q1, [sp, #54]
	str	q0, [sp]
	ldur	q0, [sp, #38]
	stur	q1, [x21, #24]
	ldur	q1, [sp, #86]
	stur	q0, [x21, #8]
	ldur	q0, [sp, #70]
	stur	q1, [x21, #56]
	ldur	q1, [sp, #102]
	stur	q0, [x21, #40]
	ldur	q0, [sp, #118]
	stur	q1, [x21, #72]
	stur	q0, [x21, #88]
	ldr	q0, [sp]
	str	x10, [x21, #104]
	str	q0, [x21, #112]
	b.ne	.LBB9118479f_45
	cbz	w8, .LBB9118479f_31
	cbz	x9, .LBB9118479f_31
	bl	rattle_dealloc
.LBB9118479f_31:
	cbz	x25, .LBB9118479f_40
	add	x26, x19, #40
	b	.LBB9118479f_34
.LBB9118479f_33:
	subs	x25, x25, #1
	add	x26, x26, #72
	b.eq	.LBB9118479f_40
.LBB9118479f_34:
	ldp	x8, x21, [x26]
	ldr	x27, [x26, #24]
	cbz	x8, .LBB9118479f_36
	ldur	x0, [x26, #-16]
	bl	rattle_dealloc
.LBB9118479f_36:
	cbz	x27, .LBB9118479f_33
	mov	x0, x21
	bl	rattle_dealloc
	b	.LBB9118479f_33
.LBB9118479f_38:
	cmp	w8, #14
	b.hs	.LBB9118479f_46
	mov	x25, x1
	mov	w24, w2
	mov	w23, w3
	mov	x21, x0
	mov	w22, #5
	b	.LBB9118479f_4
.LBB9118479f_40:
	cbz	x24, .LBB9118479f_42
	mov	x0, x19
	bl	rattle_dealloc
.LBB9118479f_42:
	cmp	w22, #1
	mov	w19, wzr
	mov	w0, wzr
	b.ne	.LBB9118479f_49
	cbz	x23, .LBB9118479f_49
	mov	x0, x20
	bl	rattle_dealloc
.LBB9118479f_45:
	mov	w19, wzr
	mov	w0, wzr
	b	.LBB9118479f_49
.LBB9118479f_46:
	and	w8, w1, #0xff
	cmp	w8, #68
	b.hi	.LBB9118479f_48
	and	x8, x1, #0xff
	mov	w24, w2
	mov	w23, w3
	mov	x21, x0
	mov	x25, x1
	sub	x22, x8, #8
	b	.LBB9118479f_4
.LBB9118479f_48:
	mov	w19, #12
	mov	w0, #1
.LBB9118479f_49:
	mov	w1, w19
	ldp	x20, x19, [sp, #352]
	ldp	x22, x21, [sp, #336]
	ldp	x24, x23, [sp, #320]
	ldp	x26, x25, [sp, #304]
	ldp	x28, x27, [sp, #288]
	ldp	x29, x30, [sp, #272]
	add	sp, sp, #368
	ret
.Lfunc_end9118479f:
	.size	hll_registers.exception_map.add_exception.8a2f8b2564a2651f, .Lfunc_end9118479f-hll_registers.exception_map.add_exception.8a2f8b2564a2651f

	.section	.text.hll_registers.exception_map.fill_value.8a2f8b2564a2651f,"ax",@progbits
	.p2align	2
	.type	hll_registers.exception_map.fill_value.8a2f8b2564a2651f,@function
hll_registers.exception_map.fill_value.8a2f8b2564a2651f:
	stp	x29, x30, [sp, #-80]!
	stp	x20, x19, [sp, #64]
	mov	x19, x0
	mov	w10, #3
	ldp	x9, x8, [x0, #8]!
	mov	w3, w1
	mov	w20, w1
	stp	x26, x25, [sp, #16]
	bfi	w3, w2, #26, #6
	stp	x24, x23, [sp, #32]
	mov	x29, sp
	lsl	x8, x8, #2
	lsl	x10, x10, x9
	stp	x22, x21, [sp, #48]
	add	x8, x8, #4
	cmp	x10, x8
	b.hs	.LBBa8f67c1c_4
	mov	w1, w3
	bl	hll_coupons.aux_map.put_growing.8a2f8b2564a2651f
	tst	w0, #0xff
	b.eq	.LBBa8f67c1c_6
	mov	w0, #1
.LBBa8f67c1c_3:
	ldp	x20, x19, [sp, #64]
	ldp	x22, x21, [sp, #48]
	ldp	x24, x23, [sp, #32]
	ldp	x26, x25, [sp, #16]
	ldp	x29, x30, [sp], #80
	ret
.LBBa8f67c1c_4:
	ldr	x8, [x19, #80]
	cbz	x8, .LBBa8f67c1c_13
.LBBa8f67c1c_5:
	add	x1, x0, #56
	mov	w2, #1
	bl	hll_coupons.filling.put_absent.8a2f8b2564a2651f
	ands	w8, w0, #0xff
	cset	w0, ne
	cbnz	w8, .LBBa8f67c1c_3
	b	.LBBa8f67c1c_18
.LBBa8f67c1c_6:
	mov	x8, x19
	ldr	x22, [x8, #80]!
	stur	xzr, [x8, #-16]
	cbz	x22, .LBBa8f67c1c_17
	ldr	x24, [x19, #72]
	ldr	x23, [x19, #88]
	stp	xzr, xzr, [x8]
	add	x25, x24, #40
	b	.LBBa8f67c1c_9
.LBBa8f67c1c_8:
	subs	x22, x22, #1
	add	x25, x25, #72
	b.eq	.LBBa8f67c1c_16
.LBBa8f67c1c_9:
	ldp	x8, x21, [x25]
	ldr	x26, [x25, #24]
	cbz	x8, .LBBa8f67c1c_11
	ldur	x0, [x25, #-16]
	bl	rattle_dealloc
.LBBa8f67c1c_11:
	cbz	x26, .LBBa8f67c1c_8
	mov	x0, x21
	bl	rattle_dealloc
	b	.LBBa8f67c1c_8
.LBBa8f67c1c_13:
	ldrb	w8, [x19, #24]
	cbz	w8, .LBBa8f67c1c_20
	ldr	x11, [x19, #40]
	mov	w10, #64
	cmp	x11, #64
	csel	x10, x11, x10, lo
	cbz	x11, .LBBa8f67c1c_5
	ldr	x11, [x19, #32]
	b	.LBBa8f67c1c_21
.LBBa8f67c1c_16:
	mov	w0, wzr
	stp	x24, xzr, [x19, #72]
	str	x23, [x19, #88]
	ldrb	w8, [x19, #96]
	cmp	w8, #1
	b.eq	.LBBa8f67c1c_19
	b	.LBBa8f67c1c_29
.LBBa8f67c1c_17:
	mov	w0, wzr
.LBBa8f67c1c_18:
	ldrb	w8, [x19, #96]
	cmp	w8, #1
	b.ne	.LBBa8f67c1c_29
.LBBa8f67c1c_19:
	mov	w8, w20
	ldr	x10, [x19, #104]
	mov	w11, #1
	lsr	x9, x8, #3
	lsl	x8, x11, x8
	mov	w1, wzr
	and	x9, x9, #0x1ffffff8
	ldr	x12, [x10, x9]
	orr	x8, x12, x8
	str	x8, [x10, x9]
	ldp	x20, x19, [sp, #64]
	ldp	x22, x21, [sp, #48]
	ldp	x24, x23, [sp, #32]
	ldp	x26, x25, [sp, #16]
	ldp	x29, x30, [sp], #80
	ret
.LBBa8f67c1c_20:
	add	x11, x19, #28
	mov	w10, #8
.LBBa8f67c1c_21:
	and	w12, w20, #0x3ffffff
	mov	x13, #-1
	lsr	w14, w12, w9
	lsl	x13, x13, x9
	orr	w9, w14, #0x1
	mvn	x14, x13
	bic	x13, x12, x13
.LBBa8f67c1c_22:
	ldr	w15, [x11, x13, lsl #2]
	cbz	w15, .LBBa8f67c1c_25
	and	w15, w15, #0x3ffffff
	cmp	w15, w12
	b.eq	.LBBa8f67c1c_25
	add	x13, x13, x9
	subs	x10, x10, #1
	and	x13, x13, x14
	b.ne	.LBBa8f67c1c_22
	b	.LBBa8f67c1c_5
.LBBa8f67c1c_25:
	cbz	w8, .LBBa8f67c1c_27
	ldr	x8, [x19, #32]
	str	w3, [x8, x13, lsl #2]
	b	.LBBa8f67c1c_28
.LBBa8f67c1c_27:
	add	x8, x19, x13, lsl #2
	str	w3, [x8, #28]
.LBBa8f67c1c_28:
	ldr	x8, [x19, #16]
	mov	w0, wzr
	add	x8, x8, #1
	str	x8, [x19, #16]
	ldrb	w8, [x19, #96]
	cmp	w8, #1
	b.eq	.LBBa8f67c1c_19
.LBBa8f67c1c_29:
	mov	w1, wzr
	ldp	x20, x19, [sp, #64]
	ldp	x22, x21, [sp, #48]
	ldp	x24, x23, [sp, #32]
	ldp	x26, x25, [sp, #16]
	ldp	x29, x30, [sp], #80
	ret
.Lfunc_enda8f67c1c:
	.size	hll_registers.exception_map.fill_value.8a2f8b2564a2651f, .Lfunc_enda8f67c1c-hll_registers.exception_map.fill_value.8a2f8b2564a2651f

	.section	.text.hll_coupons.aux_map.put_growing.8a2f8b2564a2651f,"ax",@progbits
	.p2align	2
	.type	hll_coupons.aux_map.put_growing.8a2f8b2564a2651f,@function
hll_coupons.aux_map.put_growing.8a2f8b2564a2651f:
	sub	sp, sp, #144
	ldr	x8, [x0]
	stp	x22, x21, [sp, #112]
	stp	x20, x19, [sp, #128]
	mov	w19, w1
	add	x22, x8, #1
	stp	x29, x30, [sp, #64]
	add	x29, sp, #64
	cmp	x22, #3
	str	x25, [sp, #80]
	stp	x24, x23, [sp, #96]
	str	xzr, [sp, #56]
	b.ne	.LBBe5bae9e1_4
	mov	w8, wzr
	mov	x1, xzr
	mov	x9, xzr
	mov	x20, xzr
.LBBe5bae9e1_2:
	stp	w8, wzr, [sp, #24]
	ldrb	w8, [x0, #16]
	stp	x22, xzr, [sp, #8]
	stp	x1, x9, [sp, #32]
	str	x20, [sp, #48]
	str	wzr, [sp, #56]
	cbz	w8, .LBBe5bae9e1_9
	ldp	x10, x11, [x0, #24]
	cbnz	x11, .LBBe5bae9e1_10
	b	.LBBe5bae9e1_14
.LBBe5bae9e1_4:
	cmp	x22, #60
	mov	w20, #1
	b.hi	.LBBe5bae9e1_8
	mov	w8, #4
	mov	x23, x0
	mov	w1, #4
	lsl	x21, x8, x22
	mov	x0, x21
	bl	rattle_alloc
	tbz	w0, #0, .LBBe5bae9e1_52
	lsl	x20, x20, x22
	cbz	x22, .LBBe5bae9e1_60
	sub	x2, x21, #4
	mov	x0, x1
	mov	x21, x1
	mov	w1, wzr
	bl	memset
	mov	x1, x21
	sub	x8, x20, #1
	b	.LBBe5bae9e1_61
.LBBe5bae9e1_8:
	mov	w1, #12
	b	.LBBe5bae9e1_66
.LBBe5bae9e1_9:
	add	x10, x0, #20
	mov	w11, #8
	cbz	x11, .LBBe5bae9e1_14
.LBBe5bae9e1_10:
	ldr	x13, [x0]
	and	w12, w19, #0x3ffffff
	mov	x14, #-1
	add	x15, sp, #8
	lsr	w16, w12, w13
	lsl	x14, x14, x13
	add	x21, x15, #20
	and	w15, w19, #0x3ffffff
	orr	w13, w16, #0x1
	mvn	x14, x14
.LBBe5bae9e1_11:
	and	x23, x15, x14
	ldr	w15, [x10, x23, lsl #2]
	cbz	w15, .LBBe5bae9e1_15
	and	w15, w15, #0x3ffffff
	cmp	w15, w12
	b.eq	.LBBe5bae9e1_15
	subs	x11, x11, #1
	add	x15, x23, x13
	b.ne	.LBBe5bae9e1_11
.LBBe5bae9e1_14:
	brk	#0x1
.LBBe5bae9e1_15:
	cbz	w8, .LBBe5bae9e1_37
	ldr	x8, [x0, #24]
	str	w19, [x8, x23, lsl #2]
	ldr	x8, [x0, #8]
	ldrb	w10, [x0, #16]
	add	x8, x8, #1
	str	x8, [x0, #8]
	cbz	w10, .LBBe5bae9e1_38
.LBBe5bae9e1_17:
	ldp	x2, x3, [x0, #24]
	cmp	x22, #3
	b.ne	.LBBe5bae9e1_39
.LBBe5bae9e1_18:
	mov	x8, xzr
	mov	x9, x2
	mov	x10, x3
.LBBe5bae9e1_19:
	cbz	x10, .LBBe5bae9e1_36
	ldr	w11, [x9], #4
	sub	x10, x10, #1
	cbz	w11, .LBBe5bae9e1_19
	and	x15, x11, #0x7
	and	w13, w11, #0x3ffffff
	lsl	x12, x15, #2
	ldr	w14, [x21, x12]
	and	w16, w14, #0x3ffffff
	cmp	w14, #0
	ccmp	w16, w13, #4, ne
	b.eq	.LBBe5bae9e1_25
	lsr	w12, w13, w22
	orr	w14, w12, #0x1
	add	x15, x15, x14
	ubfiz	x12, x15, #2, #3
	ldr	w16, [x21, x12]
	and	w17, w16, #0x3ffffff
	cmp	w16, #0
	ccmp	w17, w13, #4, ne
	b.eq	.LBBe5bae9e1_25
	add	x15, x15, x14
	ubfiz	x12, x15, #2, #3
	ldr	w16, [x21, x12]
	and	w17, w16, #0x3ffffff
	cmp	w16, #0
	ccmp	w17, w13, #4, ne
	b.eq	.LBBe5bae9e1_25
	add	x15, x15, x14
	ubfiz	x12, x15, #2, #3
	ldr	w16, [x21, x12]
	and	w17, w16, #0x3ffffff
	cmp	w16, #0
	ccmp	w17, w13, #4, ne
	b.ne	.LBBe5bae9e1_26
.LBBe5bae9e1_25:
	add	x8, x8, #1
	str	w11, [x21, x12]
	str	x8, [sp, #16]
	b	.LBBe5bae9e1_19
.LBBe5bae9e1_26:
	add	x15, x15, x14
	ubfiz	x12, x15, #2, #3
	ldr	w16, [x21, x12]
	cbz	w16, .LBBe5bae9e1_25
	and	w16, w16, #0x3ffffff
	cmp	w16, w13
	b.eq	.LBBe5bae9e1_25
	add	x15, x15, x14
	ubfiz	x12, x15, #2, #3
	ldr	w16, [x21, x12]
	cbz	w16, .LBBe5bae9e1_25
	and	w16, w16, #0x3ffffff
	cmp	w16, w13
	b.eq	.LBBe5bae9e1_25
	add	x15, x15, x14
	ubfiz	x12, x15, #2, #3
	ldr	w16, [x21, x12]
	cbz	w16, .LBBe5bae9e1_25
	and	w16, w16, #0x3ffffff
	cmp	w16, w13
	b.eq	.LBBe5bae9e1_25
	add	w12, w15, w14
	ubfiz	x12, x12, #2, #3
	ldr	w14, [x21, x12]
	cbz	w14, .LBBe5bae9e1_25
	and	w14, w14, #0x3ffffff
	cmp	w14, w13
	b.eq	.LBBe5bae9e1_25
.LBBe5bae9e1_34:
	mov	x24, x0
	cmp	x22, #3
	b.ne	.LBBe5bae9e1_53
	movi	v0.2d, #0000000000000000
	stp	q0, q0, [x21]
	b	.LBBe5bae9e1_57
.LBBe5bae9e1_36:
	mov	w9, wzr
	b	.LBBe5bae9e1_49
.LBBe5bae9e1_37:
	add	x8, x0, x23, lsl #2
	str	w19, [x8, #20]
	ldr	x8, [x0, #8]
	ldrb	w10, [x0, #16]
	add	x8, x8, #1
	str	x8, [x0, #8]
	cbnz	w10, .LBBe5bae9e1_17
.LBBe5bae9e1_38:
	add	x2, x0, #20
	mov	w3, #8
	cmp	x22, #3
	b.eq	.LBBe5bae9e1_18
.LBBe5bae9e1_39:
	mov	x10, #-1
	cmp	x9, #64
	mov	w11, #64
	lsl	x10, x10, x22
	mov	x8, xzr
	csel	x11, x9, x11, lo
	mov	x12, x2
	mov	x13, x3
	mvn	x10, x10
.LBBe5bae9e1_40:
	cbz	x13, .LBBe5bae9e1_48
	ldr	w14, [x12], #4
	sub	x13, x13, #1
	cbz	w14, .LBBe5bae9e1_40
	cbz	x9, .LBBe5bae9e1_34
	and	x15, x14, #0x3ffffff
	mov	x17, x11
	lsr	w16, w15, w22
	and	x18, x10, x15
	orr	w16, w16, #0x1
.LBBe5bae9e1_44:
	ldr	w4, [x1, x18, lsl #2]
	cbz	w4, .LBBe5bae9e1_47
	and	w4, w4, #0x3ffffff
	cmp	w4, w15
	b.eq	.LBBe5bae9e1_47
	add	x18, x18, x16
	subs	x17, x17, #1
	and	x18, x18, x10
	b.ne	.LBBe5bae9e1_44
	b	.LBBe5bae9e1_34
.LBBe5bae9e1_47:
	add	x8, x8, #1
	str	w14, [x1, x18, lsl #2]
	str	x8, [sp, #16]
	b	.LBBe5bae9e1_40
.LBBe5bae9e1_48:
	mov	w9, #1
.LBBe5bae9e1_49:
	ldp	q0, q1, [x21]
	mov	w1, wzr
	stp	x22, x8, [x0]
	ldrb	w10, [x0, #16]
	mov	w20, wzr
	str	w9, [x0, #16]
	ldr	x8, [x0, #24]
	ldr	x9, [x0, #40]
	stur	q0, [x0, #20]
	stur	q1, [x0, #36]
	cbz	w10, .LBBe5bae9e1_66
	cbz	x9, .LBBe5bae9e1_66
	mov	x0, x8
	bl	rattle_dealloc
	mov	w1, wzr
	mov	w20, wzr
	b	.LBBe5bae9e1_66
.LBBe5bae9e1_52:
	mov	w20, #1
	mov	w1, #12
	b	.LBBe5bae9e1_66
.LBBe5bae9e1_53:
	ldr	x8, [sp, #40]
	cbz	x8, .LBBe5bae9e1_57
	ldr	x19, [sp, #32]
	subs	x20, x8, #1
	b.eq	.LBBe5bae9e1_56
	lsl	x8, x8, #2
	mov	x0, x19
	mov	w1, wzr
	mov	x22, x2
	mov	x25, x3
	sub	x8, x8, #4
	mov	x2, x8
	bl	memset
	mov	x3, x25
	mov	x2, x22
.LBBe5bae9e1_56:
	str	wzr, [x19, x20, lsl #2]
.LBBe5bae9e1_57:
	add	x0, sp, #8
	mov	w1, #1
	str	xzr, [sp, #16]
	bl	hll_coupons.filling.put_by_cycles.8a2f8b2564a2651f
	tst	w0, #0xff
	b.eq	.LBBe5bae9e1_62
	ldrb	w8, [x24, #16]
	mov	w20, w0
	cbz	w8, .LBBe5bae9e1_63
	ldr	x8, [x24, #24]
	str	wzr, [x8, x23, lsl #2]
	ldr	x8, [x24, #8]
	ldrb	w9, [sp, #24]
	sub	x8, x8, #1
	str	x8, [x24, #8]
	cbnz	w9, .LBBe5bae9e1_64
	b	.LBBe5bae9e1_66
.LBBe5bae9e1_60:
	mov	x8, xzr
.LBBe5bae9e1_61:
	mov	x0, x23
	str	wzr, [x1, x8, lsl #2]
	add	x9, x8, #1
	mov	w8, #1
	b	.LBBe5bae9e1_2
.LBBe5bae9e1_62:
	ldp	x22, x8, [sp, #8]
	mov	x0, x24
	ldrb	w9, [sp, #24]
	b	.LBBe5bae9e1_49
.LBBe5bae9e1_63:
	add	x8, x24, x23, lsl #2
	str	wzr, [x8, #20]
	ldr	x8, [x24, #8]
	ldrb	w9, [sp, #24]
	sub	x8, x8, #1
	str	x8, [x24, #8]
	cbz	w9, .LBBe5bae9e1_66
.LBBe5bae9e1_64:
	ldr	x8, [sp, #48]
	cbz	x8, .LBBe5bae9e1_66
	ldr	x0, [sp, #32]
	mov	w19, w1
	bl	rattle_dealloc
	mov	w1, w19
.LBBe5bae9e1_66:
	mov	w0, w20
	ldp	x20, x19, [sp, #128]
	ldp	x22, x21, [sp, #112]
	ldr	x25, [sp, #80]
	ldp	x24, x23, [sp, #96]
	ldp	x29, x30, [sp, #64]
	add	sp, sp, #144
	ret
.Lfunc_ende5bae9e1:
	.size	hll_coupons.aux_map.put_growing.8a2f8b2564a2651f, .Lfunc_ende5bae9e1-hll_coupons.aux_map.put_growing.8a2f8b2564a2651f

	.section	.text.hll_registers.exception_map.built.8a2f8b2564a2651f,"ax",@progbits
	.p2align	2
	.type	hll_registers.exception_map.built.8a2f8b2564a2651f,@function
hll_registers.exception_map.built.8a2f8b2564a2651f:
	sub	sp, sp, #208
	mov	x8, x1
	stp	x26, x25, [sp, #144]
	mov	x1, xzr
	stp	x24, x23, [sp, #160]
	ldrb	w24, [x8]
	ldr	x13, [x8, #8]
	stp	x22, x21, [sp, #176]
	ldp	x9, x11, [x8, #40]
	ldp	x22, x25, [x8, #80]
	cmp	x24, #1
	str	d8, [sp, #96]
	ldrb	w12, [x8, #32]
	ldr	x10, [x8, #56]
	stp	x28, x27, [sp, #128]
	ldr	d8, [x8, #64]
	ldr	x28, [x8, #96]
	stp	x20, x19, [sp, #192]
	mov	x19, x0
	ldrb	w20, [x8, #104]
	ldr	x14, [x8, #112]
	ldr	x26, [x8, #128]
	stp	x29, x30, [sp, #112]
	add	x29, sp, #112
	stp	xzr, xzr, [x29, #-48]
	b.ne	.LBBa55f8a91_15
	str	x9, [sp, #24]
	ldr	q0, [x8, #16]
	ldur	w9, [x8, #33]
	ldr	w8, [x8, #36]
	stp	x14, x13, [sp, #8]
	str	w12, [sp, #36]
	stp	x11, x10, [sp, #40]
	stur	q0, [x29, #-32]
	stur	w9, [x29, #-8]
	stur	w8, [x29, #-5]
	cbz	x25, .LBBa55f8a91_8
	add	x27, x22, #40
	b	.LBBa55f8a91_4
.LBBa55f8a91_3:
	subs	x25, x25, #1
	add	x27, x27, #72
	b.eq	.LBBa55f8a91_8
.LBBa55f8a91_4:
	ldp	x8, x23, [x27]
	ldr	x21, [x27, #24]
	cbz	x8, .LBBa55f8a91_6
	ldur	x0, [x27, #-16]
	bl	rattle_dealloc
.LBBa55f8a91_6:
	cbz	x21, .LBBa55f8a91_3
	mov	x0, x23
	bl	rattle_dealloc
	b	.LBBa55f8a91_3
.LBBa55f8a91_8:
	cbz	x28, .LBBa55f8a91_10
	mov	x0, x22
	bl	rattle_dealloc
.LBBa55f8a91_10:
	cmp	w20, #1
	ldp	x21, x20, [sp, #40]
	b.ne	.LBBa55f8a91_13
	cbz	x26, .LBBa55f8a91_13
	ldr	x0, [sp, #8]
	bl	rattle_dealloc
.LBBa55f8a91_13:
	ldur	q0, [x29, #-32]
	ldur	w8, [x29, #-8]
	mov	w0, #64
	ldur	w9, [x29, #-5]
	mov	w1, #8
	stur	q0, [x29, #-48]
	str	w8, [sp, #56]
	stur	w9, [sp, #59]
	bl	rattle_alloc
	tbz	w0, #0, .LBBa55f8a91_16
	ldr	x8, [sp, #16]
	ldur	q0, [x29, #-48]
	ldur	w9, [sp, #59]
	str	x20, [x1, #48]
	str	x8, [x1]
	ldr	w8, [sp, #36]
	stur	q0, [x1, #8]
	strb	w8, [x1, #24]
	ldr	w8, [sp, #56]
	str	d8, [x1, #56]
	stur	w8, [x1, #25]
	ldr	x8, [sp, #24]
	str	w9, [x1, #28]
	stp	x8, x21, [x1, #32]
.LBBa55f8a91_15:
	strh	wzr, [x19]
	stp	x24, x1, [x19, #8]
	b	.LBBa55f8a91_20
.LBBa55f8a91_16:
	ldr	w8, [sp, #36]
	cbz	w8, .LBBa55f8a91_19
	cbz	x20, .LBBa55f8a91_19
	ldr	x0, [sp, #24]
	bl	rattle_dealloc
.LBBa55f8a91_19:
	mov	w8, #3073
	stp	xzr, xzr, [x19, #8]
	strh	w8, [x19]
.LBBa55f8a91_20:
	ldp	x20, x19, [sp, #192]
	ldr	d8, [sp, #96]
	ldp	x22, x21, [sp, #176]
	ldp	x24, x23, [sp, #160]
	ldp	x26, x25, [sp, #144]
	ldp	x28, x27, [sp, #128]
	ldp	x29, x30, [sp, #112]
	add	sp, sp, #208
	ret
.Lfunc_enda55f8a91:
	.size	hll_registers.exception_map.built.8a2f8b2564a2651f, .Lfunc_enda55f8a91-hll_registers.exception_map.built.8a2f8b2564a2651f

	.section	.text.hll_kernels.nibbles.some_mark_nibbles_in,"ax",@progbits
	.p2align	2
	.type	hll_kernels.nibbles.some_mark_nibbles_in,@function
hll_kernels.nibbles.some_mark_nibbles_in:
	movi	v0.16b, #15
	ldp	q1, q2, [x0]
	movi	v5.16b, #239
	movi	v6.16b, #1
	and	v3.16b, v1.16b, v0.16b
	and	v4.16b, v2.16b, v0.16b
	cmhi	v1.16b, v1.16b, v5.16b
	cmhi	v2.16b, v2.16b, v5.16b
	cmeq	v3.16b, v3.16b, v0.16b
	cmeq	v4.16b, v4.16b, v0.16b
	and	v3.16b, v3.16b, v6.16b
	and	v4.16b, v4.16b, v6.16b
	ldp	q6, q7, [x0, #32]
	sub	v1.16b, v3.16b, v1.16b
	sub	v2.16b, v4.16b, v2.16b
	and	v3.16b, v6.16b, v0.16b
	and	v4.16b, v7.16b, v0.16b
	cmhi	v6.16b, v6.16b, v5.16b
	cmhi	v5.16b, v7.16b, v5.16b
	cmeq	v3.16b, v3.16b, v0.16b
	cmeq	v0.16b, v4.16b, v0.16b
	sub	v1.16b, v1.16b, v6.16b
	sub	v2.16b, v2.16b, v5.16b
	sub	v1.16b, v1.16b, v3.16b
	sub	v0.16b, v2.16b, v0.16b
	add	v0.16b, v0.16b, v1.16b
	addv	b0, v0.16b
	fmov	w0, s0
	ret
.Lfunc_end80771e73:
	.size	hll_kernels.nibbles.some_mark_nibbles_in, .Lfunc_end80771e73-hll_kernels.nibbles.some_mark_nibbles_in

	.section	.rodata.cst16,"aM",@progbits,16
	.p2align	4, 0x0
.LCPI3fc618e6_0:
	.byte	1
	.byte	2
	.byte	4
	.byte	8
	.byte	16
	.byte	32
	.byte	64
	.byte	128
	.byte	1
	.byte	2
	.byte	4
	.byte	8
	.byte	16
	.byte	32
	.byte	64
	.byte	128
	.section	.text.hll_registers.exception_map.max_with_registers.309f015d8caa795c,"ax",@progbits
	.p2align	2
	.type	hll_registers.exception_map.max_with_registers.309f015d8caa795c,@function
hll_registers.exception_map.max_with_registers.309f015d8caa795c:
	str	x21, [sp, #-32]!
	lsr	w12, w2, #1
	lsr	x15, x1, #1
	lsr	x10, x1, #6
	ubfx	x13, x1, #1, #5
	stp	x20, x19, [sp, #16]
	add	x11, x3, x12
	and	x14, x15, #0x7fffffffffffffe0
	add	x8, x11, x14
	cbz	x10, .LBB3fc618e6_3
	dup	v0.16b, w5
	add	x16, x12, x3
	add	x9, x0, #32
	add	x16, x16, #16
	mov	x17, x10
.LBB3fc618e6_2:
	movi	v1.16b, #15
	ldur	q2, [x16, #-16]
	mov	v4.16b, v0.16b
	subs	x17, x17, #1
	usra	v4.16b, v2.16b, #4
	and	v3.16b, v2.16b, v1.16b
	add	v2.16b, v3.16b, v0.16b
	zip1	v3.16b, v2.16b, v4.16b
	zip2	v2.16b, v2.16b, v4.16b
	ldp	q4, q5, [x9, #-32]
	umax	v3.16b, v4.16b, v3.16b
	umax	v2.16b, v5.16b, v2.16b
	stp	q3, q2, [x9, #-32]
	mov	v3.16b, v0.16b
	ldr	q2, [x16], #32
	and	v1.16b, v2.16b, v1.16b
	usra	v3.16b, v2.16b, #4
	add	v1.16b, v1.16b, v0.16b
	zip1	v2.16b, v1.16b, v3.16b
	zip2	v1.16b, v1.16b, v3.16b
	ldp	q3, q4, [x9]
	umax	v2.16b, v3.16b, v2.16b
	umax	v1.16b, v4.16b, v1.16b
	stp	q2, q1, [x9], #64
	b.ne	.LBB3fc618e6_2
.LBB3fc618e6_3:
	and	x9, x1, #0xffffffffffffffc0
	cbz	x13, .LBB3fc618e6_10
	cmp	x13, #8
	b.lo	.LBB3fc618e6_7
	add	x17, x3, x14
	add	x18, x12, x13
	add	x16, x0, x9
	add	x17, x17, x18
	cmp	x16, x17
	b.hs	.LBB3fc618e6_47
	add	x17, x0, x9
	add	x17, x17, x13, lsl #1
	cmp	x8, x17
	b.hs	.LBB3fc618e6_47
.LBB3fc618e6_7:
	mov	x15, xzr
.LBB3fc618e6_8:
	add	x16, x9, x15, lsl #1
	add	x12, x15, x12
	add	x14, x12, x14
	sub	x12, x13, x15
	add	x16, x16, x0
	add	x13, x3, x14
	add	x14, x16, #1
.LBB3fc618e6_9:
	ldrb	w15, [x13]
	ldurb	w16, [x14, #-1]
	and	w15, w15, #0xf
	add	w15, w15, w5
	and	w15, w15, #0xff
	cmp	w15, w16
	csel	w15, w15, w16, hi
	ldrb	w16, [x14]
	sturb	w15, [x14, #-1]
	ldrb	w15, [x13], #1
	add	w15, w5, w15, lsr #4
	and	w15, w15, #0xff
	cmp	w15, w16
	csel	w15, w15, w16, hi
	subs	x12, x12, #1
	strb	w15, [x14], #2
	b.ne	.LBB3fc618e6_9
.LBB3fc618e6_10:
	ldrb	w12, [x4]
	cmp	w12, #1
	b.ne	.LBB3fc618e6_60
	ldr	x12, [x4, #8]
	lsr	x14, x1, #3
	mov	w15, #4
	ldr	x13, [x12, #8]
	cmp	x14, #128
	lsl	x13, x15, x13
	mov	w15, #128
	csel	x14, x14, x15, hi
	cmp	x13, x14
	b.ls	.LBB3fc618e6_29
	cbz	x10, .LBB3fc618e6_27
	mov	x14, xzr
.LBB3fc618e6_14:
	add	x15, x11, x14, lsl #5
	movi	v0.16b, #15
	movi	v3.16b, #239
	adrp	x13, .LCPI3fc618e6_0
	ldp	q1, q2, [x15]
	and	v4.16b, v1.16b, v0.16b
	and	v5.16b, v2.16b, v0.16b
	cmhi	v1.16b, v1.16b, v3.16b
	cmhi	v2.16b, v2.16b, v3.16b
	cmeq	v4.16b, v4.16b, v0.16b
	cmeq	v0.16b, v5.16b, v0.16b
	orr	v0.16b, v2.16b, v0.16b
	orr	v1.16b, v1.16b, v4.16b
	ldr	q2, [x13, :lo12:.LCPI3fc618e6_0]
	and	v1.16b, v1.16b, v2.16b
	and	v0.16b, v0.16b, v2.16b
	addp	v0.16b, v1.16b, v0.16b
	addp	v0.16b, v0.16b, v0.16b
	addp	v0.16b, v0.16b, v0.16b
	fmov	w13, s0
	cbz	w13, .LBB3fc618e6_26
	lsl	x16, x14, #6
	mov	w17, #63
	bfi	x17, x14, #6, #58
	mov	x18, x16
	b	.LBB3fc618e6_18
.LBB3fc618e6_16:
	lsr	w13, w20, #26
	ldrb	w3, [x0, x18]
	cmp	w13, w3
	csel	w13, w13, w3, hi
	strb	w13, [x0, x18]
.LBB3fc618e6_17:
	cmp	x18, x17
	add	x18, x18, #1
	b.eq	.LBB3fc618e6_26
.LBB3fc618e6_18:
	sub	x13, x18, x16
	tst	x18, #0x1
	lsr	x13, x13, #1
	ldrb	w13, [x15, x13]
	lsr	w3, w13, #4
	and	w13, w13, #0xf
	csel	w13, w13, w3, eq
	cmp	w13, #15
	b.ne	.LBB3fc618e6_17
	ldrb	w13, [x12, #24]
	cbz	w13, .LBB3fc618e6_21
	ldp	x3, x4, [x12, #32]
	mov	w5, #256
	cmp	x4, #256
	csel	x4, x4, x5, lo
	cbnz	x4, .LBB3fc618e6_22
	b	.LBB3fc618e6_30
.LBB3fc618e6_21:
	mov	w4, #8
	add	x3, x12, #28
	cbz	x4, .LBB3fc618e6_30
.LBB3fc618e6_22:
	add	w5, w2, w18
	ldr	x6, [x12, #8]
	mov	x19, #-1
	and	w7, w5, #0x3ffffff
	lsr	w7, w7, w6
	lsl	x19, x19, x6
	orr	w6, w7, #0x1
	mvn	x7, x19
	add	w19, w2, w18
.LBB3fc618e6_23:
	and	x19, x19, x7
	ldr	w20, [x3, x19, lsl #2]
	cbz	w20, .LBB3fc618e6_16
	and	w21, w20, #0x3ffffff
	cmp	w21, w5
	b.eq	.LBB3fc618e6_16
	subs	x4, x4, #1
	add	x19, x19, x6
	b.ne	.LBB3fc618e6_23
	b	.LBB3fc618e6_30
.LBB3fc618e6_26:
	add	x14, x14, #1
	cmp	x14, x10
	b.ne	.LBB3fc618e6_14
.LBB3fc618e6_27:
	tst	x1, #0x3e
	b.eq	.LBB3fc618e6_60
	and	x10, x1, #0xfffffffffffffffe
	and	x11, x1, #0xffffffffffffffc0
	b	.LBB3fc618e6_52
.LBB3fc618e6_29:
	ldrb	w13, [x12, #24]
.LBB3fc618e6_30:
	cbz	w13, .LBB3fc618e6_32
	ldp	x9, x8, [x12, #32]
	b	.LBB3fc618e6_33
.LBB3fc618e6_32:
	add	x9, x12, #28
	mov	w8, #8
.LBB3fc618e6_33:
	cmp	x8, #4
	b.hs	.LBB3fc618e6_41
.LBB3fc618e6_34:
	mov	x10, x9
.LBB3fc618e6_35:
	mov	x9, x10
.LBB3fc618e6_36:
	cbz	x8, .LBB3fc618e6_60
	ldr	w10, [x9], #4
	sub	x8, x8, #1
	cbz	w10, .LBB3fc618e6_36
	and	x11, x10, #0x3ffffff
	cmp	w11, w2
	b.lo	.LBB3fc618e6_33
	sub	x11, x11, w2, uxtw
	cmp	x1, x11
	b.ls	.LBB3fc618e6_33
	lsr	w10, w10, #26
	ldrb	w12, [x0, x11]
	cmp	w10, w12
	csel	w10, w10, w12, hi
	strb	w10, [x0, x11]
	b	.LBB3fc618e6_33
.LBB3fc618e6_41:
	mov	x10, x9
.LBB3fc618e6_42:
	ldr	w11, [x10], #16
	cbnz	w11, .LBB3fc618e6_34
	ldr	w11, [x9, #4]
	cbnz	w11, .LBB3fc618e6_34
	ldr	w11, [x9, #8]
	cbnz	w11, .LBB3fc618e6_34
	ldr	w11, [x9, #12]
	cbnz	w11, .LBB3fc618e6_34
	sub	x8, x8, #4
	mov	x9, x10
	cmp	x8, #3
	b.hi	.LBB3fc618e6_42
	b	.LBB3fc618e6_35
.LBB3fc618e6_47:
	dup	v0.8b, w5
	and	x15, x15, #0x18
	add	x17, x11, x14
	mov	x18, x15
.LBB3fc618e6_48:
	movi	v1.8b, #15
	ldr	d2, [x17], #8
	fmov	d5, d0
	ld2	{ v3.8b, v4.8b }, [x16]
	subs	x18, x18, #8
	and	v1.8b, v2.8b, v1.8b
	usra	v5.8b, v2.8b, #4
	add	v1.8b, v1.8b, v0.8b
	umax	v1.8b, v1.8b, v3.8b
	umax	v2.8b, v5.8b, v4.8b
	st2	{ v1.8b, v2.8b }, [x16], #16
	b.ne	.LBB3fc618e6_48
	cmp	x13, x15
	b.eq	.LBB3fc618e6_10
	b	.LBB3fc618e6_8
.LBB3fc618e6_50:
	lsr	w13, w4, #26
	ldrb	w14, [x0, x11]
	cmp	w13, w14
	csel	w13, w13, w14, hi
	strb	w13, [x0, x11]
.LBB3fc618e6_51:
	add	x11, x11, #1
	cmp	x11, x10
	b.eq	.LBB3fc618e6_60
.LBB3fc618e6_52:
	sub	x13, x11, x9
	tst	x11, #0x1
	lsr	x13, x13, #1
	ldrb	w13, [x8, x13]
	lsr	w14, w13, #4
	and	w13, w13, #0xf
	csel	w13, w13, w14, eq
	cmp	w13, #15
	b.ne	.LBB3fc618e6_51
	ldrb	w13, [x12, #24]
	cbz	w13, .LBB3fc618e6_55
	ldp	x14, x15, [x12, #32]
	mov	w16, #256
	cmp	x15, #256
	csel	x15, x15, x16, lo
	cbnz	x15, .LBB3fc618e6_56
	b	.LBB3fc618e6_30
.LBB3fc618e6_55:
	mov	w15, #8
	add	x14, x12, #28
	cbz	x15, .LBB3fc618e6_30
.LBB3fc618e6_56:
	add	w16, w2, w11
	ldr	x17, [x12, #8]
	mov	x3, #-1
	and	w18, w16, #0x3ffffff
	lsr	w18, w18, w17
	lsl	x3, x3, x17
	orr	w17, w18, #0x1
	mvn	x18, x3
	add	w3, w2, w11
.LBB3fc618e6_57:
	and	x3, x3, x18
	ldr	w4, [x14, x3, lsl #2]
	cbz	w4, .LBB3fc618e6_50
	and	w5, w4, #0x3ffffff
	cmp	w5, w16
	b.eq	.LBB3fc618e6_50
	subs	x15, x15, #1
	add	x3, x3, x17
	b.ne	.LBB3fc618e6_57
	b	.LBB3fc618e6_30
.LBB3fc618e6_60:
	ldp	x20, x19, [sp, #16]
	ldr	x21, [sp], #32
	ret
.Lfunc_end3fc618e6:
	.size	hll_registers.exception_map.max_with_registers.309f015d8caa795c, .Lfunc_end3fc618e6-hll_registers.exception_map.max_with_registers.309f015d8caa795c

	.section	.rodata.cst16,"aM",@progbits,16
	.p2align	4, 0x0
.LCPI1ac6ee2c_0:
	.byte	1
	.byte	2
	.byte	4
	.byte	8
	.byte	16
	.byte	32
	.byte	64
	.byte	128
	.byte	1
	.byte	2
	.byte	4
	.byte	8
	.byte	16
	.byte	32
	.byte	64
	.byte	128
	.section	.text.hll_registers.nibble_registers.NibbleRegisters.from_values.8a2f8b2564a2651f,"ax",@progbits
	.p2align	2
	.type	hll_registers.nibble_registers.NibbleRegisters.from_values.8a2f8b2564a2651f,@function
hll_registers.nibble_registers.NibbleRegisters.from_values.8a2f8b2564a2651f:
	sub	sp, sp, #496
	stp	x20, x19, [sp, #480]
	mov	x19, x0
	stp	x29, x30, [sp, #400]
	add	x29, sp, #400
	stp	x28, x27, [sp, #416]
	stp	x26, x25, [sp, #432]
	stp	x24, x23, [sp, #448]
	stp	x22, x21, [sp, #464]
	str	w1, [sp, #68]
	cbz	x3, .LBB1ac6ee2c_3
	cmp	x3, #4
	b.hs	.LBB1ac6ee2c_4
	mov	x8, xzr
	mov	w27, #63
	b	.LBB1ac6ee2c_13
.LBB1ac6ee2c_3:
	sub	x8, x29, #17
	stp	xzr, x19, [sp, #24]
	mov	w27, #63
	str	xzr, [sp]
	str	x8, [sp, #16]
	b	.LBB1ac6ee2c_27
.LBB1ac6ee2c_4:
	cmp	x3, #32
	b.hs	.LBB1ac6ee2c_6
	mov	x8, xzr
	mov	w27, #63
	b	.LBB1ac6ee2c_10
.LBB1ac6ee2c_6:
	movi	v0.16b, #63
	movi	v1.16b, #63
	and	x9, x3, #0x1c
	and	x8, x3, #0xffffffffffffffe0
	add	x10, x2, #16
	and	x11, x3, #0xffffffffffffffe0
.LBB1ac6ee2c_7:
	ldp	q2, q3, [x10, #-16]
	subs	x11, x11, #32
	add	x10, x10, #32
	umin	v0.16b, v2.16b, v0.16b
	umin	v1.16b, v3.16b, v1.16b
	b.ne	.LBB1ac6ee2c_7
	umin	v0.16b, v0.16b, v1.16b
	cmp	x3, x8
	uminv	b0, v0.16b
	fmov	w27, s0
	b.eq	.LBB1ac6ee2c_15
	cbz	x9, .LBB1ac6ee2c_13
.LBB1ac6ee2c_10:
	dup	v0.4h, w27
	mov	x10, x8
	and	x8, x3, #0xfffffffffffffffc
	sub	x9, x10, x8
	add	x10, x2, x10
.LBB1ac6ee2c_11:
	ldr	s1, [x10], #4
	bic	v0.4h, #255, lsl #8
	adds	x9, x9, #4
	ushll	v1.8h, v1.8b, #0
	umin	v0.4h, v1.4h, v0.4h
	b.ne	.LBB1ac6ee2c_11
	uminv	h0, v0.4h
	cmp	x3, x8
	fmov	w27, s0
	b.eq	.LBB1ac6ee2c_15
.LBB1ac6ee2c_13:
	sub	x9, x3, x8
	add	x8, x2, x8
.LBB1ac6ee2c_14:
	ldrb	w10, [x8], #1
	and	w11, w27, #0xff
	cmp	w10, w11
	csel	w27, w10, w11, lo
	subs	x9, x9, #1
	b.ne	.LBB1ac6ee2c_14
.LBB1ac6ee2c_15:
	lsr	x20, x3, #1
	cbz	x20, .LBB1ac6ee2c_20
	mov	x0, x20
	mov	w1, #1
	mov	x23, x3
	mov	x22, x2
	bl	rattle_alloc
	tbz	w0, #0, .LBB1ac6ee2c_49
	subs	x25, x20, #1
	b.eq	.LBB1ac6ee2c_19
	mov	x0, x1
	mov	x21, x1
	mov	w1, wzr
	mov	x2, x25
	bl	memset
	mov	x1, x21
.LBB1ac6ee2c_19:
	mov	x2, x22
	mov	x3, x23
	add	x15, x25, #1
	strb	wzr, [x1, x25]
	lsr	x8, x23, #5
	cbnz	x8, .LBB1ac6ee2c_21
	b	.LBB1ac6ee2c_24
.LBB1ac6ee2c_20:
	mov	x15, xzr
	sub	x1, x29, #17
	lsr	x8, x3, #5
	cbz	x8, .LBB1ac6ee2c_24
.LBB1ac6ee2c_21:
	dup	v0.16b, w27
	add	x9, x2, #16
	mov	x10, x1
	mov	x11, x8
.LBB1ac6ee2c_22:
	ldp	q1, q2, [x9, #-16]
	movi	v3.16b, #15
	subs	x11, x11, #1
	add	x9, x9, #32
	uqsub	v1.16b, v1.16b, v0.16b
	uqsub	v2.16b, v2.16b, v0.16b
	umin	v1.16b, v1.16b, v3.16b
	umin	v2.16b, v2.16b, v3.16b
	uzp2	v3.16b, v1.16b, v2.16b
	uzp1	v1.16b, v1.16b, v2.16b
	shl	v2.16b, v3.16b, #4
	orr	v1.16b, v2.16b, v1.16b
	str	q1, [x10], #16
	b.ne	.LBB1ac6ee2c_22
	lsl	x8, x8, #4
.LBB1ac6ee2c_24:
	ubfx	x9, x3, #1, #4
	stp	x20, x19, [sp, #24]
	str	x1, [sp, #16]
	str	x15, [sp]
	cbz	x9, .LBB1ac6ee2c_27
	and	x10, x3, #0xffffffffffffffe0
	add	x10, x2, x10
.LBB1ac6ee2c_26:
	ldrh	w11, [x10], #2
	and	w13, w27, #0xff
	mov	w14, #15
	and	w12, w11, #0xff
	lsr	w11, w11, #8
	subs	w12, w12, w13
	csel	w12, wzr, w12, lo
	cmp	w12, #15
	csel	w12, w12, w14, lo
	subs	w11, w11, w13
	csel	w11, wzr, w11, lo
	cmp	w11, #15
	csel	w11, w11, w14, lo
	subs	x9, x9, #1
	orr	w11, w12, w11, lsl #4
	strb	w11, [x1, x8]
	add	x8, x8, #1
	b.ne	.LBB1ac6ee2c_26
.LBB1ac6ee2c_27:
	movi	v0.2d, #0000000000000000
	lsr	x9, x3, #6
	sub	x8, x29, #192
	stp	xzr, xzr, [x29, #-48]
	stur	xzr, [x29, #-32]
	str	x3, [sp, #8]
	stp	q0, q0, [x8]
	stp	q0, q0, [x8, #32]
	stp	q0, q0, [x8, #64]
	stp	q0, q0, [x8, #96]
	stur	xzr, [x29, #-64]
	str	x9, [sp, #40]
	cbz	x9, .LBB1ac6ee2c_46
	add	w21, w27, #15
	mov	w19, wzr
	mov	x23, xzr
	dup	v0.16b, w21
	mov	x28, x2
	str	q0, [sp, #48]
	b	.LBB1ac6ee2c_30
.LBB1ac6ee2c_29:
	ldr	x8, [sp, #40]
	add	x23, x23, #1
	add	w19, w19, #64
	add	x28, x28, #64
	mov	x2, x20
	cmp	x23, x8
	b.eq	.LBB1ac6ee2c_46
.LBB1ac6ee2c_30:
	add	x8, x2, x23, lsl #6
	mov	x20, x2
	ldp	q0, q1, [x8]
	ldp	q2, q3, [x8, #32]
	adrp	x8, .LCPI1ac6ee2c_0
	umax	v1.16b, v1.16b, v3.16b
	umax	v0.16b, v0.16b, v2.16b
	umax	v0.16b, v0.16b, v1.16b
	ldr	q1, [sp, #48]
	cmhs	v0.16b, v0.16b, v1.16b
	ldr	q1, [x8, :lo12:.LCPI1ac6ee2c_0]
	and	v0.16b, v0.16b, v1.16b
	addp	v0.16b, v0.16b, v0.16b
	addp	v0.16b, v0.16b, v0.16b
	addp	v0.16b, v0.16b, v0.16b
	umov	w8, v0.h[0]
	cbz	w8, .LBB1ac6ee2c_29
	mov	w22, #64
	mov	x24, x28
	mov	w26, w19
	b	.LBB1ac6ee2c_33
.LBB1ac6ee2c_32:
	subs	x22, x22, #1
	add	w26, w26, #1
	b.eq	.LBB1ac6ee2c_29
.LBB1ac6ee2c_33:
	ldrb	w3, [x24], #1
	cmp	w3, w21, uxtb
	b.lo	.LBB1ac6ee2c_32
	ldr	w1, [sp, #68]
	sub	x0, x29, #192
	mov	w2, w26
	bl	hll_registers.exception_map.add_exception.8a2f8b2564a2651f
	tst	w0, #0xff
	b.eq	.LBB1ac6ee2c_32
	ldurb	w8, [x29, #-192]
	mov	w25, w1
	cmp	w8, #1
	b.ne	.LBB1ac6ee2c_71
	ldp	x23, x26, [x29, #-112]
	ldurb	w8, [x29, #-160]
	ldur	x21, [x29, #-96]
	ldurb	w20, [x29, #-88]
	ldur	x22, [x29, #-80]
	ldur	x19, [x29, #-64]
	cbz	w8, .LBB1ac6ee2c_39
	ldur	x8, [x29, #-136]
	cbz	x8, .LBB1ac6ee2c_39
	ldur	x0, [x29, #-152]
	bl	rattle_dealloc
.LBB1ac6ee2c_39:
	cbz	x26, .LBB1ac6ee2c_65
	add	x27, x23, #40
	b	.LBB1ac6ee2c_42
.LBB1ac6ee2c_41:
	subs	x26, x26, #1
	add	x27, x27, #72
	b.eq	.LBB1ac6ee2c_65
.LBB1ac6ee2c_42:
	ldp	x8, x24, [x27]
	ldr	x28, [x27, #24]
	cbz	x8, .LBB1ac6ee2c_44
	ldur	x0, [x27, #-16]
	bl	rattle_dealloc
.LBB1ac6ee2c_44:
	cbz	x28, .LBB1ac6ee2c_41
	mov	x0, x24
	bl	rattle_dealloc
	b	.LBB1ac6ee2c_41
.LBB1ac6ee2c_46:
	ldr	x9, [sp, #8]
	and	x8, x9, #0xffffffffffffffc0
	subs	x19, x9, x8
	b.ne	.LBB1ac6ee2c_50
.LBB1ac6ee2c_47:
	sub	x10, x29, #192
	ldur	x9, [x29, #-64]
	sub	x0, x29, #48
	orr	x8, x10, #0x8
	add	x1, sp, #72
	ldp	q0, q1, [x8]
	str	x9, [sp, #200]
	stp	q0, q1, [sp, #80]
	ldp	q0, q1, [x8, #32]
	ldurb	w8, [x29, #-192]
	stp	q0, q1, [sp, #112]
	ldur	q0, [x10, #72]
	str	x8, [sp, #72]
	ldurb	w8, [x29, #-88]
	stur	q0, [sp, #144]
	ldur	q0, [x10, #88]
	str	x8, [sp, #176]
	stur	q0, [sp, #160]
	ldr	q0, [x10, #112]
	stur	q0, [sp, #184]
	bl	hll_registers.exception_map.built.8a2f8b2564a2651f
	ldurb	w8, [x29, #-48]
	cbz	w8, .LBB1ac6ee2c_76
	ldurb	w25, [x29, #-47]
	b	.LBB1ac6ee2c_71
.LBB1ac6ee2c_49:
	movi	v0.2d, #0000000000000000
	mov	w8, #3073
	strh	w8, [x19]
	b	.LBB1ac6ee2c_74
.LBB1ac6ee2c_50:
	add	w20, w27, #15
	and	w24, w9, #0xffffffc0
	add	x21, x2, x8
	b	.LBB1ac6ee2c_52
.LBB1ac6ee2c_51:
	subs	x19, x19, #1
	add	w24, w24, #1
	b.eq	.LBB1ac6ee2c_47
.LBB1ac6ee2c_52:
	ldrb	w3, [x21], #1
	cmp	w3, w20, uxtb
	b.lo	.LBB1ac6ee2c_51
	ldr	w1, [sp, #68]
	sub	x0, x29, #192
	mov	w2, w24
	bl	hll_registers.exception_map.add_exception.8a2f8b2564a2651f
	tst	w0, #0xff
	b.eq	.LBB1ac6ee2c_51
	ldurb	w8, [x29, #-192]
	mov	w25, w1
	cmp	w8, #1
	b.ne	.LBB1ac6ee2c_71
	ldp	x23, x26, [x29, #-112]
	ldurb	w8, [x29, #-160]
	ldur	x21, [x29, #-96]
	ldurb	w20, [x29, #-88]
	ldur	x22, [x29, #-80]
	ldur	x19, [x29, #-64]
	cbz	w8, .LBB1ac6ee2c_58
	ldur	x8, [x29, #-136]
	cbz	x8, .LBB1ac6ee2c_58
	ldur	x0, [x29, #-152]
	bl	rattle_dealloc
.LBB1ac6ee2c_58:
	cbz	x26, .LBB1ac6ee2c_65
	add	x27, x23, #40
	b	.LBB1ac6ee2c_61
.LBB1ac6ee2c_60:
	subs	x26, x26, #1
	add	x27, x27, #72
	b.eq	.LBB1ac6ee2c_65
.LBB1ac6ee2c_61:
	ldp	x8, x24, [x27]
	ldr	x28, [x27, #24]
	cbz	x8, .LBB1ac6ee2c_63
	ldur	x0, [x27, #-16]
	bl	rattle_dealloc
.LBB1ac6ee2c_63:
	cbz	x28, .LBB1ac6ee2c_60
	mov	x0, x24
	bl	rattle_dealloc
	b	.LBB1ac6ee2c_60
.LBB1ac6ee2c_65:
	cbz	x21, .LBB1ac6ee2c_67
	mov	x0, x23
	bl	rattle_dealloc
.LBB1ac6ee2c_67:
	cmp	w20, #1
	b.ne	.LBB1ac6ee2c_71
	ldp	x0, x20, [sp, #16]
	cbz	x19, .LBB1ac6ee2c_70
	mov	x19, x0
	mov	x0, x22
	bl	rattle_dealloc
	mov	x0, x19
.LBB1ac6ee2c_70:
	ldr	x19, [sp, #32]
	cbnz	x20, .LBB1ac6ee2c_72
	b	.LBB1ac6ee2c_73
.LBB1ac6ee2c_71:
	ldp	x20, x19, [sp, #24]
	ldr	x0, [sp, #16]
	cbz	x20, .LBB1ac6ee2c_73
.LBB1ac6ee2c_72:
	bl	rattle_dealloc
.LBB1ac6ee2c_73:
	mov	w8, #1
	movi	v0.2d, #0000000000000000
	strb	w25, [x19, #1]
	strb	w8, [x19]
.LBB1ac6ee2c_74:
	stur	q0, [x19, #8]
	stur	q0, [x19, #24]
	stur	q0, [x19, #40]
.LBB1ac6ee2c_75:
	ldp	x20, x19, [sp, #480]
	ldp	x22, x21, [sp, #464]
	ldp	x24, x23, [sp, #448]
	ldp	x26, x25, [sp, #432]
	ldp	x28, x27, [sp, #416]
	ldp	x29, x30, [sp, #400]
	add	sp, sp, #496
	ret
.LBB1ac6ee2c_76:
	ldr	x1, [sp]
	ldp	x18, x17, [sp, #24]
	ldurb	w8, [x29, #-40]
	mov	w9, wzr
	ldr	x0, [sp, #16]
	lsr	x11, x1, #6
	and	x10, x1, #0x3f
	cbz	x11, .LBB1ac6ee2c_79
	add	x12, x0, #32
.LBB1ac6ee2c_78:
	movi	v0.16b, #15
	ldp	q1, q2, [x12, #-32]
	movi	v5.16b, #16
	movi	v6.16b, #1
	subs	x11, x11, #1
	and	v3.16b, v1.16b, v0.16b
	and	v4.16b, v2.16b, v0.16b
	cmhi	v1.16b, v5.16b, v1.16b
	cmhi	v2.16b, v5.16b, v2.16b
	cmeq	v3.16b, v3.16b, #0
	cmeq	v4.16b, v4.16b, #0
	and	v3.16b, v3.16b, v6.16b
	and	v4.16b, v4.16b, v6.16b
	ldp	q6, q7, [x12], #64
	sub	v1.16b, v3.16b, v1.16b
	sub	v2.16b, v4.16b, v2.16b
	and	v3.16b, v6.16b, v0.16b
	and	v0.16b, v7.16b, v0.16b
	cmhi	v4.16b, v5.16b, v6.16b
	cmhi	v5.16b, v5.16b, v7.16b
	cmeq	v3.16b, v3.16b, #0
	cmeq	v0.16b, v0.16b, #0
	sub	v1.16b, v1.16b, v4.16b
	sub	v2.16b, v2.16b, v5.16b
	sub	v1.16b, v1.16b, v3.16b
	sub	v0.16b, v2.16b, v0.16b
	add	v0.16b, v0.16b, v1.16b
	addv	b0, v0.16b
	fmov	w13, s0
	add	w9, w9, w13, uxtb
	b.ne	.LBB1ac6ee2c_78
.LBB1ac6ee2c_79:
	ldur	x11, [x29, #-32]
	cbz	x10, .LBB1ac6ee2c_82
	cmp	x10, #4
	and	x12, x1, #0xffffffffffffffc0
	b.hs	.LBB1ac6ee2c_83
	mov	w15, wzr
	mov	x13, xzr
	b	.LBB1ac6ee2c_92
.LBB1ac6ee2c_82:
	mov	w15, wzr
	b	.LBB1ac6ee2c_94
.LBB1ac6ee2c_83:
	cmp	x10, #16
	b.hs	.LBB1ac6ee2c_85
	mov	x13, xzr
	mov	w15, wzr
	b	.LBB1ac6ee2c_89
.LBB1ac6ee2c_85:
	movi	v0.2d, #0000000000000000
	movi	v1.2d, #0000000000000000
	add	x15, x12, x0
	movi	v2.2d, #0000000000000000
	movi	v3.2d, #0000000000000000
	and	x14, x1, #0xc
	and	x13, x1, #0x30
	add	x15, x15, #8
	and	x16, x1, #0x30
.LBB1ac6ee2c_86:
	movi	v4.8b, #15
	movi	v5.8b, #16
	subs	x16, x16, #16
	ldp	d6, d7, [x15, #-8]
	add	x15, x15, #16
	and	v16.8b, v6.8b, v4.8b
	and	v4.8b, v7.8b, v4.8b
	cmhi	v6.8b, v5.8b, v6.8b
	cmhi	v5.8b, v5.8b, v7.8b
	cmeq	v7.8b, v16.8b, #0
	cmeq	v4.8b, v4.8b, #0
	ushll	v6.8h, v6.8b, #0
	ushll	v5.8h, v5.8b, #0
	movi	v16.4s, #1
	ushll	v7.8h, v7.8b, #0
	ushll	v4.8h, v4.8b, #0
	ushll2	v17.4s, v6.8h, #0
	ushll	v6.4s, v6.4h, #0
	ushll2	v18.4s, v5.8h, #0
	ushll	v5.4s, v5.4h, #0
	ushll	v19.4s, v7.4h, #0
	ushll2	v7.4s, v7.8h, #0
	ushll	v20.4s, v4.4h, #0
	ushll2	v4.4s, v4.8h, #0
	and	v17.16b, v17.16b, v16.16b
	and	v6.16b, v6.16b, v16.16b
	and	v18.16b, v18.16b, v16.16b
	and	v5.16b, v5.16b, v16.16b
	and	v19.16b, v19.16b, v16.16b
	and	v7.16b, v7.16b, v16.16b
	and	v20.16b, v20.16b, v16.16b
	and	v4.16b, v4.16b, v16.16b
	add	v2.4s, v2.4s, v17.4s
	add	v1.4s, v1.4s, v6.4s
	add	v3.4s, v3.4s, v5.4s
	add	v0.4s, v0.4s, v18.4s
	add	v2.4s, v2.4s, v7.4s
	add	v1.4s, v1.4s, v19.4s
	add	v0.4s, v0.4s, v4.4s
	add	v3.4s, v3.4s, v20.4s
	b.ne	.LBB1ac6ee2c_86
	add	v1.4s, v3.4s, v1.4s
	add	v0.4s, v0.4s, v2.4s
	cmp	x10, x13
	add	v0.4s, v1.4s, v0.4s
	addv	s0, v0.4s
	fmov	w15, s0
	b.eq	.LBB1ac6ee2c_94
	cbz	x14, .LBB1ac6ee2c_92
.LBB1ac6ee2c_89:
	movi	v0.2d, #0000000000000000
	mov	x14, x13
	and	x13, x1, #0x3c
	mov	v0.s[0], w15
	add	x15, x14, x12
	sub	x14, x14, x13
	add	x15, x0, x15
.LBB1ac6ee2c_90:
	ldr	s1, [x15], #4
	movi	v2.4h, #16
	adds	x14, x14, #4
	ushll	v1.8h, v1.8b, #0
	fmov	d3, d1
	cmhi	v1.4h, v2.4h, v1.4h
	movi	v2.4s, #1
	ushll	v1.4s, v1.4h, #0
	bic	v3.4h, #240
	and	v1.16b, v1.16b, v2.16b
	cmeq	v3.4h, v3.4h, #0
	add	v0.4s, v0.4s, v1.4s
	ushll	v3.4s, v3.4h, #0
	and	v2.16b, v3.16b, v2.16b
	add	v0.4s, v0.4s, v2.4s
	b.ne	.LBB1ac6ee2c_90
	addv	s0, v0.4s
	cmp	x10, x13
	fmov	w15, s0
	b.eq	.LBB1ac6ee2c_94
.LBB1ac6ee2c_92:
	add	x12, x13, x12
	sub	x10, x10, x13
	add	x12, x0, x12
.LBB1ac6ee2c_93:
	ldrb	w13, [x12], #1
	cmp	w13, #16
	cinc	w14, w15, lo
	tst	w13, #0xf
	cinc	w15, w14, eq
	subs	x10, x10, #1
	b.ne	.LBB1ac6ee2c_93
.LBB1ac6ee2c_94:
	ldr	w10, [sp, #68]
	add	w9, w15, w9
	strh	wzr, [x17]
	strb	w27, [x17, #9]
	strb	w10, [x17, #8]
	strh	wzr, [x17, #10]
	str	w9, [x17, #12]
	stp	x0, x1, [x17, #16]
	stp	x18, x8, [x17, #32]
	str	x11, [x17, #48]
	b	.LBB1ac6ee2c_75
.Lfunc_end1ac6ee2c:
	.size	hll_registers.nibble_registers.NibbleRegisters.from_values.8a2f8b2564a2651f, .Lfunc_end1ac6ee2c-hll_registers.nibble_registers.NibbleRegisters.from_values.8a2f8b2564a2651f

	.section	.text.unlikely.std_alloc.vec.Vec.grow_amortized.f10ba080d3fae16a,"ax",@progbits
	.p2align	2
	.type	std_alloc.vec.Vec.grow_amortized.f10ba080d3fae16a,@function
std_alloc.vec.Vec.grow_amortized.f10ba080d3fae16a:
	ldr	x8, [x0, #8]
	cmn	x8, #1
	b.eq	.LBB3288c59b_5
	stp	x29, x30, [sp, #-32]!
	ldr	x9, [x0, #16]
	cmp	x8, #3
	mov	w10, #3
	csel	x11, x8, x10, hi
	stp	x20, x19, [sp, #16]
	mov	x29, sp
	lsl	x10, x9, #1
	add	x12, x11, #1
	lsr	x13, x9, #62
	cmp	x12, x10
	csinc	x10, x10, x11, ls
	cmp	x13, #0
	csinc	x19, x10, x11, eq
	mov	x11, #6148914691236517205
	movk	x11, #341, lsl #48
	cmp	x19, x11
	b.hi	.LBB3288c59b_7
	cbz	x9, .LBB3288c59b_6
	add	x8, x8, x8, lsl #1
	add	x9, x19, x19, lsl #1
	mov	x20, x0
	ldr	x0, [x0]
	mov	w3, #8
	lsl	x1, x8, #5
	lsl	x2, x9, #5
	bl	rattle_realloc
	tbz	w0, #0, .LBB3288c59b_7
.LBB3288c59b_4:
	mov	w0, #1
	str	x1, [x20]
	str	x19, [x20, #16]
	ldp	x20, x19, [sp, #16]
	ldp	x29, x30, [sp], #32
	ret
.LBB3288c59b_5:
	mov	w0, wzr
	ret
.LBB3288c59b_6:
	add	x8, x10, x10, lsl #1
	mov	x20, x0
	mov	w1, #8
	lsl	x0, x8, #5
	bl	rattle_alloc
	tbnz	w0, #0, .LBB3288c59b_4
.LBB3288c59b_7:
	mov	w0, wzr
	ldp	x20, x19, [sp, #16]
	ldp	x29, x30, [sp], #32
	ret
.Lfunc_end3288c59b:
	.size	std_alloc.vec.Vec.grow_amortized.f10ba080d3fae16a, .Lfunc_end3288c59b-std_alloc.vec.Vec.grow_amortized.f10ba080d3fae16a

	.section	.text.hll_sketch.mode.Mode.drop.309f015d8caa795c,"ax",@progbits
	.p2align	2
	.type	hll_sketch.mode.Mode.drop.309f015d8caa795c,@function
hll_sketch.mode.Mode.drop.309f015d8caa795c:
	stp	x29, x30, [sp, #-48]!
	mov	x9, x0
	ldrb	w10, [x0]
	stp	x20, x19, [sp, #32]
	ldp	x8, x0, [x0, #24]
	mov	x29, sp
	ldr	x19, [x9, #48]
	cmp	w10, #1
	stp	x22, x21, [sp, #16]
	b.le	.LBB7ccdd370_4
	ldr	x20, [x9, #40]
	cmp	w10, #2
	b.eq	.LBB7ccdd370_7
	cmp	w10, #3
	cbz	x20, .LBB7ccdd370_16
	mov	x0, x8
	ldp	x20, x19, [sp, #32]
	ldp	x22, x21, [sp, #16]
	ldp	x29, x30, [sp], #48
	b	rattle_dealloc
.LBB7ccdd370_4:
	and	w8, w8, #0xff
	cbnz	w10, .LBB7ccdd370_13
	cbz	w8, .LBB7ccdd370_16
	cbnz	x19, .LBB7ccdd370_15
	b	.LBB7ccdd370_16
.LBB7ccdd370_7:
	cbz	x0, .LBB7ccdd370_9
	ldr	x0, [x9, #16]
	bl	rattle_dealloc
.LBB7ccdd370_9:
	tst	x20, #0xff
	b.eq	.LBB7ccdd370_16
	ldrb	w22, [x19, #24]
	ldr	x20, [x19, #32]
	mov	x0, x19
	ldr	x21, [x19, #48]
	bl	rattle_dealloc
	cbz	w22, .LBB7ccdd370_16
	cbz	x21, .LBB7ccdd370_16
	mov	x0, x20
	ldp	x20, x19, [sp, #32]
	ldp	x22, x21, [sp, #16]
	ldp	x29, x30, [sp], #48
	b	rattle_dealloc
.LBB7ccdd370_13:
	cbz	w8, .LBB7ccdd370_16
	cbz	x19, .LBB7ccdd370_16
.LBB7ccdd370_15:
	ldp	x20, x19, [sp, #32]
	ldp	x22, x21, [sp, #16]
	ldp	x29, x30, [sp], #48
	b	rattle_dealloc
.LBB7ccdd370_16:
	ldp	x20, x19, [sp, #32]
	ldp	x22, x21, [sp, #16]
	ldp	x29, x30, [sp], #48
	ret
.Lfunc_end7ccdd370:
	.size	hll_sketch.mode.Mode.drop.309f015d8caa795c, .Lfunc_end7ccdd370-hll_sketch.mode.Mode.drop.309f015d8caa795c

	.section	.text.hll_registers.nibble_registers.NibbleRegisters.rise.8a2f8b2564a2651f,"ax",@progbits
	.p2align	2
	.type	hll_registers.nibble_registers.NibbleRegisters.rise.8a2f8b2564a2651f,@function
hll_registers.nibble_registers.NibbleRegisters.rise.8a2f8b2564a2651f:
	sub	sp, sp, #464
	ldrb	w18, [x0]
	stp	x28, x27, [sp, #384]
	ldrb	w27, [x0, #1]
	stp	x26, x25, [sp, #400]
	mov	w25, #63
	stp	x20, x19, [sp, #448]
	mov	w20, w2
	mov	x19, x0
	cmp	x18, #31
	stp	x29, x30, [sp, #368]
	add	x29, sp, #368
	stp	x24, x23, [sp, #416]
	stp	x22, x21, [sp, #432]
	b.hi	.LBBad14d42f_8
	add	w10, w27, #15
	mov	w8, #1
	mov	x11, xzr
	and	w9, w10, #0xff
	lsl	x8, x8, x18
	add	w12, w27, #1
	cmp	w9, #63
	csel	w25, w9, w25, lo
	mov	w9, w1
.LBBad14d42f_2:
	cmp	x9, x11
	mov	w13, w20
	b.eq	.LBBad14d42f_4
	ldr	x13, [x19, #8]
	lsr	x14, x11, #1
	tst	x11, #0x1
	ldrb	w13, [x13, x14]
	lsr	w14, w13, #4
	and	w13, w13, #0xf
	csel	w13, w13, w14, eq
	add	w13, w13, w27
.LBBad14d42f_4:
	and	w14, w25, #0xff
	and	w13, w13, #0xff
	cmp	w13, w14
	csel	w25, w13, w14, lo
	cmp	w25, w12, uxtb
	b.eq	.LBBad14d42f_7
	add	x11, x11, #1
	cmp	x8, x11
	b.ne	.LBBad14d42f_2
	and	w11, w25, #0xff
	cmp	w11, w10, uxtb
	b.lo	.LBBad14d42f_8
	b	.LBBad14d42f_12
.LBBad14d42f_7:
	add	w25, w27, #1
	and	w11, w25, #0xff
	cmp	w11, w10, uxtb
	b.hs	.LBBad14d42f_12
.LBBad14d42f_8:
	add	w21, w25, #15
	ldrb	w8, [x19, #32]
	stp	xzr, xzr, [sp, #32]
	and	w9, w21, #0xff
	cmp	w9, w20, uxtb
	b.ls	.LBBad14d42f_41
	cmp	w8, #1
	b.ne	.LBBad14d42f_27
	ldr	x9, [x19, #40]
	ldrb	w10, [x9, #24]
	cbz	w10, .LBBad14d42f_28
	ldp	x10, x9, [x9, #32]
	b	.LBBad14d42f_29
.LBBad14d42f_12:
	mov	x10, xzr
	mov	w25, #63
	b	.LBBad14d42f_15
.LBBad14d42f_13:
	add	w11, w11, w27
.LBBad14d42f_14:
	and	w12, w25, #0xff
	and	w11, w11, #0xff
	add	x10, x10, #1
	cmp	w11, w12
	csel	w25, w11, w12, lo
	cmp	x10, x8
	b.eq	.LBBad14d42f_8
.LBBad14d42f_15:
	cmp	x10, x9
	mov	w11, w20
	b.eq	.LBBad14d42f_14
	ldr	x11, [x19, #8]
	lsr	x12, x10, #1
	tst	x10, #0x1
	ldrb	w11, [x11, x12]
	lsr	w12, w11, #4
	and	w11, w11, #0xf
	csel	w11, w11, w12, eq
	cmp	w11, #15
	b.ne	.LBBad14d42f_13
	ldrb	w11, [x19, #32]
	cmp	w11, #1
	b.ne	.LBBad14d42f_172
	ldr	x13, [x19, #40]
	ldrb	w11, [x13, #24]
	cbz	w11, .LBBad14d42f_20
	ldp	x11, x12, [x13, #32]
	cbnz	x12, .LBBad14d42f_21
	b	.LBBad14d42f_172
.LBBad14d42f_20:
	add	x11, x13, #28
	mov	w12, #8
	cbz	x12, .LBBad14d42f_172
.LBBad14d42f_21:
	ldr	x13, [x13, #8]
	and	w14, w10, #0x3ffffff
	mov	x15, #-1
	lsr	w14, w14, w13
	lsl	x15, x15, x13
	orr	w13, w14, #0x1
	mvn	x14, x15
	mov	x15, x10
.LBBad14d42f_22:
	and	x15, x15, x14
	ldr	w16, [x11, x15, lsl #2]
	cbz	w16, .LBBad14d42f_25
	and	x17, x16, #0x3ffffff
	cmp	x10, x17
	b.eq	.LBBad14d42f_25
	subs	x12, x12, #1
	add	x15, x15, x13
	b.ne	.LBBad14d42f_22
	b	.LBBad14d42f_172
.LBBad14d42f_25:
	cbz	w16, .LBBad14d42f_172
	lsr	w11, w16, #26
	b	.LBBad14d42f_14
.LBBad14d42f_27:
	mov	w10, wzr
	mov	x8, xzr
	mov	x9, xzr
	b	.LBBad14d42f_88
.LBBad14d42f_28:
	add	x10, x9, #28
	mov	w9, #8
.LBBad14d42f_29:
	cmp	x9, #4
	b.hs	.LBBad14d42f_35
.LBBad14d42f_30:
	mov	x11, x10
.LBBad14d42f_31:
	mov	x10, x11
.LBBad14d42f_32:
	cbz	x9, .LBBad14d42f_46
	ldr	w11, [x10], #4
	sub	x9, x9, #1
	cbz	w11, .LBBad14d42f_32
	and	w12, w21, #0xff
	cmp	w12, w11, lsr #26
	b.ls	.LBBad14d42f_29
	b	.LBBad14d42f_41
.LBBad14d42f_35:
	mov	x11, x10
.LBBad14d42f_36:
	ldr	w12, [x11], #16
	cbnz	w12, .LBBad14d42f_30
	ldr	w12, [x10, #4]
	cbnz	w12, .LBBad14d42f_30
	ldr	w12, [x10, #8]
	cbnz	w12, .LBBad14d42f_30
	ldr	w12, [x10, #12]
	cbnz	w12, .LBBad14d42f_30
	sub	x9, x9, #4
	mov	x10, x11
	cmp	x9, #3
	b.hi	.LBBad14d42f_36
	b	.LBBad14d42f_31
.LBBad14d42f_41:
	cmp	w8, #1
	b.ne	.LBBad14d42f_44
	movi	v0.2d, #0000000000000000
	ldr	x26, [x19, #40]
	sub	x28, x29, #176
	stp	xzr, xzr, [x29, #-40]
	ldrb	w8, [x26, #24]
	stur	xzr, [x29, #-24]
	str	xzr, [sp, #176]
	stur	q0, [x28, #8]
	stur	q0, [x28, #24]
	stur	q0, [x28, #40]
	stur	q0, [x28, #56]
	stur	q0, [x28, #72]
	stur	q0, [x28, #88]
	stur	q0, [x28, #104]
	stur	q0, [x28, #120]
	stp	q0, q0, [sp, #48]
	stp	q0, q0, [sp, #80]
	stp	q0, q0, [sp, #112]
	stp	q0, q0, [sp, #144]
	stur	xzr, [x29, #-176]
	str	w1, [sp, #28]
	str	x18, [sp, #16]
	cbz	w8, .LBBad14d42f_47
	ldp	x21, x23, [x26, #32]
	b	.LBBad14d42f_48
.LBBad14d42f_44:
	mov	x9, xzr
	and	w10, w21, #0xff
	mov	w8, wzr
	cmp	w10, w20, uxtb
	stp	x8, xzr, [sp, #32]
	b.ls	.LBBad14d42f_80
.LBBad14d42f_45:
	mov	w10, #1
	b	.LBBad14d42f_88
.LBBad14d42f_46:
	mov	w10, wzr
	mov	x8, xzr
	b	.LBBad14d42f_88
.LBBad14d42f_47:
	add	x21, x26, #28
	mov	w23, #8
.LBBad14d42f_48:
	sub	x8, x29, #176
	sub	x15, x29, #176
	add	x16, x8, #36
.LBBad14d42f_49:
	cmp	x23, #4
	b.hs	.LBBad14d42f_62
.LBBad14d42f_50:
	mov	x8, x21
.LBBad14d42f_51:
	mov	x21, x8
.LBBad14d42f_52:
	cbz	x23, .LBBad14d42f_77
	ldr	w22, [x21], #4
	sub	x23, x23, #1
	cbz	w22, .LBBad14d42f_52
	add	w8, w25, #15
	and	w8, w8, #0xff
	cmp	w8, w22, lsr #26
	b.hi	.LBBad14d42f_49
	ldurb	w8, [x29, #-176]
	ldrb	w17, [x26]
	and	x24, x22, #0x3ffffff
	cmp	w8, #1
	b.ne	.LBBad14d42f_70
	ldp	x10, x8, [x29, #-136]
	mov	w11, #256
	ldurb	w9, [x29, #-144]
	str	x16, [sp, #8]
	cmp	x8, #256
	csel	x8, x8, x11, lo
	cmp	w9, #0
	mov	w9, #8
	csel	x8, x9, x8, eq
	csel	x9, x16, x10, eq
	cbz	x8, .LBBad14d42f_61
	ldur	x10, [x29, #-160]
	mov	x11, #-1
	lsr	w12, w24, w10
	lsl	x11, x11, x10
	orr	w10, w12, #0x1
	mvn	x11, x11
	and	x12, x22, #0x3ffffff
.LBBad14d42f_58:
	and	x12, x12, x11
	ldr	w13, [x9, x12, lsl #2]
	cbz	w13, .LBBad14d42f_68
	and	w14, w13, #0x3ffffff
	cmp	w14, w24
	b.eq	.LBBad14d42f_68
	subs	x8, x8, #1
	add	x12, x12, x10
	b.ne	.LBBad14d42f_58
.LBBad14d42f_61:
	sub	x8, x29, #176
	add	x0, x15, #8
	and	x2, x22, #0x3ffffff
	add	x1, x8, #104
	str	w17, [sp, #4]
	bl	hll_coupons.aux_map_builder.has_mark.8a2f8b2564a2651f
	ldr	w17, [sp, #4]
	tst	w0, #0xff
	b.eq	.LBBad14d42f_69
	b	.LBBad14d42f_71
.LBBad14d42f_62:
	mov	x8, x21
.LBBad14d42f_63:
	ldr	w9, [x8], #16
	cbnz	w9, .LBBad14d42f_50
	ldr	w9, [x21, #4]
	cbnz	w9, .LBBad14d42f_50
	ldr	w9, [x21, #8]
	cbnz	w9, .LBBad14d42f_50
	ldr	w9, [x21, #12]
	cbnz	w9, .LBBad14d42f_50
	sub	x23, x23, #4
	mov	x21, x8
	cmp	x23, #3
	b.hi	.LBBad14d42f_63
	b	.LBBad14d42f_51
.LBBad14d42f_68:
	cmp	w13, #0
	cset	w1, ne
	tst	wzr, #0xff
	b.ne	.LBBad14d42f_71
.LBBad14d42f_69:
	ldr	x16, [sp, #8]
	sub	x15, x29, #176
	tbnz	w1, #0, .LBBad14d42f_49
.LBBad14d42f_70:
	lsr	w3, w22, #26
	sub	x0, x29, #176
	mov	w1, w17
	mov	w2, w24
	mov	x22, x16
	bl	hll_registers.exception_map.add_exception.8a2f8b2564a2651f
	mov	x16, x22
	sub	x15, x29, #176
	tst	w0, #0xff
	b.eq	.LBBad14d42f_49
.LBBad14d42f_71:
	ldurb	w8, [x29, #-176]
	cmp	w8, #1
	b.ne	.LBBad14d42f_86
	ldp	x20, x26, [x29, #-96]
	mov	w22, w1
	ldurb	w8, [x29, #-144]
	ldur	x25, [x29, #-80]
	ldurb	w24, [x29, #-72]
	ldur	x19, [x29, #-64]
	ldur	x23, [x29, #-48]
	cbz	w8, .LBBad14d42f_75
	ldur	x8, [x29, #-120]
	cbz	x8, .LBBad14d42f_75
	ldur	x0, [x29, #-136]
	bl	rattle_dealloc
	mov	w1, w22
.LBBad14d42f_75:
	cbz	x26, .LBBad14d42f_167
	add	x27, x20, #40
	b	.LBBad14d42f_163
.LBBad14d42f_77:
	ldur	q0, [x15, #8]
	ldur	q1, [x15, #24]
	sub	x0, x29, #40
	ldurb	w8, [x29, #-176]
	ldur	x9, [x29, #-48]
	add	x1, sp, #48
	stur	q0, [sp, #56]
	ldur	q0, [x15, #40]
	stur	q1, [sp, #72]
	ldur	q1, [x15, #56]
	stur	q0, [sp, #88]
	ldur	q0, [x28, #72]
	str	x8, [sp, #48]
	ldurb	w8, [x29, #-72]
	stur	q0, [sp, #120]
	ldur	q0, [x28, #88]
	stur	q1, [sp, #104]
	stur	q0, [sp, #136]
	ldur	q0, [x29, #-64]
	str	x8, [sp, #152]
	str	x9, [sp, #176]
	str	q0, [sp, #160]
	bl	hll_registers.exception_map.built.8a2f8b2564a2651f
	ldurb	w8, [x29, #-40]
	cbz	w8, .LBBad14d42f_79
	ldurb	w1, [x29, #-39]
	b	.LBBad14d42f_86
.LBBad14d42f_79:
	ldurb	w8, [x29, #-32]
	ldur	x9, [x29, #-24]
	add	w21, w25, #15
	ldr	w1, [sp, #28]
	ldr	x18, [sp, #16]
	and	w10, w21, #0xff
	mov	w8, w8
	cmp	w10, w20, uxtb
	stp	x8, x9, [sp, #32]
	b.hi	.LBBad14d42f_45
.LBBad14d42f_80:
	add	x0, sp, #32
	mov	w2, w1
	mov	w1, w18
	mov	w3, w20
	mov	w22, w2
	bl	hll_registers.exception_map.put_exception.8a2f8b2564a2651f
	ldrb	w8, [sp, #32]
	tst	w0, #0xff
	b.eq	.LBBad14d42f_87
	cmp	w8, #1
	b.ne	.LBBad14d42f_86
	ldr	x0, [sp, #40]
	mov	w20, w1
	ldrb	w22, [x0, #24]
	ldr	x19, [x0, #32]
	ldr	x21, [x0, #48]
	bl	rattle_dealloc
	cbz	w22, .LBBad14d42f_85
	cbz	x21, .LBBad14d42f_85
	mov	x0, x19
	bl	rattle_dealloc
.LBBad14d42f_85:
	mov	w1, w20
.LBBad14d42f_86:
	mov	w0, #1
	b	.LBBad14d42f_157
.LBBad14d42f_87:
	ldr	x9, [sp, #40]
	mov	w10, #1
	mov	w1, w22
.LBBad14d42f_88:
	mov	w13, w1
	ldp	x12, x0, [x19, #8]
	lsr	x11, x13, #1
	tst	x13, #0x1
	mov	w15, #15
	cinv	w15, w15, ne
	cmp	w27, w25, uxtb
	ldrb	w14, [x12, x11]
	orr	w14, w14, w15
	strb	w14, [x12, x11]
	b.ne	.LBBad14d42f_92
.LBBad14d42f_89:
	ldrb	w14, [x19, #32]
	cmp	w14, #1
	b.ne	.LBBad14d42f_121
	ldr	x14, [x19, #40]
	ldrb	w15, [x14, #24]
	cbz	w15, .LBBad14d42f_105
	ldp	x15, x14, [x14, #32]
	b	.LBBad14d42f_106
.LBBad14d42f_92:
	lsr	x17, x0, #5
	and	x1, x0, #0xffffffffffffffe0
	sub	w14, w25, w27
	add	x15, x12, x1
	and	x16, x0, #0x1f
	cbz	x17, .LBBad14d42f_137
	cbz	x16, .LBBad14d42f_158
	mov	w18, wzr
	and	x0, x0, #0x18
	add	x1, x12, x1
	b	.LBBad14d42f_96
.LBBad14d42f_95:
	add	w18, w18, #1
	and	w2, w18, #0xff
	cmp	w2, w14, uxtb
	b.hs	.LBBad14d42f_89
.LBBad14d42f_96:
	mov	x2, x12
	mov	x3, x17
.LBBad14d42f_97:
	movi	v0.16b, #15
	movi	v1.16b, #240
	subs	x3, x3, #1
	ldp	q2, q3, [x2]
	and	v4.16b, v2.16b, v0.16b
	cmhi	v5.16b, v1.16b, v2.16b
	and	v6.16b, v3.16b, v0.16b
	cmhi	v7.16b, v1.16b, v3.16b
	cmeq	v4.16b, v4.16b, v0.16b
	and	v5.16b, v5.16b, v1.16b
	cmeq	v0.16b, v6.16b, v0.16b
	and	v1.16b, v7.16b, v1.16b
	mvn	v4.16b, v4.16b
	add	v2.16b, v5.16b, v2.16b
	mvn	v0.16b, v0.16b
	add	v1.16b, v1.16b, v3.16b
	add	v2.16b, v2.16b, v4.16b
	add	v0.16b, v1.16b, v0.16b
	stp	q2, q0, [x2], #32
	b.ne	.LBBad14d42f_97
	cmp	x16, #8
	b.hs	.LBBad14d42f_100
	mov	x3, xzr
	b	.LBBad14d42f_103
.LBBad14d42f_100:
	mov	x2, x15
	mov	x3, x0
.LBBad14d42f_101:
	movi	v0.8b, #15
	movi	v1.8b, #240
	ldr	d2, [x2]
	subs	x3, x3, #8
	and	v3.8b, v2.8b, v0.8b
	cmhi	v4.8b, v1.8b, v2.8b
	cmeq	v0.8b, v3.8b, v0.8b
	and	v1.8b, v4.8b, v1.8b
	mvn	v0.8b, v0.8b
	add	v1.8b, v1.8b, v2.8b
	add	v0.8b, v1.8b, v0.8b
	str	d0, [x2], #8
	b.ne	.LBBad14d42f_101
	cmp	x16, x0
	mov	x3, x0
	b.eq	.LBBad14d42f_95
.LBBad14d42f_103:
	sub	x2, x16, x3
	add	x3, x1, x3
.LBBad14d42f_104:
	ldrb	w4, [x3]
	mov	w5, #15
	mov	w6, #-16
	bics	wzr, w5, w4
	cset	w5, ne
	cmp	w4, #240
	csel	w6, w6, wzr, lo
	subs	x2, x2, #1
	add	w4, w6, w4
	sub	w4, w4, w5
	strb	w4, [x3], #1
	b.ne	.LBBad14d42f_104
	b	.LBBad14d42f_95
.LBBad14d42f_105:
	add	x15, x14, #28
	mov	w14, #8
.LBBad14d42f_106:
	cmp	x14, #4
	b.hs	.LBBad14d42f_114
.LBBad14d42f_107:
	mov	x16, x15
.LBBad14d42f_108:
	mov	x15, x16
.LBBad14d42f_109:
	cbz	x14, .LBBad14d42f_121
	ldr	w16, [x15], #4
	sub	x14, x14, #1
	cbz	w16, .LBBad14d42f_109
	and	w17, w21, #0xff
	cmp	w17, w16, lsr #26
	b.ls	.LBBad14d42f_106
	ubfx	x17, x16, #1, #25
	lsr	w0, w16, #26
	ldrb	w18, [x12, x17]
	sub	w0, w0, w25
	tbnz	w16, #0, .LBBad14d42f_120
	and	w16, w18, #0xf0
	add	w16, w16, w0
	strb	w16, [x12, x17]
	b	.LBBad14d42f_106
.LBBad14d42f_114:
	mov	x16, x15
.LBBad14d42f_115:
	ldr	w17, [x16], #16
	cbnz	w17, .LBBad14d42f_107
	ldr	w17, [x15, #4]
	cbnz	w17, .LBBad14d42f_107
	ldr	w17, [x15, #8]
	cbnz	w17, .LBBad14d42f_107
	ldr	w17, [x15, #12]
	cbnz	w17, .LBBad14d42f_107
	sub	x14, x14, #4
	mov	x15, x16
	cmp	x14, #3
	b.hi	.LBBad14d42f_115
	b	.LBBad14d42f_108
.LBBad14d42f_120:
	bfi	w18, w0, #4, #28
	strb	w18, [x12, x17]
	b	.LBBad14d42f_106
.LBBad14d42f_121:
	sub	w14, w20, w25
	mov	w16, #15
	ldrb	w15, [x12, x11]
	and	w14, w14, #0xff
	cmp	w14, #15
	csel	w14, w14, w16, lo
	tbnz	w13, #0, .LBBad14d42f_123
	and	w13, w15, #0xf0
	orr	w13, w13, w14
	strb	w13, [x12, x11]
	cbnz	w10, .LBBad14d42f_124
	b	.LBBad14d42f_128
.LBBad14d42f_123:
	and	w13, w15, #0xf
	orr	w13, w13, w14, lsl #4
	strb	w13, [x12, x11]
	cbz	w10, .LBBad14d42f_128
.LBBad14d42f_124:
	ldrb	w10, [x19, #32]
	ldr	x0, [x19, #40]
	stp	x8, x9, [x19, #32]
	cmp	w10, #1
	b.ne	.LBBad14d42f_128
	ldrb	w22, [x0, #24]
	ldr	x20, [x0, #32]
	ldr	x21, [x0, #48]
	bl	rattle_dealloc
	cbz	w22, .LBBad14d42f_128
	cbz	x21, .LBBad14d42f_128
	mov	x0, x20
	bl	rattle_dealloc
.LBBad14d42f_128:
	ldp	x9, x11, [x19, #8]
	mov	w8, wzr
	strb	w25, [x19, #1]
	lsr	x12, x11, #6
	and	x10, x11, #0x3f
	cbz	x12, .LBBad14d42f_131
	add	x13, x9, #32
.LBBad14d42f_130:
	movi	v0.16b, #15
	ldp	q1, q2, [x13, #-32]
	movi	v5.16b, #16
	movi	v6.16b, #1
	subs	x12, x12, #1
	and	v3.16b, v1.16b, v0.16b
	and	v4.16b, v2.16b, v0.16b
	cmhi	v1.16b, v5.16b, v1.16b
	cmhi	v2.16b, v5.16b, v2.16b
	cmeq	v3.16b, v3.16b, #0
	cmeq	v4.16b, v4.16b, #0
	and	v3.16b, v3.16b, v6.16b
	and	v4.16b, v4.16b, v6.16b
	ldp	q6, q7, [x13], #64
	sub	v1.16b, v3.16b, v1.16b
	sub	v2.16b, v4.16b, v2.16b
	and	v3.16b, v6.16b, v0.16b
	and	v0.16b, v7.16b, v0.16b
	cmhi	v4.16b, v5.16b, v6.16b
	cmhi	v5.16b, v5.16b, v7.16b
	cmeq	v3.16b, v3.16b, #0
	cmeq	v0.16b, v0.16b, #0
	sub	v1.16b, v1.16b, v4.16b
	sub	v2.16b, v2.16b, v5.16b
	sub	v1.16b, v1.16b, v3.16b
	sub	v0.16b, v2.16b, v0.16b
	add	v0.16b, v0.16b, v1.16b
	addv	b0, v0.16b
	fmov	w14, s0
	add	w8, w8, w14, uxtb
	b.ne	.LBBad14d42f_130
.LBBad14d42f_131:
	cbz	x10, .LBBad14d42f_134
	cmp	x10, #4
	and	x12, x11, #0xffffffffffffffc0
	b.hs	.LBBad14d42f_135
	mov	w15, wzr
	mov	x13, xzr
	b	.LBBad14d42f_154
.LBBad14d42f_134:
	mov	w15, wzr
	b	.LBBad14d42f_156
.LBBad14d42f_135:
	cmp	x10, #16
	b.hs	.LBBad14d42f_147
	mov	x13, xzr
	mov	w15, wzr
	b	.LBBad14d42f_151
.LBBad14d42f_137:
	cbz	x16, .LBBad14d42f_89
	mov	w17, wzr
	and	x18, x0, #0x18
	add	x0, x12, x1
	b	.LBBad14d42f_140
.LBBad14d42f_139:
	add	w17, w17, #1
	and	w1, w17, #0xff
	cmp	w1, w14, uxtb
	b.hs	.LBBad14d42f_89
.LBBad14d42f_140:
	cmp	x16, #8
	b.hs	.LBBad14d42f_142
	mov	x2, xzr
	b	.LBBad14d42f_145
.LBBad14d42f_142:
	mov	x1, x15
	mov	x2, x18
.LBBad14d42f_143:
	movi	v0.8b, #15
	movi	v1.8b, #240
	ldr	d2, [x1]
	subs	x2, x2, #8
	and	v3.8b, v2.8b, v0.8b
	cmhi	v4.8b, v1.8b, v2.8b
	cmeq	v0.8b, v3.8b, v0.8b
	and	v1.8b, v4.8b, v1.8b
	mvn	v0.8b, v0.8b
	add	v1.8b, v1.8b, v2.8b
	add	v0.8b, v1.8b, v0.8b
	str	d0, [x1], #8
	b.ne	.LBBad14d42f_143
	cmp	x16, x18
	mov	x2, x18
	b.eq	.LBBad14d42f_139
.LBBad14d42f_145:
	sub	x1, x16, x2
	add	x2, x0, x2
.LBBad14d42f_146:
	ldrb	w3, [x2]
	mov	w4, #15
	mov	w5, #-16
	bics	wzr, w4, w3
	cset	w4, ne
	cmp	w3, #240
	csel	w5, w5, wzr, lo
	subs	x1, x1, #1
	add	w3, w5, w3
	sub	w3, w3, w4
	strb	w3, [x2], #1
	b.ne	.LBBad14d42f_146
	b	.LBBad14d42f_139
.LBBad14d42f_147:
	movi	v0.2d, #0000000000000000
	movi	v1.2d, #0000000000000000
	add	x15, x12, x9
	movi	v2.2d, #0000000000000000
	movi	v3.2d, #0000000000000000
	and	x14, x11, #0xc
	and	x13, x11, #0x30
	add	x15, x15, #8
	and	x16, x11, #0x30
.LBBad14d42f_148:
	movi	v4.8b, #15
	movi	v5.8b, #16
	subs	x16, x16, #16
	ldp	d6, d7, [x15, #-8]
	add	x15, x15, #16
	and	v16.8b, v6.8b, v4.8b
	and	v4.8b, v7.8b, v4.8b
	cmhi	v6.8b, v5.8b, v6.8b
	cmhi	v5.8b, v5.8b, v7.8b
	cmeq	v7.8b, v16.8b, #0
	cmeq	v4.8b, v4.8b, #0
	ushll	v6.8h, v6.8b, #0
	ushll	v5.8h, v5.8b, #0
	movi	v16.4s, #1
	ushll	v7.8h, v7.8b, #0
	ushll	v4.8h, v4.8b, #0
	ushll2	v17.4s, v6.8h, #0
	ushll	v6.4s, v6.4h, #0
	ushll2	v18.4s, v5.8h, #0
	ushll	v5.4s, v5.4h, #0
	ushll	v19.4s, v7.4h, #0
	ushll2	v7.4s, v7.8h, #0
	ushll	v20.4s, v4.4h, #0
	ushll2	v4.4s, v4.8h, #0
	and	v17.16b, v17.16b, v16.16b
	and	v6.16b, v6.16b, v16.16b
	and	v18.16b, v18.16b, v16.16b
	and	v5.16b, v5.16b, v16.16b
	and	v19.16b, v19.16b, v16.16b
	and	v7.16b, v7.16b, v16.16b
	and	v20.16b, v20.16b, v16.16b
	and	v4.16b, v4.16b, v16.16b
	add	v2.4s, v2.4s, v17.4s
	add	v1.4s, v1.4s, v6.4s
	add	v3.4s, v3.4s, v5.4s
	add	v0.4s, v0.4s, v18.4s
	add	v2.4s, v2.4s, v7.4s
	add	v1.4s, v1.4s, v19.4s
	add	v0.4s, v0.4s, v4.4s
	add	v3.4s, v3.4s, v20.4s
	b.ne	.LBBad14d42f_148
	add	v1.4s, v3.4s, v1.4s
	add	v0.4s, v0.4s, v2.4s
	cmp	x10, x13
	add	v0.4s, v1.4s, v0.4s
	addv	s0, v0.4s
	fmov	w15, s0
	b.eq	.LBBad14d42f_156
	cbz	x14, .LBBad14d42f_154
.LBBad14d42f_151:
	movi	v0.2d, #0000000000000000
	mov	x14, x13
	and	x13, x11, #0x3c
	sub	x11, x14, x13
	mov	v0.s[0], w15
	add	x15, x14, x12
	add	x14, x9, x15
.LBBad14d42f_152:
	ldr	s1, [x14], #4
	movi	v2.4h, #16
	adds	x11, x11, #4
	ushll	v1.8h, v1.8b, #0
	fmov	d3, d1
	cmhi	v1.4h, v2.4h, v1.4h
	movi	v2.4s, #1
	ushll	v1.4s, v1.4h, #0
	bic	v3.4h, #240
	and	v1.16b, v1.16b, v2.16b
	cmeq	v3.4h, v3.4h, #0
	add	v0.4s, v0.4s, v1.4s
	ushll	v3.4s, v3.4h, #0
	and	v2.16b, v3.16b, v2.16b
	add	v0.4s, v0.4s, v2.4s
	b.ne	.LBBad14d42f_152
	addv	s0, v0.4s
	cmp	x10, x13
	fmov	w15, s0
	b.eq	.LBBad14d42f_156
.LBBad14d42f_154:
	add	x11, x13, x12
	sub	x10, x10, x13
	add	x9, x9, x11
.LBBad14d42f_155:
	ldrb	w11, [x9], #1
	cmp	w11, #16
	cinc	w12, w15, lo
	tst	w11, #0xf
	cinc	w15, w12, eq
	subs	x10, x10, #1
	b.ne	.LBBad14d42f_155
.LBBad14d42f_156:
	mov	w0, wzr
	mov	w1, wzr
	add	w8, w15, w8
	str	w8, [x19, #4]
.LBBad14d42f_157:
	ldp	x20, x19, [sp, #448]
	ldp	x22, x21, [sp, #432]
	ldp	x24, x23, [sp, #416]
	ldp	x26, x25, [sp, #400]
	ldp	x28, x27, [sp, #384]
	ldp	x29, x30, [sp, #368]
	add	sp, sp, #464
	ret
.LBBad14d42f_158:
	mov	w15, wzr
.LBBad14d42f_159:
	mov	x16, x12
	mov	x18, x17
.LBBad14d42f_160:
	movi	v0.16b, #15
	movi	v1.16b, #240
	subs	x18, x18, #1
	ldp	q2, q3, [x16]
	and	v4.16b, v2.16b, v0.16b
	cmhi	v5.16b, v1.16b, v2.16b
	and	v6.16b, v3.16b, v0.16b
	cmhi	v7.16b, v1.16b, v3.16b
	cmeq	v4.16b, v4.16b, v0.16b
	and	v5.16b, v5.16b, v1.16b
	cmeq	v0.16b, v6.16b, v0.16b
	and	v1.16b, v7.16b, v1.16b
	mvn	v4.16b, v4.16b
	add	v2.16b, v5.16b, v2.16b
	mvn	v0.16b, v0.16b
	add	v1.16b, v1.16b, v3.16b
	add	v2.16b, v2.16b, v4.16b
	add	v0.16b, v1.16b, v0.16b
	stp	q2, q0, [x16], #32
	b.ne	.LBBad14d42f_160
	add	w15, w15, #1
	and	w16, w15, #0xff
	cmp	w16, w14, uxtb
	b.lo	.LBBad14d42f_159
	b	.LBBad14d42f_89
.LBBad14d42f_162:
	subs	x26, x26, #1
	add	x27, x27, #72
	b.eq	.LBBad14d42f_167
.LBBad14d42f_163:
	ldp	x8, x21, [x27]
	ldr	x28, [x27, #24]
	cbz	x8, .LBBad14d42f_165
	ldur	x0, [x27, #-16]
	bl	rattle_dealloc
	mov	w1, w22
.LBBad14d42f_165:
	cbz	x28, .LBBad14d42f_162
	mov	x0, x21
	bl	rattle_dealloc
	mov	w1, w22
	b	.LBBad14d42f_162
.LBBad14d42f_167:
	cbz	x25, .LBBad14d42f_169
	mov	x0, x20
	bl	rattle_dealloc
	mov	w1, w22
.LBBad14d42f_169:
	cmp	w24, #1
	b.ne	.LBBad14d42f_86
	cbz	x23, .LBBad14d42f_86
	mov	x0, x19
	bl	rattle_dealloc
	mov	w1, w22
	b	.LBBad14d42f_86
.LBBad14d42f_172:
	brk	#0x1
.Lfunc_endad14d42f:
	.size	hll_registers.nibble_registers.NibbleRegisters.rise.8a2f8b2564a2651f, .Lfunc_endad14d42f-hll_registers.nibble_registers.NibbleRegisters.rise.8a2f8b2564a2651f

	.section	.text.hll_registers.exception_map.put_exception.8a2f8b2564a2651f,"ax",@progbits
	.p2align	2
	.type	hll_registers.exception_map.put_exception.8a2f8b2564a2651f,@function
hll_registers.exception_map.put_exception.8a2f8b2564a2651f:
	sub	sp, sp, #192
	ldrb	w8, [x0]
	stp	x20, x19, [sp, #176]
	mov	x19, x0
	str	d8, [sp, #96]
	cmp	w8, #1
	stp	x29, x30, [sp, #104]
	add	x29, sp, #104
	str	x27, [sp, #120]
	stp	x26, x25, [sp, #128]
	stp	x24, x23, [sp, #144]
	stp	x22, x21, [sp, #160]
	stp	xzr, xzr, [sp, #16]
	str	wzr, [sp, #8]
	stur	wzr, [sp, #11]
	b.ne	.LBB299c4c54_3
	ldr	x8, [x19, #8]
	ldrb	w9, [x8, #24]
	cbz	w9, .LBB299c4c54_14
	ldp	x14, x15, [x8, #32]
	b	.LBB299c4c54_15
.LBB299c4c54_3:
	and	w8, w1, #0xff
	cmp	w8, #7
	b.hs	.LBB299c4c54_7
	mov	x25, x1
	mov	w24, w3
	mov	w26, w2
	mov	w23, #2
.LBB299c4c54_5:
	mov	w8, #4
	mov	w1, #4
	lsl	x21, x8, x23
	mov	x0, x21
	bl	rattle_alloc
	tbz	w0, #0, .LBB299c4c54_72
	mov	x20, x1
	mov	w27, #1
	sub	x2, x21, #4
	mov	x0, x1
	mov	w1, wzr
	lsl	x22, x27, x23
	bl	memset
	mov	w8, wzr
	add	x9, x20, x21
	mov	w2, w26
	mov	w3, w24
	mov	x1, x25
	stur	wzr, [x9, #-4]
	b	.LBB299c4c54_9
.LBB299c4c54_7:
	cmp	w8, #10
	b.hs	.LBB299c4c54_31
	mov	w27, wzr
	mov	x20, xzr
	mov	x22, xzr
	mov	w8, #1
	mov	w23, #3
.LBB299c4c54_9:
	mov	w9, #3
	strb	w1, [sp, #32]
	mov	w1, w2
	lsl	x9, x9, x23
	bfi	w1, w3, #26, #6
	add	x21, sp, #32
	stur	wzr, [sp, #33]
	cmp	x9, #4
	str	wzr, [sp, #36]
	stp	x23, xzr, [sp, #40]
	stp	w27, wzr, [sp, #56]
	stp	x20, x22, [sp, #64]
	stp	x22, xzr, [sp, #80]
	b.hs	.LBB299c4c54_29
	add	x0, x21, #8
	bl	hll_coupons.aux_map.put_growing.8a2f8b2564a2651f
	tst	w0, #0xff
	b.eq	.LBB299c4c54_42
	ldrb	w8, [sp, #56]
	cbz	w8, .LBB299c4c54_73
	ldr	x8, [sp, #80]
	cbz	x8, .LBB299c4c54_73
	ldr	x0, [sp, #64]
	mov	w19, w1
	bl	rattle_dealloc
	mov	w1, w19
	b	.LBB299c4c54_73
.LBB299c4c54_14:
	add	x14, x8, #28
	mov	w15, #8
.LBB299c4c54_15:
	ldur	x16, [x8, #8]
	and	w10, w2, #0x3ffffff
	mov	x11, #-1
	lsr	w12, w10, w16
	lsl	x13, x11, x16
	orr	w11, w12, #0x1
	mvn	x12, x13
	cbz	x15, .LBB299c4c54_24
	mov	w13, w2
	mov	x17, x13
.LBB299c4c54_17:
	and	x17, x17, x12
	ldr	w18, [x14, x17, lsl #2]
	cbz	w18, .LBB299c4c54_20
	and	w0, w18, #0x3ffffff
	cmp	w0, w2
	b.eq	.LBB299c4c54_20
	subs	x15, x15, #1
	add	x17, x17, x11
	b.ne	.LBB299c4c54_17
	b	.LBB299c4c54_24
.LBB299c4c54_20:
	cbz	w18, .LBB299c4c54_24
	cbz	w9, .LBB299c4c54_62
	ldr	x14, [x8, #40]
	cbz	x14, .LBB299c4c54_66
	ldr	x15, [x8, #32]
	b	.LBB299c4c54_63
.LBB299c4c54_24:
	ldr	x13, [x8, #16]
	mov	w14, #3
	orr	w1, w10, w3, lsl #26
	lsl	x14, x14, x16
	lsl	x13, x13, #2
	add	x13, x13, #4
	cmp	x13, x14
	b.ls	.LBB299c4c54_26
	add	x0, x8, #8
	bl	hll_coupons.aux_map.put_growing.8a2f8b2564a2651f
	tst	w0, #0xff
	cset	w0, ne
	csel	w1, w1, wzr, ne
	b	.LBB299c4c54_74
.LBB299c4c54_26:
	cbz	w9, .LBB299c4c54_51
	ldr	x13, [x8, #40]
	cbz	x13, .LBB299c4c54_66
	ldr	x14, [x8, #32]
	b	.LBB299c4c54_52
.LBB299c4c54_29:
	add	x9, x21, #28
	tbz	w8, #0, .LBB299c4c54_33
	mov	w22, #8
	add	x10, x21, #28
	b	.LBB299c4c54_34
.LBB299c4c54_31:
	and	w8, w1, #0xff
	cmp	w8, #12
	b.hs	.LBB299c4c54_60
	mov	x25, x1
	mov	w24, w3
	mov	w26, w2
	mov	w23, #4
	b	.LBB299c4c54_5
.LBB299c4c54_33:
	mov	x10, x20
	cbz	x22, .LBB299c4c54_66
.LBB299c4c54_34:
	and	w11, w2, #0x3ffffff
	mov	x12, #-1
	lsr	w13, w11, w23
	lsl	x14, x12, x23
	orr	w12, w13, #0x1
	mvn	x13, x14
	mov	x14, x11
.LBB299c4c54_35:
	and	x14, x14, x13
	ldr	w15, [x10, x14, lsl #2]
	cbz	w15, .LBB299c4c54_38
	and	w15, w15, #0x3ffffff
	cmp	w15, w11
	b.eq	.LBB299c4c54_38
	subs	x22, x22, #1
	add	x14, x14, x12
	b.ne	.LBB299c4c54_35
	b	.LBB299c4c54_66
.LBB299c4c54_38:
	cbz	w8, .LBB299c4c54_40
	str	w1, [x9, x14, lsl #2]
	ldr	x8, [sp, #48]
	add	x8, x8, #1
	b	.LBB299c4c54_41
.LBB299c4c54_40:
	mov	w8, #1
	str	w1, [x20, x14, lsl #2]
.LBB299c4c54_41:
	str	x8, [sp, #48]
.LBB299c4c54_42:
	ldur	w8, [sp, #57]
	ldur	q0, [x21, #8]
	mov	w0, #64
	ldp	x20, x23, [sp, #64]
	mov	w1, #8
	str	w8, [sp, #8]
	ldr	w8, [sp, #60]
	ldr	x24, [sp, #32]
	ldrb	w22, [sp, #56]
	ldr	x21, [sp, #80]
	ldr	d8, [sp, #88]
	str	q0, [sp, #16]
	stur	w8, [sp, #11]
	bl	rattle_alloc
	tbz	w0, #0, .LBB299c4c54_48
	ldr	q0, [sp, #16]
	ldr	w8, [sp, #8]
	ldur	w9, [sp, #11]
	str	x24, [x1]
	strb	w22, [x1, #24]
	stur	q0, [x1, #8]
	stur	w8, [x1, #25]
	str	w9, [x1, #28]
	mov	w9, #1
	stp	x20, x23, [x1, #32]
	str	x21, [x1, #48]
	str	d8, [x1, #56]
	ldrb	w8, [x19]
	ldr	x0, [x19, #8]
	stp	x9, x1, [x19]
	cmp	w8, #1
	b.ne	.LBB299c4c54_47
	ldrb	w21, [x0, #24]
	ldr	x19, [x0, #32]
	ldr	x20, [x0, #48]
	bl	rattle_dealloc
	mov	w1, wzr
	mov	w0, wzr
	cbz	w21, .LBB299c4c54_74
	cbz	x20, .LBB299c4c54_74
	mov	x0, x19
	bl	rattle_dealloc
.LBB299c4c54_47:
	mov	w1, wzr
	mov	w0, wzr
	b	.LBB299c4c54_74
.LBB299c4c54_48:
	mov	w0, #1
	mov	w1, #12
	cbz	w22, .LBB299c4c54_74
	cbz	x21, .LBB299c4c54_74
	mov	x0, x20
	bl	rattle_dealloc
	mov	w0, #1
	mov	w1, #12
	b	.LBB299c4c54_74
.LBB299c4c54_51:
	add	x14, x8, #28
	mov	w13, #8
.LBB299c4c54_52:
	mov	x15, x10
.LBB299c4c54_53:
	and	x15, x15, x12
	ldr	w16, [x14, x15, lsl #2]
	cbz	w16, .LBB299c4c54_56
	and	w16, w16, #0x3ffffff
	cmp	w16, w10
	b.eq	.LBB299c4c54_56
	subs	x13, x13, #1
	add	x15, x15, x11
	b.ne	.LBB299c4c54_53
	b	.LBB299c4c54_66
.LBB299c4c54_56:
	cbz	w9, .LBB299c4c54_58
	ldr	x9, [x8, #32]
	str	w1, [x9, x15, lsl #2]
	b	.LBB299c4c54_59
.LBB299c4c54_58:
	add	x9, x8, x15, lsl #2
	str	w1, [x9, #28]
.LBB299c4c54_59:
	ldr	x9, [x8, #16]
	mov	w1, wzr
	mov	w0, wzr
	add	x9, x9, #1
	str	x9, [x8, #16]
	b	.LBB299c4c54_74
.LBB299c4c54_60:
	cmp	w8, #14
	b.hs	.LBB299c4c54_70
	mov	x25, x1
	mov	w24, w3
	mov	w26, w2
	mov	w23, #5
	b	.LBB299c4c54_5
.LBB299c4c54_62:
	add	x15, x8, #28
	mov	w14, #8
.LBB299c4c54_63:
	and	x13, x13, x12
	ldr	w16, [x15, x13, lsl #2]
	cbz	w16, .LBB299c4c54_67
	and	w16, w16, #0x3ffffff
	cmp	w16, w2
	b.eq	.LBB299c4c54_67
	subs	x14, x14, #1
	add	x13, x13, x11
	b.ne	.LBB299c4c54_63
.LBB299c4c54_66:
	brk	#0x1
.LBB299c4c54_67:
	orr	w10, w10, w3, lsl #26
	mov	w1, wzr
	mov	w0, wzr
	cbz	w9, .LBB299c4c54_69
	ldr	x8, [x8, #32]
	str	w10, [x8, x13, lsl #2]
	b	.LBB299c4c54_74
.LBB299c4c54_69:
	add	x8, x8, x13, lsl #2
	str	w10, [x8, #28]
	b	.LBB299c4c54_74
.LBB299c4c54_70:
	and	w8, w1, #0xff
	cmp	w8, #68
	b.hi	.LBB299c4c54_72
	and	x8, x1, #0xff
	mov	w24, w3
	mov	w26, w2
	mov	x25, x1
	sub	x23, x8, #8
	b	.LBB299c4c54_5
.LBB299c4c54_72:
	mov	w1, #12
.LBB299c4c54_73:
	mov	w0, #1
.LBB299c4c54_74:
	ldp	x20, x19, [sp, #176]
	ldr	x27, [sp, #120]
	ldp	x22, x21, [sp, #160]
	ldr	d8, [sp, #96]
	ldp	x24, x23, [sp, #144]
	ldp	x26, x25, [sp, #128]
	ldp	x29, x30, [sp, #104]
	add	sp, sp, #192
	ret
.Lfunc_end299c4c54:
	.size	hll_registers.exception_map.put_exception.8a2f8b2564a2651f, .Lfunc_end299c4c54-hll_registers.exception_map.put_exception.8a2f8b2564a2651f

	.section	.text.hll_registers.nibble_registers.NibbleRegisters.put_high.8a2f8b2564a2651f,"ax",@progbits
	.p2align	2
	.type	hll_registers.nibble_registers.NibbleRegisters.put_high.8a2f8b2564a2651f,@function
hll_registers.nibble_registers.NibbleRegisters.put_high.8a2f8b2564a2651f:
	stp	x29, x30, [sp, #-48]!
	stp	x20, x19, [sp, #32]
	mov	x20, x0
	mov	w19, w3
	ldrb	w8, [x0], #32
	str	x21, [sp, #16]
	mov	w21, w1
	mov	w3, w2
	mov	x29, sp
	mov	w1, w8
	mov	w2, w21
	bl	hll_registers.exception_map.put_exception.8a2f8b2564a2651f
	tst	w0, #0xff
	b.eq	.LBB368f3357_2
	ldp	x20, x19, [sp, #32]
	ldr	x21, [sp, #16]
	ldp	x29, x30, [sp], #48
	ret
.LBB368f3357_2:
	mov	w8, w21
	ldr	x9, [x20, #8]
	mov	w11, #15
	lsr	x10, x8, #1
	tst	x8, #0x1
	mov	w1, wzr
	cinv	w11, w11, ne
	ldrb	w8, [x9, x10]
	orr	w8, w8, w11
	strb	w8, [x9, x10]
	str	w19, [x20, #4]
	ldp	x20, x19, [sp, #32]
	ldr	x21, [sp, #16]
	ldp	x29, x30, [sp], #48
	ret
.Lfunc_end368f3357:
	.size	hll_registers.nibble_registers.NibbleRegisters.put_high.8a2f8b2564a2651f, .Lfunc_end368f3357-hll_registers.nibble_registers.NibbleRegisters.put_high.8a2f8b2564a2651f

	.section	.text.hll_arrays.array6.Array6.update.309f015d8caa795c,"ax",@progbits
	.p2align	2
	.type	hll_arrays.array6.Array6.update.309f015d8caa795c,@function
hll_arrays.array6.Array6.update.309f015d8caa795c:
	sub	sp, sp, #16
	ldrb	w9, [x0]
	mov	x8, #-1
	ldr	x10, [x0, #16]
	lsl	x8, x8, x9
	and	w9, w1, #0x3ffffff
	mvn	w8, w8
	and	x9, x8, x9
	lsr	x8, x9, #2
	add	x8, x8, x8, lsl #1
	add	x8, x10, x8
	ldrb	w10, [x8, #1]
	ldrb	w11, [x8]
	ldrb	w12, [x8, #2]
	lsl	w13, w10, #12
	lsl	w14, w11, #2
	orr	w13, w13, w12, lsl #20
	lsr	w12, w12, #2
	orr	w10, w14, w10, lsl #10
	and	w13, w13, #0x3f0000
	and	w10, w10, #0x3f00
	bfi	w13, w12, #24, #6
	orr	w10, w13, w10
	bfxil	w10, w11, #0, #6
	add	x11, sp, #8
	bfxil	x11, x9, #0, #2
	str	w10, [sp, #8]
	lsr	w10, w1, #26
	ldrb	w11, [x11]
	cmp	w11, w10
	b.hs	.LBB6c86a0e0_2
	ldrb	w12, [x0, #4]
	cmp	w11, #0
	ldr	w11, [x0, #8]
	and	x9, x9, #0x3
	ccmp	w12, #1, #0, eq
	cset	w13, eq
	sub	w11, w11, w13
	stp	w12, w11, [x0, #4]
	ldrb	w11, [x8, #1]
	ldrb	w12, [x8]
	ldrb	w13, [x8, #2]
	lsl	w14, w11, #12
	lsl	w15, w12, #2
	orr	w14, w14, w13, lsl #20
	lsr	w13, w13, #2
	orr	w11, w15, w11, lsl #10
	and	w14, w14, #0x3f0000
	and	w11, w11, #0x3f00
	bfi	w14, w13, #24, #6
	orr	w11, w14, w11
	bfxil	w11, w12, #0, #6
	add	x12, sp, #12
	orr	x9, x12, x9
	str	w11, [sp, #12]
	strb	w10, [x9]
	ldr	w9, [sp, #12]
	lsr	w10, w9, #2
	lsr	w11, w9, #4
	lsr	w12, w9, #6
	and	w10, w10, #0x3fc0
	add	w9, w10, w9, uxtb
	and	w10, w11, #0xff000
	and	w11, w12, #0xfc0000
	add	w10, w9, w10
	strb	w9, [x8]
	add	w11, w10, w11
	lsr	w10, w10, #8
	lsr	w9, w11, #16
	strb	w10, [x8, #1]
	strb	w9, [x8, #2]
	mov	w8, #1
	stp	xzr, xzr, [x0, #40]
	str	xzr, [x0, #56]
	strb	w8, [x0, #64]
	stur	wzr, [x0, #65]
	str	wzr, [x0, #68]
.LBB6c86a0e0_2:
	add	sp, sp, #16
	ret
.Lfunc_end6c86a0e0:
	.size	hll_arrays.array6.Array6.update.309f015d8caa795c, .Lfunc_end6c86a0e0-hll_arrays.array6.Array6.update.309f015d8caa795c

	.section	.text.hll_sketch.sketch.HllSketch.update_table.8a2f8b2564a2651f,"ax",@progbits
	.p2align	2
	.type	hll_sketch.sketch.HllSketch.update_table.8a2f8b2564a2651f,@function
hll_sketch.sketch.HllSketch.update_table.8a2f8b2564a2651f:
	sub	sp, sp, #352
	stp	x24, x23, [sp, #304]
	ldrb	w23, [x0, #8]
	stp	x22, x21, [sp, #320]
	add	x22, sp, #96
	stp	x20, x19, [sp, #336]
	mov	w20, w1
	mov	x19, x0
	stp	x29, x30, [sp, #272]
	add	x29, sp, #272
	str	x28, [sp, #288]
	cbz	w23, .LBB612d2cd0_5
	cmp	w23, #1
	b.ne	.LBB612d2cd0_21
	ldp	x11, x10, [x19, #16]
	mov	w8, #3
	lsl	x8, x8, x11
	and	x9, x11, #0xff
	cmp	x9, #3
	mov	w9, #7
	lsr	x12, x8, #2
	ldrb	w8, [x19, #32]
	csel	x9, x9, x12, eq
	cbz	w8, .LBB612d2cd0_9
	ldr	x12, [x19, #48]
	cbz	x12, .LBB612d2cd0_22
	and	w14, w20, #0x3ffffff
	ldr	x13, [x19, #40]
	lsr	w14, w14, w11
	b	.LBB612d2cd0_10
.LBB612d2cd0_5:
	mov	x21, x19
	mov	w9, #3
	mov	w1, w20
	ldrb	w8, [x21, #16]!
	mov	x0, x21
	lsl	x9, x9, x8
	cmp	x8, #3
	mov	w8, #7
	lsr	x9, x9, #2
	csel	x24, x8, x9, eq
	bl	hll_coupons.list.List.contains.309f015d8caa795c
	ldr	x8, [x21, #8]
	eor	w9, w0, #0x1
	mov	w10, #1
	add	x9, x8, x9
	cmp	x24, x9
	cinc	w10, w10, lo
	tbnz	w0, #0, .LBB612d2cd0_18
	cmp	x24, x9
	b.lo	.LBB612d2cd0_18
	ldrb	w9, [x19, #32]
	cbz	w9, .LBB612d2cd0_27
	ldr	x9, [x19, #40]
	str	w20, [x9, x8, lsl #2]
	b	.LBB612d2cd0_30
.LBB612d2cd0_9:
	and	w12, w20, #0x3ffffff
	add	x13, x19, #36
	lsr	w14, w12, w11
	mov	w12, #8
.LBB612d2cd0_10:
	mov	x15, #-1
	orr	w14, w14, #0x1
	lsl	x11, x15, x11
	mvn	x15, x11
	mov	w11, w20
.LBB612d2cd0_11:
	and	x11, x11, x15
	ldr	w16, [x13, x11, lsl #2]
	cbz	w16, .LBB612d2cd0_14
	cmp	w16, w20
	b.eq	.LBB612d2cd0_14
	subs	x12, x12, #1
	add	x11, x11, x14
	b.ne	.LBB612d2cd0_11
	b	.LBB612d2cd0_19
.LBB612d2cd0_14:
	cmp	w16, #0
	cinc	x12, x10, eq
	mov	w10, #1
	cmp	x9, x12
	cinc	w10, w10, lo
	cbnz	w16, .LBB612d2cd0_18
	cmp	x9, x12
	b.lo	.LBB612d2cd0_18
	cbz	w8, .LBB612d2cd0_28
	ldr	x8, [x19, #40]
	str	w20, [x8, x11, lsl #2]
	b	.LBB612d2cd0_30
.LBB612d2cd0_18:
	cmp	w10, #2
	b.ne	.LBB612d2cd0_26
.LBB612d2cd0_19:
	movi	v0.2d, #0000000000000000
	stp	q0, q0, [x22, #80]
	stp	q0, q0, [x22, #112]
	stp	q0, q0, [x22, #144]
	cbz	w23, .LBB612d2cd0_23
	cmp	w23, #1
	b.eq	.LBB612d2cd0_23
.LBB612d2cd0_21:
	brk	#0x1
.LBB612d2cd0_22:
	movi	v0.2d, #0000000000000000
	stp	q0, q0, [x22, #80]
	stp	q0, q0, [x22, #112]
	stp	q0, q0, [x22, #144]
.LBB612d2cd0_23:
	ldrb	w2, [x19, #72]
	ldrb	w1, [x19]
	sub	x0, x29, #96
	add	x3, x19, #16
	mov	w4, w20
	bl	hll_sketch.promotion.promoted_table.8a2f8b2564a2651f
	ldp	q0, q1, [x22, #128]
	ldr	q2, [x22, #160]
	ldurb	w9, [x29, #-96]
	ldurb	w1, [x29, #-95]
	ldurb	w8, [x29, #-88]
	str	q0, [sp, #128]
	stp	q1, q2, [x22, #48]
	ldp	q1, q0, [x22, #96]
	stp	q1, q0, [sp, #96]
	cbz	w9, .LBB612d2cd0_25
	mov	w0, #1
	b	.LBB612d2cd0_31
.LBB612d2cd0_25:
	ldp	q0, q1, [x19, #32]
	add	x0, sp, #8
	ldr	q2, [x19, #16]
	ldrb	w9, [x19, #8]
	str	x8, [x19, #8]
	stp	q0, q1, [sp, #32]
	ldp	q0, q1, [x19, #64]
	stur	q2, [sp, #16]
	ldr	q2, [sp, #128]
	str	x9, [sp, #8]
	stp	q0, q1, [sp, #64]
	ldp	q0, q1, [sp, #96]
	stp	q0, q1, [x19, #16]
	ldp	q0, q1, [x22, #48]
	stp	q2, q0, [x19, #48]
	str	q1, [x19, #80]
	bl	hll_sketch.mode.Mode.drop.309f015d8caa795c
.LBB612d2cd0_26:
	mov	w1, wzr
	mov	w0, wzr
	b	.LBB612d2cd0_31
.LBB612d2cd0_27:
	add	x8, x19, x8, lsl #2
	b	.LBB612d2cd0_29
.LBB612d2cd0_28:
	add	x8, x19, x11, lsl #2
.LBB612d2cd0_29:
	str	w20, [x8, #36]
.LBB612d2cd0_30:
	ldr	x8, [x19, #24]
	mov	w1, wzr
	mov	w0, wzr
	add	x8, x8, #1
	str	x8, [x19, #24]
.LBB612d2cd0_31:
	ldp	x20, x19, [sp, #336]
	ldr	x28, [sp, #288]
	ldp	x22, x21, [sp, #320]
	ldp	x24, x23, [sp, #304]
	ldp	x29, x30, [sp, #272]
	add	sp, sp, #352
	ret
.Lfunc_end612d2cd0:
	.size	hll_sketch.sketch.HllSketch.update_table.8a2f8b2564a2651f, .Lfunc_end612d2cd0-hll_sketch.sketch.HllSketch.update_table.8a2f8b2564a2651f

	.section	.text.hll_sketch.promotion.promoted_table.8a2f8b2564a2651f,"ax",@progbits
	.p2align	2
	.type	hll_sketch.promotion.promoted_table.8a2f8b2564a2651f,@function
hll_sketch.promotion.promoted_table.8a2f8b2564a2651f:
	sub	sp, sp, #304
	ldr	x8, [x3]
	movi	v0.2d, #0000000000000000
	mov	w9, #5
	stp	x20, x19, [sp, #288]
	mov	w20, w4
	mov	x19, x0
	cmp	x8, #3
	stp	x29, x30, [sp, #256]
	add	x29, sp, #256
	csinc	x8, x9, x8, eq
	stp	x28, x21, [sp, #272]
	add	x9, x8, #3
	stp	q0, q0, [sp, #32]
	cmp	x9, w1, uxtb
	stp	q0, q0, [sp, #64]
	stp	q0, q0, [sp, #96]
	b.ls	.LBBcab24a57_2
	add	x0, sp, #32
	mov	w4, #1
	mov	w5, w20
	bl	hll_sketch.promotion.mode_of_table.8a2f8b2564a2651f
	ldrb	w14, [sp, #32]
	ldrb	w13, [sp, #33]
	ldrb	w8, [sp, #40]
	b	.LBBcab24a57_20
.LBBcab24a57_2:
	mov	w21, w2
	add	x0, sp, #128
	mov	x1, x8
	mov	x2, x3
	stur	xzr, [x29, #-8]
	stp	q0, q0, [sp, #128]
	stp	q0, q0, [sp, #160]
	bl	hll_coupons.hash_set.HashSet.from_container.8a2f8b2564a2651f
	ldrb	w8, [sp, #128]
	cbz	w8, .LBBcab24a57_4
	movi	v0.2d, #0000000000000000
	ldrb	w8, [sp, #129]
	mov	w9, #1
	strb	w9, [x19]
	strb	w8, [x19, #1]
	str	xzr, [x19, #88]
	stur	q0, [x19, #8]
	stur	q0, [x19, #24]
	stur	q0, [x19, #40]
	stur	q0, [x19, #56]
	stur	q0, [x19, #72]
	ldp	x20, x19, [sp, #288]
	ldp	x28, x21, [sp, #272]
	ldp	x29, x30, [sp, #256]
	add	sp, sp, #304
	ret
.LBBcab24a57_4:
	ldp	x9, x8, [sp, #136]
	add	x12, sp, #128
	ldrb	w10, [sp, #152]
	ldur	q0, [x12, #28]
	sub	x11, x29, #56
	ldur	q1, [x12, #44]
	add	x11, x11, #20
	stp	x9, x8, [x29, #-56]
	stur	w10, [x29, #-40]
	stur	q0, [x12, #92]
	stur	q1, [x12, #108]
	cbz	w10, .LBBcab24a57_7
	ldur	x13, [x29, #-24]
	cbz	x13, .LBBcab24a57_12
	and	w15, w20, #0x3ffffff
	ldur	x14, [x29, #-32]
	mov	w12, w21
	lsr	w16, w15, w9
	b	.LBBcab24a57_8
.LBBcab24a57_7:
	and	w12, w20, #0x3ffffff
	mov	w13, #8
	mov	x14, x11
	lsr	w16, w12, w9
	mov	w12, w21
.LBBcab24a57_8:
	mov	x15, #-1
	mov	w17, #1
	lsl	x18, x15, x9
	lsl	x15, x17, x9
	orr	w17, w16, #0x1
	mov	w16, w20
	mvn	x18, x18
.LBBcab24a57_9:
	and	x16, x16, x18
	ldr	w0, [x14, x16, lsl #2]
	cbz	w0, .LBBcab24a57_13
	cmp	w0, w20
	b.eq	.LBBcab24a57_13
	subs	x13, x13, #1
	add	x16, x16, x17
	b.ne	.LBBcab24a57_9
.LBBcab24a57_12:
	brk	#0x1
.LBBcab24a57_13:
	cmp	w0, #0
	cinc	x13, x8, eq
	cbnz	w0, .LBBcab24a57_17
	cmp	x15, x13
	b.lo	.LBBcab24a57_17
	cbz	w10, .LBBcab24a57_18
	ldur	x13, [x29, #-32]
	add	x8, x8, #1
	str	w20, [x13, x16, lsl #2]
	b	.LBBcab24a57_19
.LBBcab24a57_17:
	cmp	x15, x13
	b.hs	.LBBcab24a57_19
	b	.LBBcab24a57_12
.LBBcab24a57_18:
	str	w20, [x11, x16, lsl #2]
	ldp	x9, x8, [x29, #-56]
	ldurb	w10, [x29, #-40]
	add	x8, x8, #1
.LBBcab24a57_19:
	ldp	q0, q1, [x11]
	mov	w13, wzr
	mov	w14, wzr
	stp	x9, x8, [sp, #48]
	mov	w8, #1
	str	w10, [sp, #64]
	stp	q0, q1, [sp]
	stur	q0, [sp, #68]
	stur	q1, [sp, #84]
	str	wzr, [sp, #100]
	strb	w12, [sp, #104]
	stur	xzr, [sp, #113]
	stur	xzr, [sp, #105]
	str	xzr, [sp, #120]
.LBBcab24a57_20:
	ldp	q0, q1, [sp, #80]
	strb	w14, [x19]
	strb	w13, [x19, #1]
	str	x8, [x19, #8]
	stp	q0, q1, [x19, #48]
	ldr	q0, [sp, #112]
	str	q0, [x19, #80]
	ldp	q0, q2, [sp, #48]
	stp	q0, q2, [x19, #16]
	ldp	x20, x19, [sp, #288]
	ldp	x28, x21, [sp, #272]
	ldp	x29, x30, [sp, #256]
	add	sp, sp, #304
	ret
.Lfunc_endcab24a57:
	.size	hll_sketch.promotion.promoted_table.8a2f8b2564a2651f, .Lfunc_endcab24a57-hll_sketch.promotion.promoted_table.8a2f8b2564a2651f

	.section	.text.hll_sketch.promotion.mode_of_table.8a2f8b2564a2651f,"ax",@progbits
	.p2align	2
	.type	hll_sketch.promotion.mode_of_table.8a2f8b2564a2651f,@function
hll_sketch.promotion.mode_of_table.8a2f8b2564a2651f:
	stp	x29, x30, [sp, #-96]!
	stp	x28, x27, [sp, #16]
	mov	x29, sp
	stp	x26, x25, [sp, #32]
	stp	x24, x23, [sp, #48]
	stp	x22, x21, [sp, #64]
	stp	x20, x19, [sp, #80]
	sub	sp, sp, #768
	movi	v0.2d, #0000000000000000
	and	w8, w2, #0xff
	mov	w20, w5
	mov	w21, w4
	mov	x19, x0
	add	x23, sp, #80
	cmp	w8, #2
	str	xzr, [sp, #336]
	str	wzr, [sp, #264]
	stp	q0, q0, [sp, #16]
	stp	q0, q0, [sp, #48]
	stp	q0, q0, [sp, #80]
	stp	q0, q0, [sp, #112]
	stp	q0, q0, [sp, #176]
	stp	q0, q0, [sp, #208]
	stp	q0, q0, [sp, #272]
	stp	q0, q0, [sp, #304]
	stur	wzr, [x23, #187]
	stur	q0, [x23, #158]
	str	wzr, [sp, #168]
	stur	wzr, [x23, #91]
	stur	q0, [x23, #62]
	str	q0, [sp]
	b.eq	.LBB326ee0eb_6
	cmp	w8, #1
	add	x24, sp, #352
	b.ne	.LBB326ee0eb_8
	sub	w25, w1, #2
	and	w8, w25, #0xff
	cmp	w8, #61
	b.hi	.LBB326ee0eb_10
	and	x27, x25, #0xff
	mov	w8, #3
	mov	x26, x1
	lsl	x22, x8, x27
	mov	w1, #1
	mov	x28, x3
	mov	x0, x22
	bl	rattle_alloc
	tbz	w0, #0, .LBB326ee0eb_10
	mov	w10, #1
	lsl	x25, x10, x25
	cbz	w27, .LBB326ee0eb_20
	sub	x2, x22, #3
	mov	x0, x1
	mov	x22, x1
	mov	w1, wzr
	bl	memset
	mov	x1, x22
	mov	x9, x26
	mov	x8, x28
	sub	x10, x25, #1
	b	.LBB326ee0eb_21
.LBB326ee0eb_6:
	mov	x0, sp
	mov	x2, x3
	mov	w3, w21
	mov	w4, w20
	bl	hll_sketch.promotion.registers_of_table.c04436f960e64b83
	ldrb	w8, [sp]
	cbz	w8, .LBB326ee0eb_11
	ldrb	w8, [sp, #1]
	mov	w9, #1
	movi	v0.2d, #0000000000000000
	strb	w9, [x19]
	strb	w8, [x19, #1]
	b	.LBB326ee0eb_17
.LBB326ee0eb_8:
	add	x0, sp, #352
	mov	x2, x3
	mov	w3, w21
	mov	w4, w20
	sub	x27, x29, #80
	stp	q0, q0, [sp, #352]
	stp	q0, q0, [sp, #384]
	stp	q0, q0, [sp, #448]
	stp	q0, q0, [sp, #480]
	stur	q0, [x24, #158]
	str	q0, [sp, #416]
	bl	hll_sketch.promotion.registers_of_table.c04436f960e64b83
	ldrb	w8, [sp, #352]
	cbz	w8, .LBB326ee0eb_12
	ldrb	w25, [sp, #353]
	b	.LBB326ee0eb_16
.LBB326ee0eb_10:
	movi	v0.2d, #0000000000000000
	mov	w8, #3073
	strh	w8, [x19]
	b	.LBB326ee0eb_17
.LBB326ee0eb_11:
	ldur	q0, [sp, #40]
	ldur	q1, [sp, #56]
	mov	w21, wzr
	ldr	x8, [sp, #72]
	str	wzr, [sp, #264]
	stp	q0, q1, [sp, #304]
	ldur	q0, [sp, #24]
	ldur	q1, [sp, #8]
	str	x8, [sp, #336]
	mov	w8, #4
	stp	q1, q0, [sp, #272]
	stur	wzr, [x23, #187]
	b	.LBB326ee0eb_30
.LBB326ee0eb_12:
	movi	v0.2d, #0000000000000000
	ldp	x20, x3, [sp, #376]
	ldrb	w1, [sp, #360]
	ldr	x26, [sp, #392]
	sub	x0, x29, #80
	ldrb	w21, [sp, #424]
	stur	xzr, [x29, #-32]
	mov	x2, x20
	stp	q0, q0, [x29, #-80]
	stur	q0, [x29, #-48]
	bl	hll_registers.nibble_registers.NibbleRegisters.from_values.8a2f8b2564a2651f
	ldurb	w22, [x29, #-80]
	cbz	w22, .LBB326ee0eb_18
	movi	v0.2d, #0000000000000000
	ldurb	w25, [x29, #-79]
	mov	w21, wzr
	stur	xzr, [x24, #166]
	str	wzr, [sp, #440]
	stur	wzr, [x24, #91]
	stur	q0, [x24, #102]
	stur	q0, [x24, #118]
	stur	q0, [x24, #134]
	stur	q0, [x24, #150]
	cbz	x26, .LBB326ee0eb_15
.LBB326ee0eb_14:
	mov	x0, x20
	bl	rattle_dealloc
.LBB326ee0eb_15:
	ldur	q0, [x24, #118]
	ldur	x8, [x24, #166]
	ldur	q1, [x24, #134]
	ldur	q2, [x24, #150]
	ldur	w9, [x24, #91]
	stur	q0, [x23, #118]
	ldur	q0, [x24, #102]
	stur	x8, [x23, #166]
	ldr	w8, [sp, #440]
	stur	q1, [x23, #134]
	stur	q2, [x23, #150]
	stur	q0, [x23, #102]
	str	w8, [sp, #168]
	stur	w9, [x23, #91]
	cbz	w22, .LBB326ee0eb_19
.LBB326ee0eb_16:
	mov	w8, #1
	movi	v0.2d, #0000000000000000
	strb	w25, [x19, #1]
	strb	w8, [x19]
.LBB326ee0eb_17:
	stur	q0, [x19, #8]
	stur	q0, [x19, #24]
	stur	q0, [x19, #40]
	stur	q0, [x19, #56]
	stur	q0, [x19, #72]
	str	xzr, [x19, #88]
	b	.LBB326ee0eb_31
.LBB326ee0eb_18:
	ldur	q0, [x27, #8]
	ldur	q1, [x27, #24]
	mov	w25, wzr
	ldur	q2, [x27, #40]
	ldr	x8, [sp, #416]
	stp	xzr, xzr, [x29, #-112]
	stp	q0, q1, [x29, #-160]
	stur	q0, [x24, #184]
	stur	q0, [x29, #-160]
	ldr	q0, [sp, #400]
	stp	q1, q2, [x29, #-144]
	stur	q2, [x29, #-128]
	stur	x8, [x29, #-96]
	ldr	w8, [sp, #428]
	stur	q1, [x24, #200]
	stur	q2, [x24, #216]
	ldp	q2, q3, [x29, #-128]
	stur	q0, [x29, #-112]
	ldp	q0, q1, [x29, #-160]
	stur	w8, [x24, #91]
	ldur	w8, [x24, #73]
	stur	xzr, [x24, #248]
	str	w8, [sp, #440]
	ldur	x8, [x29, #-96]
	stur	q0, [x24, #102]
	ldur	q0, [x29, #-112]
	stur	q3, [x24, #232]
	stur	x8, [x24, #166]
	stur	q0, [x24, #150]
	stur	q2, [x24, #134]
	stur	q1, [x24, #118]
	cbnz	x26, .LBB326ee0eb_14
	b	.LBB326ee0eb_15
.LBB326ee0eb_19:
	add	x8, sp, #176
	orr	x8, x8, #0x6
	ldp	q0, q1, [x8, #32]
	ldr	x9, [x8, #64]
	str	x9, [sp, #336]
	ldur	w9, [x23, #91]
	stp	q0, q1, [sp, #304]
	ldp	q1, q0, [x8]
	ldr	w8, [sp, #168]
	stp	q1, q0, [sp, #272]
	str	w8, [sp, #264]
	mov	w8, #2
	stur	w9, [x23, #187]
	b	.LBB326ee0eb_30
.LBB326ee0eb_20:
	mov	x8, x28
	mov	x9, x26
	mov	x10, xzr
.LBB326ee0eb_21:
	add	x11, x10, x10, lsl #1
	mov	w12, #1
	strb	w9, [sp, #352]
	lsl	x9, x12, x9
	sturh	wzr, [x24, #1]
	add	x11, x1, x11
	strb	wzr, [sp, #355]
	strh	wzr, [x11]
	strb	wzr, [x11, #2]
	str	w9, [sp, #360]
	add	x9, x10, #1
	stp	x1, x9, [sp, #368]
	ldrb	w9, [x8, #16]
	str	w12, [sp, #356]
	str	wzr, [sp, #364]
	stp	x25, xzr, [sp, #384]
	stp	xzr, xzr, [sp, #400]
	strb	w12, [sp, #416]
	stur	wzr, [x24, #65]
	str	wzr, [sp, #420]
	cbz	w9, .LBB326ee0eb_23
	ldp	x22, x24, [x8, #24]
	cbnz	x24, .LBB326ee0eb_25
	b	.LBB326ee0eb_27
.LBB326ee0eb_23:
	add	x22, x8, #20
	mov	w24, #8
	cbnz	x24, .LBB326ee0eb_25
	b	.LBB326ee0eb_27
.LBB326ee0eb_24:
	sub	x24, x24, #1
	cbz	x24, .LBB326ee0eb_27
.LBB326ee0eb_25:
	ldr	w1, [x22], #4
	cbz	w1, .LBB326ee0eb_24
	add	x0, sp, #352
	bl	hll_arrays.array6.Array6.update.309f015d8caa795c
	sub	x24, x24, #1
	cbnz	x24, .LBB326ee0eb_25
.LBB326ee0eb_27:
	tbz	w21, #0, .LBB326ee0eb_29
	add	x0, sp, #352
	mov	w1, w20
	bl	hll_arrays.array6.Array6.update.309f015d8caa795c
.LBB326ee0eb_29:
	ldp	q0, q1, [sp, #368]
	mov	w21, wzr
	ldr	q2, [sp, #400]
	ldr	q3, [sp, #352]
	ldr	x8, [sp, #416]
	stur	wzr, [x23, #187]
	stur	q0, [sp, #102]
	stur	q1, [sp, #118]
	stur	q2, [x23, #54]
	stur	x8, [x23, #70]
	stur	q3, [sp, #86]
	str	x8, [sp, #336]
	mov	w8, #3
	stp	q3, q0, [sp, #272]
	stp	q1, q2, [sp, #304]
	str	wzr, [sp, #264]
.LBB326ee0eb_30:
	ldp	q0, q1, [sp, #304]
	str	x8, [x19, #8]
	ldr	x8, [sp, #336]
	ldur	w9, [x23, #187]
	strh	wzr, [x19]
	strb	w21, [x19, #88]
	stp	q0, q1, [x19, #48]
	ldp	q1, q0, [sp, #272]
	str	x8, [x19, #80]
	ldr	w8, [sp, #264]
	stp	q1, q0, [x19, #16]
	stur	w8, [x19, #89]
	str	w9, [x19, #92]
.LBB326ee0eb_31:
	add	sp, sp, #768
	ldp	x20, x19, [sp, #80]
	ldp	x22, x21, [sp, #64]
	ldp	x24, x23, [sp, #48]
	ldp	x26, x25, [sp, #32]
	ldp	x28, x27, [sp, #16]
	ldp	x29, x30, [sp], #96
	ret
.Lfunc_end326ee0eb:
	.size	hll_sketch.promotion.mode_of_table.8a2f8b2564a2651f, .Lfunc_end326ee0eb-hll_sketch.promotion.mode_of_table.8a2f8b2564a2651f

	.section	.text.hll_sketch.promotion.registers_of_table.c04436f960e64b83,"ax",@progbits
	.p2align	2
	.type	hll_sketch.promotion.registers_of_table.c04436f960e64b83,@function
hll_sketch.promotion.registers_of_table.c04436f960e64b83:
	sub	sp, sp, #208
	and	w8, w1, #0xff
	stp	x24, x23, [sp, #160]
	mov	w23, w3
	stp	x22, x21, [sp, #176]
	mov	w22, w4
	mov	x24, x2
	stp	x20, x19, [sp, #192]
	mov	x19, x0
	cmp	w8, #63
	stp	x29, x30, [sp, #128]
	add	x29, sp, #128
	stp	x26, x25, [sp, #144]
	stp	xzr, xzr, [sp, #64]
	str	xzr, [sp, #80]
	str	wzr, [sp, #56]
	stur	wzr, [sp, #59]
	strh	wzr, [sp, #52]
	strb	wzr, [sp, #54]
	stp	xzr, xzr, [sp, #16]
	str	xzr, [sp, #32]
	str	wzr, [sp, #8]
	stur	wzr, [sp, #11]
	b.eq	.LBB30c35d94_4
	mov	w20, w1
	mov	w8, #1
	mov	w1, #1
	lsl	x21, x8, x20
	mov	x0, x21
	bl	rattle_alloc
	tbz	w0, #0, .LBB30c35d94_4
	tst	w20, #0xff
	b.eq	.LBB30c35d94_5
	sub	x2, x21, #1
	mov	x0, x1
	mov	x26, x1
	mov	w1, wzr
	sub	x25, x21, #1
	bl	memset
	mov	x1, x26
	b	.LBB30c35d94_6
.LBB30c35d94_4:
	mov	w9, wzr
	mov	w20, wzr
	mov	w10, wzr
	mov	x1, xzr
	mov	x8, xzr
	mov	x21, xzr
	mov	w11, #12
	sturb	wzr, [x29, #-2]
	sturh	wzr, [x29, #-4]
	b	.LBB30c35d94_7
.LBB30c35d94_5:
	mov	x25, xzr
.LBB30c35d94_6:
	mov	w11, wzr
	strb	wzr, [x1, x25]
	add	x8, x25, #1
	sturh	wzr, [x29, #-4]
	mov	w9, #1
	mov	w10, w21
	sturb	wzr, [x29, #-2]
.LBB30c35d94_7:
	stp	xzr, xzr, [x29, #-24]
	stur	xzr, [x29, #-32]
	stur	wzr, [x29, #-40]
	ldurh	w12, [x29, #-4]
	ldurb	w13, [x29, #-2]
	stur	wzr, [x29, #-37]
	ldur	q0, [x29, #-32]
	strh	w12, [sp, #52]
	ldur	x12, [x29, #-16]
	strb	w13, [sp, #54]
	ldur	w13, [x29, #-40]
	str	x12, [sp, #32]
	str	q0, [sp, #16]
	str	w13, [sp, #8]
	stur	wzr, [sp, #11]
	cbz	w9, .LBB30c35d94_10
	ldr	x11, [sp, #32]
	ldr	q0, [sp, #16]
	ldr	w12, [sp, #8]
	ldur	w13, [sp, #11]
	str	x11, [sp, #80]
	ldrb	w11, [x24, #16]
	str	q0, [sp, #64]
	str	w12, [sp, #56]
	stur	w13, [sp, #59]
	cbz	w11, .LBB30c35d94_11
	ldp	x12, x14, [x24, #24]
	b	.LBB30c35d94_12
.LBB30c35d94_10:
	movi	v0.2d, #0000000000000000
	mov	w8, #1
	strb	w11, [x19, #1]
	strb	w8, [x19]
	str	xzr, [x19, #72]
	stur	q0, [x19, #8]
	stur	q0, [x19, #24]
	stur	q0, [x19, #40]
	stur	q0, [x19, #56]
	b	.LBB30c35d94_23
.LBB30c35d94_11:
	add	x12, x24, #20
	mov	w14, #8
.LBB30c35d94_12:
	mov	w11, w20
	mov	x13, #-1
	lsl	x11, x13, x11
	mvn	x13, x11
	mov	w11, w9
.LBB30c35d94_13:
	mov	w15, #1
	add	x12, x12, #4
	sub	x14, x15, x14
	b	.LBB30c35d94_15
.LBB30c35d94_14:
	add	x12, x12, #4
	add	x14, x14, #1
.LBB30c35d94_15:
	cmp	x14, #1
	b.eq	.LBB30c35d94_19
	ldur	w17, [x12, #-4]
	cbz	w17, .LBB30c35d94_14
	and	w15, w17, w13
	lsr	w17, w17, #26
	and	x16, x15, #0x3ffffff
	ldrb	w15, [x1, x16]
	cmp	w15, w17
	b.hs	.LBB30c35d94_14
	cmp	w15, #0
	strb	w17, [x1, x16]
	neg	x14, x14
	cset	w11, eq
	stp	xzr, xzr, [sp, #64]
	str	xzr, [sp, #80]
	sub	w10, w10, w11
	mov	w11, #1
	str	wzr, [sp, #56]
	stur	wzr, [sp, #59]
	b	.LBB30c35d94_13
.LBB30c35d94_19:
	tbz	w23, #0, .LBB30c35d94_22
	and	w12, w22, #0x3ffffff
	lsr	w14, w22, #26
	and	x13, x13, x12
	ldrb	w12, [x1, x13]
	cmp	w12, w14
	b.hs	.LBB30c35d94_22
	cmp	w12, #0
	strb	w14, [x1, x13]
	cset	w11, eq
	stp	xzr, xzr, [sp, #64]
	sub	w10, w10, w11
	mov	w11, #1
	str	xzr, [sp, #80]
	str	wzr, [sp, #56]
	stur	wzr, [sp, #59]
.LBB30c35d94_22:
	ldrh	w12, [sp, #52]
	stp	x1, x8, [x19, #24]
	ldr	x8, [sp, #80]
	stp	w9, w10, [x19, #12]
	ldr	q0, [sp, #64]
	ldr	w9, [sp, #56]
	sturh	w12, [x19, #9]
	ldrb	w12, [sp, #54]
	str	x8, [x19, #64]
	ldur	w8, [sp, #59]
	strb	w20, [x19, #8]
	strh	wzr, [x19]
	strb	w12, [x19, #11]
	str	wzr, [x19, #20]
	str	x21, [x19, #40]
	str	q0, [x19, #48]
	strb	w11, [x19, #72]
	str	w8, [x19, #76]
	stur	w9, [x19, #73]
.LBB30c35d94_23:
	ldp	x20, x19, [sp, #192]
	ldp	x22, x21, [sp, #176]
	ldp	x24, x23, [sp, #160]
	ldp	x26, x25, [sp, #144]
	ldp	x29, x30, [sp, #128]
	add	sp, sp, #208
	ret
.Lfunc_end30c35d94:
	.size	hll_sketch.promotion.registers_of_table.c04436f960e64b83, .Lfunc_end30c35d94-hll_sketch.promotion.registers_of_table.c04436f960e64b83

	.section	.text.hll_coupons.hash_set.HashSet.from_container.8a2f8b2564a2651f,"ax",@progbits
	.p2align	2
	.type	hll_coupons.hash_set.HashSet.from_container.8a2f8b2564a2651f,@function
hll_coupons.hash_set.HashSet.from_container.8a2f8b2564a2651f:
	sub	sp, sp, #128
	stp	x22, x21, [sp, #96]
	mov	x21, x2
	cmp	x1, #3
	stp	x20, x19, [sp, #112]
	mov	x19, x0
	stp	x29, x30, [sp, #64]
	add	x29, sp, #64
	stp	x24, x23, [sp, #80]
	str	xzr, [sp, #56]
	b.ne	.LBB9f2ddefe_22
	mov	w8, wzr
	mov	x20, xzr
	mov	x9, xzr
	mov	x23, xzr
.LBB9f2ddefe_2:
	ldrb	w10, [x21, #16]
	stp	w8, wzr, [sp, #24]
	add	x8, sp, #8
	stp	x1, xzr, [sp, #8]
	stp	x20, x9, [sp, #32]
	str	x23, [sp, #48]
	str	wzr, [sp, #56]
	cbz	w10, .LBB9f2ddefe_29
	ldp	x2, x3, [x21, #24]
	cmp	x1, #3
	add	x21, x8, #20
	mov	x8, xzr
	b.ne	.LBB9f2ddefe_30
.LBB9f2ddefe_4:
	mov	x9, x2
	mov	x10, x3
.LBB9f2ddefe_5:
	cbz	x10, .LBB9f2ddefe_28
	ldr	w11, [x9], #4
	sub	x10, x10, #1
	cbz	w11, .LBB9f2ddefe_5
	and	x14, x11, #0x7
	lsl	x12, x14, #2
	ldr	w13, [x21, x12]
	cmp	w13, #0
	ccmp	w13, w11, #4, ne
	b.eq	.LBB9f2ddefe_11
	and	w12, w11, #0x3ffffff
	lsr	w12, w12, w1
	orr	w13, w12, #0x1
	add	x14, x14, x13
	ubfiz	x12, x14, #2, #3
	ldr	w15, [x21, x12]
	cmp	w15, #0
	ccmp	w15, w11, #4, ne
	b.eq	.LBB9f2ddefe_11
	add	x14, x14, x13
	ubfiz	x12, x14, #2, #3
	ldr	w15, [x21, x12]
	cmp	w15, #0
	ccmp	w15, w11, #4, ne
	b.eq	.LBB9f2ddefe_11
	add	x14, x14, x13
	ubfiz	x12, x14, #2, #3
	ldr	w15, [x21, x12]
	cmp	w15, #0
	ccmp	w15, w11, #4, ne
	b.ne	.LBB9f2ddefe_12
.LBB9f2ddefe_11:
	add	x8, x8, #1
	str	w11, [x21, x12]
	str	x8, [sp, #16]
	b	.LBB9f2ddefe_5
.LBB9f2ddefe_12:
	add	x14, x14, x13
	ubfiz	x12, x14, #2, #3
	ldr	w15, [x21, x12]
	cbz	w15, .LBB9f2ddefe_11
	cmp	w15, w11
	b.eq	.LBB9f2ddefe_11
	add	x14, x14, x13
	ubfiz	x12, x14, #2, #3
	ldr	w15, [x21, x12]
	cbz	w15, .LBB9f2ddefe_11
	cmp	w15, w11
	b.eq	.LBB9f2ddefe_11
	add	x14, x14, x13
	ubfiz	x12, x14, #2, #3
	ldr	w15, [x21, x12]
	cbz	w15, .LBB9f2ddefe_11
	cmp	w15, w11
	b.eq	.LBB9f2ddefe_11
	add	w12, w14, w13
	ubfiz	x12, x12, #2, #3
	ldr	w13, [x21, x12]
	cbz	w13, .LBB9f2ddefe_11
	cmp	w13, w11
	b.eq	.LBB9f2ddefe_11
.LBB9f2ddefe_20:
	cmp	x1, #3
	b.ne	.LBB9f2ddefe_41
	movi	v0.2d, #0000000000000000
	stp	q0, q0, [x21]
	b	.LBB9f2ddefe_45
.LBB9f2ddefe_22:
	cmp	x1, #60
	b.hi	.LBB9f2ddefe_26
	mov	w8, #4
	mov	x24, x1
	lsl	x22, x8, x1
	mov	w1, #4
	mov	x0, x22
	bl	rattle_alloc
	tbz	w0, #0, .LBB9f2ddefe_26
	mov	w8, #1
	mov	x20, x1
	mov	x1, x24
	lsl	x23, x8, x24
	cbz	x24, .LBB9f2ddefe_50
	sub	x2, x22, #4
	mov	x0, x20
	mov	w1, wzr
	bl	memset
	mov	x1, x24
	sub	x8, x23, #1
	b	.LBB9f2ddefe_51
.LBB9f2ddefe_26:
	movi	v0.2d, #0000000000000000
	mov	w8, #3073
	strh	w8, [x19]
.LBB9f2ddefe_27:
	stur	q0, [x19, #8]
	stur	q0, [x19, #24]
	stur	q0, [x19, #40]
	str	wzr, [x19, #56]
	ldp	x20, x19, [sp, #112]
	ldp	x22, x21, [sp, #96]
	ldp	x24, x23, [sp, #80]
	ldp	x29, x30, [sp, #64]
	add	sp, sp, #128
	ret
.LBB9f2ddefe_28:
	mov	w9, wzr
	b	.LBB9f2ddefe_40
.LBB9f2ddefe_29:
	add	x2, x21, #20
	mov	w3, #8
	cmp	x1, #3
	add	x21, x8, #20
	mov	x8, xzr
	b.eq	.LBB9f2ddefe_4
.LBB9f2ddefe_30:
	mov	x10, #-1
	cmp	x9, #64
	mov	w11, #64
	lsl	x10, x10, x1
	csel	x11, x9, x11, lo
	mov	x12, x2
	mov	x13, x3
	mvn	x10, x10
.LBB9f2ddefe_31:
	cbz	x13, .LBB9f2ddefe_39
	ldr	w14, [x12], #4
	sub	x13, x13, #1
	cbz	w14, .LBB9f2ddefe_31
	cbz	x9, .LBB9f2ddefe_20
	and	w15, w14, #0x3ffffff
	and	x17, x10, x14
	mov	x16, x11
	lsr	w15, w15, w1
	orr	w15, w15, #0x1
.LBB9f2ddefe_35:
	ldr	w18, [x20, x17, lsl #2]
	cbz	w18, .LBB9f2ddefe_38
	cmp	w18, w14
	b.eq	.LBB9f2ddefe_38
	add	x17, x17, x15
	subs	x16, x16, #1
	and	x17, x17, x10
	b.ne	.LBB9f2ddefe_35
	b	.LBB9f2ddefe_20
.LBB9f2ddefe_38:
	add	x8, x8, #1
	str	w14, [x20, x17, lsl #2]
	str	x8, [sp, #16]
	b	.LBB9f2ddefe_31
.LBB9f2ddefe_39:
	mov	w9, #1
.LBB9f2ddefe_40:
	ldp	q0, q1, [x21]
	strh	wzr, [x19]
	stp	x1, x8, [x19, #8]
	str	w9, [x19, #24]
	stur	q0, [x19, #28]
	stur	q1, [x19, #44]
	ldp	x20, x19, [sp, #112]
	ldp	x22, x21, [sp, #96]
	ldp	x24, x23, [sp, #80]
	ldp	x29, x30, [sp, #64]
	add	sp, sp, #128
	ret
.LBB9f2ddefe_41:
	ldr	x8, [sp, #40]
	cbz	x8, .LBB9f2ddefe_45
	ldr	x20, [sp, #32]
	subs	x22, x8, #1
	b.eq	.LBB9f2ddefe_44
	lsl	x8, x8, #2
	mov	x0, x20
	mov	w1, wzr
	mov	x23, x2
	mov	x24, x3
	sub	x8, x8, #4
	mov	x2, x8
	bl	memset
	mov	x3, x24
	mov	x2, x23
.LBB9f2ddefe_44:
	str	wzr, [x20, x22, lsl #2]
.LBB9f2ddefe_45:
	add	x0, sp, #8
	mov	w1, wzr
	str	xzr, [sp, #16]
	bl	hll_coupons.filling.put_by_cycles.8a2f8b2564a2651f
	tst	w0, #0xff
	b.eq	.LBB9f2ddefe_52
	ldrb	w8, [sp, #24]
	cbz	w8, .LBB9f2ddefe_49
	ldr	x8, [sp, #48]
	cbz	x8, .LBB9f2ddefe_49
	ldr	x0, [sp, #32]
	mov	w20, w1
	bl	rattle_dealloc
	mov	w1, w20
.LBB9f2ddefe_49:
	mov	w8, #1
	movi	v0.2d, #0000000000000000
	strb	w1, [x19, #1]
	strb	w8, [x19]
	b	.LBB9f2ddefe_27
.LBB9f2ddefe_50:
	mov	x8, xzr
.LBB9f2ddefe_51:
	str	wzr, [x20, x8, lsl #2]
	add	x9, x8, #1
	mov	w8, #1
	b	.LBB9f2ddefe_2
.LBB9f2ddefe_52:
	ldp	x1, x8, [sp, #8]
	ldrb	w9, [sp, #24]
	b	.LBB9f2ddefe_40
.Lfunc_end9f2ddefe:
	.size	hll_coupons.hash_set.HashSet.from_container.8a2f8b2564a2651f, .Lfunc_end9f2ddefe-hll_coupons.hash_set.HashSet.from_container.8a2f8b2564a2651f

	.section	.rodata.cst16,"aM",@progbits,16
	.p2align	4, 0x0
.LCPIc7f1ad01_0:
	.byte	1
	.byte	2
	.byte	4
	.byte	8
	.byte	16
	.byte	32
	.byte	64
	.byte	128
	.byte	1
	.byte	2
	.byte	4
	.byte	8
	.byte	16
	.byte	32
	.byte	64
	.byte	128
	.section	.text.hll_kernels.kernels.all_zero,"ax",@progbits
	.p2align	2
	.type	hll_kernels.kernels.all_zero,@function
hll_kernels.kernels.all_zero:
	lsr	x10, x1, #6
	and	x8, x1, #0xffffffffffffffc0
	and	x9, x1, #0x3f
	add	x8, x0, x8
	cbz	x10, .LBBc7f1ad01_4
.LBBc7f1ad01_1:
	ldp	q0, q1, [x0]
	adrp	x11, .LCPIc7f1ad01_0
	ldp	q2, q3, [x0, #32]
	ldr	q4, [x11, :lo12:.LCPIc7f1ad01_0]
	cmeq	v0.16b, v0.16b, #0
	cmeq	v1.16b, v1.16b, #0
	cmeq	v3.16b, v3.16b, #0
	cmeq	v2.16b, v2.16b, #0
	bic	v0.16b, v4.16b, v0.16b
	bic	v1.16b, v4.16b, v1.16b
	bic	v2.16b, v4.16b, v2.16b
	bic	v3.16b, v4.16b, v3.16b
	addp	v0.16b, v0.16b, v1.16b
	addp	v1.16b, v2.16b, v3.16b
	addp	v0.16b, v0.16b, v1.16b
	addp	v0.16b, v0.16b, v0.16b
	fmov	x11, d0
	cbnz	x11, .LBBc7f1ad01_6
	subs	x10, x10, #1
	add	x0, x0, #64
	b.ne	.LBBc7f1ad01_1
	b	.LBBc7f1ad01_4
.LBBc7f1ad01_3:
	ldrb	w10, [x8], #1
	sub	x9, x9, #1
	cbnz	w10, .LBBc7f1ad01_5
.LBBc7f1ad01_4:
	cmp	x9, #0
	cset	w0, eq
	cbnz	x9, .LBBc7f1ad01_3
.LBBc7f1ad01_5:
	ret
.LBBc7f1ad01_6:
	mov	w0, wzr
	ret
.Lfunc_endc7f1ad01:
	.size	hll_kernels.kernels.all_zero, .Lfunc_endc7f1ad01-hll_kernels.kernels.all_zero

	.section	.text.hll_sketch.sketch.HllSketch.add_each.8a2f8b2564a2651f,"ax",@progbits
	.p2align	2
	.type	hll_sketch.sketch.HllSketch.add_each.8a2f8b2564a2651f,@function
hll_sketch.sketch.HllSketch.add_each.8a2f8b2564a2651f:
	stp	x29, x30, [sp, #-64]!
	ldrb	w8, [x0, #8]
	stp	x20, x19, [sp, #48]
	mov	x19, x0
	stp	x24, x23, [sp, #16]
	mov	x29, sp
	cmp	w8, #1
	stp	x22, x21, [sp, #32]
	b.gt	.LBB68789342_4
	cbnz	w8, .LBB68789342_7
	ldrb	w8, [x1, #16]
	cbz	w8, .LBB68789342_8
	ldp	x21, x22, [x1, #24]
	add	x23, x19, #36
	cbnz	x22, .LBB68789342_10
	b	.LBB68789342_21
.LBB68789342_4:
	cmp	w8, #4
	b.ne	.LBB68789342_22
	ldrb	w8, [x1, #16]
	cbz	w8, .LBB68789342_16
	ldp	x8, x9, [x1, #24]
	cbnz	x9, .LBB68789342_18
	b	.LBB68789342_21
.LBB68789342_7:
	add	x0, x19, #16
	ldp	x20, x19, [sp, #48]
	ldp	x22, x21, [sp, #32]
	ldp	x24, x23, [sp, #16]
	ldp	x29, x30, [sp], #64
	b	hll_coupons.hash_set.HashSet.update_each.8a2f8b2564a2651f
.LBB68789342_8:
	add	x21, x1, #20
	mov	w22, #8
	add	x23, x19, #36
	cbnz	x22, .LBB68789342_10
	b	.LBB68789342_21
.LBB68789342_9:
	sub	x22, x22, #1
	cbz	x22, .LBB68789342_21
.LBB68789342_10:
	ldr	w20, [x21], #4
	cbz	w20, .LBB68789342_9
	ldr	x24, [x19, #16]
	add	x0, x19, #16
	mov	w1, w20
	bl	hll_coupons.list.List.contains.309f015d8caa795c
	tbnz	w0, #0, .LBB68789342_9
	mov	w9, #1
	ldr	x8, [x19, #24]
	eor	w10, w0, #0x1
	lsl	x9, x9, x24
	add	x10, x8, x10
	cmp	x9, x10
	b.lo	.LBB68789342_9
	ldrb	w9, [x19, #32]
	cbz	w9, .LBB68789342_15
	ldr	x9, [x19, #40]
	str	w20, [x9, x8, lsl #2]
	ldr	x8, [x19, #24]
	sub	x22, x22, #1
	add	x8, x8, #1
	str	x8, [x19, #24]
	cbnz	x22, .LBB68789342_10
	b	.LBB68789342_21
.LBB68789342_15:
	str	w20, [x23, x8, lsl #2]
	ldr	x8, [x19, #24]
	sub	x22, x22, #1
	add	x8, x8, #1
	str	x8, [x19, #24]
	cbnz	x22, .LBB68789342_10
	b	.LBB68789342_21
.LBB68789342_16:
	add	x8, x1, #20
	mov	w9, #8
	cbnz	x9, .LBB68789342_18
	b	.LBB68789342_21
.LBB68789342_17:
	sub	x9, x9, #1
	cbz	x9, .LBB68789342_21
.LBB68789342_18:
	ldr	w12, [x8], #4
	cbz	w12, .LBB68789342_17
	ldrb	w10, [x19, #16]
	mov	x11, #-1
	lsl	x10, x11, x10
	bic	w11, w12, w10
	ldr	x10, [x19, #32]
	lsr	w12, w12, #26
	and	x11, x11, #0x3ffffff
	ldrb	w13, [x10, x11]
	cmp	w13, w12
	b.hs	.LBB68789342_17
	ldrb	w14, [x19, #20]
	cmp	w13, #0
	ldr	w13, [x19, #24]
	sub	x9, x9, #1
	ccmp	w14, #1, #0, eq
	cset	w15, eq
	sub	w13, w13, w15
	stp	w14, w13, [x19, #20]
	strb	w12, [x10, x11]
	mov	w10, #1
	stp	xzr, xzr, [x19, #56]
	stur	xzr, [x19, #72]
	strb	w10, [x19, #80]
	stur	wzr, [x19, #81]
	stur	wzr, [x19, #84]
	cbnz	x9, .LBB68789342_18
.LBB68789342_21:
	ldp	x20, x19, [sp, #48]
	ldp	x22, x21, [sp, #32]
	ldp	x24, x23, [sp, #16]
	ldp	x29, x30, [sp], #64
	ret
.LBB68789342_22:
	brk	#0x1
.Lfunc_end68789342:
	.size	hll_sketch.sketch.HllSketch.add_each.8a2f8b2564a2651f, .Lfunc_end68789342-hll_sketch.sketch.HllSketch.add_each.8a2f8b2564a2651f

	.section	.text.hll_coupons.hash_set.HashSet.update_each.8a2f8b2564a2651f,"ax",@progbits
	.p2align	2
	.type	hll_coupons.hash_set.HashSet.update_each.8a2f8b2564a2651f,@function
hll_coupons.hash_set.HashSet.update_each.8a2f8b2564a2651f:
	stp	x29, x30, [sp, #-64]!
	ldrb	w8, [x1, #16]
	stp	x20, x19, [sp, #48]
	mov	x19, x1
	mov	x20, x0
	stp	x24, x23, [sp, #16]
	mov	x29, sp
	stp	x22, x21, [sp, #32]
	cbz	w8, .LBB7d4c3d00_2
	ldp	x21, x22, [x19, #24]
	b	.LBB7d4c3d00_3
.LBB7d4c3d00_2:
	add	x21, x19, #20
	mov	w22, #8
.LBB7d4c3d00_3:
	add	x23, x20, #20
	b	.LBB7d4c3d00_5
.LBB7d4c3d00_4:
	cmp	x12, x9
	b.lo	.LBB7d4c3d00_35
.LBB7d4c3d00_5:
	cbz	x22, .LBB7d4c3d00_34
	ldr	w24, [x21], #4
	sub	x22, x22, #1
	cbz	w24, .LBB7d4c3d00_5
	ldrb	w8, [x20, #16]
	ldr	x11, [x20]
	cbz	w8, .LBB7d4c3d00_10
	ldr	x10, [x20, #32]
	mov	w9, #64
	cmp	x10, #64
	csel	x9, x10, x9, lo
	cbz	x10, .LBB7d4c3d00_15
	and	w12, w24, #0x3ffffff
	ldr	x10, [x20, #24]
	lsr	w12, w12, w11
	b	.LBB7d4c3d00_11
.LBB7d4c3d00_10:
	and	w9, w24, #0x3ffffff
	add	x10, x20, #20
	lsr	w12, w9, w11
	mov	w9, #8
.LBB7d4c3d00_11:
	mov	x13, #-1
	orr	w12, w12, #0x1
	lsl	x11, x13, x11
	mvn	x13, x11
	mov	x11, x24
.LBB7d4c3d00_12:
	and	x11, x11, x13
	ldr	w14, [x10, x11, lsl #2]
	cbz	w14, .LBB7d4c3d00_19
	cmp	w14, w24
	b.eq	.LBB7d4c3d00_19
	subs	x9, x9, #1
	add	x11, x11, x12
	b.ne	.LBB7d4c3d00_12
.LBB7d4c3d00_15:
	mov	x0, x20
	mov	x1, x19
	bl	hll_coupons.hash_set.HashSet.update_by_order.8a2f8b2564a2651f
	cbnz	w0, .LBB7d4c3d00_34
	ldp	x12, x9, [x20]
	ldrb	w8, [x20, #16]
	cbz	w8, .LBB7d4c3d00_22
	ldr	x10, [x20, #32]
	cbz	x10, .LBB7d4c3d00_35
	and	w13, w24, #0x3ffffff
	ldr	x11, [x20, #24]
	lsr	w13, w13, w12
	b	.LBB7d4c3d00_23
.LBB7d4c3d00_19:
	cbnz	w14, .LBB7d4c3d00_5
	cbz	w8, .LBB7d4c3d00_32
	ldr	x8, [x20, #24]
	str	w24, [x8, x11, lsl #2]
	b	.LBB7d4c3d00_33
.LBB7d4c3d00_22:
	and	w10, w24, #0x3ffffff
	add	x11, x20, #20
	lsr	w13, w10, w12
	mov	w10, #8
.LBB7d4c3d00_23:
	mov	x14, #-1
	mov	w15, #1
	lsl	x16, x14, x12
	lsl	x12, x15, x12
	orr	w14, w13, #0x1
	mov	x13, x24
	mvn	x15, x16
.LBB7d4c3d00_24:
	and	x13, x13, x15
	ldr	w16, [x11, x13, lsl #2]
	cbz	w16, .LBB7d4c3d00_27
	cmp	w16, w24
	b.eq	.LBB7d4c3d00_27
	subs	x10, x10, #1
	add	x13, x13, x14
	b.ne	.LBB7d4c3d00_24
	b	.LBB7d4c3d00_35
.LBB7d4c3d00_27:
	cmp	w16, #0
	cinc	x9, x9, eq
	cbnz	w16, .LBB7d4c3d00_4
	cmp	x12, x9
	b.lo	.LBB7d4c3d00_4
	cbz	w8, .LBB7d4c3d00_31
	ldr	x8, [x20, #24]
	str	w24, [x8, x13, lsl #2]
	b	.LBB7d4c3d00_33
.LBB7d4c3d00_31:
	str	w24, [x23, x13, lsl #2]
	b	.LBB7d4c3d00_33
.LBB7d4c3d00_32:
	str	w24, [x23, x11, lsl #2]
.LBB7d4c3d00_33:
	ldr	x8, [x20, #8]
	add	x8, x8, #1
	str	x8, [x20, #8]
	b	.LBB7d4c3d00_5
.LBB7d4c3d00_34:
	ldp	x20, x19, [sp, #48]
	ldp	x22, x21, [sp, #32]
	ldp	x24, x23, [sp, #16]
	ldp	x29, x30, [sp], #64
	ret
.LBB7d4c3d00_35:
	brk	#0x1
.Lfunc_end7d4c3d00:
	.size	hll_coupons.hash_set.HashSet.update_each.8a2f8b2564a2651f, .Lfunc_end7d4c3d00-hll_coupons.hash_set.HashSet.update_each.8a2f8b2564a2651f

	.section	.text.hll_coupons.hash_set.HashSet.update_by_order.8a2f8b2564a2651f,"ax",@progbits
	.p2align	2
	.type	hll_coupons.hash_set.HashSet.update_by_order.8a2f8b2564a2651f,@function
hll_coupons.hash_set.HashSet.update_by_order.8a2f8b2564a2651f:
	sub	sp, sp, #224
	ldr	x8, [x1, #8]
	stp	x29, x30, [sp, #128]
	add	x29, sp, #128
	stp	x28, x27, [sp, #144]
	cmp	x8, #8
	stp	x26, x25, [sp, #160]
	stp	x24, x23, [sp, #176]
	stp	x22, x21, [sp, #192]
	stp	x20, x19, [sp, #208]
	b.ls	.LBBc8cb0b13_2
	movi	v0.2d, #0000000000000000
	mov	x19, x0
	mov	x20, x1
	add	x0, sp, #64
	mov	x1, x19
	stp	q0, q0, [sp, #64]
	bl	hll_coupons.container.Container.ascending.9bc580afffac16c1
	ldur	q0, [sp, #72]
	ldrb	w8, [sp, #64]
	ldr	x9, [sp, #88]
	str	q0, [sp]
	str	x9, [sp, #16]
	cbz	w8, .LBBc8cb0b13_4
.LBBc8cb0b13_2:
	mov	w0, wzr
.LBBc8cb0b13_3:
	ldp	x20, x19, [sp, #208]
	ldp	x22, x21, [sp, #192]
	ldp	x24, x23, [sp, #176]
	ldp	x26, x25, [sp, #160]
	ldp	x28, x27, [sp, #144]
	ldp	x29, x30, [sp, #128]
	add	sp, sp, #224
	ret
.LBBc8cb0b13_4:
	ldr	q0, [sp]
	movi	v1.2d, #0000000000000000
	ldr	x8, [sp, #16]
	add	x9, sp, #32
	ldrb	w10, [x20, #16]
	str	q0, [sp, #32]
	add	x9, x9, #24
	ldp	x26, x27, [sp, #32]
	str	x8, [sp, #48]
	sub	x8, x29, #8
	stp	q1, q1, [sp, #64]
	str	x8, [sp, #72]
	str	x9, [sp, #96]
	cbz	w10, .LBBc8cb0b13_6
	ldp	x28, x20, [x20, #24]
	b	.LBBc8cb0b13_7
.LBBc8cb0b13_6:
	add	x28, x20, #20
	mov	w20, #8
.LBBc8cb0b13_7:
	mov	x22, xzr
	sub	x25, x29, #8
	b	.LBBc8cb0b13_9
.LBBc8cb0b13_8:
	ldr	w8, [x26, xzr]
	cmp	w8, w21
	b.ne	.LBBc8cb0b13_16
.LBBc8cb0b13_9:
	cbz	x20, .LBBc8cb0b13_41
	ldr	w21, [x28], #4
	sub	x20, x20, #1
	cbz	w21, .LBBc8cb0b13_9
	cmp	x27, #1
	b.eq	.LBBc8cb0b13_8
	cbz	x27, .LBBc8cb0b13_16
	mov	x8, xzr
	mov	x9, x27
.LBBc8cb0b13_14:
	lsr	x10, x9, #1
	add	x11, x10, x8
	sub	x9, x9, x10
	ldr	w12, [x26, x11, lsl #2]
	cmp	w12, w21
	csel	x8, x8, x11, hi
	cmp	x9, #1
	b.hi	.LBBc8cb0b13_14
	lsl	x8, x8, #2
	ldr	w8, [x26, x8]
	cmp	w8, w21
	b.eq	.LBBc8cb0b13_9
.LBBc8cb0b13_16:
	ldrb	w8, [x19, #16]
	cbz	w8, .LBBc8cb0b13_18
	ldp	x23, x24, [x19, #24]
	ldr	x2, [x19]
	stp	xzr, xzr, [x29, #-24]
	cbnz	x22, .LBBc8cb0b13_19
	b	.LBBc8cb0b13_20
.LBBc8cb0b13_18:
	mov	w24, #8
	add	x23, x19, #20
	ldr	x2, [x19]
	stp	xzr, xzr, [x29, #-24]
	cbz	x22, .LBBc8cb0b13_20
.LBBc8cb0b13_19:
	mov	x0, x25
	mov	x1, x22
	mov	w3, w21
	mov	x22, x2
	bl	hll_coupons.long_searches.LongSearches.end_by_cycle.c2bc3268344032de
	and	w8, w0, #0xff
	mov	x2, x22
	cmp	w8, #1
	b.eq	.LBBc8cb0b13_32
.LBBc8cb0b13_20:
	and	w8, w21, #0x3ffffff
	mov	x9, #-1
	cmp	x24, #64
	lsr	w8, w8, w2
	lsl	x9, x9, x2
	mov	w10, #64
	csel	x6, x24, x10, lo
	orr	w22, w8, #0x1
	mvn	x25, x9
	cbz	x24, .LBBc8cb0b13_25
	mov	x8, x6
	mov	x9, x21
.LBBc8cb0b13_22:
	and	x1, x9, x25
	ldr	w9, [x23, x1, lsl #2]
	cbz	w9, .LBBc8cb0b13_32
	cmp	w9, w21
	b.eq	.LBBc8cb0b13_32
	subs	x8, x8, #1
	add	x9, x1, x22
	b.ne	.LBBc8cb0b13_22
.LBBc8cb0b13_25:
	sub	x0, x29, #24
	add	x1, sp, #64
	mov	x3, x23
	mov	x4, x24
	mov	w5, w21
	bl	hll_coupons.long_searches.LongSearches.end_of_long.fb6abafa58d97c46
	ldurb	w8, [x29, #-24]
	cbz	w8, .LBBc8cb0b13_31
	cbz	x24, .LBBc8cb0b13_53
	mov	x8, x21
.LBBc8cb0b13_28:
	and	x1, x8, x25
	ldr	w8, [x23, x1, lsl #2]
	cbz	w8, .LBBc8cb0b13_32
	cmp	w8, w21
	b.eq	.LBBc8cb0b13_32
	subs	x24, x24, #1
	add	x8, x1, x22
	b.ne	.LBBc8cb0b13_28
	b	.LBBc8cb0b13_53
.LBBc8cb0b13_31:
	ldur	x1, [x29, #-16]
.LBBc8cb0b13_32:
	ldrb	w8, [x19, #16]
	cbz	w8, .LBBc8cb0b13_34
	ldr	x8, [x19, #24]
	b	.LBBc8cb0b13_35
.LBBc8cb0b13_34:
	add	x8, x19, #20
.LBBc8cb0b13_35:
	str	w21, [x8, x1, lsl #2]
	ldp	x25, x8, [sp, #72]
	ldr	x9, [x19, #8]
	mov	x22, xzr
	add	x9, x9, #1
	str	x9, [x19, #8]
	cbz	x8, .LBBc8cb0b13_9
	mov	x9, x25
	mov	x10, x8
	b	.LBBc8cb0b13_38
.LBBc8cb0b13_37:
	subs	x10, x10, #1
	add	x9, x9, #88
	b.eq	.LBBc8cb0b13_40
.LBBc8cb0b13_38:
	ldp	x11, x13, [x9, #16]
	mov	x14, #-1
	ldr	x12, [x9]
	mul	x11, x11, x1
	lsl	x12, x14, x12
	bic	x11, x11, x12
	lsr	x12, x11, #3
	and	x14, x12, #0xffffffffffffff8
	mov	w12, #1
	ldr	x15, [x13, x14]
	lsl	x16, x12, x11
	ldr	x12, [x9, #56]
	bics	x15, x15, x16
	str	x15, [x13, x14]
	b.ne	.LBBc8cb0b13_37
	lsr	x13, x11, #9
	lsr	x11, x11, #6
	mov	w14, #1
	and	x13, x13, #0x3ffffffffffff8
	lsl	x11, x14, x11
	ldr	x15, [x12, x13]
	bic	x11, x15, x11
	str	x11, [x12, x13]
	b	.LBBc8cb0b13_37
.LBBc8cb0b13_40:
	mov	x22, x8
	b	.LBBc8cb0b13_9
.LBBc8cb0b13_41:
	ldr	x20, [sp, #88]
	cbz	x22, .LBBc8cb0b13_48
	add	x21, x25, #72
	b	.LBBc8cb0b13_44
.LBBc8cb0b13_43:
	subs	x22, x22, #1
	add	x21, x21, #88
	b.eq	.LBBc8cb0b13_48
.LBBc8cb0b13_44:
	ldur	x8, [x21, #-32]
	ldur	x19, [x21, #-16]
	ldr	x23, [x21]
	cbz	x8, .LBBc8cb0b13_46
	ldur	x0, [x21, #-48]
	bl	rattle_dealloc
.LBBc8cb0b13_46:
	cbz	x23, .LBBc8cb0b13_43
	mov	x0, x19
	bl	rattle_dealloc
	b	.LBBc8cb0b13_43
.LBBc8cb0b13_48:
	cbz	x20, .LBBc8cb0b13_50
	mov	x0, x25
	bl	rattle_dealloc
.LBBc8cb0b13_50:
	ldr	x8, [sp, #48]
	cbz	x8, .LBBc8cb0b13_52
	ldr	x0, [sp, #32]
	bl	rattle_dealloc
.LBBc8cb0b13_52:
	mov	w0, #1
	b	.LBBc8cb0b13_3
.LBBc8cb0b13_53:
	brk	#0x1
.Lfunc_endc8cb0b13:
	.size	hll_coupons.hash_set.HashSet.update_by_order.8a2f8b2564a2651f, .Lfunc_endc8cb0b13-hll_coupons.hash_set.HashSet.update_by_order.8a2f8b2564a2651f

	.section	.text.hll_coupons.container.Container.ascending.9bc580afffac16c1,"ax",@progbits
	.p2align	2
	.type	hll_coupons.container.Container.ascending.9bc580afffac16c1,@function
hll_coupons.container.Container.ascending.9bc580afffac16c1:
	sub	sp, sp, #96
	stp	x22, x21, [sp, #64]
	ldr	x21, [x1, #8]
	stp	x20, x19, [sp, #80]
	mov	x20, x1
	mov	x19, x0
	stp	x29, x30, [sp, #32]
	add	x29, sp, #32
	str	x23, [sp, #48]
	cbz	x21, .LBBe6ede40c_4
	lsr	x8, x21, #61
	cbnz	x8, .LBBe6ede40c_3
	lsl	x0, x21, #2
	mov	w1, #4
	bl	rattle_alloc
	tbnz	w0, #0, .LBBe6ede40c_5
.LBBe6ede40c_3:
	mov	w8, #3073
	stp	xzr, xzr, [x19, #16]
	strh	w8, [x19]
	str	xzr, [x19, #8]
	ldp	x20, x19, [sp, #80]
	ldr	x23, [sp, #48]
	ldp	x22, x21, [sp, #64]
	ldp	x29, x30, [sp, #32]
	add	sp, sp, #96
	ret
.LBBe6ede40c_4:
	add	x1, x29, #28
.LBBe6ede40c_5:
	ldrb	w8, [x20, #16]
	stp	x1, xzr, [sp, #8]
	str	x21, [sp, #24]
	cbz	w8, .LBBe6ede40c_7
	ldp	x21, x22, [x20, #24]
	b	.LBBe6ede40c_8
.LBBe6ede40c_7:
	add	x21, x20, #20
	mov	w22, #8
.LBBe6ede40c_8:
	mov	x20, xzr
.LBBe6ede40c_9:
	cbz	x22, .LBBe6ede40c_15
	ldr	w23, [x21], #4
	sub	x22, x22, #1
	cbz	w23, .LBBe6ede40c_9
	ldr	x8, [sp, #24]
	cmp	x8, x20
	b.eq	.LBBe6ede40c_13
.LBBe6ede40c_12:
	str	w23, [x1, x20, lsl #2]
	add	x20, x20, #1
	str	x20, [sp, #16]
	b	.LBBe6ede40c_9
.LBBe6ede40c_13:
	add	x0, sp, #8
	mov	w1, #1
	bl	std_alloc.vec.Vec.grow_amortized.e9163d01fd20791a
	cbz	w0, .LBBe6ede40c_16
	ldp	x1, x20, [sp, #8]
	b	.LBBe6ede40c_12
.LBBe6ede40c_15:
	ldr	x21, [sp, #8]
	ldr	x22, [sp, #24]
	mov	x1, x20
	mov	x0, x21
	bl	std_alloc.vec.Vec.sort_unstable.d18826c7c15f4115
	strh	wzr, [x19]
	stp	x21, x20, [x19, #8]
	str	x22, [x19, #24]
	ldp	x20, x19, [sp, #80]
	ldr	x23, [sp, #48]
	ldp	x22, x21, [sp, #64]
	ldp	x29, x30, [sp, #32]
	add	sp, sp, #96
	ret
.LBBe6ede40c_16:
	ldr	x8, [sp, #24]
	cbz	x8, .LBBe6ede40c_3
	ldr	x0, [sp, #8]
	bl	rattle_dealloc
	b	.LBBe6ede40c_3
.Lfunc_ende6ede40c:
	.size	hll_coupons.container.Container.ascending.9bc580afffac16c1, .Lfunc_ende6ede40c-hll_coupons.container.Container.ascending.9bc580afffac16c1

	.section	.text.hll_coupons.long_searches.LongSearches.end_by_cycle.c2bc3268344032de,"ax",@progbits
	.p2align	2
	.type	hll_coupons.long_searches.LongSearches.end_by_cycle.c2bc3268344032de,@function
hll_coupons.long_searches.LongSearches.end_by_cycle.c2bc3268344032de:
	cbz	x1, .LBBd63e36cf_5
	stp	x29, x30, [sp, #-32]!
	and	w8, w3, #0x3ffffff
	stp	x20, x19, [sp, #16]
	mov	x29, sp
	lsr	w8, w8, w2
	orr	w19, w8, #0x1
	add	x8, x0, #32
.LBBd63e36cf_2:
	ldur	w9, [x8, #-24]
	cmp	w9, w19
	b.eq	.LBBd63e36cf_6
	subs	x1, x1, #1
	add	x8, x8, #88
	b.ne	.LBBd63e36cf_2
	mov	w0, wzr
	ldp	x20, x19, [sp, #16]
	ldp	x29, x30, [sp], #32
	ret
.LBBd63e36cf_5:
	mov	w0, wzr
	ret
.LBBd63e36cf_6:
	ldp	x9, x0, [x8, #-16]
	mov	w10, w3
	ldur	x11, [x8, #-32]
	ldp	x2, x3, [x8, #24]
	ldr	x1, [x8]
	mul	x9, x9, x10
	mov	x10, #-1
	lsl	x20, x10, x11
	bic	x4, x9, x20
	bl	hll_coupons.cycle.next_round
	mul	x8, x1, x19
	ands	w0, w0, #0x1
	bic	x8, x8, x20
	csel	x1, x8, xzr, ne
	ldp	x20, x19, [sp, #16]
	ldp	x29, x30, [sp], #32
	ret
.Lfunc_endd63e36cf:
	.size	hll_coupons.long_searches.LongSearches.end_by_cycle.c2bc3268344032de, .Lfunc_endd63e36cf-hll_coupons.long_searches.LongSearches.end_by_cycle.c2bc3268344032de

	.section	.text.hll_coupons.long_searches.LongSearches.end_of_long.fb6abafa58d97c46,"ax",@progbits
	.p2align	2
	.type	hll_coupons.long_searches.LongSearches.end_of_long.fb6abafa58d97c46,@function
hll_coupons.long_searches.LongSearches.end_of_long.fb6abafa58d97c46:
	sub	sp, sp, #144
	stp	x20, x19, [sp, #128]
	mov	x20, x1
	mov	x19, x0
	add	x0, sp, #16
	mov	w1, wzr
	stp	x29, x30, [sp, #48]
	stp	x28, x27, [sp, #64]
	add	x29, sp, #48
	stp	x26, x25, [sp, #80]
	mov	w25, w5
	stp	x24, x23, [sp, #96]
	mov	x23, x4
	mov	x24, x3
	stp	x22, x21, [sp, #112]
	mov	x21, x2
	stp	xzr, xzr, [sp, #16]
	str	xzr, [sp, #32]
	bl	hll_coupons.search.search_on
	ldrb	w8, [sp, #16]
	cmp	w8, #1
	b.ne	.LBBdfa16eb2_34
	ldp	x10, x8, [sp, #24]
	ldr	x9, [x20]
	adds	x8, x8, x9
	csinv	x8, x8, xzr, lo
	cmp	x21, #6
	str	x8, [x20]
	b.lo	.LBBdfa16eb2_27
	mov	w9, #4
	lsl	x9, x9, x21
	cmp	x9, x8
	b.hi	.LBBdfa16eb2_27
	lsr	x28, x23, #6
	ldr	x8, [x20, #32]
	str	xzr, [x20]
	stp	x8, x10, [sp]
	cbz	x28, .LBBdfa16eb2_8
	lsl	x26, x28, #3
	mov	w1, #8
	mov	x0, x26
	bl	rattle_alloc
	tbz	w0, #0, .LBBdfa16eb2_24
	mov	x22, x1
	subs	x27, x28, #1
	b.eq	.LBBdfa16eb2_7
	sub	x2, x26, #8
	mov	x0, x22
	mov	w1, wzr
	bl	memset
.LBBdfa16eb2_7:
	add	x26, x27, #1
	str	xzr, [x22, x27, lsl #3]
	and	w8, w25, #0x3ffffff
	lsr	w8, w8, w21
	orr	w25, w8, #0x1
	cbnz	x23, .LBBdfa16eb2_9
	b	.LBBdfa16eb2_13
.LBBdfa16eb2_8:
	mov	x26, xzr
	sub	x22, x29, #8
	and	w8, w25, #0x3ffffff
	lsr	w8, w8, w21
	orr	w25, w8, #0x1
	cbz	x23, .LBBdfa16eb2_13
.LBBdfa16eb2_9:
	mov	x10, #-1
	mov	x9, xzr
	mov	x8, xzr
	lsl	x10, x10, x21
	mvn	x10, x10
	b	.LBBdfa16eb2_11
.LBBdfa16eb2_10:
	add	x8, x8, #1
	add	x9, x9, x25
	cmp	x23, x8
	and	x9, x9, x10
	b.eq	.LBBdfa16eb2_13
.LBBdfa16eb2_11:
	ldr	w11, [x24, x9, lsl #2]
	cbnz	w11, .LBBdfa16eb2_10
	lsr	x11, x8, #3
	mov	w12, #1
	lsl	x12, x12, x8
	and	x11, x11, #0x1ffffffffffffff8
	ldr	x13, [x22, x11]
	orr	x12, x13, x12
	str	x12, [x22, x11]
	b	.LBBdfa16eb2_10
.LBBdfa16eb2_13:
	lsr	x27, x26, #6
	mov	w1, #8
	add	x24, x27, #1
	lsl	x23, x24, #3
	mov	x0, x23
	bl	rattle_alloc
	tbz	w0, #0, .LBBdfa16eb2_21
	cbz	x27, .LBBdfa16eb2_16
	sub	x2, x23, #8
	mov	x0, x1
	mov	x23, x1
	mov	w1, wzr
	bl	memset
	mov	x1, x23
.LBBdfa16eb2_16:
	str	xzr, [x1, x27, lsl #3]
	cbz	x26, .LBBdfa16eb2_25
	mov	x8, xzr
	b	.LBBdfa16eb2_19
.LBBdfa16eb2_18:
	add	x8, x8, #1
	cmp	x26, x8
	b.eq	.LBBdfa16eb2_25
.LBBdfa16eb2_19:
	ldr	x9, [x22, x8, lsl #3]
	cbz	x9, .LBBdfa16eb2_18
	lsr	x9, x8, #3
	mov	w10, #1
	lsl	x10, x10, x8
	and	x9, x9, #0xffffffffffffff8
	ldr	x11, [x1, x9]
	orr	x10, x11, x10
	str	x10, [x1, x9]
	b	.LBBdfa16eb2_18
.LBBdfa16eb2_21:
	cbz	x28, .LBBdfa16eb2_24
	mov	x0, x22
.LBBdfa16eb2_23:
	bl	rattle_dealloc
.LBBdfa16eb2_24:
	mov	w8, #3073
	str	xzr, [x19, #8]
	strh	w8, [x19]
	b	.LBBdfa16eb2_28
.LBBdfa16eb2_25:
	ldp	x8, x9, [x20, #16]
	cmp	x9, x8
	b.eq	.LBBdfa16eb2_29
.LBBdfa16eb2_26:
	mov	w9, #2
	ldr	x13, [x20, #8]
	sub	w10, w9, w25
	msub	w11, w10, w25, w9
	mul	w10, w11, w10
	mov	w11, #88
	madd	x11, x8, x11, x13
	add	x8, x8, #1
	msub	w12, w10, w25, w9
	mul	w10, w12, w10
	str	x21, [x11]
	stp	w25, wzr, [x11, #8]
	stp	x26, x28, [x11, #32]
	msub	w12, w10, w25, w9
	stp	x24, x24, [x11, #64]
	mul	w10, w12, w10
	ldr	x12, [sp]
	stp	x12, x1, [x11, #48]
	msub	w9, w10, w25, w9
	str	x12, [x11, #80]
	mul	w9, w9, w10
	ldr	x10, [sp, #8]
	stp	x9, x22, [x11, #16]
	str	x8, [x20, #16]
.LBBdfa16eb2_27:
	strh	wzr, [x19]
	str	x10, [x19, #8]
.LBBdfa16eb2_28:
	ldp	x20, x19, [sp, #128]
	ldp	x22, x21, [sp, #112]
	ldp	x24, x23, [sp, #96]
	ldp	x26, x25, [sp, #80]
	ldp	x28, x27, [sp, #64]
	ldp	x29, x30, [sp, #48]
	add	sp, sp, #144
	ret
.LBBdfa16eb2_29:
	add	x0, x20, #8
	mov	x23, x1
	bl	std_alloc.vec.Vec.grow_amortized.f683eea0f97a29d2
	cbz	w0, .LBBdfa16eb2_31
	ldr	x8, [x20, #16]
	mov	x1, x23
	b	.LBBdfa16eb2_26
.LBBdfa16eb2_31:
	cbz	x28, .LBBdfa16eb2_33
	mov	x0, x22
	bl	rattle_dealloc
.LBBdfa16eb2_33:
	mov	x0, x23
	b	.LBBdfa16eb2_23
.LBBdfa16eb2_34:
	brk	#0x1
.Lfunc_enddfa16eb2:
	.size	hll_coupons.long_searches.LongSearches.end_of_long.fb6abafa58d97c46, .Lfunc_enddfa16eb2-hll_coupons.long_searches.LongSearches.end_of_long.fb6abafa58d97c46

	.section	.text.unlikely.std_alloc.vec.Vec.grow_amortized.f683eea0f97a29d2,"ax",@progbits
	.p2align	2
	.type	std_alloc.vec.Vec.grow_amortized.f683eea0f97a29d2,@function
std_alloc.vec.Vec.grow_amortized.f683eea0f97a29d2:
	ldr	x8, [x0, #8]
	cmn	x8, #1
	b.eq	.LBBa9ab3192_5
	stp	x29, x30, [sp, #-32]!
	ldr	x9, [x0, #16]
	cmp	x8, #3
	mov	w10, #3
	csel	x11, x8, x10, hi
	stp	x20, x19, [sp, #16]
	mov	x29, sp
	lsl	x10, x9, #1
	add	x12, x11, #1
	lsr	x13, x9, #62
	cmp	x12, x10
	csinc	x10, x10, x11, ls
	cmp	x13, #0
	csinc	x19, x10, x11, eq
	mov	x11, #29789
	movk	x11, #17873, lsl #16
	movk	x11, #23831, lsl #32
	movk	x11, #372, lsl #48
	cmp	x19, x11
	b.hi	.LBBa9ab3192_7
	cbz	x9, .LBBa9ab3192_6
	mov	w9, #88
	mov	x20, x0
	ldr	x0, [x0]
	mul	x1, x8, x9
	mov	w3, #8
	mul	x2, x19, x9
	bl	rattle_realloc
	tbz	w0, #0, .LBBa9ab3192_7
.LBBa9ab3192_4:
	mov	w0, #1
	str	x1, [x20]
	str	x19, [x20, #16]
	ldp	x20, x19, [sp, #16]
	ldp	x29, x30, [sp], #32
	ret
.LBBa9ab3192_5:
	mov	w0, wzr
	ret
.LBBa9ab3192_6:
	mov	w8, #88
	mov	x20, x0
	mov	w1, #8
	mul	x0, x10, x8
	bl	rattle_alloc
	tbnz	w0, #0, .LBBa9ab3192_4
.LBBa9ab3192_7:
	mov	w0, wzr
	ldp	x20, x19, [sp, #16]
	ldp	x29, x30, [sp], #32
	ret
.Lfunc_enda9ab3192:
	.size	std_alloc.vec.Vec.grow_amortized.f683eea0f97a29d2, .Lfunc_enda9ab3192-std_alloc.vec.Vec.grow_amortized.f683eea0f97a29d2

	.section	.text.hll_registers.folds.max_by_stages.8fbc67663473d8ac,"ax",@progbits
	.p2align	2
	.type	hll_registers.folds.max_by_stages.8fbc67663473d8ac,@function
hll_registers.folds.max_by_stages.8fbc67663473d8ac:
	stp	x29, x30, [sp, #-96]!
	sub	x9, sp, #3, lsl #12
	stp	x28, x27, [sp, #16]
	mov	x29, sp
	sub	x9, x9, #3072
	stp	x26, x25, [sp, #32]
	stp	x24, x23, [sp, #48]
	stp	x22, x21, [sp, #64]
	stp	x20, x19, [sp, #80]
.LBBad3f11cc_1:
	sub	sp, sp, #3072
	cmp	sp, x9
	str	xzr, [sp]
	b.ne	.LBBad3f11cc_1
	sub	sp, sp, #1024
	mov	w21, w2
	mov	x19, x1
	mov	x20, x0
	mov	x0, sp
	mov	w1, wzr
	mov	w2, #16384
	mov	x22, x3
	bl	memset
	ldrb	w8, [x22]
	ldr	x24, [x22, #8]
	mov	w23, wzr
	ldrb	w25, [x22, #1]
	mov	w27, #1
	sub	w8, w8, #14
	and	x26, x8, #0xff
.LBBad3f11cc_3:
	mov	x0, sp
	add	x4, x22, #32
	mov	w1, #16384
	mov	w2, w23
	mov	x3, x24
	mov	w5, w25
	bl	hll_registers.exception_map.max_with_registers.309f015d8caa795c
	lsr	x8, x27, x26
	add	w23, w23, #4, lsl #12
	add	x27, x27, #1
	cbz	x8, .LBBad3f11cc_3
	mov	w8, #14
	mov	x22, xzr
	mov	w23, #1
	sub	w8, w8, w21
	and	x21, x8, #0xff
.LBBad3f11cc_5:
	mov	x8, sp
	mov	x0, x20
	mov	x1, x19
	add	x2, x8, w22, uxtw
	mov	x3, x19
	bl	hll_kernels.kernels.max_into
	lsr	x8, x23, x21
	add	x23, x23, #1
	add	x22, x22, x19
	cbz	x8, .LBBad3f11cc_5
	add	sp, sp, #4, lsl #12
	ldp	x20, x19, [sp, #80]
	ldp	x22, x21, [sp, #64]
	ldp	x24, x23, [sp, #48]
	ldp	x26, x25, [sp, #32]
	ldp	x28, x27, [sp, #16]
	ldp	x29, x30, [sp], #96
	ret
.Lfunc_endad3f11cc:
	.size	hll_registers.folds.max_by_stages.8fbc67663473d8ac, .Lfunc_endad3f11cc-hll_registers.folds.max_by_stages.8fbc67663473d8ac

	.section	.text.hll_kernels.kernels.max_into,"ax",@progbits
	.p2align	2
	.type	hll_kernels.kernels.max_into,@function
hll_kernels.kernels.max_into:
	lsr	x9, x3, #6
	and	x8, x3, #0xffffffffffffffc0
	cbz	x9, .LBBba92484a_3
	mov	x10, x2
	mov	x11, x0
.LBBba92484a_2:
	ldp	q0, q3, [x11, #32]
	subs	x9, x9, #1
	ldp	q1, q2, [x10, #32]
	ldp	q4, q6, [x11]
	umax	v0.16b, v0.16b, v1.16b
	umax	v2.16b, v3.16b, v2.16b
	ldp	q1, q5, [x10], #64
	stp	q0, q2, [x11, #32]
	umax	v1.16b, v4.16b, v1.16b
	umax	v3.16b, v6.16b, v5.16b
	stp	q1, q3, [x11], #64
	b.ne	.LBBba92484a_2
.LBBba92484a_3:
	subs	x10, x1, x8
	b.eq	.LBBba92484a_10
	cmp	x10, #8
	b.lo	.LBBba92484a_7
	add	x9, x0, x8
	add	x11, x2, x1
	cmp	x9, x11
	b.hs	.LBBba92484a_11
	add	x9, x2, x8
	add	x11, x0, x1
	cmp	x9, x11
	b.hs	.LBBba92484a_11
.LBBba92484a_7:
	mov	x9, xzr
.LBBba92484a_8:
	sub	x10, x1, x9
	add	x11, x9, x8
	sub	x8, x10, x8
	add	x9, x2, x11
	add	x10, x0, x11
.LBBba92484a_9:
	ldrb	w11, [x10]
	ldrb	w12, [x9], #1
	cmp	w12, w11
	csel	w11, w12, w11, hi
	subs	x8, x8, #1
	strb	w11, [x10], #1
	b.ne	.LBBba92484a_9
.LBBba92484a_10:
	ret
.LBBba92484a_11:
	cmp	x10, #32
	b.hs	.LBBba92484a_13
	mov	x9, xzr
	b	.LBBba92484a_17
.LBBba92484a_13:
	and	x11, x1, #0x1f
	add	x13, x8, #16
	sub	x9, x10, x11
	add	x12, x2, x13
	add	x13, x0, x13
	sub	x14, x10, x11
.LBBba92484a_14:
	ldp	q0, q3, [x12, #-16]
	subs	x14, x14, #32
	ldp	q1, q2, [x13, #-16]
	add	x12, x12, #32
	umax	v0.16b, v0.16b, v1.16b
	umax	v1.16b, v3.16b, v2.16b
	stp	q0, q1, [x13, #-16]
	add	x13, x13, #32
	b.ne	.LBBba92484a_14
	cbz	x11, .LBBba92484a_10
	cmp	x11, #8
	b.lo	.LBBba92484a_8
.LBBba92484a_17:
	and	x11, x1, #0x7
	add	x13, x9, x8
	sub	x9, x10, x11
	add	x10, x13, x11
	add	x12, x2, x13
	sub	x10, x10, x1
	add	x13, x0, x13
.LBBba92484a_18:
	ldr	d0, [x13]
	ldr	d1, [x12], #8
	adds	x10, x10, #8
	umax	v0.8b, v1.8b, v0.8b
	str	d0, [x13], #8
	b.ne	.LBBba92484a_18
	cbnz	x11, .LBBba92484a_8
	b	.LBBba92484a_10
.Lfunc_endba92484a:
	.size	hll_kernels.kernels.max_into, .Lfunc_endba92484a-hll_kernels.kernels.max_into

	.section	.rodata.cst16,"aM",@progbits,16
	.p2align	4, 0x0
.LCPI5b9204eb_0:
	.byte	0
	.byte	1
	.byte	1
	.byte	2
	.byte	3
	.byte	4
	.byte	4
	.byte	5
	.byte	6
	.byte	7
	.byte	7
	.byte	8
	.byte	9
	.byte	10
	.byte	10
	.byte	11
.LCPI5b9204eb_1:
	.byte	4
	.byte	5
	.byte	5
	.byte	6
	.byte	7
	.byte	8
	.byte	8
	.byte	9
	.byte	10
	.byte	11
	.byte	11
	.byte	12
	.byte	13
	.byte	14
	.byte	14
	.byte	15
.LCPI5b9204eb_2:
	.byte	12
	.byte	255
	.byte	255
	.byte	255
	.byte	13
	.byte	255
	.byte	255
	.byte	255
	.byte	14
	.byte	255
	.byte	255
	.byte	255
	.byte	15
	.byte	255
	.byte	255
	.byte	255
.LCPI5b9204eb_3:
	.byte	8
	.byte	255
	.byte	255
	.byte	255
	.byte	9
	.byte	255
	.byte	255
	.byte	255
	.byte	10
	.byte	255
	.byte	255
	.byte	255
	.byte	11
	.byte	255
	.byte	255
	.byte	255
.LCPI5b9204eb_4:
	.byte	4
	.byte	255
	.byte	255
	.byte	255
	.byte	5
	.byte	255
	.byte	255
	.byte	255
	.byte	6
	.byte	255
	.byte	255
	.byte	255
	.byte	7
	.byte	255
	.byte	255
	.byte	255
.LCPI5b9204eb_5:
	.byte	0
	.byte	255
	.byte	255
	.byte	255
	.byte	1
	.byte	255
	.byte	255
	.byte	255
	.byte	2
	.byte	255
	.byte	255
	.byte	255
	.byte	3
	.byte	255
	.byte	255
	.byte	255
.LCPI5b9204eb_6:
	.byte	0
	.byte	4
	.byte	8
	.byte	12
	.byte	16
	.byte	20
	.byte	24
	.byte	28
	.byte	32
	.byte	36
	.byte	40
	.byte	44
	.byte	48
	.byte	52
	.byte	56
	.byte	60
.LCPI5b9204eb_7:
	.byte	0
	.byte	4
	.byte	8
	.byte	12
	.byte	16
	.byte	20
	.byte	24
	.byte	28
	.byte	255
	.byte	255
	.byte	255
	.byte	255
	.byte	255
	.byte	255
	.byte	255
	.byte	255
	.section	.text.hll_arrays.merge.merge_from.dd8a39ea15bd038f,"ax",@progbits
	.p2align	2
	.type	hll_arrays.merge.merge_from.dd8a39ea15bd038f,@function
hll_arrays.merge.merge_from.dd8a39ea15bd038f:
	stp	x26, x25, [sp, #-64]!
	ldp	x14, x8, [x0, #16]
	mov	x11, #-6148914691236517206
	movk	x11, #43691
	stp	wzr, wzr, [x0, #4]
	stp	x24, x23, [sp, #16]
	lsr	x15, x8, #6
	lsr	x9, x8, #2
	and	x4, x8, #0xffffffffffffffc0
	cmp	x8, #64
	add	x13, x14, x4
	stp	x22, x21, [sp, #32]
	add	x10, x15, x15, lsl #1
	add	x12, x9, x9, lsl #1
	stp	x20, x19, [sp, #48]
	lsl	x9, x10, #4
	sub	x10, x12, x9
	ldrb	w12, [x1]
	umulh	x18, x10, x11
	ldrb	w11, [x0]
	sub	w11, w12, w11
	and	x11, x11, #0xff
	lsr	x12, x18, #1
	b.hs	.LBB5b9204eb_5
	cmp	x10, #2
	b.hi	.LBB5b9204eb_25
	mov	w8, #1
.LBB5b9204eb_3:
	lsr	x9, x8, x11
	add	x8, x8, #1
	cbz	x9, .LBB5b9204eb_3
.LBB5b9204eb_4:
	ldp	x20, x19, [sp, #48]
	mov	w8, #1
	ldp	x22, x21, [sp, #32]
	stp	xzr, xzr, [x0, #40]
	ldp	x24, x23, [sp, #16]
	str	xzr, [x0, #56]
	strb	w8, [x0, #64]
	stur	wzr, [x0, #65]
	str	wzr, [x0, #68]
	ldp	x26, x25, [sp], #64
	ret
.LBB5b9204eb_5:
	sub	x2, x12, #1
	add	x4, x13, #1
	add	x6, x13, #2
	lsl	x3, x2, #2
	mov	w16, wzr
	mov	x17, xzr
	add	x5, x4, x3
	add	x7, x13, x3
	cmp	x5, x4
	add	x4, x13, #3
	lsr	x5, x18, #4
	ccmp	x7, x13, #0, hs
	add	x18, x6, x3
	cset	w7, lo
	tst	x2, #0xc000000000000000
	add	x2, x4, x3
	csinc	w3, w7, wzr, eq
	cmp	x18, x6
	add	x18, x12, x12, lsl #1
	csinc	w6, w3, wzr, hs
	cmp	x2, x4
	add	x2, x13, x12, lsl #2
	neg	x3, x5, lsl #3
	csinc	w4, w6, wzr, hs
	and	x5, x12, #0x7ffffffffffffff0
	and	x6, x12, #0x7ffffffffffffff8
	add	x7, x9, #2
	b	.LBB5b9204eb_7
.LBB5b9204eb_6:
	add	x17, x17, #1
	add	w16, w16, w8
	lsr	x19, x17, x11
	cbnz	x19, .LBB5b9204eb_4
.LBB5b9204eb_7:
	mul	w19, w17, w8
	mov	w20, w16
	mov	x25, x15
	lsr	x21, x20, #2
	ldr	x20, [x1, #16]
	lsr	w22, w19, #2
	add	x19, x21, x21, lsl #1
	add	w23, w22, w22, lsl #1
	add	x21, x22, w22, uxtw #1
	add	x24, x20, x19
	add	x22, x20, x23
	add	x23, x24, #32
	mov	x24, x14
.LBB5b9204eb_8:
	adrp	x26, .LCPI5b9204eb_0
	ldur	q0, [x23, #-8]
	ldr	q3, [x23]
	ldr	q1, [x26, :lo12:.LCPI5b9204eb_0]
	adrp	x26, .LCPI5b9204eb_1
	movi	v6.4s, #4
	ldr	q4, [x26, :lo12:.LCPI5b9204eb_1]
	ldur	q2, [x23, #-32]
	ldur	q5, [x23, #-20]
	tbl	v0.16b, { v0.16b }, v1.16b
	subs	x25, x25, #1
	add	x23, x23, #48
	tbl	v3.16b, { v3.16b }, v4.16b
	tbl	v2.16b, { v2.16b }, v1.16b
	tbl	v1.16b, { v5.16b }, v1.16b
	movi	v4.8h, #63
	ushl	v0.8h, v0.8h, v6.8h
	ushl	v3.8h, v3.8h, v6.8h
	ushl	v1.8h, v1.8h, v6.8h
	ushl	v2.8h, v2.8h, v6.8h
	ushr	v5.8h, v0.8h, #4
	ushr	v0.8h, v0.8h, #2
	ushr	v6.8h, v3.8h, #4
	ushr	v3.8h, v3.8h, #2
	ushr	v7.8h, v2.8h, #4
	ushr	v16.8h, v1.8h, #4
	ushr	v2.8h, v2.8h, #2
	ushr	v1.8h, v1.8h, #2
	and	v5.16b, v5.16b, v4.16b
	bic	v0.8h, #255
	and	v6.16b, v6.16b, v4.16b
	bic	v3.8h, #255
	and	v7.16b, v7.16b, v4.16b
	bic	v2.8h, #255
	and	v4.16b, v16.16b, v4.16b
	bic	v1.8h, #255
	orr	v0.16b, v5.16b, v0.16b
	orr	v3.16b, v6.16b, v3.16b
	ldp	q5, q6, [x24, #32]
	orr	v2.16b, v7.16b, v2.16b
	orr	v1.16b, v4.16b, v1.16b
	umax	v0.16b, v5.16b, v0.16b
	ldp	q4, q5, [x24]
	umax	v3.16b, v6.16b, v3.16b
	umax	v2.16b, v4.16b, v2.16b
	umax	v1.16b, v5.16b, v1.16b
	stp	q0, q3, [x24, #32]
	stp	q2, q1, [x24], #64
	b.ne	.LBB5b9204eb_8
	cmp	x10, #3
	b.lo	.LBB5b9204eb_6
	cmp	x10, #24
	cset	w23, lo
	orr	w23, w23, w4
	tbnz	w23, #0, .LBB5b9204eb_13
	add	x22, x22, x9
	cmp	x22, x2
	b.hs	.LBB5b9204eb_16
	add	x22, x20, x9
	add	x22, x22, x18
	add	x21, x22, x21
	cmp	x13, x21
	b.hs	.LBB5b9204eb_16
.LBB5b9204eb_13:
	mov	x23, xzr
.LBB5b9204eb_14:
	add	x22, x23, x23, lsl #1
	add	x21, x13, x23, lsl #2
	add	x20, x20, x7
	add	x22, x22, x19
	sub	x19, x12, x23
	add	x20, x20, x22
.LBB5b9204eb_15:
	ldurb	w22, [x20, #-2]
	ldurb	w23, [x20, #-1]
	movi	v2.4h, #63
	ldrb	w25, [x20], #3
	subs	x19, x19, #1
	mov	w24, w22
	fmov	s0, w22
	bfi	w24, w23, #8, #8
	lsl	w23, w23, #8
	lsr	w24, w24, #6
	orr	w22, w23, w25, lsl #16
	mov	v0.h[1], w24
	lsr	w22, w22, #12
	mov	v0.h[2], w22
	fmov	d1, d0
	mov	v0.h[3], w25
	bic	v0.4h, #255, lsl #8
	and	v1.8b, v1.8b, v2.8b
	ldr	s2, [x21]
	ushr	v0.4h, v0.4h, #2
	mov	v1.h[3], v0.h[3]
	ushll	v0.8h, v2.8b, #0
	umax	v0.4h, v1.4h, v0.4h
	uzp1	v0.8b, v0.8b, v0.8b
	st1	{ v0.s }[0], [x21], #4
	b.ne	.LBB5b9204eb_15
	b	.LBB5b9204eb_6
.LBB5b9204eb_16:
	cmp	x10, #48
	adrp	x21, .LCPI5b9204eb_4
	adrp	x22, .LCPI5b9204eb_5
	b.hs	.LBB5b9204eb_21
	mov	x24, xzr
.LBB5b9204eb_18:
	add	x23, x24, x24, lsl #1
	add	x25, x20, x9
	add	x26, x23, x19
	add	x23, x13, x24, lsl #2
	add	x24, x3, x24
	add	x25, x25, x26
.LBB5b9204eb_19:
	ld3	{ v0.8b, v1.8b, v2.8b }, [x25], #24
	adrp	x26, .LCPI5b9204eb_7
	ldr	q3, [x21, :lo12:.LCPI5b9204eb_4]
	adds	x24, x24, #8
	ldr	q4, [x22, :lo12:.LCPI5b9204eb_5]
	tbl	v5.16b, { v1.16b }, v3.16b
	tbl	v6.16b, { v1.16b }, v4.16b
	tbl	v7.16b, { v2.16b }, v3.16b
	tbl	v16.16b, { v2.16b }, v4.16b
	tbl	v3.16b, { v0.16b }, v3.16b
	tbl	v4.16b, { v0.16b }, v4.16b
	shl	v5.4s, v5.4s, #8
	shl	v6.4s, v6.4s, #8
	shl	v7.4s, v7.4s, #16
	shl	v16.4s, v16.4s, #16
	orr	v3.16b, v5.16b, v3.16b
	orr	v5.16b, v7.16b, v5.16b
	orr	v4.16b, v6.16b, v4.16b
	orr	v6.16b, v16.16b, v6.16b
	ushr	v17.4s, v3.4s, #6
	ushr	v16.4s, v4.4s, #6
	ushr	v4.4s, v5.4s, #12
	ldr	q5, [x26, :lo12:.LCPI5b9204eb_7]
	ushr	v3.4s, v6.4s, #12
	movi	v6.8b, #63
	tbl	v7.16b, { v16.16b, v17.16b }, v5.16b
	ld4	{ v16.8b, v17.8b, v18.8b, v19.8b }, [x23]
	tbl	v3.16b, { v3.16b, v4.16b }, v5.16b
	and	v4.8b, v0.8b, v6.8b
	ushr	v0.8b, v2.8b, #2
	and	v5.8b, v7.8b, v6.8b
	and	v3.8b, v3.8b, v6.8b
	umax	v20.8b, v4.8b, v16.8b
	umax	v21.8b, v5.8b, v17.8b
	umax	v22.8b, v3.8b, v18.8b
	umax	v23.8b, v0.8b, v19.8b
	st4	{ v20.8b, v21.8b, v22.8b, v23.8b }, [x23], #32
	b.ne	.LBB5b9204eb_19
	cmp	x12, x6
	and	x23, x12, #0x7ffffffffffffff8
	b.eq	.LBB5b9204eb_6
	b	.LBB5b9204eb_14
.LBB5b9204eb_21:
	add	x23, x20, x9
	mov	x24, x13
	and	x25, x12, #0x7ffffffffffffff0
	add	x23, x23, x19
.LBB5b9204eb_22:
	ld3	{ v0.16b, v1.16b, v2.16b }, [x23], #48
	adrp	x26, .LCPI5b9204eb_2
	ldr	q3, [x26, :lo12:.LCPI5b9204eb_2]
	adrp	x26, .LCPI5b9204eb_3
	subs	x25, x25, #16
	ldr	q4, [x26, :lo12:.LCPI5b9204eb_3]
	ldr	q5, [x21, :lo12:.LCPI5b9204eb_4]
	adrp	x26, .LCPI5b9204eb_6
	ldr	q7, [x22, :lo12:.LCPI5b9204eb_5]
	tbl	v6.16b, { v1.16b }, v3.16b
	tbl	v16.16b, { v1.16b }, v4.16b
	tbl	v17.16b, { v1.16b }, v5.16b
	tbl	v18.16b, { v2.16b }, v3.16b
	tbl	v3.16b, { v0.16b }, v3.16b
	tbl	v19.16b, { v1.16b }, v7.16b
	tbl	v20.16b, { v2.16b }, v4.16b
	tbl	v4.16b, { v0.16b }, v4.16b
	tbl	v21.16b, { v2.16b }, v5.16b
	tbl	v5.16b, { v0.16b }, v5.16b
	tbl	v22.16b, { v2.16b }, v7.16b
	tbl	v7.16b, { v0.16b }, v7.16b
	shl	v6.4s, v6.4s, #8
	shl	v16.4s, v16.4s, #8
	shl	v17.4s, v17.4s, #8
	shl	v18.4s, v18.4s, #16
	shl	v19.4s, v19.4s, #8
	shl	v20.4s, v20.4s, #16
	shl	v21.4s, v21.4s, #16
	orr	v3.16b, v6.16b, v3.16b
	orr	v4.16b, v16.16b, v4.16b
	shl	v22.4s, v22.4s, #16
	orr	v6.16b, v18.16b, v6.16b
	orr	v5.16b, v17.16b, v5.16b
	orr	v7.16b, v19.16b, v7.16b
	orr	v16.16b, v20.16b, v16.16b
	ushr	v26.4s, v3.4s, #6
	orr	v3.16b, v21.16b, v17.16b
	ushr	v25.4s, v4.4s, #6
	orr	v4.16b, v22.16b, v19.16b
	ushr	v20.4s, v6.4s, #12
	ushr	v24.4s, v5.4s, #6
	ushr	v19.4s, v16.4s, #12
	ldr	q5, [x26, :lo12:.LCPI5b9204eb_6]
	ushr	v23.4s, v7.4s, #6
	ushr	v18.4s, v3.4s, #12
	ushr	v17.4s, v4.4s, #12
	movi	v4.16b, #63
	tbl	v3.16b, { v23.16b, v24.16b, v25.16b, v26.16b }, v5.16b
	ld4	{ v21.16b, v22.16b, v23.16b, v24.16b }, [x24]
	tbl	v5.16b, { v17.16b, v18.16b, v19.16b, v20.16b }, v5.16b
	and	v6.16b, v0.16b, v4.16b
	ushr	v0.16b, v2.16b, #2
	and	v3.16b, v3.16b, v4.16b
	and	v4.16b, v5.16b, v4.16b
	umax	v17.16b, v3.16b, v22.16b
	umax	v16.16b, v6.16b, v21.16b
	umax	v18.16b, v4.16b, v23.16b
	umax	v19.16b, v0.16b, v24.16b
	st4	{ v16.16b, v17.16b, v18.16b, v19.16b }, [x24], #64
	b.ne	.LBB5b9204eb_22
	cmp	x12, x5
	b.eq	.LBB5b9204eb_6
	and	x24, x12, #0x7ffffffffffffff0
	and	x23, x12, #0x7ffffffffffffff0
	tbnz	w12, #3, .LBB5b9204eb_18
	b	.LBB5b9204eb_14
.LBB5b9204eb_25:
	sub	x17, x12, #1
	add	x2, x14, #1
	mov	w15, wzr
	lsl	x18, x17, #2
	mov	x16, xzr
	add	x3, x2, x18
	add	x5, x13, x18
	cmp	x3, x2
	add	x2, x14, #2
	add	x3, x14, #3
	ccmp	x5, x13, #0, hs
	add	x5, x2, x18
	cset	w6, lo
	tst	x17, #0xc000000000000000
	add	x17, x3, x18
	csinc	w18, w6, wzr, eq
	cmp	x5, x2
	csinc	w2, w18, wzr, hs
	cmp	x17, x3
	add	x17, x12, x12, lsl #1
	add	x18, x14, x12, lsl #2
	csinc	w2, w2, wzr, hs
	and	x3, x12, #0x18
	add	x14, x14, x4
	add	x4, x9, #2
	b	.LBB5b9204eb_27
.LBB5b9204eb_26:
	add	x16, x16, #1
	add	w15, w15, w8
	lsr	x5, x16, x11
	cbnz	x5, .LBB5b9204eb_4
.LBB5b9204eb_27:
	mov	w5, w15
	cmp	x10, #24
	ldr	x6, [x1, #16]
	lsr	x5, x5, #2
	cset	w7, lo
	orr	w7, w7, w2
	add	x5, x5, x5, lsl #1
	tbnz	w7, #0, .LBB5b9204eb_32
	mul	w7, w16, w8
	add	x20, x6, x9
	lsr	w7, w7, #2
	add	w19, w7, w7, lsl #1
	add	x7, x7, w7, uxtw #1
	add	x19, x20, x19
	add	x20, x6, x17
	add	x7, x20, x7
	cmp	x19, x18
	ccmp	x13, x7, #2, lo
	b.lo	.LBB5b9204eb_32
	add	x7, x6, x9
	mov	x19, x13
	and	x20, x12, #0x18
	add	x7, x7, x5
.LBB5b9204eb_30:
	ld3	{ v0.8b, v1.8b, v2.8b }, [x7], #24
	adrp	x21, .LCPI5b9204eb_4
	ldr	q3, [x21, :lo12:.LCPI5b9204eb_4]
	adrp	x21, .LCPI5b9204eb_5
	subs	x20, x20, #8
	ldr	q4, [x21, :lo12:.LCPI5b9204eb_5]
	adrp	x21, .LCPI5b9204eb_7
	tbl	v5.16b, { v1.16b }, v3.16b
	tbl	v6.16b, { v1.16b }, v4.16b
	tbl	v7.16b, { v2.16b }, v3.16b
	tbl	v16.16b, { v2.16b }, v4.16b
	tbl	v3.16b, { v0.16b }, v3.16b
	tbl	v4.16b, { v0.16b }, v4.16b
	shl	v5.4s, v5.4s, #8
	shl	v6.4s, v6.4s, #8
	shl	v7.4s, v7.4s, #16
	shl	v16.4s, v16.4s, #16
	orr	v3.16b, v5.16b, v3.16b
	orr	v5.16b, v7.16b, v5.16b
	orr	v4.16b, v6.16b, v4.16b
	orr	v6.16b, v16.16b, v6.16b
	ushr	v17.4s, v3.4s, #6
	ushr	v16.4s, v4.4s, #6
	ushr	v4.4s, v5.4s, #12
	ldr	q5, [x21, :lo12:.LCPI5b9204eb_7]
	ushr	v3.4s, v6.4s, #12
	movi	v6.8b, #63
	tbl	v7.16b, { v16.16b, v17.16b }, v5.16b
	ld4	{ v16.8b, v17.8b, v18.8b, v19.8b }, [x19]
	tbl	v3.16b, { v3.16b, v4.16b }, v5.16b
	and	v4.8b, v0.8b, v6.8b
	ushr	v0.8b, v2.8b, #2
	and	v5.8b, v7.8b, v6.8b
	and	v3.8b, v3.8b, v6.8b
	umax	v20.8b, v4.8b, v16.8b
	umax	v21.8b, v5.8b, v17.8b
	umax	v22.8b, v3.8b, v18.8b
	umax	v23.8b, v0.8b, v19.8b
	st4	{ v20.8b, v21.8b, v22.8b, v23.8b }, [x19], #32
	b.ne	.LBB5b9204eb_30
	cmp	x12, x3
	and	x19, x12, #0x18
	b.eq	.LBB5b9204eb_26
	b	.LBB5b9204eb_33
.LBB5b9204eb_32:
	mov	x19, xzr
.LBB5b9204eb_33:
	add	x20, x19, x19, lsl #1
	add	x7, x14, x19, lsl #2
	add	x6, x6, x4
	add	x20, x20, x5
	sub	x5, x12, x19
	add	x6, x6, x20
.LBB5b9204eb_34:
	ldurb	w19, [x6, #-2]
	ldurb	w20, [x6, #-1]
	movi	v2.4h, #63
	ldrb	w22, [x6], #3
	subs	x5, x5, #1
	mov	w21, w19
	fmov	s0, w19
	bfi	w21, w20, #8, #8
	lsl	w20, w20, #8
	lsr	w21, w21, #6
	orr	w19, w20, w22, lsl #16
	mov	v0.h[1], w21
	lsr	w19, w19, #12
	mov	v0.h[2], w19
	fmov	d1, d0
	mov	v0.h[3], w22
	bic	v0.4h, #255, lsl #8
	and	v1.8b, v1.8b, v2.8b
	ldr	s2, [x7]
	ushr	v0.4h, v0.4h, #2
	mov	v1.h[3], v0.h[3]
	ushll	v0.8h, v2.8b, #0
	umax	v0.4h, v1.4h, v0.4h
	uzp1	v0.8b, v0.8b, v0.8b
	st1	{ v0.s }[0], [x7], #4
	b.ne	.LBB5b9204eb_34
	b	.LBB5b9204eb_26
.Lfunc_end5b9204eb:
	.size	hll_arrays.merge.merge_from.dd8a39ea15bd038f, .Lfunc_end5b9204eb-hll_arrays.merge.merge_from.dd8a39ea15bd038f

	.section	.text.hll_sketch.sketch.HllSketch.add_table.8a2f8b2564a2651f,"ax",@progbits
	.p2align	2
	.type	hll_sketch.sketch.HllSketch.add_table.8a2f8b2564a2651f,@function
hll_sketch.sketch.HllSketch.add_table.8a2f8b2564a2651f:
	sub	sp, sp, #320
	ldrb	w8, [x0, #8]
	stp	x20, x19, [sp, #304]
	mov	x19, x0
	stp	x29, x30, [sp, #272]
	add	x29, sp, #272
	cmp	w8, #2
	stp	x28, x21, [sp, #288]
	b.gt	.LBB1369b690_9
	cbz	w8, .LBB1369b690_3
	cmp	w8, #1
	b.ne	.LBB1369b690_5
.LBB1369b690_3:
	ldrb	w8, [x19, #16]
	mov	w9, #3
	lsl	x9, x9, x8
	cmp	x8, #3
	mov	w8, #7
	lsr	x9, x9, #2
	csel	x21, x8, x9, eq
	ldr	x8, [x19, #24]
	ldr	x9, [x1, #8]
	add	x8, x9, x8
	cmp	x8, x21
	b.ls	.LBB1369b690_9
	mov	x0, x19
	mov	x20, x1
	bl	hll_sketch.sketch.HllSketch.count_with_all.8a2f8b2564a2651f
	mov	x1, x20
	cmp	x0, x21
	b.ls	.LBB1369b690_9
.LBB1369b690_5:
	movi	v0.2d, #0000000000000000
	add	x21, sp, #96
	mov	x0, x19
	mov	x20, x1
	stp	q0, q0, [x21, #80]
	stp	q0, q0, [x21, #112]
	stp	q0, q0, [x21, #144]
	bl	hll_sketch.sketch.HllSketch.count_with_all.8a2f8b2564a2651f
	ldrb	w8, [x19, #8]
	mov	x4, x0
	cbz	w8, .LBB1369b690_7
	cmp	w8, #1
	b.ne	.LBB1369b690_12
.LBB1369b690_7:
	mov	x2, x19
	sub	x0, x29, #96
	mov	x3, x20
	ldrb	w1, [x2], #16
	bl	hll_sketch.promotion.mode_of_both.8a2f8b2564a2651f
	ldp	q0, q1, [x21, #128]
	ldr	q2, [x21, #160]
	ldurb	w9, [x29, #-96]
	ldurb	w1, [x29, #-95]
	ldurb	w8, [x29, #-88]
	str	q0, [sp, #128]
	stp	q1, q2, [x21, #48]
	ldp	q1, q0, [x21, #96]
	stp	q1, q0, [sp, #96]
	cbz	w9, .LBB1369b690_11
	mov	w0, #1
	ldp	x20, x19, [sp, #304]
	ldp	x28, x21, [sp, #288]
	ldp	x29, x30, [sp, #272]
	add	sp, sp, #320
	ret
.LBB1369b690_9:
	mov	x0, x19
	bl	hll_sketch.sketch.HllSketch.add_each.8a2f8b2564a2651f
.LBB1369b690_10:
	mov	w1, wzr
	mov	w0, wzr
	ldp	x20, x19, [sp, #304]
	ldp	x28, x21, [sp, #288]
	ldp	x29, x30, [sp, #272]
	add	sp, sp, #320
	ret
.LBB1369b690_11:
	ldp	q0, q1, [x19, #32]
	add	x0, sp, #8
	ldr	q2, [x19, #16]
	ldrb	w9, [x19, #8]
	str	x8, [x19, #8]
	stp	q0, q1, [sp, #32]
	ldp	q0, q1, [x19, #64]
	stur	q2, [sp, #16]
	ldr	q2, [sp, #128]
	str	x9, [sp, #8]
	stp	q0, q1, [sp, #64]
	ldp	q0, q1, [sp, #96]
	stp	q0, q1, [x19, #16]
	ldp	q0, q1, [x21, #48]
	stp	q2, q0, [x19, #48]
	str	q1, [x19, #80]
	bl	hll_sketch.mode.Mode.drop.309f015d8caa795c
	b	.LBB1369b690_10
.LBB1369b690_12:
	brk	#0x1
.Lfunc_end1369b690:
	.size	hll_sketch.sketch.HllSketch.add_table.8a2f8b2564a2651f, .Lfunc_end1369b690-hll_sketch.sketch.HllSketch.add_table.8a2f8b2564a2651f

	.section	.text.hll_sketch.sketch.HllSketch.count_with_all.8a2f8b2564a2651f,"ax",@progbits
	.p2align	2
	.type	hll_sketch.sketch.HllSketch.count_with_all.8a2f8b2564a2651f,@function
hll_sketch.sketch.HllSketch.count_with_all.8a2f8b2564a2651f:
	sub	sp, sp, #96
	ldrb	w8, [x0, #8]
	stp	x29, x30, [sp, #32]
	add	x29, sp, #32
	stp	x24, x23, [sp, #48]
	sub	w9, w8, #2
	stp	x22, x21, [sp, #64]
	cmp	w9, #3
	stp	x20, x19, [sp, #80]
	b.hs	.LBB73ba5868_2
	ldr	x19, [x1, #8]
	b	.LBB73ba5868_45
.LBB73ba5868_2:
	cmp	w8, #1
	b.ne	.LBB73ba5868_5
	ldrb	w8, [x1, #16]
	ldr	x19, [x0, #24]
	cbz	w8, .LBB73ba5868_7
	ldp	x20, x21, [x1, #24]
	b	.LBB73ba5868_40
.LBB73ba5868_5:
	ldrb	w8, [x1, #16]
	ldr	x19, [x0, #24]
	cbz	w8, .LBB73ba5868_41
	ldp	x20, x21, [x1, #24]
	b	.LBB73ba5868_44
.LBB73ba5868_7:
	add	x20, x1, #20
	mov	w21, #8
	b	.LBB73ba5868_40
.LBB73ba5868_8:
	ldr	w22, [x20], #4
	sub	x21, x21, #1
	cbz	w22, .LBB73ba5868_40
	ldrb	w10, [x0, #32]
	ldr	x8, [x0, #16]
	cbz	w10, .LBB73ba5868_12
	ldr	x9, [x0, #48]
	mov	w11, #64
	cmp	x9, #64
	csel	x11, x9, x11, lo
	cbz	x9, .LBB73ba5868_22
	and	w9, w22, #0x3ffffff
	ldr	x12, [x0, #40]
	b	.LBB73ba5868_13
.LBB73ba5868_12:
	and	w9, w22, #0x3ffffff
	mov	w11, #8
	add	x12, x0, #36
.LBB73ba5868_13:
	lsr	w9, w9, w8
	mov	x13, #-1
	lsl	x14, x13, x8
	orr	w13, w9, #0x1
	mvn	x9, x14
	mov	x14, x22
.LBB73ba5868_14:
	and	x14, x14, x9
	ldr	w15, [x12, x14, lsl #2]
	cbz	w15, .LBB73ba5868_21
	cmp	w15, w22
	b.eq	.LBB73ba5868_21
	subs	x11, x11, #1
	add	x14, x14, x13
	b.ne	.LBB73ba5868_14
	ldr	x11, [x1, #8]
	cmp	x11, #9
	b.hs	.LBB73ba5868_23
	cbz	w10, .LBB73ba5868_31
	ldr	x10, [x0, #48]
	cbz	x10, .LBB73ba5868_36
	and	w11, w22, #0x3ffffff
	lsr	w11, w11, w8
	ldr	x8, [x0, #40]
	b	.LBB73ba5868_32
.LBB73ba5868_21:
	cmp	w15, #0
	b	.LBB73ba5868_38
.LBB73ba5868_22:
	ldr	x8, [x1, #8]
	cmp	x8, #9
	b.lo	.LBB73ba5868_36
.LBB73ba5868_23:
	movi	v0.2d, #0000000000000000
	mov	x8, x0
	mov	x23, x1
	mov	x0, sp
	add	x1, x8, #16
	mov	x24, x8
	stp	q0, q0, [sp]
	bl	hll_coupons.container.Container.ascending.9bc580afffac16c1
	ldrb	w8, [sp]
	cbz	w8, .LBB73ba5868_46
	ldrb	w8, [x24, #32]
	mov	x0, x24
	mov	x1, x23
	cbz	w8, .LBB73ba5868_26
	ldp	x8, x9, [x0, #40]
	cbnz	x9, .LBB73ba5868_27
	b	.LBB73ba5868_36
.LBB73ba5868_26:
	mov	w9, #8
	add	x8, x0, #36
	cbz	x9, .LBB73ba5868_36
.LBB73ba5868_27:
	ldur	x10, [x0, #16]
	and	w11, w22, #0x3ffffff
	mov	x12, #-1
	lsr	w11, w11, w10
	lsl	x12, x12, x10
	orr	w10, w11, #0x1
	mvn	x11, x12
	mov	x12, x22
.LBB73ba5868_28:
	and	x12, x12, x11
	ldr	w13, [x8, x12, lsl #2]
	cbz	w13, .LBB73ba5868_37
	cmp	w13, w22
	b.eq	.LBB73ba5868_37
	subs	x9, x9, #1
	add	x12, x12, x10
	b.ne	.LBB73ba5868_28
	b	.LBB73ba5868_36
.LBB73ba5868_31:
	and	w10, w22, #0x3ffffff
	lsr	w11, w10, w8
	mov	w10, #8
	add	x8, x0, #36
.LBB73ba5868_32:
	orr	w11, w11, #0x1
	mov	x12, x22
.LBB73ba5868_33:
	and	x12, x12, x9
	ldr	w13, [x8, x12, lsl #2]
	cbz	w13, .LBB73ba5868_37
	cmp	w13, w22
	b.eq	.LBB73ba5868_37
	subs	x10, x10, #1
	add	x12, x12, x11
	b.ne	.LBB73ba5868_33
.LBB73ba5868_36:
	mov	w8, wzr
	b	.LBB73ba5868_39
.LBB73ba5868_37:
	cmp	w13, #0
.LBB73ba5868_38:
	cset	w8, ne
.LBB73ba5868_39:
	eor	w8, w8, #0x1
	add	x19, x19, x8
.LBB73ba5868_40:
	cbnz	x21, .LBB73ba5868_8
	b	.LBB73ba5868_45
.LBB73ba5868_41:
	add	x20, x1, #20
	mov	w21, #8
	b	.LBB73ba5868_44
.LBB73ba5868_42:
	ldr	w1, [x20], #4
	sub	x21, x21, #1
	cbz	w1, .LBB73ba5868_44
	mov	x22, x0
	add	x0, x0, #16
	bl	hll_coupons.list.List.contains.309f015d8caa795c
	mov	w8, w0
	mov	x0, x22
	eor	w8, w8, #0x1
	add	x19, x19, x8
.LBB73ba5868_44:
	cbnz	x21, .LBB73ba5868_42
.LBB73ba5868_45:
	mov	x0, x19
	ldp	x20, x19, [sp, #80]
	ldp	x22, x21, [sp, #64]
	ldp	x24, x23, [sp, #48]
	ldp	x29, x30, [sp, #32]
	add	sp, sp, #96
	ret
.LBB73ba5868_46:
	ldp	x0, x19, [sp, #8]
	ldrb	w8, [x23, #16]
	cbz	w8, .LBB73ba5868_48
	ldp	x8, x9, [x23, #24]
	b	.LBB73ba5868_49
.LBB73ba5868_48:
	add	x8, x23, #20
	mov	w9, #8
.LBB73ba5868_49:
	ldr	x10, [sp, #24]
	cbz	x19, .LBB73ba5868_56
	cmp	x19, #1
	b.ne	.LBB73ba5868_57
.LBB73ba5868_51:
	cbz	x9, .LBB73ba5868_64
	ldr	w11, [x8], #4
	sub	x9, x9, #1
	cbz	w11, .LBB73ba5868_51
	ldr	w12, [x0]
	cmp	w12, w11
	cinc	x19, x19, ne
	b	.LBB73ba5868_51
.LBB73ba5868_54:
	ldr	w11, [x8], #4
	sub	x9, x9, #1
	cbz	w11, .LBB73ba5868_56
	add	x19, x19, #1
.LBB73ba5868_56:
	cbnz	x9, .LBB73ba5868_54
	b	.LBB73ba5868_64
.LBB73ba5868_57:
	mov	x11, x19
.LBB73ba5868_58:
	cbz	x9, .LBB73ba5868_63
	ldr	w12, [x8], #4
	sub	x9, x9, #1
	cbz	w12, .LBB73ba5868_58
	mov	x13, xzr
	mov	x14, x19
.LBB73ba5868_61:
	lsr	x15, x14, #1
	add	x16, x15, x13
	sub	x14, x14, x15
	ldr	w17, [x0, x16, lsl #2]
	cmp	w17, w12
	csel	x13, x13, x16, hi
	cmp	x14, #1
	b.hi	.LBB73ba5868_61
	ldr	w13, [x0, x13, lsl #2]
	cmp	w13, w12
	cinc	x11, x11, ne
	b	.LBB73ba5868_58
.LBB73ba5868_63:
	mov	x19, x11
.LBB73ba5868_64:
	cbz	x10, .LBB73ba5868_45
	bl	rattle_dealloc
	b	.LBB73ba5868_45
.Lfunc_end73ba5868:
	.size	hll_sketch.sketch.HllSketch.count_with_all.8a2f8b2564a2651f, .Lfunc_end73ba5868-hll_sketch.sketch.HllSketch.count_with_all.8a2f8b2564a2651f

	.section	.text.hll_sketch.promotion.mode_of_both.8a2f8b2564a2651f,"ax",@progbits
	.p2align	2
	.type	hll_sketch.promotion.mode_of_both.8a2f8b2564a2651f,@function
hll_sketch.promotion.mode_of_both.8a2f8b2564a2651f:
	sub	sp, sp, #352
	movi	v0.2d, #0000000000000000
	ldr	x8, [x2]
	stp	x29, x30, [sp, #304]
	stp	x28, x21, [sp, #320]
	add	x29, sp, #304
	add	x21, sp, #64
	stp	x20, x19, [sp, #336]
	mov	x20, x3
	mov	x19, x0
	cmp	x4, #7
	stp	xzr, xzr, [x29, #-32]
	stur	wzr, [x29, #-8]
	stur	xzr, [x29, #-16]
	stur	wzr, [x29, #-40]
	stur	wzr, [x21, #203]
	stur	wzr, [x29, #-48]
	stur	wzr, [x21, #195]
	stp	q0, q0, [x29, #-112]
	stur	q0, [x29, #-80]
	stur	xzr, [x29, #-64]
	stp	xzr, xzr, [x29, #-136]
	stur	xzr, [x29, #-144]
	stur	wzr, [x29, #-120]
	stur	wzr, [x21, #91]
	str	wzr, [sp, #152]
	stur	wzr, [x21, #83]
	str	wzr, [sp, #144]
	stp	q0, q0, [sp, #16]
	stp	q0, q0, [sp, #48]
	stp	q0, q0, [sp, #80]
	stp	q0, q0, [sp, #112]
	str	q0, [sp]
	b.hi	.LBB6c6885dc_4
	and	x9, x8, #0xfc
	cbnz	x9, .LBB6c6885dc_4
	mov	w1, #3
	mov	x0, sp
	bl	hll_coupons.hash_set.HashSet.from_container.8a2f8b2564a2651f
	ldrb	w8, [sp]
	cbz	w8, .LBB6c6885dc_10
.LBB6c6885dc_3:
	ldrb	w8, [sp, #1]
	movi	v0.2d, #0000000000000000
	b	.LBB6c6885dc_13
.LBB6c6885dc_4:
	add	w9, w1, #1
	and	w9, w9, #0xff
	subs	w9, w9, #3
	csel	w9, wzr, w9, lo
	cmp	w9, #6
	b.lo	.LBB6c6885dc_11
	and	x8, x8, #0xff
	and	x10, x9, #0xff
	mov	w9, #5
	b	.LBB6c6885dc_7
.LBB6c6885dc_6:
	add	x9, x9, #1
	cmp	x10, x9
	b.eq	.LBB6c6885dc_11
.LBB6c6885dc_7:
	cmp	x9, x8
	b.lo	.LBB6c6885dc_6
	mov	w11, #3
	lsl	x11, x11, x9
	cmp	x4, x11, lsr #2
	b.hi	.LBB6c6885dc_6
	and	x1, x9, #0xff
	mov	x0, sp
	bl	hll_coupons.hash_set.HashSet.from_container.8a2f8b2564a2651f
	ldrb	w8, [sp]
	cbnz	w8, .LBB6c6885dc_3
.LBB6c6885dc_10:
	ldur	q0, [sp, #8]
	ldrb	w8, [sp, #24]
	sub	x0, x29, #112
	ldur	q1, [sp, #28]
	mov	x1, x20
	stur	q0, [x29, #-112]
	ldur	q0, [sp, #44]
	stur	w8, [x29, #-96]
	stur	q1, [x21, #148]
	stur	q0, [x21, #164]
	bl	hll_coupons.hash_set.HashSet.update_each.8a2f8b2564a2651f
	ldur	q0, [x21, #152]
	ldp	x13, x14, [x29, #-112]
	ldurb	w9, [x29, #-96]
	mov	w10, wzr
	mov	w8, wzr
	stur	q0, [x29, #-144]
	ldur	q0, [x21, #164]
	mov	w11, #2
	ldur	w12, [x29, #-92]
	str	wzr, [sp, #152]
	mov	w15, #1
	stur	q0, [x21, #108]
	stur	wzr, [x21, #91]
	str	wzr, [sp, #144]
	stur	wzr, [x21, #83]
	b	.LBB6c6885dc_25
.LBB6c6885dc_11:
	add	x0, sp, #64
	mov	w3, wzr
	mov	w4, wzr
	bl	hll_sketch.promotion.registers_of_table.c04436f960e64b83
	ldrb	w8, [sp, #64]
	cbz	w8, .LBB6c6885dc_14
	movi	v0.2d, #0000000000000000
	ldrb	w8, [sp, #65]
.LBB6c6885dc_13:
	mov	w9, #1
	strb	w8, [x19, #1]
	strb	w9, [x19]
	stur	q0, [x19, #8]
	stur	q0, [x19, #24]
	stur	q0, [x19, #40]
	stur	q0, [x19, #56]
	stur	q0, [x19, #72]
	str	xzr, [x19, #88]
	ldp	x20, x19, [sp, #336]
	ldp	x28, x21, [sp, #320]
	ldp	x29, x30, [sp, #304]
	add	sp, sp, #352
	ret
.LBB6c6885dc_14:
	ldr	q0, [sp, #96]
	ldur	w8, [x21, #65]
	ldr	w10, [sp, #132]
	ldp	x13, x12, [sp, #72]
	ldr	w11, [sp, #140]
	ldur	w14, [x21, #73]
	stur	q0, [x29, #-32]
	ldr	x9, [sp, #88]
	stur	w8, [x29, #-40]
	ldr	w8, [sp, #124]
	ldur	q0, [sp, #108]
	stur	w10, [x21, #203]
	ldrb	w15, [x20, #16]
	ldrb	w10, [sp, #136]
	stur	w11, [x21, #195]
	ldrb	w11, [sp, #128]
	stur	w14, [x29, #-48]
	and	x14, x13, #0xffffff0000000000
	stur	q0, [x21, #220]
	cbz	w15, .LBB6c6885dc_16
	ldp	x16, x1, [x20, #24]
	b	.LBB6c6885dc_17
.LBB6c6885dc_16:
	add	x16, x20, #20
	mov	w1, #8
.LBB6c6885dc_17:
	mov	x15, #-1
	and	x18, x13, #0xff00000000
	sub	x0, x29, #32
	lsl	x17, x15, x13
	and	x15, x12, #0xffffffff00000000
	mvn	x17, x17
.LBB6c6885dc_18:
	mov	w2, #1
	add	x16, x16, #4
	sub	x1, x2, x1
	b	.LBB6c6885dc_20
.LBB6c6885dc_19:
	add	x16, x16, #4
	add	x1, x1, #1
.LBB6c6885dc_20:
	cmp	x1, #1
	b.eq	.LBB6c6885dc_24
	ldur	w4, [x16, #-4]
	cbz	w4, .LBB6c6885dc_19
	and	w2, w4, w17
	lsr	w4, w4, #26
	and	x3, x2, #0x3ffffff
	ldrb	w2, [x9, x3]
	cmp	w2, w4
	b.hs	.LBB6c6885dc_19
	mov	x10, #4294967296
	mov	x14, xzr
	mov	w8, wzr
	cmp	x18, x10
	mov	w11, wzr
	strb	w4, [x9, x3]
	ccmp	w2, #0, #0, eq
	stur	xzr, [x0, #16]
	neg	x1, x1
	cset	w10, eq
	stur	wzr, [x0, #24]
	stur	wzr, [x29, #-40]
	sub	w12, w12, w10
	mov	w10, #1
	stur	wzr, [x21, #203]
	stur	wzr, [x29, #-48]
	stur	wzr, [x21, #195]
	b	.LBB6c6885dc_18
.LBB6c6885dc_24:
	ldur	w16, [x29, #-40]
	ldur	q0, [x29, #-32]
	and	x13, x13, #0xffffffffff
	ldur	w17, [x21, #203]
	orr	x13, x14, x13
	mov	w14, w12
	str	w16, [sp, #152]
	ldur	w16, [x29, #-48]
	lsr	x12, x9, #32
	stur	q0, [x29, #-144]
	ldur	q0, [x21, #220]
	orr	x14, x15, x14
	str	w16, [sp, #144]
	ldur	w16, [x21, #195]
	mov	w15, #4
	stur	w17, [x21, #91]
	stur	q0, [x21, #108]
	stur	w16, [x21, #83]
.LBB6c6885dc_25:
	ldur	q0, [x29, #-144]
	stp	w9, w12, [x19, #32]
	ldur	w9, [x21, #91]
	str	w8, [x19, #68]
	ldr	w8, [sp, #152]
	stur	q0, [x19, #40]
	ldur	q0, [x21, #108]
	stur	w8, [x19, #73]
	ldur	w8, [x21, #83]
	str	w9, [x19, #76]
	ldr	w9, [sp, #144]
	strh	wzr, [x19]
	stp	x15, x13, [x19, #8]
	str	x14, [x19, #24]
	stur	q0, [x19, #52]
	strb	w11, [x19, #72]
	strb	w10, [x19, #80]
	str	w8, [x19, #84]
	stur	w9, [x19, #81]
	str	xzr, [x19, #88]
	ldp	x20, x19, [sp, #336]
	ldp	x28, x21, [sp, #320]
	ldp	x29, x30, [sp, #304]
	add	sp, sp, #352
	ret
.Lfunc_end6c6885dc:
	.size	hll_sketch.promotion.mode_of_both.8a2f8b2564a2651f, .Lfunc_end6c6885dc-hll_sketch.promotion.mode_of_both.8a2f8b2564a2651f

	.section	.text.hll_sketch.union.HllUnion.merge_table.8a2f8b2564a2651f,"ax",@progbits
	.p2align	2
	.type	hll_sketch.union.HllUnion.merge_table.8a2f8b2564a2651f,@function
hll_sketch.union.HllUnion.merge_table.8a2f8b2564a2651f:
	sub	sp, sp, #192
	ldrb	w8, [x0, #16]
	stp	x20, x19, [sp, #176]
	mov	x19, x0
	stp	x29, x30, [sp, #96]
	add	x29, sp, #96
	cmp	w8, #1
	stp	x28, x27, [sp, #112]
	stp	x26, x25, [sp, #128]
	stp	x24, x23, [sp, #144]
	stp	x22, x21, [sp, #160]
	b.le	.LBBfede18fc_4
	cmp	w8, #2
	b.eq	.LBBfede18fc_5
	cmp	w8, #3
	b.ne	.LBBfede18fc_7
	ldp	x0, x8, [x19, #40]
	add	x8, x8, x8, lsl #1
	b	.LBBfede18fc_10
.LBBfede18fc_4:
	ldr	x8, [x19, #32]
	cbnz	x8, .LBBfede18fc_23
	b	.LBBfede18fc_11
.LBBfede18fc_5:
	ldrb	w8, [x19, #25]
	cbnz	w8, .LBBfede18fc_23
	ldrb	w8, [x19, #24]
	ldr	w10, [x19, #28]
	mov	w9, #1
	lsl	x8, x9, x8
	cmp	x8, x10
	b.eq	.LBBfede18fc_11
	b	.LBBfede18fc_23
.LBBfede18fc_7:
	ldrb	w8, [x19, #28]
	cmp	w8, #1
	b.ne	.LBBfede18fc_9
	ldrb	w8, [x19, #24]
	ldr	w10, [x19, #32]
	mov	w9, #1
	lsl	x8, x9, x8
	cmp	x8, x10
	b.eq	.LBBfede18fc_11
	b	.LBBfede18fc_23
.LBBfede18fc_9:
	ldp	x0, x8, [x19, #40]
.LBBfede18fc_10:
	mov	x20, x1
	mov	x1, x8
	mov	x21, x2
	bl	hll_kernels.kernels.all_zero
	mov	x2, x21
	mov	x1, x20
	tbz	w0, #0, .LBBfede18fc_23
.LBBfede18fc_11:
	ldurb	w8, [x19, #8]
	ldrb	w9, [x1]
	cmp	w8, w9
	b.ne	.LBBfede18fc_23
	ldrb	w23, [x1, #8]
	cbz	w23, .LBBfede18fc_25
	cmp	w23, #1
	b.ne	.LBBfede18fc_41
	ldp	x24, x25, [x1, #16]
	ldrb	w27, [x1, #32]
	cbz	w27, .LBBfede18fc_34
	ldp	x21, x26, [x1, #40]
	cbz	x26, .LBBfede18fc_36
	lsr	x8, x26, #61
	cbnz	x8, .LBBfede18fc_35
	lsl	x22, x26, #2
	mov	x28, x1
	mov	w1, #4
	mov	x0, x22
	bl	rattle_alloc
	tbz	w0, #0, .LBBfede18fc_35
	sub	x8, x1, x21
	mov	x20, x1
	cmp	x8, x22
	b.hs	.LBBfede18fc_37
	cmp	x26, #8
	mov	x8, xzr
	b.lo	.LBBfede18fc_40
	sub	x9, x20, x21
	mov	x1, x28
	cmp	x9, #32
	b.lo	.LBBfede18fc_46
	and	x8, x26, #0x1ffffffffffffff8
	add	x9, x21, #16
	add	x10, x20, #16
	and	x11, x26, #0x1ffffffffffffff8
.LBBfede18fc_22:
	ldp	q0, q1, [x9, #-16]
	subs	x11, x11, #8
	add	x9, x9, #32
	stp	q0, q1, [x10, #-16]
	add	x10, x10, #32
	b.ne	.LBBfede18fc_22
	b	.LBBfede18fc_45
.LBBfede18fc_23:
	add	x0, x19, #8
	mov	x1, x2
	bl	hll_sketch.sketch.HllSketch.add_table.8a2f8b2564a2651f
.LBBfede18fc_24:
	ldp	x20, x19, [sp, #176]
	ldp	x22, x21, [sp, #160]
	ldp	x24, x23, [sp, #144]
	ldp	x26, x25, [sp, #128]
	ldp	x28, x27, [sp, #112]
	ldp	x29, x30, [sp, #96]
	add	sp, sp, #192
	ret
.LBBfede18fc_25:
	ldp	x24, x25, [x1, #16]
	ldrb	w27, [x1, #32]
	cbz	w27, .LBBfede18fc_34
	ldp	x21, x26, [x1, #40]
	cbz	x26, .LBBfede18fc_36
	lsr	x8, x26, #61
	cbnz	x8, .LBBfede18fc_35
	lsl	x22, x26, #2
	mov	x28, x1
	mov	w1, #4
	mov	x0, x22
	bl	rattle_alloc
	tbz	w0, #0, .LBBfede18fc_35
	sub	x8, x1, x21
	mov	x20, x1
	cmp	x8, x22
	b.hs	.LBBfede18fc_37
	cmp	x26, #8
	mov	x8, xzr
	b.lo	.LBBfede18fc_39
	sub	x9, x20, x21
	mov	x1, x28
	cmp	x9, #32
	b.lo	.LBBfede18fc_42
	and	x8, x26, #0x1ffffffffffffff8
	add	x9, x21, #16
	add	x10, x20, #16
	and	x11, x26, #0x1ffffffffffffff8
.LBBfede18fc_33:
	ldp	q0, q1, [x9, #-16]
	subs	x11, x11, #8
	add	x9, x9, #32
	stp	q0, q1, [x10, #-16]
	add	x10, x10, #32
	b.ne	.LBBfede18fc_33
	b	.LBBfede18fc_43
.LBBfede18fc_34:
	ldp	x20, x26, [x1, #40]
	ldr	w8, [x1, #36]
	ldr	x10, [x1, #56]
	ldr	w9, [x1, #64]
	b	.LBBfede18fc_38
.LBBfede18fc_35:
	mov	w0, #1
	mov	w1, #12
	b	.LBBfede18fc_24
.LBBfede18fc_36:
	mov	x28, x1
	mov	x22, xzr
	sub	x20, x29, #4
.LBBfede18fc_37:
	mov	x0, x20
	mov	x1, x21
	mov	x2, x22
	bl	memmove
	mov	w8, wzr
	mov	w9, wzr
	mov	x10, x26
	mov	x1, x28
.LBBfede18fc_38:
	ldur	q0, [x19, #40]
	ldur	q1, [x19, #56]
	mov	x0, sp
	ldrb	w11, [x1]
	stp	w27, w8, [x19, #40]
	mov	w8, #2
	stur	q0, [sp, #24]
	ldur	q0, [x19, #72]
	stur	q1, [sp, #40]
	ldur	q1, [x19, #88]
	stur	q0, [sp, #56]
	ldur	q0, [x19, #24]
	strb	w11, [x19, #8]
	ldrb	w11, [x19, #16]
	stur	q1, [sp, #72]
	stur	q0, [sp, #8]
	stp	x23, x24, [x19, #16]
	str	x25, [x19, #32]
	stp	x20, x26, [x19, #48]
	str	x10, [x19, #64]
	stp	w9, wzr, [x19, #72]
	strb	w8, [x19, #80]
	stur	xzr, [x19, #89]
	stur	xzr, [x19, #81]
	str	xzr, [x19, #96]
	str	x11, [sp]
	bl	hll_sketch.mode.Mode.drop.309f015d8caa795c
	mov	w1, wzr
	mov	w0, wzr
	b	.LBBfede18fc_24
.LBBfede18fc_39:
	mov	x1, x28
	b	.LBBfede18fc_42
.LBBfede18fc_40:
	mov	x1, x28
	b	.LBBfede18fc_46
.LBBfede18fc_41:
	brk	#0x1
.LBBfede18fc_42:
	ldr	w9, [x21, x8, lsl #2]
	str	w9, [x20, x8, lsl #2]
	add	x8, x8, #1
.LBBfede18fc_43:
	cmp	x26, x8
	b.ne	.LBBfede18fc_42
.LBBfede18fc_44:
	mov	w8, wzr
	mov	w9, wzr
	mov	x10, x26
	b	.LBBfede18fc_38
.LBBfede18fc_45:
	cmp	x26, x8
	b.eq	.LBBfede18fc_44
.LBBfede18fc_46:
	ldr	w9, [x21, x8, lsl #2]
	str	w9, [x20, x8, lsl #2]
	add	x8, x8, #1
	b	.LBBfede18fc_45
.Lfunc_endfede18fc:
	.size	hll_sketch.union.HllUnion.merge_table.8a2f8b2564a2651f, .Lfunc_endfede18fc-hll_sketch.union.HllUnion.merge_table.8a2f8b2564a2651f

	.section	.text.hll_sketch.register_folds.fold_of_registers.64a1999876867b1f,"ax",@progbits
	.p2align	2
	.type	hll_sketch.register_folds.fold_of_registers.64a1999876867b1f,@function
hll_sketch.register_folds.fold_of_registers.64a1999876867b1f:
	stp	x29, x30, [sp, #-96]!
	and	w8, w1, #0xff
	stp	x20, x19, [sp, #80]
	mov	x19, x0
	cmp	w8, #63
	stp	x28, x27, [sp, #16]
	mov	x29, sp
	stp	x26, x25, [sp, #32]
	stp	x24, x23, [sp, #48]
	stp	x22, x21, [sp, #64]
	b.eq	.LBB1d7d7387_4
	mov	w20, w1
	mov	w8, #1
	mov	w1, #1
	lsl	x21, x8, x20
	mov	x22, x2
	mov	x0, x21
	bl	rattle_alloc
	tbz	w0, #0, .LBB1d7d7387_4
	mov	x23, x1
	tst	w20, #0xff
	b.eq	.LBB1d7d7387_5
	sub	x2, x21, #1
	mov	x0, x23
	mov	w1, wzr
	sub	x26, x21, #1
	bl	memset
	strb	wzr, [x23, x26]
	and	w9, w20, #0xff
	add	x24, x26, #1
	ldrb	w8, [x22]
	cmp	w9, #13
	b.ls	.LBB1d7d7387_6
	b	.LBB1d7d7387_10
.LBB1d7d7387_4:
	movi	v0.2d, #0000000000000000
	mov	w8, #3073
	str	xzr, [x19, #72]
	strh	w8, [x19]
	stur	q0, [x19, #8]
	stur	q0, [x19, #24]
	stur	q0, [x19, #40]
	stur	q0, [x19, #56]
	b	.LBB1d7d7387_13
.LBB1d7d7387_5:
	mov	x26, xzr
	strb	wzr, [x23, xzr]
	and	w9, w20, #0xff
	add	x24, x26, #1
	ldrb	w8, [x22]
	cmp	w9, #13
	b.hi	.LBB1d7d7387_10
.LBB1d7d7387_6:
	cmp	w8, #15
	b.lo	.LBB1d7d7387_10
	ldrb	w9, [x22, #32]
	cmp	w9, #1
	b.ne	.LBB1d7d7387_10
	ldr	x9, [x22, #40]
	mov	w10, #4
	ldr	x9, [x9, #8]
	lsl	x9, x10, x9
	cmp	x9, #2, lsl #12
	b.ls	.LBB1d7d7387_10
	mov	x0, x23
	mov	x1, x24
	mov	w2, w20
	mov	x3, x22
	bl	hll_registers.folds.max_by_stages.8fbc67663473d8ac
	b	.LBB1d7d7387_12
.LBB1d7d7387_10:
	sub	w8, w8, w20
	mov	w25, wzr
	add	w26, w26, #1
	and	x27, x8, #0xff
	mov	w28, #1
.LBB1d7d7387_11:
	ldr	x3, [x22, #8]
	ldrb	w5, [x22, #1]
	add	x4, x22, #32
	mov	x0, x23
	mov	x1, x24
	mov	w2, w25
	bl	hll_registers.exception_map.max_with_registers.309f015d8caa795c
	lsr	x8, x28, x27
	add	x28, x28, #1
	add	w25, w25, w26
	cbz	x8, .LBB1d7d7387_11
.LBB1d7d7387_12:
	mov	w8, #1
	strh	wzr, [x19]
	strb	w20, [x19, #8]
	stur	xzr, [x19, #9]
	stp	xzr, x23, [x19, #16]
	stp	x24, x21, [x19, #32]
	stp	xzr, xzr, [x19, #56]
	str	xzr, [x19, #48]
	strb	w8, [x19, #72]
	stur	wzr, [x19, #73]
	str	wzr, [x19, #76]
.LBB1d7d7387_13:
	ldp	x20, x19, [sp, #80]
	ldp	x22, x21, [sp, #64]
	ldp	x24, x23, [sp, #48]
	ldp	x26, x25, [sp, #32]
	ldp	x28, x27, [sp, #16]
	ldp	x29, x30, [sp], #96
	ret
.Lfunc_end1d7d7387:
	.size	hll_sketch.register_folds.fold_of_registers.64a1999876867b1f, .Lfunc_end1d7d7387-hll_sketch.register_folds.fold_of_registers.64a1999876867b1f

	.section	.text.hll_sketch.folding.fold_of.8a2f8b2564a2651f,"ax",@progbits
	.p2align	2
	.type	hll_sketch.folding.fold_of.8a2f8b2564a2651f,@function
hll_sketch.folding.fold_of.8a2f8b2564a2651f:
	sub	sp, sp, #256
	movi	v0.2d, #0000000000000000
	mov	x8, x1
	stp	x20, x19, [sp, #240]
	ldrb	w9, [x8], #8
	mov	x19, x0
	stp	x29, x30, [sp, #160]
	add	x29, sp, #160
	cmp	w9, #1
	str	x27, [sp, #176]
	stp	x26, x25, [sp, #192]
	stp	x24, x23, [sp, #208]
	stp	x22, x21, [sp, #224]
	stp	q0, q0, [sp, #16]
	stp	q0, q0, [sp, #48]
	str	q0, [sp]
	b.le	.LBB7dc03b29_7
	cmp	w9, #2
	b.eq	.LBB7dc03b29_8
	cmp	w9, #3
	b.ne	.LBB7dc03b29_9
	and	w9, w2, #0xff
	cmp	w9, #63
	b.eq	.LBB7dc03b29_13
	mov	w9, #1
	mov	w1, #1
	mov	x23, x2
	lsl	x20, x9, x2
	mov	x24, x8
	mov	x0, x20
	bl	rattle_alloc
	tbz	w0, #0, .LBB7dc03b29_13
	mov	x9, x23
	sub	x21, x29, #72
	tst	w9, #0xff
	b.eq	.LBB7dc03b29_15
	sub	x2, x20, #1
	mov	x0, x1
	mov	x25, x1
	mov	w1, wzr
	sub	x22, x20, #1
	bl	memset
	mov	x1, x25
	mov	x8, x24
	mov	x9, x23
	b	.LBB7dc03b29_16
.LBB7dc03b29_7:
	mov	x0, sp
	mov	w1, w2
	mov	x2, x8
	mov	w3, wzr
	mov	w4, wzr
	bl	hll_sketch.promotion.registers_of_table.c04436f960e64b83
	b	.LBB7dc03b29_18
.LBB7dc03b29_8:
	mov	x0, sp
	mov	w1, w2
	mov	x2, x8
	bl	hll_sketch.register_folds.fold_of_registers.64a1999876867b1f
	b	.LBB7dc03b29_18
.LBB7dc03b29_9:
	and	w8, w2, #0xff
	cmp	w8, #63
	b.eq	.LBB7dc03b29_14
	mov	w8, w2
	mov	w9, #1
	mov	x20, x1
	lsl	x21, x9, x8
	mov	w1, #1
	mov	x24, x2
	mov	x0, x21
	bl	rattle_alloc
	tbz	w0, #0, .LBB7dc03b29_14
	mov	x8, x24
	mov	x22, x1
	tst	w8, #0xff
	b.eq	.LBB7dc03b29_19
	sub	x2, x21, #1
	mov	x0, x22
	mov	w1, wzr
	sub	x23, x21, #1
	bl	memset
	mov	x8, x24
	b	.LBB7dc03b29_20
.LBB7dc03b29_13:
	movi	v0.2d, #0000000000000000
	mov	w8, #12
	mov	w9, #1
	str	xzr, [sp, #72]
	stur	q0, [sp, #56]
	stur	q0, [sp, #40]
	stur	q0, [sp, #24]
	stur	q0, [sp, #8]
	b	.LBB7dc03b29_17
.LBB7dc03b29_14:
	movi	v0.2d, #0000000000000000
	mov	w8, #3073
	str	xzr, [sp, #72]
	strh	w8, [sp]
	stur	q0, [sp, #8]
	stur	q0, [sp, #24]
	stur	q0, [sp, #40]
	stur	q0, [sp, #56]
	b	.LBB7dc03b29_18
.LBB7dc03b29_15:
	mov	x8, x24
	mov	x22, xzr
.LBB7dc03b29_16:
	add	x10, x22, #1
	strb	wzr, [x1, x22]
	sub	x0, x29, #72
	sturb	w9, [x29, #-72]
	mov	w9, #1
	stp	x1, x10, [x29, #-56]
	mov	x1, x8
	sturh	wzr, [x29, #-71]
	sturb	wzr, [x29, #-69]
	stp	w9, w20, [x29, #-68]
	stur	wzr, [x29, #-60]
	stp	x20, xzr, [x29, #-40]
	stp	xzr, xzr, [x29, #-24]
	sturb	w9, [x29, #-8]
	stur	wzr, [x21, #65]
	stur	wzr, [x29, #-4]
	bl	hll_arrays.merge.merge_from.dd8a39ea15bd038f
	ldur	q0, [x29, #-56]
	ldur	q1, [x29, #-40]
	mov	w9, wzr
	ldr	q2, [x21, #48]
	ldur	q3, [x29, #-72]
	mov	w8, wzr
	ldur	x10, [x29, #-8]
	stur	q0, [sp, #24]
	stur	q1, [sp, #40]
	stur	q2, [sp, #56]
	str	x10, [sp, #72]
	stur	q3, [sp, #8]
.LBB7dc03b29_17:
	strb	w9, [sp]
	strb	w8, [sp, #1]
.LBB7dc03b29_18:
	ldrh	w8, [sp]
	ldur	q0, [sp, #24]
	ldur	q1, [sp, #40]
	ldur	q2, [sp, #56]
	ldr	x27, [sp, #176]
	strh	w8, [x19]
	ldr	x8, [sp, #72]
	stur	q0, [x19, #24]
	ldur	q0, [sp, #8]
	stur	q1, [x19, #40]
	ldp	x22, x21, [sp, #224]
	stur	q2, [x19, #56]
	ldp	x24, x23, [sp, #208]
	str	x8, [x19, #72]
	ldp	x26, x25, [sp, #192]
	stur	q0, [x19, #8]
	ldp	x20, x19, [sp, #240]
	ldp	x29, x30, [sp, #160]
	add	sp, sp, #256
	ret
.LBB7dc03b29_19:
	mov	x23, xzr
.LBB7dc03b29_20:
	strb	wzr, [x22, x23]
	mov	x25, xzr
	add	x23, x23, #1
	ldrb	w9, [x20, #8]
	mov	w27, #1
	sub	w8, w9, w8
	and	x26, x8, #0xff
.LBB7dc03b29_21:
	ldr	x8, [x20, #24]
	mov	x0, x22
	mov	x1, x23
	mov	x3, x23
	add	x2, x8, w25, uxtw
	bl	hll_kernels.kernels.max_into
	lsr	x8, x27, x26
	add	x27, x27, #1
	add	x25, x25, x23
	cbz	x8, .LBB7dc03b29_21
	mov	w8, #1
	strh	wzr, [sp]
	strb	w24, [sp, #8]
	stur	xzr, [sp, #9]
	stp	xzr, x22, [sp, #16]
	stp	x23, x21, [sp, #32]
	stp	xzr, xzr, [sp, #56]
	str	xzr, [sp, #48]
	strb	w8, [sp, #72]
	stur	wzr, [sp, #73]
	str	wzr, [sp, #76]
	b	.LBB7dc03b29_18
.Lfunc_end7dc03b29:
	.size	hll_sketch.folding.fold_of.8a2f8b2564a2651f, .Lfunc_end7dc03b29-hll_sketch.folding.fold_of.8a2f8b2564a2651f

	.section	.rodata.cst8,"aM",@progbits,8
	.p2align	3, 0x0
.LCPIae8feccb_0:
	.byte	0
	.byte	1
	.byte	2
	.byte	4
	.byte	5
	.byte	6
	.byte	8
	.byte	9
	.section	.text.hll_sketch.mode.array_into_mode.8a2f8b2564a2651f,"ax",@progbits
	.p2align	2
	.type	hll_sketch.mode.array_into_mode.8a2f8b2564a2651f,@function
hll_sketch.mode.array_into_mode.8a2f8b2564a2651f:
	sub	sp, sp, #240
	ldrb	w8, [x1, #71]
	ldurh	w9, [x1, #69]
	stp	x26, x25, [sp, #176]
	stp	x24, x23, [sp, #192]
	ldr	w11, [x1]
	ldrb	w13, [x1, #64]
	orr	w8, w9, w8, lsl #16
	ldur	w9, [x1, #65]
	stp	x28, x27, [sp, #160]
	stp	x20, x19, [sp, #224]
	mov	x19, x0
	ldp	x14, x23, [x1, #16]
	orr	x28, x9, x8, lsl #32
	ldp	x10, x12, [x1, #32]
	ands	w8, w2, #0xff
	ldp	x26, x25, [x1, #48]
	stp	x29, x30, [sp, #144]
	add	x29, sp, #144
	stp	x22, x21, [sp, #208]
	b.eq	.LBBae8feccb_8
	cmp	w8, #1
	b.ne	.LBBae8feccb_10
	lsr	x21, x23, #2
	str	x14, [sp, #48]
	cbz	x21, .LBBae8feccb_11
	mov	x8, #-6148914691236517206
	movk	x8, #43691
	cmp	x23, x8
	b.hi	.LBBae8feccb_24
	add	x24, x21, x21, lsl #1
	mov	w1, #1
	str	w13, [sp, #8]
	str	x12, [sp, #16]
	mov	w20, #1
	mov	x0, x24
	str	w11, [sp, #24]
	str	x10, [sp, #32]
	bl	rattle_alloc
	tbz	w0, #0, .LBBae8feccb_26
	subs	x20, x21, #1
	b.eq	.LBBae8feccb_7
	sub	x2, x24, #3
	mov	x0, x1
	mov	x22, x1
	mov	w1, wzr
	bl	memset
	mov	x1, x22
.LBBae8feccb_7:
	add	x8, x20, x20, lsl #1
	ldr	x14, [sp, #48]
	add	x22, x20, #1
	add	x8, x1, x8
	strh	wzr, [x8]
	strb	wzr, [x8, #2]
	b	.LBBae8feccb_12
.LBBae8feccb_8:
	movi	v0.2d, #0000000000000000
	sub	x0, x29, #64
	mov	w1, w11
	mov	x2, x14
	mov	x3, x23
	mov	w22, w13
	mov	x21, x12
	str	x10, [sp, #32]
	stur	xzr, [x29, #-16]
	stp	q0, q0, [x29, #-48]
	stur	q0, [x29, #-64]
	str	x14, [sp, #48]
	bl	hll_registers.nibble_registers.NibbleRegisters.from_values.8a2f8b2564a2651f
	ldurb	w8, [x29, #-64]
	cbz	w8, .LBBae8feccb_23
	ldurb	w17, [x29, #-63]
	ldr	x10, [sp, #32]
	mov	x13, xzr
	mov	x27, xzr
	mov	x24, xzr
	stp	xzr, xzr, [sp, #64]
	mov	w1, wzr
	mov	w0, wzr
	mov	w11, wzr
	mov	w15, wzr
	mov	x14, xzr
	mov	x9, xzr
	mov	x12, xzr
	mov	w8, wzr
	mov	w16, wzr
	movi	v0.2d, #0000000000000000
	mov	w20, #1
	cbnz	x10, .LBBae8feccb_25
	b	.LBBae8feccb_27
.LBBae8feccb_10:
	ldr	w15, [x1, #12]
	ldur	d0, [x1, #4]
	mov	x27, xzr
	mov	w20, wzr
	mov	w17, wzr
	mov	w16, wzr
	lsr	x24, x25, #8
	mov	w0, #4
	b	.LBBae8feccb_29
.LBBae8feccb_11:
	str	w13, [sp, #8]
	mov	x22, xzr
	sub	x1, x29, #1
	str	x12, [sp, #16]
	str	w11, [sp, #24]
	str	x10, [sp, #32]
.LBBae8feccb_12:
	lsr	x8, x23, #4
	cbz	x8, .LBBae8feccb_15
	add	x9, x1, #8
	mov	x10, x14
	mov	x11, x8
.LBBae8feccb_14:
	ldr	q0, [x10], #16
	movi	v1.4s, #63
	mov	w12, #4032
	mov	w13, #258048
	movi	v2.4s, #252, lsl #16
	dup	v3.4s, w12
	ushr	v4.4s, v0.4s, #2
	ushr	v5.4s, v0.4s, #4
	dup	v6.4s, w13
	ushr	v7.4s, v0.4s, #6
	subs	x11, x11, #1
	and	v0.16b, v0.16b, v1.16b
	and	v1.16b, v4.16b, v3.16b
	and	v3.16b, v5.16b, v6.16b
	and	v2.16b, v7.16b, v2.16b
	orr	v0.16b, v1.16b, v0.16b
	orr	v1.16b, v2.16b, v3.16b
	orr	v0.16b, v0.16b, v1.16b
	umov	w12, v0.b[10]
	umov	w13, v0.b[12]
	fmov	s1, w12
	umov	w12, v0.b[13]
	mov	v1.h[1], w13
	umov	w13, v0.b[14]
	mov	v1.h[2], w12
	adrp	x12, .LCPIae8feccb_0
	ldr	d2, [x12, :lo12:.LCPIae8feccb_0]
	tbl	v0.8b, { v0.16b }, v2.8b
	mov	v1.h[3], w13
	stur	d0, [x9, #-8]
	xtn	v1.8b, v1.8h
	str	s1, [x9], #12
	b.ne	.LBBae8feccb_14
.LBBae8feccb_15:
	ubfx	x10, x23, #2, #2
	cbz	x10, .LBBae8feccb_19
	and	x9, x23, #0xfffffffffffffff0
	mov	w13, #12
	cmp	x10, #1
	add	x9, x14, x9
	madd	x8, x8, x13, x1
	ldr	w11, [x9]
	lsr	w12, w11, #2
	lsr	w13, w11, #4
	and	w12, w12, #0x3fc0
	and	w13, w13, #0xff000
	add	w12, w12, w11, uxtb
	lsr	w11, w11, #6
	add	w13, w12, w13
	and	w11, w11, #0xfc0000
	strb	w12, [x8]
	add	w11, w13, w11
	lsr	w13, w13, #8
	lsr	w11, w11, #16
	strb	w13, [x8, #1]
	strb	w11, [x8, #2]
	b.eq	.LBBae8feccb_19
	ldr	w11, [x9, #4]
	cmp	x10, #2
	lsr	w12, w11, #2
	lsr	w13, w11, #4
	and	w12, w12, #0x3fc0
	and	w13, w13, #0xff000
	add	w12, w12, w11, uxtb
	lsr	w11, w11, #6
	add	w13, w12, w13
	and	w11, w11, #0xfc0000
	strb	w12, [x8, #3]
	add	w11, w13, w11
	lsr	w13, w13, #8
	lsr	w11, w11, #16
	strb	w13, [x8, #4]
	strb	w11, [x8, #5]
	b.eq	.LBBae8feccb_19
	ldr	w9, [x9, #8]
	lsr	w10, w9, #2
	lsr	w11, w9, #4
	and	w10, w10, #0x3fc0
	and	w11, w11, #0xff000
	add	w10, w10, w9, uxtb
	lsr	w9, w9, #6
	add	w11, w10, w11
	and	w9, w9, #0xfc0000
	strb	w10, [x8, #6]
	add	w9, w11, w9
	lsr	w11, w11, #8
	lsr	w9, w9, #16
	strb	w11, [x8, #7]
	strb	w9, [x8, #8]
.LBBae8feccb_19:
	lsr	x20, x23, #13
	stp	x21, x26, [sp, #64]
	mov	x21, xzr
	str	x1, [sp, #40]
	cbz	x20, .LBBae8feccb_22
	mov	x24, x14
.LBBae8feccb_21:
	mov	x0, x24
	mov	w1, #8192
	bl	hll_kernels.kernels.zeros_in
	subs	x20, x20, #1
	add	x21, x0, x21
	add	x24, x24, #2, lsl #12
	b.ne	.LBBae8feccb_21
.LBBae8feccb_22:
	ldr	x9, [sp, #48]
	and	x8, x23, #0xffffffffffffe000
	and	x1, x23, #0x1fff
	lsr	x24, x25, #8
	add	x0, x9, x8
	bl	hll_kernels.kernels.zeros_in
	movi	v0.2s, #1
	add	w8, w0, w21
	ldr	w11, [sp, #24]
	ldp	x10, x14, [sp, #32]
	ldr	x12, [sp, #16]
	mov	x27, xzr
	mov	w20, wzr
	mov	w17, wzr
	mov	w15, wzr
	mov	w16, wzr
	and	w11, w11, #0xff
	mov	v0.s[1], w8
	ldr	w8, [sp, #8]
	mov	w0, #3
	mov	x13, x28
	mov	w1, w25
	mov	x9, x22
	cbnz	x10, .LBBae8feccb_25
	b	.LBBae8feccb_27
.LBBae8feccb_23:
	ldp	x8, x12, [x29, #-24]
	mov	w20, wzr
	ldp	x14, x9, [x29, #-40]
	mov	w17, wzr
	ldur	w11, [x29, #-56]
	ldur	d0, [x29, #-52]
	lsr	x13, x25, #8
	ldur	w15, [x29, #-44]
	ldr	x10, [sp, #32]
	mov	w1, w26
	lsr	x24, x26, #8
	stp	x8, x21, [sp, #64]
	mov	w0, #2
	mov	x27, x28
	mov	w8, w25
	mov	w16, w22
	cbnz	x10, .LBBae8feccb_25
	b	.LBBae8feccb_27
.LBBae8feccb_24:
	mov	x13, xzr
	mov	x27, xzr
	mov	x24, xzr
	stp	xzr, xzr, [sp, #64]
	mov	w1, wzr
	mov	w0, wzr
	mov	w11, wzr
	mov	w15, wzr
	mov	x14, xzr
	mov	x9, xzr
	mov	x12, xzr
	mov	w8, wzr
	mov	w16, wzr
	movi	v0.2d, #0000000000000000
	mov	w17, #12
	mov	w20, #1
	cbz	x10, .LBBae8feccb_27
.LBBae8feccb_25:
	mov	w23, w0
	ldr	x0, [sp, #48]
	mov	w25, w11
	mov	x28, x12
	str	x14, [sp, #40]
	mov	x21, x20
	str	x9, [sp, #24]
	mov	w20, w15
	mov	w26, w16
	mov	x22, x24
	mov	w24, w17
	str	q0, [sp, #48]
	str	x13, [sp, #8]
	str	w1, [sp, #16]
	str	w8, [sp, #32]
	bl	rattle_dealloc
	mov	w0, w23
	ldr	q0, [sp, #48]
	mov	x12, x28
	mov	w11, w25
	ldr	x28, [sp, #8]
	ldr	w25, [sp, #16]
	ldr	x14, [sp, #40]
	ldr	x23, [sp, #24]
	ldr	x10, [sp, #64]
	ldr	w13, [sp, #32]
	mov	w17, w24
	mov	x24, x22
	mov	w16, w26
	mov	w15, w20
	mov	x20, x21
	b	.LBBae8feccb_28
.LBBae8feccb_26:
	ldr	x10, [sp, #32]
	mov	x13, xzr
	mov	x27, xzr
	mov	x24, xzr
	stp	xzr, xzr, [sp, #64]
	mov	w1, wzr
	mov	w0, wzr
	mov	w11, wzr
	mov	w15, wzr
	mov	x14, xzr
	mov	x9, xzr
	mov	x12, xzr
	mov	w8, wzr
	mov	w16, wzr
	movi	v0.2d, #0000000000000000
	mov	w17, #12
	cbnz	x10, .LBBae8feccb_25
.LBBae8feccb_27:
	ldr	x10, [sp, #64]
	mov	x28, x13
	mov	w25, w1
	mov	x23, x9
	mov	w13, w8
.LBBae8feccb_28:
	ldr	x26, [sp, #72]
.LBBae8feccb_29:
	mov	w8, w0
	lsr	x9, x24, #32
	strb	w20, [x19]
	str	x8, [x19, #8]
	lsr	x8, x24, #48
	sturh	w9, [x19, #77]
	lsr	x9, x28, #32
	strb	w8, [x19, #79]
	lsr	x8, x28, #48
	sturh	w9, [x19, #85]
	lsr	x9, x27, #32
	strb	w8, [x19, #87]
	lsr	x8, x27, #48
	strb	w17, [x19, #1]
	ldp	x22, x21, [sp, #208]
	str	w11, [x19, #16]
	ldp	x29, x30, [sp, #144]
	stur	d0, [x19, #20]
	str	w15, [x19, #28]
	stp	x14, x23, [x19, #32]
	stp	x10, x12, [x19, #48]
	str	x26, [x19, #64]
	strb	w25, [x19, #72]
	ldp	x26, x25, [sp, #176]
	stur	w24, [x19, #73]
	ldp	x24, x23, [sp, #192]
	strb	w13, [x19, #80]
	stur	w28, [x19, #81]
	strb	w16, [x19, #88]
	stur	w27, [x19, #89]
	ldp	x28, x27, [sp, #160]
	strb	w8, [x19, #95]
	sturh	w9, [x19, #93]
	ldp	x20, x19, [sp, #224]
	add	sp, sp, #240
	ret
.Lfunc_endae8feccb:
	.size	hll_sketch.mode.array_into_mode.8a2f8b2564a2651f, .Lfunc_endae8feccb-hll_sketch.mode.array_into_mode.8a2f8b2564a2651f

	.section	.text.hll_kernels.kernels.zeros_in,"ax",@progbits
	.p2align	2
	.type	hll_kernels.kernels.zeros_in,@function
hll_kernels.kernels.zeros_in:
	movi	v2.2d, #0000000000000000
	movi	v3.2d, #0000000000000000
	lsr	x9, x1, #6
	movi	v1.2d, #0000000000000000
	movi	v0.2d, #0000000000000000
	and	x8, x1, #0x3f
	cbz	x9, .LBB5d47c0fe_3
	mov	x10, x0
.LBB5d47c0fe_2:
	ldp	q5, q4, [x10, #16]
	subs	x9, x9, #1
	ldr	q6, [x10]
	ldr	q7, [x10, #48]
	add	x10, x10, #64
	cmeq	v4.16b, v4.16b, #0
	cmeq	v7.16b, v7.16b, #0
	cmeq	v6.16b, v6.16b, #0
	cmeq	v5.16b, v5.16b, #0
	sub	v1.16b, v1.16b, v4.16b
	sub	v2.16b, v2.16b, v6.16b
	sub	v0.16b, v0.16b, v7.16b
	sub	v3.16b, v3.16b, v5.16b
	b.ne	.LBB5d47c0fe_2
.LBB5d47c0fe_3:
	cbz	x8, .LBB5d47c0fe_6
	cmp	x8, #4
	and	x9, x1, #0xffffffffffffffc0
	b.hs	.LBB5d47c0fe_7
	mov	x12, xzr
	mov	x10, xzr
	b	.LBB5d47c0fe_16
.LBB5d47c0fe_6:
	mov	x12, xzr
	b	.LBB5d47c0fe_18
.LBB5d47c0fe_7:
	cmp	x8, #16
	b.hs	.LBB5d47c0fe_9
	mov	x10, xzr
	mov	x12, xzr
	b	.LBB5d47c0fe_13
.LBB5d47c0fe_9:
	movi	v4.2d, #0000000000000000
	movi	v5.2d, #0000000000000000
	add	x12, x9, x0
	movi	v7.2d, #0000000000000000
	movi	v6.2d, #0000000000000000
	and	x11, x1, #0xc
	movi	v16.2d, #0000000000000000
	movi	v17.2d, #0000000000000000
	and	x10, x1, #0x30
	movi	v18.2d, #0000000000000000
	movi	v19.2d, #0000000000000000
	add	x12, x12, #8
	and	x13, x1, #0x30
.LBB5d47c0fe_10:
	ldp	d20, d21, [x12, #-8]
	mov	w14, #1
	dup	v24.2d, x14
	subs	x13, x13, #16
	add	x12, x12, #16
	cmeq	v20.8b, v20.8b, #0
	cmeq	v21.8b, v21.8b, #0
	ushll	v20.8h, v20.8b, #0
	ushll	v21.8h, v21.8b, #0
	ushll2	v22.4s, v20.8h, #0
	ushll	v20.4s, v20.4h, #0
	ushll2	v23.4s, v21.8h, #0
	ushll	v21.4s, v21.4h, #0
	ushll	v25.2d, v22.2s, #0
	ushll2	v22.2d, v22.4s, #0
	ushll	v26.2d, v20.2s, #0
	ushll2	v20.2d, v20.4s, #0
	ushll2	v27.2d, v23.4s, #0
	ushll	v28.2d, v21.2s, #0
	ushll2	v21.2d, v21.4s, #0
	ushll	v23.2d, v23.2s, #0
	and	v25.16b, v25.16b, v24.16b
	and	v22.16b, v22.16b, v24.16b
	and	v26.16b, v26.16b, v24.16b
	and	v20.16b, v20.16b, v24.16b
	and	v27.16b, v27.16b, v24.16b
	and	v28.16b, v28.16b, v24.16b
	and	v21.16b, v21.16b, v24.16b
	and	v23.16b, v23.16b, v24.16b
	add	v16.2d, v16.2d, v22.2d
	add	v6.2d, v6.2d, v25.2d
	add	v5.2d, v5.2d, v26.2d
	add	v7.2d, v7.2d, v20.2d
	add	v19.2d, v19.2d, v27.2d
	add	v17.2d, v17.2d, v28.2d
	add	v18.2d, v18.2d, v23.2d
	add	v4.2d, v4.2d, v21.2d
	b.ne	.LBB5d47c0fe_10
	add	v4.2d, v4.2d, v7.2d
	add	v7.2d, v19.2d, v16.2d
	cmp	x8, x10
	add	v5.2d, v17.2d, v5.2d
	add	v6.2d, v18.2d, v6.2d
	add	v4.2d, v4.2d, v7.2d
	add	v5.2d, v5.2d, v6.2d
	add	v4.2d, v5.2d, v4.2d
	addp	d4, v4.2d
	fmov	x12, d4
	b.eq	.LBB5d47c0fe_18
	cbz	x11, .LBB5d47c0fe_16
.LBB5d47c0fe_13:
	movi	v4.2d, #0000000000000000
	movi	v5.2d, #0000000000000000
	mov	x11, x10
	and	x10, x1, #0x3c
	mov	v4.d[0], x12
	add	x12, x11, x9
	sub	x11, x11, x10
	add	x12, x0, x12
.LBB5d47c0fe_14:
	ldr	s6, [x12], #4
	mov	w13, #1
	dup	v16.2d, x13
	adds	x11, x11, #4
	ushll	v6.8h, v6.8b, #0
	cmeq	v6.4h, v6.4h, #0
	ushll	v6.4s, v6.4h, #0
	ushll	v7.2d, v6.2s, #0
	ushll2	v6.2d, v6.4s, #0
	and	v7.16b, v7.16b, v16.16b
	and	v6.16b, v6.16b, v16.16b
	add	v5.2d, v5.2d, v6.2d
	add	v4.2d, v4.2d, v7.2d
	b.ne	.LBB5d47c0fe_14
	add	v4.2d, v4.2d, v5.2d
	cmp	x8, x10
	addp	d4, v4.2d
	fmov	x12, d4
	b.eq	.LBB5d47c0fe_18
.LBB5d47c0fe_16:
	add	x9, x10, x9
	sub	x8, x8, x10
	add	x9, x0, x9
.LBB5d47c0fe_17:
	ldrb	w10, [x9], #1
	cmp	w10, #0
	cinc	x12, x12, eq
	subs	x8, x8, #1
	b.ne	.LBB5d47c0fe_17
.LBB5d47c0fe_18:
	ushll	v4.8h, v2.8b, #0
	ushll2	v2.8h, v2.16b, #0
	ushll	v5.8h, v3.8b, #0
	ushll2	v3.8h, v3.16b, #0
	addp	v2.8h, v4.8h, v2.8h
	ushll	v4.8h, v1.8b, #0
	ushll2	v1.8h, v1.16b, #0
	addp	v3.8h, v5.8h, v3.8h
	ushll	v5.8h, v0.8b, #0
	ushll2	v0.8h, v0.16b, #0
	addp	v1.8h, v4.8h, v1.8h
	uaddlp	v2.4s, v2.8h
	addp	v0.8h, v5.8h, v0.8h
	uaddlp	v3.4s, v3.8h
	uadalp	v2.4s, v1.8h
	uadalp	v3.4s, v0.8h
	add	v0.4s, v2.4s, v3.4s
	addv	s0, v0.4s
	fmov	w8, s0
	add	x0, x12, x8
	ret
.Lfunc_end5d47c0fe:
	.size	hll_kernels.kernels.zeros_in, .Lfunc_end5d47c0fe-hll_kernels.kernels.zeros_in

	.section	.text.hll_sketch.folding.mode_of_coupons.8a2f8b2564a2651f,"ax",@progbits
	.p2align	2
	.type	hll_sketch.folding.mode_of_coupons.8a2f8b2564a2651f,@function
hll_sketch.folding.mode_of_coupons.8a2f8b2564a2651f:
	sub	sp, sp, #352
	movi	v0.2d, #0000000000000000
	ldr	x8, [x3, #8]
	stp	x22, x21, [sp, #320]
	stp	x20, x19, [sp, #336]
	mov	w20, w2
	mov	x19, x0
	cmp	x8, #8
	add	x22, sp, #96
	stp	x29, x30, [sp, #256]
	stp	x28, x27, [sp, #272]
	add	x29, sp, #256
	stp	x26, x25, [sp, #288]
	stp	x24, x23, [sp, #304]
	stp	q0, q0, [sp]
	stp	q0, q0, [sp, #32]
	stp	q0, q0, [sp, #64]
	stp	q0, q0, [sp, #96]
	stp	q0, q0, [sp, #128]
	stp	q0, q0, [sp, #160]
	b.hs	.LBB244be253_3
.LBB244be253_1:
	mov	w8, #3
	sub	x9, x29, #56
	stur	xzr, [x29, #-8]
	stur	x8, [x29, #-56]
	ldrb	w8, [x3, #16]
	stp	q0, q0, [x22, #112]
	stur	q0, [x22, #140]
	cbz	w8, .LBB244be253_8
	ldp	x23, x8, [x3, #24]
	b	.LBB244be253_9
.LBB244be253_3:
	add	w9, w1, #1
	and	w9, w9, #0xff
	subs	w9, w9, #3
	csel	w9, wzr, w9, lo
	cmp	w9, #6
	b.lo	.LBB244be253_7
	and	x10, x9, #0xff
	mov	w9, #5
.LBB244be253_5:
	mov	w11, #3
	lsl	x11, x11, x9
	cmp	x8, x11, lsr #2
	b.ls	.LBB244be253_23
	add	x9, x9, #1
	cmp	x10, x9
	b.ne	.LBB244be253_5
.LBB244be253_7:
	add	x0, sp, #96
	mov	w2, w20
	mov	w4, wzr
	mov	w5, wzr
	bl	hll_sketch.promotion.mode_of_table.8a2f8b2564a2651f
	ldrb	w9, [sp, #96]
	ldrb	w8, [sp, #97]
	ldrb	w10, [sp, #104]
	b	.LBB244be253_21
.LBB244be253_8:
	add	x23, x3, #20
	mov	w8, #8
.LBB244be253_9:
	mov	x24, xzr
	add	x25, x9, #20
.LBB244be253_10:
	ldur	x9, [x29, #-56]
	mov	w10, #1
	add	x23, x23, #4
	sub	x26, x10, x8
	lsl	x27, x10, x9
	b	.LBB244be253_12
.LBB244be253_11:
	add	x23, x23, #4
	add	x26, x26, #1
.LBB244be253_12:
	cmp	x26, #1
	b.eq	.LBB244be253_20
	ldur	w21, [x23, #-4]
	cbz	w21, .LBB244be253_11
	sub	x0, x29, #56
	mov	w1, w21
	bl	hll_coupons.list.List.contains.309f015d8caa795c
	tbnz	w0, #0, .LBB244be253_11
	eor	w8, w0, #0x1
	add	x8, x24, x8
	cmp	x27, x8
	b.lo	.LBB244be253_11
	ldurb	w8, [x29, #-40]
	cbz	w8, .LBB244be253_18
	ldur	x8, [x29, #-32]
	str	w21, [x8, x24, lsl #2]
	b	.LBB244be253_19
.LBB244be253_18:
	str	w21, [x25, x24, lsl #2]
.LBB244be253_19:
	ldur	x8, [x29, #-48]
	add	x24, x8, #1
	neg	x8, x26
	stur	x24, [x29, #-48]
	b	.LBB244be253_10
.LBB244be253_20:
	ldur	x11, [x29, #-56]
	ldp	q0, q1, [x25]
	mov	x10, xzr
	mov	w8, wzr
	mov	w9, wzr
	stp	x11, x24, [sp, #112]
	ldurb	w11, [x29, #-40]
	stp	q0, q1, [sp, #64]
	stur	q0, [x22, #36]
	stur	q1, [x22, #52]
	str	w11, [sp, #128]
	str	wzr, [sp, #164]
	strb	w20, [sp, #168]
	str	xzr, [sp, #184]
	stur	xzr, [x22, #73]
	stur	xzr, [x22, #81]
.LBB244be253_21:
	ldp	q0, q1, [sp, #144]
	strb	w9, [x19]
	strb	w8, [x19, #1]
	str	x10, [x19, #8]
	stp	q0, q1, [x19, #48]
	ldr	q0, [sp, #176]
	str	q0, [x19, #80]
	ldp	q0, q2, [sp, #112]
	stp	q0, q2, [x19, #16]
.LBB244be253_22:
	ldp	x20, x19, [sp, #336]
	ldp	x22, x21, [sp, #320]
	ldp	x24, x23, [sp, #304]
	ldp	x26, x25, [sp, #288]
	ldp	x28, x27, [sp, #272]
	ldp	x29, x30, [sp, #256]
	add	sp, sp, #352
	ret
.LBB244be253_23:
	cmp	x9, #3
	b.eq	.LBB244be253_1
	mov	x0, sp
	and	x1, x9, #0xff
	mov	x2, x3
	bl	hll_coupons.hash_set.HashSet.from_container.8a2f8b2564a2651f
	ldrb	w8, [sp]
	cbz	w8, .LBB244be253_26
	movi	v0.2d, #0000000000000000
	ldrb	w8, [sp, #1]
	mov	w9, #1
	strb	w9, [x19]
	strb	w8, [x19, #1]
	str	xzr, [x19, #88]
	stur	q0, [x19, #8]
	stur	q0, [x19, #24]
	stur	q0, [x19, #40]
	stur	q0, [x19, #56]
	stur	q0, [x19, #72]
	b	.LBB244be253_22
.LBB244be253_26:
	ldur	q0, [sp, #8]
	ldur	q1, [sp, #28]
	mov	w9, wzr
	ldrb	w10, [sp, #24]
	strb	w20, [sp, #168]
	str	q0, [sp, #112]
	ldur	q0, [sp, #44]
	stur	q1, [x22, #36]
	stur	q0, [x22, #52]
	str	w10, [sp, #128]
	mov	w10, #1
	str	wzr, [sp, #164]
	stur	xzr, [x22, #81]
	stur	xzr, [x22, #73]
	str	xzr, [sp, #184]
	b	.LBB244be253_21
.Lfunc_end244be253:
	.size	hll_sketch.folding.mode_of_coupons.8a2f8b2564a2651f, .Lfunc_end244be253-hll_sketch.folding.mode_of_coupons.8a2f8b2564a2651f

	.section	.text.hll_coupons.container.Container.image.8a2f8b2564a2651f,"ax",@progbits
	.p2align	2
	.type	hll_coupons.container.Container.image.8a2f8b2564a2651f,@function
hll_coupons.container.Container.image.8a2f8b2564a2651f:
	sub	sp, sp, #208
	movi	v0.2d, #0000000000000000
	stp	x20, x19, [sp, #192]
	mov	x19, x0
	add	x0, sp, #32
	stp	x29, x30, [sp, #128]
	add	x29, sp, #128
	stp	x26, x25, [sp, #144]
	stp	x24, x23, [sp, #160]
	stp	x22, x21, [sp, #176]
	mov	x21, x3
	mov	x22, x2
	stp	xzr, xzr, [sp, #8]
	str	xzr, [sp]
	stp	q0, q0, [sp, #32]
	stur	xzr, [sp, #22]
	bl	hll_coupons.container.Container.ascending.9bc580afffac16c1
	ldrb	w8, [sp, #32]
	cbz	w8, .LBB37505008_2
	ldrb	w8, [sp, #33]
	mov	w9, #1
	str	xzr, [x19, #24]
	strb	w9, [x19]
	strb	w8, [x19, #1]
	b	.LBB37505008_8
.LBB37505008_2:
	ldp	x20, x25, [sp, #40]
	ldr	x24, [sp, #56]
	adds	x23, x21, x25, lsl #2
	b.eq	.LBB37505008_9
	tbnz	x23, #63, .LBB37505008_5
	mov	x0, x23
	mov	w1, #1
	bl	rattle_alloc
	tbnz	w0, #0, .LBB37505008_10
.LBB37505008_5:
	cbz	x24, .LBB37505008_7
	mov	x0, x20
	bl	rattle_dealloc
.LBB37505008_7:
	mov	w8, #3073
	str	xzr, [x19, #24]
	strh	w8, [x19]
.LBB37505008_8:
	stp	xzr, xzr, [x19, #8]
	b	.LBB37505008_25
.LBB37505008_9:
	sub	x1, x29, #1
.LBB37505008_10:
	mov	x8, xzr
	cmp	x21, x23
	stp	x1, xzr, [x29, #-56]
	stur	x23, [x29, #-40]
	b.hi	.LBB37505008_14
	add	x0, x1, x8
	add	x26, x8, x21
	sub	x9, x0, x22
	cmp	x9, x21
	b.hs	.LBB37505008_16
.LBB37505008_12:
	ldrb	w8, [x22], #1
	subs	x21, x21, #1
	strb	w8, [x0], #1
	b.ne	.LBB37505008_12
	stp	x26, x23, [x29, #-48]
	ldur	q0, [x29, #-56]
	stur	x23, [x29, #-16]
	stur	q0, [x29, #-32]
	cbnz	x25, .LBB37505008_17
	b	.LBB37505008_22
.LBB37505008_14:
	sub	x0, x29, #56
	mov	x1, x21
	bl	std_alloc.vec.Vec.grow_amortized.e3d5df6901cfba47
	cbz	w0, .LBB37505008_28
	ldp	x8, x23, [x29, #-48]
	ldur	x1, [x29, #-56]
	add	x0, x1, x8
	add	x26, x8, x21
	sub	x9, x0, x22
	cmp	x9, x21
	b.lo	.LBB37505008_12
.LBB37505008_16:
	mov	x1, x22
	mov	x2, x21
	bl	memmove
	stp	x26, x23, [x29, #-48]
	ldur	q0, [x29, #-56]
	stur	x23, [x29, #-16]
	stur	q0, [x29, #-32]
	cbz	x25, .LBB37505008_22
.LBB37505008_17:
	ldp	x9, x8, [x29, #-24]
	mov	x21, xzr
	b	.LBB37505008_19
.LBB37505008_18:
	ldur	x10, [x29, #-32]
	add	x21, x21, #1
	cmp	x25, x21
	str	w22, [x10, x9]
	add	x9, x9, #4
	stp	x9, x8, [x29, #-24]
	b.eq	.LBB37505008_22
.LBB37505008_19:
	sub	x10, x8, x9
	ldr	w22, [x20, x21, lsl #2]
	cmp	x10, #3
	b.hi	.LBB37505008_18
	sub	x0, x29, #32
	mov	w1, #4
	bl	std_alloc.vec.Vec.grow_amortized.e3d5df6901cfba47
	cbz	w0, .LBB37505008_26
	ldp	x9, x8, [x29, #-24]
	b	.LBB37505008_18
.LBB37505008_22:
	ldur	q0, [x29, #-32]
	ldur	x8, [x29, #-16]
	mov	x9, sp
	orr	x21, x9, #0x6
	stur	q0, [sp, #6]
	stur	x8, [sp, #22]
	cbz	x24, .LBB37505008_24
	mov	x0, x20
	bl	rattle_dealloc
.LBB37505008_24:
	ldr	q0, [x21]
	ldr	x8, [x21, #16]
	strh	wzr, [x19]
	stur	q0, [x19, #8]
	str	x8, [x19, #24]
.LBB37505008_25:
	ldp	x20, x19, [sp, #192]
	ldp	x22, x21, [sp, #176]
	ldp	x24, x23, [sp, #160]
	ldp	x26, x25, [sp, #144]
	ldp	x29, x30, [sp, #128]
	add	sp, sp, #208
	ret
.LBB37505008_26:
	ldur	x8, [x29, #-16]
	cbz	x8, .LBB37505008_5
	ldur	x0, [x29, #-32]
	bl	rattle_dealloc
	b	.LBB37505008_5
.LBB37505008_28:
	ldur	x8, [x29, #-40]
	cbz	x8, .LBB37505008_5
	ldur	x0, [x29, #-56]
	bl	rattle_dealloc
	b	.LBB37505008_5
.Lfunc_end37505008:
	.size	hll_coupons.container.Container.image.8a2f8b2564a2651f, .Lfunc_end37505008-hll_coupons.container.Container.image.8a2f8b2564a2651f

	.section	.text.hll_registers.preamble.Preamble.start_image.309f015d8caa795c,"ax",@progbits
	.p2align	2
	.type	hll_registers.preamble.Preamble.start_image.309f015d8caa795c,@function
hll_registers.preamble.Preamble.start_image.309f015d8caa795c:
	sub	sp, sp, #160
	stp	x26, x25, [sp, #96]
	ldp	x25, x26, [x1, #16]
	stp	x24, x23, [sp, #112]
	ldr	x23, [x1, #32]
	stp	x22, x21, [sp, #128]
	mov	w21, w2
	ldp	x22, x24, [x1]
	stp	x20, x19, [sp, #144]
	mov	x20, x3
	mov	x19, x0
	stp	x29, x30, [sp, #80]
	add	x29, sp, #80
	cbz	x3, .LBBd4810de0_4
	tbnz	x20, #63, .LBBd4810de0_3
	mov	x0, x20
	mov	w1, #1
	bl	rattle_alloc
	tbnz	w0, #0, .LBBd4810de0_5
.LBBd4810de0_3:
	mov	w8, #3073
	stp	xzr, xzr, [x19, #16]
	strh	w8, [x19]
	str	xzr, [x19, #8]
	b	.LBBd4810de0_7
.LBBd4810de0_4:
	sub	x1, x29, #1
.LBBd4810de0_5:
	lsr	w9, w21, #6
	lsr	w10, w21, #24
	ubfiz	w11, w26, #4, #1
	mov	x8, xzr
	cmp	x20, #39
	stp	x1, xzr, [x29, #-32]
	and	w9, w9, #0xc
	stur	x20, [x29, #-16]
	orr	w9, w9, #0x2
	stp	x24, x25, [sp, #24]
	lsl	x9, x9, #56
	str	x23, [sp, #40]
	orr	x9, x9, x10, lsl #48
	add	w10, w11, w21, lsr #16
	lsl	w11, w21, #24
	bfi	x9, x10, #40, #8
	mov	w10, #266
	movk	w10, #7, lsl #16
	orr	x10, x11, x10
	orr	x9, x9, x10
	stp	x9, x22, [sp, #8]
	b.ls	.LBBd4810de0_8
.LBBd4810de0_6:
	add	x9, x1, x8
	add	x10, sp, #8
	ldur	q0, [sp, #24]
	ldur	q1, [sp, #8]
	sub	x10, x9, x10
	add	x8, x8, #40
	cmp	x10, #39
	ldr	x10, [sp, #40]
	stp	q1, q0, [x9]
	stp	x8, x20, [x29, #-24]
	ldur	q0, [x29, #-32]
	str	x10, [x9, #32]
	strh	wzr, [x19]
	str	x20, [x19, #24]
	stur	q0, [x19, #8]
.LBBd4810de0_7:
	ldp	x20, x19, [sp, #144]
	ldp	x22, x21, [sp, #128]
	ldp	x24, x23, [sp, #112]
	ldp	x26, x25, [sp, #96]
	ldp	x29, x30, [sp, #80]
	add	sp, sp, #160
	ret
.LBBd4810de0_8:
	sub	x0, x29, #32
	mov	w1, #40
	bl	std_alloc.vec.Vec.grow_amortized.e3d5df6901cfba47
	cbz	w0, .LBBd4810de0_10
	ldp	x8, x20, [x29, #-24]
	ldur	x1, [x29, #-32]
	b	.LBBd4810de0_6
.LBBd4810de0_10:
	ldur	x8, [x29, #-16]
	cbz	x8, .LBBd4810de0_3
	ldur	x0, [x29, #-32]
	bl	rattle_dealloc
	b	.LBBd4810de0_3
.Lfunc_endd4810de0:
	.size	hll_registers.preamble.Preamble.start_image.309f015d8caa795c, .Lfunc_endd4810de0-hll_registers.preamble.Preamble.start_image.309f015d8caa795c

	.section	.text.hll_text.refusal.write_number.03326aa510967ad1,"ax",@progbits
	.p2align	2
	.type	hll_text.refusal.write_number.03326aa510967ad1,@function
hll_text.refusal.write_number.03326aa510967ad1:
	sub	sp, sp, #128
	mov	x9, #-3689348814741910324
	mov	x8, x1
	stp	x29, x30, [sp, #96]
	movk	x9, #52429
	str	x19, [sp, #112]
	add	x29, sp, #96
	umulh	x9, x1, x9
	mov	x19, x0
	cmp	x1, #10
	strb	wzr, [x29, #26]
	strh	wzr, [x29, #24]
	lsr	x1, x9, #3
	mov	w9, #10
	msub	w9, w1, w9, w8
	orr	w9, w9, #0x30
	strb	w9, [x29, #28]
	b.lo	.LBB99ff8a6f_3
	add	x0, x29, #24
	bl	hll_text.refusal.write_number.03326aa510967ad1
	ldrb	w8, [x29, #24]
	cbz	w8, .LBB99ff8a6f_3
	ldurh	w8, [x29, #25]
	mov	w9, #1
	strb	w9, [x19]
	sturh	w8, [x19, #1]
	ldp	x29, x30, [sp, #96]
	ldr	x19, [sp, #112]
	add	sp, sp, #128
	ret
.LBB99ff8a6f_3:
	add	x1, x29, #28
	mov	w0, #2
	mov	w2, #1
	bl	write
	tbnz	x0, #63, .LBB99ff8a6f_5
	cmp	x0, #0
	mov	w8, #7
	cset	w9, eq
	csel	w8, w8, wzr, eq
	b	.LBB99ff8a6f_6
.LBB99ff8a6f_5:
	add	x0, sp, #8
	bl	std_io.io.error.last_error
	mov	w8, #7
	mov	w9, #1
.LBB99ff8a6f_6:
	strb	w9, [x19]
	strb	w8, [x19, #1]
	strb	wzr, [x19, #2]
	ldp	x29, x30, [sp, #96]
	ldr	x19, [sp, #112]
	add	sp, sp, #128
	ret
.Lfunc_end99ff8a6f:
	.size	hll_text.refusal.write_number.03326aa510967ad1, .Lfunc_end99ff8a6f-hll_text.refusal.write_number.03326aa510967ad1

	.section	.rodata.cst16,"aM",@progbits,16
	.p2align	4, 0x0
.LCPI0d6e4079_0:
	.byte	1
	.byte	2
	.byte	4
	.byte	8
	.byte	16
	.byte	32
	.byte	64
	.byte	128
	.byte	1
	.byte	2
	.byte	4
	.byte	8
	.byte	16
	.byte	32
	.byte	64
	.byte	128
.LCPI0d6e4079_1:
	.byte	0
	.byte	1
	.byte	1
	.byte	2
	.byte	3
	.byte	4
	.byte	4
	.byte	5
	.byte	6
	.byte	7
	.byte	7
	.byte	8
	.byte	9
	.byte	10
	.byte	10
	.byte	11
.LCPI0d6e4079_2:
	.byte	4
	.byte	5
	.byte	5
	.byte	6
	.byte	7
	.byte	8
	.byte	8
	.byte	9
	.byte	10
	.byte	11
	.byte	11
	.byte	12
	.byte	13
	.byte	14
	.byte	14
	.byte	15
.LCPI0d6e4079_3:
	.byte	12
	.byte	255
	.byte	255
	.byte	255
	.byte	13
	.byte	255
	.byte	255
	.byte	255
	.byte	14
	.byte	255
	.byte	255
	.byte	255
	.byte	15
	.byte	255
	.byte	255
	.byte	255
.LCPI0d6e4079_4:
	.byte	8
	.byte	255
	.byte	255
	.byte	255
	.byte	9
	.byte	255
	.byte	255
	.byte	255
	.byte	10
	.byte	255
	.byte	255
	.byte	255
	.byte	11
	.byte	255
	.byte	255
	.byte	255
.LCPI0d6e4079_5:
	.byte	4
	.byte	255
	.byte	255
	.byte	255
	.byte	5
	.byte	255
	.byte	255
	.byte	255
	.byte	6
	.byte	255
	.byte	255
	.byte	255
	.byte	7
	.byte	255
	.byte	255
	.byte	255
.LCPI0d6e4079_6:
	.byte	0
	.byte	255
	.byte	255
	.byte	255
	.byte	1
	.byte	255
	.byte	255
	.byte	255
	.byte	2
	.byte	255
	.byte	255
	.byte	255
	.byte	3
	.byte	255
	.byte	255
	.byte	255
.LCPI0d6e4079_7:
	.byte	0
	.byte	4
	.byte	8
	.byte	12
	.byte	16
	.byte	20
	.byte	24
	.byte	28
	.byte	32
	.byte	36
	.byte	40
	.byte	44
	.byte	48
	.byte	52
	.byte	56
	.byte	60
.LCPI0d6e4079_8:
	.byte	0
	.byte	4
	.byte	8
	.byte	12
	.byte	16
	.byte	20
	.byte	24
	.byte	28
	.byte	255
	.byte	255
	.byte	255
	.byte	255
	.byte	255
	.byte	255
	.byte	255
	.byte	255
	.section	.text.main,"ax",@progbits
	.globl	main
	.p2align	2
	.type	main,@function
main:
	stp	x29, x30, [sp, #-96]!
	sub	x9, sp, #15, lsl #12
	stp	x28, x27, [sp, #16]
	mov	x29, sp
	sub	x9, x9, #3072
	stp	x26, x25, [sp, #32]
	stp	x24, x23, [sp, #48]
	stp	x22, x21, [sp, #64]
	stp	x20, x19, [sp, #80]
.LBB0d6e4079_1:
	sub	sp, sp, #3072
	cmp	sp, x9
	str	xzr, [sp]
	b.ne	.LBB0d6e4079_1
	sub	sp, sp, #1744
	add	x25, sp, #16, lsl #12
	add	x24, sp, #16, lsl #12
	mov	w0, #13
	mov	w1, #1
	str	xzr, [sp]
	add	x25, x25, #320
	add	x24, x24, #128
	bl	__sysv_signal
	movi	v0.2d, #0000000000000000
	sub	x20, x29, #24
	add	x0, sp, #128
	mov	w1, wzr
	mov	w2, #65536
	stp	xzr, x20, [sp, #40]
	stur	xzr, [sp, #34]
	stp	xzr, xzr, [sp, #56]
	stp	q0, q0, [sp, #80]
	stur	q0, [sp, #112]
	str	x20, [sp, #24]
	strh	wzr, [sp, #32]
	str	x20, [sp, #72]
	bl	memset
	mov	x28, xzr
	mov	x22, xzr
	mov	x19, xzr
	mov	x26, xzr
	b	.LBB0d6e4079_5
.LBB0d6e4079_3:
	add	x0, x20, x22
	mov	x1, x2
	mov	x2, x21
	bl	memmove
.LBB0d6e4079_4:
	add	x22, x22, x21
	cmn	x26, #1
	str	x19, [sp, #96]
	stp	x22, x28, [sp, #80]
	b.eq	.LBB0d6e4079_75
.LBB0d6e4079_5:
	add	x1, sp, #128
	mov	w0, wzr
	mov	w2, #65536
	bl	read
	tbnz	x0, #63, .LBB0d6e4079_74
	cmp	x0, #16, lsl #12
	mov	w8, #65536
	csel	x21, x0, x8, lo
	cbz	x0, .LBB0d6e4079_85
	ldrb	w8, [sp, #104]
	cmp	w8, #1
	b.eq	.LBB0d6e4079_96
	add	x26, x26, #1
	adrp	x27, .LCPI0d6e4079_0
	strb	wzr, [x24, #98]
	strh	wzr, [x24, #96]
	strb	wzr, [x25, #290]
	strh	wzr, [x25, #288]
	cbz	x22, .LBB0d6e4079_17
	lsr	x8, x21, #6
	cbz	x8, .LBB0d6e4079_13
	mov	x9, xzr
	add	x10, sp, #128
.LBB0d6e4079_11:
	movi	v0.16b, #10
	ldp	q1, q4, [x10]
	ldp	q3, q2, [x10, #32]
	cmeq	v2.16b, v2.16b, v0.16b
	cmeq	v1.16b, v1.16b, v0.16b
	cmeq	v3.16b, v3.16b, v0.16b
	cmeq	v0.16b, v4.16b, v0.16b
	ldr	q4, [x27, :lo12:.LCPI0d6e4079_0]
	and	v1.16b, v1.16b, v4.16b
	and	v3.16b, v3.16b, v4.16b
	and	v2.16b, v2.16b, v4.16b
	and	v0.16b, v0.16b, v4.16b
	addp	v0.16b, v1.16b, v0.16b
	addp	v1.16b, v3.16b, v2.16b
	addp	v0.16b, v0.16b, v1.16b
	addp	v0.16b, v0.16b, v0.16b
	fmov	x11, d0
	cbnz	x11, .LBB0d6e4079_18
	sub	x8, x8, #1
	sub	x9, x9, #64
	add	x10, x10, #64
	cbnz	x8, .LBB0d6e4079_11
.LBB0d6e4079_13:
	ands	x8, x21, #0x3f
	b.eq	.LBB0d6e4079_17
	and	x23, x21, #0x1ffc0
.LBB0d6e4079_15:
	add	x9, sp, #128
	ldrb	w9, [x9, x23]
	cmp	w9, #10
	b.eq	.LBB0d6e4079_19
	subs	x8, x8, #1
	add	x23, x23, #1
	b.ne	.LBB0d6e4079_15
.LBB0d6e4079_17:
	add	x2, sp, #128
	b	.LBB0d6e4079_42
.LBB0d6e4079_18:
	rbit	x8, x11
	clz	x8, x8
	sub	x23, x8, x9
.LBB0d6e4079_19:
	sub	x8, x28, x22
	cmp	x23, x8
	b.hi	.LBB0d6e4079_37
	add	x8, x20, x22
	add	x9, sp, #128
	sub	x8, x8, x9
	cmp	x8, x23
	b.hs	.LBB0d6e4079_39
.LBB0d6e4079_21:
	cmp	x23, #8
	b.lo	.LBB0d6e4079_23
	add	x8, sp, #128
	sub	x8, x22, x8
	add	x8, x8, x20
	cmp	x8, #32
	b.hs	.LBB0d6e4079_28
.LBB0d6e4079_23:
	mov	x8, xzr
.LBB0d6e4079_24:
	add	x10, sp, #128
	add	x11, x8, x22
	sub	x9, x23, x8
	add	x8, x10, x8
	add	x10, x20, x11
.LBB0d6e4079_25:
	ldrb	w11, [x8], #1
	subs	x9, x9, #1
	strb	w11, [x10], #1
	b.ne	.LBB0d6e4079_25
.LBB0d6e4079_26:
	adds	x9, x19, #1
	add	x8, x22, x23
	csinv	x19, x9, xzr, lo
	stp	x8, x28, [sp, #80]
	cbz	x8, .LBB0d6e4079_40
.LBB0d6e4079_27:
	sub	x9, x8, #1
	ldrb	w10, [x20, x9]
	cmp	w10, #13
	csel	x3, x9, x8, eq
	sub	x0, x29, #112
	add	x1, sp, #24
	mov	x2, x20
	bl	hll_merge.stack.Stack.carry_line.8a2f8b2564a2651f
	ldrb	w8, [x25, #288]
	cbz	w8, .LBB0d6e4079_41
	b	.LBB0d6e4079_108
.LBB0d6e4079_28:
	cmp	x23, #32
	b.hs	.LBB0d6e4079_30
	mov	x8, xzr
	b	.LBB0d6e4079_34
.LBB0d6e4079_30:
	add	x10, x20, x22
	add	x11, sp, #128
	and	x9, x23, #0x18
	and	x8, x23, #0xffffffffffffffe0
	add	x10, x10, #16
	add	x11, x11, #16
	and	x12, x23, #0xffffffffffffffe0
.LBB0d6e4079_31:
	ldp	q0, q1, [x11, #-16]
	subs	x12, x12, #32
	add	x11, x11, #32
	stp	q0, q1, [x10, #-16]
	add	x10, x10, #32
	b.ne	.LBB0d6e4079_31
	cmp	x23, x8
	b.eq	.LBB0d6e4079_26
	cbz	x9, .LBB0d6e4079_24
.LBB0d6e4079_34:
	mov	x10, x8
	and	x8, x23, #0xfffffffffffffff8
	add	x11, sp, #128
	add	x12, x22, x10
	sub	x9, x10, x8
	add	x10, x11, x10
	add	x11, x20, x12
.LBB0d6e4079_35:
	ldr	d0, [x10], #8
	adds	x9, x9, #8
	str	d0, [x11], #8
	b.ne	.LBB0d6e4079_35
	cmp	x23, x8
	b.eq	.LBB0d6e4079_26
	b	.LBB0d6e4079_24
.LBB0d6e4079_37:
	add	x8, sp, #24
	mov	x1, x23
	add	x0, x8, #48
	bl	std_alloc.vec.Vec.grow_amortized.e3d5df6901cfba47
	cbz	w0, .LBB0d6e4079_165
	ldp	x22, x28, [sp, #80]
	ldr	x20, [sp, #72]
	add	x8, x20, x22
	add	x9, sp, #128
	sub	x8, x8, x9
	cmp	x8, x23
	b.lo	.LBB0d6e4079_21
.LBB0d6e4079_39:
	add	x0, x20, x22
	add	x1, sp, #128
	mov	x2, x23
	bl	memmove
	adds	x9, x19, #1
	add	x8, x22, x23
	csinv	x19, x9, xzr, lo
	stp	x8, x28, [sp, #80]
	cbnz	x8, .LBB0d6e4079_27
.LBB0d6e4079_40:
	mov	x3, xzr
	sub	x0, x29, #112
	add	x1, sp, #24
	mov	x2, x20
	bl	hll_merge.stack.Stack.carry_line.8a2f8b2564a2651f
	ldrb	w8, [x25, #288]
	cbnz	w8, .LBB0d6e4079_108
.LBB0d6e4079_41:
	add	x8, x23, #1
	add	x9, sp, #128
	str	xzr, [sp, #80]
	add	x2, x9, x8
	sub	x21, x21, x8
.LBB0d6e4079_42:
	lsr	x8, x21, #6
	cbz	x8, .LBB0d6e4079_46
	mov	x9, xzr
	mov	x10, x2
.LBB0d6e4079_44:
	movi	v0.16b, #10
	ldp	q1, q4, [x10]
	ldp	q3, q2, [x10, #32]
	cmeq	v2.16b, v2.16b, v0.16b
	cmeq	v1.16b, v1.16b, v0.16b
	cmeq	v3.16b, v3.16b, v0.16b
	cmeq	v0.16b, v4.16b, v0.16b
	ldr	q4, [x27, :lo12:.LCPI0d6e4079_0]
	and	v1.16b, v1.16b, v4.16b
	and	v3.16b, v3.16b, v4.16b
	and	v2.16b, v2.16b, v4.16b
	and	v0.16b, v0.16b, v4.16b
	addp	v0.16b, v1.16b, v0.16b
	addp	v1.16b, v3.16b, v2.16b
	addp	v0.16b, v0.16b, v1.16b
	addp	v0.16b, v0.16b, v0.16b
	fmov	x11, d0
	cbnz	x11, .LBB0d6e4079_50
	sub	x8, x8, #1
	sub	x9, x9, #64
	add	x10, x10, #64
	cbnz	x8, .LBB0d6e4079_44
.LBB0d6e4079_46:
	ands	x9, x21, #0x3f
	b.eq	.LBB0d6e4079_55
	and	x8, x21, #0xffffffffffffffc0
.LBB0d6e4079_48:
	ldrb	w10, [x2, x8]
	cmp	w10, #10
	b.eq	.LBB0d6e4079_51
	subs	x9, x9, #1
	add	x8, x8, #1
	b.ne	.LBB0d6e4079_48
	b	.LBB0d6e4079_55
.LBB0d6e4079_50:
	rbit	x8, x11
	clz	x8, x8
	sub	x8, x8, x9
.LBB0d6e4079_51:
	cbz	x8, .LBB0d6e4079_53
	sub	x9, x8, #1
	ldrb	w10, [x2, x9]
	cmp	w10, #13
	csel	x3, x9, x8, eq
	b	.LBB0d6e4079_54
.LBB0d6e4079_53:
	mov	x3, xzr
.LBB0d6e4079_54:
	add	x0, sp, #16, lsl #12
	add	x8, x8, #1
	adds	x9, x19, #1
	add	x0, x0, #224
	add	x1, sp, #24
	add	x20, x2, x8
	sub	x21, x21, x8
	csinv	x19, x9, xzr, lo
	bl	hll_merge.stack.Stack.carry_line.8a2f8b2564a2651f
	ldrb	w8, [x24, #96]
	mov	x2, x20
	cmp	w8, #1
	b.ne	.LBB0d6e4079_42
	b	.LBB0d6e4079_73
.LBB0d6e4079_55:
	ldp	x22, x28, [sp, #80]
	sub	x8, x28, x22
	cmp	x21, x8
	b.hi	.LBB0d6e4079_71
	ldr	x20, [sp, #72]
	add	x8, x20, x22
	sub	x8, x8, x2
	cmp	x8, x21
	b.hs	.LBB0d6e4079_3
.LBB0d6e4079_57:
	cmp	x21, #8
	b.lo	.LBB0d6e4079_59
	add	x8, x22, x20
	sub	x8, x8, x2
	cmp	x8, #32
	b.hs	.LBB0d6e4079_62
.LBB0d6e4079_59:
	mov	x8, xzr
.LBB0d6e4079_60:
	add	x10, x8, x22
	sub	x9, x21, x8
	add	x8, x2, x8
	add	x10, x20, x10
.LBB0d6e4079_61:
	ldrb	w11, [x8], #1
	subs	x9, x9, #1
	strb	w11, [x10], #1
	b.ne	.LBB0d6e4079_61
	b	.LBB0d6e4079_4
.LBB0d6e4079_62:
	cmp	x21, #32
	b.hs	.LBB0d6e4079_64
	mov	x8, xzr
	b	.LBB0d6e4079_68
.LBB0d6e4079_64:
	add	x11, x20, x22
	and	x9, x21, #0x18
	and	x8, x21, #0xffffffffffffffe0
	add	x10, x2, #16
	add	x11, x11, #16
	and	x12, x21, #0xffffffffffffffe0
.LBB0d6e4079_65:
	ldp	q0, q1, [x10, #-16]
	subs	x12, x12, #32
	add	x10, x10, #32
	stp	q0, q1, [x11, #-16]
	add	x11, x11, #32
	b.ne	.LBB0d6e4079_65
	cmp	x21, x8
	b.eq	.LBB0d6e4079_4
	cbz	x9, .LBB0d6e4079_60
.LBB0d6e4079_68:
	mov	x10, x8
	and	x8, x21, #0xfffffffffffffff8
	add	x11, x22, x10
	sub	x9, x10, x8
	add	x10, x2, x10
	add	x11, x20, x11
.LBB0d6e4079_69:
	ldr	d0, [x10], #8
	adds	x9, x9, #8
	str	d0, [x11], #8
	b.ne	.LBB0d6e4079_69
	cmp	x21, x8
	b.eq	.LBB0d6e4079_4
	b	.LBB0d6e4079_60
.LBB0d6e4079_71:
	add	x8, sp, #24
	mov	x1, x21
	mov	x20, x2
	add	x0, x8, #48
	bl	std_alloc.vec.Vec.grow_amortized.e3d5df6901cfba47
	cbz	w0, .LBB0d6e4079_165
	ldp	x22, x28, [sp, #80]
	mov	x2, x20
	ldr	x20, [sp, #72]
	add	x8, x20, x22
	sub	x8, x8, x2
	cmp	x8, x21
	b.hs	.LBB0d6e4079_3
	b	.LBB0d6e4079_57
.LBB0d6e4079_73:
	ldrb	w26, [x24, #97]
	ldrb	w23, [x24, #98]
	ldp	x21, x25, [sp, #24]
	ldr	x22, [sp, #64]
	ldp	x24, x20, [sp, #40]
	cbnz	x25, .LBB0d6e4079_109
	b	.LBB0d6e4079_111
.LBB0d6e4079_74:
	sub	x0, x29, #112
	bl	std_io.io.error.last_error
.LBB0d6e4079_75:
	ldp	x22, x25, [sp, #24]
	ldr	x23, [sp, #64]
	ldp	x24, x21, [sp, #40]
	cbz	x25, .LBB0d6e4079_78
	add	x26, sp, #128
	add	x27, x22, #16
.LBB0d6e4079_77:
	ldr	q0, [x27, #16]
	ldurb	w8, [x27, #-8]
	add	x0, sp, #128
	stur	q0, [x26, #24]
	ldr	q0, [x27, #32]
	stur	q0, [x26, #40]
	ldr	q0, [x27, #48]
	stur	q0, [x26, #56]
	ldr	q0, [x27, #64]
	stur	q0, [x26, #72]
	ldr	q0, [x27], #96
	str	x8, [sp, #128]
	stur	q0, [x26, #8]
	bl	hll_sketch.mode.Mode.drop.309f015d8caa795c
	subs	x25, x25, #1
	b.ne	.LBB0d6e4079_77
.LBB0d6e4079_78:
	cbz	x24, .LBB0d6e4079_80
	mov	x0, x22
	bl	rattle_dealloc
.LBB0d6e4079_80:
	cbz	x23, .LBB0d6e4079_82
	mov	x0, x21
	bl	rattle_dealloc
.LBB0d6e4079_82:
	cbz	x28, .LBB0d6e4079_84
	mov	x0, x20
	bl	rattle_dealloc
.LBB0d6e4079_84:
	mov	w23, wzr
	mov	w26, #6
	mov	x21, xzr
	b	.LBB0d6e4079_119
.LBB0d6e4079_85:
	movi	v0.2d, #0000000000000000
	add	x8, sp, #128
	ldrh	w9, [sp, #32]
	ldp	x27, x11, [sp, #40]
	ldrb	w10, [sp, #104]
	strh	w9, [x25, #184]
	ldur	w9, [sp, #34]
	ldr	x21, [sp, #112]
	ldrb	w26, [sp, #120]
	cmp	w10, #1
	ldrb	w23, [sp, #121]
	stp	q0, q0, [x8, #32]
	ldr	x12, [sp, #64]
	stp	q0, q0, [x8, #64]
	ldr	x8, [sp, #24]
	stp	q0, q0, [sp, #128]
	stp	q0, q0, [x24, #16]
	stp	q0, q0, [x24, #48]
	stp	q0, q0, [x24, #96]
	stp	q0, q0, [x24, #128]
	stp	q0, q0, [x24, #192]
	stp	q0, q0, [x24, #224]
	str	q0, [x24, #256]
	str	q0, [x24, #160]
	str	q0, [x24]
	str	x8, [x25, #176]
	ldrh	w8, [sp, #38]
	stp	q0, q0, [x25, #112]
	stp	q0, q0, [x25, #144]
	str	q0, [x25, #96]
	ldur	q0, [sp, #56]
	stur	xzr, [x25, #78]
	str	xzr, [x24, #176]
	str	xzr, [x24, #80]
	strb	wzr, [x25, #258]
	strh	wzr, [x25, #256]
	strh	w8, [x25, #190]
	stur	w9, [x25, #186]
	stp	x27, x11, [x25, #192]
	str	q0, [x25, #208]
	b.ne	.LBB0d6e4079_97
	stp	x11, x12, [sp, #8]
	cbz	x28, .LBB0d6e4079_88
	mov	x0, x20
	bl	rattle_dealloc
.LBB0d6e4079_88:
	ldp	x19, x20, [x25, #176]
	cbz	x20, .LBB0d6e4079_91
	sub	x22, x29, #112
	add	x24, x19, #16
.LBB0d6e4079_90:
	ldr	q0, [x24, #16]
	ldurb	w8, [x24, #-8]
	sub	x0, x29, #112
	stur	q0, [x22, #24]
	ldr	q0, [x24, #32]
	stur	q0, [x22, #40]
	ldr	q0, [x24, #48]
	stur	q0, [x22, #56]
	ldr	q0, [x24, #64]
	stur	q0, [x22, #72]
	ldr	q0, [x24], #96
	str	x8, [x25, #288]
	stur	q0, [x22, #8]
	bl	hll_sketch.mode.Mode.drop.309f015d8caa795c
	subs	x20, x20, #1
	b.ne	.LBB0d6e4079_90
.LBB0d6e4079_91:
	cbz	x27, .LBB0d6e4079_93
	mov	x0, x19
	bl	rattle_dealloc
.LBB0d6e4079_93:
	ldr	x8, [sp, #16]
	cbz	x8, .LBB0d6e4079_95
	ldr	x0, [sp, #8]
	bl	rattle_dealloc
.LBB0d6e4079_95:
	mov	x19, x21
	mov	x21, xzr
	b	.LBB0d6e4079_119
.LBB0d6e4079_96:
	ldr	x19, [sp, #112]
	ldrb	w26, [sp, #120]
	ldrb	w23, [sp, #121]
	ldp	x21, x25, [sp, #24]
	ldr	x22, [sp, #64]
	ldp	x24, x20, [sp, #40]
	cbnz	x25, .LBB0d6e4079_109
	b	.LBB0d6e4079_111
.LBB0d6e4079_97:
	cbz	x22, .LBB0d6e4079_136
	adds	x8, x19, #1
	sub	x0, x29, #144
	sub	x1, x29, #224
	mov	x2, x20
	mov	x3, x22
	csinv	x19, x8, xzr, lo
	bl	hll_merge.stack.Stack.carry_line.8a2f8b2564a2651f
	ldrb	w8, [x25, #256]
	cbz	w8, .LBB0d6e4079_149
	ldrb	w26, [x25, #257]
	ldrb	w23, [x25, #258]
	cbz	x28, .LBB0d6e4079_101
	mov	x0, x20
	bl	rattle_dealloc
.LBB0d6e4079_101:
	ldp	x20, x21, [x25, #176]
	ldr	x22, [x25, #192]
	cbz	x21, .LBB0d6e4079_104
	sub	x24, x29, #112
	add	x27, x20, #16
.LBB0d6e4079_103:
	ldr	q0, [x27, #16]
	ldurb	w8, [x27, #-8]
	sub	x0, x29, #112
	stur	q0, [x24, #24]
	ldr	q0, [x27, #32]
	stur	q0, [x24, #40]
	ldr	q0, [x27, #48]
	stur	q0, [x24, #56]
	ldr	q0, [x27, #64]
	stur	q0, [x24, #72]
	ldr	q0, [x27], #96
	str	x8, [x25, #288]
	stur	q0, [x24, #8]
	bl	hll_sketch.mode.Mode.drop.309f015d8caa795c
	subs	x21, x21, #1
	b.ne	.LBB0d6e4079_103
.LBB0d6e4079_104:
	cbz	x22, .LBB0d6e4079_106
	mov	x0, x20
	bl	rattle_dealloc
.LBB0d6e4079_106:
	ldr	x8, [x25, #216]
	cbz	x8, .LBB0d6e4079_118
	ldr	x0, [x25, #200]
	b	.LBB0d6e4079_117
.LBB0d6e4079_108:
	ldrb	w26, [x25, #289]
	ldrb	w23, [x25, #290]
	ldp	x21, x25, [sp, #24]
	ldr	x22, [sp, #64]
	ldp	x24, x20, [sp, #40]
	cbz	x25, .LBB0d6e4079_111
.LBB0d6e4079_109:
	add	x27, sp, #128
	add	x28, x21, #16
.LBB0d6e4079_110:
	ldr	q0, [x28, #16]
	ldurb	w8, [x28, #-8]
	add	x0, sp, #128
	stur	q0, [x27, #24]
	ldr	q0, [x28, #32]
	stur	q0, [x27, #40]
	ldr	q0, [x28, #48]
	stur	q0, [x27, #56]
	ldr	q0, [x28, #64]
	stur	q0, [x27, #72]
	ldr	q0, [x28], #96
	str	x8, [sp, #128]
	stur	q0, [x27, #8]
	bl	hll_sketch.mode.Mode.drop.309f015d8caa795c
	subs	x25, x25, #1
	b.ne	.LBB0d6e4079_110
.LBB0d6e4079_111:
	cbz	x24, .LBB0d6e4079_113
	mov	x0, x21
	bl	rattle_dealloc
.LBB0d6e4079_113:
	cbz	x22, .LBB0d6e4079_115
	mov	x0, x20
	bl	rattle_dealloc
.LBB0d6e4079_115:
	ldr	x8, [sp, #88]
	cbz	x8, .LBB0d6e4079_118
	ldr	x0, [sp, #72]
.LBB0d6e4079_117:
	bl	rattle_dealloc
.LBB0d6e4079_118:
	mov	x21, xzr
.LBB0d6e4079_119:
	mov	w8, #5
	adrp	x9, .Lstatic.11
	add	x9, x9, :lo12:.Lstatic.11
	sub	x20, x8, x21
	add	x1, x9, x21
	mov	w0, #2
	mov	x2, x20
	bl	write
	tbnz	x0, #63, .LBB0d6e4079_199
	cmp	x0, x20
	csel	x8, x0, x20, lo
	cbz	x8, .LBB0d6e4079_200
	add	x21, x8, x21
	cmp	x21, #4
	b.ls	.LBB0d6e4079_119
	add	x0, sp, #24
	mov	x1, x19
	bl	hll_text.refusal.write_number.03326aa510967ad1
	ldrb	w8, [sp, #24]
	cbnz	w8, .LBB0d6e4079_200
	adrp	x1, .Lstatic.12
	add	x1, x1, :lo12:.Lstatic.12
	mov	w0, #2
	mov	w2, #2
	bl	write
	tbnz	x0, #63, .LBB0d6e4079_199
	cbz	x0, .LBB0d6e4079_200
	cmp	x0, #1
	b.ne	.LBB0d6e4079_128
	adrp	x1, .Lstatic.12+1
	add	x1, x1, :lo12:.Lstatic.12+1
	mov	w0, #2
	mov	w2, #1
	bl	write
	tbnz	x0, #63, .LBB0d6e4079_199
	cbz	x0, .LBB0d6e4079_200
.LBB0d6e4079_128:
	cmp	w26, #3
	b.le	.LBB0d6e4079_157
	cmp	w26, #5
	b.le	.LBB0d6e4079_171
	cmp	w26, #6
	b.eq	.LBB0d6e4079_178
	cmp	w26, #7
	b.ne	.LBB0d6e4079_190
	mov	x20, xzr
.LBB0d6e4079_133:
	mov	w8, #5
	adrp	x9, .Lstatic.19
	add	x9, x9, :lo12:.Lstatic.19
	sub	x19, x8, x20
	add	x1, x9, x20
	mov	w0, #2
	mov	x2, x19
	bl	write
	tbnz	x0, #63, .LBB0d6e4079_199
	cmp	x0, x19
	csel	x8, x0, x19, lo
	cbz	x8, .LBB0d6e4079_200
	add	x20, x8, x20
	cmp	x20, #4
	b.ls	.LBB0d6e4079_133
	b	.LBB0d6e4079_198
.LBB0d6e4079_136:
	orr	x23, x9, x8, lsl #32
	ldr	x22, [x25, #176]
	ldrb	w21, [x25, #184]
	ldrb	w26, [x25, #185]
	stp	x11, x12, [sp, #8]
	cbz	x28, .LBB0d6e4079_138
.LBB0d6e4079_137:
	mov	x0, x20
	bl	rattle_dealloc
.LBB0d6e4079_138:
	ubfiz	x8, x26, #8, #32
	mov	w9, w21
	orr	x8, x8, x23, lsl #16
	orr	x20, x8, x9
	cbz	x20, .LBB0d6e4079_152
	cmp	x20, #1
	b.ne	.LBB0d6e4079_150
	ldr	q0, [x22, #32]
	ldrb	w26, [x22]
	ldrb	w20, [x22, #8]
	str	q0, [x25, #192]
	ldr	q0, [x22, #48]
	str	q0, [x25, #208]
	ldr	q0, [x22, #64]
	str	q0, [x25, #224]
	ldr	q0, [x22, #80]
	str	q0, [x25, #240]
	ldr	q0, [x22, #16]
	str	q0, [x25, #176]
	cbz	x27, .LBB0d6e4079_142
	mov	x0, x22
	bl	rattle_dealloc
.LBB0d6e4079_142:
	ldr	x8, [sp, #16]
	cbz	x8, .LBB0d6e4079_144
	ldr	x0, [sp, #8]
	bl	rattle_dealloc
.LBB0d6e4079_144:
	ldp	q3, q2, [x25, #192]
	add	x8, sp, #128
	ldp	q0, q1, [x25, #224]
	cmp	w20, #1
	add	x23, sp, #128
	strb	w26, [sp, #128]
	stur	q2, [x25, #38]
	ldr	q2, [x25, #176]
	stp	q0, q1, [x25, #144]
	stur	q2, [x25, #6]
	ldur	q2, [x25, #38]
	stur	q0, [x25, #54]
	ldur	q0, [x25, #6]
	stur	q1, [x25, #70]
	ldur	q1, [x25, #70]
	str	q0, [sp, #144]
	ldur	q0, [x25, #54]
	stur	q3, [x25, #22]
	stp	q0, q1, [x8, #64]
	ldur	q1, [x25, #22]
	str	x20, [sp, #136]
	stp	q1, q2, [x8, #32]
	b.le	.LBB0d6e4079_176
	cmp	w20, #2
	b.eq	.LBB0d6e4079_202
	cmp	w20, #3
	b.ne	.LBB0d6e4079_204
	ldrb	w8, [sp, #148]
	ldp	x21, x9, [sp, #160]
	cmp	w8, #1
	b.ne	.LBB0d6e4079_211
	ldr	w8, [sp, #152]
	add	x22, x9, x9, lsl #1
	b	.LBB0d6e4079_226
.LBB0d6e4079_149:
	ldrh	w8, [x25, #190]
	ldur	w9, [x25, #186]
	ldr	x22, [x25, #176]
	ldrb	w21, [x25, #184]
	ldrb	w26, [x25, #185]
	orr	x23, x9, x8, lsl #32
	ldp	x27, x8, [x25, #192]
	str	x8, [sp, #8]
	ldr	x8, [x25, #216]
	str	x8, [sp, #16]
	cbnz	x28, .LBB0d6e4079_137
	b	.LBB0d6e4079_138
.LBB0d6e4079_150:
	sub	x21, x29, #112
	add	x23, x22, #16
.LBB0d6e4079_151:
	ldr	q0, [x23, #16]
	ldurb	w8, [x23, #-8]
	sub	x0, x29, #112
	stur	q0, [x21, #24]
	ldr	q0, [x23, #32]
	stur	q0, [x21, #40]
	ldr	q0, [x23, #48]
	stur	q0, [x21, #56]
	ldr	q0, [x23, #64]
	stur	q0, [x21, #72]
	ldr	q0, [x23], #96
	str	x8, [x25, #288]
	stur	q0, [x21, #8]
	bl	hll_sketch.mode.Mode.drop.309f015d8caa795c
	subs	x20, x20, #1
	b.ne	.LBB0d6e4079_151
.LBB0d6e4079_152:
	cbz	x27, .LBB0d6e4079_154
	mov	x0, x22
	bl	rattle_dealloc
.LBB0d6e4079_154:
	ldr	x8, [sp, #16]
	cbz	x8, .LBB0d6e4079_156
	ldr	x0, [sp, #8]
	bl	rattle_dealloc
.LBB0d6e4079_156:
	mov	w23, wzr
	mov	w26, #4
	mov	x21, xzr
	b	.LBB0d6e4079_119
.LBB0d6e4079_157:
	cmp	w26, #1
	b.gt	.LBB0d6e4079_166
	mov	x20, xzr
	cbnz	w26, .LBB0d6e4079_162
.LBB0d6e4079_159:
	mov	w8, #6
	adrp	x9, .Lstatic.13
	add	x9, x9, :lo12:.Lstatic.13
	sub	x19, x8, x20
	add	x1, x9, x20
	mov	w0, #2
	mov	x2, x19
	bl	write
	tbnz	x0, #63, .LBB0d6e4079_199
	cmp	x0, x19
	csel	x8, x0, x19, lo
	cbz	x8, .LBB0d6e4079_200
	add	x20, x8, x20
	cmp	x20, #5
	b.ls	.LBB0d6e4079_159
	b	.LBB0d6e4079_198
.LBB0d6e4079_162:
	mov	w8, #5
	adrp	x9, .Lstatic.14
	add	x9, x9, :lo12:.Lstatic.14
	sub	x19, x8, x20
	add	x1, x9, x20
	mov	w0, #2
	mov	x2, x19
	bl	write
	tbnz	x0, #63, .LBB0d6e4079_199
	cmp	x0, x19
	csel	x8, x0, x19, lo
	cbz	x8, .LBB0d6e4079_200
	add	x20, x8, x20
	cmp	x20, #4
	b.ls	.LBB0d6e4079_162
	b	.LBB0d6e4079_198
.LBB0d6e4079_165:
	mov	w23, wzr
	mov	w26, #5
	ldp	x21, x25, [sp, #24]
	ldr	x22, [sp, #64]
	ldp	x24, x20, [sp, #40]
	cbnz	x25, .LBB0d6e4079_109
	b	.LBB0d6e4079_111
.LBB0d6e4079_166:
	cmp	w26, #2
	b.ne	.LBB0d6e4079_182
	mov	x20, xzr
.LBB0d6e4079_168:
	mov	w8, #3
	adrp	x9, .Lstatic.15
	add	x9, x9, :lo12:.Lstatic.15
	sub	x19, x8, x20
	add	x1, x9, x20
	mov	w0, #2
	mov	x2, x19
	bl	write
	tbnz	x0, #63, .LBB0d6e4079_199
	cmp	x0, x19
	csel	x8, x0, x19, lo
	cbz	x8, .LBB0d6e4079_200
	add	x20, x8, x20
	cmp	x20, #2
	b.ls	.LBB0d6e4079_168
	b	.LBB0d6e4079_198
.LBB0d6e4079_171:
	cmp	w26, #4
	b.ne	.LBB0d6e4079_194
	mov	x20, xzr
.LBB0d6e4079_173:
	mov	w8, #5
	adrp	x9, .Lstatic.16
	add	x9, x9, :lo12:.Lstatic.16
	sub	x19, x8, x20
	add	x1, x9, x20
	mov	w0, #2
	mov	x2, x19
	bl	write
	tbnz	x0, #63, .LBB0d6e4079_199
	cmp	x0, x19
	csel	x8, x0, x19, lo
	cbz	x8, .LBB0d6e4079_200
	add	x20, x8, x20
	cmp	x20, #4
	b.ls	.LBB0d6e4079_173
	b	.LBB0d6e4079_198
.LBB0d6e4079_176:
	cbnz	w20, .LBB0d6e4079_206
	ldrb	w8, [sp, #200]
	ldr	x9, [sp, #152]
	mov	x10, #13194139533312
	movi	v0.2d, #0000000000000000
	sub	x0, x29, #112
	add	x1, x23, #16
	ubfiz	w8, w8, #2, #2
	cmp	x9, #0
	sub	x2, x29, #224
	mov	w3, #8
	lsl	x8, x8, #56
	stp	q0, q0, [x25, #288]
	bfi	x8, x9, #48, #8
	mov	x9, #8796093022208
	csel	x9, x10, x9, eq
	orr	x8, x8, x9
	mov	x9, #258
	orr	x8, x8, x26, lsl #24
	movk	x9, #7, lsl #16
	movk	x9, #3, lsl #32
	orr	x8, x8, x9
	str	x8, [x25, #176]
	b	.LBB0d6e4079_207
.LBB0d6e4079_178:
	mov	x20, xzr
.LBB0d6e4079_179:
	mov	w8, #4
	adrp	x9, .Lstatic.18
	add	x9, x9, :lo12:.Lstatic.18
	sub	x19, x8, x20
	add	x1, x9, x20
	mov	w0, #2
	mov	x2, x19
	bl	write
	tbnz	x0, #63, .LBB0d6e4079_199
	cmp	x0, x19
	csel	x8, x0, x19, lo
	cbz	x8, .LBB0d6e4079_200
	add	x20, x8, x20
	cmp	x20, #3
	b.ls	.LBB0d6e4079_179
	b	.LBB0d6e4079_198
.LBB0d6e4079_182:
	mov	x20, xzr
.LBB0d6e4079_183:
	mov	w8, #6
	adrp	x9, .Lstatic.1
	add	x9, x9, :lo12:.Lstatic.1
	sub	x19, x8, x20
	add	x1, x9, x20
	mov	w0, #2
	mov	x2, x19
	bl	write
	tbnz	x0, #63, .LBB0d6e4079_199
	cmp	x0, x19
	csel	x8, x0, x19, lo
	cbz	x8, .LBB0d6e4079_200
	add	x20, x8, x20
	cmp	x20, #5
	b.ls	.LBB0d6e4079_183
	adrp	x8, .Lswitch.table.main.327.rel
	add	x8, x8, :lo12:.Lswitch.table.main.327.rel
	adrp	x10, .Lswitch.table.main
	add	x10, x10, :lo12:.Lswitch.table.main
	ldrsw	x9, [x8, w23, uxtw #2]
	mov	x19, xzr
	ldr	x20, [x10, w23, uxtw #3]
	add	x21, x8, x9
.LBB0d6e4079_187:
	add	x1, x21, x19
	sub	x2, x20, x19
	mov	w0, #2
	sub	x22, x20, x19
	bl	write
	tbnz	x0, #63, .LBB0d6e4079_199
	cmp	x0, x22
	csel	x8, x0, x22, lo
	cbz	x8, .LBB0d6e4079_200
	add	x19, x8, x19
	cmp	x19, x20
	b.lo	.LBB0d6e4079_187
	b	.LBB0d6e4079_198
.LBB0d6e4079_190:
	mov	x20, xzr
.LBB0d6e4079_191:
	mov	w8, #4
	adrp	x9, .Lstatic.7
	add	x9, x9, :lo12:.Lstatic.7
	sub	x19, x8, x20
	add	x1, x9, x20
	mov	w0, #2
	mov	x2, x19
	bl	write
	tbnz	x0, #63, .LBB0d6e4079_199
	cmp	x0, x19
	csel	x8, x0, x19, lo
	cbz	x8, .LBB0d6e4079_200
	add	x20, x8, x20
	cmp	x20, #3
	b.ls	.LBB0d6e4079_191
	b	.LBB0d6e4079_198
.LBB0d6e4079_194:
	mov	x20, xzr
.LBB0d6e4079_195:
	mov	w8, #6
	adrp	x9, .Lstatic.17
	add	x9, x9, :lo12:.Lstatic.17
	sub	x19, x8, x20
	add	x1, x9, x20
	mov	w0, #2
	mov	x2, x19
	bl	write
	tbnz	x0, #63, .LBB0d6e4079_199
	cmp	x0, x19
	csel	x8, x0, x19, lo
	cbz	x8, .LBB0d6e4079_200
	add	x20, x8, x20
	cmp	x20, #5
	b.ls	.LBB0d6e4079_195
.LBB0d6e4079_198:
	adrp	x1, .Lstatic.9
	add	x1, x1, :lo12:.Lstatic.9
	mov	w0, #2
	mov	w2, #1
	bl	write
	tbz	x0, #63, .LBB0d6e4079_200
.LBB0d6e4079_199:
	add	x0, sp, #128
	bl	std_io.io.error.last_error
.LBB0d6e4079_200:
	mov	w0, #1
.LBB0d6e4079_201:
	add	sp, sp, #16, lsl #12
	add	sp, sp, #720
	ldp	x20, x19, [sp, #80]
	ldp	x22, x21, [sp, #64]
	ldp	x24, x23, [sp, #48]
	ldp	x26, x25, [sp, #32]
	ldp	x28, x27, [sp, #16]
	ldp	x29, x30, [sp], #96
	ret
.LBB0d6e4079_202:
	movi	v0.2d, #0000000000000000
	ldrb	w22, [sp, #176]
	cmp	w22, #1
	stp	q0, q0, [x25, #96]
	b.ne	.LBB0d6e4079_208
	ldr	x8, [sp, #184]
	ldr	x8, [x8, #16]
	b	.LBB0d6e4079_209
.LBB0d6e4079_204:
	ldrb	w8, [sp, #148]
	ldp	x21, x22, [sp, #160]
	cmp	w8, #1
	b.ne	.LBB0d6e4079_234
	ldr	w8, [sp, #152]
	b	.LBB0d6e4079_238
.LBB0d6e4079_206:
	mov	w8, #3
	mov	w9, #1
	movi	v1.2d, #0000000000000000
	fmov	s0, w8
	mov	w8, #7
	sub	x0, x29, #112
	add	x1, x23, #16
	sub	x2, x29, #224
	mov	w3, #12
	mov	v0.b[1], w9
	stp	q1, q1, [x25, #288]
	mov	v0.b[2], w8
	add	x8, sp, #128
	add	x8, x8, #16
	mov	v0.b[3], w26
	ld1	{ v0.b }[4], [x8]
	mov	w8, #8
	mov	v0.b[5], w8
	ldrb	w8, [sp, #200]
	bfi	w9, w8, #2, #2
	ldr	x8, [sp, #152]
	mov	v0.b[6], wzr
	str	w8, [x25, #184]
	mov	v0.b[7], w9
	str	d0, [x25, #176]
.LBB0d6e4079_207:
	bl	hll_coupons.container.Container.image.8a2f8b2564a2651f
	ldp	x20, x27, [x25, #296]
	ldrb	w8, [x25, #288]
	ldrb	w22, [x25, #289]
	ldr	x26, [x25, #312]
	b	.LBB0d6e4079_323
.LBB0d6e4079_208:
	mov	x8, xzr
.LBB0d6e4079_209:
	ldrb	w9, [sp, #144]
	mov	w11, #1
	ldr	w10, [sp, #148]
	ldur	q0, [x25, #54]
	ldur	q1, [x25, #70]
	add	x0, sp, #16, lsl #12
	sub	w9, w9, #1
	str	w10, [x25, #320]
	add	x0, x0, #416
	lsl	x9, x11, x9
	ldrb	w11, [sp, #145]
	sub	x1, x29, #112
	stp	q0, q1, [x25, #288]
	add	x9, x9, x8, lsl #2
	orr	w10, w26, w11, lsl #24
	str	w8, [x25, #324]
	orr	w2, w10, #0x80000
	add	x3, x9, #40
	bl	hll_registers.preamble.Preamble.start_image.309f015d8caa795c
	ldrb	w8, [x25, #96]
	cbz	w8, .LBB0d6e4079_242
	ldrb	w22, [x25, #97]
	b	.LBB0d6e4079_240
.LBB0d6e4079_211:
	add	x22, x9, x9, lsl #1
	mov	x9, #-6148914691236517206
	adrp	x12, .LCPI0d6e4079_2
	movk	x9, #43691
	mov	x20, xzr
	umulh	x8, x22, x9
	lsr	x11, x22, #11
	cmp	x11, #3
	adrp	x11, .LCPI0d6e4079_1
	lsr	x10, x8, #12
	add	x8, x10, x10, lsl #1
	lsl	x8, x8, #11
	sub	x13, x22, x8
	b.lo	.LBB0d6e4079_216
	movi	v0.2d, #0000000000000000
	mov	x14, xzr
	add	x16, x21, #24
	addp	v0.8h, v0.8h, v0.8h
	uaddlp	v1.4s, v0.8h
	uadalp	v1.4s, v0.8h
	add	v0.4s, v1.4s, v1.4s
	addv	s0, v0.4s
	fmov	w15, s0
.LBB0d6e4079_213:
	movi	v3.2d, #0000000000000000
	movi	v2.2d, #0000000000000000
	mov	w17, #128
	movi	v1.2d, #0000000000000000
	movi	v0.2d, #0000000000000000
	mov	x18, x16
.LBB0d6e4079_214:
	ldur	q4, [x18, #-24]
	ldur	q5, [x18, #-12]
	movi	v18.4s, #4
	ldr	q6, [x11, :lo12:.LCPI0d6e4079_1]
	ldr	q7, [x18]
	subs	x17, x17, #1
	ldur	q16, [x18, #8]
	ldr	q17, [x12, :lo12:.LCPI0d6e4079_2]
	add	x18, x18, #48
	tbl	v5.16b, { v5.16b }, v6.16b
	tbl	v4.16b, { v4.16b }, v6.16b
	tbl	v6.16b, { v7.16b }, v6.16b
	tbl	v16.16b, { v16.16b }, v17.16b
	ushl	v4.8h, v4.8h, v18.8h
	ushl	v5.8h, v5.8h, v18.8h
	ushl	v6.8h, v6.8h, v18.8h
	ushl	v7.8h, v16.8h, v18.8h
	movi	v16.8h, #63
	ushr	v17.8h, v5.8h, #4
	ushr	v18.8h, v4.8h, #4
	ushr	v20.8h, v6.8h, #4
	ushr	v19.8h, v7.8h, #4
	ushr	v7.8h, v7.8h, #2
	ushr	v6.8h, v6.8h, #2
	ushr	v5.8h, v5.8h, #2
	ushr	v4.8h, v4.8h, #2
	and	v18.16b, v18.16b, v16.16b
	and	v17.16b, v17.16b, v16.16b
	and	v20.16b, v20.16b, v16.16b
	and	v16.16b, v19.16b, v16.16b
	bic	v7.8h, #255
	bic	v6.8h, #255
	bic	v4.8h, #255
	bic	v5.8h, #255
	orr	v7.16b, v16.16b, v7.16b
	orr	v6.16b, v20.16b, v6.16b
	orr	v5.16b, v17.16b, v5.16b
	orr	v4.16b, v18.16b, v4.16b
	cmeq	v7.16b, v7.16b, #0
	cmeq	v6.16b, v6.16b, #0
	cmeq	v4.16b, v4.16b, #0
	cmeq	v5.16b, v5.16b, #0
	sub	v0.16b, v0.16b, v7.16b
	sub	v1.16b, v1.16b, v6.16b
	sub	v2.16b, v2.16b, v5.16b
	sub	v3.16b, v3.16b, v4.16b
	b.ne	.LBB0d6e4079_214
	ushll	v4.8h, v3.8b, #0
	ushll2	v3.8h, v3.16b, #0
	add	x14, x14, #1
	ushll	v5.8h, v2.8b, #0
	ushll2	v2.8h, v2.16b, #0
	add	x18, x20, x15
	mov	w0, #6144
	cmp	x14, x10
	addp	v3.8h, v4.8h, v3.8h
	ushll	v4.8h, v1.8b, #0
	ushll2	v1.8h, v1.16b, #0
	addp	v2.8h, v5.8h, v2.8h
	ushll	v5.8h, v0.8b, #0
	ushll2	v0.8h, v0.16b, #0
	add	x16, x16, x0
	addp	v1.8h, v4.8h, v1.8h
	uaddlp	v3.4s, v3.8h
	addp	v0.8h, v5.8h, v0.8h
	uaddlp	v2.4s, v2.8h
	uadalp	v3.4s, v1.8h
	uadalp	v2.4s, v0.8h
	add	v0.4s, v3.4s, v2.4s
	addv	s0, v0.4s
	fmov	w17, s0
	add	x20, x18, x17
	b.ne	.LBB0d6e4079_213
.LBB0d6e4079_216:
	umulh	x9, x13, x9
	movi	v4.2d, #0000000000000000
	movi	v2.2d, #0000000000000000
	movi	v3.2d, #0000000000000000
	movi	v1.2d, #0000000000000000
	movi	v0.2d, #0000000000000000
	cmp	x13, #48
	lsr	x14, x9, #5
	add	x9, x14, x14, lsl #1
	lsl	x10, x9, #4
	sub	x9, x13, x10
	b.lo	.LBB0d6e4079_219
	add	x13, x8, x21
	add	x13, x13, #32
.LBB0d6e4079_218:
	ldur	q5, [x13, #-32]
	ldur	q6, [x13, #-20]
	movi	v19.4s, #4
	ldr	q7, [x11, :lo12:.LCPI0d6e4079_1]
	ldur	q16, [x13, #-8]
	subs	x14, x14, #1
	ldr	q17, [x13], #48
	ldr	q18, [x12, :lo12:.LCPI0d6e4079_2]
	tbl	v6.16b, { v6.16b }, v7.16b
	tbl	v5.16b, { v5.16b }, v7.16b
	tbl	v7.16b, { v16.16b }, v7.16b
	tbl	v17.16b, { v17.16b }, v18.16b
	ushl	v5.8h, v5.8h, v19.8h
	ushl	v6.8h, v6.8h, v19.8h
	ushl	v7.8h, v7.8h, v19.8h
	ushl	v16.8h, v17.8h, v19.8h
	movi	v17.8h, #63
	ushr	v18.8h, v6.8h, #4
	ushr	v19.8h, v5.8h, #4
	ushr	v21.8h, v7.8h, #4
	ushr	v20.8h, v16.8h, #4
	ushr	v16.8h, v16.8h, #2
	ushr	v7.8h, v7.8h, #2
	ushr	v6.8h, v6.8h, #2
	ushr	v5.8h, v5.8h, #2
	and	v19.16b, v19.16b, v17.16b
	and	v18.16b, v18.16b, v17.16b
	and	v21.16b, v21.16b, v17.16b
	and	v17.16b, v20.16b, v17.16b
	bic	v16.8h, #255
	bic	v7.8h, #255
	bic	v5.8h, #255
	bic	v6.8h, #255
	orr	v16.16b, v17.16b, v16.16b
	orr	v7.16b, v21.16b, v7.16b
	orr	v6.16b, v18.16b, v6.16b
	orr	v5.16b, v19.16b, v5.16b
	cmeq	v16.16b, v16.16b, #0
	cmeq	v7.16b, v7.16b, #0
	cmeq	v5.16b, v5.16b, #0
	cmeq	v6.16b, v6.16b, #0
	sub	v0.16b, v0.16b, v16.16b
	sub	v1.16b, v1.16b, v7.16b
	sub	v3.16b, v3.16b, v6.16b
	sub	v2.16b, v2.16b, v5.16b
	b.ne	.LBB0d6e4079_218
.LBB0d6e4079_219:
	cmp	x9, #48
	stp	q4, q4, [x25, #288]
	stp	q4, q4, [x25, #320]
	b.hs	.LBB0d6e4079_256
	mov	x12, #-6148914691236517206
	movk	x12, #43691
	umulh	x11, x9, x12
	lsr	x13, x11, #5
	add	x11, x13, x13, lsl #1
	lsl	x11, x11, #4
	sub	x15, x9, x11
	cmp	x15, #3
	b.lo	.LBB0d6e4079_225
	umulh	x12, x15, x12
	lsl	x13, x13, #6
	cmp	x15, #24
	lsr	x12, x12, #1
	b.hs	.LBB0d6e4079_258
	mov	x14, xzr
.LBB0d6e4079_223:
	add	x8, x8, x11
	add	x11, x14, x14, lsl #1
	add	x8, x8, x10
	add	x10, x13, x14, lsl #2
	add	x8, x8, x11
	sub	x11, x29, #112
	add	x13, x8, x21
	sub	x8, x14, x12
	add	x10, x11, x10
	add	x11, x13, #2
.LBB0d6e4079_224:
	ldurb	w12, [x11, #-2]
	ldurb	w13, [x11, #-1]
	movi	v6.4h, #63
	ldrb	w15, [x11], #3
	adds	x8, x8, #1
	mov	w14, w12
	fmov	s4, w12
	bfi	w14, w13, #8, #8
	lsl	w13, w13, #8
	lsr	w14, w14, #6
	orr	w12, w13, w15, lsl #16
	mov	v4.h[1], w14
	lsr	w12, w12, #12
	mov	v4.h[2], w12
	fmov	d5, d4
	mov	v4.h[3], w15
	bic	v4.4h, #255, lsl #8
	and	v5.8b, v5.8b, v6.8b
	ldr	s6, [x10]
	ushr	v4.4h, v4.4h, #2
	mov	v5.h[3], v4.h[3]
	ushll	v4.8h, v6.8b, #0
	umax	v4.4h, v5.4h, v4.4h
	uzp1	v4.8b, v4.8b, v0.8b
	st1	{ v4.s }[0], [x10], #4
	b.lo	.LBB0d6e4079_224
.LBB0d6e4079_225:
	ushll	v4.8h, v2.8b, #0
	ushll2	v2.8h, v2.16b, #0
	mov	w8, #171
	ushll	v5.8h, v3.8b, #0
	ushll2	v3.8h, v3.16b, #0
	mul	w8, w9, w8
	sub	x0, x29, #224
	addp	v2.8h, v4.8h, v2.8h
	ushll	v4.8h, v1.8b, #0
	ushll2	v1.8h, v1.16b, #0
	addp	v3.8h, v5.8h, v3.8h
	ushll	v5.8h, v0.8b, #0
	ushll2	v0.8h, v0.16b, #0
	lsr	w8, w8, #7
	addp	v1.8h, v4.8h, v1.8h
	uaddlp	v2.4s, v2.8h
	addp	v0.8h, v5.8h, v0.8h
	uaddlp	v3.4s, v3.8h
	and	x1, x8, #0xfc
	uadalp	v2.4s, v1.8h
	uadalp	v3.4s, v0.8h
	add	v0.4s, v2.4s, v3.4s
	ldp	q1, q2, [x25, #288]
	addv	s0, v0.4s
	stp	q1, q2, [x25, #176]
	ldp	q3, q1, [x25, #320]
	fmov	w27, s0
	stp	q3, q1, [x25, #208]
	bl	hll_kernels.kernels.zeros_in
	add	w8, w0, w20
	add	w8, w27, w8
.LBB0d6e4079_226:
	movi	v0.2d, #0000000000000000
	ldur	q1, [x25, #46]
	ldur	q2, [x25, #62]
	sub	x0, x29, #224
	sub	x1, x29, #112
	orr	w2, w26, #0x100
	add	x3, x22, #41
	str	w8, [x25, #320]
	stp	q1, q2, [x25, #288]
	stp	q0, q0, [x25, #176]
	str	wzr, [x25, #324]
	bl	hll_registers.preamble.Preamble.start_image.309f015d8caa795c
	ldrb	w8, [x25, #176]
	cbnz	w8, .LBB0d6e4079_239
	ldur	q0, [x25, #184]
	ldr	x26, [x25, #200]
	str	q0, [x25, #96]
	ldr	x8, [x25, #104]
	str	x26, [x25, #112]
	sub	x9, x26, x8
	cmp	x22, x9
	b.hi	.LBB0d6e4079_318
	ldr	x20, [x25, #96]
	add	x28, x8, x22
	add	x0, x20, x8
	sub	x9, x0, x21
	cmp	x9, x22
	b.hs	.LBB0d6e4079_320
.LBB0d6e4079_229:
	cmp	x22, #8
	b.lo	.LBB0d6e4079_231
	add	x9, x8, x20
	sub	x9, x9, x21
	cmp	x9, #32
	b.hs	.LBB0d6e4079_272
.LBB0d6e4079_231:
	mov	x9, xzr
.LBB0d6e4079_232:
	add	x10, x9, x8
	sub	x8, x9, x22
	add	x9, x21, x9
	add	x10, x20, x10
.LBB0d6e4079_233:
	ldrb	w11, [x9], #1
	adds	x8, x8, #1
	strb	w11, [x10], #1
	b.lo	.LBB0d6e4079_233
	b	.LBB0d6e4079_321
.LBB0d6e4079_234:
	lsr	x28, x22, #13
	mov	x27, xzr
	cbz	x28, .LBB0d6e4079_237
	mov	x20, x21
.LBB0d6e4079_236:
	mov	x0, x20
	mov	w1, #8192
	bl	hll_kernels.kernels.zeros_in
	subs	x28, x28, #1
	add	x27, x0, x27
	add	x20, x20, #2, lsl #12
	b.ne	.LBB0d6e4079_236
.LBB0d6e4079_237:
	and	x8, x22, #0xffffffffffffe000
	and	x1, x22, #0x1fff
	add	x0, x21, x8
	bl	hll_kernels.kernels.zeros_in
	add	w8, w0, w27
.LBB0d6e4079_238:
	movi	v0.2d, #0000000000000000
	ldur	q1, [x25, #46]
	ldur	q2, [x25, #62]
	sub	x0, x29, #224
	sub	x1, x29, #112
	orr	w2, w26, #0x200
	add	x3, x22, #40
	str	w8, [x25, #320]
	stp	q1, q2, [x25, #288]
	stp	q0, q0, [x25, #176]
	str	wzr, [x25, #324]
	bl	hll_registers.preamble.Preamble.start_image.309f015d8caa795c
	ldrb	w8, [x25, #176]
	cbz	w8, .LBB0d6e4079_249
.LBB0d6e4079_239:
	ldrb	w22, [x25, #177]
.LBB0d6e4079_240:
	mov	x20, xzr
	mov	x27, xzr
	mov	x26, xzr
.LBB0d6e4079_241:
	mov	w8, #1
	b	.LBB0d6e4079_323
.LBB0d6e4079_242:
	ldur	q0, [x25, #104]
	ldr	x26, [x25, #120]
	ldp	x1, x21, [sp, #152]
	str	q0, [x25, #256]
	ldr	x27, [x25, #264]
	str	x26, [x25, #272]
	sub	x8, x26, x27
	cmp	x21, x8
	b.hi	.LBB0d6e4079_288
	ldr	x20, [x25, #256]
	add	x8, x20, x27
	sub	x8, x8, x1
	cmp	x8, x21
	b.hs	.LBB0d6e4079_290
.LBB0d6e4079_244:
	cmp	x21, #8
	b.lo	.LBB0d6e4079_246
	add	x8, x27, x20
	sub	x8, x8, x1
	cmp	x8, #32
	b.hs	.LBB0d6e4079_268
.LBB0d6e4079_246:
	mov	x8, xzr
.LBB0d6e4079_247:
	add	x10, x8, x27
	sub	x9, x21, x8
	add	x8, x1, x8
	add	x10, x20, x10
.LBB0d6e4079_248:
	ldrb	w11, [x8], #1
	subs	x9, x9, #1
	strb	w11, [x10], #1
	b.ne	.LBB0d6e4079_248
	b	.LBB0d6e4079_291
.LBB0d6e4079_249:
	ldur	q0, [x25, #184]
	ldr	x26, [x25, #200]
	str	q0, [x25, #96]
	ldr	x8, [x25, #104]
	str	x26, [x25, #112]
	sub	x9, x26, x8
	cmp	x22, x9
	b.hi	.LBB0d6e4079_307
	ldr	x20, [x25, #96]
	add	x27, x8, x22
	add	x0, x20, x8
	sub	x9, x0, x21
	cmp	x9, x22
	b.hs	.LBB0d6e4079_309
.LBB0d6e4079_251:
	cmp	x22, #8
	b.lo	.LBB0d6e4079_253
	add	x9, x8, x20
	sub	x9, x9, x21
	cmp	x9, #32
	b.hs	.LBB0d6e4079_270
.LBB0d6e4079_253:
	mov	x9, xzr
.LBB0d6e4079_254:
	sub	x10, x22, x9
	add	x11, x21, x9
	add	x8, x9, x8
.LBB0d6e4079_255:
	ldrb	w9, [x11], #1
	subs	x10, x10, #1
	strb	w9, [x20, x8]
	add	x8, x8, #1
	b.ne	.LBB0d6e4079_255
	b	.LBB0d6e4079_310
.LBB0d6e4079_256:
	add	x8, x8, x10
	sub	x9, x29, #112
	add	x8, x8, x21
	add	x8, x8, #32
.LBB0d6e4079_257:
	ldr	q0, [x11, :lo12:.LCPI0d6e4079_1]
	ldur	q1, [x8, #-8]
	movi	v6.4s, #4
	ldr	q3, [x8]
	ldr	q4, [x12, :lo12:.LCPI0d6e4079_2]
	ldur	q2, [x8, #-32]
	tbl	v1.16b, { v1.16b }, v0.16b
	ldur	q5, [x8, #-20]
	add	x8, x8, #48
	tbl	v3.16b, { v3.16b }, v4.16b
	tbl	v2.16b, { v2.16b }, v0.16b
	movi	v4.8h, #63
	tbl	v0.16b, { v5.16b }, v0.16b
	ushl	v1.8h, v1.8h, v6.8h
	ushl	v3.8h, v3.8h, v6.8h
	ushl	v2.8h, v2.8h, v6.8h
	ushl	v0.8h, v0.8h, v6.8h
	ushr	v5.8h, v1.8h, #4
	ushr	v1.8h, v1.8h, #2
	ushr	v6.8h, v3.8h, #4
	ushr	v3.8h, v3.8h, #2
	ushr	v7.8h, v2.8h, #4
	ushr	v16.8h, v0.8h, #4
	ushr	v2.8h, v2.8h, #2
	ushr	v0.8h, v0.8h, #2
	and	v5.16b, v5.16b, v4.16b
	bic	v1.8h, #255
	and	v6.16b, v6.16b, v4.16b
	bic	v3.8h, #255
	and	v7.16b, v7.16b, v4.16b
	bic	v2.8h, #255
	and	v4.16b, v16.16b, v4.16b
	bic	v0.8h, #255
	orr	v1.16b, v5.16b, v1.16b
	orr	v3.16b, v6.16b, v3.16b
	ldp	q5, q6, [x9, #32]
	orr	v2.16b, v7.16b, v2.16b
	orr	v0.16b, v4.16b, v0.16b
	umax	v1.16b, v5.16b, v1.16b
	ldp	q4, q5, [x9]
	umax	v3.16b, v6.16b, v3.16b
	umax	v2.16b, v4.16b, v2.16b
	umax	v0.16b, v5.16b, v0.16b
	stp	q1, q3, [x9, #32]
	stp	q2, q0, [x9], #64
	b	.LBB0d6e4079_257
.LBB0d6e4079_258:
	sub	x16, x12, #1
	sub	x14, x29, #112
	lsl	x18, x16, #2
	add	x0, x14, x13
	add	x14, x0, #3
	add	x17, x14, x18
	cmp	x17, x14
	mov	x14, xzr
	b.lo	.LBB0d6e4079_223
	add	x17, x0, #2
	add	x1, x17, x18
	cmp	x1, x17
	b.lo	.LBB0d6e4079_223
	sub	x17, x29, #112
	add	x17, x17, x13
	add	x1, x17, x18
	cmp	x1, x17
	b.lo	.LBB0d6e4079_223
	add	x0, x0, #1
	add	x18, x0, x18
	cmp	x18, x0
	b.lo	.LBB0d6e4079_223
	lsr	x16, x16, #62
	cbnz	x16, .LBB0d6e4079_223
	cmp	x15, #48
	adrp	x15, .LCPI0d6e4079_5
	adrp	x16, .LCPI0d6e4079_6
	b.hs	.LBB0d6e4079_348
	mov	x14, xzr
.LBB0d6e4079_265:
	mov	x17, x14
	add	x14, x8, x11
	add	x18, x17, x17, lsl #1
	add	x0, x14, x10
	add	x1, x13, x17, lsl #2
	and	x14, x12, #0x7ffffffffffffff8
	add	x18, x0, x18
	sub	x0, x29, #112
	sub	x17, x17, x14
	add	x18, x21, x18
	add	x0, x0, x1
.LBB0d6e4079_266:
	ld3	{ v4.8b, v5.8b, v6.8b }, [x18], #24
	adrp	x1, .LCPI0d6e4079_8
	ldr	q7, [x15, :lo12:.LCPI0d6e4079_5]
	adds	x17, x17, #8
	ldr	q16, [x16, :lo12:.LCPI0d6e4079_6]
	tbl	v17.16b, { v5.16b }, v7.16b
	tbl	v18.16b, { v5.16b }, v16.16b
	tbl	v19.16b, { v6.16b }, v7.16b
	tbl	v20.16b, { v6.16b }, v16.16b
	tbl	v7.16b, { v4.16b }, v7.16b
	tbl	v16.16b, { v4.16b }, v16.16b
	shl	v17.4s, v17.4s, #8
	shl	v18.4s, v18.4s, #8
	shl	v19.4s, v19.4s, #16
	shl	v20.4s, v20.4s, #16
	orr	v7.16b, v17.16b, v7.16b
	orr	v17.16b, v19.16b, v17.16b
	orr	v16.16b, v18.16b, v16.16b
	orr	v18.16b, v20.16b, v18.16b
	ushr	v20.4s, v7.4s, #6
	ldr	q7, [x1, :lo12:.LCPI0d6e4079_8]
	ushr	v19.4s, v16.4s, #6
	ushr	v17.4s, v17.4s, #12
	ushr	v16.4s, v18.4s, #12
	movi	v18.8b, #63
	tbl	v19.16b, { v19.16b, v20.16b }, v7.16b
	ld4	{ v20.8b, v21.8b, v22.8b, v23.8b }, [x0]
	tbl	v7.16b, { v16.16b, v17.16b }, v7.16b
	and	v16.8b, v4.8b, v18.8b
	ushr	v4.8b, v6.8b, #2
	and	v17.8b, v19.8b, v18.8b
	and	v7.8b, v7.8b, v18.8b
	umax	v24.8b, v16.8b, v20.8b
	umax	v25.8b, v17.8b, v21.8b
	umax	v26.8b, v7.8b, v22.8b
	umax	v27.8b, v4.8b, v23.8b
	st4	{ v24.8b, v25.8b, v26.8b, v27.8b }, [x0], #32
	b.ne	.LBB0d6e4079_266
	cmp	x12, x14
	b.ne	.LBB0d6e4079_223
	b	.LBB0d6e4079_225
.LBB0d6e4079_268:
	cmp	x21, #32
	b.hs	.LBB0d6e4079_274
	mov	x8, xzr
	b	.LBB0d6e4079_278
.LBB0d6e4079_270:
	cmp	x22, #32
	b.hs	.LBB0d6e4079_281
	mov	x9, xzr
	b	.LBB0d6e4079_285
.LBB0d6e4079_272:
	cmp	x22, #32
	b.hs	.LBB0d6e4079_311
	mov	x9, xzr
	b	.LBB0d6e4079_315
.LBB0d6e4079_274:
	add	x11, x27, x20
	and	x9, x21, #0x18
	and	x8, x21, #0xffffffffffffffe0
	add	x10, x1, #16
	add	x11, x11, #16
	and	x12, x21, #0xffffffffffffffe0
.LBB0d6e4079_275:
	ldp	q0, q1, [x10, #-16]
	subs	x12, x12, #32
	add	x10, x10, #32
	stp	q0, q1, [x11, #-16]
	add	x11, x11, #32
	b.ne	.LBB0d6e4079_275
	cmp	x21, x8
	b.eq	.LBB0d6e4079_291
	cbz	x9, .LBB0d6e4079_247
.LBB0d6e4079_278:
	mov	x10, x8
	and	x8, x21, #0xfffffffffffffff8
	add	x11, x27, x10
	sub	x9, x10, x8
	add	x10, x1, x10
	add	x11, x20, x11
.LBB0d6e4079_279:
	ldr	d0, [x10], #8
	adds	x9, x9, #8
	str	d0, [x11], #8
	b.ne	.LBB0d6e4079_279
	cmp	x21, x8
	b.eq	.LBB0d6e4079_291
	b	.LBB0d6e4079_247
.LBB0d6e4079_281:
	add	x12, x8, x20
	and	x10, x22, #0x18
	and	x9, x22, #0xffffffffffffffe0
	add	x11, x21, #16
	add	x12, x12, #16
	and	x13, x22, #0xffffffffffffffe0
.LBB0d6e4079_282:
	ldp	q0, q1, [x11, #-16]
	subs	x13, x13, #32
	add	x11, x11, #32
	stp	q0, q1, [x12, #-16]
	add	x12, x12, #32
	b.ne	.LBB0d6e4079_282
	cmp	x22, x9
	b.eq	.LBB0d6e4079_310
	cbz	x10, .LBB0d6e4079_254
.LBB0d6e4079_285:
	mov	x12, x9
	and	x9, x22, #0xfffffffffffffff8
	sub	x10, x12, x9
	add	x11, x21, x12
	add	x12, x8, x12
.LBB0d6e4079_286:
	ldr	d0, [x11], #8
	adds	x10, x10, #8
	str	d0, [x20, x12]
	add	x12, x12, #8
	b.ne	.LBB0d6e4079_286
	cmp	x22, x9
	b.eq	.LBB0d6e4079_310
	b	.LBB0d6e4079_254
.LBB0d6e4079_288:
	mov	x20, x1
	sub	x0, x29, #144
	mov	x1, x21
	bl	std_alloc.vec.Vec.grow_amortized.e3d5df6901cfba47
	cbz	w0, .LBB0d6e4079_352
	ldp	x27, x26, [x25, #264]
	mov	x1, x20
	ldr	x20, [x25, #256]
	add	x8, x20, x27
	sub	x8, x8, x1
	cmp	x8, x21
	b.lo	.LBB0d6e4079_244
.LBB0d6e4079_290:
	add	x0, x20, x27
	mov	x2, x21
	bl	memmove
.LBB0d6e4079_291:
	cmp	w22, #1
	add	x27, x27, x21
	b.ne	.LBB0d6e4079_310
	movi	v0.2d, #0000000000000000
	ldr	x8, [sp, #184]
	sub	x0, x29, #224
	add	x1, x8, #8
	stp	q0, q0, [x25, #176]
	bl	hll_coupons.container.Container.ascending.9bc580afffac16c1
	ldrb	w8, [x25, #176]
	cbz	w8, .LBB0d6e4079_295
	ldrb	w22, [x25, #177]
	cbz	x26, .LBB0d6e4079_240
	mov	x0, x20
	bl	rattle_dealloc
	b	.LBB0d6e4079_240
.LBB0d6e4079_295:
	ldp	x0, x22, [x25, #184]
	ldr	x8, [x25, #200]
	stp	x20, x27, [x25, #176]
	str	x26, [x25, #192]
	cbz	x22, .LBB0d6e4079_303
	mov	x21, x0
	stp	x8, x0, [sp, #8]
	b	.LBB0d6e4079_298
.LBB0d6e4079_297:
	str	w28, [x20, x27]
	add	x27, x27, #4
	subs	x22, x22, #1
	stp	x27, x26, [x25, #184]
	b.eq	.LBB0d6e4079_301
.LBB0d6e4079_298:
	sub	x8, x26, x27
	ldr	w28, [x21], #4
	cmp	x8, #3
	b.hi	.LBB0d6e4079_297
	sub	x0, x29, #224
	mov	w1, #4
	bl	std_alloc.vec.Vec.grow_amortized.e3d5df6901cfba47
	cbz	w0, .LBB0d6e4079_355
	ldp	x27, x26, [x25, #184]
	ldr	x20, [x25, #176]
	b	.LBB0d6e4079_297
.LBB0d6e4079_301:
	ldr	x20, [x25, #176]
	mov	w21, #1
.LBB0d6e4079_302:
	ldp	x8, x0, [sp, #8]
	b	.LBB0d6e4079_304
.LBB0d6e4079_303:
	mov	w21, #1
.LBB0d6e4079_304:
	cbz	x8, .LBB0d6e4079_306
	bl	rattle_dealloc
.LBB0d6e4079_306:
	tbz	w21, #0, .LBB0d6e4079_240
	b	.LBB0d6e4079_310
.LBB0d6e4079_307:
	add	x0, sp, #16, lsl #12
	mov	x1, x22
	add	x0, x0, #416
	bl	std_alloc.vec.Vec.grow_amortized.e3d5df6901cfba47
	cbz	w0, .LBB0d6e4079_345
	ldp	x8, x26, [x25, #104]
	ldr	x20, [x25, #96]
	add	x27, x8, x22
	add	x0, x20, x8
	sub	x9, x0, x21
	cmp	x9, x22
	b.lo	.LBB0d6e4079_251
.LBB0d6e4079_309:
	mov	x1, x21
	mov	x2, x22
	bl	memmove
.LBB0d6e4079_310:
	mov	w8, wzr
	mov	w22, wzr
	b	.LBB0d6e4079_323
.LBB0d6e4079_311:
	add	x12, x8, x20
	and	x10, x22, #0x18
	and	x9, x22, #0xffffffffffffffe0
	add	x11, x21, #16
	add	x12, x12, #16
	and	x13, x22, #0xffffffffffffffe0
.LBB0d6e4079_312:
	ldp	q0, q1, [x11, #-16]
	subs	x13, x13, #32
	add	x11, x11, #32
	stp	q0, q1, [x12, #-16]
	add	x12, x12, #32
	b.ne	.LBB0d6e4079_312
	cmp	x22, x9
	b.eq	.LBB0d6e4079_321
	cbz	x10, .LBB0d6e4079_232
.LBB0d6e4079_315:
	mov	x11, x9
	and	x9, x22, #0xfffffffffffffff8
	add	x12, x8, x11
	sub	x10, x11, x9
	add	x11, x21, x11
	add	x12, x20, x12
.LBB0d6e4079_316:
	ldr	d0, [x11], #8
	adds	x10, x10, #8
	str	d0, [x12], #8
	b.ne	.LBB0d6e4079_316
	cmp	x22, x9
	b.eq	.LBB0d6e4079_321
	b	.LBB0d6e4079_232
.LBB0d6e4079_318:
	add	x0, sp, #16, lsl #12
	mov	x1, x22
	add	x0, x0, #416
	bl	std_alloc.vec.Vec.grow_amortized.e3d5df6901cfba47
	cbz	w0, .LBB0d6e4079_345
	ldp	x8, x26, [x25, #104]
	ldr	x20, [x25, #96]
	add	x28, x8, x22
	add	x0, x20, x8
	sub	x9, x0, x21
	cmp	x9, x22
	b.lo	.LBB0d6e4079_229
.LBB0d6e4079_320:
	mov	x1, x21
	mov	x2, x22
	bl	memmove
.LBB0d6e4079_321:
	cmp	x26, x28
	stp	x28, x26, [x25, #104]
	b.eq	.LBB0d6e4079_343
.LBB0d6e4079_322:
	mov	w8, wzr
	mov	w22, wzr
	add	x27, x28, #1
	strb	wzr, [x20, x28]
.LBB0d6e4079_323:
	cbz	w8, .LBB0d6e4079_325
	ldp	q0, q1, [x23, #32]
	add	x0, sp, #16, lsl #12
	ldur	q2, [x23, #16]
	ldrb	w8, [sp, #136]
	cmp	w22, #12
	mov	w9, #3
	mov	w10, #5
	add	x0, x0, #128
	stur	q0, [x24, #24]
	csel	w26, w10, w9, eq
	stur	q1, [x24, #40]
	ldp	q0, q1, [x23, #64]
	str	x8, [x24]
	csel	w23, wzr, w22, eq
	stur	q2, [x24, #8]
	stur	q0, [x24, #56]
	stur	q1, [x24, #72]
	bl	hll_sketch.mode.Mode.drop.309f015d8caa795c
	mov	x21, xzr
	b	.LBB0d6e4079_119
.LBB0d6e4079_325:
	ldp	q0, q1, [x23, #32]
	add	x0, sp, #16, lsl #12
	ldrb	w8, [sp, #136]
	ldur	q2, [x23, #16]
	add	x0, x0, #224
	stur	q0, [x24, #120]
	stur	q1, [x24, #136]
	ldp	q0, q1, [x23, #64]
	str	x8, [x24, #96]
	stur	q2, [x24, #104]
	stur	q0, [x24, #152]
	stur	q1, [x24, #168]
	bl	hll_sketch.mode.Mode.drop.309f015d8caa795c
	add	x0, sp, #128
	mov	w1, wzr
	mov	w2, #32768
	add	x22, sp, #128
	bl	memset
	cbz	x27, .LBB0d6e4079_334
	mov	x21, xzr
	add	x22, x22, #1
.LBB0d6e4079_327:
	sub	x8, x27, x21
	mov	w9, #16384
	cmp	x8, #4, lsl #12
	csel	x23, x8, x9, lo
	add	x8, x20, x21
	mov	x9, x22
	mov	x10, x23
.LBB0d6e4079_328:
	ldrb	w11, [x8], #1
	adrp	x13, .Lstatic.10
	add	x13, x13, :lo12:.Lstatic.10
	subs	x10, x10, #1
	lsr	x12, x11, #4
	and	x11, x11, #0xf
	ldrb	w11, [x13, x11]
	ldrb	w12, [x13, x12]
	sturb	w12, [x9, #-1]
	strb	w11, [x9], #2
	b.ne	.LBB0d6e4079_328
	lsl	x24, x23, #1
	mov	x25, xzr
.LBB0d6e4079_330:
	add	x8, sp, #128
	sub	x2, x24, x25
	mov	w0, #1
	add	x1, x8, x25
	sub	x28, x24, x25
	bl	write
	tbnz	x0, #63, .LBB0d6e4079_339
	cmp	x0, x28
	csel	x8, x0, x28, lo
	cbz	x8, .LBB0d6e4079_340
	add	x25, x8, x25
	cmp	x25, x24
	b.lo	.LBB0d6e4079_330
	add	x21, x23, x21
	cmp	x21, x27
	b.lo	.LBB0d6e4079_327
.LBB0d6e4079_334:
	adrp	x1, .Lstatic.9
	add	x1, x1, :lo12:.Lstatic.9
	mov	w0, #1
	mov	w2, #1
	bl	write
	tbnz	x0, #63, .LBB0d6e4079_339
	cbz	x0, .LBB0d6e4079_340
	cbz	x26, .LBB0d6e4079_338
	mov	x0, x20
	bl	rattle_dealloc
.LBB0d6e4079_338:
	mov	w0, wzr
	b	.LBB0d6e4079_201
.LBB0d6e4079_339:
	sub	x0, x29, #112
	bl	std_io.io.error.last_error
.LBB0d6e4079_340:
	cbz	x26, .LBB0d6e4079_342
	mov	x0, x20
	bl	rattle_dealloc
.LBB0d6e4079_342:
	mov	w23, wzr
	mov	w26, #7
	mov	x21, xzr
	b	.LBB0d6e4079_119
.LBB0d6e4079_343:
	add	x0, sp, #16, lsl #12
	mov	w1, #1
	add	x0, x0, #416
	bl	std_alloc.vec.Vec.grow_amortized.e3d5df6901cfba47
	cbz	w0, .LBB0d6e4079_345
	ldp	x28, x26, [x25, #104]
	ldr	x20, [x25, #96]
	b	.LBB0d6e4079_322
.LBB0d6e4079_345:
	ldr	x8, [x25, #112]
	cbz	x8, .LBB0d6e4079_347
	ldr	x0, [x25, #96]
	bl	rattle_dealloc
.LBB0d6e4079_347:
	mov	x20, xzr
	mov	x27, xzr
	mov	x26, xzr
	mov	w22, #12
	b	.LBB0d6e4079_241
.LBB0d6e4079_348:
	add	x14, x21, x8
	and	x0, x12, #0x7ffffffffffffff0
	add	x14, x14, x10
	add	x18, x14, x11
	and	x14, x12, #0x7ffffffffffffff0
.LBB0d6e4079_349:
	ld3	{ v4.16b, v5.16b, v6.16b }, [x18], #48
	adrp	x1, .LCPI0d6e4079_3
	ldr	q7, [x1, :lo12:.LCPI0d6e4079_3]
	adrp	x1, .LCPI0d6e4079_4
	subs	x0, x0, #16
	ldr	q16, [x1, :lo12:.LCPI0d6e4079_4]
	ldr	q17, [x15, :lo12:.LCPI0d6e4079_5]
	adrp	x1, .LCPI0d6e4079_7
	ldr	q19, [x16, :lo12:.LCPI0d6e4079_6]
	tbl	v18.16b, { v5.16b }, v7.16b
	tbl	v20.16b, { v5.16b }, v16.16b
	tbl	v21.16b, { v5.16b }, v17.16b
	tbl	v22.16b, { v6.16b }, v7.16b
	tbl	v7.16b, { v4.16b }, v7.16b
	tbl	v23.16b, { v5.16b }, v19.16b
	tbl	v24.16b, { v6.16b }, v16.16b
	tbl	v16.16b, { v4.16b }, v16.16b
	tbl	v25.16b, { v6.16b }, v17.16b
	tbl	v17.16b, { v4.16b }, v17.16b
	tbl	v26.16b, { v6.16b }, v19.16b
	tbl	v19.16b, { v4.16b }, v19.16b
	shl	v18.4s, v18.4s, #8
	shl	v20.4s, v20.4s, #8
	shl	v21.4s, v21.4s, #8
	shl	v22.4s, v22.4s, #16
	shl	v23.4s, v23.4s, #8
	shl	v24.4s, v24.4s, #16
	shl	v25.4s, v25.4s, #16
	orr	v7.16b, v18.16b, v7.16b
	orr	v16.16b, v20.16b, v16.16b
	shl	v26.4s, v26.4s, #16
	orr	v18.16b, v22.16b, v18.16b
	orr	v17.16b, v21.16b, v17.16b
	orr	v19.16b, v23.16b, v19.16b
	orr	v20.16b, v24.16b, v20.16b
	ushr	v30.4s, v7.4s, #6
	orr	v7.16b, v25.16b, v21.16b
	ushr	v29.4s, v16.4s, #6
	orr	v16.16b, v26.16b, v23.16b
	ushr	v24.4s, v18.4s, #12
	ushr	v28.4s, v17.4s, #6
	ushr	v23.4s, v20.4s, #12
	ldr	q17, [x1, :lo12:.LCPI0d6e4079_7]
	ushr	v27.4s, v19.4s, #6
	ushr	v22.4s, v7.4s, #12
	ushr	v21.4s, v16.4s, #12
	movi	v16.16b, #63
	tbl	v7.16b, { v27.16b, v28.16b, v29.16b, v30.16b }, v17.16b
	ld4	{ v25.16b, v26.16b, v27.16b, v28.16b }, [x17]
	tbl	v17.16b, { v21.16b, v22.16b, v23.16b, v24.16b }, v17.16b
	and	v18.16b, v4.16b, v16.16b
	ushr	v4.16b, v6.16b, #2
	and	v7.16b, v7.16b, v16.16b
	and	v16.16b, v17.16b, v16.16b
	umax	v20.16b, v7.16b, v26.16b
	umax	v19.16b, v18.16b, v25.16b
	umax	v21.16b, v16.16b, v27.16b
	umax	v22.16b, v4.16b, v28.16b
	st4	{ v19.16b, v20.16b, v21.16b, v22.16b }, [x17], #64
	b.ne	.LBB0d6e4079_349
	cmp	x12, x14
	b.eq	.LBB0d6e4079_225
	tbz	w12, #3, .LBB0d6e4079_223
	b	.LBB0d6e4079_265
.LBB0d6e4079_352:
	ldr	x8, [x25, #272]
	cbz	x8, .LBB0d6e4079_354
	ldr	x0, [x25, #256]
	bl	rattle_dealloc
.LBB0d6e4079_354:
	mov	w22, #12
	b	.LBB0d6e4079_240
.LBB0d6e4079_355:
	ldr	x8, [x25, #192]
	cbz	x8, .LBB0d6e4079_357
	ldr	x0, [x25, #176]
	bl	rattle_dealloc
.LBB0d6e4079_357:
	mov	x20, xzr
	mov	x27, xzr
	mov	x26, xzr
	mov	w21, wzr
	mov	w22, #12
	b	.LBB0d6e4079_302
.Lfunc_end0d6e4079:
	.size	main, .Lfunc_end0d6e4079-main

	.type	.Lstatic.1,@object
	.section	.rodata..Lstatic.1,"a",@progbits
.Lstatic.1:
	.ascii	"image "
	.size	.Lstatic.1, 6

	.type	.Lstatic.2,@object
	.section	.rodata..Lstatic.2,"a",@progbits
	.p2align	2, 0x0
.Lstatic.2:
	.asciz	"\200\226\230\000@B\017\000\240\206\001\000\020'\000\000\350\003\000\000d\000\000\000\n\000\000\000\001\000\000\000\000\000\000\000\000\000\000\000\000\000\000\000\000\000\000\000\000\000\000\000\000\000\000\000\000\000\000\000\000\000\000"
	.size	.Lstatic.2, 64

	.type	.Lstatic.4,@object
	.section	.rodata..Lstatic.4,"a",@progbits
.Lstatic.4:
	.ascii	"image"
	.size	.Lstatic.4, 5

	.type	.Lstatic.5,@object
	.section	.rodata..Lstatic.5,"a",@progbits
.Lstatic.5:
	.ascii	"coupon"
	.size	.Lstatic.5, 6

	.type	.Lstatic.6,@object
	.section	.rodata..Lstatic.6,"a",@progbits
.Lstatic.6:
	.ascii	"union"
	.size	.Lstatic.6, 5

	.type	.Lstatic.7,@object
	.section	.rodata.cst4,"aM",@progbits,4
.Lstatic.7:
	.ascii	"fold"
	.size	.Lstatic.7, 4

	.type	.Lstatic.9,@object
	.section	.rodata..Lstatic.9,"a",@progbits
.Lstatic.9:
	.byte	10
	.size	.Lstatic.9, 1

	.type	.Lstatic.10,@object
	.section	.rodata.cst16,"aM",@progbits,16
.Lstatic.10:
	.ascii	"0123456789abcdef"
	.size	.Lstatic.10, 16

	.type	.Lstatic.11,@object
	.section	.rodata..Lstatic.11,"a",@progbits
.Lstatic.11:
	.ascii	"line "
	.size	.Lstatic.11, 5

	.type	.Lstatic.12,@object
	.section	.rodata..Lstatic.12,"a",@progbits
.Lstatic.12:
	.ascii	": "
	.size	.Lstatic.12, 2

	.type	.Lstatic.13,@object
	.section	.rodata..Lstatic.13,"a",@progbits
.Lstatic.13:
	.ascii	"syntax"
	.size	.Lstatic.13, 6

	.type	.Lstatic.14,@object
	.section	.rodata..Lstatic.14,"a",@progbits
.Lstatic.14:
	.ascii	"range"
	.size	.Lstatic.14, 5

	.type	.Lstatic.15,@object
	.section	.rodata..Lstatic.15,"a",@progbits
.Lstatic.15:
	.ascii	"hex"
	.size	.Lstatic.15, 3

	.type	.Lstatic.16,@object
	.section	.rodata..Lstatic.16,"a",@progbits
.Lstatic.16:
	.ascii	"stack"
	.size	.Lstatic.16, 5

	.type	.Lstatic.17,@object
	.section	.rodata..Lstatic.17,"a",@progbits
.Lstatic.17:
	.ascii	"memory"
	.size	.Lstatic.17, 6

	.type	.Lstatic.18,@object
	.section	.rodata.cst4,"aM",@progbits,4
.Lstatic.18:
	.ascii	"read"
	.size	.Lstatic.18, 4

	.type	.Lstatic.19,@object
	.section	.rodata..Lstatic.19,"a",@progbits
.Lstatic.19:
	.ascii	"write"
	.size	.Lstatic.19, 5

	.type	.Lstatic.20,@object
	.section	.rodata..Lstatic.20,"a",@progbits
.Lstatic.20:
	.ascii	"truncated"
	.size	.Lstatic.20, 9

	.type	.Lstatic.21,@object
	.section	.rodata..Lstatic.21,"a",@progbits
.Lstatic.21:
	.ascii	"family"
	.size	.Lstatic.21, 6

	.type	.Lstatic.22,@object
	.section	.rodata..Lstatic.22,"a",@progbits
.Lstatic.22:
	.ascii	"version"
	.size	.Lstatic.22, 7

	.type	.Lstatic.23,@object
	.section	.rodata..Lstatic.23,"a",@progbits
.Lstatic.23:
	.ascii	"lgk"
	.size	.Lstatic.23, 3

	.type	.Lstatic.24,@object
	.section	.rodata..Lstatic.24,"a",@progbits
.Lstatic.24:
	.ascii	"width"
	.size	.Lstatic.24, 5

	.type	.Lstatic.25,@object
	.section	.rodata..Lstatic.25,"a",@progbits
.Lstatic.25:
	.ascii	"stage"
	.size	.Lstatic.25, 5

	.type	.Lstatic.26,@object
	.section	.rodata..Lstatic.26,"a",@progbits
.Lstatic.26:
	.ascii	"preamble"
	.size	.Lstatic.26, 8

	.type	.Lstatic.27,@object
	.section	.rodata..Lstatic.27,"a",@progbits
.Lstatic.27:
	.ascii	"lgarr"
	.size	.Lstatic.27, 5

	.type	.Lstatic.28,@object
	.section	.rodata..Lstatic.28,"a",@progbits
.Lstatic.28:
	.ascii	"count"
	.size	.Lstatic.28, 5

	.type	.Lstatic.29,@object
	.section	.rodata..Lstatic.29,"a",@progbits
.Lstatic.29:
	.ascii	"register"
	.size	.Lstatic.29, 8

	.type	.Lstatic.30,@object
	.section	.rodata..Lstatic.30,"a",@progbits
.Lstatic.30:
	.ascii	"argument"
	.size	.Lstatic.30, 8

	.type	.Lswitch.table.main,@object
	.section	.rodata..Lswitch.table.main,"a",@progbits
	.p2align	3, 0x0
.Lswitch.table.main:
	.xword	9
	.xword	6
	.xword	7
	.xword	3
	.xword	5
	.xword	5
	.xword	8
	.xword	5
	.xword	5
	.xword	6
	.xword	8
	.xword	8
	.xword	6
	.size	.Lswitch.table.main, 104

	.type	.Lswitch.table.main.327.rel,@object
	.section	.rodata..Lswitch.table.main.327.rel,"a",@progbits
	.p2align	2, 0x0
.Lswitch.table.main.327.rel:
	.word	.Lstatic.20-.Lswitch.table.main.327.rel
	.word	.Lstatic.21-.Lswitch.table.main.327.rel
	.word	.Lstatic.22-.Lswitch.table.main.327.rel
	.word	.Lstatic.23-.Lswitch.table.main.327.rel
	.word	.Lstatic.24-.Lswitch.table.main.327.rel
	.word	.Lstatic.25-.Lswitch.table.main.327.rel
	.word	.Lstatic.26-.Lswitch.table.main.327.rel
	.word	.Lstatic.27-.Lswitch.table.main.327.rel
	.word	.Lstatic.28-.Lswitch.table.main.327.rel
	.word	.Lstatic.5-.Lswitch.table.main.327.rel
	.word	.Lstatic.29-.Lswitch.table.main.327.rel
	.word	.Lstatic.30-.Lswitch.table.main.327.rel
	.word	.Lstatic.17-.Lswitch.table.main.327.rel
	.size	.Lswitch.table.main.327.rel, 52

	.ident	"rattle logic=dac8208d650f15bf3e2dc313a14fa4c783a3acf887bdfab66e1714b038d9e11b"
	.section	.note.GNU-stack,"",@progbits
