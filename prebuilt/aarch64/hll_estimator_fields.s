	.file	"rattle"
	.section	.text.std_io.io.error.last_error,"ax",@progbits
	.p2align	2
	.type	std_io.io.error.last_error,@function
std_io.io.error.last_error:
	stp	x29, x30, [sp, #-32]!
	str	x19, [sp, #16]
	mov	x29, sp
	mov	x19, x0
	bl	rattle_errno
	tbnz	w0, #31, .LBBbca4a5a3_4
	sub	w8, w0, #1
	cmp	w8, #121
	b.hi	.LBBbca4a5a3_4
	adrp	x9, .LJTIbca4a5a3_0
	add	x9, x9, :lo12:.LJTIbca4a5a3_0
	adr	x10, .LBBbca4a5a3_3
	ldrb	w11, [x9, x8]
	add	x10, x10, x11, lsl #2
	mov	w8, #1
	br	x10
.LBBbca4a5a3_3:
	mov	w8, #36
	b	.LBBbca4a5a3_5
.LBBbca4a5a3_4:
	mov	w8, #41
.LBBbca4a5a3_5:
	movi	v0.2d, #0000000000000000
	strb	wzr, [x19]
	strb	w8, [x19, #1]
	strh	wzr, [x19, #2]
	str	w0, [x19, #4]
	stur	q0, [x19, #8]
	stur	q0, [x19, #24]
	stur	q0, [x19, #40]
	stur	q0, [x19, #56]
	stur	q0, [x19, #72]
	ldr	x19, [sp, #16]
	ldp	x29, x30, [sp], #32
	ret
.LBBbca4a5a3_6:
	mov	w8, #4
	b	.LBBbca4a5a3_5
.LBBbca4a5a3_7:
	mov	w8, #7
	b	.LBBbca4a5a3_5
.LBBbca4a5a3_8:
	mov	w8, #26
	b	.LBBbca4a5a3_5
.LBBbca4a5a3_9:
	mov	w8, #39
	b	.LBBbca4a5a3_5
.LBBbca4a5a3_10:
	mov	w8, #9
	b	.LBBbca4a5a3_5
.LBBbca4a5a3_11:
	mov	w8, #8
	b	.LBBbca4a5a3_5
.LBBbca4a5a3_12:
	mov	w8, #30
	b	.LBBbca4a5a3_5
.LBBbca4a5a3_13:
	mov	w8, #25
	b	.LBBbca4a5a3_5
.LBBbca4a5a3_14:
	mov	w8, #32
	b	.LBBbca4a5a3_5
.LBBbca4a5a3_15:
	mov	w8, #33
	b	.LBBbca4a5a3_5
.LBBbca4a5a3_16:
	mov	w8, #22
	b	.LBBbca4a5a3_5
.LBBbca4a5a3_17:
	mov	w8, #31
	b	.LBBbca4a5a3_5
.LBBbca4a5a3_18:
	mov	w8, #29
	b	.LBBbca4a5a3_5
.LBBbca4a5a3_19:
	mov	w8, #18
	b	.LBBbca4a5a3_5
.LBBbca4a5a3_20:
	mov	w8, #10
	b	.LBBbca4a5a3_5
.LBBbca4a5a3_21:
	mov	w8, #28
	b	.LBBbca4a5a3_5
.LBBbca4a5a3_22:
	mov	w8, #14
	b	.LBBbca4a5a3_5
.LBBbca4a5a3_23:
	mov	w8, #12
	b	.LBBbca4a5a3_5
.LBBbca4a5a3_24:
	mov	w8, #5
	b	.LBBbca4a5a3_5
.LBBbca4a5a3_25:
	mov	w8, #3
	b	.LBBbca4a5a3_5
.LBBbca4a5a3_26:
	mov	w8, wzr
	b	.LBBbca4a5a3_5
.LBBbca4a5a3_27:
	mov	w8, #13
	b	.LBBbca4a5a3_5
.LBBbca4a5a3_28:
	mov	w8, #38
	b	.LBBbca4a5a3_5
.LBBbca4a5a3_29:
	mov	w8, #11
	b	.LBBbca4a5a3_5
.LBBbca4a5a3_30:
	mov	w8, #35
	b	.LBBbca4a5a3_5
.LBBbca4a5a3_31:
	mov	w8, #34
	b	.LBBbca4a5a3_5
.LBBbca4a5a3_32:
	mov	w8, #20
	b	.LBBbca4a5a3_5
.LBBbca4a5a3_33:
	mov	w8, #15
	b	.LBBbca4a5a3_5
.LBBbca4a5a3_34:
	mov	w8, #19
	b	.LBBbca4a5a3_5
.LBBbca4a5a3_35:
	mov	w8, #16
	b	.LBBbca4a5a3_5
.LBBbca4a5a3_36:
	mov	w8, #6
	b	.LBBbca4a5a3_5
.LBBbca4a5a3_37:
	mov	w8, #27
	b	.LBBbca4a5a3_5
.LBBbca4a5a3_38:
	mov	w8, #24
	b	.LBBbca4a5a3_5
.LBBbca4a5a3_39:
	mov	w8, #2
	b	.LBBbca4a5a3_5
.LBBbca4a5a3_40:
	mov	w8, #17
	b	.LBBbca4a5a3_5
.Lfunc_endbca4a5a3:
	.size	std_io.io.error.last_error, .Lfunc_endbca4a5a3-std_io.io.error.last_error
	.section	.rodata.std_io.io.error.last_error,"a",@progbits
.LJTIbca4a5a3_0:
	.byte	(.LBBbca4a5a3_5-.LBBbca4a5a3_3)>>2
	.byte	(.LBBbca4a5a3_26-.LBBbca4a5a3_3)>>2
	.byte	(.LBBbca4a5a3_4-.LBBbca4a5a3_3)>>2
	.byte	(.LBBbca4a5a3_30-.LBBbca4a5a3_3)>>2
	.byte	(.LBBbca4a5a3_4-.LBBbca4a5a3_3)>>2
	.byte	(.LBBbca4a5a3_4-.LBBbca4a5a3_3)>>2
	.byte	(.LBBbca4a5a3_31-.LBBbca4a5a3_3)>>2
	.byte	(.LBBbca4a5a3_4-.LBBbca4a5a3_3)>>2
	.byte	(.LBBbca4a5a3_4-.LBBbca4a5a3_3)>>2
	.byte	(.LBBbca4a5a3_4-.LBBbca4a5a3_3)>>2
	.byte	(.LBBbca4a5a3_27-.LBBbca4a5a3_3)>>2
	.byte	(.LBBbca4a5a3_28-.LBBbca4a5a3_3)>>2
	.byte	(.LBBbca4a5a3_5-.LBBbca4a5a3_3)>>2
	.byte	(.LBBbca4a5a3_4-.LBBbca4a5a3_3)>>2
	.byte	(.LBBbca4a5a3_4-.LBBbca4a5a3_3)>>2
	.byte	(.LBBbca4a5a3_21-.LBBbca4a5a3_3)>>2
	.byte	(.LBBbca4a5a3_23-.LBBbca4a5a3_3)>>2
	.byte	(.LBBbca4a5a3_17-.LBBbca4a5a3_3)>>2
	.byte	(.LBBbca4a5a3_4-.LBBbca4a5a3_3)>>2
	.byte	(.LBBbca4a5a3_22-.LBBbca4a5a3_3)>>2
	.byte	(.LBBbca4a5a3_33-.LBBbca4a5a3_3)>>2
	.byte	(.LBBbca4a5a3_32-.LBBbca4a5a3_3)>>2
	.byte	(.LBBbca4a5a3_4-.LBBbca4a5a3_3)>>2
	.byte	(.LBBbca4a5a3_4-.LBBbca4a5a3_3)>>2
	.byte	(.LBBbca4a5a3_4-.LBBbca4a5a3_3)>>2
	.byte	(.LBBbca4a5a3_18-.LBBbca4a5a3_3)>>2
	.byte	(.LBBbca4a5a3_37-.LBBbca4a5a3_3)>>2
	.byte	(.LBBbca4a5a3_38-.LBBbca4a5a3_3)>>2
	.byte	(.LBBbca4a5a3_13-.LBBbca4a5a3_3)>>2
	.byte	(.LBBbca4a5a3_40-.LBBbca4a5a3_3)>>2
	.byte	(.LBBbca4a5a3_14-.LBBbca4a5a3_3)>>2
	.byte	(.LBBbca4a5a3_29-.LBBbca4a5a3_3)>>2
	.byte	(.LBBbca4a5a3_4-.LBBbca4a5a3_3)>>2
	.byte	(.LBBbca4a5a3_4-.LBBbca4a5a3_3)>>2
	.byte	(.LBBbca4a5a3_12-.LBBbca4a5a3_3)>>2
	.byte	(.LBBbca4a5a3_15-.LBBbca4a5a3_3)>>2
	.byte	(.LBBbca4a5a3_4-.LBBbca4a5a3_3)>>2
	.byte	(.LBBbca4a5a3_3-.LBBbca4a5a3_3)>>2
	.byte	(.LBBbca4a5a3_35-.LBBbca4a5a3_3)>>2
	.byte	(.LBBbca4a5a3_19-.LBBbca4a5a3_3)>>2
	.byte	(.LBBbca4a5a3_4-.LBBbca4a5a3_3)>>2
	.byte	(.LBBbca4a5a3_4-.LBBbca4a5a3_3)>>2
	.byte	(.LBBbca4a5a3_4-.LBBbca4a5a3_3)>>2
	.byte	(.LBBbca4a5a3_4-.LBBbca4a5a3_3)>>2
	.byte	(.LBBbca4a5a3_4-.LBBbca4a5a3_3)>>2
	.byte	(.LBBbca4a5a3_4-.LBBbca4a5a3_3)>>2
	.byte	(.LBBbca4a5a3_4-.LBBbca4a5a3_3)>>2
	.byte	(.LBBbca4a5a3_4-.LBBbca4a5a3_3)>>2
	.byte	(.LBBbca4a5a3_4-.LBBbca4a5a3_3)>>2
	.byte	(.LBBbca4a5a3_4-.LBBbca4a5a3_3)>>2
	.byte	(.LBBbca4a5a3_4-.LBBbca4a5a3_3)>>2
	.byte	(.LBBbca4a5a3_4-.LBBbca4a5a3_3)>>2
	.byte	(.LBBbca4a5a3_4-.LBBbca4a5a3_3)>>2
	.byte	(.LBBbca4a5a3_4-.LBBbca4a5a3_3)>>2
	.byte	(.LBBbca4a5a3_4-.LBBbca4a5a3_3)>>2
	.byte	(.LBBbca4a5a3_4-.LBBbca4a5a3_3)>>2
	.byte	(.LBBbca4a5a3_4-.LBBbca4a5a3_3)>>2
	.byte	(.LBBbca4a5a3_4-.LBBbca4a5a3_3)>>2
	.byte	(.LBBbca4a5a3_4-.LBBbca4a5a3_3)>>2
	.byte	(.LBBbca4a5a3_4-.LBBbca4a5a3_3)>>2
	.byte	(.LBBbca4a5a3_4-.LBBbca4a5a3_3)>>2
	.byte	(.LBBbca4a5a3_4-.LBBbca4a5a3_3)>>2
	.byte	(.LBBbca4a5a3_4-.LBBbca4a5a3_3)>>2
	.byte	(.LBBbca4a5a3_4-.LBBbca4a5a3_3)>>2
	.byte	(.LBBbca4a5a3_4-.LBBbca4a5a3_3)>>2
	.byte	(.LBBbca4a5a3_4-.LBBbca4a5a3_3)>>2
	.byte	(.LBBbca4a5a3_4-.LBBbca4a5a3_3)>>2
	.byte	(.LBBbca4a5a3_4-.LBBbca4a5a3_3)>>2
	.byte	(.LBBbca4a5a3_4-.LBBbca4a5a3_3)>>2
	.byte	(.LBBbca4a5a3_4-.LBBbca4a5a3_3)>>2
	.byte	(.LBBbca4a5a3_4-.LBBbca4a5a3_3)>>2
	.byte	(.LBBbca4a5a3_4-.LBBbca4a5a3_3)>>2
	.byte	(.LBBbca4a5a3_4-.LBBbca4a5a3_3)>>2
	.byte	(.LBBbca4a5a3_4-.LBBbca4a5a3_3)>>2
	.byte	(.LBBbca4a5a3_4-.LBBbca4a5a3_3)>>2
	.byte	(.LBBbca4a5a3_4-.LBBbca4a5a3_3)>>2
	.byte	(.LBBbca4a5a3_4-.LBBbca4a5a3_3)>>2
	.byte	(.LBBbca4a5a3_4-.LBBbca4a5a3_3)>>2
	.byte	(.LBBbca4a5a3_4-.LBBbca4a5a3_3)>>2
	.byte	(.LBBbca4a5a3_4-.LBBbca4a5a3_3)>>2
	.byte	(.LBBbca4a5a3_4-.LBBbca4a5a3_3)>>2
	.byte	(.LBBbca4a5a3_4-.LBBbca4a5a3_3)>>2
	.byte	(.LBBbca4a5a3_4-.LBBbca4a5a3_3)>>2
	.byte	(.LBBbca4a5a3_4-.LBBbca4a5a3_3)>>2
	.byte	(.LBBbca4a5a3_4-.LBBbca4a5a3_3)>>2
	.byte	(.LBBbca4a5a3_4-.LBBbca4a5a3_3)>>2
	.byte	(.LBBbca4a5a3_4-.LBBbca4a5a3_3)>>2
	.byte	(.LBBbca4a5a3_4-.LBBbca4a5a3_3)>>2
	.byte	(.LBBbca4a5a3_4-.LBBbca4a5a3_3)>>2
	.byte	(.LBBbca4a5a3_4-.LBBbca4a5a3_3)>>2
	.byte	(.LBBbca4a5a3_4-.LBBbca4a5a3_3)>>2
	.byte	(.LBBbca4a5a3_4-.LBBbca4a5a3_3)>>2
	.byte	(.LBBbca4a5a3_4-.LBBbca4a5a3_3)>>2
	.byte	(.LBBbca4a5a3_4-.LBBbca4a5a3_3)>>2
	.byte	(.LBBbca4a5a3_3-.LBBbca4a5a3_3)>>2
	.byte	(.LBBbca4a5a3_4-.LBBbca4a5a3_3)>>2
	.byte	(.LBBbca4a5a3_4-.LBBbca4a5a3_3)>>2
	.byte	(.LBBbca4a5a3_11-.LBBbca4a5a3_3)>>2
	.byte	(.LBBbca4a5a3_10-.LBBbca4a5a3_3)>>2
	.byte	(.LBBbca4a5a3_20-.LBBbca4a5a3_3)>>2
	.byte	(.LBBbca4a5a3_24-.LBBbca4a5a3_3)>>2
	.byte	(.LBBbca4a5a3_4-.LBBbca4a5a3_3)>>2
	.byte	(.LBBbca4a5a3_36-.LBBbca4a5a3_3)>>2
	.byte	(.LBBbca4a5a3_25-.LBBbca4a5a3_3)>>2
	.byte	(.LBBbca4a5a3_4-.LBBbca4a5a3_3)>>2
	.byte	(.LBBbca4a5a3_4-.LBBbca4a5a3_3)>>2
	.byte	(.LBBbca4a5a3_7-.LBBbca4a5a3_3)>>2
	.byte	(.LBBbca4a5a3_4-.LBBbca4a5a3_3)>>2
	.byte	(.LBBbca4a5a3_4-.LBBbca4a5a3_3)>>2
	.byte	(.LBBbca4a5a3_16-.LBBbca4a5a3_3)>>2
	.byte	(.LBBbca4a5a3_39-.LBBbca4a5a3_3)>>2
	.byte	(.LBBbca4a5a3_4-.LBBbca4a5a3_3)>>2
	.byte	(.LBBbca4a5a3_6-.LBBbca4a5a3_3)>>2
	.byte	(.LBBbca4a5a3_4-.LBBbca4a5a3_3)>>2
	.byte	(.LBBbca4a5a3_9-.LBBbca4a5a3_3)>>2
	.byte	(.LBBbca4a5a3_34-.LBBbca4a5a3_3)>>2
	.byte	(.LBBbca4a5a3_4-.LBBbca4a5a3_3)>>2
	.byte	(.LBBbca4a5a3_4-.LBBbca4a5a3_3)>>2
	.byte	(.LBBbca4a5a3_4-.LBBbca4a5a3_3)>>2
	.byte	(.LBBbca4a5a3_4-.LBBbca4a5a3_3)>>2
	.byte	(.LBBbca4a5a3_4-.LBBbca4a5a3_3)>>2
	.byte	(.LBBbca4a5a3_8-.LBBbca4a5a3_3)>>2

	.section	.text.unlikely.std_alloc.vec.Vec.grow_amortized.d7da23479759cf44,"ax",@progbits
	.p2align	2
	.type	std_alloc.vec.Vec.grow_amortized.d7da23479759cf44,@function
std_alloc.vec.Vec.grow_amortized.d7da23479759cf44:
	ldr	x8, [x0, #8]
	cmn	x8, x1
	b.lo	.LBB887cf4d0_2
	mov	w0, wzr
	ret
.LBB887cf4d0_2:
	stp	x29, x30, [sp, #-32]!
	ldr	x10, [x0, #16]
	add	x9, x8, x1
	mov	w11, #8
	cmp	x9, #8
	stp	x20, x19, [sp, #16]
	mov	x29, sp
	lsl	x12, x10, #1
	csel	x11, x9, x11, hi
	lsr	x13, x10, #62
	cmp	x11, x12
	csel	x9, x11, x12, hi
	cmp	x13, #0
	csel	x19, x9, x11, eq
	tbnz	x19, #63, .LBB887cf4d0_7
	cbz	x10, .LBB887cf4d0_6
	mov	x20, x0
	ldr	x0, [x0]
	mov	x1, x8
	mov	x2, x19
	mov	w3, #1
	bl	rattle_realloc
	tbz	w0, #0, .LBB887cf4d0_7
.LBB887cf4d0_5:
	mov	w0, #1
	str	x1, [x20]
	str	x19, [x20, #16]
	ldp	x20, x19, [sp, #16]
	ldp	x29, x30, [sp], #32
	ret
.LBB887cf4d0_6:
	mov	x20, x0
	mov	x0, x9
	mov	w1, #1
	bl	rattle_alloc
	tbnz	w0, #0, .LBB887cf4d0_5
.LBB887cf4d0_7:
	mov	w0, wzr
	ldp	x20, x19, [sp, #16]
	ldp	x29, x30, [sp], #32
	ret
.Lfunc_end887cf4d0:
	.size	std_alloc.vec.Vec.grow_amortized.d7da23479759cf44, .Lfunc_end887cf4d0-std_alloc.vec.Vec.grow_amortized.d7da23479759cf44

	.section	.text.hll_estimator_fields.filter.pass_line.bc2b42e629227ff0,"ax",@progbits
	.p2align	2
	.type	hll_estimator_fields.filter.pass_line.bc2b42e629227ff0,@function
hll_estimator_fields.filter.pass_line.bc2b42e629227ff0:
	stp	x29, x30, [sp, #-96]!
	sub	x9, sp, #7, lsl #12
	stp	x28, x27, [sp, #16]
	mov	x29, sp
	sub	x9, x9, #2048
	stp	x26, x25, [sp, #32]
	stp	x24, x23, [sp, #48]
	stp	x22, x21, [sp, #64]
	stp	x20, x19, [sp, #80]
.LBB72167e3f_1:
	sub	sp, sp, #3072
	cmp	sp, x9
	str	xzr, [sp]
	b.ne	.LBB72167e3f_1
	sub	sp, sp, #2208
	movi	v0.2d, #0000000000000000
	str	xzr, [sp]
	lsr	x22, x3, #1
	ldr	q1, [x1]
	sub	x8, x29, #9
	ldr	x9, [x1, #16]
	mov	x20, x4
	mov	x21, x1
	mov	x19, x0
	str	x8, [x1]
	stp	q0, q1, [sp, #32]
	ldr	x10, [sp, #56]
	str	q0, [sp, #16]
	stp	xzr, xzr, [x1, #8]
	cmp	x10, x22
	csel	x8, x10, x22, lo
	stp	x8, x9, [sp, #56]
	b.hs	.LBB72167e3f_7
	ldr	x24, [sp, #64]
	sub	x23, x22, x8
	sub	x9, x24, x8
	cmp	x23, x9
	b.hi	.LBB72167e3f_50
	add	x25, x8, x23
	cmp	x8, x25
	b.hs	.LBB72167e3f_6
.LBB72167e3f_5:
	ldr	x9, [sp, #48]
	mov	w1, wzr
	mov	x26, x2
	mov	x2, x23
	mov	x23, x3
	add	x0, x9, x8
	bl	memset
	mov	x3, x23
	mov	x2, x26
.LBB72167e3f_6:
	mov	x8, x25
	str	x24, [sp, #64]
.LBB72167e3f_7:
	ldr	x23, [sp, #48]
	tbnz	w3, #0, .LBB72167e3f_26
	cmp	x22, x8
	b.ne	.LBB72167e3f_26
	cbz	x22, .LBB72167e3f_32
	add	x8, x2, #1
	mov	x9, x23
	mov	x10, x22
	b	.LBB72167e3f_13
.LBB72167e3f_11:
	sub	w13, w12, #55
.LBB72167e3f_12:
	add	w11, w13, w11, lsl #4
	subs	x10, x10, #1
	add	x8, x8, #2
	strb	w11, [x9], #1
	b.eq	.LBB72167e3f_32
.LBB72167e3f_13:
	ldurb	w13, [x8, #-1]
	subs	w11, w13, #48
	b.lo	.LBB72167e3f_26
	ldrb	w12, [x8]
	cmp	w13, #57
	b.ls	.LBB72167e3f_18
	cmp	w13, #65
	b.lo	.LBB72167e3f_26
	cmp	w13, #70
	b.hi	.LBB72167e3f_24
	sub	w11, w13, #55
.LBB72167e3f_18:
	subs	w13, w12, #48
	b.lo	.LBB72167e3f_26
.LBB72167e3f_19:
	cmp	w12, #57
	b.ls	.LBB72167e3f_12
	cmp	w12, #65
	b.lo	.LBB72167e3f_26
	cmp	w12, #70
	b.ls	.LBB72167e3f_11
	sub	w13, w12, #97
	cmp	w13, #5
	b.hi	.LBB72167e3f_26
	sub	w13, w12, #87
	b	.LBB72167e3f_12
.LBB72167e3f_24:
	sub	w11, w13, #97
	cmp	w11, #5
	b.hi	.LBB72167e3f_26
	sub	w11, w13, #87
	subs	w13, w12, #48
	b.hs	.LBB72167e3f_19
.LBB72167e3f_26:
	ldr	x8, [sp, #64]
	cbz	x8, .LBB72167e3f_28
	mov	x0, x23
	bl	rattle_dealloc
.LBB72167e3f_28:
	mov	w8, #2
.LBB72167e3f_29:
	mov	w9, #1
	strb	w8, [x19, #1]
	strb	w9, [x19]
.LBB72167e3f_30:
	strb	wzr, [x19, #2]
.LBB72167e3f_31:
	add	sp, sp, #8, lsl #12
	add	sp, sp, #160
	ldp	x20, x19, [sp, #80]
	ldp	x22, x21, [sp, #64]
	ldp	x24, x23, [sp, #48]
	ldp	x26, x25, [sp, #32]
	ldp	x28, x27, [sp, #16]
	ldp	x29, x30, [sp], #96
	ret
.LBB72167e3f_32:
	ldr	x26, [sp, #64]
	add	x0, sp, #16
	mov	x1, x23
	mov	x2, x22
	bl	hll_estimator_fields.filter.with_fields.5da326502419fe7c
	ldrb	w8, [sp, #16]
	cbz	w8, .LBB72167e3f_36
	ldrb	w8, [sp, #17]
	mov	w9, #3
	mov	w10, #5
	cmp	w8, #12
	csel	w20, w10, w9, eq
	csel	w21, wzr, w8, eq
	cbz	x26, .LBB72167e3f_35
	mov	x0, x23
	bl	rattle_dealloc
.LBB72167e3f_35:
	mov	w8, #1
	strb	w20, [x19, #1]
	strb	w8, [x19]
	strb	w21, [x19, #2]
	b	.LBB72167e3f_31
.LBB72167e3f_36:
	ldp	x24, x25, [sp, #24]
	ldr	x0, [x21]
	ldr	x8, [x21, #16]
	stp	x23, x22, [x21]
	ldr	x23, [sp, #40]
	str	x26, [x21, #16]
	cbz	x8, .LBB72167e3f_38
	bl	rattle_dealloc
.LBB72167e3f_38:
	add	x0, sp, #48
	mov	w1, wzr
	mov	w2, #32768
	add	x22, sp, #48
	bl	memset
	cbz	x25, .LBB72167e3f_47
	mov	x21, xzr
	add	x10, x22, #1
	str	x10, [sp, #8]
.LBB72167e3f_40:
	sub	x8, x25, x21
	mov	w9, #16384
	mov	x22, x24
	cmp	x8, #4, lsl #12
	csel	x26, x8, x9, lo
	add	x8, x24, x21
	mov	x9, x10
	mov	x10, x26
.LBB72167e3f_41:
	ldrb	w11, [x8], #1
	adrp	x13, .Lstatic.2
	add	x13, x13, :lo12:.Lstatic.2
	subs	x10, x10, #1
	lsr	x12, x11, #4
	and	x11, x11, #0xf
	ldrb	w11, [x13, x11]
	ldrb	w12, [x13, x12]
	sturb	w12, [x9, #-1]
	strb	w11, [x9], #2
	b.ne	.LBB72167e3f_41
	lsl	x27, x26, #1
	mov	x28, xzr
.LBB72167e3f_43:
	add	x8, sp, #48
	sub	x2, x27, x28
	mov	w0, #1
	add	x1, x8, x28
	sub	x24, x27, x28
	bl	write
	tbnz	x0, #63, .LBB72167e3f_52
	cmp	x0, x24
	csel	x8, x0, x24, lo
	cbz	x8, .LBB72167e3f_53
	add	x28, x8, x28
	cmp	x28, x27
	b.lo	.LBB72167e3f_43
	add	x21, x26, x21
	ldr	x10, [sp, #8]
	mov	x24, x22
	cmp	x21, x25
	b.lo	.LBB72167e3f_40
.LBB72167e3f_47:
	adrp	x1, .Lstatic.1
	add	x1, x1, :lo12:.Lstatic.1
	mov	w0, #1
	mov	w2, #1
	bl	write
	tbnz	x0, #63, .LBB72167e3f_59
	cbz	x0, .LBB72167e3f_60
	mov	w21, wzr
	mov	w20, wzr
	cbnz	x23, .LBB72167e3f_54
	b	.LBB72167e3f_55
.LBB72167e3f_50:
	add	x0, sp, #48
	mov	x1, x23
	mov	x25, x3
	mov	x26, x2
	bl	std_alloc.vec.Vec.grow_amortized.d7da23479759cf44
	cbz	w0, .LBB72167e3f_56
	ldp	x8, x24, [sp, #56]
	mov	x2, x26
	mov	x3, x25
	add	x25, x8, x23
	cmp	x8, x25
	b.lo	.LBB72167e3f_5
	b	.LBB72167e3f_6
.LBB72167e3f_52:
	sub	x0, x29, #104
	bl	std_io.io.error.last_error
.LBB72167e3f_53:
	mov	w21, #1
	mov	x24, x22
	strb	w21, [x20]
	mov	w20, #7
	cbz	x23, .LBB72167e3f_55
.LBB72167e3f_54:
	mov	x0, x24
	bl	rattle_dealloc
.LBB72167e3f_55:
	strb	w21, [x19]
	strb	w20, [x19, #1]
	b	.LBB72167e3f_30
.LBB72167e3f_56:
	ldr	x8, [sp, #64]
	cbz	x8, .LBB72167e3f_58
	ldr	x0, [sp, #48]
	bl	rattle_dealloc
.LBB72167e3f_58:
	mov	w8, #5
	b	.LBB72167e3f_29
.LBB72167e3f_59:
	sub	x0, x29, #104
	bl	std_io.io.error.last_error
.LBB72167e3f_60:
	mov	w21, #1
	strb	w21, [x20]
	mov	w20, #7
	cbnz	x23, .LBB72167e3f_54
	b	.LBB72167e3f_55
.Lfunc_end72167e3f:
	.size	hll_estimator_fields.filter.pass_line.bc2b42e629227ff0, .Lfunc_end72167e3f-hll_estimator_fields.filter.pass_line.bc2b42e629227ff0

	.section	.rodata.cst16,"aM",@progbits,16
	.p2align	4, 0x0
.LCPIa52ca417_0:
	.byte	1
	.byte	2
	.byte	4
	.byte	8
	.byte	16
	.byte	32
	.byte	64
	.byte	128
	.byte	1
	.byte	2
	.byte	4
	.byte	8
	.byte	16
	.byte	32
	.byte	64
	.byte	128
.LCPIa52ca417_2:
	.byte	0
	.byte	1
	.byte	1
	.byte	2
	.byte	3
	.byte	4
	.byte	4
	.byte	5
	.byte	6
	.byte	7
	.byte	7
	.byte	8
	.byte	9
	.byte	10
	.byte	10
	.byte	11
.LCPIa52ca417_3:
	.byte	4
	.byte	5
	.byte	5
	.byte	6
	.byte	7
	.byte	8
	.byte	8
	.byte	9
	.byte	10
	.byte	11
	.byte	11
	.byte	12
	.byte	13
	.byte	14
	.byte	14
	.byte	15
.LCPIa52ca417_4:
	.byte	128
	.byte	64
	.byte	32
	.byte	16
	.byte	8
	.byte	4
	.byte	2
	.byte	1
	.byte	0
	.byte	0
	.byte	0
	.byte	0
	.byte	0
	.byte	0
	.byte	0
	.byte	0
.LCPIa52ca417_5:
	.byte	0
	.byte	0
	.byte	0
	.byte	0
	.byte	0
	.byte	0
	.byte	0
	.byte	0
	.byte	128
	.byte	64
	.byte	32
	.byte	16
	.byte	8
	.byte	4
	.byte	2
	.byte	1
.LCPIa52ca417_6:
	.byte	12
	.byte	255
	.byte	255
	.byte	255
	.byte	13
	.byte	255
	.byte	255
	.byte	255
	.byte	14
	.byte	255
	.byte	255
	.byte	255
	.byte	15
	.byte	255
	.byte	255
	.byte	255
.LCPIa52ca417_7:
	.byte	8
	.byte	255
	.byte	255
	.byte	255
	.byte	9
	.byte	255
	.byte	255
	.byte	255
	.byte	10
	.byte	255
	.byte	255
	.byte	255
	.byte	11
	.byte	255
	.byte	255
	.byte	255
.LCPIa52ca417_8:
	.byte	4
	.byte	255
	.byte	255
	.byte	255
	.byte	5
	.byte	255
	.byte	255
	.byte	255
	.byte	6
	.byte	255
	.byte	255
	.byte	255
	.byte	7
	.byte	255
	.byte	255
	.byte	255
.LCPIa52ca417_9:
	.byte	0
	.byte	255
	.byte	255
	.byte	255
	.byte	1
	.byte	255
	.byte	255
	.byte	255
	.byte	2
	.byte	255
	.byte	255
	.byte	255
	.byte	3
	.byte	255
	.byte	255
	.byte	255
.LCPIa52ca417_10:
	.byte	0
	.byte	4
	.byte	8
	.byte	12
	.byte	16
	.byte	20
	.byte	24
	.byte	28
	.byte	32
	.byte	36
	.byte	40
	.byte	44
	.byte	48
	.byte	52
	.byte	56
	.byte	60
.LCPIa52ca417_11:
	.byte	0
	.byte	4
	.byte	8
	.byte	12
	.byte	16
	.byte	20
	.byte	24
	.byte	28
	.byte	255
	.byte	255
	.byte	255
	.byte	255
	.byte	255
	.byte	255
	.byte	255
	.byte	255
	.section	.rodata.cst8,"aM",@progbits,8
	.p2align	3, 0x0
.LCPIa52ca417_1:
	.word	1
	.word	0
	.section	.text.hll_estimator_fields.filter.with_fields.5da326502419fe7c,"ax",@progbits
	.p2align	2
	.type	hll_estimator_fields.filter.with_fields.5da326502419fe7c,@function
hll_estimator_fields.filter.with_fields.5da326502419fe7c:
	str	d8, [sp, #-112]!
	sub	x9, sp, #3, lsl #12
	stp	x29, x30, [sp, #16]
	add	x29, sp, #16
	sub	x9, x9, #3072
	stp	x28, x27, [sp, #32]
	stp	x26, x25, [sp, #48]
	stp	x24, x23, [sp, #64]
	stp	x22, x21, [sp, #80]
	stp	x20, x19, [sp, #96]
.LBBa52ca417_1:
	sub	sp, sp, #3072
	cmp	sp, x9
	str	xzr, [sp]
	b.ne	.LBBa52ca417_1
	sub	sp, sp, #1568
	movi	v0.2d, #0000000000000000
	subs	x10, x2, #8
	str	xzr, [sp]
	stp	q0, q0, [sp, #224]
	stp	q0, q0, [sp, #256]
	stp	q0, q0, [sp, #288]
	b.hs	.LBBa52ca417_4
.LBBa52ca417_3:
	mov	w26, wzr
	b	.LBBa52ca417_12
.LBBa52ca417_4:
	ldrb	w8, [x1, #2]
	cmp	w8, #7
	b.ne	.LBBa52ca417_9
	ldrb	w8, [x1, #1]
	cmp	w8, #1
	b.ne	.LBBa52ca417_10
	ldrb	w19, [x1, #3]
	sub	w8, w19, #4
	and	w8, w8, #0xff
	cmp	w8, #17
	b.hi	.LBBa52ca417_11
	ldrb	w8, [x1, #7]
	ubfx	x9, x8, #2, #2
	cmp	w9, #3
	b.ne	.LBBa52ca417_14
	mov	w26, #4
	b	.LBBa52ca417_12
.LBBa52ca417_9:
	mov	w26, #1
	b	.LBBa52ca417_12
.LBBa52ca417_10:
	mov	w26, #2
	b	.LBBa52ca417_12
.LBBa52ca417_11:
	mov	w26, #3
.LBBa52ca417_12:
	mov	w8, #1
	strb	w26, [x0, #1]
	strb	w8, [x0]
	stp	xzr, xzr, [x0, #16]
	str	xzr, [x0, #8]
.LBBa52ca417_13:
	add	sp, sp, #4, lsl #12
	add	sp, sp, #544
	ldp	x20, x19, [sp, #96]
	ldp	x22, x21, [sp, #80]
	ldp	x24, x23, [sp, #64]
	ldp	x26, x25, [sp, #48]
	ldp	x28, x27, [sp, #32]
	ldp	x29, x30, [sp, #16]
	ldr	d8, [sp], #112
	ret
.LBBa52ca417_14:
	and	x8, x8, #0x3
	cmp	w8, #1
	b.gt	.LBBa52ca417_17
	cbnz	w8, .LBBa52ca417_19
	mov	w11, #2
	b	.LBBa52ca417_20
.LBBa52ca417_17:
	cmp	w8, #2
	b.ne	.LBBa52ca417_34
	mov	w11, #10
	b	.LBBa52ca417_20
.LBBa52ca417_19:
	mov	w11, #3
.LBBa52ca417_20:
	ldrb	w12, [x1]
	cmp	w12, w11
	b.ne	.LBBa52ca417_33
	ldrb	w11, [x1, #5]
	ldrb	w13, [x1, #4]
	lsl	x9, x9, #8
	ldrb	w15, [x1, #6]
	cmp	w8, #2
	sub	x30, x29, #96
	ubfx	w12, w11, #3, #1
	ubfx	w14, w11, #2, #1
	orr	x9, x9, x13, lsl #24
	ubfx	w11, w11, #4, #1
	lsl	x13, x15, #56
	add	x22, sp, #320
	lsl	x12, x12, #40
	orr	x9, x9, x8, lsl #16
	orr	x11, x13, x11, lsl #48
	orr	x12, x12, x14, lsl #32
	orr	x12, x12, x19
	orr	x9, x12, x9
	orr	x24, x9, x11
	lsr	x23, x24, #56
	b.eq	.LBBa52ca417_35
	lsr	x27, x24, #8
	lsr	w28, w24, #24
	cmp	w8, #1
	b.ne	.LBBa52ca417_48
	cmp	w28, #5
	mov	w26, #7
	b.lo	.LBBa52ca417_12
	lsr	x8, x24, #24
	sub	w10, w19, #3
	and	w10, w10, #0xff
	cmp	w10, w8, uxtb
	b.lo	.LBBa52ca417_12
	tbz	x9, #40, .LBBa52ca417_80
	and	w8, w8, #0xff
	cmp	w8, #9
	b.lo	.LBBa52ca417_80
	cmp	x2, #11
	b.ls	.LBBa52ca417_3
	ldr	w9, [x1, #8]
	sub	x21, x2, #12
	lsr	x8, x9, x28
	cbnz	x8, .LBBa52ca417_88
	lsr	x8, x21, #2
	cmp	x8, x9
	b.lo	.LBBa52ca417_88
	add	x8, x1, #12
	cmp	w9, #128
	str	x9, [sp, #480]
	stp	x8, x21, [sp, #464]
	b.hi	.LBBa52ca417_88
	mov	x20, x0
	add	x0, sp, #464
	mov	x24, x9
	mov	x23, x1
	bl	hll_sketch.raw_coupons.RawCoupons.differ
	cbz	w0, .LBBa52ca417_141
	str	xzr, [sp, #512]
	mov	w22, #1
	mov	x0, x20
	mov	x1, x23
	mov	x9, x24
	b	.LBBa52ca417_89
.LBBa52ca417_33:
	mov	w26, #6
	b	.LBBa52ca417_12
.LBBa52ca417_34:
	mov	w26, #5
	b	.LBBa52ca417_12
.LBBa52ca417_35:
	ubfx	w8, w24, #8, #8
	cmp	w8, #2
	b.eq	.LBBa52ca417_55
	cmp	w8, #1
	b.ne	.LBBa52ca417_70
	cmp	x10, #8
	b.lo	.LBBa52ca417_59
	and	x8, x10, #0xfffffffffffffff8
	cmp	x8, #8
	b.eq	.LBBa52ca417_59
	cmp	x8, #16
	b.eq	.LBBa52ca417_59
	orr	x8, x10, #0x4
	and	x8, x8, #0xfffffffffffffffc
	cmp	x8, #28
	b.eq	.LBBa52ca417_59
	mov	w8, #1
	ldr	w9, [x1, #32]
	mov	x22, x0
	lsl	x8, x8, x19
	mov	w10, wzr
	mov	x18, xzr
	mov	w26, #8
	cmp	x8, x9
	b.lo	.LBBa52ca417_288
	ldr	w11, [x1, #36]
	mov	x25, x1
	mov	w21, w10
	mov	x17, x18
	mov	w9, w10
	mov	x8, x18
	mov	x3, x18
	mov	x28, x18
	mov	x27, x18
	mov	x23, x18
	mov	x0, x22
	cbnz	w11, .LBBa52ca417_60
	mov	w8, #3
	sub	x9, x2, #40
	lsl	x8, x8, x19
	cmp	x9, x8, lsr #2
	b.ls	.LBBa52ca417_289
	lsr	x8, x8, #2
	mov	w9, #43691
	ldr	x27, [x25, #24]
	movk	w9, #43690, lsl #16
	ldp	x10, x28, [x25, #8]
	add	w8, w8, #1
	mov	w1, #1
	umull	x8, w8, w9
	str	x10, [sp, #176]
	lsr	x8, x8, #33
	add	x20, x8, x8, lsl #1
	str	x8, [sp, #192]
	mov	x0, x20
	bl	rattle_alloc
	tbz	w0, #0, .LBBa52ca417_315
	mov	x21, x1
	add	x1, x25, #40
	ubfx	x23, x24, #48, #1
	sub	x8, x21, x1
	cmp	x8, x20
	b.hs	.LBBa52ca417_423
	ldr	x9, [sp, #192]
	mov	x8, x21
.LBBa52ca417_47:
	ldrb	w10, [x1, #2]
	ldrh	w11, [x1], #3
	subs	x9, x9, #1
	strb	w10, [x8, #2]
	strh	w11, [x8], #3
	b.ne	.LBBa52ca417_47
	b	.LBBa52ca417_424
.LBBa52ca417_48:
	cmp	w28, #3
	b.ne	.LBBa52ca417_54
	cmp	x23, #0
	mov	w26, #8
	str	xzr, [sp, #512]
	cset	w8, ne
	cmp	x23, #8
	b.hi	.LBBa52ca417_12
	ubfx	x11, x9, #32, #1
	eor	w8, w11, w8
	cbz	w8, .LBBa52ca417_12
	lsr	x8, x24, #40
	mov	w11, #8
	tst	w8, #0x1
	csel	x11, x23, x11, ne
	tst	x9, #0x100000000
	csel	x9, xzr, x11, ne
	cmp	x10, x9, lsl #2
	b.lo	.LBBa52ca417_3
	mov	w10, #3
	mov	x12, xzr
	stur	q0, [x22, #152]
	str	x10, [sp, #464]
	stur	q0, [x22, #168]
	stur	q0, [x22, #180]
	cbz	x9, .LBBa52ca417_258
	add	x13, sp, #464
	add	x2, sp, #464
	mov	x10, xzr
	add	x11, x1, #8
	add	x13, x13, #48
	add	x14, x2, #20
	add	x15, x2, #24
	add	x16, x2, #32
	add	x17, x2, #40
	add	x18, x2, #28
	add	x1, x2, #36
	add	x2, x2, #44
	mov	w3, #67108863
	b	.LBBa52ca417_227
.LBBa52ca417_54:
	mov	w26, #7
	b	.LBBa52ca417_12
.LBBa52ca417_55:
	cmp	x10, #8
	b.lo	.LBBa52ca417_59
	and	x8, x10, #0xfffffffffffffff8
	cmp	x8, #8
	b.eq	.LBBa52ca417_59
	cmp	x8, #16
	b.eq	.LBBa52ca417_59
	orr	x8, x10, #0x4
	and	x8, x8, #0xfffffffffffffffc
	cmp	x8, #28
	b.ne	.LBBa52ca417_219
.LBBa52ca417_59:
	mov	w10, wzr
	mov	w26, wzr
	mov	w21, wzr
	mov	x18, xzr
	mov	x17, xzr
	mov	w9, wzr
	mov	x8, xzr
	mov	x3, xzr
	mov	x28, xzr
	mov	x27, xzr
	mov	x23, xzr
.LBBa52ca417_60:
	cbz	w10, .LBBa52ca417_12
	mov	x10, xzr
	mov	x11, xzr
	mov	x16, xzr
	mov	w25, wzr
	mov	x14, xzr
	mov	w2, wzr
	and	x12, x27, #0xffffffffffffff00
	and	x13, x28, #0xffffffff00000000
	mov	x1, x8
	mov	w19, w21
.LBBa52ca417_62:
	and	x14, x14, #0xffff0000
	mov	w15, w28
	bfi	x17, x9, #32, #32
	orr	x14, x14, x25, lsl #32
	orr	x9, x13, x15
	and	x13, x27, #0xff
	stp	x3, x9, [sp, #280]
	orr	x12, x12, x13
	add	x27, sp, #224
	bfxil	x14, x21, #0, #8
	cmp	w18, #2
	adrp	x24, .LCPIa52ca417_2
	adrp	x25, .LCPIa52ca417_3
	strb	w19, [sp, #224]
	bfi	x14, x2, #8, #8
	stp	x1, x8, [sp, #264]
	stp	x16, x17, [sp, #248]
	stp	x18, x14, [sp, #232]
	and	x14, x23, #0xff
	orr	x9, x11, x14
	adrp	x11, .LCPIa52ca417_5
	str	x10, [sp, #312]
	stp	x12, x9, [sp, #296]
	stur	wzr, [x30, #35]
	str	wzr, [x30, #32]
	stur	wzr, [x30, #3]
	str	wzr, [x30]
	b.gt	.LBBa52ca417_85
	cmp	w18, #2
	b.lo	.LBBa52ca417_155
	and	x8, x8, #0xff
	cmp	x8, #1
	mov	w8, #7
	b.ne	.LBBa52ca417_66
	ldr	x9, [x3, #8]
	mov	w10, #4
	lsl	x9, x10, x9
	cmp	x9, #2, lsl #12
	mov	w9, #14
	csel	w8, w9, w8, hi
.LBBa52ca417_66:
	and	w9, w21, #0xff
	str	x18, [sp, #192]
	cmp	w8, w9
	csel	w12, w8, w9, lo
	mov	w8, #1
	lsl	x19, x8, x12
	sub	w8, w21, w12
	cmp	w12, #8
	and	x13, x8, #0xff
	stur	x12, [x29, #-8]
	stp	x0, x13, [sp, #200]
	b.hs	.LBBa52ca417_108
	and	x8, x19, #0xfe
	mov	x20, x16
	cmp	x8, #128
	b.ne	.LBBa52ca417_132
	and	w8, w2, #0xff
	cmp	w8, #16
	b.hi	.LBBa52ca417_132
	mov	w8, #16
	mov	x26, xzr
	mov	x28, xzr
	sub	w8, w8, w2
	mov	w21, #1
	mov	x9, x20
	and	x8, x8, #0xff
	mov	x22, x2
	adrp	x23, .LCPIa52ca417_0
	str	x8, [sp, #176]
	b	.LBBa52ca417_83
.LBBa52ca417_70:
	cmp	x10, #8
	b.lo	.LBBa52ca417_3
	and	x8, x10, #0xfffffffffffffff8
	cmp	x8, #8
	b.eq	.LBBa52ca417_3
	cmp	x8, #16
	b.eq	.LBBa52ca417_3
	orr	x8, x10, #0x4
	and	x8, x8, #0xfffffffffffffffc
	cmp	x8, #28
	b.eq	.LBBa52ca417_3
	mov	w8, #1
	ldr	w9, [x1, #32]
	add	x10, sp, #464
	lsl	x8, x8, x19
	mov	w26, #8
	stp	x0, x23, [sp, #200]
	str	x1, [sp, #176]
	cmp	x8, x9
	str	x8, [sp, #160]
	b.lo	.LBBa52ca417_596
	ldr	x8, [sp, #176]
	ldr	x9, [sp, #160]
	ldr	x0, [sp, #200]
	ldr	w11, [x8, #36]
	cmp	x9, x11
	b.lo	.LBBa52ca417_12
	ldp	x9, x27, [x8, #8]
	mov	x20, x11
	lsr	x11, x24, #40
	ldr	x23, [x8, #24]
	str	x20, [sp, #192]
	stp	x9, x11, [sp, #136]
	tbnz	w11, #0, .LBBa52ca417_390
	cbz	w20, .LBBa52ca417_353
	lsr	w8, w24, #24
	cmp	w8, #26
	b.ls	.LBBa52ca417_389
	mov	w26, #7
	b	.LBBa52ca417_596
.LBBa52ca417_80:
	subs	x21, x2, #12
	str	xzr, [sp, #512]
	b.lo	.LBBa52ca417_3
	lsr	x22, x9, #40
	ldr	w9, [x1, #8]
	b	.LBBa52ca417_89
.LBBa52ca417_82:
	adrp	x8, .LCPIa52ca417_4
	ldr	q4, [x11, :lo12:.LCPIa52ca417_5]
	ldr	q5, [x8, :lo12:.LCPIa52ca417_4]
	tbl	v26.16b, { v4.16b }, v7.16b
	tbl	v18.16b, { v5.16b }, v17.16b
	tbl	v19.16b, { v5.16b }, v16.16b
	tbl	v20.16b, { v5.16b }, v7.16b
	tbl	v17.16b, { v4.16b }, v17.16b
	tbl	v16.16b, { v4.16b }, v16.16b
	tbl	v21.16b, { v5.16b }, v6.16b
	tbl	v6.16b, { v4.16b }, v6.16b
	ushll	v22.8h, v18.8b, #0
	ushll2	v18.8h, v18.16b, #0
	ushll	v23.8h, v19.8b, #0
	ushll2	v19.8h, v19.16b, #0
	ushll	v24.8h, v20.8b, #0
	ushll2	v20.8h, v20.16b, #0
	ushll	v25.8h, v21.8b, #0
	ushll2	v21.8h, v21.16b, #0
	addp	v7.8h, v22.8h, v18.8h
	ushll	v22.8h, v16.8b, #0
	ushll2	v16.8h, v16.16b, #0
	addp	v18.8h, v23.8h, v19.8h
	ushll	v19.8h, v17.8b, #0
	ushll2	v17.8h, v17.16b, #0
	addp	v20.8h, v24.8h, v20.8h
	ushll	v23.8h, v26.8b, #0
	ushll2	v24.8h, v26.16b, #0
	addp	v16.8h, v22.8h, v16.8h
	addp	v21.8h, v25.8h, v21.8h
	tbl	v25.16b, { v5.16b }, v3.16b
	addp	v17.8h, v19.8h, v17.8h
	tbl	v19.16b, { v5.16b }, v1.16b
	tbl	v26.16b, { v5.16b }, v2.16b
	addp	v22.8h, v23.8h, v24.8h
	ushll	v23.8h, v6.8b, #0
	ushll2	v24.8h, v6.16b, #0
	tbl	v5.16b, { v5.16b }, v0.16b
	uaddlp	v18.4s, v18.8h
	uaddlp	v7.4s, v7.8h
	uaddlp	v21.4s, v21.8h
	tbl	v3.16b, { v4.16b }, v3.16b
	tbl	v2.16b, { v4.16b }, v2.16b
	addp	v23.8h, v23.8h, v24.8h
	ushll	v24.8h, v19.8b, #0
	ushll2	v19.8h, v19.16b, #0
	shl	v6.4s, v18.4s, #8
	ushll	v18.8h, v25.8b, #0
	ushll2	v25.8h, v25.16b, #0
	ushll	v27.8h, v26.8b, #0
	ushll2	v26.8h, v26.16b, #0
	tbl	v1.16b, { v4.16b }, v1.16b
	addp	v19.8h, v24.8h, v19.8h
	ushll	v24.8h, v5.8b, #0
	ushll2	v5.8h, v5.16b, #0
	tbl	v0.16b, { v4.16b }, v0.16b
	shl	v21.4s, v21.4s, #8
	shl	v7.4s, v7.4s, #8
	uaddlp	v20.4s, v20.8h
	addp	v5.8h, v24.8h, v5.8h
	uadalp	v6.4s, v16.8h
	addp	v16.8h, v18.8h, v25.8h
	addp	v18.8h, v27.8h, v26.8h
	ushll	v24.8h, v0.8b, #0
	ushll2	v0.8h, v0.16b, #0
	shl	v20.4s, v20.4s, #8
	uaddlp	v5.4s, v5.8h
	uaddlp	v16.4s, v16.8h
	uaddlp	v4.4s, v18.8h
	ushll	v18.8h, v3.8b, #0
	ushll2	v3.8h, v3.16b, #0
	addp	v0.8h, v24.8h, v0.8h
	shl	v5.4s, v5.4s, #8
	shl	v4.4s, v4.4s, #8
	shl	v16.4s, v16.4s, #8
	addp	v3.8h, v18.8h, v3.8h
	uadalp	v21.4s, v23.8h
	ushll	v23.8h, v1.8b, #0
	ushll2	v1.8h, v1.16b, #0
	uadalp	v7.4s, v17.8h
	uaddlp	v17.4s, v19.8h
	ushll	v19.8h, v2.8b, #0
	ushll2	v2.8h, v2.16b, #0
	addp	v1.8h, v23.8h, v1.8h
	shl	v17.4s, v17.4s, #8
	addp	v2.8h, v19.8h, v2.8h
	uadalp	v20.4s, v22.8h
	uadalp	v17.4s, v1.8h
	add	v1.4s, v6.4s, v21.4s
	uadalp	v4.4s, v2.8h
	uadalp	v16.4s, v3.8h
	uadalp	v5.4s, v0.8h
	add	v0.4s, v7.4s, v20.4s
	add	v3.4s, v4.4s, v17.4s
	add	v0.4s, v0.4s, v1.4s
	add	v2.4s, v16.4s, v5.4s
	addv	s0, v0.4s
	add	v1.4s, v2.4s, v3.4s
	fmov	w8, s0
	addv	s1, v1.4s
	fmov	w9, s1
	add	x8, x9, x8
	ldr	x9, [sp, #176]
	lsl	x0, x8, x9
	lsr	x8, x21, x13
	add	x26, x0, x26
	add	x28, xzr, x28
	add	x21, x21, #1
	mov	x9, x20
	cbnz	x8, .LBBa52ca417_134
.LBBa52ca417_83:
	sub	x8, x21, #1
	movi	v4.16b, #15
	add	x10, sp, #224
	lsl	x2, x8, x12
	add	x8, x9, x2, lsr #1
	ldp	q1, q0, [x8, #16]
	ldr	q3, [x8, #48]
	ldr	q5, [x8]
	and	v6.16b, v3.16b, v4.16b
	and	v16.16b, v1.16b, v4.16b
	and	v17.16b, v5.16b, v4.16b
	and	v7.16b, v0.16b, v4.16b
	ushr	v0.16b, v0.16b, #4
	ushr	v2.16b, v1.16b, #4
	ushr	v1.16b, v3.16b, #4
	ushr	v3.16b, v5.16b, #4
	umax	v5.16b, v7.16b, v0.16b
	umax	v19.16b, v6.16b, v1.16b
	umax	v20.16b, v16.16b, v2.16b
	umax	v18.16b, v17.16b, v3.16b
	umax	v19.16b, v20.16b, v19.16b
	umax	v5.16b, v18.16b, v5.16b
	umax	v5.16b, v5.16b, v19.16b
	cmeq	v4.16b, v5.16b, v4.16b
	ldr	q5, [x23, :lo12:.LCPIa52ca417_0]
	and	v4.16b, v4.16b, v5.16b
	addp	v4.16b, v4.16b, v4.16b
	addp	v4.16b, v4.16b, v4.16b
	addp	v4.16b, v4.16b, v4.16b
	umov	w8, v4.h[0]
	cbz	w8, .LBBa52ca417_82
	movi	v0.2d, #0000000000000000
	add	x0, sp, #320
	add	x4, x10, #48
	mov	x1, x19
	mov	x3, x9
	mov	w5, w22
	mov	x27, x11
	stp	q0, q0, [sp, #320]
	stp	q0, q0, [sp, #352]
	stp	q0, q0, [sp, #384]
	stp	q0, q0, [sp, #416]
	bl	hll_registers.exception_map.max_with_registers.f8e44fc08f8602d9
	add	x0, sp, #320
	mov	x1, x19
	bl	hll_kernels.kernels.weight_sums
	ldr	x13, [sp, #208]
	ldur	x12, [x29, #-8]
	mov	x11, x27
	lsr	x8, x21, x13
	add	x26, x0, x26
	add	x28, x1, x28
	add	x21, x21, #1
	mov	x9, x20
	cbz	x8, .LBBa52ca417_83
	b	.LBBa52ca417_134
.LBBa52ca417_85:
	cmp	w18, #3
	b.ne	.LBBa52ca417_106
	add	x8, x1, x1, lsl #1
	mov	x10, #-6148914691236517206
	str	x18, [sp, #192]
	movk	x10, #43691
	stur	x17, [x29, #-8]
	umulh	x9, x8, x10
	cmp	x8, #48
	lsr	x23, x9, #5
	add	x9, x23, x23, lsl #1
	lsl	x22, x9, #4
	sub	x21, x8, x22
	b.hs	.LBBa52ca417_110
	mov	x20, xzr
	mov	x19, xzr
	mov	x27, xzr
	mov	x23, xzr
	b	.LBBa52ca417_115
.LBBa52ca417_88:
	str	xzr, [sp, #512]
	mov	w22, #1
.LBBa52ca417_89:
	mov	w8, #1
	lsl	x26, x8, x28
	cmp	x26, x9
	b.ls	.LBBa52ca417_105
	cmp	w22, #0
	csel	x24, x9, x26, ne
	cmp	x21, x24, lsl #2
	b.lo	.LBBa52ca417_3
	cmp	x28, #60
	str	x9, [sp, #208]
	b.hi	.LBBa52ca417_131
	mov	w8, #4
	mov	x20, x1
	str	x0, [sp, #200]
	lsl	x25, x8, x28
	mov	w1, #4
	mov	x0, x25
	bl	rattle_alloc
	tbz	w0, #0, .LBBa52ca417_595
	mov	x23, x1
	sub	x2, x25, #4
	mov	x0, x1
	mov	w1, wzr
	bl	memset
	adrp	x9, .LCPIa52ca417_1
	add	x8, x23, x25
	ldr	d0, [x9, :lo12:.LCPIa52ca417_1]
	stur	wzr, [x8, #-4]
	str	x28, [sp, #464]
	str	d0, [sp, #480]
	stp	x23, x26, [sp, #488]
	str	x26, [sp, #504]
	str	wzr, [sp, #512]
	cbz	x24, .LBBa52ca417_264
	mov	x8, #-1
	cmp	x26, #64
	mov	w10, #64
	lsl	x8, x8, x28
	add	x1, x20, #12
	csel	x10, x26, x10, lo
	mvn	x9, x8
	mov	x8, xzr
	tbz	w22, #0, .LBBa52ca417_265
	mov	x11, x1
	mov	x12, x21
.LBBa52ca417_96:
	subs	x12, x12, #4
	b.lo	.LBBa52ca417_431
	ldr	w13, [x11], #4
	lsr	w14, w13, #26
	cbz	w14, .LBBa52ca417_430
	and	w14, w13, #0x3ffffff
	mov	x15, x10
	mov	x16, x13
	lsr	w14, w14, w28
	orr	w14, w14, #0x1
.LBBa52ca417_99:
	and	x16, x16, x9
	ldr	w17, [x23, x16, lsl #2]
	cbz	w17, .LBBa52ca417_102
	cmp	w17, w13
	b.eq	.LBBa52ca417_102
	subs	x15, x15, #1
	add	x16, x16, x14
	b.ne	.LBBa52ca417_99
	b	.LBBa52ca417_286
.LBBa52ca417_102:
	cbnz	w17, .LBBa52ca417_430
	add	x8, x8, #1
	str	w13, [x23, x16, lsl #2]
	cmp	x8, x24
	b.ne	.LBBa52ca417_96
	mov	x8, x24
	b	.LBBa52ca417_302
.LBBa52ca417_105:
	mov	w26, #8
	b	.LBBa52ca417_12
.LBBa52ca417_106:
	mov	x20, x0
	mov	x0, x17
	mov	w19, #-11
	bl	hll_kernels.kernels.weight_sums
	cbz	x0, .LBBa52ca417_126
	clz	x8, x0
	add	w9, w8, w19
	lsl	x9, x0, x9
	sub	x8, x9, x8, lsl #52
	mov	x9, #4746794007248502784
	add	x8, x8, x9
	b	.LBBa52ca417_127
.LBBa52ca417_108:
	mov	x26, xzr
	add	x23, sp, #224
	mov	x28, xzr
	mov	w20, #1
	mov	x22, x16
	mov	x27, x2
.LBBa52ca417_109:
	sub	w8, w20, #1
	add	x0, sp, #464
	mov	w1, wzr
	mov	w2, #16384
	lsl	x21, x8, x12
	bl	memset
	add	x0, sp, #464
	add	x4, x23, #48
	mov	x1, x19
	mov	w2, w21
	mov	x3, x22
	mov	w5, w27
	bl	hll_registers.exception_map.max_with_registers.f8e44fc08f8602d9
	add	x0, sp, #464
	mov	x1, x19
	bl	hll_kernels.kernels.weight_sums
	ldr	x8, [sp, #208]
	ldur	x12, [x29, #-8]
	add	x26, x0, x26
	add	x28, x1, x28
	lsr	x8, x20, x8
	add	x20, x20, #1
	cbz	x8, .LBBa52ca417_109
	b	.LBBa52ca417_134
.LBBa52ca417_110:
	movi	v21.2d, #0000000000000000
	movi	v23.2d, #0000000000000000
	mov	x19, xzr
	movi	v24.2d, #0000000000000000
	movi	v22.2d, #0000000000000000
	mov	x20, xzr
	add	x26, x17, #32
	adrp	x9, .LCPIa52ca417_0
	adrp	x10, .LCPIa52ca417_4
	b	.LBBa52ca417_112
.LBBa52ca417_111:
	mov	x27, x0
	add	x0, sp, #464
	stp	q23, q22, [sp, #160]
	stp	q2, q3, [sp, #464]
	mov	x28, x11
	stp	q0, q1, [sp, #496]
	str	q21, [sp, #208]
	str	q24, [sp, #144]
	bl	hll_kernels.kernels.block_sums_above_least
	ldp	q24, q23, [sp, #144]
	mov	x8, x0
	ldr	q22, [sp, #176]
	ldr	q21, [sp, #208]
	mov	x11, x28
	ldur	x17, [x29, #-8]
	mov	x0, x27
	adrp	x10, .LCPIa52ca417_4
	adrp	x9, .LCPIa52ca417_0
	add	x20, x8, x20
	add	x19, x1, x19
	subs	x23, x23, #1
	add	x26, x26, #48
	b.eq	.LBBa52ca417_114
.LBBa52ca417_112:
	ldur	q0, [x26, #-20]
	ldr	q1, [x24, :lo12:.LCPIa52ca417_2]
	movi	v6.4s, #4
	ldr	q2, [x26]
	ldr	q3, [x25, :lo12:.LCPIa52ca417_3]
	ldur	q4, [x26, #-32]
	ldur	q5, [x26, #-8]
	tbl	v0.16b, { v0.16b }, v1.16b
	tbl	v2.16b, { v2.16b }, v3.16b
	tbl	v3.16b, { v4.16b }, v1.16b
	movi	v4.8h, #63
	tbl	v1.16b, { v5.16b }, v1.16b
	ushl	v0.8h, v0.8h, v6.8h
	ushl	v2.8h, v2.8h, v6.8h
	ushl	v3.8h, v3.8h, v6.8h
	ushl	v1.8h, v1.8h, v6.8h
	ushr	v6.8h, v0.8h, #4
	ushr	v18.8h, v0.8h, #2
	ushr	v5.8h, v2.8h, #4
	ushr	v16.8h, v3.8h, #4
	ushr	v3.8h, v3.8h, #2
	ushr	v7.8h, v1.8h, #4
	ushr	v1.8h, v1.8h, #2
	ushr	v17.8h, v2.8h, #2
	and	v6.16b, v6.16b, v4.16b
	bic	v18.8h, #255
	and	v5.16b, v5.16b, v4.16b
	and	v2.16b, v16.16b, v4.16b
	bic	v3.8h, #255
	and	v0.16b, v7.16b, v4.16b
	bic	v1.8h, #255
	bic	v17.8h, #255
	orr	v2.16b, v2.16b, v3.16b
	orr	v3.16b, v6.16b, v18.16b
	movi	v6.16b, #16
	orr	v0.16b, v0.16b, v1.16b
	orr	v1.16b, v5.16b, v17.16b
	umax	v4.16b, v3.16b, v1.16b
	umax	v5.16b, v2.16b, v0.16b
	umax	v4.16b, v5.16b, v4.16b
	ldr	q5, [x9, :lo12:.LCPIa52ca417_0]
	cmhs	v4.16b, v4.16b, v6.16b
	and	v4.16b, v4.16b, v5.16b
	addp	v4.16b, v4.16b, v4.16b
	addp	v4.16b, v4.16b, v4.16b
	addp	v4.16b, v4.16b, v4.16b
	umov	w8, v4.h[0]
	cbnz	w8, .LBBa52ca417_111
	ldr	q4, [x10, :lo12:.LCPIa52ca417_4]
	ldr	q5, [x11, :lo12:.LCPIa52ca417_5]
	tbl	v6.16b, { v4.16b }, v2.16b
	tbl	v7.16b, { v4.16b }, v3.16b
	tbl	v2.16b, { v5.16b }, v2.16b
	tbl	v3.16b, { v5.16b }, v3.16b
	tbl	v16.16b, { v4.16b }, v0.16b
	tbl	v4.16b, { v4.16b }, v1.16b
	tbl	v0.16b, { v5.16b }, v0.16b
	tbl	v1.16b, { v5.16b }, v1.16b
	ushll	v17.8h, v6.8b, #0
	ushll2	v6.8h, v6.16b, #0
	ushll	v18.8h, v7.8b, #0
	ushll2	v7.8h, v7.16b, #0
	ushll	v19.8h, v2.8b, #0
	ushll2	v2.8h, v2.16b, #0
	ushll	v20.8h, v3.8b, #0
	ushll2	v3.8h, v3.16b, #0
	addp	v6.8h, v17.8h, v6.8h
	addp	v5.8h, v18.8h, v7.8h
	addp	v2.8h, v19.8h, v2.8h
	ushll	v7.8h, v16.8b, #0
	addp	v3.8h, v20.8h, v3.8h
	ushll2	v16.8h, v16.16b, #0
	uadalp	v23.4s, v6.8h
	ushll	v6.8h, v4.8b, #0
	ushll2	v4.8h, v4.16b, #0
	uadalp	v24.4s, v5.8h
	ushll	v5.8h, v0.8b, #0
	ushll2	v0.8h, v0.16b, #0
	uadalp	v22.4s, v2.8h
	ushll	v2.8h, v1.8b, #0
	ushll2	v1.8h, v1.16b, #0
	addp	v4.8h, v6.8h, v4.8h
	addp	v0.8h, v5.8h, v0.8h
	addp	v1.8h, v2.8h, v1.8h
	uadalp	v21.4s, v3.8h
	addp	v3.8h, v7.8h, v16.8h
	uadalp	v24.4s, v4.8h
	uadalp	v23.4s, v3.8h
	uadalp	v22.4s, v0.8h
	uadalp	v21.4s, v1.8h
	subs	x23, x23, #1
	add	x26, x26, #48
	b.ne	.LBBa52ca417_112
.LBBa52ca417_114:
	add	v0.4s, v23.4s, v24.4s
	add	v1.4s, v22.4s, v21.4s
	mov	x10, #-6148914691236517206
	movk	x10, #43691
	addv	s0, v0.4s
	addv	s1, v1.4s
	fmov	w8, s0
	fmov	w9, s1
	ubfiz	x23, x8, #24, #32
	ubfiz	x27, x9, #16, #32
.LBBa52ca417_115:
	movi	v0.2d, #0000000000000000
	cmp	x21, #48
	stp	q0, q0, [sp, #464]
	stp	q0, q0, [sp, #496]
	b.hs	.LBBa52ca417_124
	umulh	x8, x21, x10
	mov	x26, x0
	lsr	x9, x8, #5
	add	x8, x9, x9, lsl #1
	lsl	x8, x8, #4
	sub	x11, x21, x8
	cmp	x11, #3
	b.lo	.LBBa52ca417_145
	umulh	x12, x11, x10
	lsl	x10, x9, #6
	cmp	x11, #24
	lsr	x9, x12, #1
	b.lo	.LBBa52ca417_142
	sub	x12, x9, #1
	add	x13, sp, #464
	add	x14, sp, #464
	lsl	x15, x12, #2
	add	x13, x13, x10
	add	x14, x14, x10
	add	x16, x13, #3
	add	x17, x13, #2
	add	x13, x13, #1
	add	x18, x16, x15
	add	x0, x17, x15
	lsr	x12, x12, #62
	cmp	x18, x16
	add	x16, x14, x15
	add	x15, x13, x15
	ccmp	x0, x17, #0, hs
	ccmp	x16, x14, #0, hs
	ccmp	x15, x13, #0, hs
	ccmp	x12, #0, #0, hs
	b.ne	.LBBa52ca417_142
	cmp	x11, #48
	adrp	x12, .LCPIa52ca417_8
	adrp	x13, .LCPIa52ca417_9
	b.hs	.LBBa52ca417_308
	ldur	x18, [x29, #-8]
	mov	x11, xzr
.LBBa52ca417_121:
	add	x15, x11, x11, lsl #1
	add	x16, x22, x8
	add	x17, x10, x11, lsl #2
	mov	x14, x11
	and	x11, x9, #0x7ffffffffffffff8
	add	x15, x16, x15
	add	x16, sp, #464
	sub	x14, x14, x11
	add	x15, x18, x15
	add	x16, x16, x17
.LBBa52ca417_122:
	ld3	{ v0.8b, v1.8b, v2.8b }, [x15], #24
	adrp	x17, .LCPIa52ca417_11
	ldr	q3, [x12, :lo12:.LCPIa52ca417_8]
	adds	x14, x14, #8
	ldr	q4, [x13, :lo12:.LCPIa52ca417_9]
	tbl	v5.16b, { v1.16b }, v3.16b
	tbl	v6.16b, { v1.16b }, v4.16b
	tbl	v7.16b, { v2.16b }, v3.16b
	tbl	v16.16b, { v2.16b }, v4.16b
	tbl	v3.16b, { v0.16b }, v3.16b
	tbl	v4.16b, { v0.16b }, v4.16b
	shl	v5.4s, v5.4s, #8
	shl	v6.4s, v6.4s, #8
	shl	v7.4s, v7.4s, #16
	shl	v16.4s, v16.4s, #16
	orr	v3.16b, v5.16b, v3.16b
	orr	v5.16b, v7.16b, v5.16b
	orr	v4.16b, v6.16b, v4.16b
	orr	v6.16b, v16.16b, v6.16b
	ushr	v17.4s, v3.4s, #6
	ushr	v16.4s, v4.4s, #6
	ushr	v4.4s, v5.4s, #12
	ldr	q5, [x17, :lo12:.LCPIa52ca417_11]
	ushr	v3.4s, v6.4s, #12
	movi	v6.8b, #63
	tbl	v7.16b, { v16.16b, v17.16b }, v5.16b
	ld4	{ v16.8b, v17.8b, v18.8b, v19.8b }, [x16]
	tbl	v3.16b, { v3.16b, v4.16b }, v5.16b
	and	v4.8b, v0.8b, v6.8b
	ushr	v0.8b, v2.8b, #2
	and	v5.8b, v7.8b, v6.8b
	and	v3.8b, v3.8b, v6.8b
	umax	v20.8b, v4.8b, v16.8b
	umax	v21.8b, v5.8b, v17.8b
	umax	v22.8b, v3.8b, v18.8b
	umax	v23.8b, v0.8b, v19.8b
	st4	{ v20.8b, v21.8b, v22.8b, v23.8b }, [x16], #32
	b.ne	.LBBa52ca417_122
	ldur	x18, [x29, #-8]
	cmp	x9, x11
	b.ne	.LBBa52ca417_143
	b	.LBBa52ca417_145
.LBBa52ca417_124:
	add	x8, x22, x17
	add	x9, sp, #464
	add	x8, x8, #32
.LBBa52ca417_125:
	ldr	q0, [x24, :lo12:.LCPIa52ca417_2]
	ldur	q1, [x8, #-8]
	movi	v6.4s, #4
	ldr	q3, [x8]
	ldr	q4, [x25, :lo12:.LCPIa52ca417_3]
	ldur	q2, [x8, #-32]
	tbl	v1.16b, { v1.16b }, v0.16b
	ldur	q5, [x8, #-20]
	add	x8, x8, #48
	tbl	v3.16b, { v3.16b }, v4.16b
	tbl	v2.16b, { v2.16b }, v0.16b
	movi	v4.8h, #63
	tbl	v0.16b, { v5.16b }, v0.16b
	ushl	v1.8h, v1.8h, v6.8h
	ushl	v3.8h, v3.8h, v6.8h
	ushl	v2.8h, v2.8h, v6.8h
	ushl	v0.8h, v0.8h, v6.8h
	ushr	v5.8h, v1.8h, #4
	ushr	v1.8h, v1.8h, #2
	ushr	v6.8h, v3.8h, #4
	ushr	v3.8h, v3.8h, #2
	ushr	v7.8h, v2.8h, #4
	ushr	v16.8h, v0.8h, #4
	ushr	v2.8h, v2.8h, #2
	ushr	v0.8h, v0.8h, #2
	and	v5.16b, v5.16b, v4.16b
	bic	v1.8h, #255
	and	v6.16b, v6.16b, v4.16b
	bic	v3.8h, #255
	and	v7.16b, v7.16b, v4.16b
	bic	v2.8h, #255
	and	v4.16b, v16.16b, v4.16b
	bic	v0.8h, #255
	orr	v1.16b, v5.16b, v1.16b
	orr	v3.16b, v6.16b, v3.16b
	ldp	q5, q6, [x9, #32]
	orr	v2.16b, v7.16b, v2.16b
	orr	v0.16b, v4.16b, v0.16b
	umax	v1.16b, v5.16b, v1.16b
	ldp	q4, q5, [x9]
	umax	v3.16b, v6.16b, v3.16b
	umax	v2.16b, v4.16b, v2.16b
	umax	v0.16b, v5.16b, v0.16b
	stp	q1, q3, [x9, #32]
	stp	q2, q0, [x9], #64
	b	.LBBa52ca417_125
.LBBa52ca417_126:
	mov	x8, xzr
.LBBa52ca417_127:
	mov	x0, x20
	sub	x12, x29, #96
	cbz	x1, .LBBa52ca417_129
	clz	x9, x1
	add	w10, w9, w19
	lsl	x9, x9, #52
	lsl	x10, x1, x10
	eor	x9, x9, #0x3ff0000000000000
	add	x9, x9, x10
	mov	x10, #-4503599627370496
	add	x9, x9, x10
	b	.LBBa52ca417_130
.LBBa52ca417_129:
	mov	x9, xzr
.LBBa52ca417_130:
	stur	wzr, [x12, #35]
	str	wzr, [x12, #32]
	b	.LBBa52ca417_154
.LBBa52ca417_131:
	mov	w26, #12
	b	.LBBa52ca417_12
.LBBa52ca417_132:
	mov	x26, xzr
	mov	x28, xzr
	mov	w21, #1
	add	x22, sp, #224
	mov	x23, x2
.LBBa52ca417_133:
	movi	v0.2d, #0000000000000000
	sub	w8, w21, #1
	add	x0, sp, #320
	lsl	x2, x8, x12
	add	x4, x22, #48
	mov	x1, x19
	mov	x3, x20
	mov	w5, w23
	stp	q0, q0, [sp, #320]
	stp	q0, q0, [sp, #352]
	stp	q0, q0, [sp, #384]
	stp	q0, q0, [sp, #416]
	bl	hll_registers.exception_map.max_with_registers.f8e44fc08f8602d9
	add	x0, sp, #320
	mov	x1, x19
	bl	hll_kernels.kernels.weight_sums
	ldr	x8, [sp, #208]
	ldur	x12, [x29, #-8]
	add	x26, x0, x26
	add	x28, x1, x28
	lsr	x8, x21, x8
	add	x21, x21, #1
	cbz	x8, .LBBa52ca417_133
.LBBa52ca417_134:
	mov	w9, #-11
	cbz	x26, .LBBa52ca417_136
	clz	x8, x26
	add	w10, w8, w9
	lsl	x10, x26, x10
	sub	x8, x10, x8, lsl #52
	mov	x10, #4746794007248502784
	add	x8, x8, x10
	b	.LBBa52ca417_137
.LBBa52ca417_136:
	mov	x8, xzr
.LBBa52ca417_137:
	ldr	x13, [sp, #192]
	sub	x12, x29, #96
	cbz	x28, .LBBa52ca417_139
	clz	x10, x28
	add	w9, w10, w9
	lsl	x10, x10, #52
	lsl	x9, x28, x9
	eor	x10, x10, #0x3ff0000000000000
	add	x9, x10, x9
	mov	x10, #-4503599627370496
	add	x9, x9, x10
	b	.LBBa52ca417_140
.LBBa52ca417_139:
	mov	x9, xzr
.LBBa52ca417_140:
	ldr	x0, [sp, #200]
	stur	wzr, [x12, #3]
	add	x27, sp, #224
	b	.LBBa52ca417_150
.LBBa52ca417_141:
	mov	w26, #9
	mov	x0, x20
	b	.LBBa52ca417_12
.LBBa52ca417_142:
	ldur	x18, [x29, #-8]
	mov	x11, xzr
.LBBa52ca417_143:
	add	x12, x11, x11, lsl #1
	add	x8, x22, x8
	add	x10, x10, x11, lsl #2
	add	x8, x8, x12
	add	x12, sp, #464
	add	x13, x8, x18
	sub	x8, x11, x9
	add	x9, x12, x10
	add	x10, x13, #2
.LBBa52ca417_144:
	ldurb	w11, [x10, #-2]
	ldurb	w12, [x10, #-1]
	movi	v2.4h, #63
	ldrb	w14, [x10], #3
	adds	x8, x8, #1
	mov	w13, w11
	fmov	s0, w11
	bfi	w13, w12, #8, #8
	lsl	w12, w12, #8
	lsr	w13, w13, #6
	orr	w11, w12, w14, lsl #16
	mov	v0.h[1], w13
	lsr	w11, w11, #12
	mov	v0.h[2], w11
	fmov	d1, d0
	mov	v0.h[3], w14
	bic	v0.4h, #255, lsl #8
	and	v1.8b, v1.8b, v2.8b
	ldr	s2, [x9]
	ushr	v0.4h, v0.4h, #2
	mov	v1.h[3], v0.h[3]
	ushll	v0.8h, v2.8b, #0
	umax	v0.4h, v1.4h, v0.4h
	uzp1	v0.8b, v0.8b, v0.8b
	st1	{ v0.s }[0], [x9], #4
	b.lo	.LBBa52ca417_144
.LBBa52ca417_145:
	mov	w8, #171
	ldp	q0, q1, [sp, #464]
	mul	w8, w21, w8
	add	x0, sp, #320
	mov	w21, #-11
	stp	q0, q1, [sp, #320]
	ldp	q2, q0, [sp, #496]
	lsr	w8, w8, #7
	and	x1, x8, #0xfc
	stp	q2, q0, [sp, #352]
	bl	hll_kernels.kernels.weight_sums
	add	x8, x27, x20
	add	x9, x1, x19
	add	x27, sp, #224
	add	x8, x8, x23
	adds	x8, x8, x0
	b.eq	.LBBa52ca417_147
	clz	x10, x8
	add	w11, w10, w21
	lsl	x8, x8, x11
	sub	x8, x8, x10, lsl #52
	mov	x10, #4746794007248502784
	add	x8, x8, x10
.LBBa52ca417_147:
	ldr	x13, [sp, #192]
	sub	x12, x29, #96
	mov	x0, x26
	cbz	x9, .LBBa52ca417_149
	clz	x10, x9
	add	w11, w10, w21
	lsl	x10, x10, #52
	lsl	x9, x9, x11
	eor	x10, x10, #0x3ff0000000000000
	add	x9, x10, x9
	mov	x10, #-4503599627370496
	add	x9, x9, x10
.LBBa52ca417_149:
	stur	wzr, [x12, #3]
.LBBa52ca417_150:
	str	wzr, [x12]
	ldur	w11, [x12, #3]
	cmp	w13, #2
	str	wzr, [x12, #32]
	stur	w11, [x12, #35]
	b.gt	.LBBa52ca417_153
	b.lo	.LBBa52ca417_155
	stp	xzr, x8, [sp, #288]
	mov	w8, #1
	add	x10, sp, #58
	str	x9, [sp, #304]
	ldr	w9, [x12, #32]
	strb	w8, [sp, #312]
	ldur	w8, [x12, #35]
	stur	w9, [x10, #255]
	str	w8, [sp, #316]
	b	.LBBa52ca417_155
.LBBa52ca417_153:
	cmp	w13, #3
.LBBa52ca417_154:
	stp	xzr, x8, [sp, #280]
	mov	w8, #1
	add	x10, sp, #50
	str	x9, [sp, #296]
	ldr	w9, [x12, #32]
	strb	w8, [sp, #304]
	ldur	w8, [x12, #35]
	stur	w9, [x10, #255]
	str	w8, [sp, #308]
.LBBa52ca417_155:
	ldrb	w8, [sp, #232]
	ldrb	w22, [sp, #224]
	cmp	w8, #1
	b.le	.LBBa52ca417_160
	cmp	w8, #2
	b.eq	.LBBa52ca417_162
	cmp	w8, #3
	b.ne	.LBBa52ca417_164
	ldp	x20, x9, [sp, #256]
	ldrb	w8, [sp, #244]
	cmp	w8, #1
	add	x21, x9, x9, lsl #1
	b.ne	.LBBa52ca417_171
	ldr	w8, [sp, #248]
	mov	x24, x0
	b	.LBBa52ca417_187
.LBBa52ca417_160:
	mov	x24, x0
	cbnz	w8, .LBBa52ca417_166
	ldrb	w8, [sp, #296]
	ldr	x9, [sp, #248]
	mov	x10, #13194139533312
	movi	v0.2d, #0000000000000000
	add	x0, sp, #464
	add	x1, x27, #16
	ubfiz	w8, w8, #2, #2
	cmp	x9, #0
	add	x2, sp, #320
	mov	w3, #8
	lsl	x8, x8, #56
	stp	q0, q0, [sp, #464]
	bfi	x8, x9, #48, #8
	mov	x9, #8796093022208
	csel	x9, x10, x9, eq
	orr	x8, x8, x9
	mov	x9, #258
	orr	x8, x8, x22, lsl #24
	movk	x9, #7, lsl #16
	movk	x9, #3, lsl #32
	orr	x8, x8, x9
	str	x8, [sp, #320]
	b	.LBBa52ca417_167
.LBBa52ca417_162:
	movi	v0.2d, #0000000000000000
	ldrb	w8, [sp, #272]
	mov	x24, x0
	cmp	w8, #1
	stp	q0, q0, [x29, #-96]
	b.ne	.LBBa52ca417_168
	ldr	x8, [sp, #280]
	ldr	x8, [x8, #16]
	b	.LBBa52ca417_169
.LBBa52ca417_164:
	ldrb	w8, [sp, #244]
	ldp	x20, x21, [sp, #256]
	mov	x24, x0
	cmp	w8, #1
	b.ne	.LBBa52ca417_195
	ldr	w8, [sp, #248]
	b	.LBBa52ca417_199
.LBBa52ca417_166:
	mov	w8, #3
	mov	w9, #1
	movi	v1.2d, #0000000000000000
	fmov	s0, w8
	mov	w8, #7
	add	x0, sp, #464
	add	x1, x27, #16
	add	x2, sp, #320
	mov	w3, #12
	mov	v0.b[1], w9
	stp	q1, q1, [sp, #464]
	mov	v0.b[2], w8
	add	x8, sp, #224
	add	x8, x8, #16
	mov	v0.b[3], w22
	ld1	{ v0.b }[4], [x8]
	mov	w8, #8
	mov	v0.b[5], w8
	ldrb	w8, [sp, #296]
	bfi	w9, w8, #2, #2
	ldr	x8, [sp, #248]
	mov	v0.b[6], wzr
	str	w8, [sp, #328]
	mov	v0.b[7], w9
	str	d0, [sp, #320]
.LBBa52ca417_167:
	bl	hll_coupons.container.Container.image.5da326502419fe7c
	ldp	x19, x23, [sp, #472]
	ldrb	w26, [sp, #464]
	ldrb	w25, [sp, #465]
	ldr	x10, [sp, #488]
	b	.LBBa52ca417_366
.LBBa52ca417_168:
	mov	x8, xzr
.LBBa52ca417_169:
	ldrb	w9, [sp, #240]
	mov	w11, #1
	ldr	w10, [sp, #244]
	ldp	q0, q1, [x27, #64]
	sub	x0, x29, #96
	sub	w9, w9, #1
	add	x1, sp, #464
	str	w10, [sp, #496]
	lsl	x9, x11, x9
	ldrb	w11, [sp, #241]
	str	w8, [sp, #500]
	stp	q0, q1, [sp, #464]
	add	x9, x9, x8, lsl #2
	orr	w11, w22, w11, lsl #24
	orr	w2, w11, #0x80000
	add	x3, x9, #40
	bl	hll_registers.preamble.Preamble.start_image.f8e44fc08f8602d9
	sub	x9, x29, #96
	ldrb	w8, [x9]
	cbz	w8, .LBBa52ca417_203
	ldrb	w25, [x9, #1]
	b	.LBBa52ca417_201
.LBBa52ca417_171:
	mov	x9, #-6148914691236517206
	lsr	x11, x21, #11
	mov	x19, xzr
	movk	x9, #43691
	umulh	x8, x21, x9
	cmp	x11, #3
	lsr	x10, x8, #12
	add	x8, x10, x10, lsl #1
	lsl	x8, x8, #11
	sub	x11, x21, x8
	b.lo	.LBBa52ca417_176
	movi	v0.2d, #0000000000000000
	mov	x12, xzr
	add	x14, x20, #24
	addp	v0.8h, v0.8h, v0.8h
	uaddlp	v1.4s, v0.8h
	uadalp	v1.4s, v0.8h
	add	v0.4s, v1.4s, v1.4s
	addv	s0, v0.4s
	fmov	w13, s0
.LBBa52ca417_173:
	movi	v3.2d, #0000000000000000
	movi	v2.2d, #0000000000000000
	mov	w15, #128
	movi	v1.2d, #0000000000000000
	movi	v0.2d, #0000000000000000
	mov	x16, x14
.LBBa52ca417_174:
	ldur	q4, [x16, #-24]
	ldur	q5, [x16, #-12]
	movi	v18.4s, #4
	ldr	q6, [x24, :lo12:.LCPIa52ca417_2]
	ldr	q7, [x16]
	subs	x15, x15, #1
	ldur	q16, [x16, #8]
	ldr	q17, [x25, :lo12:.LCPIa52ca417_3]
	add	x16, x16, #48
	tbl	v5.16b, { v5.16b }, v6.16b
	tbl	v4.16b, { v4.16b }, v6.16b
	tbl	v6.16b, { v7.16b }, v6.16b
	tbl	v16.16b, { v16.16b }, v17.16b
	ushl	v4.8h, v4.8h, v18.8h
	ushl	v5.8h, v5.8h, v18.8h
	ushl	v6.8h, v6.8h, v18.8h
	ushl	v7.8h, v16.8h, v18.8h
	movi	v16.8h, #63
	ushr	v17.8h, v5.8h, #4
	ushr	v18.8h, v4.8h, #4
	ushr	v20.8h, v6.8h, #4
	ushr	v19.8h, v7.8h, #4
	ushr	v7.8h, v7.8h, #2
	ushr	v6.8h, v6.8h, #2
	ushr	v5.8h, v5.8h, #2
	ushr	v4.8h, v4.8h, #2
	and	v18.16b, v18.16b, v16.16b
	and	v17.16b, v17.16b, v16.16b
	and	v20.16b, v20.16b, v16.16b
	and	v16.16b, v19.16b, v16.16b
	bic	v7.8h, #255
	bic	v6.8h, #255
	bic	v4.8h, #255
	bic	v5.8h, #255
	orr	v7.16b, v16.16b, v7.16b
	orr	v6.16b, v20.16b, v6.16b
	orr	v5.16b, v17.16b, v5.16b
	orr	v4.16b, v18.16b, v4.16b
	cmeq	v7.16b, v7.16b, #0
	cmeq	v6.16b, v6.16b, #0
	cmeq	v4.16b, v4.16b, #0
	cmeq	v5.16b, v5.16b, #0
	sub	v0.16b, v0.16b, v7.16b
	sub	v1.16b, v1.16b, v6.16b
	sub	v2.16b, v2.16b, v5.16b
	sub	v3.16b, v3.16b, v4.16b
	b.ne	.LBBa52ca417_174
	ushll	v4.8h, v3.8b, #0
	ushll2	v3.8h, v3.16b, #0
	add	x12, x12, #1
	ushll	v5.8h, v2.8b, #0
	ushll2	v2.8h, v2.16b, #0
	add	x16, x19, x13
	mov	w17, #6144
	cmp	x12, x10
	addp	v3.8h, v4.8h, v3.8h
	ushll	v4.8h, v1.8b, #0
	ushll2	v1.8h, v1.16b, #0
	addp	v2.8h, v5.8h, v2.8h
	ushll	v5.8h, v0.8b, #0
	ushll2	v0.8h, v0.16b, #0
	add	x14, x14, x17
	addp	v1.8h, v4.8h, v1.8h
	uaddlp	v3.4s, v3.8h
	addp	v0.8h, v5.8h, v0.8h
	uaddlp	v2.4s, v2.8h
	uadalp	v3.4s, v1.8h
	uadalp	v2.4s, v0.8h
	add	v0.4s, v3.4s, v2.4s
	addv	s0, v0.4s
	fmov	w15, s0
	add	x19, x16, x15
	b.ne	.LBBa52ca417_173
.LBBa52ca417_176:
	umulh	x9, x11, x9
	movi	v4.2d, #0000000000000000
	movi	v2.2d, #0000000000000000
	movi	v3.2d, #0000000000000000
	movi	v1.2d, #0000000000000000
	movi	v0.2d, #0000000000000000
	cmp	x11, #48
	lsr	x12, x9, #5
	add	x9, x12, x12, lsl #1
	lsl	x10, x9, #4
	sub	x9, x11, x10
	b.lo	.LBBa52ca417_179
	add	x11, x8, x20
	add	x11, x11, #32
.LBBa52ca417_178:
	ldur	q5, [x11, #-32]
	ldur	q6, [x11, #-20]
	movi	v19.4s, #4
	ldr	q7, [x24, :lo12:.LCPIa52ca417_2]
	ldur	q16, [x11, #-8]
	subs	x12, x12, #1
	ldr	q17, [x11], #48
	ldr	q18, [x25, :lo12:.LCPIa52ca417_3]
	tbl	v6.16b, { v6.16b }, v7.16b
	tbl	v5.16b, { v5.16b }, v7.16b
	tbl	v7.16b, { v16.16b }, v7.16b
	tbl	v17.16b, { v17.16b }, v18.16b
	ushl	v5.8h, v5.8h, v19.8h
	ushl	v6.8h, v6.8h, v19.8h
	ushl	v7.8h, v7.8h, v19.8h
	ushl	v16.8h, v17.8h, v19.8h
	movi	v17.8h, #63
	ushr	v18.8h, v6.8h, #4
	ushr	v19.8h, v5.8h, #4
	ushr	v21.8h, v7.8h, #4
	ushr	v20.8h, v16.8h, #4
	ushr	v16.8h, v16.8h, #2
	ushr	v7.8h, v7.8h, #2
	ushr	v6.8h, v6.8h, #2
	ushr	v5.8h, v5.8h, #2
	and	v19.16b, v19.16b, v17.16b
	and	v18.16b, v18.16b, v17.16b
	and	v21.16b, v21.16b, v17.16b
	and	v17.16b, v20.16b, v17.16b
	bic	v16.8h, #255
	bic	v7.8h, #255
	bic	v5.8h, #255
	bic	v6.8h, #255
	orr	v16.16b, v17.16b, v16.16b
	orr	v7.16b, v21.16b, v7.16b
	orr	v6.16b, v18.16b, v6.16b
	orr	v5.16b, v19.16b, v5.16b
	cmeq	v16.16b, v16.16b, #0
	cmeq	v7.16b, v7.16b, #0
	cmeq	v5.16b, v5.16b, #0
	cmeq	v6.16b, v6.16b, #0
	sub	v0.16b, v0.16b, v16.16b
	sub	v1.16b, v1.16b, v7.16b
	sub	v3.16b, v3.16b, v6.16b
	sub	v2.16b, v2.16b, v5.16b
	b.ne	.LBBa52ca417_178
.LBBa52ca417_179:
	cmp	x9, #48
	stp	q4, q4, [sp, #464]
	stp	q4, q4, [sp, #496]
	b.hs	.LBBa52ca417_217
	mov	x12, #-6148914691236517206
	mov	x24, x0
	movk	x12, #43691
	umulh	x11, x9, x12
	lsr	x13, x11, #5
	add	x11, x13, x13, lsl #1
	lsl	x11, x11, #4
	sub	x16, x9, x11
	cmp	x16, #3
	b.lo	.LBBa52ca417_186
	umulh	x12, x16, x12
	lsl	x13, x13, #6
	cmp	x16, #24
	lsr	x12, x12, #1
	b.hs	.LBBa52ca417_266
	mov	x14, xzr
.LBBa52ca417_183:
	add	x27, sp, #224
.LBBa52ca417_184:
	add	x8, x8, x11
	add	x11, x14, x14, lsl #1
	add	x8, x8, x10
	add	x10, x13, x14, lsl #2
	add	x8, x8, x11
	add	x11, sp, #464
	add	x13, x8, x20
	sub	x8, x14, x12
	add	x10, x11, x10
	add	x11, x13, #2
.LBBa52ca417_185:
	ldurb	w12, [x11, #-2]
	ldurb	w13, [x11, #-1]
	movi	v6.4h, #63
	ldrb	w15, [x11], #3
	adds	x8, x8, #1
	mov	w14, w12
	fmov	s4, w12
	bfi	w14, w13, #8, #8
	lsl	w13, w13, #8
	lsr	w14, w14, #6
	orr	w12, w13, w15, lsl #16
	mov	v4.h[1], w14
	lsr	w12, w12, #12
	mov	v4.h[2], w12
	fmov	d5, d4
	mov	v4.h[3], w15
	bic	v4.4h, #255, lsl #8
	and	v5.8b, v5.8b, v6.8b
	ldr	s6, [x10]
	ushr	v4.4h, v4.4h, #2
	mov	v5.h[3], v4.h[3]
	ushll	v4.8h, v6.8b, #0
	umax	v4.4h, v5.4h, v4.4h
	uzp1	v4.8b, v4.8b, v0.8b
	st1	{ v4.s }[0], [x10], #4
	b.lo	.LBBa52ca417_185
.LBBa52ca417_186:
	ushll	v4.8h, v2.8b, #0
	ushll2	v2.8h, v2.16b, #0
	mov	w8, #171
	ushll	v5.8h, v3.8b, #0
	ushll2	v3.8h, v3.16b, #0
	mul	w8, w9, w8
	add	x0, sp, #320
	addp	v2.8h, v4.8h, v2.8h
	ushll	v4.8h, v1.8b, #0
	ushll2	v1.8h, v1.16b, #0
	addp	v3.8h, v5.8h, v3.8h
	ushll	v5.8h, v0.8b, #0
	ushll2	v0.8h, v0.16b, #0
	lsr	w8, w8, #7
	addp	v1.8h, v4.8h, v1.8h
	uaddlp	v2.4s, v2.8h
	addp	v0.8h, v5.8h, v0.8h
	uaddlp	v3.4s, v3.8h
	and	x1, x8, #0xfc
	uadalp	v2.4s, v1.8h
	uadalp	v3.4s, v0.8h
	add	v0.4s, v2.4s, v3.4s
	ldp	q1, q2, [sp, #464]
	addv	s0, v0.4s
	stp	q1, q2, [sp, #320]
	ldp	q3, q1, [sp, #496]
	fmov	w23, s0
	stp	q3, q1, [sp, #352]
	bl	hll_kernels.kernels.zeros_in
	add	w8, w0, w19
	add	w8, w23, w8
.LBBa52ca417_187:
	movi	v0.2d, #0000000000000000
	ldur	q1, [x27, #56]
	ldur	q2, [x27, #72]
	add	x0, sp, #320
	add	x1, sp, #464
	orr	w2, w22, #0x100
	add	x3, x21, #41
	stp	q1, q2, [sp, #464]
	str	w8, [sp, #496]
	stp	q0, q0, [sp, #320]
	str	wzr, [sp, #500]
	bl	hll_registers.preamble.Preamble.start_image.f8e44fc08f8602d9
	ldrb	w8, [sp, #320]
	cbnz	w8, .LBBa52ca417_200
	add	x8, sp, #73
	ldr	x10, [sp, #344]
	ldur	q0, [x8, #255]
	stur	x10, [x29, #-80]
	stur	q0, [x29, #-96]
	ldur	x8, [x29, #-88]
	sub	x9, x10, x8
	cmp	x21, x9
	b.hi	.LBBa52ca417_361
	mov	x22, x10
	ldur	x19, [x29, #-96]
	add	x27, x8, x21
	add	x0, x19, x8
	sub	x9, x0, x20
	cmp	x9, x21
	b.hs	.LBBa52ca417_363
.LBBa52ca417_190:
	cmp	x21, #8
	b.lo	.LBBa52ca417_192
	add	x9, x8, x19
	sub	x9, x9, x20
	cmp	x9, #32
	b.hs	.LBBa52ca417_312
.LBBa52ca417_192:
	mov	x9, xzr
.LBBa52ca417_193:
	add	x10, x9, x8
	sub	x8, x9, x21
	add	x9, x20, x9
	add	x10, x19, x10
.LBBa52ca417_194:
	ldrb	w11, [x9], #1
	adds	x8, x8, #1
	strb	w11, [x10], #1
	b.lo	.LBBa52ca417_194
	b	.LBBa52ca417_364
.LBBa52ca417_195:
	lsr	x25, x21, #13
	mov	x23, xzr
	cbz	x25, .LBBa52ca417_198
	mov	x19, x20
.LBBa52ca417_197:
	mov	x0, x19
	mov	w1, #8192
	bl	hll_kernels.kernels.zeros_in
	subs	x25, x25, #1
	add	x23, x0, x23
	add	x19, x19, #2, lsl #12
	b.ne	.LBBa52ca417_197
.LBBa52ca417_198:
	and	x8, x21, #0xffffffffffffe000
	and	x1, x21, #0x1fff
	add	x0, x20, x8
	bl	hll_kernels.kernels.zeros_in
	add	w8, w0, w23
.LBBa52ca417_199:
	movi	v0.2d, #0000000000000000
	ldur	q1, [x27, #56]
	ldur	q2, [x27, #72]
	add	x0, sp, #320
	add	x1, sp, #464
	orr	w2, w22, #0x200
	add	x3, x21, #40
	stp	q1, q2, [sp, #464]
	str	w8, [sp, #496]
	stp	q0, q0, [sp, #320]
	str	wzr, [sp, #500]
	bl	hll_registers.preamble.Preamble.start_image.f8e44fc08f8602d9
	ldrb	w8, [sp, #320]
	cbz	w8, .LBBa52ca417_210
.LBBa52ca417_200:
	ldrb	w25, [sp, #321]
.LBBa52ca417_201:
	mov	x19, xzr
	mov	x23, xzr
	mov	x10, xzr
.LBBa52ca417_202:
	mov	w26, #1
	b	.LBBa52ca417_366
.LBBa52ca417_203:
	ldur	q0, [x9, #8]
	ldur	x9, [x29, #-72]
	ldp	x21, x20, [sp, #248]
	stur	q0, [x29, #-64]
	ldur	x23, [x29, #-56]
	stur	x9, [x29, #-48]
	sub	x8, x9, x23
	cmp	x20, x8
	b.hi	.LBBa52ca417_332
	mov	x22, x9
	ldur	x19, [x29, #-64]
	add	x8, x19, x23
	sub	x8, x8, x21
	cmp	x8, x20
	b.hs	.LBBa52ca417_334
.LBBa52ca417_205:
	cmp	x20, #8
	b.lo	.LBBa52ca417_207
	add	x8, x23, x19
	sub	x8, x8, x21
	cmp	x8, #32
	b.hs	.LBBa52ca417_297
.LBBa52ca417_207:
	mov	x8, xzr
.LBBa52ca417_208:
	add	x10, x8, x23
	sub	x9, x20, x8
	add	x8, x21, x8
	add	x10, x19, x10
.LBBa52ca417_209:
	ldrb	w11, [x8], #1
	subs	x9, x9, #1
	strb	w11, [x10], #1
	b.ne	.LBBa52ca417_209
	b	.LBBa52ca417_335
.LBBa52ca417_210:
	add	x8, sp, #73
	ldr	x10, [sp, #344]
	ldur	q0, [x8, #255]
	stur	x10, [x29, #-80]
	stur	q0, [x29, #-96]
	ldur	x8, [x29, #-88]
	sub	x9, x10, x8
	cmp	x21, x9
	b.hi	.LBBa52ca417_349
	mov	x22, x10
	ldur	x19, [x29, #-96]
	add	x23, x8, x21
	add	x0, x19, x8
	sub	x9, x0, x20
	cmp	x9, x21
	b.hs	.LBBa52ca417_351
.LBBa52ca417_212:
	cmp	x21, #8
	b.lo	.LBBa52ca417_214
	add	x9, x8, x19
	sub	x9, x9, x20
	cmp	x9, #32
	b.hs	.LBBa52ca417_299
.LBBa52ca417_214:
	mov	x9, xzr
.LBBa52ca417_215:
	sub	x10, x21, x9
	add	x11, x20, x9
	add	x8, x9, x8
.LBBa52ca417_216:
	ldrb	w9, [x11], #1
	subs	x10, x10, #1
	strb	w9, [x19, x8]
	add	x8, x8, #1
	b.ne	.LBBa52ca417_216
	b	.LBBa52ca417_352
.LBBa52ca417_217:
	add	x8, x8, x10
	add	x9, sp, #464
	add	x8, x8, x20
	add	x8, x8, #32
.LBBa52ca417_218:
	ldr	q0, [x24, :lo12:.LCPIa52ca417_2]
	ldur	q1, [x8, #-8]
	movi	v6.4s, #4
	ldr	q3, [x8]
	ldr	q4, [x25, :lo12:.LCPIa52ca417_3]
	ldur	q2, [x8, #-32]
	tbl	v1.16b, { v1.16b }, v0.16b
	ldur	q5, [x8, #-20]
	add	x8, x8, #48
	tbl	v3.16b, { v3.16b }, v4.16b
	tbl	v2.16b, { v2.16b }, v0.16b
	movi	v4.8h, #63
	tbl	v0.16b, { v5.16b }, v0.16b
	ushl	v1.8h, v1.8h, v6.8h
	ushl	v3.8h, v3.8h, v6.8h
	ushl	v2.8h, v2.8h, v6.8h
	ushl	v0.8h, v0.8h, v6.8h
	ushr	v5.8h, v1.8h, #4
	ushr	v1.8h, v1.8h, #2
	ushr	v6.8h, v3.8h, #4
	ushr	v3.8h, v3.8h, #2
	ushr	v7.8h, v2.8h, #4
	ushr	v16.8h, v0.8h, #4
	ushr	v2.8h, v2.8h, #2
	ushr	v0.8h, v0.8h, #2
	and	v5.16b, v5.16b, v4.16b
	bic	v1.8h, #255
	and	v6.16b, v6.16b, v4.16b
	bic	v3.8h, #255
	and	v7.16b, v7.16b, v4.16b
	bic	v2.8h, #255
	and	v4.16b, v16.16b, v4.16b
	bic	v0.8h, #255
	orr	v1.16b, v5.16b, v1.16b
	orr	v3.16b, v6.16b, v3.16b
	ldp	q5, q6, [x9, #32]
	orr	v2.16b, v7.16b, v2.16b
	orr	v0.16b, v4.16b, v0.16b
	umax	v1.16b, v5.16b, v1.16b
	ldp	q4, q5, [x9]
	umax	v3.16b, v6.16b, v3.16b
	umax	v2.16b, v4.16b, v2.16b
	umax	v0.16b, v5.16b, v0.16b
	stp	q1, q3, [x9, #32]
	stp	q2, q0, [x9], #64
	b	.LBBa52ca417_218
.LBBa52ca417_219:
	mov	w8, #1
	mov	w10, wzr
	mov	x18, xzr
	lsl	x22, x8, x19
	ldr	w8, [x1, #32]
	mov	w26, #8
	str	x0, [sp, #200]
	cmp	x22, x8
	b.lo	.LBBa52ca417_290
	ldr	w11, [x1, #36]
	ldr	x0, [sp, #200]
	mov	x25, x1
	mov	w21, w10
	mov	x17, x18
	mov	w9, w10
	mov	x8, x18
	mov	x3, x18
	mov	x28, x18
	mov	x27, x18
	mov	x23, x18
	cbnz	w11, .LBBa52ca417_60
	sub	x8, x2, #40
	cmp	x8, x22
	b.hs	.LBBa52ca417_291
	ldr	x0, [sp, #200]
	b	.LBBa52ca417_59
.LBBa52ca417_223:
	cmp	w5, #0
	add	x20, x7, #16
	add	x21, x7, #4
	csel	x20, x1, x20, eq
	ldr	s0, [x6]
	add	x22, x7, #20
	ldr	s1, [x20]
	csel	x21, x15, x21, eq
	csel	x20, x17, x22, eq
	ld1	{ v0.s }[1], [x21]
	add	x21, x7, #8
	add	x6, x6, x12, lsl #2
	ld1	{ v1.s }[1], [x20]
	csel	x20, x18, x21, eq
	add	x21, x7, #24
	csel	x21, x2, x21, eq
	dup	v2.4s, w4
	ld1	{ v0.s }[2], [x20]
	add	x20, x7, #12
	add	x7, x7, #28
	ld1	{ v1.s }[2], [x21]
	csel	x20, x16, x20, eq
	csel	x7, x13, x7, eq
	ldp	q3, q4, [x6, #-32]
	ld1	{ v0.s }[3], [x20]
	ld1	{ v1.s }[3], [x7]
	cmeq	v4.4s, v4.4s, v2.4s
	cmeq	v0.4s, v0.4s, v2.4s
	cmeq	v1.4s, v1.4s, v2.4s
	cmeq	v2.4s, v3.4s, v2.4s
	uzp1	v0.8h, v0.8h, v1.8h
	uzp1	v1.8h, v2.8h, v4.8h
	uzp1	v0.16b, v0.16b, v1.16b
	umaxv	b0, v0.16b
	fmov	w6, s0
	tbnz	w6, #0, .LBBa52ca417_255
.LBBa52ca417_224:
	ldrb	w5, [sp, #480]
	cbz	w5, .LBBa52ca417_236
	ldr	x5, [sp, #488]
	str	w4, [x5, x12, lsl #2]
.LBBa52ca417_226:
	ldr	x12, [sp, #472]
	cmp	w4, w3
	add	x10, x10, #1
	csel	w3, w4, w3, hi
	cmp	x10, x9
	add	x12, x12, #1
	str	x12, [sp, #472]
	b.hs	.LBBa52ca417_258
.LBBa52ca417_227:
	tbz	w8, #0, .LBBa52ca417_233
	ldr	w4, [x11, x10, lsl #2]
	cmp	w4, w3
	b.hi	.LBBa52ca417_224
.LBBa52ca417_229:
	lsr	w6, w4, #26
	ldrb	w5, [sp, #480]
	cbz	w6, .LBBa52ca417_255
	ldr	x7, [sp, #488]
	cmp	w5, #0
	csel	x6, x14, x7, eq
	cbz	x12, .LBBa52ca417_224
	subs	x20, x12, #2
	b.hi	.LBBa52ca417_237
	ldr	w7, [x6]
	b	.LBBa52ca417_242
.LBBa52ca417_233:
	ldr	w4, [x11, x10, lsl #2]
	cmp	w4, w3
	b.hi	.LBBa52ca417_224
	cbnz	w4, .LBBa52ca417_229
	add	x10, x10, #1
	cmp	x10, x9
	b.lo	.LBBa52ca417_233
	b	.LBBa52ca417_258
.LBBa52ca417_236:
	str	w4, [x14, x12, lsl #2]
	b	.LBBa52ca417_226
.LBBa52ca417_237:
	cmp	x12, #8
	b.hi	.LBBa52ca417_244
	add	x7, x7, #4
	cmp	w5, #0
	mov	w21, #2
	csel	x7, x15, x7, eq
	cmp	x20, #2
	mov	w22, #4
	csel	x21, x20, x21, lo
	cmp	x20, #4
	csel	x22, x20, x22, lo
	lsl	x21, x21, #2
	lsl	x22, x22, #2
	ldr	d0, [x6, x21]
	ldr	d1, [x6, x22]
	mov	v0.d[1], v1.d[0]
	dup	v1.4s, w4
	cmeq	v0.4s, v0.4s, v1.4s
	umaxv	s0, v0.4s
	fmov	w21, s0
	tbnz	w21, #0, .LBBa52ca417_255
	ldr	w21, [x6]
	cmp	w21, w4
	b.eq	.LBBa52ca417_255
	ldr	w7, [x7]
	cmp	w7, w4
	b.eq	.LBBa52ca417_255
	ldr	w7, [x6, x20, lsl #2]
.LBBa52ca417_242:
	cmp	w7, w4
	b.eq	.LBBa52ca417_255
	add	x6, x6, x12, lsl #2
	ldur	w6, [x6, #-4]
	cmp	w6, w4
	b.ne	.LBBa52ca417_224
	b	.LBBa52ca417_255
.LBBa52ca417_244:
	cmp	x12, #17
	b.lo	.LBBa52ca417_223
	dup	v0.4s, w4
	mov	x7, xzr
	mov	x20, x6
	mov	x21, x12
.LBBa52ca417_246:
	ldp	q2, q1, [x20]
	ldp	q4, q3, [x20, #32]
	cmeq	v1.4s, v1.4s, v0.4s
	cmeq	v2.4s, v2.4s, v0.4s
	cmeq	v4.4s, v4.4s, v0.4s
	cmeq	v3.4s, v3.4s, v0.4s
	uzp1	v1.8h, v2.8h, v1.8h
	uzp1	v2.8h, v4.8h, v3.8h
	uzp1	v1.16b, v1.16b, v2.16b
	umaxv	b1, v1.16b
	fmov	w22, s1
	tbnz	w22, #0, .LBBa52ca417_249
	sub	x21, x21, #16
	add	x7, x7, #16
	add	x20, x20, #64
	cmp	x21, #15
	b.hi	.LBBa52ca417_246
	and	x7, x12, #0xfffffffffffffff0
.LBBa52ca417_249:
	sub	x20, x12, x7
	sub	x30, x29, #96
	cmp	x20, #8
	b.lo	.LBBa52ca417_254
	add	x7, x6, x7, lsl #2
.LBBa52ca417_251:
	ldp	q1, q2, [x7], #32
	cmeq	v2.4s, v2.4s, v0.4s
	cmeq	v1.4s, v1.4s, v0.4s
	uzp1	v1.8h, v1.8h, v2.8h
	umaxv	h1, v1.8h
	fmov	w21, s1
	tbnz	w21, #0, .LBBa52ca417_253
	sub	x20, x20, #8
	cmp	x20, #7
	b.hi	.LBBa52ca417_251
	b	.LBBa52ca417_254
.LBBa52ca417_253:
	cmp	x20, #7
	b.hi	.LBBa52ca417_255
.LBBa52ca417_254:
	add	x6, x6, x12, lsl #2
	ldp	q1, q2, [x6, #-32]
	cmeq	v2.4s, v2.4s, v0.4s
	cmeq	v0.4s, v1.4s, v0.4s
	uzp1	v0.8h, v0.8h, v2.8h
	umaxv	h0, v0.8h
	fmov	w6, s0
	tbz	w6, #0, .LBBa52ca417_224
.LBBa52ca417_255:
	mov	x19, x0
	mov	w26, #9
	cbz	w5, .LBBa52ca417_314
	ldr	x8, [sp, #504]
	mov	x0, x19
	cbz	x8, .LBBa52ca417_12
	ldr	x0, [sp, #488]
	b	.LBBa52ca417_263
.LBBa52ca417_258:
	cmp	x12, x23
	b.ne	.LBBa52ca417_260
	ldr	x14, [sp, #464]
	ldp	x1, x8, [sp, #488]
	ldrb	w17, [sp, #480]
	mov	x16, x23
	mov	x10, xzr
	lsr	x22, x14, #8
	ldr	w9, [sp, #484]
	lsr	x25, x14, #32
	ldr	x3, [sp, #504]
	ldr	w28, [sp, #512]
	mov	x11, xzr
	mov	x23, xzr
	mov	x12, xzr
	mov	x13, xzr
	mov	x18, xzr
	mov	w2, w22
	mov	w21, w14
	b	.LBBa52ca417_62
.LBBa52ca417_260:
	ldrb	w8, [sp, #480]
	mov	w26, #8
	cbz	w8, .LBBa52ca417_12
	ldr	x8, [sp, #504]
	cbz	x8, .LBBa52ca417_12
	ldr	x8, [sp, #488]
	mov	x19, x0
	mov	x0, x8
.LBBa52ca417_263:
	bl	rattle_dealloc
	mov	x0, x19
	b	.LBBa52ca417_12
.LBBa52ca417_264:
	mov	x8, xzr
	b	.LBBa52ca417_302
.LBBa52ca417_265:
	mov	x11, xzr
	mov	x12, x1
	mov	x13, x21
	b	.LBBa52ca417_279
.LBBa52ca417_266:
	sub	x17, x12, #1
	add	x14, sp, #464
	lsl	x18, x17, #2
	add	x0, x14, x13
	add	x14, x0, #3
	add	x15, x14, x18
	cmp	x15, x14
	mov	x14, xzr
	b.lo	.LBBa52ca417_183
	add	x15, x0, #2
	add	x1, x15, x18
	cmp	x1, x15
	b.lo	.LBBa52ca417_183
	add	x15, sp, #464
	add	x15, x15, x13
	add	x1, x15, x18
	cmp	x1, x15
	b.lo	.LBBa52ca417_183
	add	x0, x0, #1
	add	x18, x0, x18
	cmp	x18, x0
	b.lo	.LBBa52ca417_183
	lsr	x17, x17, #62
	add	x27, sp, #224
	cbnz	x17, .LBBa52ca417_184
	cmp	x16, #48
	b.hs	.LBBa52ca417_385
	mov	x14, xzr
.LBBa52ca417_273:
	mov	x15, x14
	add	x14, x8, x11
	add	x16, x15, x15, lsl #1
	add	x17, x14, x10
	add	x18, x13, x15, lsl #2
	and	x14, x12, #0x7ffffffffffffff8
	add	x16, x17, x16
	add	x17, sp, #464
	sub	x15, x15, x14
	add	x16, x20, x16
	add	x17, x17, x18
.LBBa52ca417_274:
	ld3	{ v4.8b, v5.8b, v6.8b }, [x16], #24
	adrp	x18, .LCPIa52ca417_8
	ldr	q7, [x18, :lo12:.LCPIa52ca417_8]
	adrp	x18, .LCPIa52ca417_9
	adds	x15, x15, #8
	ldr	q16, [x18, :lo12:.LCPIa52ca417_9]
	adrp	x18, .LCPIa52ca417_11
	tbl	v17.16b, { v5.16b }, v7.16b
	tbl	v18.16b, { v5.16b }, v16.16b
	tbl	v19.16b, { v6.16b }, v7.16b
	tbl	v20.16b, { v6.16b }, v16.16b
	tbl	v7.16b, { v4.16b }, v7.16b
	tbl	v16.16b, { v4.16b }, v16.16b
	shl	v17.4s, v17.4s, #8
	shl	v18.4s, v18.4s, #8
	shl	v19.4s, v19.4s, #16
	shl	v20.4s, v20.4s, #16
	orr	v7.16b, v17.16b, v7.16b
	orr	v17.16b, v19.16b, v17.16b
	orr	v16.16b, v18.16b, v16.16b
	orr	v18.16b, v20.16b, v18.16b
	ushr	v20.4s, v7.4s, #6
	ldr	q7, [x18, :lo12:.LCPIa52ca417_11]
	ushr	v19.4s, v16.4s, #6
	ushr	v17.4s, v17.4s, #12
	ushr	v16.4s, v18.4s, #12
	movi	v18.8b, #63
	tbl	v19.16b, { v19.16b, v20.16b }, v7.16b
	ld4	{ v20.8b, v21.8b, v22.8b, v23.8b }, [x17]
	tbl	v7.16b, { v16.16b, v17.16b }, v7.16b
	and	v16.8b, v4.8b, v18.8b
	ushr	v4.8b, v6.8b, #2
	and	v17.8b, v19.8b, v18.8b
	and	v7.8b, v7.8b, v18.8b
	umax	v24.8b, v16.8b, v20.8b
	umax	v25.8b, v17.8b, v21.8b
	umax	v26.8b, v7.8b, v22.8b
	umax	v27.8b, v4.8b, v23.8b
	st4	{ v24.8b, v25.8b, v26.8b, v27.8b }, [x17], #32
	b.ne	.LBBa52ca417_274
	cmp	x12, x14
	add	x27, sp, #224
	b.ne	.LBBa52ca417_184
	b	.LBBa52ca417_186
.LBBa52ca417_276:
	cbnz	w18, .LBBa52ca417_430
	str	w14, [x23, x17, lsl #2]
	add	x8, x8, #1
.LBBa52ca417_278:
	add	x11, x11, #1
	cmp	x11, x24
	b.eq	.LBBa52ca417_302
.LBBa52ca417_279:
	subs	x13, x13, #4
	b.lo	.LBBa52ca417_431
	ldr	w14, [x12], #4
	cbz	w14, .LBBa52ca417_278
	lsr	w15, w14, #26
	cbz	w15, .LBBa52ca417_430
	and	w15, w14, #0x3ffffff
	mov	x16, x10
	mov	x17, x14
	lsr	w15, w15, w28
	orr	w15, w15, #0x1
.LBBa52ca417_283:
	and	x17, x17, x9
	ldr	w18, [x23, x17, lsl #2]
	cbz	w18, .LBBa52ca417_276
	cmp	w18, w14
	b.eq	.LBBa52ca417_276
	subs	x16, x16, #1
	add	x17, x17, x15
	b.ne	.LBBa52ca417_283
.LBBa52ca417_286:
	add	x0, sp, #464
	mov	x2, x21
	mov	x3, x24
	mov	w4, w22
	str	x8, [sp, #472]
	bl	hll_coupons.hash_set.read_by_order.5da326502419fe7c
	tst	w0, #0xff
	b.eq	.LBBa52ca417_301
	ldrb	w8, [sp, #480]
	mov	w26, w1
	cbnz	w8, .LBBa52ca417_305
	b	.LBBa52ca417_596
.LBBa52ca417_288:
	mov	w21, w10
	mov	x17, x18
	mov	w9, w10
	mov	x8, x18
	mov	x3, x18
	mov	x28, x18
	mov	x27, x18
	mov	x23, x18
	mov	x0, x22
	b	.LBBa52ca417_60
.LBBa52ca417_289:
	mov	w10, wzr
	mov	w26, wzr
	mov	w21, wzr
	mov	x18, xzr
	mov	x17, xzr
	mov	w9, wzr
	mov	x8, xzr
	mov	x3, xzr
	mov	x28, xzr
	mov	x27, xzr
	mov	x23, xzr
	mov	x0, x22
	b	.LBBa52ca417_60
.LBBa52ca417_290:
	ldr	x0, [sp, #200]
	mov	w21, w10
	mov	x17, x18
	mov	w9, w10
	mov	x8, x18
	mov	x3, x18
	mov	x28, x18
	mov	x27, x18
	mov	x23, x18
	b	.LBBa52ca417_60
.LBBa52ca417_291:
	lsr	x8, x22, #6
	add	x20, x25, #40
	cbz	x8, .LBBa52ca417_295
	movi	v1.2d, #0000000000000000
	movi	v2.2d, #0000000000000000
	add	x9, x25, #40
	movi	v3.2d, #0000000000000000
.LBBa52ca417_293:
	ldp	q5, q4, [x9]
	subs	x8, x8, #1
	ldp	q7, q6, [x9, #32]
	add	x9, x9, #64
	umax	v0.16b, v0.16b, v4.16b
	umax	v1.16b, v1.16b, v5.16b
	umax	v2.16b, v2.16b, v7.16b
	umax	v3.16b, v3.16b, v6.16b
	b.ne	.LBBa52ca417_293
	umax	v1.16b, v1.16b, v2.16b
	umax	v0.16b, v0.16b, v3.16b
	umax	v0.16b, v1.16b, v0.16b
	umaxv	b0, v0.16b
	fmov	w8, s0
.LBBa52ca417_295:
	cmp	w19, #5
	b.ls	.LBBa52ca417_316
	mov	w12, wzr
	b	.LBBa52ca417_456
.LBBa52ca417_297:
	cmp	x20, #32
	b.hs	.LBBa52ca417_318
	mov	x8, xzr
	b	.LBBa52ca417_322
.LBBa52ca417_299:
	cmp	x21, #32
	b.hs	.LBBa52ca417_325
	mov	x9, xzr
	b	.LBBa52ca417_329
.LBBa52ca417_301:
	ldr	x8, [sp, #472]
.LBBa52ca417_302:
	ldr	x9, [sp, #208]
	cmp	x8, x9
	b.ne	.LBBa52ca417_304
	ldr	x14, [sp, #464]
	ldp	x1, x8, [sp, #488]
	ldp	x0, x16, [sp, #200]
	mov	x10, xzr
	lsr	x22, x14, #8
	ldrb	w17, [sp, #480]
	lsr	x25, x14, #32
	ldr	w9, [sp, #484]
	ldr	x3, [sp, #504]
	mov	x11, xzr
	ldr	w28, [sp, #512]
	mov	x23, xzr
	mov	x12, xzr
	mov	x13, xzr
	mov	w18, #1
	mov	w2, w22
	mov	w21, w14
	sub	x30, x29, #96
	b	.LBBa52ca417_62
.LBBa52ca417_304:
	ldrb	w8, [sp, #480]
	mov	w26, #8
	cbz	w8, .LBBa52ca417_596
.LBBa52ca417_305:
	ldr	x8, [sp, #504]
	cbz	x8, .LBBa52ca417_596
	ldr	x0, [sp, #488]
.LBBa52ca417_307:
	bl	rattle_dealloc
	b	.LBBa52ca417_596
.LBBa52ca417_308:
	ldur	x11, [x29, #-8]
	and	x16, x9, #0x7ffffffffffffff0
	add	x11, x11, x22
	add	x15, x11, x8
	and	x11, x9, #0x7ffffffffffffff0
.LBBa52ca417_309:
	ld3	{ v0.16b, v1.16b, v2.16b }, [x15], #48
	adrp	x17, .LCPIa52ca417_6
	ldr	q3, [x17, :lo12:.LCPIa52ca417_6]
	adrp	x17, .LCPIa52ca417_7
	subs	x16, x16, #16
	ldr	q4, [x17, :lo12:.LCPIa52ca417_7]
	ldr	q5, [x12, :lo12:.LCPIa52ca417_8]
	adrp	x17, .LCPIa52ca417_10
	ldr	q7, [x13, :lo12:.LCPIa52ca417_9]
	tbl	v6.16b, { v1.16b }, v3.16b
	tbl	v16.16b, { v1.16b }, v4.16b
	tbl	v17.16b, { v1.16b }, v5.16b
	tbl	v18.16b, { v2.16b }, v3.16b
	tbl	v3.16b, { v0.16b }, v3.16b
	tbl	v19.16b, { v1.16b }, v7.16b
	tbl	v20.16b, { v2.16b }, v4.16b
	tbl	v4.16b, { v0.16b }, v4.16b
	tbl	v21.16b, { v2.16b }, v5.16b
	tbl	v5.16b, { v0.16b }, v5.16b
	tbl	v22.16b, { v2.16b }, v7.16b
	tbl	v7.16b, { v0.16b }, v7.16b
	shl	v6.4s, v6.4s, #8
	shl	v16.4s, v16.4s, #8
	shl	v17.4s, v17.4s, #8
	shl	v18.4s, v18.4s, #16
	shl	v19.4s, v19.4s, #8
	shl	v20.4s, v20.4s, #16
	shl	v21.4s, v21.4s, #16
	orr	v3.16b, v6.16b, v3.16b
	orr	v4.16b, v16.16b, v4.16b
	shl	v22.4s, v22.4s, #16
	orr	v6.16b, v18.16b, v6.16b
	orr	v5.16b, v17.16b, v5.16b
	orr	v7.16b, v19.16b, v7.16b
	orr	v16.16b, v20.16b, v16.16b
	ushr	v26.4s, v3.4s, #6
	orr	v3.16b, v21.16b, v17.16b
	ushr	v25.4s, v4.4s, #6
	orr	v4.16b, v22.16b, v19.16b
	ushr	v20.4s, v6.4s, #12
	ushr	v24.4s, v5.4s, #6
	ushr	v19.4s, v16.4s, #12
	ldr	q5, [x17, :lo12:.LCPIa52ca417_10]
	ushr	v23.4s, v7.4s, #6
	ushr	v18.4s, v3.4s, #12
	ushr	v17.4s, v4.4s, #12
	movi	v4.16b, #63
	tbl	v3.16b, { v23.16b, v24.16b, v25.16b, v26.16b }, v5.16b
	ld4	{ v21.16b, v22.16b, v23.16b, v24.16b }, [x14]
	tbl	v5.16b, { v17.16b, v18.16b, v19.16b, v20.16b }, v5.16b
	and	v6.16b, v0.16b, v4.16b
	ushr	v0.16b, v2.16b, #2
	and	v3.16b, v3.16b, v4.16b
	and	v4.16b, v5.16b, v4.16b
	umax	v17.16b, v3.16b, v22.16b
	umax	v16.16b, v6.16b, v21.16b
	umax	v18.16b, v4.16b, v23.16b
	umax	v19.16b, v0.16b, v24.16b
	st4	{ v16.16b, v17.16b, v18.16b, v19.16b }, [x14], #64
	b.ne	.LBBa52ca417_309
	ldur	x18, [x29, #-8]
	cmp	x9, x11
	b.eq	.LBBa52ca417_145
	tbnz	w9, #3, .LBBa52ca417_121
	b	.LBBa52ca417_143
.LBBa52ca417_312:
	cmp	x21, #32
	b.hs	.LBBa52ca417_354
	mov	x9, xzr
	b	.LBBa52ca417_358
.LBBa52ca417_314:
	mov	x0, x19
	b	.LBBa52ca417_12
.LBBa52ca417_315:
	mov	w10, wzr
	mov	w21, wzr
	mov	x18, xzr
	mov	x17, xzr
	mov	w9, wzr
	mov	x8, xzr
	mov	x3, xzr
	mov	x28, xzr
	mov	x27, xzr
	mov	x23, xzr
	mov	w26, #12
	mov	x0, x22
	sub	x30, x29, #96
	b	.LBBa52ca417_60
.LBBa52ca417_316:
	and	x9, x22, #0x3f
	and	x10, x22, #0xffffffc0
	cmp	x9, #4
	b.hs	.LBBa52ca417_425
	mov	w12, wzr
	mov	x11, xzr
	b	.LBBa52ca417_454
.LBBa52ca417_318:
	add	x11, x23, x19
	and	x9, x20, #0x18
	and	x8, x20, #0xffffffffffffffe0
	add	x10, x21, #16
	add	x11, x11, #16
	and	x12, x20, #0xffffffffffffffe0
.LBBa52ca417_319:
	ldp	q0, q1, [x10, #-16]
	subs	x12, x12, #32
	add	x10, x10, #32
	stp	q0, q1, [x11, #-16]
	add	x11, x11, #32
	b.ne	.LBBa52ca417_319
	cmp	x20, x8
	b.eq	.LBBa52ca417_335
	cbz	x9, .LBBa52ca417_208
.LBBa52ca417_322:
	mov	x10, x8
	and	x8, x20, #0xfffffffffffffff8
	add	x11, x23, x10
	sub	x9, x10, x8
	add	x10, x21, x10
	add	x11, x19, x11
.LBBa52ca417_323:
	ldr	d0, [x10], #8
	adds	x9, x9, #8
	str	d0, [x11], #8
	b.ne	.LBBa52ca417_323
	cmp	x20, x8
	b.eq	.LBBa52ca417_335
	b	.LBBa52ca417_208
.LBBa52ca417_325:
	add	x12, x8, x19
	and	x10, x21, #0x18
	and	x9, x21, #0xffffffffffffffe0
	add	x11, x20, #16
	add	x12, x12, #16
	and	x13, x21, #0xffffffffffffffe0
.LBBa52ca417_326:
	ldp	q0, q1, [x11, #-16]
	subs	x13, x13, #32
	add	x11, x11, #32
	stp	q0, q1, [x12, #-16]
	add	x12, x12, #32
	b.ne	.LBBa52ca417_326
	cmp	x21, x9
	b.eq	.LBBa52ca417_352
	cbz	x10, .LBBa52ca417_215
.LBBa52ca417_329:
	mov	x12, x9
	and	x9, x21, #0xfffffffffffffff8
	sub	x10, x12, x9
	add	x11, x20, x12
	add	x12, x8, x12
.LBBa52ca417_330:
	ldr	d0, [x11], #8
	adds	x10, x10, #8
	str	d0, [x19, x12]
	add	x12, x12, #8
	b.ne	.LBBa52ca417_330
	cmp	x21, x9
	b.eq	.LBBa52ca417_352
	b	.LBBa52ca417_215
.LBBa52ca417_332:
	sub	x0, x29, #64
	mov	x1, x20
	bl	std_alloc.vec.Vec.grow_amortized.d7da23479759cf44
	cbz	w0, .LBBa52ca417_427
	ldp	x23, x22, [x29, #-56]
	ldur	x19, [x29, #-64]
	add	x8, x19, x23
	sub	x8, x8, x21
	cmp	x8, x20
	b.lo	.LBBa52ca417_205
.LBBa52ca417_334:
	add	x0, x19, x23
	mov	x1, x21
	mov	x2, x20
	bl	memmove
.LBBa52ca417_335:
	ldrb	w8, [sp, #272]
	add	x23, x23, x20
	cmp	w8, #1
	b.ne	.LBBa52ca417_352
	movi	v0.2d, #0000000000000000
	ldr	x8, [sp, #280]
	add	x0, sp, #320
	add	x1, x8, #8
	stp	q0, q0, [sp, #320]
	bl	hll_coupons.container.Container.ascending.93a4c1920d65b3d5
	ldrb	w8, [sp, #320]
	cbz	w8, .LBBa52ca417_339
	ldrb	w25, [sp, #321]
	cbz	x22, .LBBa52ca417_201
	mov	x0, x19
	bl	rattle_dealloc
	b	.LBBa52ca417_201
.LBBa52ca417_339:
	ldp	x20, x25, [sp, #328]
	ldr	x21, [sp, #344]
	stp	x19, x23, [sp, #320]
	str	x22, [sp, #336]
	cbz	x25, .LBBa52ca417_346
	mov	x26, x20
	b	.LBBa52ca417_342
.LBBa52ca417_341:
	str	w27, [x19, x23]
	add	x23, x23, #4
	subs	x25, x25, #1
	stp	x23, x22, [sp, #328]
	b.eq	.LBBa52ca417_345
.LBBa52ca417_342:
	sub	x8, x22, x23
	ldr	w27, [x26], #4
	cmp	x8, #3
	b.hi	.LBBa52ca417_341
	add	x0, sp, #320
	mov	w1, #4
	bl	std_alloc.vec.Vec.grow_amortized.d7da23479759cf44
	cbz	w0, .LBBa52ca417_485
	ldp	x23, x22, [sp, #328]
	ldr	x19, [sp, #320]
	b	.LBBa52ca417_341
.LBBa52ca417_345:
	ldr	x19, [sp, #320]
.LBBa52ca417_346:
	mov	w26, #1
	cbz	x21, .LBBa52ca417_348
.LBBa52ca417_347:
	mov	x0, x20
	bl	rattle_dealloc
.LBBa52ca417_348:
	tbz	w26, #0, .LBBa52ca417_201
	b	.LBBa52ca417_352
.LBBa52ca417_349:
	sub	x0, x29, #96
	mov	x1, x21
	bl	std_alloc.vec.Vec.grow_amortized.d7da23479759cf44
	cbz	w0, .LBBa52ca417_382
	ldp	x8, x22, [x29, #-88]
	ldur	x19, [x29, #-96]
	add	x23, x8, x21
	add	x0, x19, x8
	sub	x9, x0, x20
	cmp	x9, x21
	b.lo	.LBBa52ca417_212
.LBBa52ca417_351:
	mov	x1, x20
	mov	x2, x21
	bl	memmove
.LBBa52ca417_352:
	mov	w26, wzr
	mov	w25, wzr
	mov	x10, x22
	b	.LBBa52ca417_366
.LBBa52ca417_353:
	str	xzr, [sp, #192]
	b	.LBBa52ca417_390
.LBBa52ca417_354:
	add	x12, x8, x19
	and	x10, x21, #0x18
	and	x9, x21, #0xffffffffffffffe0
	add	x11, x20, #16
	add	x12, x12, #16
	and	x13, x21, #0xffffffffffffffe0
.LBBa52ca417_355:
	ldp	q0, q1, [x11, #-16]
	subs	x13, x13, #32
	add	x11, x11, #32
	stp	q0, q1, [x12, #-16]
	add	x12, x12, #32
	b.ne	.LBBa52ca417_355
	cmp	x21, x9
	b.eq	.LBBa52ca417_364
	cbz	x10, .LBBa52ca417_193
.LBBa52ca417_358:
	mov	x11, x9
	and	x9, x21, #0xfffffffffffffff8
	add	x12, x8, x11
	sub	x10, x11, x9
	add	x11, x20, x11
	add	x12, x19, x12
.LBBa52ca417_359:
	ldr	d0, [x11], #8
	adds	x10, x10, #8
	str	d0, [x12], #8
	b.ne	.LBBa52ca417_359
	cmp	x21, x9
	b.eq	.LBBa52ca417_364
	b	.LBBa52ca417_193
.LBBa52ca417_361:
	sub	x0, x29, #96
	mov	x1, x21
	bl	std_alloc.vec.Vec.grow_amortized.d7da23479759cf44
	cbz	w0, .LBBa52ca417_382
	ldp	x8, x22, [x29, #-88]
	ldur	x19, [x29, #-96]
	add	x27, x8, x21
	add	x0, x19, x8
	sub	x9, x0, x20
	cmp	x9, x21
	b.lo	.LBBa52ca417_190
.LBBa52ca417_363:
	mov	x1, x20
	mov	x2, x21
	bl	memmove
.LBBa52ca417_364:
	mov	x10, x22
	cmp	x22, x27
	stp	x27, x22, [x29, #-88]
	b.eq	.LBBa52ca417_380
.LBBa52ca417_365:
	mov	w26, wzr
	mov	w25, wzr
	add	x23, x27, #1
	strb	wzr, [x19, x27]
.LBBa52ca417_366:
	ldrb	w9, [sp, #232]
	ldp	x8, x0, [sp, #256]
	ldr	x20, [sp, #280]
	cmp	w9, #1
	b.le	.LBBa52ca417_370
	ldr	x21, [sp, #272]
	cmp	w9, #2
	b.eq	.LBBa52ca417_374
	cmp	w9, #3
	cbz	x21, .LBBa52ca417_373
	mov	x0, x8
	b	.LBBa52ca417_372
.LBBa52ca417_370:
	and	w8, w8, #0xff
	cbz	w8, .LBBa52ca417_373
	cbz	x20, .LBBa52ca417_373
.LBBa52ca417_372:
	mov	x20, x10
	bl	rattle_dealloc
	mov	x10, x20
.LBBa52ca417_373:
	strb	w26, [x24]
	strb	w25, [x24, #1]
	stp	x19, x23, [x24, #8]
	str	x10, [x24, #24]
	b	.LBBa52ca417_13
.LBBa52ca417_374:
	cbz	x0, .LBBa52ca417_376
	ldr	x0, [sp, #248]
	mov	x22, x10
	bl	rattle_dealloc
	mov	x10, x22
.LBBa52ca417_376:
	tst	x21, #0xff
	b.eq	.LBBa52ca417_373
	ldrb	w22, [x20, #24]
	ldr	x21, [x20, #32]
	mov	x0, x20
	ldr	x28, [x20, #48]
	mov	x27, x24
	mov	x20, x10
	bl	rattle_dealloc
	mov	x10, x20
	cbz	w22, .LBBa52ca417_373
	cbz	x28, .LBBa52ca417_373
	mov	x0, x21
	bl	rattle_dealloc
	mov	x10, x20
	mov	x24, x27
	b	.LBBa52ca417_373
.LBBa52ca417_380:
	sub	x0, x29, #96
	mov	w1, #1
	bl	std_alloc.vec.Vec.grow_amortized.d7da23479759cf44
	cbz	w0, .LBBa52ca417_382
	ldp	x27, x10, [x29, #-88]
	ldur	x19, [x29, #-96]
	b	.LBBa52ca417_365
.LBBa52ca417_382:
	ldur	x8, [x29, #-80]
	cbz	x8, .LBBa52ca417_384
	ldur	x0, [x29, #-96]
	bl	rattle_dealloc
.LBBa52ca417_384:
	mov	x19, xzr
	mov	x23, xzr
	mov	x10, xzr
	mov	w25, #12
	b	.LBBa52ca417_202
.LBBa52ca417_385:
	add	x14, x20, x8
	and	x17, x12, #0x7ffffffffffffff0
	add	x14, x14, x10
	add	x16, x14, x11
	and	x14, x12, #0x7ffffffffffffff0
.LBBa52ca417_386:
	ld3	{ v4.16b, v5.16b, v6.16b }, [x16], #48
	adrp	x18, .LCPIa52ca417_6
	ldr	q7, [x18, :lo12:.LCPIa52ca417_6]
	adrp	x18, .LCPIa52ca417_7
	subs	x17, x17, #16
	ldr	q16, [x18, :lo12:.LCPIa52ca417_7]
	adrp	x18, .LCPIa52ca417_8
	ldr	q17, [x18, :lo12:.LCPIa52ca417_8]
	adrp	x18, .LCPIa52ca417_9
	ldr	q19, [x18, :lo12:.LCPIa52ca417_9]
	adrp	x18, .LCPIa52ca417_10
	tbl	v18.16b, { v5.16b }, v7.16b
	tbl	v20.16b, { v5.16b }, v16.16b
	tbl	v21.16b, { v5.16b }, v17.16b
	tbl	v22.16b, { v6.16b }, v7.16b
	tbl	v7.16b, { v4.16b }, v7.16b
	tbl	v23.16b, { v5.16b }, v19.16b
	tbl	v24.16b, { v6.16b }, v16.16b
	tbl	v16.16b, { v4.16b }, v16.16b
	tbl	v25.16b, { v6.16b }, v17.16b
	tbl	v17.16b, { v4.16b }, v17.16b
	tbl	v26.16b, { v6.16b }, v19.16b
	tbl	v19.16b, { v4.16b }, v19.16b
	shl	v18.4s, v18.4s, #8
	shl	v20.4s, v20.4s, #8
	shl	v21.4s, v21.4s, #8
	shl	v22.4s, v22.4s, #16
	shl	v23.4s, v23.4s, #8
	shl	v24.4s, v24.4s, #16
	shl	v25.4s, v25.4s, #16
	orr	v7.16b, v18.16b, v7.16b
	orr	v16.16b, v20.16b, v16.16b
	shl	v26.4s, v26.4s, #16
	orr	v18.16b, v22.16b, v18.16b
	orr	v17.16b, v21.16b, v17.16b
	orr	v19.16b, v23.16b, v19.16b
	orr	v20.16b, v24.16b, v20.16b
	ushr	v30.4s, v7.4s, #6
	orr	v7.16b, v25.16b, v21.16b
	ushr	v29.4s, v16.4s, #6
	orr	v16.16b, v26.16b, v23.16b
	ushr	v24.4s, v18.4s, #12
	ushr	v28.4s, v17.4s, #6
	ushr	v23.4s, v20.4s, #12
	ldr	q17, [x18, :lo12:.LCPIa52ca417_10]
	ushr	v27.4s, v19.4s, #6
	ushr	v22.4s, v7.4s, #12
	ushr	v21.4s, v16.4s, #12
	movi	v16.16b, #63
	tbl	v7.16b, { v27.16b, v28.16b, v29.16b, v30.16b }, v17.16b
	ld4	{ v25.16b, v26.16b, v27.16b, v28.16b }, [x15]
	tbl	v17.16b, { v21.16b, v22.16b, v23.16b, v24.16b }, v17.16b
	and	v18.16b, v4.16b, v16.16b
	ushr	v4.16b, v6.16b, #2
	and	v7.16b, v7.16b, v16.16b
	and	v16.16b, v17.16b, v16.16b
	umax	v20.16b, v7.16b, v26.16b
	umax	v19.16b, v18.16b, v25.16b
	umax	v21.16b, v16.16b, v27.16b
	umax	v22.16b, v4.16b, v28.16b
	st4	{ v19.16b, v20.16b, v21.16b, v22.16b }, [x15], #64
	b.ne	.LBBa52ca417_386
	cmp	x12, x14
	add	x27, sp, #224
	b.eq	.LBBa52ca417_186
	tbz	w12, #3, .LBBa52ca417_184
	b	.LBBa52ca417_273
.LBBa52ca417_389:
	ubfx	x8, x24, #24, #5
	mov	w9, #1
	lsl	x8, x9, x8
	str	x8, [sp, #192]
.LBBa52ca417_390:
	sub	w9, w19, #1
	mov	w8, #1
	lsl	x9, x8, x9
	sub	x8, x2, #40
	subs	x25, x8, x9
	stur	x9, [x29, #-8]
	b.lo	.LBBa52ca417_392
	ldr	x8, [sp, #192]
	cmp	x25, x8, lsl #2
	b.hs	.LBBa52ca417_393
.LBBa52ca417_392:
	mov	w26, wzr
	b	.LBBa52ca417_596
.LBBa52ca417_393:
	ldr	x8, [sp, #176]
	stp	xzr, xzr, [x29, #-88]
	stur	xzr, [x29, #-96]
	add	x8, x8, #40
	stur	q0, [x22, #152]
	str	x8, [sp, #8]
	ldr	x8, [sp, #192]
	stur	q0, [x22, #168]
	stur	q0, [x22, #184]
	stur	q0, [x22, #200]
	stur	q0, [x22, #216]
	stur	q0, [x22, #232]
	stur	q0, [x22, #248]
	stur	q0, [x10, #120]
	stp	q0, q0, [sp, #320]
	stp	q0, q0, [sp, #352]
	stp	q0, q0, [sp, #384]
	stp	q0, q0, [sp, #416]
	str	xzr, [sp, #448]
	str	xzr, [sp, #464]
	cbz	x8, .LBBa52ca417_432
	ldr	x8, [sp, #160]
	ldr	x9, [sp, #8]
	mov	x28, xzr
	ldur	x10, [x29, #-8]
	str	xzr, [sp, #96]
	sub	w8, w8, #1
	add	x21, x9, x10
	and	w8, w8, #0x3ffffff
	str	w8, [sp, #80]
.LBBa52ca417_395:
	ldr	x8, [sp, #144]
	tbz	w8, #0, .LBBa52ca417_403
	subs	x25, x25, #4
	b.lo	.LBBa52ca417_436
	ldr	w8, [x21], #4
	cbz	w8, .LBBa52ca417_417
.LBBa52ca417_398:
	lsr	w9, w8, #26
	str	w9, [sp, #64]
	cbz	w9, .LBBa52ca417_417
	ldrb	w9, [sp, #464]
	cmp	w9, #1
	ldr	w9, [sp, #80]
	and	w8, w9, w8
	str	x8, [sp, #112]
	b.ne	.LBBa52ca417_418
	ldrb	w8, [sp, #496]
	cbz	w8, .LBBa52ca417_407
	ldr	x9, [sp, #512]
	mov	w8, #256
	cmp	x9, #256
	csel	x8, x9, x8, lo
	cbz	x9, .LBBa52ca417_412
	ldr	x9, [sp, #504]
	b	.LBBa52ca417_408
.LBBa52ca417_403:
	add	x21, x21, #4
.LBBa52ca417_404:
	subs	x25, x25, #4
	b.lo	.LBBa52ca417_436
	ldur	w8, [x21, #-4]
	cbnz	w8, .LBBa52ca417_398
	ldr	x8, [sp, #192]
	add	x28, x28, #1
	add	x21, x21, #4
	cmp	x28, x8
	b.lo	.LBBa52ca417_404
	b	.LBBa52ca417_421
.LBBa52ca417_407:
	add	x9, sp, #464
	mov	w8, #8
	add	x9, x9, #36
.LBBa52ca417_408:
	ldr	x10, [sp, #480]
	ldr	x13, [sp, #112]
	mov	x11, #-1
	lsr	w12, w13, w10
	lsl	x11, x11, x10
	orr	w10, w12, #0x1
	mvn	x11, x11
	mov	x12, x13
.LBBa52ca417_409:
	and	x12, x12, x11
	ldr	w13, [x9, x12, lsl #2]
	cbz	w13, .LBBa52ca417_413
	ldr	x15, [sp, #112]
	and	w14, w13, #0x3ffffff
	cmp	w14, w15
	b.eq	.LBBa52ca417_413
	subs	x8, x8, #1
	add	x12, x12, x10
	b.ne	.LBBa52ca417_409
.LBBa52ca417_412:
	add	x8, sp, #464
	ldr	x2, [sp, #112]
	add	x0, x8, #8
	add	x1, x8, #104
	bl	hll_coupons.aux_map_builder.has_mark.5da326502419fe7c
	mov	w26, w1
	b	.LBBa52ca417_414
.LBBa52ca417_413:
	cmp	w13, #0
	mov	w0, wzr
	cset	w26, ne
.LBBa52ca417_414:
	tst	w0, #0xff
	b.eq	.LBBa52ca417_416
	mov	w0, #1
	b	.LBBa52ca417_419
.LBBa52ca417_416:
	tbz	w26, #0, .LBBa52ca417_418
.LBBa52ca417_417:
	mov	w26, #9
	mov	w0, #1
	b	.LBBa52ca417_419
.LBBa52ca417_418:
	ldr	w3, [sp, #64]
	add	x0, sp, #464
	mov	w1, w19
	ldr	x2, [sp, #112]
	bl	hll_registers.exception_map.add_exception.5da326502419fe7c
	mov	w26, w1
.LBBa52ca417_419:
	tst	w0, #0xff
	b.ne	.LBBa52ca417_508
	ldr	x8, [sp, #192]
	add	x28, x28, #1
	cmp	x28, x8
	ldr	x8, [sp, #96]
	add	x8, x8, #1
	str	x8, [sp, #96]
	b.lo	.LBBa52ca417_395
.LBBa52ca417_421:
	ldr	x9, [sp, #96]
	ldrb	w8, [sp, #464]
	cmp	x9, x20
	b.ne	.LBBa52ca417_474
	ldrb	w9, [sp, #568]
	b	.LBBa52ca417_434
.LBBa52ca417_423:
	mov	x0, x21
	mov	x2, x20
	bl	memmove
.LBBa52ca417_424:
	lsr	x9, x21, #32
	mov	w26, wzr
	mov	x17, x21
	mov	w10, #1
	mov	w18, #3
	mov	w21, w19
	mov	x0, x22
	b	.LBBa52ca417_468
.LBBa52ca417_425:
	cmp	x9, #32
	b.hs	.LBBa52ca417_447
	mov	x11, xzr
	mov	w12, wzr
	b	.LBBa52ca417_451
.LBBa52ca417_427:
	ldur	x8, [x29, #-48]
	cbz	x8, .LBBa52ca417_429
	ldur	x0, [x29, #-64]
	bl	rattle_dealloc
.LBBa52ca417_429:
	mov	w25, #12
	b	.LBBa52ca417_201
.LBBa52ca417_430:
	mov	w26, #9
	mov	x0, x23
	b	.LBBa52ca417_307
.LBBa52ca417_431:
	mov	w26, wzr
	mov	x0, x23
	b	.LBBa52ca417_307
.LBBa52ca417_432:
	cbnz	w20, .LBBa52ca417_596
	mov	x9, xzr
	mov	x8, xzr
.LBBa52ca417_434:
	add	x10, sp, #464
	add	x11, sp, #73
	str	x8, [sp, #320]
	ldur	q0, [x10, #8]
	ldur	q1, [x10, #24]
	ldr	x8, [sp, #592]
	sub	x0, x29, #96
	add	x1, sp, #320
	str	x9, [sp, #424]
	stur	q0, [x11, #255]
	ldur	q0, [x10, #40]
	add	x11, sp, #89
	stur	q1, [x11, #255]
	ldur	q1, [x10, #56]
	add	x10, sp, #464
	stur	q0, [x22, #40]
	ldur	q0, [x10, #72]
	stur	q1, [x22, #56]
	stur	q0, [x22, #72]
	ldur	q0, [x10, #88]
	str	x8, [sp, #448]
	stur	q0, [x22, #88]
	ldr	q0, [sp, #576]
	str	q0, [sp, #432]
	bl	hll_registers.exception_map.built.5da326502419fe7c
	sub	x8, x29, #96
	ldrb	w8, [x8]
	cbz	w8, .LBBa52ca417_488
	sub	x8, x29, #96
	ldrb	w26, [x8, #1]
	b	.LBBa52ca417_596
.LBBa52ca417_436:
	ldrb	w8, [sp, #464]
	cmp	w8, #1
	b.ne	.LBBa52ca417_392
	ldrb	w8, [sp, #496]
	ldr	x20, [sp, #544]
	ldr	x25, [sp, #552]
	ldr	x24, [sp, #560]
	ldrb	w23, [sp, #568]
	ldr	x19, [sp, #576]
	ldr	x22, [sp, #592]
	cbz	w8, .LBBa52ca417_440
	ldr	x8, [sp, #520]
	cbz	x8, .LBBa52ca417_440
	ldr	x0, [sp, #504]
	bl	rattle_dealloc
.LBBa52ca417_440:
	cbz	x25, .LBBa52ca417_469
	add	x26, x20, #40
	b	.LBBa52ca417_443
.LBBa52ca417_442:
	subs	x25, x25, #1
	add	x26, x26, #72
	b.eq	.LBBa52ca417_469
.LBBa52ca417_443:
	ldp	x8, x21, [x26]
	ldr	x27, [x26, #24]
	cbz	x8, .LBBa52ca417_445
	ldur	x0, [x26, #-16]
	bl	rattle_dealloc
.LBBa52ca417_445:
	cbz	x27, .LBBa52ca417_442
	mov	x0, x21
	bl	rattle_dealloc
	b	.LBBa52ca417_442
.LBBa52ca417_447:
	movi	v0.2d, #0000000000000000
	movi	v1.2d, #0000000000000000
	add	x12, x10, x25
	and	x13, x22, #0x1c
	and	x11, x22, #0x20
	add	x12, x12, #56
	and	x14, x22, #0x20
.LBBa52ca417_448:
	ldp	q2, q3, [x12, #-16]
	subs	x14, x14, #32
	add	x12, x12, #32
	umax	v0.16b, v2.16b, v0.16b
	umax	v1.16b, v3.16b, v1.16b
	b.ne	.LBBa52ca417_448
	umax	v0.16b, v0.16b, v1.16b
	cmp	x9, x11
	umaxv	b0, v0.16b
	fmov	w12, s0
	b.eq	.LBBa52ca417_456
	cbz	x13, .LBBa52ca417_454
.LBBa52ca417_451:
	dup	v0.4h, w12
	add	x12, x11, x10
	mov	x13, x11
	and	x11, x22, #0x3c
	add	x14, x12, x25
	sub	x12, x13, x11
	add	x13, x14, #40
.LBBa52ca417_452:
	ldr	s1, [x13], #4
	bic	v0.4h, #255, lsl #8
	adds	x12, x12, #4
	ushll	v1.8h, v1.8b, #0
	umax	v0.4h, v1.4h, v0.4h
	b.ne	.LBBa52ca417_452
	umaxv	h0, v0.4h
	cmp	x9, x11
	fmov	w12, s0
	b.eq	.LBBa52ca417_456
.LBBa52ca417_454:
	add	x10, x11, x10
	sub	x9, x9, x11
	add	x10, x10, x25
	add	x10, x10, #40
.LBBa52ca417_455:
	ldrb	w11, [x10], #1
	and	w12, w12, #0xff
	cmp	w11, w12
	csel	w12, w11, w12, hi
	subs	x9, x9, #1
	b.ne	.LBBa52ca417_455
.LBBa52ca417_456:
	and	w9, w12, #0xff
	and	w8, w8, #0xff
	cmp	w8, w9
	csel	w8, w8, w9, hi
	cmp	w8, #63
	b.hi	.LBBa52ca417_463
	ldp	x9, x28, [x25, #8]
	mov	x0, x22
	ldr	x27, [x25, #24]
	mov	w1, #1
	str	x22, [sp, #192]
	str	x9, [sp, #176]
	bl	rattle_alloc
	tbz	w0, #0, .LBBa52ca417_464
	sub	x8, x1, x20
	ubfx	x23, x24, #48, #1
	mov	x21, x1
	cmp	x8, x22
	b.hs	.LBBa52ca417_466
	cmp	w19, #2
	b.ls	.LBBa52ca417_461
	sub	x8, x21, x25
	sub	x8, x8, #40
	cmp	x8, #32
	b.hs	.LBBa52ca417_493
.LBBa52ca417_461:
	ldr	x9, [sp, #192]
	mov	x8, x21
.LBBa52ca417_462:
	ldrb	w10, [x20], #1
	subs	x9, x9, #1
	strb	w10, [x8], #1
	b.ne	.LBBa52ca417_462
	b	.LBBa52ca417_467
.LBBa52ca417_463:
	mov	w10, wzr
	mov	w21, wzr
	mov	x18, xzr
	mov	x17, xzr
	mov	w9, wzr
	mov	x8, xzr
	mov	x3, xzr
	mov	x28, xzr
	mov	x27, xzr
	mov	x23, xzr
	mov	w26, #10
	b	.LBBa52ca417_465
.LBBa52ca417_464:
	mov	w10, wzr
	mov	w21, wzr
	mov	x18, xzr
	mov	x17, xzr
	mov	w9, wzr
	mov	x8, xzr
	mov	x3, xzr
	mov	x28, xzr
	mov	x27, xzr
	mov	x23, xzr
	mov	w26, #12
.LBBa52ca417_465:
	ldr	x0, [sp, #200]
	sub	x30, x29, #96
	b	.LBBa52ca417_60
.LBBa52ca417_466:
	ldr	x2, [sp, #192]
	mov	x0, x21
	mov	x1, x20
	bl	memmove
.LBBa52ca417_467:
	ldr	x0, [sp, #200]
	mov	w26, wzr
	mov	x17, x21
	lsr	x9, x21, #32
	mov	w10, #1
	mov	w18, #4
	mov	w21, w19
.LBBa52ca417_468:
	ldr	x8, [sp, #192]
	ldr	x3, [sp, #176]
	sub	x30, x29, #96
	b	.LBBa52ca417_60
.LBBa52ca417_469:
	cbz	x24, .LBBa52ca417_471
	mov	x0, x20
	bl	rattle_dealloc
.LBBa52ca417_471:
	cmp	w23, #1
	mov	w26, wzr
	b.ne	.LBBa52ca417_596
	cbz	x22, .LBBa52ca417_596
	mov	x0, x19
	bl	rattle_dealloc
	mov	w26, wzr
	b	.LBBa52ca417_596
.LBBa52ca417_474:
	cmp	w8, #1
	b.ne	.LBBa52ca417_496
	ldrb	w8, [sp, #496]
	ldr	x20, [sp, #544]
	ldr	x25, [sp, #552]
	ldr	x24, [sp, #560]
	ldrb	w23, [sp, #568]
	ldr	x19, [sp, #576]
	ldr	x22, [sp, #592]
	cbz	w8, .LBBa52ca417_478
	ldr	x8, [sp, #520]
	cbz	x8, .LBBa52ca417_478
	ldr	x0, [sp, #504]
	bl	rattle_dealloc
.LBBa52ca417_478:
	cbz	x25, .LBBa52ca417_497
	add	x26, x20, #40
	b	.LBBa52ca417_481
.LBBa52ca417_480:
	subs	x25, x25, #1
	add	x26, x26, #72
	b.eq	.LBBa52ca417_497
.LBBa52ca417_481:
	ldp	x8, x21, [x26]
	ldr	x27, [x26, #24]
	cbz	x8, .LBBa52ca417_483
	ldur	x0, [x26, #-16]
	bl	rattle_dealloc
.LBBa52ca417_483:
	cbz	x27, .LBBa52ca417_480
	mov	x0, x21
	bl	rattle_dealloc
	b	.LBBa52ca417_480
.LBBa52ca417_485:
	ldr	x8, [sp, #336]
	cbz	x8, .LBBa52ca417_487
	ldr	x0, [sp, #320]
	bl	rattle_dealloc
.LBBa52ca417_487:
	mov	x19, xzr
	mov	x23, xzr
	mov	x22, xzr
	mov	w26, wzr
	mov	w25, #12
	cbnz	x21, .LBBa52ca417_347
	b	.LBBa52ca417_348
.LBBa52ca417_488:
	ldur	x8, [x29, #-8]
	lsr	x28, x8, #6
	sub	x8, x29, #96
	ldrb	w8, [x8, #8]
	str	x8, [sp, #192]
	ldur	x8, [x29, #-80]
	str	x8, [sp]
	cbz	x28, .LBBa52ca417_501
	ldr	x8, [sp, #176]
	mov	w25, wzr
	mov	w21, wzr
	add	x26, x8, #56
	b	.LBBa52ca417_491
.LBBa52ca417_490:
	ldp	q3, q2, [sp, #16]
	movi	v0.16b, #1
	movi	v1.16b, #16
	ldp	q5, q4, [sp, #48]
	subs	x28, x28, #1
	add	x26, x26, #64
	add	w21, w8, w21
	cmeq	v2.16b, v2.16b, #0
	cmeq	v3.16b, v3.16b, #0
	cmeq	v5.16b, v5.16b, #0
	cmhi	v4.16b, v1.16b, v4.16b
	and	v2.16b, v2.16b, v0.16b
	and	v0.16b, v3.16b, v0.16b
	ldr	q3, [sp, #96]
	cmhi	v3.16b, v1.16b, v3.16b
	sub	v2.16b, v2.16b, v4.16b
	ldr	q4, [sp, #144]
	sub	v0.16b, v0.16b, v3.16b
	ldr	q3, [sp, #112]
	cmhi	v3.16b, v1.16b, v3.16b
	cmhi	v1.16b, v1.16b, v4.16b
	ldr	q4, [sp, #80]
	cmeq	v4.16b, v4.16b, #0
	sub	v2.16b, v2.16b, v3.16b
	sub	v0.16b, v0.16b, v1.16b
	sub	v1.16b, v2.16b, v4.16b
	sub	v0.16b, v0.16b, v5.16b
	add	v0.16b, v0.16b, v1.16b
	addv	b0, v0.16b
	fmov	w9, s0
	add	w25, w25, w9, uxtb
	b.eq	.LBBa52ca417_502
.LBBa52ca417_491:
	movi	v0.16b, #15
	ldp	q6, q5, [x26, #16]
	ldr	q7, [x26]
	mov	x0, x26
	adrp	x8, .LCPIa52ca417_0
	ldr	q16, [x0, #-16]!
	ushr	v3.16b, v6.16b, #4
	stp	q7, q6, [sp, #96]
	ushr	v1.16b, v7.16b, #4
	and	v6.16b, v6.16b, v0.16b
	ushr	v2.16b, v5.16b, #4
	ushr	v4.16b, v16.16b, #4
	and	v7.16b, v7.16b, v0.16b
	str	q5, [sp, #144]
	and	v5.16b, v5.16b, v0.16b
	stp	q16, q6, [sp, #64]
	and	v16.16b, v16.16b, v0.16b
	umax	v3.16b, v6.16b, v3.16b
	umax	v2.16b, v5.16b, v2.16b
	umax	v1.16b, v7.16b, v1.16b
	str	q7, [sp, #16]
	umax	v4.16b, v16.16b, v4.16b
	stp	q16, q5, [sp, #32]
	umax	v1.16b, v1.16b, v2.16b
	umax	v2.16b, v4.16b, v3.16b
	umax	v1.16b, v2.16b, v1.16b
	cmeq	v0.16b, v1.16b, v0.16b
	ldr	q1, [x8, :lo12:.LCPIa52ca417_0]
	and	v0.16b, v0.16b, v1.16b
	addp	v0.16b, v0.16b, v0.16b
	addp	v0.16b, v0.16b, v0.16b
	addp	v0.16b, v0.16b, v0.16b
	umov	w8, v0.h[0]
	cbz	w8, .LBBa52ca417_490
	bl	hll_kernels.nibbles.some_mark_nibbles_in
	and	w8, w0, #0xff
	b	.LBBa52ca417_490
.LBBa52ca417_493:
	cmp	w19, #5
	b.hs	.LBBa52ca417_506
	and	x8, x22, #0xf8
	mov	x9, x21
.LBBa52ca417_495:
	ldr	d0, [x20], #8
	subs	x8, x8, #8
	str	d0, [x9], #8
	b.ne	.LBBa52ca417_495
	b	.LBBa52ca417_467
.LBBa52ca417_496:
	mov	w26, #8
	b	.LBBa52ca417_596
.LBBa52ca417_497:
	cbz	x24, .LBBa52ca417_499
	mov	x0, x20
	bl	rattle_dealloc
.LBBa52ca417_499:
	cmp	w23, #1
	mov	w26, #8
	b.ne	.LBBa52ca417_596
.LBBa52ca417_500:
	cbnz	x22, .LBBa52ca417_563
	b	.LBBa52ca417_596
.LBBa52ca417_501:
	mov	w21, wzr
	mov	w25, wzr
.LBBa52ca417_502:
	sub	w8, w19, #1
	and	w8, w8, #0xff
	cmp	w8, #5
	b.ls	.LBBa52ca417_504
	mov	w13, wzr
	b	.LBBa52ca417_547
.LBBa52ca417_504:
	ldur	x9, [x29, #-8]
	and	x8, x9, #0x3f
	and	x9, x9, #0x7fffffffffffffc0
	cmp	x8, #4
	b.hs	.LBBa52ca417_519
	mov	w10, wzr
	mov	x11, xzr
	b	.LBBa52ca417_531
.LBBa52ca417_506:
	and	x8, x22, #0xffffffe0
	add	x9, x25, #56
	add	x10, x21, #16
.LBBa52ca417_507:
	ldp	q0, q1, [x9, #-16]
	subs	x8, x8, #32
	add	x9, x9, #32
	stp	q0, q1, [x10, #-16]
	add	x10, x10, #32
	b.ne	.LBBa52ca417_507
	b	.LBBa52ca417_467
.LBBa52ca417_508:
	ldrb	w8, [sp, #464]
	cmp	w8, #1
	b.ne	.LBBa52ca417_596
	ldrb	w8, [sp, #496]
	ldr	x20, [sp, #544]
	ldr	x25, [sp, #552]
	ldr	x24, [sp, #560]
	ldrb	w23, [sp, #568]
	ldr	x19, [sp, #576]
	ldr	x22, [sp, #592]
	cbz	w8, .LBBa52ca417_512
	ldr	x8, [sp, #520]
	cbz	x8, .LBBa52ca417_512
	ldr	x0, [sp, #504]
	bl	rattle_dealloc
.LBBa52ca417_512:
	cbz	x25, .LBBa52ca417_521
	add	x27, x20, #40
	b	.LBBa52ca417_515
.LBBa52ca417_514:
	subs	x25, x25, #1
	add	x27, x27, #72
	b.eq	.LBBa52ca417_521
.LBBa52ca417_515:
	ldp	x8, x21, [x27]
	ldr	x28, [x27, #24]
	cbz	x8, .LBBa52ca417_517
	ldur	x0, [x27, #-16]
	bl	rattle_dealloc
.LBBa52ca417_517:
	cbz	x28, .LBBa52ca417_514
	mov	x0, x21
	bl	rattle_dealloc
	b	.LBBa52ca417_514
.LBBa52ca417_519:
	cmp	x8, #32
	b.hs	.LBBa52ca417_524
	mov	x11, xzr
	mov	w10, wzr
	b	.LBBa52ca417_528
.LBBa52ca417_521:
	cbz	x24, .LBBa52ca417_523
	mov	x0, x20
	bl	rattle_dealloc
.LBBa52ca417_523:
	cmp	w23, #1
	b.eq	.LBBa52ca417_500
	b	.LBBa52ca417_596
.LBBa52ca417_524:
	movi	v0.2d, #0000000000000000
	movi	v2.2d, #0000000000000000
	ldr	x10, [sp, #176]
	movi	v3.2d, #0000000000000000
	movi	v4.2d, #0000000000000000
	ldur	x13, [x29, #-8]
	movi	v5.2d, #0000000000000000
	movi	v6.2d, #0000000000000000
	add	x10, x9, x10
	movi	v1.2d, #0000000000000000
	movi	v7.2d, #0000000000000000
	and	x12, x13, #0x1c
	and	x11, x13, #0x20
	add	x10, x10, #56
	and	x13, x13, #0x20
.LBBa52ca417_525:
	movi	v16.16b, #15
	movi	v17.16b, #16
	subs	x13, x13, #32
	ldp	q18, q19, [x10, #-16]
	movi	v21.4s, #1
	add	x10, x10, #32
	and	v20.16b, v18.16b, v16.16b
	and	v16.16b, v19.16b, v16.16b
	cmhi	v18.16b, v17.16b, v18.16b
	cmhi	v17.16b, v17.16b, v19.16b
	cmeq	v20.16b, v20.16b, #0
	cmeq	v16.16b, v16.16b, #0
	ushll2	v19.8h, v18.16b, #0
	ushll	v18.8h, v18.8b, #0
	ushll2	v23.8h, v17.16b, #0
	ushll	v17.8h, v17.8b, #0
	ushll	v22.8h, v20.8b, #0
	ushll2	v20.8h, v20.16b, #0
	ushll	v24.8h, v16.8b, #0
	ushll2	v16.8h, v16.16b, #0
	ushll2	v25.4s, v19.8h, #0
	ushll	v19.4s, v19.4h, #0
	ushll2	v29.4s, v18.8h, #0
	ushll	v18.4s, v18.4h, #0
	ushll2	v31.4s, v23.8h, #0
	ushll	v23.4s, v23.4h, #0
	ushll2	v8.4s, v17.8h, #0
	ushll	v17.4s, v17.4h, #0
	ushll	v26.4s, v22.4h, #0
	ushll2	v22.4s, v22.8h, #0
	ushll	v27.4s, v20.4h, #0
	ushll2	v20.4s, v20.8h, #0
	ushll	v28.4s, v24.4h, #0
	ushll2	v24.4s, v24.8h, #0
	ushll	v30.4s, v16.4h, #0
	ushll2	v16.4s, v16.8h, #0
	and	v25.16b, v25.16b, v21.16b
	and	v19.16b, v19.16b, v21.16b
	and	v29.16b, v29.16b, v21.16b
	and	v18.16b, v18.16b, v21.16b
	and	v31.16b, v31.16b, v21.16b
	and	v23.16b, v23.16b, v21.16b
	and	v8.16b, v8.16b, v21.16b
	and	v17.16b, v17.16b, v21.16b
	and	v26.16b, v26.16b, v21.16b
	and	v22.16b, v22.16b, v21.16b
	and	v27.16b, v27.16b, v21.16b
	and	v20.16b, v20.16b, v21.16b
	and	v28.16b, v28.16b, v21.16b
	and	v24.16b, v24.16b, v21.16b
	and	v30.16b, v30.16b, v21.16b
	and	v16.16b, v16.16b, v21.16b
	add	v4.4s, v4.4s, v19.4s
	add	v5.4s, v5.4s, v25.4s
	add	v2.4s, v2.4s, v18.4s
	add	v3.4s, v3.4s, v29.4s
	add	v7.4s, v7.4s, v31.4s
	add	v6.4s, v6.4s, v17.4s
	add	v0.4s, v0.4s, v8.4s
	add	v1.4s, v1.4s, v23.4s
	add	v5.4s, v5.4s, v20.4s
	add	v4.4s, v4.4s, v27.4s
	add	v2.4s, v2.4s, v26.4s
	add	v3.4s, v3.4s, v22.4s
	add	v7.4s, v7.4s, v16.4s
	add	v6.4s, v6.4s, v28.4s
	add	v1.4s, v1.4s, v30.4s
	add	v0.4s, v0.4s, v24.4s
	b.ne	.LBBa52ca417_525
	add	v0.4s, v0.4s, v3.4s
	add	v3.4s, v7.4s, v5.4s
	cmp	x8, x11
	add	v2.4s, v6.4s, v2.4s
	add	v1.4s, v1.4s, v4.4s
	add	v0.4s, v0.4s, v3.4s
	add	v1.4s, v2.4s, v1.4s
	add	v0.4s, v1.4s, v0.4s
	addv	s0, v0.4s
	fmov	w10, s0
	b.eq	.LBBa52ca417_533
	cbz	x12, .LBBa52ca417_531
.LBBa52ca417_528:
	movi	v0.2d, #0000000000000000
	mov	x12, x11
	add	x13, x11, x9
	mov	v0.s[0], w10
	ldur	x10, [x29, #-8]
	and	x11, x10, #0x3c
	ldr	x10, [sp, #176]
	add	x13, x13, x10
	sub	x10, x12, x11
	add	x12, x13, #40
.LBBa52ca417_529:
	ldr	s1, [x12], #4
	movi	v2.4h, #16
	adds	x10, x10, #4
	ushll	v1.8h, v1.8b, #0
	fmov	d3, d1
	cmhi	v1.4h, v2.4h, v1.4h
	movi	v2.4s, #1
	ushll	v1.4s, v1.4h, #0
	bic	v3.4h, #240
	and	v1.16b, v1.16b, v2.16b
	cmeq	v3.4h, v3.4h, #0
	add	v0.4s, v0.4s, v1.4s
	ushll	v3.4s, v3.4h, #0
	and	v2.16b, v3.16b, v2.16b
	add	v0.4s, v0.4s, v2.4s
	b.ne	.LBBa52ca417_529
	addv	s0, v0.4s
	cmp	x8, x11
	fmov	w10, s0
	b.eq	.LBBa52ca417_533
.LBBa52ca417_531:
	ldr	x12, [sp, #176]
	add	x13, x11, x9
	sub	x11, x8, x11
	add	x12, x13, x12
	add	x12, x12, #40
.LBBa52ca417_532:
	ldrb	w13, [x12], #1
	cmp	w13, #16
	cinc	w10, w10, lo
	tst	w13, #0xf
	cinc	w10, w10, eq
	subs	x11, x11, #1
	b.ne	.LBBa52ca417_532
.LBBa52ca417_533:
	cmp	x8, #4
	b.hs	.LBBa52ca417_535
	mov	w13, wzr
	mov	x11, xzr
	b	.LBBa52ca417_544
.LBBa52ca417_535:
	cmp	x8, #32
	b.hs	.LBBa52ca417_537
	mov	x11, xzr
	mov	w13, wzr
	b	.LBBa52ca417_541
.LBBa52ca417_537:
	movi	v0.2d, #0000000000000000
	movi	v2.2d, #0000000000000000
	ldr	x11, [sp, #176]
	movi	v3.2d, #0000000000000000
	movi	v4.2d, #0000000000000000
	ldur	x14, [x29, #-8]
	movi	v5.2d, #0000000000000000
	movi	v6.2d, #0000000000000000
	add	x13, x9, x11
	movi	v1.2d, #0000000000000000
	movi	v7.2d, #0000000000000000
	and	x12, x14, #0x1c
	and	x11, x14, #0x20
	add	x13, x13, #56
	and	x14, x14, #0x20
.LBBa52ca417_538:
	movi	v16.16b, #15
	movi	v17.16b, #239
	subs	x14, x14, #32
	ldp	q18, q19, [x13, #-16]
	add	x13, x13, #32
	and	v20.16b, v18.16b, v16.16b
	and	v21.16b, v19.16b, v16.16b
	cmhi	v18.16b, v18.16b, v17.16b
	cmhi	v17.16b, v19.16b, v17.16b
	cmeq	v20.16b, v20.16b, v16.16b
	cmeq	v16.16b, v21.16b, v16.16b
	ushll2	v19.8h, v18.16b, #0
	ushll	v18.8h, v18.8b, #0
	ushll2	v23.8h, v17.16b, #0
	ushll	v17.8h, v17.8b, #0
	movi	v21.4s, #1
	ushll	v22.8h, v20.8b, #0
	ushll2	v20.8h, v20.16b, #0
	ushll	v24.8h, v16.8b, #0
	ushll2	v16.8h, v16.16b, #0
	ushll2	v25.4s, v19.8h, #0
	ushll	v19.4s, v19.4h, #0
	ushll2	v29.4s, v18.8h, #0
	ushll	v18.4s, v18.4h, #0
	ushll2	v31.4s, v23.8h, #0
	ushll	v23.4s, v23.4h, #0
	ushll2	v8.4s, v17.8h, #0
	ushll	v17.4s, v17.4h, #0
	ushll	v26.4s, v22.4h, #0
	ushll2	v22.4s, v22.8h, #0
	ushll	v27.4s, v20.4h, #0
	ushll2	v20.4s, v20.8h, #0
	ushll	v28.4s, v24.4h, #0
	ushll2	v24.4s, v24.8h, #0
	ushll	v30.4s, v16.4h, #0
	ushll2	v16.4s, v16.8h, #0
	and	v25.16b, v25.16b, v21.16b
	and	v19.16b, v19.16b, v21.16b
	and	v29.16b, v29.16b, v21.16b
	and	v18.16b, v18.16b, v21.16b
	and	v31.16b, v31.16b, v21.16b
	and	v23.16b, v23.16b, v21.16b
	and	v8.16b, v8.16b, v21.16b
	and	v17.16b, v17.16b, v21.16b
	and	v26.16b, v26.16b, v21.16b
	and	v22.16b, v22.16b, v21.16b
	and	v27.16b, v27.16b, v21.16b
	and	v20.16b, v20.16b, v21.16b
	and	v28.16b, v28.16b, v21.16b
	and	v24.16b, v24.16b, v21.16b
	and	v30.16b, v30.16b, v21.16b
	and	v16.16b, v16.16b, v21.16b
	add	v4.4s, v4.4s, v19.4s
	add	v5.4s, v5.4s, v25.4s
	add	v2.4s, v2.4s, v18.4s
	add	v3.4s, v3.4s, v29.4s
	add	v7.4s, v7.4s, v31.4s
	add	v6.4s, v6.4s, v17.4s
	add	v0.4s, v0.4s, v8.4s
	add	v1.4s, v1.4s, v23.4s
	add	v5.4s, v5.4s, v20.4s
	add	v4.4s, v4.4s, v27.4s
	add	v2.4s, v2.4s, v26.4s
	add	v3.4s, v3.4s, v22.4s
	add	v7.4s, v7.4s, v16.4s
	add	v6.4s, v6.4s, v28.4s
	add	v1.4s, v1.4s, v30.4s
	add	v0.4s, v0.4s, v24.4s
	b.ne	.LBBa52ca417_538
	add	v0.4s, v0.4s, v3.4s
	add	v3.4s, v7.4s, v5.4s
	cmp	x8, x11
	add	v2.4s, v6.4s, v2.4s
	add	v1.4s, v1.4s, v4.4s
	add	v0.4s, v0.4s, v3.4s
	add	v1.4s, v2.4s, v1.4s
	add	v0.4s, v1.4s, v0.4s
	addv	s0, v0.4s
	fmov	w13, s0
	b.eq	.LBBa52ca417_546
	cbz	x12, .LBBa52ca417_544
.LBBa52ca417_541:
	movi	v0.2d, #0000000000000000
	mov	x14, x11
	ldr	x12, [sp, #176]
	mov	v0.s[0], w13
	add	x13, x11, x9
	ldur	x11, [x29, #-8]
	add	x13, x13, x12
	and	x11, x11, #0x3c
	add	x13, x13, #40
	sub	x12, x14, x11
.LBBa52ca417_542:
	ldr	s1, [x13], #4
	movi	v2.4h, #239
	movi	v4.4h, #15
	adds	x12, x12, #4
	ushll	v1.8h, v1.8b, #0
	fmov	d3, d1
	cmhi	v1.4h, v1.4h, v2.4h
	movi	v2.4s, #1
	ushll	v1.4s, v1.4h, #0
	bic	v3.4h, #240
	and	v1.16b, v1.16b, v2.16b
	cmeq	v3.4h, v3.4h, v4.4h
	add	v0.4s, v0.4s, v1.4s
	ushll	v3.4s, v3.4h, #0
	and	v2.16b, v3.16b, v2.16b
	add	v0.4s, v0.4s, v2.4s
	b.ne	.LBBa52ca417_542
	addv	s0, v0.4s
	cmp	x8, x11
	fmov	w13, s0
	b.eq	.LBBa52ca417_546
.LBBa52ca417_544:
	add	x12, x11, x9
	ldr	x9, [sp, #176]
	sub	x8, x8, x11
	add	x9, x12, x9
	add	x9, x9, #40
.LBBa52ca417_545:
	ldrb	w11, [x9], #1
	mov	w12, #15
	cmp	w11, #239
	cinc	w13, w13, hi
	bics	wzr, w12, w11
	cinc	w13, w13, eq
	subs	x8, x8, #1
	b.ne	.LBBa52ca417_545
.LBBa52ca417_546:
	add	w25, w10, w25
.LBBa52ca417_547:
	ldr	x8, [sp, #192]
	cmp	w8, #1
	add	w8, w13, w21
	b.ne	.LBBa52ca417_549
	ldr	x9, [sp]
	ldr	x9, [x9, #16]
	b	.LBBa52ca417_550
.LBBa52ca417_549:
	mov	x9, xzr
.LBBa52ca417_550:
	cmp	x9, x8
	b.ne	.LBBa52ca417_560
	lsr	x8, x24, #57
	cmp	x8, #25
	b.hs	.LBBa52ca417_555
.LBBa52ca417_552:
	ldr	x8, [sp, #192]
	cmp	w8, #1
	b.ne	.LBBa52ca417_580
	ldr	x8, [sp]
	ldrb	w8, [x8, #24]
	cbz	w8, .LBBa52ca417_565
	ldr	x8, [sp]
	ldp	x10, x8, [x8, #32]
	b	.LBBa52ca417_566
.LBBa52ca417_555:
	lsr	x8, x24, #62
	cbnz	x8, .LBBa52ca417_560
	mov	w8, #63
	ldr	x9, [sp, #176]
	ldur	x10, [x29, #-8]
	sub	x8, x8, x24, lsr #56
	add	x9, x9, #40
.LBBa52ca417_557:
	cbz	x10, .LBBa52ca417_552
	ldrb	w11, [x9], #1
	and	w12, w11, #0xf
	cmp	w12, w8, uxtb
	b.hi	.LBBa52ca417_560
	lsr	w11, w11, #4
	sub	x10, x10, #1
	cmp	w11, w8, uxtb
	b.ls	.LBBa52ca417_557
.LBBa52ca417_560:
	ldr	x8, [sp, #192]
	cmp	w8, #1
	b.ne	.LBBa52ca417_564
	ldr	x0, [sp]
	ldrb	w21, [x0, #24]
	ldr	x19, [x0, #32]
	ldr	x20, [x0, #48]
	bl	rattle_dealloc
	mov	w26, #10
	cbz	w21, .LBBa52ca417_596
	ldr	x0, [sp, #200]
	cbz	x20, .LBBa52ca417_12
.LBBa52ca417_563:
	mov	x0, x19
	b	.LBBa52ca417_307
.LBBa52ca417_564:
	mov	w26, #10
	b	.LBBa52ca417_596
.LBBa52ca417_565:
	ldr	x8, [sp]
	add	x10, x8, #28
	mov	w8, #8
.LBBa52ca417_566:
	ldr	x9, [sp, #208]
	add	w9, w9, #15
.LBBa52ca417_567:
	cmp	x8, #4
	b.hs	.LBBa52ca417_574
.LBBa52ca417_568:
	mov	x11, x10
.LBBa52ca417_569:
	mov	x10, x11
.LBBa52ca417_570:
	cbz	x8, .LBBa52ca417_580
	ldr	w11, [x10], #4
	sub	x8, x8, #1
	cbz	w11, .LBBa52ca417_570
	and	w12, w9, #0xff
	cmp	w12, w11, lsr #26
	b.hi	.LBBa52ca417_560
	ubfx	x12, x11, #1, #25
	ldr	x13, [sp, #8]
	tst	x11, #0x1
	ldrb	w12, [x13, x12]
	lsr	w13, w12, #4
	and	w12, w12, #0xf
	csel	w11, w12, w13, eq
	cmp	w11, #15
	b.eq	.LBBa52ca417_567
	b	.LBBa52ca417_560
.LBBa52ca417_574:
	mov	x11, x10
.LBBa52ca417_575:
	ldr	w12, [x11], #16
	cbnz	w12, .LBBa52ca417_568
	ldr	w12, [x10, #4]
	cbnz	w12, .LBBa52ca417_568
	ldr	w12, [x10, #8]
	cbnz	w12, .LBBa52ca417_568
	ldr	w12, [x10, #12]
	cbnz	w12, .LBBa52ca417_568
	sub	x8, x8, #4
	mov	x10, x11
	cmp	x8, #3
	b.hi	.LBBa52ca417_575
	b	.LBBa52ca417_569
.LBBa52ca417_580:
	ldr	x8, [sp, #192]
	stur	x8, [x29, #-64]
	ldr	x8, [sp]
	stur	x8, [x29, #-56]
	cbz	w25, .LBBa52ca417_588
	sub	w8, w19, #1
	and	w8, w8, #0xff
	cmp	w8, #63
	b.eq	.LBBa52ca417_591
	ldur	x0, [x29, #-8]
	mov	w1, #1
	bl	rattle_alloc
	str	x1, [sp, #160]
	tbz	w0, #0, .LBBa52ca417_591
	ldr	x8, [sp, #8]
	ldr	x9, [sp, #160]
	sub	x8, x9, x8
	ldur	x9, [x29, #-8]
	cmp	x8, x9
	b.hs	.LBBa52ca417_597
	sub	w8, w19, #1
	and	w8, w8, #0xff
	cmp	w8, #2
	b.ls	.LBBa52ca417_586
	ldr	x8, [sp, #176]
	ldr	x9, [sp, #160]
	sub	x8, x9, x8
	sub	x8, x8, #40
	cmp	x8, #32
	b.hs	.LBBa52ca417_679
.LBBa52ca417_586:
	ldr	x8, [sp, #160]
	ldur	x9, [x29, #-8]
.LBBa52ca417_587:
	ldr	x11, [sp, #8]
	subs	x9, x9, #1
	ldrb	w10, [x11], #1
	str	x11, [sp, #8]
	strb	w10, [x8], #1
	b.ne	.LBBa52ca417_587
	b	.LBBa52ca417_598
.LBBa52ca417_588:
	ldr	x0, [sp, #160]
	mov	w1, #1
	bl	rattle_alloc
	str	x1, [sp, #144]
	tbz	w0, #0, .LBBa52ca417_591
	cbz	w19, .LBBa52ca417_599
	ldr	x8, [sp, #160]
	ldr	x0, [sp, #144]
	mov	w1, wzr
	sub	x2, x8, #1
	str	x2, [sp, #64]
	bl	memset
	b	.LBBa52ca417_600
.LBBa52ca417_591:
	ldr	x8, [sp, #192]
	cmp	w8, #1
	b.ne	.LBBa52ca417_595
	ldr	x0, [sp]
	ldrb	w21, [x0, #24]
	ldr	x19, [x0, #32]
	ldr	x20, [x0, #48]
	bl	rattle_dealloc
	cbz	w21, .LBBa52ca417_595
	cbz	x20, .LBBa52ca417_595
	mov	x0, x19
	bl	rattle_dealloc
.LBBa52ca417_595:
	mov	w26, #12
.LBBa52ca417_596:
	ldr	x0, [sp, #200]
	b	.LBBa52ca417_12
.LBBa52ca417_597:
	ldr	x0, [sp, #160]
	ldr	x1, [sp, #8]
	ldur	x2, [x29, #-8]
	bl	memmove
.LBBa52ca417_598:
	ldp	x8, x0, [sp, #192]
	mov	w21, w19
	ldur	x17, [x29, #-8]
	ldr	x3, [sp]
	sub	x30, x29, #96
	str	x17, [sp, #112]
	b	.LBBa52ca417_678
.LBBa52ca417_599:
	str	xzr, [sp, #64]
.LBBa52ca417_600:
	ldr	x20, [sp, #64]
	ldr	x0, [sp, #144]
	sub	x4, x29, #64
	ldr	x3, [sp, #8]
	mov	w2, wzr
	ldr	x5, [sp, #208]
	add	x8, x20, #1
	add	x1, x20, #1
	strb	wzr, [x0, x20]
	str	x8, [sp, #176]
	bl	hll_registers.exception_map.max_with_registers.f8e44fc08f8602d9
	cmp	x20, #3
	b.hs	.LBBa52ca417_602
	mov	w9, #63
	mov	x8, xzr
	str	x9, [sp, #208]
	b	.LBBa52ca417_611
.LBBa52ca417_602:
	ldr	x8, [sp, #64]
	cmp	x8, #31
	b.hs	.LBBa52ca417_604
	mov	w9, #63
	mov	x8, xzr
	str	x9, [sp, #208]
	b	.LBBa52ca417_608
.LBBa52ca417_604:
	movi	v0.16b, #63
	movi	v1.16b, #63
	ldr	x11, [sp, #176]
	ldr	x10, [sp, #144]
	and	x9, x11, #0x1c
	and	x8, x11, #0xffffffffffffffe0
	and	x11, x11, #0xffffffffffffffe0
	add	x10, x10, #16
.LBBa52ca417_605:
	ldp	q2, q3, [x10, #-16]
	subs	x11, x11, #32
	add	x10, x10, #32
	umin	v0.16b, v2.16b, v0.16b
	umin	v1.16b, v3.16b, v1.16b
	b.ne	.LBBa52ca417_605
	umin	v0.16b, v0.16b, v1.16b
	ldr	x10, [sp, #176]
	cmp	x10, x8
	uminv	b0, v0.16b
	fmov	w10, s0
	str	x10, [sp, #208]
	b.eq	.LBBa52ca417_613
	cbz	x9, .LBBa52ca417_611
.LBBa52ca417_608:
	ldr	x9, [sp, #208]
	mov	x10, x8
	ldr	x8, [sp, #176]
	ldr	x11, [sp, #144]
	dup	v0.4h, w9
	and	x8, x8, #0xfffffffffffffffc
	sub	x9, x10, x8
	add	x10, x11, x10
.LBBa52ca417_609:
	ldr	s1, [x10], #4
	bic	v0.4h, #255, lsl #8
	adds	x9, x9, #4
	ushll	v1.8h, v1.8b, #0
	umin	v0.4h, v1.4h, v0.4h
	b.ne	.LBBa52ca417_609
	uminv	h0, v0.4h
	ldr	x9, [sp, #176]
	cmp	x9, x8
	fmov	w9, s0
	str	x9, [sp, #208]
	b.eq	.LBBa52ca417_613
.LBBa52ca417_611:
	ldr	x9, [sp, #64]
	ldr	x10, [sp, #144]
	sub	x9, x9, x8
	add	x8, x10, x8
	add	x9, x9, #1
.LBBa52ca417_612:
	ldr	x11, [sp, #208]
	ldrb	w10, [x8], #1
	and	w11, w11, #0xff
	cmp	w10, w11
	csel	w10, w10, w11, lo
	subs	x9, x9, #1
	str	x10, [sp, #208]
	b.ne	.LBBa52ca417_612
.LBBa52ca417_613:
	ldr	x8, [sp, #176]
	lsr	x8, x8, #1
	str	x8, [sp, #112]
	cbz	x8, .LBBa52ca417_618
	ldr	x0, [sp, #112]
	mov	w1, #1
	bl	rattle_alloc
	str	x1, [sp, #160]
	tbz	w0, #0, .LBBa52ca417_623
	ldr	x8, [sp, #112]
	subs	x21, x8, #1
	b.eq	.LBBa52ca417_617
	ldr	x0, [sp, #160]
	mov	w1, wzr
	mov	x2, x21
	bl	memset
.LBBa52ca417_617:
	ldr	x8, [sp, #160]
	strb	wzr, [x8, x21]
	add	x8, x21, #1
	stur	x8, [x29, #-8]
	b	.LBBa52ca417_619
.LBBa52ca417_618:
	sub	x8, x29, #33
	stur	xzr, [x29, #-8]
	str	x8, [sp, #160]
.LBBa52ca417_619:
	ldr	x8, [sp, #176]
	lsr	x8, x8, #5
	cbz	x8, .LBBa52ca417_624
	ldr	x9, [sp, #208]
	ldr	x10, [sp, #160]
	mov	x11, x8
	dup	v0.16b, w9
	ldr	x9, [sp, #144]
	add	x9, x9, #16
.LBBa52ca417_621:
	ldp	q1, q2, [x9, #-16]
	movi	v3.16b, #15
	subs	x11, x11, #1
	add	x9, x9, #32
	uqsub	v1.16b, v1.16b, v0.16b
	uqsub	v2.16b, v2.16b, v0.16b
	umin	v1.16b, v1.16b, v3.16b
	umin	v2.16b, v2.16b, v3.16b
	uzp2	v3.16b, v1.16b, v2.16b
	uzp1	v1.16b, v1.16b, v2.16b
	shl	v2.16b, v3.16b, #4
	orr	v1.16b, v2.16b, v1.16b
	str	q1, [x10], #16
	b.ne	.LBBa52ca417_621
	lsl	x10, x8, #4
	b	.LBBa52ca417_625
.LBBa52ca417_623:
	str	xzr, [sp, #176]
	mov	w25, wzr
	mov	w21, wzr
	str	xzr, [sp, #192]
	mov	w26, #12
	b	.LBBa52ca417_673
.LBBa52ca417_624:
	mov	x10, xzr
.LBBa52ca417_625:
	ldr	x8, [sp, #176]
	ubfx	x8, x8, #1, #4
	cbz	x8, .LBBa52ca417_628
	ldr	x9, [sp, #176]
	ldr	x11, [sp, #144]
	and	x9, x9, #0xffffffffffffffe0
	add	x9, x11, x9
	ldr	x11, [sp, #160]
	add	x10, x11, x10
.LBBa52ca417_627:
	ldrh	w11, [x9], #2
	ldr	x13, [sp, #208]
	mov	w14, #15
	and	w12, w11, #0xff
	and	w13, w13, #0xff
	lsr	w11, w11, #8
	subs	w12, w12, w13
	csel	w12, wzr, w12, lo
	cmp	w12, #15
	csel	w12, w12, w14, lo
	subs	w11, w11, w13
	csel	w11, wzr, w11, lo
	cmp	w11, #15
	csel	w11, w11, w14, lo
	subs	x8, x8, #1
	orr	w11, w12, w11, lsl #4
	strb	w11, [x10], #1
	b.ne	.LBBa52ca417_627
.LBBa52ca417_628:
	movi	v0.2d, #0000000000000000
	ldr	x8, [sp, #176]
	stp	xzr, xzr, [x29, #-88]
	stur	xzr, [x29, #-96]
	lsr	x8, x8, #6
	str	xzr, [sp, #592]
	stp	q0, q0, [sp, #464]
	stp	q0, q0, [sp, #496]
	stp	q0, q0, [sp, #528]
	stp	q0, q0, [sp, #560]
	str	x8, [sp, #32]
	cbz	x8, .LBBa52ca417_647
	ldr	x8, [sp, #208]
	mov	x25, xzr
	str	wzr, [sp, #96]
	add	w21, w8, #15
	ldr	x8, [sp, #144]
	dup	v0.16b, w21
	str	x8, [sp, #80]
	str	q0, [sp, #48]
	b	.LBBa52ca417_631
.LBBa52ca417_630:
	ldr	x8, [sp, #32]
	add	x25, x25, #1
	cmp	x25, x8
	ldr	w8, [sp, #96]
	add	w8, w8, #64
	str	w8, [sp, #96]
	ldr	x8, [sp, #80]
	add	x8, x8, #64
	str	x8, [sp, #80]
	b.eq	.LBBa52ca417_647
.LBBa52ca417_631:
	ldr	x8, [sp, #144]
	add	x8, x8, x25, lsl #6
	ldp	q0, q1, [x8]
	ldp	q2, q3, [x8, #32]
	adrp	x8, .LCPIa52ca417_0
	umax	v1.16b, v1.16b, v3.16b
	umax	v0.16b, v0.16b, v2.16b
	umax	v0.16b, v0.16b, v1.16b
	ldr	q1, [sp, #48]
	cmhs	v0.16b, v0.16b, v1.16b
	ldr	q1, [x8, :lo12:.LCPIa52ca417_0]
	and	v0.16b, v0.16b, v1.16b
	addp	v0.16b, v0.16b, v0.16b
	addp	v0.16b, v0.16b, v0.16b
	addp	v0.16b, v0.16b, v0.16b
	umov	w8, v0.h[0]
	cbz	w8, .LBBa52ca417_630
	ldr	x28, [sp, #80]
	ldr	w8, [sp, #96]
	mov	w20, #64
	str	w8, [sp, #192]
	b	.LBBa52ca417_634
.LBBa52ca417_633:
	ldr	w8, [sp, #192]
	subs	x20, x20, #1
	add	w8, w8, #1
	str	w8, [sp, #192]
	b.eq	.LBBa52ca417_630
.LBBa52ca417_634:
	ldrb	w3, [x28], #1
	cmp	w3, w21, uxtb
	b.lo	.LBBa52ca417_633
	ldr	w2, [sp, #192]
	add	x0, sp, #464
	mov	w1, w19
	bl	hll_registers.exception_map.add_exception.5da326502419fe7c
	tst	w0, #0xff
	b.eq	.LBBa52ca417_633
	ldrb	w8, [sp, #464]
	mov	w26, w1
	cmp	w8, #1
	b.ne	.LBBa52ca417_670
	ldr	x9, [sp, #560]
	ldrb	w8, [sp, #496]
	ldr	x21, [sp, #544]
	ldr	x25, [sp, #552]
	str	x9, [sp, #208]
	ldrb	w9, [sp, #568]
	stur	w9, [x29, #-8]
	ldr	x9, [sp, #576]
	str	x9, [sp, #176]
	ldr	x9, [sp, #592]
	str	x9, [sp, #192]
	cbz	w8, .LBBa52ca417_640
	ldr	x8, [sp, #520]
	cbz	x8, .LBBa52ca417_640
	ldr	x0, [sp, #504]
	bl	rattle_dealloc
.LBBa52ca417_640:
	cbz	x25, .LBBa52ca417_665
	add	x28, x21, #40
	b	.LBBa52ca417_643
.LBBa52ca417_642:
	subs	x25, x25, #1
	add	x28, x28, #72
	b.eq	.LBBa52ca417_665
.LBBa52ca417_643:
	ldp	x8, x22, [x28]
	ldr	x20, [x28, #24]
	cbz	x8, .LBBa52ca417_645
	ldur	x0, [x28, #-16]
	bl	rattle_dealloc
.LBBa52ca417_645:
	cbz	x20, .LBBa52ca417_642
	mov	x0, x22
	bl	rattle_dealloc
	b	.LBBa52ca417_642
.LBBa52ca417_647:
	ldr	x9, [sp, #176]
	and	x8, x9, #0xffffffffffffffc0
	cmp	x8, x9
	b.ne	.LBBa52ca417_650
.LBBa52ca417_648:
	add	x8, sp, #464
	add	x9, sp, #73
	sub	x0, x29, #96
	orr	x8, x8, #0x8
	add	x1, sp, #320
	ldp	q0, q1, [x8]
	stur	q0, [x9, #255]
	add	x9, sp, #89
	stur	q1, [x9, #255]
	ldp	q0, q1, [x8, #32]
	add	x9, sp, #464
	ldrb	w8, [sp, #464]
	stur	q0, [x22, #40]
	ldur	q0, [x9, #72]
	str	x8, [sp, #320]
	ldrb	w8, [sp, #568]
	stur	q0, [x22, #72]
	ldur	q0, [x9, #88]
	ldr	x9, [sp, #592]
	stur	q1, [x22, #56]
	stur	q0, [x22, #88]
	ldr	q0, [sp, #576]
	str	x8, [sp, #424]
	str	x9, [sp, #448]
	str	q0, [sp, #432]
	bl	hll_registers.exception_map.built.5da326502419fe7c
	sub	x8, x29, #96
	ldrb	w8, [x8]
	cbz	w8, .LBBa52ca417_682
	sub	x8, x29, #96
	ldrb	w26, [x8, #1]
	b	.LBBa52ca417_670
.LBBa52ca417_650:
	ldr	x9, [sp, #208]
	add	w20, w9, #15
	ldr	x9, [sp, #64]
	sub	x9, x9, x8
	add	x21, x9, #1
	ldr	x9, [sp, #176]
	and	w28, w9, #0xffffffc0
	ldr	x9, [sp, #144]
	add	x25, x9, x8
	b	.LBBa52ca417_652
.LBBa52ca417_651:
	subs	x21, x21, #1
	add	w28, w28, #1
	b.eq	.LBBa52ca417_648
.LBBa52ca417_652:
	ldrb	w3, [x25], #1
	cmp	w3, w20, uxtb
	b.lo	.LBBa52ca417_651
	add	x0, sp, #464
	mov	w1, w19
	mov	w2, w28
	bl	hll_registers.exception_map.add_exception.5da326502419fe7c
	tst	w0, #0xff
	b.eq	.LBBa52ca417_651
	ldrb	w8, [sp, #464]
	mov	w26, w1
	cmp	w8, #1
	b.ne	.LBBa52ca417_670
	ldr	x9, [sp, #560]
	ldrb	w8, [sp, #496]
	ldr	x21, [sp, #544]
	ldr	x25, [sp, #552]
	str	x9, [sp, #208]
	ldrb	w9, [sp, #568]
	stur	w9, [x29, #-8]
	ldr	x9, [sp, #576]
	str	x9, [sp, #176]
	ldr	x9, [sp, #592]
	str	x9, [sp, #192]
	cbz	w8, .LBBa52ca417_658
	ldr	x8, [sp, #520]
	cbz	x8, .LBBa52ca417_658
	ldr	x0, [sp, #504]
	bl	rattle_dealloc
.LBBa52ca417_658:
	cbz	x25, .LBBa52ca417_665
	add	x28, x21, #40
	b	.LBBa52ca417_661
.LBBa52ca417_660:
	subs	x25, x25, #1
	add	x28, x28, #72
	b.eq	.LBBa52ca417_665
.LBBa52ca417_661:
	ldp	x8, x22, [x28]
	ldr	x20, [x28, #24]
	cbz	x8, .LBBa52ca417_663
	ldur	x0, [x28, #-16]
	bl	rattle_dealloc
.LBBa52ca417_663:
	cbz	x20, .LBBa52ca417_660
	mov	x0, x22
	bl	rattle_dealloc
	b	.LBBa52ca417_660
.LBBa52ca417_665:
	ldr	x8, [sp, #208]
	cbz	x8, .LBBa52ca417_667
	mov	x0, x21
	bl	rattle_dealloc
.LBBa52ca417_667:
	ldur	w8, [x29, #-8]
	cmp	w8, #1
	b.ne	.LBBa52ca417_670
	ldr	x8, [sp, #192]
	cbz	x8, .LBBa52ca417_670
	ldr	x0, [sp, #176]
	bl	rattle_dealloc
.LBBa52ca417_670:
	ldr	x8, [sp, #112]
	cbz	x8, .LBBa52ca417_672
	ldr	x0, [sp, #160]
	bl	rattle_dealloc
.LBBa52ca417_672:
	str	xzr, [sp, #176]
	mov	w25, wzr
	mov	w21, wzr
	str	xzr, [sp, #192]
.LBBa52ca417_673:
	str	xzr, [sp, #112]
	stur	xzr, [x29, #-8]
	str	xzr, [sp, #160]
	str	xzr, [sp, #208]
	str	wzr, [sp, #96]
	ldr	x0, [sp, #144]
	bl	rattle_dealloc
	sub	x8, x29, #96
	ldrb	w8, [x8, #32]
	cmp	w8, #1
	b.ne	.LBBa52ca417_677
.LBBa52ca417_674:
	ldr	x0, [sp]
	ldrb	w28, [x0, #24]
	ldr	x22, [x0, #32]
	ldr	x20, [x0, #48]
	bl	rattle_dealloc
	cbz	w28, .LBBa52ca417_677
	cbz	x20, .LBBa52ca417_677
	mov	x0, x22
	bl	rattle_dealloc
.LBBa52ca417_677:
	ldp	x8, x0, [sp, #192]
	sub	x30, x29, #96
	ldur	x17, [x29, #-8]
	ldr	x3, [sp, #176]
	ldr	w9, [sp, #96]
	cbz	w9, .LBBa52ca417_12
.LBBa52ca417_678:
	ldr	x9, [sp, #208]
	ldr	x28, [sp, #136]
	mov	x14, xzr
	ldr	x16, [sp, #160]
	ldr	x1, [sp, #112]
	ubfx	x10, x24, #48, #1
	mov	w2, w9
	lsr	x9, x17, #32
	and	x13, x28, #0xffffffff00000000
	and	x12, x27, #0xffffffffffffff00
	and	x11, x23, #0xffffffffffffff00
	mov	w18, #2
	b	.LBBa52ca417_62
.LBBa52ca417_679:
	sub	w8, w19, #1
	and	w8, w8, #0xff
	cmp	w8, #5
	b.hs	.LBBa52ca417_688
	ldur	x8, [x29, #-8]
	ldr	x9, [sp, #160]
	and	x8, x8, #0xf8
.LBBa52ca417_681:
	ldr	x10, [sp, #8]
	subs	x8, x8, #8
	ldr	d0, [x10], #8
	str	x10, [sp, #8]
	str	d0, [x9], #8
	b.ne	.LBBa52ca417_681
	b	.LBBa52ca417_598
.LBBa52ca417_682:
	ldur	x8, [x29, #-8]
	lsr	x10, x8, #6
	and	x9, x8, #0x3f
	mov	w8, wzr
	cbz	x10, .LBBa52ca417_685
	ldr	x11, [sp, #160]
	add	x11, x11, #32
.LBBa52ca417_684:
	movi	v0.16b, #15
	ldp	q1, q2, [x11, #-32]
	movi	v5.16b, #16
	movi	v6.16b, #1
	subs	x10, x10, #1
	and	v3.16b, v1.16b, v0.16b
	and	v4.16b, v2.16b, v0.16b
	cmhi	v1.16b, v5.16b, v1.16b
	cmhi	v2.16b, v5.16b, v2.16b
	cmeq	v3.16b, v3.16b, #0
	cmeq	v4.16b, v4.16b, #0
	and	v3.16b, v3.16b, v6.16b
	and	v4.16b, v4.16b, v6.16b
	ldp	q6, q7, [x11], #64
	sub	v1.16b, v3.16b, v1.16b
	sub	v2.16b, v4.16b, v2.16b
	and	v3.16b, v6.16b, v0.16b
	and	v0.16b, v7.16b, v0.16b
	cmhi	v4.16b, v5.16b, v6.16b
	cmhi	v5.16b, v5.16b, v7.16b
	cmeq	v3.16b, v3.16b, #0
	cmeq	v0.16b, v0.16b, #0
	sub	v1.16b, v1.16b, v4.16b
	sub	v2.16b, v2.16b, v5.16b
	sub	v1.16b, v1.16b, v3.16b
	sub	v0.16b, v2.16b, v0.16b
	add	v0.16b, v0.16b, v1.16b
	addv	b0, v0.16b
	fmov	w12, s0
	add	w8, w8, w12, uxtb
	b.ne	.LBBa52ca417_684
.LBBa52ca417_685:
	sub	x10, x29, #96
	ldrb	w10, [x10, #8]
	str	x10, [sp, #192]
	ldur	x10, [x29, #-80]
	str	x10, [sp, #176]
	cbz	x9, .LBBa52ca417_690
	ldur	x10, [x29, #-8]
	cmp	x9, #4
	and	x10, x10, #0xffffffffffffffc0
	b.hs	.LBBa52ca417_691
	mov	w13, wzr
	mov	x11, xzr
	b	.LBBa52ca417_700
.LBBa52ca417_688:
	ldur	x8, [x29, #-8]
	ldr	x9, [sp, #176]
	ldr	x10, [sp, #160]
	and	x8, x8, #0x7fffffffffffffe0
	add	x9, x9, #56
	add	x10, x10, #16
.LBBa52ca417_689:
	ldp	q0, q1, [x9, #-16]
	subs	x8, x8, #32
	add	x9, x9, #32
	stp	q0, q1, [x10, #-16]
	add	x10, x10, #32
	b.ne	.LBBa52ca417_689
	b	.LBBa52ca417_598
.LBBa52ca417_690:
	mov	w13, wzr
	b	.LBBa52ca417_702
.LBBa52ca417_691:
	cmp	x9, #16
	b.hs	.LBBa52ca417_693
	mov	x11, xzr
	mov	w13, wzr
	b	.LBBa52ca417_697
.LBBa52ca417_693:
	movi	v0.2d, #0000000000000000
	movi	v1.2d, #0000000000000000
	ldr	x11, [sp, #160]
	movi	v2.2d, #0000000000000000
	movi	v3.2d, #0000000000000000
	ldur	x14, [x29, #-8]
	add	x13, x10, x11
	and	x12, x14, #0xc
	and	x11, x14, #0x30
	add	x13, x13, #8
	and	x14, x14, #0x30
.LBBa52ca417_694:
	movi	v4.8b, #15
	movi	v5.8b, #16
	subs	x14, x14, #16
	ldp	d6, d7, [x13, #-8]
	add	x13, x13, #16
	and	v16.8b, v6.8b, v4.8b
	and	v4.8b, v7.8b, v4.8b
	cmhi	v6.8b, v5.8b, v6.8b
	cmhi	v5.8b, v5.8b, v7.8b
	cmeq	v7.8b, v16.8b, #0
	cmeq	v4.8b, v4.8b, #0
	ushll	v6.8h, v6.8b, #0
	ushll	v5.8h, v5.8b, #0
	movi	v16.4s, #1
	ushll	v7.8h, v7.8b, #0
	ushll	v4.8h, v4.8b, #0
	ushll2	v17.4s, v6.8h, #0
	ushll	v6.4s, v6.4h, #0
	ushll2	v18.4s, v5.8h, #0
	ushll	v5.4s, v5.4h, #0
	ushll	v19.4s, v7.4h, #0
	ushll2	v7.4s, v7.8h, #0
	ushll	v20.4s, v4.4h, #0
	ushll2	v4.4s, v4.8h, #0
	and	v17.16b, v17.16b, v16.16b
	and	v6.16b, v6.16b, v16.16b
	and	v18.16b, v18.16b, v16.16b
	and	v5.16b, v5.16b, v16.16b
	and	v19.16b, v19.16b, v16.16b
	and	v7.16b, v7.16b, v16.16b
	and	v20.16b, v20.16b, v16.16b
	and	v4.16b, v4.16b, v16.16b
	add	v2.4s, v2.4s, v17.4s
	add	v1.4s, v1.4s, v6.4s
	add	v3.4s, v3.4s, v5.4s
	add	v0.4s, v0.4s, v18.4s
	add	v2.4s, v2.4s, v7.4s
	add	v1.4s, v1.4s, v19.4s
	add	v0.4s, v0.4s, v4.4s
	add	v3.4s, v3.4s, v20.4s
	b.ne	.LBBa52ca417_694
	add	v1.4s, v3.4s, v1.4s
	add	v0.4s, v0.4s, v2.4s
	cmp	x9, x11
	add	v0.4s, v1.4s, v0.4s
	addv	s0, v0.4s
	fmov	w13, s0
	b.eq	.LBBa52ca417_702
	cbz	x12, .LBBa52ca417_700
.LBBa52ca417_697:
	movi	v0.2d, #0000000000000000
	mov	x12, x11
	ldur	x11, [x29, #-8]
	ldr	x14, [sp, #160]
	and	x11, x11, #0x3c
	mov	v0.s[0], w13
	add	x13, x12, x10
	sub	x12, x12, x11
	add	x13, x14, x13
.LBBa52ca417_698:
	ldr	s1, [x13], #4
	movi	v2.4h, #16
	adds	x12, x12, #4
	ushll	v1.8h, v1.8b, #0
	fmov	d3, d1
	cmhi	v1.4h, v2.4h, v1.4h
	movi	v2.4s, #1
	ushll	v1.4s, v1.4h, #0
	bic	v3.4h, #240
	and	v1.16b, v1.16b, v2.16b
	cmeq	v3.4h, v3.4h, #0
	add	v0.4s, v0.4s, v1.4s
	ushll	v3.4s, v3.4h, #0
	and	v2.16b, v3.16b, v2.16b
	add	v0.4s, v0.4s, v2.4s
	b.ne	.LBBa52ca417_698
	addv	s0, v0.4s
	cmp	x9, x11
	fmov	w13, s0
	b.eq	.LBBa52ca417_702
.LBBa52ca417_700:
	add	x10, x11, x10
	sub	x9, x9, x11
	ldr	x11, [sp, #160]
	add	x10, x11, x10
.LBBa52ca417_701:
	ldrb	w11, [x10], #1
	cmp	w11, #16
	cinc	w12, w13, lo
	tst	w11, #0xf
	cinc	w13, w12, eq
	subs	x9, x9, #1
	b.ne	.LBBa52ca417_701
.LBBa52ca417_702:
	mov	w26, wzr
	add	w25, w13, w8
	mov	w8, #1
	mov	w21, w19
	str	w8, [sp, #96]
	ldr	x0, [sp, #144]
	bl	rattle_dealloc
	sub	x8, x29, #96
	ldrb	w8, [x8, #32]
	cmp	w8, #1
	b.eq	.LBBa52ca417_674
	b	.LBBa52ca417_677
.Lfunc_enda52ca417:
	.size	hll_estimator_fields.filter.with_fields.5da326502419fe7c, .Lfunc_enda52ca417-hll_estimator_fields.filter.with_fields.5da326502419fe7c

	.section	.text.hll_sketch.raw_coupons.RawCoupons.differ,"ax",@progbits
	.p2align	2
	.type	hll_sketch.raw_coupons.RawCoupons.differ,@function
hll_sketch.raw_coupons.RawCoupons.differ:
	stp	x29, x30, [sp, #-32]!
	stp	x28, x19, [sp, #16]
	mov	x29, sp
	sub	sp, sp, #1024
	mov	x19, x0
	mov	x0, sp
	mov	w1, wzr
	mov	w2, #1024
	bl	memset
	ldr	x8, [x19, #16]
	cmp	x8, #0
	cset	w0, eq
	cbz	x8, .LBB8d0b1b5a_21
	ldr	x9, [x19, #8]
	cmp	x9, #4
	b.lo	.LBB8d0b1b5a_21
	ldr	x11, [x19]
	mov	x10, xzr
	mov	x12, x11
.LBB8d0b1b5a_3:
	ldr	w15, [x12], #4
	lsr	w13, w15, #26
	cbz	w13, .LBB8d0b1b5a_22
	and	x13, x15, #0x3ff
	mov	x14, sp
	cbz	x10, .LBB8d0b1b5a_19
	ldrb	w16, [x14, x13]
	tbz	w16, #0, .LBB8d0b1b5a_19
	cmp	x10, #4
	b.hs	.LBB8d0b1b5a_8
	mov	w18, wzr
	mov	x16, xzr
	b	.LBB8d0b1b5a_17
.LBB8d0b1b5a_8:
	cmp	x10, #32
	b.hs	.LBB8d0b1b5a_10
	mov	x16, xzr
	mov	w18, wzr
	b	.LBB8d0b1b5a_14
.LBB8d0b1b5a_10:
	movi	v0.2d, #0000000000000000
	movi	v1.2d, #0000000000000000
	and	x18, x10, #0xffffffffffffffe0
	dup	v2.4s, w15
	and	x17, x10, #0x1c
	and	x16, x10, #0x7fffffffffffffe0
	add	x0, x11, #64
.LBB8d0b1b5a_11:
	ldp	q4, q3, [x0, #-64]
	subs	x18, x18, #32
	ldp	q6, q5, [x0, #-32]
	ldp	q7, q16, [x0]
	ldp	q18, q17, [x0, #32]
	cmeq	v3.4s, v3.4s, v2.4s
	cmeq	v4.4s, v4.4s, v2.4s
	cmeq	v6.4s, v6.4s, v2.4s
	cmeq	v5.4s, v5.4s, v2.4s
	cmeq	v16.4s, v16.4s, v2.4s
	cmeq	v7.4s, v7.4s, v2.4s
	add	x0, x0, #128
	cmeq	v18.4s, v18.4s, v2.4s
	cmeq	v17.4s, v17.4s, v2.4s
	uzp1	v3.8h, v4.8h, v3.8h
	uzp1	v4.8h, v6.8h, v5.8h
	uzp1	v5.8h, v7.8h, v16.8h
	uzp1	v6.8h, v18.8h, v17.8h
	uzp1	v3.16b, v3.16b, v4.16b
	uzp1	v4.16b, v5.16b, v6.16b
	orr	v0.16b, v0.16b, v3.16b
	orr	v1.16b, v1.16b, v4.16b
	b.ne	.LBB8d0b1b5a_11
	orr	v0.16b, v1.16b, v0.16b
	cmp	x10, x16
	shl	v0.16b, v0.16b, #7
	cmlt	v0.16b, v0.16b, #0
	umaxv	b0, v0.16b
	fmov	w18, s0
	and	w18, w18, #0x1
	b.eq	.LBB8d0b1b5a_18
	cbz	x17, .LBB8d0b1b5a_17
.LBB8d0b1b5a_14:
	movi	v0.2d, #0000000000000000
	dup	v1.4s, w15
	add	x17, x11, x16, lsl #2
	mov	v0.h[0], w18
	and	x18, x10, #0xfffffffffffffffc
	sub	x18, x16, x18
	and	x16, x10, #0x7ffffffffffffffc
.LBB8d0b1b5a_15:
	ldr	q2, [x17], #16
	adds	x18, x18, #4
	cmeq	v2.4s, v2.4s, v1.4s
	xtn	v2.4h, v2.4s
	orr	v0.8b, v0.8b, v2.8b
	b.ne	.LBB8d0b1b5a_15
	shl	v0.4h, v0.4h, #15
	cmp	x10, x16
	cmlt	v0.4h, v0.4h, #0
	umaxv	h0, v0.4h
	fmov	w17, s0
	and	w18, w17, #0x1
	b.eq	.LBB8d0b1b5a_18
.LBB8d0b1b5a_17:
	ldr	w17, [x11, x16, lsl #2]
	add	x16, x16, #1
	cmp	w17, w15
	cset	w17, eq
	cmp	x10, x16
	orr	w18, w18, w17
	b.ne	.LBB8d0b1b5a_17
.LBB8d0b1b5a_18:
	tbnz	w18, #0, .LBB8d0b1b5a_22
.LBB8d0b1b5a_19:
	add	x10, x10, #1
	mov	w15, #1
	strb	w15, [x14, x13]
	cmp	x10, x8
	cset	w0, hs
	b.hs	.LBB8d0b1b5a_21
	sub	x9, x9, #4
	cmp	x9, #4
	b.hs	.LBB8d0b1b5a_3
.LBB8d0b1b5a_21:
	add	sp, sp, #1024
	ldp	x28, x19, [sp, #16]
	ldp	x29, x30, [sp], #32
	ret
.LBB8d0b1b5a_22:
	mov	w0, wzr
	add	sp, sp, #1024
	ldp	x28, x19, [sp, #16]
	ldp	x29, x30, [sp], #32
	ret
.Lfunc_end8d0b1b5a:
	.size	hll_sketch.raw_coupons.RawCoupons.differ, .Lfunc_end8d0b1b5a-hll_sketch.raw_coupons.RawCoupons.differ

	.section	.text.hll_coupons.hash_set.read_by_order.5da326502419fe7c,"ax",@progbits
	.p2align	2
	.type	hll_coupons.hash_set.read_by_order.5da326502419fe7c,@function
hll_coupons.hash_set.read_by_order.5da326502419fe7c:
	sub	sp, sp, #176
	movi	v0.2d, #0000000000000000
	stp	x20, x19, [sp, #160]
	mov	x19, x0
	mov	w8, #3
	stp	x24, x23, [sp, #128]
	ldr	x24, [x0]
	str	x8, [x0]
	ldrb	w9, [x0, #16]
	ldr	x8, [x0, #40]
	stp	x22, x21, [sp, #144]
	mov	w20, w4
	mov	x21, x3
	stur	q0, [x0, #8]
	ldr	x0, [x0, #24]
	mov	x22, x2
	mov	x23, x1
	stp	x29, x30, [sp, #96]
	add	x29, sp, #96
	stp	x26, x25, [sp, #112]
	str	xzr, [sp, #48]
	stp	q0, q0, [sp, #16]
	str	q0, [sp]
	stur	q0, [x19, #24]
	stur	q0, [x19, #36]
	cbz	w9, .LBB7d0aa848_3
	cbz	x8, .LBB7d0aa848_3
	bl	rattle_dealloc
.LBB7d0aa848_3:
	stp	xzr, xzr, [x29, #-32]
	stur	xzr, [x29, #-16]
	cbz	x21, .LBB7d0aa848_18
	lsr	x8, x21, #61
	cbnz	x8, .LBB7d0aa848_44
	lsl	x0, x21, #2
	mov	w1, #4
	bl	rattle_alloc
	tbz	w0, #0, .LBB7d0aa848_44
	stp	x1, xzr, [x29, #-32]
	stur	x21, [x29, #-16]
	tbz	w20, #0, .LBB7d0aa848_33
	mov	x20, xzr
.LBB7d0aa848_8:
	subs	x22, x22, #4
	b.lo	.LBB7d0aa848_47
	ldr	w25, [x23], #4
	lsr	w8, w25, #26
	cbz	w8, .LBB7d0aa848_49
	ldur	x8, [x29, #-16]
	cmp	x8, x20
	b.eq	.LBB7d0aa848_12
	str	w25, [x1, x20, lsl #2]
	add	x20, x20, #1
	sub	x21, x21, #1
	stur	x20, [x29, #-24]
	cbnz	x21, .LBB7d0aa848_8
	b	.LBB7d0aa848_14
.LBB7d0aa848_12:
	sub	x0, x29, #32
	mov	w1, #1
	bl	std_alloc.vec.Vec.grow_amortized.11231e1ee52b7a7f
	cbz	w0, .LBB7d0aa848_42
	ldp	x1, x20, [x29, #-32]
	str	w25, [x1, x20, lsl #2]
	add	x20, x20, #1
	sub	x21, x21, #1
	stur	x20, [x29, #-24]
	cbnz	x21, .LBB7d0aa848_8
.LBB7d0aa848_14:
	ldur	x21, [x29, #-32]
	ldur	x25, [x29, #-16]
	cmp	x20, #2
	b.lo	.LBB7d0aa848_19
	mov	x8, xzr
	sub	x26, x20, #1
.LBB7d0aa848_16:
	add	x9, x21, x8, lsl #2
	ldp	w10, w9, [x9]
	cmp	w10, w9
	b.hs	.LBB7d0aa848_53
	add	x8, x8, #1
	cmp	x26, x8
	b.ne	.LBB7d0aa848_16
	b	.LBB7d0aa848_19
.LBB7d0aa848_18:
	ldur	x25, [x29, #-16]
	mov	x20, xzr
	sub	x21, x29, #4
.LBB7d0aa848_19:
	cmp	x24, #3
	b.ne	.LBB7d0aa848_68
.LBB7d0aa848_20:
	mov	w9, wzr
	mov	x1, xzr
	mov	x8, xzr
	mov	x23, xzr
.LBB7d0aa848_21:
	stp	x1, x8, [sp, #24]
	mov	x0, sp
	mov	w1, wzr
	mov	x2, x21
	mov	x3, x20
	stp	x24, xzr, [sp]
	stp	w9, wzr, [sp, #16]
	mov	x22, sp
	str	x23, [sp, #40]
	str	wzr, [sp, #48]
	bl	hll_coupons.filling.put_by_cycles.5da326502419fe7c
	ldrb	w8, [sp, #16]
	tst	w0, #0xff
	b.eq	.LBB7d0aa848_27
	cbz	w8, .LBB7d0aa848_25
	ldr	x8, [sp, #40]
	cbz	x8, .LBB7d0aa848_25
	ldr	x0, [sp, #24]
	mov	w19, w1
	bl	rattle_dealloc
	mov	w1, w19
.LBB7d0aa848_25:
	cbz	x25, .LBB7d0aa848_45
	mov	x0, x21
	mov	w19, w1
	bl	rattle_dealloc
	mov	w1, w19
	b	.LBB7d0aa848_45
.LBB7d0aa848_27:
	ldr	q0, [sp]
	ldrb	w9, [x19, #16]
	str	w8, [x19, #16]
	ldur	q1, [x22, #20]
	ldur	q2, [x22, #36]
	ldr	x0, [x19, #24]
	ldr	x8, [x19, #40]
	str	q0, [x19]
	stur	q1, [x19, #20]
	stur	q2, [x19, #36]
	cbz	w9, .LBB7d0aa848_30
	cbz	x8, .LBB7d0aa848_30
	bl	rattle_dealloc
.LBB7d0aa848_30:
	cbz	x25, .LBB7d0aa848_32
	mov	x0, x21
	bl	rattle_dealloc
.LBB7d0aa848_32:
	mov	w1, wzr
	mov	w0, wzr
	b	.LBB7d0aa848_46
.LBB7d0aa848_33:
	mov	x20, xzr
	b	.LBB7d0aa848_37
.LBB7d0aa848_34:
	ldp	x1, x20, [x29, #-32]
.LBB7d0aa848_35:
	str	w25, [x1, x20, lsl #2]
	add	x20, x20, #1
	stur	x20, [x29, #-24]
.LBB7d0aa848_36:
	sub	x21, x21, #1
	cbz	x21, .LBB7d0aa848_14
.LBB7d0aa848_37:
	subs	x22, x22, #4
	b.lo	.LBB7d0aa848_47
	ldr	w25, [x23], #4
	cbz	w25, .LBB7d0aa848_36
	lsr	w8, w25, #26
	cbz	w8, .LBB7d0aa848_49
	ldur	x8, [x29, #-16]
	cmp	x8, x20
	b.ne	.LBB7d0aa848_35
	sub	x0, x29, #32
	mov	w1, #1
	bl	std_alloc.vec.Vec.grow_amortized.11231e1ee52b7a7f
	cbnz	w0, .LBB7d0aa848_34
.LBB7d0aa848_42:
	ldur	x8, [x29, #-16]
	cbz	x8, .LBB7d0aa848_44
	ldur	x0, [x29, #-32]
	bl	rattle_dealloc
.LBB7d0aa848_44:
	mov	w1, #12
.LBB7d0aa848_45:
	mov	w0, #1
.LBB7d0aa848_46:
	ldp	x20, x19, [sp, #160]
	ldp	x22, x21, [sp, #144]
	ldp	x24, x23, [sp, #128]
	ldp	x26, x25, [sp, #112]
	ldp	x29, x30, [sp, #96]
	add	sp, sp, #176
	ret
.LBB7d0aa848_47:
	ldur	x8, [x29, #-16]
	cbz	x8, .LBB7d0aa848_51
	ldur	x0, [x29, #-32]
	bl	rattle_dealloc
	mov	w1, wzr
	b	.LBB7d0aa848_45
.LBB7d0aa848_49:
	ldur	x8, [x29, #-16]
	cbz	x8, .LBB7d0aa848_52
	ldur	x0, [x29, #-32]
	bl	rattle_dealloc
	mov	w1, #9
	b	.LBB7d0aa848_45
.LBB7d0aa848_51:
	mov	w1, wzr
	b	.LBB7d0aa848_45
.LBB7d0aa848_52:
	mov	w1, #9
	b	.LBB7d0aa848_45
.LBB7d0aa848_53:
	lsr	x8, x20, #61
	cbnz	x8, .LBB7d0aa848_72
	lsl	x23, x20, #2
	mov	w1, #4
	mov	x0, x23
	bl	rattle_alloc
	tbz	w0, #0, .LBB7d0aa848_72
	sub	x8, x1, x21
	mov	x22, x1
	cmp	x8, x23
	b.hs	.LBB7d0aa848_63
	cmp	x20, #8
	mov	x8, xzr
	b.lo	.LBB7d0aa848_61
	sub	x9, x22, x21
	cmp	x9, #32
	b.lo	.LBB7d0aa848_61
	and	x8, x20, #0x1ffffffffffffff8
	add	x9, x21, #16
	add	x10, x22, #16
	and	x11, x20, #0x1ffffffffffffff8
.LBB7d0aa848_59:
	ldp	q0, q1, [x9, #-16]
	subs	x11, x11, #8
	add	x9, x9, #32
	stp	q0, q1, [x10, #-16]
	add	x10, x10, #32
	b.ne	.LBB7d0aa848_59
	cmp	x20, x8
	b.eq	.LBB7d0aa848_64
.LBB7d0aa848_61:
	lsl	x10, x8, #2
	sub	x8, x20, x8
	add	x9, x21, x10
	add	x10, x22, x10
.LBB7d0aa848_62:
	ldr	w11, [x9], #4
	subs	x8, x8, #1
	str	w11, [x10], #4
	b.ne	.LBB7d0aa848_62
	b	.LBB7d0aa848_64
.LBB7d0aa848_63:
	mov	x0, x22
	mov	x1, x21
	mov	x2, x23
	bl	memmove
.LBB7d0aa848_64:
	mov	x0, x22
	mov	x1, x20
	bl	std_alloc.vec.Vec.sort_unstable.b520de54a9121e34
	mov	x8, xzr
.LBB7d0aa848_65:
	add	x9, x22, x8, lsl #2
	ldp	w10, w9, [x9]
	cmp	w10, w9
	b.hs	.LBB7d0aa848_77
	add	x8, x8, #1
	cmp	x26, x8
	b.ne	.LBB7d0aa848_65
	mov	x0, x22
	bl	rattle_dealloc
	cmp	x24, #3
	b.eq	.LBB7d0aa848_20
.LBB7d0aa848_68:
	cmp	x24, #60
	b.hi	.LBB7d0aa848_72
	mov	w8, #4
	mov	w1, #4
	lsl	x22, x8, x24
	mov	x0, x22
	bl	rattle_alloc
	tbz	w0, #0, .LBB7d0aa848_72
	mov	w8, #1
	lsl	x23, x8, x24
	cbz	x24, .LBB7d0aa848_75
	sub	x2, x22, #4
	mov	x0, x1
	mov	x22, x1
	mov	w1, wzr
	bl	memset
	mov	x1, x22
	sub	x8, x23, #1
	b	.LBB7d0aa848_76
.LBB7d0aa848_72:
	cbz	x25, .LBB7d0aa848_74
	mov	x0, x21
	bl	rattle_dealloc
.LBB7d0aa848_74:
	mov	w0, #1
	mov	w1, #12
	b	.LBB7d0aa848_46
.LBB7d0aa848_75:
	mov	x8, xzr
.LBB7d0aa848_76:
	str	wzr, [x1, x8, lsl #2]
	add	x8, x8, #1
	mov	w9, #1
	b	.LBB7d0aa848_21
.LBB7d0aa848_77:
	mov	x0, x22
	bl	rattle_dealloc
	cbz	x25, .LBB7d0aa848_79
	mov	x0, x21
	bl	rattle_dealloc
.LBB7d0aa848_79:
	mov	w0, #1
	mov	w1, #9
	b	.LBB7d0aa848_46
.Lfunc_end7d0aa848:
	.size	hll_coupons.hash_set.read_by_order.5da326502419fe7c, .Lfunc_end7d0aa848-hll_coupons.hash_set.read_by_order.5da326502419fe7c

	.section	.text.unlikely.std_alloc.vec.Vec.grow_amortized.11231e1ee52b7a7f,"ax",@progbits
	.p2align	2
	.type	std_alloc.vec.Vec.grow_amortized.11231e1ee52b7a7f,@function
std_alloc.vec.Vec.grow_amortized.11231e1ee52b7a7f:
	ldr	x8, [x0, #8]
	cmn	x8, x1
	b.lo	.LBB3250d64f_2
	mov	w0, wzr
	ret
.LBB3250d64f_2:
	stp	x29, x30, [sp, #-32]!
	ldr	x9, [x0, #16]
	add	x10, x8, x1
	mov	w11, #4
	cmp	x10, #4
	stp	x20, x19, [sp, #16]
	mov	x29, sp
	lsl	x12, x9, #1
	csel	x11, x10, x11, hi
	lsr	x13, x9, #62
	cmp	x11, x12
	csel	x10, x11, x12, hi
	cmp	x13, #0
	csel	x19, x10, x11, eq
	lsr	x11, x19, #61
	cbnz	x11, .LBB3250d64f_7
	cbz	x9, .LBB3250d64f_6
	mov	x20, x0
	ldr	x0, [x0]
	lsl	x1, x8, #2
	lsl	x2, x19, #2
	mov	w3, #4
	bl	rattle_realloc
	tbz	w0, #0, .LBB3250d64f_7
.LBB3250d64f_5:
	mov	w0, #1
	str	x1, [x20]
	str	x19, [x20, #16]
	ldp	x20, x19, [sp, #16]
	ldp	x29, x30, [sp], #32
	ret
.LBB3250d64f_6:
	mov	x20, x0
	lsl	x0, x10, #2
	mov	w1, #4
	bl	rattle_alloc
	tbnz	w0, #0, .LBB3250d64f_5
.LBB3250d64f_7:
	mov	w0, wzr
	ldp	x20, x19, [sp, #16]
	ldp	x29, x30, [sp], #32
	ret
.Lfunc_end3250d64f:
	.size	std_alloc.vec.Vec.grow_amortized.11231e1ee52b7a7f, .Lfunc_end3250d64f-std_alloc.vec.Vec.grow_amortized.11231e1ee52b7a7f

	.section	.text.std_alloc.vec.Vec.sort_unstable.b520de54a9121e34,"ax",@progbits
	.p2align	2
	.type	std_alloc.vec.Vec.sort_unstable.b520de54a9121e34,@function
std_alloc.vec.Vec.sort_unstable.b520de54a9121e34:
	cmp	x1, #20
	b.hi	.LBBd8dcd4fb_10
	cmp	x1, #2
	b.lo	.LBBd8dcd4fb_21
	mov	w8, #1
	b	.LBBd8dcd4fb_6
.LBBd8dcd4fb_3:
	lsl	x10, x10, #2
.LBBd8dcd4fb_4:
	str	w9, [x0, x10]
.LBBd8dcd4fb_5:
	add	x8, x8, #1
	cmp	x8, x1
	b.eq	.LBBd8dcd4fb_21
.LBBd8dcd4fb_6:
	sub	x10, x8, #1
	ldr	w9, [x0, x8, lsl #2]
	ldr	w11, [x0, x10, lsl #2]
	cmp	w9, w11
	b.hs	.LBBd8dcd4fb_5
	str	w11, [x0, x8, lsl #2]
	cbz	x10, .LBBd8dcd4fb_4
.LBBd8dcd4fb_8:
	add	x11, x0, x10, lsl #2
	ldur	w11, [x11, #-4]
	cmp	w9, w11
	b.hs	.LBBd8dcd4fb_3
	sub	x12, x10, #1
	str	w11, [x0, x10, lsl #2]
	mov	x10, x12
	cbnz	x12, .LBBd8dcd4fb_8
	b	.LBBd8dcd4fb_3
.LBBd8dcd4fb_10:
	ldp	w9, w8, [x0]
	cmp	w8, w9
	b.hs	.LBBd8dcd4fb_14
	neg	x11, x1
	add	x12, x0, #8
	mov	x10, #-2
.LBBd8dcd4fb_12:
	ldp	w14, w13, [x12, #-4]
	cmp	w13, w14
	b.hs	.LBBd8dcd4fb_17
	sub	x10, x10, #1
	add	x12, x12, #4
	cmp	x11, x10
	b.ne	.LBBd8dcd4fb_12
	b	.LBBd8dcd4fb_20
.LBBd8dcd4fb_14:
	neg	x11, x1
	add	x12, x0, #8
	mov	x10, #-2
.LBBd8dcd4fb_15:
	ldp	w14, w13, [x12, #-4]
	cmp	w13, w14
	b.lo	.LBBd8dcd4fb_17
	sub	x10, x10, #1
	add	x12, x12, #4
	cmp	x11, x10
	b.ne	.LBBd8dcd4fb_15
	b	.LBBd8dcd4fb_21
.LBBd8dcd4fb_17:
	neg	x10, x10
	cmp	x10, x1
	b.hs	.LBBd8dcd4fb_19
	clz	x8, x1
	mov	x2, x1
	mov	x1, xzr
	lsl	w8, w8, #1
	eor	w3, w8, #0x7e
	b	core.slice.sort.unstable.quicksort.190f92464ae8a1e1
.LBBd8dcd4fb_19:
	cmp	w8, w9
	b.hs	.LBBd8dcd4fb_21
.LBBd8dcd4fb_20:
	lsr	x2, x1, #1
	sub	x8, x1, x2
	add	x1, x0, x8, lsl #2
	b	core.slice.edits.mirror._27_hll_coupons.coupon.Coupon
.LBBd8dcd4fb_21:
	ret
.Lfunc_endd8dcd4fb:
	.size	std_alloc.vec.Vec.sort_unstable.b520de54a9121e34, .Lfunc_endd8dcd4fb-std_alloc.vec.Vec.sort_unstable.b520de54a9121e34

	.section	.text.core.slice.sort.unstable.quicksort.190f92464ae8a1e1,"ax",@progbits
	.p2align	2
	.type	core.slice.sort.unstable.quicksort.190f92464ae8a1e1,@function
core.slice.sort.unstable.quicksort.190f92464ae8a1e1:
	stp	x29, x30, [sp, #-80]!
	stp	x24, x23, [sp, #32]
	sub	x23, x2, x1
	mov	x29, sp
	stp	x20, x19, [sp, #64]
	mov	x19, x2
	cmp	x23, #17
	mov	x20, x0
	str	x25, [sp, #16]
	stp	x22, x21, [sp, #48]
	b.lo	.LBB315b4148_37
	mov	w22, w3
	mov	x21, x1
	add	x24, x20, #8
	b	.LBB315b4148_4
.LBB315b4148_2:
	mov	x11, xzr
.LBB315b4148_3:
	add	x2, x9, x21
	mov	x0, x20
	mov	x1, x21
	mov	w3, w22
	str	w10, [x8, x11]
	bl	core.slice.sort.unstable.quicksort.190f92464ae8a1e1
	add	x21, x25, x21
	sub	x23, x19, x21
	cmp	x23, #16
	b.ls	.LBB315b4148_37
.LBB315b4148_4:
	cbz	w22, .LBB315b4148_40
	lsr	x4, x23, #3
	cmp	x23, #63
	sub	x8, x21, x4
	add	x2, x21, x4, lsl #2
	add	x3, x8, x4, lsl #3
	b.hi	.LBB315b4148_22
	ldr	w8, [x20, x21, lsl #2]
	ldr	w9, [x20, x2, lsl #2]
	ldr	w10, [x20, x3, lsl #2]
	cmp	w8, w9
	cset	w11, lo
	cmp	w8, w10
	cset	w8, lo
	cmp	w9, w10
	cset	w9, lo
	eor	w8, w11, w8
	eor	w9, w11, w9
	cmp	w9, #0
	csel	x9, x3, x2, ne
	cmp	w8, #0
	csel	x0, x21, x9, ne
	sub	w22, w22, #1
	cbz	x21, .LBB315b4148_23
.LBB315b4148_7:
	lsl	x9, x21, #2
	ldr	w11, [x20, x0, lsl #2]
	add	x8, x20, x9
	ldur	w10, [x8, #-4]
	cmp	w10, w11
	b.lo	.LBB315b4148_24
	subs	x10, x0, x21
	b.eq	.LBB315b4148_10
	ldr	w11, [x8, x10, lsl #2]
	ldr	w12, [x8]
	str	w11, [x8]
	str	w12, [x8, x10, lsl #2]
.LBB315b4148_10:
	ldr	w10, [x8]
	mov	w25, #1
.LBB315b4148_11:
	ldr	w11, [x8, x25, lsl #2]
	cmp	w10, w11
	b.lo	.LBB315b4148_14
	add	x25, x25, #1
	cmp	x23, x25
	b.ne	.LBB315b4148_11
	mov	x25, x23
.LBB315b4148_14:
	sub	x11, x23, #1
	cmp	x25, x11
	b.hs	.LBB315b4148_19
	add	x13, x25, #1
	ldr	w12, [x8, x13, lsl #2]
	cmp	x13, x11
	b.hs	.LBB315b4148_18
	add	x9, x9, x25, lsl #2
	sub	x13, x23, x25
	sub	x13, x13, #2
	add	x9, x24, x9
.LBB315b4148_17:
	ldr	w14, [x9]
	ldr	w15, [x8, x25, lsl #2]
	cmp	w10, w14
	stur	w15, [x9, #-4]
	add	x9, x9, #4
	str	w14, [x8, x25, lsl #2]
	cinc	x25, x25, hs
	subs	x13, x13, #1
	b.ne	.LBB315b4148_17
.LBB315b4148_18:
	ldr	w9, [x8, x25, lsl #2]
	cmp	w10, w12
	str	w9, [x8, x11, lsl #2]
	str	w12, [x8, x25, lsl #2]
	cinc	x25, x25, hs
.LBB315b4148_19:
	subs	x9, x25, #1
	b.eq	.LBB315b4148_21
	lsl	x9, x9, #2
	ldr	w11, [x8, x9]
	str	w11, [x8]
.LBB315b4148_21:
	str	w10, [x8, x9]
	add	x21, x25, x21
	sub	x23, x19, x21
	cmp	x23, #16
	b.hi	.LBB315b4148_4
	b	.LBB315b4148_37
.LBB315b4148_22:
	mov	x0, x20
	mov	x1, x21
	bl	core.slice.sort.pivot.median_of_medians.190f92464ae8a1e1
	sub	w22, w22, #1
	cbnz	x21, .LBB315b4148_7
.LBB315b4148_23:
	mov	x9, xzr
.LBB315b4148_24:
	subs	x10, x0, x21
	add	x8, x20, x9
	b.eq	.LBB315b4148_26
	ldr	w11, [x8, x10, lsl #2]
	ldr	w12, [x8]
	str	w11, [x8]
	str	w12, [x8, x10, lsl #2]
.LBB315b4148_26:
	ldr	w10, [x8]
	mov	w25, #1
.LBB315b4148_27:
	ldr	w11, [x8, x25, lsl #2]
	cmp	w11, w10
	b.hs	.LBB315b4148_30
	add	x25, x25, #1
	cmp	x23, x25
	b.ne	.LBB315b4148_27
	mov	x25, x23
.LBB315b4148_30:
	sub	x11, x23, #1
	cmp	x25, x11
	b.hs	.LBB315b4148_35
	add	x13, x25, #1
	ldr	w12, [x8, x13, lsl #2]
	cmp	x13, x11
	b.hs	.LBB315b4148_34
	add	x9, x9, x25, lsl #2
	sub	x13, x23, x25
	sub	x13, x13, #2
	add	x9, x24, x9
.LBB315b4148_33:
	ldr	w14, [x9]
	ldr	w15, [x8, x25, lsl #2]
	cmp	w14, w10
	stur	w15, [x9, #-4]
	add	x9, x9, #4
	str	w14, [x8, x25, lsl #2]
	cinc	x25, x25, lo
	subs	x13, x13, #1
	b.ne	.LBB315b4148_33
.LBB315b4148_34:
	ldr	w9, [x8, x25, lsl #2]
	cmp	w12, w10
	str	w9, [x8, x11, lsl #2]
	str	w12, [x8, x25, lsl #2]
	cinc	x25, x25, lo
.LBB315b4148_35:
	subs	x9, x25, #1
	b.eq	.LBB315b4148_2
	lsl	x11, x9, #2
	ldr	w12, [x8, x11]
	str	w12, [x8]
	b	.LBB315b4148_3
.LBB315b4148_37:
	cmp	x23, #2
	b.lo	.LBB315b4148_76
	cmp	x23, #12
	mov	w8, #12
	mov	w9, #16
	csel	x8, x9, x8, hi
	cmp	x23, #8
	mov	w9, #8
	csel	x8, x8, x9, hi
	subs	x8, x19, x8
	csel	x9, xzr, x8, lo
	sub	x8, x19, x9
	add	x9, x20, x9, lsl #2
	cmp	x8, #16
	b.lo	.LBB315b4148_62
	ldp	w10, w11, [x9]
	ldp	w13, w12, [x9, #48]
	ldp	w14, w15, [x9, #8]
	ldp	w17, w16, [x9, #56]
	cmp	w12, w10
	csel	w18, w12, w10, hi
	csel	w12, w12, w10, lo
	cmp	w13, w11
	csel	w10, w13, w11, hi
	csel	w11, w13, w11, lo
	cmp	w16, w14
	csel	w13, w16, w14, hi
	csel	w14, w16, w14, lo
	cmp	w17, w15
	ldp	w0, w2, [x9, #32]
	csel	w1, w17, w15, hi
	csel	w15, w17, w15, lo
	ldp	w16, w17, [x9, #16]
	ldp	w3, w5, [x9, #24]
	cmp	w0, w16
	csel	w4, w0, w16, hi
	csel	w16, w0, w16, lo
	cmp	w3, w17
	ldp	w0, w6, [x9, #40]
	csel	w7, w3, w17, hi
	csel	w17, w3, w17, lo
	cmp	w6, w5
	csel	w3, w6, w5, hi
	csel	w5, w6, w5, lo
	cmp	w0, w2
	csel	w6, w0, w2, hi
	csel	w0, w0, w2, lo
	cmp	w17, w12
	csel	w2, w17, w12, hi
	csel	w12, w17, w12, lo
	cmp	w5, w11
	csel	w17, w5, w11, hi
	csel	w11, w5, w11, lo
	cmp	w0, w14
	csel	w5, w0, w14, hi
	csel	w14, w0, w14, lo
	cmp	w16, w15
	csel	w0, w16, w15, hi
	csel	w15, w16, w15, lo
	cmp	w18, w7
	csel	w16, w18, w7, hi
	csel	w18, w18, w7, lo
	cmp	w1, w4
	csel	w7, w1, w4, hi
	csel	w1, w1, w4, lo
	cmp	w13, w6
	csel	w4, w13, w6, hi
	csel	w13, w13, w6, lo
	cmp	w10, w3
	csel	w6, w10, w3, hi
	csel	w10, w10, w3, lo
	cmp	w11, w12
	csel	w3, w11, w12, hi
	csel	w11, w11, w12, lo
	cmp	w15, w14
	csel	w12, w15, w14, hi
	csel	w14, w15, w14, lo
	cmp	w2, w0
	csel	w15, w2, w0, hi
	csel	w0, w2, w0, lo
	cmp	w1, w18
	csel	w2, w1, w18, hi
	csel	w18, w1, w18, lo
	cmp	w5, w17
	csel	w1, w5, w17, hi
	csel	w17, w5, w17, lo
	cmp	w10, w13
	csel	w5, w10, w13, hi
	csel	w13, w10, w13, lo
	cmp	w16, w6
	csel	w19, w16, w6, hi
	csel	w16, w16, w6, lo
	cmp	w4, w7
	csel	w6, w4, w7, hi
	csel	w4, w4, w7, lo
	cmp	w14, w11
	csel	w7, w14, w11, hi
	csel	w10, w14, w11, lo
	cmp	w12, w3
	csel	w11, w12, w3, hi
	csel	w12, w12, w3, lo
	cmp	w13, w0
	csel	w14, w13, w0, hi
	csel	w13, w13, w0, lo
	cmp	w5, w15
	csel	w0, w5, w15, hi
	csel	w15, w5, w15, lo
	cmp	w17, w18
	csel	w3, w17, w18, hi
	csel	w17, w17, w18, lo
	cmp	w1, w2
	csel	w18, w1, w2, hi
	csel	w1, w1, w2, lo
	cmp	w4, w16
	csel	w2, w4, w16, hi
	csel	w16, w4, w16, lo
	cmp	w6, w19
	csel	w4, w6, w19, hi
	csel	w5, w6, w19, lo
	cmp	w7, w12
	csel	w6, w7, w12, hi
	csel	w12, w7, w12, lo
	cmp	w16, w11
	csel	w7, w16, w11, hi
	csel	w11, w16, w11, lo
	cmp	w17, w13
	csel	w16, w17, w13, hi
	csel	w13, w17, w13, lo
	cmp	w3, w15
	csel	w17, w3, w15, hi
	csel	w15, w3, w15, lo
	cmp	w14, w1
	csel	w3, w14, w1, hi
	csel	w14, w14, w1, lo
	cmp	w0, w18
	csel	w1, w0, w18, hi
	csel	w18, w0, w18, lo
	cmp	w2, w5
	csel	w0, w2, w5, hi
	csel	w2, w2, w5, lo
	cmp	w13, w12
	csel	w5, w13, w12, hi
	csel	w12, w13, w12, lo
	cmp	w16, w6
	csel	w13, w16, w6, hi
	csel	w16, w16, w6, lo
	cmp	w14, w15
	csel	w6, w14, w15, hi
	csel	w14, w14, w15, lo
	cmp	w3, w17
	csel	w15, w3, w17, hi
	csel	w17, w3, w17, lo
	cmp	w2, w18
	csel	w3, w2, w18, hi
	csel	w18, w2, w18, lo
	cmp	w0, w1
	csel	w2, w0, w1, hi
	stp	w10, w12, [x9]
	csel	w10, w0, w1, lo
	cmp	w5, w16
	stp	w2, w4, [x9, #56]
	csel	w12, w5, w16, hi
	csel	w16, w5, w16, lo
	cmp	w13, w11
	csel	w0, w13, w11, hi
	csel	w11, w13, w11, lo
	cmp	w7, w18
	csel	w13, w7, w18, hi
	csel	w18, w7, w18, lo
	cmp	w3, w10
	csel	w1, w3, w10, hi
	csel	w10, w3, w10, lo
	cmp	w14, w11
	csel	w2, w14, w11, hi
	csel	w11, w14, w11, lo
	cmp	w6, w0
	csel	w14, w6, w0, hi
	csel	w0, w6, w0, lo
	cmp	w18, w17
	csel	w3, w18, w17, hi
	csel	w17, w18, w17, lo
	cmp	w13, w15
	csel	w18, w13, w15, hi
	csel	w13, w13, w15, lo
	cmp	w12, w11
	csel	w15, w12, w11, lo
	csel	w11, w12, w11, hi
	cmp	w0, w2
	csel	w12, w0, w2, lo
	stp	w16, w15, [x9, #8]
	stp	w11, w12, [x9, #16]
	csel	w11, w0, w2, hi
	cmp	w14, w17
	csel	w12, w14, w17, hi
	csel	w14, w14, w17, lo
	cmp	w13, w3
	csel	w15, w13, w3, hi
	csel	w13, w13, w3, lo
	cmp	w18, w10
	csel	w16, w18, w10, lo
	csel	w10, w18, w10, hi
	cmp	w14, w11
	stp	w10, w1, [x9, #48]
	csel	w10, w14, w11, lo
	csel	w11, w14, w11, hi
	cmp	w13, w12
	stp	w10, w11, [x9, #24]
	csel	w10, w13, w12, lo
	csel	w11, w13, w12, hi
	stp	w15, w16, [x9, #40]
	stp	w10, w11, [x9, #32]
	b	.LBB315b4148_67
.LBB315b4148_40:
	lsr	x9, x23, #1
	add	x8, x20, x21, lsl #2
	mov	x10, x9
	b	.LBB315b4148_42
.LBB315b4148_41:
	cbz	x10, .LBB315b4148_52
.LBB315b4148_42:
	sub	x10, x10, #1
	mov	x11, x10
	b	.LBB315b4148_45
.LBB315b4148_43:
	str	w14, [x8, x12, lsl #2]
	str	w13, [x8, x11, lsl #2]
.LBB315b4148_44:
	cmp	x11, x9
	b.hs	.LBB315b4148_41
.LBB315b4148_45:
	mov	x12, x11
	mov	w11, #1
	lsl	x13, x12, #1
	bfi	x11, x12, #1, #63
	add	x13, x13, #2
	cmp	x13, x23
	b.eq	.LBB315b4148_47
	ldr	w14, [x8, x11, lsl #2]
	ldr	w15, [x8, x13, lsl #2]
	cmp	w14, w15
	csel	x11, x13, x11, lo
.LBB315b4148_47:
	ldr	w13, [x8, x12, lsl #2]
	ldr	w14, [x8, x11, lsl #2]
	cmp	w13, w14
	b.hs	.LBB315b4148_41
	cmp	x12, x11
	b.lo	.LBB315b4148_43
	cmp	x11, x12
	b.hs	.LBB315b4148_44
	str	w13, [x8, x11, lsl #2]
	str	w14, [x8, x12, lsl #2]
	b	.LBB315b4148_44
.LBB315b4148_51:
	cmp	x23, #1
	b.ls	.LBB315b4148_76
.LBB315b4148_52:
	sub	x23, x23, #1
	ldr	w11, [x8]
	ldr	w10, [x8, x23, lsl #2]
	lsr	x9, x23, #1
	str	w10, [x8]
	str	w11, [x8, x23, lsl #2]
	cbz	x9, .LBB315b4148_51
	mov	x10, xzr
	b	.LBB315b4148_56
.LBB315b4148_54:
	str	w13, [x8, x11, lsl #2]
	str	w12, [x8, x10, lsl #2]
.LBB315b4148_55:
	cmp	x10, x9
	b.hs	.LBB315b4148_51
.LBB315b4148_56:
	mov	x11, x10
	mov	w10, #1
	lsl	x12, x11, #1
	bfi	x10, x11, #1, #63
	add	x12, x12, #2
	cmp	x12, x23
	b.eq	.LBB315b4148_58
	ldr	w13, [x8, x10, lsl #2]
	ldr	w14, [x8, x12, lsl #2]
	cmp	w13, w14
	csel	x10, x12, x10, lo
.LBB315b4148_58:
	ldr	w12, [x8, x11, lsl #2]
	ldr	w13, [x8, x10, lsl #2]
	cmp	w12, w13
	b.hs	.LBB315b4148_51
	cmp	x11, x10
	b.lo	.LBB315b4148_54
	cmp	x10, x11
	b.hs	.LBB315b4148_55
	str	w12, [x8, x10, lsl #2]
	str	w13, [x8, x11, lsl #2]
	b	.LBB315b4148_55
.LBB315b4148_62:
	cmp	x8, #12
	b.lo	.LBB315b4148_64
	ldp	w10, w13, [x9, #32]
	ldp	w11, w12, [x9]
	ldp	w15, w14, [x9, #24]
	cmp	w10, w11
	csel	w16, w10, w11, hi
	csel	w10, w10, w11, lo
	cmp	w14, w12
	ldp	w11, w17, [x9, #8]
	csel	w18, w14, w12, hi
	csel	w12, w14, w12, lo
	ldp	w2, w14, [x9, #40]
	cmp	w15, w11
	csel	w1, w15, w11, hi
	csel	w11, w15, w11, lo
	ldp	w0, w15, [x9, #16]
	cmp	w14, w17
	csel	w3, w14, w17, hi
	csel	w14, w14, w17, lo
	cmp	w2, w0
	csel	w17, w2, w0, hi
	csel	w0, w2, w0, lo
	cmp	w13, w15
	csel	w2, w13, w15, hi
	csel	w13, w13, w15, lo
	cmp	w12, w10
	csel	w15, w12, w10, hi
	csel	w10, w12, w10, lo
	cmp	w13, w11
	csel	w12, w13, w11, hi
	csel	w11, w13, w11, lo
	cmp	w0, w14
	csel	w13, w0, w14, hi
	csel	w14, w0, w14, lo
	cmp	w2, w1
	csel	w0, w2, w1, hi
	csel	w1, w2, w1, lo
	cmp	w16, w18
	csel	w2, w16, w18, hi
	csel	w16, w16, w18, lo
	cmp	w3, w17
	csel	w18, w3, w17, hi
	csel	w17, w3, w17, lo
	cmp	w11, w10
	csel	w3, w11, w10, hi
	csel	w10, w11, w10, lo
	cmp	w1, w15
	csel	w11, w1, w15, hi
	csel	w15, w1, w15, lo
	cmp	w17, w12
	csel	w1, w17, w12, hi
	csel	w12, w17, w12, lo
	cmp	w18, w0
	csel	w17, w18, w0, hi
	csel	w18, w18, w0, lo
	cmp	w14, w10
	csel	w0, w14, w10, hi
	csel	w10, w14, w10, lo
	cmp	w3, w15
	csel	w14, w3, w15, hi
	csel	w15, w3, w15, lo
	cmp	w11, w13
	csel	w3, w11, w13, hi
	csel	w11, w11, w13, lo
	cmp	w16, w12
	csel	w13, w16, w12, hi
	csel	w12, w16, w12, lo
	cmp	w17, w2
	csel	w16, w17, w2, hi
	csel	w17, w17, w2, lo
	cmp	w1, w18
	csel	w2, w1, w18, hi
	csel	w18, w1, w18, lo
	cmp	w11, w15
	csel	w1, w11, w15, hi
	csel	w11, w11, w15, lo
	cmp	w12, w0
	csel	w15, w12, w0, hi
	csel	w12, w12, w0, lo
	cmp	w17, w3
	csel	w0, w17, w3, hi
	csel	w17, w17, w3, lo
	cmp	w2, w13
	csel	w3, w2, w13, hi
	csel	w13, w2, w13, lo
	cmp	w12, w11
	csel	w2, w12, w11, hi
	csel	w11, w12, w11, lo
	cmp	w15, w14
	csel	w12, w15, w14, hi
	csel	w14, w15, w14, lo
	cmp	w18, w17
	csel	w15, w18, w17, hi
	csel	w17, w18, w17, lo
	cmp	w3, w0
	csel	w18, w3, w0, hi
	stp	w10, w11, [x9]
	csel	w10, w3, w0, lo
	cmp	w2, w14
	stp	w18, w16, [x9, #40]
	csel	w11, w2, w14, hi
	csel	w14, w2, w14, lo
	cmp	w12, w1
	csel	w16, w12, w1, hi
	csel	w12, w12, w1, lo
	cmp	w13, w17
	csel	w18, w13, w17, hi
	csel	w13, w13, w17, lo
	cmp	w15, w10
	csel	w17, w15, w10, hi
	csel	w10, w15, w10, lo
	cmp	w13, w12
	csel	w15, w13, w12, hi
	csel	w12, w13, w12, lo
	cmp	w18, w16
	csel	w13, w18, w16, hi
	csel	w16, w18, w16, lo
	cmp	w12, w11
	csel	w18, w12, w11, lo
	csel	w11, w12, w11, hi
	cmp	w15, w16
	csel	w12, w15, w16, lo
	stp	w14, w18, [x9, #8]
	stp	w11, w12, [x9, #16]
	csel	w11, w15, w16, hi
	cmp	w10, w13
	csel	w12, w10, w13, lo
	csel	w10, w10, w13, hi
	stp	w11, w12, [x9, #24]
	stp	w10, w17, [x9, #32]
	b	.LBB315b4148_67
.LBB315b4148_64:
	cmp	x8, #8
	b.lo	.LBB315b4148_66
	ldp	w10, w11, [x9]
	ldp	w12, w13, [x9, #8]
	ldp	w14, w15, [x9, #16]
	ldp	w16, w17, [x9, #24]
	cmp	w12, w10
	csel	w18, w12, w10, hi
	csel	w10, w12, w10, lo
	cmp	w13, w11
	csel	w12, w13, w11, hi
	csel	w11, w13, w11, lo
	cmp	w16, w14
	csel	w13, w16, w14, hi
	csel	w14, w16, w14, lo
	cmp	w17, w15
	csel	w16, w17, w15, hi
	csel	w15, w17, w15, lo
	cmp	w14, w10
	csel	w17, w14, w10, hi
	csel	w10, w14, w10, lo
	cmp	w15, w11
	csel	w14, w15, w11, hi
	csel	w11, w15, w11, lo
	cmp	w13, w18
	csel	w15, w13, w18, hi
	csel	w13, w13, w18, lo
	cmp	w16, w12
	csel	w18, w16, w12, hi
	csel	w12, w16, w12, lo
	cmp	w11, w10
	csel	w16, w11, w10, hi
	csel	w10, w11, w10, lo
	cmp	w12, w13
	csel	w11, w12, w13, hi
	csel	w12, w12, w13, lo
	cmp	w14, w17
	csel	w13, w14, w17, hi
	csel	w14, w14, w17, lo
	cmp	w18, w15
	csel	w17, w18, w15, hi
	csel	w15, w18, w15, lo
	cmp	w14, w12
	csel	w18, w14, w12, hi
	csel	w12, w14, w12, lo
	cmp	w13, w11
	csel	w14, w13, w11, hi
	csel	w11, w13, w11, lo
	cmp	w18, w16
	csel	w13, w18, w16, hi
	csel	w16, w18, w16, lo
	cmp	w15, w11
	csel	w18, w15, w11, hi
	csel	w11, w15, w11, lo
	cmp	w12, w16
	csel	w15, w12, w16, lo
	stp	w10, w15, [x9]
	csel	w10, w12, w16, hi
	cmp	w13, w11
	csel	w12, w13, w11, lo
	stp	w10, w12, [x9, #8]
	csel	w10, w13, w11, hi
	cmp	w18, w14
	csel	w11, w18, w14, lo
	stp	w10, w11, [x9, #16]
	csel	w10, w18, w14, hi
	stp	w10, w17, [x9, #24]
	b	.LBB315b4148_67
.LBB315b4148_66:
	cmp	x8, #2
	b.lo	.LBB315b4148_76
.LBB315b4148_67:
	mov	w10, #1
	mov	x11, x9
	b	.LBB315b4148_71
.LBB315b4148_68:
	lsl	x13, x13, #2
.LBB315b4148_69:
	str	w12, [x9, x13]
.LBB315b4148_70:
	add	x10, x10, #1
	add	x11, x11, #4
	cmp	x10, x8
	b.eq	.LBB315b4148_76
.LBB315b4148_71:
	sub	x13, x10, #1
	ldr	w12, [x9, x10, lsl #2]
	ldr	w14, [x9, x13, lsl #2]
	cmp	w12, w14
	b.hs	.LBB315b4148_70
	str	w14, [x9, x10, lsl #2]
	cbz	x13, .LBB315b4148_69
	mov	x15, x11
	mov	x14, x11
.LBB315b4148_74:
	ldr	w16, [x14, #-4]!
	cmp	w12, w16
	b.hs	.LBB315b4148_68
	sub	x13, x13, #1
	str	w16, [x15]
	mov	x15, x14
	cbnz	x13, .LBB315b4148_74
	b	.LBB315b4148_68
.LBB315b4148_76:
	ldp	x20, x19, [sp, #64]
	ldr	x25, [sp, #16]
	ldp	x22, x21, [sp, #48]
	ldp	x24, x23, [sp, #32]
	ldp	x29, x30, [sp], #80
	ret
.Lfunc_end315b4148:
	.size	core.slice.sort.unstable.quicksort.190f92464ae8a1e1, .Lfunc_end315b4148-core.slice.sort.unstable.quicksort.190f92464ae8a1e1

	.section	.text.core.slice.sort.pivot.median_of_medians.190f92464ae8a1e1,"ax",@progbits
	.p2align	2
	.type	core.slice.sort.pivot.median_of_medians.190f92464ae8a1e1,@function
core.slice.sort.pivot.median_of_medians.190f92464ae8a1e1:
	stp	x29, x30, [sp, #-80]!
	stp	x20, x19, [sp, #64]
	mov	x19, x3
	mov	x20, x2
	cmp	x4, #8
	str	x25, [sp, #16]
	mov	x29, sp
	stp	x24, x23, [sp, #32]
	stp	x22, x21, [sp, #48]
	b.hs	.LBB71ffa8e2_2
	ldr	w8, [x0, x1, lsl #2]
	ldr	w9, [x0, x20, lsl #2]
	ldr	w10, [x0, x19, lsl #2]
	cmp	w8, w9
	cset	w11, lo
	cmp	w8, w10
	cset	w8, lo
	cmp	w9, w10
	cset	w9, lo
	eor	w8, w11, w8
	eor	w9, w11, w9
	cmp	w9, #0
	csel	x9, x19, x20, ne
	cmp	w8, #0
	csel	x0, x1, x9, ne
	ldp	x20, x19, [sp, #64]
	ldr	x25, [sp, #16]
	ldp	x22, x21, [sp, #48]
	ldp	x24, x23, [sp, #32]
	ldp	x29, x30, [sp], #80
	ret
.LBB71ffa8e2_2:
	lsr	x21, x4, #3
	mov	x22, x0
	lsl	x8, x21, #3
	lsl	x24, x21, #2
	mov	x4, x21
	sub	x25, x8, x21
	add	x2, x24, x1
	add	x3, x25, x1
	bl	core.slice.sort.pivot.median_of_medians.190f92464ae8a1e1
	mov	x23, x0
	add	x2, x24, x20
	add	x3, x25, x20
	mov	x0, x22
	mov	x1, x20
	mov	x4, x21
	bl	core.slice.sort.pivot.median_of_medians.190f92464ae8a1e1
	mov	x20, x0
	add	x2, x24, x19
	add	x3, x25, x19
	mov	x0, x22
	mov	x1, x19
	mov	x4, x21
	bl	core.slice.sort.pivot.median_of_medians.190f92464ae8a1e1
	ldr	w8, [x22, x23, lsl #2]
	ldr	w9, [x22, x20, lsl #2]
	ldr	w10, [x22, x0, lsl #2]
	cmp	w8, w9
	cset	w11, lo
	cmp	w8, w10
	cset	w8, lo
	cmp	w9, w10
	cset	w9, lo
	eor	w8, w11, w8
	eor	w9, w11, w9
	cmp	w9, #0
	csel	x9, x0, x20, ne
	cmp	w8, #0
	csel	x0, x23, x9, ne
	ldp	x20, x19, [sp, #64]
	ldr	x25, [sp, #16]
	ldp	x22, x21, [sp, #48]
	ldp	x24, x23, [sp, #32]
	ldp	x29, x30, [sp], #80
	ret
.Lfunc_end71ffa8e2:
	.size	core.slice.sort.pivot.median_of_medians.190f92464ae8a1e1, .Lfunc_end71ffa8e2-core.slice.sort.pivot.median_of_medians.190f92464ae8a1e1

	.section	.text.core.slice.edits.mirror._27_hll_coupons.coupon.Coupon,"ax",@progbits
	.p2align	2
	.type	core.slice.edits.mirror._27_hll_coupons.coupon.Coupon,@function
core.slice.edits.mirror._27_hll_coupons.coupon.Coupon:
	lsl	x8, x2, #2
	add	x9, x1, x8
	add	x8, x0, x8
	cmp	x0, x9
	ccmp	x1, x8, #2, lo
	b.lo	.LBBce6058b4_4
	add	x9, x1, x2, lsl #2
	and	x8, x2, #0x7ffffffffffffffc
	mov	x10, x0
	and	x11, x2, #0x7ffffffffffffffc
	sub	x9, x9, #16
.LBBce6058b4_2:
	ldr	q0, [x9]
	ldr	q1, [x10]
	subs	x11, x11, #4
	rev64	v0.4s, v0.4s
	rev64	v1.4s, v1.4s
	ext	v0.16b, v0.16b, v0.16b, #8
	ext	v1.16b, v1.16b, v1.16b, #8
	str	q0, [x10], #16
	str	q1, [x9], #-16
	b.ne	.LBBce6058b4_2
	cmp	x2, x8
	b.ne	.LBBce6058b4_5
	b	.LBBce6058b4_7
.LBBce6058b4_4:
	mov	x8, xzr
.LBBce6058b4_5:
	add	x9, x0, x8, lsl #2
	sub	x8, x2, x8
	sub	x10, x1, #4
.LBBce6058b4_6:
	ldr	w11, [x10, x8, lsl #2]
	ldr	w12, [x9]
	str	w11, [x9], #4
	str	w12, [x10, x8, lsl #2]
	subs	x8, x8, #1
	b.ne	.LBBce6058b4_6
.LBBce6058b4_7:
	ret
.Lfunc_endce6058b4:
	.size	core.slice.edits.mirror._27_hll_coupons.coupon.Coupon, .Lfunc_endce6058b4-core.slice.edits.mirror._27_hll_coupons.coupon.Coupon

	.section	.text.hll_coupons.filling.put_by_cycles.5da326502419fe7c,"ax",@progbits
	.p2align	2
	.type	hll_coupons.filling.put_by_cycles.5da326502419fe7c,@function
hll_coupons.filling.put_by_cycles.5da326502419fe7c:
	sub	sp, sp, #112
	movi	v0.2d, #0000000000000000
	stp	x29, x30, [sp, #32]
	add	x29, sp, #32
	stp	x24, x23, [sp, #64]
	mov	x23, x0
	add	x8, x29, #24
	stp	x22, x21, [sp, #80]
	mov	x21, x2
	mov	w22, w1
	stp	x20, x19, [sp, #96]
	mov	x20, x3
	str	x25, [sp, #48]
	stp	q0, q0, [sp]
	str	x8, [sp, #8]
	b	.LBBdd72949a_2
.LBBdd72949a_1:
	sub	x20, x20, #1
.LBBdd72949a_2:
	cbz	x20, .LBBdd72949a_12
	ldr	w3, [x21], #4
	cbz	w3, .LBBdd72949a_1
	mov	x1, sp
	mov	x0, x23
	mov	w2, w22
	bl	hll_coupons.filling.put_absent.5da326502419fe7c
	tst	w0, #0xff
	b.eq	.LBBdd72949a_1
	ldp	x20, x23, [sp, #8]
	mov	w19, w1
	ldr	x22, [sp, #24]
	cbz	x23, .LBBdd72949a_22
	add	x24, x20, #40
	b	.LBBdd72949a_8
.LBBdd72949a_7:
	subs	x23, x23, #1
	add	x24, x24, #72
	b.eq	.LBBdd72949a_22
.LBBdd72949a_8:
	ldp	x8, x21, [x24]
	ldr	x25, [x24, #24]
	cbz	x8, .LBBdd72949a_10
	ldur	x0, [x24, #-16]
	bl	rattle_dealloc
.LBBdd72949a_10:
	cbz	x25, .LBBdd72949a_7
	mov	x0, x21
	bl	rattle_dealloc
	b	.LBBdd72949a_7
.LBBdd72949a_12:
	ldp	x19, x21, [sp, #8]
	ldr	x22, [sp, #24]
	cbz	x21, .LBBdd72949a_19
	add	x23, x19, #40
	b	.LBBdd72949a_15
.LBBdd72949a_14:
	subs	x21, x21, #1
	add	x23, x23, #72
	b.eq	.LBBdd72949a_19
.LBBdd72949a_15:
	ldp	x8, x20, [x23]
	ldr	x24, [x23, #24]
	cbz	x8, .LBBdd72949a_17
	ldur	x0, [x23, #-16]
	bl	rattle_dealloc
.LBBdd72949a_17:
	cbz	x24, .LBBdd72949a_14
	mov	x0, x20
	bl	rattle_dealloc
	b	.LBBdd72949a_14
.LBBdd72949a_19:
	cbz	x22, .LBBdd72949a_21
	mov	x0, x19
	bl	rattle_dealloc
.LBBdd72949a_21:
	mov	w0, wzr
	mov	w19, wzr
	b	.LBBdd72949a_25
.LBBdd72949a_22:
	cbz	x22, .LBBdd72949a_24
	mov	x0, x20
	bl	rattle_dealloc
.LBBdd72949a_24:
	mov	w0, #1
.LBBdd72949a_25:
	mov	w1, w19
	ldp	x20, x19, [sp, #96]
	ldp	x22, x21, [sp, #80]
	ldr	x25, [sp, #48]
	ldp	x24, x23, [sp, #64]
	ldp	x29, x30, [sp, #32]
	add	sp, sp, #112
	ret
.Lfunc_enddd72949a:
	.size	hll_coupons.filling.put_by_cycles.5da326502419fe7c, .Lfunc_enddd72949a-hll_coupons.filling.put_by_cycles.5da326502419fe7c

	.section	.text.hll_coupons.filling.put_absent.5da326502419fe7c,"ax",@progbits
	.p2align	2
	.type	hll_coupons.filling.put_absent.5da326502419fe7c,@function
hll_coupons.filling.put_absent.5da326502419fe7c:
	sub	sp, sp, #112
	stp	x28, x27, [sp, #32]
	ldrb	w27, [x0, #16]
	stp	x24, x23, [sp, #64]
	ldr	x23, [x0]
	stp	x22, x21, [sp, #80]
	mov	w21, w3
	mov	w22, w2
	stp	x20, x19, [sp, #96]
	mov	x19, x0
	mov	x20, x1
	stp	x29, x30, [sp, #16]
	add	x29, sp, #16
	stp	x26, x25, [sp, #48]
	cbz	w27, .LBB3172ab3d_2
	ldp	x24, x25, [x19, #24]
	ldr	x1, [x20, #16]
	and	w28, w21, #0x3ffffff
	tst	w22, #0x1
	csel	w26, w28, w21, ne
	stp	xzr, xzr, [sp]
	cbnz	x1, .LBB3172ab3d_3
	b	.LBB3172ab3d_4
.LBB3172ab3d_2:
	add	x24, x19, #20
	mov	w25, #8
	ldr	x1, [x20, #16]
	and	w28, w21, #0x3ffffff
	tst	w22, #0x1
	csel	w26, w28, w21, ne
	stp	xzr, xzr, [sp]
	cbz	x1, .LBB3172ab3d_4
.LBB3172ab3d_3:
	ldr	x0, [x20, #8]
	mov	x2, x23
	mov	w3, w26
	bl	hll_coupons.long_searches.LongSearches.end_by_cycle.f8e44fc08f8602d9
	and	w8, w0, #0xff
	cmp	w8, #1
	b.eq	.LBB3172ab3d_15
.LBB3172ab3d_4:
	cmp	x25, #64
	mov	w8, #64
	csel	x7, x25, x8, lo
	cbz	x25, .LBB3172ab3d_12
	mov	x8, #-1
	lsr	w9, w28, w23
	mov	x10, x7
	lsl	x8, x8, x23
	orr	w9, w9, #0x1
	mvn	x8, x8
	and	x1, x8, x26
	tbz	w22, #0, .LBB3172ab3d_9
.LBB3172ab3d_6:
	ldr	w11, [x24, x1, lsl #2]
	cbz	w11, .LBB3172ab3d_15
	and	w11, w11, #0x3ffffff
	cmp	w11, w26
	b.eq	.LBB3172ab3d_15
	add	x11, x1, x9
	subs	x10, x10, #1
	and	x1, x11, x8
	b.ne	.LBB3172ab3d_6
	b	.LBB3172ab3d_12
.LBB3172ab3d_9:
	ldr	w11, [x24, x1, lsl #2]
	cbz	w11, .LBB3172ab3d_15
	cmp	w11, w26
	b.eq	.LBB3172ab3d_15
	add	x11, x1, x9
	subs	x10, x10, #1
	and	x1, x11, x8
	b.ne	.LBB3172ab3d_9
.LBB3172ab3d_12:
	mov	x0, sp
	mov	x1, x20
	mov	w2, w22
	mov	x3, x23
	mov	x4, x24
	mov	x5, x25
	mov	w6, w26
	bl	hll_coupons.long_searches.LongSearches.end_of_long.5da326502419fe7c
	ldrb	w0, [sp]
	cbz	w0, .LBB3172ab3d_14
	ldrb	w1, [sp, #1]
	b	.LBB3172ab3d_23
.LBB3172ab3d_14:
	ldr	x1, [sp, #8]
	ldrb	w27, [x19, #16]
.LBB3172ab3d_15:
	cbz	w27, .LBB3172ab3d_17
	ldr	x8, [x19, #24]
	str	w21, [x8, x1, lsl #2]
	ldr	x8, [x19, #8]
	add	x8, x8, #1
	str	x8, [x19, #8]
	ldr	x8, [x20, #16]
	cbnz	x8, .LBB3172ab3d_18
	b	.LBB3172ab3d_22
.LBB3172ab3d_17:
	add	x8, x19, x1, lsl #2
	str	w21, [x8, #20]
	ldr	x8, [x19, #8]
	add	x8, x8, #1
	str	x8, [x19, #8]
	ldr	x8, [x20, #16]
	cbz	x8, .LBB3172ab3d_22
.LBB3172ab3d_18:
	ldr	x9, [x20, #8]
	add	x9, x9, #24
	b	.LBB3172ab3d_20
.LBB3172ab3d_19:
	subs	x8, x8, #1
	add	x9, x9, #72
	b.eq	.LBB3172ab3d_22
.LBB3172ab3d_20:
	ldp	x10, x12, [x9, #-8]
	mov	x13, #-1
	ldur	x11, [x9, #-24]
	mul	x10, x10, x1
	lsl	x11, x13, x11
	bic	x10, x10, x11
	lsr	x11, x10, #3
	and	x13, x11, #0xffffffffffffff8
	mov	w11, #1
	ldr	x14, [x12, x13]
	lsl	x15, x11, x10
	ldr	x11, [x9, #24]
	bics	x14, x14, x15
	str	x14, [x12, x13]
	b.ne	.LBB3172ab3d_19
	lsr	x12, x10, #9
	lsr	x10, x10, #6
	mov	w13, #1
	and	x12, x12, #0x3ffffffffffff8
	lsl	x10, x13, x10
	ldr	x14, [x11, x12]
	bic	x10, x14, x10
	str	x10, [x11, x12]
	b	.LBB3172ab3d_19
.LBB3172ab3d_22:
	mov	w0, wzr
	mov	w1, wzr
.LBB3172ab3d_23:
	ldp	x20, x19, [sp, #96]
	ldp	x22, x21, [sp, #80]
	ldp	x24, x23, [sp, #64]
	ldp	x26, x25, [sp, #48]
	ldp	x28, x27, [sp, #32]
	ldp	x29, x30, [sp, #16]
	add	sp, sp, #112
	ret
.Lfunc_end3172ab3d:
	.size	hll_coupons.filling.put_absent.5da326502419fe7c, .Lfunc_end3172ab3d-hll_coupons.filling.put_absent.5da326502419fe7c

	.section	.text.hll_coupons.long_searches.LongSearches.end_by_cycle.f8e44fc08f8602d9,"ax",@progbits
	.p2align	2
	.type	hll_coupons.long_searches.LongSearches.end_by_cycle.f8e44fc08f8602d9,@function
hll_coupons.long_searches.LongSearches.end_by_cycle.f8e44fc08f8602d9:
	cbz	x1, .LBB5c466bb0_4
	and	w8, w3, #0x3ffffff
	add	x12, x0, #32
	lsr	w8, w8, w2
	orr	w8, w8, #0x1
.LBB5c466bb0_2:
	ldur	w9, [x12, #-24]
	cmp	w9, w8
	b.eq	.LBB5c466bb0_5
	subs	x1, x1, #1
	add	x12, x12, #72
	b.ne	.LBB5c466bb0_2
.LBB5c466bb0_4:
	mov	w0, wzr
	ret
.LBB5c466bb0_5:
	ldp	x9, x10, [x12, #-16]
	mov	w11, w3
	mov	x13, #-1
	mul	x11, x9, x11
	ldur	x9, [x12, #-32]
	lsl	x9, x13, x9
	ldr	x13, [x12]
	bic	x14, x11, x9
	ldp	x11, x12, [x12, #16]
	lsr	x15, x14, #6
	cmp	x15, x13
	b.ne	.LBB5c466bb0_9
.LBB5c466bb0_6:
	cbz	x13, .LBB5c466bb0_26
	ldr	x13, [x10]
	cbz	x13, .LBB5c466bb0_14
	rbit	x10, x13
	clz	x10, x10
	mul	x8, x10, x8
	mvn	x9, x9
	mov	w0, #1
	and	x1, x8, x9
	ret
.LBB5c466bb0_9:
	ldr	x16, [x10, x15, lsl #3]
	lsr	x16, x16, x14
	lsl	x16, x16, x14
	cbz	x16, .LBB5c466bb0_11
	rbit	x10, x16
	and	x11, x14, #0x7fffffffffffffc0
	clz	x10, x10
	orr	x10, x10, x11
	mul	x8, x10, x8
	mvn	x9, x9
	mov	w0, #1
	and	x1, x8, x9
	ret
.LBB5c466bb0_11:
	add	x14, x15, #1
	lsr	x15, x14, #6
	cmp	x15, x12
	b.eq	.LBB5c466bb0_6
	ldr	x16, [x11, x15, lsl #3]
	lsr	x16, x16, x14
	lsl	x16, x16, x14
	cbz	x16, .LBB5c466bb0_17
	rbit	x11, x16
	and	x12, x14, #0x3ffffffffffffc0
	clz	x11, x11
	orr	x11, x11, x12
	b	.LBB5c466bb0_25
.LBB5c466bb0_14:
	cbz	x12, .LBB5c466bb0_26
	ldr	x13, [x11], #8
	ands	x13, x13, #0xfffffffffffffffe
	b.eq	.LBB5c466bb0_21
	rbit	x11, x13
	clz	x11, x11
	b	.LBB5c466bb0_25
.LBB5c466bb0_17:
	lsl	x14, x15, #6
	add	x15, x15, #1
.LBB5c466bb0_18:
	cmp	x15, x12
	b.hs	.LBB5c466bb0_6
	ldr	x16, [x11, x15, lsl #3]
	add	x14, x14, #64
	add	x15, x15, #1
	cbz	x16, .LBB5c466bb0_18
	rbit	x11, x16
	clz	x11, x11
	add	x11, x11, x14
	b	.LBB5c466bb0_25
.LBB5c466bb0_21:
	sub	x12, x12, #1
.LBB5c466bb0_22:
	cbz	x12, .LBB5c466bb0_26
	ldr	x14, [x11], #8
	sub	x13, x13, #64
	sub	x12, x12, #1
	cbz	x14, .LBB5c466bb0_22
	rbit	x11, x14
	clz	x11, x11
	sub	x11, x11, x13
.LBB5c466bb0_25:
	ldr	x10, [x10, x11, lsl #3]
	rbit	x10, x10
	clz	x10, x10
	add	x10, x10, x11, lsl #6
	mul	x8, x10, x8
	mvn	x9, x9
	mov	w0, #1
	and	x1, x8, x9
	ret
.LBB5c466bb0_26:
	mov	x1, xzr
	mov	w0, wzr
	ret
.Lfunc_end5c466bb0:
	.size	hll_coupons.long_searches.LongSearches.end_by_cycle.f8e44fc08f8602d9, .Lfunc_end5c466bb0-hll_coupons.long_searches.LongSearches.end_by_cycle.f8e44fc08f8602d9

	.section	.text.hll_coupons.long_searches.LongSearches.end_of_long.5da326502419fe7c,"ax",@progbits
	.p2align	2
	.type	hll_coupons.long_searches.LongSearches.end_of_long.5da326502419fe7c,@function
hll_coupons.long_searches.LongSearches.end_of_long.5da326502419fe7c:
	sub	sp, sp, #144
	stp	x26, x25, [sp, #80]
	mov	w25, w6
	stp	x24, x23, [sp, #96]
	mov	x23, x5
	mov	x24, x4
	stp	x22, x21, [sp, #112]
	mov	x21, x3
	stp	x20, x19, [sp, #128]
	mov	x20, x1
	mov	x19, x0
	add	x0, sp, #16
	mov	w1, w2
	mov	x2, x3
	mov	x3, x4
	mov	x4, x5
	mov	w5, w6
	mov	x6, x7
	stp	x29, x30, [sp, #48]
	add	x29, sp, #48
	stp	x28, x27, [sp, #64]
	stp	xzr, xzr, [sp, #16]
	str	xzr, [sp, #32]
	bl	hll_coupons.search.search_on
	ldrb	w8, [sp, #16]
	cmp	w8, #1
	b.ne	.LBB75ab429f_34
	ldp	x10, x8, [sp, #24]
	ldr	x9, [x20]
	adds	x8, x8, x9
	csinv	x8, x8, xzr, lo
	cmp	x21, #6
	str	x8, [x20]
	b.lo	.LBB75ab429f_27
	mov	w9, #4
	lsl	x9, x9, x21
	cmp	x9, x8
	b.hi	.LBB75ab429f_27
	lsr	x28, x23, #6
	str	x10, [sp, #8]
	str	xzr, [x20]
	cbz	x28, .LBB75ab429f_8
	lsl	x26, x28, #3
	mov	w1, #8
	mov	x0, x26
	bl	rattle_alloc
	tbz	w0, #0, .LBB75ab429f_24
	mov	x22, x1
	subs	x27, x28, #1
	b.eq	.LBB75ab429f_7
	sub	x2, x26, #8
	mov	x0, x22
	mov	w1, wzr
	bl	memset
.LBB75ab429f_7:
	add	x26, x27, #1
	str	xzr, [x22, x27, lsl #3]
	and	w8, w25, #0x3ffffff
	lsr	w8, w8, w21
	orr	w25, w8, #0x1
	cbnz	x23, .LBB75ab429f_9
	b	.LBB75ab429f_13
.LBB75ab429f_8:
	mov	x26, xzr
	sub	x22, x29, #8
	and	w8, w25, #0x3ffffff
	lsr	w8, w8, w21
	orr	w25, w8, #0x1
	cbz	x23, .LBB75ab429f_13
.LBB75ab429f_9:
	mov	x10, #-1
	mov	x9, xzr
	mov	x8, xzr
	lsl	x10, x10, x21
	mvn	x10, x10
	b	.LBB75ab429f_11
.LBB75ab429f_10:
	add	x8, x8, #1
	add	x9, x9, x25
	cmp	x23, x8
	and	x9, x9, x10
	b.eq	.LBB75ab429f_13
.LBB75ab429f_11:
	ldr	w11, [x24, x9, lsl #2]
	cbnz	w11, .LBB75ab429f_10
	lsr	x11, x8, #3
	mov	w12, #1
	lsl	x12, x12, x8
	and	x11, x11, #0x1ffffffffffffff8
	ldr	x13, [x22, x11]
	orr	x12, x13, x12
	str	x12, [x22, x11]
	b	.LBB75ab429f_10
.LBB75ab429f_13:
	lsr	x27, x26, #6
	mov	w1, #8
	add	x24, x27, #1
	lsl	x23, x24, #3
	mov	x0, x23
	bl	rattle_alloc
	tbz	w0, #0, .LBB75ab429f_21
	cbz	x27, .LBB75ab429f_16
	sub	x2, x23, #8
	mov	x0, x1
	mov	x23, x1
	mov	w1, wzr
	bl	memset
	mov	x1, x23
.LBB75ab429f_16:
	str	xzr, [x1, x27, lsl #3]
	cbz	x26, .LBB75ab429f_25
	mov	x8, xzr
	b	.LBB75ab429f_19
.LBB75ab429f_18:
	add	x8, x8, #1
	cmp	x26, x8
	b.eq	.LBB75ab429f_25
.LBB75ab429f_19:
	ldr	x9, [x22, x8, lsl #3]
	cbz	x9, .LBB75ab429f_18
	lsr	x9, x8, #3
	mov	w10, #1
	lsl	x10, x10, x8
	and	x9, x9, #0xffffffffffffff8
	ldr	x11, [x1, x9]
	orr	x10, x11, x10
	str	x10, [x1, x9]
	b	.LBB75ab429f_18
.LBB75ab429f_21:
	cbz	x28, .LBB75ab429f_24
	mov	x0, x22
.LBB75ab429f_23:
	bl	rattle_dealloc
.LBB75ab429f_24:
	mov	w8, #3073
	str	xzr, [x19, #8]
	strh	w8, [x19]
	b	.LBB75ab429f_28
.LBB75ab429f_25:
	ldp	x8, x9, [x20, #16]
	cmp	x9, x8
	b.eq	.LBB75ab429f_29
.LBB75ab429f_26:
	mov	w9, #2
	mov	w12, #72
	sub	w10, w9, w25
	msub	w11, w10, w25, w9
	mul	w10, w11, w10
	msub	w11, w10, w25, w9
	mul	w10, w11, w10
	ldr	x11, [x20, #8]
	madd	x11, x8, x12, x11
	add	x8, x8, #1
	msub	w12, w10, w25, w9
	mul	w10, w12, w10
	str	x21, [x11]
	stp	w25, wzr, [x11, #8]
	stp	x26, x28, [x11, #32]
	msub	w9, w10, w25, w9
	stp	x1, x24, [x11, #48]
	str	x24, [x11, #64]
	mul	w9, w9, w10
	ldr	x10, [sp, #8]
	stp	x9, x22, [x11, #16]
	str	x8, [x20, #16]
.LBB75ab429f_27:
	strh	wzr, [x19]
	str	x10, [x19, #8]
.LBB75ab429f_28:
	ldp	x20, x19, [sp, #128]
	ldp	x22, x21, [sp, #112]
	ldp	x24, x23, [sp, #96]
	ldp	x26, x25, [sp, #80]
	ldp	x28, x27, [sp, #64]
	ldp	x29, x30, [sp, #48]
	add	sp, sp, #144
	ret
.LBB75ab429f_29:
	add	x0, x20, #8
	mov	x23, x1
	bl	std_alloc.vec.Vec.grow_amortized.3490b8d444db1d1f
	cbz	w0, .LBB75ab429f_31
	ldr	x8, [x20, #16]
	mov	x1, x23
	b	.LBB75ab429f_26
.LBB75ab429f_31:
	cbz	x28, .LBB75ab429f_33
	mov	x0, x22
	bl	rattle_dealloc
.LBB75ab429f_33:
	mov	x0, x23
	b	.LBB75ab429f_23
.LBB75ab429f_34:
	brk	#0x1
.Lfunc_end75ab429f:
	.size	hll_coupons.long_searches.LongSearches.end_of_long.5da326502419fe7c, .Lfunc_end75ab429f-hll_coupons.long_searches.LongSearches.end_of_long.5da326502419fe7c

	.section	.text.hll_coupons.search.search_on,"ax",@progbits
	.p2align	2
	.type	hll_coupons.search.search_on,@function
hll_coupons.search.search_on:
	cmp	x6, x4
	b.hs	.LBB9360943f_8
	and	w8, w5, #0x3ffffff
	mov	x9, #-1
	lsr	w8, w8, w2
	lsl	x9, x9, x2
	orr	w10, w8, #0x1
	mvn	x11, x9
	mul	x8, x6, x10
	add	x8, x8, w5, uxtw
	and	x9, x8, x11
	mov	x8, x6
	tbz	w1, #0, .LBB9360943f_5
.LBB9360943f_2:
	ldr	w12, [x3, x9, lsl #2]
	cbz	w12, .LBB9360943f_9
	and	w12, w12, #0x3ffffff
	cmp	w12, w5
	b.eq	.LBB9360943f_9
	add	x8, x8, #1
	add	x9, x9, x10
	cmp	x4, x8
	and	x9, x9, x11
	b.ne	.LBB9360943f_2
	b	.LBB9360943f_8
.LBB9360943f_5:
	ldr	w12, [x3, x9, lsl #2]
	cbz	w12, .LBB9360943f_9
	cmp	w12, w5
	b.eq	.LBB9360943f_9
	add	x8, x8, #1
	add	x9, x9, x10
	cmp	x4, x8
	and	x9, x9, x11
	b.ne	.LBB9360943f_5
.LBB9360943f_8:
	stp	xzr, xzr, [x0]
	str	xzr, [x0, #16]
	ret
.LBB9360943f_9:
	mov	w10, #1
	sub	x8, x8, x6
	stp	x10, x9, [x0]
	str	x8, [x0, #16]
	ret
.Lfunc_end9360943f:
	.size	hll_coupons.search.search_on, .Lfunc_end9360943f-hll_coupons.search.search_on

	.section	.text.unlikely.std_alloc.vec.Vec.grow_amortized.3490b8d444db1d1f,"ax",@progbits
	.p2align	2
	.type	std_alloc.vec.Vec.grow_amortized.3490b8d444db1d1f,@function
std_alloc.vec.Vec.grow_amortized.3490b8d444db1d1f:
	ldr	x8, [x0, #8]
	cmn	x8, #1
	b.eq	.LBBeae636ab_5
	stp	x29, x30, [sp, #-32]!
	ldr	x9, [x0, #16]
	cmp	x8, #3
	mov	w10, #3
	csel	x11, x8, x10, hi
	stp	x20, x19, [sp, #16]
	mov	x29, sp
	lsl	x10, x9, #1
	add	x12, x11, #1
	lsr	x13, x9, #62
	cmp	x12, x10
	csinc	x10, x10, x11, ls
	cmp	x13, #0
	csinc	x19, x10, x11, eq
	mov	x11, #29127
	movk	x11, #50972, lsl #16
	movk	x11, #7281, lsl #32
	movk	x11, #455, lsl #48
	cmp	x19, x11
	b.hi	.LBBeae636ab_7
	cbz	x9, .LBBeae636ab_6
	add	x8, x8, x8, lsl #3
	add	x9, x19, x19, lsl #3
	mov	x20, x0
	ldr	x0, [x0]
	mov	w3, #8
	lsl	x1, x8, #3
	lsl	x2, x9, #3
	bl	rattle_realloc
	tbz	w0, #0, .LBBeae636ab_7
.LBBeae636ab_4:
	mov	w0, #1
	str	x1, [x20]
	str	x19, [x20, #16]
	ldp	x20, x19, [sp, #16]
	ldp	x29, x30, [sp], #32
	ret
.LBBeae636ab_5:
	mov	w0, wzr
	ret
.LBBeae636ab_6:
	add	x8, x10, x10, lsl #3
	mov	x20, x0
	mov	w1, #8
	lsl	x0, x8, #3
	bl	rattle_alloc
	tbnz	w0, #0, .LBBeae636ab_4
.LBBeae636ab_7:
	mov	w0, wzr
	ldp	x20, x19, [sp, #16]
	ldp	x29, x30, [sp], #32
	ret
.Lfunc_endeae636ab:
	.size	std_alloc.vec.Vec.grow_amortized.3490b8d444db1d1f, .Lfunc_endeae636ab-std_alloc.vec.Vec.grow_amortized.3490b8d444db1d1f

	.section	.text.hll_coupons.aux_map_builder.has_mark.5da326502419fe7c,"ax",@progbits
	.p2align	2
	.type	hll_coupons.aux_map_builder.has_mark.5da326502419fe7c,@function
hll_coupons.aux_map_builder.has_mark.5da326502419fe7c:
	stp	x29, x30, [sp, #-80]!
	ldrb	w8, [x1]
	stp	x20, x19, [sp, #64]
	mov	w20, w2
	mov	x19, x1
	str	x25, [sp, #16]
	mov	x29, sp
	cmp	w8, #1
	stp	x24, x23, [sp, #32]
	stp	x22, x21, [sp, #48]
	b.ne	.LBBd841511f_2
	mov	w8, w20
	ldr	x10, [x19, #8]
	mov	w21, wzr
	lsr	x9, x8, #3
	and	x9, x9, #0x7ffff8
	ldr	x9, [x10, x9]
	lsr	x8, x9, x8
	and	w1, w8, #0x1
	b	.LBBd841511f_23
.LBBd841511f_2:
	ldrb	w8, [x0]
	mov	w21, #1
	mov	x22, x0
	mov	w1, #8
	lsl	x8, x21, x8
	lsr	x25, x8, #6
	add	x24, x25, #1
	lsl	x23, x24, #3
	mov	x0, x23
	bl	rattle_alloc
	tbz	w0, #0, .LBBd841511f_7
	cbz	x25, .LBBd841511f_5
	sub	x2, x23, #8
	mov	x0, x1
	mov	x21, x1
	mov	w1, wzr
	bl	memset
	mov	x1, x21
.LBBd841511f_5:
	str	xzr, [x1, x25, lsl #3]
	ldrb	w8, [x22, #24]
	cbz	w8, .LBBd841511f_8
	ldp	x9, x8, [x22, #32]
	cmp	x8, #4
	b.hs	.LBBd841511f_9
	b	.LBBd841511f_15
.LBBd841511f_7:
	mov	w1, #12
	b	.LBBd841511f_23
.LBBd841511f_8:
	add	x9, x22, #28
	mov	w8, #8
	cmp	x8, #4
	b.lo	.LBBd841511f_15
.LBBd841511f_9:
	mov	x10, x9
.LBBd841511f_10:
	ldr	w11, [x10], #16
	cbnz	w11, .LBBd841511f_15
	ldr	w11, [x9, #4]
	cbnz	w11, .LBBd841511f_15
	ldr	w11, [x9, #8]
	cbnz	w11, .LBBd841511f_15
	ldr	w11, [x9, #12]
	cbnz	w11, .LBBd841511f_15
	sub	x8, x8, #4
	mov	x9, x10
	cmp	x8, #3
	b.hi	.LBBd841511f_10
	b	.LBBd841511f_16
.LBBd841511f_15:
	mov	x10, x9
.LBBd841511f_16:
	mov	x9, x10
.LBBd841511f_17:
	cbz	x8, .LBBd841511f_20
	ldr	w10, [x9], #4
	sub	x8, x8, #1
	cbz	w10, .LBBd841511f_17
	lsr	x11, x10, #3
	mov	w12, #1
	lsl	x10, x12, x10
	and	x11, x11, #0x7ffff8
	ldr	x13, [x1, x11]
	orr	x10, x13, x10
	str	x10, [x1, x11]
	cmp	x8, #4
	b.lo	.LBBd841511f_15
	b	.LBBd841511f_9
.LBBd841511f_20:
	mov	w8, w20
	ldrb	w11, [x19]
	mov	w10, #1
	lsr	x9, x8, #3
	ldr	x0, [x19, #8]
	mov	w21, wzr
	cmp	w11, #1
	and	x9, x9, #0x7ffff8
	ldr	x9, [x1, x9]
	stp	x10, x1, [x19]
	lsr	x9, x9, x8
	ldr	x8, [x19, #24]
	stp	x24, x24, [x19, #16]
	and	w1, w9, #0x1
	b.ne	.LBBd841511f_23
	cbz	x8, .LBBd841511f_23
	mov	w19, w1
	bl	rattle_dealloc
	mov	w1, w19
	mov	w21, wzr
.LBBd841511f_23:
	mov	w0, w21
	ldp	x20, x19, [sp, #64]
	ldp	x22, x21, [sp, #48]
	ldr	x25, [sp, #16]
	ldp	x24, x23, [sp, #32]
	ldp	x29, x30, [sp], #80
	ret
.Lfunc_endd841511f:
	.size	hll_coupons.aux_map_builder.has_mark.5da326502419fe7c, .Lfunc_endd841511f-hll_coupons.aux_map_builder.has_mark.5da326502419fe7c

	.section	.text.hll_registers.exception_map.add_exception.5da326502419fe7c,"ax",@progbits
	.p2align	2
	.type	hll_registers.exception_map.add_exception.5da326502419fe7c,@function
hll_registers.exception_map.add_exception.5da326502419fe7c:
	sub	sp, sp, #368
	movi	v0.2d, #0000000000000000
	ldrb	w8, [x0]
	stp	x29, x30, [sp, #272]
	stp	x28, x27, [sp, #288]
	add	x29, sp, #272
	cmp	w8, #1
	stp	x26, x25, [sp, #304]
	stp	x24, x23, [sp, #320]
	stp	x22, x21, [sp, #336]
	stp	x20, x19, [sp, #352]
	stur	xzr, [sp, #126]
	stp	q0, q0, [sp, #32]
	stp	q0, q0, [sp, #64]
	stp	q0, q0, [sp, #96]
	b.ne	.LBB1825867b_2
	add	x0, x0, #8
	mov	w1, w2
	mov	w2, w3
	bl	hll_registers.exception_map.fill_value.5da326502419fe7c
	mov	w19, w1
	b	.LBB1825867b_49
.LBB1825867b_2:
	and	w8, w1, #0xff
	cmp	w8, #7
	b.hs	.LBB1825867b_6
	mov	x25, x1
	mov	w24, w2
	mov	w23, w3
	mov	x21, x0
	mov	w22, #2
.LBB1825867b_4:
	mov	w8, #4
	mov	w1, #4
	lsl	x20, x8, x22
	mov	x0, x20
	bl	rattle_alloc
	tbz	w0, #0, .LBB1825867b_48
	mov	x19, x1
	mov	w27, #1
	sub	x2, x20, #4
	mov	x0, x1
	mov	w1, wzr
	lsl	x26, x27, x22
	bl	memset
	add	x8, x19, x20
	mov	w3, w23
	mov	w2, w24
	mov	x1, x25
	stur	wzr, [x8, #-4]
	b	.LBB1825867b_8
.LBB1825867b_6:
	cmp	w8, #10
	b.hs	.LBB1825867b_25
	mov	x21, x0
	mov	w27, wzr
	mov	x19, xzr
	mov	x26, xzr
	mov	w22, #3
.LBB1825867b_8:
	movi	v0.2d, #0000000000000000
	add	x20, sp, #136
	strb	w1, [sp, #136]
	sub	x8, x29, #8
	add	x0, sp, #136
	mov	w1, w2
	mov	w2, w3
	stur	wzr, [x20, #1]
	str	wzr, [sp, #140]
	stp	x22, xzr, [sp, #144]
	add	x22, sp, #136
	stp	w27, wzr, [sp, #160]
	stp	x19, x26, [sp, #168]
	stp	x26, xzr, [sp, #184]
	stp	xzr, x8, [sp, #200]
	stp	q0, q0, [x20, #80]
	str	q0, [x20, #112]
	bl	hll_registers.exception_map.fill_value.5da326502419fe7c
	tst	w0, #0x1
	and	w8, w0, #0xff
	csel	w19, w1, wzr, ne
	cbz	w8, .LBB1825867b_27
	ldrb	w8, [sp, #160]
	cbz	w8, .LBB1825867b_12
	ldr	x8, [sp, #184]
	cbz	x8, .LBB1825867b_12
	ldr	x0, [sp, #168]
	bl	rattle_dealloc
.LBB1825867b_12:
	ldp	x20, x22, [sp, #208]
	ldr	x23, [sp, #224]
	cbz	x22, .LBB1825867b_19
	add	x24, x20, #40
	b	.LBB1825867b_15
.LBB1825867b_14:
	subs	x22, x22, #1
	add	x24, x24, #72
	b.eq	.LBB1825867b_19
.LBB1825867b_15:
	ldp	x8, x21, [x24]
	ldr	x25, [x24, #24]
	cbz	x8, .LBB1825867b_17
	ldur	x0, [x24, #-16]
	bl	rattle_dealloc
.LBB1825867b_17:
	cbz	x25, .LBB1825867b_14
	mov	x0, x21
	bl	rattle_dealloc
	b	.LBB1825867b_14
.LBB1825867b_19:
	cbz	x23, .LBB1825867b_21
	mov	x0, x20
	bl	rattle_dealloc
.LBB1825867b_21:
	ldrb	w8, [sp, #232]
	cmp	w8, #1
	b.ne	.LBB1825867b_24
	ldr	x8, [sp, #256]
	cbz	x8, .LBB1825867b_24
	ldr	x0, [sp, #240]
	bl	rattle_dealloc
.LBB1825867b_24:
	mov	w0, #1
	b	.LBB1825867b_49
.LBB1825867b_25:
	and	w8, w1, #0xff
	cmp	w8, #12
	b.hs	.LBB1825867b_38
	mov	x25, x1
	mov	w24, w2
	mov	w23, w3
	mov	x21, x0
	mov	w22, #4
	b	.LBB1825867b_4
.LBB1825867b_27:
	ldp	q0, q1, [x20]
	ldur	x8, [x22, #120]
	ldrb	w11, [x21]
	ldr	x0, [x21, #40]
	ldrb	w10, [sp, #232]
	str	x8, [sp, #16]
	mov	w8, #1
	ldr	x9, [x21, #56]
	cmp	w11, #1
	stur	q0, [sp, #38]
	ldr	x24, [x21, #96]
	stur	q1, [sp, #54]
	ldr	x12, [sp, #16]
	ldr	x23, [x21, #128]
	str	x8, [x21]
	ldrb	w8, [x21, #32]
	str	x12, [x21, #128]
	ldp	q0, q1, [x20, #32]
	ldp	x19, x25, [x21, #80]
	stur	q0, [sp, #70]
	stur	q1, [sp, #86]
	ldp	q0, q1, [x20, #64]
	ldr	x20, [x21, #112]
	stur	q0, [sp, #102]
	ldur	q0, [x22, #104]
	ldrb	w22, [x21, #104]
	stur	q1, [sp, #118]
	ldur	q1, [sp, #54]
	str	q0, [sp]
	ldur	q0, [sp, #38]
	stur	q1, [x21, #24]
	ldur	q1, [sp, #86]
	stur	q0, [x21, #8]
	ldur	q0, [sp, #70]
	stur	q1, [x21, #56]
	ldur	q1, [sp, #102]
	stur	q0, [x21, #40]
	ldur	q0, [sp, #118]
	stur	q1, [x21, #72]
	stur	q0, [x21, #88]
	ldr	q0, [sp]
	str	x10, [x21, #104]
	str	q0, [x21, #112]
	b.ne	.LBB1825867b_45
	cbz	w8, .LBB1825867b_31
	cbz	x9, .LBB1825867b_31
	bl	rattle_dealloc
.LBB1825867b_31:
	cbz	x25, .LBB1825867b_40
	add	x26, x19, #40
	b	.LBB1825867b_34
.LBB1825867b_33:
	subs	x25, x25, #1
	add	x26, x26, #72
	b.eq	.LBB1825867b_40
.LBB1825867b_34:
	ldp	x8, x21, [x26]
	ldr	x27, [x26, #24]
	cbz	x8, .LBB1825867b_36
	ldur	x0, [x26, #-16]
	bl	rattle_dealloc
.LBB1825867b_36:
	cbz	x27, .LBB1825867b_33
	mov	x0, x21
	bl	rattle_dealloc
	b	.LBB1825867b_33
.LBB1825867b_38:
	cmp	w8, #14
	b.hs	.LBB1825867b_46
	mov	x25, x1
	mov	w24, w2
	mov	w23, w3
	mov	x21, x0
	mov	w22, #5
	b	.LBB1825867b_4
.LBB1825867b_40:
	cbz	x24, .LBB1825867b_42
	mov	x0, x19
	bl	rattle_dealloc
.LBB1825867b_42:
	cmp	w22, #1
	mov	w19, wzr
	mov	w0, wzr
	b.ne	.LBB1825867b_49
	cbz	x23, .LBB1825867b_49
	mov	x0, x20
	bl	rattle_dealloc
.LBB1825867b_45:
	mov	w19, wzr
	mov	w0, wzr
	b	.LBB1825867b_49
.LBB1825867b_46:
	and	w8, w1, #0xff
	cmp	w8, #68
	b.hi	.LBB1825867b_48
	and	x8, x1, #0xff
	mov	w24, w2
	mov	w23, w3
	mov	x21, x0
	mov	x25, x1
	sub	x22, x8, #8
	b	.LBB1825867b_4
.LBB1825867b_48:
	mov	w19, #12
	mov	w0, #1
.LBB1825867b_49:
	mov	w1, w19
	ldp	x20, x19, [sp, #352]
	ldp	x22, x21, [sp, #336]
	ldp	x24, x23, [sp, #320]
	ldp	x26, x25, [sp, #304]
	ldp	x28, x27, [sp, #288]
	ldp	x29, x30, [sp, #272]
	add	sp, sp, #368
	ret
.Lfunc_end1825867b:
	.size	hll_registers.exception_map.add_exception.5da326502419fe7c, .Lfunc_end1825867b-hll_registers.exception_map.add_exception.5da326502419fe7c

	.section	.text.hll_registers.exception_map.fill_value.5da326502419fe7c,"ax",@progbits
	.p2align	2
	.type	hll_registers.exception_map.fill_value.5da326502419fe7c,@function
hll_registers.exception_map.fill_value.5da326502419fe7c:
	sub	sp, sp, #144
	stp	x20, x19, [sp, #128]
	mov	x19, x0
	mov	w10, #3
	ldp	x9, x8, [x0, #8]!
	mov	w3, w1
	stp	x26, x25, [sp, #80]
	mov	w20, w1
	bfi	w3, w2, #26, #6
	and	w25, w1, #0x3ffffff
	stp	x29, x30, [sp, #64]
	lsl	x8, x8, #2
	lsl	x10, x10, x9
	stp	x24, x23, [sp, #96]
	stp	x22, x21, [sp, #112]
	add	x29, sp, #64
	add	x8, x8, #4
	cmp	x10, x8
	b.hs	.LBBce044a1f_5
	add	x22, x9, #1
	str	xzr, [sp, #56]
	cmp	x22, #3
	b.ne	.LBBce044a1f_9
	mov	x1, xzr
	mov	x8, xzr
	stp	wzr, wzr, [sp, #24]
	ldrb	w9, [x19, #24]
	stp	x22, xzr, [sp, #8]
	stp	xzr, xzr, [sp, #32]
	str	xzr, [sp, #48]
	cbz	w9, .LBBce044a1f_28
.LBBce044a1f_3:
	ldr	x10, [x19, #40]
	cbz	x10, .LBBce044a1f_33
	ldr	x11, [x19, #32]
	b	.LBBce044a1f_29
.LBBce044a1f_5:
	ldr	x8, [x19, #80]
	cbz	x8, .LBBce044a1f_13
.LBBce044a1f_6:
	add	x1, x0, #56
	mov	w2, #1
	bl	hll_coupons.filling.put_absent.5da326502419fe7c
	ands	w8, w0, #0xff
	cset	w0, ne
	cbnz	w8, .LBBce044a1f_93
	ldrb	w8, [x19, #96]
	cmp	w8, #1
	b.ne	.LBBce044a1f_92
.LBBce044a1f_8:
	mov	w8, w20
	ldr	x10, [x19, #104]
	mov	w11, #1
	lsr	x9, x8, #3
	lsl	x8, x11, x8
	mov	w1, wzr
	and	x9, x9, #0x1ffffff8
	ldr	x12, [x10, x9]
	orr	x8, x12, x8
	str	x8, [x10, x9]
	b	.LBBce044a1f_93
.LBBce044a1f_9:
	cmp	x22, #60
	b.hi	.LBBce044a1f_16
	mov	w8, #4
	mov	x24, x0
	mov	w1, #4
	lsl	x21, x8, x22
	mov	w26, w3
	mov	x0, x21
	bl	rattle_alloc
	tbz	w0, #0, .LBBce044a1f_16
	mov	w8, #1
	lsl	x23, x8, x22
	cbz	x22, .LBBce044a1f_26
	sub	x2, x21, #4
	mov	x0, x1
	mov	x21, x1
	mov	w1, wzr
	bl	memset
	mov	x1, x21
	sub	x8, x23, #1
	b	.LBBce044a1f_27
.LBBce044a1f_13:
	ldrb	w8, [x19, #24]
	cbz	w8, .LBBce044a1f_17
	ldr	x11, [x19, #40]
	mov	w10, #64
	cmp	x11, #64
	csel	x10, x11, x10, lo
	cbz	x11, .LBBce044a1f_6
	ldr	x11, [x19, #32]
	b	.LBBce044a1f_18
.LBBce044a1f_16:
	mov	w1, #12
	mov	w0, #1
	b	.LBBce044a1f_93
.LBBce044a1f_17:
	add	x11, x19, #28
	mov	w10, #8
.LBBce044a1f_18:
	mov	x12, #-1
	lsr	w13, w25, w9
	lsl	x12, x12, x9
	orr	w9, w13, #0x1
	and	w13, w20, #0x3ffffff
	mvn	x12, x12
.LBBce044a1f_19:
	and	x13, x13, x12
	ldr	w14, [x11, x13, lsl #2]
	cbz	w14, .LBBce044a1f_22
	and	w14, w14, #0x3ffffff
	cmp	w14, w25
	b.eq	.LBBce044a1f_22
	subs	x10, x10, #1
	add	x13, x13, x9
	b.ne	.LBBce044a1f_19
	b	.LBBce044a1f_6
.LBBce044a1f_22:
	cbz	w8, .LBBce044a1f_24
	ldr	x8, [x19, #32]
	str	w3, [x8, x13, lsl #2]
	b	.LBBce044a1f_25
.LBBce044a1f_24:
	add	x8, x19, x13, lsl #2
	str	w3, [x8, #28]
.LBBce044a1f_25:
	ldr	x8, [x19, #16]
	mov	w0, wzr
	add	x8, x8, #1
	str	x8, [x19, #16]
	ldrb	w8, [x19, #96]
	cmp	w8, #1
	b.eq	.LBBce044a1f_8
	b	.LBBce044a1f_92
.LBBce044a1f_26:
	mov	x8, xzr
.LBBce044a1f_27:
	mov	w3, w26
	mov	x0, x24
	str	wzr, [x1, x8, lsl #2]
	add	x8, x8, #1
	mov	w9, #1
	stp	w9, wzr, [sp, #24]
	ldrb	w9, [x19, #24]
	stp	x22, xzr, [sp, #8]
	stp	x1, x8, [sp, #32]
	str	x23, [sp, #48]
	cbnz	w9, .LBBce044a1f_3
.LBBce044a1f_28:
	add	x11, x19, #28
	mov	w10, #8
.LBBce044a1f_29:
	ldr	x12, [x0]
	mov	x13, #-1
	add	x14, sp, #8
	add	x23, x14, #20
	and	w14, w20, #0x3ffffff
	lsr	w15, w25, w12
	lsl	x13, x13, x12
	orr	w12, w15, #0x1
	mvn	x13, x13
.LBBce044a1f_30:
	and	x24, x14, x13
	ldr	w14, [x11, x24, lsl #2]
	cbz	w14, .LBBce044a1f_34
	and	w14, w14, #0x3ffffff
	cmp	w14, w25
	b.eq	.LBBce044a1f_34
	subs	x10, x10, #1
	add	x14, x24, x12
	b.ne	.LBBce044a1f_30
.LBBce044a1f_33:
	brk	#0x1
.LBBce044a1f_34:
	cbz	w9, .LBBce044a1f_55
	ldr	x9, [x19, #32]
	str	w3, [x9, x24, lsl #2]
	ldr	x9, [x19, #16]
	ldrb	w10, [x19, #24]
	add	x9, x9, #1
	str	x9, [x19, #16]
	cbz	w10, .LBBce044a1f_56
.LBBce044a1f_36:
	ldp	x2, x3, [x19, #32]
	cmp	x22, #3
	b.ne	.LBBce044a1f_57
.LBBce044a1f_37:
	mov	x8, xzr
	mov	x9, x2
	mov	x10, x3
.LBBce044a1f_38:
	cbz	x10, .LBBce044a1f_54
	ldr	w11, [x9], #4
	sub	x10, x10, #1
	cbz	w11, .LBBce044a1f_38
	and	x15, x11, #0x7
	and	w13, w11, #0x3ffffff
	lsl	x12, x15, #2
	ldr	w14, [x23, x12]
	and	w16, w14, #0x3ffffff
	cmp	w14, #0
	ccmp	w16, w13, #4, ne
	b.eq	.LBBce044a1f_43
	lsr	w12, w13, w22
	orr	w14, w12, #0x1
	add	x15, x14, x15
	ubfiz	x12, x15, #2, #3
	ldr	w16, [x23, x12]
	and	w17, w16, #0x3ffffff
	cmp	w16, #0
	ccmp	w17, w13, #4, ne
	b.eq	.LBBce044a1f_43
	add	x15, x15, x14
	ubfiz	x12, x15, #2, #3
	ldr	w16, [x23, x12]
	and	w17, w16, #0x3ffffff
	cmp	w16, #0
	ccmp	w17, w13, #4, ne
	b.ne	.LBBce044a1f_44
.LBBce044a1f_43:
	add	x8, x8, #1
	str	w11, [x23, x12]
	str	x8, [sp, #16]
	b	.LBBce044a1f_38
.LBBce044a1f_44:
	add	x15, x15, x14
	ubfiz	x12, x15, #2, #3
	ldr	w16, [x23, x12]
	cbz	w16, .LBBce044a1f_43
	and	w16, w16, #0x3ffffff
	cmp	w16, w13
	b.eq	.LBBce044a1f_43
	add	x15, x15, x14
	ubfiz	x12, x15, #2, #3
	ldr	w16, [x23, x12]
	cbz	w16, .LBBce044a1f_43
	and	w16, w16, #0x3ffffff
	cmp	w16, w13
	b.eq	.LBBce044a1f_43
	add	x15, x15, x14
	ubfiz	x12, x15, #2, #3
	ldr	w16, [x23, x12]
	cbz	w16, .LBBce044a1f_43
	and	w16, w16, #0x3ffffff
	cmp	w16, w13
	b.eq	.LBBce044a1f_43
	add	x15, x15, x14
	ubfiz	x12, x15, #2, #3
	ldr	w16, [x23, x12]
	cbz	w16, .LBBce044a1f_43
	and	w16, w16, #0x3ffffff
	cmp	w16, w13
	b.eq	.LBBce044a1f_43
	add	w12, w15, w14
	ubfiz	x12, x12, #2, #3
	ldr	w14, [x23, x12]
	cbz	w14, .LBBce044a1f_43
	and	w14, w14, #0x3ffffff
	cmp	w14, w13
	b.eq	.LBBce044a1f_43
	b	.LBBce044a1f_70
.LBBce044a1f_54:
	mov	w9, wzr
	mov	w22, #3
	b	.LBBce044a1f_81
.LBBce044a1f_55:
	add	x9, x19, x24, lsl #2
	str	w3, [x9, #28]
	ldr	x9, [x19, #16]
	ldrb	w10, [x19, #24]
	add	x9, x9, #1
	str	x9, [x19, #16]
	cbnz	w10, .LBBce044a1f_36
.LBBce044a1f_56:
	add	x2, x19, #28
	mov	w3, #8
	cmp	x22, #3
	b.eq	.LBBce044a1f_37
.LBBce044a1f_57:
	cmp	x8, #64
	mov	w9, #64
	csel	x9, x8, x9, lo
	cbz	x8, .LBBce044a1f_67
	mov	x10, #-1
	mov	x8, xzr
	mov	x11, x2
	lsl	x10, x10, x22
	mov	x12, x3
	mvn	x10, x10
.LBBce044a1f_59:
	cbz	x12, .LBBce044a1f_66
	ldr	w13, [x11], #4
	sub	x12, x12, #1
	cbz	w13, .LBBce044a1f_59
	and	x14, x13, #0x3ffffff
	and	x17, x13, #0x3ffffff
	mov	x16, x9
	lsr	w15, w14, w22
	orr	w15, w15, #0x1
.LBBce044a1f_62:
	and	x17, x17, x10
	ldr	w18, [x1, x17, lsl #2]
	cbz	w18, .LBBce044a1f_65
	and	w18, w18, #0x3ffffff
	cmp	w18, w14
	b.eq	.LBBce044a1f_65
	subs	x16, x16, #1
	add	x17, x17, x15
	b.ne	.LBBce044a1f_62
	b	.LBBce044a1f_70
.LBBce044a1f_65:
	add	x8, x8, #1
	str	w13, [x1, x17, lsl #2]
	str	x8, [sp, #16]
	b	.LBBce044a1f_59
.LBBce044a1f_66:
	mov	w9, #1
	b	.LBBce044a1f_81
.LBBce044a1f_67:
	mov	x8, x2
	mov	x9, x3
.LBBce044a1f_68:
	cbz	x9, .LBBce044a1f_79
	ldr	w10, [x8], #4
	sub	x9, x9, #1
	cbz	w10, .LBBce044a1f_68
.LBBce044a1f_70:
	cmp	x22, #3
	b.ne	.LBBce044a1f_72
	movi	v0.2d, #0000000000000000
	stp	q0, q0, [x23]
	b	.LBBce044a1f_76
.LBBce044a1f_72:
	ldr	x8, [sp, #40]
	cbz	x8, .LBBce044a1f_76
	ldr	x21, [sp, #32]
	subs	x22, x8, #1
	b.eq	.LBBce044a1f_75
	lsl	x8, x8, #2
	mov	x0, x21
	mov	w1, wzr
	mov	x25, x2
	mov	x26, x3
	sub	x8, x8, #4
	mov	x2, x8
	bl	memset
	mov	x3, x26
	mov	x2, x25
.LBBce044a1f_75:
	str	wzr, [x21, x22, lsl #2]
.LBBce044a1f_76:
	add	x0, sp, #8
	mov	w1, #1
	str	xzr, [sp, #16]
	bl	hll_coupons.filling.put_by_cycles.5da326502419fe7c
	tst	w0, #0xff
	b.eq	.LBBce044a1f_80
	ldrb	w8, [x19, #24]
	cbz	w8, .LBBce044a1f_95
	ldr	x8, [x19, #32]
	str	wzr, [x8, x24, lsl #2]
	b	.LBBce044a1f_96
.LBBce044a1f_79:
	mov	x8, xzr
	mov	w9, #1
	b	.LBBce044a1f_81
.LBBce044a1f_80:
	ldp	x22, x8, [sp, #8]
	ldrb	w9, [sp, #24]
.LBBce044a1f_81:
	ldp	q0, q1, [x23]
	stp	x22, x8, [x19, #8]
	ldrb	w10, [x19, #24]
	ldr	x0, [x19, #32]
	ldr	x8, [x19, #48]
	str	w9, [x19, #24]
	stur	q0, [x19, #28]
	stur	q1, [x19, #44]
	cbz	w10, .LBBce044a1f_84
	cbz	x8, .LBBce044a1f_84
	bl	rattle_dealloc
.LBBce044a1f_84:
	mov	x8, x19
	ldr	x22, [x8, #80]!
	stur	xzr, [x8, #-16]
	cbz	x22, .LBBce044a1f_94
	ldr	x24, [x19, #72]
	ldr	x23, [x19, #88]
	stp	xzr, xzr, [x8]
	add	x25, x24, #40
	b	.LBBce044a1f_87
.LBBce044a1f_86:
	subs	x22, x22, #1
	add	x25, x25, #72
	b.eq	.LBBce044a1f_91
.LBBce044a1f_87:
	ldp	x8, x21, [x25]
	ldr	x26, [x25, #24]
	cbz	x8, .LBBce044a1f_89
	ldur	x0, [x25, #-16]
	bl	rattle_dealloc
.LBBce044a1f_89:
	cbz	x26, .LBBce044a1f_86
	mov	x0, x21
	bl	rattle_dealloc
	b	.LBBce044a1f_86
.LBBce044a1f_91:
	mov	w0, wzr
	stp	x24, xzr, [x19, #72]
	str	x23, [x19, #88]
	ldrb	w8, [x19, #96]
	cmp	w8, #1
	b.eq	.LBBce044a1f_8
.LBBce044a1f_92:
	mov	w1, wzr
.LBBce044a1f_93:
	ldp	x20, x19, [sp, #128]
	ldp	x22, x21, [sp, #112]
	ldp	x24, x23, [sp, #96]
	ldp	x26, x25, [sp, #80]
	ldp	x29, x30, [sp, #64]
	add	sp, sp, #144
	ret
.LBBce044a1f_94:
	mov	w0, wzr
	ldrb	w8, [x19, #96]
	cmp	w8, #1
	b.eq	.LBBce044a1f_8
	b	.LBBce044a1f_92
.LBBce044a1f_95:
	add	x8, x19, x24, lsl #2
	str	wzr, [x8, #28]
.LBBce044a1f_96:
	ldr	x8, [x19, #16]
	ldrb	w9, [sp, #24]
	sub	x8, x8, #1
	str	x8, [x19, #16]
	cbz	w9, .LBBce044a1f_99
	ldr	x8, [sp, #48]
	cbz	x8, .LBBce044a1f_99
	ldr	x0, [sp, #32]
	mov	w19, w1
	bl	rattle_dealloc
	mov	w1, w19
.LBBce044a1f_99:
	mov	w0, #1
	b	.LBBce044a1f_93
.Lfunc_endce044a1f:
	.size	hll_registers.exception_map.fill_value.5da326502419fe7c, .Lfunc_endce044a1f-hll_registers.exception_map.fill_value.5da326502419fe7c

	.section	.text.hll_registers.exception_map.built.5da326502419fe7c,"ax",@progbits
	.p2align	2
	.type	hll_registers.exception_map.built.5da326502419fe7c,@function
hll_registers.exception_map.built.5da326502419fe7c:
	sub	sp, sp, #208
	mov	x8, x1
	stp	x26, x25, [sp, #144]
	mov	x1, xzr
	stp	x24, x23, [sp, #160]
	ldrb	w24, [x8]
	ldr	x13, [x8, #8]
	stp	x22, x21, [sp, #176]
	ldp	x9, x11, [x8, #40]
	ldp	x22, x25, [x8, #80]
	cmp	x24, #1
	str	d8, [sp, #96]
	ldrb	w12, [x8, #32]
	ldr	x10, [x8, #56]
	stp	x28, x27, [sp, #128]
	ldr	d8, [x8, #64]
	ldr	x28, [x8, #96]
	stp	x20, x19, [sp, #192]
	mov	x19, x0
	ldrb	w20, [x8, #104]
	ldr	x14, [x8, #112]
	ldr	x26, [x8, #128]
	stp	x29, x30, [sp, #112]
	add	x29, sp, #112
	stp	xzr, xzr, [x29, #-48]
	b.ne	.LBB123467f5_15
	str	x9, [sp, #24]
	ldr	q0, [x8, #16]
	ldur	w9, [x8, #33]
	ldr	w8, [x8, #36]
	stp	x14, x13, [sp, #8]
	str	w12, [sp, #36]
	stp	x11, x10, [sp, #40]
	stur	q0, [x29, #-32]
	stur	w9, [x29, #-8]
	stur	w8, [x29, #-5]
	cbz	x25, .LBB123467f5_8
	add	x27, x22, #40
	b	.LBB123467f5_4
.LBB123467f5_3:
	subs	x25, x25, #1
	add	x27, x27, #72
	b.eq	.LBB123467f5_8
.LBB123467f5_4:
	ldp	x8, x23, [x27]
	ldr	x21, [x27, #24]
	cbz	x8, .LBB123467f5_6
	ldur	x0, [x27, #-16]
	bl	rattle_dealloc
.LBB123467f5_6:
	cbz	x21, .LBB123467f5_3
	mov	x0, x23
	bl	rattle_dealloc
	b	.LBB123467f5_3
.LBB123467f5_8:
	cbz	x28, .LBB123467f5_10
	mov	x0, x22
	bl	rattle_dealloc
.LBB123467f5_10:
	cmp	w20, #1
	ldp	x21, x20, [sp, #40]
	b.ne	.LBB123467f5_13
	cbz	x26, .LBB123467f5_13
	ldr	x0, [sp, #8]
	bl	rattle_dealloc
.LBB123467f5_13:
	ldur	q0, [x29, #-32]
	ldur	w8, [x29, #-8]
	mov	w0, #64
	ldur	w9, [x29, #-5]
	mov	w1, #8
	stur	q0, [x29, #-48]
	str	w8, [sp, #56]
	stur	w9, [sp, #59]
	bl	rattle_alloc
	tbz	w0, #0, .LBB123467f5_16
	ldr	x8, [sp, #16]
	ldur	q0, [x29, #-48]
	ldur	w9, [sp, #59]
	str	x20, [x1, #48]
	str	x8, [x1]
	ldr	w8, [sp, #36]
	stur	q0, [x1, #8]
	strb	w8, [x1, #24]
	ldr	w8, [sp, #56]
	str	d8, [x1, #56]
	stur	w8, [x1, #25]
	ldr	x8, [sp, #24]
	str	w9, [x1, #28]
	stp	x8, x21, [x1, #32]
.LBB123467f5_15:
	strh	wzr, [x19]
	stp	x24, x1, [x19, #8]
	b	.LBB123467f5_20
.LBB123467f5_16:
	ldr	w8, [sp, #36]
	cbz	w8, .LBB123467f5_19
	cbz	x20, .LBB123467f5_19
	ldr	x0, [sp, #24]
	bl	rattle_dealloc
.LBB123467f5_19:
	mov	w8, #3073
	stp	xzr, xzr, [x19, #8]
	strh	w8, [x19]
.LBB123467f5_20:
	ldp	x20, x19, [sp, #192]
	ldr	d8, [sp, #96]
	ldp	x22, x21, [sp, #176]
	ldp	x24, x23, [sp, #160]
	ldp	x26, x25, [sp, #144]
	ldp	x28, x27, [sp, #128]
	ldp	x29, x30, [sp, #112]
	add	sp, sp, #208
	ret
.Lfunc_end123467f5:
	.size	hll_registers.exception_map.built.5da326502419fe7c, .Lfunc_end123467f5-hll_registers.exception_map.built.5da326502419fe7c

	.section	.text.hll_kernels.nibbles.some_mark_nibbles_in,"ax",@progbits
	.p2align	2
	.type	hll_kernels.nibbles.some_mark_nibbles_in,@function
hll_kernels.nibbles.some_mark_nibbles_in:
	movi	v0.16b, #15
	ldp	q1, q2, [x0]
	movi	v5.16b, #239
	movi	v6.16b, #1
	and	v3.16b, v1.16b, v0.16b
	and	v4.16b, v2.16b, v0.16b
	cmhi	v1.16b, v1.16b, v5.16b
	cmhi	v2.16b, v2.16b, v5.16b
	cmeq	v3.16b, v3.16b, v0.16b
	cmeq	v4.16b, v4.16b, v0.16b
	and	v3.16b, v3.16b, v6.16b
	and	v4.16b, v4.16b, v6.16b
	ldp	q6, q7, [x0, #32]
	sub	v1.16b, v3.16b, v1.16b
	sub	v2.16b, v4.16b, v2.16b
	and	v3.16b, v6.16b, v0.16b
	and	v4.16b, v7.16b, v0.16b
	cmhi	v6.16b, v6.16b, v5.16b
	cmhi	v5.16b, v7.16b, v5.16b
	cmeq	v3.16b, v3.16b, v0.16b
	cmeq	v0.16b, v4.16b, v0.16b
	sub	v1.16b, v1.16b, v6.16b
	sub	v2.16b, v2.16b, v5.16b
	sub	v1.16b, v1.16b, v3.16b
	sub	v0.16b, v2.16b, v0.16b
	add	v0.16b, v0.16b, v1.16b
	addv	b0, v0.16b
	fmov	w0, s0
	ret
.Lfunc_end80771e73:
	.size	hll_kernels.nibbles.some_mark_nibbles_in, .Lfunc_end80771e73-hll_kernels.nibbles.some_mark_nibbles_in

	.section	.rodata.cst16,"aM",@progbits,16
	.p2align	4, 0x0
.LCPI03e20629_0:
	.byte	1
	.byte	2
	.byte	4
	.byte	8
	.byte	16
	.byte	32
	.byte	64
	.byte	128
	.byte	1
	.byte	2
	.byte	4
	.byte	8
	.byte	16
	.byte	32
	.byte	64
	.byte	128
	.section	.text.hll_registers.exception_map.max_with_registers.f8e44fc08f8602d9,"ax",@progbits
	.p2align	2
	.type	hll_registers.exception_map.max_with_registers.f8e44fc08f8602d9,@function
hll_registers.exception_map.max_with_registers.f8e44fc08f8602d9:
	str	x21, [sp, #-32]!
	lsr	w12, w2, #1
	lsr	x15, x1, #1
	lsr	x10, x1, #6
	ubfx	x13, x1, #1, #5
	stp	x20, x19, [sp, #16]
	add	x11, x3, x12
	and	x14, x15, #0x7fffffffffffffe0
	add	x8, x11, x14
	cbz	x10, .LBB03e20629_3
	dup	v0.16b, w5
	add	x16, x12, x3
	add	x9, x0, #32
	add	x16, x16, #16
	mov	x17, x10
.LBB03e20629_2:
	movi	v1.16b, #15
	ldur	q2, [x16, #-16]
	mov	v4.16b, v0.16b
	subs	x17, x17, #1
	usra	v4.16b, v2.16b, #4
	and	v3.16b, v2.16b, v1.16b
	add	v2.16b, v3.16b, v0.16b
	zip1	v3.16b, v2.16b, v4.16b
	zip2	v2.16b, v2.16b, v4.16b
	ldp	q4, q5, [x9, #-32]
	umax	v3.16b, v4.16b, v3.16b
	umax	v2.16b, v5.16b, v2.16b
	stp	q3, q2, [x9, #-32]
	mov	v3.16b, v0.16b
	ldr	q2, [x16], #32
	and	v1.16b, v2.16b, v1.16b
	usra	v3.16b, v2.16b, #4
	add	v1.16b, v1.16b, v0.16b
	zip1	v2.16b, v1.16b, v3.16b
	zip2	v1.16b, v1.16b, v3.16b
	ldp	q3, q4, [x9]
	umax	v2.16b, v3.16b, v2.16b
	umax	v1.16b, v4.16b, v1.16b
	stp	q2, q1, [x9], #64
	b.ne	.LBB03e20629_2
.LBB03e20629_3:
	and	x9, x1, #0xffffffffffffffc0
	cbz	x13, .LBB03e20629_10
	cmp	x13, #8
	b.lo	.LBB03e20629_7
	add	x17, x3, x14
	add	x18, x12, x13
	add	x16, x0, x9
	add	x17, x17, x18
	cmp	x16, x17
	b.hs	.LBB03e20629_47
	add	x17, x0, x9
	add	x17, x17, x13, lsl #1
	cmp	x8, x17
	b.hs	.LBB03e20629_47
.LBB03e20629_7:
	mov	x15, xzr
.LBB03e20629_8:
	add	x16, x9, x15, lsl #1
	add	x12, x15, x12
	add	x14, x12, x14
	sub	x12, x13, x15
	add	x16, x16, x0
	add	x13, x3, x14
	add	x14, x16, #1
.LBB03e20629_9:
	ldrb	w15, [x13]
	ldurb	w16, [x14, #-1]
	and	w15, w15, #0xf
	add	w15, w15, w5
	and	w15, w15, #0xff
	cmp	w15, w16
	csel	w15, w15, w16, hi
	ldrb	w16, [x14]
	sturb	w15, [x14, #-1]
	ldrb	w15, [x13], #1
	add	w15, w5, w15, lsr #4
	and	w15, w15, #0xff
	cmp	w15, w16
	csel	w15, w15, w16, hi
	subs	x12, x12, #1
	strb	w15, [x14], #2
	b.ne	.LBB03e20629_9
.LBB03e20629_10:
	ldrb	w12, [x4]
	cmp	w12, #1
	b.ne	.LBB03e20629_60
	ldr	x12, [x4, #8]
	lsr	x14, x1, #3
	mov	w15, #4
	ldr	x13, [x12, #8]
	cmp	x14, #128
	lsl	x13, x15, x13
	mov	w15, #128
	csel	x14, x14, x15, hi
	cmp	x13, x14
	b.ls	.LBB03e20629_29
	cbz	x10, .LBB03e20629_27
	mov	x14, xzr
.LBB03e20629_14:
	add	x15, x11, x14, lsl #5
	movi	v0.16b, #15
	movi	v3.16b, #239
	adrp	x13, .LCPI03e20629_0
	ldp	q1, q2, [x15]
	and	v4.16b, v1.16b, v0.16b
	and	v5.16b, v2.16b, v0.16b
	cmhi	v1.16b, v1.16b, v3.16b
	cmhi	v2.16b, v2.16b, v3.16b
	cmeq	v4.16b, v4.16b, v0.16b
	cmeq	v0.16b, v5.16b, v0.16b
	orr	v0.16b, v2.16b, v0.16b
	orr	v1.16b, v1.16b, v4.16b
	ldr	q2, [x13, :lo12:.LCPI03e20629_0]
	and	v1.16b, v1.16b, v2.16b
	and	v0.16b, v0.16b, v2.16b
	addp	v0.16b, v1.16b, v0.16b
	addp	v0.16b, v0.16b, v0.16b
	addp	v0.16b, v0.16b, v0.16b
	fmov	w13, s0
	cbz	w13, .LBB03e20629_26
	lsl	x16, x14, #6
	mov	w17, #63
	bfi	x17, x14, #6, #58
	mov	x18, x16
	b	.LBB03e20629_18
.LBB03e20629_16:
	lsr	w13, w20, #26
	ldrb	w3, [x0, x18]
	cmp	w13, w3
	csel	w13, w13, w3, hi
	strb	w13, [x0, x18]
.LBB03e20629_17:
	cmp	x18, x17
	add	x18, x18, #1
	b.eq	.LBB03e20629_26
.LBB03e20629_18:
	sub	x13, x18, x16
	tst	x18, #0x1
	lsr	x13, x13, #1
	ldrb	w13, [x15, x13]
	lsr	w3, w13, #4
	and	w13, w13, #0xf
	csel	w13, w13, w3, eq
	cmp	w13, #15
	b.ne	.LBB03e20629_17
	ldrb	w13, [x12, #24]
	cbz	w13, .LBB03e20629_21
	ldp	x3, x4, [x12, #32]
	mov	w5, #256
	cmp	x4, #256
	csel	x4, x4, x5, lo
	cbnz	x4, .LBB03e20629_22
	b	.LBB03e20629_30
.LBB03e20629_21:
	mov	w4, #8
	add	x3, x12, #28
	cbz	x4, .LBB03e20629_30
.LBB03e20629_22:
	add	w5, w2, w18
	ldr	x6, [x12, #8]
	mov	x19, #-1
	and	w7, w5, #0x3ffffff
	lsr	w7, w7, w6
	lsl	x19, x19, x6
	orr	w6, w7, #0x1
	mvn	x7, x19
	add	w19, w2, w18
.LBB03e20629_23:
	and	x19, x19, x7
	ldr	w20, [x3, x19, lsl #2]
	cbz	w20, .LBB03e20629_16
	and	w21, w20, #0x3ffffff
	cmp	w21, w5
	b.eq	.LBB03e20629_16
	subs	x4, x4, #1
	add	x19, x19, x6
	b.ne	.LBB03e20629_23
	b	.LBB03e20629_30
.LBB03e20629_26:
	add	x14, x14, #1
	cmp	x14, x10
	b.ne	.LBB03e20629_14
.LBB03e20629_27:
	tst	x1, #0x3e
	b.eq	.LBB03e20629_60
	and	x10, x1, #0xfffffffffffffffe
	and	x11, x1, #0xffffffffffffffc0
	b	.LBB03e20629_52
.LBB03e20629_29:
	ldrb	w13, [x12, #24]
.LBB03e20629_30:
	cbz	w13, .LBB03e20629_32
	ldp	x9, x8, [x12, #32]
	b	.LBB03e20629_33
.LBB03e20629_32:
	add	x9, x12, #28
	mov	w8, #8
.LBB03e20629_33:
	cmp	x8, #4
	b.hs	.LBB03e20629_41
.LBB03e20629_34:
	mov	x10, x9
.LBB03e20629_35:
	mov	x9, x10
.LBB03e20629_36:
	cbz	x8, .LBB03e20629_60
	ldr	w10, [x9], #4
	sub	x8, x8, #1
	cbz	w10, .LBB03e20629_36
	and	x11, x10, #0x3ffffff
	cmp	w11, w2
	b.lo	.LBB03e20629_33
	sub	x11, x11, w2, uxtw
	cmp	x1, x11
	b.ls	.LBB03e20629_33
	lsr	w10, w10, #26
	ldrb	w12, [x0, x11]
	cmp	w10, w12
	csel	w10, w10, w12, hi
	strb	w10, [x0, x11]
	b	.LBB03e20629_33
.LBB03e20629_41:
	mov	x10, x9
.LBB03e20629_42:
	ldr	w11, [x10], #16
	cbnz	w11, .LBB03e20629_34
	ldr	w11, [x9, #4]
	cbnz	w11, .LBB03e20629_34
	ldr	w11, [x9, #8]
	cbnz	w11, .LBB03e20629_34
	ldr	w11, [x9, #12]
	cbnz	w11, .LBB03e20629_34
	sub	x8, x8, #4
	mov	x9, x10
	cmp	x8, #3
	b.hi	.LBB03e20629_42
	b	.LBB03e20629_35
.LBB03e20629_47:
	dup	v0.8b, w5
	and	x15, x15, #0x18
	add	x17, x11, x14
	mov	x18, x15
.LBB03e20629_48:
	movi	v1.8b, #15
	ldr	d2, [x17], #8
	fmov	d5, d0
	ld2	{ v3.8b, v4.8b }, [x16]
	subs	x18, x18, #8
	and	v1.8b, v2.8b, v1.8b
	usra	v5.8b, v2.8b, #4
	add	v1.8b, v1.8b, v0.8b
	umax	v1.8b, v1.8b, v3.8b
	umax	v2.8b, v5.8b, v4.8b
	st2	{ v1.8b, v2.8b }, [x16], #16
	b.ne	.LBB03e20629_48
	cmp	x13, x15
	b.eq	.LBB03e20629_10
	b	.LBB03e20629_8
.LBB03e20629_50:
	lsr	w13, w4, #26
	ldrb	w14, [x0, x11]
	cmp	w13, w14
	csel	w13, w13, w14, hi
	strb	w13, [x0, x11]
.LBB03e20629_51:
	add	x11, x11, #1
	cmp	x11, x10
	b.eq	.LBB03e20629_60
.LBB03e20629_52:
	sub	x13, x11, x9
	tst	x11, #0x1
	lsr	x13, x13, #1
	ldrb	w13, [x8, x13]
	lsr	w14, w13, #4
	and	w13, w13, #0xf
	csel	w13, w13, w14, eq
	cmp	w13, #15
	b.ne	.LBB03e20629_51
	ldrb	w13, [x12, #24]
	cbz	w13, .LBB03e20629_55
	ldp	x14, x15, [x12, #32]
	mov	w16, #256
	cmp	x15, #256
	csel	x15, x15, x16, lo
	cbnz	x15, .LBB03e20629_56
	b	.LBB03e20629_30
.LBB03e20629_55:
	mov	w15, #8
	add	x14, x12, #28
	cbz	x15, .LBB03e20629_30
.LBB03e20629_56:
	add	w16, w2, w11
	ldr	x17, [x12, #8]
	mov	x3, #-1
	and	w18, w16, #0x3ffffff
	lsr	w18, w18, w17
	lsl	x3, x3, x17
	orr	w17, w18, #0x1
	mvn	x18, x3
	add	w3, w2, w11
.LBB03e20629_57:
	and	x3, x3, x18
	ldr	w4, [x14, x3, lsl #2]
	cbz	w4, .LBB03e20629_50
	and	w5, w4, #0x3ffffff
	cmp	w5, w16
	b.eq	.LBB03e20629_50
	subs	x15, x15, #1
	add	x3, x3, x17
	b.ne	.LBB03e20629_57
	b	.LBB03e20629_30
.LBB03e20629_60:
	ldp	x20, x19, [sp, #16]
	ldr	x21, [sp], #32
	ret
.Lfunc_end03e20629:
	.size	hll_registers.exception_map.max_with_registers.f8e44fc08f8602d9, .Lfunc_end03e20629-hll_registers.exception_map.max_with_registers.f8e44fc08f8602d9

	.section	.rodata.cst16,"aM",@progbits,16
	.p2align	4, 0x0
.LCPI4829529f_0:
	.byte	1
	.byte	2
	.byte	4
	.byte	8
	.byte	16
	.byte	32
	.byte	64
	.byte	128
	.byte	1
	.byte	2
	.byte	4
	.byte	8
	.byte	16
	.byte	32
	.byte	64
	.byte	128
.LCPI4829529f_1:
	.byte	128
	.byte	64
	.byte	32
	.byte	16
	.byte	8
	.byte	4
	.byte	2
	.byte	1
	.byte	0
	.byte	0
	.byte	0
	.byte	0
	.byte	0
	.byte	0
	.byte	0
	.byte	0
.LCPI4829529f_2:
	.byte	0
	.byte	0
	.byte	0
	.byte	0
	.byte	0
	.byte	0
	.byte	0
	.byte	0
	.byte	128
	.byte	64
	.byte	32
	.byte	16
	.byte	8
	.byte	4
	.byte	2
	.byte	1
	.section	.text.hll_kernels.kernels.weight_sums,"ax",@progbits
	.p2align	2
	.type	hll_kernels.kernels.weight_sums,@function
hll_kernels.kernels.weight_sums:
	sub	sp, sp, #208
	stp	x24, x23, [sp, #160]
	lsr	x24, x1, #6
	and	x23, x1, #0x3f
	stp	x20, x19, [sp, #192]
	mov	x20, x1
	mov	x19, x0
	stp	x29, x30, [sp, #128]
	add	x29, sp, #128
	str	x25, [sp, #144]
	stp	x22, x21, [sp, #176]
	cbz	x24, .LBB4829529f_8
	movi	v21.2d, #0000000000000000
	movi	v23.2d, #0000000000000000
	mov	x21, xzr
	movi	v24.2d, #0000000000000000
	movi	v22.2d, #0000000000000000
	mov	x22, xzr
	add	x25, x19, #32
.LBB4829529f_2:
	ldp	q3, q2, [x25, #-32]
	movi	v6.16b, #16
	ldp	q1, q0, [x25]
	adrp	x8, .LCPI4829529f_0
	umax	v4.16b, v2.16b, v0.16b
	umax	v5.16b, v3.16b, v1.16b
	umax	v4.16b, v5.16b, v4.16b
	ldr	q5, [x8, :lo12:.LCPI4829529f_0]
	cmhs	v4.16b, v4.16b, v6.16b
	and	v4.16b, v4.16b, v5.16b
	addp	v4.16b, v4.16b, v4.16b
	addp	v4.16b, v4.16b, v4.16b
	addp	v4.16b, v4.16b, v4.16b
	umov	w8, v4.h[0]
	cbnz	w8, .LBB4829529f_4
	adrp	x8, .LCPI4829529f_1
	ldr	q4, [x8, :lo12:.LCPI4829529f_1]
	adrp	x8, .LCPI4829529f_2
	ldr	q5, [x8, :lo12:.LCPI4829529f_2]
	tbl	v6.16b, { v4.16b }, v3.16b
	tbl	v7.16b, { v4.16b }, v2.16b
	tbl	v16.16b, { v4.16b }, v1.16b
	tbl	v3.16b, { v5.16b }, v3.16b
	tbl	v2.16b, { v5.16b }, v2.16b
	tbl	v4.16b, { v4.16b }, v0.16b
	tbl	v1.16b, { v5.16b }, v1.16b
	tbl	v0.16b, { v5.16b }, v0.16b
	ushll	v17.8h, v6.8b, #0
	ushll	v18.8h, v7.8b, #0
	ushll2	v7.8h, v7.16b, #0
	ushll2	v6.8h, v6.16b, #0
	ushll	v19.8h, v3.8b, #0
	ushll2	v3.8h, v3.16b, #0
	ushll	v20.8h, v2.8b, #0
	ushll2	v2.8h, v2.16b, #0
	addp	v7.8h, v18.8h, v7.8h
	addp	v5.8h, v17.8h, v6.8h
	addp	v3.8h, v19.8h, v3.8h
	ushll	v6.8h, v16.8b, #0
	addp	v2.8h, v20.8h, v2.8h
	ushll2	v16.8h, v16.16b, #0
	uadalp	v24.4s, v7.8h
	ushll	v7.8h, v4.8b, #0
	ushll2	v4.8h, v4.16b, #0
	uadalp	v23.4s, v5.8h
	ushll	v5.8h, v1.8b, #0
	ushll2	v1.8h, v1.16b, #0
	uadalp	v21.4s, v2.8h
	ushll	v2.8h, v0.8b, #0
	ushll2	v0.8h, v0.16b, #0
	uadalp	v22.4s, v3.8h
	addp	v3.8h, v7.8h, v4.8h
	addp	v4.8h, v6.8h, v16.8h
	addp	v1.8h, v5.8h, v1.8h
	addp	v0.8h, v2.8h, v0.8h
	uadalp	v24.4s, v3.8h
	uadalp	v23.4s, v4.8h
	uadalp	v21.4s, v0.8h
	uadalp	v22.4s, v1.8h
	subs	x24, x24, #1
	add	x25, x25, #64
	b.ne	.LBB4829529f_2
	b	.LBB4829529f_5
.LBB4829529f_4:
	add	x0, sp, #64
	stp	q24, q23, [sp]
	stp	q22, q21, [sp, #32]
	stp	q3, q2, [sp, #64]
	stp	q1, q0, [sp, #96]
	bl	hll_kernels.kernels.block_sums_above_least
	ldp	q24, q23, [sp]
	add	x22, x0, x22
	ldp	q22, q21, [sp, #32]
	add	x21, x1, x21
	subs	x24, x24, #1
	add	x25, x25, #64
	b.ne	.LBB4829529f_2
.LBB4829529f_5:
	add	v0.4s, v23.4s, v24.4s
	add	v1.4s, v22.4s, v21.4s
	addv	s0, v0.4s
	addv	s1, v1.4s
	fmov	w8, s0
	fmov	w9, s1
	ubfiz	x8, x8, #24, #32
	ubfiz	x9, x9, #16, #32
	cbz	x23, .LBB4829529f_9
.LBB4829529f_6:
	cmp	x23, #8
	and	x10, x20, #0xffffffffffffffc0
	b.hs	.LBB4829529f_10
	mov	x12, xzr
	mov	x11, xzr
	mov	x13, xzr
	b	.LBB4829529f_13
.LBB4829529f_8:
	mov	x22, xzr
	mov	x21, xzr
	mov	x9, xzr
	mov	x8, xzr
	cbnz	x23, .LBB4829529f_6
.LBB4829529f_9:
	mov	x13, xzr
	mov	x12, xzr
	b	.LBB4829529f_15
.LBB4829529f_10:
	movi	v0.2d, #0000000000000000
	movi	v2.2d, #0000000000000000
	and	x11, x20, #0x38
	movi	v3.2d, #0000000000000000
	movi	v6.2d, #0000000000000000
	add	x12, x19, x10
	movi	v7.2d, #0000000000000000
	movi	v1.2d, #0000000000000000
	mov	x13, x11
	movi	v4.2d, #0000000000000000
	movi	v5.2d, #0000000000000000
.LBB4829529f_11:
	movi	v16.8b, #32
	movi	v17.8b, #31
	mov	w14, #1
	movi	v19.8b, #63
	ldr	d18, [x12], #8
	dup	v21.2d, x14
	subs	x13, x13, #8
	cmhi	v16.8b, v16.8b, v18.8b
	sub	v17.8b, v17.8b, v18.8b
	sub	v18.8b, v19.8b, v18.8b
	ushll	v17.8h, v17.8b, #0
	sshll	v16.8h, v16.8b, #0
	ushll	v18.8h, v18.8b, #0
	ushll2	v20.4s, v17.8h, #0
	ushll	v17.4s, v17.4h, #0
	sshll2	v19.4s, v16.8h, #0
	ushll2	v22.4s, v18.8h, #0
	ushll	v18.4s, v18.4h, #0
	sshll	v16.4s, v16.4h, #0
	ushll	v25.2d, v20.2s, #0
	ushll2	v20.2d, v20.4s, #0
	ushll	v26.2d, v17.2s, #0
	ushll2	v17.2d, v17.4s, #0
	ushll2	v27.2d, v22.4s, #0
	ushll	v28.2d, v18.2s, #0
	ushll2	v18.2d, v18.4s, #0
	ushll	v22.2d, v22.2s, #0
	sshll2	v23.2d, v19.4s, #0
	sshll	v19.2d, v19.2s, #0
	sshll2	v24.2d, v16.4s, #0
	sshll	v16.2d, v16.2s, #0
	ushl	v20.2d, v21.2d, v20.2d
	ushl	v25.2d, v21.2d, v25.2d
	ushl	v17.2d, v21.2d, v17.2d
	ushl	v26.2d, v21.2d, v26.2d
	ushl	v27.2d, v21.2d, v27.2d
	ushl	v22.2d, v21.2d, v22.2d
	ushl	v18.2d, v21.2d, v18.2d
	ushl	v21.2d, v21.2d, v28.2d
	and	v25.16b, v19.16b, v25.16b
	and	v20.16b, v23.16b, v20.16b
	and	v17.16b, v24.16b, v17.16b
	bic	v23.16b, v27.16b, v23.16b
	and	v26.16b, v16.16b, v26.16b
	bic	v19.16b, v22.16b, v19.16b
	bic	v16.16b, v21.16b, v16.16b
	bic	v18.16b, v18.16b, v24.16b
	add	v7.2d, v20.2d, v7.2d
	add	v6.2d, v25.2d, v6.2d
	add	v3.2d, v17.2d, v3.2d
	add	v2.2d, v26.2d, v2.2d
	add	v5.2d, v23.2d, v5.2d
	add	v4.2d, v19.2d, v4.2d
	add	v0.2d, v18.2d, v0.2d
	add	v1.2d, v16.2d, v1.2d
	b.ne	.LBB4829529f_11
	add	v2.2d, v2.2d, v6.2d
	add	v3.2d, v3.2d, v7.2d
	cmp	x23, x11
	add	v1.2d, v1.2d, v4.2d
	add	v0.2d, v0.2d, v5.2d
	add	v2.2d, v2.2d, v3.2d
	add	v0.2d, v1.2d, v0.2d
	addp	d1, v2.2d
	addp	d0, v0.2d
	fmov	x12, d1
	fmov	x13, d0
	b.eq	.LBB4829529f_15
.LBB4829529f_13:
	add	x14, x19, x11
	sub	x11, x23, x11
	add	x10, x14, x10
.LBB4829529f_14:
	ldrb	w14, [x10], #1
	mov	w15, #31
	mov	w16, #63
	mov	w17, #1
	sub	x15, x15, x14
	sub	w16, w16, w14
	cmp	w14, #32
	lsl	x15, x17, x15
	lsl	x16, x17, x16
	csel	x14, xzr, x16, lo
	csel	x15, x15, xzr, lo
	subs	x11, x11, #1
	add	x12, x15, x12
	add	x13, x14, x13
	b.ne	.LBB4829529f_14
.LBB4829529f_15:
	add	x9, x9, x22
	add	x1, x13, x21
	ldr	x25, [sp, #144]
	ldp	x20, x19, [sp, #192]
	add	x8, x9, x8
	ldp	x22, x21, [sp, #176]
	add	x0, x8, x12
	ldp	x24, x23, [sp, #160]
	ldp	x29, x30, [sp, #128]
	add	sp, sp, #208
	ret
.Lfunc_end4829529f:
	.size	hll_kernels.kernels.weight_sums, .Lfunc_end4829529f-hll_kernels.kernels.weight_sums

	.section	.rodata.cst16,"aM",@progbits,16
	.p2align	4, 0x0
.LCPI1cf9f437_0:
	.byte	1
	.byte	2
	.byte	4
	.byte	8
	.byte	16
	.byte	32
	.byte	64
	.byte	128
	.byte	1
	.byte	2
	.byte	4
	.byte	8
	.byte	16
	.byte	32
	.byte	64
	.byte	128
.LCPI1cf9f437_1:
	.byte	128
	.byte	64
	.byte	32
	.byte	16
	.byte	8
	.byte	4
	.byte	2
	.byte	1
	.byte	0
	.byte	0
	.byte	0
	.byte	0
	.byte	0
	.byte	0
	.byte	0
	.byte	0
.LCPI1cf9f437_2:
	.byte	0
	.byte	0
	.byte	0
	.byte	0
	.byte	0
	.byte	0
	.byte	0
	.byte	0
	.byte	128
	.byte	64
	.byte	32
	.byte	16
	.byte	8
	.byte	4
	.byte	2
	.byte	1
	.section	.text.unlikely.hll_kernels.kernels.block_sums_above_least,"ax",@progbits
	.p2align	2
	.type	hll_kernels.kernels.block_sums_above_least,@function
hll_kernels.kernels.block_sums_above_least:
	ldp	q0, q3, [x0]
	mov	w8, #16
	ldp	q1, q4, [x0, #32]
	movi	v6.16b, #16
	umin	v2.16b, v3.16b, v4.16b
	umin	v5.16b, v0.16b, v1.16b
	umin	v2.16b, v5.16b, v2.16b
	ext	v5.16b, v2.16b, v2.16b, #8
	umin	v2.16b, v2.16b, v5.16b
	ext	v5.16b, v2.16b, v2.16b, #4
	umin	v2.16b, v2.16b, v5.16b
	ext	v5.16b, v2.16b, v2.16b, #2
	umin	v2.16b, v2.16b, v5.16b
	ext	v5.16b, v2.16b, v2.16b, #1
	umin	v2.16b, v2.16b, v5.16b
	umov	w9, v2.b[0]
	umov	w10, v2.b[0]
	tst	w9, #0xf0
	csel	w9, w10, w8, eq
	adrp	x10, .LCPI1cf9f437_0
	dup	v5.16b, w9
	sub	v1.16b, v1.16b, v5.16b
	sub	v2.16b, v0.16b, v5.16b
	sub	v0.16b, v4.16b, v5.16b
	sub	v3.16b, v3.16b, v5.16b
	umax	v5.16b, v2.16b, v1.16b
	umax	v4.16b, v3.16b, v0.16b
	umax	v4.16b, v5.16b, v4.16b
	ldr	q5, [x10, :lo12:.LCPI1cf9f437_0]
	cmhs	v4.16b, v4.16b, v6.16b
	and	v4.16b, v4.16b, v5.16b
	addp	v4.16b, v4.16b, v4.16b
	addp	v4.16b, v4.16b, v4.16b
	addp	v4.16b, v4.16b, v4.16b
	umov	w10, v4.h[0]
	cbz	w10, .LBB1cf9f437_2
	stp	x29, x30, [sp, #-16]!
	mov	x29, sp
	bl	hll_kernels.kernels.block_sums_by_windows
	ldp	x29, x30, [sp], #16
	ret
.LBB1cf9f437_2:
	adrp	x10, .LCPI1cf9f437_1
	sub	w8, w8, w9
	mov	x1, xzr
	ldr	q4, [x10, :lo12:.LCPI1cf9f437_1]
	adrp	x10, .LCPI1cf9f437_2
	ldr	q6, [x10, :lo12:.LCPI1cf9f437_2]
	tbl	v5.16b, { v4.16b }, v3.16b
	tbl	v7.16b, { v4.16b }, v2.16b
	tbl	v16.16b, { v4.16b }, v0.16b
	tbl	v4.16b, { v4.16b }, v1.16b
	tbl	v2.16b, { v6.16b }, v2.16b
	tbl	v3.16b, { v6.16b }, v3.16b
	tbl	v1.16b, { v6.16b }, v1.16b
	tbl	v0.16b, { v6.16b }, v0.16b
	ushll	v17.8h, v5.8b, #0
	ushll2	v5.8h, v5.16b, #0
	ushll	v18.8h, v7.8b, #0
	ushll	v19.8h, v16.8b, #0
	ushll2	v16.8h, v16.16b, #0
	ushll2	v7.8h, v7.16b, #0
	ushll	v20.8h, v4.8b, #0
	ushll2	v4.8h, v4.16b, #0
	ushll	v6.8h, v2.8b, #0
	addp	v5.8h, v17.8h, v5.8h
	ushll2	v2.8h, v2.16b, #0
	ushll	v17.8h, v3.8b, #0
	addp	v16.8h, v19.8h, v16.8h
	addp	v7.8h, v18.8h, v7.8h
	ushll2	v3.8h, v3.16b, #0
	addp	v4.8h, v20.8h, v4.8h
	ushll	v18.8h, v1.8b, #0
	ushll	v19.8h, v0.8b, #0
	uaddlp	v5.4s, v5.8h
	ushll2	v0.8h, v0.16b, #0
	ushll2	v1.8h, v1.16b, #0
	uaddlp	v16.4s, v16.8h
	uaddlp	v7.4s, v7.8h
	addp	v3.8h, v17.8h, v3.8h
	uaddlp	v4.4s, v4.8h
	addp	v2.8h, v6.8h, v2.8h
	shl	v5.4s, v5.4s, #8
	addp	v0.8h, v19.8h, v0.8h
	addp	v1.8h, v18.8h, v1.8h
	shl	v6.4s, v16.4s, #8
	shl	v7.4s, v7.4s, #8
	shl	v4.4s, v4.4s, #8
	uadalp	v5.4s, v3.8h
	uadalp	v6.4s, v0.8h
	uadalp	v7.4s, v2.8h
	uadalp	v4.4s, v1.8h
	add	v1.4s, v5.4s, v6.4s
	add	v0.4s, v7.4s, v4.4s
	add	v0.4s, v0.4s, v1.4s
	addv	s0, v0.4s
	fmov	w10, s0
	lsl	x0, x10, x8
	ret
.Lfunc_end1cf9f437:
	.size	hll_kernels.kernels.block_sums_above_least, .Lfunc_end1cf9f437-hll_kernels.kernels.block_sums_above_least

	.section	.text.hll_kernels.kernels.block_sums_by_windows,"ax",@progbits
	.p2align	2
	.type	hll_kernels.kernels.block_sums_by_windows,@function
hll_kernels.kernels.block_sums_by_windows:
	stp	x29, x30, [sp, #-32]!
	mov	w1, wzr
	stp	x20, x19, [sp, #16]
	mov	x29, sp
	mov	x19, x0
	bl	hll_kernels.kernels.half_sum
	mov	x20, x0
	mov	x0, x19
	mov	w1, #32
	bl	hll_kernels.kernels.half_sum
	mov	x1, x0
	mov	x0, x20
	ldp	x20, x19, [sp, #16]
	ldp	x29, x30, [sp], #32
	ret
.Lfunc_endd6316534:
	.size	hll_kernels.kernels.block_sums_by_windows, .Lfunc_endd6316534-hll_kernels.kernels.block_sums_by_windows

	.section	.rodata.cst16,"aM",@progbits,16
	.p2align	4, 0x0
.LCPI98e77331_0:
	.byte	128
	.byte	64
	.byte	32
	.byte	16
	.byte	8
	.byte	4
	.byte	2
	.byte	1
	.byte	0
	.byte	0
	.byte	0
	.byte	0
	.byte	0
	.byte	0
	.byte	0
	.byte	0
.LCPI98e77331_1:
	.byte	0
	.byte	0
	.byte	0
	.byte	0
	.byte	0
	.byte	0
	.byte	0
	.byte	0
	.byte	128
	.byte	64
	.byte	32
	.byte	16
	.byte	8
	.byte	4
	.byte	2
	.byte	1
	.section	.text.hll_kernels.kernels.half_sum,"ax",@progbits
	.p2align	2
	.type	hll_kernels.kernels.half_sum,@function
hll_kernels.kernels.half_sum:
	dup	v0.16b, w1
	ldp	q3, q1, [x0]
	movi	v2.16b, #112
	ldp	q7, q16, [x0, #32]
	add	w8, w1, #16
	movi	v5.16b, #143
	sub	v4.16b, v3.16b, v0.16b
	sub	v6.16b, v1.16b, v0.16b
	dup	v20.16b, w8
	sub	v17.16b, v7.16b, v0.16b
	sub	v19.16b, v16.16b, v0.16b
	adrp	x8, .LCPI98e77331_0
	add	v18.16b, v4.16b, v2.16b
	add	v0.16b, v6.16b, v2.16b
	sub	v7.16b, v7.16b, v20.16b
	add	v21.16b, v17.16b, v2.16b
	sub	v16.16b, v16.16b, v20.16b
	sub	v3.16b, v3.16b, v20.16b
	orr	v4.16b, v18.16b, v4.16b
	add	v18.16b, v19.16b, v2.16b
	orr	v6.16b, v0.16b, v6.16b
	orr	v17.16b, v21.16b, v17.16b
	ldr	q0, [x8, :lo12:.LCPI98e77331_0]
	add	v22.16b, v7.16b, v2.16b
	adrp	x8, .LCPI98e77331_1
	and	v4.16b, v4.16b, v5.16b
	orr	v18.16b, v18.16b, v19.16b
	sub	v19.16b, v1.16b, v20.16b
	add	v20.16b, v16.16b, v2.16b
	and	v17.16b, v17.16b, v5.16b
	and	v6.16b, v6.16b, v5.16b
	orr	v7.16b, v22.16b, v7.16b
	ldr	q1, [x8, :lo12:.LCPI98e77331_1]
	tbl	v21.16b, { v0.16b }, v4.16b
	and	v18.16b, v18.16b, v5.16b
	add	v24.16b, v19.16b, v2.16b
	orr	v16.16b, v20.16b, v16.16b
	tbl	v20.16b, { v0.16b }, v17.16b
	tbl	v23.16b, { v0.16b }, v6.16b
	add	v2.16b, v3.16b, v2.16b
	tbl	v6.16b, { v1.16b }, v6.16b
	tbl	v17.16b, { v1.16b }, v17.16b
	tbl	v22.16b, { v0.16b }, v18.16b
	orr	v19.16b, v24.16b, v19.16b
	tbl	v24.16b, { v1.16b }, v4.16b
	ushll	v25.8h, v21.8b, #0
	ushll2	v21.8h, v21.16b, #0
	tbl	v18.16b, { v1.16b }, v18.16b
	orr	v27.16b, v2.16b, v3.16b
	and	v3.16b, v7.16b, v5.16b
	ushll	v28.8h, v20.8b, #0
	ushll2	v20.8h, v20.16b, #0
	ushll	v26.8h, v23.8b, #0
	ushll2	v23.8h, v23.16b, #0
	addp	v7.8h, v25.8h, v21.8h
	ushll	v21.8h, v22.8b, #0
	ushll2	v22.8h, v22.16b, #0
	and	v4.16b, v19.16b, v5.16b
	and	v2.16b, v16.16b, v5.16b
	ushll2	v25.8h, v17.16b, #0
	addp	v19.8h, v28.8h, v20.8h
	addp	v16.8h, v26.8h, v23.8h
	ushll	v23.8h, v6.8b, #0
	addp	v20.8h, v21.8h, v22.8h
	ushll	v21.8h, v24.8b, #0
	ushll2	v22.8h, v24.16b, #0
	ushll2	v6.8h, v6.16b, #0
	ushll	v24.8h, v17.8b, #0
	and	v5.16b, v27.16b, v5.16b
	tbl	v27.16b, { v0.16b }, v4.16b
	uaddlp	v19.4s, v19.8h
	uaddlp	v7.4s, v7.8h
	addp	v21.8h, v21.8h, v22.8h
	tbl	v22.16b, { v0.16b }, v3.16b
	uaddlp	v20.4s, v20.8h
	addp	v17.8h, v23.8h, v6.8h
	addp	v23.8h, v24.8h, v25.8h
	ushll	v24.8h, v18.8b, #0
	ushll2	v18.8h, v18.16b, #0
	tbl	v26.16b, { v0.16b }, v5.16b
	tbl	v0.16b, { v0.16b }, v2.16b
	shl	v6.4s, v19.4s, #8
	tbl	v5.16b, { v1.16b }, v5.16b
	tbl	v3.16b, { v1.16b }, v3.16b
	tbl	v4.16b, { v1.16b }, v4.16b
	tbl	v1.16b, { v1.16b }, v2.16b
	uaddlp	v16.4s, v16.8h
	addp	v18.8h, v24.8h, v18.8h
	ushll	v24.8h, v22.8b, #0
	ushll2	v22.8h, v22.16b, #0
	ushll	v19.8h, v26.8b, #0
	ushll2	v25.8h, v26.16b, #0
	ushll	v26.8h, v27.8b, #0
	ushll2	v27.8h, v27.16b, #0
	shl	v7.4s, v7.4s, #8
	shl	v20.4s, v20.4s, #8
	addp	v22.8h, v24.8h, v22.8h
	ushll	v24.8h, v0.8b, #0
	ushll2	v0.8h, v0.16b, #0
	addp	v19.8h, v19.8h, v25.8h
	shl	v16.4s, v16.4s, #8
	uadalp	v6.4s, v23.8h
	addp	v23.8h, v26.8h, v27.8h
	addp	v0.8h, v24.8h, v0.8h
	ushll	v24.8h, v1.8b, #0
	ushll2	v1.8h, v1.16b, #0
	uadalp	v7.4s, v21.8h
	ushll	v21.8h, v5.8b, #0
	ushll2	v5.8h, v5.16b, #0
	uaddlp	v2.4s, v23.8h
	ushll	v23.8h, v4.8b, #0
	ushll2	v4.8h, v4.16b, #0
	uaddlp	v0.4s, v0.8h
	addp	v1.8h, v24.8h, v1.8h
	addp	v5.8h, v21.8h, v5.8h
	addp	v4.8h, v23.8h, v4.8h
	shl	v2.4s, v2.4s, #8
	shl	v0.4s, v0.4s, #8
	uadalp	v20.4s, v18.8h
	uaddlp	v18.4s, v19.8h
	uaddlp	v19.4s, v22.8h
	ushll	v22.8h, v3.8b, #0
	ushll2	v3.8h, v3.16b, #0
	uadalp	v16.4s, v17.8h
	shl	v17.4s, v19.4s, #8
	shl	v18.4s, v18.4s, #8
	addp	v3.8h, v22.8h, v3.8h
	uadalp	v0.4s, v1.8h
	uadalp	v18.4s, v5.8h
	uadalp	v17.4s, v3.8h
	add	v3.4s, v7.4s, v6.4s
	uadalp	v2.4s, v4.8h
	add	v1.4s, v16.4s, v20.4s
	add	v1.4s, v3.4s, v1.4s
	add	v0.4s, v2.4s, v0.4s
	add	v2.4s, v18.4s, v17.4s
	addv	s1, v1.4s
	add	v0.4s, v2.4s, v0.4s
	fmov	w8, s1
	addv	s0, v0.4s
	fmov	w9, s0
	add	x0, x9, x8, lsl #16
	ret
.Lfunc_end98e77331:
	.size	hll_kernels.kernels.half_sum, .Lfunc_end98e77331-hll_kernels.kernels.half_sum

	.section	.text.hll_coupons.container.Container.image.5da326502419fe7c,"ax",@progbits
	.p2align	2
	.type	hll_coupons.container.Container.image.5da326502419fe7c,@function
hll_coupons.container.Container.image.5da326502419fe7c:
	sub	sp, sp, #208
	movi	v0.2d, #0000000000000000
	stp	x20, x19, [sp, #192]
	mov	x19, x0
	add	x0, sp, #32
	stp	x29, x30, [sp, #128]
	add	x29, sp, #128
	stp	x26, x25, [sp, #144]
	stp	x24, x23, [sp, #160]
	stp	x22, x21, [sp, #176]
	mov	x21, x3
	mov	x22, x2
	stp	xzr, xzr, [sp, #8]
	str	xzr, [sp]
	stp	q0, q0, [sp, #32]
	stur	xzr, [sp, #22]
	bl	hll_coupons.container.Container.ascending.93a4c1920d65b3d5
	ldrb	w8, [sp, #32]
	cbz	w8, .LBB14f62aad_2
	ldrb	w8, [sp, #33]
	mov	w9, #1
	str	xzr, [x19, #24]
	strb	w9, [x19]
	strb	w8, [x19, #1]
	b	.LBB14f62aad_8
.LBB14f62aad_2:
	ldp	x20, x25, [sp, #40]
	ldr	x24, [sp, #56]
	adds	x23, x21, x25, lsl #2
	b.eq	.LBB14f62aad_9
	tbnz	x23, #63, .LBB14f62aad_5
	mov	x0, x23
	mov	w1, #1
	bl	rattle_alloc
	tbnz	w0, #0, .LBB14f62aad_10
.LBB14f62aad_5:
	cbz	x24, .LBB14f62aad_7
	mov	x0, x20
	bl	rattle_dealloc
.LBB14f62aad_7:
	mov	w8, #3073
	str	xzr, [x19, #24]
	strh	w8, [x19]
.LBB14f62aad_8:
	stp	xzr, xzr, [x19, #8]
	b	.LBB14f62aad_25
.LBB14f62aad_9:
	sub	x1, x29, #1
.LBB14f62aad_10:
	mov	x8, xzr
	cmp	x21, x23
	stp	x1, xzr, [x29, #-56]
	stur	x23, [x29, #-40]
	b.hi	.LBB14f62aad_14
	add	x0, x1, x8
	add	x26, x8, x21
	sub	x9, x0, x22
	cmp	x9, x21
	b.hs	.LBB14f62aad_16
.LBB14f62aad_12:
	ldrb	w8, [x22], #1
	subs	x21, x21, #1
	strb	w8, [x0], #1
	b.ne	.LBB14f62aad_12
	stp	x26, x23, [x29, #-48]
	ldur	q0, [x29, #-56]
	stur	x23, [x29, #-16]
	stur	q0, [x29, #-32]
	cbnz	x25, .LBB14f62aad_17
	b	.LBB14f62aad_22
.LBB14f62aad_14:
	sub	x0, x29, #56
	mov	x1, x21
	bl	std_alloc.vec.Vec.grow_amortized.d7da23479759cf44
	cbz	w0, .LBB14f62aad_28
	ldp	x8, x23, [x29, #-48]
	ldur	x1, [x29, #-56]
	add	x0, x1, x8
	add	x26, x8, x21
	sub	x9, x0, x22
	cmp	x9, x21
	b.lo	.LBB14f62aad_12
.LBB14f62aad_16:
	mov	x1, x22
	mov	x2, x21
	bl	memmove
	stp	x26, x23, [x29, #-48]
	ldur	q0, [x29, #-56]
	stur	x23, [x29, #-16]
	stur	q0, [x29, #-32]
	cbz	x25, .LBB14f62aad_22
.LBB14f62aad_17:
	ldp	x9, x8, [x29, #-24]
	mov	x21, xzr
	b	.LBB14f62aad_19
.LBB14f62aad_18:
	ldur	x10, [x29, #-32]
	add	x21, x21, #1
	cmp	x25, x21
	str	w22, [x10, x9]
	add	x9, x9, #4
	stp	x9, x8, [x29, #-24]
	b.eq	.LBB14f62aad_22
.LBB14f62aad_19:
	sub	x10, x8, x9
	ldr	w22, [x20, x21, lsl #2]
	cmp	x10, #3
	b.hi	.LBB14f62aad_18
	sub	x0, x29, #32
	mov	w1, #4
	bl	std_alloc.vec.Vec.grow_amortized.d7da23479759cf44
	cbz	w0, .LBB14f62aad_26
	ldp	x9, x8, [x29, #-24]
	b	.LBB14f62aad_18
.LBB14f62aad_22:
	ldur	q0, [x29, #-32]
	ldur	x8, [x29, #-16]
	mov	x9, sp
	orr	x21, x9, #0x6
	stur	q0, [sp, #6]
	stur	x8, [sp, #22]
	cbz	x24, .LBB14f62aad_24
	mov	x0, x20
	bl	rattle_dealloc
.LBB14f62aad_24:
	ldr	q0, [x21]
	ldr	x8, [x21, #16]
	strh	wzr, [x19]
	stur	q0, [x19, #8]
	str	x8, [x19, #24]
.LBB14f62aad_25:
	ldp	x20, x19, [sp, #192]
	ldp	x22, x21, [sp, #176]
	ldp	x24, x23, [sp, #160]
	ldp	x26, x25, [sp, #144]
	ldp	x29, x30, [sp, #128]
	add	sp, sp, #208
	ret
.LBB14f62aad_26:
	ldur	x8, [x29, #-16]
	cbz	x8, .LBB14f62aad_5
	ldur	x0, [x29, #-32]
	bl	rattle_dealloc
	b	.LBB14f62aad_5
.LBB14f62aad_28:
	ldur	x8, [x29, #-40]
	cbz	x8, .LBB14f62aad_5
	ldur	x0, [x29, #-56]
	bl	rattle_dealloc
	b	.LBB14f62aad_5
.Lfunc_end14f62aad:
	.size	hll_coupons.container.Container.image.5da326502419fe7c, .Lfunc_end14f62aad-hll_coupons.container.Container.image.5da326502419fe7c

	.section	.text.hll_coupons.container.Container.ascending.93a4c1920d65b3d5,"ax",@progbits
	.p2align	2
	.type	hll_coupons.container.Container.ascending.93a4c1920d65b3d5,@function
hll_coupons.container.Container.ascending.93a4c1920d65b3d5:
	sub	sp, sp, #96
	stp	x22, x21, [sp, #64]
	ldr	x21, [x1, #8]
	stp	x20, x19, [sp, #80]
	mov	x20, x1
	mov	x19, x0
	stp	x29, x30, [sp, #32]
	add	x29, sp, #32
	str	x23, [sp, #48]
	cbz	x21, .LBB8aca3819_4
	lsr	x8, x21, #61
	cbnz	x8, .LBB8aca3819_3
	lsl	x0, x21, #2
	mov	w1, #4
	bl	rattle_alloc
	tbnz	w0, #0, .LBB8aca3819_5
.LBB8aca3819_3:
	mov	w8, #3073
	stp	xzr, xzr, [x19, #16]
	strh	w8, [x19]
	str	xzr, [x19, #8]
	ldp	x20, x19, [sp, #80]
	ldr	x23, [sp, #48]
	ldp	x22, x21, [sp, #64]
	ldp	x29, x30, [sp, #32]
	add	sp, sp, #96
	ret
.LBB8aca3819_4:
	add	x1, x29, #28
.LBB8aca3819_5:
	ldrb	w8, [x20, #16]
	stp	x1, xzr, [sp, #8]
	str	x21, [sp, #24]
	cbz	w8, .LBB8aca3819_7
	ldp	x21, x22, [x20, #24]
	b	.LBB8aca3819_8
.LBB8aca3819_7:
	add	x21, x20, #20
	mov	w22, #8
.LBB8aca3819_8:
	mov	x20, xzr
.LBB8aca3819_9:
	cbz	x22, .LBB8aca3819_15
	ldr	w23, [x21], #4
	sub	x22, x22, #1
	cbz	w23, .LBB8aca3819_9
	ldr	x8, [sp, #24]
	cmp	x8, x20
	b.eq	.LBB8aca3819_13
.LBB8aca3819_12:
	str	w23, [x1, x20, lsl #2]
	add	x20, x20, #1
	str	x20, [sp, #16]
	b	.LBB8aca3819_9
.LBB8aca3819_13:
	add	x0, sp, #8
	mov	w1, #1
	bl	std_alloc.vec.Vec.grow_amortized.11231e1ee52b7a7f
	cbz	w0, .LBB8aca3819_16
	ldp	x1, x20, [sp, #8]
	b	.LBB8aca3819_12
.LBB8aca3819_15:
	ldr	x21, [sp, #8]
	ldr	x22, [sp, #24]
	mov	x1, x20
	mov	x0, x21
	bl	std_alloc.vec.Vec.sort_unstable.b520de54a9121e34
	strh	wzr, [x19]
	stp	x21, x20, [x19, #8]
	str	x22, [x19, #24]
	ldp	x20, x19, [sp, #80]
	ldr	x23, [sp, #48]
	ldp	x22, x21, [sp, #64]
	ldp	x29, x30, [sp, #32]
	add	sp, sp, #96
	ret
.LBB8aca3819_16:
	ldr	x8, [sp, #24]
	cbz	x8, .LBB8aca3819_3
	ldr	x0, [sp, #8]
	bl	rattle_dealloc
	b	.LBB8aca3819_3
.Lfunc_end8aca3819:
	.size	hll_coupons.container.Container.ascending.93a4c1920d65b3d5, .Lfunc_end8aca3819-hll_coupons.container.Container.ascending.93a4c1920d65b3d5

	.section	.text.hll_registers.preamble.Preamble.start_image.f8e44fc08f8602d9,"ax",@progbits
	.p2align	2
	.type	hll_registers.preamble.Preamble.start_image.f8e44fc08f8602d9,@function
hll_registers.preamble.Preamble.start_image.f8e44fc08f8602d9:
	sub	sp, sp, #160
	stp	x26, x25, [sp, #96]
	ldp	x25, x26, [x1, #16]
	stp	x24, x23, [sp, #112]
	ldr	x23, [x1, #32]
	stp	x22, x21, [sp, #128]
	mov	w21, w2
	ldp	x22, x24, [x1]
	stp	x20, x19, [sp, #144]
	mov	x20, x3
	mov	x19, x0
	stp	x29, x30, [sp, #80]
	add	x29, sp, #80
	cbz	x3, .LBBfcd79e1b_4
	tbnz	x20, #63, .LBBfcd79e1b_3
	mov	x0, x20
	mov	w1, #1
	bl	rattle_alloc
	tbnz	w0, #0, .LBBfcd79e1b_5
.LBBfcd79e1b_3:
	mov	w8, #3073
	stp	xzr, xzr, [x19, #16]
	strh	w8, [x19]
	str	xzr, [x19, #8]
	b	.LBBfcd79e1b_7
.LBBfcd79e1b_4:
	sub	x1, x29, #1
.LBBfcd79e1b_5:
	lsr	w9, w21, #6
	lsr	w10, w21, #24
	ubfiz	w11, w26, #4, #1
	mov	x8, xzr
	cmp	x20, #39
	stp	x1, xzr, [x29, #-32]
	and	w9, w9, #0xc
	stur	x20, [x29, #-16]
	orr	w9, w9, #0x2
	stp	x24, x25, [sp, #24]
	lsl	x9, x9, #56
	str	x23, [sp, #40]
	orr	x9, x9, x10, lsl #48
	add	w10, w11, w21, lsr #16
	lsl	w11, w21, #24
	bfi	x9, x10, #40, #8
	mov	w10, #266
	movk	w10, #7, lsl #16
	orr	x10, x11, x10
	orr	x9, x9, x10
	stp	x9, x22, [sp, #8]
	b.ls	.LBBfcd79e1b_8
.LBBfcd79e1b_6:
	add	x9, x1, x8
	add	x10, sp, #8
	ldur	q0, [sp, #24]
	ldur	q1, [sp, #8]
	sub	x10, x9, x10
	add	x8, x8, #40
	cmp	x10, #39
	ldr	x10, [sp, #40]
	stp	q1, q0, [x9]
	stp	x8, x20, [x29, #-24]
	ldur	q0, [x29, #-32]
	str	x10, [x9, #32]
	strh	wzr, [x19]
	str	x20, [x19, #24]
	stur	q0, [x19, #8]
.LBBfcd79e1b_7:
	ldp	x20, x19, [sp, #144]
	ldp	x22, x21, [sp, #128]
	ldp	x24, x23, [sp, #112]
	ldp	x26, x25, [sp, #96]
	ldp	x29, x30, [sp, #80]
	add	sp, sp, #160
	ret
.LBBfcd79e1b_8:
	sub	x0, x29, #32
	mov	w1, #40
	bl	std_alloc.vec.Vec.grow_amortized.d7da23479759cf44
	cbz	w0, .LBBfcd79e1b_10
	ldp	x8, x20, [x29, #-24]
	ldur	x1, [x29, #-32]
	b	.LBBfcd79e1b_6
.LBBfcd79e1b_10:
	ldur	x8, [x29, #-16]
	cbz	x8, .LBBfcd79e1b_3
	ldur	x0, [x29, #-32]
	bl	rattle_dealloc
	b	.LBBfcd79e1b_3
.Lfunc_endfcd79e1b:
	.size	hll_registers.preamble.Preamble.start_image.f8e44fc08f8602d9, .Lfunc_endfcd79e1b-hll_registers.preamble.Preamble.start_image.f8e44fc08f8602d9

	.section	.text.hll_kernels.kernels.zeros_in,"ax",@progbits
	.p2align	2
	.type	hll_kernels.kernels.zeros_in,@function
hll_kernels.kernels.zeros_in:
	movi	v2.2d, #0000000000000000
	movi	v3.2d, #0000000000000000
	lsr	x9, x1, #6
	movi	v1.2d, #0000000000000000
	movi	v0.2d, #0000000000000000
	and	x8, x1, #0x3f
	cbz	x9, .LBB5d47c0fe_3
	mov	x10, x0
.LBB5d47c0fe_2:
	ldp	q5, q4, [x10, #16]
	subs	x9, x9, #1
	ldr	q6, [x10]
	ldr	q7, [x10, #48]
	add	x10, x10, #64
	cmeq	v4.16b, v4.16b, #0
	cmeq	v7.16b, v7.16b, #0
	cmeq	v6.16b, v6.16b, #0
	cmeq	v5.16b, v5.16b, #0
	sub	v1.16b, v1.16b, v4.16b
	sub	v2.16b, v2.16b, v6.16b
	sub	v0.16b, v0.16b, v7.16b
	sub	v3.16b, v3.16b, v5.16b
	b.ne	.LBB5d47c0fe_2
.LBB5d47c0fe_3:
	cbz	x8, .LBB5d47c0fe_6
	cmp	x8, #4
	and	x9, x1, #0xffffffffffffffc0
	b.hs	.LBB5d47c0fe_7
	mov	x12, xzr
	mov	x10, xzr
	b	.LBB5d47c0fe_16
.LBB5d47c0fe_6:
	mov	x12, xzr
	b	.LBB5d47c0fe_18
.LBB5d47c0fe_7:
	cmp	x8, #16
	b.hs	.LBB5d47c0fe_9
	mov	x10, xzr
	mov	x12, xzr
	b	.LBB5d47c0fe_13
.LBB5d47c0fe_9:
	movi	v4.2d, #0000000000000000
	movi	v5.2d, #0000000000000000
	add	x12, x9, x0
	movi	v7.2d, #0000000000000000
	movi	v6.2d, #0000000000000000
	and	x11, x1, #0xc
	movi	v16.2d, #0000000000000000
	movi	v17.2d, #0000000000000000
	and	x10, x1, #0x30
	movi	v18.2d, #0000000000000000
	movi	v19.2d, #0000000000000000
	add	x12, x12, #8
	and	x13, x1, #0x30
.LBB5d47c0fe_10:
	ldp	d20, d21, [x12, #-8]
	mov	w14, #1
	dup	v24.2d, x14
	subs	x13, x13, #16
	add	x12, x12, #16
	cmeq	v20.8b, v20.8b, #0
	cmeq	v21.8b, v21.8b, #0
	ushll	v20.8h, v20.8b, #0
	ushll	v21.8h, v21.8b, #0
	ushll2	v22.4s, v20.8h, #0
	ushll	v20.4s, v20.4h, #0
	ushll2	v23.4s, v21.8h, #0
	ushll	v21.4s, v21.4h, #0
	ushll	v25.2d, v22.2s, #0
	ushll2	v22.2d, v22.4s, #0
	ushll	v26.2d, v20.2s, #0
	ushll2	v20.2d, v20.4s, #0
	ushll2	v27.2d, v23.4s, #0
	ushll	v28.2d, v21.2s, #0
	ushll2	v21.2d, v21.4s, #0
	ushll	v23.2d, v23.2s, #0
	and	v25.16b, v25.16b, v24.16b
	and	v22.16b, v22.16b, v24.16b
	and	v26.16b, v26.16b, v24.16b
	and	v20.16b, v20.16b, v24.16b
	and	v27.16b, v27.16b, v24.16b
	and	v28.16b, v28.16b, v24.16b
	and	v21.16b, v21.16b, v24.16b
	and	v23.16b, v23.16b, v24.16b
	add	v16.2d, v16.2d, v22.2d
	add	v6.2d, v6.2d, v25.2d
	add	v5.2d, v5.2d, v26.2d
	add	v7.2d, v7.2d, v20.2d
	add	v19.2d, v19.2d, v27.2d
	add	v17.2d, v17.2d, v28.2d
	add	v18.2d, v18.2d, v23.2d
	add	v4.2d, v4.2d, v21.2d
	b.ne	.LBB5d47c0fe_10
	add	v4.2d, v4.2d, v7.2d
	add	v7.2d, v19.2d, v16.2d
	cmp	x8, x10
	add	v5.2d, v17.2d, v5.2d
	add	v6.2d, v18.2d, v6.2d
	add	v4.2d, v4.2d, v7.2d
	add	v5.2d, v5.2d, v6.2d
	add	v4.2d, v5.2d, v4.2d
	addp	d4, v4.2d
	fmov	x12, d4
	b.eq	.LBB5d47c0fe_18
	cbz	x11, .LBB5d47c0fe_16
.LBB5d47c0fe_13:
	movi	v4.2d, #0000000000000000
	movi	v5.2d, #0000000000000000
	mov	x11, x10
	and	x10, x1, #0x3c
	mov	v4.d[0], x12
	add	x12, x11, x9
	sub	x11, x11, x10
	add	x12, x0, x12
.LBB5d47c0fe_14:
	ldr	s6, [x12], #4
	mov	w13, #1
	dup	v16.2d, x13
	adds	x11, x11, #4
	ushll	v6.8h, v6.8b, #0
	cmeq	v6.4h, v6.4h, #0
	ushll	v6.4s, v6.4h, #0
	ushll	v7.2d, v6.2s, #0
	ushll2	v6.2d, v6.4s, #0
	and	v7.16b, v7.16b, v16.16b
	and	v6.16b, v6.16b, v16.16b
	add	v5.2d, v5.2d, v6.2d
	add	v4.2d, v4.2d, v7.2d
	b.ne	.LBB5d47c0fe_14
	add	v4.2d, v4.2d, v5.2d
	cmp	x8, x10
	addp	d4, v4.2d
	fmov	x12, d4
	b.eq	.LBB5d47c0fe_18
.LBB5d47c0fe_16:
	add	x9, x10, x9
	sub	x8, x8, x10
	add	x9, x0, x9
.LBB5d47c0fe_17:
	ldrb	w10, [x9], #1
	cmp	w10, #0
	cinc	x12, x12, eq
	subs	x8, x8, #1
	b.ne	.LBB5d47c0fe_17
.LBB5d47c0fe_18:
	ushll	v4.8h, v2.8b, #0
	ushll2	v2.8h, v2.16b, #0
	ushll	v5.8h, v3.8b, #0
	ushll2	v3.8h, v3.16b, #0
	addp	v2.8h, v4.8h, v2.8h
	ushll	v4.8h, v1.8b, #0
	ushll2	v1.8h, v1.16b, #0
	addp	v3.8h, v5.8h, v3.8h
	ushll	v5.8h, v0.8b, #0
	ushll2	v0.8h, v0.16b, #0
	addp	v1.8h, v4.8h, v1.8h
	uaddlp	v2.4s, v2.8h
	addp	v0.8h, v5.8h, v0.8h
	uaddlp	v3.4s, v3.8h
	uadalp	v2.4s, v1.8h
	uadalp	v3.4s, v0.8h
	add	v0.4s, v2.4s, v3.4s
	addv	s0, v0.4s
	fmov	w8, s0
	add	x0, x12, x8
	ret
.Lfunc_end5d47c0fe:
	.size	hll_kernels.kernels.zeros_in, .Lfunc_end5d47c0fe-hll_kernels.kernels.zeros_in

	.section	.text.hll_text.refusal.write_number.03326aa510967ad1,"ax",@progbits
	.p2align	2
	.type	hll_text.refusal.write_number.03326aa510967ad1,@function
hll_text.refusal.write_number.03326aa510967ad1:
	sub	sp, sp, #128
	mov	x9, #-3689348814741910324
	mov	x8, x1
	stp	x29, x30, [sp, #96]
	movk	x9, #52429
	str	x19, [sp, #112]
	add	x29, sp, #96
	umulh	x9, x1, x9
	mov	x19, x0
	cmp	x1, #10
	strb	wzr, [x29, #26]
	strh	wzr, [x29, #24]
	lsr	x1, x9, #3
	mov	w9, #10
	msub	w9, w1, w9, w8
	orr	w9, w9, #0x30
	strb	w9, [x29, #28]
	b.lo	.LBB99ff8a6f_3
	add	x0, x29, #24
	bl	hll_text.refusal.write_number.03326aa510967ad1
	ldrb	w8, [x29, #24]
	cbz	w8, .LBB99ff8a6f_3
	ldurh	w8, [x29, #25]
	mov	w9, #1
	strb	w9, [x19]
	sturh	w8, [x19, #1]
	ldp	x29, x30, [sp, #96]
	ldr	x19, [sp, #112]
	add	sp, sp, #128
	ret
.LBB99ff8a6f_3:
	add	x1, x29, #28
	mov	w0, #2
	mov	w2, #1
	bl	write
	tbnz	x0, #63, .LBB99ff8a6f_5
	cmp	x0, #0
	mov	w8, #7
	cset	w9, eq
	csel	w8, w8, wzr, eq
	b	.LBB99ff8a6f_6
.LBB99ff8a6f_5:
	add	x0, sp, #8
	bl	std_io.io.error.last_error
	mov	w8, #7
	mov	w9, #1
.LBB99ff8a6f_6:
	strb	w9, [x19]
	strb	w8, [x19, #1]
	strb	wzr, [x19, #2]
	ldp	x29, x30, [sp, #96]
	ldr	x19, [sp, #112]
	add	sp, sp, #128
	ret
.Lfunc_end99ff8a6f:
	.size	hll_text.refusal.write_number.03326aa510967ad1, .Lfunc_end99ff8a6f-hll_text.refusal.write_number.03326aa510967ad1

	.section	.rodata.cst16,"aM",@progbits,16
	.p2align	4, 0x0
.LCPI0d6e4079_0:
	.byte	1
	.byte	2
	.byte	4
	.byte	8
	.byte	16
	.byte	32
	.byte	64
	.byte	128
	.byte	1
	.byte	2
	.byte	4
	.byte	8
	.byte	16
	.byte	32
	.byte	64
	.byte	128
	.section	.text.main,"ax",@progbits
	.globl	main
	.p2align	2
	.type	main,@function
main:
	stp	x29, x30, [sp, #-96]!
	sub	x9, sp, #15, lsl #12
	stp	x28, x27, [sp, #16]
	mov	x29, sp
	sub	x9, x9, #3072
	stp	x26, x25, [sp, #32]
	stp	x24, x23, [sp, #48]
	stp	x22, x21, [sp, #64]
	stp	x20, x19, [sp, #80]
.LBB0d6e4079_1:
	sub	sp, sp, #3072
	cmp	sp, x9
	str	xzr, [sp]
	b.ne	.LBB0d6e4079_1
	sub	sp, sp, #1200
	mov	w0, #13
	mov	w1, #1
	str	xzr, [sp]
	sub	x23, x29, #96
	bl	__sysv_signal
	sub	x21, x29, #1
	add	x0, sp, #80
	mov	w1, wzr
	mov	w2, #65536
	stp	xzr, xzr, [sp, #8]
	add	x24, sp, #24
	stp	xzr, xzr, [sp, #40]
	stp	xzr, xzr, [sp, #64]
	stp	x21, xzr, [sp, #24]
	str	x21, [sp, #56]
	bl	memset
	mov	x22, xzr
	mov	x20, xzr
	mov	x25, xzr
	b	.LBB0d6e4079_5
.LBB0d6e4079_3:
	add	x0, x21, x26
	mov	x1, x20
	mov	x2, x19
	bl	memmove
.LBB0d6e4079_4:
	add	x20, x26, x19
	cmn	x25, #1
	stp	x20, x22, [sp, #32]
	b.eq	.LBB0d6e4079_65
.LBB0d6e4079_5:
	add	x1, sp, #80
	mov	w0, wzr
	mov	w2, #65536
	bl	read
	tbnz	x0, #63, .LBB0d6e4079_64
	cbz	x0, .LBB0d6e4079_70
	cmp	x0, #16, lsl #12
	mov	w8, #65536
	add	x25, x25, #1
	csel	x19, x0, x8, lo
	add	x20, sp, #80
.LBB0d6e4079_8:
	lsr	x8, x19, #6
	cbz	x8, .LBB0d6e4079_12
	mov	x9, xzr
	mov	x10, x20
.LBB0d6e4079_10:
	movi	v0.16b, #10
	ldp	q1, q4, [x10]
	ldp	q3, q2, [x10, #32]
	adrp	x11, .LCPI0d6e4079_0
	cmeq	v2.16b, v2.16b, v0.16b
	cmeq	v1.16b, v1.16b, v0.16b
	cmeq	v3.16b, v3.16b, v0.16b
	cmeq	v0.16b, v4.16b, v0.16b
	ldr	q4, [x11, :lo12:.LCPI0d6e4079_0]
	and	v1.16b, v1.16b, v4.16b
	and	v3.16b, v3.16b, v4.16b
	and	v2.16b, v2.16b, v4.16b
	and	v0.16b, v0.16b, v4.16b
	addp	v0.16b, v1.16b, v0.16b
	addp	v1.16b, v3.16b, v2.16b
	addp	v0.16b, v0.16b, v1.16b
	addp	v0.16b, v0.16b, v0.16b
	fmov	x11, d0
	cbnz	x11, .LBB0d6e4079_16
	sub	x8, x8, #1
	sub	x9, x9, #64
	add	x10, x10, #64
	cbnz	x8, .LBB0d6e4079_10
.LBB0d6e4079_12:
	ands	x8, x19, #0x3f
	b.eq	.LBB0d6e4079_42
	and	x21, x19, #0xffffffffffffffc0
.LBB0d6e4079_14:
	ldrb	w9, [x20, x21]
	cmp	w9, #10
	b.eq	.LBB0d6e4079_17
	subs	x8, x8, #1
	add	x21, x21, #1
	b.ne	.LBB0d6e4079_14
	b	.LBB0d6e4079_42
.LBB0d6e4079_16:
	rbit	x8, x11
	clz	x8, x8
	sub	x21, x8, x9
.LBB0d6e4079_17:
	ldp	x27, x26, [sp, #32]
	strb	wzr, [x23, #2]
	strh	wzr, [x23]
	sub	x8, x26, x27
	cmp	x21, x8
	b.hi	.LBB0d6e4079_33
	ldr	x22, [sp, #24]
	add	x8, x22, x27
	sub	x8, x8, x20
	cmp	x8, x21
	b.hs	.LBB0d6e4079_35
.LBB0d6e4079_19:
	cmp	x21, #8
	b.lo	.LBB0d6e4079_21
	add	x8, x27, x22
	sub	x8, x8, x20
	cmp	x8, #32
	b.hs	.LBB0d6e4079_24
.LBB0d6e4079_21:
	mov	x8, xzr
.LBB0d6e4079_22:
	add	x10, x8, x27
	sub	x9, x21, x8
	add	x8, x20, x8
	add	x10, x22, x10
.LBB0d6e4079_23:
	ldrb	w11, [x8], #1
	subs	x9, x9, #1
	strb	w11, [x10], #1
	b.ne	.LBB0d6e4079_23
	b	.LBB0d6e4079_36
.LBB0d6e4079_24:
	cmp	x21, #32
	b.hs	.LBB0d6e4079_26
	mov	x8, xzr
	b	.LBB0d6e4079_30
.LBB0d6e4079_26:
	add	x11, x22, x27
	and	x9, x21, #0x18
	and	x8, x21, #0xffffffffffffffe0
	add	x10, x20, #16
	add	x11, x11, #16
	and	x12, x21, #0xffffffffffffffe0
.LBB0d6e4079_27:
	ldp	q0, q1, [x10, #-16]
	subs	x12, x12, #32
	add	x10, x10, #32
	stp	q0, q1, [x11, #-16]
	add	x11, x11, #32
	b.ne	.LBB0d6e4079_27
	cmp	x21, x8
	b.eq	.LBB0d6e4079_36
	cbz	x9, .LBB0d6e4079_22
.LBB0d6e4079_30:
	mov	x10, x8
	and	x8, x21, #0xfffffffffffffff8
	add	x11, x27, x10
	sub	x9, x10, x8
	add	x10, x20, x10
	add	x11, x22, x11
.LBB0d6e4079_31:
	ldr	d0, [x10], #8
	adds	x9, x9, #8
	str	d0, [x11], #8
	b.ne	.LBB0d6e4079_31
	cmp	x21, x8
	b.eq	.LBB0d6e4079_36
	b	.LBB0d6e4079_22
.LBB0d6e4079_33:
	add	x0, sp, #24
	mov	x1, x21
	bl	std_alloc.vec.Vec.grow_amortized.d7da23479759cf44
	cbz	w0, .LBB0d6e4079_103
	ldp	x27, x26, [sp, #32]
	ldr	x22, [sp, #24]
	add	x8, x22, x27
	sub	x8, x8, x20
	cmp	x8, x21
	b.lo	.LBB0d6e4079_19
.LBB0d6e4079_35:
	add	x0, x22, x27
	mov	x1, x20
	mov	x2, x21
	bl	memmove
.LBB0d6e4079_36:
	ldr	x9, [sp, #48]
	add	x8, x27, x21
	stp	x8, x26, [sp, #32]
	adds	x9, x9, #1
	csinv	x9, x9, xzr, lo
	str	x9, [sp, #48]
	cbz	x8, .LBB0d6e4079_38
	sub	x9, x8, #1
	ldrb	w10, [x22, x9]
	cmp	w10, #13
	csel	x3, x9, x8, eq
	b	.LBB0d6e4079_39
.LBB0d6e4079_38:
	mov	x3, xzr
.LBB0d6e4079_39:
	add	x8, x21, #1
	sub	x0, x29, #96
	add	x1, x24, #32
	add	x4, sp, #8
	mov	x2, x22
	add	x20, x20, x8
	sub	x19, x19, x8
	bl	hll_estimator_fields.filter.pass_line.bc2b42e629227ff0
	ldrb	w8, [x23]
	cbz	w8, .LBB0d6e4079_41
	cmp	w8, #1
	b.ne	.LBB0d6e4079_8
	b	.LBB0d6e4079_60
.LBB0d6e4079_41:
	str	xzr, [sp, #32]
	b	.LBB0d6e4079_8
.LBB0d6e4079_42:
	ldp	x26, x22, [sp, #32]
	sub	x8, x22, x26
	cmp	x19, x8
	b.hi	.LBB0d6e4079_58
	ldr	x21, [sp, #24]
	add	x8, x21, x26
	sub	x8, x8, x20
	cmp	x8, x19
	b.hs	.LBB0d6e4079_3
.LBB0d6e4079_44:
	cmp	x19, #8
	b.lo	.LBB0d6e4079_46
	add	x8, x26, x21
	sub	x8, x8, x20
	cmp	x8, #32
	b.hs	.LBB0d6e4079_49
.LBB0d6e4079_46:
	mov	x8, xzr
.LBB0d6e4079_47:
	add	x10, x8, x26
	sub	x9, x19, x8
	add	x8, x20, x8
	add	x10, x21, x10
.LBB0d6e4079_48:
	ldrb	w11, [x8], #1
	subs	x9, x9, #1
	strb	w11, [x10], #1
	b.ne	.LBB0d6e4079_48
	b	.LBB0d6e4079_4
.LBB0d6e4079_49:
	cmp	x19, #32
	b.hs	.LBB0d6e4079_51
	mov	x8, xzr
	b	.LBB0d6e4079_55
.LBB0d6e4079_51:
	add	x11, x21, x26
	and	x9, x19, #0x18
	and	x8, x19, #0xffffffffffffffe0
	add	x10, x20, #16
	add	x11, x11, #16
	and	x12, x19, #0xffffffffffffffe0
.LBB0d6e4079_52:
	ldp	q0, q1, [x10, #-16]
	subs	x12, x12, #32
	add	x10, x10, #32
	stp	q0, q1, [x11, #-16]
	add	x11, x11, #32
	b.ne	.LBB0d6e4079_52
	cmp	x19, x8
	b.eq	.LBB0d6e4079_4
	cbz	x9, .LBB0d6e4079_47
.LBB0d6e4079_55:
	mov	x10, x8
	and	x8, x19, #0xfffffffffffffff8
	add	x11, x26, x10
	sub	x9, x10, x8
	add	x10, x20, x10
	add	x11, x21, x11
.LBB0d6e4079_56:
	ldr	d0, [x10], #8
	adds	x9, x9, #8
	str	d0, [x11], #8
	b.ne	.LBB0d6e4079_56
	cmp	x19, x8
	b.eq	.LBB0d6e4079_4
	b	.LBB0d6e4079_47
.LBB0d6e4079_58:
	add	x0, sp, #24
	mov	x1, x19
	bl	std_alloc.vec.Vec.grow_amortized.d7da23479759cf44
	cbz	w0, .LBB0d6e4079_103
	ldp	x26, x22, [sp, #32]
	ldr	x21, [sp, #24]
	add	x8, x21, x26
	sub	x8, x8, x20
	cmp	x8, x19
	b.hs	.LBB0d6e4079_3
	b	.LBB0d6e4079_44
.LBB0d6e4079_60:
	ldrb	w25, [x23, #1]
	ldrb	w24, [x23, #2]
	ldp	x8, x19, [sp, #40]
	cbz	x8, .LBB0d6e4079_62
.LBB0d6e4079_61:
	ldr	x0, [sp, #24]
	bl	rattle_dealloc
.LBB0d6e4079_62:
	ldr	x8, [sp, #72]
	cbz	x8, .LBB0d6e4079_77
	ldr	x0, [sp, #56]
	b	.LBB0d6e4079_76
.LBB0d6e4079_64:
	sub	x0, x29, #96
	bl	std_io.io.error.last_error
.LBB0d6e4079_65:
	ldr	x19, [sp, #48]
	cbz	x22, .LBB0d6e4079_67
	mov	x0, x21
	bl	rattle_dealloc
.LBB0d6e4079_67:
	ldr	x8, [sp, #72]
	cbz	x8, .LBB0d6e4079_69
	ldr	x0, [sp, #56]
	bl	rattle_dealloc
.LBB0d6e4079_69:
	mov	w24, wzr
	mov	w25, #6
	mov	x21, xzr
	b	.LBB0d6e4079_78
.LBB0d6e4079_70:
	ldur	q0, [x24, #32]
	ldur	x9, [x24, #48]
	ldr	x8, [sp, #48]
	strb	wzr, [x23, #2]
	strh	wzr, [x23]
	str	q0, [sp, #80]
	str	x9, [sp, #96]
	cbz	x20, .LBB0d6e4079_95
	adds	x8, x8, #1
	sub	x0, x29, #96
	add	x1, sp, #80
	add	x4, sp, #8
	mov	x2, x21
	mov	x3, x20
	csinv	x19, x8, xzr, lo
	bl	hll_estimator_fields.filter.pass_line.bc2b42e629227ff0
	ldrb	w8, [x23]
	cbz	w8, .LBB0d6e4079_99
	ldr	x8, [sp, #96]
	ldrb	w25, [x23, #1]
	ldrb	w24, [x23, #2]
	cbz	x8, .LBB0d6e4079_74
	ldr	x0, [sp, #80]
	bl	rattle_dealloc
.LBB0d6e4079_74:
	cbz	x22, .LBB0d6e4079_77
	mov	x0, x21
.LBB0d6e4079_76:
	bl	rattle_dealloc
.LBB0d6e4079_77:
	mov	x21, xzr
.LBB0d6e4079_78:
	mov	w8, #5
	adrp	x9, .Lstatic.3
	add	x9, x9, :lo12:.Lstatic.3
	sub	x20, x8, x21
	add	x1, x9, x21
	mov	w0, #2
	mov	x2, x20
	bl	write
	tbnz	x0, #63, .LBB0d6e4079_143
	cmp	x0, x20
	csel	x8, x0, x20, lo
	cbz	x8, .LBB0d6e4079_144
	add	x21, x8, x21
	cmp	x21, #4
	b.ls	.LBB0d6e4079_78
	sub	x0, x29, #96
	mov	x1, x19
	bl	hll_text.refusal.write_number.03326aa510967ad1
	ldrb	w8, [x23]
	cbnz	w8, .LBB0d6e4079_144
	adrp	x1, .Lstatic.4
	add	x1, x1, :lo12:.Lstatic.4
	mov	w0, #2
	mov	w2, #2
	bl	write
	tbnz	x0, #63, .LBB0d6e4079_143
	cbz	x0, .LBB0d6e4079_144
	cmp	x0, #1
	b.ne	.LBB0d6e4079_87
	adrp	x1, .Lstatic.4+1
	add	x1, x1, :lo12:.Lstatic.4+1
	mov	w0, #2
	mov	w2, #1
	bl	write
	tbnz	x0, #63, .LBB0d6e4079_143
	cbz	x0, .LBB0d6e4079_144
.LBB0d6e4079_87:
	cmp	w25, #3
	b.le	.LBB0d6e4079_104
	cmp	w25, #5
	b.le	.LBB0d6e4079_117
	cmp	w25, #6
	b.eq	.LBB0d6e4079_122
	cmp	w25, #7
	b.ne	.LBB0d6e4079_134
	mov	x20, xzr
.LBB0d6e4079_92:
	mov	w8, #5
	adrp	x9, .Lstatic.12
	add	x9, x9, :lo12:.Lstatic.12
	sub	x19, x8, x20
	add	x1, x9, x20
	mov	w0, #2
	mov	x2, x19
	bl	write
	tbnz	x0, #63, .LBB0d6e4079_143
	cmp	x0, x19
	csel	x8, x0, x19, lo
	cbz	x8, .LBB0d6e4079_144
	add	x20, x8, x20
	cmp	x20, #4
	b.ls	.LBB0d6e4079_92
	b	.LBB0d6e4079_142
.LBB0d6e4079_95:
	ldr	x8, [sp, #96]
	cbz	x8, .LBB0d6e4079_97
	ldr	x0, [sp, #80]
	bl	rattle_dealloc
.LBB0d6e4079_97:
	cbz	x22, .LBB0d6e4079_102
.LBB0d6e4079_98:
	mov	x0, x21
	bl	rattle_dealloc
	mov	w0, wzr
	b	.LBB0d6e4079_145
.LBB0d6e4079_99:
	ldr	x8, [sp, #96]
	cbz	x8, .LBB0d6e4079_101
	ldr	x0, [sp, #80]
	bl	rattle_dealloc
.LBB0d6e4079_101:
	cbnz	x22, .LBB0d6e4079_98
.LBB0d6e4079_102:
	mov	w0, wzr
	b	.LBB0d6e4079_145
.LBB0d6e4079_103:
	ldp	x8, x19, [sp, #40]
	mov	w24, wzr
	mov	w25, #5
	cbnz	x8, .LBB0d6e4079_61
	b	.LBB0d6e4079_62
.LBB0d6e4079_104:
	cmp	w25, #1
	b.gt	.LBB0d6e4079_112
	mov	x20, xzr
	cbnz	w25, .LBB0d6e4079_109
.LBB0d6e4079_106:
	mov	w8, #6
	adrp	x9, .Lstatic.5
	add	x9, x9, :lo12:.Lstatic.5
	sub	x19, x8, x20
	add	x1, x9, x20
	mov	w0, #2
	mov	x2, x19
	bl	write
	tbnz	x0, #63, .LBB0d6e4079_143
	cmp	x0, x19
	csel	x8, x0, x19, lo
	cbz	x8, .LBB0d6e4079_144
	add	x20, x8, x20
	cmp	x20, #5
	b.ls	.LBB0d6e4079_106
	b	.LBB0d6e4079_142
.LBB0d6e4079_109:
	mov	w8, #5
	adrp	x9, .Lstatic.6
	add	x9, x9, :lo12:.Lstatic.6
	sub	x19, x8, x20
	add	x1, x9, x20
	mov	w0, #2
	mov	x2, x19
	bl	write
	tbnz	x0, #63, .LBB0d6e4079_143
	cmp	x0, x19
	csel	x8, x0, x19, lo
	cbz	x8, .LBB0d6e4079_144
	add	x20, x8, x20
	cmp	x20, #4
	b.ls	.LBB0d6e4079_109
	b	.LBB0d6e4079_142
.LBB0d6e4079_112:
	cmp	w25, #2
	b.ne	.LBB0d6e4079_126
	mov	x20, xzr
.LBB0d6e4079_114:
	mov	w8, #3
	adrp	x9, .Lstatic.7
	add	x9, x9, :lo12:.Lstatic.7
	sub	x19, x8, x20
	add	x1, x9, x20
	mov	w0, #2
	mov	x2, x19
	bl	write
	tbnz	x0, #63, .LBB0d6e4079_143
	cmp	x0, x19
	csel	x8, x0, x19, lo
	cbz	x8, .LBB0d6e4079_144
	add	x20, x8, x20
	cmp	x20, #2
	b.ls	.LBB0d6e4079_114
	b	.LBB0d6e4079_142
.LBB0d6e4079_117:
	cmp	w25, #4
	b.ne	.LBB0d6e4079_138
	mov	x20, xzr
.LBB0d6e4079_119:
	mov	w8, #5
	adrp	x9, .Lstatic.9
	add	x9, x9, :lo12:.Lstatic.9
	sub	x19, x8, x20
	add	x1, x9, x20
	mov	w0, #2
	mov	x2, x19
	bl	write
	tbnz	x0, #63, .LBB0d6e4079_143
	cmp	x0, x19
	csel	x8, x0, x19, lo
	cbz	x8, .LBB0d6e4079_144
	add	x20, x8, x20
	cmp	x20, #4
	b.ls	.LBB0d6e4079_119
	b	.LBB0d6e4079_142
.LBB0d6e4079_122:
	mov	x20, xzr
.LBB0d6e4079_123:
	mov	w8, #4
	adrp	x9, .Lstatic.11
	add	x9, x9, :lo12:.Lstatic.11
	sub	x19, x8, x20
	add	x1, x9, x20
	mov	w0, #2
	mov	x2, x19
	bl	write
	tbnz	x0, #63, .LBB0d6e4079_143
	cmp	x0, x19
	csel	x8, x0, x19, lo
	cbz	x8, .LBB0d6e4079_144
	add	x20, x8, x20
	cmp	x20, #3
	b.ls	.LBB0d6e4079_123
	b	.LBB0d6e4079_142
.LBB0d6e4079_126:
	mov	x20, xzr
.LBB0d6e4079_127:
	mov	w8, #6
	adrp	x9, .Lstatic.8
	add	x9, x9, :lo12:.Lstatic.8
	sub	x19, x8, x20
	add	x1, x9, x20
	mov	w0, #2
	mov	x2, x19
	bl	write
	tbnz	x0, #63, .LBB0d6e4079_143
	cmp	x0, x19
	csel	x8, x0, x19, lo
	cbz	x8, .LBB0d6e4079_144
	add	x20, x8, x20
	cmp	x20, #5
	b.ls	.LBB0d6e4079_127
	adrp	x8, .Lswitch.table.main.237.rel
	add	x8, x8, :lo12:.Lswitch.table.main.237.rel
	adrp	x10, .Lswitch.table.main
	add	x10, x10, :lo12:.Lswitch.table.main
	ldrsw	x9, [x8, w24, uxtw #2]
	mov	x19, xzr
	ldr	x20, [x10, w24, uxtw #3]
	add	x21, x8, x9
.LBB0d6e4079_131:
	add	x1, x21, x19
	sub	x2, x20, x19
	mov	w0, #2
	sub	x22, x20, x19
	bl	write
	tbnz	x0, #63, .LBB0d6e4079_143
	cmp	x0, x22
	csel	x8, x0, x22, lo
	cbz	x8, .LBB0d6e4079_144
	add	x19, x8, x19
	cmp	x19, x20
	b.lo	.LBB0d6e4079_131
	b	.LBB0d6e4079_142
.LBB0d6e4079_134:
	mov	x20, xzr
.LBB0d6e4079_135:
	mov	w8, #4
	adrp	x9, .Lstatic.13
	add	x9, x9, :lo12:.Lstatic.13
	sub	x19, x8, x20
	add	x1, x9, x20
	mov	w0, #2
	mov	x2, x19
	bl	write
	tbnz	x0, #63, .LBB0d6e4079_143
	cmp	x0, x19
	csel	x8, x0, x19, lo
	cbz	x8, .LBB0d6e4079_144
	add	x20, x8, x20
	cmp	x20, #3
	b.ls	.LBB0d6e4079_135
	b	.LBB0d6e4079_142
.LBB0d6e4079_138:
	mov	x20, xzr
.LBB0d6e4079_139:
	mov	w8, #6
	adrp	x9, .Lstatic.10
	add	x9, x9, :lo12:.Lstatic.10
	sub	x19, x8, x20
	add	x1, x9, x20
	mov	w0, #2
	mov	x2, x19
	bl	write
	tbnz	x0, #63, .LBB0d6e4079_143
	cmp	x0, x19
	csel	x8, x0, x19, lo
	cbz	x8, .LBB0d6e4079_144
	add	x20, x8, x20
	cmp	x20, #5
	b.ls	.LBB0d6e4079_139
.LBB0d6e4079_142:
	adrp	x1, .Lstatic.1
	add	x1, x1, :lo12:.Lstatic.1
	mov	w0, #2
	mov	w2, #1
	bl	write
	tbz	x0, #63, .LBB0d6e4079_144
.LBB0d6e4079_143:
	add	x0, sp, #80
	bl	std_io.io.error.last_error
.LBB0d6e4079_144:
	mov	w0, #1
.LBB0d6e4079_145:
	add	sp, sp, #16, lsl #12
	add	sp, sp, #176
	ldp	x20, x19, [sp, #80]
	ldp	x22, x21, [sp, #64]
	ldp	x24, x23, [sp, #48]
	ldp	x26, x25, [sp, #32]
	ldp	x28, x27, [sp, #16]
	ldp	x29, x30, [sp], #96
	ret
.Lfunc_end0d6e4079:
	.size	main, .Lfunc_end0d6e4079-main

	.type	.Lstatic.1,@object
	.section	.rodata..Lstatic.1,"a",@progbits
.Lstatic.1:
	.byte	10
	.size	.Lstatic.1, 1

	.type	.Lstatic.2,@object
	.section	.rodata.cst16,"aM",@progbits,16
.Lstatic.2:
	.ascii	"0123456789abcdef"
	.size	.Lstatic.2, 16

	.type	.Lstatic.3,@object
	.section	.rodata..Lstatic.3,"a",@progbits
.Lstatic.3:
	.ascii	"line "
	.size	.Lstatic.3, 5

	.type	.Lstatic.4,@object
	.section	.rodata..Lstatic.4,"a",@progbits
.Lstatic.4:
	.ascii	": "
	.size	.Lstatic.4, 2

	.type	.Lstatic.5,@object
	.section	.rodata..Lstatic.5,"a",@progbits
.Lstatic.5:
	.ascii	"syntax"
	.size	.Lstatic.5, 6

	.type	.Lstatic.6,@object
	.section	.rodata..Lstatic.6,"a",@progbits
.Lstatic.6:
	.ascii	"range"
	.size	.Lstatic.6, 5

	.type	.Lstatic.7,@object
	.section	.rodata..Lstatic.7,"a",@progbits
.Lstatic.7:
	.ascii	"hex"
	.size	.Lstatic.7, 3

	.type	.Lstatic.8,@object
	.section	.rodata..Lstatic.8,"a",@progbits
.Lstatic.8:
	.ascii	"image "
	.size	.Lstatic.8, 6

	.type	.Lstatic.9,@object
	.section	.rodata..Lstatic.9,"a",@progbits
.Lstatic.9:
	.ascii	"stack"
	.size	.Lstatic.9, 5

	.type	.Lstatic.10,@object
	.section	.rodata..Lstatic.10,"a",@progbits
.Lstatic.10:
	.ascii	"memory"
	.size	.Lstatic.10, 6

	.type	.Lstatic.11,@object
	.section	.rodata.cst4,"aM",@progbits,4
.Lstatic.11:
	.ascii	"read"
	.size	.Lstatic.11, 4

	.type	.Lstatic.12,@object
	.section	.rodata..Lstatic.12,"a",@progbits
.Lstatic.12:
	.ascii	"write"
	.size	.Lstatic.12, 5

	.type	.Lstatic.13,@object
	.section	.rodata.cst4,"aM",@progbits,4
.Lstatic.13:
	.ascii	"fold"
	.size	.Lstatic.13, 4

	.type	.Lstatic.14,@object
	.section	.rodata..Lstatic.14,"a",@progbits
.Lstatic.14:
	.ascii	"truncated"
	.size	.Lstatic.14, 9

	.type	.Lstatic.15,@object
	.section	.rodata..Lstatic.15,"a",@progbits
.Lstatic.15:
	.ascii	"family"
	.size	.Lstatic.15, 6

	.type	.Lstatic.16,@object
	.section	.rodata..Lstatic.16,"a",@progbits
.Lstatic.16:
	.ascii	"version"
	.size	.Lstatic.16, 7

	.type	.Lstatic.17,@object
	.section	.rodata..Lstatic.17,"a",@progbits
.Lstatic.17:
	.ascii	"lgk"
	.size	.Lstatic.17, 3

	.type	.Lstatic.18,@object
	.section	.rodata..Lstatic.18,"a",@progbits
.Lstatic.18:
	.ascii	"width"
	.size	.Lstatic.18, 5

	.type	.Lstatic.19,@object
	.section	.rodata..Lstatic.19,"a",@progbits
.Lstatic.19:
	.ascii	"stage"
	.size	.Lstatic.19, 5

	.type	.Lstatic.20,@object
	.section	.rodata..Lstatic.20,"a",@progbits
.Lstatic.20:
	.ascii	"preamble"
	.size	.Lstatic.20, 8

	.type	.Lstatic.21,@object
	.section	.rodata..Lstatic.21,"a",@progbits
.Lstatic.21:
	.ascii	"lgarr"
	.size	.Lstatic.21, 5

	.type	.Lstatic.22,@object
	.section	.rodata..Lstatic.22,"a",@progbits
.Lstatic.22:
	.ascii	"count"
	.size	.Lstatic.22, 5

	.type	.Lstatic.23,@object
	.section	.rodata..Lstatic.23,"a",@progbits
.Lstatic.23:
	.ascii	"coupon"
	.size	.Lstatic.23, 6

	.type	.Lstatic.24,@object
	.section	.rodata..Lstatic.24,"a",@progbits
.Lstatic.24:
	.ascii	"register"
	.size	.Lstatic.24, 8

	.type	.Lstatic.25,@object
	.section	.rodata..Lstatic.25,"a",@progbits
.Lstatic.25:
	.ascii	"argument"
	.size	.Lstatic.25, 8

	.type	.Lswitch.table.main,@object
	.section	.rodata..Lswitch.table.main,"a",@progbits
	.p2align	3, 0x0
.Lswitch.table.main:
	.xword	9
	.xword	6
	.xword	7
	.xword	3
	.xword	5
	.xword	5
	.xword	8
	.xword	5
	.xword	5
	.xword	6
	.xword	8
	.xword	8
	.xword	6
	.size	.Lswitch.table.main, 104

	.type	.Lswitch.table.main.237.rel,@object
	.section	.rodata..Lswitch.table.main.237.rel,"a",@progbits
	.p2align	2, 0x0
.Lswitch.table.main.237.rel:
	.word	.Lstatic.14-.Lswitch.table.main.237.rel
	.word	.Lstatic.15-.Lswitch.table.main.237.rel
	.word	.Lstatic.16-.Lswitch.table.main.237.rel
	.word	.Lstatic.17-.Lswitch.table.main.237.rel
	.word	.Lstatic.18-.Lswitch.table.main.237.rel
	.word	.Lstatic.19-.Lswitch.table.main.237.rel
	.word	.Lstatic.20-.Lswitch.table.main.237.rel
	.word	.Lstatic.21-.Lswitch.table.main.237.rel
	.word	.Lstatic.22-.Lswitch.table.main.237.rel
	.word	.Lstatic.23-.Lswitch.table.main.237.rel
	.word	.Lstatic.24-.Lswitch.table.main.237.rel
	.word	.Lstatic.25-.Lswitch.table.main.237.rel
	.word	.Lstatic.10-.Lswitch.table.main.237.rel
	.size	.Lswitch.table.main.237.rel, 52

	.ident	"rattle logic=dac8208d650f15bf3e2dc313a14fa4c783a3acf887bdfab66e1714b038d9e11b"
	.section	.note.GNU-stack,"",@progbits
